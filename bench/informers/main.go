// Follows the widgets of a server by several of client-go's informers, unmodified, while it applies and deletes them, and
// compares what each holds in the end with a list.
//
//	informers http://127.0.0.1:PORT INFORMERS WRITES A_SECOND
//
// The server has the types of examples/widgets.json, and no objects. It prints a JSON object: the seconds of the writes, and
// of each informer the seconds from the last write until it holds what the list has, and what its handlers were told. The
// status is 1 where one doesn't come to hold that. ../informers.py builds and calls it.
package main

import (
	"context"
	"encoding/json"
	"flag"
	"fmt"
	"io"
	"math/rand"
	"os"
	"reflect"
	"strconv"
	"sync"
	"time"

	apierrors "k8s.io/apimachinery/pkg/api/errors"
	metav1 "k8s.io/apimachinery/pkg/apis/meta/v1"
	"k8s.io/apimachinery/pkg/apis/meta/v1/unstructured"
	"k8s.io/apimachinery/pkg/labels"
	"k8s.io/apimachinery/pkg/runtime/schema"
	"k8s.io/apimachinery/pkg/types"
	"k8s.io/client-go/dynamic"
	"k8s.io/client-go/dynamic/dynamicinformer"
	"k8s.io/client-go/rest"
	"k8s.io/client-go/tools/cache"
	"k8s.io/klog/v2"
)

const (
	names = 200
	// of so many writes one is a deletion
	deletions = 5
	// by its own waiting client-go may list again a minute after it was cut
	longest = 3 * time.Minute
)

var widgets = schema.GroupVersionResource{Group: "demo.example", Version: "v1", Resource: "widgets"}

// objects are the widgets by name.
type objects map[string]map[string]interface{}

func must(err error) {
	if err != nil {
		fmt.Fprintln(os.Stderr, "informers:", err)
		os.Exit(1)
	}
}

func number(n int) int {
	it, err := strconv.Atoi(os.Args[n])
	must(err)
	return it
}

// silence leaves out what client-go logs: each cut and each 410 that it meets.
func silence() {
	options := flag.NewFlagSet("klog", flag.PanicOnError)
	klog.InitFlags(options)
	must(options.Set("logtostderr", "false"))
	must(options.Set("stderrthreshold", "FATAL"))
	klog.SetOutput(io.Discard)
}

func client() dynamic.ResourceInterface {
	it, err := dynamic.NewForConfig(&rest.Config{Host: os.Args[1], QPS: -1})
	must(err)
	return it.Resource(widgets).Namespace("default")
}

// follower is an informer, and what its handlers were told.
type follower struct {
	lister cache.GenericLister
	lock   sync.Mutex
	told   objects
	counts map[string]int
}

func (it *follower) tell(what string, object interface{}) {
	it.lock.Lock()
	defer it.lock.Unlock()
	it.counts[what]++
	if left, isUnseen := object.(cache.DeletedFinalStateUnknown); isUnseen {
		object = left.Obj
		it.counts["deleted unseen"]++
	}
	widget := object.(*unstructured.Unstructured)
	if what == "deleted" {
		delete(it.told, widget.GetName())
	} else {
		it.told[widget.GetName()] = widget.Object
	}
}

// begin starts an informer, which has listed then.
func begin(stop chan struct{}) *follower {
	one, err := dynamic.NewForConfig(&rest.Config{Host: os.Args[1], QPS: -1})
	must(err)
	factory := dynamicinformer.NewDynamicSharedInformerFactory(one, 0)
	informer := factory.ForResource(widgets)
	it := &follower{lister: informer.Lister(), told: objects{}, counts: map[string]int{}}
	informer.Informer().AddEventHandler(cache.ResourceEventHandlerFuncs{
		AddFunc:    func(object interface{}) { it.tell("added", object) },
		UpdateFunc: func(_, object interface{}) { it.tell("updated", object) },
		DeleteFunc: func(object interface{}) { it.tell("deleted", object) },
	})
	factory.Start(stop)
	if !cache.WaitForCacheSync(stop, informer.Informer().HasSynced) {
		must(fmt.Errorf("no list came"))
	}
	return it
}

// holds tells whether the cache has these objects, and the handlers were told of them.
func (it *follower) holds(listed objects) bool {
	cached, err := it.lister.List(labels.Everything())
	must(err)
	held := objects{}
	for _, one := range cached {
		widget := one.(*unstructured.Unstructured)
		held[widget.GetName()] = widget.Object
	}
	it.lock.Lock()
	defer it.lock.Unlock()
	return reflect.DeepEqual(held, listed) && reflect.DeepEqual(it.told, listed)
}

// write applies a widget or deletes one, and tells whether something was written.
func write(here dynamic.ResourceInterface, draws *rand.Rand, turn int) bool {
	ctx, name := context.Background(), fmt.Sprintf("w%d", draws.Intn(names))
	if draws.Intn(deletions) == 0 {
		err := here.Delete(ctx, name, metav1.DeleteOptions{})
		if !apierrors.IsNotFound(err) {
			must(err)
		}
		return err == nil
	}
	body := fmt.Sprintf(`{"apiVersion":"demo.example/v1","kind":"Widget","spec":{"image":"%d"}}`, turn)
	_, err := here.Patch(ctx, name, types.ApplyPatchType, []byte(body), metav1.PatchOptions{FieldManager: "alice"})
	must(err)
	return true
}

func list(here dynamic.ResourceInterface) objects {
	listed, err := here.List(context.Background(), metav1.ListOptions{})
	must(err)
	found := objects{}
	for _, one := range listed.Items {
		found[one.GetName()] = one.Object
	}
	return found
}

// until waits until an informer holds what a list has, and tells after how many seconds.
func until(it *follower, listed objects, since time.Time) float64 {
	for !it.holds(listed) {
		if time.Since(since) > longest {
			must(fmt.Errorf("an informer doesn't hold what the list has"))
		}
		time.Sleep(10 * time.Millisecond)
	}
	return time.Since(since).Seconds()
}

func main() {
	if len(os.Args) != 5 {
		must(fmt.Errorf("usage: informers http://127.0.0.1:PORT INFORMERS WRITES A_SECOND"))
	}
	silence()
	stop := make(chan struct{})
	defer close(stop)
	var following []*follower
	for n := 0; n < number(2); n++ {
		following = append(following, begin(stop))
	}
	here, draws, began := client(), rand.New(rand.NewSource(1)), time.Now()
	due := time.NewTicker(time.Second / time.Duration(number(4)))
	for turn, written := 0, 0; written < number(3); turn++ {
		if write(here, draws, turn) {
			written++
			<-due.C
		}
	}
	ended := time.Now()
	listed, behind, counts := list(here), []float64{}, []map[string]int{}
	for _, it := range following {
		behind = append(behind, until(it, listed, ended))
		counts = append(counts, it.counts)
	}
	must(json.NewEncoder(os.Stdout).Encode(map[string]interface{}{
		"objects": len(listed), "seconds": ended.Sub(began).Seconds(), "behind": behind, "told": counts,
	}))
}
