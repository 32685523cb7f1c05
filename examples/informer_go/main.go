// Follows the widgets of a server by client-go's dynamic informer, while it applies, changes and deletes one.
//
//	informer_go http://127.0.0.1:PORT
//
// It prints what its handlers are told, and then what the cache holds. The server has the types of examples/widgets.json.
package main

import (
	"context"
	"fmt"
	"os"
	"time"

	metav1 "k8s.io/apimachinery/pkg/apis/meta/v1"
	"k8s.io/apimachinery/pkg/apis/meta/v1/unstructured"
	"k8s.io/apimachinery/pkg/labels"
	"k8s.io/apimachinery/pkg/runtime/schema"
	"k8s.io/apimachinery/pkg/types"
	"k8s.io/client-go/dynamic"
	"k8s.io/client-go/dynamic/dynamicinformer"
	"k8s.io/client-go/rest"
	"k8s.io/client-go/tools/cache"
)

var widgets = schema.GroupVersionResource{Group: "demo.example", Version: "v1", Resource: "widgets"}

func must(err error) {
	if err != nil {
		fmt.Fprintln(os.Stderr, err)
		os.Exit(1)
	}
}

func shown(object interface{}) string {
	widget := object.(*unstructured.Unstructured)
	image, _, _ := unstructured.NestedString(widget.Object, "spec", "image")
	return fmt.Sprintf("%s/%s %s image %q", widget.GetNamespace(), widget.GetName(), widget.GetResourceVersion(), image)
}

// handlers tell of each notice on a channel, so that the steps of main are printed between those that they bring.
func handlers(told chan string) cache.ResourceEventHandlerFuncs {
	return cache.ResourceEventHandlerFuncs{
		AddFunc:    func(it interface{}) { told <- "added   " + shown(it) },
		UpdateFunc: func(_, it interface{}) { told <- "updated " + shown(it) },
		DeleteFunc: func(it interface{}) { told <- "deleted " + shown(it) },
	}
}

// next prints one notice, which comes within ten seconds.
func next(told chan string) {
	select {
	case line := <-told:
		fmt.Println(line)
	case <-time.After(10 * time.Second):
		must(fmt.Errorf("no notice came"))
	}
}

func applied(client dynamic.ResourceInterface, manager, image string, force bool) error {
	body := fmt.Sprintf(`{"apiVersion":"demo.example/v1","kind":"Widget","spec":{"image":%q}}`, image)
	_, err := client.Patch(context.TODO(), "w1", types.ApplyPatchType, []byte(body), metav1.PatchOptions{FieldManager: manager, Force: &force})
	return err
}

func main() {
	if len(os.Args) != 2 {
		must(fmt.Errorf("usage: informer_go http://127.0.0.1:PORT"))
	}
	client, err := dynamic.NewForConfig(&rest.Config{Host: os.Args[1]})
	must(err)
	here := client.Resource(widgets).Namespace("default")
	must(applied(here, "alice", "a", false))

	factory := dynamicinformer.NewDynamicSharedInformerFactory(client, 0)
	informer := factory.ForResource(widgets)
	told := make(chan string, 16)
	informer.Informer().AddEventHandler(handlers(told))
	stop := make(chan struct{})
	defer close(stop)
	factory.Start(stop)
	if !cache.WaitForCacheSync(stop, informer.Informer().HasSynced) {
		must(fmt.Errorf("no list came"))
	}
	fmt.Println("synced")
	next(told)

	fmt.Println("bob is refused:", applied(here, "bob", "b", false))
	must(applied(here, "bob", "b", true))
	next(told)
	must(here.Delete(context.TODO(), "w1", metav1.DeleteOptions{}))
	next(told)

	left, err := informer.Lister().List(labels.Everything())
	must(err)
	fmt.Println("objects in the cache:", len(left))
}
