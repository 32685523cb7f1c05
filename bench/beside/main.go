// Times the fake dynamic clientset of client-go, as a test has it in its own process.
//
//	fake FOLDER
//
// FOLDER has the objects as files of JSON: `stored`, and `changed`, which is the same object with another value. It prints a
// JSON object: milliseconds from nothing to the first list, MiB of the process then and with 10,000 objects, and how many
// applies, GETs and lines of 50 watches come a second, null where the clientset refuses one. ../beside.py builds and calls it.
package main

import (
	"context"
	"encoding/json"
	"fmt"
	"os"
	"path/filepath"
	"strings"
	"sync/atomic"
	"time"

	metav1 "k8s.io/apimachinery/pkg/apis/meta/v1"
	"k8s.io/apimachinery/pkg/apis/meta/v1/unstructured"
	"k8s.io/apimachinery/pkg/runtime"
	"k8s.io/apimachinery/pkg/runtime/schema"
	"k8s.io/apimachinery/pkg/types"
	"k8s.io/client-go/dynamic"
	"k8s.io/client-go/dynamic/fake"
)

const (
	objects = 10000
	watches = 50
	writes  = 1000
	// a watch of the clientset keeps a hundred lines that aren't read yet, and panics at the next one
	unread = 50
	goes   = 3
	long   = 2 * time.Second
)

var widgets = schema.GroupVersionResource{Group: "demo.example", Version: "v1", Resource: "widgets"}

func must(err error) {
	if err != nil {
		fmt.Fprintln(os.Stderr, "fake:", err)
		os.Exit(1)
	}
}

// client is a clientset without objects.
func client() dynamic.ResourceInterface {
	kinds := map[schema.GroupVersionResource]string{widgets: "WidgetList"}
	made := fake.NewSimpleDynamicClientWithCustomListKinds(runtime.NewScheme(), kinds)
	return made.Resource(widgets).Namespace("default")
}

func read(name string) *unstructured.Unstructured {
	text, err := os.ReadFile(filepath.Join(os.Args[1], name))
	must(err)
	it := &unstructured.Unstructured{}
	must(it.UnmarshalJSON(text))
	return it
}

func create(in dynamic.ResourceInterface, it *unstructured.Unstructured, name string) {
	it = it.DeepCopy()
	it.SetName(name)
	it.SetNamespace("default")
	_, err := in.Create(context.Background(), it, metav1.CreateOptions{})
	must(err)
}

// held is what the system says that this process holds, in MiB.
func held() float64 {
	text, err := os.ReadFile("/proc/self/status")
	must(err)
	var size float64
	_, err = fmt.Sscanf(string(text)[strings.Index(string(text), "VmRSS:"):], "VmRSS: %g", &size)
	must(err)
	return size / 1024
}

// rate is how many of these are done a second, the most of some goes; nil where the first is refused.
func rate(do func() error) *float64 {
	if do() != nil {
		return nil
	}
	best := 0.0
	for go_ := 0; go_ < goes; go_++ {
		count, start := 0, time.Now()
		for time.Since(start) < long {
			must(do())
			count++
		}
		if each := float64(count) / time.Since(start).Seconds(); each > best {
			best = each
		}
	}
	return &best
}

// lines is how many lines of all watches are read a second while objects are written.
func lines(stored, changed *unstructured.Unstructured) float64 {
	in := client()
	create(in, stored, "w")
	var seen int64
	for n := 0; n < watches; n++ {
		watch, err := in.Watch(context.Background(), metav1.ListOptions{})
		must(err)
		go func() {
			for range watch.ResultChan() {
				atomic.AddInt64(&seen, 1)
			}
		}()
	}
	start := time.Now()
	for n := 1; n <= writes; n++ {
		it := [2]*unstructured.Unstructured{stored, changed}[n%2].DeepCopy()
		it.SetName("w")
		it.SetNamespace("default")
		_, err := in.Update(context.Background(), it, metav1.UpdateOptions{})
		must(err)
		for n%unread == 0 && atomic.LoadInt64(&seen) < int64(n*watches) {
			time.Sleep(10 * time.Microsecond)
		}
	}
	return float64(writes*watches) / time.Since(start).Seconds()
}

func main() {
	if len(os.Args) != 2 {
		must(fmt.Errorf("usage: fake FOLDER"))
	}
	stored, changed := read("stored"), read("changed")
	start := time.Now()
	in := client()
	_, err := in.List(context.Background(), metav1.ListOptions{})
	must(err)
	said := map[string]interface{}{"start": time.Since(start).Seconds() * 1000, "rest": held()}
	for n := 0; n < objects; n++ {
		create(in, stored, fmt.Sprintf("w%06d", n))
	}
	said["filled"] = held()
	said["gets"] = rate(func() error {
		_, err := in.Get(context.Background(), "w000000", metav1.GetOptions{})
		return err
	})
	force, turn := false, 0
	said["applies"] = rate(func() error {
		turn++
		body, err := [2]*unstructured.Unstructured{stored, changed}[turn%2].MarshalJSON()
		must(err)
		options := metav1.PatchOptions{FieldManager: "alice", Force: &force}
		_, err = in.Patch(context.Background(), "w000000", types.ApplyPatchType, body, options)
		return err
	})
	said["lines"] = lines(stored, changed)
	must(json.NewEncoder(os.Stdout).Encode(said))
}
