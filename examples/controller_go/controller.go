// Package controller keeps the children of widgets: one with `spec.replicas: n` gets n of its image, with the label `parent`, and
// `status.ready`. It has what a controller of client-go has: an informer, a work queue, and server-side apply. There are no owner
// references here, so it deletes the children of a widget that is gone.
package controller

import (
	"context"
	"encoding/json"
	"fmt"
	"time"

	"k8s.io/apimachinery/pkg/api/errors"
	metav1 "k8s.io/apimachinery/pkg/apis/meta/v1"
	"k8s.io/apimachinery/pkg/apis/meta/v1/unstructured"
	"k8s.io/apimachinery/pkg/labels"
	"k8s.io/apimachinery/pkg/runtime/schema"
	"k8s.io/apimachinery/pkg/types"
	"k8s.io/client-go/dynamic"
	"k8s.io/client-go/dynamic/dynamicinformer"
	"k8s.io/client-go/tools/cache"
	"k8s.io/client-go/util/workqueue"
)

// Widgets is the resource.
var Widgets = schema.GroupVersionResource{Group: "demo.example", Version: "v1", Resource: "widgets"}

// Controller reconciles the widgets of a namespace.
type Controller struct {
	client   dynamic.ResourceInterface
	informer cache.SharedIndexInformer
	lister   cache.GenericNamespaceLister
	queue    workqueue.RateLimitingInterface
}

// New makes a controller, which does nothing yet.
func New(client dynamic.Interface, namespace string) *Controller {
	factory := dynamicinformer.NewFilteredDynamicSharedInformerFactory(client, 0, namespace, nil)
	informer := factory.ForResource(Widgets)
	it := &Controller{
		client:   client.Resource(Widgets).Namespace(namespace),
		informer: informer.Informer(),
		lister:   informer.Lister().ByNamespace(namespace),
		queue:    workqueue.NewRateLimitingQueue(workqueue.NewItemExponentialFailureRateLimiter(5*time.Millisecond, time.Second)),
	}
	it.informer.AddEventHandler(cache.ResourceEventHandlerFuncs{
		AddFunc:    it.enqueue,
		UpdateFunc: func(_, object interface{}) { it.enqueue(object) },
		DeleteFunc: it.enqueue,
	})
	return it
}

// enqueue asks for the widget that a change concerns: of a child its parent.
func (it *Controller) enqueue(object interface{}) {
	if gone, is := object.(cache.DeletedFinalStateUnknown); is {
		object = gone.Obj
	}
	widget := object.(*unstructured.Unstructured)
	name := widget.GetLabels()["parent"]
	if name == "" {
		name = widget.GetName()
	}
	it.queue.Add(name)
}

// Run reconciles until the context ends.
func (it *Controller) Run(ctx context.Context) {
	defer it.queue.ShutDown()
	go it.informer.Run(ctx.Done())
	if cache.WaitForCacheSync(ctx.Done(), it.informer.HasSynced) {
		go it.work(ctx)
		<-ctx.Done()
	}
}

func (it *Controller) work(ctx context.Context) {
	for {
		key, ends := it.queue.Get()
		if ends {
			return
		}
		if err := it.reconcile(ctx, key.(string)); err != nil {
			it.queue.AddRateLimited(key)
		} else {
			it.queue.Forget(key)
		}
		it.queue.Done(key)
	}
}

// reconcile makes and deletes the children of a widget, and writes its status.
func (it *Controller) reconcile(ctx context.Context, name string) error {
	parent, err := it.client.Get(ctx, name, metav1.GetOptions{})
	if errors.IsNotFound(err) {
		return it.deleteChildren(ctx, name, 0)
	}
	if err != nil {
		return err
	}
	replicas, _, _ := unstructured.NestedInt64(parent.Object, "spec", "replicas")
	image, _, _ := unstructured.NestedString(parent.Object, "spec", "image")
	for n := int64(0); n < replicas; n++ {
		child := map[string]interface{}{
			"metadata": map[string]interface{}{"labels": map[string]interface{}{"parent": name}},
			"spec":     map[string]interface{}{"image": image},
		}
		if err := it.apply(ctx, childOf(name, n), child); err != nil {
			return err
		}
	}
	if err := it.deleteChildren(ctx, name, replicas); err != nil {
		return err
	}
	status := map[string]interface{}{"status": map[string]interface{}{"ready": replicas}}
	if err := it.apply(ctx, name, status, "status"); !errors.IsNotFound(err) {
		return err
	}
	return nil // It was deleted since it was read.
}

func childOf(name string, n int64) string {
	return fmt.Sprintf("%s-%d", name, n)
}

// deleteChildren deletes the children of a widget but for its first ones.
func (it *Controller) deleteChildren(ctx context.Context, name string, kept int64) error {
	wanted := map[string]bool{}
	for n := int64(0); n < kept; n++ {
		wanted[childOf(name, n)] = true
	}
	children, err := it.lister.List(labels.SelectorFromSet(labels.Set{"parent": name}))
	if err != nil {
		return err
	}
	for _, child := range children {
		own := child.(*unstructured.Unstructured).GetName()
		if wanted[own] {
			continue
		}
		if err := it.client.Delete(ctx, own, metav1.DeleteOptions{}); err != nil && !errors.IsNotFound(err) {
			return err
		}
	}
	return nil
}

// apply applies what the controller wants of a widget, or of its status.
func (it *Controller) apply(ctx context.Context, name string, wanted map[string]interface{}, subresources ...string) error {
	wanted["apiVersion"], wanted["kind"] = "demo.example/v1", "Widget"
	body, err := json.Marshal(wanted)
	if err != nil {
		return err
	}
	force := true
	options := metav1.PatchOptions{FieldManager: "controller", Force: &force}
	_, err = it.client.Patch(ctx, name, types.ApplyPatchType, body, options, subresources...)
	return err
}
