// The test of a controller that follows widgets by client-go's informer and writes their
// status: Explore finds the race of one that doesn't expect a deletion between both, and
// nothing in the one that does.
//
// client-go is taken from a GOPATH: examples/go.md says how.
package reconcile

import (
	"context"
	"fmt"
	"net/http"
	"strings"
	"testing"
	"time"

	apierrors "k8s.io/apimachinery/pkg/api/errors"
	metav1 "k8s.io/apimachinery/pkg/apis/meta/v1"
	"k8s.io/apimachinery/pkg/apis/meta/v1/unstructured"
	"k8s.io/apimachinery/pkg/labels"
	"k8s.io/apimachinery/pkg/runtime"
	"k8s.io/apimachinery/pkg/runtime/schema"
	"k8s.io/client-go/dynamic"
	"k8s.io/client-go/dynamic/dynamicinformer"
	"k8s.io/client-go/rest"
	"k8s.io/client-go/tools/cache"
	"nazhuvem.example/nazhuvem"
)

const (
	types = "../widgets.json"
	path  = "/apis/demo.example/v1/namespaces/default/widgets"
)

var widgets = schema.GroupVersionResource{Group: "demo.example", Version: "v1", Resource: "widgets"}

// controller writes into the status of each widget how many replicas it wants.
type controller struct {
	client dynamic.NamespaceableResourceInterface
	lister cache.GenericLister
	// isCareful tells whether it expects that a widget goes before its status is written.
	isCareful bool
}

func (c *controller) reconcile(ctx context.Context, cached runtime.Object) error {
	widget := cached.(*unstructured.Unstructured).DeepCopy()
	replicas, _, _ := unstructured.NestedInt64(widget.Object, "spec", "replicas")
	ready, isSet, _ := unstructured.NestedInt64(widget.Object, "status", "ready")
	if isSet && ready == replicas {
		return nil
	}
	if err := unstructured.SetNestedField(widget.Object, replicas, "status", "ready"); err != nil {
		return err
	}
	_, err := c.client.Namespace(widget.GetNamespace()).UpdateStatus(ctx, widget, metav1.UpdateOptions{})
	if c.isCareful && (apierrors.IsNotFound(err) || apierrors.IsConflict(err)) {
		return nil // what the watch brings next is reconciled
	}
	return err
}

func (c *controller) reconcileAll(ctx context.Context) error {
	cached, err := c.lister.List(labels.Everything())
	for _, one := range cached {
		if err == nil {
			err = c.reconcile(ctx, one)
		}
	}
	return err
}

// begin starts a controller with its informer, which has listed then.
func begin(ctx context.Context, transport http.RoundTripper, isCareful bool) (*controller, error) {
	client, err := dynamic.NewForConfig(&rest.Config{Host: "http://hub", Transport: transport, QPS: -1})
	if err != nil {
		return nil, err
	}
	factory := dynamicinformer.NewDynamicSharedInformerFactory(client, 0)
	informer := factory.ForResource(widgets)
	go informer.Informer().Run(ctx.Done())
	if !cache.WaitForCacheSync(ctx.Done(), informer.Informer().HasSynced) {
		return nil, ctx.Err()
	}
	return &controller{client.Resource(widgets), informer.Lister(), isCareful}, nil
}

// settle lets a controller reconcile until nothing changes any more.
func settle(ctx context.Context, hub *nazhuvem.Hub, it *controller) error {
	return hub.Settle(ctx, func() error {
		if err := nazhuvem.Until(ctx, func() bool { return hub.Watches() > 0 }); err != nil {
			return err
		}
		hub.Pump()
		hub.Rest(20 * time.Millisecond)
		return it.reconcileAll(ctx)
	})
}

// apply applies a number of replicas by alice.
func apply(hub *nazhuvem.Hub, replicas int) {
	body := fmt.Sprintf(`{"apiVersion":"demo.example/v1","kind":"Widget","spec":{"replicas":%d}}`, replicas)
	hub.Apply("alice", path+"/w", body, false)
}

// scenario has one widget, which changes once the controller has settled. Unless it was
// deleted its status is right in the end.
func scenario(isCareful bool) func(*nazhuvem.Hub) {
	return func(hub *nazhuvem.Hub) {
		apply(hub, 1)
		isChanged := false
		hub.Run(func(ctx context.Context, transport http.RoundTripper) error {
			it, err := begin(ctx, transport, isCareful)
			if err != nil {
				return err
			}
			if err := settle(ctx, hub, it); err != nil || isChanged {
				return err
			}
			isChanged = true
			apply(hub, 2)
			return settle(ctx, hub, it)
		})
		var widget struct {
			Spec   struct{ Replicas int }
			Status struct{ Ready int }
		}
		if hub.Get(path+"/w", &widget) && widget.Status.Ready != widget.Spec.Replicas {
			hub.Errorf("%d of %d replicas are ready", widget.Status.Ready, widget.Spec.Replicas)
		}
	}
}

// A loaded machine may read a line only after Rest, so that a step more is done: WithAnyOrder.

func TestTheRaceIsFound(t *testing.T) {
	failure, _, err := nazhuvem.Search(types, scenario(false), nazhuvem.Deletions, nazhuvem.WithAnyOrder())
	if err != nil || failure == nil || !strings.Contains(failure.Said, "not found") {
		t.Fatal(failure, err)
	}
	t.Log(failure)
}

func TestNoScheduleFails(t *testing.T) {
	nazhuvem.Explore(t, types, scenario(true), nazhuvem.WithAnyOrder())
}
