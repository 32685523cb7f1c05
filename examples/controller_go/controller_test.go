package controller

import (
	"bufio"
	"context"
	"encoding/json"
	"fmt"
	"os"
	"os/exec"
	"reflect"
	"strings"
	"syscall"
	"testing"
	"time"

	"k8s.io/apimachinery/pkg/api/errors"
	metav1 "k8s.io/apimachinery/pkg/apis/meta/v1"
	"k8s.io/apimachinery/pkg/apis/meta/v1/unstructured"
	"k8s.io/apimachinery/pkg/types"
	"k8s.io/client-go/dynamic"
	"k8s.io/client-go/rest"
)

var client dynamic.Interface

// TestMain starts the server of all tests. SSA_SERVER names another program than ./ssa-server.
func TestMain(m *testing.M) {
	program := os.Getenv("SSA_SERVER")
	if program == "" {
		program = "../../ssa-server"
	}
	server := exec.Command(program, "--types", "../widgets.json", "--port", "0", "--concurrent")
	server.SysProcAttr = &syscall.SysProcAttr{Setpgid: true}
	output, err := server.StdoutPipe()
	must(err)
	// A program that is compiled first says on standard error when it listens.
	server.Stderr = server.Stdout
	must(server.Start())
	address := ""
	for lines := bufio.NewScanner(output); address == "" && lines.Scan(); {
		_, address, _ = strings.Cut(lines.Text(), "listening on ")
	}
	// By itself client-go makes five requests a second.
	client, err = dynamic.NewForConfig(&rest.Config{Host: "http://" + address, QPS: -1})
	must(err)
	status := m.Run()
	_ = syscall.Kill(-server.Process.Pid, syscall.SIGTERM)
	os.Exit(status)
}

func must(err error) {
	if err != nil {
		panic(err)
	}
}

// place is a namespace of the test's own, with the controller running in it.
type place struct {
	*testing.T
	namespace string
	widgets   dynamic.ResourceInterface
	stop      func()
}

var places int

func begin(t *testing.T) *place {
	places++
	namespace := fmt.Sprintf("test-%d", places)
	it := &place{T: t, namespace: namespace, widgets: client.Resource(Widgets).Namespace(namespace)}
	it.start()
	return it
}

func (it *place) start() {
	ctx, stop := context.WithCancel(context.Background())
	ended := make(chan bool)
	go func() {
		New(client, it.namespace).Run(ctx)
		close(ended)
	}()
	it.stop = func() {
		stop()
		<-ended
	}
}

func (it *place) apply(name, manager string, spec map[string]interface{}) error {
	body, err := json.Marshal(map[string]interface{}{"apiVersion": "demo.example/v1", "kind": "Widget", "spec": spec})
	must(err)
	_, err = it.widgets.Patch(context.TODO(), name, types.ApplyPatchType, body, metav1.PatchOptions{FieldManager: manager})
	return err
}

func (it *place) get(name string, fields ...string) interface{} {
	widget, err := it.widgets.Get(context.TODO(), name, metav1.GetOptions{})
	must(err)
	found, _, _ := unstructured.NestedFieldNoCopy(widget.Object, fields...)
	return found
}

func (it *place) children() []string {
	found, err := it.widgets.List(context.TODO(), metav1.ListOptions{LabelSelector: "parent=w"})
	must(err)
	names := []string{}
	for _, child := range found.Items {
		names = append(names, child.GetName())
	}
	return names
}

// eventually waits until a value is the wanted one.
func (it *place) eventually(wanted interface{}, value func() interface{}) {
	it.Helper()
	for end := time.Now().Add(10 * time.Second); !reflect.DeepEqual(value(), wanted); time.Sleep(10 * time.Millisecond) {
		if time.Now().After(end) {
			it.Fatalf("%v, not %v", value(), wanted)
		}
	}
}

func (it *place) eventuallyChildren(wanted ...string) {
	it.Helper()
	it.eventually(append([]string{}, wanted...), func() interface{} { return it.children() })
}

func TestChildrenFollowReplicas(t *testing.T) {
	it := begin(t)
	must(it.apply("w", "alice", map[string]interface{}{"replicas": 3, "image": "a"}))
	it.eventuallyChildren("w-0", "w-1", "w-2")
	it.eventually(int64(3), func() interface{} { return it.get("w", "status", "ready") })
	must(it.apply("w", "alice", map[string]interface{}{"replicas": 1, "image": "a"}))
	it.eventuallyChildren("w-0")
	it.eventually(int64(1), func() interface{} { return it.get("w", "status", "ready") })
	it.stop()
}

func TestChildrenGoWithTheirWidget(t *testing.T) {
	it := begin(t)
	must(it.apply("w", "alice", map[string]interface{}{"replicas": 2}))
	it.eventuallyChildren("w-0", "w-1")
	must(it.widgets.Delete(context.TODO(), "w", metav1.DeleteOptions{}))
	it.eventuallyChildren()
	it.stop()
}

func TestWhatOthersOwnStays(t *testing.T) {
	it := begin(t)
	must(it.apply("w", "alice", map[string]interface{}{"replicas": 1, "image": "a"}))
	it.eventuallyChildren("w-0")
	must(it.apply("w-0", "bob", map[string]interface{}{"tags": []string{"kept"}}))
	if err := it.apply("w-0", "bob", map[string]interface{}{"image": "b"}); !errors.IsConflict(err) {
		t.Error("bob may set what the controller owns:", err)
	}
	must(it.apply("w", "alice", map[string]interface{}{"replicas": 1, "image": "c"}))
	wanted := map[string]interface{}{"image": "c", "tags": []interface{}{"kept"}}
	it.eventually(wanted, func() interface{} { return it.get("w-0", "spec") })
	it.stop()
}

func TestAStoppedControllerCatchesUp(t *testing.T) {
	it := begin(t)
	must(it.apply("w", "alice", map[string]interface{}{"replicas": 2}))
	it.eventuallyChildren("w-0", "w-1")
	it.stop()
	must(it.apply("w", "alice", map[string]interface{}{"replicas": 1}))
	it.start()
	it.eventuallyChildren("w-0")
	it.stop()
}
