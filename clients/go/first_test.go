package nazhuvem_test

import (
	"context"
	"fmt"
	"net/http"
	"testing"

	"nazhuvem.example/nazhuvem"
)

const widget = "/apis/demo.example/v1/namespaces/default/widgets/w"

// tell says in the widget's status that it is ready, and expects that the widget goes meanwhile.
func tell(transport http.RoundTripper) error {
	ready := `{"apiVersion":"demo.example/v1","kind":"Widget","status":{"ready":2}}`
	status, reply, err := nazhuvem.Send(transport, "PATCH", widget+"/status?fieldManager=controller", ready)
	if err != nil || status == http.StatusOK || status == http.StatusNotFound {
		return err
	}
	return fmt.Errorf("status %d: %s", status, reply)
}

func TestTheStatusIsTold(t *testing.T) {
	nazhuvem.Explore(t, "../../examples/widgets.json", func(hub *nazhuvem.Hub) {
		hub.Apply("alice", widget, `{"apiVersion":"demo.example/v1","kind":"Widget","spec":{"replicas":2}}`, false)
		hub.Run(func(ctx context.Context, transport http.RoundTripper) error {
			return tell(transport) // client-go: rest.Config{Host: "http://hub", Transport: transport}
		})
	})
}
