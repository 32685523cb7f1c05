package controller

import (
	"context"
	"net/http"
	"testing"

	"nazhuvem.example/nazhuvem"
)

const database = "/apis/shop.example/v1/namespaces/default/databases/db"

func TestController(t *testing.T) {
	nazhuvem.Explore(t, "../crd", func(hub *nazhuvem.Hub) {
		hub.Apply("alice", database, `{"apiVersion":"shop.example/v1","kind":"Database","spec":{"replicas":2}}`, false)
		hub.Run(func(ctx context.Context, transport http.RoundTripper) error {
			api := API{http.Client{Transport: transport}} // client-go: rest.Config{Transport: transport}
			return hub.Settle(ctx, func() error { return Reconcile(api, "db") })
		})
		var found struct{ Status struct{ Ready int } }
		if hub.Get(database, &found) && found.Status.Ready != 2 {
			hub.Errorf("%d replicas are ready, and not 2", found.Status.Ready)
		}
	})
}
