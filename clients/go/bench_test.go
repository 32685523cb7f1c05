package nazhuvem

import (
	"context"
	"fmt"
	"net/http"
	"testing"
	"time"
)

// BenchmarkEvents is about events one after another: each answer is read before the next.
func BenchmarkEvents(b *testing.B) {
	hub := Start(b, types)
	b.ResetTimer()
	for n := 0; n < b.N; n++ {
		hub.Tick(time.Millisecond)
	}
}

// BenchmarkRequests is about requests by a client of net/http: two events each.
func BenchmarkRequests(b *testing.B) {
	hub := Start(b, types)
	hub.Apply("alice", widgets+"/w", widget(""), false)
	client := http.Client{Transport: hub}
	b.ResetTimer()
	for n := 0; n < b.N; n++ {
		response, err := client.Get("http://hub" + widgets + "/w")
		if err != nil {
			b.Fatal(err)
		}
		response.Body.Close()
	}
}

// BenchmarkStart is about a hub from nothing to its first answer.
func BenchmarkStart(b *testing.B) {
	for n := 0; n < b.N; n++ {
		hub, err := New(types)
		if err != nil {
			b.Fatal(err)
		}
		hub.Tick(0)
		hub.Close()
	}
}

// BenchmarkSchedules is about schedules of 50 events, each on a hub of its own.
func BenchmarkSchedules(b *testing.B) {
	scenario := func(hub *Hub) {
		hub.Apply("alice", widgets+"/w", scaled(2), false)
		hub.Run(func(_ context.Context, transport http.RoundTripper) error {
			for n := 0; n < 24; n++ {
				if _, _, err := Send(transport, "GET", widgets+"/w", nil); err != nil {
					return err
				}
				body := widget(fmt.Sprintf(`,"status":{"ready":%d}`, n))
				if _, _, err := Send(transport, "PATCH", widgets+"/w/status?fieldManager=c", body); err != nil {
					return err
				}
			}
			hub.Pump()
			return nil
		})
	}
	e, err := explorationOf(types, scenario, nil)
	if err != nil {
		b.Fatal(err)
	}
	if failure, err := e.begin(); failure != nil || err != nil || len(e.schedules[0].events) != 50 {
		b.Fatal(failure, err)
	}
	all := make([]Schedule, b.N)
	for at := range all {
		all[at] = e.schedules[1+at%(len(e.schedules)-1)]
	}
	b.ResetTimer()
	e.each(e.some(all, time.Time{}))
	if e.err != nil || e.first() != nil {
		b.Fatal(e.first(), e.err)
	}
}
