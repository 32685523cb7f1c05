package nazhuvem

import (
	"context"
	"encoding/json"
	"errors"
	"fmt"
	"io"
	"net/http"
	"strings"
	"sync/atomic"
	"testing"
	"time"
)

// reconcile has a race: the widget may be deleted between its two requests.
func reconcile(transport http.RoundTripper, isCareful bool) error {
	status, _, err := Send(transport, "GET", widgets+"/w", nil)
	if err != nil || status != http.StatusOK {
		return err
	}
	status, reply, err := Send(transport, "PATCH", widgets+"/w/status?fieldManager=controller", widget(`,"status":{"ready":1}`))
	if err == nil && status != http.StatusOK && !(isCareful && status == http.StatusNotFound) {
		err = fmt.Errorf("status %d: %s", status, reply)
	}
	return err
}

func TestReplies(t *testing.T) {
	hub := Start(t, types)
	if status, reply := hub.Apply("alice", widgets+"/w", widget(`,"spec":{"image":"a"}`), false); status != http.StatusCreated {
		t.Fatalf("%d %s", status, reply)
	}
	if status, reply := hub.TryApply("bob", widgets+"/w", widget(`,"spec":{"image":"b"}`), false); status != http.StatusConflict {
		t.Fatalf("%d %s", status, reply)
	}
	if revision := hub.Revision(); revision != 2 {
		t.Fatal(revision)
	}
}

func TestFindsTheRace(t *testing.T) {
	scenario := func(isCareful bool) func(*Hub) {
		return func(hub *Hub) {
			hub.Apply("alice", widgets+"/w", widget(""), false)
			hub.Run(func(_ context.Context, transport http.RoundTripper) error { return reconcile(transport, isCareful) })
		}
	}
	failure, count, err := Search(types, scenario(false))
	if err != nil || failure == nil || failure.Schedule.String() != "before event 3: delete "+widgets+"/w" {
		t.Fatal(failure, count, err)
	}
	t.Log(failure)
	Explore(t, types, scenario(true))
}

// follow is a watch of the widgets whose lines are told by their types on a channel.
func follow(t *testing.T, hub *Hub, query string) chan string {
	t.Helper()
	client := http.Client{Transport: hub}
	response, err := client.Get("http://hub" + widgets + "?watch=true" + query)
	if err != nil {
		t.Fatal(err)
	}
	lines := make(chan string, 100)
	go func() {
		defer close(lines)
		for decoder := json.NewDecoder(response.Body); ; {
			var line struct{ Type string }
			if decoder.Decode(&line) != nil {
				return
			}
			lines <- line.Type
		}
	}()
	return lines
}

func next(t *testing.T, lines chan string, wanted string) {
	t.Helper()
	select {
	case line := <-lines: // "" where the watch has ended
		if line != wanted {
			t.Fatalf("%q came in place of %q", line, wanted)
		}
	case <-time.After(10 * time.Second):
		t.Fatalf("no %q came", wanted)
	}
}

func TestWatchMovesWhenPumped(t *testing.T) {
	hub := Start(t, types)
	hub.Apply("alice", widgets+"/w", widget(""), false)
	lines := follow(t, hub, "")
	hub.Hold(1)
	if written := hub.Pump(); written != 0 {
		t.Fatal(written)
	}
	if written := hub.Pump(); written != 1 {
		t.Fatal(written)
	}
	next(t, lines, "ADDED")
	hub.Cut()
	next(t, lines, "")
}

func TestWatchMovesByItself(t *testing.T) {
	hub := Start(t, types)
	hub.MoveByThemselves(true)
	lines := follow(t, hub, "&allowWatchBookmarks=true&timeoutSeconds=2")
	hub.Apply("alice", widgets+"/w", widget(""), false)
	next(t, lines, "ADDED")
	hub.Request("DELETE", widgets+"/w", nil)
	next(t, lines, "DELETED")
	hub.Tick(2 * time.Second)
	for line := range lines {
		if line != "BOOKMARK" {
			t.Fatal(line)
		}
	}
}

func TestCompaction(t *testing.T) {
	hub := Start(t, types)
	lines := follow(t, hub, "&resourceVersion=1")
	hub.Apply("alice", widgets+"/w", widget(""), false)
	hub.Compact()
	hub.Pump()
	next(t, lines, "ERROR")
	next(t, lines, "")
	if status, _ := hub.TryRequest("GET", widgets+"?watch=true&resourceVersion=1", nil); status != http.StatusGone {
		t.Fatal(status)
	}
}

func TestWatchEndsWithItsContext(t *testing.T) {
	hub := Start(t, types)
	ctx, end := context.WithCancel(context.Background())
	request, err := http.NewRequestWithContext(ctx, "GET", "http://hub"+widgets+"?watch=true", nil)
	if err != nil {
		t.Fatal(err)
	}
	response, err := hub.RoundTrip(request)
	if err != nil {
		t.Fatal(err)
	}
	hub.Rest(time.Millisecond)
	end()
	if _, err := io.ReadAll(response.Body); !errors.Is(err, context.Canceled) {
		t.Fatal(err)
	}
	if hub.Watches() != 0 {
		t.Fatal("the hub has not heard of it")
	}
}

// TestRestWaitsForReaders is about a machine so busy that a sleep takes longer than the rest asked for.
func TestRestWaitsForReaders(t *testing.T) {
	hub := Start(t, types)
	request, err := http.NewRequest("GET", "http://hub"+widgets+"?watch=true", nil)
	if err != nil {
		t.Fatal(err)
	}
	response, err := hub.RoundTrip(request)
	if err != nil {
		t.Fatal(err)
	}
	defer response.Body.Close()
	hub.Apply("alice", widgets+"/w", scaled(1), false)
	hub.Pump()
	var isRead atomic.Bool
	go func() {
		time.Sleep(20 * time.Millisecond)
		isRead.Store(true)
		_, _ = io.Copy(io.Discard, response.Body)
	}()
	hub.Rest(time.Nanosecond)
	if !isRead.Load() {
		t.Fatal("it rests while a line isn't read")
	}
}

func TestScriptLines(t *testing.T) {
	hub := Start(t, types)
	if _, err := hub.Event(map[string]any{"pump": []int{7, 1}}); !errors.Is(err, ErrRefused) {
		t.Fatal(err)
	}
	hub.Tick(time.Second)
	if script := hub.Script(); !strings.HasSuffix(script, "{\"tick\":1000}\n") {
		t.Fatal(script)
	}
}

// TestExpiries is about a controller that can't go on from a compacted version.
func TestExpiries(t *testing.T) {
	scenario := func(hub *Hub) {
		hub.Run(func(_ context.Context, transport http.RoundTripper) error {
			for n := 0; n < 2; n++ {
				request, err := http.NewRequest("GET", "http://hub"+widgets+"?watch=true&resourceVersion=1", nil)
				if err != nil {
					return err
				}
				response, err := transport.RoundTrip(request)
				if err != nil || response.StatusCode != http.StatusOK {
					return fmt.Errorf("%v %v", response.Status, err)
				}
			}
			return nil
		})
	}
	failure, _, err := Search(types, scenario, Expiries)
	if err != nil || failure == nil || !strings.Contains(failure.Said, "410") {
		t.Fatal(failure, err)
	}
}

// TestActions is about what a scenario says may happen meanwhile.
func TestActions(t *testing.T) {
	scenario := func(hub *Hub) {
		hub.Apply("alice", widgets+"/w", widget(""), false)
		isSeen := false
		hub.Meanwhile("bob applies", func() {
			isSeen = true
			hub.Apply("bob", widgets+"/w", widget(`,"spec":{"image":"b"}`), false)
		})
		hub.Run(func(_ context.Context, transport http.RoundTripper) error {
			_, _, err := Send(transport, "GET", widgets+"/w", nil)
			return err
		})
		if isSeen {
			hub.Errorf("bob was there")
		}
	}
	failure, _, err := Search(types, scenario, Actions)
	if err != nil || failure == nil || failure.Schedule.String() != "before event 2: bob applies" {
		t.Fatal(failure, err)
	}
}

// TestBegunAnew is about a controller that is begun anew between two of its writes.
func TestBegunAnew(t *testing.T) {
	scenario := func(hub *Hub) {
		begun := 0
		hub.Run(func(ctx context.Context, transport http.RoundTripper) error {
			begun++
			for _, name := range []string{"a", "b"} {
				status, reply, err := Send(transport, "PATCH", widgets+"/"+name+"?fieldManager=controller", widget(""))
				if err != nil {
					return err
				}
				if status != http.StatusCreated {
					return fmt.Errorf("begun %d times: %d %s", begun, status, reply)
				}
			}
			return nil
		})
	}
	failure, _, err := Search(types, scenario, Restarts)
	if err != nil || failure == nil || !strings.Contains(failure.Said, "begun 2 times: 200") {
		t.Fatal(failure, err)
	}
}
