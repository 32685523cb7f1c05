package nazhuvem

import (
	"context"
	"errors"
	"fmt"
	"net/http"
	"strings"
	"sync/atomic"
	"testing"
)

// Nothing passes in vain: what tests nothing says so at once.

const gadgets = "/apis/demo.example/v1/namespaces/default/gadgets"

func TestATestsOwnRefusalIsFatal(t *testing.T) {
	isOver := false
	for wanted, do := range map[string]func(*Hub){
		".spec.sice: unknown field, of PATCH " + widgets: func(h *Hub) { h.Apply("alice", widgets+"/w", widget(`,"spec":{"sice":1}`), false) },
		"404 no such path, of POST " + gadgets:           func(h *Hub) { h.Request("POST", gadgets, named("w")) },
		"404 no such path, of GET " + gadgets:            func(h *Hub) { h.Get(gadgets+"/w", nil) },
		`404 widgets.demo.example "w" not found, of GET`: func(h *Hub) { h.Do(Request{Method: "GET", Path: widgets + "/w"}) },
		"is a watch, which doesn't end":                  func(h *Hub) { h.Request("GET", widgets+"?watch=true", nil) },
		`the path "apis/w" doesn't begin with /`:         func(h *Hub) { h.Request("GET", "apis/w", nil) },
		"the hub is closed":                              func(h *Hub) { h.Close(); h.Request("GET", widgets, nil) },
	} {
		said := saidBy(t, func(hub *Hub) {
			do(hub)
			isOver = true
		})
		if !strings.HasPrefix(said, "in_vain_test.go:") || !strings.Contains(said, wanted) || isOver {
			t.Errorf("%q, and not %q", said, wanted)
		}
	}
}

func TestTheReplyIsAskedFor(t *testing.T) {
	hub := Start(t, types)
	if status, _ := hub.TryApply("a", widgets+"/w", widget(`,"spec":{"sice":1}`), false); status != http.StatusBadRequest {
		t.Error(status)
	}
	if status, _ := hub.TryRequest("GET", widgets+"/w", nil); status != http.StatusNotFound {
		t.Error(status)
	}
	if status, _ := hub.Do(Request{Method: "GET", Path: gadgets, MayFail: true}); status != http.StatusNotFound {
		t.Error(status)
	}
	var found any
	if hub.Get(widgets+"/w", &found) {
		t.Error(found)
	}
}

func TestAControllerGetsItsReplies(t *testing.T) {
	said := saidBy(t, func(hub *Hub) {
		hub.Run(func(_ context.Context, transport http.RoundTripper) error {
			status, _, err := Send(transport, "GET", widgets+"/w", nil)
			if status != http.StatusNotFound {
				return fmt.Errorf("%d %v", status, err)
			}
			return nil
		})
	})
	if said != "" {
		t.Error(said)
	}
}

func TestAManagerIsEscaped(t *testing.T) {
	hub := Start(t, types)
	const manager = "a&force=true b/c+"
	hub.Apply(manager, widgets+"/w", widget(`,"spec":{"image":"a"}`), false)
	var found struct {
		Metadata struct{ ManagedFields []struct{ Manager string } }
	}
	if !hub.Get(widgets+"/w", &found) || found.Metadata.ManagedFields[0].Manager != manager {
		t.Error(found)
	}
	if status, _ := hub.TryApply("b&force=true", widgets+"/w", widget(`,"spec":{"image":"b"}`), false); status != http.StatusConflict {
		t.Error(status)
	}
}

func TestARequestIsAStruct(t *testing.T) {
	hub := Start(t, types)
	hub.Do(Request{Method: "POST", Path: widgets, Body: named("w"), Manager: "alice"})
	hub.Do(Request{Method: "PATCH", Path: widgets + "/w", Manager: "bob", Force: true, Body: scaled(1),
		Query: map[string]string{"fieldValidation": "Strict"}})
	status, _ := hub.Do(Request{Method: "PATCH", Path: widgets + "/w", Body: "{}", Media: "text/plain", MayFail: true})
	if status != http.StatusUnsupportedMediaType {
		t.Error(status)
	}
}

// inVain is the error of a scenario that can't be explored.
func inVain(t *testing.T, wanted string, scenario func(*Hub), options ...Option) {
	t.Helper()
	failure, _, err := Search(types, scenario, options...)
	if failure != nil || !errors.Is(err, ErrScenario) || !strings.Contains(err.Error(), wanted) {
		t.Errorf("%v, %v, and not %q", failure, err, wanted)
	}
}

func TestWorkThatAsksNothing(t *testing.T) {
	inVain(t, "the work of a Run sends nothing by its transport", func(hub *Hub) {
		hub.Apply("alice", widgets+"/w", widget(""), false)
		hub.Run(func(context.Context, http.RoundTripper) error {
			hub.Request("GET", widgets, nil) // by the test's own
			return nil
		})
	})
	inVain(t, "nothing happens in it", func(*Hub) {})
}

// gets sends so many requests of the controller.
func gets(hub *Hub, count int, path string) {
	hub.Run(func(_ context.Context, transport http.RoundTripper) error {
		for n := 0; n < count; n++ {
			if _, _, err := Send(transport, "GET", path, nil); err != nil {
				return err
			}
		}
		return nil
	})
}

func TestAScenarioThatIsNotTheSame(t *testing.T) {
	var plays atomic.Int64
	inVain(t, "it isn't the same each time: event 2 was", func(hub *Hub) {
		gets(hub, int(plays.Add(1)), widgets)
	})
	plays.Store(0)
	inVain(t, "it ended 1 events before the place or the end", func(hub *Hub) {
		gets(hub, 3-int(plays.Add(1)), widgets)
	})
	plays.Store(0)
	inVain(t, "event 2 was GET "+widgets+"/w200?, and now is GET "+widgets+"/w200", func(hub *Hub) {
		hub.Request("GET", widgets, nil)
		gets(hub, 1, widgets+map[bool]string{true: "/w200?", false: "/w200"}[plays.Add(1) == 1])
	})
	plays.Store(0)
	inVain(t, "event 1 was", func(hub *Hub) { // the reply is another
		hub.TryApply("alice", widgets+map[bool]string{true: "/w", false: "/w2"}[plays.Add(1) < 3], widget(""), false)
		gets(hub, 3, widgets)
	}, Deletions)
}

// TestAnyOrder is about a controller whose goroutines send in any order.
func TestAnyOrder(t *testing.T) {
	var plays atomic.Int64
	scenario := func(hub *Hub) {
		paths := []string{"/a", "/b"}
		if plays.Add(1)%2 == 0 {
			paths = []string{"/b", "/a"}
		}
		hub.Apply("alice", widgets+"/w", widget(""), false)
		hub.Run(func(_ context.Context, transport http.RoundTripper) error {
			for _, path := range paths {
				if _, _, err := Send(transport, "GET", widgets+path, nil); err != nil {
					return err
				}
			}
			return nil
		})
	}
	inVain(t, "WithAnyOrder()", scenario)
	if count := passing(t, scenario, WithAnyOrder(), Deletions); count != 3 {
		t.Error(count)
	}
}

func TestAnActionWithATypo(t *testing.T) {
	scenario := func(body string) func(*Hub) {
		return func(hub *Hub) {
			hub.Apply("alice", widgets+"/w", widget(`,"spec":{"image":"a"}`), false)
			hub.Meanwhile("bob applies", func() { hub.Apply("bob", widgets+"/w", body, false) })
			gets(hub, 1, widgets+"/w")
		}
	}
	passing(t, scenario(widget(`,"spec":{"image":"b"}`)), Actions) // a conflict is no mistake
	failure := failing(t, scenario(widget(`,"spec":{"sice":1}`)), Actions)
	contains(t, failure.Said, "unknown field")
}

func TestTypesThatAreNotThere(t *testing.T) {
	const wanted = `no types: "nope.json": no such file or directory`
	if _, err := New("nope.json"); err == nil || err.Error() != wanted {
		t.Error(err)
	}
	if _, _, err := Search("nope.json", func(*Hub) {}); err == nil || err.Error() != wanted {
		t.Error(err)
	}
	for _, name := range []string{"TestInnerStart", "TestInnerExplore"} {
		contains(t, again(t, "^"+name+"$", nil), wanted, "--- FAIL: "+name, "in_vain_test.go:")
	}
}

func TestInnerStart(t *testing.T) {
	inner(t)
	Start(t, "nope.json")
}

func TestInnerExplore(t *testing.T) {
	inner(t)
	Explore(t, "nope.json", func(*Hub) {})
}

// TestAnotherTestsFatal is about a scenario that is ended by the test around it.
func TestAnotherTestsFatal(t *testing.T) {
	output := again(t, "^TestInnerFatal$", nil, "-test.parallel=1")
	contains(t, output, "before event 2: delete "+widgets+"/w", "x is 404", "another test's Fatal", "> delete",
		"again: NAZHUVEM_SCHEDULE=2-delete-default-widgets-w", "--- FAIL: TestInnerFatal/2-delete-default-widgets-w")
	output = again(t, "^TestInnerError$", nil, "-test.parallel=1")
	contains(t, output, "before event 2: delete "+widgets+"/w", "y is 404", "the test's own Errorf was called")
	contains(t, again(t, "^TestInnerSkip$", nil), "no disturbance", "Fatal, FailNow or Skip")
}

func TestInnerFatal(t *testing.T) {
	inner(t)
	Explore(t, types, outer(t, func(status int) { t.Fatalf("x is %d", status) }))
}

func TestInnerError(t *testing.T) {
	inner(t)
	Explore(t, types, outer(t, func(status int) { t.Errorf("y is %d", status) }))
}

func TestInnerSkip(t *testing.T) {
	inner(t)
	Explore(t, types, func(hub *Hub) {
		gets(hub, 1, widgets)
		t.SkipNow()
	})
}

// outer is a scenario that tells of a widget that is gone.
func outer(t *testing.T, tell func(int)) func(*Hub) {
	return func(hub *Hub) {
		hub.Apply("alice", widgets+"/w", widget(""), false)
		gets(hub, 1, widgets+"/w")
		if status, _ := hub.TryRequest("GET", widgets+"/w", nil); status != http.StatusOK {
			tell(status)
		}
	}
}
