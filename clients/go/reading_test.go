package nazhuvem

import (
	"context"
	"errors"
	"fmt"
	"net/http"
	"os"
	"os/exec"
	"path/filepath"
	"regexp"
	"strings"
	"testing"
)

// Failures that one can read, and play again.

// matches fails the test where no line of a text is of some of these forms.
func matches(t *testing.T, text string, some ...string) {
	t.Helper()
	for _, one := range some {
		if !regexp.MustCompile(`(?m)^` + one + `$`).MatchString(text) {
			t.Errorf("no line %s in:\n%s", one, text)
		}
	}
}

func TestWhatAPumpBringsAndAWriteMakes(t *testing.T) {
	scenario := func(hub *Hub) {
		hub.Apply("alice", widgets+"/w", scaled(2), false)
		if _, err := watch(hub, widgets+"?watch=true"); err != nil {
			hub.Fatalf("%v", err)
		}
		hub.Run(func(context.Context, http.RoundTripper) error {
			hub.Pump()
			return nil
		})
		hub.Request("DELETE", widgets+"/w", nil)
		hub.Pump()
		if hub.Pump() == 0 {
			hub.Fatalf("it ends")
		}
	}
	text := failing(t, scenario).Error()
	matches(t, text,
		`    1   PATCH .*w.fieldManager=alice 201, version 2`,
		`    3 \* pump: ADDED w, version 2`,
		`    4   DELETE .*/w 200`,
		`    5   pump: DELETED w, version 3`,
		`    6   pump: nothing`,
		`reading_test.go:\d+: it ends`,
		`again: NAZHUVEM_SCHEDULE=undisturbed`)
}

func TestWhatIsHeldBack(t *testing.T) {
	scenario := func(hub *Hub) {
		written := 0
		if _, err := watch(hub, widgets+"?watch=true"); err != nil {
			hub.Fatalf("%v", err)
		}
		hub.Apply("alice", widgets+"/w", widget(""), false)
		hub.Run(func(context.Context, http.RoundTripper) error {
			written += hub.Pump()
			return nil
		})
		if written == 0 {
			hub.Errorf("nothing came")
		}
	}
	failure := failing(t, scenario, Kind(func(place Place) []Disturbance { return Holds(place)[1:] }))
	contains(t, failure.Error(), "\n      > hold 3\n    3 * pump: held back\n")
}

// fighting is a step in which two managers write what the other wrote otherwise.
func fighting(hub *Hub, transport http.RoundTripper) error {
	return hub.Settle(context.Background(), func() error {
		for at, manager := range []string{"a", "b"} {
			body := widget(fmt.Sprintf(`,"spec":{"replicas":%d,"image":"c"}`, at))
			_, _, err := Request{Method: "PATCH", Path: widgets + "/w", Manager: manager, Force: true, Body: body}.Send(transport)
			if err != nil {
				return err
			}
		}
		return nil
	})
}

func TestTwoManagers(t *testing.T) {
	text := failing(t, func(hub *Hub) {
		hub.Run(func(_ context.Context, transport http.RoundTripper) error { return fighting(hub, transport) })
	}).Error()
	const who = "a and b change .spec.replicas"
	matches(t, text, ` +99 rounds, to event 199: `+who, `reading_test.go:.* nothing has settled after 100 steps: `+who)
	if lines := strings.Count(text, "\n"); lines > 12 {
		t.Errorf("%d lines:\n%s", lines, text)
	}
	hub := Start(t, types)
	if err := fighting(hub, hub); !errors.Is(err, ErrNotSettled) || !strings.HasSuffix(err.Error(), who) {
		t.Error(err)
	}
}

func TestOneMakesAndAnotherDeletes(t *testing.T) {
	text := failing(t, func(hub *Hub) {
		for n := 0; n < 40; n++ {
			hub.Do(Request{Method: "POST", Path: widgets, Manager: "a", Body: named("w")})
			hub.Request("DELETE", widgets+"/w", nil)
		}
		hub.Fatalf("it ends")
	}).Error()
	contains(t, text, "40 rounds, to event 80: a and a client change w\n")
}

func TestManyEvents(t *testing.T) {
	failure := failing(t, func(hub *Hub) {
		for n := 0; n < 200; n++ {
			hub.Apply("alice", fmt.Sprintf("%s/w%d", widgets, n), widget(""), false)
		}
		gets(hub, 1, widgets)
		if !hub.Get(widgets+"/w0", &struct{}{}) {
			hub.Errorf("it is gone")
		}
	}, Deletions)
	if lines := strings.Count(failure.Events, "\n"); lines != 202 {
		t.Error(lines)
	}
	text := failure.Error()
	matches(t, text, `      > delete .*`, `      \.\. \d+ more`)
	if lines := strings.Count(text, "\n"); lines > 36 {
		t.Errorf("%d lines:\n%s", lines, text)
	}
}

func helped(hub *Hub, what string) {
	hub.Helper()
	hub.Errorf("%s", what)
}

// countsOf is a map that nobody has made.
func countsOf(*Hub) map[string]int { return nil }

// TestFilesAndLines is about where a scenario fails: its own lines, and those of a panic.
func TestFilesAndLines(t *testing.T) {
	failure := failing(t, func(hub *Hub) {
		hub.Request("GET", widgets, nil)
		helped(hub, "one")
		hub.Errorf("two")
		hub.FailNow()
	})
	matches(t, failure.Said, `reading_test.go:\d+: one`, `reading_test.go:\d+: two`)
	var one, two int
	if _, err := fmt.Sscanf(failure.Said, "reading_test.go:%d: one\nreading_test.go:%d: two", &one, &two); err != nil || two != one+1 {
		t.Error(failure.Said, err)
	}
	failure = failing(t, func(hub *Hub) {
		hub.Run(func(context.Context, http.RoundTripper) error {
			countsOf(hub)["a"]++
			return nil
		})
	})
	matches(t, failure.Error(), `panic: assignment to entry in nil map`, `    reading_test.go:\d+ nazhuvem.TestFilesAndLines\.func.*`)
	if lines := strings.Count(failure.Said, "\n"); lines > 4 {
		t.Error(failure.Said)
	}
}

// own is a types file of types that no other has.
const own = `{"types":[{"group":"own.example","version":"v2","kind":"Backup","plural":"backups",` +
	`"schema":{"type":"object","properties":{"spec":{"type":"object","properties":{"size":{"type":"string"}}}}}}]}`

// TestTheScriptIsPlayed is about the command that a failure shows.
func TestTheScriptIsPlayed(t *testing.T) {
	replay, err := Find("ssa-replay")
	if err != nil {
		t.Fatal(err)
	}
	path := filepath.Join(t.TempDir(), "own types.json")
	if err := os.WriteFile(path, []byte(own), 0o666); err != nil {
		t.Fatal(err)
	}
	failure, _, err := Search(path, func(hub *Hub) {
		hub.Apply("alice", "/apis/own.example/v2/namespaces/default/backups/b",
			`{"apiVersion":"own.example/v2","kind":"Backup","spec":{"size":"1"}}`, false)
		hub.Fatalf("it ends")
	}, WithPage(7))
	if failure == nil {
		t.Fatal(err)
	}
	found := regexp.MustCompile(`(?m)^replay: ssa-replay (.*)$`).FindStringSubmatch(failure.Error())
	if found == nil || !strings.Contains(found[1], " --page 7 ") {
		t.Fatal(failure)
	}
	output, err := exec.Command("sh", "-c", replay+" "+found[1]).CombinedOutput()
	if err != nil || !strings.Contains(string(output), "201 Created") {
		t.Errorf("%s: %s", err, output)
	}
}

// TestAFailingHubShowsItsEvents is about a test of its own hub.
func TestAFailingHubShowsItsEvents(t *testing.T) {
	output := again(t, "^TestInnerHub$", nil)
	contains(t, output, "reading_test.go", "it ends", "events of the hub:", "1   PATCH "+widgets+"/w?fieldManager=alice 201, version 2")
}

func TestInnerHub(t *testing.T) {
	inner(t)
	hub := Start(t, types)
	hub.Apply("alice", widgets+"/w", widget(""), false)
	t.Fatal("it ends")
}

// TestALineAsAString is about an event that is given as a script has it.
func TestALineAsAString(t *testing.T) {
	hub := Start(t, types)
	if answer, err := hub.Event(`{"tick":1000}`); err != nil || answer.Event != 1 {
		t.Error(answer, err)
	}
	for _, line := range []string{"", "{\"tick\":1}\n{\"tick\":2}"} {
		if _, err := hub.Event(line); !errors.Is(err, ErrRefused) || !strings.Contains(err.Error(), "isn't one line") {
			t.Error(err)
		}
	}
}

// TestAHubOfNoTest is about failures that nobody else would tell.
func TestAHubOfNoTest(t *testing.T) {
	hub, err := New(types)
	if err != nil {
		t.Fatal(err)
	}
	defer hub.Close()
	defer func() {
		if why := recover(); why == nil || !strings.Contains(fmt.Sprint(why), "404 no such path") {
			t.Error(why)
		}
	}()
	hub.Request("GET", gadgets, nil)
}
