package nazhuvem

import (
	"context"
	"encoding/json"
	"fmt"
	"net/http"
	"os"
	"strings"
	"testing"
)

// follower writes into the status of each widget how many replicas it wants. It lists whenever
// its watch brings a line and, in the next step, where its watch has ended.
type follower struct {
	hub       *Hub
	transport http.RoundTripper
	// isBlind tells that it doesn't look at what it lists after its watch has ended.
	isBlind    bool
	isWatching bool
	hasListed  bool
}

func (f *follower) step() error {
	if !f.isWatching {
		version, err := f.list(f.isBlind && f.hasListed)
		if err != nil {
			return err
		}
		request, err := http.NewRequest(http.MethodGet, "http://hub"+widgets+"?watch=true&resourceVersion="+version, nil)
		if err != nil {
			return err
		}
		response, err := f.transport.RoundTrip(request)
		if err != nil {
			return err
		}
		f.isWatching = response.StatusCode == http.StatusOK // or the version is too old already
	}
	if f.hub.Pump() > 0 {
		if _, err := f.list(false); err != nil {
			return err
		}
	}
	f.isWatching = f.isWatching && f.hub.Watches() > 0
	return nil
}

// list tells of each widget, unless it is blind, and returns the list's version.
func (f *follower) list(isBlind bool) (string, error) {
	f.hasListed = true
	_, reply, err := Send(f.transport, http.MethodGet, widgets, nil)
	if err != nil {
		return "", err
	}
	var list struct {
		Metadata struct{ ResourceVersion string }
		Items    []struct {
			Metadata struct{ Name string }
			Spec     struct{ Replicas int }
			Status   struct{ Ready int }
		}
	}
	if err := json.Unmarshal(reply, &list); err != nil {
		return "", err
	}
	for _, one := range list.Items {
		if isBlind || one.Status.Ready == one.Spec.Replicas {
			continue
		}
		path := widgets + "/" + one.Metadata.Name + "/status?fieldManager=controller&force=true"
		body := widget(fmt.Sprintf(`,"status":{"ready":%d}`, one.Spec.Replicas))
		status, reply, err := Send(f.transport, http.MethodPatch, path, body)
		if err != nil || status != http.StatusOK && status != http.StatusNotFound {
			return "", fmt.Errorf("%d %s %v", status, reply, err)
		}
	}
	return list.Metadata.ResourceVersion, nil
}

// inPhases has a widget that is scaled once all has settled. In the end its status is right,
// unless it is gone.
func inPhases(begin func(*Hub, http.RoundTripper) *follower) func(*Hub) {
	widget := func(replicas int) string { return widget(fmt.Sprintf(`,"spec":{"replicas":%d}`, replicas)) }
	return func(hub *Hub) {
		hub.Apply("alice", widgets+"/w", widget(2), false)
		hub.Run(func(ctx context.Context, transport http.RoundTripper) error {
			controller := begin(hub, transport)
			if err := hub.Settle(ctx, controller.step); err != nil {
				return err
			}
			hub.Apply("alice", widgets+"/w", widget(3), false)
			return hub.Settle(ctx, controller.step)
		})
		var found struct{ Status struct{ Ready int } }
		if hub.Get(widgets+"/w", &found) && found.Status.Ready != 3 {
			hub.Errorf("%d are ready, and not 3", found.Status.Ready)
		}
	}
}

func TestPhases(t *testing.T) {
	begin := func(hub *Hub, transport http.RoundTripper) *follower {
		return &follower{hub: hub, transport: transport}
	}
	Explore(t, types, inPhases(begin))
}

func TestWhoLooksAtNothingIsFound(t *testing.T) {
	begin := func(hub *Hub, transport http.RoundTripper) *follower {
		return &follower{hub: hub, transport: transport, isBlind: true}
	}
	for _, kind := range []Kind{Cuts, Expiries} {
		failure, _, err := Search(types, inPhases(begin), kind)
		if err != nil || failure == nil || !strings.Contains(failure.Said, "are ready, and not 3") {
			t.Fatal(failure, err)
		}
	}
}

// TestHeldInALaterRun is about a watch of two Runs.
func TestHeldInALaterRun(t *testing.T) {
	scenario := func(hub *Hub) {
		request, err := http.NewRequest(http.MethodGet, "http://hub"+widgets+"?watch=true&resourceVersion=1", nil)
		hub.must(err)
		_, err = hub.RoundTrip(request)
		hub.must(err)
		written := 0
		work := func(ctx context.Context, _ http.RoundTripper) error {
			return hub.Settle(ctx, func() error {
				written += hub.Pump()
				return nil
			})
		}
		hub.Run(work)
		hub.Apply("alice", widgets+"/w", widget(""), false)
		hub.Run(work)
		if written != 1 {
			hub.Errorf("%d lines came", written)
		}
	}
	failure, count, err := Search(types, scenario, Holds)
	if failure != nil || err != nil || count != 7 {
		t.Fatal(failure, count, err)
	}
}

// TestCutInEachStep is about steps that end, too, where each cuts a watch.
func TestCutInEachStep(t *testing.T) {
	hub := Start(t, types)
	steps := 0
	err := hub.Settle(context.Background(), func() error {
		steps++
		request, err := http.NewRequest(http.MethodGet, "http://hub"+widgets+"?watch=true", nil)
		if err == nil {
			_, err = hub.RoundTrip(request)
		}
		hub.Cut()
		return err
	})
	if err != nil || steps != 4 {
		t.Fatal(steps, err)
	}
}

// TestReadme is about README's phases, which are those of this file.
func TestReadme(t *testing.T) {
	page, err := os.ReadFile("README.md")
	if err != nil {
		t.Fatal(err)
	}
	source, err := os.ReadFile("running_test.go")
	if err != nil {
		t.Fatal(err)
	}
	_, block, _ := strings.Cut(string(page), "## Phases\n")
	_, block, _ = strings.Cut(block, "```go\n")
	block, _, isThere := strings.Cut(block, "```")
	shown := "\t\t" + strings.ReplaceAll(strings.TrimSuffix(block, "\n"), "\n", "\n\t\t") + "\n"
	if !isThere || !strings.Contains(string(source), shown) {
		t.Fatalf("not in this file:\n%s", shown)
	}
}
