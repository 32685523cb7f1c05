package nazhuvem

import (
	"context"
	"encoding/json"
	"fmt"
	"net/http"
	"strings"
	"testing"
	"time"
)

// Bugs that controllers have, and how they are found: by a disturbance, or by two.

const count = "/apis/demo.example/v1/namespaces/counts/widgets/count"

// counter counts the widgets of a namespace in another, by a list and a watch.
type counter struct {
	hub       *Hub
	transport http.RoundTripper
	// onlyAdds tells that a list after a 410 keeps what is gone.
	onlyAdds bool
	// onlyLines tells that what a list has isn't told before a line comes.
	onlyLines bool
	names     map[string]bool
	watch     *watching
	version   string
	isTold    bool
}

func (c *counter) step() error {
	if c.watch == nil {
		if err := c.follow(); err != nil {
			return err
		}
	}
	c.hub.Pump()
	c.hub.Rest(5 * time.Millisecond)
	var lines []watchLine
	if c.watch != nil {
		var isOver bool
		if lines, isOver = c.watch.take(); isOver {
			c.watch = nil
		}
	}
	for _, line := range lines {
		c.hear(line)
	}
	if len(lines) > 0 || !c.onlyLines || !c.isTold {
		return c.tell()
	}
	return nil
}

// follow goes on from its version, or lists again.
func (c *counter) follow() error {
	if c.version == "" {
		if err := c.list(); err != nil {
			return err
		}
	}
	var err error
	c.watch, err = watch(c.transport, widgets+"?watch=true&resourceVersion="+c.version)
	if c.watch == nil {
		c.version = ""
	}
	return err
}

func (c *counter) list() error {
	_, reply, err := Send(c.transport, "GET", widgets, nil)
	if err != nil {
		return err
	}
	var listed struct {
		Metadata struct{ ResourceVersion string }
		Items    []struct{ Metadata struct{ Name string } }
	}
	if err := json.Unmarshal(reply, &listed); err != nil {
		return err
	}
	if !c.onlyAdds || c.names == nil {
		c.names = map[string]bool{}
	}
	for _, one := range listed.Items {
		c.names[one.Metadata.Name] = true
	}
	c.version = listed.Metadata.ResourceVersion
	return nil
}

func (c *counter) hear(line watchLine) {
	switch line.Type {
	case "ERROR":
		c.version = ""
		return
	case "DELETED":
		delete(c.names, line.Object.Metadata.Name)
	default:
		c.names[line.Object.Metadata.Name] = true
	}
	c.version = line.Object.Metadata.ResourceVersion
}

// tell writes how many there are.
func (c *counter) tell() error {
	request := Request{Method: "PATCH", Path: count, Manager: "counter", Force: true, Body: scaled(len(c.names))}
	status, reply, err := request.Send(c.transport)
	if err == nil && status/100 != 2 {
		err = fmt.Errorf("%d %s", status, reply)
	}
	c.isTold = true
	return err
}

// counting has two widgets, which are counted.
func counting(begin func(*Hub, http.RoundTripper) *counter) func(*Hub) {
	return func(hub *Hub) {
		for _, name := range []string{"/a", "/b"} {
			hub.Apply("alice", widgets+name, scaled(1), false)
		}
		hub.Run(func(ctx context.Context, transport http.RoundTripper) error {
			return hub.Settle(ctx, begin(hub, transport).step)
		})
		var listed struct{ Items []any }
		var counted struct{ Spec struct{ Replicas int } }
		if !hub.Get(widgets, &listed) || !hub.Get(count, &counted) || counted.Spec.Replicas != len(listed.Items) {
			hub.Errorf("%d are counted, and %d are there", counted.Spec.Replicas, len(listed.Items))
		}
	}
}

func TestACacheThatOnlyAdds(t *testing.T) {
	scenario := counting(func(hub *Hub, transport http.RoundTripper) *counter {
		return &counter{hub: hub, transport: transport, onlyAdds: true}
	})
	passing(t, scenario, Expiries, Deletions)
	failure := failing(t, scenario, UnseenDeletions)
	contains(t, failure.Schedule.String(), "/a, behind a 410")
	contains(t, failure.Said, "2 are counted, and 1 are there")
	failing(t, scenario)
}

func TestAListThatIsNotTold(t *testing.T) {
	scenario := counting(func(hub *Hub, transport http.RoundTripper) *counter {
		return &counter{hub: hub, transport: transport, onlyLines: true}
	})
	contains(t, failing(t, scenario, UnseenCreations).Schedule.String(), "make "+widgets+"/a-copy, behind a 410")
}

func TestTheRightCounterPasses(t *testing.T) {
	scenario := counting(func(hub *Hub, transport http.RoundTripper) *counter {
		return &counter{hub: hub, transport: transport}
	})
	passing(t, scenario, WithKinds(append(Every(), UnseenCreations)...), WithBudget(2*time.Second))
}

// replacer tells a widget's replicas in its image by a PUT.
type replacer struct {
	// tries is how often it is tried.
	tries int
	// isBlind tells that the PUT says no version.
	isBlind bool
}

func (r replacer) replace(transport http.RoundTripper) error {
	for n := 0; n < r.tries; n++ {
		status, reply, err := Send(transport, "GET", widgets+"/w", nil)
		if err != nil || status == http.StatusNotFound {
			return err
		}
		var read map[string]any
		if err := json.Unmarshal(reply, &read); err != nil {
			return err
		}
		spec, hasSpec := read["spec"].(map[string]any)
		if !hasSpec {
			return nil
		}
		spec["image"] = fmt.Sprint(spec["replicas"])
		metadata := read["metadata"].(map[string]any)
		delete(metadata, "managedFields")
		if r.isBlind {
			delete(metadata, "resourceVersion")
		}
		status, _, err = Send(transport, "PUT", widgets+"/w", read)
		if err != nil || status == http.StatusOK || status == http.StatusNotFound {
			return err
		}
	}
	return fmt.Errorf("it was never written")
}

// replacing has a widget that is replaced, while alice may scale it.
func replacing(by replacer) func(*Hub) {
	return func(hub *Hub) {
		isScaled := false
		hub.Apply("alice", widgets+"/w", scaled(2), false)
		hub.Meanwhile("alice scales", func() {
			hub.Apply("alice", widgets+"/w", scaled(5), true)
			isScaled = true
		})
		hub.Run(func(_ context.Context, transport http.RoundTripper) error { return by.replace(transport) })
		var found struct{ Spec struct{ Replicas int } }
		if hub.Get(widgets+"/w", &found) && isScaled && found.Spec.Replicas != 5 {
			hub.Errorf("alice's 5 is lost")
		}
	}
}

func TestALostUpdate(t *testing.T) {
	contains(t, failing(t, replacing(replacer{tries: 1, isBlind: true}), Actions).Said, "alice's 5 is lost")
}

func TestAStatusOfAnObjectMadeAgain(t *testing.T) {
	scenario := func(hub *Hub) {
		hub.Apply("alice", widgets+"/w", scaled(2), false)
		hub.Run(func(_ context.Context, transport http.RoundTripper) error {
			_, reply, err := Send(transport, "GET", widgets+"/w", nil)
			if err != nil {
				return err
			}
			var read struct {
				Metadata struct{ ResourceVersion string }
			}
			if err := json.Unmarshal(reply, &read); err != nil {
				return err
			}
			body := widget(fmt.Sprintf(`,"metadata":{"resourceVersion":"%s"},"status":{"ready":1}`, read.Metadata.ResourceVersion))
			status, reply, err := Request{Method: "PATCH", Path: widgets + "/w/status", Manager: "c", Force: true, Body: body}.Send(transport)
			if err == nil && status != http.StatusOK {
				err = fmt.Errorf("%d %s", status, reply)
			}
			return err
		})
	}
	failure := failing(t, scenario, Recreations)
	contains(t, failure.Schedule.String(), "delete and make again")
	contains(t, failure.Said, "the controller: 409")
}

func TestTwoManagersByForce(t *testing.T) {
	failure := failing(t, func(hub *Hub) {
		hub.Run(func(_ context.Context, transport http.RoundTripper) error { return fighting(hub, transport) })
	})
	contains(t, failure.Error(), "no disturbance", "a and b change .spec.replicas")
}

// TestARetryThatIsTriedOnce passes under each disturbance, and fails under two.
func TestARetryThatIsTriedOnce(t *testing.T) {
	wrong, right := replacing(replacer{tries: 2}), replacing(replacer{tries: 9})
	passing(t, wrong)
	failure := failing(t, wrong, Changes, WithBudget(5*time.Minute), WithSeed(7))
	if failure.Schedule.Then == nil || failure.Schedule.Then.Then != nil {
		t.Error(failure.Schedule)
	}
	text := failure.Error()
	contains(t, text, "\nseed: 7\nagain: NAZHUVEM_SCHEDULE=", "it was never written")
	if strings.Count(text, "      > annotate") != 2 {
		t.Error(text)
	}
	t.Setenv("NAZHUVEM_SCHEDULE", failure.Schedule.Word())
	if again := failing(t, wrong, Changes); again.Events != failure.Events {
		t.Errorf("%s\nand not\n%s", again.Events, failure.Events)
	}
	if played := passing(t, right, Changes); played != 1 {
		t.Error(played)
	}
	t.Setenv("NAZHUVEM_SCHEDULE", "")
	passing(t, right, WithBudget(2*time.Second))
}

// TestTheSeedIsTold is about a test of a budget, which says how to play it again.
func TestTheSeedIsTold(t *testing.T) {
	output := again(t, "^TestInnerBudget$", []string{"NAZHUVEM_SEED=7"})
	contains(t, output, "seed: 7", "again: NAZHUVEM_SCHEDULE=", " go test -run '^TestInnerBudget$'", "--- FAIL: TestInnerBudget/")
}

func TestInnerBudget(t *testing.T) {
	inner(t)
	Explore(t, types, replacing(replacer{tries: 2}), Changes, WithBudget(5*time.Minute))
}
