package nazhuvem

import (
	"encoding/json"
	"fmt"
	"net/http"
	"sort"
	"strings"
)

// manager is that of a change that nobody of the test makes.
const manager = "disturbance"

// Object is an object that is there, with the names that a body of it needs.
type Object struct{ Path, APIVersion, Kind string }

// Place is a place before an event, as it was seen in the play without a disturbance.
type Place struct {
	// Number is that of the event, from 1.
	Number int
	Event  Event
	// Objects are those that are there.
	Objects []Object
	// Watches is how many are open.
	Watches int
	// Writes is how many the controller has made since it began.
	Writes int
	// Actions are the names of what else may happen, by Meanwhile.
	Actions []string
}

// Disturbance is something that happens at a place. Its String names it.
type Disturbance interface {
	fmt.Stringer
	// Happen lets it happen. Its requests may be refused.
	Happen(h *Hub)
}

// Kind is all of one kind that may happen at a place. It is an Option of Explore: where some
// are named, no others happen.
type Kind func(Place) []Disturbance

func (k Kind) explore(e *exploration) { e.kinds = append(e.kinds, k) }

// The kinds. What Sieve (OSDI 2022) calls an intermediate state is Restarts, a stale one
// Holds, an unobserved one each of the others but for Actions.
var (
	// Actions is what the scenario says may happen, by Meanwhile.
	Actions Kind = actions
	// Deletions is the deletion of each object, by another client.
	Deletions Kind = deletions
	// Changes is a new annotation of each object, by another manager.
	Changes Kind = changes
	// Cuts is a cut of all watches, where some are open.
	Cuts Kind = cuts
	// Holds is the lines of watches held back at a pump, for one pump and for three.
	Holds Kind = holds
	// Expiries is a compaction by which watches end, where some are open: the version that
	// they would go on from is refused by 410.
	Expiries Kind = expiries
	// Restarts is the controller begun anew between two of its writes.
	Restarts Kind = restarts
	// Recreations is each object deleted and made again by who had made it, without its
	// status, between two events of the controller.
	Recreations Kind = recreations
	// UnseenDeletions is the deletion of each object behind a 410, where watches are open: a
	// cache that only adds after a list keeps it.
	UnseenDeletions Kind = unseen(deletions)
	// UnseenChanges is a new annotation of each object behind a 410, where watches are open.
	UnseenChanges Kind = unseen(changes)
	// UnseenCreations is a copy of each object (NAME-copy) behind a 410, where watches are
	// open. It is none of Every, for the scenario has to expect it.
	UnseenCreations Kind = unseen(copies)
)

// Every is all kinds that a scenario needn't expect.
func Every() []Kind {
	return []Kind{Actions, Deletions, Changes, Cuts, Holds, Expiries, Restarts, Recreations, UnseenDeletions, UnseenChanges}
}

// deleted is an object that is deleted.
type deleted struct{ path string }

func (d deleted) String() string { return "delete " + d.path }

func (d deleted) Happen(h *Hub) { h.TryRequest(http.MethodDelete, d.path, nil) }

// changed is an object that is changed by another manager, by force.
type changed struct {
	object Object
	// text is what changes, as JSON without the names.
	text string
	// isAnnotation tells that it is an annotation alone.
	isAnnotation bool
}

func (c changed) String() string {
	if c.isAnnotation {
		return "annotate " + c.object.Path
	}
	return fmt.Sprintf("change %s %s", c.object.Path, c.text)
}

func (c changed) Happen(h *Hub) {
	body := map[string]any{}
	h.must(json.Unmarshal([]byte(c.text), &body))
	by := manager
	for _, leaf := range leaves(body, "") {
		by += "-" + leaf
	}
	if len(by) > 100 {
		by = by[:100]
	}
	body["apiVersion"], body["kind"] = c.object.APIVersion, c.object.Kind
	if status, _ := h.TryRequest(http.MethodGet, c.object.Path, nil); status == http.StatusOK {
		h.TryApply(by, c.object.Path, body, true)
	}
}

// leaves are the paths of a value's fields. Changes of the same fields have one manager, as
// an apply by the same one takes away what it doesn't repeat.
func leaves(value any, path string) []string {
	fields, isObject := value.(map[string]any)
	if !isObject || len(fields) == 0 {
		return []string{path}
	}
	var all []string
	for _, name := range namesOf(fields) {
		all = append(all, leaves(fields[name], path+"."+name)...)
	}
	return all
}

func namesOf(fields map[string]any) []string {
	var names []string
	for name := range fields {
		names = append(names, name)
	}
	sort.Strings(names)
	return names
}

// cut is a cut of all watches.
type cut struct{}

func (cut) String() string { return "cut" }

func (cut) Happen(h *Hub) { h.Cut() }

// held is the lines of all watches held back for so many pumps.
type held struct{ pumps int }

func (d held) String() string { return fmt.Sprintf("hold %d", d.pumps) }

func (d held) Happen(h *Hub) { h.Hold(d.pumps) }

// expired is a cut of all watches, whose version is compacted.
type expired struct{}

func (expired) String() string { return "expire" }

// Happen makes an object in a namespace of its own and deletes it, so that two versions pass,
// and compacts.
func (expired) Happen(h *Hub) {
	one := h.pipe.types.first
	version := one.Group + "/" + one.Version
	path := fmt.Sprintf("/apis/%s/namespaces/%s/%s", version, manager, one.Plural)
	body := map[string]any{"apiVersion": version, "kind": one.Kind, "metadata": map[string]any{"name": manager}}
	h.TryRequest(http.MethodPost, path, body)
	h.TryRequest(http.MethodDelete, path+"/"+manager, nil)
	h.Compact()
	h.Cut()
}

// recreated is an object that is deleted and made again.
type recreated struct{ path string }

func (r recreated) String() string { return "delete and make again " + r.path }

func (r recreated) Happen(h *Hub) {
	var value map[string]any
	if h.Get(r.path, &value) {
		h.TryRequest(http.MethodDelete, r.path, nil)
		remake(h, r.path, value)
	}
}

// copied is another object of the same content.
type copied struct{ path string }

func (c copied) String() string { return fmt.Sprintf("make %s-copy", c.path) }

func (c copied) Happen(h *Hub) {
	var value map[string]any
	if h.Get(c.path, &value) {
		remake(h, c.path+"-copy", value)
	}
}

// remake applies what an object has, but for its status, by the manager that applied it first.
func remake(h *Hub, path string, value map[string]any) {
	metadata, _ := value["metadata"].(map[string]any)
	own := map[string]any{}
	for _, name := range []string{"labels", "annotations"} {
		if kept, isThere := metadata[name]; isThere {
			own[name] = kept
		}
	}
	by := manager
	if managers, _ := metadata["managedFields"].([]any); len(managers) > 0 {
		if first, _ := managers[0].(map[string]any); first != nil {
			by = fmt.Sprint(first["manager"])
		}
	}
	delete(value, "status")
	value["metadata"] = own
	h.TryApply(by, path, value, true)
}

// behind410 is something that happens while nobody watches: watches are cut, and what
// happened since is compacted, so that only a list shows it.
type behind410 struct{ what Disturbance }

func (u behind410) String() string { return u.what.String() + ", behind a 410" }

func (u behind410) Happen(h *Hub) {
	u.what.Happen(h)
	expired{}.Happen(h)
}

// begunAnew is the controller begun anew.
type begunAnew struct{}

func (begunAnew) String() string { return "begin anew" }

func (begunAnew) Happen(h *Hub) {
	h.lock.Lock()
	defer h.lock.Unlock()
	if h.run != nil {
		h.kill(h.run)
	}
}

// meanwhile is what the scenario says may happen.
type meanwhile struct{ name string }

func (m meanwhile) String() string { return m.name }

func (m meanwhile) Happen(h *Hub) { h.act(m.name) }

func actions(place Place) []Disturbance {
	var all []Disturbance
	for _, name := range place.Actions {
		all = append(all, meanwhile{name})
	}
	return all
}

// ofEach is a disturbance for each object of a place.
func ofEach(place Place, disturbance func(Object) Disturbance) []Disturbance {
	var all []Disturbance
	for _, object := range place.Objects {
		all = append(all, disturbance(object))
	}
	return all
}

func deletions(place Place) []Disturbance {
	return ofEach(place, func(object Object) Disturbance { return deleted{object.Path} })
}

func changes(place Place) []Disturbance {
	text := fmt.Sprintf(`{"metadata":{"annotations":{"%s":"%d"}}}`, manager, place.Number)
	return ofEach(place, func(object Object) Disturbance { return changed{object, text, true} })
}

// ChangesBy is this change of each object, by another manager by force: a spec, say. The
// controller's objects get it, too.
func ChangesBy(change map[string]any) Kind {
	var text strings.Builder
	encoder := json.NewEncoder(&text)
	encoder.SetEscapeHTML(false)
	if err := encoder.Encode(change); err != nil {
		panic(fmt.Sprintf("ChangesBy: %v", err))
	}
	said := strings.TrimSpace(text.String())
	return func(place Place) []Disturbance {
		return ofEach(place, func(object Object) Disturbance { return changed{object, said, false} })
	}
}

func cuts(place Place) []Disturbance {
	if place.Watches == 0 {
		return nil
	}
	return []Disturbance{cut{}}
}

func holds(place Place) []Disturbance {
	if place.Event.Kind != "pump" {
		return nil
	}
	return []Disturbance{held{1}, held{3}}
}

func expiries(place Place) []Disturbance {
	if place.Watches == 0 {
		return nil
	}
	return []Disturbance{expired{}}
}

func recreations(place Place) []Disturbance {
	return ofEach(place, func(object Object) Disturbance { return recreated{object.Path} })
}

func copies(place Place) []Disturbance {
	return ofEach(place, func(object Object) Disturbance { return copied{object.Path} })
}

// unseen is a kind behind a 410, where watches are open.
func unseen(kind Kind) Kind {
	return func(place Place) []Disturbance {
		if place.Watches == 0 {
			return nil
		}
		var all []Disturbance
		for _, what := range kind(place) {
			all = append(all, behind410{what})
		}
		return all
	}
}

func restarts(place Place) []Disturbance {
	if place.Writes == 0 || !place.Event.IsControllers || !isWrite(place.Event.Method) {
		return nil
	}
	return []Disturbance{begunAnew{}}
}
