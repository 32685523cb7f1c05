package nazhuvem

import (
	"context"
	"errors"
	"net/http"
	"os"
	"os/exec"
	"path/filepath"
	"reflect"
	"sort"
	"strings"
	"sync"
	"testing"
	"time"
)

// wordsOf are the words of the schedules of one disturbance.
func wordsOf(t *testing.T, scenario func(*Hub), options ...Option) []string {
	t.Helper()
	e, err := explorationOf(types, scenario, options)
	if err != nil {
		t.Fatal(err)
	}
	if failure, err := e.begin(); failure != nil || err != nil {
		t.Fatal(failure, err)
	}
	var words []string
	for _, schedule := range e.schedules {
		words = append(words, schedule.Word())
	}
	return words
}

// ofPython prints the words of a scenario that is the same as ofBoth.
const ofPython = `
from nazhuvem import EVERY, Hub, changes_by, schedules, unseen_creations
WIDGETS = "/apis/demo.example/v1/namespaces/default/widgets"
NAMES = {"apiVersion": "demo.example/v1", "kind": "Widget"}

def work(hub):
    watch = hub.watch(WIDGETS)
    hub.pump()
    for name in "bc":
        hub.apply("controller", f"{WIDGETS}/{name}", NAMES)
    hub.request("DELETE", WIDGETS + "/b")
    hub.request("GET", WIDGETS)

def scenario(hub):
    hub.request("POST", WIDGETS, {**NAMES, "metadata": {"name": "a"}})
    hub.meanwhile("alice scales: a.1 (by 2)!", lambda: None)
    hub.run(lambda: work(hub))

kinds = [*EVERY, unseen_creations, changes_by({"spec": {"image": "x y", "replicas": 3}})]
for schedule in schedules(scenario, "../../examples/widgets.json", kinds):
    print(schedule.word)
`

// ofBoth is the scenario of ofPython.
func ofBoth(hub *Hub) {
	hub.Request("POST", widgets, named("a"))
	hub.Meanwhile("alice scales: a.1 (by 2)!", func() {})
	hub.Run(func(_ context.Context, transport http.RoundTripper) error {
		if _, err := watch(transport, widgets+"?watch=true"); err != nil {
			return err
		}
		hub.Pump()
		for _, name := range []string{"/b", "/c"} {
			request := Request{Method: "PATCH", Path: widgets + name, Manager: "controller", Body: widget("")}
			if _, _, err := request.Send(transport); err != nil {
				return err
			}
		}
		if _, _, err := Send(transport, "DELETE", widgets+"/b", nil); err != nil {
			return err
		}
		_, _, err := Send(transport, "GET", widgets, nil)
		return err
	})
}

// TestWordsArePythons is about schedules, which have the words that the package for Python
// gives them.
func TestWordsArePythons(t *testing.T) {
	command := exec.Command("python3", "-c", ofPython)
	command.Env = append(os.Environ(), "PYTHONPATH=../python")
	output, err := command.Output()
	if err != nil {
		t.Fatal(err)
	}
	wanted := strings.Fields(string(output))
	kinds := append(Every(), UnseenCreations, ChangesBy(map[string]any{"spec": map[string]any{"image": "x y", "replicas": 3}}))
	words := wordsOf(t, ofBoth, WithKinds(kinds...))
	if len(words) < 70 || !reflect.DeepEqual(words, wanted) {
		t.Errorf("%d words %q, and of Python %d: %q", len(words), words, len(wanted), wanted)
	}
}

// TestEachKindHappens is about the right controller of ofBoth under each schedule.
func TestEachKindHappens(t *testing.T) {
	count := passing(t, ofBoth, WithKinds(append(Every(), UnseenCreations)...))
	if wanted := len(wordsOf(t, ofBoth, WithKinds(append(Every(), UnseenCreations)...))); count != wanted {
		t.Error(count, wanted)
	}
}

// silent is a disturbance that says no more than its kind.
type silent struct{ notes *[]string }

func (silent) String() string { return "own" }

func (s silent) Happen(*Hub) {
	if s.notes != nil {
		*s.notes = append(*s.notes, "happened")
	}
}

func TestWordsAreDifferent(t *testing.T) {
	var one, two []string
	kind := Kind(func(Place) []Disturbance { return []Disturbance{silent{&one}, silent{&two}, silent{&one}} })
	scenario := func(hub *Hub) { gets(hub, 1, widgets) }
	if words := wordsOf(t, scenario, kind); !reflect.DeepEqual(words, []string{"undisturbed", "1-own", "1-own.2"}) {
		t.Error(words)
	}
	t.Setenv("NAZHUVEM_SCHEDULE", "1-own.2")
	if count := passing(t, scenario, kind); count != 1 || one != nil || len(two) != 1 {
		t.Error(count, one, two)
	}
}

// TestBetweenTwoRunsNobodyIsBegunAnew is about writes, which count for the Run that makes them.
func TestBetweenTwoRunsNobodyIsBegunAnew(t *testing.T) {
	words := wordsOf(t, func(hub *Hub) {
		for _, name := range []string{"/a", "/b"} {
			hub.Request("GET", widgets, nil)
			hub.Run(func(_ context.Context, transport http.RoundTripper) error {
				_, _, err := Request{Method: "PATCH", Path: widgets + name, Manager: "c", Body: widget("")}.Send(transport)
				return err
			})
		}
	}, Restarts)
	if len(words) != 1 {
		t.Error(words)
	}
}

// odd is a disturbance that can't be compared.
type odd struct {
	silent
	within any
}

func TestOddDisturbances(t *testing.T) {
	kind := Kind(func(Place) []Disturbance { return []Disturbance{odd{within: []int{1}}, odd{within: []int{1}}} })
	words := wordsOf(t, func(hub *Hub) { gets(hub, 1, widgets) }, kind)
	if !reflect.DeepEqual(words, []string{"undisturbed", "1-own", "1-own.2"}) {
		t.Error(words)
	}
}

// gone is a scenario that fails where b is deleted.
func gone(hub *Hub) {
	for _, name := range []string{"a", "b"} {
		hub.Request("POST", widgets, named(name))
	}
	gets(hub, 1, widgets)
	if !hub.Get(widgets+"/b", &struct{}{}) {
		hub.Errorf("b is gone")
	}
}

func TestAWordPlaysItAgain(t *testing.T) {
	first := failing(t, gone)
	const word = "3-delete-default-widgets-b"
	if first.Schedule.Word() != word || first.Schedule.String() != "before event 3: delete "+widgets+"/b" {
		t.Error(first.Schedule)
	}
	contains(t, first.Error(), "\nagain: NAZHUVEM_SCHEDULE="+word+"\n")
	t.Setenv("NAZHUVEM_SCHEDULE", word)
	if second := failing(t, gone); second.Events != first.Events {
		t.Errorf("%s\nand not\n%s", second.Events, first.Events)
	}
	t.Setenv("NAZHUVEM_SCHEDULE", "3-delete-default-widgets-a")
	if count := passing(t, gone); count != 1 {
		t.Error(count)
	}
	t.Setenv("NAZHUVEM_SCHEDULE", "9-cut")
	inVain(t, "none of its schedules is 9-cut", gone)
}

// TestOneScriptIsKept is about schedules that fail beside the first one.
func TestOneScriptIsKept(t *testing.T) {
	room := t.TempDir()
	t.Setenv("TMPDIR", room)
	failure := failing(t, func(hub *Hub) {
		hub.Apply("alice", widgets+"/w", widget(""), false)
		gets(hub, 5, widgets+"/w")
		if hub.Revision() > 2 {
			hub.Errorf("somebody else writes")
		}
	}, Deletions, Changes)
	left, err := os.ReadDir(room)
	if err != nil || len(left) != 1 || filepath.Join(room, left[0].Name()) != failure.Script {
		t.Error(left, err)
	}
	if number := failure.Schedule.Place; number != 2 {
		t.Error(number)
	}
}

// TestWhoIsOverSendsNothing is about the transport of a work that has ended.
func TestWhoIsOverSendsNothing(t *testing.T) {
	failure := failing(t, func(hub *Hub) {
		var late http.RoundTripper
		hub.Run(func(_ context.Context, transport http.RoundTripper) error {
			late = transport
			_, _, err := Send(transport, "GET", widgets, nil)
			return err
		})
		if _, _, err := Send(late, "GET", widgets+"/late", nil); !errors.Is(err, errBegunAnew) {
			hub.Errorf("it isn't over: %v", err)
		}
		hub.Errorf("it ends")
	})
	if strings.Contains(failure.Error(), "late") || strings.Contains(failure.Said, "over") {
		t.Error(failure)
	}
}

// noting is a kind whose disturbances are noted as they happen.
type noting struct {
	lock sync.Mutex
	seen []string
}

type notedOne struct {
	Disturbance
	place int
	by    *noting
}

func (n notedOne) Happen(h *Hub) {
	n.by.lock.Lock()
	n.by.seen = append(n.by.seen, Schedule{Place: n.place, Disturbance: n.Disturbance}.Word())
	n.by.lock.Unlock()
	n.Disturbance.Happen(h)
}

func (n *noting) kind(place Place) []Disturbance {
	var all []Disturbance
	for _, one := range append(Deletions(place), Changes(place)...) {
		all = append(all, notedOne{one, place.Number, n})
	}
	return all
}

// taken are the disturbances that happened since, in the order of their names.
func (n *noting) taken() []string {
	seen := n.seen
	n.seen = nil
	sort.Strings(seen)
	return seen
}

func five(hub *Hub) {
	hub.Apply("alice", widgets+"/w", scaled(2), false)
	gets(hub, 5, widgets+"/w")
}

func TestShards(t *testing.T) {
	notes := &noting{}
	whole := passing(t, five, Kind(notes.kind))
	every := notes.taken()
	if whole != 11 || len(every) != 10 {
		t.Error(whole, every)
	}
	var parts []string
	counts := 0
	for _, shard := range []string{"1/3", "2/3", "3/3"} {
		t.Setenv("NAZHUVEM_SHARD", shard)
		counts += passing(t, five, Kind(notes.kind))
		parts = append(parts, notes.taken()...)
	}
	sort.Strings(parts)
	if !reflect.DeepEqual(parts, every) || counts != whole+2 {
		t.Error(parts, counts)
	}
	for _, shard := range []string{"3/2", "0/2", "x"} {
		t.Setenv("NAZHUVEM_SHARD", shard)
		if _, _, err := Search(types, five); err == nil || !strings.Contains(err.Error(), "NAZHUVEM_SHARD is "+shard+": 2/8 is") {
			t.Error(err)
		}
	}
}

// by are the pairs that a seed plays.
func by(t *testing.T, options ...Option) map[string]bool {
	t.Helper()
	notes := &recorder{}
	scenario := func(hub *Hub) {
		hub.Apply("alice", widgets+"/w", scaled(2), false)
		gets(hub, 2, widgets+"/w")
		notes.take(hub)
	}
	passing(t, scenario, append([]Option{Deletions, Changes, WithBudget(time.Hour)}, options...)...)
	return notes.words
}

// recorder has the words of what was played.
type recorder struct {
	lock  sync.Mutex
	words map[string]bool
	order []string
}

func (r *recorder) take(hub *Hub) {
	p := hub.t.(*player)
	word := p.steps[0].Word()
	r.lock.Lock()
	defer r.lock.Unlock()
	if r.words == nil {
		r.words = map[string]bool{}
	}
	r.words[word] = true
	r.order = append(r.order, word)
}

func TestTheSameSeedTheSameSchedules(t *testing.T) {
	whole := by(t, WithSeed(3))
	if len(whole) < 10 {
		t.Error(whole)
	}
	parts := map[string]bool{}
	for _, shard := range []string{"1/2", "2/2"} {
		t.Setenv("NAZHUVEM_SHARD", shard)
		for word := range by(t, WithSeed(3)) {
			parts[word] = true
		}
	}
	if !reflect.DeepEqual(parts, whole) {
		t.Error(parts, whole)
	}
	t.Setenv("NAZHUVEM_SHARD", "")
	t.Setenv("NAZHUVEM_SEED", "x")
	if _, _, err := Search(types, five); err == nil || err.Error() != "NAZHUVEM_SEED is x: a whole number is wanted" {
		t.Error(err)
	}
}

// TestASeedIsAnOrder is about what two seeds play first.
func TestASeedIsAnOrder(t *testing.T) {
	order := func(seed int64) []string {
		e, err := explorationOf(types, five, []Option{WithSeed(seed), WithBudget(time.Hour)})
		if err != nil {
			t.Fatal(err)
		}
		if failure, err := e.begin(); failure != nil || err != nil {
			t.Fatal(failure, err)
		}
		spare := &spare{settings: e.settings}
		defer spare.close()
		draw := e.bySeed(e.schedules[1:], time.Now().Add(time.Hour))
		var words []string
		for len(words) < 8 {
			it, _ := draw.next(spare)
			words = append(words, it.schedule.Word())
		}
		return words
	}
	one, same, other := order(3), order(3), order(4)
	if !reflect.DeepEqual(one, same) || reflect.DeepEqual(one, other) {
		t.Error(one, same, other)
	}
	t.Setenv("NAZHUVEM_SEED", "4")
	e, err := explorationOf(types, five, nil)
	if err != nil || e.seed != 4 {
		t.Error(e.seed, err)
	}
}

// TestShardsOfASeed is about parts of what a seed chooses, each number of which is one's.
func TestShardsOfASeed(t *testing.T) {
	var words [6]string
	for shard := 0; shard < 3; shard++ {
		e, err := explorationOf(types, five, []Option{WithSeed(3)})
		if err != nil {
			t.Fatal(err)
		}
		if failure, err := e.begin(); failure != nil || err != nil {
			t.Fatal(failure, err)
		}
		spare := &spare{settings: e.settings}
		defer spare.close()
		step := 2
		if e.shard, e.shards = shard, 2; shard == 2 {
			e.shard, e.shards, step = 0, 1, 1
		}
		draw := e.bySeed(e.schedules[1:3], time.Now().Add(time.Hour))
		for wanted := e.shard; wanted < len(words); wanted += step {
			number, isLeft := draw.nextNumber()
			it, err := draw.choice(number, draw.others, spare)
			if number != wanted || !isLeft || err != nil {
				t.Fatal(number, wanted, isLeft, err)
			}
			if word := it.schedule.Word(); words[number] == "" {
				words[number] = word
			} else if words[number] != word {
				t.Error(words[number], word)
			}
		}
	}
}

// TestSubtests is about schedules as go test's users choose them.
func TestSubtests(t *testing.T) {
	output := again(t, "^TestInnerSubtests$", nil, "-test.v")
	contains(t, output, "--- FAIL: TestInnerSubtests/3-delete-default-widgets-b", "--- PASS: TestInnerSubtests/undisturbed",
		"exploring_test.go", "b is gone", "again: NAZHUVEM_SCHEDULE=3-delete-default-widgets-b go test -run '^TestInnerSubtests$'")
	output = again(t, "^TestInnerSubtests$/^3-delete-default-widgets-a$", nil, "-test.v")
	contains(t, output, "--- PASS: TestInnerSubtests/3-delete-default-widgets-a", "1 schedules")
	if strings.Contains(output, "widgets-b") || strings.Contains(output, "FAIL") {
		t.Error(output)
	}
	output = again(t, "^TestInnerSubtests$", []string{"NAZHUVEM_SCHEDULE=3-delete-default-widgets-b"}, "-test.v")
	if strings.Count(output, "=== RUN") != 2 {
		t.Error(output)
	}
	output = again(t, "^TestInnerSubtests$", []string{"NAZHUVEM_SCHEDULE=3-cut"})
	contains(t, output, "none of its schedules is 3-cut")
}

func TestInnerSubtests(t *testing.T) {
	inner(t)
	Explore(t, types, gone, Deletions)
}

// TestParallel is about -parallel, which says how many schedules are played at a time.
func TestParallel(t *testing.T) {
	contains(t, again(t, "^TestInnerParallel$", nil, "-test.parallel=1", "-test.v"), "at most 1 at a time")
	contains(t, again(t, "^TestInnerParallel$", nil, "-test.parallel=3", "-test.v"), "at most 3 at a time")
}

func TestInnerParallel(t *testing.T) {
	inner(t)
	var lock sync.Mutex
	now, most := 0, 0
	count := func(more int) {
		lock.Lock()
		defer lock.Unlock()
		if now += more; now > most {
			most = now
		}
	}
	Explore(t, types, func(hub *Hub) {
		count(1)
		defer count(-1)
		five(hub)
		hub.Rest(50 * time.Millisecond)
	}, Deletions)
	t.Logf("at most %d at a time", most)
}

// TestABudgetEnds is about an exploration that would go on.
func TestABudgetEnds(t *testing.T) {
	began := time.Now()
	count := passing(t, ofBoth, WithBudget(300*time.Millisecond))
	if took := time.Since(began); count < 2 || took > 20*time.Second {
		t.Error(count, took)
	}
}
