package nazhuvem

import (
	"flag"
	"fmt"
	"os"
	"regexp"
	"runtime"
	"strconv"
	"strings"
	"sync"
	"testing"
	"time"
)

// The variables of the word of the one schedule that is played, of the part of the schedules
// that is played, and of the seed by which schedules are chosen for a budget.
const (
	wordVariable  = "NAZHUVEM_SCHEDULE"
	shardVariable = "NAZHUVEM_SHARD"
	seedVariable  = "NAZHUVEM_SEED"
)

// After so many schedules of one disturbance a budget goes to pairs, too.
const firstSingles = 200

// exploration is a scenario with its schedules.
type exploration struct {
	settings settings
	scenario func(*Hub)
	kinds    []Kind
	budget   time.Duration
	seed     int64
	hasSeed  bool
	// isAnyOrder tells that events before a place needn't be those without a disturbance.
	isAnyOrder bool
	// test is whose subtests the schedules are; nil in a Search.
	test *testing.T
	// shard is which of so many parts is played, from 0.
	shard, shards int
	// schedules are the undisturbed one, and those of one disturbance.
	schedules []Schedule

	// The lock guards what is below it.
	lock sync.Mutex
	// hasFailed tells that a schedule has failed, so that no other is begun.
	hasFailed bool
	failures  []numbered
	err       error
	played    int
	// places are those of schedules that were played, words all that were chosen.
	places map[string][]Place
	words  map[string]bool
}

// numbered is the failure of the schedule that was begun as the one of this number.
type numbered struct {
	number  int
	failure *Failure
}

func explorationOf(types string, scenario func(*Hub), options []Option) (*exploration, error) {
	e := &exploration{settings: settings{paths: []string{types}}, scenario: scenario}
	e.places, e.words = map[string][]Place{}, map[string]bool{}
	for _, option := range options {
		option.explore(e)
	}
	if len(e.kinds) == 0 {
		e.kinds = Every()
	}
	var err error
	if e.shard, e.shards, err = shardOf(os.Getenv(shardVariable)); err != nil {
		return nil, err
	}
	if !e.hasSeed {
		e.seed, err = seedOf(os.Getenv(seedVariable))
	}
	return e, err
}

// shardOf is which part of the schedules is played, from 0, of how many.
func shardOf(text string) (int, int, error) {
	if text == "" {
		return 0, 1, nil
	}
	found := regexp.MustCompile(`^(\d+)/(\d+)$`).FindStringSubmatch(text)
	if found != nil {
		part, _ := strconv.Atoi(found[1])
		if parts, _ := strconv.Atoi(found[2]); 1 <= part && part <= parts {
			return part - 1, parts, nil
		}
	}
	return 0, 0, fmt.Errorf("%s is %s: 2/8 is the second of eight parts", shardVariable, text)
}

func seedOf(text string) (int64, error) {
	if text == "" {
		return 1, nil
	}
	seed, err := strconv.ParseInt(text, 10, 64)
	if err != nil {
		return 0, fmt.Errorf("%s is %s: a whole number is wanted", seedVariable, text)
	}
	return seed, nil
}

// play plays the scenario under a schedule over a program that was started, and returns the
// places before its events and how it failed, if it did.
func (e *exploration) play(schedule Schedule, pipe *pipe, isBySeed bool) ([]Place, *Failure, error) {
	hub, err := over(pipe)
	if err != nil {
		return nil, nil, err
	}
	defer hub.Close()
	p := &player{steps: schedule.steps(), isAnyOrder: e.isAnyOrder}
	hub.t, hub.observer = p, p
	wasFailed := e.isTestFailed()
	p.perform(e.scenario, hub)
	if !p.hasFailed() && !wasFailed && e.isTestFailed() {
		p.Errorf("the test's own Errorf was called, which knows no schedule: call that of the hub")
	}
	if !p.hasFailed() {
		places, err := p.end(hub.idle())
		return places, nil, err
	}
	failure, err := p.failure(hub, schedule, e.again(schedule, isBySeed))
	return nil, failure, err
}

// isTestFailed tells whether the test was failed by another than a schedule.
func (e *exploration) isTestFailed() bool {
	e.lock.Lock()
	defer e.lock.Unlock()
	return e.test != nil && !e.hasFailed && e.test.Failed()
}

// again is what plays a schedule again.
func (e *exploration) again(schedule Schedule, isBySeed bool) string {
	said := fmt.Sprintf("again: %s=%s", wordVariable, schedule.Word())
	if e.test != nil {
		var names []string
		for _, name := range strings.Split(e.test.Name(), "/") {
			names = append(names, "^"+regexp.QuoteMeta(name)+"$")
		}
		said += " go test -run " + quoted(strings.Join(names, "/"))
	}
	if isBySeed {
		said = fmt.Sprintf("seed: %d\n%s", e.seed, said)
	}
	return said
}

// begin finds the schedules by a play without a disturbance.
func (e *exploration) begin() (*Failure, error) {
	pipe, err := startPipe(e.settings)
	if err != nil {
		return nil, err
	}
	places, failure, err := e.play(Schedule{}, pipe, false)
	if failure != nil || err != nil {
		return failure, err
	}
	var events []Event
	for _, place := range places {
		events = append(events, place.Event)
	}
	e.schedules = append([]Schedule{{events: events}}, singles(places, e.kinds)...)
	return nil, nil
}

// chosen is a schedule that is played next.
type chosen struct {
	schedule Schedule
	number   int
	isBySeed bool
	// failure is how it failed, where it was played already.
	failure *Failure
}

// each plays what next chooses, a few at a time, until it chooses nothing or one fails.
func (e *exploration) each(next func(*spare) (chosen, bool)) {
	var workers sync.WaitGroup
	for n := 0; n < atATime(); n++ {
		workers.Add(1)
		go func() {
			defer workers.Done()
			spare := &spare{settings: e.settings}
			defer spare.close()
			for {
				one, isOne := next(spare)
				if !isOne || !e.isGoingOn() {
					return
				}
				e.one(one, spare)
			}
		}()
	}
	workers.Wait()
}

// atATime is how many schedules are played at a time: those of -parallel, where it is given.
// Plays wait for their programs, and some for a clock.
func atATime() int {
	count := 2 * runtime.GOMAXPROCS(0)
	flag.Visit(func(given *flag.Flag) {
		if given.Name == "test.parallel" {
			if asked, err := strconv.Atoi(given.Value.String()); err == nil && asked > 0 {
				count = asked
			}
		}
	})
	return count
}

func (e *exploration) isGoingOn() bool {
	e.lock.Lock()
	defer e.lock.Unlock()
	return !e.hasFailed && e.err == nil
}

// one plays a schedule, as a subtest where there is a test.
func (e *exploration) one(it chosen, spare *spare) {
	if e.test == nil {
		_, _ = e.result(it, spare)
		return
	}
	e.test.Run(it.schedule.Word(), func(t *testing.T) {
		failure, err := e.result(it, spare)
		if err != nil {
			t.Fatal(err)
		} else if failure != nil {
			said, _, _ := strings.Cut(failure.Said, "\n")
			t.Fatalf("%s: %s", it.schedule, said)
		}
	})
}

// result plays a schedule, where it wasn't yet, and notes how that went.
func (e *exploration) result(it chosen, spare *spare) (*Failure, error) {
	failure := it.failure
	var places []Place
	var err error
	if failure == nil {
		places, failure, err = e.playNext(it.schedule, spare, it.isBySeed)
	}
	e.lock.Lock()
	defer e.lock.Unlock()
	e.played++
	e.hasFailed = e.hasFailed || failure != nil || err != nil
	if failure != nil {
		e.failures = append(e.failures, numbered{it.number, failure})
	}
	if err != nil && e.err == nil {
		e.err = err
	}
	if e.budget > 0 && it.schedule.Then == nil && it.failure == nil {
		e.places[it.schedule.Word()] = places
	}
	return failure, err
}

// playNext plays a schedule over the spare program.
func (e *exploration) playNext(schedule Schedule, spare *spare, isBySeed bool) ([]Place, *Failure, error) {
	pipe, err := spare.next()
	if err != nil {
		return nil, nil, err
	}
	return e.play(schedule, pipe, isBySeed)
}

// spare is the program of the next play, which starts while another one is played.
type spare struct {
	settings settings
	pipe     *pipe
	err      error
}

func (s *spare) next() (*pipe, error) {
	if s.pipe == nil && s.err == nil {
		s.pipe, s.err = startPipe(s.settings)
	}
	pipe, err := s.pipe, s.err
	s.pipe, s.err = startPipe(s.settings)
	return pipe, err
}

func (s *spare) close() {
	if s.pipe != nil {
		s.pipe.close()
	}
}

// some chooses these schedules in order, as far as they are of this part of all.
func (e *exploration) some(schedules []Schedule, end time.Time) func(*spare) (chosen, bool) {
	at := 0
	return func(*spare) (chosen, bool) {
		e.lock.Lock()
		defer e.lock.Unlock()
		for ; at < len(schedules); at++ {
			isOver := !end.IsZero() && !time.Now().Before(end)
			if at == 0 || !isOver && at%e.shards == e.shard {
				it := chosen{schedule: schedules[at], number: at}
				e.words[it.schedule.Word()] = true
				at++
				return it, true
			}
		}
		return chosen{}, false
	}
}

// explore plays the schedules, or the one of a word. An error is none of a schedule that fails.
func (e *exploration) explore() error {
	if word := os.Getenv(wordVariable); word != "" {
		schedule, err := e.named(word)
		if err == nil {
			e.each(e.some([]Schedule{schedule}, time.Time{}))
		}
		return err
	}
	first := len(e.schedules)
	var end time.Time
	if e.budget > 0 {
		end = time.Now().Add(e.budget)
		if first > 1+firstSingles {
			first = 1 + firstSingles
		}
	}
	e.each(e.some(e.schedules[:first], end))
	if e.budget > 0 && e.isGoingOn() {
		e.each(e.bySeed(e.schedules[first:], end).next)
	}
	return nil
}

// first is the failure of the schedule that was begun first. The scripts of others go.
func (e *exploration) first() *Failure {
	var best *Failure
	number := 0
	for _, one := range e.failures {
		if best == nil || one.number < number {
			best, number = one.failure, one.number
		}
	}
	for _, one := range e.failures {
		if one.failure != best {
			os.Remove(one.failure.Script)
			os.Remove(typesBeside(one.failure.Script))
		}
	}
	return best
}

// Search plays a scenario twice without a disturbance, then under each schedule of one
// disturbance (of the kinds among the options, or of Every), each time on a hub of its own, a
// few at a time. It returns the first schedule that fails, or nil, and how many were played.
// An error says that there are no types or no program, or wraps ErrScenario: the scenario
// tests nothing, or isn't the same each time.
func Search(types string, scenario func(*Hub), options ...Option) (*Failure, int, error) {
	e, err := explorationOf(types, scenario, options)
	if err != nil {
		return nil, 0, err
	}
	failure, err := e.begin()
	if failure != nil || err != nil {
		return failure, 1, err
	}
	if its, err := typesOf(e.settings.paths); err == nil {
		its.tell()
	}
	if err := e.explore(); err != nil {
		return nil, e.played, err
	}
	if failure := e.first(); failure != nil {
		return failure, e.played, nil
	}
	return nil, e.played, e.err
}

// Explore is Search for a test: each schedule is a subtest whose name is the schedule's word,
// so -run plays some of them, and -parallel says how many at a time. The first that fails
// ends it, and is shown. A scenario fails by the Errorf and Fatalf of its hub, or by a panic.
//
// The word of a failure in the variable NAZHUVEM_SCHEDULE plays this schedule alone, and
// NAZHUVEM_SHARD=2/8 the second of eight parts of them.
func Explore(t *testing.T, types string, scenario func(*Hub), options ...Option) {
	t.Helper()
	e, err := explorationOf(types, scenario, options)
	if err != nil {
		t.Fatal(err)
	}
	e.test = t
	failure, err := e.begin()
	if err != nil {
		t.Fatal(err)
	} else if failure != nil {
		t.Fatal(failure)
	}
	if its, err := typesOf(e.settings.paths); err == nil && its.lost != "" {
		t.Log(its.lost)
	}
	if err := e.explore(); err != nil {
		t.Fatal(err)
	}
	if failure := e.first(); failure != nil {
		t.Fatal(failure)
	} else if e.err != nil {
		t.Fatal(e.err)
	}
	t.Logf("%d schedules", e.played)
}

// named is the schedule of a word.
func (e *exploration) named(word string) (Schedule, error) {
	head, tail, isPair := strings.Cut(word, "+")
	for _, schedule := range e.schedules {
		if schedule.Word() != head {
			continue
		}
		if !isPair {
			return schedule, nil
		}
		pipe, err := startPipe(e.settings)
		if err != nil {
			return Schedule{}, err
		}
		places, failure, err := e.play(schedule, pipe, false)
		if err != nil {
			return Schedule{}, err
		} else if failure != nil {
			return schedule, nil
		}
		for _, second := range e.secondOf(schedule, places) {
			if second.Word() == tail {
				pair := schedule
				pair.Then = &second
				return pair, nil
			}
		}
	}
	return Schedule{}, fmt.Errorf("%w: none of its schedules is %s: run the one test whose failure said it, with the same kinds",
		ErrScenario, word)
}

// secondOf is what may happen after a disturbance, or at its place.
func (e *exploration) secondOf(first Schedule, places []Place) []Schedule {
	var found []Schedule
	for _, one := range singles(places, e.kinds) {
		isFirst := one.Place == first.Place && isEqual(one.Disturbance, first.Disturbance)
		if one.Place >= first.Place && !isFirst {
			found = append(found, one)
		}
	}
	return found
}
