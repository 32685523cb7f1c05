package nazhuvem

import (
	"encoding/json"
	"errors"
	"fmt"
	"net/http"
	"os"
	"path/filepath"
	"runtime"
	"strings"
	"sync"
)

// ErrScenario is the error of a scenario that tests nothing, or isn't the same each time.
var ErrScenario = errors.New("the scenario can't be explored")

// Failure is a schedule under which a scenario failed.
type Failure struct {
	Schedule Schedule
	// Events has all events, a line each (the controller's with a star), with the
	// disturbances among them; the text of the failure shows some.
	Events string
	// Said is what the scenario said, with file and line.
	Said string
	// Script is the path of the script of all that happened, which ssa-replay plays.
	Script string
	text   string
}

// Error is the failure as a text.
func (f *Failure) Error() string { return f.text }

// player lets the disturbances of a schedule happen at their places, and notes all places and
// events. It is the reporter of a play, too.
type player struct {
	lock       sync.Mutex
	steps      []Schedule
	isAnyOrder bool
	// isDisturbing tells that a disturbance happens, to which belongs what happens meanwhile.
	isDisturbing bool
	number       int
	writes       int
	// objects are those that are there; places share them until a write changes them.
	objects []Object
	places  []Place
	rows    []row
	said    []string
	helpers map[string]bool
	// differs is how the play is another than that without a disturbance was.
	differs string
}

func (p *player) before(h *Hub, event *Event) {
	happening := p.note(event, h.Watches(), h.actionNames())
	if len(happening) == 0 {
		return
	}
	for _, one := range happening {
		one.Happen(&Hub{server: h.server, t: h.t, isUnchecked: true})
	}
	p.lock.Lock()
	defer p.lock.Unlock()
	p.isDisturbing = false
}

// note notes an event and the place before it, and returns the disturbances that happen
// there.
func (p *player) note(event *Event, watches int, actions []string) []Disturbance {
	p.lock.Lock()
	defer p.lock.Unlock()
	if p.isDisturbing {
		return nil
	}
	p.number++
	event.number = p.number
	if was := p.was(p.number); was != nil {
		p.differ(event.asked(), was.asked())
	}
	if !event.IsControllers {
		p.writes = 0
	}
	p.places = append(p.places, Place{p.number, *event, p.objects, watches, p.writes, actions})
	var happening []Disturbance
	for _, step := range p.steps {
		if step.Place == p.number && step.Disturbance != nil {
			happening = append(happening, step.Disturbance)
			p.rows = append(p.rows, row{0, Event{Kind: step.Disturbance.String()}})
		}
	}
	p.isDisturbing = happening != nil
	p.rows = append(p.rows, row{p.number, *event})
	return happening
}

func (p *player) after(_ *Hub, event *Event) {
	p.lock.Lock()
	defer p.lock.Unlock()
	if event.number == 0 {
		return
	}
	p.places[event.number-1].Event = *event
	at := len(p.rows) - 1
	for p.rows[at].number != event.number {
		at--
	}
	p.rows[at].event = *event
	isPlace := false
	for _, step := range p.steps {
		isPlace = isPlace || step.Place == event.number
	}
	if was := p.was(event.number); was != nil && !isPlace {
		p.differ(event.String(), was.String())
	}
	if isWrite(event.Method) && (event.Status == http.StatusOK || event.Status == http.StatusCreated) {
		p.write(event)
	}
}

// write notes which objects are there after a write.
func (p *player) write(event *Event) {
	if event.IsControllers {
		p.writes++
	}
	path, _, _ := strings.Cut(event.Target, "?")
	if path = objectWritten(event.Method, path, event.content); path == "" {
		return
	}
	object := Object{Path: path}
	_ = json.Unmarshal(event.content, &object) // (a body that is no object was refused)
	object.Path = path
	isThere := false
	var left []Object
	for _, one := range p.objects {
		switch {
		case one.Path != path:
			left = append(left, one)
		case event.Method != http.MethodDelete:
			left = append(left, object)
			isThere = true
		}
	}
	if event.Method != http.MethodDelete && !isThere {
		left = append(left, object)
	}
	p.objects = left
}

// was is the event of this number, as it was without the next disturbance; nil where that
// isn't known.
func (p *player) was(number int) *Event {
	for _, step := range p.steps {
		if step.events != nil && (step.Place == 0 || number <= step.Place) {
			if number <= len(step.events) {
				return &step.events[number-1]
			}
			return &Event{Kind: "none"}
		}
	}
	return nil
}

// differ notes that an event before a disturbance is another than it was.
func (p *player) differ(told, was string) {
	if p.isAnyOrder || p.differs != "" || told == was {
		return
	}
	if timeout.ReplaceAllString(told, "") != timeout.ReplaceAllString(was, "") {
		p.differs = fmt.Sprintf("event %d was %s, and now is %s", p.number, was, told)
	}
}

// end is the places of a whole play, or the error that the scenario tests nothing.
func (p *player) end(idleRuns int) ([]Place, error) {
	p.lock.Lock()
	defer p.lock.Unlock()
	switch {
	case p.number == 0:
		return nil, fmt.Errorf("%w: nothing happens in it", ErrScenario)
	case idleRuns > 0 && p.steps[0].Disturbance == nil:
		return nil, fmt.Errorf("%w: the work of a Run sends nothing by its transport, and pumps nothing", ErrScenario)
	}
	last := p.steps[len(p.steps)-1]
	all := last.Place
	if all == 0 {
		all = len(last.events)
	}
	if all > p.number && p.differs == "" && !p.isAnyOrder {
		p.differs = fmt.Sprintf("it ended %d events before the place or the end", all-p.number)
	}
	return append([]Place(nil), p.places...), p.check()
}

// check is the error of a play that was another than that without a disturbance.
func (p *player) check() error {
	if p.differs == "" {
		return nil
	}
	return fmt.Errorf("%w: it isn't the same each time: %s (no clock but the hub's, no chance, nothing kept between plays; "+
		"WithAnyOrder() where goroutines of the controller send in any order)", ErrScenario, p.differs)
}

// Helper does nothing: help is what a scenario calls.
func (p *player) Helper() {}

// help marks the function that calls Hub.Helper as one that is no place of a failure.
func (p *player) help() {
	frame := p.callers(func(frame runtime.Frame) bool { return true })
	p.lock.Lock()
	defer p.lock.Unlock()
	if p.helpers == nil {
		p.helpers = map[string]bool{}
	}
	p.helpers[frame.Function] = true
}

// callers is the innermost caller that isn't the package's and holds so; none where there is
// no such caller.
func (p *player) callers(holds func(runtime.Frame) bool) runtime.Frame {
	pcs := make([]uintptr, 64)
	frames := runtime.CallersFrames(pcs[:runtime.Callers(3, pcs)])
	for isMore := true; isMore; {
		var frame runtime.Frame
		if frame, isMore = frames.Next(); !isOwn(frame) && frame.File != "" && holds(frame) {
			return frame
		}
	}
	return runtime.Frame{}
}

// Errorf notes what the scenario says, with the file and the line.
func (p *player) Errorf(format string, arguments ...any) {
	said := fmt.Sprintf(format, arguments...)
	p.lock.Lock()
	defer p.lock.Unlock()
	p.said = append(p.said, p.caller()+said)
}

// FailNow ends the play.
func (p *player) FailNow() {
	p.lock.Lock()
	if len(p.said) == 0 {
		p.said = append(p.said, p.caller()+"FailNow")
	}
	p.lock.Unlock()
	runtime.Goexit()
}

// caller is the file and the line of the caller that is neither the package's nor a helper,
// as a failure begins with them.
func (p *player) caller() string {
	frame := p.callers(func(frame runtime.Frame) bool { return !p.helpers[frame.Function] })
	if frame.File == "" {
		return ""
	}
	return placeOf(frame) + ": "
}

func placeOf(frame runtime.Frame) string {
	return fmt.Sprintf("%s:%d", filepath.Base(frame.File), frame.Line)
}

// ownPrefix is that of the names of the package's functions.
var ownPrefix = func() string {
	pc, _, _, _ := runtime.Caller(0)
	name := runtime.FuncForPC(pc).Name()
	slash := strings.LastIndex(name, "/")
	return name[:slash+1+strings.Index(name[slash+1:], ".")+1]
}()

// isOwn is whether a frame is the package's, or one of the language's own.
func isOwn(frame runtime.Frame) bool {
	isOurs := strings.HasPrefix(frame.Function, ownPrefix) && !strings.HasSuffix(frame.File, "_test.go")
	return isOurs || strings.HasPrefix(frame.Function, "runtime.") || strings.HasPrefix(frame.Function, "testing.")
}

// panicked notes a panic with its stack, as far as it isn't the package's.
func (p *player) panicked(why any) {
	const most = 12
	lines := []string{fmt.Sprintf("panic: %v", why)}
	pcs := make([]uintptr, 64)
	frames := runtime.CallersFrames(pcs[:runtime.Callers(1, pcs)])
	for isMore := true; isMore && len(lines) <= most; {
		var frame runtime.Frame
		if frame, isMore = frames.Next(); !isOwn(frame) && frame.File != "" {
			lines = append(lines, fmt.Sprintf("    %s %s", placeOf(frame), filepath.Base(frame.Function)))
		}
	}
	p.lock.Lock()
	defer p.lock.Unlock()
	p.said = append(p.said, strings.Join(lines, "\n"))
}

// perform plays a scenario to its end, of whatever kind that is.
func (p *player) perform(scenario func(*Hub), hub *Hub) {
	const left = "the scenario was ended by another test's Fatal, FailNow or Skip, which says why: call those of the hub"
	done := make(chan struct{})
	go func() {
		defer close(done)
		isOver := false
		defer func() {
			if why := recover(); why != nil {
				p.panicked(why)
			} else if !isOver && !p.hasFailed() {
				p.Errorf(left)
			}
		}()
		scenario(hub)
		isOver = true
	}()
	<-done
}

func (p *player) hasFailed() bool {
	p.lock.Lock()
	defer p.lock.Unlock()
	return len(p.said) > 0
}

// failure is how the play failed, or the error that it was another than that without a
// disturbance.
func (p *player) failure(hub *Hub, schedule Schedule, again string) (*Failure, error) {
	const most = 14
	p.lock.Lock()
	defer p.lock.Unlock()
	if err := p.check(); err != nil {
		return nil, err
	}
	var events []string
	for _, row := range p.rows {
		events = append(events, row.String())
	}
	said := strings.Join(p.said, "\n")
	script, err := keep(hub.Script())
	if err != nil {
		return nil, err
	}
	replay, err := hub.pipe.replay(script)
	if err != nil {
		return nil, err
	}
	lines := append([]string{schedule.String()}, shown(p.rows)...)
	shortly := strings.Split(strings.TrimSpace(said), "\n")
	if len(shortly) > most {
		shortly = append(shortly[:most], "..")
	}
	lines = append(lines, shortly...)
	lines = append(lines, again, "script: "+script, "replay: "+replay)
	return &Failure{schedule, strings.Join(events, "\n"), said, script, strings.Join(lines, "\n")}, nil
}

func keep(script string) (string, error) {
	file, err := os.CreateTemp("", "nazhuvem-*.jsonl")
	if err != nil {
		return "", err
	}
	defer file.Close()
	_, err = file.WriteString(script)
	return file.Name(), err
}
