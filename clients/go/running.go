package nazhuvem

import (
	"bytes"
	"context"
	"errors"
	"fmt"
	"net/http"
	"time"
)

// errBegunAnew is what the requests of a controller get that was begun anew.
var errBegunAnew = errors.New("the controller was begun anew, or its work has ended")

// run is one incarnation of the controller: the transport that its requests take.
type run struct {
	hub    *Hub
	isDead bool
	end    context.CancelFunc
	// before is how many events were the controller's when it began.
	before int
}

// RoundTrip sends a request of the controller.
func (r *run) RoundTrip(request *http.Request) (*http.Response, error) {
	return r.hub.roundTrip(request, r)
}

// Run does this work as the controller: what Explore disturbs are the requests that it
// sends by the transport, and the pumps meanwhile. Where the schedule begins the controller
// anew, its requests fail, its watches are cut and the context is cancelled; once the work
// has returned it is done from its beginning, with another transport. An error that it
// returns else is a failure of the test. Where Run is called several times, each call has
// another transport, and the watches of one are cut at its end.
func (h *Hub) Run(work func(ctx context.Context, transport http.RoundTripper) error) {
	h.t.Helper()
	for {
		ctx, end := context.WithCancel(context.Background())
		now := &run{hub: h, end: end}
		h.setRun(now)
		err := work(ctx, now)
		isDead := h.endRun(now)
		if isDead {
			continue
		}
		if err != nil {
			h.Fatalf("the controller: %v", err)
		}
		return
	}
}

func (h *Hub) setRun(now *run) {
	h.lock.Lock()
	defer h.lock.Unlock()
	h.run, now.before = now, h.asked
}

// endRun ends the work of a controller and tells whether it was to be begun anew.
func (h *Hub) endRun(now *run) bool {
	now.end()
	h.lock.Lock()
	defer h.lock.Unlock()
	wasDead := now.isDead
	h.kill(now)
	h.run = nil
	if !wasDead && h.asked == now.before {
		h.idleRuns++
	}
	return wasDead
}

// kill lets an incarnation of the controller send nothing more, and cuts its watches.
func (s *server) kill(now *run) {
	now.isDead = true
	for _, c := range append([]*connection(nil), s.open...) {
		if c.run == now {
			_ = s.leave(c, errBegunAnew)
		}
	}
	now.end()
}

// isDead tells whether a controller was begun anew, or its work has ended.
func (s *server) isDead(by *run) bool {
	s.lock.Lock()
	defer s.lock.Unlock()
	return by != nil && by.isDead
}

func (s *server) isRunning() bool {
	s.lock.Lock()
	defer s.lock.Unlock()
	return s.run != nil
}

// action is something that a schedule may let happen.
type action struct {
	name   string
	happen func()
}

// Meanwhile says what the schedule may let happen at a place, "another candidate steps" say.
// Without a schedule of Explore it doesn't. That an object is gone or another than the action
// expects (404, 409) is no failure there.
func (h *Hub) Meanwhile(name string, happen func()) {
	h.lock.Lock()
	defer h.lock.Unlock()
	h.actions = append(h.actions, action{name, happen})
}

// act lets happen what Meanwhile named so.
func (s *server) act(name string) {
	s.lock.Lock()
	s.acting++
	happen := func() {}
	for _, one := range s.actions {
		if one.name == name {
			happen = one.happen
		}
	}
	s.lock.Unlock()
	defer func() {
		s.lock.Lock()
		defer s.lock.Unlock()
		s.acting--
	}()
	happen()
}

func (s *server) isActing() bool {
	s.lock.Lock()
	defer s.lock.Unlock()
	return s.acting > 0
}

// actionNames are the names of what a schedule may let happen.
func (s *server) actionNames() []string {
	s.lock.Lock()
	defer s.lock.Unlock()
	var names []string
	for _, one := range s.actions {
		names = append(names, one.name)
	}
	return names
}

// ErrNotSettled is the error of a Settle whose steps go on changing something.
var ErrNotSettled = errors.New("nothing has settled")

// settling is what Settle sees: the lines that watches brought, and the last events.
type settling struct {
	heard  [][]byte
	writes []Event
}

// Settle does this step again until it changes no object, no watch brings a new line and none
// is held back. After a hundred times that is an error, which says who changes what.
//
// A line is new that the step before didn't bring, too: one whose watch begins without a
// version hears of all objects in each step. Where a watch has ended or was cut since the
// last time that all had settled, that has to be so four times one after another: a
// controller may see it in one step, list again in the next and reconcile in another.
func (h *Hub) Settle(ctx context.Context, step func() error) error {
	const most = 100
	seen := &settling{}
	before := h.setSettling(seen)
	defer h.setSettling(before)
	standing, _, err := h.standing()
	if err != nil {
		return err
	}
	var lines [][]byte
	for n, quiet := 0, 0; n < most; n++ {
		if err := step(); err != nil {
			return err
		}
		if ctx.Err() != nil {
			return ctx.Err()
		}
		now, isHeld, err := h.standing()
		if err != nil {
			return err
		}
		heard := h.heardIn(seen)
		isNew := len(heard) > 0 && !sameLines(heard, lines)
		quiet++
		if now != standing || isNew || isHeld {
			quiet = 0
		}
		standing, lines = now, heard
		if h.hasSettled(quiet) {
			return nil
		}
	}
	return h.notSettled(seen, most)
}

func (s *server) setSettling(now *settling) *settling {
	s.lock.Lock()
	defer s.lock.Unlock()
	before := s.settling
	s.settling = now
	return before
}

// heardIn is what a step brought. Of the events the last are kept.
func (s *server) heardIn(seen *settling) [][]byte {
	const most = 200
	s.lock.Lock()
	defer s.lock.Unlock()
	heard := seen.heard
	seen.heard = nil
	if more := len(seen.writes) - most; more > 0 {
		seen.writes = append([]Event(nil), seen.writes[more:]...)
	}
	return heard
}

func (s *server) notSettled(seen *settling, steps int) error {
	s.lock.Lock()
	defer s.lock.Unlock()
	if who := fight(seen.writes, 0); who != "" {
		return fmt.Errorf("%w after %d steps: %s", ErrNotSettled, steps, who)
	}
	return fmt.Errorf("%w after %d steps", ErrNotSettled, steps)
}

func sameLines(some, others [][]byte) bool {
	return bytes.Equal(bytes.Join(some, []byte("\n")), bytes.Join(others, []byte("\n")))
}

// standing is where the hub stands (its version, and how many pumps brought nothing since
// lines were held back), and whether lines are held back.
func (s *server) standing() ([2]uint64, bool, error) {
	s.lock.Lock()
	defer s.lock.Unlock()
	revision, err := s.revision()
	return [2]uint64{revision, s.heldBack}, s.held > 0, err
}

// hasSettled tells whether all has settled after so many quiet steps one after another.
func (s *server) hasSettled(quiet int) bool {
	const afterEnd = 4 // the step of a watch's end, and one each to see it, to list and to reconcile
	s.lock.Lock()
	defer s.lock.Unlock()
	if quiet == 0 || s.hasEnded && quiet < afterEnd {
		return false
	}
	s.hasEnded = false
	return true
}

// Until waits until this holds, for ten seconds of the clock at most, and looks each
// millisecond.
func Until(ctx context.Context, holds func() bool) error {
	ctx, end := context.WithTimeout(ctx, 10*time.Second)
	defer end()
	for !holds() {
		select {
		case <-ctx.Done():
			return ctx.Err()
		case <-time.After(time.Millisecond):
		}
	}
	return nil
}

// idle is how often the work of Run asked nothing.
func (s *server) idle() int {
	s.lock.Lock()
	defer s.lock.Unlock()
	return s.idleRuns
}
