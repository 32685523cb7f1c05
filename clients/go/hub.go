package nazhuvem

import (
	"bytes"
	"context"
	"encoding/json"
	"errors"
	"fmt"
	"net/http"
	"strings"
	"sync"
	"testing"
	"time"
)

// ErrRefused is the error of an event that can't happen; it changed nothing.
var ErrRefused = errors.New("refused")

// Hub is a running ssa-pipe: a server of which the test chooses what happens next. It is an
// http.RoundTripper. Any goroutine may use it; events are handled one after another.
type Hub struct {
	*server
	// t is who is told of failures.
	t reporter
	// observer is who is told of events, or nil.
	observer observer
	// isUnchecked tells that its requests may be refused.
	isUnchecked bool
}

// server is what all views of a hub share; the lock guards what is below it.
type server struct {
	lock sync.Mutex
	// moved is told of whatever a reader may wait for.
	moved   *sync.Cond
	pipe    *pipe
	script  []string
	highest uint64
	open    []*connection
	// over are the watches that are over and whose bodies aren't closed yet.
	over      []*connection
	held      int
	movesSelf bool
	now       time.Duration
	// brought are the lines that a pump brings, while there is one.
	brought   [][]byte
	isPumping bool
	// settling is what Settle sees, while there is one.
	settling *settling
	// heldBack is how many pumps brought nothing since lines were held back.
	heldBack uint64
	// hasEnded tells that a watch has ended or was cut since all had settled.
	hasEnded bool
	// stirs is how often something has happened or was read.
	stirs uint64
	run   *run
	// asked is how many events were the controller's, idleRuns how often the work of Run had
	// none.
	asked, idleRuns int
	// actions are what a schedule may let happen, by Meanwhile; acting is how many of them
	// happen now.
	actions []action
	acting  int
	err     error
}

// reporter is what a hub needs of a test.
type reporter interface {
	Helper()
	Errorf(format string, arguments ...any)
	FailNow()
}

// untested is the reporter of a hub that is of no test.
type untested struct{}

func (untested) Helper()                                { /* there is no test */ }
func (untested) Errorf(format string, arguments ...any) { panic(fmt.Sprintf(format, arguments...)) }
func (untested) FailNow()                               { panic("FailNow of a hub that is of no test") }

// Start starts a hub of these types; it ends with the test, and where that fails it logs its
// last events. The types are a types file, or a CustomResourceDefinition, a bundle or a folder of
// them; what of these isn't served is logged.
func Start(t testing.TB, types string, options ...HubOption) *Hub {
	t.Helper()
	hub, err := started(types, options)
	if err != nil {
		t.Fatal(err)
	}
	if lost := hub.pipe.types.lost; lost != "" {
		t.Log(lost)
	}
	events := &noted{}
	hub.t, hub.observer = t, events
	t.Cleanup(func() {
		hub.Close()
		if t.Failed() && len(events.rows) > 0 {
			t.Logf("events of the hub:\n%s", strings.Join(shown(events.rows), "\n"))
		}
	})
	return hub
}

// New starts a hub that is of no test, as Start does. Close ends it.
func New(types string, options ...HubOption) (*Hub, error) {
	hub, err := started(types, options)
	if err == nil {
		hub.pipe.types.tell()
	}
	return hub, err
}

func started(types string, options []HubOption) (*Hub, error) {
	s := settings{paths: []string{types}}
	for _, option := range options {
		option.start(&s)
	}
	pipe, err := startPipe(s)
	if err != nil {
		return nil, err
	}
	return over(pipe)
}

// over is a hub over a program that was started.
func over(pipe *pipe) (*Hub, error) {
	if err := pipe.begin(); err != nil {
		return nil, err
	}
	hub := &Hub{server: &server{pipe: pipe}, t: untested{}}
	hub.moved = sync.NewCond(&hub.lock)
	return hub, nil
}

// Close ends the program; readers of watches get an error.
func (h *Hub) Close() {
	h.lock.Lock()
	defer h.lock.Unlock()
	for len(h.open) > 0 {
		h.open[0].failed = errCut
		h.drop(h.open[0])
	}
	if h.err == nil {
		h.err = errors.New("the hub is closed")
		h.pipe.close()
	}
	h.moved.Broadcast()
}

// Errorf tells the test of a failure.
func (h *Hub) Errorf(format string, arguments ...any) {
	h.t.Helper()
	h.t.Errorf(format, arguments...)
}

// FailNow ends the test, or the play of Explore.
func (h *Hub) FailNow() { h.t.FailNow() }

// Helper marks the function that calls it as a test's helper, in a scenario of Explore: its
// lines are no place of a failure.
func (h *Hub) Helper() {
	if p, isPlayed := h.t.(*player); isPlayed {
		p.help()
	}
}

// Fatalf tells the test of a failure, and ends it.
func (h *Hub) Fatalf(format string, arguments ...any) {
	h.t.Helper()
	h.t.Errorf(format, arguments...)
	h.t.FailNow()
}

// must ends the test where an event of the test itself fails.
func (h *Hub) must(err error) {
	h.t.Helper()
	if err != nil {
		h.Fatalf("%v", err)
	}
}

// RoundTrip sends a request of the test, or of a controller that isn't run by Run.
func (h *Hub) RoundTrip(request *http.Request) (*http.Response, error) {
	return h.roundTrip(request, nil)
}

func (h *Hub) roundTrip(request *http.Request, by *run) (*http.Response, error) {
	data, content, err := requestBytes(request)
	if err != nil {
		return nil, err
	}
	if h.isDead(by) { // (what is no event at all)
		return nil, errBegunAnew
	}
	event := &Event{Kind: "request", Method: request.Method, Target: request.URL.RequestURI(), IsControllers: by != nil, content: content}
	h.before(event)
	c, err := h.send(data, by)
	if err != nil {
		return nil, err
	}
	response, err := c.response(request)
	if err != nil {
		return nil, err
	}
	event.Status, event.reply = response.StatusCode, c.whole
	h.after(event)
	if done := request.Context().Done(); done != nil && response.ContentLength < 0 {
		go h.leaveWith(request.Context(), c)
	}
	return response, nil
}

// leaveWith cuts a watch when its context is done.
func (s *server) leaveWith(ctx context.Context, c *connection) {
	select {
	case <-ctx.Done():
		s.lock.Lock()
		defer s.lock.Unlock()
		_ = s.leave(c, ctx.Err())
	case <-c.over:
	}
}

// Revision is the server's current version.
func (h *Hub) Revision() uint64 {
	h.t.Helper()
	h.lock.Lock()
	defer h.lock.Unlock()
	revision, err := h.revision()
	h.must(err)
	return revision
}

func (s *server) revision() (uint64, error) {
	one := s.pipe.types.first
	data := fmt.Sprintf("GET /apis/%s?limit=1 HTTP/1.1\r\nHost: hub\r\n\r\n", one)
	c, err := s.sendLocked([]byte(data), nil)
	if err != nil {
		return 0, err
	}
	_, list, _ := bytes.Cut(c.waiting, []byte("\r\n\r\n"))
	var found struct {
		Metadata struct {
			ResourceVersion uint64 `json:",string"`
		}
	}
	err = json.Unmarshal(list, &found)
	return found.Metadata.ResourceVersion, err
}

// Script is all that has happened, as a script that ssa-replay plays.
func (h *Hub) Script() string {
	h.lock.Lock()
	defer h.lock.Unlock()
	return strings.Join(h.script, "\n") + "\n"
}
