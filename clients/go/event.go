package nazhuvem

import (
	"fmt"
	"regexp"
)

// Event is a request or a pump, as those see it who disturb it.
type Event struct {
	Kind, Method, Target string
	// IsControllers tells whether the controller does it, within Run.
	IsControllers bool
	// Status is that of the reply, or 0.
	Status int
	// number is its own among those that were observed, from 1; 0 where it wasn't.
	number int
	// content is the body of a request, reply the whole reply to one.
	content, reply []byte
	// lines are those that a pump brought.
	lines [][]byte
	// isHeld tells that a pump was held back.
	isHeld bool
}

// timeout is what client-go says otherwise in each watch.
var timeout = regexp.MustCompile(`&?timeoutSeconds=\d+`)

// asked is what is asked, without what came of it.
func (e Event) asked() string {
	if e.Method == "" {
		return e.Kind
	}
	return e.Method + " " + e.Target
}

// String is the event as a line.
func (e Event) String() string {
	if e.Status == 0 {
		return e.asked()
	}
	return fmt.Sprintf("%s %d", e.asked(), e.Status)
}

// observer is who is told of each event before and after it happens.
type observer interface {
	before(*Hub, *Event)
	after(*Hub, *Event)
}

// before tells of an event that is about to happen.
func (h *Hub) before(event *Event) {
	if event.IsControllers {
		h.lock.Lock()
		h.asked++
		h.lock.Unlock()
	}
	if h.observer != nil {
		h.observer.before(h, event)
	}
}

// after tells of an event that has happened.
func (h *Hub) after(event *Event) {
	h.lock.Lock()
	if h.settling != nil {
		h.settling.writes = append(h.settling.writes, *event)
	}
	h.lock.Unlock()
	if h.observer != nil {
		h.observer.after(h, event)
	}
}

// noted are the last events of a hub, for a test that fails.
type noted struct {
	rows   []row
	number int
}

func (n *noted) before(h *Hub, event *Event) {
	const most = 1000
	h.lock.Lock()
	defer h.lock.Unlock()
	n.number++
	event.number = n.number
	if len(n.rows) >= 2*most {
		n.rows = append([]row(nil), n.rows[most:]...)
	}
	n.rows = append(n.rows, row{n.number, *event})
}

func (n *noted) after(h *Hub, event *Event) {
	h.lock.Lock()
	defer h.lock.Unlock()
	for at := len(n.rows) - 1; at >= 0; at-- {
		if n.rows[at].number == event.number {
			n.rows[at].event = *event
			return
		}
	}
}
