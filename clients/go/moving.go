package nazhuvem

import (
	"encoding/json"
	"fmt"
	"strings"
	"time"
)

// What the test lets happen: lines of watches, time, compactions, cuts.

// Pump lets each watch, in the order in which they opened, write all that it has to, and
// returns how many lines came.
func (h *Hub) Pump() int {
	h.t.Helper()
	event := &Event{Kind: "pump", IsControllers: h.isRunning()}
	h.before(event)
	h.lock.Lock()
	isHeld := h.held > 0
	lines, err := h.pump()
	h.lock.Unlock()
	h.must(err)
	event.lines, event.isHeld = lines, isHeld
	h.after(event)
	return len(lines)
}

// pump is what Pump does, and the lines that came.
func (s *server) pump() ([][]byte, error) {
	if s.held > 0 {
		s.held--
		s.heldBack++
		return nil, nil
	}
	s.brought, s.isPumping = nil, true
	defer func() { s.isPumping = false }()
	const most = 500
	for _, c := range append([]*connection(nil), s.open...) {
		for last := -1; !c.isOver() && last != len(s.brought); {
			last = len(s.brought)
			if _, err := s.play(fmt.Sprintf(`{"pump":[%d,%d]}`, c.number, most)); err != nil {
				return nil, err
			}
		}
	}
	return s.brought, nil
}

// MoveByThemselves says whether watches write their lines as soon as something is written,
// without a Pump. At first they don't.
func (h *Hub) MoveByThemselves(isSo bool) {
	h.t.Helper()
	h.lock.Lock()
	defer h.lock.Unlock()
	h.movesSelf = isSo
	h.must(h.movedOn())
}

func (s *server) movedOn() error {
	if !s.movesSelf {
		return nil
	}
	_, err := s.pump()
	return err
}

// Tick lets so much of the hub's time pass: bookmarks are written, and watches end whose
// time is over.
func (h *Hub) Tick(passed time.Duration) {
	h.t.Helper()
	h.lock.Lock()
	defer h.lock.Unlock()
	h.now += passed
	_, err := h.play(fmt.Sprintf(`{"tick":%d}`, h.now.Milliseconds()))
	h.must(err)
	h.must(h.movedOn())
}

// Now is the hub's time since its start.
func (h *Hub) Now() time.Duration {
	h.lock.Lock()
	defer h.lock.Unlock()
	return h.now
}

// Compact lets the server forget the changes up to the current version.
func (h *Hub) Compact() {
	h.t.Helper()
	h.lock.Lock()
	defer h.lock.Unlock()
	revision, err := h.revision()
	h.must(err)
	_, err = h.play(fmt.Sprintf(`{"compact":%d}`, revision))
	h.must(err)
}

// Cut cuts the connections of all watches.
func (h *Hub) Cut() {
	h.t.Helper()
	h.lock.Lock()
	defer h.lock.Unlock()
	for _, c := range append([]*connection(nil), h.open...) {
		h.hasEnded = true
		h.must(h.leave(c, errCut))
	}
}

// Hold holds the lines of watches back: the next so many pumps bring none.
func (h *Hub) Hold(pumps int) {
	h.lock.Lock()
	defer h.lock.Unlock()
	h.held += pumps
}

// Watches is how many watches are open.
func (h *Hub) Watches() int {
	h.lock.Lock()
	defer h.lock.Unlock()
	return len(h.open)
}

// Event lets any line of a script happen, {"client": "send"} say, and returns what it
// brought; a string is the line itself. It is an error that wraps ErrRefused where it changed
// nothing.
func (h *Hub) Event(line any) (Answer, error) {
	text, isText := line.(string)
	if !isText {
		data, err := json.Marshal(line)
		if err != nil {
			return Answer{}, err
		}
		text = string(data)
	}
	if text = strings.TrimSpace(text); text == "" || strings.Contains(text, "\n") {
		return Answer{}, fmt.Errorf("%w: %q isn't one line", ErrRefused, text)
	}
	h.lock.Lock()
	defer h.lock.Unlock()
	return h.play(text)
}

// unreadFor is how long a watch may have something to read, or a reader that doesn't come
// back for more, while nothing happens, until Rest fails.
const unreadFor = 30 * time.Second

// Rest waits until nothing has happened on the hub for so long: no request came, and what
// was written on watches has been read. Use it after a Pump where the controller has
// goroutines of its own. A watch that nobody reads any more, or that is over, and whose body
// isn't closed is a failure of the test.
func (h *Hub) Rest(quiet time.Duration) {
	h.t.Helper()
	seen, stirred := h.stirred(), time.Now()
	for rested := stirred; ; {
		time.Sleep(quiet / 10)
		now := time.Now()
		if after := h.stirred(); after != seen {
			seen, stirred, rested = after, now, now
		}
		if unread := h.unread(); unread != nil {
			rested = now
			if now.Sub(stirred) > unreadFor {
				h.Fatalf("nobody reads the watch on connection %d any more, and its body isn't closed", unread.number)
			}
		}
		if now.Sub(rested) >= quiet {
			return
		}
	}
}

// stirred counts what happens on a server.
func (s *server) stirred() uint64 {
	s.lock.Lock()
	defer s.lock.Unlock()
	return s.stirs
}

// unread is a watch whose reader hasn't read all that was written on it, or hasn't come back
// for more, or that is over and whose body isn't closed; nil where there is none.
func (s *server) unread() *connection {
	s.lock.Lock()
	defer s.lock.Unlock()
	for _, c := range s.open {
		if !c.isRead || len(c.waiting) > 0 {
			return c
		}
	}
	for at, c := range s.over {
		if !c.isClosed {
			s.over = s.over[at:]
			return c
		}
	}
	s.over = nil
	return nil
}

// send opens a connection on which these bytes come in one piece.
func (s *server) send(data []byte, by *run) (*connection, error) {
	s.lock.Lock()
	defer s.lock.Unlock()
	if by != nil && by.isDead {
		return nil, errBegunAnew
	}
	c, err := s.sendLocked(data, by)
	if err != nil {
		return nil, err
	}
	return c, s.movedOn()
}

func (s *server) sendLocked(data []byte, by *run) (*connection, error) {
	s.highest++
	c := &connection{server: s, number: s.highest, run: by, over: make(chan struct{})}
	s.open = append(s.open, c)
	_, err := s.play(fmt.Sprintf(`{"open":%d}`, c.number), inLine(c.number, data))
	c.isWatch = !c.isOver()
	if !c.isWatch {
		c.whole = c.waiting
	}
	return c, err
}

// leave tells that the peer of a connection has gone, where it hasn't ended.
func (s *server) leave(c *connection, why error) error {
	if c.isOver() {
		return nil
	}
	c.failed = why
	s.drop(c)
	_, err := s.play(fmt.Sprintf(`{"gone":%d}`, c.number))
	return err
}

func (s *server) drop(c *connection) {
	for at, one := range s.open {
		if one == c {
			close(c.over)
			s.open = append(s.open[:at], s.open[at+1:]...)
			if c.isWatch && !c.isClosed {
				s.over = append(s.over, c)
			}
			return
		}
	}
}

func (s *server) find(number uint64) *connection {
	for at := len(s.open) - 1; at >= 0; at-- {
		if s.open[at].number == number {
			return s.open[at]
		}
	}
	return nil
}

// play plays lines of a script; the last answer is returned.
func (s *server) play(lines ...string) (Answer, error) {
	if s.err != nil {
		return Answer{}, s.err
	}
	s.stirs++
	answers, err := s.pipe.ask(lines...)
	if err != nil {
		s.err = err
		return Answer{}, err
	}
	for at, answer := range answers {
		if answer.Bad == "" {
			s.script = append(s.script, lines[at])
		}
		if why := answer.Bad + answer.Refused; why != "" {
			return answer, fmt.Errorf("%w: %s", ErrRefused, why)
		}
		s.deliver(answer)
	}
	s.moved.Broadcast()
	return answers[len(answers)-1], nil
}

func (s *server) deliver(answer Answer) {
	if answer.Opened > s.highest {
		s.highest = answer.Opened
	}
	for _, out := range answer.Out {
		if c := s.find(out.Connection); c != nil {
			c.waiting = append(c.waiting, out.Bytes...)
			if c.isWatch {
				s.hear(c.linesOf(out.Bytes))
			}
		}
	}
	for _, number := range answer.Ended {
		if c := s.find(number); c != nil {
			c.ended = true
			s.hasEnded = s.hasEnded || c.isWatch
			s.drop(c)
		}
	}
}

// hear notes which lines watches bring.
func (s *server) hear(lines [][]byte) {
	if s.isPumping {
		s.brought = append(s.brought, lines...)
	}
	if s.settling != nil {
		s.settling.heard = append(s.settling.heard, lines...)
	}
}
