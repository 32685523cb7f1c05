package nazhuvem

import (
	"bufio"
	"context"
	"net/http"
	"testing"
	"time"
)

// TestAWatchThatEndsByItsTime is about steps that watch for a second each: the last bytes of a
// watch are no line, and a list's lines, told again, are no news.
func TestAWatchThatEndsByItsTime(t *testing.T) {
	hub := Start(t, types)
	hub.MoveByThemselves(true)
	hub.Apply("alice", widgets+"/w", scaled(2), false)
	for query, wanted := range map[string]int{"&resourceVersion=2": 0, "": 1} {
		steps := 0
		err := hub.Settle(context.Background(), func() error {
			steps++
			request, err := http.NewRequest("GET", "http://hub"+widgets+"?watch=true&timeoutSeconds=1"+query, nil)
			if err != nil {
				return err
			}
			response, err := hub.RoundTrip(request)
			if err != nil {
				return err
			}
			defer response.Body.Close()
			hub.Tick(time.Second)
			lines := 0
			for scanner := bufio.NewScanner(response.Body); scanner.Scan(); lines++ {
			}
			if lines != wanted {
				t.Errorf("%d lines, and not %d", lines, wanted)
			}
			return nil
		})
		if err != nil || steps > 6 {
			t.Errorf("%q: %d steps, %v", query, steps, err)
		}
	}
}

// TestBookmarksAreNoNews is about a bookmark that each step brings.
func TestBookmarksAreNoNews(t *testing.T) {
	hub := Start(t, types)
	if _, err := watch(hub, widgets+"?watch=true&allowWatchBookmarks=true&timeoutSeconds=3600"); err != nil {
		t.Fatal(err)
	}
	steps := 0
	err := hub.Settle(context.Background(), func() error {
		steps++
		hub.Tick(time.Minute)
		return nil
	})
	if err != nil || steps > 3 {
		t.Errorf("%d steps, %v", steps, err)
	}
}

// TestPiecesAreNoLines is about what a watch writes in pieces of any size.
func TestPiecesAreNoLines(t *testing.T) {
	text := []byte("4\r\nab\nc\r\n3\r\nd\n\n\r\n0\r\n\r\n")
	for size := 1; size <= len(text); size++ {
		c := &connection{}
		var lines []string
		for at := 0; at < len(text); at += size {
			end := at + size
			if end > len(text) {
				end = len(text)
			}
			for _, line := range c.linesOf(text[at:end]) {
				lines = append(lines, string(line))
			}
		}
		if len(lines) != 3 || lines[0] != "ab" || lines[1] != "cd" || lines[2] != "" {
			t.Errorf("pieces of %d: %q", size, lines)
		}
	}
}

// TestPumpCountsLines is about a pump of several lines, of which none is left.
func TestPumpCountsLines(t *testing.T) {
	hub := Start(t, types)
	if _, err := watch(hub, widgets+"?watch=true&timeoutSeconds=5"); err != nil {
		t.Fatal(err)
	}
	for _, name := range []string{"/a", "/b", "/c"} {
		hub.Apply("alice", widgets+name, widget(""), false)
	}
	if lines := hub.Pump(); lines != 3 {
		t.Error(lines)
	}
	hub.Tick(5 * time.Second)
	if lines := hub.Pump(); lines != 0 || hub.Watches() != 0 {
		t.Error(lines, hub.Watches())
	}
}
