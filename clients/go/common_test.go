package nazhuvem

import (
	"bufio"
	"encoding/json"
	"fmt"
	"net/http"
	"os"
	"os/exec"
	"strings"
	"sync"
	"testing"
)

const (
	types   = "../../examples/widgets.json"
	widgets = "/apis/demo.example/v1/namespaces/default/widgets"
)

// TestMain gives the scripts of failures a folder that goes with the tests.
func TestMain(m *testing.M) {
	folder, err := os.MkdirTemp("", "nazhuvem-tests-")
	if err != nil {
		panic(err)
	}
	os.Setenv("TMPDIR", folder)
	status := m.Run()
	os.RemoveAll(folder)
	os.Exit(status)
}

func widget(spec string) string {
	return fmt.Sprintf(`{"apiVersion":"demo.example/v1","kind":"Widget"%s}`, spec)
}

// named is a widget with a name.
func named(name string) string {
	return widget(fmt.Sprintf(`,"metadata":{"name":"%s"}`, name))
}

// scaled is a widget of so many replicas.
func scaled(replicas int) string {
	return widget(fmt.Sprintf(`,"spec":{"replicas":%d}`, replicas))
}

// saidBy is what a hub says of what is done with it, by Errorf and Fatalf.
func saidBy(t *testing.T, do func(hub *Hub)) string {
	t.Helper()
	hub := Start(t, types)
	p := &player{steps: []Schedule{{}}}
	hub.t, hub.observer = p, p
	p.perform(do, hub)
	return strings.Join(p.said, "\n")
}

// failing is how a scenario fails.
func failing(t *testing.T, scenario func(*Hub), options ...Option) *Failure {
	t.Helper()
	failure, count, err := Search(types, scenario, options...)
	if failure == nil || err != nil {
		t.Fatalf("no failure: %d schedules, %v", count, err)
	}
	return failure
}

// passing is how many schedules of a scenario were played, which all have to pass.
func passing(t *testing.T, scenario func(*Hub), options ...Option) int {
	t.Helper()
	failure, count, err := Search(types, scenario, options...)
	if failure != nil || err != nil {
		t.Fatalf("%v, of %d schedules, %v", failure, count, err)
	}
	return count
}

// contains fails the test where a text has some of these not.
func contains(t *testing.T, text string, some ...string) {
	t.Helper()
	for _, one := range some {
		if !strings.Contains(text, one) {
			t.Errorf("no %q in:\n%s", one, text)
		}
	}
}

// again runs a test of this binary that is meant for it, and returns what it printed.
func again(t *testing.T, name string, variables []string, words ...string) string {
	t.Helper()
	words = append([]string{"-test.run", name}, words...)
	command := exec.Command(os.Args[0], words...)
	command.Env = append(append(os.Environ(), "NAZHUVEM_INNER=1", "TMPDIR="+t.TempDir()), variables...)
	output, _ := command.CombinedOutput()
	return string(output)
}

// inner skips a test that is meant to be run by another.
func inner(t *testing.T) {
	if os.Getenv("NAZHUVEM_INNER") == "" {
		t.Skip("it is run by another test")
	}
}

// watching is a watch whose lines are read as they come.
type watching struct {
	lock   sync.Mutex
	lines  []watchLine
	isOver bool
}

type watchLine struct {
	Type   string
	Object struct {
		Metadata struct{ Name, ResourceVersion string }
	}
}

// watch opens one of a path, nil where it is refused.
func watch(transport http.RoundTripper, path string) (*watching, error) {
	request, err := http.NewRequest(http.MethodGet, "http://hub"+path, nil)
	if err != nil {
		return nil, err
	}
	response, err := transport.RoundTrip(request)
	if err != nil || response.StatusCode != http.StatusOK {
		return nil, err
	}
	w := &watching{}
	go func() {
		defer response.Body.Close()
		for scanner := bufio.NewScanner(response.Body); scanner.Scan(); {
			var line watchLine
			_ = json.Unmarshal(scanner.Bytes(), &line)
			w.lock.Lock()
			w.lines = append(w.lines, line)
			w.lock.Unlock()
		}
		w.lock.Lock()
		defer w.lock.Unlock()
		w.isOver = true
	}()
	return w, nil
}

// take takes the lines that came, and tells whether no others come.
func (w *watching) take() ([]watchLine, bool) {
	w.lock.Lock()
	defer w.lock.Unlock()
	lines := w.lines
	w.lines = nil
	return lines, w.isOver
}
