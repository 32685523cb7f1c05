package nazhuvem

import (
	"fmt"
	"reflect"
	"regexp"
	"strings"
)

const undisturbed = "undisturbed"

// Schedule is a disturbance before the event of a number; none where it is nil.
type Schedule struct {
	Place       int
	Disturbance Disturbance
	// Then is a second disturbance, at this place or later; nil where there is none.
	Then *Schedule
	// events are those without the disturbance, which those before its place have to be.
	events []Event
	// twins is how many schedules before it have the same word.
	twins int
}

// String is the schedule as a line.
func (s Schedule) String() string {
	if s.Disturbance == nil {
		return "no disturbance"
	}
	said := fmt.Sprintf("before event %d: %s", s.Place, s.Disturbance)
	if s.Then != nil {
		said += "; " + s.Then.String()
	}
	return said
}

// Word is the word by which it is played again, 7-cut+9-hold-1 say: the name of its subtest.
func (s Schedule) Word() string {
	if s.Disturbance == nil {
		return undisturbed
	}
	word := fmt.Sprintf("%d-%s", s.Place, slug(s.Disturbance.String()))
	if s.twins > 0 {
		word += fmt.Sprintf(".%d", s.twins+1)
	}
	if s.Then != nil {
		word += "+" + s.Then.Word()
	}
	return word
}

// steps are its disturbances, one by one.
func (s Schedule) steps() []Schedule {
	all := []Schedule{s}
	if s.Then != nil {
		all = append(all, s.Then.steps()...)
	}
	return all
}

var (
	prefix = regexp.MustCompile(`/apis/[^/]+/[^/]+/namespaces/`)
	others = regexp.MustCompile(`[^A-Za-z0-9_.]+`)
)

// slug is a text in letters that a shell and a test's name take as they are.
func slug(text string) string {
	return strings.Trim(others.ReplaceAllString(prefix.ReplaceAllString(text, ""), "-"), "-")
}

// singles are all schedules of one disturbance: before the controller's events, or before
// each where the scenario doesn't tell which are the controller's.
func singles(places []Place, kinds []Kind) []Schedule {
	var events []Event
	isTold := false
	for _, place := range places {
		isTold = isTold || place.Event.IsControllers
		events = append(events, place.Event)
	}
	var all []Schedule
	for _, place := range places {
		if isTold && !place.Event.IsControllers {
			continue
		}
		seen := map[string][]Disturbance{}
		for _, kind := range kinds {
			for _, one := range kind(place) {
				schedule := Schedule{Place: place.Number, Disturbance: one, events: events}
				word := schedule.Word()
				if schedule.twins = len(seen[word]); !has(seen[word], one) {
					seen[word] = append(seen[word], one)
					all = append(all, schedule)
				}
			}
		}
	}
	return all
}

// has is whether a disturbance is one of these.
func has(some []Disturbance, one Disturbance) bool {
	for _, other := range some {
		if isEqual(one, other) {
			return true
		}
	}
	return false
}

// isEqual is whether two disturbances are one; what can't be compared is another.
func isEqual(one, other Disturbance) (isSo bool) {
	defer func() { _ = recover() }() // an interface within one may hold what can't be compared
	kind := reflect.TypeOf(one)
	return kind == reflect.TypeOf(other) && kind.Comparable() && one == other
}
