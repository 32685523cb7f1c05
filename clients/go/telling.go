package nazhuvem

import (
	"bytes"
	"encoding/json"
	"fmt"
	"net/http"
	"net/url"
	"reflect"
	"regexp"
	"sort"
	"strings"
)

// Events as lines for people: what each brought, with rounds that repeat folded.

// row is an event with its number, or a disturbance, which has none.
type row struct {
	number int
	event  Event
}

var version = regexp.MustCompile(`resourceVersion=\d+`)

// key is what events of rounds that repeat have in common.
func (r row) key() string {
	return timeout.ReplaceAllString(version.ReplaceAllString(r.event.String(), ""), "")
}

// String is the row as a line.
func (r row) String() string {
	if r.number == 0 {
		return "      > " + r.event.Kind
	}
	mark := " "
	if r.event.IsControllers {
		mark = "*"
	}
	return fmt.Sprintf("%5d %s %s", r.number, mark, told(r.event))
}

// told is an event with what came of it.
func told(event Event) string {
	switch {
	case event.Kind == "pump" && event.isHeld:
		return "pump: held back"
	case event.Kind == "pump":
		return "pump: " + broughtBy(event.lines)
	}
	if value := valueOf(event); value != nil && event.Method != http.MethodDelete {
		return fmt.Sprintf("%s, version %s", event, value.version())
	}
	return event.String()
}

func broughtBy(lines [][]byte) string {
	const most = 4
	var said []string
	for at, line := range lines {
		if at == most {
			said = append(said, fmt.Sprintf("%d more", len(lines)-most))
			break
		}
		said = append(said, lineTold(line))
	}
	if said == nil {
		return "nothing"
	}
	return strings.Join(said, "; ")
}

func lineTold(text []byte) string {
	var line struct {
		Type   string
		Object struct {
			Code     int
			Metadata struct{ Name, ResourceVersion string }
		}
	}
	if json.Unmarshal(text, &line) != nil {
		return string(text)
	}
	if line.Type == "ERROR" {
		return fmt.Sprintf("ERROR %d", line.Object.Code)
	}
	if name := line.Object.Metadata.Name; name != "" {
		line.Type += " " + name
	}
	return fmt.Sprintf("%s, version %s", line.Type, line.Object.Metadata.ResourceVersion)
}

// object is one as JSON.
type object map[string]any

func (o object) metadata() map[string]any {
	metadata, _ := o["metadata"].(map[string]any)
	return metadata
}

func (o object) version() string { return fmt.Sprint(o.metadata()["resourceVersion"]) }

// name is the name of the object; "" where it has none.
func (o object) name() string {
	name, _ := o.metadata()["name"].(string)
	return name
}

// valueOf is the object that a successful write left, or took away; nil of any other event.
func valueOf(event Event) object {
	if !isWrite(event.Method) || event.Status != http.StatusOK && event.Status != http.StatusCreated {
		return nil
	}
	_, body, _ := bytes.Cut(event.reply, []byte("\r\n\r\n"))
	var value object
	if json.Unmarshal(body, &value) != nil || value.name() == "" {
		return nil
	}
	return value
}

// Rounds

// weight is what a line is shown for.
type weight int

const (
	plain weight = iota
	disturbing
	folding
)

// line is one of those that are shown.
type line struct {
	text  string
	shows weight
}

// shown is these rows as lines, not too many: with rounds folded, and some left out.
func shown(rows []row) []string {
	var keys []string
	var events []Event
	for _, row := range rows {
		keys = append(keys, row.key())
		events = append(events, row.event)
	}
	var lines []line
	for at := 0; at < len(rows); {
		length, count := roundAt(keys, at)
		for _, row := range rows[at : at+length] {
			shows := plain
			if row.number == 0 {
				shows = disturbing
			}
			lines = append(lines, line{row.String(), shows})
		}
		end := at + length*count
		if count > 1 {
			said := fmt.Sprintf("        %d rounds, to event %d", count, rows[end-1].number)
			if what := fight(events[:end], at); what != "" {
				said += ": " + what
			}
			lines = append(lines, line{said, folding})
		}
		at = end
	}
	return shortened(lines)
}

// roundAt is how long the round is that begins here, and how often it comes. (Disturbances
// are too few for rounds.)
func roundAt(keys []string, at int) (int, int) {
	const longest, fewest = 60, 3
	best, often := 1, 1
	for length := 1; length <= longest && at+fewest*length <= len(keys); length++ {
		first := keys[at : at+length]
		count, end := 1, at+length
		for end+length <= len(keys) && isSameRound(first, keys[end:end+length]) {
			count, end = count+1, end+length
		}
		if count >= fewest && length*count > best*often {
			best, often = length, count
		}
	}
	return best, often
}

func isSameRound(one, other []string) bool {
	for at := range one {
		if one[at] != other[at] {
			return false
		}
	}
	return true
}

// A schedule is shown in so many lines at most; so many of them stand at its begin and at its
// end, and around a disturbance.
const mostRows, firstRows, lastRows, around = 24, 3, 8, 2

// shortened is the first and the last lines, and those around disturbances and rounds.
func shortened(lines []line) []string {
	var kept []string
	near := map[int]bool{}
	for _, shows := range []weight{disturbing, folding} {
		near = nearTo(lines, shows, near)
	}
	last := len(lines) - (mostRows - firstRows - len(near))
	left := 0
	for at, line := range lines {
		if len(lines) > mostRows && at >= firstRows && at < last && !near[at] {
			left++
			continue
		}
		if left > 0 {
			kept = append(kept, fmt.Sprintf("      .. %d more", left))
			left = 0
		}
		kept = append(kept, line.text)
	}
	return kept
}

// nearTo adds the places around what shows so, as long as there is room.
func nearTo(lines []line, shows weight, near map[int]bool) map[int]bool {
	for at, line := range lines {
		if line.shows != shows {
			continue
		}
		more := map[int]bool{}
		for one := range near {
			more[one] = true
		}
		for one := at - around; one <= at+around; one++ {
			more[one] = true
		}
		if len(more) <= mostRows-firstRows-lastRows {
			near = more
		}
	}
	return near
}

// Who changes what

// change is who changed a field, each time.
type change struct {
	field string
	by    []string
}

// fight is who changes which fields again and again from the event of this index on, "a and b
// change .spec.replicas" say; "" where nobody does.
func fight(events []Event, begin int) string {
	objects := map[string]object{}
	var changes []*change
	known := map[string]*change{}
	for at, event := range events {
		value := valueOf(event)
		if value == nil {
			continue
		}
		key := fmt.Sprint(value["kind"], value.metadata()["namespace"], value.name())
		before := objects[key]
		objects[key] = value
		if event.Method == http.MethodDelete {
			objects[key] = nil
		}
		if at < begin {
			continue
		}
		for _, field := range changedFields(before, objects[key], value.name()) {
			if known[field] == nil {
				known[field] = &change{field: field}
				changes = append(changes, known[field])
			}
			known[field].by = append(known[field].by, managerOf(event))
		}
	}
	return fightTold(changes)
}

// fightTold is these changes in words: those of several managers, where there are some.
func fightTold(changes []*change) string {
	const most = 3
	var whom, said []string
	fields := map[string][]string{}
	for _, one := range repeated(changes) {
		names := distinct(one.by)
		who := names[0] + " changes"
		if len(names) > 1 {
			who = strings.Join(names, " and ") + " change"
		}
		if fields[who] == nil {
			whom = append(whom, who)
		}
		fields[who] = append(fields[who], one.field)
	}
	for _, who := range whom {
		its, more := fields[who], ""
		if len(its) > most {
			its, more = its[:most], fmt.Sprintf(" and %d more", len(its)-most)
		}
		if len(said) < most {
			said = append(said, fmt.Sprintf("%s %s%s", who, strings.Join(its, ", "), more))
		}
	}
	return strings.Join(said, "; ")
}

// repeated are the changes of fields that were changed often: those by several managers,
// where there are some.
func repeated(changes []*change) []*change {
	var often, several []*change
	for _, one := range changes {
		if len(one.by) > 1 {
			often = append(often, one)
		}
		if len(distinct(one.by)) > 1 {
			several = append(several, one)
		}
	}
	if several != nil {
		return several
	}
	return often
}

// distinct is these names once each, in order.
func distinct(names []string) []string {
	var all []string
	seen := map[string]bool{}
	for _, name := range names {
		if !seen[name] {
			all = append(all, name)
		}
		seen[name] = true
	}
	sort.Strings(all)
	return all
}

// managerOf is who made a write, as far as it says so.
func managerOf(event Event) string {
	_, query, _ := strings.Cut(event.Target, "?")
	values, _ := url.ParseQuery(query)
	if name := values.Get("fieldManager"); name != "" {
		return name
	}
	return "a client"
}

// changedFields are the paths of the fields that a write changed; the name of an object that
// it made or deleted.
func changedFields(before, after object, name string) []string {
	if before == nil || after == nil {
		return []string{name}
	}
	return different(map[string]any(before), map[string]any(after), "")
}

func different(before, after any, path string) []string {
	if path == ".metadata.managedFields" || path == ".metadata.resourceVersion" {
		return nil
	}
	one, isObject := before.(map[string]any)
	other, areObjects := after.(map[string]any)
	if !isObject || !areObjects {
		if reflect.DeepEqual(before, after) {
			return nil
		}
		return []string{path}
	}
	both := map[string]any{}
	for _, fields := range []map[string]any{one, other} {
		for name := range fields {
			both[name] = nil
		}
	}
	var found []string
	for _, name := range namesOf(both) {
		found = append(found, different(one[name], other[name], path+"."+name)...)
	}
	return found
}
