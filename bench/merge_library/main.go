// Plays the apply lines of a script of ssa-replay by structured-merge-diff, the merge library of Kubernetes.
//
//	merge_library SCRIPT
//
// Each line is an apply to an object in memory: its JSON is read and typed, applied, and the object and the FieldsV1 of all
// managers are printed to memory. It prints how many applies it made a second, without its start and the reading of the file.
// run.py builds it.
package main

import (
	"bytes"
	"encoding/json"
	"fmt"
	"os"
	"time"

	"sigs.k8s.io/structured-merge-diff/v4/fieldpath"
	"sigs.k8s.io/structured-merge-diff/v4/merge"
	"sigs.k8s.io/structured-merge-diff/v4/typed"
	"sigs.k8s.io/structured-merge-diff/v4/value"
)

// schema is that of the type in run.py.
const schema = `types:
- name: widget
  map:
    fields:
    - name: spec
      type:
        map:
          fields:
          - name: config
            type:
              map:
                elementType: {scalar: string}
          - name: ports
            type:
              list:
                elementRelationship: associative
                keys: [name]
                elementType:
                  map:
                    fields:
                    - name: name
                      type: {scalar: string}
                    - name: note
                      type: {scalar: string}
                    - name: port
                      type: {scalar: numeric}
          - name: replicas
            type: {scalar: numeric}
          - name: tags
            type:
              list:
                elementRelationship: associative
                elementType: {scalar: string}
`

const version = fieldpath.APIVersion("v1")

// line is an event of a script.
type line struct {
	Apply struct {
		Body    json.RawMessage `json:"body"`
		Force   bool            `json:"force"`
		Manager string          `json:"manager"`
		Target  string          `json:"target"`
	} `json:"apply"`
}

// object is what a server would keep.
type object struct {
	live     *typed.TypedValue
	managers fieldpath.ManagedFields
}

// unchanged converts between versions, of which there is one.
type unchanged struct{}

func (unchanged) Convert(it *typed.TypedValue, _ fieldpath.APIVersion) (*typed.TypedValue, error) {
	return it, nil
}

func (unchanged) IsMissingVersionError(error) bool { return false }

func must(err error) {
	if err != nil {
		fmt.Fprintln(os.Stderr, "merge_library:", err)
		os.Exit(1)
	}
}

// content reads a body without what nobody owns: the metadata of these scripts is a name alone.
func content(widget typed.ParseableType, body []byte) *typed.TypedValue {
	read, err := value.FromJSON(body)
	must(err)
	fields := read.Unstructured().(map[string]interface{})
	delete(fields, "apiVersion")
	delete(fields, "kind")
	delete(fields, "metadata")
	found, err := widget.FromUnstructured(fields)
	must(err)
	return found
}

// apply makes one apply, and returns how many bytes its object and owners print as.
func apply(updater *merge.Updater, widget typed.ParseableType, it *object, event line) int {
	applied, managers, err := updater.Apply(it.live, content(widget, event.Apply.Body), version, it.managers.Copy(), event.Apply.Manager, event.Apply.Force)
	must(err)
	if applied != nil {
		it.live = applied
	}
	it.managers = managers
	printed, err := value.ToJSON(it.live.AsValue())
	must(err)
	size := len(printed)
	for _, owned := range managers {
		fields, err := owned.Set().ToJSON()
		must(err)
		size += len(fields)
	}
	return size
}

func main() {
	if len(os.Args) != 2 {
		must(fmt.Errorf("usage: merge_library SCRIPT"))
	}
	text, err := os.ReadFile(os.Args[1])
	must(err)
	parser, err := typed.NewParser(typed.YAMLObject(schema))
	must(err)
	widget := parser.Type("widget")
	updater := &merge.Updater{Converter: unchanged{}}
	objects := map[string]*object{}
	lines := bytes.Split(bytes.TrimSpace(text), []byte("\n"))
	start, size := time.Now(), 0
	for _, text := range lines {
		var event line
		must(json.Unmarshal(text, &event))
		it := objects[event.Apply.Target]
		if it == nil {
			none, err := widget.FromUnstructured(map[string]interface{}{})
			must(err)
			it = &object{none, fieldpath.ManagedFields{}}
			objects[event.Apply.Target] = it
		}
		size += apply(updater, widget, it, event)
	}
	if size == 0 {
		must(fmt.Errorf("nothing was printed"))
	}
	fmt.Printf("%.1f\n", float64(len(lines))/time.Since(start).Seconds())
}
