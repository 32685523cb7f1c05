package nazhuvem

import (
	"bytes"
	"encoding/json"
	"fmt"
	"net/http"
	"os"
	"os/exec"
	"path/filepath"
	"reflect"
	"sort"
	"strings"
	"testing"
)

const (
	repositorysTool = "../../tools/types_files"
	definitions     = "../../tools/definitions"
	certificates    = "/apis/cert-manager.io/v1/namespaces/default/certificates"
)

// TestTheToolIsTheRepositorys is about what the module carries of tools/crd.
func TestTheToolIsTheRepositorys(t *testing.T) {
	carried := map[string]string{}
	entries, err := tool.ReadDir("types_files")
	if err != nil {
		t.Fatal(err)
	}
	for _, entry := range entries {
		data, err := tool.ReadFile("types_files/" + entry.Name())
		if err != nil {
			t.Fatal(err)
		}
		carried[entry.Name()] = string(data)
	}
	paths, err := filepath.Glob(repositorysTool + "/*.py")
	if err != nil || len(paths) == 0 {
		t.Fatal(paths, err)
	}
	its := map[string]string{}
	for _, path := range paths {
		data, err := os.ReadFile(path)
		if err != nil {
			t.Fatal(err)
		}
		its[filepath.Base(path)] = string(data)
	}
	if !reflect.DeepEqual(carried, its) {
		t.Errorf("another tools/types_files is carried: rm types_files/*; cp %s/*.py types_files", repositorysTool)
	}
}

// folderOf is a folder with some definitions of the repository.
func folderOf(t *testing.T, names ...string) string {
	t.Helper()
	folder := t.TempDir()
	for _, name := range names {
		take(t, folder, name)
	}
	return folder
}

func take(t *testing.T, folder, name string) {
	t.Helper()
	data, err := os.ReadFile(filepath.Join(definitions, name))
	if err != nil {
		t.Fatal(err)
	}
	write(t, filepath.Join(folder, name), string(data))
}

func write(t *testing.T, path, text string) string {
	t.Helper()
	if err := os.WriteFile(path, []byte(text), 0o666); err != nil {
		t.Fatal(err)
	}
	return path
}

// pluralsOf are the types that a hub serves, as discovery tells them.
func pluralsOf(t *testing.T, types string, options ...HubOption) []string {
	t.Helper()
	hub := Start(t, types, options...)
	var all []string
	_, reply := hub.Request("GET", "/apis", nil)
	var groups struct {
		Groups []struct{ PreferredVersion struct{ GroupVersion string } }
	}
	hub.must(json.Unmarshal(reply, &groups))
	for _, group := range groups.Groups {
		_, reply := hub.Request("GET", "/apis/"+group.PreferredVersion.GroupVersion, nil)
		var resources struct{ Resources []struct{ Name string } }
		hub.must(json.Unmarshal(reply, &resources))
		for _, one := range resources.Resources {
			if !strings.Contains(one.Name, "/") {
				all = append(all, one.Name)
			}
		}
	}
	sort.Strings(all)
	return all
}

func expectPlurals(t *testing.T, found []string, wanted ...string) {
	t.Helper()
	if !reflect.DeepEqual(found, wanted) {
		t.Errorf("%q, and not %q", found, wanted)
	}
}

func TestDefinitions(t *testing.T) {
	folder := folderOf(t, "certificate.json", "kustomization.json")
	write(t, filepath.Join(folder, "other.json"), `{"kind": "ConfigMap"}`)
	certificate := filepath.Join(folder, "certificate.json")
	expectPlurals(t, pluralsOf(t, certificate), "certificates")
	expectPlurals(t, pluralsOf(t, folder), "certificates", "kustomizations")
	expectPlurals(t, pluralsOf(t, certificate, WithTypes(types)), "certificates", "widgets")
	one, err := os.ReadFile(certificate)
	if err != nil {
		t.Fatal(err)
	}
	bundle := write(t, filepath.Join(t.TempDir(), "bundle.json"), `{"kind":"List","items":[`+string(one)+`]}`)
	expectPlurals(t, pluralsOf(t, bundle), "certificates")
	expectPlurals(t, pluralsOf(t, types), "widgets")
}

func TestDefinitionsInYAML(t *testing.T) {
	if exec.Command("python3", "-c", "import yaml").Run() != nil {
		t.Skip("python3-yaml isn't installed")
	}
	expectPlurals(t, pluralsOf(t, "../../examples/widgets.yaml"), "widgets")
}

func TestChangedDefinitionsAreReadAgain(t *testing.T) {
	folder := folderOf(t, "certificate.json")
	expectPlurals(t, pluralsOf(t, folder), "certificates")
	take(t, folder, "kustomization.json")
	expectPlurals(t, pluralsOf(t, folder), "certificates", "kustomizations")
}

// TestDefinitionsAreExplored is about schedules over them, of which a failure can be played.
func TestDefinitionsAreExplored(t *testing.T) {
	folder := folderOf(t, "certificate.json")
	room := t.TempDir()
	t.Setenv("TMPDIR", room)
	scenario := func(hub *Hub) {
		hub.Apply("alice", certificates+"/c", `{"apiVersion":"cert-manager.io/v1","kind":"Certificate"}`, false)
		gets(hub, 1, certificates+"/c")
		if !hub.Get(certificates+"/c", &struct{}{}) {
			hub.Errorf("it is gone")
		}
	}
	failure, count, err := Search(folder, scenario, Changes)
	if failure != nil || err != nil || count != 2 {
		t.Fatal(failure, count, err)
	}
	if left, err := os.ReadDir(room); err != nil || len(left) != 0 {
		t.Error("files are left:", left, err)
	}
	failure, _, err = Search(folder, scenario, Deletions)
	if failure == nil || err != nil {
		t.Fatal(err)
	}
	kept := strings.TrimSuffix(failure.Script, ".jsonl") + ".types.json"
	contains(t, failure.Error(), "replay: ssa-replay --types "+kept+" --discovery --type cert-manager.io/v1/certificates --script "+failure.Script)
	if text, err := os.ReadFile(kept); err != nil || !bytes.Contains(text, []byte(`"certificates"`)) {
		t.Error(err)
	}
}

// TestWhatIsLostIsTold is about definitions of which something isn't served.
func TestWhatIsLostIsTold(t *testing.T) {
	folder := folderOf(t, "issuer.json")
	for _, name := range []string{"TestInnerLost", "TestInnerLostInExplore", "TestInnerLostByNew"} {
		output := again(t, "^"+name+"$", []string{"TYPES=" + folder}, "-test.v")
		contains(t, output, "--- PASS: "+name, folder+" isn't served as it is (tools/crd tells all):",
			"type    clusterissuers.cert-manager.io: its objects have no namespace",
			"field   cert-manager.io/v1/issuers .spec.acme.solvers[].dns01.webhook",
			"rule    cert-manager.io/v1/issuers: required 5")
		if count := strings.Count(output, "isn't served as it is"); count != 1 {
			t.Errorf("%d times:\n%s", count, output)
		}
	}
}

func TestInnerLost(t *testing.T) {
	inner(t)
	Start(t, os.Getenv("TYPES"))
}

func TestInnerLostInExplore(t *testing.T) {
	inner(t)
	Explore(t, os.Getenv("TYPES"), func(hub *Hub) { gets(hub, 1, "/apis") })
}

func TestInnerLostByNew(t *testing.T) {
	inner(t)
	for range "12" {
		hub, err := New(os.Getenv("TYPES"))
		if err != nil {
			t.Fatal(err)
		}
		hub.Close()
	}
}

// noTypes expects an error of types that can't be had.
func noTypes(t *testing.T, path string, wanted ...string) {
	t.Helper()
	_, err := New(path)
	if err == nil {
		t.Fatalf("%s is served", path)
	}
	contains(t, err.Error(), wanted...)
	if strings.Contains(err.Error(), "Traceback") {
		t.Error(err)
	}
}

func TestWhatHasNoTypes(t *testing.T) {
	folder := t.TempDir()
	noTypes(t, folder, "no types: "+folder, "no file of this folder ends with")
	path := filepath.Join(folder, "a.json")
	noTypes(t, write(t, path, `{"kind":"ConfigMap"}`), "no CustomResourceDefinition in "+path)
	noTypes(t, write(t, path, "{"), path+": not JSON")
	noTypes(t, write(t, path, `{"types":1}`), "ssa-pipe: ")
	noTypes(t, "", `no types: ""`)
}

func TestYAMLWithoutAReader(t *testing.T) {
	folder := t.TempDir()
	write(t, filepath.Join(folder, "yaml.py"), "raise ImportError\n")
	t.Setenv("PYTHONPATH", folder)
	path := write(t, filepath.Join(folder, "a.yaml"), "kind: CustomResourceDefinition\n")
	noTypes(t, path, path+": not JSON", "YAML needs Debian's python3-yaml")
}

func TestDefinitionsWithoutPython(t *testing.T) {
	folder := folderOf(t, "certificate.json")
	if _, err := Find("ssa-pipe"); err != nil { // which is remembered
		t.Fatal(err)
	}
	t.Setenv("PATH", folder)
	noTypes(t, folder, "CustomResourceDefinitions are read by python3, which isn't in PATH: install it, or give a types file")
	if _, err := typesOf([]string{types}); err != nil {
		t.Error(err)
	}
}

// vendored is a test of a module that has vendored this one.
const vendored = `package mine

import (
	"testing"

	"nazhuvem.example/nazhuvem"
)

func TestIt(t *testing.T) {
	hub := nazhuvem.Start(t, "crd")
	hub.Request("GET", "` + certificates + `", nil)
}
`

// TestItIsVendored is about a module with a copy of this one.
func TestItIsVendored(t *testing.T) {
	program, err := Find("ssa-pipe")
	if err != nil {
		t.Fatal(err)
	}
	whole, err := filepath.Abs(".")
	if err != nil {
		t.Fatal(err)
	}
	folder := t.TempDir()
	write(t, filepath.Join(folder, "it_test.go"), vendored)
	if err := os.Mkdir(filepath.Join(folder, "crd"), 0o777); err != nil {
		t.Fatal(err)
	}
	take(t, filepath.Join(folder, "crd"), "certificate.json")
	write(t, filepath.Join(folder, "go.mod"), "module shop.example/mine\n\ngo 1.19\n\nrequire nazhuvem.example/nazhuvem v0.0.0\n\n"+
		"replace nazhuvem.example/nazhuvem => "+whole+"\n")
	bin := filepath.Join(folder, "bin")
	if err := os.Mkdir(bin, 0o777); err != nil {
		t.Fatal(err)
	}
	script := fmt.Sprintf("#!/bin/sh\nexec '%s' \"$@\"\n", program)
	if err := os.WriteFile(filepath.Join(bin, "ssa-pipe"), []byte(script), 0o777); err != nil {
		t.Fatal(err)
	}
	for _, step := range []struct{ variable, wanted, words string }{
		{"NAZHUVEM_BIN=" + bin, "", "mod vendor"},
		{"NAZHUVEM_BIN=" + bin, "ok", "test -mod=vendor ."},
		{"NAZHUVEM_BIN=", "vendor/nazhuvem.example/nazhuvem/bin nor in PATH", "test -mod=vendor ."},
	} {
		command := exec.Command("go", strings.Fields(step.words)...)
		command.Dir = folder
		command.Env = append(os.Environ(), "GO111MODULE=on", "GOFLAGS=", "GOPROXY=off", step.variable)
		output, _ := command.CombinedOutput()
		contains(t, string(output), step.wanted)
	}
}

// TestWithoutDiscovery is about hubs whose clients can't find the types.
func TestWithoutDiscovery(t *testing.T) {
	if status, _ := Start(t, types).TryRequest("GET", "/apis", nil); status != http.StatusOK {
		t.Error(status)
	}
	if status, _ := Start(t, types, WithoutDiscovery()).TryRequest("GET", "/apis", nil); status != http.StatusNotFound {
		t.Error(status)
	}
}

// TestOptionsAreTheClients is about the program's own client.
func TestOptionsAreTheClients(t *testing.T) {
	hub := Start(t, types, WithPage(1), WithNamespace("default"), WithSelector("a=b"), WithLabel("tier"), WithType("demo.example/v1/widgets"))
	answer, err := hub.Event(`{"client":"send"}`)
	if err != nil || answer.Opened == 0 {
		t.Fatal(answer, err)
	}
	if answer, err = hub.Event(`{"toServer":1000}`); err != nil {
		t.Fatal(err)
	}
	words := strings.Join(hub.pipe.words, " ")
	contains(t, words, "--discovery --page 1 --namespace default --selector a=b --label tier --type demo.example/v1/widgets")
}
