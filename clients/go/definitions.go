package nazhuvem

import (
	"bytes"
	"embed"
	"encoding/json"
	"errors"
	"fmt"
	"io/fs"
	"os"
	"os/exec"
	"path/filepath"
	"strings"
	"sync"
)

// tool is what tools/crd is made of, which reads CustomResourceDefinitions.
//
//go:embed types_files/*.py
var tool embed.FS

// runTool is the program that runs it, of which the first word is its folder.
const runTool = `import sys
sys.path[0] = sys.argv.pop(1)
from types_files.command import main
sys.exit(main(sys.argv[1:]))`

type typeNames struct{ Group, Version, Kind, Plural string }

// String is the type as the program's command line names it.
func (n typeNames) String() string { return n.Group + "/" + n.Version + "/" + n.Plural }

// typesFile is a types file, or the one that is made of CustomResourceDefinitions.
type typesFile struct {
	// path is that of a types file; "" where text was made.
	path string
	text []byte
	// first is its first type; none where the file is none of types, as the program will say.
	first typeNames
	// lost says what of the definitions isn't served, or isn't checked.
	lost string
	told sync.Once
}

// typesFiles has the types that were read, by the files as they were then.
var typesFiles sync.Map

// typesOf are the types of these paths: a types file, or CustomResourceDefinitions, each in a
// file, a bundle or a folder.
func typesOf(paths []string) (*typesFile, error) {
	state := ""
	for _, path := range paths {
		its, err := stateOf(path)
		if err != nil {
			return nil, err
		}
		state += its
	}
	if known, isKnown := typesFiles.Load(state); isKnown {
		return known.(*typesFile), nil
	}
	types, err := readTypes(paths)
	if err != nil {
		return nil, err
	}
	known, _ := typesFiles.LoadOrStore(state, types)
	return known.(*typesFile), nil
}

// stateOf is what says whether a file, or a folder's files, are as they were.
func stateOf(path string) (string, error) {
	paths := []string{path}
	if entries, err := os.ReadDir(path); err == nil {
		for _, entry := range entries {
			paths = append(paths, filepath.Join(path, entry.Name()))
		}
	}
	state := ""
	for _, one := range paths {
		info, err := os.Stat(one)
		var failed *fs.PathError
		if errors.As(err, &failed) {
			return "", fmt.Errorf("no types: %q: %w", one, failed.Err)
		} else if err != nil {
			return "", err
		}
		whole, err := filepath.Abs(one)
		if err != nil {
			return "", err
		}
		state += fmt.Sprintf("%s %d %d\n", whole, info.ModTime().UnixNano(), info.Size())
	}
	return state, nil
}

func readTypes(paths []string) (*typesFile, error) {
	types := &typesFile{}
	if len(paths) == 1 {
		if text, err := os.ReadFile(paths[0]); err == nil {
			if types.first, err = firstOf(text); err == nil {
				types.path = paths[0]
				return types, nil
			}
		}
	}
	var err error
	if types.text, types.lost, err = made(paths); err != nil {
		return nil, err
	}
	types.first, err = firstOf(types.text)
	return types, err
}

// firstOf is the first type of a types file, none where it has none. An error says that the
// text is no types file.
func firstOf(text []byte) (typeNames, error) {
	var file map[string]json.RawMessage
	if err := json.Unmarshal(text, &file); err != nil {
		return typeNames{}, err
	}
	declared, isTypes := file["types"]
	if !isTypes {
		return typeNames{}, errors.New("no member types")
	}
	var types []typeNames
	if err := json.Unmarshal(declared, &types); err != nil || len(types) == 0 {
		return typeNames{}, nil
	}
	return types[0], nil
}

// made is the text of the types file of definitions, and what it loses.
func made(paths []string) ([]byte, string, error) {
	whose := strings.Join(paths, ", ")
	python, err := exec.LookPath("python3")
	if err != nil {
		return nil, "", fmt.Errorf("no types: %s: CustomResourceDefinitions are read by python3, which isn't in PATH: "+
			"install it, or give a types file", whose)
	}
	folder, err := os.MkdirTemp("", "nazhuvem-tool-")
	if err != nil {
		return nil, "", err
	}
	defer os.RemoveAll(folder)
	if err := unpack(folder); err != nil {
		return nil, "", err
	}
	words := append([]string{"-c", runTool, folder, "--drop"}, paths...)
	command := exec.Command(python, words...)
	command.Env = append(os.Environ(), "PYTHONDONTWRITEBYTECODE=1")
	var text, said bytes.Buffer
	command.Stdout, command.Stderr = &text, &said
	err = command.Run()
	told := strings.TrimSpace(said.String())
	if err != nil {
		return nil, "", fmt.Errorf("no types: %s: %s", whose, strings.ReplaceAll(told, "crd: ", ""))
	}
	if told != "" {
		told = whose + " isn't served as it is (tools/crd tells all):\n" + told
	}
	return text.Bytes(), told, nil
}

// unpack writes the tool into a folder.
func unpack(folder string) error {
	return fs.WalkDir(tool, ".", func(path string, entry fs.DirEntry, err error) error {
		if err != nil {
			return err
		}
		if entry.IsDir() {
			return os.MkdirAll(filepath.Join(folder, path), 0o777)
		}
		data, err := tool.ReadFile(path)
		if err != nil {
			return err
		}
		return os.WriteFile(filepath.Join(folder, path), data, 0o666)
	})
}

// written is the path of the types as a file, and whether it is a temporary one.
func (t *typesFile) written() (string, bool, error) {
	if t.path != "" {
		return t.path, false, nil
	}
	file, err := os.CreateTemp("", "nazhuvem-types-*.json")
	if err != nil {
		return "", false, err
	}
	defer file.Close()
	_, err = file.Write(t.text)
	return file.Name(), true, err
}

// kept is a path of the types that is there after this; types that were made are kept beside
// another file.
func (t *typesFile) kept(beside string) (string, error) {
	if t.path != "" {
		return filepath.Abs(t.path)
	}
	path := typesBeside(beside)
	return path, os.WriteFile(path, t.text, 0o666)
}

// typesBeside is the path of types that are kept beside another file.
func typesBeside(path string) string {
	return strings.TrimSuffix(path, filepath.Ext(path)) + ".types.json"
}

// tell says on standard error, once, what the definitions lose.
func (t *typesFile) tell() {
	t.told.Do(func() {
		if t.lost != "" {
			fmt.Fprintln(os.Stderr, t.lost)
		}
	})
}
