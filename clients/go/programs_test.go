package nazhuvem

import (
	"os"
	"path/filepath"
	"testing"
)

// TestTheBuiltPipeIsCalledByItsName is about a program that is built once, for two names.
func TestTheBuiltPipeIsCalledByItsName(t *testing.T) {
	top := t.TempDir()
	out := filepath.Join(top, "crates", "ssa_replay", "out")
	built, pipe := filepath.Join(out, "ssa_replay"), filepath.Join(out, "ssa_pipe")
	if err := os.MkdirAll(out, 0o777); err != nil {
		t.Fatal(err)
	}
	for _, path := range []string{built, pipe} {
		if err := os.WriteFile(path, []byte("#!/bin/sh\n"), 0o755); err != nil {
			t.Fatal(err)
		}
	}
	expect := func(name, wanted string) {
		t.Helper()
		if found := ofRepository(top, name); found != wanted {
			t.Errorf("%s: %s, and not %s", name, found, wanted)
		}
	}
	expect("ssa-replay", built)
	expect("ssa-pipe", filepath.Join(top, "ssa-pipe")) // the link is that of another build
	if err := os.Remove(pipe); err != nil {
		t.Fatal(err)
	}
	expect("ssa-pipe", filepath.Join(top, "ssa-pipe"))
	if err := os.Link(built, pipe); err != nil {
		t.Fatal(err)
	}
	expect("ssa-pipe", pipe)
}

// TestAProgramThatIsMissing is about what is said where there is none.
func TestAProgramThatIsMissing(t *testing.T) {
	folder := t.TempDir()
	contains(t, notFound(folder, "ssa-pipe").Error(), "ssa-pipe is neither in "+folder+"/bin nor in PATH", "set NAZHUVEM_BIN")
	contains(t, notFound("", "ssa-pipe").Error(), "ssa-pipe is neither in the module's bin/ nor in PATH: put the programs there")
	t.Setenv("NAZHUVEM_BIN", folder)
	if _, err := Find("ssa-pipe"); err == nil || err.Error() != "NAZHUVEM_BIN is "+folder+", which has no ssa-pipe" {
		t.Error(err)
	}
}

// TestAnUnpackedRelease is about a module that stands in one: its programs are called without
// the scripts that start them.
func TestAnUnpackedRelease(t *testing.T) {
	top := t.TempDir()
	script, program := filepath.Join(top, "ssa-pipe"), filepath.Join(top, "programs", "ssa-pipe")
	if err := os.Mkdir(filepath.Join(top, "programs"), 0o777); err != nil {
		t.Fatal(err)
	}
	for _, path := range []string{script, program, filepath.Join(top, "MANIFEST")} {
		if err := os.WriteFile(path, []byte("#!/bin/sh\n"), 0o755); err != nil {
			t.Fatal(err)
		}
	}
	module := filepath.Join(top, "clients", "go")
	if found := besideModule(module, "ssa-pipe"); found != script {
		t.Error(found)
	}
	if found := itself(script); found != program {
		t.Error(found)
	}
	if err := os.MkdirAll(filepath.Join(module, "bin"), 0o777); err != nil {
		t.Fatal(err)
	}
	carried := filepath.Join(module, "bin", "ssa-pipe")
	if err := os.Rename(script, carried); err != nil {
		t.Fatal(err)
	}
	if found := besideModule(module, "ssa-pipe"); found != carried || itself(found) != carried {
		t.Error(found)
	}
}
