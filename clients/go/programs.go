package nazhuvem

import (
	"fmt"
	"os"
	"os/exec"
	"path/filepath"
	"runtime"
	"strings"
	"sync"
)

// module is the folder of this file; "" where the compiler was told to forget it.
func module() string {
	_, file, _, ok := runtime.Caller(0)
	if !ok || !filepath.IsAbs(file) {
		return ""
	}
	if real, err := filepath.EvalSymlinks(file); err == nil {
		file = real
	}
	return filepath.Dir(file)
}

func isProgram(path string) bool {
	info, err := os.Stat(path)
	return err == nil && info.Mode().IsRegular() && info.Mode()&0o111 != 0
}

// isSame is whether two paths lead to one file.
func isSame(path, other string) bool {
	one, err := os.Stat(path)
	if err != nil {
		return false
	}
	two, err := os.Stat(other)
	return err == nil && os.SameFile(one, two)
}

// ofRepository is the program that was built at the top of a repository, the one of an
// unpacked release, or the released one; "" where there is none.
func ofRepository(top, name string) string {
	file := strings.ReplaceAll(name, "-", "_")
	crate := file
	if name == "ssa-pipe" {
		crate = "ssa_replay"
	}
	out := filepath.Join(top, "crates", crate, "out")
	if built := filepath.Join(out, crate); isProgram(built) {
		if called := filepath.Join(out, file); isSame(called, built) {
			return called
		}
		return filepath.Join(top, name) // which calls it by its name
	}
	if _, err := os.Stat(filepath.Join(top, "MANIFEST")); err == nil && isProgram(filepath.Join(top, name)) {
		return filepath.Join(top, name)
	}
	released := filepath.Join(top, "tools", "released.py")
	if info, err := os.Stat(filepath.Join(top, "release")); err != nil || !info.IsDir() || !isProgram(released) {
		return ""
	}
	path, err := exec.Command(released, name).Output()
	if err != nil {
		return ""
	}
	return strings.TrimSpace(string(path))
}

// found has the programs that were found beside the module, "" for none, by name.
var found sync.Map

// Find returns the path of a program, "ssa-pipe" say: in the folder that NAZHUVEM_BIN
// names; without it in the module's own bin, at the top of the repository or of the
// release that the module stands in, or in PATH, in this order.
func Find(name string) (string, error) {
	if folder := os.Getenv("NAZHUVEM_BIN"); folder != "" {
		path := filepath.Join(folder, name)
		if !isProgram(path) {
			return "", fmt.Errorf("NAZHUVEM_BIN is %s, which has no %s", folder, name)
		}
		return path, nil
	}
	beside, isKnown := found.Load(name)
	if !isKnown {
		beside = besideModule(module(), name)
		found.Store(name, beside)
	}
	if path := beside.(string); path != "" {
		return path, nil
	}
	path, err := exec.LookPath(name)
	if err != nil {
		return "", notFound(module(), name)
	}
	return path, nil
}

// besideModule is the program in the bin of the module's folder, or at the top around it.
func besideModule(folder, name string) string {
	if folder == "" {
		return ""
	}
	if path := filepath.Join(folder, "bin", name); isProgram(path) {
		return path
	}
	return ofRepository(filepath.Dir(filepath.Dir(folder)), name)
}

// notFound says where a program is looked for, and what to do.
func notFound(folder, name string) error {
	bin := "the module's bin/"
	if folder != "" {
		bin = filepath.Join(folder, "bin")
	}
	return fmt.Errorf("%s is neither in %s nor in PATH: put the programs there, or set NAZHUVEM_BIN to their folder "+
		"(in a clone `tools/released.py --all` prints one)", name, bin)
}

// itself is the program that a script of this path starts in a release, else the path: a
// hub is sooner there without the script.
func itself(path string) string {
	beside := filepath.Join(filepath.Dir(path), "programs", filepath.Base(path))
	if isProgram(beside) {
		return beside
	}
	return path
}

// environment is that of a program: the C library keeps the small pieces of memory that
// objects free.
func environment() []string {
	const name = "GLIBC_TUNABLES"
	if _, isSet := os.LookupEnv(name); isSet {
		return os.Environ()
	}
	return append(os.Environ(), name+"=glibc.malloc.tcache_count=2000")
}
