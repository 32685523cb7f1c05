#!/usr/bin/env python3
"""Refuses each allocation of a crate's tests, or of a program, in turn, and says what each run then did.

Usage: tools/failing_memory.py --gate
       tools/failing_memory.py [--stay] [--jobs N] CRATE [NAME..]
       tools/failing_memory.py [--all] [--stay] [--jobs N] PROGRAM -- [ARGUMENT..]

CRATE     a crate's name, whose tests `rt test` or the gate built as crates/CRATE/out/CRATE_tests, or the path of such a program
NAME      only the tests whose full name contains one of these
PROGRAM   a crate's name, whose program `rt run` built as crates/CRATE/out/CRATE, or the path of a program (no shell script)
ARGUMENT  what the program is run with, here where this script is run

TESTS. A test marks the calls that it is about by an allocation of exactly 1,000,003 bytes before and after them
(`mark`). Each test runs alone, with ample memory. At each allocation of a marked part a copy of the process goes on
with that one refused, and with --stay with each later one too, up to the end of the part. The test must pass with ample memory
and in each copy, and it must have a marked part, or that is a finding, told with the number of the allocation, its part, how the
copy ended and what it said. One line is told for each test.

PROGRAMS. The program runs once with ample memory, and once for each allocation that it then made, from the C library's start on,
with that one refused, and with --stay each later one too. The runs are counted by exit status, standard error, and how the
standard output compares with that of the run with ample memory: the whole of it, or a front (its first bytes, or none). The
numbers of the allocations stand behind.

  FINDING    the output is no front; or it is less than the whole, and the status is 0 or the run ended just as that with
             ample memory; or a signal ended the program; or it didn't end; or nothing was refused, since it made fewer
             allocations

GATE. With --gate it refuses each allocation of the tests that GATE lists, with and without --stay. A test that isn't there is
a finding, as is one of any crate that has `refused_memory` in its name and isn't listed. The last line counts the tests,
`N passed, M failed`.

The status is 1 where there is a finding.
"""
import argparse
import collections
import concurrent.futures
import os
import re
import resource
import subprocess
import sys
import tempfile

TOP = os.path.dirname(os.path.dirname(os.path.abspath(__file__)))
HERE = os.path.dirname(os.path.abspath(__file__))
SECONDS = 60
MOST_TOLD = 10
WORDS = "refused_memory"
GATE = {
    "contents_tests": ["an_apply_that_is_refused_memory", "a_write_by_status_that_is_refused_memory"],
    "client_tests": [
        "a_put_that_is_refused_memory", "a_replace_that_is_refused_memory",                     # of cached
        "a_piece_that_is_refused_memory_is_given_up", "a_page_that_is_refused_memory_is_given_up",  # of informers
    ],
    "upper_tests": [
        "a_put_that_is_refused_memory", "a_prune_that_is_refused_memory",                       # of tables
        "a_write_that_is_refused_memory", "a_compaction_that_is_refused_memory",                # of stores
        "waiting_writes_that_are_refused_memory",                                               # of stores
    ],
    "json_patch_tests": ["a_merge_that_is_refused_memory", "a_patch_that_is_refused_memory"],
    "server_tests": ["calls_that_are_refused_memory"],
    "world_tests": ["a_run_that_is_refused_memory"],
}


class Run:
    """One run of a program: how it ended, what it wrote, and what the shim told."""

    def __init__(self, shim, command, where, timeout=None, **asked):
        with tempfile.TemporaryFile() as told:
            asked["told"] = told.fileno()
            env = {f"FAILING_MEMORY_{name.upper()}": str(int(value)) for name, value in asked.items()}
            env.update({"LD_PRELOAD": shim, "PATH": "/usr/bin:/bin", "HOME": where})
            how = {"stdin": subprocess.DEVNULL, "stdout": subprocess.PIPE, "stderr": subprocess.PIPE, "timeout": timeout}
            try:
                ran = subprocess.run(command, env=env, cwd=where, pass_fds=[told.fileno()], **how)
                self.status, self.output, self.error = ran.returncode, ran.stdout, ran.stderr or b""
            except subprocess.TimeoutExpired as late:
                self.status, self.output, self.error = None, late.stdout or b"", late.stderr or b""
            told.seek(0)
            lines = [line.split() for line in told.read().decode().splitlines()]
        self.told = [(word, *map(int, numbers)) for word, *numbers in lines]
        self.is_refused = any(word == "refused" for word, *_ in self.told)
        self.calls = [number for word, number, *_ in self.told if word == "calls"]


def shown(text):
    return " ".join(text.decode(errors="replace").split())[-300:]


def ending_of(status):
    if status is None:
        return f"no end in {SECONDS} seconds"
    return f"signal {-status}" if status < 0 else f"status {status}"


def sweep_test(shim, program, test, options):
    """Refuses each allocation of a test's marked parts in turn; returns whether all is well."""
    with tempfile.TemporaryDirectory() as room:
        run = Run(shim, [program, test], room, each=True, stay=options.stay, jobs=options.jobs)
        copies = [(number, part, os.waitstatus_to_exitcode(status)) for word, number, part, status in run.told if word == "copy"]
        said = {}
        for number, _, status in copies:
            if status != 0:
                with open(os.path.join(room, str(number)), "rb") as it:
                    said[number] = shown(it.read())
    findings = [f"allocation {number} (part {part}): {ending_of(status)}: {said[number]}" for number, part, status in copies if status]
    if run.status != 0 or b"test result: ok" not in run.output or not run.calls:
        findings.insert(0, f"with ample memory: {ending_of(run.status)}: {shown(run.output + run.error)}")
    elif not copies:
        findings.insert(0, "no allocation is in a marked part")
    for finding in findings[:MOST_TOLD]:
        print(f"  FINDING: {test}: {finding}")
    if len(findings) > MOST_TOLD:
        print(f"  FINDING: {test}: {len(findings) - MOST_TOLD} more")
    parts = len({part for _, part, _ in copies})
    held = sum(status == 0 for _, _, status in copies)
    lasting = ", each for the rest of its part" if options.stay else ""
    name = os.path.basename(program).removesuffix("_tests")
    print(f"{name} {test}: {held} of {len(copies)} refusals in {parts} part{'s' * (parts != 1)} held{lasting}", flush=True)
    return not findings


def output_of(run, whole):
    """The output of a run of a program beside that of the run with ample memory, and whether that is a finding."""
    if run.output == whole.output:
        return "the whole output" if whole.output else "no output", False
    if whole.output.startswith(run.output):
        ends_as_whole = (run.status, run.error) == (whole.status, whole.error)
        return "a front of the output", ends_as_whole or run.status == 0
    return "NO FRONT of the output", True


def outcome_of(run, whole):
    """What a run of a program came to: its ending, its error, its output, and whether that is a finding."""
    error = shown(run.error)
    output, is_finding = output_of(run, whole)
    is_broken = run.status is None or run.status < 0 or not run.is_refused
    if not run.is_refused:
        error += " (nothing was refused)"
    return ending_of(run.status), error, output, is_finding or is_broken


def ranges_of(numbers):
    """Ascending numbers as text: 1-8, 12, .."""
    ranges = []
    for number in numbers:
        if ranges and ranges[-1][1] == number - 1:
            ranges[-1][1] = number
        else:
            ranges.append([number, number])
    told = [str(first) if first == last else f"{first}-{last}" for first, last in ranges[:6]]
    return ", ".join(told + [".."] * (len(ranges) > 6))


def sweep_program(shim, command, options):
    """Refuses each allocation of the program in turn; returns whether all is well."""
    where = os.getcwd()
    name = " ".join([os.path.basename(command[0])] + command[1:])
    whole = Run(shim, command, where, SECONDS)
    if not whole.calls:
        print(f"{name}: FINDING: with ample memory: {ending_of(whole.status)}, and the end was not told")
        return False
    outcomes = collections.defaultdict(list)
    numbers = range(1, whole.calls[0] + 1)
    with concurrent.futures.ThreadPoolExecutor(options.jobs) as pool:
        ran = lambda at: outcome_of(Run(shim, command, where, SECONDS, at=at, stay=options.stay), whole)
        for number, outcome in zip(numbers, pool.map(ran, numbers)):
            outcomes[outcome].append(number)
            if options.all:
                print(f"  {name}: allocation {number}: {', '.join(outcome[:3])}", flush=True)
    lasting = ", and each later one too" if options.stay else ""
    print(f"{name}: {len(numbers)} allocations, each refused in turn{lasting}")
    print(f"  with ample memory: {ending_of(whole.status)}, {len(whole.output)} bytes of output")
    for outcome, which in sorted(outcomes.items(), key=lambda it: -len(it[1])):
        ending, error, output, is_finding = outcome
        finding = "FINDING: " if is_finding else ""
        said = repr(error) if error else "nothing on standard error"
        print(f"  {len(which):6} {finding}{ending}, {said}, {output} (allocations {ranges_of(which)})")
    return not any(outcome[3] for outcome in outcomes)


def read_options():
    """The options, and the arguments of a program where there is a `--`."""
    given = sys.argv[1:]
    arguments = None
    if "--" in given:
        place = given.index("--")
        given, arguments = given[:place], given[place + 1:]
    reads = argparse.ArgumentParser(description=__doc__, formatter_class=argparse.RawDescriptionHelpFormatter)
    reads.add_argument("--gate", action="store_true", help="sweep the tests of the gate")
    reads.add_argument("--all", action="store_true", help="tell each run of a program")
    reads.add_argument("--stay", action="store_true", help="let each refusal last to the end of the part or run")
    reads.add_argument("--jobs", type=int, default=os.cpu_count() or 2)
    reads.add_argument("program", metavar="CRATE|PROGRAM", nargs="?")
    reads.add_argument("names", nargs="*", metavar="NAME")
    options = reads.parse_intermixed_args(given)
    if bool(options.program) == options.gate:
        reads.error("it takes --gate, or a crate or a program")
    if arguments is not None and options.names:
        reads.error("names of tests stand beside a program's arguments")
    return options, arguments


def built(name, end, how):
    """The path of a program: itself, or what was built of the crate of this name."""
    path = name if os.path.isfile(name) else os.path.join(TOP, "crates", name, "out", f"{name}{end}")
    if not os.path.isfile(path):
        sys.exit(f"there is no {path}: build it by `{how}` in the crate's folder")
    with open(path, "rb") as it:
        if it.read(4) != b"\x7fELF":
            sys.exit(f"{path} is no program that the system runs itself: name what was built")
    return os.path.abspath(path)


def tests_of(program):
    """The names of a program's tests."""
    listed = subprocess.run([program, "--list"], stdout=subprocess.PIPE, check=True, text=True).stdout
    return re.findall(r"^(.+): test$", listed, re.M)


def sweep_gate(shim, options):
    """Sweeps the tests of the gate, and counts them; returns whether all is well."""
    counts = collections.Counter()
    folders = os.path.join(TOP, "crates")
    others = [it for it in sorted(os.listdir(folders)) if it not in GATE]
    for crate, wanted in {**GATE, **dict.fromkeys(others, [])}.items():
        program = os.path.join(folders, crate, "out", f"{crate}_tests")
        found = [it for it in tests_of(program) if WORDS in it] if os.path.isfile(program) else []
        names = collections.Counter(it.rpartition("::")[2] for it in found)
        wanted = collections.Counter(wanted)
        for name in [*(wanted - names).elements(), *(names - wanted).elements()]:
            why = "isn't there" if wanted[name] > names[name] else "isn't in the list of the gate"
            print(f"  FINDING: {crate}: {name} {why}", flush=True)
            counts[False] += 1
        for options.stay in (False, True):
            counts.update(sweep_test(shim, program, it, options) for it in found)
    print(f"{counts[True]} passed, {counts[False]} failed")
    return not counts[False]


def sweep_tests(shim, program, options):
    """Sweeps tests of a program; returns whether all is well."""
    tests = tests_of(program)
    if options.names:
        tests = [it for it in tests if any(name in it for name in options.names)]
    if not tests:
        sys.exit("no test has such a name")
    return all([sweep_test(shim, program, it, options) for it in tests])


def main():
    options, arguments = read_options()
    is_test = arguments is None
    program = None if options.gate else built(options.program, "_tests", "rt test") if is_test else built(options.program, "", "rt run")
    resource.setrlimit(resource.RLIMIT_CORE, (0, 0))
    with tempfile.TemporaryDirectory() as room:
        shim = f"{room}/failing_memory.so"
        subprocess.run(["cc", "-O2", "-shared", "-fPIC", "-o", shim, f"{HERE}/failing_memory.c"], check=True)
        if options.gate:
            is_well = sweep_gate(shim, options)
        elif is_test:
            is_well = sweep_tests(shim, program, options)
        else:
            is_well = sweep_program(shim, [program] + arguments, options)
    sys.exit(0 if is_well else 1)


if __name__ == "__main__":
    main()
