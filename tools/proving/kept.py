"""What tools/gate --kept does: it tries work in hand, over what was kept in the crates' out/.

A crate has changed where its texts aren't those of its out/gate_kept, which a run that ends without a failure leaves
there; where crates are named, these are taken as changed, and no others. Its edits have a sum of their own there: where
they alone are others, nothing is proved and no test is run for it. Then come, each with its minutes:

  tools/prove --these       proves the libraries that changed, those that stand on them, and those below both
  the crates of tests       and the programs, that changed or stand on what changed: proved, built and run; a program
                            with its words, input and files, as `rt ci` runs it; what rattle says of one stands in its
                            out/gate.log
  tools/runs/run            runs those of the programs that were built anew
  tools/refused             where a program was built anew, or a crate of the tests that it runs
  tools/planted NAME ..     tries the planted edits of the crates that changed, or whose edits did, but of those that
                            stand as recorded

It trusts what is kept, tries no must-fail edit, and doesn't run the tests of the tools: it is no verdict on the
repository. (kit.py has what is used of the toolchain's code.)
"""
import contextlib
import copy
import os
import resource
import subprocess
import sys
import threading
import time

import kit
import tried
from lanes import Lanes

# What tools/runs has cases of, and what tools/refused runs.
PROGRAMS = ["dmpeer", "dmview", "dmlive"]
REFUSED = [*PROGRAMS, "tests_refused", "tests_refused_peer"]
# How long a program may run.
SECONDS = 60


def sums_of(crate):
    """Returns the sum of a crate's own texts, and that of its edits."""
    said = sorted((word, repr(it)) for word, it in crate.said.items())
    files = [it for it in os.listdir(crate.folder) if os.path.isfile(f"{crate.folder}/{it}")]
    texts = tried.files_below(crate.folder, "src", "specs", "proofs", "data", *files)
    return [tried.sum_of([said, texts]), tried.sum_of(tried.files_below(crate.folder, "planted"))]


def kept_of(crate):
    """Returns the sums that the last good run left, or two that are nothing's."""
    file = f"{crate.folder}/out/gate_kept"
    kept = tried.read(file).decode().split("\n") if os.path.isfile(file) else []
    return kept if len(kept) == 2 else ["", ""]


def keep(crate, its_sums):
    os.makedirs(f"{crate.folder}/out", exist_ok=True)
    with open(f"{crate.folder}/out/gate_kept", "w", encoding="utf-8") as it:
        it.write("\n".join(its_sums))


def is_run(crate):
    return crate.is_program or crate.has_tests()


def built_of(crate):
    """Returns where the program or the tests of a crate are built."""
    return f"{crate.folder}/out/{crate.name}" + "_tests" * (not crate.is_program)


def is_good_program(rt, crate, flags):
    """Proves and builds a program, and runs it as `rt ci` does; returns whether it is formatted and does what it must."""
    with contextlib.suppress(FileNotFoundError):
        os.remove(built_of(crate))
    if rt.rtlib.fmt(crate.folder, "--check", crate.out):
        return False
    # (how this run ends is nothing to go by: it has none of the program's words)
    crate.run(flags, [], input=b"", stdout=subprocess.PIPE, stderr=crate.out, timeout=SECONDS)
    return os.path.isfile(built_of(crate)) and rt.run(crate, False)


def closed(held):
    for it in held:
        os.close(it)


def timed(call, *given):
    """Calls, and prints the minutes that it took."""
    spent = lambda: sum(resource.getrusage(resource.RUSAGE_CHILDREN)[:2])
    begun, before = time.time(), spent()
    found = call(*given)
    minutes = (time.time() - begun) / 60, (spent() - before) / 60
    print("gate: this took {:.1f} minutes by the clock, {:.1f} of processor time".format(*minutes), flush=True)
    return found


class Kept:
    """The crates of the repository, those that changed, and those that changed or stand on them."""

    def __init__(self, top, names, counted, run):
        self.top, self.counted, self.run = top, counted, run
        self.rt = kit.load("gate")
        # (its first call sets a signal's handler, which only the main thread may)
        self.rt.rtlib.guarded()
        self.crates = kit.crates_of(self.rt, top, "gate")
        unknown = {*names} - {it.name for it in self.crates}
        if unknown:
            sys.exit(f"gate: crates.txt names no crate {' '.join(sorted(unknown))}")
        self.sums = {it: sums_of(it) for it in self.crates}
        kept = {it: kept_of(it) for it in self.crates}
        self.changed = [it for it in self.crates if (it.name in names if names else self.sums[it][0] != kept[it][0])]
        self.edited = [it for it in self.crates if it in self.changed or not names and self.sums[it] != kept[it]]
        self.touched = [it for it in self.crates if {it, *it.below()} & {*self.changed}]

    def all_parts(self):
        """Yields the counts of each part that has something to do."""
        touched = {it.name for it in self.touched}
        is_refused = touched & {*REFUSED}
        runs = [it for it in self.touched if is_run(it)]
        # (tools/refused wants them all)
        runs += [it for it in self.crates if is_refused and it.name in REFUSED and self.is_lacking(it, runs)]
        if touched:
            proved = sorted(touched | {it.name for it in runs})
            status, _ = timed(self.run, ["tools/prove", "--these", *proved], self.top)
            yield (0, 1) if status else (1, 0)
            if status:
                print("gate: nothing further was tried, since not all is proved", flush=True)
                return
        if runs:
            yield timed(self.tests, runs)
        programs = [f"crates/{it}/out/{it}" for it in PROGRAMS if it in touched]
        if programs:
            yield timed(self.counted, ["tools/runs/run", *programs], self.top)
        if is_refused:
            yield timed(self.counted, ["tools/refused"], self.top)
        edited = [it.name for it in self.edited if os.path.isdir(f"{it.folder}/planted")]
        if edited:
            yield timed(self.counted, ["tools/planted", *edited], self.top)

    @staticmethod
    def is_lacking(crate, runs):
        return crate not in runs and not os.path.isfile(built_of(crate))

    def tests(self, runs):
        """Proves, builds and runs these tests and programs side by side; returns how many passed, and failed."""
        print(f"== tests and programs: {' '.join(it.name for it in runs)}", flush=True)
        wanted = os.environ.get("RT_JOBS", "")
        jobs = int(wanted) if wanted.isdigit() and int(wanted) else self.rt.processors()
        lanes, results, lock = Lanes(jobs, 0.85 * self.rt.free()), [], threading.Lock()
        flags = ["--jobs", str(max(jobs // len(runs), 1))]

        def test(crate):
            begun, log, made = time.time(), f"{crate.folder}/out/gate.log", copy.copy(crate)
            os.makedirs(os.path.dirname(log), exist_ok=True)
            with open(log, "w", encoding="utf-8") as made.out:
                is_good = is_good_program(self.rt, made, flags) if crate.is_program else not made.test_whole(flags)
            how = "passed" if is_good else f"FAILED: see {os.path.relpath(log, self.top)}"
            with lock:
                print(f"gate: {crate.name}: {how}, {time.time() - begun:.0f} s", flush=True)
                results.append(is_good)

        held = self.rt.rtlib.lock(list(dict.fromkeys(dep for it in runs for dep in [*it.below(), it])))
        try:
            # (a text that was changed meanwhile; a new run proves it)
            lacking = sorted({dep.name for it in runs for dep in it.below() if not dep.is_built()})
            if lacking:
                print(f"gate: not tried, since these libraries aren't built: {' '.join(lacking)}", flush=True)
                return 0, len(runs)
            for it in runs:
                lanes.add(it.count(rb"\n"), self.rt.need(it), lambda it=it: test(it))
            lanes.run()
        finally:
            closed(held)
        return sum(results), len(results) - sum(results)


def all_in(top, names, counted, run):
    """Yields the counts of each part of a run over kept work; at its end, where none failed, notes what was tried."""
    kept, failures = Kept(top, names, counted, run), 0
    print(f"gate: changed: {' '.join(it.name for it in kept.changed) or 'nothing'}", flush=True)
    print(f"gate: stands on it: {' '.join(it.name for it in kept.touched if it not in kept.changed) or 'nothing'}")
    print(f"gate: its edits alone: {' '.join(it.name for it in kept.edited if it not in kept.changed) or 'nothing'}")
    for good, bad in kept.all_parts():
        failures += bad
        yield good, bad
    if not failures:
        for it in kept.edited:
            keep(it, kept.sums[it])
    print("gate: this was over kept work, for work in hand: it is no verdict on the repository", flush=True)
