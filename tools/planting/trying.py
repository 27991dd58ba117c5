"""How the planted edits of one crate are tried, and what is said of each.

What stands here, in edits.py and in verdicts.py decides on the verdicts, and counts in the digest of a record
(tried.py): a change of this code, but not of its comments, has all edits tried again, one of the other tools none.
"""
import os
import re
import shutil
import tempfile
import threading
import time

import kit
import verdicts
from edits import asked_as, changes_of, every_function, function_of, functions_of, in_turn, joined, rounds_of, texts_of

# The most edits of one round: a longer one saves little, and leaves lanes idle at the end.
LARGEST = 16
FILE = r"[A-Za-z0-9_-][A-Za-z0-9_.-]*\.edit"
ONE_JOB = ["--jobs", "1"]


def files_in(folder):
    """Returns the edit files of a crate's folder, and the names of what has no place among them."""
    folder = f"{folder}/planted"
    names = sorted(os.listdir(folder)) if os.path.isdir(folder) else []
    good = [it for it in names if re.fullmatch(FILE, it) and os.path.isfile(f"{folder}/{it}")]
    return [f"{folder}/{it}" for it in good], [it for it in names if it not in good and not it.endswith(".md")]


def last_line(said):
    return said.rstrip("\n").split("\n")[-1]


class Edit:
    """An edit file: its changes, none where they can't be put in place at once, and the function whose body holds them;
    no function where it has to be tried alone, and then the law that has refused it, if one is stored."""

    def __init__(self, file, changes, function, law):
        self.file, self.name, self.changes, self.function = file, os.path.basename(file), changes, function
        self.law = None if function else law
        self.is_of_definition = any(it.file.startswith("specs/") for it in changes or ())


class Planted:
    """The planted edits of one crate."""

    def __init__(self, run, crate):
        self.run, self.rt, self.report, self.crate, self.name = run, run.rt, run.report, crate, crate.name
        self.size, self.needs = crate.count(rb"\n"), run.rt.need(crate)
        self.texts = texts_of(crate.folder)
        self.kept, self.of_whole = f"{run.room}/{crate.name}", f"{run.room}/{crate.name}, whole"
        self.whole_lock, self.is_whole_proved = threading.Lock(), None

    def add(self, call, *given):
        """Gives the lanes a piece of work on this crate. The largest crates go first."""
        self.run.lanes.add(self.size, self.needs, lambda: call(*given))

    def check(self, texts, kept, only, label):
        """Checks the crate, or these functions of it, with these texts in place of its own; returns what was said."""
        begun = time.time()
        flags = [word for name in only for word in ("--only", name)]
        ran = self.rt.checked(self.crate, texts, [*ONE_JOB, *flags], kept)
        self.run.write_log(f"{self.name}, {label}", ran.stdout)
        self.report.say(f"{self.name}: {label}: {time.time() - begun:.0f} s")
        return ran.stdout

    def begin(self):
        """Checks as they are the functions that have edits, or else the whole crate; gives its edits to the lanes."""
        own = f"{self.crate.folder}/out/incremental"
        if os.path.isdir(own) and not self.run.is_after_ci:
            shutil.copytree(own, self.kept)
        else:
            os.mkdir(self.kept)
        edits = self.read(every_function(self.texts))
        said = self.check({}, self.kept, asked_by(edits), "as it is") if asked_by(edits) else ""
        if not verdicts.is_all_proved(said):
            said = self.check({}, self.kept, [], "as it is, whole")
            if not verdicts.is_all_proved(said):
                self.report.fails(self.name, f"NOT PROVED, so none of its edits was tried: {last_line(said)}")
                return
            self.of_whole, self.is_whole_proved = self.kept, True
        self.known = {*re.findall(rf"(?m)^fn {self.name}::(\S+): proved$", said)}
        self.functions = functions_of(self.texts, self.known)
        for it in edits:
            it.function = it.changes and function_of(it.changes, self.texts, self.functions.values())
        rounds = rounds_of([it for it in edits if it.function], LARGEST)
        for at, there in enumerate(rounds):
            self.add(self.round, there, f"round {at + 1} of {len(rounds)}, {len(there)} edits")
        for it in edits:
            if not it.function:
                self.add(self.by_law, it, "it changes more than the body of one function, or step by step")

    def read(self, functions):
        """Returns the edits that can be applied, and tells of the others."""
        files, others = files_in(self.crate.folder)
        for it in others:
            self.report.fails(f"{self.name}/{it}", "BAD EDIT: its name isn't letters, digits, _, -, . and then .edit")
        edits = []
        for file in files:
            with open(file, encoding="utf-8", errors="replace") as it:
                changes = changes_of(it.read(), self.texts)
            what = f"{self.name}/{os.path.basename(file)}"
            why = None if changes else self.rt.read_edit(file, self.crate.folder)[1]
            if why:
                self.report.fails(what, f"BAD EDIT: {why}")
                continue
            function = changes and function_of(changes, self.texts, functions)
            edits.append(Edit(file, changes, function, self.run.laws.get(what)))
        return edits

    def round(self, edits, label):
        """Checks the functions of these edits with all of them in place, and judges each."""
        texts, only = joined(edits, self.texts), sorted(it.function.name for it in edits)
        functions = {**self.functions, **functions_of(texts, self.known)}
        others = every_function({**self.texts, **texts}, but=functions.values())
        with tempfile.TemporaryDirectory(dir=self.run.room) as room:
            said = self.check(texts, shutil.copytree(self.kept, f"{room}/kept"), only, label)
        if not last_line(said).startswith("only="):
            self.without_verdict(edits, label, functions, said)
            return
        every = [*functions.values(), *others]
        strange = verdicts.strangers(self.name, every, [it.function for it in edits], said)
        for it in edits:
            kind, line = verdicts.judge(self.name, functions[it.function.name], said)
            if strange:
                self.add(self.alone, it, f"in its round {strange[0]}, which has no edit, has a goal that isn't proved")
            elif kind not in verdicts.REFUSALS:
                self.add(self.alone, it, line)
            else:
                self.report.by_answer += [f"{self.name}/{it.name}"] * (kind == verdicts.ANSWER)
                self.report.by_search += [f"{self.name}/{it.name}"] * (kind == verdicts.UNPROVED)
                self.report.passes(f"{self.name}/{it.name}", it.function.name, line)

    def without_verdict(self, edits, label, functions, said):
        """Takes the edits that the front end can't read out of a round that they stopped; tries the others again."""
        bad = verdicts.culprits(edits, functions, said)
        left = [it for it in edits if it not in bad]
        if not bad:
            self.report.fails(f"{self.name} ({label})", f"the check ended without a verdict: {last_line(said)}")
        for it in bad or left:
            self.add(self.alone, it, "its round ended without a verdict")
        if bad and left:
            self.add(self.round, left, f"{label}, again without {len(bad)}")

    def by_law(self, edit, why):
        """Tries an edit alone, first on the law that has refused it. Where that doesn't, the whole crate decides."""
        texts = joined([edit], self.texts) if edit.changes else self.rt.read_edit(edit.file, self.crate.folder)[0]
        line = None
        if edit.law:
            with tempfile.TemporaryDirectory(dir=self.run.room) as room:
                label = f"{edit.name}, {edit.law}"
                said = self.check(texts, shutil.copytree(self.kept, f"{room}/kept"), [edit.law], label)
            is_read = not any(self.rt.unread(it, texts) for it in said.split("\n"))
            is_read = is_read and not self.rt.rtlib.STALE.search(said)
            line = is_read and verdicts.refusal_by(self.name, edit.law, said)
        if not line:
            self.alone(edit, f"{edit.law} doesn't refuse it" if edit.law else why)
            return
        what = f"{self.name}/{edit.name}"
        self.report.laws[what] = edit.law
        self.report.by_search += [what] * (not verdicts.is_broken(said))
        self.report.passes(what, edit.law, line, edit.is_of_definition)

    def whole(self):
        """Returns where the checked crate as it is, as a whole, is kept; none where it isn't proved."""
        with self.whole_lock:
            if self.is_whole_proved is None:
                said = self.check({}, shutil.copytree(self.kept, self.of_whole), [], "as it is, whole, for edits alone")
                self.is_whole_proved = verdicts.is_all_proved(said)
        return self.of_whole if self.is_whole_proved else None

    def alone(self, edit, why):
        """Tries an edit over the whole crate, as rt must-fail does."""
        what, begun, whole = f"{self.name}/{edit.name}", time.time(), self.whole()
        if not whole:
            self.report.fails(what, "not tried, since the crate as a whole is NOT PROVED without it")
            return
        self.rt.heard.said = ""
        with tempfile.TemporaryDirectory(dir=self.run.room) as room:
            kept = shutil.copytree(whole, f"{room}/kept")
            kind, told = self.rt.must_fail(self.crate, self.file_for_rt(edit, room), ONE_JOB, kept)
            seconds = verdicts.seconds_of(self.name, kept)
        said = self.rt.heard.said
        self.run.write_log(what.replace("/", ", "), said)
        self.report.say(f"{what}: tried alone, {time.time() - begun:.0f} s, because: {why[:150]}")
        told = told.partition(f"{edit.name}: ")[2]
        if not kit.is_refusal(self.rt, kind):
            self.report.fails(what, told)
            return
        is_by_names = "(only because" in told
        self.report.by_names += [what] * is_by_names
        self.report.by_search += [what] * (not is_by_names and not verdicts.is_broken(said))
        changed = {it.file for it in edit.changes} or self.rt.read_edit(edit.file, self.crate.folder)[0].keys()
        law = verdicts.nearest(self.name, verdicts.unproved(self.name, said), self.texts, changed, seconds)
        if law and not edit.function:
            self.report.laws[what] = law
        subject = edit.function.name if edit.function else law or "?"
        why = told.partition("refused, as it must be")[2].lstrip(": ")
        self.report.passes(what, subject, why, edit.is_of_definition)

    def file_for_rt(self, edit, room):
        """Returns the edit as a file that rt reads alike: its own, or one that makes its changes in turn."""
        if not edit.changes:
            return edit.file
        file = f"{room}/{edit.name}"
        with open(file, "w", encoding="utf-8") as it:
            it.write(in_turn(edit.changes))
        return file


def asked_by(edits):
    """Returns the functions of which these edits have to be refused, as `--only` takes them; none where that can't be
    told of each."""
    names = [asked_as(it.function) if it.function else it.law for it in edits]
    return sorted({*names}) if all(names) else []
