"""What a run of planted edits finds: printed as it is found, listed and counted at the end."""
import collections
import re
import threading

# How the line begins that names the crates that have no line of the record, or one of other texts. tools/gate ends with
# it.
UNRECORDED = "planted: crates that don't stand as recorded: "
# An edit that was refused: its crate and file, what it changes (or the function that refused it, where it changes no
# body), the line that refused it, and whether it turns a definition: then all that is seen is that a written proof no
# longer fits, which a definition that is turned and true would show too.
Row = collections.namedtuple("Row", "edit subject line is_of_definition", defaults=[False])


class Report:
    def __init__(self):
        self.lock = threading.Lock()
        self.passed, self.failed, self.by_answer, self.by_names, self.by_search = [], [], [], [], []
        # (by the edit that was tried alone, the function that refused it)
        self.laws = {}
        # (by the crate that isn't tried, how many of its edits were refused at the very same texts)
        self.standing = {}
        # (the crates that have no line of the record, or one of other texts)
        self.unrecorded = []
        # (what is called with the crate of each edit that was refused)
        self.heard = lambda crate: None

    def say(self, text):
        with self.lock:
            print("planted:", text.replace("\n", " | ")[:500], flush=True)

    def passes(self, what, subject, why, is_of_definition=False):
        self.passed.append(Row(what, subject, why, is_of_definition))
        self.say(f"{what}: refused: {why}")
        self.heard(what.partition("/")[0])

    def fails(self, what, why):
        self.failed.append(what)
        self.say(f"{what}: {why}")

    def stands(self, crate, edits):
        self.standing[crate] = edits
        self.say(f"{crate}: {edits} edits, refused at this very text")

    def differs(self, crate):
        self.unrecorded.append(crate)

    def tried_of(self, crate):
        return sum(it.startswith(f"{crate}/") for it in [*(row.edit for row in self.passed), *self.failed])

    def refused_of(self, crate):
        return sum(it.edit.startswith(f"{crate}/") for it in self.passed)

    def failed_of(self, crate):
        return [it for it in self.failed if re.match(rf"{crate}\b", it)]

    def print_list(self, tests):
        """Prints each edit that was refused, what it changes and the line that refused it, and counts edits and tests."""
        for it in sorted(self.passed):
            print(f"{it.edit} | {it.subject} | {it.line}{' | a definition: by its proof' * it.is_of_definition}")
        crates = {it.edit.partition("/")[0] for it in self.passed}
        print(f"planted: {len(self.passed)} edits refused, in {len(crates)} crates; the crates have {tests} tests")

    def print_laws(self):
        """Prints for each edit that was tried alone the function that refused it."""
        print("# The function that refuses each edit that tools/planted tries alone. Run with --laws, it prints this table.")
        for what, law in sorted(self.laws.items()):
            print(f"{what} {law}")

    def end(self):
        """Prints what is to be looked at and the counts, and returns the status."""
        lists = {
            "refused by an answer file alone, which an equal body may fail too (look at each once)": self.by_answer,
            "refused only because a proof file names what is gone (change a value, keep the names)": self.by_names,
            "refused with no values found that break a goal: the search gave up (look at each once)": self.by_search,
            "FAILED": self.failed,
        }
        for head, names in lists.items():
            if names:
                print(f"planted: {head}: {' '.join(sorted(names))}")
        names = [f"{it} ({self.tried_of(it)} edits tried)" for it in sorted(self.unrecorded)]
        print(f"{UNRECORDED}{', '.join(names) or 'none'}")
        print(f"planted: {sum(self.standing.values())} edits stand as recorded, in {len(self.standing)} crates")
        print(f"{len(self.passed)} passed, {len(self.failed)} failed", flush=True)
        return 1 if self.failed else 0


def tests_in(texts):
    """Returns how many tests these texts hold."""
    return sum(len(re.findall(r"(?m)^\s*#\[test\]", it)) for it in texts.values())
