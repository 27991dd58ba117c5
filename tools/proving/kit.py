"""The toolchain's own code, as far as these tools use it: that of the `rt` on the path, loaded as a module.

tools/planted, tools/prove and tools/gate --kept call what stands here in USED and nothing else of it. Where a kit
differs, load says in one line what it lacks; what is to follow then is this file, and what calls the thing.
"""
import collections
import importlib.machinery
import importlib.util
import inspect
import os
import re
import shutil
import sys
import threading

# Something of the toolchain's: how it is called, by its arguments, and of a value ''; what is expected of it; and words
# that the tools look for in what it says.
Used = collections.namedtuple("Used", "call expected words", defaults=[()])
USED = {
    "rt.KIT": Used("", "the toolchain's folder, whose KIT-ID begins with the toolchain's name"),
    "rt.checked": Used("crate, texts, flags, kept", "checks a copy with these texts, over kept work: what ran"),
    "rt.must_fail": Used(
        "crate, edit, flags, kept",
        "tries an edit over the whole crate: one of rt's words (or a truth value), and a line",
        ("refused, as it must be", "(only because", "BAD EDIT: ", "NOT REFUSED: "),
    ),
    "rt.read_edit": Used("edit, folder", "the texts with an edit in place, or why it can't be"),
    "rt.unread": Used("line, changed", "whether a line of a check says that a changed text can't be read"),
    "rt.run": Used("crate, tests", "runs a program as `rt ci` does: whether it did what its files say"),
    "rt.need": Used("crate", "the octets of memory that a check of the crate takes"),
    "rt.processors": Used("", "how many processors there are to use"),
    "rt.free": Used("", "the octets of memory that are free"),
    "rtlib.STALE": Used("", "the pattern of a line that says that kept work of a library no longer fits"),
    "rtlib.guarded": Used("", "sets a signal's handler at its first call, which only the main thread may"),
    "rtlib.crates_below": Used("top", "the crates of a repository, those below first"),
    "rtlib.lock": Used("crates", "keeps other runs of rt out of these crates' folders until closed"),
    "rtlib.fmt": Used("folder, flag, out", "with --check: 0 where a crate is laid out"),
    "Crate.below": Used("self", "all crates below it, once each, those below first"),
    "Crate.count": Used("self, pattern", "how often a pattern stands in the crate's texts"),
    "Crate.makes_rlib": Used("self", "whether it is a library"),
    "Crate.has_tests": Used("self", "whether it has tests"),
    "Crate.is_built": Used("self", "whether its library is built of these very texts"),
    "Crate.build_rlib": Used("self, flags, anew=", "proves and builds the library where it isn't: 0 where it is"),
    "Crate.test_whole": Used("self, flags", "proves, builds and runs the tests: 0 where all passed"),
    "Crate.run": Used(
        "self, flags, arguments, input=, stdout=, stderr=, timeout=",
        "proves, builds and runs a program, built in out/NAME",
    ),
}
# What a crate has: its name, its folder, what crates.txt says of it, the crates right below it, where it writes what it
# says, where its library is built, and whether it is a program.
OF_A_CRATE = "name folder said deps out rlib is_program".split()


def module_of(rt, name):
    """Returns the module or class of the toolchain in which a thing stands."""
    rtlib = getattr(rt, "rtlib", None)
    return {"rt": rt, "rtlib": rtlib, "Crate": getattr(rtlib, "Crate", None)}[name]


def why_lacking(it, used):
    """Returns why a thing isn't as it is used; None where it is. (Where its text can't be read, its words aren't looked
    for.)"""
    if it is None:
        return "isn't there"
    if not used.call and not callable(it):
        return None
    names = [name for name in used.call.split(", ") if name]
    try:
        given = {name.rstrip("="): None for name in names if name.endswith("=")}
        inspect.signature(it).bind(*[None for name in names if not name.endswith("=")], **given)
    except (TypeError, ValueError) as error:
        return f"is called otherwise: {error}"
    lost = [word for word in used.words if word not in inspect.getsource(it)]
    return f"no longer says {lost[0]!r}" if lost else None


def lacking(rt):
    """Returns what the toolchain lacks of all that is used, a sentence each."""
    found = []
    for name, used in USED.items():
        where, _, last = name.partition(".")
        why = why_lacking(getattr(module_of(rt, where), last, None), used)
        if why:
            found.append(f"{name}{f'({used.call})' * bool(used.call)} {why}; expected: {used.expected}")
    return found


def keep_what_is_said(rt):
    """Keeps in rt.heard.said what the last check of a thread said: rt's must_fail gives a line of it alone."""
    rt.heard, plain = threading.local(), rt.checked

    def checked(*given):
        ran = plain(*given)
        rt.heard.said = ran.stdout
        return ran

    rt.checked = checked


def load(who):
    """Returns the toolchain's rt as a module; where there is none, or it isn't as it is used, this command ends."""
    found = shutil.which("rt")
    if not found:
        sys.exit(f"{who}: there is no rt on the path: put the toolchain's bin/ there")
    loader = importlib.machinery.SourceFileLoader("rt", os.path.realpath(found))
    rt = importlib.util.module_from_spec(importlib.util.spec_from_loader("rt", loader))
    loader.exec_module(rt)
    lost = lacking(rt)
    if lost:
        sys.exit(f"{who}: tools/proving/kit.py doesn't fit this toolchain: {' | '.join(lost)}")
    keep_what_is_said(rt)
    return rt


def crates_of(rt, top, who):
    """Returns the crates of a repository, those below first."""
    crates = rt.rtlib.crates_below(top)
    lost = [it for it in OF_A_CRATE if crates and not hasattr(crates[0], it)]
    if lost:
        sys.exit(f"{who}: tools/proving/kit.py doesn't fit this toolchain: a crate has no {' and no '.join(lost)}")
    return crates


def is_refusal(rt, kind):
    """Returns whether this is what rt's must_fail gives of an edit that is refused: one of its words, where it has such
    (what a limit of the prover stops is refused too, as rt counts it), or else the truth value."""
    words = [getattr(rt, it) for it in ("REFUSED", "AT_LIMIT") if hasattr(rt, it)]
    return kind in words if words else kind is True


def name_of(rt):
    """Returns the toolchain's name, and all of its identity."""
    with open(f"{rt.KIT}/KIT-ID", "rb") as it:
        identity = it.read()
    return re.match(rb"\S*", identity)[0].decode(), identity
