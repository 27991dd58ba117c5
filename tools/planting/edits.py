"""Planted edits as text: which function of a crate an edit changes, and many edits put in place at once.

The sources are as `rt fmt` lays them out (`rt ci` refuses others), so a function ends at the first line that has its
closing brace, and nothing else, as far in as its head.
"""
import collections
import os
import re

HEAD = re.compile(r"( *)(?:pub(?:\([\w: ]+\))? )?(?:const )?(?:unsafe )?fn (\w+)")
IMPL = re.compile(r"( *)impl\b(.*)")

# A function by the name that a check gives it, that of its proof (functions that call each other in a cycle have one
# proof), and the lines, from 0, of its first comment or attribute, of the opening of its body and of its end.
Function = collections.namedtuple("Function", "name proof file first body last")
# One text that an edit changes: the file, where the old text starts there, the old text and the new one.
Change = collections.namedtuple("Change", "file start old new")


def end_of(lines, head, indent):
    """Returns the line in which the item ends whose head is on this line, so far in."""
    if lines[head].endswith(("{}", " }", ";")):
        return head
    ends = (indent + "}", indent + "{}")
    return next((at for at in range(head, len(lines)) if lines[at] in ends), len(lines) - 1)


def body_of(lines, head, last, indent):
    """Returns the line in which the function's body opens. Its clauses stand further in than that line."""
    opens = re.compile(indent + r"(\S.*)?(\{|\{\})")
    return next((at for at in range(head, last + 1) if opens.fullmatch(lines[at])), head)


def first_of(lines, head, indent):
    """Returns the line of the first comment or attribute right above the function."""
    while head > 0 and lines[head - 1].startswith((indent + "///", indent + "#[")):
        head -= 1
    return head


def without_arguments(path):
    """Returns the last name of a path, as of a type or a trait, without what stands between < and >."""
    while re.search(r"<[^<>]*>", path):
        path = re.sub(r"<[^<>]*>", "", path)
    return path.strip().strip("&").split()[-1].split("::")[-1]


def argument_of(path, parameters):
    """Returns the name of the one type that a type or a trait is of, as Segment of Takes<Segment<'a>>; none where it is
    of none, of more, or of the impl's own parameter."""
    inner = re.search(r"<(.*)>", path)
    words = [it.strip() for it in re.sub(r"<.*>", "", inner[1]).split(",")] if inner else []
    types = [it.split("::")[-1] for it in words if re.fullmatch(r"[\w:]+", it)]
    return types[0] if len(types) == 1 and types[0] not in parameters else ""


def owner_in(head):
    """Returns how a check names the methods of an impl with this head: by its type, the trait behind it and what that
    is of; where there is no trait, by the type and, behind a +, what this is of."""
    head = head.partition("{")[0].partition(" where ")[0].strip()
    own = re.match(r"<((?:[^<>]|<[^<>]*>)*)>", head)
    parameters = re.findall(r"(?:^|, )(\w+)", own[1]) if own else []
    trait, _, owner = (head[own.end() :] if own else head).rpartition(" for ")
    if trait:
        return without_arguments(owner) + without_arguments(trait) + argument_of(trait, parameters)
    argument = argument_of(owner, parameters)
    return without_arguments(owner) + (f"+{argument}" if argument else "")


def functions_in(file, text):
    """Returns the functions of a source file by their paths: the file's module, the type of an impl, the function."""
    module = [it for it in file[len("src/") : -len(".rt")].split("/") if it not in ("lib", "main", "mod")]
    lines, owner, owner_ends, found = text.split("\n"), "", -1, []
    for at, line in enumerate(lines):
        impl, head = IMPL.match(line), HEAD.match(line)
        if impl:
            owner, owner_ends = owner_in(impl[2]), end_of(lines, at, impl[1])
        if head:
            name = "::".join([*module, *([owner] if at <= owner_ends else []), head[2]])
            last = end_of(lines, at, head[1])
            first, body = first_of(lines, at, head[1]), body_of(lines, at, last, head[1])
            cycle = re.search(r"#\[cycle\((\w+)\)\]", "\n".join(lines[first:at]))
            found.append(Function(name, cycle and "+" + cycle[1], file, first, body, last))
    return found


def functions_of(texts, known):
    """Returns the functions of a crate's texts by the names that a check printed, as far as there is one for each.

    A check names a method by the module of its type, and the impl may stand in another: there the last two words count.
    """
    by_end = collections.defaultdict(list)
    for name in known:
        by_end[tuple(name.split("::")[-2:])].append(name)
    found = {}
    for file in (it for it in texts if it.startswith("src/") and it.endswith(".rt")):
        for it in functions_in(file, texts[file]):
            fits = [it.name] if it.name in known else by_end[tuple(it.name.split("::")[-2:])]
            if len(fits) == 1:
                found[fits[0]] = with_proof(it, fits[0])
    return found


def every_function(texts, but=()):
    """Returns the functions of these texts, by the names that their places give them, but those that stand where these
    do."""
    taken = {(it.file, it.first) for it in but}
    files = [it for it in texts if it.startswith("src/") and it.endswith(".rt")]
    found = [it for file in files for it in functions_in(file, texts[file]) if (file, it.first) not in taken]
    return [with_proof(it, it.name) for it in found]


def with_proof(function, name):
    """Returns the function by this name, with the name of its proof beside it."""
    *above, last = name.split("::")
    return function._replace(name=name, proof="::".join([*above, function.proof or last]))


def asked_as(function):
    """Returns the name by which a check can be asked for a function before it has said what it calls it: the end of the
    name, where it is a method, whose impl may stand in another module than its type."""
    words = function.name.split("::")
    return "::".join(words[-2:] if len(words) > 1 and words[-2][0].isupper() else words)


def texts_of(folder):
    """Returns the texts of the crate's files by their paths in it."""
    texts = {}
    for part in ("src", "specs", "proofs"):
        for at, _, names in os.walk(f"{folder}/{part}"):
            for name in names:
                with open(f"{at}/{name}", encoding="utf-8", errors="replace") as it:
                    texts[os.path.relpath(f"{at}/{name}", folder)] = it.read()
    return texts


def overlap(a, b):
    """Returns whether two changes touch the same text."""
    return a.file == b.file and a.start < b.start + len(b.old) and b.start < a.start + len(a.old)


def changes_of(text, texts):
    """Returns the changes that an edit file asks for, all put in place at once, so that two lines can change places.

    There are none where an old text isn't in the unedited file just once, or two of them touch the same text.
    """
    changes, file, old = [], "", ""
    for line in text.split("\n"):
        if line.startswith("file: "):
            file = line[len("file: ") :].strip()
        elif line.startswith("old: "):
            old = line[len("old: ") :]
        elif line.startswith("new:"):
            if not old or texts.get(file, "").count(old) != 1:
                return []
            changes.append(Change(file, texts[file].index(old), old, re.sub(r"\A ", "", line[len("new:") :])))
            old = ""
    touch = any(overlap(a, b) for at, a in enumerate(changes) for b in changes[:at])
    return [] if touch else changes


def in_turn(changes):
    """Returns an edit file of these changes for `rt`, which applies each pair to what the pairs before it made.

    The first pairs put a mark in place of each old text, the others put the new texts in place of the marks.
    """
    marks = [chr(0xE000 + at) for at in range(len(changes))]
    pairs = [(it.file, it.old, mark) for it, mark in zip(changes, marks)]
    pairs += [(it.file, mark, it.new) for it, mark in zip(changes, marks)]
    return "".join(f"file: {file}\nold: {old}\nnew: {new}\n" for file, old, new in pairs)


def function_of(changes, texts, functions):
    """Returns the one function whose body holds all changes; or None."""
    found = set()
    for it in changes:
        line = texts[it.file].count("\n", 0, it.start)
        holds = [f for f in functions if f.file == it.file and f.body <= line <= f.last]
        found.add(holds[-1] if holds else None)
    return found.pop() if len(found) == 1 else None


def joined(edits, texts):
    """Returns the texts of the files that these edits change, with all of them in place."""
    changed = {}
    # (from the last change to the first, so that the places of the others stay)
    for it in sorted((change for edit in edits for change in edit.changes), key=lambda it: -it.start):
        text = changed.get(it.file, texts[it.file])
        changed[it.file] = text[: it.start] + it.new + text[it.start + len(it.old) :]
    return changed


def clash(edit, other):
    """Returns whether the two can't be in one round: they change what has one proof."""
    return edit.function.proof == other.function.proof


def rounds_of(edits, largest):
    """Returns the edits in rounds about equally long, none above the largest, in which none clashes with another."""
    of_proof = collections.Counter(it.function.proof for it in edits)
    rounds = [[] for _ in range(max([-(-len(edits) // largest), *of_proof.values()]))]
    # (first those with the least choice)
    for it in sorted(edits, key=lambda it: -of_proof[it.function.proof]):
        fits = [there for there in rounds if not any(clash(it, other) for other in there)]
        if not fits:
            fits = [[]]
            rounds += fits
        min(fits, key=len).append(it)
    return [it for it in rounds if it]
