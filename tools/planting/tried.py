"""The record tools/planted_tried: at which texts all planted edits of a crate were refused.

A line has a crate, a toolchain, a digest (SHA-256) and how many edits were refused at it. A crate has a line for each
toolchain under which its edits were tried, so that machines with different ones keep each other's. The digest is of all
that the verdict on the crate's edits depends on, and of nothing else:

  - the crate's src, specs and proofs without the lines that are comments, its edits, its lines of tools/planted_laws,
    and what crates.txt says of it
  - of each library of the repository below it what it states (see stated_in), and those of its modules of definitions
    that this or the crate's own texts name, or that such a module names
  - the code that decides on a verdict (DECIDING), without comments and docstrings, the number RULES, and the
    toolchain's identity

It doesn't depend on the folder: a library that is built twice is the same, octet for octet, in what is read here.
"""
import ast
import collections
import functools
import hashlib
import os
import re
import typing

PLANTING = os.path.dirname(os.path.realpath(__file__))
TOOLS = os.path.dirname(PLANTING)
FILE = os.path.join(TOOLS, "planted_tried")
HEAD = """# By crate and toolchain: the texts at which all its planted edits were refused, and how many.
# Written by tools/planted --record.
"""
LINE = re.compile(r"(\w+) (\S+) ([0-9a-f]{64}) ([0-9]+)")
# The code that decides what is said of an edit; what else tools/planted imports says when it is tried, and prints it.
DECIDING = "edits.py", "trying.py", "verdicts.py"
# To be counted up where a fault elsewhere had crates recorded that should not have been.
RULES = 1
COMMENT = {".rt": b"//", ".antt": b"--"}
# A module of definitions where it is named: its library, if that is said, and the module with what follows it.
NAMED = re.compile(rb"(?:\bRattle[.-](\w+)\.|(?<![\w.]))(specs\b(?:\.\w+)*)")
# In what the prover made of a library, a line that imports names from a module: the module and the names.
IMPORT = re.compile(r'\{"Read":\{"bytes":"(Rattle[^"{]*)\{([^"}]*)\}","column":\d+\}\},?')
# There too, the functions of a type.
FUNCTIONS = re.compile(r'"functions":\[([^\]]*)\]')
LISTED = re.compile(rb"\s*(pub )?mod \w+\s*")


def sum_of(given):
    return hashlib.sha256(repr(given).encode()).hexdigest()


def read(file):
    with open(file, "rb") as it:
        return it.read()


def files_below(folder, *parts):
    """Returns the octets of the files in these parts of a folder, by their paths in it."""
    found = [f"{folder}/{it}" for it in parts if os.path.isfile(f"{folder}/{it}")]
    for part in parts:
        found += [f"{at}/{name}" for at, _, names in os.walk(f"{folder}/{part}") for name in names]
    return {os.path.relpath(it, folder): read(it) for it in sorted(found)}


def modules_in(file):
    """Returns the modules that the prover made of a library, by their names: each name stands on a line of its own."""
    found, name = {}, ""
    with open(file, encoding="utf-8") as it:
        for line in it:
            if line.startswith('"'):
                name = line.strip().strip('"')
                found[name] = ""
            else:
                found[name] += line
    return found


def shown_by(name, modules):
    """Returns those of a library's modules that crates above it can import: the contracts of its public functions, what
    is stated of its types, and no proof. They are those that its facade stands for; all, where it has none."""
    facade = "".join(text for it, text in modules.items() if it.partition("/")[0] == "facade")
    own = {it.replace(".", "/") for it in re.findall(rf'"source":"Rattle-{name}-([^"]*)"', facade)}
    # (a parent lists its children, the written proofs and what isn't public among them)
    shown = {it: text for it, text in modules.items() if it in own and not text.startswith('{"Parent"')}
    return shown or modules


class Stated(typing.NamedTuple):
    """What a built library states to those above it: the sum of what counts always, the modules of definitions that are
    named there, and the texts of its own ones by their names."""

    sum: str
    named: frozenset
    definitions: dict


def without_private(name, text, shown):
    """Returns what the prover made of a type, of its functions with those alone that are shown."""
    def those(found):
        return ",".join(it for it in found[1].split(",") if name + "/" + it.strip('"') in shown)
    return FUNCTIONS.sub(those, text)


def without_idle_imports(text):
    """Returns what the prover made of a file's items, of the names that the file imports with those alone that stand in
    it, in order."""
    rest, found = IMPORT.sub("", text), []
    for module, names in IMPORT.findall(text):
        for name in names.split(", "):
            parts = name.split(" as ")[-1].split("◌")
            if all(it in rest for it in parts):
                found.append(f"{module}{name}")
    return rest + "\n".join(sorted({*found}))


@functools.lru_cache(maxsize=None)
def stated_in(library, is_linked, is_cited):
    """Returns what a built library states to those above it, which is all that their proofs rest on: its public items
    without their bodies, the contracts, which types may cross threads, and its definitions; no comment.

    A program reads all items, also without bodies: it links them. Where a text above names the library's proofs, which
    none should, they count too."""
    parts = ["interface"] + ["lang/src"] * is_linked + ["lang/antt/proofs.antt", "lang/antt/proofs"] * is_cited
    made = shown_by(library.name, modules_in(f"{library.rlib}/lang/antt/made.json"))
    shown = {name: without_idle_imports(without_private(name, text, made)) for name, text in made.items()}
    told = [it for it in read(f"{library.rlib}/format").split(b"\n") if it.startswith(b"crosses ")]
    texts = {file: without_comments(file, text) for file, text in files_below(library.rlib, *parts).items()}
    named = names_in([*texts.values(), *(it.encode() for it in shown.values())])
    return Stated(sum_of([texts, sorted(shown.items()), sorted(told)]), named, definitions_in(library))


def definitions_in(library):
    """Returns the texts of a library's modules of definitions, by their names. What a module above lists of those below
    it says nothing of them, and doesn't count."""
    found = {}
    for file, text in files_below(f"{library.rlib}/lang/antt", "specs.antt", "specs").items():
        name = os.path.splitext(file)[0].replace("/", ".")
        found[name] = b"\n".join(it for it in without_comments(file, text).split(b"\n") if not LISTED.fullmatch(it))
    return found


def names_in(texts):
    """Returns the modules of definitions that these texts name, each with its library; with none, where it isn't said."""
    return frozenset(it for text in texts for it in NAMED.findall(text) if it != (b"", b"specs"))


def is_named(name, module, named):
    """Returns whether one of these names is of this module of a library, of one above it or of something in it."""
    found = [f"{it.decode()}." for library, it in named if library.decode() in (name, "")]
    return any(it.startswith(f"{module}.") or f"{module}.".startswith(it) for it in found)


def definitions_of(stated, named):
    """Returns the definitions that libraries have in modules with these names, and in those that such modules name."""
    left = {(name, module): text for name, it in stated.items() for module, text in it.definitions.items()}
    found = {}
    while new := {key: left.pop(key) for key in [*left] if is_named(*key, named)}:
        found.update(new)
        named = names_in(new.values())
    return sorted(found.items())


def without_comments(file, text):
    """Returns a text without the lines that are a comment and nothing else; the whole text where such a line might
    stand within a block comment, or within a string of several lines."""
    begins = COMMENT.get(os.path.splitext(file)[1])
    lines = text.split(b"\n")
    left = [it for it in lines if begins and not it.lstrip().startswith(begins)]
    if file.endswith(".rt"):
        quotes = (re.sub(rb"""\\.|'"'""", b"", it).count(b'"') for it in left)
        is_plain = not re.search(rb'/\*|r#+"', text) and not any(it % 2 for it in quotes)
    else:
        is_plain = begins and b"{-" not in text
    return b"\n".join(left) if is_plain else text


def asked_in(edit):
    """Returns the lines of an edit's text that say what it changes, and its old texts with their files."""
    lines = [it for it in edit.split(b"\n") if it.startswith((b"file: ", b"old: ", b"new:"))]
    olds, file = [], ""
    for it in lines:
        if it.startswith(b"file: "):
            file = it[len(b"file: ") :].strip().decode("utf-8", "replace")
        elif it.startswith(b"old: "):
            olds.append((file, it[len(b"old: ") :]))
    return lines, olds


def deciding_in(texts, edits):
    """Returns what decides in these texts of a crate and in its edits: no comment, as far as each old text of an edit
    stands just once in its file and in no comment there."""
    olds, asked = collections.defaultdict(list), {}
    for name, edit in edits.items():
        asked[name], pairs = asked_in(edit)
        for file, old in pairs:
            olds[file].append(old)
    found = {}
    for file, text in texts.items():
        plain = without_comments(file, text)
        is_plain = all(text.count(old) == plain.count(old) == 1 for old in olds[file])
        found[file] = plain if is_plain else text
    return found, asked


def shape_of(code):
    """Returns what a piece of Python's syntax says, without its place and without empty parts, which not all versions
    of Python have."""
    if isinstance(code, list):
        return [shape_of(it) for it in code]
    if not isinstance(code, ast.AST):
        return repr(code)
    parts = [(name, it) for name, it in ast.iter_fields(code) if it is not None and it != []]
    return type(code).__name__, [(name, shape_of(it)) for name, it in parts]


def code_of(text):
    """Returns what a Python text does, without its comments and docstrings."""
    tree = ast.parse(text)
    holders = [it for it in ast.walk(tree) if isinstance(it, (ast.Module, ast.ClassDef, ast.FunctionDef))]
    for it in holders:
        if ast.get_docstring(it, clean=False) is not None:
            del it.body[0]
    return shape_of(tree)


def rules():
    """Returns what decides on a verdict once the prover has spoken."""
    return RULES, [(it, code_of(read(os.path.join(PLANTING, it)))) for it in DECIDING]


def digest_of(crate, laws, toolchain):
    """Returns the digest for a crate, over libraries below it that are built."""
    texts, below = files_below(crate.folder, "src", "specs", "proofs"), sorted(crate.below(), key=lambda it: it.name)
    edits = {it: text for it, text in files_below(crate.folder, "planted").items() if it.endswith(".edit")}
    cited = [*texts.values(), *(text for it in below for text in files_below(it.folder, "specs").values())]
    stated = {}
    for it in below:
        is_cited = any(f"Rattle.{it.name}.proofs".encode() in text for text in cited)
        stated[it.name] = stated_in(it, crate.is_program, is_cited)
    named = names_in([*texts.values(), *edits.values()]).union(*(it.named for it in stated.values()))
    told = [(name, it.sum) for name, it in stated.items()], definitions_of(stated, named)
    lines = sorted((edit, law) for edit, law in laws.items() if edit.startswith(f"{crate.name}/"))
    said = sorted((word, repr(it)) for word, it in crate.said.items())
    return sum_of([toolchain, rules(), said, *deciding_in(texts, edits), lines, told])


class Record:
    """What is recorded: by the crate and the toolchain, the digest and how many edits were refused at it."""

    def __init__(self, names, toolchain, file=FILE):
        self.toolchain, self.file, self.rows, self.told = toolchain, file, {}, []
        lines = read(file).decode("utf-8", "replace").split("\n") if os.path.isfile(file) else []
        found = {at + 1: LINE.fullmatch(it) for at, it in enumerate(lines) if it and not it.startswith("#")}
        keys = [it.group(1, 2) for it in found.values() if it]
        for at, it in found.items():
            if it and it[1] in names and keys.count(it.group(1, 2)) == 1:
                self.rows[it.group(1, 2)] = it[3], int(it[4])
            else:
                why = "is damaged" if not it else "is doubled" if it[1] in names else "is of no crate"
                self.told.append(f"line {at} of tools/{os.path.basename(file)} {why}, and counts as none")

    def has(self, name, digest, edits):
        return edits > 0 and self.rows.get((name, self.toolchain)) == (digest, edits)

    def write(self, tried):
        """Writes the record anew, with these crates as they were tried: a digest and a number, or None."""
        now = {(name, self.toolchain): row for name, row in tried.items()}
        rows = {key: row for key, row in {**self.rows, **now}.items() if row}
        text = "".join(f"{name} {kit} {digest} {edits}\n" for (name, kit), (digest, edits) in sorted(rows.items()))
        with open(f"{self.file}.new", "w", encoding="utf-8") as it:
            it.write(HEAD + text)
        os.replace(f"{self.file}.new", self.file)
