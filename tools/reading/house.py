"""What tools/house counts in a repository: each count is a list of places."""
import collections
import os
import re

WIDTH = 120
# How many words two pages may not have in common one after the other.
PASSAGE = 9
CRATES = "docs/ARCHITECTURE.md"
# What stands in the column of a crate that uses none.
NONE = "std alone"
# What stands in pages and isn't a name of the repository: signs, numbers, words of commands, what is built, and names of
# other programs.
FOREIGN = re.compile(r"[A-Z]$|[0-9]|.*[^\w:./+-]|[-:/]|\w+://|(?:.*/)?out/|.*NAME|jiff_core$|malloc_consolidate$")
# An import of a source, of definitions or of a proof: whether it is public, whether of the proofs alone, and all that it
# names, over several lines and with names of names.
IMPORT = re.compile(
    r"(?m)^[ \t]*(pub(?:\([^)]*\))? )?(ghost )?use ((?:[^{};\n]|\{[^{}]*\})*(?:\{(?:[^{}]|\{[^{}]*\})*\})?[^;\n]*);?"
)
# Traits of other libraries, which a file may import for their methods alone.
TRAITS = {"BufRead", "ByteOrder", "Context", "Hasher", "IsTerminal", "Read", "Write"}
FILE = re.compile(r"[\w.+/-]+\.(?:rt|antt|md|py|edit|c|rs|in|log)$|[\w.+-]+/[\w.+/-]*$")


def read(path):
    with open(path, encoding="utf-8") as file:
        return file.read()


def files(top, *parts, endings=("",)):
    """Returns the files below these parts of a folder, without what was built, by their paths in it."""
    found = []
    for part in parts:
        if os.path.isfile(f"{top}/{part}"):
            found.append(part)
        for at, folders, names in os.walk(f"{top}/{part}"):
            folders[:] = sorted(it for it in folders if it not in ("out", ".git", "__pycache__"))
            found += [os.path.relpath(f"{at}/{it}", top) for it in sorted(names) if it.endswith(tuple(endings))]
    return found


def uses(top):
    """Returns the crates of the repository, in their order, each with those that it uses."""
    rows = (line.partition(":") for line in read(f"{top}/crates.txt").split("\n"))
    return {name.strip(): used.split() for name, _, used in rows if name.strip() and not name.startswith("#")}


def crates(top):
    """Returns the crates of the repository, in their order."""
    return list(uses(top))


def sources(top, kind, ending):
    """Returns the files of this kind, src or specs, by their crates."""
    return {it: files(top, f"crates/{it}/{kind}", endings=[ending]) for it in crates(top)}


def defined_in(text):
    """Returns the definitions, types and constructors that a text of definitions has."""
    found, is_data = [], False
    for line in text.split("\n"):
        head = re.match(r"(?:abbrev )?(?:pub )?(data|record) (\S+)", line) or re.match(r"(?:abbrev )?(pub) (\S+) :", line)
        constructor = re.match(r"  (\w+) :", line)
        if head:
            found.append(head[2])
        elif constructor and is_data:
            found.append(constructor[1])
        if line[:1].strip():
            is_data = bool(head) and head[1] == "data"
    return found


def definitions(top):
    """Returns each name that definitions have, with the crates that have it."""
    found = collections.defaultdict(set)
    for crate, paths in sources(top, "specs", ".antt").items():
        for path in paths:
            for name in defined_in(read(f"{top}/{path}")):
                found[name].add(crate)
    return found


def names_in_several(top):
    return [f"{name}: {' '.join(sorted(at))}" for name, at in sorted(definitions(top).items()) if len(at) > 1]


def names_by_case(top):
    groups = collections.defaultdict(set)
    for name in definitions(top):
        groups[name.replace("_", "").lower()].add(name)
    return [" ".join(sorted(it)) for _, it in sorted(groups.items()) if len(it) > 1]


def named_contracts(top):
    """Contracts that say no more than that the result is the definition of the function's own name."""
    found = []
    for paths in sources(top, "src", ".rt").values():
        for path in paths:
            function = ""
            for number, line in enumerate(read(f"{top}/{path}").split("\n"), 1):
                head = re.match(r"\s*(?:pub(?:\(crate\))? )?(?:const )?fn (\w+)", line)
                function = head[1] if head else function
                if function and re.match(rf"\s*ensures (?:\w+ )?{{ result ≡ {function}\b", line):
                    found.append(f"{path}:{number}")
    return found


def long_lines(top, paths):
    """Lines over the width, but for those that are one text or its octets, as a message in hexadecimal is."""
    found = []
    for path in paths:
        for number, line in enumerate(read(f"{top}/{path}").split("\n"), 1):
            if len(line) > WIDTH and not re.match(r'\s*b?"(?:[^"\\]|\\.)*"[,;]?$', line):
                found.append(f"{path}:{number}")
    return found


def pages(top):
    return files(top, "README.md", "docs", endings=[".md"])


def prose(text):
    """Yields the lines of a page with their numbers, but for code and the rows of tables."""
    is_code = False
    for number, line in enumerate(text.split("\n"), 1):
        if line.strip().startswith("```"):
            is_code = not is_code
        elif not is_code and not line.lstrip().startswith("|"):
            yield number, line


def passages(text):
    """Returns the passages of a page (a paragraph, an item of a list, a cell of a table; no code), each as its words in
    small letters without signs round them, and their lines."""
    found, is_code, is_between = [], False, True
    for number, line in enumerate(text.split("\n"), 1):
        is_fence = line.strip().startswith("```")
        is_code ^= is_fence
        if is_fence or is_code or not line.strip() or (is_between and line.startswith("    ")):
            is_between = True
            continue
        is_row = line.lstrip().startswith("|")
        if is_between or is_row or re.match(r"\s*(?:[-*]|#+|\d+\.) ", line):
            found.append([])
        for at, cell in enumerate(re.split(r"(?<!\\)\|", line) if is_row else [line]):
            if at:
                found.append([])
            words = (re.sub(r"^\W+|\W+$", "", it).lower() for it in cell.split())
            found[-1] += [(it, number) for it in words if it]
        is_between = is_row
    return found


def repeated(top):
    """Passages of so many words or more that stand in a page and in one before it: where, and in which words."""
    found, known = [], {}
    for path in pages(top):
        new = {}
        for passage in passages(read(f"{top}/{path}")):
            words, at = [it for it, _ in passage], 0
            for start in range(len(words) - PASSAGE + 1):
                run = tuple(words[start : start + PASSAGE])
                new.setdefault(run, (f"{path}:{passage[start][1]}", words[start:]))
                if start < at or run not in known:
                    continue
                place, others = known[run]
                same = next((n for n, (a, b) in enumerate(zip(words[start:], others)) if a != b), None)
                at = start + (same or min(len(words) - start, len(others)))
                found.append(f"{path}:{passage[start][1]}: as {place}: {' '.join(words[start:at])}")
        known = {**new, **known}
    return found


def rows_of_crates(text):
    """Yields the rows of the table of crates: the line's number, the crate, the line up to its last column, and that."""
    is_table = False
    for number, line in enumerate(text.split("\n"), 1):
        if line.startswith("| Crate | What it does | Stands on |"):
            is_table = True
        elif is_table and not line.startswith("|"):
            return
        elif is_table and (row := re.fullmatch(r"(\| `(\w+)` \| .* \| )([^|]*) \|", line)):
            yield number, row[2], row[1], row[3]


def stands_on(used):
    return ", ".join(used) or NONE


def with_stands_on(top):
    """Returns the page of the crates with the column of what each stands on as crates.txt has it."""
    text, used = read(f"{top}/{CRATES}"), uses(top)
    lines = text.split("\n")
    for number, crate, front, _ in rows_of_crates(text):
        if crate in used:
            lines[number - 1] = f"{front}{stands_on(used[crate])} |"
    return "\n".join(lines)


def rows_unlike(top):
    """Rows of the table of crates that don't say what crates.txt says, and rows that are missing or above what the crate
    uses. `tools/house --write` writes the column."""
    found, used, above = [], uses(top), set()
    for number, crate, _, column in rows_of_crates(read(f"{top}/{CRATES}")):
        place = f"{CRATES}:{number}: {crate}"
        if crate not in used or crate in above:
            found.append(f"{place} {'has a row already' if crate in used else 'is no crate'}")
            continue
        above.add(crate)
        if column != stands_on(used[crate]):
            found.append(f"{place} stands on {stands_on(used[crate])}")
        found += [f"{place} stands above {it}" for it in used[crate] if it in used and it not in above]
    return found + [f"{CRATES}: {it} has no row" for it in used if it not in above]


def brought_in(named):
    """Yields the names that an import of these brings in."""
    front, brace, inner = named.strip().partition("{")
    if not brace or front[-1:] not in (".", ":"):
        name = re.split(r"\sas\s", named.strip())[-1]
        yield name if "◌" in name and "." not in name else re.split(r"::|\.", name)[-1]
        return
    inner = inner.rpartition("}")[0]
    for part in re.findall(r"(?:[^,{}]|\{[^{}]*\})+", inner):
        if part.strip() == "self" and front.endswith("::"):
            yield front[:-2].rpartition("::")[2]
        elif part.strip():
            yield from brought_in(part)


def ghost_text(text):
    """Returns what a source has for the proofs alone: clauses, ghost items, and what its tactics name."""
    found = re.findall(r"#\[tactic[^\n]*", text)
    for head in re.finditer(r"\b(?:requires|ensures|ghost)\b[^{;]*\{", text):
        depth, at = 1, head.end()
        while depth and at < len(text):
            depth += {"{": 1, "}": -1}.get(text[at], 0)
            at += 1
        found.append(text[head.start() : at])
    return "\n".join(found)


def is_used(name, words, text):
    """Whether a text with these words has the name, of an operator each of its parts."""
    return all(it in words if re.match(r"\w", it) else it in text for it in name.split("◌") if it)


def words_of(text, sign):
    """Returns the words of a text but for those behind one dot; this sign may stand in a word."""
    return set(re.findall(rf"(?:(?<=\.\.)|(?<![\w'.{sign}]))[\w'{sign}]+", text))


def unused_in(path, text, traits):
    """Yields the imports that a text doesn't use: their lines and names. A trait may be there for its methods."""
    is_source = path.endswith(".rt")
    text = re.sub(r"//[^\n]*" if is_source else r"(?m)(?:^|(?<=\s))--(?:\s.*)?$", "", text)
    rest = IMPORT.sub("", text)
    said = ghost_text(rest) if is_source else rest
    words, ghost_words = words_of(rest, ""), words_of(said, "≢+→-")
    for it in IMPORT.finditer(text):
        is_ghost = it[2] or not is_source
        for name in [] if it[1] else brought_in(it[3]):
            is_there = is_used(name, ghost_words, said) if is_ghost else name in words or name in traits
            if not is_there and name not in ("*", "_"):
                yield text[: it.start()].count("\n") + 1, name


def unused_imports(top):
    """Names that a file imports and doesn't use, but for traits, which may be wanted for their methods alone."""
    texts = {}
    for kind, ending in (("src", ".rt"), ("specs", ".antt"), ("proofs", ".antt")):
        texts.update((it, read(f"{top}/{it}")) for paths in sources(top, kind, ending).values() for it in paths)
    traits = TRAITS | {it for path in texts if path.endswith(".rt") for it in re.findall(r"\btrait (\w+)", texts[path])}
    return [f"{path}:{line}: {name}" for path in sorted(texts) for line, name in unused_in(path, texts[path], traits)]


def lines_of_readme(top):
    return [f"README.md:{number}" for number, _ in enumerate(read(f"{top}/README.md").splitlines(), 1)]


def long_lines_of_pages(top):
    return [f"{path}:{number}" for path in pages(top) for number, line in prose(read(f"{top}/{path}")) if len(line) > WIDTH]


def long_lines_of_sources(top):
    return long_lines(top, [it for paths in sources(top, "src", ".rt").values() for it in paths])


def long_lines_of_definitions(top):
    return long_lines(top, [it for paths in sources(top, "specs", ".antt").values() for it in paths])


def known_words(top):
    """Returns all words of the repository's texts but its pages, and the names of its files."""
    found = set()
    paths = files(top, "crates", "tools", "bench", "live", "dictionaries", ".ci", "crates.txt", "HANDLES")
    for path in paths:
        found.update(re.split(r"[/.]", path))
        if path.endswith((".rt", ".antt", ".py", ".edit", ".rs", ".in", ".c", ".h")) or "." not in os.path.basename(path):
            with open(f"{top}/{path}", encoding="utf-8", errors="replace") as file:
                found.update(re.findall(r"[A-Za-z_][\w-]*|\w+", file.read()))
    return found | {it for word in found for it in word.split("-")}


def methods(top):
    """Returns by each type of the sources the functions of the files in which it or an `impl` of it stands."""
    found = {}
    for path in [it for paths in sources(top, "src", ".rt").values() for it in paths]:
        text = read(f"{top}/{path}")
        types = re.findall(r"^(?:pub(?:\(\w+\))? )?(?:struct|enum|trait) (\w+)|^impl\b[^{]*?\b(\w+)(?:<[^{]*>)?\s*(?:\{|where)", text, re.M)
        for name in {one or other for one, other in types}:
            found.setdefault(name, set()).update(re.findall(r"\bfn (\w+)", text))
    return found


def is_there(name, words, paths, of_types):
    """Whether the repository has what a page names: a file, or each part of a name, and a method at its type."""
    if FILE.match(name):
        return any(re.search(rf"(?:^|/){re.escape(name.rstrip('/'))}(?:/|$|\.\w+$)", it) for it in paths)
    method = re.search(r"\b([A-Z]\w*)::([a-z]\w*)$", name)
    if method and method[1] in of_types and method[2] not in of_types[method[1]]:
        return False
    return all(part in words for part in re.split(r"::|\.", name) if part)


def names_that_are_gone(top):
    """Names in a page's code spans that the repository hasn't. docs/PERF.md tells what was before, and isn't asked."""
    found, words, of_types = [], known_words(top), methods(top)
    paths = files(top, "README.md", "docs", "crates", "tools", "bench", "live", "dictionaries", ".ci")
    for path in [it for it in pages(top) if it != "docs/PERF.md"]:
        for number, line in enumerate(read(f"{top}/{path}").split("\n"), 1):
            for name in re.findall(r"(?<!`)`([^`]+)`(?!`)", line):
                name = re.sub(r"\(.*\)$|^&", "", name)
                if not FOREIGN.match(name) and not is_there(name, words, paths, of_types):
                    found.append(f"{path}:{number}: {name}")
    return found


def crates_left_out(top):
    text = read(f"{top}/README.md")
    return [it for it in crates(top) if not re.search(rf"\b{it}\b", text)]


def tools_left_out(top):
    """What stands in tools/ and isn't named in its page; a folder is named with its `/`."""
    page = f"{top}/tools/README.md"
    text = read(page) if os.path.isfile(page) else ""
    found = sorted({re.sub(r"/.*", "/", os.path.relpath(it, "tools")) for it in files(top, "tools")})
    return [it for it in found if it != "README.md" and f"`{it}`" not in text]


def code_of(text):
    """Returns the lines of a text of code, but for comments and blanks."""
    lines = (re.sub(r"(?:^|\s)//.*", "", line).strip() for line in text.split("\n"))
    return [it for it in lines if it]


def snippets(text):
    """Returns the snippets of a page that are of a source: its path, which the paragraph before names last, and its lines."""
    found = []
    for before, snippet in re.findall(r"((?:[^\n]+\n)+)\n?```rust\n(.*?)^```$", text, re.M | re.S):
        paths = re.findall(r"crates/\w+/src/[\w/]+\.rt", before)
        found += [(paths[-1], code_of(snippet))] if paths else []
    return found


def snippets_unlike_sources(top):
    """Lines of snippets that their source hasn't, in this order; comments and blanks are left out."""
    found = []
    for page in pages(top):
        for path, lines in snippets(read(f"{top}/{page}")):
            has = iter(code_of(read(f"{top}/{path}")) if os.path.isfile(f"{top}/{path}") else [])
            found += [f"{page}: {path} hasn't: {line}" for line in lines if line not in has]
    return found


def edits(top):
    """Returns the edits that must be refused, of both folders of the crates."""
    folders = [f"crates/{it}/{kind}" for it in crates(top) for kind in ("must-fail", "planted")]
    return files(top, *folders, endings=[".edit"])


def must_fail_unnamed(top):
    """Edits that `rt ci` tries over the whole crate, and which docs/GATE.md doesn't name among the wrong bodies."""
    named = {*re.findall(r"`([\w-]+)`", read(f"{top}/docs/GATE.md"))}
    found = [it for it in edits(top) if "/must-fail/" in it]
    return [it for it in found if os.path.basename(it)[: -len(".edit")] not in named]


# Counts that may stay below their ceilings.
ROOMY = {"lines-of-readme"}

COUNTS = {
    "names-in-several-crates": names_in_several,
    "names-by-case-alone": names_by_case,
    "contracts-named-as-the-function": named_contracts,
    "lines-of-readme": lines_of_readme,
    "passages-in-two-pages": repeated,
    "rows-of-crates-unlike-crates-txt": rows_unlike,
    "long-lines-of-pages": long_lines_of_pages,
    "long-lines-of-sources": long_lines_of_sources,
    "long-lines-of-definitions": long_lines_of_definitions,
    "names-in-pages-that-are-gone": names_that_are_gone,
    "crates-that-readme-leaves-out": crates_left_out,
    "tools-that-their-page-leaves-out": tools_left_out,
    "must-fail-edits-that-no-page-names": must_fail_unnamed,
    "imports-that-nothing-uses": unused_imports,
    "lines-of-snippets-unlike-their-sources": snippets_unlike_sources,
}
