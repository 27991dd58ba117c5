"""What a check of many edits says of each: the lines that decide, in the order in which they do."""
import collections
import os
import re

# REFUSED: values were found that break a goal of the function. UNPROVED: a goal of it isn't proved, and no such values
# were found. ANSWER: only an answer file of its proof has an error.
# The others are no refusal: NAMES (an answer file names what is gone), PROVED, WAITS (for a callee's proof), UNSAID.
REFUSED, UNPROVED, ANSWER, NAMES, PROVED, WAITS, UNSAID = "refused unproved answer names proved waits unsaid".split()
REFUSALS = REFUSED, UNPROVED, ANSWER
Verdict = collections.namedtuple("Verdict", "kind line")
# A line of a check that stands at a place of the crate; its number there is counted from 0.
Line = collections.namedtuple("Line", "text is_goal is_error file number")

AT = re.compile(r"(note: )?(?:\./)?((?:src|proofs)/\S+?):(\d+):\d+: (.*)")
GONE = re.compile(r"has no field|is not in scope|has no `|was not admitted")
TRIED = "`search` did not prove"
VALUES = "allow values at which this goal is false"


def lines_in(said):
    """Yields the lines of a check that stand at a place of the crate."""
    for text in said.split("\n"):
        at = AT.match(text)
        if at:
            is_goal = bool(at[1]) and at[4].startswith("it is not proved that")
            yield Line(text, is_goal, not at[1] and at[4].startswith("error"), at[2], int(at[3]) - 1)


def with_values(goals):
    """Returns the first of these goals that some values break; or None."""
    return next((it for it in goals if VALUES in it.text), None)


def is_broken(said):
    """Returns whether the check found values that break one of the crate's goals."""
    return bool(with_values(it for it in lines_in(said) if it.is_goal))


def is_in(line, function):
    return line.file == function.file and function.first <= line.number <= function.last


def judge(crate, function, said):
    """Returns the verdict on the edit in this function, which stands there in the edited text."""
    head = f"fn {crate}::{function.name}: "
    end = next((it for it in said.split("\n") if it.startswith(head)), None)
    if end is None:
        return Verdict(UNSAID, "the check has no line of its function")
    if end[len(head) :].startswith("proved"):
        return Verdict(PROVED, end)
    answers = f"proofs/{function.proof.replace('::', '/')}/"
    own = [it for it in lines_in(said) if it.is_goal and is_in(it, function)]
    errors = [it for it in lines_in(said) if it.is_error and it.file.startswith(answers)]
    told = [it for it in errors if not GONE.search(it.text)]
    if with_values(own):
        return Verdict(REFUSED, with_values(own).text)
    if own or TRIED in end:
        return Verdict(UNPROVED, own[0].text if own else end)
    if told:
        return Verdict(ANSWER, told[0].text)
    return Verdict(NAMES, errors[0].text) if errors else Verdict(WAITS, end)


def holder_of(name):
    """Returns the name of a function, for a closure with that of the function that holds it in front."""
    return re.sub(r"(^|::)fn::", r"\1", name)


def strangers(crate, functions, edited, said):
    """Returns the functions that have a goal that isn't proved, though no edit of the round changes their proofs."""
    found = {*re.findall(rf"(?m)^fn {crate}::(\S+): .*{TRIED}", said)}
    for line in lines_in(said):
        found |= {it.name for it in functions if line.is_goal and is_in(line, it)}
    proofs = {it.proof for it in edited}
    touched = tuple(f"{it.name}::" for it in functions if it.proof in proofs)
    return sorted(it for it in found if not f"{holder_of(it)}::".startswith(touched))


def culprits(edits, functions, said):
    """Returns the edits in whose functions the front end found an error, where it stopped the whole round."""
    errors = [it for it in lines_in(said) if it.is_error]
    return [edit for edit in edits if any(is_in(it, functions[edit.function.name]) for it in errors)]


def is_all_proved(said):
    """Returns whether the crate, or each function that was asked for, is proved."""
    last = said.rstrip("\n").split("\n")[-1]
    asked = re.fullmatch(r"only=(\d+) proved=(\d+)", last)
    return last.startswith("logic=proved ") or bool(asked) and asked[1] == asked[2] != "0"


def unproved(crate, said):
    """Returns the functions that aren't proved, as the check names them."""
    return re.findall(rf"(?m)^fn {crate}::(\S+): (?!proved$)", said)


def refusal_by(crate, law, said):
    """Returns the line that says why this function isn't proved, where it alone was asked for; none where it is proved,
    and none where all that is said is that proof files name what is gone."""
    if not any(it == law or it.endswith(f"::{law}") for it in unproved(crate, said)):
        return None
    told = [it for it in lines_in(said) if it.is_goal or it.is_error]
    return next((it.text for it in told if not GONE.search(it.text)), None)


def imports_of(crate, text):
    """Returns the files of the crate's definitions and proofs that a text imports."""
    found = re.findall(rf"Rattle\.{crate}\.((?:specs|proofs)(?:\.\w+)+)", text)
    return {it.replace(".", "/") + ".antt" for it in found}


def seconds_of(crate, folder):
    """Returns how long the last check took over each file of the crate that it checked anew, by what it kept here."""
    made = [os.path.join(at, name) for at, _, names in os.walk(folder) for name in names]
    ended = sorted((os.path.getmtime(it), os.path.basename(it)) for it in made)
    found = {}
    for (before, _), (after, name) in zip(ended, ended[1:]):
        module = re.fullmatch(rf"Rattle-{crate}-((?:specs|proofs)\..*)\.oantt", name)
        if module:
            found[module[1].replace(".", "/") + ".antt"] = after - before
    return found


def nearest(crate, names, texts, changed, seconds):
    """Returns the function of these whose proof hangs on the changed files by those that take least; none of none."""
    above = {}

    def hanging(file):
        """Returns the files by which this one hangs on the changed ones, with itself."""
        if file not in above:
            found = {file} if file in changed else set()
            for it in imports_of(crate, texts[file]) & texts.keys():
                found |= hanging(it)
            above[file] = found | {file} if found else found
        return above[file]

    def sum_of(name):
        folder = f"proofs/{name.replace('::', '/')}/"
        files = set().union(*(hanging(it) for it in texts if it.startswith(folder)))
        files |= {it for it in seconds if it.startswith(folder)}
        return sum(seconds.get(it, 0) for it in files)

    return min(names, key=lambda it: (sum_of(it), it), default=None)
