"""Whether the prover refuses the edits of a crate, several in a check.

A proof cites only the contracts of what its function calls. So edits of functions of which none calls another do not
touch one another's proofs, and one check of all these functions tells of each edit whether it is refused: where its
own function is not proved, for a reason of its own. What can't be told so is tried alone, by a check of the whole
crate. That the functions are proved without the edits is what `rt ci` shows, of the same text and the same run.
"""
import collections
import re

from gate import kit

# A function that is not proved only since what it calls is not.
WAITS = re.compile(r"it calls|it passes|a call of")
# A proof file that names what an edit took away: a refusal that says little of the contract.
NAMES = re.compile(r"(\./)?proofs/.*(has no field|is not in scope|has no `|was not admitted)")


class Spot:
    """A piece of a file that an edit replaces, by places in the file."""

    def __init__(self, path, start, end, new):
        self.path, self.start, self.end, self.new = path, start, end, new


class Edit:
    """An edit, what it replaces, and the function in which all of that lies, if there is one."""

    def __init__(self, path, folder, functions):
        self.path = path
        self.name = path.rpartition("/")[2]
        self.spots = spots_of(path, folder)
        self.function = turned_function(self.spots, folder, functions)


def spots_of(edit, folder):
    """What the edit replaces, or nothing where a pair builds on an earlier one, or a file is no code."""
    spots, path, old = [], None, None
    with open(edit, encoding="utf-8") as file:
        lines = file.read().split("\n")
    for line in lines:
        if line.startswith("file: "):
            path = line[len("file: ") :].strip()
        elif line.startswith("old: "):
            old = line[len("old: ") :]
        elif line.startswith("new:"):
            if not path or not old or not path.endswith(".rt"):
                return []
            text = content(folder, path)
            if text.count(old) != 1:
                return []
            start = text.find(old)
            spots.append(Spot(path, start, start + len(old), re.sub(r"\A ", "", line[len("new:") :])))
    return spots


def content(folder, path):
    with open(f"{folder}/{path}", encoding="utf-8") as file:
        return file.read()


def turned_function(spots, folder, functions):
    """The one function in whose body all spots lie, if a check's lines can be told to be about it."""
    found = set()
    for spot in spots:
        text = content(folder, spot.path)
        start, end = (len(text[:at].encode()) for at in (spot.start, spot.end))
        there = [it for it in functions if it.file == spot.path and it.has_body]
        around = [it for it in there if it.opens <= start and end <= it.end]
        found.add(min(around, key=lambda it: it.end - it.opens) if around else None)
    function = found.pop() if len(found) == 1 else None
    if not function or function.in_cycle:
        return None
    name = kit.shown_name(function)
    return function if sum(kit.shown_name(other) == name for other in functions) == 1 else None


def callees(functions):
    """Of each function those that it may call, whether by itself or by others. What this misses a check's own lines
    say."""
    named, direct = collections.defaultdict(set), {}
    for function in functions:
        named[function.name].add(function)
    for function in functions:
        direct[function] = direct_callees(function, named) - {function}
    found = {}
    for function in functions:
        seen, left = set(), [function]
        while left:
            new = direct[left.pop()] - seen
            seen |= new
            left += new
        found[function] = seen
    return found


def direct_callees(function, named):
    found, words = set(), function.body
    for at, word in enumerate(words):
        before = words[at - 1] if at else ""
        if word not in named or (words[at + 1 : at + 2] != ["("] and before != ":"):
            continue
        start = at - 1
        while start >= 0 and words[start] == ":":
            start -= 1
        owner = words[start] if start >= 0 else ""
        found |= {other for other in named[word] if may_mean(function, before, owner, other)}
    return found


def may_mean(function, before, owner, other):
    """Whether a name with this word, and this owner, before it may be the other function's, in the body of the one."""
    if before == ".":
        return bool(other.takes_self)
    if before == ":":
        is_own = owner == "Self" and other.owner == function.owner
        return other.owner == owner or is_own or bool(other.module and other.module[-1] == owner)
    return not other.takes_self and other.block is None


def together(edits, folder):
    """The texts of the files that these edits change, each in a function of its own."""
    by_path = collections.defaultdict(list)
    for edit in edits:
        for spot in edit.spots:
            by_path[spot.path].append(spot)
    return {path: replaced(content(folder, path), spots) for path, spots in by_path.items()}


def replaced(text, spots):
    made, at = "", 0
    for spot in sorted(spots, key=lambda it: it.start):
        made, at = made + text[at : spot.start] + spot.new, spot.end
    return made + text[at:]


class Trial:
    """The trial of a crate's edits, one group of them behind another, check by check."""

    def __init__(self, built, groups, kept):
        self.built, self.kept, self.checks, self.alone_checks = built, kept, 0, 0
        functions = built.functions()
        self.calls = callees(functions)
        self.left, self.alone = [], set()
        for group in groups:
            self.add([Edit(path, built.folder, functions) for path in group])
        self.refused, self.survived, self.notes = [], [], []

    def add(self, edits):
        apart = [edit for edit in edits if edit.function]
        alone = [edit for edit in edits if not edit.function]
        # (what calls least stands in the way of fewest)
        self.left += self.batches(sorted(apart, key=lambda edit: len(self.calls[edit.function])))
        self.left += [[edit] for edit in alone]
        self.alone |= {*alone}

    def batches(self, edits):
        """The edits in as few checks as the calls of their functions allow."""
        made = []
        for edit in edits:
            fitting = next((batch for batch in made if all(self.are_apart(edit, other) for other in batch)), None)
            if fitting is None:
                made.append([edit])
            else:
                fitting.append(edit)
        return made

    def are_apart(self, one, other):
        one, other = one.function, other.function
        return one is not other and one not in self.calls[other] and other not in self.calls[one]

    def untried(self):
        return [edit.path for batch in self.left for edit in batch]

    def step(self):
        """Makes the next check."""
        batch = self.left.pop(0)
        self.checks += 1
        if batch[0] in self.alone:
            self.try_alone(batch[0])
        else:
            self.try_together(batch)

    def try_alone(self, edit):
        self.alone_checks += 1
        well, text = self.built.refuses(edit.path, self.kept)
        (self.refused if well else self.survived).append(edit.path)
        if not well or "only because" in text:
            self.notes.append(text)

    def try_together(self, batch):
        texts = together(batch, self.built.folder)
        names = [kit.shown_name(edit.function) for edit in batch]
        status, output = self.built.check(texts, names, self.kept)
        lines = output.rstrip("\n").split("\n")
        is_read = not any(kit.cannot_be_read(line, texts) for line in lines) and not kit.is_stale(output)
        if status != 1 or not lines[-1].startswith("only=") or not is_read:
            return self.split(batch)
        said = re.findall(r"^fn (\S+): (.*)$", output, re.M)
        again = [edit for edit in batch if not self.is_refused(edit, said, lines)]
        if again == batch:
            return self.split(batch)
        self.refused += [edit.path for edit in batch if edit not in again]
        self.left = self.batches(again) + self.left
        return None

    def split(self, batch):
        """Halves a batch of which nothing could be told; one edit is tried alone."""
        if len(batch) == 1:
            self.alone |= {*batch}
            self.left = [batch] + self.left
        else:
            half = len(batch) // 2
            self.left = [batch[:half], batch[half:]] + self.left

    def is_refused(self, edit, said, lines):
        """Whether the edit's own function, or a closure in it, is not proved for a reason of its own."""
        name = kit.shown_name(edit.function)
        for shown, words in said:
            is_own = f"::{shown}".endswith(f"::{name}") or f"::fn::{name}::" in f"::{shown}::"
            if not is_own or not re.match("not proved|no proof", words):
                continue
            folder = "proofs/" + "/".join(shown.split("::")[1:]) + "/"
            errors = [line for line in lines if re.match(rf"(\./)?{re.escape(folder)}[^:]*:\d+:\d+: error", line)]
            if any(not NAMES.match(line) for line in errors) or (not errors and not WAITS.search(words)):
                return True
        return False
