"""Reads the project's crates as text, for the scripts beside this file: functions, contracts, definitions, and the edits that the prover must refuse.
It proves nothing. Needs python3 (3.7 or newer) and nothing else."""
import functools
import glob
import os
import re

ROOT = os.path.dirname(os.path.dirname(os.path.abspath(__file__)))


@functools.lru_cache(maxsize=None)
def read(path):
    """The text of a file, named from the repository's root."""
    with open(os.path.join(ROOT, path), encoding="utf-8") as file:
        return file.read()


def listed():
    """Each crate of crates.txt with the crates and libraries that it uses, in the file's order."""
    found = {}
    for line in read("crates.txt").split("\n"):
        line = line.split("#")[0]
        if ":" in line:
            # behind the name may stand `staticlib`
            name, uses = line.split(":")
            found[name.split()[0]] = uses.split()
    return found


def files(pattern):
    return sorted(os.path.relpath(path, ROOT) for path in glob.glob(os.path.join(ROOT, pattern), recursive=True))


class Function:
    """A function, or a constant, which counts as a private function of those that use it (and has no body)."""

    def __init__(self, path, name, is_public, start, text):
        self.path, self.name, self.is_public = path, name, is_public
        self.start, self.end = start, start + len(text)
        # what stands before the body: the parameters and the contract. Where there is no contract, the brace ends their line
        opens = re.search(r"\n\{| \{$", text, re.M)
        self.head, self.body = (text[: opens.start()], text[opens.end() :]) if opens else (text, "")

    def lines(self):
        """The numbers of its first and last line, the attributes above it included."""
        before = read(self.path)[: self.start].split("\n")
        first = len(before)
        while first > 1 and before[first - 2].startswith("#["):
            first -= 1
        return first, len(before) + read(self.path)[self.start : self.end].rstrip().count("\n")

    def proof(self):
        """The folder in which its proof stands, if it has files of its own, with the slash behind it."""
        crate, module = re.fullmatch(r"crates/(\w+)/src/(.*)\.rt", self.path).groups()
        folder = "" if module in ("lib", "main") else module + "/"
        return f"crates/{crate}/proofs/{folder}{self.name}/"


@functools.lru_cache(maxsize=None)
def functions_of(crate):
    found = []
    for path in files(f"crates/{crate}/src/**/*.rt"):
        source = read(path)
        for m in re.finditer(r'^((?:pub(?:\(crate\))? )?(?:extern "C" )?)fn (\w+)', source, re.M):
            text = re.match(r".*?^\}\s*$", source[m.start():], re.M | re.S).group(0)
            found.append(Function(path, m.group(2), m.group(1).startswith("pub "), m.start(), text))
        for m in re.finditer(r"^(?:pub )?const (\w+).*?;$", source, re.M | re.S):
            found.append(Function(path, m.group(1), False, m.start(), m.group(0)))
    return found


def public_functions_of(crate):
    return [f for f in functions_of(crate) if f.is_public and f.name != "main"]


class Definition:
    def __init__(self, path, name, start, text):
        self.path, self.name, self.start, self.text = path, name, start, text


def definitions_of(crate):
    """The definitions of specs/, each with its text up to the next."""
    found = []
    for path in files(f"crates/{crate}/specs/**/*.antt"):
        source = read(path)
        starts = [(m.start(), m.group(1)) for m in re.finditer(r"^\s*(?:abbrev |unfoldable )?(?:pub )?(\S+) : ", source, re.M)]
        for (start, name), (end, _) in zip(starts, starts[1:] + [(len(source), "")]):
            found.append(Definition(path, name, start, source[start:end]))
    return found


class Edit:
    """One wrong answer: replacements of texts in the sources of a crate. A `file:` line names a file of the crate's own src/, specs/ or proofs/, or,
    from the repository's root, one of a crate that this one stands on (`crates/NAME/..`). `old:` lines that follow each other are the lines of one text,
    and so are `new:` lines."""

    def __init__(self, crate, path):
        self.crate, self.path = crate, path
        self.label = os.path.basename(path)[: -len(".edit")]
        self.in_gate_of_kit = os.path.basename(os.path.dirname(path)) == "must-fail"
        self.changes, file, old, kind = [], None, None, None
        for line in read(path).split("\n"):
            before, kind = kind, line[:4]
            if line.startswith("file: "):
                file = line[6:] if line[6:].startswith("crates/") else f"crates/{crate}/{line[6:]}"
            elif line.startswith("old: "):
                old = f"{old}\n{line[5:]}" if before == kind else line[5:]
            elif line.startswith("new:"):
                new = f"{self.changes.pop()[2]}\n{line[5:]}" if before == kind else line[5:]
                self.changes.append((file, old, new))

    @property
    def name(self):
        return f"{self.crate}/{self.label}"

    @property
    def mistake(self):
        return tuple(self.changes)

    def fault(self):
        """Why the edit does not fit the sources, or nothing."""
        if not self.changes:
            return "it has no 'old:' and 'new:' pair"
        for file, old, new in self.changes:
            # the kit's own way is narrower than ours
            if self.in_gate_of_kit and "\n" in f"{old}{new}":
                return "in must-fail/ a text has one line"
            if self.in_gate_of_kit and "\nfile: crates/" in "\n" + read(self.path):
                return "in must-fail/ an edit changes its own crate alone"
            if not os.path.isfile(os.path.join(ROOT, file or "")):
                return f"it names no file of the project: {file}"
            if old is None or read(file).count(old) != 1:
                return f"an 'old:' text is not in {file}, or more than once"
        return None

    def crates_changed(self):
        return {file.split("/")[1] for file, _, _ in self.changes}


def function_edited(edit):
    """The function whose body alone an edit changes, or nothing. Other functions see its contract and not its body."""
    found = set()
    for path, old, _ in edit.changes:
        at = read(path).find(old)
        within = [f for f in functions_of(edit.crate) if f.path == path and f.body and f.start + len(f.head) <= at < f.end]
        found.add((within[0].path, within[0].start) if len(within) == 1 else None)
    if len(found) != 1 or None in found:
        return None
    place = found.pop()
    return next(f for f in functions_of(edit.crate) if (f.path, f.start) == place)


def edits_of(crate):
    """The edits of a crate: one that `rt ci` tries (must-fail/), if there is one, then the others (edits/)."""
    return [Edit(crate, path) for folder in ("must-fail", "edits") for path in files(f"crates/{crate}/{folder}/*.edit")]


def definition_at(definitions, path, at):
    """The name of the definition in whose text a place of a file lies, or nothing."""
    before = [d for d in definitions if d.path == path and d.start <= at]
    return max(before, key=lambda d: d.start).name if before else None


def steps_from(names, next_of):
    """For each name that is reached, the number of steps that lead to it."""
    steps, todo = {name: 0 for name in names}, list(names)
    for name in todo:
        for other in next_of.get(name, ()):
            if other not in steps:
                steps[other] = steps[name] + 1
                todo.append(other)
    return steps


def words(text, known):
    return {word for word in re.findall(r"[^\s(){}.,;⌜⌝]+", text) if word in known}


def edits_by_function(crate):
    """Each public function of a crate with the edits that stand for it, the nearest first: those of the function itself, then of private functions and
    constants that it uses, then of definitions that its contract cites, also through others."""
    functions, definitions, edits = functions_of(crate), definitions_of(crate), edits_of(crate)
    private = {f.name for f in functions if not f.is_public}
    known = {d.name for d in definitions}
    calls, cites = {}, {}
    for f in functions:
        calls.setdefault(f.name, set()).update(name for name in re.findall(r"\b\w+\b", f.body) if name in private)
    for d in definitions:
        cites.setdefault(d.name, set()).update(words(d.text, known))
    in_function, in_definition = {}, {}
    for edit in edits:
        if edit.fault():
            continue
        for path, old, _ in edit.changes:
            at = read(path).find(old)
            for f in functions:
                if f.path == path and f.start <= at < f.end:
                    in_function.setdefault(f.name, []).append(edit)
            name = definition_at(definitions, path, at)
            if name:
                in_definition.setdefault(name, []).append(edit)
    for f in functions:
        if f.is_public and f.name != "main":
            # a definition counts as farther than any function
            reached = [(steps, in_function.get(name, [])) for name, steps in steps_from({f.name}, calls).items()]
            reached += [(1000 + steps, in_definition.get(name, [])) for name, steps in steps_from(words(f.head, known), cites).items()]
            near = sorted({(steps, e.label): e for steps, found in reached for e in found}.items())
            yield f, list(dict.fromkeys(e for _, e in near))


# Edits that are tried besides: of a function that has more than two mistakes worth a try.
BESIDES = {
    "equation/steps_refused_where_they_fit",
    "header/check_upload_id",
    "lines/read_blank_for_tab",
    "pass/broken_goes_on_defined",
    "text/z_not_lowered",
}


def plainly_tried(crate):
    """The edits that scripts/try-edits tries when nothing more is asked: two for each public function, all bad servers and the mistakes that document 01
    names, those of BESIDES, and where a crate has theorems alone, one of each file of specs/. Edits that `rt ci` tries count too, and are left out. The
    same mistake under two names counts once, and is tried under both."""
    edits, chosen = edits_of(crate), set()
    for _, found in edits_by_function(crate):
        # one that was chosen for another function counts for this one
        mistakes = {e.mistake for e in found if e.in_gate_of_kit or e.label in chosen}
        for e in found:
            if len(mistakes) < 2 or e.mistake in mistakes:
                mistakes.add(e.mistake)
                chosen.add(e.label)
    chosen.update(e.label for e in edits if re.match(r"bad_server_|mistake_", e.label) or e.name in BESIDES)
    if not public_functions_of(crate):
        first = {}
        for e in edits:
            for path, _, _ in e.changes:
                first.setdefault(path, e.label)
        chosen.update(first.values())
    return [e for e in edits if e.label in chosen and not e.in_gate_of_kit]
