"""Reads what is promised as text: each statement with its clauses, and where it is promised and where asked for. Used by weaken-statements. It proves
nothing. Needs python3 and nothing else."""
import os
import re

import sources

PROMISED, ASKED = 1, -1
SAYS = {PROMISED: "Unit {0}", ASKED: "⊥"}


def module(path):
    return os.path.basename(path)[: -len(".antt")]


class Group:
    """Statements and the cases that hold them: the crate of the cases and those of its modules that are cases, the names from which the statements are
    cited, and the files of the statements, which in a copy stand in that crate's specs/."""

    def __init__(self, crate, cases, whole, files):
        self.crate, self.cases, self.whole = crate, cases.split(), whole.split()
        self.files = [f"crates/{path}.antt" for path in files.split()]

    def moved(self, text):
        """A text of the statements or the cases as it stands in the copy, where the statements are modules of the crate of the cases."""
        for path in self.files:
            text = re.sub(rf"Rattle\.{path.split('/')[1]}\.specs\.{module(path)}\b", f"Rattle.{self.crate}.specs.{module(path)}", text)
        return text

    def read(self, path):
        return self.moved(sources.read(path))


GROUPS = [
    Group(
        "worked", "Passes Computed Plain Demand1 Demand2 Machine Downloads Directories", "Demand1 Demand2",
        "promises/specs/Closing promises/specs/Cut promises/specs/Demand1 promises/specs/Demand2 promises/specs/Feeding promises/specs/Parts"
        " promises/specs/Requests promises/specs/Uncut refines/specs/Refines transfers/specs/Downloads steps/specs/Sound",
    ),
    Group(
        "transfers", "AtWork", "DirectoryBegins DirectoryBrings DirectoryEnds DirectoryBreaks",
        "transfers/specs/Directories steps/specs/Naming steps/specs/Sound",
    ),
    Group("accepted", "AtWork", "EveryTranscript", "accepted/specs/Agreement accepted/specs/Effect steps/specs/Naming"),
    Group(
        "paging", "Worked Said", "PageAnswer Paging PagingWhole InPieces TimesInDirectory TimesOfPage Examples",
        "paging/specs/Client paging/specs/Paging paging/specs/Pieces paging/specs/Directories paging/specs/Examples",
    ),
    Group(
        "demands", "Example AtWork DownloadsAtWork AllAtWork ChangesAtWork", "Demands",
        "demands/specs/Demand3 demands/specs/Downloads demands/specs/Demands acts/specs/Change",
    ),
    Group("driver", "Worked", "EveryDriver EveryMake DriverPlays", "driver/specs/Driver"),
]


class Clause:
    """One clause of a statement: where it stands, and the type that says it."""

    def __init__(self, path, start, name, text):
        self.path, self.start, self.name, self.text = path, start, name, text


class Statement:
    """A record, a data type or an abbreviation with its clauses. A data type's clause is a constructor."""

    def __init__(self, path, kind, name, start, end, clauses):
        self.path, self.kind, self.name, self.start, self.end, self.clauses = path, kind, name, start, end, clauses

    def is_thing(self, clause):
        """Whether other fields of the record speak of this one; the `name` of `x.name` is a part of something else."""
        others = re.sub(r"\.[^\s(){}.,]+", "", " ".join(c.text for c in self.clauses if c is not clause))
        return self.kind == "record" and clause.name in re.findall(r"[^\s(){}.,]+", others)


def known(group):
    """The statements of a group's files, by name."""
    found = {}

    def add(path, kind, name, m, clauses):
        if name in found:
            raise SystemExit(f"two statements have the name {name}")
        found[name] = Statement(path, kind, name, m.start(), m.end(), [Clause(path, at + c.start(2), c.group(1), c.group(2)) for at, c in clauses])

    for path in group.files:
        source = group.read(path)
        for m in re.finditer(r"^(?:pub )?(record|data) (\S+).*? where\n((?:  .*\n|\n(?=  ))*)", source, re.M):
            add(path, m.group(1), m.group(2), m, [(m.start(3), c) for c in re.finditer(r"^  (?:pub )?(\S+) :\s+(.*(?:\n {4,}.*)*)", m.group(3), re.M)])
        for m in re.finditer(r"^( *)abbrev (?:pub )?(\S+) : (?:.*→ )?Type 0\n((?:.+\n)+)", source, re.M):
            clauses = re.finditer(rf"^{m.group(1)}({re.escape(m.group(2))}\b.*?) =\s+(.*(?:\n{m.group(1)} +.*)*)", m.group(3), re.M)
            add(path, "abbreviation", m.group(2), m, [(m.start(3), c) for c in clauses])
    # the type of what is spoken of, `(c : Client)`, is no statement
    spoken_of = {name for path in group.files for name in re.findall(r"\([^():]* : (\S+)\)", group.read(path))}
    return {name: statement for name, statement in found.items() if name not in spoken_of}


def parts(text, at="→"):
    """A type at its top-level arrows: the place and the text of what is asked for, one after the other, and last of what is promised."""
    found, depth, start = [], 0, 0
    for k, letter in enumerate(text):
        depth += (letter in "({") - (letter in ")}")
        if letter == at and depth == 0:
            found.append((start, text[start:k]))
            start = k + 1
    return found + [(start, text[start:])]


def conjuncts(text):
    """A type at its top-level `×`: the place and the text of each part."""
    return parts(text, "×")


def groups(text):
    """The places and texts in brackets at the top level, and the text with spaces in their place."""
    found, rest, depth, start = [], "", 0, 0
    for k, letter in enumerate(text):
        if letter in "({":
            start = k + 1 if depth == 0 else start
            depth += 1
        elif letter in ")}":
            depth -= 1
            if depth == 0:
                found.append((start, text[start:k]))
        rest += letter if depth == 0 and letter not in ")}" else " "
    return found, rest


def names_in(text, sign, at=0):
    """The place of each name in a type, and whether it is promised or asked for there."""
    told = parts(text)
    for k, (start, part) in enumerate(told):
        here = sign if k + 1 == len(told) else -sign
        inside, rest = groups(part)
        for m in re.finditer(r"\S+", rest):
            yield at + start + m.start(), m.group(), here
        for place, group in inside:
            # (x : A): the thing's type; else a type or an argument
            bound = re.match(r"[^()→]*? : ", group)
            skipped = bound.end() if bound else 0
            yield from names_in(group[skipped:], here, at + start + place + skipped)


def cited(group, statements):
    """Where each statement that a group's whole is made of is promised, and where it is asked for: by name and sign the places, as (path, place)."""
    found = {}

    def visit(name, sign):
        for clause in statements[name].clauses:
            # of a constructor its premises; its last part is the data type itself
            told = parts(clause.text)[:-1] if statements[name].kind == "data" else [(0, clause.text)]
            for start, part in told:
                for at, other, here in names_in(part, sign, clause.start + start):
                    if other in statements:
                        is_new = (other, here) not in found
                        found.setdefault((other, here), set()).add((clause.path, at))
                        if is_new:
                            visit(other, here)

    for name in group.whole:
        found[name, PROMISED] = set()
        visit(name, PROMISED)
    return found
