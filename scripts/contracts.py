"""The form of a public function's contract, read as text. Used by check-contracts.

It has no `requires`. Its `ensures` hold equations, and for the result and for the end (`.new`) of everything lent by `&mut` there is one that
determines it: the left side is just these, by themselves or as the fields of a record, and the right side names none of them but what another equation
determines. So what a call answers and leaves is a definition of what was handed in. Further facts may stand beside the equations. Of a function over any
reader or writer (`R: Read`, `W: Write`) no equation is asked: what such a one brings or takes is known only there."""
import os
import re

import sources

# The definitions that put a refusal's number in its place, by the file of specs/ that a function's file imports them from, and the answers that they
# determine: laws number_determines and numbered_determines (crates/refusal/proofs/Laws.antt), counted_determines (crates/equation/proofs/Parsing.antt).
OF_REFUSALS = {
    "Rattle.refusal.specs.Refusal": {"number_of": r"->\s*Result<\(\), Refusal>", "numbered": r"->\s*Result<.*, Refusal>"},
    "Rattle.equation.specs.Parsed": {"counted": r"->\s*Result<usize, Unparsed>"},
}


def builders():
    """The names of specs/ that only put their arguments into the fields of a record, each argument once, with the numbers of arguments."""
    found = {}
    for crate in sources.listed():
        for d in sources.definitions_of(crate):
            m = re.search(rf"^\s*{re.escape(d.name)} ([\w\s«»]+?) = record \{{([^{{}}]*)\}}\s*$", d.text, re.M)
            if m:
                arguments = m.group(1).split()
                values = [field.split("=")[1].strip() for field in m.group(2).split(";") if field.strip()]
                if sorted(arguments) == sorted(values):
                    found.setdefault(d.name, set()).add(len(arguments))
    return found


def with_refusals(function, signature, known):
    """The same with the definitions of OF_REFUSALS that the function's file imports and that determine its answer."""
    text = sources.read(function.path) if os.path.exists(os.path.join(sources.ROOT, function.path)) else ""
    found = {}
    for module, answers in OF_REFUSALS.items():
        imports = re.findall(rf"^ghost use {re.escape(module)}\.\{{([^}}]*)\}};", text, re.M)
        names = {name.strip() for line in imports for name in line.split(",")}
        found.update({name: {1} for name, answer in answers.items() if name in names and re.search(answer, signature)})
    return {**known, **found}


def term(text):
    """A term as nested lists: `f (g x) y` is ['f', ['g', 'x'], 'y']."""
    open_lists = [[]]
    for word in re.findall(r"[()]|[^\s()]+", text):
        if word == "(":
            open_lists.append([])
        elif word == ")":
            inner = open_lists.pop()
            open_lists[-1].append(inner)
        else:
            open_lists[-1].append(word)
    return open_lists[0]


def determined(t, known):
    """What a left side determines: the result, by 'result', and the names of what was lent. Nothing where it is not of the form."""
    if isinstance(t, str):
        t = [t]
    if len(t) == 1 and isinstance(t[0], list):
        return determined(t[0], known)
    if t == ["result"]:
        return ["result"]
    if len(t) == 1 and re.fullmatch(r"«?\w+»?\.new", t[0]):
        return [t[0][: -len(".new")].strip("«»")]
    if isinstance(t[0], str) and len(t) - 1 in known.get(t[0], ()):
        parts = [determined(argument, known) for argument in t[1:]]
        return sum(parts, []) if all(parts) else []
    return []


def ends_in(text):
    """The result, by 'result', and the lent things whose ends a text names."""
    ends = set(re.findall(r"(\w+)»?\.new\b", text))
    return ends | ({"result"} if re.search(r"(?<![\w.«])result(?![\w»])", text) else set())


def fault(function, known):
    """What the function's contract lacks, or nothing."""
    if re.search(r"^\s*requires\b", function.head, re.M):
        return "it has a requires"
    signature = re.split(r"^\s*(?:requires|ensures)\b", function.head, flags=re.M)[0]
    if re.search(r"^[^(]*<[^(>]*\b\w+: (?:Read|Write)\b", signature):
        return None
    known = with_refusals(function, signature, known)
    wanted = set(re.findall(r"(\w+): &(?:'\w+ )?mut ", signature)) | ({"result"} if "->" in signature else set())
    equations = []
    for clause in re.findall(r"^\s*ensures(?: \w+)? \{(.*?)\}\s*$", function.head + "\n", re.M | re.S):
        for fact in re.split(r"\s×\s", clause):
            sides = re.split(r"\s≡\s", re.sub(r"^\((.*)\)$", r"\1", fact.strip(), flags=re.S))
            # what holds only under a condition determines nothing
            if len(sides) == 2 and "→" not in fact:
                equations.append((set(determined(term(sides[0]), known)), ends_in(sides[1])))
    # a right side may name what another equation determines
    for _ in equations:
        for left, named in equations:
            if not named & wanted:
                wanted -= left
    return f"no equation determines {', '.join(sorted(wanted))}" if wanted else None
