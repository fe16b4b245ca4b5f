"""Sorts what the prover prints when it refuses an edit: did a fact fail, or did the proof only lose its shape? Used by try-edits."""
import os
import re

# Consequences of another error: they say nothing by themselves.
CONSEQUENCE = [
    r"was not admitted \(it has holes or undetermined implicits, or was rejected\)",
    r"declarations? that depends? on .*, which was (?:rejected|not admitted), (?:was|were) not checked",
]

# The proof no longer fits the code or the definitions, or the edit can't be read; whether a fact fails is not seen.
SHAPE = [
    r"`rw`: no occurrence of the path's (?:left|right) endpoint",
    r"`simp`: no equation of the list has an instance in the goal",
    r"has no `[^`]*` that can be named",
    r"has no field",
    r"cannot be unfolded here",
    r"is not in scope",
    r"is no name",
    r"operand is missing|expected the end|cannot continue",
    r"projects from a `×` type or a record, but this has type",
]

# A fact that the proof stands on does not hold, or can't be shown any more.
FACT = [
    r"^it is not proved that",
    r"`omega`: the (?:goal|part `[^`]*` of the goal) does not follow from what it read",
    r"`omega` found no proof",
    r"`(?:search|grind)`: no proof of",
    r"`(?:search|grind)` (?:found no proof|did not prove)",
    r"list the missing equation with its arguments, or rewrite by",
    r"the two (?:types|sides) (?:first |only )?differ",
    r": expected type `",
    r"the two types are `",
    r"^`[^`]*`: `[^`]*` ≟ `",
    r"give a proof of that as the last argument, `(?:rw|simp) L t`",
]


def kind_of(message):
    for kind, patterns in (("consequence", CONSEQUENCE), ("shape", SHAPE), ("fact", FACT)):
        if any(re.search(pattern, message) for pattern in patterns):
            return kind
    return "unsorted"


def errors_in(text):
    """The place and the message of each error. Of a goal that the prover looks for by itself it says in a note what it can't prove."""
    return re.findall(r"^(\S+:\d+:\d+): error: (.*)$", text, re.M) + re.findall(r"^note: (\S+:\d+:\d+): (it is not proved that .*)$", text, re.M)


def of_function(errors, function):
    """The errors that stand in a function's own proof or code."""
    first, last = function.lines()
    own = []
    for place, message in errors:
        file, line, _ = place.rsplit(":", 2)
        # its own files, and not those of the functions of a module of its name
        is_proof = os.path.dirname(file) + "/" == function.proof()
        if is_proof or (file == function.path and first <= int(line) <= last):
            own.append((place, message))
    return own


def judge(errors):
    """Whether a refusal with these errors shows that a fact fails, and what to say of it."""
    sorted_by = {}
    for place, message in errors:
        sorted_by.setdefault(kind_of(message), []).append((place, message))
    if "fact" in sorted_by:
        return True, f"refused on a fact, {sorted_by['fact'][0][0]}"
    for kind, words in (("unsorted", "NOT SHOWN, an error that refusals.py does not know"), ("shape", "NOT SHOWN, only the proof's shape broke")):
        if kind in sorted_by:
            place, message = sorted_by[kind][0]
            return False, f"{words}: {place}: {message[:200]}"
    return False, "NOT SHOWN, the prover names no error"
