#!/usr/bin/env python3
"""Counts the places of older forms in crates/*/src: python3 tools/count_forms.py [POINT..] [--list] [--at COMMIT]

One number a kind of place, by the points of docs/DESIGN-PASS.md; --list names each place; --at counts in the sources of a commit. The counts go by
text, not by meaning: a place that is found may be right as it stands, and then the page says why.
"""
import argparse
import collections
import os
import re
import subprocess
import sys

ROOT = os.path.dirname(os.path.dirname(os.path.abspath(__file__)))


def tree(commit):
    """The files below crates/ by name, as they lie here or as a commit has them; tests left out."""
    wanted = re.compile(r"crates/[^/]+/(src/.*\.rt|proofs/.*\.antt)$")
    files = {}
    if commit:
        names = subprocess.check_output(["git", "-C", ROOT, "ls-tree", "-r", "--name-only", commit, "crates"], text=True).split("\n")
        names = [n for n in names if wanted.match(n)]
        asked = "".join(f"{commit}:{n}\n" for n in names).encode()
        out = subprocess.run(["git", "-C", ROOT, "cat-file", "--batch"], input=asked, stdout=subprocess.PIPE, check=True).stdout
        at = 0
        for n in names:
            end = out.index(b"\n", at)
            size = int(out[at:end].split()[2])
            files[n] = out[end + 1:end + 1 + size].decode()
            at = end + 1 + size + 1
        return files
    for folder, _, names in os.walk(os.path.join(ROOT, "crates")):
        for n in names:
            path = os.path.relpath(os.path.join(folder, n), ROOT)
            if wanted.match(path) and "/out/" not in path:
                with open(os.path.join(ROOT, path), encoding="utf-8") as f:
                    files[path] = f.read()
    return files


def without_tests(text):
    at = text.find("#[cfg(test)]")
    return text if at < 0 else text[:at]


def plain(text):
    """The code without comments and ghost use lines."""
    text = re.sub(r"//[^\n]*", "", without_tests(text))
    return re.sub(r"ghost use [^;]*;", "", text)


def functions(text):
    """Each function: its name, its signature with clauses, its body."""
    for m in re.finditer(r"^[ ]*(?:pub(?:\([a-z]+\))? )?(?:unsafe )?(?:extern \"C\" )?fn ([a-z_0-9]+)", text, re.M):
        rest = text[m.start():]
        body = re.search(r"^[ ]*\{$|\{\n", rest, re.M)
        indent = len(m.group(0)) - len(m.group(0).lstrip(" "))
        end = re.search(r"^" + " " * indent + r"\}", rest, re.M)
        if body and end:
            opening = re.search(r"^" + " " * indent + r"\{$", rest, re.M)
            start = opening.start() if opening and opening.start() < end.start() else body.start()
            yield m.group(1), rest[:start], rest[start:end.end()]


def enums(text):
    for m in re.finditer(r"^(?:pub(?:\([a-z]+\))? )?enum (\w+) \{(.*?)^\}", text, re.M | re.S):
        variants = [v.strip() for v in re.findall(r"^    (\w+(?:\(.*?\)| \{.*?\})?),", m.group(2), re.M | re.S)]
        yield m.group(1), variants


def structs(text):
    for m in re.finditer(r"^ *(?:pub(?:\([a-z]+\))? )?struct (\w+) \{(.*?)^ *\}", text, re.M | re.S):
        yield m.group(1), re.findall(r"(\w+): ([^,\n]+),", m.group(2))


def point_1(files):
    for path, text in files.items():
        for name, variants in enums(text):
            if len(variants) == 2 and any("(" in v for v in variants):
                yield "an enum of two variants, one with a value", path, name
            elif any(re.match(r"(Refused|Refuse|Rejected)\(u8\)", v) for v in variants):
                yield "an enum with a refusal's number among others", path, name
        for name, fields in structs(text):
            names = [f for f, _ in fields]
            if "refused" in names or "refusal" in names:
                yield "a struct with a refusal's number beside a value", path, name
            if "found" in names:
                yield "a struct with a flag beside a value", path, name
        for name, head, body in functions(text):
            refuses = re.search(r"\b(return )?(33|32|34|35|13|8)\b\s*;?\s*\n|refused", body)
            if re.search(r"-> u8\b", head) and refuses and not re.search(r"digit|hex|byte", name):
                yield "a function whose answer is a refusal's number", path, name


def point_2(files):
    seen = collections.defaultdict(list)
    for path, text in files.items():
        for name, head, body in functions(text):
            if body.count("\n") < 4:
                continue
            shape = re.sub(r"\b\d+\b", "N", re.sub(r"\b[ui](8|16|32|64|size)\b", "T", body))
            shape = re.sub(r"\b" + name + r"\b", "F", re.sub(r"\w+::", "", shape))
            seen[re.sub(r"\s+", " ", shape)].append((path, name))
        for name, variants in enums(text):
            if len(variants) > 1:
                seen["enum " + " ".join(re.sub(r"\b[ui](8|16|32|64|size)\b", "T", v) for v in variants)].append((path, name))
        for name, fields in structs(text):
            if len(fields) > 1:
                seen["struct " + str(fields)].append((path, name))
    for group in seen.values():
        for path, name in group[1:]:
            yield "a function or type whose text another has, but for sizes and numbers", path, f"{name} (as {group[0][0]} {group[0][1]})"


def point_3(files):
    for path, text in files.items():
        for name, _, body in functions(text):
            for line in re.findall(r"^\s*(?:while .*|(?:'\w+: )?loop) \{", body, re.M):
                yield "a while or a loop", path, f"{name}: {line.strip()}"


def point_4(files):
    literal = r"(?:true|false|\d+)"
    for path, text in files.items():
        for name, head, body in functions(text):
            arms = re.findall(r"=> (.*?),?\n", body)
            if arms and all(re.fullmatch(literal, a) for a in arms):
                boolean = all(a in ("true", "false") for a in arms)
                yield ("a class told by a match of true and false" if boolean else "a conversion told by a match of numbers"), path, name
            if re.search(r"fn \w+\((\w+): (\S+), (\w+): \2\) -> bool", head) and re.search(r"while|for ", body):
                yield "an equality by a loop", path, name


def point_5(files):
    groups = collections.Counter()
    places = collections.defaultdict(list)
    for path, text in files.items():
        for name, head, _ in functions(text):
            names = set(re.findall(r"(\w+): &(?:mut )?\[", head))
            lent = names & {"map", "owner", "disk", "table", "selected", "held"}
            if len(lent) >= 3:
                yield "three or more of the store's slices as parameters", path, name
            for clause in re.findall(r"requires \w* ?\{ (.*?) \}\n", head):
                for part in clause.split(" × "):
                    part = part.strip("() ")
                    groups[part] += 1
                    places[part].append((path, name))
    for part, n in groups.items():
        if n >= 3:
            for path, name in places[part]:
                yield "a requires that three or more functions have", path, f"{name}: {part}"


def point_6(files):
    for path, text in files.items():
        for name, fields in structs(text):
            kinds = dict(fields)
            if any(re.match(r"\[u\d+; \d+\]", k) for k in kinds.values()) and ({"size", "length", "n", "count", "held"} & set(kinds)):
                yield "a struct of a buffer with a length beside it", path, name
        for m in re.finditer(r"^(?:pub )?const (\w+): \[(?:usize|u8|u16)[^=]*= \[", text, re.M):
            yield "a table beside another table", path, m.group(1)


def point_7(files):
    for path, text in files.items():
        for name, _, body in functions(text):
            for m in re.findall(r"(?:Next|Act|Doing|Stage|Key|Kind)::\w+[^\n]*=>", body)[:1]:
                yield "a match on which step is next", path, name


def proof_lines(files):
    answers = [t for n, t in files.items() if n.endswith("/Answers.antt")]
    laws = [t for n, t in files.items() if n.endswith(".antt") and not n.endswith(("Answers.antt", "Invariants.antt"))]
    yield "files of answers", len(answers)
    yield "answers", sum(len(re.findall(r"^pub \S+ : goal\.", t, re.M)) for t in answers)
    yield "lines of answers", sum(t.count("\n") for t in answers)
    yield "answers that are `omega arith` or `search rules` alone", sum(len(re.findall(r"^\S+ c = (?:omega arith|search rules|refl)$", t, re.M)) for t in answers)
    yield "laws of our own", sum(len(re.findall(r"^(?:pub )?[a-z]\S* : ", t, re.M)) for t in laws)
    yield "lines of laws", sum(t.count("\n") for t in laws)


POINTS = {1: point_1, 2: point_2, 3: point_3, 4: point_4, 5: point_5, 6: point_6, 7: point_7}


def main():
    parser = argparse.ArgumentParser(description=__doc__.split("\n")[0])
    parser.add_argument("points", nargs="*", type=int)
    parser.add_argument("--list", action="store_true")
    parser.add_argument("--at")
    given = parser.parse_args()
    files = tree(given.at)
    sources = {n: plain(t) for n, t in sorted(files.items()) if n.endswith(".rt")}
    for number in given.points or list(POINTS) + [8]:
        if number == 8:
            for kind, n in proof_lines(files):
                print(f"8  {n:6}  {kind}")
            continue
        counts = collections.OrderedDict()
        for kind, path, place in POINTS[number](sources):
            counts.setdefault(kind, []).append((path, place))
        for kind, places in counts.items():
            print(f"{number}  {len(places):6}  {kind}")
            if given.list:
                for path, place in places:
                    print(f"            {path[len('crates/'):]}: {place}")


if __name__ == "__main__":
    sys.exit(main())
