#!/usr/bin/env python3
"""Brings the repository's own definitions and lemmas to the spelling of today's Rattle: words in snake case.

usage: tools/respell.py [--list] [ROOT]

Run once, after the kit's port.py, at the top of the repository (or in ROOT). It turns the names that specs/ and proofs/ declare: `hexDigit` to `hex_digit`,
`short-at` to `short_at`. Types and modules stay in camel case. Whole words alone are turned, in .antt files, in the clauses, comments and `ghost use` lines of
.rt files, and in edits. What keeps its spelling: a name that a library of the kit has too, a name whose new spelling would fall together with another of the
same file, and what Rattle makes itself (the goals, steps and invariants of a function). A lemma that would fall together with a definition gets `_law` after
its name.
--list prints each old and new name, and writes nothing.
"""
import os
import re
import sys

WORD = re.compile(r'[^\s(){}.;,@"«»\[\]|]+')
NAME = r"[^\s(){}.;,@\"«»:=\[\]|◌]+"
DECLARED = re.compile(rf"^( *)((?:(?:unfoldable|abbrev|pub|opaque|private) )*)({NAME}(?: {NAME})*) ?:(?: |$)")
KIND = re.compile(rf"^( *)(?:pub )?(data|record|module) ({NAME})")
USE = re.compile(r"^\s*(?:pub )?use ([A-Za-z_.]+?)\.?(?:\{([^}]*)\})?\s*$")


# Laws that have the snake form of a definition of the same file already.
BESIDE = ("all_named", "by_first", "is_right", "other_length", "settled_at")


def snake(name):
    """The name in snake case; a type's or a module's as it is."""
    if "-" in name:
        parts = name.split("-")
        # an operator's sign between blanks of a name stays
        if any(not re.fullmatch(r"[\w'₀-₉]+", p) for p in parts):
            return name
        name = "_".join(parts)
    if name[:1].islower() or name[:1] == "_":
        name = re.sub(r"(?<=[a-z0-9'])([A-Z]+)", lambda m: "_" + m[1].lower(), name)
        name = re.sub(r"(?<=_)([A-Z])", lambda m: m[1].lower(), name)
    return name


def files(root, endings):
    for folder, dirs, names in os.walk(os.path.join(root, "crates")):
        dirs[:] = sorted(d for d in dirs if d != "out")
        for n in sorted(names):
            if n.endswith(endings):
                yield os.path.join(folder, n)


def read(path):
    with open(path, encoding="utf-8") as f:
        return f.read()


def is_law_file(path, root):
    """Whether a file is one of specs/, or of proofs/ itself and not of a function's folder."""
    parts = os.path.relpath(path, root).split(os.sep)
    if parts[2] == "specs":
        return True
    return parts[2] == "proofs" and (len(parts) == 4 or parts[-1] not in ("Proof.antt", "Invariants.antt", "Answers.antt"))


def declared(text):
    """The names that a file declares: items, constructors and fields."""
    found, inner, block = set(), set(), None
    for line in text.split("\n"):
        if line.lstrip().startswith("--") or not line.strip():
            continue
        indent = len(line) - len(line.lstrip())
        if indent == 0:
            k = KIND.match(line)
            block = k[2] if k else None
            if k and k[2] != "module":
                found.add(k[3])
        m = DECLARED.match(line)
        if not m:
            continue
        if indent == 0:
            found.update(m[3].split(" "))
        elif block:
            (found if block == "module" else inner).update(m[3].split(" "))
    return found, inner


def foreign(text):
    """The names that a file takes from libraries of the kit."""
    names = set()
    for m in re.finditer(r"\buse ([\w.·'-]+)\.\{([^}]*)\}", text):
        if not re.match(r"Rattle\.(?!std|core|io|libc|os)", m[1]):
            for n in m[2].split(","):
                names.update(n.split())
    return names


def table(root):
    items, members, kits = set(), set(), set()
    for path in files(root, (".antt", ".rt")):
        text = read(path)
        kits |= foreign(text)
        if path.endswith(".antt") and is_law_file(path, root):
            a, b = declared(text)
            items |= a
            members |= b
    own = items | members
    taken = own | {snake(n) for n in own if "-" not in n}
    rows = {}
    for name in own:
        new = snake(name)
        # a lemma `short-at` beside a definition `shortAt` or `short_at`
        if "-" in name and new in taken:
            new += "_law"
        if name in BESIDE:
            new += "_law"
        if new != name and name not in kits and "◌" not in name:
            rows[name] = new
    return rows, members


def turned(text, rows, members):
    aliases = set(re.findall(r"^use \S+ as (\S+)$", text, re.M))

    def one(m):
        w = m[0]
        if w not in rows:
            return w
        before = text[: m.start()]
        if before.endswith("."):
            head = re.search(r"([^\s(){};,@]+)\.$", before)
            path = head[1] if head else ""
            last = path.split(".")[-1] if path else ""
            if not (last[:1].isupper() or path in aliases or w in members):
                return w
        return rows[w]

    return WORD.sub(one, text)


CLAUSE = re.compile(r"(?:\brequires|\bensures)\b\s*\*?\s*(?:\w+\s*)?\{|\bghost\s+(?:use\b|\w+\s*:\s*\{)")


def turned_source(text, rows, members):
    """A .rt file: its clauses, its ghost items and its comments."""
    out, at = [], 0
    for m in re.finditer(r"//[^\n]*|" + CLAUSE.pattern, text):
        if m.start() < at:
            continue
        end = m.end()
        if not m[0].startswith("//"):
            if m[0].endswith("use"):
                end = text.index(";", m.end())
            else:
                deep = 1
                while deep:
                    deep += {"{": 1, "}": -1}.get(text[end], 0)
                    end += 1
        out.append(text[at : m.start()])
        out.append(turned(text[m.start() : end], rows, members))
        at = end
    out.append(text[at:])
    return "".join(out)


def together(root, rows, members):
    """Names that fall together: a new spelling that a file has already, or that two old ones get."""
    seen = {}
    for path in files(root, (".antt", ".rt")):
        words = set(WORD.findall(re.sub(r"--[^\n]*" if path.endswith(".antt") else r"//[^\n]*", "", read(path))))
        here = {}
        for w in words & set(rows):
            here.setdefault(rows[w], set()).add(w)
        for new, olds in here.items():
            if new in words or len(olds) > 1:
                seen.setdefault(new, {}).setdefault(tuple(sorted(olds | ({new} & words))), []).append(os.path.relpath(path, root))
    return seen


def main():
    given = [a for a in sys.argv[1:] if not a.startswith("--")]
    root = given[0] if given else "."
    rows, members = table(root)
    if "--list" in sys.argv:
        for old in sorted(rows):
            print(old, rows[old])
        return
    if "--together" in sys.argv:
        for new, groups in sorted(together(root, rows, members).items()):
            for olds, paths in groups.items():
                print(new, "<-", " ".join(olds), ":", len(paths), " ".join(paths[:3]))
        return
    count = 0
    for path in files(root, (".antt", ".rt", ".edit")):
        text = read(path)
        if path.endswith(".rt"):
            new = turned_source(text, rows, members)
        elif path.endswith(".edit") and re.search(r"^file: \S+\.rt$", text, re.M):
            new = "\n".join(turned_source(line, rows, members) for line in text.split("\n"))
        else:
            new = turned(text, rows, members)
        if new != text:
            count += 1
            with open(path, "w", encoding="utf-8") as f:
                f.write(new)
    print(f"respell: {len(rows)} names, {count} files")


if __name__ == "__main__":
    main()
