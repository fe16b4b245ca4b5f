#!/usr/bin/env python3
"""Brings the edits (crates/*/must-fail/*.edit, crates/*/edits/*.edit) to the spelling of today's Rattle.

usage: tools/turn_edits.py tree OLD FOLDER       makes FOLDER, a repository with src/, specs/ and the laws of proofs/ as they stand in the commit OLD, and
                                                 beside each file that an edit changes a copy with that edit made. Then run the kit's port.py in FOLDER
       tools/turn_edits.py take OLD FOLDER NAMES writes the edits: what differs between the turned copy and the turned file. NAMES is a tree of all crates
                                                 as port.py left it, for the names that tools/respell.py turns
       tools/turn_edits.py --check [OLD]         says which edits do not fit the sources; with OLD also whether there are as many as there, and what else changed

An edit of OLD stands once in its file. Its copy goes through the same scripts as the file, so both come out in today's spelling, and their difference is the
edit. Where the old text stands as it was, the edit is kept as it was. Edits of .rt files are of plain code, which the scripts leave alone: those whose text
was laid out anew stand in BY_HAND, with their texts. An edit of a Proof.antt is left. `take` prints each edit that it cannot turn.
"""
import difflib
import glob
import json
import os
import re
import runpy
import subprocess
import sys

ROOT = os.path.dirname(os.path.dirname(os.path.abspath(__file__)))

# the edits that are turned by hand: each old and new text, by the number of the pair
BY_HAND = {
    ("crates/header/edits/ended_in_body_only.edit", 0): ("not (in_header s.phase)", "in_body s.phase"),
    ("crates/header/edits/feed_header_body_too.edit", 0): ("result ≡ header_from s part.now", "result ≡ scan_from s part.now"),
    ("crates/names/edits/title_begins_with_u.edit", 0): ("98, 116, 107,", "98, 117, 107,"),
    ("crates/names/edits/title_has_another_id.edit", 0): ("33, 34, 35,", "33, 39, 35,"),
    ("crates/server/edits/receive_at_time_0.edit", 0): ("server, i, clock, input,", "server, i, 0, input,"),
}
BY_HAND |= {
    ("crates/accepted/edits/valid_as_accepted.edit", 1): (
        "      ap (λ (file : List ℕ). verdict file (length file)) (set_as n f e late)",
        "      (y.contents n f e).checked late",
    ),
    ("crates/accepted/edits/valid_as_accepted.edit", 2): ("      ∙ ap (verdict (fields_set f.number f.time acc)) (set_length f.number f.time acc)", ""),
    ("crates/accepted/edits/valid_as_accepted.edit", 3): (
        "      ∙ set_verdict f.number f.time acc (length acc) (accepted_bytes n t b) ((y.contents n f e).checked late)",
        "",
    ),
}
for _call in ("login", "lose", "receive", "request"):
    for _label, _test in (("refuses_all", "false"), ("without_the_test", "true")):
        _texts = [f"    server::{_call}(\n        server, {_sound}," for _sound in ("sound", _test)]
        BY_HAND[f"crates/tested/edits/{_call}_{_label}.edit", 0] = tuple(_texts)


def read(path):
    with open(path, encoding="utf-8") as f:
        return f.read()


def write(path, text):
    with open(path, "w", encoding="utf-8") as f:
        f.write(text)


def git(*words):
    return subprocess.run(["git", "-C", ROOT, *words], check=True, capture_output=True, text=True, encoding="utf-8").stdout


class Commit:
    """The texts of a commit."""

    def __init__(self, name):
        self.name = name
        self.paths = git("ls-tree", "-r", "--name-only", name, "crates").split("\n")[:-1]
        self.texts = {}

    def read(self, path):
        if path not in self.texts:
            self.texts[path] = git("show", f"{self.name}:{path}")
        return self.texts[path]

    def edits(self):
        return [p for p in self.paths if re.fullmatch(r"crates/\w+/(must-fail|edits)/\w+\.edit", p)]


def pairs(text, path):
    """What an edit changes: (file, old, new). Lines of one kind that follow each other are the lines of one text."""
    crate = path.split("/")[1]
    found, file, old, kind = [], None, None, None
    for line in text.split("\n"):
        before, kind = kind, line[:4]
        if line.startswith("file: "):
            file = line[6:] if line[6:].startswith("crates/") else f"crates/{crate}/{line[6:]}"
        elif line.startswith("old: "):
            old = f"{old}\n{line[5:]}" if before == kind else line[5:]
        elif line.startswith("new:"):
            new = f"{found.pop()[2]}\n{line[5:]}" if before == kind else line[5:]
            found.append((file, old, new))
    return found


def rewritten(text, texts):
    """An edit's text with these old and new texts in place of its own."""
    out, kind, k = [], None, -1
    for line in text.split("\n"):
        before, kind = kind, line[:4]
        if line.startswith("old: "):
            if before != kind:
                k += 1
                out += ["old: " + part for part in texts[k][0].split("\n")]
        elif line.startswith("new:"):
            if before != kind:
                out += ["new: " + part for part in texts[k][1].split("\n")]
        else:
            out.append(line)
    return "\n".join(out)


def edited(changes, read_file):
    """The files that an edit changes, changed."""
    texts = {}
    for file, old, new in changes:
        text = texts.get(file) or read_file(file)
        if text.count(old) != 1:
            raise ValueError(f"an old text stands {text.count(old)} times in {file}")
        texts[file] = text.replace(old, new)
    return texts


def fault(path, changes):
    """Why an edit does not fit today's sources, or nothing."""
    if not changes:
        return "it has no pair"
    texts = {}
    for file, old, new in changes:
        if not os.path.isfile(os.path.join(ROOT, file)):
            return f"there is no {file}"
        was = read(os.path.join(ROOT, file))
        text = texts.get(file, was)
        if old == new:
            return "an old text is as its new one"
        if "/must-fail/" in path and "\n" in old + new:
            return "in must-fail/ a text has one line"
        for t in (was, text):
            if t.count(old) != 1:
                return f"an old text stands {t.count(old)} times in {file}"
        texts[file] = text.replace(old, new)
    return None


# ---- the tree that port.py turns


def tree(old, folder):
    commit = Commit(old)
    os.makedirs(folder)
    subprocess.run(["git", "init", "-q", folder], check=True)
    names, k = {}, 0

    def put(path, text):
        os.makedirs(os.path.dirname(os.path.join(folder, path)), exist_ok=True)
        write(os.path.join(folder, path), text)

    put("crates.txt", git("show", f"{old}:crates.txt"))
    for path in commit.paths:
        if re.fullmatch(r"crates/\w+/((src|specs)/.*|proofs/\w+\.antt)", path):
            put(path, commit.read(path))
    for path in commit.edits():
        for file, text in edited(pairs(commit.read(path), path), commit.read).items():
            if file.endswith(".antt") and not file.endswith("/Proof.antt"):
                k += 1
                copy = os.path.join(os.path.dirname(file), f"Zv{k}.antt")
                put(copy, text)
                names[copy] = path, file
    put(".git/copies.json", json.dumps(names))
    for words in (["add", "-A"], ["-c", "user.name=-", "-c", "user.email=-", "commit", "-qm", "the sources and the edited copies"]):
        subprocess.run(["git", "-C", folder, *words], check=True)
    print(f"turn_edits: {k} copies in {folder}; now run port.py there")


# ---- the edits from the turned tree


def borders(text):
    """The places of a text where a token ends or begins."""
    places = {0, len(text)}
    for m in re.finditer(r"[\w.'◌]+|\s+|[^\w\s]", text):
        places.update((m.start(), m.end()))
    return sorted(places)


def likeness(a, b):
    """How like two texts are, as they are and without blanks and brackets."""
    bare = [re.sub(r"[\s()]", "", t) for t in (a, b)]
    return difflib.SequenceMatcher(None, a, b, autojunk=False).ratio() + difflib.SequenceMatcher(None, *bare, autojunk=False).ratio()


def smallest(now, then, text, was_old, was_new):
    """A part of `now` that stands once in `text` and makes `then` of it where it is replaced, as like the texts that were as can be."""
    if len(now) and len(was_old) and text.count(was_old) == 1 and was_old in now and now.replace(was_old, was_new) == then:
        return was_old, was_new
    front = len(os.path.commonprefix([now, then]))
    back = len(os.path.commonprefix([now[front:][::-1], then[front:][::-1]]))
    best = None
    for start in borders(now):
        if start > front:
            break
        for end in reversed(borders(now)):
            if end < len(now) - back or end < start:
                break
            old = now[start:end]
            new = then[start : len(then) - (len(now) - end)]
            if not old.strip() or text.count(old) != 1 or old.endswith(" ") or (old[0].isspace() and not was_old[0].isspace()):
                continue
            score = likeness(old, was_old) + likeness(new, was_new) + 0.3 * (old[0] == was_old[0])
            if best is None or score > best[0]:
                best = score, old, new
    return best and best[1:]


def hunks(now, then):
    a, b = now.split("\n"), then.split("\n")
    found = []
    for tag, i, j, k, l in difflib.SequenceMatcher(None, a, b, autojunk=False).get_opcodes():
        if tag != "equal":
            found.append((i, j, k, l))
    return a, b, found


def around(old, new):
    """How many lines stay in front of what an edit changes, and behind it."""
    front = 0
    while front < min(len(old), len(new)) and old[front] == new[front]:
        front += 1
    back = 0
    while back < min(len(old), len(new)) - front and old[-1 - back] == new[-1 - back]:
        back += 1
    return front, back


def turned_pairs(changes, file, now, then):
    """For each pair of this file its texts of today, or None: the hunks of the difference in the order of the pairs' places."""
    order = sorted(changes, key=lambda c: c[3])
    a, b, found = hunks(now, then)
    if len(found) != len(order):
        return None
    texts = {}
    for (k, old, new, _), (i, j, m, n) in zip(order, found):
        if j == i or n == m:
            # lines put in or taken out: with the line before
            i, m = i - 1, m - 1
        # the lines around that the edit names to say which one it changes
        front, back = around(old.split("\n"), new.split("\n"))
        i, m, j, n = i - front, m - front, j + back, n + back
        best = smallest("\n".join(a[i:j]), "\n".join(b[m:n]), now, old, new)
        if best is None:
            return None
        texts[k] = best
    return texts


def take(old, folder, names):
    commit = Commit(old)
    respell = runpy.run_path(os.path.join(ROOT, "tools", "respell.py"), run_name="respell")
    rows, members = respell["table"](names)
    copies = {}
    for copy, (path, file) in json.loads(read(os.path.join(folder, ".git", "copies.json"))).items():
        copies[path, file] = respell["turned"](read(os.path.join(folder, copy)), rows, members)
    counts = {"as it was": 0, "by the scripts": 0, "by hand": 0, "left": 0}
    for path in commit.edits():
        was = commit.read(path)
        changes = pairs(was, path)
        today = read(os.path.join(ROOT, path))
        texts, how = {}, "as it was"
        for file in dict.fromkeys(c[0] for c in changes):
            own = [(k, o, n, commit.read(file).find(o)) for k, (f, o, n) in enumerate(changes) if f == file]
            if any((path, k) in BY_HAND for k, *_ in own):
                how = "by hand"
                texts |= {k: BY_HAND.get((path, k), (o, n)) for k, o, n, _ in own}
            elif (path, file) in copies:
                now, then = read(os.path.join(ROOT, file)), copies[path, file]
                named = {k: (o, n) for k, (_, o, n) in enumerate(pairs(today, path))}
                found = turned_pairs([(k, *named[k], at) for k, _, _, at in own], file, now, then)
                if found is None:
                    how = "left"
                    print(f"left: {path}: {file}")
                    texts |= {k: (o, n) for k, o, n, _ in own}
                else:
                    texts |= found
                    if how == "as it was" and any(found[k] != (o, n) for k, o, n, _ in own):
                        how = "by the scripts"
            else:
                texts |= {k: (o, n) for k, o, n, _ in own}
        counts[how] += 1
        comment = "".join(l + "\n" for l in today.split("\n") if l.startswith("#"))
        body = "\n".join(l for l in was.split("\n") if not l.startswith("#"))
        write(os.path.join(ROOT, path), comment + rewritten(body, [texts[k] for k in range(len(changes))]))
    print("turn_edits: " + ", ".join(f"{n} {how}" for how, n in counts.items()))


# ---- the check


def check(old=None):
    paths = sorted(os.path.relpath(p, ROOT) for folder in ("must-fail", "edits") for p in glob.glob(os.path.join(ROOT, "crates", "*", folder, "*.edit")))
    bad = 0
    for path in paths:
        said = fault(path, pairs(read(os.path.join(ROOT, path)), path))
        if said:
            bad += 1
            print(f"{path}: {said}")
    if old:
        commit = Commit(old)
        for path in sorted(set(paths) ^ set(commit.edits())):
            bad += 1
            print(f"{path}: it stands in one of the two alone")
        for path in sorted(set(paths) & set(commit.edits())):
            a, b = pairs(commit.read(path), path), pairs(read(os.path.join(ROOT, path)), path)
            if [c[0] for c in a] != [c[0] for c in b]:
                bad += 1
                print(f"{path}: other files, or more or fewer pairs")
    print(f"turn_edits: {len(paths)} edits, {bad} do not fit")
    return 1 if bad else 0


def main(words):
    if words[:1] == ["--check"] and len(words) <= 2:
        return check(*words[1:])
    if words[:1] == ["tree"] and len(words) == 3:
        return tree(*words[1:])
    if words[:1] == ["take"] and len(words) == 4:
        return take(*words[1:])
    print(__doc__)
    return 2


if __name__ == "__main__":
    sys.exit(main(sys.argv[1:]))
