#!/usr/bin/env python3
"""Turns the proofs of an older Rattle, one Proof.antt for a function, to Invariants.antt and Answers.antt.

usage: tools/turn_proofs.py NAMES CRATE [ROOT]

NAMES is the file names.json that `rt check --generated FOLDER --old-names` writes in the crate's folder, while its Proof.antt files still stand. Each answer
gets the name that its goal has today, each step of `c` too; an answer that only searched is left out, since the check searches by itself.
What the script can't turn is printed, and left for a hand.
"""
import json
import os
import re
import sys

SEG = r"[A-Za-z_«»][\w'₀-₉+«»-]*"
PATH = re.compile(rf"(?<![\w.'-])({SEG})((?:\.(?:{SEG}|\d+))+)|(?<![\w.'₀-₉-])({SEG})(?![\w'.-])")
DECL = re.compile(r"^((?:abbrev |pub |unfoldable )*)([^\s:()]+) ?:(?: |$)(.*)$")


def norm(w):
    return w.replace("_", "-")


def labels(root):
    """For each function, `crate::mod::name` and by its last name, the labels of its ensures and of its requires."""
    found = {}
    for folder, dirs, names in os.walk(os.path.join(root, "crates")):
        dirs[:] = [d for d in dirs if d != "out"]
        if os.sep + "src" not in folder:
            continue
        for n in names:
            if not n.endswith(".rt"):
                continue
            path = os.path.join(folder, n)
            parts = os.path.relpath(path, os.path.join(root, "crates")).split(os.sep)
            crate, inner = parts[0], parts[2:]
            mods = [p for p in inner[:-1]] + ([inner[-1][:-3]] if inner[-1] not in ("lib.rt", "main.rt") else [])
            text = re.sub(r"//[^\n]*", "", open(path, encoding="utf-8").read())
            for m in re.finditer(r"\bfn (\w+)[^{;]*?\)(?:\s*->\s*[^{\n]*?)?((?:\s*(?:requires|ensures)\b.*?)*)\n?\{", text, re.S):
                pass
            # by lines: a function's clauses follow its head
            at = None
            for line in text.split("\n"):
                h = re.match(r"\s*(?:pub(?:\([a-z]+\))? )?(?:const )?fn (\w+)", line)
                if h:
                    at = "::".join([crate] + mods + [h[1]])
                    found[at] = ([], [])
                k = re.match(r"\s*(ensures|requires)\*?\s*(\w+)?\s*\{", line)
                if k and at:
                    found[at][0 if k[1] == "ensures" else 1].append(k[2])
    return found


def top_split(s, sep=","):
    """Splits at the commas that stand in no brackets."""
    out, deep, last = [], 0, 0
    for i, ch in enumerate(s):
        if ch in "([{":
            deep += 1
        elif ch in ")]}":
            deep -= 1
        elif ch == sep and deep == 0:
            out.append(s[last:i])
            last = i + 1
    out.append(s[last:])
    return [x for x in out if x.strip()]


def closes(s):
    """Whether s is one bracket from its first sign to its last."""
    if not (s.startswith("(") and s.endswith(")")):
        return False
    deep = 0
    for i, ch in enumerate(s):
        deep += (ch == "(") - (ch == ")")
        if deep == 0:
            return i == len(s) - 1
    return False


def labelled(segs, at, names):
    """Where several clauses stood in one another's second parts, as `.1.1.0`, their names today."""
    if len(names) < 2 or None in names or at >= len(segs) or not segs[at].isdigit():
        return segs
    i, k = at, 0
    while i < len(segs) and segs[i] == "1" and k < len(names) - 1:
        i, k = i + 1, k + 1
    if k < len(names) - 1:
        if i >= len(segs) or segs[i] != "0":
            return segs
        i += 1
    return segs[:at] + [names[k]] + segs[i:]


class Function:
    def __init__(self, data, own, lab, said):
        self.data, self.said, self.lab = data, said, lab
        self.needs = {norm(o): n for o, n in data["needs"]}
        self.order = [n for _, n in data["needs"]]
        self.steps, self.callee, self.places = {}, {}, {}
        news = data["places_by_name"]
        for (old, parent, step, callee, _), new in zip(data["places"], news):
            self.places[norm(old)] = new
            if step and step[0]:
                if norm(step[0]) in self.steps and self.steps[norm(step[0])] != step[1]:
                    pass
                self.steps.setdefault(norm(step[0]), step[1])
                if callee:
                    self.callee[step[1]] = callee
        self.typed = {}
        for row in data["typed"]:
            for var, step in row:
                self.typed[norm(step)] = var
        self.steps_at, self.arm_at, self.rows_at = {}, {}, {}
        arms = {norm(row[0]): arm for row, arm in zip(data["places"], data["arms"])}
        chain = {norm(old): (norm(parent) if parent else None, step) for old, parent, step, _, _ in data["places"]}
        callees = {norm(step[0]): callee for _, _, step, callee, _ in data["places"] if step and step[0]}
        for (old, new), (place, _) in zip(data["needs"], data["asked_at"]):
            found, arm, p, waiting = {}, {}, norm(place), []
            while p is not None and p in chain:
                parent, step = chain[p]
                if step and step[0]:
                    key = norm(step[0])
                    found.setdefault(key, step[1])
                    if not key.startswith(("match", "if", "loop", "in-")) and not callees.get(key):
                        waiting.append(key)
                    elif key.startswith("match"):
                        for k in waiting:
                            arm[k] = step[1]
                        waiting = []
                p = parent
            self.steps_at[new], self.arm_at[new] = found, arm
            rows, p = {}, norm(place)
            while p is not None and p in chain:
                here = arms.get(p)
                if here:
                    for field, step, way in here[2]:
                        if not field.endswith("-own") or step == "match":
                            rows.setdefault((norm(step),) + tuple(way), [here[0], field] if way or not field.endswith("-own") else None)
                p = chain[p][0]
            self.rows_at[new] = {k: v for k, v in rows.items() if v}
        self.at = {}
        by_place = dict(zip(news, data["typed"]))
        for (old, new), (_, place) in zip(data["needs"], data["asked_at"]):
            self.at[new] = {norm(step): var for var, step in by_place.get(place, [])}
        self.requires = lab.get(own, ([], []))[1]
        self.helpers, self.helper_arg = {}, {}

    def of_call(self, segs, at, callee):
        """A field of a call's step: `.ensures.1.0`, `.auto.1.1.0` and `.new.0` by their names today."""
        if at >= len(segs):
            return segs
        if segs[at] in ("kept", "last") and at + 1 < len(segs) and segs[at + 1] in ("0", "1"):
            segs = segs[:at] + [{"kept": "auto", "last": "new"}[segs[at]]] + segs[at + 1 :]
        if segs[at] in ("auto", "new") and at + 1 < len(segs) and segs[at + 1] in ("0", "1"):
            k = at + 1
            while k < len(segs) and segs[k] == "1":
                k += 1
            ps = self.data["params"].get(callee, [])
            if k < len(segs) and segs[k] == "0" and k - at - 1 < len(ps):
                return segs[: at + 1] + [ps[k - at - 1]] + segs[k + 1 :]
        if segs[at] == "ensures":
            return labelled(segs, at + 1, self.clause(callee))
        if re.fullmatch(r"keys\d+", segs[at]):
            return segs[:at] + ["is"] + segs[at + 1 :]
        return segs

    def clause(self, callee):
        return self.lab.get(callee, ([], []))[0]

    def body(self, text, goal, contexts=("c",)):
        contexts = set(contexts)
        ensures = {}
        calls = {}
        for m in re.finditer(rf"\blet ({SEG}) = ({SEG})(?:\.before)* in\b", text):
            if m[2] in contexts:
                contexts.add(m[1])

        parts = {}
        for m in re.finditer(rf"\blet ({SEG}) = ({SEG})((?:\.(?:{SEG}|\d+))+) in\b\s*", text):
            segs = [x for x in m[3][1:].split(".") if x != "before"]
            if segs and m[2] in contexts and any(k[: len(segs)] == (norm(segs[0]),) + tuple(segs[1:]) for k in self.rows_at.get(goal, {})):
                parts[m[1]] = (m[2], segs, m[0])
        for name, (_, _, whole) in parts.items():
            text = text.replace(whole, "")

        def segments(root, rest):
            segs = rest[1:].split(".") if rest else []
            if root in parts:
                segs = parts[root][1] + segs
                root = parts[root][0]
            if root not in contexts:
                if root in ensures:
                    segs = labelled(segs, 0, ensures[root])
                elif root in calls:
                    segs = self.of_call(segs, 0, calls[root])
                return ".".join([root] + segs)
            segs = [s for s in segs if s != "before"]
            if segs and segs[0] == "well-formed":
                segs[0] = "well_formed"
            if not segs:
                return root
            key = norm(segs[0])
            if key not in self.steps and key.lower() in self.steps:
                key = key.lower()
            if key not in self.steps and key.endswith("-law") and key[:-4] in self.steps:
                key = key[:-4]
            rows = self.rows_at.get(goal, {})
            for n in range(len(segs), 0, -1):
                row = rows.get((key,) + tuple(segs[1:n]))
                if row:
                    return ".".join([root] + row + segs[n:])
            if len(segs) > 1 and segs[1] == "given" and key in self.at.get(goal, {}):
                segs[0:2] = ["type_inv", self.at[goal][key]]
            elif len(segs) > 2 and segs[1:3] == ["given", "1"] and key in self.arm_at.get(goal, {}):
                segs[0:3] = [self.arm_at[goal][key], "is"]
            elif key in self.steps:
                segs[0] = self.steps_at.get(goal, {}).get(key, self.steps[key])
                segs = self.of_call(segs, 1, self.callee.get(segs[0], ""))
            elif segs[0] == "requires":
                segs = labelled(segs, 1, self.requires)
            return ".".join([root] + segs)

        out, at = [], 0
        for m in PATH.finditer(text):
            root, rest = (m[1], m[2]) if m[1] else (m[3], "")
            new = segments(root, rest)
            before = text[: m.start()].rstrip("( ")
            head = re.search(rf"({SEG})$", before)
            if head and before != head[1] and not before.endswith("\n" + head[1]) and norm(head[1]) in self.helpers and root in contexts and (not rest or set(rest[1:].split(".")) == {"before"}):
                typ, hbody = self.helpers[norm(head[1])]
                part = "".join(out) + text[at : m.start()]
                cut = part.rindex(head[1])
                lead = part[:cut]
                inner = self.body(hbody, goal, (self.helper_arg[norm(head[1])],))
                inner_type = self.body(typ, goal, (self.helper_arg[norm(head[1])],))
                arg = self.helper_arg[norm(head[1])]
                if arg != root:
                    inner = re.sub(rf"(?<![\w.'-]){re.escape(arg)}(?![\w'-])", root, inner)
                    inner_type = re.sub(rf"(?<![\w.'-]){re.escape(arg)}(?![\w'-])", root, inner_type)
                call = f"let {head[1]} : {inner_type} = {inner.strip()} in {head[1]}"
                if re.search(r"\($", lead) and text[m.end():].startswith(")"):
                    new = call
                else:
                    new = f"({call})"
                out = [lead + new]
                at = m.end()
                continue
            # let NAME = ... ensures
            lm = re.search(rf"\blet ({SEG}) = $", text[: m.start()])
            if lm and text[m.end() :].lstrip().startswith("in"):
                segs = new.split(".")
                if len(segs) == 3 and segs[0] in contexts and segs[2] == "ensures":
                    ensures[lm[1]] = self.clause(self.callee.get(segs[1], "")) if len(self.clause(self.callee.get(segs[1], ""))) > 1 else []
                elif len(segs) == 2 and segs[0] in contexts and segs[1] == "requires" and len(self.requires) > 1:
                    ensures[lm[1]] = self.requires
                elif len(segs) == 2 and segs[0] in contexts and segs[1] in self.callee:
                    calls[lm[1]] = self.callee[segs[1]]
            out.append(text[at : m.start()])
            out.append(new)
            at = m.end()
        out.append(text[at:])
        return "".join(out)


def blocks(text):
    """The `use` lines, and then each declaration with the comment above it."""
    uses, decls, comment, here = [], [], [], None
    head = []
    for line in text.split("\n"):
        if re.match(r"(pub )?use ", line):
            uses.append(line)
            continue
        if line.startswith("--"):
            if not decls and here is None and not uses:
                head.append(line)
            else:
                comment.append(line)
            here = None
            continue
        if not line.strip():
            continue
        if re.match(r"(pub )?(record|data|abbrev record) ", line):
            here = {"mods": "", "name": "", "type": line, "lines": [], "comment": comment, "raw": True}
            comment = []
            decls.append(here)
            continue
        m = DECL.match(line)
        if m and not line.startswith(" "):
            here = {"mods": m[1], "name": m[2], "type": m[3], "lines": [], "comment": comment}
            comment = []
            decls.append(here)
            continue
        if here is None:
            if decls:
                here = decls[-1]
            else:
                continue
        here["lines"].append(line)
    return head, uses, decls


def clause_of(decl):
    """The type's further lines, the unfolding line, and the clauses."""
    typ, unfolding, rest = [decl["type"]], None, []
    name = decl["name"]
    for line in decl["lines"]:
        if not rest and line.startswith("unfolding "):
            unfolding = line
        elif rest or line.startswith(name + " ") or line.startswith(name + "="):
            rest.append(line)
        else:
            typ.append(line)
    return " ".join(t.strip() for t in typ).strip(), unfolding, "\n".join(rest)


def answer_body(body, asked):
    """A tuple over several clauses becomes a record of them."""
    if not asked or len(asked) < 2:
        return body
    got = to_record(body, asked)
    if got is not None:
        return got
    if re.match(r"\s*(?:let\b.*\bin\s+)*[\w'-]+(?:\.[\w'-]+)*(?:\s|$)", body, re.S) and not re.search(r"(?:^|\bin)\s*(?:search|rw|simp|grind|omega|cc|elim|subst)\b[^=]*$", body):
        n = len(asked)
        fields = "; ".join(f"{l} = all{'.1' * i}{'.0' if i < n - 1 else ''}" for i, l in enumerate(asked))
        return f" let all ={body.rstrip()} in record {{ {fields} }}"
    return body


def flat(parts, n):
    while len(parts) < n and closes(parts[-1].strip()):
        inner = top_split(parts[-1].strip()[1:-1])
        if len(inner) < 2:
            break
        parts = parts[:-1] + inner
    return parts


def to_record(body, asked):
    # find the last top-level tuple
    s = body.rstrip()
    for i in range(len(s)):
        if s[i] == "(" and closes(s[i:]):
            before = s[:i]
            if before.strip() == "" or re.search(r"(\bin|↦)\s*$", before):
                parts = flat(top_split(s[i + 1 : -1]), len(asked))
                if len(parts) == len(asked):
                    fields = "; ".join(f"{l} = {p.strip()}" for l, p in zip(asked, parts))
                    return before + "record { " + fields + " }"
            elif re.search(r"(?:^|\bin|↦|=)\s*(?:rw|simp) (?:\([^()]*(?:\([^()]*\)[^()]*)*\)|\S+)\s*$", before):
                parts = flat(top_split(s[i + 1 : -1]), len(asked))
                if len(parts) == len(asked):
                    fields = "; ".join(f"{l} = {p.strip()}" for l, p in zip(asked, parts))
                    return before + "(record { " + fields + " })"
    return None


def main():
    names = json.load(open(sys.argv[1], encoding="utf-8"))
    crate = sys.argv[2]
    root = sys.argv[3] if len(sys.argv) > 3 else "."
    lab = labels(root)
    proofs = os.path.join(root, "crates", crate, "proofs")
    made = left = 0
    for folder, dirs, files in os.walk(proofs):
        if "Proof.antt" not in files:
            continue
        rel = os.path.relpath(folder, proofs).replace(os.sep, ".")
        said = []
        path = os.path.join(folder, "Proof.antt")
        text = open(path, encoding="utf-8").read()
        data = names.get(f"Rattle-{crate}-proofs.{rel}.Lts")
        if data is None or "tie.close" not in text:
            print(f"left: {path}: {'no names' if data is None else 'a cycle'}")
            left += 1
            continue
        own = "::".join([crate] + rel.split("."))
        f = Function(data, own, lab, said)
        head, uses, decls = blocks(text)
        invariants, answers, order = [], [], list(f.order)
        goals = [d for d in decls if re.match(r"tie\.Need-", d["type"])]
        for d in decls:
            if d.get("raw"):
                continue
            typ, unfolding, rest = clause_of(d)
            m = re.match(r"(?s)\((\S+) : tie\.(?!Need)[^)]*\) → (.*)$", typ)
            if m and not re.match(r"tie\.", typ):
                cm = re.match(rf"(?s){re.escape(d['name'])} (\S+) =(?=\s)(.*)$", rest)
                if not cm:
                    said.append(f"helper {d['name']}")
                    continue
                f.helpers[norm(d["name"])] = (m[2], cm[2])
                f.helper_arg[norm(d["name"])] = cm[1] if cm[1] == m[1] else cm[1]
                if cm[1] != m[1]:
                    said.append(f"helper {d['name']}: two names")
                if unfolding:
                    said.append(f"helper {d['name']}: {unfolding}")
        by_order = len(goals) == len(f.order)
        for d in decls:
            if d.get("raw"):
                answers.append("\n".join(d["comment"] + [d["type"]] + d["lines"]))
                continue
            typ, unfolding, rest = clause_of(d)
            name = d["name"]
            if name.endswith("-spec") or name.endswith("_spec"):
                continue
            if re.match(r"tie\.(invariant|decreases)-", typ):
                lm = re.match(r"tie\.(invariant|decreases)-(\S+)", typ)
                row = next(((i, l) for i, l in enumerate(data["loops"]) if norm(l[0][0]) == norm(lm[2])), None)
                if row is None:
                    said.append(f"no loop {lm[2]}")
                    continue
                i, (loop, variables) = row
                changed = data["changed"][i]
                lhs, body = re.match(rf"(?s){re.escape(name)} (.*?)=(?=\s)(.*)$", rest).groups()
                binders = lhs.split()
                fields = [("l.initial." if ch else "l.") + v for v, ch in zip(variables, changed)]
                fields += ["l." + v for v, ch in zip(variables, changed) if ch]
                if len(binders) != len(fields):
                    said.append(f"loop {loop[1]}: {binders} against {fields}")
                table = {b: x for b, x in zip(binders, fields) if b != "_"}
                bound = set(re.findall(rf"λ ((?:{SEG} ?)+)\.", body)) | set(re.findall(rf"\(({SEG}) :", body))
                bound = {w for b in bound for w in b.split()}
                again = {b: table.pop(b) for b in bound & set(table)}

                def put(m):
                    root, tail = (m[1], m[2]) if m[1] else (m[3], "")
                    if not tail and re.match(r" = ", m.string[m.end():]) and re.search(r"[{;]\s*$", m.string[: m.start()]):
                        return root
                    return table.get(root, root) + tail

                new = PATH.sub(put, body)
                for b, x in again.items():
                    new = f" let {b} = {x} in" + new
                kind = lm[1]
                entry = f"abbrev pub {kind}-{loop[1]} : goal.{kind}-{loop[1]}\n"
                if unfolding:
                    entry += unfolding + "\n"
                entry += f"{kind}-{loop[1]} l ={new}"
                invariants.append("\n".join(d["comment"] + [entry]))
                continue
            gm = re.match(r"tie\.Need-(\S+)", typ)
            if gm:
                key = norm(name).replace("-holds", "-init").replace("-less", "-smaller").replace("-again", "-preserved")
                new = f.needs.get(key)
                if new is None or (by_order and order and order[goals.index(d)] != new):
                    if by_order:
                        if new is not None and order[goals.index(d)] != new:
                            said.append(f"{name}: {new} by name, {order[goals.index(d)]} by place")
                        new = new or f.order[goals.index(d)]
                    else:
                        said.append(f"no goal for {name}")
                        continue
                cm = re.match(rf"(?s){re.escape(name)}((?: \S+)*?) =(?=\s)(.*)$", rest)
                if not cm:
                    said.append(f"clauses of {name}")
                    continue
                args, body = cm[1].split(), cm[2]
                # the check finds by itself what it asks of its own steps
                if body.strip() == "search rules" or re.match(r"(enum_told|enum_known|known_told)", new):
                    continue
                if re.search(r"\bκs\b", body):
                    said.append(f"κs in {name}")
                old = next((o for o, n in data["needs"] if n == new), None)
                asked = data["asked"].get(old)
                nb = f.body(body, new, (args[0],) if args else ())
                nb = answer_body(nb, asked)
                if nb.strip() == "search rules":
                    continue
                entry = f"pub {new} : goal.{new}\n" + (unfolding + "\n" if unfolding else "") + f"{new} {' '.join(a for a in args if a != 'κs') or 'c'} ={nb}"
                answers.append("\n".join(d["comment"] + [entry]))
                continue
            if norm(name) in f.helpers:
                continue
            # another declaration
            full = "\n".join([d["mods"] + name + " : " + typ] + ([unfolding] if unfolding else []) + [rest])
            hm = re.search(r"tie\.(\S+?)((?: (?:invariant|decreases)-\S+?)*)([ )])", typ)
            if "tie." in full:
                place = None
                if hm:
                    place = f.places.get(norm(hm[1]))
                    if place is None:
                        said.append(f"no place {hm[1]}")
                    full = re.sub(r"tie\.(\S+?)((?: (?:invariant|decreases)-[^\s)]+)*)(?=[ )])", lambda m: "goal." + f.places.get(norm(m[1]), m[1]), full)
                full = f.body(full, None)
            answers.append("\n".join(d["comment"] + [full]))
        module = f"Rattle.{crate}.proofs.{rel}"
        keep = [u for u in uses if not re.search(r"\.(Tie|Statement|Reads|Lts)(\.| as |$)", u)]

        def needed(chosen, content):
            out = []
            for u in chosen:
                um = re.match(r"((?:pub )?use [^{]*\.)\{(.*)\}$", u)
                if um:
                    ns = []
                    for n in um[2].split(","):
                        n = n.strip()
                        word = n.split(" as ")[-1]
                        core = word.strip("◌«»")
                        core = core if core else word
                        probe = re.sub(r"◌", "", word)
                        if re.search(rf"(?<![\w.'-]){re.escape(probe)}(?![\w'-])" if re.match(r"\w", probe) else re.escape(probe), content):
                            ns.append(n)
                    if ns:
                        out.append(um[1] + "{" + ", ".join(ns) + "}")
                else:
                    am = re.search(r" as (\S+)$", u)
                    word = am[1] if am else u.split(".")[-1]
                    if re.search(rf"(?<![\w.'-]){re.escape(word)}\.", content):
                        out.append(u)
            return out

        if invariants:
            content = "\n\n".join(invariants)
            with open(os.path.join(folder, "Invariants.antt"), "w", encoding="utf-8") as o:
                o.write("\n".join(needed(keep, content) + [f"use {module}.Given as goal", "", content, ""]))
        if answers:
            content = "\n\n".join(answers)
            lead = head if head else []
            with open(os.path.join(folder, "Answers.antt"), "w", encoding="utf-8") as o:
                o.write("\n".join(lead + needed(keep, content) + [f"use {module}.Goals as goal", "", content, ""]))
        os.remove(path)
        made += 1
        for s in said:
            print(f"look: {folder}: {s}")
    print(f"turn_proofs: {made} turned, {left} left")


main()
