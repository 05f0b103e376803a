#!/usr/bin/env python3
"""Turns each Proof.antt of a crate into Invariants.antt and Answers.antt.

usage: tools/port_proofs.py CRATE_FOLDER NAMES_JSON [FUNCTION_FOLDER ..]

NAMES_JSON is what `rt check --generated DIR --old-names` writes of the crate. A Proof.antt that walks the code by hand is left as it is.
Answers that only said `search rules` are left out, since the check searches itself. What cannot be turned is printed.
"""
import json, os, re, sys

W = r"[\w'′₀-₉κ-]+"
alike = lambda s: re.sub("[-_]", "", s).lower()


def declarations(text):
    """Splits a file into its head (comments and uses) and its declarations, each as lines."""
    lines = text.split("\n")
    head, decls, cur, comment = [], [], None, []
    for line in lines:
        if line.startswith(("use ", "open ")) and cur is None:
            head += comment + [line]
            comment = []
        elif line.startswith("--"):
            comment.append(line)
            cur = None
        elif not line.strip():
            if cur is not None:
                cur = None
        elif line[0] in ")]}" and decls:
            decls[-1]["lines"].append(line)
        elif not line[0].isspace():
            m = re.match(r"((?:abbrev |unfoldable |pub )*)(" + W + r")\s*(.*)$", line)
            if line.startswith("unfolding ") or (decls and cur is not None and m and m.group(2) == decls[-1]["name"]):
                decls[-1]["lines"].append(line)
            elif line.startswith(("use ", "open ")):
                head += comment + [line]
                comment = []
            else:
                decls.append({"name": m.group(2) if m else line, "lines": [line], "comment": comment})
                comment = []
                cur = decls[-1]
        else:
            (decls[-1]["lines"] if decls else head).append(line)
    return head + comment, decls


def close_of(text, at):
    """Where the bracket that holds position `at` closes, or the end."""
    depth = 0
    for i in range(at, len(text)):
        if text[i] in "([{":
            depth += 1
        elif text[i] in ")]}":
            depth -= 1
            if depth < 0:
                return i
    return len(text)


def inlined(body):
    """A `let` that only names a path of `c` is written where it is used."""
    while True:
        m = re.search(r"\blet\s+(" + W + r")\s*=\s*(c(?:\." + W + r")*)\s+in\b[ ]*", body)
        if not m:
            return body
        end = close_of(body, m.end())
        rest = body[m.end():end]
        name = re.escape(m.group(1))
        rest = re.sub(r"(?<![\w'′₀-₉.κ-])" + name + r"(?![\w'′₀-₉κ-])(?! =)", lambda _: m.group(2), rest)
        body = body[:m.start()] + rest.lstrip("\n") + body[end:]


def split_top(text):
    parts, depth, last = [], 0, 0
    for i, ch in enumerate(text):
        if ch in "([{":
            depth += 1
        elif ch in ")]}":
            depth -= 1
        elif ch == "," and depth == 0:
            parts.append(text[last:i])
            last = i + 1
    if text[last:].strip():
        parts.append(text[last:])
    return [p.strip() for p in parts]


def tail_of(body):
    """Splits a body into its leading lets and what they are for."""
    at = 0
    while True:
        m = re.match(r"\s*let\b", body[at:])
        if not m:
            return body[:at], body[at:].strip()
        depth, i, lets = 0, at + m.end(), 1
        while i < len(body):
            if body[i] in "([{":
                depth += 1
            elif body[i] in ")]}":
                depth -= 1
            elif depth == 0 and re.match(r"(?<!\S)let(?!\S)", body[i:]) and body[i - 1].isspace():
                lets += 1
            elif depth == 0 and re.match(r"in(?!\S)", body[i:]) and body[i - 1].isspace():
                lets -= 1
                if lets == 0:
                    break
            i += 1
        at = i + 2
        if at >= len(body):
            return "", body.strip()


def parts_of(expr, n):
    """The n parts of a nested pair, or None."""
    if n == 1:
        return [expr]
    e = expr.strip()
    if e.startswith("(") and close_of(e, 1) == len(e) - 1:
        two = split_top(e[1:-1])
        if len(two) == 2:
            more = parts_of(two[1], n - 1)
            return more and [two[0]] + more
        if len(two) == 1:
            return parts_of(two[0], n)
    return None


def projected(expr, k, n):
    return "(" + expr + ")" + ".1" * (k if k < n - 1 else n - 1) + (".0" if k < n - 1 else "")


class Function:
    def __init__(self, names, refs):
        self.n = names
        self.places = names["places"]
        self.index = {p[0]: i for i, p in enumerate(self.places)}
        self.refs = refs
        self.said = []

    def goal_of(self, asked):
        a = alike(asked)
        b = alike(re.sub(r"^(overflow|nonzero)-", "", asked))
        got = [i for i, (old, new) in enumerate(self.n["needs"]) if alike(old) in (a, b)]
        if not got:
            got = [i for i, (old, new) in enumerate(self.n["needs"]) if alike(new) == a]
        if not got:
            c = a.replace("arrayread", "elementcopyout").replace("elementread", "elementcopyout")
            got = [i for i, (old, new) in enumerate(self.n["needs"]) if alike(old) == c]
        return got[0] if got else None

    def chain(self, need):
        place = self.n["asked_at"][need][0] if need is not None and need < len(self.n["asked_at"]) else None
        place = re.sub(r"-unread$", "", place) if place else place
        at = place
        out = []
        while at is not None and at in self.index:
            out.append(self.index[at])
            at = self.places[self.index[at]][1]
        return out

    def fields(self, path, names, steps):
        """`ensures.1.0` of several clauses by their names; what is left of a pair is made again."""
        n = len(names)
        k, i = 0, 0
        while i < len(path) and path[i] == "1" and k < n - 1:
            k += 1
            i += 1
        if k == n - 1:
            return steps + "." + names[-1] + "".join("." + p for p in path[i:])
        if i < len(path) and path[i] == "0":
            return steps + "." + names[k] + "".join("." + p for p in path[i + 1:])
        if i == len(path):
            made = steps + "." + names[-1]
            if k == 0 and not path:
                return steps
            for name in reversed(names[k:-1]):
                made = "(" + steps + "." + name + ", " + made + ")"
            return made
        return steps + "".join("." + p for p in path)

    def turn(self, need, path):
        comps = path.split(".")[1:]
        while comps and comps[0] == "before":
            comps = comps[1:]
        if not comps:
            return "c"
        comps[0] = {"well-formed": "well_formed", "code_of_lem": "code_of", "start_of_lem": "start_of", "IsPlace-in": "place_in", "is_IsBody": "is_body", "block_at_is": "block_at"}.get(comps[0], comps[0])
        first, rest = comps[0], comps[1:]
        if first in ("args", "lifetimes", "ranges", "well_formed", "type_inv", "auto"):
            return "c." + ".".join(comps)
        if first == "requires":
            pre = self.n["pre"]
            if pre and pre.get("fields"):
                return self.fields(rest, pre["fields"], "c.requires")
            return "c." + ".".join(comps)
        chain = self.chain(need)
        a = alike(first)
        # what an arm binds
        for i in chain:
            for arm in [self.n["arms"][i]] if i < len(self.n["arms"]) else []:
                if not arm:
                    continue
                name, _, entries = arm
                best = None
                for to, step, of in entries:
                    if alike(step) == a and [x for x in rest[:len(of)]] == of:
                        if best is None or len(of) > len(best[1]):
                            best = (to, of)
                if best and (best[1] or a != "match"):
                    return "c." + name + "." + best[0] + "".join("." + p for p in rest[len(best[1]):])
        for i in chain:
            for var, step in self.n["typed"][i] if i < len(self.n["typed"]) else []:
                if alike(step) == a and rest[:1] == ["given"]:
                    return "c.type_inv." + var + "".join("." + p for p in rest[1:])
        for i in chain:
            old, parent, (step, new), fn, extra = self.places[i]
            if alike(step) == a:
                for x, y in extra or []:
                    if rest[:1] == [x]:
                        rest = [y] + rest[1:]
                        break
                clause = self.n["clauses"][i] if i < len(self.n["clauses"]) else None
                if rest[:1] == ["ensures"] and clause and clause.get("fields"):
                    return self.fields(rest[1:], clause["fields"], "c." + new + ".ensures")
                if rest[:1] == ["auto"] and len(rest) > 1 and fn in self.n["params"]:
                    # one fact for each argument, by its place
                    named = self.n["params"][fn]
                    k, at = 0, 1
                    while at < len(rest) and rest[at] == "1" and k < len(named) - 1:
                        k += 1
                        at += 1
                    if k < len(named) - 1 and rest[at:at + 1] == ["0"]:
                        at += 1
                    return "c." + new + ".auto." + named[k] + "".join("." + p for p in rest[at:])
                for (o, nn), vars in self.n["loops"]:
                    if nn == new and rest and rest[0] in vars:
                        at = [v for (x, v), _ in self.n["loops"]].index(nn)
                        changed = self.n["changed"][at][vars.index(rest[0])]
                        if not changed:
                            v = rest[0]
                            return "c.args." + v + (".now" if v in self.refs else "") + "".join("." + p for p in rest[1:])
                return "c." + new + "".join("." + p for p in rest)
        self.said.append("no step for " + path)
        return "c." + ".".join(comps)

    def body(self, need, text):
        text = inlined(text)
        return re.sub(r"(?<![\w'′₀-₉.κ-])c((?:\." + W + r")+)", lambda m: self.turn(need, m.group(0)), text)

    def invariant(self, name, params, text):
        """The body of an invariant or a measure, over one record of variables."""
        loop = alike(re.sub(r"^(invariant|decreases)-", "", name))
        for at, ((old, new), vars) in enumerate(self.n["loops"]):
            if alike(old) == loop or alike(new) == loop:
                break
        else:
            return None, None
        changed = self.n["changed"][at]
        to = {}
        moved = [v for v, ch in zip(vars, changed) if ch]
        for v, ch, p in zip(vars, changed, params):
            to[p] = "l.initial." + v if ch else "l." + v
        for v, p in zip(moved, params[len(vars):]):
            to[p] = "l." + v
        if len(params) != len(vars) + len(moved):
            self.said.append(f"{name}: {len(params)} parameters for {len(vars)} and {len(moved)} variables")
        out = re.sub(r"(?<![\w'′₀-₉.κ-])(" + "|".join(sorted(map(re.escape, to), key=len, reverse=True)) + r")(?![\w'′₀-₉κ-])", lambda m: to[m.group(1)], text)
        return new, out


def clauses_of(decl):
    sig, unfold, body, seen = [], [], [], 0
    name = decl["name"]
    for line in decl["lines"]:
        if line.startswith("unfolding "):
            unfold.append(line)
        elif not line[0].isspace() and seen and re.match(re.escape(name) + r"(?![\w-])", re.sub(r"^((abbrev |unfoldable |pub )*)", "", line)):
            seen = 2
            body.append(line)
        elif seen == 2:
            body.append(line)
        else:
            seen = 1
            sig.append(line)
    return "\n".join(sig), unfold, "\n".join(body)


def turn_file(crate, folder, function, names, refs):
    text = open(folder + "/Proof.antt", encoding="utf-8").read()
    if "tie.close" not in text:
        return "by hand"
    f = Function(names, refs)
    head, decls = declarations(text)
    uses = [h for h in head if h.startswith("use ") and not re.search(r"\.(Statement\.\{statement\}|Tie as tie)$", h)]
    comments = [h for h in head if h.startswith("--")]
    path = function.replace("::", ".")
    invariants, answers, helpers = [], [], []
    mod = f"Rattle.{crate}.proofs.{path}"
    for d in decls:
        sig, unfold, body = clauses_of(d)
        m = re.search(r": tie\.(?:Need-(" + W + r")|((?:invariant|decreases)" + W + r"))", sig)
        if d["name"].endswith(("-spec", "_spec")) and "statement M" in sig:
            continue
        if not m:
            if " : tie." in sig or "tie." in body:
                f.said.append("by hand: " + sig[:100])
            helpers.append("\n".join(d["comment"] + d["lines"]))
            continue
        b = re.match(r"(?:abbrev |pub )*" + re.escape(d["name"]) + r"((?:\s+" + W + r")*)\s*=\s*(.*)$", body, re.S)
        if not b:
            f.said.append("no body: " + d["name"])
            continue
        params, expr = b.group(1).split(), b.group(2)
        if m.group(2):
            new, out = f.invariant(m.group(2), params, expr)
            if new is None:
                f.said.append("no loop for " + m.group(2))
                continue
            kind = m.group(2).split("-")[0]
            unf = "".join(u + "\n" for u in unfold)
            invariants.append("".join(c + "\n" for c in d["comment"]) + f"abbrev pub {kind}-{new} : goal.{kind}-{new}\n{unf}{kind}-{new} l = {out}")
            continue
        need = f.goal_of(m.group(1))
        if expr.strip() in ("search rules",) and not unfold:
            continue
        if need is None:
            if m.group(1) in names["settled"] or alike(m.group(1)) in map(alike, names["settled"]):
                continue
            f.said.append("no goal for " + m.group(1))
            continue
        old, new = names["needs"][need]
        out = f.body(need, expr)
        asked = names["asked"].get(old)
        if asked and len(asked) > 1:
            lets, tail = tail_of(out)
            parts = parts_of(tail, len(asked))
            if parts is None and re.fullmatch(r"c(\.[^\s.()]+)*\.ensures", tail):
                parts = [tail + "." + a for a in asked]
            if parts is None:
                if re.match(r"(search|omega|grind|simp|cc|first_of)\b", tail):
                    parts = [tail] * len(asked)
                else:
                    parts = [projected(tail, k, len(asked)) for k in range(len(asked))]
            out = lets + ("\n    " if lets else "") + "record { " + " ".join(f"{a} = {p};" for a, p in zip(asked, parts)) + " }"
        unf = "".join(u + "\n" for u in unfold)
        answers.append("".join(c + "\n" for c in d["comment"]) + f"pub {new} : goal.{new}\n{unf}{new} c = {out}")
    if invariants:
        with open(folder + "/Invariants.antt", "w", encoding="utf-8") as o:
            o.write("\n".join(uses + [f"use {mod}.Given as goal"]) + "\n\n" + "\n\n".join(invariants) + "\n")
    if answers or helpers:
        with open(folder + "/Answers.antt", "w", encoding="utf-8") as o:
            o.write("\n".join(comments + uses + [f"use {mod}.Goals as goal"]) + "\n\n" + "\n\n".join(helpers + answers) + "\n")
    os.remove(folder + "/Proof.antt")
    return "; ".join(f.said)


def main():
    crate_folder, names_file, *only = sys.argv[1:]
    crate = os.path.basename(os.path.abspath(crate_folder))
    names = json.load(open(names_file))
    refs_of = {}
    for at, dirs, files in os.walk(crate_folder + "/src"):
        for x in files:
            t = open(f"{at}/{x}", encoding="utf-8").read()
            mod = os.path.relpath(f"{at}/{x}", crate_folder + "/src")[:-3].replace("/", ".")
            mod = "" if mod in ("lib", "main") else mod + "."
            for m in re.finditer(r"fn (\w+)\s*(?:<[^>]*>)?\(([^)]*)\)", t):
                refs_of[mod + m.group(1)] = {a.split(":")[0].strip().replace("mut ", "") for a in m.group(2).split(",") if re.search(r":\s*&", a)}
    for at, dirs, files in sorted(os.walk(crate_folder + "/proofs")):
        if "Proof.antt" not in files:
            continue
        rel = os.path.relpath(at, crate_folder + "/proofs").replace("/", ".")
        if only and rel not in only:
            continue
        key = f"Rattle-{crate}-proofs.{rel}.Lts"
        if key not in names:
            print(f"{crate} {rel}: not in the list of names")
            continue
        said = turn_file(crate, at, rel, names[key], refs_of.get(rel, set()))
        if said:
            print(f"{crate} {rel}: {said}")


main()
