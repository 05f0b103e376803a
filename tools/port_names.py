#!/usr/bin/env python3
"""Brings the repository's own names to today's spelling: definitions, lemmas, fields and constructors in snake case.

usage: tools/port_names.py [TOP]

Run once, after the kit's port.py, at the top of the repository. A name that stands in a specs/ or proofs/ file of a crate (not in a folder of one
function) and has a hump or a dash is written with underscores: `takenBlocks`, `taken-cleared` become `taken_blocks`, `taken_cleared`. Types and
modules keep their capitals. Names that files import from the library keep their spelling. Prints names that would fall together.
"""
import collections, glob, os, re, sys

top = sys.argv[1] if len(sys.argv) > 1 else "."
os.chdir(top)
own = {line.split(":")[0].split()[0] for line in open("crates.txt") if line.strip() and not line.startswith("#")}
NAME = r"[^\s(){}\[\];.,@\"«»:]+"
TOKEN = re.compile(r"«[^»]*»|[^\s(){}\[\];.,@\"«»]+")


# Lemmas that had an underscore already and would now meet a definition; fields of `Measures` that would hide what they speak of.
LAWS = {"free_on": "free_on_law", "same_key": "same_key_law"}
FIELDS = {"block-at": "block_at_is", "entry-at": "entry_at_is"}
LOCAL = {"block_words": "block_words_is", "block_start": "block_start_is", "blocks_at": "blocks_at_is"}
LAST = {"pair_at"}
# What the rules above leave ugly or in two spellings, file by file.
TOUCHES = [
    ("crates/*/*/*.antt", "toCome", "to_come"),
    ("crates/*/proofs/*/*/*.antt", "toCome", "to_come"),
    ("crates/*/proofs/*/*.antt", "toCome", "to_come"),
    ("crates/lines/[sp]*/*.antt", "at_end_law", "at_end"),
    ("crates/binary/[sp]*/*.antt", "at_end_law", "at_end"),
    ("crates/promises/[sp]*/*.antt", "at_end_law", "at_end"),
    ("crates/promises/*/*.antt", "pack_aB", "pack_ab"),
    ("crates/promises/specs/Measures.antt", "most_blocks_law", "most_blocks"),
    ("crates/promises/specs/Measures.antt", "most_contents_law", "most_contents"),
    ("crates/promises/specs/Measures.antt", "entries-each", "entries_each"),
    ("crates/promises/specs/Measures.antt", "blocks-for", "blocks_for"),
    ("crates/promises/specs/Measures.antt", "pub block_bytes", "pub block_bytes_is"),
    ("crates/promises/specs/Measures.antt", "pub payload_bytes", "pub payload_bytes_is"),
    ("crates/promises/specs/Measures.antt", "pub payload_start", "pub payload_start_is"),
    ("crates/promises/specs/Measures.antt", "block_at_law", "block_at_is"),
]


def library_files():
    return sorted(glob.glob("crates/*/specs/*.antt") + glob.glob("crates/*/proofs/*.antt"))


def new(name):
    stem = name.replace("-", "_")
    return re.sub(r"(?<=[a-z0-9'])([A-Z])(?=([a-z]?))", lambda m: "_" + (m.group(1).lower()), stem)


def declared(text):
    """Top declarations, fields and constructors of a file of definitions or lemmas."""
    found, fields = set(), set()
    block = inner = None
    for line in text.split("\n"):
        if re.match(r"\s*--", line) or line.startswith(("use ", "open ", "mod ", "pub mod ", "pub use ", "unfolding ")):
            continue
        nested = re.match(r"(\s+)(?:pub )?(record|data) ", line)
        if nested:
            inner = nested.group(2), len(nested.group(1))
            continue
        if inner and line.strip() and len(line) - len(line.lstrip()) <= inner[1]:
            inner = None
        m = re.match(r"\s+((?:abbrev |unfoldable |pub )*)(" + NAME + r") : ", line)
        if m and inner and inner[0] == "record":
            fields.add(m.group(2))
            continue
        if m and block not in ("record", "data"):
            found.add(m.group(2))
            continue
        m = re.match(r"((?:abbrev |unfoldable |pub |ruleset )*)(?:(data|record) )?(" + NAME + r")[^\n]*[:=]", line)
        if m and not line[0].isspace():
            block = m.group(2)
            if m.group(2) or re.match(NAME + r"( [(\[{]| [a-zA-Z_]|\s*:)", line[len(m.group(1)):]):
                if m.group(2):
                    found.add(m.group(3))
                elif re.match(NAME + r" :", line[len(m.group(1)):]):
                    found.add(m.group(3))
                elif m.group(1).startswith("ruleset") or "ruleset" in m.group(1):
                    found.add(m.group(3))
        elif block == "record":
            m = re.match(r"\s+(?:pub )?(" + NAME + r") :", line)
            if m and re.match(r"  \S", line):
                fields.add(m.group(1))
        elif block == "data":
            m = re.match(r"  ((?:" + NAME + r" )+):", line)
            if m:
                found.update(m.group(1).split())
        if line and not line[0].isspace() and not m:
            block = None
    return found, fields


def imported_from_library(text):
    out = set()
    for m in re.finditer(r"use ([\w.'-]+)\.\{([^}]*)\}", text):
        parts = m.group(1).split(".")
        if not (parts[0] == "Rattle" and len(parts) > 1 and parts[1] in own):
            for item in m.group(2).split(","):
                for word in item.split(" as "):
                    out.add(word.strip())
    return out


texts = {p: open(p, encoding="utf-8").read() for p in library_files()}
names, fields = set(), set()
for p, t in texts.items():
    a, b = declared(t)
    names |= a
    fields |= b
every = {p: open(p, encoding="utf-8").read() for p in sorted(glob.glob("crates/**/*.antt", recursive=True) + glob.glob("crates/**/*.rt", recursive=True)) if "/out/" not in p}
library = set().union(*(imported_from_library(t) for t in every.values()))
change = {n: new(n) for n in names if not n[0].isupper() and new(n) != n and n not in library}
change_fields = {n: new(n) for n in fields if new(n) != n}
# Where a lemma would fall together with a definition, the lemma is a law of it.
taken = collections.Counter(change.get(n, n) for n in names)
for n in sorted(change):
    if taken[change[n]] > 1 and "-" in n and change[n] not in LAST:
        change[n] += "_law"
change.update({n: to for n, to in LAWS.items() if n in names})
change_fields.update(FIELDS)
back = collections.defaultdict(set)
for n in names:
    back[change.get(n, n)].add(n)
for n, of in sorted(back.items()):
    if len(of) > 1 or (n in library and of != {n}):
        print("fall together:", n, sorted(of), "library" if n in library else "")
for n in sorted(names & library):
    if new(n) != n:
        print("kept, a name of the library:", n)


def turn(text, path):
    used = set(TOKEN.findall(text))
    out, last = [], 0
    import_spans = []
    for m in re.finditer(r"use ([\w.'-]+)\.\{([^}]*)\}", text):
        parts = m.group(1).split(".")
        mine = parts[0] == "Rattle" and len(parts) > 1 and parts[1] in own
        import_spans.append((m.start(2), m.end(2), mine))
    for m in TOKEN.finditer(text):
        word, at = m.group(0), m.start()
        before = text[at - 1] if at else "\n"
        if before == ".":
            line = text[text.rfind("\n", 0, at) + 1:at]
            path_of = re.search(r"Rattle\.(\w+)\.(specs|proofs)\.[\w.'-]*$", line)
            if path_of and path_of.group(1) in own and word in change:
                to = change[word]
            elif word in change_fields and not path_of:
                to = change_fields[word]
            elif word in LOCAL and "/promises/" in path and not path_of:
                to = LOCAL[word]
            else:
                continue
        elif word in LOCAL and path.endswith(("promises/specs/Measures.antt", "promises/proofs/Sequence.antt", "promises/proofs/Measures.antt")):
            to = LOCAL[word]
        elif word in change:
            to = change[word]
        elif word in change_fields and path.endswith(".antt"):
            # a field where it is declared, or set in a record
            rest = text[m.end():m.end() + 3]
            if rest.startswith((" =", " :")) or rest.startswith(";") or rest.startswith("}"):
                to = change_fields[word]
            else:
                continue
        else:
            continue
        out.append(text[last:at])
        out.append(to)
        last = m.end()
        if to in used and to != word:
            clash[(path, word, to)] += 1
    out.append(text[last:])
    return "".join(out)


def turn_rt(text, path):
    """In .rt files: clauses and ghost items by token; comments only between backticks; strings never."""
    parts = re.split(r'("(?:[^"\\\n]|\\.)*"|//[^\n]*)', text)
    for i, part in enumerate(parts):
        if part.startswith("//"):
            parts[i] = re.sub(r"`[^`]*`", lambda m: turn(m.group(0).replace("`", "\u0001 "), path).replace("\u0001 ", "`"), part)
        elif not part.startswith('"'):
            parts[i] = turn(part, path)
    return "".join(parts)


clash = collections.Counter()
n = 0
for p, t in every.items():
    to = turn_rt(t, p) if p.endswith(".rt") else turn(t, p)
    if to != t:
        with open(p, "w", encoding="utf-8") as f:
            f.write(to)
        n += 1
for where, word, to in TOUCHES:
    for p in sorted(glob.glob(where)):
        t = open(p, encoding="utf-8").read()
        made = re.sub(r"(?<![\w'-])" + re.escape(word) + r"(?![\w'-])", to, t)
        if made != t:
            with open(p, "w", encoding="utf-8") as f:
                f.write(made)
for (p, word, to), k in sorted(clash.items()):
    print("both stand in", p + ":", word, to)
print(len(change), "names and", len(change_fields), "fields, in", n, "files")
