#!/usr/bin/env python3
"""Spells the repository's own definitions and lemmas as today's Rattle does: words in snake case, types, facts and modules in camel case.

Run once, after the kit's port.py, at the top of the repository. It turns names that specs/ and proofs/ declare, and names that a clause's import gives them:
  sumOf becomes sum_of, and bands-lie bands_lie.
Names of src/, exported names, strings, inputs and outputs stay. Two names that would fall together are kept apart: the lemma ends in _lem.

usage: port_names.py [--table]    (--table prints the table and writes nothing)
"""
import collections
import os
import re
import sys

ROOT = os.path.dirname(os.path.dirname(os.path.realpath(__file__)))
WORD = re.compile(r'[^\s(){}.;,@"«»]+')
DECLARED = re.compile(r"^\s*(?:\|\s*)?(?:(?:abbrev|unfoldable|pub|ruleset|record|data)\s+)*([^\s(){}.;,@\"«»:]+)((?:\s+[^\s:=]+|\s+[({][^)}]*[)}])*)\s*:(?:\s|$)")
LOCAL = re.compile(r"[({]((?:[^\s(){}:;,]+\s+)+):\s")
HEADS = re.compile(r"^\s*(?:pub\s+)?(?:data|record|ruleset|(?:abbrev|unfoldable)(?:\s+pub)?)\s+([^\s(){}.;,@\"«»:]+)")
# lemmas that port.py gave the word of a definition, and the files where they stand beside it
BESIDE = {
    "in_reach": ("in_reach_lem", ("crates/words/proofs/Filled.antt", "crates/words/proofs/Promises.antt")),
    "next_start": ("next_start_lem", ("crates/words/proofs/Moving.antt",)),
    "text_at": ("text_at_lem", ("crates/tape/proofs/AfterText.antt",)),
}
# the names of a definition and of a lemma that would fall together: the definition's word, and the lemma's
APART = {"bandAt": "band_at", "band-at": "band_at_lem", "no_line": "no_line", "too_far": "too_far", "tooFar": "too_far", "noLine": "no_line", "inReach": "in_reach", "nextStart": "next_start", "textAt": "text_at"}
GHOST_USE = re.compile(r"ghost\s+use\b[^;]*;")


def texts(kinds):
    for folder, dirs, files in os.walk(os.path.join(ROOT, "crates")):
        dirs[:] = sorted(d for d in dirs if d not in ("out", ".git"))
        for f in sorted(files):
            if f.endswith(kinds):
                yield os.path.join(folder, f)


def read(path):
    with open(path, encoding="utf-8") as f:
        return f.read()


def of_function(path):
    """Whether the file stands in the folder of one function's proof, whose names Rattle makes."""
    return os.path.basename(path) in ("Proof.antt", "Answers.antt", "Invariants.antt") and "/proofs/" in path and not re.search(r"/proofs/[^/]+$", path)


def bare(text):
    return re.sub(r"--[^\n]*", "", text)


def snake(word):
    return re.sub(r"(?<=[a-z0-9ℕℤ])([A-Z])", lambda m: "_" + m[1].lower(), word)


def turned(name):
    if not re.match(r"[a-zℤℕ+≤]", name) or not all(name.split("-")):
        return name
    return snake(name.replace("-", "_"))


def table():
    specs, declared, imported, locals_ = set(), collections.Counter(), set(), set()
    for path in texts((".antt",)):
        text = bare(read(path))
        for m in re.finditer(r"^use (\S+)\.\{([^}]*)\}", text, re.M):
            own = re.match(r"Rattle\.(\w+)\.", m[1] + ".")
            if not own or own[1] == "std" or not os.path.isdir(os.path.join(ROOT, "crates", own[1])):
                imported |= {w.split(" as ")[0].strip() for w in m[2].split(",")}
        mine = set()
        for line in text.splitlines():
            if line.startswith(("use ", "pub use ", "mod ", "pub mod ")):
                continue
            m = DECLARED.match(line)
            if m:
                mine |= {m[1], *(w for w in m[2].split() if not w.startswith(("(", "{")) and re.fullmatch(r"[\w'-]+", w))}
            m = HEADS.match(line)
            if m:
                mine.add(m[1])
        if of_function(path):
            continue
        declared.update(mine)
        if "/specs/" in path:
            specs |= mine
    aliases = set()
    for path in texts((".rt",)):
        for use in GHOST_USE.findall(read(path)):
            aliases |= {b for a, b in re.findall(r"([^\s{},]+) as ([^\s{},;]+)", use)}
    names = (set(declared) | aliases) - {w for w in imported if w not in declared}
    rows = {}
    for name in names:
        new = turned(name)
        if new != name:
            rows[name] = new
    for name in [n for n in rows if n in imported]:
        del rows[name]
    taken = collections.defaultdict(list)
    for name in sorted(names | imported):
        taken[rows.get(name, name)].append(name)
    for new, olds in sorted(taken.items()):
        if len(olds) > 1:
            # a definition of specs/ keeps the word, and each other gets _lem
            keep = next((o for o in olds if o in specs and o not in rows), None) or next((o for o in olds if o in specs), None) or next((o for o in olds if o not in rows), olds[0])
            others = [o for o in olds if o != keep]
            print(f"# {keep} is {new}, and not {others}", file=sys.stderr)
            for n, o in enumerate(others):
                rows[o] = new + "_lem" + ("" if n == 0 else str(n + 1))
    for old, new in APART.items():
        rows[old] = new
    for old in BESIDE:
        rows.pop(old, None)
    return {a: b for a, b in rows.items() if a != b}


def turn(text, rows):
    return WORD.sub(lambda m: rows.get(m[0], m[0]), text)


def antt(text, rows):
    out = []
    for line in text.split("\n"):
        code, dash, comment = line.partition("-- ") if not line.startswith("--") else ("", "--", line[2:])
        camel = {a: b for a, b in rows.items() if "-" not in a}
        comment = WORD.sub(lambda m: camel.get(m[0].rstrip(":'"), m[0].rstrip(":'")) + m[0][len(m[0].rstrip(":'")):], comment)
        comment = re.sub(r"`([^`\n]+)`", lambda m: "`" + turn(m[1], rows) + "`", comment)
        out.append(turn(code, rows) + dash + comment)
    return "\n".join(out)


def rt(text, rows):
    out = []
    for line in text.split("\n"):
        code, slashes, comment = line.partition("//")
        camel = {a: b for a, b in rows.items() if "-" not in a}
        comment = WORD.sub(lambda m: camel.get(m[0].rstrip(":'"), m[0].rstrip(":'")) + m[0][len(m[0].rstrip(":'")):], comment)
        comment = re.sub(r"`([^`\n]+)`", lambda m: "`" + turn(m[1], rows) + "`", comment)
        out.append(turn(code, rows) + slashes + comment)
    return "\n".join(out)


def main():
    rows = table()
    if sys.argv[1:] == ["--table"]:
        for a, b in sorted(rows.items()):
            print(f"{a}\t{b}")
        return
    for path in texts((".antt", ".rt")):
        text = read(path)
        here = dict(rows, **{a: b for a, (b, files) in BESIDE.items() if os.path.relpath(path, ROOT) in files})
        words = set(WORD.findall(text))
        for a, b in here.items():
            if a in words and b in words and b not in here:
                print(f"look: {os.path.relpath(path, ROOT)}: {a} is now {b}, which stood there")
        new = antt(text, here) if path.endswith(".antt") else rt(text, here)
        if new != text:
            with open(path, "w", encoding="utf-8") as f:
                f.write(new)


main()
