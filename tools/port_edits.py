#!/usr/bin/env python3
"""Turns the edits of crates/NAME/{must-fail,edits,definitions}/*.edit to the text that they quote as it stands today.

Run once, at the top of a checkout of LANDED after the kit's port.py and tools/port_names.py. Each edit is taken as LANDED has it, by git.
What it changes in a file of LANDED is worked out, turned and set into today's file: the declaration round the change is turned word by word,
before and after the change, and turned before it has to be today's declaration. Names are turned as the files themselves were: how is learnt
from all of them. An edit that cannot be turned so is named, and stays as it is.

usage: port_edits.py            turns the edits, and says of each that it cannot turn why
       port_edits.py --check    writes nothing; says which edits quote text that does not stand exactly once where they say
"""
import collections
import difflib
import functools
import re
import subprocess
import sys
from pathlib import Path

ROOT = Path(__file__).resolve().parent.parent
LANDED = "40405c0e8ec5383e5221a20dace6de5f5c94fad2"
KINDS = ("must-fail", "edits", "definitions")

TOKEN = re.compile(r"""\s+|--[^\n]*|"[^"\n]*"|[(){}\[\],;|]|\.(?=[«\w])|«[^»\n]*»|[^\s(){}\[\],;|"«».]+|\.""")
# ends an application: an operator, a separator or a word of the language
ENDS = set("≡ ≢ → × ⊎ ∷ ++ && || + - * / % ^ < ≤ : = := ↦ , ; | $ ∙ in let λ record elim +ℤ -ℤ == ∸ of".split())
OPEN, CLOSE = {"(": ")", "{": "}", "[": "]"}, {")", "}", "]"}


class Bad(Exception):
    """Why an edit cannot be turned."""


@functools.cache
def landed(path):
    """A file of LANDED, or none."""
    done = subprocess.run(["git", "show", f"{LANDED}:{path}"], cwd=ROOT, capture_output=True)
    return done.stdout.decode() if done.returncode == 0 else None


def files(*kinds):
    """The paths of LANDED's files of these kinds."""
    names = subprocess.run(["git", "ls-tree", "-r", "--name-only", LANDED, "crates"], cwd=ROOT, check=True, capture_output=True).stdout.decode()
    return [name for name in names.splitlines() if name.endswith(kinds)]


def edits():
    return [path for path in files(".edit") if path.split("/")[2] in KINDS]


# ---- words

class Word:
    """A token, and whether a space stands before it."""

    def __init__(self, text, space, at=None):
        self.text, self.space, self.at = text, space, at


def words(text, start=0):
    """The tokens of a text without its comments."""
    found, space = [], False
    for m in TOKEN.finditer(text):
        if m[0].isspace() or m[0].startswith("--"):
            space = True
        else:
            found.append(Word(m[0], space, start + m.start()))
            space = False
    return found


def plain(name):
    return name[1:-1] if name.startswith("«") else name


def snake(name):
    """A name as tools/port_names.py spells it."""
    if not re.match(r"[a-zℤℕ+≤]", name) or not all(name.split("-")) or name.startswith("-"):
        return name
    return re.sub(r"(?<=[a-z0-9ℕℤ])([A-Z])", lambda m: "_" + m[1].lower(), name.replace("-", "_"))


def is_import(line):
    return re.match(r"\s*(?:pub )?(?:ghost )?use ", line)


@functools.cache
def spelled(only=None):
    """How the words of a file, or of all, are spelled today: learnt from each file beside what it was."""
    seen = collections.defaultdict(collections.Counter)
    for path in [only] if only else files(".antt"):
        now = ROOT / path
        if not now.exists():
            continue
        old = [w.text for w in turned_shape("\n".join(l for l in landed(path).splitlines() if not is_import(l)))]
        new = [plain(w.text) for w in words("\n".join(l for l in now.read_text().splitlines() if not is_import(l)))]
        for tag, a, b, c, d in difflib.SequenceMatcher(None, [snake(plain(w)) for w in old], new, autojunk=False).get_opcodes():
            if tag == "equal" or (tag == "replace" and b - a == d - c):
                for one, other in zip(old[a:b], new[c:d]):
                    seen[plain(one)][other] += 1
    return {one: others.most_common(1)[0][0] for one, others in seen.items()}


def spell(path, name):
    bare = plain(name)
    if not re.search(r"\w", bare) or bare.isdigit():
        return bare
    return spelled(path).get(bare) or spelled().get(bare) or snake(bare)


# ---- the shape of a term: a projection is written tight

def tree(tokens):
    """The tokens as a list of words, projections ('.', name) and groups (open, list, close)."""
    stack, at = [("", [])], 0
    while at < len(tokens):
        word = tokens[at]
        if word.text == "." and word.space and at + 1 < len(tokens) and not tokens[at + 1].space:
            stack[-1][1].append(("." , tokens[at + 1].text))
            at += 2
            continue
        if word.text in OPEN:
            stack.append((word, []))
        elif word.text in CLOSE:
            if len(stack) > 1 and OPEN[stack[-1][0].text] == word.text:
                begin, inner = stack.pop()
                stack[-1][1].append((begin, inner, word))
            else:
                stack[-1][1].append(word)
        elif word.text == "." and stack[-1][1] and at + 1 < len(tokens) and not tokens[at + 1].space and isinstance(stack[-1][1][-1], Word):
            stack[-1][1][-1] = Word(stack[-1][1][-1].text + "." + tokens[at + 1].text, stack[-1][1][-1].space)
            at += 2
            continue
        else:
            stack[-1][1].append(word)
        at += 1
    while len(stack) > 1:
        begin, inner = stack.pop()
        stack[-1][1].extend([begin, *inner])
    return stack[0][1]


def is_atom(item):
    return isinstance(item, tuple) or (item.text not in ENDS and item.text not in CLOSE and item.text not in OPEN and not item.text.endswith("."))


def shaped(items):
    """The items with each projection beside what it projects from: as tight words and groups."""
    out, begin = [], 0  # where the application at hand begins in out
    for item in items:
        if isinstance(item, tuple) and len(item) == 2:
            run = out[begin:]
            if not run:
                out.append(Word("." + item[1], True))
                continue
            head = run[0] if len(run) == 1 else (Word("(", space_of(run[0])), run, Word(")", False))
            out[begin:] = [(head, item[1], None, "tight")]
            continue
        if isinstance(item, tuple) and len(item) == 3:
            inner = shaped(item[1])
            if item[0].text == "(" and len(inner) == 1 and isinstance(inner[0], tuple) and len(inner[0]) == 4:
                out.append(at_space(inner[0], item[0].space))  # (a .b) is a.b
            elif item[0].text == "(" and len(inner) == 3 and isinstance(inner[0], Word) and inner[0].text == "eqb":
                out.append((item[0], [inner[1], Word("==", True), inner[2]], item[2]))
            else:
                out.append((item[0], inner, item[2]))
        else:
            out.append(item)
        if not is_atom(item):
            begin = len(out)
    return out


def space_of(item):
    while isinstance(item, tuple):
        item = item[0]
    return item.space


def at_space(item, space):
    if isinstance(item, tuple):
        return (at_space(item[0], space), *item[1:])
    return Word(item.text, space)


def flat(items, names):
    """The words of shaped items, spelled as today."""
    out = []
    for item in items:
        if isinstance(item, Word):
            parts = item.text.split(".") if re.fullmatch(r"[^.]+(?:\.[^.]+)+", item.text) else [item.text]
            for n, part in enumerate(parts):
                if n:
                    out.append(Word(".", False))
                out.append(Word(names(part), item.space if n == 0 else False))
        elif len(item) == 4:
            out += flat([item[0]], names) + [Word(".", False), Word(names(item[1]), False)]
        else:
            inner = flat(item[1], names)
            out += [Word(item[0].text, item[0].space), *inner, Word(item[2].text, item[2].space)]
    for n, word in enumerate(out):
        if n and out[n - 1].text in ("(", "["):
            word.space = word.space and out[n - 1].text == "["
        if word.text in (")",):
            word.space = False
    return out


def turned_shape(text, names=lambda word: word):
    return flat(shaped(tree(words(text))), names)


def turned(path, text):
    """The words of a text of LANDED's file of specs/ or proofs/ as they are written today."""
    return turned_shape(text, functools.partial(spell, path))


def said(tokens):
    return "".join((" " if w.space and n else "") + w.text for n, w in enumerate(tokens))


# ---- one change

def paragraph(text, at, end):
    """The span of the declaration round text[at:end]: the lines up to a blank or a comment on both sides."""
    lines, places, place = text.splitlines(keepends=True), [], 0
    for line in lines:
        places.append(place)
        place += len(line)
    first = max(n for n, p in enumerate(places) if p <= at)
    last = max(n for n, p in enumerate(places) if p < max(end, at + 1))

    def ends(line):
        return not line.strip() or line.lstrip().startswith("--") or is_import(line)
    while first > 0 and not ends(lines[first - 1]):
        first -= 1
    while last + 1 < len(lines) and not ends(lines[last + 1]):
        last += 1
    return places[first], places[last] + len(lines[last])


def stands(parts, whole):
    """Where these words stand in a row among the others."""
    texts, head = [w.text for w in whole], [w.text for w in parts]
    return [n for n in range(len(texts) - len(head) + 1) if texts[n] == head[0] and texts[n:n + len(head)] == head]


def changes(before, after):
    """The changed stretches of two rows of words, those that nearly touch as one."""
    found = []
    for tag, a, b, c, d in difflib.SequenceMatcher(None, [w.text for w in before], [w.text for w in after], autojunk=False).get_opcodes():
        if tag == "equal":
            continue
        if found and a - found[-1][1] <= 3:
            found[-1][1], found[-1][3] = b, d
        else:
            found.append([a, b, c, d])
    return found


def quote(text, tokens, first, last, fresh):
    """The pair that puts the words `fresh` in the place of tokens[first:last]: the shortest quote of whole words that stands once."""
    if first == last:  # an insertion: with the word before it
        first -= 1
        fresh = [Word(tokens[first].text, True)] + fresh
    tail = lambda n: tokens[n].at + len(tokens[n].text)
    low, high, left, right = first, last, [], []
    while True:
        old = text[tokens[low].at:tail(high - 1)]
        if "\n" in old:
            return None
        if text.count(old) == 1 and len(old) >= 12 and (tokens[low].space or text[tokens[low].at - 1] in "([{"):
            break
        grow = []
        if high < len(tokens) and "\n" not in text[tokens[low].at:tail(high)]:
            grow.append("right")
        if low > 0 and "\n" not in text[tokens[low - 1].at:tail(high - 1)]:
            grow.append("left")
        if not grow:  # the whole line, and what stands before its first word
            old = text[text.rfind("\n", 0, tokens[low].at) + 1:tail(high - 1)]
            if text.count(old) != 1:
                return None
            indent = old[:len(old) - len(old.lstrip())]
            return old, indent + text[tokens[low].at:tokens[first].at] + said(fresh) + text[tail(last - 1):tail(high - 1)]
        if "left" in grow and (len(left) <= len(right) or "right" not in grow):
            low -= 1
            left.append(low)
        else:
            high += 1
            right.append(high)
    new = said(fresh)
    head, rest = text[tokens[low].at:tokens[first].at], text[tail(last - 1):tail(high - 1)]
    if not new:
        return old, (head.rstrip() + (rest if rest[:1] in ") ," or not head.strip() else " " + rest.lstrip())).strip() if (head + rest).strip() else ""
    return old, head + new + rest


def change(path, before, now, old, new):
    """The pairs that change the text `now` of today's file as `new` for `old` changes LANDED's, `before`."""
    at = before.index(old)
    here = before[before.rfind("\n", 0, at) + 1:at + len(old)].split("\n")[0]
    if is_import(here) or is_import(new):
        return imports(path, before, now, old, new)
    if path.endswith(".rt"):
        if now.count(old) == 1 and not is_old(new) and not is_old(old):
            return [(old, new)]
        raise Bad(f"code: '{old}' stands {now.count(old)} times")
    tokens = words(now)
    bare = [Word(plain(w.text), w.space, w.at) for w in tokens]
    rows = before.rfind("\n", 0, at) + 1, before.find("\n", at + len(old))
    for begin, end in paragraph(before, at, at + len(old)), rows, (at, at + len(old)):
        was, becomes = turned(path, before[begin:end]), turned(path, before[begin:at] + new + before[at + len(old):end])
        places = stands(was, bare)
        if len(places) == 1:
            break
    else:
        raise Bad(f"'{said(was)}' stands {len(places)} times")
    # the quote as it was, turned, where it stands and says the whole change
    short, fresh = said(turned(path, old)), said(turned(path, new))
    whole = now[tokens[places[0]].at:tokens[places[0] + len(was) - 1].at + len(tokens[places[0] + len(was) - 1].text)]
    if short and now.count(short) == 1 and whole.count(short) == 1 and "\n" not in short:
        result = [w.text for w in words(whole.replace(short, fresh))]
        if [plain(w) for w in result] == [w.text for w in becomes]:
            lead = re.match(r"\s*", old)[0] if old[:1] == " " and now.count(re.match(r"\s*", old)[0] + short) == 1 else ""
            return [(lead + short, (lead if fresh else "") + fresh)]
    pairs, text = [], now
    for a, b, c, d in changes(was, becomes):
        pair = quote(now, tokens, places[0] + a, places[0] + b, becomes[c:d])
        if pair is None:
            raise Bad(f"no quote of one line for '{said(was[a:b])}' to '{said(becomes[c:d])}'")
        pairs.append(pair)
        text = text.replace(*pair)
    where = stands(becomes, [Word(plain(w.text), w.space) for w in words(text)])
    if len(where) != 1:
        raise Bad(f"the pairs do not give the turned declaration: {pairs} {said(becomes)}")
    return pairs


def is_old(text):
    """Whether a text of code has a clause or a path of the older spelling."""
    return bool(re.search(r"⌜|λ r\.|Rattle·|ghost use", text)) or bool(re.search(r"\bghost use\b|\bensures\b|\brequires\b", text))


# ---- imports

def imported(text):
    """The names that a text imports, each with its module."""
    return {name.strip(): module for module, names in re.findall(r"^\s*(?:ghost )?use (\S+?)\.\{([^}]*)\}", text, re.M) for name in names.split(",") if name.strip()}


@functools.cache
def modules():
    """Today's module of each imported name."""
    seen = collections.defaultdict(collections.Counter)
    for path in sorted(ROOT.glob("crates/*/*/**/*.antt")):
        for name, module in imported(path.read_text()).items():
            if module.startswith("Rattle."):
                seen[name][module] += 1
    prelude = "Rattle.std.specs.Prelude"
    return {name: prelude if prelude in found else found.most_common(1)[0][0] for name, found in seen.items()}


def word_today(path, name):
    operator = re.fullmatch(r"_(\S+)_", name)
    if operator:
        return f"◌{operator[1]}◌"
    return spell(path, name)


def home(path):
    path = re.sub(r"Rattle·(\w+)·(specs|proofs)\.\2\b", r"Rattle.\1.\2", path)
    return re.sub(r"Rattle·(\w+)\.", r"Rattle.\1.", path)


def imports(path, before, now, old, new):
    """The pairs of a change of imports: what is already there is not brought in again."""
    if old not in before or before.count(old) != 1:
        raise Bad("imports: the quote does not stand once")
    was, becomes = imported(before), imported(before.replace(old, new))
    added = [name for name in becomes if name not in was]
    gone = [name for name in was if name not in becomes]
    here, pairs = imported(now), []
    for name in added:
        word = word_today(path, name)
        if word in here:
            continue
        module = home(becomes[name])
        if not module.startswith("Rattle."):
            module = modules().get(word)
        if module is None:
            raise Bad(f"imports: no file imports {word}")
        leaving = [word_today(path, g) for g in gone if here.get(word_today(path, g)) == module]
        beside = [n for n in here if here[n] == module]
        if leaving:
            pairs.append(in_import(now, module, leaving[0], word))
            gone = [g for g in gone if word_today(path, g) != leaving[0]]
        elif beside:
            pairs.append(in_import(now, module, beside[-1], f"{beside[-1]}, {word}"))
        else:
            line = next(l for l in now.splitlines() if l.startswith("use "))
            pairs.append((line, f"use {module}.{{{word}}}\n{line}"))
            raise Bad(f"imports: no line of {module}: write {pairs[-1]}")
    return pairs


def in_import(now, module, name, becomes):
    """The pair that writes another word for one name of an import."""
    found = re.search(rf"^(\s*(?:ghost )?use {re.escape(module)}\.\{{)([^}}]*)\}}", now, re.M)
    inside = found[2]
    m = re.search(rf"(?<![^\s,]){re.escape(name)}(?=\s*(?:,|$))", inside)
    low, high = found.start(2) + m.start(), found.start(2) + m.end()
    line = (now.rfind("\n", 0, low) + 1, now.find("\n", high))
    left, right = low, high
    if right < line[1] and now[right] in "},":
        right += 1
    while now.count(now[left:right]) != 1 or right - left < 12:
        if left == line[0]:
            if now.count(now[left:right]) == 1:
                break
            raise Bad("imports: no quote stands once")
        left = max(now.rfind(" ", 0, left - 1) + 1, line[0]) if left - 1 > line[0] else line[0]
    return now[left:right], now[left:low] + becomes + now[high:right]


# ---- edits

def read_edit(text):
    """The lines of an edit before its pairs begin, and the pairs: (file, old, new)."""
    where = old = None
    notes, pairs = [], []
    for line in text.splitlines():
        if line.startswith("file: "):
            where = line[6:]
        elif line.startswith("old: "):
            old = line[5:]
        elif line.startswith("new:"):
            pairs.append((where, old, line[5:]))
        else:
            notes.append(line)
    return notes, pairs


def written(notes, pairs):
    lines, where = list(notes), None
    for file, old, new in pairs:
        if file != where:
            lines.append(f"file: {file}")
            where = file
        lines += [f"old: {old}", f"new: {new}" if new else "new:"]
    return "\n".join(lines) + "\n"


def turn(path):
    """An edit's text today."""
    crate = Path(*Path(path).parts[:2])
    notes, pairs = read_edit(landed(path))
    before, now, out = {}, {}, []
    for file, old, new in pairs:
        name = str(crate / file)
        if re.match(r"proofs/.*/(Proof|Invariants|Answers)\.antt$", file):
            raise Bad(f"it quotes a function's proof, {file}")
        if file not in before:
            before[file] = landed(name)
            now[file] = (ROOT / name).read_text()
        for a, b in change(name, before[file], now[file], old, new):
            if now[file].count(a) != 1:
                raise Bad(f"'{a}' stands {now[file].count(a)} times")
            now[file] = now[file].replace(a, b)
            out.append((file, a, b))
        if before[file].count(old) != 1:
            raise Bad(f"'{old}' does not stand once in LANDED")
        before[file] = before[file].replace(old, new)
    return written(notes, out)


def check():
    wrong = 0
    for kind in KINDS:
        for path in sorted(ROOT.glob(f"crates/*/{kind}/*.edit")):
            now = {}
            try:
                for file, old, new in read_edit(path.read_text())[1]:
                    name = path.parent.parent / file
                    if name not in now:
                        now[name] = name.read_text()
                    if now[name].count(old) != 1:
                        raise Bad(f"{file}: '{old}' stands {now[name].count(old)} times")
                    now[name] = now[name].replace(old, new)
                if not now:
                    raise Bad("it has no pair")
            except (Bad, OSError) as why:
                print(f"{path.relative_to(ROOT)}: {why}")
                wrong += 1
    print(f"port_edits: {wrong} edits do not fit")
    return 1 if wrong else 0


def main():
    if sys.argv[1:] == ["--check"]:
        return check()
    if sys.argv[1:]:
        print(__doc__)
        return 2
    done = left = 0
    for path in edits():
        try:
            text = turn(path)
        except Bad as why:
            print(f"left: {path}: {why}")
            left += 1
            continue
        (ROOT / path).write_text(text)
        done += 1
    print(f"port_edits: {done} edits turned, {left} left")
    return 0


if __name__ == "__main__":
    sys.exit(main())
