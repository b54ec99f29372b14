#!/usr/bin/env python3
"""Tries the changed definitions of crates/NAME/definitions/*.edit: each says another thing than the
rules do, and must be refused by the table of the marked examples, by the promises over any
sequence of calls, by the theorem that each call is refused exactly when the paper's table says so
(one of the promises, where NAME is `words`), or by a proof of NAME.

The form is that of the edits (tools/edits.py); a line `by: JUDGE` names the judge that must refuse
it. Each judge but the last is asked in a copy of its own, in which the crates below it are types,
definitions and the laws that it stands on, so that nothing else can speak there; below the table they
stand in its own crate. The table refuses a definition when the examples are proved to come out false
with it. What all of these let pass is
held against the proofs of NAME, in a copy of all; with --all every judge is asked about every one.
A definition that is none (a slip of the pen) counts as a failure. The copies stand outside the
repository, and each is checked by `rt check` over what is proved already.

usage: definitions.py [--all] [--markdown FILE] [NAME[/LABEL] ..]   (from the repository's root)
--markdown FILE writes the result there as a table.
"""
import argparse
import contextlib
import functools
import re
import shutil
import sys
import tempfile
from pathlib import Path

from edits import JOBS, ROOT, applied, check, copy_crates, double, facts, first_words, is_proved, is_refused, read_edit, spread, with_edit

TABLE, PROMISES, REFUSALS, PROOF = "the table", "the promises", "the refusals", "a proof"
# where the table is said to come out true, and the crates whose definitions it stands on
EXAMPLES = "proofs/Examples.antt"
MERGED = ("float", "words", "tape")
# law files that are asked first, with those that they stand on: some proof above them takes many minutes to fail
FIRST = {"demands": ("Numbers", "Deep", "Cleared", "Apart")}


def uses_of(text):
    """The paths that a source file imports, each with what stands before it."""
    for head, tree in re.findall(r"^((?:pub )?use )([^;]*);", text, re.M):
        path, brace, inside = tree.partition("{")
        for name in inside.rstrip("} \n").split(",") if brace else [tree]:
            if name.strip():
                yield head, (path if brace else "") + name.strip()


def types_of(text):
    """What a source file declares, without its functions and what a type promises of its values."""
    items = re.findall(r"^(?:#\[derive\([^)]*\)\]\n)?(?:pub )?(?:struct|enum) .*?^}\n", text, re.M | re.S)
    said = re.sub(r"^ *ghost \w+:.*\n", "", "".join(items), flags=re.M)
    uses = [f"{head}{path};\n" for head, path in uses_of(text)
            if re.fullmatch(r"[A-Z]\w*", path.split("::")[-1]) and re.search(rf"\b{path.split('::')[-1]}\b", said)]
    return "// Types alone.\n" + "".join(re.findall(r"^(?:pub )?mod \w+;\n", text, re.M) + uses) + said


def without_functions(crate, kept=()):
    """The crate's types, its definitions, and of its laws those kept."""
    for source in crate.glob("src/*.rt"):
        source.write_text(types_of(source.read_text()))
    laws = {file: (crate / "proofs" / f"{file}.antt").read_text() for file in kept}
    shutil.rmtree(crate / "proofs")
    if laws:
        (crate / "proofs").mkdir()
        laws["Lib"] = "".join(f"pub mod {file}\n" for file in laws)
    for file, text in laws.items():
        (crate / "proofs" / f"{file}.antt").write_text(text)


def cited(crate, files):
    """Those of a crate's law files that these stand on, and these."""
    found, left = set(), list(files)
    while left:
        file = left.pop()
        if file not in found:
            found.add(file)
            left += cites(crate.name, (crate / "proofs" / f"{file}.antt").read_text())
    return sorted(found)


def cites(name, text):
    """The law files of the crate `name` that a text imports."""
    return re.findall(rf"^use Rattle\.{name}\.proofs\.(\w+)", text, re.M)


def in_one(text):
    """A text of specs/ or proofs/ where the types and definitions of MERGED stand in `marked`."""
    for name in MERGED:
        text = text.replace(f"Rattle.{name}.specs.declared.", f"Rattle.marked.specs.declared.{name}.")
        text = text.replace(f"Rattle.{name}.specs.", f"Rattle.marked.specs.{name.title()}")
    return text


def one_module(name):
    """The types of a crate as one module: its files as modules within."""
    folder = ROOT / "crates" / name / "src"

    def within(file):
        text = types_of((folder / file).read_text())
        text = re.sub(r"^((?:pub )?use )crate::", rf"\1crate::{name}::", text, flags=re.M)
        text = re.sub(rf"^((?:pub )?use )({'|'.join(MERGED)})::", r"\1crate::\2::", text, flags=re.M)
        return re.sub(r"^((?:pub )?mod (\w+));\n", lambda found: f"{found[1]} {{\n{within(found[2] + '.rt')}}}\n", text, flags=re.M)

    return f"pub mod {name} {{\n{within('lib.rt')}}}\n"


def merged(name):
    """The files of a crate's definitions that stand in `marked`: none that speaks of demands, which is not there."""
    return [file for file in sorted((ROOT / "crates" / name / "specs").glob("*.antt")) if file.stem != "Lib" and "Rattle.demands." not in file.read_text()]


def copy_table(where):
    """The table, said to come out false, over definitions: types and definitions stand in one crate, so that one check is enough."""
    marked = where / "crates" / "marked"
    for name in ("f32_laws", "marked"):
        shutil.copytree(ROOT / "crates" / name, where / "crates" / name, ignore=shutil.ignore_patterns("must-fail", "out"))
    (where / "crates.txt").write_text("f32_laws:\nmarked: f32_laws\n")
    for file in [*marked.glob("specs/*.antt"), *marked.glob("proofs/*.antt")]:
        file.write_text(in_one(file.read_text()))
    lib = marked / "specs" / "Lib.antt"
    for name in MERGED:
        for file in merged(name):
            (marked / "specs" / f"{name.title()}{file.name}").write_text(in_one(file.read_text()))
            lib.write_text(lib.read_text() + f"pub mod {name.title()}{file.stem}\n")
    root = marked / "src" / "lib.rt"
    root.write_text(root.read_text() + "".join(one_module(name) for name in MERGED))
    table = marked / EXAMPLES
    text, count = re.subn(r"^(pub marked_examples : .*) true$", r"\1 false", table.read_text(), flags=re.M)
    text, imports = re.subn(r"\btrue}", "true, false}", text)
    if (count, imports) != (1, 1):
        raise SystemExit("definitions: the theorem marked_examples has another form")
    table.write_text(text)


def copy_promises(where):
    """The promises over definitions."""
    copy_crates(where)
    for name in ("float", "tape"):
        without_functions(where / "crates" / name)
    words = where / "crates" / "words"
    without_functions(words, cited(words, ["Promises"]))


def copy_refusals(where):
    """The refusals over definitions, and over the laws of demands that they cite."""
    copy_crates(where)
    for name in ("float", "tape", "words"):
        without_functions(where / "crates" / name)
    laws = [file for path in (where / "crates" / "refusals" / "proofs").glob("*.antt") for file in cites("demands", path.read_text())]
    demands = where / "crates" / "demands"
    without_functions(demands, cited(demands, laws))


COPIES = {TABLE: copy_table, PROMISES: copy_promises, REFUSALS: copy_refusals, PROOF: copy_crates}


class Rooms:
    """The copies of each judge, one for each job."""

    def __init__(self, folder):
        self.folder = Path(folder)

    def of(self, judge, job):
        return self.folder / judge.split()[-1] / str(job)


def tried(where, name, path, asked):
    """What `rt check` says of the crate `asked` with the definition changed."""
    return with_edit(where / "crates" / name, path, lambda: check(where, asked))


def is_below(result):
    """Whether a crate below the one that was asked was refused: it was not built."""
    return "nothing was built" in result[1]


def refused_by_table(where, name, path):
    """The examples come out false; an error elsewhere tells nothing of them."""
    _, now = applied(ROOT / "crates" / name, read_edit(path))
    if not set(now) <= set(merged(name)):
        return ""
    places = {where / "crates" / "marked" / "specs" / f"{name.title()}{file.name}": in_one(text) for file, text in now.items()}
    was = {place: place.read_text() for place in places}
    try:
        for place, text in places.items():
            place.write_text(text)
        result = check(where, "marked")
    finally:
        for place, text in was.items():
            place.write_text(text)
    if is_proved(result):
        return "the examples come out false"
    if is_below(result) or not is_refused(result) or EXAMPLES not in result[1]:
        raise ValueError(f"it is no definition: {first_words(result[1])[:200]}")
    return ""


@contextlib.contextmanager
def laws_alone(crate, files):
    """A crate's law files but these are put aside."""
    if not files:
        yield
        return
    kept = set(cited(crate, files))
    aside = {file: file.read_text() for file in (crate / "proofs").glob("*.antt") if file.stem not in kept}
    try:
        for file in aside:
            file.unlink()
        (crate / "proofs" / "Lib.antt").write_text("".join(f"pub mod {file}\n" for file in sorted(kept)))
        yield
    finally:
        for file, text in aside.items():
            file.write_text(text)


def refused_by_theorems(asked, where, name, path):
    """A proof of the crate `asked` fails, and not for a name that is gone."""
    for files in [*([file] for file in FIRST.get(asked, ())), []]:
        with laws_alone(where / "crates" / asked, files):
            result = tried(where, name, path, asked)
        if is_below(result) and asked != name:
            return ""
        found = facts(result[1]) if is_refused(result) else []
        for place, _, what in found:
            if place.startswith("proofs/"):
                return f"{place}: {what}"
    return ""


@functools.cache
def proved(where, name):
    """The crate is proved without a change, where it is held against its proofs."""
    result = check(where, name)
    if not is_proved(result):
        raise SystemExit(f"definitions: {name} is not proved as it stands: {first_words(result[1])}")


def refused_by_proof(where, name, path):
    """A proof of the crate itself fails."""
    proved(where, name)
    result = tried(where, name, path, name)
    return first_words(result[1]) if is_refused(result) and facts(result[1]) else ""


def theorems(name):
    """The crates that are asked for promises and refusals about NAME."""
    return {PROMISES: "words"} if name == "words" else {PROMISES: "demands", REFUSALS: "refusals"}


def judges(name):
    """Whom to ask about a definition of NAME, in this order."""
    above = [(judge, functools.partial(refused_by_theorems, asked)) for judge, asked in theorems(name).items()]
    return [(TABLE, refused_by_table), *above, (PROOF, refused_by_proof)]


def judged(rooms, job, name, path, ask_all):
    """Who refuses the definition, and in which words; the judge that it names is asked first."""
    named = re.search(r"^by: (.*)$", path.read_text(), re.M)
    named = named.group(1) if named else ""
    by = {}
    for judge, ask in sorted(judges(name), key=lambda pair: pair[0] != named):
        if not by or ask_all:
            words = ask(rooms.of(judge, job), name, path)
            if words:
                by[judge] = words
    if named and named not in by:
        raise ValueError(f"{named} must refuse it")
    return by


def made(rooms, edits, jobs):
    """Makes the copies of those judges that may be asked, and looks whether they say what they should of what stands."""
    asked = {TABLE: "marked", **{judge: crate for name, _ in edits for judge, crate in theorems(name).items()}}
    for judge, copy in COPIES.items():
        if judge in asked or judge == PROOF:
            copy(rooms.of(judge, 1))
    for judge, crate in sorted({(judge, crate) for name, _ in edits for judge, crate in {TABLE: "marked", **theorems(name)}.items()}):
        result = check(rooms.of(judge, 1), crate, JOBS)
        if judge == TABLE and (not is_refused(result) or is_below(result) or EXAMPLES not in result[1]):
            raise SystemExit(f"definitions: the marked examples do not come out true as they stand: {first_words(result[1])}")
        if judge != TABLE and not is_proved(result):
            raise SystemExit(f"definitions: {crate} is not proved as it stands, over definitions: {first_words(result[1])}")
    for judge in [*asked, PROOF]:
        double(rooms.of(judge, 1), [rooms.of(judge, job) for job in range(2, jobs + 1)])


def main():
    words = argparse.ArgumentParser(description="Tries the changed definitions.")
    words.add_argument("--all", action="store_true")
    words.add_argument("--markdown", type=Path)
    words.add_argument("labels", nargs="*")
    words = words.parse_args()
    edits = [(path.parts[-3], path) for path in sorted(ROOT.glob("crates/*/definitions/*.edit"))
             if not words.labels or {path.parts[-3], f"{path.parts[-3]}/{path.stem}"} & set(words.labels)]
    with tempfile.TemporaryDirectory(prefix="bulameki-definitions-") as folder:
        rows = ask_all(Rooms(folder), edits, words.all)
    failed = [label for label, _, by in rows if not by]
    if words.markdown:
        head = "| Definition | What it says | Refused by |\n|---|---|---|\n"
        words.markdown.write_text(head + "".join("| " + " | ".join(row) + " |\n" for row in rows))
    print(f"definitions: {len(rows) - len(failed)} refused, {len(failed)} not{': ' + ' '.join(failed) if failed else ''}")
    return 1 if failed or not rows else 0


def ask_all(rooms, edits, every):
    """Who refuses each: its name, what it says, and its judges."""
    jobs = min(JOBS, len(edits))
    if edits:
        made(rooms, edits, jobs)

    def tell(job, edit):
        name, path = edit
        label, by = f"{name}/{path.stem}", {}
        try:
            by = judged(rooms, job, name, path, every)
            told = "refused by " + " and ".join(by) if by else "NOT REFUSED"
        except ValueError as why:
            told = f"BAD EDIT: {why}"
        print(f"definition {label}: {told}", flush=True)
        return label, path.read_text().splitlines()[0], " and ".join(by)

    return spread(edits, jobs, tell)


if __name__ == "__main__":
    sys.exit(main())
