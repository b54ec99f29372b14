#!/usr/bin/env python3
"""Tries the edits of crates/NAME/edits/*.edit: the prover must refuse each, for what it says of a fact.

The form is that of rt's must-fail edits: an explaining line, `file: src/x.rt`, `old: text` (which
stands there exactly once) and `new: text`; several pairs may follow. `rt ci` tries must-fail edits
itself, at the gate and at each merge; these are many, and are tried here, each by `rt check` in a
copy of the repository over what is proved already, in seconds. A function is proved from its own code
and the contracts of those that it calls, so edits of several functions of a crate are tried together,
each by what is said against its own function; one against which nothing is said there is tried alone,
over the whole crate. The crate without the edit must be proved first.

Refused is an edit with which a law or an answer no longer fits, or a goal is not proved that is proved
without it. Of such a goal the check may show that it is false, or say only that `search` gave up at one
of its limits, as `rt must-fail` takes it too: that is printed, and shows no more than it says. An edit
that only makes a proof file unfit for the code ("has no field", "is not in scope"), that cannot be read,
or with which the check comes to no verdict shows nothing and counts as a failure.

usage: edits.py [NAME[/LABEL] ..]   (from the repository's root; no name: every crate that has edits)
RT_JOBS says how many are tried at once: as many as there are processors, at most 4, if left out.
"""
import concurrent.futures
import itertools
import os
import queue
import re
import shutil
import signal
import subprocess
import sys
import tempfile
from pathlib import Path

ROOT = Path(__file__).resolve().parent.parent
# the seconds that a check may take: one that takes longer says nothing
LIMIT = 600
JOBS = int(os.environ.get("RT_JOBS") or min(4, len(os.sched_getaffinity(0))))
# how many edits are tried together, at most
TOGETHER = 8
# a line that says what is refused, and where
TOLD = re.compile(r"(?P<note>note: )?(?:\./)?(?P<where>(?:src|specs|proofs)/\S+?)(?::(?P<line>\d+):\d+)?: (?P<error>error: )?(?P<what>.*)")
# what only follows from another refusal
FOLLOWS = re.compile(r"declarations? that depends? on .* not checked|was not admitted")
# what is no more than a remark on how an answer is written: it is made without an edit too
REMARK = re.compile(r"is rattle's own name, not the source's|^note: ")
# what only says that a name is gone
GONE = re.compile(r"has no field|has no `|is not in scope|is no name|exports no `")
# what antt says of a text that it cannot read
UNREAD = re.compile(r"is not in scope|has no field|is no name|operand is missing|expected the end|cannot continue")


def read_edit(path):
    """The replacements of an edit: a list of (file, old, new)."""
    where, old, pairs = None, None, []
    for line in path.read_text().splitlines():
        if line.startswith("file: "):
            where = line[6:]
        elif line.startswith("old: "):
            old = line[5:]
        elif line.startswith("new:"):
            new = line[4:]
            pairs.append((where, old, new[1:] if new.startswith(" ") else new))
    if not pairs:
        raise ValueError("it has no 'old:' and 'new:' pair")
    return pairs


def applied(crate, pairs):
    """The changed files of a crate's folder, and what they were."""
    was, now = {}, {}
    for file, old, new in pairs:
        target = crate / file
        if target not in was:
            was[target] = now[target] = target.read_text()
        if not old or now[target].count(old) != 1:
            raise ValueError(f"the 'old:' text stands {now[target].count(old) if old else 0} times in {file}")
        now[target] = now[target].replace(old, new)
    if now == was:
        raise ValueError("it changes nothing")
    return was, now


def with_pairs(crate, pairs, call):
    """What a call gives with replacements made in a crate's folder, which is put back."""
    was, now = applied(crate, pairs)
    try:
        for target, text in now.items():
            target.write_text(text)
        return call()
    finally:
        for target, text in was.items():
            target.write_text(text)


def with_edit(crate, path, call):
    """What a call gives with an edit applied to a crate's folder, which is put back."""
    return with_pairs(crate, read_edit(path), call)


def link_or_copy(one, other):
    """What was proved or built gets a second name: rt replaces such a file, and never writes into it."""
    if str(one).endswith(".oantt") or "/out/rlib/" in str(one):
        try:
            return os.link(one, other)
        except OSError:
            pass
    return shutil.copy2(one, other)


def copy_crates(where):
    """The repository's crates in a folder of their own, with what was proved of them here."""
    left_out = shutil.ignore_patterns("edits", "definitions", "must-fail", "rt-work-*")
    shutil.copytree(ROOT / "crates", where / "crates", ignore=left_out, copy_function=link_or_copy)
    shutil.copy(ROOT / "crates.txt", where / "crates.txt")


def check(where, name, jobs=1, only=()):
    """The status and the words of `rt check` of a crate there, or of some functions of it."""
    words = ["rt", "check", "--jobs", str(jobs), *[word for path in only for word in ("--only", path)]]
    with subprocess.Popen(words, cwd=where / "crates" / name, stdin=subprocess.DEVNULL, stdout=subprocess.PIPE, stderr=subprocess.STDOUT,
                          start_new_session=True) as run:
        try:
            said = run.communicate(timeout=LIMIT)[0]
        except subprocess.TimeoutExpired:
            os.killpg(run.pid, signal.SIGKILL)
            return 124, f"rt: the check of {name} took longer than {LIMIT} s, and shows nothing"
    return run.returncode, said.decode("utf-8", "replace")


def verdict(said):
    """The last line that says how much is proved."""
    return ([line for line in said.splitlines() if line.startswith(("logic=", "only="))] or [""])[-1]


def is_proved(result):
    return result[0] == 0 and verdict(result[1]).startswith("logic=proved ")


def is_refused(result):
    """Whether the prover read all and refused something."""
    last = verdict(result[1])
    some = re.fullmatch(r"only=(\d+) proved=(\d+)", last)
    return result[0] == 1 and (last == "logic=not-proved" or some is not None and int(some[2]) < int(some[1]))


def told(said, notes=True):
    """What is refused and does not follow from another, without remarks, each with its file and line: errors, and with `notes` what is not proved."""
    found, lines = [], said.splitlines()
    for at, line in enumerate(lines):
        one = TOLD.match(line)
        if one and (one["error"] or notes and one["note"]) and not FOLLOWS.search(one["what"]) and not REMARK.search(one["what"]):
            rest = [more.strip() for more in itertools.takewhile(lambda more: more.startswith("  "), lines[at + 1:])]
            found.append((one["where"], int(one["line"] or 0), " ".join([one["what"]] + rest[:4])))
    return found


def facts(said):
    """What says more than that a name is gone."""
    return [one for one in told(said) if not GONE.search(one[2])]


def unread(said, files):
    """An error that shows that one of these files, or the code, or a definition, could not be read."""
    for where, _, what in told(said, notes=False):
        named = re.match(r"`[^`]*`: (.*)", what)
        if (where in files or where.startswith(("src/", "specs/"))) and (not named or UNREAD.search(re.sub(r"`[^`]*`", "", named[1]))):
            return f"{where}: {what}"
    return ""


def first_words(said):
    """The first thing that was said against the crate."""
    found = facts(said) or told(said)
    if found:
        return f"{found[0][0]}: {found[0][2]}"
    lines = [line for line in said.splitlines() if re.search(r"error|: not proved|rt: ", line)]
    return (lines or said.splitlines()[-1:] or ["nothing was said"])[0]


def function_at(file, text, at):
    """The function of a source file in which a place is, by the end of its path, if it is in one."""
    heads = [*re.finditer(r"^( *)(?:pub(?:\(\w+\))? )?(?:extern \"C\" )?fn (\w+)", text[:at], re.M)]
    if not heads:
        return None
    indent, name = heads[-1].groups()
    if re.search(rf"^{indent}}}\n", text[heads[-1].start():at], re.M):
        return None
    owner = re.findall(r"^impl\b[^{]*?(\w+)(?:<[^{]*>)? *{", text[:at], re.M)[-1] if indent else Path(file).stem
    return name if owner == "lib" else f"{owner}::{name}"


def functions(crate, pairs):
    """The functions that an edit of code changes; none where it changes something else."""
    now, found = {}, []
    for file, old, new in pairs:
        if re.match("proofs/.*/", file):
            continue  # what a function's proof says of it goes along
        text = now.setdefault(file, (crate / file).read_text())
        at = text.find(old)
        name = function_at(file, text, at + len(old)) if file.endswith(".rt") and at >= 0 else None
        if name is None:
            return []
        found.append(name)
        now[file] = text.replace(old, new)
    return list(dict.fromkeys(found))


def grouped(crate, paths):
    """The edits of a crate in groups that are tried together, each edit with the one function that it changes, if it is one."""
    groups = []
    for path in paths:
        only = functions(crate, read_edit(path))
        one = only[0] if len(only) == 1 else None
        for group in groups:
            if one and None not in group.values() and one not in group.values() and len(group) < TOGETHER:
                try:
                    applied(crate, [pair for other in [*group, path] for pair in read_edit(other)])
                except ValueError:
                    continue
                group[path] = one
                break
        else:
            groups.append({path: one})
    return groups


def judged(result, files):
    """Whether a check refused a fact of a crate with an edit in these files, and what to say."""
    status, said = result
    if is_proved(result):
        return False, "NOT REFUSED: the crate is still proved with this edit"
    bad = unread(said, files)
    if bad:
        return False, f"BAD EDIT: it cannot be read: {bad}"
    if not is_refused(result):
        return False, f"BAD EDIT: it did not reach the prover (status {status}): {first_words(said)}"
    if not facts(said):
        return False, f"SHOWS NOTHING: {first_words(said)}"
    return True, f"refused: {first_words(said)}"


def try_edit(where, name, path):
    """Whether the edit is refused for what is said of a fact, and what to say of it."""
    try:
        files = {file for file, _, _ in read_edit(path)}
        return judged(with_edit(where / "crates" / name, path, lambda: check(where, name)), files)
    except (ValueError, OSError) as why:
        return False, f"BAD EDIT: {why}"


def try_together(where, name, group):
    """What is said against the functions of edits that are tried together, by their edits."""
    crate = where / "crates" / name
    pairs = [pair for path in group for pair in read_edit(path)]

    def ask():
        status, said = check(where, name, only=group.values())
        if not is_refused((status, said)) or unread(said, {file for file, _, _ in pairs}):
            return []
        return [(is_of(crate, one), one) for one in facts(said)]

    found = {function: f"{place}: {what}" for function, (place, _, what) in reversed(with_pairs(crate, pairs, ask))}
    return {path: f"refused: {found[function]}" for path, function in group.items() if function in found}


def is_of(crate, one):
    """The function that something was said against: by the folder of its proof, or by its line."""
    place, line, _ = one
    if place.startswith("proofs/"):
        return "::".join(place.split("/")[1:-1][-2:])
    text = (crate / place).read_text()
    lines = text.splitlines(keepends=True)
    return function_at(place, text, sum(map(len, lines[:line])) - 1)


def spread(items, jobs, one):
    """one(job, item) of each item in order, so many at a time; no two with the same job, counted from 1, run at once."""
    free = queue.SimpleQueue()
    for job in range(1, jobs + 1):
        free.put(job)

    def run(item):
        job = free.get()
        try:
            return one(job, item)
        finally:
            free.put(job)

    with concurrent.futures.ThreadPoolExecutor(max(jobs, 1)) as pool:
        return list(pool.map(run, items))


def double(first, others):
    """Copies a folder of crates with what was proved there."""
    for other in others:
        shutil.copytree(first, other, copy_function=link_or_copy)


def main():
    wanted = sys.argv[1:]
    edits = [path for path in sorted(ROOT.glob("crates/*/edits/*.edit"))
             if not wanted or {path.parts[-3], f"{path.parts[-3]}/{path.stem}"} & set(wanted)]
    names = sorted({path.parts[-3] for path in edits})
    groups = [(name, group) for name in names for group in grouped(ROOT / "crates" / name, [path for path in edits if path.parts[-3] == name])]
    jobs = min(JOBS, len(groups))
    failed = []

    def tried(job, item):
        name, group = item
        room = rooms[job - 1]
        found = try_together(room, name, group) if None not in group.values() else {}
        for path in group:
            good, words = (True, found[path]) if path in found else try_edit(room, name, path)
            print(f"edit {name}/{path.stem}: {words[:240]}", flush=True)
            if not good:
                failed.append(f"{name}/{path.stem}")

    with tempfile.TemporaryDirectory(prefix="bulameki-edits-") as folder:
        rooms = [Path(folder) / str(job) for job in range(1, jobs + 1)]
        if edits:
            copy_crates(rooms[0])
            for name in names:
                result = check(rooms[0], name, JOBS)
                if not is_proved(result):
                    raise SystemExit(f"edits: {name} is not proved without an edit: {first_words(result[1])}")
            double(rooms[0], rooms[1:])
        spread(groups, jobs, tried)
    print(f"edits: {len(edits) - len(failed)} refused, {len(failed)} not{': ' + ' '.join(sorted(failed)) if failed else ''}")
    return 1 if failed or not edits else 0


if __name__ == "__main__":
    sys.exit(main())
