#!/usr/bin/env python3
"""Prints the tables of a landing's note (docs/LANDINGS.md) as Markdown: from git, two gate logs and two bench outputs.

    landing.py BEFORE AFTER [--log BEFORE.log AFTER.log] [--bench BEFORE.md AFTER.md]

BEFORE and AFTER are commits of the repository that it is run in.

Lines: those added and removed in specs, src and proofs of each crate that moved, and what share of its proof lines
is new (of the lines after) and gone (of the lines before). As in docs/STATEMENTS.md, part 8, a comment, a use line, a
blank and a file Lib.antt count nothing. A file that only moved counts nothing.

--log: the gate's verdict and whole time, the memory of float's check, and each crate's seconds. A log is what the gate
printed; the last two stand in it when each crate's verdict, from nothing, is written behind it so (Debian's package time):

    /usr/bin/time -v bash .ci/run > gate.log 2>&1
    for name in f32_laws float ..; do
        (cd crates/$name && /usr/bin/time -v rt verdict $name) >> gate.log 2>&1
    done

The whole time is also read from a line `ci: 1020 s`, or from bash's `real 17m0.000s`; a crate's seconds also from a line
`rt: NAME proved (79 s)`, and the memory from `rt check float`, as in logs of an older kit.

--bench: the four main ratios to the crate, by time and by instructions, from the bench's --markdown output, or from a
paper that holds it (docs/SPEED.md); the whole job is that of the longest tape.

A figure that a log or an output does not have is printed as -. Status 1 and a message where a commit, a log's crates
or an output's four rows are missing.
"""
import argparse
import io
import re
import subprocess
import sys
import tarfile
from collections import Counter

PARTS = ('specs', 'src', 'proofs')
ELAPSED = r'^\s*Elapsed \(wall clock\) time .*: ([\d:.]+)$'
IDLE = re.compile(r' *(--|//|use |ghost use |$)')  # a line that counts nothing
RATIOS = {'placement at 64': 'a placement, page of 64', 'content': 'a content question, page of 64',
          'BFC': 'a BFC question, page of 64', 'whole job': 'whole job: pages of 64'}


class Bad(Exception):
    """Why no table can be printed."""


def git(*words):
    """What a git command prints."""
    done = subprocess.run(['git', *words], capture_output=True)
    if done.returncode:
        raise Bad(done.stderr.decode('utf-8', 'replace').strip())
    return done.stdout


def table(head, rows):
    """A Markdown table; all columns but the first are figures."""
    lines = ['| ' + ' | '.join(row) + ' |\n' for row in [head] + rows]
    return ''.join(lines[:1] + ['|---' + '|--:' * (len(head) - 1) + '|\n'] + lines[1:])


# Lines

def part_of(path):
    """The crate and the part that a file's lines count for, or none."""
    found = re.fullmatch(rf"crates/(\w+)/({'|'.join(PARTS)})/(?:.*/)?([^/]+)\.(?:antt|rt)", path)
    return (found[1], found[2]) if found and found[3] != 'Lib' else None


def standing(commit):
    """How many lines each part of each crate has."""
    lines = Counter()
    packed = git('archive', '--format=tar', commit, 'crates')
    with tarfile.open(fileobj=io.BytesIO(packed)) as files:
        for file in files:
            part = file.isfile() and part_of(file.name)
            if part:
                text = files.extractfile(file).read().decode('utf-8', 'replace')
                lines[part] += sum(not IDLE.match(line) for line in text.splitlines())
    return lines


def moved(before, after):
    """How many lines each part of each crate gained, and how many it lost."""
    gained, lost, left, old, new = Counter(), Counter(), [0, 0], None, None
    diff = git('-c', 'core.quotePath=false', 'diff', '--no-color', '--no-ext-diff', '--src-prefix=a/', '--dst-prefix=b/',
               '-M', '-U0', before, after, '--', 'crates')
    for line in diff.decode('utf-8', 'replace').split('\n'):
        if left[0] and line.startswith('-'):
            left[0] -= 1
            lost[old] += not IDLE.match(line[1:])
        elif left[1] and line.startswith('+'):
            left[1] -= 1
            gained[new] += not IDLE.match(line[1:])
        elif line.startswith('--- '):
            old = part_of(line[len('--- a/'):].rstrip('\t'))
        elif line.startswith('+++ '):
            new = part_of(line[len('+++ b/'):].rstrip('\t'))
        elif line.startswith('@@ '):
            sizes = re.match(r'@@ -\d+(?:,(\d+))? \+\d+(?:,(\d+))? @@', line).groups()
            left = [1 if size is None else int(size) for size in sizes]
    return gained, lost


def crates_of(*commits):
    """The crates of the commits in the order of crates.txt, the last commit's first."""
    names = []
    for commit in reversed(commits):
        names += re.findall(r'^(\w+)(?: [^:\n]*)?:', git('show', f'{commit}:crates.txt').decode(), re.M)
    return list(dict.fromkeys(names))


def share(lines, whole):
    """Lines as a share of a whole."""
    return f'{100 * lines / whole:.0f} %' if whole else '-'


def lines_table(before, after):
    """What each crate that moved gained and lost."""
    stood, stands = standing(before), standing(after)
    gained, lost = moved(before, after)
    names = crates_of(before, after)
    rows = []

    def row(name, crates):
        def total(counts, part):
            return sum(counts[crate, part] for crate in crates)
        changes = [(total(gained, part), total(lost, part)) for part in PARTS]
        old, new = total(stood, 'proofs'), total(stands, 'proofs')
        if any(map(any, changes)) or old != new or len(crates) > 1:
            rows.append([name] + [f'+{more:,} -{less:,}' if more or less else '0' for more, less in changes]
                        + [f'{old:,}', f'{new:,}', share(changes[-1][0], new), share(changes[-1][1], old)])

    for name in names:
        row(name, [name])
    row('all', names)
    return table(['Lines', *PARTS, 'proof lines before', 'after', 'new', 'gone'], rows)


# Gate logs

def seconds(clock):
    """The seconds of 1:02:03, 17:03.25, 17m3.250s or 1023."""
    parts = [float(part) for part in re.findall(r'[\d.]+', clock)]
    return sum(part * 60 ** place for place, part in enumerate(reversed(parts)))


def minutes(clock):
    """A time as a note has it."""
    whole = round(seconds(clock))
    return f'{whole // 60} min {whole % 60} s' if whole >= 60 else f'{whole} s'


def timed(log, command):
    """What /usr/bin/time -v said of the last run of a command in the log."""
    blocks = re.split(r'^\s*Command being timed: ', log, flags=re.M)
    return next((block for block in reversed(blocks) if block.startswith(f'"{command}"\n')), '')


def elapsed(block):
    """The whole seconds of a timed command, or none."""
    found = figure(ELAPSED, block)
    return round(seconds(found)) if found else None


def figure(pattern, text):
    """The last figure of this form in a text, or none."""
    found = re.findall(pattern, text, re.M)
    return found[-1] if found else None


def log_figures(name):
    """The figures of a gate log by their names: the gate's own, then each crate's seconds."""
    with open(name, encoding='utf-8', errors='replace') as file:
        log = file.read()
    crates = {}
    for crate, time in re.findall(r'^rt: (\w+) proved(?: \((\d+) s\))?$', log, re.M):
        # rt ci comes first; a later step may prove a crate again
        crates.setdefault(crate, int(time) if time else elapsed(timed(log, f'rt verdict {crate}')))
    if not crates:
        raise Bad(f"{name}: no line 'rt: NAME proved': this is no gate log")
    # rt ci ends in a verdict too: the gate's own stands below its last step
    _, step, end = log.rpartition('\nci: ')
    verdict = figure(r'^(\d+ passed, \d+ failed)$', end if step else '')
    time = figure(ELAPSED, timed(log, 'bash .ci/run')) or figure(r'^ci: (\d+) s$', log) or figure(r'^real\s+([\dm.]+s)$', log)
    memory = figure(r'^\s*Maximum resident set size \(kbytes\): (\d+)$', timed(log, 'rt verdict float') or timed(log, 'rt check float'))
    known = [time for time in crates.values() if time is not None]
    return {'verdict': verdict or '-', 'time': minutes(time) if time else '-',
            'float, memory': f'{int(memory) * 1024 / 1e9:.2f} GB' if memory else '-',
            'all crates': f'{sum(known)} s' if known else '-',
            **{crate: '-' if time is None else f'{time} s' for crate, time in crates.items()}}


def beside(what, before, after):
    """Figures by name, those of before above those of after."""
    names = list(dict.fromkeys([*after, *before]))
    return table([what, *names], [[when] + [said.get(name, '-') for name in names]
                                  for when, said in (('before', before), ('after', after))])


# Bench outputs

def bench_figures(name):
    """The two ratios of each main row of a bench output."""
    with open(name, encoding='utf-8', errors='replace') as file:
        rows = [[cell.strip() for cell in line.strip().strip('|').split('|')] for line in file if line.startswith('|')]
    ratios, columns = {}, []
    for row in rows:
        if 'times' in row:
            columns = [place for place, cell in enumerate(row) if cell == 'times']
        for short, long in RATIOS.items():
            if row[0].startswith(long) and columns and len(row) > columns[-1]:
                ratios[short] = ' / '.join(row[place] for place in columns)
    missing = [long for short, long in RATIOS.items() if short not in ratios]
    if missing:
        raise Bad(f"{name}: no row for {'; '.join(missing)}")
    return ratios


def main(*arguments):
    """Prints the tables and gives the exit status."""
    words = argparse.ArgumentParser(description=__doc__, formatter_class=argparse.RawDescriptionHelpFormatter,
                                    usage='landing.py BEFORE AFTER [--log BEFORE.log AFTER.log] [--bench BEFORE.md AFTER.md]')
    words.add_argument('before', metavar='BEFORE', help='the commit before the landing')
    words.add_argument('after', metavar='AFTER', help='the commit after it')
    words.add_argument('--log', nargs=2, metavar=('BEFORE.log', 'AFTER.log'), help='the gate logs of the two')
    words.add_argument('--bench', nargs=2, metavar=('BEFORE.md', 'AFTER.md'), help="the bench's outputs of the two")
    words = words.parse_args(arguments)
    try:
        tables = [lines_table(words.before, words.after)]
        if words.log:
            tables.append(beside('Gate', *map(log_figures, words.log)))
        if words.bench:
            tables.append(beside('Times the crate: time / instructions', *map(bench_figures, words.bench)))
    except Bad as wrong:
        print(f'landing.py: {wrong}', file=sys.stderr)
        return 1
    except OSError as wrong:
        print(f'landing.py: {wrong.filename}: {wrong.strerror}', file=sys.stderr)
        return 1
    print('\n'.join(tables), end='')
    return 0


if __name__ == '__main__':
    sys.exit(main(*sys.argv[1:]))
