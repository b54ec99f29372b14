#!/usr/bin/env python3
"""A judge of the judges: changes the archive in one place at a time, and lists what the host's tapes let pass.

    judges.py [--instructions N] [--seed N] [--only PATTERN] [--list]

Run by hand and before a landing, not in the gate. It needs crates/panel/out/libpanel.a, taffy's float.rs and objdump. The
constants of the archive are changed all: each number that is compared with or moved, each float and each word of a table,
one more and one less by its bits. Of its instructions a sample of N (300) is changed: a condition turned round or made
strict, a sum made a difference, the larger made the smaller, what is added, shifted or masked one more or less, a store or
a call left out. The tapes are those of host/src/bin/mutants.rs. A change that is let pass may be one that no tape can show
(a place that is never read, a test that another one covers): each is printed with its instruction, to be read. Zeros put
into fresh places are not changed.
"""
import argparse
import random
import re
import subprocess
import sys
import tempfile
from collections import Counter, namedtuple
from pathlib import Path

ROOT = Path(__file__).resolve().parent.parent
ARCHIVE = ROOT / 'crates/panel/out/libpanel.a'
CROSS = 'x86_64-linux-gnu-'

Instruction = namedtuple('Instruction', 'function at data text')
Change = namedtuple('Change', 'at data where what')


def run(*words, **more):
    """What a command prints."""
    return subprocess.run(words, check=True, text=True, stdout=subprocess.PIPE, cwd=ROOT, **more).stdout


def tool(name):
    """A binutils program that reads x86-64."""
    native = run('uname', '-m').strip() == 'x86_64'
    return name if native else CROSS + name


def build():
    """Builds the host's program, and gives its path."""
    run('host/x86-host.sh', 'build', '--release', '--offline', '--locked', '--bin', 'mutants')
    return max(ROOT.glob('target/host/**/release/mutants'), key=lambda path: path.stat().st_mtime)


def functions():
    """The names of the archive's functions."""
    return {line.split(maxsplit=2)[2] for line in run(tool('nm'), ARCHIVE).splitlines() if re.search(' [tT] ', line)}


def tables():
    """The size of each function's tables."""
    found = re.findall(r'\.rodata\.(\S+) +([0-9a-f]{8})', run(tool('objdump'), '-h', '-w', ARCHIVE))
    return {name: int(size, 16) for name, size in found if not name.startswith('cst')}


def instructions(program, names):
    """The instructions of these functions in the program."""
    found, function = [], None
    for line in run(tool('objdump'), '-d', '-w', program).splitlines():
        head = re.fullmatch(r'[0-9a-f]+ <(.*)>:', line)
        if head:
            function = head[1] if head[1] in names else None
        elif function and line.count('\t') >= 2:
            at, data, text = line.split('\t', 2)
            found.append(Instruction(function, int(at.strip(' :'), 16), bytes.fromhex(data), text.strip()))
    return found


def is_fresh(one):
    """Whether an instruction puts a zero into a fresh place: it is written again before it is read."""
    return re.match(r'mov\w* +\$0x0,.*\)$', one.text)


def is_constant(one):
    """Whether an instruction's number is compared with or moved."""
    return one.text.startswith(('cmp', 'mov'))


def number_changes(one):
    """An instruction's own number, one more and one less; not the size of its frame."""
    held = re.match(r'\w+ +\$(0x[0-9a-f]+)', one.text)
    if not held or one.text.endswith('%rsp'):
        return
    value = int(held[1], 16)
    for size in (8, 4, 2, 1):
        stored = int.from_bytes(one.data[-size:], 'little')
        if len(one.data) > size and stored == value % (1 << 8 * size):
            for more in (1, -1):
                new = ((stored + more) % (1 << 8 * size)).to_bytes(size, 'little')
                yield Change(one.at + len(one.data) - size, new, one, f'{held[1]} {more:+d}')
            return


def offset_changes(one):
    """What a lea adds, one more and one less."""
    held = re.match(r'lea +(-?0x[0-9a-f]+)\((?!%rsp|%rip)', one.text)
    if not held:
        return
    for size in (4, 1):
        if one.data[-size:] == (int(held[1], 16) % (1 << 8 * size)).to_bytes(size, 'little'):
            for more in (1, -1):
                new = ((int(held[1], 16) + more) % (1 << 8 * size)).to_bytes(size, 'little')
                yield Change(one.at + len(one.data) - size, new, one, f'{held[1]} {more:+d}')
            return


def stored_changes(program, ones, sizes):
    """Each float of the constants and each word of the tables, one more and one less by its bits."""
    widths = {'ss': 4, 'sd': 8, 'ps': 16, 'pd': 16, 'dqa': 16, 'dqu': 16, 'aps': 16}
    words, starts = {}, {}
    for one in ones:
        target = re.search(r'# ([0-9a-f]+) <', one.text)
        if not target or one.text.startswith(('call', 'jmp')):
            continue
        at = int(target[1], 16)
        if one.text.startswith('lea'):
            starts.setdefault(one.function, {})[at] = one
            continue
        name = one.text.split()[0]
        width = next((width for end, width in widths.items() if name.endswith(end)), 16 if name.startswith('p') else 4)
        words.update({at + lane: one for lane in range(0, width, 4)})
    for function, places in starts.items():
        first = min(places)
        for at in range(first, first + sizes.get(function, 0), 4):
            words[at] = places[max(start for start in places if start <= at)]
    loaded = sections(program)
    for at, one in sorted(words.items()):
        old = int.from_bytes(loaded(at, 4), 'little')
        for more in (1, -1):
            yield Change(at, ((old + more) % (1 << 32)).to_bytes(4, 'little'), one, f'stored 0x{old:08X} {more:+d}')


def sections(program):
    """A reader of the program's bytes by address."""
    places = [(int(size, 16), int(at, 16), int(offset, 16)) for size, at, offset in re.findall(
        r'^ +\d+ \S+ +([0-9a-f]+) +([0-9a-f]+) +[0-9a-f]+ +([0-9a-f]+) .*CONTENTS', run(tool('objdump'), '-h', '-w', program),
        re.M)]
    data = program.read_bytes()

    def loaded(at, length):
        size, start, offset = next(place for place in places if place[1] <= at < place[1] + place[0])
        return data[offset + at - start:offset + at - start + length]
    return loaded


# The last byte of an opcode to the one that stands for its strict or its loose form.
STRICT = {0x2: 0x6, 0x6: 0x2, 0x3: 0x7, 0x7: 0x3, 0xC: 0xE, 0xE: 0xC, 0xD: 0xF, 0xF: 0xD}
SWAPPED = {0x58: (0x5C, 'a difference'), 0x5C: (0x58, 'a sum'), 0x5D: (0x5F, 'the larger'), 0x5F: (0x5D, 'the smaller')}


def instruction_changes(one):
    """What else can be wrong with an instruction."""
    name, data = one.text.split()[0], one.data
    if re.match(r'j(?!mp)|cmov|set', name):
        place = 1 if data[0] == 0x0F else 0 if 0x70 <= data[0] < 0x80 else data.index(0x0F) + 1
        code = data[place]
        for other, what in ((code ^ 1, 'turned round'), (code & 0xF0 | STRICT.get(code & 0xF, code & 0xF), 'strict or loose')):
            if other != code:
                yield Change(one.at + place, bytes([other]), one, what)
    elif re.fullmatch('(add|sub|max|min)s[sd]', name):
        place = data.index(0x0F) + 1
        other, what = SWAPPED[data[place]]
        yield Change(one.at + place, bytes([other]), one, 'made ' + what)
    elif name.startswith('call') or re.match(r'mov\S* .*,[^,]*\((?!%rsp)[^)]*\)$', one.text):
        yield Change(one.at, b'\x90' * len(data), one, 'left out')


def judged(program, changes):
    """What the host finds of each change."""
    base = next(int(line.split()[0], 16) for line in run(tool('nm'), program).splitlines()
                if line.endswith(' bulameki_run_tape'))
    with tempfile.NamedTemporaryFile('w', suffix='.changes') as file:
        for change in changes:
            file.write(f'{change.at - base:x} {change.data.hex(" ")}\n')
        file.flush()
        emulator = [] if run('uname', '-m').strip() == 'x86_64' else ['qemu-x86_64']
        host = subprocess.Popen([*emulator, program, file.name], text=True, stdout=subprocess.PIPE, cwd=ROOT)
        for number, line in enumerate(host.stdout, 1):
            if sys.stderr.isatty() or number % 100 == 0:
                print(f'judges: {number} of {len(changes)}', end='\r' if sys.stderr.isatty() else '\n', file=sys.stderr)
            yield line.strip()
        if host.wait():
            sys.exit(f'judges: the host ended with {host.returncode}')


def report(what, changes, outcomes, listed):
    """How many of the changes were caught, and each that was not."""
    pairs = list(zip(changes, outcomes))
    passed = [change for change, outcome in pairs if outcome == 'let pass']
    print(f'{what}: {len(pairs)} changed, {len(pairs) - len(passed)} caught, {len(passed)} let pass')
    for outcome, count in Counter(outcome for _, outcome in pairs).most_common():
        print(f'    {count:5}  {outcome}')
    for change, outcome in pairs:
        if listed or outcome == 'let pass':
            one = change.where
            print(f'  {outcome}: {one.function} {one.at:x}: {one.text}: {change.what}')


def main():
    """Changes constants, then instructions."""
    words = argparse.ArgumentParser(description=__doc__.split('\n')[0])
    words.add_argument('--instructions', type=int, default=300, help='how many instructions to change')
    words.add_argument('--seed', type=int, default=1, help='another sample of instructions')
    words.add_argument('--only', default='', help='only instructions that match this pattern, as cmp')
    words.add_argument('--list', action='store_true', help='print every change, caught or not')
    given = words.parse_args()
    program = build()
    ones = [one for one in instructions(program, functions()) if not is_fresh(one) and re.search(given.only, one.text)]
    numbers = [change for one in ones for change in number_changes(one)]
    constants = [change for change in numbers if is_constant(change.where)] + [*stored_changes(program, ones, tables())]
    others = [change for change in numbers if not is_constant(change.where)]
    others += [change for one in ones for changes in (offset_changes, instruction_changes) for change in changes(one)]
    print(f'{len(ones)} instructions, {len(constants)} changes of constants, {len(others)} of instructions', flush=True)
    sample = random.Random(given.seed).sample(others, min(given.instructions, len(others)))
    sample.sort(key=lambda change: change.at)
    outcomes = list(judged(program, constants + sample))
    report('constants', constants, outcomes[:len(constants)], given.list)
    report('instructions', sample, outcomes[len(constants):], given.list)


if __name__ == '__main__':
    main()
