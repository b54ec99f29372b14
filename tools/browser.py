#!/usr/bin/env python3
"""Lays out random pages in a real browser and by ./place, and says on how many of them all boxes stand alike.

    browser.py [--pages N] [--seed S] [--browser PROGRAM]
    browser.py [--browser PROGRAM] FILE     the pages of a file, in the text of tape.py: boxes, and new between pages

It needs Chromium (Debian's package chromium) and what ./place needs; it is no part of the gate. Chromium counts
lengths in 64ths of a pixel, and so do the pages: nothing rounds on either side. A page is 100 wide and has 2 to 7
boxes. In the browser it is a block of its own formatting context. Each box is a float, alone in a block with the
containing insets as its margins; a block of the right height before that brings it down to the box's min_y, so min_y
never falls from box to box. On the tape the same numbers are a record's fields. All pages of a kind go through one
start of the browser, and through as few tapes as hold them.

It prints a table (Markdown): of each kind of pages how many agree whole, and the first that does not, shrunk: boxes
left out and numbers made simpler as long as it stays of its kind and some box stands elsewhere. It is in the text of
tape.py, with the place of its last box. The same seed gives the same pages. Status 1 where a page of positive sizes
without insets differs, clear or not, or something does not run. Of a FILE it prints each page with the place of its last
box.
"""
import argparse
import html
import json
import os
import random
import re
import shutil
import struct
import subprocess
import sys
import tempfile
from collections import namedtuple
from pathlib import Path

sys.dont_write_bytecode = True
import tape

ROOT = Path(__file__).resolve().parent.parent
WIDTH = 100 * 64  # of every page; all lengths are in 64ths of a pixel
SIDES, CLEARS = tape.CODES['side'], tape.CODES['clear']

NEW, PLACE = (next(kind for kind in tape.KINDS if kind.answer[0] == letter) for letter in 'NP')

Box = namedtuple('Box', 'side clear width height min_y left right')

# The kinds of pages: what is said of each, and which of the three freedoms its boxes have.
Kind = namedtuple('Kind', 'said empty clear insets')
KINDS = (Kind('positive sizes, no insets, no clear', False, False, False),
         Kind('with boxes of no width or no height', True, False, False),
         Kind('with clear', False, True, False),
         Kind('with containing insets', False, False, True))

SCRIPT = '''document.body.textContent = JSON.stringify([...document.querySelectorAll('section')].map(
    page => [...page.querySelectorAll('i')].map(box => [box.getBoundingClientRect().x, box.getBoundingClientRect().y])))'''
STYLE = f'body {{ margin: 0 }} section {{ position: absolute; top: 0; left: 0; width: {WIDTH / 64}px }}'


class Bad(Exception):
    """Why the pages can't be compared."""


def pixels(length):
    """A length as an exact decimal of pixels."""
    return f'{length / 64:.6f}'.rstrip('0').rstrip('.')


# Random pages

def random_page(chance, kind):
    """A page of a kind, on a grid of 1/64, 1 or 10 pixels, so that edges often meet."""
    grid = chance.choice((1, 64, 640))
    page, min_y = [], 0

    def length(least, most):
        return chance.randint(-(-least // grid), most * 64 // grid) * grid

    for _ in range(chance.randint(2, 7)):
        width, height = length(1, chance.choice((40, 70, 70, 110))), length(1, 40)
        none = chance.randrange(8) if kind.empty else None
        min_y += length(0, 20) if chance.randrange(3) == 0 else 0
        page.append(Box(chance.choice(SIDES), chance.choice(CLEARS) if kind.clear and chance.randrange(2) else 'none',
                        0 if none in (0, 1) else width, 0 if none in (1, 2) else height, min_y,
                        *(length(0, 30) if kind.insets and chance.randrange(2) else 0 for _ in range(2))))
    return page


def is_of(kind, page):
    """Whether a page is of a kind, and can be laid out as above."""
    return all((kind.empty or box.width and box.height) and (kind.clear or box.clear == 'none')
               and (kind.insets or not (box.left or box.right)) and box.left + box.right <= WIDTH for box in page) and \
        all(above.min_y <= below.min_y for above, below in zip(page, page[1:]))


def read_pages(name):
    """The pages of a file."""
    pages = [[]]
    try:
        made = tape.make(Path(name).read_text())
    except tape.BadLines as wrong:
        raise Bad('\n'.join(f'{name}:{row}: {what}' for row, what in wrong.args[0])) from None
    for _, kind, body in tape.records(made):
        if kind == tape.KINDS.index(NEW):
            pages.append([])
        elif kind == tape.KINDS.index(PLACE) and body['side'] < len(SIDES) and body['clear'] < len(CLEARS):
            numbers = [struct.unpack('<f', struct.pack('<I', body[field]))[0] * 64 for field in PLACE.body[2:]]
            if not all(0 <= number <= 65536 * 64 and number == int(number) for number in numbers):
                raise Bad(f'{name}: {tape.spelled(kind, body)}: a number is no whole number of 64ths from 0 to 65,536')
            pages[-1].append(Box(SIDES[body['side']], CLEARS[body['clear']], *map(int, numbers)))
        else:
            raise Bad(f'{name}: a page has boxes alone')
    pages = [page for page in pages if page]
    for page in pages:
        if not is_of(Kind('any', True, True, True), page):
            raise Bad(f'{name}: min_y falls, or two insets are wider than the page')
    return pages


# In the browser

def block(page):
    """The page as HTML."""
    said, at = ['<section>'], 0
    for box in page:
        said.append(f'<div style="height:{pixels(box.min_y - at)}px"></div>'
                    f'<div style="margin:0 {pixels(box.right)}px 0 {pixels(box.left)}px"><i style="float:{box.side};'
                    f'clear:{box.clear};width:{pixels(box.width)}px;height:{pixels(box.height)}px"></i></div>')
        at = box.min_y
    return ''.join(said) + '</section>\n'


def in_browser(browser, pages):
    """Where the browser puts the boxes of each page."""
    with tempfile.TemporaryDirectory() as folder:
        file = Path(folder, 'pages.html')
        file.write_text(f'<!DOCTYPE html><style>{STYLE}</style><body>\n{"".join(map(block, pages))}<script>{SCRIPT}</script>')
        words = [browser, '--headless', '--disable-gpu', '--force-device-scale-factor=1', f'--user-data-dir={folder}/profile',
                 *(['--no-sandbox'] if os.geteuid() == 0 else []), '--dump-dom', file.as_uri()]
        done = subprocess.run(words, capture_output=True, text=True, timeout=600)
    found = re.search(r'<body>(\[.*\])\s*</body>', done.stdout, re.S)
    if not found:
        raise Bad(f'{browser} gave no positions: {(done.stdout + done.stderr)[-500:]}')
    places = [[(x * 64, y * 64) for x, y in page] for page in json.loads(html.unescape(found[1]))]
    if [len(page) for page in places] != [len(page) for page in pages]:
        raise Bad(f'{browser} gave other pages than it was given')
    return places


# By the program

def lines(page):
    """The boxes of a page as the tape's text."""
    return [f'{box.side} {pixels(box.width)}x{pixels(box.height)} at {pixels(box.min_y)} '
            f'insets {pixels(box.left)} {pixels(box.right)} clear {box.clear}' for box in page]


def by_place(pages):
    """Where the program puts the boxes of each page."""
    tapes = [b'']
    for page in pages:
        made = tape.make('\n'.join(['new', f'width {pixels(WIDTH)}', *lines(page)]))
        if len(tapes[-1] + made) > tape.LONGEST:
            tapes.append(b'')
        tapes[-1] += made
    answers = ''
    for one in tapes:
        done = subprocess.run([ROOT / 'place'], input=one, capture_output=True, timeout=1800)
        if done.returncode:
            raise Bad(done.stderr.decode('utf-8', 'replace').strip())
        answers += done.stdout.decode()
    places = []
    for line in answers.splitlines():
        if line == 'N':
            places.append([])
        elif line != 'W':
            if not line.startswith('P '):
                raise Bad(f"the program answers '{line}' to a page inside all limits")
            places[-1].append(tuple(struct.unpack('>f', bytes.fromhex(bits))[0] * 64 for bits in line.split()[1:3]))
    return places


def both(browser, pages):
    """Each page with where browser and program put its boxes."""
    return list(zip(pages, in_browser(browser, pages), by_place(pages)))


# Shrinking

def effort(page):
    """How much a reader has to take in: boxes, then how odd their numbers are, then how large."""
    numbers = [number for box in page for number in box[2:]]
    odd = sum(0 if number == 0 else 1 if number % 640 == 0 else 2 if number % 64 == 0 else 3 for number in numbers)
    return len(page), odd + sum(box.clear != 'none' for box in page), sum(numbers)


def simpler(kind, page):
    """The pages of its kind that are one step simpler: a box, a clear, a gap or a part of a number less."""
    steps = [page[:at] + page[at + 1:] for at in range(len(page))]
    for at, box in enumerate(page):
        gap = box.min_y - (page[at - 1].min_y if at else 0)
        steps.append(page[:at] + [below._replace(min_y=below.min_y - gap) for below in page[at:]])
        others = [box._replace(clear='none')]
        for field in Box._fields[2:]:
            old = getattr(box, field)
            new = {0, 64, 320, 640, old // 2, old - 640, old - 64}
            new |= {(old // grid + more) * grid for grid in (64, 320, 640) for more in (0, 1)}
            others += [box._replace(**{field: number}) for number in sorted(new) if number >= 0]
        steps += [page[:at] + [other] + page[at + 1:] for other in others]
    return sorted((step for step in steps if step and effort(step) < effort(page) and is_of(kind, step)), key=effort)


def shrunk(browser, kind, row):
    """The simplest differing page that single steps lead to, with its places."""
    while True:
        steps = simpler(kind, row[0])
        less = next((step for step in both(browser, steps) if step[1] != step[2]), None) if steps else None
        if less is None:
            return row
        row = less


def shown(row):
    """A page as the tape's text, and where its last box, the one that differs where it is shrunk, stands there and here."""
    page, there, here = row
    texts = tape.text(tape.make('\n'.join(lines(page)))).splitlines()
    return [', '.join(f'`{text}`' for text in texts), *(f'({pixels(x)}, {pixels(y)})' for x, y in (there[-1], here[-1]))]


def browser_of(name):
    """The browser's path and its name with the version."""
    path = shutil.which(name)
    if not path:
        raise Bad(f"{name} is not on the path (Debian's package chromium)")
    said = subprocess.run([path, '--version'], capture_output=True, text=True, timeout=60).stdout
    found = re.match(r'.*?[\d.]+', said)
    if not found:
        raise Bad(f'{path} does not say its version')
    return path, found[0]


def compare_file(browser, name):
    """Prints the pages of a file, each with the place of its last box."""
    rows = both(browser, read_pages(name))
    print('| Page | Browser | Here |\n|---|---|---|')
    for row in rows:
        print('| ' + ' | '.join(shown(row)) + ' |')
    return 0


def compare_random(browser, pages, seed):
    """Prints how many random pages of each kind agree; gives 1 where one differs that should not."""
    print('| Pages | Agree whole | First that differs, shrunk | Browser | Here |\n|---|--:|---|---|---|', flush=True)
    status = 0
    for kind in KINDS:
        chance = random.Random(f'{seed} {kind.said}')
        rows = both(browser, [random_page(chance, kind) for _ in range(pages)])
        others = [row for row in rows if row[1] != row[2]]
        example = shown(shrunk(browser, kind, others[0])) if others else [''] * 3
        print('| ' + ' | '.join([kind.said, f'{len(rows) - len(others):,}', *example]) + ' |', flush=True)
        status |= bool(others) and not (kind.empty or kind.insets)
    return status


def main():
    """Runs the comparison and gives the exit status."""
    words = argparse.ArgumentParser(description=__doc__, formatter_class=argparse.RawDescriptionHelpFormatter,
                                    usage='browser.py [--pages N] [--seed S] [--browser PROGRAM] [FILE]')
    words.add_argument('--pages', type=int, default=1500, metavar='N', help='how many pages of each kind (1,500)')
    words.add_argument('--seed', default='1', metavar='S', help='any word or number (1)')
    words.add_argument('--browser', default='chromium', metavar='PROGRAM', help='the browser (chromium)')
    words.add_argument('file', nargs='?', metavar='FILE', help='pages to lay out instead of random ones')
    words = words.parse_args()
    try:
        browser, version = browser_of(words.browser)
        if words.file:
            print(f'{version}:\n', flush=True)
            return compare_file(browser, words.file)
        print(f'{version}, seed {words.seed}, {words.pages:,} pages of each kind:\n', flush=True)
        return compare_random(browser, words.pages, words.seed)
    except (Bad, OSError, subprocess.TimeoutExpired) as wrong:
        print(f'browser.py: {wrong}', file=sys.stderr)
        return 1


if __name__ == '__main__':
    sys.exit(main())
