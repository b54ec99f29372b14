#!/usr/bin/env python3
"""A page drawn as SVG, for looking: the boxes that a tape placed, and the words that were set around them.

    draw.py IN.tape LINES [IN.words LINES]     the drawing, on standard output

The lines are those that ./place prints for the tape, and for the tape and the words. A word is drawn as a rectangle of
its width and its line's height, right of the words and gaps before it. A box of no width or height is not seen.
"""
import struct
import sys
from collections import namedtuple
from fractions import Fraction

sys.dont_write_bytecode = True
import tape

Rect = namedtuple('Rect', 'x y width height')


def value(bits):
    """The number that an f32 holds, from its bits or their eight hex digits."""
    return Fraction(struct.unpack('<f', struct.pack('<I', int(bits, 16) if isinstance(bits, str) else bits))[0])


def page(data, answers):
    """The page after a tape: its width, and a rectangle for each box. Raises BadLines."""
    tape.show(data, answers)
    width, boxes = Fraction(0), []
    for (_, kind, fields), line in zip(tape.records(data), tape.answer_lines(answers)):
        letter, *said = line.split()
        if letter == 'N':
            width, boxes = Fraction(0), []
        elif letter == 'W':
            width = value(fields['width'])
        elif letter == 'P':
            boxes.append(Rect(value(said[0]), value(said[1]), value(fields['width']), value(fields['height'])))
    return width, boxes


def words(data, answers):
    """A rectangle for each word that stands on a line. Raises BadLines."""
    tape.show_words(data, answers)
    widths, fields = tape.figures(data) or ((), {})
    rects = []
    for line in tape.answer_lines(answers):
        letter, *said = line.split()
        if letter != 'L' or not said:
            continue
        x, y, first = value(said[0]), value(said[1]), int(said[2])
        for width in widths[first:first + int(said[3])]:
            rects.append(Rect(x, y, value(width), value(fields['line height'])))
            x += value(width) + value(fields['gap'])
    return rects


def svg(width, boxes, set_words):
    """The drawing: the page, its boxes in gray, the words in blue."""
    every = boxes + set_words
    top = min([Fraction(0)] + [rect.y for rect in every])
    right = max([width] + [rect.x + rect.width for rect in every])
    bottom = max([Fraction(0)] + [rect.y + rect.height for rect in every])

    def drawn(rect, look):
        x, y, wide, high = (f'{float(side):.10g}' for side in rect)
        return f'<rect x="{x}" y="{y}" width="{wide}" height="{high}" {look}/>'

    lines = [f'<svg xmlns="http://www.w3.org/2000/svg" viewBox="-4 {float(top - 4):.10g} {float(right + 8):.10g} '
             f'{float(bottom - top + 8):.10g}">',
             drawn(Rect(Fraction(0), top, width, bottom - top), 'fill="white" stroke="black" stroke-width="0.5"')]
    lines += [drawn(rect, 'fill="silver" stroke="black" stroke-width="0.5"') for rect in boxes]
    lines += [drawn(rect, 'fill="blue" fill-opacity="0.4" stroke="navy" stroke-width="0.25"') for rect in set_words]
    return '\n'.join(lines + ['</svg>', ''])


def main(*names):
    """Draws, and gives the exit status."""
    if len(names) not in (2, 4):
        print(__doc__, end='', file=sys.stderr)
        return 2
    name = names[1]
    try:
        width, boxes = page(tape.read(names[0]), tape.lines_of(tape.read(name)))
        set_words = []
        if len(names) == 4:
            name = names[3]
            set_words = words(tape.read(names[2]), tape.lines_of(tape.read(name)))
        tape.write('-', svg(width, boxes, set_words).encode())
    except tape.BadLines as wrong:
        for row, what in wrong.args[0]:
            print(f'{name}:{row}: {what}', file=sys.stderr)
        return 1
    except tape.Bad as wrong:
        print(f'draw.py: {wrong}', file=sys.stderr)
        return 1
    return 0


if __name__ == '__main__':
    sys.exit(main(*sys.argv[1:]))
