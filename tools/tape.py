#!/usr/bin/env python3
"""Tapes of calls, and words to be set around their boxes, as readable text; and their answer lines in words.

    tape.py make IN.txt OUT.tape            text to tape
    tape.py text IN.tape                    tape to text, on standard output
    tape.py show IN.tape [LINES]            each record beside its answer line, floats as decimals
    tape.py words make IN.txt OUT.words     the same for words
    tape.py words text IN.words
    tape.py words show IN.words [LINES]     the words of each line, and where it stands

IN, OUT and LINES may be - for standard input or output (IN and LINES not both); without LINES, show takes -.
A bad line is named on standard error as FILE:LINE: what is wrong. The status is then 1 and nothing is written.
Lines end in a line feed, with or without a carriage return before it; a mark of UTF-8 at the start is passed over.

The text of a tape has one record a line; # begins a comment. What stands in brackets may be left out, in any order.

    new                                        a fresh page, no calculator
    width N                                    the page's width
    SIDE WxH [at Y] [insets L R] [clear C]     a box; Y is its min_y
    content  [at Y] [insets L R] [clear C] [after BAND]
    bfc      [at Y] [insets L R] [margins L R] [DIRECTION] [clear C] [after BAND]
    calc definite N | calc min | calc max      a calculator (calc min N stores a number that nothing reads)
    add SIDE N [clear C]                       a box's width for the calculator
    result                                     the calculator's result
    bytes 09 00 FF                             bytes as they are: an unknown kind, a cut body

SIDE is left or right; C none, left, right or both; DIRECTION ltr or rtl. side=7, clear=9 (for the whole of
"clear C"), direction=5 and mode=4 (for "definite") put any byte there. What is left out is 0, clear none, ltr,
after none. A number is a decimal, of which the nearest f32 is stored, or -0, inf, -inf, nan, or the bits of the
f32 as 0x and eight hex digits.

The text of words is one for the whole file. Its parts stand in any order, several on a line or one, comments as above:

    words 10 12.5 8        the widths of words; where it comes again, further ones
    line H                 the height of a line
    [gap N]                the gap between two words
    [at Y]                 no line is higher than this min_y
    [insets L R]           how far the text's container stands inside the page's edges
    bytes 03 00 FF         bytes as they are, in lines of their own without any part: a text that is not whole

What is left out is 0, and without words there are none; the height of a line must be there.
"""
import re
import struct
import sys
from collections import namedtuple
from fractions import Fraction
from functools import lru_cache

LONGEST = 65536  # bytes; a longer tape is answered by the one line L
NONE = 65535  # "after" on the tape when there is none
SIGN, INFINITY, QUIET_NAN = 0x80000000, 0x7F800000, 0x7FC00000  # bits of f32
NUMBER = r'0x[0-9A-Fa-f]{8}|nan|-?inf|-?(?:[0-9]+(?:\.[0-9]*)?|\.[0-9]+)(?:[eE][-+]?[0-9]{1,3})?'

# The words of each code; a word's place is its number.
CODES = {'side': ('left', 'right'), 'clear': ('none', 'left', 'right', 'both'), 'direction': ('ltr', 'rtl'),
         'mode': ('definite', 'min', 'max')}

# A part of a line that fills several fields, or one of another name.
PARTS = {'size': ('width', 'height'), 'at': ('min_y',), 'insets': ('left inset', 'right inset'),
         'margins': ('left margin', 'right margin'), 'line': ('line height',)}

# A kind of record: the fields of its body in the tape's order; its text, as a first word, the parts that follow in
# this order and the parts that may follow in any; its answer line, as a letter and fields.
Kind = namedtuple('Kind', 'body word fixed free answer')
KINDS = (
    Kind((), 'new', (), (), ('N',)),
    Kind(('width',), 'width', ('width',), (), ('W',)),
    Kind(('side', 'clear', 'width', 'height', 'min_y', 'left inset', 'right inset'),
         '', ('side', 'size'), ('at', 'insets', 'clear'), ('P', 'x', 'y', 'steps')),
    Kind(('min_y', 'left inset', 'right inset', 'clear', 'after'),
         'content', (), ('at', 'insets', 'clear', 'after'), ('C', 'band', 'x', 'y', 'width')),
    Kind(('min_y', 'left inset', 'right inset', 'left margin', 'right margin', 'direction', 'clear', 'after'),
         'bfc', (), ('at', 'insets', 'margins', 'direction', 'clear', 'after'),
         ('B', 'band', 'x', 'y', 'border', 'stretch')),
    Kind(('mode', 'number'), 'calc', ('mode',), ('number',), ('S',)),
    Kind(('width', 'side', 'clear'), 'add', ('side', 'width'), ('clear',), ('A',)),
    Kind((), 'result', (), (), ('I', 'width')),
)
STOP, LONG = len(KINDS), len(KINDS) + 1  # in place of a kind, at an unknown kind or cut body, and for a long tape

# What stands behind the widths of words, in this order; and the parts of their text beside words.
FIGURES = ('gap', 'line height', 'min_y', 'left inset', 'right inset')
WORD_PARTS = ('gap', 'line', 'at', 'insets')
MOST_WORDS = 65535  # that a text's count can say

MEANINGS = {'N': 'fresh page', 'W': 'width set', 'S': 'calculator started', 'A': 'added',
            STOP: 'stopped, unknown kind or cut body', LONG: 'over 65,536 bytes'}
REFUSALS = {1: 'unknown code', 2: 'NaN or infinite', 3: 'outside its limits', 4: 'width set after a box',
            5: '64 boxes stand', 6: 'beyond 131,072', 7: 'more than 96 bands', 8: 'no calculator started',
            9: 'more than 512 words', 10: 'line height zero'}
OF_RECORDS, OF_WORDS = (1, 2, 3, 4, 5, 6, 7, 8), (2, 3, 6, 9, 10)


class Bad(Exception):
    """What is wrong with one line, or with a file."""


class BadLines(Exception):
    """The bad lines of a file: a list of line number and what is wrong."""


def quoted(word):
    """A word in quotes for a message: at most 40 of its characters, and none that does not show."""
    shown = ''.join(c if c.isprintable() else f'\\x{ord(c):02x}' for c in word[:40])
    return f"'{shown}'" + (f' .. ({len(word)} characters)' if len(word) > 40 else '')


# Numbers

def nearest(value):
    """The bits of the f32 nearest to a Fraction of at least 0, ties to even; infinity's where it lies beyond all."""
    if value == 0:
        return 0
    exponent = value.numerator.bit_length() - value.denominator.bit_length()
    if Fraction(2) ** exponent > value:
        exponent -= 1
    exponent = max(exponent, -126)
    # A mantissa rounded up to 2^24, or a subnormal one up to 2^23, carries into the exponent as it should.
    return min(((exponent + 126) << 23) + round(value / Fraction(2) ** (exponent - 23)), INFINITY)


def of_decimal(size):
    """The bits of the f32 nearest to an unsigned decimal."""
    double = float(size)
    if double == 0:
        return 0
    # Rounding twice is rounding once, unless the f64 lies midway between two f32.
    if 2.0 ** -126 <= double < 2.0 ** 127 and struct.unpack('<Q', struct.pack('<d', double))[0] & 0x1FFFFFFF != 1 << 28:
        return struct.unpack('<I', struct.pack('<f', double))[0]
    return nearest(Fraction(size))


def number(word):
    """The f32 bits of a number's text."""
    if len(word) > 200 or not re.fullmatch(NUMBER, word):
        raise Bad(f'{quoted(word)} is not a number')
    if word.startswith('0x'):
        return int(word, 16)
    if word == 'nan':
        return QUIET_NAN
    minus, size = (SIGN, word[1:]) if word.startswith('-') else (0, word)
    bits = INFINITY if size == 'inf' else of_decimal(size)
    if bits == INFINITY and size != 'inf':
        raise Bad(f'{quoted(word)} is beyond the largest f32')
    return minus | bits


def decimal(bits):
    """The shortest decimal with these f32 bits, or the bits themselves for a NaN with a payload."""
    minus, size = '-' if bits & SIGN else '', bits & ~SIGN
    if size > INFINITY:
        return 'nan' if bits == QUIET_NAN else f'0x{bits:08X}'
    if size in (0, INFINITY):
        return minus + ('inf' if size else '0')
    value, = struct.unpack('<f', struct.pack('<I', size))
    # Decimals of up to six digits have each a normal f32 of its own, so one that has these bits is the shortest.
    if size >= 1 << 23 and of_decimal(f'{value:.5e}') == size:
        return minus + repr(float(f'{value:.5e}')).removesuffix('.0')
    # The f32 below a power of two is nearer than the one above: there the nearest decimal of so many digits may
    # round to another f32 while its neighbour does not.
    beside = (0,) if size & 0x7FFFFF else (0, 1, -1)
    for digits in range(0 if size < 1 << 23 or len(beside) > 1 else 6, 9):  # one and up to eight more always do
        mantissa, exponent = f'{value:.{digits}e}'.split('e')
        for step in beside:
            short = f"{int(mantissa.replace('.', '')) + step}e{int(exponent) - digits}"
            if of_decimal(short) == size:
                return minus + repr(float(short)).removesuffix('.0')


# Text to tape

def whole(word, most, what):
    """A whole number from 0 to most."""
    if not re.fullmatch('[0-9]{1,5}', word) or int(word) > most:
        raise Bad(f'{quoted(word)} is not {what} from 0 to {most}')
    return int(word)


@lru_cache(1 << 16)
def value_of(word, field):
    """The number that a word stores in a field."""
    if field == 'after':
        return NONE if word == 'none' else whole(word, NONE, 'a band number')
    if field not in CODES:
        return number(word)
    if word.startswith(field + '='):
        return whole(word[len(field) + 1:], 255, f'a {field} code')
    if word not in CODES[field]:
        raise Bad(f"{quoted(word)} is not a {field}: {', '.join(CODES[field])}, or {field}= and a number")
    return CODES[field].index(word)


def fill(part, words, fields):
    """Takes one part of a line from its words into its fields."""
    names = PARTS.get(part, (part,))
    if part == 'size' and words:
        both = re.fullmatch(f'({NUMBER})x({NUMBER})', words[0])
        if not both:
            raise Bad(f'{quoted(words[0])} is not a size such as 10x30')
        words[:1] = both.groups()
    for name in names:
        if not words:
            raise Bad(f'the {part if part == "size" else name} is missing')
        fields[name] = value_of(words.pop(0), name)


def part_of(word, parts):
    """Which of the parts that may follow begins with a word."""
    for part in parts:
        if part == 'number' and re.fullmatch(NUMBER, word) or part == 'direction' and word in CODES[part]:
            return part
        if part in CODES and word.startswith(part + '=') or part == word and part not in ('direction', 'number'):
            return part
    raise Bad(f'{quoted(word)} does not belong here')


def plain(field):
    """What a field holds when its part is left out."""
    return NONE if field == 'after' else 0


@lru_cache
def layout(kind):
    """The struct format of a kind's body; floats as their bits, so that no NaN changes."""
    return '<' + ''.join('B' if name in CODES else 'H' if name == 'after' else 'I' for name in KINDS[kind].body)


def words_in(line):
    """The words of a line, its comment left out."""
    return line.split('#')[0].split()


def as_they_are(words):
    """The bytes that follow the word bytes."""
    if len(words) == 1 or not all(re.fullmatch('[0-9A-Fa-f]{2}', word) for word in words[1:]):
        raise Bad('bytes is followed by pairs of hex digits')
    return bytes.fromhex(''.join(words[1:]))


def take_part(words, parts, seen):
    """Takes the name of the next part from a line, and gives it; each part comes once."""
    part = part_of(words[0], parts)
    if part in seen:
        raise Bad(f'{quoted(words[0])} is a second {part}')
    seen.add(part)
    if words[0] == part:
        words.pop(0)
    return part


@lru_cache(1 << 16)
def record(line):
    """The bytes of one line; none for an empty one."""
    words = words_in(line)
    if not words:
        return b''
    if words[0] == 'bytes':
        return as_they_are(words)
    first = '' if words[0] in CODES['side'] or words[0].startswith('side=') else words.pop(0)
    kind = next((kind for kind, rules in enumerate(KINDS) if rules.word == first), None)
    if kind is None:
        raise Bad(f'{quoted(first)} is not a record')
    fields, seen = {}, set()
    for part in KINDS[kind].fixed:
        fill(part, words, fields)
    if fields.get('mode') == CODES['mode'].index('definite'):
        fill('number', words, fields)
        seen.add('number')
    while words:
        fill(take_part(words, KINDS[kind].free, seen), words, fields)
    return bytes([kind]) + struct.pack(layout(kind), *(fields.get(name, plain(name)) for name in KINDS[kind].body))


def each_line(source, take):
    """What take makes of each line of a text. Raises BadLines."""
    made, bad = [], []
    for row, line in enumerate(source.split('\n'), 1):
        try:
            made.append(take(line))
        except Bad as wrong:
            bad.append((row, str(wrong)))
    if bad:
        raise BadLines(bad)
    return made


def make(source):
    """The tape of a text. Raises BadLines."""
    return b''.join(each_line(source, record))


# Tape to text

def records(tape):
    """Each record's offset, kind and fields; at an unknown kind or a cut body STOP and all bytes from there."""
    at = 0
    while at < len(tape):
        kind = tape[at]
        length = struct.calcsize(layout(kind)) if kind < len(KINDS) else len(tape)
        if at + 1 + length > len(tape):
            yield at, STOP, tape[at:]
            return
        yield at, kind, dict(zip(KINDS[kind].body, struct.unpack_from(layout(kind), tape, at + 1)))
        at += 1 + length


@lru_cache(1 << 16)
def word_of(value, field):
    """The word that stores a number in a field."""
    if field in CODES:
        return CODES[field][value] if value < len(CODES[field]) else f'{field}={value}'
    return str(value) if field == 'after' else decimal(value)


def raw(data):
    """Bytes as text."""
    return 'bytes ' + data.hex(' ').upper()


def spelled(kind, fields):
    """One record as text, without the parts that may be left out."""
    said = [KINDS[kind].word] if KINDS[kind].word else []
    for part in KINDS[kind].fixed:
        said.append('x'.join(word_of(fields[name], name) for name in PARTS.get(part, (part,))))
    for part in KINDS[kind].free:
        names = PARTS.get(part, (part,))
        if all(fields[name] == plain(name) for name in names) and fields.get('mode') != 0:
            continue
        words = [word_of(fields[name], name) for name in names]
        bare = part in ('direction', 'number') or words[0].startswith(part + '=')
        said += words if bare else [part] + words
    return ' '.join(said)


def raw_lines(data):
    """Bytes as lines of text."""
    return [raw(data[at:at + 32]) for at in range(0, len(data), 32)]


def text(tape):
    """The text of a tape: make gives the same bytes back, whatever they are."""
    lines = []
    for _, kind, body in records(tape):
        lines += raw_lines(body) if kind == STOP else [spelled(kind, body)]
    return ''.join(line + '\n' for line in lines)


# Words

def take_parts(words, widths, fields, seen):
    """Takes the parts of one line."""
    while words:
        if words[0] != 'words':
            fill(take_part(words, WORD_PARTS, seen), words, fields)
            continue
        seen.add(words.pop(0))
        while words and re.fullmatch(NUMBER, words[0]):
            widths.append(value_of(words.pop(0), 'width'))
        if len(widths) > MOST_WORDS:
            raise Bad(f'more than {MOST_WORDS} words')


def make_words(source):
    """The bytes of a text of words. Raises BadLines."""
    widths, fields, seen, given = [], {}, set(), bytearray()

    def take(line):
        words = words_in(line)
        as_bytes = words[:1] == ['bytes']
        if words and (seen if as_bytes else given):
            raise Bad('bytes do not stand beside parts')
        if as_bytes:
            given.extend(as_they_are(words))
        else:
            take_parts(words, widths, fields, seen)

    rows = len(each_line(source, take))
    if given:
        return bytes(given)
    if 'line' not in seen:
        raise BadLines([(rows, 'the line height is missing')])
    numbers = widths + [fields.get(name, 0) for name in FIGURES]
    return struct.pack(f'<H{len(numbers)}I', len(widths), *numbers)


def figures(data):
    """The widths of a text, and its figures by their names; None where it is not as long as its count says."""
    count = int.from_bytes(data[:2], 'little')
    if len(data) != 2 + 4 * (count + len(FIGURES)):
        return None
    numbers = struct.unpack_from(f'<{count + len(FIGURES)}I', data, 2)
    return numbers[:count], dict(zip(FIGURES, numbers[count:]))


def text_words(data):
    """The readable text of words: make_words gives the same bytes back, whatever they are, if there are any."""
    read_as = figures(data)
    if read_as is None:
        return ''.join(line + '\n' for line in raw_lines(data))
    widths, fields = read_as
    lines = ['words ' + ' '.join(map(decimal, widths[at:at + 12])) for at in range(0, len(widths), 12)]
    parts = ((part, PARTS.get(part, (part,))) for part in WORD_PARTS)
    said = [' '.join([part] + [decimal(fields[name]) for name in names])
            for part, names in parts if part == 'line' or any(fields[name] for name in names)]
    return ''.join(line + '\n' for line in lines + [' '.join(said)])


# Answers

def refusal(line, numbers):
    """In words, the line of a refusal with one of these numbers; None where it is no such line."""
    refused = re.fullmatch('R ([0-9]{1,2})', line)
    return 'refused, ' + REFUSALS[int(refused[1])] if refused and int(refused[1]) in numbers else None


def answer_lines(answers):
    """The answer lines, without what ends them. Raises BadLines."""
    lines = [line.removesuffix('\r') for line in answers.split('\n')]
    if lines.pop():
        raise BadLines([(len(lines) + 1, 'no line feed ends the line')])
    return lines


def in_columns(rows):
    """Rows of four, each but the last as wide as the widest; the first to the right."""
    wide = [max((len(row[column]) for row in rows), default=0) for column in range(3)]
    return ''.join(f'{at:>{wide[0]}}  {what:{wide[1]}}  {line:{wide[2]}}  {said}\n' for at, what, line, said in rows)


def meaning(line, kind, at):
    """In words, the answer line of the record of this kind at this offset."""
    if kind in (STOP, LONG):
        if line != (f'T {at}' if kind == STOP else 'L'):
            raise Bad(f"{quoted(line)} where the tape {'stops at byte %d' % at if kind == STOP else 'is too long'}")
        return MEANINGS[kind]
    refused = refusal(line, OF_RECORDS)
    if refused:
        return refused
    letter, *names = KINDS[kind].answer
    shapes = {'band': '(-|[0-9]+)', 'steps': '([0-9]+)'}
    values = re.fullmatch(' '.join([letter] + [shapes.get(name, '([0-9A-F]{8})') for name in names]), line)
    if not values:
        raise Bad(f'{quoted(line)} is no answer to a record of kind {kind}')
    said = [f'{name} {value if name in shapes else decimal(int(value, 16))}'
            for name, value in zip(names, values.groups())]
    return MEANINGS.get(letter) or ', '.join(said).replace('band -', 'no band')


def show(tape, answers):
    """Each record's offset and text, and its answer line in letters and in words. Raises BadLines."""
    lines = answer_lines(answers)
    parts = list(records(tape)) if len(tape) <= LONGEST else [(0, LONG, tape)]
    rows, bad = [], []
    for row, ((at, kind, body), line) in enumerate(zip(parts, lines), 1):
        try:
            said = meaning(line, kind, at)
            what = spelled(kind, body) if kind < STOP else raw(body[:4]) + ' ..' * (len(body) > 4)
            rows.append((str(at), what, line if line[0] in 'RT' else line[0], said))
        except Bad as wrong:
            bad.append((row, str(wrong)))
    if len(lines) != len(parts):
        bad.append((min(len(lines), len(parts)) + 1, f'{len(lines)} lines for {len(parts)} records'))
    if bad:
        raise BadLines(bad)
    return in_columns(rows)


def said_alone(line, is_whole):
    """In words, a line that stands alone where no words were set; None where it is no such line."""
    if line == 'L':
        return 'the tape is ' + MEANINGS[LONG]
    stopped = re.fullmatch('T ([0-9]{1,5})', line)
    if line == 'T 0' and not is_whole:
        return 'not as long as its count says'
    if stopped:
        return f'the tape stopped at byte {stopped[1]}'
    return refusal(line, OF_WORDS) if is_whole else None


def some_widths(widths):
    """Widths as text, as many as have some room on a line."""
    said = ''
    for width in map(decimal, widths):
        if len(said) + len(width) > 60:
            return said + ' ..'
        said += ' ' * bool(said) + width
    return said


def show_words(data, answers):
    """Each line's first word, the widths of its words, and where it stands. Raises BadLines."""
    lines, read_as = answer_lines(answers), figures(data)
    what = some_widths(read_as[0]) if read_as else raw(data[:4]) + ' ..' * (len(data) > 4)
    alone = said_alone(lines[0], read_as is not None) if len(lines) == 1 else None
    if alone:
        return in_columns([('0', what, lines[0], alone)])
    if read_as is None:
        raise BadLines([(1, 'the words are not as long as their count says, and no line T 0 stands alone')])
    widths, at, rows = read_as[0], 0, []
    for row, line in enumerate(lines, 1):
        values = re.fullmatch('L ([0-9A-F]{8}) ([0-9A-F]{8}) ([0-9]{1,3}) ([0-9]{1,3})', line)
        if not values or int(values[3]) != at or not 1 <= int(values[4]) <= len(widths) - at:
            raise BadLines([(row, f'{quoted(line)} is no line that begins with word {at} of {len(widths)}')])
        x, y = (decimal(int(bits, 16)) for bits in values.groups()[:2])
        after = at + int(values[4])
        said = f'words {at} to {after - 1}' if after - at > 1 else f'word {at}'
        rows.append((str(at), some_widths(widths[at:after]), 'L', f'x {x}, y {y}, {said}'))
        at = after
    if at != len(widths):
        raise BadLines([(len(lines) + 1, f'{at} of {len(widths)} words stand on a line')])
    return in_columns(rows)


# The command

def read(name):
    """All bytes of a file."""
    try:
        with open(0 if name == '-' else name, 'rb', closefd=name != '-') as file:
            return file.read()
    except OSError as wrong:
        raise Bad(f"{'standard input' if name == '-' else name}: {wrong.strerror}")


def write(name, data):
    """Writes a file whole."""
    try:
        with open(1 if name == '-' else name, 'wb', closefd=name != '-') as file:
            file.write(data)
    except OSError as wrong:
        raise Bad(f"{'standard output' if name == '-' else name}: {wrong.strerror}")


def lines_of(data):
    """A file's bytes as text, without the mark of UTF-8 that some editors put first. Raises BadLines."""
    if data.startswith((b'\xFF\xFE', b'\xFE\xFF')):
        raise BadLines([(1, 'the file is UTF-16: save it as UTF-8')])
    return data.removeprefix(b'\xEF\xBB\xBF').decode('ascii', 'replace')


def main(command='', *names):
    """Runs one command and gives its exit status."""
    of_words = command == 'words' and bool(names)
    if of_words:
        command, *names = names
    if command == 'show' and len(names) == 1:
        names = (names[0], '-')
    if (command, len(names)) not in (('make', 2), ('text', 1), ('show', 2)) or (command, *names) == ('show', '-', '-'):
        print(__doc__, end='', file=sys.stderr)
        return 2
    lines = names[1] if command == 'show' else names[0]
    try:
        data = read(names[0])
        if command == 'make':
            made = (make_words if of_words else make)(lines_of(data))
            write(names[1], made)
            if not of_words and len(made) > LONGEST:
                print(f'tape.py: {names[1]}: {len(made)} bytes; over {LONGEST} no record is run, the answer is L',
                      file=sys.stderr)
        elif command == 'text':
            write('-', (text_words if of_words else text)(data).encode())
        else:
            write('-', (show_words if of_words else show)(data, lines_of(read(lines))).encode())
    except BadLines as wrong:
        for row, what in wrong.args[0]:
            print(f'{lines}:{row}: {what}', file=sys.stderr)
        return 1
    except Bad as wrong:
        print(f'tape.py: {wrong}', file=sys.stderr)
        return 1
    return 0


if __name__ == '__main__':
    sys.exit(main(*sys.argv[1:]))
