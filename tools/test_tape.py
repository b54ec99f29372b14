#!/usr/bin/env python3
"""Tests of tape.py: bytes to text and back for any bytes, every kind of record and of bad line, numbers, answers.
The same for words, and the drawing of draw.py."""
import math
import random
import struct
import subprocess
import sys
import tempfile
import unittest
from fractions import Fraction
from pathlib import Path

sys.dont_write_bytecode = True
import draw
import tape

HERE = Path(__file__).resolve().parent
EXAMPLES = HERE.parent / 'examples'

# Document 01's tape, written by hand: width 100, a left box 10 by 30 at 0, a content question at 0, then byte 9.
FIRST = bytes.fromhex('01 0000C842'
                      '02 00 00 00002041 0000F041 00000000 00000000 00000000'
                      '03 00000000 00000000 00000000 00 FFFF'
                      '09')
FIRST_LINES = 'W\nP 00000000 00000000 0\nC 1 41200000 00000000 42B40000\nT 44\n'

# Each record in every form that the text has, and its bytes.
RECORDS = (
    ('new', '00'),
    ('width 100', '01 0000C842'),
    ('left 10x30', '02 00 00 00002041 0000F041 00000000 00000000 00000000'),
    ('right 5x20 at 12.5 insets 0 60 clear left', '02 01 01 0000A040 0000A041 00004841 00000000 00007042'),
    ('right 5x20 clear both insets 60 0 at -1', '02 01 03 0000A040 0000A041 000080BF 00007042 00000000'),
    ('side=7 10x30', '02 07 00 00002041 0000F041 00000000 00000000 00000000'),
    ('left 0x7FC00001x-0 clear=9', '02 00 09 0100C07F 00000080 00000000 00000000 00000000'),
    ('left 0x0xFF800000 clear right', '02 00 02 00000000 000080FF 00000000 00000000 00000000'),
    ('left nanx-inf', '02 00 00 0000C07F 000080FF 00000000 00000000 00000000'),
    ('content', '03 00000000 00000000 00000000 00 FFFF'),
    ('content at 56 insets 0 0 clear none after 3', '03 00006042 00000000 00000000 00 0300'),
    ('content insets 1 -2 clear=255 after 258', '03 00000000 0000803F 000000C0 FF 0201'),
    ('content after none', '03 00000000 00000000 00000000 00 FFFF'),
    ('bfc', '04 00000000 00000000 00000000 00000000 00000000 00 00 FFFF'),
    ('bfc at 0 insets 0 0 margins -5 3 rtl clear both after 2',
     '04 00000000 00000000 00000000 0000A0C0 00004040 01 03 0200'),
    ('bfc ltr after 65535', '04 00000000 00000000 00000000 00000000 00000000 00 00 FFFF'),
    ('bfc direction=5 at 1', '04 0000803F 00000000 00000000 00000000 00000000 05 00 FFFF'),
    ('calc definite 100', '05 00 0000C842'),
    ('calc min', '05 01 00000000'),
    ('calc max', '05 02 00000000'),
    ('calc min 5', '05 01 0000A040'),
    ('calc mode=4', '05 04 00000000'),
    ('calc mode=4 inf', '05 04 0000807F'),
    ('add left 10 clear right', '06 00002041 00 02'),
    ('add side=4 10', '06 00002041 04 00'),
    ('result', '07'),
    ('bytes 09 00 ff', '09 00 FF'),
    ('  width   1 # a comment', '01 0000803F'),
    ('# left 10x30', ''),
    ('', ''),
)

# A bad line, and what the message must say.
BAD = (
    ('page', "'page' is not a record"), ('Left 1x1', "'Left' is not a record"), ('new 1', "'1' does not belong"),
    ('width', 'width is missing'), ('width 1 2', "'2' does not belong"), ('width ten', "'ten' is not a number"),
    ('width 1e39', 'beyond the largest f32'), ('width -1e39', 'beyond'), ('width 0x12', 'not a number'),
    ('width 0x123456789', 'not a number'), ('width 1e1000', 'not a number'), ('width ' + '1' * 300, 'not a number'),
    ('width +1', 'not a number'), ('width -', 'not a number'), ('width \u0663', 'not a number'),
    ('left', 'size is missing'), ('left 10', 'not a size'), ('left 10x', 'not a size'), ('left x10', 'not a size'),
    ('left 0x1x1', 'not a size'),
    ('left 10 x 30', 'not a size'), ('left 1x1 at', 'min_y is missing'),
    ('left 1x1 insets 3', 'right inset is missing'),
    ('left 1x1 at 1 at 2', "'at' is a second at"), ('left 1x1 clear left clear=1', 'second clear'),
    ('left 1x1 clear', 'clear is missing'), ('left 1x1 clear top', "'top' is not a clear"),
    ('left 1x1 clear=256', "'256' is not a clear code"), ('left 1x1 clear=', 'not a clear code'),
    ('left 1x1 after 3', "'after' does not belong"), ('left 1x1 rtl', "'rtl' does not belong"),
    ('left 1e39x1', 'beyond'), ('side=256 1x1', 'not a side code'), ('side=-1 1x1', 'not a side code'),
    ('content 5', "'5' does not belong"), ('content after 65536', 'not a band number'),
    ('content after -1', 'not a band number'), ('content margins 1 2', "'margins' does not belong"),
    ('bfc ltr rtl', 'second direction'), ('bfc direction', "'direction' does not belong"),
    ('bfc direction=300', 'not a direction code'), ('bfc margins 1', 'right margin is missing'),
    ('calc', 'mode is missing'), ('calc definite', 'number is missing'), ('calc definite 1 2', 'second number'),
    ('calc min 1 2', 'second number'), ('calc wide', "'wide' is not a mode"), ('calc min number', 'does not belong'),
    ('add', 'side is missing'), ('add left', 'width is missing'), ('add top 3', "'top' is not a side"),
    ('result 1', 'does not belong'), ('bytes', 'pairs of hex'), ('bytes 9', 'pairs of hex'),
    ('bytes 0G', 'pairs of hex'),
)

# Three words, written by hand, their bytes, and their lines beside the box of the first tape, the page being 40 wide.
THREE = 'words 10 12.5 8 gap 4 line 12 at 0 insets 0 0'
THREE_BYTES = bytes.fromhex('0300 00002041 00004841 00000041  00008040 00004041 00000000 00000000 00000000')
THREE_LINES = 'L 41200000 00000000 0 2\nL 41200000 41400000 2 1\n'

# Words in every form that their text has, and their bytes.
WORDS = (
    (THREE, THREE_BYTES.hex()),
    ('line 12 words 10 12.5 8 gap 4', THREE_BYTES.hex()),
    ('# a text\n\nwords 10 # one\nwords 12.5 8\n  gap 4\nline 12\n', THREE_BYTES.hex()),
    ('words 10 gap 4 words 12.5 8 line 12', THREE_BYTES.hex()),
    ('line 12', '0000 00000000 00004041 00000000 00000000 00000000'),
    ('words line 0', '0000 00000000 00000000 00000000 00000000 00000000'),
    ('words -0 nan 0xFF800001 line inf at -1 insets 2 3',
     '0300 00000080 0000C07F 010080FF  00000000 0000807F 000080BF 00000040 00004040'),
    ('bytes 03 00 ff', '03 00 FF'),
    ('bytes 03\n# cut\nbytes 00', '03 00'),
)

# A bad text of words: in which line, and what the message must say.
BAD_WORDS = (
    ('', 1, 'line height is missing'), ('words 1 2', 1, 'line height is missing'),
    ('words 1\ngap 4\n', 3, 'line height is missing'), ('line', 1, 'line height is missing'),
    ('line 12 words ten', 1, "'ten' does not belong"), ('line 12 words 1e39', 1, 'beyond the largest f32'),
    ('line 12\nwords 1 2 3, 4', 2, "'3,' does not belong"), ('line 12 line 12', 1, "'line' is a second line"),
    ('line 12\ngap 1\ngap 1', 3, "'gap' is a second gap"), ('line 12 insets 1', 1, 'right inset is missing'),
    ('line 12 at', 1, 'min_y is missing'), ('line 12 gap four', 1, "'four' is not a number"),
    ('line 12 12', 1, "'12' does not belong"), ('12.5 8 line 12', 1, "'12.5' does not belong"),
    ('left 10x30', 1, "'left' does not belong"), ('line 12 margins 1 2', 1, "'margins' does not belong"),
    ('line 12 clear left', 1, "'clear' does not belong"), ('bytes', 1, 'pairs of hex'),
    ('bytes 1', 1, 'pairs of hex'), ('bytes 03 00\nline 12', 2, 'do not stand beside parts'),
    ('words\nbytes 03 00\nline 12', 2, 'do not stand beside parts'), ('line 12 bytes 03', 1, "'bytes' does not belong"),
)


def command(*arguments, given=b'', tool='tape.py'):
    """Runs tape.py, or another tool."""
    return subprocess.run([sys.executable, HERE / tool, *map(str, arguments)], input=given, capture_output=True,
                          timeout=60)


def as_f32(bits):
    """The value of the bits of an f32 that is neither NaN nor infinite."""
    return Fraction(struct.unpack('<f', struct.pack('<I', bits))[0])


def random_bits(chance):
    """Bits of an f32: any, or of a short decimal, or one of the special ones."""
    return chance.choice((chance.getrandbits(32), tape.number(str(chance.randint(-70000, 70000) / 64)),
                          chance.choice((0, 0x80000000, 0x7F800000, 0xFF800000, 0x7FC00000, 0x7F800001, 0xFFC00000,
                                         1, 0x007FFFFF, 0x00800000, 0x7F7FFFFF, 0x3A83126F, 0x47800000))))


def random_tape(chance):
    """Some records with any field values, whole."""
    made = bytearray()
    for _ in range(chance.randint(0, 12)):
        kind = chance.randrange(8)
        made.append(kind)
        for shape in tape.layout(kind)[1:]:
            made += {'B': lambda: bytes([chance.choice((0, 1, 2, 3, chance.getrandbits(8)))]),
                     'H': lambda: struct.pack('<H', chance.choice((0, 7, 65535, chance.getrandbits(16)))),
                     'I': lambda: struct.pack('<I', random_bits(chance))}[shape]()
    return bytes(made)


class Text(unittest.TestCase):
    def test_first_tape(self):
        self.assertEqual(len(FIRST), 45)
        self.assertEqual(tape.make('width 100\nleft 10x30\ncontent\nbytes 09\n'), FIRST)
        self.assertEqual(tape.text(FIRST), 'width 100\nleft 10x30\ncontent\nbytes 09\n')

    def test_every_record(self):
        for line, data in RECORDS:
            with self.subTest(line):
                self.assertEqual(tape.make(line), bytes.fromhex(data))
                self.assertEqual(tape.make(tape.text(bytes.fromhex(data))), bytes.fromhex(data))

    def test_text_is_short_and_whole(self):
        for line in ('right 5x20 at 12.5 insets 0 60 clear left', 'side=7 10x30 clear=9', 'content at 56 after 3',
                     'bfc margins -5 3 rtl clear both after 2', 'bfc direction=5 clear=4', 'calc definite 0',
                     'calc min', 'calc max 5', 'calc mode=4', 'add side=4 10 clear right', 'result', 'new',
                     'left 40.0005x0.001 at -0', 'left 0xFFC00000x1e-45', 'bytes 04 00'):
            self.assertEqual(tape.text(tape.make(line)), line + '\n')

    def test_random_bytes(self):
        chance = random.Random(1)
        for _ in range(300):
            data = bytes(chance.choice((chance.randrange(10), chance.getrandbits(8)))
                         for _ in range(chance.randint(0, 120)))
            self.assertEqual(tape.make(tape.text(data)), data)

    def test_random_records_whole_cut_and_damaged(self):
        chance = random.Random(2)
        for _ in range(250):
            data = bytearray(random_tape(chance))
            self.assertEqual(tape.make(tape.text(data)), data)
            if data:
                data[chance.randrange(len(data))] = chance.getrandbits(8)
                del data[chance.randint(0, len(data)):]
                self.assertEqual(tape.make(tape.text(data)), data)

    def test_each_cut(self):
        data = tape.make('\n'.join(line for line, made in RECORDS if made and not line.startswith('bytes')))
        for length in range(len(data)):
            self.assertEqual(tape.make(tape.text(data[:length])), data[:length])

    def test_long_tape(self):
        data = bytes([7]) * 70000 + b'\xFF' * 70000
        self.assertEqual(tape.make(tape.text(data)), data)


class Numbers(unittest.TestCase):
    def test_spellings(self):
        for word, bits in (('0', 0), ('-0', 1 << 31), ('-0.0', 1 << 31), ('1', 0x3F800000), ('.5', 0x3F000000),
                           ('5.', 0x40A00000), ('1e2', 0x42C80000), ('1E+2', 0x42C80000), ('100e-2', 0x3F800000),
                           ('0.001', 0x3A83126F), ('65536', 0x47800000), ('inf', 0x7F800000), ('-inf', 0xFF800000),
                           ('nan', 0x7FC00000), ('0x7fc00000', 0x7FC00000), ('0xFFFFFFFF', 0xFFFFFFFF),
                           ('1e-45', 1), ('1e-46', 0), ('-1e-999', 1 << 31), ('3.4028235e38', 0x7F7FFFFF)):
            self.assertEqual(tape.number(word), bits, word)

    def test_rounded_once(self):
        half, above, below = '1.000000059604644775390625', '1.0000000596046447753906250001', '1.00000005960464477539'
        self.assertEqual([tape.number(word) for word in (half, above, below)], [0x3F800000, 0x3F800001, 0x3F800000])
        for bits in (0, 1, 0x007FFFFF, 0x7F7FFFFE, 0x42C80000):
            after = bits + 1
            middle, little = (as_f32(bits) + as_f32(after)) / 2, Fraction(1, 10 ** 60)
            self.assertEqual(tape.nearest(middle), bits if bits % 2 == 0 else after)
            self.assertEqual(tape.nearest(middle * (1 + little)), after)
            self.assertEqual(tape.nearest(middle * (1 - little)), bits)
        limit = Fraction(2) ** 128 - Fraction(2) ** 103
        self.assertEqual(tape.nearest(limit), 0x7F800000)
        self.assertEqual(tape.nearest(limit - 1), 0x7F7FFFFF)

    def test_nearest_beside_its_neighbours(self):
        chance = random.Random(3)
        for _ in range(1000):
            value = Fraction(chance.getrandbits(chance.randint(1, 90)), 1 << chance.randint(0, 170))
            bits = tape.nearest(value)
            if bits < 0x7F7FFFFF:
                for other in (max(bits - 1, 0), bits + 1):
                    self.assertLessEqual(abs(as_f32(bits) - value), abs(as_f32(other) - value))

    def test_by_f64_as_by_fractions(self):
        chance = random.Random(5)
        for _ in range(2000):
            bits = chance.randrange(0, 0x7F7FFFFF)
            middle = (as_f32(bits) + as_f32(bits + 1)) / 2
            near = middle * (1 + Fraction(chance.choice((-1, 0, 1)), 10 ** chance.choice((9, 16, 18, 40))))
            digits = chance.choice((17, 60, 150))
            power = math.floor(math.log10(near))
            word = f'{round(near * Fraction(10) ** (digits - power))}e{power - digits}'
            self.assertEqual(tape.of_decimal(word), tape.nearest(Fraction(word)), word)

    def test_shortest(self):
        chance = random.Random(4)
        powers = [exponent << 23 for exponent in range(1, 255)] + [1 << bit for bit in range(23)]
        for bits in powers + [chance.randrange(1, 0x7F800000) for _ in range(300)]:
            word = tape.decimal(bits)
            self.assertEqual(tape.number(word), bits)
            self.assertEqual(tape.number(tape.decimal(bits | 1 << 31)), bits | 1 << 31)
            self.assertFalse(any(c not in '0123456789.e-+' for c in word))
            value = as_f32(bits)
            digits = len(word.split('e')[0].replace('.', '').strip('0'))
            power = math.floor(math.log10(value))
            if digits > 1:
                unit = Fraction(10) ** (power - digits + 2)
                for shorter in (math.floor(value / unit), math.ceil(value / unit)):
                    self.assertNotEqual(tape.nearest(shorter * unit), bits, word)


class BadText(unittest.TestCase):
    def test_each_is_named_with_its_number(self):
        with tempfile.TemporaryDirectory() as folder:
            source, out = Path(folder, 'page.txt'), Path(folder, 'page.tape')
            source.write_text('# a page\nwidth 100\n' + ''.join(line + '\n' for line, _ in BAD) + 'result\n', 'utf-8')
            done = command('make', source, out)
            self.assertEqual((done.returncode, done.stdout, out.exists()), (1, b'', False))
            said = done.stderr.decode('utf-8', 'replace').splitlines()
            self.assertEqual(len(said), len(BAD))
            for row, ((line, what), message) in enumerate(zip(BAD, said), 3):
                self.assertTrue(message.startswith(f'{source}:{row}: '), message)
                self.assertIn(what, message)

    def test_nothing_is_written(self):
        with tempfile.TemporaryDirectory() as folder:
            out = Path(folder, 'page.tape')
            out.write_bytes(b'before')
            done = command('make', '-', out, given=b'new\nlet 1x1\n')
            self.assertEqual((done.returncode, done.stderr), (1, b"-:2: 'let' is not a record\n"))
            self.assertEqual(out.read_bytes(), b'before')
            done = command('make', '-', '-', given=b'new\n\xFF\n')
            self.assertEqual((done.returncode, done.stdout), (1, b''))
            self.assertTrue(done.stderr.startswith(b'-:2: '))


    def test_a_long_word_is_shortened(self):
        for line in ('{}', 'left {}', 'left 1x1 {}', 'width {}', 'add {} 1', 'content after {}', 'bfc clear={}'):
            done = command('make', '-', '-', given=line.format('7' * 3_000_000).encode())
            self.assertEqual((done.returncode, done.stdout), (1, b''))
            self.assertIn(b"7' .. (", done.stderr)
            self.assertLess(len(done.stderr), 200)

    def test_what_does_not_show_is_spelled(self):
        self.assertEqual(command('make', '-', '-', given=b'wid\0th\x1b[2J 1\n').stderr,
                         b"-:1: 'wid\\x00th\\x1b[2J' is not a record\n")
        done = command('make', '-', '-', given='width 1'.encode('utf-16'))
        self.assertEqual((done.returncode, done.stdout, done.stderr),
                         (1, b'', b'-:1: the file is UTF-16: save it as UTF-8\n'))


class Answers(unittest.TestCase):
    def refused(self, data, lines, row):
        with self.assertRaises(tape.BadLines) as caught:
            tape.show(data, lines)
        self.assertEqual(caught.exception.args[0][0][0], row)

    def test_first_lines(self):
        self.assertEqual(tape.show(FIRST, FIRST_LINES),
                         ' 0  width 100   W     width set\n'
                         ' 5  left 10x30  P     x 0, y 0, steps 0\n'
                         '28  content     C     band 1, x 10, y 0, width 90\n'
                         '44  bytes 09    T 44  stopped, unknown kind or cut body\n')
        self.assertEqual(tape.show(b'', ''), '')

    def test_every_line(self):
        data = tape.make('new\nbfc\nbfc\ncontent\ncalc max\nadd left 1\nresult\nwidth nan\nleft 1x1\n')
        said = tape.show(data, 'N\nB 12 C0A00000 41200000 42BA0000 42B40000\nB - 00000000 00000000 42C80000 42C80000\n'
                         'C - 00000000 00000000 42C80000\nS\nA\nI 3F800000\nR 2\nR 7\n').splitlines()
        for line, end in zip(said, ('fresh page', 'band 12, x -5, y 10, border 93, stretch 90',
                                    'no band, x 0, y 0, border 100, stretch 100', 'no band, x 0, y 0, width 100',
                                    'calculator started', 'added', 'width 1', 'refused, NaN or infinite',
                                    'refused, more than 96 bands')):
            self.assertTrue(line.endswith(end), line)
        self.assertEqual(tape.show(bytes(65537), 'L\n'), '0  bytes 00 00 00 00 ..  L  over 65,536 bytes\n')

    def test_wrong_lines_are_named(self):
        lines = FIRST_LINES.splitlines(keepends=True)
        for row, wrong in ((1, 'N\n'), (1, 'W \n'), (2, 'P 00000000 00000000\n'), (2, 'P 0000000g 00000000 0\n'),
                           (2, 'R 9\n'), (2, 'R 13\n'), (3, 'C 41200000 00000000 42B40000\n'), (4, 'T 45\n'),
                           (4, 'L\n'), (2, '\n'), (4, 'T 44'), (3, 'c 1 41200000 00000000 42B40000\n')):
            changed = lines[:row - 1] + [wrong] + lines[row:]
            self.refused(FIRST, ''.join(changed), row)
        self.refused(FIRST, ''.join(lines[:3]), 4)
        self.refused(FIRST, FIRST_LINES + 'W\n', 5)
        self.refused(bytes(65537), 'N\n', 1)


class Words(unittest.TestCase):
    def refused(self, lines, row, what='', data=THREE_BYTES):
        with self.assertRaises(tape.BadLines) as caught:
            tape.show_words(data, lines)
        (first, said), = caught.exception.args[0]
        self.assertEqual(first, row, lines)
        self.assertIn(what, said)

    def test_every_form(self):
        for source, data in WORDS:
            with self.subTest(source):
                made = tape.make_words(source)
                self.assertEqual(made, bytes.fromhex(data))
                self.assertEqual(tape.make_words(tape.text_words(made)), made)

    def test_text_is_short_and_whole(self):
        for source in ('words 10 12.5 8\ngap 4 line 12\n', 'line 12\n', 'words 0 -0\nline 0 at -0\n',
                       'words 1\ngap 0.1 line 1e-45 at -5 insets 0 2\n', 'bytes 01 00\n',
                       'words 1 2 3 4 5 6 7 8 9 10 11 12\nwords 13\nline 12\n'):
            self.assertEqual(tape.text_words(tape.make_words(source)), source)

    def test_random_bytes(self):
        chance = random.Random(6)
        for _ in range(300):
            count = chance.randint(0, 30)
            data = bytearray(struct.pack(f'<H{count + 5}I', count, *(random_bits(chance) for _ in range(count + 5))))
            self.assertEqual(tape.make_words(tape.text_words(data)), data)
            data[chance.randrange(len(data))] = chance.getrandbits(8)
            del data[chance.randint(1, len(data)):]
            self.assertEqual(tape.make_words(tape.text_words(data)), data)

    def test_each_bad_text_is_named_with_its_line(self):
        for source, row, what in BAD_WORDS:
            with self.subTest(source), self.assertRaises(tape.BadLines) as caught:
                tape.make_words(source)
            self.assertEqual(caught.exception.args[0][0][0], row)
            self.assertIn(what, caught.exception.args[0][0][1])

    def test_as_many_words_as_the_count_can_say(self):
        source = 'line 12\n' + 'words 1 2 3 4 5\n' * 13107
        data = tape.make_words(source)
        self.assertEqual((data[:2], len(data)), (b'\xFF\xFF', 262162))
        with self.assertRaises(tape.BadLines) as caught:
            tape.make_words(source + 'words 6')
        self.assertEqual(caught.exception.args[0], [(13109, 'more than 65535 words')])

    def test_lines(self):
        self.assertEqual(tape.show_words(THREE_BYTES, THREE_LINES),
                         '0  10 12.5  L  x 10, y 0, words 0 to 1\n'
                         '2  8        L  x 10, y 12, word 2\n')
        self.assertEqual(tape.show_words(tape.make_words('line 12'), ''), '')
        many = tape.make_words('line 12 words ' + ' '.join(map(str, range(100, 140))))
        self.assertEqual(tape.show_words(many, 'L 00000000 00000000 0 40\n'),
                         f"0  {' '.join(map(str, range(100, 115)))} ..  L  x 0, y 0, words 0 to 39\n")

    def test_a_line_that_stands_alone(self):
        for line, what in (('R 2', 'refused, NaN or infinite'), ('R 3', 'refused, outside its limits'),
                           ('R 9', 'refused, more than 512 words'), ('R 10', 'refused, line height zero'),
                           ('R 6', 'refused, beyond 131,072'), ('T 44', 'the tape stopped at byte 44'),
                           ('T 0', 'the tape stopped at byte 0'), ('L', 'the tape is over 65,536 bytes')):
            self.assertEqual(tape.show_words(THREE_BYTES, line + '\n'), f'0  10 12.5 8  {line}  {what}\n')
        self.assertEqual(tape.show_words(THREE_BYTES[:-1], 'T 0\n'),
                         '0  bytes 03 00 00 00 ..  T 0  not as long as its count says\n')
        self.assertEqual(tape.show_words(THREE_BYTES + b'\0', 'T 5\n'),
                         '0  bytes 03 00 00 00 ..  T 5  the tape stopped at byte 5\n')

    def test_wrong_lines_are_named(self):
        first, second = THREE_LINES.splitlines(keepends=True)
        for lines, row in ((first, 2), (second, 1), (first + first, 2), (first + second + second, 3), ('', 1),
                           (first + 'L 41200000 41400000 2 2\n', 2), (first + 'L 41200000 41400000 2 0\n', 2),
                           (first + 'R 6\n', 2), ('L\n' + first + second, 1), (first + 'L\n', 2), ('R 1\n', 1),
                           ('R 13\n', 1), ('T\n', 1), ('P 41200000 00000000 0\n', 1), (first + second[:-1], 2),
                           ('L 41200000 00000000 0\n', 1), ('L 4120000a 00000000 0 2\n', 1)):
            self.refused(lines, row)
        self.refused('R 9\n', 1, 'not as long as their count says', THREE_BYTES[:-1])
        self.refused('', 1, 'not as long as their count says', b'')
        # and a record of a tape is not refused by a number of words
        for number in (9, 10):
            with self.assertRaises(tape.BadLines):
                tape.show(bytes([7]), f'R {number}\n')

    def test_command(self):
        with tempfile.TemporaryDirectory() as folder:
            out, lines = Path(folder, 'three.words'), Path(folder, 'three.lines')
            self.assertEqual(command('words', 'make', '-', out, given=THREE.encode()).returncode, 0)
            self.assertEqual(out.read_bytes(), THREE_BYTES)
            self.assertEqual(command('words', 'text', out).stdout, b'words 10 12.5 8\ngap 4 line 12\n')
            lines.write_text(THREE_LINES)
            shown = tape.show_words(THREE_BYTES, THREE_LINES).encode()
            self.assertEqual(command('words', 'show', out, lines).stdout, shown)
            self.assertEqual(command('words', 'show', out, given=THREE_LINES.encode()).stdout, shown)
            done = command('words', 'make', '-', out, given=b'line 12\nword 1\n')
            self.assertEqual((done.returncode, done.stderr), (1, b"-:2: 'word' does not belong here\n"))
            self.assertEqual(out.read_bytes(), THREE_BYTES)
            done = command('words', 'show', out, given=b'R 1\n')
            self.assertEqual((done.returncode, done.stdout), (1, b''))
            self.assertTrue(done.stderr.startswith(b"-:1: 'R 1' is no line"))
            done = command('words', 'make', '-', '-', given=b'line 12\n' + b'words 1\n' * 17000)
            self.assertEqual((done.returncode, len(done.stdout), done.stderr), (0, 68022, b''))


class Command(unittest.TestCase):
    def test_through_pipes(self):
        self.assertEqual(command('make', '-', '-', given=b'width 100\nleft 10x30\ncontent\nbytes 09').stdout, FIRST)
        self.assertEqual(command('text', '-', given=FIRST).stdout, b'width 100\nleft 10x30\ncontent\nbytes 09\n')

    def test_files_of_other_editors(self):
        source = b'\xEF\xBB\xBFwidth 100\r\nleft 10x30 # a box\r\n\r\ncontent\r\nbytes 09\r\n'
        self.assertEqual(command('make', '-', '-', given=source).stdout, FIRST)
        with tempfile.TemporaryDirectory() as folder:
            one, lines = Path(folder, 'one.tape'), Path(folder, 'one.lines')
            one.write_bytes(FIRST)
            lines.write_bytes(b'\xEF\xBB\xBF' + FIRST_LINES.replace('\n', '\r\n').encode())
            self.assertEqual(command('show', one, lines).stdout.decode(), tape.show(FIRST, FIRST_LINES))
            lines.write_bytes(b'W\rx\n')
            self.assertIn(b"'W\\x0dx' is no answer", command('show', one, lines).stderr)

    def test_a_failed_write_is_named(self):
        if not Path('/dev/full').exists():
            self.skipTest('no /dev/full')
        done = command('make', '-', '/dev/full', given=b'new\n')
        self.assertEqual((done.returncode, done.stderr.split(b': ')[:2]), (1, [b'tape.py', b'/dev/full']))
        with open('/dev/full', 'wb') as full:
            done = subprocess.run([sys.executable, HERE / 'tape.py', 'make', '-', '-'], input=b'new\n', stdout=full,
                                  stderr=subprocess.PIPE, timeout=60)
        self.assertEqual((done.returncode, done.stderr.split(b': ')[:2]), (1, [b'tape.py', b'standard output']))

    def test_a_long_tape_is_made_with_a_warning(self):
        for length, warned in ((65536, False), (65537, True)):
            done = command('make', '-', '-', given=b'new\n' * length)
            self.assertEqual((done.returncode, done.stdout), (0, bytes(length)))
            self.assertEqual(done.stderr, b'tape.py: -: 65537 bytes; over 65536 no record is run, the answer is L\n'
                             if warned else b'')

    def test_files(self):
        with tempfile.TemporaryDirectory() as folder:
            one, lines = Path(folder, 'one.tape'), Path(folder, 'one.lines')
            self.assertEqual(command('make', '-', one, given=tape.text(FIRST).encode()).returncode, 0)
            self.assertEqual(one.read_bytes(), FIRST)
            lines.write_text(FIRST_LINES)
            shown = tape.show(FIRST, FIRST_LINES).encode()
            self.assertEqual(command('show', one, lines).stdout, shown)
            self.assertEqual(command('show', '-', lines, given=FIRST).stdout, shown)
            self.assertEqual(command('show', one, given=FIRST_LINES.encode()).stdout, shown)
            lines.write_text('W\nR 0\n')
            done = command('show', one, lines)
            self.assertEqual((done.returncode, done.stdout), (1, b''))
            self.assertTrue(done.stderr.decode().startswith(f'{lines}:2: '))
            missing = Path(folder, 'none', 'two')
            for arguments in (('text', missing), ('make', missing, one), ('make', '-', missing),
                              ('show', one, missing)):
                done = command(*arguments)
                self.assertEqual((done.returncode, done.stdout), (1, b''))
                self.assertIn(str(missing), done.stderr.decode())
            self.assertEqual(one.read_bytes(), FIRST)

    def test_usage(self):
        wrong = ((), ('mend', 'a'), ('make', 'a'), ('text', 'a', 'b'), ('show', '-', '-'), ('show', '-'))
        for arguments in (*wrong, *(('words', *arguments) for arguments in (*wrong, ('words', 'text', 'a')))):
            done = command(*arguments)
            self.assertEqual((done.returncode, done.stdout), (2, b''), arguments)


class Drawing(unittest.TestCase):
    def test_page(self):
        data = tape.make('width 9\nleft 1x2\nnew\nwidth 100\nright 10x30 at -8\nleft 70000x1\nright 5.5x2\ncontent\n'
                         'bytes 09')
        lines = ('W\nP 00000000 00000000 0\nN\nW\nP 42B40000 C1000000 0\nR 3\nP 42A90000 00000000 0\n'
                 'C 1 00000000 00000000 42A90000\nT 119\n')
        width, boxes = draw.page(data, lines)
        self.assertEqual((width, boxes), (100, [(90, -8, 10, 30), (84.5, 0, 5.5, 2)]))
        said = draw.svg(width, boxes, []).splitlines()
        self.assertEqual(said[0], '<svg xmlns="http://www.w3.org/2000/svg" viewBox="-4 -12 108 38">')
        self.assertTrue(said[2].startswith('<rect x="90" y="-8" width="10" height="30" '))
        self.assertEqual(len(said), 5)

    def test_words(self):
        self.assertEqual(draw.words(THREE_BYTES, THREE_LINES), [(10, 0, 10, 12), (24, 0, 12.5, 12), (10, 12, 8, 12)])
        for line in ('L\n', 'T 5\n', 'R 10\n'):
            self.assertEqual(draw.words(THREE_BYTES, line), [])
        self.assertEqual(draw.words(b'', 'T 0\n'), [])

    def test_command(self):
        self.assertEqual(command('a', tool='draw.py').returncode, 2)
        with tempfile.TemporaryDirectory() as folder:
            files = [Path(folder, name) for name in ('a.tape', 'a.lines', 'a.words', 'a.words.lines')]
            for file, data in zip(files, (FIRST, FIRST_LINES.encode(), THREE_BYTES, THREE_LINES.encode())):
                file.write_bytes(data)
            self.assertEqual(command(*files, tool='draw.py').stdout.count(b'<rect '), 1 + 1 + 3)
            self.assertEqual(command(*files[:2], tool='draw.py').stdout.count(b'<rect '), 1 + 1)
            for wrong in (1, 3):
                before = files[wrong].read_bytes()
                files[wrong].write_bytes(b'R 13\n')
                done = command(*files, tool='draw.py')
                self.assertEqual((done.returncode, done.stdout), (1, b''))
                self.assertTrue(done.stderr.decode().startswith(f'{files[wrong]}:1: '), done.stderr)
                files[wrong].write_bytes(before)
            files[2].unlink()
            done = command(*files, tool='draw.py')
            self.assertEqual((done.returncode, done.stdout), (1, b''))
            self.assertTrue(done.stderr.decode().startswith(f'draw.py: {files[2]}: '), done.stderr)


class Examples(unittest.TestCase):
    def test_tapes_are_those_of_the_texts(self):
        texts_of_words = sorted(EXAMPLES.glob('*.words.txt'))
        sources = sorted(set(EXAMPLES.glob('*.txt')) - set(texts_of_words))
        self.assertTrue(sources and texts_of_words)
        for source in sources:
            data = source.with_suffix('.tape').read_bytes()
            self.assertEqual(tape.make(source.read_text()), data, source)
            lines = source.with_suffix('.lines')
            if lines.exists():
                self.assertTrue(tape.show(data, lines.read_text()), lines)
        for source in texts_of_words:
            data = source.with_suffix('').read_bytes()
            self.assertEqual(tape.make_words(source.read_text()), data, source)
            self.assertTrue(tape.show_words(data, source.with_suffix('.lines').read_text()), source)

    def test_words_of_service_stand_beside_its_boxes(self):
        files = [EXAMPLES / ('service' + end) for end in ('.tape', '.lines', '.words', '.words.lines')]
        page, lines, words, words_lines = (file.read_bytes() for file in files)
        width, boxes = draw.page(page, lines.decode())
        rects = draw.words(words, words_lines.decode())
        self.assertEqual((width, len(boxes), len(rects)), (480, 7, 116))
        for one in rects:
            self.assertTrue(8 <= one.x and one.x + one.width <= 472 and one.height == 15.5, one)
            for other in boxes + rects:
                apart = (one.x + one.width <= other.x or other.x + other.width <= one.x or
                         one.y + one.height <= other.y or other.y + other.height <= one.y)
                self.assertTrue(apart or one is other, (one, other))
        done = command(*files, tool='draw.py')
        self.assertEqual((done.returncode, done.stdout.decode()), (0, draw.svg(width, boxes, rects)))
        self.assertEqual(done.stdout.count(b'<rect '), 1 + 7 + 116)

    def test_first(self):
        self.assertEqual((EXAMPLES / 'first.tape').read_bytes(), FIRST)
        self.assertEqual((EXAMPLES / 'first.lines').read_text(), FIRST_LINES)


if __name__ == '__main__':
    unittest.main()
