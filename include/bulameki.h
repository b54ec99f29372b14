/* The C face of Bulameki: bulameki_run_tape runs a tape of calls that place floated boxes on a page, and writes one line
   a call; bulameki_innermost tells which box stands innermost in a band of the page after a tape, bulameki_depth how
   deep that page is, and bulameki_set_words sets a text in lines around its boxes.

   x86-64 only, for C99 and C++; the archive, crates/panel/out/libpanel.a, is compiled for x86-64-v2, so the processor
   needs SSE 4.2. At link time it needs nothing but memcpy and memset. Nothing is kept from one call to the next, and
   nothing but the answers is written: several threads may call at once, each with an answer room of its own.

   WHAT A CALL NEEDS, of each function.
     - Stack: at most BULAMEKI_STACK bytes, for bulameki_set_words BULAMEKI_WORDS_STACK, whatever the tape and the text.
       Not counted is what a dynamic linker takes where it looks for memcpy and memset at their first call only. Up to
       128 bytes below the stack pointer are in use without being reserved (the red zone of the x86-64 ABI), so an
       interrupt handler may not push onto this stack, unless it first steps over them. No heap, no static memory.
     - Time: it grows with the tape's length, and the text's, and is bounded. The worst tape found for version 0.1.0,
       65,536 bytes of kind 0, took it 14 ms on a server of two cores, and 27 ms in a room that was just enough, where a
       tape is run twice. Version 0.2.0 took a ninth of the instructions for a fresh page and its width; not timed since.
     - A floating-point environment as C and the ABI start one (MXCSR 0x1F80): rounding to nearest, subnormals neither
       flushed to zero nor read as zero, all exceptions masked. In another one answers are wrong, pictures may lie over
       each other, and an unmasked exception ends the program at the first NaN. Linking with -ffast-math is enough to
       change it. Call bulameki_environment() at start-up, in each thread that calls.
     - A tape and a text that hold still. Copy one that can change meanwhile (worn flash, DMA, another thread) to RAM
       first. One of which a byte changes during the call gives any lines, or -13 with lines left in the room; nothing is
       written past the room even then. In a room of BULAMEKI_ROOM bulameki_run_tape runs the tape once, in a shorter
       one twice. The other functions run it once, and give any answer where a byte changes.

   THE TAPE. A record is one byte of kind, then a body of fixed length. f32 and u16 are little-endian, codes are bytes.

     kind                   body, in this order                                                          length
     0 BULAMEKI_NEW         none: a fresh page of width 0, and no calculator                                  0
     1 BULAMEKI_WIDTH       f32 page width                                                                    4
     2 BULAMEKI_BOX         side, clear, f32 width, height, min_y, left inset, right inset                   22
     3 BULAMEKI_CONTENT     f32 min_y, left inset, right inset; clear, u16 after                             15
     4 BULAMEKI_BFC         f32 min_y, left inset, right inset, left margin, right margin;
                            direction, clear, u16 after                                                      24
     5 BULAMEKI_CALC        mode, f32 available width (read in mode definite only)                            5
     6 BULAMEKI_ADD         f32 width, side, clear                                                            6
     7 BULAMEKI_RESULT      none                                                                              0

     side 0 left, 1 right; clear 0 none, 1 left, 2 right, 3 both; direction 0 left to right, 1 right to left;
     mode 0 definite, 1 min-content, 2 max-content; after: look only at bands after this one, 65535 for none.

   Insets are those of the box's container, measured from the page's edges. Page width, box width and height, insets
   and available width lie in 0 to 65,536; min_y and margins in -65,536 to 65,536. A minus zero is read as plus zero.
   A tape starts on a fresh page with no calculator.

   THE LINES. Each record gives one line, ended by a line feed. Floats are the eight upper-case hex digits of their
   bits, other numbers are decimal, and a band that is not there is a -.

     kind   line                             longest    meaning
     0      N                                      2    the page is fresh
     1      W                                      2    the width is set
     2      P x y steps                           24    the box stands at x, y, found after so many steps
     3      C band x y width                      32    room for content: where it starts, and how wide it is
     4      B band x y border stretch             41    room for a box with a formatting context of its own: where its
                                                        border box starts, what it may measure, what auto width gives
     5      S                                      2    the calculator is started
     6      A                                      2    the width is added
     7      I width                               11    the intrinsic width
     any    R number                               4    the record is refused: page and calculator are as before
     end    T offset                               8    an unknown kind or a cut body stands at offset; the run ends
     all    L                                      2    the tape is longer than 65,536 bytes; no record was run

   Of several refusals that apply to a record, the lowest is given. The numbers are those of enum bulameki_refusal.
   A band's number counts from the top of the page, and holds until the next box is accepted: a box may split bands, and
   those below then have other numbers. include/bulameki_lines.h reads a line into its numbers. */
#ifndef BULAMEKI_H
#define BULAMEKI_H

#include <stddef.h>
#include <stdint.h>
#include <string.h>

#ifdef __cplusplus
extern "C" {
#endif

/* This header and the archive are of one version; CHANGELOG.md says what each brought. */
#define BULAMEKI_VERSION "0.6.0"

/* The deepest stack of a call in bytes, its return address counted, and that of bulameki_set_words: measured of the
   archive as rattle-kit-13f compiles it, as docs/SPEED.md says. */
#define BULAMEKI_STACK 4360
#define BULAMEKI_WORDS_STACK 26488

enum bulameki_kind {
    BULAMEKI_NEW = 0,
    BULAMEKI_WIDTH = 1,
    BULAMEKI_BOX = 2,
    BULAMEKI_CONTENT = 3,
    BULAMEKI_BFC = 4,
    BULAMEKI_CALC = 5,
    BULAMEKI_ADD = 6,
    BULAMEKI_RESULT = 7
};

enum bulameki_side { BULAMEKI_LEFT = 0, BULAMEKI_RIGHT = 1 };

enum bulameki_clear {
    BULAMEKI_CLEAR_NONE = 0,
    BULAMEKI_CLEAR_LEFT = 1,
    BULAMEKI_CLEAR_RIGHT = 2,
    BULAMEKI_CLEAR_BOTH = 3
};

enum bulameki_direction { BULAMEKI_LTR = 0, BULAMEKI_RTL = 1 };

enum bulameki_mode { BULAMEKI_DEFINITE = 0, BULAMEKI_MIN_CONTENT = 1, BULAMEKI_MAX_CONTENT = 2 };

/* The u16 "after" that stands for no band. */
#define BULAMEKI_AFTER_NONE 65535

/* A longer tape is answered by the one line L. */
#define BULAMEKI_LONGEST_TAPE 65536

enum bulameki_refusal {
    /* a side, clear, direction or mode code is unknown */
    BULAMEKI_UNKNOWN_CODE = 1,
    /* a number is NaN or infinite */
    BULAMEKI_NOT_FINITE = 2,
    /* a number is outside its limits */
    BULAMEKI_OUT_OF_LIMITS = 3,
    /* the width is set on a page with an accepted box, even one of no height, even to the same width */
    BULAMEKI_WIDTH_FIXED = 4,
    /* a box comes when 64 boxes stand, both sides together */
    BULAMEKI_BOXES_FULL = 5,
    /* y plus height, or placed inset plus width, would pass 131,072; for the calculator, a side's sum or both sums; for
       a text, a line's bottom */
    BULAMEKI_TOO_FAR = 6,
    /* the placement would need more than 96 bands */
    BULAMEKI_BANDS_FULL = 7,
    /* the tape adds to, or asks, a calculator not yet started */
    BULAMEKI_NO_CALCULATOR = 8,
    /* a text has more than 512 words */
    BULAMEKI_TOO_MANY_WORDS = 9,
    /* a text's line height is zero */
    BULAMEKI_NO_LINE_HEIGHT = 10,
    /* the room is shorter than the lines: no line says so, the call returns BULAMEKI_RETURNS_NO_ROOM */
    BULAMEKI_NO_ROOM = 13
};

/* What bulameki_run_tape and bulameki_set_words return in place of a length when the room is too short. */
#define BULAMEKI_RETURNS_NO_ROOM (-(int64_t)BULAMEKI_NO_ROOM)

/* Room that is surely enough for the lines of a tape of this many bytes; a constant where the length is one. In such a
   room a tape is run once; in a shorter one it is run once to count its lines, and again to write them.
   No record has a line of more than 11 bytes for each of its own: kind 7, a single byte, can answer I and a float;
   T has at most 8 and stands for at least one byte; every other kind has at most 2 for each byte. */
#define BULAMEKI_ROOM(tape_len) ((size_t)(tape_len) <= BULAMEKI_LONGEST_TAPE ? 11 * (size_t)(tape_len) : (size_t)2)

/* Runs the tape_len bytes at tape and writes their lines at answers, which has room bytes. Returns how many bytes
   were written; bytes past them are left as they were, and no zero byte ends them. If the lines are longer than
   room, returns -13 and writes nothing. Every byte string is a tape: there is no other failure.

   A pointer may be null where its length is 0. Otherwise it points to that many bytes, and the two do not overlap.

       static const uint8_t tape[] = {
           1, 0x00, 0x00, 0xC8, 0x42,                         // width 100
           2, 0, 0, 0x00, 0x00, 0x20, 0x41,                   // a left box, no clear, 10 wide,
              0x00, 0x00, 0xF0, 0x41, 0, 0, 0, 0,             // 30 high, min_y 0,
              0, 0, 0, 0, 0, 0, 0, 0                          // insets 0
       };
       uint8_t lines[BULAMEKI_ROOM(sizeof tape)];
       int64_t n = bulameki_run_tape(tape, sizeof tape, lines, sizeof lines);

   gives n = 24 and the two lines "W" and "P 00000000 00000000 0". A whole program is examples/c/page.c. */
int64_t bulameki_run_tape(const uint8_t *tape, size_t tape_len, uint8_t *answers, size_t room);

/* Two functions tell of the page after the tape_len bytes at tape, as far as the tape runs: up to the record where
   the line T is given; a tape longer than 65,536 bytes runs no record, and leaves a fresh page. They write nothing. The
   pointer may be null where the length is 0. */

/* What they return where no box is. */
#define BULAMEKI_NONE (-100)

/* What bulameki_innermost returns for a side that is neither BULAMEKI_LEFT nor BULAMEKI_RIGHT. */
#define BULAMEKI_RETURNS_UNKNOWN_SIDE (-(int64_t)BULAMEKI_UNKNOWN_CODE)

/* Which box stands innermost in a band, on a side: the box that was last recorded there. Returns its number, or
   BULAMEKI_NONE where the band has no float on that side, and where there is no such band. An unknown side returns -1,
   whatever the tape. There is no other failure.

   A box's number counts the P lines since the last fresh page, from 0 and over both sides; a box of no height has one
   too, but stands in no band. The band's number is the one that the lines C and B answer: it holds until the next box is
   accepted, so ask with the same tape, or one on which no box was accepted since. On the tape above the left box stands
   in band 1:

       bulameki_innermost(tape, sizeof tape, 1, BULAMEKI_LEFT)     // 0
       bulameki_innermost(tape, sizeof tape, 1, BULAMEKI_RIGHT)    // BULAMEKI_NONE */
int64_t bulameki_innermost(const uint8_t *tape, size_t tape_len, size_t band, uint8_t side);

/* How deep the page is, as a scroll bar needs it: the largest bottom (y plus height, rounded) of all boxes accepted
   since the last fresh page, those of no height too. Returns the float's 32 bits, a value from 0 up to 4,294,967,295, so
   that bulameki_float((uint32_t)n) is the depth; where all boxes end above 0 it is negative, and the sign bit is set.
   Returns BULAMEKI_NONE where no box was accepted. There is no failure. On the tape above:

       bulameki_depth(tape, sizeof tape)                           // 0x41F00000, the bits of 30 */
int64_t bulameki_depth(const uint8_t *tape, size_t tape_len);

/* A TEXT is a row of words, of which only the widths count. Little-endian, as a tape:

     u16 count                   how many words it has
     f32 width, count times      of each word, in order
     f32 gap                     between two words of a line
     f32 line height
     f32 min_y                   the first line is no higher
     f32 left inset              of the text's container, measured from the page's edges
     f32 right inset

   Widths, gap, line height and insets lie in 0 to 65,536, min_y in -65,536 to 65,536. A minus zero is read as plus zero.

   ITS LINES stand below each other, the first from min_y on. A line touches the bands whose end is greater than its top
   and whose start is less than its bottom, which is its top plus the line height. Its left edge is the largest of the
   container's left inset and the left insets of all bands that it touches; the right alike; its room is the page width
   less both. It takes words in order while their widths and the gaps between them, summed from the left, are at most the
   room; every sum is rounded to an f32. If not even the first word fits, the line moves to the next band start greater
   than its top, or, where there is none, to the last end; but a line that touches no band takes its first word even
   where it is wider than the room. The next line begins at this one's bottom. On a page and with a text in whole 64ths
   no line lies over a box of positive width and height.

   Each line that is set gives a line of answer, from the top down, and nothing else is written:

     line                 longest    meaning
     L x y first count         28    its left edge and its top, the number of its first word, counted from 0, and how
                                     many words it has: 1 or more. Every word stands on exactly one line, in order; a
                                     word begins at x plus the widths and gaps before it on its line

   Or one line stands alone, and no line is set; of several the first of this list:

     L                          2    the tape is longer than 65,536 bytes
     T offset                   8    the tape stops at offset, as its own last line says
     T 0                        4    the text is not exactly as long as its count says
     R 2                        4    a number of the text is NaN or infinite, be it a word's past the 512th
     R 3                        4    one is outside its limits, likewise
     R 9                        4    the text has more than 512 words
     R 10                       5    the line height is zero
     R 6                        4    a line's bottom would pass 131,072

   A refused record of the tape changes nothing on the page and stops nothing. A text of no words gives no line. */

/* A text of more words is refused. */
#define BULAMEKI_MOST_WORDS 512

/* How long a text of so many words is; a constant where the count is one. */
#define BULAMEKI_TEXT_LEN(count) (22 + 4 * (size_t)(count))

/* Room that is surely enough for the lines of a text of this many bytes; a constant where the length is one. A line of
   at most 28 bytes takes a word or more, of 4 bytes each; there are at most 512 words; and a line that stands alone has
   at most 8 bytes. */
#define BULAMEKI_WORDS_ROOM(text_len) \
    ((size_t)(text_len) < BULAMEKI_TEXT_LEN(1)                     ? (size_t)8 \
     : (size_t)(text_len) < BULAMEKI_TEXT_LEN(BULAMEKI_MOST_WORDS) ? 7 * ((size_t)(text_len) - BULAMEKI_TEXT_LEN(0)) \
                                                                   : (size_t)28 * BULAMEKI_MOST_WORDS)

/* Sets the text_len bytes at text around the boxes of the page after the tape_len bytes at tape, and writes its lines
   at answers, which has room bytes. Returns how many bytes were written; bytes past them are left as they were, and no
   zero byte ends them. If the lines are longer than room, returns -13 and writes nothing. All bytes are a tape, and all
   are a text: there is no other failure. A pointer may be null where its length is 0; the answers overlap neither tape
   nor text. On the tape above, three words beside the left box:

       static const uint8_t text[] = {
           3, 0,                                              // three words,
           0x00, 0x00, 0x20, 0x42, 0x00, 0x00, 0x48, 0x42,    // 40 and 50 wide,
           0x00, 0x00, 0xF0, 0x41,                            // and 30,
           0x00, 0x00, 0x80, 0x40, 0x00, 0x00, 0x40, 0x41,    // gap 4, line height 12,
           0, 0, 0, 0, 0, 0, 0, 0, 0, 0, 0, 0                 // min_y 0, insets 0
       };
       uint8_t set[BULAMEKI_WORDS_ROOM(sizeof text)];
       int64_t m = bulameki_set_words(tape, sizeof tape, text, sizeof text, set, sizeof set);

   gives m = 48 and the two lines "L 41200000 00000000 0 1" and "L 41200000 41400000 1 2": the words begin at x 10, right
   of the box; the second would end at 104, past the page's 100, and so begins a line of its own, at y 12. */
int64_t bulameki_set_words(const uint8_t *tape, size_t tape_len, const uint8_t *text, size_t text_len, uint8_t *answers,
                           size_t room);

/* A float of these bits, and the bits of a float. */
static inline float bulameki_float(uint32_t bits)
{
    float value;
    memcpy(&value, &bits, sizeof value);
    return value;
}

static inline uint32_t bulameki_bits(float value)
{
    uint32_t bits;
    memcpy(&bits, &value, sizeof bits);
    return bits;
}

/* What bulameki_environment can find wrong. */
enum bulameki_fault {
    /* an exception is unmasked; nothing further is tried then */
    BULAMEKI_UNMASKED = 1,
    /* sums do not round to nearest */
    BULAMEKI_ROUNDING = 2,
    /* a subnormal result becomes zero (FTZ) */
    BULAMEKI_FLUSHED = 4,
    /* a subnormal operand is read as zero (DAZ) */
    BULAMEKI_READ_AS_ZERO = 8
};

#if defined(__x86_64__) && defined(__GNUC__)
/* The faults of this thread's floating-point environment, added up; 0 if it is the one that is needed. */
static inline unsigned bulameki_environment(void)
{
    volatile float one = 1, little = bulameki_float(0x32800000), above, below; /* little: 2^-26 */
    volatile float least = bulameki_float(0x00800000), more = bulameki_float(0x00C00000), difference;
    volatile float half = bulameki_float(0x00400000), twice; /* half of the least normal float */
    uint32_t mxcsr;
    unsigned faults = 0;
    __asm__ volatile("stmxcsr %0" : "=m"(mxcsr));
    if ((mxcsr & 0x1F80) != 0x1F80)
        return BULAMEKI_UNMASKED;
    above = one + little;
    below = one - little;
    difference = more - least;
    twice = half + half;
    if (bulameki_bits(above) != 0x3F800000 || bulameki_bits(below) != 0x3F800000)
        faults += BULAMEKI_ROUNDING;
    if (bulameki_bits(difference) != 0x00400000)
        faults += BULAMEKI_FLUSHED;
    if (bulameki_bits(twice) != 0x00800000)
        faults += BULAMEKI_READ_AS_ZERO;
    return faults;
}
#endif

#ifdef __cplusplus
}
#endif

#endif
