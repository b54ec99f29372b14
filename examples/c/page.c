/* A page laid out from C: builds a tape in memory, runs it, reads the answer lines back into numbers, sets a text around the
   boxes, and asks which boxes stand beside the text and how deep the page is. */
#include <inttypes.h>
#include <stdio.h>
#include <stdlib.h>
#include <string.h>

#include "bulameki_lines.h"

/* A tape, or a text. */
struct bytes {
    uint8_t bytes[512];
    size_t len;
};

static void put_u8(struct bytes *to, unsigned value)
{
    if (to->len == sizeof to->bytes) {
        fputs("page: the tape or the text is full\n", stderr);
        exit(1);
    }
    to->bytes[to->len++] = (uint8_t)value;
}

static void put_u16(struct bytes *to, unsigned value)
{
    put_u8(to, value & 0xFF);
    put_u8(to, value >> 8);
}

static void put_f32(struct bytes *to, float value)
{
    uint32_t bits = bulameki_bits(value);
    put_u16(to, bits & 0xFFFF);
    put_u16(to, bits >> 16);
}

static void page_width(struct bytes *tape, float width)
{
    put_u8(tape, BULAMEKI_WIDTH);
    put_f32(tape, width);
}

/* The container's insets are 0, as for a box that stands directly on the page. */
static void box(struct bytes *tape, enum bulameki_side side, float width, float height, float min_y,
                enum bulameki_clear clear)
{
    put_u8(tape, BULAMEKI_BOX);
    put_u8(tape, side);
    put_u8(tape, clear);
    put_f32(tape, width);
    put_f32(tape, height);
    put_f32(tape, min_y);
    put_f32(tape, 0);
    put_f32(tape, 0);
}

static void content(struct bytes *tape, float min_y, float inset, enum bulameki_clear clear)
{
    put_u8(tape, BULAMEKI_CONTENT);
    put_f32(tape, min_y);
    put_f32(tape, inset);
    put_f32(tape, inset);
    put_u8(tape, clear);
    put_u16(tape, BULAMEKI_AFTER_NONE);
}

static void bfc(struct bytes *tape, float min_y, float margin, enum bulameki_direction direction)
{
    put_u8(tape, BULAMEKI_BFC);
    put_f32(tape, min_y);
    put_f32(tape, 0);
    put_f32(tape, 0);
    put_f32(tape, margin);
    put_f32(tape, margin);
    put_u8(tape, direction);
    put_u8(tape, BULAMEKI_CLEAR_NONE);
    put_u16(tape, BULAMEKI_AFTER_NONE);
}

static void calculator(struct bytes *tape, enum bulameki_mode mode, float available)
{
    put_u8(tape, BULAMEKI_CALC);
    put_u8(tape, mode);
    put_f32(tape, available);
}

static void add(struct bytes *tape, float width, enum bulameki_side side)
{
    put_u8(tape, BULAMEKI_ADD);
    put_f32(tape, width);
    put_u8(tape, side);
    put_u8(tape, BULAMEKI_CLEAR_NONE);
}

/* What is set around the boxes. Each letter is 10 wide, and so is the blank between two words. */
static const char *const words[] = {
    "Open", "the", "inlet", "valve", "before", "the", "pump", "is", "started.", "A", "green", "lamp", "says",
    "that", "water", "stands", "at", "the", "inlet;", "a", "red", "lamp", "that", "it", "does", "not,", "and",
    "then", "the", "pump", "must", "not", "run.", "The", "left", "picture", "shows", "where", "the", "valve", "is,",
    "and", "the", "bar", "below", "shows", "how", "far", "it", "is", "open.", "Never", "shut", "it", "while", "the",
    "pump", "runs,", "or", "it", "will", "run", "dry.",
};

static const size_t word_count = sizeof words / sizeof *words;

static void put_words(struct bytes *text, float line_height, float min_y, float inset)
{
    size_t word;
    put_u16(text, (unsigned)word_count);
    for (word = 0; word < word_count; word++)
        put_f32(text, 10 * (float)strlen(words[word]));
    put_f32(text, 10);
    put_f32(text, line_height);
    put_f32(text, min_y);
    put_f32(text, inset);
    put_f32(text, inset);
}

static const char *const refusals[] = {
    [BULAMEKI_UNKNOWN_CODE] = "unknown code",
    [BULAMEKI_NOT_FINITE] = "not finite",
    [BULAMEKI_OUT_OF_LIMITS] = "outside its limits",
    [BULAMEKI_WIDTH_FIXED] = "width set after a box",
    [BULAMEKI_BOXES_FULL] = "too many boxes",
    [BULAMEKI_TOO_FAR] = "too far",
    [BULAMEKI_BANDS_FULL] = "too many bands",
    [BULAMEKI_NO_CALCULATOR] = "no calculator",
    [BULAMEKI_TOO_MANY_WORDS] = "too many words",
    [BULAMEKI_NO_LINE_HEIGHT] = "no line height",
};

/* Prints a line of so many bytes as it came, without its line feed, and, where it has numbers, what they say. */
static void print_line(const uint8_t *bytes, size_t len, const struct bulameki_line *line)
{
    char said[128] = "", band[16] = "-";
    if (line->band != BULAMEKI_NO_BAND)
        snprintf(band, sizeof band, "%" PRId32, line->band);
    if (line->letter == 'P')
        snprintf(said, sizeof said, "at %g, %g, steps %" PRIu32, line->x, line->y, line->number);
    else if (line->letter == 'C')
        snprintf(said, sizeof said, "band %s, at %g, %g, width %g", band, line->x, line->y, line->width);
    else if (line->letter == 'B')
        snprintf(said, sizeof said, "band %s, at %g, %g, border %g, stretch %g", band, line->x, line->y, line->width,
                 line->stretch);
    else if (line->letter == 'I')
        snprintf(said, sizeof said, "width %g", line->width);
    else if (line->letter == 'R' && line->number >= 1 && line->number < sizeof refusals / sizeof *refusals)
        snprintf(said, sizeof said, "refused, %s", refusals[line->number]);
    if (said[0])
        printf("%-40.*s %s\n", (int)len - 1, (const char *)bytes, said);
    else
        printf("%.*s\n", (int)len - 1, (const char *)bytes);
}

/* Prints a line of words: where it stands, and what is on it. */
static void print_words(const struct bulameki_line *line)
{
    uint32_t word;
    printf("at %g, %g:", line->x, line->y);
    for (word = line->first; word < line->first + line->count && word < word_count; word++)
        printf(" %s", words[word]);
    printf("\n");
}

/* Whether answers that were all filled with EE still are. */
static const char *left_in(const uint8_t *answers, size_t len)
{
    size_t at;
    for (at = 0; at < len && answers[at] == 0xEE; at++)
        ;
    return at == len ? "nothing written" : "something written";
}

/* Sets the words around the boxes, with a line height of 20, and prints their lines. */
static int set_words(const struct bytes *tape)
{
    struct bytes text = {{0}, 0};
    uint8_t answers[BULAMEKI_WORDS_ROOM(sizeof text.bytes)];
    struct bulameki_line line;
    int64_t written;
    size_t at, took;

    put_words(&text, 20, 0, 0);
    written = bulameki_set_words(tape->bytes, tape->len, text.bytes, text.len, answers, sizeof answers);
    if (written < 0) {
        fprintf(stderr, "page: the text is refused with %" PRId64 "\n", written);
        return 1;
    }
    printf("a text of %zu bytes gives %" PRId64 " bytes of lines\n", text.len, written);
    for (at = 0; at < (size_t)written; at += took) {
        took = bulameki_read_line(answers + at, (size_t)written - at, &line);
        if (took == 0 || line.letter != 'L' || line.count == 0) {
            fprintf(stderr, "page: no line of words begins at byte %zu of the answers\n", at);
            return 1;
        }
        print_words(&line);
    }
    memset(answers, 0xEE, sizeof answers);
    written = bulameki_set_words(tape->bytes, tape->len, text.bytes, text.len, answers, (size_t)written - 1);
    printf("one byte less of room: %" PRId64 ", %s\n", written, left_in(answers, sizeof answers));
    return 0;
}

/* Says which box stands innermost on each side of a band: the one that a finger beside the text touches. */
static void print_touched(const struct bytes *tape, size_t band)
{
    static const char *const sides[] = {"left", "right"};
    uint8_t side;
    printf("beside band %zu:", band);
    for (side = BULAMEKI_LEFT; side <= BULAMEKI_RIGHT; side++) {
        int64_t box = bulameki_innermost(tape->bytes, tape->len, band, side);
        if (box == BULAMEKI_NONE)
            printf(" no box %s", sides[side]);
        else
            printf(" box %" PRId64 " %s", box, sides[side]);
        printf(side == BULAMEKI_LEFT ? "," : "\n");
    }
}

/* Says how far down the scroll bar goes. */
static void print_depth(const uint8_t *tape, size_t len)
{
    int64_t depth = bulameki_depth(tape, len);
    if (depth == BULAMEKI_NONE)
        printf("no box to scroll to\n");
    else
        printf("scrolls down to %g\n", bulameki_float((uint32_t)depth));
}

int main(void)
{
    struct bytes tape = {{0}, 0};
    uint8_t answers[BULAMEKI_ROOM(sizeof tape.bytes)];
    struct bulameki_line line;
    int64_t written;
    size_t at, took, band;

    if (bulameki_environment() != 0) {
        fprintf(stderr, "page: this floating-point environment gives wrong answers, faults %u\n", bulameki_environment());
        return 1;
    }

    page_width(&tape, 480);
    box(&tape, BULAMEKI_LEFT, 96, 48, 0, BULAMEKI_CLEAR_NONE);
    box(&tape, BULAMEKI_RIGHT, 24, 24, 0, BULAMEKI_CLEAR_NONE);
    box(&tape, BULAMEKI_LEFT, 180, 140.5f, 24, BULAMEKI_CLEAR_LEFT);
    box(&tape, BULAMEKI_RIGHT, 320, 20, 24, BULAMEKI_CLEAR_NONE);
    box(&tape, BULAMEKI_RIGHT, 24, 24, 70000, BULAMEKI_CLEAR_NONE);
    content(&tape, 60, 8, BULAMEKI_CLEAR_NONE);
    content(&tape, 60, 8, BULAMEKI_CLEAR_BOTH);
    bfc(&tape, 60, 6, BULAMEKI_RTL);
    calculator(&tape, BULAMEKI_DEFINITE, 200);
    add(&tape, 96, BULAMEKI_LEFT);
    add(&tape, 24, BULAMEKI_RIGHT);
    put_u8(&tape, BULAMEKI_RESULT);

    written = bulameki_run_tape(tape.bytes, tape.len, answers, sizeof answers);
    if (written < 0) {
        fprintf(stderr, "page: refused with %" PRId64 "\n", written);
        return 1;
    }
    printf("a tape of %zu bytes gives %" PRId64 " bytes of lines\n", tape.len, written);
    for (at = 0; at < (size_t)written; at += took) {
        took = bulameki_read_line(answers + at, (size_t)written - at, &line);
        if (took == 0) {
            fprintf(stderr, "page: no line begins at byte %zu of the answers\n", at);
            return 1;
        }
        print_line(answers + at, took, &line);
    }

    if (set_words(&tape) != 0)
        return 1;

    /* Bands are numbered from the top; the last question is one too far. */
    for (band = 0; band <= 5; band++)
        print_touched(&tape, band);
    printf("an unknown side: %" PRId64 "\n", bulameki_innermost(tape.bytes, tape.len, 0, 2));

    /* The first record, of five bytes, is the page width: no box stands yet. */
    print_depth(tape.bytes, 5);
    print_depth(tape.bytes, tape.len);

    /* One byte too little: nothing at all is written. */
    memset(answers, 0xEE, sizeof answers);
    written = bulameki_run_tape(tape.bytes, tape.len, answers, (size_t)written - 1);
    printf("one byte less of room: %" PRId64 ", %s\n", written, left_in(answers, sizeof answers));

    /* Where a length is 0 its pointer may be null. */
    printf("no tape, no room: %" PRId64 "\n", bulameki_run_tape(NULL, 0, NULL, 0));
    printf("a tape, no room: %" PRId64 "\n", bulameki_run_tape(tape.bytes, tape.len, NULL, 0));
    printf("no tape, no band: %" PRId64 "\n", bulameki_innermost(NULL, 0, 0, BULAMEKI_LEFT));
    printf("no tape, no depth: %" PRId64 "\n", bulameki_depth(NULL, 0));
    printf("no tape, no text, no room: %" PRId64 "\n", bulameki_set_words(NULL, 0, NULL, 0, NULL, 0));
    return 0;
}
