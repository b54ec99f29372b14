/* Tests of the headers: the environment check in each changed mode, the example and the room of a text, and the reader of
   lines on lines, cuts and any bytes. */
#include <inttypes.h>
#include <signal.h>
#include <stdio.h>
#include <stdlib.h>
#include <sys/mman.h>
#include <sys/wait.h>
#include <unistd.h>

#include "bulameki_lines.h"

static int wrong;

static void expect(int holds, const char *what)
{
    if (!holds) {
        printf("headers: WRONG: %s\n", what);
        wrong = 1;
    }
}

/* The environment */

static void set_mxcsr(uint32_t mxcsr)
{
    __asm__ volatile("ldmxcsr %0" : : "m"(mxcsr));
}

static const uint32_t as_started = 0x1F80;

static const struct mode {
    const char *name;
    uint32_t mxcsr;
    unsigned faults;
} modes[] = {
    {"as C starts it", 0x1F80, 0},
    {"rounding down", 0x3F80, BULAMEKI_ROUNDING},
    {"rounding up", 0x5F80, BULAMEKI_ROUNDING},
    {"rounding to zero", 0x7F80, BULAMEKI_ROUNDING},
    {"subnormal results flushed", 0x9F80, BULAMEKI_FLUSHED},
    {"subnormal operands read as zero", 0x1FC0, BULAMEKI_READ_AS_ZERO},
    {"flushed, read as zero, rounding to zero", 0xFFC0, BULAMEKI_ROUNDING | BULAMEKI_FLUSHED | BULAMEKI_READ_AS_ZERO},
    {"invalid operation unmasked", 0x1F00, BULAMEKI_UNMASKED},
    {"subnormal operand unmasked", 0x1E80, BULAMEKI_UNMASKED},
    {"division by zero unmasked", 0x1D80, BULAMEKI_UNMASKED},
    {"overflow unmasked", 0x1B80, BULAMEKI_UNMASKED},
    {"underflow unmasked", 0x1780, BULAMEKI_UNMASKED},
    {"inexact result unmasked", 0x0F80, BULAMEKI_UNMASKED},
};

/* Where a sum of two boxes' widths rounds, and where a height is subnormal, a changed mode shows in the lines. */
static const uint8_t sensitive[] = {
    1, 0x00, 0x00, 0xC8, 0x42,                                                                        /* width 100 */
    2, 0, 0, 0xCD, 0xCC, 0xCC, 0x3D, 1, 0, 0, 0, 0, 0, 0, 0, 0, 0, 0, 0, 0, 0, 0, 0,                  /* left 0.1x1e-45 */
    2, 0, 0, 0xCD, 0xCC, 0x4C, 0x3E, 0, 0, 0x20, 0x41, 0, 0, 0, 0, 0, 0, 0, 0, 0, 0, 0, 0,            /* left 0.2x10 */
    2, 0, 0, 0x33, 0x33, 0x33, 0x3F, 0, 0, 0x20, 0x41, 0, 0, 0, 0, 0, 0, 0, 0, 0, 0, 0, 0,            /* left 0.7x10 */
    2, 1, 0, 0x9A, 0x99, 0x99, 0x3E, 0, 0, 0x20, 0x41, 0, 0, 0, 0, 0, 0, 0, 0, 0, 0, 0, 0,            /* right 0.3x10 */
    2, 1, 0, 0x9A, 0x99, 0x99, 0x3E, 0, 0, 0x20, 0x41, 0, 0, 0, 0, 0, 0, 0, 0, 0, 0, 0, 0,            /* right 0.3x10 */
    3, 0, 0, 0, 0, 0, 0, 0, 0, 0, 0, 0, 0, 0, 0xFF, 0xFF,                                             /* content */
};

static void check_mode(const struct mode *mode)
{
    uint8_t plain[BULAMEKI_ROOM(sizeof sensitive)], changed[sizeof plain];
    int64_t n = bulameki_run_tape(sensitive, sizeof sensitive, plain, sizeof plain), m = -1;
    unsigned faults;
    int run = mode->faults != BULAMEKI_UNMASKED, same;
    set_mxcsr(mode->mxcsr);
    faults = bulameki_environment();
    if (run)
        m = bulameki_run_tape(sensitive, sizeof sensitive, changed, sizeof changed);
    set_mxcsr(as_started);
    same = m == n && memcmp(plain, changed, (size_t)n) == 0;
    printf("%-40s faults %u%s\n", mode->name, faults, !run ? "" : same ? ", the same lines" : ", other lines");
    expect(faults == mode->faults, mode->name);
    expect(!run || same == (mode->faults == 0), "the lines change with the environment");
}

/* A width of NaN with the invalid operation unmasked: an emulator may not deliver the exception, so nothing is counted. */
static void say_whether_it_ends(void)
{
    static const uint8_t nan[] = {1, 0, 0, 0xC0, 0x7F};
    int status = 0;
    pid_t child = fork();
    if (child == 0) {
        uint8_t lines[BULAMEKI_ROOM(sizeof nan)];
        set_mxcsr(0x1F00);
        bulameki_run_tape(nan, sizeof nan, lines, sizeof lines);
        _exit(0);
    }
    waitpid(child, &status, 0);
    fprintf(stderr, "headers: invalid operation unmasked, a NaN: %s (not counted)\n",
            WIFSIGNALED(status) && WTERMSIG(status) == SIGFPE ? "the program ends, as bulameki.h says"
                                                              : "not delivered here, so not shown");
}

/* The text */

/* The tape and the text of bulameki.h. */
static const uint8_t box[] = {1, 0, 0, 0xC8, 0x42, 2, 0, 0, 0, 0, 0x20, 0x41, 0, 0, 0xF0, 0x41,
                              0, 0, 0, 0, 0, 0, 0, 0, 0, 0, 0, 0};
static const uint8_t text[] = {3, 0, 0, 0, 0x20, 0x42, 0, 0, 0x48, 0x42, 0, 0, 0xF0, 0x41, 0, 0, 0x80, 0x40,
                               0, 0, 0x40, 0x41, 0, 0, 0, 0, 0, 0, 0, 0, 0, 0, 0, 0};

static void expect_words(size_t box_len, const uint8_t *bytes, size_t len, const char *lines)
{
    uint8_t set[BULAMEKI_WORDS_ROOM(BULAMEKI_TEXT_LEN(BULAMEKI_MOST_WORDS))];
    int64_t n = bulameki_set_words(box, box_len, bytes, len, set, BULAMEKI_WORDS_ROOM(len));
    expect(n == (int64_t)strlen(lines) && memcmp(set, lines, (size_t)n) == 0, lines);
}

/* Puts a float's bits at a place of a text. */
static void put(uint8_t *bytes, size_t at, uint32_t bits)
{
    size_t byte;
    for (byte = 0; byte < 4; byte++)
        bytes[at + byte] = (uint8_t)(bits >> 8 * byte);
}

static void check_words(void)
{
    static const size_t rooms[][2] = {{0, 8}, {22, 8}, {25, 8}, {26, 28}, {30, 56}, {2066, 14308}, {2070, 14336},
                                      {2074, 14336}, {262162, 14336}};
    static const uint8_t none[BULAMEKI_TEXT_LEN(0)], most[BULAMEKI_TEXT_LEN(512)] = {0, 2},
        more[BULAMEKI_TEXT_LEN(513)] = {1, 2};
    static const char two[] = "L 41200000 00000000 0 1\nL 41200000 41400000 1 2\n";
    const size_t second = 6, height = 18, min_y = 22;
    uint8_t changed[sizeof text + 1] = {0};
    size_t at;
    for (at = 0; at < sizeof rooms / sizeof *rooms; at++)
        expect(BULAMEKI_WORDS_ROOM(rooms[at][0]) == rooms[at][1], "the room of a text");
    expect(sizeof text == BULAMEKI_TEXT_LEN(3), "the length of a text");
    expect_words(sizeof box, text, sizeof text, two);
    memcpy(changed, text, sizeof text);
    put(changed, height, 0x47800000); /* 65,536: the second line ends at 131,072 */
    expect_words(sizeof box, changed, sizeof text, "L 41200000 00000000 0 1\nL 00000000 47800000 1 2\n");
    put(changed, min_y, 0x3C800000); /* and a 64th further down */
    expect_words(sizeof box, changed, sizeof text, "R 6\n");
    put(changed, height, 0);
    expect_words(sizeof box, changed, sizeof text, "R 10\n");
    put(changed, second, 0xBF800000); /* -1 */
    expect_words(sizeof box, changed, sizeof text, "R 3\n");
    put(changed, second, 0x7FC00000);
    expect_words(sizeof box, changed, sizeof text, "R 2\n");
    expect_words(sizeof box, none, sizeof none, "R 10\n");
    expect_words(sizeof box, most, sizeof most, "R 10\n");
    expect_words(sizeof box, more, sizeof more, "R 9\n");
    expect_words(sizeof box, changed, sizeof text - 1, "T 0\n");
    expect_words(sizeof box, changed, sizeof text + 1, "T 0\n");
    expect_words(sizeof box, NULL, 0, "T 0\n");
    expect_words(sizeof box - 1, NULL, 0, "T 5\n");
    puts("text: its lines, refusals and room");
}

/* The lines */

/* Prints a line anew. */
static int print(char *to, size_t room, const struct bulameki_line *line)
{
    char band[16] = "-";
    uint32_t x = bulameki_bits(line->x), y = bulameki_bits(line->y), width = bulameki_bits(line->width);
    if (line->band != BULAMEKI_NO_BAND)
        snprintf(band, sizeof band, "%" PRId32, line->band);
    switch (line->letter) {
    case 'P':
        return snprintf(to, room, "P %08" PRIX32 " %08" PRIX32 " %" PRIu32 "\n", x, y, line->number);
    case 'C':
        return snprintf(to, room, "C %s %08" PRIX32 " %08" PRIX32 " %08" PRIX32 "\n", band, x, y, width);
    case 'B':
        return snprintf(to, room, "B %s %08" PRIX32 " %08" PRIX32 " %08" PRIX32 " %08" PRIX32 "\n", band, x, y, width,
                        bulameki_bits(line->stretch));
    case 'I':
        return snprintf(to, room, "I %08" PRIX32 "\n", width);
    case 'R':
    case 'T':
        return snprintf(to, room, "%c %" PRIu32 "\n", line->letter, line->number);
    case 'L':
        return line->count == 0 ? snprintf(to, room, "L\n")
                                : snprintf(to, room, "L %08" PRIX32 " %08" PRIX32 " %" PRIu32 " %" PRIu32 "\n", x, y,
                                           line->first, line->count);
    default:
        return snprintf(to, room, "%c\n", line->letter);
    }
}

/* Bytes that end where a page ends behind which nothing may be read. */
static uint8_t *edge;

/* The length that is read from so many bytes; a line that is read is the one that stands there. */
static size_t read_at_edge(const void *bytes, size_t len)
{
    struct bulameki_line line;
    char again[64];
    size_t took;
    memcpy(edge - len, bytes, len);
    took = bulameki_read_line(edge - len, len, &line);
    if (took != 0)
        expect(took <= len && (size_t)print(again, sizeof again, &line) == took && memcmp(again, bytes, took) == 0,
               "a line that was read is printed as it stands");
    return took;
}

static const char *const lines[] = {
    "N\n", "W\n", "S\n", "A\n", "L\n", "P 00000000 42FE8000 192\n", "P 00000000 00000000 0\n",
    "C 95 41200000 00000000 42B40000\n", "C - C1200000 FF7FFFFF 00000001\n",
    "B 1 41200000 00000000 42B40000 42BA0000\n", "B - 9ABCDEF0 12345678 0F0F0F0F F0F0F0F0\n",
    "I 48000000\n", "R 1\n", "R 13\n", "T 0\n", "T 65535\n", "L 00000000 C2FE8000 0 512\n", "L 42C00000 00000001 511 1\n",
};

static const char *const no_lines[] = {
    "", "\n", "n\n", "N", "N \n", "N 1\n", "X\n", "R\n", "R \n", "R 01\n", "R 1 \n", "R  1\n", "R -\n", "T 123456\n", "T -1\n",
    "C 1 4120000 00000000 42B40000\n", "C 1 4120000a 00000000 42B40000\n", "C  41200000 00000000 42B40000\n",
    "C -1 41200000 00000000 42B40000\n", "C 1 41200000 00000000\n", "P 00000000 00000000 -\n", "I\n", "I 480000000\n",
    "I 48000000\r\n", "B 1 41200000 00000000 42B40000\n", "L \n", "L 1\n", "L\r\n", "L 42C00000 00000000 0\n",
    "L 42C00000 00000000 0 0\n", "L 42C00000 00000000 00 1\n", "L 42C00000 00000000 - 1\n", "L 42C00000 00000000 0 1 \n",
};

static void check_lines(void)
{
    size_t page = (size_t)sysconf(_SC_PAGESIZE), number, len, at;
    uint8_t *two = mmap(NULL, 2 * page, PROT_READ | PROT_WRITE, MAP_PRIVATE | MAP_ANONYMOUS, -1, 0);
    uint32_t random = 1;
    size_t read = 0;
    if (two == MAP_FAILED || mprotect(two + page, page, PROT_NONE) != 0) {
        perror("headers: no guard page");
        exit(1);
    }
    edge = two + page;
    for (number = 0; number < sizeof lines / sizeof *lines; number++) {
        char copy[64];
        strcpy(copy, lines[number]);
        len = strlen(copy);
        expect(read_at_edge(copy, len) == len, lines[number]);
        strcpy(copy + len, "W\n");
        expect(read_at_edge(copy, len + 2) == len, "a line before another");
        for (at = 0; at < len; at++) {
            char old = copy[at];
            int byte;
            expect(read_at_edge(copy, at) == 0, "a cut line");
            for (byte = 0; byte < 256; byte++) {
                copy[at] = (char)byte;
                read += read_at_edge(copy, len) != 0;
            }
            copy[at] = old;
        }
    }
    for (number = 0; number < sizeof no_lines / sizeof *no_lines; number++)
        expect(read_at_edge(no_lines[number], strlen(no_lines[number])) == 0, no_lines[number]);
    for (number = 0; number < 200000; number++) {
        char bytes[64];
        random = random * 1664525 + 1013904223;
        len = random >> 26;
        for (at = 0; at < len; at++) {
            random = random * 1664525 + 1013904223;
            bytes[at] = "NWPCBSAIRTL 0123456789ABCDEF-\n\n  "[random >> 16 & 31];
        }
        read += read_at_edge(bytes, len) != 0;
    }
    printf("lines read anew: %zu\n", read);
}

int main(void)
{
    size_t at;
    for (at = 0; at < sizeof modes / sizeof *modes; at++)
        check_mode(&modes[at]);
    say_whether_it_ends();
    check_words();
    check_lines();
    puts(wrong ? "headers: not as expected" : "headers: as expected");
    return wrong;
}
