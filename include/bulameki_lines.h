/* Reads an answer line of bulameki_run_tape or bulameki_set_words into its numbers: no heap, and safe on any bytes. */
#ifndef BULAMEKI_LINES_H
#define BULAMEKI_LINES_H

#include "bulameki.h"

#ifdef __cplusplus
extern "C" {
#endif

/* The band of a slot that has none. */
#define BULAMEKI_NO_BAND (-1)

/* A line. What its letter does not have is 0. */
struct bulameki_line {
    char letter;     /* N, W, P, C, B, S, A, I, R, T or L, as bulameki.h lists them */
    int32_t band;    /* of C and B: a band's number, or BULAMEKI_NO_BAND */
    uint32_t number; /* of P the steps, of R the refusal, of T the offset */
    uint32_t first;  /* of L, where it is a line of words: the number of its first word, counted from 0 */
    uint32_t count;  /* of L: how many words the line has; 0 where L stands for a tape that is too long */
    float x, y;      /* of P, C, B and a line of words */
    float width;     /* of C and I; of B what the border box may measure */
    float stretch;   /* of B: what auto width gives */
};

/* Each of the three below takes one field from at on, where a line has a blank and the field, and gives the place after
   it; 0 if it is not there. */
static inline size_t bulameki_take_whole(const uint8_t *lines, size_t len, size_t at, uint32_t *value)
{
    size_t first = at + 1;
    if (at == 0 || at >= len || lines[at] != ' ')
        return 0;
    *value = 0;
    for (at = first; at < len && at - first < 5 && lines[at] >= '0' && lines[at] <= '9'; at++)
        *value = *value * 10 + (lines[at] - (uint32_t)'0');
    return at == first || (lines[first] == '0' && at - first > 1) ? 0 : at;
}

static inline size_t bulameki_take_band(const uint8_t *lines, size_t len, size_t at, int32_t *band)
{
    uint32_t value = 0;
    if (at != 0 && at + 1 < len && lines[at] == ' ' && lines[at + 1] == '-') {
        *band = BULAMEKI_NO_BAND;
        return at + 2;
    }
    at = bulameki_take_whole(lines, len, at, &value);
    *band = (int32_t)value;
    return at;
}

static inline size_t bulameki_take_float(const uint8_t *lines, size_t len, size_t at, float *value)
{
    uint32_t bits = 0;
    size_t digit;
    if (at == 0 || at >= len || len - at < 9 || lines[at] != ' ')
        return 0;
    for (digit = at + 1; digit < at + 9; digit++) {
        uint8_t byte = lines[digit];
        if (byte >= '0' && byte <= '9')
            bits = bits << 4 | (uint32_t)(byte - '0');
        else if (byte >= 'A' && byte <= 'F')
            bits = bits << 4 | (uint32_t)(byte - 'A' + 10);
        else
            return 0;
    }
    *value = bulameki_float(bits);
    return at + 9;
}

/* Reads the line with which the len bytes at lines begin. Returns its length, the line feed counted, or 0 if they do not
   begin with a whole line of those that bulameki.h lists; then *line is of no use. To read all lines:

       for (at = 0; at < (size_t)n && (took = bulameki_read_line(lines + at, (size_t)n - at, &line)) != 0; at += took) */
static inline size_t bulameki_read_line(const uint8_t *lines, size_t len, struct bulameki_line *line)
{
    size_t at = 1;
    memset(line, 0, sizeof *line);
    if (len == 0)
        return 0;
    line->letter = (char)lines[0];
    switch (line->letter) {
    case 'N':
    case 'W':
    case 'S':
    case 'A':
        break;
    case 'L':
        if (len > 1 && lines[1] == '\n')
            break;
        at = bulameki_take_float(lines, len, at, &line->x);
        at = bulameki_take_float(lines, len, at, &line->y);
        at = bulameki_take_whole(lines, len, at, &line->first);
        at = bulameki_take_whole(lines, len, at, &line->count);
        if (line->count == 0)
            return 0;
        break;
    case 'R':
    case 'T':
        at = bulameki_take_whole(lines, len, at, &line->number);
        break;
    case 'P':
        at = bulameki_take_float(lines, len, at, &line->x);
        at = bulameki_take_float(lines, len, at, &line->y);
        at = bulameki_take_whole(lines, len, at, &line->number);
        break;
    case 'C':
    case 'B':
        at = bulameki_take_band(lines, len, at, &line->band);
        at = bulameki_take_float(lines, len, at, &line->x);
        at = bulameki_take_float(lines, len, at, &line->y);
        at = bulameki_take_float(lines, len, at, &line->width);
        if (line->letter == 'B')
            at = bulameki_take_float(lines, len, at, &line->stretch);
        break;
    case 'I':
        at = bulameki_take_float(lines, len, at, &line->width);
        break;
    default:
        return 0;
    }
    return at != 0 && at < len && lines[at] == '\n' ? at + 1 : 0;
}

#ifdef __cplusplus
}
#endif

#endif
