#include "caret.h"

#define LARGEST 9223372036854775807u /* of the integers; one more is the smallest without its sign */

void caret_begin(struct caret *reader) {
    reader->place = CARET_OPERAND;
    reader->number = 0;
    reader->plus = reader->star = 0;
    reader->around.n = 0;
}

void caret_free(struct caret *reader) { bytes_free(&reader->around); }

static int is_digit(int c) { return c >= '0' && c <= '9'; }

/* ---- Operands ---- */

static int begin_number(struct caret *reader, enum caret_place place, uint8_t c, char least) {
    if (!is_digit(c) || c < least) return 0;
    reader->place = place;
    reader->number = (uint64_t)(c - '0');
    return 1;
}

static void open_pair(struct caret *reader) {
    uint8_t both = (uint8_t)(reader->plus + 2 * reader->star);
    bytes_add(&reader->around, &both, 1);
    reader->plus = reader->star = 0;
}

static int begin_operand(struct caret *reader, uint8_t c) {
    switch (c) {
    case '(': open_pair(reader); return 1;
    case '-': reader->place = CARET_MINUS; return 1;
    case 's': reader->place = CARET_S; return 1;
    default: return begin_number(reader, CARET_NUMBER, c, '0');
    }
}

static uint64_t most_of(enum caret_place place) { return place == CARET_SYMBOL ? 255 : place == CARET_NEGATIVE ? LARGEST + 1 : LARGEST; }

/* One digit more, where no zero leads and the number stays in its range. */
static int more_digits(struct caret *reader, uint8_t c) {
    uint64_t digit = (uint64_t)(c - '0');
    if (reader->number == 0 || reader->number > (most_of(reader->place) - digit) / 10) return 0;
    reader->number = 10 * reader->number + digit;
    return 1;
}

/* ---- What an operand may be ---- */

static int can_be_base(enum caret_place place) { return place != CARET_NEGATIVE && place != CARET_EXPONENT; }

static int can_be_factor(enum caret_place place) { return place != CARET_POWER && place != CARET_NEGATIVE_BASE; }

/* A product in parentheses is a member of a product, or a base, and not of a sum. */
static int can_end_member(const struct caret *reader) {
    return can_be_factor(reader->place) && (reader->place != CARET_PRODUCT || reader->star);
}

static int alone(const struct caret *reader) { return !reader->plus && !reader->star; }

/* What ) makes of what stands before it; CARET_OPERAND where parentheses do not stand round it. */
static enum caret_place closed(const struct caret *reader) {
    if (reader->around.n == 0 || !can_end_member(reader)) return CARET_OPERAND;
    if (reader->plus) return CARET_SUM;
    if (reader->star) return CARET_PRODUCT;
    if (reader->place == CARET_EXPONENT) return CARET_POWER;
    return reader->place == CARET_NEGATIVE ? CARET_NEGATIVE_BASE : CARET_OPERAND;
}

static int close_pair(struct caret *reader) {
    enum caret_place place = closed(reader);
    if (place == CARET_OPERAND) return 0;
    uint8_t both = reader->around.at[--reader->around.n];
    reader->place = place, reader->plus = both & 1, reader->star = both >> 1;
    return 1;
}

int caret_may_end(const struct caret *reader) {
    if (reader->place < CARET_NUMBER || reader->around.n > 0 || !can_end_member(reader)) return 0;
    return !alone(reader) || reader->place <= CARET_EXPONENT;
}

/* ---- Signs ---- */

static int step_sign(struct caret *reader, uint8_t c) {
    switch (c) {
    case '+':
        if (!can_end_member(reader)) return 0;
        reader->plus = 1, reader->star = 0, reader->place = CARET_OPERAND;
        return 1;
    case '*':
        if (!can_be_factor(reader->place)) return 0;
        reader->star = 1, reader->place = CARET_OPERAND;
        return 1;
    case '^':
        if (!can_be_base(reader->place)) return 0;
        reader->place = CARET_TO_EXPONENT;
        return 1;
    case ')': return close_pair(reader);
    default: return 0;
    }
}

int caret_step(struct caret *reader, uint8_t c) {
    switch (reader->place) {
    case CARET_OPERAND: return begin_operand(reader, c);
    case CARET_MINUS: return begin_number(reader, CARET_NEGATIVE, c, '1');
    case CARET_S: return begin_number(reader, CARET_SYMBOL, c, '0');
    case CARET_TO_EXPONENT: return begin_number(reader, CARET_EXPONENT, c, '1');
    case CARET_NUMBER:
    case CARET_NEGATIVE:
    case CARET_SYMBOL:
    case CARET_EXPONENT: return is_digit(c) ? more_digits(reader, c) : step_sign(reader, c);
    default: return step_sign(reader, c);
    }
}

size_t caret_at(struct caret *reader, const char *text, size_t n) {
    size_t i = 0;
    caret_begin(reader);
    while (i < n && caret_step(reader, (uint8_t)text[i])) i++;
    return i;
}
