/* The likely cause of a refusal 14, in words. */
#include "caret.h"

static int is_digit(int c) { return c >= '0' && c <= '9'; }

static int is_letter(int c) { return (c >= 'a' && c <= 'z') || (c >= 'A' && c <= 'Z') || c == '_'; }

/* Characters that no formula has. */
static const char *strange(int c) {
    switch (c) {
    case '/': return "there is no division";
    case '.':
    case ',': return "numbers are whole, with no point and no comma";
    case '=': return "a formula has no =";
    case '[':
    case ']':
    case '{':
    case '}': return "parentheses are ( and )";
    default: break;
    }
    if (c < 0x20 || c > 0x7e) return "this is no character of a formula";
    return "this is no sign of a formula: those are + * ^ ( ) and the - of a negative number";
}

static const char *letter(int named) {
    return named ? "no symbol and no name that --names gives" : "no symbol: these are s0 to s255, other names need --names FILE";
}

static const char *for_operand(int c, int named) {
    if (c == ')') return "nothing stands before this )";
    if (c == '+' || c == '*' || c == '^') return "a number, a symbol or ( must stand before this sign";
    return is_letter(c) ? letter(named) : strange(c);
}

static const char *for_minus(int c) {
    if (c == '0') return "0 has no sign";
    if (c == '(' || is_letter(c)) return "the sign - is that of a number: write -1* before a symbol or (";
    return "the number is missing behind the sign -";
}

static const char *for_exponent(int c) { return c == '0' ? "an exponent is at least 1" : "an exponent is a whole number of at least 1, without parentheses"; }

static const char *for_digit(const struct caret *reader) {
    if (reader->place >= CARET_SUM) return "+ * or ^ is missing before this number";
    if (reader->number == 0) return "a number does not begin with 0";
    switch (reader->place) {
    case CARET_SYMBOL: return "symbols are s0 to s255";
    case CARET_EXPONENT: return "an exponent is at most 9223372036854775807";
    default: return "integers go from -9223372036854775808 to 9223372036854775807";
    }
}

/* Why what stands in parentheses here needs something behind it that is not there. */
static const char *for_closed(const struct caret *reader) {
    switch (reader->place) {
    case CARET_POWER: return "parentheses stand round a power only where it is a base, as in (s0^2)^3";
    case CARET_NEGATIVE_BASE: return "parentheses stand round a negative number only where it is a base, as in (-2)^3";
    default: return "parentheses do not stand round a product that is a member of a sum, or the whole formula";
    }
}

static const char *for_close(const struct caret *reader) {
    if (reader->around.n == 0) return "no ( stands open here";
    if (reader->place >= CARET_PRODUCT && !(reader->place == CARET_PRODUCT && reader->star)) return for_closed(reader);
    return reader->place == CARET_SUM ? "two pairs of parentheses stand round the same sum" : "parentheses do not stand round a single number or symbol";
}

static const char *for_power(const struct caret *reader) {
    return reader->place == CARET_NEGATIVE ? "a negative number as a base stands in parentheses: (-2)^3" : "a power as a base stands in parentheses: (s0^2)^3";
}

/* Behind an operand. */
static const char *for_sign(const struct caret *reader, int c, int named) {
    switch (c) {
    case '+':
    case '*': return for_closed(reader);
    case '^': return for_power(reader);
    case ')': return for_close(reader);
    case '(': return "+ * or ^ is missing before this (";
    case '-': return "nothing is taken away: add what has -1 before it, as in s0+-1*s1";
    default: break;
    }
    if (is_digit(c)) return for_digit(reader);
    if (!is_letter(c)) return strange(c);
    return reader->place == CARET_SYMBOL || c != 's' ? letter(named) : "+ * or ^ is missing before this symbol";
}

static const char *for_end(const struct caret *reader) {
    switch (reader->place) {
    case CARET_OPERAND: return "a number, a symbol or ( is missing at the end";
    case CARET_MINUS: return "the number is missing behind the sign -";
    case CARET_S: return "the number of the symbol is missing: s0 to s255";
    case CARET_TO_EXPONENT: return "the exponent is missing";
    case CARET_POWER:
    case CARET_NEGATIVE_BASE: return for_closed(reader);
    default: break;
    }
    if (reader->around.n > 0) return "a ) is missing at the end";
    return reader->place == CARET_SUM ? "parentheses do not stand round the whole formula" : for_closed(reader);
}

const char *caret_cause(const struct caret *reader, int c, int named) {
    if (c < 0) return for_end(reader);
    if (c == ' ' || c == '\t' || c == '\n' || c == '\r') return "a space inside a number or a name, or between two operands";
    switch (reader->place) {
    case CARET_OPERAND: return for_operand(c, named);
    case CARET_MINUS: return for_minus(c);
    case CARET_S: return is_letter(c) ? letter(named) : "the number of the symbol is missing: s0 to s255";
    case CARET_TO_EXPONENT: return for_exponent(c);
    default: return for_sign(reader, c, named);
    }
}
