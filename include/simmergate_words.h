/* Refusals, kinds and steps in words, for a person to read: the same words in every program. Beside simmergate.h; it
   uses snprintf and nothing else, and no library code.

   The functions that write text take a buffer and its length, as snprintf does, and return what snprintf does: how
   many characters the text has, without its end mark. SIMMERGATE_WORDS_BYTES are always enough. */
#ifndef SIMMERGATE_WORDS_H
#define SIMMERGATE_WORDS_H

#include "simmergate.h"
#include <stdio.h>

#ifdef __cplusplus
extern "C" {
#endif

/* Bytes that every text below fits in, its end mark included. */
#define SIMMERGATE_WORDS_BYTES 256

/* The kind of a record, its byte 0. */
static inline const char *simmergate_kind_word(unsigned kind) {
    switch (kind) {
    case SIMMERGATE_KIND_INTEGER: return "integer";
    case SIMMERGATE_KIND_SYMBOL: return "symbol";
    case SIMMERGATE_KIND_SUM: return "sum";
    case SIMMERGATE_KIND_PRODUCT: return "product";
    case SIMMERGATE_KIND_POWER: return "power";
    default: return "unknown kind";
    }
}

/* A step, by its byte of `steps`. */
static inline const char *simmergate_step_word(unsigned step) {
    switch (step) {
    case SIMMERGATE_STEP_ADD_ZERO: return "add-zero";
    case SIMMERGATE_STEP_LIKE_TERMS: return "like-terms";
    case SIMMERGATE_STEP_MULTIPLY_ZERO: return "multiply-zero";
    case SIMMERGATE_STEP_MULTIPLY_ONE: return "multiply-one";
    case SIMMERGATE_STEP_LIKE_FACTORS: return "like-factors";
    case SIMMERGATE_STEP_POWER_ONE: return "power-one";
    case SIMMERGATE_STEP_POWER_CONSTANT: return "power-constant";
    case SIMMERGATE_STEP_POWER_POWER: return "power-power";
    default: return "unknown step";
    }
}

/* A refusal by its number alone. Where the answer and the table are at hand, simmergate_explain says more. */
static inline const char *simmergate_refusal_words(unsigned long refusal) {
    switch (refusal) {
    case SIMMERGATE_OK: return "ok";
    case SIMMERGATE_REFUSED_LENGTH: return "it is empty, too long, or no whole number of records of 16 bytes";
    case SIMMERGATE_REFUSED_RECORD: return "a record is malformed";
    case SIMMERGATE_REFUSED_WEIGHT: return "its weight is over the limit";
    case SIMMERGATE_REFUSED_TREE: return "the records end before the formula does, or the formula before the records";
    case SIMMERGATE_REFUSED_EXPONENT: return "an exponent is no integer of at least 1";
    case SIMMERGATE_REFUSED_ROOM: return "an area is too small, or the registers are not 2048 bytes";
    case SIMMERGATE_REFUSED_RANGE: return "an integer leaves the signed 64-bit range";
    case SIMMERGATE_REFUSED_PARTS:
        return "there are too many parts or too few places for answers, or the lengths do not add up";
    case SIMMERGATE_REFUSED_EDITION: return "there is no such edition of the rules: it is 1 or 2";
    case SIMMERGATE_REFUSED_NEWER: return "this area was written by a newer release";
    case SIMMERGATE_REFUSED_AREA:
        return "a record is malformed, a key is there twice, a record follows a free slot, or the slots are not whole";
    case SIMMERGATE_REFUSED_ABSENT: return "there is no setting of this key";
    case SIMMERGATE_REFUSED_FULL: return "the key is new, and no slot is free";
    case SIMMERGATE_REFUSED_TEXT:
        return "no formula in this form: s0 to s255, integers of 64 bits, + * ^ and no spaces, exponents of at least "
               "1, parentheses only where they must stand";
    case SIMMERGATE_REFUSED_DEFINITION: return "a definition is no good table";
    case SIMMERGATE_REFUSED_SYMBOLS: return "over 16 definitions, or a symbol defined twice";
    case SIMMERGATE_REFUSED_CIRCLE: return "a definition leads back to itself";
    case SIMMERGATE_REFUSED_OPENED: return "opened, it weighs over the limit";
    case SIMMERGATE_REFUSED_LIMIT: return "there is no such limit: it is 3072 or 16384";
    default: return "unknown refusal";
    }
}

/* "refused 2 at 3 byte 7": a refusal and its place, and after 2 what is wrong with the record. `what_at` says where
   the answer has WHAT, as SIMMERGATE_AT_SIMPLIFY_WHAT; 0 where it has none, as that of simmergate_read_text. */
static inline int simmergate_refused(char *to, size_t room, const uint8_t *answer, size_t what_at) {
    unsigned long refusal = (unsigned long)simmergate_number(answer, SIMMERGATE_AT_REFUSAL);
    unsigned long place = (unsigned long)simmergate_number(answer, SIMMERGATE_AT_PLACE);
    if (refusal == SIMMERGATE_REFUSED_RECORD && what_at != 0) {
        switch (simmergate_number(answer, what_at)) {
        case SIMMERGATE_WRONG_KIND: return snprintf(to, room, "refused %lu at %lu kind", refusal, place);
        case SIMMERGATE_WRONG_BYTE:
            return snprintf(to, room, "refused %lu at %lu byte %lu", refusal, place,
                            (unsigned long)simmergate_number(answer, what_at + 1));
        case SIMMERGATE_WRONG_COUNT: return snprintf(to, room, "refused %lu at %lu count", refusal, place);
        }
    }
    return snprintf(to, room, "refused %lu at %lu", refusal, place);
}

/* What is wrong with the record of a table that is refused by 2. */
static inline int simmergate_explain_record(char *to, size_t room, const uint8_t *table, const uint8_t *answer,
                                            size_t what_at) {
    unsigned long place = (unsigned long)simmergate_number(answer, SIMMERGATE_AT_PLACE);
    const uint8_t *record = table + SIMMERGATE_RECORD_BYTES * place;
    unsigned long byte = (unsigned long)simmergate_number(answer, what_at + 1);
    switch (simmergate_number(answer, what_at)) {
    case SIMMERGATE_WRONG_KIND: return snprintf(to, room, "record %lu has the unknown kind %u", place, record[0]);
    case SIMMERGATE_WRONG_BYTE:
        return snprintf(to, room, "byte %lu of record %lu is %u and must be zero", byte, place, record[byte]);
    default: return snprintf(to, room, "record %lu has fewer than two members", place);
    }
}

/* What a refusal of a call on formulas means, in one sentence, by the limit, the table that it speaks of and the
   answer. A table that is not at hand is NULL: then less is said. After simmergate_read_text hand in NULL, and 0 for
   `what_at`; after simmergate_receive_finish the area and the bytes that came. */
static inline int simmergate_explain(char *to, size_t room, size_t limit, const uint8_t *table, size_t table_bytes,
                                     const uint8_t *answer, size_t what_at) {
    unsigned long refusal = (unsigned long)simmergate_number(answer, SIMMERGATE_AT_REFUSAL);
    unsigned long place = (unsigned long)simmergate_number(answer, SIMMERGATE_AT_PLACE);
    unsigned long bytes = (unsigned long)table_bytes, most = (unsigned long)SIMMERGATE_TABLE_BYTES(limit);
    switch (refusal) {
    case SIMMERGATE_REFUSED_LENGTH:
        if (table == NULL) break;
        if (bytes == 0) return snprintf(to, room, "it is empty");
        if (bytes > most) return snprintf(to, room, "it is longer than %lu bytes", most);
        if (bytes % SIMMERGATE_RECORD_BYTES == 0) break; /* of a receiver whose record says that more came */
        return snprintf(to, room, "%lu bytes are no whole number of records of 16 bytes", bytes);
    case SIMMERGATE_REFUSED_RECORD:
        if (table == NULL || what_at == 0) break;
        return simmergate_explain_record(to, room, table, answer, what_at);
    case SIMMERGATE_REFUSED_WEIGHT: return snprintf(to, room, "its weight is over %lu", (unsigned long)limit);
    case SIMMERGATE_REFUSED_TREE:
        if (table == NULL) break;
        if (place == bytes / SIMMERGATE_RECORD_BYTES)
            return snprintf(to, room, "the records end before the formula does");
        return snprintf(to, room, "the formula ends before record %lu", place);
    case SIMMERGATE_REFUSED_EXPONENT:
        return snprintf(to, room, "record %lu is an exponent and no integer of at least 1", place);
    case SIMMERGATE_REFUSED_RANGE:
        return snprintf(to, room, "after %lu steps an integer leaves the signed 64-bit range", place);
    case SIMMERGATE_REFUSED_OPENED: return snprintf(to, room, "opened, it weighs over %lu", (unsigned long)limit);
    }
    return snprintf(to, room, "%s", simmergate_refusal_words(refusal));
}

/* What a refusal of a call on settings means, in one sentence, by the area's length and the key. */
static inline int simmergate_explain_settings(char *to, size_t room, unsigned long refusal, size_t area_bytes,
                                              unsigned key) {
    unsigned long slots = (unsigned long)(area_bytes / SIMMERGATE_SLOT_BYTES);
    switch (refusal) {
    case SIMMERGATE_REFUSED_AREA:
        if (area_bytes % SIMMERGATE_SLOT_BYTES != 0)
            return snprintf(to, room, "%lu bytes are no whole number of slots of %d bytes", (unsigned long)area_bytes,
                            SIMMERGATE_SLOT_BYTES);
        return snprintf(to, room, "a record is malformed, a key is there twice, or a record follows a free slot");
    case SIMMERGATE_REFUSED_ABSENT: return snprintf(to, room, "there is no setting of key %u", key);
    case SIMMERGATE_REFUSED_FULL:
        return snprintf(to, room, "key %u is new, and none of the %lu slots is free", key, slots);
    default: return snprintf(to, room, "%s", simmergate_refusal_words(refusal));
    }
}

#ifdef __cplusplus
}
#endif

#endif
