/* simmergate_words.h: every refusal, kind and step has words of its own, also where the numbers in them are the largest there are, and they fit in
   SIMMERGATE_WORDS_BYTES; a number that is none has none. */
#include "../../include/simmergate_words.h"
#include <stdlib.h>
#include <string.h>

enum { REFUSALS = SIMMERGATE_REFUSED_LIMIT + 1, SENTENCES = 64 };

static char said[SENTENCES][SIMMERGATE_WORDS_BYTES];
static int sentences;

/* A sentence that was not said before, and fits. */
static void take(const char *sentence, int length) {
    if (length != (int)strlen(sentence) || length >= SIMMERGATE_WORDS_BYTES) printf("words: cut off: %s\n", sentence), exit(1);
    for (int i = 0; i < sentences; i++) {
        if (strcmp(said[i], sentence) == 0) printf("words: said of two: %s\n", sentence), exit(1);
    }
    strcpy(said[sentences++], sentence);
}

static void put(uint8_t *answer, size_t i, uint64_t number) {
    for (size_t k = 0; k < 8; k++) answer[8 * i + k] = (uint8_t)(number >> 8 * k);
}

/* What is explained of a refusal with this place, of a table of so many bytes. */
static void explained(uint64_t refusal, uint64_t place, uint64_t what, size_t bytes) {
    static const uint8_t table[2 * SIMMERGATE_RECORD_BYTES] = {255};
    uint8_t answer[SIMMERGATE_CHECK_BYTES];
    char sentence[SIMMERGATE_WORDS_BYTES];
    put(answer, SIMMERGATE_AT_REFUSAL, refusal), put(answer, SIMMERGATE_AT_PLACE, place);
    put(answer, SIMMERGATE_AT_CHECK_WHAT, what), put(answer, SIMMERGATE_AT_CHECK_BYTE, what == SIMMERGATE_WRONG_BYTE ? 15 : 0);
    int n = simmergate_explain(sentence, sizeof sentence, 16384, table, bytes, answer, SIMMERGATE_AT_CHECK_WHAT);
    take(sentence, n);
    n = simmergate_refused(sentence, sizeof sentence, answer, SIMMERGATE_AT_CHECK_WHAT);
    take(sentence, n);
}

int main(void) {
    char sentence[SIMMERGATE_WORDS_BYTES];
    for (unsigned long i = 0; i < REFUSALS; i++) take(simmergate_refusal_words(i), (int)strlen(simmergate_refusal_words(i)));
    for (unsigned i = 0; i <= SIMMERGATE_KIND_POWER; i++) take(simmergate_kind_word(i), (int)strlen(simmergate_kind_word(i)));
    for (unsigned i = 1; i <= SIMMERGATE_STEP_POWER_POWER; i++) {
        if (i != 5) take(simmergate_step_word(i), (int)strlen(simmergate_step_word(i)));
    }
    take(simmergate_refusal_words(REFUSALS), (int)strlen(simmergate_refusal_words(REFUSALS)));
    take(simmergate_kind_word(5), (int)strlen(simmergate_kind_word(5))), take(simmergate_step_word(5), (int)strlen(simmergate_step_word(5)));
    explained(SIMMERGATE_REFUSED_LENGTH, 0, 0, 17);
    explained(SIMMERGATE_REFUSED_RECORD, 0, SIMMERGATE_WRONG_KIND, 16);
    explained(SIMMERGATE_REFUSED_RECORD, 1, SIMMERGATE_WRONG_BYTE, 32);
    explained(SIMMERGATE_REFUSED_RECORD, 1, SIMMERGATE_WRONG_COUNT, 32);
    explained(SIMMERGATE_REFUSED_WEIGHT, 0, 0, 32);
    explained(SIMMERGATE_REFUSED_TREE, 2, 0, 32);
    explained(SIMMERGATE_REFUSED_TREE, ~(uint64_t)0, 0, 32);
    explained(SIMMERGATE_REFUSED_EXPONENT, ~(uint64_t)0, 0, 32);
    explained(SIMMERGATE_REFUSED_RANGE, ~(uint64_t)0, 0, 32);
    explained(SIMMERGATE_REFUSED_OPENED, 0, 0, 32);
    take(sentence, simmergate_explain_settings(sentence, sizeof sentence, SIMMERGATE_REFUSED_AREA, ~(size_t)0, 65535));
    take(sentence, simmergate_explain_settings(sentence, sizeof sentence, SIMMERGATE_REFUSED_ABSENT, ~(size_t)0, 65535));
    take(sentence, simmergate_explain_settings(sentence, sizeof sentence, SIMMERGATE_REFUSED_FULL, ~(size_t)0, 65535));
    printf("words: %d sentences of simmergate_words.h, no two the same, each in %d bytes\n", sentences, SIMMERGATE_WORDS_BYTES);
    return 0;
}
