/* What the controller's link task does: receives the table of a site formula in pieces, as a serial link delivers them, and has it judged at the
   end as if it had come whole.

     link [-l LIMIT] BYTES FILE

   The file stands for the link: it is read in pieces of BYTES bytes, the last one shorter. The limit is 3,072, or the one that is named. It writes
   how many bytes came, in how many pieces, and the checker's answer in words. What else goes wrong goes to standard error.

   The task keeps two things: the receiver's record, which begins as zeros, and the area, which nobody else may write until the finish. Both
   serve for the next table as they are. */
#define PROGRAM "link"
#include "common.h"

#define MOST_PIECE 65536

static uint8_t receiver[SIMMERGATE_RECEIVER_BYTES]; /* zeros: an empty receiver */
static uint8_t area[MOST_BYTES];
static uint8_t piece[MOST_PIECE];
static size_t limit = 3072, came, pieces;

/* Takes the file in pieces of `size` bytes; 0 after a message. */
static int receive(const char *file, size_t size) {
    FILE *f = fopen(file, "rb");
    if (f == NULL) return complain(file, strerror(errno)), 0;
    for (size_t n; (n = fread(piece, 1, size, f)) > 0; came += n, pieces++) {
        /* a number other than 0 here is said again by the finish */
        simmergate_receive(limit, receiver, sizeof receiver, area, sizeof area, piece, n);
    }
    int failed = ferror(f), why = errno;
    fclose(f);
    return failed ? (complain(file, strerror(why)), 0) : 1;
}

int main(int argc, char **argv) {
    uint8_t answer[SIMMERGATE_CHECK_BYTES];
    take_options(&argc, &argv, &limit, NULL, NULL);
    size_t size = argc == 3 ? whole_number(argv[1]) : 0;
    if (size == 0 || size > MOST_PIECE) {
        fprintf(stderr, "usage: link [-l LIMIT] BYTES FILE (BYTES from 1 to %d, the length of a piece)\n", MOST_PIECE);
        return FAILED;
    }
    if (!receive(argv[2], size)) return FAILED;
    printf("received   %zu bytes in %zu pieces\n", came, pieces);
    /* the finish empties the receiver: how long the table is, it tells before */
    size_t kept = (size_t)number(receiver, SIMMERGATE_AT_RECEIVER_KEPT);
    if (simmergate_receive_finish(limit, receiver, sizeof receiver, area, sizeof area, answer, sizeof answer) != SIMMERGATE_OK) {
        explain(stdout, limit, area, came, answer, SIMMERGATE_AT_CHECK_WHAT);
        return ended(REFUSED);
    }
    printf("ok, %zu records\n", kept / SIMMERGATE_RECORD_BYTES);
    return ended(DONE);
}
