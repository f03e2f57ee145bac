/* link: a table received in pieces. */
#include "formula.h"
#include "say.h"
#include "subcommands.h"
#include "write.h"
#include <simmergate.h>
#include <stdlib.h>

static uint8_t receiver[SIMMERGATE_RECEIVER_BYTES]; /* zeros: an empty receiver */

/* Takes the source in pieces, the last one shorter; how many there are. */
static size_t receive(struct source *from, uint8_t *area, size_t room, size_t *came) {
    size_t pieces = 0;
    /* past the room nothing more is kept: a link that never ends is not waited for */
    for (size_t n; *came <= room && (n = source_rest(from, given.piece)) > 0 && !from->failed; pieces++) {
        /* a number other than 0 here is said again by the finish */
        simmergate_receive(given.limit, receiver, sizeof receiver, area, room, from->read.at + from->from, n);
        from->from += n, *came += n;
        if (from->from == from->read.n) from->from = from->read.n = 0;
    }
    return pieces;
}

/* The report, and the table where it is asked for. */
static int judge(const char *of, uint8_t *area, size_t room, size_t came, size_t pieces) {
    uint8_t answer[SIMMERGATE_CHECK_BYTES];
    size_t kept = (size_t)simmergate_number(receiver, SIMMERGATE_AT_RECEIVER_KEPT); /* the finish empties the record */
    put_format("received %zu bytes in %zu pieces\n", came, pieces);
    if (simmergate_receive_finish(given.limit, receiver, sizeof receiver, area, room, answer, sizeof answer) != SIMMERGATE_OK)
        return complain_refused(of, area, came, answer, SIMMERGATE_AT_CHECK_WHAT);
    put_format("ok\n");
    return given.out == NULL ? DONE : write_whole(given.out, area, kept);
}

int run_link(void) {
    struct source from;
    size_t room = SIMMERGATE_TABLE_BYTES(given.limit), came = 0;
    results_to(NULL); /* the report is no file */
    if (!source_open(&from, the_input().word)) return 0;
    uint8_t *area = allot(room);
    size_t pieces = receive(&from, area, room, &came);
    if (!from.failed) judge(from.name, area, room, came, pieces);
    free(area);
    source_close(&from);
    return 1;
}
