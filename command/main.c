/* simmergate: the library for people. One program; its subcommands stand in the table below, with what --help says of them. Each has a file of its name.

   Below them: options (the command line), formula (what is read and shown), typed, caret, cause and names (how people type), source and folder (where it is
   read), simplified, items and compared (calls of the library), shape (trees, without recursion), page (HTML), say (streams and status), write (files), bytes
   and stack (memory). */
#define _GNU_SOURCE
#include "names.h"
#include "options.h"
#include "say.h"
#include "stack.h"
#include "subcommands.h"
#include "write.h"
#include <fcntl.h>
#include <simmergate.h>
#include <string.h>

#define ANY ((size_t)-1)
#define READS (TAKES_LIMIT | TAKES_TYPED | TAKES_FORM | TAKES_NAMES)

static const struct subcommand all[] = {
    {"shorten", "shorten [OPTION ..] [FILE]",
     "Shortens formulas, one a line: the k-th line that is written belongs to the k-th formula.\n"
     "A formula that is refused leaves an empty line, and standard error says which it is and why.\n"
     "With --tabs: line, refusal, place, steps, openings, weight before and after, tries, formula.",
     READS | TAKES_EDITION | TAKES_STEPS | TAKES_TABS | TAKES_OUT, 0, 1, run_shorten},
    {"value", "value [OPTION ..] [FILE] [SYMBOL=NUMBER ..]",
     "The value of formulas, one a line, modulo 2^64, as a signed number. A symbol that a formula\n"
     "reads and that is not given is named, and the formula has no value: status 2.",
     READS | TAKES_OUT, 0, ANY, run_value},
    {"table", "table [OPTION ..] [FILE]",
     "Makes the table of a formula: records of 16 bytes, as the controllers hold them. No bytes go\n"
     "to a terminal. With --lines the formula may go over several lines.",
     READS | TAKES_LINES | TAKES_OUT, 0, 1, run_table},
    {"text", "text [OPTION ..] [FILE]", "The text of a table, or of a formula as it is written exactly.", READS | TAKES_OUT, 0, 1, run_text},
    {"tree", "tree [OPTION ..] [FILE]", "Draws a formula as a tree, a line for each record: its number, what it is, its line mark.",
     READS | TAKES_DOT | TAKES_OUT, 0, 1, run_tree},
    {"differ", "differ [OPTION ..] A B",
     "Where two formulas differ: the pairs of records, with their formulas and lines, and whether\n"
     "the two are equal, the order of members and the lines not counting. Of two folders name by\n"
     "name, and what stands in one of them only. Status 1 where the bytes are not the same. With\n"
     "--tabs a line a pair: both records, both lines, both formulas, equal or not equal; of two\n"
     "folders a line a name: name, what was found, pairs.",
     READS | TAKES_HTML | TAKES_TABS | TAKES_OUT, 2, 2, run_differ},
    {"open", "open [OPTION ..] FORMULA [SYMBOL=CURVE ..]",
     "Puts shared curves in their place and shortens. FORMULA and each CURVE are files; behind -t\n"
     "they are typed: -t s9+s9 -t s9=3*s0^2+40.",
     READS | TAKES_EDITION | TAKES_STEPS | TAKES_OPENED | TAKES_OUT, 1, ANY, run_open},
    {"site", "site [OPTION ..] FOLDER-or-FILE",
     "Shortens a whole site, up to 200 items in one call: the files of a folder, a formula each, in\n"
     "the order of their names, or the formulas of a file, one a line. Every item is reported. With\n"
     "--tabs: name, refusal, place, records, steps, openings, weight before and after, tries; the\n"
     "refusal is - where the item could not be read. With -o the folder is made where it is not\n"
     "there, and what else stands in it is named: status 1.",
     TAKES_LIMIT | TAKES_EDITION | TAKES_FORM | TAKES_NAMES | TAKES_TABS | TAKES_FOLDER, 1, 1, run_site},
    {"takeover", "takeover [OPTION ..] RESULTS [OTHER]",
     "What the second machine does with the results of `site -o`: each is shortened again and must\n"
     "be the same bytes, with no step and no opening. With OTHER, also whether the other machine's\n"
     "results are the same bytes, name by name. Status 1 where not. With --tabs: name, refusal,\n"
     "place, same or other, steps, openings, and of the other machine same, other, missing, not read,\n"
     "or - where nothing was compared; the refusal is - where the item could not be read. What only\n"
     "the other machine has is a line with the refusal - and missing in place of same or other.",
     TAKES_LIMIT | TAKES_EDITION | TAKES_TABS | TAKES_OUT, 1, 2, run_takeover},
    {"link", "link [OPTION ..] [FILE]",
     "Receives a table in pieces, as the serial link delivers it, and judges it as if it had come\n"
     "whole. With -o the table that was received goes to a file.",
     TAKES_LIMIT | TAKES_PIECE | TAKES_OUT, 0, 1, run_link},
    {"settings", "settings FILE init SLOTS | store KEY SETTING [UNIT] | fetch [--old] KEY | remove KEY | list",
     "Settings in a file, under a lock. Keys and units are 0 to 65535, settings signed numbers of\n"
     "64 bits. `init` makes the file, with 1 to 65536 slots, and refuses one that is there.",
     TAKES_OLD, 2, 5, run_settings},
};

#define SUBCOMMANDS (sizeof all / sizeof *all)

static void put_all_help(void) {
    put_format("usage: simmergate SUBCOMMAND [OPTION ..] [OPERAND ..]\n"
               "       simmergate SUBCOMMAND --help\n"
               "       simmergate --help | --version\n\n");
    for (size_t i = 0; i < SUBCOMMANDS; i++) put_format("  simmergate %s\n", all[i].usage);
    put_format("\nAn operand is a file; - or none is standard input; -t FORMULA is a formula. A file whose first\n"
               "byte is 0 to 4 is a table, any other is text. In a text spaces and tabs may stand at the ends\n"
               "and beside + * ^ ( ), and # begins a comment. Symbols are s0 to s255.\n\n"
               "Exit status: 0 done; 1 refused or different; 2 wrong use, or input or output failed. Of several\n"
               "items the highest counts.\n");
}

static const struct subcommand *find(const char *name) {
    for (size_t i = 0; i < SUBCOMMANDS; i++) {
        if (strcmp(all[i].name, name) == 0) return &all[i];
    }
    return NULL;
}

/* A stream that is closed is opened so that its use fails, and no file takes its number. */
static void have_streams(void) {
    for (int fd = 0; fd <= 2; fd++) {
        if (fcntl(fd, F_GETFD) < 0) open("/dev/null", fd == 0 ? O_WRONLY : O_RDONLY);
    }
}

static int carry_out(const struct subcommand *of, int words, char **word) {
    int help = 0;
    carried_out = of->name;
    if (options_read(of, words, word, &help) != DONE) return finish(0);
    if (help) return put_help(of), finish(1);
    if ((of->takes & TAKES_LIMIT) && !have_stack()) return finish(0);
    if (given.names != NULL && names_read(given.names) != DONE) return finish(0);
    if (of->takes & TAKES_OUT) results_to(given.out);
    return finish(of->run());
}

int main(int words, char **word) {
    have_streams();
    take_signals();
    if (words < 2) return complain(FAILED, NULL, "a subcommand is missing; `simmergate --help` lists them"), finish(0);
    if (strcmp(word[1], "--help") == 0) return put_all_help(), finish(1);
    if (strcmp(word[1], "--version") == 0) return put_format("simmergate %u\n", (unsigned)simmergate_release()), finish(1);
    const struct subcommand *of = find(word[1]);
    if (of == NULL) return complain(FAILED, word[1], "there is no such subcommand; `simmergate --help` lists them"), finish(0);
    return carry_out(of, words - 2, word + 2);
}
