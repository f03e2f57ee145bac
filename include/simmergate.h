/* Simmergate: formulas as tables of records, judged, weighed, evaluated, compared, told apart, simplified, one by one
   or a whole site in one call, received in pieces, and read and written as text; and settings that survive an
   upgrade.

   This is the third release: SIMMERGATE_RELEASE, and simmergate_release() of the library that is linked. Callers of the
   second have nothing to change. Callers of the first: compile again, and do not link old object files; docs/MOVING.md
   says what to change. What the numbers mean in words, for a person to read: simmergate_words.h.

   ---- How a call is made ----

   Every call on formulas takes the limit L first: the greatest weight that it accepts, 3,072 or 16,384. A call that
   simplifies takes the edition of the rules next, 1 or 2. Then come the slices, each as a pointer and its length in
   bytes, `answer` last; those that are not const are lent to be written. A call on settings has neither limit nor
   edition, and takes its area first, then the key.

   Every call but simmergate_release returns the refusal number, 0 where nothing is refused. The numbers of its answer
   go to the front of `answer`, 8 bytes each, little-endian, in the order named at the call: first the number that it
   returns, then the place that the table of refusals names; simmergate_number(answer, i) reads number i, and
   SIMMERGATE_AT_SIMPLIFY_STEPS and its like name each i. After a refusal all numbers behind these two are 0, but for
   WHAT and BYTE after 2, and for the one in simmergate_equal and simmergate_differ that says which table is refused.
   Where `answer` is too short for the numbers, the call returns 6 before all else and changes nothing.
   simmergate_receive, simmergate_settings_store and simmergate_settings_remove have no `answer`, since the number that
   they return is all that they have to say; simmergate_batch has `answers`, as told there.

   A refusal changes no byte of any slice but `answer`, with two exceptions: 7 leaves what simmergate_simplify and
   simmergate_simplify_shared say, and a finish with 1 to 5 empties its receiver. Bytes past what a call is said to
   write never change, of `answer` or of any other slice.

   A slice that is lent to be written overlaps no other slice of the same call; const ones may be the same bytes. A
   pointer may be anything where its length is 0, and needs no alignment. Nothing is allocated, nothing is kept between
   calls, and calls on different areas may run at the same time. Of the C library memcpy, memmove and memset are
   called, and nothing else.

   libsimmergate.a is code for x86-64 as Linux has it: ELF, position-independent, called by the System V ABI (a size_t
   has 64 bits), for any x86-64 processor: nothing beyond SSE2, and no floating-point number; arm/archive makes one for
   64-bit Arm. It throws nothing, raises no signal, and has no data that it writes. Tables, answers and settings are
   bytes in a stated order: they are the same on every machine.

   ---- What a call costs ----

   A call waits for nothing. How its time grows, with n for the number of records:

     check, weight, value, differ,    with n
     receive_finish, write_text
     receive                          with the bytes of the piece
     open                             with the records handed in and those of the opened table
     equal                            with n where the records are the same but for marks, and for most others; where
                                      members stand in another order at the worst with the square of n, but for the
                                      integers of a wide tree, which are sorted
     simplify                         little more than with W for most formulas, with the square of W for long chains
                                      that all open; what the slowest formulas known take stands in README, "How slow
                                      can it get?". SIMMERGATE_WORK_BYTES(L) bytes are cleared besides, however short
                                      the table
     batch                            what its items would take one by one, but `work` is cleared once
     simplify_shared                  what opening takes, and simplifying the opened table
     read_text, settings              as told there

   Steps, openings and tries are the numbers of the rules as they are written, to which both machines of a pair can be
   held, and no measure of time: the library often finds out for many nodes at once that no step applies, and counts a
   try for each. How many instructions it comes to: bench/FIGURES.md. Instructions that are told below and there were
   counted on the archive of release 3, which the older kit made (CHANGELOG.md).

   ---- Tables ----

   A table holds records of 16 bytes, the tree in the order parent, then members from first to last; numbers are
   little-endian, and records count from 0:

     byte     integer     symbol      sum         product     power
     0        0           1           2           3           4             the kind
     1        0           0           0           0           0
     2-3      0           0           members     members     0             how many, at least 2
     4-5      mark        mark        mark        mark        mark
     6-7      0           0           0           0           0
     8        integer     symbol      0           0           0             a symbol is 0 to 255
     9-15     integer     0           0           0           0             an integer is signed, of 64 bits, bytes 8-15

   A power has its base and then its exponent, an integer record of at least 1. The weight W of a table is its number
   of records, and 2 more for each symbol record.

   At L = 16,384 a table has up to 262,144 bytes, at 3,072 up to 49,152; a table up to the lower limit has the same
   answers and the same bytes at both, where `work` is as long as the limit asks for. Both machines of a pair take the
   same limit, or a heavy result is refused with 1 or 3 by the one that has the lower, never misread.

   ---- What simplifying does ----

   At a node the steps are tried in the order of their numbers, and after one that applies again from the first on;
   where none does, the same is done with each member, and what is nested is opened; this until nothing is left to do.
   Simplifying a result gives the same bytes, with no step and no opening: that is what the second machine of a pair
   does when it takes over.

     1   add-zero         a member 0 of a sum is dropped                          s0+0 is s0
     2   like-terms       terms that differ in their coefficient alone add up     s0+2*s0 is 3*s0
     3   multiply-zero    a product with a member 0 is 0                          s0*0 is 0
     4   multiply-one     a member 1 of a product is dropped                      s0*1 is s0
     6   like-factors     exponents of one base add up; integers under one        s0*s0^2 is s0^3
                          exponent multiply                                       2^3*5^3 is 10^3
     7   power-one        edition two: exponent 1 gives the base                  s0^1 is s0
     8   power-constant   edition two: base 0 gives 0, base 1 gives 1             1^9 is 1
     9   power-power      edition two: a power of a power                         (s0^2)^3 is s0^6

   An opening: a sum among the members of a sum, or a product among those of a product, gives way to its members;
   s0+(s1+s2) is s0+s1+s2. In steps 2 and 6 each member has its turn, from the first to the last, and takes up each
   later one that is like it; the last member moves into the place of one that was taken up, so that s0+s0+s1+s2 is
   2*s0+s2+s1. A coefficient stands before what it multiplies, but is the last member of a product of two or more
   others: s0*s1+s1*s0 is s0*s1*2.

   A line mark says which line of the sheet a record comes from, 0 for none. Weight, value and equality ignore marks,
   and no step looks at them; simplifying carries them along. In steps 2 and 6 every member that comes out has the
   mark that it had when its turn began, and so have its coefficient, its exponent and a base that was multiplied; what
   is below keeps its own. A 0 or a 1 that stands for a node takes that node's mark; a single member that is left, and
   the base in step 7, keep theirs; step 9 keeps the outer power's mark and its exponent's. The mark of an opened node,
   and of a symbol that its definition replaces, is lost. A release before marks refuses a marked record with 2.

   ---- Refusals ----

   Calls are named without `simmergate_`. "Tables" are the calls that judge a table: check, weight, value, equal,
   differ, simplify, receive_finish, open, simplify_shared, write_text, and batch for each item, in the item's place
   of `answers`. "Settings" are the four on settings. W is the weight of the table, in open and simplify_shared that
   of the opened table. Where there is no `answer`, there is no place.

     number  calls              given exactly when                                          place
     1       tables             the table's length is zero, no multiple of 16, or over      0
                                16 x L bytes
             receive_finish     also where the receiver's record is past the limit, as      0
                                told there
     2       tables             a record has a kind over 4, a byte other than zero that     first such record
                                must be zero, or a sum or product count under 2
     3       tables             the table weighs over L                                     0
             read_text          the text is of the form, and its tree weighs over L         0
     4       tables             the records end before the tree,                            number of records
                                or the tree before the records                              first record too many
     5       tables             an exponent is no integer record of at least 1              first such exponent record
     6       all with `answer`  `answer` is too short for the numbers; it does not change,  none
                                either
             value              `registers` has not SIMMERGATE_REGISTERS_BYTES bytes        0
             simplify           `out` is under 16 x W bytes, `steps` under W, or `work`     0
                                under SIMMERGATE_WORK_BYTES(L)
             batch              the same for an item, of what remains of `out` and `steps`  0, in the item's place
             simplify_shared    the same, or `opened` is under 16 x W bytes                 0
             open               `opened` is under 16 x W bytes                              0
             differ             `list` is under 16 bytes a pair                             0
             read_text          `table` is under 16 bytes for each record                   0
             write_text         `text` is shorter than the text of the table                0
             receive,           `receiver` is under SIMMERGATE_RECEIVER_BYTES bytes, or     0 after the finish, for
             receive_finish     `area` under SIMMERGATE_TABLE_BYTES(L)                      `area`; else none
     7       simplify, batch,   simplifying meets an integer outside the signed 64-bit      steps completed before it
             simplify_shared    range
     8       batch              there are over SIMMERGATE_ITEMS items, `lengths` is no      none
                                multiple of 8 bytes, the lengths do not add up to the
                                bytes of `tables`, or `answers` has fewer places than
                                items
             open,              `lengths` is not 8 bytes for each of `symbols`, or the      0
             simplify_shared    lengths do not add up to the bytes of `definitions`
     9       simplify, batch,   there is no such edition of the rules: it is neither 1 nor  0; of batch none
             simplify_shared    2
     10      settings           byte 0 of a whole record is over the newest version that    0
                                the release knows: 2 for store, fetch and remove, 1 for
                                fetch_1
     11      settings           a record is malformed (a byte other than zero that must be  0
                                zero), a key is there twice, a record follows a free slot,
                                or the length is no multiple of SIMMERGATE_SLOT_BYTES
     12      settings but store the key is absent                                           0
     13      settings_store     the key is new and no slot is free                          none
     14      read_text          the text is not of the form: no tree has it, whatever its   0
                                weight
     15      open,              a definition, used or not, would be refused by 1 to 5       0
             simplify_shared
     16      the same two       there are over SIMMERGATE_DEFINITIONS definitions, or a     0
                                symbol is defined twice
     17      the same two       a definition that the formula reaches, by itself or by way  0
                                of others, leads back to itself
     18      the same two       the opened table weighs over L                              0
     19      all but settings   there is no such limit: it is neither 3,072 nor 16,384      0

   They are judged in this order, and the first that applies is given:

     read_text         6 for `answer`, 19, 14, 3, 6 for `table`
     receive           6 for `receiver`, 19, 6 for `area`
     receive_finish    6 for `receiver` and `answer`, 19, 6 for `area`, 1 to 5
     settings          6 for `answer`, 10, 11, 12, 13
     all others        6 for `answer`, 19, 9, 8, 1 to 5, 15, 16, 17, 18, 6 for the other slices, 7

   Of two tables, the first is judged by 1 to 5 before the second.

   WHAT and BYTE, last in every answer on a table but for the tries, say after 2 what is wrong with the record at that
   place: WHAT is 1 for its kind, 2 for a byte other than zero that must be zero, 3 for its count, the lowest of these
   that is so; BYTE is the lowest such byte, from 1 to 15, where WHAT is 2. Else both are 0. */
#ifndef SIMMERGATE_H
#define SIMMERGATE_H

#include <stddef.h>
#include <stdint.h>

#ifdef __cplusplus
extern "C" {
#endif

/* ---- Stack ----

   Bytes of stack that a call needs at the most, counted from the call on, at the limit 3,072 and at 16,384, whatever it
   is handed. They are bounds, told from the machine code for x86-64 (tests/stack): from its frames, from who calls
   whom, and from the nodes that an accepted table can have one inside the other, 1,535 at the one limit and 8,191 at
   the other. Of memcpy and its like the return address alone is counted; a loader that binds them at their first call
   may take some 2,000 bytes more, which the names below have room for.

     simmergate_check                2,184        2,184   whatever the depth
     simmergate_weight               2,184        2,184   whatever the depth
     simmergate_value              100,496      526,480
     simmergate_equal              126,328      672,120
     simmergate_differ               2,296        2,296   whatever the depth
     simmergate_simplify            75,896      395,384   by either edition
     simmergate_batch               76,024      395,512   by either edition
     simmergate_receive                104          104   whatever the piece
     simmergate_receive_finish       2,216        2,216   whatever the depth
     simmergate_open                 4,760        4,760   whatever the depth
     simmergate_simplify_shared     76,824      396,312   by either edition
     simmergate_write_text          98,472      524,456
     simmergate_read_text           98,840      524,824   for any text
     simmergate_settings_store       1,224        1,224   whatever the area
     simmergate_settings_fetch       1,208        1,208   whatever the area
     simmergate_settings_fetch_1     1,208        1,208   whatever the area
     simmergate_settings_remove      1,272        1,272   whatever the area
     simmergate_release                 32           32

   On 64-bit Arm equality takes 96 bytes a level in place of 80, and writing a text 80 in place of 64, so that the names
   are larger there (arm/archive, tests/arm); the other calls need what they need here, and at most 300 bytes more.

   SIMMERGATE_STACK bytes, or SIMMERGATE_STACK_16384, are enough for every call.

   A thread may have less than that, or no more than that for all of its functions: musl gives it 131,072 bytes, a
   controller's operating system often a few thousand; glibc gives what `ulimit -s` says, as a rule 8,388,608. Where
   that is too little, ask for it when the thread is made (pthread_attr_setstacksize), and for what its own functions
   need besides. */
#if defined(__aarch64__)
#define SIMMERGATE_STACK 155648
#define SIMMERGATE_STACK_16384 819200
#else
#define SIMMERGATE_STACK 131072
#define SIMMERGATE_STACK_16384 688128
#endif
#define SIMMERGATE_READ_TEXT_STACK SIMMERGATE_STACK /* the same two, by earlier names */
#define SIMMERGATE_READ_TEXT_STACK_16384 SIMMERGATE_STACK_16384

/* ---- Numbers by name ---- */

/* The release that this header belongs to. */
#define SIMMERGATE_RELEASE 3

/* What a call returns, and number SIMMERGATE_AT_REFUSAL of every answer. */
enum simmergate_refusal {
    SIMMERGATE_OK = 0,
    SIMMERGATE_REFUSED_LENGTH = 1,
    SIMMERGATE_REFUSED_RECORD = 2,
    SIMMERGATE_REFUSED_WEIGHT = 3,
    SIMMERGATE_REFUSED_TREE = 4,
    SIMMERGATE_REFUSED_EXPONENT = 5,
    SIMMERGATE_REFUSED_ROOM = 6,
    SIMMERGATE_REFUSED_RANGE = 7,
    SIMMERGATE_REFUSED_PARTS = 8,
    SIMMERGATE_REFUSED_EDITION = 9,
    SIMMERGATE_REFUSED_NEWER = 10,
    SIMMERGATE_REFUSED_AREA = 11,
    SIMMERGATE_REFUSED_ABSENT = 12,
    SIMMERGATE_REFUSED_FULL = 13,
    SIMMERGATE_REFUSED_TEXT = 14,
    SIMMERGATE_REFUSED_DEFINITION = 15,
    SIMMERGATE_REFUSED_SYMBOLS = 16,
    SIMMERGATE_REFUSED_CIRCLE = 17,
    SIMMERGATE_REFUSED_OPENED = 18,
    SIMMERGATE_REFUSED_LIMIT = 19
};

/* WHAT is wrong with a record that is refused by 2. */
enum simmergate_wrong {
    SIMMERGATE_WRONG_KIND = 1,
    SIMMERGATE_WRONG_BYTE = 2,
    SIMMERGATE_WRONG_COUNT = 3
};

/* Byte 0 of a record. */
enum simmergate_kind {
    SIMMERGATE_KIND_INTEGER = 0,
    SIMMERGATE_KIND_SYMBOL = 1,
    SIMMERGATE_KIND_SUM = 2,
    SIMMERGATE_KIND_PRODUCT = 3,
    SIMMERGATE_KIND_POWER = 4
};

/* A byte of `steps`. */
enum simmergate_step {
    SIMMERGATE_STEP_ADD_ZERO = 1,
    SIMMERGATE_STEP_LIKE_TERMS = 2,
    SIMMERGATE_STEP_MULTIPLY_ZERO = 3,
    SIMMERGATE_STEP_MULTIPLY_ONE = 4,
    SIMMERGATE_STEP_LIKE_FACTORS = 6,
    SIMMERGATE_STEP_POWER_ONE = 7,
    SIMMERGATE_STEP_POWER_CONSTANT = 8,
    SIMMERGATE_STEP_POWER_POWER = 9
};

/* Which number of an answer is which: simmergate_number(answer, SIMMERGATE_AT_WEIGHT_WEIGHT). Those of CHECK are
   simmergate_receive_finish's, too, those of SIMPLIFY simmergate_simplify_shared's and those of a place of
   simmergate_batch; RECEIVER are the two numbers of a receiver's record. */
enum simmergate_at {
    SIMMERGATE_AT_REFUSAL = 0, /* of every answer */
    SIMMERGATE_AT_PLACE = 1,   /* of every answer */
    SIMMERGATE_AT_CHECK_WHAT = 2,
    SIMMERGATE_AT_CHECK_BYTE = 3,
    SIMMERGATE_AT_WEIGHT_WEIGHT = 2,
    SIMMERGATE_AT_WEIGHT_WHAT = 3,
    SIMMERGATE_AT_WEIGHT_BYTE = 4,
    SIMMERGATE_AT_VALUE_VALUE = 2,
    SIMMERGATE_AT_VALUE_WHAT = 3,
    SIMMERGATE_AT_VALUE_BYTE = 4,
    SIMMERGATE_AT_EQUAL_WHICH = 2, /* the table that is refused: 1, 2, or 0 for neither */
    SIMMERGATE_AT_EQUAL_YES = 3,
    SIMMERGATE_AT_EQUAL_WHAT = 4,
    SIMMERGATE_AT_EQUAL_BYTE = 5,
    SIMMERGATE_AT_DIFFER_WHICH = 2,
    SIMMERGATE_AT_DIFFER_PAIRS = 3,
    SIMMERGATE_AT_DIFFER_WHAT = 4,
    SIMMERGATE_AT_DIFFER_BYTE = 5,
    SIMMERGATE_AT_SIMPLIFY_RECORDS = 2,
    SIMMERGATE_AT_SIMPLIFY_STEPS = 3,
    SIMMERGATE_AT_SIMPLIFY_OPENINGS = 4,
    SIMMERGATE_AT_SIMPLIFY_WEIGHT_IN = 5, /* W */
    SIMMERGATE_AT_SIMPLIFY_WEIGHT_OUT = 6,
    SIMMERGATE_AT_SIMPLIFY_WHAT = 7,
    SIMMERGATE_AT_SIMPLIFY_BYTE = 8,
    SIMMERGATE_AT_SIMPLIFY_TRIES = 9,
    SIMMERGATE_AT_OPEN_RECORDS = 2,
    SIMMERGATE_AT_OPEN_WEIGHT = 3,
    SIMMERGATE_AT_OPEN_WHAT = 4,
    SIMMERGATE_AT_OPEN_BYTE = 5,
    SIMMERGATE_AT_READ_TEXT_RECORDS = 2,
    SIMMERGATE_AT_WRITE_TEXT_LENGTH = 2,
    SIMMERGATE_AT_WRITE_TEXT_WHAT = 3,
    SIMMERGATE_AT_WRITE_TEXT_BYTE = 4,
    SIMMERGATE_AT_SETTINGS_FETCH_SETTING = 2,
    SIMMERGATE_AT_SETTINGS_FETCH_UNIT = 3,
    SIMMERGATE_AT_SETTINGS_FETCH_1_SETTING = 2,
    SIMMERGATE_AT_RECEIVER_KEPT = 0,
    SIMMERGATE_AT_RECEIVER_MORE = 1
};

/* Number i of an answer, or of any other slice of numbers of 8 bytes, little-endian: lengths, a list of pairs, a
   receiver's record. The slice has at least 8 x (i + 1) bytes. */
static inline uint64_t simmergate_number(const uint8_t *answer, size_t i) {
    uint64_t number = 0;
    size_t k;
    for (k = 8; k > 0; k--) number = number << 8 | answer[8 * i + k - 1];
    return number;
}

/* ---- Lengths by name ---- */

/* Bytes of a record. */
#define SIMMERGATE_RECORD_BYTES 16

/* Bytes of the longest table that a limit lets pass, and of the `work` that it asks for. An area `out` or `opened` of
   SIMMERGATE_TABLE_BYTES(L) bytes and an area `steps` of L bytes are always long enough, but for simmergate_batch,
   whose items share them. */
#define SIMMERGATE_TABLE_BYTES(limit) (16 * (limit))
#define SIMMERGATE_WORK_BYTES(limit) ((limit) == 3072 ? 65536 : 524288)

/* Bytes that the text of any table of this weight fits in; of any accepted table with the limit. */
#define SIMMERGATE_TEXT_BYTES(weight) (21 * (weight))

/* Bytes of the registers, of the receiver's record, and of a slot for a setting. */
#define SIMMERGATE_REGISTERS_BYTES 2048
#define SIMMERGATE_RECEIVER_BYTES 16
#define SIMMERGATE_RECEIVER SIMMERGATE_RECEIVER_BYTES /* the same, by its earlier name */
#define SIMMERGATE_SLOT_BYTES 32

/* The most items of a site, and the most definitions of a formula. */
#define SIMMERGATE_ITEMS 200
#define SIMMERGATE_DEFINITIONS 16

/* Bytes of `answer` that each call needs. */
#define SIMMERGATE_CHECK_BYTES 32 /* simmergate_receive_finish, too */
#define SIMMERGATE_WEIGHT_BYTES 40
#define SIMMERGATE_VALUE_BYTES 40
#define SIMMERGATE_EQUAL_BYTES 48
#define SIMMERGATE_DIFFER_BYTES 48
#define SIMMERGATE_SIMPLIFY_BYTES 80 /* simmergate_simplify_shared, too, and a place of simmergate_batch */
#define SIMMERGATE_OPEN_BYTES 48
#define SIMMERGATE_READ_TEXT_BYTES 24
#define SIMMERGATE_WRITE_TEXT_BYTES 40
#define SIMMERGATE_SETTINGS_FETCH_BYTES 32
#define SIMMERGATE_SETTINGS_FETCH_1_BYTES 24

/* ---- The release ---- */

/* The release of the library that is linked: SIMMERGATE_RELEASE where header and library belong together. It returns
   this number and no refusal. Two machines of one release simplify alike, by the same limit and edition; a pair may
   ask each other before it trusts that. */
uint32_t simmergate_release(void);

/* ---- One table, or two ---- */

/* Judges a table. The answer: refusal number, place, WHAT, BYTE. */
uint32_t simmergate_check(size_t limit, const uint8_t *table, size_t table_bytes, uint8_t *answer, size_t answer_bytes);

/* Weighs a table. The answer: refusal number, place, weight, WHAT, BYTE. */
uint32_t simmergate_weight(size_t limit, const uint8_t *table, size_t table_bytes, uint8_t *answer,
                           size_t answer_bytes);

/* Evaluates a table modulo 2^64. `registers` is 256 numbers of 8 bytes, little-endian, symbol 0 first:
   SIMMERGATE_REGISTERS_BYTES. The answer: refusal number, place, value, WHAT, BYTE. */
uint32_t simmergate_value(size_t limit, const uint8_t *table, size_t table_bytes, const uint8_t *registers,
                          size_t registers_bytes, uint8_t *answer, size_t answer_bytes);

/* Compares the trees of two tables: integers and symbols by number, powers by base and exponent, sums and products by
   their members in any order, each as often in the one as in the other; nothing is opened first. The answer: refusal
   number, place, which table is refused (1, 2, or 0 for neither), yes 1 or no 0 (no after a refusal), WHAT, BYTE. */
uint32_t simmergate_equal(size_t limit, const uint8_t *a, size_t a_bytes, const uint8_t *b, size_t b_bytes,
                          uint8_t *answer, size_t answer_bytes);

/* Lists what differs between two tables, their trees walked in step: where kind, count, number and line mark of two
   records agree the walk goes on to their members, where they do not it reports the pair of record numbers and goes
   no deeper. A power's exponent is its second member. The pairs go to the front of `list`, each once, in walking
   order, 16 bytes each: the record number in the first table, then that in the second, 8 bytes each, little-endian.
   There is no pair exactly when the tables are the same bytes; trees that are equal in another order of members or
   under other marks have pairs, and simmergate_equal says that they are equal. A list as long as the shorter of the
   two tables always suffices, and so does one of SIMMERGATE_TABLE_BYTES(L). The answer: refusal number, place, which
   table is refused (1, 2, or 0 for neither), pairs, WHAT, BYTE. */
uint32_t simmergate_differ(size_t limit, const uint8_t *a, size_t a_bytes, const uint8_t *b, size_t b_bytes,
                           uint8_t *list, size_t list_bytes, uint8_t *answer, size_t answer_bytes);

/* ---- Simplifying ---- */

/* Simplifies a table by the rules of an edition; edition two has those of edition one and besides them the steps 7, 8
   and 9, on powers. A result of edition one may be unfinished in edition two: both machines of a pair must take the
   same. Where nothing is refused, the result's records go to `out` and the numbers of its steps, one byte each,
   to `steps`, with zeros up to 16 x W and W bytes; after 7 these two stretches are zeros throughout; in both cases
   the first SIMMERGATE_WORK_BYTES(L) bytes of `work` are zero. Bytes past the stretches never change. The answer:
   refusal number, place, records written, steps, openings, weight of the table, weight of the result, WHAT, BYTE,
   tries. A try is one asking, at one node, whether any step applies. There are at most as many as the cube of the
   table's weight, and even as its square; no accepted table takes more than 7,080,959 tries at L = 3,072, or
   201,342,975 at 16,384, and a result takes one for each record. Tries are counted as the rules are written, whether
   the code has to ask or not: they are a budget, no measure of time. */
uint32_t simmergate_simplify(size_t limit, size_t edition, const uint8_t *table, size_t table_bytes, uint8_t *out,
                             size_t out_bytes, uint8_t *steps, size_t steps_bytes, uint8_t *work, size_t work_bytes,
                             uint8_t *answer, size_t answer_bytes);

/* Simplifies a whole site, at most SIMMERGATE_ITEMS items: their tables end to end in `tables`, and in `lengths`
   their lengths in bytes, 8 bytes each, little-endian. The call as a whole is refused by 19, 9 or 8, and then changes
   nothing. Else it returns 0, whatever becomes of the items: look at each item's own answer. `answers` has a place of
   SIMMERGATE_SIMPLIFY_BYTES for each item, in their order, which gets the numbers that simmergate_simplify answers;
   where it is too short for the items the call returns 8, not 6.

   Each item is handed what remains of `out` and `steps`, and all of `work`. An item with 0 or 7 in its place uses up
   16 x W bytes of `out` and W of `steps`, and any other none; so what item i left begins in `out` at 16 times, and in
   `steps` at, the sum of the W of the items before it that have 0 or 7. After 0, W is the sixth number of the item's
   place; after 7 it is not there, and simmergate_weight tells it. An item with 6 found too little left, or too little
   `work`; the next one is tried all the same, and may have the room. Of `work` the first SIMMERGATE_WORK_BYTES(L)
   bytes are zero afterwards if any item has 0 or 7 in its place; else it is as it was. With `out` of 16 x W and
   `steps` of W bytes for all items together, and `work` of SIMMERGATE_WORK_BYTES(L), each item answers as it would
   alone. Without weighing anything: an `out` of 3 x tables_bytes and `steps` of tables_bytes always suffice, since a
   record weighs 3 at the most. */
uint32_t simmergate_batch(size_t limit, size_t edition, const uint8_t *tables, size_t tables_bytes,
                          const uint8_t *lengths, size_t lengths_bytes, uint8_t *out, size_t out_bytes, uint8_t *steps,
                          size_t steps_bytes, uint8_t *work, size_t work_bytes, uint8_t *answers,
                          size_t answers_bytes);

/* ---- Tables over the serial link ----

   A receiver takes a table in pieces of any lengths, one byte or none among them, keeps their bytes in an area and
   answers at the finish as simmergate_check does on the whole: no cut alters the answer, its place or the bytes kept.

   The link task keeps the receiver's record, SIMMERGATE_RECEIVER_BYTES: how many bytes of the area are the table's,
   and whether more came than are kept (0 for no), 8 bytes each, little-endian. The second number becomes 1 with the
   first byte that is not kept, and stays so until the finish: it says that bytes were dropped, and not how many. The
   finish empties the record, so the table's length is to be read before it, as simmergate_number(receiver,
   SIMMERGATE_AT_RECEIVER_KEPT). Zero bytes begin. Any 16 bytes are a record: they are judged at every call and never
   trusted, so that a record of rubbish costs one table, which is refused or is not the one that came, and no byte
   outside the area.

   The area has at least SIMMERGATE_TABLE_BYTES(L) bytes, and the same bytes are handed to every call from the first
   piece to the finish. Nobody else may write its first bytes, as many as the record counts, between the calls: what
   the checker finds is what stands there at the finish. The library writes behind them what a piece brings, and no
   byte from SIMMERGATE_TABLE_BYTES(L) on.

   Past the limit: of a piece that is longer than the room that is left, the front is kept that there is room for, the
   record says that more came, and nothing more is kept; the finish answers 1 at 0, as the checker does on so long a
   table. A record whose count is over SIMMERGATE_TABLE_BYTES(L) is past the limit, too, and so is any second number
   that is not 0. Such a record stays as it is until the finish.

   After 6 and 19 the same call can be made again with what it asks for. Otherwise simmergate_receive returns 0, also
   for a piece of which nothing is kept, since it is past the limit; and the finish gives 0 or 1 to 5. Every finish but
   one with 6 or 19 empties the receiver, an accepted one as well as a refused one: 16 zero bytes, ready for the next
   table. The area's bytes stay. */

/* Takes a piece. The number that it returns is 0, 6 or 19. */
uint32_t simmergate_receive(size_t limit, uint8_t *receiver, size_t receiver_bytes, uint8_t *area, size_t area_bytes,
                            const uint8_t *piece, size_t piece_bytes);

/* Finishes the table. The answer is that of simmergate_check on all the bytes that came: refusal number, place, WHAT,
   BYTE; after 6 for the area and after 19, too, it is written. */
uint32_t simmergate_receive_finish(size_t limit, uint8_t *receiver, size_t receiver_bytes, const uint8_t *area,
                                   size_t area_bytes, uint8_t *answer, size_t answer_bytes);

/* ---- Formulas that share sub-formulas ----

   Up to SIMMERGATE_DEFINITIONS symbols may be defined by tables of their own, and each is replaced by the tree of its
   definition, again inside the replacement, until none is left. `symbols` has one byte for each definition, the
   symbol that it defines; `lengths` has 8 bytes for each, little-endian: the bytes of its table; `definitions` holds
   the tables end to end, in that order. They are judged at the same limit. Of a definition that is refused, by 15, no
   more is told: hand it to simmergate_check.

   To open a formula is to replace its symbols, and nothing else: a sum put inside a sum stands there nested, and
   counts as one of the openings of simplifying later on. A formula may become lighter by it (a symbol weighs 3, an
   integer 1); W is always the opened weight. Symbols that are replaced are not read any more: their registers are
   free. The value of the opened table is that of the formula under registers in which each defined symbol has the
   value of its definition. */

/* Opens a formula: the opened table goes to the front of `opened`. The answer: refusal number, place, records and
   weight of the opened table, WHAT, BYTE. */
uint32_t simmergate_open(size_t limit, const uint8_t *table, size_t table_bytes, const uint8_t *symbols,
                         size_t symbols_bytes, const uint8_t *lengths, size_t lengths_bytes,
                         const uint8_t *definitions, size_t definitions_bytes, uint8_t *opened, size_t opened_bytes,
                         uint8_t *answer, size_t answer_bytes);

/* Opens a formula and simplifies the opened table by the rules of an edition. After 0 and after 7 the opened table
   stands at the front of `opened`, whose other bytes stay; the rest is what simmergate_simplify answers and writes
   for the opened table, with its weight as weight of the table. */
uint32_t simmergate_simplify_shared(size_t limit, size_t edition, const uint8_t *table, size_t table_bytes,
                                    const uint8_t *symbols, size_t symbols_bytes, const uint8_t *lengths,
                                    size_t lengths_bytes, const uint8_t *definitions, size_t definitions_bytes,
                                    uint8_t *opened, size_t opened_bytes, uint8_t *out, size_t out_bytes,
                                    uint8_t *steps, size_t steps_bytes, uint8_t *work, size_t work_bytes,
                                    uint8_t *answer, size_t answer_bytes);

/* ---- Formulas as text ----

   A text is bytes of ASCII, with no spaces, no line end and no end mark: symbols s0 to s255; integers from
   -9223372036854775808 to 9223372036854775807; all numbers in decimal digits with no leading zero, and 0 with no sign;
   members of a sum with + between, of a product with *; a power with ^ and an exponent of at least 1. Parentheses
   stand round a sum inside anything, round a product inside a product or as a base, round a power or a negative
   integer as a base, and nowhere else:

     s0+s1*s2   s0+-3   -3*s1   (s0+1)*2   s0*(s1*s2)   (s0^2)^3   (-2)^3   2^3

   A table has exactly one text, and a text that is read exactly one table: writing what was read gives the same
   bytes, and reading what was written gives the same records without their line marks, which text does not carry.

   A text of any length and nesting is judged, within SIMMERGATE_STACK bytes of stack, or SIMMERGATE_STACK_16384. The
   time grows with its length; besides, where first members or bases stand nested, with their depth, since each such
   level moves the records inside it on by one; and for a text nested deeper than half the limit with how often that
   goes into its depth. No text of more than SIMMERGATE_TEXT_BYTES(L) bytes is ever accepted, so a longer one need not
   be handed in. On x86-64 the slowest known within that length is judged in some 14 million instructions at the limit
   3,072, and in 110 million at 16,384; beyond it the time of a text of nothing but parentheses grows with the square of
   its length, and 16 million bytes of them take minutes. */

/* Reads a text and writes its records to the front of `table`, all or none; SIMMERGATE_TABLE_BYTES(L) are always
   enough. The answer: refusal number, place (0), records written. */
uint32_t simmergate_read_text(size_t limit, const uint8_t *text, size_t text_bytes, uint8_t *table, size_t table_bytes,
                              uint8_t *answer, size_t answer_bytes);

/* Writes the text of a table to the front of `text`, whole or not at all; SIMMERGATE_TEXT_BYTES(W) are always enough.
   The answer: refusal number, place, bytes written, WHAT, BYTE. */
uint32_t simmergate_write_text(size_t limit, const uint8_t *table, size_t table_bytes, uint8_t *text, size_t text_bytes,
                               uint8_t *answer, size_t answer_bytes);

/* ---- Settings that survive an upgrade ----

   An area of slots of SIMMERGATE_SLOT_BYTES, no header; numbers are little-endian. A free slot is all zero, and free
   slots come last:

     byte     version 1   version 2   free
     0        1           2           0
     1        0           0           0
     2-3      key         key         0
     4-5      0           unit        0
     6-7      0           0           0
     8-15     setting     setting     0
     16-31    0           0           0

   A setting is the 64 bits of a signed number: hand in (uint64_t)x for an int64_t x, and read (int64_t) back. Key 0,
   setting 0 and unit 0 are like any other. An area of zeros is one of free slots; it needs no other preparation.
   Every call looks over the whole area first; 10 says that the area was written by a newer release. From free slots,
   any sequence of stores, fetches and removes answers as a plain map from key to setting and unit does, but that a new
   key is refused by 13 where no slot is free.

   What a call costs: nothing is kept between calls, so each goes over the slots a few times: for the versions, for the
   bytes of each slot, for the greatest key, for keys that are there twice once for every 8,192 keys up to the greatest,
   which is eight times at the most, and in search of the key. The time grows with the number of slots. On x86-64 a
   fetch from 2,000 settings takes some 400,000 to 550,000 instructions, by how far their keys are apart, and one from
   65,536, where every key is there, 16 to 17 million.

   Settings in flash memory: copy the area to RAM, hand the copy to the call, and after 0 write it back whole. A store
   or a remove changes the lent bytes one after the other; it is not safe against a loss of power, and does not claim
   it: where power may fail, write back to a second place, and give up the first only when the second is written. */

/* Stores a setting with its unit. A known key's record is replaced, and becomes one of version 2; a new one goes into
   the first free slot; all other records stay as they are. */
uint32_t simmergate_settings_store(uint8_t *area, size_t area_bytes, uint16_t key, uint64_t setting, uint16_t unit);

/* Shows the setting of a key, a record of version 1 with unit 0. The answer: refusal number, place (0), setting,
   unit. */
uint32_t simmergate_settings_fetch(const uint8_t *area, size_t area_bytes, uint16_t key, uint8_t *answer,
                                   size_t answer_bytes);

/* The reader of the old release, which knows version 1 only: what a standby with the old release answers on this
   area. The answer: refusal number, place (0), setting. */
uint32_t simmergate_settings_fetch_1(const uint8_t *area, size_t area_bytes, uint16_t key, uint8_t *answer,
                                     size_t answer_bytes);

/* Removes the record of a key: the later ones move up, byte for byte, and the last slot becomes free. */
uint32_t simmergate_settings_remove(uint8_t *area, size_t area_bytes, uint16_t key);

#ifdef __cplusplus
}
#endif

#endif
