#include "rules.h"
#include "own.h"
#include <stdio.h>
#include <stdlib.h>
#include <string.h>

enum { INTEGER, SYMBOL, SUM, PRODUCT, POWER };

/* A tree; a power has two members, the exponent being an integer; `mark` is its record's line mark, `records` how many it has. */
struct tree {
    unsigned kind, mark;
    int64_t number;
    size_t count, records;
    const struct tree **members;
};
typedef const struct tree *tree;

/* Room for trees, given back after each table. */
static uint8_t *room;
static size_t used;
enum { ROOM = 1 << 28 };

static void *taken(size_t bytes) {
    if (room == NULL) room = malloc(ROOM);
    used = (used + 15) / 16 * 16;
    if (room == NULL || ROOM - used < bytes) { printf("rules: no room for the trees of a table\n"); exit(1); }
    used += bytes;
    return room + used - bytes;
}

static tree leaf(unsigned kind, unsigned mark, int64_t number) {
    struct tree *t = taken(sizeof *t);
    *t = (struct tree){kind, mark, number, 0, 1, NULL};
    return t;
}

static tree integer(unsigned mark, int64_t n) { return leaf(INTEGER, mark, n); }

/* The same tree with another mark at its root. */
static tree marked(unsigned mark, tree t) {
    struct tree *u = taken(sizeof *u);
    *u = *t;
    u->mark = mark;
    return u;
}

static tree node(unsigned kind, unsigned mark, const tree *members, size_t count) {
    struct tree *t = taken(sizeof *t);
    *t = (struct tree){kind, mark, 0, count, 1, taken(count * sizeof *members)};
    for (size_t i = 0; i < count; i++) {
        t->members[i] = members[i];
        t->records += members[i]->records;
    }
    return t;
}

/* "An emptied sum becomes 0, an emptied product 1, a single member itself." "A 0 or 1 that stands for an emptied node .. takes that node's mark. A
   single member that is left keeps its own" */
static tree collapsed(unsigned kind, unsigned mark, const tree *members, size_t count) {
    if (count == 0) return integer(mark, kind == PRODUCT);
    return count == 1 ? members[0] : node(kind, mark, members, count);
}

static int is(tree t, int64_t n) { return t->kind == INTEGER && t->number == n; }

/* Marks are ignored: "integers and symbols by number; powers by base and exponent; two sums, or two products, when their members are the same multiset" */
static int equal(tree a, tree b) {
    if (a->kind != b->kind || a->number != b->number || a->count != b->count || a->records != b->records) return 0;
    if (a->kind == POWER) return equal(a->members[0], b->members[0]) && equal(a->members[1], b->members[1]);
    size_t before = used;
    uint8_t *gone = memset(taken(a->count), 0, a->count);
    int found = 1;
    for (size_t i = 0; i < a->count && found; i++) {
        found = 0;
        for (size_t j = 0; j < b->count && !found; j++)
            if (!gone[j] && equal(a->members[i], b->members[j])) found = gone[j] = 1;
    }
    used = before;
    return found;
}

/* ---- The rules: each leaves *t alone, or puts its result there; the answer is which of the two, or that a range is exceeded. ---- */

enum tried { DOES_NOT_APPLY, APPLIES, RANGE_EXCEEDED };

/* Steps 1 and 4: "drop all such" members that are the integer n. */
static enum tried drop(tree *t, unsigned kind, int64_t n) {
    if ((*t)->kind != kind) return DOES_NOT_APPLY;
    tree *left = taken((*t)->count * sizeof *left);
    size_t count = 0;
    for (size_t i = 0; i < (*t)->count; i++)
        if (!is((*t)->members[i], n)) left[count++] = (*t)->members[i];
    if (count == (*t)->count) return DOES_NOT_APPLY;
    *t = collapsed(kind, (*t)->mark, left, count);
    return APPLIES;
}

static enum tried multiply_zero(tree *t) {
    for (size_t i = 0; (*t)->kind == PRODUCT && i < (*t)->count; i++)
        if (is((*t)->members[i], 0)) {
            *t = integer((*t)->mark, 0);
            return APPLIES;
        }
    return DOES_NOT_APPLY;
}

/* A member in the walk of step 2 or 6: coefficient and rest, or exponent and base; whether it left the range; and "the mark that the current member
   had when its turn began". */
struct part {
    int64_t number;
    tree rest;
    int out;
    unsigned mark;
};

/* "the coefficient is the product of all integer members, in order, and the rest is the product of the others, or 1 if none is left" */
static struct part term(tree t) {
    if (t->kind == INTEGER) return (struct part){t->number, integer(0, 1), 0, t->mark};
    if (t->kind != PRODUCT) return (struct part){1, t, 0, t->mark};
    struct part p = {1, NULL, 0, t->mark};
    tree *others = taken(t->count * sizeof *others);
    size_t count = 0;
    for (size_t i = 0; i < t->count; i++) {
        if (t->members[i]->kind != INTEGER) others[count++] = t->members[i];
        else if (!p.out) p.out = __builtin_mul_overflow(p.number, t->members[i]->number, &p.number);
    }
    p.rest = collapsed(PRODUCT, t->mark, others, count);
    return p;
}

/* "Where equal, add the coefficient to the current one": whether they join. */
static int join_terms(struct part *c, struct part x) {
    if (!equal(c->rest, x.rest)) return 0;
    c->out = c->out || x.out || __builtin_add_overflow(c->number, x.number, &c->number);
    return 1;
}

/* "its rest if the coefficient is 1, else coefficient times rest"; "has at its root the mark ..; its coefficient and exponent, changed or not, and a
   multiplied base take the same mark, and bases and rests keep theirs below the root" */
static tree from_term(struct part *c) {
    if (c->number == 1 || c->out) return marked(c->mark, c->rest);
    if (c->rest->kind == INTEGER) {
        int64_t n;
        c->out = __builtin_mul_overflow(c->number, c->rest->number, &n);
        return integer(c->mark, n);
    }
    if (c->rest->kind != PRODUCT) return node(PRODUCT, c->mark, (tree[]){integer(c->mark, c->number), c->rest}, 2);
    tree *longer = taken((c->rest->count + 1) * sizeof *longer);
    memcpy(longer, c->rest->members, c->rest->count * sizeof *longer);
    longer[c->rest->count] = integer(c->mark, c->number);
    return node(PRODUCT, c->mark, longer, c->rest->count + 1);
}

static struct part factor(tree t) {
    if (t->kind == POWER) return (struct part){t->members[1]->number, t->members[0], 0, t->mark};
    return (struct part){1, t, 0, t->mark};
}

/* "If the exponents are equal and both bases are integers, multiply the bases; else if the bases are equal, add the exponents." */
static int join_factors(struct part *c, struct part x) {
    int64_t n;
    if (c->number == x.number && c->rest->kind == INTEGER && x.rest->kind == INTEGER) {
        c->out = c->out || __builtin_mul_overflow(c->rest->number, x.rest->number, &n);
        if (!c->out) c->rest = integer(c->mark, n);
        return 1;
    }
    if (!equal(c->rest, x.rest)) return 0;
    c->out = c->out || __builtin_add_overflow(c->number, x.number, &c->number);
    return 1;
}

static tree from_factor(struct part *c) {
    return c->number == 1 || c->out ? marked(c->mark, c->rest) : node(POWER, c->mark, (tree[]){c->rest, integer(c->mark, c->number)}, 2);
}

/* Steps 2 and 6, the walk: "From the first member on, compare with each later one .. remove the later member; the last member moves into its
   place and is looked at next." "If nothing was removed, the rule does not apply .. and no range is judged." */
static enum tried combine(tree *t, unsigned kind, struct part (*part)(tree), int (*join)(struct part *, struct part), tree (*whole)(struct part *)) {
    if ((*t)->kind != kind) return DOES_NOT_APPLY;
    size_t count = (*t)->count;
    struct part *list = taken(count * sizeof *list);
    for (size_t i = 0; i < count; i++) list[i] = part((*t)->members[i]);
    for (size_t i = 0; i < count; i++)
        for (size_t j = i + 1; j < count;) {
            if (join(&list[i], list[j])) list[j] = list[--count];
            else j++;
        }
    if (count == (*t)->count) return DOES_NOT_APPLY;
    tree *members = taken(count * sizeof *members);
    int out = 0;
    for (size_t i = 0; i < count; i++) {
        members[i] = whole(&list[i]);
        out = out || list[i].out;
    }
    if (out) return RANGE_EXCEEDED;
    *t = collapsed(kind, (*t)->mark, members, count);
    return APPLIES;
}

/* Step 7: "exponent 1 gives the base", which keeps its own mark. */
static enum tried power_one(tree *t) {
    if (!is((*t)->members[1], 1)) return DOES_NOT_APPLY;
    *t = (*t)->members[0];
    return APPLIES;
}

/* Step 8: "base 0 gives 0 and base 1 gives 1", with the node's mark. */
static enum tried power_constant(tree *t) {
    tree base = (*t)->members[0];
    if (!is(base, 0) && !is(base, 1)) return DOES_NOT_APPLY;
    *t = integer((*t)->mark, base->number);
    return APPLIES;
}

/* Step 9: "a power of a power gets the product of the exponents"; "keeps the outer power's mark and its exponent's" */
static enum tried power_power(tree *t) {
    tree base = (*t)->members[0];
    int64_t n;
    if (base->kind != POWER) return DOES_NOT_APPLY;
    if (__builtin_mul_overflow(base->members[1]->number, (*t)->members[1]->number, &n)) return RANGE_EXCEEDED;
    *t = node(POWER, (*t)->mark, (tree[]){base->members[0], integer((*t)->members[1]->mark, n)}, 2);
    return APPLIES;
}

static enum tried try_step(tree *t, int step) {
    if (step > 6 && (*t)->kind != POWER) return DOES_NOT_APPLY;
    switch (step) {
    case 1: return drop(t, SUM, 0);
    case 2: return combine(t, SUM, term, join_terms, from_term);
    case 3: return multiply_zero(t);
    case 4: return drop(t, PRODUCT, 1);
    case 7: return power_one(t);
    case 8: return power_constant(t);
    case 9: return power_power(t);
    default: return combine(t, PRODUCT, factor, join_factors, from_factor);
    }
}

/* ---- The driver. ---- */

static struct simplified answer;
static uint8_t *step_bytes;
static size_t rules; /* how many of the rules the edition has */

/* Tries the rules of the edition in order, which is one try; whether one applied. A range that is exceeded ends the run: answer.number is 7 then. */
static int asked(tree *t) {
    static const uint8_t order[] = {1, 2, 3, 4, 6, 7, 8, 9};
    answer.tries++;
    for (size_t k = 0; k < rules; k++) {
        enum tried tried = try_step(t, order[k]);
        if (tried == DOES_NOT_APPLY) continue;
        if (tried == RANGE_EXCEEDED) answer.number = 7;
        else step_bytes[answer.steps++] = order[k];
        return tried == APPLIES;
    }
    return 0;
}

static tree driven(tree t, int *changed);

/* "the same with each member from first to last, then gather the results: a sum among a sum's members, or a product among a product's, is
   replaced by its members; each is one opening" */
static tree gathered(tree t, int *changed) {
    const struct tree **results = taken(t->count * sizeof *results);
    size_t total = 0;
    for (size_t i = 0; i < t->count; i++) {
        results[i] = driven(t->members[i], changed);
        if (answer.number != 0) return t;
        total += results[i]->kind == t->kind && t->kind != POWER ? results[i]->count : 1;
    }
    tree *list = taken(total * sizeof *list);
    size_t n = 0;
    for (size_t i = 0; i < t->count; i++) {
        if (results[i]->kind != t->kind || t->kind == POWER) { list[n++] = results[i]; continue; }
        for (size_t j = 0; j < results[i]->count; j++) list[n++] = results[i]->members[j];
        answer.openings++;
        *changed = 1;
    }
    return *changed ? collapsed(t->kind, t->mark, list, n) : t;
}

/* The tree that the driver makes of t; `changed` becomes 1 where a step or an opening was in it. */
static tree driven(tree t, int *changed) {
    for (;;) {
        int again = asked(&t);
        if (answer.number != 0) return t;
        if (!again && t->count > 0) t = gathered(t, &again);
        if (answer.number != 0 || !again) return t;
        *changed = 1;
    }
}

/* ---- Records. ---- */

static tree read_tree(const uint8_t **at) {
    const uint8_t *r = *at;
    *at += RECORD;
    unsigned mark = r[4] + 256u * r[5];
    if (r[0] == INTEGER || r[0] == SYMBOL) return leaf(r[0], mark, (int64_t)own_number(r + 8));
    size_t count = r[0] == POWER ? 2 : r[2] + 256u * r[3];
    tree *members = taken(count * sizeof *members);
    for (size_t i = 0; i < count; i++) members[i] = read_tree(at);
    return node(r[0], mark, members, count);
}

static uint8_t *write_tree(tree t, uint8_t *at) {
    memset(at, 0, RECORD);
    at[0] = (uint8_t)t->kind;
    at[4] = (uint8_t)t->mark, at[5] = (uint8_t)(t->mark >> 8);
    if (t->kind == INTEGER || t->kind == SYMBOL) own_bytes(at + 8, (uint64_t)t->number);
    if (t->kind == SUM || t->kind == PRODUCT) at[2] = (uint8_t)t->count, at[3] = (uint8_t)(t->count >> 8);
    at += RECORD;
    for (size_t i = 0; i < t->count; i++) at = write_tree(t->members[i], at);
    return at;
}

struct simplified own_simplify(int edition, const uint8_t *table, uint8_t *out, uint8_t *steps) {
    int changed = 0;
    used = 0;
    answer = (struct simplified){0};
    step_bytes = steps;
    rules = edition == 2 ? 8 : 5;
    tree t = driven(read_tree(&table), &changed);
    if (answer.number != 0) return (struct simplified){.number = 7, .place = answer.steps};
    answer.records = (uint64_t)(write_tree(t, out) - out) / RECORD;
    return answer;
}
