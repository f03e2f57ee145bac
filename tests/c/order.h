/* An order of trees whose members stand in order: by kind, content and number of members, then member by member. Two such trees are equal where neither
   comes first. For a file that has a `struct tree` with kind, content, count and members. */
#ifndef ORDER_H
#define ORDER_H
#include <stddef.h>

/* Which of two comes first; 0 where they are equal. */
static int order(const struct tree *a, const struct tree *b) {
    if (a->kind != b->kind) return a->kind < b->kind ? -1 : 1;
    if (a->content != b->content) return a->content < b->content ? -1 : 1;
    if (a->count != b->count) return a->count < b->count ? -1 : 1;
    for (size_t i = 0; i < a->count; i++) {
        int o = order(a->members[i], b->members[i]);
        if (o != 0) return o;
    }
    return 0;
}
static int order_links(const void *a, const void *b) { return order(*(struct tree *const *)a, *(struct tree *const *)b); }
#endif
