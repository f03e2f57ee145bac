/* tree: a formula drawn, a line for each record, or for Graphviz. */
#include "formula.h"
#include "say.h"
#include "shape.h"
#include "subcommands.h"
#include <simmergate.h>

static void draw(const struct shape *of) {
    uint8_t open[BRANCHES];
    struct bytes line = {NULL, 0, 0};
    for (size_t i = 0; i < of->records; i++) {
        line.n = 0;
        add_branches(&line, of, i, open);
        bytes_format(&line, "%zu: ", i);
        add_record_words(&line, of, i);
        if (record_line(of, i) != 0) bytes_format(&line, " (line %u)", record_line(of, i));
        bytes_text(&line, "\n");
        put(line.at, line.n);
    }
    bytes_free(&line);
}

/* What a node shows in a drawing: its sign, or the leaf itself. */
static void add_sign(struct bytes *to, const struct shape *of, size_t i) {
    switch (record_kind(of, i)) {
    case SIMMERGATE_KIND_SUM: bytes_text(to, "+"); break;
    case SIMMERGATE_KIND_PRODUCT: bytes_text(to, "*"); break;
    case SIMMERGATE_KIND_POWER: bytes_text(to, "^"); break;
    default: add_record_words(to, of, i); break;
    }
}

static void draw_dot(const struct shape *of) {
    struct bytes sign = {NULL, 0, 0};
    put_format("digraph formula {\n  graph [ordering=out];\n  node [shape=box, style=rounded, fontname=\"monospace\"];\n");
    for (size_t i = 0; i < of->records; i++) {
        sign.n = 0;
        add_sign(&sign, of, i);
        put_format("  r%zu [label=\"%s\\n%zu", i, bytes_end(&sign), i);
        if (record_line(of, i) != 0) put_format(", line %u", record_line(of, i));
        put_format("\"];\n");
        if (i > 0) put_format("  r%u -> r%zu;\n", of->parent[i], i);
    }
    put_format("}\n");
    bytes_free(&sign);
}

int run_tree(void) {
    struct formula formula;
    struct shape shape;
    struct operand input = the_input();
    if (formula_read(&input, 0, &formula) != DONE) return 0;
    shape_make(&shape, formula.table, formula.bytes);
    if (given.dot) draw_dot(&shape);
    else draw(&shape);
    shape_free(&shape);
    formula_free(&formula);
    return 1;
}
