/* The page of differ --html: both trees side by side, no script, nothing from elsewhere. What differs has a colour and the sign of inequality. */
#include "compared.h"
#include "say.h"

static const char style[] = "body { font-family: sans-serif; margin: 1.5em; color: #111; background: #fff; }\n"
                            "h1 { font-size: 1.3em; } h2 { font-size: 1.1em; margin-top: 2em; }\n"
                            "table { border-collapse: collapse; }\n"
                            "th { text-align: left; padding: 0.2em 1.5em 0.4em 0.3em; border-bottom: 1px solid #888; overflow-wrap: anywhere; }\n"
                            "td { font-family: monospace; white-space: pre; padding: 0 1.5em 0 0.3em; vertical-align: top; }\n"
                            "td.sign { padding-right: 0.6em; text-align: right; font-weight: bold; }\n"
                            "td.formula { white-space: pre-wrap; overflow-wrap: anywhere; max-width: 40em; padding-bottom: 0.6em; }\n"
                            ".differs { background: #ffe0b3; color: #7a1f00; }\n"
                            ".same { color: #1a5d1a; }\n";

/* What stands in a page for a character that HTML reads as its own, ? for a control byte; NULL where it stands for itself. */
static const char *escape(uint8_t c) {
    switch (c) {
    case '&': return "&amp;";
    case '<': return "&lt;";
    case '>': return "&gt;";
    case '"': return "&quot;";
    case '\'': return "&#39;";
    default: return c < 0x20 || c == 0x7f ? "?" : NULL;
    }
}

static void put_escaped(const char *text) {
    while (*text != 0) {
        size_t n = 0;
        while (text[n] != 0 && escape((uint8_t)text[n]) == NULL) n++;
        put(text, n);
        text += n;
        if (*text != 0) put_format("%s", escape((uint8_t)*text++));
    }
}

void put_page_begin(const char *a, const char *b) {
    put_format("<!DOCTYPE html>\n<html lang=\"en\">\n<head>\n<meta charset=\"utf-8\">\n<title>");
    put_escaped(a);
    put_format(" and ");
    put_escaped(b);
    put_format("</title>\n<style>\n%s</style>\n</head>\n<body>\n<h1>", style);
    put_escaped(a);
    put_format(" and ");
    put_escaped(b);
    put_format("</h1>\n<p>A row for each record: its number, what it is, its line. Rows with <span class=\"differs\">&ne;</span> and this colour differ; "
               "the number behind the sign counts the differences.</p>\n");
}

void put_page_end(void) { put_format("</body>\n</html>\n"); }

void put_page_note(const char *name, const char *what) {
    put_format("<h2>");
    put_escaped(name);
    put_format("</h2>\n<p class=\"differs\">&ne; ");
    put_escaped(what);
    put_format("</p>\n");
}

/* ---- Rows ---- */

struct rows {
    const struct compared *of;
    size_t next[2];              /* the record that each side is at */
    uint8_t open[2][BRANCHES];   /* the branches drawn on each side */
};

/* A record in its cell; an empty cell where this side has none. */
static void put_cell(struct rows *rows, int side, size_t end) {
    const struct shape *shape = &rows->of->shapes[side];
    struct bytes text = {NULL, 0, 0};
    size_t i = rows->next[side];
    if (i < end) {
        add_branches(&text, shape, i, rows->open[side]);
        bytes_format(&text, "%zu: ", i);
        add_record_words(&text, shape, i);
        if (record_line(shape, i) != 0) bytes_format(&text, " (line %u)", record_line(shape, i));
        rows->next[side]++;
    }
    put_format("<td>");
    put_escaped(bytes_end(&text));
    put_format("</td>");
    bytes_free(&text);
}

/* Records that agree stand in one row; of a pair that differs both trees stand beside each other, row by row. */
static void put_rows(struct rows *rows, size_t a_end, size_t b_end, size_t pair) {
    for (int first = 1; rows->next[0] < a_end || rows->next[1] < b_end; first = 0) {
        if (pair == 0) put_format("<tr><td class=\"sign\">=</td>");
        else if (first) put_format("<tr class=\"differs\"><td class=\"sign\">&ne; %zu</td>", pair);
        else put_format("<tr class=\"differs\"><td class=\"sign\">&ne;</td>");
        put_cell(rows, 0, a_end);
        put_cell(rows, 1, b_end);
        put_format("</tr>\n");
    }
}

static void put_all_rows(const struct compared *of) {
    struct rows rows = {.of = of};
    size_t pair = 0;
    while (rows.next[0] < of->shapes[0].records) {
        size_t a = rows.next[0], b = rows.next[1];
        int differs = pair < of->pairs && pair_record(of, pair, 0) == a && pair_record(of, pair, 1) == b;
        if (differs) put_rows(&rows, of->shapes[0].end[a], of->shapes[1].end[b], ++pair);
        else put_rows(&rows, a + 1, b + 1, 0);
    }
}

static void put_formula_cell(const struct formula *of) {
    put_format("<td class=\"formula\">");
    put_formula(of->table, of->bytes);
    put_format("</td>");
}

void put_page_compared(const char *name, const struct compared *of) {
    if (name != NULL) put_format("<h2>"), put_escaped(name), put_format("</h2>\n");
    if (is_same_bytes(of)) put_format("<p class=\"same\">= the same bytes</p>\n");
    else put_format("<p class=\"differs\">&ne; differences: %zu; the formulas are %s</p>\n", of->pairs, of->equal ? "equal" : "not equal");
    put_format("<table>\n<tr><th></th><th>");
    put_escaped(of->names[0]);
    put_format("</th><th>");
    put_escaped(of->names[1]);
    put_format("</th></tr>\n<tr><td class=\"sign\"></td>");
    put_formula_cell(&of->formulas[0]);
    put_formula_cell(&of->formulas[1]);
    put_format("</tr>\n");
    put_all_rows(of);
    put_format("</table>\n");
}
