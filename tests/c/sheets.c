/* sheets SEED COUNT FOLDER: COUNT random sites as people keep them, for the command. FOLDER/N has `options`; `names`, names for symbols; `sheet`, a file of lines or a folder of
   files: formulas as text with blanks, comments, names and line ends of either kind, in a folder also tables, and a few that are refused. Beside it, by plain C that shares
   nothing with the port or the command, what must come of it: `results`, a folder of tables; `site`, `takeover` and `shorten`, what these write; `status`, how the first ends. */
#include "own.h"
#include "rules.h"
#include "tables.h"
#include "plain_text.h"
#include "damage.h"
#include <stdio.h>
#include <stdlib.h>
#include <sys/stat.h>

enum { MOST_ITEMS = 40, MOST_TEXT = 1 << 21, NAME_ROOM = 24, PATH_ROOM = 4096, NO_FORMULA = 14, HEAVY = 3 };

static char names[256][NAME_ROOM]; /* empty: it has none */
static uint8_t made[RECORD * (HIGHER + 64)], out[RECORD * HIGHER], steps[HIGHER];
static char exact[MOST_TEXT], named[2 * MOST_TEXT];
static size_t limit, edition;
static int windows;
static const char *folder;
static uint64_t site, formulas, texts, tables, refused, accepted;

/* What the simplifier says of an item: refusal, place, records, steps, openings, weight in, weight out, tries. */
struct said { uint64_t number, place, records, steps, openings, before, after, tries; };

/* ---- Files ---- */

static FILE *open_in(const char *name) {
    char path[PATH_ROOM];
    snprintf(path, sizeof path, "%s/%llu/%s", folder, (unsigned long long)site, name);
    FILE *f = fopen(path, "wb");
    if (f == NULL) { printf("sheets: %s cannot be written\n", path); exit(2); }
    return f;
}

static void close_all(FILE *f) {
    if (ferror(f) | fclose(f)) { printf("sheets: output was lost\n"); exit(2); }
}

static void folder_in(const char *name) {
    char path[PATH_ROOM];
    snprintf(path, sizeof path, "%s/%llu%s", folder, (unsigned long long)site, name);
    if (mkdir(path, 0777) != 0) { printf("sheets: %s cannot be made\n", path); exit(2); }
}

/* A file in a folder of the site. */
static FILE *open_item(const char *within, const char *name) {
    char path[PATH_ROOM];
    snprintf(path, sizeof path, "%s/%s", within, name);
    return open_in(path);
}

/* ---- Texts as people type them ---- */

static void end_line(FILE *f) { fputs(windows ? "\r\n" : "\n", f); }

static void put_blanks(FILE *f) {
    while (chance(3)) fputs(chance(4) ? "\t" : " ", f);
}

static void put_comment(FILE *f) {
    if (chance(4)) fputs(chance(2) ? "# flow of the day" : "#(+*^ s0", f);
}

/* Lines with no formula in them; how many. */
static size_t put_empty_lines(FILE *f) {
    size_t n = 0;
    for (; chance(3); n++) put_blanks(f), put_comment(f), end_line(f);
    return n;
}

/* Blanks may stand beside these. */
static int lets_blanks(char c) { return c == '+' || c == '*' || c == '^' || c == '(' || c == ')'; }

/* The symbol whose number begins at `at`, and where its number ends. */
static unsigned symbol_at(const char *at, const char **end) {
    unsigned symbol = 0;
    for (; *at >= '0' && *at <= '9'; at++) symbol = 10 * symbol + (unsigned)(*at - '0');
    *end = at;
    return symbol;
}

/* An exact text with blanks where they may stand, and every other symbol that has a name by that name. */
static void put_typed(FILE *f, const char *text) {
    for (const char *c = text; *c != 0;) {
        const char *end = c + 1;
        if (c == text || lets_blanks(c[-1]) || lets_blanks(*c)) put_blanks(f);
        if (*c == 's') {
            unsigned symbol = symbol_at(c + 1, &end);
            if (names[symbol][0] != 0 && chance(2)) fputs(names[symbol], f);
            else fwrite(c, 1, (size_t)(end - c), f);
        } else fwrite(c, 1, 1, f);
        c = end;
    }
    put_blanks(f), put_comment(f);
}

/* The text with every symbol that has a name by that name, as the command shows it. */
static const char *shown(const char *text) {
    char *to = named;
    for (const char *c = text; *c != 0;) {
        const char *end = c + 1, *from = c;
        if (*c == 's') {
            unsigned symbol = symbol_at(c + 1, &end);
            if (names[symbol][0] != 0) from = names[symbol];
        }
        size_t n = from == c ? (size_t)(end - c) : strlen(from);
        memcpy(to, from, n);
        to += n, c = end;
    }
    *to = 0;
    return named;
}

/* ---- What comes of a formula ---- */

/* A table at the limit by the edition; its result in `out`. */
static struct said judge(size_t bytes) {
    struct verdict v = own_check(limit, made, bytes);
    if (v.number != 0) return (struct said){.number = v.number, .place = v.place};
    struct simplified s = own_simplify((int)edition, made, out, steps);
    if (s.number != 0) return (struct said){.number = s.number, .place = s.place};
    return (struct said){0, 0, s.records, s.steps, s.openings, own_weight(made, bytes), own_weight(out, RECORD * s.records), s.tries};
}

/* An exact text: 14 where it is none. */
static struct said judge_text(void) {
    uint32_t node = plain_read((const uint8_t *)exact, strlen(exact));
    if (node == 0) return (struct said){.number = NO_FORMULA};
    if (plain_weight() > limit) return (struct said){.number = HEAVY};
    return judge((size_t)(plain_records(node, made) - made));
}

static void text_of(const uint8_t *table) { *plain_text(&table, "", exact) = 0; }

/* A symbol as often as to be just at the limit, or over it. */
static size_t full_table(void) {
    making.at = made, making.records = 0;
    unsigned n = (unsigned)(limit - 1) / 3 + (unsigned)chance(2);
    put_record(2, n, 0);
    for (unsigned i = 0; i < n; i++) put_record(1, 0, 7);
    return making.records;
}

static size_t some_table(void) {
    uint64_t kept = any(), kind = below(60);
    size_t records = kind == 0 ? full_table() : kind < 8 ? rare_table(made, kept, 0, LOWER) : random_table(made, kept, 0, 120, limit);
    random_state = kept;
    return RECORD * records;
}

/* The exact text damaged, none of its bytes one that the command reads otherwise; whether it is still one text in a line. */
static int damage_exact(void) {
    size_t n = damage_text((uint8_t *)exact, strlen(exact));
    exact[n] = 0;
    return n > 0 && strlen(exact) == n && strspn(exact, "s0123456789+-*^()") == n;
}

/* A place where no blank may stand; 0 for none. */
static size_t no_blank(void) {
    for (size_t i = 1; exact[i] != 0; i++)
        if (!lets_blanks(exact[i - 1]) && !lets_blanks(exact[i])) return i;
    return 0;
}

/* A formula as text, a line of its own without the line end; what is said of it. */
static struct said put_text(FILE *f) {
    uint64_t way = below(30);
    some_table();
    text_of(made);
    texts++;
    if (way == 0 && damage_exact()) return fputs(exact, f), judge_text();
    text_of(made);
    if (way == 1 && no_blank() > 0) {
        size_t at = no_blank();
        fwrite(exact, 1, at, f), fputs(" ", f), fputs(exact + at, f);
        return (struct said){.number = NO_FORMULA};
    }
    if (way == 2) return fputs("7 + unheard_of * ", f), fputs(exact, f), (struct said){.number = NO_FORMULA};
    return put_typed(f, exact), judge_text();
}

/* A table with marks, now and then a damaged one that still begins as tables do. */
static struct said put_table(FILE *f) {
    size_t bytes = some_table();
    put_marks(made, bytes);
    uint8_t first = made[0];
    if (chance(8)) damage(made, &bytes), made[0] = first;
    if (bytes == 0) bytes = RECORD;
    fwrite(made, 1, bytes, f);
    tables++;
    return judge(bytes);
}

/* ---- A site ---- */

static void make_names(void) {
    static const char *const forms[] = {"flow%u", "_%u", "Q_%u", "S%u", "s%ux", "p%u_"};
    FILE *f = open_in("names");
    memset(names, 0, sizeof names);
    for (unsigned i = 0; i < 256; i++) {
        if (chance(2)) continue;
        snprintf(names[i], NAME_ROOM, forms[below(6)], i);
        put_empty_lines(f), put_blanks(f), fprintf(f, "s%u\t ", i), fputs(names[i], f), put_blanks(f), put_comment(f), end_line(f);
    }
    close_all(f);
}

/* What the command writes of an item, and its result. */
static void want(const char *name, size_t line, struct said s, FILE *of_site, FILE *of_takeover, FILE *of_shorten) {
    const unsigned long long n[] = {s.number, s.place, s.records, s.steps, s.openings, s.before, s.after, s.tries};
    formulas++, accepted += s.number == 0, refused += s.number != 0;
    fprintf(of_site, "%s\t%llu\t%llu\t%llu\t%llu\t%llu\t%llu\t%llu\t%llu\n", name, n[0], n[1], n[2], n[3], n[4], n[5], n[6], n[7]);
    exact[0] = 0;
    if (s.number == 0) {
        FILE *result = open_item("results", name);
        fwrite(out, RECORD, s.records, result);
        close_all(result);
        fprintf(of_takeover, "%s\t0\t0\tsame\t0\t0\t-\n", name);
        text_of(out);
    }
    if (of_shorten != NULL) fprintf(of_shorten, "%zu\t%llu\t%llu\t%llu\t%llu\t%llu\t%llu\t%llu\t%s\n", line, n[0], n[1], n[3], n[4], n[5], n[6], n[7], shown(exact));
}

/* So many formulas as lines of a file. */
static void make_lines(size_t many, FILE *of_site, FILE *of_takeover) {
    FILE *f = open_in("sheet"), *of_shorten = open_in("shorten");
    for (size_t i = 0, line = 1; i < many; i++, line++) {
        char name[NAME_ROOM];
        line += put_empty_lines(f);
        struct said s = put_text(f);
        if (i + 1 < many || chance(2)) end_line(f);
        snprintf(name, sizeof name, "line-%05zu", line);
        want(name, line, s, of_site, of_takeover, of_shorten);
    }
    close_all(f), close_all(of_shorten);
}

/* So many formulas as the files of a folder, whose names have blanks. */
static void make_files(size_t many, FILE *of_site, FILE *of_takeover) {
    folder_in("/sheet");
    for (size_t i = 0; i < many; i++) {
        char name[NAME_ROOM];
        snprintf(name, sizeof name, "hall %zu pump %02zu", i / 10, i);
        FILE *f = open_item("sheet", name);
        int is_text = !chance(3);
        if (is_text) put_empty_lines(f);
        struct said s = is_text ? put_text(f) : put_table(f);
        if (is_text && chance(2)) end_line(f), put_empty_lines(f);
        close_all(f);
        want(name, 0, s, of_site, of_takeover, NULL);
    }
}

static void make_site(uint64_t seed) {
    random_state = seed * 0xD1342543DE82EF95u + site;
    random_state = any();
    limit = chance(3) ? HIGHER : LOWER, edition = 1 + (size_t)below(2), windows = chance(2);
    size_t many = 1 + (size_t)below(MOST_ITEMS);
    uint64_t refused_before = refused;
    folder_in(""), folder_in("/results");
    make_names();
    FILE *of_site = open_in("site"), *of_takeover = open_in("takeover"), *options = open_in("options"), *status = open_in("status");
    if (chance(2)) make_lines(many, of_site, of_takeover);
    else make_files(many, of_site, of_takeover);
    fprintf(options, "-l %zu -e %zu\n", limit, edition), fprintf(status, "%d\n", refused > refused_before);
    close_all(of_site), close_all(of_takeover), close_all(options), close_all(status);
}

int main(int n, char **words) {
    if (n != 4) return puts("usage: sheets SEED COUNT FOLDER"), 2;
    uint64_t seed = strtoull(words[1], NULL, 10), count = strtoull(words[2], NULL, 10);
    folder = words[3];
    for (site = 0; site < count; site++) make_site(seed);
    printf("%llu sites, %llu formulas, %llu of them as text and %llu as tables, %llu accepted and %llu refused\n", (unsigned long long)count, (unsigned long long)formulas,
           (unsigned long long)texts, (unsigned long long)tables, (unsigned long long)accepted, (unsigned long long)refused);
    return 0;
}
