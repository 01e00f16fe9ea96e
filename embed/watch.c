/* watch BOOK: reads a book, compiles its rule 0, steps a fresh monitor of it over the book's steps and prints its first report; then the same
 * steps in one run, where they are numbered one by one; then the listing of the book. */
#include <inttypes.h>
#include <stdio.h>
#include <string.h>

#include "cavewatch.h"

/* one byte more than a book may have, so that a longer file is refused as one */
#define TEXT 65536

static uint8_t text[TEXT];
static size_t text_count;

/* the rule list and the formula table of a book */
static uint8_t labels[CAVEWATCH_LABELS], kinds[CAVEWATCH_RULES], ops[CAVEWATCH_FORMULA_NODES];
static size_t lens[CAVEWATCH_RULES], firsts[CAVEWATCH_RULES], counts[CAVEWATCH_RULES];
static uint64_t nums[CAVEWATCH_FORMULA_NODES];

/* its slots */
static uint8_t names[CAVEWATCH_NAMES];
static size_t sizes[CAVEWATCH_SLOTS];
static uint64_t widths[CAVEWATCH_SLOTS];

/* the nodes of a compiled rule */
static uint64_t nodes[CAVEWATCH_NODES];

/* a monitor, its nodes counted apart */
struct monitor {
    uint64_t forms[CAVEWATCH_MONITOR], bounds[CAVEWATCH_MONITOR], remaining[CAVEWATCH_MONITOR];
    bool held[CAVEWATCH_MONITOR], failed[CAVEWATCH_MONITOR];
    int64_t culprits[CAVEWATCH_MONITOR];
};

static uint8_t out[CAVEWATCH_LISTING];

static uint64_t read_book(const char *book, size_t count, size_t names_count, uint64_t *found)
{
    return cavewatch_read_book((const uint8_t *)book, count, labels, CAVEWATCH_LABELS, lens, CAVEWATCH_RULES, kinds, CAVEWATCH_RULES,
        firsts, CAVEWATCH_RULES, counts, CAVEWATCH_RULES, ops, CAVEWATCH_FORMULA_NODES, nums, CAVEWATCH_FORMULA_NODES,
        names, names_count, sizes, CAVEWATCH_SLOTS, widths, CAVEWATCH_SLOTS, found);
}

static uint64_t fresh(struct monitor *m, size_t ncount)
{
    return cavewatch_fresh(ops, CAVEWATCH_FORMULA_NODES, nums, CAVEWATCH_FORMULA_NODES, firsts[0], counts[0],
        nodes, CAVEWATCH_NODES, 0, ncount,
        m->forms, CAVEWATCH_MONITOR, m->bounds, CAVEWATCH_MONITOR, m->held, CAVEWATCH_MONITOR,
        m->remaining, CAVEWATCH_MONITOR, m->failed, CAVEWATCH_MONITOR, m->culprits, CAVEWATCH_MONITOR);
}

static uint64_t step(struct monitor *m, size_t ncount, uint64_t s, uint64_t w)
{
    return cavewatch_step(ops, CAVEWATCH_FORMULA_NODES, nums, CAVEWATCH_FORMULA_NODES, firsts[0], counts[0],
        nodes, CAVEWATCH_NODES, 0, ncount,
        ncount, m->forms, CAVEWATCH_MONITOR, m->bounds, CAVEWATCH_MONITOR, m->held, CAVEWATCH_MONITOR,
        m->remaining, CAVEWATCH_MONITOR, m->failed, CAVEWATCH_MONITOR, m->culprits, CAVEWATCH_MONITOR, s, w);
}

static uint64_t run(struct monitor *m, size_t ncount, uint64_t s, const uint64_t *words, size_t words_count, uint64_t *found)
{
    return cavewatch_run(ops, CAVEWATCH_FORMULA_NODES, nums, CAVEWATCH_FORMULA_NODES, firsts[0], counts[0],
        nodes, CAVEWATCH_NODES, 0, ncount,
        ncount, m->forms, CAVEWATCH_MONITOR, m->bounds, CAVEWATCH_MONITOR, m->held, CAVEWATCH_MONITOR,
        m->remaining, CAVEWATCH_MONITOR, m->failed, CAVEWATCH_MONITOR, m->culprits, CAVEWATCH_MONITOR, s, words, words_count,
        found);
}

/* one call for each step line, then all words of the lines in one call */
static int watch_rule(size_t begin, size_t ncount)
{
    static struct monitor m, many;
    static uint64_t words[TEXT];
    uint64_t found[CAVEWATCH_FOUND] = {0}, begin_step = 0, answer;
    size_t at = begin, taken = 0;
    bool reported = false, one_by_one = true;

    answer = fresh(&m, ncount);
    if (answer != CAVEWATCH_ACCEPTED) {
        printf("monitor refused %" PRIu64 "\n", answer);
        return 1;
    }
    many = m;
    while (cavewatch_next_step(text, text_count, at, found) == CAVEWATCH_ACCEPTED) {
        uint64_t s = found[0], w = found[1];
        at = found[2];
        if (taken == 0)
            begin_step = s;
        one_by_one = one_by_one && s == begin_step + taken;
        words[taken++] = w;
        answer = step(&m, ncount, s, w);
        if (answer == CAVEWATCH_REPORT) {
            printf("report %" PRIu64 " %" PRId64 "\n", s, m.culprits[0]);
            reported = true;
        } else if (answer != CAVEWATCH_ACCEPTED) {
            printf("step refused %" PRIu64 "\n", answer);
            return 1;
        }
    }
    if (!reported)
        printf("no report\n");
    if (one_by_one) {
        answer = run(&many, ncount, begin_step, words, taken, found);
        if (answer == CAVEWATCH_REPORT)
            printf("run report %" PRIu64 " %" PRId64 "\n", found[0], many.culprits[0]);
        else
            printf("run %" PRIu64 "\n", answer);
        if (memcmp(&m, &many, sizeof m) != 0) {
            printf("the run leaves another monitor\n");
            return 1;
        }
    }
    return 0;
}

static int watch_book(void)
{
    uint64_t found[CAVEWATCH_FOUND] = {0}, answer;
    size_t begin;

    answer = read_book((const char *)text, text_count, CAVEWATCH_NAMES, found);
    if (answer != CAVEWATCH_ACCEPTED) {
        printf("book refused %" PRIu64 " at line %" PRIu64 "\n", CAVEWATCH_NUMBER(answer), CAVEWATCH_LINE(answer));
        return 0;
    }
    begin = found[2];
    if (found[0] == 0) {
        printf("no rule\n");
        return 0;
    }
    printf("rule %.*s\n", (int)lens[0], (const char *)labels);
    answer = cavewatch_compile_rule(ops, CAVEWATCH_FORMULA_NODES, nums, CAVEWATCH_FORMULA_NODES, firsts[0], counts[0],
        nodes, CAVEWATCH_NODES, found);
    if (answer != CAVEWATCH_ACCEPTED) {
        printf("rule refused %" PRIu64 "\n", answer);
        return 0;
    }
    return watch_rule(begin, found[0]);
}

/* what a caller gets who lends too little, or a text that is no book: the number, for a book with its line, and nothing is written */
static int watch_refused(void)
{
    uint64_t found[CAVEWATCH_FOUND] = {7, 7, 7, 7, 7, 7}, answer;
    uint8_t few[1] = {9};

    answer = cavewatch_list_book(text, text_count, few, 1, found);
    if (answer != 1 || few[0] != 9 || found[0] != 7)
        return 1;
    answer = read_book("rule\ta\tP\nvar\t64\n", 16, CAVEWATCH_NAMES, found);
    if (CAVEWATCH_NUMBER(answer) != CAVEWATCH_NUMBER_WRONG || CAVEWATCH_LINE(answer) != 2 || found[0] != 7 || found[1] != 7 || found[5] != 7)
        return 1;
    widths[0] = 7;
    answer = read_book("slot\ta\t1\nstates\t2\n", 18, CAVEWATCH_NAMES, found);
    if (CAVEWATCH_NUMBER(answer) != CAVEWATCH_OPENING || CAVEWATCH_LINE(answer) != 2 || widths[0] != 7)
        return 1;
    if (read_book("slot\ta\t1\n", 9, CAVEWATCH_NAMES - 1, found) != CAVEWATCH_TOO_SHORT || widths[0] != 7)
        return 1;
    answer = cavewatch_next_step((const uint8_t *)"step\t0\t0000000000000000", 23, 0, found);
    return answer != CAVEWATCH_END || found[0] != 7;
}

/* what a book opens with */
static int watch_opening(void)
{
    uint64_t found[CAVEWATCH_FOUND];

    if (read_book("states\t5\nslot\tab\t10\n", 20, CAVEWATCH_NAMES, found) != CAVEWATCH_ACCEPTED)
        return 1;
    return found[0] != 0 || found[2] != 20 || found[3] != 1 || found[4] != 1 || found[5] != 5 || sizes[0] != 2 || widths[0] != 10
        || memcmp(names, "ab", 2) != 0;
}

int main(int argc, char **argv)
{
    uint64_t found[CAVEWATCH_FOUND] = {0};
    FILE *book;

    if (argc != 2) {
        fprintf(stderr, "watch BOOK\n");
        return 2;
    }
    book = fopen(argv[1], "rb");
    if (book == NULL) {
        perror(argv[1]);
        return 2;
    }
    text_count = fread(text, 1, TEXT, book);
    fclose(book);
    if (watch_book() != 0 || watch_refused() != 0 || watch_opening() != 0) {
        printf("not as cavewatch.h says\n");
        return 1;
    }
    if (cavewatch_list_book(text, text_count, out, CAVEWATCH_LISTING, found) == CAVEWATCH_ACCEPTED)
        fwrite(out, 1, found[0], stdout);
    return 0;
}
