/* cavewatch.h: the calls of the static library libcavewatch_c.a, for C and C++.
 *
 * Made by `rt lib` in crates/cavewatch_c for x86-64 Linux. Each call is proved to answer and to leave in lent memory what its contract says, for
 * every input (crates/cavewatch_c). It keeps nothing between calls, allocates nothing, and may be called from several threads over separate
 * memory. It needs 256 KB of stack. What is stated here of C (types, pointers, overlap) is the caller's part: nothing proves it.
 *
 * Slices. A lent slice crosses as two arguments, a pointer and then the count of its elements. The pointer is never null, also where the count
 * is 0: pass any object's address then. The elements are initialised, aligned, and stay the caller's; they are used until the call returns and
 * not afterwards. A pointer to const is read only. No slice that a call may write overlaps any other slice of the same call. Elements of type
 * bool hold 0 or 1 only. `size_t` has 64 bits.
 *
 * Lengths. A count smaller than the one named below is refused with 1; a larger one is fine, and what lies past the answer's own part keeps
 * its contents. No length is trusted. So it is with contents: a table that no compiled rule left, or a monitor that is not its rule's, is
 * refused with 2.
 *
 * Answers. Every call answers one number:
 *     0             accepted: read, compiled, made, stepped without a report, listed
 *     1 to 25       refused, by the number of document 01 or 02
 *     n + 256 * k   a book refused by number n at line k (cavewatch_read_book; the line is 0 for 1, 3 and 4)
 *     100           accepted, and the rule is newly broken (a report)
 *     101           there is no further step line
 * After a refusal all lent memory is as it was. Further numbers of an answer go to the front of `found`, a pointer to CAVEWATCH_FOUND numbers,
 * which crosses without a count. Each call says what it leaves there; what it does not name keeps its contents, also after CAVEWATCH_END and
 * where a run reports nothing.
 *
 * A formula table. ops and nums have a place for each node of a formula in prefix order. ops[i] is the word (CAVEWATCH_VAR and on); nums[i] is the
 * signal of an atom, 0 to 63, or the bound of CAVEWATCH_ALWAYS_FOR and CAVEWATCH_WITHIN, and is not looked at beside any other word. A rule is a first place
 * and a count, within the first 1,024 places, with at most 256 nodes and depth 64.
 *
 * A node table. Seven numbers for each node of a compiled rule, in prefix order, a joined node before its two parts:
 *     0  the form (CAVEWATCH_RANGE_CHECK and on)
 *     1  an obligation's bound
 *     2  the first step of the range
 *     3  0 where the range is open, else it has a last step
 *     4  that last step
 *     5  the first signal: 0 is the constant true, else the place of a formula and 1 (a check's signal, an antecedent, a trigger)
 *     6  the second signal (a consequent, a body)
 * Columns that a form has no use for are 0 and not looked at.
 *
 * A monitor. For node j of its rule forms[j] and bounds[j] are the node's own; held[j] is an obligation's open window, or the antecedent that a delayed
 * check remembers; remaining[j] is how many steps an open window still has, from 1 to its bound; failed[j] says that the node's alarm has held, and failed[0]
 * is the rule's own mark; culprits[j] is the step to blame, or -1. cavewatch_fresh writes them all.
 */
#ifndef CAVEWATCH_H
#define CAVEWATCH_H

#include <stdbool.h>
#include <stddef.h>
#include <stdint.h>

#ifdef __cplusplus
extern "C" {
#endif

/* the least counts of elements */
#define CAVEWATCH_RULES 64            /* lens, kinds, firsts, counts */
#define CAVEWATCH_LABELS 2048         /* labels: 32 bytes for each rule */
#define CAVEWATCH_SLOTS 32            /* sizes, widths */
#define CAVEWATCH_NAMES 1024          /* names: 32 bytes for each slot */
#define CAVEWATCH_FORMULA_NODES 1024  /* ops, nums */
#define CAVEWATCH_NODES 1792          /* nodes: 256 rows of 7 numbers */
#define CAVEWATCH_MONITOR 256         /* forms, bounds, held, remaining, failed, culprits */
#define CAVEWATCH_LISTING 262144      /* out */

/* the count of numbers that every `found` has */
#define CAVEWATCH_FOUND 6

/* the number and the line in the answer to a book that is refused */
#define CAVEWATCH_NUMBER(answer) ((answer) % 256)
#define CAVEWATCH_LINE(answer) ((answer) / 256)

/* goes up when a call's arguments or answers change */
#define CAVEWATCH_VERSION 3

/* answers that are no refusal */
#define CAVEWATCH_ACCEPTED 0
#define CAVEWATCH_REPORT 100
#define CAVEWATCH_END 101

/* refusals, by the number of document 01 or 02 */
#define CAVEWATCH_TOO_SHORT 1             /* a lent table or output is too short */
#define CAVEWATCH_MALFORMED 2             /* a lent table or monitor is not what it has to be */
#define CAVEWATCH_BOOK_TOO_LONG 3         /* over 65,535 bytes */
#define CAVEWATCH_BOOK_WITHOUT_LF 4       /* does not end in LF */
#define CAVEWATCH_LINE_UNKNOWN 5          /* unknown word, or wrong count of fields */
#define CAVEWATCH_LINE_MISPLACED 6        /* cannot stand here */
#define CAVEWATCH_LABEL_OR_KIND 7         /* or a slot's name */
#define CAVEWATCH_NUMBER_WRONG 8          /* malformed or out of range */
#define CAVEWATCH_LIMIT_PASSED 9          /* of rules, nodes or depth */
#define CAVEWATCH_BOOK_UNFINISHED 10      /* ends inside a rule */
#define CAVEWATCH_ALWAYS_FOR_NESTED 11    /* always-for under a temporal operator */
#define CAVEWATCH_ALWAYS_FOR_ZERO 12      /* always-for 0 */
#define CAVEWATCH_ANTECEDENT_IMPURE 13
#define CAVEWATCH_WITHIN_IMPURE 14
#define CAVEWATCH_DELAYED_IMPURE 15       /* the operand of next right of implies */
#define CAVEWATCH_CONSEQUENT_IMPURE 16    /* any other consequent */
#define CAVEWATCH_NEXT_IMPURE 17
#define CAVEWATCH_NOT_IMPURE 18
#define CAVEWATCH_LIVENESS 19             /* eventually or until */
#define CAVEWATCH_LATE_STEP 24            /* a step of 2^63 or more */
#define CAVEWATCH_OPENING 25              /* `states` not on line 1, or a 33rd slot */

/* words of a formula table */
#define CAVEWATCH_VAR 0
#define CAVEWATCH_IN 1
#define CAVEWATCH_OUT 2
#define CAVEWATCH_NOT 3
#define CAVEWATCH_NEXT 4
#define CAVEWATCH_ALWAYS 5
#define CAVEWATCH_EVENTUALLY 6
#define CAVEWATCH_ALWAYS_FOR 7
#define CAVEWATCH_WITHIN 8
#define CAVEWATCH_AND 9
#define CAVEWATCH_OR 10
#define CAVEWATCH_IMPLIES 11
#define CAVEWATCH_UNTIL 12

/* forms of a node */
#define CAVEWATCH_RANGE_CHECK 0
#define CAVEWATCH_DELAYED_CHECK 1
#define CAVEWATCH_OBLIGATION 2
#define CAVEWATCH_JOINED_AND 3
#define CAVEWATCH_JOINED_OR 4

/* Reads a book. On 0: rule r has the label of lens[r] bytes from labels + 32 * r on, the kind kinds[r] (0 property, 1 assumption), and the
 * counts[r] formula nodes from place firsts[r] of ops and nums on; slot k has the name of sizes[k] bytes from names + 32 * k on and the width
 * widths[k]; found holds the count of rules, the count of formula nodes, the place in the text where the step lines begin, the count of slots,
 * 1 where a `states` line stood (else 0), and the count of states (0 where none stood). On a refusal CAVEWATCH_NUMBER and CAVEWATCH_LINE of the answer are its number and its line, from 1 on
 * (0 for 1, 3 and 4). */
uint64_t cavewatch_read_book(
    const uint8_t *text, size_t text_count,
    uint8_t *labels, size_t labels_count,
    size_t *lens, size_t lens_count,
    uint8_t *kinds, size_t kinds_count,
    size_t *firsts, size_t firsts_count,
    size_t *counts, size_t counts_count,
    uint8_t *ops, size_t ops_count,
    uint64_t *nums, size_t nums_count,
    uint8_t *names, size_t names_count,
    size_t *sizes, size_t sizes_count,
    uint64_t *widths, size_t widths_count,
    uint64_t *found);

/* The step line at place `at` of a text. On 0: found holds the step, its truths, and the place behind the line's LF. CAVEWATCH_END: no step
 * line that ends in LF stands there. Begin at found[2] of cavewatch_read_book. */
uint64_t cavewatch_next_step(
    const uint8_t *text, size_t text_count,
    size_t at,
    uint64_t *found);

/* Compiles the rule of `count` formula nodes at place `first`. On 0: its nodes stand in the front rows of `nodes`, and found[0] is their count. */
uint64_t cavewatch_compile_rule(
    const uint8_t *ops, size_t ops_count,
    const uint64_t *nums, size_t nums_count,
    size_t first, size_t count,
    uint64_t *nodes, size_t nodes_count,
    uint64_t *found);

/* Makes the monitor of the compiled rule whose `ncount` nodes stand from row `nfirst` of `nodes` on (0 after cavewatch_compile_rule). On 0 the
 * monitor has `ncount` nodes; nothing is pending, failed or remembered, and every culprit is -1. */
uint64_t cavewatch_fresh(
    const uint8_t *ops, size_t ops_count,
    const uint64_t *nums, size_t nums_count,
    size_t first, size_t count,
    const uint64_t *nodes, size_t nodes_count,
    size_t nfirst, size_t ncount,
    uint64_t *forms, size_t forms_count,
    uint64_t *bounds, size_t bounds_count,
    bool *held, size_t held_count,
    uint64_t *remaining, size_t remaining_count,
    bool *failed, size_t failed_count,
    int64_t *culprits, size_t culprits_count);

/* Steps a monitor of `size` nodes once, in place: step s (below 2^63), signal n being bit n of w. 0: no report. CAVEWATCH_REPORT: the rule is
 * newly broken, and culprits[0] is the step to blame, or -1 where none is. */
uint64_t cavewatch_step(
    const uint8_t *ops, size_t ops_count,
    const uint64_t *nums, size_t nums_count,
    size_t first, size_t count,
    const uint64_t *nodes, size_t nodes_count,
    size_t nfirst, size_t ncount,
    size_t size,
    const uint64_t *forms, size_t forms_count,
    const uint64_t *bounds, size_t bounds_count,
    bool *held, size_t held_count,
    uint64_t *remaining, size_t remaining_count,
    bool *failed, size_t failed_count,
    int64_t *culprits, size_t culprits_count,
    uint64_t s, uint64_t w);

/* Steps a monitor over all the words, in place, the first at step s, the next at s + 1, and on: what that many calls of cavewatch_step answer
 * and leave, with one test of what is lent. 0: no report. CAVEWATCH_REPORT: found[0] is the first step that is reported, and culprits[0] its culprit.
 * A refusal is of the whole run: nothing is stepped. No words are no step: the answer is 0, whatever s is. */
uint64_t cavewatch_run(
    const uint8_t *ops, size_t ops_count,
    const uint64_t *nums, size_t nums_count,
    size_t first, size_t count,
    const uint64_t *nodes, size_t nodes_count,
    size_t nfirst, size_t ncount,
    size_t size,
    const uint64_t *forms, size_t forms_count,
    const uint64_t *bounds, size_t bounds_count,
    bool *held, size_t held_count,
    uint64_t *remaining, size_t remaining_count,
    bool *failed, size_t failed_count,
    int64_t *culprits, size_t culprits_count,
    uint64_t s,
    const uint64_t *words, size_t words_count,
    uint64_t *found);

/* Lists a whole book: on 0 the first found[0] bytes of `out` are its listing, which for a refused book is its `refused` line. */
uint64_t cavewatch_list_book(
    const uint8_t *text, size_t text_count,
    uint8_t *out, size_t out_count,
    uint64_t *found);

#ifdef __cplusplus
}
#endif

#endif
