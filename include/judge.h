/* The cabinet judge: reads a case, solves it at once or round by round, totals it node by node, finds the fewest edges that make a target
 * sure, checks proposals by the newer code and by the old one, and ranks shapes by denial.
 *
 * Link with libjudge.a, which `scripts/library` writes to target/staticlib/ (x86-64 Linux). The library keeps no state, allocates
 * nothing and calls nothing but memcpy and memset: any number of threads may call it at once, each on its own tables. How much stack
 * each call needs is said below (JUDGE_READ_STACK and the others).
 *
 * Every slice is a pointer and a length in bytes. A length of 0 needs no valid pointer but a non-null, suitably aligned one: pass the
 * address of any byte. Slices of one call must not overlap where one of them is written. The library reads and writes nothing outside
 * them.
 *
 * A case is a string of commands; its format is described in the scope document, commands 00, 03 and 28 in the requests. A pair is a
 * shape and a node, its number is shape * nodes + node, and the pair count is shapes * nodes, at most 4,096. A value is 0 violated,
 * 1 undetermined or 2 valid. A level is two bytes, low byte first.
 *
 * Command 00 with a profile may stand once, before all others, and says how many nodes and shapes a case may have. Without it the profile
 * is 0. All other limits are the same: 1,024 edges, 16 paths, 256 targets, parts 8 deep.
 *
 *   profile  nodes  shapes, written and fresh
 *   0        128    32
 *   1        256    16
 *   2        512    8
 *
 * An input that begins with 00 00 and whose third byte is not 00 is answered as what stands behind these two bytes, but that places that are
 * offsets are two more, and that the copy in a judge_unfinished has them.
 *
 * Every answer but an advance's starts with a refusal number, 0 for none, and its place; solve and check answer the number alone. A refused
 * call writes nothing, and every count of its answer, a reply and a selection are 0 (the code of the old check is no count: it is always 1).
 * Otherwise the leading entries of the tables are written and all later bytes keep their contents.
 *
 *   number  refused because                                              place
 *   1       unknown command byte, or part byte in a command 28           the command's offset
 *   2       command out of order                                         the command's offset
 *   3       the input ends before the command or its operands do         the command's offset, or the input's length
 *   4       a limit is exceeded                                          the command's offset
 *   5       a node operand is not below the node count                   the command's offset
 *           the node asked for is not below it                           the node
 *   6       a path operand is not an earlier path                        the command's offset
 *   7       a least number is 0, or 255 in an at most                    the command's offset
 *   8       bytes after the end command                                  the first of them
 *   9       a shape operand names no written shape                       the first such command's offset
 *   10      the value table is shorter than the pair count               the length needed
 *   11      the level table is shorter than twice the pair count         the length needed
 *   12      the verdict table is shorter than the number of targets      the length needed
 *   13      a value is above 2                                           the first such pair
 *   14      a value is not its rule's                                    the pair
 *   15      a value 1 or 2 is not justified by its level                 the pair
 *   16      the strata table is shorter than the number of shapes        the length needed
 *   17      a shape depends on its own denial                            the lowest such shape
 *   18      a part of a command 28 is more than 8 deep                   the offset of the 28
 *   19      more shapes, written and fresh, than the profile has         the command's offset
 *   20      an edge to park is none that an earlier command 02 laid      the command's offset
 *   21      the pair asked for is not below the pair count               the pair
 *   22      unknown profile                                              the command's offset
 *   23      the list is over 60 bytes, or no multiple of 5               its length
 *   24      the target asked for is not below the number of targets      0
 *           a candidate's node is not below the node count               the first such candidate, counted from 1
 *   25      no selection of the candidates makes the target sure         0
 *
 * Reading's refusals are 1 to 9, 18 to 20 and 22. Command 03 parks an edge for good: it gives no fillers, and a later 02 does not bring it
 * back. Both commands stay on record, and each counts as an edge, in the limit too. Command 28 holds a whole rule; the parts
 * inside it, but for a named shape (29), become fresh shapes, two for an at most (2A), numbered after all written ones. Pairs, tables and
 * the count of shapes are those of all shapes, fresh ones too.
 *
 * A sheet may be split by road. Where the nodes fall into two groups that no command 02 or 03 joins, the values and verdicts that judge_solve
 * gives a group's pairs and targets are those of the case with only that group's edges. Its levels and its rounds may be others.
 */
#ifndef JUDGE_H
#define JUDGE_H

#include <stddef.h>
#include <stdint.h>

#ifdef __cplusplus
extern "C" {
#endif

/* More stack, in bytes, than a call needs, whatever its input, the unfinished solves that it is handed and answers by value included. Calls
 * that work on fillers reserve what the widest case needs; a small one clears a sixteenth of it. */
#define JUDGE_READ_STACK (96 * 1024)     /* judge_read, judge_rank */
#define JUDGE_ASK_STACK (160 * 1024)     /* judge_begin, judge_ask */
#define JUDGE_SOLVE_STACK (640 * 1024)   /* judge_solve, judge_check, judge_check_supported, judge_node_totals, judge_fewest_edges, solve, check */
#define JUDGE_ADVANCE_STACK (704 * 1024) /* judge_advance */

/* The tables that are long enough for every case. */
#define JUDGE_MOST_PAIRS 4096
#define JUDGE_MOST_LEVEL_BYTES 8192
#define JUDGE_MOST_TARGETS 256
#define JUDGE_MOST_SHAPES 32

/* The most candidates of a list, 5 bytes each. */
#define JUDGE_MOST_CANDIDATES 12

/* What reading answers: the counts of the case, repeats and commands 03 included. */
struct judge_reading {
    size_t number;
    size_t place;
    size_t nodes;
    size_t edges;
    size_t paths;
    size_t shapes;
    size_t targets;
};

/* What solving answers: the rounds, the valid and the undetermined pairs, and the targets that are sure, open and impossible. */
struct judge_solution {
    size_t number;
    size_t place;
    size_t rounds;
    size_t valid;
    size_t undetermined;
    size_t sure;
    size_t open;
    size_t impossible;
};

/* What checking answers: the undetermined pairs and the valid targets of an accepted proposal. */
struct judge_checked {
    size_t number;
    size_t place;
    size_t undetermined;
    size_t valid;
};

/* What checking by the old code answers: the same, and the code, which is 1, on refusal too. */
struct judge_checked_old {
    size_t number;
    size_t place;
    size_t undetermined;
    size_t valid;
    size_t code;
};

/* What ranking answers: the number of strata, one more than the largest byte, 0 for no shapes. */
struct judge_ranked {
    size_t number;
    size_t place;
    size_t strata;
};

/* What the totals of a node answer: its valid and its undetermined pairs. */
struct judge_totals {
    size_t number;
    size_t place;
    size_t valid;
    size_t undetermined;
};

/* What links to add answer: the selection, with bit i set for candidate i, the first being 0. */
struct judge_fewest {
    size_t number;
    size_t place;
    size_t selection;
};

/* A solve that may be unfinished: judge_begin makes it, judge_advance takes it on, judge_ask questions it. It is a value with nothing behind
 * it: it may be copied and kept, a copy goes its own way, and the input may be gone. The calls hold for any contents: of a length above 8,192
 * the first 8,192 bytes are the case, bytes that are no case stand for 01 00 00 FF, a value above 2 for 2, an over above 1 for the end. A
 * question goes by `pairs`, whatever the case is, and behind the last value a pair is impossible. */
struct judge_unfinished {
    uint8_t bytes[8192];              /* the case as read, then zeros */
    size_t length;                    /* how many of them are the case */
    uint8_t values[JUDGE_MOST_PAIRS]; /* for each pair 2 settled valid, 0 settled violated, 1 neither */
    size_t pairs;                     /* the pair count */
    size_t over;                      /* 0 until the end is reached, then 1 */
};

/* What beginning answers: what reading does, and the solve before its first round. */
struct judge_begun {
    size_t number;
    size_t place;
    size_t nodes;
    size_t edges;
    size_t paths;
    size_t shapes;
    size_t targets;
    struct judge_unfinished unfinished;
};

/* What advancing answers: whether the end is reached, 1 or 0, and the solve after the round. There is no refusal. */
struct judge_advanced {
    size_t over;
    struct judge_unfinished unfinished;
};

/* What a question answers: 2 sure, 1 open, 0 impossible, 3 not yet; 0 with a refusal, so look at the number first. */
struct judge_reply {
    size_t number;
    size_t place;
    size_t reply;
};

/* Reads a case. Reading's refusals. */
struct judge_reading judge_read(const uint8_t *case_bytes, size_t case_length);

/* Solves a case. Reading's refusals, 10, 11, 12. Writes a value for each pair, two level bytes for each pair, and a verdict for each target: 2 sure,
 * 1 open, 0 impossible. A target is sure (impossible) exactly when every stable assignment of the case has it valid (violated). */
struct judge_solution judge_solve(const uint8_t *case_bytes, size_t case_length,
                                  uint8_t *values, size_t values_length,
                                  uint8_t *levels, size_t levels_length,
                                  uint8_t *verdicts, size_t verdicts_length);

/* Checks a proposal: a value and a level for each pair. Reading's refusals, 10, 11, 13, 14, 15. Writes nothing. Bytes past the pairs are
 * not read. */
struct judge_checked judge_check(const uint8_t *case_bytes, size_t case_length,
                                 const uint8_t *values, size_t values_length,
                                 const uint8_t *levels, size_t levels_length);

/* Checks a proposal by the old code, for cabinets commissioned under it: a value for each pair, no levels. Reading's refusals, 10, 13, 14.
 * Writes nothing. Bytes past the pairs are not read.
 * The old code asks only that each value is its rule's. It misses a ring of fittings that only vouch for each other: all of them may be
 * valid, with nothing beneath them, and it passes. What passes judge_check with some levels passes here too; what passes here need not
 * pass judge_check with any. A cabinet under the newer code needs judge_check. */
struct judge_checked_old judge_check_supported(const uint8_t *case_bytes, size_t case_length,
                                               const uint8_t *values, size_t values_length);

/* Ranks the shapes: writes a byte for each, the most nots on a walk of references from it. Reading's refusals, 16, 17. */
struct judge_ranked judge_rank(const uint8_t *case_bytes, size_t case_length,
                               uint8_t *strata, size_t strata_length);

/* Solves a case and counts the pairs of one node, over all shapes. Reading's refusals; then 5 for a node that is not in the case, whatever
 * the number. Writes nothing. Over all nodes the counts add up to those of judge_solve. Each call solves the case anew: for the totals of
 * many nodes, judge_solve and a count of its values take one solving. */
struct judge_totals judge_node_totals(const uint8_t *case_bytes, size_t case_length, size_t node);

/* Finds the fewest candidate edges to add so that a target is sure, and of selections as small the one with the smallest number. Reading's
 * refusals, 23, 24, 25. Writes nothing. A target's number is its place among the targets, from 0. The candidates stand one after another,
 * each as an edge's operands: the property, one byte, then subject and object, two bytes each, low byte first. They are outside the limit of
 * 1,024 edges.
 * Sure is meant over the case with the chosen edges. A chosen one counts even if that edge is parked; one that is an edge already adds
 * nothing; equal candidates are separate bits. With no candidates the one selection is 0: found if the target is sure as it is, else 25.
 * Selections are tried by their size, since an edge more may also make a target less sure. At worst, before a 25, all of them are: 12
 * candidates then take as long as up to 4,096 solves, and each candidate fewer halves that. A full cabinet of random records takes some
 * hundredths of a second to four seconds, the slowest cases that are known (docs/BENCHMARKS.md) two minutes. What the target's shape does not depend
 * on is not solved. */
struct judge_fewest judge_fewest_edges(const uint8_t *case_bytes, size_t case_length, size_t target,
                                       const uint8_t *candidates, size_t candidates_length);

/* Begins a solve and takes no round: every pair is not yet. Reading's refusals. A refused beginning holds the case 01 00 00 FF in place of the
 * input, and is not at its end. */
struct judge_begun judge_begin(const uint8_t *case_bytes, size_t case_length);

/* Takes one round. The end comes after exactly as many advances as judge_solve has rounds, with its values (of a refused beginning, after one);
 * an advance after it alters nothing.
 * Each advance reads the case again and takes its round from nothing, so all of them together cost more than judge_solve. */
struct judge_advanced judge_advance(struct judge_unfinished unfinished);

/* What the rounds so far say of a pair: 2 or 0 once it is settled, which is never withdrawn; else 3 until the end, and 1 from then on. 21, and
 * no other refusal. */
struct judge_reply judge_ask(struct judge_unfinished unfinished, size_t pair);

/* The same solve and check for the crew desk: the refusal number alone, 0 for none. */
size_t solve(const uint8_t *case_bytes, size_t case_length,
             uint8_t *values, size_t values_length,
             uint8_t *levels, size_t levels_length,
             uint8_t *verdicts, size_t verdicts_length);

size_t check(const uint8_t *case_bytes, size_t case_length,
             const uint8_t *values, size_t values_length,
             const uint8_t *levels, size_t levels_length);

#ifdef __cplusplus
}
#endif

#endif
