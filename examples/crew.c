/* Solves the ring case, checks the solution, ranks the shapes, and prints the verdicts and the crew sheet; then it shows what the old code takes, what is known before the end, and which wires link a fitting. Build it as tests/example/run does. */
#include <stdio.h>

#include "judge.h"

/* Fitting 1 relays to gateway 0; fittings 2 and 3 relay only for each other. Shape 3 is "linked". */
static const uint8_t ring[] = {
    0x01, 0x04, 0x00,
    0x02, 0x00, 0x01, 0x00, 0x00, 0x00,
    0x02, 0x00, 0x02, 0x00, 0x03, 0x00,
    0x02, 0x00, 0x03, 0x00, 0x02, 0x00,
    0x02, 0x01, 0x00, 0x00, 0x00, 0x00,
    0x10, 0x00, 0x10, 0x01,
    0x20, 0x27, 0x01, 0x01, 0x00, 0x27, 0x01, 0x00, 0x03, 0x23, 0x01, 0x02, 0x24, 0x03,
    0x30, 0x03, 0x01, 0x00, 0x30, 0x03, 0x02, 0x00,
    0xff,
};

static const char *const words[] = {"impossible", "open", "sure", "not yet"};

/* The crew sheet, a line for each fitting. Answers the number of a refusal, 0 for none. */
static size_t print_sheet(const uint8_t *bytes, size_t length, size_t fittings)
{
    for (size_t fitting = 0; fitting < fittings; fitting++) {
        struct judge_totals totals = judge_node_totals(bytes, length, fitting);
        if (totals.number != 0)
            return totals.number;
        printf("fitting %zu: %zu pairs valid, %zu undetermined\n", fitting, totals.valid, totals.undetermined);
    }
    return 0;
}

/* Fittings 2 and 3 proposed as linked, by nothing but each other. The newer code refuses this whatever the levels; these are some. */
static const uint8_t vouched[] = {2, 2, 2, 2, 2, 0, 0, 0, 0, 2, 2, 2, 2, 2, 2, 2, 0, 0, 0, 0};
static const uint8_t vouched_levels[] = {
    1, 0, 1, 0, 1, 0, 1, 0, 2, 0, 0, 0, 0, 0, 0, 0, 0, 0, 4, 0, 9, 0, 9, 0, 3, 0, 5, 0, 5, 0, 5, 0, 0, 0, 0, 0, 0, 0, 0, 0,
};

/* The same proposal under both codes. Answers what the old code has against it. */
static size_t print_codes(void)
{
    struct judge_checked newer = judge_check(ring, sizeof ring, vouched, sizeof vouched, vouched_levels, sizeof vouched_levels);
    printf("vouched ring, newer code: %zu at %zu\n", newer.number, newer.place);
    struct judge_checked_old old = judge_check_supported(ring, sizeof ring, vouched, sizeof vouched);
    printf("vouched ring, code %zu: %zu, %zu valid targets\n", old.code, old.number, old.valid);
    return old.number;
}

/* What is known of fittings 1 and 2, round by round: shape 3 is "linked" and shape 4 its not. Answers the number of a refusal, 0 for none. */
static size_t print_rounds(void)
{
    struct judge_begun begun = judge_begin(ring, sizeof ring);
    struct judge_advanced so_far = {0, begun.unfinished};
    size_t refused = begun.number;
    for (size_t rounds = 0; refused == 0; rounds++) {
        printf("after %zu rounds:", rounds);
        for (size_t i = 0; i < 4; i++) {
            size_t fitting = 1 + i / 2, shape = 3 + i % 2;
            struct judge_reply reply = judge_ask(so_far.unfinished, shape * begun.nodes + fitting);
            printf("%s %zu %s %s", i > 0 ? ";" : "", fitting, shape == 3 ? "linked:" : "not linked:", words[reply.reply]);
            refused += reply.number;
        }
        printf("\n");
        if (so_far.over)
            break;
        so_far = judge_advance(so_far.unfinished);
    }
    return refused;
}

/* During works: the relay of fitting 1 to the gateway is parked, and fittings 2 and 3 have none. The target is "linked" at fitting 2. */
static const uint8_t works[] = {
    0x01, 0x04, 0x00,
    0x02, 0x00, 0x01, 0x00, 0x00, 0x00,
    0x02, 0x01, 0x00, 0x00, 0x00, 0x00,
    0x03, 0x00, 0x01, 0x00, 0x00, 0x00,
    0x10, 0x00, 0x10, 0x01,
    0x20, 0x27, 0x01, 0x01, 0x00, 0x27, 0x01, 0x00, 0x03, 0x23, 0x01, 0x02,
    0x30, 0x03, 0x02, 0x00,
    0xff,
};

/* The wires that could be laid, each as an edge's operands; the third is the relay that is parked. */
static const uint8_t wires[] = {
    0x00, 0x02, 0x00, 0x03, 0x00,
    0x00, 0x03, 0x00, 0x01, 0x00,
    0x00, 0x01, 0x00, 0x00, 0x00,
    0x00, 0x02, 0x00, 0x01, 0x00,
};

/* The fewest wires that make fitting 2 linked, and what the first two alone can do. Answers the number of a refusal, 0 for none. */
static size_t print_wires(void)
{
    struct judge_fewest fewest = judge_fewest_edges(works, sizeof works, 0, wires, sizeof wires);
    printf("wires that link fitting 2:");
    for (size_t i = 0; i < sizeof wires / 5; i++)
        if (fewest.selection >> i & 1)
            printf(" %d to %d,", wires[5 * i + 1], wires[5 * i + 3]);
    printf(" and no others\n");
    struct judge_fewest fewer = judge_fewest_edges(works, sizeof works, 0, wires, 10);
    printf("with the first two wires alone: %zu\n", fewer.number);
    return fewest.number;
}

int main(void)
{
    uint8_t values[JUDGE_MOST_PAIRS];
    uint8_t levels[JUDGE_MOST_LEVEL_BYTES];
    uint8_t verdicts[JUDGE_MOST_TARGETS];
    uint8_t strata[JUDGE_MOST_SHAPES];

    struct judge_reading read = judge_read(ring, sizeof ring);
    if (read.number != 0) {
        printf("refused %zu at %zu\n", read.number, read.place);
        return 1;
    }
    struct judge_solution solved = judge_solve(ring, sizeof ring, values, sizeof values, levels, sizeof levels, verdicts, sizeof verdicts);
    if (solved.number != 0) {
        printf("refused %zu at %zu\n", solved.number, solved.place);
        return 1;
    }
    printf("%zu rounds, %zu pairs valid, %zu undetermined\n", solved.rounds, solved.valid, solved.undetermined);
    for (size_t i = 0; i < read.targets; i++)
        printf("target %zu: %s\n", i, words[verdicts[i]]);
    size_t sheet = print_sheet(ring, sizeof ring, read.nodes);

    struct judge_checked checked = judge_check(ring, sizeof ring, values, sizeof values, levels, sizeof levels);
    printf("check: %zu, %zu valid targets\n", checked.number, checked.valid);
    size_t codes = print_codes();
    size_t rounds = print_rounds();
    size_t links = print_wires();
    struct judge_ranked ranked = judge_rank(ring, sizeof ring, strata, sizeof strata);
    printf("rank: %zu, %zu strata\n", ranked.number, ranked.strata);

    /* The desk's own calls answer the refusal number alone. */
    size_t again = solve(ring, sizeof ring, values, sizeof values, levels, sizeof levels, verdicts, sizeof verdicts);
    size_t taken = check(ring, sizeof ring, values, sizeof values, levels, sizeof levels);
    printf("desk: solve %zu, check %zu\n", again, taken);
    return (int)(sheet + checked.number + codes + rounds + links + ranked.number + again + taken);
}
