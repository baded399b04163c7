/* Sixteen threads call all functions at once, each on copies and tables of its own and with the stack that the header says is enough for its calls; every answer and every byte has to be what one thread alone gets. */
#define _GNU_SOURCE
#include <pthread.h>
#include <stdatomic.h>

#include "judge.h"

#include "cases.h"

#define THREADS 16
/* one turn on a wide case in so many, since it takes so much longer */
#define TURNS_TO_WIDE 50

struct result {
  struct judge_reading read;
  struct judge_ranked ranked;
  struct judge_begun begun;
  struct judge_reply reply, no_pair;
  struct judge_solution solved;
  struct judge_checked checked, refused;
  struct judge_checked_old checked_old, refused_old;
  struct judge_totals totals, no_node;
  struct judge_fewest fewest, no_target;
  size_t solve_number, check_number;
  struct judge_advanced advanced;
  uint8_t values[JUDGE_MOST_PAIRS], levels[JUDGE_MOST_LEVEL_BYTES], verdicts[JUDGE_MOST_TARGETS], strata[JUDGE_MOST_SHAPES];
  uint8_t desk_values[JUDGE_MOST_PAIRS], desk_levels[JUDGE_MOST_LEVEL_BYTES], desk_verdicts[JUDGE_MOST_TARGETS];
};

static void run_reads(const uint8_t *c, size_t n, struct result *r) {
  r->read = judge_read(c, n);
  r->ranked = judge_rank(c, n, r->strata, sizeof r->strata);
}

/* a begun solve is asked for a pair that it has, and for one that it has not */
static void run_asks(const uint8_t *c, size_t n, struct result *r) {
  r->begun = judge_begin(c, n);
  r->reply = judge_ask(r->begun.unfinished, r->begun.unfinished.pairs / 2);
  r->no_pair = judge_ask(r->begun.unfinished, r->begun.unfinished.pairs);
}

/* the second check is of levels that are all 0, by the old code of values that are; the totals are those of the first node, and of none; one link is to be added for the first target, and for none */
static void run_solves(const uint8_t *c, size_t n, struct result *r) {
  static const uint8_t zeros[JUDGE_MOST_LEVEL_BYTES], link[] = { 0, 1, 0, 0, 0 };
  r->solved = judge_solve(c, n, r->values, sizeof r->values, r->levels, sizeof r->levels, r->verdicts, sizeof r->verdicts);
  r->checked = judge_check(c, n, r->values, sizeof r->values, r->levels, sizeof r->levels);
  r->refused = judge_check(c, n, r->values, sizeof r->values, zeros, sizeof zeros);
  r->checked_old = judge_check_supported(c, n, r->values, sizeof r->values);
  r->refused_old = judge_check_supported(c, n, zeros, sizeof r->values);
  r->totals = judge_node_totals(c, n, 0);
  r->no_node = judge_node_totals(c, n, 512);
  r->fewest = judge_fewest_edges(c, n, 0, link, sizeof link);
  r->no_target = judge_fewest_edges(c, n, JUDGE_MOST_TARGETS, link, sizeof link);
  r->solve_number = solve(c, n, r->desk_values, sizeof r->desk_values, r->desk_levels, sizeof r->desk_levels, r->desk_verdicts, sizeof r->desk_verdicts);
  r->check_number = check(c, n, r->values, sizeof r->values, r->levels, sizeof r->levels);
}

/* one round */
static void run_advances(const uint8_t *c, size_t n, struct result *r) {
  r->begun = judge_begin(c, n);
  r->advanced = judge_advance(r->begun.unfinished);
}

/* the stacks that the header promises, each with the calls that it is enough for */
#define ROOMS 4
static const struct room { size_t stack; void (*calls)(const uint8_t *, size_t, struct result *); } rooms[ROOMS] = {
  { JUDGE_READ_STACK, run_reads },
  { JUDGE_ASK_STACK, run_asks },
  { JUDGE_SOLVE_STACK, run_solves },
  { JUDGE_ADVANCE_STACK, run_advances },
};

/* the room of each thread: half of them solve and check, for these have the most calls */
static const size_t room_of[THREADS] = { 2, 3, 2, 0, 2, 3, 2, 1, 2, 3, 2, 0, 2, 3, 2, 1 };

/* by room and case */
static struct result alone[ROOMS][MOST_CASES];

/* tables cleared before */
static void run(size_t room, size_t i, const uint8_t *bytes, struct result *r) {
  memset(r, 0, sizeof *r);
  rooms[room].calls(bytes, cases[i].length, r);
}

/* the cases that are not wide, and those that are, by number */
static size_t by_width[2][MOST_CASES], counts[2];

static void part_by_width(void) {
  for (size_t i = 0; i < case_count; i++) {
    int wide = judge_read(cases[i].bytes, cases[i].length).nodes > 128;
    by_width[wide][counts[wide]++] = i;
  }
}

struct worker { pthread_t thread; size_t room, first, turns, done, beside; };

/* a thread goes round the cases, a wide one every so many turns */
static size_t case_at(const struct worker *w, size_t turn) {
  int wide = turn % TURNS_TO_WIDE == 0;
  size_t at = wide ? turn / TURNS_TO_WIDE : turn;
  return by_width[wide][(w->first + at) % counts[wide]];
}

/* what one thread alone gets, on the cases that this one comes to */
static void run_alone(const struct worker *w) {
  static int done[ROOMS][MOST_CASES];
  for (size_t turn = 0; turn < w->turns; turn++) {
    size_t i = case_at(w, turn);
    if (!done[w->room][i]++) run(w->room, i, cases[i].bytes, &alone[w->room][i]);
  }
}

static pthread_barrier_t start;
static atomic_size_t running;

/* one case, after another; turns beside which another thread was at one are counted */
static void *work(void *which) {
  struct worker *w = which;
  uint8_t *copy = malloc(MOST_BYTES);
  struct result *mine = malloc(sizeof *mine);
  pthread_barrier_wait(&start);
  for (; w->done < w->turns; w->done++) {
    size_t i = case_at(w, w->done);
    memcpy(copy, cases[i].bytes, cases[i].length);
    atomic_fetch_add(&running, 1);
    run(w->room, i, copy, mine);
    if (atomic_fetch_sub(&running, 1) > 1) w->beside++;
    if (memcmp(mine, &alone[w->room][i], sizeof *mine) != 0) {
      store(i, "a thread got another answer than one thread alone");
      exit(1);
    }
  }
  free(copy), free(mine);
  return NULL;
}

static void fail(const char *what, size_t thread) {
  printf("boundary: thread %zu %s\n", thread, what);
  exit(1);
}

/* the word: how many turns each thread takes */
int main(int count, char **words) {
  size_t turns = one_number(count, words, 1000000);
  make_cases();
  part_by_width();
  static struct worker workers[THREADS];
  pthread_barrier_init(&start, NULL, THREADS);
  pthread_attr_t attributes;
  pthread_attr_init(&attributes);
  for (size_t i = 0; i < THREADS; i++) {
    workers[i] = (struct worker){ .room = room_of[i], .first = 5 * i, .turns = turns };
    run_alone(&workers[i]);
  }
  for (size_t i = 0; i < THREADS; i++) {
    if (pthread_attr_setstacksize(&attributes, rooms[workers[i].room].stack) != 0) fail("cannot have the stack", i);
    if (pthread_create(&workers[i].thread, &attributes, work, &workers[i]) != 0) fail("did not start", i);
  }
  size_t beside = 0;
  for (size_t i = 0; i < THREADS; i++) {
    if (pthread_join(workers[i].thread, NULL) != 0) fail("did not end", i);
    if (workers[i].done == 0 || workers[i].done != turns) fail("did not take its turns", i);
    beside += workers[i].beside;
  }
  if (beside == 0) fail("and all others took their turns one after another", 0);
  printf("%zu turns in each of %d threads, %zu in all while another was at one\n", turns, THREADS, beside);
  return 0;
}
