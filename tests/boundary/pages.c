/* Calls every function with each slice at the end, then at the start, of pages of its own, with pages that can't be touched on both sides. What a call may not write is read-only: the case, the tables of both checks, the list of candidates, and every table of a call that is refused. Of unfinished solves the answers lie there, and the states in them hold what a beginning gave, anything, or nothing that is set. */
#define _GNU_SOURCE
#include <signal.h>
#include <sys/mman.h>
#include <unistd.h>

#include "judge.h"

#include "cases.h"

#define PAGE 4096

struct area { uint8_t *map, *start; size_t mapped, length; };

static struct area place(const uint8_t *bytes, size_t length, int at_end, int read_only) {
  size_t inner = (length / PAGE + 1) * PAGE;
  struct area a = { .mapped = inner + 2 * PAGE, .length = length };
  a.map = mmap(NULL, a.mapped, PROT_READ | PROT_WRITE, MAP_PRIVATE | MAP_ANONYMOUS, -1, 0);
  if (a.map == MAP_FAILED) { perror("mmap"); exit(1); }
  a.start = at_end ? a.map + PAGE + inner - length : a.map + PAGE;
  memcpy(a.start, bytes, length);
  mprotect(a.map, PAGE, PROT_NONE);
  mprotect(a.map + PAGE + inner, PAGE, PROT_NONE);
  if (read_only) mprotect(a.map + PAGE, inner, PROT_READ);
  return a;
}

static void drop(struct area a) { munmap(a.map, a.mapped); }

/* the case at hand, and the calls on guarded pages so far */
static size_t current, calls;

static void fail(const char *what) {
  store(current, what);
  exit(1);
}

/* a page that can't be touched was, or one that can only be read was written */
static void on_fault(int signal) {
  (void)signal;
  store(current, "memory outside the slices, or that may not be written, was touched");
  _exit(1);
}

static void same(const char *what, const void *got, const void *expected, size_t length) {
  char text[128];
  snprintf(text, sizeof text, "%s differs from the call on plain memory", what);
  if (memcmp(got, expected, length) != 0) fail(text);
}

static void number(const char *what, size_t got, size_t expected) {
  char text[128];
  snprintf(text, sizeof text, "%s is %zu, expected %zu", what, got, expected);
  if (got != expected) fail(text);
}

static uint8_t filler[sizeof(struct judge_begun)];

/* ---- The same calls on plain memory */

/* the nodes whose totals are asked: the first, the last, and two that are none */
#define ASKED 4

static size_t asked(const struct judge_reading *read, size_t i) {
  const size_t nodes[ASKED] = { 0, read->nodes - 1, read->nodes, SIZE_MAX };
  return nodes[i];
}

/* what is asked of links to add: a target, the length of a list, and whether the last node in it is none */
struct works { size_t target, length; int unknown; };

#define WORKS 9

/* the longest list only where there are few pairs to solve for each of its selections */
static struct works works(const struct judge_reading *read, size_t i) {
  size_t last = read->targets - 1, pairs = read->nodes * read->shapes, most = pairs > 20 ? 1 : pairs > 2 ? 4 : JUDGE_MOST_CANDIDATES;
  const struct works all[WORKS] = {
    { 0, 0, 0 }, { 0, 5 * most, 0 }, { last, 5, 0 }, { last, 60, 1 }, { read->targets, 60, 0 }, { SIZE_MAX, 5, 1 }, { 0, 4, 0 }, { 0, 61, 1 }, { last, 65, 0 },
  };
  return all[i];
}

static uint8_t list[5 * (JUDGE_MOST_CANDIDATES + 1)];

static void put_list(const struct judge_reading *read, struct works w) {
  for (size_t i = 0; i <= JUDGE_MOST_CANDIDATES; i++) {
    size_t nodes = read->nodes > 0 ? read->nodes : 1, subject = (2 + 5 * i) % nodes, object = (7 * i + 1) % nodes;
    if (w.unknown && i + 1 == w.length / 5) object = read->nodes;
    const uint8_t candidate[] = { (uint8_t)(i % 3), (uint8_t)subject, (uint8_t)(subject >> 8), (uint8_t)object, (uint8_t)(object >> 8) };
    memcpy(list + 5 * i, candidate, sizeof candidate);
  }
}

struct plain {
  struct judge_reading read;
  struct judge_solution solved;
  struct judge_ranked ranked;
  struct judge_totals totals[ASKED];
  struct judge_fewest fewest[WORKS];
  size_t pairs;
  /* values, levels and verdicts one after another; the strata, or the filler that a refusal leaves */
  uint8_t *tables, *strata;
};

static void totals_on_plain_memory(const uint8_t *bytes, size_t length, struct plain *p) {
  for (size_t i = 0; i < ASKED; i++) {
    size_t node = asked(&p->read, i);
    int refused = p->read.number != 0, none = node >= p->read.nodes;
    p->totals[i] = judge_node_totals(bytes, length, node);
    number("number of judge_node_totals", p->totals[i].number, refused ? p->read.number : none ? 5 : 0);
    number("place of judge_node_totals", p->totals[i].place, refused ? p->read.place : none ? node : 0);
    if (refused || none) number("a count of a refusal", p->totals[i].valid + p->totals[i].undetermined, 0);
  }
}

/* a refusal where it has to be one; else a selection of what the list has, and none of them exactly where the target is sure as it is */
static void fewest_on_plain_memory(const uint8_t *bytes, size_t length, struct plain *p) {
  for (size_t i = 0; i < WORKS; i++) {
    struct works w = works(&p->read, i);
    put_list(&p->read, w);
    struct judge_fewest got = p->fewest[i] = judge_fewest_edges(bytes, length, w.target, list, w.length);
    struct judge_fewest refused = { p->read.number, p->read.place, 0 }, none = { 25, 0, 0 };
    if (refused.number == 0) {
      if (w.length > 60 || w.length % 5 != 0) refused = (struct judge_fewest){ 23, w.length, 0 };
      else if (w.target >= p->read.targets) refused = (struct judge_fewest){ 24, 0, 0 };
      else if (w.unknown) refused = (struct judge_fewest){ 24, w.length / 5, 0 };
    }
    if (refused.number == 0 && got.number != 0) refused = none;
    number("number of judge_fewest_edges", got.number, refused.number);
    number("place of judge_fewest_edges", got.place, refused.place);
    if (refused.number != 0) number("the selection of a refusal", got.selection, 0);
    if (got.selection >> w.length / 5 != 0) fail("a selection has more candidates than the list");
    if (refused.number == 0 || refused.number == 25) {
      uint8_t verdict = p->tables[3 * p->pairs + w.target];
      number("whether no link has to be added", got.number == 0 && got.selection == 0, verdict == 2);
    }
  }
}

/* fresh bytes of a table are set by nothing: a call that goes by them shows under valgrind */
static struct plain on_plain_memory(const uint8_t *bytes, size_t length) {
  struct plain p = { .read = judge_read(bytes, length) };
  p.pairs = p.read.nodes * p.read.shapes;
  p.tables = malloc(3 * p.pairs + p.read.targets + 1);
  p.solved = judge_solve(bytes, length, p.tables, p.pairs, p.tables + p.pairs, 2 * p.pairs, p.tables + 3 * p.pairs, p.read.targets);
  p.strata = malloc(p.read.shapes + 1);
  p.ranked = judge_rank(bytes, length, p.strata, p.read.shapes);
  if (p.ranked.number != 0) memset(p.strata, filler[0], p.read.shapes);
  number("judge_solve", p.solved.number, p.read.number);
  number("the sum of the verdicts", p.solved.sure + p.solved.open + p.solved.impossible, p.read.targets);
  totals_on_plain_memory(bytes, length, &p);
  return p;
}

/* ---- Calls on guarded pages */

/* solve with tables of these lengths, which refuses with the given number or, for 0, answers as on plain memory */
static void solve_at(int at_end, struct area c, size_t v, size_t l, size_t d, size_t refusal, const struct plain *p) {
  for (int desk = 0; desk < 2; desk++) {
    struct area vt = place(filler, v, at_end, refusal != 0), lt = place(filler, l, at_end, refusal != 0), dt = place(filler, d, at_end, refusal != 0);
    if (desk) number("solve", solve(c.start, c.length, vt.start, v, lt.start, l, dt.start, d), refusal);
    else {
      struct judge_solution got = judge_solve(c.start, c.length, vt.start, v, lt.start, l, dt.start, d);
      number("number of judge_solve", got.number, refusal);
      if (refusal == 0) same("judge_solve", &got, &p->solved, sizeof got);
      else number("a count of a refusal", got.rounds + got.valid + got.undetermined + got.sure + got.open + got.impossible, 0);
    }
    if (refusal == 0) {
      same("value table", vt.start, p->tables, v);
      same("level table", lt.start, p->tables + v, l);
      same("verdict table", dt.start, p->tables + v + l, d);
    }
    drop(vt), drop(lt), drop(dt);
    calls++;
  }
}

static void check_at(int at_end, struct area c, const uint8_t *values, size_t v, const uint8_t *levels, size_t l, size_t expected) {
  struct area vt = place(values, v, at_end, 1), lt = place(levels, l, at_end, 1);
  number("judge_check", judge_check(c.start, c.length, vt.start, v, lt.start, l).number, expected);
  number("check", check(c.start, c.length, vt.start, v, lt.start, l), expected);
  drop(vt), drop(lt);
  calls += 2;
}

/* the old code's check: with a refusal, of this number and place, or the solved values */
static void check_supported_at(int at_end, struct area c, const uint8_t *values, size_t v, size_t refusal, size_t where, const struct plain *p) {
  struct area vt = place(values, v, at_end, 1);
  struct judge_checked_old got = judge_check_supported(c.start, c.length, vt.start, v);
  number("number of judge_check_supported", got.number, refusal);
  number("place of judge_check_supported", got.place, where);
  number("undetermined pairs of judge_check_supported", got.undetermined, refusal == 0 ? p->solved.undetermined : 0);
  number("valid targets of judge_check_supported", got.valid, refusal == 0 ? p->solved.sure : 0);
  number("code of judge_check_supported", got.code, 1);
  drop(vt);
  calls++;
}

static void rank_at(int at_end, struct area c, size_t s, const struct judge_ranked *answer, const uint8_t *strata) {
  struct area st = place(filler, s, at_end, answer->number != 0);
  struct judge_ranked got = judge_rank(c.start, c.length, st.start, s);
  same("judge_rank", &got, answer, sizeof got);
  same("strata table", st.start, strata, s);
  drop(st);
  calls++;
}

static void totals_at(struct area c, const struct plain *p) {
  for (size_t i = 0; i < ASKED; i++) {
    struct judge_totals got = judge_node_totals(c.start, c.length, asked(&p->read, i));
    same("judge_node_totals", &got, &p->totals[i], sizeof got);
    calls++;
  }
}

static void fewest_at(int at_end, struct area c, const struct plain *p) {
  for (size_t i = 0; i < WORKS; i++) {
    struct works w = works(&p->read, i);
    put_list(&p->read, w);
    struct area lt = place(list, w.length, at_end, 1);
    struct judge_fewest got = judge_fewest_edges(c.start, c.length, w.target, lt.start, w.length);
    same("judge_fewest_edges", &got, &p->fewest[i], sizeof got);
    drop(lt);
    calls++;
  }
}

/* each table one entry short, no tables at all, and a proposal that is none */
static void short_tables_at(int at_end, struct area c, const struct plain *p) {
  const uint8_t *values = p->tables, *levels = p->tables + p->pairs;
  size_t v = p->pairs, l = 2 * p->pairs, d = p->read.targets;
  if (v > 0) {
    solve_at(at_end, c, v - 1, l, d, 10, p);
    solve_at(at_end, c, v, l - 1, d, 11, p);
    solve_at(at_end, c, 0, 0, 0, 10, p);
    check_at(at_end, c, values, v - 1, levels, l, 10);
    check_at(at_end, c, values, v, levels, l - 1, 11);
    check_at(at_end, c, filler, v, levels, l, 13);
    check_supported_at(at_end, c, values, v - 1, 10, v, p);
    check_supported_at(at_end, c, filler, v, 13, 0, p);
  }
  if (d > 0) solve_at(at_end, c, v, l, d - 1, 12, p);
  if (p->read.shapes > 0) {
    struct judge_ranked short_table = { 16, p->read.shapes, 0 };
    rank_at(at_end, c, p->read.shapes - 1, &short_table, filler);
  }
}

/* ---- Unfinished solves. A state goes by value: the copy is the caller's. The place of an answer is the call's to write; x86-64 takes it as a first argument, and so these are the same functions */

void begin_into(struct judge_begun *answer, const uint8_t *case_bytes, size_t case_length) __asm__("judge_begin");
void advance_into(struct judge_advanced *answer, struct judge_unfinished unfinished) __asm__("judge_advance");
void ask_into(struct judge_reply *answer, struct judge_unfinished unfinished, size_t pair) __asm__("judge_ask");

/* the state that a beginning makes of a case */
static struct judge_unfinished beginning(const uint8_t *bytes, size_t length, const struct plain *p) {
  static const uint8_t nothing[] = { 0x01, 0x00, 0x00, 0xFF };
  struct judge_unfinished u = { .length = length, .pairs = p->pairs };
  if (p->read.number != 0) bytes = nothing, u.length = sizeof nothing;
  memcpy(u.bytes, bytes, u.length);
  memset(u.values, 1, sizeof u.values);
  return u;
}

static void question_at(int at_end, const struct judge_unfinished *u, size_t pair) {
  struct area a = place(filler, sizeof(struct judge_reply), at_end, 0);
  struct judge_reply *got = (void *)a.start, expected = { 21, pair, 0 };
  uint8_t value = pair < sizeof u->values ? u->values[pair] : 0;
  if (pair < u->pairs) expected = (struct judge_reply){ 0, 0, value > 1 ? 2 : value == 0 ? 0 : u->over ? 1 : 3 };
  ask_into(got, *u, pair);
  calls++;
  number("number of judge_ask", got->number, expected.number);
  number("place of judge_ask", got->place, expected.place);
  number("reply of judge_ask", got->reply, expected.reply);
  drop(a);
}

/* some pairs, and what lies at the ends of the pairs and of the values */
static void questions_at(int at_end, const struct judge_unfinished *u) {
  const size_t pairs[] = { 0, 5, u->pairs / 2, u->pairs - 1, u->pairs, sizeof u->values - 1, sizeof u->values, SIZE_MAX };
  for (size_t i = 0; i < sizeof pairs / sizeof *pairs; i++) question_at(at_end, u, pairs[i]);
}

/* a solve from its beginning to its end, and an advance more */
static void course_at(int at_end, struct area c, const struct plain *p) {
  struct area b = place(filler, sizeof(struct judge_begun), at_end, 0), a = place(filler, sizeof(struct judge_advanced), at_end, 0);
  struct judge_begun *begun = (void *)b.start;
  struct judge_advanced *advanced = (void *)a.start;
  begin_into(begun, c.start, c.length);
  calls++;
  struct judge_unfinished u = beginning(c.start, c.length, p);
  same("judge_begin", begun, &p->read, sizeof p->read);
  same("the state of judge_begin", &begun->unfinished, &u, sizeof u);
  size_t rounds = p->read.number == 0 ? p->solved.rounds : 1;
  for (size_t i = 1; i <= rounds; i++, u = advanced->unfinished) {
    questions_at(at_end, &u);
    advance_into(advanced, u);
    calls++;
    number("over of judge_advance", advanced->over, i == rounds);
  }
  same("the values at the end", u.values, p->tables, p->pairs);
  questions_at(at_end, &u);
  advance_into(advanced, u);
  calls++;
  number("over of judge_advance after the end", advanced->over, 1);
  same("the state after the end", &advanced->unfinished, &u, sizeof u);
  drop(a), drop(b);
}

/* states of any contents */
#define STATES 5

static uint8_t noise[sizeof(struct judge_unfinished) + STATES];

/* the case in it, where it fits, and its length in the first two; values about 2 in the first */
static struct judge_unfinished any_state(const uint8_t *bytes, size_t length, size_t i) {
  struct judge_unfinished u;
  memcpy(&u, noise + i, sizeof u);
  const size_t lengths[STATES] = { length, length, sizeof u.bytes, sizeof u.bytes + 1, u.length };
  const size_t overs[STATES] = { 0, 2, 0, 0, u.over };
  if (length <= sizeof u.bytes) memcpy(u.bytes, bytes, length);
  for (size_t k = 0; i == 0 && k < sizeof u.values; k++) u.values[k] %= 4;
  u.length = lengths[i], u.over = overs[i];
  return u;
}

/* what any state keeps: its case, its pairs and the values behind those of its case; after the end everything. Without a case that reads, the first round is the last */
static void any_states_at(int at_end, const uint8_t *bytes, size_t length, const struct plain *p) {
  struct area a = place(filler, sizeof(struct judge_advanced), at_end, 0);
  struct judge_advanced *got = (void *)a.start;
  for (size_t i = 0; i < STATES; i++) {
    struct judge_unfinished u = any_state(bytes, length, i), *after = &got->unfinished;
    size_t pairs = i == 0 ? p->pairs : 0;
    questions_at(at_end, &u);
    advance_into(got, u);
    calls++;
    same("the case of any state", after->bytes, u.bytes, sizeof u.bytes);
    number("the length of any state", after->length, u.length);
    number("the pairs of any state", after->pairs, u.pairs);
    same("the values behind the pairs", after->values + pairs, u.values + pairs, sizeof u.values - pairs);
    if (pairs == 0) number("over without pairs", got->over, 1);
    number("the state's over", after->over, u.over != 0 ? u.over : got->over);
    for (size_t k = 0; k < pairs; k++) if (after->values[k] > 2) fail("a round leaves a value above 2");
  }
  drop(a);
}

/* behind the copy and behind the pairs nothing is set: a call that goes by it shows under valgrind */
static void half_set(const uint8_t *bytes, size_t length, const struct plain *p) {
  struct judge_unfinished *u = malloc(sizeof *u);
  memcpy(u->bytes, bytes, length);
  memset(u->values, 1, p->pairs);
  u->length = length, u->pairs = p->pairs, u->over = 0;
  struct judge_advanced whole = judge_advance(beginning(bytes, length, p)), got = judge_advance(*u);
  number("over of a state half set", got.over, whole.over);
  same("the values of a state half set", got.unfinished.values, whole.unfinished.values, p->pairs);
  free(u);
}

static void all_calls_at(int at_end, const uint8_t *bytes, size_t length, const struct plain *p) {
  struct area c = place(bytes, length, at_end, 1);
  struct judge_reading again = judge_read(c.start, length);
  same("judge_read", &again, &p->read, sizeof again);
  calls++;
  int sound = p->read.number == 0;
  solve_at(at_end, c, p->pairs, 2 * p->pairs, p->read.targets, p->read.number, p);
  rank_at(at_end, c, p->read.shapes, &p->ranked, p->strata);
  totals_at(c, p);
  fewest_at(at_end, c, p);
  check_at(at_end, c, sound ? p->tables : filler, p->pairs, sound ? p->tables + p->pairs : filler, 2 * p->pairs, p->read.number);
  check_supported_at(at_end, c, sound ? p->tables : filler, p->pairs, p->read.number, p->read.place, p);
  if (sound) short_tables_at(at_end, c, p);
  course_at(at_end, c, p);
  any_states_at(at_end, bytes, length, p);
  drop(c);
}

static void run(size_t i) {
  current = i;
  struct plain p = on_plain_memory(cases[i].bytes, cases[i].length);
  if (i == 0) {
    same("the ring's values", p.tables, "\2\2\2\2\2\0\0\0\0\2\0\0\2\2\0\0\0\0\2\2", 20);
    same("the ring's verdicts", p.tables + 60, "\2\0", 2);
    number("the ring's link to add", judge_fewest_edges(cases[0].bytes, cases[0].length, 1, (const uint8_t *)"\0\1\0\3\0\0\3\0\1\0", 10).selection, 2);
  }
  fewest_on_plain_memory(cases[i].bytes, cases[i].length, &p);
  for (int at_end = 0; at_end < 2; at_end++) all_calls_at(at_end, cases[i].bytes, cases[i].length, &p);
  if (p.read.number == 0) half_set(cases[i].bytes, cases[i].length, &p);
  free(p.tables), free(p.strata);
}

/* the word: every so manyth case, the first in any case */
int main(int count, char **words) {
  size_t step = one_number(count, words, 100), done = 0;
  make_cases();
  signal(SIGSEGV, on_fault);
  signal(SIGBUS, on_fault);
  memset(filler, 0xA5, sizeof filler);
  for (size_t i = 0; i < sizeof noise; i++) noise[i] = (uint8_t)below(256);
  for (size_t i = 0; i < case_count; i += step, done++) run(i);
  if (calls < 158 * done) {
    printf("boundary: only %zu calls on %zu cases\n", calls, done);
    return 1;
  }
  printf("%zu calls on %zu cases at both ends of their pages\n", calls, done);
  return 0;
}
