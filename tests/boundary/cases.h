/* The cases that both programs of this folder use, and what both do when an answer is wrong. */
#include <stdint.h>
#include <stdio.h>
#include <stdlib.h>
#include <string.h>

#include "judge.h"

#define MOST_CASES 120
/* more than a solve copies of its case */
#define MOST_BYTES 8200

static struct { const char *name; uint8_t *bytes; size_t length; } cases[MOST_CASES];
static size_t case_count;

static void add(const char *name, const uint8_t *bytes, size_t length) {
  if (case_count == MOST_CASES) abort();
  cases[case_count].name = name;
  cases[case_count].bytes = malloc(length + 1);
  memcpy(cases[case_count].bytes, bytes, length);
  cases[case_count++].length = length;
}

static void add_hex(const char *name, const char *text) {
  uint8_t bytes[256];
  size_t length = 0;
  unsigned byte;
  int used;
  while (sscanf(text, "%2x%n", &byte, &used) == 1) {
    bytes[length++] = (uint8_t)byte;
    for (text += used; *text == ' ' || *text == ','; text++) {}
  }
  add(name, bytes, length);
}

/* ---- A case with every group at its limit, and its profile's */

static uint64_t seed = 1;

static unsigned below(unsigned n) {
  seed = seed * 6364136223846793005u + 1442695040888963407u;
  return (unsigned)(seed >> 33) % n;
}

static uint8_t full[MOST_BYTES];
static size_t full_length;

/* how many shapes are written; operands and targets name these */
static unsigned written;

/* the profile, -1 for no 00, and its limits */
static int profile;
static unsigned nodes, shapes;

static void under(int number) {
  profile = number;
  nodes = 128u << (number > 0 ? number : 0);
  shapes = 32u >> (number > 0 ? number : 0);
}

static void put(unsigned byte) { full[full_length++] = (uint8_t)byte; }

static void put_node(unsigned node) { put(node & 255), put(node >> 8); }

static void put_opening(void) {
  full_length = 0;
  if (profile >= 0) put(0x00), put((unsigned)profile);
  put(0x01), put_node(nodes);
}

static void put_path(unsigned kind, unsigned earlier) {
  put(kind);
  if (kind < 0x12) put(below(4));
  else put(below(earlier));
  if (kind == 0x12 || kind == 0x13) put(below(earlier));
}

static void put_shape(unsigned kind) {
  put(kind);
  switch (kind) {
    case 0x20: break;
    case 0x21: put_node(below(nodes)); break;
    case 0x24: put(below(written)); break;
    case 0x25: put(below(16)), put(below(16)); break;
    case 0x26: put(below(16)), put(below(written)); break;
    case 0x27: put(1 + below(255) % (1 + below(30))), put(below(16)), put(below(written)); break;
    default: put(below(written)), put(below(written));
  }
}

/* a part that makes so many shapes with all that is inside it, a 29 none; 32 are 6 deep */
static void put_part(unsigned makes) {
  unsigned half = (makes - 1) / 2;
  if (makes == 0) put(0x29), put(below(written));
  else if (makes == 1) put(0x21), put_node(below(nodes));
  else if (makes == 2) put(0x24), put_part(1);
  else if (makes == 3) put(0x2A), put(below(255)), put(below(16)), put_part(1);
  else put(0x22 + below(2)), put_part(half), put_part(makes - 1 - half);
}

/* ands of ands, so many levels of parts, over tops or named shapes */
static void put_ands(unsigned levels, int named) {
  if (levels > 1) put(0x22), put_ands(levels - 1, named), put_ands(levels - 1, named);
  else if (named) put(0x29), put(below(written));
  else put(0x20);
}

/* so many of 1,024 commands lay an edge; the others park one of these */
static void put_edges(unsigned laid) {
  size_t first = full_length;
  for (unsigned i = 0; i < 1024; i++) {
    size_t edge = first + 6 * below(laid);
    if (i < laid) put(0x02), put(below(4)), put_node(below(nodes)), put_node(below(nodes));
    else put(0x03), memcpy(full + full_length, full + edge + 1, 5), full_length += 5;
  }
}

/* so many edges are laid and so many shapes written; where these are less than there can be, the last is a 28 that makes up for them. Of eight others so many are nots, and some more */
static void make_full(unsigned nots, unsigned count, unsigned laid) {
  written = count;
  put_opening();
  put_edges(laid);
  for (unsigned i = 0; i < 16; i++) put_path(i < 2 ? 0x10 + i : 0x10 + below(5), i);
  for (unsigned i = count < shapes; i < count; i++) put_shape(below(8) < nots ? 0x24 : 0x20 + below(8));
  if (count < shapes) put(0x28), put_part(shapes - count + 1);
  for (int i = 0; i < 256; i++) put(0x30), put(below(written)), put_node(below(nodes));
  put(0xFF);
}

/* as many fresh shapes, or named ones, as reading can come to see: all shapes or one less, then a 28 with 255 parts */
static void make_most_parts(int named) {
  written = named ? shapes : 2;
  put_opening();
  if (named) for (unsigned i = 0; i + 1 < shapes; i++) put(0x22), put(i), put(i + 1);
  else put(0x28), put(0x24), put_ands(profile > 0 ? 5 - (unsigned)profile : 5, 0);
  put(0x28), put_ands(8, named);
  put(0xFF);
}

/* ---- All cases */

/* every group at the limits of a profile that lets in more than 128 nodes: all edges laid, few, and half of the shapes fresh; and faults at the end */
static void add_full(int number) {
  under(number);
  make_full(1, shapes, 1024);
  add("full limits of a profile", full, full_length);
  add("full limits of a profile, end missing", full, full_length - 1);
  add("full limits of a profile, a node cut", full, full_length - 2);
  full[full_length - 2] = (uint8_t)(nodes / 256);
  add("full limits of a profile, node not there", full, full_length);
  make_full(3, shapes, 40);
  add("full limits of a profile, 984 parks", full, full_length);
  make_full(1, shapes / 2, 40);
  add("full limits of a profile, half of the shapes fresh", full, full_length);
  make_most_parts(0);
  add("most fresh shapes of a profile", full, full_length);
  make_most_parts(1);
  add("most named shapes of a profile", full, full_length);
}

/* every group but the nodes at the limits of a profile: as many as there are without one */
static void add_narrow(int number) {
  under(number);
  nodes = 128;
  make_full(2, shapes, 1024);
  add("128 nodes under a profile", full, full_length);
}

static void make_cases(void) {
  under(-1);
  add_hex("ring", "01 04 00, 02 00 01 00 00 00, 02 00 02 00 03 00, 02 00 03 00 02 00, 02 01 00 00 00 00, 10 00, 10 01, 20, 27 01 01 00, 27 01 00 03, 23 01 02, 24 03, 30 03 01 00, 30 03 02 00, FF");
  add_hex("clash", "01 01 00, 02 00 00 00 00 00, 24 01, 24 00, FF");
  add_hex("not itself", "01 01 00, 02 00 00 00 00 00, 24 00, 30 00 00 00, FF");
  add_hex("or of itself", "01 01 00, 02 00 00 00 00 00, 23 00 00, FF");
  add_hex("union", "01 02 00, 02 00 00 00 01 00, 02 01 00 00 01 00, 10 00, 10 01, 12 00 01, 20, 27 01 02 00, 27 02 02 00, FF");
  add_hex("all", "01 03 00, 02 00 00 00 01 00, 10 05, 20, 26 00 00, FF");
  add_hex("no nodes", "01 00 00, FF");
  add_hex("no nodes, a shape", "01 00 00, 20, FF");
  add_hex("no shapes", "01 80 00, 02 00 7F 00 00 00, FF");
  add_hex("strata", "01 02 00, 02 00 00 00 01 00, 10 00, 20, 24 00, 26 00 01, 24 02, 22 03 01, 30 04 00 00, FF");
  for (unsigned nots = 0; nots < 4; nots++) {
    make_full(nots, 32, 1024);
    add("full limits", full, full_length);
  }
  make_full(1, 16, 1024);
  add("full limits, 16 shapes fresh", full, full_length);
  make_full(1, 1, 1024);
  add("full limits, 31 shapes fresh", full, full_length);
  make_full(1, 32, 512);
  add("full limits, 512 parks", full, full_length);
  add("full limits, a park cut", full, 3 + 6 * 1024 - 1);
  full[3 + 6 * 1023 + 1] = 4;
  add("full limits, a park of no edge", full, full_length);
  make_full(1, 32, 1);
  add("full limits, 1,023 parks", full, full_length);
  make_most_parts(0);
  add("most fresh shapes", full, full_length);
  make_most_parts(1);
  add("most named shapes", full, full_length);
  add("most named shapes, the last cut", full, full_length - 2);
  make_full(1, 32, 1024);
  add("full, end missing", full, full_length - 1);
  add("full, cut in an edge", full, 4000);
  add("full, a target cut", full, full_length - 2);
  full[full_length] = 0;
  add("full, a byte behind", full, full_length + 1);
  add("full, longer than a copy", full, MOST_BYTES);
  full[full_length - 4] = 32;
  add("full, shape not there", full, full_length);
  full[full_length - 2] = 1;
  add("full, node not there", full, full_length);
  add_hex("empty", "");
  add_hex("1", "04");
  add_hex("1 later", "01 00 00 29 00");
  add_hex("2", "FF");
  add_hex("2 later", "01 00 00 20 10 00 FF");
  add_hex("3", "01 04");
  add_hex("4", "01 81 00");
  add_hex("5", "01 01 00 02 00 00 00 01 00");
  add_hex("6", "01 01 00 14 00");
  add_hex("7", "01 01 00 10 00 27 00 00 00");
  add_hex("8", "01 00 00 FF FF");
  add_hex("9", "01 00 00 24 01 FF");
  add_hex("nested ring", "01 04 00, 02 00 01 00 00 00, 02 00 02 00 03 00, 02 00 03 00 02 00, 02 01 00 00 00 00, 10 00, 10 01, 28 23 27 01 01 20 27 01 00 29 00, 28 24 29 00, 30 00 01 00, 30 00 02 00, FF");
  add_hex("at most", "01 03 00, 02 00 00 00 01 00, 02 00 00 00 02 00, 10 00, 28 2A 01 00 20, 28 2A 02 00 20, 28 2A FE 00 20, FF");
  add_hex("double not", "01 01 00, 28 24 24 29 00, 30 00 00 00, FF");
  add_hex("29 of itself", "01 01 00, 28 29 00, FF");
  add_hex("8 deep", "01 01 00, 10 00, 28 24 2A 00 00 26 00 27 01 00 22 20 23 29 00 24 25 00 00, FF");
  add_hex("28 alone", "01 01 00, 28");
  add_hex("a part's node cut", "01 01 00, 28 24 21 00");
  add_hex("a part's paths cut", "01 01 00, 10 00, 28 24 25 00");
  add_hex("a part's path cut", "01 01 00, 10 00, 28 24 26");
  add_hex("an inner part cut", "01 01 00, 10 00, 28 22 20");
  add_hex("a part's number cut", "01 01 00, 10 00, 28 27");
  add_hex("a 2A cut", "01 01 00, 10 00, 28 24 2A 00");
  add_hex("a 29 cut", "01 01 00, 28 24 29");
  add_hex("1 in a part", "01 01 00, 28 24 28");
  add_hex("5 in a part", "01 01 00, 28 24 21 01 00");
  add_hex("6 in a part", "01 01 00, 28 24 26 00");
  add_hex("7 in a part", "01 01 00, 10 00, 28 2A FF 00");
  add_hex("9 in a part", "01 01 00, 28 24 29 01, FF");
  add_hex("18", "01 01 00, 28 24 24 24 24 24 24 24 24 20, FF");
  add_hex("18, nothing there", "01 01 00, 28 24 24 24 24 24 24 24 24");
  add_hex("19", "01 01 00, 28 24 24 22 22 22 22 20 20 22 20 20 22 22 20 20 22 20 20 22 22 22 20 20 22 20 20 22 22 20 20 22 20 20, FF");
  add_hex("parked ring", "01 04 00, 02 00 01 00 00 00, 02 00 02 00 03 00, 02 00 03 00 02 00, 02 01 00 00 00 00, 03 00 01 00 00 00, 10 00, 10 01, 20, 27 01 01 00, 27 01 00 03, 23 01 02, 24 03, 30 03 01 00, 30 03 02 00, FF");
  add_hex("parked twice", "01 02 00, 02 00 00 00 01 00, 03 00 00 00 01 00, 02 00 00 00 01 00, 03 00 00 00 01 00, 10 00, 11 00, 20, 27 01 00 00, 27 01 01 00, 25 00 01, FF");
  add_hex("a park cut", "01 02 00, 02 00 00 00 01 00, 03 00 00 00 01");
  add_hex("03 alone", "01 02 00, 03");
  add_hex("5 in a park", "01 02 00, 02 00 00 00 01 00, 03 00 00 00 02 00, FF");
  add_hex("20", "01 02 00, 02 00 00 00 01 00, 03 00 01 00 00 00, FF");
  add_hex("20, no edges", "01 02 00, 03 00 00 00 01 00");
  add_narrow(0), add_narrow(2);
  add_full(1), add_full(2);
  add_hex("ring under profile 2", "00 02, 01 04 00, 02 00 01 00 00 00, 02 00 02 00 03 00, 02 00 03 00 02 00, 02 01 00 00 00 00, 10 00, 10 01, 20, 27 01 01 00, 27 01 00 03, 23 01 02, 24 03, 30 03 01 00, 30 03 02 00, FF");
  add_hex("no nodes under profile 1", "00 01, 01 00 00, FF");
  add_hex("512 nodes, no shapes", "00 02, 01 00 02, 02 00 FF 01 00 00, 10 00, 14 00, FF");
  add_hex("512 nodes, a star", "00 02, 01 00 02, 02 00 FF 01 00 00, 10 00, 14 00, 21 FF 01, 27 01 01 00, 30 01 FF 01, FF");
  add_hex("00 alone", "00");
  add_hex("00 00", "00 00");
  add_hex("01 cut under a profile", "00 02, 01 00");
  add_hex("22", "00 03");
  add_hex("a second 00", "00 01, 00 01");
  add_hex("a second 00, cut", "00 01, 00");
  add_hex("00 after 01", "01 01 00, 00 02, FF");
  add_hex("257 nodes under profile 1", "00 01, 01 01 01");
  add_hex("513 nodes under profile 2", "00 02, 01 01 02");
  add_hex("9 shapes under profile 2", "00 02, 01 01 00, 20, 20, 20, 20, 20, 20, 20, 20, 20, FF");
  add_hex("19 under profile 2", "00 02, 01 01 00, 20, 20, 20, 20, 20, 20, 20, 28 24 20, FF");
}

/* ---- What is run, and what went wrong */

static char stored[512];

/* the one word: a number from 1 to most; anything else is refused, since a run of nothing shows nothing */
static size_t one_number(int count, char **words, size_t most) {
  snprintf(stored, sizeof stored, "%s-failure.hex", words[0]);
  char *end = NULL;
  unsigned long number = count == 2 && words[1][0] != '-' ? strtoul(words[1], &end, 10) : 0;
  if (end == NULL || *end != '\0' || number < 1 || number > most) {
    printf("boundary: %s takes one number from 1 to %zu\n", words[0], most);
    exit(2);
  }
  return number;
}

/* leaves a case behind for tests/differential/run --replay */
static void store(size_t i, const char *what) {
  printf("boundary: case '%s', stored in %s: %s\n", cases[i].name, stored, what);
  fflush(stdout);
  FILE *file = fopen(stored, "w");
  if (file == NULL) return;
  fprintf(file, "# %s: %s\ncase", cases[i].name, what);
  for (size_t k = 0; k < cases[i].length; k++) fprintf(file, " %02X", cases[i].bytes[k]);
  fprintf(file, "\n");
  fclose(file);
}
