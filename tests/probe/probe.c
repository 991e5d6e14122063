/* The probe of tests/PROBE.md over the proved code: reads cases, each a whole state and one call, and prints the answer and the whole state
 * afterwards. Guest writes and kind changes go through the face to C (include/gresomund.h, libgresomund.a); where the state was fit and sound
 * the entry named _sound is called on the same state too, and must leave the same. Frames, steps and unguarded writes go through crates/rig_c
 * (librig.a). Status 1: the two entries differed, which is said on standard error; the lines then stop, so that the comparison fails too. */
#include "gresomund.h"
#include <stdint.h>
#include <stdio.h>
#include <stdlib.h>
#include <string.h>

/* crates/rig: the controller record in parts, as crates/rig/specs/Record.antt has them. Its registers and flags are a table like the guard's. */
enum { CHANNELS = GRESOMUND_QUEUES / 2, TX_ROW = 8, RX_ROW = 9 };
enum { SENT = 0, RECEIVED = 1, UNDEFINED = 2, REST = 3 };
uint32_t gresomund_step(uint8_t engine, uint8_t channel, uint8_t *mem, uint64_t mem_len, struct gresomund_state *table, uint8_t stages[GRESOMUND_QUEUES],
                        uint32_t tx[CHANNELS][TX_ROW], uint32_t rx[CHANNELS][RX_ROW], uint64_t rest[REST], uint32_t burst[3]);
uint32_t gresomund_unguarded(uint32_t address, uint32_t value, uint8_t *mem, uint64_t mem_len, struct gresomund_state *table,
                             uint8_t stages[GRESOMUND_QUEUES], uint32_t tx[CHANNELS][TX_ROW], uint32_t rx[CHANNELS][RX_ROW], uint64_t rest[REST],
                             uint32_t burst[3]);
uint32_t gresomund_frame(uint32_t n, struct gresomund_state *table, uint8_t stages[GRESOMUND_QUEUES], uint32_t tx[CHANNELS][TX_ROW],
                         uint32_t rx[CHANNELS][RX_ROW], uint64_t rest[REST]);

enum { GUEST_WRITE = 0, KIND_CHANGE = 1, FRAME = 2, STEP = 3, UNGUARDED = 4 };
enum { MEMORY_LIMIT = 8200 };

/* All that a call may see or change. Registers stand in `state` for a guard call and in `table` for the others. */
struct all {
  uint8_t mem[MEMORY_LIMIT];
  uint64_t mem_len;
  uint8_t kinds[65536];
  uint64_t blocks;
  struct gresomund_state state;
  uint8_t used[GRESOMUND_WORDS];
  uint16_t lens[GRESOMUND_WORDS];
  struct gresomund_state table; /* the controller's registers and flags; it has no heads */
  uint8_t stages[GRESOMUND_QUEUES];
  uint32_t tx[CHANNELS][TX_ROW], rx[CHANNELS][RX_ROW];
  uint64_t rest[REST];
};

enum { ALL_MARKS = (1 << 2 * GRESOMUND_QUEUES) - 1, ALL_TEARING = (1 << GRESOMUND_QUEUES) - 1 };

/* ---- reading: little-endian numbers off the front of the input */
static const uint8_t *at, *end;
static int cut; /* a number was asked for behind the end */

static uint64_t number(int bytes) {
  uint64_t n = 0;
  if (end - at < bytes) {
    cut = 1;
    return 0;
  }
  for (int i = 0; i < bytes; i++) n |= (uint64_t)*at++ << (8 * i);
  return n;
}

static void read_memory(struct all *s) {
  s->mem_len = number(2);
  if (s->mem_len > MEMORY_LIMIT) s->mem_len = MEMORY_LIMIT;
  for (uint64_t n = number(2); n > 0 && !cut; n--) {
    uint64_t place = 4 * number(2), value = number(4);
    if (cut || place + 4 > s->mem_len) continue;
    for (int i = 0; i < 4; i++) s->mem[place + i] = (uint8_t)(value >> (8 * i));
  }
}

static void read_kinds(struct all *s) {
  s->blocks = number(2);
  for (uint64_t i = 0; i < s->blocks && !cut; i++) s->kinds[i] = (uint8_t)number(1);
}

static void read_book(struct all *s) {
  for (unsigned q = 0; q < GRESOMUND_QUEUES; q++) s->state.heads[q] = (uint32_t)number(4);
  s->state.marks = number(1) & ALL_MARKS;
  s->state.reset = number(1) & 1;
  s->state.tearing = number(1) & ALL_TEARING;
  for (uint64_t n = number(2); n > 0 && !cut; n--) {
    uint64_t i = number(2) % GRESOMUND_WORDS;
    s->used[i] = (uint8_t)number(1);
  }
  for (uint64_t n = number(2); n > 0 && !cut; n--) {
    uint64_t i = number(2) % GRESOMUND_WORDS;
    s->lens[i] = (uint16_t)number(2);
  }
}

static void read_record(struct all *s) {
  struct gresomund_state *t = &s->table;
  for (unsigned q = 0; q < GRESOMUND_QUEUES; q++) t->hdp[q] = (uint32_t)number(4);
  for (unsigned q = 0; q < GRESOMUND_QUEUES; q++) t->cp[q] = (uint32_t)number(4);
  t->bit = number(1) & 1;
  t->marks = number(1) & ALL_MARKS;
  t->reset = number(1) & 1;
  t->tearing = number(1) & ALL_TEARING;
  for (unsigned q = 0; q < GRESOMUND_QUEUES; q++) s->stages[q] = (uint8_t)number(1);
  s->rest[UNDEFINED] = number(1) & 1;
  s->rest[SENT] = number(8);
  s->rest[RECEIVED] = number(8);
  for (int c = 0; c < CHANNELS; c++) {
    uint32_t *tx = s->tx[c], *rx = s->rx[c];
    tx[0] = number(1) % 8;
    for (int i = 1; i < TX_ROW; i++) tx[i] = (uint32_t)number(4);
    tx[TX_ROW - 1] &= 1;
    rx[0] = number(1) % 8;
    for (int i = 1; i < RX_ROW - 1; i++) rx[i] = (uint32_t)number(4);
    rx[RX_ROW - 1] = number(1) & 1;
  }
}

/* ---- printing */
static void print_memory(const struct all *s) {
  printf("M %u", (unsigned)s->mem_len);
  for (uint64_t w = 0; 4 * w + 4 <= s->mem_len; w++) {
    const uint8_t *m = s->mem + 4 * w;
    uint32_t value = m[0] | (uint32_t)m[1] << 8 | (uint32_t)m[2] << 16 | (uint32_t)m[3] << 24;
    if (value != 0) printf(" %u:%u", (unsigned)w, value);
  }
  uint32_t sum = 1, sums = 0;
  for (uint64_t i = 0; i < s->blocks; i++) {
    sum = (sum + s->kinds[i]) % 65521;
    sums = (sums + sum) % 65521;
  }
  printf("\nK %u %u %u\n", (unsigned)s->blocks, sum, sums);
}

static void print_book(const struct all *s) {
  const struct gresomund_state *b = &s->state;
  printf("H %u %u %u %u %u\nU", b->heads[0], b->heads[1], b->marks, b->reset, b->tearing);
  for (unsigned i = 0; i < GRESOMUND_WORDS; i++)
    if (s->used[i] != 0) printf(" %u:%u", i, s->used[i]);
  printf("\nL");
  for (unsigned i = 0; i < GRESOMUND_WORDS; i++)
    if (s->lens[i] != 0) printf(" %u:%u", i, s->lens[i]);
  printf("\n");
}

/* "stages as 1, 2, 3" */
static unsigned stage(uint8_t n) { return n == 1 || n == 2 ? n : 3; }

static void print_record(const struct all *s) {
  const struct gresomund_state *t = &s->table;
  printf("R %u %u %u %u %u\n", t->hdp[0], t->hdp[1], t->cp[0], t->cp[1], t->bit);
  printf("C %u %u %u %u %u %u %llu %llu\n", t->marks, t->reset, t->tearing, stage(s->stages[0]), stage(s->stages[1]), (unsigned)s->rest[UNDEFINED],
         (unsigned long long)s->rest[SENT], (unsigned long long)s->rest[RECEIVED]);
  for (int c = 0; c < CHANNELS; c++) {
    printf("T");
    for (int i = 0; i < TX_ROW; i++) printf(" %u", s->tx[c][i]);
    printf("\nX");
    for (int i = 0; i < RX_ROW; i++) printf(" %u", s->rx[c][i]);
    printf("\n");
  }
}

/* ---- calls */
static struct all now, other; /* the state of this case; a copy of it for the other entry */

static uint32_t guard(struct all *s, unsigned call, uint32_t a, uint32_t b, int sound) {
  if (call == GUEST_WRITE)
    return (sound ? gresomund_guest_write_sound : gresomund_guest_write)(a, b, s->mem, s->mem_len, s->kinds, s->blocks, &s->state, s->used, s->lens);
  return (sound ? gresomund_kind_change_sound : gresomund_kind_change)(a, b, s->mem, s->mem_len, s->kinds, s->blocks, &s->state, s->used, s->lens);
}

/* "What a phase does not use is .. printed as 0": which numbers each phase uses, for calls that pass the record by. */
static void drop_unused(struct all *s) {
  static const uint8_t tx[8] = {0, 0, 7, 127, 103, 35, 35, 32}, rx[8] = {0, 0, 7, 63, 55, 227, 195, 64}; /* bit i: number i */
  for (int c = 0; c < CHANNELS; c++) {
    uint32_t *t = s->tx[c], *r = s->rx[c];
    for (int i = 0; i < TX_ROW - 1; i++)
      if (!(tx[t[0]] >> i & 1)) t[1 + i] = 0;
    for (int i = 0; i < RX_ROW - 1; i++)
      if (!(rx[r[0]] >> i & 1)) r[1 + i] = 0;
  }
}

/* A guard call, by both entries where the state is fit and sound. The registers are those of the record. */
static uint32_t call_guard(struct all *s, unsigned call, uint32_t a, uint32_t b) {
  memcpy(s->state.hdp, s->table.hdp, sizeof s->state.hdp);
  memcpy(s->state.cp, s->table.cp, sizeof s->state.cp);
  s->state.bit = s->table.bit;
  memset(s->state.spare, 0xA5, sizeof s->state.spare);
  drop_unused(s);
  other = *s;
  uint32_t answer = guard(s, call, a, b, 0);
  unsigned refusal = gresomund_number(answer);
  if (refusal == GRESOMUND_UNFIT || refusal == GRESOMUND_UNSOUND) {
    if (memcmp(s, &other, sizeof other) != 0) {
      fprintf(stderr, "probe: call %u %#x %#x was answered %u and changed something\n", call, a, b, refusal);
      exit(1);
    }
  } else {
    uint32_t same = guard(&other, call, a, b, 1);
    if (same != answer || memcmp(s, &other, sizeof other) != 0) {
      fprintf(stderr, "probe: call %u %#x %#x: the entries differ: %#x, and %#x where sound\n", call, a, b, answer, same);
      exit(1);
    }
  }
  memcpy(s->table.hdp, s->state.hdp, sizeof s->state.hdp);
  memcpy(s->table.cp, s->state.cp, sizeof s->state.cp);
  s->table.bit = s->state.bit;
  return answer;
}

/* Document 01 asks a guest write alone to say what it did, and PROBE.md prints 0 0 for a kind change; the face to C calls an accepted one plain. */
static uint32_t call_kind(struct all *s, uint32_t block, uint32_t kind) {
  uint32_t answer = call_guard(s, KIND_CHANGE, block, kind);
  unsigned effect = gresomund_number(answer) == GRESOMUND_ACCEPTED ? GRESOMUND_PLAIN : GRESOMUND_NONE;
  if (gresomund_effect(answer) != effect || gresomund_side(answer) != GRESOMUND_NO_SIDE) {
    fprintf(stderr, "probe: kind change %#x %#x: answer %#x\n", block, kind, answer);
    exit(1);
  }
  return gresomund_number(answer);
}

static void run_case(struct all *s, unsigned call, uint32_t a, uint32_t b) {
  uint32_t answer, burst[3] = {~0u, ~0u, ~0u}; /* a step must overwrite all three */
  switch (call) {
  case GUEST_WRITE: answer = call_guard(s, call, a, b); break;
  case KIND_CHANGE: answer = call_kind(s, a, b); break;
  case FRAME: answer = gresomund_frame(a, &s->table, s->stages, s->tx, s->rx, s->rest); break;
  case UNGUARDED: answer = gresomund_unguarded(a, b, s->mem, s->mem_len, &s->table, s->stages, s->tx, s->rx, s->rest, burst); break;
  default: answer = gresomund_step(a % 5, 0, s->mem, s->mem_len, &s->table, s->stages, s->tx, s->rx, s->rest, burst);
  }
  if (call == GUEST_WRITE || call == KIND_CHANGE || call == FRAME) memset(burst, 0, sizeof burst); /* these make none */
  printf("A %u %u %u\nB %u %u %u\n", gresomund_number(answer), gresomund_effect(answer), gresomund_side(answer), burst[0], burst[1], burst[2]);
  print_memory(s);
  print_book(s);
  print_record(s);
}

/* All of standard input. */
static uint8_t *read_input(size_t *length) {
  size_t room = 1 << 20, got;
  uint8_t *input = malloc(room);
  *length = 0;
  while (input != NULL && (got = fread(input + *length, 1, room - *length, stdin)) > 0) {
    *length += got;
    if (*length < room) continue;
    room *= 2;
    input = realloc(input, room);
  }
  if (input == NULL) {
    fprintf(stderr, "probe: no memory for the input\n");
    exit(1);
  }
  return input;
}

int main(void) {
  size_t length;
  at = read_input(&length);
  end = at + length;
  while (at < end) {
    memset(&now, 0, sizeof now);
    unsigned call = (unsigned)number(1);
    uint32_t a = (uint32_t)number(4), b = (uint32_t)number(4);
    read_memory(&now);
    read_kinds(&now);
    read_book(&now);
    read_record(&now);
    if (cut) break;
    run_case(&now, call > UNGUARDED ? STEP : call, a, b);
  }
  return 0;
}
