/* A guarded machine in small, for the tests: descriptor memory, kinds, book, and shorthands that build chains. */
#ifndef SCENE_H
#define SCENE_H
#include "gresomund.h"
#include <string.h>

#define SOP 0x80000000u
#define EOP 0x40000000u
#define OWNER 0x20000000u
#define EOQ 0x10000000u
#define TX_TEARDOWN 0x4A100808u
#define RX_TEARDOWN 0x4A100818u
#define SOFT_RESET 0x4A10081Cu
#define TX_HDP 0x4A100A00u
#define RX_HDP 0x4A100A20u
#define TX_CP 0x4A100A40u
#define RX_CP 0x4A100A60u

struct scene {
  struct gresomund_state state;
  uint8_t mem[GRESOMUND_MEM_BYTES];
  uint8_t kinds[GRESOMUND_BLOCKS_MAX];
  uint64_t blocks;
  uint8_t used[GRESOMUND_WORDS];
  uint16_t lens[GRESOMUND_WORDS];
};

typedef uint32_t write_call(uint32_t, uint32_t, uint8_t *, uint64_t, const uint8_t *, uint64_t, struct gresomund_state *, uint8_t *, uint16_t *);

static inline uint32_t call_with(write_call *f, struct scene *s, uint32_t a, uint32_t v) {
  return f(a, v, s->mem, sizeof s->mem, s->kinds, s->blocks, &s->state, s->used, s->lens);
}
static inline uint32_t write_full(struct scene *s, uint32_t a, uint32_t v) { return call_with(gresomund_guest_write, s, a, v); }
static inline uint32_t write_inner(struct scene *s, uint32_t a, uint32_t v) { return call_with(gresomund_guest_write_sound, s, a, v); }
static inline uint32_t change(struct scene *s, uint32_t b, uint32_t k) {
  return gresomund_kind_change(b, k, s->mem, sizeof s->mem, s->kinds, s->blocks, &s->state, s->used, s->lens);
}
static inline uint32_t change_inner(struct scene *s, uint32_t b, uint32_t k) {
  return gresomund_kind_change_sound(b, k, s->mem, sizeof s->mem, s->kinds, s->blocks, &s->state, s->used, s->lens);
}

/* The address of descriptor i, sixteen bytes each. */
static inline uint32_t at(unsigned i) { return GRESOMUND_MEM_FIRST + 16 * i; }

static inline void put(struct scene *s, uint32_t a, uint32_t v) {
  uint8_t *p = s->mem + (a - GRESOMUND_MEM_FIRST);
  p[0] = (uint8_t)v, p[1] = (uint8_t)(v >> 8), p[2] = (uint8_t)(v >> 16), p[3] = (uint8_t)(v >> 24);
}
static inline uint32_t get(const struct scene *s, uint32_t a) {
  const uint8_t *p = s->mem + (a - GRESOMUND_MEM_FIRST);
  return p[0] | (uint32_t)p[1] << 8 | (uint32_t)p[2] << 16 | (uint32_t)p[3] << 24;
}

/* Descriptors first .. first + n - 1, linked: packets of `size` pieces of 3 bytes to transmit (the last may be shorter), or receive buffers of
 * 64 where size is 0. Put straight into memory, as words not in use may be. */
static inline void chain(struct scene *s, unsigned first, unsigned n, unsigned size) {
  for (unsigned i = 0; i < n; i++) {
    uint32_t a = at(first + i), w = OWNER;
    if (size) {
      unsigned k = i % size, pieces = n - (i - k) < size ? n - (i - k) : size;
      w = (k == 0 ? SOP | OWNER | 3 * pieces : 0) | (k + 1 == pieces ? EOP : 0);
    }
    put(s, a, i + 1 < n ? at(first + i + 1) : 0);
    put(s, a + 4, 0x80001000u + (size ? 3 * i : 64 * (i % 32)));
    put(s, a + 8, size ? 3 : 64);
    put(s, a + 12, w);
  }
}

/* Kinds 0, 1, 2, 3, then Linux data; a fresh book; the four zeros. */
static inline void begin(struct scene *s, uint64_t blocks) {
  memset(s, 0, sizeof *s);
  s->blocks = blocks;
  for (uint64_t i = 0; i < blocks; i++) s->kinds[i] = i < 4 ? (uint8_t)i : 1;
  gresomund_fresh(&s->state, s->used, s->lens);
  write_full(s, TX_HDP, 0), write_full(s, RX_HDP, 0), write_full(s, TX_CP, 0), write_full(s, RX_CP, 0);
}
#endif
