/* The entries to be counted, side by side: the archive's, the same rules written plainly in Rust (tests/plain), and one that does nothing,
 * which tells what the call itself costs. */
#ifndef ENTRIES_H
#define ENTRIES_H
#include "scene.h"

typedef uint32_t kind_call(uint32_t, uint32_t, const uint8_t *, uint64_t, uint8_t *, uint64_t, struct gresomund_state *, uint8_t *, uint16_t *);

write_call plain_guest_write, plain_guest_write_sound;
kind_call plain_kind_change, plain_kind_change_sound;

static __attribute__((noipa)) uint32_t write_nothing(uint32_t a, uint32_t v, uint8_t *m, uint64_t n, const uint8_t *k, uint64_t b, struct gresomund_state *s, uint8_t *u, uint16_t *l) {
  (void)a, (void)v, (void)m, (void)n, (void)k, (void)b, (void)s, (void)u, (void)l;
  return 0;
}
static __attribute__((noipa)) uint32_t change_nothing(uint32_t a, uint32_t v, const uint8_t *m, uint64_t n, uint8_t *k, uint64_t b, struct gresomund_state *s, uint8_t *u, uint16_t *l) {
  (void)a, (void)v, (void)m, (void)n, (void)k, (void)b, (void)s, (void)u, (void)l;
  return 0;
}

struct entry {
  const char *name;
  write_call *write;
  kind_call *change;
};

static const struct entry entries[] = {
  {"guard-inner", gresomund_guest_write_sound, gresomund_kind_change_sound},
  {"guard-full", gresomund_guest_write, gresomund_kind_change},
  {"plain-inner", plain_guest_write_sound, plain_kind_change_sound},
  {"plain-full", plain_guest_write, plain_kind_change},
  {"nothing", write_nothing, change_nothing},
};
enum { ENTRIES = sizeof entries / sizeof *entries, REAL = ENTRIES - 1 };

static inline const struct entry *entry_named(const char *name) {
  for (int i = 0; i < ENTRIES; i++)
    if (strcmp(entries[i].name, name) == 0) return entries + i;
  return 0;
}

/* The function that callgrind counts in, with all that it calls (--toggle-collect=counted). */
static __attribute__((noipa)) uint32_t counted(const struct entry *e, struct scene *s, int kind, uint32_t a, uint32_t v) {
  if (kind) return e->change(a, v, s->mem, sizeof s->mem, s->kinds, s->blocks, &s->state, s->used, s->lens);
  return call_with(e->write, s, a, v);
}
#endif
