/* The guard calls of a driver, from a log that tests/second/src/bin/second-calls.rs wrote. The log has what the controller did between the calls;
 * everything else in the state comes from the calls themselves.
 *   mix check LOG         every entry makes every call: the answers are the second model's, and all entries leave the same arrays. Says how many
 *                         calls of each sort there are; last line 'N passed, M failed'.
 *   mix ENTRY PART LOG    the calls of a part, whole or steady, through one entry, for counting under callgrind; prints their number. */
#include "entries.h"
#include <stdio.h>
#include <stdlib.h>

struct call {
  int kind;          /* a kind change */
  uint32_t a, v;     /* address and value, or block and kind */
  uint32_t regs[2 * GRESOMUND_QUEUES + 1]; /* the registers before it: hdp, hdp, cp, cp, bit */
  uint32_t answer;   /* the second model's */
  unsigned to;       /* the controller's stores before this call end here */
};
struct store { uint32_t word, value; };

static struct call *calls;
static struct store *stores;
static unsigned count, first, last; /* the part that counts: first .. last - 1 */
static struct scene start;

static void *grown(void *p, size_t n, size_t size) {
  if (n & (n - 1)) return p; /* room for the next power of two is there */
  p = realloc(p, (n ? 2 * n : 1) * size);
  if (!p) exit(2);
  return p;
}

static int load(const char *name) {
  FILE *f = fopen(name, "r");
  char mark;
  unsigned n = 0, kept = 0, number, effect = 0, side = 0;
  if (!f || fscanf(f, "kinds %u", &n) != 1 || n < 1 || n > GRESOMUND_BLOCKS_MAX) return 0;
  start.blocks = n;
  for (unsigned i = 0; i < n; i++)
    if (fscanf(f, "%hhu", &start.kinds[i]) != 1) return 0;
  while (fscanf(f, " %c", &mark) == 1) {
    if (mark == 'M') {
      stores = grown(stores, kept, sizeof *stores);
      if (fscanf(f, "%u %u", &stores[kept].word, &stores[kept].value) != 2 || stores[kept].word >= GRESOMUND_WORDS) return 0;
      kept++;
      continue;
    }
    calls = grown(calls, count, sizeof *calls);
    struct call *c = calls + count++;
    c->kind = mark == 'K', c->to = kept;
    if (fscanf(f, "%u %u %u %u %u %u %u %u", &c->a, &c->v, c->regs, c->regs + 1, c->regs + 2, c->regs + 3, c->regs + 4, &number) != 8) return 0;
    if (mark == 'W' && fscanf(f, "%u %u", &effect, &side) != 2) return 0;
    if (mark == 'K') effect = number == 0, side = 0;
    c->answer = number | effect << 8 | side << 16;
  }
  fclose(f);
  return count > 0;
}

/* Steady traffic: from the first transmit start up to the first teardown. */
static void choose_steady(void) {
  while (first < count && calls[first].answer != (GRESOMUND_STARTED << 8 | GRESOMUND_TRANSMIT << 16)) first++;
  for (last = first; last < count && (calls[last].kind || (calls[last].a != 0x4A100808u && calls[last].a != 0x4A100818u)); last++) {}
}

/* What the controller did before call i. */
static void meanwhile(struct scene *s, unsigned i) {
  for (unsigned k = i ? calls[i - 1].to : 0; k < calls[i].to; k++) put(s, GRESOMUND_MEM_FIRST + 4 * stores[k].word, stores[k].value);
  const uint32_t *regs = calls[i].regs;
  for (unsigned q = 0; q < GRESOMUND_QUEUES; q++) s->state.hdp[q] = regs[q], s->state.cp[q] = regs[GRESOMUND_QUEUES + q];
  s->state.bit = regs[2 * GRESOMUND_QUEUES];
}

static const char *const sorts[] = {"stores to free words", "appends", "acknowledgements (CP)", "starts (HDP)", "other registers, accepted", "kind changes", "refused", 0};
static int sort_of(const struct call *c) {
  if (gresomund_number(c->answer)) return 6;
  if (c->kind) return 5;
  if (gresomund_effect(c->answer) == GRESOMUND_STARTED) return 3;
  if (gresomund_effect(c->answer) == GRESOMUND_APPENDED) return 1;
  if (c->a == TX_CP || c->a == RX_CP) return 2;
  return c->a >= GRESOMUND_MEM_FIRST ? 0 : 4;
}

static unsigned words_in_use(const struct scene *s) {
  unsigned n = 0;
  for (unsigned i = 0; i < GRESOMUND_WORDS; i++) n += s->used[i];
  return n;
}
static int has_released(const struct scene *before, const struct scene *after) {
  for (unsigned i = 0; i < GRESOMUND_WORDS; i++)
    if (before->used[i] && !after->used[i]) return 1;
  return 0;
}

static int check(void) {
  static struct scene now[REAL], before;
  unsigned bad = 0, sort[2][8] = {{0}}, numbers[32] = {0}, released[2] = {0}, size[2] = {0};
  unsigned long used[2] = {0};
  choose_steady();
  for (int e = 0; e < REAL; e++) now[e] = start;
  for (unsigned i = 0; i < count; i++) {
    for (int e = 0; e < REAL; e++) {
      meanwhile(&now[e], i);
      if (e == 0) before = now[0];
      uint32_t x = counted(entries + e, &now[e], calls[i].kind, calls[i].a, calls[i].v);
      if (x == calls[i].answer && memcmp(&now[e], &now[0], sizeof now[0]) == 0) continue;
      if (bad++ >= 10) continue;
      if (x != calls[i].answer) printf("call %u, %s: answer %06X, the second model says %06X\n", i, entries[e].name, x, calls[i].answer);
      else printf("call %u, %s: the arrays are not those of %s\n", i, entries[e].name, entries[0].name);
    }
    for (int part = 0; part < 2; part++) {
      if (part == 1 && (i < first || i >= last)) continue;
      size[part]++, sort[part][sort_of(calls + i)]++, released[part] += has_released(&before, &now[0]), used[part] += words_in_use(&before);
    }
    numbers[gresomund_number(calls[i].answer) & 31]++;
  }
  for (int part = 0; part < 2; part++) {
    printf("%s: %u calls", part ? "steady" : "whole", size[part]);
    for (int k = 0; sorts[k]; k++)
      if (sort[part][k]) printf("; %s %u", sorts[k], sort[part][k]);
    printf("; released something %u; words in use before a call, mean %lu\n", released[part], size[part] ? used[part] / size[part] : 0);
  }
  printf("answers met:");
  for (int i = 0; i < 32; i++) if (numbers[i]) printf(" %d:%u", i, numbers[i]);
  printf("\n%u passed, %u failed\n", REAL * count - bad, bad);
  return bad != 0;
}

int main(int argc, char **argv) {
  const struct entry *e;
  static struct scene s;
  gresomund_fresh(&start.state, start.used, start.lens);
  if (argc == 3 && strcmp(argv[1], "check") == 0) return load(argv[2]) ? check() : (fprintf(stderr, "mix: no log in %s\n", argv[2]), 2);
  if (argc != 4 || !(e = entry_named(argv[1])) || !load(argv[3])) return fprintf(stderr, "usage: mix check LOG, or mix ENTRY whole|steady LOG\n"), 2;
  last = count;
  if (strcmp(argv[2], "steady") == 0) choose_steady();
  s = start;
  for (unsigned i = 0; i < last; i++) {
    meanwhile(&s, i);
    if (i < first || e == entries + REAL) { /* up to the part, and where the entry does nothing, the full entry brings the state on */
      if (i >= first) counted(e, &s, calls[i].kind, calls[i].a, calls[i].v);
      calls[i].kind ? change(&s, calls[i].a, calls[i].v) : write_full(&s, calls[i].a, calls[i].v);
    } else if (counted(e, &s, calls[i].kind, calls[i].a, calls[i].v) != calls[i].answer) return fprintf(stderr, "another answer at call %u\n", i), 1;
  }
  printf("%u\n", last - first);
  return 0;
}
