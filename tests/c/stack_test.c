/* The deepest stack of each exported function, on chains of 1, 2, 64 and 512 descriptors, by a painted stack. The figure is what the call takes
 * below its caller's own frame, with memcpy and memset of the C library within it. It must be the same for 2, 64 and 512, and no more for
 * 1, where the rule for a packet's middle is not reached. Prints a table; last line 'N passed, M failed'. */
#define _GNU_SOURCE
#include "scene.h"
#include <stdio.h>
#include <ucontext.h>

/* On both machines: the trap handler runs on a stack of 4 KiB. The header promises less than 3 KiB; the test holds it closer. */
#define LIMIT 2880
_Static_assert(LIMIT <= GRESOMUND_STACK, "the header promises no less than what is held");
#define SET 2048 /* a call that judges a chain of two or more has a set of the words met: less than that, and nothing was measured */
#define STACK 65536
#define PAINT 0xA5

static _Alignas(64) uint8_t stack[STACK];
static ucontext_t home, there;
static struct scene s;

enum call { NOTHING, FRESH, WRITE, WRITE_SOUND, CHANGE, CHANGE_SOUND, CALLS };
static const char *const names[CALLS] = {"", "gresomund_fresh", "gresomund_guest_write", "gresomund_guest_write_sound", "gresomund_kind_change", "gresomund_kind_change_sound"};
static volatile enum call which;
static volatile uint32_t arg0, arg1, result;

/* The same parameters as a call of the guard, and no work. */
static __attribute__((noinline)) uint32_t nothing(uint32_t a, uint32_t v, uint8_t *m, uint64_t n, const uint8_t *k, uint64_t b, struct gresomund_state *t, uint8_t *u, uint16_t *l) {
  __asm__ volatile("" : : "r"(m), "r"(k), "r"(t), "r"(u), "r"(l) : "memory");
  return a + v + (uint32_t)n + (uint32_t)b;
}

static void painted(void) {
  switch (which) {
  case NOTHING: result = call_with(nothing, &s, arg0, arg1); break;
  case FRESH: gresomund_fresh(&s.state, s.used, s.lens); break;
  case WRITE: result = write_full(&s, arg0, arg1); break;
  case WRITE_SOUND: result = write_inner(&s, arg0, arg1); break;
  case CHANGE: result = change(&s, arg0, arg1); break;
  default: result = change_inner(&s, arg0, arg1); break;
  }
}

static unsigned raw_depth(enum call c, uint32_t a, uint32_t v) {
  memset(stack, PAINT, sizeof stack);
  which = c, arg0 = a, arg1 = v;
  getcontext(&there);
  there.uc_stack.ss_sp = stack, there.uc_stack.ss_size = sizeof stack, there.uc_link = &home;
  makecontext(&there, painted, 0);
  swapcontext(&home, &there);
  unsigned i = 0;
  while (i < STACK && stack[i] == PAINT) i++;
  return STACK - i;
}

static unsigned depth(enum call c, uint32_t a, uint32_t v) {
  struct scene keep = s;
  unsigned none = raw_depth(NOTHING, a, v);
  s = keep;
  unsigned all = raw_depth(c, a, v);
  s = keep;
  return all > none ? all - none : 0;
}

static int passed, failed;
static unsigned answers; /* scenes whose answer is not the one they are made for */

/* Scenes of the write calls: starts, appends, a release of the whole queue, a store beside a full queue. */
static unsigned deepest_write(enum call c, unsigned n) {
  unsigned most = 0, d, rest = n < 512 ? n : 511;
  const unsigned sizes[] = {0, 1, 2, 3, n}; /* receive buffers, packets of one, two and three pieces, one packet of all */
  for (int i = 0; i < 5; i++) {
    unsigned size = sizes[i];
    uint32_t hdp = size ? TX_HDP : RX_HDP;
    begin(&s, 4), chain(&s, 0, n, size);
    d = depth(c, hdp, at(0)), most = d > most ? d : most;
    answers += gresomund_number(result) != 0;
    put(&s, at(n - 1) + 8, 0); /* a fault in the last */
    d = depth(c, hdp, at(0)), most = d > most ? d : most;
    answers += gresomund_number(result) != 15;
    begin(&s, 4), chain(&s, 0, 1, size), write_full(&s, hdp, at(0)), chain(&s, 1, rest, size);
    d = depth(c, at(0), at(1)), most = d > most ? d : most; /* n after one */
    answers += gresomund_effect(result) != GRESOMUND_APPENDED;
    begin(&s, 4), chain(&s, 0, rest, size), write_full(&s, hdp, at(0)), chain(&s, rest, 1, size);
    d = depth(c, at(rest - 1), at(rest)), most = d > most ? d : most; /* one after n */
    answers += gresomund_effect(result) != GRESOMUND_APPENDED;
    begin(&s, 4), chain(&s, 0, 1, size), write_full(&s, hdp, at(0)), write_full(&s, size ? TX_TEARDOWN : RX_TEARDOWN, 0), chain(&s, 1, rest, size);
    d = depth(c, at(0), at(1)), most = d > most ? d : most; /* n after one, while a teardown is pending */
    answers += gresomund_effect(result) != GRESOMUND_APPENDED;
    begin(&s, 4), chain(&s, 0, n, size), write_full(&s, hdp, at(0));
    d = depth(c, at(0) + 4, 1), most = d > most ? d : most;
    answers += gresomund_number(result) != 11;
    for (unsigned k = 0; k < n; k++) put(&s, at(k) + 12, get(&s, at(k) + 12) & ~OWNER);
    d = depth(c, at(n - 1) + 4, 1), most = d > most ? d : most; /* the whole queue goes */
    answers += gresomund_number(result) != 0;
  }
  return most;
}

static unsigned deepest_change(enum call c, unsigned n) {
  unsigned most = 0, d;
  begin(&s, 4), chain(&s, 0, n, 0), write_full(&s, RX_HDP, at(0));
  d = depth(c, 1, 2), most = d > most ? d : most;
  answers += gresomund_number(result) != 21;
  d = depth(c, 2, 3), most = d > most ? d : most;
  answers += gresomund_number(result) != 0;
  for (unsigned k = 0; k < n; k++) put(&s, at(k) + 12, 0);
  d = depth(c, 1, 2), most = d > most ? d : most; /* the whole queue goes */
  answers += gresomund_number(result) != 0;
  return most;
}

int main(void) {
  static const unsigned lengths[4] = {1, 2, 64, 512};
  printf("%-32s %6s %6s %6s %6s\n", "deepest stack in bytes, chain of", "1", "2", "64", "512");
  for (enum call c = FRESH; c < CALLS; c++) {
    unsigned d[4];
    for (int i = 0; i < 4; i++) {
      begin(&s, 4);
      d[i] = c == FRESH ? depth(c, 0, 0) : c <= WRITE_SOUND ? deepest_write(c, lengths[i]) : deepest_change(c, lengths[i]);
    }
    printf("%-32s %6u %6u %6u %6u\n", names[c], d[0], d[1], d[2], d[3]);
    int good = d[3] < LIMIT && d[0] <= d[1] && d[1] == d[2] && d[2] == d[3] && (c > WRITE_SOUND || c == FRESH || d[1] > SET);
    if (good) passed++; else failed++, printf("FAILED %s: not constant, or %d bytes and more\n", names[c], LIMIT);
  }
  if (answers == 0) passed++; else failed++, printf("FAILED %u scenes have another answer than they are made for\n", answers);
  printf("%d passed, %d failed\n", passed, failed);
  return failed != 0;
}
