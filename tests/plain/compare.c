/* The plain writing of the rules held to the proved guard: random sequences, the same answers and arrays. Last line 'N passed, M failed'. */
#include "scene.h"
#include <stdio.h>

write_call plain_guest_write, plain_guest_write_sound;
uint32_t plain_kind_change(uint32_t, uint32_t, const uint8_t *, uint64_t, uint8_t *, uint64_t, struct gresomund_state *, uint8_t *, uint16_t *);

static struct scene s, t;
static uint64_t seed = 88172645463325252u;
static uint32_t any(uint32_t n) {
  seed ^= seed << 13, seed ^= seed >> 7, seed ^= seed << 17;
  return (uint32_t)(seed >> 20) % n;
}

/* The device, and Linux's own stores to free words. */
static void meanwhile(void) {
  unsigned d = any(16), q = any(2), n = 1 + any(3), i;
  for (i = 0; i < 4 * n && !s.used[4 * d + i]; i++) {}
  if (i == 4 * n) {
    chain(&s, d, n, any(4));
    if (any(6) == 0) put(&s, at(d) + 4 * any(4), any(2) ? any(4096) : at(any(18)));
    if (any(4) == 0) put(&s, at(d) + 4, 0x80000000u + any(9 * 4096));
  }
  uint32_t h = s.state.heads[q];
  if (h && any(4) == 0) put(&s, h + 12, get(&s, h + 12) & ~OWNER);
  if (h && any(8) == 0) put(&s, h + 12, get(&s, h + 12) ^ (any(2) ? EOQ : EOP));
  if (h && any(40) == 0) put(&s, h + 12, get(&s, h + 12) | 0x08000000);
  if (any(3) == 0) s.state.hdp[q] = any(3) ? s.state.heads[q] : 0;
  if (any(5) == 0) s.state.cp[q] = any(3) ? at(any(16)) : GRESOMUND_TEARDOWN_DONE;
  if (any(8) == 0) s.state.bit = any(2) ? any(2) : any(16) << 28 | any(4);
}

int main(void) {
  static const uint32_t where[] = {TX_HDP, RX_HDP, TX_HDP, RX_HDP, TX_CP, RX_CP, 0x4A100808, 0x4A100818, 0x4A10081C, 0x4A100820, 0x4A100828, 0x4A100804, 0x4A100900, 0x4A100A04};
  unsigned bad = 0, numbers[32] = {0};
  for (int i = 0; i < 300000; i++) {
    if (i % 300 == 0) begin(&s, 8);
    meanwhile();
    uint32_t a = any(2) ? where[any(14)] : at(any(16)) + 4 * (any(3) ? 0 : any(4)) + (any(50) == 0), v = any(3) ? at(any(16)) : any(4), x, y;
    if (i % 300 < 4) a = where[i % 300 & 1] + 64 * (i % 300 >> 1), v = 0;
    t = s;
    switch (any(1000)) { /* for one call: an unsound book, flags of nothing, a kind over 4, or two of these */
    case 0: case 1: case 2: t.used[any(2048)] ^= 1; break;
    case 3: t.state.marks |= 16u << any(28); break;
    case 4: t.state.tearing |= 4u << any(30); break;
    case 5: t.state.reset = any(9); break;
    case 6: t.kinds[any(8)] = 5, t.state.reset = any(9); break;
    }
    struct scene keep = s;
    s = t;
    if (any(6) == 0) {
      a = any(10), v = any(6);
      x = change(&s, a, v), y = plain_kind_change(a, v, t.mem, sizeof t.mem, t.kinds, t.blocks, &t.state, t.used, t.lens);
    } else {
      x = write_full(&s, a, v), y = call_with(plain_guest_write, &t, a, v);
    }
    numbers[gresomund_number(x) & 31]++;
    if (x != y || memcmp(&s, &t, sizeof s) != 0) bad++;
    if (gresomund_number(x) == 1 || gresomund_number(x) == 2) s = keep;
  }
  printf("answers met:");
  for (int i = 0; i < 32; i++) if (numbers[i]) printf(" %d:%u", i, numbers[i]);
  printf("\n%d passed, %u failed\n", 300000 - bad, bad);
  return bad != 0;
}
