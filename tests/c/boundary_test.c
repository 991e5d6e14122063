/* The boundary from C: bad lengths, empty slices, unsound books, flags, and one of each kind of call. Last line 'N passed, M failed'. */
#include "scene.h"
#include <stddef.h>
#include <stdio.h>

static int passed, failed;
static struct scene s, before, other;

static void check(const char *what, uint32_t got, uint32_t want) {
  if (got == want) {
    passed++;
  } else {
    failed++;
    printf("FAILED %s: got %u, want %u\n", what, (unsigned)got, (unsigned)want);
  }
}
static void same(const char *what) { check(what, memcmp(&s, &before, sizeof s) == 0, 1); }
static uint32_t answer(unsigned number, unsigned effect, unsigned side) { return number + 256 * effect + 65536 * side; }

/* The call with other slices than the scene's. */
static uint32_t with(uint8_t *mem, uint64_t n, const uint8_t *kinds, uint64_t blocks) {
  return gresomund_guest_write(at(0), 1, mem, n, kinds, blocks, &s.state, s.used, s.lens);
}

static void layout(void) {
  check("twelve words", sizeof(struct gresomund_state), 48);
  check("heads are words 0 and 1", offsetof(struct gresomund_state, heads), 0);
  check("HDPs are words 2 and 3", offsetof(struct gresomund_state, hdp), 8);
  check("CPs are words 4 and 5", offsetof(struct gresomund_state, cp), 16);
  check("the marks are word 6", offsetof(struct gresomund_state, marks), 24);
  check("the teardowns are word 7", offsetof(struct gresomund_state, tearing), 28);
  check("the reset is word 8", offsetof(struct gresomund_state, reset), 32);
  check("its bit is word 9", offsetof(struct gresomund_state, bit), 36);
  check("the rest is spare", offsetof(struct gresomund_state, spare), 40);
}

static void unfit(void) {
  static uint8_t long_mem[GRESOMUND_MEM_BYTES + 1], long_kinds[GRESOMUND_BLOCKS_MAX + 1];
  begin(&s, 4);
  before = s;
  check("memory one byte short", with(s.mem, GRESOMUND_MEM_BYTES - 1, s.kinds, 4), 1);
  check("memory one byte long", with(long_mem, GRESOMUND_MEM_BYTES + 1, s.kinds, 4), 1);
  check("empty memory", with(s.mem, 0, s.kinds, 4), 1);
  check("null and empty memory", with(0, 0, s.kinds, 4), 1);
  check("no block", with(s.mem, GRESOMUND_MEM_BYTES, s.kinds, 0), 1);
  check("null and no block", with(s.mem, GRESOMUND_MEM_BYTES, 0, 0), 1);
  check("a block too many", with(s.mem, GRESOMUND_MEM_BYTES, long_kinds, GRESOMUND_BLOCKS_MAX + 1), 1);
  check("a kind change there too", gresomund_kind_change(1, 2, s.mem, 0, s.kinds, 4, &s.state, s.used, s.lens), 1);
  same("nothing changed by these");
  s.kinds[3] = 5;
  before = s;
  check("a kind over 4", write_full(&s, at(0), 1), 1);
  check("a kind over 4, kind change", change(&s, 1, 2), 1);
  same("nothing changed by a kind over 4");
  begin(&s, GRESOMUND_BLOCKS_MAX);
  check("the largest table", write_full(&s, at(0), 1), answer(0, 1, 0));
  begin(&s, 1);
  check("the smallest table", write_full(&s, at(0), 1), answer(0, 1, 0));
}

static void unsound_after(const char *what) {
  before = s;
  check(what, write_full(&s, at(0), 1), 2);
  check(what, change(&s, 1, 2), 2);
  same(what);
}

static void unsound(void) {
  begin(&s, 4), s.used[7] = 1, unsound_after("a word in use that no chain has");
  begin(&s, 4), s.lens[8] = 64, unsound_after("a length that no queue has");
  begin(&s, 4), s.state.heads[0] = at(0), unsound_after("a chain whose words are not in use");
  begin(&s, 4), s.state.heads[1] = 0x4A103FF4, unsound_after("a head that is no good pointer");
  begin(&s, 4), s.state.heads[0] = at(0), put(&s, at(0), at(0)), unsound_after("a chain that loops");
  begin(&s, 4), s.state.marks |= 1u << 4, unsound_after("a mark of no register");
  begin(&s, 4), s.state.marks |= 1u << 31, unsound_after("the highest mark");
  begin(&s, 4), s.state.tearing = 1u << 2, unsound_after("a teardown of no queue");
  begin(&s, 4), s.state.tearing = 1u << 31, unsound_after("the highest teardown");
  begin(&s, 4), s.state.reset = 2, unsound_after("a reset that is 2");
  begin(&s, 4), s.state.reset = 0x100, unsound_after("a reset that is 256");
  begin(&s, 4), s.state.spare[0] = 77, s.state.spare[1] = ~0u;
  check("spare words are not read", write_full(&s, at(0), 1), answer(0, 1, 0));
  check("spare words stay", s.state.spare[0] == 77 && s.state.spare[1] == ~0u, 1);
}

/* 1 comes before 2, whichever part is unsound, and 2 before all that the write itself is refused for. */
static void ranks(void) {
  static const char *const what[4] = {"1 before a mark of no register", "1 before a teardown of no queue", "1 before a reset that is 2", "1 before an unsound book"};
  for (int i = 0; i < 4; i++) {
    begin(&s, 4);
    if (i == 0) s.state.marks = 1u << 4;
    if (i == 1) s.state.tearing = 1u << 2;
    if (i == 2) s.state.reset = 2;
    if (i == 3) s.used[7] = 1;
    before = s;
    check(what[i], with(s.mem, GRESOMUND_MEM_BYTES - 1, s.kinds, 4), 1);
    check(what[i], with(s.mem, GRESOMUND_MEM_BYTES, s.kinds, 0), 1);
    check(what[i], gresomund_kind_change(1, 2, s.mem, 0, s.kinds, 4, &s.state, s.used, s.lens), 1);
    check("2 before 3", write_full(&s, 0x4A102001, 1), 2);
    check("2 before 18", change(&s, 4, 1), 2);
    same(what[i]);
    s.kinds[3] = 5, before = s;
    check(what[i], write_full(&s, at(0), 1), 1);
    check(what[i], change(&s, 1, 2), 1);
    same(what[i]);
  }
}

/* The masks of the book, and the device's reset register, of which bit 0 alone is read. */
static void flags(void) {
  static const uint32_t zeros[4] = {TX_HDP, RX_HDP, TX_CP, RX_CP}, clear[3] = {0, 2, 0xFFFFFFFE}, set[3] = {1, 3, 0xFFFFFFFF};
  begin(&s, 4);
  for (int i = 0; i < 4; i++) {
    gresomund_fresh(&s.state, s.used, s.lens);
    check("a zero", write_full(&s, zeros[i], 0), answer(0, 1, 0));
    check("its mark, and no other", s.state.marks, 1u << i);
  }
  begin(&s, 4);
  check("all four marks", s.state.marks, 15);
  check("a receive teardown", write_full(&s, RX_TEARDOWN, 0), answer(0, 1, 0));
  check("is bit 1", s.state.tearing, 2);
  check("a transmit teardown", write_full(&s, TX_TEARDOWN, 0), answer(0, 1, 0));
  check("is bit 0", s.state.tearing, 3);
  check("no reset meanwhile", write_full(&s, SOFT_RESET, 1), 8);
  s.state.cp[1] = GRESOMUND_TEARDOWN_DONE;
  check("one has finished", write_full(&s, RX_TEARDOWN, 0), 10);
  check("the other is pending", s.state.tearing, 1);
  check("the code is acknowledged", write_full(&s, RX_CP, GRESOMUND_TEARDOWN_DONE), answer(0, 1, 0));
  check("and gone from CP", s.state.cp[1], 0);
  for (int i = 0; i < 3; i++) {
    begin(&s, 4);
    check("a reset", write_full(&s, SOFT_RESET, 1), answer(0, 1, 0));
    check("is pending, with its bit", s.state.reset == 1 && s.state.bit == 1, 1);
    s.state.bit = set[i], before = s;
    check("while bit 0 is set", write_full(&s, TX_HDP, at(0)), 7);
    same("nothing is over");
    s.state.bit = clear[i];
    check("once bit 0 is clear", write_full(&s, TX_HDP, at(0)), 6);
    check("the reset is over, and the four zeros are awaited", s.state.reset == 0 && s.state.marks == 0, 1);
    check("its register stays as it was read", s.state.bit, clear[i]);
  }
}

static void numbers(void) {
  begin(&s, 4);
  check("not a multiple of 4", write_full(&s, 0x4A102001, 1), 3);
  check("not guarded", write_full(&s, 0x4A100900, 1), 4);
  check("not offered", write_full(&s, 0x4A100A04, 0), 5);
  check("HDP 0 once initialised", write_full(&s, TX_HDP, 0), 9);
  check("bad pointer", write_full(&s, TX_HDP, 0x4A103FF4), 12);
  gresomund_fresh(&s.state, s.used, s.lens);
  check("not initialised", write_full(&s, TX_HDP, at(0)), 6);
}

static void traffic(void) {
  begin(&s, 4);
  chain(&s, 0, 1, 1);
  uint32_t started = write_full(&s, TX_HDP, at(0));
  check("a start", started, answer(0, 2, 1));
  check("its channel", gresomund_channel(started), 0);
  check("the head is in the book", s.state.heads[0], at(0));
  check("the register was set", s.state.hdp[0], at(0));
  check("its words are in use", s.used[0] + s.used[1] + s.used[2] + s.used[3] + s.used[4], 4);
  before = s;
  check("a word in use", write_full(&s, at(0) + 4, 0), 11);
  check("a second start", write_full(&s, TX_HDP, at(1)), 10);
  same("refusals change nothing");
  chain(&s, 1, 2, 2);
  check("an append", write_full(&s, at(0), at(1)), answer(0, 3, 1));
  check("its word is stored", get(&s, at(0)), at(1));
  check("twelve words in use", s.used[4] + s.used[8] + s.used[11], 3);
  chain(&s, 16, 1, 0);
  check("a receive start", write_full(&s, RX_HDP, at(16)), answer(0, 2, 2));
  check("its length is recorded", s.lens[64], 64);
  chain(&s, 17, 1, 0);
  check("a receive append", write_full(&s, at(16), at(17)), answer(0, 3, 2));
  check("block in reception", change(&s, 1, 2), 21);
  check("another block", change(&s, 2, 1), answer(0, 1, 0));
  check("its kind is changed", s.kinds[2], 1);
  check("no such block", change(&s, 4, 1), 18);
  check("no such kind", change(&s, 1, 5), 19);
  check("not Linux's", change(&s, 0, 1), 20);
  /* the engine is done with the first packet */
  put(&s, at(0) + 12, (get(&s, at(0) + 12) & ~OWNER));
  s.state.cp[0] = at(0), s.state.hdp[0] = at(1);
  check("after a release its words are free", write_full(&s, at(0) + 4, 5), answer(0, 1, 0));
  check("the head moved on", s.state.heads[0], at(1));
}

/* What the header has a handler do on 4 and on 10, over the whole page of the registers and both ends of descriptor memory. */
static void handlers(void) {
  uint32_t behind = 0, others = 0, wrong = 0, early = 0;
  begin(&s, 4);
  for (unsigned q = 0; q < GRESOMUND_QUEUES; q++) s.state.hdp[q] = at(0), s.state.cp[q] = GRESOMUND_TEARDOWN_DONE; /* busy, whoever asks */
  for (uint32_t a = 0x4A100000; a < 0x4A101000; a += 4) {
    uint32_t x = write_full(&s, a, a == TX_HDP || a == RX_HDP ? at(1) : 0);
    int four = gresomund_number(x) == GRESOMUND_NOT_GUARDED;
    behind += four && gresomund_is_behind(a);
    others += four && !gresomund_is_behind(a);
    wrong += !four && gresomund_is_behind(a); /* dropped on 4 only: what the guard judges is not behind */
    early += (uint32_t)gresomund_is_early(a, x);
    if (gresomund_number(x) == GRESOMUND_BUSY) check("10 is early at an HDP and nowhere else", (uint32_t)gresomund_is_early(a, x), a == TX_HDP || a == RX_HDP);
  }
  check("4, dropped: 0x4A100A80..BFF", behind, 0x180 / 4);
  check("4, the handler's own: 0x4A100000..7FF, 900..9FF, C00..FFF", others, (0x800 + 0x100 + 0x400) / 4);
  check("no judged address is behind", wrong, 0);
  check("both HDPs are early", early, 2);
  check("the first word behind", (uint32_t)(gresomund_is_behind(0x4A100A80) && !gresomund_is_behind(0x4A100A7C)), 1);
  check("the last word behind", (uint32_t)(gresomund_is_behind(0x4A100BFC) && !gresomund_is_behind(0x4A100C00)), 1);
  check("descriptor memory is not behind", (uint32_t)(gresomund_is_behind(GRESOMUND_MEM_FIRST) || gresomund_is_behind(0x4A103FFC)), 0);
  check("another refusal is not early", (uint32_t)gresomund_is_early(TX_HDP, GRESOMUND_TEARDOWN_PENDING), 0);
}

static void fresh(void) {
  gresomund_fresh(&s.state, s.used, s.lens);
  struct scene zero;
  memset(&zero, 0, sizeof zero);
  check("fresh state", (uint32_t)memcmp(&s.state, &zero.state, sizeof s.state), 0);
  check("fresh words", (uint32_t)memcmp(s.used, zero.used, sizeof s.used), 0);
  check("fresh lengths", (uint32_t)memcmp(s.lens, zero.lens, sizeof s.lens), 0);
}

/* Both entries on the same sound states: the same answer, the same arrays. */
static void entries(void) {
  static const uint32_t where[] = {TX_HDP, RX_HDP, TX_CP, RX_CP, TX_TEARDOWN, RX_TEARDOWN, SOFT_RESET, 0x4A100820, 0x4A100900, 0x4A100A04};
  uint32_t seed = 1, bad = 0;
  begin(&s, 8);
  for (int i = 0; i < 20000; i++) {
    seed = seed * 1664525u + 1013904223u;
    uint32_t d = seed >> 28, r = (seed >> 8) & 15, a, v;
    if (i % 500 == 0) begin(&s, 8);
    if (r < 4 && !s.used[4 * d]) chain(&s, d, 1 + (seed >> 16) % 3, r); /* words not in use are Linux's to write */
    for (unsigned k = 0; k < 12; k++) if (s.used[4 * d + k]) { memcpy(s.mem, other.mem, sizeof s.mem); break; }
    a = r & 1 ? at(d) + 4 * ((seed >> 4) & 3) : where[(seed >> 12) % 10];
    v = r & 2 ? at((seed >> 20) & 15) : r & 4 ? 0 : seed >> 3;
    other = s;
    uint32_t x = write_full(&s, a, v), y = write_inner(&other, a, v);
    bad += x != y || memcmp(&s, &other, sizeof s) != 0;
    other = s;
    x = change(&s, (seed >> 5) & 7, 1 + ((seed >> 9) & 3)), y = change_inner(&other, (seed >> 5) & 7, 1 + ((seed >> 9) & 3));
    bad += x != y || memcmp(&s, &other, sizeof s) != 0;
    other = s;
  }
  check("both entries agree, 40,000 calls", bad, 0);
}

int main(void) {
  layout(), unfit(), unsound(), ranks(), flags(), numbers(), traffic(), handlers(), fresh(), entries();
  printf("%d passed, %d failed\n", passed, failed);
  return failed != 0;
}
