/* A worked trap handler: what a hypervisor does around the guard (include/gresomund.h tells the story), and a short scene that runs it.
 *
 * build: ./gresomund lib, then
 *   cc -Iinclude examples/trap-handler/trap_handler.c target/lib/libgresomund.a -o trap_handler
 * and for the board the same by an Arm compiler, with target/lib/gresomund-armv7.o.
 *
 * Linux's stores to the page of the DMA registers (0x4A100000..FFF) and to descriptor memory (0x4A102000..0x4A103FFF) trap, because the
 * hypervisor has those pages mapped read-only for Linux. The handler decodes the store to (address, value) and calls `on_store`. A change of
 * a page table or of a block's use reaches the hypervisor as a call of Linux; before it changes what a block is, it calls `on_kind`.
 *
 * What it prints is expected.txt: each call of the guard as a line of a bench text (tools/benchtext.py) with the guard's answer as its comment,
 * and each step of the device between them. So the same events can be replayed: `tests/c/run` has the second model give every answer again. */
#include "gresomund.h"
#include <stdio.h>
#include <string.h>

/* ---- the device. On the board these are volatile reads and writes of words; here it is an array, and a transmit engine that moves by steps. */

enum { TX_HDP = 0x4A100A00, RX_HDP = 0x4A100A20, TX_CP = 0x4A100A40, RX_CP = 0x4A100A60, SOFT_RESET = 0x4A10081C, PAGE = 0x4A100000 };
static const uint32_t SOP = 1u << 31, EOP = 1u << 30, OWNER = 1u << 29, EOQ = 1u << 28;

static uint32_t page[1024], memory[GRESOMUND_WORDS]; /* the page of the registers, and descriptor memory */
static struct { unsigned step; uint32_t first, left, next; } engine; /* step 0: idle */

static volatile uint32_t *device(uint32_t a) {
  return a >= GRESOMUND_MEM_FIRST ? &memory[(a - GRESOMUND_MEM_FIRST) / 4] : &page[(a - PAGE) / 4];
}

/* One word. HDP starts its engine; CP is set to 0 by the value that it has. */
static void device_store(uint32_t a, uint32_t v) {
  if (a == TX_CP || a == RX_CP) {
    if (*device(a) == v) *device(a) = 0;
    return;
  }
  *device(a) = v;
  if (a == TX_HDP && v != 0) engine.step = 1;
}

/* One step of the transmit engine, as docs/BENCH.md has them. */
static void device_step(void) {
  uint32_t d = *device(TX_HDP);
  switch (engine.step) {
  case 1: /* fetch */
    if (*device(d + 12) & SOP) engine.first = d;
    engine.left = *device(d + 8) & 0xFFFF, engine.next = *device(d), engine.step = 2;
    break;
  case 2: /* a burst of at most 64 bytes */
    engine.left -= engine.left < 64 ? engine.left : 64;
    if (engine.left == 0) engine.step = 3;
    break;
  case 3: /* on to the packet's next descriptor; or its end, and what is behind it by now */
    if (*device(d + 12) & EOP) engine.next = *device(d), engine.step = 4;
    else *device(TX_HDP) = engine.next, engine.step = 1;
    break;
  case 4: /* the end of the queue */
    if (engine.next == 0) *device(d + 12) |= EOQ;
    engine.step = 5;
    break;
  case 5: *device(engine.first + 12) &= ~OWNER, engine.step = 6; break; /* the packet is done, and Linux may see it */
  case 6: /* only now HDP reads 0 */
    *device(TX_CP) = d, *device(TX_HDP) = engine.next, engine.step = engine.next != 0;
    break;
  }
}

/* ---- the hypervisor: what it keeps for the guard. Nothing else writes these. */

static struct gresomund_state state;
static uint8_t used[GRESOMUND_WORDS];
static uint16_t lens[GRESOMUND_WORDS];
static uint8_t kinds[16];
static union { uint8_t bytes[GRESOMUND_MEM_BYTES]; uint32_t words[GRESOMUND_WORDS]; } mem; /* the copy of descriptor memory that is lent */

static void record_write(uint32_t address, uint32_t value, uint32_t answer);
static void record_kind(uint32_t block, uint32_t kind, uint32_t answer);
static void steps(unsigned n);

/* The device as the guard may see it: five registers, and descriptor memory. The device changes words 3 and 2 of descriptors in a queue; all other
 * words change through `on_store` alone, and there the guard has stored them in the copy. The order is the header's: the registers, then each
 * queue from its head on. (Words of this machine and of the board are little-endian.) */
static void look(void) {
  state.hdp[0] = *device(TX_HDP), state.hdp[1] = *device(RX_HDP);
  state.cp[0] = *device(TX_CP), state.cp[1] = *device(RX_CP);
  state.bit = *device(SOFT_RESET);
  for (unsigned q = 0; q < GRESOMUND_QUEUES; q++) {
    for (uint32_t d = state.heads[q], *w; d != 0; d = w[0]) {
      w = &mem.words[(d - GRESOMUND_MEM_FIRST) / 4];
      w[3] = *device(d + 12), w[2] = *device(d + 8);
    }
  }
}

/* The controller goes on. On the board nothing is to be done but to wait: until this HDP reads 0, or a moment has passed. */
static void wait_a_step(void) { steps(1); }

/* What the hypervisor does for the page of the registers where the guard has no opinion: its own rule. This one lets Linux write it. */
static void page_store(uint32_t address, uint32_t value) { device_store(address, value); }

/* One trapped store of a word. The whole function runs under the guard's lock, with no other processor inside: one call is one whole event. */
static uint32_t on_store(uint32_t address, uint32_t value) {
  uint32_t answer = 0;
  for (unsigned tries = 0; tries <= GRESOMUND_TRIES; tries++) {
    if (tries > 0) wait_a_step();
    look();
    /* The inner entry: the book was begun by gresomund_fresh in `start`, and only these two functions change book and kinds. A hypervisor that
     * cannot say that calls gresomund_guest_write. */
    answer = gresomund_guest_write_sound(address, value, mem.bytes, sizeof mem.bytes, kinds, sizeof kinds, &state, used, lens);
    record_write(address, value, answer);
    if (!gresomund_is_early(address, answer)) break;
  }
  switch (gresomund_number(answer)) {
  case GRESOMUND_ACCEPTED: device_store(address, value); break; /* exactly this store, as one word */
  case GRESOMUND_NOT_GUARDED:
    if (!gresomund_is_behind(address)) page_store(address, value);
    break;
  default: break; /* dropped; Linux goes on behind it */
  }
  return answer;
}

/* Linux asks that a block become of another kind. On 0 it is so in `kinds`, and the hypervisor may change what it maps. */
static uint32_t on_kind(uint32_t block, uint32_t kind) {
  look();
  uint32_t answer = gresomund_kind_change_sound(block, kind, mem.bytes, sizeof mem.bytes, kinds, sizeof kinds, &state, used, lens);
  record_kind(block, kind, answer);
  return answer;
}

/* Before Linux starts: the DMA is reset, the copy is whole, the book is empty. */
static void start(void) {
  memset(kinds, 1, sizeof kinds); /* Linux data */
  kinds[0] = 0;                   /* the hypervisor's own */
  kinds[2] = 2;                   /* Linux's code */
  memcpy(mem.words, memory, sizeof memory);
  gresomund_fresh(&state, used, lens);
}

/* ---- the scene, as a bench text */

static void say(const char *what) { printf("# %s\n", what); }

static void record(const char *call, uint32_t answer) {
  static const char *const effects[] = {"", " plain", " started", " appended"}, *const sides[] = {"", " transmit", " receive"};
  printf("%-20s  # %u%s%s\n", call, gresomund_number(answer), effects[gresomund_effect(answer)], sides[gresomund_side(answer)]);
}

static void record_write(uint32_t address, uint32_t value, uint32_t answer) {
  char call[32];
  snprintf(call, sizeof call, "GW %08X %08X", (unsigned)address, (unsigned)value);
  record(call, answer);
}

static void record_kind(uint32_t block, uint32_t kind, uint32_t answer) {
  char call[32];
  snprintf(call, sizeof call, "KC %u %u", (unsigned)block, (unsigned)kind);
  record(call, answer);
}

static void steps(unsigned n) {
  printf("ST transmit %u\n", n);
  while (n-- > 0) device_step();
}

static void descriptor(uint32_t d, uint32_t next, uint32_t buffer, uint32_t length, uint32_t flags) {
  on_store(d, next), on_store(d + 4, buffer), on_store(d + 8, length), on_store(d + 12, flags);
}

int main(void) {
  const uint32_t a = GRESOMUND_MEM_FIRST, b = a + 16, c = a + 32, packet = SOP | EOP | OWNER;
  start();
  say("block 0 is the hypervisor's, block 2 Linux's code, the others Linux's data");
  printf("RM");
  for (unsigned i = 0; i < sizeof kinds; i++) printf(" %u", kinds[i]);
  printf("\n");
  say("a start before the four zeros");
  on_store(TX_HDP, a);
  say("the four zeros");
  on_store(TX_HDP, 0), on_store(RX_HDP, 0), on_store(TX_CP, 0), on_store(RX_CP, 0);
  say("a packet of 60 bytes, and its start");
  descriptor(a, 0, 0x80001000, 60, packet | 60);
  on_store(TX_HDP, a);
  say("Linux turns the buffer to the hypervisor's block: the word is in use");
  on_store(a + 4, 0x80000000);
  say("a second packet, whose first byte lies in the hypervisor's block, is appended; Linux mends it and appends it again");
  descriptor(b, 0, 0x80000FFF, 2, packet | 2);
  on_store(a, b);
  on_store(b + 4, 0x80001FFF);
  on_store(a, b);
  say("the device sends the first; Linux may use its descriptor again");
  steps(6);
  descriptor(a, 0, 0x80003000, 1514, packet | 1514);
  say("the second is marked done, and HDP does not yet read 0: Linux's start is early by one step, and the handler tries again");
  steps(5);
  on_store(TX_HDP, a);
  say("a start while the device is at work: tried again as often as is allowed, then dropped");
  descriptor(c, 0, 0x80001000, 60, packet | 60);
  on_store(TX_HDP, c);
  say("behind the channel registers: 4, and dropped; elsewhere in the page: 4, and the handler's own rule");
  on_store(0x4A100A84, 1);
  on_store(0x4A100D08, 3);
  printf("# 4A100A84 reads %u, 4A100D08 reads %u\n", (unsigned)*device(0x4A100A84), (unsigned)*device(0x4A100D08));
  say("a receive buffer in block 4, with OWNER alone; while it is there, block 4 stays data, and block 5 may become a page table");
  descriptor(c, 0, 0x80004000, 1536, OWNER);
  on_store(RX_HDP, c);
  on_kind(4, 4);
  on_kind(5, 4);
  say("the device sends the rest; Linux acknowledges it");
  steps(21);
  on_store(TX_CP, a);
  /* the copy that was lent is what the device has, but for marks that no call has looked at since */
  look();
  printf("# the copy %s the device\n", memcmp(mem.words, memory, sizeof memory) == 0 ? "is" : "IS NOT");
  return 0;
}
