/* gresomund.h: the guard between Linux and the Ethernet controller's DMA engine, for a hypervisor's trap handler.
 *
 * Linux may not write the DMA registers and the descriptor memory itself: its stores trap. For each such store the trap handler asks
 * the guard, which answers with a number. 0: the store may be carried out. Anything else: it must not be. The guard keeps a book of what
 * has been handed to the DMA engine, so that what was judged cannot be changed while the engine uses it.
 *
 * This comment is the whole story for a handler; examples/trap-handler does all of it.
 *
 * WHAT TRAPS. The page 0x4A100000..0x4A100FFF, which holds the DMA registers, and descriptor memory, 0x4A102000..0x4A103FFF. Both are mapped
 * so that Linux reads them and its stores trap. The guard is asked for whole words: a store of several words is several stores, one after
 * the other; a narrower store to guarded addresses (0x4A100800..8FF, 0x4A100A00..A7F, descriptor memory) is dropped without a call.
 *
 * ONE CALL IS ONE WHOLE EVENT. Reading the device, the call, and carrying out the accepted store must not be interleaved with another
 * guard call, on any processor: take a lock around the three. The guard keeps no state of its own; all of it is lent by the caller.
 *
 * WHAT TO LEND. No pointer may be null, except those of `mem` and `kinds` with length 0 (answered 1); arrays must not overlap.
 *   mem, mem_len     a copy of descriptor memory in plain memory, 8,192 bytes, aligned to 4. Never the device's own: the call makes an accepted
 *                    store in `mem` by itself, in bytes, and the device must see one word. Before each call it is brought up to date.
 *   kinds, blocks    one byte for each 4 KiB block of RAM from 0x80000000: 0 not Linux's, 1 Linux data, 2 Linux executable, 3 first-level
 *                    page table, 4 second-level page table. 1 to 16,384 of them. Only gresomund_kind_change may change it.
 *   state            the small state, below, which the guard reads and changes where it lies. The caller fills in the five registers before
 *                    every call, as the device has them; only the guard may change the rest.
 *   used             one byte for each word of descriptor memory: 1 while it is in use. Only the guard may change it.
 *   lens             one length for each word of descriptor memory, kept at the first word of each receive descriptor in use.
 *                    Only the guard may change it.
 *
 * WHAT COMES BACK. One word: see gresomund_number, gresomund_effect, gresomund_side and gresomund_channel. `state`, `used`, `lens`, `mem`
 * and `kinds` are then as the answer says: after 1 and 2 nothing has changed; after any other refusal only descriptors that the engine is
 * done with were released from the book; after 0 the write is in the book.
 *
 * WHAT THE HANDLER DOES, in order:
 *   1. state.hdp, state.cp and state.bit are read from the device (TX0_HDP, RX0_HDP, TX0_CP, RX0_CP, CPDMA_SOFT_RESET). Then `mem` is
 *      brought up to date: the device changes words 3 and 2 of descriptors in a queue, and no other, so these are read again, from each
 *      queue's head on (state.heads, and word 0 of the copy for the next). In this order: the controller marks a packet's last descriptor,
 *      then its first, then changes CP and HDP, and whoever reads them the other way round misses no mark that an earlier reading speaks
 *      of. (The proofs have the controller stand still during a call; on the board it goes on.)
 *   2. The call.
 *   3. By the number:
 *      0   exactly that store (address, value) is carried out on the device as one word: a register's and a descriptor's alike.
 *      4   the guard has no opinion. 0x4A100A80..0x4A100BFF, behind the channel registers, is dropped (gresomund_is_behind): the memory in
 *          which the controller keeps the state of its channels goes on there, and Linux has nothing to write in it. The rest of the page is
 *          the handler's own: it does there what it does for the page, with the guard or without.
 *      10  at an HDP (gresomund_is_early): try again after the controller's next step, that is, wait until that HDP reads 0 or a moment has
 *          passed, and begin anew at 1; at most GRESOMUND_TRIES times, then drop it. A packet is marked done one step before HDP reads 0.
 *          Linux sees the mark, writes HDP once and never again: without the second try the real driver's queues stall.
 *          At a teardown register, where 10 says that Linux has not acknowledged the last one: drop it.
 *      1, 2  the hypervisor has lent something wrong: drop the store, and say so in its own log.
 *      any other: drop it. A dropped store is no abort: Linux goes on behind it, as it would behind a device that ignored it.
 *   After 3 the registers in `state` are forgotten: they are read again for the next call.
 * A change of what a block is goes the same way through gresomund_kind_change: 1, 2, and on 0 `kinds` has it already; on anything else the
 * block stays what it is. Before Linux starts the DMA is reset, and the book is begun by gresomund_fresh.
 *
 * WHICH ENTRY. gresomund_guest_write and gresomund_kind_change may be called on any arrays: what is unfit is answered 1, what is unsound
 * 2. Those named _sound do not look, and cost less: they may be called only where the others answer neither 1 nor 2. That is so when
 * mem_len is 8,192, blocks is 1 to 16,384 and no kind is over 4, the book was begun by gresomund_fresh with an idle device, book and kinds
 * were since changed by nothing but these functions, and words in use were changed by nothing but the device. Called on anything else
 * they promise nothing, not even to stay within the arrays.
 *
 * WHAT IS PROVED. Each function below gives, for every input, the answer and the arrays that the definitions in crates/guard/specs and
 * crates/kinds/specs give on the state in the arrays (crates/api/specs, `Crosses`). The proofs are about the compiled module's source, on
 * x86-64; tools/retarget makes the object for the board from the same module, and says what is not proved of it.
 *
 * WHAT IT NEEDS. The archive and the board's object need memcpy and memset, and nothing else. The board's object uses core registers alone:
 * no floating-point register is changed, and it links with hypervisors of either floating-point convention. A call takes fewer than
 * GRESOMUND_STACK bytes of stack below its caller's frame, glibc's memcpy and memset within, and no more for a longer chain than for one of
 * two. tests/c holds these sentences; docs/PERFORMANCE.md has figures. */
#ifndef GRESOMUND_H
#define GRESOMUND_H

#include <stdint.h>

#ifdef __cplusplus
extern "C" {
#endif

#define GRESOMUND_MEM_FIRST 0x4A102000u /* address of the first byte of descriptor memory */
#define GRESOMUND_MEM_BYTES 8192u
#define GRESOMUND_WORDS 2048u           /* words of descriptor memory: entries of `used` and of `lens` */
#define GRESOMUND_BLOCKS_MAX 16384u
#define GRESOMUND_QUEUES 2u             /* queue 0 transmits, queue 1 receives: 2 * channel + side */
#define GRESOMUND_STACK 3072u           /* a call takes fewer bytes of stack */

/* How often a handler tries an HDP write that is answered 10 again. In the model one step of the controller is enough; how long the device takes
 * was not measured, and a handler may choose another bound. */
#define GRESOMUND_TRIES 8u

/* What CP reads once a teardown has finished, until it is acknowledged. The teardowns that are still pending are `tearing`, below. */
#define GRESOMUND_TEARDOWN_DONE 0xFFFFFFFCu

/* The guard's own table, in this order: twelve words without padding. `marks` and `tearing` are masks. */
struct gresomund_state {
  uint32_t heads[GRESOMUND_QUEUES]; /* the book: address of each queue's first descriptor, 0 for an empty queue */
  uint32_t hdp[GRESOMUND_QUEUES];   /* the device, read before each call: TX0_HDP, RX0_HDP */
  uint32_t cp[GRESOMUND_QUEUES];    /* the device, read before each call: TX0_CP, RX0_CP */
  uint32_t marks;                   /* the book, registers zeroed since the last reset: bit q HDP of queue q, bit GRESOMUND_QUEUES + q its CP */
  uint32_t tearing;                 /* the book, pending teardowns: bit q that of queue q */
  uint32_t reset;                   /* the book: 1 while a reset is pending, else 0 */
  uint32_t bit;                     /* the device, read before each call: CPDMA_SOFT_RESET, of which bit 0 is read and no other */
  uint32_t spare[2];                /* never read, never changed */
};

/* The refusal numbers; the lowest that applies is given. docs/REFUSALS.md says who meets which, and what to change. */
enum gresomund_number {
  GRESOMUND_ACCEPTED = 0,
  GRESOMUND_UNFIT = 1,           /* mem_len is not 8,192, blocks is not 1..16,384, or a kind is over 4 */
  GRESOMUND_UNSOUND = 2,         /* the book is not sound, `marks` or `tearing` has a bit of no register or queue, or `reset` is over 1 */
  GRESOMUND_UNALIGNED = 3,       /* address not a multiple of 4 */
  GRESOMUND_NOT_GUARDED = 4,     /* address not guarded */
  GRESOMUND_NOT_OFFERED = 5,     /* register not offered */
  GRESOMUND_NOT_INITIALISED = 6, /* the four zeros are missing */
  GRESOMUND_RESET_PENDING = 7,
  GRESOMUND_TEARDOWN_PENDING = 8,
  GRESOMUND_BAD_VALUE = 9,
  GRESOMUND_BUSY = 10,
  GRESOMUND_WORD_IN_USE = 11,
  GRESOMUND_BAD_POINTER = 12,    /* descriptor pointer */
  GRESOMUND_OVERLAP = 13,        /* a word of the descriptor is in use, or met earlier in this chain */
  GRESOMUND_FLAGS = 14,
  GRESOMUND_LENGTH = 15,         /* length or offset */
  GRESOMUND_BUFFER = 16,         /* buffer not permitted */
  GRESOMUND_UNFINISHED = 17,     /* packet unfinished, or lengths do not add up */
  GRESOMUND_NO_BLOCK = 18,       /* kind change: no such block */
  GRESOMUND_BAD_KIND = 19,       /* kind change: new kind not 1..4 */
  GRESOMUND_NOT_LINUX = 20,      /* kind change: block not Linux's */
  GRESOMUND_IN_RECEPTION = 21    /* kind change: a receive buffer in the book touches the block */
};

/* What an accepted call did. An accepted kind change is plain. */
enum gresomund_effect { GRESOMUND_NONE = 0, GRESOMUND_PLAIN = 1, GRESOMUND_STARTED = 2, GRESOMUND_APPENDED = 3 };

/* On which side it started or appended; 0 for anything else. The channel is 0 for now. */
enum gresomund_side { GRESOMUND_NO_SIDE = 0, GRESOMUND_TRANSMIT = 1, GRESOMUND_RECEIVE = 2 };

/* The four parts of an answer. */
static inline unsigned gresomund_number(uint32_t answer) { return answer & 255u; }
static inline unsigned gresomund_effect(uint32_t answer) { return (answer >> 8) & 255u; }
static inline unsigned gresomund_side(uint32_t answer) { return (answer >> 16) & 255u; }
static inline unsigned gresomund_channel(uint32_t answer) { return answer >> 24; }

/* On 4: whether the address lies behind the channel registers. Such a store is dropped. */
static inline int gresomund_is_behind(uint32_t address) { return address >= 0x4A100A80u && address <= 0x4A100BFFu; }

/* Whether the answer is 10 at an HDP, 0x4A100A00..0x4A100A3F: the store may be early by a step of the controller, and is tried again. */
static inline int gresomund_is_early(uint32_t address, uint32_t answer) {
  return gresomund_number(answer) == GRESOMUND_BUSY && address >= 0x4A100A00u && address <= 0x4A100A3Fu;
}

/* An empty book that awaits the four zeros, and zero registers. For an idle device: at the start, or after a reset. */
void gresomund_fresh(struct gresomund_state *state, uint8_t used[GRESOMUND_WORDS], uint16_t lens[GRESOMUND_WORDS]);

/* Linux stores `value` at `address`. Lengths are 64 bits wide, on the 32-bit board too. */
uint32_t gresomund_guest_write(uint32_t address, uint32_t value, uint8_t *mem, uint64_t mem_len, const uint8_t *kinds, uint64_t blocks,
                               struct gresomund_state *state, uint8_t used[GRESOMUND_WORDS], uint16_t lens[GRESOMUND_WORDS]);
uint32_t gresomund_guest_write_sound(uint32_t address, uint32_t value, uint8_t *mem, uint64_t mem_len, const uint8_t *kinds, uint64_t blocks,
                                     struct gresomund_state *state, uint8_t used[GRESOMUND_WORDS], uint16_t lens[GRESOMUND_WORDS]);

/* Block `block` becomes of kind `kind`: on 0 it is already so in `kinds`. */
uint32_t gresomund_kind_change(uint32_t block, uint32_t kind, const uint8_t *mem, uint64_t mem_len, uint8_t *kinds, uint64_t blocks,
                               struct gresomund_state *state, uint8_t used[GRESOMUND_WORDS], uint16_t lens[GRESOMUND_WORDS]);
uint32_t gresomund_kind_change_sound(uint32_t block, uint32_t kind, const uint8_t *mem, uint64_t mem_len, uint8_t *kinds, uint64_t blocks,
                                     struct gresomund_state *state, uint8_t used[GRESOMUND_WORDS], uint16_t lens[GRESOMUND_WORDS]);

#ifdef __cplusplus
}
#endif

#endif
