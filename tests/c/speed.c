/* One call, often, for counting its instructions: the scene is built, then the call named by the first word is made 100 times through an entry,
 * and the arrays put back after each. usage under callgrind: tools/speed. */
#include "entries.h"
#include <stdio.h>
#include <stdlib.h>

static struct scene s, keep;

int main(int argc, char **argv) {
  if (argc != 5) return fprintf(stderr, "usage: speed ENTRY CASE BLOCKS QUEUE\n"), 2;
  const struct entry *e = entry_named(argv[1]);
  const char *what = argv[2];
  uint64_t blocks = strtoull(argv[3], 0, 10);
  unsigned n = (unsigned)atoi(argv[4]), want = 0;
  uint32_t a = at(511) + 4, v = 7;
  int kind = 0;
  if (!e) return fprintf(stderr, "no such entry\n"), 2;
  begin(&s, blocks);
  if (strcmp(what, "start") == 0) { /* a transmit chain of n one-piece packets */
    chain(&s, 0, n, 1), a = TX_HDP, v = at(0);
  } else if (strcmp(what, "receive") == 0) { /* a receive chain of n */
    chain(&s, 0, n, 0), a = RX_HDP, v = at(0);
  } else {
    chain(&s, 0, n, 0), write_full(&s, RX_HDP, at(0));
    if (strcmp(what, "append") == 0) { /* one receive buffer behind a queue of n */
      chain(&s, n, 1, 0), a = at(n - 1), v = at(n);
    } else if (strcmp(what, "kind") == 0) { /* a kind change under a receive queue of n, of a block that none of it touches */
      kind = 1, a = 5, v = 2;
    } else if (strcmp(what, "ack") == 0) {
      a = TX_CP, v = 1;
    } else if (strcmp(what, "store") != 0) return 2; /* a plain store to a free word beside a receive queue of n */
  }
  keep = s;
  for (int i = 0; i < 100; i++) {
    s = keep;
    if (gresomund_number(counted(e, &s, kind, a, v)) != want) return fprintf(stderr, "another answer\n"), 1;
  }
  return 0;
}
