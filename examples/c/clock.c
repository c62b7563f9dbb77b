/* The clock's rule (docs/CLOCK.md) for four nodes, one fault and clocks below 8. Bytes 0 to 3 of the memory are the clock
   and bytes 4 to 7 the mark. */
#include "node.h"

#define NODES 4
#define FAULTS 1
#define MODULUS 8

u64 clock(u32 *memory, u64 node) {
  u64 value = memory[0] < MODULUS ? memory[0] : 0;
  u64 support = 0;
#pragma unroll
  for (u64 sender = 0; sender < NODES; sender++) {
    if (recv(sender) == value) {
      support++;
      KEEP_HERE(support);
    }
  }

  u64 mark = 1;
  if (support < NODES - FAULTS) {
    value = 0;
    mark = 0;
  } else if (value != 0) {
    value = value + 1 < MODULUS ? value + 1 : 0;
  } else if (memory[1] != 0) {
    value = 1;
  } else {
    value = coin();
    mark = value;
  }
  memory[0] = value;
  memory[1] = mark;
#pragma unroll
  for (u64 receiver = 0; receiver < NODES; receiver++) send(receiver, value);
  return 0;
}
