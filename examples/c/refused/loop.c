/* A loop of a changing number of rounds jumps back. Cure: a constant bound, unrolled, and a test inside. */
#include "../node.h"

u64 sum(u32 *memory, u64 node) {
  u64 total = 0;
#ifdef CURED
#pragma unroll
  for (u64 j = 0; j < 3; j++)
    if (j < (memory[0] & 3)) total += recv(j);
#else
  for (u64 j = 0; j < (memory[0] & 3); j++) total += recv(j);
#endif
  return total;
}
