/* A byte of the stack that may be unwritten. Cure: write all of them first. */
#include "../node.h"

u64 first(u32 *memory, u64 node) {
#ifdef CURED
  u32 got[4] = {0, 0, 0, 0};
#else
  u32 got[4];
#endif
  got[node] = 1;
  return got[0];
}
