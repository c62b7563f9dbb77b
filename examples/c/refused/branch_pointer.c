/* One register that points at the memory or at the stack. Cure: two branches that each keep their own access. */
#include "../node.h"

u64 either(u32 *memory, u64 node) {
  u32 own[2] = {node, 7};
  u32 at = memory[1] & 1;
#ifdef CURED
  if (memory[0]) {
    u64 word = memory[at];
    KEEP_HERE(word);
    return word;
  }
  return own[at];
#else
  u32 *from = memory[0] ? memory : own;
  return from[at];
#endif
}
