/* A test of the low half of a register says nothing of the whole. Cure: load 32 bits, and test those. */
#include "../node.h"

u64 byte(u32 *memory, u64 node) {
#ifdef CURED
  u32 at = memory[0];
#else
  u64 both = *(u64 *)memory;
  u32 at = both;
#endif
  if (at > 7) return 0;
  return ((u8 *)memory)[at];
}
