/* A table outside the function is no part of its image. Cure: fill it on the stack, or compute it. */
#include "../node.h"

#ifdef CURED
u64 look(u32 *memory, u64 node) {
  u8 table[4];
  table[0] = 3, table[1] = 1, table[2] = 2, table[3] = 9;
#else
static const u8 table[4] = {3, 1, 2, 9};

u64 look(u32 *memory, u64 node) {
#endif
  return table[memory[0] & 3];
}
