/* A call of a function of the program is no instruction here. Cure: let the compiler put its body in place. */
#include "../node.h"

#ifndef CURED
__attribute__((noinline))
#endif
static u64 threefold(u64 x) {
  return x * 3;
}

u64 sum(u32 *memory, u64 node) {
  return threefold(memory[0]) + threefold(node);
}
