/* Ranges are unsigned: a signed test of an unknown number tells nothing. Cure: unsigned numbers. */
#include "../node.h"

u64 ask(u32 *memory, u64 node) {
#ifdef CURED
  u32 sender = memory[0];
  if (sender > 3) return 0;
#else
  int sender = memory[0];
  if (sender < 0 || sender > 3) return 0;
#endif
  return recv(sender);
}
