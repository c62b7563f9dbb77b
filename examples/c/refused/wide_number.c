/* Mail is a number of 32 bits, and this may be greater. Cure: cut it. */
#include "../node.h"

u64 tell(u32 *memory, u64 node) {
  u64 number = *(u64 *)memory;
#ifdef CURED
  return send(0, (u32)number);
#else
  return send(0, number);
#endif
}
