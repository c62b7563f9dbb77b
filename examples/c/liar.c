/* Tells each of four nodes another time: what that node sent, plus its number. */
#include "node.h"

#define NODES 4

u64 liar(u32 *memory, u64 node) {
#pragma unroll
  for (u64 receiver = 0; receiver < NODES; receiver++) send(receiver, (u32)(recv(receiver) + receiver));
  return 0;
}
