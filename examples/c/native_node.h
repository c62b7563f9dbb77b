/* node.h for a native compiler: the four helpers over arrays. Include it before a program, which then skips node.h. */
#ifndef CLOCKBED_NODE
#define CLOCKBED_NODE

typedef unsigned char u8;
typedef unsigned int u32;
typedef unsigned long u64;

#define NO_MAIL 4294967295u
#define KEEP_HERE(number)

/* What the running node has: its number, its coin, the last message from each node, and what it sends. */
static struct {
  u32 id, coin, mail[64], sent[64];
} running;

static inline u64 id(void) { return running.id; }
static inline u64 coin(void) { return running.coin; }
static inline u64 recv(u64 node) { return running.mail[node]; }
static inline u64 send(u64 node, u64 number) {
  running.sent[node] = number;
  return 0;
}

#endif
