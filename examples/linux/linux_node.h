/* node.h for the Linux kernel: the four helpers over three array maps. Include it before a program, which then skips
   node.h. The caller of a pulse writes `state` and `inbox` before it, and reads `state` and
   `outbox` after it. */
#ifndef CLOCKBED_NODE
#define CLOCKBED_NODE

#include <linux/bpf.h>

#include <bpf/bpf_helpers.h>

typedef __u8 u8;
typedef __u32 u32;
typedef __u64 u64;

#define NO_MAIL 4294967295u
#define KEEP_HERE(number) asm volatile("" : "+r"(number))

/* The running node: its memory of up to 256 bytes, its number, and its coin. */
struct node {
  u32 memory[64];
  u32 id;
  u32 coin;
};

struct {
  __uint(type, BPF_MAP_TYPE_ARRAY);
  __uint(max_entries, 1);
  __type(key, u32);
  __type(value, struct node);
} state SEC(".maps");

/* By the number of a node: its last message, and the message to it. */
struct {
  __uint(type, BPF_MAP_TYPE_ARRAY);
  __uint(max_entries, 64);
  __type(key, u32);
  __type(value, u32);
} inbox SEC(".maps"), outbox SEC(".maps");

static __always_inline struct node *running(void) {
  u32 first = 0;
  return bpf_map_lookup_elem(&state, &first);
}

static __always_inline u64 id(void) {
  struct node *own = running();
  return own ? own->id : 0;
}

static __always_inline u64 coin(void) {
  struct node *own = running();
  return own ? own->coin & 1 : 0;
}

static __always_inline u64 recv(u64 from) {
  u32 key = from;
  u32 *number = bpf_map_lookup_elem(&inbox, &key);
  return number ? *number : NO_MAIL;
}

static __always_inline u64 send(u64 to, u64 number) {
  u32 key = to, value = number;
  bpf_map_update_elem(&outbox, &key, &value, 0);
  return 0;
}

/* The rule, which the program calls. */
static __always_inline u64 pulse(u32 *memory, u32 me);

#endif
