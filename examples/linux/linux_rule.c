/* A rule in C as a program of the Linux kernel: examples/linux/load.sh compiles and loads it (docs/RULE_IN_C.md). */
#include "linux_node.h"

#include RULE

SEC("socket") int run_pulse(struct __sk_buff *packet) {
  struct node *own = running();
  if (own) pulse(own->memory, own->id);
  return 0;
}

char LICENSE[] SEC("license") = "GPL";
