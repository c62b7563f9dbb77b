/* Runs a rule in C on the cases of its input (tools/check_c.py). A case has numbers: the node, its coin, the last message
   from each node and the words of the memory. Its line has the words and what each node was sent. */
#include "native_node.h"

#include RULE

#include <stdio.h>
#include <string.h>

#define WORDS (MEMORY / 4)

static int read_numbers(u32 *numbers, u32 count) {
  for (u32 at = 0; at < count; at++) {
    if (scanf("%u", &numbers[at]) != 1) return 0;
  }
  return 1;
}

static void print_numbers(const u32 *numbers, u32 count) {
  for (u32 at = 0; at < count; at++) printf("%u ", numbers[at]);
}

int main(void) {
  u32 memory[WORDS];
  while (read_numbers(&running.id, 1)) {
    if (!read_numbers(&running.coin, 1) || !read_numbers(running.mail, NODES) || !read_numbers(memory, WORDS)) return 1;
    memset(running.sent, 255, sizeof running.sent);
    pulse(memory, running.id);
    print_numbers(memory, WORDS);
    print_numbers(running.sent, NODES);
    printf("\n");
  }
  return 0;
}
