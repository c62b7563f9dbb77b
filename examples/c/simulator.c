/* Runs a rule in C without clockbed: NODES nodes, of which the last FAULTS are Byzantine and send random numbers.

     cc -DRULE='"clock.c"' -I . examples/c/simulator.c -o simulator
     ./simulator PULSES SEED

   Each line has the clocks of the correct nodes after a pulse. Memories are 0 at first, and coins are random. */
#include "native_node.h"

#include RULE

#include <stdio.h>
#include <stdlib.h>
#include <string.h>

#define CORRECT (NODES - FAULTS)

static u32 memories[NODES][MEMORY / 4];
/* The last message from each node to each node, and those of the running pulse. */
static u32 messages[NODES][NODES], sending[NODES][NODES];

static u64 state;
static u32 drawn(u32 below) {
  state = state * 6364136223846793005u + 1442695040888963407u;
  return (state >> 33) % below;
}

static void run(u32 node) {
  memset(running.sent, 255, sizeof running.sent);
  running.id = node;
  running.coin = drawn(2);
  for (u32 from = 0; from < NODES; from++) running.mail[from] = messages[from][node];
  pulse(memories[node], node);
  memcpy(sending[node], running.sent, sizeof sending[node]);
}

static void equivocate(u32 node) {
  for (u32 to = 0; to < NODES; to++) sending[node][to] = drawn(MODULUS);
}

int main(int count, char **words) {
  u32 pulses = count > 1 ? atoi(words[1]) : 8;
  state = count > 2 ? strtoul(words[2], NULL, 10) : 0;
  memset(messages, 255, sizeof messages);
  for (u32 at = 1; at <= pulses; at++) {
    for (u32 node = 0; node < CORRECT; node++) run(node);
    for (u32 node = CORRECT; node < NODES; node++) equivocate(node);
    memcpy(messages, sending, sizeof messages);
    printf("pulse %u clocks", at);
    for (u32 node = 0; node < CORRECT; node++) printf(" %u", memories[node][0]);
    printf("\n");
  }
  return 0;
}
