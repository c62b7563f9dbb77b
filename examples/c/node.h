/* What a node's program has in C: its memory and its number as arguments, and four helpers. docs/NODES_IN_C.md tells how
   a program is compiled, verified and run. */
#ifndef CLOCKBED_NODE
#define CLOCKBED_NODE

typedef unsigned char u8;
typedef unsigned int u32;
typedef unsigned long u64;

/* What recv answers where the node sent nothing in the last pulse. */
#define NO_MAIL 4294967295u

/* The number of this node, from 0 on. */
static u64 (*const id)(void) = (void *)1;
/* The last mail from a node: a number of 32 bits, or NO_MAIL. */
static u64 (*const recv)(u64 node) = (void *)2;
/* Sends a number of 32 bits to a node; the last one sent in a pulse counts. */
static u64 (*const send)(u64 node, u64 number) = (void *)3;
/* The coin of this pulse, 0 or 1, the same at each call. */
static u64 (*const coin)(void) = (void *)4;

/* Behind a statement in a branch: the compiler keeps it there, and prepares no two values ahead to choose from. */
#define KEEP_HERE(number) asm volatile("" : "+r"(number))

#endif
