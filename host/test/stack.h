/* A small stack that shows how deep it was used. */
#ifndef STACK_H
#define STACK_H

#include <stddef.h>

#define STACK_LENGTH 16384

/* Maps and paints the stack, once. Below it is a page that nobody may touch. */
void map_stack(void);

/* Runs the work on the stack. The answer is the number of bytes from the stack's top to the deepest that was written. */
size_t run_on_stack(void (*work)(void));

/* Is the address in the page below the stack? */
int below_stack(const void *address);

#endif
