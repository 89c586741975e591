#define _GNU_SOURCE
#include "stack.h"

#include <stdint.h>
#include <stdio.h>
#include <stdlib.h>
#include <sys/mman.h>
#include <ucontext.h>

#define PAGE 4096
#define PAINT UINT64_C(0x5a17c0de5a17c0de)
#define WORDS (STACK_LENGTH / sizeof(uint64_t))

static uint64_t *stack;

static void paint(size_t from)
{
    for (size_t i = from; i < WORDS; i++)
        stack[i] = PAINT;
}

void map_stack(void)
{
    uint8_t *pages = mmap(NULL, PAGE + STACK_LENGTH, PROT_NONE, MAP_PRIVATE | MAP_ANONYMOUS, -1, 0);
    if (pages == MAP_FAILED || mprotect(pages + PAGE, STACK_LENGTH, PROT_READ | PROT_WRITE) != 0) {
        perror("calls: mmap");
        exit(1);
    }
    stack = (uint64_t *)(void *)(pages + PAGE);
    paint(0);
}

size_t run_on_stack(void (*work)(void))
{
    static ucontext_t here, there;
    if (getcontext(&there) != 0) {
        perror("calls: getcontext");
        exit(1);
    }
    there.uc_stack.ss_sp = stack;
    there.uc_stack.ss_size = STACK_LENGTH;
    there.uc_link = &here;
    makecontext(&there, work, 0);
    if (swapcontext(&here, &there) != 0) {
        perror("calls: swapcontext");
        exit(1);
    }
    size_t untouched = 0;
    while (untouched < WORDS && stack[untouched] == PAINT)
        untouched++;
    paint(untouched);
    return STACK_LENGTH - untouched * sizeof(uint64_t);
}

int below_stack(const void *address)
{
    const uint8_t *a = address, *bottom = (const uint8_t *)stack;
    return a >= bottom - PAGE && a < bottom;
}
