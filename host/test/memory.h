/* Where the bytes of slices and buffers are put for a call, and whether they are as they were afterwards. */
#ifndef MEMORY_H
#define MEMORY_H

#include "call.h"

/* Each placement is one more way to make the same call. */
enum placement {
    AT_PAGE_END,   /* each slice and buffer ends where a page begins that nobody may touch; slices can only be read */
    AT_PAGE_START, /* each begins where such a page ends; slices can only be read */
    UNALIGNED,     /* all alignments in turn, known bytes around; empty ones are NULL */
    SHARED,        /* slices that are equal, or that another begins with, are one memory; slices can only be read */
    SMALL_STACK,   /* as UNALIGNED, on a stack of its own; empty ones are not NULL */
    PLACEMENTS
};

extern const char *const placement_names[PLACEMENTS];

/* Maps the memory, once. */
void map_memory(void);

/* Puts all bytes of a call in their places. The alignments follow from the line's number. */
void place(const struct call *call, enum placement placement, unsigned long line, uint8_t *at[]);

/* Says what a call changed that it may not change: a slice, or bytes around a slice or buffer. NULL where nothing. */
const char *changed(const struct call *call);

/* Describes an address that a call must not touch, from the slice or buffer that it belongs to. */
void describe(const struct call *call, uint8_t *const at[], const void *address, char *text, size_t size);

#endif
