#define _GNU_SOURCE
#include "memory.h"

#include <stdio.h>
#include <stdlib.h>
#include <string.h>
#include <sys/mman.h>
#include <unistd.h>

#define PAGE 4096
#define AREA ((size_t)(LONGEST_SLICE + 2 * PAGE))
#define AROUND 128 /* known bytes on each side of a slice or buffer */

const char *const placement_names[PLACEMENTS] = {
    "at the end of a page", "at the start of a page", "unaligned", "in shared memory", "on a stack of its own",
};

/* An area for each argument: one memory seen twice, each time between two pages that nobody may touch. */
static struct area {
    uint8_t *writable, *readable;
    uint8_t known; /* the byte around, now */
    size_t offset; /* where the bytes are, now */
    int shared;    /* they are in another area, now */
} areas[MOST_ARGUMENTS];

static uint8_t *view(int file, int protection)
{
    uint8_t *pages = mmap(NULL, AREA + 2 * PAGE, PROT_NONE, MAP_PRIVATE | MAP_ANONYMOUS | MAP_NORESERVE, -1, 0);
    if (pages == MAP_FAILED ||
        mmap(pages + PAGE, AREA, protection, MAP_SHARED | MAP_FIXED, file, 0) == MAP_FAILED) {
        perror("calls: mmap");
        exit(1);
    }
    return pages + PAGE;
}

void map_memory(void)
{
    for (int i = 0; i < MOST_ARGUMENTS; i++) {
        int file = memfd_create("area", 0);
        if (file < 0 || ftruncate(file, (off_t)AREA) != 0) {
            perror("calls: memfd_create");
            exit(1);
        }
        areas[i].writable = view(file, PROT_READ | PROT_WRITE);
        areas[i].readable = view(file, PROT_READ);
        close(file);
    }
}

static int has_bytes(const struct argument *a)
{
    return a->kind == SLICE || a->kind == BUFFER;
}

/* How many known bytes stand before and after the bytes: fewer where the area ends. */
static size_t before(const struct area *area)
{
    return area->offset < AROUND ? area->offset : AROUND;
}

static size_t after(const struct area *area, size_t length)
{
    size_t left = AREA - area->offset - length;
    return left < AROUND ? left : AROUND;
}

static size_t offset_of(const struct argument *a, int i, enum placement placement, unsigned long line)
{
    if (placement == AT_PAGE_END)
        return AREA - a->length;
    if (placement == AT_PAGE_START)
        return 0;
    /* The factor is odd, so each argument comes to all eight alignments, and not to the same as its neighbour. */
    unsigned long turn = line * (2 * (unsigned long)i + 1) + (unsigned long)i + (unsigned long)placement;
    return PAGE + turn % 8;
}

void place(const struct call *call, enum placement placement, unsigned long line, uint8_t *at[])
{
    for (int i = 0; i < call->count; i++) {
        const struct argument *a = &call->arguments[i];
        struct area *area = &areas[i];
        if (!has_bytes(a))
            continue;
        area->shared = 0;
        area->known = placement % 2 ? 0x3c : 0xc3;
        area->offset = offset_of(a, i, placement, line);
        uint8_t *bytes = area->writable + area->offset;
        memset(bytes - before(area), area->known, before(area));
        memcpy(bytes, a->bytes, a->length);
        memset(bytes + a->length, area->known, after(area, a->length));

        int writable = a->kind == BUFFER || placement == UNALIGNED || placement == SMALL_STACK;
        uint8_t *seen = writable ? area->writable : area->readable;
        at[i] = seen + area->offset;
        if (a->length == 0) /* no byte of it can be touched */
            at[i] = placement == UNALIGNED ? NULL : seen + AREA;
    }
    if (placement != SHARED)
        return;
    for (int i = 0; i < call->count; i++) {
        const struct argument *a = &call->arguments[i];
        for (int j = 0; a->kind == SLICE && a->length > 0 && j < call->count; j++) {
            const struct argument *b = &call->arguments[j];
            if (j != i && b->kind == SLICE && !areas[j].shared && b->length >= a->length &&
                memcmp(a->bytes, b->bytes, a->length) == 0) {
                at[i] = at[j];
                areas[i].shared = 1;
                break;
            }
        }
    }
}

static int all_known(const uint8_t *bytes, size_t length, uint8_t known)
{
    for (size_t i = 0; i < length; i++)
        if (bytes[i] != known)
            return 0;
    return 1;
}

const char *changed(const struct call *call)
{
    for (int i = 0; i < call->count; i++) {
        const struct argument *a = &call->arguments[i];
        const struct area *area = &areas[i];
        if (!has_bytes(a))
            continue;
        const uint8_t *bytes = area->writable + area->offset;
        if (!all_known(bytes - before(area), before(area), area->known))
            return "it wrote before a slice or buffer";
        if (!all_known(bytes + a->length, after(area, a->length), area->known))
            return "it wrote behind a slice or buffer";
        if (a->kind == SLICE && memcmp(bytes, a->bytes, a->length) != 0)
            return "it changed a slice";
    }
    return NULL;
}

void describe(const struct call *call, uint8_t *const at[], const void *address, char *text, size_t size)
{
    const uint8_t *touched = address;
    for (int i = 0; i < call->count; i++) {
        const struct argument *a = &call->arguments[i];
        if (!has_bytes(a))
            continue;
        for (int v = 0; v < 2; v++) {
            const uint8_t *start = v ? areas[i].readable : areas[i].writable;
            if (touched >= start - PAGE && touched < start + AREA + PAGE) {
                snprintf(text, size, "byte %ld of argument %d, which has %zu bytes%s", (long)(touched - at[i]), i + 1,
                         a->length, a->kind == SLICE ? " and can only be read" : "");
                return;
            }
        }
    }
    snprintf(text, size, "address %p, which is in no slice or buffer", address);
}
