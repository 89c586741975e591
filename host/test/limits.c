/* What is refused for its length is refused unread: every such slice here is memory that nobody may touch.
 * Likewise what an answer does not need: a message's payload, moduli and offsets behind the n-th, a buffer's
 * rest. An n over ten is refused also where the lists hold n.
 * Ends with 1 at the first call that touches it or answers differently.
 */
#define _GNU_SOURCE
#include <signal.h>
#include <stdio.h>
#include <stdlib.h>
#include <string.h>
#include <sys/mman.h>
#include <unistd.h>

#include "expect.h"

#define PAGE 4096
#define GIGABYTES ((size_t)16 << 30) /* reserved, never filled */
#define LONGEST ((size_t)INT64_MAX)  /* the longest that any object can be */

/* One page that may be touched, between gigabytes that may not. */
static uint8_t *page;
static uint8_t *untouchable;

static void on_fault(int signal, siginfo_t *info, void *context)
{
    (void)context;
    fprintf(stderr, "limits: %s: it touched what it may not touch, at %p (signal %d)\n", now, info->si_addr, signal);
    _exit(1);
}

static void map_memory(void)
{
    struct sigaction action;
    uint8_t *pages = mmap(NULL, 2 * GIGABYTES + PAGE, PROT_NONE, MAP_PRIVATE | MAP_ANONYMOUS | MAP_NORESERVE, -1, 0);
    page = pages + GIGABYTES;
    untouchable = pages + GIGABYTES / 2;
    memset(&action, 0, sizeof action);
    action.sa_sigaction = on_fault;
    action.sa_flags = SA_SIGINFO;
    if (pages == MAP_FAILED || mprotect(page, PAGE, PROT_READ | PROT_WRITE) != 0 ||
        sigaction(SIGSEGV, &action, NULL) != 0 || sigaction(SIGBUS, &action, NULL) != 0) {
        perror("limits: mmap");
        exit(1);
    }
}

/* Memory that nobody may touch, of any length. */
static struct slice unreadable(size_t length)
{
    struct slice s = {untouchable, length};
    return s;
}

/* The bytes stand at the page's end; what is said to follow them cannot be touched. */
static struct slice at_end(const uint8_t *bytes, size_t there, size_t length)
{
    struct slice s = {page + PAGE - there, length};
    memcpy(s.bytes, bytes, there);
    return s;
}

/* The bytes stand at the page's start; what is said to come before them cannot be touched. */
static struct slice at_start(const uint8_t *bytes, size_t there, size_t length)
{
    struct slice s = {page + there - length, length};
    memcpy(page, bytes, there);
    return s;
}

/* Lengths that no list may have: over `most` numbers, or not in eights. */
static size_t wrong_length(int i, size_t most)
{
    const size_t lengths[] = {
        8 * (most + 1), 8 * (most + 2), 8 * most + 1, GIGABYTES / 2, GIGABYTES / 2 - 8, 1, 7, 15, 17,
        LONGEST, LONGEST - 7, LONGEST - 6, (size_t)1 << 32, ((size_t)1 << 32) + 16, ((size_t)1 << 35) + 16,
    };
    return (size_t)i < sizeof lengths / sizeof lengths[0] ? lengths[i] : 0;
}

/* Of the moduli and offsets n numbers are read, however long the list is. */
static void numbers_behind_the_nth(void)
{
    static const uint64_t moduli[10] = {100, 10, 1, 1, 1, 1, 1, 1, 1, 1}, offsets[10];
    static uint8_t five[] = {'5'};
    uint8_t first[80], second[80];
    now = "moduli or offsets: at most n numbers are read";
    for (size_t n = 1; n <= 10; n++) {
        const size_t lengths[] = {8 * n, 8 * n + 8, 80, 88, GIGABYTES / 2, LONGEST - 7};
        for (size_t i = 0; i < sizeof lengths / sizeof lengths[0]; i++)
            for (int list = 0; list < 2; list++) {
                struct arguments a = good();
                a.n = n;
                a.moduli = list_of(first, moduli, n);
                a.offsets = list_of(second, offsets, n);
                if (list == 0)
                    a.moduli = at_end(first, 8 * n, lengths[i]);
                else
                    a.offsets = at_end(second, 8 * n, lengths[i]);
                if (n == 2)
                    expect_answers(&a);
                a.text.bytes = five;
                a.text.length = sizeof five;
                expect(read_text, &a, n == 1 ? 5 : 50);
            }
    }
}

/* The lists hold n good numbers, or n is 2 in its low bits. */
static void n_over_ten(void)
{
    static const struct {
        uint64_t n;
        size_t numbers;
    } wrong[] = {
        {11, 11}, {12, 12}, {256, 258}, {258, 258}, {258, 2},
        {(UINT64_C(1) << 32) + 2, 2}, {(UINT64_C(1) << 61) + 2, 2},
    };
    static uint64_t moduli[258], offsets[258];
    static uint8_t first[8 * 258], second[8 * 258];
    for (size_t i = 0; i < 258; i++)
        moduli[i] = 1;
    moduli[0] = 100;
    moduli[1] = 10;
    now = "n over ten";
    for (size_t i = 0; i < sizeof wrong / sizeof wrong[0]; i++) {
        struct arguments a = good();
        a.moduli = list_of(first, moduli, wrong[i].numbers);
        a.offsets = list_of(second, offsets, wrong[i].numbers);
        expect_answers(&a); /* with n 2 they are good */
        a.n = wrong[i].n;
        expect_all(0, &a, -SCLK_LAYOUT);
    }
}

static void layouts(void)
{
    /* Under n numbers, or not in eights. The last would be long enough if n times 8 were compared in 64 bits. */
    static const struct {
        uint64_t n;
        size_t length;
    } wrong[] = {
        {2, 8}, {2, 15}, {2, 17}, {2, 1}, {2, LONGEST}, {10, 72}, {11, 80}, {UINT64_MAX, 80}, {UINT64_C(1) << 61, 16},
    };
    now = "moduli or offsets not in eights or under n";
    for (size_t i = 0; i < sizeof wrong / sizeof wrong[0]; i++) {
        struct arguments a = good(), b = good();
        a.n = b.n = wrong[i].n;
        a.moduli = unreadable(wrong[i].length);
        b.offsets = unreadable(wrong[i].length);
        if (wrong[i].n > 2) /* the other one is too short then, too */
            a.offsets = b.moduli = unreadable(wrong[i].length);
        expect_all(0, &a, -SCLK_LAYOUT);
        expect_all(0, &b, -SCLK_LAYOUT);
    }

    now = "a layout that is refused, and nothing else to read";
    struct arguments a = good();
    a.delimiter = 257;
    a.starts = a.ends = a.counts = a.times = a.rates = unreadable(GIGABYTES / 2);
    a.text = a.buffer = unreadable(GIGABYTES / 2);
    expect_all(0, &a, -SCLK_LAYOUT);

    numbers_behind_the_nth();
    n_over_ten();
}

static void partitions(void)
{
    now = "partitions of a wrong length";
    for (int i = 0; wrong_length(i, SCLK_MOST_PARTITIONS) > 0; i++) {
        struct slice wrong = unreadable(wrong_length(i, SCLK_MOST_PARTITIONS));
        struct arguments a = good(), b = good(), both = good();
        a.starts = wrong;
        b.ends = wrong;
        both.starts = both.ends = wrong;
        expect_all(WITH_PARTITIONS, &a, -SCLK_PARTITIONS);
        expect_all(WITH_PARTITIONS, &b, -SCLK_PARTITIONS);
        expect_all(WITH_PARTITIONS, &both, -SCLK_PARTITIONS);
    }
}

static void segments(void)
{
    now = "segments of a wrong length";
    for (int i = 0; wrong_length(i, SCLK_MOST_SEGMENTS) > 0; i++) {
        struct slice wrong = unreadable(wrong_length(i, SCLK_MOST_SEGMENTS));
        struct arguments a = good(), b = good(), c = good(), all = good();
        a.counts = wrong;
        b.times = wrong;
        c.rates = wrong;
        all.counts = all.times = all.rates = wrong;
        expect_all(WITH_SEGMENTS, &a, -SCLK_SEGMENTS);
        expect_all(WITH_SEGMENTS, &b, -SCLK_SEGMENTS);
        expect_all(WITH_SEGMENTS, &c, -SCLK_SEGMENTS);
        expect_all(WITH_SEGMENTS, &all, -SCLK_SEGMENTS);
    }
}

static void texts(void)
{
    static const size_t lengths[] = {97, 98, 256 + 3, 65536 + 3, ((size_t)1 << 32) + 3, GIGABYTES / 2, LONGEST};
    now = "a text over 96 bytes";
    for (size_t i = 0; i < sizeof lengths / sizeof lengths[0]; i++) {
        struct arguments a = good();
        a.text = unreadable(lengths[i]);
        expect(read_text, &a, -SCLK_TEXT_TOO_LONG);
        expect(read_stamp, &a, -SCLK_TEXT_TOO_LONG);
    }
}

static void messages(void)
{
    static const uint8_t text[] = {'1', '/', '5', '.', '3', 0, 5};
    static const uint8_t zero[] = {0, 0}, long_one[] = {0, 97}, longest[] = {255, 255}, five[] = {0, 5};
    static const size_t payloads[] = {1, 2, 95, 4096, GIGABYTES / 2};

    now = "a message's payload";
    for (size_t i = 0; i < sizeof payloads / sizeof payloads[0]; i++) {
        struct arguments a = good();
        a.message = at_start(text, sizeof text, payloads[i] + sizeof text);
        expect(read_message, &a, 53);
    }

    now = "a message that is refused for its trailer";
    for (size_t i = 0; i < sizeof payloads / sizeof payloads[0]; i++) {
        struct arguments a = good();
        /* 21, 22, 23 come before the tables: nothing else is read. */
        a.n = 0;
        a.moduli = a.offsets = a.starts = a.ends = unreadable(GIGABYTES / 2);
        a.message = at_start(zero, 2, payloads[i] + 2);
        expect(read_message, &a, -SCLK_MESSAGE_WITHOUT_TEXT);
        a.message = at_start(long_one, 2, payloads[i] + 2);
        expect(read_message, &a, -SCLK_MESSAGE_TRAILER);
        a.message = at_start(longest, 2, payloads[i] + 2);
        expect(read_message, &a, -SCLK_MESSAGE_TRAILER);
        a.message = at_start(five, 2, 4 + 2);
        expect(read_message, &a, -SCLK_MESSAGE_TRAILER);
        a.message = unreadable(i % 2);
        expect(read_message, &a, -SCLK_MESSAGE_TOO_SHORT);
    }
}

static void buffers(void)
{
    static const uint8_t old[8] = {77, 77, 77, 77, 77, 77, 77, 77};
    static const size_t lengths[] = {GIGABYTES / 2, LONGEST};

    now = "a buffer's rest";
    for (int i = 0; i < 2; i++) {
        struct arguments a = good();
        a.buffer = at_end(old, 4, lengths[i]);
        expect(print_count, &a, 4);
        a.buffer = at_end(old, 6, lengths[i]);
        expect(print_stamp, &a, 6);
        a.buffer = at_end(old, 8, lengths[i]);
        expect(time_of, &a, 0);
    }

    now = "a buffer that is too short";
    struct arguments a = good();
    a.buffer = unreadable(3);
    expect(print_count, &a, -SCLK_BUFFER_TOO_SHORT);
    a.buffer = unreadable(5);
    expect(print_stamp, &a, -SCLK_BUFFER_TOO_SHORT);
    a.buffer = unreadable(7);
    expect(time_of, &a, -SCLK_BUFFER_TOO_SHORT);
}

int main(void)
{
    map_memory();
    layouts();
    partitions();
    segments();
    texts();
    messages();
    buffers();
    printf("%lu calls at the limits\n", made);
    return 0;
}
