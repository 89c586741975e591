/* The test host: reads one call a line from standard input and answers it with one line on standard output.
 *
 *   calls            makes each call once in each placement (memory.h); ends with 1 at the first call that answers
 *                    differently, touches what it may not touch, or takes over 4,096 bytes of stack
 *   calls --plain    makes each call once, in blocks of malloc that are as long as the slices: for valgrind
 *
 * A line has the function's name without `sclk_` and with `-` for `_`, then its arguments, each one word: numbers in
 * decimal, slices and buffers in lower-case hex, `.` for none. The answer is the number that came back, then the
 * buffer afterwards. Empty lines and lines that begin with `#` are passed over; another line is a `bad line`.
 */
#define _GNU_SOURCE
#include <inttypes.h>
#include <signal.h>
#include <stdio.h>
#include <stdlib.h>
#include <string.h>
#include <unistd.h>

#include "call.h"
#include "memory.h"
#include "stack.h"
#include "stitchwold.h"

#define MOST_STACK 4096

/* The call that is being made: also for the handler of faults and for the stack of its own. */
static struct call call;
static unsigned long line_number;
static enum placement placement;
static uint8_t *at[MOST_ARGUMENTS];
static const struct library *library = &the_library;
static int64_t result;

static uint8_t buffer_afterwards[LONGEST_SLICE];
static size_t deepest;

/* A call is not as it should be. The answers before it are written. */
static void fail(const char *why)
{
    fflush(stdout);
    fprintf(stderr, "calls: line %lu, %s: %s\n", line_number, placement_names[placement], why);
    _exit(1);
}

/* The library touched what it may not touch. */
static void on_fault(int signal, siginfo_t *info, void *context)
{
    char where[200], why[300];
    (void)context;
    if (below_stack(info->si_addr))
        snprintf(where, sizeof where, "more than %d bytes of stack", STACK_LENGTH);
    else
        describe(&call, at, info->si_addr, where, sizeof where);
    snprintf(why, sizeof why, "it touched %s (signal %d)", where, signal);
    fail(why);
}

static void watch_faults(void)
{
    static uint8_t own_stack[65536];
    stack_t alternate;
    struct sigaction action;
    memset(&alternate, 0, sizeof alternate);
    alternate.ss_sp = own_stack;
    alternate.ss_size = sizeof own_stack;
    memset(&action, 0, sizeof action);
    action.sa_sigaction = on_fault;
    action.sa_flags = SA_SIGINFO | SA_ONSTACK;
    if (sigaltstack(&alternate, NULL) != 0 || sigaction(SIGSEGV, &action, NULL) != 0 ||
        sigaction(SIGBUS, &action, NULL) != 0) {
        perror("calls: sigaction");
        exit(1);
    }
}

static void work(void)
{
    result = make_call(library, &call, at);
}

/* How deep the stack is before the first instruction of the function, but for the return address. */
static size_t depth_of_caller(void)
{
    static size_t depths[FUNCTIONS];
    size_t *depth = &depths[call.function];
    if (*depth == 0) {
        library = &no_library;
        *depth = run_on_stack(work) - sizeof(void *);
        library = &the_library;
    }
    return *depth;
}

static void work_on_stack(void)
{
    size_t depth_before = depth_of_caller();
    size_t depth = run_on_stack(work) - depth_before;
    if (depth > deepest)
        deepest = depth;
    if (depth > MOST_STACK) {
        char why[100];
        snprintf(why, sizeof why, "it took %zu bytes of stack, more than %d", depth, MOST_STACK);
        fail(why);
    }
}

/* Of the first placement: does the call write what its answer says, and no more? */
static void check_buffer(const struct argument *buffer, const uint8_t *afterwards)
{
    size_t written = 0;
    if (result >= 0)
        written = call.function == TIME_OF ? SCLK_TIME_LENGTH : (size_t)result;
    if (call.function == TIME_OF && result > 0)
        fail("a time was written, and the answer is not 0");
    if (written > buffer->length)
        fail("the answer is longer than the buffer");
    if (memcmp(afterwards + written, buffer->bytes + written, buffer->length - written) != 0)
        fail(result < 0 ? "it refused, and changed the buffer" : "it changed the buffer behind its answer");
}

/* Makes the call in every placement. */
static void answer(void)
{
    const struct argument *buffer = buffer_of(&call);
    int64_t first_result = 0;
    for (int p = 0; p < PLACEMENTS; p++) {
        placement = (enum placement)p;
        place(&call, placement, line_number, at);
        if (placement == SMALL_STACK)
            work_on_stack();
        else
            work();
        const char *why = changed(&call);
        if (why)
            fail(why);
        if (p == 0)
            first_result = result;
        if (result != first_result) {
            char text[100];
            snprintf(text, sizeof text, "it returned %" PRId64 ", and in the first placement %" PRId64, result, first_result);
            fail(text);
        }
        if (buffer && buffer->length > 0) {
            const uint8_t *bytes = at[call.count - 1];
            if (p == 0) {
                check_buffer(buffer, bytes);
                memcpy(buffer_afterwards, bytes, buffer->length);
            }
            if (memcmp(buffer_afterwards, bytes, buffer->length) != 0)
                fail("it wrote other bytes than in the first placement");
        } else if (buffer && p == 0)
            check_buffer(buffer, buffer->bytes);
    }
}

/* Makes the call once. A checker of memory sees a block for each slice, of exactly its length. */
static void answer_plainly(void)
{
    const struct argument *buffer = buffer_of(&call);
    for (int i = 0; i < call.count; i++) {
        const struct argument *a = &call.arguments[i];
        at[i] = NULL;
        if (a->kind == SLICE || a->kind == BUFFER) {
            at[i] = malloc(a->length);
            if (!at[i] && a->length > 0)
                fail("no memory");
            if (a->length > 0)
                memcpy(at[i], a->bytes, a->length);
        }
    }
    work();
    if (buffer && buffer->length > 0)
        memcpy(buffer_afterwards, at[call.count - 1], buffer->length);
    if (buffer)
        check_buffer(buffer, buffer_afterwards);
    for (int i = 0; i < call.count; i++)
        free(at[i]);
}

static void print_answer(void)
{
    static const char digits[] = "0123456789abcdef";
    const struct argument *buffer = buffer_of(&call);
    printf("%" PRId64, result);
    if (buffer) {
        putchar(' ');
        if (buffer->length == 0)
            putchar('.');
        for (size_t i = 0; i < buffer->length; i++) {
            putchar(digits[buffer_afterwards[i] >> 4]);
            putchar(digits[buffer_afterwards[i] & 15]);
        }
    }
    putchar('\n');
}

int main(int count, char **words)
{
    int plain = count == 2 && strcmp(words[1], "--plain") == 0;
    char *line = NULL;
    size_t room = 0;
    ssize_t length;
    unsigned long calls = 0;
    if (count != 1 && !plain) {
        fprintf(stderr, "usage: calls [--plain] <CALLS >ANSWERS\n");
        return 2;
    }
    setvbuf(stdout, NULL, _IOLBF, 1 << 16); /* who asks line by line gets each answer at once */
    if (!plain) {
        map_memory();
        map_stack();
        watch_faults();
    }
    while ((length = getline(&line, &room, stdin)) >= 0) {
        line_number++;
        if (length > 0 && line[length - 1] == '\n')
            length--;
        if (length == 0 || line[0] == '#')
            continue;
        if (!read_call(line, (size_t)length, &call)) {
            puts("bad line");
            continue;
        }
        if (plain)
            answer_plainly();
        else
            answer();
        print_answer();
        calls++;
    }
    free(line);
    if (ferror(stdin) || fflush(stdout) != 0) {
        fprintf(stderr, "calls: reading or writing failed\n");
        return 1;
    }
    if (plain)
        fprintf(stderr, "%lu calls\n", calls);
    else
        fprintf(stderr, "%lu calls, deepest stack %zu bytes\n", calls, deepest);
    return 0;
}
