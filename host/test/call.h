/* One call of the library: its function, and its arguments as a line of the protocol gives them. */
#ifndef CALL_H
#define CALL_H

#include <stddef.h>
#include <stdint.h>

#define MOST_ARGUMENTS 11
#define LONGEST_LINE (2 * 1024 * 1024)
#define LONGEST_SLICE (LONGEST_LINE / 2)

enum function { READ_TEXT, READ_STAMP, READ_MESSAGE, PRINT_COUNT, PRINT_STAMP, TIME_OF, COUNT_AT, FUNCTIONS };

enum kind { NUMBER, TIME, SLICE, BUFFER };

struct argument {
    enum kind kind;
    uint64_t number;      /* of a NUMBER; of a TIME its bits */
    const uint8_t *bytes; /* of a SLICE or BUFFER: what it holds before the call */
    size_t length;
};

struct call {
    enum function function;
    int count; /* of arguments */
    struct argument arguments[MOST_ARGUMENTS];
};

/* Reads a line. The bytes of slices and buffers stay in memory of this module until the next line. 0 for a bad line. */
int read_call(const char *line, size_t length, struct call *call);

/* The buffer of a call, NULL where it has none. */
const struct argument *buffer_of(const struct call *call);

/* The library under test, and one whose functions do nothing. */
struct library;
extern const struct library the_library, no_library;

/* Makes the call; at[i] is where the bytes of argument i are. */
int64_t make_call(const struct library *to, const struct call *call, uint8_t *const at[]);

#endif
