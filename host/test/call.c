#include "call.h"

#include <string.h>

#include "stitchwold.h"

/* The names of the protocol, and a letter for each argument: n number, t time, s slice, b buffer. */
static const struct {
    const char *name, *form;
} forms[FUNCTIONS] = {
    {"read-text", "nnsss"},
    {"read-stamp", "nnsssss"},
    {"read-message", "nnsssss"},
    {"print-count", "nnssnb"},
    {"print-stamp", "nnssssnb"},
    {"time-of", "nnsssssssnb"},
    {"count-at", "nnssssssst"},
};

static uint8_t decoded[LONGEST_SLICE];

/* Digits only; leading zeros are allowed. */
static int read_number(const char *word, size_t length, uint64_t *number)
{
    uint64_t value = 0;
    if (length == 0)
        return 0;
    for (size_t i = 0; i < length; i++) {
        if (word[i] < '0' || word[i] > '9')
            return 0;
        uint64_t digit = (uint64_t)(word[i] - '0');
        if (value > (UINT64_MAX - digit) / 10)
            return 0;
        value = value * 10 + digit;
    }
    *number = value;
    return 1;
}

static int read_time(const char *word, size_t length, uint64_t *bits)
{
    int negative = length > 0 && word[0] == '-';
    uint64_t size;
    if (!read_number(word + negative, length - (size_t)negative, &size))
        return 0;
    if (size > (uint64_t)INT64_MAX + (uint64_t)negative)
        return 0;
    *bits = negative ? 0 - size : size;
    return 1;
}

static int hex_digit(char c)
{
    if (c >= '0' && c <= '9')
        return c - '0';
    if (c >= 'a' && c <= 'f')
        return c - 'a' + 10;
    return -1;
}

/* Lower-case hex, or `.` for none. */
static int read_bytes(const char *word, size_t length, uint8_t *bytes)
{
    for (size_t i = 0; i < length; i += 2) {
        int high = hex_digit(word[i]), low = hex_digit(word[i + 1]);
        if (high < 0 || low < 0)
            return 0;
        bytes[i / 2] = (uint8_t)(high * 16 + low);
    }
    return 1;
}

static int read_argument(char letter, const char *word, size_t length, size_t *used, struct argument *argument)
{
    if (letter == 'n') {
        argument->kind = NUMBER;
        return read_number(word, length, &argument->number);
    }
    if (letter == 't') {
        argument->kind = TIME;
        return read_time(word, length, &argument->number);
    }
    argument->kind = letter == 's' ? SLICE : BUFFER;
    argument->bytes = decoded + *used;
    argument->length = 0;
    if (length == 1 && word[0] == '.')
        return 1;
    if (length == 0 || length % 2 != 0 || !read_bytes(word, length, decoded + *used))
        return 0;
    argument->length = length / 2;
    *used += argument->length;
    return 1;
}

/* The length of the word at the line's front. */
static size_t word_length(const char *line, size_t length)
{
    const char *blank = memchr(line, ' ', length);
    return blank ? (size_t)(blank - line) : length;
}

int read_call(const char *line, size_t length, struct call *call)
{
    size_t place = word_length(line, length), used = 0;
    int f = 0;
    if (length > LONGEST_LINE)
        return 0;
    while (f < FUNCTIONS && !(strlen(forms[f].name) == place && memcmp(forms[f].name, line, place) == 0))
        f++;
    if (f == FUNCTIONS)
        return 0;
    call->function = (enum function)f;
    call->count = (int)strlen(forms[f].form);
    for (int i = 0; i < call->count; i++) {
        if (place == length)
            return 0;
        place++; /* the blank */
        size_t word = word_length(line + place, length - place);
        if (!read_argument(forms[f].form[i], line + place, word, &used, &call->arguments[i]))
            return 0;
        place += word;
    }
    return place == length;
}

const struct argument *buffer_of(const struct call *call)
{
    const struct argument *last = &call->arguments[call->count - 1];
    return last->kind == BUFFER ? last : NULL;
}

struct library {
    __typeof__(sclk_read_text) *read_text;
    __typeof__(sclk_read_stamp) *read_stamp;
    __typeof__(sclk_read_message) *read_message;
    __typeof__(sclk_print_count) *print_count;
    __typeof__(sclk_print_stamp) *print_stamp;
    __typeof__(sclk_time_of) *time_of;
    __typeof__(sclk_count_at) *count_at;
};

const struct library the_library = {
    sclk_read_text, sclk_read_stamp, sclk_read_message, sclk_print_count, sclk_print_stamp, sclk_time_of, sclk_count_at,
};

static int64_t nothing(void)
{
    return 0;
}

/* On x86-64 the caller takes its arguments off the stack, so a function may leave them all unread. */
#define NOTHING(name) (__typeof__(name) *)(void (*)(void))nothing
const struct library no_library = {
    NOTHING(sclk_read_text),   NOTHING(sclk_read_stamp), NOTHING(sclk_read_message), NOTHING(sclk_print_count),
    NOTHING(sclk_print_stamp), NOTHING(sclk_time_of),    NOTHING(sclk_count_at),
};

int64_t make_call(const struct library *to, const struct call *call, uint8_t *const at[])
{
    const struct argument *a = call->arguments;
#define N(i) a[i].number
#define S(i) at[i], a[i].length
#define LAYOUT N(0), N(1), S(2), S(3)
#define PARTITIONS S(4), S(5)
#define SEGMENTS S(6), S(7), S(8)
    switch (call->function) {
    case READ_TEXT:
        return to->read_text(LAYOUT, S(4));
    case READ_STAMP:
        return to->read_stamp(LAYOUT, PARTITIONS, S(6));
    case READ_MESSAGE:
        return to->read_message(LAYOUT, PARTITIONS, S(6));
    case PRINT_COUNT:
        return to->print_count(LAYOUT, N(4), S(5));
    case PRINT_STAMP:
        return to->print_stamp(LAYOUT, PARTITIONS, N(6), S(7));
    case TIME_OF:
        return to->time_of(LAYOUT, PARTITIONS, SEGMENTS, N(9), S(10));
    default:
        return to->count_at(LAYOUT, PARTITIONS, SEGMENTS, (int64_t)N(9));
    }
}
