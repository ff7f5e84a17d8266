#include "input.h"

#include <errno.h>
#include <stdarg.h>
#include <stdio.h>
#include <stdlib.h>
#include <string.h>

int complain(const char *format, ...)
{
    va_list values;

    fflush(stdout);
    fputs("ngulo: ", stderr);
    va_start(values, format);
    vfprintf(stderr, format, values);
    va_end(values);
    fputc('\n', stderr);
    return STATUS_USAGE;
}

int finish(int status)
{
    static int said;

    errno = 0;
    if (fflush(stdout) == 0 && !ferror(stdout)) {
        return status;
    }
    if (!said) {
        complain("standard output: cannot write: %s", errno != 0 ? strerror(errno) : "an earlier write failed");
    }
    said = 1;
    return STATUS_USAGE;
}

const char *shown_name(const char *path)
{
    return strcmp(path, "-") == 0 ? "standard input" : path;
}

/* Room for at least one more byte. */
static int grow(struct bytes *held, size_t *capacity, const char *name)
{
    size_t wanted = *capacity == 0 ? 4096 : 2 * *capacity;
    uint8_t *data;

    if (held->length < *capacity) {
        return STATUS_DONE;
    }
    if (held->length >= INPUT_LIMIT) {
        return complain("%s: 1 GiB or longer", name);
    }
    data = (uint8_t *)realloc(held->data, wanted);
    if (data == NULL) {
        return complain("%s: out of memory", name);
    }
    held->data = data;
    *capacity = wanted;
    return STATUS_DONE;
}

static int read_stream(FILE *stream, const char *name, struct bytes *into)
{
    size_t capacity = 0;
    size_t taken;

    into->data = NULL;
    into->length = 0;
    do {
        if (grow(into, &capacity, name) != STATUS_DONE) {
            return STATUS_USAGE;
        }
        taken = fread(into->data + into->length, 1, capacity - into->length, stream);
        into->length += taken;
    } while (taken > 0);
    if (ferror(stream)) {
        return complain("%s: cannot read: %s", name, strerror(errno));
    }
    return STATUS_DONE;
}

static void drop(struct bytes *held)
{
    free(held->data);
    held->data = NULL;
    held->length = 0;
}

int read_bytes(const char *path, struct bytes *into)
{
    int from_stdin = strcmp(path, "-") == 0;
    FILE *stream = from_stdin ? stdin : fopen(path, "rb");
    int status;

    if (stream == NULL) {
        return complain("%s: cannot open: %s", path, strerror(errno));
    }
    status = read_stream(stream, shown_name(path), into);
    if (!from_stdin) {
        fclose(stream);
    }
    if (status != STATUS_DONE) {
        drop(into);
    }
    return status;
}

/* The value of a hex digit, or -1. */
static int digit_value(int c)
{
    if (c >= '0' && c <= '9') {
        return c - '0';
    }
    if (c >= 'a' && c <= 'f') {
        return c - 'a' + 10;
    }
    if (c >= 'A' && c <= 'F') {
        return c - 'A' + 10;
    }
    return -1;
}

static int is_blank(int c)
{
    return c == ' ' || (c >= '\t' && c <= '\r');
}

/* A place in hex text. */
struct cursor {
    const uint8_t *text;
    size_t length;
    size_t at;
    size_t line;
    size_t line_start;
};

static struct cursor start_of(const struct bytes *held)
{
    struct cursor c;

    c.text = held->data;
    c.length = held->length;
    c.at = 0;
    c.line = 1;
    c.line_start = 0;
    return c;
}

/* Past white space and comments. */
static void skip_blank(struct cursor *c)
{
    int comment = 0;

    for (; c->at < c->length; c->at += 1) {
        int now = c->text[c->at];

        if (now == '#') {
            comment = 1;
        }
        if (now == '\n') {
            comment = 0;
            c->line += 1;
            c->line_start = c->at + 1;
        }
        if (!comment && !is_blank(now)) {
            return;
        }
    }
}

static int bad_digit(const struct cursor *c, const char *name)
{
    unsigned found = c->text[c->at];
    unsigned long column = (unsigned long)(c->at - c->line_start + 1);

    if (found > ' ' && found < 127) {
        return complain("%s: line %lu, column %lu: '%c' is not a hex digit", name, (unsigned long)c->line, column,
                        (int)found);
    }
    return complain("%s: line %lu, column %lu: byte %02x is not a hex digit%s", name, (unsigned long)c->line, column,
                    found, found < ' ' ? ": is it a raw block, without --hex?" : "");
}

/* The byte at the cursor, which then stands after it. */
static int take_pair(struct cursor *c, const char *name, uint8_t *into)
{
    size_t first = c->at;
    int high = digit_value(c->text[first]);
    int low;

    if (high < 0) {
        return bad_digit(c, name);
    }
    c->at += 1;
    if (c->at == c->length || is_blank(c->text[c->at]) || c->text[c->at] == '#') {
        return complain("%s: line %lu, column %lu: one hex digit where a byte has two", name, (unsigned long)c->line,
                        (unsigned long)(first - c->line_start + 1));
    }
    low = digit_value(c->text[c->at]);
    if (low < 0) {
        return bad_digit(c, name);
    }
    c->at += 1;
    *into = (uint8_t)(16 * high + low);
    return STATUS_DONE;
}

/* Hex text to bytes, in place: the text is always ahead of the bytes. */
static int decode_hex(struct bytes *held, const char *name)
{
    struct cursor c = start_of(held);
    size_t length = 0;

    for (skip_blank(&c); c.at < c.length; skip_blank(&c)) {
        if (take_pair(&c, name, &held->data[length]) != STATUS_DONE) {
            return STATUS_USAGE;
        }
        length += 1;
    }
    held->length = length;
    return STATUS_DONE;
}

int looks_like_hex(const struct bytes *held)
{
    struct cursor c = start_of(held);
    int found = 0;

    for (skip_blank(&c); c.at < c.length; skip_blank(&c)) {
        if (digit_value(c.text[c.at]) < 0) {
            return 0;
        }
        found = 1;
        c.at += 1;
    }
    return found;
}

int read_block(const char *path, int hex, struct bytes *into)
{
    int status = read_bytes(path, into);

    if (status == STATUS_DONE && hex) {
        status = decode_hex(into, shown_name(path));
        if (status != STATUS_DONE) {
            drop(into);
        }
    }
    return status;
}

int parse_number(const char *text, uint64_t *into)
{
    unsigned base = 10;
    uint64_t value = 0;

    if (text[0] == '0' && (text[1] == 'x' || text[1] == 'X')) {
        base = 16;
        text += 2;
    }
    if (*text == '\0') {
        return 0;
    }
    for (; *text != '\0'; text += 1) {
        int digit = digit_value((unsigned char)*text);

        if (digit < 0 || (unsigned)digit >= base || value > (UINT64_MAX - (unsigned)digit) / base) {
            return 0;
        }
        value = base * value + (unsigned)digit;
    }
    *into = value;
    return 1;
}
