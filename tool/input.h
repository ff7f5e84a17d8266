/* What the tool and the demonstration read: files, hex text, numbers. Every failure is said on standard error, also to
   write standard output. */
#ifndef NGULO_INPUT_H
#define NGULO_INPUT_H

#include <stddef.h>
#include <stdint.h>

/* Exit statuses. */
enum { STATUS_DONE = 0, STATUS_REFUSED = 1, STATUS_USAGE = 2 };

/* Every file and memory must be shorter: 1 GiB. */
#define INPUT_LIMIT ((uint64_t)1 << 30)

/* Bytes of the heap; the owner frees data. */
struct bytes {
    uint8_t *data;
    size_t length;
};

/* Writes "ngulo: ", the message and a line feed to standard error, after what standard output has so far. Answers
   STATUS_USAGE. */
int complain(const char *format, ...);

/* Flushes standard output. Answers the status given, or STATUS_USAGE if something could not be written; said once. */
int finish(int status);

/* What to call a file in messages: "-" is standard input. */
const char *shown_name(const char *path);

/* The bytes of a file, "-" being standard input. Answers STATUS_DONE or STATUS_USAGE, then with nothing to free. */
int read_bytes(const char *path, struct bytes *into);

/* The same, of a file that holds a block: raw bytes, or hex text. */
int read_block(const char *path, int hex, struct bytes *into);

/* Are these bytes hex digits, white space and comments only, with at least one digit? */
int looks_like_hex(const struct bytes *held);

/* A number, decimal or hex after 0x, below 2^64: 1 if the text is one, else 0. */
int parse_number(const char *text, uint64_t *into);

#endif
