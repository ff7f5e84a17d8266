/* What the tool writes: bytes as hex text, and files. */
#ifndef NGULO_OUTPUT_H
#define NGULO_OUTPUT_H

#include <stddef.h>
#include <stdint.h>
#include <stdio.h>

/* 16 bytes a line, each two hex digits. */
void put_hex(FILE *stream, const uint8_t *data, size_t length);

/* The same as hex text or as raw bytes. */
void put_block(FILE *stream, int hex, const uint8_t *data, size_t length);

/* Does the path lead to what standard output is: "-", or the same file? */
int is_stdout(const char *path);

/*
 * Writes a block to a file, through a temporary file beside it that takes its place when all is written: no failure
 * leaves half a file or destroys one. A device or pipe is written to itself. Answers a status.
 */
int write_block(const char *path, int hex, const uint8_t *data, size_t length);

#endif
