/* Records as lines of text: a name, then the body's fields; variables are v and constants $, in decimal. */
#ifndef NGULO_LISTING_H
#define NGULO_LISTING_H

#include "records.h"

/* Room for a record's text. */
#define LISTING_SIZE 64

/* The name of a known kind. */
void list_name(uint8_t kind, char text[LISTING_SIZE]);

/* The text of a record with a known kind. */
void list_record(const uint8_t *record, char text[LISTING_SIZE]);

/* How wide the positions and the texts of a block's ops are, so that what stands beside them lines up. */
struct columns {
    int position;
    int text;
};

struct columns measure_ops(const struct records *block);

/* Prints the position and the text of an op, in its columns. */
void print_op(const struct columns *columns, unsigned position, const uint8_t *op);

/* Below, names are those of globals, from global 0 on, with commas between; NULL for none. */

/* How many names there are. */
unsigned count_names(const char *names);

/* The name of a variable, and its length: 0 if it has none. */
size_t find_name(const char *names, unsigned variable, const char **name);

/* Prints a variable: "v1", with a name "v1 setting". */
void print_variable(unsigned variable, const char *names);

/* Prints the records of a block, one a line, with its named variables beside it after "# ". */
void print_listing(const struct records *block, const char *names);

/*
 * Prints the records up to a place of any bytes, as far as they are whole, each after the place where it starts and an
 * op's position among the ops.
 */
void print_places(const uint8_t *block, size_t length);

#endif
