/* The fuzz target: an input is the number of globals, the number of memory
   bytes, these, and then the block. 254 and 255 mean 65,536 and 65,537 bytes
   of memory, all zero. */

#include <stddef.h>
#include <stdint.h>
#include <stdlib.h>
#include <string.h>

int compare_differs(const uint8_t *block, size_t block_length, const uint64_t *globals, size_t globals_length,
                    const uint8_t *memory, size_t memory_length);

/* One more global than there may be variables, and one more byte than a run takes. */
enum { GLOBALS = 202, MEMORY = 65537 };

/* Copies up to n bytes from the front of the rest; the others stay zero. */
static void take(void *to, size_t n, const uint8_t **rest, size_t *left) {
    size_t some = n < *left ? n : *left;
    memset(to, 0, n);
    memcpy(to, *rest, some);
    *rest += some;
    *left -= some;
}

int LLVMFuzzerTestOneInput(const uint8_t *data, size_t size) {
    static const uint8_t none[1];
    static uint64_t globals[GLOBALS];
    static uint8_t memory[MEMORY];
    uint8_t lengths[2];
    const uint8_t *rest = data ? data : none;
    size_t left = size;
    take(lengths, sizeof lengths, &rest, &left);
    size_t globals_length = lengths[0] % GLOBALS;
    size_t memory_length = lengths[1];
    take(globals, globals_length * sizeof globals[0], &rest, &left);
    if (memory_length < 254) {
        take(memory, memory_length, &rest, &left);
    } else {
        memory_length = MEMORY - (memory_length == 254);
        memset(memory, 0, memory_length);
    }
    if (compare_differs(rest, left, globals, globals_length, memory, memory_length)) {
        abort();
    }
    return 0;
}
