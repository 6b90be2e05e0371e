/* OakMap for C, the smallest of it. What a caller owes stands at each name; nothing checks it. */
#ifndef OAK_C_H
#define OAK_C_H
#include <stddef.h>
#include <stdint.h>

/* What the calls told. */
typedef struct {
    uint64_t put_at;  /* the number of the write */
    uint64_t got_at;  /* the number that the get told */
    uint64_t length;  /* the length of the value that was got, in bytes */
    uint64_t first;   /* its first eight bytes as a number, the first byte the highest; 0 where it has fewer */
    uint32_t headers; /* headers that are in use at the end */
    uint32_t chunks;  /* and chunks */
} oak_c_told;

enum { OAK_C_DONE, OAK_C_BAD_WORDS, OAK_C_NO_MEMORY, OAK_C_FULL, OAK_C_BUSY };

/* Makes a map of the usual shape, puts the value of the key, gets it, and closes the map. OAK_C_BAD_WORDS comes where the
   key has not 1 to 64 bytes or the value more than 1,024; `told` is as before where the answer is not OAK_C_DONE. The
   bytes are read during the call alone. It takes memory by the program's malloc, waits for nobody, and may be called by
   any thread. */
uint32_t oak_c_put_and_get(const uint8_t *key, size_t key_length, const uint8_t *value, size_t value_length,
                           oak_c_told *told);
#endif
