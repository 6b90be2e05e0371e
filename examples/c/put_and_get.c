/* Puts one value into a map and gets it, by the library over C. */
#include "oak_c.h"
#include <inttypes.h>
#include <stdio.h>
#include <string.h>

int main(void) {
    const char *key = "north/09", *value = "eight of them";
    oak_c_told told;
    uint32_t said = oak_c_put_and_get((const uint8_t *)key, strlen(key), (const uint8_t *)value, strlen(value), &told);
    if (said != OAK_C_DONE) {
        printf("refused: %" PRIu32 "\n", said);
        return 1;
    }
    printf("put at %" PRIu64 ", got %" PRIu64 " bytes at %" PRIu64 "\n", told.put_at, told.length, told.got_at);
    printf("the first of them are %016" PRIx64 "\n", told.first);
    printf("%" PRIu32 " header and %" PRIu32 " chunk in use\n", told.headers, told.chunks);
    printf("a key without a byte: %" PRIu32 "\n", oak_c_put_and_get((const uint8_t *)"", 0, (const uint8_t *)"", 0, &told));
    return 0;
}
