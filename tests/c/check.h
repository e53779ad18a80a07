/* Checks that count themselves: one that does not hold is a line of its own, and the last line has how many there were. Every
 * program here is C99 and C++11 at once. */
#ifndef CHECK_H
#define CHECK_H

#include <inttypes.h>
#include <stdio.h>
#include <stdlib.h>
#include <string.h>

#include "spop_build.h"

static int checks, failures;

static inline void check(const char *what, bool holds)
{
    checks++;
    if (!holds) {
        failures++;
        printf("%s\n", what);
    }
}

/* Checks a call's number and what goes with it. */
static inline void answered(const char *what, uint64_t number, uint64_t at, uint64_t should_number, uint64_t should_at)
{
    checks++;
    if (number != should_number || at != should_at) {
        failures++;
        printf("%s: it answered %" PRIu64 " with %" PRIu64 ", and not %" PRIu64 " with %" PRIu64 "\n", what, number, at,
               should_number, should_at);
    }
}

static inline unsigned nibble(char digit)
{
    return (unsigned)(digit <= '9' ? digit - '0' : digit - 'a' + 10);
}

/* Puts the bytes that hex digits are, with blanks between them, into out, and gives their count. */
static inline size_t from_hex(const char *hex, uint8_t *out)
{
    size_t len = 0;

    while (*hex != 0) {
        if (*hex == ' ') {
            hex++;
            continue;
        }
        out[len++] = (uint8_t)(16 * nibble(hex[0]) + nibble(hex[1]));
        hex += 2;
    }
    return len;
}

/* Whether bytes are what the hex digits say. */
static inline bool is_hex(const uint8_t *bytes, uint64_t len, const char *hex)
{
    static uint8_t should[4096];

    return from_hex(hex, should) == len && memcmp(bytes, should, len) == 0;
}

/* Whether memory is all of one byte. */
static inline bool is_all(const void *memory, size_t len, uint8_t byte)
{
    const uint8_t *bytes = (const uint8_t *)memory;

    for (size_t i = 0; i < len; i++)
        if (bytes[i] != byte)
            return false;
    return true;
}

/* Memory of exactly so many bytes, so that one byte over is seen where memory is watched. */
static inline void *exactly(size_t len)
{
    void *memory = malloc(len > 0 ? len : 1);

    if (memory == NULL) {
        printf("no memory\n");
        exit(1);
    }
    memset(memory, 0xaa, len > 0 ? len : 1);
    return memory;
}

static inline int checked(void)
{
    printf("%d checks\n", checks);
    return failures > 0;
}

/* The NOTIFY of an upload: stream 1, frame 1, "upload" with slot 3, delay 1250, slot 17, delay -730. */
#define UPLOAD "00000037 03 00000001 01 01 06 75706c6f6164 04 04 736c6f74 03 03 05 64656c6179 04 f23f " \
               "04 736c6f74 03 11 05 64656c6179 04 f6c3fefefefefefefe0e"

#endif
