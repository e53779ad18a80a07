/* Writes numbers, reads them back and prints what it got; then two inputs that are refused. */
#include <inttypes.h>
#include <stdio.h>

#include "spop.h"

static void show(const uint8_t *bytes, uint64_t length)
{
    for (uint64_t i = 0; i < length; i++)
        printf("%02x", bytes[i]);
}

static void there_and_back(uint64_t n)
{
    uint8_t bytes[10];
    uint64_t written, used, value;

    if (spop_encode_varint(n, bytes, sizeof bytes, &written) != SPOP_DONE) {
        printf("%" PRIu64 " does not fit\n", n);
        return;
    }
    printf("%" PRIu64 " is ", n);
    show(bytes, written);
    if (spop_decode_varint(bytes, written, &value, &used) == SPOP_DONE)
        printf(", read back as %" PRIu64 " from %" PRIu64 " of %" PRIu64 " bytes\n", value, used, spop_varint_len(n));
    else
        printf(", and does not read back\n");
}

static void refused(const uint8_t *bytes, size_t length)
{
    uint64_t value, at;
    uint64_t number = spop_decode_varint(bytes, length, &value, &at);

    show(bytes, length);
    printf(" is answered %" PRIu64 " at %" PRIu64 ": %s\n", number, at, spop_refusal_text(number));
}

int main(void)
{
    static const uint64_t numbers[] = {0, 239, 240, 2287, 2288, 264431, 264432, UINT64_MAX};
    static const uint8_t cut[] = {0xf0, 0x80};
    static const uint8_t large[] = {0xf0, 0x80, 0x80, 0x80, 0x80, 0x80, 0x80, 0x80, 0x80, 0x0f};

    for (size_t i = 0; i < SPOP_COUNT(numbers); i++)
        there_and_back(numbers[i]);
    refused(cut, sizeof cut);
    refused(large, sizeof large);
    return 0;
}
