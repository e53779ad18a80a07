/* What the compiler calls where it copies or clears a block. A static library finds these two in the program's C library; the shared
 * one has them here, hidden, so that it needs no C library and none can put others in their place. Built without the compiler's
 * knowledge of them (-ffreestanding), or each would be a call of itself, and without a header, since the kit's compiler comes with
 * none. */
typedef __SIZE_TYPE__ size_t;

void *memcpy(void *restrict to, const void *restrict from, size_t count);
void *memset(void *to, int byte, size_t count);

void *memcpy(void *restrict to, const void *restrict from, size_t count)
{
    unsigned char *out = to;
    const unsigned char *in = from;

    for (size_t i = 0; i < count; i++)
        out[i] = in[i];
    return to;
}

void *memset(void *to, int byte, size_t count)
{
    unsigned char *out = to;

    for (size_t i = 0; i < count; i++)
        out[i] = (unsigned char)byte;
    return to;
}
