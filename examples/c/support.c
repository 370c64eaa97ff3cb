/* What gcc may call by itself in any C code. A module gets only those that it needs. */
typedef __SIZE_TYPE__ size_t;

void *memset(void *to, int value, size_t count) {
    for (char *at = to; count > 0; count--)
        *at++ = (char)value;
    return to;
}

void *memcpy(void *restrict to, const void *restrict from, size_t count) {
    const char *source = from;
    for (char *at = to; count > 0; count--)
        *at++ = *source++;
    return to;
}

void *memmove(void *to, const void *from, size_t count) {
    char *at = to;
    const char *source = from;
    if (at < source)
        return memcpy(to, from, count);
    while (count-- > 0)
        at[count] = source[count];
    return to;
}

int memcmp(const void *one, const void *other, size_t count) {
    const unsigned char *a = one, *b = other;
    for (; count > 0; count--, a++, b++)
        if (*a != *b)
            return *a - *b;
    return 0;
}
