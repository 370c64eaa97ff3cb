// The start entry of the compiled image: it sorts numbers and takes checksums, and leaves five results.
// numbers.h is written by compiled.py: COUNT and NUMBERS.
#include "numbers.h"

typedef unsigned int word;

static union {
    int whole[COUNT];
    short halves[2 * COUNT];
} held = {{NUMBERS}};
static int *const numbers = held.whole;
static const char digits[] = "123456789";
static word table[256];
volatile word results[5];

// CRC-32, the reflected one: a table of the checksums of each byte
static void fill_table(void) {
    for (word byte = 0; byte < 256; byte++) {
        word crc = byte;
        for (int bit = 0; bit < 8; bit++)
            crc = crc & 1 ? crc >> 1 ^ 0xEDB88320u : crc >> 1;
        table[byte] = crc;
    }
}

static word checksum(const void *from, word size) {
    const unsigned char *bytes = from;
    word crc = ~0u;
    while (size-- > 0)
        crc = table[(crc ^ *bytes++) & 255] ^ crc >> 8;
    return ~crc;
}

// Quicksort, which calls itself: its bounds are on the stack
static void sort(int *first, int *last) {
    if (last - first < 1)
        return;
    int middle = first[(last - first) / 2];
    int *low = first, *high = last;
    while (low <= high) {
        while (*low < middle)
            low++;
        while (*high > middle)
            high--;
        if (low <= high) {
            int moved = *low;
            *low++ = *high;
            *high-- = moved;
        }
    }
    sort(first, high);
    sort(low, last);
}

static word is_sorted(void) {
    for (int k = 1; k < COUNT; k++)
        if (numbers[k - 1] > numbers[k])
            return 0;
    return 1;
}

// The high halves of products, signed and not, and the halves of the numbers as they lie in memory
static word products(void) {
    word sum = 0;
    for (int k = 1; k < COUNT; k++) {
        sum += (word)((long long)numbers[k - 1] * numbers[k] >> 32);
        sum ^= (word)((unsigned long long)(word)numbers[k - 1] * (word)numbers[k] >> 32);
        sum += (word)held.halves[k];
    }
    return sum;
}

// Quotients and remainders, signed and not; the divisor is never 0 or -1
static word quotients(void) {
    word sum = 0;
    for (int k = 1; k < COUNT; k++) {
        int divisor = (numbers[k] >> 20) | 2;
        if (divisor == -1)
            divisor = 3;
        sum += (word)(numbers[k - 1] / divisor);
        sum ^= (word)(numbers[k - 1] % divisor);
        sum += (word)numbers[k - 1] / (word)divisor;
        sum ^= (word)numbers[k - 1] % (word)divisor;
    }
    return sum;
}

void start(void) {
    fill_table();
    results[0] = checksum(digits, 9);
    sort(numbers, numbers + COUNT - 1);
    results[1] = checksum(numbers, sizeof held);
    results[2] = is_sorted();
    results[3] = products();
    results[4] = quotients();
}
