/*
 * Prints a deck whose COUNT names all fall on one of the 2^BITS-th part of the places of a table whose hash has no keys:
 * of SipHash-1-3 with the keys 0 and 0, of a name's six bytes and the byte 255, folded to 32 bits, the lowest BITS bits
 * are 0. With 0 bits it is a deck of the same form with ordinary names.
 *
 *     cc -O2 -o /tmp/colliding bench/colliding.c && /tmp/colliding 80000 12 > /tmp/colliding.f
 */
#include <stdint.h>
#include <stdio.h>
#include <stdlib.h>

#define TURNED(x, b) (((x) << (b)) | ((x) >> (64 - (b))))
#define ROUND()                                                                   \
    do {                                                                          \
        v0 += v1, v1 = TURNED(v1, 13), v1 ^= v0, v0 = TURNED(v0, 32), v2 += v3;    \
        v3 = TURNED(v3, 16), v3 ^= v2, v0 += v3, v3 = TURNED(v3, 21), v3 ^= v0;    \
        v2 += v1, v1 = TURNED(v1, 17), v1 ^= v2, v2 = TURNED(v2, 32);              \
    } while (0)

/* The names that are tried: a letter of an integer, and five digits to the base 36. */
static const char DIGITS[] = "0123456789ABCDEFGHIJKLMNOPQRSTUVWXYZ";
static const long NAMES = 6L * 36 * 36 * 36 * 36 * 36;

static void spell(long number, char *name) {
    for (int at = 5; at > 0; at--) {
        name[at] = DIGITS[number % 36];
        number /= 36;
    }
    name[0] = "IJKLMN"[number];
    name[6] = 0;
}

static uint64_t hash_of(const char *name) {
    uint64_t last = (uint64_t)255 << 48 | (uint64_t)7 << 56;
    for (int at = 0; at < 6; at++)
        last |= (uint64_t)(unsigned char)name[at] << 8 * at;
    uint64_t v0 = 0x736f6d6570736575, v1 = 0x646f72616e646f6d, v2 = 0x6c7967656e657261, v3 = 0x7465646279746573;
    v3 ^= last;
    ROUND();
    v0 ^= last;
    v2 ^= 0xff;
    ROUND();
    ROUND();
    ROUND();
    uint64_t hash = v0 ^ v1 ^ v2 ^ v3;
    return (hash ^ hash >> 32) & 0xffffffff;
}

int main(int argc, char **argv) {
    if (argc != 3) {
        fprintf(stderr, "colliding COUNT BITS\n");
        return 2;
    }
    long count = atol(argv[1]), found = 0;
    uint64_t mask = ((uint64_t)1 << atoi(argv[2])) - 1;
    puts("      SUBROUTINE P\nC$ INPUT T\nC$ OUTPUT T");
    for (long number = 0; found < count && number < NAMES; number++) {
        char name[7];
        spell(number, name);
        if (hash_of(name) & mask)
            continue;
        printf(found % 8 ? ",%s" : "      INTEGER %s", name);
        found++;
        if (found % 8 == 0 || found == count)
            putchar('\n');
    }
    puts("      RETURN\n      END");
    return found < count;
}
