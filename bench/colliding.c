/* Prints so many numbers, below a bound, that a hash table with a fixed seed puts into one place: colliding COUNT BITS MOST
 * [FIRST | each]. The hash is the default one of the toolchain's tables of 64-bit keys, or of pairs of a 32-bit number, FIRST, and
 * such a key; its low BITS bits are 0 for each number printed. With `each`, the keys are variants with the tag 1, a 32-bit number
 * and a 64-bit one: for each k less than COUNT, the least number is printed that collides in the variant with k.
 */
#include <stdint.h>
#include <stdio.h>
#include <stdlib.h>
#include <string.h>

static uint64_t folded(uint64_t state, uint64_t key, uint64_t bytes) {
    unsigned __int128 product = (unsigned __int128)(key ^ state) * (0x9e3779b97f4a7c15u ^ (2 * bytes));
    return (uint64_t)product ^ (uint64_t)(product >> 64);
}

static uint32_t hash_of(uint64_t state, uint64_t key) {
    uint64_t hash = folded(state, key, 8);
    return (uint32_t)(hash ^ (hash >> 32));
}

static int each(uint64_t count, uint32_t mask, uint64_t most) {
    uint64_t tagged = folded(0x243f6a8885a308d3u, 1, 8);
    for (uint64_t k = 0; k < count; k++) {
        uint64_t state = folded(tagged, k | k << 32, 4), key = 1;
        while (key < most && (hash_of(state, key) & mask) != 0)
            key++;
        if (key == most)
            return 1;
        printf("%llu\n", (unsigned long long)key);
    }
    return 0;
}

int main(int words, char **word) {
    if (words != 4 && words != 5)
        return 2;
    uint64_t left = strtoull(word[1], NULL, 10), most = strtoull(word[3], NULL, 10);
    uint32_t mask = (UINT32_C(1) << atoi(word[2])) - 1;
    uint64_t state = 0x243f6a8885a308d3u;
    if (words == 5 && strcmp(word[4], "each") == 0)
        return each(left, mask, most);
    if (words == 5) {
        uint64_t first = strtoull(word[4], NULL, 10);
        state = folded(state, first | first << 32, 4);
    }
    for (uint64_t key = 1; key < most && left > 0; key++) {
        if ((hash_of(state, key) & mask) == 0) {
            printf("%llu\n", (unsigned long long)key);
            left--;
        }
    }
    return 0;
}
