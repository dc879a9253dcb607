/* meeting KIND COUNT: prints file numbers, one on each line. KIND `meeting`: they are chosen against a coordinator whose maps
   hash under two words that are 0. All collide in the low 14 bits of the table's hash. KIND `random`: nobody chose them. */
#include <stdint.h>
#include <stdio.h>
#include <stdlib.h>
#include <string.h>

static const uint64_t seed = 0x243f6a8885a308d3, multiplier = 0x9e3779b97f4a7c15, step = 0xd1342543de82ef95;

static uint64_t low_bits(uint64_t number) {
    unsigned __int128 product = (unsigned __int128)(number ^ seed) * multiplier;
    uint64_t hash = (uint64_t)product ^ (uint64_t)(product >> 64);
    return (hash ^ (hash >> 32)) & ((1 << 14) - 1);
}

int main(int count, char **words) {
    if (count != 3) {
        return 2;
    }
    int meets = strcmp(words[1], "meeting") == 0;
    uint64_t number = 0;
    for (long left = atol(words[2]); left > 0;) {
        number += step;
        if (!meets || low_bits(number) == 0) {
            printf("%llu\n", (unsigned long long)number);
            left -= 1;
        }
    }
    return 0;
}
