/* Searches for names whose hashes have zeros as their lowest bits.
 *     colliding COUNT BITS
 * Writes COUNT names of 32 bytes, letters, digits and dots, a line each. The hash is that of the program's maps of names:
 * SipHash-1-3 with both keys 0 over the name and one byte 255, its halves joined by exclusive or. The first 24 bytes are
 * the same in all names, so a trial costs the last two words alone. `collide` hashes again what is written. */
#include <stdint.h>
#include <stdio.h>
#include <stdlib.h>

#define FRONT "hostile.hostile.hostile."

struct state { uint64_t v0, v1, v2, v3; };

static uint64_t rotate(uint64_t x, int n) { return x << n | x >> (64 - n); }

static void mix(struct state *s)
{
    s->v0 += s->v1; s->v2 += s->v3;
    s->v1 = rotate(s->v1, 13) ^ s->v0; s->v3 = rotate(s->v3, 16) ^ s->v2;
    s->v0 = rotate(s->v0, 32);
    s->v2 += s->v1; s->v0 += s->v3;
    s->v1 = rotate(s->v1, 17) ^ s->v2; s->v3 = rotate(s->v3, 21) ^ s->v0;
    s->v2 = rotate(s->v2, 32);
}

static void word(struct state *s, uint64_t m)
{
    s->v3 ^= m;
    mix(s);
    s->v0 ^= m;
}

static uint64_t read_word(const char *bytes)
{
    uint64_t m = 0;
    for (int i = 7; i >= 0; i--) m = m << 8 | (unsigned char)bytes[i];
    return m;
}

static uint32_t hash(struct state s, uint64_t last)
{
    word(&s, last);
    word(&s, (uint64_t)33 << 56 | 255);
    s.v2 ^= 255;
    for (int i = 0; i < 3; i++) mix(&s);
    uint64_t h = s.v0 ^ s.v1 ^ s.v2 ^ s.v3;
    return (uint32_t)(h ^ h >> 32);
}

/* The next text of letters and digits, the first of which counts fastest. */
static void next(char *tail)
{
    while (*tail == 'z') *tail++ = '0';
    if (*tail == '9') *tail = 'A';
    else if (*tail == 'Z') *tail = 'a';
    else ++*tail;
}

int main(int argc, char **argv)
{
    if (argc != 3) return 2;
    long count = atol(argv[1]);
    uint32_t mask = ((uint32_t)1 << atol(argv[2])) - 1;
    struct state front = { 0x736f6d6570736575, 0x646f72616e646f6d, 0x6c7967656e657261, 0x7465646279746573 };
    for (int i = 0; i < 24; i += 8) word(&front, read_word(FRONT + i));
    for (char tail[9] = "00000000"; count > 0; next(tail)) {
        if (hash(front, read_word(tail)) & mask) continue;
        printf(FRONT "%s\n", tail);
        count--;
    }
    return 0;
}
