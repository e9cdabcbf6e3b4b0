/* Names of seven small letters whose hashes by SipHash-1-3 with keys of zero, as the standard library makes them of a
   text (its bytes, then 0xff), agree in the low BITS bits of (h ^ h >> 32), by which an index table chooses the first
   group. cc -O2 -o colliding_names colliding_names.c; ./colliding_names COUNT BITS > names (28000 16: a minute or two) */
#include <stdint.h>
#include <stdio.h>
#include <stdlib.h>
#define R(x, b) (((x) << (b)) | ((x) >> (64 - (b))))
#define ROUND do { v0 += v1; v2 += v3; v1 = R(v1, 13) ^ v0; v3 = R(v3, 16) ^ v2; v0 = R(v0, 32); \
  v2 += v1; v0 += v3; v1 = R(v1, 17) ^ v2; v3 = R(v3, 21) ^ v0; v2 = R(v2, 32); } while (0)
static uint64_t hash(const unsigned char *s) { /* seven bytes and 0xff are one word, and the last word has the length 8 */
  uint64_t v0 = 0x736f6d6570736575, v1 = 0x646f72616e646f6d, v2 = 0x6c7967656e657261, v3 = 0x7465646279746573, m = 0xffULL << 56;
  for (int i = 0; i < 7; i++) m |= (uint64_t)s[i] << (8 * i);
  v3 ^= m; ROUND; v0 ^= m;
  m = 8ULL << 56;
  v3 ^= m; ROUND; v0 ^= m;
  v2 ^= 0xff; ROUND; ROUND; ROUND;
  return v0 ^ v1 ^ v2 ^ v3;
}
int main(int argc, char **argv) {
  long count = argc > 1 ? atol(argv[1]) : 7000, bits = argc > 2 ? atol(argv[2]) : 13;
  uint64_t mask = (1ULL << bits) - 1;
  for (uint64_t n = 0; count > 0; n++) {
    unsigned char s[8] = {0};
    uint64_t k = n;
    for (int i = 6; i >= 0; i--) { s[i] = 'a' + k % 26; k /= 26; }
    uint64_t h = hash(s);
    if (((h ^ h >> 32) & mask) == 0) { puts((char *)s); count--; }
  }
}
