/* Writes the SHA-256 of the input, as 32 bytes, and exits with 0. FIPS 180-4; the numbers are those of its sections.
 * Sums of uint32_t are modulo 2^32, as the standard has them (3.2). */
#include "machine.h"

#define BLOCK_BYTES 64u
/* A message's length in bits ends its last block, in so many bytes (5.1.1). */
#define LENGTH_BYTES 8u

/* The constants K (4.2.2): the first 32 bits of the fractional parts of the cube roots of the first 64 primes. */
static const uint32_t constants[64] = {
    0x428a2f98, 0x71374491, 0xb5c0fbcf, 0xe9b5dba5, 0x3956c25b, 0x59f111f1, 0x923f82a4, 0xab1c5ed5,
    0xd807aa98, 0x12835b01, 0x243185be, 0x550c7dc3, 0x72be5d74, 0x80deb1fe, 0x9bdc06a7, 0xc19bf174,
    0xe49b69c1, 0xefbe4786, 0x0fc19dc6, 0x240ca1cc, 0x2de92c6f, 0x4a7484aa, 0x5cb0a9dc, 0x76f988da,
    0x983e5152, 0xa831c66d, 0xb00327c8, 0xbf597fc7, 0xc6e00bf3, 0xd5a79147, 0x06ca6351, 0x14292967,
    0x27b70a85, 0x2e1b2138, 0x4d2c6dfc, 0x53380d13, 0x650a7354, 0x766a0abb, 0x81c2c92e, 0x92722c85,
    0xa2bfe8a1, 0xa81a664b, 0xc24b8b70, 0xc76c51a3, 0xd192e819, 0xd6990624, 0xf40e3585, 0x106aa070,
    0x19a4c116, 0x1e376c08, 0x2748774c, 0x34b0bcb5, 0x391c0cb3, 0x4ed8aa4a, 0x5b9cca4f, 0x682e6ff3,
    0x748f82ee, 0x78a5636f, 0x84c87814, 0x8cc70208, 0x90befffa, 0xa4506ceb, 0xbef9a3f7, 0xc67178f2,
};

/* The hash value H, at first H(0) (5.3.3): the same bits of the square roots of the first eight primes. */
static uint32_t hash[8] = {
    0x6a09e667, 0xbb67ae85, 0x3c6ef372, 0xa54ff53a, 0x510e527f, 0x9b05688c, 0x1f83d9ab, 0x5be0cd19,
};

/* ROTR (3.2) */
static uint32_t rotated(uint32_t x, int places)
{
    return x >> places | x << (32 - places);
}

/* The functions of 4.1.2: Ch, Maj, the two large sigmas and the two small ones. */
static uint32_t chosen(uint32_t x, uint32_t y, uint32_t z)
{
    return (x & y) ^ (~x & z);
}

static uint32_t majority(uint32_t x, uint32_t y, uint32_t z)
{
    return (x & y) ^ (x & z) ^ (y & z);
}

static uint32_t large_sigma_0(uint32_t x)
{
    return rotated(x, 2) ^ rotated(x, 13) ^ rotated(x, 22);
}

static uint32_t large_sigma_1(uint32_t x)
{
    return rotated(x, 6) ^ rotated(x, 11) ^ rotated(x, 25);
}

static uint32_t small_sigma_0(uint32_t x)
{
    return rotated(x, 7) ^ rotated(x, 18) ^ x >> 3;
}

static uint32_t small_sigma_1(uint32_t x)
{
    return rotated(x, 17) ^ rotated(x, 19) ^ x >> 10;
}

/* The word in four bytes, the highest first (3.1). Read by bytes, since a word at another address than a multiple of 4
 * would trap. */
static uint32_t word_at(const uint8_t *bytes)
{
    return (uint32_t)bytes[0] << 24 | (uint32_t)bytes[1] << 16 | (uint32_t)bytes[2] << 8 | bytes[3];
}

/* The hash value after one more block of the message (6.2.2). */
static void add_block(const uint8_t *block)
{
    uint32_t schedule[64];
    for (int t = 0; t < 16; t += 1)
        schedule[t] = word_at(block + 4 * t);
    for (int t = 16; t < 64; t += 1)
        schedule[t] = small_sigma_1(schedule[t - 2]) + schedule[t - 7]
            + small_sigma_0(schedule[t - 15]) + schedule[t - 16];

    uint32_t a = hash[0], b = hash[1], c = hash[2], d = hash[3];
    uint32_t e = hash[4], f = hash[5], g = hash[6], h = hash[7];
    for (int t = 0; t < 64; t += 1) {
        uint32_t first = h + large_sigma_1(e) + chosen(e, f, g) + constants[t] + schedule[t];
        uint32_t second = large_sigma_0(a) + majority(a, b, c);
        h = g;
        g = f;
        f = e;
        e = d + first;
        d = c;
        c = b;
        b = a;
        a = first + second;
    }
    hash[0] += a;
    hash[1] += b;
    hash[2] += c;
    hash[3] += d;
    hash[4] += e;
    hash[5] += f;
    hash[6] += g;
    hash[7] += h;
}

int main(void)
{
    const uint8_t *message = input_bytes();
    uint32_t length = input_length();
    uint32_t whole = length - length % BLOCK_BYTES;
    for (uint32_t at = 0; at < whole; at += BLOCK_BYTES)
        add_block(message + at);

    /* The rest, the bit 1, zeros, and the length in bits, the highest byte first, in one block or in two (5.1.1). */
    uint8_t last[2 * BLOCK_BYTES] = {0};
    uint32_t rest = length - whole;
    uint32_t padded = rest + 1 + LENGTH_BYTES <= BLOCK_BYTES ? BLOCK_BYTES : 2 * BLOCK_BYTES;
    memcpy(last, message + whole, rest);
    last[rest] = 0x80;
    /* An input has at most 2^20 bytes, so its length in bits fits four bytes; the four before them are 0. */
    for (uint32_t k = 0; k < 4; k += 1)
        last[padded - 1 - k] = (uint8_t)(length * 8 >> 8 * k);
    for (uint32_t at = 0; at < padded; at += BLOCK_BYTES)
        add_block(last + at);

    for (int k = 0; k < 8; k += 1) {
        for (int shift = 24; shift >= 0; shift -= 8)
            put_byte((uint8_t)(hash[k] >> shift));
    }
    return 0;
}
