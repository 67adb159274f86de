/* What a plain program does at least with a feed: finds its lines, decodes the hex of each connect, and hashes the
 * first 80 bytes and what stands behind them, each twice by SHA-256. It checks nothing else. It shows how many lines it met and the last hash. */
#include <stdint.h>
#include <stdio.h>
#include <stdlib.h>
#include <string.h>
#include <unistd.h>

static const uint32_t K[64] = {
    0x428a2f98, 0x71374491, 0xb5c0fbcf, 0xe9b5dba5, 0x3956c25b, 0x59f111f1, 0x923f82a4, 0xab1c5ed5,
    0xd807aa98, 0x12835b01, 0x243185be, 0x550c7dc3, 0x72be5d74, 0x80deb1fe, 0x9bdc06a7, 0xc19bf174,
    0xe49b69c1, 0xefbe4786, 0x0fc19dc6, 0x240ca1cc, 0x2de92c6f, 0x4a7484aa, 0x5cb0a9dc, 0x76f988da,
    0x983e5152, 0xa831c66d, 0xb00327c8, 0xbf597fc7, 0xc6e00bf3, 0xd5a79147, 0x06ca6351, 0x14292967,
    0x27b70a85, 0x2e1b2138, 0x4d2c6dfc, 0x53380d13, 0x650a7354, 0x766a0abb, 0x81c2c92e, 0x92722c85,
    0xa2bfe8a1, 0xa81a664b, 0xc24b8b70, 0xc76c51a3, 0xd192e819, 0xd6990624, 0xf40e3585, 0x106aa070,
    0x19a4c116, 0x1e376c08, 0x2748774c, 0x34b0bcb5, 0x391c0cb3, 0x4ed8aa4a, 0x5b9cca4f, 0x682e6ff3,
    0x748f82ee, 0x78a5636f, 0x84c87814, 0x8cc70208, 0x90befffa, 0xa4506ceb, 0xbef9a3f7, 0xc67178f2,
};

static uint32_t turned(uint32_t x, int n) { return x >> n | x << (32 - n); }

static void compress(uint32_t *state, const uint8_t *block)
{
    uint32_t w[64], v[8];
    for (int i = 0; i < 16; i++)
        w[i] = (uint32_t)block[4 * i] << 24 | (uint32_t)block[4 * i + 1] << 16 | (uint32_t)block[4 * i + 2] << 8 | block[4 * i + 3];
    for (int i = 16; i < 64; i++)
        w[i] = w[i - 16] + (turned(w[i - 15], 7) ^ turned(w[i - 15], 18) ^ w[i - 15] >> 3) + w[i - 7]
            + (turned(w[i - 2], 17) ^ turned(w[i - 2], 19) ^ w[i - 2] >> 10);
    memcpy(v, state, 32);
    for (int i = 0; i < 64; i++) {
        uint32_t a = v[7] + (turned(v[4], 6) ^ turned(v[4], 11) ^ turned(v[4], 25)) + ((v[4] & v[5]) ^ (~v[4] & v[6])) + K[i] + w[i];
        uint32_t b = (turned(v[0], 2) ^ turned(v[0], 13) ^ turned(v[0], 22)) + ((v[0] & v[1]) ^ (v[0] & v[2]) ^ (v[1] & v[2]));
        memmove(v + 1, v, 28);
        v[4] += a;
        v[0] = a + b;
    }
    for (int i = 0; i < 8; i++)
        state[i] += v[i];
}

static void sha256(const uint8_t *bytes, size_t length, uint8_t *digest)
{
    uint32_t state[8] = {0x6a09e667, 0xbb67ae85, 0x3c6ef372, 0xa54ff53a, 0x510e527f, 0x9b05688c, 0x1f83d9ab, 0x5be0cd19};
    uint8_t last[128] = {0};
    size_t whole = length / 64 * 64, rest = length - whole, end = rest < 56 ? 64 : 128;
    for (size_t i = 0; i < whole; i += 64)
        compress(state, bytes + i);
    memcpy(last, bytes + whole, rest);
    last[rest] = 0x80;
    for (int i = 0; i < 8; i++)
        last[end - 1 - i] = (uint8_t)(length * 8 >> (8 * i));
    for (size_t i = 0; i < end; i += 64)
        compress(state, last + i);
    for (int i = 0; i < 32; i++)
        digest[i] = (uint8_t)(state[i / 4] >> (24 - 8 * (i % 4)));
}

static uint8_t line[8000016], block[4000008], digest[32], value[256];

int main(void)
{
    static uint8_t room[65536];
    size_t length = 0, lines = 0;
    memset(value, 0xff, sizeof value);
    for (int i = 0; i < 10; i++)
        value['0' + i] = (uint8_t)i;
    for (int i = 0; i < 6; i++)
        value['a' + i] = value['A' + i] = (uint8_t)(10 + i);
    for (ssize_t n; (n = read(0, room, sizeof room)) > 0;) {
        const uint8_t *at = room, *end = room + n;
        while (at < end) {
            const uint8_t *feed = memchr(at, '\n', (size_t)(end - at));
            size_t part = (size_t)((feed ? feed : end) - at);
            size_t kept = part < sizeof line - length ? part : sizeof line - length;
            memcpy(line + length, at, kept);
            length += kept;
            at += part;
            if (!feed)
                break;
            at++;
            lines++;
            if (length >= 8 && length <= 8000008 && memcmp(line, "connect ", 8) == 0) {
                size_t size = (length - 8) / 2;
                uint8_t bad = 0;
                for (size_t i = 0; i < size; i++) {
                    uint8_t high = value[line[8 + 2 * i]], low = value[line[9 + 2 * i]];
                    bad |= high | low;
                    block[i] = (uint8_t)(high << 4 | low);
                }
                if (!(bad & 0x80) && size >= 80) {
                    sha256(block + 80, size - 80, digest);
                    sha256(digest, 32, digest);
                    sha256(block, 80, digest);
                    sha256(digest, 32, digest);
                }
            }
            length = 0;
        }
    }
    printf("%zu lines, last hash ", lines);
    for (int i = 31; i >= 0; i--)
        printf("%02x", digest[i]);
    printf("\n");
    return 0;
}
