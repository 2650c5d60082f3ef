// The CRC-32 of a million bytes, 0 to 255 again and again, by a table.

#define BYTES 1000000

static unsigned table[256];
static unsigned char bytes[BYTES];

__attribute__((export_name("main"))) int crc(void) {
    for (unsigned n = 0; n < 256; n++) {
        unsigned entry = n;
        for (int bit = 0; bit < 8; bit++) {
            entry = entry & 1 ? entry >> 1 ^ 0xEDB88320u : entry >> 1;
        }
        table[n] = entry;
    }
    for (int i = 0; i < BYTES; i++) {
        bytes[i] = (unsigned char)i;
    }
    unsigned sum = 0xFFFFFFFFu;
    for (int i = 0; i < BYTES; i++) {
        sum = table[(sum ^ bytes[i]) & 0xFF] ^ sum >> 8;
    }
    return (int)~sum;
}
