/* The same calls once each, as a program with no library, for a machine that runs x86-64 code by emulation only.
   Its exit status is 0 where both ways leave the same. */
typedef unsigned long size;
size stores_write_64(unsigned char *, size, size, const unsigned short *, size);
size stores_read_64(const unsigned char *, size, size, size, unsigned short *, size);
void plain_write(unsigned char *, size, const unsigned short *, size);
void plain_read(const unsigned char *, size, unsigned short *, size);

static unsigned char proved[1024], plain[1024];
static unsigned short words[32], proved_out[32], plain_out[32];

void _start(void) {
    long bad = 0;
    for (int i = 0; i < 32; i++)
        words[i] = i * 2053 + 517;
    bad |= stores_write_64(proved, 1024, 128, words, 32) != 32;
    plain_write(plain + 128, 64, words, 32);
    bad |= stores_read_64(proved, 1024, 1024, 2, proved_out, 32) != 32;
    plain_read(plain + 128, 64, plain_out, 32);
    for (int i = 0; i < 1024; i++)
        bad |= proved[i] != plain[i];
    for (int i = 0; i < 32; i++)
        bad |= proved_out[i] != words[i] || plain_out[i] != words[i];
    __asm__ volatile("syscall" : : "a"(60), "D"(bad));
    for (;;)
        ;
}
