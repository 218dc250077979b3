/* A program without a library, of which the samples are recordings: it fills an array of three pages, reads parts of
   it twice, adds one to some of it, and ends. Debian 12's gcc 12.2 made it so:
   gcc -O1 -static -nostdlib -no-pie -fno-pie -fno-stack-protector -o tiny tiny.c */
static volatile int numbers[384];
static volatile long sums[2];
static volatile unsigned char letters[1024];

void _start(void)
{
    for (int n = 0; n < 384; n += 24)
        numbers[n] = n;
    for (int round = 0; round < 2; round++)
        for (int n = 0; n < 384; n += 48)
            sums[round] += numbers[n];
    for (int n = 0; n < 1024; n += 256)
        letters[n] = letters[n + 128];
    *(volatile long *)(letters + 509) = 7;
    for (int n = 0; n < 384; n += 96)
        __asm__ volatile("incl %0" : "+m"(numbers[n]));
    __asm__ volatile("syscall" : : "a"(60), "D"(0));
}
