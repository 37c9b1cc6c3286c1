// The home without the C library: a program of Linux that makes its own calls of the system.
#include "play.h"

static uint8_t script[1 << 20];

static long call(long number, long a, long b, long c)
{
    long result;
    __asm__ volatile("syscall" : "=a"(result) : "a"(number), "D"(a), "S"(b), "d"(c) : "rcx", "r11", "memory");
    return result;
}

void put(const uint8_t *bytes, size_t count)
{
    for (long n; count > 0 && (n = call(1, 1, (long)bytes, count)) > 0; bytes += n)
        count -= n;
}

__attribute__((force_align_arg_pointer)) void _start(void)
{
    size_t size = 0;
    for (long n; (n = call(0, 0, (long)(script + size), sizeof script - size)) > 0;)
        size += n;
    play(script, size);
    call(60, 0, 0, 0);
}
