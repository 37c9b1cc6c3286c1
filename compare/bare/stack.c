// Prints the most stack that calls of bare.h take: those of the parts that are defined, of REPORT, LOG, MESSAGES,
// FRAMES and COPY. The stack is painted below the place of the call, and then read from its far end up to the first
// byte that changed. A program without the C library.
#include "bare.h"

#define DEEP 16384
#define PAINT 0x5a

static struct bare_queue kept, port, inbox;
static uint8_t room[512], bytes[256];
static size_t len, left;

#ifdef __aarch64__
enum { WRITE = 64, EXIT = 93 };
#define STACK "mov %0, sp"
static long call(long number, long a, long b, long c)
{
    register long x8 __asm__("x8") = number, x0 __asm__("x0") = a, x1 __asm__("x1") = b, x2 __asm__("x2") = c;
    __asm__ volatile("svc #0" : "+r"(x0) : "r"(x8), "r"(x1), "r"(x2) : "memory");
    return x0;
}
#else
enum { WRITE = 1, EXIT = 60 };
#define STACK "mov %%rsp, %0"
static long call(long number, long a, long b, long c)
{
    long result;
    __asm__ volatile("syscall" : "=a"(result) : "a"(number), "D"(a), "S"(b), "d"(c) : "rcx", "r11", "memory");
    return result;
}
#endif

// Makes the calls, with rooms that are large enough and rooms that are not.
__attribute__((noinline)) static void calls(size_t size)
{
#ifdef REPORT
    static const uint32_t readings[5] = {0, 12, 99999, 4294967295, 7};
    port.len = size % 70;
    bare_report(&kept, &port, readings, size % 6);
#endif
#ifdef LOG
    bare_log(&kept, &port, bytes, size % 61);
    bare_resume(&kept, &port);
    bare_take(&port, room, size % 50);
#endif
#ifdef MESSAGES
    bare_put(&inbox, bytes, size);
    bare_message(&inbox, room, size, &len);
#endif
#ifdef FRAMES
    port.len = size % 70;
    bare_send(&kept, &port, bytes, size % 63);
    bare_event(&kept, &port, size << 20);
    bare_put(&inbox, bytes, size);
    bare_receive(&inbox, room, size, &len);
    bare_skip(&inbox, &left);
#endif
#ifdef COPY
    port.len = 0;
    bare_copy(&kept, &port, bytes, size % 70);
#endif
}

// How many bytes of stack the calls take.
__attribute__((noinline)) static size_t depth(size_t size)
{
    volatile uint8_t *here;
    __asm__ volatile(STACK : "=r"(here));
    for (volatile uint8_t *at = here - DEEP; at < here; at++)
        *at = PAINT;
    calls(size);
    volatile uint8_t *at = here - DEEP;
    while (at < here && *at == PAINT)
        at++;
    return here - at;
}

#ifndef __aarch64__
__attribute__((force_align_arg_pointer))
#endif
void _start(void)
{
    static const uint16_t sizes[] = {0, 1, 7, 30, 60, 100, 255, 256, 300, 512};
    size_t most = 0;
    for (size_t i = 0; i < sizeof bytes; i++)
        bytes[i] = i % 9 + 1;
    for (size_t i = 0; i < sizeof sizes / sizeof *sizes; i++) {
        size_t it = depth(sizes[i]);
        most = it > most ? it : most;
    }
    uint8_t digits[8], *first = digits + sizeof digits;
    *--first = '\n';
    for (; most > 0; most /= 10)
        *--first = '0' + most % 10;
    call(WRITE, 1, (long)first, digits + sizeof digits - first);
    call(EXIT, 0, 0, 0);
}
