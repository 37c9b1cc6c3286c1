// The home on a bare machine: a PC or an Arm board, whose serial line has the output. script.S has the script.
#include "play.h"

extern const uint8_t script[], script_end[];

static void put_byte(uint8_t byte)
{
#ifdef __aarch64__
    *(volatile uint32_t *)0x09000000 = byte; // a PL011
#else
    __asm__ volatile("outb %0, %1" : : "a"(byte), "Nd"((unsigned short)0x3f8));
#endif
}

void put(const uint8_t *bytes, size_t count)
{
    for (; count > 0; count--)
        put_byte(*bytes++);
}

void run(void)
{
    play(script, script_end - script);
}
