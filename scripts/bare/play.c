// Plays a script of calls of bare.h, and prints what each returned and what it left in memory. check_bare says what a
// line is.
#include "play.h"
#include "bare.h"

static struct bare_queue kept, port, inbox;
static uint8_t room[512], bytes[512];
static size_t left;
static const uint8_t *at, *end;

static void put_char(uint8_t c)
{
    put(&c, 1);
}

static void put_number(size_t n)
{
    uint8_t digits[21];
    size_t first = sizeof digits;
    digits[--first] = ' ';
    do
        digits[--first] = '0' + n % 10;
    while ((n /= 10) > 0);
    put(digits + first, sizeof digits - first);
}

static void put_hex(const uint8_t *from, size_t count)
{
    for (size_t i = 0; i < count; i++) {
        put_char("0123456789abcdef"[from[i] >> 4]);
        put_char("0123456789abcdef"[from[i] & 15]);
    }
    put_char(' ');
}

static void put_queue(const struct bare_queue *queue)
{
    put_hex(queue->bytes, queue->len);
}

// The next word of the line as a number.
static size_t number(void)
{
    size_t n = 0;
    for (at++; at < end && *at >= '0'; at++)
        n = n * 10 + (*at - '0');
    return n;
}

// The next word of the line as bytes; their number.
static size_t hex(void)
{
    size_t count = 0;
    for (at++; at + 1 < end && *at > ' '; at += 2) {
        uint8_t high = at[0], low = at[1];
        bytes[count++] = (high <= '9' ? high - '0' : high - 'a' + 10) << 4 | (low <= '9' ? low - '0' : low - 'a' + 10);
    }
    return count;
}

// The next word as the size of the room, which is filled with a pattern.
static size_t clear(void)
{
    for (size_t i = 0; i < sizeof room; i++)
        room[i] = 0xa5;
    return number();
}

static void report(void)
{
    uint32_t readings[32];
    size_t count = 0;
    while (at < end && *at == ' ')
        readings[count++] = number();
    put_number(bare_report(&kept, &port, readings, count));
}

// What a call gave: how long it is, and the room.
static void put_given(size_t len, size_t size)
{
    put_number(len);
    put_hex(room, size);
}

static void play_line(void)
{
    size_t size, len = 9999;
    put_char(*at);
    put_char(' ');
    switch (*at++) {
    case 'r': report(); break;
    case 'l': put_number(bare_log(&kept, &port, bytes, hex())); break;
    case 's': put_number(bare_resume(&kept, &port)); break;
    case 't': put_number(bare_take(&port, room, size = clear())); put_hex(room, size); break;
    case 'p': put_number(bare_put(&inbox, bytes, hex())); break;
    case 'd': put_number(bare_take(&inbox, room, clear())); break;
    case 'm': put_number(bare_message(&inbox, room, size = clear(), &len)); put_given(len, size); break;
    case 'f': put_number(bare_send(&kept, &port, bytes, hex())); break;
    case 'g': put_number(bare_receive(&inbox, room, size = clear(), &len)); put_given(len, size); break;
    case 'k': put_number(bare_skip(&inbox, &left)); put_number(left); break;
    case 'e': put_number(bare_event(&kept, &port, number())); break;
    case 'c': put_number(bare_copy(&kept, &port, bytes, hex())); break;
    }
    put_queue(&kept);
    put_queue(&port);
    put_queue(&inbox);
    put_char('\n');
}

void play(const uint8_t *script, size_t size)
{
    const uint8_t *last = script + size;
    for (const uint8_t *next = script; next < last; next = end + 1) {
        for (at = end = next; end < last && *end != '\n'; end++)
            ;
        if (at < end)
            play_line();
    }
}
