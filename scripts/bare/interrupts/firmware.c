// A serial line by interrupts, over the static library `bare`: an example to copy, for the board `virt` of qemu, which
// has a PL011 and, in front of the processor, a GICv2.
//
// Two queues are between the program and the line. The handler empties `port` into the transmitter, and fills `inbox`
// from the receiver. The program makes each call of the library with interrupts masked, since the handler uses the same
// queues, and sleeps when it has to wait. It sends 2,000 lines, and then echoes the payload of each frame that comes as
// a line, until the payload is `stop`.
#include "bare.h"

#define REGISTER(place) (*(volatile uint32_t *)(place))

// The serial line, a PL011.
#define DATA REGISTER(0x09000000)
#define FLAGS REGISTER(0x09000018)
#define SPEED REGISTER(0x09000024)
#define SPEED_PART REGISTER(0x09000028)
#define FORMAT REGISTER(0x0900002c)
#define CONTROL REGISTER(0x09000030)
#define LET_IN REGISTER(0x09000038) // which of its interrupts go on to the GIC
#define CLEAR REGISTER(0x09000044)
enum { RECEIVER_EMPTY = 1 << 4, TRANSMITTER_FULL = 1 << 5 };                           // of FLAGS
enum { RECEIVED = 1 << 4, SENT = 1 << 5, RESTED = 1 << 6, INPUT = RECEIVED | RESTED }; // of LET_IN and CLEAR
enum { FIFO = 16 };

// The interrupts, and the GICv2.
enum { LINE = 33, TIMER = 27 };
#define GIC_ON REGISTER(0x08000000)
#define GIC_ENABLE(n) REGISTER(0x08000100 + (n) / 32 * 4)
#define GIC_PEND(n) REGISTER(0x08000200 + (n) / 32 * 4)
#define GIC_PRIORITY(n) (*(volatile uint8_t *)(0x08000400ul + (n)))
#define GIC_TARGET(n) (*(volatile uint8_t *)(0x08000800ul + (n)))
#define BIT(n) (1u << (n) % 32)
#define CPU_ON REGISTER(0x08010000)
#define CPU_LOWEST REGISTER(0x08010004)
#define CPU_TAKE REGISTER(0x0801000c)
#define CPU_END REGISTER(0x08010010)

// What the program and the handler share. The handler runs with interrupts masked, and the program masks them.
static struct bare_queue port, inbox;
static int sending; // the line's interrupt will come, and take from `port`

// Used only by the program.
static struct bare_queue kept;

// What is told at the end of each part.
static uint32_t full_count, kept_count, sleep_count, interrupt_count, held_count;

// The transmitter has room. A PL011 interrupts by SENT when its transmitter becomes half empty, and not because it is.
// So this fills it: only then is the next SENT sure. If `port` is empty then, the program has to ask for the next
// interrupt. One `bare_take` removes all bytes that went, since each call moves the rest of the queue.
static void send(void)
{
    uint8_t gone[FIFO];
    size_t count = 0;
    CLEAR = SENT; // before the bytes, since SENT may come again with the last of them
    for (; count < FIFO && count < port.len && !(FLAGS & TRANSMITTER_FULL); count++)
        DATA = port.bytes[count];
    bare_take(&port, gone, count);
    sending = port.len > 0;
#ifdef SLOW
    // The line of qemu takes no time, and its transmitter is never full. Here it carries SLOW bytes in a second: no
    // SENT comes before a timer ends.
    if (count > 0) {
        LET_IN &= ~SENT;
        __asm__ volatile("msr cntv_tval_el0, %0\n msr cntv_ctl_el0, %1" : : "r"(62500000 / SLOW * count), "r"(1ul));
    }
#endif
}

// Bytes have come. This reads as many as `inbox` has room for: a byte that was read cannot be put back. If `inbox` is
// full, the rest stays in the receiver, and the program lets the interrupt in again when it has made room. RECEIVED is
// not cleared: it ends when all bytes were read, and would be lost otherwise.
static void receive(void)
{
    uint8_t bytes[BARE_CAPACITY];
    size_t count = 0;
    for (; count < BARE_CAPACITY - inbox.len && !(FLAGS & RECEIVER_EMPTY); count++)
        bytes[count] = DATA;
    bare_put(&inbox, bytes, count);
    if (inbox.len == BARE_CAPACITY) {
        held_count++;
        LET_IN &= ~INPUT;
    }
}

// The handler. vectors.S calls it, with interrupts masked.
void interrupt(void)
{
    uint32_t taken = CPU_TAKE;
    interrupt_count++;
    switch (taken & 1023) {
    case LINE:
        if (LET_IN & SENT)
            send();
        if (LET_IN & INPUT)
            receive();
        break;
    case TIMER:
        __asm__ volatile("msr cntv_ctl_el0, xzr");
        LET_IN |= SENT;
        break;
    default:
        return; // it has gone again
    }
    CPU_END = taken;
}

static void mask(void)
{
    __asm__ volatile("msr daifset, #2" : : : "memory");
}

// Lets interrupts in after a call. Before that, it asks for the line's interrupt if bytes wait and it would not come;
// and if the program has to wait, it sends what is kept, and sleeps. `wfi` ends for a masked interrupt too: after the
// unmasking, the program might sleep through the only one.
static void unmask(int sleeps)
{
    if (sleeps)
        bare_resume(&kept, &port);
    if (port.len > 0 && !sending) {
        sending = 1;
        GIC_PEND(LINE) = BIT(LINE);
    }
    if (sleeps) {
        sleep_count++;
        __asm__ volatile("dsb sy\n wfi" : : : "memory");
    }
    __asm__ volatile("msr daifclr, #2" : : : "memory");
}

// Ends a call that puts bytes into the port. After FULL, nothing was accepted: the same call has to be made again.
// After KEPT, the bytes were accepted, and must not be put again.
static int is_full(uint32_t status)
{
    full_count += status == BARE_FULL;
    kept_count += status == BARE_KEPT;
    unmask(status == BARE_FULL);
    return status == BARE_FULL;
}

static uint32_t log_line(const void *text, size_t count)
{
    uint32_t status;
    do {
        mask();
        status = bare_log(&kept, &port, text, count);
    } while (is_full(status));
    return status;
}

// Waits until `kept` and `port` are empty.
static void flush(void)
{
    int waits;
    do {
        mask();
        waits = bare_resume(&kept, &port) != BARE_DONE || port.len > 0;
        unmask(waits);
    } while (waits);
}

// Tells how a part went. A report has at most 64 bytes: three numbers of nine digits.
static void tell(uint32_t number)
{
    extern uint64_t stack_low[], stack[];
    uint64_t *low = stack_low;
    while (*low == 0)
        low++;
    uint32_t numbers[] = {full_count, kept_count, sleep_count, interrupt_count, held_count, (stack - low) * 8};
    do
        mask();
    while (is_full(bare_event(&kept, &port, number)));
    for (int at = 0; at < 6; at += 3) {
        do
            mask();
        while (is_full(bare_report(&kept, &port, numbers + at, 3)));
    }
    full_count = kept_count = sleep_count = interrupt_count = held_count = 0;
}

// Lines of 1 to 60 bytes that the host can make too.
static void send_lines(uint32_t count)
{
    uint8_t text[60];
    for (uint32_t n = 0, x = 1; n < count; n++) {
        x = x * 1664525 + 1013904223;
        size_t len = 1 + (x >> 16) % 60;
        for (size_t i = 0; i < len; i++) {
            x = x * 1664525 + 1013904223;
            text[i] = ' ' + (x >> 16) % 95;
        }
        log_line(text, len);
    }
}

// Drops a frame that no queue can hold.
static void skip_frame(void)
{
    size_t left = 0;
    uint32_t status;
    do {
        mask();
        status = bare_skip(&inbox, &left);
        LET_IN |= INPUT; // as `inbox` has room again
        unmask(status == BARE_PARTIAL);
    } while (status == BARE_PARTIAL);
}

static void echo_frames(void)
{
    uint8_t room[60];
    size_t len = 0;
    for (;;) {
        mask();
        uint32_t status = bare_receive(&inbox, room, sizeof room, &len);
        if (status == BARE_DONE)
            LET_IN |= INPUT;
        unmask(status == BARE_PARTIAL);
        if (status == BARE_REFUSED) {
            skip_frame();
            log_line("? long", 6);
        } else if (status == BARE_DONE) {
            if (len == 4 && room[0] == 's' && room[1] == 't' && room[2] == 'o' && room[3] == 'p')
                return;
            if (log_line(room, len) == BARE_REFUSED)
                log_line("? newline", 9);
        }
    }
}

void run(void)
{
    SPEED = 0, SPEED_PART = 60; // of a clock of 24 MHz: 1.6 million bits in a second
    FORMAT = 0x70;              // eight bits; with FIFOs
    CONTROL = 0x301;            // on, in both directions
    CLEAR = 0x7ff;
    LET_IN = INPUT | SENT;
    GIC_PRIORITY(LINE) = GIC_PRIORITY(TIMER) = 0x80;
    GIC_TARGET(LINE) = 1;
    GIC_ENABLE(LINE) = BIT(LINE);
    GIC_ENABLE(TIMER) = BIT(TIMER);
    GIC_ON = 1;
    CPU_LOWEST = 0xff;
    CPU_ON = 1;
    send_lines(2000);
    tell(1);
    echo_frames();
    tell(2);
    flush();
}
