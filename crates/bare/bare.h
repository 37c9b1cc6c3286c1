/* What the static library `bare` exports to C. Each call is proved to do what is said here, except what is in brackets,
   which is tested.

   - No call allocates, panics, calls the system, or keeps a pointer when it returns.
   - A pointer is not null. What it points to belongs to this call until the call returns: mask each interrupt whose
     handler uses the same queue. Two arguments of one call do not overlap.
   - The calls use SIMD registers, on Arm and on x86-64. Switch these on first, and let a handler that makes a call, or
     interrupts one, save them.
   - `port` has the bytes that are to be sent; an interrupt handler takes them off by `bare_take`. `kept` has bytes that
     were accepted, and did not fit into `port`: they follow those of `port`. Each call that puts bytes into `port`
     first moves there what is kept. So nothing comes between the bytes of a line, if all calls for one port get the
     same `kept`. */
#ifndef BARE_H
#define BARE_H

#include <stddef.h>
#include <stdint.h>

#define BARE_CAPACITY 64

/* What a call returns. */
enum {
    BARE_DONE = 0,    /* it did all */
    BARE_KEPT = 1,    /* it accepted the bytes, and keeps some, since the port is full */
    BARE_FULL = 2,    /* there is no room now */
    BARE_PARTIAL = 3, /* the message has not come whole */
    BARE_REFUSED = 4, /* the bytes can never be accepted */
};

/* Bytes that wait, in order: the first `len` of `bytes`. All zeros is an empty queue. A `len` above 64 counts as 64. */
struct bare_queue {
    uint8_t bytes[BARE_CAPACITY];
    size_t len;
};

/* Puts the first of `count` bytes behind those that wait, as many as fit. Returns how many they are. */
size_t bare_put(struct bare_queue *queue, const uint8_t *bytes, size_t count);

/* Moves the first bytes that wait into `room`, as many as fit, and removes them from the queue. Returns how many they
   are. The rest of `room` is as it was. */
size_t bare_take(struct bare_queue *queue, uint8_t *room, size_t size);

/* Moves the bytes in `kept` to the port, as many as fit.
   BARE_DONE: `kept` is empty.
   BARE_KEPT: the port is full, and some bytes are in `kept`. */
uint32_t bare_resume(struct bare_queue *kept, struct bare_queue *port);

/* Logs a line, which is `text` and a newline: puts it behind the bytes in `port` and `kept`. What does not fit into
   `port` is in `kept`.
   BARE_DONE: the port has the whole line, and `kept` is empty.
   BARE_KEPT: the line is accepted: do not log it again. The port is full, and some bytes are in `kept`.
   BARE_FULL: nothing of the line is accepted: log it again later. The port is full, and the line does not fit
   into `kept`.
   BARE_REFUSED: `text` has a newline, or 64 bytes or more. Nothing has changed. */
uint32_t bare_log(struct bare_queue *kept, struct bare_queue *port, const uint8_t *text, size_t count);

/* The next four calls put bytes behind those in `port` and `kept`, all or none.
   BARE_DONE: all bytes are in `port`, and `kept` is empty.
   BARE_FULL: they do not fit behind the others. Of the bytes in `kept`, as many are in `port` as fit: nothing else has
   changed. Call again later.
   BARE_REFUSED: they are more than 64 bytes. Nothing has changed. */

/* Puts a line `sensor 0 = 17` for each reading. [It is refused only if the lines have more than 64 bytes.] */
uint32_t bare_report(struct bare_queue *kept, struct bare_queue *port, const uint32_t *readings, size_t count);

/* Puts the line `event 17`. [It is never refused.] */
uint32_t bare_event(struct bare_queue *kept, struct bare_queue *port, uint32_t number);

/* Puts a frame: the length of the payload as four bytes, the lowest first, and the payload. One of more than 60 bytes
   is refused. */
uint32_t bare_send(struct bare_queue *kept, struct bare_queue *port, const uint8_t *payload, size_t count);

/* Puts a copy of bytes, through buffers. */
uint32_t bare_copy(struct bare_queue *kept, struct bare_queue *port, const uint8_t *bytes, size_t count);

/* Takes a message off the bytes that a port received: a byte with its length, and then so many bytes.
   BARE_DONE: it is gone from `port`; its bytes are the first `*len` of `room`, and the rest of `room` is as it was.
   Else nothing is gone from `port`, and `room` is as it was.
   BARE_PARTIAL: the message has not come whole. If its length has come, the message fits a queue and `room`. `*len` is
   as it was.
   BARE_FULL: the message is longer than `room`: it has `*len` bytes.
   BARE_REFUSED: the message has 64 bytes or more, which no queue can hold. `*len` is as it was. To go on, take off the
   first byte and so many bytes as it says, by `bare_take`. */
uint32_t bare_message(struct bare_queue *port, uint8_t *room, size_t size, size_t *len);

/* Takes a frame off the bytes that a port received.
   BARE_DONE: it is gone from `port`; its payload is the first `*len` bytes of `room`, and the rest of `room` is as
   it was.
   Else nothing has changed.
   BARE_REFUSED: the payload has more than 60 bytes, so no queue can hold the frame. No room helps: to go on, drop it
   by `bare_skip`.
   BARE_FULL: a queue can hold the frame, and the payload is longer than `room`. Give more room, or drop it
   by `bare_skip`.
   BARE_PARTIAL: the frame has not come whole. If its length has come, a queue can hold the frame, and the payload fits
   `room`. */
uint32_t bare_receive(struct bare_queue *port, uint8_t *room, size_t size, size_t *len);

/* Drops the next frame, however long it is. `*left` is 0 before the first call; it is then how many bytes of the frame
   are still to be dropped.
   BARE_DONE: the whole frame is gone, and `*left` is 0.
   BARE_PARTIAL: all that has come of it is gone, or its length has not come. Call again with the same `left`, until
   BARE_DONE. */
uint32_t bare_skip(struct bare_queue *port, size_t *left);

#endif
