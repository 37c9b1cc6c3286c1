// From an interrupt to `interrupt` and back. One processor, exception level 1, one stack; interrupts do not nest.
        .text
        .balign 2048
        .globl  vectors
// Sixteen entries of 128 bytes. One is for use: an interrupt at this level, on this stack. The others end the board
// with status 1.
vectors:
        .rept   5
        b       fail
        .balign 128
        .endr
        b       irq
        .balign 128
        .rept   10
        b       fail
        .balign 128
        .endr

fail:   mov     x0, #1
        b       finish

        .altmacro
        .macro  pair what, first, second, place
        \what   q\first, q\second, [sp, #\place]
        .endm
        .macro  simd what               // the 32 SIMD registers, behind the others
        .set    n, 0
        .rept   16
        pair    \what, %n, %(n + 1), %(160 + 16 * n)
        .set    n, n + 2
        .endr
        .endm
        .macro  others what             // the registers that a C function may change
        .irp    n, 0, 2, 4, 6, 8, 10, 12, 14, 16
        pairx   \what, %n, %(n + 1), %(8 * n)
        .endr
        \what   x18, x30, [sp, #144]
        .endm
        .macro  pairx what, first, second, place
        \what   x\first, x\second, [sp, #\place]
        .endm

// Saves what a C function may change. That includes the SIMD registers: `bare_take` copies eight bytes or more through
// them, and so may the code that was interrupted. All 32 whole: a function restores only the lower halves of q8 to q15.
// The address and the state to return to stay in their registers, since no second interrupt comes.
irq:    sub     sp, sp, #672
        others  stp
        simd    stp
        bl      interrupt
        simd    ldp
        others  ldp
        add     sp, sp, #672
        eret
