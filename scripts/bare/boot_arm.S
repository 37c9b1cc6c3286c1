// From the start of a 64-bit Arm board, at exception level 1, to `run`: the registers of SIMD on, the memory mapped as
// it is, with caches, so that an address need not be a multiple, and a stack. When `run` returns, the board ends with
// status 0.
        .section .start, "ax"
        .globl  _start, finish
        .weak   vectors
_start: mov     x0, #3 << 20
        msr     cpacr_el1, x0           // SIMD
        mov     x0, #0xff04
        msr     mair_el1, x0            // kinds of memory: 0 is devices, 1 is ordinary
        ldr     x0, =0x80803519
        msr     tcr_el1, x0             // 39-bit addresses, 4 KiB pages, cached tables, no upper half
        adr     x0, table
        msr     ttbr0_el1, x0
        ldr     x0, =vectors            // 0, if there is no handler
        msr     vbar_el1, x0
        dsb     sy
        isb
        mrs     x0, sctlr_el1
        ldr     x1, =0x1005             // mapped addresses; caches for data and for code
        orr     x0, x0, x1
        bic     x0, x0, #2              // no fault for an address that is not a multiple
        msr     sctlr_el1, x0
        isb
        ldr     x0, =zeros              // the loader may not have cleared the variables
        ldr     x1, =zeros_end
1:      str     xzr, [x0], #8
        cmp     x0, x1
        b.lo    1b
        ldr     x0, =stack
        mov     sp, x0
        bl      run                     // interrupts are masked until `run` lets them in
        mov     x0, #0
finish: ldr     x1, =reason             // ends the board with the status x0, by semihosting
        str     x0, [x1, #8]
        mov     x0, #0x18
        hlt     #0xf000
2:      wfe
        b       2b

        .balign 4096
table:  .quad   0x00000401              // devices from 0: a block of 1 GiB
        .quad   0x40000705              // ordinary memory from 1 GiB: the same, shared
        .fill   510, 8, 0
        .data
        .balign 8
reason: .quad   0x20026, 0
        .bss
        .balign 16
        .globl  stack_low, stack
stack_low:
        .skip   16384
stack:
