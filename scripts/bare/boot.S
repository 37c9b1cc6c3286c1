# From the loader's 32 bits to 64 bits, with the first GiB mapped as it is and the registers of SSE on; then to `run`.
        .section .start, "a"
        .long 0x1badb002, 0, -0x1badb002        # the multiboot header, by which a loader knows a kernel
        .bss
        .balign 4096
top:    .skip 4096
middle: .skip 4096
low:    .skip 4096
        .skip 65536
stack:
        .text
        .code32
        .globl _start
_start: mov $stack, %esp
        movl $middle + 3, top
        movl $low + 3, middle
        mov $0, %ecx
1:      mov %ecx, %eax                  # a page of 2 MiB
        shl $21, %eax
        or $0x83, %eax
        mov %eax, low(,%ecx,8)
        inc %ecx
        cmp $512, %ecx
        jne 1b
        mov %cr4, %eax
        or $0x620, %eax                 # long addresses, and SSE
        mov %eax, %cr4
        mov $top, %eax
        mov %eax, %cr3
        mov $0xc0000080, %ecx
        rdmsr
        or $0x100, %eax                 # 64 bits
        wrmsr
        mov %cr0, %eax
        and $~4, %eax
        or $0x80000002, %eax            # pages
        mov %eax, %cr0
        lgdt table
        ljmp $8, $long
        .code64
long:   mov $0, %ax
        mov %ax, %ds
        mov %ax, %es
        mov %ax, %ss
        mov $stack, %rsp
        call run
        mov $0, %al
        mov $0xf4, %dx
        outb %al, %dx                   # ends the machine: its status is twice al and one
1:      hlt
        jmp 1b
        .balign 8
gdt:    .quad 0, 0x00209a0000000000
table:  .word 15
        .long gdt
