// The script of calls, in a machine that has no input.
        .section .rodata
        .globl script, script_end
script: .incbin "script"
script_end:
