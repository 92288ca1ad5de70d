// A counted loop of about 10^8 instructions: 33,333,333 iterations of three.
        .global _start
_start: mov     x0, #0
        movz    x1, #0xa055
        movk    x1, #0x1fc, lsl #16
1:      add     x0, x0, #3
        subs    x1, x1, #1
        b.ne    1b
        and     x0, x0, x0
        movz    x8, #93
        svc     #0
