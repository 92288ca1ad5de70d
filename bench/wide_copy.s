// Copies 4,000 bytes of its own data to each of twenty pages that are mapped from 0x1000000 on, byte by byte, 250 times: about 10^8
// instructions.
        .global _start
_start: movz    x9, #0x41, lsl #16      // from, where the linker is told to put it
        movz    x3, #250
3:      movz    x10, #0x100, lsl #16    // to
        movz    x6, #20
2:      movz    x2, #0
        movz    x4, #4000
1:      ldrb    w5, [x9, x2]
        strb    w5, [x10, x2]
        add     x2, x2, #1
        subs    x4, x4, #1
        b.ne    1b
        add     x10, x10, #1, lsl #12
        subs    x6, x6, #1
        b.ne    2b
        subs    x3, x3, #1
        b.ne    3b
        movz    x0, #7
        movz    x8, #93
        svc     #0
        .data
from:   .skip   4096, 5
