// Copies 4,000 bytes of its own data, byte by byte, 4,000 times: about 8 * 10^7 instructions.
        .global _start
_start: movz    x9, #0x41, lsl #16      // from, where the linker is told to put it
        add     x10, x9, #1, lsl #12    // to
        movz    x3, #4000
2:      movz    x2, #0
        movz    x4, #4000
1:      ldrb    w5, [x9, x2]
        strb    w5, [x10, x2]
        add     x2, x2, #1
        subs    x4, x4, #1
        b.ne    1b
        subs    x3, x3, #1
        b.ne    2b
        movz    x0, #7
        movz    x8, #93
        svc     #0
        .data
from:   .skip   4096, 5
to:     .skip   4096
