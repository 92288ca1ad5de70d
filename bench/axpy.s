// y = y + k * x over 4,000 numbers of 32 bits, 500 times, at any vector length; 4 * 10^6 instructions at 128 bits.
        .arch   armv8-a+sve
        .global _start
_start: movz    x0, #0x41, lsl #16      // y, where the linker is told to put it
        add     x1, x0, #16, lsl #12    // x
        movz    x2, #3
        movz    x6, #500
        dup     z2.s, w2
2:      movz    x9, #0
        movz    x3, #4000
        whilelo p0.s, x9, x3
1:      ld1w    {z0.s}, p0/z, [x1, x9, lsl #2]
        ld1w    {z1.s}, p0/z, [x0, x9, lsl #2]
        mul     z0.s, p0/m, z0.s, z2.s
        add     z1.s, z1.s, z0.s
        st1w    {z1.s}, p0, [x0, x9, lsl #2]
        incp    x9, p0.s
        whilelo p0.s, x9, x3
        b.mi    1b
        subs    x6, x6, #1
        b.ne    2b
        movz    x0, #7
        movz    x8, #93
        svc     #0
        .data
y:      .skip   131072, 1
