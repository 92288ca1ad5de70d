// uint64_t guarded_call(void *function, const uint64_t args[8], const uint64_t marks[20], uint64_t found[21], void *sp)
//
// Calls a function on the stack at sp, with X0 to X7 as args, X18 to X29 and D8 to D15 as marks, and all other registers but X30 filled with
// something; FFR is none. In found stand X18 to X29, D8 to D15 and SP as the function leaves them; the result is its X0.
	.arch armv8-a+sve
	.bss
	.p2align 4
kept:	.skip 16
	.text
	.p2align 4
	.global guarded_call
	.type guarded_call, %function
guarded_call:
	stp x29, x30, [sp, #-176]!
	stp x19, x20, [sp, #16]
	stp x21, x22, [sp, #32]
	stp x23, x24, [sp, #48]
	stp x25, x26, [sp, #64]
	stp x27, x28, [sp, #80]
	stp d8, d9, [sp, #96]
	stp d10, d11, [sp, #112]
	stp d12, d13, [sp, #128]
	stp d14, d15, [sp, #144]
	str x18, [sp, #160]
	adrp x9, kept
	add x9, x9, :lo12:kept
	mov x10, sp
	stp x10, x3, [x9]
	mov x16, x0
	mov x17, x1
	mov sp, x4
	pfalse p0.b
	wrffr p0.b
	.irp n, 0, 1, 2, 3, 4, 5, 6, 7, 8, 9, 10, 11, 12, 13, 14, 15
	ldr p\n, [x2]
	.endr
	ldr x9, [x2, #8]
	.irp n, 0, 1, 2, 3, 4, 5, 6, 7, 8, 9, 10, 11, 12, 13, 14, 15, 16, 17, 18, 19, 20, 21, 22, 23, 24, 25, 26, 27, 28, 29, 30, 31
	dup z\n\().d, x9
	.endr
	ldp x8, x9, [x2, #16]
	ldp x10, x11, [x2, #32]
	ldp x12, x13, [x2, #48]
	ldp x14, x15, [x2, #64]
	cmp x8, x9
	ldp x18, x19, [x2]
	ldp x20, x21, [x2, #16]
	ldp x22, x23, [x2, #32]
	ldp x24, x25, [x2, #48]
	ldp x26, x27, [x2, #64]
	ldp x28, x29, [x2, #80]
	ldp d8, d9, [x2, #96]
	ldp d10, d11, [x2, #112]
	ldp d12, d13, [x2, #128]
	ldp d14, d15, [x2, #144]
	ldp x0, x1, [x17]
	ldp x2, x3, [x17, #16]
	ldp x4, x5, [x17, #32]
	ldp x6, x7, [x17, #48]
	blr x16
	adrp x9, kept
	add x9, x9, :lo12:kept
	ldp x10, x11, [x9]
	stp x18, x19, [x11]
	stp x20, x21, [x11, #16]
	stp x22, x23, [x11, #32]
	stp x24, x25, [x11, #48]
	stp x26, x27, [x11, #64]
	stp x28, x29, [x11, #80]
	stp d8, d9, [x11, #96]
	stp d10, d11, [x11, #112]
	stp d12, d13, [x11, #128]
	stp d14, d15, [x11, #144]
	mov x12, sp
	str x12, [x11, #160]
	mov sp, x10
	ldr x18, [sp, #160]
	ldp d14, d15, [sp, #144]
	ldp d12, d13, [sp, #128]
	ldp d10, d11, [sp, #112]
	ldp d8, d9, [sp, #96]
	ldp x27, x28, [sp, #80]
	ldp x25, x26, [sp, #64]
	ldp x23, x24, [sp, #48]
	ldp x21, x22, [sp, #32]
	ldp x19, x20, [sp, #16]
	ldp x29, x30, [sp], #176
	ret
	.size guarded_call, . - guarded_call
	.section .note.GNU-stack,"",%progbits
