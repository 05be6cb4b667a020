	.file	"rattle"
	.section	.rodata.cst16,"aM",@progbits,16
	.p2align	4, 0x0
.LCPI0_0:
	.xword	1
	.xword	7
	.section	".text.column::Column::open","ax",@progbits
	.p2align	2
	.type	"column::Column::open",@function
"column::Column::open":
	sub	sp, sp, #192
	stp	x29, x30, [sp, #96]
	add	x29, sp, #96
	stp	x28, x27, [sp, #112]
	stp	x26, x25, [sp, #128]
	stp	x24, x23, [sp, #144]
	stp	x22, x21, [sp, #160]
	stp	x20, x19, [sp, #176]
	cbz	x2, .LBB0_75
	ldrsb	w8, [x1]
	and	x10, x8, #0xff
	tbnz	w8, #31, .LBB0_22
	mov	w8, #1
	sub	x19, x10, #1
	cmp	x19, #3
	b.hi	.LBB0_33
.LBB0_3:
	cmp	x2, x8
	b.ls	.LBB0_75
	ldrsb	w10, [x1, x8]
	add	x9, x8, #1
	and	x20, x10, #0xff
	tbnz	w10, #31, .LBB0_27
	cmp	x2, x9
	b.ls	.LBB0_75
.LBB0_6:
	ldrsb	w8, [x1, x9]
	add	x10, x9, #1
	and	x21, x8, #0xff
	tbnz	w8, #31, .LBB0_34
	cmp	x2, x10
	b.ls	.LBB0_75
.LBB0_8:
	ldrsb	w8, [x1, x10]
	add	x9, x10, #1
	and	x22, x8, #0xff
	tbnz	w8, #31, .LBB0_41
	cmp	x2, x9
	b.ls	.LBB0_75
.LBB0_10:
	ldrsb	w8, [x1, x9]
	add	x10, x9, #1
	and	x23, x8, #0xff
	tbnz	w8, #31, .LBB0_47
	cmp	x2, x10
	b.ls	.LBB0_75
.LBB0_12:
	ldrsb	w8, [x1, x10]
	add	x9, x10, #1
	and	x25, x8, #0xff
	tbnz	w8, #31, .LBB0_53
	cmp	x2, x9
	b.ls	.LBB0_75
.LBB0_14:
	ldrsb	w11, [x1, x9]
	add	x10, x9, #1
	and	x8, x11, #0xff
	tbnz	w11, #31, .LBB0_60
	cmp	x2, x10
	b.ls	.LBB0_75
.LBB0_16:
	ldrsb	w11, [x1, x10]
	add	x9, x10, #1
	stp	x8, x0, [sp, #8]
	and	x26, x11, #0xff
	tbnz	w11, #31, .LBB0_68
	cmp	x2, x9
	b.ls	.LBB0_90
.LBB0_18:
	ldrsb	w8, [x1, x9]
	mov	x24, x2
	add	x28, x9, #1
	and	x27, x8, #0xff
	tbnz	w8, #31, .LBB0_78
.LBB0_19:
	ldr	x8, [sp, #8]
	add	x0, sp, #24
	stp	x19, x20, [sp, #24]
	stp	x21, x22, [sp, #40]
	stp	x23, x25, [sp, #56]
	stp	x8, x26, [sp, #72]
	str	x27, [sp, #88]
	bl	"column::head_ok"
	mov	x8, xzr
	cbz	w0, .LBB0_83
	subs	x9, x24, x28
	b.hs	.LBB0_91
	mov	x9, xzr
	mov	x10, xzr
	mov	x11, xzr
	mov	x14, xzr
	mov	x15, xzr
	mov	x16, xzr
	mov	x17, xzr
	mov	x18, xzr
	mov	w13, #9
	b	.LBB0_84
.LBB0_22:
	subs	x9, x2, #1
	b.eq	.LBB0_75
	mov	x8, xzr
	sub	x10, x10, #128
	add	x11, x1, #1
	mov	w12, #128
.LBB0_24:
	ldrb	w13, [x11, x8]
	cmp	w13, #0
	cset	w14, eq
	cmp	w13, #1
	cset	w15, ne
	cmp	x8, #8
	csel	w14, w15, w14, eq
	tbnz	w14, #0, .LBB0_66
	tbz	w13, #7, .LBB0_32
	sub	x13, x13, #128
	add	x8, x8, #1
	madd	x10, x13, x12, x10
	lsl	x12, x12, #7
	cmp	x9, x8
	b.ne	.LBB0_24
	b	.LBB0_75
.LBB0_27:
	cmp	x9, x2
	b.hs	.LBB0_75
	sub	x12, x8, x2
	mov	x10, xzr
	sub	x11, x20, #128
	add	x12, x12, #1
	add	x9, x1, x9
	mov	w13, #128
.LBB0_29:
	ldrb	w14, [x9, x10]
	cmp	w14, #0
	cset	w15, eq
	cmp	w14, #1
	cset	w16, ne
	cmp	x10, #8
	csel	w15, w16, w15, eq
	tbnz	w15, #0, .LBB0_39
	tbz	w14, #7, .LBB0_40
	sub	x14, x14, #128
	add	x10, x10, #1
	madd	x11, x14, x13, x11
	lsl	x13, x13, #7
	cmn	x12, x10
	b.ne	.LBB0_29
	b	.LBB0_75
.LBB0_32:
	madd	x10, x12, x13, x10
	add	x8, x8, #2
	sub	x19, x10, #1
	cmp	x19, #3
	b.ls	.LBB0_3
.LBB0_33:
	movi	v0.2d, #0000000000000000
	adrp	x8, .LCPI0_0
	str	xzr, [x0, #80]
	ldr	q1, [x8, :lo12:.LCPI0_0]
	stp	q1, q0, [x0]
	stp	q0, q0, [x0, #32]
	str	q0, [x0, #64]
	b	.LBB0_77
.LBB0_34:
	cmp	x10, x2
	b.hs	.LBB0_75
	sub	x8, x9, x2
	mov	x11, xzr
	sub	x12, x21, #128
	add	x13, x8, #1
	add	x10, x1, x10
	mov	w14, #128
.LBB0_36:
	ldrb	w8, [x10, x11]
	cmp	w8, #0
	cset	w15, eq
	cmp	w8, #1
	cset	w16, ne
	cmp	x11, #8
	csel	w15, w16, w15, eq
	tbnz	w15, #0, .LBB0_65
	tbz	w8, #7, .LBB0_46
	sub	x8, x8, #128
	add	x11, x11, #1
	madd	x12, x8, x14, x12
	lsl	x14, x14, #7
	cmn	x13, x11
	mov	w8, #5
	b.ne	.LBB0_36
	b	.LBB0_76
.LBB0_39:
	add	x8, x8, x10
	b	.LBB0_66
.LBB0_40:
	madd	x20, x13, x14, x11
	add	x8, x8, x10
	add	x9, x8, #2
	cmp	x2, x9
	b.hi	.LBB0_6
	b	.LBB0_75
.LBB0_41:
	cmp	x9, x2
	b.hs	.LBB0_75
	sub	x8, x10, x2
	mov	x11, xzr
	sub	x12, x22, #128
	add	x13, x8, #1
	add	x9, x1, x9
	mov	w14, #128
.LBB0_43:
	ldrb	w8, [x9, x11]
	cmp	w8, #0
	cset	w15, eq
	cmp	w8, #1
	cset	w16, ne
	cmp	x11, #8
	csel	w15, w16, w15, eq
	tbnz	w15, #0, .LBB0_58
	tbz	w8, #7, .LBB0_52
	sub	x8, x8, #128
	add	x11, x11, #1
	madd	x12, x8, x14, x12
	lsl	x14, x14, #7
	cmn	x13, x11
	mov	w8, #5
	b.ne	.LBB0_43
	b	.LBB0_76
.LBB0_46:
	madd	x21, x14, x8, x12
	add	x8, x9, x11
	add	x10, x8, #2
	cmp	x2, x10
	b.hi	.LBB0_8
	b	.LBB0_75
.LBB0_47:
	cmp	x10, x2
	b.hs	.LBB0_75
	sub	x8, x9, x2
	mov	x11, xzr
	sub	x12, x23, #128
	add	x13, x8, #1
	add	x10, x1, x10
	mov	w14, #128
.LBB0_49:
	ldrb	w8, [x10, x11]
	cmp	w8, #0
	cset	w15, eq
	cmp	w8, #1
	cset	w16, ne
	cmp	x11, #8
	csel	w15, w16, w15, eq
	tbnz	w15, #0, .LBB0_65
	tbz	w8, #7, .LBB0_59
	sub	x8, x8, #128
	add	x11, x11, #1
	madd	x12, x8, x14, x12
	lsl	x14, x14, #7
	cmn	x13, x11
	mov	w8, #5
	b.ne	.LBB0_49
	b	.LBB0_76
.LBB0_52:
	madd	x22, x14, x8, x12
	add	x8, x10, x11
	add	x9, x8, #2
	cmp	x2, x9
	b.hi	.LBB0_10
	b	.LBB0_75
.LBB0_53:
	cmp	x9, x2
	b.hs	.LBB0_75
	sub	x8, x10, x2
	mov	x11, xzr
	sub	x12, x25, #128
	add	x13, x8, #1
	add	x9, x1, x9
	mov	w14, #128
.LBB0_55:
	ldrb	w8, [x9, x11]
	cmp	w8, #0
	cset	w15, eq
	cmp	w8, #1
	cset	w16, ne
	cmp	x11, #8
	csel	w15, w16, w15, eq
	tbnz	w15, #0, .LBB0_58
	tbz	w8, #7, .LBB0_67
	sub	x8, x8, #128
	add	x11, x11, #1
	madd	x12, x8, x14, x12
	lsl	x14, x14, #7
	cmn	x13, x11
	mov	w8, #5
	b.ne	.LBB0_55
	b	.LBB0_76
.LBB0_58:
	add	x8, x10, x11
	b	.LBB0_66
.LBB0_59:
	madd	x23, x14, x8, x12
	add	x8, x9, x11
	add	x10, x8, #2
	cmp	x2, x10
	b.hi	.LBB0_12
	b	.LBB0_75
.LBB0_60:
	cmp	x10, x2
	b.hs	.LBB0_75
	sub	x12, x8, #128
	sub	x8, x9, x2
	mov	x11, xzr
	add	x13, x8, #1
	add	x10, x1, x10
	mov	w14, #128
.LBB0_62:
	ldrb	w8, [x10, x11]
	cmp	w8, #0
	cset	w15, eq
	cmp	w8, #1
	cset	w16, ne
	cmp	x11, #8
	csel	w15, w16, w15, eq
	tbnz	w15, #0, .LBB0_65
	tbz	w8, #7, .LBB0_74
	sub	x8, x8, #128
	add	x11, x11, #1
	madd	x12, x8, x14, x12
	lsl	x14, x14, #7
	cmn	x13, x11
	mov	w8, #5
	b.ne	.LBB0_62
	b	.LBB0_76
.LBB0_65:
	add	x8, x9, x11
.LBB0_66:
	add	x2, x8, #1
	mov	w8, #6
	b	.LBB0_76
.LBB0_67:
	madd	x25, x14, x8, x12
	add	x8, x10, x11
	add	x9, x8, #2
	cmp	x2, x9
	b.hi	.LBB0_14
	b	.LBB0_75
.LBB0_68:
	cmp	x9, x2
	b.hs	.LBB0_90
	sub	x8, x10, x2
	mov	x12, xzr
	sub	x13, x26, #128
	mov	x11, x2
	add	x14, x8, #1
	add	x9, x1, x9
	mov	w15, #128
.LBB0_70:
	ldrb	w8, [x9, x12]
	cmp	w8, #0
	cset	w16, eq
	cmp	w8, #1
	cset	w17, ne
	cmp	x12, #8
	csel	w16, w17, w16, eq
	tbnz	w16, #0, .LBB0_86
	tbz	w8, #7, .LBB0_89
	sub	x8, x8, #128
	add	x12, x12, #1
	madd	x13, x8, x15, x13
	lsl	x15, x15, #7
	cmn	x14, x12
	mov	w8, #5
	b.ne	.LBB0_70
	ldr	x0, [sp, #16]
	mov	x2, x11
	b	.LBB0_76
.LBB0_74:
	madd	x8, x14, x8, x12
	add	x9, x9, x11
	add	x10, x9, #2
	cmp	x2, x10
	b.hi	.LBB0_16
.LBB0_75:
	mov	w8, #5
.LBB0_76:
	movi	v0.2d, #0000000000000000
	mov	w9, #1
	stp	x8, x2, [x0, #8]
	str	x9, [x0]
	stur	q0, [x0, #24]
	stur	q0, [x0, #40]
	stur	q0, [x0, #56]
	stur	q0, [x0, #72]
.LBB0_77:
	ldp	x20, x19, [sp, #176]
	ldp	x22, x21, [sp, #160]
	ldp	x24, x23, [sp, #144]
	ldp	x26, x25, [sp, #128]
	ldp	x28, x27, [sp, #112]
	ldp	x29, x30, [sp, #96]
	add	sp, sp, #192
	ret
.LBB0_78:
	cmp	x28, x24
	b.hs	.LBB0_87
	sub	x8, x9, x24
	mov	x10, xzr
	sub	x11, x27, #128
	add	x12, x8, #1
	add	x13, x1, x28
	mov	w14, #128
.LBB0_80:
	ldrb	w8, [x13, x10]
	cmp	w8, #0
	cset	w15, eq
	cmp	w8, #1
	cset	w16, ne
	cmp	x10, #8
	csel	w15, w16, w15, eq
	tbnz	w15, #0, .LBB0_94
	tbz	w8, #7, .LBB0_96
	sub	x8, x8, #128
	add	x10, x10, #1
	madd	x11, x8, x14, x11
	lsl	x14, x14, #7
	cmn	x12, x10
	mov	w8, #5
	b.ne	.LBB0_80
	b	.LBB0_88
.LBB0_83:
	mov	x9, xzr
	mov	x10, xzr
	mov	x11, xzr
	mov	x14, xzr
	mov	x15, xzr
	mov	x16, xzr
	mov	x17, xzr
	mov	x18, xzr
	mov	w13, #8
.LBB0_84:
	mov	w12, #1
.LBB0_85:
	ldr	x0, [sp, #16]
	stp	x12, x13, [x0]
	stp	x14, x15, [x0, #16]
	stp	x16, x11, [x0, #32]
	stp	x10, x9, [x0, #48]
	stp	x8, x17, [x0, #64]
	str	x18, [x0, #80]
	b	.LBB0_77
.LBB0_86:
	add	x8, x10, x12
	b	.LBB0_95
.LBB0_87:
	mov	w8, #5
.LBB0_88:
	ldr	x0, [sp, #16]
	mov	x2, x24
	b	.LBB0_76
.LBB0_89:
	madd	x26, x15, x8, x13
	add	x8, x10, x12
	mov	x2, x11
	add	x9, x8, #2
	cmp	x11, x9
	b.hi	.LBB0_18
.LBB0_90:
	ldr	x0, [sp, #16]
	mov	w8, #5
	b	.LBB0_76
.LBB0_91:
	subs	x9, x9, x22
	mov	w13, #9
	mov	w12, #1
	b.lo	.LBB0_97
	cmp	x9, x27
	mov	x9, x8
	mov	x10, x8
	mov	x11, x8
	mov	x14, x8
	mov	x15, x8
	mov	x16, x8
	mov	x17, x8
	mov	x18, x8
	b.ne	.LBB0_85
	ldr	x9, [sp, #8]
	mov	x12, xzr
	mov	x8, x26
	mov	x10, x25
	mov	x11, x23
	mov	x13, x19
	mov	x14, x20
	mov	x15, x21
	mov	x16, x22
	mov	x17, x27
	mov	x18, x28
	b	.LBB0_85
.LBB0_94:
	add	x8, x9, x10
.LBB0_95:
	ldr	x0, [sp, #16]
	b	.LBB0_66
.LBB0_96:
	madd	x27, x14, x8, x11
	add	x8, x9, x10
	add	x28, x8, #2
	b	.LBB0_19
.LBB0_97:
	mov	x9, x8
	mov	x10, x8
	mov	x11, x8
	mov	x14, x8
	mov	x15, x8
	mov	x16, x8
	mov	x17, x8
	mov	x18, x8
	b	.LBB0_85
.Lfunc_end0:
	.size	"column::Column::open", .Lfunc_end0-"column::Column::open"

	.section	".text.column::head_ok","ax",@progbits
	.p2align	2
	.type	"column::head_ok",@function
"column::head_ok":
	ldr	x10, [x0, #8]
	mov	w9, #2147352576
	cmp	x10, x9
	b.ls	.LBB1_3
.LBB1_1:
	mov	w0, wzr
.LBB1_2:
	ret
.LBB1_3:
	ldr	x9, [x0, #16]
	mov	x8, x0
	mov	w0, wzr
	sub	x11, x9, #16
	cmn	x11, #9
	ccmp	x9, #0, #4, lo
	b.ne	.LBB1_2
	ldr	x9, [x8, #32]
	lsr	x11, x9, #15
	cbnz	x11, .LBB1_2
	mov	w11, #6
	ldr	x12, [x8, #24]
	mov	w0, wzr
	orr	x9, x11, x9, lsl #3
	cmp	x12, x9
	b.lo	.LBB1_2
	ldr	x12, [x8, #40]
	cmp	x12, #64
	b.hi	.LBB1_2
	mov	x9, #7
	madd	x11, x12, x10, x9
	ldrb	w14, [x8]
	ldp	x13, x9, [x8, #56]
	cmp	w14, #1
	lsr	x11, x11, #3
	b.gt	.LBB1_11
	cbnz	w14, .LBB1_16
	mov	w8, #1
	cbz	x13, .LBB1_17
.LBB1_10:
	mov	x10, #72340172838076673
	movk	x10, #4375
	movk	x10, #4369, lsl #16
	lsr	x10, x10, x12
	orr	w8, w8, w10
	cmp	x9, x11
	cset	w9, eq
	and	w0, w9, w8
	ret
.LBB1_11:
	ldr	x8, [x8, #48]
	cmp	w14, #2
	b.ne	.LBB1_18
	cbnz	x12, .LBB1_1
	mov	w0, wzr
	cbnz	x8, .LBB1_2
	cbz	x13, .LBB1_2
	mov	w8, #16383
	add	x8, x10, x8
	mov	w10, #25
	lsr	x8, x8, #14
	mul	x8, x8, x10
	cmp	x8, x9
	cset	w0, ls
	ret
.LBB1_16:
	mov	w8, wzr
	cbnz	x13, .LBB1_10
.LBB1_17:
	cmp	x9, x11
	cset	w9, eq
	and	w0, w9, wzr
	ret
.LBB1_18:
	sub	x10, x13, #257
	cmn	x10, #255
	b.lo	.LBB1_1
	sub	x10, x13, #1
	mov	w14, #64
	mov	w0, wzr
	clz	x10, x10
	sub	x10, x14, x10
	cmp	x12, x10
	b.ne	.LBB1_2
	cbnz	x8, .LBB1_2
	add	x8, x11, x13, lsl #3
	cmp	x9, x8
	cset	w0, eq
	ret
.Lfunc_end1:
	.size	"column::head_ok", .Lfunc_end1-"column::head_ok"

	.section	".text.checking::accepts","ax",@progbits
	.p2align	2
	.type	"checking::accepts",@function
"checking::accepts":
	stp	x29, x30, [sp, #-96]!
	stp	x28, x27, [sp, #16]
	mov	x29, sp
	stp	x26, x25, [sp, #32]
	stp	x24, x23, [sp, #48]
	stp	x22, x21, [sp, #64]
	stp	x20, x19, [sp, #80]
	sub	sp, sp, #2352
	str	xzr, [sp]
	mov	x23, x0
	mov	x20, x2
	ldp	x24, x5, [x2, #24]
	ldr	x25, [x2, #72]
	ldp	x19, x4, [x2, #8]
	mov	x22, x1
	ldrb	w21, [x2]
	add	x0, sp, #32
	add	x1, x23, x25
	mov	x2, x24
	mov	w3, wzr
	stp	xzr, xzr, [sp, #32]
	str	xzr, [sp, #48]
	bl	"section_check::judge"
	ldrb	w8, [sp, #32]
	mov	w0, wzr
	cbnz	w8, .LBB2_79
	ldr	x8, [sp, #40]
	cmp	x8, x19
	b.ne	.LBB2_79
	ldur	q0, [x20, #40]
	ldr	x8, [x20, #56]
	add	x9, x25, x24
	cmp	w21, #2
	add	x20, x23, x9
	sub	x1, x22, x9
	str	q0, [sp]
	str	x8, [sp, #16]
	b.hs	.LBB2_4
	mov	x4, sp
	mov	x0, x20
	mov	w2, w21
	mov	x3, x19
	bl	"scaled_check::values_ok"
	b	.LBB2_79
.LBB2_4:
	b.ne	.LBB2_7
	and	x8, x19, #0x3fff
	mov	w9, #16383
	add	x8, x8, x9
	lsr	x8, x8, #14
	add	x11, x8, x19, lsr #14
	mov	w8, #25
	mul	x14, x11, x8
	ldr	x8, [sp, #16]
	sub	x10, x1, x14
	cbz	x11, .LBB2_74
	mov	x15, #-65534
	mov	x12, xzr
	mov	x13, xzr
	mov	x9, xzr
	mov	x16, xzr
	add	x14, x20, x14
	movk	x15, #0, lsl #16
	b	.LBB2_26
.LBB2_7:
	mov	x26, x1
	ldr	x25, [sp]
	ldr	x21, [sp, #16]
	add	x0, sp, #32
	mov	w1, wzr
	mov	w2, #2048
	bl	memset
	lsl	x24, x21, #3
	cbz	x21, .LBB2_12
	add	x0, sp, #32
	mov	x1, x20
	mov	x2, x24
	add	x27, sp, #32
	bl	memcpy
	subs	x8, x21, #1
	b.eq	.LBB2_12
	add	x9, x27, #8
.LBB2_10:
	ldp	x10, x11, [x9, #-8]
	cmp	x10, x11
	b.ge	.LBB2_78
	subs	x8, x8, #1
	add	x9, x9, #8
	b.ne	.LBB2_10
.LBB2_12:
	add	x0, sp, #32
	mov	x1, x21
	mov	x2, x19
	bl	"table_values::saves"
	cbz	w0, .LBB2_79
	subs	x8, x26, x24
	b.eq	.LBB2_15
	lsl	x8, x8, #3
	add	x9, x23, x22
	mov	x10, #-1
	msub	x8, x25, x19, x8
	ldurb	w9, [x9, #-1]
	lsl	x8, x10, x8
	bics	xzr, x9, x8
	b.ne	.LBB2_78
.LBB2_15:
	movi	v0.2d, #0000000000000000
	str	q0, [sp, #2320]
	str	q0, [sp, #2304]
	str	q0, [sp, #2288]
	str	q0, [sp, #2272]
	str	q0, [sp, #2256]
	str	q0, [sp, #2240]
	str	q0, [sp, #2224]
	str	q0, [sp, #2208]
	str	q0, [sp, #2192]
	str	q0, [sp, #2176]
	str	q0, [sp, #2160]
	str	q0, [sp, #2144]
	str	q0, [sp, #2128]
	str	q0, [sp, #2112]
	str	q0, [sp, #2096]
	str	q0, [sp, #2080]
	cbz	x19, .LBB2_106
	cbz	x25, .LBB2_82
	mov	w9, #64
	cmp	x25, #8
	add	x8, x20, x24
	sub	x9, x9, x25
	b.hi	.LBB2_84
	mov	x10, xzr
	mov	x12, xzr
.LBB2_19:
	cmp	x19, #63
	add	x11, x12, x25
	b.ls	.LBB2_21
	ldr	x13, [x8, x10]
	rev	x13, x13
	lsl	x12, x13, x12
	b	.LBB2_22
.LBB2_21:
	add	x13, x11, #7
	add	x14, x8, x10
	add	x15, x14, x13, lsr #3
	ldrb	w14, [x14]
	and	w13, w13, #0x38
	sub	w13, w13, w12
	ldurb	w15, [x15, #-1]
	lsl	x14, x14, #56
	add	w13, w13, #56
	lsl	x15, x15, #56
	lsl	x12, x14, x12
	lsr	x13, x15, x13
	orr	x12, x13, x12
.LBB2_22:
	lsr	x12, x12, x9
	cmp	x21, x12
	b.ls	.LBB2_78
	add	x13, sp, #2080
	add	x10, x10, x11, lsr #3
	subs	x19, x19, #1
	mov	w14, #1
	strb	w14, [x13, x12]
	and	x12, x11, #0x7
	b.ne	.LBB2_19
	b	.LBB2_106
.LBB2_24:
	mov	x18, x16
.LBB2_25:
	add	x13, x13, #1
	add	x12, x17, x12
	mov	x16, x18
	cmp	x13, x11
	b.eq	.LBB2_75
.LBB2_26:
	mov	w17, #25
	lsl	x4, x13, #14
	mov	w0, #16384
	madd	x2, x13, x17, x20
	sub	x18, x19, x4
	cmp	x18, #4, lsl #12
	csel	x3, x18, x0, lo
	mov	w0, wzr
	ldr	x17, [x2, #16]
	cmp	x17, x12
	b.ne	.LBB2_79
	ldrb	w18, [x2, #24]
	cmp	w18, #64
	b.hi	.LBB2_79
	mul	x5, x3, x18
	sub	x0, x10, x12
	add	x6, x5, #7
	lsr	x17, x6, #3
	cmp	x0, x17
	b.lo	.LBB2_78
	ldp	x1, x2, [x2]
	add	x0, x14, x12
	cbz	x17, .LBB2_31
	and	x6, x6, #0x7ffff8
	mov	x7, #-1
	sub	x5, x6, x5
	add	x6, x0, x17
	ldurb	w6, [x6, #-1]
	lsl	x5, x7, x5
	bics	xzr, x6, x5
	b.ne	.LBB2_78
.LBB2_31:
	cbz	w18, .LBB2_34
	mov	x5, #-4294967296
	add	x5, x9, x5
	cmp	x5, x15
	b.hs	.LBB2_35
	mov	x5, xzr
	b	.LBB2_36
.LBB2_34:
	mov	x4, xzr
	b	.LBB2_64
.LBB2_35:
	mov	x5, #4294967296
	udiv	x5, x5, x9
	add	x5, x5, #1
.LBB2_36:
	cmp	x19, x4
	b.eq	.LBB2_78
	mov	w21, #64
	mov	x6, xzr
	mov	x24, xzr
	mov	x7, xzr
	mov	x4, xzr
	sub	x22, x21, x18
	mov	x21, #-1
	b	.LBB2_41
.LBB2_38:
	mov	x9, #4294967296
	udiv	x9, x9, x24
	add	x5, x9, #1
.LBB2_39:
	mov	x9, x24
.LBB2_40:
	add	x6, x6, #1
	add	x7, x7, x23, lsr #3
	and	x24, x23, #0x7
	cmp	x6, x3
	b.eq	.LBB2_63
.LBB2_41:
	sub	x23, x3, x6
	cmp	x23, #64
	add	x23, x24, x18
	b.lo	.LBB2_44
	cmp	x23, #64
	b.hi	.LBB2_44
	ldr	x25, [x0, x7]
	rev	x25, x25
	lsl	x24, x25, x24
	b	.LBB2_52
.LBB2_44:
	add	x25, x23, #7
	add	x26, x0, x7
	cmp	w18, #8
	lsr	x25, x25, #3
	add	x27, x26, x25
	b.hi	.LBB2_46
	ldrb	w26, [x26]
	ldurb	w27, [x27, #-1]
	mov	x28, #-1
	b	.LBB2_51
.LBB2_46:
	cmp	w18, #24
	b.hi	.LBB2_48
	ldrh	w26, [x26]
	ldurh	w27, [x27, #-2]
	mov	x28, #-2
	b	.LBB2_51
.LBB2_48:
	cmp	w18, #56
	b.hi	.LBB2_50
	ldr	w26, [x26]
	ldur	w27, [x27, #-4]
	mov	x28, #-4
	b	.LBB2_51
.LBB2_50:
	ldr	x26, [x26]
	ldur	x27, [x27, #-8]
	mov	x28, #-8
.LBB2_51:
	add	w25, w28, w25
	rev	x26, x26
	rev	x27, x27
	lsl	w25, w25, #3
	sub	w25, w25, w24
	lsl	x24, x26, x24
	lsr	x25, x27, x25
	orr	x24, x25, x24
.LBB2_52:
	lsr	x25, x24, x22
	cmp	x25, x21
	csel	x21, x25, x21, lo
	cmp	x25, x4
	csel	x4, x25, x4, hi
	cmp	x9, #1
	b.ne	.LBB2_54
	mov	w24, #1
	cmp	x24, x9
	b.eq	.LBB2_40
	b	.LBB2_60
.LBB2_54:
	lsr	x24, x25, #32
	cbnz	x24, .LBB2_56
	mul	x24, x25, x5
	lsr	x24, x24, #32
	mul	x24, x24, x9
	cmp	x24, x25
	b.eq	.LBB2_40
.LBB2_56:
	cbz	x9, .LBB2_62
	mov	x26, x9
.LBB2_58:
	mov	x24, x26
	udiv	x26, x25, x26
	msub	x26, x26, x24, x25
	mov	x25, x24
	cbnz	x26, .LBB2_58
	cmp	x24, x9
	b.eq	.LBB2_40
.LBB2_60:
	mov	x9, #-4294967296
	add	x9, x24, x9
	cmp	x9, x15
	b.hs	.LBB2_38
	mov	x5, xzr
	b	.LBB2_39
.LBB2_62:
	mov	x24, x25
	cmp	x25, x9
	b.eq	.LBB2_40
	b	.LBB2_60
.LBB2_63:
	cbnz	x21, .LBB2_78
.LBB2_64:
	sub	x0, x18, #1
	lsr	x0, x4, x0
	cmp	x0, #0
	mov	w0, wzr
	ccmp	w18, #0, #4, eq
	b.ne	.LBB2_79
	eor	x18, x1, #0x8000000000000000
	eor	x1, x2, #0x8000000000000000
	subs	x1, x1, x18
	b.lo	.LBB2_79
	cmp	x8, #2
	b.lo	.LBB2_70
	orr	x0, x4, x8
	lsr	x0, x0, #32
	cbz	x0, .LBB2_70
	udiv	x0, x1, x8
	cmp	x4, x0
	b.hi	.LBB2_78
	mul	x0, x4, x8
	b	.LBB2_71
.LBB2_70:
	mul	x0, x4, x8
	cmp	x0, x1
	b.hi	.LBB2_78
.LBB2_71:
	cmp	x0, x1
	b.ne	.LBB2_78
	ldr	x0, [x20]
	eor	x0, x0, #0x8000000000000000
	subs	x18, x0, x18
	cneg	x0, x18, ls
	cbz	x0, .LBB2_24
.LBB2_73:
	mov	x18, x0
	udiv	x0, x16, x0
	msub	x0, x0, x18, x16
	mov	x16, x18
	cbnz	x0, .LBB2_73
	b	.LBB2_25
.LBB2_74:
	mov	x18, xzr
	mov	x9, xzr
	mov	x12, xzr
.LBB2_75:
	cmp	x12, x10
	b.ne	.LBB2_78
	cbz	x8, .LBB2_110
	udiv	x10, x18, x8
	msub	x11, x10, x8, x18
	cbz	x11, .LBB2_80
.LBB2_78:
	mov	w0, wzr
.LBB2_79:
	add	sp, sp, #2352
	ldp	x20, x19, [sp, #80]
	ldp	x22, x21, [sp, #64]
	ldp	x24, x23, [sp, #48]
	ldp	x26, x25, [sp, #32]
	ldp	x28, x27, [sp, #16]
	ldp	x29, x30, [sp], #96
	ret
.LBB2_80:
	cbz	x9, .LBB2_92
.LBB2_81:
	mov	x11, x9
	udiv	x9, x10, x9
	msub	x9, x9, x11, x10
	mov	x10, x11
	cbnz	x9, .LBB2_81
	b	.LBB2_93
.LBB2_82:
	cbz	x21, .LBB2_78
	mov	w8, #1
	strb	w8, [sp, #2080]
	b	.LBB2_106
.LBB2_84:
	cmp	x25, #25
	b.hs	.LBB2_96
	mov	x10, xzr
	mov	x12, xzr
.LBB2_86:
	cmp	x19, #64
	add	x11, x12, x25
	b.lo	.LBB2_89
	cmp	x11, #65
	b.hs	.LBB2_89
	ldr	x13, [x8, x10]
	rev	x13, x13
	lsl	x12, x13, x12
	b	.LBB2_90
.LBB2_89:
	add	x13, x11, #7
	add	x14, x8, x10
	add	x15, x14, x13, lsr #3
	ldrh	w14, [x14]
	and	w13, w13, #0x38
	sub	w13, w13, w12
	ldurh	w15, [x15, #-2]
	rev	x14, x14
	add	w13, w13, #48
	lsl	x12, x14, x12
	rev	x15, x15
	lsr	x13, x15, x13
	orr	x12, x13, x12
.LBB2_90:
	lsr	x12, x12, x9
	cmp	x21, x12
	b.ls	.LBB2_78
	add	x13, sp, #2080
	add	x10, x10, x11, lsr #3
	subs	x19, x19, #1
	mov	w14, #1
	strb	w14, [x13, x12]
	and	x12, x11, #0x7
	b.ne	.LBB2_86
	b	.LBB2_106
.LBB2_92:
	mov	x11, x10
.LBB2_93:
	cbz	x11, .LBB2_109
	cmp	x11, #1
	b.ne	.LBB2_78
	mov	w0, #1
	b	.LBB2_79
.LBB2_96:
	mov	x10, xzr
	mov	x12, xzr
.LBB2_97:
	cmp	x19, #64
	add	x11, x12, x25
	b.lo	.LBB2_100
	cmp	x11, #64
	b.hi	.LBB2_100
	ldr	x13, [x8, x10]
	rev	x13, x13
	lsl	x12, x13, x12
	b	.LBB2_104
.LBB2_100:
	add	x13, x11, #7
	add	x14, x8, x10
	cmp	x25, #56
	lsr	x13, x13, #3
	add	x15, x14, x13
	b.hi	.LBB2_102
	ldr	w14, [x14]
	ldur	w15, [x15, #-4]
	mov	x16, #-4
	b	.LBB2_103
.LBB2_102:
	ldr	x14, [x14]
	ldur	x15, [x15, #-8]
	mov	x16, #-8
.LBB2_103:
	add	w13, w16, w13
	rev	x14, x14
	rev	x15, x15
	lsl	w13, w13, #3
	sub	w13, w13, w12
	lsl	x12, x14, x12
	lsr	x13, x15, x13
	orr	x12, x13, x12
.LBB2_104:
	lsr	x12, x12, x9
	cmp	x21, x12
	b.ls	.LBB2_78
	add	x13, sp, #2080
	add	x10, x10, x11, lsr #3
	subs	x19, x19, #1
	mov	w14, #1
	strb	w14, [x13, x12]
	and	x12, x11, #0x7
	b.ne	.LBB2_97
.LBB2_106:
	add	x8, sp, #2080
.LBB2_107:
	cmp	x21, #0
	cset	w0, eq
	cbz	x21, .LBB2_79
	ldrb	w9, [x8], #1
	sub	x21, x21, #1
	cbnz	w9, .LBB2_107
	b	.LBB2_79
.LBB2_109:
	cmp	x8, #1
	cset	w0, eq
	b	.LBB2_79
.LBB2_110:
	brk	#0x1
.Lfunc_end2:
	.size	"checking::accepts", .Lfunc_end2-"checking::accepts"

	.section	".text.section_check::judge","ax",@progbits
	.p2align	2
	.type	"section_check::judge",@function
"section_check::judge":
	sub	sp, sp, #128
	subs	x11, x2, #4
	stp	d9, d8, [sp, #16]
	str	x30, [sp, #32]
	stp	x28, x27, [sp, #48]
	stp	x26, x25, [sp, #64]
	stp	x24, x23, [sp, #80]
	stp	x22, x21, [sp, #96]
	stp	x20, x19, [sp, #112]
	b.lo	.LBB3_89
	mov	w10, #17
	mov	w13, #1
	sub	x15, x4, #6
	sub	x12, x10, x4
	sub	x17, x4, #8
	mov	w16, #4
	lsl	x14, x13, x12
	lsl	x13, x13, x15
	cmp	x4, #0
	mov	w10, #8192
	lsl	x23, x16, x17
	add	x20, x1, #20
	lsr	x15, x14, #1
	add	x17, x14, #2, lsl #12
	lsl	x21, x13, #3
	csel	x10, x10, x17, eq
	add	x13, x20, x14
	mov	x25, xzr
	and	x17, x15, #0x7ffffffffffffff8
	mov	x8, xzr
	mov	x9, xzr
	add	x16, x1, x14
	and	x18, x14, #0x30
	add	x7, x1, #6
	add	x19, x1, #5
	str	x13, [sp, #40]
	neg	x13, x17
	stp	x18, x13, [sp]
.LBB3_2:
	tbz	w3, #0, .LBB3_27
	b	.LBB3_5
.LBB3_3:
	tbz	w6, #0, .LBB3_100
.LBB3_4:
	add	x9, x9, x18
	add	x8, x30, x8
	add	x25, x27, #1
	add	x9, x9, #4
	sub	x13, x2, x9
	cmp	x13, #3
	b.ls	.LBB3_90
.LBB3_5:
	add	x13, x1, x9
	ldrh	w14, [x13]
	rev16	w27, w14
	mov	w14, #32767
	cmp	w27, w14
	b.eq	.LBB3_93
	ldrb	w24, [x13, #3]
	ldrb	w14, [x13, #2]
	mov	x28, x24
	bfi	x28, x14, #8, #8
	cmp	x28, #4094
	b.hi	.LBB3_47
	add	x30, x28, #1
	sub	x13, x11, x9
	lsl	x18, x30, #1
	cmp	x13, x18
	b.lo	.LBB3_90
	cmp	x27, x25
	mov	w13, #1
	b.lo	.LBB3_91
	mov	w17, #32765
	cmp	x27, x17
	b.hi	.LBB3_91
	cbz	x28, .LBB3_4
	lsl	x25, x14, #8
	cmp	x28, #8
	b.hs	.LBB3_13
	mov	w6, #1
	mov	w13, #1
	b	.LBB3_23
.LBB3_13:
	cmp	x28, #16
	b.hs	.LBB3_15
	mov	x26, xzr
	mov	w6, #1
	b	.LBB3_20
.LBB3_15:
	movi	v0.16b, #1
	and	x22, x24, #0xf
	add	x17, x7, x9
	sub	x26, x28, x22
	sub	x13, x28, x22
.LBB3_16:
	sub	x14, x17, #2
	ld2	{ v3.16b, v4.16b }, [x17], #32
	subs	x13, x13, #16
	ld2	{ v1.16b, v2.16b }, [x14]
	ushll2	v5.8h, v4.16b, #0
	ushll	v6.8h, v3.8b, #0
	ushll	v7.8h, v4.8b, #0
	ushll2	v3.8h, v3.16b, #0
	ushll2	v16.8h, v2.16b, #0
	ushll2	v4.4s, v5.8h, #0
	ushll	v17.4s, v6.4h, #0
	ushll	v5.4s, v5.4h, #0
	ushll2	v18.4s, v7.8h, #0
	ushll	v20.4s, v7.4h, #0
	ushll2	v6.4s, v6.8h, #0
	ushll	v19.4s, v3.4h, #0
	ushll2	v3.4s, v3.8h, #0
	ushll2	v7.2d, v4.4s, #0
	ushll	v21.2d, v4.2s, #0
	ushll2	v22.2d, v5.4s, #0
	ushll	v23.2d, v5.2s, #0
	ushll2	v24.2d, v18.4s, #0
	ushll	v5.2d, v18.2s, #0
	ushll	v4.2d, v20.2s, #0
	ushll	v18.2d, v17.2s, #8
	ushll2	v20.2d, v20.4s, #0
	ushll2	v17.2d, v17.4s, #8
	ushll	v25.2d, v6.2s, #8
	ushll2	v26.2d, v3.4s, #8
	ushll	v27.2d, v19.2s, #8
	ushll2	v6.2d, v6.4s, #8
	ushll	v28.2d, v3.2s, #8
	ushll2	v19.2d, v19.4s, #8
	orr	v3.16b, v18.16b, v4.16b
	orr	v4.16b, v17.16b, v20.16b
	ushll	v17.8h, v1.8b, #0
	ushll	v20.8h, v2.8b, #0
	ushll2	v1.8h, v1.16b, #0
	orr	v6.16b, v6.16b, v24.16b
	orr	v18.16b, v27.16b, v23.16b
	orr	v19.16b, v19.16b, v22.16b
	ushll2	v2.4s, v16.8h, #0
	ushll	v16.4s, v16.4h, #0
	ushll	v22.4s, v17.4h, #0
	ushll2	v17.4s, v17.8h, #0
	ushll2	v23.4s, v20.8h, #0
	ushll	v20.4s, v20.4h, #0
	ushll	v24.4s, v1.4h, #0
	ushll2	v1.4s, v1.8h, #0
	orr	v5.16b, v25.16b, v5.16b
	orr	v21.16b, v28.16b, v21.16b
	ushll2	v25.2d, v2.4s, #0
	ushll	v2.2d, v2.2s, #0
	ushll2	v27.2d, v16.4s, #0
	ushll	v16.2d, v16.2s, #0
	ushll2	v28.2d, v23.4s, #0
	ushll	v23.2d, v23.2s, #0
	ushll2	v29.2d, v20.4s, #0
	ushll	v20.2d, v20.2s, #0
	ushll2	v30.2d, v1.4s, #8
	ushll	v1.2d, v1.2s, #8
	ushll2	v31.2d, v24.4s, #8
	ushll	v24.2d, v24.2s, #8
	ushll2	v8.2d, v17.4s, #8
	ushll	v17.2d, v17.2s, #8
	ushll2	v9.2d, v22.4s, #8
	ushll	v22.2d, v22.2s, #8
	orr	v7.16b, v26.16b, v7.16b
	orr	v1.16b, v1.16b, v2.16b
	orr	v2.16b, v30.16b, v25.16b
	orr	v25.16b, v8.16b, v28.16b
	orr	v16.16b, v24.16b, v16.16b
	orr	v24.16b, v31.16b, v27.16b
	orr	v20.16b, v22.16b, v20.16b
	orr	v22.16b, v9.16b, v29.16b
	orr	v17.16b, v17.16b, v23.16b
	cmhi	v2.2d, v7.2d, v2.2d
	cmhi	v1.2d, v21.2d, v1.2d
	cmhi	v7.2d, v19.2d, v24.2d
	cmhi	v16.2d, v18.2d, v16.2d
	cmhi	v6.2d, v6.2d, v25.2d
	cmhi	v5.2d, v5.2d, v17.2d
	cmhi	v4.2d, v4.2d, v22.2d
	cmhi	v3.2d, v3.2d, v20.2d
	uzp1	v1.4s, v1.4s, v2.4s
	uzp1	v2.4s, v16.4s, v7.4s
	uzp1	v5.4s, v5.4s, v6.4s
	uzp1	v3.4s, v3.4s, v4.4s
	uzp1	v1.8h, v2.8h, v1.8h
	uzp1	v2.8h, v3.8h, v5.8h
	uzp1	v1.16b, v2.16b, v1.16b
	and	v0.16b, v0.16b, v1.16b
	b.ne	.LBB3_16
	shl	v0.16b, v0.16b, #7
	cmlt	v0.16b, v0.16b, #0
	uminv	b0, v0.16b
	fmov	w6, s0
	cbz	x22, .LBB3_3
	cmp	x22, #8
	b.hs	.LBB3_20
	add	x13, x26, #1
	b	.LBB3_23
.LBB3_20:
	movi	v0.2d, #0xffffffffffffffff
	and	x17, x24, #0x7
	add	x14, x9, x26, lsl #1
	add	x13, x26, x17
	sub	x26, x13, x24
	add	x22, x7, x14
	sub	x26, x26, x25
	mov	v0.b[0], w6
	sub	x6, x28, x17
	add	x13, x6, #1
.LBB3_21:
	sub	x14, x22, #2
	ld2	{ v1.8b, v2.8b }, [x22], #16
	ld2	{ v3.8b, v4.8b }, [x14]
	adds	x26, x26, #8
	ushll	v5.8h, v2.8b, #0
	ushll	v1.8h, v1.8b, #0
	ushll	v2.8h, v3.8b, #0
	ushll	v3.8h, v4.8b, #0
	ushll2	v4.4s, v5.8h, #0
	ushll	v6.4s, v1.4h, #0
	ushll	v5.4s, v5.4h, #0
	ushll2	v1.4s, v1.8h, #0
	ushll	v7.4s, v2.4h, #0
	ushll2	v2.4s, v2.8h, #0
	ushll2	v16.4s, v3.8h, #0
	ushll	v3.4s, v3.4h, #0
	ushll2	v17.2d, v4.4s, #0
	ushll	v4.2d, v4.2s, #0
	ushll2	v18.2d, v5.4s, #0
	ushll	v5.2d, v5.2s, #0
	ushll2	v19.2d, v1.4s, #8
	ushll	v1.2d, v1.2s, #8
	ushll2	v20.2d, v6.4s, #8
	ushll	v6.2d, v6.2s, #8
	ushll2	v21.2d, v16.4s, #0
	ushll	v16.2d, v16.2s, #0
	ushll2	v22.2d, v3.4s, #0
	ushll	v3.2d, v3.2s, #0
	ushll2	v23.2d, v2.4s, #8
	ushll	v2.2d, v2.2s, #8
	ushll2	v24.2d, v7.4s, #8
	ushll	v7.2d, v7.2s, #8
	orr	v5.16b, v6.16b, v5.16b
	orr	v6.16b, v20.16b, v18.16b
	orr	v1.16b, v1.16b, v4.16b
	orr	v4.16b, v19.16b, v17.16b
	orr	v17.16b, v23.16b, v21.16b
	orr	v2.16b, v2.16b, v16.16b
	orr	v3.16b, v7.16b, v3.16b
	orr	v7.16b, v24.16b, v22.16b
	cmhi	v4.2d, v4.2d, v17.2d
	cmhi	v1.2d, v1.2d, v2.2d
	cmhi	v2.2d, v6.2d, v7.2d
	cmhi	v3.2d, v5.2d, v3.2d
	uzp1	v1.4s, v1.4s, v4.4s
	uzp1	v2.4s, v3.4s, v2.4s
	uzp1	v1.8h, v2.8h, v1.8h
	xtn	v1.8b, v1.8h
	and	v0.8b, v0.8b, v1.8b
	b.ne	.LBB3_21
	shl	v0.8b, v0.8b, #7
	cmlt	v0.8b, v0.8b, #0
	uminv	b0, v0.8b
	fmov	w6, s0
	cbz	x17, .LBB3_3
.LBB3_23:
	add	x14, x25, x24
	add	x17, x9, x13, lsl #1
	sub	x13, x14, x13
	add	x13, x13, #1
	add	x17, x19, x17
.LBB3_24:
	ldurh	w14, [x17, #-1]
	ldurh	w22, [x17, #-3]
	add	x17, x17, #2
	rev16	w14, w14
	rev16	w22, w22
	cmp	x22, w14, uxtw
	cset	w14, lo
	subs	x13, x13, #1
	and	w6, w6, w14
	b.ne	.LBB3_24
	b	.LBB3_3
.LBB3_25:
	tbz	w6, #0, .LBB3_100
.LBB3_26:
	add	x9, x9, x18
	add	x8, x30, x8
	add	x25, x27, #1
	add	x9, x9, #4
	sub	x13, x2, x9
	cmp	x13, #3
	b.ls	.LBB3_90
.LBB3_27:
	add	x13, x1, x9
	mov	w14, #32767
	ldrh	w27, [x13]
	cmp	x27, x14
	b.eq	.LBB3_93
	ldrb	w24, [x13, #2]
	ldrb	w14, [x13, #3]
	mov	x28, x24
	bfi	x28, x14, #8, #8
	cmp	x28, #4094
	b.hi	.LBB3_47
	add	x30, x28, #1
	sub	x13, x11, x9
	lsl	x18, x30, #1
	cmp	x13, x18
	b.lo	.LBB3_90
	cmp	x27, x25
	mov	w13, #1
	b.lo	.LBB3_91
	mov	w17, #32765
	cmp	x27, x17
	b.hi	.LBB3_91
	cbz	x28, .LBB3_26
	lsl	x25, x14, #8
	cmp	x28, #8
	b.hs	.LBB3_35
	mov	w6, #1
	mov	w13, #1
	b	.LBB3_45
.LBB3_35:
	cmp	x28, #16
	b.hs	.LBB3_37
	mov	x26, xzr
	mov	w6, #1
	b	.LBB3_42
.LBB3_37:
	movi	v0.16b, #1
	and	x22, x24, #0xf
	add	x17, x7, x9
	sub	x26, x28, x22
	sub	x13, x28, x22
.LBB3_38:
	sub	x14, x17, #2
	ld2	{ v3.16b, v4.16b }, [x17], #32
	subs	x13, x13, #16
	ld2	{ v1.16b, v2.16b }, [x14]
	ushll2	v5.8h, v3.16b, #0
	ushll	v6.8h, v3.8b, #0
	ushll	v7.8h, v4.8b, #0
	ushll2	v3.8h, v4.16b, #0
	ushll2	v19.8h, v1.16b, #0
	ushll2	v4.4s, v5.8h, #0
	ushll	v5.4s, v5.4h, #0
	ushll	v17.4s, v6.4h, #0
	ushll	v18.4s, v7.4h, #0
	ushll	v20.4s, v3.4h, #0
	ushll2	v16.4s, v6.8h, #0
	ushll2	v7.4s, v7.8h, #0
	ushll2	v3.4s, v3.8h, #0
	ushll2	v6.2d, v4.4s, #0
	ushll	v21.2d, v4.2s, #0
	ushll2	v22.2d, v5.4s, #0
	ushll	v4.2d, v17.2s, #0
	ushll	v25.2d, v18.2s, #8
	ushll2	v17.2d, v17.4s, #0
	ushll2	v18.2d, v18.4s, #8
	ushll	v27.2d, v20.2s, #8
	ushll2	v20.2d, v20.4s, #8
	ushll	v23.2d, v5.2s, #0
	ushll2	v24.2d, v16.4s, #0
	ushll	v5.2d, v16.2s, #0
	ushll	v26.2d, v7.2s, #8
	ushll2	v16.2d, v3.4s, #8
	ushll2	v7.2d, v7.4s, #8
	ushll	v28.2d, v3.2s, #8
	orr	v3.16b, v25.16b, v4.16b
	orr	v4.16b, v18.16b, v17.16b
	ushll	v25.8h, v1.8b, #0
	orr	v18.16b, v20.16b, v22.16b
	ushll2	v20.8h, v2.16b, #0
	ushll	v1.8h, v2.8b, #0
	orr	v5.16b, v26.16b, v5.16b
	orr	v7.16b, v7.16b, v24.16b
	orr	v17.16b, v27.16b, v23.16b
	ushll2	v23.4s, v19.8h, #0
	ushll	v19.4s, v19.4h, #0
	orr	v21.16b, v28.16b, v21.16b
	ushll2	v22.4s, v25.8h, #0
	ushll	v24.4s, v25.4h, #0
	ushll2	v26.4s, v20.8h, #0
	ushll2	v28.4s, v1.8h, #0
	ushll	v20.4s, v20.4h, #0
	ushll	v1.4s, v1.4h, #0
	ushll2	v2.2d, v23.4s, #0
	ushll	v23.2d, v23.2s, #0
	ushll2	v25.2d, v19.4s, #0
	ushll	v19.2d, v19.2s, #0
	ushll2	v27.2d, v22.4s, #0
	ushll	v22.2d, v22.2s, #0
	ushll2	v29.2d, v24.4s, #0
	ushll	v24.2d, v24.2s, #0
	ushll2	v30.2d, v26.4s, #8
	ushll	v26.2d, v26.2s, #8
	ushll2	v31.2d, v20.4s, #8
	ushll	v20.2d, v20.2s, #8
	ushll2	v8.2d, v28.4s, #8
	ushll	v28.2d, v28.2s, #8
	ushll2	v9.2d, v1.4s, #8
	ushll	v1.2d, v1.2s, #8
	orr	v6.16b, v16.16b, v6.16b
	orr	v16.16b, v26.16b, v23.16b
	orr	v2.16b, v30.16b, v2.16b
	orr	v23.16b, v8.16b, v27.16b
	orr	v19.16b, v20.16b, v19.16b
	orr	v20.16b, v31.16b, v25.16b
	orr	v1.16b, v1.16b, v24.16b
	orr	v24.16b, v9.16b, v29.16b
	orr	v22.16b, v28.16b, v22.16b
	cmhi	v2.2d, v6.2d, v2.2d
	cmhi	v6.2d, v21.2d, v16.2d
	cmhi	v16.2d, v18.2d, v20.2d
	cmhi	v17.2d, v17.2d, v19.2d
	cmhi	v7.2d, v7.2d, v23.2d
	cmhi	v5.2d, v5.2d, v22.2d
	cmhi	v4.2d, v4.2d, v24.2d
	cmhi	v1.2d, v3.2d, v1.2d
	uzp1	v2.4s, v6.4s, v2.4s
	uzp1	v3.4s, v17.4s, v16.4s
	uzp1	v5.4s, v5.4s, v7.4s
	uzp1	v1.4s, v1.4s, v4.4s
	uzp1	v2.8h, v3.8h, v2.8h
	uzp1	v1.8h, v1.8h, v5.8h
	uzp1	v1.16b, v1.16b, v2.16b
	and	v0.16b, v0.16b, v1.16b
	b.ne	.LBB3_38
	shl	v0.16b, v0.16b, #7
	cmlt	v0.16b, v0.16b, #0
	uminv	b0, v0.16b
	fmov	w6, s0
	cbz	x22, .LBB3_25
	cmp	x22, #8
	b.hs	.LBB3_42
	add	x13, x26, #1
	b	.LBB3_45
.LBB3_42:
	movi	v0.2d, #0xffffffffffffffff
	and	x17, x24, #0x7
	add	x14, x9, x26, lsl #1
	add	x13, x26, x17
	sub	x26, x13, x24
	add	x22, x7, x14
	sub	x26, x26, x25
	mov	v0.b[0], w6
	sub	x6, x28, x17
	add	x13, x6, #1
.LBB3_43:
	sub	x14, x22, #2
	ld2	{ v1.8b, v2.8b }, [x22], #16
	ld2	{ v3.8b, v4.8b }, [x14]
	adds	x26, x26, #8
	ushll	v5.8h, v1.8b, #0
	ushll	v1.8h, v2.8b, #0
	ushll	v2.8h, v3.8b, #0
	ushll	v3.8h, v4.8b, #0
	ushll2	v4.4s, v5.8h, #0
	ushll	v5.4s, v5.4h, #0
	ushll	v6.4s, v1.4h, #0
	ushll2	v1.4s, v1.8h, #0
	ushll2	v7.4s, v2.8h, #0
	ushll	v2.4s, v2.4h, #0
	ushll	v16.4s, v3.4h, #0
	ushll2	v3.4s, v3.8h, #0
	ushll2	v17.2d, v4.4s, #0
	ushll	v4.2d, v4.2s, #0
	ushll2	v18.2d, v5.4s, #0
	ushll	v5.2d, v5.2s, #0
	ushll2	v19.2d, v1.4s, #8
	ushll	v1.2d, v1.2s, #8
	ushll2	v20.2d, v6.4s, #8
	ushll	v6.2d, v6.2s, #8
	ushll2	v21.2d, v7.4s, #0
	ushll	v7.2d, v7.2s, #0
	ushll2	v22.2d, v2.4s, #0
	ushll	v2.2d, v2.2s, #0
	ushll2	v23.2d, v3.4s, #8
	ushll	v3.2d, v3.2s, #8
	ushll2	v24.2d, v16.4s, #8
	ushll	v16.2d, v16.2s, #8
	orr	v5.16b, v6.16b, v5.16b
	orr	v6.16b, v20.16b, v18.16b
	orr	v1.16b, v1.16b, v4.16b
	orr	v4.16b, v19.16b, v17.16b
	orr	v17.16b, v23.16b, v21.16b
	orr	v3.16b, v3.16b, v7.16b
	orr	v2.16b, v16.16b, v2.16b
	orr	v16.16b, v24.16b, v22.16b
	cmhi	v4.2d, v4.2d, v17.2d
	cmhi	v1.2d, v1.2d, v3.2d
	cmhi	v3.2d, v6.2d, v16.2d
	cmhi	v2.2d, v5.2d, v2.2d
	uzp1	v1.4s, v1.4s, v4.4s
	uzp1	v2.4s, v2.4s, v3.4s
	uzp1	v1.8h, v2.8h, v1.8h
	xtn	v1.8b, v1.8h
	and	v0.8b, v0.8b, v1.8b
	b.ne	.LBB3_43
	shl	v0.8b, v0.8b, #7
	cmlt	v0.8b, v0.8b, #0
	uminv	b0, v0.8b
	fmov	w6, s0
	cbz	x17, .LBB3_25
.LBB3_45:
	add	x14, x25, x24
	add	x17, x9, x13, lsl #1
	sub	x13, x14, x13
	add	x13, x13, #1
	add	x14, x19, x17
.LBB3_46:
	ldurh	w17, [x14, #-1]
	ldurh	w22, [x14, #-3]
	add	x14, x14, #2
	cmp	x22, x17
	cset	w17, lo
	subs	x13, x13, #1
	and	w6, w6, w17
	b.ne	.LBB3_46
	b	.LBB3_25
.LBB3_47:
	mov	w13, #65535
	cmp	x28, x13
	add	x28, x28, #1
	b.ne	.LBB3_51
	mov	w13, #32765
	cmp	x27, x13
	mov	w13, #1
	b.hi	.LBB3_91
	cmp	x27, x25
	b.lo	.LBB3_91
	mov	x14, xzr
	add	x30, x9, #4
	b	.LBB3_88
.LBB3_51:
	sub	x13, x11, x9
	cmp	x13, x10
	b.lo	.LBB3_90
	mov	w13, #32765
	cmp	x27, x13
	mov	w13, #1
	b.hi	.LBB3_91
	cmp	x27, x25
	b.lo	.LBB3_91
	add	x30, x9, #4
	cbz	x4, .LBB3_60
	cbz	x15, .LBB3_108
	cmp	x4, #7
	b.eq	.LBB3_63
	cmp	x4, #9
	b.ne	.LBB3_65
	mov	x24, xzr
	add	x13, x16, x30
	add	x17, x19, x9
	mov	w18, #1
	mov	x6, x15
.LBB3_59:
	ldp	q1, q0, [x13]
	ldurh	w14, [x17, #-1]
	ldp	q3, q2, [x13, #32]
	add	x17, x17, #2
	rev16	w14, w14
	add	x13, x13, x21
	cnt	v0.16b, v0.16b
	cnt	v1.16b, v1.16b
	cmp	x14, x24
	cnt	v2.16b, v2.16b
	cnt	v3.16b, v3.16b
	cset	w14, eq
	and	w18, w18, w14
	subs	x6, x6, #1
	uaddlp	v0.8h, v0.16b
	uaddlp	v1.8h, v1.16b
	uaddlp	v2.8h, v2.16b
	uaddlp	v3.8h, v3.16b
	uaddlp	v0.4s, v0.8h
	uaddlp	v1.4s, v1.8h
	uaddlp	v2.4s, v2.8h
	uaddlp	v3.4s, v3.8h
	uaddlp	v0.2d, v0.4s
	uaddlp	v1.2d, v1.4s
	uadalp	v0.2d, v2.4s
	uadalp	v1.2d, v3.4s
	add	v0.2d, v1.2d, v0.2d
	addp	d0, v0.2d
	fmov	x14, d0
	add	x24, x14, x24
	b.ne	.LBB3_59
	b	.LBB3_85
.LBB3_60:
	movi	v0.2d, #0000000000000000
	movi	v1.2d, #0000000000000000
	add	x13, x20, x9
	mov	w17, #1024
.LBB3_61:
	ldp	q2, q3, [x13, #-16]
	subs	x17, x17, #4
	add	x13, x13, #32
	cnt	v2.16b, v2.16b
	cnt	v3.16b, v3.16b
	uaddlp	v2.8h, v2.16b
	uaddlp	v3.8h, v3.16b
	uaddlp	v2.4s, v2.8h
	uaddlp	v3.4s, v3.8h
	uadalp	v0.2d, v2.4s
	uadalp	v1.2d, v3.4s
	b.ne	.LBB3_61
	add	v0.2d, v1.2d, v0.2d
	mov	w14, wzr
	mov	x13, xzr
	addp	d0, v0.2d
	fmov	x24, d0
	b	.LBB3_86
.LBB3_63:
	add	x13, x16, #12
	mov	x24, xzr
	add	x17, x19, x9
	add	x13, x13, x9
	mov	w18, #1
	mov	x6, x15
.LBB3_64:
	ldp	d0, d1, [x13, #-8]
	add	x13, x13, x21
	ldurh	w14, [x17, #-1]
	add	x17, x17, #2
	cnt	v0.8b, v0.8b
	cnt	v1.8b, v1.8b
	rev16	w14, w14
	cmp	x14, x24
	cset	w14, eq
	subs	x6, x6, #1
	and	w18, w18, w14
	addv	b0, v0.8b
	addv	b1, v1.8b
	fmov	x22, d0
	fmov	x14, d1
	add	x22, x22, x24
	add	x24, x22, x14
	b.ne	.LBB3_64
	b	.LBB3_85
.LBB3_65:
	sub	x13, x4, #8
	cmp	x13, #61
	b.ls	.LBB3_68
	cmp	x12, #4
	b.hs	.LBB3_72
	mov	x14, xzr
	mov	w18, #1
	b	.LBB3_82
.LBB3_68:
	ldr	x14, [sp, #40]
	mov	x13, xzr
	mov	x24, xzr
	add	x17, x1, x30
	mov	w18, #1
	add	x6, x14, x9
.LBB3_69:
	add	x14, x17, x13, lsl #1
	movi	v0.2d, #0000000000000000
	movi	v1.2d, #0000000000000000
	mov	x26, x6
	ldrb	w22, [x14]
	ldrb	w25, [x14, #1]
	mov	x14, x23
.LBB3_70:
	ldp	q2, q3, [x26, #-16]
	subs	x14, x14, #4
	add	x26, x26, #32
	cnt	v2.16b, v2.16b
	cnt	v3.16b, v3.16b
	uaddlp	v2.8h, v2.16b
	uaddlp	v3.8h, v3.16b
	uaddlp	v2.4s, v2.8h
	uaddlp	v3.4s, v3.8h
	uadalp	v0.2d, v2.4s
	uadalp	v1.2d, v3.4s
	b.ne	.LBB3_70
	add	v0.2d, v1.2d, v0.2d
	orr	x14, x25, x22, lsl #8
	add	x13, x13, #1
	add	x6, x6, x21
	cmp	x14, x24
	addp	d0, v0.2d
	cset	w22, eq
	cmp	x13, x15
	and	w18, w18, w22
	fmov	x14, d0
	add	x24, x14, x24
	b.ne	.LBB3_69
	b	.LBB3_85
.LBB3_72:
	cmp	x12, #6
	b.hs	.LBB3_74
	mov	x13, xzr
	mov	w18, #1
	b	.LBB3_78
.LBB3_74:
	movi	v0.16b, #1
	movi	v1.16b, #1
	add	x13, x1, #36
	add	x13, x13, x9
	and	x17, x15, #0x7fffffffffffffe0
.LBB3_75:
	sub	x14, x13, #32
	ld2	{ v4.16b, v5.16b }, [x13]
	subs	x17, x17, #32
	add	x13, x13, #64
	ld2	{ v2.16b, v3.16b }, [x14]
	orr	v2.16b, v3.16b, v2.16b
	orr	v3.16b, v5.16b, v4.16b
	cmeq	v2.16b, v2.16b, #0
	cmeq	v3.16b, v3.16b, #0
	and	v0.16b, v0.16b, v2.16b
	and	v1.16b, v1.16b, v3.16b
	b.ne	.LBB3_75
	and	v0.16b, v1.16b, v0.16b
	and	x13, x15, #0x7fffffffffffffe0
	cmp	x15, x13
	shl	v0.16b, v0.16b, #7
	cmlt	v0.16b, v0.16b, #0
	uminv	b0, v0.16b
	fmov	w18, s0
	b.eq	.LBB3_84
	ldr	x17, [sp]
	and	x13, x15, #0x7fffffffffffffe0
	and	x14, x15, #0x7fffffffffffffe0
	cbz	x17, .LBB3_82
.LBB3_78:
	movi	v0.2d, #0xffffffffffffffff
	ldr	x17, [sp, #8]
	add	x14, x9, x13, lsl #1
	add	x13, x17, x13
	add	x17, x1, #4
	add	x14, x17, x14
	mov	v0.b[0], w18
.LBB3_79:
	ld2	{ v1.8b, v2.8b }, [x14], #16
	adds	x13, x13, #8
	orr	v1.8b, v2.8b, v1.8b
	cmeq	v1.8b, v1.8b, #0
	and	v0.8b, v0.8b, v1.8b
	b.ne	.LBB3_79
	shl	v0.8b, v0.8b, #7
	and	x13, x15, #0x7ffffffffffffff8
	cmp	x15, x13
	cmlt	v0.8b, v0.8b, #0
	uminv	b0, v0.8b
	fmov	w18, s0
	b.eq	.LBB3_84
	and	x14, x15, #0x7ffffffffffffff8
.LBB3_82:
	add	x17, x9, x14, lsl #1
	sub	x13, x15, x14
	add	x14, x19, x17
.LBB3_83:
	ldurb	w17, [x14, #-1]
	ldrb	w6, [x14], #2
	orr	w17, w6, w17
	cmp	w17, #0
	cset	w17, eq
	subs	x13, x13, #1
	and	w18, w18, w17
	b.ne	.LBB3_83
.LBB3_84:
	mov	x24, xzr
.LBB3_85:
	tst	w18, #0x1
	mov	w13, #4
	eor	w14, w18, #0x1
	csel	x13, xzr, x13, ne
.LBB3_86:
	cmp	x24, x28
	cset	w17, ne
	tbnz	w14, #0, .LBB3_107
	mov	x14, x10
	cbnz	w17, .LBB3_107
.LBB3_88:
	add	x9, x14, x30
	mov	x13, xzr
	add	x8, x28, x8
	sub	x14, x2, x9
	add	x25, x27, #1
	cmp	x14, #3
	b.hi	.LBB3_2
	b	.LBB3_91
.LBB3_89:
	mov	x9, xzr
.LBB3_90:
	mov	x13, xzr
.LBB3_91:
	mov	w8, #1
	str	x9, [x0, #16]
	stp	x8, x13, [x0]
.LBB3_92:
	ldp	x20, x19, [sp, #112]
	ldr	x30, [sp, #32]
	ldp	x22, x21, [sp, #96]
	ldp	x24, x23, [sp, #80]
	ldp	x26, x25, [sp, #64]
	ldp	x28, x27, [sp, #48]
	ldp	d9, d8, [sp, #16]
	add	sp, sp, #128
	ret
.LBB3_93:
	sub	x11, x2, x9
	cmp	x11, #6
	b.lo	.LBB3_90
	add	x11, x1, x9
	tst	w3, #0x1
	ldrb	w12, [x11, #2]
	ldrb	w13, [x11, #3]
	orr	x14, x12, x13, lsl #8
	orr	x12, x13, x12, lsl #8
	csel	x12, x12, x14, ne
	cbnz	x12, .LBB3_101
	ldrb	w12, [x11, #4]
	ldrb	w11, [x11, #5]
	tst	w3, #0x1
	orr	x13, x12, x11, lsl #8
	orr	x11, x11, x12, lsl #8
	mov	w12, #65535
	csel	x11, x11, x13, ne
	cmp	x11, x12
	b.ne	.LBB3_101
	add	x12, x25, #1
	add	x11, x9, #6
	cmp	x12, #2
	b.ne	.LBB3_102
	cbnz	x5, .LBB3_116
	cmp	x11, x2
	b.ne	.LBB3_115
.LBB3_99:
	mov	x10, xzr
	mov	x11, xzr
	and	x9, x8, #0xffffffffffffff00
	b	.LBB3_119
.LBB3_100:
	mov	w13, #2
	b	.LBB3_91
.LBB3_101:
	mov	w13, #5
	b	.LBB3_91
.LBB3_102:
	cmp	x5, x12
	b.ne	.LBB3_116
	cbz	x9, .LBB3_109
	subs	x14, x2, #8
	b.hs	.LBB3_120
	mov	x17, xzr
	mov	x16, xzr
.LBB3_106:
	add	x8, x16, x17
	mov	x9, xzr
	add	x11, x11, x8, lsl #3
	b	.LBB3_117
.LBB3_107:
	cmp	w17, #0
	mov	w8, #3
	csel	x13, x8, x13, ne
	b	.LBB3_91
.LBB3_108:
	mov	w13, #3
	b	.LBB3_91
.LBB3_109:
	mov	x15, xzr
	mov	x13, xzr
	mov	x12, xzr
	sub	x14, x2, #8
.LBB3_110:
	add	x11, x11, x15, lsl #3
	mov	x9, xzr
	cmp	x2, #8
	mov	w10, #1
	b.lo	.LBB3_137
	cmp	x14, x11
	b.lo	.LBB3_137
	add	x9, x1, x11
	tst	w3, #0x1
	ldr	w10, [x9]
	rev	w14, w10
	csel	w10, w14, w10, ne
	cmp	x13, x10
	b.ne	.LBB3_116
	ldr	w9, [x9, #4]
	tst	w3, #0x1
	rev	w10, w9
	csel	w9, w10, w9, ne
	cmp	x12, x9
	b.ne	.LBB3_116
	add	x11, x11, #8
	cmp	x11, x2
	b.eq	.LBB3_99
.LBB3_115:
	mov	x9, xzr
	mov	w8, #7
	b	.LBB3_118
.LBB3_116:
	mov	x9, xzr
.LBB3_117:
	mov	w8, #6
.LBB3_118:
	mov	w10, #1
.LBB3_119:
	and	x8, x8, #0xff
	str	x11, [x0, #16]
	orr	x8, x9, x8
	stp	x10, x8, [x0]
	b	.LBB3_92
.LBB3_120:
	add	x18, x9, #10
	mov	x12, xzr
	mov	x13, xzr
	mov	x16, xzr
	add	x4, x1, x18
	tbnz	w3, #0, .LBB3_123
	b	.LBB3_131
.LBB3_121:
	cmp	x17, x6
	b.lo	.LBB3_106
.LBB3_122:
	rev16	w16, w5
	mov	w5, #65535
	add	x17, x16, #1
	cmp	x16, x5
	lsl	x6, x17, #1
	csel	x5, xzr, x10, eq
	cmp	x16, #4095
	add	x13, x17, x13
	csel	x16, x6, x5, lo
	add	x12, x12, x16
	mov	x16, x15
	add	x12, x12, #4
	cmp	x12, x9
	b.hs	.LBB3_110
.LBB3_123:
	add	x17, x1, x12
	ldrh	w15, [x17]
	ldrh	w5, [x17, #2]
	mov	x17, xzr
	rev16	w15, w15
	add	x15, x15, #1
	subs	x6, x15, x16
	b.eq	.LBB3_121
	lsl	x19, x16, #3
	add	x7, x18, x19
	add	x19, x4, x19
.LBB3_125:
	sub	x20, x7, #4
	cmp	x14, x20
	b.lo	.LBB3_121
	ldur	w20, [x19, #-4]
	rev	w20, w20
	cmp	x13, x20
	b.ne	.LBB3_121
	ldr	w20, [x19], #8
	rev	w20, w20
	cmp	x12, x20
	b.ne	.LBB3_121
	add	x17, x17, #1
	add	x7, x7, #8
	cmp	x6, x17
	b.ne	.LBB3_125
	b	.LBB3_122
.LBB3_129:
	cmp	x17, x6
	b.lo	.LBB3_106
.LBB3_130:
	add	x16, x5, #1
	mov	w17, #65535
	lsl	x6, x16, #1
	cmp	x5, x17
	add	x13, x16, x13
	csel	x17, xzr, x10, eq
	cmp	x5, #4095
	mov	x16, x15
	csel	x17, x6, x17, lo
	add	x12, x12, x17
	add	x12, x12, #4
	cmp	x12, x9
	b.hs	.LBB3_110
.LBB3_131:
	add	x17, x1, x12
	ldrh	w15, [x17]
	ldrh	w5, [x17, #2]
	mov	x17, xzr
	add	x15, x15, #1
	subs	x6, x15, x16
	b.eq	.LBB3_129
	lsl	x19, x16, #3
	add	x7, x18, x19
	add	x19, x4, x19
.LBB3_133:
	sub	x20, x7, #4
	cmp	x14, x20
	b.lo	.LBB3_129
	ldur	w20, [x19, #-4]
	cmp	x13, x20
	b.ne	.LBB3_129
	ldr	w20, [x19], #8
	cmp	x12, x20
	b.ne	.LBB3_129
	add	x17, x17, #1
	add	x7, x7, #8
	cmp	x6, x17
	b.ne	.LBB3_133
	b	.LBB3_130
.LBB3_137:
	mov	w8, #6
	b	.LBB3_119
.Lfunc_end3:
	.size	"section_check::judge", .Lfunc_end3-"section_check::judge"

	.section	".text.scaled_check::values_ok","ax",@progbits
	.p2align	2
	.type	"scaled_check::values_ok",@function
"scaled_check::values_ok":
	ldp	x9, x11, [x4]
	ldr	x16, [x4, #16]
	cbz	x9, .LBB4_5
	cbz	x1, .LBB4_6
	lsl	x8, x1, #3
	msub	x10, x9, x3, x8
	add	x8, x0, x1
	ldurb	w8, [x8, #-1]
	tbz	w2, #0, .LBB4_10
	mov	w12, #8
	sub	x10, x12, x10
	lsr	x8, x8, x10
	cbz	x8, .LBB4_6
	mov	w0, wzr
	ret
.LBB4_5:
	cmp	x3, #0
	ccmp	x11, #0, #4, eq
	ccmp	x16, #1, #0, eq
	cset	w0, eq
	ret
.LBB4_6:
	ands	w12, w2, #0xff
	sub	x8, x9, #1
	cset	w10, eq
	cbz	w12, .LBB4_12
	cmp	x9, #3
	b.lo	.LBB4_12
	cmp	x9, #5
	b.hs	.LBB4_13
	mov	w10, wzr
	mov	w15, #2
	b	.LBB4_17
.LBB4_10:
	mov	x12, #-1
	lsl	x10, x12, x10
	bics	xzr, x8, x10
	b.eq	.LBB4_15
	mov	w0, wzr
	ret
.LBB4_12:
	sub	x15, x9, #1
	b	.LBB4_17
.LBB4_13:
	cmp	x9, #32
	b.hi	.LBB4_16
	mov	w10, wzr
	sub	x15, x9, #4
	b	.LBB4_17
.LBB4_15:
	sub	x8, x9, #1
	mov	w10, #1
	sub	x15, x9, #1
	b	.LBB4_17
.LBB4_16:
	mov	w10, wzr
	sub	x15, x9, #8
.LBB4_17:
	mov	x12, #-9223372036854775808
	mvn	x13, x11
	mov	w14, #2
	bfxil	x12, x11, #1, #63
	lsr	x13, x13, #1
	lsl	x8, x14, x8
	tst	x11, #0x1
	csel	x11, x12, x13, eq
	cmp	x16, #2
	sub	x12, x8, #1
	mvn	x11, x11
	b.lo	.LBB4_22
	orr	x8, x12, x16
	lsr	x8, x8, #32
	cbz	x8, .LBB4_22
	udiv	x8, x11, x16
	cmp	x12, x8
	b.hi	.LBB4_23
.LBB4_20:
	mov	w13, #1
	cbnz	x3, .LBB4_24
.LBB4_21:
	mov	w0, wzr
	ret
.LBB4_22:
	mul	x8, x12, x16
	cmp	x8, x11
	b.ls	.LBB4_20
.LBB4_23:
	mov	w13, wzr
	cbz	x3, .LBB4_21
.LBB4_24:
	stp	x11, x16, [sp, #-144]!
	mov	w8, #1
	neg	x16, x9
	mov	x17, #-1
	str	x30, [sp, #48]
	mov	w11, #64
	lsl	x30, x8, x15
	subs	x8, x3, #64
	lsr	x16, x17, x16
	lsl	x15, x9, #5
	lsl	x18, x9, #1
	mov	x17, #-65534
	mov	x5, xzr
	mov	x6, xzr
	mov	x14, xzr
	movk	x17, #0, lsl #16
	sub	x2, x11, x9
	csel	x8, xzr, x8, lo
	stp	x28, x27, [sp, #64]
	stp	x26, x25, [sp, #80]
	stp	x24, x23, [sp, #96]
	stp	x22, x21, [sp, #112]
	stp	x20, x19, [sp, #128]
	str	x8, [sp, #16]
	str	w10, [sp, #60]
	stp	x15, x30, [sp, #32]
	b	.LBB4_27
.LBB4_25:
	mov	x5, x22
.LBB4_26:
	cmp	x5, x3
	b.hs	.LBB4_103
.LBB4_27:
	mov	x7, x6
	sub	x8, x3, x5
	mov	x11, #-4294967296
	cmp	x8, #32
	mov	w6, #32
	add	x11, x7, x11
	csel	x23, x8, x6, lo
	cmp	x11, x17
	mov	x19, x12
	mov	x20, x14
	b.hs	.LBB4_29
	mov	x21, xzr
	add	x22, x23, x5
	mov	x12, x19
	mov	x14, x20
	cmp	x5, x22
	mov	x6, x7
	b.lo	.LBB4_30
	b	.LBB4_62
.LBB4_29:
	mov	x8, #4294967296
	udiv	x8, x8, x7
	add	x21, x8, #1
	add	x22, x23, x5
	mov	x12, x19
	mov	x14, x20
	cmp	x5, x22
	mov	x6, x7
	b.hs	.LBB4_62
.LBB4_30:
	mov	x24, x5
	mov	x6, x7
	mov	x14, x20
	mov	x12, x19
	b	.LBB4_32
.LBB4_31:
	add	x24, x24, #1
	cmp	x24, x22
	b.eq	.LBB4_62
.LBB4_32:
	mul	x8, x24, x9
	sub	x26, x3, x24
	cmp	x26, #64
	lsr	x11, x8, #3
	and	x25, x8, #0x7
	add	x26, x25, x9
	b.lo	.LBB4_36
	cmp	x26, #64
	b.hi	.LBB4_36
	ldr	x8, [x0, x11]
	cbz	w10, .LBB4_49
	rev	x8, x8
	lsl	x8, x8, x25
	lsr	x8, x8, x2
	cmp	x6, #1
	b.eq	.LBB4_50
	b	.LBB4_39
.LBB4_36:
	add	x8, x26, #7
	add	x11, x0, x11
	cmp	x9, #8
	lsr	x8, x8, #3
	add	x27, x11, x8
	b.hi	.LBB4_46
	ldrb	w11, [x11]
	ldurb	w27, [x27, #-1]
	mov	w28, #1
	cbz	w10, .LBB4_48
.LBB4_38:
	sub	w8, w8, w28
	rev	x11, x11
	rev	x26, x27
	lsl	w8, w8, #3
	lsl	x11, x11, x25
	sub	w8, w8, w25
	lsr	x8, x26, x8
	orr	x8, x8, x11
	lsr	x8, x8, x2
	cmp	x6, #1
	b.eq	.LBB4_50
.LBB4_39:
	lsr	x11, x8, #32
	cbnz	x11, .LBB4_41
	mul	x11, x8, x21
	lsr	x11, x11, #32
	mul	x11, x11, x6
	cmp	x11, x8
	b.eq	.LBB4_45
.LBB4_41:
	cbz	x6, .LBB4_51
	mov	x25, x8
	mov	x26, x6
.LBB4_43:
	mov	x11, x26
	udiv	x26, x25, x26
	msub	x26, x26, x11, x25
	mov	x25, x11
	cbnz	x26, .LBB4_43
	cmp	x11, x6
	b.ne	.LBB4_52
.LBB4_45:
	cmp	x8, x12
	csel	x12, x8, x12, lo
	cmp	x8, x14
	csel	x14, x8, x14, hi
	cbz	w13, .LBB4_31
	b	.LBB4_56
.LBB4_46:
	cmp	x9, #24
	b.hi	.LBB4_59
	ldrh	w11, [x11]
	ldurh	w27, [x27, #-2]
	mov	w28, #2
	cbnz	w10, .LBB4_38
.LBB4_48:
	sub	x8, x8, x28
	lsl	x8, x8, #3
	lsl	x8, x27, x8
	orr	x8, x8, x11
.LBB4_49:
	neg	x11, x26
	lsl	x8, x8, x11
	lsr	x8, x8, x2
	cmp	x6, #1
	b.ne	.LBB4_39
.LBB4_50:
	mov	w11, #1
	cmp	x11, x6
	b.ne	.LBB4_52
	b	.LBB4_45
.LBB4_51:
	mov	x11, x8
	cmp	x8, x6
	b.eq	.LBB4_45
.LBB4_52:
	mov	x6, #-4294967296
	add	x6, x11, x6
	cmp	x6, x17
	b.hs	.LBB4_54
	mov	x21, xzr
	b	.LBB4_55
.LBB4_54:
	mov	x6, #4294967296
	udiv	x6, x6, x11
	add	x21, x6, #1
.LBB4_55:
	mov	x6, x11
	cmp	x8, x12
	csel	x12, x8, x12, lo
	cmp	x8, x14
	csel	x14, x8, x14, hi
	cbz	w13, .LBB4_31
.LBB4_56:
	cbnz	x12, .LBB4_31
	cmp	x30, x14
	b.hi	.LBB4_31
	cmp	x6, #1
	b.ne	.LBB4_31
	b	.LBB4_64
.LBB4_59:
	cmp	x9, #56
	b.hi	.LBB4_61
	ldr	w11, [x11]
	ldur	w27, [x27, #-4]
	mov	w28, #4
	cbnz	w10, .LBB4_38
	b	.LBB4_48
.LBB4_61:
	ldr	x11, [x11]
	ldur	x27, [x27, #-8]
	mov	w28, #8
	cbz	w10, .LBB4_48
	b	.LBB4_38
.LBB4_62:
	cbz	w13, .LBB4_67
	cbz	x12, .LBB4_65
	b	.LBB4_67
.LBB4_64:
	mov	x12, xzr
.LBB4_65:
	cmp	x30, x14
	b.hi	.LBB4_67
	cmp	x6, #1
	b.eq	.LBB4_109
.LBB4_67:
	cmp	x9, #57
	b.hi	.LBB4_25
	cmp	x19, x12
	b.ne	.LBB4_25
	cmp	x20, x14
	b.ne	.LBB4_25
	cmp	x7, x6
	b.ne	.LBB4_25
	subs	x20, x20, x19
	b.lo	.LBB4_25
	lsr	x8, x7, #32
	cbnz	x8, .LBB4_25
	tbnz	x20, #63, .LBB4_25
	ldr	x8, [sp, #16]
	cmp	x22, x8
	csel	x21, x22, x8, hi
	add	x8, x5, x23
	tbz	w10, #0, .LBB4_89
	madd	x23, x9, x8, x9
	mul	x24, x9, x22
	b	.LBB4_78
.LBB4_76:
	mov	w11, #1
.LBB4_77:
	add	x22, x5, #32
	add	x23, x23, x15
	add	x24, x24, x15
	tbz	w11, #0, .LBB4_26
.LBB4_78:
	sub	x8, x21, x22
	mov	x5, x22
	cmp	x8, #32
	b.lo	.LBB4_26
	cmp	x7, #2
	b.hs	.LBB4_81
	mov	x11, xzr
	cmn	x5, #33
	b.ls	.LBB4_82
	b	.LBB4_76
.LBB4_81:
	mov	x8, #4294967296
	udiv	x8, x8, x7
	add	x11, x8, #1
	cmn	x5, #33
	b.hi	.LBB4_76
.LBB4_82:
	cmp	x7, #1
	b.ne	.LBB4_86
	mov	x8, xzr
	mov	x11, xzr
	mov	w22, #32
	mov	x25, x24
	mov	x26, x23
.LBB4_84:
	lsr	x27, x25, #3
	lsr	x28, x26, #3
	and	x30, x25, #0x7
	and	x4, x26, #0x7
	subs	x22, x22, #2
	add	x26, x26, x18
	ldr	x27, [x0, x27]
	ldr	x28, [x0, x28]
	add	x25, x25, x18
	rev	x27, x27
	rev	x28, x28
	lsl	x27, x27, x30
	lsl	x4, x28, x4
	lsr	x27, x27, x2
	lsr	x4, x4, x2
	sub	x27, x27, x19
	sub	x4, x4, x19
	sub	x28, x20, x27
	orr	x8, x8, x27
	sub	x27, x20, x4
	orr	x11, x11, x4
	orr	x8, x8, x28
	orr	x11, x11, x27
	b.ne	.LBB4_84
	ldr	x30, [sp, #40]
	orr	x8, x11, x8
	mov	w11, #1
	tbz	x8, #63, .LBB4_77
	b	.LBB4_26
.LBB4_86:
	mul	x25, x5, x9
	mov	x8, xzr
	mov	x22, xzr
	mov	w26, #32
.LBB4_87:
	lsr	x4, x25, #3
	and	x27, x25, #0x7
	subs	x26, x26, #1
	add	x25, x25, x9
	ldr	x4, [x0, x4]
	rev	x4, x4
	lsl	x4, x4, x27
	lsr	x4, x4, x2
	mov	w27, w4
	mul	x27, x27, x11
	lsr	x27, x27, #32
	msub	x27, x27, x7, x4
	sub	x4, x4, x19
	sub	x28, x20, x4
	orr	x8, x8, x4
	orr	x8, x8, x28
	orr	x22, x27, x22
	b.ne	.LBB4_87
	cmp	x22, #0
	cset	w11, eq
	tbz	x8, #63, .LBB4_77
	b	.LBB4_26
.LBB4_89:
	madd	x8, x9, x8, x9
	str	x21, [sp, #24]
	mul	x11, x9, x22
	b	.LBB4_92
.LBB4_90:
	mov	w23, #1
.LBB4_91:
	add	x22, x5, #32
	add	x8, x8, x15
	add	x11, x11, x15
	tbz	w23, #0, .LBB4_26
.LBB4_92:
	sub	x4, x21, x22
	mov	x5, x22
	cmp	x4, #32
	b.lo	.LBB4_26
	cmp	x7, #2
	b.hs	.LBB4_95
	mov	x22, xzr
	cmn	x5, #33
	b.ls	.LBB4_96
	b	.LBB4_90
.LBB4_95:
	mov	x4, #4294967296
	udiv	x4, x4, x7
	add	x22, x4, #1
	cmn	x5, #33
	b.hi	.LBB4_90
.LBB4_96:
	cmp	x7, #1
	b.ne	.LBB4_100
	mov	x22, xzr
	mov	x25, xzr
	mov	x24, xzr
	mov	w23, #32
.LBB4_98:
	add	x10, x11, x22
	add	x15, x8, x22
	subs	x23, x23, #2
	lsr	x17, x10, #3
	lsr	x1, x15, #3
	and	x10, x10, #0x7
	and	x15, x15, #0x7
	add	x22, x22, x18
	ldr	x17, [x0, x17]
	ldr	x1, [x0, x1]
	lsr	x10, x17, x10
	lsr	x15, x1, x15
	and	x10, x10, x16
	and	x15, x15, x16
	sub	x10, x10, x19
	sub	x15, x15, x19
	sub	x17, x20, x10
	sub	x1, x20, x15
	orr	x10, x25, x10
	orr	x15, x24, x15
	orr	x25, x10, x17
	orr	x24, x15, x1
	b.ne	.LBB4_98
	ldr	w10, [sp, #60]
	ldr	x15, [sp, #32]
	mov	x17, #-65534
	orr	x22, x24, x25
	mov	w23, #1
	movk	x17, #0, lsl #16
	tbz	x22, #63, .LBB4_91
	b	.LBB4_26
.LBB4_100:
	mov	x25, xzr
	mov	x26, xzr
	mov	x27, xzr
	mov	x28, xzr
	mov	w30, #32
	mov	x24, x11
	mov	x23, x8
.LBB4_101:
	lsr	x4, x24, #3
	lsr	x1, x23, #3
	and	x15, x24, #0x7
	subs	x30, x30, #2
	add	x24, x24, x18
	ldr	x4, [x0, x4]
	ldr	x1, [x0, x1]
	lsr	x15, x4, x15
	and	x4, x23, #0x7
	add	x23, x23, x18
	lsr	x1, x1, x4
	and	x15, x15, x16
	and	x1, x1, x16
	mov	w4, w15
	mov	w17, w1
	mul	x4, x4, x22
	mul	x17, x17, x22
	lsr	x4, x4, #32
	lsr	x17, x17, #32
	msub	x4, x4, x7, x15
	sub	x15, x15, x19
	sub	x21, x20, x15
	orr	x15, x25, x15
	msub	x17, x17, x7, x1
	sub	x1, x1, x19
	orr	x25, x15, x21
	sub	x10, x20, x1
	orr	x1, x26, x1
	orr	x26, x1, x10
	orr	x27, x4, x27
	orr	x28, x17, x28
	b.ne	.LBB4_101
	orr	x10, x28, x27
	ldp	x15, x30, [sp, #32]
	cmp	x10, #0
	ldr	w10, [sp, #60]
	mov	x17, #-65534
	ldr	x21, [sp, #24]
	orr	x22, x26, x25
	cset	w23, eq
	movk	x17, #0, lsl #16
	tbz	x22, #63, .LBB4_91
	b	.LBB4_26
.LBB4_103:
	mov	w0, wzr
	cbnz	x12, .LBB4_112
	cmp	x30, x14
	b.hi	.LBB4_112
	cmp	x6, #1
	b.ne	.LBB4_112
	ldr	x9, [sp, #8]
	cmp	x9, #2
	b.lo	.LBB4_110
	orr	x8, x14, x9
	lsr	x8, x8, #32
	cbz	x8, .LBB4_110
	ldr	x8, [sp]
	udiv	x8, x8, x9
	cmp	x14, x8
	b.hi	.LBB4_111
.LBB4_109:
	mov	w0, #1
	b	.LBB4_112
.LBB4_110:
	mul	x8, x14, x9
	ldr	x9, [sp]
	cmp	x8, x9
	b.ls	.LBB4_109
.LBB4_111:
	mov	w0, wzr
.LBB4_112:
	ldp	x20, x19, [sp, #128]
	ldr	x30, [sp, #48]
	ldp	x22, x21, [sp, #112]
	ldp	x24, x23, [sp, #96]
	ldp	x26, x25, [sp, #80]
	ldp	x28, x27, [sp, #64]
	add	sp, sp, #144
	ret
.Lfunc_end4:
	.size	"scaled_check::values_ok", .Lfunc_end4-"scaled_check::values_ok"

	.section	".text.table_values::saves","ax",@progbits
	.p2align	2
	.type	"table_values::saves",@function
"table_values::saves":
	sub	sp, sp, #80
	sub	x9, x1, #1
	mov	w8, #64
	stp	x20, x19, [sp, #64]
	clz	x9, x9
	mov	x19, x2
	stp	x22, x21, [sp, #48]
	sub	x8, x8, x9
	mov	x9, #7
	mov	x2, x1
	madd	x8, x8, x19, x9
	cmp	x1, #128
	mov	w21, #1
	stp	x29, x30, [sp, #32]
	add	x29, sp, #32
	lsr	x8, x8, #3
	add	x20, x8, x1, lsl #3
	mov	x1, x0
	b.lo	.LBB5_3
	mov	x8, x2
.LBB5_2:
	lsr	x9, x8, #14
	lsr	x8, x8, #7
	add	x21, x21, #1
	cbnz	x9, .LBB5_2
.LBB5_3:
	mov	w22, #1
	cmp	x20, #128
	b.lo	.LBB5_6
	mov	x8, x20
.LBB5_5:
	lsr	x9, x8, #14
	lsr	x8, x8, #7
	add	x22, x22, #1
	cbnz	x9, .LBB5_5
.LBB5_6:
	add	x0, sp, #8
	stp	xzr, xzr, [sp, #8]
	str	xzr, [sp, #24]
	bl	"scaling::scale_of"
	ldp	x10, x8, [sp, #16]
	mov	w9, #64
	ldr	x12, [sp, #8]
	mov	x11, #7
	clz	x8, x8
	cmp	x12, #128
	sub	x9, x9, x8
	mov	w8, #1
	b.lo	.LBB5_8
.LBB5_7:
	lsr	x13, x12, #14
	lsr	x12, x12, #7
	add	x8, x8, #1
	cbnz	x13, .LBB5_7
.LBB5_8:
	madd	x11, x9, x19, x11
	mov	w9, #1
	cmp	x10, #128
	b.lo	.LBB5_10
.LBB5_9:
	lsr	x12, x10, #14
	lsr	x10, x10, #7
	add	x9, x9, #1
	cbnz	x12, .LBB5_9
.LBB5_10:
	lsr	x10, x11, #3
	cmp	x11, #1024
	b.lo	.LBB5_13
	mov	w11, #1
	mov	x12, x10
.LBB5_12:
	lsr	x13, x12, #14
	lsr	x12, x12, #7
	add	x11, x11, #1
	cbnz	x13, .LBB5_12
	b	.LBB5_14
.LBB5_13:
	mov	w11, #1
.LBB5_14:
	add	x8, x10, x8
	add	x10, x20, x21
	add	x8, x8, x9
	add	x9, x10, x22
	add	x8, x8, x11
	add	x9, x9, #2
	add	x8, x8, #1
	ldp	x20, x19, [sp, #64]
	ldp	x22, x21, [sp, #48]
	cmp	x9, x8
	ldp	x29, x30, [sp, #32]
	cset	w0, lo
	add	sp, sp, #80
	ret
.Lfunc_end5:
	.size	"table_values::saves", .Lfunc_end5-"table_values::saves"

	.section	".text.scaling::scale_of","ax",@progbits
	.p2align	2
	.type	"scaling::scale_of",@function
"scaling::scale_of":
	str	x19, [sp, #-16]!
	mov	x9, xzr
	cbz	x2, .LBB6_50
	mov	x10, x1
	ldr	x8, [x10], #16
	eor	x11, x8, #0x8000000000000000
	mov	x8, x11
	b	.LBB6_3
.LBB6_2:
	cmp	x9, x2
	b.hs	.LBB6_17
.LBB6_3:
	sub	x14, x2, x9
	mov	w12, #1024
	lsl	x13, x9, #3
	cmp	x14, #1024
	csel	x12, x14, x12, lo
	cmp	x14, #4
	b.hs	.LBB6_5
	mov	x14, xzr
	b	.LBB6_8
.LBB6_5:
	dup	v0.2d, x11
	dup	v1.2d, x8
	and	x14, x12, #0x7fc
	add	x8, x10, x13
	and	x11, x12, #0x7fc
	mov	v2.16b, v1.16b
	mov	v3.16b, v0.16b
.LBB6_6:
	movi	v4.2d, #0000000000000000
	ldp	q5, q6, [x8, #-16]
	subs	x11, x11, #4
	add	x8, x8, #32
	fneg	v4.2d, v4.2d
	eor	v5.16b, v5.16b, v4.16b
	eor	v4.16b, v6.16b, v4.16b
	cmhi	v6.2d, v1.2d, v5.2d
	cmhi	v7.2d, v2.2d, v4.2d
	cmhi	v16.2d, v5.2d, v0.2d
	cmhi	v17.2d, v4.2d, v3.2d
	bit	v1.16b, v5.16b, v6.16b
	bit	v0.16b, v5.16b, v16.16b
	bit	v2.16b, v4.16b, v7.16b
	bit	v3.16b, v4.16b, v17.16b
	b.ne	.LBB6_6
	cmhi	v4.2d, v2.2d, v1.2d
	cmhi	v5.2d, v0.2d, v3.2d
	cmp	x12, x14
	bif	v1.16b, v2.16b, v4.16b
	bif	v0.16b, v3.16b, v5.16b
	ext	v2.16b, v1.16b, v1.16b, #8
	ext	v3.16b, v0.16b, v0.16b, #8
	cmhi	d4, d2, d1
	cmhi	d5, d0, d3
	bif	v1.8b, v2.8b, v4.8b
	bif	v0.8b, v3.8b, v5.8b
	fmov	x8, d1
	fmov	x11, d0
	b.eq	.LBB6_10
.LBB6_8:
	add	x15, x13, x14, lsl #3
	sub	x13, x12, x14
	add	x14, x1, x15
.LBB6_9:
	ldr	x15, [x14], #8
	eor	x15, x15, #0x8000000000000000
	cmp	x15, x8
	csel	x8, x15, x8, lo
	cmp	x15, x11
	csel	x11, x15, x11, hi
	subs	x13, x13, #1
	b.ne	.LBB6_9
.LBB6_10:
	add	x9, x12, x9
	sub	x12, x2, x9
	cmp	x12, #128
	b.lo	.LBB6_2
	subs	x12, x11, x8
	b.mi	.LBB6_2
	dup	v0.2d, x8
	dup	v1.2d, x12
	add	x12, x10, x9, lsl #3
.LBB6_13:
	movi	v2.2d, #0000000000000000
	movi	v3.2d, #0000000000000000
	mov	w13, #128
	movi	v4.2d, #0000000000000000
	mov	x14, x12
.LBB6_14:
	fneg	v5.2d, v2.2d
	ldp	q6, q7, [x14, #-16]
	subs	x13, x13, #4
	add	x14, x14, #32
	eor	v6.16b, v6.16b, v5.16b
	eor	v5.16b, v7.16b, v5.16b
	sub	v6.2d, v6.2d, v0.2d
	sub	v5.2d, v5.2d, v0.2d
	sub	v7.2d, v1.2d, v6.2d
	sub	v16.2d, v1.2d, v5.2d
	orr	v3.16b, v3.16b, v6.16b
	orr	v4.16b, v4.16b, v5.16b
	orr	v3.16b, v3.16b, v7.16b
	orr	v4.16b, v4.16b, v16.16b
	b.ne	.LBB6_14
	orr	v2.16b, v4.16b, v3.16b
	ext	v3.16b, v2.16b, v2.16b, #8
	orr	v2.8b, v2.8b, v3.8b
	fmov	x13, d2
	tbnz	x13, #63, .LBB6_2
	add	x9, x9, #128
	add	x12, x12, #1024
	sub	x13, x2, x9
	cmp	x13, #127
	b.hi	.LBB6_13
	b	.LBB6_2
.LBB6_17:
	subs	x9, x11, x8
	b.eq	.LBB6_51
	dup	v0.2d, x8
	mov	x11, #-65534
	mov	x14, xzr
	mov	x10, xzr
	movk	x11, #0, lsl #16
	add	x12, x1, #8
	add	x13, x1, #16
	b	.LBB6_20
.LBB6_19:
	cmp	x14, x2
	b.hs	.LBB6_52
.LBB6_20:
	sub	x15, x2, x14
	mov	x16, #-4294967296
	mov	w17, #1024
	cmp	x15, #1024
	add	x16, x10, x16
	csel	x15, x15, x17, lo
	cmp	x16, x11
	b.hs	.LBB6_22
	mov	x17, xzr
	b	.LBB6_23
.LBB6_22:
	mov	x16, #4294967296
	udiv	x16, x16, x10
	add	x17, x16, #1
.LBB6_23:
	add	x18, x1, x14, lsl #3
	mov	x16, xzr
	add	x14, x15, x14
	b	.LBB6_27
.LBB6_24:
	mov	x10, #4294967296
	udiv	x10, x10, x3
	add	x17, x10, #1
.LBB6_25:
	mov	x10, x3
.LBB6_26:
	add	x16, x16, #1
	cmp	x16, x15
	b.eq	.LBB6_37
.LBB6_27:
	ldr	x3, [x18, x16, lsl #3]
	eor	x3, x3, #0x8000000000000000
	sub	x4, x3, x8
	lsr	x3, x4, #32
	cbnz	x3, .LBB6_29
	mul	x3, x4, x17
	lsr	x3, x3, #32
	mul	x3, x3, x10
	cmp	x3, x4
	b.eq	.LBB6_26
.LBB6_29:
	cbz	x10, .LBB6_33
	mov	x5, x10
.LBB6_31:
	mov	x3, x5
	udiv	x5, x4, x5
	msub	x5, x5, x3, x4
	mov	x4, x3
	cbnz	x5, .LBB6_31
	cmp	x3, #1
	b.ne	.LBB6_34
	b	.LBB6_51
.LBB6_33:
	mov	x3, x4
	cmp	x4, #1
	b.eq	.LBB6_51
.LBB6_34:
	cmp	x3, x10
	b.eq	.LBB6_26
	mov	x10, #-4294967296
	add	x10, x3, x10
	cmp	x10, x11
	b.hs	.LBB6_24
	mov	x17, xzr
	b	.LBB6_25
.LBB6_37:
	sub	x15, x2, x14
	cmp	x15, #128
	b.lo	.LBB6_19
	lsr	x15, x10, #32
	cbnz	x15, .LBB6_19
	cmp	x10, #1
	b.hi	.LBB6_45
	add	x15, x13, x14, lsl #3
.LBB6_41:
	movi	v1.2d, #0000000000000000
	movi	v2.2d, #0000000000000000
	mov	w16, #128
	movi	v3.2d, #0000000000000000
	mov	x17, x15
.LBB6_42:
	fneg	v4.2d, v1.2d
	ldp	q5, q6, [x17, #-16]
	subs	x16, x16, #4
	add	x17, x17, #32
	eor	v5.16b, v5.16b, v4.16b
	eor	v4.16b, v6.16b, v4.16b
	sub	v5.2d, v5.2d, v0.2d
	sub	v4.2d, v4.2d, v0.2d
	orr	v2.16b, v5.16b, v2.16b
	orr	v3.16b, v4.16b, v3.16b
	b.ne	.LBB6_42
	orr	v1.16b, v3.16b, v2.16b
	ext	v2.16b, v1.16b, v1.16b, #8
	orr	v1.8b, v1.8b, v2.8b
	fmov	x16, d1
	cbnz	x16, .LBB6_19
	add	x14, x14, #128
	add	x15, x15, #1024
	sub	x16, x2, x14
	cmp	x16, #127
	b.hi	.LBB6_41
	b	.LBB6_19
.LBB6_45:
	mov	x15, #4294967296
	udiv	x16, x15, x10
	add	x15, x12, x14, lsl #3
	add	x16, x16, #1
.LBB6_46:
	mov	x17, xzr
	mov	x18, xzr
	mov	w3, #128
	mov	x4, x15
.LBB6_47:
	ldp	x5, x6, [x4, #-8]
	subs	x3, x3, #2
	add	x4, x4, #16
	eor	x5, x5, #0x8000000000000000
	eor	x6, x6, #0x8000000000000000
	sub	x5, x5, x8
	sub	x6, x6, x8
	mov	w7, w5
	mov	w19, w6
	mul	x7, x7, x16
	mul	x19, x19, x16
	lsr	x7, x7, #32
	lsr	x19, x19, #32
	msub	x5, x7, x10, x5
	msub	x6, x19, x10, x6
	orr	x17, x5, x17
	orr	x18, x6, x18
	b.ne	.LBB6_47
	orr	x17, x18, x17
	cbnz	x17, .LBB6_19
	add	x14, x14, #128
	add	x15, x15, #1024
	sub	x17, x2, x14
	cmp	x17, #127
	b.hi	.LBB6_46
	b	.LBB6_19
.LBB6_50:
	mov	x8, #-9223372036854775808
.LBB6_51:
	lsl	x10, x8, #1
	mvn	x8, x8
	eor	x8, x10, x8, asr #63
	mov	w10, #1
	udiv	x9, x9, x10
	stp	x8, x10, [x0]
	str	x9, [x0, #16]
	ldr	x19, [sp], #16
	ret
.LBB6_52:
	cbz	x10, .LBB6_54
	lsl	x11, x8, #1
	mvn	x8, x8
	eor	x8, x11, x8, asr #63
	udiv	x9, x9, x10
	stp	x8, x10, [x0]
	str	x9, [x0, #16]
	ldr	x19, [sp], #16
	ret
.LBB6_54:
	brk	#0x1
.Lfunc_end6:
	.size	"scaling::scale_of", .Lfunc_end6-"scaling::scale_of"

	.section	.rodata.cst16,"aM",@progbits,16
	.p2align	4, 0x0
.LCPI7_0:
	.xword	1
	.xword	7
.LCPI7_1:
	.xword	1
	.xword	8
.LCPI7_2:
	.xword	1
	.xword	9
	.section	".text.between::first_between_from_in","ax",@progbits
	.p2align	2
	.type	"between::first_between_from_in",@function
"between::first_between_from_in":
	sub	sp, sp, #288
	stp	x20, x19, [sp, #272]
	ldur	q0, [x1, #8]
	mov	x19, x0
	ldp	x8, x20, [x1]
	stp	x26, x25, [sp, #224]
	stp	x22, x21, [sp, #256]
	ldp	x21, x26, [x1, #64]
	stur	q0, [sp, #24]
	ldp	q1, q0, [x1, #32]
	stp	x24, x23, [sp, #240]
	ldr	x23, [x1, #24]
	str	x8, [sp, #16]
	and	x8, x8, #0xff
	cmp	x8, #2
	stp	x29, x30, [sp, #192]
	add	x29, sp, #192
	stp	x28, x27, [sp, #208]
	stp	q1, q0, [sp, #48]
	str	x23, [sp, #40]
	str	x21, [sp, #80]
	b.ne	.LBB7_4
	add	x0, sp, #16
	mov	x22, x3
	mov	x24, x5
	mov	x25, x6
	mov	x28, x4
	mov	x27, x1
	str	x2, [sp, #8]
	bl	"column::head_ok"
	tbz	w0, #0, .LBB7_5
	subs	x8, x22, x26
	b.hs	.LBB7_8
.LBB7_3:
	adrp	x8, .LCPI7_2
	ldr	q0, [x8, :lo12:.LCPI7_2]
	b	.LBB7_6
.LBB7_4:
	adrp	x8, .LCPI7_0
	ldr	q0, [x8, :lo12:.LCPI7_0]
	b	.LBB7_6
.LBB7_5:
	adrp	x8, .LCPI7_1
	ldr	q0, [x8, :lo12:.LCPI7_1]
.LBB7_6:
	str	q0, [x19]
	str	xzr, [x19, #16]
.LBB7_7:
	ldp	x20, x19, [sp, #272]
	ldp	x22, x21, [sp, #256]
	ldp	x24, x23, [sp, #240]
	ldp	x26, x25, [sp, #224]
	ldp	x28, x27, [sp, #208]
	ldp	x29, x30, [sp, #192]
	add	sp, sp, #288
	ret
.LBB7_8:
	subs	x8, x8, x23
	b.lo	.LBB7_3
	cmp	x8, x21
	b.ne	.LBB7_3
	eor	x21, x24, #0x8000000000000000
	eor	x25, x25, #0x8000000000000000
	mov	x8, xzr
	cmp	x25, x21
	b.lo	.LBB7_14
	cmp	x20, x28
	mov	x11, x8
	mov	x9, x8
	b.ls	.LBB7_24
	ldr	x8, [x27, #56]
	add	x26, x26, x23
	lsr	x23, x28, #14
	ldur	q0, [x27, #40]
	sub	x22, x22, x26
	add	x0, sp, #88
	stur	x8, [x29, #-64]
	ldr	x8, [sp, #8]
	sub	x4, x29, #80
	and	x6, x28, #0x3fff
	mov	x2, x22
	mov	x3, x20
	add	x1, x8, x26
	mov	x5, x23
	mov	x7, x21
	stp	xzr, xzr, [sp, #88]
	stur	q0, [x29, #-80]
	str	xzr, [sp, #104]
	str	x25, [sp]
	bl	"run_search::in_run"
	ldrb	w8, [sp, #88]
	ldrb	w10, [sp, #96]
	ldr	x9, [sp, #104]
	cbz	w8, .LBB7_15
	mov	w8, #1
	b	.LBB7_23
.LBB7_14:
	mov	x11, x8
	mov	x9, x8
	b	.LBB7_24
.LBB7_15:
	cmp	w10, #1
	b.ne	.LBB7_17
.LBB7_16:
	mov	x8, xzr
	b	.LBB7_23
.LBB7_17:
	and	x8, x20, #0x3fff
	mov	w9, #16383
	ldur	q0, [x27, #40]
	add	x8, x8, x9
	ldr	x9, [x27, #56]
	add	x23, x23, #1
	lsr	x8, x8, #14
	stur	q0, [x29, #-32]
	stur	x9, [x29, #-16]
	add	x27, x8, x20, lsr #14
	stp	xzr, xzr, [x29, #-48]
	stur	xzr, [x29, #-56]
	cmp	x23, x27
	b.hs	.LBB7_21
.LBB7_18:
	ldr	x8, [sp, #8]
	sub	x0, x29, #56
	sub	x4, x29, #32
	mov	x2, x22
	mov	x3, x20
	mov	x5, x23
	add	x1, x8, x26
	mov	x6, xzr
	mov	x7, x21
	str	x25, [sp]
	bl	"run_search::in_run"
	ldurb	w8, [x29, #-56]
	ldurb	w10, [x29, #-48]
	cbnz	w8, .LBB7_22
	cmp	w10, #1
	b.eq	.LBB7_25
	add	x23, x23, #1
	cmp	x27, x23
	b.ne	.LBB7_18
.LBB7_21:
	mov	x8, xzr
	mov	w10, wzr
	mov	x9, xzr
	b	.LBB7_23
.LBB7_22:
	ldur	x9, [x29, #-40]
	mov	w8, #1
.LBB7_23:
	mov	w11, w10
.LBB7_24:
	stp	x8, x11, [x19]
	str	x9, [x19, #16]
	b	.LBB7_7
.LBB7_25:
	ldur	x9, [x29, #-40]
	b	.LBB7_16
.Lfunc_end7:
	.size	"between::first_between_from_in", .Lfunc_end7-"between::first_between_from_in"

	.section	.rodata.cst16,"aM",@progbits,16
	.p2align	4, 0x0
.LCPI8_0:
	.xword	1
	.xword	13
.LCPI8_1:
	.xword	0
	.xword	1
	.section	".text.run_search::in_run","ax",@progbits
	.p2align	2
	.type	"run_search::in_run",@function
"run_search::in_run":
	str	x19, [sp, #-16]!
	mov	w8, #25
	ldr	x9, [sp, #16]
	madd	x13, x5, x8, x1
	ldp	x17, x8, [x13]
	eor	x10, x17, #0x8000000000000000
	eor	x8, x8, #0x8000000000000000
	cmp	x9, x10
	ccmp	x8, x7, #0, hs
	b.hs	.LBB8_2
	stp	xzr, xzr, [x0]
	str	xzr, [x0, #16]
	ldr	x19, [sp], #16
	ret
.LBB8_2:
	lsl	x8, x5, #14
	movi	v0.2d, #0000000000000000
	mov	w11, #16384
	sub	x12, x3, x8
	cmp	x12, #4, lsl #12
	csel	x11, x12, x11, lo
	cmp	x12, x6
	b.ls	.LBB8_8
	ldrb	w12, [x13, #24]
	adrp	x14, .LCPI8_0
	ldr	q1, [x14, :lo12:.LCPI8_0]
	cmp	w12, #64
	b.hi	.LBB8_6
	cbz	w12, .LBB8_7
	and	x14, x3, #0x3fff
	mov	w15, #16383
	ldr	x16, [x13, #16]
	add	x14, x14, x15
	mov	w15, #25
	lsr	x14, x14, #14
	add	x14, x14, x3, lsr #14
	mul	x15, x14, x15
	sub	x14, x2, x15
	cmp	x14, x16
	b.hs	.LBB8_9
.LBB8_6:
	mov	v0.16b, v1.16b
	str	q0, [x0]
	str	xzr, [x0, #16]
	ldr	x19, [sp], #16
	ret
.LBB8_7:
	cmp	x10, x7
	b.hs	.LBB8_49
.LBB8_8:
	str	q0, [x0]
	str	xzr, [x0, #16]
	ldr	x19, [sp], #16
	ret
.LBB8_9:
	ldr	x13, [x4, #16]
	sub	x14, x14, x16
	add	x16, x1, x16
	mov	w18, #64
	cmp	w12, #8
	add	x15, x16, x15
	sub	x16, x18, x12
	eor	x17, x17, #0x7fffffffffffffff
	b.hi	.LBB8_19
	mul	x18, x6, x12
	add	x1, x12, x18
	add	x1, x1, #7
.LBB8_11:
	cmp	x14, x1, lsr #3
	b.lo	.LBB8_6
	lsr	x2, x18, #3
	lsr	x3, x1, #3
	cmp	x13, #2
	add	x4, x15, x3
	mvn	w5, w2
	ldrb	w2, [x15, x2]
	ldurb	w4, [x4, #-1]
	add	w3, w3, w5
	and	x5, x18, #0x7
	lsl	w3, w3, #3
	lsl	x2, x2, #56
	lsl	x4, x4, #56
	sub	w3, w3, w5
	lsl	x2, x2, x5
	lsr	x3, x4, x3
	orr	x2, x3, x2
	lsr	x2, x2, x16
	b.lo	.LBB8_16
	orr	x3, x2, x13
	lsr	x3, x3, #32
	cbz	x3, .LBB8_16
	udiv	x3, x17, x13
	cmp	x2, x3
	b.hi	.LBB8_6
	mul	x2, x2, x13
	b	.LBB8_17
.LBB8_16:
	mul	x2, x2, x13
	cmp	x2, x17
	b.hi	.LBB8_6
.LBB8_17:
	add	x2, x2, x10
	cmp	x2, x7
	ccmp	x2, x9, #2, hs
	b.ls	.LBB8_49
	add	x6, x6, #1
	add	x18, x18, x12
	add	x1, x1, x12
	cmp	x6, x11
	b.lo	.LBB8_11
	b	.LBB8_8
.LBB8_19:
	cmp	w12, #24
	b.hi	.LBB8_29
	mul	x18, x6, x12
	add	x1, x12, x18
	add	x1, x1, #7
.LBB8_21:
	cmp	x14, x1, lsr #3
	b.lo	.LBB8_6
	lsr	x2, x18, #3
	lsr	x3, x1, #3
	and	x5, x18, #0x7
	cmp	x13, #2
	sub	w4, w3, w2
	add	x3, x15, x3
	ldrh	w2, [x15, x2]
	lsl	w4, w4, #3
	ldurh	w3, [x3, #-2]
	rev	x2, x2
	sub	w4, w4, w5
	rev	x3, x3
	lsl	x2, x2, x5
	add	w4, w4, #48
	lsr	x3, x3, x4
	orr	x2, x3, x2
	lsr	x2, x2, x16
	b.lo	.LBB8_26
	orr	x3, x2, x13
	lsr	x3, x3, #32
	cbz	x3, .LBB8_26
	udiv	x3, x17, x13
	cmp	x2, x3
	b.hi	.LBB8_6
	mul	x2, x2, x13
	b	.LBB8_27
.LBB8_26:
	mul	x2, x2, x13
	cmp	x2, x17
	b.hi	.LBB8_6
.LBB8_27:
	add	x2, x2, x10
	cmp	x2, x7
	ccmp	x2, x9, #2, hs
	b.ls	.LBB8_49
	add	x6, x6, #1
	add	x18, x18, x12
	add	x1, x1, x12
	cmp	x6, x11
	b.lo	.LBB8_21
	b	.LBB8_8
.LBB8_29:
	cmp	x13, #2
	b.hs	.LBB8_38
	mul	x18, x6, x12
	add	x1, x12, x18
	add	x1, x1, #7
.LBB8_31:
	cmp	x14, x1, lsr #3
	b.lo	.LBB8_6
	lsr	x3, x1, #3
	lsr	x2, x18, #3
	cmp	w12, #57
	add	x5, x15, x3
	b.hs	.LBB8_34
	ldr	w4, [x15, x2]
	ldur	w5, [x5, #-4]
	mov	x19, #-4
	b	.LBB8_35
.LBB8_34:
	ldr	x4, [x15, x2]
	ldur	x5, [x5, #-8]
	mov	x19, #-8
.LBB8_35:
	sub	x2, x3, x2
	and	x3, x18, #0x7
	rev	x4, x4
	add	w2, w2, w19
	rev	x5, x5
	lsl	w2, w2, #3
	sub	w2, w2, w3
	lsl	x3, x4, x3
	lsr	x2, x5, x2
	orr	x2, x2, x3
	lsr	x2, x2, x16
	mul	x2, x2, x13
	cmp	x2, x17
	b.hi	.LBB8_6
	add	x2, x2, x10
	cmp	x2, x7
	ccmp	x2, x9, #2, hs
	b.ls	.LBB8_49
	add	x6, x6, #1
	add	x18, x18, x12
	add	x1, x1, x12
	cmp	x6, x11
	b.lo	.LBB8_31
	b	.LBB8_8
.LBB8_38:
	mul	x18, x6, x12
	add	x1, x12, x18
	add	x1, x1, #7
.LBB8_39:
	cmp	x14, x1, lsr #3
	b.lo	.LBB8_6
	lsr	x3, x1, #3
	lsr	x2, x18, #3
	cmp	w12, #56
	add	x5, x15, x3
	b.hi	.LBB8_42
	ldr	w4, [x15, x2]
	ldur	w5, [x5, #-4]
	mov	x19, #-4
	b	.LBB8_43
.LBB8_42:
	ldr	x4, [x15, x2]
	ldur	x5, [x5, #-8]
	mov	x19, #-8
.LBB8_43:
	sub	x2, x3, x2
	and	x3, x18, #0x7
	rev	x4, x4
	add	w2, w2, w19
	rev	x5, x5
	lsl	w2, w2, #3
	sub	w2, w2, w3
	lsl	x3, x4, x3
	lsr	x2, x5, x2
	orr	x2, x2, x3
	lsr	x2, x2, x16
	orr	x3, x2, x13
	lsr	x3, x3, #32
	cbnz	x3, .LBB8_45
	mul	x2, x2, x13
	cmp	x2, x17
	b.ls	.LBB8_47
	b	.LBB8_6
.LBB8_45:
	udiv	x3, x17, x13
	cmp	x2, x3
	b.hi	.LBB8_6
	mul	x2, x2, x13
.LBB8_47:
	add	x2, x2, x10
	cmp	x2, x7
	ccmp	x2, x9, #2, hs
	b.ls	.LBB8_49
	add	x6, x6, #1
	add	x18, x18, x12
	add	x1, x1, x12
	cmp	x6, x11
	b.lo	.LBB8_39
	b	.LBB8_8
.LBB8_49:
	adrp	x9, .LCPI8_1
	add	x8, x6, x8
	ldr	q0, [x9, :lo12:.LCPI8_1]
	str	q0, [x0]
	str	x8, [x0, #16]
	ldr	x19, [sp], #16
	ret
.Lfunc_end8:
	.size	"run_search::in_run", .Lfunc_end8-"run_search::in_run"

	.section	.rodata.cst16,"aM",@progbits,16
	.p2align	4, 0x0
.LCPI9_0:
	.xword	1
	.xword	7
	.section	".text.between::first_between_from","ax",@progbits
	.p2align	2
	.type	"between::first_between_from",@function
"between::first_between_from":
	sub	sp, sp, #256
	movi	v0.2d, #0000000000000000
	stp	x29, x30, [sp, #192]
	add	x29, sp, #192
	stp	x24, x23, [sp, #208]
	mov	x23, x2
	mov	x24, x1
	stp	x22, x21, [sp, #224]
	mov	x21, x4
	mov	x22, x3
	stp	x20, x19, [sp, #240]
	mov	x20, x5
	mov	x19, x0
	stp	xzr, xzr, [x29, #-24]
	stur	xzr, [x29, #-8]
	stp	q0, q0, [sp]
	stp	q0, q0, [sp, #32]
	str	q0, [sp, #64]
	str	xzr, [sp, #80]
	cbz	x2, .LBB9_10
	ldrsb	w8, [x24]
	and	x9, x8, #0xff
	tbnz	w8, #31, .LBB9_4
	cmp	x9, #3
	b.eq	.LBB9_10
.LBB9_3:
	adrp	x8, .LCPI9_0
	str	xzr, [x19, #16]
	ldr	q0, [x8, :lo12:.LCPI9_0]
	str	q0, [x19]
	ldp	x20, x19, [sp, #240]
	ldp	x22, x21, [sp, #224]
	ldp	x24, x23, [sp, #208]
	ldp	x29, x30, [sp, #192]
	add	sp, sp, #256
	ret
.LBB9_4:
	subs	x8, x23, #1
	b.eq	.LBB9_10
	mov	x10, xzr
	sub	x9, x9, #128
	add	x11, x24, #1
	mov	w12, #128
.LBB9_6:
	ldrb	w13, [x11, x10]
	cmp	w13, #0
	cset	w14, eq
	cmp	w13, #1
	cset	w15, ne
	cmp	x10, #8
	csel	w14, w15, w14, eq
	tbnz	w14, #0, .LBB9_10
	tbz	w13, #7, .LBB9_9
	sub	x13, x13, #128
	add	x10, x10, #1
	madd	x9, x13, x12, x9
	lsl	x12, x12, #7
	cmp	x8, x10
	b.ne	.LBB9_6
	b	.LBB9_10
.LBB9_9:
	madd	x9, x12, x13, x9
	cmp	x9, #3
	b.ne	.LBB9_3
.LBB9_10:
	mov	x0, sp
	mov	x1, x24
	mov	x2, x23
	bl	"column::Column::open"
	ldp	x9, x8, [sp, #8]
	ldrb	w10, [sp]
	cbz	w10, .LBB9_12
	mov	w10, #1
	and	x9, x9, #0xff
	str	x8, [x19, #16]
	stp	x10, x9, [x19]
	ldp	x20, x19, [sp, #240]
	ldp	x22, x21, [sp, #224]
	ldp	x24, x23, [sp, #208]
	ldp	x29, x30, [sp, #192]
	add	sp, sp, #256
	ret
.LBB9_12:
	ldur	q0, [sp, #24]
	ldur	q1, [sp, #40]
	sub	x0, x29, #24
	ldur	q2, [sp, #56]
	stp	x9, x8, [sp, #88]
	add	x8, sp, #88
	stur	q0, [sp, #104]
	ldur	q0, [sp, #72]
	add	x1, sp, #88
	mov	x2, x24
	mov	x3, x23
	mov	x4, x22
	mov	x5, x21
	mov	x6, x20
	stur	q1, [sp, #120]
	stp	q2, q0, [x8, #48]
	bl	"between::first_between_from_in"
	ldurb	w8, [x29, #-24]
	ldurb	w9, [x29, #-16]
	ldur	x10, [x29, #-8]
	stp	x8, x9, [x19]
	str	x10, [x19, #16]
	ldp	x20, x19, [sp, #240]
	ldp	x22, x21, [sp, #224]
	ldp	x24, x23, [sp, #208]
	ldp	x29, x30, [sp, #192]
	add	sp, sp, #256
	ret
.Lfunc_end9:
	.size	"between::first_between_from", .Lfunc_end9-"between::first_between_from"

	.section	.rodata.cst16,"aM",@progbits,16
	.p2align	4, 0x0
.LCPI10_0:
	.xword	1
	.xword	12
.LCPI10_1:
	.xword	1
	.xword	13
.LCPI10_2:
	.xword	0
	.xword	1
	.section	".text.layered::answer_from","ax",@progbits
	.p2align	2
	.type	"layered::answer_from",@function
"layered::answer_from":
	sub	sp, sp, #304
	movi	v0.2d, #0000000000000000
	mov	w8, #2147352576
	stp	x20, x19, [sp, #288]
	mov	x19, x0
	cmp	w3, w8
	stp	x29, x30, [sp, #240]
	str	x28, [sp, #256]
	add	x29, sp, #240
	stp	x22, x21, [sp, #272]
	str	xzr, [sp, #80]
	stp	q0, q0, [sp, #16]
	stp	q0, q0, [sp, #48]
	str	q0, [sp]
	b.hs	.LBB10_3
	mov	x0, sp
	mov	w20, w3
	mov	x22, x1
	mov	x21, x2
	bl	"column::Column::open"
	ldrb	w9, [sp]
	ldrb	w1, [sp, #8]
	ldr	x8, [sp, #16]
	cbz	w9, .LBB10_4
	mov	w9, #1
	stp	x8, xzr, [x19, #16]
	stp	x9, x1, [x19]
	stp	xzr, xzr, [x19, #32]
	ldp	x20, x19, [sp, #288]
	ldr	x28, [sp, #256]
	ldp	x22, x21, [sp, #272]
	ldp	x29, x30, [sp, #240]
	add	sp, sp, #304
	ret
.LBB10_3:
	adrp	x8, .LCPI10_0
	str	q0, [x19, #32]
	ldr	q1, [x8, :lo12:.LCPI10_0]
	stp	q1, q0, [x19]
	ldp	x20, x19, [sp, #288]
	ldr	x28, [sp, #256]
	ldp	x22, x21, [sp, #272]
	ldp	x29, x30, [sp, #240]
	add	sp, sp, #304
	ret
.LBB10_4:
	movi	v2.2d, #0000000000000000
	ldur	q0, [sp, #24]
	ldur	q1, [sp, #40]
	add	x0, sp, #96
	sub	x2, x29, #96
	mov	x3, x22
	stp	q0, q1, [x29, #-64]
	ldur	q0, [sp, #56]
	ldur	q1, [sp, #72]
	mov	x4, x21
	mov	w5, w20
	stur	xzr, [x29, #-96]
	stur	x8, [x29, #-72]
	stur	q2, [x29, #-88]
	stp	q0, q1, [x29, #-32]
	stp	q2, q2, [sp, #96]
	str	q2, [sp, #128]
	bl	"lookup::apart::put_steps"
	ldr	x8, [sp, #96]
	cmp	x8, #1
	b.eq	.LBB10_7
	cbnz	x8, .LBB10_8
	ldp	q0, q2, [sp, #112]
	movi	v1.2d, #0000000000000000
	b	.LBB10_10
.LBB10_7:
	adrp	x8, .LCPI10_2
	ldr	q0, [sp, #128]
	ldr	q1, [x8, :lo12:.LCPI10_2]
	b	.LBB10_9
.LBB10_8:
	adrp	x8, .LCPI10_1
	movi	v0.2d, #0000000000000000
	ldr	q1, [x8, :lo12:.LCPI10_1]
.LBB10_9:
	movi	v2.2d, #0000000000000000
.LBB10_10:
	stp	q1, q0, [x19]
	str	q2, [x19, #32]
	ldp	x20, x19, [sp, #288]
	ldr	x28, [sp, #256]
	ldp	x22, x21, [sp, #272]
	ldp	x29, x30, [sp, #240]
	add	sp, sp, #304
	ret
.Lfunc_end10:
	.size	"layered::answer_from", .Lfunc_end10-"layered::answer_from"

	.section	".text.lookup::apart::put_steps","ax",@progbits
	.p2align	2
	.type	"lookup::apart::put_steps",@function
"lookup::apart::put_steps":
	stp	x29, x30, [sp, #-48]!
	ldp	x9, x8, [x2, #40]
	mov	w15, w5
	ldr	x10, [x2, #88]
	lsr	x14, x15, #16
	stp	x22, x21, [sp, #16]
	stp	x20, x19, [sp, #32]
	mov	x29, sp
	sub	x13, x9, x8, lsl #3
	add	x16, x3, x10
	cbz	x8, .LBB11_2
	sub	x11, x8, #1
	cmp	x11, x14
	csel	x11, x11, x14, lo
	add	x11, x16, x11, lsl #3
	add	x12, x11, x13
	ldp	w11, w12, [x12]
	add	x6, x12, #4
	cmp	x13, x6
	b.hs	.LBB11_3
	b	.LBB11_8
.LBB11_2:
	mov	x12, xzr
	mov	x11, xzr
	add	x6, x12, #4
	cmp	x13, x6
	b.lo	.LBB11_8
.LBB11_3:
	add	x17, x16, x12
	ldrh	w18, [x17]
	cmp	x14, x18
	b.hs	.LBB11_6
.LBB11_4:
	mov	x20, xzr
	mov	x21, xzr
.LBB11_5:
	mov	w8, #1
	stp	xzr, xzr, [x0, #16]
	stp	x8, xzr, [x0]
	stp	x20, x21, [x0, #32]
	ldp	x20, x19, [sp, #32]
	ldp	x22, x21, [sp, #16]
	ldp	x29, x30, [sp], #48
	ret
.LBB11_6:
	cmp	x18, x14
	b.hs	.LBB11_9
	cbz	x8, .LBB11_4
.LBB11_8:
	movi	v0.2d, #0000000000000000
	mov	w8, #15
	str	xzr, [x0, #40]
	str	x8, [x0]
	stur	q0, [x0, #8]
	stur	q0, [x0, #24]
	ldp	x20, x19, [sp, #32]
	ldp	x22, x21, [sp, #16]
	ldp	x29, x30, [sp], #48
	ret
.LBB11_9:
	ldrh	w8, [x17, #2]
	ldr	x18, [x2, #24]
	and	x14, x15, #0xffff
	cmp	x8, #4095
	add	x17, x8, #1
	b.hs	.LBB11_16
	add	x8, x6, x17, lsl #1
	cmp	x13, x8
	b.lo	.LBB11_8
	add	x8, x17, x11
	cmp	x18, x8
	b.lo	.LBB11_8
	mov	x8, xzr
	mov	x12, xzr
	add	x13, x16, x6
.LBB11_13:
	add	x15, x12, x17
	and	x16, x15, #0xfffffffffffffffe
	lsr	x15, x15, #1
	ldrh	w16, [x13, x16]
	cmp	w16, w14
	b.eq	.LBB11_24
	csinc	x12, x12, x15, hs
	csel	x17, x15, x17, hs
	add	x8, x8, #1
	cmp	x12, x17
	b.ne	.LBB11_13
	add	x8, x8, #256, lsl #12
	b	.LBB11_25
.LBB11_16:
	mov	w5, #65535
	cmp	x8, x5
	b.ne	.LBB11_19
	add	x8, x17, x11
	cmp	x18, x8
	b.lo	.LBB11_8
	mov	x21, xzr
	mov	x20, xzr
	b	.LBB11_40
.LBB11_19:
	ldr	x7, [x2, #32]
	mov	w5, #17
	mov	w19, #1
	mov	w20, #8192
	sub	x5, x5, x7
	cmp	x7, #0
	lsl	x5, x19, x5
	add	x19, x5, #2, lsl #12
	csel	x19, x20, x19, eq
	add	x19, x6, x19
	cmp	x13, x19
	b.lo	.LBB11_8
	add	x13, x17, x11
	cmp	x18, x13
	b.lo	.LBB11_8
	cmp	x7, #0
	lsr	x17, x14, #6
	add	x13, x16, x6
	csel	x18, xzr, x5, eq
	add	x13, x13, x18
	ldr	x13, [x13, x17, lsl #3]
	lsr	x5, x13, x15
	tbz	w5, #0, .LBB11_27
	lsr	x14, x14, x7
	sub	x5, x7, #6
	cmp	x7, #0
	lsl	x5, x14, x5
	csel	x5, xzr, x5, eq
	cbz	x7, .LBB11_28
	add	x16, x16, x6
	ldrh	w14, [x16, x14, lsl #1]
	rev16	w14, w14
	b	.LBB11_29
.LBB11_24:
	add	x8, x8, x15, lsl #4
	add	x8, x8, #1
.LBB11_25:
	mov	x20, xzr
	cmp	x8, #256, lsl #12
	and	x21, x8, #0xf
	b.hs	.LBB11_5
	lsr	x14, x8, #4
	b	.LBB11_40
.LBB11_27:
	mov	x21, xzr
	mov	w20, #1
	b	.LBB11_5
.LBB11_28:
	mov	x14, xzr
.LBB11_29:
	cmp	x17, x5
	and	x16, x15, #0x3f
	sub	x15, x17, x5
	b.ne	.LBB11_31
	mov	x6, xzr
	b	.LBB11_38
.LBB11_31:
	cmp	x15, #4
	b.hs	.LBB11_33
	mov	x6, xzr
	mov	x7, xzr
	b	.LBB11_36
.LBB11_33:
	add	x6, x18, x12
	movi	v0.2d, #0000000000000000
	movi	v1.2d, #0000000000000000
	add	x6, x6, x10
	and	x7, x15, #0xfffffffffffffffc
	and	x19, x15, #0xfffffffffffffffc
	add	x6, x6, x5, lsl #3
	add	x6, x6, x3
	add	x6, x6, #20
.LBB11_34:
	ldp	q2, q3, [x6, #-16]
	subs	x19, x19, #4
	add	x6, x6, #32
	cnt	v2.16b, v2.16b
	cnt	v3.16b, v3.16b
	uaddlp	v2.8h, v2.16b
	uaddlp	v3.8h, v3.16b
	uaddlp	v2.4s, v2.8h
	uaddlp	v3.4s, v3.8h
	uadalp	v0.2d, v2.4s
	uadalp	v1.2d, v3.4s
	b.ne	.LBB11_34
	add	v0.2d, v1.2d, v0.2d
	cmp	x15, x7
	addp	d0, v0.2d
	fmov	x6, d0
	b.eq	.LBB11_38
.LBB11_36:
	add	x12, x18, x12
	add	x18, x5, x7
	add	x12, x12, x10
	add	x12, x12, x18, lsl #3
	add	x5, x12, x3
	sub	x12, x18, x17
	add	x17, x5, #4
.LBB11_37:
	ldr	d0, [x17], #8
	adds	x12, x12, #1
	cnt	v0.8b, v0.8b
	addv	b0, v0.8b
	fmov	x18, d0
	add	x6, x18, x6
	b.lo	.LBB11_37
.LBB11_38:
	mov	x12, #-1
	lsl	x12, x12, x16
	bic	x12, x13, x12
	fmov	d0, x12
	cnt	v0.8b, v0.8b
	addv	b0, v0.8b
	fmov	x12, d0
	add	x12, x14, x12
	add	x14, x12, x6
	cmp	x14, x8
	b.hi	.LBB11_8
	mov	x21, xzr
	add	x20, x15, #1
.LBB11_40:
	mov	x8, x2
	mov	x22, x0
	tst	w1, #0xff
	add	w19, w14, w11
	add	x2, x10, x9
	mov	x0, x3
	b.eq	.LBB11_42
	mov	w3, w1
	mov	x1, x4
	b	.LBB11_43
.LBB11_42:
	mov	x1, x4
	mov	w3, wzr
.LBB11_43:
	mov	x4, x8
	mov	x5, x19
	bl	"lookup::apart::value_at"
	and	w8, w0, #0xff
	mov	x0, x22
	cmp	w8, #1
	b.ne	.LBB11_8
	stp	xzr, xzr, [x0]
	stp	x19, x1, [x0, #16]
	stp	x20, x21, [x0, #32]
	ldp	x20, x19, [sp, #32]
	ldp	x22, x21, [sp, #16]
	ldp	x29, x30, [sp], #48
	ret
.Lfunc_end11:
	.size	"lookup::apart::put_steps", .Lfunc_end11-"lookup::apart::put_steps"

	.section	".text.lookup::apart::value_at","ax",@progbits
	.p2align	2
	.type	"lookup::apart::value_at",@function
"lookup::apart::value_at":
	and	w9, w3, #0xff
	ldr	x10, [x4, #56]
	ldr	x8, [x4, #72]
	cmp	w9, #2
	add	x9, x0, x2
	b.hs	.LBB12_2
	ldr	x11, [x4, #64]
	mov	x12, #-9223372036854775808
	mov	x15, xzr
	mvn	x13, x11
	bfxil	x12, x11, #1, #63
	tst	x11, #0x1
	lsr	x13, x13, #1
	csel	x11, x12, x13, eq
	cbnz	x10, .LBB12_12
	b	.LBB12_8
.LBB12_2:
	b.ne	.LBB12_7
	lsr	x10, x5, #14
	mov	w11, #25
	madd	x13, x10, x11, x9
	ldrb	w10, [x13, #24]
	cmp	w10, #64
	b.hi	.LBB12_27
	ldr	x12, [x4, #24]
	mov	w15, #16383
	and	x5, x5, #0x3fff
	and	x14, x12, #0x3fff
	add	x14, x14, x15
	lsr	x14, x14, #14
	add	x12, x14, x12, lsr #14
	mul	x12, x12, x11
	ldr	x11, [x13]
	cbz	w10, .LBB12_10
	ldr	x13, [x13, #16]
	sub	x14, x1, x2
	sub	x14, x14, x12
	subs	x14, x14, x13
	b.lo	.LBB12_27
	umaddl	x15, w10, w5, x10
	add	x15, x15, #7
	cmp	x14, x15, lsr #3
	b.hs	.LBB12_11
	b	.LBB12_27
.LBB12_7:
	lsl	x15, x8, #3
	mov	x11, xzr
	cbnz	x10, .LBB12_12
.LBB12_8:
	and	w12, w3, #0xff
	cmp	w12, #3
	b.eq	.LBB12_19
.LBB12_9:
	cmp	x8, #2
	mvn	x9, x11
	b.hs	.LBB12_23
	b	.LBB12_26
.LBB12_10:
	mov	x13, xzr
.LBB12_11:
	eor	x11, x11, #0x8000000000000000
	add	x15, x13, x12
	cbz	x10, .LBB12_8
.LBB12_12:
	mul	x12, x5, x10
	add	x15, x9, x15
	cmp	x10, #8
	add	x13, x10, x12
	add	x14, x13, #7
	lsr	x13, x12, #3
	lsr	x14, x14, #3
	add	x16, x15, x14
	b.hi	.LBB12_14
	ldrb	w15, [x15, x13]
	ldurb	w16, [x16, #-1]
	mov	w17, #1
	and	w18, w3, #0xff
	sub	x13, x14, x13
	and	x12, x12, #0x7
	cmp	w18, #1
	b.ne	.LBB12_18
	b	.LBB12_22
.LBB12_14:
	cmp	x10, #24
	b.hi	.LBB12_16
	ldrh	w15, [x15, x13]
	ldurh	w16, [x16, #-2]
	mov	w17, #2
	and	w18, w3, #0xff
	sub	x13, x14, x13
	and	x12, x12, #0x7
	cmp	w18, #1
	b.ne	.LBB12_18
	b	.LBB12_22
.LBB12_16:
	cmp	x10, #56
	b.hi	.LBB12_21
	ldr	w15, [x15, x13]
	ldur	w16, [x16, #-4]
	mov	w17, #4
	and	w18, w3, #0xff
	sub	x13, x14, x13
	and	x12, x12, #0x7
	cmp	w18, #1
	b.eq	.LBB12_22
.LBB12_18:
	sub	w13, w13, w17
	rev	x14, x15
	rev	x15, x16
	lsl	w13, w13, #3
	neg	x10, x10
	sub	w13, w13, w12
	lsl	x12, x14, x12
	lsr	x13, x15, x13
	orr	x12, x13, x12
	lsr	x10, x12, x10
	and	w12, w3, #0xff
	cmp	w12, #3
	b.ne	.LBB12_9
.LBB12_19:
	cmp	x8, x10
	b.ls	.LBB12_27
	ldr	x1, [x9, x10, lsl #3]
	mov	w0, #1
	ret
.LBB12_21:
	ldr	x15, [x15, x13]
	ldur	x16, [x16, #-8]
	mov	w17, #8
	and	w18, w3, #0xff
	sub	x13, x14, x13
	and	x12, x12, #0x7
	cmp	w18, #1
	b.ne	.LBB12_18
.LBB12_22:
	sub	x9, x13, x17
	add	x12, x10, x12
	neg	x10, x10
	lsl	x9, x9, #3
	neg	x12, x12
	lsl	x9, x16, x9
	orr	x9, x9, x15
	lsl	x9, x9, x12
	lsr	x10, x9, x10
	cmp	x8, #2
	mvn	x9, x11
	b.lo	.LBB12_26
.LBB12_23:
	orr	x12, x10, x8
	lsr	x12, x12, #32
	cbz	x12, .LBB12_26
	udiv	x9, x9, x8
	cmp	x10, x9
	b.hi	.LBB12_27
	mul	x8, x10, x8
	b	.LBB12_28
.LBB12_26:
	mul	x8, x10, x8
	cmp	x8, x9
	b.ls	.LBB12_28
.LBB12_27:
	mov	w0, wzr
	mov	x1, xzr
	ret
.LBB12_28:
	add	x8, x8, x11
	mov	w0, #1
	eor	x1, x8, #0x8000000000000000
	ret
.Lfunc_end12:
	.size	"lookup::apart::value_at", .Lfunc_end12-"lookup::apart::value_at"

	.section	".text.signalfern_c::look_in","ax",@progbits
	.p2align	2
	.type	"signalfern_c::look_in",@function
"signalfern_c::look_in":
	sub	sp, sp, #160
	ldr	x8, [x1, #16]
	stp	x29, x30, [sp, #80]
	add	x29, sp, #80
	stp	x26, x25, [sp, #96]
	cmp	x8, #1
	stp	x24, x23, [sp, #112]
	stp	x22, x21, [sp, #128]
	stp	x20, x19, [sp, #144]
	b.ne	.LBB13_7
	ldur	q0, [x1, #24]
	ldur	q1, [x1, #40]
	mov	w8, #2147352575
	ldp	x21, x22, [x1, #80]
	cmp	w3, w8
	ldur	q2, [x1, #56]
	stp	q0, q1, [sp, #16]
	ldr	x19, [x2, #8]
	ldr	x20, [x1, #40]
	ldur	q0, [x1, #72]
	str	xzr, [sp, #8]
	stp	q2, q0, [sp, #48]
	b.hi	.LBB13_7
	mov	x23, x0
	add	x0, sp, #8
	mov	w24, w3
	mov	x26, x1
	mov	x25, x2
	bl	"column::head_ok"
	mov	x2, x25
	mov	x1, x26
	mov	w3, w24
	mov	w8, w0
	mov	x0, x23
	cbz	w8, .LBB13_7
	subs	x8, x19, x22
	b.lo	.LBB13_7
	subs	x8, x8, x20
	b.lo	.LBB13_7
	cmp	x8, x21
	b.ne	.LBB13_7
	ldr	x8, [x2]
	mov	x4, x19
	mov	x2, x1
	ldp	x20, x19, [sp, #144]
	mov	w1, wzr
	ldp	x22, x21, [sp, #128]
	mov	w5, w3
	ldp	x24, x23, [sp, #112]
	mov	x3, x8
	ldp	x26, x25, [sp, #96]
	ldp	x29, x30, [sp, #80]
	add	sp, sp, #160
	b	"lookup::apart::put_steps"
.LBB13_7:
	ldp	x20, x19, [sp, #144]
	ldp	x22, x21, [sp, #128]
	ldp	x24, x23, [sp, #112]
	ldp	x26, x25, [sp, #96]
	ldp	x29, x30, [sp, #80]
	add	sp, sp, #160
	b	"signalfern_c::answer_in"
.Lfunc_end13:
	.size	"signalfern_c::look_in", .Lfunc_end13-"signalfern_c::look_in"

	.section	".text.signalfern_c::answer_in","ax",@progbits
	.p2align	2
	.type	"signalfern_c::answer_in",@function
"signalfern_c::answer_in":
	sub	sp, sp, #368
	ldr	x8, [x1, #16]
	stp	x20, x19, [sp, #352]
	mov	x19, x0
	stp	x29, x30, [sp, #272]
	add	x29, sp, #272
	sub	x20, x8, #1
	stp	x28, x27, [sp, #288]
	cmp	x20, #3
	stp	x26, x25, [sp, #304]
	stp	x24, x23, [sp, #320]
	stp	x22, x21, [sp, #336]
	b.hi	.LBB14_3
	ldr	x9, [x1, #56]
	mov	w8, #2147352575
	cmp	w3, w8
	b.ls	.LBB14_4
.LBB14_2:
	mov	w8, #14
	b	.LBB14_8
.LBB14_3:
	mov	w20, wzr
	mov	w9, #65
	mov	w8, #2147352575
	cmp	w3, w8
	b.hi	.LBB14_2
.LBB14_4:
	ldp	x21, x28, [x1, #24]
	add	x0, sp, #40
	ldp	x23, x25, [x1, #40]
	str	w3, [sp, #36]
	ldp	x27, x10, [x1, #64]
	strb	w20, [sp, #40]
	strb	wzr, [sp, #47]
	ldp	x22, x26, [x1, #80]
	sturh	wzr, [sp, #45]
	ldp	x8, x24, [x2]
	stur	wzr, [sp, #41]
	stp	x21, x28, [sp, #48]
	stp	x23, x25, [sp, #64]
	stp	x9, x27, [sp, #80]
	stp	x9, x8, [sp, #16]
	str	x10, [sp, #8]
	stp	x10, x22, [sp, #96]
	bl	"column::head_ok"
	cbz	w0, .LBB14_7
	subs	x8, x24, x26
	b.hs	.LBB14_10
.LBB14_6:
	mov	w8, #11
	b	.LBB14_8
.LBB14_7:
	mov	w8, #10
.LBB14_8:
	movi	v0.2d, #0000000000000000
	str	x8, [x19]
	str	xzr, [x19, #40]
	stur	q0, [x19, #8]
	stur	q0, [x19, #24]
.LBB14_9:
	ldp	x20, x19, [sp, #352]
	ldp	x22, x21, [sp, #336]
	ldp	x24, x23, [sp, #320]
	ldp	x26, x25, [sp, #304]
	ldp	x28, x27, [sp, #288]
	ldp	x29, x30, [sp, #272]
	add	sp, sp, #368
	ret
.LBB14_10:
	subs	x8, x8, x23
	b.lo	.LBB14_6
	cmp	x8, x22
	b.ne	.LBB14_6
	ldp	x8, x3, [sp, #16]
	movi	v0.2d, #0000000000000000
	ldr	w5, [sp, #36]
	add	x0, sp, #112
	sub	x2, x29, #104
	mov	w1, w20
	mov	x4, x24
	stp	xzr, xzr, [x29, #-104]
	stp	x25, x8, [x29, #-56]
	ldr	x8, [sp, #8]
	stp	xzr, x21, [x29, #-88]
	stp	x28, x23, [x29, #-72]
	stp	x27, x8, [x29, #-40]
	stp	x22, x26, [x29, #-24]
	stp	q0, q0, [sp, #112]
	str	q0, [sp, #144]
	bl	"lookup::apart::put_steps"
	ldr	x8, [sp, #112]
	cmp	x8, #1
	b.eq	.LBB14_15
	cbnz	x8, .LBB14_16
	ldp	q0, q1, [sp, #128]
	stp	xzr, xzr, [x19]
	stp	q0, q1, [x19, #16]
	b	.LBB14_9
.LBB14_15:
	ldr	q0, [sp, #144]
	stp	x8, xzr, [x19]
	stp	xzr, xzr, [x19, #16]
	str	q0, [x19, #32]
	b	.LBB14_9
.LBB14_16:
	mov	w8, #15
	b	.LBB14_8
.Lfunc_end14:
	.size	"signalfern_c::answer_in", .Lfunc_end14-"signalfern_c::answer_in"

	.section	".text.page::fill_by","ax",@progbits
	.p2align	2
	.type	"page::fill_by",@function
"page::fill_by":
	sub	sp, sp, #352
	ldrb	w8, [x7]
	ldrb	w11, [x7, #8]
	stp	x24, x23, [sp, #304]
	stp	x22, x21, [sp, #320]
	mov	x21, x2
	mov	x22, x1
	stp	x20, x19, [sp, #336]
	mov	x19, x4
	mov	x20, x3
	cmp	w8, #1
	mov	x23, x0
	stp	d9, d8, [sp, #240]
	stp	x29, x30, [sp, #256]
	add	x29, sp, #256
	stp	x28, x27, [sp, #272]
	stp	x26, x25, [sp, #288]
	b.ne	.LBB15_5
	cbnz	x19, .LBB15_3
	b	.LBB15_78
.LBB15_2:
	adrp	x8, ".Lswitch.table.page::fill_by"
	add	x8, x8, :lo12:".Lswitch.table.page::fill_by"
	ldrb	w8, [x8, x11]
	subs	x19, x19, #1
	str	xzr, [x23], #8
	str	xzr, [x22], #8
	strb	w8, [x21], #1
	b.eq	.LBB15_78
.LBB15_3:
	ldr	w8, [x20], #4
	mov	w9, #2147352575
	cmp	w8, w9
	b.ls	.LBB15_2
	mov	w8, #14
	subs	x19, x19, #1
	str	xzr, [x23], #8
	str	xzr, [x22], #8
	strb	w8, [x21], #1
	b.ne	.LBB15_3
	b	.LBB15_78
.LBB15_5:
	ldur	q0, [x7, #24]
	ldur	w8, [x7, #9]
	ldr	w9, [x7, #12]
	ldr	x10, [x7, #16]
	ldur	q1, [x7, #40]
	ldur	q2, [x7, #56]
	stur	q0, [x29, #-88]
	ldur	q0, [x7, #72]
	sturb	w11, [x29, #-104]
	stur	w8, [x29, #-103]
	stur	w9, [x29, #-100]
	str	x10, [sp, #56]
	stur	x10, [x29, #-96]
	stur	q1, [x29, #-72]
	stur	q2, [x29, #-56]
	stur	q0, [x29, #-40]
	cbz	x19, .LBB15_78
	ldp	x8, x9, [x29, #-88]
	mov	w10, #17
	ldp	x13, x3, [x29, #-72]
	mov	w12, #1
	stur	x11, [x29, #-112]
	ldur	x11, [x29, #-32]
	mov	x24, x6
	sub	x10, x10, x8
	cmp	x8, #0
	mov	w8, #8192
	lsl	x10, x12, x10
	sub	x14, x9, x13, lsl #3
	add	x15, x5, x11
	ldp	x12, x6, [x29, #-56]
	str	x13, [sp, #128]
	sub	x13, x13, #1
	add	x10, x10, #2, lsl #12
	add	x9, x11, x9
	str	x13, [sp, #120]
	add	x13, x15, x14
	csel	x8, x8, x10, eq
	stur	x14, [x29, #-120]
	mvn	x14, x12
	tst	x12, #0x1
	str	x13, [sp, #112]
	mov	x13, #-9223372036854775808
	lsr	x11, x14, #1
	str	x8, [sp, #40]
	add	x8, x5, x9
	bfxil	x13, x12, #1, #63
	str	x8, [sp, #80]
	sub	x8, x24, x9
	sub	x10, x3, #1
	str	x8, [sp, #64]
	mov	w8, #64
	csel	x9, x13, x11, eq
	sub	x8, x8, x3
	mov	x25, x5
	mov	x4, xzr
	str	x8, [sp, #72]
	mvn	x8, x9
	mov	x0, xzr
	str	x8, [sp, #88]
	add	x8, x15, #6
	mov	x28, x3
	stp	x10, x15, [sp, #96]
	add	x10, x3, #7
	mov	x26, x6
	str	x8, [sp, #16]
	add	x8, x15, #5
	str	x9, [sp, #48]
	stp	x8, x10, [sp, #24]
.LBB15_7:
	mov	x8, x4
.LBB15_8:
	add	x5, x8, #1
	cmp	x5, x19
	b.hs	.LBB15_11
	add	x9, x20, x8, lsl #2
	ldp	w8, w9, [x9]
	cmp	w8, w9
	b.hi	.LBB15_12
	eor	w8, w9, w8
	cmp	w8, #16, lsl #12
	mov	x8, x5
	b.lo	.LBB15_8
	b	.LBB15_12
.LBB15_11:
	mov	x5, x19
.LBB15_12:
	sub	x8, x19, x4
	sub	x15, x5, x4
	add	x9, x4, #1024
	cmp	x8, #1024
	csel	x8, x9, x19, hi
	cmp	x15, #16
	csel	x27, x5, x8, hi
	b.ls	.LBB15_17
	ldr	w8, [x20, x4, lsl #2]
	mov	w9, #2147352575
	cmp	w8, w9
	b.hi	.LBB15_44
	ldur	x9, [x29, #-112]
	cbnz	w9, .LBB15_44
	lsr	x9, x8, #16
	ldr	x8, [sp, #128]
	cbz	x8, .LBB15_18
	ldp	x10, x8, [sp, #112]
	cmp	x8, x9
	csel	x8, x8, x9, lo
	add	x10, x10, x8, lsl #3
	ldp	w8, w11, [x10]
	ldur	x10, [x29, #-120]
	add	x12, x11, #4
	cmp	x10, x12
	b.hs	.LBB15_19
	b	.LBB15_44
.LBB15_17:
	sub	x9, x29, #104
	mov	x1, x22
	mov	x2, x21
	stp	x9, x0, [sp]
	mov	x0, x23
	mov	x3, x20
	mov	x5, x8
	b	.LBB15_45
.LBB15_18:
	mov	x11, xzr
	ldur	x10, [x29, #-120]
	add	x12, x11, #4
	cmp	x10, x12
	b.lo	.LBB15_44
.LBB15_19:
	ldr	x10, [sp, #104]
	add	x10, x10, x11
	ldrh	w13, [x10]
	cmp	x13, x9
	b.ne	.LBB15_44
	ldrb	w13, [x10, #2]
	ldrb	w14, [x10, #3]
	mov	w16, #65535
	mov	x9, x13
	bfi	x9, x14, #8, #8
	add	x10, x9, #1
	cmp	x9, x16
	ldr	x16, [sp, #40]
	lsl	x17, x10, #1
	csel	x16, xzr, x16, eq
	cmp	x9, #4095
	csel	x16, x17, x16, lo
	ldur	x17, [x29, #-120]
	add	x16, x16, x12
	cmp	x17, x16
	b.lo	.LBB15_44
	ldr	x17, [sp, #56]
	add	x16, x10, x8
	cmp	x17, x16
	b.lo	.LBB15_44
	mov	w16, #65535
	cmp	x9, x16
	mov	w16, #1
	cinc	w16, w16, eq
	cmp	x9, #4095
	csel	w16, wzr, w16, lo
	cmp	w16, #2
	b.eq	.LBB15_42
	cmp	w16, #1
	b.eq	.LBB15_44
	lsl	x14, x14, #8
	cmp	x15, x10, lsr #4
	b.lo	.LBB15_44
	cbz	x9, .LBB15_28
	cmp	x9, #8
	b.hs	.LBB15_29
	mov	w17, #1
	mov	w15, #1
	b	.LBB15_39
.LBB15_28:
	mov	w10, #1
	b	.LBB15_42
.LBB15_29:
	cmp	x9, #16
	b.hs	.LBB15_31
	mov	x15, xzr
	mov	w17, #1
	b	.LBB15_36
.LBB15_31:
	movi	v0.16b, #1
	ldr	x17, [sp, #16]
	and	x16, x13, #0xf
	sub	x15, x9, x16
	sub	x18, x9, x16
	add	x17, x17, x11
.LBB15_32:
	sub	x1, x17, #2
	ld2	{ v3.16b, v4.16b }, [x17], #32
	subs	x18, x18, #16
	ld2	{ v1.16b, v2.16b }, [x1]
	ushll2	v5.8h, v3.16b, #0
	ushll	v6.8h, v3.8b, #0
	ushll	v7.8h, v4.8b, #0
	ushll2	v3.8h, v4.16b, #0
	ushll2	v19.8h, v1.16b, #0
	ushll2	v4.4s, v5.8h, #0
	ushll	v5.4s, v5.4h, #0
	ushll	v17.4s, v6.4h, #0
	ushll	v18.4s, v7.4h, #0
	ushll	v20.4s, v3.4h, #0
	ushll2	v16.4s, v6.8h, #0
	ushll2	v7.4s, v7.8h, #0
	ushll2	v3.4s, v3.8h, #0
	ushll2	v6.2d, v4.4s, #0
	ushll	v21.2d, v4.2s, #0
	ushll2	v22.2d, v5.4s, #0
	ushll	v4.2d, v17.2s, #0
	ushll	v25.2d, v18.2s, #8
	ushll2	v17.2d, v17.4s, #0
	ushll2	v18.2d, v18.4s, #8
	ushll	v27.2d, v20.2s, #8
	ushll2	v20.2d, v20.4s, #8
	ushll	v23.2d, v5.2s, #0
	ushll2	v24.2d, v16.4s, #0
	ushll	v5.2d, v16.2s, #0
	ushll	v26.2d, v7.2s, #8
	ushll2	v16.2d, v3.4s, #8
	ushll2	v7.2d, v7.4s, #8
	ushll	v28.2d, v3.2s, #8
	orr	v3.16b, v25.16b, v4.16b
	orr	v4.16b, v18.16b, v17.16b
	ushll	v25.8h, v1.8b, #0
	orr	v18.16b, v20.16b, v22.16b
	ushll2	v20.8h, v2.16b, #0
	ushll	v1.8h, v2.8b, #0
	orr	v5.16b, v26.16b, v5.16b
	orr	v7.16b, v7.16b, v24.16b
	orr	v17.16b, v27.16b, v23.16b
	ushll2	v23.4s, v19.8h, #0
	ushll	v19.4s, v19.4h, #0
	orr	v21.16b, v28.16b, v21.16b
	ushll2	v22.4s, v25.8h, #0
	ushll	v24.4s, v25.4h, #0
	ushll2	v26.4s, v20.8h, #0
	ushll2	v28.4s, v1.8h, #0
	ushll	v20.4s, v20.4h, #0
	ushll	v1.4s, v1.4h, #0
	ushll2	v2.2d, v23.4s, #0
	ushll	v23.2d, v23.2s, #0
	ushll2	v25.2d, v19.4s, #0
	ushll	v19.2d, v19.2s, #0
	ushll2	v27.2d, v22.4s, #0
	ushll	v22.2d, v22.2s, #0
	ushll2	v29.2d, v24.4s, #0
	ushll	v24.2d, v24.2s, #0
	ushll2	v30.2d, v26.4s, #8
	ushll	v26.2d, v26.2s, #8
	ushll2	v31.2d, v20.4s, #8
	ushll	v20.2d, v20.2s, #8
	ushll2	v8.2d, v28.4s, #8
	ushll	v28.2d, v28.2s, #8
	ushll2	v9.2d, v1.4s, #8
	ushll	v1.2d, v1.2s, #8
	orr	v6.16b, v16.16b, v6.16b
	orr	v16.16b, v26.16b, v23.16b
	orr	v2.16b, v30.16b, v2.16b
	orr	v23.16b, v8.16b, v27.16b
	orr	v19.16b, v20.16b, v19.16b
	orr	v20.16b, v31.16b, v25.16b
	orr	v1.16b, v1.16b, v24.16b
	orr	v24.16b, v9.16b, v29.16b
	orr	v22.16b, v28.16b, v22.16b
	cmhi	v2.2d, v6.2d, v2.2d
	cmhi	v6.2d, v21.2d, v16.2d
	cmhi	v16.2d, v18.2d, v20.2d
	cmhi	v17.2d, v17.2d, v19.2d
	cmhi	v7.2d, v7.2d, v23.2d
	cmhi	v5.2d, v5.2d, v22.2d
	cmhi	v4.2d, v4.2d, v24.2d
	cmhi	v1.2d, v3.2d, v1.2d
	uzp1	v2.4s, v6.4s, v2.4s
	uzp1	v3.4s, v17.4s, v16.4s
	uzp1	v5.4s, v5.4s, v7.4s
	uzp1	v1.4s, v1.4s, v4.4s
	uzp1	v2.8h, v3.8h, v2.8h
	uzp1	v1.8h, v1.8h, v5.8h
	uzp1	v1.16b, v1.16b, v2.16b
	and	v0.16b, v0.16b, v1.16b
	b.ne	.LBB15_32
	shl	v0.16b, v0.16b, #7
	cmlt	v0.16b, v0.16b, #0
	uminv	b0, v0.16b
	fmov	w17, s0
	cbz	x16, .LBB15_41
	cmp	x16, #8
	b.hs	.LBB15_36
	add	x15, x15, #1
	b	.LBB15_39
.LBB15_36:
	movi	v0.2d, #0xffffffffffffffff
	and	x16, x13, #0x7
	sub	x18, x9, x16
	mov	v0.b[0], w17
	add	x17, x11, x15, lsl #1
	add	x15, x15, x16
	sub	x1, x15, x13
	add	x15, x18, #1
	ldr	x18, [sp, #16]
	add	x17, x18, x17
	sub	x18, x1, x14
.LBB15_37:
	sub	x1, x17, #2
	ld2	{ v1.8b, v2.8b }, [x17], #16
	ld2	{ v3.8b, v4.8b }, [x1]
	adds	x18, x18, #8
	ushll	v5.8h, v1.8b, #0
	ushll	v1.8h, v2.8b, #0
	ushll	v2.8h, v3.8b, #0
	ushll	v3.8h, v4.8b, #0
	ushll2	v4.4s, v5.8h, #0
	ushll	v5.4s, v5.4h, #0
	ushll	v6.4s, v1.4h, #0
	ushll2	v1.4s, v1.8h, #0
	ushll2	v7.4s, v2.8h, #0
	ushll	v2.4s, v2.4h, #0
	ushll	v16.4s, v3.4h, #0
	ushll2	v3.4s, v3.8h, #0
	ushll2	v17.2d, v4.4s, #0
	ushll	v4.2d, v4.2s, #0
	ushll2	v18.2d, v5.4s, #0
	ushll	v5.2d, v5.2s, #0
	ushll2	v19.2d, v1.4s, #8
	ushll	v1.2d, v1.2s, #8
	ushll2	v20.2d, v6.4s, #8
	ushll	v6.2d, v6.2s, #8
	ushll2	v21.2d, v7.4s, #0
	ushll	v7.2d, v7.2s, #0
	ushll2	v22.2d, v2.4s, #0
	ushll	v2.2d, v2.2s, #0
	ushll2	v23.2d, v3.4s, #8
	ushll	v3.2d, v3.2s, #8
	ushll2	v24.2d, v16.4s, #8
	ushll	v16.2d, v16.2s, #8
	orr	v5.16b, v6.16b, v5.16b
	orr	v6.16b, v20.16b, v18.16b
	orr	v1.16b, v1.16b, v4.16b
	orr	v4.16b, v19.16b, v17.16b
	orr	v17.16b, v23.16b, v21.16b
	orr	v3.16b, v3.16b, v7.16b
	orr	v2.16b, v16.16b, v2.16b
	orr	v16.16b, v24.16b, v22.16b
	cmhi	v4.2d, v4.2d, v17.2d
	cmhi	v1.2d, v1.2d, v3.2d
	cmhi	v3.2d, v6.2d, v16.2d
	cmhi	v2.2d, v5.2d, v2.2d
	uzp1	v1.4s, v1.4s, v4.4s
	uzp1	v2.4s, v2.4s, v3.4s
	uzp1	v1.8h, v2.8h, v1.8h
	xtn	v1.8b, v1.8h
	and	v0.8b, v0.8b, v1.8b
	b.ne	.LBB15_37
	shl	v0.8b, v0.8b, #7
	cmlt	v0.8b, v0.8b, #0
	uminv	b0, v0.8b
	fmov	w17, s0
	cbz	x16, .LBB15_41
.LBB15_39:
	add	x13, x14, x13
	add	x14, x11, x15, lsl #1
	sub	x13, x13, x15
	ldr	x15, [sp, #24]
	add	x13, x13, #1
	add	x14, x15, x14
.LBB15_40:
	ldurh	w15, [x14, #-1]
	ldurh	w16, [x14, #-3]
	add	x14, x14, #2
	cmp	x16, x15
	cset	w15, lo
	subs	x13, x13, #1
	and	w17, w17, w15
	b.ne	.LBB15_40
.LBB15_41:
	tbz	w17, #0, .LBB15_44
.LBB15_42:
	cmp	x5, x4
	b.ls	.LBB15_46
	ldr	x14, [sp, #104]
	mov	x13, xzr
	add	x12, x14, x12
	ldr	x14, [sp, #24]
	add	x11, x14, x11
	b	.LBB15_50
.LBB15_44:
	sub	x8, x29, #104
	mov	x1, x22
	mov	x2, x21
	stp	x8, x0, [sp]
	mov	x0, x23
	mov	x3, x20
.LBB15_45:
	mov	x6, x25
	mov	x7, x24
	bl	"page::fill_any"
	mov	x6, x26
	mov	x3, x28
.LBB15_46:
	cmp	x27, x19
	mov	x4, x27
	b.lo	.LBB15_7
	b	.LBB15_79
.LBB15_47:
	mul	x16, x15, x6
.LBB15_48:
	ldr	x17, [sp, #48]
	mov	w15, wzr
	add	x16, x16, x17
	eor	x16, x16, #0x8000000000000000
.LBB15_49:
	str	x14, [x23, x4, lsl #3]
	str	x16, [x22, x4, lsl #3]
	strb	w15, [x21, x4]
	add	x4, x4, #1
	cmp	x4, x27
	b.eq	.LBB15_46
.LBB15_50:
	lsl	x14, x4, #2
	cmp	x9, #4094
	ldrh	w14, [x20, x14]
	b.hi	.LBB15_59
	cmp	x13, x10
	b.hs	.LBB15_65
	add	x15, x11, x13, lsl #1
.LBB15_53:
	ldurh	w16, [x15, #-1]
	cmp	x16, x14
	b.hs	.LBB15_56
	add	x13, x13, #1
	add	x15, x15, #2
	cmp	x10, x13
	b.ne	.LBB15_53
	mov	x13, x10
.LBB15_56:
	cmp	x10, x13
	b.ls	.LBB15_66
	ldrh	w15, [x12, x13, lsl #1]
	cmp	x15, x14
	b.ne	.LBB15_66
	mov	x14, x13
.LBB15_59:
	add	x14, x14, x8
	ldr	x17, [sp, #96]
	mul	x15, x14, x3
	cmp	x17, #56
	lsr	x16, x15, #3
	b.hi	.LBB15_62
	ldr	x18, [sp, #64]
	add	x17, x16, #8
	cmp	x17, x18
	b.hi	.LBB15_62
	ldr	x17, [sp, #80]
	and	x15, x15, #0x7
	ldr	x16, [x17, x16]
	rev	x16, x16
	lsl	x15, x16, x15
	ldr	x16, [sp, #72]
	lsr	x15, x15, x16
	cmp	x6, #2
	b.hs	.LBB15_74
	b	.LBB15_76
.LBB15_62:
	cbz	x3, .LBB15_67
	ldr	x17, [sp, #32]
	cmp	x3, #8
	add	x17, x17, x15
	lsr	x17, x17, #3
	b.hi	.LBB15_68
	ldr	x18, [sp, #80]
	mov	x2, #-1
	add	x1, x18, x17
	ldrb	w18, [x18, x16]
	ldurb	w1, [x1, #-1]
	b	.LBB15_73
.LBB15_65:
	mov	x14, xzr
	mov	x16, xzr
	mov	w15, #1
	mov	x13, x10
	b	.LBB15_49
.LBB15_66:
	mov	x14, xzr
	mov	x16, xzr
	mov	w15, #1
	b	.LBB15_49
.LBB15_67:
	mov	x15, xzr
	cmp	x6, #2
	b.hs	.LBB15_74
	b	.LBB15_76
.LBB15_68:
	cmp	x3, #24
	b.hi	.LBB15_70
	ldr	x18, [sp, #80]
	mov	x2, #-2
	add	x1, x18, x17
	ldrh	w18, [x18, x16]
	ldurh	w1, [x1, #-2]
	b	.LBB15_73
.LBB15_70:
	cmp	x3, #56
	b.hi	.LBB15_72
	ldr	x18, [sp, #80]
	mov	x2, #-4
	add	x1, x18, x17
	ldr	w18, [x18, x16]
	ldur	w1, [x1, #-4]
	b	.LBB15_73
.LBB15_72:
	ldr	x18, [sp, #80]
	mov	x2, #-8
	add	x1, x18, x17
	ldr	x18, [x18, x16]
	ldur	x1, [x1, #-8]
.LBB15_73:
	sub	x16, x17, x16
	and	x15, x15, #0x7
	rev	x17, x18
	add	w16, w16, w2
	rev	x18, x1
	lsl	w16, w16, #3
	sub	w16, w16, w15
	lsl	x15, x17, x15
	lsr	x16, x18, x16
	orr	x15, x16, x15
	ldr	x16, [sp, #72]
	lsr	x15, x15, x16
	cmp	x6, #2
	b.lo	.LBB15_76
.LBB15_74:
	orr	x16, x15, x6
	lsr	x16, x16, #32
	cbz	x16, .LBB15_76
	ldr	x16, [sp, #88]
	udiv	x16, x16, x6
	cmp	x15, x16
	b.ls	.LBB15_47
	b	.LBB15_77
.LBB15_76:
	mul	x16, x15, x6
	ldr	x15, [sp, #88]
	cmp	x16, x15
	b.ls	.LBB15_48
.LBB15_77:
	mov	x14, xzr
	mov	x16, xzr
	mov	w15, #15
	b	.LBB15_49
.LBB15_78:
	mov	x0, xzr
.LBB15_79:
	ldp	x20, x19, [sp, #336]
	ldp	x22, x21, [sp, #320]
	ldp	x24, x23, [sp, #304]
	ldp	x26, x25, [sp, #288]
	ldp	x28, x27, [sp, #272]
	ldp	x29, x30, [sp, #256]
	ldp	d9, d8, [sp, #240]
	add	sp, sp, #352
	ret
.Lfunc_end15:
	.size	"page::fill_by", .Lfunc_end15-"page::fill_by"

	.section	".text.page::fill_any","ax",@progbits
	.p2align	2
	.type	"page::fill_any",@function
"page::fill_any":
	str	x30, [sp, #-96]!
	stp	x28, x27, [sp, #16]
	stp	x26, x25, [sp, #32]
	stp	x24, x23, [sp, #48]
	stp	x22, x21, [sp, #64]
	stp	x20, x19, [sp, #80]
	sub	sp, sp, #864
	movi	v0.2d, #0000000000000000
	mov	w8, #65536
	add	x10, sp, #96
	dup	v1.2d, x8
	add	x8, x10, #248
	ldr	x16, [sp, #960]
	mov	x30, x4
	mov	w15, #1
	ldp	x23, x11, [x16, #8]
	ldrb	w9, [x16]
	str	q0, [x8, #16]
	add	x8, x10, #328
	ldr	x14, [x16, #56]
	stp	q0, q0, [x8]
	add	x8, x10, #408
	ldr	x20, [x16, #72]
	stp	q0, q0, [x8]
	add	x8, x10, #488
	cmp	x4, x5
	ldp	x19, x12, [x16, #24]
	stp	q0, q0, [x8]
	ldp	x13, x4, [x16, #40]
	ldr	x8, [sp, #968]
	stur	q0, [x10, #184]
	stur	q0, [x10, #168]
	stur	q0, [x10, #248]
	add	x10, x10, #568
	stur	q0, [sp, #120]
	stur	q0, [sp, #104]
	str	x15, [sp, #136]
	stp	q0, q0, [sp, #144]
	stur	q0, [sp, #200]
	stur	q0, [sp, #184]
	stp	q0, q0, [sp, #224]
	stp	q0, q0, [sp, #304]
	stp	q0, q0, [sp, #384]
	stp	q1, q1, [sp, #736]
	stp	q1, q1, [sp, #768]
	stp	q1, q1, [sp, #800]
	stp	q1, q1, [sp, #832]
	str	x15, [sp, #96]
	str	x15, [sp, #176]
	str	x15, [sp, #216]
	str	x15, [sp, #256]
	str	x15, [sp, #296]
	str	x15, [sp, #336]
	str	x15, [sp, #376]
	str	x15, [sp, #416]
	str	x15, [sp, #456]
	stp	q0, q0, [sp, #464]
	str	x15, [sp, #496]
	str	x15, [sp, #536]
	stp	q0, q0, [sp, #544]
	str	x15, [sp, #576]
	str	x15, [sp, #616]
	stp	q0, q0, [sp, #624]
	str	x15, [sp, #656]
	stp	q0, q0, [x10]
	str	x15, [sp, #696]
	stp	q0, q0, [sp, #704]
	b.hs	.LBB16_91
	and	x10, x23, #0x3fff
	mov	w18, #16383
	add	x16, x6, x20
	add	x10, x10, x18
	sub	x17, x19, x12, lsl #3
	add	x19, x20, x19
	lsr	x10, x10, #14
	lsl	x20, x14, #3
	mov	w21, #17
	mov	w22, #1
	cmp	x12, #0
	sub	x21, x21, x11
	add	x10, x10, x23, lsr #14
	stp	x20, x23, [sp, #48]
	mov	w20, #25
	mov	x25, #-9223372036854775808
	mvn	x23, x4
	add	x6, x6, x19
	mul	x20, x10, x20
	cinc	x10, x22, ne
	mov	w24, #8192
	str	x10, [sp, #80]
	lsl	x10, x22, x21
	cmp	x11, #0
	str	x6, [sp, #872]
	sub	x19, x7, x19
	bfxil	x25, x4, #1, #63
	lsr	x6, x23, #1
	add	x7, x10, #2, lsl #12
	csel	x10, xzr, x10, eq
	csel	x7, x24, x7, eq
	tst	x4, #0x1
	add	x4, x16, x10
	csel	x10, x25, x6, eq
	mov	x15, xzr
	sub	x18, x12, #1
	stp	x10, x7, [sp, #64]
	sub	x10, x19, x20
	add	x23, x16, x17
	stp	x20, x10, [sp, #8]
	mov	w10, #64
	sub	x10, x10, x13
	str	x4, [sp, #88]
	stp	x19, x10, [sp, #32]
	add	x10, x4, #16
	mov	x4, x30
	str	x10, [sp, #24]
	b	.LBB16_4
.LBB16_2:
	mov	x28, xzr
	mov	x7, xzr
	mov	x19, xzr
	mov	w20, #14
.LBB16_3:
	str	x28, [x0, x4, lsl #3]
	add	x8, x19, x8
	str	x7, [x1, x4, lsl #3]
	strb	w20, [x2, x4]
	add	x4, x4, #1
	cmp	x4, x5
	b.eq	.LBB16_91
.LBB16_4:
	ldr	w28, [x3, x4, lsl #2]
	sub	x10, x4, x30
	add	x6, sp, #736
	lsr	x10, x10, #3
	ubfx	x19, x28, #16, #4
	lsr	x20, x28, #16
	add	x10, x10, #32
	ldr	x6, [x6, x19, lsl #3]
	cmp	x15, x10
	add	x27, x19, x19, lsl #2
	ccmp	x6, x20, #0, ls
	b.eq	.LBB16_7
	cbz	x12, .LBB16_8
	cmp	x18, x20
	csel	x10, x18, x20, lo
	add	x10, x23, x10, lsl #3
	ldp	w7, w10, [x10]
	add	x21, x10, #4
	cmp	x17, x21
	b.lo	.LBB16_9
	b	.LBB16_10
.LBB16_7:
	lsl	x6, x27, #3
	mov	w10, #2147352575
	cmp	w28, w10
	b.hi	.LBB16_2
	b	.LBB16_18
.LBB16_8:
	mov	x10, xzr
	mov	x7, xzr
	add	x21, x10, #4
	cmp	x17, x21
	b.hs	.LBB16_10
.LBB16_9:
	mov	x21, xzr
	mov	x7, xzr
	mov	x24, xzr
	mov	x22, xzr
	mov	w25, #2
	b	.LBB16_17
.LBB16_10:
	add	x10, x16, x10
	ldrh	w6, [x10]
	cmp	x6, x20
	b.ls	.LBB16_12
	mov	x21, xzr
	mov	x7, xzr
	mov	x24, xzr
	mov	x22, xzr
	mov	w25, #1
	b	.LBB16_17
.LBB16_12:
	b.hs	.LBB16_14
	ldr	x25, [sp, #80]
	mov	x21, xzr
	mov	x7, xzr
	mov	x24, xzr
	mov	x22, xzr
	b	.LBB16_17
.LBB16_14:
	ldrh	w10, [x10, #2]
	mov	w6, #65535
	ldr	x25, [sp, #72]
	add	x24, x10, #1
	cmp	x10, x6
	mov	w6, #1
	lsl	x22, x24, #1
	cinc	x6, x6, eq
	csel	x25, xzr, x25, eq
	cmp	x10, #4095
	csel	x10, x22, x25, lo
	csel	x22, xzr, x6, lo
	add	x10, x10, x21
	cmp	x17, x10
	b.lo	.LBB16_9
	ldr	x6, [sp, #56]
	add	x10, x24, x7
	cmp	x6, x10
	b.lo	.LBB16_9
	mov	x25, xzr
.LBB16_17:
	lsl	x6, x27, #3
	add	x10, sp, #736
	add	x26, sp, #96
	str	x20, [x10, x19, lsl #3]
	add	x15, x15, #1
	add	x10, x26, x6
	stp	x25, x21, [x10]
	stp	x7, x24, [x10, #16]
	str	x22, [x10, #32]
	mov	w10, #2147352575
	cmp	w28, w10
	b.hi	.LBB16_2
.LBB16_18:
	add	x10, sp, #96
	add	x10, x10, x6
	ldrb	w20, [x10]
	cmp	w20, #2
	b.eq	.LBB16_89
	cmp	w20, #1
	b.ne	.LBB16_21
	mov	x28, xzr
	mov	x7, xzr
	mov	x19, xzr
	b	.LBB16_3
.LBB16_21:
	ldp	x20, x27, [x10, #8]
	and	x28, x28, #0xffff
	ldr	x19, [x10, #24]
	ldrb	w10, [x10, #32]
	cmp	w10, #2
	b.eq	.LBB16_27
	cmp	w10, #1
	b.ne	.LBB16_28
	ldr	x10, [sp, #88]
	lsr	x24, x28, #6
	add	x10, x10, x20
	ldr	x21, [x10, x24, lsl #3]
	lsr	x10, x21, x28
	tbz	w10, #0, .LBB16_40
	lsr	x10, x28, x11
	sub	x6, x11, #6
	cmp	x11, #0
	lsl	x6, x10, x6
	csel	x22, xzr, x6, eq
	cbz	x11, .LBB16_41
	add	x6, x16, x20
	ldrh	w10, [x6, x10, lsl #1]
	rev16	w26, w10
	cmp	x24, x22
	sub	x7, x24, x22
	b.ne	.LBB16_42
.LBB16_26:
	mov	x25, xzr
	b	.LBB16_52
.LBB16_27:
	mov	x19, xzr
	add	x28, x27, x28
	cmp	w9, #1
	b.le	.LBB16_34
	b	.LBB16_54
.LBB16_28:
	add	x21, x19, #1
	cmp	x21, #2
	b.lo	.LBB16_31
	mov	x6, xzr
	add	x7, x16, x20
.LBB16_30:
	add	x10, x19, x6
	and	x22, x10, #0xfffffffffffffffe
	lsr	x10, x10, #1
	ldrh	w22, [x7, x22]
	cmp	w22, w28
	csinc	x6, x6, x10, hs
	csel	x19, x10, x19, hi
	cmp	x21, #3
	lsr	x21, x21, #1
	b.hi	.LBB16_30
	b	.LBB16_32
.LBB16_31:
	mov	x6, xzr
.LBB16_32:
	add	x10, x6, x19
	cmp	x6, x19
	add	x20, x16, x20
	and	x7, x10, #0xfffffffffffffffe
	lsr	x10, x10, #1
	csel	x7, x7, xzr, lo
	ldrh	w7, [x20, x7]
	cmp	w7, w28
	mov	x28, xzr
	ccmp	x6, x19, #2, eq
	mov	w6, #65536
	csel	x10, x10, x6, lo
	lsr	x6, x10, #16
	cbnz	x6, .LBB16_38
	add	x10, x10, x27
	mov	x19, x28
	mov	x28, x10
	cmp	w9, #1
	b.gt	.LBB16_54
.LBB16_34:
	cbnz	w9, .LBB16_39
	mul	x7, x28, x13
	sub	x10, x13, #1
	cmp	x10, #56
	lsr	x20, x7, #3
	b.hi	.LBB16_44
	ldr	x6, [sp, #32]
	add	x10, x20, #8
	cmp	x10, x6
	b.hi	.LBB16_44
	ldr	x10, [sp, #872]
	and	x6, x7, #0x7
	ldr	x10, [x10, x20]
	rev	x10, x10
	lsl	x10, x10, x6
	b	.LBB16_82
.LBB16_38:
	mov	w20, #1
	mov	x7, x28
	mov	x19, x28
	b	.LBB16_3
.LBB16_39:
	ldr	x27, [sp, #64]
	mov	x6, xzr
	mov	w7, #1
	mov	x20, x13
	mov	x21, x28
	cbnz	x13, .LBB16_56
	b	.LBB16_70
.LBB16_40:
	mov	x28, xzr
	mov	x7, xzr
	mov	w20, #1
	mov	w19, #1
	b	.LBB16_3
.LBB16_41:
	mov	x26, xzr
	cmp	x24, x22
	sub	x7, x24, x22
	b.eq	.LBB16_26
.LBB16_42:
	cmp	x7, #4
	b.hs	.LBB16_47
	mov	x25, xzr
	mov	x6, xzr
	b	.LBB16_50
.LBB16_44:
	cbz	x13, .LBB16_67
	add	x10, x13, #7
	cmp	x13, #8
	add	x10, x10, x7
	lsr	x21, x10, #3
	b.hi	.LBB16_76
	ldr	x6, [sp, #872]
	mov	x24, #-1
	add	x10, x6, x21
	ldrb	w6, [x6, x20]
	ldurb	w22, [x10, #-1]
	b	.LBB16_81
.LBB16_47:
	movi	v0.2d, #0000000000000000
	movi	v1.2d, #0000000000000000
	add	x10, x20, x22, lsl #3
	ldr	x25, [sp, #24]
	and	x6, x7, #0xfffffffffffffffc
	add	x25, x25, x10
	and	x10, x7, #0xfffffffffffffffc
.LBB16_48:
	ldp	q2, q3, [x25, #-16]
	subs	x10, x10, #4
	add	x25, x25, #32
	cnt	v2.16b, v2.16b
	cnt	v3.16b, v3.16b
	uaddlp	v2.8h, v2.16b
	uaddlp	v3.8h, v3.16b
	uaddlp	v2.4s, v2.8h
	uaddlp	v3.4s, v3.8h
	uadalp	v0.2d, v2.4s
	uadalp	v1.2d, v3.4s
	b.ne	.LBB16_48
	add	v0.2d, v1.2d, v0.2d
	cmp	x7, x6
	addp	d0, v0.2d
	fmov	x25, d0
	b.eq	.LBB16_52
.LBB16_50:
	add	x10, x22, x6
	add	x6, x20, x10, lsl #3
	ldr	x20, [sp, #88]
	sub	x10, x10, x24
	add	x6, x20, x6
.LBB16_51:
	ldr	d0, [x6], #8
	adds	x10, x10, #1
	cnt	v0.8b, v0.8b
	addv	b0, v0.8b
	fmov	x20, d0
	add	x25, x20, x25
	b.lo	.LBB16_51
.LBB16_52:
	and	x10, x28, #0x3f
	mov	x6, #-1
	lsl	x10, x6, x10
	bic	x10, x21, x10
	fmov	d0, x10
	cnt	v0.8b, v0.8b
	addv	b0, v0.8b
	fmov	x10, d0
	add	x10, x26, x10
	add	x10, x10, x25
	cmp	x10, x19
	b.hs	.LBB16_89
	add	x28, x27, w10, uxtw
	add	x19, x7, #1
	cmp	w9, #1
	b.le	.LBB16_34
.LBB16_54:
	cmp	w9, #3
	b.ne	.LBB16_58
	ldr	x6, [sp, #48]
	mov	w7, wzr
	mov	x27, xzr
	mov	x20, x13
	mov	x21, x28
	cbz	x13, .LBB16_70
.LBB16_56:
	mul	x21, x21, x20
	cmp	x20, #8
	add	x10, x20, x21
	lsr	x22, x21, #3
	add	x10, x10, #7
	lsr	x24, x10, #3
	ldr	x10, [sp, #872]
	add	x10, x10, x6
	add	x6, x10, x24
	b.hi	.LBB16_62
	ldrb	w25, [x10, x22]
	ldurb	w26, [x6, #-1]
	mov	w6, #1
	sub	x22, x24, x22
	and	x10, x21, #0x7
	tbz	w7, #0, .LBB16_66
	b	.LBB16_72
.LBB16_58:
	lsr	x10, x28, #14
	mov	w6, #25
	ldr	x7, [sp, #872]
	madd	x6, x10, x6, x7
	ldrb	w20, [x6, #24]
	cmp	w20, #64
	b.hi	.LBB16_89
	ldr	x10, [x6]
	and	x21, x28, #0x3fff
	cbz	w20, .LBB16_68
	ldr	x6, [x6, #16]
	ldr	x7, [sp, #16]
	subs	x7, x7, x6
	b.lo	.LBB16_89
	umaddl	x22, w20, w21, x20
	add	x22, x22, #7
	cmp	x7, x22, lsr #3
	b.hs	.LBB16_69
	b	.LBB16_89
.LBB16_62:
	cmp	x20, #24
	b.hi	.LBB16_64
	ldrh	w25, [x10, x22]
	ldurh	w26, [x6, #-2]
	mov	w6, #2
	sub	x22, x24, x22
	and	x10, x21, #0x7
	tbz	w7, #0, .LBB16_66
	b	.LBB16_72
.LBB16_64:
	cmp	x20, #56
	b.hi	.LBB16_71
	ldr	w25, [x10, x22]
	ldur	w26, [x6, #-4]
	mov	w6, #4
	sub	x22, x24, x22
	and	x10, x21, #0x7
	tbnz	w7, #0, .LBB16_72
.LBB16_66:
	sub	w6, w22, w6
	rev	x7, x25
	rev	x21, x26
	lsl	w6, w6, #3
	sub	w6, w6, w10
	lsl	x10, x7, x10
	lsr	x6, x21, x6
	orr	x10, x6, x10
	b	.LBB16_73
.LBB16_67:
	mov	x7, xzr
	b	.LBB16_83
.LBB16_68:
	mov	x6, xzr
.LBB16_69:
	eor	x27, x10, #0x8000000000000000
	ldr	x10, [sp, #8]
	mov	w7, wzr
	add	x6, x6, x10
	cbnz	x20, .LBB16_56
.LBB16_70:
	mov	x7, xzr
	cmp	w9, #3
	b.eq	.LBB16_74
	b	.LBB16_84
.LBB16_71:
	ldr	x25, [x10, x22]
	ldur	x26, [x6, #-8]
	mov	w6, #8
	sub	x22, x24, x22
	and	x10, x21, #0x7
	tbz	w7, #0, .LBB16_66
.LBB16_72:
	sub	x6, x22, x6
	add	x10, x20, x10
	lsl	x6, x6, #3
	neg	x10, x10
	lsl	x6, x26, x6
	orr	x6, x6, x25
	lsl	x10, x6, x10
.LBB16_73:
	neg	x6, x20
	lsr	x7, x10, x6
	cmp	w9, #3
	b.ne	.LBB16_84
.LBB16_74:
	cmp	x14, x7
	b.ls	.LBB16_89
	ldr	x10, [sp, #872]
	mov	w20, wzr
	ldr	x7, [x10, x7, lsl #3]
	b	.LBB16_3
.LBB16_76:
	cmp	x13, #24
	b.hi	.LBB16_78
	ldr	x6, [sp, #872]
	mov	x24, #-2
	add	x10, x6, x21
	ldrh	w6, [x6, x20]
	ldurh	w22, [x10, #-2]
	b	.LBB16_81
.LBB16_78:
	cmp	x13, #56
	b.hi	.LBB16_80
	ldr	x6, [sp, #872]
	mov	x24, #-4
	add	x10, x6, x21
	ldr	w6, [x6, x20]
	ldur	w22, [x10, #-4]
	b	.LBB16_81
.LBB16_80:
	ldr	x6, [sp, #872]
	mov	x24, #-8
	add	x10, x6, x21
	ldr	x6, [x6, x20]
	ldur	x22, [x10, #-8]
.LBB16_81:
	sub	x10, x21, x20
	and	x7, x7, #0x7
	rev	x6, x6
	add	w10, w10, w24
	rev	x20, x22
	lsl	x6, x6, x7
	lsl	w10, w10, #3
	sub	w10, w10, w7
	lsr	x10, x20, x10
	orr	x10, x10, x6
.LBB16_82:
	ldr	x6, [sp, #40]
	lsr	x7, x10, x6
.LBB16_83:
	ldr	x27, [sp, #64]
.LBB16_84:
	cmp	x14, #2
	mvn	x10, x27
	b.lo	.LBB16_88
	orr	x6, x7, x14
	lsr	x6, x6, #32
	cbz	x6, .LBB16_88
	udiv	x10, x10, x14
	cmp	x7, x10
	b.hi	.LBB16_89
	mul	x6, x7, x14
	b	.LBB16_90
.LBB16_88:
	mul	x6, x7, x14
	cmp	x6, x10
	b.ls	.LBB16_90
.LBB16_89:
	mov	x28, xzr
	mov	x7, xzr
	mov	x19, xzr
	mov	w20, #15
	b	.LBB16_3
.LBB16_90:
	add	x10, x6, x27
	mov	w20, wzr
	eor	x7, x10, #0x8000000000000000
	b	.LBB16_3
.LBB16_91:
	mov	x0, x8
	add	sp, sp, #864
	ldp	x20, x19, [sp, #80]
	ldp	x22, x21, [sp, #64]
	ldp	x24, x23, [sp, #48]
	ldp	x26, x25, [sp, #32]
	ldp	x28, x27, [sp, #16]
	ldr	x30, [sp], #96
	ret
.Lfunc_end16:
	.size	"page::fill_any", .Lfunc_end16-"page::fill_any"

	.section	".text.layered_page::under::fill_under","ax",@progbits
	.p2align	2
	.type	"layered_page::under::fill_under",@function
"layered_page::under::fill_under":
	stp	x29, x30, [sp, #-96]!
	stp	x28, x27, [sp, #16]
	mov	x29, sp
	stp	x26, x25, [sp, #32]
	stp	x24, x23, [sp, #48]
	stp	x22, x21, [sp, #64]
	stp	x20, x19, [sp, #80]
	sub	sp, sp, #3072
	str	xzr, [sp]
	sub	sp, sp, #3072
	str	xzr, [sp]
	sub	sp, sp, #1776
	ldr	x8, [x29, #96]
	str	xzr, [sp]
	ldp	x9, x10, [x29, #120]
	stp	x6, x7, [sp, #88]
	ldur	q0, [x8, #40]
	ldur	q1, [x8, #56]
	ldur	q2, [x8, #72]
	stp	x3, x4, [sp, #72]
	str	q0, [sp, #224]
	ldur	q0, [x8, #24]
	stp	q1, q2, [sp, #240]
	ldur	q1, [x8, #8]
	ldur	q2, [x9, #40]
	ldrb	w8, [x8]
	stp	x1, x2, [sp, #40]
	stp	q1, q0, [sp, #192]
	ldur	q0, [x9, #56]
	ldur	q1, [x9, #72]
	str	x8, [sp, #64]
	ldrb	w8, [x9]
	stp	q2, q0, [sp, #144]
	ldur	q0, [x9, #24]
	str	q1, [sp, #176]
	ldur	q1, [x9, #8]
	str	x0, [sp, #8]
	str	x8, [sp, #32]
	stp	q1, q0, [sp, #112]
	cbz	x5, .LBB17_13
	ldr	x8, [x29, #112]
	mov	x21, x5
	mov	x27, xzr
	mov	x20, xzr
	str	x5, [sp, #56]
	str	x8, [sp, #24]
	ldr	x8, [x29, #104]
	str	x8, [sp, #16]
	b	.LBB17_4
.LBB17_2:
	ldr	x21, [sp, #56]
	mov	x19, xzr
.LBB17_3:
	ldr	x10, [sp, #104]
	add	x20, x24, x20
	add	x27, x25, x27
	cmp	x20, x21
	sub	x10, x10, x19
	b.hs	.LBB17_14
.LBB17_4:
	sub	x8, x21, x20
	mov	w9, #256
	str	x10, [sp, #104]
	cmp	x8, #256
	add	x0, sp, #2320
	csel	x24, x8, x9, lo
	ldp	x8, x10, [sp, #72]
	mov	w1, wzr
	mov	w2, #1024
	add	x25, x10, x20, lsl #2
	add	x21, sp, #2320
	add	x28, x8, x20
	bl	memset
	add	x0, sp, #272
	mov	w1, wzr
	mov	w2, #2048
	add	x26, sp, #272
	bl	memset
	mov	x23, xzr
	mov	x8, xzr
.LBB17_5:
	ldrb	w22, [x28, x8]
	ldr	w9, [x25, x8, lsl #2]
	mov	x19, x23
	str	x8, [x26, x23, lsl #3]
	add	x8, x8, #1
	cmp	w22, #1
	str	w9, [x21, x23, lsl #2]
	cinc	x23, x23, eq
	cmp	x24, x8
	b.ne	.LBB17_5
	ldp	q0, q1, [sp, #208]
	add	x0, sp, #1, lsl #12
	ldr	x8, [sp, #64]
	ldr	q3, [sp, #192]
	add	x0, x0, #1560
	mov	w1, wzr
	mov	w2, #2048
	stur	x8, [x29, #-216]
	sub	x8, x29, #216
	stur	q0, [x8, #24]
	ldp	q2, q0, [sp, #240]
	stur	q1, [x8, #40]
	stur	q3, [x8, #8]
	stur	q2, [x8, #56]
	stur	q0, [x8, #72]
	bl	memset
	add	x0, sp, #3608
	mov	w1, wzr
	mov	w2, #2048
	bl	memset
	movi	v0.2d, #0000000000000000
	ldp	x5, x6, [sp, #88]
	add	x0, sp, #1, lsl #12
	add	x1, sp, #3608
	add	x2, sp, #3344
	add	x0, x0, #1560
	add	x3, sp, #2320
	sub	x7, x29, #216
	mov	x4, x23
	str	q0, [sp, #3344]
	str	q0, [sp, #3360]
	str	q0, [sp, #3376]
	str	q0, [sp, #3392]
	str	q0, [sp, #3408]
	str	q0, [sp, #3424]
	str	q0, [sp, #3440]
	str	q0, [sp, #3456]
	str	q0, [sp, #3472]
	str	q0, [sp, #3488]
	str	q0, [sp, #3504]
	str	q0, [sp, #3520]
	str	q0, [sp, #3536]
	str	q0, [sp, #3552]
	str	q0, [sp, #3568]
	str	q0, [sp, #3584]
	bl	"page::fill_by"
	mov	x25, x0
	cbz	x23, .LBB17_2
	ldp	x10, x12, [sp, #40]
	lsl	x11, x20, #3
	cmp	w22, #1
	ldr	x21, [sp, #56]
	add	x8, sp, #3344
	cinc	x9, x19, eq
	add	x13, sp, #3608
	add	x14, sp, #272
	add	x10, x10, x11
	add	x11, x12, x11
	add	x12, sp, #1, lsl #12
	add	x12, x12, #1560
.LBB17_8:
	ldr	x15, [x14], #8
	subs	x9, x9, #1
	ldr	x16, [x12], #8
	ldr	x17, [x13], #8
	str	x16, [x10, x15, lsl #3]
	ldrb	w16, [x8], #1
	str	x17, [x11, x15, lsl #3]
	strb	w16, [x28, x15]
	b.ne	.LBB17_8
	mov	x19, xzr
	mov	x22, xzr
.LBB17_10:
	add	x8, sp, #3344
	ldrb	w8, [x8, x22]
	cmp	w8, #1
	b.hi	.LBB17_12
	add	x22, x22, #1
	cmp	x22, x23
	b.lo	.LBB17_10
	b	.LBB17_3
.LBB17_12:
	ldp	q0, q1, [sp, #128]
	sub	x9, x29, #96
	ldr	x8, [sp, #32]
	ldp	x5, x6, [sp, #16]
	ldr	q3, [sp, #112]
	sub	x0, x29, #112
	sub	x1, x29, #120
	stur	x8, [x29, #-96]
	add	x8, sp, #2320
	sub	x2, x29, #121
	stur	q0, [x9, #24]
	ldp	q2, q0, [sp, #160]
	ldr	w8, [x8, x22, lsl #2]
	sub	x3, x29, #100
	sub	x7, x29, #96
	mov	w4, #1
	stur	q1, [x9, #40]
	stur	q2, [x9, #56]
	stur	q0, [x9, #72]
	stur	q3, [x9, #8]
	stur	w8, [x29, #-100]
	bl	"page::fill_by"
	add	x22, x22, #1
	add	x19, x0, x19
	cmp	x22, x23
	b.lo	.LBB17_10
	b	.LBB17_3
.LBB17_13:
	mov	x27, xzr
.LBB17_14:
	ldr	x8, [sp, #8]
	stp	xzr, x27, [x8]
	str	x10, [x8, #16]
	add	sp, sp, #1, lsl #12
	add	sp, sp, #3824
	ldp	x20, x19, [sp, #80]
	ldp	x22, x21, [sp, #64]
	ldp	x24, x23, [sp, #48]
	ldp	x26, x25, [sp, #32]
	ldp	x28, x27, [sp, #16]
	ldp	x29, x30, [sp], #96
	ret
.Lfunc_end17:
	.size	"layered_page::under::fill_under", .Lfunc_end17-"layered_page::under::fill_under"

	.section	".text.signalfern_c::look_from","ax",@progbits
	.p2align	2
	.type	"signalfern_c::look_from",@function
"signalfern_c::look_from":
	stp	x29, x30, [sp, #-96]!
	stp	x28, x27, [sp, #16]
	mov	x29, sp
	stp	x26, x25, [sp, #32]
	stp	x24, x23, [sp, #48]
	stp	x22, x21, [sp, #64]
	stp	x20, x19, [sp, #80]
	sub	sp, sp, #496
	movi	v0.2d, #0000000000000000
	mov	x26, x2
	stp	x1, x0, [sp, #16]
	cmp	x2, #44
	add	x0, sp, #176
	stp	q0, q0, [sp, #64]
	stp	q0, q0, [sp, #96]
	stp	q0, q0, [sp, #128]
	b.ls	.LBB18_78
	ldrsb	w8, [x1]
	tbnz	w8, #31, .LBB18_78
	sub	w17, w8, #1
	and	w8, w17, #0xff
	cmp	w8, #3
	b.hi	.LBB18_78
	ldrsb	w8, [x1, #1]
	and	x16, x8, #0xff
	tbnz	w8, #31, .LBB18_18
	mov	w9, #2
.LBB18_5:
	ldrsb	w8, [x1, x9]
	tbnz	w8, #31, .LBB18_78
	add	x9, x9, #1
	add	x12, x1, x9
	ldrsb	w10, [x12]
	and	x24, x10, #0xff
	tbnz	w10, #31, .LBB18_21
	mov	w10, #1
.LBB18_8:
	add	x9, x10, x9
	add	x12, x1, x9
	ldrsb	w10, [x12]
	and	x4, x10, #0xff
	tbnz	w10, #31, .LBB18_24
	mov	w10, #1
.LBB18_10:
	add	x10, x10, x9
	ldrsb	w9, [x1, x10]
	tbnz	w9, #31, .LBB18_134
	add	x10, x10, #1
	add	x13, x1, x10
	ldrsb	w11, [x13]
	and	x5, x11, #0xff
	tbnz	w11, #31, .LBB18_30
	mov	w11, #1
.LBB18_13:
	add	x10, x11, x10
	add	x13, x1, x10
	ldrsb	w11, [x13]
	and	x6, x11, #0xff
	tbnz	w11, #31, .LBB18_33
	mov	w11, #1
.LBB18_15:
	add	x10, x11, x10
	add	x13, x1, x10
	ldrsb	w11, [x13]
	and	x7, x11, #0xff
	tbnz	w11, #31, .LBB18_39
	mov	w11, #1
.LBB18_17:
	bic	w12, w8, w8, asr #31
	bic	w13, w9, w9, asr #31
	add	x8, x11, x10
	stur	wzr, [x0, #211]
	str	x8, [sp, #32]
	b	.LBB18_135
.LBB18_18:
	ldrsb	w9, [x1, #2]
	and	x8, x9, #0xff
	tbnz	w9, #31, .LBB18_27
	cbz	w8, .LBB18_78
	add	x8, x16, x8, lsl #7
	mov	w9, #3
	sub	x16, x8, #128
	b	.LBB18_5
.LBB18_21:
	ldrsb	w11, [x12, #1]
	and	x10, x11, #0xff
	tbnz	w11, #31, .LBB18_36
	cbz	w10, .LBB18_78
	add	x10, x24, x10, lsl #7
	sub	x24, x10, #128
	mov	w10, #2
	b	.LBB18_8
.LBB18_24:
	ldrsb	w11, [x12, #1]
	and	x10, x11, #0xff
	tbnz	w11, #31, .LBB18_42
	cbz	w10, .LBB18_78
	add	x10, x4, x10, lsl #7
	sub	x4, x10, #128
	mov	w10, #2
	b	.LBB18_10
.LBB18_27:
	ldrsb	w10, [x1, #3]
	and	x9, x10, #0xff
	tbnz	w10, #31, .LBB18_45
	cbz	w9, .LBB18_78
	add	x8, x16, x8, lsl #7
	add	x8, x8, x9, lsl #14
	mov	x9, #-16512
	add	x16, x8, x9
	mov	w9, #4
	b	.LBB18_5
.LBB18_30:
	ldrsb	w12, [x13, #1]
	and	x11, x12, #0xff
	tbnz	w12, #31, .LBB18_48
	cbz	w11, .LBB18_134
	add	x11, x5, x11, lsl #7
	sub	x5, x11, #128
	mov	w11, #2
	b	.LBB18_13
.LBB18_33:
	ldrsb	w12, [x13, #1]
	and	x11, x12, #0xff
	tbnz	w12, #31, .LBB18_51
	cbz	w11, .LBB18_134
	add	x11, x6, x11, lsl #7
	sub	x6, x11, #128
	mov	w11, #2
	b	.LBB18_15
.LBB18_36:
	ldrsb	w13, [x12, #2]
	and	x11, x13, #0xff
	tbnz	w13, #31, .LBB18_54
	cbz	w11, .LBB18_78
	add	x10, x24, x10, lsl #7
	add	x10, x10, x11, lsl #14
	mov	x11, #-16512
	add	x24, x10, x11
	mov	w10, #3
	b	.LBB18_8
.LBB18_39:
	ldrsb	w12, [x13, #1]
	and	x11, x12, #0xff
	tbnz	w12, #31, .LBB18_57
	cbz	w11, .LBB18_134
	add	x11, x7, x11, lsl #7
	sub	x7, x11, #128
	mov	w11, #2
	b	.LBB18_17
.LBB18_42:
	ldrsb	w13, [x12, #2]
	and	x11, x13, #0xff
	tbnz	w13, #31, .LBB18_60
	cbz	w11, .LBB18_78
	add	x10, x4, x10, lsl #7
	add	x10, x10, x11, lsl #14
	mov	x11, #-16512
	add	x4, x10, x11
	mov	w10, #3
	b	.LBB18_10
.LBB18_45:
	ldrsb	w11, [x1, #4]
	and	x10, x11, #0xff
	tbnz	w11, #31, .LBB18_63
	cbz	w10, .LBB18_78
	add	x8, x16, x8, lsl #7
	add	x8, x8, x9, lsl #14
	mov	w9, #5
	add	x8, x8, x10, lsl #21
	sub	x8, x8, #516, lsl #12
	sub	x16, x8, #128
	b	.LBB18_5
.LBB18_48:
	ldrsb	w14, [x13, #2]
	and	x12, x14, #0xff
	tbnz	w14, #31, .LBB18_65
	cbz	w12, .LBB18_134
	add	x11, x5, x11, lsl #7
	add	x11, x11, x12, lsl #14
	mov	x12, #-16512
	add	x5, x11, x12
	mov	w11, #3
	b	.LBB18_13
.LBB18_51:
	ldrsb	w14, [x13, #2]
	and	x12, x14, #0xff
	tbnz	w14, #31, .LBB18_68
	cbz	w12, .LBB18_134
	add	x11, x6, x11, lsl #7
	add	x11, x11, x12, lsl #14
	mov	x12, #-16512
	add	x6, x11, x12
	mov	w11, #3
	b	.LBB18_15
.LBB18_54:
	ldrsb	w14, [x12, #3]
	and	x13, x14, #0xff
	tbnz	w14, #31, .LBB18_71
	cbz	w13, .LBB18_78
	add	x10, x24, x10, lsl #7
	add	x10, x10, x11, lsl #14
	add	x10, x10, x13, lsl #21
	sub	x10, x10, #516, lsl #12
	sub	x24, x10, #128
	mov	w10, #4
	b	.LBB18_8
.LBB18_57:
	ldrsb	w14, [x13, #2]
	and	x12, x14, #0xff
	tbnz	w14, #31, .LBB18_73
	cbz	w12, .LBB18_134
	add	x11, x7, x11, lsl #7
	add	x11, x11, x12, lsl #14
	mov	x12, #-16512
	add	x7, x11, x12
	mov	w11, #3
	b	.LBB18_17
.LBB18_60:
	ldrsb	w14, [x12, #3]
	and	x13, x14, #0xff
	tbnz	w14, #31, .LBB18_76
	cbz	w13, .LBB18_78
	add	x10, x4, x10, lsl #7
	add	x10, x10, x11, lsl #14
	add	x10, x10, x13, lsl #21
	sub	x10, x10, #516, lsl #12
	sub	x4, x10, #128
	mov	w10, #4
	b	.LBB18_10
.LBB18_63:
	ldrsb	x11, [x1, #5]
	cmp	x11, #1
	b.lt	.LBB18_78
	add	x8, x16, x8, lsl #7
	add	x8, x8, x9, lsl #14
	mov	x9, #-16512
	movk	x9, #61407, lsl #16
	add	x8, x8, x10, lsl #21
	add	x8, x8, x11, lsl #28
	add	x16, x8, x9
	mov	w9, #6
	b	.LBB18_5
.LBB18_65:
	ldrsb	w15, [x13, #3]
	and	x14, x15, #0xff
	tbnz	w15, #31, .LBB18_128
	cbz	w14, .LBB18_134
	add	x11, x5, x11, lsl #7
	add	x11, x11, x12, lsl #14
	add	x11, x11, x14, lsl #21
	sub	x11, x11, #516, lsl #12
	sub	x5, x11, #128
	mov	w11, #4
	b	.LBB18_13
.LBB18_68:
	ldrsb	w15, [x13, #3]
	and	x14, x15, #0xff
	tbnz	w15, #31, .LBB18_130
	cbz	w14, .LBB18_134
	add	x11, x6, x11, lsl #7
	add	x11, x11, x12, lsl #14
	add	x11, x11, x14, lsl #21
	sub	x11, x11, #516, lsl #12
	sub	x6, x11, #128
	mov	w11, #4
	b	.LBB18_15
.LBB18_71:
	ldrsb	x12, [x12, #4]
	cmp	x12, #1
	b.lt	.LBB18_78
	add	x10, x24, x10, lsl #7
	add	x10, x10, x11, lsl #14
	mov	x11, #-16512
	movk	x11, #61407, lsl #16
	add	x10, x10, x13, lsl #21
	add	x10, x10, x12, lsl #28
	add	x24, x10, x11
	mov	w10, #5
	b	.LBB18_8
.LBB18_73:
	ldrsb	w15, [x13, #3]
	and	x14, x15, #0xff
	tbnz	w15, #31, .LBB18_132
	cbz	w14, .LBB18_134
	add	x11, x7, x11, lsl #7
	add	x11, x11, x12, lsl #14
	add	x11, x11, x14, lsl #21
	sub	x11, x11, #516, lsl #12
	sub	x7, x11, #128
	mov	w11, #4
	b	.LBB18_17
.LBB18_76:
	ldrsb	x12, [x12, #4]
	cmp	x12, #1
	b.lt	.LBB18_78
	add	x10, x4, x10, lsl #7
	add	x10, x10, x11, lsl #14
	mov	x11, #-16512
	movk	x11, #61407, lsl #16
	add	x10, x10, x13, lsl #21
	add	x10, x10, x12, lsl #28
	add	x4, x10, x11
	mov	w10, #5
	b	.LBB18_10
.LBB18_78:
	mov	w17, wzr
	mov	x16, xzr
	mov	x12, xzr
	mov	x24, xzr
	mov	x4, xzr
	mov	x13, xzr
	mov	x5, xzr
	mov	x6, xzr
	mov	x7, xzr
	str	xzr, [sp, #32]
	stur	wzr, [sp, #171]
	str	wzr, [sp, #168]
.LBB18_79:
	ldr	w8, [sp, #168]
	ldur	w9, [sp, #171]
	sturb	w17, [x29, #-112]
	stp	x16, x12, [x29, #-104]
	stur	w8, [x0, #209]
	mov	w8, #2147352575
	cmp	w3, w8
	stur	w9, [x29, #-108]
	stp	x24, x4, [x29, #-88]
	stp	x13, x5, [x29, #-72]
	stp	x6, x7, [x29, #-56]
	str	w3, [sp, #12]
	b.hi	.LBB18_85
	tst	w17, #0xff
	b.ne	.LBB18_85
	sub	x0, x29, #112
	mov	x27, x7
	mov	x22, x13
	mov	x21, x12
	mov	x25, x6
	mov	x19, x5
	mov	x20, x4
	mov	w28, w17
	mov	x23, x16
	bl	"column::head_ok"
	cbz	w0, .LBB18_84
	ldr	x8, [sp, #32]
	subs	x8, x26, x8
	b.lo	.LBB18_84
	subs	x8, x8, x24
	b.hs	.LBB18_102
.LBB18_84:
	movi	v0.2d, #0000000000000000
	ldr	w8, [sp, #168]
	ldur	w9, [sp, #171]
	add	x0, sp, #176
	mov	x16, x23
	mov	w17, w28
	mov	x4, x20
	mov	x5, x19
	mov	x6, x25
	mov	x12, x21
	mov	x13, x22
	mov	x7, x27
	str	xzr, [sp, #256]
	str	w8, [sp, #56]
	stur	w9, [sp, #59]
	stp	q0, q0, [x0, #16]
	stp	q0, q0, [x0, #48]
	str	q0, [sp, #176]
	b	.LBB18_86
.LBB18_85:
	ldr	w9, [sp, #168]
	ldur	w10, [sp, #171]
	cmp	w3, w8
	str	xzr, [sp, #256]
	str	w9, [sp, #56]
	stur	w10, [sp, #59]
	stp	q0, q0, [x0, #16]
	stp	q0, q0, [x0, #48]
	str	q0, [sp, #176]
	b.hi	.LBB18_95
.LBB18_86:
	ldr	w8, [sp, #56]
	ldur	w9, [sp, #59]
	mov	w28, w17
	sturb	w17, [x29, #-232]
	mov	x23, x16
	mov	x21, x12
	stur	w8, [x0, #89]
	sub	x0, x29, #232
	mov	x20, x4
	stur	w9, [x29, #-228]
	mov	x22, x13
	mov	x19, x5
	stp	x16, x12, [x29, #-224]
	mov	x25, x6
	mov	x27, x7
	stp	x24, x4, [x29, #-208]
	stp	x13, x5, [x29, #-192]
	stp	x6, x7, [x29, #-176]
	bl	"column::head_ok"
	cbz	w0, .LBB18_93
	ldr	x8, [sp, #32]
	subs	x8, x26, x8
	b.lo	.LBB18_93
	subs	x8, x8, x24
	b.lo	.LBB18_93
	cmp	x8, x27
	b.ne	.LBB18_93
	movi	v1.2d, #0000000000000000
	movi	v0.2d, #0000000000000000
	ldr	x8, [sp, #32]
	ldr	x3, [sp, #16]
	ldr	w5, [sp, #12]
	stp	x23, x21, [x29, #-88]
	add	x23, sp, #176
	sub	x0, x29, #160
	sub	x2, x29, #112
	mov	w1, w28
	mov	x4, x26
	stur	xzr, [x29, #-112]
	stp	x24, x20, [x29, #-72]
	stur	q1, [x23, #216]
	stp	x22, x19, [x29, #-56]
	stp	x25, x27, [x29, #-40]
	stur	x8, [x29, #-24]
	stp	q1, q1, [x23, #160]
	str	q0, [sp, #32]
	str	q1, [x23, #192]
	bl	"lookup::apart::put_steps"
	ldur	x8, [x29, #-160]
	cmp	x8, #1
	b.eq	.LBB18_110
	cbnz	x8, .LBB18_104
	ldp	q0, q1, [x23, #176]
	str	q1, [sp, #32]
	mov	w10, wzr
	ldr	x14, [sp, #24]
	b	.LBB18_100
.LBB18_93:
	ldr	x20, [sp, #16]
	add	x0, sp, #176
	mov	x2, x26
	mov	x1, x20
	bl	"column::Column::open"
	ldp	x1, x8, [sp, #184]
	ldrb	w9, [sp, #176]
	cbz	w9, .LBB18_97
	and	w10, w1, #0xff
	b	.LBB18_96
.LBB18_95:
	mov	x8, xzr
	mov	w10, #12
.LBB18_96:
	ldr	x14, [sp, #24]
	b	.LBB18_106
.LBB18_97:
	add	x21, sp, #176
	movi	v2.2d, #0000000000000000
	ldr	w5, [sp, #12]
	ldur	q0, [x21, #24]
	ldur	q1, [x21, #40]
	sub	x0, x29, #160
	sub	x2, x29, #112
	mov	x3, x20
	mov	x4, x26
	stp	q0, q1, [x21, #240]
	ldur	q0, [x21, #56]
	ldur	q1, [x21, #72]
	stur	xzr, [x29, #-112]
	stur	x8, [x29, #-88]
	stur	q2, [x21, #216]
	stp	q2, q2, [x21, #160]
	stp	q0, q1, [x21, #272]
	movi	v0.2d, #0000000000000000
	str	q2, [x21, #192]
	str	q0, [sp, #32]
	bl	"lookup::apart::put_steps"
	ldur	x8, [x29, #-160]
	cmp	x8, #1
	b.eq	.LBB18_108
	cbnz	x8, .LBB18_104
	ldp	q0, q1, [x21, #176]
	str	q1, [sp, #32]
	mov	w10, wzr
	ldr	x14, [sp, #24]
.LBB18_100:
	cbz	w10, .LBB18_111
	mov	w8, #1
	stp	xzr, xzr, [x14, #16]
	stp	x8, xzr, [x14]
	str	q0, [x14, #32]
	b	.LBB18_127
.LBB18_102:
	mov	x7, x27
	cmp	x8, x27
	mov	x16, x23
	add	x0, sp, #176
	mov	x4, x20
	mov	x5, x19
	mov	x6, x25
	mov	x12, x21
	mov	x13, x22
	b.ne	.LBB18_109
	ldp	x0, x8, [sp, #24]
	add	x2, sp, #64
	stp	x5, x6, [sp, #128]
	ldr	x3, [sp, #16]
	mov	w1, wzr
	ldr	w5, [sp, #12]
	stp	x4, x13, [sp, #112]
	mov	x4, x26
	stp	xzr, xzr, [sp, #64]
	stp	xzr, x16, [sp, #80]
	stp	x12, x24, [sp, #96]
	stp	x7, x8, [sp, #144]
	bl	"lookup::apart::put_steps"
	b	.LBB18_127
.LBB18_104:
	movi	v0.2d, #0000000000000000
	mov	w10, #13
	mov	w9, #1
	ldr	x14, [sp, #24]
	cbz	w9, .LBB18_100
	fmov	x8, d0
.LBB18_106:
	mov	w10, w10
	adrp	x11, .LJTI18_0
	add	x11, x11, :lo12:.LJTI18_0
	adr	x12, .LBB18_107
	ldrb	w13, [x11, x10]
	add	x12, x12, x13, lsl #2
	mov	w9, #3
	br	x12
.LBB18_107:
	mov	x8, xzr
	mov	w9, #1
	b	.LBB18_126
.LBB18_108:
	ldr	q0, [x21, #192]
	mov	w10, #1
	ldr	x14, [sp, #24]
	b	.LBB18_100
.LBB18_109:
	movi	v0.2d, #0000000000000000
	ldr	w8, [sp, #168]
	ldur	w9, [sp, #171]
	str	xzr, [sp, #256]
	mov	w17, w28
	str	w8, [sp, #56]
	stur	w9, [sp, #59]
	stp	q0, q0, [x0, #16]
	stp	q0, q0, [x0, #48]
	str	q0, [sp, #176]
	b	.LBB18_86
.LBB18_110:
	ldr	q0, [x23, #192]
	mov	w10, #1
	ldr	x14, [sp, #24]
	b	.LBB18_100
.LBB18_111:
	str	q0, [x14, #16]
	ldr	q0, [sp, #32]
	stp	xzr, xzr, [x14]
	str	q0, [x14, #32]
	b	.LBB18_127
.LBB18_112:
	mov	x8, xzr
	mov	w9, #16
	b	.LBB18_126
.LBB18_113:
	mov	x8, xzr
	mov	w9, #13
	b	.LBB18_126
.LBB18_114:
	mov	w9, #6
	b	.LBB18_126
.LBB18_115:
	mov	x8, xzr
	mov	w9, #14
	b	.LBB18_126
.LBB18_116:
	mov	x8, xzr
	mov	w9, #11
	b	.LBB18_126
.LBB18_117:
	mov	x8, xzr
	mov	w9, #2
	b	.LBB18_126
.LBB18_118:
	mov	x8, xzr
	mov	w9, #17
	b	.LBB18_126
.LBB18_119:
	mov	w9, #4
	b	.LBB18_126
.LBB18_120:
	mov	x8, xzr
	mov	w9, #9
	b	.LBB18_126
.LBB18_121:
	mov	w9, #7
	b	.LBB18_126
.LBB18_122:
	mov	x8, xzr
	mov	w9, #15
	b	.LBB18_126
.LBB18_123:
	mov	w9, #8
	b	.LBB18_126
.LBB18_124:
	mov	w9, #12
	b	.LBB18_126
.LBB18_125:
	mov	x8, xzr
	mov	w9, #10
.LBB18_126:
	movi	v0.2d, #0000000000000000
	stp	x9, x8, [x14]
	stp	q0, q0, [x14, #16]
.LBB18_127:
	add	sp, sp, #496
	ldp	x20, x19, [sp, #80]
	ldp	x22, x21, [sp, #64]
	ldp	x24, x23, [sp, #48]
	ldp	x26, x25, [sp, #32]
	ldp	x28, x27, [sp, #16]
	ldp	x29, x30, [sp], #96
	ret
.LBB18_128:
	ldrsb	x13, [x13, #4]
	cmp	x13, #1
	b.lt	.LBB18_134
	add	x11, x5, x11, lsl #7
	add	x11, x11, x12, lsl #14
	mov	x12, #-16512
	movk	x12, #61407, lsl #16
	add	x11, x11, x14, lsl #21
	add	x11, x11, x13, lsl #28
	add	x5, x11, x12
	mov	w11, #5
	b	.LBB18_13
.LBB18_130:
	ldrsb	x13, [x13, #4]
	cmp	x13, #1
	b.lt	.LBB18_134
	add	x11, x6, x11, lsl #7
	add	x11, x11, x12, lsl #14
	mov	x12, #-16512
	movk	x12, #61407, lsl #16
	add	x11, x11, x14, lsl #21
	add	x11, x11, x13, lsl #28
	add	x6, x11, x12
	mov	w11, #5
	b	.LBB18_15
.LBB18_132:
	ldrsb	x13, [x13, #4]
	cmp	x13, #1
	b.lt	.LBB18_134
	add	x11, x7, x11, lsl #7
	add	x11, x11, x12, lsl #14
	mov	x12, #-16512
	movk	x12, #61407, lsl #16
	add	x11, x11, x14, lsl #21
	add	x11, x11, x13, lsl #28
	add	x7, x11, x12
	mov	w11, #5
	b	.LBB18_17
.LBB18_134:
	mov	w17, wzr
	mov	x16, xzr
	mov	x12, xzr
	mov	x24, xzr
	mov	x4, xzr
	mov	x13, xzr
	mov	x5, xzr
	mov	x6, xzr
	mov	x7, xzr
	str	xzr, [sp, #32]
	stur	wzr, [x0, #211]
.LBB18_135:
	stur	wzr, [x29, #-112]
	ldur	w9, [x0, #211]
	str	wzr, [sp, #168]
	stur	w9, [sp, #171]
	b	.LBB18_79
.Lfunc_end18:
	.size	"signalfern_c::look_from", .Lfunc_end18-"signalfern_c::look_from"
	.section	".rodata.signalfern_c::look_from","a",@progbits
.LJTI18_0:
	.byte	(.LBB18_107-.LBB18_107)>>2
	.byte	(.LBB18_117-.LBB18_107)>>2
	.byte	(.LBB18_126-.LBB18_107)>>2
	.byte	(.LBB18_119-.LBB18_107)>>2
	.byte	(.LBB18_114-.LBB18_107)>>2
	.byte	(.LBB18_121-.LBB18_107)>>2
	.byte	(.LBB18_123-.LBB18_107)>>2
	.byte	(.LBB18_120-.LBB18_107)>>2
	.byte	(.LBB18_125-.LBB18_107)>>2
	.byte	(.LBB18_116-.LBB18_107)>>2
	.byte	(.LBB18_124-.LBB18_107)>>2
	.byte	(.LBB18_113-.LBB18_107)>>2
	.byte	(.LBB18_115-.LBB18_107)>>2
	.byte	(.LBB18_122-.LBB18_107)>>2
	.byte	(.LBB18_112-.LBB18_107)>>2
	.byte	(.LBB18_118-.LBB18_107)>>2

	.section	.rodata.cst16,"aM",@progbits,16
	.p2align	4, 0x0
.LCPI19_0:
	.xword	1
	.xword	13
.LCPI19_1:
	.xword	0
	.xword	1
	.section	".text.next::steps_from","ax",@progbits
	.p2align	2
	.type	"next::steps_from",@function
"next::steps_from":
	sub	sp, sp, #224
	stp	x29, x30, [sp, #128]
	add	x29, sp, #128
	mov	w8, #2147352575
	stur	x2, [x29, #-8]
	mov	x2, x1
	cmp	w4, w8
	mov	x1, x0
	stp	x28, x27, [sp, #144]
	stp	x26, x25, [sp, #160]
	stp	x24, x23, [sp, #176]
	stp	x22, x21, [sp, #192]
	stp	x20, x19, [sp, #208]
	b.hi	.LBB19_28
	ldrb	w9, [x3]
	ldp	x28, x13, [x3, #8]
	mov	w8, #17
	ldp	x11, x24, [x3, #24]
	str	w9, [sp, #44]
	ldr	x9, [x3, #40]
	ldr	x27, [x3, #72]
	sub	x8, x8, x13
	cmp	x13, #0
	stp	x2, x1, [x29, #-24]
	str	x9, [sp, #32]
	sub	x21, x11, x24, lsl #3
	add	x20, x2, x27
	ldp	x9, x10, [x3, #48]
	sub	x16, x24, #1
	add	x19, x20, x21
	add	x0, x20, x11
	str	x9, [sp, #8]
	mov	w9, #1
	lsl	x8, x9, x8
	str	x10, [sp, #48]
	mov	w10, w4
	lsr	x26, x10, #16
	and	x3, x10, #0xffff
	mov	w10, #8192
	add	x9, x8, #2, lsl #12
	csel	x12, xzr, x8, eq
	add	x8, x27, x2
	csel	x18, x10, x9, eq
	add	x9, x20, x12
	add	x8, x12, x8
	stur	x9, [x29, #-40]
	sub	x9, x13, #6
	add	x8, x8, #12
	stp	x12, x11, [sp, #16]
	stp	x9, x13, [sp, #56]
	stp	x8, x0, [x29, #-56]
	stur	x18, [x29, #-32]
	b	.LBB19_4
.LBB19_2:
	cmp	x24, #0
	mov	w9, #32766
	csel	x9, x9, x26, eq
	cmp	x26, x8
	csel	x26, x26, x9, eq
.LBB19_3:
	mov	w8, #32766
	mov	x3, xzr
	cmp	x26, x8
	b.hs	.LBB19_28
.LBB19_4:
	cbz	x24, .LBB19_6
	cmp	x16, x26
	csel	x8, x16, x26, lo
	add	x8, x19, x8, lsl #3
	ldp	w25, w10, [x8]
	add	x22, x10, #4
	cmp	x21, x22
	b.hs	.LBB19_7
	b	.LBB19_42
.LBB19_6:
	mov	x10, xzr
	mov	x25, xzr
	add	x22, x10, #4
	cmp	x21, x22
	b.lo	.LBB19_42
.LBB19_7:
	add	x8, x20, x10
	ldrh	w9, [x8]
	cmp	x26, x9
	b.hs	.LBB19_11
.LBB19_8:
	add	x8, x26, #2
	add	x26, x26, #1
	cmp	x8, x24
	b.lo	.LBB19_3
	cbz	x24, .LBB19_23
	ldur	w8, [x0, #-4]
	add	x9, x8, #4
	cmp	x21, x9
	b.lo	.LBB19_3
	b	.LBB19_24
.LBB19_11:
	cmp	x9, x26
	b.hs	.LBB19_14
	cbnz	x24, .LBB19_42
	mov	x8, xzr
	add	x26, x26, #1
	add	x9, x8, #4
	cmp	x21, x9
	b.lo	.LBB19_3
	b	.LBB19_24
.LBB19_14:
	ldrh	w9, [x8, #2]
	mov	w8, #65535
	add	x23, x9, #1
	cmp	x9, x8
	lsl	x11, x23, #1
	csel	x8, xzr, x18, eq
	cmp	x9, #4095
	csel	x8, x11, x8, lo
	add	x8, x8, x22
	cmp	x21, x8
	b.lo	.LBB19_42
	add	x8, x23, x25
	cmp	x28, x8
	b.lo	.LBB19_42
	mov	w8, #65535
	cmp	x9, x8
	mov	w8, #1
	cinc	w8, w8, eq
	cmp	x9, #4095
	csel	w8, wzr, w8, lo
	cbz	w8, .LBB19_26
	cmp	w8, #1
	b.ne	.LBB19_29
	ldur	x11, [x29, #-40]
	lsr	x8, x3, #6
	and	x13, x3, #0x3f
	add	x11, x11, x22
	ldr	x12, [x11, x8, lsl #3]
	lsr	x12, x12, x3
	rbit	x12, x12
	clz	x12, x12
	add	x13, x12, x13
	cmp	x13, #64
	b.lo	.LBB19_30
	add	x12, x8, #1
	cmp	x12, #1024
	b.eq	.LBB19_8
	add	x8, x10, x8, lsl #3
	ldur	x13, [x29, #-56]
	add	x8, x13, x8
.LBB19_21:
	ldr	x13, [x8], #8
	rbit	x13, x13
	clz	x13, x13
	cmp	x13, #64
	b.lo	.LBB19_31
	add	x12, x12, #1
	cmp	x12, #1024
	b.ne	.LBB19_21
	b	.LBB19_8
.LBB19_23:
	mov	x8, xzr
	add	x9, x8, #4
	cmp	x21, x9
	b.lo	.LBB19_3
.LBB19_24:
	ldrh	w8, [x20, x8]
	cmp	x26, x8
	b.hs	.LBB19_2
	mov	w9, #32766
	cmp	x8, x9
	csel	x26, x8, x9, lo
	b	.LBB19_3
.LBB19_26:
	add	x0, x2, x27
	mov	x1, x22
	mov	x2, x23
	bl	"next_in_block::first_entry"
	ldp	x18, x2, [x29, #-32]
	mov	x3, x0
	ldur	x1, [x29, #-16]
	ldur	x0, [x29, #-48]
	sub	x16, x24, #1
	cmp	x3, x23
	b.eq	.LBB19_8
	add	x8, x20, x22
	ldrh	w8, [x8, x3, lsl #1]
	b	.LBB19_45
.LBB19_28:
	movi	v0.2d, #0000000000000000
	str	xzr, [x1, #32]
	stp	q0, q0, [x1]
	b	.LBB19_44
.LBB19_29:
	mov	x8, x3
	b	.LBB19_45
.LBB19_30:
	mov	x12, x8
.LBB19_31:
	ldp	x15, x16, [sp, #56]
	orr	x8, x13, x12, lsl #6
	lsr	x14, x8, x16
	cmp	x16, #0
	lsl	x15, x14, x15
	csel	x15, xzr, x15, eq
	cbz	x16, .LBB19_33
	add	x16, x20, x22
	ldrh	w14, [x16, x14, lsl #1]
	rev16	w14, w14
	subs	x16, x12, x15
	b.ne	.LBB19_34
	b	.LBB19_41
.LBB19_33:
	mov	x14, xzr
	subs	x16, x12, x15
	b.eq	.LBB19_41
.LBB19_34:
	cmp	x16, #4
	b.hs	.LBB19_36
	mov	x16, xzr
	mov	x17, xzr
	b	.LBB19_39
.LBB19_36:
	ldr	x17, [sp, #16]
	movi	v0.2d, #0000000000000000
	movi	v1.2d, #0000000000000000
	add	x18, x2, x10
	and	x0, x16, #0xfffffffffffffffc
	add	x17, x17, x27
	add	x17, x17, x15, lsl #3
	add	x18, x17, x18
	and	x17, x16, #0xfffffffffffffffc
	add	x18, x18, #20
.LBB19_37:
	ldp	q2, q3, [x18, #-16]
	subs	x0, x0, #4
	add	x18, x18, #32
	cnt	v2.16b, v2.16b
	cnt	v3.16b, v3.16b
	uaddlp	v2.8h, v2.16b
	uaddlp	v3.8h, v3.16b
	uaddlp	v2.4s, v2.8h
	uaddlp	v3.4s, v3.8h
	uadalp	v0.2d, v2.4s
	uadalp	v1.2d, v3.4s
	b.ne	.LBB19_37
	add	v0.2d, v1.2d, v0.2d
	cmp	x16, x17
	addp	d0, v0.2d
	fmov	x16, d0
	b.eq	.LBB19_41
.LBB19_39:
	add	x15, x15, x17
	ldr	x17, [sp, #16]
	add	x10, x2, x10
	add	x17, x17, x27
	add	x17, x17, x15, lsl #3
	add	x17, x17, x10
	sub	x10, x15, x12
	add	x15, x17, #4
.LBB19_40:
	ldr	d0, [x15], #8
	adds	x10, x10, #1
	cnt	v0.8b, v0.8b
	addv	b0, v0.8b
	fmov	x17, d0
	add	x16, x17, x16
	b.lo	.LBB19_40
.LBB19_41:
	mov	x10, #-1
	ldr	x11, [x11, x12, lsl #3]
	lsl	x10, x10, x13
	bic	x10, x11, x10
	fmov	d0, x10
	add	x10, x16, x14
	cnt	v0.8b, v0.8b
	addv	b0, v0.8b
	fmov	x11, d0
	add	x3, x10, x11
	cmp	x3, x9
	b.ls	.LBB19_45
.LBB19_42:
	adrp	x8, .LCPI19_0
	stp	xzr, xzr, [x1, #24]
	ldr	q0, [x8, :lo12:.LCPI19_0]
	str	xzr, [x1, #16]
.LBB19_43:
	str	q0, [x1]
.LBB19_44:
	ldp	x20, x19, [sp, #208]
	ldp	x22, x21, [sp, #192]
	ldp	x24, x23, [sp, #176]
	ldp	x26, x25, [sp, #160]
	ldp	x28, x27, [sp, #144]
	ldp	x29, x30, [sp, #128]
	add	sp, sp, #224
	ret
.LBB19_45:
	ldr	x9, [sp, #24]
	ldr	w0, [sp, #44]
	add	x11, x27, x9
	cmp	w0, #2
	add	x9, x3, x25
	add	x10, x2, x11
	b.hs	.LBB19_49
	ldr	x13, [sp, #8]
	mov	x11, #-9223372036854775808
	ldr	x18, [sp, #48]
	ldr	x2, [sp, #32]
	mov	x15, xzr
	mvn	x12, x13
	bfxil	x11, x13, #1, #63
	tst	x13, #0x1
	lsr	x12, x12, #1
	csel	x11, x11, x12, eq
	mov	x12, x9
	cbz	x2, .LBB19_57
.LBB19_47:
	mul	x12, x12, x2
	add	x15, x10, x15
	cmp	x2, #8
	add	x13, x2, x12
	add	x14, x13, #7
	lsr	x13, x12, #3
	lsr	x14, x14, #3
	add	x16, x15, x14
	b.hi	.LBB19_54
	ldrb	w15, [x15, x13]
	ldurb	w16, [x16, #-1]
	mov	w17, #1
	b	.LBB19_61
.LBB19_49:
	ldr	x18, [sp, #48]
	ldr	x2, [sp, #32]
	b.ne	.LBB19_56
	lsr	x13, x9, #14
	mov	w12, #25
	madd	x15, x13, x12, x10
	ldrb	w2, [x15, #24]
	cmp	w2, #64
	b.hi	.LBB19_42
	and	x13, x28, #0x3fff
	mov	w14, #16383
	add	x13, x13, x14
	ldr	x14, [x15]
	lsr	x13, x13, #14
	add	x13, x13, x28, lsr #14
	mul	x13, x13, x12
	and	x12, x9, #0x3fff
	cbz	w2, .LBB19_73
	ldur	x16, [x29, #-8]
	ldr	x15, [x15, #16]
	sub	x11, x16, x11
	sub	x11, x11, x13
	subs	x11, x11, x15
	b.lo	.LBB19_42
	umaddl	x16, w2, w12, x2
	add	x16, x16, #7
	cmp	x11, x16, lsr #3
	b.lo	.LBB19_42
	b	.LBB19_74
.LBB19_54:
	cmp	x2, #24
	b.hi	.LBB19_58
	ldrh	w15, [x15, x13]
	ldurh	w16, [x16, #-2]
	mov	w17, #2
	b	.LBB19_61
.LBB19_56:
	lsl	x15, x18, #3
	mov	x11, xzr
	mov	x12, x9
	cbnz	x2, .LBB19_47
.LBB19_57:
	mov	x12, xzr
	cmp	w0, #3
	b.ne	.LBB19_66
	b	.LBB19_64
.LBB19_58:
	cmp	x2, #56
	b.hi	.LBB19_60
	ldr	w15, [x15, x13]
	ldur	w16, [x16, #-4]
	mov	w17, #4
	b	.LBB19_61
.LBB19_60:
	ldr	x15, [x15, x13]
	ldur	x16, [x16, #-8]
	mov	w17, #8
.LBB19_61:
	cmp	w0, #1
	sub	x13, x14, x13
	and	x12, x12, #0x7
	b.ne	.LBB19_63
	sub	x10, x13, x17
	add	x12, x2, x12
	lsl	x10, x10, #3
	neg	x12, x12
	lsl	x10, x16, x10
	orr	x10, x10, x15
	lsl	x10, x10, x12
	neg	x12, x2
	lsr	x12, x10, x12
	b	.LBB19_66
.LBB19_63:
	sub	w13, w13, w17
	rev	x14, x15
	rev	x15, x16
	lsl	w13, w13, #3
	sub	w13, w13, w12
	lsl	x12, x14, x12
	lsr	x13, x15, x13
	orr	x12, x13, x12
	neg	x13, x2
	lsr	x12, x12, x13
	cmp	w0, #3
	b.ne	.LBB19_66
.LBB19_64:
	cmp	x18, x12
	b.ls	.LBB19_42
	ldr	x10, [x10, x12, lsl #3]
	b	.LBB19_72
.LBB19_66:
	cmp	x18, #2
	mvn	x10, x11
	b.lo	.LBB19_70
	orr	x13, x12, x18
	lsr	x13, x13, #32
	cbz	x13, .LBB19_70
	udiv	x10, x10, x18
	cmp	x12, x10
	b.hi	.LBB19_42
	mul	x12, x12, x18
	b	.LBB19_71
.LBB19_70:
	mul	x12, x12, x18
	cmp	x12, x10
	b.hi	.LBB19_42
.LBB19_71:
	add	x10, x12, x11
	eor	x10, x10, #0x8000000000000000
.LBB19_72:
	adrp	x11, .LCPI19_1
	add	w8, w8, w26, lsl #16
	str	x9, [x1, #16]
	ldr	q0, [x11, :lo12:.LCPI19_1]
	str	x10, [x1, #32]
	stp	w8, wzr, [x1, #24]
	b	.LBB19_43
.LBB19_73:
	mov	x15, xzr
.LBB19_74:
	eor	x11, x14, #0x8000000000000000
	add	x15, x15, x13
	cbnz	x2, .LBB19_47
	b	.LBB19_57
.Lfunc_end19:
	.size	"next::steps_from", .Lfunc_end19-"next::steps_from"

	.section	".text.next_in_block::first_entry","ax",@progbits
	.p2align	2
	.type	"next_in_block::first_entry",@function
"next_in_block::first_entry":
	lsr	x9, x2, #4
	cbz	x9, .LBB20_4
	dup	v0.8h, w3
	mov	x8, xzr
	add	x10, x0, x1
.LBB20_2:
	ld2	{ v1.16b, v2.16b }, [x10]
	ushll2	v3.8h, v1.16b, #0
	ushll	v4.8h, v1.8b, #0
	shll2	v5.8h, v2.16b, #8
	shll	v1.8h, v2.8b, #8
	orr	v2.16b, v5.16b, v3.16b
	orr	v1.16b, v1.16b, v4.16b
	cmhs	v2.8h, v2.8h, v0.8h
	cmhs	v1.8h, v1.8h, v0.8h
	uzp1	v1.16b, v1.16b, v2.16b
	umaxv	b1, v1.16b
	fmov	w11, s1
	tbnz	w11, #0, .LBB20_5
	subs	x9, x9, #1
	add	x8, x8, #16
	add	x10, x10, #32
	b.ne	.LBB20_2
.LBB20_4:
	and	x8, x2, #0xfffffffffffffff0
.LBB20_5:
	cmp	x8, x2
	b.hs	.LBB20_9
	add	x9, x1, x8, lsl #1
	add	x9, x9, x0
	add	x9, x9, #1
.LBB20_7:
	ldurh	w10, [x9, #-1]
	cmp	w10, w3, uxth
	b.hs	.LBB20_10
	add	x8, x8, #1
	add	x9, x9, #2
	cmp	x2, x8
	b.ne	.LBB20_7
.LBB20_9:
	mov	x0, x2
	ret
.LBB20_10:
	mov	x2, x8
	mov	x0, x2
	ret
.Lfunc_end20:
	.size	"next_in_block::first_entry", .Lfunc_end20-"next_in_block::first_entry"

	.section	.rodata.cst16,"aM",@progbits,16
	.p2align	4, 0x0
.LCPI21_0:
	.xword	1
	.xword	13
.LCPI21_1:
	.xword	0
	.xword	1
	.section	".text.pair_at::steps_at","ax",@progbits
	.p2align	2
	.type	"pair_at::steps_at",@function
"pair_at::steps_at":
	str	x21, [sp, #-32]!
	ldr	x12, [x3, #8]
	stp	x20, x19, [sp, #16]
	cmp	x12, x4
	b.ls	.LBB21_6
	ldp	x14, x8, [x3, #24]
	ldr	x15, [x3, #72]
	add	x17, x1, x15
	sub	x9, x14, x8, lsl #3
	cmp	x8, #2
	b.lo	.LBB21_7
	mov	x13, xzr
	add	x10, x17, x9
	mov	x16, x8
	b	.LBB21_4
.LBB21_3:
	mov	x13, x11
	sub	x18, x16, x11
	cmp	x18, #1
	b.ls	.LBB21_8
.LBB21_4:
	add	x11, x16, x13
	lsr	x11, x11, #1
	lsl	x18, x11, #3
	ldr	w18, [x10, x18]
	cmp	x4, x18
	b.hs	.LBB21_3
	mov	x16, x11
	mov	x11, x13
	sub	x18, x16, x13
	cmp	x18, #1
	b.hi	.LBB21_4
	b	.LBB21_8
.LBB21_6:
	movi	v0.2d, #0000000000000000
	str	xzr, [x0, #32]
	stp	q0, q0, [x0]
	ldp	x20, x19, [sp, #16]
	ldr	x21, [sp], #32
	ret
.LBB21_7:
	mov	x11, xzr
	cbz	x8, .LBB21_12
.LBB21_8:
	sub	x8, x8, #1
	mov	w13, wzr
	cmp	x8, x11
	csel	x8, x8, x11, lo
	add	x8, x17, x8, lsl #3
	add	x8, x8, x9
	ldp	w10, w18, [x8]
	add	x5, x18, #4
	cmp	x9, x5
	b.lo	.LBB21_67
.LBB21_9:
	add	x16, x17, x18
	ldrh	w8, [x16]
	cmp	x8, x11
	mov	w11, #32765
	csinc	w13, w13, wzr, ne
	cmp	x8, x11
	ccmp	w13, #0, #4, ls
	b.eq	.LBB21_67
	ldrh	w11, [x16, #2]
	ldr	x6, [x3, #16]
	cmp	x11, #4094
	add	x13, x11, #1
	b.hi	.LBB21_13
	lsl	x16, x13, #1
	b	.LBB21_16
.LBB21_12:
	mov	w13, #1
	mov	x18, x11
	mov	x10, x11
	add	x5, x11, #4
	cmp	x9, x5
	b.hs	.LBB21_9
	b	.LBB21_67
.LBB21_13:
	mov	w16, #65535
	cmp	x11, x16
	b.ne	.LBB21_15
	mov	x16, xzr
	b	.LBB21_16
.LBB21_15:
	mov	w16, #17
	mov	w7, #1
	cmp	x6, #0
	sub	x16, x16, x6
	lsl	x16, x7, x16
	mov	w7, #8192
	add	x16, x16, #2, lsl #12
	csel	x16, x7, x16, eq
.LBB21_16:
	add	x16, x16, x5
	cmp	x9, x16
	b.lo	.LBB21_67
	add	x13, x13, x10
	cmp	x13, x4
	b.ls	.LBB21_67
	subs	x9, x4, x10
	b.lo	.LBB21_67
	cmp	x12, x13
	b.lo	.LBB21_67
	mov	w10, #65535
	ldp	x13, x16, [x3, #40]
	cmp	x11, x10
	mov	w10, #1
	cinc	w10, w10, eq
	cmp	x11, #4095
	ldrb	w11, [x3]
	csel	w7, wzr, w10, lo
	ldr	x10, [x3, #56]
	cmp	w7, #2
	b.eq	.LBB21_26
	cmp	w7, #1
	b.ne	.LBB21_25
	cbz	x6, .LBB21_28
	cmp	x6, #16
	b.ne	.LBB21_29
	mov	x3, xzr
	b	.LBB21_32
.LBB21_25:
	add	x17, x17, x5
	ldrh	w9, [x17, x9, lsl #1]
.LBB21_26:
	add	x17, x15, x14
	cmp	w11, #2
	add	x14, x1, x17
	b.hs	.LBB21_41
.LBB21_27:
	mov	x12, #-9223372036854775808
	mvn	x15, x16
	tst	x16, #0x1
	bfxil	x12, x16, #1, #63
	lsr	x15, x15, #1
	mov	x18, xzr
	csel	x12, x12, x15, eq
	mov	x15, x4
	cbnz	x13, .LBB21_49
	b	.LBB21_59
.LBB21_28:
	mov	x3, x6
	b	.LBB21_34
.LBB21_29:
	mov	w7, #16
	mov	w19, #1
	mov	x3, xzr
	sub	x7, x7, x6
	lsl	x7, x19, x7
	add	x19, x17, x5
.LBB21_30:
	add	x20, x7, x3
	and	x21, x20, #0xfffffffffffffffe
	lsr	x20, x20, #1
	ldrh	w21, [x19, x21]
	rev16	w21, w21
	cmp	x21, x9
	csel	x7, x20, x7, hi
	csel	x3, x3, x20, hi
	sub	x20, x7, x3
	cmp	x20, #1
	b.hi	.LBB21_30
	lsl	x3, x3, x6
	cbz	x6, .LBB21_34
.LBB21_32:
	lsr	x7, x3, x6
	add	x17, x17, x5
	ldrh	w17, [x17, x7, lsl #1]
	rev16	w17, w17
	subs	x9, x9, x17
	b.lo	.LBB21_67
	sub	x17, x6, #6
	mov	w5, #1
	mov	w7, #17
	lsr	x3, x3, #6
	lsl	x19, x5, x17
	sub	x17, x7, x6
	lsl	x17, x5, x17
	add	x5, x3, x19
	b	.LBB21_35
.LBB21_34:
	lsr	x3, x3, #6
	mov	x17, xzr
	add	x5, x3, #1024
.LBB21_35:
	add	x17, x18, x17
	add	x17, x17, x15
	add	x18, x17, x3, lsl #3
	neg	x17, x3, lsl #6
	sub	x3, x5, x3
	add	x18, x18, x1
	add	x5, x18, #4
.LBB21_36:
	ldr	x18, [x5], #8
	fmov	d0, x18
	cnt	v0.8b, v0.8b
	addv	b0, v0.8b
	fmov	x6, d0
	subs	x6, x9, x6
	b.lo	.LBB21_38
	subs	x3, x3, #1
	sub	x17, x17, #64
	mov	x9, x6
	b.ne	.LBB21_36
	b	.LBB21_67
.LBB21_38:
	mov	x3, xzr
	cbz	x9, .LBB21_40
.LBB21_39:
	rbit	x5, x18
	subs	x9, x9, #1
	clz	x5, x5
	lsr	x18, x18, x5
	add	x3, x3, x5
	add	x3, x3, #1
	lsr	x18, x18, #1
	b.ne	.LBB21_39
.LBB21_40:
	rbit	x9, x18
	clz	x9, x9
	add	x9, x9, x3
	sub	x9, x9, x17
	add	x17, x15, x14
	cmp	w11, #2
	add	x14, x1, x17
	b.lo	.LBB21_27
.LBB21_41:
	b.ne	.LBB21_46
	lsr	x13, x4, #14
	mov	w15, #25
	madd	x18, x13, x15, x14
	ldrb	w13, [x18, #24]
	cmp	w13, #64
	b.hi	.LBB21_67
	and	x16, x12, #0x3fff
	mov	w1, #16383
	add	x16, x16, x1
	lsr	x16, x16, #14
	add	x12, x16, x12, lsr #14
	mul	x16, x12, x15
	ldr	x12, [x18]
	and	x15, x4, #0x3fff
	cbz	w13, .LBB21_47
	ldr	x18, [x18, #16]
	sub	x17, x2, x17
	sub	x17, x17, x16
	subs	x17, x17, x18
	b.lo	.LBB21_67
	umaddl	x1, w13, w15, x13
	add	x1, x1, #7
	cmp	x17, x1, lsr #3
	b.hs	.LBB21_48
	b	.LBB21_67
.LBB21_46:
	lsl	x18, x10, #3
	mov	x12, xzr
	mov	x15, x4
	cbnz	x13, .LBB21_49
	b	.LBB21_59
.LBB21_47:
	mov	x18, xzr
.LBB21_48:
	eor	x12, x12, #0x8000000000000000
	add	x18, x18, x16
	cbz	x13, .LBB21_59
.LBB21_49:
	mul	x15, x15, x13
	add	x18, x14, x18
	cmp	x13, #8
	add	x16, x13, x15
	add	x17, x16, #7
	lsr	x16, x15, #3
	lsr	x17, x17, #3
	add	x1, x18, x17
	b.hi	.LBB21_51
	ldrb	w18, [x18, x16]
	ldurb	w1, [x1, #-1]
	mov	w2, #1
	b	.LBB21_56
.LBB21_51:
	cmp	x13, #24
	b.hi	.LBB21_53
	ldrh	w18, [x18, x16]
	ldurh	w1, [x1, #-2]
	mov	w2, #2
	b	.LBB21_56
.LBB21_53:
	cmp	x13, #56
	b.hi	.LBB21_55
	ldr	w18, [x18, x16]
	ldur	w1, [x1, #-4]
	mov	w2, #4
	b	.LBB21_56
.LBB21_55:
	ldr	x18, [x18, x16]
	ldur	x1, [x1, #-8]
	mov	w2, #8
.LBB21_56:
	cmp	w11, #1
	sub	x16, x17, x16
	and	x15, x15, #0x7
	b.ne	.LBB21_58
	sub	x11, x16, x2
	add	x14, x13, x15
	neg	x13, x13
	lsl	x11, x11, #3
	neg	x14, x14
	lsl	x11, x1, x11
	orr	x11, x11, x18
	lsl	x11, x11, x14
	lsr	x13, x11, x13
	b	.LBB21_62
.LBB21_58:
	sub	w16, w16, w2
	rev	x17, x18
	rev	x18, x1
	lsl	w16, w16, #3
	neg	x13, x13
	sub	w16, w16, w15
	lsl	x15, x17, x15
	lsr	x16, x18, x16
	orr	x15, x16, x15
	lsr	x13, x15, x13
.LBB21_59:
	cmp	w11, #3
	b.ne	.LBB21_62
	cmp	x10, x13
	b.ls	.LBB21_67
	ldr	x10, [x14, x13, lsl #3]
	b	.LBB21_69
.LBB21_62:
	cmp	x10, #2
	mvn	x11, x12
	b.lo	.LBB21_66
	orr	x14, x13, x10
	lsr	x14, x14, #32
	cbz	x14, .LBB21_66
	udiv	x11, x11, x10
	cmp	x13, x11
	b.hi	.LBB21_67
	mul	x10, x13, x10
	b	.LBB21_68
.LBB21_66:
	mul	x10, x13, x10
	cmp	x10, x11
	b.ls	.LBB21_68
.LBB21_67:
	adrp	x8, .LCPI21_0
	stp	xzr, xzr, [x0, #24]
	ldr	q0, [x8, :lo12:.LCPI21_0]
	str	xzr, [x0, #16]
	str	q0, [x0]
	ldp	x20, x19, [sp, #16]
	ldr	x21, [sp], #32
	ret
.LBB21_68:
	add	x10, x10, x12
	eor	x10, x10, #0x8000000000000000
.LBB21_69:
	add	w8, w9, w8, lsl #16
	adrp	x9, .LCPI21_1
	str	x4, [x0, #16]
	ldr	q0, [x9, :lo12:.LCPI21_1]
	str	x10, [x0, #32]
	stp	w8, wzr, [x0, #24]
	str	q0, [x0]
	ldp	x20, x19, [sp, #16]
	ldr	x21, [sp], #32
	ret
.Lfunc_end21:
	.size	"pair_at::steps_at", .Lfunc_end21-"pair_at::steps_at"

	.section	".text.plans::plan","ax",@progbits
	.p2align	2
	.type	"plans::plan",@function
"plans::plan":
	stp	x29, x30, [sp, #-80]!
	stp	x28, x25, [sp, #16]
	mov	x29, sp
	stp	x24, x23, [sp, #32]
	stp	x22, x21, [sp, #48]
	stp	x20, x19, [sp, #64]
	sub	sp, sp, #3072
	str	xzr, [sp]
	sub	sp, sp, #3072
	mov	w8, #2147352576
	str	xzr, [sp]
	cmp	x2, x8
	b.hi	.LBB22_57
	mov	x20, x2
	mov	x21, x1
	mov	x19, x0
	mov	x0, sp
	mov	w1, wzr
	mov	w2, #2048
	mov	x22, sp
	bl	memset
	cmp	x20, #128
	b.hs	.LBB22_27
	movi	v0.2d, #0000000000000000
	str	q0, [sp, #2288]
	str	q0, [sp, #2272]
	str	q0, [sp, #2256]
	str	q0, [sp, #2240]
	str	q0, [sp, #2224]
	str	q0, [sp, #2208]
	str	q0, [sp, #2192]
	str	q0, [sp, #2176]
	str	q0, [sp, #2160]
	str	q0, [sp, #2144]
	str	q0, [sp, #2128]
	str	q0, [sp, #2112]
	str	q0, [sp, #2096]
	str	q0, [sp, #2080]
	str	q0, [sp, #2064]
	str	q0, [sp, #2048]
	cbz	x20, .LBB22_51
	mov	x12, sp
	mov	w10, #5067
	mov	w11, #49969
	mov	x9, xzr
	mov	x8, xzr
	movk	w10, #30053, lsl #16
	movk	w11, #13711, lsl #16
	sub	x12, x12, #16
	b	.LBB22_6
.LBB22_4:
	add	x22, x9, #1
	mov	x15, sp
	cmp	x9, #255
	mov	x9, x22
	str	x13, [x15, x14, lsl #3]
	b.hi	.LBB22_53
	add	x8, x8, #1
	cmp	x8, x20
	b.eq	.LBB22_53
.LBB22_6:
	ldr	x13, [x21, x8, lsl #3]
	lsr	x14, x13, #32
	mul	w15, w13, w10
	eor	w14, w14, #0x80000000
	madd	w14, w14, w11, w15
	lsr	w15, w14, #24
	add	x14, sp, #2048
	ldrb	w14, [x14, w15, uxtw]
	cmp	x9, x14
	b.ls	.LBB22_9
	mov	x16, sp
	ldr	x16, [x16, x14, lsl #3]
	cmp	x16, x13
	b.ne	.LBB22_10
	subs	x15, x9, x14
	b.hi	.LBB22_13
	b	.LBB22_16
.LBB22_9:
	cbz	x9, .LBB22_15
.LBB22_10:
	mov	x14, xzr
	mov	x16, x9
.LBB22_11:
	sub	x17, x16, x14
	mov	x18, sp
	add	x17, x14, x17, lsr #1
	ldr	x18, [x18, x17, lsl #3]
	cmp	x18, x13
	csinc	x14, x14, x17, ge
	csel	x16, x17, x16, ge
	cmp	x14, x16
	b.lo	.LBB22_11
	add	x16, sp, #2048
	strb	w14, [x16, w15, uxtw]
	subs	x15, x9, x14
	b.ls	.LBB22_16
.LBB22_13:
	mov	x16, sp
	ldr	x16, [x16, x14, lsl #3]
	cmp	x16, x13
	b.ne	.LBB22_16
	mov	x22, x9
	add	x8, x8, #1
	cmp	x8, x20
	b.ne	.LBB22_6
	b	.LBB22_53
.LBB22_15:
	mov	x14, xzr
	add	x16, sp, #2048
	strb	w14, [x16, w15, uxtw]
	subs	x15, x9, xzr
	b.hi	.LBB22_13
.LBB22_16:
	cmp	x9, #256
	b.eq	.LBB22_56
	cmn	x14, #1
	b.eq	.LBB22_25
	cbz	x15, .LBB22_4
	cmp	x15, #4
	b.lo	.LBB22_23
	add	x18, x12, x9, lsl #3
	and	x16, x15, #0xfffffffffffffffc
	and	x17, x15, #0x3
	and	x0, x15, #0xfffffffffffffffc
.LBB22_21:
	ldp	q1, q0, [x18, #-16]
	sub	x0, x0, #4
	stur	q0, [x18, #8]
	stur	q1, [x18, #-8]
	sub	x18, x18, #32
	cbnz	x0, .LBB22_21
	cmp	x15, x16
	mov	x15, x17
	b.eq	.LBB22_4
.LBB22_23:
	add	x16, x14, x15
	mov	x17, sp
	add	x17, x17, x16, lsl #3
	mov	x16, x17
.LBB22_24:
	ldr	x18, [x16, #-8]!
	subs	x15, x15, #1
	str	x18, [x17]
	mov	x17, x16
	b.ne	.LBB22_24
	b	.LBB22_4
.LBB22_25:
	ldur	x16, [sp, #-8]
	mov	x17, sp
.LBB22_26:
	subs	x15, x15, #1
	str	x16, [x17], #8
	b.ne	.LBB22_26
	b	.LBB22_4
.LBB22_27:
	mov	w23, #5067
	mov	w24, #49969
	add	x0, sp, #2048
	mov	w1, wzr
	mov	w2, #4096
	movk	w23, #30053, lsl #16
	movk	w24, #13711, lsl #16
	add	x25, sp, #2048
	bl	memset
	mov	x9, xzr
	mov	x8, xzr
	sub	x10, x22, #16
	b	.LBB22_30
.LBB22_28:
	add	x22, x9, #1
	mov	x13, sp
	cmp	x9, #255
	mov	x9, x22
	str	x11, [x13, x12, lsl #3]
	b.hi	.LBB22_53
	add	x8, x8, #1
	cmp	x8, x20
	b.eq	.LBB22_53
.LBB22_30:
	ldr	x11, [x21, x8, lsl #3]
	lsr	x12, x11, #32
	mul	w13, w11, w23
	eor	w12, w12, #0x80000000
	madd	w12, w12, w24, w13
	lsr	w13, w12, #20
	ldrb	w12, [x25, w13, uxtw]
	cmp	x9, x12
	b.ls	.LBB22_33
	mov	x14, sp
	ldr	x14, [x14, x12, lsl #3]
	cmp	x14, x11
	b.ne	.LBB22_34
	subs	x13, x9, x12
	b.hi	.LBB22_37
	b	.LBB22_40
.LBB22_33:
	cbz	x9, .LBB22_39
.LBB22_34:
	mov	x12, xzr
	mov	x14, x9
.LBB22_35:
	sub	x15, x14, x12
	mov	x16, sp
	add	x15, x12, x15, lsr #1
	ldr	x16, [x16, x15, lsl #3]
	cmp	x16, x11
	csinc	x12, x12, x15, ge
	csel	x14, x15, x14, ge
	cmp	x12, x14
	b.lo	.LBB22_35
	add	x14, sp, #2048
	strb	w12, [x14, w13, uxtw]
	subs	x13, x9, x12
	b.ls	.LBB22_40
.LBB22_37:
	mov	x14, sp
	ldr	x14, [x14, x12, lsl #3]
	cmp	x14, x11
	b.ne	.LBB22_40
	mov	x22, x9
	add	x8, x8, #1
	cmp	x8, x20
	b.ne	.LBB22_30
	b	.LBB22_53
.LBB22_39:
	mov	x12, xzr
	add	x14, sp, #2048
	strb	w12, [x14, w13, uxtw]
	subs	x13, x9, xzr
	b.hi	.LBB22_37
.LBB22_40:
	cmp	x9, #256
	b.eq	.LBB22_52
	cmn	x12, #1
	b.eq	.LBB22_49
	cbz	x13, .LBB22_28
	cmp	x13, #4
	b.lo	.LBB22_47
	add	x16, x10, x9, lsl #3
	and	x14, x13, #0xfffffffffffffffc
	and	x15, x13, #0x3
	and	x17, x13, #0xfffffffffffffffc
.LBB22_45:
	ldp	q1, q0, [x16, #-16]
	sub	x17, x17, #4
	stur	q0, [x16, #8]
	stur	q1, [x16, #-8]
	sub	x16, x16, #32
	cbnz	x17, .LBB22_45
	cmp	x13, x14
	mov	x13, x15
	b.eq	.LBB22_28
.LBB22_47:
	add	x14, x12, x13
	mov	x15, sp
	add	x15, x15, x14, lsl #3
	mov	x14, x15
.LBB22_48:
	ldr	x16, [x14, #-8]!
	subs	x13, x13, #1
	str	x16, [x15]
	mov	x15, x14
	b.ne	.LBB22_48
	b	.LBB22_28
.LBB22_49:
	ldur	x14, [sp, #-8]
	mov	x15, sp
.LBB22_50:
	subs	x13, x13, #1
	str	x14, [x15], #8
	b.ne	.LBB22_50
	b	.LBB22_28
.LBB22_51:
	mov	x22, xzr
	sub	x8, x22, #257
	cmn	x8, #255
	b.hs	.LBB22_54
	b	.LBB22_57
.LBB22_52:
	mov	w22, #257
.LBB22_53:
	sub	x8, x22, #257
	cmn	x8, #255
	b.lo	.LBB22_57
.LBB22_54:
	mov	x0, sp
	mov	x1, x22
	mov	x2, x20
	bl	"table_values::saves"
	cbz	w0, .LBB22_57
	lsl	x2, x22, #3
	mov	x1, sp
	mov	x0, x19
	bl	memcpy
	b	.LBB22_58
.LBB22_56:
	mov	w22, #257
	sub	x8, x22, #257
	cmn	x8, #255
	b.hs	.LBB22_54
.LBB22_57:
	mov	x22, xzr
.LBB22_58:
	mov	x0, x22
	add	sp, sp, #1, lsl #12
	add	sp, sp, #2048
	ldp	x20, x19, [sp, #64]
	ldp	x22, x21, [sp, #48]
	ldp	x24, x23, [sp, #32]
	ldp	x28, x25, [sp, #16]
	ldp	x29, x30, [sp], #80
	ret
.Lfunc_end22:
	.size	"plans::plan", .Lfunc_end22-"plans::plan"

	.section	.rodata.cst16,"aM",@progbits,16
	.p2align	4, 0x0
.LCPI23_0:
	.word	0
	.word	1
	.word	2
	.word	3
	.section	".text.read_from::read_up_to","ax",@progbits
	.p2align	2
	.type	"read_from::read_up_to",@function
"read_from::read_up_to":
	stp	x29, x30, [sp, #-96]!
	stp	x28, x27, [sp, #16]
	mov	x29, sp
	stp	x26, x25, [sp, #32]
	stp	x24, x23, [sp, #48]
	stp	x22, x21, [sp, #64]
	stp	x20, x19, [sp, #80]
	sub	sp, sp, #528
	stur	x2, [x29, #-200]
	ldur	w8, [x5, #1]
	ldr	w9, [x5, #4]
	mov	w10, #2147352575
	ldrb	w2, [x5]
	stur	x0, [x29, #-232]
	cmp	w7, w10
	stur	w8, [x29, #-136]
	stur	w9, [x29, #-133]
	b.hi	.LBB23_2
	ldp	x30, x0, [x5, #8]
	mov	x18, x3
	ldp	x9, x10, [x5, #56]
	mov	w8, #17
	ldp	x13, x3, [x5, #24]
	mov	w11, #16383
	ldp	x19, x14, [x5, #40]
	sub	x8, x8, x0
	stur	x10, [x29, #-176]
	ldr	x15, [x5, #72]
	mov	x5, x9
	mov	w9, #1
	and	x10, x30, #0x3fff
	sub	x16, x13, x3, lsl #3
	lsl	x8, x9, x8
	add	x9, x10, x11
	sub	x10, x3, #1
	lsr	x9, x9, #14
	stur	x10, [x29, #-144]
	cmp	x0, #0
	add	x10, x8, #2, lsl #12
	mov	w11, #8192
	mov	w12, w7
	add	x17, x18, x15
	add	x9, x9, x30, lsr #14
	csel	x10, x11, x10, eq
	lsr	x24, x12, #16
	and	x26, x12, #0xffff
	add	x12, x17, x16
	str	x10, [sp, #184]
	mov	w10, #25
	sub	x11, x29, #88
	mov	x7, x16
	stur	x12, [x29, #-152]
	csel	x12, xzr, x8, eq
	mul	x16, x9, x10
	orr	x8, x11, #0x1
	mov	x9, #-9223372036854775808
	stur	x8, [x29, #-192]
	sub	x8, x0, #6
	mvn	x10, x14
	str	x8, [sp, #200]
	add	x8, x17, x12
	bfxil	x9, x14, #1, #63
	str	x8, [sp, #80]
	add	x8, x15, x13
	lsr	x10, x10, #1
	add	x11, x18, x8
	sub	x8, x4, x8
	tst	x14, #0x1
	sub	x8, x8, x16
	str	x11, [sp, #176]
	lsl	x11, x5, #3
	str	x8, [sp, #96]
	csel	x8, x9, x10, eq
	add	x10, x1, #16
	str	x8, [sp, #144]
	add	x8, x15, x18
	add	x9, x17, x13
	add	x8, x12, x8
	str	x10, [sp, #104]
	mov	x25, xzr
	add	x10, x8, #20
	str	x9, [sp, #216]
	add	x9, x15, #4
	stp	x10, x16, [sp, #112]
	add	x10, x8, #4
	add	x8, x8, #12
	str	x8, [sp, #72]
	add	x8, x17, #5
	mov	w16, w2
	mov	x2, x4
	mov	x4, x19
	str	x8, [sp, #192]
	add	x8, x18, x9
	str	x11, [sp, #128]
	stp	x14, x13, [x29, #-168]
	stur	x15, [x29, #-184]
	stp	x9, x12, [sp, #160]
	str	x10, [sp, #136]
	str	x8, [sp, #152]
	stur	x6, [x29, #-248]
	str	x2, [sp, #224]
	stur	x18, [x29, #-216]
	stur	w16, [x29, #-252]
	stp	x19, x3, [sp, #256]
	str	x30, [sp, #248]
	stur	x0, [x29, #-224]
	str	x5, [sp, #240]
	stur	x1, [x29, #-240]
	str	x7, [sp, #232]
	stur	x17, [x29, #-208]
	b	.LBB23_6
.LBB23_2:
	mov	x25, xzr
.LBB23_3:
	ldur	x11, [x29, #-232]
	mov	x9, xzr
	mov	w8, #1
	mov	x6, x25
	b	.LBB23_176
.LBB23_4:
	cmp	x3, #0
	mov	w9, #32766
	csel	x9, x9, x24, eq
	cmp	x24, x8
	csel	x24, x24, x9, eq
.LBB23_5:
	mov	w8, #32766
	mov	x26, xzr
	cmp	x24, x8
	b.hs	.LBB23_3
.LBB23_6:
	cbz	x3, .LBB23_8
	ldp	x9, x8, [x29, #-152]
	cmp	x8, x24
	csel	x8, x8, x24, lo
	add	x8, x9, x8, lsl #3
	ldp	w1, w23, [x8]
	add	x19, x23, #4
	cmp	x7, x19
	b.hs	.LBB23_9
	b	.LBB23_174
.LBB23_8:
	mov	x23, xzr
	mov	x1, xzr
	add	x19, x23, #4
	cmp	x7, x19
	b.lo	.LBB23_174
.LBB23_9:
	add	x8, x17, x23
	ldrh	w9, [x8]
	cmp	x24, x9
	b.lo	.LBB23_12
	cmp	x9, x24
	b.hs	.LBB23_17
	cbnz	x3, .LBB23_174
.LBB23_12:
	mov	x12, xzr
	mov	w10, #65536
.LBB23_13:
	cmp	x25, x6
	b.eq	.LBB23_179
	add	x8, x24, #2
	add	x24, x24, #1
	cmp	x8, x3
	b.lo	.LBB23_5
	cbz	x3, .LBB23_19
	ldr	x8, [sp, #216]
	ldur	w8, [x8, #-4]
	add	x9, x8, #4
	cmp	x7, x9
	b.lo	.LBB23_5
	b	.LBB23_20
.LBB23_17:
	ldrb	w20, [x8, #2]
	ldrb	w8, [x8, #3]
	mov	x28, x20
	bfi	x28, x8, #8, #8
	cmp	x28, #4094
	add	x15, x28, #1
	b.hi	.LBB23_22
	lsl	x9, x15, #1
	b	.LBB23_32
.LBB23_19:
	mov	x8, xzr
	add	x9, x8, #4
	cmp	x7, x9
	b.lo	.LBB23_5
.LBB23_20:
	ldrh	w8, [x17, x8]
	cmp	x24, x8
	b.hs	.LBB23_4
	mov	w9, #32766
	cmp	x8, x9
	csel	x24, x8, x9, lo
	b	.LBB23_5
.LBB23_22:
	mov	w9, #65535
	cmp	x28, x9
	ldr	x9, [sp, #184]
	b.ne	.LBB23_32
	add	x8, x15, x1
	cmp	x30, x8
	b.lo	.LBB23_174
	ldur	w8, [x29, #-136]
	ldur	w9, [x29, #-133]
	stp	x30, x0, [x29, #-80]
	ldp	x0, x10, [x29, #-200]
	str	w8, [x10]
	stur	w9, [x10, #3]
	ldp	x9, x8, [x29, #-168]
	ldur	x10, [x29, #-176]
	sturb	w16, [x29, #-88]
	stp	x8, x3, [x29, #-64]
	mov	w8, #65536
	sub	x3, x29, #88
	stp	x4, x9, [x29, #-48]
	sub	x9, x6, x25
	sub	x8, x8, x26
	cmp	x8, x9
	stp	x5, x10, [x29, #-32]
	add	x4, x1, x26
	csel	x8, x8, x9, lo
	mov	x1, x18
	mov	x5, x25
	add	x27, x8, x25
	ldur	x8, [x29, #-184]
	mov	x6, x27
	stur	x8, [x29, #-16]
	bl	"read_in_block::draw"
	ldur	x17, [x29, #-208]
	ldur	x13, [x29, #-240]
	subs	x8, x0, x25
	b.ls	.LBB23_31
	orr	w9, w26, w24, lsl #16
	cmp	x8, #8
	b.lo	.LBB23_29
	dup	v0.4s, w9
	adrp	x10, .LCPI23_0
	ldr	x11, [sp, #104]
	ldr	q1, [x10, :lo12:.LCPI23_0]
	and	x10, x8, #0xfffffffffffffff8
	and	x12, x8, #0xfffffffffffffff8
	add	x11, x11, x25, lsl #2
	add	w9, w9, w10
	add	x25, x25, x10
	add	v0.4s, v0.4s, v1.4s
.LBB23_27:
	movi	v1.4s, #4
	movi	v2.4s, #8
	subs	x12, x12, #8
	add	v1.4s, v0.4s, v1.4s
	stp	q0, q1, [x11, #-16]
	add	v0.4s, v0.4s, v2.4s
	add	x11, x11, #32
	b.ne	.LBB23_27
	cmp	x8, x10
	b.eq	.LBB23_31
.LBB23_29:
	add	x10, x13, x25, lsl #2
	sub	x11, x0, x25
.LBB23_30:
	subs	x11, x11, #1
	str	w9, [x10], #4
	add	w9, w9, #1
	b.ne	.LBB23_30
.LBB23_31:
	add	x10, x8, x26
	cmp	x0, x27
	mov	x25, x0
	cset	w8, lo
	tst	x10, #0xffffffffffff0000
	ldur	x6, [x29, #-248]
	csinc	w8, w8, wzr, eq
	ldp	x2, x7, [sp, #224]
	cmp	w8, #0
	mov	w8, #256
	ldur	w16, [x29, #-252]
	csel	x8, xzr, x8, ne
	cmp	x0, x27
	ldp	x0, x18, [x29, #-224]
	cinc	x12, x8, lo
	ldp	x4, x3, [sp, #256]
	ldp	x5, x30, [sp, #240]
	tbz	w12, #0, .LBB23_13
	b	.LBB23_174
.LBB23_32:
	add	x9, x9, x19
	cmp	x7, x9
	b.lo	.LBB23_174
	add	x9, x15, x1
	cmp	x30, x9
	b.lo	.LBB23_174
	cmp	x28, #4
	b.hi	.LBB23_69
	ldr	x9, [sp, #192]
	lsl	x8, x24, #16
	mov	x11, xzr
	add	x9, x9, x23
.LBB23_36:
	cmp	x11, x28
	add	x12, x9, x11, lsl #1
	neg	x10, x11
	csel	x13, x11, x28, hi
	mvn	x13, x13
.LBB23_37:
	ldurh	w11, [x12, #-1]
	cmp	x11, x26
	b.hs	.LBB23_39
	sub	x10, x10, #1
	add	x12, x12, #2
	cmp	x13, x10
	b.ne	.LBB23_37
	b	.LBB23_12
.LBB23_39:
	cmp	x25, x6
	b.eq	.LBB23_177
	cmp	w16, #2
	sub	x14, x1, x10
	b.hs	.LBB23_45
	ldr	x12, [sp, #144]
	mov	x17, xzr
	mov	x13, x4
	cbz	x4, .LBB23_61
.LBB23_42:
	mul	x14, x14, x13
	mov	w19, w16
	ldr	x18, [sp, #176]
	cmp	x13, #8
	add	x17, x18, x17
	add	x15, x13, x14
	add	x16, x15, #7
	lsr	x15, x14, #3
	lsr	x16, x16, #3
	add	x18, x17, x16
	b.hi	.LBB23_51
	ldrb	w17, [x17, x15]
	ldurb	w18, [x18, #-1]
	mov	w0, #1
	cmp	w19, #1
	sub	x15, x16, x15
	and	x14, x14, #0x7
	b.ne	.LBB23_53
.LBB23_44:
	sub	x15, x15, x0
	add	x14, x13, x14
	neg	x13, x13
	lsl	x15, x15, #3
	neg	x14, x14
	ldur	x16, [x29, #-240]
	lsl	x15, x18, x15
	ldp	x0, x18, [x29, #-224]
	orr	x15, x15, x17
	ldur	x17, [x29, #-208]
	lsl	x14, x15, x14
	lsr	x13, x14, x13
	cmp	x5, #2
	mvn	x14, x12
	b.hs	.LBB23_55
	b	.LBB23_58
.LBB23_45:
	b.ne	.LBB23_60
	lsr	x12, x14, #14
	mov	w13, #25
	ldr	x15, [sp, #176]
	madd	x15, x12, x13, x15
	ldrb	w13, [x15, #24]
	cmp	w13, #64
	b.hi	.LBB23_174
	ldr	x12, [x15]
	mov	w19, w16
	and	x14, x14, #0x3fff
	cbz	w13, .LBB23_67
	ldr	x15, [x15, #16]
	ldr	x16, [sp, #96]
	subs	x16, x16, x15
	b.lo	.LBB23_174
	umaddl	x17, w13, w14, x13
	add	x17, x17, #7
	cmp	x16, x17, lsr #3
	b.lo	.LBB23_174
	ldr	x16, [sp, #120]
	eor	x12, x12, #0x8000000000000000
	add	x17, x15, x16
	mov	w16, w19
	cbnz	x13, .LBB23_42
	b	.LBB23_61
.LBB23_51:
	cmp	x13, #24
	b.hi	.LBB23_65
	ldrh	w17, [x17, x15]
	ldurh	w18, [x18, #-2]
	mov	w0, #2
	cmp	w19, #1
	sub	x15, x16, x15
	and	x14, x14, #0x7
	b.eq	.LBB23_44
.LBB23_53:
	sub	w15, w15, w0
	rev	x16, x17
	rev	x17, x18
	lsl	w15, w15, #3
	neg	x13, x13
	ldp	x0, x18, [x29, #-224]
	sub	w15, w15, w14
	lsl	x14, x16, x14
	lsr	x15, x17, x15
	orr	x14, x15, x14
	lsr	x13, x14, x13
	cmp	w19, #3
	ldur	x16, [x29, #-240]
	ldur	x17, [x29, #-208]
	b.eq	.LBB23_62
.LBB23_54:
	cmp	x5, #2
	mvn	x14, x12
	b.lo	.LBB23_58
.LBB23_55:
	orr	x15, x13, x5
	lsr	x15, x15, #32
	cbz	x15, .LBB23_58
	udiv	x14, x14, x5
	cmp	x13, x14
	b.hi	.LBB23_174
	mul	x13, x13, x5
	b	.LBB23_59
.LBB23_58:
	mul	x13, x13, x5
	cmp	x13, x14
	b.hi	.LBB23_174
.LBB23_59:
	add	x12, x13, x12
	eor	x13, x12, #0x8000000000000000
	b	.LBB23_64
.LBB23_60:
	ldr	x17, [sp, #128]
	mov	x12, xzr
	mov	x13, x4
	cbnz	x4, .LBB23_42
.LBB23_61:
	mov	w19, w16
	cmp	w16, #3
	ldur	x16, [x29, #-240]
	ldur	x17, [x29, #-208]
	b.ne	.LBB23_54
.LBB23_62:
	cmp	x5, x13
	b.ls	.LBB23_174
	ldr	x12, [sp, #176]
	ldr	x13, [x12, x13, lsl #3]
.LBB23_64:
	ldur	x15, [x29, #-200]
	orr	w14, w11, w8
	str	w14, [x16, x25, lsl #2]
	neg	x14, x10
	mov	x12, xzr
	add	x26, x11, #1
	str	x13, [x15, x25, lsl #3]
	mov	w13, #1
	add	x25, x25, #1
	cmp	x14, x28
	sub	x11, x13, x10
	mov	w10, #65536
	mov	w16, w19
	b.lo	.LBB23_36
	b	.LBB23_13
.LBB23_65:
	cmp	x13, #56
	b.hi	.LBB23_68
	ldr	w17, [x17, x15]
	ldur	w18, [x18, #-4]
	mov	w0, #4
	cmp	w19, #1
	sub	x15, x16, x15
	and	x14, x14, #0x7
	b.eq	.LBB23_44
	b	.LBB23_53
.LBB23_67:
	ldr	x16, [sp, #120]
	eor	x12, x12, #0x8000000000000000
	add	x17, xzr, x16
	mov	w16, w19
	cbnz	x13, .LBB23_42
	b	.LBB23_61
.LBB23_68:
	ldr	x17, [x17, x15]
	ldur	x18, [x18, #-8]
	mov	w0, #8
	cmp	w19, #1
	sub	x15, x16, x15
	and	x14, x14, #0x7
	b.ne	.LBB23_53
	b	.LBB23_44
.LBB23_69:
	cmp	x28, #4094
	str	x1, [sp, #208]
	b.hi	.LBB23_106
	ldur	w9, [x29, #-136]
	ldur	x11, [x29, #-192]
	lsl	x21, x8, #8
	ldur	x8, [x29, #-176]
	ldur	w10, [x29, #-133]
	add	x1, x23, #4
	str	w9, [x11]
	ldur	x9, [x29, #-160]
	add	x2, x28, #1
	stp	x5, x8, [x29, #-32]
	ldur	x8, [x29, #-184]
	stp	x9, x3, [x29, #-64]
	ldur	x9, [x29, #-168]
	mov	w3, w26
	stp	x30, x0, [x29, #-80]
	add	x0, x18, x8
	sturb	w16, [x29, #-88]
	stur	w10, [x11, #3]
	stp	x4, x9, [x29, #-48]
	stur	x8, [x29, #-16]
	bl	"next_in_block::first_entry"
	ldur	x17, [x29, #-208]
	lsl	x8, x24, #16
	ldr	x3, [sp, #264]
	ldp	x7, x5, [sp, #232]
	mov	x22, x0
	str	x8, [sp, #16]
	dup	v24.2d, x8
	add	x8, x17, x19
	str	x8, [sp]
	ldr	x8, [sp, #160]
	ldur	w16, [x29, #-252]
	ldp	x30, x4, [sp, #248]
	ldr	x2, [sp, #224]
	add	x8, x8, x23
	ldur	x6, [x29, #-248]
	str	x8, [sp, #8]
	add	x8, x21, x20
	add	x9, x8, #1
	ldr	x8, [sp, #192]
	add	x8, x8, x23
	str	x8, [sp, #88]
	ldr	x8, [sp, #152]
	add	x11, x8, x23
	stp	x9, x11, [sp, #48]
.LBB23_71:
	cmp	x22, x28
	b.hi	.LBB23_169
	ldp	x0, x18, [x29, #-224]
	subs	x8, x6, x25
	b.eq	.LBB23_170
	lsl	x12, x22, #1
	ldr	x10, [sp, #88]
	mov	w1, w16
	ldr	x16, [sp, #208]
	mov	x21, xzr
	sub	x9, x9, x22
	add	x10, x10, x12
	add	x20, x11, x12
	sub	x19, x22, x25
	mov	x27, x22
	add	x13, x28, #1
	str	x12, [sp, #64]
.LBB23_74:
	cmp	x9, x8
	sub	x12, x13, x27
	csel	x11, x9, x8, lo
	cmp	x8, x12
	csel	x12, x8, x12, lo
	add	x22, x12, x27
	cmp	x27, x22
	b.hs	.LBB23_80
	mov	x12, x10
	mov	x14, x26
	mov	x13, x27
.LBB23_76:
	ldurh	w15, [x12, #-1]
	cmp	x15, x14
	b.lo	.LBB23_78
	subs	x11, x11, #1
	add	x12, x12, #2
	add	x14, x15, #1
	add	x13, x13, #1
	b.ne	.LBB23_76
	b	.LBB23_79
.LBB23_78:
	mov	x22, x13
.LBB23_79:
	add	x13, x28, #1
.LBB23_80:
	subs	x11, x22, x27
	b.ne	.LBB23_82
	cmp	x27, x28
	add	x27, x27, #1
	add	x21, x21, #1
	sub	x9, x9, #1
	add	x10, x10, #2
	add	x20, x20, #2
	add	x19, x19, #1
	b.ne	.LBB23_74
	b	.LBB23_109
.LBB23_82:
	ldur	x0, [x29, #-200]
	add	x6, x11, x25
	sub	x3, x29, #88
	add	x4, x27, x16
	mov	x1, x18
	mov	x5, x25
	str	x6, [sp, #24]
	str	q24, [sp, #32]
	bl	"read_in_block::draw"
	ldr	q24, [sp, #32]
	ldur	x17, [x29, #-208]
	subs	x8, x0, x25
	ldur	x6, [x29, #-248]
	b.ls	.LBB23_89
	cmp	x8, #8
	b.hs	.LBB23_90
	ldur	x13, [x29, #-240]
.LBB23_85:
	ldr	x14, [sp, #16]
.LBB23_86:
	ldr	x10, [sp, #88]
	add	x9, x25, x19
	add	x8, x13, x25, lsl #2
	sub	x11, x0, x25
	add	x9, x10, x9, lsl #1
.LBB23_87:
	ldurh	w10, [x9, #-1]
	subs	x11, x11, #1
	add	x9, x9, #2
	orr	w12, w10, w14
	str	w12, [x8], #4
	b.ne	.LBB23_87
.LBB23_88:
	add	x26, x10, #1
.LBB23_89:
	ldr	x8, [sp, #24]
	ldp	x2, x7, [sp, #224]
	ldp	x4, x3, [sp, #256]
	mov	x25, x0
	ldp	x5, x30, [sp, #240]
	cmp	x0, x8
	ldp	x9, x11, [sp, #48]
	ldur	w16, [x29, #-252]
	b.hs	.LBB23_71
	b	.LBB23_171
.LBB23_90:
	lsl	x9, x21, #1
	mvn	x10, x25
	add	x11, x17, x23
	ldr	x15, [sp, #64]
	add	x10, x0, x10
	add	x11, x11, x9
	lsl	x12, x10, #1
	add	x11, x11, x15
	add	x13, x11, #4
	add	x14, x13, x12
	cmp	x14, x13
	ldur	x13, [x29, #-240]
	b.lo	.LBB23_85
	add	x11, x11, #5
	add	x12, x11, x12
	cmp	x12, x11
	b.lo	.LBB23_85
	tbnz	x10, #63, .LBB23_85
	ldr	x10, [sp, #8]
	ldur	x11, [x29, #-216]
	add	x10, x10, x15
	add	x11, x11, x9
	sub	x10, x10, x25, lsl #1
	add	x11, x11, x10
	add	x10, x13, x25, lsl #2
	add	x11, x11, x0, lsl #1
	cmp	x10, x11
	b.hs	.LBB23_95
	add	x11, x17, x23
	add	x9, x11, x9
	add	x11, x13, x0, lsl #2
	add	x9, x9, x15
	add	x9, x9, #4
	cmp	x9, x11
	b.lo	.LBB23_85
.LBB23_95:
	cmp	x8, #16
	b.hs	.LBB23_100
	ldr	x14, [sp, #16]
	mov	x9, xzr
.LBB23_97:
	ldr	x15, [sp, #56]
	add	x11, x9, x27
	add	x12, x25, x9
	and	x10, x8, #0xfffffffffffffff8
	add	x12, x13, x12, lsl #2
	add	x11, x15, x11, lsl #1
	add	x25, x25, x10
	sub	x9, x9, x10
.LBB23_98:
	ld2	{ v0.8b, v1.8b }, [x11], #16
	adds	x9, x9, #8
	ushll	v2.8h, v0.8b, #0
	ushll	v0.8h, v1.8b, #0
	ushll2	v1.4s, v2.8h, #0
	ushll	v2.4s, v2.4h, #0
	ushll2	v3.4s, v0.8h, #0
	ushll	v0.4s, v0.4h, #0
	ushll2	v4.2d, v1.4s, #0
	ushll	v1.2d, v1.2s, #0
	ushll2	v5.2d, v2.4s, #0
	ushll2	v6.2d, v3.4s, #8
	ushll	v3.2d, v3.2s, #8
	ushll	v2.2d, v2.2s, #0
	ushll2	v7.2d, v0.4s, #8
	ushll	v16.2d, v0.2s, #8
	orr	v1.16b, v3.16b, v1.16b
	orr	v0.16b, v6.16b, v4.16b
	orr	v2.16b, v16.16b, v2.16b
	orr	v3.16b, v7.16b, v5.16b
	orr	v4.16b, v0.16b, v24.16b
	orr	v1.16b, v1.16b, v24.16b
	orr	v3.16b, v3.16b, v24.16b
	orr	v2.16b, v2.16b, v24.16b
	uzp1	v1.4s, v1.4s, v4.4s
	uzp1	v2.4s, v2.4s, v3.4s
	stp	q2, q1, [x12], #32
	b.ne	.LBB23_98
	cmp	x8, x10
	b.ne	.LBB23_86
	b	.LBB23_103
.LBB23_100:
	and	x9, x8, #0xfffffffffffffff0
	and	x11, x8, #0xfffffffffffffff0
.LBB23_101:
	ld2	{ v0.16b, v1.16b }, [x20], #32
	subs	x11, x11, #16
	ushll2	v2.8h, v0.16b, #0
	ushll	v3.8h, v0.8b, #0
	ushll	v4.8h, v1.8b, #0
	ushll2	v0.8h, v1.16b, #0
	ushll2	v1.4s, v2.8h, #0
	ushll	v2.4s, v2.4h, #0
	ushll2	v5.4s, v3.8h, #0
	ushll	v3.4s, v3.4h, #0
	ushll	v6.4s, v4.4h, #0
	ushll2	v4.4s, v4.8h, #0
	ushll	v7.4s, v0.4h, #0
	ushll2	v0.4s, v0.8h, #0
	ushll2	v16.2d, v1.4s, #0
	ushll	v1.2d, v1.2s, #0
	ushll2	v17.2d, v2.4s, #0
	ushll	v2.2d, v2.2s, #0
	ushll2	v18.2d, v5.4s, #0
	ushll	v5.2d, v5.2s, #0
	ushll2	v19.2d, v3.4s, #0
	ushll2	v20.2d, v0.4s, #8
	ushll	v0.2d, v0.2s, #8
	ushll	v3.2d, v3.2s, #0
	ushll2	v21.2d, v7.4s, #8
	ushll	v7.2d, v7.2s, #8
	ushll2	v22.2d, v4.4s, #8
	ushll	v4.2d, v4.2s, #8
	ushll	v23.2d, v6.2s, #8
	ushll2	v6.2d, v6.4s, #8
	orr	v1.16b, v0.16b, v1.16b
	orr	v0.16b, v20.16b, v16.16b
	orr	v2.16b, v7.16b, v2.16b
	orr	v7.16b, v21.16b, v17.16b
	orr	v3.16b, v23.16b, v3.16b
	orr	v4.16b, v4.16b, v5.16b
	orr	v5.16b, v22.16b, v18.16b
	orr	v6.16b, v6.16b, v19.16b
	orr	v16.16b, v0.16b, v24.16b
	orr	v1.16b, v1.16b, v24.16b
	orr	v7.16b, v7.16b, v24.16b
	orr	v2.16b, v2.16b, v24.16b
	orr	v5.16b, v5.16b, v24.16b
	orr	v4.16b, v4.16b, v24.16b
	orr	v3.16b, v3.16b, v24.16b
	orr	v6.16b, v6.16b, v24.16b
	uzp1	v1.4s, v1.4s, v16.4s
	uzp1	v2.4s, v2.4s, v7.4s
	uzp1	v4.4s, v4.4s, v5.4s
	uzp1	v3.4s, v3.4s, v6.4s
	stp	q2, q1, [x10, #32]
	stp	q3, q4, [x10], #64
	b.ne	.LBB23_101
	cmp	x8, x9
	b.ne	.LBB23_104
.LBB23_103:
	mov	x10, v0.d[1]
	b	.LBB23_88
.LBB23_104:
	ldr	x14, [sp, #16]
	tbnz	w8, #3, .LBB23_97
	add	x25, x25, x9
	b	.LBB23_86
.LBB23_106:
	ldur	w8, [x29, #-136]
	ldur	x10, [x29, #-192]
	ldur	w9, [x29, #-133]
	sturb	w16, [x29, #-88]
	str	w8, [x10]
	ldur	x8, [x29, #-160]
	stur	w9, [x10, #3]
	sub	x9, x6, x25
	stp	x8, x3, [x29, #-64]
	ldur	x8, [x29, #-168]
	cmp	x9, #64
	stp	x30, x0, [x29, #-80]
	stp	x4, x8, [x29, #-48]
	ldur	x8, [x29, #-176]
	stp	x5, x8, [x29, #-32]
	ldr	x8, [sp, #168]
	add	x21, x19, x8
	ldur	x8, [x29, #-184]
	stur	x8, [x29, #-16]
	b.lo	.LBB23_137
	lsr	x8, x26, x0
	ldr	x10, [sp, #200]
	cmp	x0, #0
	lsl	x10, x8, x10
	csel	x10, xzr, x10, eq
	cbz	x0, .LBB23_111
	add	x11, x17, x19
	ldrh	w8, [x11, x8, lsl #1]
	rev16	w8, w8
	lsr	x27, x26, #6
	subs	x11, x27, x10
	b.ne	.LBB23_112
	b	.LBB23_119
.LBB23_109:
	mov	w26, #65536
	mov	x12, xzr
	mov	w16, w1
.LBB23_110:
	mov	x10, x26
	tbz	w12, #0, .LBB23_13
	b	.LBB23_174
.LBB23_111:
	mov	x8, xzr
	lsr	x27, x26, #6
	subs	x11, x27, x10
	b.eq	.LBB23_119
.LBB23_112:
	cmp	x11, #4
	b.hs	.LBB23_114
	mov	x11, xzr
	mov	x12, xzr
	b	.LBB23_117
.LBB23_114:
	movi	v0.2d, #0000000000000000
	movi	v1.2d, #0000000000000000
	add	x13, x23, x10, lsl #3
	ldr	x14, [sp, #112]
	and	x12, x11, #0xfffffffffffffffc
	add	x13, x14, x13
	and	x14, x11, #0xfffffffffffffffc
.LBB23_115:
	ldp	q2, q3, [x13, #-16]
	subs	x14, x14, #4
	add	x13, x13, #32
	cnt	v2.16b, v2.16b
	cnt	v3.16b, v3.16b
	uaddlp	v2.8h, v2.16b
	uaddlp	v3.8h, v3.16b
	uaddlp	v2.4s, v2.8h
	uaddlp	v3.4s, v3.8h
	uadalp	v0.2d, v2.4s
	uadalp	v1.2d, v3.4s
	b.ne	.LBB23_115
	add	v0.2d, v1.2d, v0.2d
	cmp	x11, x12
	addp	d0, v0.2d
	fmov	x11, d0
	b.eq	.LBB23_119
.LBB23_117:
	add	x10, x10, x12
	ldr	x13, [sp, #136]
	add	x12, x23, x10, lsl #3
	sub	x10, x10, x27
	add	x12, x13, x12
.LBB23_118:
	ldr	d0, [x12], #8
	adds	x10, x10, #1
	cnt	v0.8b, v0.8b
	addv	b0, v0.8b
	fmov	x13, d0
	add	x11, x13, x11
	b.lo	.LBB23_118
.LBB23_119:
	add	x10, x17, x21
	mov	x12, #-1
	add	x8, x11, x8
	ldr	x10, [x10, x27, lsl #3]
	lsl	x20, x12, x26
	bic	x10, x10, x20
	fmov	d0, x10
	cnt	v0.8b, v0.8b
	addv	b0, v0.8b
	fmov	x10, d0
	add	x8, x8, x10
	cmp	x28, x8
	b.lo	.LBB23_137
	sub	x10, x15, x8
	add	x12, x17, x19
	cmp	x10, x9
	csel	x10, x10, x9, lo
	ldr	x9, [sp, #168]
	add	x11, x12, x9
	cbz	x0, .LBB23_123
	ldr	x9, [x11, x27, lsl #3]
	and	x13, x26, #0x3f
	lsr	x9, x9, x13
	fmov	d0, x9
	cnt	v0.8b, v0.8b
	addv	b0, v0.8b
	fmov	x13, d0
	cmp	x10, x13
	b.hs	.LBB23_162
	mov	x9, xzr
	b	.LBB23_127
.LBB23_123:
	mov	x9, xzr
.LBB23_124:
	lsr	x12, x26, #3
	sub	x13, x10, x9
	and	x12, x12, #0x1ff8
	ldr	x12, [x11, x12]
	lsr	x12, x12, x26
	fmov	d0, x12
	cnt	v0.8b, v0.8b
	addv	b0, v0.8b
	fmov	x12, d0
	cmp	x13, x12
	b.lo	.LBB23_127
	and	x13, x26, #0xffc0
	mov	w14, #65472
	add	x9, x12, x9
	cmp	x13, x14
	add	x26, x13, #64
	b.ne	.LBB23_124
.LBB23_126:
	mov	w26, #65536
.LBB23_127:
	add	x22, x9, x25
	ldur	x0, [x29, #-200]
	sub	x3, x29, #88
	add	x4, x8, x1
	mov	x1, x18
	mov	x5, x25
	mov	x6, x22
	bl	"read_in_block::draw"
	ldp	x5, x30, [sp, #240]
	cmp	x25, x0
	ldp	x4, x3, [sp, #256]
	ldur	w16, [x29, #-252]
	ldp	x6, x12, [x29, #-248]
	ldr	x7, [sp, #232]
	b.hs	.LBB23_133
	ldr	x8, [sp, #80]
	add	x8, x8, x19
	ldr	x9, [x8, x27, lsl #3]
	lsl	x8, x24, #16
	and	x10, x9, x20
	ldr	x9, [sp, #72]
	add	x9, x9, x23
	b	.LBB23_130
.LBB23_129:
	rbit	x11, x10
	clz	x11, x11
	orr	w11, w11, w8
	add	w11, w11, w27, lsl #6
	str	w11, [x12, x25, lsl #2]
	add	x25, x25, #1
	sub	x11, x10, #1
	cmp	x25, x0
	and	x10, x11, x10
	b.eq	.LBB23_133
.LBB23_130:
	cbnz	x10, .LBB23_129
	add	x11, x9, x27, lsl #3
.LBB23_132:
	ldr	x10, [x11], #8
	add	x27, x27, #1
	cbz	x10, .LBB23_132
	b	.LBB23_129
.LBB23_133:
	ldur	x17, [x29, #-208]
	cmp	x0, x22
	b.lo	.LBB23_188
	cmp	x26, #16, lsl #12
	b.ne	.LBB23_136
	mov	x25, x0
	ldp	x0, x18, [x29, #-224]
	ldr	x2, [sp, #224]
	b	.LBB23_12
.LBB23_136:
	mov	x25, x0
	ldp	x0, x18, [x29, #-224]
	ldr	x2, [sp, #224]
	ldr	x1, [sp, #208]
	add	x15, x28, #1
.LBB23_137:
	lsr	x8, x26, x0
	ldr	x9, [sp, #200]
	cmp	x0, #0
	lsl	x9, x8, x9
	csel	x10, xzr, x9, eq
	cbz	x0, .LBB23_139
	add	x9, x17, x19
	ldrh	w8, [x9, x8, lsl #1]
	rev16	w8, w8
	lsr	x9, x26, #6
	subs	x11, x9, x10
	b.ne	.LBB23_140
	b	.LBB23_147
.LBB23_139:
	mov	x8, xzr
	lsr	x9, x26, #6
	subs	x11, x9, x10
	b.eq	.LBB23_147
.LBB23_140:
	cmp	x11, #4
	b.hs	.LBB23_142
	mov	x11, xzr
	mov	x12, xzr
	b	.LBB23_145
.LBB23_142:
	movi	v0.2d, #0000000000000000
	movi	v1.2d, #0000000000000000
	add	x13, x23, x10, lsl #3
	ldr	x14, [sp, #112]
	and	x12, x11, #0xfffffffffffffffc
	add	x13, x14, x13
	and	x14, x11, #0xfffffffffffffffc
.LBB23_143:
	ldp	q2, q3, [x13, #-16]
	subs	x14, x14, #4
	add	x13, x13, #32
	cnt	v2.16b, v2.16b
	cnt	v3.16b, v3.16b
	uaddlp	v2.8h, v2.16b
	uaddlp	v3.8h, v3.16b
	uaddlp	v2.4s, v2.8h
	uaddlp	v3.4s, v3.8h
	uadalp	v0.2d, v2.4s
	uadalp	v1.2d, v3.4s
	b.ne	.LBB23_143
	add	v0.2d, v1.2d, v0.2d
	cmp	x11, x12
	addp	d0, v0.2d
	fmov	x11, d0
	b.eq	.LBB23_147
.LBB23_145:
	add	x10, x10, x12
	ldr	x13, [sp, #136]
	add	x12, x23, x10, lsl #3
	sub	x10, x10, x9
	add	x12, x13, x12
.LBB23_146:
	ldr	d0, [x12], #8
	adds	x10, x10, #1
	cnt	v0.8b, v0.8b
	addv	b0, v0.8b
	fmov	x13, d0
	add	x11, x13, x11
	b.lo	.LBB23_146
.LBB23_147:
	add	x13, x17, x21
	mov	x10, #-1
	add	x8, x11, x8
	ldr	x9, [x13, x9, lsl #3]
	lsl	x10, x10, x26
	lsl	x22, x24, #16
	bic	x9, x9, x10
	fmov	d0, x9
	cnt	v0.8b, v0.8b
	addv	b0, v0.8b
	fmov	x9, d0
	add	x23, x8, x9
	add	x8, x17, x19
	str	x8, [sp, #88]
	b	.LBB23_149
.LBB23_148:
	and	x8, x26, #0xffc0
	mov	w9, #65472
	mov	x12, xzr
	cmp	x8, x9
	add	x26, x8, #64
	mov	w10, #65536
	b.eq	.LBB23_13
.LBB23_149:
	lsr	x21, x26, #6
	ldur	x10, [x29, #-192]
	ldur	w9, [x29, #-133]
	mov	x27, x25
	sturb	w16, [x29, #-88]
	ldr	x8, [x13, x21, lsl #3]
	stp	x30, x0, [x29, #-80]
	lsr	x19, x8, x26
	ldur	w8, [x29, #-136]
	fmov	d0, x19
	str	w8, [x10]
	ldur	x8, [x29, #-160]
	stur	w9, [x10, #3]
	sub	x9, x6, x25
	stp	x8, x3, [x29, #-64]
	ldp	x10, x8, [x29, #-176]
	cnt	v0.8b, v0.8b
	stp	x4, x8, [x29, #-48]
	stp	x5, x10, [x29, #-32]
	addv	b0, v0.8b
	fmov	x8, d0
	cmp	x9, x8
	csel	x20, x9, x8, lo
	ldur	x8, [x29, #-184]
	cmp	x28, x23
	stur	x8, [x29, #-16]
	b.hs	.LBB23_151
	mov	x10, x26
	mov	x25, x27
	cbz	x20, .LBB23_155
	b	.LBB23_173
.LBB23_151:
	sub	x8, x15, x23
	ldur	x0, [x29, #-200]
	sub	x3, x29, #88
	cmp	x8, x20
	add	x4, x23, x1
	mov	x1, x18
	csel	x8, x8, x20, lo
	mov	x5, x27
	mov	x25, x13
	add	x6, x8, x27
	bl	"read_in_block::draw"
	ldur	x9, [x29, #-240]
	mov	x13, x0
	subs	x8, x0, x27
	mov	x10, x26
	b.ls	.LBB23_154
	add	x9, x9, x27, lsl #2
	mov	x10, x26
.LBB23_153:
	rbit	x11, x19
	subs	x8, x8, #1
	clz	x11, x11
	lsr	x12, x19, x11
	add	x10, x11, x10
	add	w11, w10, w22
	add	x10, x10, #1
	lsr	x19, x12, #1
	str	w11, [x9], #4
	b.ne	.LBB23_153
.LBB23_154:
	ldp	x2, x7, [sp, #224]
	add	x8, x20, x27
	ldp	x0, x18, [x29, #-224]
	mov	x9, x13
	ldp	x4, x3, [sp, #256]
	cmp	x13, x8
	ldp	x5, x30, [sp, #240]
	add	x15, x28, #1
	ldur	x6, [x29, #-248]
	ldur	w16, [x29, #-252]
	mov	x13, x25
	ldur	x17, [x29, #-208]
	ldr	x1, [sp, #208]
	mov	x25, x9
	b.lo	.LBB23_174
.LBB23_155:
	cmp	x25, x6
	b.eq	.LBB23_160
	add	x8, x21, #1
	sub	x9, x25, x27
	cmp	x8, #1024
	add	x23, x9, x23
	b.eq	.LBB23_148
	cbz	x0, .LBB23_148
	lsl	x9, x8, #6
	ldr	x10, [sp, #200]
	lsr	x9, x9, x0
	lsl	x10, x9, x10
	cmp	x10, x8
	b.ne	.LBB23_148
	ldr	x8, [sp, #88]
	ldrh	w8, [x8, x9, lsl #1]
	rev16	w23, w8
	b	.LBB23_148
.LBB23_160:
	cmp	x10, #16, lsl #12
	b.eq	.LBB23_178
	lsr	x8, x10, #3
	mov	x25, x6
	and	x8, x8, #0x1ffffffffffffff8
	ldr	x8, [x13, x8]
	lsr	x8, x8, x10
	cmp	x8, #0
	mov	w8, #256
	csel	x12, xzr, x8, eq
	tbz	w12, #0, .LBB23_13
	b	.LBB23_174
.LBB23_162:
	mov	x9, xzr
	mov	x14, x27
	b	.LBB23_165
.LBB23_163:
	mov	w13, #65472
	cmp	x14, x13
	b.eq	.LBB23_126
.LBB23_164:
	lsr	x13, x26, #3
	sub	x15, x10, x9
	lsr	x14, x26, #6
	ldr	d0, [x11, x13]
	cnt	v0.8b, v0.8b
	addv	b0, v0.8b
	fmov	x13, d0
	cmp	x15, x13
	b.lo	.LBB23_127
.LBB23_165:
	add	x15, x14, #1
	and	x14, x26, #0xffc0
	add	x9, x9, x13
	cmp	x15, #1024
	add	x26, x14, #64
	b.eq	.LBB23_163
	lsl	x13, x15, #6
	ldr	x16, [sp, #200]
	lsr	x13, x13, x0
	lsl	x16, x13, x16
	cmp	x16, x15
	b.ne	.LBB23_163
	mov	w15, #65472
	cmp	x14, x15
	b.eq	.LBB23_127
	ldrh	w13, [x12, x13, lsl #1]
	add	x14, x9, x8
	rev16	w13, w13
	cmp	x13, x14
	b.eq	.LBB23_164
	b	.LBB23_127
.LBB23_169:
	mov	x12, xzr
	mov	w26, #65536
	b	.LBB23_172
.LBB23_170:
	ldr	x8, [sp]
	mov	x25, x6
	mov	x10, x26
	ldrh	w8, [x8, x22, lsl #1]
	cmp	x26, x8
	mov	w8, #256
	csel	x12, xzr, x8, hi
	tbz	w12, #0, .LBB23_13
	b	.LBB23_174
.LBB23_171:
	mov	w12, #1
	mov	x25, x0
.LBB23_172:
	ldp	x0, x18, [x29, #-224]
	b	.LBB23_110
.LBB23_173:
	mov	x25, x27
.LBB23_174:
	ldur	x11, [x29, #-232]
	mov	x10, xzr
	mov	w8, #13
	mov	x6, x25
.LBB23_175:
	cmp	x6, #0
	cset	w9, eq
	csel	w8, w8, wzr, eq
	csel	x6, x10, x6, eq
.LBB23_176:
	mov	w8, w8
	str	x6, [x11, #16]
	stp	x9, x8, [x11]
	add	sp, sp, #528
	ldp	x20, x19, [sp, #80]
	ldp	x22, x21, [sp, #64]
	ldp	x24, x23, [sp, #48]
	ldp	x26, x25, [sp, #32]
	ldp	x28, x27, [sp, #16]
	ldp	x29, x30, [sp], #96
	ret
.LBB23_177:
	mov	w8, #1
	b	.LBB23_180
.LBB23_178:
	mov	x12, xzr
.LBB23_179:
	lsr	x8, x12, #8
	mov	x26, x10
.LBB23_180:
	cbz	x6, .LBB23_183
	cbz	w8, .LBB23_183
	ldur	x11, [x29, #-232]
	mov	x9, xzr
	mov	w8, wzr
	b	.LBB23_176
.LBB23_183:
	ldur	w8, [x29, #-136]
	movi	v0.2d, #0000000000000000
	ldur	w9, [x29, #-133]
	sturb	w16, [x29, #-88]
	stur	w8, [x29, #-87]
	ldur	x8, [x29, #-160]
	stur	w9, [x29, #-84]
	stp	x8, x3, [x29, #-64]
	ldur	x8, [x29, #-168]
	stp	x30, x0, [x29, #-80]
	stp	x4, x8, [x29, #-48]
	ldur	x8, [x29, #-176]
	add	x4, x26, x24, lsl #16
	stp	q0, q0, [x29, #-128]
	stp	x5, x8, [x29, #-32]
	ldur	x8, [x29, #-184]
	stur	xzr, [x29, #-96]
	stur	x8, [x29, #-16]
	mov	w8, #2147352576
	cmp	x4, x8
	b.ne	.LBB23_185
	ldur	x11, [x29, #-232]
	mov	w8, #1
	mov	x9, xzr
	b	.LBB23_176
.LBB23_185:
	sub	x0, x29, #128
	sub	x3, x29, #88
	mov	x1, x18
	bl	"next::steps_from"
	ldurb	w9, [x29, #-128]
	ldurb	w8, [x29, #-120]
	cbz	w9, .LBB23_187
	ldur	x10, [x29, #-112]
	ldur	x11, [x29, #-232]
	ldur	x6, [x29, #-248]
	b	.LBB23_175
.LBB23_187:
	cmp	w8, #1
	ldur	x11, [x29, #-232]
	ldur	x6, [x29, #-248]
	cset	w8, ne
	mov	x9, xzr
	b	.LBB23_176
.LBB23_188:
	mov	x25, x0
	b	.LBB23_174
.Lfunc_end23:
	.size	"read_from::read_up_to", .Lfunc_end23-"read_from::read_up_to"

	.section	".text.read_in_block::draw","ax",@progbits
	.p2align	2
	.type	"read_in_block::draw",@function
"read_in_block::draw":
	str	x23, [sp, #-48]!
	ldr	x12, [x3, #24]
	ldr	x13, [x3, #72]
	ldrb	w11, [x3]
	ldr	x16, [x3, #8]
	ldr	x10, [x3, #40]
	ldr	x9, [x3, #56]
	add	x14, x13, x12
	cmp	w11, #2
	stp	x22, x21, [sp, #16]
	add	x8, x1, x14
	sub	x14, x2, x14
	stp	x20, x19, [sp, #32]
	b.hs	.LBB24_23
	ldr	x12, [x3, #48]
	mov	x13, #-9223372036854775808
	mvn	x14, x12
	bfxil	x13, x12, #1, #63
	tst	x12, #0x1
	lsr	x14, x14, #1
	csel	x12, x13, x14, eq
	subs	x13, x6, x5
	b.ls	.LBB24_95
	cbz	x10, .LBB24_60
	mul	x13, x10, x4
	mov	w14, #64
	mvn	x15, x12
	sub	x14, x14, x10
	sub	x16, x16, x4
	b	.LBB24_6
.LBB24_4:
	mul	x17, x17, x9
	cmp	x17, x15
	b.hi	.LBB24_96
.LBB24_5:
	add	x17, x17, x12
	sub	x16, x16, #1
	add	x13, x13, x10
	eor	x17, x17, #0x8000000000000000
	str	x17, [x0, x5, lsl #3]
	add	x5, x5, #1
	cmp	x6, x5
	b.eq	.LBB24_95
.LBB24_6:
	lsr	x2, x13, #3
	and	x17, x13, #0x7
	cmp	x16, #64
	add	x18, x17, x10
	b.lo	.LBB24_10
	cmp	x18, #64
	b.hi	.LBB24_10
	ldr	x1, [x8, x2]
	cbz	w11, .LBB24_16
	neg	x17, x18
	lsl	x17, x1, x17
	lsr	x17, x17, x14
	cmp	x9, #2
	b.hs	.LBB24_17
	b	.LBB24_4
.LBB24_10:
	add	x1, x18, #7
	add	x2, x8, x2
	cmp	x10, #8
	lsr	x1, x1, #3
	add	x3, x2, x1
	b.hi	.LBB24_13
	ldrb	w2, [x2]
	ldurb	w3, [x3, #-1]
	mov	w4, #1
	cbz	w11, .LBB24_15
.LBB24_12:
	sub	x17, x1, x4
	neg	x18, x18
	lsl	x17, x17, #3
	lsl	x17, x3, x17
	orr	x17, x17, x2
	lsl	x17, x17, x18
	lsr	x17, x17, x14
	cmp	x9, #2
	b.hs	.LBB24_17
	b	.LBB24_4
.LBB24_13:
	cmp	x10, #24
	b.hi	.LBB24_20
	ldrh	w2, [x2]
	ldurh	w3, [x3, #-2]
	mov	w4, #2
	cbnz	w11, .LBB24_12
.LBB24_15:
	sub	w18, w1, w4
	rev	x1, x2
	rev	x2, x3
	lsl	w18, w18, #3
	sub	w18, w18, w17
	lsl	x17, x1, x17
	lsr	x18, x2, x18
	orr	x17, x18, x17
	lsr	x17, x17, x14
	cmp	x9, #2
	b.hs	.LBB24_17
	b	.LBB24_4
.LBB24_16:
	rev	x18, x1
	lsl	x17, x18, x17
	lsr	x17, x17, x14
	cmp	x9, #2
	b.lo	.LBB24_4
.LBB24_17:
	orr	x18, x17, x9
	lsr	x18, x18, #32
	cbz	x18, .LBB24_4
	udiv	x18, x15, x9
	cmp	x17, x18
	b.hi	.LBB24_96
	mul	x17, x17, x9
	b	.LBB24_5
.LBB24_20:
	cmp	x10, #56
	b.hi	.LBB24_22
	ldr	w2, [x2]
	ldur	w3, [x3, #-4]
	mov	w4, #4
	cbnz	w11, .LBB24_12
	b	.LBB24_15
.LBB24_22:
	ldr	x2, [x2]
	ldur	x3, [x3, #-8]
	mov	w4, #8
	cbnz	w11, .LBB24_12
	b	.LBB24_15
.LBB24_23:
	b.ne	.LBB24_26
	and	x10, x16, #0x3fff
	subs	x11, x6, x5
	b.ne	.LBB24_34
	mov	w11, #16383
	add	x10, x10, x11
	mov	w11, #25
	lsr	x10, x10, #14
	add	x10, x10, x16, lsr #14
	mul	x12, x10, x11
	mov	x11, x5
	sub	x10, x14, x12
	b	.LBB24_39
.LBB24_26:
	subs	x11, x6, x5
	b.ls	.LBB24_95
	cbz	x10, .LBB24_66
	lsr	x11, x4, #3
	mul	w14, w10, w4
	cmp	x10, #8
	sub	x15, x16, x4
	mul	x12, x10, x11
	and	x11, x4, #0x7
	and	x14, x14, #0x7
	mul	x13, x10, x11
	add	x11, x8, x9, lsl #3
	add	x12, x12, x13, lsr #3
	mov	w13, #64
	sub	x13, x13, x10
	b.hi	.LBB24_79
.LBB24_29:
	cmp	x15, #63
	add	x16, x14, x10
	b.ls	.LBB24_31
	ldr	x17, [x11, x12]
	rev	x17, x17
	lsl	x14, x17, x14
	b	.LBB24_32
.LBB24_31:
	add	x17, x16, #7
	add	x18, x11, x12
	add	x1, x18, x17, lsr #3
	ldrb	w18, [x18]
	and	w17, w17, #0x38
	sub	w17, w17, w14
	ldurb	w1, [x1, #-1]
	lsl	x18, x18, #56
	add	w17, w17, #56
	lsl	x1, x1, #56
	lsl	x14, x18, x14
	lsr	x17, x1, x17
	orr	x14, x17, x14
.LBB24_32:
	lsr	x14, x14, x13
	cmp	x9, x14
	b.ls	.LBB24_96
	ldr	x14, [x8, x14, lsl #3]
	add	x12, x12, x16, lsr #3
	sub	x15, x15, #1
	str	x14, [x0, x5, lsl #3]
	add	x5, x5, #1
	and	x14, x16, #0x7
	cmp	x6, x5
	b.ne	.LBB24_29
	b	.LBB24_95
.LBB24_34:
	mov	w12, #16383
	lsr	x13, x4, #14
	mov	w15, #16384
	add	x10, x10, x12
	mov	w12, #25
	lsr	x10, x10, #14
	madd	x17, x13, x12, x8
	add	x10, x10, x16, lsr #14
	mul	x12, x10, x12
	and	x10, x4, #0xffffffffffffc000
	ldrb	w13, [x17, #24]
	sub	x10, x16, x10
	cmp	x10, #4, lsl #12
	csel	x16, x10, x15, lo
	cmp	w13, #64
	sub	x10, x14, x12
	b.hi	.LBB24_38
	ldr	x15, [x17]
	cbz	w13, .LBB24_97
	ldr	x17, [x17, #16]
	subs	x14, x10, x17
	b.lo	.LBB24_38
	mov	x18, #7
	madd	x18, x16, x13, x18
	cmp	x14, x18, lsr #3
	b.hs	.LBB24_98
.LBB24_38:
	mov	x11, x5
.LBB24_39:
	cmp	x11, x6
	b.hs	.LBB24_95
	add	x12, x8, x12
	sub	x13, x4, x5
	b	.LBB24_43
.LBB24_41:
	mul	x15, x15, x9
	cmp	x15, x16
	b.hi	.LBB24_59
.LBB24_42:
	eor	x14, x14, #0x8000000000000000
	add	x14, x15, x14
	eor	x14, x14, #0x8000000000000000
	str	x14, [x0, x11, lsl #3]
	add	x11, x11, #1
	cmp	x6, x11
	b.eq	.LBB24_95
.LBB24_43:
	add	x16, x13, x11
	mov	w15, #25
	lsr	x14, x16, #14
	madd	x17, x14, x15, x8
	ldrb	w15, [x17, #24]
	cmp	w15, #64
	b.hi	.LBB24_59
	ldr	x14, [x17]
	cbz	w15, .LBB24_49
	ldr	x1, [x17, #16]
	subs	x17, x10, x1
	b.lo	.LBB24_59
	and	x16, x16, #0x3fff
	umaddl	x18, w15, w16, x15
	add	x18, x18, #7
	cmp	x17, x18, lsr #3
	b.lo	.LBB24_59
	umaddl	x17, w16, w15, x15
	add	x1, x12, x1
	cmp	w15, #8
	umull	x16, w16, w15
	add	x18, x17, #7
	lsr	x18, x18, #3
	lsr	x17, x16, #3
	add	x2, x1, x18
	b.hi	.LBB24_50
	ldrb	w1, [x1, x17]
	ldurb	w2, [x2, #-1]
	mov	x3, #-1
	b	.LBB24_55
.LBB24_49:
	mov	x15, xzr
	cmp	x9, #2
	eor	x16, x14, #0x7fffffffffffffff
	b.hs	.LBB24_56
	b	.LBB24_41
.LBB24_50:
	cmp	w15, #24
	b.hi	.LBB24_52
	ldrh	w1, [x1, x17]
	ldurh	w2, [x2, #-2]
	mov	x3, #-2
	b	.LBB24_55
.LBB24_52:
	cmp	w15, #56
	b.hi	.LBB24_54
	ldr	w1, [x1, x17]
	ldur	w2, [x2, #-4]
	mov	x3, #-4
	b	.LBB24_55
.LBB24_54:
	ldr	x1, [x1, x17]
	ldur	x2, [x2, #-8]
	mov	x3, #-8
.LBB24_55:
	sub	x17, x18, x17
	and	x16, x16, #0x7
	rev	x18, x1
	add	w17, w17, w3
	rev	x1, x2
	neg	x15, x15
	lsl	w17, w17, #3
	sub	w17, w17, w16
	lsl	x16, x18, x16
	lsr	x17, x1, x17
	orr	x16, x17, x16
	lsr	x15, x16, x15
	cmp	x9, #2
	eor	x16, x14, #0x7fffffffffffffff
	b.lo	.LBB24_41
.LBB24_56:
	orr	x17, x15, x9
	lsr	x17, x17, #32
	cbz	x17, .LBB24_41
	udiv	x16, x16, x9
	cmp	x15, x16
	b.hi	.LBB24_59
	mul	x15, x15, x9
	b	.LBB24_42
.LBB24_59:
	mov	x6, x11
	ldp	x20, x19, [sp, #32]
	mov	x0, x6
	ldp	x22, x21, [sp, #16]
	ldr	x23, [sp], #48
	ret
.LBB24_60:
	lsr	x9, x9, #32
	eor	x8, x12, #0x8000000000000000
	cmp	x13, #4
	cbnz	x9, .LBB24_74
	b.lo	.LBB24_65
	dup	v0.2d, x8
	add	x10, x0, x5, lsl #3
	and	x9, x13, #0xfffffffffffffffc
	add	x5, x5, x9
	and	x11, x13, #0xfffffffffffffffc
	add	x10, x10, #16
.LBB24_63:
	subs	x11, x11, #4
	stp	q0, q0, [x10, #-16]
	add	x10, x10, #32
	b.ne	.LBB24_63
	cmp	x13, x9
	b.eq	.LBB24_95
.LBB24_65:
	str	x8, [x0, x5, lsl #3]
	add	x5, x5, #1
	cmp	x6, x5
	b.ne	.LBB24_65
	b	.LBB24_95
.LBB24_66:
	cbz	x9, .LBB24_96
	cmp	x11, #10
	b.lo	.LBB24_73
	add	x9, x1, x12
	add	x10, x0, x5, lsl #3
	add	x9, x9, x13
	add	x9, x9, #8
	cmp	x10, x9
	b.hs	.LBB24_70
	add	x9, x0, x6, lsl #3
	cmp	x8, x9
	b.lo	.LBB24_73
.LBB24_70:
	ld1r	{ v0.2d }, [x8]
	and	x9, x11, #0xfffffffffffffffc
	add	x10, x10, #16
	add	x5, x5, x9
	and	x12, x11, #0xfffffffffffffffc
.LBB24_71:
	subs	x12, x12, #4
	stp	q0, q0, [x10, #-16]
	add	x10, x10, #32
	b.ne	.LBB24_71
	cmp	x11, x9
	b.eq	.LBB24_95
.LBB24_73:
	ldr	x9, [x8]
	str	x9, [x0, x5, lsl #3]
	add	x5, x5, #1
	cmp	x6, x5
	b.ne	.LBB24_73
	b	.LBB24_95
.LBB24_74:
	b.lo	.LBB24_78
	dup	v0.2d, x8
	add	x10, x0, x5, lsl #3
	and	x9, x13, #0xfffffffffffffffc
	add	x5, x5, x9
	and	x11, x13, #0xfffffffffffffffc
	add	x10, x10, #16
.LBB24_76:
	subs	x11, x11, #4
	stp	q0, q0, [x10, #-16]
	add	x10, x10, #32
	b.ne	.LBB24_76
	cmp	x13, x9
	b.eq	.LBB24_95
.LBB24_78:
	str	x8, [x0, x5, lsl #3]
	add	x5, x5, #1
	cmp	x6, x5
	b.ne	.LBB24_78
	b	.LBB24_95
.LBB24_79:
	cmp	x10, #25
	b.hs	.LBB24_86
.LBB24_80:
	add	x16, x14, x10
	cmp	x16, #64
	b.hi	.LBB24_83
	cmp	x15, #63
	b.ls	.LBB24_83
	ldr	x17, [x11, x12]
	rev	x17, x17
	lsl	x14, x17, x14
	b	.LBB24_84
.LBB24_83:
	add	x17, x16, #7
	add	x18, x11, x12
	add	x1, x18, x17, lsr #3
	ldrh	w18, [x18]
	and	w17, w17, #0x38
	sub	w17, w17, w14
	ldurh	w1, [x1, #-2]
	rev	x18, x18
	add	w17, w17, #48
	lsl	x14, x18, x14
	rev	x1, x1
	lsr	x17, x1, x17
	orr	x14, x17, x14
.LBB24_84:
	lsr	x14, x14, x13
	cmp	x9, x14
	b.ls	.LBB24_96
	ldr	x14, [x8, x14, lsl #3]
	add	x12, x12, x16, lsr #3
	sub	x15, x15, #1
	str	x14, [x0, x5, lsl #3]
	add	x5, x5, #1
	and	x14, x16, #0x7
	cmp	x6, x5
	b.ne	.LBB24_80
	b	.LBB24_95
.LBB24_86:
	add	x16, x14, x10
	cmp	x16, #64
	b.hi	.LBB24_89
	cmp	x15, #64
	b.lo	.LBB24_89
	ldr	x17, [x11, x12]
	rev	x17, x17
	lsl	x14, x17, x14
	b	.LBB24_93
.LBB24_89:
	add	x17, x16, #7
	add	x18, x11, x12
	cmp	x10, #56
	lsr	x17, x17, #3
	add	x1, x18, x17
	b.hi	.LBB24_91
	ldr	w18, [x18]
	ldur	w1, [x1, #-4]
	mov	x2, #-4
	b	.LBB24_92
.LBB24_91:
	ldr	x18, [x18]
	ldur	x1, [x1, #-8]
	mov	x2, #-8
.LBB24_92:
	add	w17, w2, w17
	rev	x18, x18
	rev	x1, x1
	lsl	w17, w17, #3
	sub	w17, w17, w14
	lsl	x14, x18, x14
	lsr	x17, x1, x17
	orr	x14, x17, x14
.LBB24_93:
	lsr	x14, x14, x13
	cmp	x9, x14
	b.ls	.LBB24_96
	ldr	x14, [x8, x14, lsl #3]
	add	x12, x12, x16, lsr #3
	sub	x15, x15, #1
	str	x14, [x0, x5, lsl #3]
	add	x5, x5, #1
	and	x14, x16, #0x7
	cmp	x6, x5
	b.ne	.LBB24_86
.LBB24_95:
	ldp	x20, x19, [sp, #32]
	mov	x0, x6
	ldp	x22, x21, [sp, #16]
	ldr	x23, [sp], #48
	ret
.LBB24_96:
	mov	x6, x5
	ldp	x20, x19, [sp, #32]
	mov	x0, x6
	ldp	x22, x21, [sp, #16]
	ldr	x23, [sp], #48
	ret
.LBB24_97:
	mov	x17, xzr
.LBB24_98:
	lsl	x1, x15, #1
	and	x18, x4, #0x3fff
	mov	x2, #-9223372036854775808
	sub	x14, x16, x18
	eor	x16, x1, x15, asr #63
	eon	x1, x1, x15, asr #63
	cmp	x11, x14
	csel	x3, x11, x14, lo
	cmp	x15, #0
	bfxil	x2, x16, #1, #63
	lsr	x16, x1, #1
	add	x11, x3, x5
	csel	x15, x16, x2, mi
	cmp	x5, x11
	b.hs	.LBB24_39
	cbz	w13, .LBB24_117
	and	x16, x4, #0x7
	lsr	x1, x18, #3
	umull	x18, w18, w13
	umull	x16, w16, w13
	add	x17, x8, x17
	mvn	x2, x15
	add	x17, x17, x12
	neg	x7, x3
	mov	x3, x5
	lsr	x16, x16, #3
	umaddl	x16, w1, w13, x16
	mov	w1, #64
	sub	x1, x1, x13
	b	.LBB24_103
.LBB24_101:
	mul	x19, x19, x9
	cmp	x19, x2
	b.hi	.LBB24_124
.LBB24_102:
	add	x19, x19, x15
	add	x16, x16, x18, lsr #3
	adds	x7, x7, #1
	eor	x19, x19, #0x8000000000000000
	str	x19, [x0, x3, lsl #3]
	add	x3, x3, #1
	sub	x14, x14, #1
	b.hs	.LBB24_39
.LBB24_103:
	and	x19, x18, #0x7
	add	x18, x19, x13
	cmp	x18, #64
	b.hi	.LBB24_106
	cmp	x14, #64
	b.lo	.LBB24_106
	ldr	x20, [x17, x16]
	rev	x20, x20
	lsl	x19, x20, x19
	lsr	x19, x19, x1
	cmp	x9, #2
	b.hs	.LBB24_114
	b	.LBB24_101
.LBB24_106:
	add	x20, x18, #7
	add	x21, x17, x16
	cmp	w13, #8
	lsr	x20, x20, #3
	add	x22, x21, x20
	b.hi	.LBB24_108
	ldrb	w21, [x21]
	ldurb	w22, [x22, #-1]
	mov	x23, #-1
	b	.LBB24_113
.LBB24_108:
	cmp	w13, #24
	b.hi	.LBB24_110
	ldrh	w21, [x21]
	ldurh	w22, [x22, #-2]
	mov	x23, #-2
	b	.LBB24_113
.LBB24_110:
	cmp	w13, #56
	b.hi	.LBB24_112
	ldr	w21, [x21]
	ldur	w22, [x22, #-4]
	mov	x23, #-4
	b	.LBB24_113
.LBB24_112:
	ldr	x21, [x21]
	ldur	x22, [x22, #-8]
	mov	x23, #-8
.LBB24_113:
	add	w20, w23, w20
	rev	x21, x21
	rev	x22, x22
	lsl	w20, w20, #3
	sub	w20, w20, w19
	lsl	x19, x21, x19
	lsr	x20, x22, x20
	orr	x19, x20, x19
	lsr	x19, x19, x1
	cmp	x9, #2
	b.lo	.LBB24_101
.LBB24_114:
	orr	x20, x19, x9
	lsr	x20, x20, #32
	cbz	x20, .LBB24_101
	udiv	x20, x2, x9
	cmp	x19, x20
	b.hi	.LBB24_124
	mul	x19, x19, x9
	b	.LBB24_102
.LBB24_117:
	lsr	x14, x9, #32
	eor	x13, x15, #0x8000000000000000
	cmp	x3, #4
	cbnz	x14, .LBB24_125
	mov	x14, x5
	b.lo	.LBB24_122
	dup	v0.2d, x13
	add	x16, x0, x5, lsl #3
	and	x15, x3, #0xfffffffffffffffc
	add	x14, x5, x15
	and	x17, x3, #0xfffffffffffffffc
	add	x16, x16, #16
.LBB24_120:
	subs	x17, x17, #4
	stp	q0, q0, [x16, #-16]
	add	x16, x16, #32
	b.ne	.LBB24_120
	cmp	x3, x15
	b.eq	.LBB24_39
.LBB24_122:
	sub	x15, x14, x5
	add	x14, x0, x14, lsl #3
	sub	x15, x15, x3
.LBB24_123:
	adds	x15, x15, #1
	str	x13, [x14], #8
	b.lo	.LBB24_123
	b	.LBB24_39
.LBB24_124:
	mov	x11, x3
	b	.LBB24_39
.LBB24_125:
	mov	x14, x5
	b.lo	.LBB24_129
	dup	v0.2d, x13
	add	x16, x0, x5, lsl #3
	and	x15, x3, #0xfffffffffffffffc
	add	x14, x5, x15
	and	x17, x3, #0xfffffffffffffffc
	add	x16, x16, #16
.LBB24_127:
	subs	x17, x17, #4
	stp	q0, q0, [x16, #-16]
	add	x16, x16, #32
	b.ne	.LBB24_127
	cmp	x3, x15
	b.eq	.LBB24_39
.LBB24_129:
	sub	x15, x14, x5
	add	x14, x0, x14, lsl #3
	sub	x15, x15, x3
.LBB24_130:
	adds	x15, x15, #1
	str	x13, [x14], #8
	b.lo	.LBB24_130
	b	.LBB24_39
.Lfunc_end24:
	.size	"read_in_block::draw", .Lfunc_end24-"read_in_block::draw"

	.section	".text.layered_reading::layered_steps","ax",@progbits
	.p2align	2
	.type	"layered_reading::layered_steps",@function
"layered_reading::layered_steps":
	stp	x29, x30, [sp, #-96]!
	stp	x28, x27, [sp, #16]
	mov	x29, sp
	stp	x26, x25, [sp, #32]
	stp	x24, x23, [sp, #48]
	stp	x22, x21, [sp, #64]
	stp	x20, x19, [sp, #80]
	sub	sp, sp, #3072
	str	xzr, [sp]
	sub	sp, sp, #3072
	str	xzr, [sp]
	sub	sp, sp, #3072
	str	xzr, [sp]
	sub	sp, sp, #3072
	str	xzr, [sp]
	sub	sp, sp, #304
	ldr	x8, [x29, #104]
	ldr	x9, [x29, #128]
	mov	x19, x2
	str	x0, [sp, #40]
	add	x0, sp, #2, lsl #12
	ldr	w20, [x29, #136]
	ldp	q0, q1, [x8, #32]
	add	x0, x0, #2144
	ldr	q2, [x8, #64]
	stp	x5, x1, [sp, #8]
	mov	w1, wzr
	mov	w2, #2048
	str	x7, [sp, #56]
	mov	x21, x6
	stp	q0, q1, [x29, #-96]
	ldp	q1, q0, [x8]
	stur	q2, [x29, #-64]
	ldr	x8, [x29, #96]
	mov	x28, x4
	str	x3, [sp, #24]
	stp	q1, q0, [x29, #-128]
	ldp	q2, q0, [x9, #16]
	str	x8, [sp, #48]
	ldr	x8, [x29, #120]
	ldr	q1, [x9]
	stp	q2, q0, [x29, #-192]
	ldp	q2, q3, [x9, #48]
	str	x8, [sp, #72]
	ldr	x8, [x29, #112]
	stur	q1, [x29, #-208]
	stp	q2, q3, [x29, #-160]
	str	x8, [sp, #64]
	bl	memset
	add	x0, sp, #1, lsl #12
	mov	w1, wzr
	mov	w2, #4096
	add	x0, x0, #2144
	bl	memset
	add	x0, sp, #1, lsl #12
	mov	w1, wzr
	mov	w2, #2048
	add	x0, x0, #96
	bl	memset
	add	x0, sp, #96
	mov	w1, wzr
	mov	w2, #4096
	bl	memset
	cmp	x28, x19
	mov	x7, x20
	mov	x27, xzr
	csel	x8, x28, x19, lo
	mov	x24, xzr
	mov	x22, xzr
	cmp	x8, x21
	mov	x23, xzr
	mov	x20, xzr
	mov	x26, xzr
	mov	x25, xzr
	csel	x30, x8, x21, lo
	str	x30, [sp, #80]
.LBB25_1:
	sub	x11, x30, x25
	lsr	x8, x25, #1
	mov	w9, #512
	cmp	x11, #512
	sub	x10, x30, x25
	str	x7, [sp, #88]
	csel	x21, x11, x9, lo
	add	x28, x8, #1
	str	x10, [sp, #32]
.LBB25_2:
	mul	x8, x21, x20
	lsr	x8, x8, #1
	udiv	x8, x8, x28
	add	x8, x8, #16
	cmp	x8, x21
	csel	x6, x8, x21, lo
	cmp	x23, x20
	b.lo	.LBB25_4
	tbz	w26, #0, .LBB25_5
.LBB25_4:
	and	x8, x23, #0xffffffffffffff00
	and	x9, x23, #0xff
	orr	x23, x8, x9
	cmp	x23, x20
	cset	w19, eq
	b.eq	.LBB25_7
	b	.LBB25_8
.LBB25_5:
	ldp	x3, x4, [sp, #64]
	add	x1, sp, #1, lsl #12
	sub	x0, x29, #40
	add	x1, x1, #96
	add	x2, sp, #96
	sub	x5, x29, #208
	stp	xzr, xzr, [x29, #-40]
	stur	xzr, [x29, #-24]
	bl	"read_from::read_up_to"
	sub	x8, x29, #40
	ldur	x20, [x29, #-24]
	ldrb	w9, [x8]
	ldrb	w8, [x8, #8]
	cmp	w9, #0
	csel	w26, w8, wzr, eq
	cbnz	w9, .LBB25_45
	ldp	x30, x7, [sp, #80]
	and	x9, xzr, #0xff
	mov	x23, x9
	cmp	x9, x20
	cset	w19, eq
	b.ne	.LBB25_8
.LBB25_7:
	tbnz	w26, #0, .LBB25_37
.LBB25_8:
	cmp	x27, x24
	b.lo	.LBB25_10
	tbz	w22, #0, .LBB25_11
.LBB25_10:
	and	x8, x27, #0xffffffffffffff00
	and	x9, x27, #0xff
	orr	x27, x8, x9
	cmp	x27, x24
	b.eq	.LBB25_13
	b	.LBB25_14
.LBB25_11:
	ldp	x4, x3, [sp, #48]
	add	x1, sp, #2, lsl #12
	add	x2, sp, #1, lsl #12
	sub	x0, x29, #40
	add	x1, x1, #2144
	add	x2, x2, #2144
	sub	x5, x29, #128
	mov	x6, x21
	stp	xzr, xzr, [x29, #-40]
	stur	xzr, [x29, #-24]
	bl	"read_from::read_up_to"
	sub	x8, x29, #40
	ldur	x24, [x29, #-24]
	ldrb	w9, [x8]
	ldrb	w8, [x8, #8]
	cmp	w9, #0
	csel	w22, w8, wzr, eq
	cbnz	w9, .LBB25_46
	ldp	x30, x7, [sp, #80]
	and	x9, xzr, #0xff
	mov	x27, x9
	cmp	x9, x24
	b.ne	.LBB25_14
.LBB25_13:
	tbnz	w22, #0, .LBB25_40
.LBB25_14:
	cmp	x30, x25
	b.eq	.LBB25_42
	tbnz	w19, #0, .LBB25_2
	ldp	x4, x6, [sp, #8]
	ldr	x5, [sp, #24]
	b	.LBB25_19
.LBB25_17:
	add	x12, sp, #2, lsl #12
	add	x12, x12, #2144
	add	x12, x12, x11, lsl #2
	ldur	w12, [x12, #-4]
	add	x7, x12, #1
.LBB25_18:
	cmp	x11, x10
	add	x25, x9, x25
	mov	x27, x10
	b.ne	.LBB25_35
.LBB25_19:
	subs	x8, x30, x25
	b.ls	.LBB25_1
	subs	x9, x24, x27
	b.eq	.LBB25_36
	add	x11, sp, #1, lsl #12
	cmp	x8, x9
	add	x11, x11, #96
	csel	x10, x8, x9, lo
	mov	x9, x27
	ldr	w8, [x11, x23, lsl #2]
	cmp	x10, #4
	b.lo	.LBB25_28
	add	x9, sp, #2, lsl #12
	add	x16, sp, #1, lsl #12
	add	x13, x5, x25, lsl #3
	add	x9, x9, #2144
	add	x16, x16, #2144
	add	x14, x6, x25, lsl #2
	add	x15, x9, x27, lsl #2
	add	x16, x16, x27, lsl #3
	mov	x11, xzr
	mov	x12, xzr
	add	x17, x4, x25
	mov	x18, x10
	mov	x9, x27
	b	.LBB25_25
.LBB25_23:
	ldr	q0, [x2]
	str	q0, [x0]
.LBB25_24:
	add	x0, x13, x12
	add	x1, x16, x12
	sub	x18, x18, #4
	sub	x2, x0, x1
	ldp	q0, q1, [x1]
	cmp	x2, #31
	add	x9, x9, #4
	add	x12, x12, #32
	cmp	x18, #3
	add	x11, x11, #16
	stp	q0, q1, [x0]
	str	wzr, [x17], #4
	b.ls	.LBB25_28
.LBB25_25:
	add	x2, x15, x11
	ldr	w1, [x2, #12]
	cmp	w8, w1
	b.ls	.LBB25_28
	add	x0, x14, x11
	sub	x3, x0, x2
	cmp	x3, #15
	b.hi	.LBB25_23
	add	x2, x15, x11
	ldr	d0, [x2]
	ldr	w2, [x2, #8]
	str	d0, [x0]
	stp	w2, w1, [x0, #8]
	b	.LBB25_24
.LBB25_28:
	add	x10, x10, x27
	cmp	x9, x10
	mov	x11, x10
	b.hs	.LBB25_33
	sub	x11, x5, x27, lsl #3
	sub	x12, x6, x27, lsl #2
	sub	x13, x25, x27
	add	x13, x4, x13
	add	x11, x11, x25, lsl #3
	add	x12, x12, x25, lsl #2
.LBB25_30:
	add	x14, sp, #2, lsl #12
	add	x14, x14, #2144
	ldr	w14, [x14, x9, lsl #2]
	cmp	w8, w14
	b.ls	.LBB25_34
	add	x15, sp, #1, lsl #12
	str	w14, [x12, x9, lsl #2]
	add	x15, x15, #2144
	ldr	x14, [x15, x9, lsl #3]
	str	x14, [x11, x9, lsl #3]
	strb	wzr, [x13, x9]
	add	x9, x9, #1
	cmp	x10, x9
	b.ne	.LBB25_30
	mov	x11, x10
	subs	x9, x10, x27
	b.ls	.LBB25_18
	b	.LBB25_17
.LBB25_33:
	subs	x9, x11, x27
	b.ls	.LBB25_18
	b	.LBB25_17
.LBB25_34:
	mov	x11, x9
	subs	x9, x9, x27
	b.ls	.LBB25_18
	b	.LBB25_17
.LBB25_35:
	add	x9, sp, #2, lsl #12
	add	x10, sp, #96
	str	w8, [x6, x25, lsl #2]
	add	x9, x9, #2144
	ldr	x10, [x10, x23, lsl #3]
	add	x23, x23, #1
	ldr	w9, [x9, x11, lsl #2]
	str	x10, [x5, x25, lsl #3]
	add	x7, x8, #1
	cmp	w9, w8
	mov	w9, #1
	strb	w9, [x4, x25]
	cinc	x27, x11, eq
	cmp	x23, x20
	add	x25, x25, #1
	b.ne	.LBB25_19
	b	.LBB25_1
.LBB25_36:
	mov	x27, x24
	b	.LBB25_1
.LBB25_37:
	mov	w8, #2147352575
	stp	xzr, xzr, [x29, #-40]
	cmp	x7, x8
	stur	xzr, [x29, #-24]
	b.hi	.LBB25_41
	ldr	x8, [sp, #16]
	ldp	x4, x3, [sp, #48]
	sub	x0, x29, #40
	sub	x5, x29, #128
	add	x1, x8, x25, lsl #2
	ldp	x8, x6, [sp, #24]
	add	x2, x8, x25, lsl #3
	bl	"read_from::read_up_to"
	sub	x10, x29, #40
	ldr	x23, [sp, #40]
	ldrb	w8, [x10]
	cbz	w8, .LBB25_48
	ldur	x9, [x29, #-24]
	ldrb	w10, [x10, #8]
	cmp	x25, #0
	mov	w21, wzr
	cset	w8, eq
	csel	x25, x10, x25, eq
	csel	x9, x9, xzr, eq
	b	.LBB25_57
.LBB25_40:
	mov	w8, #2147352575
	stp	xzr, xzr, [x29, #-40]
	cmp	x7, x8
	stur	xzr, [x29, #-24]
	b.ls	.LBB25_43
.LBB25_41:
	ldr	x23, [sp, #40]
	mov	x8, xzr
	mov	x9, xzr
	mov	w21, #1
	b	.LBB25_57
.LBB25_42:
	ldr	x8, [sp, #40]
	str	xzr, [x8]
	strb	wzr, [x8, #8]
	stp	x30, xzr, [x8, #16]
	b	.LBB25_58
.LBB25_43:
	ldr	x8, [sp, #16]
	ldp	x3, x4, [sp, #64]
	sub	x0, x29, #40
	sub	x5, x29, #208
	add	x1, x8, x25, lsl #2
	ldp	x8, x6, [sp, #24]
	add	x2, x8, x25, lsl #3
	bl	"read_from::read_up_to"
	sub	x10, x29, #40
	ldr	x23, [sp, #40]
	ldrb	w8, [x10]
	cbz	w8, .LBB25_52
	cmp	x25, #0
	ldur	x9, [x29, #-24]
	ldrb	w10, [x10, #8]
	cset	w8, eq
	csel	x25, x10, x25, eq
	csel	x9, x9, xzr, eq
	mov	w21, w8
	b	.LBB25_57
.LBB25_45:
	cmp	x25, #0
	ldr	x10, [sp, #40]
	cset	w9, eq
	csel	x8, x8, x25, eq
	str	x9, [x10]
	strb	w9, [x10, #8]
	csel	x9, x20, xzr, eq
	b	.LBB25_47
.LBB25_46:
	cmp	x25, #0
	ldr	x10, [sp, #40]
	cset	w9, eq
	csel	x8, x8, x25, eq
	strb	wzr, [x10, #8]
	str	x9, [x10]
	csel	x9, x24, xzr, eq
.LBB25_47:
	stp	x8, x9, [x10, #16]
	b	.LBB25_58
.LBB25_48:
	ldr	x8, [sp, #8]
	ldrb	w21, [x10, #8]
	ldur	x22, [x29, #-24]
	add	x19, x8, x25
	cbz	x22, .LBB25_56
	subs	x20, x22, #1
	b.eq	.LBB25_51
	mov	x0, x19
	mov	w1, wzr
	mov	x2, x20
	bl	memset
.LBB25_51:
	strb	wzr, [x19, x20]
	b	.LBB25_56
.LBB25_52:
	ldr	x8, [sp, #8]
	ldrb	w21, [x10, #8]
	ldur	x22, [x29, #-24]
	add	x19, x8, x25
	cbz	x22, .LBB25_56
	subs	x20, x22, #1
	b.eq	.LBB25_55
	mov	x0, x19
	mov	w1, #1
	mov	x2, x20
	bl	memset
.LBB25_55:
	mov	w8, #1
	strb	w8, [x19, x20]
.LBB25_56:
	mov	x8, xzr
	mov	x9, xzr
	add	x25, x22, x25
.LBB25_57:
	str	x8, [x23]
	strb	w21, [x23, #8]
	stp	x25, x9, [x23, #16]
.LBB25_58:
	add	sp, sp, #3, lsl #12
	add	sp, sp, #304
	ldp	x20, x19, [sp, #80]
	ldp	x22, x21, [sp, #64]
	ldp	x24, x23, [sp, #48]
	ldp	x26, x25, [sp, #32]
	ldp	x28, x27, [sp, #16]
	ldp	x29, x30, [sp], #96
	ret
.Lfunc_end25:
	.size	"layered_reading::layered_steps", .Lfunc_end25-"layered_reading::layered_steps"

	.section	".text.scaled_reader::fill","ax",@progbits
	.p2align	2
	.type	"scaled_reader::fill",@function
"scaled_reader::fill":
	str	x23, [sp, #-48]!
	ldp	x8, x9, [x4]
	mov	x11, #-9223372036854775808
	stp	x22, x21, [sp, #16]
	stp	x20, x19, [sp, #32]
	mvn	x10, x9
	bfxil	x11, x9, #1, #63
	tst	x9, #0x1
	lsr	x12, x10, #1
	ldr	x10, [x4, #16]
	csel	x9, x11, x12, eq
	cmp	x8, #15
	b.lo	.LBB26_6
	cmp	x8, #57
	b.hi	.LBB26_20
	subs	x11, x3, #63
	csel	x11, xzr, x11, lo
	cmp	x3, #64
	b.lo	.LBB26_21
	and	w12, w2, #0xff
	cbz	w12, .LBB26_44
	neg	x13, x8
	mov	x14, #-1
	mov	x12, xzr
	lsr	x13, x14, x13
	mov	x14, xzr
.LBB26_5:
	lsr	x15, x12, #3
	and	x16, x12, #0x7
	add	x12, x12, x8
	ldr	x15, [x1, x15]
	lsr	x15, x15, x16
	and	x15, x15, x13
	madd	x15, x15, x10, x9
	eor	x15, x15, #0x8000000000000000
	str	x15, [x0, x14, lsl #3]
	add	x14, x14, #1
	cmp	x14, x11
	b.lo	.LBB26_5
	b	.LBB26_21
.LBB26_6:
	tbz	w2, #0, .LBB26_12
	cmp	x3, #64
	mov	x11, xzr
	b.lo	.LBB26_21
	cbz	x8, .LBB26_21
	lsl	x13, x8, #2
	mov	w18, #64
	neg	x15, x8
	mov	x16, #-1
	mov	x12, xzr
	mov	x11, xzr
	lsr	x15, x16, x15
	sub	x16, x18, x8, lsl #1
	sub	x17, x8, x13
	sub	x14, x18, x8
	add	x17, x17, #64
	sub	x18, x18, x13
	add	x4, x0, #16
.LBB26_10:
	lsr	x5, x12, #3
	and	x6, x12, #0x4
	sub	x11, x11, #4
	add	x12, x12, x13
	ldr	x5, [x1, x5]
	lsr	x5, x5, x6
	lsl	x6, x5, x16
	and	x7, x5, x15
	lsl	x19, x5, x17
	lsl	x5, x5, x18
	madd	x7, x7, x10, x9
	lsr	x6, x6, x14
	lsr	x19, x19, x14
	lsr	x5, x5, x14
	madd	x6, x6, x10, x9
	madd	x19, x19, x10, x9
	eor	x7, x7, #0x8000000000000000
	madd	x5, x5, x10, x9
	eor	x6, x6, #0x8000000000000000
	stp	x7, x6, [x4, #-16]
	add	x6, x3, x11
	eor	x7, x19, #0x8000000000000000
	cmp	x6, #63
	eor	x5, x5, #0x8000000000000000
	stp	x7, x5, [x4], #32
	b.hi	.LBB26_10
	neg	x11, x11
	b	.LBB26_21
.LBB26_12:
	cbz	x8, .LBB26_20
	lsr	x12, x8, #1
	ubfiz	x13, x8, #2, #1
	cmp	x10, #1
	b.ne	.LBB26_17
	subs	x11, x3, #72
	b.lo	.LBB26_20
	lsl	x14, x8, #1
	mov	w16, #64
	and	x11, x11, #0xfffffffffffffff8
	add	x15, x0, #32
	sub	x16, x16, x8
	add	x11, x11, #8
	add	x17, x14, x8
	mov	x18, x1
	mov	x4, x3
.LBB26_16:
	ldr	x5, [x18]
	ldr	x6, [x18, x12]
	sub	x4, x4, #8
	cmp	x4, #71
	add	x18, x18, x8
	rev	x5, x5
	rev	x6, x6
	lsl	x7, x5, x8
	lsr	x19, x5, x16
	lsl	x20, x5, x14
	lsl	x5, x5, x17
	lsl	x6, x6, x13
	lsr	x7, x7, x16
	add	x19, x19, x9
	lsr	x20, x20, x16
	lsr	x5, x5, x16
	eor	x19, x19, #0x8000000000000000
	lsr	x21, x6, x16
	add	x7, x7, x9
	add	x20, x20, x9
	eor	x7, x7, #0x8000000000000000
	add	x5, x5, x9
	eor	x20, x20, #0x8000000000000000
	stp	x19, x7, [x15, #-32]
	lsl	x19, x6, x8
	eor	x5, x5, #0x8000000000000000
	lsl	x7, x6, x14
	stp	x20, x5, [x15, #-16]
	lsl	x5, x6, x17
	lsr	x19, x19, x16
	add	x6, x21, x9
	lsr	x7, x7, x16
	lsr	x5, x5, x16
	eor	x6, x6, #0x8000000000000000
	add	x19, x19, x9
	eor	x19, x19, #0x8000000000000000
	add	x5, x5, x9
	stp	x6, x19, [x15]
	add	x6, x7, x9
	eor	x5, x5, #0x8000000000000000
	eor	x6, x6, #0x8000000000000000
	stp	x6, x5, [x15, #16]
	add	x15, x15, #64
	b.hi	.LBB26_16
	b	.LBB26_21
.LBB26_17:
	subs	x11, x3, #72
	b.lo	.LBB26_20
	lsl	x14, x8, #1
	mov	w16, #64
	and	x11, x11, #0xfffffffffffffff8
	add	x15, x0, #32
	sub	x16, x16, x8
	add	x11, x11, #8
	add	x17, x14, x8
	mov	x18, x1
	mov	x4, x3
.LBB26_19:
	ldr	x5, [x18]
	ldr	x20, [x18, x12]
	sub	x4, x4, #8
	cmp	x4, #71
	add	x18, x18, x8
	rev	x5, x5
	rev	x20, x20
	lsl	x7, x5, x8
	lsr	x6, x5, x16
	lsl	x20, x20, x13
	lsl	x19, x5, x14
	lsl	x5, x5, x17
	lsr	x7, x7, x16
	madd	x6, x6, x10, x9
	lsl	x22, x20, x8
	lsr	x19, x19, x16
	lsr	x5, x5, x16
	lsr	x21, x20, x16
	madd	x7, x7, x10, x9
	lsl	x23, x20, x14
	lsl	x20, x20, x17
	lsr	x22, x22, x16
	madd	x19, x19, x10, x9
	lsr	x23, x23, x16
	lsr	x20, x20, x16
	eor	x6, x6, #0x8000000000000000
	madd	x5, x5, x10, x9
	eor	x7, x7, #0x8000000000000000
	madd	x21, x21, x10, x9
	stp	x6, x7, [x15, #-32]
	eor	x6, x19, #0x8000000000000000
	madd	x22, x22, x10, x9
	eor	x5, x5, #0x8000000000000000
	madd	x23, x23, x10, x9
	stp	x6, x5, [x15, #-16]
	eor	x5, x21, #0x8000000000000000
	madd	x7, x20, x10, x9
	eor	x6, x22, #0x8000000000000000
	stp	x5, x6, [x15]
	eor	x5, x23, #0x8000000000000000
	eor	x6, x7, #0x8000000000000000
	stp	x5, x6, [x15, #16]
	add	x15, x15, #64
	b.hi	.LBB26_19
	b	.LBB26_21
.LBB26_20:
	mov	x11, xzr
.LBB26_21:
	subs	x12, x3, x11
	b.ls	.LBB26_43
	cbz	x8, .LBB26_37
	mul	x13, x11, x8
	mov	w14, #64
	add	x11, x0, x11, lsl #3
	sub	x14, x14, x8
	b	.LBB26_26
.LBB26_24:
	ldr	x17, [x1, x18]
	neg	x16, x16
	tst	w2, #0xff
	rev	x18, x17
	lsl	x16, x17, x16
	lsl	x15, x18, x15
	csel	x15, x16, x15, ne
.LBB26_25:
	lsr	x15, x15, x14
	subs	x12, x12, #1
	add	x13, x13, x8
	madd	x15, x15, x10, x9
	eor	x15, x15, #0x8000000000000000
	str	x15, [x11], #8
	b.eq	.LBB26_43
.LBB26_26:
	lsr	x18, x13, #3
	and	x15, x13, #0x7
	cmp	x12, #64
	add	x16, x15, x8
	b.lo	.LBB26_28
	cmp	x16, #64
	b.ls	.LBB26_24
.LBB26_28:
	add	x17, x16, #7
	add	x18, x1, x18
	cmp	x8, #8
	lsr	x17, x17, #3
	add	x0, x18, x17
	b.hi	.LBB26_31
	ldrb	w18, [x18]
	ldurb	w0, [x0, #-1]
	mov	w3, #1
	tst	w2, #0xff
	b.eq	.LBB26_33
.LBB26_30:
	sub	x15, x17, x3
	neg	x16, x16
	lsl	x15, x15, #3
	lsl	x15, x0, x15
	orr	x15, x15, x18
	lsl	x15, x15, x16
	b	.LBB26_25
.LBB26_31:
	cmp	x8, #24
	b.hi	.LBB26_34
	ldrh	w18, [x18]
	ldurh	w0, [x0, #-2]
	mov	w3, #2
	tst	w2, #0xff
	b.ne	.LBB26_30
.LBB26_33:
	sub	w16, w17, w3
	rev	x17, x18
	rev	x18, x0
	lsl	w16, w16, #3
	sub	w16, w16, w15
	lsl	x15, x17, x15
	lsr	x16, x18, x16
	orr	x15, x16, x15
	b	.LBB26_25
.LBB26_34:
	cmp	x8, #56
	b.hi	.LBB26_36
	ldr	w18, [x18]
	ldur	w0, [x0, #-4]
	mov	w3, #4
	tst	w2, #0xff
	b.ne	.LBB26_30
	b	.LBB26_33
.LBB26_36:
	ldr	x18, [x18]
	ldur	x0, [x0, #-8]
	mov	w3, #8
	tst	w2, #0xff
	b.ne	.LBB26_30
	b	.LBB26_33
.LBB26_37:
	cmp	x12, #4
	eor	x8, x9, #0x8000000000000000
	b.lo	.LBB26_41
	dup	v0.2d, x8
	add	x10, x0, x11, lsl #3
	and	x9, x12, #0xfffffffffffffffc
	add	x11, x11, x9
	and	x13, x12, #0xfffffffffffffffc
	add	x10, x10, #16
.LBB26_39:
	subs	x13, x13, #4
	stp	q0, q0, [x10, #-16]
	add	x10, x10, #32
	b.ne	.LBB26_39
	cmp	x12, x9
	b.eq	.LBB26_43
.LBB26_41:
	add	x9, x0, x11, lsl #3
	sub	x10, x3, x11
.LBB26_42:
	subs	x10, x10, #1
	str	x8, [x9], #8
	b.ne	.LBB26_42
.LBB26_43:
	ldp	x20, x19, [sp, #32]
	ldp	x22, x21, [sp, #16]
	ldr	x23, [sp], #48
	ret
.LBB26_44:
	mov	w14, #64
	mov	x12, xzr
	mov	x13, xzr
	sub	x14, x14, x8
.LBB26_45:
	lsr	x15, x12, #3
	and	x16, x12, #0x7
	add	x12, x12, x8
	ldr	x15, [x1, x15]
	rev	x15, x15
	lsl	x15, x15, x16
	lsr	x15, x15, x14
	madd	x15, x15, x10, x9
	eor	x15, x15, #0x8000000000000000
	str	x15, [x0, x13, lsl #3]
	add	x13, x13, #1
	cmp	x13, x11
	b.lo	.LBB26_45
	b	.LBB26_21
.Lfunc_end26:
	.size	"scaled_reader::fill", .Lfunc_end26-"scaled_reader::fill"

	.section	.rodata.cst16,"aM",@progbits,16
	.p2align	4, 0x0
.LCPI27_0:
	.xword	1
	.xword	11
	.section	".text.set_check::walk","ax",@progbits
	.p2align	2
	.type	"set_check::walk",@function
"set_check::walk":
	cbz	x2, .LBB27_137
	ldrsb	w9, [x1]
	and	x8, x9, #0xff
	tbnz	w9, #31, .LBB27_132
	mov	w7, #1
.LBB27_3:
	str	d10, [sp, #-96]!
	stp	d9, d8, [sp, #8]
	str	x27, [sp, #24]
	stp	x26, x25, [sp, #32]
	stp	x24, x23, [sp, #48]
	stp	x22, x21, [sp, #64]
	stp	x20, x19, [sp, #80]
	cbz	x8, .LBB27_138
	and	w12, w3, #0xffff
	mov	x15, #-1
	lsr	w13, w3, #16
	lsr	x14, x12, #6
	lsl	x16, x15, x12
	dup	v0.2d, x12
	mov	w18, #1
	mov	x19, xzr
	mov	w11, wzr
	mov	x9, xzr
	mov	x10, xzr
	and	x15, x12, #0x3f
	mvn	x16, x16
	and	x17, x14, #0x3fc
	sub	x18, x18, x2
	add	x3, x1, #1
	add	x4, x1, #16
	add	x5, x1, #2
.LBB27_5:
	cmp	x2, x7
	b.ls	.LBB27_141
	ldrsb	w21, [x1, x7]
	add	x20, x7, #1
	and	x6, x21, #0xff
	tbnz	w21, #31, .LBB27_17
	mov	x23, xzr
	cmp	x6, x19
	mov	w24, #11
	mov	w21, #1
	b.lo	.LBB27_153
.LBB27_8:
	mov	w7, #32765
	mov	x22, x23
	cmp	x6, x7
	b.hi	.LBB27_151
	cmp	x2, x20
	b.ls	.LBB27_141
	ldrsb	w7, [x1, x20]
	add	x21, x20, #1
	and	x19, x7, #0xff
	tbnz	w7, #31, .LBB27_22
	cmp	x19, #3
	csel	w7, w19, wzr, lo
	cmp	x19, #2
	b.hi	.LBB27_142
.LBB27_12:
	cmp	x2, x21
	b.ls	.LBB27_141
	ldrsb	w22, [x1, x21]
	add	x19, x21, #1
	and	x20, x22, #0xff
	tbnz	w22, #31, .LBB27_27
	and	w21, w7, #0xff
	cmp	w21, #2
	b.eq	.LBB27_38
.LBB27_15:
	cmp	w21, #1
	b.ne	.LBB27_32
	mov	x23, xzr
	cmp	x20, #4095
	mov	w24, #11
	mov	w21, #1
	b.ls	.LBB27_33
	b	.LBB27_153
.LBB27_17:
	cmp	x20, x2
	b.hs	.LBB27_141
	mov	x20, xzr
	sub	x6, x6, #128
	add	x21, x18, x7
	add	x22, x3, x7
	mov	w23, #128
.LBB27_19:
	ldrb	w24, [x22, x20]
	cmp	w24, #0
	cset	w25, eq
	cmp	w24, #1
	cset	w26, ne
	cmp	x20, #8
	csel	w25, w26, w25, eq
	tbnz	w25, #0, .LBB27_143
	tbz	w24, #7, .LBB27_35
	sub	x24, x24, #128
	add	x20, x20, #1
	madd	x6, x24, x23, x6
	lsl	x23, x23, #7
	cmn	x21, x20
	b.ne	.LBB27_19
	b	.LBB27_141
.LBB27_22:
	cmp	x21, x2
	b.hs	.LBB27_141
	mov	x7, xzr
	sub	x19, x19, #128
	add	x21, x18, x20
	add	x22, x3, x20
	mov	w23, #128
.LBB27_24:
	ldrb	w24, [x22, x7]
	cmp	w24, #0
	cset	w25, eq
	cmp	w24, #1
	cset	w26, ne
	cmp	x7, #8
	csel	w25, w26, w25, eq
	tbnz	w25, #0, .LBB27_147
	tbz	w24, #7, .LBB27_36
	sub	x24, x24, #128
	add	x7, x7, #1
	madd	x19, x24, x23, x19
	lsl	x23, x23, #7
	cmn	x21, x7
	b.ne	.LBB27_24
	b	.LBB27_141
.LBB27_27:
	cmp	x19, x2
	b.hs	.LBB27_141
	mov	x19, xzr
	sub	x20, x20, #128
	add	x22, x18, x21
	add	x23, x3, x21
	mov	w24, #128
.LBB27_29:
	ldrb	w25, [x23, x19]
	cmp	w25, #0
	cset	w26, eq
	cmp	w25, #1
	cset	w27, ne
	cmp	x19, #8
	csel	w26, w27, w26, eq
	tbnz	w26, #0, .LBB27_148
	tbz	w25, #7, .LBB27_37
	sub	x25, x25, #128
	add	x19, x19, #1
	madd	x20, x25, x24, x20
	lsl	x24, x24, #7
	cmn	x22, x19
	b.ne	.LBB27_29
	b	.LBB27_141
.LBB27_32:
	mov	x21, #-4097
	mov	x23, xzr
	mov	w24, #11
	add	x21, x20, x21
	cmn	x21, #1, lsl #12
	mov	w21, #1
	b.lo	.LBB27_153
.LBB27_33:
	cmp	x2, x19
	mov	x22, x23
	b.lo	.LBB27_151
	lsl	x21, x20, #1
	sub	x22, x2, x19
	cmp	x22, x21
	b.hs	.LBB27_41
	b	.LBB27_142
.LBB27_35:
	madd	x6, x23, x24, x6
	add	x7, x7, x20
	add	x20, x7, #2
	mov	x23, xzr
	cmp	x6, x19
	mov	w24, #11
	mov	w21, #1
	b.hs	.LBB27_8
	b	.LBB27_153
.LBB27_36:
	madd	x19, x23, x24, x19
	add	x7, x20, x7
	add	x21, x7, #2
	cmp	x19, #3
	csel	w7, w19, wzr, lo
	cmp	x19, #2
	b.ls	.LBB27_12
	b	.LBB27_142
.LBB27_37:
	madd	x20, x24, x25, x20
	add	x19, x21, x19
	add	x19, x19, #2
	and	w21, w7, #0xff
	cmp	w21, #2
	b.ne	.LBB27_15
.LBB27_38:
	mov	x23, xzr
	mov	w24, #11
	mov	w21, #1
	cbnz	x20, .LBB27_153
	cmp	x2, x19
	mov	x22, x23
	b.lo	.LBB27_151
	mov	w21, #8192
	sub	x22, x2, x19
	cmp	x22, x21
	b.lo	.LBB27_142
.LBB27_41:
	and	w21, w7, #0xff
	cmp	w21, #2
	b.eq	.LBB27_46
	cmp	w21, #1
	b.ne	.LBB27_49
	mov	w21, #65536
	cmp	x20, #2
	sub	x21, x21, x20
	b.lo	.LBB27_79
	sub	x22, x20, #1
	cmp	x22, #8
	b.hs	.LBB27_53
	mov	w25, #1
	mov	w24, #1
	b	.LBB27_68
.LBB27_46:
	movi	v1.2d, #0000000000000000
	movi	v2.2d, #0000000000000000
	add	x21, x4, x19
	mov	w22, #1024
.LBB27_47:
	ldp	q3, q4, [x21, #-16]
	subs	x22, x22, #4
	add	x21, x21, #32
	cnt	v3.16b, v3.16b
	cnt	v4.16b, v4.16b
	uaddlp	v3.8h, v3.16b
	uaddlp	v4.8h, v4.16b
	uaddlp	v3.4s, v3.8h
	uaddlp	v4.4s, v4.8h
	uadalp	v1.2d, v3.4s
	uadalp	v2.2d, v4.4s
	b.ne	.LBB27_47
	add	v1.2d, v2.2d, v1.2d
	mov	x22, #-4097
	addp	d1, v1.2d
	fmov	x21, d1
	add	x22, x21, x22
	cmp	x22, #14, lsl #12
	b.lo	.LBB27_79
	b	.LBB27_142
.LBB27_49:
	cmp	x20, #2
	b.lo	.LBB27_52
	sub	x21, x20, #1
	cmp	x21, #8
	b.hs	.LBB27_58
	mov	w24, #1
	mov	w23, #1
	b	.LBB27_76
.LBB27_52:
	mov	w21, #1
	cbnz	x20, .LBB27_79
	b	.LBB27_154
.LBB27_53:
	cmp	x22, #16
	b.hs	.LBB27_63
	mov	x23, xzr
	mov	w25, #1
.LBB27_55:
	movi	v1.2d, #0xffffffffffffffff
	add	x26, x19, x23, lsl #1
	add	x26, x5, x26
	mov	v1.b[0], w25
	and	x25, x22, #0xfffffffffffffff8
	orr	x24, x25, #0x1
	sub	x23, x23, x25
.LBB27_56:
	sub	x27, x26, #2
	ld2	{ v2.8b, v3.8b }, [x26], #16
	ld2	{ v4.8b, v5.8b }, [x27]
	adds	x23, x23, #8
	ushll	v6.8h, v2.8b, #0
	ushll	v2.8h, v3.8b, #0
	ushll	v3.8h, v4.8b, #0
	ushll	v4.8h, v5.8b, #0
	ushll2	v5.4s, v6.8h, #0
	ushll	v6.4s, v6.4h, #0
	ushll	v7.4s, v2.4h, #0
	ushll2	v2.4s, v2.8h, #0
	ushll2	v16.4s, v3.8h, #0
	ushll	v3.4s, v3.4h, #0
	ushll	v17.4s, v4.4h, #0
	ushll2	v4.4s, v4.8h, #0
	ushll2	v18.2d, v5.4s, #0
	ushll	v5.2d, v5.2s, #0
	ushll2	v19.2d, v6.4s, #0
	ushll	v6.2d, v6.2s, #0
	ushll2	v20.2d, v2.4s, #8
	ushll	v2.2d, v2.2s, #8
	ushll2	v21.2d, v7.4s, #8
	ushll	v7.2d, v7.2s, #8
	ushll2	v22.2d, v16.4s, #0
	ushll	v16.2d, v16.2s, #0
	ushll2	v23.2d, v3.4s, #0
	ushll	v3.2d, v3.2s, #0
	ushll2	v24.2d, v4.4s, #8
	ushll	v4.2d, v4.2s, #8
	ushll2	v25.2d, v17.4s, #8
	ushll	v17.2d, v17.2s, #8
	orr	v6.16b, v7.16b, v6.16b
	orr	v7.16b, v21.16b, v19.16b
	orr	v2.16b, v2.16b, v5.16b
	orr	v5.16b, v20.16b, v18.16b
	orr	v18.16b, v24.16b, v22.16b
	orr	v4.16b, v4.16b, v16.16b
	orr	v3.16b, v17.16b, v3.16b
	orr	v17.16b, v25.16b, v23.16b
	cmhi	v5.2d, v5.2d, v18.2d
	cmhi	v2.2d, v2.2d, v4.2d
	cmhi	v4.2d, v7.2d, v17.2d
	cmhi	v3.2d, v6.2d, v3.2d
	uzp1	v2.4s, v2.4s, v5.4s
	uzp1	v3.4s, v3.4s, v4.4s
	uzp1	v2.8h, v3.8h, v2.8h
	xtn	v2.8b, v2.8h
	and	v1.8b, v1.8b, v2.8b
	b.ne	.LBB27_56
	shl	v1.8b, v1.8b, #7
	cmp	x22, x25
	cmlt	v1.8b, v1.8b, #0
	uminv	b1, v1.8b
	fmov	w25, s1
	b.ne	.LBB27_68
	b	.LBB27_70
.LBB27_58:
	cmp	x21, #16
	b.hs	.LBB27_71
	mov	x22, xzr
	mov	w24, #1
.LBB27_60:
	movi	v1.2d, #0xffffffffffffffff
	add	x25, x19, x22, lsl #1
	add	x25, x5, x25
	mov	v1.b[0], w24
	and	x24, x21, #0xfffffffffffffff8
	orr	x23, x24, #0x1
	sub	x22, x22, x24
.LBB27_61:
	sub	x26, x25, #2
	ld2	{ v2.8b, v3.8b }, [x25], #16
	ld2	{ v4.8b, v5.8b }, [x26]
	adds	x22, x22, #8
	ushll	v6.8h, v2.8b, #0
	ushll	v2.8h, v3.8b, #0
	ushll	v3.8h, v4.8b, #0
	ushll	v4.8h, v5.8b, #0
	ushll2	v5.4s, v6.8h, #0
	ushll	v6.4s, v6.4h, #0
	ushll	v7.4s, v2.4h, #0
	ushll2	v2.4s, v2.8h, #0
	ushll2	v16.4s, v3.8h, #0
	ushll	v3.4s, v3.4h, #0
	ushll	v17.4s, v4.4h, #0
	ushll2	v4.4s, v4.8h, #0
	ushll2	v18.2d, v5.4s, #0
	ushll	v5.2d, v5.2s, #0
	ushll2	v19.2d, v6.4s, #0
	ushll	v6.2d, v6.2s, #0
	ushll2	v20.2d, v2.4s, #8
	ushll	v2.2d, v2.2s, #8
	ushll2	v21.2d, v7.4s, #8
	ushll	v7.2d, v7.2s, #8
	ushll2	v22.2d, v16.4s, #0
	ushll	v16.2d, v16.2s, #0
	ushll2	v23.2d, v3.4s, #0
	ushll	v3.2d, v3.2s, #0
	ushll2	v24.2d, v4.4s, #8
	ushll	v4.2d, v4.2s, #8
	ushll2	v25.2d, v17.4s, #8
	ushll	v17.2d, v17.2s, #8
	orr	v6.16b, v7.16b, v6.16b
	orr	v7.16b, v21.16b, v19.16b
	orr	v2.16b, v2.16b, v5.16b
	orr	v5.16b, v20.16b, v18.16b
	orr	v18.16b, v24.16b, v22.16b
	orr	v4.16b, v4.16b, v16.16b
	orr	v3.16b, v17.16b, v3.16b
	orr	v17.16b, v25.16b, v23.16b
	cmhi	v5.2d, v5.2d, v18.2d
	cmhi	v2.2d, v2.2d, v4.2d
	cmhi	v4.2d, v7.2d, v17.2d
	cmhi	v3.2d, v6.2d, v3.2d
	uzp1	v2.4s, v2.4s, v5.4s
	uzp1	v3.4s, v3.4s, v4.4s
	uzp1	v2.8h, v3.8h, v2.8h
	xtn	v2.8b, v2.8h
	and	v1.8b, v1.8b, v2.8b
	b.ne	.LBB27_61
	shl	v1.8b, v1.8b, #7
	cmp	x21, x24
	cmlt	v1.8b, v1.8b, #0
	uminv	b1, v1.8b
	fmov	w24, s1
	b.ne	.LBB27_76
	b	.LBB27_78
.LBB27_63:
	movi	v1.16b, #1
	and	x23, x22, #0xfffffffffffffff0
	add	x24, x5, x19
	and	x25, x22, #0xfffffffffffffff0
.LBB27_64:
	sub	x26, x24, #2
	ld2	{ v4.16b, v5.16b }, [x24], #32
	subs	x25, x25, #16
	ld2	{ v2.16b, v3.16b }, [x26]
	ushll2	v6.8h, v4.16b, #0
	ushll	v7.8h, v4.8b, #0
	ushll	v16.8h, v5.8b, #0
	ushll2	v4.8h, v5.16b, #0
	ushll2	v20.8h, v2.16b, #0
	ushll2	v5.4s, v6.8h, #0
	ushll	v6.4s, v6.4h, #0
	ushll	v18.4s, v7.4h, #0
	ushll	v19.4s, v16.4h, #0
	ushll	v21.4s, v4.4h, #0
	ushll2	v17.4s, v7.8h, #0
	ushll2	v16.4s, v16.8h, #0
	ushll2	v4.4s, v4.8h, #0
	ushll2	v7.2d, v5.4s, #0
	ushll	v22.2d, v5.2s, #0
	ushll2	v23.2d, v6.4s, #0
	ushll	v5.2d, v18.2s, #0
	ushll	v26.2d, v19.2s, #8
	ushll2	v18.2d, v18.4s, #0
	ushll2	v19.2d, v19.4s, #8
	ushll	v28.2d, v21.2s, #8
	ushll2	v21.2d, v21.4s, #8
	ushll	v24.2d, v6.2s, #0
	ushll2	v25.2d, v17.4s, #0
	ushll	v6.2d, v17.2s, #0
	ushll	v27.2d, v16.2s, #8
	ushll2	v17.2d, v4.4s, #8
	ushll2	v16.2d, v16.4s, #8
	ushll	v29.2d, v4.2s, #8
	orr	v4.16b, v26.16b, v5.16b
	orr	v5.16b, v19.16b, v18.16b
	ushll	v26.8h, v2.8b, #0
	orr	v19.16b, v21.16b, v23.16b
	ushll2	v21.8h, v3.16b, #0
	ushll	v2.8h, v3.8b, #0
	orr	v6.16b, v27.16b, v6.16b
	orr	v16.16b, v16.16b, v25.16b
	orr	v18.16b, v28.16b, v24.16b
	ushll2	v24.4s, v20.8h, #0
	ushll	v20.4s, v20.4h, #0
	orr	v22.16b, v29.16b, v22.16b
	ushll2	v23.4s, v26.8h, #0
	ushll	v25.4s, v26.4h, #0
	ushll2	v27.4s, v21.8h, #0
	ushll2	v29.4s, v2.8h, #0
	ushll	v21.4s, v21.4h, #0
	ushll	v2.4s, v2.4h, #0
	ushll2	v3.2d, v24.4s, #0
	ushll	v24.2d, v24.2s, #0
	ushll2	v26.2d, v20.4s, #0
	ushll	v20.2d, v20.2s, #0
	ushll2	v28.2d, v23.4s, #0
	ushll	v23.2d, v23.2s, #0
	ushll2	v30.2d, v25.4s, #0
	ushll	v25.2d, v25.2s, #0
	ushll2	v31.2d, v27.4s, #8
	ushll	v27.2d, v27.2s, #8
	ushll2	v8.2d, v21.4s, #8
	ushll	v21.2d, v21.2s, #8
	ushll2	v9.2d, v29.4s, #8
	ushll	v29.2d, v29.2s, #8
	ushll2	v10.2d, v2.4s, #8
	ushll	v2.2d, v2.2s, #8
	orr	v7.16b, v17.16b, v7.16b
	orr	v17.16b, v27.16b, v24.16b
	orr	v3.16b, v31.16b, v3.16b
	orr	v24.16b, v9.16b, v28.16b
	orr	v20.16b, v21.16b, v20.16b
	orr	v21.16b, v8.16b, v26.16b
	orr	v2.16b, v2.16b, v25.16b
	orr	v25.16b, v10.16b, v30.16b
	orr	v23.16b, v29.16b, v23.16b
	cmhi	v3.2d, v7.2d, v3.2d
	cmhi	v7.2d, v22.2d, v17.2d
	cmhi	v17.2d, v19.2d, v21.2d
	cmhi	v18.2d, v18.2d, v20.2d
	cmhi	v16.2d, v16.2d, v24.2d
	cmhi	v6.2d, v6.2d, v23.2d
	cmhi	v5.2d, v5.2d, v25.2d
	cmhi	v2.2d, v4.2d, v2.2d
	uzp1	v3.4s, v7.4s, v3.4s
	uzp1	v4.4s, v18.4s, v17.4s
	uzp1	v6.4s, v6.4s, v16.4s
	uzp1	v2.4s, v2.4s, v5.4s
	uzp1	v3.8h, v4.8h, v3.8h
	uzp1	v2.8h, v2.8h, v6.8h
	uzp1	v2.16b, v2.16b, v3.16b
	and	v1.16b, v1.16b, v2.16b
	b.ne	.LBB27_64
	shl	v1.16b, v1.16b, #7
	cmp	x22, x23
	cmlt	v1.16b, v1.16b, #0
	uminv	b1, v1.16b
	fmov	w25, s1
	b.eq	.LBB27_70
	tbnz	w22, #3, .LBB27_55
	orr	x24, x23, #0x1
.LBB27_68:
	add	x23, x19, x24, lsl #1
	sub	x22, x20, x24
	add	x23, x1, x23
.LBB27_69:
	ldrh	w24, [x23]
	ldurh	w26, [x23, #-2]
	add	x23, x23, #2
	cmp	x26, x24
	cset	w24, lo
	subs	x22, x22, #1
	and	w25, w25, w24
	b.ne	.LBB27_69
.LBB27_70:
	tbnz	w25, #0, .LBB27_79
	b	.LBB27_142
.LBB27_71:
	movi	v1.16b, #1
	and	x22, x21, #0xfffffffffffffff0
	add	x23, x5, x19
	and	x24, x21, #0xfffffffffffffff0
.LBB27_72:
	sub	x25, x23, #2
	ld2	{ v4.16b, v5.16b }, [x23], #32
	subs	x24, x24, #16
	ld2	{ v2.16b, v3.16b }, [x25]
	ushll2	v6.8h, v4.16b, #0
	ushll	v7.8h, v4.8b, #0
	ushll	v16.8h, v5.8b, #0
	ushll2	v4.8h, v5.16b, #0
	ushll2	v20.8h, v2.16b, #0
	ushll2	v5.4s, v6.8h, #0
	ushll	v6.4s, v6.4h, #0
	ushll	v18.4s, v7.4h, #0
	ushll	v19.4s, v16.4h, #0
	ushll	v21.4s, v4.4h, #0
	ushll2	v17.4s, v7.8h, #0
	ushll2	v16.4s, v16.8h, #0
	ushll2	v4.4s, v4.8h, #0
	ushll2	v7.2d, v5.4s, #0
	ushll	v22.2d, v5.2s, #0
	ushll2	v23.2d, v6.4s, #0
	ushll	v5.2d, v18.2s, #0
	ushll	v26.2d, v19.2s, #8
	ushll2	v18.2d, v18.4s, #0
	ushll2	v19.2d, v19.4s, #8
	ushll	v28.2d, v21.2s, #8
	ushll2	v21.2d, v21.4s, #8
	ushll	v24.2d, v6.2s, #0
	ushll2	v25.2d, v17.4s, #0
	ushll	v6.2d, v17.2s, #0
	ushll	v27.2d, v16.2s, #8
	ushll2	v17.2d, v4.4s, #8
	ushll2	v16.2d, v16.4s, #8
	ushll	v29.2d, v4.2s, #8
	orr	v4.16b, v26.16b, v5.16b
	orr	v5.16b, v19.16b, v18.16b
	ushll	v26.8h, v2.8b, #0
	orr	v19.16b, v21.16b, v23.16b
	ushll2	v21.8h, v3.16b, #0
	ushll	v2.8h, v3.8b, #0
	orr	v6.16b, v27.16b, v6.16b
	orr	v16.16b, v16.16b, v25.16b
	orr	v18.16b, v28.16b, v24.16b
	ushll2	v24.4s, v20.8h, #0
	ushll	v20.4s, v20.4h, #0
	orr	v22.16b, v29.16b, v22.16b
	ushll2	v23.4s, v26.8h, #0
	ushll	v25.4s, v26.4h, #0
	ushll2	v27.4s, v21.8h, #0
	ushll2	v29.4s, v2.8h, #0
	ushll	v21.4s, v21.4h, #0
	ushll	v2.4s, v2.4h, #0
	ushll2	v3.2d, v24.4s, #0
	ushll	v24.2d, v24.2s, #0
	ushll2	v26.2d, v20.4s, #0
	ushll	v20.2d, v20.2s, #0
	ushll2	v28.2d, v23.4s, #0
	ushll	v23.2d, v23.2s, #0
	ushll2	v30.2d, v25.4s, #0
	ushll	v25.2d, v25.2s, #0
	ushll2	v31.2d, v27.4s, #8
	ushll	v27.2d, v27.2s, #8
	ushll2	v8.2d, v21.4s, #8
	ushll	v21.2d, v21.2s, #8
	ushll2	v9.2d, v29.4s, #8
	ushll	v29.2d, v29.2s, #8
	ushll2	v10.2d, v2.4s, #8
	ushll	v2.2d, v2.2s, #8
	orr	v7.16b, v17.16b, v7.16b
	orr	v17.16b, v27.16b, v24.16b
	orr	v3.16b, v31.16b, v3.16b
	orr	v24.16b, v9.16b, v28.16b
	orr	v20.16b, v21.16b, v20.16b
	orr	v21.16b, v8.16b, v26.16b
	orr	v2.16b, v2.16b, v25.16b
	orr	v25.16b, v10.16b, v30.16b
	orr	v23.16b, v29.16b, v23.16b
	cmhi	v3.2d, v7.2d, v3.2d
	cmhi	v7.2d, v22.2d, v17.2d
	cmhi	v17.2d, v19.2d, v21.2d
	cmhi	v18.2d, v18.2d, v20.2d
	cmhi	v16.2d, v16.2d, v24.2d
	cmhi	v6.2d, v6.2d, v23.2d
	cmhi	v5.2d, v5.2d, v25.2d
	cmhi	v2.2d, v4.2d, v2.2d
	uzp1	v3.4s, v7.4s, v3.4s
	uzp1	v4.4s, v18.4s, v17.4s
	uzp1	v6.4s, v6.4s, v16.4s
	uzp1	v2.4s, v2.4s, v5.4s
	uzp1	v3.8h, v4.8h, v3.8h
	uzp1	v2.8h, v2.8h, v6.8h
	uzp1	v2.16b, v2.16b, v3.16b
	and	v1.16b, v1.16b, v2.16b
	b.ne	.LBB27_72
	shl	v1.16b, v1.16b, #7
	cmp	x21, x22
	cmlt	v1.16b, v1.16b, #0
	uminv	b1, v1.16b
	fmov	w24, s1
	b.eq	.LBB27_78
	tbnz	w21, #3, .LBB27_60
	orr	x23, x22, #0x1
.LBB27_76:
	add	x22, x19, x23, lsl #1
	sub	x21, x20, x23
	add	x22, x1, x22
.LBB27_77:
	ldrh	w23, [x22]
	ldurh	w25, [x22, #-2]
	add	x22, x22, #2
	cmp	x25, x23
	cset	w23, lo
	subs	x21, x21, #1
	and	w24, w24, w23
	b.ne	.LBB27_77
.LBB27_78:
	mov	x21, x20
	tbz	w24, #0, .LBB27_142
.LBB27_79:
	cmp	x6, x13
	b.hs	.LBB27_81
	add	x9, x21, x9
	b	.LBB27_128
.LBB27_81:
	b.hi	.LBB27_128
	and	w22, w7, #0xff
	cmp	w22, #2
	b.eq	.LBB27_87
	cmp	w22, #1
	b.ne	.LBB27_90
	cbz	x20, .LBB27_93
	cmp	x20, #8
	b.hs	.LBB27_96
	mov	x22, xzr
	mov	w24, wzr
	mov	x23, xzr
	b	.LBB27_116
.LBB27_87:
	cbz	x14, .LBB27_94
	cmp	w12, #256
	b.hs	.LBB27_101
	mov	x22, xzr
	mov	x23, xzr
	b	.LBB27_104
.LBB27_90:
	cbz	x20, .LBB27_95
	cmp	x20, #8
	b.hs	.LBB27_107
	mov	x22, xzr
	mov	w24, wzr
	mov	x23, xzr
	b	.LBB27_124
.LBB27_93:
	mov	x23, xzr
	mov	w22, #1
	b	.LBB27_119
.LBB27_94:
	mov	x22, xzr
	b	.LBB27_106
.LBB27_95:
	mov	x23, xzr
	and	w24, wzr, #0x1
	b	.LBB27_127
.LBB27_96:
	cmp	x20, #16
	b.hs	.LBB27_112
	mov	x22, xzr
	mov	w24, wzr
	mov	x23, xzr
.LBB27_98:
	movi	v3.2d, #0000000000000000
	movi	v1.2d, #0000000000000000
	mov	x25, x22
	movi	v2.2d, #0000000000000000
	movi	v4.2d, #0000000000000000
	movi	v5.2d, #0000000000000000
	mov	v3.b[0], w24
	mov	v1.d[0], x23
	add	x24, x19, x22, lsl #1
	and	x22, x20, #0xfffffffffffffff8
	sub	x23, x25, x22
	add	x24, x1, x24
.LBB27_99:
	ld2	{ v6.8b, v7.8b }, [x24], #16
	adds	x23, x23, #8
	ushll	v16.8h, v6.8b, #0
	ushll	v6.8h, v7.8b, #0
	ushll	v7.4s, v16.4h, #0
	ushll2	v16.4s, v16.8h, #0
	ushll2	v17.4s, v6.8h, #0
	ushll	v6.4s, v6.4h, #0
	ushll	v18.2d, v7.2s, #0
	ushll2	v7.2d, v7.4s, #0
	ushll	v19.2d, v16.2s, #0
	ushll2	v16.2d, v16.4s, #0
	ushll2	v20.2d, v17.4s, #8
	ushll	v21.2d, v6.2s, #8
	ushll2	v6.2d, v6.4s, #8
	ushll	v17.2d, v17.2s, #8
	orr	v16.16b, v20.16b, v16.16b
	orr	v17.16b, v17.16b, v19.16b
	orr	v6.16b, v6.16b, v7.16b
	orr	v7.16b, v21.16b, v18.16b
	cmeq	v18.2d, v16.2d, v0.2d
	cmhi	v16.2d, v0.2d, v16.2d
	cmeq	v19.2d, v17.2d, v0.2d
	cmeq	v20.2d, v6.2d, v0.2d
	cmeq	v21.2d, v7.2d, v0.2d
	cmhi	v17.2d, v0.2d, v17.2d
	cmhi	v7.2d, v0.2d, v7.2d
	cmhi	v6.2d, v0.2d, v6.2d
	sub	v5.2d, v5.2d, v16.2d
	uzp1	v18.4s, v19.4s, v18.4s
	uzp1	v19.4s, v21.4s, v20.4s
	sub	v2.2d, v2.2d, v17.2d
	sub	v4.2d, v4.2d, v6.2d
	sub	v1.2d, v1.2d, v7.2d
	uzp1	v18.8h, v19.8h, v18.8h
	xtn	v18.8b, v18.8h
	orr	v3.8b, v3.8b, v18.8b
	b.ne	.LBB27_99
	shl	v3.8b, v3.8b, #7
	add	v1.2d, v1.2d, v2.2d
	cmp	x20, x22
	add	v2.2d, v4.2d, v5.2d
	cmlt	v3.8b, v3.8b, #0
	add	v1.2d, v1.2d, v2.2d
	umaxv	b2, v3.8b
	addp	d1, v1.2d
	fmov	w23, s2
	and	w24, w23, #0x1
	fmov	x23, d1
	b.ne	.LBB27_116
	b	.LBB27_118
.LBB27_101:
	movi	v1.2d, #0000000000000000
	movi	v2.2d, #0000000000000000
	add	x22, x4, x19
	and	x23, x14, #0x3fc
.LBB27_102:
	ldp	q3, q4, [x22, #-16]
	subs	x23, x23, #4
	add	x22, x22, #32
	cnt	v3.16b, v3.16b
	cnt	v4.16b, v4.16b
	uaddlp	v3.8h, v3.16b
	uaddlp	v4.8h, v4.16b
	uaddlp	v3.4s, v3.8h
	uaddlp	v4.4s, v4.8h
	uadalp	v1.2d, v3.4s
	uadalp	v2.2d, v4.4s
	b.ne	.LBB27_102
	add	v1.2d, v2.2d, v1.2d
	cmp	x14, x17
	and	x23, x14, #0x3fc
	addp	d1, v1.2d
	fmov	x22, d1
	b.eq	.LBB27_106
.LBB27_104:
	add	x24, x19, x23, lsl #3
	sub	x23, x14, x23
	add	x24, x1, x24
.LBB27_105:
	ldr	d1, [x24], #8
	subs	x23, x23, #1
	cnt	v1.8b, v1.8b
	addv	b1, v1.8b
	fmov	x25, d1
	add	x22, x25, x22
	b.ne	.LBB27_105
.LBB27_106:
	add	x23, x1, x19
	ldr	x23, [x23, x14, lsl #3]
	and	x24, x23, x16
	lsr	x23, x23, x15
	fmov	d1, x24
	and	w24, w23, #0x1
	cnt	v1.8b, v1.8b
	addv	b1, v1.8b
	fmov	x25, d1
	add	x23, x22, x25
	b	.LBB27_127
.LBB27_107:
	cmp	x20, #16
	b.hs	.LBB27_120
	mov	x22, xzr
	mov	w24, wzr
	mov	x23, xzr
.LBB27_109:
	movi	v3.2d, #0000000000000000
	movi	v1.2d, #0000000000000000
	mov	x25, x22
	movi	v2.2d, #0000000000000000
	movi	v4.2d, #0000000000000000
	movi	v5.2d, #0000000000000000
	mov	v3.b[0], w24
	mov	v1.d[0], x23
	add	x24, x19, x22, lsl #1
	and	x22, x20, #0xfffffffffffffff8
	sub	x23, x25, x22
	add	x24, x1, x24
.LBB27_110:
	ld2	{ v6.8b, v7.8b }, [x24], #16
	adds	x23, x23, #8
	ushll	v16.8h, v6.8b, #0
	ushll	v6.8h, v7.8b, #0
	ushll	v7.4s, v16.4h, #0
	ushll2	v16.4s, v16.8h, #0
	ushll2	v17.4s, v6.8h, #0
	ushll	v6.4s, v6.4h, #0
	ushll	v18.2d, v7.2s, #0
	ushll2	v7.2d, v7.4s, #0
	ushll	v19.2d, v16.2s, #0
	ushll2	v16.2d, v16.4s, #0
	ushll2	v20.2d, v17.4s, #8
	ushll	v21.2d, v6.2s, #8
	ushll2	v6.2d, v6.4s, #8
	ushll	v17.2d, v17.2s, #8
	orr	v16.16b, v20.16b, v16.16b
	orr	v17.16b, v17.16b, v19.16b
	orr	v6.16b, v6.16b, v7.16b
	orr	v7.16b, v21.16b, v18.16b
	cmeq	v18.2d, v16.2d, v0.2d
	cmhi	v16.2d, v0.2d, v16.2d
	cmeq	v19.2d, v17.2d, v0.2d
	cmeq	v20.2d, v6.2d, v0.2d
	cmeq	v21.2d, v7.2d, v0.2d
	cmhi	v17.2d, v0.2d, v17.2d
	cmhi	v7.2d, v0.2d, v7.2d
	cmhi	v6.2d, v0.2d, v6.2d
	sub	v5.2d, v5.2d, v16.2d
	uzp1	v18.4s, v19.4s, v18.4s
	uzp1	v19.4s, v21.4s, v20.4s
	sub	v2.2d, v2.2d, v17.2d
	sub	v4.2d, v4.2d, v6.2d
	sub	v1.2d, v1.2d, v7.2d
	uzp1	v18.8h, v19.8h, v18.8h
	xtn	v18.8b, v18.8h
	orr	v3.8b, v3.8b, v18.8b
	b.ne	.LBB27_110
	shl	v3.8b, v3.8b, #7
	add	v1.2d, v1.2d, v2.2d
	cmp	x20, x22
	add	v2.2d, v4.2d, v5.2d
	cmlt	v3.8b, v3.8b, #0
	add	v1.2d, v1.2d, v2.2d
	umaxv	b2, v3.8b
	addp	d1, v1.2d
	fmov	w23, s2
	and	w24, w23, #0x1
	fmov	x23, d1
	b.ne	.LBB27_124
	b	.LBB27_126
.LBB27_112:
	movi	v1.2d, #0000000000000000
	movi	v2.2d, #0000000000000000
	add	x23, x1, x19
	movi	v4.2d, #0000000000000000
	movi	v5.2d, #0000000000000000
	and	x22, x20, #0xfffffffffffffff0
	movi	v3.2d, #0000000000000000
	movi	v16.2d, #0000000000000000
	and	x24, x20, #0xfffffffffffffff0
	movi	v6.2d, #0000000000000000
	movi	v17.2d, #0000000000000000
	movi	v7.2d, #0000000000000000
.LBB27_113:
	ld2	{ v18.16b, v19.16b }, [x23], #32
	subs	x24, x24, #16
	ushll	v20.8h, v18.8b, #0
	ushll2	v21.8h, v18.16b, #0
	ushll2	v22.8h, v19.16b, #0
	ushll	v18.8h, v19.8b, #0
	ushll	v19.4s, v20.4h, #0
	ushll2	v20.4s, v20.8h, #0
	ushll	v23.4s, v21.4h, #0
	ushll2	v21.4s, v21.8h, #0
	ushll2	v24.4s, v22.8h, #0
	ushll	v22.4s, v22.4h, #0
	ushll2	v25.4s, v18.8h, #0
	ushll	v18.4s, v18.4h, #0
	ushll	v26.2d, v19.2s, #0
	ushll2	v19.2d, v19.4s, #0
	ushll	v27.2d, v20.2s, #0
	ushll	v28.2d, v23.2s, #0
	ushll2	v20.2d, v20.4s, #0
	ushll2	v23.2d, v23.4s, #0
	ushll	v29.2d, v21.2s, #0
	ushll2	v21.2d, v21.4s, #0
	ushll	v30.2d, v24.2s, #8
	ushll2	v24.2d, v24.4s, #8
	ushll	v31.2d, v22.2s, #8
	ushll2	v8.2d, v25.4s, #8
	ushll2	v22.2d, v22.4s, #8
	ushll	v9.2d, v18.2s, #8
	ushll2	v18.2d, v18.4s, #8
	ushll	v25.2d, v25.2s, #8
	orr	v21.16b, v24.16b, v21.16b
	orr	v24.16b, v30.16b, v29.16b
	orr	v20.16b, v8.16b, v20.16b
	orr	v22.16b, v22.16b, v23.16b
	orr	v23.16b, v31.16b, v28.16b
	orr	v18.16b, v18.16b, v19.16b
	orr	v25.16b, v25.16b, v27.16b
	orr	v19.16b, v9.16b, v26.16b
	cmeq	v26.2d, v21.2d, v0.2d
	cmeq	v27.2d, v24.2d, v0.2d
	cmeq	v30.2d, v20.2d, v0.2d
	cmeq	v28.2d, v22.2d, v0.2d
	cmeq	v29.2d, v23.2d, v0.2d
	cmeq	v8.2d, v18.2d, v0.2d
	cmeq	v31.2d, v25.2d, v0.2d
	cmeq	v9.2d, v19.2d, v0.2d
	cmhi	v25.2d, v0.2d, v25.2d
	uzp1	v26.4s, v27.4s, v26.4s
	cmhi	v22.2d, v0.2d, v22.2d
	cmhi	v24.2d, v0.2d, v24.2d
	uzp1	v27.4s, v29.4s, v28.4s
	cmhi	v21.2d, v0.2d, v21.2d
	cmhi	v23.2d, v0.2d, v23.2d
	uzp1	v28.4s, v31.4s, v30.4s
	uzp1	v29.4s, v9.4s, v8.4s
	cmhi	v20.2d, v0.2d, v20.2d
	cmhi	v19.2d, v0.2d, v19.2d
	cmhi	v18.2d, v0.2d, v18.2d
	sub	v17.2d, v17.2d, v24.2d
	sub	v7.2d, v7.2d, v21.2d
	sub	v6.2d, v6.2d, v22.2d
	sub	v16.2d, v16.2d, v23.2d
	uzp1	v26.8h, v27.8h, v26.8h
	sub	v3.2d, v3.2d, v20.2d
	sub	v5.2d, v5.2d, v25.2d
	uzp1	v27.8h, v29.8h, v28.8h
	sub	v1.2d, v1.2d, v18.2d
	sub	v4.2d, v4.2d, v19.2d
	uzp1	v26.16b, v27.16b, v26.16b
	orr	v2.16b, v2.16b, v26.16b
	b.ne	.LBB27_113
	add	v4.2d, v4.2d, v16.2d
	add	v5.2d, v5.2d, v17.2d
	cmp	x20, x22
	add	v1.2d, v1.2d, v6.2d
	add	v3.2d, v3.2d, v7.2d
	shl	v2.16b, v2.16b, #7
	add	v4.2d, v4.2d, v5.2d
	add	v1.2d, v1.2d, v3.2d
	cmlt	v2.16b, v2.16b, #0
	add	v1.2d, v4.2d, v1.2d
	umaxv	b2, v2.16b
	addp	d1, v1.2d
	fmov	w23, s2
	and	w24, w23, #0x1
	fmov	x23, d1
	b.eq	.LBB27_118
	tbnz	w20, #3, .LBB27_98
.LBB27_116:
	add	x25, x19, x22, lsl #1
	sub	x22, x20, x22
	add	x25, x3, x25
.LBB27_117:
	ldurh	w26, [x25, #-1]
	add	x25, x25, #2
	cmp	x26, x12
	cset	w26, eq
	cinc	x23, x23, lo
	subs	x22, x22, #1
	orr	w24, w24, w26
	b.ne	.LBB27_117
.LBB27_118:
	eor	w22, w24, #0x1
.LBB27_119:
	sub	x23, x12, x23
	and	w24, w22, #0x1
	b	.LBB27_127
.LBB27_120:
	movi	v1.2d, #0000000000000000
	movi	v2.2d, #0000000000000000
	add	x23, x1, x19
	movi	v4.2d, #0000000000000000
	movi	v5.2d, #0000000000000000
	and	x22, x20, #0xfffffffffffffff0
	movi	v3.2d, #0000000000000000
	movi	v16.2d, #0000000000000000
	and	x24, x20, #0xfffffffffffffff0
	movi	v6.2d, #0000000000000000
	movi	v17.2d, #0000000000000000
	movi	v7.2d, #0000000000000000
.LBB27_121:
	ld2	{ v18.16b, v19.16b }, [x23], #32
	subs	x24, x24, #16
	ushll	v20.8h, v18.8b, #0
	ushll2	v21.8h, v18.16b, #0
	ushll2	v22.8h, v19.16b, #0
	ushll	v18.8h, v19.8b, #0
	ushll	v19.4s, v20.4h, #0
	ushll2	v20.4s, v20.8h, #0
	ushll	v23.4s, v21.4h, #0
	ushll2	v21.4s, v21.8h, #0
	ushll2	v24.4s, v22.8h, #0
	ushll	v22.4s, v22.4h, #0
	ushll2	v25.4s, v18.8h, #0
	ushll	v18.4s, v18.4h, #0
	ushll	v26.2d, v19.2s, #0
	ushll2	v19.2d, v19.4s, #0
	ushll	v27.2d, v20.2s, #0
	ushll	v28.2d, v23.2s, #0
	ushll2	v20.2d, v20.4s, #0
	ushll2	v23.2d, v23.4s, #0
	ushll	v29.2d, v21.2s, #0
	ushll2	v21.2d, v21.4s, #0
	ushll	v30.2d, v24.2s, #8
	ushll2	v24.2d, v24.4s, #8
	ushll	v31.2d, v22.2s, #8
	ushll2	v8.2d, v25.4s, #8
	ushll2	v22.2d, v22.4s, #8
	ushll	v9.2d, v18.2s, #8
	ushll2	v18.2d, v18.4s, #8
	ushll	v25.2d, v25.2s, #8
	orr	v21.16b, v24.16b, v21.16b
	orr	v24.16b, v30.16b, v29.16b
	orr	v20.16b, v8.16b, v20.16b
	orr	v22.16b, v22.16b, v23.16b
	orr	v23.16b, v31.16b, v28.16b
	orr	v18.16b, v18.16b, v19.16b
	orr	v25.16b, v25.16b, v27.16b
	orr	v19.16b, v9.16b, v26.16b
	cmeq	v26.2d, v21.2d, v0.2d
	cmeq	v27.2d, v24.2d, v0.2d
	cmeq	v30.2d, v20.2d, v0.2d
	cmeq	v28.2d, v22.2d, v0.2d
	cmeq	v29.2d, v23.2d, v0.2d
	cmeq	v8.2d, v18.2d, v0.2d
	cmeq	v31.2d, v25.2d, v0.2d
	cmeq	v9.2d, v19.2d, v0.2d
	cmhi	v25.2d, v0.2d, v25.2d
	uzp1	v26.4s, v27.4s, v26.4s
	cmhi	v22.2d, v0.2d, v22.2d
	cmhi	v24.2d, v0.2d, v24.2d
	uzp1	v27.4s, v29.4s, v28.4s
	cmhi	v21.2d, v0.2d, v21.2d
	cmhi	v23.2d, v0.2d, v23.2d
	uzp1	v28.4s, v31.4s, v30.4s
	uzp1	v29.4s, v9.4s, v8.4s
	cmhi	v20.2d, v0.2d, v20.2d
	cmhi	v19.2d, v0.2d, v19.2d
	cmhi	v18.2d, v0.2d, v18.2d
	sub	v17.2d, v17.2d, v24.2d
	sub	v7.2d, v7.2d, v21.2d
	sub	v6.2d, v6.2d, v22.2d
	sub	v16.2d, v16.2d, v23.2d
	uzp1	v26.8h, v27.8h, v26.8h
	sub	v3.2d, v3.2d, v20.2d
	sub	v5.2d, v5.2d, v25.2d
	uzp1	v27.8h, v29.8h, v28.8h
	sub	v1.2d, v1.2d, v18.2d
	sub	v4.2d, v4.2d, v19.2d
	uzp1	v26.16b, v27.16b, v26.16b
	orr	v2.16b, v2.16b, v26.16b
	b.ne	.LBB27_121
	add	v4.2d, v4.2d, v16.2d
	add	v5.2d, v5.2d, v17.2d
	cmp	x20, x22
	add	v1.2d, v1.2d, v6.2d
	add	v3.2d, v3.2d, v7.2d
	shl	v2.16b, v2.16b, #7
	add	v4.2d, v4.2d, v5.2d
	add	v1.2d, v1.2d, v3.2d
	cmlt	v2.16b, v2.16b, #0
	add	v1.2d, v4.2d, v1.2d
	umaxv	b2, v2.16b
	addp	d1, v1.2d
	fmov	w23, s2
	and	w24, w23, #0x1
	fmov	x23, d1
	b.eq	.LBB27_126
	tbnz	w20, #3, .LBB27_109
.LBB27_124:
	add	x25, x19, x22, lsl #1
	sub	x22, x20, x22
	add	x25, x3, x25
.LBB27_125:
	ldurh	w26, [x25, #-1]
	add	x25, x25, #2
	cmp	x26, x12
	cset	w26, eq
	cinc	x23, x23, lo
	subs	x22, x22, #1
	orr	w24, w24, w26
	b.ne	.LBB27_125
.LBB27_126:
	and	w24, w24, #0x1
.LBB27_127:
	add	x9, x23, x9
	orr	w11, w24, w11
.LBB27_128:
	and	w7, w7, #0xff
	cmp	w7, #2
	b.eq	.LBB27_130
	cmp	w7, #1
	lsl	x7, x20, #1
	subs	x8, x8, #1
	add	x10, x21, x10
	add	x7, x7, x19
	add	x19, x6, #1
	b.ne	.LBB27_5
	b	.LBB27_131
.LBB27_130:
	mov	w7, #8192
	subs	x8, x8, #1
	add	x10, x21, x10
	add	x7, x7, x19
	add	x19, x6, #1
	b.ne	.LBB27_5
.LBB27_131:
	and	x22, x11, #0xff
	b	.LBB27_139
.LBB27_132:
	subs	x10, x2, #1
	b.eq	.LBB27_137
	mov	x9, xzr
	sub	x8, x8, #128
	add	x11, x1, #1
	mov	w12, #128
.LBB27_134:
	ldrb	w13, [x11, x9]
	cmp	w13, #0
	cset	w14, eq
	cmp	w13, #1
	cset	w15, ne
	cmp	x9, #8
	csel	w14, w15, w14, eq
	tbnz	w14, #0, .LBB27_144
	tbz	w13, #7, .LBB27_145
	sub	x13, x13, #128
	add	x9, x9, #1
	madd	x8, x13, x12, x8
	lsl	x12, x12, #7
	cmp	x10, x9
	b.ne	.LBB27_134
.LBB27_137:
	mov	w8, #5
	mov	w9, #1
	stp	x2, xzr, [x0, #16]
	stp	x9, x8, [x0]
	ret
.LBB27_138:
	mov	x10, xzr
	mov	x9, xzr
	mov	x22, xzr
.LBB27_139:
	cmp	x7, x2
	b.ne	.LBB27_142
	mov	x21, xzr
	mov	x24, x10
	mov	x23, x9
	b	.LBB27_151
.LBB27_141:
	mov	x22, xzr
	mov	w24, #5
	mov	w21, #1
	mov	x23, x2
	b	.LBB27_151
.LBB27_142:
	mov	x23, xzr
	mov	x22, xzr
	mov	w24, #11
	b	.LBB27_150
.LBB27_143:
	mov	x22, xzr
	add	x8, x7, x20
	b	.LBB27_149
.LBB27_144:
	add	x2, x9, #1
	mov	w8, #6
	mov	w9, #1
	stp	x2, xzr, [x0, #16]
	stp	x9, x8, [x0]
	ret
.LBB27_145:
	madd	x8, x12, x13, x8
	mov	w10, #32766
	cmp	x8, x10
	b.ls	.LBB27_152
	adrp	x8, .LCPI27_0
	stp	xzr, xzr, [x0, #16]
	ldr	q0, [x8, :lo12:.LCPI27_0]
	str	q0, [x0]
	ret
.LBB27_147:
	mov	x22, xzr
	add	x8, x20, x7
	b	.LBB27_149
.LBB27_148:
	mov	x22, xzr
	add	x8, x21, x19
.LBB27_149:
	add	x23, x8, #1
	mov	w24, #6
.LBB27_150:
	mov	w21, #1
.LBB27_151:
	stp	x21, x24, [x0]
	ldp	x20, x19, [sp, #80]
	stp	x23, x22, [x0, #16]
	ldr	x27, [sp, #24]
	ldp	x22, x21, [sp, #64]
	ldp	x24, x23, [sp, #48]
	ldp	x26, x25, [sp, #32]
	ldp	d9, d8, [sp, #8]
	ldr	d10, [sp], #96
	ret
.LBB27_152:
	add	x7, x9, #2
	b	.LBB27_3
.LBB27_153:
	mov	x22, x23
	b	.LBB27_151
.LBB27_154:
	mov	x23, xzr
	mov	x22, xzr
	mov	w24, #11
	b	.LBB27_151
.Lfunc_end27:
	.size	"set_check::walk", .Lfunc_end27-"set_check::walk"

	.section	.rodata.cst16,"aM",@progbits,16
	.p2align	4, 0x0
.LCPI28_0:
	.xword	1
	.xword	15
	.section	".text.writer::write_checked","ax",@progbits
	.p2align	2
	.type	"writer::write_checked",@function
"writer::write_checked":
	stp	x29, x30, [sp, #-96]!
	stp	x28, x27, [sp, #16]
	mov	x29, sp
	stp	x26, x25, [sp, #32]
	stp	x24, x23, [sp, #48]
	stp	x22, x21, [sp, #64]
	stp	x20, x19, [sp, #80]
	sub	sp, sp, #3072
	str	xzr, [sp]
	sub	sp, sp, #1360
	mov	w20, w7
	mov	x19, x0
	str	xzr, [sp]
	stp	xzr, xzr, [sp, #40]
	str	xzr, [sp, #56]
	cbz	x6, .LBB28_32
	subs	x9, x6, #1
	b.eq	.LBB28_3
	cmp	x6, #256
	b.ls	.LBB28_4
.LBB28_3:
	adrp	x8, .LCPI28_0
	str	xzr, [x19, #16]
	ldr	q0, [x8, :lo12:.LCPI28_0]
	str	q0, [x19]
	b	.LBB28_33
.LBB28_4:
	mov	x10, xzr
	add	x8, sp, #64
.LBB28_5:
	add	x11, x5, x10, lsl #3
	ldp	x12, x11, [x11]
	cmp	x12, x11
	b.ge	.LBB28_3
	add	x10, x10, #1
	cmp	x9, x10
	b.ne	.LBB28_5
	movi	v0.2d, #0000000000000000
	cmp	x4, #127
	stp	q0, q0, [x8, #128]
	stp	q0, q0, [x8, #160]
	stp	q0, q0, [x8, #192]
	stp	q0, q0, [x8, #224]
	str	q0, [x8, #112]
	stp	q0, q0, [sp, #80]
	stp	q0, q0, [sp, #112]
	stp	q0, q0, [sp, #144]
	str	q0, [sp, #64]
	b.hi	.LBB28_18
	stp	q0, q0, [x8, #256]
	stp	q0, q0, [x8, #288]
	stp	q0, q0, [x8, #320]
	stp	q0, q0, [x8, #352]
	stp	q0, q0, [x8, #384]
	stp	q0, q0, [x8, #416]
	stp	q0, q0, [x8, #448]
	stp	q0, q0, [x8, #480]
	cbz	x4, .LBB28_28
	mov	w9, #5067
	mov	w10, #49969
	mov	x8, xzr
	movk	w9, #30053, lsl #16
	movk	w10, #13711, lsl #16
.LBB28_10:
	ldr	x11, [x3, x8, lsl #3]
	lsr	x12, x11, #32
	mul	w13, w11, w9
	eor	w12, w12, #0x80000000
	madd	w12, w12, w10, w13
	lsr	w13, w12, #24
	add	x12, sp, #320
	ldrb	w12, [x12, w13, uxtw]
	cmp	x6, x12
	b.ls	.LBB28_12
	ldr	x14, [x5, x12, lsl #3]
	cmp	x14, x11
	b.eq	.LBB28_15
.LBB28_12:
	mov	x12, xzr
	mov	x14, x6
.LBB28_13:
	sub	x15, x14, x12
	add	x15, x12, x15, lsr #1
	ldr	x16, [x5, x15, lsl #3]
	cmp	x16, x11
	csinc	x12, x12, x15, ge
	csel	x14, x15, x14, ge
	cmp	x12, x14
	b.lo	.LBB28_13
	add	x14, sp, #320
	strb	w12, [x14, w13, uxtw]
.LBB28_15:
	cmp	x12, x6
	b.hs	.LBB28_3
	ldr	x13, [x5, x12, lsl #3]
	cmp	x13, x11
	b.ne	.LBB28_3
	add	x8, x8, #1
	add	x11, sp, #64
	mov	w13, #1
	cmp	x8, x4
	strb	w13, [x11, x12]
	b.ne	.LBB28_10
	b	.LBB28_28
.LBB28_18:
	str	x1, [sp, #32]
	mov	x22, x2
	mov	w23, #5067
	mov	w24, #49969
	add	x0, sp, #320
	mov	w1, wzr
	mov	w2, #4096
	movk	w23, #30053, lsl #16
	movk	w24, #13711, lsl #16
	add	x25, sp, #320
	mov	x26, x6
	mov	x28, x5
	mov	x27, x4
	mov	x21, x3
	bl	memset
	mov	x3, x21
	mov	x4, x27
	mov	x5, x28
	mov	x6, x26
	mov	x8, xzr
.LBB28_19:
	ldr	x9, [x3, x8, lsl #3]
	lsr	x10, x9, #32
	mul	w11, w9, w23
	eor	w10, w10, #0x80000000
	madd	w10, w10, w24, w11
	lsr	w11, w10, #20
	ldrb	w10, [x25, w11, uxtw]
	cmp	x6, x10
	b.ls	.LBB28_21
	ldr	x12, [x5, x10, lsl #3]
	cmp	x12, x9
	b.eq	.LBB28_24
.LBB28_21:
	mov	x10, xzr
	mov	x12, x6
.LBB28_22:
	sub	x13, x12, x10
	add	x13, x10, x13, lsr #1
	ldr	x14, [x5, x13, lsl #3]
	cmp	x14, x9
	csinc	x10, x10, x13, ge
	csel	x12, x13, x12, ge
	cmp	x10, x12
	b.lo	.LBB28_22
	add	x12, sp, #320
	strb	w10, [x12, w11, uxtw]
.LBB28_24:
	cmp	x10, x6
	b.hs	.LBB28_3
	ldr	x11, [x5, x10, lsl #3]
	cmp	x11, x9
	b.ne	.LBB28_3
	add	x8, x8, #1
	add	x9, sp, #64
	mov	w11, #1
	cmp	x8, x4
	strb	w11, [x9, x10]
	b.ne	.LBB28_19
	ldr	x1, [sp, #32]
	mov	x2, x22
.LBB28_28:
	mov	x8, xzr
.LBB28_29:
	cmp	x6, x8
	b.eq	.LBB28_31
	add	x9, sp, #64
	ldrb	w9, [x9, x8]
	add	x8, x8, #1
	cbnz	w9, .LBB28_29
	b	.LBB28_3
.LBB28_31:
	mov	x0, x5
	mov	x21, x1
	mov	x1, x6
	mov	x22, x2
	mov	x2, x4
	mov	x23, x6
	mov	x25, x5
	mov	x24, x4
	mov	x26, x3
	bl	"table_values::saves"
	mov	x1, x21
	mov	x2, x22
	mov	x3, x26
	mov	x4, x24
	mov	x5, x25
	mov	x6, x23
	tbz	w0, #0, .LBB28_3
.LBB28_32:
	ldp	x9, x8, [x29, #96]
	cmp	x6, #0
	add	x0, sp, #40
	str	w20, [sp]
	stp	x9, x8, [sp, #8]
	mov	w8, #3
	csel	w7, wzr, w8, eq
	bl	"writer::write_by"
	ldrb	w8, [sp, #40]
	ldur	q0, [sp, #48]
	str	x8, [x19]
	stur	q0, [x19, #8]
.LBB28_33:
	add	sp, sp, #1, lsl #12
	add	sp, sp, #336
	ldp	x20, x19, [sp, #80]
	ldp	x22, x21, [sp, #64]
	ldp	x24, x23, [sp, #48]
	ldp	x26, x25, [sp, #32]
	ldp	x28, x27, [sp, #16]
	ldp	x29, x30, [sp], #96
	ret
.Lfunc_end28:
	.size	"writer::write_checked", .Lfunc_end28-"writer::write_checked"

	.section	.rodata.cst16,"aM",@progbits,16
	.p2align	4, 0x0
.LCPI29_0:
	.xword	1
	.xword	4
	.section	".text.writer::write_by","ax",@progbits
	.p2align	2
	.type	"writer::write_by",@function
"writer::write_by":
	stp	x29, x30, [sp, #-96]!
	stp	x28, x27, [sp, #16]
	mov	x29, sp
	stp	x26, x25, [sp, #32]
	stp	x24, x23, [sp, #48]
	stp	x22, x21, [sp, #64]
	stp	x20, x19, [sp, #80]
	sub	sp, sp, #3072
	str	xzr, [sp]
	sub	sp, sp, #1120
	and	w8, w7, #0xff
	ldr	w19, [x29, #96]
	mov	x23, x5
	mov	x20, x4
	mov	x26, x2
	mov	x27, x1
	cmp	w8, #1
	mov	x21, x0
	str	xzr, [sp]
	str	x6, [sp, #40]
	str	x3, [sp, #72]
	b.gt	.LBB29_3
	mov	x22, x21
	mov	w24, w7
	cbnz	w8, .LBB29_29
	mov	w21, wzr
	b	.LBB29_30
.LBB29_3:
	cmp	w8, #2
	b.ne	.LBB29_34
	add	x0, sp, #80
	mov	x1, x3
	mov	x2, x20
	stp	xzr, xzr, [sp, #80]
	mov	w22, w7
	str	xzr, [sp, #96]
	bl	"scaling::scale_of"
	ldr	x3, [sp, #72]
	ldr	x24, [sp, #88]
	mov	w7, w22
	str	xzr, [sp, #56]
	mov	x22, xzr
	cbnz	x26, .LBB29_41
.LBB29_5:
	mov	w11, #1
	mov	w9, #14
	and	w8, w7, #0xff
	str	x9, [sp, #64]
	cmp	w8, #2
	b.lo	.LBB29_48
.LBB29_6:
	b.ne	.LBB29_35
	and	x8, x20, #0x3fff
	mov	w9, #16383
	add	x8, x8, x9
	lsr	x8, x8, #14
	adds	x10, x8, x20, lsr #14
	b.eq	.LBB29_209
	mov	w8, #25
	mov	x13, xzr
	add	x14, x3, #16
	mul	x12, x10, x8
	mov	x15, x3
	mov	x8, x20
.LBB29_9:
	subs	x16, x8, #4, lsl #12
	mov	w9, #16384
	csel	x18, x8, x9, lo
	subs	x8, x20, x13, lsl #14
	cmp	x8, #4, lsl #12
	csel	x17, x8, x9, lo
	cmp	x20, x13, lsl #14
	b.ne	.LBB29_13
	mov	x1, #-9223372036854775808
	mov	x2, #-9223372036854775808
.LBB29_11:
	cbz	x24, .LBB29_230
	sub	x8, x2, x1
	mov	w9, #64
	add	x13, x13, #1
	udiv	x8, x8, x24
	cmp	x13, x10
	add	x14, x14, #32, lsl #12
	add	x15, x15, #32, lsl #12
	clz	x8, x8
	sub	x8, x9, x8
	mov	x9, #7
	madd	x8, x8, x17, x9
	add	x12, x12, x8, lsr #3
	mov	x8, x16
	b.ne	.LBB29_9
	b	.LBB29_49
.LBB29_13:
	lsl	x8, x13, #17
	mov	x0, xzr
	ldr	x8, [x3, x8]
	eor	x2, x8, #0x8000000000000000
	mov	x1, x2
	b	.LBB29_15
.LBB29_14:
	cmp	x5, x17
	mov	x0, x5
	b.hs	.LBB29_11
.LBB29_15:
	sub	x8, x17, x0
	mov	w9, #1024
	lsl	x4, x0, #3
	cmp	x8, #1024
	csel	x6, x8, x9, lo
	cmp	x8, #4
	b.hs	.LBB29_17
	mov	x5, xzr
	b	.LBB29_20
.LBB29_17:
	dup	v0.2d, x2
	dup	v1.2d, x1
	sub	x8, x18, x0
	mov	w9, #1024
	cmp	x8, #1024
	and	x5, x6, #0x7fc
	csel	x9, x8, x9, lo
	add	x8, x14, x4
	add	x2, x15, x4
	mov	v2.16b, v1.16b
	mov	v3.16b, v0.16b
	and	x1, x9, #0x7fc
.LBB29_18:
	movi	v4.2d, #0000000000000000
	ldr	q5, [x2], #32
	ldr	q6, [x8], #32
	subs	x1, x1, #4
	fneg	v4.2d, v4.2d
	eor	v5.16b, v5.16b, v4.16b
	eor	v4.16b, v6.16b, v4.16b
	cmhi	v6.2d, v1.2d, v5.2d
	cmhi	v7.2d, v2.2d, v4.2d
	cmhi	v16.2d, v5.2d, v0.2d
	cmhi	v17.2d, v4.2d, v3.2d
	bit	v1.16b, v5.16b, v6.16b
	bit	v2.16b, v4.16b, v7.16b
	bit	v0.16b, v5.16b, v16.16b
	bit	v3.16b, v4.16b, v17.16b
	b.ne	.LBB29_18
	cmhi	v4.2d, v2.2d, v1.2d
	cmhi	v5.2d, v0.2d, v3.2d
	cmp	x6, x5
	bif	v1.16b, v2.16b, v4.16b
	bif	v0.16b, v3.16b, v5.16b
	ext	v2.16b, v1.16b, v1.16b, #8
	ext	v3.16b, v0.16b, v0.16b, #8
	cmhi	d4, d2, d1
	cmhi	d5, d0, d3
	bif	v1.8b, v2.8b, v4.8b
	bif	v0.8b, v3.8b, v5.8b
	fmov	x1, d1
	fmov	x2, d0
	b.eq	.LBB29_22
.LBB29_20:
	sub	x8, x18, x0
	mov	w9, #1024
	cmp	x8, #1024
	csel	x9, x8, x9, lo
	add	x8, x4, x5, lsl #3
	sub	x9, x9, x5
.LBB29_21:
	ldr	x4, [x15, x8]
	add	x8, x8, #8
	eor	x4, x4, #0x8000000000000000
	cmp	x4, x1
	csel	x1, x4, x1, lo
	cmp	x4, x2
	csel	x2, x4, x2, hi
	subs	x9, x9, #1
	b.ne	.LBB29_21
.LBB29_22:
	add	x5, x6, x0
	sub	x8, x17, x5
	cmp	x8, #128
	b.lo	.LBB29_14
	subs	x8, x2, x1
	b.mi	.LBB29_14
	sub	x9, x18, x0
	mov	w4, #1024
	dup	v0.2d, x1
	cmp	x9, #1024
	dup	v1.2d, x8
	csel	x9, x9, x4, lo
	add	x8, x0, x9
	lsl	x8, x8, #3
.LBB29_25:
	movi	v2.2d, #0000000000000000
	movi	v3.2d, #0000000000000000
	mov	w9, #128
	movi	v4.2d, #0000000000000000
	mov	x0, x8
.LBB29_26:
	fneg	v5.2d, v2.2d
	ldr	q6, [x15, x0]
	ldr	q7, [x14, x0]
	subs	x9, x9, #4
	add	x0, x0, #32
	eor	v6.16b, v6.16b, v5.16b
	eor	v5.16b, v7.16b, v5.16b
	sub	v6.2d, v6.2d, v0.2d
	sub	v5.2d, v5.2d, v0.2d
	sub	v7.2d, v1.2d, v6.2d
	sub	v16.2d, v1.2d, v5.2d
	orr	v3.16b, v3.16b, v6.16b
	orr	v4.16b, v4.16b, v5.16b
	orr	v3.16b, v3.16b, v7.16b
	orr	v4.16b, v4.16b, v16.16b
	b.ne	.LBB29_26
	orr	v2.16b, v4.16b, v3.16b
	ext	v3.16b, v2.16b, v2.16b, #8
	orr	v2.8b, v2.8b, v3.8b
	fmov	x9, d2
	tbnz	x9, #63, .LBB29_14
	add	x5, x5, #128
	add	x8, x8, #1024
	sub	x9, x17, x5
	cmp	x9, #127
	b.hi	.LBB29_25
	b	.LBB29_14
.LBB29_29:
	mov	w21, #1
.LBB29_30:
	add	x0, sp, #80
	mov	x1, x3
	mov	x2, x20
	stp	xzr, xzr, [sp, #80]
	str	xzr, [sp, #96]
	bl	"scaling::scale_of"
	ldr	x9, [sp, #96]
	mov	w10, #64
	clz	x8, x9
	sub	x10, x10, x8
	str	x10, [sp, #56]
	cbz	w21, .LBB29_37
	ldr	x3, [sp, #72]
	cmp	x9, #4
	mov	x21, x22
	mov	w7, w24
	b.lo	.LBB29_40
	lsr	x9, x9, #32
	cbnz	x9, .LBB29_38
	mov	w9, #67
	sub	w8, w9, w8
	and	x8, x8, #0x7c
	b	.LBB29_39
.LBB29_34:
	ldr	x24, [sp, #40]
	mov	w9, #64
	mov	x22, xzr
	sub	x8, x24, #1
	clz	x8, x8
	sub	x8, x9, x8
	str	x8, [sp, #56]
	cbnz	x26, .LBB29_41
	b	.LBB29_5
.LBB29_35:
	sub	x8, x24, #1
	mov	w9, #64
	clz	x8, x8
	sub	x8, x9, x8
	mov	x9, #7
	madd	x8, x8, x20, x9
	lsr	x8, x8, #3
	add	x12, x8, x24, lsl #3
	mov	w10, #1
	cmp	x26, #128
	b.hs	.LBB29_50
.LBB29_36:
	ldr	x15, [sp, #64]
	mov	x1, x22
	mov	w13, #1
	cmp	w19, #128
	b.lo	.LBB29_55
	b	.LBB29_53
.LBB29_37:
	ldr	x3, [sp, #72]
	mov	x21, x22
	mov	w7, w24
	b	.LBB29_40
.LBB29_38:
	mov	w9, #71
	sub	w8, w9, w8
	and	x8, x8, #0x78
.LBB29_39:
	str	x8, [sp, #56]
.LBB29_40:
	ldp	x22, x24, [sp, #80]
	cbz	x26, .LBB29_5
.LBB29_41:
	mov	w8, #17
	mov	w10, #1
	cmp	w19, #0
	sub	x8, x8, x19
	mov	x9, xzr
	mov	x11, x27
	lsl	x8, x10, x8
	mov	w10, #8192
	add	x8, x8, #2, lsl #12
	csel	x8, x10, x8, eq
	mov	x10, x26
	b	.LBB29_44
.LBB29_42:
	mov	x13, xzr
.LBB29_43:
	add	x14, x11, x13, lsl #2
	ldrh	w14, [x14, #2]
	cmp	w12, w14
	cinc	x12, x13, eq
	lsl	x13, x12, #1
	cmp	x12, #16, lsl #12
	add	x11, x11, x12, lsl #2
	csel	x14, x8, xzr, lo
	cmp	x12, #1, lsl #12
	sub	x10, x10, x12
	csel	x13, x13, x14, lo
	add	x9, x9, x13
	add	x9, x9, #4
	cbz	x10, .LBB29_47
.LBB29_44:
	ldrh	w12, [x11, #2]
	cmp	x10, #1
	b.eq	.LBB29_42
	cmp	x10, #16
	mov	w14, #16
	mov	x13, xzr
	csel	x15, x10, x14, lo
	add	x15, x11, x15, lsl #2
	ldurh	w15, [x15, #-2]
	cmp	w12, w15
	mov	w15, #65536
	csel	x14, x15, x14, eq
	cmp	x14, x10
	csel	x14, x14, x10, lo
.LBB29_46:
	lsr	x15, x14, #1
	add	x16, x15, x13
	sub	x14, x14, x15
	add	x17, x11, x16, lsl #2
	ldrh	w17, [x17, #2]
	cmp	w12, w17
	csel	x13, x16, x13, eq
	cmp	x14, #1
	b.hi	.LBB29_46
	b	.LBB29_43
.LBB29_47:
	add	x8, x27, x26, lsl #2
	ldur	w8, [x8, #-4]
	lsr	w8, w8, #16
	lsl	w10, w8, #3
	cmp	w8, #0
	add	w8, w8, #2
	csel	w11, wzr, w8, eq
	add	w10, w10, #16
	csel	w10, wzr, w10, eq
	add	x9, x9, x10
	add	x9, x9, #6
	and	w8, w7, #0xff
	str	x9, [sp, #64]
	cmp	w8, #2
	b.hs	.LBB29_6
.LBB29_48:
	ldr	x9, [sp, #56]
	mov	x8, #7
	madd	x8, x9, x20, x8
	lsr	x12, x8, #3
.LBB29_49:
	mov	w10, #1
	cmp	x26, #128
	b.lo	.LBB29_36
.LBB29_50:
	ldr	x15, [sp, #64]
	mov	x8, x26
	mov	x1, x22
.LBB29_51:
	lsr	x9, x8, #14
	lsr	x8, x8, #7
	add	x10, x10, #1
	cbnz	x9, .LBB29_51
	mov	w13, #1
	cmp	w19, #128
	b.lo	.LBB29_55
.LBB29_53:
	mov	x8, x19
.LBB29_54:
	lsr	x9, x8, #14
	lsr	x8, x8, #7
	add	x13, x13, #1
	cbnz	x9, .LBB29_54
.LBB29_55:
	mov	w14, #1
	cmp	x15, #128
	b.lo	.LBB29_58
	mov	x8, x15
.LBB29_57:
	lsr	x9, x8, #14
	lsr	x8, x8, #7
	add	x14, x14, #1
	cbnz	x9, .LBB29_57
.LBB29_58:
	mov	w15, #1
	cmp	x11, #128
	b.lo	.LBB29_61
	mov	x8, x11
.LBB29_60:
	lsr	x9, x8, #14
	lsr	x8, x8, #7
	add	x15, x15, #1
	cbnz	x9, .LBB29_60
.LBB29_61:
	mov	w16, #1
	cmp	x1, #128
	b.lo	.LBB29_64
	mov	x8, x1
.LBB29_63:
	lsr	x9, x8, #14
	lsr	x8, x8, #7
	add	x16, x16, #1
	cbnz	x9, .LBB29_63
.LBB29_64:
	mov	w8, #1
	cmp	x24, #128
	b.lo	.LBB29_67
	mov	x9, x24
.LBB29_66:
	lsr	x17, x9, #14
	lsr	x9, x9, #7
	add	x8, x8, #1
	cbnz	x17, .LBB29_66
.LBB29_67:
	ldr	x9, [x29, #112]
	mov	w17, #1
	cmp	x12, #128
	b.lo	.LBB29_70
	mov	x18, x12
.LBB29_69:
	lsr	x0, x18, #14
	lsr	x18, x18, #7
	add	x17, x17, #1
	cbnz	x0, .LBB29_69
.LBB29_70:
	ldr	x18, [sp, #64]
	add	x10, x10, x13
	add	x13, x14, x15
	add	x13, x13, x16
	add	x8, x8, x17
	add	x18, x18, x12
	add	x10, x18, x10
	add	x10, x10, x13
	add	x8, x10, x8
	add	x10, x8, #2
	cmp	x9, x10
	b.hs	.LBB29_72
	adrp	x8, .LCPI29_0
	str	x10, [x21, #16]
	ldr	q0, [x8, :lo12:.LCPI29_0]
	str	q0, [x21]
	b	.LBB29_226
.LBB29_72:
	str	x10, [sp, #16]
	ldr	x10, [x29, #104]
	add	w8, w7, #1
	cmp	x26, #128
	strb	w8, [x10]
	mov	w8, #1
	b.lo	.LBB29_82
	ldr	x17, [sp, #64]
	mov	x13, x26
.LBB29_74:
	lsr	x9, x13, #7
	lsr	x14, x13, #14
	orr	w13, w13, #0x80
	strb	w13, [x10, x8]
	add	x8, x8, #1
	mov	x13, x9
	cbnz	x14, .LBB29_74
	cmp	w19, #128
	strb	w9, [x10, x8]
	add	x8, x8, #1
	b.lo	.LBB29_83
.LBB29_76:
	mov	x13, x19
.LBB29_77:
	lsr	x9, x13, #7
	lsr	x14, x13, #14
	orr	w13, w13, #0x80
	strb	w13, [x10, x8]
	add	x8, x8, #1
	mov	x13, x9
	cbnz	x14, .LBB29_77
	cmp	x17, #128
	strb	w9, [x10, x8]
	add	x8, x8, #1
	b.lo	.LBB29_84
.LBB29_79:
	mov	x13, x17
.LBB29_80:
	lsr	x9, x13, #7
	lsr	x14, x13, #14
	orr	w13, w13, #0x80
	strb	w13, [x10, x8]
	add	x8, x8, #1
	mov	x13, x9
	cbnz	x14, .LBB29_80
	cmp	x11, #128
	strb	w9, [x10, x8]
	add	x8, x8, #1
	b.hs	.LBB29_85
	b	.LBB29_86
.LBB29_82:
	ldr	x17, [sp, #64]
	mov	x9, x26
	cmp	w19, #128
	strb	w9, [x10, x8]
	add	x8, x8, #1
	b.hs	.LBB29_76
.LBB29_83:
	mov	x9, x19
	cmp	x17, #128
	strb	w9, [x10, x8]
	add	x8, x8, #1
	b.hs	.LBB29_79
.LBB29_84:
	mov	x9, x17
	cmp	x11, #128
	strb	w9, [x10, x8]
	add	x8, x8, #1
	b.lo	.LBB29_86
.LBB29_85:
	lsr	x9, x11, #7
	lsr	x13, x11, #14
	orr	w11, w11, #0x80
	strb	w11, [x10, x8]
	add	x8, x8, #1
	mov	x11, x9
	cbnz	x13, .LBB29_85
	b	.LBB29_87
.LBB29_86:
	mov	x9, x11
.LBB29_87:
	add	x11, x10, x8
	cmp	x1, #128
	add	x8, x8, #2
	strb	w9, [x11]
	ldr	x9, [sp, #56]
	strb	w9, [x11, #1]
	b.lo	.LBB29_94
	mov	x11, x1
.LBB29_89:
	lsr	x9, x11, #7
	lsr	x13, x11, #14
	orr	w11, w11, #0x80
	strb	w11, [x10, x8]
	add	x8, x8, #1
	mov	x11, x9
	cbnz	x13, .LBB29_89
	cmp	x24, #128
	strb	w9, [x10, x8]
	add	x8, x8, #1
	b.lo	.LBB29_95
.LBB29_91:
	mov	x11, x24
.LBB29_92:
	lsr	x9, x11, #7
	lsr	x13, x11, #14
	orr	w11, w11, #0x80
	strb	w11, [x10, x8]
	add	x8, x8, #1
	mov	x11, x9
	cbnz	x13, .LBB29_92
	cmp	x12, #128
	add	x11, x8, #1
	strb	w9, [x10, x8]
	b.hs	.LBB29_96
	b	.LBB29_161
.LBB29_94:
	mov	x9, x1
	cmp	x24, #128
	strb	w9, [x10, x8]
	add	x8, x8, #1
	b.hs	.LBB29_91
.LBB29_95:
	mov	x9, x24
	cmp	x12, #128
	add	x11, x8, #1
	strb	w9, [x10, x8]
	b.lo	.LBB29_161
.LBB29_96:
	lsr	x8, x12, #7
	lsr	x9, x12, #14
	orr	w12, w12, #0x80
	strb	w12, [x10, x11]
	add	x11, x11, #1
	mov	x12, x8
	cbnz	x9, .LBB29_96
	add	x18, x11, #1
	str	x1, [sp, #8]
	str	w7, [sp, #36]
	strb	w8, [x10, x11]
	str	x21, [sp, #24]
	cbz	x26, .LBB29_162
.LBB29_98:
	mov	w8, #17
	mov	w9, #1
	mov	w12, #16
	sub	x8, x8, x19
	sub	x14, x19, #6
	mov	w13, #2
	lsl	x8, x9, x8
	sub	x17, x12, x19
	cmp	w19, #0
	mov	w15, #8192
	lsl	x18, x9, x14
	lsl	x9, x13, x17
	add	x8, x8, #2, lsl #12
	add	x7, x11, #1
	mov	x1, x26
	csel	x13, x15, x8, eq
	mov	x2, x27
	str	x9, [sp, #48]
	b	.LBB29_100
.LBB29_99:
	lsl	x8, x16, #1
	sub	x1, x1, x16
	add	x7, x8, x5
	mov	x2, x4
	cbz	x1, .LBB29_143
.LBB29_100:
	ldr	w8, [x2]
	cmp	x1, #1
	lsr	w8, w8, #16
	b.ne	.LBB29_102
	mov	x21, xzr
	b	.LBB29_104
.LBB29_102:
	cmp	x1, #16
	mov	w9, #16
	mov	x21, xzr
	csel	x12, x1, x9, lo
	add	x12, x2, x12, lsl #2
	ldurh	w12, [x12, #-2]
	cmp	w8, w12
	mov	w12, #65536
	csel	x9, x12, x9, eq
	cmp	x9, x1
	csel	x9, x9, x1, lo
.LBB29_103:
	lsr	x12, x9, #1
	add	x15, x12, x21
	sub	x9, x9, x12
	add	x16, x2, x15, lsl #2
	ldrh	w16, [x16, #2]
	cmp	w8, w16
	csel	x21, x15, x21, eq
	cmp	x9, #1
	b.hi	.LBB29_103
.LBB29_104:
	add	x9, x2, x21, lsl #2
	add	x12, x10, x7
	add	x5, x7, #4
	ldrh	w9, [x9, #2]
	strh	w8, [x12]
	cmp	w8, w9
	mov	w9, #1
	cinc	x16, x21, eq
	cset	w28, eq
	cmp	x16, #16, lsl #12
	add	x4, x2, x16, lsl #2
	sub	w8, w16, #1
	cinc	w9, w9, hs
	cmp	x16, #1, lsl #12
	strh	w8, [x12, #2]
	csel	w9, wzr, w9, lo
	cmp	w9, #2
	b.eq	.LBB29_124
	cmp	w9, #1
	b.ne	.LBB29_117
	add	x7, x10, x5
	cbz	w19, .LBB29_126
	ldr	x8, [sp, #48]
	mov	x3, xzr
	mov	x21, xzr
	mov	x28, xzr
	add	x30, x7, x8
	b	.LBB29_109
.LBB29_108:
	add	x28, x28, #1
	add	x21, x12, x21
	lsr	x8, x28, x17
	cbnz	x8, .LBB29_124
.LBB29_109:
	lsl	x8, x28, x14
	rev	x9, x21
	mov	x25, xzr
	mov	x12, xzr
	lsr	x9, x9, #48
	add	x6, x30, x8, lsl #3
	strh	w9, [x7, x28, lsl #1]
	b	.LBB29_113
.LBB29_110:
	mov	x9, xzr
.LBB29_111:
	mov	x3, x16
.LBB29_112:
	fmov	d0, x9
	str	x9, [x6, x25, lsl #3]
	add	x25, x25, #1
	cmp	x25, x18
	cnt	v0.8b, v0.8b
	addv	b0, v0.8b
	fmov	x9, d0
	add	x12, x9, x12
	b.eq	.LBB29_108
.LBB29_113:
	cmp	x3, x16
	b.hs	.LBB29_110
	mov	x9, xzr
	add	x15, x25, x8
.LBB29_115:
	lsl	x22, x3, #2
	ldrh	w22, [x2, x22]
	cmp	x15, x22, lsr #6
	b.ne	.LBB29_112
	mov	w0, #1
	add	x3, x3, #1
	lsl	x0, x0, x22
	cmp	x16, x3
	add	x9, x0, x9
	b.ne	.LBB29_115
	b	.LBB29_111
.LBB29_117:
	cbz	x16, .LBB29_99
	cmp	x16, #4
	b.lo	.LBB29_121
	add	x8, x10, x5
	cmp	x8, x4
	b.hs	.LBB29_134
	add	x8, x10, #4
	add	x8, x8, x7
	add	x8, x8, x16, lsl #1
	cmp	x2, x8
	b.hs	.LBB29_134
.LBB29_121:
	mov	x3, xzr
.LBB29_122:
	add	x12, x7, x3, lsl #1
	add	x9, x21, x28
	add	x8, x2, x3, lsl #2
	add	x15, x10, #4
	sub	x9, x9, x3
	add	x12, x15, x12
.LBB29_123:
	ldr	w15, [x8], #4
	subs	x9, x9, #1
	strh	w15, [x12], #2
	b.ne	.LBB29_123
.LBB29_124:
	cmp	x16, #4095
	b.ls	.LBB29_99
	cmp	x16, #16, lsl #12
	csel	x8, x13, xzr, lo
	sub	x1, x1, x16
	add	x7, x8, x5
	mov	x2, x4
	cbnz	x1, .LBB29_100
	b	.LBB29_143
.LBB29_126:
	mov	x8, xzr
	mov	x12, xzr
	b	.LBB29_130
.LBB29_127:
	mov	x9, xzr
.LBB29_128:
	mov	x12, x16
.LBB29_129:
	str	x9, [x7, x8, lsl #3]
	add	x8, x8, #1
	cmp	x8, #1024
	b.eq	.LBB29_124
.LBB29_130:
	cmp	x12, x16
	b.hs	.LBB29_127
	mov	x9, xzr
.LBB29_132:
	lsl	x15, x12, #2
	ldrh	w15, [x2, x15]
	cmp	x8, x15, lsr #6
	b.ne	.LBB29_129
	mov	w3, #1
	add	x12, x12, #1
	lsl	x15, x3, x15
	cmp	x16, x12
	add	x9, x15, x9
	b.ne	.LBB29_132
	b	.LBB29_128
.LBB29_134:
	cmp	x16, #16
	b.hs	.LBB29_136
	mov	x3, xzr
	b	.LBB29_140
.LBB29_136:
	add	x9, x10, #20
	and	x8, x16, #0xc
	and	x3, x16, #0xfffffffffffffff0
	add	x9, x9, x7
	add	x12, x2, #32
	and	x15, x16, #0xfffffffffffffff0
.LBB29_137:
	ldp	q1, q0, [x12, #-32]
	subs	x15, x15, #16
	ldp	q3, q2, [x12], #64
	uzp1	v0.8h, v1.8h, v0.8h
	uzp1	v1.8h, v3.8h, v2.8h
	stp	q0, q1, [x9, #-16]
	add	x9, x9, #32
	b.ne	.LBB29_137
	cmp	x16, x3
	b.eq	.LBB29_124
	cbz	x8, .LBB29_122
.LBB29_140:
	mov	x9, x3
	and	x3, x16, #0xfffffffffffffffc
	add	x15, x10, #4
	add	x12, x7, x9, lsl #1
	add	x8, x2, x9, lsl #2
	sub	x9, x9, x3
	add	x12, x15, x12
.LBB29_141:
	ldr	q0, [x8], #16
	adds	x9, x9, #4
	xtn	v0.4h, v0.4s
	str	d0, [x12], #8
	b.ne	.LBB29_141
	cmp	x16, x3
	b.eq	.LBB29_124
	b	.LBB29_122
.LBB29_143:
	add	x8, x10, x7
	mov	w9, #32767
	mov	w12, #-65536
	add	x14, x27, x26, lsl #2
	strh	w9, [x8]
	ldr	x17, [sp, #64]
	stur	w12, [x8, #2]
	add	x18, x11, #1
	ldur	w8, [x14, #-4]
	cmp	w8, #16, lsl #12
	b.lo	.LBB29_165
	mov	x14, xzr
	mov	x0, xzr
	mov	x15, xzr
	add	x16, x7, #6
	add	x17, x10, #4
	add	x18, x10, #32
	b	.LBB29_146
.LBB29_145:
	lsl	x8, x3, #1
	cmp	x3, #16, lsl #12
	add	x27, x27, x3, lsl #2
	csel	x9, x13, xzr, lo
	cmp	x3, #1, lsl #12
	add	x16, x16, x4, lsl #3
	csel	x8, x8, x9, lo
	sub	x26, x26, x3
	add	x14, x3, x14
	add	x8, x15, x8
	mov	x0, x2
	add	x15, x8, #4
	cbz	x26, .LBB29_163
.LBB29_146:
	ldr	w1, [x27]
	cmp	x26, #1
	lsr	x8, x1, #16
	b.ne	.LBB29_148
	mov	x12, xzr
	b	.LBB29_150
.LBB29_148:
	cmp	x26, #16
	mov	w9, #16
	mov	x12, xzr
	csel	x2, x26, x9, lo
	add	x2, x27, x2, lsl #2
	ldurh	w2, [x2, #-2]
	cmp	w8, w2
	mov	w2, #65536
	csel	x9, x2, x9, eq
	cmp	x9, x26
	csel	x9, x9, x26, lo
.LBB29_149:
	lsr	x2, x9, #1
	add	x3, x2, x12
	sub	x9, x9, x2
	add	x4, x27, x3, lsl #2
	ldrh	w4, [x4, #2]
	cmp	w8, w4
	csel	x12, x3, x12, eq
	cmp	x9, #1
	b.hi	.LBB29_149
.LBB29_150:
	add	x9, x27, x12, lsl #2
	add	x2, x8, #1
	ldrh	w9, [x9, #2]
	cmp	w8, w9
	cinc	x3, x12, eq
	subs	x4, x2, x0
	b.eq	.LBB29_145
	cmp	x4, #20
	b.hs	.LBB29_155
	mov	x8, xzr
.LBB29_153:
	mvn	x9, x1, lsr #16
	add	x12, x16, x8, lsl #3
	add	x8, x8, x0
	add	x8, x9, x8
	add	x9, x17, x12
.LBB29_154:
	adds	x8, x8, #1
	stp	w14, w15, [x9, #-4]
	add	x9, x9, #8
	b.lo	.LBB29_154
	b	.LBB29_145
.LBB29_155:
	sub	x9, x8, x0
	add	x8, x10, x16
	lsl	x12, x9, #3
	add	x5, x8, x12
	cmp	x5, x8
	mov	x8, xzr
	b.lo	.LBB29_153
	add	x5, x17, x16
	add	x12, x5, x12
	cmp	x12, x5
	b.lo	.LBB29_153
	lsr	x9, x9, #61
	cbnz	x9, .LBB29_153
	fmov	s0, w14
	and	x8, x4, #0xfffffffffffffff8
	add	x9, x18, x16
	and	x12, x4, #0xfffffffffffffff8
	mov	v0.s[1], w15
	mov	v0.s[2], w14
	mov	v0.s[3], w15
.LBB29_159:
	subs	x12, x12, #8
	stp	q0, q0, [x9, #-32]
	stp	q0, q0, [x9], #64
	b.ne	.LBB29_159
	cmp	x4, x8
	b.eq	.LBB29_145
	b	.LBB29_153
.LBB29_161:
	mov	x8, x12
	add	x18, x11, #1
	str	x1, [sp, #8]
	str	w7, [sp, #36]
	strb	w8, [x10, x11]
	str	x21, [sp, #24]
	cbnz	x26, .LBB29_98
.LBB29_162:
	add	x8, x10, x18
	mov	w9, #32767
	mov	w12, #-65536
	mov	w15, wzr
	mov	w14, wzr
	strh	w9, [x8]
	stur	w12, [x8, #2]
	add	x16, x11, #7
	b	.LBB29_164
.LBB29_163:
	ldr	x17, [sp, #64]
	add	x18, x11, #1
.LBB29_164:
	add	x8, x10, x16
	stp	w14, w15, [x8]
.LBB29_165:
	ldr	w1, [sp, #36]
	add	x9, x10, x18
	add	x26, x9, x17
	and	w8, w1, #0xff
	cmp	w8, #2
	b.hs	.LBB29_167
	ldr	x10, [sp, #8]
	mov	x8, #-9223372036854775808
	ldr	x2, [sp, #72]
	ldr	x6, [sp, #56]
	mov	x0, x26
	mov	x3, x20
	mvn	x9, x10
	bfxil	x8, x10, #1, #63
	tst	x10, #0x1
	lsr	x9, x9, #1
	mov	x5, x24
	csel	x4, x8, x9, eq
	bl	"scaled_values::put_numbers"
	b	.LBB29_225
.LBB29_167:
	ldr	x12, [sp, #72]
	b.ne	.LBB29_190
	and	x8, x20, #0x3fff
	mov	w9, #16383
	add	x8, x8, x9
	lsr	x8, x8, #14
	adds	x19, x8, x20, lsr #14
	b.eq	.LBB29_225
	mov	w8, #25
	mov	x22, xzr
	mov	x23, xzr
	madd	x8, x19, x8, x26
	add	x27, x12, #16
	mov	x21, x12
	str	x8, [sp, #64]
	mov	x8, x20
.LBB29_170:
	subs	x28, x8, #4, lsl #12
	mov	w9, #16384
	add	x2, x12, x23, lsl #17
	csel	x8, x8, x9, lo
	subs	x10, x20, x23, lsl #14
	cmp	x10, #4, lsl #12
	csel	x3, x10, x9, lo
	cmp	x20, x23, lsl #14
	b.ne	.LBB29_174
	mov	x4, #-9223372036854775808
	mov	x9, #-9223372036854775808
.LBB29_172:
	cbz	x24, .LBB29_230
	sub	x8, x9, x4
	mov	w10, #25
	mov	w11, #64
	udiv	x8, x8, x24
	madd	x10, x23, x10, x26
	eor	x9, x9, #0x8000000000000000
	mov	w1, wzr
	mov	x5, x24
	str	x22, [x10, #16]
	clz	x8, x8
	sub	x6, x11, x8
	eor	x8, x4, #0x8000000000000000
	mov	x11, #7
	stp	x8, x9, [x10]
	ldr	x8, [sp, #64]
	madd	x25, x6, x3, x11
	strb	w6, [x10, #24]
	add	x0, x8, x22
	bl	"scaled_values::put_numbers"
	add	x23, x23, #1
	add	x22, x22, x25, lsr #3
	ldr	x12, [sp, #72]
	cmp	x23, x19
	add	x27, x27, #32, lsl #12
	add	x21, x21, #32, lsl #12
	mov	x8, x28
	b.ne	.LBB29_170
	b	.LBB29_225
.LBB29_174:
	ldr	x9, [x2]
	mov	x10, xzr
	eor	x9, x9, #0x8000000000000000
	mov	x4, x9
	b	.LBB29_176
.LBB29_175:
	cmp	x11, x3
	mov	x10, x11
	b.hs	.LBB29_172
.LBB29_176:
	sub	x13, x3, x10
	mov	w11, #1024
	lsl	x12, x10, #3
	cmp	x13, #1024
	csel	x11, x13, x11, lo
	cmp	x13, #4
	b.hs	.LBB29_178
	mov	x13, xzr
	b	.LBB29_181
.LBB29_178:
	dup	v0.2d, x9
	dup	v1.2d, x4
	sub	x9, x8, x10
	mov	w13, #1024
	cmp	x9, #1024
	add	x15, x21, x12
	csel	x14, x9, x13, lo
	and	x13, x11, #0x7fc
	add	x9, x27, x12
	mov	v2.16b, v1.16b
	mov	v3.16b, v0.16b
	and	x14, x14, #0x7fc
.LBB29_179:
	movi	v4.2d, #0000000000000000
	ldr	q5, [x15], #32
	ldr	q6, [x9], #32
	subs	x14, x14, #4
	fneg	v4.2d, v4.2d
	eor	v5.16b, v5.16b, v4.16b
	eor	v4.16b, v6.16b, v4.16b
	cmhi	v6.2d, v1.2d, v5.2d
	cmhi	v7.2d, v2.2d, v4.2d
	cmhi	v16.2d, v5.2d, v0.2d
	cmhi	v17.2d, v4.2d, v3.2d
	bit	v1.16b, v5.16b, v6.16b
	bit	v2.16b, v4.16b, v7.16b
	bit	v0.16b, v5.16b, v16.16b
	bit	v3.16b, v4.16b, v17.16b
	b.ne	.LBB29_179
	cmhi	v4.2d, v2.2d, v1.2d
	cmhi	v5.2d, v0.2d, v3.2d
	cmp	x11, x13
	bif	v1.16b, v2.16b, v4.16b
	bif	v0.16b, v3.16b, v5.16b
	ext	v2.16b, v1.16b, v1.16b, #8
	ext	v3.16b, v0.16b, v0.16b, #8
	cmhi	d4, d2, d1
	cmhi	d5, d0, d3
	bif	v1.8b, v2.8b, v4.8b
	bif	v0.8b, v3.8b, v5.8b
	fmov	x4, d1
	fmov	x9, d0
	b.eq	.LBB29_183
.LBB29_181:
	sub	x14, x8, x10
	mov	w15, #1024
	add	x12, x12, x13, lsl #3
	cmp	x14, #1024
	csel	x14, x14, x15, lo
	sub	x13, x14, x13
.LBB29_182:
	ldr	x14, [x21, x12]
	add	x12, x12, #8
	eor	x14, x14, #0x8000000000000000
	cmp	x14, x4
	csel	x4, x14, x4, lo
	cmp	x14, x9
	csel	x9, x14, x9, hi
	subs	x13, x13, #1
	b.ne	.LBB29_182
.LBB29_183:
	add	x11, x11, x10
	sub	x12, x3, x11
	cmp	x12, #128
	b.lo	.LBB29_175
	subs	x12, x9, x4
	b.mi	.LBB29_175
	sub	x13, x8, x10
	mov	w14, #1024
	dup	v0.2d, x4
	cmp	x13, #1024
	dup	v1.2d, x12
	csel	x13, x13, x14, lo
	add	x10, x10, x13
	lsl	x10, x10, #3
.LBB29_186:
	movi	v2.2d, #0000000000000000
	movi	v3.2d, #0000000000000000
	mov	w12, #128
	movi	v4.2d, #0000000000000000
	mov	x13, x10
.LBB29_187:
	fneg	v5.2d, v2.2d
	ldr	q6, [x21, x13]
	ldr	q7, [x27, x13]
	subs	x12, x12, #4
	add	x13, x13, #32
	eor	v6.16b, v6.16b, v5.16b
	eor	v5.16b, v7.16b, v5.16b
	sub	v6.2d, v6.2d, v0.2d
	sub	v5.2d, v5.2d, v0.2d
	sub	v7.2d, v1.2d, v6.2d
	sub	v16.2d, v1.2d, v5.2d
	orr	v3.16b, v3.16b, v6.16b
	orr	v4.16b, v4.16b, v5.16b
	orr	v3.16b, v3.16b, v7.16b
	orr	v4.16b, v4.16b, v16.16b
	b.ne	.LBB29_187
	orr	v2.16b, v4.16b, v3.16b
	ext	v3.16b, v2.16b, v2.16b, #8
	orr	v2.8b, v2.8b, v3.8b
	fmov	x12, d2
	tbnz	x12, #63, .LBB29_175
	add	x11, x11, #128
	add	x10, x10, #1024
	sub	x12, x3, x11
	cmp	x12, #127
	b.hi	.LBB29_186
	b	.LBB29_175
.LBB29_190:
	ldr	x22, [sp, #40]
	cbz	x22, .LBB29_196
	cmp	x22, #8
	b.lo	.LBB29_193
	add	x8, x11, x17
	add	x9, x8, x10
	sub	x8, x9, x23
	add	x8, x8, #1
	cmp	x8, #32
	b.hs	.LBB29_227
.LBB29_193:
	mov	x8, xzr
.LBB29_194:
	lsl	x12, x8, #3
	add	x9, x11, x17
	sub	x8, x22, x8
	add	x9, x9, x12
	add	x9, x9, x10
	add	x10, x23, x12
	add	x9, x9, #1
.LBB29_195:
	ldr	x11, [x10], #8
	subs	x8, x8, #1
	str	x11, [x9], #8
	b.ne	.LBB29_195
.LBB29_196:
	sub	x8, x22, #1
	add	x19, x26, x22, lsl #3
	mov	w9, #64
	clz	x8, x8
	cmp	x20, #127
	sub	x21, x9, x8
	b.hi	.LBB29_210
	movi	v0.2d, #0000000000000000
	stp	q0, q0, [sp, #80]
	stp	q0, q0, [sp, #112]
	stp	q0, q0, [sp, #144]
	stp	q0, q0, [sp, #176]
	stp	q0, q0, [sp, #208]
	stp	q0, q0, [sp, #240]
	stp	q0, q0, [sp, #272]
	stp	q0, q0, [sp, #304]
	cbz	x20, .LBB29_222
	mov	w10, #5067
	mov	w12, #49969
	ldr	x1, [sp, #72]
	mov	x9, xzr
	mov	x11, xzr
	mov	x13, xzr
	mov	x8, xzr
	movk	w10, #30053, lsl #16
	movk	w12, #13711, lsl #16
	b	.LBB29_200
.LBB29_199:
	mvn	x13, x13
	lsr	x16, x14, x15
	lsl	x11, x11, x13
	mov	x13, #-1
	lsl	x13, x13, x15
	sub	x15, x15, #64
	orr	x11, x16, x11, lsl #1
	rev	x11, x11
	str	x11, [x19, x8]
	add	x8, x8, #8
	bic	x11, x14, x13
	add	x9, x9, #1
	mov	x13, x15
	cmp	x9, x20
	b.eq	.LBB29_223
.LBB29_200:
	ldr	x16, [x1, x9, lsl #3]
	lsr	x14, x16, #32
	mul	w15, w16, w10
	eor	w14, w14, #0x80000000
	madd	w14, w14, w12, w15
	lsr	w15, w14, #24
	add	x14, sp, #80
	ldrb	w14, [x14, w15, uxtw]
	cmp	x22, x14
	b.ls	.LBB29_203
	ldr	x17, [x23, x14, lsl #3]
	cmp	x17, x16
	b.ne	.LBB29_204
	add	x15, x13, x21
	cmp	x15, #63
	b.hi	.LBB29_199
	b	.LBB29_207
.LBB29_203:
	cbz	x22, .LBB29_208
.LBB29_204:
	mov	x14, xzr
	mov	x17, x22
.LBB29_205:
	sub	x18, x17, x14
	add	x18, x14, x18, lsr #1
	ldr	x0, [x23, x18, lsl #3]
	cmp	x0, x16
	csinc	x14, x14, x18, ge
	csel	x17, x18, x17, ge
	cmp	x14, x17
	b.lo	.LBB29_205
	add	x16, sp, #80
	strb	w14, [x16, w15, uxtw]
	add	x15, x13, x21
	cmp	x15, #63
	b.hi	.LBB29_199
.LBB29_207:
	lsl	x11, x11, x21
	orr	x11, x14, x11
	add	x9, x9, #1
	mov	x13, x15
	cmp	x9, x20
	b.ne	.LBB29_200
	b	.LBB29_223
.LBB29_208:
	mov	x14, xzr
	add	x16, sp, #80
	strb	w14, [x16, w15, uxtw]
	add	x15, x13, x21
	cmp	x15, #63
	b.ls	.LBB29_207
	b	.LBB29_199
.LBB29_209:
	mov	x12, xzr
	mov	w10, #1
	cmp	x26, #128
	b.hs	.LBB29_50
	b	.LBB29_36
.LBB29_210:
	mov	w24, #5067
	mov	w25, #49969
	add	x0, sp, #80
	mov	w1, wzr
	mov	w2, #4096
	movk	w24, #30053, lsl #16
	movk	w25, #13711, lsl #16
	add	x26, sp, #80
	bl	memset
	ldr	x18, [sp, #72]
	mov	x9, xzr
	mov	x10, xzr
	mov	x11, xzr
	mov	x8, xzr
	b	.LBB29_212
.LBB29_211:
	mvn	x11, x11
	lsr	x14, x12, x13
	lsl	x10, x10, x11
	mov	x11, #-1
	lsl	x11, x11, x13
	sub	x13, x13, #64
	orr	x10, x14, x10, lsl #1
	rev	x10, x10
	str	x10, [x19, x8]
	add	x8, x8, #8
	bic	x10, x12, x11
	add	x9, x9, #1
	mov	x11, x13
	cmp	x9, x20
	b.eq	.LBB29_221
.LBB29_212:
	ldr	x14, [x18, x9, lsl #3]
	lsr	x12, x14, #32
	mul	w13, w14, w24
	eor	w12, w12, #0x80000000
	madd	w12, w12, w25, w13
	lsr	w13, w12, #20
	ldrb	w12, [x26, w13, uxtw]
	cmp	x22, x12
	b.ls	.LBB29_215
	ldr	x15, [x23, x12, lsl #3]
	cmp	x15, x14
	b.ne	.LBB29_216
	add	x13, x11, x21
	cmp	x13, #63
	b.hi	.LBB29_211
	b	.LBB29_219
.LBB29_215:
	cbz	x22, .LBB29_220
.LBB29_216:
	mov	x12, xzr
	mov	x15, x22
.LBB29_217:
	sub	x16, x15, x12
	add	x16, x12, x16, lsr #1
	ldr	x17, [x23, x16, lsl #3]
	cmp	x17, x14
	csinc	x12, x12, x16, ge
	csel	x15, x16, x15, ge
	cmp	x12, x15
	b.lo	.LBB29_217
	add	x14, sp, #80
	strb	w12, [x14, w13, uxtw]
	add	x13, x11, x21
	cmp	x13, #63
	b.hi	.LBB29_211
.LBB29_219:
	lsl	x10, x10, x21
	orr	x10, x12, x10
	add	x9, x9, #1
	mov	x11, x13
	cmp	x9, x20
	b.ne	.LBB29_212
	b	.LBB29_221
.LBB29_220:
	mov	x12, xzr
	add	x14, sp, #80
	strb	w12, [x14, w13, uxtw]
	add	x13, x11, x21
	cmp	x13, #63
	b.ls	.LBB29_219
	b	.LBB29_211
.LBB29_221:
	mvn	x9, x11
	lsl	x9, x10, x9
	add	x10, x11, #7
	b	.LBB29_224
.LBB29_222:
	mov	x8, xzr
	mov	x13, xzr
	mov	x11, xzr
.LBB29_223:
	mvn	x9, x13
	add	x10, x13, #7
	lsl	x9, x11, x9
.LBB29_224:
	lsl	x9, x9, #1
	lsr	x2, x10, #3
	rev	x9, x9
	add	x0, x19, x8
	sub	x1, x29, #16
	stur	x9, [x29, #-16]
	bl	memcpy
.LBB29_225:
	ldp	x9, x8, [sp, #16]
	stp	xzr, x9, [x8]
	str	xzr, [x8, #16]
.LBB29_226:
	add	sp, sp, #1, lsl #12
	add	sp, sp, #96
	ldp	x20, x19, [sp, #80]
	ldp	x22, x21, [sp, #64]
	ldp	x24, x23, [sp, #48]
	ldp	x26, x25, [sp, #32]
	ldp	x28, x27, [sp, #16]
	ldp	x29, x30, [sp], #96
	ret
.LBB29_227:
	and	x8, x22, #0xfffffffffffffffc
	add	x9, x9, #17
	add	x12, x23, #16
	and	x13, x22, #0xfffffffffffffffc
.LBB29_228:
	ldp	q0, q1, [x12, #-16]
	subs	x13, x13, #4
	add	x12, x12, #32
	stp	q0, q1, [x9, #-16]
	add	x9, x9, #32
	b.ne	.LBB29_228
	cmp	x22, x8
	b.eq	.LBB29_196
	b	.LBB29_194
.LBB29_230:
	brk	#0x1
.Lfunc_end29:
	.size	"writer::write_by", .Lfunc_end29-"writer::write_by"

	.section	".text.scaled_values::put_numbers","ax",@progbits
	.p2align	2
	.type	"scaled_values::put_numbers",@function
"scaled_values::put_numbers":
	sub	sp, sp, #32
	mov	x8, #-4294967296
	mov	x9, #-65534
	stp	x29, x30, [sp, #16]
	add	x8, x5, x8
	movk	x9, #0, lsl #16
	add	x29, sp, #16
	cmp	x8, x9
	b.hs	.LBB30_8
	mov	x8, xzr
	cbz	x3, .LBB30_9
.LBB30_2:
	cmp	x5, #1
	mov	x10, xzr
	tbz	w1, #0, .LBB30_10
	b.ne	.LBB30_27
	mov	x8, xzr
	mov	x11, xzr
	b	.LBB30_6
.LBB30_5:
	subs	x3, x3, #1
	mov	x8, x9
	b.eq	.LBB30_35
.LBB30_6:
	ldr	x9, [x2], #8
	eor	x9, x9, #0x8000000000000000
	sub	x13, x9, x4
	add	x9, x8, x6
	lsl	x14, x13, x8
	subs	x12, x9, #64
	orr	x10, x14, x10
	b.lo	.LBB30_5
	lsr	x9, x13, #1
	mvn	x8, x8
	str	x10, [x0, x11]
	add	x11, x11, #8
	lsr	x10, x9, x8
	mov	x9, x12
	b	.LBB30_5
.LBB30_8:
	mov	x8, #4294967296
	udiv	x8, x8, x5
	add	x8, x8, #1
	cbnz	x3, .LBB30_2
.LBB30_9:
	mov	x2, xzr
	mov	x9, xzr
	mov	x12, xzr
	mov	x8, xzr
	mov	x10, xzr
	mov	x11, xzr
	tbz	w1, #0, .LBB30_26
	b	.LBB30_36
.LBB30_10:
	mov	x11, xzr
	mov	x9, xzr
	b.eq	.LBB30_13
	cbnz	x5, .LBB30_16
	b	.LBB30_22
.LBB30_12:
	lsl	x10, x10, x6
	mov	x11, x8
	orr	x10, x13, x10
	subs	x3, x3, #1
	b.eq	.LBB30_25
.LBB30_13:
	ldr	x12, [x2], #8
	add	x8, x11, x6
	eor	x13, x12, #0x8000000000000000
	subs	x12, x8, #64
	sub	x13, x13, x4
	b.lo	.LBB30_12
	mvn	x11, x11
	lsr	x14, x13, x8
	lsl	x10, x10, x11
	mov	x11, #-1
	lsl	x8, x11, x8
	mov	x11, x12
	orr	x10, x14, x10, lsl #1
	rev	x10, x10
	str	x10, [x0, x9]
	add	x9, x9, #8
	bic	x10, x13, x8
	subs	x3, x3, #1
	b.ne	.LBB30_13
	b	.LBB30_25
.LBB30_15:
	mvn	x11, x11
	lsr	x14, x12, x13
	lsl	x10, x10, x11
	mov	x11, #-1
	lsl	x11, x11, x13
	sub	x13, x13, #64
	orr	x10, x14, x10, lsl #1
	rev	x10, x10
	str	x10, [x0, x9]
	add	x9, x9, #8
	bic	x10, x12, x11
	mov	x11, x13
	subs	x3, x3, #1
	b.eq	.LBB30_25
.LBB30_16:
	ldr	x12, [x2], #8
	eor	x12, x12, #0x8000000000000000
	sub	x13, x12, x4
	lsr	x12, x13, #32
	cbnz	x12, .LBB30_18
	mul	x12, x13, x8
	lsr	x12, x12, #32
	mul	x14, x12, x5
	cmp	x14, x13
	b.eq	.LBB30_19
.LBB30_18:
	udiv	x12, x13, x5
.LBB30_19:
	add	x13, x11, x6
	cmp	x13, #63
	b.hi	.LBB30_15
	lsl	x10, x10, x6
	orr	x10, x12, x10
	mov	x11, x13
	subs	x3, x3, #1
	b.ne	.LBB30_16
	b	.LBB30_25
.LBB30_21:
	lsl	x10, x10, x6
	mov	x11, x13
	orr	x10, x12, x10
	subs	x3, x3, #1
	b.eq	.LBB30_25
.LBB30_22:
	ldr	x12, [x2], #8
	eor	x13, x12, #0x8000000000000000
	sub	x12, x13, x4
	lsr	x14, x12, #32
	cmp	x14, #0
	ccmp	x13, x4, #0, eq
	b.ne	.LBB30_37
	mul	x12, x12, x8
	add	x13, x11, x6
	subs	x14, x13, #64
	lsr	x12, x12, #32
	b.lo	.LBB30_21
	mvn	x11, x11
	lsr	x15, x12, x13
	lsl	x10, x10, x11
	mov	x11, #-1
	lsl	x11, x11, x13
	orr	x10, x15, x10, lsl #1
	rev	x10, x10
	str	x10, [x0, x9]
	add	x9, x9, #8
	bic	x10, x12, x11
	mov	x11, x14
	subs	x3, x3, #1
	b.ne	.LBB30_22
.LBB30_25:
	mvn	x8, x11
	lsl	x8, x10, x8
	add	x10, x11, #7
	lsr	x2, x10, #3
	lsl	x8, x8, #1
	rev	x12, x8
.LBB30_26:
	add	x0, x0, x9
	add	x1, sp, #8
	str	x12, [sp, #8]
	bl	memcpy
	ldp	x29, x30, [sp, #16]
	add	sp, sp, #32
	ret
.LBB30_27:
	mov	x12, xzr
	mov	x11, xzr
	b	.LBB30_29
.LBB30_28:
	subs	x3, x3, #1
	mov	x12, x9
	b.eq	.LBB30_35
.LBB30_29:
	ldr	x9, [x2], #8
	eor	x9, x9, #0x8000000000000000
	sub	x9, x9, x4
	lsr	x13, x9, #32
	cbnz	x13, .LBB30_31
	mul	x13, x9, x8
	lsr	x13, x13, #32
	mul	x14, x13, x5
	cmp	x14, x9
	b.eq	.LBB30_33
.LBB30_31:
	cbz	x5, .LBB30_37
	udiv	x13, x9, x5
.LBB30_33:
	lsl	x15, x13, x12
	add	x9, x12, x6
	subs	x14, x9, #64
	orr	x10, x15, x10
	b.lo	.LBB30_28
	lsr	x9, x13, #1
	mvn	x12, x12
	str	x10, [x0, x11]
	add	x11, x11, #8
	lsr	x10, x9, x12
	mov	x9, x14
	b	.LBB30_28
.LBB30_35:
	add	x8, x9, #7
	lsr	x8, x8, #3
.LBB30_36:
	str	x10, [sp, #8]
	add	x0, x0, x11
	add	x1, sp, #8
	mov	x2, x8
	bl	memcpy
	ldp	x29, x30, [sp, #16]
	add	sp, sp, #32
	ret
.LBB30_37:
	brk	#0x1
.Lfunc_end30:
	.size	"scaled_values::put_numbers", .Lfunc_end30-"scaled_values::put_numbers"

	.section	.text.signalfern_abi_0_2,"ax",@progbits
	.globl	signalfern_abi_0_2
	.p2align	2
	.type	signalfern_abi_0_2,@function
signalfern_abi_0_2:
	mov	w0, #2
	ret
.Lfunc_end31:
	.size	signalfern_abi_0_2, .Lfunc_end31-signalfern_abi_0_2

	.section	.text.signalfern_check_to,"ax",@progbits
	.globl	signalfern_check_to
	.p2align	2
	.type	signalfern_check_to,@function
signalfern_check_to:
	sub	sp, sp, #240
	movi	v0.2d, #0000000000000000
	mov	w8, #4096
	cmp	x0, #0
	str	x23, [sp, #192]
	csel	x23, x8, xzr, eq
	stp	x22, x21, [sp, #208]
	mov	x21, x0
	mov	x0, sp
	stp	x20, x19, [sp, #224]
	mov	x20, x1
	mov	x19, x2
	add	x1, x21, x23
	mov	x2, x20
	stp	x29, x30, [sp, #176]
	add	x29, sp, #176
	str	xzr, [sp, #80]
	stp	q0, q0, [sp, #16]
	stp	q0, q0, [sp, #48]
	str	q0, [sp]
	bl	"column::Column::open"
	ldp	x8, x22, [sp, #8]
	ldrb	w9, [sp]
	cbz	w9, .LBB32_3
	and	x8, x8, #0xff
	adrp	x10, .LJTI32_0
	add	x10, x10, :lo12:.LJTI32_0
	adr	x11, .LBB32_2
	ldrb	w12, [x10, x8]
	add	x11, x11, x12, lsl #2
	mov	w9, #1
	br	x11
.LBB32_2:
	mov	x8, xzr
	mov	w9, #2
	b	.LBB32_18
.LBB32_3:
	ldur	q0, [sp, #24]
	ldur	q1, [sp, #40]
	add	x0, x21, x23
	ldur	q2, [sp, #56]
	sub	x2, x29, #80
	mov	x1, x20
	stp	q0, q1, [x29, #-64]
	ldur	q0, [sp, #72]
	stp	x8, x22, [x29, #-80]
	stp	q2, q0, [x29, #-32]
	bl	"checking::accepts"
	cbz	w0, .LBB32_5
	stp	xzr, x22, [x19]
	ldp	x20, x19, [sp, #224]
	ldr	x23, [sp, #192]
	ldp	x22, x21, [sp, #208]
	ldp	x29, x30, [sp, #176]
	add	sp, sp, #240
	ret
.LBB32_5:
	mov	x8, xzr
	mov	w9, #13
	b	.LBB32_18
.LBB32_6:
	mov	x8, xzr
	mov	w9, #16
	b	.LBB32_18
.LBB32_7:
	mov	w9, #12
	b	.LBB32_17
.LBB32_8:
	mov	w9, #4
	b	.LBB32_17
.LBB32_9:
	mov	x8, xzr
	mov	w9, #14
	b	.LBB32_18
.LBB32_10:
	mov	x8, xzr
	mov	w9, #10
	b	.LBB32_18
.LBB32_11:
	mov	x8, xzr
	mov	w9, #17
	b	.LBB32_18
.LBB32_12:
	mov	w9, #3
	b	.LBB32_17
.LBB32_13:
	mov	w9, #8
	b	.LBB32_17
.LBB32_14:
	mov	w9, #6
	b	.LBB32_17
.LBB32_15:
	mov	x8, xzr
	mov	w9, #15
	b	.LBB32_18
.LBB32_16:
	mov	w9, #7
.LBB32_17:
	mov	x8, x22
.LBB32_18:
	stp	x9, x8, [x19]
	ldp	x20, x19, [sp, #224]
	ldr	x23, [sp, #192]
	ldp	x22, x21, [sp, #208]
	ldp	x29, x30, [sp, #176]
	add	sp, sp, #240
	ret
.LBB32_19:
	mov	x8, xzr
	mov	w9, #11
	b	.LBB32_18
.LBB32_20:
	mov	x8, xzr
	mov	w9, #9
	b	.LBB32_18
.Lfunc_end32:
	.size	signalfern_check_to, .Lfunc_end32-signalfern_check_to
	.section	.rodata.signalfern_check_to,"a",@progbits
.LJTI32_0:
	.byte	(.LBB32_18-.LBB32_2)>>2
	.byte	(.LBB32_2-.LBB32_2)>>2
	.byte	(.LBB32_12-.LBB32_2)>>2
	.byte	(.LBB32_8-.LBB32_2)>>2
	.byte	(.LBB32_14-.LBB32_2)>>2
	.byte	(.LBB32_16-.LBB32_2)>>2
	.byte	(.LBB32_13-.LBB32_2)>>2
	.byte	(.LBB32_20-.LBB32_2)>>2
	.byte	(.LBB32_10-.LBB32_2)>>2
	.byte	(.LBB32_19-.LBB32_2)>>2
	.byte	(.LBB32_7-.LBB32_2)>>2
	.byte	(.LBB32_5-.LBB32_2)>>2
	.byte	(.LBB32_9-.LBB32_2)>>2
	.byte	(.LBB32_15-.LBB32_2)>>2
	.byte	(.LBB32_6-.LBB32_2)>>2
	.byte	(.LBB32_11-.LBB32_2)>>2

	.section	.text.signalfern_first_between_from_in_to,"ax",@progbits
	.globl	signalfern_first_between_from_in_to
	.p2align	2
	.type	signalfern_first_between_from_in_to,@function
signalfern_first_between_from_in_to:
	sub	sp, sp, #144
	ldr	x9, [x0, #16]
	cmp	x1, #0
	mov	w11, #4096
	str	x19, [sp, #128]
	mov	x19, x6
	mov	x6, x5
	sub	x10, x9, #1
	mov	x5, x4
	mov	x8, x1
	mov	x4, x3
	csel	x9, x11, xzr, eq
	cmp	x10, #3
	mov	x3, x2
	stp	x29, x30, [sp, #112]
	add	x29, sp, #112
	b.hi	.LBB33_2
	ldr	x11, [x0, #56]
	b	.LBB33_3
.LBB33_2:
	mov	x10, xzr
	mov	w11, #65
.LBB33_3:
	ldur	q0, [x0, #24]
	ldur	q1, [x0, #40]
	add	x1, sp, #8
	add	x2, x8, x9
	str	x10, [sp, #8]
	stp	q0, q1, [sp, #16]
	ldp	q0, q1, [x0, #64]
	sub	x0, x29, #24
	str	x11, [sp, #48]
	stp	xzr, xzr, [x29, #-16]
	stur	q0, [sp, #56]
	stur	q1, [sp, #72]
	stur	xzr, [x29, #-24]
	bl	"between::first_between_from_in"
	ldurb	w9, [x29, #-24]
	ldurb	w8, [x29, #-16]
	ldur	x10, [x29, #-8]
	cbz	w9, .LBB33_6
	adrp	x11, .LJTI33_0
	add	x11, x11, :lo12:.LJTI33_0
	mov	w9, #1
	adr	x12, .LBB33_5
	ldrb	w13, [x11, x8]
	add	x12, x12, x13, lsl #2
	br	x12
.LBB33_5:
	mov	w9, #2
	stp	x9, xzr, [x19]
	str	xzr, [x19, #16]
	ldp	x29, x30, [sp, #112]
	ldr	x19, [sp, #128]
	add	sp, sp, #144
	ret
.LBB33_6:
	cmp	w8, #1
	b.ne	.LBB33_8
	stp	xzr, xzr, [x19]
	str	x10, [x19, #16]
	ldp	x29, x30, [sp, #112]
	ldr	x19, [sp, #128]
	add	sp, sp, #144
	ret
.LBB33_8:
	mov	w8, #1
	stp	xzr, xzr, [x19, #8]
	str	x8, [x19]
	ldp	x29, x30, [sp, #112]
	ldr	x19, [sp, #128]
	add	sp, sp, #144
	ret
.LBB33_9:
	mov	x8, xzr
	mov	w9, #16
.LBB33_10:
	stp	x9, x8, [x19]
	str	xzr, [x19, #16]
	ldp	x29, x30, [sp, #112]
	ldr	x19, [sp, #128]
	add	sp, sp, #144
	ret
.LBB33_11:
	mov	w9, #13
	stp	x9, xzr, [x19]
	str	xzr, [x19, #16]
	ldp	x29, x30, [sp, #112]
	ldr	x19, [sp, #128]
	add	sp, sp, #144
	ret
.LBB33_12:
	mov	w9, #6
	b	.LBB33_23
.LBB33_13:
	mov	w9, #14
	stp	x9, xzr, [x19]
	str	xzr, [x19, #16]
	ldp	x29, x30, [sp, #112]
	ldr	x19, [sp, #128]
	add	sp, sp, #144
	ret
.LBB33_14:
	mov	w9, #11
	stp	x9, xzr, [x19]
	str	xzr, [x19, #16]
	ldp	x29, x30, [sp, #112]
	ldr	x19, [sp, #128]
	add	sp, sp, #144
	ret
.LBB33_15:
	mov	w9, #3
	b	.LBB33_23
.LBB33_16:
	mov	w9, #17
	stp	x9, xzr, [x19]
	str	xzr, [x19, #16]
	ldp	x29, x30, [sp, #112]
	ldr	x19, [sp, #128]
	add	sp, sp, #144
	ret
.LBB33_17:
	mov	w9, #4
	b	.LBB33_23
.LBB33_18:
	mov	w9, #9
	stp	x9, xzr, [x19]
	str	xzr, [x19, #16]
	ldp	x29, x30, [sp, #112]
	ldr	x19, [sp, #128]
	add	sp, sp, #144
	ret
.LBB33_19:
	mov	w9, #7
	b	.LBB33_23
.LBB33_20:
	mov	w9, #15
	stp	x9, xzr, [x19]
	str	xzr, [x19, #16]
	ldp	x29, x30, [sp, #112]
	ldr	x19, [sp, #128]
	add	sp, sp, #144
	ret
.LBB33_21:
	mov	w9, #8
	b	.LBB33_23
.LBB33_22:
	mov	w9, #12
.LBB33_23:
	stp	x9, x10, [x19]
	str	xzr, [x19, #16]
	ldp	x29, x30, [sp, #112]
	ldr	x19, [sp, #128]
	add	sp, sp, #144
	ret
.LBB33_24:
	mov	w9, #10
	stp	x9, xzr, [x19]
	str	xzr, [x19, #16]
	ldp	x29, x30, [sp, #112]
	ldr	x19, [sp, #128]
	add	sp, sp, #144
	ret
.Lfunc_end33:
	.size	signalfern_first_between_from_in_to, .Lfunc_end33-signalfern_first_between_from_in_to
	.section	.rodata.signalfern_first_between_from_in_to,"a",@progbits
.LJTI33_0:
	.byte	(.LBB33_10-.LBB33_5)>>2
	.byte	(.LBB33_5-.LBB33_5)>>2
	.byte	(.LBB33_15-.LBB33_5)>>2
	.byte	(.LBB33_17-.LBB33_5)>>2
	.byte	(.LBB33_12-.LBB33_5)>>2
	.byte	(.LBB33_19-.LBB33_5)>>2
	.byte	(.LBB33_21-.LBB33_5)>>2
	.byte	(.LBB33_18-.LBB33_5)>>2
	.byte	(.LBB33_24-.LBB33_5)>>2
	.byte	(.LBB33_14-.LBB33_5)>>2
	.byte	(.LBB33_22-.LBB33_5)>>2
	.byte	(.LBB33_11-.LBB33_5)>>2
	.byte	(.LBB33_13-.LBB33_5)>>2
	.byte	(.LBB33_20-.LBB33_5)>>2
	.byte	(.LBB33_9-.LBB33_5)>>2
	.byte	(.LBB33_16-.LBB33_5)>>2

	.section	.text.signalfern_first_between_from_to,"ax",@progbits
	.globl	signalfern_first_between_from_to
	.p2align	2
	.type	signalfern_first_between_from_to,@function
signalfern_first_between_from_to:
	sub	sp, sp, #64
	cmp	x0, #0
	mov	w9, #4096
	mov	x8, x0
	csel	x9, x9, xzr, eq
	str	x19, [sp, #48]
	mov	x19, x5
	mov	x5, x4
	mov	x4, x3
	mov	x3, x2
	mov	x2, x1
	add	x0, sp, #8
	add	x1, x8, x9
	stp	x29, x30, [sp, #32]
	add	x29, sp, #32
	stp	xzr, xzr, [sp, #8]
	str	xzr, [sp, #24]
	bl	"between::first_between_from"
	ldrb	w9, [sp, #8]
	ldrb	w8, [sp, #16]
	ldr	x10, [sp, #24]
	cbz	w9, .LBB34_3
	adrp	x11, .LJTI34_0
	add	x11, x11, :lo12:.LJTI34_0
	mov	w9, #1
	adr	x12, .LBB34_2
	ldrb	w13, [x11, x8]
	add	x12, x12, x13, lsl #2
	br	x12
.LBB34_2:
	mov	w9, #2
	stp	x9, xzr, [x19]
	str	xzr, [x19, #16]
	ldp	x29, x30, [sp, #32]
	ldr	x19, [sp, #48]
	add	sp, sp, #64
	ret
.LBB34_3:
	cmp	w8, #1
	b.ne	.LBB34_5
	stp	xzr, xzr, [x19]
	str	x10, [x19, #16]
	ldp	x29, x30, [sp, #32]
	ldr	x19, [sp, #48]
	add	sp, sp, #64
	ret
.LBB34_5:
	mov	w8, #1
	stp	xzr, xzr, [x19, #8]
	str	x8, [x19]
	ldp	x29, x30, [sp, #32]
	ldr	x19, [sp, #48]
	add	sp, sp, #64
	ret
.LBB34_6:
	mov	x8, xzr
	mov	w9, #16
.LBB34_7:
	stp	x9, x8, [x19]
	str	xzr, [x19, #16]
	ldp	x29, x30, [sp, #32]
	ldr	x19, [sp, #48]
	add	sp, sp, #64
	ret
.LBB34_8:
	mov	w9, #13
	stp	x9, xzr, [x19]
	str	xzr, [x19, #16]
	ldp	x29, x30, [sp, #32]
	ldr	x19, [sp, #48]
	add	sp, sp, #64
	ret
.LBB34_9:
	mov	w9, #6
	b	.LBB34_20
.LBB34_10:
	mov	w9, #14
	stp	x9, xzr, [x19]
	str	xzr, [x19, #16]
	ldp	x29, x30, [sp, #32]
	ldr	x19, [sp, #48]
	add	sp, sp, #64
	ret
.LBB34_11:
	mov	w9, #11
	stp	x9, xzr, [x19]
	str	xzr, [x19, #16]
	ldp	x29, x30, [sp, #32]
	ldr	x19, [sp, #48]
	add	sp, sp, #64
	ret
.LBB34_12:
	mov	w9, #3
	b	.LBB34_20
.LBB34_13:
	mov	w9, #17
	stp	x9, xzr, [x19]
	str	xzr, [x19, #16]
	ldp	x29, x30, [sp, #32]
	ldr	x19, [sp, #48]
	add	sp, sp, #64
	ret
.LBB34_14:
	mov	w9, #4
	b	.LBB34_20
.LBB34_15:
	mov	w9, #9
	stp	x9, xzr, [x19]
	str	xzr, [x19, #16]
	ldp	x29, x30, [sp, #32]
	ldr	x19, [sp, #48]
	add	sp, sp, #64
	ret
.LBB34_16:
	mov	w9, #7
	b	.LBB34_20
.LBB34_17:
	mov	w9, #15
	stp	x9, xzr, [x19]
	str	xzr, [x19, #16]
	ldp	x29, x30, [sp, #32]
	ldr	x19, [sp, #48]
	add	sp, sp, #64
	ret
.LBB34_18:
	mov	w9, #8
	b	.LBB34_20
.LBB34_19:
	mov	w9, #12
.LBB34_20:
	stp	x9, x10, [x19]
	str	xzr, [x19, #16]
	ldp	x29, x30, [sp, #32]
	ldr	x19, [sp, #48]
	add	sp, sp, #64
	ret
.LBB34_21:
	mov	w9, #10
	stp	x9, xzr, [x19]
	str	xzr, [x19, #16]
	ldp	x29, x30, [sp, #32]
	ldr	x19, [sp, #48]
	add	sp, sp, #64
	ret
.Lfunc_end34:
	.size	signalfern_first_between_from_to, .Lfunc_end34-signalfern_first_between_from_to
	.section	.rodata.signalfern_first_between_from_to,"a",@progbits
.LJTI34_0:
	.byte	(.LBB34_7-.LBB34_2)>>2
	.byte	(.LBB34_2-.LBB34_2)>>2
	.byte	(.LBB34_12-.LBB34_2)>>2
	.byte	(.LBB34_14-.LBB34_2)>>2
	.byte	(.LBB34_9-.LBB34_2)>>2
	.byte	(.LBB34_16-.LBB34_2)>>2
	.byte	(.LBB34_18-.LBB34_2)>>2
	.byte	(.LBB34_15-.LBB34_2)>>2
	.byte	(.LBB34_21-.LBB34_2)>>2
	.byte	(.LBB34_11-.LBB34_2)>>2
	.byte	(.LBB34_19-.LBB34_2)>>2
	.byte	(.LBB34_8-.LBB34_2)>>2
	.byte	(.LBB34_10-.LBB34_2)>>2
	.byte	(.LBB34_17-.LBB34_2)>>2
	.byte	(.LBB34_6-.LBB34_2)>>2
	.byte	(.LBB34_13-.LBB34_2)>>2

	.section	.text.signalfern_first_between_in_to,"ax",@progbits
	.globl	signalfern_first_between_in_to
	.p2align	2
	.type	signalfern_first_between_in_to,@function
signalfern_first_between_in_to:
	sub	sp, sp, #144
	ldr	x10, [x0, #16]
	mov	w9, #4096
	cmp	x1, #0
	str	x19, [sp, #128]
	mov	x19, x5
	mov	x6, x4
	sub	x10, x10, #1
	mov	x5, x3
	mov	x8, x1
	csel	x9, x9, xzr, eq
	cmp	x10, #3
	mov	x3, x2
	stp	x29, x30, [sp, #112]
	add	x29, sp, #112
	b.hi	.LBB35_2
	ldr	x11, [x0, #56]
	b	.LBB35_3
.LBB35_2:
	mov	x10, xzr
	mov	w11, #65
.LBB35_3:
	ldur	q0, [x0, #24]
	ldur	q1, [x0, #40]
	add	x1, sp, #8
	add	x2, x8, x9
	mov	x4, xzr
	str	x10, [sp, #8]
	stp	q0, q1, [sp, #16]
	ldp	q0, q1, [x0, #64]
	sub	x0, x29, #24
	str	x11, [sp, #48]
	stp	xzr, xzr, [x29, #-24]
	stur	q0, [sp, #56]
	stur	q1, [sp, #72]
	stur	xzr, [x29, #-8]
	bl	"between::first_between_from_in"
	ldurb	w9, [x29, #-24]
	ldurb	w8, [x29, #-16]
	ldur	x10, [x29, #-8]
	cbz	w9, .LBB35_6
	adrp	x11, .LJTI35_0
	add	x11, x11, :lo12:.LJTI35_0
	mov	w9, #1
	adr	x12, .LBB35_5
	ldrb	w13, [x11, x8]
	add	x12, x12, x13, lsl #2
	br	x12
.LBB35_5:
	mov	w9, #2
	stp	x9, xzr, [x19]
	str	xzr, [x19, #16]
	ldp	x29, x30, [sp, #112]
	ldr	x19, [sp, #128]
	add	sp, sp, #144
	ret
.LBB35_6:
	cmp	w8, #1
	b.ne	.LBB35_8
	stp	xzr, xzr, [x19]
	str	x10, [x19, #16]
	ldp	x29, x30, [sp, #112]
	ldr	x19, [sp, #128]
	add	sp, sp, #144
	ret
.LBB35_8:
	mov	w8, #1
	stp	xzr, xzr, [x19, #8]
	str	x8, [x19]
	ldp	x29, x30, [sp, #112]
	ldr	x19, [sp, #128]
	add	sp, sp, #144
	ret
.LBB35_9:
	mov	x8, xzr
	mov	w9, #16
.LBB35_10:
	stp	x9, x8, [x19]
	str	xzr, [x19, #16]
	ldp	x29, x30, [sp, #112]
	ldr	x19, [sp, #128]
	add	sp, sp, #144
	ret
.LBB35_11:
	mov	w9, #13
	stp	x9, xzr, [x19]
	str	xzr, [x19, #16]
	ldp	x29, x30, [sp, #112]
	ldr	x19, [sp, #128]
	add	sp, sp, #144
	ret
.LBB35_12:
	mov	w9, #6
	b	.LBB35_23
.LBB35_13:
	mov	w9, #14
	stp	x9, xzr, [x19]
	str	xzr, [x19, #16]
	ldp	x29, x30, [sp, #112]
	ldr	x19, [sp, #128]
	add	sp, sp, #144
	ret
.LBB35_14:
	mov	w9, #11
	stp	x9, xzr, [x19]
	str	xzr, [x19, #16]
	ldp	x29, x30, [sp, #112]
	ldr	x19, [sp, #128]
	add	sp, sp, #144
	ret
.LBB35_15:
	mov	w9, #3
	b	.LBB35_23
.LBB35_16:
	mov	w9, #17
	stp	x9, xzr, [x19]
	str	xzr, [x19, #16]
	ldp	x29, x30, [sp, #112]
	ldr	x19, [sp, #128]
	add	sp, sp, #144
	ret
.LBB35_17:
	mov	w9, #4
	b	.LBB35_23
.LBB35_18:
	mov	w9, #9
	stp	x9, xzr, [x19]
	str	xzr, [x19, #16]
	ldp	x29, x30, [sp, #112]
	ldr	x19, [sp, #128]
	add	sp, sp, #144
	ret
.LBB35_19:
	mov	w9, #7
	b	.LBB35_23
.LBB35_20:
	mov	w9, #15
	stp	x9, xzr, [x19]
	str	xzr, [x19, #16]
	ldp	x29, x30, [sp, #112]
	ldr	x19, [sp, #128]
	add	sp, sp, #144
	ret
.LBB35_21:
	mov	w9, #8
	b	.LBB35_23
.LBB35_22:
	mov	w9, #12
.LBB35_23:
	stp	x9, x10, [x19]
	str	xzr, [x19, #16]
	ldp	x29, x30, [sp, #112]
	ldr	x19, [sp, #128]
	add	sp, sp, #144
	ret
.LBB35_24:
	mov	w9, #10
	stp	x9, xzr, [x19]
	str	xzr, [x19, #16]
	ldp	x29, x30, [sp, #112]
	ldr	x19, [sp, #128]
	add	sp, sp, #144
	ret
.Lfunc_end35:
	.size	signalfern_first_between_in_to, .Lfunc_end35-signalfern_first_between_in_to
	.section	.rodata.signalfern_first_between_in_to,"a",@progbits
.LJTI35_0:
	.byte	(.LBB35_10-.LBB35_5)>>2
	.byte	(.LBB35_5-.LBB35_5)>>2
	.byte	(.LBB35_15-.LBB35_5)>>2
	.byte	(.LBB35_17-.LBB35_5)>>2
	.byte	(.LBB35_12-.LBB35_5)>>2
	.byte	(.LBB35_19-.LBB35_5)>>2
	.byte	(.LBB35_21-.LBB35_5)>>2
	.byte	(.LBB35_18-.LBB35_5)>>2
	.byte	(.LBB35_24-.LBB35_5)>>2
	.byte	(.LBB35_14-.LBB35_5)>>2
	.byte	(.LBB35_22-.LBB35_5)>>2
	.byte	(.LBB35_11-.LBB35_5)>>2
	.byte	(.LBB35_13-.LBB35_5)>>2
	.byte	(.LBB35_20-.LBB35_5)>>2
	.byte	(.LBB35_9-.LBB35_5)>>2
	.byte	(.LBB35_16-.LBB35_5)>>2

	.section	.text.signalfern_first_between_to,"ax",@progbits
	.globl	signalfern_first_between_to
	.p2align	2
	.type	signalfern_first_between_to,@function
signalfern_first_between_to:
	sub	sp, sp, #64
	cmp	x0, #0
	mov	w9, #4096
	mov	x8, x0
	csel	x9, x9, xzr, eq
	str	x19, [sp, #48]
	mov	x19, x4
	mov	x5, x3
	mov	x4, x2
	mov	x2, x1
	add	x0, sp, #8
	add	x1, x8, x9
	mov	x3, xzr
	stp	x29, x30, [sp, #32]
	add	x29, sp, #32
	stp	xzr, xzr, [sp, #8]
	str	xzr, [sp, #24]
	bl	"between::first_between_from"
	ldrb	w9, [sp, #8]
	ldrb	w8, [sp, #16]
	ldr	x10, [sp, #24]
	cbz	w9, .LBB36_3
	adrp	x11, .LJTI36_0
	add	x11, x11, :lo12:.LJTI36_0
	mov	w9, #1
	adr	x12, .LBB36_2
	ldrb	w13, [x11, x8]
	add	x12, x12, x13, lsl #2
	br	x12
.LBB36_2:
	mov	w9, #2
	stp	x9, xzr, [x19]
	str	xzr, [x19, #16]
	ldp	x29, x30, [sp, #32]
	ldr	x19, [sp, #48]
	add	sp, sp, #64
	ret
.LBB36_3:
	cmp	w8, #1
	b.ne	.LBB36_5
	stp	xzr, xzr, [x19]
	str	x10, [x19, #16]
	ldp	x29, x30, [sp, #32]
	ldr	x19, [sp, #48]
	add	sp, sp, #64
	ret
.LBB36_5:
	mov	w8, #1
	stp	xzr, xzr, [x19, #8]
	str	x8, [x19]
	ldp	x29, x30, [sp, #32]
	ldr	x19, [sp, #48]
	add	sp, sp, #64
	ret
.LBB36_6:
	mov	x8, xzr
	mov	w9, #16
.LBB36_7:
	stp	x9, x8, [x19]
	str	xzr, [x19, #16]
	ldp	x29, x30, [sp, #32]
	ldr	x19, [sp, #48]
	add	sp, sp, #64
	ret
.LBB36_8:
	mov	w9, #13
	stp	x9, xzr, [x19]
	str	xzr, [x19, #16]
	ldp	x29, x30, [sp, #32]
	ldr	x19, [sp, #48]
	add	sp, sp, #64
	ret
.LBB36_9:
	mov	w9, #6
	b	.LBB36_20
.LBB36_10:
	mov	w9, #14
	stp	x9, xzr, [x19]
	str	xzr, [x19, #16]
	ldp	x29, x30, [sp, #32]
	ldr	x19, [sp, #48]
	add	sp, sp, #64
	ret
.LBB36_11:
	mov	w9, #11
	stp	x9, xzr, [x19]
	str	xzr, [x19, #16]
	ldp	x29, x30, [sp, #32]
	ldr	x19, [sp, #48]
	add	sp, sp, #64
	ret
.LBB36_12:
	mov	w9, #3
	b	.LBB36_20
.LBB36_13:
	mov	w9, #17
	stp	x9, xzr, [x19]
	str	xzr, [x19, #16]
	ldp	x29, x30, [sp, #32]
	ldr	x19, [sp, #48]
	add	sp, sp, #64
	ret
.LBB36_14:
	mov	w9, #4
	b	.LBB36_20
.LBB36_15:
	mov	w9, #9
	stp	x9, xzr, [x19]
	str	xzr, [x19, #16]
	ldp	x29, x30, [sp, #32]
	ldr	x19, [sp, #48]
	add	sp, sp, #64
	ret
.LBB36_16:
	mov	w9, #7
	b	.LBB36_20
.LBB36_17:
	mov	w9, #15
	stp	x9, xzr, [x19]
	str	xzr, [x19, #16]
	ldp	x29, x30, [sp, #32]
	ldr	x19, [sp, #48]
	add	sp, sp, #64
	ret
.LBB36_18:
	mov	w9, #8
	b	.LBB36_20
.LBB36_19:
	mov	w9, #12
.LBB36_20:
	stp	x9, x10, [x19]
	str	xzr, [x19, #16]
	ldp	x29, x30, [sp, #32]
	ldr	x19, [sp, #48]
	add	sp, sp, #64
	ret
.LBB36_21:
	mov	w9, #10
	stp	x9, xzr, [x19]
	str	xzr, [x19, #16]
	ldp	x29, x30, [sp, #32]
	ldr	x19, [sp, #48]
	add	sp, sp, #64
	ret
.Lfunc_end36:
	.size	signalfern_first_between_to, .Lfunc_end36-signalfern_first_between_to
	.section	.rodata.signalfern_first_between_to,"a",@progbits
.LJTI36_0:
	.byte	(.LBB36_7-.LBB36_2)>>2
	.byte	(.LBB36_2-.LBB36_2)>>2
	.byte	(.LBB36_12-.LBB36_2)>>2
	.byte	(.LBB36_14-.LBB36_2)>>2
	.byte	(.LBB36_9-.LBB36_2)>>2
	.byte	(.LBB36_16-.LBB36_2)>>2
	.byte	(.LBB36_18-.LBB36_2)>>2
	.byte	(.LBB36_15-.LBB36_2)>>2
	.byte	(.LBB36_21-.LBB36_2)>>2
	.byte	(.LBB36_11-.LBB36_2)>>2
	.byte	(.LBB36_19-.LBB36_2)>>2
	.byte	(.LBB36_8-.LBB36_2)>>2
	.byte	(.LBB36_10-.LBB36_2)>>2
	.byte	(.LBB36_17-.LBB36_2)>>2
	.byte	(.LBB36_6-.LBB36_2)>>2
	.byte	(.LBB36_13-.LBB36_2)>>2

	.section	.rodata.cst16,"aM",@progbits,16
	.p2align	4, 0x0
.LCPI37_0:
	.xword	1
	.xword	0
	.section	.text.signalfern_judge_section_to,"ax",@progbits
	.globl	signalfern_judge_section_to
	.p2align	2
	.type	signalfern_judge_section_to,@function
signalfern_judge_section_to:
	sub	sp, sp, #64
	sub	x9, x3, #16
	cmp	x3, #0
	lsr	x10, x2, #15
	ccmn	x9, #9, #2, ne
	str	x19, [sp, #48]
	mov	x19, x5
	mov	x5, x2
	cset	w9, lo
	stp	x29, x30, [sp, #32]
	add	x29, sp, #32
	stp	xzr, xzr, [sp, #8]
	str	xzr, [sp, #24]
	cbnz	x10, .LBB37_4
	cbnz	w9, .LBB37_4
	cmp	x0, #0
	mov	w9, #4096
	mov	x8, x3
	csel	x9, x9, xzr, eq
	cmp	w4, #0
	mov	x10, x0
	mov	x2, x1
	cset	w3, ne
	add	x0, sp, #8
	add	x1, x10, x9
	mov	x4, x8
	bl	"section_check::judge"
	ldrb	w8, [sp, #8]
	cbz	w8, .LBB37_5
	adrp	x8, .LCPI37_0
	ldr	x9, [sp, #24]
	ldr	q0, [x8, :lo12:.LCPI37_0]
	ldrb	w8, [sp, #16]
	add	x8, x8, #1
	str	q0, [x19]
	stp	x9, x8, [x19, #16]
	ldp	x29, x30, [sp, #32]
	ldr	x19, [sp, #48]
	add	sp, sp, #64
	ret
.LBB37_4:
	mov	w8, #10
	stp	x8, xzr, [x19]
	stp	xzr, xzr, [x19, #16]
	ldp	x29, x30, [sp, #32]
	ldr	x19, [sp, #48]
	add	sp, sp, #64
	ret
.LBB37_5:
	ldr	x8, [sp, #16]
	stp	xzr, x8, [x19]
	stp	xzr, xzr, [x19, #16]
	ldp	x29, x30, [sp, #32]
	ldr	x19, [sp, #48]
	add	sp, sp, #64
	ret
.Lfunc_end37:
	.size	signalfern_judge_section_to, .Lfunc_end37-signalfern_judge_section_to

	.section	.text.signalfern_layered_values_to,"ax",@progbits
	.globl	signalfern_layered_values_to
	.p2align	2
	.type	signalfern_layered_values_to,@function
signalfern_layered_values_to:
	sub	sp, sp, #176
	cmp	x0, #0
	mov	w8, #4096
	stp	x26, x25, [sp, #112]
	csel	x25, x8, xzr, eq
	cmp	x2, #0
	stp	x24, x23, [sp, #128]
	csel	x26, x8, xzr, eq
	stp	x22, x21, [sp, #144]
	mov	x22, x3
	stp	x20, x19, [sp, #160]
	mov	x20, x0
	mov	x23, x2
	mov	x21, x1
	mov	x0, sp
	add	x1, x2, x26
	mov	x2, x3
	mov	w3, w4
	stp	x29, x30, [sp, #96]
	add	x29, sp, #96
	mov	x19, x5
	mov	w24, w4
	bl	"layered::answer_from"
	ldrb	w8, [sp]
	cbz	w8, .LBB38_3
.LBB38_1:
	mov	x8, xzr
	mov	x9, xzr
	mov	x10, xzr
.LBB38_2:
	stp	x8, x9, [x19]
	ldp	x22, x21, [sp, #144]
	str	x10, [x19, #16]
	ldp	x20, x19, [sp, #160]
	ldp	x24, x23, [sp, #128]
	ldp	x26, x25, [sp, #112]
	ldp	x29, x30, [sp, #96]
	add	sp, sp, #176
	ret
.LBB38_3:
	ldrb	w8, [sp, #8]
	cbz	w8, .LBB38_7
	mov	x0, sp
	add	x1, x20, x25
	mov	x2, x21
	mov	w3, w24
	bl	"layered::answer_from"
	ldrb	w8, [sp]
	cbnz	w8, .LBB38_1
	ldrb	w8, [sp, #8]
	cbnz	w8, .LBB38_1
	movi	v0.2d, #0000000000000000
	mov	x0, sp
	add	x1, x20, x25
	mov	x2, x21
	str	xzr, [sp, #80]
	stp	q0, q0, [sp, #16]
	stp	q0, q0, [sp, #48]
	str	q0, [sp]
	bl	"column::Column::open"
	ldp	x12, x10, [sp, #72]
	mov	x8, xzr
	ldrb	w9, [sp]
	ldr	x11, [sp, #32]
	add	x10, x10, x11
	cmp	w9, #0
	csel	x9, x10, xzr, eq
	csel	x10, x12, xzr, eq
	b	.LBB38_2
.LBB38_7:
	movi	v0.2d, #0000000000000000
	mov	x0, sp
	add	x1, x23, x26
	mov	x2, x22
	str	xzr, [sp, #80]
	stp	q0, q0, [sp, #16]
	stp	q0, q0, [sp, #48]
	str	q0, [sp]
	bl	"column::Column::open"
	ldp	x11, x9, [sp, #72]
	ldrb	w8, [sp]
	ldr	x10, [sp, #32]
	cmp	w8, #0
	add	x9, x9, x10
	cset	w8, eq
	csel	x10, x11, xzr, eq
	csel	x9, x9, xzr, eq
	b	.LBB38_2
.Lfunc_end38:
	.size	signalfern_layered_values_to, .Lfunc_end38-signalfern_layered_values_to

	.section	.text.signalfern_look_up_in_to,"ax",@progbits
	.globl	signalfern_look_up_in_to
	.p2align	2
	.type	signalfern_look_up_in_to,@function
signalfern_look_up_in_to:
	sub	sp, sp, #32
	mov	w9, #4096
	cmp	x1, #0
	mov	x8, x0
	csel	x9, x9, xzr, eq
	mov	x0, x4
	stp	x29, x30, [sp, #16]
	add	x9, x1, x9
	mov	x1, x8
	add	x29, sp, #16
	stp	x9, x2, [sp]
	mov	x2, sp
	bl	"signalfern_c::look_in"
	ldp	x29, x30, [sp, #16]
	add	sp, sp, #32
	ret
.Lfunc_end39:
	.size	signalfern_look_up_in_to, .Lfunc_end39-signalfern_look_up_in_to

	.section	.text.signalfern_look_up_layered_in_to,"ax",@progbits
	.globl	signalfern_look_up_layered_in_to
	.p2align	2
	.type	signalfern_look_up_layered_in_to,@function
signalfern_look_up_layered_in_to:
	sub	sp, sp, #176
	mov	w8, #4096
	cmp	x1, #0
	movi	v0.2d, #0000000000000000
	csel	x9, x8, xzr, eq
	cmp	x4, #0
	stp	x29, x30, [sp, #128]
	add	x29, sp, #128
	add	x9, x1, x9
	csel	x8, x8, xzr, eq
	str	x21, [sp, #144]
	mov	x21, x0
	add	x8, x4, x8
	stp	x9, x2, [x29, #-16]
	add	x0, sp, #48
	sub	x2, x29, #32
	mov	x1, x3
	mov	w3, w6
	stp	x20, x19, [sp, #160]
	mov	x19, x7
	mov	w20, w6
	stp	x8, x5, [x29, #-32]
	stp	q0, q0, [sp, #48]
	str	q0, [sp, #80]
	bl	"signalfern_c::look_in"
	ldr	x8, [sp, #48]
	cmp	x8, #1
	b.ne	.LBB40_2
	movi	v0.2d, #0000000000000000
	mov	x0, sp
	sub	x2, x29, #16
	mov	x1, x21
	mov	w3, w20
	stp	q0, q0, [sp, #16]
	str	q0, [sp]
	bl	"signalfern_c::look_in"
	ldp	x8, x10, [sp]
	mov	w9, #1
	fmov	d0, x9
	ldr	x9, [sp, #32]
	str	xzr, [x19, #16]
	fmov	d1, x8
	stp	x8, x10, [x19]
	cmp	x8, #1
	ldr	x8, [sp, #80]
	csel	x9, xzr, x9, hi
	cmhs	v0.2d, v0.2d, v1.2d
	ldr	q1, [sp, #16]
	csel	x8, xzr, x8, hi
	dup	v0.2d, v0.d[0]
	and	v0.16b, v0.16b, v1.16b
	stur	q0, [x19, #24]
	stp	x9, x8, [x19, #40]
	ldp	x20, x19, [sp, #160]
	ldp	x29, x30, [sp, #128]
	ldr	x21, [sp, #144]
	add	sp, sp, #176
	ret
.LBB40_2:
	ldr	x10, [sp, #56]
	ldr	q0, [sp, #64]
	mov	w9, #1
	str	x8, [x19]
	ldr	x8, [sp, #80]
	stp	x10, x9, [x19, #8]
	stur	q0, [x19, #24]
	stp	xzr, x8, [x19, #40]
	ldp	x20, x19, [sp, #160]
	ldp	x29, x30, [sp, #128]
	ldr	x21, [sp, #144]
	add	sp, sp, #176
	ret
.Lfunc_end40:
	.size	signalfern_look_up_layered_in_to, .Lfunc_end40-signalfern_look_up_layered_in_to

	.section	.rodata.cst16,"aM",@progbits,16
	.p2align	4, 0x0
.LCPI41_0:
	.xword	1
	.xword	8
.LCPI41_1:
	.xword	1
	.xword	9
	.section	.text.signalfern_look_up_layered_page_in_to,"ax",@progbits
	.globl	signalfern_look_up_layered_page_in_to
	.p2align	2
	.type	signalfern_look_up_layered_page_in_to,@function
signalfern_look_up_layered_page_in_to:
	stp	x29, x30, [sp, #-96]!
	stp	x28, x27, [sp, #16]
	mov	x29, sp
	stp	x26, x25, [sp, #32]
	stp	x24, x23, [sp, #48]
	stp	x22, x21, [sp, #64]
	stp	x20, x19, [sp, #80]
	sub	sp, sp, #560
	cmp	x1, #0
	mov	w9, #4096
	ldr	x13, [x29, #96]
	csel	x11, x9, xzr, eq
	cmp	x4, #0
	ldr	x14, [x29, #112]
	csel	x8, x9, xzr, eq
	cmp	x6, #0
	ldr	x16, [x29, #128]
	csel	x15, x9, xzr, eq
	cmp	x13, #0
	ldr	x30, [x29, #144]
	csel	x17, x9, xzr, eq
	cmp	x14, #0
	ldr	x10, [x0, #16]
	csel	x18, x9, xzr, eq
	cmp	x16, #0
	str	x6, [sp, #264]
	csel	x19, x9, xzr, eq
	cmp	x30, #0
	sub	x10, x10, #1
	csel	x9, x9, xzr, eq
	cmp	x10, #3
	str	x9, [sp, #200]
	b.hi	.LBB41_2
	ldr	x6, [x0, #56]
	b	.LBB41_3
.LBB41_2:
	mov	x10, xzr
	mov	w6, #65
.LBB41_3:
	ldr	x9, [x3, #16]
	ldr	x12, [x29, #160]
	stp	x14, x13, [sp, #248]
	stp	x16, x15, [sp, #232]
	sub	x21, x9, #1
	ldr	x9, [x29, #104]
	stp	x18, x17, [sp, #216]
	cmp	x21, #3
	str	x19, [sp, #208]
	b.hi	.LBB41_5
	ldr	x19, [x3, #56]
	b	.LBB41_6
.LBB41_5:
	mov	x21, xzr
	mov	w19, #65
.LBB41_6:
	ldp	x17, x16, [x0, #32]
	movi	v0.2d, #0000000000000000
	ldp	x14, x13, [x0, #80]
	cmp	x7, x9
	ldp	x18, x15, [x0, #64]
	stp	xzr, xzr, [x29, #-96]
	ldp	x26, x20, [x3, #80]
	str	x16, [sp, #192]
	ldr	x16, [x0, #48]
	ldr	x0, [x0, #24]
	stp	xzr, xzr, [x29, #-112]
	stp	q0, q0, [x29, #-192]
	ldp	x25, x27, [x3, #64]
	stp	q0, q0, [x29, #-160]
	ldp	x22, x23, [x3, #40]
	stur	q0, [x29, #-128]
	ldp	x28, x24, [x3, #24]
	stp	q0, q0, [sp, #272]
	stp	q0, q0, [sp, #304]
	str	q0, [sp, #336]
	str	xzr, [sp, #352]
	b.hi	.LBB41_13
	ldr	x9, [x29, #120]
	cmp	x7, x9
	b.hi	.LBB41_13
	ldr	x9, [x29, #136]
	cmp	x7, x9
	b.hi	.LBB41_13
	ldr	x9, [x29, #152]
	cmp	x7, x9
	b.hi	.LBB41_13
	stp	x0, x10, [sp, #88]
	add	x8, x4, x8
	sub	x0, x29, #80
	stp	x30, x7, [sp, #112]
	stp	x18, x17, [sp, #136]
	stp	x16, x15, [sp, #152]
	str	x14, [sp, #104]
	stp	x13, x2, [sp, #56]
	stp	x11, x1, [sp, #72]
	str	x5, [sp, #184]
	str	x12, [sp, #128]
	stp	x21, x28, [x29, #-80]
	stp	x24, x22, [x29, #-64]
	stp	x23, x19, [x29, #-48]
	str	x19, [sp, #48]
	stp	x25, x27, [x29, #-32]
	stp	x6, x8, [sp, #168]
	stur	x26, [x29, #-16]
	bl	"column::head_ok"
	tbz	w0, #0, .LBB41_15
	ldr	x6, [sp, #184]
	subs	x8, x6, x20
	b.hs	.LBB41_22
.LBB41_12:
	movi	v0.2d, #0000000000000000
	adrp	x8, .LCPI41_1
	stur	xzr, [x29, #-112]
	ldr	q1, [x8, :lo12:.LCPI41_1]
	b	.LBB41_16
.LBB41_13:
	mov	w8, #12
.LBB41_14:
	stp	x8, x7, [x12]
	stp	xzr, xzr, [x12, #16]
	b	.LBB41_42
.LBB41_15:
	movi	v0.2d, #0000000000000000
	adrp	x8, .LCPI41_0
	ldr	x6, [sp, #184]
	ldr	q1, [x8, :lo12:.LCPI41_0]
	stur	xzr, [x29, #-112]
.LBB41_16:
	stp	q1, q0, [x29, #-192]
	stp	q0, q0, [x29, #-160]
	stur	q0, [x29, #-128]
.LBB41_17:
	ldp	x23, x22, [sp, #248]
	sub	x7, x29, #192
	ldp	x27, x26, [sp, #216]
	ldr	x28, [sp, #208]
	ldp	x25, x24, [sp, #232]
	ldr	x21, [sp, #264]
	ldr	x19, [sp, #120]
	ldr	x5, [sp, #176]
	add	x0, x22, x26
	add	x1, x23, x27
	add	x2, x25, x28
	add	x3, x21, x24
	mov	x4, x19
	bl	"page::fill_by"
	ldp	x15, x14, [sp, #160]
	ldr	x18, [sp, #136]
	ldp	x17, x16, [sp, #144]
	cbz	x19, .LBB41_40
	cmp	x19, #8
	b.hs	.LBB41_20
	ldr	x13, [sp, #112]
	ldr	x1, [sp, #200]
	mov	w9, wzr
	mov	x8, xzr
	b	.LBB41_34
.LBB41_20:
	ldr	x13, [sp, #112]
	ldr	x1, [sp, #200]
	add	x9, x28, x25
	add	x8, x1, x13
	sub	x8, x8, x9
	cmp	x8, #32
	b.hs	.LBB41_25
	mov	w9, wzr
	mov	x8, xzr
	b	.LBB41_34
.LBB41_22:
	subs	x8, x8, x22
	b.lo	.LBB41_12
	cmp	x8, x26
	b.ne	.LBB41_12
	ldr	x8, [sp, #48]
	stp	xzr, x21, [x29, #-192]
	stp	x28, x24, [x29, #-176]
	stp	x8, x25, [x29, #-144]
	stp	x22, x23, [x29, #-160]
	stp	x27, x26, [x29, #-128]
	stur	x20, [x29, #-112]
	b	.LBB41_17
.LBB41_25:
	cmp	x19, #32
	b.hs	.LBB41_27
	mov	x8, xzr
	mov	w9, wzr
	b	.LBB41_31
.LBB41_27:
	movi	v0.2d, #0000000000000000
	movi	v1.2d, #0000000000000000
	add	x9, x1, x13
	add	x11, x28, x25
	and	x10, x19, #0x18
	and	x8, x19, #0xffffffffffffffe0
	add	x9, x9, #16
	add	x11, x11, #16
	and	x12, x19, #0xffffffffffffffe0
.LBB41_28:
	movi	v2.16b, #1
	ldp	q3, q4, [x11, #-16]
	subs	x12, x12, #32
	add	x11, x11, #32
	cmeq	v3.16b, v3.16b, v2.16b
	cmeq	v4.16b, v4.16b, v2.16b
	bic	v5.16b, v2.16b, v3.16b
	bic	v2.16b, v2.16b, v4.16b
	orr	v0.16b, v0.16b, v3.16b
	orr	v1.16b, v1.16b, v4.16b
	stp	q5, q2, [x9, #-16]
	add	x9, x9, #32
	b.ne	.LBB41_28
	orr	v0.16b, v1.16b, v0.16b
	cmp	x19, x8
	shl	v0.16b, v0.16b, #7
	cmlt	v0.16b, v0.16b, #0
	umaxv	b0, v0.16b
	fmov	w9, s0
	and	w9, w9, #0x1
	b.eq	.LBB41_36
	cbz	x10, .LBB41_34
.LBB41_31:
	movi	v0.2d, #0000000000000000
	mov	v0.b[0], w9
	mov	x9, x8
	and	x8, x19, #0xfffffffffffffff8
	add	x10, x1, x9
	add	x11, x28, x9
	sub	x9, x9, x8
	add	x10, x13, x10
	add	x11, x25, x11
.LBB41_32:
	movi	v1.8b, #1
	ldr	d2, [x11], #8
	adds	x9, x9, #8
	cmeq	v2.8b, v2.8b, v1.8b
	bic	v1.8b, v1.8b, v2.8b
	orr	v0.8b, v0.8b, v2.8b
	str	d1, [x10], #8
	b.ne	.LBB41_32
	shl	v0.8b, v0.8b, #7
	cmp	x19, x8
	cmlt	v0.8b, v0.8b, #0
	umaxv	b0, v0.8b
	fmov	w9, s0
	and	w9, w9, #0x1
	b.eq	.LBB41_36
.LBB41_34:
	add	x10, x1, x8
	add	x11, x28, x8
	sub	x8, x19, x8
	add	x10, x13, x10
	add	x11, x25, x11
.LBB41_35:
	ldrb	w12, [x11], #1
	cmp	w12, #1
	cset	w13, eq
	cset	w12, ne
	subs	x8, x8, #1
	orr	w9, w9, w13
	strb	w12, [x10], #1
	b.ne	.LBB41_35
.LBB41_36:
	tbz	w9, #0, .LBB41_40
	ldr	x8, [sp, #96]
	mov	x20, x0
	sub	x0, x29, #80
	stp	x14, x18, [x29, #-40]
	stur	x8, [x29, #-80]
	ldr	x8, [sp, #88]
	stp	x8, x17, [x29, #-72]
	ldr	x8, [sp, #192]
	stp	x8, x16, [x29, #-56]
	ldr	x8, [sp, #104]
	stp	x15, x8, [x29, #-24]
	bl	"column::head_ok"
	tbz	w0, #0, .LBB41_43
	ldp	x9, x7, [sp, #56]
	ldr	x10, [sp, #184]
	ldr	x11, [sp, #72]
	subs	x8, x7, x9
	b.hs	.LBB41_48
.LBB41_39:
	movi	v0.2d, #0000000000000000
	adrp	x8, .LCPI41_1
	str	xzr, [sp, #352]
	ldr	q1, [x8, :lo12:.LCPI41_1]
	b	.LBB41_44
.LBB41_40:
	mov	x8, xzr
.LBB41_41:
	ldr	x9, [sp, #128]
	stp	xzr, x19, [x9]
	stp	x8, x0, [x9, #16]
.LBB41_42:
	add	sp, sp, #560
	ldp	x20, x19, [sp, #80]
	ldp	x22, x21, [sp, #64]
	ldp	x24, x23, [sp, #48]
	ldp	x26, x25, [sp, #32]
	ldp	x28, x27, [sp, #16]
	ldp	x29, x30, [sp], #96
	ret
.LBB41_43:
	movi	v0.2d, #0000000000000000
	adrp	x8, .LCPI41_0
	ldr	x10, [sp, #184]
	ldr	q1, [x8, :lo12:.LCPI41_0]
	ldp	x7, x11, [sp, #64]
	str	xzr, [sp, #352]
.LBB41_44:
	stp	q1, q0, [sp, #272]
	stp	q0, q0, [sp, #304]
	str	q0, [sp, #336]
.LBB41_45:
	sub	x8, x29, #192
	add	x9, sp, #272
	sub	x0, x29, #104
	stp	x8, x20, [sp, #24]
	ldr	x8, [sp, #176]
	add	x1, x22, x26
	add	x2, x23, x27
	add	x3, x25, x28
	add	x4, x21, x24
	stp	x8, x10, [sp, #8]
	ldr	x8, [sp, #80]
	mov	x5, x19
	str	x9, [sp]
	add	x6, x8, x11
	bl	"layered_page::under::fill_under"
	ldp	x8, x0, [x29, #-96]
	ldurb	w9, [x29, #-104]
	cbz	w9, .LBB41_41
	and	x7, x8, #0xff
	adrp	x9, .LJTI41_0
	add	x9, x9, :lo12:.LJTI41_0
	ldr	x12, [sp, #128]
	adr	x10, .LBB41_14
	ldrh	w11, [x9, x7, lsl #1]
	add	x10, x10, x11, lsl #2
	mov	w8, #1
	br	x10
.LBB41_47:
	mov	x7, xzr
	mov	w8, #2
	b	.LBB41_14
.LBB41_48:
	ldr	x12, [sp, #192]
	subs	x8, x8, x12
	b.lo	.LBB41_39
	ldr	x12, [sp, #104]
	cmp	x8, x12
	b.ne	.LBB41_39
	ldr	x8, [sp, #168]
	str	x8, [sp, #320]
	ldr	x8, [sp, #136]
	str	x8, [sp, #328]
	ldr	x8, [sp, #96]
	stp	xzr, x8, [sp, #272]
	ldr	x8, [sp, #88]
	str	x8, [sp, #288]
	ldr	x8, [sp, #144]
	str	x8, [sp, #296]
	ldr	x8, [sp, #152]
	str	x8, [sp, #312]
	ldr	x8, [sp, #192]
	str	x8, [sp, #304]
	ldr	x8, [sp, #160]
	str	x8, [sp, #336]
	ldr	x8, [sp, #104]
	stp	x8, x9, [sp, #344]
	b	.LBB41_45
.LBB41_51:
	mov	x7, xzr
	mov	w8, #16
	b	.LBB41_14
.LBB41_52:
	mov	x7, xzr
	mov	w8, #13
	b	.LBB41_14
.LBB41_53:
	mov	w8, #6
	b	.LBB41_64
.LBB41_54:
	mov	x7, xzr
	mov	w8, #14
	b	.LBB41_14
.LBB41_55:
	mov	x7, xzr
	mov	w8, #11
	b	.LBB41_14
.LBB41_56:
	mov	w8, #3
	b	.LBB41_64
.LBB41_57:
	mov	x7, xzr
	mov	w8, #17
	b	.LBB41_14
.LBB41_58:
	mov	w8, #4
	b	.LBB41_64
.LBB41_59:
	mov	x7, xzr
	mov	w8, #9
	b	.LBB41_14
.LBB41_60:
	mov	w8, #7
	b	.LBB41_64
.LBB41_61:
	mov	x7, xzr
	mov	w8, #15
	b	.LBB41_14
.LBB41_62:
	mov	w8, #8
	b	.LBB41_64
.LBB41_63:
	mov	w8, #12
.LBB41_64:
	mov	x7, x0
	b	.LBB41_14
.LBB41_65:
	mov	x7, xzr
	mov	w8, #10
	b	.LBB41_14
.Lfunc_end41:
	.size	signalfern_look_up_layered_page_in_to, .Lfunc_end41-signalfern_look_up_layered_page_in_to
	.section	.rodata.signalfern_look_up_layered_page_in_to,"a",@progbits
	.p2align	1, 0x0
.LJTI41_0:
	.hword	(.LBB41_14-.LBB41_14)>>2
	.hword	(.LBB41_47-.LBB41_14)>>2
	.hword	(.LBB41_56-.LBB41_14)>>2
	.hword	(.LBB41_58-.LBB41_14)>>2
	.hword	(.LBB41_53-.LBB41_14)>>2
	.hword	(.LBB41_60-.LBB41_14)>>2
	.hword	(.LBB41_62-.LBB41_14)>>2
	.hword	(.LBB41_59-.LBB41_14)>>2
	.hword	(.LBB41_65-.LBB41_14)>>2
	.hword	(.LBB41_55-.LBB41_14)>>2
	.hword	(.LBB41_63-.LBB41_14)>>2
	.hword	(.LBB41_52-.LBB41_14)>>2
	.hword	(.LBB41_54-.LBB41_14)>>2
	.hword	(.LBB41_61-.LBB41_14)>>2
	.hword	(.LBB41_51-.LBB41_14)>>2
	.hword	(.LBB41_57-.LBB41_14)>>2

	.section	.text.signalfern_look_up_layered_page_to,"ax",@progbits
	.globl	signalfern_look_up_layered_page_to
	.p2align	2
	.type	signalfern_look_up_layered_page_to,@function
signalfern_look_up_layered_page_to:
	sub	sp, sp, #464
	cmp	x0, #0
	mov	w9, #4096
	stp	x29, x30, [sp, #368]
	add	x29, sp, #368
	csel	x8, x9, xzr, eq
	cmp	x2, #0
	stp	x24, x23, [sp, #416]
	ldr	x24, [x29, #96]
	movi	v0.2d, #0000000000000000
	stp	x8, x4, [sp, #120]
	csel	x8, x9, xzr, eq
	cmp	x4, #0
	stp	x26, x25, [sp, #400]
	ldr	x25, [x29, #112]
	csel	x23, x9, xzr, eq
	cmp	x6, #0
	stp	x28, x27, [sp, #384]
	ldr	x17, [x29, #128]
	csel	x28, x9, xzr, eq
	cmp	x24, #0
	stp	x22, x21, [sp, #432]
	csel	x22, x9, xzr, eq
	cmp	x25, #0
	ldr	x16, [x29, #144]
	csel	x27, x9, xzr, eq
	cmp	x17, #0
	stp	x20, x19, [sp, #448]
	mov	x19, x5
	csel	x18, x9, xzr, eq
	cmp	x5, x7
	str	x3, [sp, #136]
	stp	xzr, xzr, [x29, #-24]
	stur	xzr, [x29, #-32]
	stp	q0, q0, [x29, #-128]
	stp	q0, q0, [x29, #-96]
	stur	q0, [x29, #-64]
	stur	xzr, [x29, #-48]
	stp	q0, q0, [sp, #144]
	stp	q0, q0, [sp, #176]
	str	q0, [sp, #208]
	str	xzr, [sp, #224]
	b.hi	.LBB42_7
	ldr	x9, [x29, #104]
	cmp	x19, x9
	b.hi	.LBB42_7
	ldr	x9, [x29, #120]
	cmp	x19, x9
	b.hi	.LBB42_7
	ldr	x9, [x29, #136]
	cmp	x19, x9
	b.hi	.LBB42_7
	ldr	x21, [sp, #136]
	add	x26, x2, x8
	stp	x0, x1, [sp, #80]
	sub	x0, x29, #128
	mov	x1, x26
	stp	x18, x17, [sp, #96]
	mov	x2, x21
	str	x16, [sp, #112]
	mov	x20, x6
	bl	"column::Column::open"
	ldr	x8, [sp, #128]
	stp	x20, x28, [sp, #56]
	add	x0, x20, x28
	mov	x20, x27
	add	x1, x24, x22
	sub	x7, x29, #128
	add	x2, x25, x27
	add	x3, x8, x23
	mov	x4, x19
	mov	x5, x26
	mov	x6, x21
	mov	x27, x24
	mov	x28, x22
	str	x23, [sp, #72]
	str	x26, [sp, #48]
	bl	"page::fill_by"
	cbz	x19, .LBB42_26
	cmp	x19, #8
	b.hs	.LBB42_9
	ldp	x14, x13, [sp, #96]
	mov	w9, wzr
	mov	x8, xzr
	b	.LBB42_20
.LBB42_7:
	mov	w8, #12
.LBB42_8:
	stp	x8, x19, [x16]
	stp	xzr, xzr, [x16, #16]
	b	.LBB42_28
.LBB42_9:
	ldp	x14, x13, [sp, #96]
	add	x9, x20, x25
	add	x8, x14, x13
	sub	x8, x8, x9
	cmp	x8, #32
	b.hs	.LBB42_11
	mov	w9, wzr
	mov	x8, xzr
	b	.LBB42_20
.LBB42_11:
	cmp	x19, #32
	b.hs	.LBB42_13
	mov	x8, xzr
	mov	w9, wzr
	b	.LBB42_17
.LBB42_13:
	movi	v0.2d, #0000000000000000
	movi	v1.2d, #0000000000000000
	add	x9, x14, x13
	add	x11, x20, x25
	and	x10, x19, #0x18
	and	x8, x19, #0xffffffffffffffe0
	add	x9, x9, #16
	add	x11, x11, #16
	and	x12, x19, #0xffffffffffffffe0
.LBB42_14:
	movi	v2.16b, #1
	ldp	q3, q4, [x11, #-16]
	subs	x12, x12, #32
	add	x11, x11, #32
	cmeq	v3.16b, v3.16b, v2.16b
	cmeq	v4.16b, v4.16b, v2.16b
	bic	v5.16b, v2.16b, v3.16b
	bic	v2.16b, v2.16b, v4.16b
	orr	v0.16b, v0.16b, v3.16b
	orr	v1.16b, v1.16b, v4.16b
	stp	q5, q2, [x9, #-16]
	add	x9, x9, #32
	b.ne	.LBB42_14
	orr	v0.16b, v1.16b, v0.16b
	cmp	x19, x8
	shl	v0.16b, v0.16b, #7
	cmlt	v0.16b, v0.16b, #0
	umaxv	b0, v0.16b
	fmov	w9, s0
	and	w9, w9, #0x1
	b.eq	.LBB42_22
	cbz	x10, .LBB42_20
.LBB42_17:
	movi	v0.2d, #0000000000000000
	mov	v0.b[0], w9
	mov	x9, x8
	and	x8, x19, #0xfffffffffffffff8
	add	x10, x14, x9
	add	x11, x20, x9
	sub	x9, x9, x8
	add	x10, x13, x10
	add	x11, x25, x11
.LBB42_18:
	movi	v1.8b, #1
	ldr	d2, [x11], #8
	adds	x9, x9, #8
	cmeq	v2.8b, v2.8b, v1.8b
	bic	v1.8b, v1.8b, v2.8b
	orr	v0.8b, v0.8b, v2.8b
	str	d1, [x10], #8
	b.ne	.LBB42_18
	shl	v0.8b, v0.8b, #7
	cmp	x19, x8
	cmlt	v0.8b, v0.8b, #0
	umaxv	b0, v0.8b
	fmov	w9, s0
	and	w9, w9, #0x1
	b.eq	.LBB42_22
.LBB42_20:
	add	x10, x14, x8
	add	x11, x20, x8
	sub	x8, x19, x8
	add	x10, x13, x10
	add	x11, x25, x11
.LBB42_21:
	ldrb	w12, [x11], #1
	cmp	w12, #1
	cset	w13, eq
	cset	w12, ne
	subs	x8, x8, #1
	orr	w9, w9, w13
	strb	w12, [x10], #1
	b.ne	.LBB42_21
.LBB42_22:
	tbz	w9, #0, .LBB42_26
	ldp	x22, x24, [sp, #80]
	mov	x21, x28
	ldr	x28, [sp, #120]
	mov	x23, x0
	add	x0, sp, #144
	add	x26, sp, #144
	add	x1, x22, x28
	mov	x2, x24
	bl	"column::Column::open"
	sub	x8, x29, #128
	sub	x0, x29, #32
	add	x2, x27, x21
	stp	x8, x23, [sp, #24]
	ldr	x8, [sp, #136]
	add	x3, x25, x20
	add	x6, x22, x28
	mov	x5, x19
	mov	x7, x24
	str	x8, [sp, #16]
	ldp	x9, x8, [sp, #56]
	add	x1, x9, x8
	ldr	x8, [sp, #48]
	ldr	x9, [sp, #128]
	stp	x26, x8, [sp]
	ldr	x8, [sp, #72]
	add	x4, x9, x8
	bl	"layered_page::under::fill_under"
	ldp	x8, x0, [x29, #-24]
	ldurb	w9, [x29, #-32]
	cbz	w9, .LBB42_27
	and	x19, x8, #0xff
	adrp	x9, .LJTI42_0
	add	x9, x9, :lo12:.LJTI42_0
	ldr	x16, [sp, #112]
	adr	x10, .LBB42_8
	ldrb	w11, [x9, x19]
	add	x10, x10, x11, lsl #2
	mov	w8, #1
	br	x10
.LBB42_25:
	mov	x19, xzr
	mov	w8, #2
	b	.LBB42_8
.LBB42_26:
	mov	x8, xzr
.LBB42_27:
	ldr	x9, [sp, #112]
	stp	xzr, x19, [x9]
	stp	x8, x0, [x9, #16]
.LBB42_28:
	ldp	x20, x19, [sp, #448]
	ldp	x22, x21, [sp, #432]
	ldp	x24, x23, [sp, #416]
	ldp	x26, x25, [sp, #400]
	ldp	x28, x27, [sp, #384]
	ldp	x29, x30, [sp, #368]
	add	sp, sp, #464
	ret
.LBB42_29:
	mov	x19, xzr
	mov	w8, #16
	b	.LBB42_8
.LBB42_30:
	mov	x19, xzr
	mov	w8, #13
	b	.LBB42_8
.LBB42_31:
	mov	w8, #6
	b	.LBB42_42
.LBB42_32:
	mov	x19, xzr
	mov	w8, #14
	b	.LBB42_8
.LBB42_33:
	mov	x19, xzr
	mov	w8, #11
	b	.LBB42_8
.LBB42_34:
	mov	w8, #3
	b	.LBB42_42
.LBB42_35:
	mov	x19, xzr
	mov	w8, #17
	b	.LBB42_8
.LBB42_36:
	mov	w8, #4
	b	.LBB42_42
.LBB42_37:
	mov	x19, xzr
	mov	w8, #9
	b	.LBB42_8
.LBB42_38:
	mov	w8, #7
	b	.LBB42_42
.LBB42_39:
	mov	x19, xzr
	mov	w8, #15
	b	.LBB42_8
.LBB42_40:
	mov	w8, #8
	b	.LBB42_42
.LBB42_41:
	mov	w8, #12
.LBB42_42:
	mov	x19, x0
	b	.LBB42_8
.LBB42_43:
	mov	x19, xzr
	mov	w8, #10
	b	.LBB42_8
.Lfunc_end42:
	.size	signalfern_look_up_layered_page_to, .Lfunc_end42-signalfern_look_up_layered_page_to
	.section	.rodata.signalfern_look_up_layered_page_to,"a",@progbits
.LJTI42_0:
	.byte	(.LBB42_8-.LBB42_8)>>2
	.byte	(.LBB42_25-.LBB42_8)>>2
	.byte	(.LBB42_34-.LBB42_8)>>2
	.byte	(.LBB42_36-.LBB42_8)>>2
	.byte	(.LBB42_31-.LBB42_8)>>2
	.byte	(.LBB42_38-.LBB42_8)>>2
	.byte	(.LBB42_40-.LBB42_8)>>2
	.byte	(.LBB42_37-.LBB42_8)>>2
	.byte	(.LBB42_43-.LBB42_8)>>2
	.byte	(.LBB42_33-.LBB42_8)>>2
	.byte	(.LBB42_41-.LBB42_8)>>2
	.byte	(.LBB42_30-.LBB42_8)>>2
	.byte	(.LBB42_32-.LBB42_8)>>2
	.byte	(.LBB42_39-.LBB42_8)>>2
	.byte	(.LBB42_29-.LBB42_8)>>2
	.byte	(.LBB42_35-.LBB42_8)>>2

	.section	.text.signalfern_look_up_layered_to,"ax",@progbits
	.globl	signalfern_look_up_layered_to
	.p2align	2
	.type	signalfern_look_up_layered_to,@function
signalfern_look_up_layered_to:
	sub	sp, sp, #144
	movi	v0.2d, #0000000000000000
	mov	w8, #4096
	cmp	x2, #0
	csel	x8, x8, xzr, eq
	stp	x22, x21, [sp, #112]
	mov	x21, x1
	mov	x22, x0
	add	x0, sp, #48
	add	x1, x2, x8
	mov	x2, x3
	mov	w3, w4
	stp	x29, x30, [sp, #96]
	stp	x20, x19, [sp, #128]
	add	x29, sp, #96
	mov	x19, x5
	mov	w20, w4
	stp	q0, q0, [sp, #48]
	str	q0, [sp, #80]
	bl	"signalfern_c::look_from"
	ldr	x8, [sp, #48]
	cmp	x8, #1
	b.ne	.LBB43_2
	movi	v0.2d, #0000000000000000
	cmp	x22, #0
	mov	w8, #4096
	csel	x8, x8, xzr, eq
	mov	x0, sp
	mov	x2, x21
	add	x1, x22, x8
	mov	w3, w20
	stp	q0, q0, [sp, #16]
	str	q0, [sp]
	bl	"signalfern_c::look_from"
	ldp	x8, x10, [sp]
	mov	w9, #1
	fmov	d0, x9
	ldr	x9, [sp, #32]
	str	xzr, [x19, #16]
	fmov	d1, x8
	stp	x8, x10, [x19]
	cmp	x8, #1
	ldr	x8, [sp, #80]
	csel	x9, xzr, x9, hi
	cmhs	v0.2d, v0.2d, v1.2d
	ldr	q1, [sp, #16]
	csel	x8, xzr, x8, hi
	dup	v0.2d, v0.d[0]
	and	v0.16b, v0.16b, v1.16b
	stur	q0, [x19, #24]
	stp	x9, x8, [x19, #40]
	ldp	x20, x19, [sp, #128]
	ldp	x22, x21, [sp, #112]
	ldp	x29, x30, [sp, #96]
	add	sp, sp, #144
	ret
.LBB43_2:
	ldr	x10, [sp, #56]
	ldr	q0, [sp, #64]
	mov	w9, #1
	str	x8, [x19]
	ldr	x8, [sp, #80]
	stp	x10, x9, [x19, #8]
	stur	q0, [x19, #24]
	stp	xzr, x8, [x19, #40]
	ldp	x20, x19, [sp, #128]
	ldp	x22, x21, [sp, #112]
	ldp	x29, x30, [sp, #96]
	add	sp, sp, #144
	ret
.Lfunc_end43:
	.size	signalfern_look_up_layered_to, .Lfunc_end43-signalfern_look_up_layered_to

	.section	.text.signalfern_look_up_page_to,"ax",@progbits
	.globl	signalfern_look_up_page_to
	.p2align	2
	.type	signalfern_look_up_page_to,@function
signalfern_look_up_page_to:
	sub	sp, sp, #224
	cmp	x0, #0
	mov	w8, #4096
	stp	x29, x30, [sp, #128]
	stp	x24, x23, [sp, #176]
	add	x29, sp, #128
	csel	x23, x8, xzr, eq
	cmp	x2, #0
	stp	x22, x21, [sp, #192]
	movi	v0.2d, #0000000000000000
	ldr	x22, [x29, #96]
	csel	x9, x8, xzr, eq
	cmp	x4, #0
	stp	x26, x25, [sp, #160]
	csel	x25, x8, xzr, eq
	cmp	x6, #0
	ldr	x21, [x29, #112]
	csel	x26, x8, xzr, eq
	cmp	x22, #0
	stp	x28, x27, [sp, #144]
	csel	x27, x8, xzr, eq
	cmp	x5, x3
	stp	x20, x19, [sp, #208]
	mov	x19, x3
	str	xzr, [sp, #112]
	stp	q0, q0, [sp, #48]
	stp	q0, q0, [sp, #80]
	str	q0, [sp, #32]
	b.lo	.LBB44_5
	cmp	x7, x19
	b.lo	.LBB44_5
	ldr	x8, [x29, #104]
	cmp	x8, x19
	b.lo	.LBB44_5
	cbz	x19, .LBB44_6
	mov	x28, x0
	mov	x20, x1
	add	x0, sp, #32
	add	x1, x28, x23
	stp	x9, x2, [sp, #16]
	mov	x2, x20
	str	x6, [sp, #8]
	mov	x24, x4
	bl	"column::Column::open"
	ldp	x8, x9, [sp, #8]
	add	x0, x24, x25
	add	x2, x22, x27
	add	x5, x28, x23
	add	x7, sp, #32
	mov	x4, x19
	mov	x6, x20
	add	x1, x8, x26
	ldr	x8, [sp, #24]
	add	x3, x8, x9
	bl	"page::fill_by"
	b	.LBB44_7
.LBB44_5:
	mov	w8, #12
	str	xzr, [x21, #16]
	stp	x8, x19, [x21]
	b	.LBB44_8
.LBB44_6:
	mov	x0, xzr
.LBB44_7:
	stp	xzr, x19, [x21]
	str	x0, [x21, #16]
.LBB44_8:
	ldp	x20, x19, [sp, #208]
	ldp	x22, x21, [sp, #192]
	ldp	x24, x23, [sp, #176]
	ldp	x26, x25, [sp, #160]
	ldp	x28, x27, [sp, #144]
	ldp	x29, x30, [sp, #128]
	add	sp, sp, #224
	ret
.Lfunc_end44:
	.size	signalfern_look_up_page_to, .Lfunc_end44-signalfern_look_up_page_to

	.section	.text.signalfern_look_up_to,"ax",@progbits
	.globl	signalfern_look_up_to
	.p2align	2
	.type	signalfern_look_up_to,@function
signalfern_look_up_to:
	mov	w9, #4096
	cmp	x0, #0
	mov	w8, w2
	csel	x9, x9, xzr, eq
	mov	x2, x1
	add	x1, x0, x9
	mov	x0, x3
	mov	w3, w8
	b	"signalfern_c::look_from"
.Lfunc_end45:
	.size	signalfern_look_up_to, .Lfunc_end45-signalfern_look_up_to

	.section	.text.signalfern_next_in_to,"ax",@progbits
	.globl	signalfern_next_in_to
	.p2align	2
	.type	signalfern_next_in_to,@function
signalfern_next_in_to:
	sub	sp, sp, #304
	ldr	x8, [x0, #16]
	mov	w9, #4096
	cmp	x2, #0
	stp	x20, x19, [sp, #288]
	csel	x20, x9, xzr, eq
	sub	x8, x8, #1
	stp	x29, x30, [sp, #208]
	add	x29, sp, #208
	cmp	x8, #3
	stp	x28, x27, [sp, #224]
	stp	x26, x25, [sp, #240]
	stp	x24, x23, [sp, #256]
	stp	x22, x21, [sp, #272]
	b.hi	.LBB46_2
	ldr	x9, [x0, #56]
	b	.LBB46_3
.LBB46_2:
	mov	x8, xzr
	mov	w9, #65
.LBB46_3:
	movi	v0.2d, #0000000000000000
	ldp	x11, x10, [x0, #24]
	ldp	x23, x12, [x0, #40]
	mov	w15, #2147352575
	ldp	x14, x13, [x0, #64]
	cmp	w4, w15
	ldp	x25, x26, [x0, #80]
	stp	x8, x11, [x29, #-88]
	stp	x10, x23, [x29, #-72]
	stp	x12, x9, [x29, #-56]
	stp	x14, x13, [x29, #-40]
	stp	x25, x26, [x29, #-24]
	stp	q0, q0, [sp]
	str	xzr, [sp, #32]
	b.hi	.LBB46_6
	mov	w21, w4
	cmp	x1, x21
	b.ls	.LBB46_10
	mov	w10, #14
	b	.LBB46_7
.LBB46_6:
	mov	w10, #12
.LBB46_7:
	mov	x8, xzr
.LBB46_8:
	mov	w10, w10
	adrp	x11, .LJTI46_0
	add	x11, x11, :lo12:.LJTI46_0
	adr	x12, .LBB46_9
	ldrb	w13, [x11, x10]
	add	x12, x12, x13, lsl #2
	mov	w9, #3
	br	x12
.LBB46_9:
	mov	x8, xzr
	mov	w9, #1
	b	.LBB46_32
.LBB46_10:
	add	x0, sp, #48
	mov	x27, x2
	mov	x28, x3
	mov	w19, w4
	mov	x24, x1
	mov	x22, x5
	stp	x8, x11, [sp, #48]
	stp	x10, x23, [sp, #64]
	stp	x12, x9, [sp, #80]
	stp	x14, x13, [sp, #96]
	str	x25, [sp, #112]
	bl	"column::head_ok"
	cbz	w0, .LBB46_13
	subs	x8, x28, x26
	mov	x5, x22
	mov	x1, x24
	b.hs	.LBB46_14
	mov	w10, #9
	b	.LBB46_7
.LBB46_13:
	mov	w10, #8
	mov	x5, x22
	mov	x1, x24
	b	.LBB46_7
.LBB46_14:
	subs	x8, x8, x23
	mov	w10, #9
	b.lo	.LBB46_7
	cmp	x8, x25
	b.ne	.LBB46_7
	mov	x0, sp
	add	x1, x27, x20
	mov	x2, x28
	sub	x3, x29, #88
	mov	w4, w19
	bl	"next::steps_from"
	ldrb	w9, [sp]
	ldrb	w10, [sp, #8]
	ldr	x8, [sp, #16]
	cbz	w9, .LBB46_34
	mov	x5, x22
	mov	x1, x24
	b	.LBB46_8
.LBB46_18:
	mov	x8, xzr
	mov	w9, #16
	b	.LBB46_32
.LBB46_19:
	mov	x8, xzr
	mov	w9, #13
	b	.LBB46_32
.LBB46_20:
	mov	w9, #6
	b	.LBB46_32
.LBB46_21:
	mov	x8, xzr
	mov	w9, #14
	b	.LBB46_32
.LBB46_22:
	mov	x8, xzr
	mov	w9, #11
	b	.LBB46_32
.LBB46_23:
	mov	x8, xzr
	mov	w9, #2
	b	.LBB46_32
.LBB46_24:
	mov	x8, xzr
	mov	w9, #17
	b	.LBB46_32
.LBB46_25:
	mov	w9, #4
	b	.LBB46_32
.LBB46_26:
	mov	x8, xzr
	mov	w9, #9
	b	.LBB46_32
.LBB46_27:
	mov	w9, #7
	b	.LBB46_32
.LBB46_28:
	mov	x8, xzr
	mov	w9, #15
	b	.LBB46_32
.LBB46_29:
	mov	w9, #8
	b	.LBB46_32
.LBB46_30:
	mov	w9, #12
	b	.LBB46_32
.LBB46_31:
	mov	x8, xzr
	mov	w9, #10
.LBB46_32:
	stp	x9, x8, [x5]
	stp	xzr, xzr, [x5, #16]
	stp	xzr, x1, [x5, #32]
.LBB46_33:
	ldp	x20, x19, [sp, #288]
	ldp	x22, x21, [sp, #272]
	ldp	x24, x23, [sp, #256]
	ldp	x26, x25, [sp, #240]
	ldp	x28, x27, [sp, #224]
	ldp	x29, x30, [sp, #208]
	add	sp, sp, #304
	ret
.LBB46_34:
	cmp	w10, #1
	b.ne	.LBB46_36
	ldr	w9, [sp, #24]
	ldr	x10, [sp, #32]
	stp	xzr, xzr, [x22]
	stp	x9, x8, [x22, #16]
	stp	x10, x21, [x22, #32]
	b	.LBB46_33
.LBB46_36:
	movi	v0.2d, #0000000000000000
	mov	w8, #1
	str	x21, [x22, #40]
	str	x8, [x22]
	stur	q0, [x22, #8]
	stur	q0, [x22, #24]
	b	.LBB46_33
.Lfunc_end46:
	.size	signalfern_next_in_to, .Lfunc_end46-signalfern_next_in_to
	.section	.rodata.signalfern_next_in_to,"a",@progbits
.LJTI46_0:
	.byte	(.LBB46_9-.LBB46_9)>>2
	.byte	(.LBB46_23-.LBB46_9)>>2
	.byte	(.LBB46_32-.LBB46_9)>>2
	.byte	(.LBB46_25-.LBB46_9)>>2
	.byte	(.LBB46_20-.LBB46_9)>>2
	.byte	(.LBB46_27-.LBB46_9)>>2
	.byte	(.LBB46_29-.LBB46_9)>>2
	.byte	(.LBB46_26-.LBB46_9)>>2
	.byte	(.LBB46_31-.LBB46_9)>>2
	.byte	(.LBB46_22-.LBB46_9)>>2
	.byte	(.LBB46_30-.LBB46_9)>>2
	.byte	(.LBB46_19-.LBB46_9)>>2
	.byte	(.LBB46_21-.LBB46_9)>>2
	.byte	(.LBB46_28-.LBB46_9)>>2
	.byte	(.LBB46_18-.LBB46_9)>>2
	.byte	(.LBB46_24-.LBB46_9)>>2

	.section	.text.signalfern_next_to,"ax",@progbits
	.globl	signalfern_next_to
	.p2align	2
	.type	signalfern_next_to,@function
signalfern_next_to:
	sub	sp, sp, #224
	movi	v0.2d, #0000000000000000
	cmp	x1, #0
	mov	w8, #4096
	mov	w9, #2147352575
	stp	x24, x23, [sp, #176]
	csel	x24, x8, xzr, eq
	cmp	w3, w9
	stp	x29, x30, [sp, #144]
	add	x29, sp, #144
	stp	x26, x25, [sp, #160]
	stp	x22, x21, [sp, #192]
	stp	x20, x19, [sp, #208]
	stp	q0, q0, [sp, #48]
	stp	q0, q0, [sp, #80]
	str	q0, [sp, #112]
	str	xzr, [sp, #128]
	stp	q0, q0, [sp]
	str	xzr, [sp, #32]
	b.hi	.LBB47_3
	mov	w21, w3
	cmp	x0, x21
	b.ls	.LBB47_4
	mov	w10, #14
	mov	x8, xzr
	b	.LBB47_8
.LBB47_3:
	mov	w10, #12
	mov	x8, xzr
	b	.LBB47_8
.LBB47_4:
	mov	x22, x0
	add	x0, sp, #48
	mov	x25, x1
	add	x1, x1, x24
	mov	w19, w3
	mov	x23, x4
	mov	x20, x2
	add	x26, sp, #48
	bl	"column::Column::open"
	ldrb	w8, [sp, #48]
	cmp	w8, #1
	b.ne	.LBB47_6
	ldrb	w10, [sp, #56]
	ldr	x8, [sp, #64]
	b	.LBB47_7
.LBB47_6:
	mov	x0, sp
	add	x1, x25, x24
	orr	x3, x26, #0x8
	mov	x2, x20
	mov	w4, w19
	bl	"next::steps_from"
	ldrb	w9, [sp]
	ldrb	w10, [sp, #8]
	ldr	x8, [sp, #16]
	cbz	w9, .LBB47_26
.LBB47_7:
	mov	x4, x23
	mov	x0, x22
.LBB47_8:
	mov	w10, w10
	adrp	x11, .LJTI47_0
	add	x11, x11, :lo12:.LJTI47_0
	adr	x12, .LBB47_9
	ldrb	w13, [x11, x10]
	add	x12, x12, x13, lsl #2
	mov	w9, #3
	br	x12
.LBB47_9:
	mov	x8, xzr
	mov	w9, #1
	b	.LBB47_24
.LBB47_10:
	mov	x8, xzr
	mov	w9, #16
	b	.LBB47_24
.LBB47_11:
	mov	x8, xzr
	mov	w9, #13
	b	.LBB47_24
.LBB47_12:
	mov	w9, #6
	b	.LBB47_24
.LBB47_13:
	mov	x8, xzr
	mov	w9, #14
	b	.LBB47_24
.LBB47_14:
	mov	x8, xzr
	mov	w9, #11
	b	.LBB47_24
.LBB47_15:
	mov	x8, xzr
	mov	w9, #2
	b	.LBB47_24
.LBB47_16:
	mov	x8, xzr
	mov	w9, #17
	b	.LBB47_24
.LBB47_17:
	mov	w9, #4
	b	.LBB47_24
.LBB47_18:
	mov	x8, xzr
	mov	w9, #9
	b	.LBB47_24
.LBB47_19:
	mov	w9, #7
	b	.LBB47_24
.LBB47_20:
	mov	x8, xzr
	mov	w9, #15
	b	.LBB47_24
.LBB47_21:
	mov	w9, #8
	b	.LBB47_24
.LBB47_22:
	mov	w9, #12
	b	.LBB47_24
.LBB47_23:
	mov	x8, xzr
	mov	w9, #10
.LBB47_24:
	stp	x9, x8, [x4]
	stp	xzr, xzr, [x4, #16]
	stp	xzr, x0, [x4, #32]
.LBB47_25:
	ldp	x20, x19, [sp, #208]
	ldp	x22, x21, [sp, #192]
	ldp	x24, x23, [sp, #176]
	ldp	x26, x25, [sp, #160]
	ldp	x29, x30, [sp, #144]
	add	sp, sp, #224
	ret
.LBB47_26:
	cmp	w10, #1
	b.ne	.LBB47_28
	ldr	w9, [sp, #24]
	ldr	x10, [sp, #32]
	stp	xzr, xzr, [x23]
	stp	x9, x8, [x23, #16]
	stp	x10, x21, [x23, #32]
	b	.LBB47_25
.LBB47_28:
	movi	v0.2d, #0000000000000000
	mov	w8, #1
	str	x21, [x23, #40]
	str	x8, [x23]
	stur	q0, [x23, #8]
	stur	q0, [x23, #24]
	b	.LBB47_25
.Lfunc_end47:
	.size	signalfern_next_to, .Lfunc_end47-signalfern_next_to
	.section	.rodata.signalfern_next_to,"a",@progbits
.LJTI47_0:
	.byte	(.LBB47_9-.LBB47_9)>>2
	.byte	(.LBB47_15-.LBB47_9)>>2
	.byte	(.LBB47_24-.LBB47_9)>>2
	.byte	(.LBB47_17-.LBB47_9)>>2
	.byte	(.LBB47_12-.LBB47_9)>>2
	.byte	(.LBB47_19-.LBB47_9)>>2
	.byte	(.LBB47_21-.LBB47_9)>>2
	.byte	(.LBB47_18-.LBB47_9)>>2
	.byte	(.LBB47_23-.LBB47_9)>>2
	.byte	(.LBB47_14-.LBB47_9)>>2
	.byte	(.LBB47_22-.LBB47_9)>>2
	.byte	(.LBB47_11-.LBB47_9)>>2
	.byte	(.LBB47_13-.LBB47_9)>>2
	.byte	(.LBB47_20-.LBB47_9)>>2
	.byte	(.LBB47_10-.LBB47_9)>>2
	.byte	(.LBB47_16-.LBB47_9)>>2

	.section	.text.signalfern_open_to,"ax",@progbits
	.globl	signalfern_open_to
	.p2align	2
	.type	signalfern_open_to,@function
signalfern_open_to:
	sub	sp, sp, #128
	movi	v0.2d, #0000000000000000
	mov	w9, #4096
	cmp	x0, #0
	mov	x8, x0
	csel	x9, x9, xzr, eq
	str	x19, [sp, #112]
	mov	x19, x2
	mov	x2, x1
	mov	x0, sp
	add	x1, x8, x9
	stp	x29, x30, [sp, #96]
	add	x29, sp, #96
	str	xzr, [sp, #80]
	stp	q0, q0, [sp, #16]
	stp	q0, q0, [sp, #48]
	str	q0, [sp]
	bl	"column::Column::open"
	ldrb	w9, [sp]
	ldrb	w8, [sp, #8]
	ldr	x10, [sp, #16]
	cbz	w9, .LBB48_3
	adrp	x11, .LJTI48_0
	add	x11, x11, :lo12:.LJTI48_0
	mov	w9, #1
	adr	x12, .LBB48_2
	ldrb	w13, [x11, x8]
	add	x12, x12, x13, lsl #2
	br	x12
.LBB48_2:
	mov	x8, xzr
	mov	w9, #2
	b	.LBB48_18
.LBB48_3:
	ldur	q0, [sp, #24]
	ldur	q1, [sp, #40]
	add	x8, x8, #1
	ldur	q2, [sp, #56]
	stp	xzr, xzr, [x19]
	stp	q0, q1, [x19, #32]
	ldur	q0, [sp, #72]
	stp	x8, x10, [x19, #16]
	stp	q2, q0, [x19, #64]
	ldp	x29, x30, [sp, #96]
	ldr	x19, [sp, #112]
	add	sp, sp, #128
	ret
.LBB48_4:
	mov	x8, xzr
	mov	w9, #16
	b	.LBB48_18
.LBB48_5:
	mov	x8, xzr
	mov	w9, #13
	b	.LBB48_18
.LBB48_6:
	mov	w9, #6
	b	.LBB48_17
.LBB48_7:
	mov	x8, xzr
	mov	w9, #14
	b	.LBB48_18
.LBB48_8:
	mov	x8, xzr
	mov	w9, #11
	b	.LBB48_18
.LBB48_9:
	mov	w9, #3
	b	.LBB48_17
.LBB48_10:
	mov	x8, xzr
	mov	w9, #17
	b	.LBB48_18
.LBB48_11:
	mov	w9, #4
	b	.LBB48_17
.LBB48_12:
	mov	x8, xzr
	mov	w9, #9
	b	.LBB48_18
.LBB48_13:
	mov	w9, #7
	b	.LBB48_17
.LBB48_14:
	mov	x8, xzr
	mov	w9, #15
	b	.LBB48_18
.LBB48_15:
	mov	w9, #8
	b	.LBB48_17
.LBB48_16:
	mov	w9, #12
.LBB48_17:
	mov	x8, x10
.LBB48_18:
	movi	v0.2d, #0000000000000000
	stp	x9, x8, [x19]
	stp	q0, q0, [x19, #16]
	stp	q0, q0, [x19, #48]
	ldp	x29, x30, [sp, #96]
	str	q0, [x19, #80]
	ldr	x19, [sp, #112]
	add	sp, sp, #128
	ret
.LBB48_19:
	mov	x8, xzr
	mov	w9, #10
	b	.LBB48_18
.Lfunc_end48:
	.size	signalfern_open_to, .Lfunc_end48-signalfern_open_to
	.section	.rodata.signalfern_open_to,"a",@progbits
.LJTI48_0:
	.byte	(.LBB48_18-.LBB48_2)>>2
	.byte	(.LBB48_2-.LBB48_2)>>2
	.byte	(.LBB48_9-.LBB48_2)>>2
	.byte	(.LBB48_11-.LBB48_2)>>2
	.byte	(.LBB48_6-.LBB48_2)>>2
	.byte	(.LBB48_13-.LBB48_2)>>2
	.byte	(.LBB48_15-.LBB48_2)>>2
	.byte	(.LBB48_12-.LBB48_2)>>2
	.byte	(.LBB48_19-.LBB48_2)>>2
	.byte	(.LBB48_8-.LBB48_2)>>2
	.byte	(.LBB48_16-.LBB48_2)>>2
	.byte	(.LBB48_5-.LBB48_2)>>2
	.byte	(.LBB48_7-.LBB48_2)>>2
	.byte	(.LBB48_14-.LBB48_2)>>2
	.byte	(.LBB48_4-.LBB48_2)>>2
	.byte	(.LBB48_10-.LBB48_2)>>2

	.section	.text.signalfern_pair_at_in_to,"ax",@progbits
	.globl	signalfern_pair_at_in_to
	.p2align	2
	.type	signalfern_pair_at_in_to,@function
signalfern_pair_at_in_to:
	sub	sp, sp, #304
	ldr	x8, [x0, #16]
	stp	x29, x30, [sp, #208]
	add	x29, sp, #208
	mov	w9, #4096
	cmp	x1, #0
	stp	x24, x23, [sp, #256]
	sub	x8, x8, #1
	stp	x22, x21, [sp, #272]
	mov	x21, x2
	stp	x20, x19, [sp, #288]
	mov	x19, x4
	mov	x20, x3
	mov	x22, x1
	csel	x23, x9, xzr, eq
	cmp	x8, #3
	sub	x10, x29, #48
	str	x28, [sp, #224]
	stp	x26, x25, [sp, #240]
	b.hi	.LBB49_2
	ldr	x9, [x0, #56]
	b	.LBB49_3
.LBB49_2:
	mov	x8, xzr
	mov	w9, #65
.LBB49_3:
	movi	v0.2d, #0000000000000000
	ldp	x11, x12, [x0, #24]
	ldp	x24, x13, [x0, #40]
	stur	xzr, [x29, #-16]
	ldp	x14, x15, [x0, #64]
	ldp	x25, x26, [x0, #80]
	add	x0, sp, #8
	stp	x8, x11, [sp, #80]
	stp	x12, x24, [sp, #96]
	stp	x13, x9, [sp, #112]
	stp	x14, x15, [sp, #128]
	stp	x25, x26, [sp, #144]
	stp	q0, q0, [x10]
	stp	x8, x11, [sp, #8]
	stp	x12, x24, [sp, #24]
	stp	x13, x9, [sp, #40]
	stp	x14, x15, [sp, #56]
	str	x25, [sp, #72]
	bl	"column::head_ok"
	cbz	w0, .LBB49_6
	subs	x8, x21, x26
	b.hs	.LBB49_10
	mov	w8, #9
	b	.LBB49_7
.LBB49_6:
	mov	w8, #8
.LBB49_7:
	mov	x10, xzr
.LBB49_8:
	mov	w8, w8
	adrp	x11, .LJTI49_0
	add	x11, x11, :lo12:.LJTI49_0
	adr	x12, .LBB49_9
	ldrb	w13, [x11, x8]
	add	x12, x12, x13, lsl #2
	mov	w9, #1
	br	x12
.LBB49_9:
	mov	x8, xzr
	mov	w9, #2
	b	.LBB49_29
.LBB49_10:
	subs	x9, x8, x24
	mov	w8, #9
	b.lo	.LBB49_7
	cmp	x9, x25
	b.ne	.LBB49_7
	sub	x0, x29, #48
	add	x1, x22, x23
	add	x3, sp, #80
	mov	x2, x21
	mov	x4, x20
	bl	"pair_at::steps_at"
	ldurb	w9, [x29, #-48]
	ldurb	w8, [x29, #-40]
	ldur	x10, [x29, #-32]
	cbnz	w9, .LBB49_8
	cmp	w8, #1
	b.ne	.LBB49_32
	ldur	w8, [x29, #-24]
	ldur	x9, [x29, #-16]
	stp	xzr, xzr, [x19]
	stp	x8, x10, [x19, #16]
	str	x9, [x19, #32]
	b	.LBB49_30
.LBB49_15:
	mov	x8, xzr
	mov	w9, #16
	b	.LBB49_29
.LBB49_16:
	mov	x8, xzr
	mov	w9, #13
	b	.LBB49_29
.LBB49_17:
	mov	w9, #6
	b	.LBB49_28
.LBB49_18:
	mov	x8, xzr
	mov	w9, #14
	b	.LBB49_29
.LBB49_19:
	mov	x8, xzr
	mov	w9, #11
	b	.LBB49_29
.LBB49_20:
	mov	w9, #3
	b	.LBB49_28
.LBB49_21:
	mov	x8, xzr
	mov	w9, #17
	b	.LBB49_29
.LBB49_22:
	mov	w9, #4
	b	.LBB49_28
.LBB49_23:
	mov	x8, xzr
	mov	w9, #9
	b	.LBB49_29
.LBB49_24:
	mov	w9, #7
	b	.LBB49_28
.LBB49_25:
	mov	x8, xzr
	mov	w9, #15
	b	.LBB49_29
.LBB49_26:
	mov	w9, #8
	b	.LBB49_28
.LBB49_27:
	mov	w9, #12
.LBB49_28:
	mov	x8, x10
.LBB49_29:
	stp	x9, x8, [x19]
	stp	xzr, xzr, [x19, #24]
	str	xzr, [x19, #16]
.LBB49_30:
	ldp	x20, x19, [sp, #288]
	ldr	x28, [sp, #224]
	ldp	x22, x21, [sp, #272]
	ldp	x24, x23, [sp, #256]
	ldp	x26, x25, [sp, #240]
	ldp	x29, x30, [sp, #208]
	add	sp, sp, #304
	ret
.LBB49_31:
	mov	x8, xzr
	mov	w9, #10
	b	.LBB49_29
.LBB49_32:
	movi	v0.2d, #0000000000000000
	mov	w8, #1
	str	x8, [x19]
	stur	q0, [x19, #8]
	stur	q0, [x19, #24]
	b	.LBB49_30
.Lfunc_end49:
	.size	signalfern_pair_at_in_to, .Lfunc_end49-signalfern_pair_at_in_to
	.section	.rodata.signalfern_pair_at_in_to,"a",@progbits
.LJTI49_0:
	.byte	(.LBB49_29-.LBB49_9)>>2
	.byte	(.LBB49_9-.LBB49_9)>>2
	.byte	(.LBB49_20-.LBB49_9)>>2
	.byte	(.LBB49_22-.LBB49_9)>>2
	.byte	(.LBB49_17-.LBB49_9)>>2
	.byte	(.LBB49_24-.LBB49_9)>>2
	.byte	(.LBB49_26-.LBB49_9)>>2
	.byte	(.LBB49_23-.LBB49_9)>>2
	.byte	(.LBB49_31-.LBB49_9)>>2
	.byte	(.LBB49_19-.LBB49_9)>>2
	.byte	(.LBB49_27-.LBB49_9)>>2
	.byte	(.LBB49_16-.LBB49_9)>>2
	.byte	(.LBB49_18-.LBB49_9)>>2
	.byte	(.LBB49_25-.LBB49_9)>>2
	.byte	(.LBB49_15-.LBB49_9)>>2
	.byte	(.LBB49_21-.LBB49_9)>>2

	.section	.text.signalfern_pair_at_to,"ax",@progbits
	.globl	signalfern_pair_at_to
	.p2align	2
	.type	signalfern_pair_at_to,@function
signalfern_pair_at_to:
	sub	sp, sp, #288
	movi	v0.2d, #0000000000000000
	cmp	x0, #0
	mov	w8, #4096
	stp	x28, x23, [sp, #240]
	csel	x23, x8, xzr, eq
	stp	x22, x21, [sp, #256]
	mov	x21, x1
	mov	x22, x0
	stp	x29, x30, [sp, #224]
	add	x29, sp, #224
	mov	x0, sp
	stp	x20, x19, [sp, #272]
	mov	x20, x2
	add	x1, x22, x23
	mov	x2, x21
	mov	x19, x3
	stur	xzr, [x29, #-16]
	stp	q0, q0, [x29, #-48]
	stp	q0, q0, [sp]
	stp	q0, q0, [sp, #32]
	str	q0, [sp, #64]
	str	xzr, [sp, #80]
	bl	"column::Column::open"
	ldp	x8, x10, [sp, #8]
	ldrb	w9, [sp]
	cbz	w9, .LBB50_2
	and	w8, w8, #0xff
	b	.LBB50_3
.LBB50_2:
	ldur	q0, [sp, #24]
	ldur	q1, [sp, #40]
	sub	x0, x29, #48
	ldur	q2, [sp, #56]
	add	x1, x22, x23
	add	x3, sp, #96
	stp	q0, q1, [sp, #112]
	ldur	q0, [sp, #72]
	mov	x2, x21
	mov	x4, x20
	stp	x8, x10, [sp, #96]
	stp	q2, q0, [sp, #144]
	bl	"pair_at::steps_at"
	ldurb	w9, [x29, #-48]
	ldurb	w8, [x29, #-40]
	ldur	x10, [x29, #-32]
	cbz	w9, .LBB50_5
.LBB50_3:
	mov	w8, w8
	adrp	x11, .LJTI50_0
	add	x11, x11, :lo12:.LJTI50_0
	adr	x12, .LBB50_4
	ldrb	w13, [x11, x8]
	add	x12, x12, x13, lsl #2
	mov	w9, #1
	br	x12
.LBB50_4:
	mov	x8, xzr
	mov	w9, #2
	b	.LBB50_22
.LBB50_5:
	cmp	w8, #1
	b.ne	.LBB50_7
	ldur	w8, [x29, #-24]
	ldur	x9, [x29, #-16]
	stp	xzr, xzr, [x19]
	stp	x8, x10, [x19, #16]
	str	x9, [x19, #32]
	ldp	x20, x19, [sp, #272]
	ldp	x22, x21, [sp, #256]
	ldp	x28, x23, [sp, #240]
	ldp	x29, x30, [sp, #224]
	add	sp, sp, #288
	ret
.LBB50_7:
	movi	v0.2d, #0000000000000000
	mov	w8, #1
	str	x8, [x19]
	stur	q0, [x19, #8]
	stur	q0, [x19, #24]
	ldp	x20, x19, [sp, #272]
	ldp	x22, x21, [sp, #256]
	ldp	x28, x23, [sp, #240]
	ldp	x29, x30, [sp, #224]
	add	sp, sp, #288
	ret
.LBB50_8:
	mov	x8, xzr
	mov	w9, #16
	b	.LBB50_22
.LBB50_9:
	mov	x8, xzr
	mov	w9, #13
	b	.LBB50_22
.LBB50_10:
	mov	w9, #6
	b	.LBB50_21
.LBB50_11:
	mov	x8, xzr
	mov	w9, #14
	b	.LBB50_22
.LBB50_12:
	mov	x8, xzr
	mov	w9, #11
	b	.LBB50_22
.LBB50_13:
	mov	w9, #3
	b	.LBB50_21
.LBB50_14:
	mov	x8, xzr
	mov	w9, #17
	b	.LBB50_22
.LBB50_15:
	mov	w9, #4
	b	.LBB50_21
.LBB50_16:
	mov	x8, xzr
	mov	w9, #9
	b	.LBB50_22
.LBB50_17:
	mov	w9, #7
	b	.LBB50_21
.LBB50_18:
	mov	x8, xzr
	mov	w9, #15
	b	.LBB50_22
.LBB50_19:
	mov	w9, #8
	b	.LBB50_21
.LBB50_20:
	mov	w9, #12
.LBB50_21:
	mov	x8, x10
.LBB50_22:
	stp	x9, x8, [x19]
	stp	xzr, xzr, [x19, #24]
	str	xzr, [x19, #16]
	ldp	x20, x19, [sp, #272]
	ldp	x22, x21, [sp, #256]
	ldp	x28, x23, [sp, #240]
	ldp	x29, x30, [sp, #224]
	add	sp, sp, #288
	ret
.LBB50_23:
	mov	x8, xzr
	mov	w9, #10
	b	.LBB50_22
.Lfunc_end50:
	.size	signalfern_pair_at_to, .Lfunc_end50-signalfern_pair_at_to
	.section	.rodata.signalfern_pair_at_to,"a",@progbits
.LJTI50_0:
	.byte	(.LBB50_22-.LBB50_4)>>2
	.byte	(.LBB50_4-.LBB50_4)>>2
	.byte	(.LBB50_13-.LBB50_4)>>2
	.byte	(.LBB50_15-.LBB50_4)>>2
	.byte	(.LBB50_10-.LBB50_4)>>2
	.byte	(.LBB50_17-.LBB50_4)>>2
	.byte	(.LBB50_19-.LBB50_4)>>2
	.byte	(.LBB50_16-.LBB50_4)>>2
	.byte	(.LBB50_23-.LBB50_4)>>2
	.byte	(.LBB50_12-.LBB50_4)>>2
	.byte	(.LBB50_20-.LBB50_4)>>2
	.byte	(.LBB50_9-.LBB50_4)>>2
	.byte	(.LBB50_11-.LBB50_4)>>2
	.byte	(.LBB50_18-.LBB50_4)>>2
	.byte	(.LBB50_8-.LBB50_4)>>2
	.byte	(.LBB50_14-.LBB50_4)>>2

	.section	.rodata.cst16,"aM",@progbits,16
	.p2align	4, 0x0
.LCPI51_0:
	.xword	12
	.xword	256
	.section	.text.signalfern_plan_to,"ax",@progbits
	.globl	signalfern_plan_to
	.p2align	2
	.type	signalfern_plan_to,@function
signalfern_plan_to:
	stp	x29, x30, [sp, #-32]!
	str	x19, [sp, #16]
	mov	x19, x4
	cmp	x3, #256
	mov	x29, sp
	b.hs	.LBB51_2
	adrp	x8, .LCPI51_0
	ldr	q0, [x8, :lo12:.LCPI51_0]
	str	q0, [x19]
	ldr	x19, [sp, #16]
	ldp	x29, x30, [sp], #32
	ret
.LBB51_2:
	cmp	x2, #0
	mov	w9, #4096
	mov	x8, x1
	csel	x10, x9, xzr, eq
	cmp	x0, #0
	mov	x11, x0
	csel	x9, x9, xzr, eq
	add	x0, x2, x10
	mov	x2, x8
	add	x1, x11, x9
	bl	"plans::plan"
	stp	xzr, x0, [x19]
	ldr	x19, [sp, #16]
	ldp	x29, x30, [sp], #32
	ret
.Lfunc_end51:
	.size	signalfern_plan_to, .Lfunc_end51-signalfern_plan_to

	.section	.rodata.cst16,"aM",@progbits,16
	.p2align	4, 0x0
.LCPI52_0:
	.xword	1
	.xword	0
	.section	.text.signalfern_read_from_in_to,"ax",@progbits
	.globl	signalfern_read_from_in_to
	.p2align	2
	.type	signalfern_read_from_in_to,@function
signalfern_read_from_in_to:
	sub	sp, sp, #368
	cmp	x1, #0
	mov	w8, #4096
	ldr	x9, [x0, #16]
	stp	x29, x30, [sp, #272]
	add	x29, sp, #272
	csel	x10, x8, xzr, eq
	cmp	x4, #0
	stp	x24, x23, [sp, #320]
	sub	x24, x9, #1
	csel	x11, x8, xzr, eq
	cmp	x6, #0
	ldr	x14, [x29, #96]
	csel	x9, x8, xzr, eq
	cmp	x24, #3
	stp	x28, x27, [sp, #288]
	stp	x26, x25, [sp, #304]
	stp	x22, x21, [sp, #336]
	stp	x20, x19, [sp, #352]
	b.hi	.LBB52_3
	ldr	x21, [x0, #56]
	mov	w8, #2147352575
	cmp	w3, w8
	b.ls	.LBB52_4
.LBB52_2:
	mov	w8, #12
	b	.LBB52_8
.LBB52_3:
	mov	x24, xzr
	mov	w21, #65
	mov	w8, #2147352575
	cmp	w3, w8
	b.hi	.LBB52_2
.LBB52_4:
	ldp	x26, x22, [x0, #24]
	stp	x4, x9, [sp]
	ldp	x27, x28, [x0, #40]
	stp	x2, x14, [sp, #72]
	stp	x11, x10, [sp, #16]
	ldp	x25, x23, [x0, #64]
	stp	x5, x7, [sp, #32]
	ldp	x19, x20, [x0, #80]
	add	x0, sp, #88
	stp	x6, x1, [sp, #48]
	str	w3, [sp, #68]
	stp	x24, x26, [sp, #88]
	stp	x22, x27, [sp, #104]
	stp	x28, x21, [sp, #120]
	stp	x25, x23, [sp, #136]
	str	x19, [sp, #152]
	bl	"column::head_ok"
	cbz	w0, .LBB52_7
	ldp	x4, x14, [sp, #72]
	subs	x8, x4, x20
	b.hs	.LBB52_11
	mov	w8, #9
	b	.LBB52_8
.LBB52_7:
	ldr	x14, [sp, #80]
	mov	w8, #8
.LBB52_8:
	mov	x10, xzr
.LBB52_9:
	mov	w8, w8
	adrp	x11, .LJTI52_0
	add	x11, x11, :lo12:.LJTI52_0
	adr	x12, .LBB52_10
	ldrb	w13, [x11, x8]
	add	x12, x12, x13, lsl #2
	mov	w9, #1
	br	x12
.LBB52_10:
	mov	x8, xzr
	mov	w9, #2
	b	.LBB52_29
.LBB52_11:
	subs	x9, x8, x27
	mov	w8, #9
	b.lo	.LBB52_8
	cmp	x9, x19
	b.ne	.LBB52_8
	ldp	x9, x8, [sp, #32]
	sub	x0, x29, #32
	ldr	w7, [sp, #68]
	sub	x5, x29, #112
	stp	x24, x26, [x29, #-112]
	stp	x22, x27, [x29, #-96]
	cmp	x8, x9
	stp	x28, x21, [x29, #-80]
	csel	x6, x8, x9, lo
	ldr	x8, [sp, #16]
	ldr	x9, [sp]
	stp	x25, x23, [x29, #-64]
	add	x1, x9, x8
	ldr	x8, [sp, #48]
	ldr	x9, [sp, #8]
	stp	x19, x20, [x29, #-48]
	add	x2, x8, x9
	ldr	x8, [sp, #56]
	ldr	x9, [sp, #24]
	stp	xzr, xzr, [x29, #-32]
	add	x3, x8, x9
	stur	xzr, [x29, #-16]
	bl	"read_from::read_up_to"
	ldurb	w9, [x29, #-32]
	ldurb	w8, [x29, #-24]
	ldur	x10, [x29, #-16]
	cbz	w9, .LBB52_32
	ldr	x14, [sp, #80]
	b	.LBB52_9
.LBB52_15:
	mov	x8, xzr
	mov	w9, #16
	b	.LBB52_29
.LBB52_16:
	mov	x8, xzr
	mov	w9, #13
	b	.LBB52_29
.LBB52_17:
	mov	w9, #6
	b	.LBB52_28
.LBB52_18:
	mov	x8, xzr
	mov	w9, #14
	b	.LBB52_29
.LBB52_19:
	mov	x8, xzr
	mov	w9, #11
	b	.LBB52_29
.LBB52_20:
	mov	w9, #3
	b	.LBB52_28
.LBB52_21:
	mov	x8, xzr
	mov	w9, #17
	b	.LBB52_29
.LBB52_22:
	mov	w9, #4
	b	.LBB52_28
.LBB52_23:
	mov	x8, xzr
	mov	w9, #9
	b	.LBB52_29
.LBB52_24:
	mov	w9, #7
	b	.LBB52_28
.LBB52_25:
	mov	x8, xzr
	mov	w9, #15
	b	.LBB52_29
.LBB52_26:
	mov	w9, #8
	b	.LBB52_28
.LBB52_27:
	mov	w9, #12
.LBB52_28:
	mov	x8, x10
.LBB52_29:
	stp	x9, x8, [x14]
	str	xzr, [x14, #16]
.LBB52_30:
	ldp	x20, x19, [sp, #352]
	ldp	x22, x21, [sp, #336]
	ldp	x24, x23, [sp, #320]
	ldp	x26, x25, [sp, #304]
	ldp	x28, x27, [sp, #288]
	ldp	x29, x30, [sp, #272]
	add	sp, sp, #368
	ret
.LBB52_31:
	mov	x8, xzr
	mov	w9, #10
	b	.LBB52_29
.LBB52_32:
	ldr	x9, [sp, #80]
	cbz	w8, .LBB52_34
	adrp	x8, .LCPI52_0
	str	x10, [x9, #16]
	ldr	q0, [x8, :lo12:.LCPI52_0]
	str	q0, [x9]
	b	.LBB52_30
.LBB52_34:
	stp	xzr, xzr, [x9]
	str	x10, [x9, #16]
	b	.LBB52_30
.Lfunc_end52:
	.size	signalfern_read_from_in_to, .Lfunc_end52-signalfern_read_from_in_to
	.section	.rodata.signalfern_read_from_in_to,"a",@progbits
.LJTI52_0:
	.byte	(.LBB52_29-.LBB52_10)>>2
	.byte	(.LBB52_10-.LBB52_10)>>2
	.byte	(.LBB52_20-.LBB52_10)>>2
	.byte	(.LBB52_22-.LBB52_10)>>2
	.byte	(.LBB52_17-.LBB52_10)>>2
	.byte	(.LBB52_24-.LBB52_10)>>2
	.byte	(.LBB52_26-.LBB52_10)>>2
	.byte	(.LBB52_23-.LBB52_10)>>2
	.byte	(.LBB52_31-.LBB52_10)>>2
	.byte	(.LBB52_19-.LBB52_10)>>2
	.byte	(.LBB52_27-.LBB52_10)>>2
	.byte	(.LBB52_16-.LBB52_10)>>2
	.byte	(.LBB52_18-.LBB52_10)>>2
	.byte	(.LBB52_25-.LBB52_10)>>2
	.byte	(.LBB52_15-.LBB52_10)>>2
	.byte	(.LBB52_21-.LBB52_10)>>2

	.section	.rodata.cst16,"aM",@progbits,16
	.p2align	4, 0x0
.LCPI53_0:
	.xword	1
	.xword	0
	.section	.text.signalfern_read_from_to,"ax",@progbits
	.globl	signalfern_read_from_to
	.p2align	2
	.type	signalfern_read_from_to,@function
signalfern_read_from_to:
	sub	sp, sp, #320
	movi	v0.2d, #0000000000000000
	mov	w8, #4096
	cmp	x0, #0
	stp	x24, x23, [sp, #272]
	csel	x23, x8, xzr, eq
	cmp	x3, #0
	csel	x24, x8, xzr, eq
	cmp	x5, #0
	mov	w9, #2147352575
	stp	x26, x25, [sp, #256]
	csel	x25, x8, xzr, eq
	cmp	w2, w9
	stp	x20, x19, [sp, #304]
	mov	x19, x7
	stp	x29, x30, [sp, #224]
	add	x29, sp, #224
	stp	x28, x27, [sp, #240]
	stp	x22, x21, [sp, #288]
	str	xzr, [sp, #96]
	stp	q0, q0, [sp, #32]
	stp	q0, q0, [sp, #64]
	str	q0, [sp, #16]
	b.hi	.LBB53_3
	mov	x21, x0
	mov	x20, x1
	str	w2, [sp, #12]
	add	x0, sp, #16
	add	x1, x21, x23
	mov	x2, x20
	mov	x22, x4
	mov	x28, x6
	mov	x27, x3
	mov	x26, x5
	bl	"column::Column::open"
	ldp	x8, x10, [sp, #24]
	ldrb	w9, [sp, #16]
	cbz	w9, .LBB53_6
	and	w8, w8, #0xff
	b	.LBB53_4
.LBB53_3:
	mov	x10, xzr
	mov	w8, #12
.LBB53_4:
	mov	w8, w8
	adrp	x11, .LJTI53_0
	add	x11, x11, :lo12:.LJTI53_0
	adr	x12, .LBB53_5
	ldrb	w13, [x11, x8]
	add	x12, x12, x13, lsl #2
	mov	w9, #1
	br	x12
.LBB53_5:
	mov	x8, xzr
	mov	w9, #2
	b	.LBB53_23
.LBB53_6:
	ldur	q0, [sp, #40]
	ldur	q1, [sp, #56]
	cmp	x28, x22
	ldr	w7, [sp, #12]
	stp	x8, x10, [sp, #104]
	add	x8, sp, #104
	stur	q0, [sp, #120]
	ldur	q0, [sp, #72]
	csel	x6, x28, x22, lo
	stur	q1, [sp, #136]
	ldur	q1, [sp, #88]
	sub	x0, x29, #40
	add	x1, x27, x24
	add	x2, x26, x25
	add	x3, x21, x23
	add	x5, sp, #104
	mov	x4, x20
	stp	q0, q1, [x8, #48]
	stp	xzr, xzr, [x29, #-40]
	stur	xzr, [x29, #-24]
	bl	"read_from::read_up_to"
	ldurb	w9, [x29, #-40]
	ldurb	w8, [x29, #-32]
	ldur	x10, [x29, #-24]
	cbnz	w9, .LBB53_4
	cbz	w8, .LBB53_26
	adrp	x8, .LCPI53_0
	str	x10, [x19, #16]
	ldr	q0, [x8, :lo12:.LCPI53_0]
	str	q0, [x19]
	b	.LBB53_24
.LBB53_9:
	mov	x8, xzr
	mov	w9, #16
	b	.LBB53_23
.LBB53_10:
	mov	x8, xzr
	mov	w9, #13
	b	.LBB53_23
.LBB53_11:
	mov	w9, #6
	b	.LBB53_22
.LBB53_12:
	mov	x8, xzr
	mov	w9, #14
	b	.LBB53_23
.LBB53_13:
	mov	x8, xzr
	mov	w9, #11
	b	.LBB53_23
.LBB53_14:
	mov	w9, #3
	b	.LBB53_22
.LBB53_15:
	mov	x8, xzr
	mov	w9, #17
	b	.LBB53_23
.LBB53_16:
	mov	w9, #4
	b	.LBB53_22
.LBB53_17:
	mov	x8, xzr
	mov	w9, #9
	b	.LBB53_23
.LBB53_18:
	mov	w9, #7
	b	.LBB53_22
.LBB53_19:
	mov	x8, xzr
	mov	w9, #15
	b	.LBB53_23
.LBB53_20:
	mov	w9, #8
	b	.LBB53_22
.LBB53_21:
	mov	w9, #12
.LBB53_22:
	mov	x8, x10
.LBB53_23:
	stp	x9, x8, [x19]
	str	xzr, [x19, #16]
.LBB53_24:
	ldp	x20, x19, [sp, #304]
	ldp	x22, x21, [sp, #288]
	ldp	x24, x23, [sp, #272]
	ldp	x26, x25, [sp, #256]
	ldp	x28, x27, [sp, #240]
	ldp	x29, x30, [sp, #224]
	add	sp, sp, #320
	ret
.LBB53_25:
	mov	x8, xzr
	mov	w9, #10
	b	.LBB53_23
.LBB53_26:
	stp	xzr, xzr, [x19]
	str	x10, [x19, #16]
	b	.LBB53_24
.Lfunc_end53:
	.size	signalfern_read_from_to, .Lfunc_end53-signalfern_read_from_to
	.section	.rodata.signalfern_read_from_to,"a",@progbits
.LJTI53_0:
	.byte	(.LBB53_23-.LBB53_5)>>2
	.byte	(.LBB53_5-.LBB53_5)>>2
	.byte	(.LBB53_14-.LBB53_5)>>2
	.byte	(.LBB53_16-.LBB53_5)>>2
	.byte	(.LBB53_11-.LBB53_5)>>2
	.byte	(.LBB53_18-.LBB53_5)>>2
	.byte	(.LBB53_20-.LBB53_5)>>2
	.byte	(.LBB53_17-.LBB53_5)>>2
	.byte	(.LBB53_25-.LBB53_5)>>2
	.byte	(.LBB53_13-.LBB53_5)>>2
	.byte	(.LBB53_21-.LBB53_5)>>2
	.byte	(.LBB53_10-.LBB53_5)>>2
	.byte	(.LBB53_12-.LBB53_5)>>2
	.byte	(.LBB53_19-.LBB53_5)>>2
	.byte	(.LBB53_9-.LBB53_5)>>2
	.byte	(.LBB53_15-.LBB53_5)>>2

	.section	.text.signalfern_read_layered_from_in_to,"ax",@progbits
	.globl	signalfern_read_layered_from_in_to
	.p2align	2
	.type	signalfern_read_layered_from_in_to,@function
signalfern_read_layered_from_in_to:
	stp	x29, x30, [sp, #-96]!
	stp	x28, x27, [sp, #16]
	mov	x29, sp
	stp	x26, x25, [sp, #32]
	stp	x24, x23, [sp, #48]
	stp	x22, x21, [sp, #64]
	stp	x20, x19, [sp, #80]
	sub	sp, sp, #704
	cmp	x1, #0
	mov	w8, #4096
	ldr	x12, [x29, #104]
	csel	x11, x8, xzr, eq
	cmp	x4, #0
	ldr	x10, [x29, #120]
	csel	x16, x8, xzr, eq
	cmp	x7, #0
	ldr	x9, [x0, #16]
	csel	x13, x8, xzr, eq
	cmp	x12, #0
	csel	x14, x8, xzr, eq
	cmp	x10, #0
	sub	x20, x9, #1
	csel	x9, x8, xzr, eq
	cmp	x20, #3
	b.hi	.LBB54_2
	ldr	x17, [x0, #56]
	b	.LBB54_3
.LBB54_2:
	mov	x20, xzr
	mov	w17, #65
.LBB54_3:
	ldr	x8, [x3, #16]
	ldp	x18, x30, [x0, #80]
	ldp	x22, x21, [x0, #64]
	ldr	x15, [x29, #136]
	sub	x26, x8, #1
	ldp	x19, x23, [x0, #40]
	cmp	x26, #3
	ldp	x24, x8, [x0, #24]
	b.hi	.LBB54_5
	ldr	x0, [x3, #56]
	b	.LBB54_6
.LBB54_5:
	mov	x26, xzr
	mov	w0, #65
.LBB54_6:
	movi	v0.2d, #0000000000000000
	stp	x20, x24, [x29, #-240]
	stp	x24, x8, [sp, #184]
	ldp	x24, x25, [x3, #24]
	stp	x8, x19, [x29, #-224]
	mov	w8, #2147352575
	str	x19, [sp, #232]
	ldp	x27, x19, [x3, #80]
	stp	x23, x22, [sp, #200]
	cmp	w6, w8
	stp	x23, x17, [x29, #-208]
	stp	x22, x21, [x29, #-192]
	ldp	x22, x23, [x3, #40]
	str	x21, [sp, #216]
	ldp	x21, x28, [x3, #64]
	stp	x18, x30, [x29, #-176]
	stp	x26, x24, [sp, #384]
	stp	x25, x22, [sp, #400]
	stp	x23, x0, [sp, #416]
	stp	x21, x28, [sp, #432]
	stp	x27, x19, [sp, #448]
	stp	q0, q0, [x29, #-160]
	b.hi	.LBB54_10
	stp	x23, x0, [sp, #344]
	str	x0, [sp, #128]
	add	x0, sp, #312
	stp	x30, x2, [sp, #112]
	stp	x18, x5, [sp, #168]
	stp	x17, x16, [sp, #136]
	stp	x9, x14, [sp, #48]
	stp	x13, x12, [sp, #64]
	stp	x11, x10, [sp, #80]
	str	x15, [sp, #224]
	str	x4, [sp, #152]
	stp	x7, x1, [sp, #96]
	str	w6, [sp, #164]
	stp	x26, x24, [sp, #312]
	stp	x25, x22, [sp, #328]
	stp	x21, x28, [sp, #360]
	str	x27, [sp, #376]
	bl	"column::head_ok"
	cbz	w0, .LBB54_11
	ldr	x8, [sp, #176]
	ldr	x15, [sp, #224]
	subs	x9, x8, x19
	mov	x8, xzr
	b.hs	.LBB54_16
	mov	w10, #9
	mov	w9, #1
	b	.LBB54_13
.LBB54_10:
	mov	x8, xzr
	mov	w10, #12
	mov	w9, #1
	b	.LBB54_13
.LBB54_11:
	mov	x8, xzr
	mov	w10, #8
	mov	w9, #1
.LBB54_12:
	ldr	x15, [sp, #224]
.LBB54_13:
	and	x11, x10, #0xff
.LBB54_14:
	and	x11, x11, #0xff
	adrp	x12, .LJTI54_0
	add	x12, x12, :lo12:.LJTI54_0
	adr	x13, .LBB54_15
	ldrb	w14, [x12, x11]
	add	x13, x13, x14, lsl #2
	mov	w10, #3
	br	x13
.LBB54_15:
	mov	x8, xzr
	mov	w10, #1
	b	.LBB54_35
.LBB54_16:
	subs	x11, x9, x22
	mov	w10, #9
	mov	w9, #1
	b.lo	.LBB54_13
	cmp	x11, x27
	b.ne	.LBB54_13
	ldr	x8, [sp, #184]
	add	x0, sp, #240
	stp	x20, x8, [sp, #240]
	ldr	x8, [sp, #192]
	str	x8, [sp, #256]
	ldr	x8, [sp, #232]
	str	x8, [sp, #264]
	ldr	x8, [sp, #200]
	str	x8, [sp, #272]
	ldp	x8, x9, [sp, #136]
	str	x8, [sp, #280]
	ldr	x8, [sp, #208]
	str	x8, [sp, #288]
	ldr	x8, [sp, #216]
	str	x8, [sp, #296]
	ldr	x8, [sp, #152]
	add	x20, x8, x9
	ldr	x8, [sp, #168]
	str	x8, [sp, #304]
	bl	"column::head_ok"
	tbz	w0, #0, .LBB54_37
	ldp	x9, x8, [sp, #112]
	subs	x9, x8, x9
	b.hs	.LBB54_39
.LBB54_20:
	ldr	x8, [sp, #128]
	ldr	x4, [sp, #176]
	sub	x0, x29, #112
	ldr	w7, [sp, #164]
	sub	x1, x29, #116
	sub	x2, x29, #128
	sub	x5, x29, #88
	mov	x3, x20
	mov	x6, xzr
	stp	x26, x24, [x29, #-88]
	stp	x25, x22, [x29, #-72]
	stp	x23, x8, [x29, #-56]
	stp	x21, x28, [x29, #-40]
	stp	x27, x19, [x29, #-24]
	stp	xzr, xzr, [x29, #-112]
	stur	xzr, [x29, #-96]
	bl	"read_from::read_up_to"
	ldurb	w8, [x29, #-112]
	ldurb	w10, [x29, #-104]
	ldur	x11, [x29, #-96]
	cmp	w8, #0
	mov	w8, #9
	b	.LBB54_38
.LBB54_21:
	mov	x8, xzr
	mov	w10, #16
	b	.LBB54_35
.LBB54_22:
	mov	x8, xzr
	mov	w10, #13
	b	.LBB54_35
.LBB54_23:
	mov	w10, #6
	b	.LBB54_35
.LBB54_24:
	mov	x8, xzr
	mov	w10, #14
	b	.LBB54_35
.LBB54_25:
	mov	x8, xzr
	mov	w10, #11
	b	.LBB54_35
.LBB54_26:
	mov	x8, xzr
	mov	w10, #2
	b	.LBB54_35
.LBB54_27:
	mov	x8, xzr
	mov	w10, #17
	b	.LBB54_35
.LBB54_28:
	mov	w10, #4
	b	.LBB54_35
.LBB54_29:
	mov	x8, xzr
	mov	w10, #9
	b	.LBB54_35
.LBB54_30:
	mov	w10, #7
	b	.LBB54_35
.LBB54_31:
	mov	x8, xzr
	mov	w10, #15
	b	.LBB54_35
.LBB54_32:
	mov	w10, #8
	b	.LBB54_35
.LBB54_33:
	mov	w10, #12
	b	.LBB54_35
.LBB54_34:
	mov	x8, xzr
	mov	w10, #10
.LBB54_35:
	cmp	w9, #0
	stp	x10, x8, [x15]
	cset	w8, ne
	stp	x8, xzr, [x15, #16]
.LBB54_36:
	add	sp, sp, #704
	ldp	x20, x19, [sp, #80]
	ldp	x22, x21, [sp, #64]
	ldp	x24, x23, [sp, #48]
	ldp	x26, x25, [sp, #32]
	ldp	x28, x27, [sp, #16]
	ldp	x29, x30, [sp], #96
	ret
.LBB54_37:
	ldr	x8, [sp, #128]
	ldr	x4, [sp, #176]
	sub	x0, x29, #112
	ldr	w7, [sp, #164]
	sub	x1, x29, #116
	sub	x2, x29, #128
	sub	x5, x29, #88
	mov	x3, x20
	mov	x6, xzr
	stp	x26, x24, [x29, #-88]
	stp	x25, x22, [x29, #-72]
	stp	x23, x8, [x29, #-56]
	stp	x21, x28, [x29, #-40]
	stp	x27, x19, [x29, #-24]
	stp	xzr, xzr, [x29, #-112]
	stur	xzr, [x29, #-96]
	bl	"read_from::read_up_to"
	ldurb	w8, [x29, #-112]
	ldurb	w10, [x29, #-104]
	ldur	x11, [x29, #-96]
	cmp	w8, #0
	mov	w8, #8
.LBB54_38:
	cset	w9, ne
	csel	w10, w10, w8, ne
	csel	x8, x11, xzr, ne
	b	.LBB54_12
.LBB54_39:
	ldr	x10, [sp, #232]
	subs	x9, x9, x10
	b.lo	.LBB54_20
	ldr	x10, [sp, #168]
	cmp	x9, x10
	b.ne	.LBB54_20
	ldr	w9, [sp, #164]
	ldr	x11, [sp, #64]
	sub	x10, x29, #240
	stp	x8, x10, [sp]
	sub	x0, x29, #160
	str	w9, [sp, #40]
	add	x9, sp, #384
	ldr	x6, [x29, #128]
	str	x9, [sp, #32]
	ldr	x9, [sp, #176]
	ldr	x4, [x29, #112]
	ldr	x2, [x29, #96]
	stp	x20, x9, [sp, #16]
	ldr	x9, [sp, #96]
	add	x1, x9, x11
	ldp	x9, x10, [sp, #72]
	ldr	x11, [sp, #56]
	add	x3, x9, x11
	ldr	x9, [sp, #88]
	ldr	x11, [sp, #48]
	add	x5, x9, x11
	ldr	x9, [sp, #104]
	add	x7, x9, x10
	bl	"layered_reading::layered_steps"
	ldurb	w8, [x29, #-160]
	ldurb	w9, [x29, #-152]
	ldur	x11, [x29, #-144]
	cbz	w8, .LBB54_43
	ldur	x8, [x29, #-136]
	ldr	x15, [sp, #224]
	b	.LBB54_14
.LBB54_43:
	ldr	x10, [sp, #224]
	cbz	w9, .LBB54_45
	mov	w8, #1
	stp	x8, xzr, [x10]
	b	.LBB54_46
.LBB54_45:
	stp	xzr, xzr, [x10]
.LBB54_46:
	stp	xzr, x11, [x10, #16]
	b	.LBB54_36
.Lfunc_end54:
	.size	signalfern_read_layered_from_in_to, .Lfunc_end54-signalfern_read_layered_from_in_to
	.section	.rodata.signalfern_read_layered_from_in_to,"a",@progbits
.LJTI54_0:
	.byte	(.LBB54_15-.LBB54_15)>>2
	.byte	(.LBB54_26-.LBB54_15)>>2
	.byte	(.LBB54_35-.LBB54_15)>>2
	.byte	(.LBB54_28-.LBB54_15)>>2
	.byte	(.LBB54_23-.LBB54_15)>>2
	.byte	(.LBB54_30-.LBB54_15)>>2
	.byte	(.LBB54_32-.LBB54_15)>>2
	.byte	(.LBB54_29-.LBB54_15)>>2
	.byte	(.LBB54_34-.LBB54_15)>>2
	.byte	(.LBB54_25-.LBB54_15)>>2
	.byte	(.LBB54_33-.LBB54_15)>>2
	.byte	(.LBB54_22-.LBB54_15)>>2
	.byte	(.LBB54_24-.LBB54_15)>>2
	.byte	(.LBB54_31-.LBB54_15)>>2
	.byte	(.LBB54_21-.LBB54_15)>>2
	.byte	(.LBB54_27-.LBB54_15)>>2

	.section	.text.signalfern_read_layered_from_to,"ax",@progbits
	.globl	signalfern_read_layered_from_to
	.p2align	2
	.type	signalfern_read_layered_from_to,@function
signalfern_read_layered_from_to:
	sub	sp, sp, #464
	cmp	x0, #0
	mov	w9, #4096
	stp	x29, x30, [sp, #368]
	stp	x28, x27, [sp, #384]
	add	x29, sp, #368
	csel	x27, x9, xzr, eq
	cmp	x2, #0
	movi	v0.2d, #0000000000000000
	ldr	x28, [x29, #104]
	csel	x8, x9, xzr, eq
	cmp	x5, #0
	stp	x26, x25, [sp, #400]
	csel	x11, x9, xzr, eq
	cmp	x7, #0
	ldr	x26, [x29, #120]
	csel	x25, x9, xzr, eq
	cmp	x28, #0
	mov	w10, #2147352575
	stp	x22, x21, [sp, #432]
	csel	x21, x9, xzr, eq
	cmp	w4, w10
	stp	x24, x23, [sp, #416]
	stp	x20, x19, [sp, #448]
	str	xzr, [sp, #176]
	str	q0, [sp, #160]
	stp	q0, q0, [sp, #96]
	stp	q0, q0, [sp, #128]
	b.hi	.LBB55_3
	add	x23, x2, x8
	mov	x22, x0
	mov	x24, x1
	add	x0, sp, #96
	mov	x1, x23
	mov	x2, x3
	mov	w20, w4
	mov	x19, x3
	stp	x11, x5, [sp, #64]
	stp	x7, x6, [sp, #80]
	bl	"column::Column::open"
	ldrb	w8, [sp, #96]
	cmp	w8, #1
	b.ne	.LBB55_7
	ldrb	w11, [sp, #104]
	ldr	x8, [sp, #112]
	b	.LBB55_4
.LBB55_3:
	mov	x8, xzr
	mov	w11, #12
.LBB55_4:
	mov	w9, #1
.LBB55_5:
	and	x11, x11, #0xff
	adrp	x12, .LJTI55_0
	add	x12, x12, :lo12:.LJTI55_0
	adr	x13, .LBB55_6
	ldrb	w14, [x12, x11]
	add	x13, x13, x14, lsl #2
	mov	w10, #3
	br	x13
.LBB55_6:
	mov	x8, xzr
	mov	w10, #1
	b	.LBB55_25
.LBB55_7:
	movi	v0.2d, #0000000000000000
	add	x8, sp, #96
	sub	x0, x29, #144
	orr	x8, x8, #0x8
	add	x1, x22, x27
	mov	x2, x24
	stur	xzr, [x29, #-64]
	str	x8, [sp, #56]
	stur	q0, [x29, #-80]
	stp	q0, q0, [x29, #-176]
	stp	q0, q0, [x29, #-144]
	stp	q0, q0, [x29, #-112]
	bl	"column::Column::open"
	ldurb	w8, [x29, #-144]
	cmp	w8, #1
	b.ne	.LBB55_9
	ldr	x5, [sp, #56]
	ldurb	w21, [x29, #-136]
	sub	x0, x29, #32
	ldur	x22, [x29, #-128]
	sub	x1, x29, #36
	sub	x2, x29, #48
	mov	x3, x23
	mov	x4, x19
	mov	x6, xzr
	mov	w7, w20
	stp	xzr, xzr, [x29, #-32]
	stur	xzr, [x29, #-16]
	bl	"read_from::read_up_to"
	ldurb	w8, [x29, #-32]
	ldurb	w10, [x29, #-24]
	ldur	x11, [x29, #-16]
	cmp	w8, #0
	cset	w9, ne
	csel	x8, x11, x22, ne
	csel	x11, x10, x21, ne
	b	.LBB55_5
.LBB55_9:
	sub	x8, x29, #144
	ldr	x6, [x29, #112]
	ldr	x4, [x29, #96]
	orr	x9, x8, #0x8
	ldp	x8, x10, [sp, #56]
	sub	x0, x29, #176
	add	x5, x28, x21
	add	x7, x22, x27
	str	w20, [sp, #40]
	stp	x19, x8, [sp, #24]
	ldr	x8, [sp, #72]
	stp	x9, x23, [sp, #8]
	add	x1, x8, x10
	ldp	x8, x2, [sp, #80]
	str	x24, [sp]
	add	x3, x8, x25
	bl	"layered_reading::layered_steps"
	ldurb	w8, [x29, #-176]
	ldurb	w9, [x29, #-168]
	ldur	x11, [x29, #-160]
	cbz	w8, .LBB55_27
	ldur	x8, [x29, #-152]
	b	.LBB55_5
.LBB55_11:
	mov	x8, xzr
	mov	w10, #16
	b	.LBB55_25
.LBB55_12:
	mov	x8, xzr
	mov	w10, #13
	b	.LBB55_25
.LBB55_13:
	mov	w10, #6
	b	.LBB55_25
.LBB55_14:
	mov	x8, xzr
	mov	w10, #14
	b	.LBB55_25
.LBB55_15:
	mov	x8, xzr
	mov	w10, #11
	b	.LBB55_25
.LBB55_16:
	mov	x8, xzr
	mov	w10, #2
	b	.LBB55_25
.LBB55_17:
	mov	x8, xzr
	mov	w10, #17
	b	.LBB55_25
.LBB55_18:
	mov	w10, #4
	b	.LBB55_25
.LBB55_19:
	mov	x8, xzr
	mov	w10, #9
	b	.LBB55_25
.LBB55_20:
	mov	w10, #7
	b	.LBB55_25
.LBB55_21:
	mov	x8, xzr
	mov	w10, #15
	b	.LBB55_25
.LBB55_22:
	mov	w10, #8
	b	.LBB55_25
.LBB55_23:
	mov	w10, #12
	b	.LBB55_25
.LBB55_24:
	mov	x8, xzr
	mov	w10, #10
.LBB55_25:
	cmp	w9, #0
	stp	x10, x8, [x26]
	cset	w8, ne
	stp	x8, xzr, [x26, #16]
.LBB55_26:
	ldp	x20, x19, [sp, #448]
	ldp	x22, x21, [sp, #432]
	ldp	x24, x23, [sp, #416]
	ldp	x26, x25, [sp, #400]
	ldp	x28, x27, [sp, #384]
	ldp	x29, x30, [sp, #368]
	add	sp, sp, #464
	ret
.LBB55_27:
	cbz	w9, .LBB55_29
	mov	w8, #1
	stp	x8, xzr, [x26]
	b	.LBB55_30
.LBB55_29:
	stp	xzr, xzr, [x26]
.LBB55_30:
	stp	xzr, x11, [x26, #16]
	b	.LBB55_26
.Lfunc_end55:
	.size	signalfern_read_layered_from_to, .Lfunc_end55-signalfern_read_layered_from_to
	.section	.rodata.signalfern_read_layered_from_to,"a",@progbits
.LJTI55_0:
	.byte	(.LBB55_6-.LBB55_6)>>2
	.byte	(.LBB55_16-.LBB55_6)>>2
	.byte	(.LBB55_25-.LBB55_6)>>2
	.byte	(.LBB55_18-.LBB55_6)>>2
	.byte	(.LBB55_13-.LBB55_6)>>2
	.byte	(.LBB55_20-.LBB55_6)>>2
	.byte	(.LBB55_22-.LBB55_6)>>2
	.byte	(.LBB55_19-.LBB55_6)>>2
	.byte	(.LBB55_24-.LBB55_6)>>2
	.byte	(.LBB55_15-.LBB55_6)>>2
	.byte	(.LBB55_23-.LBB55_6)>>2
	.byte	(.LBB55_12-.LBB55_6)>>2
	.byte	(.LBB55_14-.LBB55_6)>>2
	.byte	(.LBB55_21-.LBB55_6)>>2
	.byte	(.LBB55_11-.LBB55_6)>>2
	.byte	(.LBB55_17-.LBB55_6)>>2

	.section	.rodata.cst16,"aM",@progbits,16
	.p2align	4, 0x0
.LCPI56_0:
	.word	0
	.word	1
	.word	2
	.word	3
.LCPI56_1:
	.byte	0
	.byte	255
	.byte	255
	.byte	255
	.byte	1
	.byte	255
	.byte	255
	.byte	255
	.byte	2
	.byte	255
	.byte	255
	.byte	255
	.byte	3
	.byte	255
	.byte	255
	.byte	255
.LCPI56_2:
	.byte	4
	.byte	255
	.byte	255
	.byte	255
	.byte	5
	.byte	255
	.byte	255
	.byte	255
	.byte	6
	.byte	255
	.byte	255
	.byte	255
	.byte	7
	.byte	255
	.byte	255
	.byte	255
.LCPI56_3:
	.byte	8
	.byte	255
	.byte	255
	.byte	255
	.byte	9
	.byte	255
	.byte	255
	.byte	255
	.byte	10
	.byte	255
	.byte	255
	.byte	255
	.byte	11
	.byte	255
	.byte	255
	.byte	255
.LCPI56_4:
	.byte	12
	.byte	255
	.byte	255
	.byte	255
	.byte	13
	.byte	255
	.byte	255
	.byte	255
	.byte	14
	.byte	255
	.byte	255
	.byte	255
	.byte	15
	.byte	255
	.byte	255
	.byte	255
	.section	.text.signalfern_read_to,"ax",@progbits
	.globl	signalfern_read_to
	.p2align	2
	.type	signalfern_read_to,@function
signalfern_read_to:
	sub	sp, sp, #336
	movi	v0.2d, #0000000000000000
	mov	w8, #4096
	cmp	x0, #0
	stp	x28, x27, [sp, #256]
	csel	x28, x8, xzr, eq
	cmp	x2, #0
	stp	x24, x23, [sp, #288]
	mov	x23, x0
	add	x0, sp, #32
	stp	x22, x21, [sp, #304]
	mov	x21, x1
	add	x1, x23, x28
	stp	x26, x25, [sp, #272]
	mov	x25, x2
	mov	x2, x21
	stp	x20, x19, [sp, #320]
	csel	x19, x8, xzr, eq
	cmp	x4, #0
	stp	x29, x30, [sp, #240]
	add	x29, sp, #240
	mov	x26, x5
	str	x6, [sp, #24]
	mov	x22, x4
	mov	x27, x3
	str	xzr, [sp, #112]
	csel	x20, x8, xzr, eq
	stp	q0, q0, [sp, #48]
	stp	q0, q0, [sp, #80]
	str	q0, [sp, #32]
	bl	"column::Column::open"
	ldp	x24, x13, [sp, #40]
	ldrb	w8, [sp, #32]
	cbnz	w8, .LBB56_11
	ldur	q0, [sp, #56]
	ldur	q1, [sp, #72]
	add	x9, sp, #120
	ldur	q2, [sp, #88]
	cmp	x27, x13
	mov	w8, #10
	stur	q0, [sp, #136]
	ldur	q0, [sp, #104]
	str	x20, [sp, #16]
	stp	x24, x13, [sp, #120]
	stur	q1, [sp, #152]
	stp	q2, q0, [x9, #48]
	b.lo	.LBB56_10
	cmp	x26, x13
	b.lo	.LBB56_10
	add	x0, x23, x28
	add	x2, sp, #120
	mov	x1, x21
	mov	x20, x13
	bl	"checking::accepts"
	cbz	w0, .LBB56_9
	ldr	x8, [sp, #192]
	add	x30, x23, x28
	mov	w10, #32767
	add	x9, x30, x8
	ldrh	w3, [x9]
	cmp	x3, x10
	ldr	x10, [sp, #16]
	add	x21, x22, x10
	b.ne	.LBB56_30
.LBB56_5:
	ldr	x10, [sp, #144]
	and	w9, w24, #0xff
	cmp	w9, #2
	add	x11, x30, x10
	add	x1, x11, x8
	b.hs	.LBB56_57
	add	x8, sp, #120
	mov	x0, x21
	mov	w2, w24
	add	x4, x8, #40
	mov	x3, x20
	bl	"scaled_reader::fill"
	mov	x0, x20
.LBB56_7:
	ldr	x10, [sp, #24]
.LBB56_8:
	stp	xzr, x0, [x10]
	b	.LBB56_28
.LBB56_9:
	mov	x13, xzr
	mov	w8, #11
.LBB56_10:
	mov	x24, x8
.LBB56_11:
	and	x8, x24, #0xff
	adrp	x10, .LJTI56_0
	add	x10, x10, :lo12:.LJTI56_0
	adr	x11, .LBB56_12
	ldrb	w12, [x10, x8]
	add	x11, x11, x12, lsl #2
	mov	w9, #1
	br	x11
.LBB56_12:
	mov	x8, xzr
	mov	w9, #2
	b	.LBB56_27
.LBB56_13:
	mov	x8, xzr
	mov	w9, #16
	b	.LBB56_27
.LBB56_14:
	mov	x8, xzr
	mov	w9, #13
	b	.LBB56_27
.LBB56_15:
	mov	w9, #6
	b	.LBB56_26
.LBB56_16:
	mov	x8, xzr
	mov	w9, #14
	b	.LBB56_27
.LBB56_17:
	mov	x8, xzr
	mov	w9, #11
	b	.LBB56_27
.LBB56_18:
	mov	w9, #3
	b	.LBB56_26
.LBB56_19:
	mov	x8, xzr
	mov	w9, #17
	b	.LBB56_27
.LBB56_20:
	mov	w9, #4
	b	.LBB56_26
.LBB56_21:
	mov	x8, xzr
	mov	w9, #9
	b	.LBB56_27
.LBB56_22:
	mov	w9, #7
	b	.LBB56_26
.LBB56_23:
	mov	x8, xzr
	mov	w9, #15
	b	.LBB56_27
.LBB56_24:
	mov	w9, #8
	b	.LBB56_26
.LBB56_25:
	mov	w9, #12
.LBB56_26:
	mov	x8, x13
.LBB56_27:
	ldr	x10, [sp, #24]
	stp	x9, x8, [x10]
.LBB56_28:
	ldp	x20, x19, [sp, #320]
	ldp	x22, x21, [sp, #304]
	ldp	x24, x23, [sp, #288]
	ldp	x26, x25, [sp, #272]
	ldp	x28, x27, [sp, #256]
	ldp	x29, x30, [sp, #240]
	add	sp, sp, #336
	ret
.LBB56_29:
	mov	x8, xzr
	mov	w9, #10
	b	.LBB56_27
.LBB56_30:
	ldr	x13, [sp, #136]
	mov	w14, #17
	mov	w11, #1
	add	x15, x23, x28
	add	x17, x28, x8
	mov	w16, #8192
	sub	x14, x14, x13
	cmp	x13, #0
	add	x12, x25, x19
	lsl	x14, x11, x14
	add	x15, x15, x8
	add	x13, x17, x23
	mov	x5, xzr
	mov	x10, xzr
	add	x0, x13, #5
	csel	x17, xzr, x14, eq
	add	x18, x14, #2, lsl #12
	add	x14, x15, #6
	add	x15, x9, x17
	csel	x16, x16, x18, eq
	add	x17, x12, #16
	add	x18, x13, #4
	str	x18, [sp, #8]
	b	.LBB56_32
.LBB56_31:
	mov	w13, #65535
	lsl	x18, x2, #1
	add	x10, x2, x10
	cmp	x1, x13
	csel	x13, xzr, x16, eq
	cmp	x1, #4095
	csel	x13, x18, x13, lo
	add	x5, x13, x3
	mov	w13, #32767
	ldrh	w3, [x9, x5]
	cmp	x3, x13
	b.eq	.LBB56_5
.LBB56_32:
	add	x13, x9, x5
	lsl	w4, w3, #16
	add	x3, x5, #4
	ldrb	w6, [x13, #2]
	ldrb	w7, [x13, #3]
	mov	w13, #65535
	mov	x1, x6
	bfi	x1, x7, #8, #8
	cmp	x1, x13
	add	x2, x1, #1
	cinc	w13, w11, eq
	cmp	x1, #4095
	csel	w13, wzr, w13, lo
	cbz	w13, .LBB56_39
	cmp	w13, #1
	b.ne	.LBB56_41
	mov	x5, xzr
	add	x6, x15, x3
	mov	x19, x10
	b	.LBB56_36
.LBB56_35:
	add	x5, x5, #1
	cmp	x5, #1024
	b.eq	.LBB56_31
.LBB56_36:
	ldr	x13, [x6, x5, lsl #3]
	cbz	x13, .LBB56_35
	fmov	d0, x13
	add	w7, w4, w5, lsl #6
	add	x25, x12, x19, lsl #2
	cnt	v0.8b, v0.8b
	addv	b0, v0.8b
	fmov	x18, d0
	add	x19, x18, x19
	add	x26, x18, #1
.LBB56_38:
	rbit	x18, x13
	sub	x26, x26, #1
	sub	x27, x13, #1
	cmp	x26, #1
	and	x13, x27, x13
	clz	x18, x18
	orr	w18, w7, w18
	str	w18, [x25], #4
	b.hi	.LBB56_38
	b	.LBB56_35
.LBB56_39:
	cmp	x1, #7
	b.hs	.LBB56_43
	mov	x27, xzr
	b	.LBB56_55
.LBB56_41:
	movi	v1.4s, #4
	dup	v0.4s, w4
	adrp	x4, .LCPI56_0
	add	x13, x17, x10, lsl #2
	ldr	q2, [x4, :lo12:.LCPI56_0]
	mov	w4, #65536
	add	v1.4s, v0.4s, v1.4s
.LBB56_42:
	movi	v3.4s, #8
	add	v4.4s, v0.4s, v2.4s
	subs	x4, x4, #8
	add	v5.4s, v2.4s, v1.4s
	add	v2.4s, v2.4s, v3.4s
	stp	q4, q5, [x13, #-16]
	add	x13, x13, #32
	b.ne	.LBB56_42
	b	.LBB56_31
.LBB56_43:
	add	x13, x14, x5
	add	x30, x9, x3
	add	x19, x13, x7, lsl #9
	lsl	x13, x10, #2
	add	x19, x19, x6, lsl #1
	add	x25, x12, x13
	cmp	x25, x19
	b.hs	.LBB56_46
	add	x18, x12, #4
	add	x19, x18, x7, lsl #10
	add	x13, x19, x13
	add	x13, x13, x6, lsl #2
	cmp	x30, x13
	b.hs	.LBB56_46
	mov	x27, xzr
	add	x30, x23, x28
	b	.LBB56_55
.LBB56_46:
	cmp	x1, #15
	adrp	x25, .LCPI56_1
	adrp	x26, .LCPI56_2
	b.hs	.LBB56_51
	mov	x27, xzr
.LBB56_48:
	mov	x18, x27
	add	x13, x27, x10
	add	x30, x5, x27, lsl #1
	and	x27, x2, #0x1fff8
	dup	v0.4s, w4
	add	x13, x12, x13, lsl #2
	sub	x19, x18, x27
	ldr	x18, [sp, #8]
	add	x30, x18, x30
.LBB56_49:
	ld2	{ v1.8b, v2.8b }, [x30], #16
	adds	x19, x19, #8
	ldr	q3, [x26, :lo12:.LCPI56_2]
	ldr	q4, [x25, :lo12:.LCPI56_1]
	tbl	v5.16b, { v1.16b }, v3.16b
	tbl	v3.16b, { v2.16b }, v3.16b
	tbl	v6.16b, { v1.16b }, v4.16b
	tbl	v1.16b, { v2.16b }, v4.16b
	shl	v2.4s, v3.4s, #8
	orr	v3.16b, v5.16b, v0.16b
	orr	v4.16b, v6.16b, v0.16b
	shl	v1.4s, v1.4s, #8
	orr	v2.16b, v2.16b, v3.16b
	orr	v1.16b, v1.16b, v4.16b
	stp	q1, q2, [x13], #32
	b.ne	.LBB56_49
	cmp	x2, x27
	add	x30, x23, x28
	b.eq	.LBB56_31
	b	.LBB56_55
.LBB56_51:
	dup	v0.4s, w4
	add	x19, x12, x10, lsl #2
	and	x27, x2, #0x1fff0
	and	x13, x2, #0x1fff0
.LBB56_52:
	ld2	{ v1.16b, v2.16b }, [x30], #32
	adrp	x18, .LCPI56_4
	subs	x13, x13, #16
	ldr	q3, [x18, :lo12:.LCPI56_4]
	adrp	x18, .LCPI56_3
	ldr	q4, [x18, :lo12:.LCPI56_3]
	ldr	q5, [x26, :lo12:.LCPI56_2]
	ldr	q7, [x25, :lo12:.LCPI56_1]
	tbl	v6.16b, { v1.16b }, v3.16b
	tbl	v3.16b, { v2.16b }, v3.16b
	tbl	v16.16b, { v1.16b }, v4.16b
	tbl	v4.16b, { v2.16b }, v4.16b
	tbl	v17.16b, { v1.16b }, v5.16b
	tbl	v5.16b, { v2.16b }, v5.16b
	tbl	v18.16b, { v1.16b }, v7.16b
	tbl	v1.16b, { v2.16b }, v7.16b
	shl	v2.4s, v3.4s, #8
	orr	v3.16b, v6.16b, v0.16b
	orr	v6.16b, v16.16b, v0.16b
	shl	v4.4s, v4.4s, #8
	shl	v5.4s, v5.4s, #8
	orr	v7.16b, v17.16b, v0.16b
	shl	v1.4s, v1.4s, #8
	orr	v16.16b, v18.16b, v0.16b
	orr	v2.16b, v2.16b, v3.16b
	orr	v3.16b, v4.16b, v6.16b
	orr	v4.16b, v5.16b, v7.16b
	orr	v1.16b, v1.16b, v16.16b
	stp	q3, q2, [x19, #32]
	stp	q1, q4, [x19], #64
	b.ne	.LBB56_52
	cmp	x2, x27
	add	x30, x23, x28
	b.eq	.LBB56_31
	tbnz	w2, #3, .LBB56_48
.LBB56_55:
	lsl	x13, x7, #8
	add	x18, x27, x10
	add	x13, x13, x6
	add	x6, x5, x27, lsl #1
	sub	x5, x13, x27
	add	x13, x12, x18, lsl #2
	add	x5, x5, #1
	add	x6, x0, x6
.LBB56_56:
	ldurh	w18, [x6, #-1]
	subs	x5, x5, #1
	add	x6, x6, #2
	orr	w18, w18, w4
	str	w18, [x13], #4
	b.ne	.LBB56_56
	b	.LBB56_31
.LBB56_57:
	ldr	x19, [sp, #176]
	mov	x0, x20
	b.ne	.LBB56_62
	and	x9, x20, #0x3fff
	mov	w11, #16383
	add	x9, x9, x11
	lsr	x9, x9, #14
	adds	x22, x9, x20, lsr #14
	b.eq	.LBB56_7
	mov	w9, #25
	add	x8, x28, x8
	madd	x24, x22, x9, x1
	add	x8, x8, x23
	add	x8, x8, x10
	add	x23, x8, #24
	mov	x8, x0
.LBB56_60:
	ldur	x9, [x23, #-24]
	ldrb	w11, [x23]
	subs	x25, x8, #4, lsl #12
	ldur	x12, [x23, #-8]
	sub	x4, x29, #40
	mov	x0, x21
	lsl	x10, x9, #1
	mov	w2, wzr
	stur	x19, [x29, #-24]
	eor	x9, x10, x9, asr #63
	mov	w10, #16384
	csel	x3, x8, x10, lo
	cmp	w11, #0
	csel	x8, xzr, x12, eq
	stp	x11, x9, [x29, #-40]
	add	x1, x24, x8
	bl	"scaled_reader::fill"
	subs	x22, x22, #1
	add	x21, x21, #32, lsl #12
	add	x23, x23, #25
	mov	x8, x25
	b.ne	.LBB56_60
	ldr	x10, [sp, #24]
	mov	x0, x20
	b	.LBB56_8
.LBB56_62:
	cbz	x20, .LBB56_7
	ldr	x9, [sp, #160]
	cbz	x9, .LBB56_70
	add	x8, x1, x19, lsl #3
	mov	w10, #64
	cmp	x9, #8
	sub	x10, x10, x9
	b.hi	.LBB56_76
	mov	x11, xzr
	mov	x14, xzr
	mov	x12, x0
	b	.LBB56_68
.LBB56_66:
	ldr	x15, [x8, x11]
	rev	x15, x15
	lsl	x14, x15, x14
.LBB56_67:
	lsr	x14, x14, x10
	add	x11, x11, x13, lsr #3
	subs	x12, x12, #1
	ldr	x14, [x1, x14, lsl #3]
	str	x14, [x21], #8
	and	x14, x13, #0x7
	b.eq	.LBB56_7
.LBB56_68:
	cmp	x12, #63
	add	x13, x14, x9
	b.hi	.LBB56_66
	add	x15, x13, #7
	add	x16, x8, x11
	add	x17, x16, x15, lsr #3
	ldrb	w16, [x16]
	and	w15, w15, #0x38
	sub	w15, w15, w14
	ldurb	w17, [x17, #-1]
	lsl	x16, x16, #56
	add	w15, w15, #56
	lsl	x17, x17, #56
	lsl	x14, x16, x14
	lsr	x15, x17, x15
	orr	x14, x15, x14
	b	.LBB56_67
.LBB56_70:
	cmp	x0, #12
	b.lo	.LBB56_73
	add	x9, x23, x28
	add	x8, x9, x8
	ldr	x9, [sp, #16]
	add	x8, x8, x10
	add	x8, x8, #8
	cmp	x21, x8
	b.hs	.LBB56_92
	add	x8, x22, x9
	add	x8, x8, x0, lsl #3
	cmp	x1, x8
	b.hs	.LBB56_92
.LBB56_73:
	mov	x8, xzr
.LBB56_74:
	ldr	x10, [sp, #24]
.LBB56_75:
	ldr	x9, [x1]
	str	x9, [x21, x8, lsl #3]
	add	x8, x8, #1
	cmp	x0, x8
	b.ne	.LBB56_75
	b	.LBB56_8
.LBB56_76:
	cmp	x9, #25
	b.hs	.LBB56_83
	mov	x11, xzr
	mov	x14, xzr
	mov	x12, x0
	b	.LBB56_80
.LBB56_78:
	add	x15, x13, #7
	add	x16, x8, x11
	add	x17, x16, x15, lsr #3
	ldrh	w16, [x16]
	and	w15, w15, #0x38
	sub	w15, w15, w14
	ldurh	w17, [x17, #-2]
	rev	x16, x16
	add	w15, w15, #48
	lsl	x14, x16, x14
	rev	x17, x17
	lsr	x15, x17, x15
	orr	x14, x15, x14
.LBB56_79:
	lsr	x14, x14, x10
	add	x11, x11, x13, lsr #3
	subs	x12, x12, #1
	ldr	x14, [x1, x14, lsl #3]
	str	x14, [x21], #8
	and	x14, x13, #0x7
	b.eq	.LBB56_7
.LBB56_80:
	add	x13, x14, x9
	cmp	x13, #64
	b.hi	.LBB56_78
	cmp	x12, #63
	b.ls	.LBB56_78
	ldr	x15, [x8, x11]
	rev	x15, x15
	lsl	x14, x15, x14
	b	.LBB56_79
.LBB56_83:
	mov	x11, xzr
	mov	x14, xzr
	mov	x12, x0
	b	.LBB56_86
.LBB56_84:
	ldr	x15, [x8, x11]
	rev	x15, x15
	lsl	x14, x15, x14
.LBB56_85:
	lsr	x14, x14, x10
	add	x11, x11, x13, lsr #3
	subs	x12, x12, #1
	ldr	x14, [x1, x14, lsl #3]
	str	x14, [x21], #8
	and	x14, x13, #0x7
	b.eq	.LBB56_7
.LBB56_86:
	add	x13, x14, x9
	cmp	x13, #64
	b.hi	.LBB56_88
	cmp	x12, #64
	b.hs	.LBB56_84
.LBB56_88:
	add	x15, x13, #7
	add	x16, x8, x11
	cmp	x9, #56
	lsr	x15, x15, #3
	add	x17, x16, x15
	b.hi	.LBB56_90
	ldr	w16, [x16]
	ldur	w17, [x17, #-4]
	mov	x18, #-4
	b	.LBB56_91
.LBB56_90:
	ldr	x16, [x16]
	ldur	x17, [x17, #-8]
	mov	x18, #-8
.LBB56_91:
	add	w15, w18, w15
	rev	x16, x16
	rev	x17, x17
	lsl	w15, w15, #3
	sub	w15, w15, w14
	lsl	x14, x16, x14
	lsr	x15, x17, x15
	orr	x14, x15, x14
	b	.LBB56_85
.LBB56_92:
	ld1r	{ v0.2d }, [x1]
	add	x9, x9, x22
	and	x8, x0, #0xfffffffffffffffc
	add	x9, x9, #16
	and	x10, x0, #0xfffffffffffffffc
.LBB56_93:
	subs	x10, x10, #4
	stp	q0, q0, [x9, #-16]
	add	x9, x9, #32
	b.ne	.LBB56_93
	cmp	x0, x8
	b.eq	.LBB56_7
	b	.LBB56_74
.Lfunc_end56:
	.size	signalfern_read_to, .Lfunc_end56-signalfern_read_to
	.section	.rodata.signalfern_read_to,"a",@progbits
.LJTI56_0:
	.byte	(.LBB56_27-.LBB56_12)>>2
	.byte	(.LBB56_12-.LBB56_12)>>2
	.byte	(.LBB56_18-.LBB56_12)>>2
	.byte	(.LBB56_20-.LBB56_12)>>2
	.byte	(.LBB56_15-.LBB56_12)>>2
	.byte	(.LBB56_22-.LBB56_12)>>2
	.byte	(.LBB56_24-.LBB56_12)>>2
	.byte	(.LBB56_21-.LBB56_12)>>2
	.byte	(.LBB56_29-.LBB56_12)>>2
	.byte	(.LBB56_17-.LBB56_12)>>2
	.byte	(.LBB56_25-.LBB56_12)>>2
	.byte	(.LBB56_14-.LBB56_12)>>2
	.byte	(.LBB56_16-.LBB56_12)>>2
	.byte	(.LBB56_23-.LBB56_12)>>2
	.byte	(.LBB56_13-.LBB56_12)>>2
	.byte	(.LBB56_19-.LBB56_12)>>2

	.section	.text.signalfern_set_check_to,"ax",@progbits
	.globl	signalfern_set_check_to
	.p2align	2
	.type	signalfern_set_check_to,@function
signalfern_set_check_to:
	sub	sp, sp, #64
	movi	v0.2d, #0000000000000000
	mov	w9, #4096
	cmp	x0, #0
	mov	x8, x0
	csel	x9, x9, xzr, eq
	str	x19, [sp, #48]
	mov	x19, x2
	mov	x2, x1
	mov	x0, sp
	add	x1, x8, x9
	mov	w3, wzr
	stp	x29, x30, [sp, #32]
	add	x29, sp, #32
	stp	q0, q0, [sp]
	bl	"set_check::walk"
	ldrb	w9, [sp]
	ldr	x8, [sp, #8]
	cbz	w9, .LBB57_3
	and	x8, x8, #0xff
	adrp	x11, .LJTI57_0
	add	x11, x11, :lo12:.LJTI57_0
	ldr	x10, [sp, #16]
	adr	x12, .LBB57_2
	ldrb	w13, [x11, x8]
	add	x12, x12, x13, lsl #2
	mov	w9, #1
	br	x12
.LBB57_2:
	mov	w9, #2
	stp	x9, xzr, [x19]
	ldp	x29, x30, [sp, #32]
	ldr	x19, [sp, #48]
	add	sp, sp, #64
	ret
.LBB57_3:
	stp	xzr, x8, [x19]
	ldp	x29, x30, [sp, #32]
	ldr	x19, [sp, #48]
	add	sp, sp, #64
	ret
.LBB57_4:
	mov	x8, xzr
	mov	w9, #16
.LBB57_5:
	stp	x9, x8, [x19]
	ldp	x29, x30, [sp, #32]
	ldr	x19, [sp, #48]
	add	sp, sp, #64
	ret
.LBB57_6:
	mov	w9, #13
	stp	x9, xzr, [x19]
	ldp	x29, x30, [sp, #32]
	ldr	x19, [sp, #48]
	add	sp, sp, #64
	ret
.LBB57_7:
	mov	w9, #6
	b	.LBB57_18
.LBB57_8:
	mov	w9, #14
	stp	x9, xzr, [x19]
	ldp	x29, x30, [sp, #32]
	ldr	x19, [sp, #48]
	add	sp, sp, #64
	ret
.LBB57_9:
	mov	w9, #11
	stp	x9, xzr, [x19]
	ldp	x29, x30, [sp, #32]
	ldr	x19, [sp, #48]
	add	sp, sp, #64
	ret
.LBB57_10:
	mov	w9, #3
	b	.LBB57_18
.LBB57_11:
	mov	w9, #17
	stp	x9, xzr, [x19]
	ldp	x29, x30, [sp, #32]
	ldr	x19, [sp, #48]
	add	sp, sp, #64
	ret
.LBB57_12:
	mov	w9, #4
	b	.LBB57_18
.LBB57_13:
	mov	w9, #9
	stp	x9, xzr, [x19]
	ldp	x29, x30, [sp, #32]
	ldr	x19, [sp, #48]
	add	sp, sp, #64
	ret
.LBB57_14:
	mov	w9, #7
	b	.LBB57_18
.LBB57_15:
	mov	w9, #15
	stp	x9, xzr, [x19]
	ldp	x29, x30, [sp, #32]
	ldr	x19, [sp, #48]
	add	sp, sp, #64
	ret
.LBB57_16:
	mov	w9, #8
	b	.LBB57_18
.LBB57_17:
	mov	w9, #12
.LBB57_18:
	stp	x9, x10, [x19]
	ldp	x29, x30, [sp, #32]
	ldr	x19, [sp, #48]
	add	sp, sp, #64
	ret
.LBB57_19:
	mov	w9, #10
	stp	x9, xzr, [x19]
	ldp	x29, x30, [sp, #32]
	ldr	x19, [sp, #48]
	add	sp, sp, #64
	ret
.Lfunc_end57:
	.size	signalfern_set_check_to, .Lfunc_end57-signalfern_set_check_to
	.section	.rodata.signalfern_set_check_to,"a",@progbits
.LJTI57_0:
	.byte	(.LBB57_5-.LBB57_2)>>2
	.byte	(.LBB57_2-.LBB57_2)>>2
	.byte	(.LBB57_10-.LBB57_2)>>2
	.byte	(.LBB57_12-.LBB57_2)>>2
	.byte	(.LBB57_7-.LBB57_2)>>2
	.byte	(.LBB57_14-.LBB57_2)>>2
	.byte	(.LBB57_16-.LBB57_2)>>2
	.byte	(.LBB57_13-.LBB57_2)>>2
	.byte	(.LBB57_19-.LBB57_2)>>2
	.byte	(.LBB57_9-.LBB57_2)>>2
	.byte	(.LBB57_17-.LBB57_2)>>2
	.byte	(.LBB57_6-.LBB57_2)>>2
	.byte	(.LBB57_8-.LBB57_2)>>2
	.byte	(.LBB57_15-.LBB57_2)>>2
	.byte	(.LBB57_4-.LBB57_2)>>2
	.byte	(.LBB57_11-.LBB57_2)>>2

	.section	.text.signalfern_set_find_to,"ax",@progbits
	.globl	signalfern_set_find_to
	.p2align	2
	.type	signalfern_set_find_to,@function
signalfern_set_find_to:
	sub	sp, sp, #64
	movi	v0.2d, #0000000000000000
	mov	w8, #2147352576
	str	x19, [sp, #48]
	mov	x19, x3
	mov	w3, w2
	cmp	w2, w8
	stp	x29, x30, [sp, #32]
	add	x29, sp, #32
	stp	q0, q0, [sp]
	b.hs	.LBB58_4
	cmp	x0, #0
	mov	w8, #4096
	mov	x9, x0
	csel	x8, x8, xzr, eq
	mov	x2, x1
	mov	x0, sp
	add	x1, x9, x8
	bl	"set_check::walk"
	ldrb	w8, [sp]
	ldr	x10, [sp, #16]
	cbz	w8, .LBB58_6
	ldrb	w8, [sp, #8]
	adrp	x11, .LJTI58_0
	add	x11, x11, :lo12:.LJTI58_0
	mov	w9, #1
	adr	x12, .LBB58_3
	ldrb	w13, [x11, x8]
	add	x12, x12, x13, lsl #2
	br	x12
.LBB58_3:
	mov	w9, #2
	stp	x9, xzr, [x19]
	str	xzr, [x19, #16]
	ldp	x29, x30, [sp, #32]
	ldr	x19, [sp, #48]
	add	sp, sp, #64
	ret
.LBB58_4:
	mov	x8, xzr
	mov	w9, #14
.LBB58_5:
	stp	x9, x8, [x19]
	str	xzr, [x19, #16]
	ldp	x29, x30, [sp, #32]
	ldr	x19, [sp, #48]
	add	sp, sp, #64
	ret
.LBB58_6:
	ldr	x8, [sp, #24]
	tbnz	w8, #0, .LBB58_8
	mov	w8, #1
	stp	xzr, xzr, [x19, #8]
	str	x8, [x19]
	ldp	x29, x30, [sp, #32]
	ldr	x19, [sp, #48]
	add	sp, sp, #64
	ret
.LBB58_8:
	stp	xzr, xzr, [x19]
	str	x10, [x19, #16]
	ldp	x29, x30, [sp, #32]
	ldr	x19, [sp, #48]
	add	sp, sp, #64
	ret
.LBB58_9:
	mov	w9, #16
	stp	x9, xzr, [x19]
	str	xzr, [x19, #16]
	ldp	x29, x30, [sp, #32]
	ldr	x19, [sp, #48]
	add	sp, sp, #64
	ret
.LBB58_10:
	mov	w9, #13
	stp	x9, xzr, [x19]
	str	xzr, [x19, #16]
	ldp	x29, x30, [sp, #32]
	ldr	x19, [sp, #48]
	add	sp, sp, #64
	ret
.LBB58_11:
	mov	w9, #6
	b	.LBB58_21
.LBB58_12:
	mov	w9, #11
	stp	x9, xzr, [x19]
	str	xzr, [x19, #16]
	ldp	x29, x30, [sp, #32]
	ldr	x19, [sp, #48]
	add	sp, sp, #64
	ret
.LBB58_13:
	mov	w9, #3
	b	.LBB58_21
.LBB58_14:
	mov	w9, #17
	stp	x9, xzr, [x19]
	str	xzr, [x19, #16]
	ldp	x29, x30, [sp, #32]
	ldr	x19, [sp, #48]
	add	sp, sp, #64
	ret
.LBB58_15:
	mov	w9, #4
	b	.LBB58_21
.LBB58_16:
	mov	w9, #9
	stp	x9, xzr, [x19]
	str	xzr, [x19, #16]
	ldp	x29, x30, [sp, #32]
	ldr	x19, [sp, #48]
	add	sp, sp, #64
	ret
.LBB58_17:
	mov	w9, #7
	b	.LBB58_21
.LBB58_18:
	mov	w9, #15
	stp	x9, xzr, [x19]
	str	xzr, [x19, #16]
	ldp	x29, x30, [sp, #32]
	ldr	x19, [sp, #48]
	add	sp, sp, #64
	ret
.LBB58_19:
	mov	w9, #8
	b	.LBB58_21
.LBB58_20:
	mov	w9, #12
.LBB58_21:
	stp	x9, x10, [x19]
	str	xzr, [x19, #16]
	ldp	x29, x30, [sp, #32]
	ldr	x19, [sp, #48]
	add	sp, sp, #64
	ret
.LBB58_22:
	mov	w9, #10
	stp	x9, xzr, [x19]
	str	xzr, [x19, #16]
	ldp	x29, x30, [sp, #32]
	ldr	x19, [sp, #48]
	add	sp, sp, #64
	ret
.Lfunc_end58:
	.size	signalfern_set_find_to, .Lfunc_end58-signalfern_set_find_to
	.section	.rodata.signalfern_set_find_to,"a",@progbits
.LJTI58_0:
	.byte	(.LBB58_5-.LBB58_3)>>2
	.byte	(.LBB58_3-.LBB58_3)>>2
	.byte	(.LBB58_13-.LBB58_3)>>2
	.byte	(.LBB58_15-.LBB58_3)>>2
	.byte	(.LBB58_11-.LBB58_3)>>2
	.byte	(.LBB58_17-.LBB58_3)>>2
	.byte	(.LBB58_19-.LBB58_3)>>2
	.byte	(.LBB58_16-.LBB58_3)>>2
	.byte	(.LBB58_22-.LBB58_3)>>2
	.byte	(.LBB58_12-.LBB58_3)>>2
	.byte	(.LBB58_20-.LBB58_3)>>2
	.byte	(.LBB58_10-.LBB58_3)>>2
	.byte	(.LBB58_4-.LBB58_3)>>2
	.byte	(.LBB58_18-.LBB58_3)>>2
	.byte	(.LBB58_9-.LBB58_3)>>2
	.byte	(.LBB58_14-.LBB58_3)>>2

	.section	.rodata.cst16,"aM",@progbits,16
	.p2align	4, 0x0
.LCPI59_0:
	.xword	6
	.xword	7
.LCPI59_1:
	.xword	4
	.xword	5
.LCPI59_2:
	.xword	2
	.xword	3
.LCPI59_3:
	.xword	0
	.xword	1
	.section	.text.signalfern_set_write_to,"ax",@progbits
	.globl	signalfern_set_write_to
	.p2align	2
	.type	signalfern_set_write_to,@function
signalfern_set_write_to:
	stp	x26, x25, [sp, #-64]!
	mov	w8, #4096
	cmp	x0, #0
	stp	x24, x23, [sp, #16]
	csel	x9, x8, xzr, eq
	cmp	x2, #0
	stp	x22, x21, [sp, #32]
	csel	x11, x8, xzr, eq
	cmp	x1, #2
	stp	x20, x19, [sp, #48]
	add	x8, x2, x11
	b.lo	.LBB59_3
	cmp	x1, #5
	b.hs	.LBB59_7
	mov	w14, wzr
	mov	w13, #1
	b	.LBB59_16
.LBB59_3:
	cbnz	x1, .LBB59_22
	cbz	x3, .LBB59_133
	strb	wzr, [x8]
	mov	w10, #1
.LBB59_6:
	stp	xzr, x10, [x4]
	ldp	x20, x19, [sp, #48]
	ldp	x22, x21, [sp, #32]
	ldp	x24, x23, [sp, #16]
	ldp	x26, x25, [sp], #64
	ret
.LBB59_7:
	cmp	x1, #33
	sub	x10, x1, #1
	b.hs	.LBB59_9
	mov	x12, xzr
	mov	w14, wzr
	b	.LBB59_13
.LBB59_9:
	movi	v0.2d, #0000000000000000
	movi	v1.2d, #0000000000000000
	add	x14, x9, x0
	and	x13, x10, #0x1c
	and	x12, x10, #0xffffffffffffffe0
	add	x14, x14, #64
	and	x15, x10, #0xffffffffffffffe0
.LBB59_10:
	ldp	q4, q5, [x14, #-32]
	subs	x15, x15, #32
	ldur	q2, [x14, #-28]
	ldur	q3, [x14, #-12]
	ldur	q6, [x14, #-60]
	ldur	q7, [x14, #-44]
	ldur	q16, [x14, #36]
	ldur	q17, [x14, #52]
	cmhs	v3.4s, v5.4s, v3.4s
	cmhs	v2.4s, v4.4s, v2.4s
	ldur	q4, [x14, #4]
	ldur	q5, [x14, #20]
	ldp	q18, q19, [x14, #-64]
	ldp	q23, q20, [x14, #32]
	uzp1	v2.8h, v2.8h, v3.8h
	ldp	q21, q22, [x14], #128
	cmhs	v7.4s, v19.4s, v7.4s
	cmhs	v6.4s, v18.4s, v6.4s
	cmhs	v17.4s, v20.4s, v17.4s
	cmhs	v16.4s, v23.4s, v16.4s
	cmhs	v5.4s, v22.4s, v5.4s
	cmhs	v4.4s, v21.4s, v4.4s
	uzp1	v3.8h, v6.8h, v7.8h
	uzp1	v6.8h, v16.8h, v17.8h
	uzp1	v4.8h, v4.8h, v5.8h
	uzp1	v2.16b, v3.16b, v2.16b
	uzp1	v3.16b, v4.16b, v6.16b
	orr	v0.16b, v0.16b, v2.16b
	orr	v1.16b, v1.16b, v3.16b
	b.ne	.LBB59_10
	orr	v0.16b, v1.16b, v0.16b
	cmp	x10, x12
	shl	v0.16b, v0.16b, #7
	cmlt	v0.16b, v0.16b, #0
	umaxv	b0, v0.16b
	fmov	w14, s0
	and	w14, w14, #0x1
	b.eq	.LBB59_18
	cbz	x13, .LBB59_136
.LBB59_13:
	movi	v0.2d, #0000000000000000
	add	x13, x9, x12, lsl #2
	add	x15, x13, x0
	add	x15, x15, #4
	mov	v0.h[0], w14
	and	x14, x10, #0xfffffffffffffffc
	orr	x13, x14, #0x1
	sub	x12, x12, x14
.LBB59_14:
	ldr	q1, [x15]
	ldur	q2, [x15, #-4]
	adds	x12, x12, #4
	add	x15, x15, #16
	cmhs	v1.4s, v2.4s, v1.4s
	xtn	v1.4h, v1.4s
	orr	v0.8b, v0.8b, v1.8b
	b.ne	.LBB59_14
	shl	v0.4h, v0.4h, #15
	cmp	x10, x14
	cmlt	v0.4h, v0.4h, #0
	umaxv	h0, v0.4h
	fmov	w12, s0
	and	w14, w12, #0x1
	b.eq	.LBB59_18
.LBB59_16:
	add	x12, x9, x13, lsl #2
	sub	x10, x1, x13
	add	x12, x0, x12
.LBB59_17:
	ldp	w15, w13, [x12, #-4]
	add	x12, x12, #4
	cmp	w13, w15
	cset	w13, ls
	subs	x10, x10, #1
	orr	w14, w14, w13
	b.ne	.LBB59_17
.LBB59_18:
	tbz	w14, #0, .LBB59_22
	add	x10, x9, x0
	add	x12, x10, #4
	mov	w10, #1
.LBB59_20:
	ldp	w14, w13, [x12, #-4]
	cmp	w13, w14
	b.ls	.LBB59_132
	add	x10, x10, #1
	add	x12, x12, #4
	cmp	x1, x10
	b.ne	.LBB59_20
.LBB59_22:
	add	x9, x0, x9
	mov	w12, #2147352576
	add	x10, x9, x1, lsl #2
	ldur	w10, [x10, #-4]
	cmp	w10, w12
	b.lo	.LBB59_26
	mov	x10, xzr
.LBB59_24:
	ldr	w12, [x9, x10, lsl #2]
	mov	w13, #2147352575
	cmp	w12, w13
	b.hi	.LBB59_131
	add	x10, x10, #1
	cmp	x1, x10
	b.ne	.LBB59_24
.LBB59_26:
	mov	x18, xzr
	mov	x12, xzr
	mov	x10, x1
	mov	x13, x9
	b	.LBB59_28
.LBB59_27:
	add	x18, x14, x17
	add	x12, x12, #1
	add	x18, x18, x16
	add	x18, x18, x15
	add	x18, x18, #1
	cbz	x10, .LBB59_37
.LBB59_28:
	ldr	w16, [x13]
	cmp	x10, #1
	mov	x14, x18
	mov	x17, xzr
	lsr	x15, x16, #16
	b.eq	.LBB59_31
	cmp	x10, #16
	mov	w18, #16
	csel	x0, x10, x18, lo
	add	x0, x13, x0, lsl #2
	ldurh	w0, [x0, #-2]
	cmp	w15, w0
	mov	w0, #65536
	csel	x18, x0, x18, eq
	cmp	x18, x10
	csel	x18, x18, x10, lo
.LBB59_30:
	lsr	x0, x18, #1
	add	x5, x0, x17
	sub	x18, x18, x0
	add	x6, x13, x5, lsl #2
	ldrh	w6, [x6, #2]
	cmp	w15, w6
	csel	x17, x5, x17, eq
	cmp	x18, #1
	b.hi	.LBB59_30
.LBB59_31:
	add	x18, x13, x17, lsl #2
	mov	w0, #65536
	mov	w6, #8192
	ldrh	w18, [x18, #2]
	cmp	w15, w18
	mov	w18, #1
	cinc	x17, x17, eq
	cmp	x17, #15, lsl #12
	sub	x0, x0, x17
	lsl	x7, x17, #1
	cinc	w18, w18, ls
	cmp	x17, #1, lsl #12
	lsl	x5, x0, #1
	csel	w18, wzr, w18, ls
	add	x13, x13, x17, lsl #2
	sub	x10, x10, x17
	cmp	w18, #1
	csel	x0, x0, xzr, eq
	csel	x5, x5, x6, eq
	cmp	w18, #0
	csel	x18, x17, x0, eq
	csel	x17, x7, x5, eq
	cmp	w16, #2048, lsl #12
	b.lo	.LBB59_35
	mov	w16, #1
.LBB59_33:
	lsr	x0, x15, #14
	lsr	x15, x15, #7
	add	x16, x16, #1
	cbnz	x0, .LBB59_33
	mov	w15, #1
	cmp	x18, #128
	b.hs	.LBB59_36
	b	.LBB59_27
.LBB59_35:
	mov	w16, #1
	mov	w15, #1
	cmp	x18, #128
	b.lo	.LBB59_27
.LBB59_36:
	lsr	x0, x18, #14
	lsr	x18, x18, #7
	add	x15, x15, #1
	cbnz	x0, .LBB59_36
	b	.LBB59_27
.LBB59_37:
	cmp	x12, #128
	b.lo	.LBB59_43
	add	x10, x17, x14
	mov	x13, x12
	add	x10, x10, x16
	add	x10, x10, x15
	add	x10, x10, #2
.LBB59_39:
	lsr	x14, x13, #14
	lsr	x13, x13, #7
	add	x10, x10, #1
	cbnz	x14, .LBB59_39
	cmp	x3, x10
	b.lo	.LBB59_134
	mov	x13, xzr
.LBB59_42:
	mov	x14, x12
	lsr	x15, x12, #14
	lsr	x12, x12, #7
	orr	w14, w14, #0x80
	strb	w14, [x8, x13]
	add	x13, x13, #1
	cbnz	x15, .LBB59_42
	b	.LBB59_45
.LBB59_43:
	add	x10, x18, #1
	cmp	x3, x10
	b.lo	.LBB59_134
	mov	x13, xzr
.LBB59_45:
	add	x11, x2, x11
	strb	w12, [x8, x13]
	add	x14, x13, #1
	add	x12, x11, #1
	add	x13, x11, #16
	add	x15, x11, #17
	b	.LBB59_47
.LBB59_46:
	add	x9, x14, x9
	sub	x1, x1, x16
	add	x9, x9, x0
	add	x9, x9, x2
	add	x14, x9, #1
	mov	x9, x17
	cbz	x1, .LBB59_6
.LBB59_47:
	ldr	w0, [x9]
	cmp	x1, #1
	lsr	x17, x0, #16
	b.ne	.LBB59_49
	mov	x2, xzr
	b	.LBB59_51
.LBB59_49:
	cmp	x1, #16
	mov	w16, #16
	mov	x2, xzr
	csel	x18, x1, x16, lo
	add	x18, x9, x18, lsl #2
	ldurh	w18, [x18, #-2]
	cmp	w17, w18
	mov	w18, #65536
	csel	x16, x18, x16, eq
	cmp	x16, x1
	csel	x16, x16, x1, lo
.LBB59_50:
	lsr	x18, x16, #1
	add	x3, x18, x2
	sub	x16, x16, x18
	add	x5, x9, x3, lsl #2
	ldrh	w5, [x5, #2]
	cmp	w17, w5
	csel	x2, x3, x2, eq
	cmp	x16, #1
	b.hi	.LBB59_50
.LBB59_51:
	add	x16, x9, x2, lsl #2
	mov	w18, #1
	ldrh	w16, [x16, #2]
	cmp	w17, w16
	cinc	x16, x2, eq
	cset	w3, eq
	cmp	x16, #15, lsl #12
	mov	x6, x16
	cinc	w18, w18, ls
	cmp	x16, #1, lsl #12
	csel	w18, wzr, w18, ls
	cbz	w18, .LBB59_54
	cmp	w18, #2
	b.ne	.LBB59_58
	mov	x6, xzr
.LBB59_54:
	cmp	w0, #2048, lsl #12
	b.lo	.LBB59_59
.LBB59_55:
	mov	x0, x14
.LBB59_56:
	lsr	x5, x17, #7
	lsr	x7, x17, #14
	orr	w17, w17, #0x80
	strb	w17, [x8, x0]
	add	x0, x0, #1
	mov	x17, x5
	cbnz	x7, .LBB59_56
	add	x17, x8, x0
	cmp	x6, #128
	strb	w5, [x17]
	add	x5, x0, #2
	strb	w18, [x17, #1]
	b.hs	.LBB59_60
	b	.LBB59_80
.LBB59_58:
	mov	w5, #65536
	sub	x6, x5, x16
	cmp	w0, #2048, lsl #12
	b.hs	.LBB59_55
.LBB59_59:
	mov	x5, x17
	add	x17, x8, x14
	cmp	x6, #128
	strb	w5, [x17]
	add	x5, x14, #2
	strb	w18, [x17, #1]
	b.lo	.LBB59_80
.LBB59_60:
	lsr	x0, x6, #7
	lsr	x17, x6, #14
	orr	w6, w6, #0x80
	strb	w6, [x8, x5]
	add	x5, x5, #1
	mov	x6, x0
	cbnz	x17, .LBB59_60
	add	x17, x9, x16, lsl #2
	cmp	w18, #2
	strb	w0, [x8, x5]
	add	x0, x5, #1
	b.eq	.LBB59_81
.LBB59_62:
	cmp	w18, #1
	b.ne	.LBB59_89
	adrp	x6, .LCPI59_0
	adrp	x7, .LCPI59_1
	adrp	x5, .LCPI59_2
	adrp	x3, .LCPI59_3
	mov	x2, xzr
	cbz	x16, .LBB59_101
	mov	x19, xzr
	b	.LBB59_66
.LBB59_65:
	add	x19, x19, #1
	add	x0, x0, x21, lsl #1
	add	x2, x20, #1
	cmp	x19, x16
	b.eq	.LBB59_97
.LBB59_66:
	lsl	x20, x19, #2
	ldrh	w20, [x9, x20]
	subs	x21, x20, x2
	b.eq	.LBB59_65
	cmp	x21, #4
	b.hs	.LBB59_69
	mov	x22, xzr
	b	.LBB59_78
.LBB59_69:
	dup	v0.2d, x2
	cmp	x21, #16
	b.hs	.LBB59_71
	mov	x22, xzr
	b	.LBB59_75
.LBB59_71:
	mov	w22, #8
	ldr	q2, [x6, :lo12:.LCPI59_0]
	ldr	q3, [x7, :lo12:.LCPI59_1]
	dup	v1.2d, x22
	ldr	q4, [x5, :lo12:.LCPI59_2]
	ldr	q5, [x3, :lo12:.LCPI59_3]
	and	x23, x21, #0xc
	and	x22, x21, #0xfffffffffffffff0
	add	x24, x13, x0
	and	x25, x21, #0xfffffffffffffff0
	add	v1.2d, v0.2d, v1.2d
.LBB59_72:
	add	v6.2d, v3.2d, v0.2d
	add	v7.2d, v2.2d, v0.2d
	mov	w26, #16
	add	v16.2d, v5.2d, v0.2d
	add	v17.2d, v4.2d, v0.2d
	subs	x25, x25, #16
	add	v18.2d, v3.2d, v1.2d
	add	v19.2d, v2.2d, v1.2d
	add	v20.2d, v5.2d, v1.2d
	add	v21.2d, v4.2d, v1.2d
	uzp1	v6.4s, v6.4s, v7.4s
	uzp1	v16.4s, v16.4s, v17.4s
	uzp1	v17.4s, v18.4s, v19.4s
	dup	v18.2d, x26
	uzp1	v7.4s, v20.4s, v21.4s
	uzp1	v6.8h, v16.8h, v6.8h
	add	v3.2d, v3.2d, v18.2d
	add	v4.2d, v4.2d, v18.2d
	add	v5.2d, v5.2d, v18.2d
	add	v2.2d, v2.2d, v18.2d
	uzp1	v7.8h, v7.8h, v17.8h
	stp	q6, q7, [x24, #-16]
	add	x24, x24, #32
	b.ne	.LBB59_72
	cmp	x21, x22
	b.eq	.LBB59_65
	cbz	x23, .LBB59_78
.LBB59_75:
	dup	v2.2d, x22
	ldr	q1, [x5, :lo12:.LCPI59_2]
	ldr	q3, [x3, :lo12:.LCPI59_3]
	add	x24, x0, x22, lsl #1
	mov	x23, x22
	and	x22, x21, #0xfffffffffffffffc
	sub	x23, x23, x22
	orr	v1.16b, v2.16b, v1.16b
	orr	v2.16b, v2.16b, v3.16b
	add	x24, x11, x24
.LBB59_76:
	add	v3.2d, v2.2d, v0.2d
	add	v4.2d, v1.2d, v0.2d
	mov	w25, #4
	adds	x23, x23, #4
	uzp1	v3.4s, v3.4s, v4.4s
	dup	v4.2d, x25
	add	v1.2d, v1.2d, v4.2d
	add	v2.2d, v2.2d, v4.2d
	xtn	v3.4h, v3.4s
	str	d3, [x24], #8
	b.ne	.LBB59_76
	cmp	x21, x22
	b.eq	.LBB59_65
.LBB59_78:
	add	x23, x0, x22, lsl #1
	add	x2, x22, x2
	add	x22, x11, x23
.LBB59_79:
	strh	w2, [x22], #2
	add	x2, x2, #1
	cmp	x20, x2
	b.ne	.LBB59_79
	b	.LBB59_65
.LBB59_80:
	mov	x0, x6
	add	x17, x9, x16, lsl #2
	cmp	w18, #2
	strb	w0, [x8, x5]
	add	x0, x5, #1
	b.ne	.LBB59_62
.LBB59_81:
	mov	x2, xzr
	mov	x3, xzr
	add	x0, x8, x0
	b	.LBB59_85
.LBB59_82:
	mov	x5, xzr
.LBB59_83:
	mov	x3, x16
.LBB59_84:
	str	x5, [x0, x2, lsl #3]
	add	x2, x2, #1
	cmp	x2, #1024
	b.eq	.LBB59_112
.LBB59_85:
	cmp	x3, x16
	b.hs	.LBB59_82
	mov	x5, xzr
.LBB59_87:
	lsl	x6, x3, #2
	ldrh	w6, [x9, x6]
	cmp	x2, x6, lsr #6
	b.ne	.LBB59_84
	mov	w7, #1
	add	x3, x3, #1
	lsl	x6, x7, x6
	cmp	x16, x3
	add	x5, x6, x5
	b.ne	.LBB59_87
	b	.LBB59_83
.LBB59_89:
	cbz	x16, .LBB59_96
	cmp	x16, #4
	b.lo	.LBB59_93
	add	x18, x8, x0
	cmp	x18, x17
	b.hs	.LBB59_122
	add	x18, x12, x5
	add	x18, x18, x16, lsl #1
	cmp	x9, x18
	b.hs	.LBB59_122
.LBB59_93:
	mov	x18, xzr
.LBB59_94:
	add	x5, x5, x18, lsl #1
	add	x2, x2, x3
	add	x0, x9, x18, lsl #2
	sub	x18, x2, x18
	add	x2, x12, x5
.LBB59_95:
	ldr	w3, [x0], #4
	subs	x18, x18, #1
	strh	w3, [x2], #2
	b.ne	.LBB59_95
.LBB59_96:
	ldr	w0, [x9]
	b	.LBB59_116
.LBB59_97:
	cmp	x2, #16, lsl #12
	b.eq	.LBB59_112
	eor	x19, x20, #0xffff
	cmp	x19, #4
	b.lo	.LBB59_102
.LBB59_99:
	dup	v0.2d, x2
	cmp	x19, #16
	b.hs	.LBB59_103
	mov	x6, xzr
	b	.LBB59_107
.LBB59_101:
	mov	w19, #65536
	cmp	x19, #4
	b.hs	.LBB59_99
.LBB59_102:
	mov	x6, xzr
	b	.LBB59_110
.LBB59_103:
	mov	w20, #8
	ldr	q2, [x6, :lo12:.LCPI59_0]
	ldr	q3, [x7, :lo12:.LCPI59_1]
	dup	v1.2d, x20
	ldr	q4, [x5, :lo12:.LCPI59_2]
	ldr	q5, [x3, :lo12:.LCPI59_3]
	and	x20, x19, #0xc
	and	x6, x19, #0x1fff0
	add	x7, x13, x0
	and	x21, x19, #0x1fff0
	add	v1.2d, v0.2d, v1.2d
.LBB59_104:
	add	v6.2d, v3.2d, v0.2d
	add	v7.2d, v2.2d, v0.2d
	mov	w22, #16
	add	v16.2d, v5.2d, v0.2d
	add	v17.2d, v4.2d, v0.2d
	subs	x21, x21, #16
	add	v18.2d, v3.2d, v1.2d
	add	v19.2d, v2.2d, v1.2d
	add	v20.2d, v5.2d, v1.2d
	add	v21.2d, v4.2d, v1.2d
	uzp1	v6.4s, v6.4s, v7.4s
	uzp1	v16.4s, v16.4s, v17.4s
	uzp1	v17.4s, v18.4s, v19.4s
	dup	v18.2d, x22
	uzp1	v7.4s, v20.4s, v21.4s
	uzp1	v6.8h, v16.8h, v6.8h
	add	v3.2d, v3.2d, v18.2d
	add	v4.2d, v4.2d, v18.2d
	add	v5.2d, v5.2d, v18.2d
	add	v2.2d, v2.2d, v18.2d
	uzp1	v7.8h, v7.8h, v17.8h
	stp	q6, q7, [x7, #-16]
	add	x7, x7, #32
	b.ne	.LBB59_104
	cmp	x19, x6
	b.eq	.LBB59_112
	cbz	x20, .LBB59_110
.LBB59_107:
	dup	v2.2d, x6
	ldr	q1, [x5, :lo12:.LCPI59_2]
	ldr	q3, [x3, :lo12:.LCPI59_3]
	add	x5, x0, x6, lsl #1
	mov	x7, x6
	and	x6, x19, #0x1fffc
	sub	x3, x7, x6
	orr	v1.16b, v2.16b, v1.16b
	orr	v2.16b, v2.16b, v3.16b
	add	x5, x11, x5
.LBB59_108:
	add	v3.2d, v2.2d, v0.2d
	add	v4.2d, v1.2d, v0.2d
	mov	w7, #4
	adds	x3, x3, #4
	uzp1	v3.4s, v3.4s, v4.4s
	dup	v4.2d, x7
	add	v1.2d, v1.2d, v4.2d
	add	v2.2d, v2.2d, v4.2d
	xtn	v3.4h, v3.4s
	str	d3, [x5], #8
	b.ne	.LBB59_108
	cmp	x19, x6
	b.eq	.LBB59_112
.LBB59_110:
	add	x3, x0, x6, lsl #1
	sub	x0, x19, x6
	add	x2, x6, x2
	add	x3, x11, x3
.LBB59_111:
	subs	x0, x0, #1
	strh	w2, [x3], #2
	add	x2, x2, #1
	b.ne	.LBB59_111
.LBB59_112:
	ldr	w0, [x9]
	cmp	w18, #2
	b.eq	.LBB59_121
	cmp	w18, #1
	b.ne	.LBB59_116
	mov	w9, #65536
	sub	x18, x9, x16
	lsl	x9, x18, #1
	cmp	w0, #2048, lsl #12
	b.hs	.LBB59_117
.LBB59_115:
	mov	w0, #1
	b	.LBB59_119
.LBB59_116:
	lsl	x9, x16, #1
	mov	x18, x16
	cmp	w0, #2048, lsl #12
	b.lo	.LBB59_115
.LBB59_117:
	lsr	w2, w0, #16
	mov	w0, #1
.LBB59_118:
	lsr	x3, x2, #14
	lsr	x2, x2, #7
	add	x0, x0, #1
	cbnz	x3, .LBB59_118
.LBB59_119:
	mov	w2, #1
	cmp	x18, #128
	b.lo	.LBB59_46
.LBB59_120:
	lsr	x3, x18, #14
	lsr	x18, x18, #7
	add	x2, x2, #1
	cbnz	x3, .LBB59_120
	b	.LBB59_46
.LBB59_121:
	mov	x18, xzr
	mov	w9, #8192
	cmp	w0, #2048, lsl #12
	b.hs	.LBB59_117
	b	.LBB59_115
.LBB59_122:
	cmp	x16, #16
	b.hs	.LBB59_124
	mov	x18, xzr
	b	.LBB59_128
.LBB59_124:
	and	x0, x16, #0xc
	and	x18, x16, #0xfffffffffffffff0
	add	x6, x15, x5
	add	x7, x9, #32
	and	x19, x16, #0xfffffffffffffff0
.LBB59_125:
	ldp	q1, q0, [x7, #-32]
	subs	x19, x19, #16
	ldp	q3, q2, [x7], #64
	uzp1	v0.8h, v1.8h, v0.8h
	uzp1	v1.8h, v3.8h, v2.8h
	stp	q0, q1, [x6, #-16]
	add	x6, x6, #32
	b.ne	.LBB59_125
	cmp	x16, x18
	b.eq	.LBB59_96
	cbz	x0, .LBB59_94
.LBB59_128:
	mov	x6, x18
	and	x18, x16, #0xfffffffffffffffc
	add	x7, x5, x6, lsl #1
	add	x0, x9, x6, lsl #2
	sub	x6, x6, x18
	add	x7, x12, x7
.LBB59_129:
	ldr	q0, [x0], #16
	adds	x6, x6, #4
	xtn	v0.4h, v0.4s
	str	d0, [x7], #8
	b.ne	.LBB59_129
	cmp	x16, x18
	b.eq	.LBB59_96
	b	.LBB59_94
.LBB59_131:
	mov	w8, #4
	b	.LBB59_135
.LBB59_132:
	mov	w8, #3
	b	.LBB59_135
.LBB59_133:
	mov	w10, #1
.LBB59_134:
	mov	w8, #6
.LBB59_135:
	stp	x8, x10, [x4]
	ldp	x20, x19, [sp, #48]
	ldp	x22, x21, [sp, #32]
	ldp	x24, x23, [sp, #16]
	ldp	x26, x25, [sp], #64
	ret
.LBB59_136:
	orr	x13, x12, #0x1
	b	.LBB59_16
.Lfunc_end59:
	.size	signalfern_set_write_to, .Lfunc_end59-signalfern_set_write_to

	.section	.text.signalfern_write_planned_to,"ax",@progbits
	.globl	signalfern_write_planned_to
	.p2align	2
	.type	signalfern_write_planned_to,@function
signalfern_write_planned_to:
	sub	sp, sp, #80
	cmp	x0, #0
	mov	w12, #4096
	stp	x29, x30, [sp, #48]
	csel	x13, x12, xzr, eq
	cmp	x2, #0
	add	x29, sp, #48
	csel	x10, x12, xzr, eq
	cmp	x4, #0
	str	x19, [sp, #64]
	csel	x11, x12, xzr, eq
	cmp	x7, #0
	ldr	x19, [x29, #40]
	mov	x9, xzr
	mov	x14, xzr
	csel	x12, x12, xzr, eq
	cmp	x1, x3
	stp	xzr, xzr, [sp, #24]
	str	xzr, [sp, #40]
	b.ne	.LBB60_32
	mov	w8, w6
	mov	x6, x5
	cbz	w8, .LBB60_4
	sub	w9, w8, #7
	cmp	w9, #8
	b.ls	.LBB60_4
	mov	x14, xzr
	mov	w9, #1
	b	.LBB60_32
.LBB60_4:
	cmp	x1, #2
	add	x9, x0, x13
	b.lo	.LBB60_7
	cmp	x1, #5
	b.hs	.LBB60_8
	mov	w17, wzr
	mov	w16, #1
	b	.LBB60_17
.LBB60_7:
	cbnz	x1, .LBB60_23
	b	.LBB60_27
.LBB60_8:
	cmp	x1, #33
	sub	x14, x1, #1
	b.hs	.LBB60_10
	mov	x15, xzr
	mov	w17, wzr
	b	.LBB60_14
.LBB60_10:
	movi	v0.2d, #0000000000000000
	movi	v1.2d, #0000000000000000
	add	x17, x13, x0
	and	x16, x14, #0x1c
	and	x15, x14, #0xffffffffffffffe0
	add	x17, x17, #64
	and	x18, x14, #0xffffffffffffffe0
.LBB60_11:
	ldp	q4, q5, [x17, #-32]
	subs	x18, x18, #32
	ldur	q2, [x17, #-28]
	ldur	q3, [x17, #-12]
	ldur	q6, [x17, #-60]
	ldur	q7, [x17, #-44]
	ldur	q16, [x17, #36]
	ldur	q17, [x17, #52]
	cmhs	v3.4s, v5.4s, v3.4s
	cmhs	v2.4s, v4.4s, v2.4s
	ldur	q4, [x17, #4]
	ldur	q5, [x17, #20]
	ldp	q18, q19, [x17, #-64]
	ldp	q23, q20, [x17, #32]
	uzp1	v2.8h, v2.8h, v3.8h
	ldp	q21, q22, [x17], #128
	cmhs	v7.4s, v19.4s, v7.4s
	cmhs	v6.4s, v18.4s, v6.4s
	cmhs	v17.4s, v20.4s, v17.4s
	cmhs	v16.4s, v23.4s, v16.4s
	cmhs	v5.4s, v22.4s, v5.4s
	cmhs	v4.4s, v21.4s, v4.4s
	uzp1	v3.8h, v6.8h, v7.8h
	uzp1	v6.8h, v16.8h, v17.8h
	uzp1	v4.8h, v4.8h, v5.8h
	uzp1	v2.16b, v3.16b, v2.16b
	uzp1	v3.16b, v4.16b, v6.16b
	orr	v0.16b, v0.16b, v2.16b
	orr	v1.16b, v1.16b, v3.16b
	b.ne	.LBB60_11
	orr	v0.16b, v1.16b, v0.16b
	cmp	x14, x15
	shl	v0.16b, v0.16b, #7
	cmlt	v0.16b, v0.16b, #0
	umaxv	b0, v0.16b
	fmov	w17, s0
	and	w17, w17, #0x1
	b.eq	.LBB60_19
	cbz	x16, .LBB60_49
.LBB60_14:
	movi	v0.2d, #0000000000000000
	add	x16, x13, x15, lsl #2
	add	x18, x16, x0
	add	x18, x18, #4
	mov	v0.h[0], w17
	and	x17, x14, #0xfffffffffffffffc
	orr	x16, x17, #0x1
	sub	x15, x15, x17
.LBB60_15:
	ldr	q1, [x18]
	ldur	q2, [x18, #-4]
	adds	x15, x15, #4
	add	x18, x18, #16
	cmhs	v1.4s, v2.4s, v1.4s
	xtn	v1.4h, v1.4s
	orr	v0.8b, v0.8b, v1.8b
	b.ne	.LBB60_15
	shl	v0.4h, v0.4h, #15
	cmp	x14, x17
	cmlt	v0.4h, v0.4h, #0
	umaxv	h0, v0.4h
	fmov	w15, s0
	and	w17, w15, #0x1
	b.eq	.LBB60_19
.LBB60_17:
	add	x15, x13, x16, lsl #2
	sub	x14, x1, x16
	add	x15, x0, x15
.LBB60_18:
	ldp	w18, w16, [x15, #-4]
	add	x15, x15, #4
	cmp	w16, w18
	cset	w16, ls
	subs	x14, x14, #1
	orr	w17, w17, w16
	b.ne	.LBB60_18
.LBB60_19:
	tbz	w17, #0, .LBB60_23
	add	x13, x13, x0
	mov	w14, #1
	add	x13, x13, #4
.LBB60_21:
	ldp	w16, w15, [x13, #-4]
	cmp	w15, w16
	b.ls	.LBB60_31
	add	x14, x14, #1
	add	x13, x13, #4
	cmp	x1, x14
	b.ne	.LBB60_21
.LBB60_23:
	add	x13, x9, x1, lsl #2
	mov	w14, #2147352576
	ldur	w13, [x13, #-4]
	cmp	w13, w14
	b.lo	.LBB60_27
	mov	x14, xzr
.LBB60_25:
	ldr	w13, [x9, x14, lsl #2]
	mov	w15, #2147352575
	cmp	w13, w15
	b.hi	.LBB60_30
	add	x14, x14, #1
	cmp	x1, x14
	b.ne	.LBB60_25
.LBB60_27:
	ldr	x13, [x29, #32]
	add	x3, x2, x10
	mov	x2, x1
	add	x12, x7, x12
	add	x0, sp, #24
	add	x5, x4, x11
	mov	x1, x9
	mov	x4, x2
	mov	w7, w8
	stp	x12, x13, [sp]
	bl	"writer::write_checked"
	ldrb	w8, [sp, #24]
	ldr	x9, [sp, #32]
	cbz	w8, .LBB60_29
	ldr	x14, [sp, #40]
	b	.LBB60_32
.LBB60_29:
	stp	xzr, x9, [x19]
	ldp	x29, x30, [sp, #48]
	ldr	x19, [sp, #64]
	add	sp, sp, #80
	ret
.LBB60_30:
	mov	w9, #3
	b	.LBB60_32
.LBB60_31:
	mov	w9, #2
.LBB60_32:
	and	x8, x9, #0xff
	adrp	x10, .LJTI60_0
	add	x10, x10, :lo12:.LJTI60_0
	adr	x11, .LBB60_33
	ldrb	w12, [x10, x8]
	add	x11, x11, x12, lsl #2
	mov	w9, #1
	br	x11
.LBB60_33:
	mov	x8, xzr
	mov	w9, #2
.LBB60_34:
	stp	x9, x8, [x19]
	ldp	x29, x30, [sp, #48]
	ldr	x19, [sp, #64]
	add	sp, sp, #80
	ret
.LBB60_35:
	mov	w9, #16
	stp	x9, xzr, [x19]
	ldp	x29, x30, [sp, #48]
	ldr	x19, [sp, #64]
	add	sp, sp, #80
	ret
.LBB60_36:
	mov	w9, #13
	stp	x9, xzr, [x19]
	ldp	x29, x30, [sp, #48]
	ldr	x19, [sp, #64]
	add	sp, sp, #80
	ret
.LBB60_37:
	mov	w9, #6
	stp	x9, x14, [x19]
	ldp	x29, x30, [sp, #48]
	ldr	x19, [sp, #64]
	add	sp, sp, #80
	ret
.LBB60_38:
	mov	w9, #14
	stp	x9, xzr, [x19]
	ldp	x29, x30, [sp, #48]
	ldr	x19, [sp, #64]
	add	sp, sp, #80
	ret
.LBB60_39:
	mov	w9, #11
	stp	x9, xzr, [x19]
	ldp	x29, x30, [sp, #48]
	ldr	x19, [sp, #64]
	add	sp, sp, #80
	ret
.LBB60_40:
	mov	w9, #3
	stp	x9, x14, [x19]
	ldp	x29, x30, [sp, #48]
	ldr	x19, [sp, #64]
	add	sp, sp, #80
	ret
.LBB60_41:
	mov	w9, #17
	stp	x9, xzr, [x19]
	ldp	x29, x30, [sp, #48]
	ldr	x19, [sp, #64]
	add	sp, sp, #80
	ret
.LBB60_42:
	mov	w9, #4
	stp	x9, x14, [x19]
	ldp	x29, x30, [sp, #48]
	ldr	x19, [sp, #64]
	add	sp, sp, #80
	ret
.LBB60_43:
	mov	w9, #9
	stp	x9, xzr, [x19]
	ldp	x29, x30, [sp, #48]
	ldr	x19, [sp, #64]
	add	sp, sp, #80
	ret
.LBB60_44:
	mov	w9, #7
	stp	x9, x14, [x19]
	ldp	x29, x30, [sp, #48]
	ldr	x19, [sp, #64]
	add	sp, sp, #80
	ret
.LBB60_45:
	mov	w9, #15
	stp	x9, xzr, [x19]
	ldp	x29, x30, [sp, #48]
	ldr	x19, [sp, #64]
	add	sp, sp, #80
	ret
.LBB60_46:
	mov	w9, #8
	stp	x9, x14, [x19]
	ldp	x29, x30, [sp, #48]
	ldr	x19, [sp, #64]
	add	sp, sp, #80
	ret
.LBB60_47:
	mov	w9, #12
	stp	x9, x14, [x19]
	ldp	x29, x30, [sp, #48]
	ldr	x19, [sp, #64]
	add	sp, sp, #80
	ret
.LBB60_48:
	mov	w9, #10
	stp	x9, xzr, [x19]
	ldp	x29, x30, [sp, #48]
	ldr	x19, [sp, #64]
	add	sp, sp, #80
	ret
.LBB60_49:
	orr	x16, x15, #0x1
	b	.LBB60_17
.Lfunc_end60:
	.size	signalfern_write_planned_to, .Lfunc_end60-signalfern_write_planned_to
	.section	.rodata.signalfern_write_planned_to,"a",@progbits
.LJTI60_0:
	.byte	(.LBB60_34-.LBB60_33)>>2
	.byte	(.LBB60_33-.LBB60_33)>>2
	.byte	(.LBB60_40-.LBB60_33)>>2
	.byte	(.LBB60_42-.LBB60_33)>>2
	.byte	(.LBB60_37-.LBB60_33)>>2
	.byte	(.LBB60_44-.LBB60_33)>>2
	.byte	(.LBB60_46-.LBB60_33)>>2
	.byte	(.LBB60_43-.LBB60_33)>>2
	.byte	(.LBB60_48-.LBB60_33)>>2
	.byte	(.LBB60_39-.LBB60_33)>>2
	.byte	(.LBB60_47-.LBB60_33)>>2
	.byte	(.LBB60_36-.LBB60_33)>>2
	.byte	(.LBB60_38-.LBB60_33)>>2
	.byte	(.LBB60_45-.LBB60_33)>>2
	.byte	(.LBB60_35-.LBB60_33)>>2
	.byte	(.LBB60_41-.LBB60_33)>>2

	.section	.text.signalfern_write_to,"ax",@progbits
	.globl	signalfern_write_to
	.p2align	2
	.type	signalfern_write_to,@function
signalfern_write_to:
	stp	x29, x30, [sp, #-96]!
	str	x28, [sp, #16]
	mov	x29, sp
	stp	x26, x25, [sp, #32]
	stp	x24, x23, [sp, #48]
	stp	x22, x21, [sp, #64]
	stp	x20, x19, [sp, #80]
	sub	sp, sp, #2128
	cmp	x0, #0
	mov	w8, #4096
	ldr	x22, [x29, #96]
	csel	x10, x8, xzr, eq
	cmp	x2, #0
	str	xzr, [sp]
	csel	x23, x8, xzr, eq
	cmp	x6, #0
	csel	x9, x8, xzr, eq
	cmp	x1, x3
	b.ne	.LBB61_5
	sub	w8, w4, #1
	cmp	w8, #3
	b.hi	.LBB61_37
	stp	xzr, xzr, [sp, #32]
	str	xzr, [sp, #48]
	cbz	w5, .LBB61_6
	sub	w11, w5, #7
	cmp	w11, #8
	b.ls	.LBB61_6
	mov	x10, xzr
	mov	w8, #1
	b	.LBB61_35
.LBB61_5:
	mov	x8, xzr
	mov	w9, #1
	b	.LBB61_51
.LBB61_6:
	cmp	x1, #2
	add	x19, x0, x10
	b.lo	.LBB61_9
	cmp	x1, #5
	b.hs	.LBB61_10
	mov	w14, wzr
	mov	w13, #1
	b	.LBB61_19
.LBB61_9:
	cbnz	x1, .LBB61_25
	b	.LBB61_29
.LBB61_10:
	cmp	x1, #33
	sub	x11, x1, #1
	b.hs	.LBB61_12
	mov	x12, xzr
	mov	w14, wzr
	b	.LBB61_16
.LBB61_12:
	movi	v0.2d, #0000000000000000
	movi	v1.2d, #0000000000000000
	add	x14, x10, x0
	and	x13, x11, #0x1c
	and	x12, x11, #0xffffffffffffffe0
	add	x14, x14, #64
	and	x15, x11, #0xffffffffffffffe0
.LBB61_13:
	ldp	q4, q5, [x14, #-32]
	subs	x15, x15, #32
	ldur	q2, [x14, #-28]
	ldur	q3, [x14, #-12]
	ldur	q6, [x14, #-60]
	ldur	q7, [x14, #-44]
	ldur	q16, [x14, #36]
	ldur	q17, [x14, #52]
	cmhs	v3.4s, v5.4s, v3.4s
	cmhs	v2.4s, v4.4s, v2.4s
	ldur	q4, [x14, #4]
	ldur	q5, [x14, #20]
	ldp	q18, q19, [x14, #-64]
	ldp	q23, q20, [x14, #32]
	uzp1	v2.8h, v2.8h, v3.8h
	ldp	q21, q22, [x14], #128
	cmhs	v7.4s, v19.4s, v7.4s
	cmhs	v6.4s, v18.4s, v6.4s
	cmhs	v17.4s, v20.4s, v17.4s
	cmhs	v16.4s, v23.4s, v16.4s
	cmhs	v5.4s, v22.4s, v5.4s
	cmhs	v4.4s, v21.4s, v4.4s
	uzp1	v3.8h, v6.8h, v7.8h
	uzp1	v6.8h, v16.8h, v17.8h
	uzp1	v4.8h, v4.8h, v5.8h
	uzp1	v2.16b, v3.16b, v2.16b
	uzp1	v3.16b, v4.16b, v6.16b
	orr	v0.16b, v0.16b, v2.16b
	orr	v1.16b, v1.16b, v3.16b
	b.ne	.LBB61_13
	orr	v0.16b, v1.16b, v0.16b
	cmp	x11, x12
	shl	v0.16b, v0.16b, #7
	cmlt	v0.16b, v0.16b, #0
	umaxv	b0, v0.16b
	fmov	w14, s0
	and	w14, w14, #0x1
	b.eq	.LBB61_21
	cbz	x13, .LBB61_54
.LBB61_16:
	movi	v0.2d, #0000000000000000
	add	x13, x10, x12, lsl #2
	add	x15, x13, x0
	add	x15, x15, #4
	mov	v0.h[0], w14
	and	x14, x11, #0xfffffffffffffffc
	orr	x13, x14, #0x1
	sub	x12, x12, x14
.LBB61_17:
	ldr	q1, [x15]
	ldur	q2, [x15, #-4]
	adds	x12, x12, #4
	add	x15, x15, #16
	cmhs	v1.4s, v2.4s, v1.4s
	xtn	v1.4h, v1.4s
	orr	v0.8b, v0.8b, v1.8b
	b.ne	.LBB61_17
	shl	v0.4h, v0.4h, #15
	cmp	x11, x14
	cmlt	v0.4h, v0.4h, #0
	umaxv	h0, v0.4h
	fmov	w12, s0
	and	w14, w12, #0x1
	b.eq	.LBB61_21
.LBB61_19:
	add	x12, x10, x13, lsl #2
	sub	x11, x1, x13
	add	x12, x0, x12
.LBB61_20:
	ldp	w15, w13, [x12, #-4]
	add	x12, x12, #4
	cmp	w13, w15
	cset	w13, ls
	subs	x11, x11, #1
	orr	w14, w14, w13
	b.ne	.LBB61_20
.LBB61_21:
	tbz	w14, #0, .LBB61_25
	add	x10, x10, x0
	add	x11, x10, #4
	mov	w10, #1
.LBB61_23:
	ldp	w13, w12, [x11, #-4]
	cmp	w12, w13
	b.ls	.LBB61_34
	add	x10, x10, #1
	add	x11, x11, #4
	cmp	x1, x10
	b.ne	.LBB61_23
.LBB61_25:
	add	x10, x19, x1, lsl #2
	mov	w11, #2147352576
	ldur	w10, [x10, #-4]
	cmp	w10, w11
	b.lo	.LBB61_29
	mov	x10, xzr
.LBB61_27:
	ldr	w11, [x19, x10, lsl #2]
	mov	w12, #2147352575
	cmp	w11, w12
	b.hi	.LBB61_33
	add	x10, x10, #1
	cmp	x1, x10
	b.ne	.LBB61_27
.LBB61_29:
	mov	x21, x1
	mov	w20, w5
	cmp	w8, #3
	add	x24, x6, x9
	b.ne	.LBB61_31
	add	x0, sp, #56
	mov	w1, wzr
	mov	x25, x2
	mov	w2, #2048
	stp	xzr, xzr, [x29, #-16]
	mov	x26, x7
	stur	xzr, [x29, #-24]
	bl	memset
	add	x0, sp, #56
	add	x1, x25, x23
	mov	x2, x21
	bl	"plans::plan"
	mov	x6, x0
	sub	x0, x29, #24
	add	x3, x25, x23
	add	x5, sp, #56
	mov	x1, x19
	mov	x2, x21
	mov	x4, x21
	mov	w7, w20
	stp	x24, x26, [sp]
	bl	"writer::write_checked"
	ldp	x8, x10, [x29, #-16]
	ldurb	w9, [x29, #-24]
	cbnz	w9, .LBB61_35
	b	.LBB61_32
.LBB61_31:
	mov	x6, xzr
	add	x0, sp, #32
	add	x3, x2, x23
	stp	x24, x7, [sp, #8]
	add	x5, x2, x23
	mov	x1, x19
	mov	x2, x21
	mov	x4, x21
	mov	w7, w8
	str	w20, [sp]
	bl	"writer::write_by"
	ldp	x8, x10, [sp, #40]
	ldrb	w9, [sp, #32]
	cbnz	w9, .LBB61_35
.LBB61_32:
	str	xzr, [x22]
	b	.LBB61_52
.LBB61_33:
	mov	w8, #3
	b	.LBB61_35
.LBB61_34:
	mov	w8, #2
.LBB61_35:
	and	x8, x8, #0xff
	adrp	x11, .LJTI61_0
	add	x11, x11, :lo12:.LJTI61_0
	adr	x12, .LBB61_36
	ldrb	w13, [x11, x8]
	add	x12, x12, x13, lsl #2
	mov	w9, #1
	br	x12
.LBB61_36:
	mov	x8, xzr
	mov	w9, #2
	b	.LBB61_51
.LBB61_37:
	mov	x8, xzr
	mov	w9, #9
	b	.LBB61_51
.LBB61_38:
	mov	x8, xzr
	mov	w9, #16
	b	.LBB61_51
.LBB61_39:
	mov	x8, xzr
	mov	w9, #13
	b	.LBB61_51
.LBB61_40:
	mov	w9, #6
	b	.LBB61_50
.LBB61_41:
	mov	x8, xzr
	mov	w9, #14
	b	.LBB61_51
.LBB61_42:
	mov	x8, xzr
	mov	w9, #11
	b	.LBB61_51
.LBB61_43:
	mov	w9, #3
	b	.LBB61_50
.LBB61_44:
	mov	x8, xzr
	mov	w9, #17
	b	.LBB61_51
.LBB61_45:
	mov	w9, #4
	b	.LBB61_50
.LBB61_46:
	mov	w9, #7
	b	.LBB61_50
.LBB61_47:
	mov	x8, xzr
	mov	w9, #15
	b	.LBB61_51
.LBB61_48:
	mov	w9, #8
	b	.LBB61_50
.LBB61_49:
	mov	w9, #12
.LBB61_50:
	mov	x8, x10
.LBB61_51:
	str	x9, [x22]
.LBB61_52:
	str	x8, [x22, #8]
	add	sp, sp, #2128
	ldp	x20, x19, [sp, #80]
	ldr	x28, [sp, #16]
	ldp	x22, x21, [sp, #64]
	ldp	x24, x23, [sp, #48]
	ldp	x26, x25, [sp, #32]
	ldp	x29, x30, [sp], #96
	ret
.LBB61_53:
	mov	x8, xzr
	mov	w9, #10
	b	.LBB61_51
.LBB61_54:
	orr	x13, x12, #0x1
	b	.LBB61_19
.Lfunc_end61:
	.size	signalfern_write_to, .Lfunc_end61-signalfern_write_to
	.section	.rodata.signalfern_write_to,"a",@progbits
.LJTI61_0:
	.byte	(.LBB61_51-.LBB61_36)>>2
	.byte	(.LBB61_36-.LBB61_36)>>2
	.byte	(.LBB61_43-.LBB61_36)>>2
	.byte	(.LBB61_45-.LBB61_36)>>2
	.byte	(.LBB61_40-.LBB61_36)>>2
	.byte	(.LBB61_46-.LBB61_36)>>2
	.byte	(.LBB61_48-.LBB61_36)>>2
	.byte	(.LBB61_37-.LBB61_36)>>2
	.byte	(.LBB61_53-.LBB61_36)>>2
	.byte	(.LBB61_42-.LBB61_36)>>2
	.byte	(.LBB61_49-.LBB61_36)>>2
	.byte	(.LBB61_39-.LBB61_36)>>2
	.byte	(.LBB61_41-.LBB61_36)>>2
	.byte	(.LBB61_47-.LBB61_36)>>2
	.byte	(.LBB61_38-.LBB61_36)>>2
	.byte	(.LBB61_44-.LBB61_36)>>2

	.type	".Lswitch.table.page::fill_by",@object
	.section	.rodata.cst16,"aM",@progbits,16
	.p2align	2, 0x0
".Lswitch.table.page::fill_by":
	.ascii	"\001\002\003\004\006\007\b\t\n\013\f\r\016\017\020\021"
	.size	".Lswitch.table.page::fill_by", 16

	.ident	"rattle logic=dac8208d650f15bf3e2dc313a14fa4c783a3acf887bdfab66e1714b038d9e11b"
	.section	".note.GNU-stack","",@progbits
