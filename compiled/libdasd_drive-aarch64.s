	.file	"rattle"
	.section	.rodata.cst16,"aM",@progbits,16
	.p2align	4, 0x0
.LCPIb5d67b4_0:
	.byte	1
	.byte	2
	.byte	4
	.byte	8
	.byte	16
	.byte	32
	.byte	64
	.byte	128
	.byte	1
	.byte	2
	.byte	4
	.byte	8
	.byte	16
	.byte	32
	.byte	64
	.byte	128
	.section	".text.core::cmp::slices::groups_equal::<i8,31'core::cmp::numbers::U8PartialEq{}>","ax",@progbits
	.p2align	2
	.type	core_cmp_slices_groups_equal_i8_31_core_cmp_numbers_U8PartialEq_.3f1b21c,@function
core_cmp_slices_groups_equal_i8_31_core_cmp_numbers_U8PartialEq_.3f1b21c:
	subs	x9, x1, #8
	b.hi	.LBBb5d67b4_2
	sub	x8, x1, #4
	ldr	s0, [x0]
	ldr	s1, [x2]
	add	x9, x0, x8
	add	x8, x2, x8
	ld1	{ v0.s }[1], [x9]
	ld1	{ v1.s }[1], [x8]
	fmov	x8, d0
	fmov	x9, d1
	cmp	x8, x9
	cset	w8, ne
	eor	w0, w8, #0x1
	ret
.LBBb5d67b4_2:
	subs	x8, x1, #32
	b.hi	.LBBb5d67b4_4
	cmp	x9, #8
	mov	w8, #8
	mov	w10, #16
	csel	x8, x9, x8, lo
	cmp	x9, #16
	ldr	d0, [x0]
	ldr	d1, [x2]
	ldr	d2, [x0, x8]
	ldr	d3, [x2, x8]
	csel	x8, x9, x10, lo
	ldr	d5, [x2, x9]
	ldr	d4, [x0, x8]
	mov	v0.d[1], v2.d[0]
	mov	v1.d[1], v3.d[0]
	ldr	d2, [x2, x8]
	ldr	d3, [x0, x9]
	mov	v4.d[1], v3.d[0]
	mov	v2.d[1], v5.d[0]
	cmeq	v0.16b, v0.16b, v1.16b
	cmeq	v1.16b, v4.16b, v2.16b
	b	.LBBb5d67b4_17
.LBBb5d67b4_4:
	cmp	x1, #65
	b.hs	.LBBb5d67b4_6
	ldp	q1, q0, [x0]
	add	x9, x2, x8
	ldp	q3, q2, [x2]
	add	x8, x0, x8
	ldp	q4, q5, [x9]
	cmeq	v1.16b, v1.16b, v3.16b
	cmeq	v0.16b, v0.16b, v2.16b
	ldp	q2, q3, [x8]
	mvn	v1.16b, v1.16b
	mvn	v0.16b, v0.16b
	cmeq	v2.16b, v2.16b, v4.16b
	cmeq	v3.16b, v3.16b, v5.16b
	orn	v0.16b, v0.16b, v3.16b
	orn	v1.16b, v1.16b, v2.16b
	orr	v0.16b, v1.16b, v0.16b
	umaxv	b0, v0.16b
	fmov	w8, s0
	and	w8, w8, #0x1
	eor	w0, w8, #0x1
	ret
.LBBb5d67b4_6:
	and	x9, x1, #0xffffffffffffffc0
	add	x10, x0, #32
	add	x12, x2, #32
	mov	w11, #32
	mov	x13, x1
.LBBb5d67b4_7:
	ldp	q0, q3, [x12, #-32]
	ldp	q1, q2, [x10, #-32]
	ldp	q4, q5, [x12], #64
	cmeq	v0.16b, v1.16b, v0.16b
	cmeq	v1.16b, v2.16b, v3.16b
	ldp	q2, q3, [x10], #64
	mvn	v0.16b, v0.16b
	mvn	v1.16b, v1.16b
	cmeq	v2.16b, v2.16b, v4.16b
	cmeq	v3.16b, v3.16b, v5.16b
	orn	v0.16b, v0.16b, v2.16b
	orn	v1.16b, v1.16b, v3.16b
	orr	v0.16b, v1.16b, v0.16b
	umaxv	b0, v0.16b
	fmov	w14, s0
	tbnz	w14, #0, .LBBb5d67b4_10
	sub	x13, x13, #64
	add	x11, x11, #64
	cmp	x13, #63
	b.hi	.LBBb5d67b4_7
	sub	x10, x1, x9
	cmp	x10, #32
	b.hs	.LBBb5d67b4_11
	b	.LBBb5d67b4_16
.LBBb5d67b4_10:
	sub	x9, x11, #32
	sub	x10, x1, x9
	cmp	x10, #32
	b.lo	.LBBb5d67b4_16
.LBBb5d67b4_11:
	add	x11, x0, x9
	add	x9, x2, x9
.LBBb5d67b4_12:
	ldp	q0, q1, [x11], #32
	ldp	q2, q3, [x9], #32
	adrp	x12, .LCPIb5d67b4_0
	cmeq	v1.16b, v1.16b, v3.16b
	cmeq	v0.16b, v0.16b, v2.16b
	ldr	q2, [x12, :lo12:.LCPIb5d67b4_0]
	bic	v1.16b, v2.16b, v1.16b
	bic	v0.16b, v2.16b, v0.16b
	ext	v2.16b, v1.16b, v1.16b, #8
	ext	v3.16b, v0.16b, v0.16b, #8
	zip1	v1.16b, v1.16b, v2.16b
	zip1	v0.16b, v0.16b, v3.16b
	addv	h1, v1.8h
	addv	h0, v0.8h
	fmov	w12, s1
	fmov	w13, s0
	orr	w12, w13, w12
	tst	w12, #0xffff
	b.ne	.LBBb5d67b4_14
	sub	x10, x10, #32
	cmp	x10, #31
	b.hi	.LBBb5d67b4_12
	b	.LBBb5d67b4_16
.LBBb5d67b4_14:
	cmp	x10, #31
	b.ls	.LBBb5d67b4_16
	mov	w8, #1
	eor	w0, w8, #0x1
	ret
.LBBb5d67b4_16:
	add	x9, x0, x8
	add	x8, x2, x8
	ldp	q0, q3, [x8]
	ldp	q1, q2, [x9]
	cmeq	v0.16b, v1.16b, v0.16b
	cmeq	v1.16b, v2.16b, v3.16b
.LBBb5d67b4_17:
	mvn	v0.16b, v0.16b
	orn	v0.16b, v0.16b, v1.16b
	umaxv	b0, v0.16b
	fmov	w8, s0
	and	w8, w8, #0x1
	eor	w0, w8, #0x1
	ret
.Lfunc_endb5d67b4:
	.size	core_cmp_slices_groups_equal_i8_31_core_cmp_numbers_U8PartialEq_.3f1b21c, .Lfunc_endb5d67b4-core_cmp_slices_groups_equal_i8_31_core_cmp_numbers_U8PartialEq_.3f1b21c

	.section	.rodata.cst8,"aM",@progbits,8
	.p2align	3, 0x0
.LCPI42bf483_0:
	.word	1
	.word	7294
	.section	".text.lone_drive_c::drive::over","ax",@progbits
	.p2align	2
	.type	lone_drive_c_drive_over.837ff07,@function
lone_drive_c_drive_over.837ff07:
	stp	x29, x30, [sp, #-96]!
	stp	x28, x27, [sp, #16]
	stp	x26, x25, [sp, #32]
	stp	x24, x23, [sp, #48]
	stp	x22, x21, [sp, #64]
	stp	x20, x19, [sp, #80]
	sub	sp, sp, #3072
	str	xzr, [sp]
	sub	sp, sp, #544
	ldur	w8, [x1, #1]
	ldr	w9, [x1, #4]
	add	x23, sp, #2000
	add	x14, sp, #1728
	add	x10, x1, #265
	ldr	q0, [x1, #32]
	str	w8, [sp, #2064]
	ldur	w8, [x1, #49]
	add	x11, x1, #296
	stur	w9, [x23, #67]
	ldr	w9, [x1, #52]
	add	x26, sp, #1200
	str	w8, [sp, #2040]
	ldur	w8, [x1, #89]
	add	x28, sp, #928
	stur	w9, [x23, #43]
	ldr	w9, [x1, #92]
	add	x29, sp, #3352
	str	w8, [sp, #2032]
	ldur	w8, [x1, #137]
	mov	x19, x0
	stur	w9, [x23, #35]
	ldr	w9, [x1, #140]
	add	x15, sp, #672
	str	w8, [sp, #2008]
	ldr	w8, [x1, #180]
	ldrb	w3, [x1]
	stur	w9, [x23, #11]
	ldur	w9, [x1, #177]
	add	x20, sp, #2544
	stur	w8, [x23, #3]
	ldr	w8, [x1, #228]
	add	x22, sp, #2272
	str	w9, [sp, #2000]
	ldur	w9, [x1, #225]
	add	x24, sp, #1456
	stur	w8, [x14, #251]
	ldr	w8, [x1, #268]
	add	x21, sp, #2816
	str	w9, [sp, #1976]
	ldr	w9, [x10]
	add	x10, x1, #353
	stur	w8, [x14, #243]
	add	x8, x1, #313
	add	x25, sp, #3072
	str	w9, [sp, #1968]
	ldr	w9, [x1, #316]
	ldr	w8, [x8]
	str	q0, [sp, #2048]
	ldur	q0, [x1, #120]
	stur	w9, [x14, #219]
	ldr	w9, [x1, #356]
	str	w8, [sp, #1944]
	ldr	w8, [x10]
	add	x10, x1, #441
	stur	w9, [x14, #211]
	add	x9, x1, #401
	str	w8, [sp, #1936]
	ldr	w8, [x1, #404]
	ldr	w9, [x9]
	str	q0, [sp, #2016]
	ldr	q0, [x1, #208]
	stur	w8, [x14, #187]
	ldr	w8, [x1, #444]
	str	w9, [sp, #1912]
	ldr	w9, [x10]
	add	x10, x1, #529
	stur	w8, [x14, #179]
	add	x8, x1, #489
	str	w9, [sp, #1904]
	ldr	w9, [x1, #492]
	ldr	w8, [x8]
	str	q0, [sp, #1984]
	ldr	q0, [x11]
	add	x11, x1, #472
	stur	w9, [x14, #155]
	ldr	w9, [x1, #532]
	str	w8, [sp, #1880]
	ldr	w8, [x10]
	add	x10, x1, #617
	stur	w9, [x14, #147]
	add	x9, x1, #577
	str	w8, [sp, #1872]
	ldr	w8, [x1, #580]
	ldr	w9, [x9]
	str	q0, [sp, #1952]
	ldr	q0, [x1, #384]
	stur	w8, [x14, #123]
	ldr	w8, [x1, #620]
	str	w9, [sp, #1848]
	ldr	w9, [x10]
	add	x10, x1, #712
	stur	w8, [x14, #115]
	add	x8, x1, #665
	str	w9, [sp, #1840]
	ldr	w9, [x1, #668]
	ldr	w8, [x8]
	str	q0, [sp, #1920]
	ldr	q0, [x11]
	add	x11, x1, #648
	stur	w9, [x14, #91]
	ldr	w9, [sp, #2064]
	str	w8, [sp, #1816]
	add	x8, sp, #368
	str	q0, [sp, #1888]
	ldr	q0, [x1, #560]
	stur	xzr, [x8, #255]
	ldur	w8, [x23, #67]
	str	q0, [sp, #1856]
	ldr	q0, [x11]
	stur	wzr, [x26, #203]
	ldp	x0, x11, [x1, #8]
	str	wzr, [sp, #1400]
	stur	w8, [x26, #203]
	ldur	w8, [x23, #43]
	str	q0, [sp, #1824]
	ldp	q1, q0, [x10]
	stur	wzr, [x26, #171]
	ldur	w10, [x23, #35]
	str	wzr, [sp, #1368]
	str	w9, [sp, #1400]
	ldr	w9, [sp, #2040]
	stur	w8, [x26, #171]
	ldr	w8, [sp, #2032]
	stur	wzr, [x26, #163]
	str	wzr, [sp, #1360]
	str	w9, [sp, #1368]
	ldur	w9, [x23, #11]
	stur	w10, [x26, #163]
	ldur	w10, [x23, #3]
	str	w8, [sp, #1360]
	ldr	w8, [sp, #2008]
	stur	wzr, [x26, #139]
	str	wzr, [sp, #1336]
	stur	w9, [x26, #139]
	ldr	w9, [sp, #2000]
	str	w8, [sp, #1336]
	ldur	w8, [x14, #251]
	stur	wzr, [x26, #131]
	str	wzr, [sp, #1328]
	stur	wzr, [x26, #107]
	str	wzr, [sp, #1304]
	stur	w10, [x26, #131]
	ldur	w10, [x14, #243]
	str	w9, [sp, #1328]
	ldr	w9, [sp, #1976]
	stur	w8, [x26, #107]
	ldr	w8, [sp, #1968]
	stur	wzr, [x26, #99]
	str	wzr, [sp, #1296]
	str	w9, [sp, #1304]
	ldur	w9, [x14, #219]
	stur	w10, [x26, #99]
	ldur	w10, [x14, #211]
	str	w8, [sp, #1296]
	ldr	w8, [sp, #1944]
	stur	wzr, [x26, #75]
	str	wzr, [sp, #1272]
	stur	w9, [x26, #75]
	ldr	w9, [sp, #1936]
	str	w8, [sp, #1272]
	ldur	w8, [x14, #187]
	stur	wzr, [x26, #67]
	str	wzr, [sp, #1264]
	stur	wzr, [x26, #43]
	str	wzr, [sp, #1240]
	stur	w10, [x26, #67]
	ldur	w10, [x14, #179]
	str	w9, [sp, #1264]
	ldr	w9, [sp, #1912]
	stur	w8, [x26, #43]
	ldr	w8, [sp, #1904]
	stur	wzr, [x26, #35]
	str	wzr, [sp, #1232]
	str	w9, [sp, #1240]
	ldur	w9, [x14, #155]
	stur	w10, [x26, #35]
	ldur	w10, [x14, #147]
	str	w8, [sp, #1232]
	ldr	w8, [sp, #1880]
	stur	wzr, [x26, #11]
	str	wzr, [sp, #1208]
	stur	w9, [x26, #11]
	ldr	w9, [sp, #1872]
	str	w8, [sp, #1208]
	ldur	w8, [x14, #123]
	stur	wzr, [x26, #3]
	str	wzr, [sp, #1200]
	stur	wzr, [x28, #251]
	str	wzr, [sp, #1176]
	stur	w10, [x26, #3]
	ldur	w10, [x14, #115]
	str	w9, [sp, #1200]
	ldr	w9, [sp, #1848]
	stur	w8, [x28, #251]
	ldr	w8, [sp, #1840]
	stur	wzr, [x28, #243]
	str	wzr, [sp, #1168]
	str	w9, [sp, #1176]
	ldur	w9, [x14, #91]
	stur	w10, [x28, #243]
	ldur	w10, [x26, #163]
	str	w8, [sp, #1168]
	ldr	w8, [sp, #1816]
	stur	wzr, [x28, #219]
	str	wzr, [sp, #1144]
	stur	w9, [x28, #219]
	ldr	w9, [sp, #1400]
	str	w8, [sp, #1144]
	ldur	w8, [x26, #203]
	stur	w10, [x29, #219]
	ldur	w10, [x26, #131]
	stur	w8, [x29, #255]
	ldur	w8, [x26, #171]
	str	w9, [sp, #3604]
	ldr	w9, [sp, #1368]
	stur	w8, [x29, #227]
	ldr	w8, [sp, #1360]
	str	w9, [sp, #3576]
	ldur	w9, [x26, #139]
	str	w8, [sp, #3568]
	ldr	w8, [sp, #1336]
	stur	w9, [x29, #195]
	ldr	w9, [sp, #1328]
	str	w8, [sp, #3544]
	ldur	w8, [x26, #107]
	stur	w10, [x29, #187]
	ldur	w10, [x26, #99]
	str	w9, [sp, #3536]
	ldr	w9, [sp, #1304]
	stur	w8, [x29, #163]
	ldr	w8, [sp, #1296]
	str	w9, [sp, #3512]
	ldur	w9, [x26, #75]
	stur	w10, [x29, #155]
	ldur	w10, [x26, #67]
	str	w8, [sp, #3504]
	ldr	w8, [sp, #1272]
	stur	w9, [x29, #131]
	ldr	w9, [sp, #1264]
	str	w8, [sp, #3480]
	ldur	w8, [x26, #43]
	stur	w10, [x29, #123]
	ldur	w10, [x26, #35]
	str	w9, [sp, #3472]
	ldr	w9, [sp, #1240]
	stur	w8, [x29, #99]
	ldr	w8, [sp, #1232]
	str	w9, [sp, #3448]
	ldur	w9, [x26, #11]
	stur	w10, [x29, #91]
	ldur	w10, [x26, #3]
	str	w8, [sp, #3440]
	ldr	w8, [sp, #1208]
	stur	w9, [x29, #67]
	ldr	w9, [sp, #1200]
	str	w8, [sp, #3416]
	ldr	x8, [x1, #24]
	stur	w10, [x29, #59]
	ldr	x10, [x1, #56]
	str	x8, [sp, #448]
	ldrb	w8, [x1, #48]
	str	w9, [sp, #3408]
	ldr	w9, [sp, #1176]
	str	w8, [sp, #464]
	ldur	w8, [x28, #251]
	stp	x10, x11, [sp, #184]
	ldr	x10, [x1, #64]
	stur	w8, [x29, #35]
	ldr	w8, [sp, #1168]
	str	w9, [sp, #3384]
	ldp	x11, x9, [x1, #72]
	str	x10, [sp, #256]
	ldur	w10, [x28, #243]
	str	q0, [sp, #1792]
	movi	v0.2d, #0000000000000000
	str	x9, [sp, #392]
	ldrb	w9, [x1, #88]
	stur	w10, [x29, #27]
	str	w9, [sp, #564]
	ldur	w9, [x28, #219]
	str	w8, [sp, #3376]
	ldr	w8, [sp, #1144]
	stur	w9, [x29, #3]
	ldr	x9, [x1, #112]
	str	w8, [sp, #3352]
	ldrb	w8, [x1, #136]
	str	x11, [sp, #152]
	ldp	x11, x10, [x1, #96]
	str	x9, [sp, #456]
	str	w8, [sp, #468]
	ldp	x9, x8, [x1, #144]
	str	x10, [sp, #128]
	str	x11, [sp, #328]
	ldr	x11, [x1, #680]
	str	x8, [sp, #264]
	ldp	x10, x8, [x1, #160]
	str	q1, [sp, #1776]
	ldr	q1, [sp, #2048]
	str	xzr, [sp, #1384]
	ldr	q2, [sp, #1776]
	str	x8, [sp, #400]
	ldrb	w8, [x1, #176]
	str	x10, [sp, #96]
	str	w8, [sp, #572]
	ldp	x10, x8, [x1, #184]
	str	xzr, [sp, #1376]
	str	q1, [sp, #1376]
	ldr	q1, [sp, #2016]
	stp	x9, x8, [sp, #112]
	ldr	x8, [x1, #200]
	str	x10, [sp, #344]
	ldr	x10, [x1, #672]
	str	x8, [sp, #488]
	ldrb	w8, [x1, #224]
	str	q0, [sp, #2304]
	str	w8, [sp, #500]
	ldp	x9, x8, [x1, #232]
	str	q0, [sp, #2288]
	stur	q0, [x23, #218]
	str	x8, [sp, #280]
	ldr	x8, [x1, #320]
	str	x9, [sp, #136]
	ldr	x9, [x1, #520]
	str	x8, [sp, #160]
	ldr	x8, [x1, #688]
	str	q0, [sp, #2208]
	stp	x8, x10, [sp, #232]
	ldr	x8, [x1, #640]
	ldr	x10, [x1, #632]
	str	q0, [sp, #2192]
	str	x8, [sp, #552]
	ldrb	w8, [x1, #664]
	str	q0, [sp, #2176]
	str	w8, [sp, #560]
	ldr	x8, [x1, #608]
	str	q0, [sp, #2160]
	stp	x9, x8, [sp, #424]
	ldrb	w8, [x1, #616]
	ldr	x9, [x1, #624]
	str	q0, [sp, #1488]
	str	w8, [sp, #588]
	ldr	x8, [x1, #584]
	str	q0, [sp, #1472]
	stp	x8, x10, [sp, #216]
	ldr	x8, [x1, #592]
	ldr	x10, [x1, #600]
	str	q0, [sp, #1120]
	stp	x8, x11, [sp, #304]
	ldr	x8, [x1, #544]
	str	q0, [sp, #1104]
	stp	x8, x10, [sp, #200]
	ldr	x8, [x1, #552]
	stur	q0, [x15, #58]
	str	x8, [sp, #536]
	ldrb	w8, [x1, #576]
	stp	q0, q0, [sp, #672]
	str	w8, [sp, #548]
	ldrb	w8, [x1, #528]
	stp	q0, q0, [sp, #704]
	str	w8, [sp, #584]
	ldr	x8, [x1, #536]
	stp	q0, q0, [sp, #800]
	stp	x8, x9, [sp, #368]
	ldp	x9, x10, [x1, #496]
	ldr	x8, [x1, #512]
	str	q0, [sp, #2672]
	str	q0, [sp, #2656]
	ldr	q0, [sp, #1376]
	stp	x9, x8, [sp, #168]
	ldp	x9, x8, [x1, #448]
	str	xzr, [sp, #1352]
	str	xzr, [sp, #1344]
	str	x8, [sp, #144]
	ldr	x8, [x1, #464]
	str	q1, [sp, #1344]
	ldr	q1, [sp, #1984]
	str	x8, [sp, #520]
	ldrb	w8, [x1, #488]
	str	q0, [sp, #3584]
	ldr	q0, [sp, #1344]
	str	w8, [sp, #532]
	ldp	x11, x8, [x1, #424]
	str	xzr, [sp, #1320]
	str	xzr, [sp, #1312]
	str	x8, [sp, #416]
	ldrb	w8, [x1, #440]
	str	x11, [sp, #104]
	str	w8, [sp, #580]
	ldp	x11, x8, [x1, #408]
	str	q1, [sp, #1312]
	ldr	q1, [sp, #1952]
	str	q0, [sp, #3552]
	ldr	q0, [sp, #1312]
	stp	x8, x10, [sp, #288]
	ldp	x10, x8, [x1, #360]
	str	xzr, [sp, #1288]
	str	xzr, [sp, #1280]
	stp	x8, x11, [sp, #80]
	ldr	x8, [x1, #376]
	stp	x10, x9, [sp, #352]
	ldp	x10, x11, [x1, #272]
	str	x8, [sp, #504]
	ldrb	w8, [x1, #400]
	str	q1, [sp, #1280]
	ldr	q1, [sp, #1920]
	str	w8, [sp, #516]
	ldp	x9, x8, [x1, #336]
	str	q0, [sp, #3520]
	ldr	q0, [sp, #1280]
	str	xzr, [sp, #1256]
	str	x8, [sp, #408]
	ldrb	w8, [x1, #352]
	str	xzr, [sp, #1248]
	str	w8, [sp, #576]
	ldrb	w8, [x1, #264]
	str	q1, [sp, #1248]
	ldr	q1, [sp, #1888]
	str	w8, [sp, #568]
	ldr	x8, [x1, #328]
	str	q0, [sp, #3488]
	ldr	q0, [sp, #1248]
	str	xzr, [sp, #1224]
	str	xzr, [sp, #1216]
	str	q1, [sp, #1216]
	ldr	q1, [sp, #1856]
	str	x8, [sp, #272]
	ldr	x8, [x1, #288]
	str	q0, [sp, #3456]
	ldr	q0, [sp, #1216]
	str	xzr, [sp, #1192]
	str	xzr, [sp, #1184]
	str	q1, [sp, #1184]
	ldr	q1, [sp, #1824]
	str	x9, [sp, #72]
	ldr	x9, [x1, #704]
	str	x8, [sp, #472]
	ldrb	w8, [x1, #312]
	str	q0, [sp, #3424]
	ldr	q0, [sp, #1184]
	lsr	x16, x9, #32
	str	xzr, [sp, #1160]
	str	xzr, [sp, #1152]
	str	q1, [sp, #1152]
	ldr	q1, [sp, #1792]
	str	w8, [sp, #484]
	str	x9, [sp, #320]
	ldp	x9, x8, [x1, #248]
	str	q0, [sp, #3392]
	ldr	q0, [sp, #1152]
	str	q1, [sp, #1120]
	str	q2, [sp, #1104]
	ldr	q1, [sp, #1120]
	str	q0, [sp, #3360]
	ldr	q0, [sp, #1104]
	str	x8, [sp, #384]
	ldr	x8, [x1, #696]
	strb	wzr, [sp, #2588]
	str	wzr, [sp, #2584]
	stur	wzr, [x20, #35]
	str	wzr, [sp, #2576]
	str	xzr, [sp, #2568]
	str	xzr, [sp, #2560]
	stur	wzr, [x20, #11]
	str	wzr, [sp, #2552]
	stur	wzr, [x20, #3]
	str	wzr, [sp, #2544]
	str	xzr, [sp, #2536]
	str	xzr, [sp, #2528]
	stur	wzr, [x22, #251]
	str	wzr, [sp, #2520]
	stur	wzr, [x22, #243]
	str	wzr, [sp, #2512]
	str	xzr, [sp, #2504]
	str	xzr, [sp, #2496]
	stur	wzr, [x22, #219]
	str	wzr, [sp, #2488]
	stur	wzr, [x22, #211]
	str	wzr, [sp, #2480]
	str	xzr, [sp, #2472]
	str	xzr, [sp, #2464]
	stur	wzr, [x22, #187]
	str	wzr, [sp, #2456]
	stur	wzr, [x22, #179]
	str	wzr, [sp, #2448]
	str	xzr, [sp, #2440]
	str	xzr, [sp, #2432]
	stur	wzr, [x22, #155]
	str	wzr, [sp, #2424]
	stur	wzr, [x22, #147]
	str	wzr, [sp, #2416]
	str	xzr, [sp, #2408]
	str	xzr, [sp, #2400]
	stur	wzr, [x22, #123]
	str	wzr, [sp, #2392]
	stur	wzr, [x22, #115]
	str	wzr, [sp, #2384]
	str	xzr, [sp, #2376]
	str	xzr, [sp, #2368]
	stur	wzr, [x22, #91]
	str	wzr, [sp, #2360]
	stur	wzr, [x22, #83]
	str	wzr, [sp, #2352]
	str	xzr, [sp, #2344]
	str	xzr, [sp, #2336]
	stur	wzr, [x22, #59]
	str	wzr, [sp, #2328]
	stur	xzr, [x22, #7]
	str	xzr, [sp, #2272]
	strb	wzr, [sp, #2264]
	str	xzr, [sp, #2256]
	stur	wzr, [x23, #251]
	str	wzr, [sp, #2248]
	strh	wzr, [sp, #2156]
	str	wzr, [sp, #2152]
	strh	wzr, [sp, #2148]
	str	wzr, [sp, #2144]
	str	xzr, [sp, #2120]
	str	xzr, [sp, #2112]
	str	xzr, [sp, #2128]
	stur	xzr, [x23, #103]
	str	xzr, [sp, #2096]
	str	xzr, [sp, #2088]
	str	xzr, [sp, #2080]
	strh	wzr, [sp, #2076]
	str	wzr, [sp, #2072]
	stur	wzr, [x14, #43]
	str	wzr, [sp, #1768]
	str	xzr, [sp, #1752]
	str	xzr, [sp, #1744]
	stur	wzr, [x14, #11]
	str	wzr, [sp, #1736]
	stur	wzr, [x14, #3]
	str	wzr, [sp, #1728]
	str	xzr, [sp, #1720]
	str	xzr, [sp, #1712]
	stur	wzr, [x24, #251]
	str	wzr, [sp, #1704]
	stur	wzr, [x24, #243]
	str	wzr, [sp, #1696]
	str	xzr, [sp, #1688]
	str	xzr, [sp, #1680]
	stur	wzr, [x24, #219]
	str	wzr, [sp, #1672]
	stur	wzr, [x24, #211]
	str	wzr, [sp, #1664]
	str	xzr, [sp, #1656]
	str	xzr, [sp, #1648]
	stur	wzr, [x24, #187]
	str	wzr, [sp, #1640]
	stur	wzr, [x24, #179]
	str	wzr, [sp, #1632]
	str	xzr, [sp, #1624]
	str	xzr, [sp, #1616]
	stur	wzr, [x24, #155]
	str	wzr, [sp, #1608]
	stur	wzr, [x24, #147]
	str	wzr, [sp, #1600]
	str	xzr, [sp, #1592]
	str	xzr, [sp, #1584]
	stur	wzr, [x24, #123]
	str	wzr, [sp, #1576]
	stur	wzr, [x24, #115]
	str	wzr, [sp, #1568]
	str	xzr, [sp, #1560]
	str	xzr, [sp, #1552]
	stur	wzr, [x24, #91]
	str	wzr, [sp, #1544]
	stur	wzr, [x24, #83]
	str	wzr, [sp, #1536]
	str	xzr, [sp, #1528]
	str	xzr, [sp, #1520]
	stur	wzr, [x24, #59]
	str	wzr, [sp, #1512]
	stur	xzr, [x24, #7]
	str	xzr, [sp, #1456]
	stur	wzr, [x26, #251]
	str	wzr, [sp, #1448]
	strh	wzr, [sp, #1444]
	str	wzr, [sp, #1440]
	strh	wzr, [sp, #1436]
	str	wzr, [sp, #1432]
	stur	xzr, [x26, #223]
	str	xzr, [sp, #1416]
	strh	wzr, [sp, #1412]
	str	wzr, [sp, #1408]
	strb	wzr, [sp, #1100]
	str	wzr, [sp, #1096]
	stur	wzr, [x28, #163]
	str	wzr, [sp, #1088]
	str	xzr, [sp, #1080]
	str	xzr, [sp, #1072]
	stur	wzr, [x28, #139]
	str	wzr, [sp, #1064]
	stur	wzr, [x28, #131]
	str	wzr, [sp, #1056]
	str	xzr, [sp, #1048]
	str	xzr, [sp, #1040]
	stur	wzr, [x28, #107]
	str	wzr, [sp, #1032]
	stur	wzr, [x28, #99]
	str	wzr, [sp, #1024]
	str	xzr, [sp, #1016]
	str	xzr, [sp, #1008]
	stur	wzr, [x28, #75]
	str	wzr, [sp, #1000]
	stur	wzr, [x28, #67]
	str	wzr, [sp, #992]
	str	xzr, [sp, #984]
	str	xzr, [sp, #976]
	stur	wzr, [x28, #43]
	str	wzr, [sp, #968]
	stur	wzr, [x28, #35]
	str	wzr, [sp, #960]
	str	xzr, [sp, #952]
	str	xzr, [sp, #944]
	stur	wzr, [x28, #11]
	str	wzr, [sp, #936]
	stur	wzr, [x28, #3]
	str	wzr, [sp, #928]
	str	xzr, [sp, #920]
	str	xzr, [sp, #912]
	stur	wzr, [x15, #235]
	str	wzr, [sp, #904]
	stur	wzr, [x15, #227]
	str	wzr, [sp, #896]
	str	xzr, [sp, #888]
	str	xzr, [sp, #880]
	stur	wzr, [x15, #203]
	str	wzr, [sp, #872]
	stur	wzr, [x15, #195]
	str	wzr, [sp, #864]
	str	xzr, [sp, #856]
	str	xzr, [sp, #848]
	stur	wzr, [x15, #171]
	str	wzr, [sp, #840]
	stur	xzr, [x15, #119]
	str	xzr, [sp, #784]
	strb	wzr, [sp, #776]
	str	xzr, [sp, #768]
	stur	wzr, [x15, #91]
	str	wzr, [sp, #760]
	strh	wzr, [sp, #668]
	str	wzr, [sp, #664]
	strh	wzr, [sp, #660]
	str	wzr, [sp, #656]
	str	xzr, [sp, #640]
	str	xzr, [sp, #632]
	str	xzr, [sp, #648]
	str	xzr, [sp, #616]
	str	xzr, [sp, #608]
	str	xzr, [sp, #600]
	strh	wzr, [sp, #596]
	str	wzr, [sp, #592]
	str	xzr, [sp, #2968]
	stur	xzr, [x21, #159]
	str	wzr, [sp, #2960]
	stur	wzr, [x21, #147]
	stur	wzr, [x21, #139]
	str	wzr, [sp, #2952]
	str	xzr, [sp, #2936]
	str	xzr, [sp, #2928]
	stur	wzr, [x21, #107]
	str	wzr, [sp, #2920]
	stur	wzr, [x21, #99]
	str	wzr, [sp, #2912]
	str	xzr, [sp, #2904]
	str	xzr, [sp, #2896]
	stur	wzr, [x21, #75]
	str	wzr, [sp, #2888]
	stur	wzr, [x21, #67]
	str	wzr, [sp, #2880]
	str	xzr, [sp, #2872]
	str	xzr, [sp, #2864]
	stur	wzr, [x21, #43]
	str	wzr, [sp, #2856]
	stur	wzr, [x21, #35]
	str	wzr, [sp, #2848]
	str	xzr, [sp, #2840]
	str	xzr, [sp, #2832]
	stur	wzr, [x21, #11]
	str	wzr, [sp, #2824]
	stur	wzr, [x21, #3]
	str	wzr, [sp, #2816]
	str	xzr, [sp, #2808]
	str	xzr, [sp, #2800]
	stur	wzr, [x20, #251]
	str	wzr, [sp, #2792]
	stur	wzr, [x20, #243]
	str	wzr, [sp, #2784]
	str	xzr, [sp, #2776]
	str	xzr, [sp, #2768]
	stur	wzr, [x20, #219]
	str	wzr, [sp, #2760]
	stur	wzr, [x20, #211]
	str	wzr, [sp, #2752]
	str	xzr, [sp, #2744]
	str	xzr, [sp, #2736]
	stur	wzr, [x20, #187]
	str	wzr, [sp, #2728]
	stur	wzr, [x20, #179]
	str	wzr, [sp, #2720]
	str	xzr, [sp, #2712]
	str	xzr, [sp, #2704]
	stur	wzr, [x20, #155]
	str	wzr, [sp, #2696]
	stur	xzr, [x20, #103]
	str	xzr, [sp, #2640]
	stur	wzr, [x20, #91]
	str	wzr, [sp, #2632]
	strh	wzr, [sp, #2628]
	str	wzr, [sp, #2624]
	strh	wzr, [sp, #2620]
	str	wzr, [sp, #2616]
	stur	xzr, [x20, #63]
	str	xzr, [sp, #2600]
	strh	wzr, [sp, #2596]
	str	wzr, [sp, #2592]
	str	q0, [sp, #3312]
	str	q1, [sp, #3328]
	str	xzr, [sp, #2992]
	stur	xzr, [x21, #183]
	str	x10, [sp, #336]
	stp	x9, x11, [sp, #56]
	str	x8, [sp, #440]
	str	wzr, [sp, #2984]
	stur	wzr, [x21, #171]
	cbz	x16, .LBB42bf483_4
	str	x0, [sp, #48]
	mov	x0, x16
	mov	w1, #1
	str	w3, [sp, #252]
	mov	x23, x16
	bl	rattle_alloc
	tbz	w0, #0, .LBB42bf483_13
	subs	x27, x23, #1
	mov	x16, x23
	b.ne	.LBB42bf483_6
	ldr	x0, [sp, #48]
	ldr	w3, [sp, #252]
	mov	x17, xzr
	mov	x2, xzr
	mov	x8, xzr
	mov	x4, xzr
	add	x18, sp, #3612
	add	x14, sp, #1728
	add	x15, sp, #672
	add	x23, sp, #2000
	strb	wzr, [x1]
	b	.LBB42bf483_5
.LBB42bf483_4:
	mov	x17, xzr
	mov	x2, xzr
	mov	x8, xzr
	mov	x4, xzr
	add	x18, sp, #3612
	add	x1, sp, #3612
.LBB42bf483_5:
	ldr	w9, [sp, #3604]
	ldur	w10, [x29, #255]
	ldr	q0, [sp, #3584]
	ldr	q1, [sp, #3312]
	stur	xzr, [x21, #183]
	str	w9, [sp, #3304]
	ldr	w9, [sp, #3576]
	stur	w10, [x25, #235]
	ldur	w10, [x29, #227]
	str	w9, [sp, #3272]
	ldr	w9, [sp, #3568]
	stur	w10, [x25, #203]
	ldur	w10, [x29, #219]
	str	w9, [sp, #3264]
	ldur	w9, [x29, #195]
	stur	w10, [x25, #195]
	ldr	w10, [sp, #3544]
	stur	w9, [x25, #171]
	ldur	w9, [x29, #187]
	str	w10, [sp, #3240]
	ldr	w10, [sp, #3536]
	stur	w9, [x25, #163]
	ldur	w9, [x29, #163]
	str	w10, [sp, #3232]
	ldr	w10, [sp, #3512]
	stur	w9, [x25, #139]
	ldr	w9, [sp, #3504]
	str	w10, [sp, #3208]
	ldur	w10, [x29, #155]
	str	w9, [sp, #3200]
	ldur	w9, [x29, #131]
	stur	w10, [x25, #131]
	ldr	w10, [sp, #3480]
	stur	w9, [x25, #107]
	ldur	w9, [x29, #123]
	str	q0, [sp, #3280]
	ldr	q0, [sp, #3552]
	str	w10, [sp, #3176]
	ldr	w10, [sp, #3472]
	stur	w9, [x25, #99]
	ldur	w9, [x29, #99]
	str	q0, [sp, #3248]
	ldr	q0, [sp, #3520]
	str	w10, [sp, #3168]
	ldr	w10, [sp, #3448]
	stur	w9, [x25, #75]
	ldur	w9, [x29, #91]
	str	q0, [sp, #3216]
	ldr	q0, [sp, #3488]
	str	w10, [sp, #3144]
	ldr	w10, [sp, #3440]
	stur	w9, [x25, #67]
	ldur	w9, [x29, #67]
	str	q0, [sp, #3184]
	ldr	q0, [sp, #3456]
	str	w10, [sp, #3136]
	ldr	w10, [sp, #3416]
	stur	w9, [x25, #43]
	ldur	w9, [x29, #59]
	str	q0, [sp, #3152]
	ldr	q0, [sp, #3424]
	str	w10, [sp, #3112]
	ldr	w10, [sp, #3408]
	stur	w9, [x25, #35]
	ldur	w9, [x29, #35]
	str	q0, [sp, #3120]
	ldr	q0, [sp, #3392]
	str	w10, [sp, #3104]
	ldr	w10, [sp, #3384]
	stur	w9, [x25, #11]
	ldur	w9, [x29, #27]
	str	q0, [sp, #3088]
	ldr	q0, [sp, #3360]
	str	w10, [sp, #3080]
	ldr	w10, [sp, #3376]
	stur	w9, [x25, #3]
	ldur	w9, [x29, #3]
	str	q0, [sp, #3056]
	ldr	q0, [sp, #3328]
	str	w10, [sp, #3072]
	ldr	w10, [sp, #3352]
	stur	w9, [x21, #235]
	adrp	x9, .LCPI42bf483_0
	str	q0, [sp, #3024]
	ldr	d0, [x9, :lo12:.LCPI42bf483_0]
	mov	x9, #72057594037927936
	str	w10, [sp, #3048]
	mov	w10, #1
	str	q1, [sp, #3008]
	str	xzr, [sp, #2992]
	stur	wzr, [x21, #171]
	str	wzr, [sp, #2984]
	b	.LBB42bf483_14
.LBB42bf483_6:
	stp	x16, x1, [sp, #32]
	mov	x0, x1
	mov	w1, wzr
	mov	x2, x27
	bl	memset
	ldr	x8, [sp, #320]
	ldr	x1, [sp, #40]
	add	x23, sp, #2000
	lsr	x17, x8, #35
	strb	wzr, [x1, x27]
	str	x17, [sp, #24]
	cbz	x17, .LBB42bf483_10
	lsl	x0, x17, #2
	mov	w1, #4
	mov	x27, x17
	str	x0, [sp, #16]
	bl	rattle_alloc
	tbz	w0, #0, .LBB42bf483_12
	mov	x18, x1
	subs	x22, x27, #1
	b.ne	.LBB42bf483_69
	mov	x17, x27
	b	.LBB42bf483_70
.LBB42bf483_10:
	ldr	x0, [sp, #48]
	ldr	x16, [sp, #32]
	mov	x2, xzr
	ldr	w3, [sp, #252]
	add	x18, sp, #3612
	add	x14, sp, #1728
	add	x15, sp, #672
	cmp	x16, #13
	b.hs	.LBB42bf483_71
.LBB42bf483_11:
	mov	x8, xzr
	mov	x4, xzr
	b	.LBB42bf483_5
.LBB42bf483_12:
	ldr	x0, [sp, #40]
	bl	rattle_dealloc
.LBB42bf483_13:
	ldr	w11, [sp, #3604]
	ldur	w12, [x29, #255]
	mov	x1, xzr
	ldr	q0, [sp, #3584]
	ldr	q1, [sp, #3552]
	mov	x16, xzr
	str	w11, [sp, #3304]
	ldr	w11, [sp, #3576]
	mov	x18, xzr
	stur	w12, [x25, #235]
	ldur	w12, [x29, #227]
	mov	x2, xzr
	str	w11, [sp, #3272]
	ldr	w11, [sp, #3568]
	mov	x17, xzr
	stur	w12, [x25, #203]
	ldur	w12, [x29, #219]
	mov	x8, xzr
	str	w11, [sp, #3264]
	ldur	w11, [x29, #195]
	mov	x4, xzr
	stur	w12, [x25, #195]
	ldr	w12, [sp, #3544]
	mov	x9, xzr
	stur	w11, [x25, #171]
	ldur	w11, [x29, #187]
	mov	w10, wzr
	str	w12, [sp, #3240]
	ldr	w12, [sp, #3536]
	add	x14, sp, #1728
	stur	w11, [x25, #163]
	ldur	w11, [x29, #163]
	add	x15, sp, #672
	str	w12, [sp, #3232]
	ldr	w12, [sp, #3512]
	add	x23, sp, #2000
	stur	w11, [x25, #139]
	ldr	w11, [sp, #3504]
	ldr	q2, [sp, #3312]
	str	w12, [sp, #3208]
	ldur	w12, [x29, #155]
	ldr	x0, [sp, #48]
	str	w11, [sp, #3200]
	ldur	w11, [x29, #131]
	ldr	w3, [sp, #252]
	stur	w12, [x25, #131]
	ldr	w12, [sp, #3480]
	stur	w11, [x25, #107]
	ldur	w11, [x29, #123]
	str	w12, [sp, #3176]
	ldr	w12, [sp, #3472]
	stur	w11, [x25, #99]
	ldur	w11, [x29, #99]
	str	w12, [sp, #3168]
	ldr	w12, [sp, #3448]
	stur	w11, [x25, #75]
	ldur	w11, [x29, #91]
	str	w12, [sp, #3144]
	ldr	w12, [sp, #3440]
	stur	w11, [x25, #67]
	ldur	w11, [x29, #67]
	str	q0, [sp, #3280]
	ldr	q0, [sp, #3520]
	stur	w11, [x25, #43]
	ldur	w11, [x29, #59]
	str	w12, [sp, #3136]
	ldr	w12, [sp, #3416]
	stur	w11, [x25, #35]
	ldur	w11, [x29, #35]
	str	q1, [sp, #3248]
	ldr	q1, [sp, #3488]
	str	q0, [sp, #3216]
	ldr	q0, [sp, #3456]
	str	w12, [sp, #3112]
	ldr	w12, [sp, #3408]
	stur	w11, [x25, #11]
	ldur	w11, [x29, #27]
	str	q1, [sp, #3184]
	ldr	q1, [sp, #3424]
	str	q0, [sp, #3152]
	ldr	q0, [sp, #3392]
	str	w12, [sp, #3104]
	ldr	w12, [sp, #3384]
	stur	w11, [x25, #3]
	ldur	w11, [x29, #3]
	str	q1, [sp, #3120]
	ldr	q1, [sp, #3360]
	str	q0, [sp, #3088]
	movi	v0.2d, #0000000000000000
	str	w12, [sp, #3080]
	ldr	w12, [sp, #3376]
	stur	w11, [x21, #235]
	ldr	w11, [sp, #3352]
	str	q1, [sp, #3056]
	ldr	q1, [sp, #3328]
	str	w12, [sp, #3072]
	str	w11, [sp, #3048]
	str	q1, [sp, #3024]
	str	q2, [sp, #3008]
.LBB42bf483_14:
	ldr	w11, [sp, #3304]
	ldur	w12, [x25, #235]
	ldr	q1, [sp, #3280]
	ldr	q2, [sp, #3008]
	str	xzr, [sp, #3312]
	str	w11, [sp, #2952]
	ldr	w11, [sp, #3272]
	stur	w12, [x21, #139]
	ldur	w12, [x25, #203]
	str	w11, [sp, #2920]
	ldr	w11, [sp, #3264]
	stur	w12, [x21, #107]
	ldur	w12, [x25, #195]
	str	w11, [sp, #2912]
	ldur	w11, [x25, #171]
	stur	w12, [x21, #99]
	ldr	w12, [sp, #3240]
	stur	w11, [x21, #75]
	ldur	w11, [x25, #163]
	str	w12, [sp, #2888]
	ldr	w12, [sp, #3232]
	stur	w11, [x21, #67]
	ldur	w11, [x25, #139]
	str	w12, [sp, #2880]
	ldr	w12, [sp, #3208]
	stur	w11, [x21, #43]
	ldr	w11, [sp, #3200]
	str	w12, [sp, #2856]
	ldur	w12, [x25, #131]
	str	w11, [sp, #2848]
	ldur	w11, [x25, #107]
	stur	w12, [x21, #35]
	ldr	w12, [sp, #3176]
	stur	w11, [x21, #11]
	ldur	w11, [x25, #99]
	str	w12, [sp, #2824]
	ldr	w12, [sp, #3168]
	stur	w11, [x21, #3]
	ldur	w11, [x25, #75]
	str	w12, [sp, #2816]
	ldr	w12, [sp, #3144]
	str	q1, [sp, #2928]
	ldr	q1, [sp, #3248]
	stur	w11, [x20, #251]
	ldur	w11, [x25, #67]
	str	w12, [sp, #2792]
	ldr	w12, [sp, #3136]
	str	q1, [sp, #2896]
	ldr	q1, [sp, #3216]
	stur	w11, [x20, #243]
	ldur	w11, [x25, #43]
	str	w12, [sp, #2784]
	ldr	w12, [sp, #3112]
	str	q1, [sp, #2864]
	ldr	q1, [sp, #3184]
	stur	w11, [x20, #219]
	ldur	w11, [x25, #35]
	str	w12, [sp, #2760]
	ldr	w12, [sp, #3104]
	str	q1, [sp, #2832]
	ldr	q1, [sp, #3152]
	stur	w11, [x20, #211]
	ldur	w11, [x25, #11]
	str	w12, [sp, #2752]
	ldr	w12, [sp, #3080]
	str	q1, [sp, #2800]
	ldr	q1, [sp, #3120]
	stur	w11, [x20, #187]
	ldur	w11, [x25, #3]
	str	w12, [sp, #2728]
	ldr	w12, [sp, #3072]
	str	q1, [sp, #2768]
	ldr	q1, [sp, #3088]
	stur	w11, [x20, #179]
	ldur	w11, [x21, #235]
	str	w12, [sp, #2720]
	ldr	w12, [sp, #3048]
	str	q1, [sp, #2736]
	ldr	q1, [sp, #3056]
	stur	w11, [x20, #155]
	ldur	x11, [x21, #183]
	str	w12, [sp, #2696]
	ldr	x12, [sp, #2992]
	str	q1, [sp, #2704]
	ldr	q1, [sp, #3024]
	stur	x11, [x20, #103]
	ldur	w11, [x21, #171]
	str	x12, [sp, #2640]
	ldr	w12, [sp, #2984]
	str	q1, [sp, #2672]
	str	q2, [sp, #2656]
	stur	w11, [x20, #91]
	str	w12, [sp, #2632]
	stur	xzr, [x25, #247]
	str	wzr, [sp, #3008]
	stur	wzr, [x21, #195]
	cbz	w10, .LBB42bf483_16
	ldr	x11, [sp, #2640]
	ldur	x12, [x20, #103]
	ldr	w13, [sp, #2632]
	str	x11, [sp, #3312]
	ldur	w11, [x20, #91]
	stur	x12, [x25, #247]
	str	w13, [sp, #3008]
	stur	w11, [x21, #195]
	b	.LBB42bf483_17
.LBB42bf483_16:
	mov	x1, xzr
	mov	x16, xzr
	mov	x18, xzr
	mov	x2, xzr
	mov	x17, xzr
	mov	x8, xzr
	mov	x4, xzr
	movi	v0.2d, #0000000000000000
	mov	x9, xzr
.LBB42bf483_17:
	ldr	x11, [sp, #3312]
	ldur	x12, [x25, #247]
	add	x27, x19, #825
	ldr	w13, [sp, #3008]
	ldr	q1, [sp, #2928]
	ldr	q2, [sp, #2656]
	str	x11, [sp, #2968]
	ldur	w11, [x21, #195]
	stur	x12, [x21, #159]
	ldr	w12, [sp, #2952]
	str	w13, [sp, #2960]
	stur	w11, [x21, #147]
	ldur	w11, [x21, #139]
	str	w12, [sp, #1768]
	ldr	w12, [sp, #2920]
	stur	w11, [x14, #43]
	ldur	w11, [x21, #107]
	str	q1, [sp, #1744]
	ldr	q1, [sp, #2896]
	stur	w11, [x14, #11]
	ldur	w11, [x21, #99]
	str	w12, [sp, #1736]
	ldr	w12, [sp, #2912]
	stur	w11, [x14, #3]
	ldur	w11, [x21, #75]
	str	w12, [sp, #1728]
	ldr	w12, [sp, #2888]
	stur	w11, [x24, #251]
	ldur	w11, [x21, #67]
	str	w12, [sp, #1704]
	ldr	w12, [sp, #2880]
	stur	w11, [x24, #243]
	ldur	w11, [x21, #43]
	str	w12, [sp, #1696]
	ldr	w12, [sp, #2856]
	stur	w11, [x24, #219]
	ldur	w11, [x21, #35]
	str	w12, [sp, #1672]
	ldr	w12, [sp, #2848]
	stur	w11, [x24, #211]
	ldur	w11, [x21, #11]
	str	w12, [sp, #1664]
	ldr	w12, [sp, #2824]
	stur	w11, [x24, #187]
	ldur	w11, [x21, #3]
	str	w12, [sp, #1640]
	ldr	w12, [sp, #2816]
	str	q1, [sp, #1712]
	ldr	q1, [sp, #2864]
	stur	w11, [x24, #179]
	ldur	w11, [x20, #251]
	str	w12, [sp, #1632]
	ldr	w12, [sp, #2792]
	str	q1, [sp, #1680]
	ldr	q1, [sp, #2832]
	stur	w11, [x24, #155]
	ldur	w11, [x20, #243]
	str	w12, [sp, #1608]
	ldr	w12, [sp, #2784]
	str	q1, [sp, #1648]
	ldr	q1, [sp, #2800]
	stur	w11, [x24, #147]
	ldur	w11, [x20, #219]
	str	w12, [sp, #1600]
	ldr	w12, [sp, #2760]
	str	q1, [sp, #1616]
	ldr	q1, [sp, #2768]
	stur	w11, [x24, #123]
	ldur	w11, [x20, #211]
	str	w12, [sp, #1576]
	ldr	w12, [sp, #2752]
	str	q1, [sp, #1584]
	ldr	q1, [sp, #2736]
	stur	w11, [x24, #115]
	ldur	w11, [x20, #187]
	str	w12, [sp, #1568]
	ldr	w12, [sp, #2728]
	str	q1, [sp, #1552]
	ldr	q1, [sp, #2704]
	stur	w11, [x24, #91]
	ldur	w11, [x20, #179]
	str	w12, [sp, #1544]
	ldr	w12, [sp, #2720]
	stur	w11, [x24, #83]
	ldur	w11, [x20, #155]
	str	w12, [sp, #1536]
	ldr	w12, [sp, #2696]
	str	q1, [sp, #1520]
	ldr	q1, [sp, #2672]
	stur	w11, [x24, #59]
	str	w12, [sp, #1512]
	str	q1, [sp, #1488]
	str	q2, [sp, #1472]
	tbz	w10, #0, .LBB42bf483_19
	ldur	w10, [x24, #211]
	ldr	w11, [sp, #1664]
	ldur	w12, [x24, #187]
	ldr	q1, [sp, #1616]
	ldr	q2, [sp, #1488]
	ldr	q3, [sp, #1472]
	str	w10, [x19, #276]
	add	x10, x19, #273
	str	w11, [x10]
	add	x11, x19, #321
	ldr	w10, [sp, #1640]
	str	w12, [x19, #324]
	ldur	w12, [x24, #179]
	str	w10, [x11]
	add	x11, x19, #361
	ldr	w10, [sp, #1632]
	str	w12, [x19, #364]
	ldur	w12, [x24, #155]
	str	w10, [x11]
	add	x11, x19, #409
	ldr	w10, [sp, #1608]
	str	w12, [x19, #412]
	ldur	w12, [x24, #147]
	str	w10, [x11]
	add	x11, x19, #449
	ldr	w10, [sp, #1600]
	str	w12, [x19, #452]
	ldur	w12, [x24, #123]
	str	w10, [x11]
	add	x11, x19, #497
	ldr	w10, [sp, #1576]
	str	w12, [x19, #500]
	ldr	x12, [sp, #2968]
	str	w10, [x11]
	ldur	x10, [x21, #159]
	ldr	w11, [sp, #2960]
	str	x12, [sp, #1456]
	add	x12, x19, #585
	stur	x10, [x24, #7]
	ldur	w10, [x21, #147]
	str	w11, [sp, #1448]
	ldr	w11, [sp, #2624]
	stur	w10, [x26, #251]
	ldrh	w10, [sp, #2628]
	str	w11, [sp, #1440]
	ldrh	w11, [sp, #2620]
	strh	w10, [sp, #1444]
	ldr	w10, [sp, #2616]
	strh	w11, [sp, #1436]
	ldur	x11, [x20, #63]
	str	w10, [sp, #1432]
	ldr	x10, [sp, #2600]
	stur	x11, [x26, #223]
	ldr	w11, [sp, #2592]
	str	x10, [sp, #1416]
	ldrh	w10, [sp, #2596]
	str	w11, [sp, #1408]
	ldur	w11, [x24, #83]
	strh	w10, [sp, #1412]
	ldr	w10, [sp, #1536]
	stur	w11, [x22, #83]
	ldur	w11, [x24, #59]
	str	w10, [sp, #2352]
	ldr	w10, [sp, #1512]
	stur	w11, [x22, #59]
	ldur	x11, [x24, #7]
	str	w10, [sp, #2328]
	ldr	x10, [sp, #1456]
	stur	x11, [x22, #7]
	ldur	w11, [x26, #251]
	str	x10, [sp, #2272]
	ldr	w10, [sp, #1448]
	stur	w11, [x23, #251]
	ldrh	w11, [sp, #1444]
	str	w10, [sp, #2248]
	ldr	w10, [sp, #1440]
	strh	w11, [sp, #2156]
	ldrh	w11, [sp, #1436]
	str	w10, [sp, #2152]
	ldr	w10, [sp, #1432]
	strh	w11, [sp, #2148]
	ldur	x11, [x26, #223]
	str	w10, [sp, #2144]
	ldr	x10, [sp, #1416]
	stur	x11, [x23, #103]
	ldrh	w11, [sp, #1412]
	str	x10, [sp, #2096]
	ldr	w10, [sp, #1408]
	strh	w11, [sp, #2076]
	ldrb	w11, [sp, #1100]
	str	w10, [sp, #2072]
	ldr	w10, [sp, #1096]
	strb	w11, [x19, #7]
	ldur	w11, [x14, #43]
	stur	w10, [x19, #3]
	ldr	w10, [sp, #1768]
	str	w11, [x19, #12]
	ldr	w11, [sp, #464]
	stur	w10, [x19, #9]
	ldr	x10, [sp, #192]
	strb	w11, [x19, #56]
	ldr	w11, [sp, #1736]
	stp	x0, x10, [x19, #16]
	ldr	x10, [sp, #448]
	str	q2, [sp, #2304]
	ldr	q2, [sp, #1712]
	str	x10, [x19, #32]
	ldur	w10, [x14, #11]
	str	x8, [x19, #800]
	ldur	x8, [x22, #7]
	str	w10, [x19, #60]
	ldr	x10, [sp, #256]
	stur	w11, [x19, #57]
	ldr	x11, [sp, #184]
	strb	wzr, [sp, #2264]
	stp	x11, x10, [x19, #64]
	ldr	x11, [sp, #152]
	ldr	x10, [sp, #392]
	str	q2, [x19, #128]
	ldr	q2, [sp, #1648]
	stp	x11, x10, [x19, #80]
	ldr	w11, [sp, #564]
	ldur	w10, [x14, #3]
	str	q3, [sp, #2288]
	strb	w11, [x19, #96]
	ldr	w11, [sp, #1728]
	str	w10, [x19, #100]
	ldr	x10, [sp, #128]
	stur	w11, [x19, #97]
	ldr	x11, [sp, #328]
	str	x8, [x19, #840]
	and	w8, wzr, #0xff
	stp	x11, x10, [x19, #104]
	ldr	x10, [sp, #456]
	ldr	w11, [sp, #468]
	str	q2, [x19, #304]
	ldr	q2, [sp, #2288]
	str	x10, [x19, #120]
	ldur	w10, [x24, #251]
	strb	w11, [x19, #144]
	ldr	w11, [sp, #1704]
	str	w10, [x19, #148]
	ldr	x10, [sp, #264]
	stur	w11, [x19, #145]
	ldr	x11, [sp, #112]
	str	x9, [x27]
	ldr	x9, [sp, #2272]
	stp	x11, x10, [x19, #152]
	ldr	x11, [sp, #96]
	ldr	x10, [sp, #400]
	strb	w8, [x19, #864]
	ldur	w8, [x23, #251]
	stp	x11, x10, [x19, #168]
	ldr	w11, [sp, #572]
	ldur	w10, [x24, #243]
	str	xzr, [sp, #2256]
	strb	w11, [x19, #184]
	ldr	w11, [sp, #1696]
	str	w10, [x19, #188]
	ldr	x10, [sp, #120]
	stur	w11, [x19, #185]
	ldr	x11, [sp, #344]
	str	d0, [x19, #848]
	stp	x11, x10, [x19, #192]
	ldr	x10, [sp, #488]
	ldr	w11, [sp, #500]
	str	w8, [x19, #868]
	add	x8, x19, #872
	str	x10, [x19, #208]
	ldur	w10, [x24, #219]
	strb	w11, [x19, #232]
	ldr	w11, [sp, #1672]
	str	w10, [x19, #236]
	ldr	x10, [sp, #280]
	stur	w11, [x19, #233]
	ldr	x11, [sp, #136]
	str	xzr, [sp, #2128]
	stp	x11, x10, [x19, #240]
	ldr	x11, [sp, #56]
	ldr	x10, [sp, #384]
	str	xzr, [sp, #2120]
	stp	x11, x10, [x19, #256]
	ldr	w10, [sp, #568]
	ldr	x11, [sp, #336]
	str	xzr, [sp, #2112]
	strb	w10, [x19, #272]
	ldr	x10, [sp, #64]
	str	xzr, [sp, #2088]
	stp	x11, x10, [x19, #280]
	ldr	x10, [sp, #472]
	ldr	x11, [sp, #160]
	str	xzr, [sp, #2080]
	str	x10, [x19, #296]
	ldr	w10, [sp, #484]
	strb	w3, [x19, #8]
	strb	w10, [x19, #320]
	ldr	x10, [sp, #272]
	strh	wzr, [x19]
	stp	x11, x10, [x19, #328]
	ldr	x11, [sp, #72]
	ldr	x10, [sp, #408]
	strb	wzr, [x19, #2]
	stp	x11, x10, [x19, #344]
	ldr	w10, [sp, #576]
	ldr	x11, [sp, #352]
	str	x1, [x19, #752]
	strb	w10, [x19, #360]
	ldr	x10, [sp, #80]
	str	x16, [x19, #760]
	stp	x11, x10, [x19, #368]
	ldr	x10, [sp, #504]
	ldr	x11, [sp, #88]
	str	x16, [x19, #768]
	str	x10, [x19, #384]
	add	x10, x19, #392
	str	q1, [x10]
	ldr	w10, [sp, #516]
	ldr	q1, [sp, #1520]
	str	x18, [x19, #776]
	strb	w10, [x19, #408]
	ldr	x10, [sp, #288]
	str	q1, [sp, #2336]
	movi	v1.2d, #0000000000000000
	stp	x11, x10, [x19, #416]
	ldr	x11, [sp, #104]
	ldr	x10, [sp, #416]
	str	x2, [x19, #784]
	stp	x11, x10, [x19, #432]
	ldr	w10, [sp, #580]
	ldr	x11, [sp, #360]
	stur	q1, [x23, #218]
	strb	w10, [x19, #448]
	ldr	x10, [sp, #144]
	str	q1, [sp, #2208]
	stp	x11, x10, [x19, #456]
	ldr	x10, [sp, #520]
	ldr	x11, [sp, #168]
	str	q1, [sp, #2192]
	ldur	q0, [x23, #218]
	str	x10, [x19, #472]
	ldr	w10, [sp, #532]
	str	q1, [sp, #2176]
	strb	w10, [x19, #496]
	ldr	x10, [sp, #296]
	str	q1, [sp, #2160]
	ldr	q1, [sp, #1744]
	stp	x11, x10, [x19, #504]
	ldr	x10, [sp, #176]
	ldr	w11, [sp, #584]
	stur	q1, [x19, #40]
	ldr	q1, [sp, #1680]
	str	x10, [x19, #520]
	ldr	x10, [sp, #424]
	strb	w11, [x19, #536]
	ldr	w11, [sp, #1568]
	str	x10, [x19, #528]
	ldur	w10, [x24, #115]
	stur	q1, [x19, #216]
	ldr	q1, [sp, #1584]
	str	w10, [x19, #540]
	add	x10, x19, #537
	str	w11, [x10]
	ldr	x10, [sp, #368]
	ldr	w11, [sp, #548]
	str	q1, [x19, #480]
	ldr	q1, [sp, #1552]
	str	x10, [x19, #544]
	ldr	x10, [sp, #200]
	stur	q0, [x8, #58]
	ldr	q0, [sp, #2160]
	str	x10, [x19, #552]
	ldr	x10, [sp, #536]
	strb	w11, [x19, #584]
	ldr	w11, [sp, #1544]
	str	x10, [x19, #560]
	add	x10, x19, #568
	str	q1, [x10]
	ldur	w10, [x24, #91]
	ldr	q1, [sp, #2336]
	str	x17, [x19, #792]
	str	w10, [x19, #588]
	ldr	x10, [sp, #216]
	str	q1, [x19, #656]
	ldr	q1, [sp, #2304]
	str	x10, [x19, #592]
	ldr	x10, [sp, #304]
	stp	q2, q1, [x19, #720]
	ldr	q1, [sp, #2208]
	ldr	q2, [sp, #2192]
	str	x10, [x19, #600]
	ldr	x10, [sp, #208]
	stp	q2, q1, [x8, #32]
	ldr	q1, [sp, #2176]
	str	x10, [x19, #608]
	ldr	x10, [sp, #432]
	stp	q0, q1, [x8]
	ldr	w8, [sp, #2152]
	ldr	q0, [sp, #2112]
	str	x10, [x19, #616]
	ldur	w10, [x22, #83]
	str	w11, [x12]
	ldr	w11, [sp, #588]
	add	x12, x19, #625
	str	w10, [x19, #628]
	ldr	x10, [sp, #376]
	strb	w11, [x19, #624]
	ldr	w11, [sp, #2352]
	str	x10, [x19, #632]
	ldr	x10, [sp, #224]
	str	w11, [x12]
	ldr	w11, [sp, #560]
	add	x12, x19, #673
	str	x10, [x19, #640]
	ldr	x10, [sp, #552]
	strb	w11, [x19, #672]
	ldr	w11, [sp, #2328]
	str	x10, [x19, #648]
	ldur	w10, [x22, #59]
	str	x4, [x19, #808]
	str	w10, [x19, #676]
	ldr	x10, [sp, #240]
	str	w11, [x12]
	str	x10, [x19, #680]
	ldr	x10, [sp, #312]
	str	x16, [x19, #816]
	str	x10, [x19, #688]
	ldr	x10, [sp, #232]
	strb	wzr, [x19, #824]
	str	x10, [x19, #696]
	ldr	x10, [sp, #440]
	str	xzr, [x19, #952]
	str	x10, [x19, #704]
	ldr	x10, [sp, #320]
	strh	wzr, [x19, #960]
	str	x10, [x19, #712]
	add	x10, x19, #833
	str	x9, [x10]
	ldr	x9, [sp, #2256]
	add	x10, x19, #865
	str	xzr, [x27, #168]
	str	x9, [x19, #856]
	ldr	w9, [sp, #2248]
	strh	wzr, [x19, #1032]
	str	w9, [x10]
	add	x10, x19, #946
	ldrh	w9, [sp, #2156]
	str	w8, [x10]
	ldrh	w8, [sp, #2148]
	add	x10, x19, #962
	strh	w9, [x19, #950]
	ldr	w9, [sp, #2144]
	strh	w8, [x19, #966]
	ldr	x8, [sp, #2128]
	str	w9, [x10]
	add	x9, x19, #968
	add	x10, x19, #1001
	str	x8, [x19, #984]
	mov	w8, #1
	strb	w8, [x19, #992]
	ldur	x8, [x23, #103]
	str	q0, [x9]
	ldr	x9, [sp, #2096]
	ldr	q0, [sp, #2080]
	str	x8, [x19, #1008]
	add	x8, x19, #1016
	str	x9, [x10]
	ldr	w9, [sp, #2072]
	str	q0, [x8]
	ldrh	w8, [sp, #2076]
	b	.LBB42bf483_68
.LBB42bf483_19:
	ldrb	w8, [sp, #1100]
	ldr	w9, [sp, #1096]
	cmp	w3, #1
	ldr	q0, [sp, #1072]
	strh	wzr, [sp, #1412]
	strb	w8, [sp, #2588]
	ldur	w8, [x28, #163]
	str	w9, [sp, #2584]
	ldr	w9, [sp, #1088]
	stur	w8, [x20, #35]
	ldur	w8, [x28, #139]
	str	w9, [sp, #2576]
	ldr	w9, [sp, #1064]
	stur	w8, [x20, #11]
	ldur	w8, [x28, #131]
	str	w9, [sp, #2552]
	ldr	w9, [sp, #1056]
	stur	w8, [x20, #3]
	ldur	w8, [x28, #107]
	str	w9, [sp, #2544]
	ldr	w9, [sp, #1032]
	stur	w8, [x22, #251]
	ldur	w8, [x28, #99]
	str	w9, [sp, #2520]
	ldr	w9, [sp, #1024]
	stur	w8, [x22, #243]
	ldur	w8, [x28, #75]
	str	w9, [sp, #2512]
	ldr	w9, [sp, #1000]
	stur	w8, [x22, #219]
	ldur	w8, [x28, #67]
	str	w9, [sp, #2488]
	ldr	w9, [sp, #992]
	stur	w8, [x22, #211]
	ldur	w8, [x28, #43]
	str	w9, [sp, #2480]
	ldr	w9, [sp, #968]
	stur	w8, [x22, #187]
	ldur	w8, [x28, #35]
	str	w9, [sp, #2456]
	ldr	w9, [sp, #960]
	stur	w8, [x22, #179]
	ldur	w8, [x28, #11]
	str	w9, [sp, #2448]
	ldr	w9, [sp, #936]
	stur	w8, [x22, #155]
	ldur	w8, [x28, #3]
	str	q0, [sp, #2560]
	ldr	q0, [sp, #1040]
	stur	w8, [x22, #147]
	ldur	w8, [x15, #235]
	str	w9, [sp, #2424]
	ldr	w9, [sp, #928]
	stur	w8, [x22, #123]
	ldur	w8, [x15, #227]
	str	q0, [sp, #2528]
	ldr	q0, [sp, #1008]
	str	w9, [sp, #2416]
	ldr	w9, [sp, #904]
	stur	w8, [x22, #115]
	ldur	w8, [x15, #203]
	str	q0, [sp, #2496]
	ldr	q0, [sp, #976]
	str	w9, [sp, #2392]
	ldr	w9, [sp, #896]
	stur	w8, [x22, #91]
	ldur	w8, [x15, #195]
	str	q0, [sp, #2464]
	ldr	q0, [sp, #944]
	str	w9, [sp, #2384]
	ldr	w9, [sp, #872]
	stur	w8, [x22, #83]
	ldur	w8, [x15, #171]
	str	q0, [sp, #2432]
	ldr	q0, [sp, #912]
	str	w9, [sp, #2360]
	ldr	w9, [sp, #864]
	stur	w8, [x22, #59]
	ldur	x8, [x15, #119]
	str	q0, [sp, #2400]
	ldr	q0, [sp, #880]
	str	w9, [sp, #2352]
	ldr	w9, [sp, #840]
	stur	x8, [x22, #7]
	ldrb	w8, [sp, #776]
	str	q0, [sp, #2368]
	ldr	q0, [sp, #848]
	str	w9, [sp, #2328]
	ldr	x9, [sp, #784]
	strb	w8, [sp, #2264]
	ldur	w8, [x15, #91]
	str	q0, [sp, #2336]
	ldp	q1, q0, [sp, #800]
	str	x9, [sp, #2272]
	ldr	x9, [sp, #768]
	stur	w8, [x23, #251]
	ldrh	w8, [sp, #668]
	str	x9, [sp, #2256]
	ldr	w9, [sp, #760]
	str	q1, [sp, #2288]
	ldp	q2, q1, [sp, #704]
	strh	w8, [sp, #2156]
	ldrh	w8, [sp, #660]
	str	q0, [sp, #2304]
	ldur	q0, [x15, #58]
	str	w9, [sp, #2248]
	ldr	w9, [sp, #664]
	strh	w8, [sp, #2148]
	ldr	x8, [sp, #648]
	stur	q0, [x23, #218]
	str	q1, [sp, #2208]
	ldp	q0, q1, [sp, #672]
	str	w9, [sp, #2152]
	ldr	w9, [sp, #656]
	str	x8, [sp, #2128]
	add	x8, sp, #368
	str	w9, [sp, #2144]
	add	x9, sp, #377
	ldur	x8, [x8, #255]
	str	q0, [sp, #2160]
	ldur	q0, [x9, #255]
	ldr	x9, [sp, #616]
	stur	x8, [x23, #103]
	add	x8, sp, #345
	str	q0, [sp, #2112]
	ldur	q0, [x8, #255]
	str	wzr, [sp, #1408]
	str	xzr, [sp, #1456]
	stur	xzr, [x24, #7]
	str	wzr, [sp, #1448]
	stur	wzr, [x26, #251]
	str	wzr, [sp, #1440]
	strh	wzr, [sp, #1444]
	str	wzr, [sp, #1432]
	strh	wzr, [sp, #1436]
	str	xzr, [sp, #1416]
	stur	xzr, [x26, #223]
	str	q2, [sp, #2192]
	str	q1, [sp, #2176]
	str	x9, [sp, #2096]
	str	q0, [sp, #2080]
	b.ne	.LBB42bf483_25
	ldr	x8, [sp, #448]
	cbz	x8, .LBB42bf483_22
	bl	rattle_dealloc
.LBB42bf483_22:
	ldr	w8, [sp, #464]
	cmp	w8, #1
	b.ne	.LBB42bf483_25
	ldr	x8, [sp, #392]
	cbz	x8, .LBB42bf483_25
	ldr	x0, [sp, #256]
	bl	rattle_dealloc
.LBB42bf483_25:
	ldr	w8, [sp, #564]
	cmp	w8, #1
	b.ne	.LBB42bf483_31
	ldr	x8, [sp, #456]
	cbz	x8, .LBB42bf483_28
	ldr	x0, [sp, #328]
	bl	rattle_dealloc
.LBB42bf483_28:
	ldr	w8, [sp, #468]
	cmp	w8, #1
	b.ne	.LBB42bf483_31
	ldr	x8, [sp, #400]
	cbz	x8, .LBB42bf483_31
	ldr	x0, [sp, #264]
	bl	rattle_dealloc
.LBB42bf483_31:
	ldr	w8, [sp, #572]
	cmp	w8, #1
	b.ne	.LBB42bf483_37
	ldr	x8, [sp, #488]
	cbz	x8, .LBB42bf483_34
	ldr	x0, [sp, #344]
	bl	rattle_dealloc
.LBB42bf483_34:
	ldr	w8, [sp, #500]
	cmp	w8, #1
	b.ne	.LBB42bf483_37
	ldr	x8, [sp, #384]
	cbz	x8, .LBB42bf483_37
	ldr	x0, [sp, #280]
	bl	rattle_dealloc
.LBB42bf483_37:
	ldr	w8, [sp, #568]
	cmp	w8, #1
	b.ne	.LBB42bf483_43
	ldr	x8, [sp, #472]
	cbz	x8, .LBB42bf483_40
	ldr	x0, [sp, #336]
	bl	rattle_dealloc
.LBB42bf483_40:
	ldr	w8, [sp, #484]
	cmp	w8, #1
	b.ne	.LBB42bf483_43
	ldr	x8, [sp, #408]
	cbz	x8, .LBB42bf483_43
	ldr	x0, [sp, #272]
	bl	rattle_dealloc
.LBB42bf483_43:
	ldr	w8, [sp, #576]
	cmp	w8, #1
	b.ne	.LBB42bf483_49
	ldr	x8, [sp, #504]
	cbz	x8, .LBB42bf483_46
	ldr	x0, [sp, #352]
	bl	rattle_dealloc
.LBB42bf483_46:
	ldr	w8, [sp, #516]
	cmp	w8, #1
	b.ne	.LBB42bf483_49
	ldr	x8, [sp, #416]
	cbz	x8, .LBB42bf483_49
	ldr	x0, [sp, #288]
	bl	rattle_dealloc
.LBB42bf483_49:
	ldr	w8, [sp, #580]
	cmp	w8, #1
	b.ne	.LBB42bf483_55
	ldr	x8, [sp, #520]
	cbz	x8, .LBB42bf483_52
	ldr	x0, [sp, #360]
	bl	rattle_dealloc
.LBB42bf483_52:
	ldr	w8, [sp, #532]
	cmp	w8, #1
	b.ne	.LBB42bf483_55
	ldr	x8, [sp, #424]
	cbz	x8, .LBB42bf483_55
	ldr	x0, [sp, #296]
	bl	rattle_dealloc
.LBB42bf483_55:
	ldr	w8, [sp, #584]
	cmp	w8, #1
	b.ne	.LBB42bf483_61
	ldr	x8, [sp, #536]
	cbz	x8, .LBB42bf483_58
	ldr	x0, [sp, #368]
	bl	rattle_dealloc
.LBB42bf483_58:
	ldr	w8, [sp, #548]
	cmp	w8, #1
	b.ne	.LBB42bf483_61
	ldr	x8, [sp, #432]
	cbz	x8, .LBB42bf483_61
	ldr	x0, [sp, #304]
	bl	rattle_dealloc
.LBB42bf483_61:
	ldr	w8, [sp, #588]
	cmp	w8, #1
	b.ne	.LBB42bf483_67
	ldr	x8, [sp, #552]
	cbz	x8, .LBB42bf483_64
	ldr	x0, [sp, #376]
	bl	rattle_dealloc
.LBB42bf483_64:
	ldr	w8, [sp, #560]
	cmp	w8, #1
	b.ne	.LBB42bf483_67
	ldr	x8, [sp, #440]
	cbz	x8, .LBB42bf483_67
	ldr	x0, [sp, #312]
	bl	rattle_dealloc
.LBB42bf483_67:
	mov	w8, #513
	ldr	w9, [sp, #2584]
	movi	v0.2d, #0000000000000000
	strh	w8, [x19]
	ldrb	w8, [sp, #2588]
	ldr	q1, [sp, #2560]
	stur	w9, [x19, #3]
	ldur	w9, [x20, #35]
	add	x10, x19, #273
	strb	w8, [x19, #7]
	ldr	w8, [sp, #2576]
	ldr	q2, [sp, #2288]
	stur	q1, [x19, #40]
	ldr	q1, [sp, #2528]
	stur	w8, [x19, #9]
	ldur	w8, [x20, #11]
	str	w9, [x19, #12]
	ldr	w9, [sp, #2552]
	str	w8, [x19, #60]
	ldr	w8, [sp, #2544]
	stur	w9, [x19, #57]
	ldur	w9, [x20, #3]
	stur	w8, [x19, #97]
	ldur	w8, [x22, #251]
	str	w9, [x19, #100]
	ldr	w9, [sp, #2520]
	str	w8, [x19, #148]
	ldur	w8, [x22, #243]
	stur	w9, [x19, #145]
	ldr	w9, [sp, #2512]
	str	w8, [x19, #188]
	ldr	w8, [sp, #2488]
	stur	w9, [x19, #185]
	ldur	w9, [x22, #219]
	stur	w8, [x19, #233]
	ldur	w8, [x22, #211]
	str	w9, [x19, #236]
	ldr	w9, [sp, #2480]
	str	w8, [x19, #276]
	add	x8, x19, #280
	str	q1, [x19, #128]
	ldr	q1, [sp, #2496]
	str	q0, [x8]
	ldur	w8, [x22, #187]
	str	w9, [x10]
	ldr	w9, [sp, #2456]
	add	x10, x19, #321
	stur	q1, [x19, #216]
	ldr	q1, [sp, #2464]
	str	w8, [x19, #324]
	add	x8, x19, #328
	str	w9, [x10]
	ldur	w9, [x22, #179]
	add	x10, x19, #361
	stp	q0, q0, [x8]
	ldr	w8, [sp, #2448]
	str	q1, [x19, #304]
	ldr	q1, [sp, #2432]
	str	w9, [x19, #364]
	ldr	w9, [sp, #2424]
	str	w8, [x10]
	add	x8, x19, #392
	add	x10, x19, #409
	str	q1, [x8]
	ldur	w8, [x22, #155]
	ldr	q1, [sp, #2400]
	stur	q0, [x19, #24]
	str	w8, [x19, #412]
	ldur	w8, [x22, #147]
	str	w9, [x10]
	ldr	w9, [sp, #2416]
	add	x10, x19, #449
	str	w8, [x19, #452]
	add	x8, x19, #456
	str	q0, [x8]
	ldur	w8, [x22, #123]
	str	w9, [x10]
	ldr	w9, [sp, #2392]
	add	x10, x19, #497
	str	w8, [x19, #500]
	add	x8, x19, #504
	str	w9, [x10]
	ldur	w9, [x22, #115]
	add	x10, x19, #537
	stp	q0, q0, [x8]
	ldr	w8, [sp, #2384]
	str	q1, [x19, #480]
	ldr	q1, [sp, #2368]
	str	w9, [x19, #540]
	ldr	w9, [sp, #2360]
	str	w8, [x10]
	add	x8, x19, #568
	add	x10, x19, #585
	str	q1, [x8]
	ldur	w8, [x22, #91]
	ldr	q1, [sp, #2336]
	stp	q0, q0, [x19, #64]
	str	w8, [x19, #588]
	ldur	w8, [x22, #83]
	str	q1, [x19, #656]
	ldr	q1, [sp, #2304]
	str	w8, [x19, #628]
	add	x8, x19, #632
	str	q0, [x8]
	ldur	w8, [x22, #59]
	str	w9, [x10]
	ldr	w9, [sp, #2352]
	add	x10, x19, #625
	str	w8, [x19, #676]
	add	x8, x19, #680
	stp	q0, q0, [x8]
	ldur	x8, [x22, #7]
	stp	q2, q1, [x19, #720]
	movi	v1.2d, #0000000000000000
	ldr	q2, [sp, #2192]
	str	w9, [x10]
	ldr	w9, [sp, #2328]
	add	x10, x19, #673
	str	x8, [x19, #840]
	ldrb	w8, [sp, #2264]
	str	w9, [x10]
	ldr	x9, [sp, #2272]
	add	x10, x19, #833
	strb	w8, [x19, #864]
	ldur	w8, [x23, #251]
	stur	q0, [x19, #104]
	stur	q0, [x19, #168]
	stur	q0, [x19, #152]
	str	q0, [x19, #192]
	stp	q0, q0, [x19, #240]
	str	q0, [x19, #368]
	stp	q0, q0, [x19, #416]
	str	q0, [x19, #544]
	stp	q0, q0, [x19, #592]
	stp	q0, q0, [x19, #768]
	stp	q0, q0, [x19, #800]
	str	q0, [x19, #752]
	ldur	q0, [x23, #218]
	str	d1, [x19, #848]
	ldr	q1, [sp, #2208]
	str	x9, [x10]
	ldr	x9, [sp, #2256]
	add	x10, x19, #865
	str	w8, [x19, #868]
	add	x8, x19, #872
	stur	q0, [x8, #58]
	ldr	q0, [sp, #2160]
	stp	q2, q1, [x8, #32]
	ldr	q1, [sp, #2176]
	str	x9, [x19, #856]
	ldr	w9, [sp, #2248]
	stp	q0, q1, [x8]
	ldr	w8, [sp, #2152]
	ldr	q0, [sp, #2112]
	str	w9, [x10]
	add	x10, x19, #946
	ldrh	w9, [sp, #2156]
	str	w8, [x10]
	ldrh	w8, [sp, #2148]
	add	x10, x19, #962
	strh	w9, [x19, #950]
	ldr	w9, [sp, #2144]
	strh	w8, [x19, #966]
	ldr	x8, [sp, #2128]
	str	w9, [x10]
	add	x9, x19, #968
	add	x10, x19, #1001
	str	x8, [x19, #984]
	ldur	x8, [x23, #103]
	str	q0, [x9]
	ldr	x9, [sp, #2096]
	ldr	q0, [sp, #2080]
	str	x8, [x19, #1008]
	add	x8, x19, #1016
	str	x9, [x10]
	ldr	w9, [sp, #592]
	str	q0, [x8]
	ldrh	w8, [sp, #596]
	strb	wzr, [x19, #2]
	strb	wzr, [x19, #8]
	str	xzr, [x19, #16]
	strb	wzr, [x19, #56]
	strb	wzr, [x19, #96]
	str	xzr, [x19, #120]
	strb	wzr, [x19, #144]
	strb	wzr, [x19, #184]
	str	xzr, [x19, #208]
	strb	wzr, [x19, #232]
	strb	wzr, [x19, #272]
	str	xzr, [x19, #296]
	strb	wzr, [x19, #320]
	strb	wzr, [x19, #360]
	str	xzr, [x19, #384]
	strb	wzr, [x19, #408]
	strb	wzr, [x19, #448]
	str	xzr, [x19, #472]
	strb	wzr, [x19, #496]
	strb	wzr, [x19, #536]
	str	xzr, [x19, #560]
	strb	wzr, [x19, #584]
	strb	wzr, [x19, #624]
	str	xzr, [x19, #648]
	strb	wzr, [x19, #672]
	str	xzr, [x19, #712]
	strb	wzr, [x19, #832]
	str	xzr, [x19, #952]
	strh	wzr, [x19, #960]
	strb	wzr, [x19, #992]
	str	xzr, [x27, #168]
	strh	wzr, [x19, #1032]
.LBB42bf483_68:
	add	x10, x19, #1034
	strh	w8, [x19, #1038]
	str	w9, [x10]
	add	sp, sp, #3616
	ldp	x20, x19, [sp, #80]
	ldp	x22, x21, [sp, #64]
	ldp	x24, x23, [sp, #48]
	ldp	x26, x25, [sp, #32]
	ldp	x28, x27, [sp, #16]
	ldp	x29, x30, [sp], #96
	ret
.LBB42bf483_69:
	ldr	x8, [sp, #16]
	mov	x0, x18
	mov	w1, wzr
	mov	x20, x18
	sub	x2, x8, #4
	bl	memset
	ldr	x17, [sp, #24]
	mov	x18, x20
	add	x20, sp, #2544
.LBB42bf483_70:
	ldp	x1, x0, [sp, #40]
	add	x14, sp, #1728
	ldr	x16, [sp, #32]
	ldr	w3, [sp, #252]
	add	x15, sp, #672
	str	wzr, [x18, x22, lsl #2]
	add	x2, x22, #1
	add	x22, sp, #2272
	cmp	x16, #13
	b.lo	.LBB42bf483_11
.LBB42bf483_71:
	mov	x4, xzr
	sub	x22, x16, #5
	add	x27, x1, #5
	mov	w23, #5
.LBB42bf483_72:
	ldr	s0, [x27]
	ushll	v0.8h, v0.8b, #0
	fmov	x8, d0
	lsr	x9, x8, #32
	and	w8, w8, w9
	mov	w9, #255
	and	w8, w8, w8, lsr #16
	bics	wzr, w9, w8
	b.ne	.LBB42bf483_74
	mov	x28, x2
	adrp	x2, .Lstatic.4
	add	x2, x2, :lo12:.Lstatic.4
	mov	x0, x27
	mov	w1, #8
	mov	x20, x18
	mov	x24, x4
	bl	core_cmp_slices_groups_equal_i8_31_core_cmp_numbers_U8PartialEq_.3f1b21c
	ldp	x17, x16, [sp, #24]
	mov	x4, x24
	ldr	w3, [sp, #252]
	ldr	x1, [sp, #40]
	add	x24, sp, #1456
	mov	x2, x28
	add	x28, sp, #928
	mov	x18, x20
	add	x20, sp, #2544
	tbnz	w0, #0, .LBB42bf483_78
.LBB42bf483_74:
	ldrh	w8, [x27, #6]
	ldrb	w9, [x27, #5]
	rev16	w8, w8
	add	x8, x9, x8
	add	x8, x8, #8
	cmp	x22, x8
	b.lo	.LBB42bf483_76
	str	w23, [x18, x4, lsl #2]
	add	x23, x8, x23
	add	x4, x4, #1
	sub	x22, x16, x23
	add	x27, x1, x23
	cmp	x22, #8
	b.hs	.LBB42bf483_72
.LBB42bf483_76:
	mov	x8, xzr
	mov	x4, xzr
.LBB42bf483_77:
	ldr	x0, [sp, #48]
	add	x23, sp, #2000
	add	x22, sp, #2272
	add	x14, sp, #1728
	add	x15, sp, #672
	b	.LBB42bf483_5
.LBB42bf483_78:
	mov	w8, #1
	b	.LBB42bf483_77
.Lfunc_end42bf483:
	.size	lone_drive_c_drive_over.837ff07, .Lfunc_end42bf483-lone_drive_c_drive_over.837ff07

	.section	".text.lone_drive_c::handle::hold","ax",@progbits
	.p2align	2
	.type	lone_drive_c_handle_hold.4592c1f,@function
lone_drive_c_handle_hold.4592c1f:
	stp	x29, x30, [sp, #-96]!
	stp	x28, x27, [sp, #16]
	stp	x26, x25, [sp, #32]
	stp	x24, x23, [sp, #48]
	stp	x22, x21, [sp, #64]
	stp	x20, x19, [sp, #80]
	sub	sp, sp, #1072
	str	xzr, [sp]
	add	x27, sp, #824
	add	x11, x1, #313
	ldur	w8, [x1, #49]
	ldur	w10, [x1, #89]
	ldr	w9, [x1, #52]
	ldr	q0, [x1, #32]
	ldr	q2, [x1, #1008]
	str	x0, [sp, #216]
	str	w8, [sp, #1048]
	mov	w0, #1032
	ldr	w8, [x1, #92]
	str	w10, [sp, #1040]
	ldr	w10, [x1, #228]
	ldrb	w29, [x1, #224]
	stur	w8, [x27, #219]
	ldur	w8, [x1, #137]
	ldrb	w24, [x1, #264]
	stur	w9, [x27, #227]
	ldr	w9, [x1, #140]
	ldr	x28, [x1, #288]
	str	w8, [sp, #1016]
	ldur	w8, [x1, #177]
	ldrb	w26, [x1, #352]
	stur	w9, [x27, #195]
	ldr	w9, [x1, #180]
	ldr	x25, [x1, #376]
	str	w8, [sp, #1008]
	ldur	w8, [x1, #225]
	ldr	x19, [x1, #520]
	str	q0, [sp, #1056]
	ldur	q0, [x1, #120]
	stur	w9, [x27, #187]
	add	x9, x1, #265
	str	w8, [sp, #984]
	ldr	w8, [x9]
	add	x9, x1, #296
	str	q0, [sp, #1024]
	ldr	q0, [x1, #208]
	str	w8, [sp, #976]
	ldr	w8, [x11]
	str	q0, [sp, #992]
	ldr	q0, [x9]
	add	x9, x1, #353
	str	w8, [sp, #952]
	ldr	w8, [x9]
	add	x9, x1, #401
	str	q0, [sp, #960]
	ldr	q0, [x1, #384]
	str	w8, [sp, #944]
	ldp	x11, x8, [x1]
	str	q0, [sp, #928]
	stur	w10, [x27, #163]
	ldr	w10, [x1, #268]
	str	x8, [sp, #408]
	ldr	w8, [x9]
	add	x9, x1, #441
	str	x11, [sp, #328]
	add	x11, x1, #472
	str	w8, [sp, #920]
	ldr	w8, [x9]
	add	x9, x1, #489
	ldr	q0, [x11]
	stur	w10, [x27, #155]
	ldr	w10, [x1, #316]
	str	w8, [sp, #912]
	ldp	x11, x8, [x1, #16]
	stur	w10, [x27, #131]
	ldr	w10, [x1, #356]
	str	q0, [sp, #896]
	ldr	q0, [x1, #560]
	str	x8, [sp, #400]
	ldr	w8, [x9]
	add	x9, x1, #529
	str	x11, [sp, #208]
	ldrb	w11, [x1, #48]
	str	w8, [sp, #888]
	ldr	w8, [x9]
	add	x9, x1, #577
	stur	w10, [x27, #123]
	ldr	w10, [x1, #404]
	str	w11, [sp, #388]
	str	w8, [sp, #880]
	ldp	x11, x8, [x1, #56]
	stur	w10, [x27, #99]
	ldr	w10, [x1, #444]
	str	q0, [sp, #864]
	str	x8, [sp, #456]
	ldr	w8, [x9]
	add	x9, x1, #617
	stur	w10, [x27, #91]
	ldr	w10, [x1, #492]
	str	w8, [sp, #856]
	ldr	w8, [x9]
	add	x9, x1, #665
	stur	w10, [x27, #67]
	ldr	w10, [x1, #532]
	str	x11, [sp, #200]
	add	x11, x1, #648
	str	w8, [sp, #848]
	ldr	q0, [x11]
	stur	w10, [x27, #59]
	ldr	w10, [x1, #580]
	str	q0, [sp, #832]
	ldp	x11, x8, [x1, #72]
	stur	w10, [x27, #35]
	ldr	w10, [x1, #620]
	str	q2, [sp, #688]
	ldp	q0, q1, [x1, #704]
	str	x8, [sp, #432]
	ldr	w8, [x9]
	ldrb	w9, [x1, #88]
	stur	w10, [x27, #27]
	str	w8, [sp, #824]
	ldp	x10, x8, [x1, #96]
	str	w9, [sp, #472]
	ldr	w9, [x1, #668]
	stp	q0, q1, [sp, #784]
	str	x10, [sp, #448]
	ldr	x10, [x1, #112]
	stur	w9, [x27, #3]
	ldr	x9, [x1, #736]
	str	x10, [sp, #280]
	ldrb	w10, [x1, #136]
	str	x9, [sp, #816]
	str	w10, [sp, #496]
	ldp	x9, x10, [x1, #144]
	stp	x8, x11, [sp, #152]
	add	x8, x1, #792
	ldp	q0, q1, [x8]
	str	x9, [sp, #120]
	ldp	x11, x9, [x1, #160]
	stp	q0, q1, [sp, #720]
	ldr	q0, [x8, #32]
	ldr	x8, [x1, #840]
	str	x11, [sp, #112]
	str	x9, [sp, #440]
	ldp	x11, x9, [x1, #184]
	str	x8, [sp, #768]
	ldrb	w8, [x1, #176]
	str	q0, [sp, #752]
	ldp	q0, q1, [x1, #976]
	str	w8, [sp, #476]
	ldr	x8, [x1, #1024]
	str	x9, [sp, #96]
	ldr	x9, [x1, #200]
	str	x8, [sp, #704]
	ldp	x8, x23, [x1, #248]
	str	x9, [sp, #464]
	ldp	x9, x21, [x1, #232]
	stp	x10, x11, [sp, #480]
	ldp	x10, x11, [x1, #320]
	stp	q0, q1, [sp, #656]
	ldp	q0, q1, [x1, #912]
	stp	x8, x9, [sp, #64]
	ldrb	w8, [x1, #312]
	ldp	x20, x9, [x1, #272]
	str	w8, [sp, #500]
	stp	q0, q1, [sp, #592]
	ldp	q2, q0, [x1, #944]
	stp	x10, x9, [sp, #48]
	ldp	x9, x8, [x1, #336]
	stp	q2, q0, [sp, #624]
	ldp	q1, q0, [x1, #848]
	stp	x8, x11, [sp, #504]
	ldp	x10, x8, [x1, #360]
	stp	q1, q0, [sp, #528]
	ldp	q0, q1, [x1, #880]
	stp	x8, x9, [sp, #32]
	ldrb	w8, [x1, #400]
	str	x10, [sp, #520]
	ldp	x9, x10, [x1, #408]
	str	w8, [sp, #380]
	ldp	x11, x8, [x1, #424]
	stp	q0, q1, [sp, #560]
	stp	x10, x8, [sp, #360]
	ldrb	w8, [x1, #440]
	ldr	x10, [x1, #584]
	stp	x11, x9, [sp, #16]
	ldr	x11, [x1, #592]
	str	w8, [sp, #348]
	ldp	x9, x8, [x1, #448]
	str	x8, [sp, #8]
	ldr	x8, [x1, #464]
	str	x9, [sp, #336]
	ldp	x9, x22, [x1, #496]
	str	x8, [sp, #352]
	ldrb	w8, [x1, #488]
	str	w8, [sp, #384]
	ldr	x8, [x1, #512]
	stp	x8, x9, [sp, #80]
	ldrb	w8, [x1, #528]
	ldr	x9, [x1, #536]
	str	w8, [sp, #428]
	ldr	x8, [x1, #544]
	str	x8, [sp, #104]
	ldr	x8, [x1, #552]
	str	x8, [sp, #304]
	ldrb	w8, [x1, #576]
	str	w8, [sp, #300]
	ldr	x8, [x1, #600]
	stp	x8, x10, [sp, #128]
	ldrb	w8, [x1, #616]
	ldr	x10, [x1, #608]
	str	w8, [sp, #424]
	ldr	x8, [x1, #624]
	stp	x8, x9, [sp, #240]
	ldr	x8, [x1, #632]
	ldr	x9, [x1, #672]
	str	x8, [sp, #144]
	ldr	x8, [x1, #640]
	str	x8, [sp, #288]
	ldrb	w8, [x1, #664]
	str	w8, [sp, #276]
	ldr	x8, [x1, #680]
	stp	x8, x11, [sp, #224]
	ldr	x8, [x1, #688]
	stp	x8, x9, [sp, #168]
	ldr	x8, [x1, #696]
	ldr	x9, [x1, #744]
	stp	x8, x10, [sp, #256]
	ldr	x8, [x1, #760]
	ldr	x10, [x1, #752]
	str	x8, [sp, #416]
	ldr	x8, [x1, #768]
	stp	x9, x8, [sp, #312]
	ldr	x8, [x1, #776]
	stp	x8, x10, [sp, #184]
	ldr	x8, [x1, #784]
	mov	w1, #8
	str	x8, [sp, #392]
	bl	rattle_alloc
	tbz	w0, #0, .LBB297c38d_2
	ldr	x8, [sp, #328]
	ldr	w9, [sp, #976]
	mov	w0, wzr
	ldur	w10, [x27, #131]
	ldr	q0, [sp, #960]
	ldr	q1, [sp, #1056]
	str	x8, [x1]
	ldur	w8, [x27, #155]
	ldr	q2, [sp, #720]
	str	w10, [x1, #316]
	ldur	w10, [x27, #123]
	str	w8, [x1, #268]
	add	x8, x1, #265
	str	w9, [x8]
	add	x9, x1, #313
	ldr	w8, [sp, #952]
	str	w10, [x1, #356]
	ldur	w10, [x27, #99]
	str	w8, [x9]
	add	x9, x1, #353
	ldr	w8, [sp, #944]
	str	w10, [x1, #404]
	ldur	w10, [x27, #91]
	str	w8, [x9]
	add	x9, x1, #401
	ldr	w8, [sp, #920]
	str	w10, [x1, #444]
	ldur	w10, [x27, #67]
	str	w8, [x9]
	add	x9, x1, #441
	ldr	w8, [sp, #912]
	str	w10, [x1, #492]
	add	x10, x1, #529
	str	w8, [x9]
	ldr	w8, [sp, #888]
	add	x9, x1, #489
	str	q1, [x1, #32]
	ldr	q1, [sp, #992]
	str	w8, [x9]
	ldr	x9, [sp, #408]
	ldr	x8, [sp, #208]
	str	q1, [x1, #208]
	stp	x9, x8, [x1, #8]
	ldr	x8, [sp, #400]
	ldr	w9, [sp, #388]
	strb	w29, [x1, #224]
	str	x8, [x1, #24]
	ldr	w8, [sp, #1048]
	strb	w9, [x1, #48]
	ldur	w9, [x27, #227]
	stur	w8, [x1, #49]
	ldr	x8, [sp, #456]
	str	w9, [x1, #52]
	ldr	x9, [sp, #200]
	strb	w24, [x1, #264]
	stp	x9, x8, [x1, #56]
	ldr	x9, [sp, #160]
	ldr	x8, [sp, #432]
	str	x28, [x1, #288]
	stp	x9, x8, [x1, #72]
	ldr	w9, [sp, #472]
	ldur	w8, [x27, #219]
	strb	w26, [x1, #352]
	strb	w9, [x1, #88]
	ldr	w9, [sp, #1040]
	str	w8, [x1, #92]
	ldr	x8, [sp, #152]
	stur	w9, [x1, #89]
	ldr	x9, [sp, #448]
	str	x25, [x1, #376]
	stp	x9, x8, [x1, #96]
	ldr	x8, [sp, #280]
	ldr	w9, [sp, #496]
	str	x19, [x1, #520]
	str	x8, [x1, #112]
	ldur	w8, [x27, #195]
	strb	w9, [x1, #136]
	ldr	w9, [sp, #1016]
	str	w8, [x1, #140]
	ldr	x8, [sp, #480]
	stur	w9, [x1, #137]
	ldr	x9, [sp, #120]
	stp	x9, x8, [x1, #144]
	ldr	x9, [sp, #112]
	ldr	x8, [sp, #440]
	stp	x9, x8, [x1, #160]
	ldr	w9, [sp, #476]
	ldur	w8, [x27, #187]
	strb	w9, [x1, #176]
	ldr	w9, [sp, #1008]
	str	w8, [x1, #180]
	ldr	x8, [sp, #96]
	stur	w9, [x1, #177]
	ldr	x9, [sp, #488]
	stp	x9, x8, [x1, #184]
	ldr	x8, [sp, #464]
	ldr	w9, [sp, #984]
	str	x8, [x1, #200]
	ldur	w8, [x27, #163]
	str	w8, [x1, #228]
	stur	w9, [x1, #225]
	ldp	x8, x9, [sp, #64]
	stp	x8, x23, [x1, #248]
	stp	x9, x21, [x1, #232]
	ldp	x9, x8, [sp, #48]
	stp	x20, x8, [x1, #272]
	add	x8, x1, #296
	str	q0, [x8]
	ldr	w8, [sp, #500]
	ldr	q0, [sp, #896]
	strb	w8, [x1, #312]
	ldp	x8, x11, [sp, #504]
	stp	x9, x11, [x1, #320]
	ldr	x9, [sp, #40]
	stp	x9, x8, [x1, #336]
	ldr	x9, [sp, #520]
	ldr	x8, [sp, #32]
	stp	x9, x8, [x1, #360]
	ldr	w8, [sp, #380]
	ldr	x9, [sp, #24]
	strb	w8, [x1, #400]
	ldp	x11, x8, [sp, #360]
	stp	x9, x11, [x1, #408]
	ldr	x9, [sp, #16]
	stp	x9, x8, [x1, #424]
	ldr	w8, [sp, #348]
	ldr	x9, [sp, #336]
	strb	w8, [x1, #440]
	ldr	x8, [sp, #8]
	stp	x9, x8, [x1, #448]
	ldr	x8, [sp, #352]
	str	x8, [x1, #464]
	add	x8, x1, #472
	str	q0, [x8]
	ldr	w8, [sp, #384]
	ldr	q0, [sp, #1024]
	strb	w8, [x1, #488]
	ldp	x8, x9, [sp, #80]
	stur	q0, [x1, #120]
	ldr	q0, [sp, #928]
	str	x8, [x1, #512]
	ldur	w8, [x27, #59]
	stp	x9, x22, [x1, #496]
	ldr	w9, [sp, #428]
	str	w8, [x1, #532]
	ldr	x8, [sp, #248]
	strb	w9, [x1, #528]
	ldr	w9, [sp, #880]
	str	x8, [x1, #536]
	ldr	x8, [sp, #104]
	str	q0, [x1, #384]
	ldr	q0, [sp, #864]
	str	x8, [x1, #544]
	ldr	x8, [sp, #304]
	str	w9, [x10]
	ldr	w9, [sp, #300]
	add	x10, x1, #577
	str	x8, [x1, #552]
	ldur	w8, [x27, #35]
	str	q0, [x1, #560]
	ldr	q0, [sp, #832]
	str	w8, [x1, #580]
	ldr	x8, [sp, #136]
	strb	w9, [x1, #576]
	ldr	w9, [sp, #856]
	str	x8, [x1, #584]
	ldr	x8, [sp, #232]
	str	w9, [x10]
	ldr	w9, [sp, #424]
	add	x10, x1, #617
	str	x8, [x1, #592]
	ldr	x8, [sp, #128]
	strb	w9, [x1, #616]
	ldr	w9, [sp, #848]
	str	x8, [x1, #600]
	ldr	x8, [sp, #264]
	str	x8, [x1, #608]
	ldur	w8, [x27, #27]
	str	w8, [x1, #620]
	ldr	x8, [sp, #240]
	str	w9, [x10]
	ldr	w9, [sp, #276]
	add	x10, x1, #665
	str	x8, [x1, #624]
	ldr	x8, [sp, #144]
	strb	w9, [x1, #664]
	ldr	w9, [sp, #824]
	str	x8, [x1, #632]
	ldr	x8, [sp, #288]
	str	x8, [x1, #640]
	add	x8, x1, #648
	str	q0, [x8]
	ldur	w8, [x27, #3]
	ldp	q1, q0, [sp, #784]
	str	w8, [x1, #668]
	ldr	x8, [sp, #176]
	str	w9, [x10]
	ldr	x9, [sp, #256]
	str	x8, [x1, #672]
	ldr	x8, [sp, #224]
	str	x9, [x1, #696]
	ldr	x9, [sp, #392]
	str	x8, [x1, #680]
	ldr	x8, [sp, #168]
	stp	q1, q0, [x1, #704]
	ldp	q1, q0, [sp, #736]
	str	x8, [x1, #688]
	ldr	x8, [sp, #816]
	str	x9, [x1, #784]
	add	x9, x1, #792
	str	x8, [x1, #736]
	ldr	x8, [sp, #312]
	stp	q1, q0, [x9, #16]
	ldp	q1, q0, [sp, #560]
	str	x8, [x1, #744]
	ldr	x8, [sp, #192]
	str	q2, [x9]
	ldr	x9, [sp, #216]
	str	x8, [x1, #752]
	ldr	x8, [sp, #416]
	stp	q1, q0, [x1, #880]
	ldp	q2, q0, [sp, #528]
	str	x8, [x1, #760]
	ldr	x8, [sp, #320]
	str	x8, [x1, #768]
	ldr	x8, [sp, #184]
	stp	q2, q0, [x1, #848]
	ldp	q1, q0, [sp, #624]
	str	x8, [x1, #776]
	ldr	x8, [sp, #768]
	str	x8, [x1, #840]
	ldr	x8, [sp, #704]
	stp	q1, q0, [x1, #944]
	ldp	q2, q0, [sp, #592]
	str	x8, [x1, #1024]
	mov	x8, #18774
	movk	x8, #17490, lsl #16
	stp	q2, q0, [x1, #912]
	ldp	q1, q0, [sp, #672]
	ldr	q2, [sp, #656]
	movk	x8, #20037, lsl #32
	movk	x8, #19535, lsl #48
	stp	q1, q0, [x1, #992]
	str	q2, [x1, #976]
	stp	x8, x1, [x9]
	b	.LBB297c38d_55
.LBB297c38d_2:
	ldp	x8, x0, [sp, #328]
	ldr	w10, [sp, #348]
	ldp	x9, x11, [sp, #352]
	ldr	x12, [sp, #368]
	ldr	w13, [sp, #380]
	ldr	w27, [sp, #388]
	ldr	x14, [sp, #520]
	and	x8, x8, #0xff
	ldr	w18, [sp, #500]
	ldr	x4, [sp, #480]
	cmp	x8, #1
	ldr	w8, [sp, #384]
	ldr	w5, [sp, #476]
	ldr	w6, [sp, #472]
	ldr	w7, [sp, #496]
	ldr	x30, [sp, #432]
	stp	x19, x23, [sp, #192]
	mov	w19, w8
	mov	w23, w10
	str	x28, [sp, #216]
	mov	x28, x0
	str	w24, [sp, #176]
	mov	x24, x12
	ldp	x2, x15, [sp, #400]
	stp	x21, x22, [sp, #152]
	mov	x21, x9
	str	x20, [sp, #168]
	mov	w20, w13
	ldp	x17, x16, [sp, #504]
	str	w26, [sp, #184]
	mov	x26, x25
	mov	x25, x11
	str	w29, [sp, #208]
	ldp	x3, x1, [sp, #448]
	b.ne	.LBB297c38d_8
	cbz	x2, .LBB297c38d_5
	mov	x0, x15
	bl	rattle_dealloc
	ldp	x3, x1, [sp, #448]
	mov	w13, w20
	ldp	x17, x16, [sp, #504]
	mov	x12, x24
	ldr	x30, [sp, #432]
	ldr	w7, [sp, #496]
	mov	x11, x25
	ldr	w6, [sp, #472]
	ldr	w5, [sp, #476]
	mov	w10, w23
	ldr	x4, [sp, #480]
	ldr	w18, [sp, #500]
	mov	x9, x21
	ldr	x14, [sp, #520]
	mov	x0, x28
	mov	w8, w19
.LBB297c38d_5:
	cmp	w27, #1
	b.ne	.LBB297c38d_8
	cbz	x30, .LBB297c38d_8
	mov	x0, x1
	mov	x27, x3
	bl	rattle_dealloc
	ldp	x17, x16, [sp, #504]
	mov	x3, x27
	ldr	w7, [sp, #496]
	ldr	w6, [sp, #472]
	mov	w13, w20
	ldr	w5, [sp, #476]
	ldr	x4, [sp, #480]
	mov	x12, x24
	ldr	w18, [sp, #500]
	ldr	x14, [sp, #520]
	mov	x11, x25
	mov	w10, w23
	mov	x9, x21
	mov	x0, x28
	mov	w8, w19
.LBB297c38d_8:
	cmp	w6, #1
	ldr	x1, [sp, #216]
	ldr	x2, [sp, #488]
	ldr	w27, [sp, #208]
	ldr	x6, [sp, #464]
	mov	x15, x26
	ldr	x22, [sp, #440]
	b.ne	.LBB297c38d_14
	ldr	x30, [sp, #280]
	cbz	x30, .LBB297c38d_11
	mov	x0, x3
	mov	x27, x4
	mov	w22, w5
	bl	rattle_dealloc
	ldp	x17, x16, [sp, #504]
	mov	w5, w22
	ldr	x6, [sp, #464]
	ldr	w7, [sp, #496]
	mov	x4, x27
	ldr	x22, [sp, #440]
	ldr	w27, [sp, #208]
	mov	x15, x26
	ldr	x2, [sp, #488]
	ldr	x1, [sp, #216]
	mov	w13, w20
	ldr	w18, [sp, #500]
	ldr	x14, [sp, #520]
	mov	x12, x24
	mov	x11, x25
	mov	w10, w23
	mov	x9, x21
	mov	x0, x28
	mov	w8, w19
.LBB297c38d_11:
	cmp	w7, #1
	b.ne	.LBB297c38d_14
	cbz	x22, .LBB297c38d_14
	mov	x0, x4
	mov	w22, w5
	bl	rattle_dealloc
	ldp	x17, x16, [sp, #504]
	mov	w5, w22
	ldr	x6, [sp, #464]
	ldr	x2, [sp, #488]
	mov	x15, x26
	ldr	x1, [sp, #216]
	ldr	w18, [sp, #500]
	mov	w13, w20
	ldr	x14, [sp, #520]
	mov	x12, x24
	mov	x11, x25
	mov	w10, w23
	mov	x9, x21
	mov	x0, x28
	mov	w8, w19
.LBB297c38d_14:
	ldr	w29, [sp, #176]
	ldr	x3, [sp, #200]
	cmp	w5, #1
	b.ne	.LBB297c38d_20
	cbz	x6, .LBB297c38d_17
	mov	x0, x2
	bl	rattle_dealloc
	ldp	x17, x16, [sp, #504]
	mov	x15, x26
	ldr	x3, [sp, #200]
	ldr	x1, [sp, #216]
	mov	w13, w20
	ldr	w18, [sp, #500]
	ldr	x14, [sp, #520]
	mov	x12, x24
	mov	x11, x25
	mov	w10, w23
	mov	x9, x21
	mov	x0, x28
	mov	w8, w19
.LBB297c38d_17:
	cmp	w27, #1
	b.ne	.LBB297c38d_20
	cbz	x3, .LBB297c38d_20
	ldr	x0, [sp, #152]
	bl	rattle_dealloc
	ldp	x17, x16, [sp, #504]
	mov	x15, x26
	ldr	x1, [sp, #216]
	ldr	w18, [sp, #500]
	mov	w13, w20
	ldr	x14, [sp, #520]
	mov	x12, x24
	mov	x11, x25
	mov	w10, w23
	mov	x9, x21
	mov	x0, x28
	mov	w8, w19
.LBB297c38d_20:
	cmp	w29, #1
	ldr	x27, [sp, #416]
	ldr	w29, [sp, #424]
	ldr	x22, [sp, #192]
	b.ne	.LBB297c38d_26
	cbz	x1, .LBB297c38d_23
	ldr	x0, [sp, #168]
	bl	rattle_dealloc
	ldp	x17, x16, [sp, #504]
	mov	x15, x26
	ldr	w18, [sp, #500]
	ldr	x14, [sp, #520]
	mov	w13, w20
	mov	x12, x24
	mov	x11, x25
	mov	w10, w23
	mov	x9, x21
	mov	x0, x28
	mov	w8, w19
.LBB297c38d_23:
	cmp	w18, #1
	b.ne	.LBB297c38d_26
	cbz	x17, .LBB297c38d_26
	mov	x0, x16
	bl	rattle_dealloc
	ldr	x14, [sp, #520]
	mov	x15, x26
	mov	w13, w20
	mov	x12, x24
	mov	x11, x25
	mov	w10, w23
	mov	x9, x21
	mov	x0, x28
	mov	w8, w19
.LBB297c38d_26:
	ldr	w16, [sp, #184]
	cmp	w16, #1
	b.ne	.LBB297c38d_32
	cbz	x15, .LBB297c38d_29
	mov	x0, x14
	bl	rattle_dealloc
	mov	w13, w20
	mov	x12, x24
	mov	x11, x25
	mov	w10, w23
	mov	x9, x21
	mov	x0, x28
	mov	w8, w19
.LBB297c38d_29:
	cmp	w13, #1
	b.ne	.LBB297c38d_32
	cbz	x12, .LBB297c38d_32
	mov	x0, x11
	bl	rattle_dealloc
	mov	w10, w23
	mov	x9, x21
	mov	x0, x28
	mov	w8, w19
.LBB297c38d_32:
	cmp	w10, #1
	b.ne	.LBB297c38d_38
	cbz	x9, .LBB297c38d_35
	bl	rattle_dealloc
	mov	w8, w19
.LBB297c38d_35:
	cmp	w8, #1
	b.ne	.LBB297c38d_38
	cbz	x22, .LBB297c38d_38
	ldr	x0, [sp, #160]
	bl	rattle_dealloc
.LBB297c38d_38:
	ldr	w8, [sp, #428]
	cmp	w8, #1
	b.ne	.LBB297c38d_44
	ldr	x8, [sp, #304]
	cbz	x8, .LBB297c38d_41
	ldr	x0, [sp, #248]
	bl	rattle_dealloc
.LBB297c38d_41:
	ldr	w8, [sp, #300]
	cmp	w8, #1
	b.ne	.LBB297c38d_44
	ldr	x8, [sp, #264]
	cbz	x8, .LBB297c38d_44
	ldr	x0, [sp, #232]
	bl	rattle_dealloc
.LBB297c38d_44:
	cmp	w29, #1
	b.ne	.LBB297c38d_50
	ldr	x8, [sp, #288]
	cbz	x8, .LBB297c38d_47
	ldr	x0, [sp, #240]
	bl	rattle_dealloc
.LBB297c38d_47:
	ldr	w8, [sp, #276]
	cmp	w8, #1
	b.ne	.LBB297c38d_50
	ldr	x8, [sp, #256]
	cbz	x8, .LBB297c38d_50
	ldr	x0, [sp, #224]
	bl	rattle_dealloc
.LBB297c38d_50:
	cbz	x27, .LBB297c38d_52
	ldr	x0, [sp, #312]
	bl	rattle_dealloc
.LBB297c38d_52:
	ldr	x8, [sp, #392]
	cbz	x8, .LBB297c38d_54
	ldr	x0, [sp, #320]
	bl	rattle_dealloc
.LBB297c38d_54:
	mov	w0, #-3
.LBB297c38d_55:
	add	sp, sp, #1072
	ldp	x20, x19, [sp, #80]
	ldp	x22, x21, [sp, #64]
	ldp	x24, x23, [sp, #48]
	ldp	x26, x25, [sp, #32]
	ldp	x28, x27, [sp, #16]
	ldp	x29, x30, [sp], #96
	ret
.Lfunc_end297c38d:
	.size	lone_drive_c_handle_hold.4592c1f, .Lfunc_end297c38d-lone_drive_c_handle_hold.4592c1f

	.section	".text.dasd_files::volume_file::VolumeFileImageStore::write_at","ax",@progbits
	.p2align	2
	.type	dasd_files_volume_file_VolumeFileImageStore_write_at.fa93a83,@function
dasd_files_volume_file_VolumeFileImageStore_write_at.fa93a83:
	str	x30, [sp, #-64]!
	ldr	x8, [x0, #8]
	stp	x24, x23, [sp, #16]
	stp	x22, x21, [sp, #32]
	sub	x8, x8, x1
	stp	x20, x19, [sp, #48]
	cmp	x8, x3
	b.hs	.LBB940d290_2
	mov	w0, #1
	ldp	x20, x19, [sp, #48]
	ldp	x22, x21, [sp, #32]
	ldp	x24, x23, [sp, #16]
	ldr	x30, [sp], #64
	ret
.LBB940d290_2:
	ldr	x21, [x0]
	ldrb	w8, [x0, #32]
	add	x19, x21, x1
	cbz	w8, .LBB940d290_11
	cmp	x3, #4
	b.hs	.LBB940d290_17
	cbz	x3, .LBB940d290_19
	ldrb	w8, [x19]
	ldrb	w9, [x2]
	cmp	w8, w9
	b.ne	.LBB940d290_20
	cmp	x3, #1
	b.eq	.LBB940d290_19
	ldrb	w8, [x19, #1]
	ldrb	w9, [x2, #1]
	cmp	w8, w9
	b.ne	.LBB940d290_53
	cmp	x3, #2
	b.eq	.LBB940d290_19
	ldrb	w8, [x19, #2]
	ldrb	w9, [x2, #2]
	cmp	w8, w9
	b.eq	.LBB940d290_19
	mov	w8, #2
	cmp	x8, x3
	b.hs	.LBB940d290_19
	b	.LBB940d290_21
.LBB940d290_11:
	sub	x8, x19, x2
	cmp	x8, x3
	b.hs	.LBB940d290_27
	cmp	x3, #8
	b.lo	.LBB940d290_14
	add	x8, x1, x21
	sub	x8, x8, x2
	cmp	x8, #32
	b.hs	.LBB940d290_42
.LBB940d290_14:
	mov	x8, xzr
.LBB940d290_15:
	add	x10, x8, x1
	sub	x9, x3, x8
	add	x8, x2, x8
	add	x10, x21, x10
.LBB940d290_16:
	ldrb	w11, [x8], #1
	subs	x9, x9, #1
	strb	w11, [x10], #1
	b.ne	.LBB940d290_16
	b	.LBB940d290_28
.LBB940d290_17:
	ldr	w8, [x19]
	ldr	w9, [x2]
	cmp	w8, w9
	b.ne	.LBB940d290_21
	mov	x22, x0
	add	x0, x21, x1
	mov	x23, x1
	mov	x1, x3
	mov	x20, x2
	mov	x24, x3
	bl	core_cmp_slices_groups_equal_i8_31_core_cmp_numbers_U8PartialEq_.3f1b21c
	mov	x2, x20
	mov	x3, x24
	mov	x1, x23
	mov	w8, w0
	mov	x0, x22
	tbz	w8, #0, .LBB940d290_21
.LBB940d290_19:
	mov	w0, wzr
	ldp	x20, x19, [sp, #48]
	ldp	x22, x21, [sp, #32]
	ldp	x24, x23, [sp, #16]
	ldr	x30, [sp], #64
	ret
.LBB940d290_20:
	cmp	xzr, x3
	b.hs	.LBB940d290_19
.LBB940d290_21:
	sub	x8, x19, x2
	cmp	x8, x3
	b.hs	.LBB940d290_27
	cmp	x3, #8
	b.lo	.LBB940d290_24
	add	x8, x1, x21
	sub	x8, x8, x2
	cmp	x8, #32
	b.hs	.LBB940d290_44
.LBB940d290_24:
	mov	x8, xzr
.LBB940d290_25:
	add	x10, x8, x1
	sub	x9, x3, x8
	add	x8, x2, x8
	add	x10, x21, x10
.LBB940d290_26:
	ldrb	w11, [x8], #1
	subs	x9, x9, #1
	strb	w11, [x10], #1
	b.ne	.LBB940d290_26
	b	.LBB940d290_28
.LBB940d290_27:
	mov	x20, x0
	mov	x0, x19
	mov	x19, x1
	mov	x1, x2
	mov	x2, x3
	mov	x21, x3
	bl	memmove
	mov	x3, x21
	mov	x1, x19
	mov	x0, x20
.LBB940d290_28:
	ldrb	w9, [x0, #40]
	ldr	x8, [x0, #24]
	cmp	w9, #1
	b.ne	.LBB940d290_52
	cmn	x8, #1
	b.eq	.LBB940d290_36
	ldr	w10, [x0, #52]
	cbz	w10, .LBB940d290_73
	ldr	w12, [x0, #48]
	sub	x14, x3, #1
	ldr	x13, [x0, #64]
	add	x9, x1, x12
	udiv	x11, x9, x10
	msub	x9, x11, x10, x9
	add	x9, x9, x14
	cmp	x9, x10
	add	x9, x8, #1
	ccmp	x11, x13, #2, lo
	b.lo	.LBB940d290_40
	add	x14, x14, x1
	add	x14, x14, x10
	add	x12, x14, x12
	udiv	x10, x12, x10
	cmp	x13, x10
	csel	x12, x13, x10, lo
	cmp	x12, x11
	csel	x10, x12, x11, lo
	b.ls	.LBB940d290_52
	ldr	x11, [x0, #56]
	mvn	x13, x10
	add	x10, x11, x10, lsl #3
	adds	x11, x12, x13
	b.eq	.LBB940d290_41
	cmp	x11, #4
	b.hs	.LBB940d290_68
	mov	x12, xzr
	b	.LBB940d290_71
.LBB940d290_36:
	ldr	x11, [x0, #64]
	cbz	x11, .LBB940d290_52
	ldr	x9, [x0, #56]
	subs	x10, x11, #1
	b.eq	.LBB940d290_51
	cmp	x11, #5
	b.hs	.LBB940d290_46
	mov	x12, xzr
	b	.LBB940d290_49
.LBB940d290_40:
	ldr	x10, [x0, #56]
.LBB940d290_41:
	str	x9, [x10, x11, lsl #3]
	b	.LBB940d290_52
.LBB940d290_42:
	cmp	x3, #32
	b.hs	.LBB940d290_54
	mov	x8, xzr
	b	.LBB940d290_58
.LBB940d290_44:
	cmp	x3, #32
	b.hs	.LBB940d290_61
	mov	x8, xzr
	b	.LBB940d290_65
.LBB940d290_46:
	and	x12, x10, #0xfffffffffffffffc
	add	x13, x9, #16
	and	x14, x10, #0xfffffffffffffffc
.LBB940d290_47:
	mov	w15, #1
	subs	x14, x14, #4
	dup	v0.2d, x15
	stp	q0, q0, [x13, #-16]
	add	x13, x13, #32
	b.ne	.LBB940d290_47
	cmp	x10, x12
	b.eq	.LBB940d290_51
.LBB940d290_49:
	mvn	x13, x12
	add	x12, x9, x12, lsl #3
	add	x11, x13, x11
.LBB940d290_50:
	mov	w13, #1
	subs	x11, x11, #1
	str	x13, [x12], #8
	b.ne	.LBB940d290_50
.LBB940d290_51:
	mov	w11, #1
	str	x11, [x9, x10, lsl #3]
.LBB940d290_52:
	cmn	x8, #1
	mov	w10, #1
	strb	wzr, [x0, #32]
	csinc	x8, x10, x8, eq
	str	x8, [x0, #24]
	mov	w0, wzr
	ldp	x20, x19, [sp, #48]
	ldp	x22, x21, [sp, #32]
	ldp	x24, x23, [sp, #16]
	ldr	x30, [sp], #64
	ret
.LBB940d290_53:
	mov	w8, #1
	cmp	x8, x3
	b.hs	.LBB940d290_19
	b	.LBB940d290_21
.LBB940d290_54:
	add	x11, x1, x21
	and	x9, x3, #0x18
	and	x8, x3, #0xffffffffffffffe0
	add	x10, x2, #16
	add	x11, x11, #16
	and	x12, x3, #0xffffffffffffffe0
.LBB940d290_55:
	ldp	q0, q1, [x10, #-16]
	subs	x12, x12, #32
	add	x10, x10, #32
	stp	q0, q1, [x11, #-16]
	add	x11, x11, #32
	b.ne	.LBB940d290_55
	cmp	x3, x8
	b.eq	.LBB940d290_28
	cbz	x9, .LBB940d290_15
.LBB940d290_58:
	mov	x10, x8
	and	x8, x3, #0xfffffffffffffff8
	add	x11, x10, x1
	sub	x9, x10, x8
	add	x10, x2, x10
	add	x11, x21, x11
.LBB940d290_59:
	ldr	d0, [x10], #8
	adds	x9, x9, #8
	str	d0, [x11], #8
	b.ne	.LBB940d290_59
	cmp	x3, x8
	b.eq	.LBB940d290_28
	b	.LBB940d290_15
.LBB940d290_61:
	add	x11, x1, x21
	and	x9, x3, #0x18
	and	x8, x3, #0xffffffffffffffe0
	add	x10, x2, #16
	add	x11, x11, #16
	and	x12, x3, #0xffffffffffffffe0
.LBB940d290_62:
	ldp	q0, q1, [x10, #-16]
	subs	x12, x12, #32
	add	x10, x10, #32
	stp	q0, q1, [x11, #-16]
	add	x11, x11, #32
	b.ne	.LBB940d290_62
	cmp	x3, x8
	b.eq	.LBB940d290_28
	cbz	x9, .LBB940d290_25
.LBB940d290_65:
	mov	x10, x8
	and	x8, x3, #0xfffffffffffffff8
	add	x11, x10, x1
	sub	x9, x10, x8
	add	x10, x2, x10
	add	x11, x21, x11
.LBB940d290_66:
	ldr	d0, [x10], #8
	adds	x9, x9, #8
	str	d0, [x11], #8
	b.ne	.LBB940d290_66
	cmp	x3, x8
	b.eq	.LBB940d290_28
	b	.LBB940d290_25
.LBB940d290_68:
	dup	v0.2d, x9
	mov	x13, xzr
	and	x12, x11, #0xfffffffffffffffc
	and	x14, x11, #0xfffffffffffffffc
.LBB940d290_69:
	add	x15, x10, x13, lsl #3
	subs	x14, x14, #4
	add	x13, x13, #4
	stp	q0, q0, [x15]
	b.ne	.LBB940d290_69
	cmp	x11, x12
	b.eq	.LBB940d290_41
.LBB940d290_71:
	sub	x13, x11, x12
.LBB940d290_72:
	subs	x13, x13, #1
	str	x9, [x10, x12, lsl #3]
	add	x12, x12, #1
	b.ne	.LBB940d290_72
	b	.LBB940d290_41
.LBB940d290_73:
	brk	#0x1
.Lfunc_end940d290:
	.size	dasd_files_volume_file_VolumeFileImageStore_write_at.fa93a83, .Lfunc_end940d290-dasd_files_volume_file_VolumeFileImageStore_write_at.fa93a83

	.section	".text.ckd_image::stores::copy_file::<#700aef77bd01d6bd>","ax",@progbits
	.p2align	2
	.type	ckd_image_stores_copy_file_700aef77bd01d6bd_.84a472a,@function
ckd_image_stores_copy_file_700aef77bd01d6bd_.84a472a:
	sub	sp, sp, #128
	stp	x26, x25, [sp, #64]
	ldrb	w25, [x1]
	stp	x20, x19, [sp, #112]
	mov	x19, x0
	cmp	x25, #1
	stp	x29, x30, [sp, #32]
	stp	x28, x27, [sp, #48]
	stp	x24, x23, [sp, #80]
	stp	x22, x21, [sp, #96]
	b.ne	.LBBb4166c4_6
	ldp	x23, x20, [x1, #8]
	mov	x22, x1
	cbz	x20, .LBBb4166c4_7
	tbnz	x20, #63, .LBBb4166c4_33
	mov	x0, x20
	mov	w1, #1
	bl	rattle_alloc
	tbz	w0, #0, .LBBb4166c4_33
	mov	x21, x1
	sub	x9, x1, x23
	cmp	x9, x20
	b.lo	.LBBb4166c4_8
.LBBb4166c4_5:
	mov	x0, x21
	mov	x1, x23
	mov	x2, x20
	bl	memmove
	b	.LBBb4166c4_21
.LBBb4166c4_6:
	movi	v2.2d, #0000000000000000
	mov	x21, xzr
	mov	x20, xzr
	mov	x28, xzr
	mov	w27, wzr
	mov	x26, xzr
	mov	x22, xzr
	mov	x29, xzr
	b	.LBBb4166c4_36
.LBBb4166c4_7:
	add	x21, sp, #24
	sub	x9, x21, x23
	cmp	x9, x20
	b.hs	.LBBb4166c4_5
.LBBb4166c4_8:
	cmp	x20, #8
	mov	x8, xzr
	b.lo	.LBBb4166c4_19
	cmp	x9, #32
	b.lo	.LBBb4166c4_19
	cmp	x20, #32
	b.hs	.LBBb4166c4_12
	mov	x8, xzr
	b	.LBBb4166c4_16
.LBBb4166c4_12:
	and	x9, x20, #0x18
	and	x8, x20, #0xffffffffffffffe0
	add	x10, x23, #16
	add	x11, x21, #16
	and	x12, x20, #0xffffffffffffffe0
.LBBb4166c4_13:
	ldp	q0, q1, [x10, #-16]
	subs	x12, x12, #32
	add	x10, x10, #32
	stp	q0, q1, [x11, #-16]
	add	x11, x11, #32
	b.ne	.LBBb4166c4_13
	cmp	x20, x8
	b.eq	.LBBb4166c4_21
	cbz	x9, .LBBb4166c4_19
.LBBb4166c4_16:
	mov	x11, x8
	and	x8, x20, #0xfffffffffffffff8
	sub	x9, x11, x8
	add	x10, x23, x11
	add	x11, x21, x11
.LBBb4166c4_17:
	ldr	d0, [x10], #8
	adds	x9, x9, #8
	str	d0, [x11], #8
	b.ne	.LBBb4166c4_17
	cmp	x20, x8
	b.eq	.LBBb4166c4_21
.LBBb4166c4_19:
	sub	x9, x20, x8
	add	x10, x23, x8
	add	x8, x21, x8
.LBBb4166c4_20:
	ldrb	w11, [x10], #1
	subs	x9, x9, #1
	strb	w11, [x8], #1
	b.ne	.LBBb4166c4_20
.LBBb4166c4_21:
	ldrb	w26, [x22, #48]
	ldr	x28, [x22, #32]
	ldrb	w27, [x22, #40]
	cmp	x26, #1
	b.ne	.LBBb4166c4_30
	ldp	x23, x29, [x22, #64]
	ldr	d0, [x22, #56]
	cbz	x29, .LBBb4166c4_34
	lsr	x8, x29, #60
	cbnz	x8, .LBBb4166c4_31
	lsl	x24, x29, #3
	mov	w1, #8
	str	q0, [sp]
	mov	x0, x24
	bl	rattle_alloc
	ldr	q2, [sp]
	tbz	w0, #0, .LBBb4166c4_31
	sub	x8, x1, x23
	mov	x22, x1
	cmp	x8, x24
	b.hs	.LBBb4166c4_35
	cmp	x29, #4
	mov	x8, xzr
	b.lo	.LBBb4166c4_39
	sub	x9, x22, x23
	cmp	x9, #32
	b.lo	.LBBb4166c4_39
	and	x8, x29, #0xffffffffffffffc
	add	x9, x23, #16
	add	x10, x22, #16
	and	x11, x29, #0xffffffffffffffc
.LBBb4166c4_29:
	ldp	q0, q1, [x9, #-16]
	subs	x11, x11, #4
	add	x9, x9, #32
	stp	q0, q1, [x10, #-16]
	add	x10, x10, #32
	b.ne	.LBBb4166c4_29
	b	.LBBb4166c4_38
.LBBb4166c4_30:
	mov	x22, xzr
	movi	v2.2d, #0000000000000000
	mov	x29, xzr
	b	.LBBb4166c4_36
.LBBb4166c4_31:
	cbz	x20, .LBBb4166c4_33
	mov	x0, x21
	bl	rattle_dealloc
.LBBb4166c4_33:
	movi	v0.2d, #0000000000000000
	mov	w8, #1
	str	xzr, [x19, #88]
	strb	w8, [x19]
	stur	q0, [x19, #8]
	stur	q0, [x19, #24]
	stur	q0, [x19, #40]
	stur	q0, [x19, #56]
	stur	q0, [x19, #72]
	b	.LBBb4166c4_37
.LBBb4166c4_34:
	mov	x24, xzr
	add	x22, sp, #24
	str	q0, [sp]
.LBBb4166c4_35:
	mov	x0, x22
	mov	x1, x23
	mov	x2, x24
	bl	memmove
	ldr	q2, [sp]
.LBBb4166c4_36:
	stur	wzr, [sp, #19]
	str	wzr, [sp, #16]
	ldur	w9, [sp, #19]
	strb	wzr, [x19]
	stp	x25, x21, [x19, #8]
	stp	x20, x20, [x19, #24]
	str	x28, [x19, #40]
	strb	w27, [x19, #48]
	stur	wzr, [x19, #49]
	str	w9, [x19, #52]
	str	x26, [x19, #56]
	str	d2, [x19, #64]
	stp	x22, x29, [x19, #72]
	str	x29, [x19, #88]
.LBBb4166c4_37:
	ldp	x20, x19, [sp, #112]
	ldp	x22, x21, [sp, #96]
	ldp	x24, x23, [sp, #80]
	ldp	x26, x25, [sp, #64]
	ldp	x28, x27, [sp, #48]
	ldp	x29, x30, [sp, #32]
	add	sp, sp, #128
	ret
.LBBb4166c4_38:
	cmp	x29, x8
	b.eq	.LBBb4166c4_36
.LBBb4166c4_39:
	ldr	x9, [x23, x8, lsl #3]
	str	x9, [x22, x8, lsl #3]
	add	x8, x8, #1
	b	.LBBb4166c4_38
.Lfunc_endb4166c4:
	.size	ckd_image_stores_copy_file_700aef77bd01d6bd_.84a472a, .Lfunc_endb4166c4-ckd_image_stores_copy_file_700aef77bd01d6bd_.84a472a

	.section	".text.lone_drive_c::dasd_files++volume_file++VolumeFile+Destruct::drop","ax",@progbits
	.p2align	2
	.type	lone_drive_c_dasd_files_volume_file_VolumeFile_Destruct_drop.6038f02,@function
lone_drive_c_dasd_files_volume_file_VolumeFile_Destruct_drop.6038f02:
	stp	x30, x21, [sp, #-32]!
	stp	x20, x19, [sp, #16]
	ldr	x8, [x0, #16]
	ldrb	w21, [x0, #40]
	ldr	x19, [x0, #56]
	ldr	x20, [x0, #72]
	cbz	x8, .LBB2513607_2
	ldr	x0, [x0]
	bl	rattle_dealloc
.LBB2513607_2:
	cbz	w21, .LBB2513607_5
	cbz	x20, .LBB2513607_5
	mov	x0, x19
	ldp	x20, x19, [sp, #16]
	ldp	x30, x21, [sp], #32
	b	rattle_dealloc
.LBB2513607_5:
	ldp	x20, x19, [sp, #16]
	ldp	x30, x21, [sp], #32
	ret
.Lfunc_end2513607:
	.size	lone_drive_c_dasd_files_volume_file_VolumeFile_Destruct_drop.6038f02, .Lfunc_end2513607-lone_drive_c_dasd_files_volume_file_VolumeFile_Destruct_drop.6038f02

	.section	".text.std_alloc::boxed::Box::drop::<#3643461161959432>","ax",@progbits
	.p2align	2
	.type	std_alloc_boxed_Box_drop_3643461161959432_.3befa6e,@function
std_alloc_boxed_Box_drop_3643461161959432_.3befa6e:
	sub	sp, sp, #416
	ldr	x9, [x0, #64]
	ldr	x8, [x0, #152]
	ldr	x10, [x0, #96]
	stp	x29, x30, [sp, #320]
	ldrb	w29, [x0, #136]
	stp	x9, x8, [sp, #8]
	ldr	x8, [x0, #184]
	ldr	x9, [x0, #168]
	stp	x28, x27, [sp, #336]
	ldr	x28, [x0, #24]
	ldrb	w27, [x0, #264]
	stp	x10, x8, [sp, #72]
	ldrb	w8, [x0, #224]
	ldr	x10, [x0, #240]
	stp	x26, x25, [sp, #352]
	ldrb	w25, [x0, #48]
	ldrb	w26, [x0, #88]
	str	w8, [sp, #188]
	ldr	x8, [x0, #256]
	stp	x24, x23, [sp, #368]
	ldr	x24, [x0, #8]
	ldr	x23, [x0, #112]
	stp	x9, x8, [sp, #128]
	ldr	x8, [x0, #288]
	ldr	x9, [x0, #272]
	stp	x22, x21, [sp, #384]
	ldr	x21, [x0, #80]
	ldr	x22, [x0, #200]
	str	x8, [sp, #192]
	ldrb	w8, [x0, #312]
	stp	x20, x19, [sp, #400]
	ldrb	w20, [x0]
	ldrb	w19, [x0, #176]
	str	w8, [sp, #204]
	ldr	x8, [x0, #328]
	stp	x10, x8, [sp, #24]
	ldrb	w8, [x0, #352]
	ldr	x10, [x0, #344]
	str	w8, [sp, #288]
	ldr	x8, [x0, #360]
	stp	x9, x8, [sp, #88]
	ldr	x8, [x0, #376]
	ldr	x9, [x0, #416]
	str	x8, [sp, #208]
	ldrb	w8, [x0, #400]
	str	w8, [sp, #220]
	ldr	x8, [x0, #432]
	stp	x10, x8, [sp, #144]
	ldrb	w8, [x0, #440]
	ldr	x10, [x0, #448]
	str	w8, [sp, #292]
	ldr	x8, [x0, #464]
	str	x8, [sp, #224]
	ldrb	w8, [x0, #488]
	str	w8, [sp, #236]
	ldr	x8, [x0, #504]
	stp	x9, x8, [sp, #40]
	ldrb	w8, [x0, #528]
	ldr	x9, [x0, #520]
	str	w8, [sp, #296]
	ldr	x8, [x0, #536]
	stp	x10, x8, [sp, #104]
	ldr	x8, [x0, #552]
	ldr	x10, [x0, #592]
	str	x8, [sp, #240]
	ldrb	w8, [x0, #576]
	str	w8, [sp, #252]
	ldr	x8, [x0, #608]
	stp	x9, x8, [sp, #160]
	ldrb	w8, [x0, #616]
	ldr	x9, [x0, #744]
	str	w8, [sp, #300]
	ldr	x8, [x0, #624]
	str	x8, [sp, #120]
	ldr	x8, [x0, #640]
	str	x8, [sp, #256]
	ldrb	w8, [x0, #664]
	str	w8, [sp, #268]
	ldr	x8, [x0, #680]
	stp	x10, x8, [sp, #56]
	ldr	x8, [x0, #696]
	ldr	x10, [x0, #760]
	str	x8, [sp, #176]
	ldr	x8, [x0, #768]
	stp	x9, x8, [sp, #272]
	ldr	x8, [x0, #784]
	stp	x10, x8, [sp, #304]
	bl	rattle_dealloc
	cbz	w20, .LBBb4560b0_6
	cbz	x28, .LBBb4560b0_3
	mov	x0, x24
	bl	rattle_dealloc
.LBBb4560b0_3:
	cbz	w25, .LBBb4560b0_6
	cbz	x21, .LBBb4560b0_6
	ldr	x0, [sp, #8]
	bl	rattle_dealloc
.LBBb4560b0_6:
	cbz	w26, .LBBb4560b0_12
	cbz	x23, .LBBb4560b0_9
	ldr	x0, [sp, #72]
	bl	rattle_dealloc
.LBBb4560b0_9:
	cbz	w29, .LBBb4560b0_12
	ldr	x8, [sp, #128]
	cbz	x8, .LBBb4560b0_12
	ldr	x0, [sp, #16]
	bl	rattle_dealloc
.LBBb4560b0_12:
	cbz	w19, .LBBb4560b0_18
	cbz	x22, .LBBb4560b0_15
	ldr	x0, [sp, #80]
	bl	rattle_dealloc
.LBBb4560b0_15:
	ldr	w8, [sp, #188]
	cbz	w8, .LBBb4560b0_18
	ldr	x8, [sp, #136]
	cbz	x8, .LBBb4560b0_18
	ldr	x0, [sp, #24]
	bl	rattle_dealloc
.LBBb4560b0_18:
	cbz	w27, .LBBb4560b0_24
	ldr	x8, [sp, #192]
	cbz	x8, .LBBb4560b0_21
	ldr	x0, [sp, #88]
	bl	rattle_dealloc
.LBBb4560b0_21:
	ldr	w8, [sp, #204]
	cbz	w8, .LBBb4560b0_24
	ldr	x8, [sp, #144]
	cbz	x8, .LBBb4560b0_24
	ldr	x0, [sp, #32]
	bl	rattle_dealloc
.LBBb4560b0_24:
	ldr	w8, [sp, #288]
	cbz	w8, .LBBb4560b0_30
	ldr	x8, [sp, #208]
	cbz	x8, .LBBb4560b0_27
	ldr	x0, [sp, #96]
	bl	rattle_dealloc
.LBBb4560b0_27:
	ldr	w8, [sp, #220]
	cbz	w8, .LBBb4560b0_30
	ldr	x8, [sp, #152]
	cbz	x8, .LBBb4560b0_30
	ldr	x0, [sp, #40]
	bl	rattle_dealloc
.LBBb4560b0_30:
	ldr	w8, [sp, #292]
	cbz	w8, .LBBb4560b0_36
	ldr	x8, [sp, #224]
	cbz	x8, .LBBb4560b0_33
	ldr	x0, [sp, #104]
	bl	rattle_dealloc
.LBBb4560b0_33:
	ldr	w8, [sp, #236]
	cbz	w8, .LBBb4560b0_36
	ldr	x8, [sp, #160]
	cbz	x8, .LBBb4560b0_36
	ldr	x0, [sp, #48]
	bl	rattle_dealloc
.LBBb4560b0_36:
	ldr	w8, [sp, #296]
	cbz	w8, .LBBb4560b0_42
	ldr	x8, [sp, #240]
	cbz	x8, .LBBb4560b0_39
	ldr	x0, [sp, #112]
	bl	rattle_dealloc
.LBBb4560b0_39:
	ldr	w8, [sp, #252]
	cbz	w8, .LBBb4560b0_42
	ldr	x8, [sp, #168]
	cbz	x8, .LBBb4560b0_42
	ldr	x0, [sp, #56]
	bl	rattle_dealloc
.LBBb4560b0_42:
	ldr	w8, [sp, #300]
	cbz	w8, .LBBb4560b0_48
	ldr	x8, [sp, #256]
	cbz	x8, .LBBb4560b0_45
	ldr	x0, [sp, #120]
	bl	rattle_dealloc
.LBBb4560b0_45:
	ldr	w8, [sp, #268]
	cbz	w8, .LBBb4560b0_48
	ldr	x8, [sp, #176]
	cbz	x8, .LBBb4560b0_48
	ldr	x0, [sp, #64]
	bl	rattle_dealloc
.LBBb4560b0_48:
	ldr	x8, [sp, #304]
	cbz	x8, .LBBb4560b0_50
	ldr	x0, [sp, #272]
	bl	rattle_dealloc
.LBBb4560b0_50:
	ldr	x8, [sp, #312]
	cbz	x8, .LBBb4560b0_52
	ldp	x20, x19, [sp, #400]
	ldr	x0, [sp, #280]
	ldp	x22, x21, [sp, #384]
	ldp	x24, x23, [sp, #368]
	ldp	x26, x25, [sp, #352]
	ldp	x28, x27, [sp, #336]
	ldp	x29, x30, [sp, #320]
	add	sp, sp, #416
	b	rattle_dealloc
.LBBb4560b0_52:
	ldp	x20, x19, [sp, #400]
	ldp	x22, x21, [sp, #384]
	ldp	x24, x23, [sp, #368]
	ldp	x26, x25, [sp, #352]
	ldp	x28, x27, [sp, #336]
	ldp	x29, x30, [sp, #320]
	add	sp, sp, #416
	ret
.Lfunc_endb4560b0:
	.size	std_alloc_boxed_Box_drop_3643461161959432_.3befa6e, .Lfunc_endb4560b0-std_alloc_boxed_Box_drop_3643461161959432_.3befa6e

	.section	.rodata.cst16,"aM",@progbits,16
	.p2align	4, 0x0
.LCPI98f003d_0:
	.xword	1
	.xword	513
	.section	".text.ckd_drive::job::Job::start::<#808c45e55832e08b>","ax",@progbits
	.p2align	2
	.type	ckd_drive_job_Job_start_808c45e55832e08b_.d85c7fa,@function
ckd_drive_job_Job_start_808c45e55832e08b_.d85c7fa:
	and	w8, w2, #0xff
	cmp	w8, #29
	b.gt	.LBB98f003d_5
	cmp	w8, #6
	b.gt	.LBB98f003d_9
	cmp	w8, #5
	b.eq	.LBB98f003d_18
	cmp	w8, #6
	b.ne	.LBB98f003d_27
	strh	wzr, [x0, #868]
	mov	w8, #18
	b	.LBB98f003d_46
.LBB98f003d_5:
	cmp	w8, #133
	b.gt	.LBB98f003d_15
	cmp	w8, #30
	b.eq	.LBB98f003d_21
	cmp	w8, #49
	b.ne	.LBB98f003d_27
	strh	wzr, [x0, #868]
	mov	w8, #8
	str	xzr, [x0, #904]
	str	xzr, [x0, #920]
	str	xzr, [x0, #912]
	b	.LBB98f003d_47
.LBB98f003d_9:
	cmp	w8, #7
	b.eq	.LBB98f003d_22
	cmp	w8, #29
	b.ne	.LBB98f003d_27
	ldrb	w8, [x0, #896]
	sub	w8, w8, #1
	cmp	w8, #2
	b.lo	.LBB98f003d_19
	ldrb	w8, [x0, #904]
	cmp	w8, #1
	b.ne	.LBB98f003d_42
	ldrb	w8, [x0, #912]
	mov	w11, #1
	mov	w12, #22
	add	x10, x0, #904
	mov	w9, #32784
	lsl	w11, w11, w8
	tst	w11, w12
	b.eq	.LBB98f003d_20
	stp	xzr, xzr, [x10]
	ldr	x9, [x0, #920]
	cmp	w8, #3
	str	xzr, [x10, #16]
	mov	w11, #513
	cset	w8, ne
	strb	wzr, [x10, #24]
	mov	w10, #23
	csel	x9, x9, xzr, ne
	strb	w10, [x0, #936]
	add	x10, x0, #937
	strh	wzr, [x10, #4]
	str	wzr, [x10]
	csel	x10, x11, xzr, ne
	strh	wzr, [x0, #868]
	strb	wzr, [x0, #943]
	str	x8, [x0, #944]
	str	x10, [x0, #952]
	mov	w8, #4
	str	x9, [x0, #960]
	mov	w0, w8
	ret
.LBB98f003d_15:
	cmp	w8, #134
	b.eq	.LBB98f003d_24
	cmp	w8, #177
	b.ne	.LBB98f003d_27
	mov	w8, #8
	strh	wzr, [x0, #868]
	str	xzr, [x0, #904]
	str	xzr, [x0, #920]
	str	xzr, [x0, #912]
	b	.LBB98f003d_26
.LBB98f003d_18:
	ldrb	w8, [x0, #896]
	cmp	w8, #1
	b.ne	.LBB98f003d_34
.LBB98f003d_19:
	mov	w9, #32772
.LBB98f003d_20:
	movi	v0.2d, #0000000000000000
	strb	wzr, [x0, #928]
	add	x10, x0, #904
	str	xzr, [x0, #920]
	strh	w9, [x0, #868]
	mov	w0, wzr
	str	q0, [x10]
	ret
.LBB98f003d_21:
	mov	w8, #20
	strh	wzr, [x0, #868]
	b	.LBB98f003d_46
.LBB98f003d_22:
	ldrb	w8, [x0, #897]
	cbz	w8, .LBB98f003d_37
	movi	v0.2d, #0000000000000000
	mov	w10, #4
	strb	wzr, [x0, #928]
	add	x9, x0, #904
	str	xzr, [x0, #920]
	strh	w10, [x0, #868]
	mov	w0, wzr
	str	q0, [x9]
	ret
.LBB98f003d_24:
	strh	wzr, [x0, #868]
	mov	w8, #18
.LBB98f003d_25:
	str	xzr, [x0, #904]
	str	xzr, [x0, #920]
	str	xzr, [x0, #912]
	strb	wzr, [x0, #928]
.LBB98f003d_26:
	strb	w8, [x0, #936]
	add	x8, x0, #937
	mov	w9, #1
	strb	wzr, [x0, #943]
	strh	wzr, [x8, #4]
	str	w9, [x8]
	mov	w8, #4
	str	xzr, [x0, #944]
	str	xzr, [x0, #960]
	str	xzr, [x0, #952]
	mov	w0, w8
	ret
.LBB98f003d_27:
	and	w8, w2, #0x7f
	cmp	w8, #30
	b.hi	.LBB98f003d_41
	mov	w9, #1
	lsl	w8, w9, w8
	mov	w9, #16384
	movk	w9, #16388, lsl #16
	tst	w8, w9
	b.eq	.LBB98f003d_41
	and	w8, w2, #0xff
	cmp	w8, #141
	b.le	.LBB98f003d_38
	cmp	w8, #142
	b.eq	.LBB98f003d_43
	cmp	w8, #146
	b.eq	.LBB98f003d_44
	cmp	w8, #158
	b.ne	.LBB98f003d_41
	strh	wzr, [x0, #868]
	mov	w8, #20
	b	.LBB98f003d_25
.LBB98f003d_34:
	ldrb	w8, [x0, #904]
	mov	w9, #32784
	cmp	w8, #1
	b.ne	.LBB98f003d_20
	ldrb	w8, [x0, #912]
	sub	w8, w8, #3
	cmn	w8, #3
	b.ls	.LBB98f003d_20
	add	x8, x0, #904
	adrp	x10, .LCPI98f003d_0
	ldr	x9, [x0, #920]
	stp	xzr, xzr, [x8]
	ldr	q0, [x10, :lo12:.LCPI98f003d_0]
	str	xzr, [x8, #16]
	strb	wzr, [x8, #24]
	mov	w8, #24
	strb	w8, [x0, #936]
	add	x8, x0, #937
	strh	wzr, [x0, #868]
	strb	wzr, [x0, #943]
	strh	wzr, [x8, #4]
	str	wzr, [x8]
	str	q0, [x0, #944]
	mov	w8, #4
	str	x9, [x0, #960]
	mov	w0, w8
	ret
.LBB98f003d_37:
	strh	wzr, [x0, #868]
	mov	w8, #2
	b	.LBB98f003d_46
.LBB98f003d_38:
	cmp	w8, #14
	b.eq	.LBB98f003d_45
	cmp	w8, #18
	b.ne	.LBB98f003d_41
	strh	wzr, [x0, #868]
	mov	w8, #17
	b	.LBB98f003d_46
.LBB98f003d_41:
	b	ckd_drive_job_Job_start_elsewhere_808c45e55832e08b_.276fc35
.LBB98f003d_42:
	mov	w9, #32784
	b	.LBB98f003d_20
.LBB98f003d_43:
	strh	wzr, [x0, #868]
	mov	w8, #19
	b	.LBB98f003d_25
.LBB98f003d_44:
	strh	wzr, [x0, #868]
	mov	w8, #17
	b	.LBB98f003d_25
.LBB98f003d_45:
	strh	wzr, [x0, #868]
	mov	w8, #19
.LBB98f003d_46:
	str	xzr, [x0, #904]
	str	xzr, [x0, #920]
	str	xzr, [x0, #912]
	strb	wzr, [x0, #928]
.LBB98f003d_47:
	strb	w8, [x0, #936]
	add	x9, x0, #937
	str	xzr, [x0, #960]
	mov	w0, #4
	stp	xzr, xzr, [x9]
	str	xzr, [x9, #16]
	ret
.Lfunc_end98f003d:
	.size	ckd_drive_job_Job_start_808c45e55832e08b_.d85c7fa, .Lfunc_end98f003d-ckd_drive_job_Job_start_808c45e55832e08b_.d85c7fa

	.section	".text.ckd_drive::job::Job::leave::<#808c45e55832e08b>","ax",@progbits
	.p2align	2
	.type	ckd_drive_job_Job_leave_808c45e55832e08b_.db7d905,@function
ckd_drive_job_Job_leave_808c45e55832e08b_.db7d905:
	str	x30, [sp, #-48]!
	ldrb	w8, [x0, #856]
	stp	x22, x21, [sp, #16]
	mov	w21, w3
	stp	x20, x19, [sp, #32]
	mov	w22, w2
	mov	x20, x0
	cmp	w8, #1
	mov	x19, x1
	b.ne	.LBBcf88ed1_3
	mov	x0, x20
	bl	ckd_slot_cache_TrackCache_save_changed_808c45e55832e08b_.7b334c2
	and	w8, w0, #0xff
	tbz	w8, #0, .LBBcf88ed1_3
	movi	v0.2d, #0000000000000000
	ldrh	w8, [x20, #868]
	add	x9, x20, #904
	mov	w0, #1
	str	xzr, [x20, #920]
	orr	w8, w8, #0x1000
	strh	w8, [x20, #868]
	mov	w8, #2
	str	q0, [x9]
	strb	w8, [x19]
	ldp	x20, x19, [sp, #32]
	ldp	x22, x21, [sp, #16]
	ldr	x30, [sp], #48
	ret
.LBBcf88ed1_3:
	mov	w0, wzr
	strh	w22, [x20, #864]
	strh	w21, [x20, #866]
	str	xzr, [x20, #872]
	strh	wzr, [x20, #880]
	str	xzr, [x20, #888]
	strb	wzr, [x20, #928]
	strb	wzr, [x19]
	ldp	x20, x19, [sp, #32]
	ldp	x22, x21, [sp, #16]
	ldr	x30, [sp], #48
	ret
.Lfunc_endcf88ed1:
	.size	ckd_drive_job_Job_leave_808c45e55832e08b_.db7d905, .Lfunc_endcf88ed1-ckd_drive_job_Job_leave_808c45e55832e08b_.db7d905

	.section	".text.ckd_slot::cache::TrackCache::save_changed::<#808c45e55832e08b>","ax",@progbits
	.p2align	2
	.type	ckd_slot_cache_TrackCache_save_changed_808c45e55832e08b_.7b334c2,@function
ckd_slot_cache_TrackCache_save_changed_808c45e55832e08b_.7b334c2:
	str	x30, [sp, #-48]!
	ldrb	w8, [x0, #848]
	stp	x22, x21, [sp, #16]
	stp	x20, x19, [sp, #32]
	cmp	w8, #1
	b.ne	.LBB2438043_22
	ldr	w2, [x0, #852]
	mov	x19, x0
	ldr	x21, [x0, #744]
	ldr	x20, [x0, #752]
	ldr	w22, [x0, #708]
	mov	w1, #8
	strb	wzr, [x0, #856]
	add	x0, x0, #712
	bl	ckd_image_files_place_of.2003b0d
	umull	x8, w22, w1
	cmp	x0, #2
	b.le	.LBB2438043_7
	cmp	x0, #4
	b.gt	.LBB2438043_13
	cmp	x0, #3
	b.eq	.LBB2438043_23
	cmp	x0, #4
	b.ne	.LBB2438043_20
	ldrb	w9, [x19, #352]
	cmp	w9, #1
	b.ne	.LBB2438043_29
	add	x0, x19, #360
	add	x1, x8, #512
	mov	x2, x21
	mov	x3, x20
	bl	dasd_files_volume_file_VolumeFileImageStore_write_at.fa93a83
	and	w8, w0, #0xff
	tbnz	w8, #0, .LBB2438043_19
	b	.LBB2438043_22
.LBB2438043_7:
	cbz	x0, .LBB2438043_17
	cmp	x0, #1
	b.eq	.LBB2438043_27
	cmp	x0, #2
	b.ne	.LBB2438043_20
	ldrb	w9, [x19, #176]
	cmp	w9, #1
	b.ne	.LBB2438043_29
	add	x0, x19, #184
	add	x1, x8, #512
	mov	x2, x21
	mov	x3, x20
	bl	dasd_files_volume_file_VolumeFileImageStore_write_at.fa93a83
	and	w8, w0, #0xff
	tbnz	w8, #0, .LBB2438043_19
	mov	w0, wzr
	ldp	x20, x19, [sp, #32]
	ldp	x22, x21, [sp, #16]
	ldr	x30, [sp], #48
	ret
.LBB2438043_13:
	cmp	x0, #5
	b.eq	.LBB2438043_25
	cmp	x0, #6
	b.ne	.LBB2438043_20
	ldrb	w9, [x19, #528]
	cmp	w9, #1
	b.ne	.LBB2438043_29
	add	x0, x19, #536
	add	x1, x8, #512
	mov	x2, x21
	mov	x3, x20
	bl	dasd_files_volume_file_VolumeFileImageStore_write_at.fa93a83
	and	w8, w0, #0xff
	tbz	w8, #0, .LBB2438043_22
	b	.LBB2438043_19
.LBB2438043_17:
	ldrb	w9, [x19]
	cmp	w9, #1
	b.ne	.LBB2438043_29
	add	x0, x19, #8
	add	x1, x8, #512
	mov	x2, x21
	mov	x3, x20
	bl	dasd_files_volume_file_VolumeFileImageStore_write_at.fa93a83
	tst	w0, #0xff
	b.eq	.LBB2438043_22
.LBB2438043_19:
	movi	v0.2d, #0000000000000000
	mov	w0, #1
	str	d0, [x19, #848]
	ldp	x20, x19, [sp, #32]
	ldp	x22, x21, [sp, #16]
	ldr	x30, [sp], #48
	ret
.LBB2438043_20:
	ldrb	w9, [x19, #616]
	cmp	w9, #1
	b.ne	.LBB2438043_29
	add	x0, x19, #624
	add	x1, x8, #512
	mov	x2, x21
	mov	x3, x20
	bl	dasd_files_volume_file_VolumeFileImageStore_write_at.fa93a83
	and	w8, w0, #0xff
	tbnz	w8, #0, .LBB2438043_19
.LBB2438043_22:
	mov	w0, wzr
	ldp	x20, x19, [sp, #32]
	ldp	x22, x21, [sp, #16]
	ldr	x30, [sp], #48
	ret
.LBB2438043_23:
	ldrb	w9, [x19, #264]
	cmp	w9, #1
	b.ne	.LBB2438043_29
	add	x0, x19, #272
	add	x1, x8, #512
	mov	x2, x21
	mov	x3, x20
	bl	dasd_files_volume_file_VolumeFileImageStore_write_at.fa93a83
	and	w8, w0, #0xff
	tbz	w8, #0, .LBB2438043_22
	b	.LBB2438043_19
.LBB2438043_25:
	ldrb	w9, [x19, #440]
	cmp	w9, #1
	b.ne	.LBB2438043_29
	add	x0, x19, #448
	add	x1, x8, #512
	mov	x2, x21
	mov	x3, x20
	bl	dasd_files_volume_file_VolumeFileImageStore_write_at.fa93a83
	and	w8, w0, #0xff
	tbz	w8, #0, .LBB2438043_22
	b	.LBB2438043_19
.LBB2438043_27:
	ldrb	w9, [x19, #88]
	cmp	w9, #1
	b.ne	.LBB2438043_29
	add	x0, x19, #96
	add	x1, x8, #512
	mov	x2, x21
	mov	x3, x20
	bl	dasd_files_volume_file_VolumeFileImageStore_write_at.fa93a83
	and	w8, w0, #0xff
	tbz	w8, #0, .LBB2438043_22
	b	.LBB2438043_19
.LBB2438043_29:
	brk	#0x1
.Lfunc_end2438043:
	.size	ckd_slot_cache_TrackCache_save_changed_808c45e55832e08b_.7b334c2, .Lfunc_end2438043-ckd_slot_cache_TrackCache_save_changed_808c45e55832e08b_.7b334c2

	.section	".text.ckd_image::files::place_of","ax",@progbits
	.p2align	2
	.type	ckd_image_files_place_of.2003b0d,@function
ckd_image_files_place_of.2003b0d:
	ldr	w9, [x0], #4
	mov	w8, w2
	subs	w2, w2, w9
	b.hs	.LBB531e601_2
	mov	x0, xzr
	mov	w1, w8
	ret
.LBB531e601_2:
	str	x30, [sp, #-16]!
	sub	x1, x1, #1
	bl	ckd_image_files_place_of.2003b0d
	add	x0, x0, #1
	ldr	x30, [sp], #16
	ret
.Lfunc_end531e601:
	.size	ckd_image_files_place_of.2003b0d, .Lfunc_end531e601-ckd_image_files_place_of.2003b0d

	.section	".text.ckd_drive::job::Job::start_elsewhere::<#808c45e55832e08b>","ax",@progbits
	.p2align	2
	.type	ckd_drive_job_Job_start_elsewhere_808c45e55832e08b_.276fc35,@function
ckd_drive_job_Job_start_elsewhere_808c45e55832e08b_.276fc35:
	stp	x30, x23, [sp, #-48]!
	and	w8, w2, #0xff
	stp	x22, x21, [sp, #16]
	sub	w9, w8, #2
	stp	x20, x19, [sp, #32]
	cmp	w9, #239
	b.hi	.LBBc726510_31
	adrp	x10, .LJTIc726510_0
	add	x10, x10, :lo12:.LJTIc726510_0
	mov	w8, wzr
	adr	x12, .LBBc726510_2
	ldrb	w11, [x10, x9]
	add	x12, x12, x11, lsl #2
	mov	w9, #21
	mov	w11, #24
	br	x12
.LBBc726510_2:
	mov	w8, #18
	b	.LBBc726510_33
.LBBc726510_3:
	mov	w8, #12
	b	.LBBc726510_33
.LBBc726510_4:
	mov	w8, #7
	b	.LBBc726510_33
.LBBc726510_5:
	mov	w8, #13
	b	.LBBc726510_33
.LBBc726510_6:
	mov	w8, #9
	b	.LBBc726510_33
.LBBc726510_7:
	mov	w8, #20
	b	.LBBc726510_33
.LBBc726510_8:
	mov	w8, #10
	b	.LBBc726510_33
.LBBc726510_9:
	mov	w8, #15
	b	.LBBc726510_33
.LBBc726510_10:
	mov	w8, #19
	b	.LBBc726510_33
.LBBc726510_11:
	mov	w8, #17
	b	.LBBc726510_33
.LBBc726510_12:
	mov	w8, #16
	b	.LBBc726510_33
.LBBc726510_13:
	mov	w8, #8
	b	.LBBc726510_33
.LBBc726510_14:
	mov	w8, #11
	b	.LBBc726510_33
.LBBc726510_15:
	mov	w9, #22
.LBBc726510_16:
	ldrb	w8, [x0, #896]
	cmp	w8, #3
	b.ne	.LBBc726510_18
	mov	w19, wzr
	b	.LBBc726510_34
.LBBc726510_18:
	mov	w10, #32772
	b	.LBBc726510_61
.LBBc726510_19:
	mov	w8, #4
	b	.LBBc726510_33
.LBBc726510_20:
	mov	w8, #3
	b	.LBBc726510_33
.LBBc726510_21:
	mov	w11, #25
.LBBc726510_22:
	ldrb	w8, [x0, #896]
	cmp	w8, #1
	b.ne	.LBBc726510_26
	mov	w10, #32772
	mov	w9, w11
	b	.LBBc726510_61
.LBBc726510_24:
	mov	w8, #14
	b	.LBBc726510_33
.LBBc726510_25:
	mov	w8, #6
	b	.LBBc726510_33
.LBBc726510_26:
	mov	w19, wzr
	mov	w9, w11
	b	.LBBc726510_34
.LBBc726510_27:
	mov	w8, #2
	b	.LBBc726510_33
.LBBc726510_28:
	ldrb	w8, [x0, #896]
	sub	w8, w8, #1
	cmp	w8, #2
	b.hs	.LBBc726510_82
	mov	w10, #32772
	b	.LBBc726510_88
.LBBc726510_30:
	mov	w8, #1
	b	.LBBc726510_33
.LBBc726510_31:
	movi	v0.2d, #0000000000000000
	add	x9, x0, #904
	mov	w10, #32768
	mov	w8, wzr
	strb	wzr, [x0, #928]
	str	xzr, [x0, #920]
	strh	w10, [x0, #868]
	str	q0, [x9]
	ldp	x20, x19, [sp, #32]
	mov	w0, w8
	ldp	x22, x21, [sp, #16]
	ldp	x30, x23, [sp], #48
	ret
.LBBc726510_32:
	mov	w8, #5
.LBBc726510_33:
	ubfx	w19, w2, #7, #1
	mov	w9, w8
.LBBc726510_34:
	ldrb	w8, [x0, #897]
	cmp	w9, #3
	b.le	.LBBc726510_46
	mov	w10, #1
	mov	w11, #49120
	lsl	w10, w10, w9
	movk	w11, #895, lsl #16
	tst	w10, w11
	b.eq	.LBBc726510_56
.LBBc726510_36:
	mov	w8, #1
	lsl	w8, w8, w9
	tst	w8, #0x3fff80
	b.eq	.LBBc726510_42
.LBBc726510_37:
	sub	w8, w9, #7
	mov	x21, xzr
	mov	x20, xzr
	cmp	w8, #7
	mov	x22, xzr
	b.lo	.LBBc726510_39
.LBBc726510_38:
	strb	wzr, [x0, #928]
.LBBc726510_39:
	ldrh	w8, [x0, #868]
	movi	v0.2d, #0000000000000000
	cmp	w9, #6
	add	x10, x0, #904
	str	xzr, [x0, #920]
	csel	w8, w8, wzr, eq
	cmp	w9, #25
	strh	w8, [x0, #868]
	mov	w8, #1
	str	q0, [x10]
	b.hi	.LBBc726510_79
	lsl	w10, w8, w9
	and	w10, w10, #0x3fffffc
	tst	w10, #0xffffbfff
	b.eq	.LBBc726510_68
	add	x8, x0, #937
	strb	w9, [x0, #936]
	strh	wzr, [x8, #4]
	str	w19, [x8]
	mov	w8, #4
	strb	wzr, [x0, #943]
	str	x21, [x0, #944]
	str	x22, [x0, #952]
	str	x20, [x0, #960]
	ldp	x20, x19, [sp, #32]
	mov	w0, w8
	ldp	x22, x21, [sp, #16]
	ldp	x30, x23, [sp], #48
	ret
.LBBc726510_42:
	tst	w8, #0x7f
	b.eq	.LBBc726510_50
	cmp	w9, #5
	b.ne	.LBBc726510_37
	ldrb	w8, [x0, #898]
	tbz	w8, #0, .LBBc726510_70
	mov	w10, #32784
	mov	w11, #5
	b	.LBBc726510_89
.LBBc726510_46:
	sub	w10, w9, #1
	cmp	w10, #2
	b.lo	.LBBc726510_59
	cbz	w9, .LBBc726510_36
	and	w8, w8, #0xfe
	cmp	w8, #2
	b.ne	.LBBc726510_37
	mov	w10, #4
	mov	w11, #3
	b	.LBBc726510_89
.LBBc726510_50:
	ldrb	w10, [x0, #904]
	ldrb	w8, [x0, #912]
	cmp	w9, #23
	b.gt	.LBBc726510_62
	cmp	w9, #22
	b.ne	.LBBc726510_83
	cmp	w10, #1
	b.ne	.LBBc726510_80
	mov	w9, #1
	mov	w11, #22
	mov	w10, #32784
	lsl	w8, w9, w8
	tst	w8, w11
	b.ne	.LBBc726510_89
	ldrb	w8, [x0, #904]
	cmp	w8, #1
	b.ne	.LBBc726510_92
	ldrb	w8, [x0, #912]
	mov	w21, #1
	mov	w9, #22
	mov	x20, xzr
	mov	x22, xzr
	lsl	w8, w21, w8
	tst	w8, w9
	b.ne	.LBBc726510_93
	b	.LBBc726510_38
.LBBc726510_56:
	cmp	w9, #4
	b.ne	.LBBc726510_59
	and	w8, w8, #0xff
	cmp	w8, #3
	b.ne	.LBBc726510_37
	mov	w11, #4
	mov	w10, #4
	b	.LBBc726510_89
.LBBc726510_59:
	tst	w8, #0xff
	b.eq	.LBBc726510_36
	mov	w10, #4
.LBBc726510_61:
	sub	w8, w9, #7
	mov	w11, w9
	cmp	w8, #7
	b.hs	.LBBc726510_89
	b	.LBBc726510_90
.LBBc726510_62:
	cmp	w9, #24
	b.ne	.LBBc726510_71
	cmp	w10, #1
	mov	w10, #32784
	mov	w11, #24
	b.ne	.LBBc726510_89
	sub	w8, w8, #1
	cmp	w8, #1
	b.hi	.LBBc726510_89
	ldrb	w8, [x0, #904]
	cmp	w8, #1
	b.ne	.LBBc726510_93
	ldrb	w8, [x0, #912]
	sub	w8, w8, #1
	cmp	w8, #2
	b.hs	.LBBc726510_93
	ldr	x20, [x0, #920]
	mov	w9, #24
	b	.LBBc726510_76
.LBBc726510_68:
	cmp	w9, #1
	b.ne	.LBBc726510_77
	mov	w2, wzr
	mov	w3, wzr
	bl	ckd_drive_job_Job_leave_808c45e55832e08b_.db7d905
	and	w8, w0, #0xff
	lsl	w8, w8, #1
	eor	w8, w8, #0x2
	ldp	x20, x19, [sp, #32]
	mov	w0, w8
	ldp	x22, x21, [sp, #16]
	ldp	x30, x23, [sp], #48
	ret
.LBBc726510_70:
	mov	x21, xzr
	mov	x20, xzr
	mov	x22, xzr
	mov	w9, #5
	b	.LBBc726510_38
.LBBc726510_71:
	cmp	w10, #1
	mov	w10, #32784
	mov	w11, #25
	b.ne	.LBBc726510_89
	cmp	w8, #1
	b.ne	.LBBc726510_89
	ldrb	w8, [x0, #904]
	cmp	w8, #1
	b.ne	.LBBc726510_93
	ldrb	w8, [x0, #912]
	cmp	w8, #1
	b.ne	.LBBc726510_93
	ldr	x20, [x0, #920]
	mov	w9, #25
.LBBc726510_76:
	mov	w22, #513
	mov	w21, #1
	b	.LBBc726510_38
.LBBc726510_77:
	cmp	w9, #14
	b.ne	.LBBc726510_79
	mov	w2, wzr
	mov	w3, wzr
	mov	x23, x0
	bl	ckd_drive_job_Job_leave_808c45e55832e08b_.db7d905
	mov	w8, #2
	ands	w9, w0, #0xff
	csel	w8, wzr, w8, ne
	tbz	w9, #0, .LBBc726510_81
.LBBc726510_79:
	ldp	x20, x19, [sp, #32]
	mov	w0, w8
	ldp	x22, x21, [sp, #16]
	ldp	x30, x23, [sp], #48
	ret
.LBBc726510_80:
	mov	w10, #32784
	mov	w11, #22
	b	.LBBc726510_89
.LBBc726510_81:
	mov	w8, w19
	mov	w9, #14
	str	x21, [x23, #944]
	orr	x8, x9, x8, lsl #8
	str	x22, [x23, #952]
	str	x20, [x23, #960]
	str	x8, [x23, #936]
	mov	w8, #4
	ldp	x20, x19, [sp, #32]
	mov	w0, w8
	ldp	x22, x21, [sp, #16]
	ldp	x30, x23, [sp], #48
	ret
.LBBc726510_82:
	ldrb	w10, [x0, #904]
	ldrb	w8, [x0, #912]
	mov	w19, wzr
.LBBc726510_83:
	cmp	w10, #1
	b.ne	.LBBc726510_87
	mov	w9, #1
	mov	w10, #32784
	mov	w11, #23
	lsl	w8, w9, w8
	mov	w9, #22
	tst	w8, w9
	b.eq	.LBBc726510_89
	ldrb	w8, [x0, #904]
	cmp	w8, #1
	b.ne	.LBBc726510_91
	ldrb	w8, [x0, #912]
	mov	w21, #1
	ldr	x20, [x0, #920]
	mov	w10, #22
	mov	w9, #23
	mov	w22, #513
	lsl	w8, w21, w8
	tst	w8, w10
	b.ne	.LBBc726510_38
	b	.LBBc726510_93
.LBBc726510_87:
	mov	w10, #32784
.LBBc726510_88:
	mov	w11, #23
.LBBc726510_89:
	strb	wzr, [x0, #928]
.LBBc726510_90:
	ldrh	w9, [x0, #868]
	cmp	w11, #6
	mov	w8, wzr
	str	xzr, [x0, #904]
	csel	w9, w9, wzr, eq
	str	xzr, [x0, #920]
	orr	w9, w9, w10
	str	xzr, [x0, #912]
	strh	w9, [x0, #868]
	ldp	x20, x19, [sp, #32]
	mov	w0, w8
	ldp	x22, x21, [sp, #16]
	ldp	x30, x23, [sp], #48
	ret
.LBBc726510_91:
	mov	w9, #23
	b	.LBBc726510_93
.LBBc726510_92:
	mov	w9, #22
.LBBc726510_93:
	mov	x21, xzr
	mov	x20, xzr
	mov	x22, xzr
	b	.LBBc726510_38
.Lfunc_endc726510:
	.size	ckd_drive_job_Job_start_elsewhere_808c45e55832e08b_.276fc35, .Lfunc_endc726510-ckd_drive_job_Job_start_elsewhere_808c45e55832e08b_.276fc35
	.section	".rodata.ckd_drive::job::Job::start_elsewhere::<#808c45e55832e08b>","a",@progbits
.LJTIc726510_0:
	.byte	(.LBBc726510_24-.LBBc726510_2)>>2
	.byte	(.LBBc726510_33-.LBBc726510_2)>>2
	.byte	(.LBBc726510_25-.LBBc726510_2)>>2
	.byte	(.LBBc726510_22-.LBBc726510_2)>>2
	.byte	(.LBBc726510_2-.LBBc726510_2)>>2
	.byte	(.LBBc726510_27-.LBBc726510_2)>>2
	.byte	(.LBBc726510_31-.LBBc726510_2)>>2
	.byte	(.LBBc726510_31-.LBBc726510_2)>>2
	.byte	(.LBBc726510_31-.LBBc726510_2)>>2
	.byte	(.LBBc726510_20-.LBBc726510_2)>>2
	.byte	(.LBBc726510_31-.LBBc726510_2)>>2
	.byte	(.LBBc726510_21-.LBBc726510_2)>>2
	.byte	(.LBBc726510_10-.LBBc726510_2)>>2
	.byte	(.LBBc726510_31-.LBBc726510_2)>>2
	.byte	(.LBBc726510_31-.LBBc726510_2)>>2
	.byte	(.LBBc726510_31-.LBBc726510_2)>>2
	.byte	(.LBBc726510_11-.LBBc726510_2)>>2
	.byte	(.LBBc726510_30-.LBBc726510_2)>>2
	.byte	(.LBBc726510_31-.LBBc726510_2)>>2
	.byte	(.LBBc726510_15-.LBBc726510_2)>>2
	.byte	(.LBBc726510_12-.LBBc726510_2)>>2
	.byte	(.LBBc726510_31-.LBBc726510_2)>>2
	.byte	(.LBBc726510_31-.LBBc726510_2)>>2
	.byte	(.LBBc726510_16-.LBBc726510_2)>>2
	.byte	(.LBBc726510_9-.LBBc726510_2)>>2
	.byte	(.LBBc726510_19-.LBBc726510_2)>>2
	.byte	(.LBBc726510_31-.LBBc726510_2)>>2
	.byte	(.LBBc726510_28-.LBBc726510_2)>>2
	.byte	(.LBBc726510_7-.LBBc726510_2)>>2
	.byte	(.LBBc726510_32-.LBBc726510_2)>>2
	.byte	(.LBBc726510_31-.LBBc726510_2)>>2
	.byte	(.LBBc726510_31-.LBBc726510_2)>>2
	.byte	(.LBBc726510_31-.LBBc726510_2)>>2
	.byte	(.LBBc726510_31-.LBBc726510_2)>>2
	.byte	(.LBBc726510_31-.LBBc726510_2)>>2
	.byte	(.LBBc726510_31-.LBBc726510_2)>>2
	.byte	(.LBBc726510_31-.LBBc726510_2)>>2
	.byte	(.LBBc726510_31-.LBBc726510_2)>>2
	.byte	(.LBBc726510_31-.LBBc726510_2)>>2
	.byte	(.LBBc726510_14-.LBBc726510_2)>>2
	.byte	(.LBBc726510_31-.LBBc726510_2)>>2
	.byte	(.LBBc726510_31-.LBBc726510_2)>>2
	.byte	(.LBBc726510_31-.LBBc726510_2)>>2
	.byte	(.LBBc726510_31-.LBBc726510_2)>>2
	.byte	(.LBBc726510_31-.LBBc726510_2)>>2
	.byte	(.LBBc726510_31-.LBBc726510_2)>>2
	.byte	(.LBBc726510_31-.LBBc726510_2)>>2
	.byte	(.LBBc726510_13-.LBBc726510_2)>>2
	.byte	(.LBBc726510_31-.LBBc726510_2)>>2
	.byte	(.LBBc726510_31-.LBBc726510_2)>>2
	.byte	(.LBBc726510_31-.LBBc726510_2)>>2
	.byte	(.LBBc726510_31-.LBBc726510_2)>>2
	.byte	(.LBBc726510_31-.LBBc726510_2)>>2
	.byte	(.LBBc726510_31-.LBBc726510_2)>>2
	.byte	(.LBBc726510_31-.LBBc726510_2)>>2
	.byte	(.LBBc726510_4-.LBBc726510_2)>>2
	.byte	(.LBBc726510_31-.LBBc726510_2)>>2
	.byte	(.LBBc726510_31-.LBBc726510_2)>>2
	.byte	(.LBBc726510_31-.LBBc726510_2)>>2
	.byte	(.LBBc726510_31-.LBBc726510_2)>>2
	.byte	(.LBBc726510_31-.LBBc726510_2)>>2
	.byte	(.LBBc726510_31-.LBBc726510_2)>>2
	.byte	(.LBBc726510_31-.LBBc726510_2)>>2
	.byte	(.LBBc726510_31-.LBBc726510_2)>>2
	.byte	(.LBBc726510_31-.LBBc726510_2)>>2
	.byte	(.LBBc726510_31-.LBBc726510_2)>>2
	.byte	(.LBBc726510_31-.LBBc726510_2)>>2
	.byte	(.LBBc726510_31-.LBBc726510_2)>>2
	.byte	(.LBBc726510_31-.LBBc726510_2)>>2
	.byte	(.LBBc726510_31-.LBBc726510_2)>>2
	.byte	(.LBBc726510_31-.LBBc726510_2)>>2
	.byte	(.LBBc726510_3-.LBBc726510_2)>>2
	.byte	(.LBBc726510_31-.LBBc726510_2)>>2
	.byte	(.LBBc726510_31-.LBBc726510_2)>>2
	.byte	(.LBBc726510_31-.LBBc726510_2)>>2
	.byte	(.LBBc726510_31-.LBBc726510_2)>>2
	.byte	(.LBBc726510_31-.LBBc726510_2)>>2
	.byte	(.LBBc726510_31-.LBBc726510_2)>>2
	.byte	(.LBBc726510_31-.LBBc726510_2)>>2
	.byte	(.LBBc726510_6-.LBBc726510_2)>>2
	.byte	(.LBBc726510_31-.LBBc726510_2)>>2
	.byte	(.LBBc726510_31-.LBBc726510_2)>>2
	.byte	(.LBBc726510_31-.LBBc726510_2)>>2
	.byte	(.LBBc726510_31-.LBBc726510_2)>>2
	.byte	(.LBBc726510_31-.LBBc726510_2)>>2
	.byte	(.LBBc726510_31-.LBBc726510_2)>>2
	.byte	(.LBBc726510_31-.LBBc726510_2)>>2
	.byte	(.LBBc726510_31-.LBBc726510_2)>>2
	.byte	(.LBBc726510_31-.LBBc726510_2)>>2
	.byte	(.LBBc726510_31-.LBBc726510_2)>>2
	.byte	(.LBBc726510_31-.LBBc726510_2)>>2
	.byte	(.LBBc726510_31-.LBBc726510_2)>>2
	.byte	(.LBBc726510_31-.LBBc726510_2)>>2
	.byte	(.LBBc726510_31-.LBBc726510_2)>>2
	.byte	(.LBBc726510_31-.LBBc726510_2)>>2
	.byte	(.LBBc726510_31-.LBBc726510_2)>>2
	.byte	(.LBBc726510_31-.LBBc726510_2)>>2
	.byte	(.LBBc726510_31-.LBBc726510_2)>>2
	.byte	(.LBBc726510_31-.LBBc726510_2)>>2
	.byte	(.LBBc726510_31-.LBBc726510_2)>>2
	.byte	(.LBBc726510_31-.LBBc726510_2)>>2
	.byte	(.LBBc726510_31-.LBBc726510_2)>>2
	.byte	(.LBBc726510_31-.LBBc726510_2)>>2
	.byte	(.LBBc726510_5-.LBBc726510_2)>>2
	.byte	(.LBBc726510_31-.LBBc726510_2)>>2
	.byte	(.LBBc726510_31-.LBBc726510_2)>>2
	.byte	(.LBBc726510_31-.LBBc726510_2)>>2
	.byte	(.LBBc726510_31-.LBBc726510_2)>>2
	.byte	(.LBBc726510_31-.LBBc726510_2)>>2
	.byte	(.LBBc726510_31-.LBBc726510_2)>>2
	.byte	(.LBBc726510_31-.LBBc726510_2)>>2
	.byte	(.LBBc726510_8-.LBBc726510_2)>>2
	.byte	(.LBBc726510_31-.LBBc726510_2)>>2
	.byte	(.LBBc726510_31-.LBBc726510_2)>>2
	.byte	(.LBBc726510_31-.LBBc726510_2)>>2
	.byte	(.LBBc726510_31-.LBBc726510_2)>>2
	.byte	(.LBBc726510_31-.LBBc726510_2)>>2
	.byte	(.LBBc726510_31-.LBBc726510_2)>>2
	.byte	(.LBBc726510_31-.LBBc726510_2)>>2
	.byte	(.LBBc726510_31-.LBBc726510_2)>>2
	.byte	(.LBBc726510_31-.LBBc726510_2)>>2
	.byte	(.LBBc726510_31-.LBBc726510_2)>>2
	.byte	(.LBBc726510_31-.LBBc726510_2)>>2
	.byte	(.LBBc726510_31-.LBBc726510_2)>>2
	.byte	(.LBBc726510_31-.LBBc726510_2)>>2
	.byte	(.LBBc726510_31-.LBBc726510_2)>>2
	.byte	(.LBBc726510_31-.LBBc726510_2)>>2
	.byte	(.LBBc726510_31-.LBBc726510_2)>>2
	.byte	(.LBBc726510_31-.LBBc726510_2)>>2
	.byte	(.LBBc726510_31-.LBBc726510_2)>>2
	.byte	(.LBBc726510_31-.LBBc726510_2)>>2
	.byte	(.LBBc726510_31-.LBBc726510_2)>>2
	.byte	(.LBBc726510_2-.LBBc726510_2)>>2
	.byte	(.LBBc726510_31-.LBBc726510_2)>>2
	.byte	(.LBBc726510_31-.LBBc726510_2)>>2
	.byte	(.LBBc726510_31-.LBBc726510_2)>>2
	.byte	(.LBBc726510_31-.LBBc726510_2)>>2
	.byte	(.LBBc726510_31-.LBBc726510_2)>>2
	.byte	(.LBBc726510_31-.LBBc726510_2)>>2
	.byte	(.LBBc726510_31-.LBBc726510_2)>>2
	.byte	(.LBBc726510_10-.LBBc726510_2)>>2
	.byte	(.LBBc726510_31-.LBBc726510_2)>>2
	.byte	(.LBBc726510_31-.LBBc726510_2)>>2
	.byte	(.LBBc726510_31-.LBBc726510_2)>>2
	.byte	(.LBBc726510_11-.LBBc726510_2)>>2
	.byte	(.LBBc726510_31-.LBBc726510_2)>>2
	.byte	(.LBBc726510_31-.LBBc726510_2)>>2
	.byte	(.LBBc726510_31-.LBBc726510_2)>>2
	.byte	(.LBBc726510_12-.LBBc726510_2)>>2
	.byte	(.LBBc726510_31-.LBBc726510_2)>>2
	.byte	(.LBBc726510_31-.LBBc726510_2)>>2
	.byte	(.LBBc726510_31-.LBBc726510_2)>>2
	.byte	(.LBBc726510_9-.LBBc726510_2)>>2
	.byte	(.LBBc726510_31-.LBBc726510_2)>>2
	.byte	(.LBBc726510_31-.LBBc726510_2)>>2
	.byte	(.LBBc726510_31-.LBBc726510_2)>>2
	.byte	(.LBBc726510_7-.LBBc726510_2)>>2
	.byte	(.LBBc726510_31-.LBBc726510_2)>>2
	.byte	(.LBBc726510_31-.LBBc726510_2)>>2
	.byte	(.LBBc726510_31-.LBBc726510_2)>>2
	.byte	(.LBBc726510_31-.LBBc726510_2)>>2
	.byte	(.LBBc726510_31-.LBBc726510_2)>>2
	.byte	(.LBBc726510_31-.LBBc726510_2)>>2
	.byte	(.LBBc726510_31-.LBBc726510_2)>>2
	.byte	(.LBBc726510_31-.LBBc726510_2)>>2
	.byte	(.LBBc726510_31-.LBBc726510_2)>>2
	.byte	(.LBBc726510_31-.LBBc726510_2)>>2
	.byte	(.LBBc726510_14-.LBBc726510_2)>>2
	.byte	(.LBBc726510_31-.LBBc726510_2)>>2
	.byte	(.LBBc726510_31-.LBBc726510_2)>>2
	.byte	(.LBBc726510_31-.LBBc726510_2)>>2
	.byte	(.LBBc726510_31-.LBBc726510_2)>>2
	.byte	(.LBBc726510_31-.LBBc726510_2)>>2
	.byte	(.LBBc726510_31-.LBBc726510_2)>>2
	.byte	(.LBBc726510_31-.LBBc726510_2)>>2
	.byte	(.LBBc726510_13-.LBBc726510_2)>>2
	.byte	(.LBBc726510_31-.LBBc726510_2)>>2
	.byte	(.LBBc726510_31-.LBBc726510_2)>>2
	.byte	(.LBBc726510_31-.LBBc726510_2)>>2
	.byte	(.LBBc726510_31-.LBBc726510_2)>>2
	.byte	(.LBBc726510_31-.LBBc726510_2)>>2
	.byte	(.LBBc726510_31-.LBBc726510_2)>>2
	.byte	(.LBBc726510_31-.LBBc726510_2)>>2
	.byte	(.LBBc726510_4-.LBBc726510_2)>>2
	.byte	(.LBBc726510_31-.LBBc726510_2)>>2
	.byte	(.LBBc726510_31-.LBBc726510_2)>>2
	.byte	(.LBBc726510_31-.LBBc726510_2)>>2
	.byte	(.LBBc726510_31-.LBBc726510_2)>>2
	.byte	(.LBBc726510_31-.LBBc726510_2)>>2
	.byte	(.LBBc726510_31-.LBBc726510_2)>>2
	.byte	(.LBBc726510_31-.LBBc726510_2)>>2
	.byte	(.LBBc726510_31-.LBBc726510_2)>>2
	.byte	(.LBBc726510_31-.LBBc726510_2)>>2
	.byte	(.LBBc726510_31-.LBBc726510_2)>>2
	.byte	(.LBBc726510_31-.LBBc726510_2)>>2
	.byte	(.LBBc726510_31-.LBBc726510_2)>>2
	.byte	(.LBBc726510_31-.LBBc726510_2)>>2
	.byte	(.LBBc726510_31-.LBBc726510_2)>>2
	.byte	(.LBBc726510_31-.LBBc726510_2)>>2
	.byte	(.LBBc726510_3-.LBBc726510_2)>>2
	.byte	(.LBBc726510_31-.LBBc726510_2)>>2
	.byte	(.LBBc726510_31-.LBBc726510_2)>>2
	.byte	(.LBBc726510_31-.LBBc726510_2)>>2
	.byte	(.LBBc726510_31-.LBBc726510_2)>>2
	.byte	(.LBBc726510_31-.LBBc726510_2)>>2
	.byte	(.LBBc726510_31-.LBBc726510_2)>>2
	.byte	(.LBBc726510_31-.LBBc726510_2)>>2
	.byte	(.LBBc726510_6-.LBBc726510_2)>>2
	.byte	(.LBBc726510_31-.LBBc726510_2)>>2
	.byte	(.LBBc726510_31-.LBBc726510_2)>>2
	.byte	(.LBBc726510_31-.LBBc726510_2)>>2
	.byte	(.LBBc726510_31-.LBBc726510_2)>>2
	.byte	(.LBBc726510_31-.LBBc726510_2)>>2
	.byte	(.LBBc726510_31-.LBBc726510_2)>>2
	.byte	(.LBBc726510_31-.LBBc726510_2)>>2
	.byte	(.LBBc726510_31-.LBBc726510_2)>>2
	.byte	(.LBBc726510_31-.LBBc726510_2)>>2
	.byte	(.LBBc726510_31-.LBBc726510_2)>>2
	.byte	(.LBBc726510_31-.LBBc726510_2)>>2
	.byte	(.LBBc726510_31-.LBBc726510_2)>>2
	.byte	(.LBBc726510_31-.LBBc726510_2)>>2
	.byte	(.LBBc726510_31-.LBBc726510_2)>>2
	.byte	(.LBBc726510_31-.LBBc726510_2)>>2
	.byte	(.LBBc726510_31-.LBBc726510_2)>>2
	.byte	(.LBBc726510_31-.LBBc726510_2)>>2
	.byte	(.LBBc726510_31-.LBBc726510_2)>>2
	.byte	(.LBBc726510_31-.LBBc726510_2)>>2
	.byte	(.LBBc726510_31-.LBBc726510_2)>>2
	.byte	(.LBBc726510_31-.LBBc726510_2)>>2
	.byte	(.LBBc726510_31-.LBBc726510_2)>>2
	.byte	(.LBBc726510_31-.LBBc726510_2)>>2
	.byte	(.LBBc726510_5-.LBBc726510_2)>>2
	.byte	(.LBBc726510_31-.LBBc726510_2)>>2
	.byte	(.LBBc726510_31-.LBBc726510_2)>>2
	.byte	(.LBBc726510_31-.LBBc726510_2)>>2
	.byte	(.LBBc726510_31-.LBBc726510_2)>>2
	.byte	(.LBBc726510_31-.LBBc726510_2)>>2
	.byte	(.LBBc726510_31-.LBBc726510_2)>>2
	.byte	(.LBBc726510_31-.LBBc726510_2)>>2
	.byte	(.LBBc726510_8-.LBBc726510_2)>>2

	.section	".text.ckd_image::stores::nth_store::<#808c45e55832e08b>","ax",@progbits
	.p2align	2
	.type	ckd_image_stores_nth_store_808c45e55832e08b_.4c8b56e,@function
ckd_image_stores_nth_store_808c45e55832e08b_.4c8b56e:
	cbz	x1, .LBB40afd09_3
	ldrb	w8, [x0]
	cbz	w8, .LBB40afd09_4
	ldr	x1, [x0, #8]
	mov	w0, #1
	ret
.LBB40afd09_3:
	mov	w0, wzr
	ret
.LBB40afd09_4:
	str	x30, [sp, #-16]!
	sub	x1, x1, #1
	add	x0, x0, #16
	bl	ckd_image_stores_nth_store_808c45e55832e08b_.4c8b56e
	ldr	x30, [sp], #16
	ret
.Lfunc_end40afd09:
	.size	ckd_image_stores_nth_store_808c45e55832e08b_.4c8b56e, .Lfunc_end40afd09-ckd_image_stores_nth_store_808c45e55832e08b_.4c8b56e

	.section	.rodata.cst16,"aM",@progbits,16
	.p2align	4, 0x0
.LCPIaf9d097_0:
	.xword	1
	.xword	4
.LCPIaf9d097_1:
	.xword	1
	.xword	3
	.section	".text.ckd_drive::close::written_ends","ax",@progbits
	.p2align	2
	.type	ckd_drive_close_written_ends.f2d7708,@function
ckd_drive_close_written_ends.f2d7708:
	ldrb	w8, [x3]
	cmp	w8, #2
	b.eq	.LBBaf9d097_3
	cmp	w8, #1
	b.ne	.LBBaf9d097_7
	adrp	x11, .LCPIaf9d097_0
	ldr	x9, [x3, #8]
	mov	w8, #1
	ldr	q0, [x11, :lo12:.LCPIaf9d097_0]
	mov	w10, #513
	str	x8, [x2, #8]
	strh	w10, [x2, #16]
	mov	w8, #12
	str	x9, [x2, #24]
	stur	q0, [x2, #40]
	str	x9, [x2, #56]
	strb	wzr, [x0]
	strb	w8, [x0, #1]
	stur	wzr, [x0, #2]
	strh	wzr, [x0, #6]
	ret
.LBBaf9d097_3:
	ldrb	w9, [x1, #8]
	ldrb	w8, [x3, #1]
	cmp	w9, #1
	b.ne	.LBBaf9d097_5
	ldrb	w9, [x1, #16]
	ldrb	w10, [x1]
	mov	w11, #1114112
	ldrb	w13, [x1, #17]
	and	w12, w9, #0xff
	lsr	w10, w11, w10
	ldr	x11, [x1, #24]
	cmp	w12, #1
	mov	w12, #1
	strb	w9, [x2, #16]
	cset	w14, eq
	str	x12, [x2, #8]
	mov	w12, #2
	tst	w10, w14
	str	x11, [x2, #24]
	csel	w9, w12, w13, ne
	strb	w9, [x2, #17]
.LBBaf9d097_5:
	tbz	w8, #0, .LBBaf9d097_10
	ldrb	w8, [x1]
	adrp	x9, .Lswitch.table.dasd_drive_do.158
	add	x9, x9, :lo12:.Lswitch.table.dasd_drive_do.158
	ldrb	w8, [x9, x8]
	strb	wzr, [x0]
	strb	w8, [x0, #1]
	stur	wzr, [x0, #2]
	strh	wzr, [x0, #6]
	ret
.LBBaf9d097_7:
	ldrb	w8, [x1, #8]
	cmp	w8, #1
	b.ne	.LBBaf9d097_9
	ldrb	w8, [x1, #16]
	ldrb	w9, [x1]
	mov	w10, #1114112
	ldrb	w12, [x1, #17]
	and	w11, w8, #0xff
	lsr	w9, w10, w9
	ldr	x10, [x1, #24]
	cmp	w11, #1
	mov	w11, #1
	strb	w8, [x2, #16]
	cset	w13, eq
	str	x11, [x2, #8]
	mov	w11, #2
	tst	w9, w13
	str	x10, [x2, #24]
	csel	w8, w11, w12, ne
	strb	w8, [x2, #17]
.LBBaf9d097_9:
	adrp	x8, .LCPIaf9d097_1
	str	xzr, [x2, #56]
	ldr	q0, [x8, :lo12:.LCPIaf9d097_1]
	mov	w8, #12
	stur	q0, [x2, #40]
	strb	wzr, [x0]
	strb	w8, [x0, #1]
	stur	wzr, [x0, #2]
	strh	wzr, [x0, #6]
	ret
.LBBaf9d097_10:
	mov	w8, #12
	strb	wzr, [x0]
	strb	w8, [x0, #1]
	stur	wzr, [x0, #2]
	strh	wzr, [x0, #6]
	ret
.Lfunc_endaf9d097:
	.size	ckd_drive_close_written_ends.f2d7708, .Lfunc_endaf9d097-ckd_drive_close_written_ends.f2d7708

	.section	".text.ckd_drive::close::field_ends","ax",@progbits
	.p2align	2
	.type	ckd_drive_close_field_ends.8c3037b,@function
ckd_drive_close_field_ends.8c3037b:
	ldrb	w13, [x2]
	mov	w8, wzr
	mov	w12, #12
	cmp	w13, #4
	b.le	.LBB848c6cf_4
	cmp	w13, #25
	b.hi	.LBB848c6cf_25
	mov	w9, #1
	mov	w10, w8
	mov	w11, w8
	lsl	w14, w9, w13
	and	w9, w14, #0x3ffffc0
	tst	w9, #0xff1fffff
	mov	w9, w8
	b.eq	.LBB848c6cf_12
.LBB848c6cf_3:
	strb	w11, [x0]
	strb	w12, [x0, #1]
	strh	w9, [x0, #2]
	strh	w10, [x0, #4]
	strh	w8, [x0, #6]
	ret
.LBB848c6cf_4:
	subs	w13, w13, #2
	mov	w10, w8
	mov	w9, w8
	mov	w11, w8
	b.lo	.LBB848c6cf_3
	cmp	w13, #2
	and	w8, w1, #0xff
	b.hs	.LBB848c6cf_16
	cbz	x5, .LBB848c6cf_27
	cmp	x5, #6
	b.ne	.LBB848c6cf_24
	ldrb	w9, [x4]
	ldrb	w10, [x4, #1]
	orr	w9, w10, w9
	cbnz	w9, .LBB848c6cf_28
	ldrh	w9, [x4, #2]
	lsr	w10, w1, #16
	rev16	w9, w9
	cmp	w9, w10
	b.hs	.LBB848c6cf_28
	ldrh	w10, [x4, #4]
	cmp	w8, #0
	mov	w8, #20
	mov	w11, #10
	rev	w12, w10
	csel	w8, w11, w8, eq
	cmp	w8, w12, lsr #16
	b.ls	.LBB848c6cf_28
	rev16	w10, w10
	mov	w11, #1
	mov	w8, #264
	strb	w11, [x0]
	strb	wzr, [x0, #1]
	strh	w9, [x0, #2]
	strh	w10, [x0, #4]
	strh	w8, [x0, #6]
	ret
.LBB848c6cf_12:
	tst	w14, #0xc00000
	b.eq	.LBB848c6cf_20
	cbz	x5, .LBB848c6cf_27
	cmp	x5, #8
	b.ne	.LBB848c6cf_24
	ldrh	w12, [x3, #4]
	mov	w8, wzr
	mov	w10, wzr
	mov	w9, wzr
	mov	w11, wzr
	orr	w12, w12, #0x40
	b	.LBB848c6cf_29
.LBB848c6cf_16:
	cbz	x5, .LBB848c6cf_27
	cmp	x5, #6
	b.ne	.LBB848c6cf_24
	ldrh	w10, [x4, #4]
	cmp	w8, #0
	mov	w8, #20
	mov	w9, #10
	rev	w11, w10
	csel	w8, w9, w8, eq
	cmp	w8, w11, lsr #16
	b.ls	.LBB848c6cf_28
	ldrh	w9, [x3]
	rev16	w10, w10
	mov	w11, #1
	mov	w8, #12
	strb	w11, [x0]
	strb	wzr, [x0, #1]
	strh	w9, [x0, #2]
	strh	w10, [x0, #4]
	strh	w8, [x0, #6]
	ret
.LBB848c6cf_20:
	cmp	w13, #21
	b.ne	.LBB848c6cf_25
	ldrb	w8, [x2, #8]
	cmp	w8, #1
	b.ne	.LBB848c6cf_23
	ldrh	w8, [x2, #16]
	ldr	x10, [x2, #24]
	mov	w9, #1
	str	x9, [x3, #8]
	strh	w8, [x3, #16]
	str	x10, [x3, #24]
.LBB848c6cf_23:
	cbz	x5, .LBB848c6cf_27
.LBB848c6cf_24:
	ldrh	w12, [x3, #4]
	mov	w8, wzr
	mov	w10, wzr
	mov	w9, wzr
	mov	w11, wzr
	orr	w12, w12, #0x8000
	b	.LBB848c6cf_29
.LBB848c6cf_25:
	cbz	x5, .LBB848c6cf_27
	ldrb	w12, [x4]
	lsr	w13, w12, #6
	ubfx	w12, w12, #3, #2
	strb	w13, [x3, #32]
	mov	w13, #1
	strb	w12, [x3, #33]
	mov	w12, #12
	strb	w13, [x3, #34]
	strb	wzr, [x0]
	strb	w12, [x0, #1]
	strh	wzr, [x0, #2]
	strh	wzr, [x0, #4]
	strh	wzr, [x0, #6]
	ret
.LBB848c6cf_27:
	strb	wzr, [x0]
	strb	w12, [x0, #1]
	strh	wzr, [x0, #2]
	strh	wzr, [x0, #4]
	strh	wzr, [x0, #6]
	ret
.LBB848c6cf_28:
	ldrh	w12, [x3, #4]
	mov	w13, #33024
	mov	w8, wzr
	mov	w10, wzr
	mov	w9, wzr
	mov	w11, wzr
	orr	w12, w12, w13
.LBB848c6cf_29:
	strh	w12, [x3, #4]
	mov	w12, #14
	strb	w11, [x0]
	strb	w12, [x0, #1]
	strh	w9, [x0, #2]
	strh	w10, [x0, #4]
	strh	w8, [x0, #6]
	ret
.Lfunc_end848c6cf:
	.size	ckd_drive_close_field_ends.8c3037b, .Lfunc_end848c6cf-ckd_drive_close_field_ends.8c3037b

	.section	".text.ckd_drive::job::Job::close_due::<#808c45e55832e08b>","ax",@progbits
	.p2align	2
	.type	ckd_drive_job_Job_close_due_808c45e55832e08b_.4535013,@function
ckd_drive_job_Job_close_due_808c45e55832e08b_.4535013:
	ldrb	w8, [x1, #984]
	cmp	w8, #5
	b.ne	.LBB4153f4b_2
	stp	x30, x21, [sp, #-32]!
	stp	x20, x19, [sp, #16]
	mov	x20, x1
	mov	x19, x0
	ldr	x21, [x1, #1008]
	adrp	x1, .Lstatic.0
	add	x1, x1, :lo12:.Lstatic.0
	mov	x0, x20
	mov	x2, xzr
	bl	ckd_drive_job_Job_make_808c45e55832e08b_.9cfe1de
	mov	w8, #1
	mov	w9, #513
	str	x21, [x20, #888]
	str	x8, [x20, #872]
	str	x8, [x20, #904]
	mov	w8, #4
	str	x8, [x20, #912]
	mov	w8, #3072
	strh	w9, [x20, #880]
	str	x21, [x20, #920]
	strh	w8, [x19]
	stur	wzr, [x19, #2]
	strh	wzr, [x19, #6]
	ldp	x20, x19, [sp, #16]
	ldp	x30, x21, [sp], #32
	ret
.LBB4153f4b_2:
	brk	#0x1
.Lfunc_end4153f4b:
	.size	ckd_drive_job_Job_close_due_808c45e55832e08b_.4535013, .Lfunc_end4153f4b-ckd_drive_job_Job_close_due_808c45e55832e08b_.4535013

	.section	".text.ckd_drive::job::Job::make::<#808c45e55832e08b>","ax",@progbits
	.p2align	2
	.type	ckd_drive_job_Job_make_808c45e55832e08b_.9cfe1de,@function
ckd_drive_job_Job_make_808c45e55832e08b_.9cfe1de:
	str	x30, [sp, #-16]!
	ldrb	w8, [x0, #984]
	cmp	w8, #5
	b.ne	.LBBcc0e982_23
	mov	x5, x2
	ldr	x2, [x0, #992]
	mov	w8, #6
	ldr	x3, [x0, #1000]
	add	x9, x0, #985
	strb	w8, [x0, #984]
	add	x8, x2, x5
	ldr	x12, [x0, #1008]
	ldr	x10, [x0, #768]
	str	wzr, [x0, #988]
	ldr	x6, [x0, #808]
	sub	w11, w2, #8
	str	wzr, [x9]
	sub	x9, x3, x5
	mov	x4, x1
	str	x8, [x0, #992]
	mov	w8, #1
	str	x9, [x0, #1000]
	ldr	x9, [x0, #1016]
	str	x8, [x0, #1008]
	str	x12, [x0, #1016]
	strb	w8, [x0, #856]
	str	w11, [x10, x12, lsl #2]
	add	x11, x12, #1
	add	x10, x3, x2
	ldr	x13, [x0, #832]
	str	x11, [x0, #800]
	add	x11, x10, #8
	str	x9, [sp, #8]
	cmp	x12, x13
	str	x8, [x0, #792]
	str	x11, [x0, #808]
	strb	wzr, [x0, #816]
	b.hs	.LBBcc0e982_3
	ldrb	w12, [x0, #824]
	mov	w13, #3625
	str	xzr, [x0, #832]
	str	w8, [x0, #840]
	cmp	w12, #0
	mov	w12, #7294
	csel	w12, w13, w12, eq
	str	w12, [x0, #844]
.LBBcc0e982_3:
	ldr	x0, [x0, #744]
	cmp	x3, x5
	b.hi	.LBBcc0e982_12
	cmp	x11, x6
	b.lo	.LBBcc0e982_12
	add	x8, x0, x2
	sub	x11, x8, x4
	stur	x9, [x8, #-8]
	mov	x9, #-1
	cmp	x11, x5
	str	x9, [x0, x10]
	b.hs	.LBBcc0e982_13
	cmp	x5, #8
	b.lo	.LBBcc0e982_8
	add	x8, x2, x0
	sub	x8, x8, x4
	cmp	x8, #32
	b.hs	.LBBcc0e982_14
.LBBcc0e982_8:
	mov	x8, xzr
.LBBcc0e982_9:
	add	x10, x8, x2
	sub	x9, x5, x8
	add	x8, x4, x8
	add	x10, x0, x10
.LBBcc0e982_10:
	ldrb	w11, [x8], #1
	subs	x9, x9, #1
	strb	w11, [x10], #1
	b.ne	.LBBcc0e982_10
.LBBcc0e982_11:
	ldr	x30, [sp], #16
	ret
.LBBcc0e982_12:
	add	x1, sp, #8
	bl	ckd_slot_buffer_clear_and_write.f1e5954
	ldr	x30, [sp], #16
	ret
.LBBcc0e982_13:
	mov	x0, x8
	mov	x1, x4
	mov	x2, x5
	ldr	x30, [sp], #16
	b	memmove
.LBBcc0e982_14:
	cmp	x5, #32
	b.hs	.LBBcc0e982_16
	mov	x8, xzr
	b	.LBBcc0e982_20
.LBBcc0e982_16:
	add	x11, x2, x0
	and	x9, x5, #0x18
	and	x8, x5, #0xffffffffffffffe0
	add	x10, x4, #16
	add	x11, x11, #16
	and	x12, x5, #0xffffffffffffffe0
.LBBcc0e982_17:
	ldp	q0, q1, [x10, #-16]
	subs	x12, x12, #32
	add	x10, x10, #32
	stp	q0, q1, [x11, #-16]
	add	x11, x11, #32
	b.ne	.LBBcc0e982_17
	cmp	x5, x8
	b.eq	.LBBcc0e982_11
	cbz	x9, .LBBcc0e982_9
.LBBcc0e982_20:
	mov	x10, x8
	and	x8, x5, #0xfffffffffffffff8
	add	x11, x10, x2
	sub	x9, x10, x8
	add	x10, x4, x10
	add	x11, x0, x11
.LBBcc0e982_21:
	ldr	d0, [x10], #8
	adds	x9, x9, #8
	str	d0, [x11], #8
	b.ne	.LBBcc0e982_21
	cmp	x5, x8
	b.eq	.LBBcc0e982_11
	b	.LBBcc0e982_9
.LBBcc0e982_23:
	brk	#0x1
.Lfunc_endcc0e982:
	.size	ckd_drive_job_Job_make_808c45e55832e08b_.9cfe1de, .Lfunc_endcc0e982-ckd_drive_job_Job_make_808c45e55832e08b_.9cfe1de

	.section	".text.ckd_slot::buffer::clear_and_write","ax",@progbits
	.p2align	2
	.type	ckd_slot_buffer_clear_and_write.f1e5954,@function
ckd_slot_buffer_clear_and_write.f1e5954:
	stp	x30, x27, [sp, #-80]!
	stp	x24, x23, [sp, #32]
	add	x23, x0, x2
	sub	x8, x23, #8
	stp	x22, x21, [sp, #48]
	mov	x22, x2
	sub	x9, x8, x1
	stp	x20, x19, [sp, #64]
	mov	x19, x5
	mov	x20, x4
	mov	x21, x0
	cmp	x9, #7
	stp	x26, x25, [sp, #16]
	b.hi	.LBBdfed053_6
	ldrb	w8, [x1]
	sturb	w8, [x23, #-8]
	ldrb	w8, [x1, #1]
	sturb	w8, [x23, #-7]
	ldrb	w8, [x1, #2]
	sturb	w8, [x23, #-6]
	ldrb	w8, [x1, #3]
	sturb	w8, [x23, #-5]
	ldrb	w8, [x1, #4]
	sturb	w8, [x23, #-4]
	ldrb	w8, [x1, #5]
	sturb	w8, [x23, #-3]
	ldrb	w8, [x1, #6]
	sturb	w8, [x23, #-2]
	ldrb	w8, [x1, #7]
	sturb	w8, [x23, #-1]
	cmp	x3, x19
	add	x26, x3, x22
	b.eq	.LBBdfed053_7
.LBBdfed053_2:
	add	x8, x19, x22
	mvn	x9, x19
	cmp	x8, x6
	add	x25, x21, x8
	csel	x27, x8, x6, hi
	adds	x24, x3, x9
	b.eq	.LBBdfed053_4
	mov	x0, x25
	mov	w1, wzr
	mov	x2, x24
	bl	memset
.LBBdfed053_4:
	add	x8, x26, #8
	strb	wzr, [x25, x24]
	mov	x9, #-1
	cmp	x8, x27
	str	x9, [x21, x26]
	b.hs	.LBBdfed053_11
	sub	x9, x27, x26
	subs	x24, x9, #9
	add	x25, x21, x8
	b.ne	.LBBdfed053_9
	b	.LBBdfed053_10
.LBBdfed053_6:
	ldr	x9, [x1]
	str	x9, [x8]
	cmp	x3, x19
	add	x26, x3, x22
	b.ne	.LBBdfed053_2
.LBBdfed053_7:
	add	x8, x26, #8
	mov	x9, #-1
	str	x9, [x21, x26]
	cmp	x8, x6
	b.hs	.LBBdfed053_11
	sub	x9, x6, x26
	subs	x24, x9, #9
	add	x25, x21, x8
	b.eq	.LBBdfed053_10
.LBBdfed053_9:
	mov	x0, x25
	mov	w1, wzr
	mov	x2, x24
	bl	memset
.LBBdfed053_10:
	strb	wzr, [x25, x24]
.LBBdfed053_11:
	sub	x8, x23, x20
	cmp	x8, x19
	b.hs	.LBBdfed053_18
	cmp	x19, #8
	b.lo	.LBBdfed053_14
	add	x8, x22, x21
	sub	x8, x8, x20
	cmp	x8, #32
	b.hs	.LBBdfed053_19
.LBBdfed053_14:
	mov	x8, xzr
.LBBdfed053_15:
	add	x10, x8, x22
	sub	x9, x19, x8
	add	x8, x20, x8
	add	x10, x21, x10
.LBBdfed053_16:
	ldrb	w11, [x8], #1
	subs	x9, x9, #1
	strb	w11, [x10], #1
	b.ne	.LBBdfed053_16
.LBBdfed053_17:
	ldp	x20, x19, [sp, #64]
	ldp	x22, x21, [sp, #48]
	ldp	x24, x23, [sp, #32]
	ldp	x26, x25, [sp, #16]
	ldp	x30, x27, [sp], #80
	ret
.LBBdfed053_18:
	mov	x0, x23
	mov	x1, x20
	mov	x2, x19
	ldp	x20, x19, [sp, #64]
	ldp	x22, x21, [sp, #48]
	ldp	x24, x23, [sp, #32]
	ldp	x26, x25, [sp, #16]
	ldp	x30, x27, [sp], #80
	b	memmove
.LBBdfed053_19:
	cmp	x19, #32
	b.hs	.LBBdfed053_21
	mov	x8, xzr
	b	.LBBdfed053_25
.LBBdfed053_21:
	add	x11, x22, x21
	and	x9, x19, #0x18
	and	x8, x19, #0xffffffffffffffe0
	add	x10, x20, #16
	add	x11, x11, #16
	and	x12, x19, #0xffffffffffffffe0
.LBBdfed053_22:
	ldp	q0, q1, [x10, #-16]
	subs	x12, x12, #32
	add	x10, x10, #32
	stp	q0, q1, [x11, #-16]
	add	x11, x11, #32
	b.ne	.LBBdfed053_22
	cmp	x19, x8
	b.eq	.LBBdfed053_17
	cbz	x9, .LBBdfed053_15
.LBBdfed053_25:
	mov	x10, x8
	and	x8, x19, #0xfffffffffffffff8
	add	x11, x10, x22
	sub	x9, x10, x8
	add	x10, x20, x10
	add	x11, x21, x11
.LBBdfed053_26:
	ldr	d0, [x10], #8
	adds	x9, x9, #8
	str	d0, [x11], #8
	b.ne	.LBBdfed053_26
	cmp	x19, x8
	b.eq	.LBBdfed053_17
	b	.LBBdfed053_15
.Lfunc_enddfed053:
	.size	ckd_slot_buffer_clear_and_write.f1e5954, .Lfunc_enddfed053-ckd_slot_buffer_clear_and_write.f1e5954

	.section	".text.ckd_drive::drive::Drive::end_elsewhere::<#808c45e55832e08b>","ax",@progbits
	.p2align	2
	.type	ckd_drive_drive_Drive_end_elsewhere_808c45e55832e08b_.1a20373,@function
ckd_drive_drive_Drive_end_elsewhere_808c45e55832e08b_.1a20373:
	sub	sp, sp, #48
	ldrb	w8, [x0, #1025]
	stp	x30, x19, [sp, #32]
	cmp	w8, #2
	b.gt	.LBBd6c1ba5_4
	cmp	w8, #1
	b.eq	.LBBd6c1ba5_12
	cmp	w8, #2
	b.ne	.LBBd6c1ba5_60
	strb	wzr, [x0, #1025]
	mov	w0, #8
	ldp	x30, x19, [sp, #32]
	add	sp, sp, #48
	ret
.LBBd6c1ba5_4:
	cmp	w8, #3
	b.eq	.LBBd6c1ba5_13
	cmp	w8, #5
	b.ne	.LBBd6c1ba5_60
	ldrb	w8, [x0, #984]
	ldr	x5, [x0, #968]
	str	xzr, [sp, #24]
	str	xzr, [sp, #8]
	cmp	w8, #2
	b.le	.LBBd6c1ba5_14
	cmp	w8, #4
	b.gt	.LBBd6c1ba5_21
	cmp	w8, #3
	b.ne	.LBBd6c1ba5_17
	cbz	x5, .LBBd6c1ba5_31
	ldrb	w9, [x0, #936]
	mov	w10, #1
	ldrb	w8, [x0, #1008]
	lsl	w9, w10, w9
	mov	w10, #51711
	movk	w10, #1023, lsl #16
	tst	w9, w10
	b.eq	.LBBd6c1ba5_47
	cmp	w8, #1
	cset	w9, eq
	b	.LBBd6c1ba5_32
.LBBd6c1ba5_12:
	strb	wzr, [x0, #1025]
	mov	w0, #12
	ldp	x30, x19, [sp, #32]
	add	sp, sp, #48
	ret
.LBBd6c1ba5_13:
	strb	wzr, [x0, #1025]
	mov	w0, #14
	ldp	x30, x19, [sp, #32]
	add	sp, sp, #48
	ret
.LBBd6c1ba5_14:
	cbz	w8, .LBBd6c1ba5_26
	cmp	w8, #1
	b.ne	.LBBd6c1ba5_17
	ldr	x1, [x0, #704]
	mov	x19, x0
	add	x0, sp, #24
	add	x2, x19, #936
	add	x3, x19, #864
	add	x4, x19, #985
	bl	ckd_drive_close_field_ends.8c3037b
	mov	x0, x19
	b	.LBBd6c1ba5_44
.LBBd6c1ba5_17:
	add	x8, x0, #1008
	ldrb	w9, [x0, #944]
	ldrb	w8, [x8]
	cmp	w9, #1
	b.ne	.LBBd6c1ba5_19
.LBBd6c1ba5_18:
	ldrb	w9, [x0, #952]
	ldrb	w10, [x0, #936]
	mov	w11, #1114112
	mov	w14, #2
	and	w12, w9, #0xff
	lsr	w10, w11, w10
	ldrb	w11, [x0, #953]
	cmp	w12, #1
	mov	w12, #1
	strb	w9, [x0, #880]
	cset	w13, eq
	str	x12, [x0, #872]
	tst	w10, w13
	ldr	x10, [x0, #960]
	csel	w9, w14, w11, ne
	strb	w9, [x0, #881]
	str	x10, [x0, #888]
.LBBd6c1ba5_19:
	cbz	w8, .LBBd6c1ba5_23
	ldrb	w8, [x0, #936]
	adrp	x9, .Lswitch.table.dasd_drive_do.158
	add	x9, x9, :lo12:.Lswitch.table.dasd_drive_do.158
	ldrb	w8, [x9, x8]
	b	.LBBd6c1ba5_24
.LBBd6c1ba5_21:
	cmp	w8, #5
	b.ne	.LBBd6c1ba5_28
	mov	x19, x0
	add	x0, sp, #24
	mov	x1, x19
	bl	ckd_drive_job_Job_close_due_808c45e55832e08b_.4535013
	mov	x0, x19
	b	.LBBd6c1ba5_44
.LBBd6c1ba5_23:
	mov	w8, #12
.LBBd6c1ba5_24:
	strb	wzr, [sp, #24]
	strb	w8, [sp, #25]
.LBBd6c1ba5_25:
	stur	wzr, [sp, #26]
	b	.LBBd6c1ba5_43
.LBBd6c1ba5_26:
	ldrb	w8, [x0, #944]
	cmp	w8, #1
	b.ne	.LBBd6c1ba5_42
	ldrb	w8, [x0, #952]
	ldrb	w9, [x0, #936]
	mov	w10, #1114112
	mov	w13, #2
	and	w11, w8, #0xff
	lsr	w9, w10, w9
	ldrb	w10, [x0, #953]
	cmp	w11, #1
	mov	w11, #1
	strb	w8, [x0, #880]
	cset	w12, eq
	str	x11, [x0, #872]
	tst	w9, w12
	ldr	x9, [x0, #960]
	csel	w8, w13, w10, ne
	strb	w8, [x0, #881]
	str	x9, [x0, #888]
	b	.LBBd6c1ba5_42
.LBBd6c1ba5_28:
	ldrb	w8, [x0, #1008]
	cmp	w8, #2
	b.ne	.LBBd6c1ba5_30
	add	x8, x0, #1009
	ldrb	w9, [x0, #944]
	ldrb	w8, [x8]
	cmp	w9, #1
	b.eq	.LBBd6c1ba5_18
	b	.LBBd6c1ba5_19
.LBBd6c1ba5_30:
	ldrb	w9, [x0, #1009]
	strb	w8, [sp, #8]
	mov	x19, x0
	ldr	x8, [x0, #1016]
	add	x0, sp, #24
	add	x1, x19, #936
	add	x2, x19, #864
	add	x3, sp, #8
	strb	w9, [sp, #9]
	str	x8, [sp, #16]
	bl	ckd_drive_close_written_ends.f2d7708
	mov	x0, x19
	b	.LBBd6c1ba5_44
.LBBd6c1ba5_31:
	mov	w9, wzr
.LBBd6c1ba5_32:
	ldrb	w8, [x0, #944]
	cmp	w8, #1
	b.ne	.LBBd6c1ba5_34
	ldrb	w10, [x0, #952]
	ldrb	w11, [x0, #936]
	mov	w12, #1114112
	mov	w15, #2
	and	w13, w10, #0xff
	lsr	w11, w12, w11
	ldrb	w12, [x0, #953]
	cmp	w13, #1
	mov	w13, #1
	strb	w10, [x0, #880]
	cset	w14, eq
	str	x13, [x0, #872]
	tst	w11, w14
	ldr	x11, [x0, #960]
	csel	w10, w15, w12, ne
	strb	w10, [x0, #881]
	str	x11, [x0, #888]
.LBBd6c1ba5_34:
	tbz	w9, #0, .LBBd6c1ba5_42
	ldr	x9, [x0, #1000]
	cbnz	x9, .LBBd6c1ba5_55
	ldrb	w11, [x0, #936]
	ldrb	w10, [x0, #952]
	cmp	w11, #25
	b.hi	.LBBd6c1ba5_54
	mov	w9, #1
	lsl	w9, w9, w11
	and	w9, w9, #0x3fffe00
	tst	w9, #0xfffff7ff
	b.ne	.LBBd6c1ba5_55
	ldr	x9, [x0, #960]
	cmp	w11, #8
	b.ne	.LBBd6c1ba5_50
	cmp	w8, #1
	b.ne	.LBBd6c1ba5_55
	cmp	w10, #1
	b.ne	.LBBd6c1ba5_55
	mov	w10, #1
	mov	w8, #1
	b	.LBBd6c1ba5_56
.LBBd6c1ba5_42:
	mov	w8, #3072
	stur	wzr, [sp, #26]
	strh	w8, [sp, #24]
.LBBd6c1ba5_43:
	strh	wzr, [sp, #30]
.LBBd6c1ba5_44:
	ldrb	w9, [sp, #24]
	ldrb	w8, [sp, #25]
	ldrh	w2, [sp, #26]
	ldrh	w3, [sp, #28]
	ldrh	w19, [sp, #30]
	strb	wzr, [x0, #1025]
	cbz	w9, .LBBd6c1ba5_46
	add	x1, x0, #1024
	bl	ckd_drive_job_Job_leave_808c45e55832e08b_.db7d905
	mov	w8, #14
	tst	w0, #0xff
	csel	w0, w8, w19, ne
	ldp	x30, x19, [sp, #32]
	add	sp, sp, #48
	ret
.LBBd6c1ba5_46:
	ldrb	w9, [x0, #984]
	ldrb	w10, [x0, #1024]
	cmp	w9, #6
	csinc	w9, w10, wzr, ne
	strb	w9, [x0, #1024]
	mov	w0, w8
	ldp	x30, x19, [sp, #32]
	add	sp, sp, #48
	ret
.LBBd6c1ba5_47:
	mov	w10, #4608
	tst	w9, w10
	b.eq	.LBBd6c1ba5_49
	cmp	w8, #2
	cset	w9, eq
	b	.LBBd6c1ba5_32
.LBBd6c1ba5_49:
	cmp	w8, #0
	cset	w9, ne
	b	.LBBd6c1ba5_32
.LBBd6c1ba5_50:
	cmp	w11, #11
	b.ne	.LBBd6c1ba5_54
	cmp	w8, #1
	b.ne	.LBBd6c1ba5_55
	cmp	w10, #1
	b.ne	.LBBd6c1ba5_55
	mov	w8, #2
	mov	w10, #1
	b	.LBBd6c1ba5_56
.LBBd6c1ba5_54:
	cmp	w11, #7
	b.hs	.LBBd6c1ba5_57
.LBBd6c1ba5_55:
	mov	x10, xzr
	mov	x8, xzr
	mov	x9, xzr
.LBBd6c1ba5_56:
	str	x8, [x0, #912]
	mov	w8, #19456
	str	x10, [x0, #904]
	str	x9, [x0, #920]
	strh	w8, [sp, #24]
	b	.LBBd6c1ba5_25
.LBBd6c1ba5_57:
	cmp	w8, #1
	b.ne	.LBBd6c1ba5_55
	cbnz	w10, .LBBd6c1ba5_55
	mov	x8, xzr
	mov	x9, xzr
	mov	w10, #1
	b	.LBBd6c1ba5_56
.LBBd6c1ba5_60:
	brk	#0x1
.Lfunc_endd6c1ba5:
	.size	ckd_drive_drive_Drive_end_elsewhere_808c45e55832e08b_.1a20373, .Lfunc_endd6c1ba5-ckd_drive_drive_Drive_end_elsewhere_808c45e55832e08b_.1a20373

	.section	".text.ckd_drive::drive::Drive::give::<#808c45e55832e08b>","ax",@progbits
	.p2align	2
	.type	ckd_drive_drive_Drive_give_808c45e55832e08b_.3403fdf,@function
ckd_drive_drive_Drive_give_808c45e55832e08b_.3403fdf:
	str	x30, [sp, #-32]!
	ldrb	w8, [x0, #1025]
	stp	x20, x19, [sp, #16]
	cmp	w8, #5
	b.ne	.LBB01f3c9b_44
	ldrb	w8, [x0, #984]
	cmp	w8, #1
	b.le	.LBB01f3c9b_10
	cmp	w8, #2
	b.ne	.LBB01f3c9b_44
	ldr	x9, [x0, #992]
	ldr	x8, [x0, #1000]
	ldr	x10, [x0, #744]
	ldr	x11, [x0, #976]
	ldr	x12, [x0, #968]
	add	x13, x9, x2
	sub	x14, x8, x2
	add	x8, x10, x9
	str	x13, [x0, #992]
	sub	x13, x1, x8
	add	x12, x12, x2
	cmp	x13, x2
	sub	x11, x11, x2
	str	x14, [x0, #1000]
	str	x12, [x0, #968]
	str	x11, [x0, #976]
	b.hs	.LBB01f3c9b_22
	cmp	x2, #8
	b.lo	.LBB01f3c9b_6
	add	x8, x9, x10
	sub	x8, x1, x8
	cmp	x8, #32
	b.hs	.LBB01f3c9b_28
.LBB01f3c9b_6:
	mov	x8, xzr
.LBB01f3c9b_7:
	add	x11, x8, x9
	sub	x9, x2, x8
	add	x8, x1, x8
	add	x10, x10, x11
.LBB01f3c9b_8:
	ldrb	w11, [x10], #1
	subs	x9, x9, #1
	strb	w11, [x8], #1
	b.ne	.LBB01f3c9b_8
.LBB01f3c9b_9:
	ldp	x20, x19, [sp, #16]
	ldr	x30, [sp], #32
	ret
.LBB01f3c9b_10:
	cbnz	w8, .LBB01f3c9b_44
	ldr	x9, [x0, #968]
	add	x8, x0, x9
	add	x8, x8, #985
	sub	x10, x1, x8
	cmp	x10, x2
	b.hs	.LBB01f3c9b_17
	cmp	x2, #8
	b.lo	.LBB01f3c9b_14
	sub	x10, x1, x0
	sub	x10, x10, x9
	sub	x10, x10, #985
	cmp	x10, #32
	b.hs	.LBB01f3c9b_26
.LBB01f3c9b_14:
	mov	x10, xzr
.LBB01f3c9b_15:
	add	x8, x10, x9
	add	x9, x8, x0
	sub	x8, x2, x10
	add	x10, x1, x10
	add	x9, x9, #985
.LBB01f3c9b_16:
	ldrb	w11, [x9], #1
	subs	x8, x8, #1
	strb	w11, [x10], #1
	b.ne	.LBB01f3c9b_16
	b	.LBB01f3c9b_18
.LBB01f3c9b_17:
	mov	x20, x0
	mov	x0, x1
	mov	x1, x8
	mov	x19, x2
	bl	memmove
	mov	x0, x20
	mov	x2, x19
.LBB01f3c9b_18:
	ldrb	w8, [x0, #1025]
	cmp	w8, #5
	b.ne	.LBB01f3c9b_44
	ldrb	w8, [x0, #984]
	cmp	w8, #1
	b.le	.LBB01f3c9b_23
	cmp	w8, #2
	b.ne	.LBB01f3c9b_44
	ldr	x8, [x0, #992]
	ldr	x9, [x0, #1000]
	add	x10, x8, x2
	ldr	x8, [x0, #976]
	sub	x9, x9, x2
	str	x10, [x0, #992]
	str	x9, [x0, #1000]
	b	.LBB01f3c9b_25
.LBB01f3c9b_22:
	ldp	x20, x19, [sp, #16]
	mov	x0, x1
	mov	x1, x8
	ldr	x30, [sp], #32
	b	memmove
.LBB01f3c9b_23:
	cbnz	w8, .LBB01f3c9b_44
	ldr	x8, [x0, #976]
.LBB01f3c9b_25:
	ldr	x9, [x0, #968]
	sub	x8, x8, x2
	str	x8, [x0, #976]
	add	x9, x9, x2
	str	x9, [x0, #968]
	ldp	x20, x19, [sp, #16]
	ldr	x30, [sp], #32
	ret
.LBB01f3c9b_26:
	cmp	x2, #32
	b.hs	.LBB01f3c9b_30
	mov	x10, xzr
	b	.LBB01f3c9b_34
.LBB01f3c9b_28:
	cmp	x2, #32
	b.hs	.LBB01f3c9b_37
	mov	x8, xzr
	b	.LBB01f3c9b_41
.LBB01f3c9b_30:
	and	x11, x2, #0x18
	and	x10, x2, #0xffffffffffffffe0
	add	x12, x1, #16
	and	x13, x2, #0xffffffffffffffe0
.LBB01f3c9b_31:
	ldp	q0, q1, [x8], #32
	subs	x13, x13, #32
	stp	q0, q1, [x12, #-16]
	add	x12, x12, #32
	b.ne	.LBB01f3c9b_31
	cmp	x2, x10
	b.eq	.LBB01f3c9b_18
	cbz	x11, .LBB01f3c9b_15
.LBB01f3c9b_34:
	mov	x12, x10
	and	x10, x2, #0xfffffffffffffff8
	add	x8, x12, x9
	add	x11, x8, x0
	sub	x8, x12, x10
	add	x12, x1, x12
	add	x11, x11, #985
.LBB01f3c9b_35:
	ldr	d0, [x11], #8
	adds	x8, x8, #8
	str	d0, [x12], #8
	b.ne	.LBB01f3c9b_35
	cmp	x2, x10
	b.eq	.LBB01f3c9b_18
	b	.LBB01f3c9b_15
.LBB01f3c9b_37:
	add	x12, x9, x10
	and	x11, x2, #0x18
	and	x8, x2, #0xffffffffffffffe0
	add	x12, x12, #16
	add	x13, x1, #16
	and	x14, x2, #0xffffffffffffffe0
.LBB01f3c9b_38:
	ldp	q0, q1, [x12, #-16]
	subs	x14, x14, #32
	add	x12, x12, #32
	stp	q0, q1, [x13, #-16]
	add	x13, x13, #32
	b.ne	.LBB01f3c9b_38
	cmp	x2, x8
	b.eq	.LBB01f3c9b_9
	cbz	x11, .LBB01f3c9b_7
.LBB01f3c9b_41:
	mov	x13, x8
	and	x8, x2, #0xfffffffffffffff8
	add	x12, x13, x9
	sub	x11, x13, x8
	add	x13, x1, x13
	add	x12, x10, x12
.LBB01f3c9b_42:
	ldr	d0, [x12], #8
	adds	x11, x11, #8
	str	d0, [x13], #8
	b.ne	.LBB01f3c9b_42
	cmp	x2, x8
	b.eq	.LBB01f3c9b_9
	b	.LBB01f3c9b_7
.LBB01f3c9b_44:
	brk	#0x1
.Lfunc_end01f3c9b:
	.size	ckd_drive_drive_Drive_give_808c45e55832e08b_.3403fdf, .Lfunc_end01f3c9b-ckd_drive_drive_Drive_give_808c45e55832e08b_.3403fdf

	.section	.rodata.cst16,"aM",@progbits,16
	.p2align	4, 0x0
.LCPI53d1cf7_0:
	.xword	1
	.xword	0
	.section	".text.ckd_drive::drive::Drive::look_for_area::<#808c45e55832e08b>","ax",@progbits
	.p2align	2
	.type	ckd_drive_drive_Drive_look_for_area_808c45e55832e08b_.a55b112,@function
ckd_drive_drive_Drive_look_for_area_808c45e55832e08b_.a55b112:
	ldrb	w8, [x0, #1025]
	cmp	w8, #4
	b.ne	.LBB53d1cf7_87
	sub	sp, sp, #64
	ldrb	w8, [x0, #936]
	adrp	x9, .LJTI53d1cf7_0
	add	x9, x9, :lo12:.LJTI53d1cf7_0
	str	x30, [sp, #32]
	stp	x20, x19, [sp, #48]
	adr	x10, .LBB53d1cf7_2
	ldrb	w11, [x9, x8]
	add	x10, x10, x11, lsl #2
	mov	x19, x0
	br	x10
.LBB53d1cf7_2:
	add	x1, x19, #1024
	mov	x0, x19
	bl	ckd_drive_job_Job_look_elsewhere_808c45e55832e08b_.81cf5b5
	and	w8, w0, #0xff
	strb	w0, [x19, #1025]
	cmp	w8, #3
	b.eq	.LBB53d1cf7_83
.LBB53d1cf7_3:
	cmp	w8, #5
	b.ne	.LBB53d1cf7_85
	ldr	x1, [x19, #976]
	mov	w0, wzr
	ldp	x20, x19, [sp, #48]
	ldr	x30, [sp, #32]
	add	sp, sp, #64
	ret
.LBB53d1cf7_5:
	ldrb	w8, [x19, #944]
	cmp	w8, #1
	b.ne	.LBB53d1cf7_42
	ldrb	w8, [x19, #952]
	cbz	w8, .LBB53d1cf7_42
	ldrb	w8, [x19, #792]
	cmp	w8, #1
	b.ne	.LBB53d1cf7_49
	ldr	x8, [x19, #960]
	ldr	x9, [x19, #800]
	cmp	x9, x8
	b.ls	.LBB53d1cf7_49
	ldr	x9, [x19, #768]
	ldr	w8, [x9, x8, lsl #2]
	ldr	x9, [x19, #744]
	add	x9, x9, x8
	ldrh	w10, [x9, #6]
	ldrb	w9, [x9, #5]
	rev16	w1, w10
	add	x8, x8, x9
	cmp	w1, #0
	add	x8, x8, #8
	cset	w9, eq
	b	.LBB53d1cf7_50
.LBB53d1cf7_10:
	movi	v0.2d, #0000000000000000
	mov	w1, #8
	str	xzr, [x19, #968]
	b	.LBB53d1cf7_12
.LBB53d1cf7_11:
	str	xzr, [x19, #968]
	movi	v0.2d, #0000000000000000
	mov	w1, #6
.LBB53d1cf7_12:
	mov	w8, #1
	add	x9, x19, #985
	str	xzr, [x19, #1016]
	str	x1, [x19, #976]
	strb	w8, [x19, #984]
	stp	q0, q0, [x9]
	b	.LBB53d1cf7_80
.LBB53d1cf7_13:
	ldrb	w8, [x19, #704]
	ldrh	w9, [x19, #864]
	mov	w10, #10
	ldrh	w11, [x19, #866]
	cmp	w8, #0
	mov	w8, #20
	csel	w8, w10, w8, eq
	ldrb	w10, [x19, #848]
	madd	w20, w8, w9, w11
	cmp	w10, #1
	b.ne	.LBB53d1cf7_15
	ldr	w8, [x19, #852]
	cmp	w8, w20
	b.eq	.LBB53d1cf7_16
.LBB53d1cf7_15:
	add	x0, x19, #744
	mov	x1, x19
	mov	w2, w20
	str	wzr, [x19, #848]
	str	w20, [x19, #852]
	bl	ckd_slot_buffer_TrackBuffer_load_808c45e55832e08b_.5d2ea6a
	mov	w8, #1
	str	w20, [x19, #852]
	str	w8, [x19, #848]
.LBB53d1cf7_16:
	ldrb	w8, [x19, #792]
	cmp	w8, #1
	b.ne	.LBB53d1cf7_40
	ldrb	w8, [x19, #880]
	ldr	x9, [x19, #888]
	ldr	x10, [x19, #800]
	ldrb	w11, [x19, #872]
	ldrb	w1, [x19, #704]
	stp	xzr, xzr, [sp, #16]
	and	w8, w8, #0xff
	cmp	x9, x10
	csinc	x9, x10, x9, hs
	cmp	w8, #1
	ccmp	w11, #1, #0, eq
	csel	x8, x9, xzr, eq
	cmp	x8, x10
	b.hs	.LBB53d1cf7_43
	mov	w9, #1
	str	x8, [x19, #960]
	str	x9, [x19, #944]
	strh	w9, [x19, #952]
.LBB53d1cf7_19:
	ldr	x9, [x19, #800]
	cmp	x9, x8
	b.ls	.LBB53d1cf7_63
	ldr	x9, [x19, #768]
	mov	w1, #5
	ldr	w8, [x9, x8, lsl #2]
	b	.LBB53d1cf7_64
.LBB53d1cf7_21:
	ldrb	w1, [x19, #704]
	ldrh	w8, [x19, #864]
	mov	w9, #20
	mov	w10, #10
	ldrh	w11, [x19, #866]
	cmp	x1, #0
	csel	w9, w10, w9, eq
	ldrb	w10, [x19, #848]
	madd	w20, w9, w8, w11
	cmp	w10, #1
	b.ne	.LBB53d1cf7_23
	ldr	w8, [x19, #852]
	cmp	w8, w20
	b.eq	.LBB53d1cf7_24
.LBB53d1cf7_23:
	add	x0, x19, #744
	mov	x1, x19
	mov	w2, w20
	str	wzr, [x19, #848]
	str	w20, [x19, #852]
	bl	ckd_slot_buffer_TrackBuffer_load_808c45e55832e08b_.5d2ea6a
	ldr	x1, [x19, #704]
	mov	w8, #1
	str	w20, [x19, #852]
	str	w8, [x19, #848]
.LBB53d1cf7_24:
	ldrb	w8, [x19, #792]
	cmp	w8, #1
	b.ne	.LBB53d1cf7_40
	ldrb	w8, [x19, #872]
	ldrb	w9, [x19, #880]
	and	w10, w9, #0xff
	cmp	w8, #1
	ldr	x8, [x19, #888]
	ldr	x9, [x19, #800]
	ccmp	w10, #1, #0, eq
	cset	w10, ne
	b.ne	.LBB53d1cf7_27
	ldrb	w11, [x19, #881]
	cmp	w11, #2
	b.ne	.LBB53d1cf7_28
.LBB53d1cf7_27:
	cmp	x9, #1
	csinc	x11, x9, xzr, hi
	cmp	x8, x9
	csinc	x8, x11, x8, hs
	cmp	w10, #0
	csinc	x8, x8, xzr, eq
.LBB53d1cf7_28:
	cmp	x8, x9
	stp	xzr, xzr, [sp, #16]
	b.hs	.LBB53d1cf7_45
	mov	w9, #1
	mov	w10, #513
	str	x8, [x19, #960]
	str	x9, [x19, #944]
	strh	w10, [x19, #952]
.LBB53d1cf7_30:
	ldr	x9, [x19, #800]
	cmp	x9, x8
	b.ls	.LBB53d1cf7_77
	ldr	x9, [x19, #768]
	ldr	w8, [x9, x8, lsl #2]
	ldr	x9, [x19, #744]
	add	x9, x9, x8
	ldrh	w10, [x9, #6]
	ldrb	w9, [x9, #5]
	rev16	w1, w10
	add	x8, x8, x9
	cmp	w1, #0
	add	x8, x8, #8
	cset	w9, eq
	b	.LBB53d1cf7_78
.LBB53d1cf7_32:
	ldrb	w8, [x19, #704]
	ldrh	w9, [x19, #864]
	mov	w10, #10
	ldrh	w11, [x19, #866]
	cmp	w8, #0
	mov	w8, #20
	csel	w8, w10, w8, eq
	ldrb	w10, [x19, #848]
	madd	w20, w8, w9, w11
	cmp	w10, #1
	b.ne	.LBB53d1cf7_34
	ldr	w8, [x19, #852]
	cmp	w8, w20
	b.eq	.LBB53d1cf7_35
.LBB53d1cf7_34:
	add	x0, x19, #744
	mov	x1, x19
	mov	w2, w20
	str	wzr, [x19, #848]
	str	w20, [x19, #852]
	bl	ckd_slot_buffer_TrackBuffer_load_808c45e55832e08b_.5d2ea6a
	mov	w8, #1
	str	w20, [x19, #852]
	str	w8, [x19, #848]
.LBB53d1cf7_35:
	ldrb	w8, [x19, #792]
	cmp	w8, #1
	b.ne	.LBB53d1cf7_40
	ldr	x9, [x19, #800]
	ldrb	w8, [x19, #880]
	ldr	x10, [x19, #888]
	ldrb	w11, [x19, #872]
	ldrb	w1, [x19, #704]
	stp	xzr, xzr, [sp, #16]
	cmp	x9, #1
	and	w8, w8, #0xff
	csinc	x12, x9, xzr, hi
	cmp	x10, x9
	csinc	x10, x12, x10, hs
	cmp	w8, #1
	ccmp	w11, #1, #0, eq
	csinc	x8, x10, xzr, eq
	cmp	x8, x9
	b.hs	.LBB53d1cf7_47
	mov	w9, #1
	str	x8, [x19, #960]
	str	x9, [x19, #944]
	strh	w9, [x19, #952]
.LBB53d1cf7_38:
	ldr	x9, [x19, #800]
	cmp	x9, x8
	b.ls	.LBB53d1cf7_77
	ldr	x9, [x19, #768]
	ldr	w8, [x9, x8, lsl #2]
	ldr	x9, [x19, #744]
	add	x9, x9, x8
	ldrh	w10, [x9, #6]
	ldrb	w9, [x9, #5]
	rev16	w10, w10
	add	x9, x9, x10
	cmp	w10, #0
	add	x1, x9, #8
	cset	w9, eq
	b	.LBB53d1cf7_78
.LBB53d1cf7_40:
	ldrh	w8, [x19, #868]
	mov	w9, #2050
	orr	w8, w8, w9
	strh	w8, [x19, #868]
.LBB53d1cf7_41:
	mov	w8, #3
	mov	x1, xzr
	mov	w0, #2
	strb	w8, [x19, #1025]
	ldp	x20, x19, [sp, #48]
	ldr	x30, [sp, #32]
	add	sp, sp, #64
	ret
.LBB53d1cf7_42:
	mov	x8, xzr
	mov	x1, xzr
	mov	x9, xzr
	b	.LBB53d1cf7_50
.LBB53d1cf7_43:
	ldrb	w8, [x19, #937]
	cmp	w8, #1
	b.ne	.LBB53d1cf7_51
	add	x0, sp, #8
	add	x2, x19, #864
	bl	ckd_command_look_next_head.d94fc1a
	ldrb	w9, [sp, #8]
	ldrb	w10, [sp, #16]
	ldrb	w11, [sp, #17]
	ldr	x8, [sp, #24]
	b	.LBB53d1cf7_59
.LBB53d1cf7_45:
	ldrb	w8, [x19, #937]
	cmp	w8, #1
	b.ne	.LBB53d1cf7_53
	add	x0, sp, #8
	add	x2, x19, #864
	bl	ckd_command_look_next_head.d94fc1a
	ldrb	w9, [sp, #8]
	ldrb	w10, [sp, #16]
	ldrb	w11, [sp, #17]
	ldr	x8, [sp, #24]
	b	.LBB53d1cf7_67
.LBB53d1cf7_47:
	ldrb	w8, [x19, #937]
	cmp	w8, #1
	b.ne	.LBB53d1cf7_55
	add	x0, sp, #8
	add	x2, x19, #864
	bl	ckd_command_look_next_head.d94fc1a
	ldrb	w9, [sp, #8]
	ldrb	w10, [sp, #16]
	ldrb	w11, [sp, #17]
	ldr	x8, [sp, #24]
	b	.LBB53d1cf7_73
.LBB53d1cf7_49:
	mov	x8, xzr
	mov	x1, xzr
	mov	w9, #1
.LBB53d1cf7_50:
	str	xzr, [x19, #968]
	mov	w10, #4
	b	.LBB53d1cf7_79
.LBB53d1cf7_51:
	ldrb	w8, [x19, #928]
	cbz	w8, .LBB53d1cf7_57
	ldrh	w8, [x19, #868]
	mov	w12, wzr
	mov	w9, #3
	orr	w8, w8, #0x8
	strh	w8, [x19, #868]
	b	.LBB53d1cf7_58
.LBB53d1cf7_53:
	ldrb	w8, [x19, #928]
	cbz	w8, .LBB53d1cf7_65
	ldrh	w8, [x19, #868]
	mov	w12, wzr
	mov	w9, #3
	orr	w8, w8, #0x8
	strh	w8, [x19, #868]
	b	.LBB53d1cf7_66
.LBB53d1cf7_55:
	ldrb	w8, [x19, #928]
	cbz	w8, .LBB53d1cf7_71
	ldrh	w8, [x19, #868]
	mov	w12, wzr
	mov	w9, #3
	orr	w8, w8, #0x8
	strh	w8, [x19, #868]
	b	.LBB53d1cf7_72
.LBB53d1cf7_57:
	mov	w12, #1
	mov	w9, #1
.LBB53d1cf7_58:
	mov	x8, xzr
	mov	w11, wzr
	mov	w10, wzr
	str	xzr, [x19, #872]
	strh	wzr, [x19, #880]
	str	xzr, [x19, #888]
	strb	w12, [x19, #928]
.LBB53d1cf7_59:
	cmp	w9, #1
	b.gt	.LBB53d1cf7_81
	cbnz	w9, .LBB53d1cf7_84
	mov	w9, #1
	strb	w10, [x19, #952]
	str	x9, [x19, #944]
	strb	w11, [x19, #953]
	str	x8, [x19, #960]
	cbz	w10, .LBB53d1cf7_63
	ldrb	w9, [x19, #792]
	cmp	w9, #1
	b.eq	.LBB53d1cf7_19
.LBB53d1cf7_63:
	mov	x8, xzr
	mov	x1, xzr
.LBB53d1cf7_64:
	mov	w9, #3
	str	wzr, [x19, #988]
	strb	w9, [x19, #984]
	add	x9, x19, #985
	str	wzr, [x9]
	adrp	x9, .LCPI53d1cf7_0
	ldr	q0, [x9, :lo12:.LCPI53d1cf7_0]
	str	xzr, [x19, #968]
	str	x1, [x19, #976]
	str	x8, [x19, #992]
	str	x1, [x19, #1000]
	str	q0, [x19, #1008]
	b	.LBB53d1cf7_80
.LBB53d1cf7_65:
	mov	w12, #1
	mov	w9, #1
.LBB53d1cf7_66:
	mov	x8, xzr
	mov	w11, wzr
	mov	w10, wzr
	str	xzr, [x19, #872]
	strh	wzr, [x19, #880]
	str	xzr, [x19, #888]
	strb	w12, [x19, #928]
.LBB53d1cf7_67:
	cmp	w9, #1
	b.gt	.LBB53d1cf7_81
	cbnz	w9, .LBB53d1cf7_84
	mov	w9, #1
	strb	w10, [x19, #952]
	str	x9, [x19, #944]
	strb	w11, [x19, #953]
	str	x8, [x19, #960]
	cbz	w10, .LBB53d1cf7_86
	ldrb	w9, [x19, #792]
	cmp	w9, #1
	b.eq	.LBB53d1cf7_30
	b	.LBB53d1cf7_77
.LBB53d1cf7_71:
	mov	w12, #1
	mov	w9, #1
.LBB53d1cf7_72:
	mov	x8, xzr
	mov	w11, wzr
	mov	w10, wzr
	str	xzr, [x19, #872]
	strh	wzr, [x19, #880]
	str	xzr, [x19, #888]
	strb	w12, [x19, #928]
.LBB53d1cf7_73:
	cmp	w9, #1
	b.gt	.LBB53d1cf7_81
	cbnz	w9, .LBB53d1cf7_84
	mov	w9, #1
	strb	w10, [x19, #952]
	str	x9, [x19, #944]
	strb	w11, [x19, #953]
	str	x8, [x19, #960]
	cbz	w10, .LBB53d1cf7_86
	ldrb	w9, [x19, #792]
	cmp	w9, #1
	b.eq	.LBB53d1cf7_38
.LBB53d1cf7_77:
	mov	x8, xzr
	mov	x1, xzr
	mov	w9, #1
.LBB53d1cf7_78:
	mov	w10, #2
	str	xzr, [x19, #968]
.LBB53d1cf7_79:
	str	x1, [x19, #976]
	strb	w10, [x19, #984]
	add	x10, x19, #985
	str	wzr, [x19, #988]
	str	wzr, [x10]
	str	x8, [x19, #992]
	str	x1, [x19, #1000]
	str	x9, [x19, #1008]
	str	xzr, [x19, #1016]
.LBB53d1cf7_80:
	mov	w8, #5
	mov	w0, wzr
	strb	w8, [x19, #1025]
	ldp	x20, x19, [sp, #48]
	ldr	x30, [sp, #32]
	add	sp, sp, #64
	ret
.LBB53d1cf7_81:
	cmp	w9, #2
	b.ne	.LBB53d1cf7_41
	ldrh	w8, [x19, #866]
	ldrh	w2, [x19, #864]
	add	x1, x19, #1024
	mov	x0, x19
	add	w3, w8, #1
	bl	ckd_drive_job_Job_leave_808c45e55832e08b_.db7d905
	mov	w8, #4
	and	w9, w0, #0xff
	sub	w0, w8, w9
	and	w8, w0, #0xff
	strb	w0, [x19, #1025]
	cmp	w8, #3
	b.ne	.LBB53d1cf7_3
.LBB53d1cf7_83:
	mov	x1, xzr
	mov	w0, #2
	ldp	x20, x19, [sp, #48]
	ldr	x30, [sp, #32]
	add	sp, sp, #64
	ret
.LBB53d1cf7_84:
	mov	w8, #4
	strb	w8, [x19, #1025]
.LBB53d1cf7_85:
	mov	x1, xzr
	mov	w0, #1
	ldp	x20, x19, [sp, #48]
	ldr	x30, [sp, #32]
	add	sp, sp, #64
	ret
.LBB53d1cf7_86:
	mov	x8, xzr
	mov	x1, xzr
	mov	x9, xzr
	b	.LBB53d1cf7_78
.LBB53d1cf7_87:
	brk	#0x1
.Lfunc_end53d1cf7:
	.size	ckd_drive_drive_Drive_look_for_area_808c45e55832e08b_.a55b112, .Lfunc_end53d1cf7-ckd_drive_drive_Drive_look_for_area_808c45e55832e08b_.a55b112
	.section	".rodata.ckd_drive::drive::Drive::look_for_area::<#808c45e55832e08b>","a",@progbits
.LJTI53d1cf7_0:
	.byte	(.LBB53d1cf7_2-.LBB53d1cf7_2)>>2
	.byte	(.LBB53d1cf7_2-.LBB53d1cf7_2)>>2
	.byte	(.LBB53d1cf7_11-.LBB53d1cf7_2)>>2
	.byte	(.LBB53d1cf7_2-.LBB53d1cf7_2)>>2
	.byte	(.LBB53d1cf7_2-.LBB53d1cf7_2)>>2
	.byte	(.LBB53d1cf7_2-.LBB53d1cf7_2)>>2
	.byte	(.LBB53d1cf7_2-.LBB53d1cf7_2)>>2
	.byte	(.LBB53d1cf7_2-.LBB53d1cf7_2)>>2
	.byte	(.LBB53d1cf7_13-.LBB53d1cf7_2)>>2
	.byte	(.LBB53d1cf7_2-.LBB53d1cf7_2)>>2
	.byte	(.LBB53d1cf7_2-.LBB53d1cf7_2)>>2
	.byte	(.LBB53d1cf7_2-.LBB53d1cf7_2)>>2
	.byte	(.LBB53d1cf7_2-.LBB53d1cf7_2)>>2
	.byte	(.LBB53d1cf7_2-.LBB53d1cf7_2)>>2
	.byte	(.LBB53d1cf7_2-.LBB53d1cf7_2)>>2
	.byte	(.LBB53d1cf7_2-.LBB53d1cf7_2)>>2
	.byte	(.LBB53d1cf7_2-.LBB53d1cf7_2)>>2
	.byte	(.LBB53d1cf7_2-.LBB53d1cf7_2)>>2
	.byte	(.LBB53d1cf7_21-.LBB53d1cf7_2)>>2
	.byte	(.LBB53d1cf7_2-.LBB53d1cf7_2)>>2
	.byte	(.LBB53d1cf7_32-.LBB53d1cf7_2)>>2
	.byte	(.LBB53d1cf7_2-.LBB53d1cf7_2)>>2
	.byte	(.LBB53d1cf7_2-.LBB53d1cf7_2)>>2
	.byte	(.LBB53d1cf7_10-.LBB53d1cf7_2)>>2
	.byte	(.LBB53d1cf7_5-.LBB53d1cf7_2)>>2
	.byte	(.LBB53d1cf7_2-.LBB53d1cf7_2)>>2

	.section	".text.ckd_drive::look::ready","ax",@progbits
	.p2align	2
	.type	ckd_drive_look_ready.f21f60a,@function
ckd_drive_look_ready.f21f60a:
	ldp	x12, x10, [x2, #8]
	ldrb	w8, [x2]
	ldr	q0, [x2, #16]
	ldur	x11, [x2, #1]
	ldr	x9, [x2, #32]
	sub	w13, w8, #2
	str	x11, [sp, #-16]!
	cmp	w13, #5
	stur	x12, [sp, #7]
	b.hs	.LBB230bc24_2
.LBB230bc24_1:
	stp	xzr, x10, [x1]
	ldr	x10, [sp]
	strb	w8, [x1, #16]
	ldur	x8, [sp, #7]
	stur	x10, [x1, #17]
	str	x8, [x1, #24]
	str	q0, [x1, #32]
	str	x9, [x1, #48]
	add	sp, sp, #16
	ret
.LBB230bc24_2:
	cbnz	w8, .LBB230bc24_4
	mov	w10, #6
	b	.LBB230bc24_1
.LBB230bc24_4:
	and	x10, x0, #0xff
	adrp	x11, .Lswitch.table.dasd_drive_do.156
	add	x11, x11, :lo12:.Lswitch.table.dasd_drive_do.156
	ldr	x10, [x11, x10, lsl #3]
	b	.LBB230bc24_1
.Lfunc_end230bc24:
	.size	ckd_drive_look_ready.f21f60a, .Lfunc_end230bc24-ckd_drive_look_ready.f21f60a

	.section	".text.ckd_slot::buffer::TrackBuffer::load::<#808c45e55832e08b>","ax",@progbits
	.p2align	2
	.type	ckd_slot_buffer_TrackBuffer_load_808c45e55832e08b_.5d2ea6a,@function
ckd_slot_buffer_TrackBuffer_load_808c45e55832e08b_.5d2ea6a:
	str	x30, [sp, #-80]!
	stp	x22, x21, [sp, #48]
	mov	x22, x1
	stp	x20, x19, [sp, #64]
	ldp	x20, x21, [x0]
	stp	x24, x23, [sp, #32]
	mov	x19, x0
	ldr	w23, [x1, #708]
	add	x0, x1, #712
	mov	w1, #8
	stp	x26, x25, [sp, #16]
	bl	ckd_image_files_place_of.2003b0d
	umull	x8, w23, w1
	cmp	x0, #2
	add	x10, x8, #512
	b.le	.LBBefd557b_11
	cmp	x0, #4
	b.gt	.LBBefd557b_21
	cmp	x0, #3
	b.eq	.LBBefd557b_44
	cmp	x0, #4
	b.ne	.LBBefd557b_37
	ldrb	w9, [x22, #352]
	cmp	w9, #1
	b.ne	.LBBefd557b_149
	ldr	x9, [x22, #360]
	add	x1, x9, x10
	sub	x10, x20, x1
	cmp	x10, x21
	b.hs	.LBBefd557b_65
	cmp	x21, #8
	b.lo	.LBBefd557b_8
	sub	x10, x20, x9
	sub	x10, x10, x8
	sub	x10, x10, #512
	cmp	x10, #32
	b.hs	.LBBefd557b_85
.LBBefd557b_8:
	mov	x10, xzr
.LBBefd557b_9:
	add	x8, x10, x8
	add	x9, x8, x9
	sub	x8, x21, x10
	add	x10, x20, x10
	add	x9, x9, #512
.LBBefd557b_10:
	ldrb	w11, [x9], #1
	subs	x8, x8, #1
	strb	w11, [x10], #1
	b.ne	.LBBefd557b_10
	b	.LBBefd557b_66
.LBBefd557b_11:
	cbz	x0, .LBBefd557b_30
	cmp	x0, #1
	b.eq	.LBBefd557b_58
	cmp	x0, #2
	b.ne	.LBBefd557b_37
	ldrb	w9, [x22, #176]
	cmp	w9, #1
	b.ne	.LBBefd557b_149
	ldr	x9, [x22, #184]
	add	x1, x9, x10
	sub	x10, x20, x1
	cmp	x10, x21
	b.hs	.LBBefd557b_65
	cmp	x21, #8
	b.lo	.LBBefd557b_18
	sub	x10, x20, x9
	sub	x10, x10, x8
	sub	x10, x10, #512
	cmp	x10, #32
	b.hs	.LBBefd557b_89
.LBBefd557b_18:
	mov	x10, xzr
.LBBefd557b_19:
	add	x8, x10, x8
	add	x9, x8, x9
	sub	x8, x21, x10
	add	x10, x20, x10
	add	x9, x9, #512
.LBBefd557b_20:
	ldrb	w11, [x9], #1
	subs	x8, x8, #1
	strb	w11, [x10], #1
	b.ne	.LBBefd557b_20
	b	.LBBefd557b_66
.LBBefd557b_21:
	cmp	x0, #5
	b.eq	.LBBefd557b_51
	cmp	x0, #6
	b.ne	.LBBefd557b_37
	ldrb	w9, [x22, #528]
	cmp	w9, #1
	b.ne	.LBBefd557b_149
	ldr	x9, [x22, #536]
	add	x1, x9, x10
	sub	x10, x20, x1
	cmp	x10, x21
	b.hs	.LBBefd557b_65
	cmp	x21, #8
	b.lo	.LBBefd557b_27
	sub	x10, x20, x9
	sub	x10, x10, x8
	sub	x10, x10, #512
	cmp	x10, #32
	b.hs	.LBBefd557b_87
.LBBefd557b_27:
	mov	x10, xzr
.LBBefd557b_28:
	add	x8, x10, x8
	add	x9, x8, x9
	sub	x8, x21, x10
	add	x10, x20, x10
	add	x9, x9, #512
.LBBefd557b_29:
	ldrb	w11, [x9], #1
	subs	x8, x8, #1
	strb	w11, [x10], #1
	b.ne	.LBBefd557b_29
	b	.LBBefd557b_66
.LBBefd557b_30:
	ldrb	w9, [x22]
	cmp	w9, #1
	b.ne	.LBBefd557b_149
	ldr	x9, [x22, #8]
	add	x1, x9, x10
	sub	x10, x20, x1
	cmp	x10, x21
	b.hs	.LBBefd557b_65
	cmp	x21, #8
	b.lo	.LBBefd557b_34
	sub	x10, x20, x9
	sub	x10, x10, x8
	sub	x10, x10, #512
	cmp	x10, #32
	b.hs	.LBBefd557b_77
.LBBefd557b_34:
	mov	x10, xzr
.LBBefd557b_35:
	add	x8, x10, x8
	add	x9, x8, x9
	sub	x8, x21, x10
	add	x10, x20, x10
	add	x9, x9, #512
.LBBefd557b_36:
	ldrb	w11, [x9], #1
	subs	x8, x8, #1
	strb	w11, [x10], #1
	b.ne	.LBBefd557b_36
	b	.LBBefd557b_66
.LBBefd557b_37:
	ldrb	w9, [x22, #616]
	cmp	w9, #1
	b.ne	.LBBefd557b_149
	ldr	x9, [x22, #624]
	add	x1, x9, x10
	sub	x10, x20, x1
	cmp	x10, x21
	b.hs	.LBBefd557b_65
	cmp	x21, #8
	b.lo	.LBBefd557b_41
	sub	x10, x20, x9
	sub	x10, x10, x8
	sub	x10, x10, #512
	cmp	x10, #32
	b.hs	.LBBefd557b_79
.LBBefd557b_41:
	mov	x10, xzr
.LBBefd557b_42:
	add	x8, x10, x8
	add	x9, x8, x9
	sub	x8, x21, x10
	add	x10, x20, x10
	add	x9, x9, #512
.LBBefd557b_43:
	ldrb	w11, [x9], #1
	subs	x8, x8, #1
	strb	w11, [x10], #1
	b.ne	.LBBefd557b_43
	b	.LBBefd557b_66
.LBBefd557b_44:
	ldrb	w9, [x22, #264]
	cmp	w9, #1
	b.ne	.LBBefd557b_149
	ldr	x9, [x22, #272]
	add	x1, x9, x10
	sub	x10, x20, x1
	cmp	x10, x21
	b.hs	.LBBefd557b_65
	cmp	x21, #8
	b.lo	.LBBefd557b_48
	sub	x10, x20, x9
	sub	x10, x10, x8
	sub	x10, x10, #512
	cmp	x10, #32
	b.hs	.LBBefd557b_81
.LBBefd557b_48:
	mov	x10, xzr
.LBBefd557b_49:
	add	x8, x10, x8
	add	x9, x8, x9
	sub	x8, x21, x10
	add	x10, x20, x10
	add	x9, x9, #512
.LBBefd557b_50:
	ldrb	w11, [x9], #1
	subs	x8, x8, #1
	strb	w11, [x10], #1
	b.ne	.LBBefd557b_50
	b	.LBBefd557b_66
.LBBefd557b_51:
	ldrb	w9, [x22, #440]
	cmp	w9, #1
	b.ne	.LBBefd557b_149
	ldr	x9, [x22, #448]
	add	x1, x9, x10
	sub	x10, x20, x1
	cmp	x10, x21
	b.hs	.LBBefd557b_65
	cmp	x21, #8
	b.lo	.LBBefd557b_55
	sub	x10, x20, x9
	sub	x10, x10, x8
	sub	x10, x10, #512
	cmp	x10, #32
	b.hs	.LBBefd557b_83
.LBBefd557b_55:
	mov	x10, xzr
.LBBefd557b_56:
	add	x8, x10, x8
	add	x9, x8, x9
	sub	x8, x21, x10
	add	x10, x20, x10
	add	x9, x9, #512
.LBBefd557b_57:
	ldrb	w11, [x9], #1
	subs	x8, x8, #1
	strb	w11, [x10], #1
	b.ne	.LBBefd557b_57
	b	.LBBefd557b_66
.LBBefd557b_58:
	ldrb	w9, [x22, #88]
	cmp	w9, #1
	b.ne	.LBBefd557b_149
	ldr	x9, [x22, #96]
	add	x1, x9, x10
	sub	x10, x20, x1
	cmp	x10, x21
	b.hs	.LBBefd557b_65
	cmp	x21, #8
	b.lo	.LBBefd557b_62
	sub	x10, x20, x9
	sub	x10, x10, x8
	sub	x10, x10, #512
	cmp	x10, #32
	b.hs	.LBBefd557b_91
.LBBefd557b_62:
	mov	x10, xzr
.LBBefd557b_63:
	add	x8, x10, x8
	add	x9, x8, x9
	sub	x8, x21, x10
	add	x10, x20, x10
	add	x9, x9, #512
.LBBefd557b_64:
	ldrb	w11, [x9], #1
	subs	x8, x8, #1
	strb	w11, [x10], #1
	b.ne	.LBBefd557b_64
	b	.LBBefd557b_66
.LBBefd557b_65:
	mov	x0, x20
	mov	x2, x21
	bl	memmove
.LBBefd557b_66:
	ldr	x22, [x19, #8]
	strb	wzr, [x19, #72]
	subs	x25, x22, #5
	str	x22, [x19, #64]
	b.lo	.LBBefd557b_73
	cmp	x25, #8
	b.lo	.LBBefd557b_73
	ldr	x23, [x19]
	ldr	x24, [x19, #24]
	mov	x21, xzr
	mov	w26, #5
	add	x20, x23, #5
.LBBefd557b_69:
	ldr	s0, [x20]
	ushll	v0.8h, v0.8b, #0
	fmov	x8, d0
	lsr	x9, x8, #32
	and	w8, w8, w9
	mov	w9, #255
	and	w8, w8, w8, lsr #16
	bics	wzr, w9, w8
	b.ne	.LBBefd557b_71
	adrp	x2, .Lstatic.4
	add	x2, x2, :lo12:.Lstatic.4
	mov	x0, x20
	mov	w1, #8
	bl	core_cmp_slices_groups_equal_i8_31_core_cmp_numbers_U8PartialEq_.3f1b21c
	tbnz	w0, #0, .LBBefd557b_76
.LBBefd557b_71:
	ldrh	w8, [x20, #6]
	ldrb	w9, [x20, #5]
	rev16	w8, w8
	add	x8, x9, x8
	add	x8, x8, #8
	cmp	x25, x8
	b.lo	.LBBefd557b_73
	str	w26, [x24, x21, lsl #2]
	add	x26, x8, x26
	add	x21, x21, #1
	sub	x25, x22, x26
	add	x20, x23, x26
	cmp	x25, #7
	b.hi	.LBBefd557b_69
.LBBefd557b_73:
	ldr	x9, [x19, #88]
	stp	xzr, xzr, [x19, #48]
	cbz	x9, .LBBefd557b_75
.LBBefd557b_74:
	ldrb	w8, [x19, #80]
	mov	w9, #7294
	mov	w10, #1
	str	xzr, [x19, #88]
	cmp	w8, #0
	mov	w8, #3625
	csel	w8, w8, w9, eq
	stp	w10, w8, [x19, #96]
.LBBefd557b_75:
	ldp	x20, x19, [sp, #64]
	ldp	x22, x21, [sp, #48]
	ldp	x24, x23, [sp, #32]
	ldp	x26, x25, [sp, #16]
	ldr	x30, [sp], #80
	ret
.LBBefd557b_76:
	mov	w8, #1
	ldr	x9, [x19, #88]
	stp	x8, x21, [x19, #48]
	cbnz	x9, .LBBefd557b_74
	b	.LBBefd557b_75
.LBBefd557b_77:
	cmp	x21, #32
	b.hs	.LBBefd557b_93
	mov	x10, xzr
	b	.LBBefd557b_97
.LBBefd557b_79:
	cmp	x21, #32
	b.hs	.LBBefd557b_100
	mov	x10, xzr
	b	.LBBefd557b_104
.LBBefd557b_81:
	cmp	x21, #32
	b.hs	.LBBefd557b_107
	mov	x10, xzr
	b	.LBBefd557b_111
.LBBefd557b_83:
	cmp	x21, #32
	b.hs	.LBBefd557b_114
	mov	x10, xzr
	b	.LBBefd557b_118
.LBBefd557b_85:
	cmp	x21, #32
	b.hs	.LBBefd557b_121
	mov	x10, xzr
	b	.LBBefd557b_125
.LBBefd557b_87:
	cmp	x21, #32
	b.hs	.LBBefd557b_128
	mov	x10, xzr
	b	.LBBefd557b_132
.LBBefd557b_89:
	cmp	x21, #32
	b.hs	.LBBefd557b_135
	mov	x10, xzr
	b	.LBBefd557b_139
.LBBefd557b_91:
	cmp	x21, #32
	b.hs	.LBBefd557b_142
	mov	x10, xzr
	b	.LBBefd557b_146
.LBBefd557b_93:
	add	x12, x8, x9
	and	x11, x21, #0x18
	and	x10, x21, #0xffffffffffffffe0
	add	x12, x12, #528
	add	x13, x20, #16
	and	x14, x21, #0xffffffffffffffe0
.LBBefd557b_94:
	ldp	q0, q1, [x12, #-16]
	subs	x14, x14, #32
	add	x12, x12, #32
	stp	q0, q1, [x13, #-16]
	add	x13, x13, #32
	b.ne	.LBBefd557b_94
	cmp	x21, x10
	b.eq	.LBBefd557b_66
	cbz	x11, .LBBefd557b_35
.LBBefd557b_97:
	mov	x13, x10
	and	x10, x21, #0xfffffffffffffff8
	add	x11, x13, x8
	add	x12, x11, x9
	sub	x11, x13, x10
	add	x13, x20, x13
	add	x12, x12, #512
.LBBefd557b_98:
	ldr	d0, [x12], #8
	adds	x11, x11, #8
	str	d0, [x13], #8
	b.ne	.LBBefd557b_98
	cmp	x21, x10
	b.eq	.LBBefd557b_66
	b	.LBBefd557b_35
.LBBefd557b_100:
	add	x12, x8, x9
	and	x11, x21, #0x18
	and	x10, x21, #0xffffffffffffffe0
	add	x12, x12, #528
	add	x13, x20, #16
	and	x14, x21, #0xffffffffffffffe0
.LBBefd557b_101:
	ldp	q0, q1, [x12, #-16]
	subs	x14, x14, #32
	add	x12, x12, #32
	stp	q0, q1, [x13, #-16]
	add	x13, x13, #32
	b.ne	.LBBefd557b_101
	cmp	x21, x10
	b.eq	.LBBefd557b_66
	cbz	x11, .LBBefd557b_42
.LBBefd557b_104:
	mov	x13, x10
	and	x10, x21, #0xfffffffffffffff8
	add	x11, x13, x8
	add	x12, x11, x9
	sub	x11, x13, x10
	add	x13, x20, x13
	add	x12, x12, #512
.LBBefd557b_105:
	ldr	d0, [x12], #8
	adds	x11, x11, #8
	str	d0, [x13], #8
	b.ne	.LBBefd557b_105
	cmp	x21, x10
	b.eq	.LBBefd557b_66
	b	.LBBefd557b_42
.LBBefd557b_107:
	add	x12, x8, x9
	and	x11, x21, #0x18
	and	x10, x21, #0xffffffffffffffe0
	add	x12, x12, #528
	add	x13, x20, #16
	and	x14, x21, #0xffffffffffffffe0
.LBBefd557b_108:
	ldp	q0, q1, [x12, #-16]
	subs	x14, x14, #32
	add	x12, x12, #32
	stp	q0, q1, [x13, #-16]
	add	x13, x13, #32
	b.ne	.LBBefd557b_108
	cmp	x21, x10
	b.eq	.LBBefd557b_66
	cbz	x11, .LBBefd557b_49
.LBBefd557b_111:
	mov	x13, x10
	and	x10, x21, #0xfffffffffffffff8
	add	x11, x13, x8
	add	x12, x11, x9
	sub	x11, x13, x10
	add	x13, x20, x13
	add	x12, x12, #512
.LBBefd557b_112:
	ldr	d0, [x12], #8
	adds	x11, x11, #8
	str	d0, [x13], #8
	b.ne	.LBBefd557b_112
	cmp	x21, x10
	b.eq	.LBBefd557b_66
	b	.LBBefd557b_49
.LBBefd557b_114:
	add	x12, x8, x9
	and	x11, x21, #0x18
	and	x10, x21, #0xffffffffffffffe0
	add	x12, x12, #528
	add	x13, x20, #16
	and	x14, x21, #0xffffffffffffffe0
.LBBefd557b_115:
	ldp	q0, q1, [x12, #-16]
	subs	x14, x14, #32
	add	x12, x12, #32
	stp	q0, q1, [x13, #-16]
	add	x13, x13, #32
	b.ne	.LBBefd557b_115
	cmp	x21, x10
	b.eq	.LBBefd557b_66
	cbz	x11, .LBBefd557b_56
.LBBefd557b_118:
	mov	x13, x10
	and	x10, x21, #0xfffffffffffffff8
	add	x11, x13, x8
	add	x12, x11, x9
	sub	x11, x13, x10
	add	x13, x20, x13
	add	x12, x12, #512
.LBBefd557b_119:
	ldr	d0, [x12], #8
	adds	x11, x11, #8
	str	d0, [x13], #8
	b.ne	.LBBefd557b_119
	cmp	x21, x10
	b.eq	.LBBefd557b_66
	b	.LBBefd557b_56
.LBBefd557b_121:
	add	x12, x8, x9
	and	x11, x21, #0x18
	and	x10, x21, #0xffffffffffffffe0
	add	x12, x12, #528
	add	x13, x20, #16
	and	x14, x21, #0xffffffffffffffe0
.LBBefd557b_122:
	ldp	q0, q1, [x12, #-16]
	subs	x14, x14, #32
	add	x12, x12, #32
	stp	q0, q1, [x13, #-16]
	add	x13, x13, #32
	b.ne	.LBBefd557b_122
	cmp	x21, x10
	b.eq	.LBBefd557b_66
	cbz	x11, .LBBefd557b_9
.LBBefd557b_125:
	mov	x13, x10
	and	x10, x21, #0xfffffffffffffff8
	add	x11, x13, x8
	add	x12, x11, x9
	sub	x11, x13, x10
	add	x13, x20, x13
	add	x12, x12, #512
.LBBefd557b_126:
	ldr	d0, [x12], #8
	adds	x11, x11, #8
	str	d0, [x13], #8
	b.ne	.LBBefd557b_126
	cmp	x21, x10
	b.eq	.LBBefd557b_66
	b	.LBBefd557b_9
.LBBefd557b_128:
	add	x12, x8, x9
	and	x11, x21, #0x18
	and	x10, x21, #0xffffffffffffffe0
	add	x12, x12, #528
	add	x13, x20, #16
	and	x14, x21, #0xffffffffffffffe0
.LBBefd557b_129:
	ldp	q0, q1, [x12, #-16]
	subs	x14, x14, #32
	add	x12, x12, #32
	stp	q0, q1, [x13, #-16]
	add	x13, x13, #32
	b.ne	.LBBefd557b_129
	cmp	x21, x10
	b.eq	.LBBefd557b_66
	cbz	x11, .LBBefd557b_28
.LBBefd557b_132:
	mov	x13, x10
	and	x10, x21, #0xfffffffffffffff8
	add	x11, x13, x8
	add	x12, x11, x9
	sub	x11, x13, x10
	add	x13, x20, x13
	add	x12, x12, #512
.LBBefd557b_133:
	ldr	d0, [x12], #8
	adds	x11, x11, #8
	str	d0, [x13], #8
	b.ne	.LBBefd557b_133
	cmp	x21, x10
	b.eq	.LBBefd557b_66
	b	.LBBefd557b_28
.LBBefd557b_135:
	add	x12, x8, x9
	and	x11, x21, #0x18
	and	x10, x21, #0xffffffffffffffe0
	add	x12, x12, #528
	add	x13, x20, #16
	and	x14, x21, #0xffffffffffffffe0
.LBBefd557b_136:
	ldp	q0, q1, [x12, #-16]
	subs	x14, x14, #32
	add	x12, x12, #32
	stp	q0, q1, [x13, #-16]
	add	x13, x13, #32
	b.ne	.LBBefd557b_136
	cmp	x21, x10
	b.eq	.LBBefd557b_66
	cbz	x11, .LBBefd557b_19
.LBBefd557b_139:
	mov	x13, x10
	and	x10, x21, #0xfffffffffffffff8
	add	x11, x13, x8
	add	x12, x11, x9
	sub	x11, x13, x10
	add	x13, x20, x13
	add	x12, x12, #512
.LBBefd557b_140:
	ldr	d0, [x12], #8
	adds	x11, x11, #8
	str	d0, [x13], #8
	b.ne	.LBBefd557b_140
	cmp	x21, x10
	b.eq	.LBBefd557b_66
	b	.LBBefd557b_19
.LBBefd557b_142:
	add	x12, x8, x9
	and	x11, x21, #0x18
	and	x10, x21, #0xffffffffffffffe0
	add	x12, x12, #528
	add	x13, x20, #16
	and	x14, x21, #0xffffffffffffffe0
.LBBefd557b_143:
	ldp	q0, q1, [x12, #-16]
	subs	x14, x14, #32
	add	x12, x12, #32
	stp	q0, q1, [x13, #-16]
	add	x13, x13, #32
	b.ne	.LBBefd557b_143
	cmp	x21, x10
	b.eq	.LBBefd557b_66
	cbz	x11, .LBBefd557b_63
.LBBefd557b_146:
	mov	x13, x10
	and	x10, x21, #0xfffffffffffffff8
	add	x11, x13, x8
	add	x12, x11, x9
	sub	x11, x13, x10
	add	x13, x20, x13
	add	x12, x12, #512
.LBBefd557b_147:
	ldr	d0, [x12], #8
	adds	x11, x11, #8
	str	d0, [x13], #8
	b.ne	.LBBefd557b_147
	cmp	x21, x10
	b.eq	.LBBefd557b_66
	b	.LBBefd557b_63
.LBBefd557b_149:
	brk	#0x1
.Lfunc_endefd557b:
	.size	ckd_slot_buffer_TrackBuffer_load_808c45e55832e08b_.5d2ea6a, .Lfunc_endefd557b-ckd_slot_buffer_TrackBuffer_load_808c45e55832e08b_.5d2ea6a

	.section	".text.ckd_command::look::next_head","ax",@progbits
	.p2align	2
	.type	ckd_command_look_next_head.d94fc1a,@function
ckd_command_look_next_head.d94fc1a:
	ldrb	w8, [x2, #33]
	cmp	w8, #3
	b.ne	.LBB8cabf4b_2
	ldrh	w8, [x2, #4]
	str	xzr, [x2, #8]
	strh	wzr, [x2, #16]
	orr	w8, w8, #0x4
	str	xzr, [x2, #24]
	b	.LBB8cabf4b_4
.LBB8cabf4b_2:
	ldrh	w8, [x2, #2]
	tst	w1, #0xff
	mov	w9, #19
	mov	w10, #9
	csel	w9, w10, w9, eq
	cmp	w8, w9
	b.ne	.LBB8cabf4b_5
	ldrh	w8, [x2, #4]
	str	xzr, [x2, #8]
	strh	wzr, [x2, #16]
	str	xzr, [x2, #24]
	orr	w8, w8, #0x20
.LBB8cabf4b_4:
	strb	wzr, [x2, #64]
	strh	w8, [x2, #4]
	mov	w8, #3
	str	x8, [x0]
	strh	wzr, [x0, #8]
	str	xzr, [x0, #16]
	ret
.LBB8cabf4b_5:
	mov	w8, #2
	strh	wzr, [x0, #8]
	str	x8, [x0]
	str	xzr, [x0, #16]
	ret
.Lfunc_end8cabf4b:
	.size	ckd_command_look_next_head.d94fc1a, .Lfunc_end8cabf4b-ckd_command_look_next_head.d94fc1a

	.section	".text.ckd_drive::job::Job::look_elsewhere::<#808c45e55832e08b>","ax",@progbits
	.p2align	2
	.type	ckd_drive_job_Job_look_elsewhere_808c45e55832e08b_.81cf5b5,@function
ckd_drive_job_Job_look_elsewhere_808c45e55832e08b_.81cf5b5:
	sub	sp, sp, #128
	stp	x22, x21, [sp, #96]
	ldrb	w22, [x0, #936]
	adrp	x8, .LJTIaac319e_0
	add	x8, x8, :lo12:.LJTIaac319e_0
	stp	x30, x23, [sp, #80]
	mov	w23, wzr
	stp	x20, x19, [sp, #112]
	adr	x9, .LBBaac319e_1
	ldrb	w10, [x8, x22]
	add	x9, x9, x10, lsl #2
	mov	x20, x1
	mov	x19, x0
	br	x9
.LBBaac319e_1:
	cmp	w22, #4
	b.gt	.LBBaac319e_14
	sub	w8, w22, #2
	cmp	w8, #3
	b.hs	.LBBaac319e_16
	mov	x8, xzr
	stur	wzr, [sp, #43]
	mov	w9, #1
	mov	w10, #6
	b	.LBBaac319e_17
.LBBaac319e_4:
	and	w8, w22, #0xfe
	cmp	w8, #24
	b.ne	.LBBaac319e_12
	ldrb	w8, [x19, #944]
	cmp	w8, #1
	b.ne	.LBBaac319e_19
	ldrb	w8, [x19, #952]
	cbz	w8, .LBBaac319e_19
	ldrb	w8, [x19, #792]
	cmp	w8, #1
	b.ne	.LBBaac319e_64
	ldr	x8, [x19, #960]
	ldr	x9, [x19, #800]
	cmp	x9, x8
	b.ls	.LBBaac319e_64
	ldr	x9, [x19, #768]
	cmp	w22, #25
	ldr	w8, [x9, x8, lsl #2]
	ldr	x9, [x19, #744]
	add	x9, x9, x8
	ldrb	w10, [x9, #5]
	ldrh	w9, [x9, #6]
	rev16	w9, w9
	csel	x11, xzr, x10, eq
	csel	x10, x10, xzr, eq
	add	x8, x8, x11
	cmp	w9, #0
	add	x9, x9, x10
	add	x8, x8, #8
	cset	w10, eq
	b	.LBBaac319e_65
.LBBaac319e_10:
	mov	w23, #1
	b	.LBBaac319e_25
.LBBaac319e_11:
	mov	w23, #4
	b	.LBBaac319e_25
.LBBaac319e_12:
	movi	v0.2d, #0000000000000000
	mov	w8, #8
	mov	w9, #1
	str	x8, [x19, #976]
	add	x8, x19, #985
	mov	w0, #5
	str	xzr, [x19, #968]
	str	xzr, [x19, #1016]
	strb	w9, [x19, #984]
	stp	q0, q0, [x8]
	ldp	x20, x19, [sp, #112]
	ldp	x22, x21, [sp, #96]
	ldp	x30, x23, [sp, #80]
	add	sp, sp, #128
	ret
.LBBaac319e_13:
	mov	w23, #3
	b	.LBBaac319e_25
.LBBaac319e_14:
	cmp	w22, #5
	b.ne	.LBBaac319e_21
	mov	x8, xzr
	stur	wzr, [sp, #43]
	mov	w9, #1
	mov	w10, #1
	b	.LBBaac319e_17
.LBBaac319e_16:
	mov	x8, xzr
	mov	x10, xzr
	mov	w9, #1
	stur	wzr, [sp, #43]
.LBBaac319e_17:
	str	wzr, [sp, #40]
.LBBaac319e_18:
	strb	w9, [x19, #984]
	add	x9, x19, #985
	mov	w0, #5
	str	x10, [x19, #976]
	ldur	w10, [sp, #43]
	str	x8, [x9]
	ldr	w8, [sp, #40]
	add	x9, x19, #993
	str	xzr, [x19, #968]
	str	w10, [x19, #996]
	str	w8, [x9]
	str	xzr, [x19, #1000]
	str	xzr, [x19, #1016]
	str	xzr, [x19, #1008]
	ldp	x20, x19, [sp, #112]
	ldp	x22, x21, [sp, #96]
	ldp	x30, x23, [sp, #80]
	add	sp, sp, #128
	ret
.LBBaac319e_19:
	mov	x8, xzr
	mov	x9, xzr
	mov	x10, xzr
	b	.LBBaac319e_65
.LBBaac319e_20:
	mov	w23, #7
	b	.LBBaac319e_25
.LBBaac319e_21:
	ldrh	w8, [x19, #868]
	mov	w9, wzr
	stur	wzr, [sp, #43]
	str	wzr, [sp, #40]
	mov	w10, #6
	rev	w8, w8
	lsr	w8, w8, #16
	b	.LBBaac319e_18
.LBBaac319e_22:
	mov	w23, #5
	b	.LBBaac319e_25
.LBBaac319e_23:
	mov	w23, #6
	b	.LBBaac319e_25
.LBBaac319e_24:
	mov	w23, #2
.LBBaac319e_25:
	ldrb	w8, [x19, #704]
	ldrh	w9, [x19, #864]
	mov	w10, #20
	mov	w11, #10
	ldrh	w12, [x19, #866]
	cmp	x8, #0
	csel	w10, w11, w10, eq
	ldrb	w11, [x19, #848]
	madd	w21, w10, w9, w12
	cmp	w11, #1
	b.ne	.LBBaac319e_27
	ldr	w9, [x19, #852]
	cmp	w9, w21
	b.eq	.LBBaac319e_28
.LBBaac319e_27:
	add	x0, x19, #744
	mov	x1, x19
	mov	w2, w21
	str	wzr, [x19, #848]
	str	w21, [x19, #852]
	bl	ckd_slot_buffer_TrackBuffer_load_808c45e55832e08b_.5d2ea6a
	ldrb	w8, [x19, #704]
	mov	w9, #1
	str	w21, [x19, #852]
	str	w9, [x19, #848]
.LBBaac319e_28:
	ldrb	w9, [x19, #792]
	cmp	w22, #21
	b.ne	.LBBaac319e_31
	ldrb	w12, [x19, #872]
	cmp	w9, #1
	b.eq	.LBBaac319e_33
	mov	w11, wzr
	mov	w10, wzr
	mov	x9, xzr
	orr	w12, w12, w23
	mov	w23, wzr
	cbnz	w12, .LBBaac319e_69
	b	.LBBaac319e_72
.LBBaac319e_31:
	cmp	w9, #1
	b.ne	.LBBaac319e_37
	ldrb	w12, [x19, #872]
.LBBaac319e_33:
	ldrb	w10, [x19, #880]
	ldr	x9, [x19, #888]
	cmp	w23, #3
	ldr	x11, [x19, #800]
	b.gt	.LBBaac319e_38
	cmp	w23, #1
	b.gt	.LBBaac319e_47
	cbnz	w23, .LBBaac319e_53
	mov	w10, wzr
	mov	w9, w23
	mov	w11, #1
	cbnz	w12, .LBBaac319e_69
	b	.LBBaac319e_72
.LBBaac319e_37:
	ldrh	w8, [x19, #868]
	mov	w9, #2050
	mov	w0, #3
	orr	w8, w8, w9
	strh	w8, [x19, #868]
	ldp	x20, x19, [sp, #112]
	ldp	x22, x21, [sp, #96]
	ldp	x30, x23, [sp, #80]
	add	sp, sp, #128
	ret
.LBBaac319e_38:
	ldrb	w13, [x19, #881]
	cmp	w23, #5
	b.gt	.LBBaac319e_49
	cmp	w23, #4
	b.ne	.LBBaac319e_54
	cmp	w12, #1
	ccmp	w10, #1, #0, eq
	cset	w10, eq
	b.ne	.LBBaac319e_42
	cbz	w13, .LBBaac319e_43
.LBBaac319e_42:
	cmp	x11, #1
	csinc	x12, x11, xzr, hi
	cmp	x9, x11
	csinc	x9, x12, x9, hs
	cmp	w10, #0
	csinc	x9, x9, xzr, ne
.LBBaac319e_43:
	cmp	x9, x11
	b.hs	.LBBaac319e_69
	ldr	x10, [x19, #768]
	ldr	x12, [x19, #744]
.LBBaac319e_45:
	ldr	w13, [x10, x9, lsl #2]
	add	x13, x12, x13
	ldrb	w13, [x13, #5]
	cbnz	w13, .LBBaac319e_66
	add	x9, x9, #1
	cmp	x11, x9
	b.ne	.LBBaac319e_45
	b	.LBBaac319e_69
.LBBaac319e_47:
	cmp	w23, #2
	b.ne	.LBBaac319e_58
	cmp	w12, #1
	mov	w23, wzr
	mov	x9, xzr
	ccmp	w10, #1, #0, eq
	cset	w10, eq
	cmp	x11, #0
	csel	w11, wzr, w10, eq
	cset	w12, eq
	eor	w11, w12, w11
	csinc	w12, w10, wzr, ne
	eor	w10, w11, #0x1
	mov	w11, #1
	cbnz	w12, .LBBaac319e_69
	b	.LBBaac319e_72
.LBBaac319e_49:
	cmp	w23, #6
	b.ne	.LBBaac319e_60
	cmp	w12, #1
	ccmp	w10, #1, #0, eq
	cset	w10, eq
	b.ne	.LBBaac319e_52
	cbz	w13, .LBBaac319e_57
.LBBaac319e_52:
	cmp	x11, #1
	csinc	x12, x11, xzr, hi
	cmp	x9, x11
	csinc	x9, x12, x9, hs
	cmp	w10, #0
	csinc	x9, x9, xzr, ne
	b	.LBBaac319e_57
.LBBaac319e_53:
	cmp	x9, x11
	mov	w23, wzr
	csinc	x9, x11, x9, hs
	cmp	w10, #1
	ccmp	w12, #1, #0, eq
	csel	x9, x9, xzr, eq
	b	.LBBaac319e_59
.LBBaac319e_54:
	cmp	w12, #1
	ccmp	w10, #1, #0, eq
	cset	w10, ne
	b.ne	.LBBaac319e_56
	cmp	w13, #2
	b.ne	.LBBaac319e_57
.LBBaac319e_56:
	cmp	x11, #1
	csinc	x12, x11, xzr, hi
	cmp	x9, x11
	csinc	x9, x12, x9, hs
	cmp	w10, #0
	csinc	x9, x9, xzr, eq
.LBBaac319e_57:
	cmp	x9, x11
	mov	w11, #2
	cset	w10, lo
	cset	w12, hs
	csel	w23, wzr, w11, hs
	csel	x9, xzr, x9, hs
	mov	w11, #1
	cbnz	w12, .LBBaac319e_69
	b	.LBBaac319e_72
.LBBaac319e_58:
	cmp	x11, #1
	mov	w23, wzr
	csinc	x13, x11, xzr, hi
	cmp	x9, x11
	csinc	x9, x13, x9, hs
	cmp	w10, #1
	ccmp	w12, #1, #0, eq
	csinc	x9, x9, xzr, eq
.LBBaac319e_59:
	cmp	x9, x11
	cset	w10, lo
	cset	w12, hs
	csel	x9, xzr, x9, hs
	mov	w11, #1
	cbnz	w12, .LBBaac319e_69
	b	.LBBaac319e_72
.LBBaac319e_60:
	cmp	w12, #1
	b.ne	.LBBaac319e_68
	cmp	w10, #1
	b.ne	.LBBaac319e_68
	cmp	w13, #2
	b.ne	.LBBaac319e_67
	cbnz	x9, .LBBaac319e_69
	b	.LBBaac319e_68
.LBBaac319e_64:
	mov	x8, xzr
	mov	x9, xzr
	mov	w10, #1
.LBBaac319e_65:
	mov	w11, #4
	str	xzr, [x19, #968]
	mov	w0, #5
	strb	w11, [x19, #984]
	add	x11, x19, #985
	str	x9, [x19, #976]
	str	wzr, [x19, #988]
	str	wzr, [x11]
	str	x8, [x19, #992]
	str	x9, [x19, #1000]
	str	x10, [x19, #1008]
	str	xzr, [x19, #1016]
	ldp	x20, x19, [sp, #112]
	ldp	x22, x21, [sp, #96]
	ldp	x30, x23, [sp, #80]
	add	sp, sp, #128
	ret
.LBBaac319e_66:
	mov	w23, #1
	mov	w10, #1
	mov	w11, #1
	b	.LBBaac319e_72
.LBBaac319e_67:
	cmp	x9, #1
	b.hi	.LBBaac319e_69
.LBBaac319e_68:
	cmp	x11, #1
	mov	w9, #2
	cset	w10, hi
	cmp	x11, #2
	mov	w11, #1
	cset	w12, lo
	csel	w23, wzr, w9, lo
	mov	x9, x10
	cbz	w12, .LBBaac319e_72
.LBBaac319e_69:
	ldrb	w9, [x19, #937]
	cmp	w9, #1
	b.ne	.LBBaac319e_74
	ldrb	w9, [x19, #897]
	cmp	w9, #3
	b.ne	.LBBaac319e_76
	ldrh	w8, [x19, #868]
	str	xzr, [x19, #872]
	strh	wzr, [x19, #880]
	orr	w8, w8, #0x4
	str	xzr, [x19, #888]
	b	.LBBaac319e_78
.LBBaac319e_72:
	movi	v0.2d, #0000000000000000
	mov	w8, #1
	mov	w13, w22
	adrp	x14, .LJTIaac319e_1
	add	x14, x14, :lo12:.LJTIaac319e_1
	strb	w10, [x19, #952]
	strb	w23, [x19, #953]
	mov	w0, #2
	mov	w12, wzr
	str	x9, [x19, #960]
	str	x8, [x19, #944]
	mov	w8, #7
	stur	q0, [sp, #24]
	stur	q0, [sp, #8]
	adr	x15, .LBBaac319e_73
	ldrb	w16, [x14, x13]
	add	x15, x15, x16, lsl #2
	br	x15
.LBBaac319e_73:
	mov	w12, #5
	b	.LBBaac319e_86
.LBBaac319e_74:
	ldrb	w8, [x19, #928]
	cbz	w8, .LBBaac319e_79
	ldrh	w8, [x19, #868]
	str	xzr, [x19, #872]
	mov	w0, #3
	strh	wzr, [x19, #880]
	orr	w8, w8, #0x8
	str	xzr, [x19, #888]
	strh	w8, [x19, #868]
	strb	wzr, [x19, #928]
	ldp	x20, x19, [sp, #112]
	ldp	x22, x21, [sp, #96]
	ldp	x30, x23, [sp, #80]
	add	sp, sp, #128
	ret
.LBBaac319e_76:
	ldrh	w9, [x19, #866]
	cmp	x8, #0
	mov	w8, #19
	mov	w10, #9
	csel	w8, w10, w8, eq
	cmp	w9, w8
	b.ne	.LBBaac319e_81
	ldrh	w8, [x19, #868]
	str	xzr, [x19, #872]
	strh	wzr, [x19, #880]
	str	xzr, [x19, #888]
	orr	w8, w8, #0x20
.LBBaac319e_78:
	strb	wzr, [x19, #928]
	mov	w0, #3
	strh	w8, [x19, #868]
	ldp	x20, x19, [sp, #112]
	ldp	x22, x21, [sp, #96]
	ldp	x30, x23, [sp, #80]
	add	sp, sp, #128
	ret
.LBBaac319e_79:
	mov	w8, #1
	str	xzr, [x19, #872]
	mov	w0, #4
	strh	wzr, [x19, #880]
	str	xzr, [x19, #888]
	strb	w8, [x19, #928]
	ldp	x20, x19, [sp, #112]
	ldp	x22, x21, [sp, #96]
	ldp	x30, x23, [sp, #80]
	add	sp, sp, #128
	ret
.LBBaac319e_80:
	mov	w12, #6
	b	.LBBaac319e_86
.LBBaac319e_81:
	ldrh	w2, [x19, #864]
	add	w3, w9, #1
	mov	x0, x19
	mov	x1, x20
	bl	ckd_drive_job_Job_leave_808c45e55832e08b_.db7d905
	mov	w8, #4
	and	w9, w0, #0xff
	sub	w0, w8, w9
	ldp	x20, x19, [sp, #112]
	ldp	x22, x21, [sp, #96]
	ldp	x30, x23, [sp, #80]
	add	sp, sp, #128
	ret
.LBBaac319e_82:
	mov	w8, #8
.LBBaac319e_83:
	mov	w9, #1
	stur	xzr, [sp, #1]
	add	x1, x19, #968
	strb	w9, [sp]
	mov	x2, sp
	mov	w0, w8
	b	.LBBaac319e_109
.LBBaac319e_84:
	mov	w12, #1
	b	.LBBaac319e_86
.LBBaac319e_85:
	mov	w12, #9
.LBBaac319e_86:
	adrp	x8, .LJTIaac319e_2
	add	x8, x8, :lo12:.LJTIaac319e_2
	mov	w0, w12
	adr	x14, .LBBaac319e_87
	ldrb	w15, [x8, x13]
	add	x14, x14, x15, lsl #2
	mov	w12, #1
	br	x14
.LBBaac319e_87:
	mov	w12, wzr
	b	.LBBaac319e_97
.LBBaac319e_88:
	mov	w12, #3
	b	.LBBaac319e_97
.LBBaac319e_89:
	mov	w12, #5
	b	.LBBaac319e_97
.LBBaac319e_90:
	mov	w12, #6
	b	.LBBaac319e_97
.LBBaac319e_91:
	mov	w12, #7
	b	.LBBaac319e_97
.LBBaac319e_92:
	mov	w12, #8
	b	.LBBaac319e_97
.LBBaac319e_93:
	mov	w12, wzr
	mov	w0, #3
	b	.LBBaac319e_97
.LBBaac319e_94:
	mov	w12, wzr
	mov	w0, #4
	b	.LBBaac319e_97
.LBBaac319e_95:
	mov	w12, #4
	b	.LBBaac319e_97
.LBBaac319e_96:
	mov	w12, #2
.LBBaac319e_97:
	cbz	w10, .LBBaac319e_105
	cbz	w11, .LBBaac319e_110
	ldr	x8, [x19, #800]
	cmp	x8, x9
	b.ls	.LBBaac319e_110
	ldr	x8, [x19, #768]
	cmp	w12, #3
	ldr	w8, [x8, x9, lsl #2]
	ldr	x9, [x19, #744]
	add	x9, x9, x8
	ldrh	w10, [x9, #6]
	rev16	w10, w10
	b.le	.LBBaac319e_113
	ldrb	w9, [x9, #5]
	cmp	w12, #5
	b.le	.LBBaac319e_115
	cmp	w12, #6
	b.eq	.LBBaac319e_117
	cmp	w12, #7
	b.ne	.LBBaac319e_120
	add	x8, x8, #8
	add	x9, x10, x9
	b	.LBBaac319e_121
.LBBaac319e_105:
	adrp	x8, .Lswitch.table.ckd_drive_job_Job_look_elsewhere_808c45e55832e08b_.6b479ce
	add	x8, x8, :lo12:.Lswitch.table.ckd_drive_job_Job_look_elsewhere_808c45e55832e08b_.6b479ce
	adrp	x9, .Lswitch.table.ckd_drive_job_Job_look_elsewhere_808c45e55832e08b_.151.0584c36
	add	x9, x9, :lo12:.Lswitch.table.ckd_drive_job_Job_look_elsewhere_808c45e55832e08b_.151.0584c36
	ldr	x8, [x8, w12, uxtw #3]
	ldr	x9, [x9, w12, uxtw #3]
	mov	w11, #1
	mov	w14, #927
	mov	w12, #3
	lsl	w13, w11, w0
	tst	w13, w14
	b.eq	.LBBaac319e_111
.LBBaac319e_106:
	mov	w12, #4
.LBBaac319e_107:
	mov	w11, w10
.LBBaac319e_108:
	add	x1, x19, #968
	add	x2, sp, #40
	strb	w12, [sp, #40]
	stur	wzr, [sp, #41]
	str	wzr, [sp, #44]
	stp	x8, x9, [sp, #48]
	strb	w11, [sp, #64]
	stur	xzr, [sp, #65]
	str	xzr, [sp, #72]
.LBBaac319e_109:
	bl	ckd_drive_look_ready.f21f60a
	mov	w0, #5
	ldp	x20, x19, [sp, #112]
	ldp	x22, x21, [sp, #96]
	ldp	x30, x23, [sp, #80]
	add	sp, sp, #128
	ret
.LBBaac319e_110:
	mov	x8, xzr
	mov	x9, xzr
	mov	w10, #1
	mov	w11, #1
	mov	w14, #927
	mov	w12, #3
	lsl	w13, w11, w0
	tst	w13, w14
	b.ne	.LBBaac319e_106
.LBBaac319e_111:
	cmp	w0, #5
	b.eq	.LBBaac319e_108
	mov	w12, #2
	b	.LBBaac319e_107
.LBBaac319e_113:
	b.hs	.LBBaac319e_119
	mov	x8, xzr
	mov	x9, xzr
	b	.LBBaac319e_121
.LBBaac319e_115:
	cmp	w12, #4
	b.ne	.LBBaac319e_118
	mov	w9, #8
	b	.LBBaac319e_121
.LBBaac319e_117:
	add	x8, x8, x9
	mov	x9, x10
.LBBaac319e_118:
	add	x8, x8, #8
	b	.LBBaac319e_121
.LBBaac319e_119:
	mov	w9, #5
	b	.LBBaac319e_121
.LBBaac319e_120:
	add	x9, x9, x10
	add	x9, x9, #8
.LBBaac319e_121:
	cmp	x10, #0
	cset	w10, eq
	mov	w11, #1
	mov	w14, #927
	mov	w12, #3
	lsl	w13, w11, w0
	tst	w13, w14
	b.ne	.LBBaac319e_106
	b	.LBBaac319e_111
.LBBaac319e_122:
	brk	#0x1
.Lfunc_endaac319e:
	.size	ckd_drive_job_Job_look_elsewhere_808c45e55832e08b_.81cf5b5, .Lfunc_endaac319e-ckd_drive_job_Job_look_elsewhere_808c45e55832e08b_.81cf5b5
	.section	".rodata.ckd_drive::job::Job::look_elsewhere::<#808c45e55832e08b>","a",@progbits
.LJTIaac319e_0:
	.byte	(.LBBaac319e_1-.LBBaac319e_1)>>2
	.byte	(.LBBaac319e_1-.LBBaac319e_1)>>2
	.byte	(.LBBaac319e_1-.LBBaac319e_1)>>2
	.byte	(.LBBaac319e_1-.LBBaac319e_1)>>2
	.byte	(.LBBaac319e_1-.LBBaac319e_1)>>2
	.byte	(.LBBaac319e_1-.LBBaac319e_1)>>2
	.byte	(.LBBaac319e_1-.LBBaac319e_1)>>2
	.byte	(.LBBaac319e_25-.LBBaac319e_1)>>2
	.byte	(.LBBaac319e_10-.LBBaac319e_1)>>2
	.byte	(.LBBaac319e_10-.LBBaac319e_1)>>2
	.byte	(.LBBaac319e_10-.LBBaac319e_1)>>2
	.byte	(.LBBaac319e_11-.LBBaac319e_1)>>2
	.byte	(.LBBaac319e_11-.LBBaac319e_1)>>2
	.byte	(.LBBaac319e_11-.LBBaac319e_1)>>2
	.byte	(.LBBaac319e_20-.LBBaac319e_1)>>2
	.byte	(.LBBaac319e_25-.LBBaac319e_1)>>2
	.byte	(.LBBaac319e_24-.LBBaac319e_1)>>2
	.byte	(.LBBaac319e_13-.LBBaac319e_1)>>2
	.byte	(.LBBaac319e_22-.LBBaac319e_1)>>2
	.byte	(.LBBaac319e_23-.LBBaac319e_1)>>2
	.byte	(.LBBaac319e_13-.LBBaac319e_1)>>2
	.byte	(.LBBaac319e_25-.LBBaac319e_1)>>2
	.byte	(.LBBaac319e_4-.LBBaac319e_1)>>2
	.byte	(.LBBaac319e_4-.LBBaac319e_1)>>2
	.byte	(.LBBaac319e_4-.LBBaac319e_1)>>2
	.byte	(.LBBaac319e_4-.LBBaac319e_1)>>2
.LJTIaac319e_1:
	.byte	(.LBBaac319e_86-.LBBaac319e_73)>>2
	.byte	(.LBBaac319e_86-.LBBaac319e_73)>>2
	.byte	(.LBBaac319e_84-.LBBaac319e_73)>>2
	.byte	(.LBBaac319e_84-.LBBaac319e_73)>>2
	.byte	(.LBBaac319e_97-.LBBaac319e_73)>>2
	.byte	(.LBBaac319e_93-.LBBaac319e_73)>>2
	.byte	(.LBBaac319e_94-.LBBaac319e_73)>>2
	.byte	(.LBBaac319e_73-.LBBaac319e_73)>>2
	.byte	(.LBBaac319e_73-.LBBaac319e_73)>>2
	.byte	(.LBBaac319e_73-.LBBaac319e_73)>>2
	.byte	(.LBBaac319e_73-.LBBaac319e_73)>>2
	.byte	(.LBBaac319e_73-.LBBaac319e_73)>>2
	.byte	(.LBBaac319e_73-.LBBaac319e_73)>>2
	.byte	(.LBBaac319e_73-.LBBaac319e_73)>>2
	.byte	(.LBBaac319e_80-.LBBaac319e_73)>>2
	.byte	(.LBBaac319e_80-.LBBaac319e_73)>>2
	.byte	(.LBBaac319e_80-.LBBaac319e_73)>>2
	.byte	(.LBBaac319e_80-.LBBaac319e_73)>>2
	.byte	(.LBBaac319e_80-.LBBaac319e_73)>>2
	.byte	(.LBBaac319e_80-.LBBaac319e_73)>>2
	.byte	(.LBBaac319e_80-.LBBaac319e_73)>>2
	.byte	(.LBBaac319e_83-.LBBaac319e_73)>>2
	.byte	(.LBBaac319e_82-.LBBaac319e_73)>>2
	.byte	(.LBBaac319e_82-.LBBaac319e_73)>>2
	.byte	(.LBBaac319e_85-.LBBaac319e_73)>>2
	.byte	(.LBBaac319e_85-.LBBaac319e_73)>>2
.LJTIaac319e_2:
	.byte	(.LBBaac319e_87-.LBBaac319e_87)>>2
	.byte	(.LBBaac319e_87-.LBBaac319e_87)>>2
	.byte	(.LBBaac319e_87-.LBBaac319e_87)>>2
	.byte	(.LBBaac319e_87-.LBBaac319e_87)>>2
	.byte	(.LBBaac319e_122-.LBBaac319e_87)>>2
	.byte	(.LBBaac319e_122-.LBBaac319e_87)>>2
	.byte	(.LBBaac319e_122-.LBBaac319e_87)>>2
	.byte	(.LBBaac319e_97-.LBBaac319e_87)>>2
	.byte	(.LBBaac319e_88-.LBBaac319e_87)>>2
	.byte	(.LBBaac319e_88-.LBBaac319e_87)>>2
	.byte	(.LBBaac319e_88-.LBBaac319e_87)>>2
	.byte	(.LBBaac319e_89-.LBBaac319e_87)>>2
	.byte	(.LBBaac319e_89-.LBBaac319e_87)>>2
	.byte	(.LBBaac319e_89-.LBBaac319e_87)>>2
	.byte	(.LBBaac319e_90-.LBBaac319e_87)>>2
	.byte	(.LBBaac319e_96-.LBBaac319e_87)>>2
	.byte	(.LBBaac319e_92-.LBBaac319e_87)>>2
	.byte	(.LBBaac319e_95-.LBBaac319e_87)>>2
	.byte	(.LBBaac319e_90-.LBBaac319e_87)>>2
	.byte	(.LBBaac319e_91-.LBBaac319e_87)>>2
	.byte	(.LBBaac319e_92-.LBBaac319e_87)>>2
	.byte	(.LBBaac319e_122-.LBBaac319e_87)>>2
	.byte	(.LBBaac319e_122-.LBBaac319e_87)>>2
	.byte	(.LBBaac319e_122-.LBBaac319e_87)>>2
	.byte	(.LBBaac319e_90-.LBBaac319e_87)>>2
	.byte	(.LBBaac319e_91-.LBBaac319e_87)>>2

	.section	".text.ckd_drive::transfer::compared","ax",@progbits
	.p2align	2
	.type	ckd_drive_transfer_compared.c54acf5,@function
ckd_drive_transfer_compared.c54acf5:
	cmp	x4, #5
	add	x8, x1, x2
	b.ne	.LBB12d3d57_7
	ldrb	w9, [x8]
	ldrb	w10, [x3]
	cmp	w9, w10
	b.ne	.LBB12d3d57_12
	ldrb	w9, [x8, #1]
	ldrb	w10, [x3, #1]
	cmp	w9, w10
	b.ne	.LBB12d3d57_12
	ldrb	w9, [x8, #2]
	ldrb	w10, [x3, #2]
	cmp	w9, w10
	b.ne	.LBB12d3d57_12
	ldrb	w9, [x8, #3]
	ldrb	w10, [x3, #3]
	cmp	w9, w10
	b.ne	.LBB12d3d57_12
	ldrb	w9, [x8, #4]
	ldrb	w10, [x3, #4]
	cmp	w9, w10
	b.ne	.LBB12d3d57_12
	mov	w8, #1
	and	w9, w0, #0xff
	cmp	w9, #1
	csel	w0, w8, w0, eq
	ret
.LBB12d3d57_7:
	cmp	x4, #64
	b.lo	.LBB12d3d57_14
	mov	x9, xzr
	mov	x10, x4
.LBB12d3d57_9:
	add	x11, x8, x9
	add	x12, x3, x9
	ldp	q0, q3, [x12]
	ldp	q1, q2, [x11]
	ldp	q4, q5, [x12, #32]
	cmeq	v0.16b, v1.16b, v0.16b
	cmeq	v1.16b, v2.16b, v3.16b
	ldp	q2, q3, [x11, #32]
	mvn	v0.16b, v0.16b
	mvn	v1.16b, v1.16b
	cmeq	v2.16b, v2.16b, v4.16b
	cmeq	v3.16b, v3.16b, v5.16b
	orn	v0.16b, v0.16b, v2.16b
	orn	v1.16b, v1.16b, v3.16b
	orr	v0.16b, v1.16b, v0.16b
	umaxv	b0, v0.16b
	fmov	w11, s0
	tbnz	w11, #0, .LBB12d3d57_15
	sub	x10, x10, #64
	add	x9, x9, #64
	cmp	x10, #63
	b.hi	.LBB12d3d57_9
	and	x9, x4, #0xffffffffffffffc0
	b	.LBB12d3d57_15
.LBB12d3d57_12:
	cmp	w9, w10
.LBB12d3d57_13:
	mov	w8, #2
	csel	w8, wzr, w8, lo
	and	w9, w0, #0xff
	cmp	w9, #1
	csel	w0, w8, w0, eq
	ret
.LBB12d3d57_14:
	mov	x9, xzr
.LBB12d3d57_15:
	sub	x10, x4, x9
	cmp	x10, #8
	b.lo	.LBB12d3d57_18
.LBB12d3d57_16:
	ldr	x11, [x8, x9]
	ldr	x12, [x3, x9]
	cmp	x11, x12
	b.ne	.LBB12d3d57_18
	sub	x10, x10, #8
	add	x9, x9, #8
	cmp	x10, #7
	b.hi	.LBB12d3d57_16
.LBB12d3d57_18:
	subs	x8, x4, x9
	b.ls	.LBB12d3d57_22
	add	x10, x9, x2
	add	x9, x3, x9
	add	x10, x1, x10
.LBB12d3d57_20:
	ldrb	w11, [x10], #1
	ldrb	w12, [x9], #1
	cmp	w11, w12
	b.ne	.LBB12d3d57_13
	subs	x8, x8, #1
	b.ne	.LBB12d3d57_20
.LBB12d3d57_22:
	mov	w8, #1
	and	w9, w0, #0xff
	cmp	w9, #1
	csel	w0, w8, w0, eq
	ret
.Lfunc_end12d3d57:
	.size	ckd_drive_transfer_compared.c54acf5, .Lfunc_end12d3d57-ckd_drive_transfer_compared.c54acf5

	.section	".text.ckd_drive::job::Job::collect_or_write::<#808c45e55832e08b>","ax",@progbits
	.p2align	2
	.type	ckd_drive_job_Job_collect_or_write_808c45e55832e08b_.04dba8e,@function
ckd_drive_job_Job_collect_or_write_808c45e55832e08b_.04dba8e:
	ldrb	w8, [x0, #984]
	cmp	w8, #3
	b.gt	.LBBec24d96_3
	cmp	w8, #1
	b.ne	.LBBec24d96_24
	add	x8, x0, #985
	ldr	x3, [x8]
	b	ckd_drive_job_Job_collect_808c45e55832e08b_.7006b13
.LBBec24d96_3:
	cmp	w8, #4
	b.eq	.LBBec24d96_6
	cmp	w8, #5
	b.ne	.LBBec24d96_7
	b	ckd_drive_job_Job_make_808c45e55832e08b_.9cfe1de
.LBBec24d96_6:
	ldr	x3, [x0, #992]
	ldr	x4, [x0, #1000]
	ldrb	w5, [x0, #1008]
	b	ckd_drive_job_Job_fill_808c45e55832e08b_.ddae6a7
.LBBec24d96_7:
	ldr	x8, [x0, #1000]
	mov	w10, #6
	ldr	x9, [x0, #992]
	add	x11, x0, #985
	strb	w10, [x0, #984]
	ldr	x10, [x0, #744]
	sub	x8, x8, x2
	str	wzr, [x0, #988]
	ldrh	w12, [x0, #1008]
	str	wzr, [x11]
	ldr	x11, [x0, #808]
	add	x13, x9, x2
	str	x8, [x0, #1000]
	mov	w8, #1
	strb	w8, [x0, #856]
	add	x8, x10, x9
	cmp	x13, x11
	str	x12, [x0, #1008]
	sub	x12, x8, x1
	csel	x11, x13, x11, hi
	cmp	x12, x2
	str	x13, [x0, #992]
	str	x11, [x0, #808]
	strb	wzr, [x0, #816]
	b.hs	.LBBec24d96_14
	cmp	x2, #8
	b.lo	.LBBec24d96_10
	add	x8, x9, x10
	sub	x8, x8, x1
	cmp	x8, #32
	b.hs	.LBBec24d96_15
.LBBec24d96_10:
	mov	x8, xzr
.LBBec24d96_11:
	add	x11, x8, x9
	sub	x9, x2, x8
	add	x8, x1, x8
	add	x10, x10, x11
.LBBec24d96_12:
	ldrb	w11, [x8], #1
	subs	x9, x9, #1
	strb	w11, [x10], #1
	b.ne	.LBBec24d96_12
.LBBec24d96_13:
	ret
.LBBec24d96_14:
	mov	x0, x8
	b	memmove
.LBBec24d96_15:
	cmp	x2, #32
	b.hs	.LBBec24d96_17
	mov	x8, xzr
	b	.LBBec24d96_21
.LBBec24d96_17:
	add	x13, x9, x10
	and	x11, x2, #0x18
	and	x8, x2, #0xffffffffffffffe0
	add	x12, x1, #16
	add	x13, x13, #16
	and	x14, x2, #0xffffffffffffffe0
.LBBec24d96_18:
	ldp	q0, q1, [x12, #-16]
	subs	x14, x14, #32
	add	x12, x12, #32
	stp	q0, q1, [x13, #-16]
	add	x13, x13, #32
	b.ne	.LBBec24d96_18
	cmp	x2, x8
	b.eq	.LBBec24d96_13
	cbz	x11, .LBBec24d96_11
.LBBec24d96_21:
	mov	x12, x8
	and	x8, x2, #0xfffffffffffffff8
	add	x13, x12, x9
	sub	x11, x12, x8
	add	x12, x1, x12
	add	x13, x10, x13
.LBBec24d96_22:
	ldr	d0, [x12], #8
	adds	x11, x11, #8
	str	d0, [x13], #8
	b.ne	.LBBec24d96_22
	cmp	x2, x8
	b.eq	.LBBec24d96_13
	b	.LBBec24d96_11
.LBBec24d96_24:
	brk	#0x1
.Lfunc_endec24d96:
	.size	ckd_drive_job_Job_collect_or_write_808c45e55832e08b_.04dba8e, .Lfunc_endec24d96-ckd_drive_job_Job_collect_or_write_808c45e55832e08b_.04dba8e

	.section	.rodata.cst16,"aM",@progbits,16
	.p2align	4, 0x0
.LCPI0c7ac18_0:
	.xword	0
	.xword	13
	.section	".text.ckd_drive::job::Job::collect::<#808c45e55832e08b>","ax",@progbits
	.p2align	2
	.type	ckd_drive_job_Job_collect_808c45e55832e08b_.7006b13,@function
ckd_drive_job_Job_collect_808c45e55832e08b_.7006b13:
	sub	sp, sp, #64
	stp	x30, x21, [sp, #32]
	ldr	x21, [x0, #968]
	cmp	x2, #8
	stp	x20, x19, [sp, #48]
	mov	x20, x2
	mov	x19, x0
	stur	xzr, [sp, #15]
	str	xzr, [sp, #8]
	str	wzr, [sp]
	stur	wzr, [sp, #3]
	b.eq	.LBB0c7ac18_8
	str	x3, [sp, #24]
	cbz	x21, .LBB0c7ac18_3
	add	x8, sp, #24
	add	x0, x8, x21
	b	.LBB0c7ac18_6
.LBB0c7ac18_3:
	cmp	x20, #6
	b.ne	.LBB0c7ac18_5
	ldr	w8, [x1]
	ldrh	w9, [x1, #4]
	str	w8, [sp, #24]
	strh	w9, [sp, #28]
	b	.LBB0c7ac18_7
.LBB0c7ac18_5:
	add	x0, sp, #24
.LBB0c7ac18_6:
	mov	x2, x20
	bl	memcpy
.LBB0c7ac18_7:
	add	x1, sp, #24
.LBB0c7ac18_8:
	ldrb	w9, [x19, #936]
	ldr	x8, [x1]
	cmp	w9, #21
	b.hs	.LBB0c7ac18_10
.LBB0c7ac18_9:
	add	x10, x19, #985
	mov	w9, #1
	str	xzr, [x19, #1016]
	str	x8, [x10]
	add	x8, x19, #993
	strb	w9, [x19, #984]
	stp	xzr, xzr, [x8, #8]
	str	xzr, [x8]
	ldp	x20, x19, [sp, #48]
	ldp	x30, x21, [sp, #32]
	add	sp, sp, #64
	ret
.LBB0c7ac18_10:
	sub	w10, w9, #22
	cmp	w10, #2
	add	x10, x21, x20
	b.lo	.LBB0c7ac18_20
	sub	w9, w9, #24
	cmp	w9, #2
	b.lo	.LBB0c7ac18_9
	cmp	x10, #5
	b.ne	.LBB0c7ac18_9
	tst	x8, #0xff
	b.ne	.LBB0c7ac18_9
	ldrh	w10, [x19, #866]
	lsr	x9, x8, #24
	lsr	w11, w10, #8
	cmp	w11, w9, uxtb
	b.ne	.LBB0c7ac18_9
	ldrh	w13, [x19, #864]
	lsr	x11, x8, #8
	lsr	w12, w13, #8
	cmp	w12, w11, uxtb
	b.ne	.LBB0c7ac18_9
	lsr	x12, x8, #16
	and	w14, w12, #0xff
	cmp	w14, w13, uxtb
	b.ne	.LBB0c7ac18_9
	lsr	x13, x8, #32
	and	w14, w13, #0xff
	cmp	w14, w10, uxtb
	b.ne	.LBB0c7ac18_9
	ldr	x10, [x19, #744]
	add	x14, sp, #24
	str	w8, [sp, #24]
	ldr	x8, [x19, #808]
	mov	w15, #1
	strb	w13, [sp, #28]
	sub	x14, x10, x14
	strb	w15, [x19, #856]
	cmp	x14, #4
	b.hi	.LBB0c7ac18_45
	strb	wzr, [x10]
	strb	w11, [x10, #1]
	strb	w12, [x10, #2]
	strb	w9, [x10, #3]
	strb	w13, [x10, #4]
	b	.LBB0c7ac18_46
.LBB0c7ac18_20:
	cmp	x10, #8
	b.ne	.LBB0c7ac18_9
	ldrb	w9, [x19, #944]
	ldrb	w11, [x19, #704]
	cmp	w9, #1
	b.ne	.LBB0c7ac18_26
	ldrb	w9, [x19, #952]
	cmp	w9, #1
	b.ne	.LBB0c7ac18_26
	ldrb	w10, [x19, #792]
	ldr	x13, [x19, #744]
	mov	x9, xzr
	mov	w12, #1
	cmp	w10, #1
	mov	w10, #13
	b.ne	.LBB0c7ac18_27
	ldr	x14, [x19, #800]
	cbz	x14, .LBB0c7ac18_27
	ldr	x9, [x19, #960]
	sub	x10, x14, #1
	ldr	x14, [x19, #768]
	mov	w12, wzr
	cmp	x10, x9
	csel	x9, x10, x9, lo
	ldr	w10, [x14, x9, lsl #2]
	add	x9, x9, #1
	add	x14, x13, x10
	ldrb	w15, [x14, #5]
	ldrh	w14, [x14, #6]
	rev16	w14, w14
	add	x10, x10, x15
	add	x10, x10, x14
	add	x10, x10, #16
	b	.LBB0c7ac18_27
.LBB0c7ac18_26:
	ldr	x13, [x19, #744]
	mov	x9, xzr
	mov	w12, #1
	mov	w10, #13
.LBB0c7ac18_27:
	ldrb	w14, [x19, #824]
	ldr	x15, [x19, #768]
	cmp	w14, w11
	b.ne	.LBB0c7ac18_30
	ldr	x16, [x19, #832]
	cmp	x9, x16
	b.hs	.LBB0c7ac18_37
	mov	x16, xzr
	cmp	w11, #0
	mov	w14, #7294
	b	.LBB0c7ac18_31
.LBB0c7ac18_30:
	mov	x16, xzr
	cmp	w11, #0
	mov	w14, #7294
	strb	w11, [x19, #824]
.LBB0c7ac18_31:
	mov	w17, #3625
	mov	w18, #1
	str	xzr, [x19, #832]
	csel	w14, w17, w14, eq
	str	w18, [x19, #840]
	str	w14, [x19, #844]
	cmp	x16, x9
	b.hs	.LBB0c7ac18_39
.LBB0c7ac18_32:
	cbz	w11, .LBB0c7ac18_36
.LBB0c7ac18_33:
	ldr	w17, [x15, x16, lsl #2]
	mov	w0, #2137
	add	x17, x13, x17
	ldrh	w18, [x17, #6]
	ldrb	w17, [x17, #5]
	rev	w18, w18
	cmp	w17, #0
	add	w18, w17, w18, lsr #16
	mov	w17, #146
	mul	w18, w18, w0
	mov	w0, #101
	csel	w17, w0, w17, eq
	add	w17, w17, w18, lsr #11
	subs	w18, w17, #109
	csel	w18, wzr, w18, lo
	cmp	x16, #0
	csel	w17, w18, w17, eq
	subs	w14, w14, w17
	b.lo	.LBB0c7ac18_40
	add	x16, x16, #1
	cmp	x9, x16
	b.ne	.LBB0c7ac18_33
	b	.LBB0c7ac18_39
.LBB0c7ac18_35:
	add	x16, x16, #1
	cmp	x9, x16
	b.eq	.LBB0c7ac18_39
.LBB0c7ac18_36:
	ldr	w17, [x15, x16, lsl #2]
	mov	w0, #537
	mov	w1, #61
	add	x17, x13, x17
	ldrh	w18, [x17, #6]
	ldrb	w17, [x17, #5]
	rev	w18, w18
	cmp	w17, #0
	add	w18, w17, w18, lsr #16
	mul	w18, w18, w0
	mov	w0, #81
	csel	w2, w1, w0, eq
	add	w2, w2, w18, lsr #9
	subs	w2, w2, #69
	csel	w2, wzr, w2, lo
	cmp	w17, #0
	csel	w17, w1, w0, eq
	cmp	x16, #0
	add	w17, w17, w18, lsr #9
	csel	w17, w2, w17, eq
	subs	w14, w14, w17
	b.hs	.LBB0c7ac18_35
	b	.LBB0c7ac18_40
.LBB0c7ac18_37:
	ldrb	w14, [x19, #840]
	cmp	w14, #1
	b.ne	.LBB0c7ac18_40
	ldr	w14, [x19, #844]
	cmp	x16, x9
	b.lo	.LBB0c7ac18_32
.LBB0c7ac18_39:
	mov	w13, #1
	str	w13, [x19, #840]
	str	w14, [x19, #844]
	str	x9, [x19, #832]
	cbnz	w13, .LBB0c7ac18_41
	b	.LBB0c7ac18_56
.LBB0c7ac18_40:
	mov	w14, wzr
	str	wzr, [x19, #840]
	str	wzr, [x19, #844]
	str	x9, [x19, #832]
	b	.LBB0c7ac18_56
.LBB0c7ac18_41:
	lsr	x13, x8, #56
	lsr	x15, x8, #48
	lsr	x16, x8, #40
	ubfx	x17, x8, #40, #8
	mov	w18, w13
	bfi	w18, w15, #8, #8
	add	w18, w18, w16, uxtb
	cbz	w12, .LBB0c7ac18_44
	cbz	w11, .LBB0c7ac18_53
	mov	w11, #2137
	cmp	w17, #0
	mov	w12, #146
	mul	w11, w18, w11
	mov	w17, #101
	csel	w12, w17, w12, eq
	add	w11, w12, w11, lsr #11
	mov	w12, #109
	b	.LBB0c7ac18_54
.LBB0c7ac18_44:
	cmp	w11, #0
	mov	w11, #45
	mov	w12, #20
	csel	w11, w12, w11, eq
	cmp	w17, #0
	csel	w11, wzr, w11, eq
	add	w11, w11, w18
	b	.LBB0c7ac18_55
.LBB0c7ac18_45:
	ldr	w9, [sp, #24]
	ldrb	w11, [sp, #28]
	str	w9, [x10]
	strb	w11, [x10, #4]
.LBB0c7ac18_46:
	mov	x9, #-1
	subs	x20, x8, #14
	stur	x9, [x10, #5]
	b.lo	.LBB0c7ac18_50
	add	x21, x10, #13
	b.eq	.LBB0c7ac18_49
	mov	x0, x21
	mov	w1, wzr
	mov	x2, x20
	bl	memset
.LBB0c7ac18_49:
	strb	wzr, [x21, x20]
.LBB0c7ac18_50:
	adrp	x9, .LCPI0c7ac18_0
	mov	w8, #1
	strb	wzr, [x19, #816]
	ldr	q0, [x9, :lo12:.LCPI0c7ac18_0]
	ldr	x9, [x19, #832]
	str	x8, [x19, #792]
	str	q0, [x19, #800]
	cbz	x9, .LBB0c7ac18_52
	ldrb	w9, [x19, #824]
	mov	w10, #3625
	str	xzr, [x19, #832]
	str	w8, [x19, #840]
	cmp	w9, #0
	mov	w9, #7294
	csel	w9, w10, w9, eq
	str	w9, [x19, #844]
.LBB0c7ac18_52:
	mov	w8, #6
	add	x9, x19, #985
	str	wzr, [x19, #988]
	strb	w8, [x19, #984]
	mov	w8, #5
	str	wzr, [x9]
	str	x8, [x19, #992]
	str	xzr, [x19, #1000]
	str	xzr, [x19, #1016]
	str	xzr, [x19, #1008]
	ldp	x20, x19, [sp, #48]
	ldp	x30, x21, [sp, #32]
	add	sp, sp, #64
	ret
.LBB0c7ac18_53:
	mov	w11, #537
	cmp	w17, #0
	mov	w12, #81
	mul	w11, w18, w11
	mov	w17, #61
	csel	w12, w17, w12, eq
	add	w11, w12, w11, lsr #9
	mov	w12, #69
.LBB0c7ac18_54:
	subs	w11, w11, w12
	csel	w11, wzr, w11, lo
.LBB0c7ac18_55:
	cmp	w11, w14
	b.ls	.LBB0c7ac18_57
.LBB0c7ac18_56:
	movi	v0.2d, #0000000000000000
	add	x10, x19, #985
	mov	w9, #1
	ldur	x11, [sp, #15]
	str	x8, [x10]
	ldr	x8, [sp, #8]
	strb	w9, [x19, #984]
	add	x9, x19, #993
	str	x11, [x19, #1000]
	str	x8, [x9]
	str	q0, [x19, #1008]
	ldp	x20, x19, [sp, #48]
	ldp	x30, x21, [sp, #32]
	add	sp, sp, #64
	ret
.LBB0c7ac18_57:
	mov	w11, #5
	ubfiz	x14, x15, #8, #8
	ldur	w12, [sp, #3]
	strb	w11, [x19, #984]
	add	x11, x13, w16, uxtb
	ldr	w15, [sp]
	add	x13, x19, #985
	str	w12, [x19, #988]
	add	x11, x11, x14
	str	w15, [x13]
	str	x10, [x19, #992]
	str	x11, [x19, #1000]
	str	x9, [x19, #1008]
	str	x8, [x19, #1016]
	ldp	x20, x19, [sp, #48]
	ldp	x30, x21, [sp, #32]
	add	sp, sp, #64
	ret
.Lfunc_end0c7ac18:
	.size	ckd_drive_job_Job_collect_808c45e55832e08b_.7006b13, .Lfunc_end0c7ac18-ckd_drive_job_Job_collect_808c45e55832e08b_.7006b13

	.section	".text.ckd_drive::job::Job::fill::<#808c45e55832e08b>","ax",@progbits
	.p2align	2
	.type	ckd_drive_job_Job_fill_808c45e55832e08b_.ddae6a7,@function
ckd_drive_job_Job_fill_808c45e55832e08b_.ddae6a7:
	cbz	x2, .LBB6c1a733_10
	mov	w9, #6
	add	x8, x3, x2
	cmp	w5, #0
	strb	w9, [x0, #984]
	mov	w9, #2
	mov	w11, #258
	csel	x9, x11, x9, ne
	str	x8, [x0, #992]
	subs	x8, x4, x2
	str	x8, [x0, #1000]
	ldr	x8, [x0, #744]
	add	x10, x0, #985
	str	x9, [x0, #1008]
	mov	w9, #1
	str	wzr, [x0, #988]
	str	wzr, [x10]
	str	xzr, [x0, #1016]
	strb	w9, [x0, #856]
	b.ne	.LBB6c1a733_11
	ldrb	w9, [x0, #816]
	tbz	w9, #0, .LBB6c1a733_11
	add	x0, x8, x3
	sub	x9, x0, x1
	cmp	x9, x2
	b.hs	.LBB6c1a733_12
	cmp	x2, #8
	b.lo	.LBB6c1a733_6
	add	x9, x3, x8
	sub	x9, x9, x1
	cmp	x9, #32
	b.hs	.LBB6c1a733_13
.LBB6c1a733_6:
	mov	x9, xzr
.LBB6c1a733_7:
	add	x11, x9, x3
	sub	x10, x2, x9
	add	x9, x1, x9
	add	x8, x8, x11
.LBB6c1a733_8:
	ldrb	w11, [x9], #1
	subs	x10, x10, #1
	strb	w11, [x8], #1
	b.ne	.LBB6c1a733_8
.LBB6c1a733_9:
	ret
.LBB6c1a733_10:
	mov	w8, #4
	add	x9, x0, #985
	str	wzr, [x0, #988]
	strb	w8, [x0, #984]
	add	x8, x0, #1009
	str	wzr, [x9]
	str	x3, [x0, #992]
	str	x4, [x0, #1000]
	strb	w5, [x0, #1008]
	str	xzr, [x0, #1016]
	str	xzr, [x8]
	ret
.LBB6c1a733_11:
	mov	x8, x1
	mov	x9, x2
	add	x0, x0, #744
	mov	x1, x3
	mov	x2, x4
	mov	x3, x8
	mov	x4, x9
	b	ckd_slot_buffer_TrackBuffer_replace_and_clear.1a339ea
.LBB6c1a733_12:
	b	memmove
.LBB6c1a733_13:
	cmp	x2, #32
	b.hs	.LBB6c1a733_15
	mov	x9, xzr
	b	.LBB6c1a733_19
.LBB6c1a733_15:
	add	x12, x3, x8
	and	x10, x2, #0x18
	and	x9, x2, #0xffffffffffffffe0
	add	x11, x1, #16
	add	x12, x12, #16
	and	x13, x2, #0xffffffffffffffe0
.LBB6c1a733_16:
	ldp	q0, q1, [x11, #-16]
	subs	x13, x13, #32
	add	x11, x11, #32
	stp	q0, q1, [x12, #-16]
	add	x12, x12, #32
	b.ne	.LBB6c1a733_16
	cmp	x2, x9
	b.eq	.LBB6c1a733_9
	cbz	x10, .LBB6c1a733_7
.LBB6c1a733_19:
	mov	x11, x9
	and	x9, x2, #0xfffffffffffffff8
	add	x12, x11, x3
	sub	x10, x11, x9
	add	x11, x1, x11
	add	x12, x8, x12
.LBB6c1a733_20:
	ldr	d0, [x11], #8
	adds	x10, x10, #8
	str	d0, [x12], #8
	b.ne	.LBB6c1a733_20
	cmp	x2, x9
	b.eq	.LBB6c1a733_9
	b	.LBB6c1a733_7
.Lfunc_end6c1a733:
	.size	ckd_drive_job_Job_fill_808c45e55832e08b_.ddae6a7, .Lfunc_end6c1a733-ckd_drive_job_Job_fill_808c45e55832e08b_.ddae6a7

	.section	".text.ckd_slot::buffer::TrackBuffer::replace_and_clear","ax",@progbits
	.p2align	2
	.type	ckd_slot_buffer_TrackBuffer_replace_and_clear.1a339ea,@function
ckd_slot_buffer_TrackBuffer_replace_and_clear.1a339ea:
	stp	x30, x27, [sp, #-80]!
	ldrb	w8, [x0, #48]
	stp	x24, x23, [sp, #32]
	ldr	x24, [x0]
	stp	x26, x25, [sp, #16]
	mov	w25, #5
	stp	x22, x21, [sp, #48]
	mov	x21, x1
	cmp	w8, #1
	stp	x20, x19, [sp, #64]
	mov	x19, x4
	mov	x20, x3
	b.ne	.LBB0e7e23c_3
	ldr	x8, [x0, #56]
	cbz	x8, .LBB0e7e23c_3
	ldr	x9, [x0, #24]
	add	x8, x9, x8, lsl #2
	ldur	w8, [x8, #-4]
	add	x9, x24, x8
	ldrb	w10, [x9, #5]
	ldrh	w9, [x9, #6]
	rev16	w9, w9
	add	x8, x8, x10
	add	x8, x8, x9
	add	x25, x8, #8
.LBB0e7e23c_3:
	ldr	x8, [x0, #64]
	add	x26, x25, #8
	mov	w9, #1
	cmp	x2, x19
	str	x26, [x0, #64]
	strb	w9, [x0, #72]
	b.ne	.LBB0e7e23c_6
	cmp	x26, x8
	mov	x9, #-1
	str	x9, [x24, x25]
	b.hs	.LBB0e7e23c_12
	sub	x8, x8, x25
	subs	x22, x8, #9
	add	x23, x24, x26
	b.ne	.LBB0e7e23c_10
	b	.LBB0e7e23c_11
.LBB0e7e23c_6:
	add	x9, x19, x21
	mvn	x10, x19
	cmp	x9, x8
	add	x23, x24, x9
	csel	x27, x9, x8, hi
	adds	x22, x2, x10
	b.eq	.LBB0e7e23c_8
	mov	x0, x23
	mov	w1, wzr
	mov	x2, x22
	bl	memset
.LBB0e7e23c_8:
	cmp	x26, x27
	strb	wzr, [x23, x22]
	mov	x8, #-1
	str	x8, [x24, x25]
	b.hs	.LBB0e7e23c_12
	sub	x8, x27, x25
	subs	x22, x8, #9
	add	x23, x24, x26
	b.eq	.LBB0e7e23c_11
.LBB0e7e23c_10:
	mov	x0, x23
	mov	w1, wzr
	mov	x2, x22
	bl	memset
.LBB0e7e23c_11:
	strb	wzr, [x23, x22]
.LBB0e7e23c_12:
	add	x0, x24, x21
	sub	x8, x0, x20
	cmp	x8, x19
	b.hs	.LBB0e7e23c_19
	cmp	x19, #8
	b.lo	.LBB0e7e23c_15
	add	x8, x21, x24
	sub	x8, x8, x20
	cmp	x8, #32
	b.hs	.LBB0e7e23c_20
.LBB0e7e23c_15:
	mov	x8, xzr
.LBB0e7e23c_16:
	add	x10, x8, x21
	sub	x9, x19, x8
	add	x8, x20, x8
	add	x10, x24, x10
.LBB0e7e23c_17:
	ldrb	w11, [x8], #1
	subs	x9, x9, #1
	strb	w11, [x10], #1
	b.ne	.LBB0e7e23c_17
.LBB0e7e23c_18:
	ldp	x20, x19, [sp, #64]
	ldp	x22, x21, [sp, #48]
	ldp	x24, x23, [sp, #32]
	ldp	x26, x25, [sp, #16]
	ldp	x30, x27, [sp], #80
	ret
.LBB0e7e23c_19:
	mov	x1, x20
	mov	x2, x19
	ldp	x20, x19, [sp, #64]
	ldp	x22, x21, [sp, #48]
	ldp	x24, x23, [sp, #32]
	ldp	x26, x25, [sp, #16]
	ldp	x30, x27, [sp], #80
	b	memmove
.LBB0e7e23c_20:
	cmp	x19, #32
	b.hs	.LBB0e7e23c_22
	mov	x8, xzr
	b	.LBB0e7e23c_26
.LBB0e7e23c_22:
	add	x11, x21, x24
	and	x9, x19, #0x18
	and	x8, x19, #0xffffffffffffffe0
	add	x10, x20, #16
	add	x11, x11, #16
	and	x12, x19, #0xffffffffffffffe0
.LBB0e7e23c_23:
	ldp	q0, q1, [x10, #-16]
	subs	x12, x12, #32
	add	x10, x10, #32
	stp	q0, q1, [x11, #-16]
	add	x11, x11, #32
	b.ne	.LBB0e7e23c_23
	cmp	x19, x8
	b.eq	.LBB0e7e23c_18
	cbz	x9, .LBB0e7e23c_16
.LBB0e7e23c_26:
	mov	x10, x8
	and	x8, x19, #0xfffffffffffffff8
	add	x11, x10, x21
	sub	x9, x10, x8
	add	x10, x20, x10
	add	x11, x24, x11
.LBB0e7e23c_27:
	ldr	d0, [x10], #8
	adds	x9, x9, #8
	str	d0, [x11], #8
	b.ne	.LBB0e7e23c_27
	cmp	x19, x8
	b.eq	.LBB0e7e23c_18
	b	.LBB0e7e23c_16
.Lfunc_end0e7e23c:
	.size	ckd_slot_buffer_TrackBuffer_replace_and_clear.1a339ea, .Lfunc_end0e7e23c-ckd_slot_buffer_TrackBuffer_replace_and_clear.1a339ea

	.section	.text.dasd_drive_attach,"ax",@progbits
	.globl	dasd_drive_attach
	.p2align	2
	.type	dasd_drive_attach,@function
dasd_drive_attach:
	stp	x29, x30, [sp, #-96]!
	stp	x28, x27, [sp, #16]
	stp	x26, x25, [sp, #32]
	stp	x24, x23, [sp, #48]
	stp	x22, x21, [sp, #64]
	stp	x20, x19, [sp, #80]
	sub	sp, sp, #2848
	mov	x10, #18774
	str	xzr, [sp]
	mov	w8, #4096
	movk	x10, #17490, lsl #16
	ldr	x9, [x0]
	cmp	x1, #0
	movk	x10, #20037, lsl #32
	csel	x25, x8, xzr, eq
	movk	x10, #19535, lsl #48
	cmp	x9, x10
	b.ne	.LBBff896b9_2
	mov	w0, #-2
	b	.LBBff896b9_33
.LBBff896b9_2:
	mov	x22, x1
	mov	x21, x2
	mov	x19, x0
	add	x0, sp, #1800
	mov	w1, wzr
	mov	w2, #1040
	add	x24, sp, #1056
	bl	memset
	add	x0, x24, #80
	mov	w1, wzr
	mov	w2, #664
	bl	memset
	cbz	x21, .LBBff896b9_7
	tbnz	x21, #63, .LBBff896b9_27
	mov	x0, x21
	mov	w1, #1
	bl	rattle_alloc
	tbz	w0, #0, .LBBff896b9_27
	mov	x20, x1
	add	x23, x22, x25
	sub	x8, x1, x23
	cmp	x8, x21
	b.lo	.LBBff896b9_8
.LBBff896b9_6:
	mov	x0, x20
	mov	x1, x23
	mov	x2, x21
	bl	memmove
	b	.LBBff896b9_13
.LBBff896b9_7:
	add	x20, sp, #2840
	add	x23, x22, x25
	sub	x8, x20, x23
	cmp	x8, x21
	b.hs	.LBBff896b9_6
.LBBff896b9_8:
	cmp	x21, #8
	b.lo	.LBBff896b9_10
	sub	x8, x20, x22
	sub	x8, x8, x25
	cmp	x8, #32
	b.hs	.LBBff896b9_24
.LBBff896b9_10:
	mov	x8, xzr
.LBBff896b9_11:
	add	x10, x25, x8
	sub	x9, x21, x8
	add	x8, x20, x8
	add	x10, x22, x10
.LBBff896b9_12:
	ldrb	w11, [x10], #1
	subs	x9, x9, #1
	strb	w11, [x8], #1
	b.ne	.LBBff896b9_12
.LBBff896b9_13:
	cmp	x21, #16
	b.hs	.LBBff896b9_17
	cbz	x21, .LBBff896b9_16
	mov	x0, x20
	bl	rattle_dealloc
.LBBff896b9_16:
	mov	w29, #6
	mov	w20, #1
	b	.LBBff896b9_28
.LBBff896b9_17:
	ldr	w25, [x23, #12]
	cmp	w25, #513
	b.hs	.LBBff896b9_20
	mov	w28, wzr
	mov	x22, xzr
	mov	x29, xzr
	mov	x23, xzr
	mov	x27, xzr
	subs	x26, x21, #512
	b.hs	.LBBff896b9_46
.LBBff896b9_19:
	mov	w29, #6
	b	.LBBff896b9_55
.LBBff896b9_20:
	sub	w26, w25, #512
	add	x8, x21, x25
	mov	w1, #8
	add	x8, x8, x26
	sub	x8, x8, #1
	udiv	x23, x8, x25
	lsl	x0, x23, #3
	bl	rattle_alloc
	tbz	w0, #0, .LBBff896b9_26
	mov	x22, x1
	subs	x8, x23, #1
	b.eq	.LBBff896b9_45
	cmp	x8, #4
	b.hs	.LBBff896b9_41
	mov	x9, xzr
	b	.LBBff896b9_43
.LBBff896b9_24:
	cmp	x21, #32
	b.hs	.LBBff896b9_34
	mov	x8, xzr
	b	.LBBff896b9_38
.LBBff896b9_26:
	mov	x0, x20
	bl	rattle_dealloc
.LBBff896b9_27:
	mov	w29, wzr
	mov	w20, #2
.LBBff896b9_28:
	cbz	w20, .LBBff896b9_31
	cmp	w20, #1
	b.ne	.LBBff896b9_32
	mov	w8, #-32
	sub	w0, w8, w29
	b	.LBBff896b9_33
.LBBff896b9_31:
	mov	w0, #-9
	b	.LBBff896b9_33
.LBBff896b9_32:
	mov	w0, #-3
.LBBff896b9_33:
	add	sp, sp, #2848
	ldp	x20, x19, [sp, #80]
	ldp	x22, x21, [sp, #64]
	ldp	x24, x23, [sp, #48]
	ldp	x26, x25, [sp, #32]
	ldp	x28, x27, [sp, #16]
	ldp	x29, x30, [sp], #96
	ret
.LBBff896b9_34:
	add	x10, x25, x22
	and	x9, x21, #0x18
	and	x8, x21, #0xffffffffffffffe0
	add	x10, x10, #16
	add	x11, x20, #16
	and	x12, x21, #0xffffffffffffffe0
.LBBff896b9_35:
	ldp	q0, q1, [x10, #-16]
	subs	x12, x12, #32
	add	x10, x10, #32
	stp	q0, q1, [x11, #-16]
	add	x11, x11, #32
	b.ne	.LBBff896b9_35
	cmp	x21, x8
	b.eq	.LBBff896b9_13
	cbz	x9, .LBBff896b9_11
.LBBff896b9_38:
	mov	x11, x8
	and	x8, x21, #0xfffffffffffffff8
	add	x10, x25, x11
	sub	x9, x11, x8
	add	x11, x20, x11
	add	x10, x22, x10
.LBBff896b9_39:
	ldr	d0, [x10], #8
	adds	x9, x9, #8
	str	d0, [x11], #8
	b.ne	.LBBff896b9_39
	cmp	x21, x8
	b.eq	.LBBff896b9_13
	b	.LBBff896b9_11
.LBBff896b9_41:
	and	x9, x8, #0xfffffffffffffffc
	add	x10, x22, #16
	and	x11, x8, #0xfffffffffffffffc
.LBBff896b9_42:
	movi	v0.2d, #0000000000000000
	subs	x11, x11, #4
	stp	q0, q0, [x10, #-16]
	add	x10, x10, #32
	b.ne	.LBBff896b9_42
	b	.LBBff896b9_44
.LBBff896b9_43:
	str	xzr, [x22, x9, lsl #3]
	add	x9, x9, #1
.LBBff896b9_44:
	cmp	x8, x9
	b.ne	.LBBff896b9_43
.LBBff896b9_45:
	orr	x27, x26, x25, lsl #32
	add	x29, x8, #1
	mov	w28, #1
	str	xzr, [x22, x8, lsl #3]
	subs	x26, x21, #512
	b.lo	.LBBff896b9_19
.LBBff896b9_46:
	add	x0, sp, #16
	mov	x1, x20
	mov	w2, #512
	bl	memcpy
	ldr	w8, [sp, #16]
	mov	w9, #19267
	movk	w9, #24388, lsl #16
	cmp	w8, w9
	b.ne	.LBBff896b9_54
	adrp	x2, .Lstatic.1+8
	add	x2, x2, :lo12:.Lstatic.1+8
	add	x0, sp, #16
	mov	w1, #5
	bl	core_cmp_slices_groups_equal_i8_31_core_cmp_numbers_U8PartialEq_.3f1b21c
	tbnz	w0, #0, .LBBff896b9_49
	adrp	x2, .Lstatic.2+8
	add	x2, x2, :lo12:.Lstatic.2+8
	add	x0, sp, #16
	mov	w1, #5
	bl	core_cmp_slices_groups_equal_i8_31_core_cmp_numbers_U8PartialEq_.3f1b21c
	tbz	w0, #0, .LBBff896b9_50
.LBBff896b9_49:
	mov	w29, #1
	b	.LBBff896b9_55
.LBBff896b9_50:
	adrp	x2, .Lstatic.3
	add	x2, x2, :lo12:.Lstatic.3
	add	x0, sp, #16
	mov	w1, #8
	bl	core_cmp_slices_groups_equal_i8_31_core_cmp_numbers_U8PartialEq_.3f1b21c
	cbz	w0, .LBBff896b9_54
	ldrb	w10, [sp, #32]
	cmp	w10, #20
	b.eq	.LBBff896b9_58
	cmp	w10, #17
	b.ne	.LBBff896b9_70
	mov	x8, xzr
	mov	w10, #10
	mov	w11, #3662
	b	.LBBff896b9_59
.LBBff896b9_54:
	mov	w29, wzr
.LBBff896b9_55:
	mov	x0, x20
	bl	rattle_dealloc
	cmp	w25, #513
	mov	w20, #1
	b.lo	.LBBff896b9_28
	cbz	x23, .LBBff896b9_28
	mov	x0, x22
	bl	rattle_dealloc
	mov	w20, #1
	b	.LBBff896b9_28
.LBBff896b9_58:
	mov	w11, #7331
	mov	w8, #1
.LBBff896b9_59:
	ldr	w9, [sp, #24]
	cmp	w9, w10
	b.ne	.LBBff896b9_69
	ldr	w9, [sp, #28]
	mov	x13, x29
	mov	w29, #4
	cmp	w9, w11
	b.lo	.LBBff896b9_55
	cmp	w9, #16, lsl #12
	b.hi	.LBBff896b9_55
	ldrb	w11, [sp, #33]
	mov	w29, #5
	cmp	w11, #1
	b.hi	.LBBff896b9_55
	ldrb	w11, [sp, #34]
	ldrb	w12, [sp, #35]
	orr	w11, w12, w11
	cbnz	w11, .LBBff896b9_55
	umull	x11, w10, w9
	mov	w29, #6
	udiv	x10, x26, x11
	lsr	x12, x10, #16
	cbnz	x12, .LBBff896b9_55
	cmp	x11, x26
	b.hi	.LBBff896b9_55
	mov	x12, #512
	madd	x11, x10, x11, x12
	cmp	x11, x21
	b.ne	.LBBff896b9_55
	str	x21, [sp, #1072]
	orr	x8, x8, x10, lsl #16
	mov	w11, #1
	str	x21, [sp, #1080]
	add	x21, sp, #1056
	mov	w1, wzr
	add	x0, x21, #88
	mov	w2, #616
	udiv	x25, x26, x9
	str	x11, [sp, #1056]
	str	x20, [sp, #1064]
	orr	x20, x8, x9, lsl #32
	str	xzr, [sp, #1096]
	str	xzr, [sp, #1088]
	strb	w28, [sp, #1104]
	strb	wzr, [sp, #1111]
	sturh	wzr, [x24, #53]
	stur	wzr, [x24, #49]
	str	x27, [sp, #1112]
	str	x22, [sp, #1120]
	str	x13, [sp, #1128]
	str	x23, [sp, #1136]
	bl	memset
	add	x8, x21, #716
	add	x0, sp, #1800
	add	x1, sp, #1056
	str	x20, [sp, #1760]
	add	x21, sp, #1800
	str	w25, [sp, #1768]
	stp	xzr, xzr, [x8, #8]
	str	xzr, [x8]
	str	wzr, [sp, #1796]
	bl	lone_drive_c_drive_over.837ff07
	ldrb	w22, [sp, #1800]
	ldrb	w20, [sp, #1801]
	add	x0, sp, #16
	ldrb	w29, [sp, #1802]
	orr	x1, x21, #0x3
	mov	w2, #1037
	add	x21, sp, #16
	bl	memcpy
	cbnz	w22, .LBBff896b9_28
	add	x0, sp, #1800
	add	x1, x21, #5
	mov	w2, #1032
	bl	memcpy
	add	x1, sp, #1800
	mov	x0, x19
	bl	lone_drive_c_handle_hold.4592c1f
	b	.LBBff896b9_33
.LBBff896b9_69:
	mov	w29, #3
	b	.LBBff896b9_55
.LBBff896b9_70:
	mov	w29, #2
	b	.LBBff896b9_55
.Lfunc_endff896b9:
	.size	dasd_drive_attach, .Lfunc_endff896b9-dasd_drive_attach

	.section	.rodata.cst16,"aM",@progbits,16
	.p2align	4, 0x0
.LCPI19f1188_0:
	.xword	0
	.xword	-1
	.section	.text.dasd_drive_attach_new,"ax",@progbits
	.globl	dasd_drive_attach_new
	.p2align	2
	.type	dasd_drive_attach_new,@function
dasd_drive_attach_new:
	stp	x29, x30, [sp, #-96]!
	stp	x28, x27, [sp, #16]
	stp	x26, x25, [sp, #32]
	stp	x24, x23, [sp, #48]
	stp	x22, x21, [sp, #64]
	stp	x20, x19, [sp, #80]
	sub	sp, sp, #3072
	str	xzr, [sp]
	sub	sp, sp, #3072
	str	xzr, [sp]
	sub	sp, sp, #3072
	str	xzr, [sp]
	sub	sp, sp, #2944
	mov	w20, w2
	mov	w21, w1
	mov	x19, x0
	add	x0, sp, #1056
	mov	w1, wzr
	mov	w2, #1037
	str	xzr, [sp]
	bl	memset
	add	x0, sp, #24
	mov	w1, wzr
	mov	w2, #1032
	bl	memset
	mov	x9, #18774
	ldr	x8, [x19]
	movk	x9, #17490, lsl #16
	movk	x9, #20037, lsl #32
	movk	x9, #19535, lsl #48
	cmp	x8, x9
	b.ne	.LBB19f1188_2
	mov	w0, #-2
	b	.LBB19f1188_20
.LBB19f1188_2:
	and	w8, w21, #0xffff
	cmp	w8, #2311
	b.eq	.LBB19f1188_5
	cmp	w8, #2314
	b.ne	.LBB19f1188_11
	mov	w28, wzr
	mov	w24, #1
	b	.LBB19f1188_6
.LBB19f1188_5:
	mov	x24, xzr
	mov	w28, #1
.LBB19f1188_6:
	add	x0, sp, #2840
	mov	w1, wzr
	mov	w2, #1040
	bl	memset
	add	x0, sp, #2096
	mov	w1, wzr
	mov	w2, #744
	bl	memset
	tst	w20, #0xffff
	b.eq	.LBB19f1188_12
	cmp	w28, #0
	mov	w8, #20
	mov	w9, #10
	and	x25, x20, #0xffff
	csel	x8, x9, x8, ne
	mov	w20, #7680
	umull	x8, w8, w25
	mov	w22, #4096
	mov	w1, #1
	csel	x9, x22, x20, ne
	umull	x23, w8, w9
	orr	x0, x23, #0x200
	orr	x27, x23, #0x200
	bl	rattle_alloc
	tbz	w0, #0, .LBB19f1188_14
	mov	x21, x1
	orr	x2, x23, #0x1ff
	mov	x0, x1
	mov	w1, wzr
	str	x24, [sp, #8]
	orr	x26, x23, #0x1ff
	bl	memset
	cmp	w28, #0
	mov	w1, #8
	strb	wzr, [x21, x26]
	csel	w24, w22, w20, ne
	sub	w8, w24, #512
	add	x8, x24, x8
	add	x8, x8, x27
	sub	x8, x8, #1
	udiv	x29, x8, x24
	lsl	x20, x29, #3
	mov	x0, x20
	bl	rattle_alloc
	tbz	w0, #0, .LBB19f1188_13
	mov	x22, x1
	sub	x2, x20, #8
	mov	x0, x1
	mov	w1, wzr
	bl	memset
	add	x8, x22, x20
	cmp	w28, #0
	mov	w10, #10
	stur	xzr, [x8, #-8]
	lsl	x8, x25, #16
	mov	x11, #32985348833280
	mov	x12, #17592186044416
	str	x21, [sp, #3888]
	lsr	w9, w8, #16
	mov	w8, #20
	csel	x12, x12, x11, ne
	csel	w26, w10, w8, ne
	lsr	x20, x12, #32
	mov	w10, #1
	mul	w11, w26, w9
	str	x10, [sp, #3928]
	sub	w9, w24, #512
	orr	x9, x9, x24, lsl #32
	str	x27, [sp, #3896]
	str	x27, [sp, #3904]
	umull	x10, w20, w11
	str	xzr, [sp, #3912]
	str	xzr, [sp, #3920]
	str	x11, [sp, #16]
	cmp	x10, x23
	str	x9, [sp, #3936]
	str	x22, [sp, #3944]
	str	x29, [sp, #3952]
	str	x29, [sp, #3960]
	b.hs	.LBB19f1188_21
	add	x8, sp, #3880
	mov	w20, #6
	mov	w19, #1
	stur	wzr, [x8, #3]
	mov	w8, #257
	str	wzr, [sp, #3880]
	strh	w8, [sp, #2840]
	strb	w20, [sp, #2842]
	b	.LBB19f1188_23
.LBB19f1188_11:
	mov	w0, #-8
	b	.LBB19f1188_20
.LBB19f1188_12:
	mov	w21, wzr
	mov	w20, wzr
	b	.LBB19f1188_15
.LBB19f1188_13:
	mov	x0, x21
	bl	rattle_dealloc
.LBB19f1188_14:
	mov	w20, wzr
	mov	w21, #2
.LBB19f1188_15:
	cbz	w21, .LBB19f1188_18
	cmp	w21, #1
	b.ne	.LBB19f1188_19
	mov	w8, #-32
	sub	w0, w8, w20
	b	.LBB19f1188_20
.LBB19f1188_18:
	mov	w0, #-9
	b	.LBB19f1188_20
.LBB19f1188_19:
	mov	w0, #-3
.LBB19f1188_20:
	add	sp, sp, #2, lsl #12
	add	sp, sp, #3968
	ldp	x20, x19, [sp, #80]
	ldp	x22, x21, [sp, #64]
	ldp	x24, x23, [sp, #48]
	ldp	x26, x25, [sp, #32]
	ldp	x28, x27, [sp, #16]
	ldp	x29, x30, [sp], #96
	ret
.LBB19f1188_21:
	movi	v0.2d, #0000000000000000
	mov	x10, #19267
	cmp	w28, #0
	mov	w9, #17
	movk	x10, #24388, lsl #16
	add	x11, sp, #3968
	movk	x10, #13136, lsl #32
	csel	w8, w9, w8, ne
	add	x9, x11, #20
	movk	x10, #12343, lsl #48
	str	w8, [sp, #3984]
	add	x8, sp, #3880
	add	x29, sp, #3968
	add	x0, sp, #3888
	add	x2, sp, #3968
	mov	x1, xzr
	mov	w3, #512
	mov	x21, x12
	str	w26, [sp, #3976]
	add	x28, sp, #3888
	str	w24, [sp, #3980]
	str	x10, [sp, #3968]
	stp	q0, q0, [x9, #240]
	stp	q0, q0, [x9, #272]
	stp	q0, q0, [x9, #304]
	stp	q0, q0, [x9, #336]
	stp	q0, q0, [x9, #368]
	stp	q0, q0, [x9, #400]
	stp	q0, q0, [x9, #432]
	str	q0, [x9, #464]
	stur	q0, [x8, #108]
	stur	q0, [x8, #124]
	stur	q0, [x8, #140]
	stur	q0, [x8, #156]
	stur	q0, [x8, #172]
	stur	q0, [x8, #188]
	stur	q0, [x8, #204]
	stur	q0, [x8, #220]
	stur	q0, [x8, #236]
	stur	q0, [x8, #252]
	stur	q0, [x29, #180]
	stur	q0, [x29, #196]
	stur	q0, [x29, #212]
	stur	q0, [x29, #228]
	stur	q0, [x29, #244]
	str	q0, [x29, #496]
	bl	dasd_files_volume_file_VolumeFileImageStore_write_at.fa93a83
	and	w8, w0, #0xff
	tbz	w8, #0, .LBB19f1188_27
.LBB19f1188_22:
	ldur	w8, [x28, #33]
	ldur	w9, [x28, #36]
	mov	w20, #7
	ldr	x21, [sp, #3888]
	ldr	x10, [sp, #3904]
	add	x11, sp, #3880
	ldrb	w19, [sp, #3928]
	ldr	x22, [sp, #3944]
	ldr	x29, [sp, #3960]
	str	w8, [sp, #3880]
	mov	w8, #257
	stur	w9, [x11, #3]
	strh	w8, [sp, #2840]
	strb	w20, [sp, #2842]
	cbz	x10, .LBB19f1188_24
.LBB19f1188_23:
	mov	x0, x21
	bl	rattle_dealloc
.LBB19f1188_24:
	cmp	w19, #1
	mov	w21, #1
	b.ne	.LBB19f1188_15
	cbz	x29, .LBB19f1188_15
	mov	x0, x22
	bl	rattle_dealloc
	mov	w21, #1
	b	.LBB19f1188_15
.LBB19f1188_27:
	ldr	x9, [sp, #8]
	add	x8, sp, #1, lsl #12
	add	x23, sp, #1, lsl #12
	add	x8, x8, #384
	mov	w1, wzr
	mov	w2, #7651
	bfi	x9, x25, #16, #16
	add	x23, x23, #384
	add	x25, sp, #2096
	orr	x9, x9, x21
	add	x21, x8, #29
	mov	x0, x21
	str	x9, [sp, #8]
	bl	memset
	mov	x27, xzr
	sub	x24, x20, #30
	mov	w22, #512
.LBB19f1188_28:
	udiv	w8, w27, w26
	movi	v0.2s, #8, lsl #24
	sub	x2, x20, #30
	mov	x0, x21
	mov	w1, wzr
	strb	wzr, [x29, #512]
	strb	wzr, [x29, #515]
	strb	wzr, [x29, #519]
	stur	s0, [x23, #9]
	lsr	w9, w8, #8
	strb	w8, [x29, #514]
	msub	w10, w8, w26, w27
	strb	w8, [x29, #518]
	adrp	x8, .LCPI19f1188_0
	ldr	q0, [x8, :lo12:.LCPI19f1188_0]
	strb	w9, [x29, #513]
	strb	w9, [x29, #517]
	strb	w10, [x29, #516]
	strb	w10, [x29, #520]
	stur	q0, [x23, #13]
	bl	memset
	add	x2, sp, #1, lsl #12
	add	x0, sp, #3888
	mov	x1, x22
	add	x2, x2, #384
	mov	x3, x20
	strb	wzr, [x21, x24]
	bl	dasd_files_volume_file_VolumeFileImageStore_write_at.fa93a83
	tst	w0, #0xff
	b.ne	.LBB19f1188_22
	ldr	x8, [sp, #16]
	add	x27, x27, #1
	add	x22, x22, x20
	cmp	x8, x27
	b.ne	.LBB19f1188_28
	ldr	x8, [sp, #3896]
	ldur	w9, [x28, #33]
	add	x13, sp, #3880
	ldur	w10, [x28, #36]
	ldur	q0, [x13, #8]
	add	x21, sp, #2096
	sub	x8, x8, #512
	str	w9, [sp, #3880]
	ldrb	w9, [sp, #3928]
	udiv	x20, x8, x20
	stur	w10, [x13, #3]
	mov	w8, #1
	add	x10, sp, #3888
	str	x8, [sp, #2096]
	ldrb	w8, [sp, #3920]
	add	x10, x10, #41
	ldur	w11, [x13, #3]
	ldur	q1, [x13, #24]
	ldrh	w12, [x10, #4]!
	strb	w8, [sp, #2136]
	ldr	w8, [sp, #3880]
	ldrb	w10, [x10, #2]
	stur	q0, [x25, #8]
	str	w11, [sp, #2140]
	ldur	q0, [x13, #72]
	add	x0, x21, #88
	stur	w8, [x25, #41]
	ldur	w8, [x13, #49]
	mov	w1, wzr
	strb	w9, [sp, #2144]
	ldr	x9, [sp, #3936]
	mov	w2, #616
	strb	w10, [sp, #2151]
	ldr	x10, [sp, #3944]
	stur	q1, [x25, #24]
	sturh	w12, [x25, #53]
	stur	w8, [x25, #49]
	str	x9, [sp, #2152]
	str	x10, [sp, #2160]
	stur	q0, [x25, #72]
	bl	memset
	ldr	x8, [sp, #8]
	add	x0, sp, #2840
	add	x1, sp, #2096
	str	w20, [sp, #2808]
	add	x22, sp, #2840
	str	x8, [sp, #2800]
	add	x8, x21, #716
	stp	xzr, xzr, [x8, #8]
	str	xzr, [x8]
	str	wzr, [sp, #2836]
	bl	lone_drive_c_drive_over.837ff07
	ldrb	w23, [sp, #2840]
	ldrb	w21, [sp, #2841]
	add	x0, sp, #1056
	ldrb	w20, [sp, #2842]
	orr	x1, x22, #0x3
	mov	w2, #1037
	add	x22, sp, #1056
	bl	memcpy
	cbnz	w23, .LBB19f1188_15
	add	x0, sp, #24
	add	x1, x22, #5
	mov	w2, #1032
	bl	memcpy
	add	x1, sp, #24
	mov	x0, x19
	bl	lone_drive_c_handle_hold.4592c1f
	b	.LBB19f1188_20
.Lfunc_end19f1188:
	.size	dasd_drive_attach_new, .Lfunc_end19f1188-dasd_drive_attach_new

	.section	.text.dasd_drive_copy,"ax",@progbits
	.globl	dasd_drive_copy
	.p2align	2
	.type	dasd_drive_copy,@function
dasd_drive_copy:
	stp	x29, x30, [sp, #-96]!
	stp	x28, x27, [sp, #16]
	stp	x26, x25, [sp, #32]
	stp	x24, x23, [sp, #48]
	stp	x22, x21, [sp, #64]
	stp	x20, x19, [sp, #80]
	sub	sp, sp, #3072
	str	xzr, [sp]
	sub	sp, sp, #3072
	str	xzr, [sp]
	sub	sp, sp, #1680
	mov	x20, #18774
	str	xzr, [sp]
	movk	x20, #17490, lsl #16
	ldr	x8, [x0]
	movk	x20, #20037, lsl #32
	movk	x20, #19535, lsl #48
	cmp	x8, x20
	b.ne	.LBBdb5fcef_3
	movi	v0.2d, #0000000000000000
	mov	x24, x0
	mov	x22, x1
	ldr	x26, [x0, #8]
	stp	xzr, xzr, [x0]
	add	x8, sp, #2032
	add	x21, sp, #1760
	add	x0, sp, #544
	mov	w1, wzr
	mov	w2, #1032
	stur	wzr, [x8, #227]
	str	wzr, [sp, #2256]
	stur	wzr, [x8, #219]
	str	wzr, [sp, #2248]
	str	xzr, [sp, #2240]
	str	q0, [sp, #2224]
	str	q0, [sp, #2208]
	str	q0, [sp, #2192]
	str	q0, [sp, #2176]
	str	q0, [sp, #2160]
	str	q0, [sp, #2144]
	str	xzr, [sp, #2128]
	str	q0, [sp, #2112]
	str	q0, [sp, #2096]
	str	q0, [sp, #2080]
	strh	wzr, [sp, #2076]
	str	wzr, [sp, #2072]
	str	xzr, [sp, #2056]
	str	xzr, [sp, #2048]
	stur	xzr, [x8, #7]
	str	xzr, [sp, #2032]
	str	xzr, [sp, #2024]
	str	xzr, [sp, #2016]
	stur	xzr, [x21, #247]
	str	xzr, [sp, #2000]
	str	xzr, [sp, #1992]
	str	xzr, [sp, #1984]
	stur	xzr, [x21, #215]
	str	xzr, [sp, #1968]
	str	xzr, [sp, #1960]
	str	xzr, [sp, #1952]
	stur	xzr, [x21, #183]
	str	xzr, [sp, #1936]
	str	xzr, [sp, #1928]
	str	xzr, [sp, #1920]
	stur	xzr, [x21, #151]
	str	xzr, [sp, #1904]
	str	xzr, [sp, #1896]
	str	xzr, [sp, #1888]
	stur	xzr, [x21, #119]
	str	xzr, [sp, #1872]
	str	xzr, [sp, #1864]
	str	xzr, [sp, #1856]
	stur	xzr, [x21, #87]
	str	xzr, [sp, #1840]
	str	xzr, [sp, #1832]
	str	xzr, [sp, #1824]
	stur	xzr, [x21, #55]
	str	xzr, [sp, #1808]
	str	q0, [sp, #1792]
	str	q0, [sp, #1776]
	stur	wzr, [x21, #11]
	str	wzr, [sp, #1768]
	stur	wzr, [x21, #3]
	str	wzr, [sp, #1760]
	str	xzr, [sp, #1744]
	str	q0, [sp, #1728]
	str	q0, [sp, #1712]
	str	q0, [sp, #1696]
	str	q0, [sp, #1680]
	str	q0, [sp, #1664]
	str	q0, [sp, #1648]
	str	xzr, [sp, #1632]
	str	q0, [sp, #1616]
	str	q0, [sp, #1600]
	str	q0, [sp, #1584]
	strh	wzr, [sp, #1580]
	str	wzr, [sp, #1576]
	bl	memset
	ldr	x8, [x22]
	cmp	x8, x20
	b.ne	.LBBdb5fcef_4
	mov	w0, #-2
	b	.LBBdb5fcef_146
.LBBdb5fcef_3:
	mov	w0, #-1
	b	.LBBdb5fcef_147
.LBBdb5fcef_4:
	add	x8, sp, #2992
	movi	v0.2d, #0000000000000000
	add	x27, sp, #1, lsl #12
	stur	xzr, [x8, #231]
	add	x23, sp, #1, lsl #12
	add	x25, sp, #1, lsl #12
	stur	xzr, [x8, #199]
	add	x0, sp, #1, lsl #12
	add	x27, x27, #672
	stur	xzr, [x8, #167]
	add	x23, x23, #1472
	add	x25, x25, #1728
	stur	xzr, [x8, #135]
	add	x28, sp, #1, lsl #12
	add	x0, x0, #3616
	stur	xzr, [x8, #103]
	mov	x1, x26
	add	x28, x28, #3232
	stur	xzr, [x8, #71]
	stur	xzr, [x8, #39]
	stur	xzr, [x8, #7]
	add	x8, sp, #2720
	stur	wzr, [x8, #235]
	stur	wzr, [x8, #227]
	stur	xzr, [x8, #7]
	add	x8, sp, #2448
	stur	xzr, [x8, #247]
	stur	xzr, [x8, #215]
	stur	xzr, [x8, #183]
	stur	xzr, [x8, #151]
	stur	xzr, [x8, #119]
	stur	xzr, [x8, #87]
	stur	xzr, [x8, #55]
	stur	wzr, [x8, #11]
	stur	wzr, [x8, #3]
	add	x8, sp, #3968
	stur	xzr, [x8, #231]
	stur	xzr, [x8, #199]
	stur	xzr, [x8, #167]
	stur	xzr, [x8, #135]
	stur	xzr, [x8, #103]
	stur	xzr, [x8, #71]
	stur	xzr, [x8, #39]
	stur	xzr, [x8, #7]
	add	x8, sp, #3712
	stur	wzr, [x8, #219]
	stur	wzr, [x8, #211]
	stur	xzr, [x8, #7]
	add	x8, sp, #3440
	stur	xzr, [x8, #247]
	stur	xzr, [x8, #215]
	stur	xzr, [x8, #183]
	stur	xzr, [x8, #151]
	stur	xzr, [x8, #119]
	stur	xzr, [x8, #87]
	stur	xzr, [x8, #55]
	stur	wzr, [x8, #11]
	stur	wzr, [x8, #3]
	add	x8, sp, #1, lsl #12
	add	x8, x8, #400
	str	x22, [sp, #32]
	stur	xzr, [x8, #247]
	stur	xzr, [x8, #215]
	str	xzr, [sp, #3240]
	str	xzr, [sp, #3232]
	stur	xzr, [x8, #183]
	stur	xzr, [x8, #151]
	str	xzr, [sp, #3216]
	str	xzr, [sp, #3208]
	stur	xzr, [x8, #119]
	stur	xzr, [x8, #87]
	str	xzr, [sp, #3200]
	str	xzr, [sp, #3184]
	stur	wzr, [x8, #43]
	stur	wzr, [x8, #35]
	str	xzr, [sp, #3176]
	str	xzr, [sp, #3168]
	stur	xzr, [x8, #7]
	add	x8, sp, #1, lsl #12
	add	x8, x8, #128
	str	xzr, [sp, #3152]
	stur	xzr, [x8, #247]
	stur	xzr, [x8, #215]
	str	xzr, [sp, #3144]
	str	xzr, [sp, #3136]
	stur	xzr, [x8, #183]
	stur	xzr, [x8, #151]
	str	xzr, [sp, #3120]
	str	xzr, [sp, #3112]
	stur	xzr, [x8, #119]
	stur	xzr, [x8, #87]
	str	xzr, [sp, #3104]
	str	xzr, [sp, #3088]
	stur	xzr, [x8, #55]
	stur	wzr, [x8, #11]
	str	xzr, [sp, #3080]
	str	xzr, [sp, #3072]
	stur	wzr, [x8, #3]
	add	x8, sp, #1, lsl #12
	add	x8, x8, #1200
	str	xzr, [sp, #3048]
	stur	xzr, [x8, #247]
	stur	xzr, [x8, #215]
	str	xzr, [sp, #3040]
	str	xzr, [sp, #3024]
	stur	xzr, [x8, #183]
	stur	wzr, [x8, #139]
	str	xzr, [sp, #3016]
	str	xzr, [sp, #3008]
	stur	wzr, [x8, #131]
	stur	xzr, [x8, #103]
	str	q0, [sp, #2976]
	str	wzr, [sp, #2944]
	stur	xzr, [x8, #71]
	stur	xzr, [x8, #39]
	str	xzr, [sp, #2928]
	str	xzr, [sp, #2816]
	stur	xzr, [x8, #7]
	add	x8, sp, #1, lsl #12
	add	x8, x8, #944
	str	q0, [sp, #2800]
	stur	xzr, [x8, #231]
	stur	xzr, [x8, #199]
	str	q0, [sp, #2784]
	str	q0, [sp, #2768]
	stur	xzr, [x8, #167]
	stur	xzr, [x8, #135]
	strh	wzr, [sp, #2764]
	str	wzr, [sp, #2760]
	stur	xzr, [x8, #71]
	stur	xzr, [x8, #39]
	str	xzr, [sp, #2744]
	str	xzr, [sp, #2736]
	stur	xzr, [x8, #7]
	add	x8, sp, #1, lsl #12
	add	x8, x8, #1984
	str	xzr, [sp, #2712]
	str	xzr, [sp, #2704]
	str	xzr, [sp, #2688]
	str	xzr, [sp, #2680]
	str	xzr, [sp, #2672]
	str	xzr, [sp, #2656]
	str	xzr, [sp, #2648]
	str	xzr, [sp, #2640]
	str	xzr, [sp, #2624]
	str	xzr, [sp, #2616]
	str	xzr, [sp, #2608]
	str	xzr, [sp, #2592]
	str	xzr, [sp, #2584]
	str	xzr, [sp, #2576]
	str	xzr, [sp, #2560]
	str	xzr, [sp, #2552]
	str	xzr, [sp, #2544]
	str	xzr, [sp, #2528]
	str	xzr, [sp, #2520]
	str	xzr, [sp, #2512]
	str	q0, [sp, #2480]
	str	q0, [sp, #2464]
	str	wzr, [sp, #2456]
	str	xzr, [sp, #2432]
	str	q0, [sp, #2416]
	str	xzr, [sp, #2496]
	str	wzr, [sp, #2448]
	str	q0, [sp, #2400]
	str	q0, [sp, #2384]
	str	q0, [sp, #2368]
	str	q0, [sp, #2352]
	str	q0, [sp, #2336]
	str	xzr, [sp, #2320]
	str	q0, [sp, #2304]
	str	wzr, [sp, #2952]
	str	xzr, [sp, #2720]
	str	q0, [sp, #2288]
	str	xzr, [sp, #3056]
	str	xzr, [sp, #2992]
	str	q0, [sp, #2272]
	strh	wzr, [sp, #2268]
	str	wzr, [sp, #2264]
	str	xzr, [sp, #4216]
	str	xzr, [sp, #4208]
	str	xzr, [sp, #4192]
	str	xzr, [sp, #4184]
	str	xzr, [sp, #4176]
	str	xzr, [sp, #4160]
	str	xzr, [sp, #4152]
	str	xzr, [sp, #4144]
	str	xzr, [sp, #4128]
	str	xzr, [sp, #4120]
	str	xzr, [sp, #4112]
	str	xzr, [sp, #4096]
	str	xzr, [sp, #4088]
	str	xzr, [sp, #4080]
	str	xzr, [sp, #4064]
	str	xzr, [sp, #4056]
	str	xzr, [sp, #4048]
	str	xzr, [sp, #4032]
	str	xzr, [sp, #4024]
	str	xzr, [sp, #4016]
	str	xzr, [sp, #4000]
	str	xzr, [sp, #3992]
	str	xzr, [sp, #3984]
	str	xzr, [sp, #3968]
	str	q0, [sp, #3952]
	str	q0, [sp, #3936]
	str	wzr, [sp, #3928]
	str	wzr, [sp, #3920]
	str	xzr, [sp, #3904]
	str	q0, [sp, #3888]
	str	q0, [sp, #3872]
	str	q0, [sp, #3856]
	str	q0, [sp, #3840]
	str	q0, [sp, #3824]
	str	q0, [sp, #3808]
	str	xzr, [sp, #3792]
	str	q0, [sp, #3776]
	str	q0, [sp, #3760]
	str	q0, [sp, #3744]
	str	xzr, [sp, #3736]
	str	xzr, [sp, #3728]
	str	xzr, [sp, #3712]
	str	xzr, [sp, #3704]
	str	xzr, [sp, #3696]
	str	xzr, [sp, #3680]
	str	xzr, [sp, #3672]
	str	xzr, [sp, #3664]
	str	xzr, [sp, #3648]
	str	xzr, [sp, #3640]
	str	xzr, [sp, #3632]
	str	xzr, [sp, #3616]
	str	xzr, [sp, #3608]
	str	xzr, [sp, #3600]
	str	xzr, [sp, #3584]
	str	xzr, [sp, #3576]
	str	xzr, [sp, #3568]
	str	xzr, [sp, #3552]
	str	xzr, [sp, #3544]
	str	xzr, [sp, #3536]
	str	xzr, [sp, #3520]
	str	xzr, [sp, #3512]
	str	xzr, [sp, #3504]
	str	xzr, [sp, #3488]
	str	q0, [sp, #3472]
	str	q0, [sp, #3456]
	str	wzr, [sp, #3448]
	str	wzr, [sp, #3440]
	str	xzr, [sp, #3424]
	str	q0, [sp, #3408]
	str	q0, [sp, #3392]
	str	q0, [sp, #3376]
	str	q0, [sp, #3360]
	str	q0, [sp, #3344]
	str	q0, [sp, #3328]
	str	xzr, [sp, #3312]
	str	q0, [sp, #3296]
	str	q0, [sp, #3280]
	str	q0, [sp, #3264]
	strh	wzr, [sp, #3260]
	str	wzr, [sp, #3256]
	str	xzr, [sp, #4824]
	str	xzr, [sp, #4816]
	stur	xzr, [x27, #39]
	str	xzr, [sp, #4792]
	str	xzr, [sp, #4800]
	str	xzr, [sp, #4784]
	stur	xzr, [x27, #7]
	str	xzr, [sp, #4760]
	str	xzr, [sp, #4768]
	str	xzr, [sp, #4752]
	str	xzr, [sp, #4736]
	str	xzr, [sp, #4728]
	str	xzr, [sp, #4720]
	str	xzr, [sp, #4704]
	str	xzr, [sp, #4696]
	str	xzr, [sp, #4688]
	str	xzr, [sp, #4672]
	str	xzr, [sp, #4664]
	str	xzr, [sp, #4656]
	str	xzr, [sp, #4640]
	str	xzr, [sp, #4632]
	str	xzr, [sp, #4624]
	str	xzr, [sp, #4608]
	str	xzr, [sp, #4600]
	str	xzr, [sp, #4592]
	str	xzr, [sp, #4576]
	str	q0, [sp, #4560]
	str	q0, [sp, #4544]
	str	wzr, [sp, #4536]
	str	wzr, [sp, #4528]
	str	q0, [sp, #2832]
	str	q0, [sp, #2848]
	str	q0, [sp, #2864]
	str	q0, [sp, #2880]
	str	q0, [sp, #2896]
	str	q0, [sp, #2912]
	str	q0, [sp, #2960]
	str	xzr, [sp, #4520]
	str	xzr, [sp, #4512]
	str	xzr, [sp, #4496]
	str	xzr, [sp, #4488]
	str	xzr, [sp, #4480]
	str	xzr, [sp, #4464]
	str	xzr, [sp, #4456]
	str	xzr, [sp, #4448]
	str	xzr, [sp, #4432]
	str	xzr, [sp, #4424]
	str	xzr, [sp, #4416]
	str	xzr, [sp, #4400]
	str	xzr, [sp, #4392]
	str	xzr, [sp, #4384]
	str	xzr, [sp, #4368]
	str	xzr, [sp, #4360]
	str	xzr, [sp, #4352]
	str	xzr, [sp, #4336]
	str	xzr, [sp, #4328]
	str	xzr, [sp, #4320]
	str	xzr, [sp, #4304]
	str	xzr, [sp, #4296]
	str	xzr, [sp, #4288]
	str	xzr, [sp, #4272]
	str	q0, [sp, #4256]
	str	q0, [sp, #4240]
	str	wzr, [sp, #4232]
	str	wzr, [sp, #4224]
	str	xzr, [sp, #5720]
	str	xzr, [sp, #5712]
	stur	xzr, [x23, #135]
	str	xzr, [sp, #5696]
	str	xzr, [sp, #5688]
	str	xzr, [sp, #5680]
	stur	xzr, [x23, #103]
	str	xzr, [sp, #5664]
	str	xzr, [sp, #5656]
	str	xzr, [sp, #5648]
	stur	xzr, [x23, #71]
	str	xzr, [sp, #5632]
	str	xzr, [sp, #5624]
	str	xzr, [sp, #5616]
	stur	xzr, [x23, #39]
	str	xzr, [sp, #5600]
	str	xzr, [sp, #5592]
	str	xzr, [sp, #5584]
	stur	xzr, [x23, #7]
	str	xzr, [sp, #5568]
	str	xzr, [sp, #5560]
	str	xzr, [sp, #5552]
	str	xzr, [sp, #5536]
	str	xzr, [sp, #5528]
	str	xzr, [sp, #5520]
	str	xzr, [sp, #5504]
	str	xzr, [sp, #5496]
	str	xzr, [sp, #5488]
	str	xzr, [sp, #5472]
	str	q0, [sp, #5456]
	str	q0, [sp, #5440]
	str	wzr, [sp, #5432]
	str	wzr, [sp, #5424]
	str	xzr, [sp, #5416]
	str	xzr, [sp, #5408]
	str	xzr, [sp, #5392]
	str	xzr, [sp, #5384]
	str	xzr, [sp, #5376]
	str	xzr, [sp, #5360]
	str	xzr, [sp, #5352]
	str	xzr, [sp, #5344]
	str	xzr, [sp, #5328]
	str	xzr, [sp, #5320]
	str	xzr, [sp, #5312]
	str	xzr, [sp, #5296]
	str	xzr, [sp, #5288]
	str	xzr, [sp, #5280]
	str	xzr, [sp, #5264]
	str	xzr, [sp, #5256]
	str	xzr, [sp, #5248]
	str	xzr, [sp, #5232]
	str	xzr, [sp, #5224]
	str	xzr, [sp, #5216]
	str	xzr, [sp, #5200]
	str	xzr, [sp, #5192]
	str	xzr, [sp, #5184]
	str	xzr, [sp, #5168]
	str	q0, [sp, #5152]
	str	q0, [sp, #5136]
	str	xzr, [sp, #5128]
	str	xzr, [sp, #5120]
	str	xzr, [sp, #5104]
	str	xzr, [sp, #5096]
	str	xzr, [sp, #5088]
	str	xzr, [sp, #5072]
	str	xzr, [sp, #5064]
	str	xzr, [sp, #5056]
	str	xzr, [sp, #5040]
	stur	xzr, [x27, #247]
	str	xzr, [sp, #5032]
	str	xzr, [sp, #5024]
	str	xzr, [sp, #5008]
	stur	xzr, [x27, #215]
	str	xzr, [sp, #5000]
	str	xzr, [sp, #4992]
	str	xzr, [sp, #4976]
	stur	xzr, [x27, #183]
	str	xzr, [sp, #4968]
	str	xzr, [sp, #4960]
	str	xzr, [sp, #4944]
	stur	xzr, [x27, #151]
	str	xzr, [sp, #4936]
	str	xzr, [sp, #4928]
	str	xzr, [sp, #4912]
	stur	xzr, [x27, #119]
	str	xzr, [sp, #4904]
	str	xzr, [sp, #4896]
	str	xzr, [sp, #4880]
	str	q0, [sp, #4864]
	stur	wzr, [x27, #75]
	str	q0, [sp, #4848]
	str	wzr, [sp, #4840]
	stur	xzr, [x8, #135]
	str	xzr, [sp, #6232]
	str	xzr, [sp, #6224]
	str	xzr, [sp, #6208]
	stur	xzr, [x8, #103]
	str	xzr, [sp, #6200]
	str	xzr, [sp, #6192]
	str	xzr, [sp, #6176]
	stur	xzr, [x8, #71]
	str	xzr, [sp, #6168]
	str	xzr, [sp, #6160]
	str	xzr, [sp, #6144]
	stur	xzr, [x8, #39]
	str	xzr, [sp, #6136]
	str	xzr, [sp, #6128]
	str	xzr, [sp, #6112]
	str	xzr, [sp, #6104]
	stur	xzr, [x8, #7]
	str	xzr, [sp, #6096]
	str	xzr, [sp, #6080]
	stur	xzr, [x25, #231]
	str	xzr, [sp, #6072]
	str	xzr, [sp, #6064]
	str	xzr, [sp, #6048]
	stur	xzr, [x25, #199]
	str	xzr, [sp, #6040]
	str	xzr, [sp, #6032]
	str	xzr, [sp, #6016]
	stur	xzr, [x25, #167]
	str	xzr, [sp, #6008]
	str	xzr, [sp, #6000]
	str	xzr, [sp, #5984]
	stur	xzr, [x25, #135]
	str	xzr, [sp, #5976]
	str	xzr, [sp, #5968]
	str	xzr, [sp, #5952]
	stur	xzr, [x25, #103]
	str	xzr, [sp, #5944]
	str	xzr, [sp, #5936]
	str	xzr, [sp, #5920]
	stur	xzr, [x25, #71]
	str	xzr, [sp, #5912]
	str	xzr, [sp, #5904]
	str	xzr, [sp, #5888]
	stur	xzr, [x25, #39]
	str	xzr, [sp, #5880]
	str	xzr, [sp, #5872]
	str	xzr, [sp, #5856]
	stur	xzr, [x25, #7]
	str	xzr, [sp, #5848]
	str	xzr, [sp, #5840]
	str	xzr, [sp, #5824]
	stur	xzr, [x23, #231]
	str	xzr, [sp, #5816]
	str	xzr, [sp, #5808]
	str	xzr, [sp, #5792]
	stur	xzr, [x23, #199]
	str	xzr, [sp, #5784]
	str	xzr, [sp, #5776]
	str	xzr, [sp, #5760]
	stur	xzr, [x23, #167]
	str	xzr, [sp, #5752]
	str	xzr, [sp, #5744]
	str	xzr, [sp, #5728]
	str	q0, [sp, #7712]
	str	q0, [sp, #7728]
	str	q0, [sp, #7744]
	str	q0, [sp, #7760]
	str	q0, [sp, #7776]
	str	q0, [sp, #7792]
	str	q0, [sp, #7696]
	str	q0, [sp, #7680]
	str	q0, [sp, #7664]
	str	q0, [sp, #7648]
	str	q0, [sp, #7632]
	str	q0, [sp, #7616]
	str	q0, [sp, #7600]
	str	q0, [sp, #7584]
	str	q0, [sp, #7568]
	str	q0, [sp, #7552]
	str	q0, [sp, #7536]
	str	q0, [sp, #7520]
	str	q0, [sp, #7504]
	str	q0, [sp, #7488]
	str	q0, [sp, #7472]
	str	q0, [sp, #7456]
	str	q0, [sp, #7440]
	str	q0, [sp, #7424]
	str	q0, [sp, #7408]
	str	q0, [sp, #7392]
	str	q0, [sp, #7376]
	str	q0, [sp, #7360]
	str	q0, [sp, #7344]
	str	q0, [sp, #7328]
	str	q0, [sp, #7312]
	str	q0, [sp, #7296]
	str	q0, [sp, #7280]
	str	q0, [sp, #7264]
	str	q0, [sp, #7248]
	str	q0, [sp, #7232]
	str	q0, [sp, #7216]
	str	q0, [sp, #7200]
	str	q0, [sp, #7184]
	str	q0, [sp, #7168]
	str	q0, [sp, #7152]
	str	q0, [sp, #7136]
	str	q0, [sp, #7120]
	str	q0, [sp, #7104]
	str	q0, [sp, #7088]
	str	q0, [sp, #7072]
	str	q0, [sp, #7056]
	str	q0, [sp, #7040]
	str	q0, [sp, #7024]
	str	q0, [sp, #7008]
	str	q0, [sp, #6992]
	str	q0, [sp, #6976]
	str	q0, [sp, #6960]
	str	q0, [sp, #6944]
	str	q0, [sp, #6928]
	str	q0, [sp, #6912]
	str	q0, [sp, #6896]
	str	q0, [sp, #6880]
	str	q0, [sp, #6864]
	str	q0, [sp, #6848]
	str	q0, [sp, #6832]
	str	q0, [sp, #6816]
	str	q0, [sp, #6800]
	str	q0, [sp, #6784]
	str	q0, [sp, #6768]
	str	q0, [sp, #6752]
	str	q0, [sp, #6736]
	str	q0, [sp, #6720]
	str	q0, [sp, #6704]
	str	q0, [sp, #6688]
	str	q0, [sp, #6672]
	str	q0, [sp, #6656]
	str	q0, [sp, #6640]
	str	q0, [sp, #6624]
	str	q0, [sp, #6608]
	str	q0, [sp, #6592]
	str	q0, [sp, #6576]
	str	q0, [sp, #6560]
	str	q0, [sp, #6544]
	str	q0, [sp, #6528]
	str	q0, [sp, #6512]
	str	q0, [sp, #6496]
	str	q0, [sp, #6480]
	str	q0, [sp, #6464]
	str	q0, [sp, #6448]
	str	q0, [sp, #6432]
	str	q0, [sp, #6416]
	str	q0, [sp, #6400]
	str	q0, [sp, #6384]
	str	q0, [sp, #6368]
	str	q0, [sp, #6352]
	str	q0, [sp, #6336]
	str	q0, [sp, #6320]
	str	q0, [sp, #6304]
	str	q0, [sp, #6288]
	str	q0, [sp, #6272]
	str	q0, [sp, #6256]
	str	q0, [sp, #6240]
	bl	ckd_image_stores_copy_file_700aef77bd01d6bd_.84a472a
	ldrb	w8, [x28, #384]
	cbz	w8, .LBBdb5fcef_8
	str	xzr, [sp, #264]
	mov	x4, xzr
	mov	x13, xzr
	str	xzr, [sp, #304]
	mov	x2, xzr
	mov	x15, xzr
	str	xzr, [sp, #128]
	mov	w22, wzr
	mov	x7, xzr
	str	wzr, [sp, #508]
	mov	x29, xzr
	mov	x11, xzr
	str	xzr, [sp, #96]
	mov	w16, wzr
	mov	x18, xzr
	str	xzr, [sp, #48]
	mov	w10, wzr
	mov	x19, xzr
	stp	xzr, xzr, [sp, #408]
	mov	x17, xzr
	mov	w5, wzr
	stp	xzr, xzr, [sp, #344]
	mov	x14, xzr
	mov	x30, xzr
	stp	xzr, xzr, [sp, #488]
	mov	w9, wzr
	mov	x8, xzr
	stp	xzr, xzr, [sp, #376]
	mov	x3, xzr
	mov	x12, xzr
	str	xzr, [sp, #248]
	mov	w0, wzr
	str	xzr, [sp, #272]
	str	wzr, [sp, #484]
	str	xzr, [sp, #288]
	stp	xzr, xzr, [sp, #432]
	stp	xzr, xzr, [sp, #392]
	str	xzr, [sp, #472]
	str	wzr, [sp, #468]
	stp	xzr, xzr, [sp, #360]
	stp	xzr, xzr, [sp, #328]
	str	xzr, [sp, #456]
	str	wzr, [sp, #452]
	str	xzr, [sp, #320]
	str	xzr, [sp, #424]
	str	wzr, [sp, #240]
	str	xzr, [sp, #536]
	stp	xzr, xzr, [sp, #112]
	str	xzr, [sp, #88]
	str	wzr, [sp, #284]
	str	xzr, [sp, #512]
	str	wzr, [sp, #316]
	str	xzr, [sp, #528]
	str	xzr, [sp, #520]
	str	xzr, [sp, #5976]
	str	xzr, [sp, #5968]
	str	xzr, [sp, #5952]
	stur	xzr, [x25, #135]
	str	xzr, [sp, #5944]
	str	xzr, [sp, #5936]
	str	xzr, [sp, #5920]
	stur	xzr, [x25, #103]
	str	xzr, [sp, #5912]
	str	xzr, [sp, #5904]
	str	xzr, [sp, #5888]
	stur	xzr, [x25, #71]
	str	xzr, [sp, #5880]
	str	xzr, [sp, #5872]
	stur	xzr, [x25, #39]
	str	xzr, [sp, #5856]
	str	xzr, [sp, #5848]
	str	xzr, [sp, #5840]
	stur	xzr, [x25, #7]
	str	xzr, [sp, #5824]
	str	xzr, [sp, #5816]
	str	xzr, [sp, #5808]
	str	xzr, [sp, #5792]
	stur	xzr, [x23, #231]
	str	xzr, [sp, #5784]
	str	xzr, [sp, #5776]
	str	xzr, [sp, #5760]
	stur	xzr, [x23, #199]
	str	xzr, [sp, #5752]
	str	xzr, [sp, #5744]
	str	xzr, [sp, #5728]
	stur	xzr, [x23, #167]
.LBBdb5fcef_6:
	add	x28, sp, #1, lsl #12
	add	x28, x28, #1200
.LBBdb5fcef_7:
	add	x6, sp, #1, lsl #12
	add	x6, x6, #2224
	b	.LBBdb5fcef_31
.LBBdb5fcef_8:
	ldr	x8, [sp, #7728]
	add	x0, sp, #1, lsl #12
	ldrb	w20, [x28, #392]
	ldr	x29, [sp, #7736]
	ldr	x22, [sp, #7744]
	add	x0, x0, #3520
	str	x8, [sp, #536]
	ldrb	w8, [x28, #440]
	add	x1, x26, #88
	ldr	x27, [sp, #7784]
	ldr	x19, [sp, #7792]
	str	w8, [sp, #244]
	ldr	x8, [sp, #7800]
	str	x8, [sp, #256]
	bl	ckd_image_stores_copy_file_700aef77bd01d6bd_.84a472a
	ldrb	w8, [x28, #288]
	cbz	w8, .LBBdb5fcef_16
	add	x28, sp, #1, lsl #12
	add	x6, sp, #1, lsl #12
	ldr	x9, [sp, #256]
	cmp	w20, #1
	add	x28, x28, #1200
	add	x6, x6, #2224
	b.ne	.LBBdb5fcef_15
	cbz	x22, .LBBdb5fcef_12
	ldr	x0, [sp, #536]
	bl	rattle_dealloc
	ldr	x9, [sp, #256]
	add	x6, sp, #1, lsl #12
	add	x6, x6, #2224
.LBBdb5fcef_12:
	ldr	w8, [sp, #244]
	cbz	w8, .LBBdb5fcef_15
	cbz	x9, .LBBdb5fcef_15
	mov	x0, x27
	bl	rattle_dealloc
	add	x6, sp, #1, lsl #12
	add	x6, x6, #2224
.LBBdb5fcef_15:
	add	x27, sp, #1, lsl #12
	str	xzr, [sp, #264]
	mov	x4, xzr
	str	xzr, [sp, #304]
	mov	x13, xzr
	mov	x2, xzr
	str	xzr, [sp, #128]
	mov	x15, xzr
	mov	w22, wzr
	str	wzr, [sp, #508]
	mov	x7, xzr
	mov	x29, xzr
	str	xzr, [sp, #96]
	mov	x11, xzr
	mov	w16, wzr
	str	xzr, [sp, #48]
	mov	x18, xzr
	mov	w10, wzr
	stp	xzr, xzr, [sp, #408]
	mov	x19, xzr
	mov	x17, xzr
	stp	xzr, xzr, [sp, #344]
	mov	w5, wzr
	mov	x14, xzr
	stp	xzr, xzr, [sp, #488]
	mov	x30, xzr
	mov	w9, wzr
	stp	xzr, xzr, [sp, #376]
	mov	x8, xzr
	mov	x3, xzr
	str	xzr, [sp, #248]
	mov	x12, xzr
	mov	w0, wzr
	str	xzr, [sp, #272]
	add	x27, x27, #672
	str	wzr, [sp, #484]
	str	xzr, [sp, #288]
	stp	xzr, xzr, [sp, #432]
	stp	xzr, xzr, [sp, #392]
	str	xzr, [sp, #472]
	str	wzr, [sp, #468]
	stp	xzr, xzr, [sp, #360]
	stp	xzr, xzr, [sp, #328]
	str	xzr, [sp, #456]
	str	wzr, [sp, #452]
	str	xzr, [sp, #320]
	str	xzr, [sp, #424]
	str	wzr, [sp, #240]
	str	xzr, [sp, #536]
	stp	xzr, xzr, [sp, #112]
	str	xzr, [sp, #88]
	str	wzr, [sp, #284]
	str	xzr, [sp, #512]
	str	wzr, [sp, #316]
	str	xzr, [sp, #528]
	str	xzr, [sp, #520]
	str	xzr, [sp, #5976]
	str	xzr, [sp, #5968]
	str	xzr, [sp, #5952]
	stur	xzr, [x25, #135]
	str	xzr, [sp, #5944]
	str	xzr, [sp, #5936]
	str	xzr, [sp, #5920]
	stur	xzr, [x25, #103]
	str	xzr, [sp, #5912]
	str	xzr, [sp, #5904]
	str	xzr, [sp, #5888]
	stur	xzr, [x25, #71]
	str	xzr, [sp, #5880]
	str	xzr, [sp, #5872]
	stur	xzr, [x25, #39]
	str	xzr, [sp, #5856]
	str	xzr, [sp, #5848]
	str	xzr, [sp, #5840]
	stur	xzr, [x25, #7]
	str	xzr, [sp, #5824]
	str	xzr, [sp, #5816]
	str	xzr, [sp, #5808]
	str	xzr, [sp, #5792]
	stur	xzr, [x23, #231]
	str	xzr, [sp, #5784]
	str	xzr, [sp, #5776]
	str	xzr, [sp, #5760]
	stur	xzr, [x23, #199]
	str	xzr, [sp, #5752]
	str	xzr, [sp, #5744]
	str	xzr, [sp, #5728]
	stur	xzr, [x23, #167]
	b	.LBBdb5fcef_31
.LBBdb5fcef_16:
	ldr	x8, [sp, #7632]
	add	x0, sp, #1, lsl #12
	str	x29, [sp, #192]
	str	w20, [sp, #240]
	ldrb	w20, [x28, #296]
	ldr	x23, [sp, #7640]
	stp	x8, x19, [sp, #112]
	add	x0, x0, #3424
	add	x1, x26, #176
	ldrb	w8, [x28, #344]
	ldr	x19, [sp, #7648]
	ldr	x29, [sp, #7696]
	str	w8, [sp, #284]
	ldr	x8, [sp, #7688]
	str	x8, [sp, #512]
	ldr	x8, [sp, #7704]
	str	x8, [sp, #208]
	bl	ckd_image_stores_copy_file_700aef77bd01d6bd_.84a472a
	ldrb	w8, [x28, #192]
	cbz	w8, .LBBdb5fcef_52
	mov	x9, x19
	add	x6, sp, #1, lsl #12
	add	x23, sp, #1, lsl #12
	ldp	w8, w19, [sp, #240]
	ldr	x10, [sp, #256]
	ldr	x0, [sp, #536]
	cmp	w20, #1
	add	x6, x6, #2224
	add	x23, x23, #1472
	b.ne	.LBBdb5fcef_23
	cbz	x9, .LBBdb5fcef_20
	ldr	x0, [sp, #112]
	bl	rattle_dealloc
	ldr	x0, [sp, #536]
	ldr	x10, [sp, #256]
	add	x6, sp, #1, lsl #12
	ldr	w8, [sp, #240]
	add	x6, x6, #2224
.LBBdb5fcef_20:
	ldr	w9, [sp, #284]
	cbz	w9, .LBBdb5fcef_23
	ldr	x9, [sp, #208]
	cbz	x9, .LBBdb5fcef_23
	ldr	x0, [sp, #512]
	bl	rattle_dealloc
	ldr	x0, [sp, #536]
	ldr	x10, [sp, #256]
	add	x6, sp, #1, lsl #12
	ldr	w8, [sp, #240]
	add	x6, x6, #2224
.LBBdb5fcef_23:
	cmp	w8, #1
	b.ne	.LBBdb5fcef_29
	cbz	x22, .LBBdb5fcef_26
	bl	rattle_dealloc
	ldr	x10, [sp, #256]
	add	x6, sp, #1, lsl #12
	add	x6, x6, #2224
.LBBdb5fcef_26:
	cbz	w19, .LBBdb5fcef_29
	cbz	x10, .LBBdb5fcef_29
	mov	x0, x27
	bl	rattle_dealloc
	add	x6, sp, #1, lsl #12
	add	x6, x6, #2224
.LBBdb5fcef_29:
	mov	x4, xzr
	mov	x13, xzr
	mov	x2, xzr
	mov	x15, xzr
	mov	w22, wzr
	mov	x7, xzr
	mov	x29, xzr
	mov	x11, xzr
	mov	w16, wzr
	mov	x18, xzr
	mov	w10, wzr
	mov	x19, xzr
	mov	x17, xzr
	mov	w5, wzr
	mov	x14, xzr
	mov	x30, xzr
	mov	w9, wzr
	mov	x8, xzr
	mov	x3, xzr
	mov	x12, xzr
	mov	w0, wzr
	stp	xzr, xzr, [sp, #264]
	str	xzr, [sp, #304]
	str	xzr, [sp, #128]
	str	wzr, [sp, #508]
	str	xzr, [sp, #96]
	str	xzr, [sp, #48]
	stp	xzr, xzr, [sp, #408]
	stp	xzr, xzr, [sp, #344]
	stp	xzr, xzr, [sp, #488]
	stp	xzr, xzr, [sp, #376]
	str	xzr, [sp, #248]
	str	wzr, [sp, #484]
	str	xzr, [sp, #288]
	stp	xzr, xzr, [sp, #432]
	stp	xzr, xzr, [sp, #392]
	str	xzr, [sp, #472]
	str	wzr, [sp, #468]
	stp	xzr, xzr, [sp, #360]
	stp	xzr, xzr, [sp, #328]
	str	xzr, [sp, #456]
	str	wzr, [sp, #452]
	str	xzr, [sp, #320]
	str	xzr, [sp, #424]
	str	wzr, [sp, #240]
	str	xzr, [sp, #536]
	stp	xzr, xzr, [sp, #112]
	str	xzr, [sp, #88]
	str	wzr, [sp, #284]
	str	xzr, [sp, #512]
	str	wzr, [sp, #316]
	str	xzr, [sp, #528]
	str	xzr, [sp, #520]
	str	xzr, [sp, #5976]
	str	xzr, [sp, #5968]
	str	xzr, [sp, #5952]
	stur	xzr, [x25, #135]
	str	xzr, [sp, #5944]
	str	xzr, [sp, #5936]
	str	xzr, [sp, #5920]
	stur	xzr, [x25, #103]
	str	xzr, [sp, #5912]
	str	xzr, [sp, #5904]
	str	xzr, [sp, #5888]
	stur	xzr, [x25, #71]
	str	xzr, [sp, #5880]
	str	xzr, [sp, #5872]
	stur	xzr, [x25, #39]
	str	xzr, [sp, #5856]
	str	xzr, [sp, #5848]
	str	xzr, [sp, #5840]
	stur	xzr, [x25, #7]
	str	xzr, [sp, #5824]
	str	xzr, [sp, #5816]
	str	xzr, [sp, #5808]
	str	xzr, [sp, #5792]
	stur	xzr, [x23, #231]
	str	xzr, [sp, #5784]
	str	xzr, [sp, #5776]
	str	xzr, [sp, #5760]
	stur	xzr, [x23, #199]
	str	xzr, [sp, #5752]
	str	xzr, [sp, #5744]
	str	xzr, [sp, #5728]
	stur	xzr, [x23, #167]
.LBBdb5fcef_30:
	add	x27, sp, #1, lsl #12
	add	x28, sp, #1, lsl #12
	add	x27, x27, #672
	add	x28, x28, #1200
.LBBdb5fcef_31:
	add	x23, sp, #1, lsl #12
	add	x1, sp, #1, lsl #12
	mov	w20, w10
	add	x23, x23, #2704
	add	x1, x1, #2464
	str	xzr, [sp, #7720]
	str	xzr, [sp, #7712]
	str	xzr, [sp, #6960]
	stur	xzr, [x23, #167]
	str	xzr, [sp, #7624]
	str	xzr, [sp, #7616]
	stur	xzr, [x23, #87]
	str	xzr, [sp, #6880]
	str	xzr, [sp, #7528]
	str	xzr, [sp, #7520]
	stur	xzr, [x23, #7]
	str	xzr, [sp, #6800]
	str	xzr, [sp, #7432]
	str	xzr, [sp, #7424]
	stur	xzr, [x1, #167]
	str	xzr, [sp, #6720]
	str	xzr, [sp, #7336]
	str	xzr, [sp, #7328]
	stur	xzr, [x1, #87]
	str	xzr, [sp, #6640]
	str	xzr, [sp, #7240]
	str	xzr, [sp, #7232]
	stur	xzr, [x1, #7]
	str	xzr, [sp, #6560]
	str	xzr, [sp, #7144]
	str	xzr, [sp, #7136]
	stur	xzr, [x6, #167]
	str	xzr, [sp, #6480]
	str	xzr, [sp, #7048]
	str	xzr, [sp, #7040]
	stur	xzr, [x6, #87]
	str	xzr, [sp, #6400]
	cbz	w10, .LBBdb5fcef_33
	mov	w10, w22
	mov	x22, x18
	mov	x18, x14
	mov	x14, x2
	str	w10, [sp, #104]
	mov	x2, x30
	mov	w30, w9
	ldr	q0, [sp, #5968]
	ldr	x9, [sp, #5952]
	ldur	x10, [x25, #135]
	str	x4, [sp, #296]
	add	x4, sp, #1, lsl #12
	str	q0, [sp, #7712]
	ldr	q0, [sp, #5936]
	add	x4, x4, #1472
	str	x9, [sp, #6960]
	ldr	x9, [sp, #5920]
	stur	x10, [x23, #167]
	ldur	x10, [x25, #103]
	str	q0, [sp, #7616]
	ldr	q0, [sp, #5904]
	str	x9, [sp, #6880]
	ldur	x9, [x25, #71]
	stur	x10, [x23, #87]
	ldr	x10, [sp, #5888]
	str	q0, [sp, #7520]
	ldr	q0, [sp, #5872]
	stur	x9, [x23, #7]
	ldur	x9, [x25, #39]
	str	x10, [sp, #6800]
	ldr	x10, [sp, #5856]
	str	q0, [sp, #7424]
	ldr	q0, [sp, #5840]
	stur	x9, [x1, #167]
	ldur	x9, [x25, #7]
	str	x10, [sp, #6720]
	ldr	x10, [sp, #5824]
	str	q0, [sp, #7328]
	ldr	q0, [sp, #5808]
	stur	x9, [x1, #87]
	ldur	x9, [x4, #231]
	str	x10, [sp, #6640]
	ldr	x10, [sp, #5792]
	str	q0, [sp, #7232]
	ldr	q0, [sp, #5776]
	stur	x9, [x1, #7]
	ldur	x9, [x4, #199]
	str	x10, [sp, #6560]
	ldr	x10, [sp, #5760]
	stp	x15, x13, [sp, #72]
	ldr	x13, [sp, #264]
	ldr	x15, [sp, #304]
	str	q0, [sp, #7136]
	ldr	q0, [sp, #5744]
	stur	x9, [x6, #167]
	ldur	x9, [x4, #167]
	str	x10, [sp, #6480]
	ldr	x10, [sp, #5728]
	str	q0, [sp, #7040]
	stur	x9, [x6, #87]
	str	x10, [sp, #6400]
	b	.LBBdb5fcef_34
.LBBdb5fcef_33:
	mov	x13, xzr
	mov	x15, xzr
	str	xzr, [sp, #128]
	str	wzr, [sp, #508]
	mov	x14, xzr
	mov	x7, xzr
	str	xzr, [sp, #96]
	mov	x29, xzr
	mov	x11, xzr
	str	xzr, [sp, #296]
	mov	w16, wzr
	mov	x22, xzr
	stp	xzr, xzr, [sp, #72]
	mov	x19, xzr
	mov	x17, xzr
	str	xzr, [sp, #48]
	mov	w5, wzr
	mov	x18, xzr
	str	wzr, [sp, #104]
	mov	x2, xzr
	mov	w30, wzr
	stp	xzr, xzr, [sp, #408]
	mov	x8, xzr
	mov	x3, xzr
	stp	xzr, xzr, [sp, #344]
	mov	x12, xzr
	mov	w0, wzr
	stp	xzr, xzr, [sp, #488]
	stp	xzr, xzr, [sp, #376]
	str	xzr, [sp, #248]
	str	xzr, [sp, #272]
	str	wzr, [sp, #484]
	str	xzr, [sp, #288]
	stp	xzr, xzr, [sp, #432]
	stp	xzr, xzr, [sp, #392]
	str	xzr, [sp, #472]
	str	wzr, [sp, #468]
	stp	xzr, xzr, [sp, #360]
	stp	xzr, xzr, [sp, #328]
	str	xzr, [sp, #456]
	str	wzr, [sp, #452]
	str	xzr, [sp, #320]
	str	xzr, [sp, #424]
	str	wzr, [sp, #240]
	str	xzr, [sp, #536]
	stp	xzr, xzr, [sp, #112]
	str	xzr, [sp, #88]
	str	wzr, [sp, #284]
	str	xzr, [sp, #512]
	str	wzr, [sp, #316]
	str	xzr, [sp, #528]
	str	xzr, [sp, #520]
.LBBdb5fcef_34:
	ldr	q0, [sp, #7712]
	ldr	x9, [sp, #6960]
	add	x4, sp, #1, lsl #12
	ldur	x10, [x23, #167]
	add	x4, x4, #1984
	str	q0, [sp, #6224]
	ldr	q0, [sp, #7616]
	str	x9, [sp, #6208]
	ldr	x9, [sp, #6880]
	stur	x10, [x4, #135]
	ldur	x10, [x23, #87]
	str	q0, [sp, #6192]
	ldr	q0, [sp, #7520]
	str	x9, [sp, #6176]
	ldur	x9, [x23, #7]
	stur	x10, [x4, #103]
	ldr	x10, [sp, #6800]
	str	q0, [sp, #6160]
	ldr	q0, [sp, #7424]
	stur	x9, [x4, #71]
	ldur	x9, [x1, #167]
	str	x10, [sp, #6144]
	ldr	x10, [sp, #6720]
	str	q0, [sp, #6128]
	ldr	q0, [sp, #7328]
	stur	x9, [x4, #39]
	ldur	x9, [x1, #87]
	str	x10, [sp, #6112]
	ldr	x10, [sp, #6640]
	str	q0, [sp, #6096]
	ldr	q0, [sp, #7232]
	stur	x9, [x4, #7]
	ldur	x9, [x1, #7]
	str	x10, [sp, #6080]
	ldr	x10, [sp, #6560]
	str	q0, [sp, #6064]
	ldr	q0, [sp, #7136]
	stur	x9, [x25, #231]
	ldur	x9, [x6, #167]
	str	x10, [sp, #6048]
	ldr	x10, [sp, #6480]
	str	q0, [sp, #6032]
	ldr	q0, [sp, #7040]
	stur	x9, [x25, #199]
	ldur	x9, [x6, #87]
	str	x10, [sp, #6016]
	ldr	x10, [sp, #6400]
	str	q0, [sp, #6000]
	stur	x9, [x25, #167]
	str	x10, [sp, #5984]
	cbz	w20, .LBBdb5fcef_36
	ldr	q0, [sp, #6224]
	ldr	x9, [sp, #6208]
	mov	x1, x11
	ldur	x10, [x4, #135]
	add	x11, sp, #1, lsl #12
	add	x6, sp, #1, lsl #12
	str	q0, [sp, #5120]
	ldr	q0, [sp, #6192]
	add	x11, x11, #944
	str	x9, [sp, #5104]
	ldr	x9, [sp, #6176]
	add	x6, x6, #2224
	stur	x10, [x11, #71]
	ldur	x10, [x4, #103]
	str	q0, [sp, #5088]
	ldr	q0, [sp, #6160]
	str	x9, [sp, #5072]
	ldur	x9, [x4, #71]
	stur	x10, [x11, #39]
	ldr	x10, [sp, #6144]
	str	q0, [sp, #5056]
	ldr	q0, [sp, #6128]
	stur	x9, [x11, #7]
	ldur	x9, [x4, #39]
	ldr	x11, [sp, #5984]
	str	x10, [sp, #5040]
	ldr	x10, [sp, #6112]
	str	q0, [sp, #5024]
	ldr	q0, [sp, #6096]
	stur	x9, [x27, #247]
	ldur	x9, [x4, #7]
	mov	x4, x22
	str	x10, [sp, #5008]
	ldr	x10, [sp, #6080]
	mov	w22, w0
	str	q0, [sp, #4992]
	ldr	q0, [sp, #6064]
	stur	x9, [x27, #215]
	ldur	x9, [x25, #231]
	str	x10, [sp, #4976]
	ldr	x10, [sp, #6048]
	str	q0, [sp, #4960]
	ldr	q0, [sp, #6032]
	stur	x9, [x27, #183]
	ldur	x9, [x25, #199]
	str	x10, [sp, #4944]
	ldr	x10, [sp, #6016]
	str	q0, [sp, #4928]
	ldr	q0, [sp, #6000]
	stur	x9, [x27, #151]
	ldur	x9, [x25, #167]
	add	x25, sp, #1, lsl #12
	str	x10, [sp, #4912]
	add	x10, x26, #712
	add	x25, x25, #944
	str	q0, [sp, #4896]
	ldp	q1, q0, [x10]
	stur	x9, [x27, #119]
	ldr	x9, [x26, #704]
	mov	w10, w20
	str	x11, [sp, #4880]
	mov	x11, x1
	mov	x1, x29
	str	q0, [sp, #4864]
	str	q1, [sp, #4848]
	b	.LBBdb5fcef_37
.LBBdb5fcef_36:
	movi	v0.2d, #0000000000000000
	add	x25, sp, #1, lsl #12
	mov	w10, w20
	mov	x13, xzr
	mov	x15, xzr
	mov	x14, xzr
	mov	x7, xzr
	mov	x1, xzr
	mov	x11, xzr
	mov	w16, wzr
	mov	x4, xzr
	mov	x19, xzr
	mov	x17, xzr
	mov	w5, wzr
	mov	x18, xzr
	mov	x2, xzr
	mov	w30, wzr
	mov	x8, xzr
	mov	x3, xzr
	mov	x12, xzr
	mov	w22, wzr
	mov	x9, xzr
	add	x25, x25, #944
	str	xzr, [sp, #128]
	str	wzr, [sp, #508]
	str	xzr, [sp, #96]
	stp	xzr, xzr, [sp, #288]
	stp	xzr, xzr, [sp, #72]
	str	xzr, [sp, #48]
	str	wzr, [sp, #104]
	stp	xzr, xzr, [sp, #408]
	stp	xzr, xzr, [sp, #344]
	stp	xzr, xzr, [sp, #488]
	stp	xzr, xzr, [sp, #376]
	str	xzr, [sp, #248]
	str	xzr, [sp, #272]
	str	wzr, [sp, #484]
	stp	xzr, xzr, [sp, #432]
	stp	xzr, xzr, [sp, #392]
	str	xzr, [sp, #472]
	str	wzr, [sp, #468]
	stp	xzr, xzr, [sp, #360]
	stp	xzr, xzr, [sp, #328]
	str	xzr, [sp, #456]
	str	wzr, [sp, #452]
	str	xzr, [sp, #320]
	str	xzr, [sp, #424]
	str	wzr, [sp, #240]
	str	xzr, [sp, #536]
	stp	xzr, xzr, [sp, #112]
	str	xzr, [sp, #88]
	str	wzr, [sp, #284]
	str	xzr, [sp, #512]
	str	wzr, [sp, #316]
	str	xzr, [sp, #528]
	str	xzr, [sp, #520]
	str	xzr, [sp, #4936]
	str	xzr, [sp, #4928]
	str	xzr, [sp, #4912]
	stur	xzr, [x27, #151]
	str	xzr, [sp, #4904]
	str	xzr, [sp, #4896]
	str	xzr, [sp, #4880]
	stur	xzr, [x27, #119]
	str	q0, [sp, #4848]
	str	q0, [sp, #4864]
	str	xzr, [sp, #5128]
	str	xzr, [sp, #5120]
	str	xzr, [sp, #5104]
	stur	xzr, [x25, #71]
	str	xzr, [sp, #5096]
	str	xzr, [sp, #5088]
	str	xzr, [sp, #5072]
	stur	xzr, [x25, #39]
	str	xzr, [sp, #5064]
	str	xzr, [sp, #5056]
	str	xzr, [sp, #5040]
	stur	xzr, [x25, #7]
	str	xzr, [sp, #5032]
	str	xzr, [sp, #5024]
	str	xzr, [sp, #5008]
	stur	xzr, [x27, #247]
	str	xzr, [sp, #5000]
	str	xzr, [sp, #4992]
	str	xzr, [sp, #4976]
	stur	xzr, [x27, #215]
	str	xzr, [sp, #4968]
	str	xzr, [sp, #4960]
	str	xzr, [sp, #4944]
	stur	xzr, [x27, #183]
.LBBdb5fcef_37:
	movi	v0.2d, #0000000000000000
	add	x23, sp, #1, lsl #12
	add	x29, sp, #1, lsl #12
	add	x23, x23, #2704
	add	x29, x29, #2464
	str	xzr, [sp, #7624]
	str	xzr, [sp, #7616]
	str	xzr, [sp, #6880]
	stur	xzr, [x23, #87]
	str	xzr, [sp, #7528]
	str	xzr, [sp, #7520]
	stur	xzr, [x23, #7]
	str	xzr, [sp, #6800]
	str	xzr, [sp, #7432]
	str	xzr, [sp, #7424]
	stur	xzr, [x29, #167]
	str	xzr, [sp, #6720]
	str	xzr, [sp, #7336]
	str	xzr, [sp, #7328]
	stur	xzr, [x29, #87]
	str	xzr, [sp, #6640]
	str	xzr, [sp, #7240]
	str	xzr, [sp, #7232]
	stur	xzr, [x29, #7]
	str	xzr, [sp, #6560]
	str	xzr, [sp, #7144]
	str	xzr, [sp, #7136]
	stur	xzr, [x6, #167]
	str	xzr, [sp, #6480]
	str	xzr, [sp, #7048]
	str	xzr, [sp, #7040]
	stur	xzr, [x6, #87]
	str	xzr, [sp, #6400]
	str	xzr, [sp, #6968]
	str	xzr, [sp, #6960]
	stur	xzr, [x6, #7]
	str	xzr, [sp, #6320]
	str	q0, [sp, #7728]
	str	q0, [sp, #7712]
	cbz	w10, .LBBdb5fcef_39
	ldr	q0, [sp, #5120]
	str	x9, [sp, #232]
	ldr	x9, [sp, #5104]
	ldur	x10, [x25, #71]
	str	w30, [sp, #44]
	ldr	q1, [sp, #4848]
	str	q0, [sp, #7616]
	ldr	q0, [sp, #5088]
	ldr	x0, [sp, #536]
	str	x9, [sp, #6880]
	ldr	x9, [sp, #5072]
	ldr	x30, [sp, #120]
	stur	x10, [x23, #87]
	ldur	x10, [x25, #39]
	str	q0, [sp, #7520]
	ldr	q0, [sp, #5056]
	str	x9, [sp, #6800]
	ldur	x9, [x25, #7]
	stur	x10, [x23, #7]
	ldr	x10, [sp, #5040]
	str	q0, [sp, #7424]
	ldr	q0, [sp, #5024]
	stur	x9, [x29, #167]
	ldur	x9, [x27, #247]
	str	x10, [sp, #6720]
	ldr	x10, [sp, #5008]
	str	q0, [sp, #7328]
	ldr	q0, [sp, #4992]
	stur	x9, [x29, #87]
	ldur	x9, [x27, #215]
	str	x10, [sp, #6640]
	ldr	x10, [sp, #4976]
	str	q0, [sp, #7232]
	ldr	q0, [sp, #4960]
	stur	x9, [x29, #7]
	ldur	x9, [x27, #183]
	str	x10, [sp, #6560]
	ldr	x10, [sp, #4944]
	str	q0, [sp, #7136]
	ldr	q0, [sp, #4928]
	stur	x9, [x6, #167]
	ldur	x9, [x27, #151]
	str	x10, [sp, #6480]
	ldr	x10, [sp, #4912]
	str	q0, [sp, #7040]
	ldr	q0, [sp, #4896]
	stur	x9, [x6, #87]
	ldur	x9, [x27, #119]
	str	x10, [sp, #6400]
	ldr	x10, [sp, #4880]
	str	q0, [sp, #6960]
	ldr	q0, [sp, #4864]
	stur	x9, [x6, #7]
	str	x10, [sp, #6320]
	str	q0, [sp, #7728]
	str	q1, [sp, #7712]
	b	.LBBdb5fcef_40
.LBBdb5fcef_39:
	str	wzr, [sp, #240]
	mov	x0, xzr
	mov	x19, xzr
	mov	x17, xzr
	mov	w5, wzr
	mov	x18, xzr
	mov	x30, xzr
	mov	x2, xzr
	str	wzr, [sp, #44]
	str	xzr, [sp, #112]
	mov	x8, xzr
	mov	x3, xzr
	stp	xzr, xzr, [sp, #88]
	mov	x12, xzr
	mov	w22, wzr
	str	wzr, [sp, #284]
	mov	x13, xzr
	mov	x15, xzr
	str	xzr, [sp, #512]
	mov	x14, xzr
	mov	x7, xzr
	str	xzr, [sp, #128]
	mov	x1, xzr
	mov	x11, xzr
	str	wzr, [sp, #508]
	mov	w16, wzr
	mov	x4, xzr
	stp	xzr, xzr, [sp, #288]
	stp	xzr, xzr, [sp, #72]
	str	wzr, [sp, #316]
	str	xzr, [sp, #48]
	str	wzr, [sp, #104]
	str	xzr, [sp, #528]
	stp	xzr, xzr, [sp, #408]
	stp	xzr, xzr, [sp, #344]
	stp	xzr, xzr, [sp, #488]
	stp	xzr, xzr, [sp, #376]
	str	xzr, [sp, #248]
	str	xzr, [sp, #272]
	str	wzr, [sp, #484]
	stp	xzr, xzr, [sp, #432]
	str	xzr, [sp, #520]
	stp	xzr, xzr, [sp, #392]
	str	xzr, [sp, #472]
	str	wzr, [sp, #468]
	stp	xzr, xzr, [sp, #360]
	stp	xzr, xzr, [sp, #328]
	str	xzr, [sp, #456]
	str	wzr, [sp, #452]
	str	xzr, [sp, #320]
	str	xzr, [sp, #424]
	str	xzr, [sp, #232]
.LBBdb5fcef_40:
	ldr	q0, [sp, #7616]
	ldr	x9, [sp, #6880]
	ldur	x10, [x23, #87]
	ldr	q1, [sp, #7712]
	str	q0, [sp, #5408]
	ldr	q0, [sp, #7520]
	str	x9, [sp, #5392]
	ldr	x9, [sp, #6800]
	stur	x10, [x28, #103]
	ldur	x10, [x23, #7]
	str	q0, [sp, #5376]
	ldr	q0, [sp, #7424]
	str	x9, [sp, #5360]
	ldur	x9, [x29, #167]
	stur	x10, [x28, #71]
	ldr	x10, [sp, #6720]
	str	q0, [sp, #5344]
	ldr	q0, [sp, #7328]
	stur	x9, [x28, #39]
	ldur	x9, [x29, #87]
	str	x10, [sp, #5328]
	ldr	x10, [sp, #6640]
	str	q0, [sp, #5312]
	ldr	q0, [sp, #7232]
	stur	x9, [x28, #7]
	ldur	x9, [x29, #7]
	str	x10, [sp, #5296]
	ldr	x10, [sp, #6560]
	str	q0, [sp, #5280]
	ldr	q0, [sp, #7136]
	stur	x9, [x25, #231]
	ldur	x9, [x6, #167]
	str	x10, [sp, #5264]
	ldr	x10, [sp, #6480]
	str	q0, [sp, #5248]
	ldr	q0, [sp, #7040]
	stur	x9, [x25, #199]
	ldur	x9, [x6, #87]
	str	x10, [sp, #5232]
	ldr	x10, [sp, #6400]
	str	q0, [sp, #5216]
	ldr	q0, [sp, #6960]
	stur	x9, [x25, #167]
	ldur	x9, [x6, #7]
	str	x10, [sp, #5200]
	ldr	x10, [sp, #6320]
	str	q0, [sp, #5184]
	ldr	q0, [sp, #7728]
	stur	x9, [x25, #135]
	str	x10, [sp, #5168]
	str	q0, [sp, #5152]
	str	q1, [sp, #5136]
	cbz	w20, .LBBdb5fcef_49
	str	x8, [sp, #16]
	mov	x8, x24
	ldr	x27, [x26, #752]
	str	x15, [sp, #304]
	ldp	x15, x24, [sp, #72]
	stp	x12, x4, [sp, #208]
	mov	x20, x13
	ldr	x12, [sp, #112]
	stp	x11, x14, [sp, #56]
	ldr	x14, [sp, #96]
	ldr	x28, [x26, #744]
	mov	x29, x15
	stp	w16, w22, [sp, #224]
	mov	x22, x18
	stp	x19, x17, [sp, #192]
	mov	x23, x14
	mov	x19, x12
	ldr	x17, [sp, #128]
	ldr	w16, [sp, #284]
	stp	x3, x7, [sp, #176]
	str	x30, [sp, #120]
	str	x2, [sp, #256]
	str	x8, [sp, #24]
	str	w5, [sp, #244]
	str	x0, [sp, #536]
	cbz	x27, .LBBdb5fcef_50
	ldr	w10, [sp, #240]
	tbnz	x27, #63, .LBBdb5fcef_77
	mov	x0, x27
	mov	x21, x26
	mov	x26, x27
	mov	x27, x1
	mov	w1, #1
	mov	w25, w10
	bl	rattle_alloc
	ldr	x11, [sp, #56]
	ldr	w16, [sp, #284]
	mov	x12, x19
	ldr	x17, [sp, #128]
	mov	x15, x29
	mov	w10, w25
	mov	x14, x23
	mov	x13, x20
	mov	x25, x1
	mov	x1, x27
	mov	x27, x26
	mov	x26, x21
	tbz	w0, #0, .LBBdb5fcef_77
	sub	x9, x25, x28
	str	w10, [sp, #240]
	cmp	x9, x27
	str	x1, [sp, #8]
	b.hs	.LBBdb5fcef_51
.LBBdb5fcef_45:
	cmp	x27, #8
	mov	x8, xzr
	b.lo	.LBBdb5fcef_65
	cmp	x9, #32
	b.lo	.LBBdb5fcef_65
	cmp	x27, #32
	b.hs	.LBBdb5fcef_58
	mov	x8, xzr
	b	.LBBdb5fcef_62
.LBBdb5fcef_49:
	movi	v0.2d, #0000000000000000
	add	x10, sp, #1, lsl #12
	add	x20, sp, #1, lsl #12
	add	x10, x10, #128
	str	xzr, [sp, #4464]
	mov	w8, wzr
	stur	xzr, [x10, #247]
	mov	x29, xzr
	mov	w11, wzr
	str	xzr, [sp, #4432]
	mov	x30, xzr
	mov	x13, xzr
	stur	xzr, [x10, #215]
	mov	x4, xzr
	mov	x3, xzr
	str	xzr, [sp, #4400]
	mov	x7, xzr
	mov	x22, xzr
	stur	xzr, [x10, #183]
	mov	w16, wzr
	mov	x23, xzr
	str	xzr, [sp, #4368]
	mov	x12, xzr
	mov	x1, xzr
	stur	xzr, [x10, #151]
	mov	w19, wzr
	mov	x15, xzr
	stur	xzr, [x10, #119]
	mov	x5, xzr
	add	x20, x20, #400
	str	xzr, [sp, #4304]
	stur	xzr, [x10, #87]
	str	xzr, [sp, #4272]
	stur	xzr, [x10, #55]
	stur	wzr, [x10, #11]
	stur	wzr, [x10, #3]
	add	x10, sp, #1, lsl #12
	add	x10, x10, #1984
	stp	xzr, xzr, [sp, #240]
	str	xzr, [sp, #536]
	stp	xzr, xzr, [sp, #192]
	str	xzr, [sp, #152]
	stp	xzr, xzr, [sp, #256]
	str	wzr, [sp, #284]
	str	xzr, [sp, #512]
	stp	xzr, xzr, [sp, #176]
	str	xzr, [sp, #208]
	stp	xzr, xzr, [sp, #216]
	stp	xzr, xzr, [sp, #296]
	str	wzr, [sp, #508]
	str	xzr, [sp, #56]
	str	xzr, [sp, #528]
	stp	xzr, xzr, [sp, #408]
	stp	xzr, xzr, [sp, #344]
	stp	xzr, xzr, [sp, #488]
	stp	xzr, xzr, [sp, #376]
	str	wzr, [sp, #484]
	str	xzr, [sp, #288]
	stp	xzr, xzr, [sp, #432]
	str	xzr, [sp, #520]
	stp	xzr, xzr, [sp, #392]
	str	xzr, [sp, #472]
	str	wzr, [sp, #468]
	stp	xzr, xzr, [sp, #360]
	stp	xzr, xzr, [sp, #328]
	str	xzr, [sp, #456]
	str	wzr, [sp, #452]
	str	xzr, [sp, #320]
	str	xzr, [sp, #424]
	str	xzr, [sp, #232]
	stp	xzr, xzr, [sp, #160]
	stp	xzr, xzr, [sp, #136]
	str	xzr, [sp, #128]
	str	wzr, [sp, #120]
	stp	xzr, xzr, [sp, #104]
	str	wzr, [sp, #96]
	str	wzr, [sp, #88]
	str	wzr, [sp, #80]
	str	wzr, [sp, #72]
	str	wzr, [sp, #64]
	str	q0, [sp, #4512]
	str	xzr, [sp, #4496]
	stur	xzr, [x20, #7]
	str	q0, [sp, #4480]
	str	q0, [sp, #4448]
	str	q0, [sp, #4416]
	str	q0, [sp, #4384]
	str	q0, [sp, #4352]
	str	xzr, [sp, #4336]
	str	q0, [sp, #4320]
	str	q0, [sp, #4288]
	str	q0, [sp, #4256]
	str	q0, [sp, #4240]
	str	wzr, [sp, #4232]
	str	wzr, [sp, #4224]
	b	.LBBdb5fcef_129
.LBBdb5fcef_50:
	add	x25, sp, #1, lsl #12
	ldr	w10, [sp, #240]
	add	x25, x25, #3724
	sub	x9, x25, x28
	str	w10, [sp, #240]
	cmp	x9, x27
	str	x1, [sp, #8]
	b.lo	.LBBdb5fcef_45
.LBBdb5fcef_51:
	mov	x0, x25
	mov	x1, x28
	mov	x2, x27
	bl	memmove
	b	.LBBdb5fcef_67
.LBBdb5fcef_52:
	add	x0, sp, #1, lsl #12
	str	w20, [sp, #44]
	ldrb	w20, [x28, #200]
	add	x0, x0, #3328
	add	x1, x26, #264
	str	x19, [sp, #16]
	str	x23, [sp, #88]
	bl	ckd_image_stores_copy_file_700aef77bd01d6bd_.84a472a
	ldrb	w8, [x28, #96]
	cbz	w8, .LBBdb5fcef_148
	ldr	x19, [sp, #16]
	mov	x28, x24
	cmp	w20, #1
	b.eq	.LBBdb5fcef_155
	ldr	w8, [sp, #44]
	ldr	w24, [sp, #244]
	ldr	x20, [sp, #112]
	ldr	w9, [sp, #284]
	cmp	w8, #1
	b.eq	.LBBdb5fcef_156
.LBBdb5fcef_55:
	ldr	w8, [sp, #240]
	ldr	x10, [sp, #256]
	cmp	w8, #1
	ldr	x8, [sp, #536]
	b.ne	.LBBdb5fcef_57
.LBBdb5fcef_56:
	add	x11, sp, #1, lsl #12
	str	x8, [sp, #6880]
	ldr	x8, [sp, #192]
	add	x11, x11, #3616
	add	x9, sp, #1, lsl #12
	add	x0, sp, #1, lsl #12
	str	x8, [sp, #6888]
	ldur	x8, [x11, #57]
	add	x9, x9, #2704
	ldur	q0, [x11, #40]
	add	x0, x0, #2784
	strb	w24, [x9, #120]
	stur	x8, [x9, #121]
	ldur	x8, [x11, #64]
	stur	q0, [x9, #104]
	str	x8, [sp, #6928]
	ldr	x8, [sp, #120]
	str	x22, [sp, #6896]
	str	x27, [sp, #6936]
	str	x8, [sp, #6944]
	str	x10, [sp, #6952]
	bl	lone_drive_c_dasd_files_volume_file_VolumeFile_Destruct_drop.6038f02
.LBBdb5fcef_57:
	add	x10, sp, #1, lsl #12
	str	xzr, [sp, #264]
	mov	x4, xzr
	add	x10, x10, #1472
	str	xzr, [sp, #304]
	mov	x13, xzr
	str	xzr, [sp, #128]
	mov	x2, xzr
	mov	x15, xzr
	str	wzr, [sp, #508]
	mov	w22, wzr
	mov	x7, xzr
	str	xzr, [sp, #96]
	mov	x29, xzr
	mov	x11, xzr
	str	xzr, [sp, #48]
	mov	w16, wzr
	mov	x19, xzr
	stp	xzr, xzr, [sp, #408]
	mov	x17, xzr
	mov	w5, wzr
	stp	xzr, xzr, [sp, #344]
	mov	x30, xzr
	mov	w9, wzr
	stp	xzr, xzr, [sp, #488]
	mov	x8, xzr
	mov	x3, xzr
	stp	xzr, xzr, [sp, #376]
	mov	x12, xzr
	mov	w0, wzr
	str	xzr, [sp, #248]
	mov	x14, xzr
	mov	x18, xzr
	str	xzr, [sp, #272]
	str	wzr, [sp, #484]
	str	xzr, [sp, #288]
	stp	xzr, xzr, [sp, #432]
	stp	xzr, xzr, [sp, #392]
	str	xzr, [sp, #472]
	str	wzr, [sp, #468]
	stp	xzr, xzr, [sp, #360]
	stp	xzr, xzr, [sp, #328]
	str	xzr, [sp, #456]
	str	wzr, [sp, #452]
	str	xzr, [sp, #320]
	str	xzr, [sp, #424]
	str	wzr, [sp, #240]
	str	xzr, [sp, #536]
	stp	xzr, xzr, [sp, #112]
	str	xzr, [sp, #88]
	str	wzr, [sp, #284]
	str	xzr, [sp, #512]
	str	wzr, [sp, #316]
	str	xzr, [sp, #528]
	str	xzr, [sp, #520]
	str	xzr, [sp, #5976]
	str	xzr, [sp, #5968]
	str	xzr, [sp, #5952]
	stur	xzr, [x25, #135]
	str	xzr, [sp, #5944]
	str	xzr, [sp, #5936]
	str	xzr, [sp, #5920]
	stur	xzr, [x25, #103]
	str	xzr, [sp, #5912]
	str	xzr, [sp, #5904]
	str	xzr, [sp, #5888]
	stur	xzr, [x25, #71]
	str	xzr, [sp, #5880]
	str	xzr, [sp, #5872]
	stur	xzr, [x25, #39]
	str	xzr, [sp, #5856]
	str	xzr, [sp, #5848]
	str	xzr, [sp, #5840]
	stur	xzr, [x25, #7]
	str	xzr, [sp, #5824]
	str	xzr, [sp, #5816]
	str	xzr, [sp, #5808]
	str	xzr, [sp, #5792]
	stur	xzr, [x10, #231]
	str	xzr, [sp, #5784]
	str	xzr, [sp, #5776]
	str	xzr, [sp, #5760]
	stur	xzr, [x10, #199]
	str	xzr, [sp, #5752]
	str	xzr, [sp, #5744]
	str	xzr, [sp, #5728]
	stur	xzr, [x10, #167]
	mov	w10, wzr
	b	.LBBdb5fcef_165
.LBBdb5fcef_58:
	and	x9, x27, #0x18
	and	x8, x27, #0xffffffffffffffe0
	add	x10, x28, #16
	add	x11, x25, #16
	and	x12, x27, #0xffffffffffffffe0
.LBBdb5fcef_59:
	ldp	q0, q1, [x10, #-16]
	subs	x12, x12, #32
	add	x10, x10, #32
	stp	q0, q1, [x11, #-16]
	add	x11, x11, #32
	b.ne	.LBBdb5fcef_59
	cmp	x27, x8
	b.eq	.LBBdb5fcef_67
	cbz	x9, .LBBdb5fcef_65
.LBBdb5fcef_62:
	mov	x11, x8
	and	x8, x27, #0xfffffffffffffff8
	sub	x9, x11, x8
	add	x10, x28, x11
	add	x11, x25, x11
.LBBdb5fcef_63:
	ldr	d0, [x10], #8
	adds	x9, x9, #8
	str	d0, [x11], #8
	b.ne	.LBBdb5fcef_63
	cmp	x27, x8
	b.eq	.LBBdb5fcef_67
.LBBdb5fcef_65:
	sub	x9, x27, x8
	add	x10, x28, x8
	add	x8, x25, x8
.LBBdb5fcef_66:
	ldrb	w11, [x10], #1
	subs	x9, x9, #1
	strb	w11, [x8], #1
	b.ne	.LBBdb5fcef_66
.LBBdb5fcef_67:
	str	x25, [sp, #168]
	ldr	x9, [x26, #776]
	ldr	x25, [x26, #768]
	mov	x28, x26
	cbz	x9, .LBBdb5fcef_126
	lsr	x8, x9, #61
	cbnz	x8, .LBBdb5fcef_75
	lsl	x26, x9, #2
	mov	w1, #4
	str	x9, [sp, #160]
	mov	x0, x26
	bl	rattle_alloc
	ldr	x14, [sp, #160]
	tbz	w0, #0, .LBBdb5fcef_75
	sub	x8, x1, x25
	str	x27, [sp, #144]
	cmp	x8, x26
	b.hs	.LBBdb5fcef_127
	ldr	x13, [sp, #88]
	ldr	x15, [sp, #8]
	add	x6, sp, #1, lsl #12
	ldr	w16, [sp, #316]
	ldr	x5, [sp, #272]
	cmp	x14, #8
	mov	x8, xzr
	add	x6, x6, #2224
	str	x22, [sp, #152]
	str	x20, [sp, #264]
	str	x1, [sp, #136]
	b.lo	.LBBdb5fcef_169
	ldp	x4, x12, [sp, #16]
	sub	x9, x1, x25
	ldp	x17, x3, [sp, #120]
	mov	x26, x28
	add	x27, sp, #1, lsl #12
	add	x20, sp, #1, lsl #12
	mov	x7, x23
	ldr	x23, [sp, #64]
	add	x28, sp, #1, lsl #12
	ldr	w0, [sp, #104]
	cmp	x9, #32
	add	x21, sp, #1760
	add	x27, x27, #672
	add	x20, x20, #400
	mov	x22, x24
	add	x28, x28, #1200
	mov	x30, x19
	b.lo	.LBBdb5fcef_205
	and	x8, x14, #0x1ffffffffffffff8
	add	x9, x25, #16
	add	x10, x1, #16
	and	x11, x14, #0x1ffffffffffffff8
.LBBdb5fcef_74:
	ldp	q0, q1, [x9, #-16]
	subs	x11, x11, #8
	add	x9, x9, #32
	stp	q0, q1, [x10, #-16]
	add	x10, x10, #32
	b.ne	.LBBdb5fcef_74
	b	.LBBdb5fcef_206
.LBBdb5fcef_75:
	ldr	x17, [sp, #128]
	ldr	w10, [sp, #240]
	mov	x26, x28
	ldr	w16, [sp, #284]
	ldr	x11, [sp, #56]
	mov	x13, x20
	ldr	x0, [sp, #168]
	mov	x14, x23
	mov	x15, x29
	mov	x12, x19
	cbz	x27, .LBBdb5fcef_77
	mov	w25, w10
	bl	rattle_dealloc
	ldr	x11, [sp, #56]
	ldr	w16, [sp, #284]
	mov	x12, x19
	ldr	x17, [sp, #128]
	mov	x15, x29
	mov	w10, w25
	mov	x14, x23
	mov	x13, x20
.LBBdb5fcef_77:
	movi	v0.2d, #0000000000000000
	add	x8, sp, #1, lsl #12
	add	x28, sp, #1, lsl #12
	cmp	w10, #1
	mov	x25, x22
	add	x27, sp, #1, lsl #12
	ldr	x22, [sp, #64]
	ldr	w9, [sp, #44]
	add	x10, sp, #1, lsl #12
	add	x8, x8, #1472
	add	x28, x28, #1200
	add	x27, x27, #672
	add	x10, x10, #1984
	str	xzr, [sp, #5720]
	str	xzr, [sp, #5712]
	str	xzr, [sp, #5696]
	stur	xzr, [x8, #135]
	str	xzr, [sp, #5688]
	str	xzr, [sp, #5680]
	str	xzr, [sp, #5664]
	stur	xzr, [x8, #103]
	str	xzr, [sp, #5656]
	str	xzr, [sp, #5648]
	str	xzr, [sp, #5632]
	stur	xzr, [x8, #71]
	str	xzr, [sp, #5624]
	str	xzr, [sp, #5616]
	stur	xzr, [x8, #39]
	str	xzr, [sp, #5600]
	str	xzr, [sp, #5592]
	str	xzr, [sp, #5584]
	stur	xzr, [x8, #7]
	str	xzr, [sp, #5568]
	str	xzr, [sp, #5560]
	str	xzr, [sp, #5552]
	str	xzr, [sp, #5536]
	stur	xzr, [x28, #247]
	str	xzr, [sp, #5528]
	str	xzr, [sp, #5520]
	str	xzr, [sp, #5504]
	stur	xzr, [x28, #215]
	str	xzr, [sp, #5496]
	str	xzr, [sp, #5488]
	str	xzr, [sp, #5472]
	stur	xzr, [x28, #183]
	str	q0, [sp, #5456]
	str	q0, [sp, #5440]
	stur	wzr, [x28, #139]
	str	wzr, [sp, #5432]
	stur	wzr, [x28, #131]
	str	wzr, [sp, #5424]
	b.ne	.LBBdb5fcef_83
	ldr	x8, [sp, #200]
	cbz	x8, .LBBdb5fcef_80
	ldr	x0, [sp, #536]
	bl	rattle_dealloc
	add	x10, sp, #1, lsl #12
	ldr	x11, [sp, #56]
	ldr	w9, [sp, #44]
	ldr	w16, [sp, #284]
	ldr	x17, [sp, #128]
	add	x10, x10, #1984
	mov	x12, x19
	mov	x15, x29
	mov	x14, x23
	mov	x13, x20
.LBBdb5fcef_80:
	ldr	w8, [sp, #244]
	cbz	w8, .LBBdb5fcef_83
	ldr	x8, [sp, #256]
	cbz	x8, .LBBdb5fcef_83
	mov	x0, x25
	bl	rattle_dealloc
	add	x10, sp, #1, lsl #12
	ldr	x11, [sp, #56]
	ldr	w9, [sp, #44]
	ldr	w16, [sp, #284]
	ldr	x17, [sp, #128]
	add	x10, x10, #1984
	mov	x12, x19
	mov	x15, x29
	mov	x14, x23
	mov	x13, x20
.LBBdb5fcef_83:
	cmp	w9, #1
	ldr	x19, [sp, #24]
	add	x25, sp, #1, lsl #12
	ldr	w9, [sp, #104]
	add	x21, sp, #1760
	add	x25, x25, #944
	b.ne	.LBBdb5fcef_89
	ldr	x8, [sp, #16]
	cbz	x8, .LBBdb5fcef_86
	mov	x0, x12
	bl	rattle_dealloc
	add	x10, sp, #1, lsl #12
	ldr	x11, [sp, #56]
	ldr	w16, [sp, #284]
	ldr	w9, [sp, #104]
	ldr	x17, [sp, #128]
	add	x10, x10, #1984
	mov	x15, x29
	mov	x14, x23
	mov	x13, x20
.LBBdb5fcef_86:
	cbz	w16, .LBBdb5fcef_89
	ldr	x8, [sp, #208]
	cbz	x8, .LBBdb5fcef_89
	ldr	x0, [sp, #512]
	bl	rattle_dealloc
	add	x10, sp, #1, lsl #12
	ldr	x11, [sp, #56]
	ldr	w9, [sp, #104]
	ldr	x17, [sp, #128]
	add	x10, x10, #1984
	mov	x15, x29
	mov	x14, x23
	mov	x13, x20
.LBBdb5fcef_89:
	ldr	w8, [sp, #228]
	add	x20, sp, #1, lsl #12
	ldr	w12, [sp, #316]
	add	x20, x20, #400
	cmp	w8, #1
	b.ne	.LBBdb5fcef_95
	cbz	x17, .LBBdb5fcef_92
	mov	x0, x13
	bl	rattle_dealloc
	ldr	w12, [sp, #316]
	add	x10, sp, #1, lsl #12
	ldr	x11, [sp, #56]
	ldr	w9, [sp, #104]
	add	x10, x10, #1984
	mov	x15, x29
	mov	x14, x23
.LBBdb5fcef_92:
	ldr	w8, [sp, #508]
	cbz	w8, .LBBdb5fcef_95
	cbz	x24, .LBBdb5fcef_95
	mov	x0, x14
	bl	rattle_dealloc
	ldr	w12, [sp, #316]
	add	x10, sp, #1, lsl #12
	ldr	x11, [sp, #56]
	ldr	w9, [sp, #104]
	add	x10, x10, #1984
	mov	x15, x29
.LBBdb5fcef_95:
	mov	x24, x19
	ldr	w19, [sp, #224]
	ldr	x23, [sp, #216]
	ldr	w29, [sp, #528]
	cmp	w12, #1
	b.ne	.LBBdb5fcef_101
	cbz	x15, .LBBdb5fcef_98
	mov	x0, x22
	bl	rattle_dealloc
	add	x10, sp, #1, lsl #12
	ldr	x11, [sp, #56]
	ldr	w9, [sp, #104]
	add	x10, x10, #1984
.LBBdb5fcef_98:
	cbz	w9, .LBBdb5fcef_101
	cbz	x11, .LBBdb5fcef_101
	ldr	x0, [sp, #184]
	bl	rattle_dealloc
	add	x10, sp, #1, lsl #12
	add	x10, x10, #1984
.LBBdb5fcef_101:
	ldr	w8, [sp, #532]
	cmp	w8, #1
	b.ne	.LBBdb5fcef_107
	ldr	x8, [sp, #496]
	cbz	x8, .LBBdb5fcef_104
	ldr	x0, [sp, #416]
	bl	rattle_dealloc
	add	x10, sp, #1, lsl #12
	add	x10, x10, #1984
.LBBdb5fcef_104:
	cbz	w19, .LBBdb5fcef_107
	cbz	x23, .LBBdb5fcef_107
	ldr	x0, [sp, #384]
	bl	rattle_dealloc
	add	x10, sp, #1, lsl #12
	add	x10, x10, #1984
.LBBdb5fcef_107:
	cmp	w29, #1
	b.ne	.LBBdb5fcef_113
	ldr	x8, [sp, #488]
	cbz	x8, .LBBdb5fcef_110
	ldr	x0, [sp, #408]
	bl	rattle_dealloc
	add	x10, sp, #1, lsl #12
	add	x10, x10, #1984
.LBBdb5fcef_110:
	ldr	w8, [sp, #484]
	cbz	w8, .LBBdb5fcef_113
	ldr	x8, [sp, #440]
	cbz	x8, .LBBdb5fcef_113
	ldr	x0, [sp, #376]
	bl	rattle_dealloc
	add	x10, sp, #1, lsl #12
	add	x10, x10, #1984
.LBBdb5fcef_113:
	ldr	w8, [sp, #524]
	cmp	w8, #1
	b.ne	.LBBdb5fcef_119
	ldr	x8, [sp, #472]
	cbz	x8, .LBBdb5fcef_116
	ldr	x0, [sp, #400]
	bl	rattle_dealloc
	add	x10, sp, #1, lsl #12
	add	x10, x10, #1984
.LBBdb5fcef_116:
	ldr	w8, [sp, #468]
	cbz	w8, .LBBdb5fcef_119
	ldr	x8, [sp, #432]
	cbz	x8, .LBBdb5fcef_119
	ldr	x0, [sp, #368]
	bl	rattle_dealloc
	add	x10, sp, #1, lsl #12
	add	x10, x10, #1984
.LBBdb5fcef_119:
	ldr	w8, [sp, #520]
	cmp	w8, #1
	b.ne	.LBBdb5fcef_125
	ldr	x8, [sp, #456]
	cbz	x8, .LBBdb5fcef_122
	ldr	x0, [sp, #392]
	bl	rattle_dealloc
	add	x10, sp, #1, lsl #12
	add	x10, x10, #1984
.LBBdb5fcef_122:
	ldr	w8, [sp, #452]
	cbz	w8, .LBBdb5fcef_125
	ldr	x8, [sp, #424]
	cbz	x8, .LBBdb5fcef_125
	ldr	x0, [sp, #360]
	bl	rattle_dealloc
	add	x10, sp, #1, lsl #12
	add	x10, x10, #1984
.LBBdb5fcef_125:
	add	x17, sp, #1, lsl #12
	ldr	x18, [sp, #5696]
	add	x14, sp, #1, lsl #12
	add	x17, x17, #1472
	add	x14, x14, #128
	ldr	q0, [sp, #5712]
	ldur	x0, [x17, #135]
	str	x18, [sp, #4496]
	ldr	x18, [sp, #5664]
	ldr	q1, [sp, #5680]
	str	q0, [sp, #4512]
	ldr	q0, [sp, #5648]
	stur	x0, [x20, #7]
	ldur	x0, [x17, #103]
	add	x6, sp, #1, lsl #12
	str	x18, [sp, #4464]
	ldur	x18, [x17, #71]
	mov	w8, wzr
	stur	x0, [x14, #247]
	ldr	x0, [sp, #5632]
	mov	x29, xzr
	stur	x18, [x14, #215]
	ldur	x18, [x17, #39]
	mov	w11, wzr
	str	x0, [sp, #4432]
	ldr	x0, [sp, #5600]
	mov	x30, xzr
	stur	x18, [x14, #183]
	ldur	x18, [x17, #7]
	mov	x13, xzr
	str	x0, [sp, #4400]
	ldr	x0, [sp, #5568]
	mov	x4, xzr
	stur	x18, [x14, #151]
	ldur	x18, [x28, #247]
	mov	x3, xzr
	str	x0, [sp, #4368]
	ldr	x0, [sp, #5536]
	mov	x7, xzr
	stur	x18, [x14, #119]
	ldur	x18, [x28, #215]
	mov	x22, xzr
	str	x0, [sp, #4336]
	ldr	x0, [sp, #5504]
	mov	w16, wzr
	stur	x18, [x14, #87]
	ldur	x18, [x28, #183]
	mov	x23, xzr
	str	x0, [sp, #4304]
	ldr	x0, [sp, #5472]
	mov	x12, xzr
	str	q1, [sp, #4480]
	ldr	q1, [sp, #5616]
	mov	x1, xzr
	stur	x18, [x14, #55]
	ldur	w18, [x28, #139]
	mov	w19, wzr
	str	x0, [sp, #4272]
	ldr	w0, [sp, #5432]
	mov	x15, xzr
	str	q0, [sp, #4448]
	ldr	q0, [sp, #5584]
	mov	x5, xzr
	str	q1, [sp, #4416]
	ldr	q1, [sp, #5552]
	add	x6, x6, #2224
	stur	w18, [x14, #11]
	ldur	w18, [x28, #131]
	ldr	q2, [sp, #5456]
	str	w0, [sp, #4232]
	ldr	w0, [sp, #5424]
	ldr	q3, [sp, #5440]
	str	q0, [sp, #4384]
	ldr	q0, [sp, #5520]
	str	q1, [sp, #4352]
	ldr	q1, [sp, #5488]
	stp	xzr, xzr, [sp, #240]
	str	xzr, [sp, #536]
	stp	xzr, xzr, [sp, #192]
	str	xzr, [sp, #152]
	stp	xzr, xzr, [sp, #256]
	str	wzr, [sp, #284]
	str	xzr, [sp, #512]
	stp	xzr, xzr, [sp, #176]
	str	xzr, [sp, #208]
	stp	xzr, xzr, [sp, #216]
	stp	xzr, xzr, [sp, #296]
	str	wzr, [sp, #508]
	str	xzr, [sp, #56]
	str	xzr, [sp, #528]
	stp	xzr, xzr, [sp, #408]
	stp	xzr, xzr, [sp, #344]
	stp	xzr, xzr, [sp, #488]
	stp	xzr, xzr, [sp, #376]
	str	wzr, [sp, #484]
	str	xzr, [sp, #288]
	stp	xzr, xzr, [sp, #432]
	str	xzr, [sp, #520]
	stp	xzr, xzr, [sp, #392]
	str	xzr, [sp, #472]
	str	wzr, [sp, #468]
	stp	xzr, xzr, [sp, #360]
	stp	xzr, xzr, [sp, #328]
	str	xzr, [sp, #456]
	str	wzr, [sp, #452]
	str	xzr, [sp, #320]
	str	xzr, [sp, #424]
	str	xzr, [sp, #232]
	stp	xzr, xzr, [sp, #160]
	stp	xzr, xzr, [sp, #136]
	str	xzr, [sp, #128]
	str	wzr, [sp, #120]
	stp	xzr, xzr, [sp, #104]
	str	wzr, [sp, #96]
	str	wzr, [sp, #88]
	str	wzr, [sp, #80]
	str	wzr, [sp, #72]
	str	wzr, [sp, #64]
	stur	w18, [x14, #3]
	str	w0, [sp, #4224]
	str	q0, [sp, #4320]
	movi	v0.2d, #0000000000000000
	str	q1, [sp, #4288]
	str	q2, [sp, #4256]
	str	q3, [sp, #4240]
	b	.LBBdb5fcef_129
.LBBdb5fcef_126:
	add	x1, sp, #1, lsl #12
	mov	x26, xzr
	str	x9, [sp, #160]
	add	x1, x1, #3724
	str	x27, [sp, #144]
.LBBdb5fcef_127:
	str	x1, [sp, #136]
	mov	x0, x1
	mov	x1, x25
	mov	x2, x26
	bl	memmove
	ldp	x4, x8, [sp, #16]
	mov	x26, x28
	ldp	x17, x3, [sp, #120]
	add	x27, sp, #1, lsl #12
	str	x20, [sp, #264]
	add	x20, sp, #1, lsl #12
	mov	x7, x23
	ldr	x23, [sp, #64]
	add	x28, sp, #1, lsl #12
	ldr	w0, [sp, #104]
	ldr	x13, [sp, #88]
	ldr	x15, [sp, #8]
	add	x6, sp, #1, lsl #12
	ldr	w16, [sp, #316]
	ldr	x5, [sp, #272]
	str	x22, [sp, #152]
	add	x21, sp, #1760
	add	x27, x27, #672
	add	x20, x20, #400
	mov	x22, x24
	mov	x24, x8
	add	x28, x28, #1200
	mov	x1, x29
	mov	x30, x19
	add	x6, x6, #2224
.LBBdb5fcef_128:
	ldr	w8, [sp, #4840]
	ldur	w9, [x27, #75]
	add	x12, sp, #1, lsl #12
	add	x12, x12, #128
	add	x25, sp, #1, lsl #12
	ldr	q0, [sp, #5408]
	str	w8, [sp, #5424]
	ldur	x8, [x28, #103]
	add	x25, x25, #944
	stur	w9, [x28, #131]
	ldr	x9, [sp, #5392]
	ldr	x10, [sp, #5168]
	stur	x8, [x20, #7]
	ldur	x8, [x28, #71]
	mov	x29, x17
	str	x9, [sp, #4496]
	ldr	x9, [sp, #5360]
	mov	w19, w0
	stur	x8, [x12, #247]
	ldur	x8, [x28, #39]
	ldr	w18, [sp, #4840]
	str	x9, [sp, #4464]
	ldr	x9, [sp, #5328]
	ldr	q1, [sp, #5136]
	stur	x8, [x12, #215]
	ldur	x8, [x28, #7]
	ldr	q2, [sp, #5152]
	str	x9, [sp, #4432]
	ldr	x9, [sp, #5296]
	ldr	w11, [sp, #44]
	stur	x8, [x12, #183]
	ldur	x8, [x25, #231]
	str	x9, [sp, #4400]
	ldr	x9, [sp, #5264]
	stur	x8, [x12, #151]
	ldur	x8, [x25, #199]
	str	q0, [sp, #4512]
	ldr	q0, [sp, #5376]
	stur	x8, [x12, #119]
	ldur	x8, [x25, #167]
	str	x9, [sp, #4368]
	ldr	x9, [sp, #5232]
	str	q0, [sp, #4480]
	ldr	q0, [sp, #5344]
	stur	x8, [x12, #87]
	ldur	x8, [x25, #135]
	str	x9, [sp, #4336]
	ldr	x9, [sp, #5200]
	str	q0, [sp, #4448]
	ldr	q0, [sp, #5312]
	stur	x8, [x12, #55]
	ldrb	w8, [x26, #792]
	str	x9, [sp, #4304]
	ldrb	w9, [x26, #840]
	str	q0, [sp, #4416]
	ldr	q0, [sp, #5280]
	str	x8, [sp, #128]
	ldrb	w8, [x26, #816]
	str	w9, [sp, #96]
	ldr	w9, [x26, #844]
	str	q0, [sp, #4384]
	ldr	q0, [sp, #5248]
	str	w8, [sp, #120]
	ldrb	w8, [x26, #824]
	str	w9, [sp, #88]
	ldrb	w9, [x26, #848]
	lsl	x8, x8, #56
	str	q0, [sp, #4352]
	ldr	q0, [sp, #5216]
	str	x10, [sp, #4272]
	ldr	x10, [x26, #832]
	str	w9, [sp, #80]
	ldr	w9, [x26, #852]
	str	q0, [sp, #4320]
	ldr	q0, [sp, #5184]
	stp	x8, x10, [sp, #104]
	add	x10, sp, #1, lsl #12
	ldur	w8, [x27, #75]
	add	x10, x10, #1984
	str	w9, [sp, #72]
	ldrb	w9, [x26, #856]
	str	q0, [sp, #4288]
	ldr	q0, [x26, #800]
	stur	wzr, [x12, #11]
	stur	w8, [x12, #3]
	mov	w8, #1
	ldr	x12, [sp, #48]
	str	wzr, [sp, #5432]
	stur	wzr, [x28, #139]
	str	q2, [sp, #4256]
	str	q1, [sp, #4240]
	str	wzr, [sp, #4232]
	str	w9, [sp, #64]
	str	w18, [sp, #4224]
.LBBdb5fcef_129:
	movi	v1.2d, #0000000000000000
	add	x2, sp, #1, lsl #12
	add	x17, sp, #1, lsl #12
	add	x14, sp, #1, lsl #12
	add	x2, x2, #2704
	add	x17, x17, #2464
	add	x14, x14, #2224
	stur	xzr, [x2, #87]
	str	xzr, [sp, #6880]
	stur	xzr, [x2, #7]
	str	q1, [sp, #7616]
	str	q1, [sp, #7520]
	str	xzr, [sp, #6800]
	str	q1, [sp, #7424]
	stur	xzr, [x17, #167]
	str	xzr, [sp, #6720]
	str	q1, [sp, #7328]
	stur	xzr, [x17, #87]
	str	xzr, [sp, #6640]
	str	q1, [sp, #7232]
	stur	xzr, [x17, #7]
	str	xzr, [sp, #6560]
	str	q1, [sp, #7136]
	stur	xzr, [x6, #167]
	str	xzr, [sp, #6480]
	str	q1, [sp, #7040]
	stur	xzr, [x6, #87]
	str	xzr, [sp, #6400]
	str	q1, [sp, #6960]
	stur	xzr, [x6, #7]
	str	xzr, [sp, #6320]
	str	q1, [sp, #7728]
	str	q1, [sp, #7712]
	stur	wzr, [x10, #163]
	str	wzr, [sp, #6240]
	stur	wzr, [x28, #147]
	str	wzr, [sp, #5440]
	cbz	w8, .LBBdb5fcef_131
	ldr	q1, [sp, #4512]
	ldr	x18, [sp, #4496]
	mov	x9, x1
	ldur	x0, [x20, #7]
	add	x1, sp, #1, lsl #12
	ldr	q2, [sp, #4240]
	str	q1, [sp, #7616]
	ldr	q1, [sp, #4480]
	add	x1, x1, #128
	str	x18, [sp, #6880]
	ldr	x18, [sp, #4464]
	ldr	w6, [sp, #240]
	str	q1, [sp, #7520]
	ldr	q1, [sp, #4448]
	stur	x0, [x2, #87]
	ldur	x0, [x1, #247]
	str	x18, [sp, #6800]
	ldur	x18, [x1, #215]
	str	q1, [sp, #7424]
	ldr	q1, [sp, #4416]
	stur	x0, [x2, #7]
	ldr	x0, [sp, #4432]
	stur	x18, [x17, #167]
	ldur	x18, [x1, #183]
	str	q1, [sp, #7328]
	ldr	q1, [sp, #4384]
	str	x0, [sp, #6720]
	ldr	x0, [sp, #4400]
	stur	x18, [x17, #87]
	ldur	x18, [x1, #151]
	str	q1, [sp, #7232]
	ldr	q1, [sp, #4352]
	str	x0, [sp, #6640]
	ldr	x0, [sp, #4368]
	stur	x18, [x17, #7]
	ldur	x18, [x1, #119]
	str	q1, [sp, #7136]
	ldr	q1, [sp, #4320]
	str	x0, [sp, #6560]
	ldr	x0, [sp, #4336]
	stur	x18, [x14, #167]
	ldur	x18, [x1, #87]
	str	q1, [sp, #7040]
	ldr	q1, [sp, #4288]
	str	x0, [sp, #6480]
	ldr	x0, [sp, #4304]
	stur	x18, [x14, #87]
	ldur	x18, [x1, #55]
	str	q1, [sp, #6960]
	ldr	q1, [sp, #4256]
	str	x0, [sp, #6400]
	ldr	x0, [sp, #4272]
	stur	x18, [x14, #7]
	ldur	w18, [x1, #11]
	ldur	w1, [x1, #3]
	str	q1, [sp, #7728]
	mov	v1.16b, v0.16b
	str	x0, [sp, #6320]
	ldr	w0, [sp, #4232]
	stur	w18, [x10, #163]
	ldr	w18, [sp, #4224]
	stur	w1, [x28, #147]
	add	x1, sp, #3968
	str	q2, [sp, #7712]
	str	w0, [sp, #6240]
	str	w18, [sp, #5440]
	b	.LBBdb5fcef_132
.LBBdb5fcef_131:
	mov	w6, wzr
	str	xzr, [sp, #536]
	mov	x29, xzr
	stp	xzr, xzr, [sp, #192]
	mov	w11, wzr
	mov	x30, xzr
	str	wzr, [sp, #244]
	mov	x13, xzr
	mov	x4, xzr
	str	xzr, [sp, #152]
	mov	x3, xzr
	mov	x7, xzr
	stp	xzr, xzr, [sp, #256]
	mov	x22, xzr
	mov	w16, wzr
	str	wzr, [sp, #284]
	mov	x23, xzr
	mov	x12, xzr
	str	xzr, [sp, #512]
	mov	x9, xzr
	mov	w19, wzr
	stp	xzr, xzr, [sp, #176]
	mov	x15, xzr
	mov	x5, xzr
	str	xzr, [sp, #208]
	add	x1, sp, #3968
	stp	xzr, xzr, [sp, #216]
	stp	xzr, xzr, [sp, #296]
	str	wzr, [sp, #508]
	str	xzr, [sp, #56]
	str	xzr, [sp, #528]
	stp	xzr, xzr, [sp, #408]
	stp	xzr, xzr, [sp, #344]
	stp	xzr, xzr, [sp, #488]
	stp	xzr, xzr, [sp, #376]
	str	xzr, [sp, #248]
	str	wzr, [sp, #484]
	str	xzr, [sp, #288]
	stp	xzr, xzr, [sp, #432]
	str	xzr, [sp, #520]
	stp	xzr, xzr, [sp, #392]
	str	xzr, [sp, #472]
	str	wzr, [sp, #468]
	stp	xzr, xzr, [sp, #360]
	stp	xzr, xzr, [sp, #328]
	str	xzr, [sp, #456]
	str	wzr, [sp, #452]
	str	xzr, [sp, #320]
	str	xzr, [sp, #424]
	str	xzr, [sp, #232]
	stp	xzr, xzr, [sp, #160]
	stp	xzr, xzr, [sp, #136]
	str	xzr, [sp, #128]
	str	wzr, [sp, #120]
	stp	xzr, xzr, [sp, #104]
	str	wzr, [sp, #96]
	str	wzr, [sp, #88]
	str	wzr, [sp, #80]
	str	wzr, [sp, #72]
	str	wzr, [sp, #64]
.LBBdb5fcef_132:
	ldr	x18, [sp, #6880]
	ldur	x0, [x2, #7]
	ldr	q0, [sp, #7616]
	ldr	q2, [sp, #7520]
	str	x18, [sp, #4800]
	ldur	x18, [x2, #87]
	str	q0, [sp, #4816]
	ldr	q0, [sp, #7424]
	stur	x18, [x27, #39]
	ldr	x18, [sp, #6800]
	str	q0, [sp, #4752]
	ldr	q0, [sp, #7328]
	str	x18, [sp, #4768]
	ldur	x18, [x17, #167]
	stur	x0, [x27, #7]
	ldr	x0, [sp, #6720]
	stur	x18, [x20, #247]
	ldur	x18, [x17, #87]
	str	x0, [sp, #4736]
	ldr	x0, [sp, #6640]
	stur	x18, [x20, #215]
	ldur	x18, [x17, #7]
	str	x0, [sp, #4704]
	ldr	x0, [sp, #6560]
	str	q0, [sp, #4720]
	ldr	q0, [sp, #7232]
	stur	x18, [x20, #183]
	ldur	x18, [x14, #167]
	str	x0, [sp, #4672]
	ldr	x0, [sp, #6480]
	str	q0, [sp, #4688]
	ldr	q0, [sp, #7136]
	stur	x18, [x20, #151]
	ldur	x18, [x14, #87]
	str	x0, [sp, #4640]
	ldr	x0, [sp, #6400]
	str	q0, [sp, #4656]
	ldr	q0, [sp, #7040]
	stur	x18, [x20, #119]
	ldur	x18, [x14, #7]
	str	x0, [sp, #4608]
	ldr	x0, [sp, #6320]
	str	q0, [sp, #4624]
	ldr	q0, [sp, #6960]
	stur	x18, [x20, #87]
	ldur	w18, [x10, #163]
	str	x0, [sp, #4576]
	ldr	w0, [sp, #6240]
	str	q2, [sp, #4784]
	ldr	q2, [sp, #7712]
	str	q0, [sp, #4592]
	ldr	q0, [sp, #7728]
	stur	w18, [x20, #43]
	ldur	w18, [x28, #147]
	str	w0, [sp, #4536]
	ldr	w0, [sp, #5440]
	str	q0, [sp, #4560]
	str	q2, [sp, #4544]
	stur	w18, [x20, #35]
	str	w0, [sp, #4528]
	cbz	w8, .LBBdb5fcef_134
	ldr	q0, [sp, #4816]
	ldr	x18, [sp, #4800]
	add	x14, sp, #3440
	ldur	x0, [x27, #39]
	str	w16, [sp, #316]
	add	x16, sp, #3712
	str	q0, [sp, #3728]
	ldr	q0, [sp, #4784]
	mov	x2, x29
	str	x18, [sp, #3712]
	ldr	x18, [sp, #4768]
	ldr	q2, [sp, #4544]
	str	q0, [sp, #3696]
	ldr	q0, [sp, #4752]
	ldr	w29, [sp, #284]
	str	x18, [sp, #3680]
	ldur	x18, [x20, #247]
	str	q0, [sp, #3664]
	ldr	q0, [sp, #4720]
	stur	x18, [x14, #215]
	ldur	x18, [x20, #215]
	str	q0, [sp, #3632]
	ldr	q0, [sp, #4688]
	stur	x18, [x14, #183]
	ldur	x18, [x20, #183]
	stur	x0, [x16, #7]
	ldur	x0, [x27, #7]
	str	q0, [sp, #3600]
	ldr	q0, [sp, #4656]
	stur	x18, [x14, #151]
	ldur	x18, [x20, #151]
	stur	x0, [x14, #247]
	ldr	x0, [sp, #4736]
	str	q0, [sp, #3568]
	ldr	q0, [sp, #4624]
	stur	x18, [x14, #119]
	ldur	x18, [x20, #119]
	str	x0, [sp, #3648]
	ldr	x0, [sp, #4704]
	str	q0, [sp, #3536]
	ldr	q0, [sp, #4592]
	stur	x18, [x14, #87]
	ldur	x18, [x20, #87]
	str	x0, [sp, #3616]
	ldr	x0, [sp, #4672]
	str	q0, [sp, #3504]
	ldr	q0, [sp, #4560]
	stur	x18, [x14, #55]
	ldur	w18, [x20, #43]
	str	x0, [sp, #3584]
	ldr	x0, [sp, #4640]
	str	q0, [sp, #3472]
	str	q2, [sp, #3456]
	ldp	q0, q2, [x26, #864]
	stur	w18, [x14, #11]
	ldur	w18, [x20, #35]
	str	x0, [sp, #3552]
	ldr	x0, [sp, #4608]
	stur	w18, [x14, #3]
	ldr	x18, [x26, #928]
	str	q0, [sp, #3360]
	ldp	q3, q0, [x26, #896]
	str	x0, [sp, #3520]
	ldr	x0, [sp, #4576]
	str	x18, [sp, #3424]
	add	x18, x26, #936
	str	x0, [sp, #3488]
	ldr	w0, [sp, #4536]
	str	q0, [sp, #3408]
	str	q3, [sp, #3392]
	ldp	q3, q0, [x18]
	add	x18, x26, #968
	str	w0, [sp, #3448]
	ldr	w0, [sp, #4528]
	str	q2, [sp, #3376]
	str	q0, [sp, #3344]
	ldp	q2, q0, [x18, #16]
	str	w0, [sp, #3440]
	ldr	x0, [x26, #1016]
	str	q3, [sp, #3328]
	ldr	q3, [x18]
	str	x5, [sp, #272]
	str	x0, [sp, #3312]
	str	q0, [sp, #3296]
	str	q2, [sp, #3280]
	str	q3, [sp, #3264]
	b	.LBBdb5fcef_135
.LBBdb5fcef_134:
	movi	v1.2d, #0000000000000000
	mov	w6, wzr
	mov	x2, xzr
	mov	w11, wzr
	mov	x30, xzr
	mov	x13, xzr
	mov	x4, xzr
	mov	w29, wzr
	mov	x3, xzr
	mov	x7, xzr
	mov	x22, xzr
	mov	x23, xzr
	mov	x12, xzr
	mov	x9, xzr
	mov	w19, wzr
	mov	x15, xzr
	add	x16, sp, #3712
	add	x14, sp, #3440
	str	xzr, [sp, #536]
	stp	xzr, xzr, [sp, #192]
	str	wzr, [sp, #244]
	str	xzr, [sp, #152]
	stp	xzr, xzr, [sp, #256]
	str	xzr, [sp, #512]
	stp	xzr, xzr, [sp, #176]
	str	xzr, [sp, #208]
	stp	xzr, xzr, [sp, #216]
	stp	xzr, xzr, [sp, #296]
	str	wzr, [sp, #508]
	str	wzr, [sp, #316]
	str	xzr, [sp, #56]
	str	xzr, [sp, #528]
	stp	xzr, xzr, [sp, #408]
	stp	xzr, xzr, [sp, #344]
	stp	xzr, xzr, [sp, #488]
	stp	xzr, xzr, [sp, #376]
	str	xzr, [sp, #248]
	str	xzr, [sp, #272]
	str	wzr, [sp, #484]
	str	xzr, [sp, #288]
	stp	xzr, xzr, [sp, #432]
	str	xzr, [sp, #520]
	stp	xzr, xzr, [sp, #392]
	str	xzr, [sp, #472]
	str	wzr, [sp, #468]
	stp	xzr, xzr, [sp, #360]
	stp	xzr, xzr, [sp, #328]
	str	xzr, [sp, #456]
	str	wzr, [sp, #452]
	str	xzr, [sp, #320]
	str	xzr, [sp, #424]
	str	xzr, [sp, #232]
	stp	xzr, xzr, [sp, #160]
	stp	xzr, xzr, [sp, #136]
	str	xzr, [sp, #128]
	str	wzr, [sp, #120]
	stp	xzr, xzr, [sp, #104]
	str	wzr, [sp, #96]
	str	wzr, [sp, #88]
	str	wzr, [sp, #80]
	str	wzr, [sp, #72]
	str	wzr, [sp, #64]
	str	q1, [sp, #3728]
	str	xzr, [sp, #3712]
	stur	xzr, [x16, #7]
	str	q1, [sp, #3696]
	str	xzr, [sp, #3680]
	stur	xzr, [x14, #247]
	str	q1, [sp, #3664]
	str	xzr, [sp, #3648]
	stur	xzr, [x14, #215]
	str	q1, [sp, #3632]
	str	xzr, [sp, #3616]
	stur	xzr, [x14, #183]
	str	q1, [sp, #3600]
	str	xzr, [sp, #3584]
	stur	xzr, [x14, #151]
	str	q1, [sp, #3568]
	stur	xzr, [x14, #119]
	str	xzr, [sp, #3552]
	str	q1, [sp, #3536]
	str	xzr, [sp, #3520]
	stur	xzr, [x14, #87]
	str	q1, [sp, #3504]
	str	xzr, [sp, #3488]
	stur	xzr, [x14, #55]
	str	q1, [sp, #3472]
	str	q1, [sp, #3456]
	stur	wzr, [x14, #11]
	str	wzr, [sp, #3448]
	stur	wzr, [x14, #3]
	str	wzr, [sp, #3440]
	str	xzr, [sp, #3424]
	str	q1, [sp, #3408]
	str	q1, [sp, #3392]
	str	q1, [sp, #3376]
	str	q1, [sp, #3360]
	str	q1, [sp, #3328]
	str	q1, [sp, #3344]
	str	xzr, [sp, #3312]
	str	q1, [sp, #3296]
	str	q1, [sp, #3280]
	str	q1, [sp, #3264]
.LBBdb5fcef_135:
	movi	v0.2d, #0000000000000000
	add	x17, sp, #1, lsl #12
	add	x5, sp, #1, lsl #12
	add	x17, x17, #2464
	add	x5, x5, #2224
	stur	xzr, [x10, #167]
	stur	xzr, [x17, #87]
	str	xzr, [sp, #6640]
	stur	xzr, [x17, #7]
	str	q0, [sp, #7328]
	str	q0, [sp, #7232]
	str	xzr, [sp, #6560]
	str	q0, [sp, #7136]
	stur	xzr, [x5, #167]
	str	xzr, [sp, #6480]
	str	q0, [sp, #7040]
	stur	xzr, [x5, #87]
	str	xzr, [sp, #6400]
	str	q0, [sp, #6960]
	stur	xzr, [x5, #7]
	str	xzr, [sp, #6320]
	str	q0, [sp, #6880]
	str	xzr, [sp, #6240]
	str	q0, [sp, #6800]
	stur	xzr, [x28, #151]
	str	xzr, [sp, #5440]
	str	q0, [sp, #6720]
	stur	xzr, [x25, #103]
	str	xzr, [sp, #5136]
	str	q0, [sp, #7536]
	str	q0, [sp, #7520]
	stur	wzr, [x27, #83]
	str	wzr, [sp, #4848]
	stur	wzr, [x20, #51]
	str	wzr, [sp, #4544]
	str	xzr, [sp, #7776]
	str	q0, [sp, #7760]
	str	q0, [sp, #7744]
	str	q0, [sp, #7728]
	str	q0, [sp, #7712]
	str	q0, [sp, #7440]
	str	q0, [sp, #7424]
	str	xzr, [sp, #7664]
	str	q0, [sp, #7648]
	str	q0, [sp, #7632]
	str	q0, [sp, #7616]
	cbz	w8, .LBBdb5fcef_137
	ldr	q0, [sp, #3728]
	ldr	x18, [sp, #3712]
	ldur	x0, [x16, #7]
	ldr	q2, [sp, #3456]
	ldr	q3, [sp, #3392]
	str	q0, [sp, #7328]
	ldr	q0, [sp, #3696]
	str	x18, [sp, #6640]
	ldr	x18, [sp, #3680]
	str	q0, [sp, #7232]
	ldr	q0, [sp, #3664]
	str	x18, [sp, #6560]
	ldur	x18, [x14, #215]
	str	q0, [sp, #7136]
	ldr	q0, [sp, #3632]
	stur	x0, [x17, #87]
	ldur	x0, [x14, #247]
	str	q0, [sp, #7040]
	ldr	q0, [sp, #3600]
	stur	x18, [x5, #167]
	ldur	x18, [x14, #183]
	str	q0, [sp, #6960]
	ldr	q0, [sp, #3568]
	stur	x0, [x17, #7]
	ldr	x0, [sp, #3648]
	str	q0, [sp, #6880]
	ldr	q0, [sp, #3536]
	stur	x18, [x5, #87]
	ldur	x18, [x14, #151]
	str	q0, [sp, #6800]
	ldr	q0, [sp, #3504]
	str	x0, [sp, #6480]
	ldr	x0, [sp, #3616]
	stur	x18, [x5, #7]
	ldur	x18, [x14, #119]
	str	q0, [sp, #6720]
	ldr	q0, [sp, #3472]
	str	x0, [sp, #6400]
	ldr	x0, [sp, #3584]
	stur	x18, [x10, #167]
	ldur	x18, [x14, #87]
	str	q0, [sp, #7536]
	ldr	q0, [sp, #3360]
	str	x0, [sp, #6320]
	ldr	x0, [sp, #3552]
	stur	x18, [x28, #151]
	ldur	x18, [x14, #55]
	str	q0, [sp, #7712]
	ldr	q0, [sp, #3408]
	str	x0, [sp, #6240]
	ldr	x0, [sp, #3520]
	stur	x18, [x25, #103]
	ldur	w18, [x14, #11]
	str	q0, [sp, #7760]
	ldr	q0, [sp, #3344]
	str	x0, [sp, #5440]
	ldr	x0, [sp, #3488]
	stur	w18, [x27, #83]
	ldur	w18, [x14, #3]
	ldr	x14, [sp, #56]
	str	q0, [sp, #7440]
	ldr	q0, [sp, #3296]
	str	x0, [sp, #5136]
	ldr	w0, [sp, #3448]
	str	q2, [sp, #7520]
	ldr	q2, [sp, #3376]
	stur	w18, [x20, #51]
	ldr	x18, [sp, #3424]
	str	q3, [sp, #7744]
	ldr	q3, [sp, #3328]
	str	q0, [sp, #7648]
	mov	v0.16b, v1.16b
	str	w0, [sp, #4848]
	ldr	w0, [sp, #3440]
	str	x18, [sp, #7776]
	ldr	x18, [sp, #3312]
	str	q2, [sp, #7728]
	ldr	q2, [sp, #3264]
	str	q3, [sp, #7424]
	ldr	q3, [sp, #3280]
	str	w0, [sp, #4544]
	str	x18, [sp, #7664]
	str	q3, [sp, #7632]
	str	q2, [sp, #7616]
	b	.LBBdb5fcef_138
.LBBdb5fcef_137:
	mov	w6, wzr
	str	xzr, [sp, #536]
	mov	x2, xzr
	stp	xzr, xzr, [sp, #192]
	mov	w11, wzr
	mov	x30, xzr
	str	wzr, [sp, #244]
	mov	x13, xzr
	mov	x4, xzr
	str	xzr, [sp, #152]
	mov	w29, wzr
	mov	x3, xzr
	stp	xzr, xzr, [sp, #256]
	mov	x7, xzr
	mov	x22, xzr
	str	xzr, [sp, #512]
	mov	x23, xzr
	mov	x12, xzr
	stp	xzr, xzr, [sp, #176]
	mov	x9, xzr
	mov	w19, wzr
	str	xzr, [sp, #208]
	mov	x15, xzr
	mov	x14, xzr
	stp	xzr, xzr, [sp, #216]
	stp	xzr, xzr, [sp, #296]
	str	wzr, [sp, #508]
	str	wzr, [sp, #316]
	str	xzr, [sp, #528]
	stp	xzr, xzr, [sp, #408]
	stp	xzr, xzr, [sp, #344]
	stp	xzr, xzr, [sp, #488]
	stp	xzr, xzr, [sp, #376]
	str	xzr, [sp, #248]
	str	xzr, [sp, #272]
	str	wzr, [sp, #484]
	str	xzr, [sp, #288]
	stp	xzr, xzr, [sp, #432]
	str	xzr, [sp, #520]
	stp	xzr, xzr, [sp, #392]
	str	xzr, [sp, #472]
	str	wzr, [sp, #468]
	stp	xzr, xzr, [sp, #360]
	stp	xzr, xzr, [sp, #328]
	str	xzr, [sp, #456]
	str	wzr, [sp, #452]
	str	xzr, [sp, #320]
	str	xzr, [sp, #424]
	str	xzr, [sp, #232]
	stp	xzr, xzr, [sp, #160]
	stp	xzr, xzr, [sp, #136]
	str	xzr, [sp, #128]
	str	wzr, [sp, #120]
	stp	xzr, xzr, [sp, #104]
	str	wzr, [sp, #96]
	str	wzr, [sp, #88]
	str	wzr, [sp, #80]
	str	wzr, [sp, #72]
	str	wzr, [sp, #64]
.LBBdb5fcef_138:
	ldr	x18, [sp, #6640]
	ldr	q1, [sp, #7328]
	ldur	x0, [x17, #7]
	ldr	q2, [sp, #7232]
	ldr	q3, [sp, #7744]
	str	x18, [sp, #4192]
	ldur	x18, [x17, #87]
	str	q1, [sp, #4208]
	ldr	q1, [sp, #7136]
	stur	x18, [x1, #231]
	ldr	x18, [sp, #6560]
	str	q1, [sp, #4144]
	ldr	q1, [sp, #7040]
	str	x18, [sp, #4160]
	ldur	x18, [x5, #167]
	str	q1, [sp, #4112]
	ldr	q1, [sp, #6960]
	stur	x18, [x1, #167]
	ldur	x18, [x5, #87]
	stur	x0, [x1, #199]
	ldr	x0, [sp, #6480]
	stur	x18, [x1, #135]
	ldur	x18, [x5, #7]
	str	q1, [sp, #4080]
	ldr	q1, [sp, #6880]
	str	x0, [sp, #4128]
	ldr	x0, [sp, #6400]
	stur	x18, [x1, #103]
	ldur	x18, [x10, #167]
	str	q1, [sp, #4048]
	ldr	q1, [sp, #6800]
	str	x0, [sp, #4096]
	ldr	x0, [sp, #6320]
	stur	x18, [x1, #71]
	ldur	x18, [x28, #151]
	str	q1, [sp, #4016]
	ldr	q1, [sp, #6720]
	str	x0, [sp, #4064]
	ldr	x0, [sp, #6240]
	stur	x18, [x1, #39]
	ldur	x18, [x25, #103]
	str	q1, [sp, #3984]
	ldr	q1, [sp, #7536]
	str	x0, [sp, #4032]
	ldr	x0, [sp, #5440]
	stur	x18, [x1, #7]
	ldur	w18, [x27, #83]
	str	q1, [sp, #3952]
	ldr	q1, [sp, #7712]
	str	q2, [sp, #4176]
	ldr	q2, [sp, #7520]
	str	x0, [sp, #4000]
	ldr	x0, [sp, #5136]
	stur	w18, [x16, #219]
	ldur	w18, [x20, #51]
	str	q1, [sp, #3840]
	ldr	q1, [sp, #7760]
	str	x0, [sp, #3968]
	ldr	w0, [sp, #4848]
	str	q2, [sp, #3936]
	ldr	q2, [sp, #7728]
	stur	w18, [x16, #211]
	ldr	x18, [sp, #7776]
	str	q1, [sp, #3888]
	ldr	q1, [sp, #7440]
	str	q3, [sp, #3872]
	ldr	q3, [sp, #7424]
	str	w0, [sp, #3928]
	ldr	w0, [sp, #4544]
	str	x18, [sp, #3904]
	ldr	x18, [sp, #7664]
	str	q2, [sp, #3856]
	ldr	q2, [sp, #7632]
	str	q1, [sp, #3824]
	ldr	q1, [sp, #7648]
	str	q3, [sp, #3808]
	ldr	q3, [sp, #7616]
	str	w0, [sp, #3920]
	str	x18, [sp, #3792]
	str	q1, [sp, #3776]
	str	q2, [sp, #3760]
	str	q3, [sp, #3744]
	cbz	w8, .LBBdb5fcef_141
	ldr	q1, [sp, #4208]
	ldr	x18, [sp, #4192]
	mov	x25, x30
	ldur	x0, [x1, #231]
	mov	x30, x23
	mov	w23, w6
	str	q1, [sp, #3232]
	ldr	q1, [sp, #4176]
	add	x6, sp, #2992
	str	x18, [sp, #3216]
	ldr	x18, [sp, #4160]
	add	x5, sp, #3712
	str	q1, [sp, #3200]
	ldr	q1, [sp, #4144]
	mov	x16, x14
	str	x18, [sp, #3184]
	ldur	x18, [x1, #167]
	mov	x14, x4
	str	q1, [sp, #3168]
	ldr	q1, [sp, #4112]
	add	x4, sp, #2720
	stur	x0, [x6, #231]
	ldur	x0, [x1, #199]
	ldr	q2, [sp, #3936]
	stur	x18, [x6, #167]
	ldur	x18, [x1, #135]
	mov	x20, #18774
	str	q1, [sp, #3136]
	ldr	q1, [sp, #4080]
	mov	x17, x7
	stur	x0, [x6, #199]
	ldr	x0, [sp, #4128]
	mov	x7, x9
	stur	x18, [x6, #135]
	ldur	x18, [x1, #103]
	mov	x9, x2
	str	q1, [sp, #3104]
	ldr	q1, [sp, #4048]
	movk	x20, #17490, lsl #16
	str	x0, [sp, #3152]
	ldr	x0, [sp, #4096]
	mov	x28, x22
	stur	x18, [x6, #103]
	ldur	x18, [x1, #71]
	mov	x22, x17
	str	q1, [sp, #3072]
	ldr	q1, [sp, #4016]
	movk	x20, #20037, lsl #32
	str	x0, [sp, #3120]
	ldr	x0, [sp, #4064]
	mov	w10, w29
	stur	x18, [x6, #71]
	ldur	x18, [x1, #39]
	mov	x27, x3
	str	q1, [sp, #3040]
	ldr	q1, [sp, #3984]
	movk	x20, #19535, lsl #48
	str	x0, [sp, #3088]
	ldr	x0, [sp, #4032]
	add	x3, sp, #2448
	stur	x18, [x6, #39]
	ldur	x18, [x1, #7]
	ldr	q3, [sp, #3872]
	str	q1, [sp, #3008]
	ldr	q1, [sp, #3952]
	ldrh	w1, [sp, #3260]
	str	x0, [sp, #3056]
	ldr	x0, [sp, #4000]
	ldr	w2, [sp, #3256]
	stur	x18, [x6, #7]
	ldur	w18, [x5, #219]
	ldr	x17, [sp, #248]
	str	q1, [sp, #2976]
	ldr	q1, [sp, #3840]
	str	x0, [sp, #3024]
	ldr	x0, [sp, #3968]
	stur	w18, [x4, #235]
	ldur	w18, [x5, #211]
	add	x5, sp, #2032
	str	q1, [sp, #2864]
	ldr	q1, [sp, #3888]
	str	x0, [sp, #2992]
	ldr	w0, [sp, #3928]
	stur	w18, [x4, #227]
	ldr	x18, [sp, #3904]
	str	q2, [sp, #2960]
	ldr	q2, [sp, #3856]
	str	q1, [sp, #2912]
	ldr	q1, [sp, #3824]
	str	q3, [sp, #2896]
	ldr	q3, [sp, #3808]
	str	w0, [sp, #2952]
	ldr	w0, [sp, #3920]
	str	x18, [sp, #2928]
	ldr	x18, [sp, #3792]
	str	q2, [sp, #2880]
	ldr	q2, [sp, #3760]
	str	q1, [sp, #2848]
	ldr	q1, [sp, #3776]
	str	q3, [sp, #2832]
	ldr	q3, [sp, #3744]
	str	w0, [sp, #2944]
	ldrb	w0, [x26, #1025]
	str	x18, [sp, #2816]
	ldrb	w18, [x26, #1024]
	str	q1, [sp, #2800]
	str	q2, [sp, #2784]
	str	q3, [sp, #2768]
	strh	w1, [sp, #2764]
	str	w2, [sp, #2760]
	cbnz	w8, .LBBdb5fcef_142
.LBBdb5fcef_140:
	mov	w23, wzr
	str	xzr, [sp, #536]
	mov	x9, xzr
	stp	xzr, xzr, [sp, #192]
	mov	w11, wzr
	mov	x25, xzr
	str	wzr, [sp, #244]
	mov	x13, xzr
	mov	x14, xzr
	str	xzr, [sp, #152]
	mov	w10, wzr
	mov	x27, xzr
	stp	xzr, xzr, [sp, #256]
	mov	x22, xzr
	mov	x28, xzr
	str	xzr, [sp, #512]
	mov	x30, xzr
	mov	x12, xzr
	stp	xzr, xzr, [sp, #176]
	mov	x7, xzr
	mov	w19, wzr
	str	xzr, [sp, #208]
	mov	x15, xzr
	mov	x16, xzr
	stp	xzr, xzr, [sp, #216]
	mov	x17, xzr
	mov	x6, xzr
	stp	xzr, xzr, [sp, #296]
	mov	w18, wzr
	movi	v0.2d, #0000000000000000
	str	wzr, [sp, #508]
	mov	w0, wzr
	str	wzr, [sp, #316]
	str	xzr, [sp, #528]
	stp	xzr, xzr, [sp, #408]
	stp	xzr, xzr, [sp, #344]
	stp	xzr, xzr, [sp, #488]
	stp	xzr, xzr, [sp, #376]
	str	xzr, [sp, #272]
	str	wzr, [sp, #484]
	stp	xzr, xzr, [sp, #432]
	str	xzr, [sp, #520]
	stp	xzr, xzr, [sp, #392]
	str	xzr, [sp, #472]
	str	wzr, [sp, #468]
	stp	xzr, xzr, [sp, #360]
	stp	xzr, xzr, [sp, #328]
	str	xzr, [sp, #456]
	str	wzr, [sp, #452]
	str	xzr, [sp, #320]
	str	xzr, [sp, #424]
	str	xzr, [sp, #232]
	stp	xzr, xzr, [sp, #160]
	stp	xzr, xzr, [sp, #136]
	str	xzr, [sp, #128]
	str	wzr, [sp, #120]
	stp	xzr, xzr, [sp, #104]
	str	wzr, [sp, #96]
	str	wzr, [sp, #88]
	str	wzr, [sp, #80]
	str	wzr, [sp, #72]
	str	wzr, [sp, #64]
	b	.LBBdb5fcef_143
.LBBdb5fcef_141:
	movi	v0.2d, #0000000000000000
	mov	x20, #18774
	mov	w23, wzr
	movk	x20, #17490, lsl #16
	mov	x9, xzr
	mov	w11, wzr
	movk	x20, #20037, lsl #32
	mov	x25, xzr
	mov	x13, xzr
	mov	x14, xzr
	mov	w10, wzr
	mov	x27, xzr
	mov	x22, xzr
	mov	x28, xzr
	mov	x30, xzr
	mov	x12, xzr
	mov	x7, xzr
	mov	w19, wzr
	mov	x15, xzr
	mov	x16, xzr
	mov	x17, xzr
	mov	w18, wzr
	mov	w0, wzr
	add	x6, sp, #2992
	add	x4, sp, #2720
	movk	x20, #19535, lsl #48
	add	x5, sp, #2032
	add	x3, sp, #2448
	str	xzr, [sp, #536]
	stp	xzr, xzr, [sp, #192]
	str	wzr, [sp, #244]
	str	xzr, [sp, #152]
	stp	xzr, xzr, [sp, #256]
	str	xzr, [sp, #512]
	stp	xzr, xzr, [sp, #176]
	str	xzr, [sp, #208]
	stp	xzr, xzr, [sp, #216]
	stp	xzr, xzr, [sp, #296]
	str	wzr, [sp, #508]
	str	wzr, [sp, #316]
	str	xzr, [sp, #528]
	stp	xzr, xzr, [sp, #408]
	stp	xzr, xzr, [sp, #344]
	stp	xzr, xzr, [sp, #488]
	stp	xzr, xzr, [sp, #376]
	str	xzr, [sp, #272]
	str	wzr, [sp, #484]
	str	xzr, [sp, #288]
	stp	xzr, xzr, [sp, #432]
	str	xzr, [sp, #520]
	stp	xzr, xzr, [sp, #392]
	str	xzr, [sp, #472]
	str	wzr, [sp, #468]
	stp	xzr, xzr, [sp, #360]
	stp	xzr, xzr, [sp, #328]
	str	xzr, [sp, #456]
	str	wzr, [sp, #452]
	str	xzr, [sp, #320]
	str	xzr, [sp, #424]
	str	xzr, [sp, #232]
	stp	xzr, xzr, [sp, #160]
	stp	xzr, xzr, [sp, #136]
	str	xzr, [sp, #128]
	str	wzr, [sp, #120]
	stp	xzr, xzr, [sp, #104]
	str	wzr, [sp, #96]
	str	wzr, [sp, #88]
	str	wzr, [sp, #80]
	str	wzr, [sp, #72]
	str	wzr, [sp, #64]
	str	q0, [sp, #3232]
	str	xzr, [sp, #3216]
	stur	xzr, [x6, #231]
	str	q0, [sp, #3200]
	str	xzr, [sp, #3184]
	stur	xzr, [x6, #199]
	str	q0, [sp, #3168]
	str	xzr, [sp, #3152]
	stur	xzr, [x6, #167]
	str	q0, [sp, #3136]
	str	xzr, [sp, #3120]
	stur	xzr, [x6, #135]
	str	q0, [sp, #3104]
	str	xzr, [sp, #3088]
	stur	xzr, [x6, #103]
	str	q0, [sp, #3072]
	stur	xzr, [x6, #71]
	str	xzr, [sp, #3056]
	str	q0, [sp, #3040]
	str	xzr, [sp, #3024]
	stur	xzr, [x6, #39]
	str	q0, [sp, #3008]
	str	xzr, [sp, #2992]
	stur	xzr, [x6, #7]
	str	q0, [sp, #2960]
	str	q0, [sp, #2976]
	str	wzr, [sp, #2952]
	stur	wzr, [x4, #235]
	str	wzr, [sp, #2944]
	stur	wzr, [x4, #227]
	str	q0, [sp, #2864]
	str	q0, [sp, #2880]
	str	q0, [sp, #2896]
	str	q0, [sp, #2912]
	str	xzr, [sp, #2928]
	str	q0, [sp, #2832]
	str	q0, [sp, #2848]
	str	xzr, [sp, #2816]
	str	q0, [sp, #2800]
	str	q0, [sp, #2784]
	str	q0, [sp, #2768]
	strh	wzr, [sp, #2764]
	str	wzr, [sp, #2760]
	cbz	w8, .LBBdb5fcef_140
.LBBdb5fcef_142:
	ldr	q1, [sp, #3232]
	ldr	x1, [sp, #3216]
	ldur	x2, [x6, #231]
	ldr	q2, [sp, #2960]
	ldr	q3, [sp, #2896]
	str	q1, [sp, #2736]
	ldr	q1, [sp, #3200]
	str	x1, [sp, #2720]
	ldr	x1, [sp, #3184]
	str	q1, [sp, #2704]
	ldr	q1, [sp, #3168]
	str	x1, [sp, #2688]
	ldur	x1, [x6, #167]
	stur	x2, [x4, #7]
	ldur	x2, [x6, #199]
	str	q1, [sp, #2672]
	ldr	q1, [sp, #3136]
	stur	x1, [x3, #215]
	ldur	x1, [x6, #135]
	stur	x2, [x3, #247]
	ldr	x2, [sp, #3152]
	str	q1, [sp, #2640]
	ldr	q1, [sp, #3104]
	stur	x1, [x3, #183]
	ldur	x1, [x6, #103]
	str	x2, [sp, #2656]
	ldr	x2, [sp, #3120]
	str	q1, [sp, #2608]
	ldr	q1, [sp, #3072]
	stur	x1, [x3, #151]
	ldur	x1, [x6, #71]
	str	x2, [sp, #2624]
	ldr	x2, [sp, #3088]
	str	q1, [sp, #2576]
	ldr	q1, [sp, #3040]
	stur	x1, [x3, #119]
	ldur	x1, [x6, #39]
	str	x2, [sp, #2592]
	ldr	x2, [sp, #3056]
	str	q1, [sp, #2544]
	ldr	q1, [sp, #3008]
	stur	x1, [x3, #87]
	ldur	x1, [x6, #7]
	ldr	x6, [sp, #288]
	str	x2, [sp, #2560]
	ldr	x2, [sp, #3024]
	str	q1, [sp, #2512]
	ldr	q1, [sp, #2976]
	stur	x1, [x3, #55]
	ldur	w1, [x4, #235]
	str	x2, [sp, #2528]
	ldr	x2, [sp, #2992]
	str	q1, [sp, #2480]
	ldr	q1, [sp, #2864]
	stur	w1, [x3, #11]
	ldur	w1, [x4, #227]
	str	x2, [sp, #2496]
	ldr	w2, [sp, #2952]
	stur	w1, [x3, #3]
	ldr	x1, [sp, #2928]
	str	q1, [sp, #2368]
	ldr	q1, [sp, #2912]
	str	q2, [sp, #2464]
	ldr	q2, [sp, #2880]
	str	w2, [sp, #2456]
	ldr	w2, [sp, #2944]
	str	x1, [sp, #2432]
	ldr	x1, [sp, #2816]
	str	q1, [sp, #2416]
	ldr	q1, [sp, #2848]
	str	q3, [sp, #2400]
	ldr	q3, [sp, #2832]
	str	w2, [sp, #2448]
	ldr	w2, [sp, #2760]
	str	q2, [sp, #2384]
	ldr	q2, [sp, #2784]
	str	q1, [sp, #2352]
	ldr	q1, [sp, #2800]
	str	q3, [sp, #2336]
	ldr	q3, [sp, #2768]
	str	x1, [sp, #2320]
	ldrh	w1, [sp, #2764]
	str	q1, [sp, #2304]
	str	q2, [sp, #2288]
	str	q3, [sp, #2272]
	strh	w1, [sp, #2268]
	str	w2, [sp, #2264]
.LBBdb5fcef_143:
	ldr	q1, [sp, #2736]
	ldr	x1, [sp, #2720]
	ldur	x2, [x4, #7]
	ldr	q2, [sp, #2464]
	ldr	q3, [sp, #2400]
	str	q1, [sp, #2048]
	ldr	q1, [sp, #2704]
	str	x1, [sp, #2032]
	ldr	x1, [sp, #2688]
	str	q1, [sp, #2016]
	ldr	q1, [sp, #2672]
	str	x1, [sp, #2000]
	ldur	x1, [x3, #215]
	stur	x2, [x5, #7]
	ldur	x2, [x3, #247]
	str	q1, [sp, #1984]
	ldr	q1, [sp, #2640]
	stur	x1, [x21, #215]
	ldur	x1, [x3, #183]
	stur	x2, [x21, #247]
	ldr	x2, [sp, #2656]
	str	q1, [sp, #1952]
	ldr	q1, [sp, #2608]
	stur	x1, [x21, #183]
	ldur	x1, [x3, #151]
	str	x2, [sp, #1968]
	ldr	x2, [sp, #2624]
	str	q1, [sp, #1920]
	ldr	q1, [sp, #2576]
	stur	x1, [x21, #151]
	ldur	x1, [x3, #119]
	str	x2, [sp, #1936]
	ldr	x2, [sp, #2592]
	str	q1, [sp, #1888]
	ldr	q1, [sp, #2544]
	stur	x1, [x21, #119]
	ldur	x1, [x3, #87]
	str	x2, [sp, #1904]
	ldr	x2, [sp, #2560]
	str	q1, [sp, #1856]
	ldr	q1, [sp, #2512]
	stur	x1, [x21, #87]
	ldur	x1, [x3, #55]
	str	x2, [sp, #1872]
	ldr	x2, [sp, #2528]
	str	q1, [sp, #1824]
	ldr	q1, [sp, #2480]
	stur	x1, [x21, #55]
	ldur	w1, [x3, #11]
	str	x2, [sp, #1840]
	ldr	x2, [sp, #2496]
	str	q1, [sp, #1792]
	ldr	q1, [sp, #2368]
	stur	w1, [x21, #11]
	ldur	w1, [x3, #3]
	str	x2, [sp, #1808]
	ldr	w2, [sp, #2456]
	stur	w1, [x21, #3]
	ldr	x1, [sp, #2432]
	str	q1, [sp, #1680]
	ldr	q1, [sp, #2416]
	str	q2, [sp, #1776]
	ldr	q2, [sp, #2384]
	str	w2, [sp, #1768]
	ldr	w2, [sp, #2448]
	str	x1, [sp, #1744]
	ldr	x1, [sp, #2320]
	str	q1, [sp, #1728]
	ldr	q1, [sp, #2352]
	str	q3, [sp, #1712]
	ldr	q3, [sp, #2336]
	str	w2, [sp, #1760]
	ldr	w2, [sp, #2264]
	str	q2, [sp, #1696]
	ldr	q2, [sp, #2288]
	str	q1, [sp, #1664]
	ldr	q1, [sp, #2304]
	str	q3, [sp, #1648]
	ldr	q3, [sp, #2272]
	str	x1, [sp, #1632]
	ldrh	w1, [sp, #2268]
	str	q1, [sp, #1616]
	str	q2, [sp, #1600]
	str	q3, [sp, #1584]
	strh	w1, [sp, #1580]
	str	w2, [sp, #1576]
	cbz	w8, .LBBdb5fcef_145
	str	x9, [sp, #616]
	ldr	x9, [sp, #512]
	add	x8, sp, #544
	ldr	x1, [sp, #1936]
	ldr	x2, [sp, #1904]
	add	x3, x8, #313
	str	x9, [sp, #696]
	ldr	x9, [sp, #176]
	ldr	q1, [sp, #1952]
	str	x1, [x3]
	add	x3, x8, #401
	ldr	x1, [sp, #1872]
	str	x9, [sp, #704]
	ldr	x9, [sp, #208]
	ldr	q2, [sp, #1728]
	str	x2, [x3]
	add	x2, x8, #489
	ldr	x3, [sp, #1840]
	str	x9, [sp, #712]
	ldr	w9, [sp, #228]
	ldr	q3, [sp, #1696]
	str	x1, [x2]
	add	x2, x8, #577
	ldr	w1, [sp, #1768]
	strb	w9, [sp, #720]
	ldr	x9, [sp, #264]
	ldur	x4, [x21, #55]
	str	x3, [x2]
	ldur	w2, [x21, #11]
	ldr	x3, [sp, #1968]
	str	x9, [sp, #728]
	ldr	x9, [sp, #304]
	str	w1, [sp, #2256]
	ldr	w1, [sp, #1760]
	str	x9, [sp, #736]
	ldr	w9, [sp, #508]
	stur	w2, [x5, #227]
	ldur	w2, [x21, #3]
	strb	w9, [sp, #768]
	ldr	x9, [sp, #296]
	str	w1, [sp, #2248]
	ldr	x1, [sp, #1744]
	str	x9, [sp, #792]
	ldr	w9, [sp, #316]
	stur	w2, [x5, #219]
	ldr	x2, [sp, #1632]
	strb	w9, [sp, #808]
	ldr	x9, [sp, #184]
	str	x1, [sp, #2240]
	ldr	w1, [sp, #1576]
	str	x9, [sp, #872]
	ldr	w9, [sp, #532]
	str	x2, [sp, #2128]
	ldrh	w2, [sp, #1580]
	strb	w9, [sp, #896]
	ldr	x9, [sp, #416]
	str	w1, [sp, #2072]
	ldr	x1, [sp, #536]
	str	x9, [sp, #904]
	ldr	x9, [sp, #352]
	strh	w2, [sp, #2076]
	str	x9, [sp, #912]
	ldr	x9, [sp, #496]
	str	x1, [sp, #552]
	ldp	x2, x1, [sp, #192]
	str	x9, [sp, #920]
	ldr	w9, [sp, #224]
	strb	w23, [sp, #544]
	add	x23, sp, #338
	str	x1, [sp, #568]
	ldur	x1, [x5, #7]
	strb	w9, [sp, #944]
	ldr	x9, [sp, #384]
	str	x1, [sp, #600]
	ldr	x1, [sp, #152]
	str	x9, [sp, #960]
	ldr	x9, [sp, #216]
	str	x2, [sp, #560]
	ldr	w2, [sp, #244]
	str	x1, [sp, #608]
	ldr	x1, [sp, #256]
	str	x9, [sp, #976]
	ldr	w9, [sp, #528]
	strb	w2, [sp, #592]
	ldr	x2, [sp, #2032]
	str	x1, [sp, #624]
	ldur	x1, [x21, #247]
	strb	w9, [sp, #984]
	ldr	x9, [sp, #408]
	stur	x2, [x23, #255]
	ldr	x2, [sp, #2000]
	str	x1, [sp, #688]
	add	x1, sp, #544
	str	x9, [sp, #992]
	ldr	x9, [sp, #272]
	stur	x2, [x1, #137]
	ldur	x2, [x21, #215]
	str	x9, [sp, #1000]
	ldr	x9, [sp, #488]
	str	x2, [sp, #776]
	add	x2, x8, #296
	str	q1, [x2]
	ldur	x2, [x21, #183]
	ldr	q1, [sp, #1888]
	str	x9, [sp, #1008]
	ldr	w9, [sp, #484]
	str	x2, [sp, #864]
	ldur	x2, [x21, #151]
	strb	w9, [sp, #1032]
	ldr	x9, [sp, #376]
	str	x2, [sp, #952]
	add	x2, x8, #472
	str	x9, [sp, #1048]
	ldr	x9, [sp, #440]
	str	q1, [x2]
	ldr	q1, [sp, #1712]
	ldur	x2, [x21, #119]
	str	x9, [sp, #1064]
	ldr	w9, [sp, #524]
	str	q1, [sp, #2208]
	ldr	q1, [sp, #1680]
	strb	w9, [sp, #1072]
	ldr	x9, [sp, #400]
	str	q1, [sp, #2176]
	ldr	q1, [sp, #1664]
	str	x9, [sp, #1080]
	ldr	x9, [sp, #344]
	str	q1, [sp, #2160]
	ldr	q1, [sp, #1600]
	str	x9, [sp, #1088]
	add	x9, sp, #294
	str	q1, [sp, #2096]
	ldr	q1, [sp, #2048]
	sturh	wzr, [x9, #255]
	add	x9, sp, #290
	stur	wzr, [x9, #255]
	add	x9, sp, #378
	str	q1, [sp, #576]
	ldr	q1, [sp, #2016]
	stur	wzr, [x9, #255]
	add	x9, sp, #382
	sturh	wzr, [x9, #255]
	add	x9, sp, #409
	stur	q1, [x9, #255]
	ldr	x9, [sp, #472]
	ldr	q1, [sp, #1984]
	strb	w10, [sp, #680]
	str	x9, [sp, #1096]
	ldr	w9, [sp, #468]
	stur	x3, [x1, #225]
	add	x3, x8, #665
	strb	w9, [sp, #1120]
	ldr	x9, [sp, #368]
	sturh	wzr, [x1, #181]
	str	x9, [sp, #1136]
	ldr	x9, [sp, #336]
	stur	wzr, [x1, #177]
	add	x1, x1, #265
	str	x9, [sp, #1144]
	ldr	x9, [sp, #432]
	str	q1, [sp, #752]
	ldr	q1, [sp, #1920]
	str	x9, [sp, #1152]
	ldr	w9, [sp, #520]
	str	q1, [sp, #928]
	ldr	q1, [sp, #1856]
	strb	w9, [sp, #1160]
	ldr	x9, [sp, #392]
	str	x2, [sp, #1040]
	ldur	x2, [x21, #87]
	str	x9, [sp, #1168]
	ldr	x9, [sp, #328]
	str	q2, [sp, #2224]
	ldr	q2, [sp, #1648]
	str	x9, [sp, #1176]
	ldr	x9, [sp, #456]
	str	q1, [sp, #1104]
	ldr	q1, [sp, #1824]
	str	x9, [sp, #1184]
	ldr	w9, [sp, #452]
	str	q2, [sp, #2144]
	ldr	q2, [sp, #1616]
	strb	w9, [sp, #1208]
	ldr	x9, [sp, #360]
	str	x2, [sp, #1128]
	add	x2, x8, #648
	str	x9, [sp, #1224]
	ldr	x9, [sp, #320]
	str	q1, [x2]
	ldr	x2, [sp, #1808]
	ldr	q1, [sp, #1792]
	str	x9, [sp, #1232]
	ldr	x9, [sp, #424]
	str	q2, [sp, #2112]
	ldr	q2, [sp, #1776]
	str	x9, [sp, #1240]
	ldr	x9, [sp, #232]
	str	q0, [sp, #1344]
	ldr	q0, [sp, #2176]
	str	x9, [sp, #1248]
	ldr	x9, [sp, #168]
	str	x2, [x3]
	add	x2, x8, #712
	str	x9, [sp, #1288]
	ldp	x9, x10, [sp, #136]
	stp	q2, q1, [x2]
	ldr	q2, [sp, #2208]
	str	q0, [sp, #1408]
	ldr	q0, [sp, #2224]
	str	x9, [sp, #1312]
	ldr	x9, [sp, #160]
	str	x10, [sp, #1296]
	str	x9, [sp, #1320]
	str	x9, [sp, #1328]
	ldr	x9, [sp, #128]
	str	x10, [sp, #1304]
	ldr	x10, [sp, #104]
	str	x9, [sp, #1336]
	ldr	w9, [sp, #120]
	str	x10, [x1, #552]
	add	x10, x8, #825
	strb	w9, [sp, #1360]
	ldr	w9, [sp, #2256]
	str	q3, [sp, #2192]
	ldr	q3, [sp, #1584]
	str	w9, [x10]
	ldr	x9, [sp, #112]
	ldr	w10, [sp, #64]
	ldr	q1, [sp, #2192]
	str	q0, [sp, #1456]
	ldr	q0, [sp, #2160]
	str	x9, [sp, #1376]
	ldr	w9, [sp, #96]
	strb	w10, [sp, #1400]
	add	x10, x8, #857
	str	w9, [sp, #1384]
	ldr	w9, [sp, #88]
	str	q2, [sp, #1440]
	ldr	q2, [sp, #2144]
	str	w9, [sp, #1388]
	ldr	w9, [sp, #80]
	str	q3, [sp, #2080]
	str	w9, [sp, #1392]
	ldr	w9, [sp, #72]
	str	q1, [sp, #1424]
	ldr	q1, [sp, #2112]
	str	w9, [sp, #1396]
	ldr	w9, [sp, #2248]
	strb	w11, [sp, #632]
	ldur	w11, [x5, #219]
	str	w9, [x10]
	ldr	x9, [sp, #2240]
	ldr	x10, [sp, #2128]
	str	x12, [sp, #824]
	ldur	w12, [x5, #227]
	str	x9, [sp, #1472]
	add	x9, x8, #936
	stp	q2, q0, [x9]
	ldr	q0, [sp, #2096]
	ldr	q2, [sp, #2080]
	add	x9, x8, #968
	str	x10, [sp, #1560]
	ldrh	w10, [sp, #2076]
	stp	q0, q1, [x9, #16]
	add	x8, x8, #1026
	str	q2, [x9]
	ldr	w9, [sp, #2072]
	strb	w0, [sp, #1569]
	ldr	x0, [sp, #32]
	strb	wzr, [x1, #6]
	strh	wzr, [x1, #4]
	str	wzr, [x1]
	strb	wzr, [x1, #94]
	strh	wzr, [x1, #92]
	str	wzr, [x1, #88]
	strb	wzr, [x1, #182]
	strh	wzr, [x1, #180]
	str	wzr, [x1, #176]
	strb	wzr, [x1, #270]
	strh	wzr, [x1, #268]
	str	wzr, [x1, #264]
	strb	wzr, [x1, #358]
	strh	wzr, [x1, #356]
	str	wzr, [x1, #352]
	add	x1, sp, #544
	str	x25, [sp, #640]
	str	x13, [sp, #648]
	str	x14, [sp, #656]
	str	x27, [sp, #744]
	str	x22, [sp, #784]
	str	x28, [sp, #800]
	str	x30, [sp, #816]
	str	x7, [sp, #832]
	strb	w19, [sp, #856]
	str	x15, [sp, #880]
	str	x16, [sp, #888]
	str	x17, [sp, #968]
	str	x6, [sp, #1056]
	strb	wzr, [sp, #551]
	strb	wzr, [sp, #639]
	strb	wzr, [sp, #727]
	str	x4, [sp, #1216]
	str	w12, [sp, #1372]
	str	w11, [sp, #1404]
	strb	w18, [sp, #1568]
	str	w9, [x8]
	strh	w10, [sp, #1574]
	bl	lone_drive_c_handle_hold.4592c1f
	b	.LBBdb5fcef_146
.LBBdb5fcef_145:
	mov	w0, #-3
.LBBdb5fcef_146:
	stp	x20, x26, [x24]
.LBBdb5fcef_147:
	add	sp, sp, #1, lsl #12
	add	sp, sp, #3728
	ldp	x20, x19, [sp, #80]
	ldp	x22, x21, [sp, #64]
	ldp	x24, x23, [sp, #48]
	ldp	x26, x25, [sp, #32]
	ldp	x28, x27, [sp, #16]
	ldp	x29, x30, [sp], #96
	ret
.LBBdb5fcef_148:
	add	x0, sp, #1, lsl #12
	str	w20, [sp, #228]
	ldrb	w20, [x28, #104]
	add	x19, sp, #1, lsl #12
	add	x0, x0, #3232
	add	x1, x26, #352
	add	x19, x19, #2944
	bl	ckd_image_stores_copy_file_700aef77bd01d6bd_.84a472a
	ldrb	w8, [x19, #288]
	mov	x11, x29
	cbz	w8, .LBBdb5fcef_157
	ldr	x19, [sp, #16]
	mov	x28, x24
	ldr	w24, [sp, #244]
	add	x29, sp, #1, lsl #12
	add	x23, sp, #1, lsl #12
	cmp	w20, #1
	add	x29, x29, #2464
	add	x23, x23, #1472
	b.eq	.LBBdb5fcef_166
	ldr	w8, [sp, #228]
	cmp	w8, #1
	b.eq	.LBBdb5fcef_167
.LBBdb5fcef_151:
	ldr	w8, [sp, #44]
	ldr	x20, [sp, #112]
	ldr	w9, [sp, #284]
	cmp	w8, #1
	ldr	x8, [sp, #88]
	b.eq	.LBBdb5fcef_168
.LBBdb5fcef_152:
	ldr	w8, [sp, #240]
	ldr	x9, [sp, #256]
	cmp	w8, #1
	ldr	x8, [sp, #536]
	b.ne	.LBBdb5fcef_154
.LBBdb5fcef_153:
	add	x10, sp, #1, lsl #12
	str	x8, [sp, #6720]
	ldr	x8, [sp, #192]
	add	x10, x10, #3616
	add	x0, sp, #1, lsl #12
	strb	w24, [x29, #200]
	str	x8, [sp, #6728]
	ldur	x8, [x10, #57]
	ldur	q0, [x10, #40]
	add	x0, x0, #2624
	str	x22, [sp, #6736]
	stur	x8, [x29, #201]
	ldur	x8, [x10, #64]
	stur	q0, [x29, #184]
	str	x8, [sp, #6768]
	ldr	x8, [sp, #120]
	str	x27, [sp, #6776]
	str	x8, [sp, #6784]
	str	x9, [sp, #6792]
	bl	lone_drive_c_dasd_files_volume_file_VolumeFile_Destruct_drop.6038f02
.LBBdb5fcef_154:
	mov	x4, xzr
	mov	x13, xzr
	mov	x2, xzr
	mov	x15, xzr
	mov	w22, wzr
	mov	x7, xzr
	mov	x29, xzr
	mov	x11, xzr
	mov	w16, wzr
	mov	x18, xzr
	mov	w10, wzr
	mov	x19, xzr
	mov	x17, xzr
	mov	w5, wzr
	mov	x14, xzr
	mov	x30, xzr
	mov	w9, wzr
	mov	x8, xzr
	mov	x3, xzr
	mov	x12, xzr
	mov	w0, wzr
	stp	xzr, xzr, [sp, #264]
	str	xzr, [sp, #304]
	str	xzr, [sp, #128]
	str	wzr, [sp, #508]
	str	xzr, [sp, #96]
	str	xzr, [sp, #48]
	stp	xzr, xzr, [sp, #408]
	stp	xzr, xzr, [sp, #344]
	stp	xzr, xzr, [sp, #488]
	stp	xzr, xzr, [sp, #376]
	str	xzr, [sp, #248]
	str	wzr, [sp, #484]
	str	xzr, [sp, #288]
	stp	xzr, xzr, [sp, #432]
	stp	xzr, xzr, [sp, #392]
	str	xzr, [sp, #472]
	str	wzr, [sp, #468]
	stp	xzr, xzr, [sp, #360]
	stp	xzr, xzr, [sp, #328]
	str	xzr, [sp, #456]
	str	wzr, [sp, #452]
	str	xzr, [sp, #320]
	str	xzr, [sp, #424]
	str	wzr, [sp, #240]
	str	xzr, [sp, #536]
	stp	xzr, xzr, [sp, #112]
	str	xzr, [sp, #88]
	str	wzr, [sp, #284]
	str	xzr, [sp, #512]
	str	wzr, [sp, #316]
	str	xzr, [sp, #528]
	str	xzr, [sp, #520]
	str	xzr, [sp, #5976]
	str	xzr, [sp, #5968]
	str	xzr, [sp, #5952]
	stur	xzr, [x25, #135]
	str	xzr, [sp, #5944]
	str	xzr, [sp, #5936]
	str	xzr, [sp, #5920]
	stur	xzr, [x25, #103]
	str	xzr, [sp, #5912]
	str	xzr, [sp, #5904]
	str	xzr, [sp, #5888]
	stur	xzr, [x25, #71]
	str	xzr, [sp, #5880]
	str	xzr, [sp, #5872]
	stur	xzr, [x25, #39]
	str	xzr, [sp, #5856]
	str	xzr, [sp, #5848]
	str	xzr, [sp, #5840]
	stur	xzr, [x25, #7]
	str	xzr, [sp, #5824]
	str	xzr, [sp, #5816]
	str	xzr, [sp, #5808]
	str	xzr, [sp, #5792]
	stur	xzr, [x23, #231]
	str	xzr, [sp, #5784]
	str	xzr, [sp, #5776]
	str	xzr, [sp, #5760]
	stur	xzr, [x23, #199]
	str	xzr, [sp, #5752]
	str	xzr, [sp, #5744]
	str	xzr, [sp, #5728]
	stur	xzr, [x23, #167]
	b	.LBBdb5fcef_165
.LBBdb5fcef_155:
	add	x8, sp, #1, lsl #12
	add	x8, x8, #3424
	add	x0, x8, #16
	bl	lone_drive_c_dasd_files_volume_file_VolumeFile_Destruct_drop.6038f02
	ldr	w8, [sp, #44]
	ldr	w24, [sp, #244]
	ldr	x20, [sp, #112]
	ldr	w9, [sp, #284]
	cmp	w8, #1
	b.ne	.LBBdb5fcef_55
.LBBdb5fcef_156:
	add	x11, sp, #1, lsl #12
	ldr	x8, [sp, #88]
	add	x10, sp, #1, lsl #12
	add	x11, x11, #3520
	add	x10, x10, #2704
	add	x0, sp, #1, lsl #12
	str	x8, [sp, #6968]
	ldur	x8, [x11, #57]
	ldur	q0, [x11, #40]
	add	x0, x0, #2864
	str	x20, [sp, #6960]
	stur	x8, [x10, #201]
	ldur	x8, [x11, #64]
	stur	q0, [x10, #184]
	str	x8, [sp, #7008]
	ldr	x8, [sp, #512]
	strb	w9, [x10, #200]
	str	x8, [sp, #7016]
	ldr	x8, [sp, #208]
	str	x19, [sp, #6976]
	str	x29, [sp, #7024]
	str	x8, [sp, #7032]
	bl	lone_drive_c_dasd_files_volume_file_VolumeFile_Destruct_drop.6038f02
	ldr	w8, [sp, #240]
	ldr	x10, [sp, #256]
	cmp	w8, #1
	ldr	x8, [sp, #536]
	b.eq	.LBBdb5fcef_56
	b	.LBBdb5fcef_57
.LBBdb5fcef_157:
	add	x0, sp, #1, lsl #12
	add	x23, sp, #1, lsl #12
	str	w20, [sp, #316]
	ldrb	w20, [x19, #296]
	add	x0, x0, #3136
	add	x1, x26, #440
	add	x23, x23, #3232
	str	x11, [sp, #176]
	bl	ckd_image_stores_copy_file_700aef77bd01d6bd_.84a472a
	ldrb	w8, [x19, #192]
	add	x29, sp, #1, lsl #12
	add	x29, x29, #2464
	cbz	w8, .LBBdb5fcef_170
	ldr	x19, [sp, #16]
	mov	x28, x24
	cmp	w20, #1
	b.eq	.LBBdb5fcef_181
	ldr	w8, [sp, #316]
	ldr	w24, [sp, #244]
	cmp	w8, #1
	b.eq	.LBBdb5fcef_182
.LBBdb5fcef_160:
	ldr	w8, [sp, #228]
	cmp	w8, #1
	b.eq	.LBBdb5fcef_183
.LBBdb5fcef_161:
	ldr	w8, [sp, #44]
	ldr	x20, [sp, #112]
	ldr	w9, [sp, #284]
	cmp	w8, #1
	ldr	x8, [sp, #88]
	b.eq	.LBBdb5fcef_184
.LBBdb5fcef_162:
	ldr	w8, [sp, #240]
	ldr	x9, [sp, #256]
	cmp	w8, #1
	ldr	x8, [sp, #536]
	b.ne	.LBBdb5fcef_164
.LBBdb5fcef_163:
	add	x10, sp, #1, lsl #12
	str	x8, [sp, #6560]
	ldr	x8, [sp, #192]
	add	x10, x10, #3616
	add	x0, sp, #1, lsl #12
	strb	w24, [x29, #40]
	str	x8, [sp, #6568]
	ldur	x8, [x10, #57]
	ldur	q0, [x10, #40]
	add	x0, x0, #2464
	str	x22, [sp, #6576]
	stur	x8, [x29, #41]
	ldur	x8, [x10, #64]
	stur	q0, [x29, #24]
	str	x8, [sp, #6608]
	ldr	x8, [sp, #120]
	str	x27, [sp, #6616]
	str	x8, [sp, #6624]
	str	x9, [sp, #6632]
	bl	lone_drive_c_dasd_files_volume_file_VolumeFile_Destruct_drop.6038f02
.LBBdb5fcef_164:
	add	x1, sp, #1, lsl #12
	str	xzr, [sp, #264]
	mov	x4, xzr
	add	x1, x1, #1472
	str	xzr, [sp, #304]
	mov	x13, xzr
	str	xzr, [sp, #128]
	mov	x2, xzr
	mov	x15, xzr
	str	wzr, [sp, #508]
	mov	w22, wzr
	mov	x7, xzr
	str	xzr, [sp, #96]
	mov	x29, xzr
	mov	x11, xzr
	str	xzr, [sp, #48]
	mov	w16, wzr
	mov	x18, xzr
	stp	xzr, xzr, [sp, #408]
	mov	w10, wzr
	mov	x19, xzr
	stp	xzr, xzr, [sp, #344]
	mov	x17, xzr
	mov	w5, wzr
	stp	xzr, xzr, [sp, #488]
	mov	x14, xzr
	mov	x30, xzr
	stp	xzr, xzr, [sp, #376]
	mov	w9, wzr
	mov	x8, xzr
	str	xzr, [sp, #248]
	mov	x3, xzr
	mov	x12, xzr
	str	xzr, [sp, #272]
	mov	w0, wzr
	str	wzr, [sp, #484]
	str	xzr, [sp, #288]
	stp	xzr, xzr, [sp, #432]
	stp	xzr, xzr, [sp, #392]
	str	xzr, [sp, #472]
	str	wzr, [sp, #468]
	stp	xzr, xzr, [sp, #360]
	stp	xzr, xzr, [sp, #328]
	str	xzr, [sp, #456]
	str	wzr, [sp, #452]
	str	xzr, [sp, #320]
	str	xzr, [sp, #424]
	str	wzr, [sp, #240]
	str	xzr, [sp, #536]
	stp	xzr, xzr, [sp, #112]
	str	xzr, [sp, #88]
	str	wzr, [sp, #284]
	str	xzr, [sp, #512]
	str	wzr, [sp, #316]
	str	xzr, [sp, #528]
	str	xzr, [sp, #520]
	str	xzr, [sp, #5976]
	str	xzr, [sp, #5968]
	str	xzr, [sp, #5952]
	stur	xzr, [x25, #135]
	str	xzr, [sp, #5944]
	str	xzr, [sp, #5936]
	str	xzr, [sp, #5920]
	stur	xzr, [x25, #103]
	str	xzr, [sp, #5912]
	str	xzr, [sp, #5904]
	str	xzr, [sp, #5888]
	stur	xzr, [x25, #71]
	str	xzr, [sp, #5880]
	str	xzr, [sp, #5872]
	stur	xzr, [x25, #39]
	str	xzr, [sp, #5856]
	str	xzr, [sp, #5848]
	str	xzr, [sp, #5840]
	stur	xzr, [x25, #7]
	str	xzr, [sp, #5824]
	str	xzr, [sp, #5816]
	str	xzr, [sp, #5808]
	str	xzr, [sp, #5792]
	stur	xzr, [x1, #231]
	str	xzr, [sp, #5784]
	str	xzr, [sp, #5776]
	str	xzr, [sp, #5760]
	stur	xzr, [x1, #199]
	str	xzr, [sp, #5752]
	str	xzr, [sp, #5744]
	str	xzr, [sp, #5728]
	stur	xzr, [x1, #167]
.LBBdb5fcef_165:
	add	x27, sp, #1, lsl #12
	mov	x24, x28
	add	x27, x27, #672
	b	.LBBdb5fcef_6
.LBBdb5fcef_166:
	add	x8, sp, #1, lsl #12
	mov	x20, x11
	add	x8, x8, #3328
	add	x0, x8, #16
	bl	lone_drive_c_dasd_files_volume_file_VolumeFile_Destruct_drop.6038f02
	mov	x11, x20
	ldr	w8, [sp, #228]
	cmp	w8, #1
	b.ne	.LBBdb5fcef_151
.LBBdb5fcef_167:
	add	x8, sp, #1, lsl #12
	mov	x20, x11
	add	x8, x8, #3424
	add	x0, x8, #16
	bl	lone_drive_c_dasd_files_volume_file_VolumeFile_Destruct_drop.6038f02
	mov	x11, x20
	ldr	w8, [sp, #44]
	ldr	x20, [sp, #112]
	ldr	w9, [sp, #284]
	cmp	w8, #1
	ldr	x8, [sp, #88]
	b.ne	.LBBdb5fcef_152
.LBBdb5fcef_168:
	add	x12, sp, #1, lsl #12
	str	x8, [sp, #6808]
	add	x10, sp, #1, lsl #12
	add	x12, x12, #3520
	add	x10, x10, #2704
	add	x0, sp, #1, lsl #12
	ldur	x8, [x12, #57]
	ldur	q0, [x12, #40]
	add	x0, x0, #2704
	str	x20, [sp, #6800]
	stur	x8, [x10, #41]
	ldur	x8, [x12, #64]
	stur	q0, [x10, #24]
	str	x8, [sp, #6848]
	ldr	x8, [sp, #512]
	strb	w9, [x10, #40]
	str	x8, [sp, #6856]
	ldr	x8, [sp, #208]
	str	x19, [sp, #6816]
	str	x11, [sp, #6864]
	str	x8, [sp, #6872]
	bl	lone_drive_c_dasd_files_volume_file_VolumeFile_Destruct_drop.6038f02
	ldr	w8, [sp, #240]
	ldr	x9, [sp, #256]
	cmp	w8, #1
	ldr	x8, [sp, #536]
	b.eq	.LBBdb5fcef_153
	b	.LBBdb5fcef_154
.LBBdb5fcef_169:
	ldp	x4, x12, [sp, #16]
	mov	x26, x28
	ldp	x17, x3, [sp, #120]
	add	x27, sp, #1, lsl #12
	add	x20, sp, #1, lsl #12
	mov	x7, x23
	ldr	x23, [sp, #64]
	add	x28, sp, #1, lsl #12
	ldr	w0, [sp, #104]
	add	x21, sp, #1760
	add	x27, x27, #672
	add	x20, x20, #400
	mov	x22, x24
	add	x28, x28, #1200
	mov	x30, x19
	b	.LBBdb5fcef_205
.LBBdb5fcef_170:
	add	x19, sp, #1, lsl #12
	add	x0, sp, #1, lsl #12
	add	x1, x26, #528
	add	x19, x19, #2944
	add	x0, x0, #3040
	str	x26, [sp, #296]
	ldrb	w29, [x19, #200]
	bl	ckd_image_stores_copy_file_700aef77bd01d6bd_.84a472a
	add	x9, sp, #1, lsl #12
	ldrb	w8, [x19, #96]
	add	x9, x9, #2944
	cbz	w8, .LBBdb5fcef_185
	ldr	x26, [sp, #16]
	ldr	w19, [sp, #244]
	cmp	w29, #1
	b.eq	.LBBdb5fcef_195
	cmp	w20, #1
	add	x20, sp, #1, lsl #12
	add	x20, x20, #3424
	b.eq	.LBBdb5fcef_196
.LBBdb5fcef_173:
	ldr	w8, [sp, #316]
	cmp	w8, #1
	b.eq	.LBBdb5fcef_197
.LBBdb5fcef_174:
	ldr	w8, [sp, #228]
	cmp	w8, #1
	b.ne	.LBBdb5fcef_176
.LBBdb5fcef_175:
	add	x0, x20, #16
	bl	lone_drive_c_dasd_files_volume_file_VolumeFile_Destruct_drop.6038f02
.LBBdb5fcef_176:
	ldr	w8, [sp, #44]
	ldr	x20, [sp, #112]
	add	x11, sp, #1, lsl #12
	ldr	w9, [sp, #284]
	add	x11, x11, #3520
	cmp	w8, #1
	ldr	x8, [sp, #88]
	b.ne	.LBBdb5fcef_178
	str	x8, [sp, #6488]
	ldur	x8, [x11, #57]
	add	x10, sp, #1, lsl #12
	add	x10, x10, #2224
	ldur	q0, [x11, #40]
	add	x0, sp, #1, lsl #12
	stur	x8, [x10, #201]
	ldur	x8, [x11, #64]
	add	x0, x0, #2384
	str	x20, [sp, #6480]
	str	x8, [sp, #6528]
	ldr	x8, [sp, #512]
	stur	q0, [x10, #184]
	str	x8, [sp, #6536]
	ldr	x8, [sp, #176]
	strb	w9, [x10, #200]
	str	x8, [sp, #6544]
	ldr	x8, [sp, #208]
	str	x26, [sp, #6496]
	str	x8, [sp, #6552]
	bl	lone_drive_c_dasd_files_volume_file_VolumeFile_Destruct_drop.6038f02
.LBBdb5fcef_178:
	ldr	w8, [sp, #240]
	add	x6, sp, #1, lsl #12
	ldr	x9, [sp, #256]
	add	x6, x6, #2224
	cmp	w8, #1
	ldr	x8, [sp, #536]
	b.ne	.LBBdb5fcef_180
	add	x10, sp, #1, lsl #12
	str	x8, [sp, #6400]
	ldr	x8, [sp, #192]
	add	x10, x10, #3616
	add	x0, sp, #1, lsl #12
	strb	w19, [x6, #120]
	str	x8, [sp, #6408]
	ldur	x8, [x10, #57]
	ldur	q0, [x10, #40]
	add	x0, x0, #2304
	str	x22, [sp, #6416]
	stur	x8, [x6, #121]
	ldur	x8, [x10, #64]
	stur	q0, [x6, #104]
	str	x8, [sp, #6448]
	ldr	x8, [sp, #120]
	str	x27, [sp, #6456]
	str	x8, [sp, #6464]
	str	x9, [sp, #6472]
	bl	lone_drive_c_dasd_files_volume_file_VolumeFile_Destruct_drop.6038f02
	add	x6, sp, #1, lsl #12
	add	x6, x6, #2224
.LBBdb5fcef_180:
	add	x1, sp, #1, lsl #12
	ldr	x26, [sp, #296]
	str	xzr, [sp, #264]
	add	x1, x1, #1472
	str	xzr, [sp, #304]
	mov	x4, xzr
	str	xzr, [sp, #128]
	mov	x13, xzr
	mov	x2, xzr
	str	wzr, [sp, #508]
	mov	x15, xzr
	mov	w22, wzr
	str	xzr, [sp, #96]
	mov	x7, xzr
	mov	x29, xzr
	str	xzr, [sp, #48]
	mov	x11, xzr
	mov	w16, wzr
	stp	xzr, xzr, [sp, #408]
	mov	x18, xzr
	mov	w10, wzr
	stp	xzr, xzr, [sp, #344]
	mov	x19, xzr
	mov	x17, xzr
	stp	xzr, xzr, [sp, #488]
	mov	w5, wzr
	mov	x14, xzr
	stp	xzr, xzr, [sp, #376]
	mov	x30, xzr
	mov	w9, wzr
	str	xzr, [sp, #248]
	mov	x8, xzr
	mov	x3, xzr
	str	xzr, [sp, #272]
	mov	x12, xzr
	mov	w0, wzr
	str	wzr, [sp, #484]
	str	xzr, [sp, #288]
	stp	xzr, xzr, [sp, #432]
	stp	xzr, xzr, [sp, #392]
	str	xzr, [sp, #472]
	str	wzr, [sp, #468]
	stp	xzr, xzr, [sp, #360]
	stp	xzr, xzr, [sp, #328]
	str	xzr, [sp, #456]
	str	wzr, [sp, #452]
	str	xzr, [sp, #320]
	str	xzr, [sp, #424]
	str	wzr, [sp, #240]
	str	xzr, [sp, #536]
	stp	xzr, xzr, [sp, #112]
	str	xzr, [sp, #88]
	str	wzr, [sp, #284]
	str	xzr, [sp, #512]
	str	wzr, [sp, #316]
	str	xzr, [sp, #528]
	str	xzr, [sp, #520]
	str	xzr, [sp, #5976]
	str	xzr, [sp, #5968]
	str	xzr, [sp, #5952]
	stur	xzr, [x25, #135]
	str	xzr, [sp, #5944]
	str	xzr, [sp, #5936]
	str	xzr, [sp, #5920]
	stur	xzr, [x25, #103]
	str	xzr, [sp, #5912]
	str	xzr, [sp, #5904]
	str	xzr, [sp, #5888]
	stur	xzr, [x25, #71]
	str	xzr, [sp, #5880]
	str	xzr, [sp, #5872]
	stur	xzr, [x25, #39]
	str	xzr, [sp, #5856]
	str	xzr, [sp, #5848]
	str	xzr, [sp, #5840]
	stur	xzr, [x25, #7]
	str	xzr, [sp, #5824]
	str	xzr, [sp, #5816]
	str	xzr, [sp, #5808]
	str	xzr, [sp, #5792]
	stur	xzr, [x1, #231]
	str	xzr, [sp, #5784]
	str	xzr, [sp, #5776]
	str	xzr, [sp, #5760]
	stur	xzr, [x1, #199]
	str	xzr, [sp, #5752]
	str	xzr, [sp, #5744]
	str	xzr, [sp, #5728]
	stur	xzr, [x1, #167]
	b	.LBBdb5fcef_30
.LBBdb5fcef_181:
	add	x0, x23, #16
	bl	lone_drive_c_dasd_files_volume_file_VolumeFile_Destruct_drop.6038f02
	ldr	w8, [sp, #316]
	ldr	w24, [sp, #244]
	cmp	w8, #1
	b.ne	.LBBdb5fcef_160
.LBBdb5fcef_182:
	add	x8, sp, #1, lsl #12
	add	x8, x8, #3328
	add	x0, x8, #16
	bl	lone_drive_c_dasd_files_volume_file_VolumeFile_Destruct_drop.6038f02
	ldr	w8, [sp, #228]
	cmp	w8, #1
	b.ne	.LBBdb5fcef_161
.LBBdb5fcef_183:
	add	x8, sp, #1, lsl #12
	add	x8, x8, #3424
	add	x0, x8, #16
	bl	lone_drive_c_dasd_files_volume_file_VolumeFile_Destruct_drop.6038f02
	ldr	w8, [sp, #44]
	ldr	x20, [sp, #112]
	ldr	w9, [sp, #284]
	cmp	w8, #1
	ldr	x8, [sp, #88]
	b.ne	.LBBdb5fcef_162
.LBBdb5fcef_184:
	add	x10, sp, #1, lsl #12
	str	x8, [sp, #6648]
	add	x0, sp, #1, lsl #12
	add	x10, x10, #3520
	add	x0, x0, #2544
	str	x20, [sp, #6640]
	ldur	x8, [x10, #57]
	ldur	q0, [x10, #40]
	strb	w9, [x29, #120]
	str	x19, [sp, #6656]
	stur	x8, [x29, #121]
	ldur	x8, [x10, #64]
	stur	q0, [x29, #104]
	str	x8, [sp, #6688]
	ldr	x8, [sp, #512]
	str	x8, [sp, #6696]
	ldr	x8, [sp, #176]
	str	x8, [sp, #6704]
	ldr	x8, [sp, #208]
	str	x8, [sp, #6712]
	bl	lone_drive_c_dasd_files_volume_file_VolumeFile_Destruct_drop.6038f02
	ldr	w8, [sp, #240]
	ldr	x9, [sp, #256]
	cmp	w8, #1
	ldr	x8, [sp, #536]
	b.eq	.LBBdb5fcef_163
	b	.LBBdb5fcef_164
.LBBdb5fcef_185:
	ldr	x8, [sp, #296]
	add	x0, sp, #1, lsl #12
	add	x19, sp, #1, lsl #12
	ldrb	w26, [x9, #104]
	add	x0, x0, #2944
	add	x19, x19, #3040
	add	x1, x8, #616
	bl	ckd_image_stores_copy_file_700aef77bd01d6bd_.84a472a
	add	x10, sp, #1, lsl #12
	add	x10, x10, #2704
	ldrb	w8, [x10, #240]
	cbz	w8, .LBBdb5fcef_198
	cmp	w26, #1
	b.eq	.LBBdb5fcef_199
	add	x28, sp, #1, lsl #12
	cmp	w29, #1
	add	x28, x28, #1200
	b.eq	.LBBdb5fcef_200
.LBBdb5fcef_188:
	cmp	w20, #1
	b.eq	.LBBdb5fcef_201
.LBBdb5fcef_189:
	ldr	w8, [sp, #316]
	cmp	w8, #1
	b.eq	.LBBdb5fcef_202
.LBBdb5fcef_190:
	ldr	w8, [sp, #228]
	cmp	w8, #1
	b.eq	.LBBdb5fcef_203
.LBBdb5fcef_191:
	ldr	w8, [sp, #44]
	cmp	w8, #1
	b.eq	.LBBdb5fcef_204
.LBBdb5fcef_192:
	ldr	w8, [sp, #240]
	cmp	w8, #1
	b.ne	.LBBdb5fcef_194
.LBBdb5fcef_193:
	ldr	x8, [sp, #536]
	add	x11, sp, #1, lsl #12
	add	x10, sp, #1, lsl #12
	add	x11, x11, #3616
	add	x10, x10, #1984
	ldr	w9, [sp, #244]
	str	x8, [sp, #6240]
	ldr	x8, [sp, #192]
	ldur	q0, [x11, #40]
	add	x0, sp, #1, lsl #12
	strb	w9, [x10, #200]
	str	x8, [sp, #6248]
	ldur	x8, [x11, #57]
	add	x0, x0, #2144
	stur	q0, [x10, #184]
	stur	x8, [x10, #201]
	ldur	x8, [x11, #64]
	str	x22, [sp, #6256]
	str	x8, [sp, #6288]
	ldr	x8, [sp, #120]
	str	x27, [sp, #6296]
	str	x8, [sp, #6304]
	ldr	x8, [sp, #256]
	str	x8, [sp, #6312]
	bl	lone_drive_c_dasd_files_volume_file_VolumeFile_Destruct_drop.6038f02
.LBBdb5fcef_194:
	add	x1, sp, #1, lsl #12
	ldr	x26, [sp, #296]
	add	x27, sp, #1, lsl #12
	mov	x4, xzr
	mov	x13, xzr
	mov	x2, xzr
	mov	x15, xzr
	mov	w22, wzr
	mov	x7, xzr
	mov	x29, xzr
	mov	x11, xzr
	mov	w16, wzr
	mov	x18, xzr
	mov	w10, wzr
	mov	x19, xzr
	mov	x17, xzr
	mov	w5, wzr
	mov	x14, xzr
	mov	x30, xzr
	mov	w9, wzr
	mov	x8, xzr
	mov	x3, xzr
	mov	x12, xzr
	mov	w0, wzr
	add	x1, x1, #1472
	add	x27, x27, #672
	stp	xzr, xzr, [sp, #264]
	str	xzr, [sp, #304]
	str	xzr, [sp, #128]
	str	wzr, [sp, #508]
	str	xzr, [sp, #96]
	str	xzr, [sp, #48]
	stp	xzr, xzr, [sp, #408]
	stp	xzr, xzr, [sp, #344]
	stp	xzr, xzr, [sp, #488]
	stp	xzr, xzr, [sp, #376]
	str	xzr, [sp, #248]
	str	wzr, [sp, #484]
	str	xzr, [sp, #288]
	stp	xzr, xzr, [sp, #432]
	stp	xzr, xzr, [sp, #392]
	str	xzr, [sp, #472]
	str	wzr, [sp, #468]
	stp	xzr, xzr, [sp, #360]
	stp	xzr, xzr, [sp, #328]
	str	xzr, [sp, #456]
	str	wzr, [sp, #452]
	str	xzr, [sp, #320]
	str	xzr, [sp, #424]
	str	wzr, [sp, #240]
	str	xzr, [sp, #536]
	stp	xzr, xzr, [sp, #112]
	str	xzr, [sp, #88]
	str	wzr, [sp, #284]
	str	xzr, [sp, #512]
	str	wzr, [sp, #316]
	str	xzr, [sp, #528]
	str	xzr, [sp, #520]
	str	xzr, [sp, #5976]
	str	xzr, [sp, #5968]
	str	xzr, [sp, #5952]
	stur	xzr, [x25, #135]
	str	xzr, [sp, #5944]
	str	xzr, [sp, #5936]
	str	xzr, [sp, #5920]
	stur	xzr, [x25, #103]
	str	xzr, [sp, #5912]
	str	xzr, [sp, #5904]
	str	xzr, [sp, #5888]
	stur	xzr, [x25, #71]
	str	xzr, [sp, #5880]
	str	xzr, [sp, #5872]
	stur	xzr, [x25, #39]
	str	xzr, [sp, #5856]
	str	xzr, [sp, #5848]
	str	xzr, [sp, #5840]
	stur	xzr, [x25, #7]
	str	xzr, [sp, #5824]
	str	xzr, [sp, #5816]
	str	xzr, [sp, #5808]
	str	xzr, [sp, #5792]
	stur	xzr, [x1, #231]
	str	xzr, [sp, #5784]
	str	xzr, [sp, #5776]
	str	xzr, [sp, #5760]
	stur	xzr, [x1, #199]
	str	xzr, [sp, #5752]
	str	xzr, [sp, #5744]
	str	xzr, [sp, #5728]
	stur	xzr, [x1, #167]
	b	.LBBdb5fcef_7
.LBBdb5fcef_195:
	add	x8, sp, #1, lsl #12
	add	x8, x8, #3136
	add	x0, x8, #16
	bl	lone_drive_c_dasd_files_volume_file_VolumeFile_Destruct_drop.6038f02
	cmp	w20, #1
	add	x20, sp, #1, lsl #12
	add	x20, x20, #3424
	b.ne	.LBBdb5fcef_173
.LBBdb5fcef_196:
	add	x0, x23, #16
	bl	lone_drive_c_dasd_files_volume_file_VolumeFile_Destruct_drop.6038f02
	ldr	w8, [sp, #316]
	cmp	w8, #1
	b.ne	.LBBdb5fcef_174
.LBBdb5fcef_197:
	add	x8, sp, #1, lsl #12
	add	x8, x8, #3328
	add	x0, x8, #16
	bl	lone_drive_c_dasd_files_volume_file_VolumeFile_Destruct_drop.6038f02
	ldr	w8, [sp, #228]
	cmp	w8, #1
	b.eq	.LBBdb5fcef_175
	b	.LBBdb5fcef_176
.LBBdb5fcef_198:
	add	x9, sp, #1, lsl #12
	add	x11, sp, #1, lsl #12
	add	x15, sp, #1, lsl #12
	add	x9, x9, #3616
	add	x11, x11, #3520
	add	x15, x15, #1472
	ldur	x8, [x9, #57]
	ldur	q0, [x9, #40]
	ldur	x9, [x9, #64]
	add	x14, sp, #1, lsl #12
	ldr	x12, [sp, #7344]
	ldr	x18, [sp, #7456]
	str	x8, [sp, #5952]
	ldur	x8, [x11, #57]
	add	x14, x14, #2944
	stur	x9, [x25, #135]
	ldur	x9, [x11, #64]
	ldr	x0, [sp, #7608]
	str	x8, [sp, #5920]
	ldr	x8, [sp, #7552]
	ldrb	w3, [x28, #152]
	stur	x9, [x25, #103]
	ldrb	w9, [x10, #248]
	ldr	x10, [sp, #7536]
	str	x8, [sp, #128]
	ldr	x8, [sp, #7584]
	mov	x17, x22
	str	x10, [sp, #264]
	ldr	x10, [sp, #7544]
	mov	w22, w3
	stur	x8, [x25, #71]
	ldrb	w8, [x28, #248]
	add	x6, sp, #1, lsl #12
	str	x10, [sp, #304]
	ldr	x10, [sp, #7360]
	add	x6, x6, #2224
	str	w8, [sp, #508]
	ldr	x8, [sp, #7592]
	ldr	x13, [sp, #7416]
	str	w9, [sp, #520]
	ldur	x9, [x28, #249]
	ldr	x4, [sp, #7600]
	str	x8, [sp, #96]
	ldur	x8, [x28, #153]
	ldr	x2, [sp, #7440]
	str	x9, [sp, #5888]
	ldr	x9, [sp, #7488]
	ldr	x7, [sp, #7496]
	str	x8, [sp, #5856]
	ldr	x8, [sp, #7448]
	ldrb	w16, [x28, #56]
	stur	x9, [x25, #39]
	ldur	x9, [x28, #57]
	ldr	w5, [sp, #244]
	str	x8, [sp, #48]
	ldr	x8, [sp, #7392]
	ldr	x30, [sp, #256]
	str	q0, [sp, #5968]
	ldur	q0, [x11, #40]
	ldr	x11, [sp, #7512]
	stur	x8, [x25, #7]
	ldr	x8, [sp, #7264]
	ldr	x19, [sp, #192]
	str	x9, [sp, #5824]
	ldur	x9, [x14, #249]
	ldr	x3, [sp, #176]
	stp	x8, x10, [sp, #488]
	ldr	x8, [sp, #7296]
	ldr	x10, [sp, #7320]
	str	x12, [sp, #416]
	ldr	x12, [sp, #7352]
	stur	x8, [x15, #231]
	ldr	x8, [sp, #7168]
	str	x9, [sp, #5792]
	ldr	x9, [sp, #7248]
	str	x8, [sp, #472]
	ldr	x8, [sp, #7200]
	str	x9, [sp, #408]
	ldr	x9, [sp, #7256]
	stur	x8, [x15, #199]
	ldr	x8, [sp, #7072]
	str	x9, [sp, #272]
	ldur	x9, [x14, #153]
	str	x8, [sp, #456]
	ldr	x8, [sp, #7104]
	str	q0, [sp, #5936]
	ldur	q0, [x28, #232]
	stur	x8, [x15, #167]
	mov	x15, x18
	mov	x18, x13
	mov	x13, x0
	ldrb	w8, [x14, #152]
	str	x12, [sp, #352]
	ldr	x12, [sp, #7400]
	str	x9, [sp, #5760]
	ldur	x9, [x14, #57]
	str	w8, [sp, #468]
	ldrb	w8, [x14, #56]
	ldr	w0, [sp, #228]
	str	q0, [sp, #5904]
	ldur	q0, [x28, #136]
	str	w8, [sp, #452]
	ldr	x8, [sp, #7160]
	str	x12, [sp, #384]
	ldr	x12, [sp, #7408]
	str	x8, [sp, #344]
	ldr	x8, [sp, #7208]
	str	x9, [sp, #5728]
	ldr	x9, [sp, #7152]
	str	x8, [sp, #368]
	ldr	x8, [sp, #7216]
	str	q0, [sp, #5872]
	ldur	q0, [x28, #40]
	add	x28, sp, #1, lsl #12
	add	x28, x28, #1200
	str	x8, [sp, #336]
	ldr	x8, [sp, #7224]
	str	x12, [sp, #248]
	ldrb	w12, [x14, #248]
	stp	x8, x10, [sp, #432]
	mov	w10, #1
	ldr	x8, [sp, #7056]
	str	q0, [sp, #5840]
	ldur	q0, [x14, #232]
	stp	x8, x9, [sp, #392]
	ldr	x8, [sp, #7112]
	ldr	x9, [sp, #7064]
	str	w12, [sp, #484]
	ldr	x12, [sp, #7304]
	str	x8, [sp, #360]
	ldr	x8, [sp, #7120]
	str	q0, [sp, #5808]
	ldur	q0, [x14, #136]
	str	x12, [sp, #376]
	ldr	x12, [sp, #7312]
	stp	x8, x9, [sp, #320]
	ldr	x8, [sp, #7128]
	ldr	w9, [sp, #44]
	str	q0, [sp, #5776]
	ldur	q0, [x14, #40]
	mov	x14, x27
	add	x27, sp, #1, lsl #12
	str	w26, [sp, #524]
	ldr	x26, [sp, #296]
	add	x27, x27, #672
	str	w29, [sp, #528]
	ldr	x29, [sp, #7504]
	str	x12, [sp, #288]
	ldr	x12, [sp, #208]
	str	x8, [sp, #424]
	ldr	x8, [sp, #16]
	str	w20, [sp, #532]
	str	q0, [sp, #5744]
	b	.LBBdb5fcef_31
.LBBdb5fcef_199:
	add	x0, x19, #16
	bl	lone_drive_c_dasd_files_volume_file_VolumeFile_Destruct_drop.6038f02
	add	x28, sp, #1, lsl #12
	cmp	w29, #1
	add	x28, x28, #1200
	b.ne	.LBBdb5fcef_188
.LBBdb5fcef_200:
	add	x8, sp, #1, lsl #12
	add	x8, x8, #3136
	add	x0, x8, #16
	bl	lone_drive_c_dasd_files_volume_file_VolumeFile_Destruct_drop.6038f02
	cmp	w20, #1
	b.ne	.LBBdb5fcef_189
.LBBdb5fcef_201:
	add	x0, x23, #16
	bl	lone_drive_c_dasd_files_volume_file_VolumeFile_Destruct_drop.6038f02
	ldr	w8, [sp, #316]
	cmp	w8, #1
	b.ne	.LBBdb5fcef_190
.LBBdb5fcef_202:
	add	x8, sp, #1, lsl #12
	add	x8, x8, #3328
	add	x0, x8, #16
	bl	lone_drive_c_dasd_files_volume_file_VolumeFile_Destruct_drop.6038f02
	ldr	w8, [sp, #228]
	cmp	w8, #1
	b.ne	.LBBdb5fcef_191
.LBBdb5fcef_203:
	add	x8, sp, #1, lsl #12
	add	x8, x8, #3424
	add	x0, x8, #16
	bl	lone_drive_c_dasd_files_volume_file_VolumeFile_Destruct_drop.6038f02
	ldr	w8, [sp, #44]
	cmp	w8, #1
	b.ne	.LBBdb5fcef_192
.LBBdb5fcef_204:
	ldr	x8, [sp, #112]
	add	x11, sp, #1, lsl #12
	add	x10, sp, #1, lsl #12
	add	x11, x11, #3520
	add	x10, x10, #2224
	ldr	w9, [sp, #284]
	str	x8, [sp, #6320]
	ldr	x8, [sp, #88]
	ldur	q0, [x11, #40]
	strb	w9, [x10, #40]
	ldr	x9, [sp, #16]
	add	x0, sp, #1, lsl #12
	str	x8, [sp, #6328]
	ldur	x8, [x11, #57]
	add	x0, x0, #2224
	stur	q0, [x10, #24]
	stur	x8, [x10, #41]
	ldur	x8, [x11, #64]
	str	x9, [sp, #6336]
	str	x8, [sp, #6368]
	ldr	x8, [sp, #512]
	str	x8, [sp, #6376]
	ldr	x8, [sp, #176]
	str	x8, [sp, #6384]
	ldr	x8, [sp, #208]
	str	x8, [sp, #6392]
	bl	lone_drive_c_dasd_files_volume_file_VolumeFile_Destruct_drop.6038f02
	ldr	w8, [sp, #240]
	cmp	w8, #1
	b.eq	.LBBdb5fcef_193
	b	.LBBdb5fcef_194
.LBBdb5fcef_205:
	ldr	w9, [x25, x8, lsl #2]
	str	w9, [x1, x8, lsl #2]
	add	x8, x8, #1
.LBBdb5fcef_206:
	cmp	x14, x8
	b.ne	.LBBdb5fcef_205
	mov	x24, x12
	mov	x1, x29
	b	.LBBdb5fcef_128
.Lfunc_enddb5fcef:
	.size	dasd_drive_copy, .Lfunc_enddb5fcef-dasd_drive_copy

	.section	.text.dasd_drive_free,"ax",@progbits
	.globl	dasd_drive_free
	.p2align	2
	.type	dasd_drive_free,@function
dasd_drive_free:
	mov	x9, #18774
	ldr	x8, [x0]
	movk	x9, #17490, lsl #16
	movk	x9, #20037, lsl #32
	movk	x9, #19535, lsl #48
	cmp	x8, x9
	b.ne	.LBB8cc248a_2
	str	x30, [sp, #-16]!
	ldr	x8, [x0, #8]
	stp	xzr, xzr, [x0]
	mov	x0, x8
	bl	std_alloc_boxed_Box_drop_3643461161959432_.3befa6e
	mov	w0, wzr
	ldr	x30, [sp], #16
	ret
.LBB8cc248a_2:
	mov	w0, #-1
	ret
.Lfunc_end8cc248a:
	.size	dasd_drive_free, .Lfunc_end8cc248a-dasd_drive_free

	.section	.text.dasd_drive_next,"ax",@progbits
	.globl	dasd_drive_next
	.p2align	2
	.type	dasd_drive_next,@function
dasd_drive_next:
	mov	x9, #18774
	ldr	x8, [x0]
	movk	x9, #17490, lsl #16
	movk	x9, #20037, lsl #32
	movk	x9, #19535, lsl #48
	cmp	x8, x9
	b.ne	.LBBf2c509b_5
	ldr	x10, [x0, #8]
	stp	xzr, xzr, [x0]
	ldrb	w11, [x10, #1025]
	cmp	w11, #3
	b.gt	.LBBf2c509b_6
	sub	w8, w11, #1
	cmp	w8, #3
	b.hs	.LBBf2c509b_10
	mov	x11, xzr
	mov	x12, xzr
	mov	w8, #1
.LBBf2c509b_4:
	stp	x11, x12, [x1]
	stp	x9, x10, [x0]
	mov	w0, w8
	ret
.LBBf2c509b_5:
	mov	w0, #-1
	ret
.LBBf2c509b_6:
	cmp	w11, #4
	b.ne	.LBBf2c509b_8
	mov	w8, #2
	stp	xzr, xzr, [x1]
	stp	x9, x10, [x0]
	mov	w0, w8
	ret
.LBBf2c509b_8:
	ldrb	w13, [x10, #936]
	mov	w14, #1
	ldr	x11, [x10, #968]
	ldr	x12, [x10, #976]
	mov	w8, #3
	lsl	w13, w14, w13
	mov	w14, #16319
	movk	w14, #992, lsl #16
	tst	w13, w14
	b.eq	.LBBf2c509b_4
	mov	w8, #4
	stp	x11, x12, [x1]
	stp	x9, x10, [x0]
	mov	w0, w8
	ret
.LBBf2c509b_10:
	mov	w8, w11
	stp	x11, x11, [x1]
	stp	x9, x10, [x0]
	mov	w0, w8
	ret
.Lfunc_endf2c509b:
	.size	dasd_drive_next, .Lfunc_endf2c509b-dasd_drive_next

	.section	.text.dasd_drive_show,"ax",@progbits
	.globl	dasd_drive_show
	.p2align	2
	.type	dasd_drive_show,@function
dasd_drive_show:
	mov	x9, #18774
	ldr	x10, [x0]
	movk	x9, #17490, lsl #16
	movk	x9, #20037, lsl #32
	movk	x9, #19535, lsl #48
	cmp	x10, x9
	b.ne	.LBB3534ed0_2
	mov	x8, x0
	mov	w13, #2314
	mov	w0, wzr
	ldr	x10, [x8, #8]
	stp	xzr, xzr, [x8]
	ldr	x11, [x10, #704]
	ldr	w12, [x10, #864]
	ldrb	w14, [x10, #1024]
	ldrh	w15, [x10, #868]
	stur	wzr, [x1, #11]
	str	w12, [x1, #4]
	mov	w12, #2311
	tst	x11, #0xff
	lsr	x11, x11, #16
	csel	w12, w12, w13, eq
	lsr	w13, w15, #8
	cmp	w14, #1
	strb	w15, [x1, #10]
	strh	w11, [x1, #2]
	cset	w11, eq
	strh	w12, [x1]
	strb	w13, [x1, #9]
	strb	w11, [x1, #8]
	strb	wzr, [x1, #15]
	stp	x9, x10, [x8]
	ret
.LBB3534ed0_2:
	mov	w0, #-1
	ret
.Lfunc_end3534ed0:
	.size	dasd_drive_show, .Lfunc_end3534ed0-dasd_drive_show

	.section	.text.dasd_drive_begin,"ax",@progbits
	.globl	dasd_drive_begin
	.p2align	2
	.type	dasd_drive_begin,@function
dasd_drive_begin:
	stp	x30, x21, [sp, #-32]!
	stp	x20, x19, [sp, #16]
	mov	x20, #18774
	ldr	x8, [x0]
	movk	x20, #17490, lsl #16
	movk	x20, #20037, lsl #32
	movk	x20, #19535, lsl #48
	cmp	x8, x20
	b.ne	.LBB1a4a150_3
	ldr	x19, [x0, #8]
	stp	xzr, xzr, [x0]
	ldrb	w8, [x19, #1025]
	cbz	w8, .LBB1a4a150_4
	mov	w8, #-48
	stp	x20, x19, [x0]
	ldp	x20, x19, [sp, #16]
	mov	w0, w8
	ldp	x30, x21, [sp], #32
	ret
.LBB1a4a150_3:
	mov	w8, #-1
	ldp	x20, x19, [sp, #16]
	mov	w0, w8
	ldp	x30, x21, [sp], #32
	ret
.LBB1a4a150_4:
	mov	w2, w1
	add	x1, x19, #1024
	mov	x21, x0
	mov	x0, x19
	bl	ckd_drive_job_Job_start_808c45e55832e08b_.d85c7fa
	adrp	x9, .Lswitch.table.dasd_drive_begin
	add	x9, x9, :lo12:.Lswitch.table.dasd_drive_begin
	and	w8, w0, #0xff
	strb	w8, [x19, #1025]
	ldr	w8, [x9, w8, uxtw #2]
	stp	x20, x19, [x21]
	ldp	x20, x19, [sp, #16]
	mov	w0, w8
	ldp	x30, x21, [sp], #32
	ret
.Lfunc_end1a4a150:
	.size	dasd_drive_begin, .Lfunc_end1a4a150-dasd_drive_begin

	.section	.text.dasd_drive_begin_program,"ax",@progbits
	.globl	dasd_drive_begin_program
	.p2align	2
	.type	dasd_drive_begin_program,@function
dasd_drive_begin_program:
	mov	x9, #18774
	ldr	x8, [x0]
	movk	x9, #17490, lsl #16
	movk	x9, #20037, lsl #32
	movk	x9, #19535, lsl #48
	cmp	x8, x9
	b.ne	.LBBfdff528_3
	ldr	x10, [x0, #8]
	stp	xzr, xzr, [x0]
	ldrb	w8, [x10, #1025]
	cbz	w8, .LBBfdff528_4
	mov	w8, #-48
	stp	x9, x10, [x0]
	mov	w0, w8
	ret
.LBBfdff528_3:
	mov	w0, #-1
	ret
.LBBfdff528_4:
	add	x11, x10, #888
	str	xzr, [x10, #888]
	stur	wzr, [x11, #7]
	ldrb	w11, [x10, #1024]
	str	xzr, [x10, #872]
	cmp	w11, #1
	strh	wzr, [x10, #880]
	cset	w11, eq
	str	xzr, [x10, #904]
	str	xzr, [x10, #920]
	str	xzr, [x10, #912]
	strb	wzr, [x10, #928]
	strb	w11, [x10, #1024]
	stp	x9, x10, [x0]
	mov	w0, w8
	ret
.Lfunc_endfdff528:
	.size	dasd_drive_begin_program, .Lfunc_endfdff528-dasd_drive_begin_program

	.section	.text.dasd_drive_clear_sense,"ax",@progbits
	.globl	dasd_drive_clear_sense
	.p2align	2
	.type	dasd_drive_clear_sense,@function
dasd_drive_clear_sense:
	mov	x9, #18774
	ldr	x8, [x0]
	movk	x9, #17490, lsl #16
	movk	x9, #20037, lsl #32
	movk	x9, #19535, lsl #48
	cmp	x8, x9
	b.ne	.LBBd88c8da_3
	ldr	x10, [x0, #8]
	stp	xzr, xzr, [x0]
	ldrb	w8, [x10, #1025]
	cbz	w8, .LBBd88c8da_4
	mov	w8, #-48
	stp	x9, x10, [x0]
	mov	w0, w8
	ret
.LBBd88c8da_3:
	mov	w0, #-1
	ret
.LBBd88c8da_4:
	strh	wzr, [x10, #868]
	stp	x9, x10, [x0]
	mov	w0, w8
	ret
.Lfunc_endd88c8da:
	.size	dasd_drive_clear_sense, .Lfunc_endd88c8da-dasd_drive_clear_sense

	.section	.text.dasd_drive_give_back,"ax",@progbits
	.globl	dasd_drive_give_back
	.p2align	2
	.type	dasd_drive_give_back,@function
dasd_drive_give_back:
	sub	sp, sp, #192
	stp	x22, x21, [sp, #160]
	mov	x21, #18774
	ldr	x8, [x0]
	movk	x21, #17490, lsl #16
	cmp	x1, #0
	mov	w9, #4096
	movk	x21, #20037, lsl #32
	stp	x20, x19, [sp, #176]
	csel	x20, x9, xzr, eq
	movk	x21, #19535, lsl #48
	str	x30, [sp, #128]
	cmp	x8, x21
	stp	x24, x23, [sp, #144]
	b.ne	.LBBfba67b4_3
	ldr	x19, [x0, #8]
	stp	xzr, xzr, [x0]
	ldrb	w8, [x19, #1025]
	cbz	w8, .LBBfba67b4_4
	mov	w8, #-48
	b	.LBBfba67b4_15
.LBBfba67b4_3:
	mov	w8, #-1
	b	.LBBfba67b4_16
.LBBfba67b4_4:
	ldrb	w8, [x19, #1024]
	cmp	w8, #1
	b.ne	.LBBfba67b4_6
	mov	w8, #-55
	b	.LBBfba67b4_15
.LBBfba67b4_6:
	ldrb	w8, [x19]
	add	x9, x19, #8
	ldrb	w10, [x19, #88]
	add	x11, x19, #96
	mov	x22, x0
	mov	x23, x1
	cmp	x8, #1
	mov	x0, sp
	mov	w1, #8
	csel	x9, x9, xzr, eq
	cmp	x10, #1
	mov	x24, x2
	stp	x8, x9, [sp]
	ldrb	w8, [x19, #176]
	csel	x11, x11, xzr, eq
	add	x9, x19, #184
	stp	x10, x11, [sp, #16]
	ldrb	w10, [x19, #264]
	cmp	x8, #1
	add	x11, x19, #272
	csel	x9, x9, xzr, eq
	cmp	x10, #1
	stp	x8, x9, [sp, #32]
	ldrb	w8, [x19, #352]
	csel	x9, x11, xzr, eq
	add	x11, x19, #360
	stp	x10, x9, [sp, #48]
	ldrb	w10, [x19, #440]
	cmp	x8, #1
	csel	x9, x11, xzr, eq
	add	x11, x19, #448
	cmp	x10, #1
	stp	x8, x9, [sp, #64]
	ldrb	w8, [x19, #528]
	csel	x9, x11, xzr, eq
	add	x11, x19, #536
	stp	x10, x9, [sp, #80]
	ldrb	w10, [x19, #616]
	cmp	x8, #1
	csel	x9, x11, xzr, eq
	cmp	x10, #1
	stp	x8, x9, [sp, #96]
	add	x8, x19, #624
	csel	x8, x8, xzr, eq
	stp	x10, x8, [sp, #112]
	bl	ckd_image_stores_nth_store_808c45e55832e08b_.4c8b56e
	and	w8, w0, #0xff
	cmp	w8, #1
	b.ne	.LBBfba67b4_28
	ldr	x8, [x1, #8]
	cmp	x8, x24
	b.ne	.LBBfba67b4_14
	ldr	x1, [x1]
	add	x0, x23, x20
	mov	x2, x24
	mov	x8, x23
	sub	x9, x0, x1
	cmp	x9, x24
	b.hs	.LBBfba67b4_17
	cmp	x2, #8
	b.lo	.LBBfba67b4_11
	add	x9, x20, x8
	sub	x9, x9, x1
	cmp	x9, #32
	b.hs	.LBBfba67b4_19
.LBBfba67b4_11:
	mov	x9, xzr
.LBBfba67b4_12:
	add	x11, x20, x9
	sub	x10, x2, x9
	add	x9, x1, x9
	add	x8, x8, x11
.LBBfba67b4_13:
	ldrb	w11, [x9], #1
	subs	x10, x10, #1
	strb	w11, [x8], #1
	b.ne	.LBBfba67b4_13
	b	.LBBfba67b4_18
.LBBfba67b4_14:
	mov	x0, x22
	mov	w8, #-56
.LBBfba67b4_15:
	stp	x21, x19, [x0]
.LBBfba67b4_16:
	ldp	x20, x19, [sp, #176]
	mov	w0, w8
	ldp	x22, x21, [sp, #160]
	ldr	x30, [sp, #128]
	ldp	x24, x23, [sp, #144]
	add	sp, sp, #192
	ret
.LBBfba67b4_17:
	bl	memmove
.LBBfba67b4_18:
	mov	x0, x19
	bl	std_alloc_boxed_Box_drop_3643461161959432_.3befa6e
	mov	w8, wzr
	b	.LBBfba67b4_16
.LBBfba67b4_19:
	cmp	x2, #32
	b.hs	.LBBfba67b4_21
	mov	x9, xzr
	b	.LBBfba67b4_25
.LBBfba67b4_21:
	add	x12, x20, x8
	and	x10, x2, #0x18
	and	x9, x2, #0xffffffffffffffe0
	add	x11, x1, #16
	add	x12, x12, #16
	and	x13, x2, #0xffffffffffffffe0
.LBBfba67b4_22:
	ldp	q0, q1, [x11, #-16]
	subs	x13, x13, #32
	add	x11, x11, #32
	stp	q0, q1, [x12, #-16]
	add	x12, x12, #32
	b.ne	.LBBfba67b4_22
	cmp	x2, x9
	b.eq	.LBBfba67b4_18
	cbz	x10, .LBBfba67b4_12
.LBBfba67b4_25:
	mov	x11, x9
	and	x9, x2, #0xfffffffffffffff8
	add	x12, x20, x11
	sub	x10, x11, x9
	add	x11, x1, x11
	add	x12, x8, x12
.LBBfba67b4_26:
	ldr	d0, [x11], #8
	adds	x10, x10, #8
	str	d0, [x12], #8
	b.ne	.LBBfba67b4_26
	cmp	x2, x9
	b.eq	.LBBfba67b4_18
	b	.LBBfba67b4_12
.LBBfba67b4_28:
	brk	#0x1
.Lfunc_endfba67b4:
	.size	dasd_drive_give_back, .Lfunc_endfba67b4-dasd_drive_give_back

	.section	.text.dasd_drive_end,"ax",@progbits
	.globl	dasd_drive_end
	.p2align	2
	.type	dasd_drive_end,@function
dasd_drive_end:
	sub	sp, sp, #64
	stp	x20, x19, [sp, #48]
	mov	x20, #18774
	ldr	x8, [x0]
	movk	x20, #17490, lsl #16
	str	x30, [sp, #16]
	movk	x20, #20037, lsl #32
	stp	x22, x21, [sp, #32]
	movk	x20, #19535, lsl #48
	cmp	x8, x20
	b.ne	.LBBc847674_7
	ldr	x19, [x0, #8]
	stp	xzr, xzr, [x0]
	mov	w8, #-50
	ldrb	w9, [x19, #1025]
	cmp	w9, #3
	b.gt	.LBBc847674_8
	sub	w9, w9, #1
	cmp	w9, #3
	b.hs	.LBBc847674_6
.LBBc847674_3:
	mov	x21, x0
	mov	x0, x19
	bl	ckd_drive_drive_Drive_end_elsewhere_808c45e55832e08b_.1a20373
	mov	w8, w0
.LBBc847674_4:
	mov	x0, x21
.LBBc847674_5:
	and	w8, w8, #0xff
.LBBc847674_6:
	stp	x20, x19, [x0]
	ldp	x20, x19, [sp, #48]
	mov	w0, w8
	ldp	x22, x21, [sp, #32]
	ldr	x30, [sp, #16]
	add	sp, sp, #64
	ret
.LBBc847674_7:
	mov	w8, #-1
	ldp	x20, x19, [sp, #48]
	mov	w0, w8
	ldp	x22, x21, [sp, #32]
	ldr	x30, [sp, #16]
	add	sp, sp, #64
	ret
.LBBc847674_8:
	cmp	w9, #4
	b.eq	.LBBc847674_6
	ldrb	w8, [x19, #984]
	cmp	w8, #2
	b.le	.LBBc847674_15
	sub	w9, w8, #4
	cmp	w9, #2
	b.lo	.LBBc847674_3
	cmp	w8, #3
	b.ne	.LBBc847674_20
	ldr	x8, [x19, #968]
	cbz	x8, .LBBc847674_27
	ldrb	w9, [x19, #936]
	mov	w10, #1
	ldrb	w8, [x19, #1008]
	lsl	w9, w10, w9
	mov	w10, #51711
	movk	w10, #1023, lsl #16
	tst	w9, w10
	b.eq	.LBBc847674_42
	cmp	w8, #1
	cset	w9, eq
	b	.LBBc847674_28
.LBBc847674_15:
	b.lo	.LBBc847674_3
	ldrb	w9, [x19, #944]
	ldrb	w8, [x19, #1008]
	cmp	w9, #1
	b.ne	.LBBc847674_18
	ldrb	w9, [x19, #952]
	ldrb	w10, [x19, #936]
	mov	w11, #1114112
	mov	w14, #2
	and	w12, w9, #0xff
	lsr	w10, w11, w10
	ldrb	w11, [x19, #953]
	cmp	w12, #1
	mov	w12, #1
	strb	w9, [x19, #880]
	cset	w13, eq
	str	x12, [x19, #872]
	tst	w10, w13
	ldr	x10, [x19, #960]
	csel	w9, w14, w11, ne
	strb	w9, [x19, #881]
	str	x10, [x19, #888]
.LBBc847674_18:
	cbz	w8, .LBBc847674_38
	ldrb	w8, [x19, #936]
	adrp	x9, .Lswitch.table.dasd_drive_do.158
	add	x9, x9, :lo12:.Lswitch.table.dasd_drive_do.158
	ldrb	w8, [x9, x8]
	strb	wzr, [x19, #1025]
	b	.LBBc847674_5
.LBBc847674_20:
	ldrb	w8, [x19, #1008]
	str	xzr, [sp, #24]
	str	xzr, [sp]
	cmp	w8, #2
	b.ne	.LBBc847674_25
	ldrb	w9, [x19, #944]
	ldrb	w8, [x19, #1009]
	cmp	w9, #1
	b.ne	.LBBc847674_23
	ldrb	w9, [x19, #952]
	ldrb	w10, [x19, #936]
	mov	w11, #1114112
	mov	w14, #2
	and	w12, w9, #0xff
	lsr	w10, w11, w10
	ldrb	w11, [x19, #953]
	cmp	w12, #1
	mov	w12, #1
	strb	w9, [x19, #880]
	cset	w13, eq
	str	x12, [x19, #872]
	tst	w10, w13
	ldr	x10, [x19, #960]
	csel	w9, w14, w11, ne
	strb	w9, [x19, #881]
	str	x10, [x19, #888]
.LBBc847674_23:
	cbz	w8, .LBBc847674_39
	ldrb	w8, [x19, #936]
	adrp	x9, .Lswitch.table.dasd_drive_do.158
	add	x9, x9, :lo12:.Lswitch.table.dasd_drive_do.158
	ldrb	w8, [x9, x8]
	b	.LBBc847674_40
.LBBc847674_25:
	ldrb	w9, [x19, #1009]
	strb	w8, [sp]
	mov	x21, x0
	ldr	x8, [x19, #1016]
	add	x0, sp, #24
	add	x1, x19, #936
	add	x2, x19, #864
	mov	x3, sp
	strb	w9, [sp, #1]
	str	x8, [sp, #8]
	bl	ckd_drive_close_written_ends.f2d7708
	ldrb	w9, [sp, #24]
	ldrb	w8, [sp, #25]
	ldrh	w2, [sp, #26]
	ldrh	w3, [sp, #28]
	ldrh	w22, [sp, #30]
	strb	wzr, [x19, #1025]
	cbz	w9, .LBBc847674_41
	add	x1, x19, #1024
	mov	x0, x19
	bl	ckd_drive_job_Job_leave_808c45e55832e08b_.db7d905
	mov	w8, #14
	tst	w0, #0xff
	csel	w8, w8, w22, ne
	b	.LBBc847674_4
.LBBc847674_27:
	mov	w9, wzr
.LBBc847674_28:
	ldrb	w8, [x19, #944]
	cmp	w8, #1
	b.ne	.LBBc847674_30
	ldrb	w10, [x19, #952]
	ldrb	w11, [x19, #936]
	mov	w12, #1114112
	mov	w15, #2
	and	w13, w10, #0xff
	lsr	w11, w12, w11
	ldrb	w12, [x19, #953]
	cmp	w13, #1
	mov	w13, #1
	strb	w10, [x19, #880]
	cset	w14, eq
	str	x13, [x19, #872]
	tst	w11, w14
	ldr	x11, [x19, #960]
	csel	w10, w15, w12, ne
	strb	w10, [x19, #881]
	str	x11, [x19, #888]
.LBBc847674_30:
	cbz	w9, .LBBc847674_38
	ldr	x9, [x19, #1000]
	cbnz	x9, .LBBc847674_50
	ldrb	w11, [x19, #936]
	ldrb	w10, [x19, #952]
	cmp	w11, #25
	b.hi	.LBBc847674_49
	mov	w9, #1
	lsl	w9, w9, w11
	and	w9, w9, #0x3fffe00
	tst	w9, #0xfffff7ff
	b.ne	.LBBc847674_50
	ldr	x9, [x19, #960]
	cmp	w11, #8
	b.ne	.LBBc847674_45
	cmp	w8, #1
	b.ne	.LBBc847674_50
	cmp	w10, #1
	b.ne	.LBBc847674_50
	mov	w10, #1
	mov	w8, #1
	b	.LBBc847674_51
.LBBc847674_38:
	mov	w8, #12
	strb	wzr, [x19, #1025]
	b	.LBBc847674_5
.LBBc847674_39:
	mov	w8, #12
.LBBc847674_40:
	mov	w9, #1
	strb	wzr, [x19, #1025]
	strb	w9, [x19, #1024]
	b	.LBBc847674_5
.LBBc847674_41:
	ldrb	w9, [x19, #984]
	ldrb	w10, [x19, #1024]
	and	w9, w9, #0xff
	cmp	w9, #6
	csinc	w9, w10, wzr, ne
	strb	w9, [x19, #1024]
	b	.LBBc847674_4
.LBBc847674_42:
	mov	w10, #4608
	tst	w9, w10
	b.eq	.LBBc847674_44
	cmp	w8, #2
	cset	w9, eq
	b	.LBBc847674_28
.LBBc847674_44:
	cmp	w8, #0
	cset	w9, ne
	b	.LBBc847674_28
.LBBc847674_45:
	cmp	w11, #11
	b.ne	.LBBc847674_49
	cmp	w8, #1
	b.ne	.LBBc847674_50
	cmp	w10, #1
	b.ne	.LBBc847674_50
	mov	w8, #2
	mov	w10, #1
	b	.LBBc847674_51
.LBBc847674_49:
	cmp	w11, #7
	b.hs	.LBBc847674_52
.LBBc847674_50:
	mov	x10, xzr
	mov	x8, xzr
	mov	x9, xzr
.LBBc847674_51:
	str	x10, [x19, #904]
	str	x8, [x19, #912]
	mov	w8, #76
	str	x9, [x19, #920]
	strb	wzr, [x19, #1025]
	b	.LBBc847674_5
.LBBc847674_52:
	cmp	w8, #1
	b.ne	.LBBc847674_50
	cbnz	w10, .LBBc847674_50
	mov	x8, xzr
	mov	x9, xzr
	mov	w10, #1
	b	.LBBc847674_51
.Lfunc_endc847674:
	.size	dasd_drive_end, .Lfunc_endc847674-dasd_drive_end

	.section	.text.dasd_drive_give,"ax",@progbits
	.globl	dasd_drive_give
	.p2align	2
	.type	dasd_drive_give,@function
dasd_drive_give:
	stp	x30, x21, [sp, #-32]!
	stp	x20, x19, [sp, #16]
	mov	x20, #18774
	ldr	x8, [x0]
	movk	x20, #17490, lsl #16
	cmp	x1, #0
	mov	w9, #4096
	movk	x20, #20037, lsl #32
	csel	x9, x9, xzr, eq
	movk	x20, #19535, lsl #48
	cmp	x8, x20
	b.ne	.LBB8d41885_5
	ldr	x19, [x0, #8]
	stp	xzr, xzr, [x0]
	ldrb	w8, [x19, #1025]
	cmp	w8, #5
	b.ne	.LBB8d41885_6
	ldrb	w10, [x19, #936]
	mov	w11, #1
	mov	w8, #-51
	lsl	w10, w11, w10
	mov	w11, #16319
	movk	w11, #992, lsl #16
	tst	w10, w11
	b.ne	.LBB8d41885_7
	ldr	x8, [x19, #976]
	cmp	x8, x2
	b.hs	.LBB8d41885_8
	mov	w8, #-53
	stp	x20, x19, [x0]
	ldp	x20, x19, [sp, #16]
	mov	w0, w8
	ldp	x30, x21, [sp], #32
	ret
.LBB8d41885_5:
	mov	w8, #-1
	ldp	x20, x19, [sp, #16]
	mov	w0, w8
	ldp	x30, x21, [sp], #32
	ret
.LBB8d41885_6:
	mov	w8, #-51
.LBB8d41885_7:
	stp	x20, x19, [x0]
	ldp	x20, x19, [sp, #16]
	mov	w0, w8
	ldp	x30, x21, [sp], #32
	ret
.LBB8d41885_8:
	add	x1, x1, x9
	mov	x21, x0
	mov	x0, x19
	bl	ckd_drive_drive_Drive_give_808c45e55832e08b_.3403fdf
	mov	w8, wzr
	stp	x20, x19, [x21]
	ldp	x20, x19, [sp, #16]
	mov	w0, w8
	ldp	x30, x21, [sp], #32
	ret
.Lfunc_end8d41885:
	.size	dasd_drive_give, .Lfunc_end8d41885-dasd_drive_give

	.section	.text.dasd_drive_look,"ax",@progbits
	.globl	dasd_drive_look
	.p2align	2
	.type	dasd_drive_look,@function
dasd_drive_look:
	stp	x30, x21, [sp, #-32]!
	stp	x20, x19, [sp, #16]
	mov	x20, #18774
	ldr	x8, [x0]
	movk	x20, #17490, lsl #16
	movk	x20, #20037, lsl #32
	movk	x20, #19535, lsl #48
	cmp	x8, x20
	b.ne	.LBB265e3db_3
	ldr	x19, [x0, #8]
	stp	xzr, xzr, [x0]
	ldrb	w8, [x19, #1025]
	cmp	w8, #4
	b.hs	.LBB265e3db_4
	mov	w8, #-49
	stp	x20, x19, [x0]
	ldp	x20, x19, [sp, #16]
	mov	w0, w8
	ldp	x30, x21, [sp], #32
	ret
.LBB265e3db_3:
	mov	w8, #-1
	ldp	x20, x19, [sp, #16]
	mov	w0, w8
	ldp	x30, x21, [sp], #32
	ret
.LBB265e3db_4:
	b.ne	.LBB265e3db_6
	mov	x21, x0
	mov	x0, x19
	bl	ckd_drive_drive_Drive_look_for_area_808c45e55832e08b_.a55b112
	mov	w8, w0
	mov	x0, x21
	b	.LBB265e3db_13
.LBB265e3db_6:
	ldrb	w9, [x19, #984]
	sub	w8, w9, #2
	cmp	w8, #5
	b.hs	.LBB265e3db_8
	ldr	x9, [x19, #1000]
	b	.LBB265e3db_12
.LBB265e3db_8:
	ldr	x8, [x19, #968]
	cbnz	w9, .LBB265e3db_10
	mov	w9, #6
	b	.LBB265e3db_11
.LBB265e3db_10:
	ldrb	w9, [x19, #936]
	adrp	x10, .Lswitch.table.dasd_drive_do.155
	add	x10, x10, :lo12:.Lswitch.table.dasd_drive_do.155
	ldrb	w9, [x10, x9]
	adrp	x10, .Lswitch.table.dasd_drive_do.156
	add	x10, x10, :lo12:.Lswitch.table.dasd_drive_do.156
	ldr	x9, [x10, x9, lsl #3]
.LBB265e3db_11:
	subs	x8, x9, x8
	csel	x9, xzr, x8, lo
.LBB265e3db_12:
	mov	w8, wzr
	str	x9, [x19, #976]
.LBB265e3db_13:
	mov	w9, #2
	sub	w8, w9, w8
	and	w8, w8, #0xff
	stp	x20, x19, [x0]
	ldp	x20, x19, [sp, #16]
	mov	w0, w8
	ldp	x30, x21, [sp], #32
	ret
.Lfunc_end265e3db:
	.size	dasd_drive_look, .Lfunc_end265e3db-dasd_drive_look

	.section	.text.dasd_drive_do,"ax",@progbits
	.globl	dasd_drive_do
	.p2align	2
	.type	dasd_drive_do,@function
dasd_drive_do:
	sub	sp, sp, #128
	stp	x26, x25, [sp, #64]
	mov	x26, #18774
	ldr	x8, [x0]
	movk	x26, #17490, lsl #16
	cmp	x2, #0
	mov	w9, #4096
	movk	x26, #20037, lsl #32
	stp	x22, x21, [sp, #96]
	csel	x22, x9, xzr, eq
	movk	x26, #19535, lsl #48
	stp	x29, x30, [sp, #32]
	cmp	x8, x26
	stp	x28, x27, [sp, #48]
	stp	x24, x23, [sp, #80]
	stp	x20, x19, [sp, #112]
	b.ne	.LBBdf50b21_7
	ldr	x20, [x0, #8]
	stp	xzr, xzr, [x0]
	mov	x19, x0
	ldrb	w9, [x1, #17]
	mov	x21, x1
	ldrb	w8, [x20, #1025]
	cmp	w8, #0
	cset	w10, eq
	cmp	w9, #0
	cset	w11, ne
	eor	w10, w10, w11
	tbz	w10, #0, .LBBdf50b21_8
	ldrb	w27, [x21, #18]
	mov	x25, x3
	cbz	w9, .LBBdf50b21_9
	cmp	w8, #5
	b.ne	.LBBdf50b21_33
.LBBdf50b21_4:
	ldrb	w8, [x20, #936]
	ldr	x28, [x20, #976]
	mov	w9, #1
	add	x23, x2, x22
	lsl	w8, w9, w8
	mov	w9, #16319
	cmp	x3, x28
	movk	w9, #992, lsl #16
	csel	x22, x3, x28, lo
	tst	w8, w9
	b.eq	.LBBdf50b21_13
	ldrb	w8, [x20, #984]
	cmp	w8, #3
	b.ne	.LBBdf50b21_11
	ldr	x24, [x20, #992]
	ldr	x1, [x20, #744]
	mov	x3, x23
	ldrb	w0, [x20, #1008]
	ldr	x29, [x20, #1000]
	mov	x4, x22
	mov	x2, x24
	bl	ckd_drive_transfer_compared.c54acf5
	add	x8, x24, x22
	sub	x9, x29, x22
	strb	w0, [x20, #1008]
	str	x8, [x20, #992]
	mov	x8, x28
	str	x9, [x20, #1000]
	b	.LBBdf50b21_12
.LBBdf50b21_7:
	mov	w0, #-1
	b	.LBBdf50b21_46
.LBBdf50b21_8:
	cmp	w9, #0
	mov	w8, #-49
	cinc	w0, w8, eq
	b	.LBBdf50b21_45
.LBBdf50b21_9:
	mov	x23, x2
	ldrb	w2, [x21, #16]
	add	x1, x20, #1024
	mov	x0, x20
	bl	ckd_drive_job_Job_start_808c45e55832e08b_.d85c7fa
	and	w8, w0, #0xff
	sub	w9, w8, #1
	strb	w8, [x20, #1025]
	cmp	w9, #3
	b.hs	.LBBdf50b21_18
	mov	w8, #1
	mov	x3, x25
	mov	x2, x23
	b	.LBBdf50b21_32
.LBBdf50b21_11:
	mov	x0, x20
	mov	x1, x23
	mov	x2, x22
	bl	ckd_drive_job_Job_collect_or_write_808c45e55832e08b_.04dba8e
	ldr	x8, [x20, #976]
.LBBdf50b21_12:
	ldr	x9, [x20, #968]
	sub	x8, x8, x22
	str	x8, [x20, #976]
	add	x9, x9, x22
	str	x9, [x20, #968]
	ldrb	w8, [x20, #1025]
	cmp	w8, #5
	b.eq	.LBBdf50b21_14
	b	.LBBdf50b21_34
.LBBdf50b21_13:
	mov	x0, x20
	mov	x1, x23
	mov	x2, x22
	bl	ckd_drive_drive_Drive_give_808c45e55832e08b_.3403fdf
	ldrb	w8, [x20, #1025]
	cmp	w8, #5
	b.ne	.LBBdf50b21_34
.LBBdf50b21_14:
	ldrb	w8, [x20, #936]
	mov	w9, #1
	mov	w10, #16319
	movk	w10, #992, lsl #16
	lsl	w9, w9, w8
	tst	w9, w10
	b.eq	.LBBdf50b21_34
	ldr	x9, [x20, #976]
	cbnz	x9, .LBBdf50b21_34
	ldrb	w9, [x20, #984]
	ldr	x29, [x20, #968]
	mov	x10, x25
	sub	w11, w9, #2
	cmp	w11, #5
	b.hs	.LBBdf50b21_58
	ldr	x25, [x20, #1000]
	b	.LBBdf50b21_67
.LBBdf50b21_18:
	mov	x3, x25
	mov	x2, x23
	cbz	w8, .LBBdf50b21_32
	mov	w8, #4
	mov	w24, #254
	cmp	w8, #5
	b.ne	.LBBdf50b21_22
	b	.LBBdf50b21_23
.LBBdf50b21_20:
	cbz	w24, .LBBdf50b21_31
	ldrb	w8, [x20, #1025]
	sub	w24, w24, #1
	cmp	w8, #5
	b.eq	.LBBdf50b21_23
.LBBdf50b21_22:
	mov	x0, x20
	bl	ckd_drive_drive_Drive_look_for_area_808c45e55832e08b_.a55b112
	mov	x2, x23
	mov	x3, x25
	b	.LBBdf50b21_30
.LBBdf50b21_23:
	ldrb	w9, [x20, #984]
	sub	w8, w9, #2
	cmp	w8, #5
	b.hs	.LBBdf50b21_25
	ldr	x8, [x20, #1000]
	b	.LBBdf50b21_29
.LBBdf50b21_25:
	ldr	x8, [x20, #968]
	cmp	w9, #1
	b.ne	.LBBdf50b21_27
	ldrb	w9, [x20, #936]
	adrp	x10, .Lswitch.table.dasd_drive_do.155
	add	x10, x10, :lo12:.Lswitch.table.dasd_drive_do.155
	ldrb	w9, [x10, x9]
	adrp	x10, .Lswitch.table.dasd_drive_do.156
	add	x10, x10, :lo12:.Lswitch.table.dasd_drive_do.156
	ldr	x9, [x10, x9, lsl #3]
	b	.LBBdf50b21_28
.LBBdf50b21_27:
	mov	w9, #6
.LBBdf50b21_28:
	subs	x8, x9, x8
	csel	x8, xzr, x8, lo
.LBBdf50b21_29:
	mov	w0, wzr
	str	x8, [x20, #976]
.LBBdf50b21_30:
	and	w8, w0, #0xff
	cmp	w8, #1
	b.eq	.LBBdf50b21_20
.LBBdf50b21_31:
	mov	w8, #2
.LBBdf50b21_32:
	strb	w8, [x21, #17]
	ldrb	w8, [x20, #1025]
	cmp	w8, #5
	b.eq	.LBBdf50b21_4
.LBBdf50b21_33:
	mov	x22, xzr
.LBBdf50b21_34:
	str	x22, [x21]
	ldrb	w8, [x20, #1025]
	cmp	w8, #5
	b.ne	.LBBdf50b21_40
	ldr	x8, [x20, #976]
	str	x8, [x21, #8]
	ldrb	w8, [x20, #1025]
	cmp	w8, #3
	b.le	.LBBdf50b21_41
.LBBdf50b21_36:
	cmp	w8, #4
	b.eq	.LBBdf50b21_39
	cbz	w27, .LBBdf50b21_47
	ldr	x8, [x20, #976]
	cbz	x8, .LBBdf50b21_47
.LBBdf50b21_39:
	mov	w0, #256
	b	.LBBdf50b21_45
.LBBdf50b21_40:
	str	xzr, [x21, #8]
	ldrb	w8, [x20, #1025]
	cmp	w8, #3
	b.gt	.LBBdf50b21_36
.LBBdf50b21_41:
	sub	w8, w8, #1
	cmp	w8, #3
	b.hs	.LBBdf50b21_44
.LBBdf50b21_42:
	mov	x0, x20
	bl	ckd_drive_drive_Drive_end_elsewhere_808c45e55832e08b_.1a20373
.LBBdf50b21_43:
	and	w0, w0, #0xff
	b	.LBBdf50b21_45
.LBBdf50b21_44:
	mov	w0, #14
.LBBdf50b21_45:
	stp	x26, x20, [x19]
.LBBdf50b21_46:
	ldp	x20, x19, [sp, #112]
	ldp	x22, x21, [sp, #96]
	ldp	x24, x23, [sp, #80]
	ldp	x26, x25, [sp, #64]
	ldp	x28, x27, [sp, #48]
	ldp	x29, x30, [sp, #32]
	add	sp, sp, #128
	ret
.LBBdf50b21_47:
	ldrb	w8, [x20, #984]
	cmp	w8, #2
	b.le	.LBBdf50b21_53
	sub	w9, w8, #4
	cmp	w9, #2
	b.lo	.LBBdf50b21_42
	cmp	w8, #3
	b.ne	.LBBdf50b21_60
	ldr	x8, [x20, #968]
	cbz	x8, .LBBdf50b21_77
	ldrb	w9, [x20, #936]
	mov	w10, #1
	ldrb	w8, [x20, #1008]
	lsl	w9, w10, w9
	mov	w10, #51711
	movk	w10, #1023, lsl #16
	tst	w9, w10
	b.eq	.LBBdf50b21_92
	cmp	w8, #1
	cset	w9, eq
	b	.LBBdf50b21_78
.LBBdf50b21_53:
	b.lo	.LBBdf50b21_42
	ldrb	w9, [x20, #944]
	ldrb	w8, [x20, #1008]
	cmp	w9, #1
	b.ne	.LBBdf50b21_56
	ldrb	w9, [x20, #952]
	ldrb	w10, [x20, #936]
	mov	w11, #1114112
	mov	w14, #2
	and	w12, w9, #0xff
	lsr	w10, w11, w10
	ldrb	w11, [x20, #953]
	cmp	w12, #1
	mov	w12, #1
	strb	w9, [x20, #880]
	cset	w13, eq
	str	x12, [x20, #872]
	tst	w10, w13
	ldr	x10, [x20, #960]
	csel	w9, w14, w11, ne
	strb	w9, [x20, #881]
	str	x10, [x20, #888]
.LBBdf50b21_56:
	cbz	w8, .LBBdf50b21_88
	ldrb	w8, [x20, #936]
	adrp	x9, .Lswitch.table.dasd_drive_do.158
	add	x9, x9, :lo12:.Lswitch.table.dasd_drive_do.158
	ldrb	w0, [x9, x8]
	strb	wzr, [x20, #1025]
	b	.LBBdf50b21_43
.LBBdf50b21_58:
	cmp	w9, #1
	b.ne	.LBBdf50b21_65
	adrp	x11, .Lswitch.table.dasd_drive_do.155
	add	x11, x11, :lo12:.Lswitch.table.dasd_drive_do.155
	adrp	x12, .Lswitch.table.dasd_drive_do.156
	add	x12, x12, :lo12:.Lswitch.table.dasd_drive_do.156
	ldrb	w11, [x11, x8]
	ldr	x11, [x12, x11, lsl #3]
	b	.LBBdf50b21_66
.LBBdf50b21_60:
	ldrb	w8, [x20, #1008]
	str	xzr, [sp, #24]
	str	xzr, [sp, #8]
	cmp	w8, #2
	b.ne	.LBBdf50b21_75
	ldrb	w9, [x20, #944]
	ldrb	w8, [x20, #1009]
	cmp	w9, #1
	b.ne	.LBBdf50b21_63
	ldrb	w9, [x20, #952]
	ldrb	w10, [x20, #936]
	mov	w11, #1114112
	mov	w14, #2
	and	w12, w9, #0xff
	lsr	w10, w11, w10
	ldrb	w11, [x20, #953]
	cmp	w12, #1
	mov	w12, #1
	strb	w9, [x20, #880]
	cset	w13, eq
	str	x12, [x20, #872]
	tst	w10, w13
	ldr	x10, [x20, #960]
	csel	w9, w14, w11, ne
	strb	w9, [x20, #881]
	str	x10, [x20, #888]
.LBBdf50b21_63:
	cbz	w8, .LBBdf50b21_89
	ldrb	w8, [x20, #936]
	adrp	x9, .Lswitch.table.dasd_drive_do.158
	add	x9, x9, :lo12:.Lswitch.table.dasd_drive_do.158
	ldrb	w0, [x9, x8]
	b	.LBBdf50b21_90
.LBBdf50b21_65:
	mov	w11, #6
.LBBdf50b21_66:
	subs	x11, x11, x29
	csel	x25, xzr, x11, lo
.LBBdf50b21_67:
	cmp	x10, x28
	str	x25, [x20, #976]
	b.ls	.LBBdf50b21_34
	sub	x10, x10, x22
	cmp	x10, x25
	csel	x24, x10, x25, lo
	mov	w10, #1
	lsl	w8, w10, w8
	mov	w10, #16319
	movk	w10, #992, lsl #16
	tst	w8, w10
	b.eq	.LBBdf50b21_73
	cmp	w9, #3
	b.ne	.LBBdf50b21_71
	ldr	x28, [x20, #992]
	ldr	x8, [x20, #1000]
	add	x3, x23, x22
	ldr	x1, [x20, #744]
	ldrb	w0, [x20, #1008]
	mov	x4, x24
	mov	x2, x28
	str	x8, [sp]
	bl	ckd_drive_transfer_compared.c54acf5
	ldr	x9, [sp]
	add	x8, x28, x24
	strb	w0, [x20, #1008]
	str	x8, [x20, #992]
	sub	x9, x9, x24
	str	x9, [x20, #1000]
	b	.LBBdf50b21_72
.LBBdf50b21_71:
	add	x1, x23, x22
	mov	x0, x20
	mov	x2, x24
	bl	ckd_drive_job_Job_collect_or_write_808c45e55832e08b_.04dba8e
	ldr	x25, [x20, #976]
	ldr	x29, [x20, #968]
.LBBdf50b21_72:
	add	x8, x29, x24
	sub	x9, x25, x24
	str	x8, [x20, #968]
	str	x9, [x20, #976]
	b	.LBBdf50b21_74
.LBBdf50b21_73:
	add	x1, x23, x22
	mov	x0, x20
	mov	x2, x24
	bl	ckd_drive_drive_Drive_give_808c45e55832e08b_.3403fdf
.LBBdf50b21_74:
	add	x22, x24, x22
	b	.LBBdf50b21_34
.LBBdf50b21_75:
	ldrb	w9, [x20, #1009]
	strb	w8, [sp, #8]
	add	x0, sp, #24
	ldr	x8, [x20, #1016]
	add	x1, x20, #936
	add	x2, x20, #864
	add	x3, sp, #8
	strb	w9, [sp, #9]
	str	x8, [sp, #16]
	bl	ckd_drive_close_written_ends.f2d7708
	ldrb	w8, [sp, #24]
	ldrb	w0, [sp, #25]
	ldrh	w2, [sp, #26]
	ldrh	w3, [sp, #28]
	ldrh	w21, [sp, #30]
	strb	wzr, [x20, #1025]
	cbz	w8, .LBBdf50b21_91
	add	x1, x20, #1024
	mov	x0, x20
	bl	ckd_drive_job_Job_leave_808c45e55832e08b_.db7d905
	mov	w8, #14
	tst	w0, #0xff
	csel	w0, w8, w21, ne
	b	.LBBdf50b21_43
.LBBdf50b21_77:
	mov	w9, wzr
.LBBdf50b21_78:
	ldrb	w8, [x20, #944]
	cmp	w8, #1
	b.ne	.LBBdf50b21_80
	ldrb	w10, [x20, #952]
	ldrb	w11, [x20, #936]
	mov	w12, #1114112
	mov	w15, #2
	and	w13, w10, #0xff
	lsr	w11, w12, w11
	ldrb	w12, [x20, #953]
	cmp	w13, #1
	mov	w13, #1
	strb	w10, [x20, #880]
	cset	w14, eq
	str	x13, [x20, #872]
	tst	w11, w14
	ldr	x11, [x20, #960]
	csel	w10, w15, w12, ne
	strb	w10, [x20, #881]
	str	x11, [x20, #888]
.LBBdf50b21_80:
	cbz	w9, .LBBdf50b21_88
	ldr	x9, [x20, #1000]
	cbnz	x9, .LBBdf50b21_100
	ldrb	w11, [x20, #936]
	ldrb	w10, [x20, #952]
	cmp	w11, #25
	b.hi	.LBBdf50b21_99
	mov	w9, #1
	lsl	w9, w9, w11
	and	w9, w9, #0x3fffe00
	tst	w9, #0xfffff7ff
	b.ne	.LBBdf50b21_100
	ldr	x9, [x20, #960]
	cmp	w11, #8
	b.ne	.LBBdf50b21_95
	cmp	w8, #1
	b.ne	.LBBdf50b21_100
	cmp	w10, #1
	b.ne	.LBBdf50b21_100
	mov	w10, #1
	mov	w8, #1
	b	.LBBdf50b21_101
.LBBdf50b21_88:
	mov	w0, #12
	strb	wzr, [x20, #1025]
	b	.LBBdf50b21_43
.LBBdf50b21_89:
	mov	w0, #12
.LBBdf50b21_90:
	mov	w8, #1
	strb	wzr, [x20, #1025]
	strb	w8, [x20, #1024]
	b	.LBBdf50b21_43
.LBBdf50b21_91:
	ldrb	w8, [x20, #984]
	ldrb	w9, [x20, #1024]
	and	w8, w8, #0xff
	cmp	w8, #6
	csinc	w8, w9, wzr, ne
	strb	w8, [x20, #1024]
	b	.LBBdf50b21_43
.LBBdf50b21_92:
	mov	w10, #4608
	tst	w9, w10
	b.eq	.LBBdf50b21_94
	cmp	w8, #2
	cset	w9, eq
	b	.LBBdf50b21_78
.LBBdf50b21_94:
	cmp	w8, #0
	cset	w9, ne
	b	.LBBdf50b21_78
.LBBdf50b21_95:
	cmp	w11, #11
	b.ne	.LBBdf50b21_99
	cmp	w8, #1
	b.ne	.LBBdf50b21_100
	cmp	w10, #1
	b.ne	.LBBdf50b21_100
	mov	w8, #2
	mov	w10, #1
	b	.LBBdf50b21_101
.LBBdf50b21_99:
	cmp	w11, #7
	b.hs	.LBBdf50b21_102
.LBBdf50b21_100:
	mov	x10, xzr
	mov	x8, xzr
	mov	x9, xzr
.LBBdf50b21_101:
	str	x10, [x20, #904]
	mov	w0, #76
	str	x8, [x20, #912]
	str	x9, [x20, #920]
	strb	wzr, [x20, #1025]
	b	.LBBdf50b21_43
.LBBdf50b21_102:
	cmp	w8, #1
	b.ne	.LBBdf50b21_100
	cbnz	w10, .LBBdf50b21_100
	mov	x8, xzr
	mov	x9, xzr
	mov	w10, #1
	b	.LBBdf50b21_101
.Lfunc_enddf50b21:
	.size	dasd_drive_do, .Lfunc_enddf50b21-dasd_drive_do

	.section	.text.dasd_drive_restore,"ax",@progbits
	.globl	dasd_drive_restore
	.p2align	2
	.type	dasd_drive_restore,@function
dasd_drive_restore:
	stp	x30, x23, [sp, #-48]!
	stp	x20, x19, [sp, #32]
	mov	x20, #18774
	ldr	x9, [x0]
	movk	x20, #17490, lsl #16
	cmp	x1, #0
	mov	w8, #4096
	movk	x20, #20037, lsl #32
	csel	x8, x8, xzr, eq
	stp	x22, x21, [sp, #16]
	movk	x20, #19535, lsl #48
	cmp	x9, x20
	b.ne	.LBB573345c_3
	ldr	x21, [x0, #8]
	stp	xzr, xzr, [x0]
	ldrb	w9, [x21, #1025]
	cbz	w9, .LBB573345c_4
	mov	w8, #-48
	stp	x20, x21, [x0]
	ldp	x20, x19, [sp, #32]
	mov	w0, w8
	ldp	x22, x21, [sp, #16]
	ldp	x30, x23, [sp], #48
	ret
.LBB573345c_3:
	mov	w8, #-1
	ldp	x20, x19, [sp, #32]
	mov	w0, w8
	ldp	x22, x21, [sp, #16]
	ldp	x30, x23, [sp], #48
	ret
.LBB573345c_4:
	ldrb	w9, [x21, #1024]
	cmp	w9, #1
	b.ne	.LBB573345c_6
	mov	w8, #-55
	stp	x20, x21, [x0]
	ldp	x20, x19, [sp, #32]
	mov	w0, w8
	ldp	x22, x21, [sp, #16]
	ldp	x30, x23, [sp], #48
	ret
.LBB573345c_6:
	cmp	x2, #9
	b.lo	.LBB573345c_14
	add	x19, x1, x8
	mov	w9, #16708
	ldr	w8, [x19]
	movk	w9, #17491, lsl #16
	cmp	w8, w9
	b.ne	.LBB573345c_14
	mov	x23, x2
	mov	x22, x0
	adrp	x2, .Lstatic.11+8
	add	x2, x2, :lo12:.Lstatic.11+8
	mov	x0, x19
	mov	w1, #8
	bl	core_cmp_slices_groups_equal_i8_31_core_cmp_numbers_U8PartialEq_.3f1b21c
	cbz	w0, .LBB573345c_15
	ldrb	w8, [x19, #8]
	mov	x0, x22
	cmp	w8, #1
	b.ne	.LBB573345c_16
	cmp	x23, #15
	b.ne	.LBB573345c_17
	ldurh	w9, [x19, #9]
	ldr	x8, [x21, #704]
	rev16	w9, w9
	cmp	w9, w8, lsr #16
	b.hs	.LBB573345c_18
	ldurh	w10, [x19, #11]
	tst	x8, #0xff
	mov	w8, #20
	mov	w11, #10
	rev16	w10, w10
	csel	w8, w11, w8, eq
	cmp	w8, w10, uxth
	b.ls	.LBB573345c_18
	movi	v0.2d, #0000000000000000
	ldurh	w11, [x19, #13]
	mov	w8, wzr
	strh	w9, [x21, #864]
	strh	w10, [x21, #866]
	rev16	w9, w11
	add	x10, x21, #870
	strh	wzr, [x21, #934]
	strh	w9, [x21, #868]
	stp	q0, q0, [x10]
	stp	q0, q0, [x10, #32]
	strh	wzr, [x21, #1024]
	stp	x20, x21, [x0]
	ldp	x20, x19, [sp, #32]
	mov	w0, w8
	ldp	x22, x21, [sp, #16]
	ldp	x30, x23, [sp], #48
	ret
.LBB573345c_14:
	mov	w8, #-40
	stp	x20, x21, [x0]
	ldp	x20, x19, [sp, #32]
	mov	w0, w8
	ldp	x22, x21, [sp, #16]
	ldp	x30, x23, [sp], #48
	ret
.LBB573345c_15:
	mov	w8, #-40
	stp	x20, x21, [x22]
	ldp	x20, x19, [sp, #32]
	mov	w0, w8
	ldp	x22, x21, [sp, #16]
	ldp	x30, x23, [sp], #48
	ret
.LBB573345c_16:
	mov	w8, #-41
	stp	x20, x21, [x0]
	ldp	x20, x19, [sp, #32]
	mov	w0, w8
	ldp	x22, x21, [sp, #16]
	ldp	x30, x23, [sp], #48
	ret
.LBB573345c_17:
	mov	w8, #-42
	stp	x20, x21, [x0]
	ldp	x20, x19, [sp, #32]
	mov	w0, w8
	ldp	x22, x21, [sp, #16]
	ldp	x30, x23, [sp], #48
	ret
.LBB573345c_18:
	mov	w8, #-47
	stp	x20, x21, [x0]
	ldp	x20, x19, [sp, #32]
	mov	w0, w8
	ldp	x22, x21, [sp, #16]
	ldp	x30, x23, [sp], #48
	ret
.Lfunc_end573345c:
	.size	dasd_drive_restore, .Lfunc_end573345c-dasd_drive_restore

	.section	.text.dasd_drive_settle,"ax",@progbits
	.globl	dasd_drive_settle
	.p2align	2
	.type	dasd_drive_settle,@function
dasd_drive_settle:
	stp	x30, x21, [sp, #-32]!
	stp	x20, x19, [sp, #16]
	mov	x20, #18774
	ldr	x8, [x0]
	movk	x20, #17490, lsl #16
	movk	x20, #20037, lsl #32
	movk	x20, #19535, lsl #48
	cmp	x8, x20
	b.ne	.LBB58ef05d_4
	ldr	x19, [x0, #8]
	stp	xzr, xzr, [x0]
	ldrb	w8, [x19, #1025]
	cmp	w8, #5
	b.ne	.LBB58ef05d_5
	ldr	x8, [x19, #968]
	cbz	x8, .LBB58ef05d_5
	mov	w8, #-54
	stp	x20, x19, [x0]
	ldp	x20, x19, [sp, #16]
	mov	w0, w8
	ldp	x30, x21, [sp], #32
	ret
.LBB58ef05d_4:
	mov	w8, #-1
	ldp	x20, x19, [sp, #16]
	mov	w0, w8
	ldp	x30, x21, [sp], #32
	ret
.LBB58ef05d_5:
	ldrb	w8, [x19, #856]
	strb	wzr, [x19, #1025]
	cmp	w8, #1
	b.ne	.LBB58ef05d_8
	mov	x21, x0
	mov	x0, x19
	bl	ckd_slot_cache_TrackCache_save_changed_808c45e55832e08b_.7b334c2
	mov	w8, w0
	mov	x0, x21
	and	w8, w8, #0xff
	tbz	w8, #0, .LBB58ef05d_8
	movi	v0.2d, #0000000000000000
	ldrh	w8, [x19, #868]
	add	x9, x19, #904
	str	xzr, [x19, #920]
	orr	w8, w8, #0x1000
	strh	w8, [x19, #868]
	mov	w8, #1
	str	q0, [x9]
	mov	w9, #2
	strb	w9, [x19, #1024]
	stp	x20, x19, [x0]
	ldp	x20, x19, [sp, #16]
	mov	w0, w8
	ldp	x30, x21, [sp], #32
	ret
.LBB58ef05d_8:
	ldrb	w9, [x19, #1024]
	mov	w8, wzr
	cmp	w9, #1
	csel	w9, wzr, w9, eq
	strb	w9, [x19, #1024]
	stp	x20, x19, [x0]
	ldp	x20, x19, [sp, #16]
	mov	w0, w8
	ldp	x30, x21, [sp], #32
	ret
.Lfunc_end58ef05d:
	.size	dasd_drive_settle, .Lfunc_end58ef05d-dasd_drive_settle

	.section	.text.dasd_drive_show_file,"ax",@progbits
	.globl	dasd_drive_show_file
	.p2align	2
	.type	dasd_drive_show_file,@function
dasd_drive_show_file:
	sub	sp, sp, #176
	stp	x20, x19, [sp, #160]
	mov	x19, #18774
	ldr	x8, [x0]
	movk	x19, #17490, lsl #16
	str	x30, [sp, #128]
	movk	x19, #20037, lsl #32
	stp	x22, x21, [sp, #144]
	movk	x19, #19535, lsl #48
	cmp	x8, x19
	b.ne	.LBBafb3b44_3
	ldr	x20, [x0, #8]
	stp	xzr, xzr, [x0]
	ldrb	w8, [x20, #1025]
	cbz	w8, .LBBafb3b44_4
	mov	w8, #-48
	b	.LBBafb3b44_8
.LBBafb3b44_3:
	mov	w8, #-1
	ldp	x20, x19, [sp, #160]
	mov	w0, w8
	ldp	x22, x21, [sp, #144]
	ldr	x30, [sp, #128]
	add	sp, sp, #176
	ret
.LBBafb3b44_4:
	ldrb	w8, [x20, #1024]
	cmp	w8, #1
	b.ne	.LBBafb3b44_6
	mov	w8, #-55
	b	.LBBafb3b44_8
.LBBafb3b44_6:
	ldrb	w8, [x20]
	add	x9, x20, #8
	ldrb	w10, [x20, #88]
	add	x11, x20, #96
	mov	x22, x1
	mov	x21, x0
	cmp	x8, #1
	mov	x0, sp
	mov	w1, #8
	csel	x9, x9, xzr, eq
	cmp	x10, #1
	stp	x8, x9, [sp]
	ldrb	w8, [x20, #176]
	csel	x11, x11, xzr, eq
	add	x9, x20, #184
	stp	x10, x11, [sp, #16]
	ldrb	w10, [x20, #264]
	cmp	x8, #1
	add	x11, x20, #272
	csel	x9, x9, xzr, eq
	cmp	x10, #1
	stp	x8, x9, [sp, #32]
	ldrb	w8, [x20, #352]
	csel	x9, x11, xzr, eq
	add	x11, x20, #360
	stp	x10, x9, [sp, #48]
	ldrb	w10, [x20, #440]
	cmp	x8, #1
	csel	x9, x11, xzr, eq
	add	x11, x20, #448
	cmp	x10, #1
	stp	x8, x9, [sp, #64]
	ldrb	w8, [x20, #528]
	csel	x9, x11, xzr, eq
	add	x11, x20, #536
	stp	x10, x9, [sp, #80]
	ldrb	w10, [x20, #616]
	cmp	x8, #1
	csel	x9, x11, xzr, eq
	cmp	x10, #1
	stp	x8, x9, [sp, #96]
	add	x8, x20, #624
	csel	x8, x8, xzr, eq
	stp	x10, x8, [sp, #112]
	bl	ckd_image_stores_nth_store_808c45e55832e08b_.4c8b56e
	and	w8, w0, #0xff
	cmp	w8, #1
	b.ne	.LBBafb3b44_9
	ldr	q0, [x1]
	ldr	x9, [x1, #24]
	mov	w8, wzr
	mov	x0, x21
	str	q0, [x22]
	str	x9, [x22, #16]
.LBBafb3b44_8:
	stp	x19, x20, [x0]
	ldp	x20, x19, [sp, #160]
	mov	w0, w8
	ldp	x22, x21, [sp, #144]
	ldr	x30, [sp, #128]
	add	sp, sp, #176
	ret
.LBBafb3b44_9:
	brk	#0x1
.Lfunc_endafb3b44:
	.size	dasd_drive_show_file, .Lfunc_endafb3b44-dasd_drive_show_file

	.section	.text.dasd_drive_next_changed,"ax",@progbits
	.globl	dasd_drive_next_changed
	.p2align	2
	.type	dasd_drive_next_changed,@function
dasd_drive_next_changed:
	sub	sp, sp, #192
	stp	x20, x19, [sp, #176]
	mov	x19, #18774
	ldr	x8, [x0]
	movk	x19, #17490, lsl #16
	str	x30, [sp, #128]
	movk	x19, #20037, lsl #32
	stp	x24, x23, [sp, #144]
	movk	x19, #19535, lsl #48
	stp	x22, x21, [sp, #160]
	cmp	x8, x19
	b.ne	.LBBcaabb4f_3
	ldr	x20, [x0, #8]
	stp	xzr, xzr, [x0]
	ldrb	w8, [x20, #1025]
	cbz	w8, .LBBcaabb4f_4
	mov	w8, #-48
	b	.LBBcaabb4f_23
.LBBcaabb4f_3:
	mov	w8, #-1
	b	.LBBcaabb4f_24
.LBBcaabb4f_4:
	ldrb	w8, [x20, #1024]
	cmp	w8, #1
	b.ne	.LBBcaabb4f_6
	mov	w8, #-55
	b	.LBBcaabb4f_23
.LBBcaabb4f_6:
	ldrb	w8, [x20]
	add	x9, x20, #8
	ldrb	w10, [x20, #88]
	add	x11, x20, #96
	mov	x21, x1
	mov	x23, x0
	cmp	x8, #1
	ldr	x24, [x20, #704]
	mov	x0, sp
	csel	x9, x9, xzr, eq
	cmp	x10, #1
	mov	w1, #8
	stp	x8, x9, [sp]
	ldrb	w8, [x20, #176]
	csel	x11, x11, xzr, eq
	add	x9, x20, #184
	stp	x10, x11, [sp, #16]
	ldrb	w10, [x20, #264]
	cmp	x8, #1
	add	x11, x20, #272
	mov	x22, x2
	csel	x9, x9, xzr, eq
	cmp	x10, #1
	stp	x8, x9, [sp, #32]
	ldrb	w8, [x20, #352]
	csel	x9, x11, xzr, eq
	add	x11, x20, #360
	stp	x10, x9, [sp, #48]
	ldrb	w10, [x20, #440]
	cmp	x8, #1
	csel	x9, x11, xzr, eq
	add	x11, x20, #448
	cmp	x10, #1
	stp	x8, x9, [sp, #64]
	ldrb	w8, [x20, #528]
	csel	x9, x11, xzr, eq
	add	x11, x20, #536
	stp	x10, x9, [sp, #80]
	ldrb	w10, [x20, #616]
	cmp	x8, #1
	csel	x9, x11, xzr, eq
	cmp	x10, #1
	stp	x8, x9, [sp, #96]
	add	x8, x20, #624
	csel	x8, x8, xzr, eq
	stp	x10, x8, [sp, #112]
	bl	ckd_image_stores_nth_store_808c45e55832e08b_.4c8b56e
	and	w8, w0, #0xff
	cmp	w8, #1
	b.ne	.LBBcaabb4f_25
	lsr	x10, x24, #32
	mov	w8, wzr
	mov	x0, x23
	cbz	x10, .LBBcaabb4f_23
	ldr	x11, [x1, #8]
	subs	x11, x11, #512
	b.lo	.LBBcaabb4f_23
	udiv	x12, x11, x10
	ldr	x11, [x22, #24]
	mov	x9, x22
	cmp	x11, x12
	b.hs	.LBBcaabb4f_20
	ldrb	w13, [x1, #40]
	ldr	x8, [x1, #24]
	cmp	w13, #1
	b.ne	.LBBcaabb4f_19
	cmp	x8, x21
	b.lo	.LBBcaabb4f_21
	ldr	w14, [x1, #52]
	cbz	w14, .LBBcaabb4f_25
	cmp	w14, w10
	b.ne	.LBBcaabb4f_21
	mov	x8, #512
	madd	x13, x11, x10, x8
	ldr	w15, [x1, #48]
.LBBcaabb4f_15:
	add	x8, x15, x13
	udiv	x16, x8, x14
	msub	x16, x16, x14, x8
	cbnz	x16, .LBBcaabb4f_22
	udiv	x8, x8, x10
	ldr	x16, [x1, #64]
	cmp	x8, x16
	b.hs	.LBBcaabb4f_22
	ldr	x16, [x1, #56]
	ldr	x8, [x16, x8, lsl #3]
	cmp	x21, x8
	b.lo	.LBBcaabb4f_22
	add	x11, x11, #1
	mov	w8, wzr
	add	x13, x13, x10
	cmp	x11, x12
	b.lo	.LBBcaabb4f_15
	b	.LBBcaabb4f_23
.LBBcaabb4f_19:
	cmp	x21, x8
	b.ne	.LBBcaabb4f_21
.LBBcaabb4f_20:
	mov	w8, wzr
	b	.LBBcaabb4f_23
.LBBcaabb4f_21:
	mov	x8, #512
	madd	x13, x11, x10, x8
.LBBcaabb4f_22:
	stp	x13, x10, [x9]
	add	x10, x11, #1
	mov	w8, #1
	stp	x11, x10, [x9, #16]
.LBBcaabb4f_23:
	stp	x19, x20, [x0]
.LBBcaabb4f_24:
	ldp	x20, x19, [sp, #176]
	mov	w0, w8
	ldp	x22, x21, [sp, #160]
	ldr	x30, [sp, #128]
	ldp	x24, x23, [sp, #144]
	add	sp, sp, #192
	ret
.LBBcaabb4f_25:
	brk	#0x1
.Lfunc_endcaabb4f:
	.size	dasd_drive_next_changed, .Lfunc_endcaabb4f-dasd_drive_next_changed

	.section	.text.dasd_drive_take,"ax",@progbits
	.globl	dasd_drive_take
	.p2align	2
	.type	dasd_drive_take,@function
dasd_drive_take:
	stp	x30, x25, [sp, #-64]!
	stp	x22, x21, [sp, #32]
	mov	x22, #18774
	ldr	x8, [x0]
	movk	x22, #17490, lsl #16
	cmp	x1, #0
	mov	w9, #4096
	movk	x22, #20037, lsl #32
	csel	x9, x9, xzr, eq
	stp	x24, x23, [sp, #16]
	movk	x22, #19535, lsl #48
	stp	x20, x19, [sp, #48]
	cmp	x8, x22
	b.ne	.LBB3948797_5
	ldr	x19, [x0, #8]
	stp	xzr, xzr, [x0]
	ldrb	w8, [x19, #1025]
	cmp	w8, #5
	b.ne	.LBB3948797_6
	ldrb	w10, [x19, #936]
	mov	w11, #1
	mov	w8, #-52
	lsl	w10, w11, w10
	mov	w11, #16319
	movk	w11, #992, lsl #16
	tst	w10, w11
	b.eq	.LBB3948797_11
	ldr	x24, [x19, #976]
	cmp	x24, x2
	b.hs	.LBB3948797_7
	mov	w8, #-53
	b	.LBB3948797_11
.LBB3948797_5:
	mov	w8, #-1
	ldp	x20, x19, [sp, #48]
	mov	w0, w8
	ldp	x22, x21, [sp, #32]
	ldp	x24, x23, [sp, #16]
	ldp	x30, x25, [sp], #64
	ret
.LBB3948797_6:
	mov	w8, #-52
	b	.LBB3948797_11
.LBB3948797_7:
	ldrb	w8, [x19, #984]
	mov	x23, x0
	cmp	w8, #3
	b.ne	.LBB3948797_9
	ldr	x21, [x19, #992]
	ldr	x8, [x19, #744]
	mov	x20, x2
	ldrb	w0, [x19, #1008]
	ldr	x25, [x19, #1000]
	add	x3, x1, x9
	mov	x1, x8
	mov	x2, x21
	mov	x4, x20
	bl	ckd_drive_transfer_compared.c54acf5
	add	x8, x21, x20
	sub	x9, x25, x20
	strb	w0, [x19, #1008]
	str	x8, [x19, #992]
	str	x9, [x19, #1000]
	b	.LBB3948797_10
.LBB3948797_9:
	add	x1, x1, x9
	mov	x0, x19
	mov	x20, x2
	bl	ckd_drive_job_Job_collect_or_write_808c45e55832e08b_.04dba8e
	ldr	x24, [x19, #976]
.LBB3948797_10:
	ldr	x9, [x19, #968]
	mov	w8, wzr
	sub	x10, x24, x20
	mov	x0, x23
	str	x10, [x19, #976]
	add	x9, x9, x20
	str	x9, [x19, #968]
.LBB3948797_11:
	stp	x22, x19, [x0]
	ldp	x20, x19, [sp, #48]
	mov	w0, w8
	ldp	x22, x21, [sp, #32]
	ldp	x24, x23, [sp, #16]
	ldp	x30, x25, [sp], #64
	ret
.Lfunc_end3948797:
	.size	dasd_drive_take, .Lfunc_end3948797-dasd_drive_take

	.section	.rodata.cst8,"aM",@progbits,8
	.p2align	3, 0x0
.LCPI19c974c_0:
	.byte	68
	.byte	65
	.byte	83
	.byte	68
	.byte	68
	.byte	82
	.byte	73
	.byte	86
	.section	.text.dasd_drive_save,"ax",@progbits
	.globl	dasd_drive_save
	.p2align	2
	.type	dasd_drive_save,@function
dasd_drive_save:
	mov	x9, #18774
	ldr	x8, [x0]
	cmp	x1, #0
	movk	x9, #17490, lsl #16
	mov	w10, #4096
	movk	x9, #20037, lsl #32
	csel	x11, x10, xzr, eq
	movk	x9, #19535, lsl #48
	cmp	x8, x9
	b.ne	.LBB19c974c_4
	ldr	x10, [x0, #8]
	stp	xzr, xzr, [x0]
	ldrb	w8, [x10, #1025]
	cbz	w8, .LBB19c974c_5
	mov	w8, #-48
.LBB19c974c_3:
	stp	x9, x10, [x0]
	mov	w0, w8
	ret
.LBB19c974c_4:
	mov	w0, #-1
	ret
.LBB19c974c_5:
	ldrb	w8, [x10, #1024]
	cmp	w8, #1
	b.ne	.LBB19c974c_7
	mov	w8, #-55
	stp	x9, x10, [x0]
	mov	w0, w8
	ret
.LBB19c974c_7:
	ldrb	w12, [x10, #872]
	cbz	w12, .LBB19c974c_9
	mov	w8, #-17
	stp	x9, x10, [x0]
	mov	w0, w8
	ret
.LBB19c974c_9:
	ldrb	w12, [x10, #928]
	cbz	w12, .LBB19c974c_11
	mov	w8, #-17
	stp	x9, x10, [x0]
	mov	w0, w8
	ret
.LBB19c974c_11:
	ldrb	w12, [x10, #896]
	cbz	w12, .LBB19c974c_13
	mov	w8, #-17
	stp	x9, x10, [x0]
	mov	w0, w8
	ret
.LBB19c974c_13:
	ldrb	w12, [x10, #897]
	cbz	w12, .LBB19c974c_15
	mov	w8, #-17
	stp	x9, x10, [x0]
	mov	w0, w8
	ret
.LBB19c974c_15:
	ldrb	w12, [x10, #898]
	tbz	w12, #0, .LBB19c974c_17
	mov	w8, #-17
	stp	x9, x10, [x0]
	mov	w0, w8
	ret
.LBB19c974c_17:
	cmp	w8, #2
	mov	w8, #-17
	b.eq	.LBB19c974c_3
	ldrb	w12, [x10, #904]
	cmp	w12, #1
	b.eq	.LBB19c974c_3
	cmp	x2, #15
	b.hs	.LBB19c974c_21
	mov	w8, #-24
	stp	x9, x10, [x0]
	mov	w0, w8
	ret
.LBB19c974c_21:
	adrp	x12, .LCPI19c974c_0
	ldrh	w13, [x10, #864]
	ldrh	w15, [x10, #866]
	ldr	d0, [x12, :lo12:.LCPI19c974c_0]
	ldrh	w12, [x10, #868]
	add	x11, x1, x11
	mov	w14, #1
	lsr	w16, w15, #8
	strb	w13, [x11, #10]
	strb	w14, [x11, #8]
	lsr	w14, w13, #8
	lsr	w13, w12, #8
	mov	w8, wzr
	str	d0, [x11]
	strb	w14, [x11, #9]
	strb	w16, [x11, #11]
	strb	w15, [x11, #12]
	strb	w13, [x11, #13]
	strb	w12, [x11, #14]
	mov	w11, #15
	str	x11, [x3]
	stp	x9, x10, [x0]
	mov	w0, w8
	ret
.Lfunc_end19c974c:
	.size	dasd_drive_save, .Lfunc_end19c974c-dasd_drive_save

	.type	.Lstatic.0,@object
	.section	.rodata..Lstatic.0,"a",@progbits
.Lstatic.0:
	.size	.Lstatic.0, 0

	.type	.Lstatic.1,@object
	.section	.data.rel.ro..Lstatic.1,"aw",@progbits
	.p2align	3, 0x0
.Lstatic.1:
	.xword	.Lstatic.1+8
	.asciz	"CKD_C\000\000"
	.size	.Lstatic.1, 16

	.type	.Lstatic.2,@object
	.section	.data.rel.ro..Lstatic.2,"aw",@progbits
	.p2align	3, 0x0
.Lstatic.2:
	.xword	.Lstatic.2+8
	.asciz	"CKD_S\000\000"
	.size	.Lstatic.2, 16

	.type	.Lstatic.3,@object
	.section	.rodata.cst8,"aM",@progbits,8
.Lstatic.3:
	.ascii	"CKD_P370"
	.size	.Lstatic.3, 8

	.type	.Lstatic.4,@object
.Lstatic.4:
	.zero	8,255
	.size	.Lstatic.4, 8

	.type	.Lstatic.11,@object
	.section	.data.rel.ro..Lstatic.11,"aw",@progbits
	.p2align	3, 0x0
.Lstatic.11:
	.xword	.Lstatic.11+8
	.ascii	"DASDDRIV"
	.size	.Lstatic.11, 16

	.type	.Lswitch.table.ckd_drive_job_Job_look_elsewhere_808c45e55832e08b_.6b479ce,@object
	.section	".rodata..Lswitch.table.ckd_drive::job::Job::look_elsewhere::<#808c45e55832e08b>","a",@progbits
	.p2align	3, 0x0
.Lswitch.table.ckd_drive_job_Job_look_elsewhere_808c45e55832e08b_.6b479ce:
	.xword	0
	.xword	1
	.xword	0
	.xword	0
	.xword	0
	.xword	0
	.xword	0
	.xword	0
	.xword	0
	.size	.Lswitch.table.ckd_drive_job_Job_look_elsewhere_808c45e55832e08b_.6b479ce, 72

	.type	.Lswitch.table.ckd_drive_job_Job_look_elsewhere_808c45e55832e08b_.151.0584c36,@object
	.section	".rodata..Lswitch.table.ckd_drive::job::Job::look_elsewhere::<#808c45e55832e08b>.151","a",@progbits
	.p2align	3, 0x0
.Lswitch.table.ckd_drive_job_Job_look_elsewhere_808c45e55832e08b_.151.0584c36:
	.xword	0
	.xword	4
	.xword	5
	.xword	0
	.xword	0
	.xword	0
	.xword	0
	.xword	0
	.xword	0
	.size	.Lswitch.table.ckd_drive_job_Job_look_elsewhere_808c45e55832e08b_.151.0584c36, 72

	.type	.Lswitch.table.dasd_drive_begin,@object
	.section	.rodata..Lswitch.table.dasd_drive_begin,"a",@progbits
	.p2align	2, 0x0
.Lswitch.table.dasd_drive_begin:
	.word	0
	.word	1
	.word	1
	.word	1
	.word	2
	.size	.Lswitch.table.dasd_drive_begin, 20

	.type	.Lswitch.table.dasd_drive_do.155,@object
	.section	.rodata..Lswitch.table.dasd_drive_do.155,"a",@progbits
	.p2align	2, 0x0
.Lswitch.table.dasd_drive_do.155:
	.ascii	"\000\000\001\001\002\003\004\005\005\005\005\005\005\005\006\006\006\006\006\006\006\007\b\b\t\t"
	.size	.Lswitch.table.dasd_drive_do.155, 26

	.type	.Lswitch.table.dasd_drive_do.156,@object
	.section	.rodata..Lswitch.table.dasd_drive_do.156,"a",@progbits
	.p2align	3, 0x0
.Lswitch.table.dasd_drive_do.156:
	.xword	0
	.xword	6
	.xword	6
	.xword	1
	.xword	0
	.xword	0
	.xword	0
	.xword	5
	.xword	8
	.xword	0
	.size	.Lswitch.table.dasd_drive_do.156, 80

	.type	.Lswitch.table.dasd_drive_do.158,@object
	.section	.rodata..Lswitch.table.dasd_drive_do.158,"a",@progbits
	.p2align	2, 0x0
.Lswitch.table.dasd_drive_do.158:
	.ascii	"\f\f\f\f\f\f\f\f\f\f\f\f\f\f\r\f\r\f\r\r\r\f\f\f\r\r"
	.size	.Lswitch.table.dasd_drive_do.158, 26

	.ident	"rattle logic=dac8208d650f15bf3e2dc313a14fa4c783a3acf887bdfab66e1714b038d9e11b"
	.section	".note.GNU-stack","",@progbits
