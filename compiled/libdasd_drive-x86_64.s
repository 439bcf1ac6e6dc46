	.file	"rattle"
	.section	".text.core::cmp::slices::groups_equal::<i8,31'core::cmp::numbers::U8PartialEq{}>","ax",@progbits
	.p2align	4
	.type	core_cmp_slices_groups_equal_i8_31_core_cmp_numbers_U8PartialEq_.3f1b21c,@function
core_cmp_slices_groups_equal_i8_31_core_cmp_numbers_U8PartialEq_.3f1b21c:
	cmpq	$8, %rsi
	ja	.LBBb5d67b4_2
	movd	-4(%rdi,%rsi), %xmm0
	movd	(%rdi), %xmm1
	punpckldq	%xmm0, %xmm1
	movd	-4(%rdx,%rsi), %xmm0
	movd	(%rdx), %xmm2
	punpckldq	%xmm0, %xmm2
	movq	%xmm1, %rax
	movq	%xmm2, %rcx
	cmpq	%rcx, %rax
	jmp	.LBBb5d67b4_17
.LBBb5d67b4_2:
	cmpq	$32, %rsi
	ja	.LBBb5d67b4_4
	leaq	-8(%rsi), %rax
	cmpq	$8, %rax
	movl	$8, %ecx
	cmovbq	%rax, %rcx
	cmpq	$16, %rax
	movl	$16, %r8d
	cmovbq	%rax, %r8
	movq	(%rdi,%rcx), %xmm0
	movq	(%rdi), %xmm1
	punpcklqdq	%xmm0, %xmm1
	movq	(%rdi,%r8), %xmm0
	movq	-8(%rdi,%rsi), %xmm2
	punpcklqdq	%xmm2, %xmm0
	movq	(%rdx,%rcx), %xmm2
	movq	(%rdx), %xmm3
	punpcklqdq	%xmm2, %xmm3
	pcmpeqb	%xmm1, %xmm3
	movq	(%rdx,%r8), %xmm1
	movq	-8(%rdx,%rsi), %xmm2
	punpcklqdq	%xmm2, %xmm1
	pcmpeqb	%xmm0, %xmm1
	pand	%xmm3, %xmm1
	pmovmskb	%xmm1, %eax
	jmp	.LBBb5d67b4_16
.LBBb5d67b4_4:
	cmpq	$65, %rsi
	jae	.LBBb5d67b4_5
	movdqu	(%rdi), %xmm0
	movdqu	16(%rdi), %xmm1
	movdqu	(%rdx), %xmm2
	pcmpeqb	%xmm0, %xmm2
	movdqu	16(%rdx), %xmm0
	pcmpeqb	%xmm1, %xmm0
	movdqu	-32(%rdi,%rsi), %xmm1
	movdqu	-16(%rdi,%rsi), %xmm3
	movdqu	-32(%rdx,%rsi), %xmm4
	pcmpeqb	%xmm1, %xmm4
	pand	%xmm2, %xmm4
	movdqu	-16(%rdx,%rsi), %xmm1
	pcmpeqb	%xmm3, %xmm1
	pand	%xmm0, %xmm1
	pand	%xmm4, %xmm1
	pmovmskb	%xmm1, %eax
	jmp	.LBBb5d67b4_16
.LBBb5d67b4_5:
	xorl	%eax, %eax
	movq	%rsi, %rcx
	.p2align	4
.LBBb5d67b4_6:
	movdqu	(%rdi,%rax), %xmm0
	movdqu	16(%rdi,%rax), %xmm1
	movdqu	32(%rdi,%rax), %xmm2
	movdqu	48(%rdi,%rax), %xmm3
	movdqu	(%rdx,%rax), %xmm4
	pcmpeqb	%xmm0, %xmm4
	movdqu	16(%rdx,%rax), %xmm0
	pcmpeqb	%xmm1, %xmm0
	movdqu	32(%rdx,%rax), %xmm1
	pcmpeqb	%xmm2, %xmm1
	pand	%xmm4, %xmm1
	movdqu	48(%rdx,%rax), %xmm2
	pcmpeqb	%xmm3, %xmm2
	pand	%xmm0, %xmm2
	pand	%xmm1, %xmm2
	pmovmskb	%xmm2, %r8d
	cmpl	$65535, %r8d
	jne	.LBBb5d67b4_8
	addq	$64, %rax
	addq	$-64, %rcx
	cmpq	$63, %rcx
	ja	.LBBb5d67b4_6
.LBBb5d67b4_8:
	cmpq	$32, %rcx
	jb	.LBBb5d67b4_15
	movq	%rsi, %rcx
	subq	%rax, %rcx
	.p2align	4
.LBBb5d67b4_10:
	movdqu	(%rdi,%rax), %xmm0
	movdqu	16(%rdi,%rax), %xmm1
	movdqu	(%rdx,%rax), %xmm2
	pcmpeqb	%xmm0, %xmm2
	movdqu	16(%rdx,%rax), %xmm0
	pcmpeqb	%xmm1, %xmm0
	pand	%xmm2, %xmm0
	pmovmskb	%xmm0, %r8d
	xorl	$65535, %r8d
	jne	.LBBb5d67b4_14
	addq	$32, %rax
	addq	$-32, %rcx
	cmpq	$31, %rcx
	ja	.LBBb5d67b4_10
	jmp	.LBBb5d67b4_15
.LBBb5d67b4_14:
	movb	$1, %al
	cmpq	$31, %rcx
	ja	.LBBb5d67b4_18
.LBBb5d67b4_15:
	movdqu	-32(%rdi,%rsi), %xmm0
	movdqu	-16(%rdi,%rsi), %xmm1
	movdqu	-32(%rdx,%rsi), %xmm2
	pcmpeqb	%xmm0, %xmm2
	movdqu	-16(%rdx,%rsi), %xmm0
	pcmpeqb	%xmm1, %xmm0
	pand	%xmm2, %xmm0
	pmovmskb	%xmm0, %eax
.LBBb5d67b4_16:
	xorl	$65535, %eax
.LBBb5d67b4_17:
	setne	%al
.LBBb5d67b4_18:
	xorb	$1, %al
	retq
.Lfunc_endb5d67b4:
	.size	core_cmp_slices_groups_equal_i8_31_core_cmp_numbers_U8PartialEq_.3f1b21c, .Lfunc_endb5d67b4-core_cmp_slices_groups_equal_i8_31_core_cmp_numbers_U8PartialEq_.3f1b21c

	.section	.rodata.cst16,"aM",@progbits,16
	.p2align	4, 0x0
.LCPI42bf483_0:
	.long	1
	.long	7294
	.zero	4
	.zero	4
.LCPI42bf483_1:
	.long	1
	.long	7294
	.long	0
	.long	0
	.section	".text.lone_drive_c::drive::over","ax",@progbits
	.p2align	4
	.type	lone_drive_c_drive_over.837ff07,@function
lone_drive_c_drive_over.837ff07:
	pushq	%rbp
	pushq	%r15
	pushq	%r14
	pushq	%r13
	pushq	%r12
	pushq	%rbx
	subq	$3072, %rsp
	movq	$0, (%rsp)
	subq	$504, %rsp
	movq	%rdi, %rbx
	movzbl	(%rsi), %r8d
	movl	4(%rsi), %eax
	movl	%eax, 1283(%rsp)
	movl	1(%rsi), %eax
	movl	%eax, 1280(%rsp)
	movq	8(%rsi), %rax
	movq	%rax, 1560(%rsp)
	movq	24(%rsi), %rax
	movq	%rax, 1880(%rsp)
	movups	16(%rsi), %xmm0
	movaps	%xmm0, 3216(%rsp)
	movups	32(%rsi), %xmm0
	movaps	%xmm0, 3552(%rsp)
	movzbl	48(%rsi), %eax
	movb	%al, 10(%rsp)
	movl	49(%rsi), %eax
	movl	%eax, 1272(%rsp)
	movl	52(%rsi), %eax
	movl	%eax, 1275(%rsp)
	movq	56(%rsi), %rax
	movq	%rax, 2008(%rsp)
	movq	64(%rsi), %rax
	movq	%rax, 1504(%rsp)
	movq	80(%rsi), %rax
	movq	%rax, 1816(%rsp)
	movups	72(%rsi), %xmm0
	movaps	%xmm0, 3200(%rsp)
	movzbl	88(%rsi), %eax
	movb	%al, 17(%rsp)
	movl	92(%rsi), %eax
	movl	%eax, 1267(%rsp)
	movl	89(%rsi), %eax
	movl	%eax, 1264(%rsp)
	movq	96(%rsi), %rax
	movq	%rax, 1568(%rsp)
	movq	112(%rsi), %rax
	movq	%rax, 1888(%rsp)
	movups	104(%rsi), %xmm0
	movaps	%xmm0, 3184(%rsp)
	movups	120(%rsi), %xmm0
	movaps	%xmm0, 3536(%rsp)
	movzbl	136(%rsi), %eax
	movb	%al, 11(%rsp)
	movl	137(%rsi), %eax
	movl	%eax, 1256(%rsp)
	movl	140(%rsi), %eax
	movl	%eax, 1259(%rsp)
	movq	144(%rsi), %rax
	movq	%rax, 2000(%rsp)
	movq	152(%rsi), %rax
	movq	%rax, 1512(%rsp)
	movq	168(%rsi), %rax
	movq	%rax, 1832(%rsp)
	movups	160(%rsi), %xmm0
	movaps	%xmm0, 3168(%rsp)
	movzbl	176(%rsi), %eax
	movb	%al, 18(%rsp)
	movl	180(%rsi), %eax
	movl	%eax, 1251(%rsp)
	movl	177(%rsi), %eax
	movl	%eax, 1248(%rsp)
	movups	192(%rsi), %xmm0
	movaps	%xmm0, 3152(%rsp)
	movups	208(%rsi), %xmm0
	movq	184(%rsi), %rax
	movq	%rax, 1576(%rsp)
	movq	200(%rsi), %rax
	movq	%rax, 1896(%rsp)
	movaps	%xmm0, 3520(%rsp)
	movzbl	224(%rsi), %eax
	movb	%al, 12(%rsp)
	movl	225(%rsi), %eax
	movl	%eax, 1240(%rsp)
	movl	228(%rsi), %eax
	movl	%eax, 1243(%rsp)
	movups	248(%rsi), %xmm0
	movaps	%xmm0, 3136(%rsp)
	movzbl	264(%rsi), %eax
	movb	%al, 19(%rsp)
	movq	232(%rsi), %rax
	movq	%rax, 1992(%rsp)
	movq	240(%rsi), %rax
	movq	%rax, 1520(%rsp)
	movq	256(%rsi), %rax
	movq	%rax, 1824(%rsp)
	movl	265(%rsi), %eax
	movl	%eax, 1232(%rsp)
	movl	268(%rsi), %eax
	movl	%eax, 1235(%rsp)
	movups	280(%rsi), %xmm0
	movaps	%xmm0, 3120(%rsp)
	movups	296(%rsi), %xmm0
	movq	272(%rsi), %rax
	movq	%rax, 1584(%rsp)
	movq	288(%rsi), %rax
	movq	%rax, 1904(%rsp)
	movaps	%xmm0, 3504(%rsp)
	movzbl	312(%rsi), %eax
	movb	%al, 13(%rsp)
	movl	316(%rsi), %eax
	movl	%eax, 1227(%rsp)
	movl	313(%rsi), %eax
	movl	%eax, 1224(%rsp)
	movups	336(%rsi), %xmm0
	movaps	%xmm0, 3104(%rsp)
	movzbl	352(%rsi), %eax
	movb	%al, 20(%rsp)
	movq	320(%rsi), %rax
	movq	%rax, 1984(%rsp)
	movq	328(%rsi), %rax
	movq	%rax, 1528(%rsp)
	movq	344(%rsi), %rax
	movq	%rax, 1840(%rsp)
	movl	356(%rsi), %eax
	movl	%eax, 1219(%rsp)
	movl	353(%rsi), %eax
	movl	%eax, 1216(%rsp)
	movups	368(%rsi), %xmm0
	movaps	%xmm0, 3088(%rsp)
	movups	384(%rsi), %xmm0
	movq	360(%rsi), %rax
	movq	%rax, 1592(%rsp)
	movq	376(%rsi), %rax
	movq	%rax, 1912(%rsp)
	movaps	%xmm0, 3488(%rsp)
	movzbl	400(%rsi), %eax
	movb	%al, 14(%rsp)
	movl	401(%rsi), %eax
	movl	%eax, 1208(%rsp)
	movl	404(%rsi), %eax
	movl	%eax, 1211(%rsp)
	movups	424(%rsi), %xmm0
	movaps	%xmm0, 3072(%rsp)
	movzbl	440(%rsi), %eax
	movb	%al, 21(%rsp)
	movq	408(%rsi), %rax
	movq	%rax, 1976(%rsp)
	movq	416(%rsi), %rax
	movq	%rax, 1536(%rsp)
	movq	432(%rsi), %rax
	movq	%rax, 1848(%rsp)
	movl	444(%rsi), %eax
	movl	%eax, 1203(%rsp)
	movl	441(%rsi), %eax
	movl	%eax, 1200(%rsp)
	movups	456(%rsi), %xmm0
	movaps	%xmm0, 3056(%rsp)
	movups	472(%rsi), %xmm0
	movq	448(%rsi), %rax
	movq	%rax, 1600(%rsp)
	movq	464(%rsi), %rax
	movq	%rax, 1920(%rsp)
	movaps	%xmm0, 3472(%rsp)
	movzbl	488(%rsi), %eax
	movb	%al, 15(%rsp)
	movl	489(%rsi), %eax
	movl	%eax, 1192(%rsp)
	movl	492(%rsi), %eax
	movl	%eax, 1195(%rsp)
	movups	512(%rsi), %xmm0
	movaps	%xmm0, 3040(%rsp)
	movzbl	528(%rsi), %eax
	movb	%al, 22(%rsp)
	movq	496(%rsi), %rax
	movq	%rax, 1968(%rsp)
	movq	504(%rsi), %rax
	movq	%rax, 1544(%rsp)
	movq	520(%rsi), %rax
	movq	%rax, 1856(%rsp)
	movl	529(%rsi), %eax
	movl	%eax, 1184(%rsp)
	movl	532(%rsi), %eax
	movl	%eax, 1187(%rsp)
	movups	544(%rsi), %xmm0
	movaps	%xmm0, 3024(%rsp)
	movups	560(%rsi), %xmm0
	movq	536(%rsi), %rax
	movq	%rax, 1608(%rsp)
	movq	552(%rsi), %rax
	movq	%rax, 1928(%rsp)
	movaps	%xmm0, 3456(%rsp)
	movzbl	576(%rsi), %eax
	movb	%al, 16(%rsp)
	movl	580(%rsi), %eax
	movl	%eax, 1179(%rsp)
	movl	577(%rsi), %eax
	movl	%eax, 1176(%rsp)
	movups	600(%rsi), %xmm0
	movaps	%xmm0, 3008(%rsp)
	movzbl	616(%rsi), %eax
	movb	%al, 23(%rsp)
	movq	584(%rsi), %rax
	movq	%rax, 1960(%rsp)
	movq	592(%rsi), %rax
	movq	%rax, 1552(%rsp)
	movq	608(%rsi), %rax
	movq	%rax, 1864(%rsp)
	movl	620(%rsi), %eax
	movl	%eax, 1171(%rsp)
	movl	617(%rsi), %eax
	movl	%eax, 1168(%rsp)
	movups	632(%rsi), %xmm0
	movaps	%xmm0, 2992(%rsp)
	movups	648(%rsi), %xmm0
	movq	624(%rsi), %r13
	movq	640(%rsi), %rax
	movq	%rax, 1936(%rsp)
	movaps	%xmm0, 3440(%rsp)
	movzbl	664(%rsi), %r12d
	movl	668(%rsi), %eax
	movl	%eax, 1163(%rsp)
	movl	665(%rsi), %eax
	movl	%eax, 1160(%rsp)
	movups	688(%rsi), %xmm0
	movaps	%xmm0, 2976(%rsp)
	movq	672(%rsi), %rax
	movq	%rax, 1952(%rsp)
	movq	680(%rsi), %r15
	movq	696(%rsi), %rax
	movq	%rax, 1872(%rsp)
	movq	704(%rsi), %r14
	movups	728(%rsi), %xmm0
	movaps	%xmm0, 3424(%rsp)
	movups	712(%rsi), %xmm0
	movaps	%xmm0, 3408(%rsp)
	xorps	%xmm0, %xmm0
	movaps	%xmm0, 2160(%rsp)
	movaps	3552(%rsp), %xmm1
	movaps	%xmm1, 2160(%rsp)
	movaps	%xmm0, 2144(%rsp)
	movaps	3536(%rsp), %xmm1
	movaps	%xmm1, 2144(%rsp)
	movaps	%xmm0, 2128(%rsp)
	movaps	3520(%rsp), %xmm1
	movaps	%xmm1, 2128(%rsp)
	movaps	%xmm0, 2112(%rsp)
	movaps	3504(%rsp), %xmm1
	movaps	%xmm1, 2112(%rsp)
	movaps	%xmm0, 2096(%rsp)
	movaps	3488(%rsp), %xmm1
	movaps	%xmm1, 2096(%rsp)
	movaps	%xmm0, 2080(%rsp)
	movaps	3472(%rsp), %xmm1
	movaps	%xmm1, 2080(%rsp)
	movaps	%xmm0, 2064(%rsp)
	movaps	3456(%rsp), %xmm1
	movaps	%xmm1, 2064(%rsp)
	movaps	%xmm0, 2048(%rsp)
	movaps	3440(%rsp), %xmm1
	movaps	%xmm1, 2048(%rsp)
	movaps	%xmm0, 2032(%rsp)
	movaps	3424(%rsp), %xmm1
	movaps	%xmm1, 2032(%rsp)
	movaps	%xmm0, 2016(%rsp)
	movaps	3408(%rsp), %xmm1
	movaps	%xmm1, 2016(%rsp)
	movaps	%xmm0, 2432(%rsp)
	movaps	%xmm0, 2416(%rsp)
	movaps	%xmm0, 2400(%rsp)
	movaps	%xmm0, 2384(%rsp)
	movaps	%xmm0, 2368(%rsp)
	movaps	%xmm0, 2352(%rsp)
	movaps	%xmm0, 2336(%rsp)
	movaps	%xmm0, 1744(%rsp)
	movaps	%xmm0, 1728(%rsp)
	movaps	%xmm0, 1712(%rsp)
	movups	%xmm0, 1674(%rsp)
	movaps	%xmm0, 1664(%rsp)
	movaps	%xmm0, 1648(%rsp)
	movaps	%xmm0, 1632(%rsp)
	movaps	%xmm0, 1616(%rsp)
	movaps	%xmm0, 1344(%rsp)
	movaps	%xmm0, 1696(%rsp)
	movaps	%xmm0, 2320(%rsp)
	movaps	%xmm0, 2304(%rsp)
	movaps	%xmm0, 2288(%rsp)
	movaps	%xmm0, 2272(%rsp)
	movaps	%xmm0, 2256(%rsp)
	movaps	%xmm0, 2240(%rsp)
	movaps	%xmm0, 2224(%rsp)
	movaps	%xmm0, 2208(%rsp)
	movaps	%xmm0, 2192(%rsp)
	movaps	%xmm0, 2176(%rsp)
	movaps	%xmm0, 3392(%rsp)
	movaps	%xmm0, 3376(%rsp)
	movaps	%xmm0, 3360(%rsp)
	movaps	%xmm0, 3344(%rsp)
	movaps	%xmm0, 3328(%rsp)
	movaps	%xmm0, 3312(%rsp)
	movaps	%xmm0, 3296(%rsp)
	movaps	%xmm0, 3280(%rsp)
	movaps	%xmm0, 3264(%rsp)
	movaps	%xmm0, 3248(%rsp)
	movups	%xmm0, 2954(%rsp)
	movaps	%xmm0, 2944(%rsp)
	movaps	%xmm0, 2928(%rsp)
	movaps	%xmm0, 2912(%rsp)
	movaps	%xmm0, 2896(%rsp)
	movaps	%xmm0, 2864(%rsp)
	movaps	%xmm0, 3232(%rsp)
	movaps	%xmm0, 2592(%rsp)
	movaps	%xmm0, 2576(%rsp)
	movaps	%xmm0, 2560(%rsp)
	movaps	%xmm0, 2544(%rsp)
	movaps	%xmm0, 2528(%rsp)
	movaps	%xmm0, 2512(%rsp)
	movaps	%xmm0, 2496(%rsp)
	movaps	%xmm0, 2480(%rsp)
	movaps	%xmm0, 2464(%rsp)
	movaps	%xmm0, 2448(%rsp)
	movaps	2160(%rsp), %xmm0
	movaps	%xmm0, 2848(%rsp)
	movaps	2144(%rsp), %xmm0
	movaps	%xmm0, 2832(%rsp)
	movaps	2128(%rsp), %xmm0
	movaps	%xmm0, 2816(%rsp)
	movaps	2112(%rsp), %xmm0
	movaps	%xmm0, 2800(%rsp)
	movaps	2096(%rsp), %xmm0
	movaps	%xmm0, 2784(%rsp)
	movaps	2080(%rsp), %xmm0
	movaps	%xmm0, 2768(%rsp)
	movaps	2064(%rsp), %xmm0
	movaps	%xmm0, 2752(%rsp)
	movaps	2048(%rsp), %xmm0
	movaps	%xmm0, 2736(%rsp)
	movaps	2032(%rsp), %xmm0
	movaps	%xmm0, 1472(%rsp)
	movaps	2016(%rsp), %xmm0
	movaps	%xmm0, 1456(%rsp)
	movl	$0, 267(%rsp)
	movl	$0, 264(%rsp)
	movl	1283(%rsp), %eax
	movl	%eax, 267(%rsp)
	movl	1280(%rsp), %eax
	movl	%eax, 264(%rsp)
	movl	$0, 259(%rsp)
	movl	$0, 256(%rsp)
	movl	1275(%rsp), %eax
	movl	%eax, 259(%rsp)
	movl	1272(%rsp), %eax
	movl	%eax, 256(%rsp)
	movl	$0, 251(%rsp)
	movl	$0, 248(%rsp)
	movl	1267(%rsp), %eax
	movl	%eax, 251(%rsp)
	movl	1264(%rsp), %eax
	movl	%eax, 248(%rsp)
	movl	$0, 243(%rsp)
	movl	$0, 240(%rsp)
	movl	1259(%rsp), %eax
	movl	%eax, 243(%rsp)
	movl	1256(%rsp), %eax
	movl	%eax, 240(%rsp)
	movl	$0, 235(%rsp)
	movl	$0, 232(%rsp)
	movl	1251(%rsp), %eax
	movl	%eax, 235(%rsp)
	movl	1248(%rsp), %eax
	movl	%eax, 232(%rsp)
	movl	$0, 227(%rsp)
	movl	$0, 224(%rsp)
	movl	1243(%rsp), %eax
	movl	%eax, 227(%rsp)
	movl	1240(%rsp), %eax
	movl	%eax, 224(%rsp)
	movl	$0, 219(%rsp)
	movl	$0, 216(%rsp)
	movl	1235(%rsp), %eax
	movl	%eax, 219(%rsp)
	movl	1232(%rsp), %eax
	movl	%eax, 216(%rsp)
	movl	$0, 211(%rsp)
	movl	$0, 208(%rsp)
	movl	1227(%rsp), %eax
	movl	%eax, 211(%rsp)
	movl	1224(%rsp), %eax
	movl	%eax, 208(%rsp)
	movl	$0, 203(%rsp)
	movl	$0, 200(%rsp)
	movl	1219(%rsp), %eax
	movl	%eax, 203(%rsp)
	movl	1216(%rsp), %eax
	movl	%eax, 200(%rsp)
	movl	$0, 195(%rsp)
	movl	$0, 192(%rsp)
	movl	1211(%rsp), %eax
	movl	%eax, 195(%rsp)
	movl	1208(%rsp), %eax
	movl	%eax, 192(%rsp)
	movl	$0, 187(%rsp)
	movl	$0, 184(%rsp)
	movl	1203(%rsp), %eax
	movl	%eax, 187(%rsp)
	movl	1200(%rsp), %eax
	movl	%eax, 184(%rsp)
	movl	$0, 179(%rsp)
	movl	$0, 176(%rsp)
	movl	1195(%rsp), %eax
	movl	%eax, 179(%rsp)
	movl	1192(%rsp), %eax
	movl	%eax, 176(%rsp)
	movl	$0, 171(%rsp)
	movl	$0, 168(%rsp)
	movl	1187(%rsp), %eax
	movl	%eax, 171(%rsp)
	movl	1184(%rsp), %eax
	movl	%eax, 168(%rsp)
	movl	$0, 163(%rsp)
	movl	$0, 160(%rsp)
	movl	1179(%rsp), %eax
	movl	%eax, 163(%rsp)
	movl	1176(%rsp), %eax
	movl	%eax, 160(%rsp)
	movl	$0, 155(%rsp)
	movl	$0, 152(%rsp)
	movl	1171(%rsp), %eax
	movl	%eax, 155(%rsp)
	movl	1168(%rsp), %eax
	movl	%eax, 152(%rsp)
	movl	$0, 147(%rsp)
	movl	$0, 144(%rsp)
	movl	1163(%rsp), %eax
	movl	%eax, 147(%rsp)
	movl	1160(%rsp), %eax
	movl	%eax, 144(%rsp)
	movl	267(%rsp), %eax
	movl	%eax, 915(%rsp)
	movl	264(%rsp), %eax
	movl	%eax, 912(%rsp)
	movl	259(%rsp), %eax
	movl	%eax, 907(%rsp)
	movl	256(%rsp), %eax
	movl	%eax, 904(%rsp)
	movl	251(%rsp), %eax
	movl	%eax, 899(%rsp)
	movl	248(%rsp), %eax
	movl	%eax, 896(%rsp)
	movl	243(%rsp), %eax
	movl	%eax, 891(%rsp)
	movl	240(%rsp), %eax
	movl	%eax, 888(%rsp)
	movl	235(%rsp), %eax
	movl	%eax, 883(%rsp)
	movl	232(%rsp), %eax
	movl	%eax, 880(%rsp)
	movl	227(%rsp), %eax
	movl	%eax, 875(%rsp)
	movl	224(%rsp), %eax
	movl	%eax, 872(%rsp)
	movl	219(%rsp), %eax
	movl	%eax, 867(%rsp)
	movl	216(%rsp), %eax
	movl	%eax, 864(%rsp)
	movl	211(%rsp), %eax
	movl	%eax, 859(%rsp)
	movl	208(%rsp), %eax
	movl	%eax, 856(%rsp)
	movl	203(%rsp), %eax
	movl	%eax, 851(%rsp)
	movl	200(%rsp), %eax
	movl	%eax, 848(%rsp)
	movl	195(%rsp), %eax
	movl	%eax, 843(%rsp)
	movl	192(%rsp), %eax
	movl	%eax, 840(%rsp)
	movl	187(%rsp), %eax
	movl	%eax, 835(%rsp)
	movl	184(%rsp), %eax
	movl	%eax, 832(%rsp)
	movl	179(%rsp), %eax
	movl	%eax, 827(%rsp)
	movl	176(%rsp), %eax
	movl	%eax, 824(%rsp)
	movl	171(%rsp), %eax
	movl	%eax, 819(%rsp)
	movl	168(%rsp), %eax
	movl	%eax, 816(%rsp)
	movl	163(%rsp), %eax
	movl	%eax, 811(%rsp)
	movl	160(%rsp), %eax
	movl	%eax, 808(%rsp)
	movl	155(%rsp), %eax
	movl	%eax, 803(%rsp)
	movl	152(%rsp), %eax
	movl	%eax, 800(%rsp)
	movl	147(%rsp), %eax
	movl	%eax, 795(%rsp)
	movl	144(%rsp), %eax
	movl	%eax, 792(%rsp)
	movb	$0, 108(%rsp)
	movl	$0, 104(%rsp)
	movl	$0, 507(%rsp)
	movl	$0, 504(%rsp)
	movl	$0, 499(%rsp)
	movl	$0, 496(%rsp)
	movl	$0, 491(%rsp)
	movl	$0, 488(%rsp)
	movl	$0, 483(%rsp)
	movl	$0, 480(%rsp)
	movl	$0, 472(%rsp)
	movl	$0, 475(%rsp)
	movl	$0, 467(%rsp)
	movl	$0, 464(%rsp)
	movl	$0, 456(%rsp)
	movl	$0, 459(%rsp)
	movl	$0, 448(%rsp)
	movl	$0, 451(%rsp)
	movl	$0, 440(%rsp)
	movl	$0, 443(%rsp)
	movl	$0, 432(%rsp)
	movl	$0, 435(%rsp)
	movl	$0, 424(%rsp)
	movl	$0, 427(%rsp)
	movl	$0, 416(%rsp)
	movl	$0, 419(%rsp)
	movl	$0, 408(%rsp)
	movl	$0, 411(%rsp)
	movl	$0, 403(%rsp)
	movl	$0, 400(%rsp)
	movl	$0, 59(%rsp)
	movl	$0, 56(%rsp)
	movl	$0, 51(%rsp)
	movl	$0, 48(%rsp)
	movq	$0, 959(%rsp)
	movq	$0, 952(%rsp)
	movb	$0, 128(%rsp)
	movq	$0, 120(%rsp)
	movl	$0, 43(%rsp)
	movl	$0, 40(%rsp)
	movw	$0, 36(%rsp)
	movl	$0, 32(%rsp)
	movw	$0, 28(%rsp)
	movl	$0, 24(%rsp)
	movq	$0, 1360(%rsp)
	movq	$0, 943(%rsp)
	movq	$0, 936(%rsp)
	movw	$0, 140(%rsp)
	movl	$0, 136(%rsp)
	movl	$0, 395(%rsp)
	movl	$0, 392(%rsp)
	movl	$0, 387(%rsp)
	movl	$0, 384(%rsp)
	movl	$0, 379(%rsp)
	movl	$0, 376(%rsp)
	movl	$0, 371(%rsp)
	movl	$0, 368(%rsp)
	movl	$0, 363(%rsp)
	movl	$0, 360(%rsp)
	movl	$0, 355(%rsp)
	movl	$0, 352(%rsp)
	movl	$0, 347(%rsp)
	movl	$0, 344(%rsp)
	movl	$0, 339(%rsp)
	movl	$0, 336(%rsp)
	movl	$0, 331(%rsp)
	movl	$0, 328(%rsp)
	movl	$0, 323(%rsp)
	movl	$0, 320(%rsp)
	movl	$0, 315(%rsp)
	movl	$0, 312(%rsp)
	movl	$0, 307(%rsp)
	movl	$0, 304(%rsp)
	movl	$0, 299(%rsp)
	movl	$0, 296(%rsp)
	movl	$0, 291(%rsp)
	movl	$0, 288(%rsp)
	movl	$0, 283(%rsp)
	movl	$0, 280(%rsp)
	movl	$0, 275(%rsp)
	movl	$0, 272(%rsp)
	movq	$0, 1311(%rsp)
	movq	$0, 1304(%rsp)
	movl	$0, 115(%rsp)
	movl	$0, 112(%rsp)
	movw	$0, 84(%rsp)
	movl	$0, 80(%rsp)
	movw	$0, 76(%rsp)
	movl	$0, 72(%rsp)
	movq	$0, 1295(%rsp)
	movq	$0, 1288(%rsp)
	movw	$0, 68(%rsp)
	movl	$0, 64(%rsp)
	movb	$0, 100(%rsp)
	movl	$0, 96(%rsp)
	movl	$0, 1155(%rsp)
	movl	$0, 1152(%rsp)
	movl	$0, 1147(%rsp)
	movl	$0, 1144(%rsp)
	movl	$0, 1139(%rsp)
	movl	$0, 1136(%rsp)
	movl	$0, 1131(%rsp)
	movl	$0, 1128(%rsp)
	movl	$0, 1123(%rsp)
	movl	$0, 1120(%rsp)
	movl	$0, 1115(%rsp)
	movl	$0, 1112(%rsp)
	movl	$0, 1107(%rsp)
	movl	$0, 1104(%rsp)
	movl	$0, 1099(%rsp)
	movl	$0, 1096(%rsp)
	movl	$0, 1091(%rsp)
	movl	$0, 1088(%rsp)
	movl	$0, 1083(%rsp)
	movl	$0, 1080(%rsp)
	movl	$0, 1075(%rsp)
	movl	$0, 1072(%rsp)
	movl	$0, 1067(%rsp)
	movl	$0, 1064(%rsp)
	movl	$0, 1059(%rsp)
	movl	$0, 1056(%rsp)
	movl	$0, 1051(%rsp)
	movl	$0, 1048(%rsp)
	movl	$0, 1043(%rsp)
	movl	$0, 1040(%rsp)
	movl	$0, 1035(%rsp)
	movl	$0, 1032(%rsp)
	movq	$0, 1791(%rsp)
	movq	$0, 1784(%rsp)
	movb	$0, 1336(%rsp)
	movq	$0, 1328(%rsp)
	movl	$0, 1027(%rsp)
	movl	$0, 1024(%rsp)
	movw	$0, 988(%rsp)
	movl	$0, 984(%rsp)
	movw	$0, 980(%rsp)
	movl	$0, 976(%rsp)
	movq	$0, 2880(%rsp)
	movq	$0, 1775(%rsp)
	movq	$0, 1768(%rsp)
	movw	$0, 972(%rsp)
	movl	$0, 968(%rsp)
	movq	$0, 1392(%rsp)
	movq	$0, 1399(%rsp)
	movl	$0, 648(%rsp)
	movl	$0, 651(%rsp)
	movl	$0, 643(%rsp)
	movl	$0, 640(%rsp)
	movl	$0, 635(%rsp)
	movl	$0, 632(%rsp)
	movl	$0, 627(%rsp)
	movl	$0, 624(%rsp)
	movl	$0, 619(%rsp)
	movl	$0, 616(%rsp)
	movl	$0, 611(%rsp)
	movl	$0, 608(%rsp)
	movl	$0, 603(%rsp)
	movl	$0, 600(%rsp)
	movl	$0, 595(%rsp)
	movl	$0, 592(%rsp)
	movl	$0, 587(%rsp)
	movl	$0, 584(%rsp)
	movl	$0, 579(%rsp)
	movl	$0, 576(%rsp)
	movl	$0, 571(%rsp)
	movl	$0, 568(%rsp)
	movl	$0, 563(%rsp)
	movl	$0, 560(%rsp)
	movl	$0, 555(%rsp)
	movl	$0, 552(%rsp)
	movl	$0, 547(%rsp)
	movl	$0, 544(%rsp)
	movl	$0, 539(%rsp)
	movl	$0, 536(%rsp)
	movl	$0, 531(%rsp)
	movl	$0, 528(%rsp)
	movl	$0, 523(%rsp)
	movl	$0, 520(%rsp)
	movq	$0, 1383(%rsp)
	movq	$0, 1376(%rsp)
	movl	$0, 515(%rsp)
	movl	$0, 512(%rsp)
	movw	$0, 1012(%rsp)
	movl	$0, 1008(%rsp)
	movw	$0, 1004(%rsp)
	movl	$0, 1000(%rsp)
	movq	$0, 1807(%rsp)
	movq	$0, 1800(%rsp)
	movw	$0, 996(%rsp)
	movl	$0, 992(%rsp)
	movq	$0, 1408(%rsp)
	movq	$0, 1415(%rsp)
	movl	$0, 656(%rsp)
	movl	$0, 659(%rsp)
	movq	%r14, %rbp
	shrq	$32, %rbp
	movq	%r14, 1944(%rsp)
	je	.LBB42bf483_1
	movb	%r8b, 6(%rsp)
	movl	$1, %esi
	movq	%rbp, %rdi
	callq	rattle_alloc@PLT
	testb	$1, %al
	je	.LBB42bf483_24
	movq	%rdx, %r9
	cmpl	$1, %ebp
	jne	.LBB42bf483_6
	movb	$0, (%r9)
	leaq	8(%rsp), %r11
	xorl	%r10d, %r10d
	xorl	%r14d, %r14d
	xorl	%eax, %eax
	movq	$0, 88(%rsp)
	movzbl	6(%rsp), %r8d
	jmp	.LBB42bf483_5
.LBB42bf483_1:
	leaq	8(%rsp), %r11
	xorl	%r10d, %r10d
	xorl	%r14d, %r14d
	movq	%r11, %r9
	xorl	%eax, %eax
	movq	$0, 88(%rsp)
.LBB42bf483_5:
	movl	912(%rsp), %ecx
	movl	915(%rsp), %edx
	movl	%edx, 787(%rsp)
	movl	%ecx, 784(%rsp)
	movaps	2848(%rsp), %xmm0
	movaps	%xmm0, 2720(%rsp)
	movl	904(%rsp), %ecx
	movl	907(%rsp), %edx
	movl	%ecx, 776(%rsp)
	movl	%edx, 779(%rsp)
	movl	896(%rsp), %ecx
	movl	899(%rsp), %edx
	movl	%ecx, 768(%rsp)
	movl	%edx, 771(%rsp)
	movaps	2832(%rsp), %xmm0
	movaps	%xmm0, 2704(%rsp)
	movl	888(%rsp), %ecx
	movl	891(%rsp), %edx
	movl	%edx, 763(%rsp)
	movl	%ecx, 760(%rsp)
	movl	880(%rsp), %ecx
	movl	883(%rsp), %edx
	movl	%edx, 755(%rsp)
	movl	%ecx, 752(%rsp)
	movaps	2816(%rsp), %xmm0
	movaps	%xmm0, 2688(%rsp)
	movl	872(%rsp), %ecx
	movl	875(%rsp), %edx
	movl	%edx, 747(%rsp)
	movl	%ecx, 744(%rsp)
	movl	864(%rsp), %ecx
	movl	867(%rsp), %edx
	movl	%edx, 739(%rsp)
	movl	%ecx, 736(%rsp)
	movaps	2800(%rsp), %xmm0
	movaps	%xmm0, 2672(%rsp)
	movl	856(%rsp), %ecx
	movl	859(%rsp), %edx
	movl	%edx, 731(%rsp)
	movl	%ecx, 728(%rsp)
	movl	848(%rsp), %ecx
	movl	851(%rsp), %edx
	movl	%edx, 723(%rsp)
	movl	%ecx, 720(%rsp)
	movaps	2784(%rsp), %xmm0
	movaps	%xmm0, 2656(%rsp)
	movl	840(%rsp), %ecx
	movl	843(%rsp), %edx
	movl	%edx, 715(%rsp)
	movl	%ecx, 712(%rsp)
	movl	832(%rsp), %ecx
	movl	835(%rsp), %edx
	movl	%edx, 707(%rsp)
	movl	%ecx, 704(%rsp)
	movaps	2768(%rsp), %xmm0
	movaps	%xmm0, 2640(%rsp)
	movl	824(%rsp), %ecx
	movl	827(%rsp), %edx
	movl	%edx, 699(%rsp)
	movl	%ecx, 696(%rsp)
	movl	816(%rsp), %ecx
	movl	819(%rsp), %edx
	movl	%edx, 691(%rsp)
	movl	%ecx, 688(%rsp)
	movaps	2752(%rsp), %xmm0
	movaps	%xmm0, 2624(%rsp)
	movl	808(%rsp), %ecx
	movl	811(%rsp), %edx
	movl	%edx, 683(%rsp)
	movl	%ecx, 680(%rsp)
	movl	800(%rsp), %ecx
	movl	803(%rsp), %edx
	movl	%edx, 675(%rsp)
	movl	%ecx, 672(%rsp)
	movaps	2736(%rsp), %xmm0
	movaps	%xmm0, 2608(%rsp)
	movl	792(%rsp), %ecx
	movl	795(%rsp), %edx
	movl	%edx, 667(%rsp)
	movl	%ecx, 664(%rsp)
	movaps	1456(%rsp), %xmm0
	movaps	1472(%rsp), %xmm1
	movaps	%xmm1, 1440(%rsp)
	movaps	%xmm0, 1424(%rsp)
	movq	$0, 1415(%rsp)
	movq	$0, 1408(%rsp)
	movl	$0, 659(%rsp)
	movl	$0, 656(%rsp)
	movsd	.LCPI42bf483_1(%rip), %xmm0
	movb	$1, %dl
	movabsq	$72057594037927936, %rcx
	jmp	.LBB42bf483_25
.LBB42bf483_6:
	leaq	-1(%rbp), %rdx
	movq	%r9, %rdi
	xorl	%esi, %esi
	movq	%r9, 928(%rsp)
	callq	memset@PLT
	movq	928(%rsp), %r9
	movb	$0, -1(%r9,%rbp)
	movq	%r14, %r10
	shrq	$35, %r10
	movq	%r10, 1496(%rsp)
	movq	%r15, 920(%rsp)
	movb	%r12b, 7(%rsp)
	je	.LBB42bf483_7
	movq	%r14, %r15
	movq	%r13, %r14
	leal	(,%r10,4), %r13d
	movl	$4, %esi
	movq	%r13, %rdi
	movq	%r10, %r12
	callq	rattle_alloc@PLT
	testb	$1, %al
	je	.LBB42bf483_23
	movq	%rdx, %r11
	cmpl	$1, %r12d
	jne	.LBB42bf483_11
	movq	%r12, %r10
	xorl	%eax, %eax
	jmp	.LBB42bf483_12
.LBB42bf483_7:
	movq	$0, 1016(%rsp)
	leaq	8(%rsp), %r11
	movzbl	6(%rsp), %r8d
	movq	%r14, %rax
	shrq	$32, %rax
	cmpl	$13, %eax
	jae	.LBB42bf483_15
.LBB42bf483_14:
	xorl	%eax, %eax
	movq	$0, 88(%rsp)
	movq	1016(%rsp), %r14
	jmp	.LBB42bf483_5
.LBB42bf483_23:
	movq	928(%rsp), %rdi
	callq	rattle_dealloc@PLT
	movq	%r14, %r13
	movq	920(%rsp), %r15
	movzbl	7(%rsp), %r12d
.LBB42bf483_24:
	movl	912(%rsp), %eax
	movl	915(%rsp), %ecx
	movl	%ecx, 787(%rsp)
	movl	%eax, 784(%rsp)
	movaps	2848(%rsp), %xmm0
	movaps	%xmm0, 2720(%rsp)
	movl	904(%rsp), %eax
	movl	907(%rsp), %ecx
	movl	%eax, 776(%rsp)
	movl	%ecx, 779(%rsp)
	movl	896(%rsp), %eax
	movl	899(%rsp), %ecx
	movl	%eax, 768(%rsp)
	movl	%ecx, 771(%rsp)
	movaps	2832(%rsp), %xmm0
	movaps	%xmm0, 2704(%rsp)
	movl	888(%rsp), %eax
	movl	891(%rsp), %ecx
	movl	%ecx, 763(%rsp)
	movl	%eax, 760(%rsp)
	movl	880(%rsp), %eax
	movl	883(%rsp), %ecx
	movl	%ecx, 755(%rsp)
	movl	%eax, 752(%rsp)
	movaps	2816(%rsp), %xmm0
	movaps	%xmm0, 2688(%rsp)
	movl	872(%rsp), %eax
	movl	875(%rsp), %ecx
	movl	%ecx, 747(%rsp)
	movl	%eax, 744(%rsp)
	movl	864(%rsp), %eax
	movl	867(%rsp), %ecx
	movl	%ecx, 739(%rsp)
	movl	%eax, 736(%rsp)
	movaps	2800(%rsp), %xmm0
	movaps	%xmm0, 2672(%rsp)
	movl	856(%rsp), %eax
	movl	859(%rsp), %ecx
	movl	%ecx, 731(%rsp)
	movl	%eax, 728(%rsp)
	movl	848(%rsp), %eax
	movl	851(%rsp), %ecx
	movl	%ecx, 723(%rsp)
	movl	%eax, 720(%rsp)
	movaps	2784(%rsp), %xmm0
	movaps	%xmm0, 2656(%rsp)
	movl	840(%rsp), %eax
	movl	843(%rsp), %ecx
	movl	%ecx, 715(%rsp)
	movl	%eax, 712(%rsp)
	movl	832(%rsp), %eax
	movl	835(%rsp), %ecx
	movl	%ecx, 707(%rsp)
	movl	%eax, 704(%rsp)
	movaps	2768(%rsp), %xmm0
	movaps	%xmm0, 2640(%rsp)
	movl	824(%rsp), %eax
	movl	827(%rsp), %ecx
	movl	%ecx, 699(%rsp)
	movl	%eax, 696(%rsp)
	movl	816(%rsp), %eax
	movl	819(%rsp), %ecx
	movl	%ecx, 691(%rsp)
	movl	%eax, 688(%rsp)
	movaps	2752(%rsp), %xmm0
	movaps	%xmm0, 2624(%rsp)
	movl	808(%rsp), %eax
	movl	811(%rsp), %ecx
	movl	%ecx, 683(%rsp)
	movl	%eax, 680(%rsp)
	movl	800(%rsp), %eax
	movl	803(%rsp), %ecx
	movl	%ecx, 675(%rsp)
	movl	%eax, 672(%rsp)
	movaps	2736(%rsp), %xmm0
	movaps	%xmm0, 2608(%rsp)
	movl	792(%rsp), %eax
	movl	795(%rsp), %ecx
	movl	%ecx, 667(%rsp)
	movl	%eax, 664(%rsp)
	movaps	1456(%rsp), %xmm0
	movaps	1472(%rsp), %xmm1
	movaps	%xmm1, 1440(%rsp)
	movaps	%xmm0, 1424(%rsp)
	xorps	%xmm0, %xmm0
	xorl	%r9d, %r9d
	xorl	%ebp, %ebp
	xorl	%r11d, %r11d
	xorl	%r14d, %r14d
	xorl	%r10d, %r10d
	xorl	%eax, %eax
	movq	$0, 88(%rsp)
	xorl	%ecx, %ecx
	xorl	%edx, %edx
	movzbl	6(%rsp), %r8d
.LBB42bf483_25:
	movl	784(%rsp), %esi
	movl	787(%rsp), %edi
	movl	%edi, 643(%rsp)
	movl	%esi, 640(%rsp)
	movaps	2720(%rsp), %xmm1
	movaps	%xmm1, 2592(%rsp)
	movl	776(%rsp), %esi
	movl	779(%rsp), %edi
	movl	%esi, 632(%rsp)
	movl	%edi, 635(%rsp)
	movl	768(%rsp), %esi
	movl	771(%rsp), %edi
	movl	%esi, 624(%rsp)
	movl	%edi, 627(%rsp)
	movaps	2704(%rsp), %xmm1
	movaps	%xmm1, 2576(%rsp)
	movl	760(%rsp), %esi
	movl	763(%rsp), %edi
	movl	%edi, 619(%rsp)
	movl	%esi, 616(%rsp)
	movl	752(%rsp), %esi
	movl	755(%rsp), %edi
	movl	%edi, 611(%rsp)
	movl	%esi, 608(%rsp)
	movaps	2688(%rsp), %xmm1
	movaps	%xmm1, 2560(%rsp)
	movl	744(%rsp), %esi
	movl	747(%rsp), %edi
	movl	%esi, 600(%rsp)
	movl	%edi, 603(%rsp)
	movl	736(%rsp), %esi
	movl	739(%rsp), %edi
	movl	%esi, 592(%rsp)
	movl	%edi, 595(%rsp)
	movaps	2672(%rsp), %xmm1
	movaps	%xmm1, 2544(%rsp)
	movl	728(%rsp), %esi
	movl	731(%rsp), %edi
	movl	%edi, 587(%rsp)
	movl	%esi, 584(%rsp)
	movl	720(%rsp), %esi
	movl	723(%rsp), %edi
	movl	%edi, 579(%rsp)
	movl	%esi, 576(%rsp)
	movaps	2656(%rsp), %xmm1
	movaps	%xmm1, 2528(%rsp)
	movl	712(%rsp), %esi
	movl	715(%rsp), %edi
	movl	%edi, 571(%rsp)
	movl	%esi, 568(%rsp)
	movl	704(%rsp), %esi
	movl	707(%rsp), %edi
	movl	%edi, 563(%rsp)
	movl	%esi, 560(%rsp)
	movaps	2640(%rsp), %xmm1
	movaps	%xmm1, 2512(%rsp)
	movl	696(%rsp), %esi
	movl	699(%rsp), %edi
	movl	%edi, 555(%rsp)
	movl	%esi, 552(%rsp)
	movl	688(%rsp), %esi
	movl	691(%rsp), %edi
	movl	%edi, 547(%rsp)
	movl	%esi, 544(%rsp)
	movaps	2624(%rsp), %xmm1
	movaps	%xmm1, 2496(%rsp)
	movl	680(%rsp), %esi
	movl	683(%rsp), %edi
	movl	%edi, 539(%rsp)
	movl	%esi, 536(%rsp)
	movl	672(%rsp), %esi
	movl	675(%rsp), %edi
	movl	%edi, 531(%rsp)
	movl	%esi, 528(%rsp)
	movaps	2608(%rsp), %xmm1
	movaps	%xmm1, 2480(%rsp)
	movl	664(%rsp), %esi
	movl	667(%rsp), %edi
	movl	%edi, 523(%rsp)
	movl	%esi, 520(%rsp)
	movaps	1424(%rsp), %xmm1
	movaps	1440(%rsp), %xmm2
	movaps	%xmm2, 2464(%rsp)
	movaps	%xmm1, 2448(%rsp)
	movq	1408(%rsp), %rsi
	movq	1415(%rsp), %rdi
	movq	%rdi, 1383(%rsp)
	movq	%rsi, 1376(%rsp)
	movl	656(%rsp), %esi
	movl	659(%rsp), %edi
	movl	%edi, 515(%rsp)
	movl	%esi, 512(%rsp)
	movq	$0, 1456(%rsp)
	movq	$0, 1463(%rsp)
	movl	$0, 1424(%rsp)
	movl	$0, 1427(%rsp)
	testb	%dl, %dl
	je	.LBB42bf483_26
	movq	1376(%rsp), %rsi
	movq	1383(%rsp), %rdi
	movq	%rdi, 1463(%rsp)
	movq	%rsi, 1456(%rsp)
	movl	512(%rsp), %esi
	movl	515(%rsp), %edi
	movl	%esi, 1424(%rsp)
	movl	%edi, 1427(%rsp)
	jmp	.LBB42bf483_28
.LBB42bf483_26:
	xorps	%xmm0, %xmm0
	xorl	%r9d, %r9d
	xorl	%ebp, %ebp
	xorl	%r11d, %r11d
	xorl	%r14d, %r14d
	xorl	%r10d, %r10d
	xorl	%eax, %eax
	movq	$0, 88(%rsp)
	xorl	%ecx, %ecx
.LBB42bf483_28:
	movq	1456(%rsp), %rsi
	movq	1463(%rsp), %rdi
	movq	%rdi, 1399(%rsp)
	movq	%rsi, 1392(%rsp)
	movl	1424(%rsp), %esi
	movl	1427(%rsp), %edi
	movl	%esi, 648(%rsp)
	movl	%edi, 651(%rsp)
	movl	640(%rsp), %esi
	movl	643(%rsp), %edi
	movl	%esi, 392(%rsp)
	movl	%edi, 395(%rsp)
	movaps	2592(%rsp), %xmm1
	movaps	%xmm1, 2320(%rsp)
	movl	632(%rsp), %esi
	movl	635(%rsp), %edi
	movl	%esi, 384(%rsp)
	movl	%edi, 387(%rsp)
	movl	624(%rsp), %esi
	movl	627(%rsp), %edi
	movl	%edi, 379(%rsp)
	movl	%esi, 376(%rsp)
	movaps	2576(%rsp), %xmm1
	movaps	%xmm1, 2304(%rsp)
	movl	616(%rsp), %esi
	movl	619(%rsp), %edi
	movl	%edi, 371(%rsp)
	movl	%esi, 368(%rsp)
	movl	608(%rsp), %esi
	movl	611(%rsp), %edi
	movl	%edi, 363(%rsp)
	movl	%esi, 360(%rsp)
	movaps	2560(%rsp), %xmm1
	movaps	%xmm1, 2288(%rsp)
	movl	600(%rsp), %esi
	movl	603(%rsp), %edi
	movl	%edi, 355(%rsp)
	movl	%esi, 352(%rsp)
	movl	592(%rsp), %esi
	movl	595(%rsp), %edi
	movl	%edi, 347(%rsp)
	movl	%esi, 344(%rsp)
	movaps	2544(%rsp), %xmm1
	movaps	%xmm1, 2272(%rsp)
	movl	584(%rsp), %esi
	movl	587(%rsp), %edi
	movl	%edi, 339(%rsp)
	movl	%esi, 336(%rsp)
	movl	576(%rsp), %esi
	movl	579(%rsp), %edi
	movl	%edi, 331(%rsp)
	movl	%esi, 328(%rsp)
	movaps	2528(%rsp), %xmm1
	movaps	%xmm1, 2256(%rsp)
	movl	568(%rsp), %esi
	movl	571(%rsp), %edi
	movl	%edi, 323(%rsp)
	movl	%esi, 320(%rsp)
	movl	560(%rsp), %esi
	movl	563(%rsp), %edi
	movl	%edi, 315(%rsp)
	movl	%esi, 312(%rsp)
	movaps	2512(%rsp), %xmm1
	movaps	%xmm1, 2240(%rsp)
	movl	552(%rsp), %esi
	movl	555(%rsp), %edi
	movl	%edi, 307(%rsp)
	movl	%esi, 304(%rsp)
	movl	544(%rsp), %esi
	movl	547(%rsp), %edi
	movl	%edi, 299(%rsp)
	movl	%esi, 296(%rsp)
	movaps	2496(%rsp), %xmm1
	movaps	%xmm1, 2224(%rsp)
	movl	536(%rsp), %esi
	movl	539(%rsp), %edi
	movl	%edi, 291(%rsp)
	movl	%esi, 288(%rsp)
	movl	528(%rsp), %esi
	movl	531(%rsp), %edi
	movl	%edi, 283(%rsp)
	movl	%esi, 280(%rsp)
	movaps	2480(%rsp), %xmm1
	movaps	%xmm1, 2208(%rsp)
	movl	520(%rsp), %esi
	movl	523(%rsp), %edi
	movl	%edi, 275(%rsp)
	movl	%esi, 272(%rsp)
	movaps	2448(%rsp), %xmm1
	movaps	2464(%rsp), %xmm2
	movaps	%xmm2, 2192(%rsp)
	movaps	%xmm1, 2176(%rsp)
	testb	%dl, %dl
	je	.LBB42bf483_30
	movaps	2208(%rsp), %xmm1
	movaps	%xmm1, 1744(%rsp)
	movaps	2192(%rsp), %xmm1
	movaps	%xmm1, 1728(%rsp)
	movaps	2176(%rsp), %xmm1
	movaps	%xmm1, 1712(%rsp)
	xorps	%xmm1, %xmm1
	movups	%xmm1, 1674(%rsp)
	movaps	%xmm1, 1664(%rsp)
	movaps	%xmm1, 1648(%rsp)
	movaps	%xmm1, 1632(%rsp)
	movaps	%xmm1, 1616(%rsp)
	movaps	%xmm1, 1344(%rsp)
	movaps	%xmm1, 1696(%rsp)
	movq	1399(%rsp), %rdx
	movq	%rdx, 1311(%rsp)
	movq	1392(%rsp), %rdx
	movq	%rdx, 1304(%rsp)
	movl	648(%rsp), %edx
	movl	%edx, 112(%rsp)
	movl	651(%rsp), %edx
	movl	%edx, 115(%rsp)
	movl	1008(%rsp), %edx
	movl	%edx, 80(%rsp)
	movzwl	1012(%rsp), %edx
	movw	%dx, 84(%rsp)
	movl	1000(%rsp), %edx
	movl	%edx, 72(%rsp)
	movzwl	1004(%rsp), %edx
	movw	%dx, 76(%rsp)
	movq	1807(%rsp), %rdx
	movq	%rdx, 1295(%rsp)
	movq	1800(%rsp), %rdx
	movq	%rdx, 1288(%rsp)
	movzwl	996(%rsp), %edx
	movw	%dx, 68(%rsp)
	movl	992(%rsp), %edx
	movl	%edx, 64(%rsp)
	movl	280(%rsp), %edx
	movl	%edx, 56(%rsp)
	movl	283(%rsp), %edx
	movl	%edx, 59(%rsp)
	movl	275(%rsp), %edx
	movl	%edx, 51(%rsp)
	movl	272(%rsp), %edx
	movl	%edx, 48(%rsp)
	movq	1311(%rsp), %rdx
	movq	%rdx, 959(%rsp)
	movq	1304(%rsp), %rdx
	movq	%rdx, 952(%rsp)
	movl	115(%rsp), %edx
	movl	%edx, 43(%rsp)
	movl	112(%rsp), %edx
	movl	%edx, 40(%rsp)
	movzwl	84(%rsp), %edx
	movw	%dx, 36(%rsp)
	movl	80(%rsp), %edx
	movl	%edx, 32(%rsp)
	movzwl	76(%rsp), %edx
	movw	%dx, 28(%rsp)
	movl	72(%rsp), %edx
	movl	%edx, 24(%rsp)
	movq	1295(%rsp), %rdx
	movq	%rdx, 943(%rsp)
	movq	1288(%rsp), %rdx
	movq	%rdx, 936(%rsp)
	movzwl	68(%rsp), %edx
	movw	%dx, 140(%rsp)
	movl	64(%rsp), %edx
	movl	%edx, 136(%rsp)
	movb	$0, 128(%rsp)
	movq	$0, 120(%rsp)
	movq	$0, 1360(%rsp)
	movw	$0, (%rbx)
	movb	$0, 2(%rbx)
	movl	96(%rsp), %edx
	movl	%edx, 3(%rbx)
	movzbl	100(%rsp), %edx
	movb	%dl, 7(%rbx)
	movb	%r8b, 8(%rbx)
	movl	392(%rsp), %edx
	movl	395(%rsp), %esi
	movl	%edx, 9(%rbx)
	movl	%esi, 12(%rbx)
	movq	1560(%rsp), %rdx
	movq	%rdx, 16(%rbx)
	movaps	3216(%rsp), %xmm1
	movups	%xmm1, 24(%rbx)
	movaps	2320(%rsp), %xmm1
	movups	%xmm1, 40(%rbx)
	movzbl	10(%rsp), %edx
	movb	%dl, 56(%rbx)
	movl	384(%rsp), %edx
	movl	387(%rsp), %esi
	movl	%edx, 57(%rbx)
	movl	%esi, 60(%rbx)
	movq	2008(%rsp), %rdx
	movq	%rdx, 64(%rbx)
	movq	1504(%rsp), %rdx
	movq	%rdx, 72(%rbx)
	movaps	3200(%rsp), %xmm1
	movups	%xmm1, 80(%rbx)
	movzbl	17(%rsp), %edx
	movb	%dl, 96(%rbx)
	movl	376(%rsp), %edx
	movl	379(%rsp), %esi
	movl	%esi, 100(%rbx)
	movl	%edx, 97(%rbx)
	movq	1568(%rsp), %rdx
	movq	%rdx, 104(%rbx)
	movaps	3184(%rsp), %xmm1
	movups	%xmm1, 112(%rbx)
	movaps	2304(%rsp), %xmm1
	movups	%xmm1, 128(%rbx)
	movzbl	11(%rsp), %edx
	movb	%dl, 144(%rbx)
	movl	368(%rsp), %edx
	movl	371(%rsp), %esi
	movl	%esi, 148(%rbx)
	movl	%edx, 145(%rbx)
	movq	2000(%rsp), %rdx
	movq	%rdx, 152(%rbx)
	movq	1512(%rsp), %rdx
	movq	%rdx, 160(%rbx)
	movaps	3168(%rsp), %xmm1
	movups	%xmm1, 168(%rbx)
	movzbl	18(%rsp), %edx
	movb	%dl, 184(%rbx)
	movl	360(%rsp), %edx
	movl	363(%rsp), %esi
	movl	%esi, 188(%rbx)
	movl	%edx, 185(%rbx)
	movq	1576(%rsp), %rdx
	movq	%rdx, 192(%rbx)
	movaps	3152(%rsp), %xmm1
	movups	%xmm1, 200(%rbx)
	movaps	2288(%rsp), %xmm1
	movups	%xmm1, 216(%rbx)
	movzbl	12(%rsp), %edx
	movb	%dl, 232(%rbx)
	movl	352(%rsp), %edx
	movl	355(%rsp), %esi
	movl	%esi, 236(%rbx)
	movl	%edx, 233(%rbx)
	movq	1992(%rsp), %rdx
	movq	%rdx, 240(%rbx)
	movq	1520(%rsp), %rdx
	movq	%rdx, 248(%rbx)
	movaps	3136(%rsp), %xmm1
	movups	%xmm1, 256(%rbx)
	movzbl	19(%rsp), %edx
	movb	%dl, 272(%rbx)
	movl	344(%rsp), %edx
	movl	347(%rsp), %esi
	movl	%esi, 276(%rbx)
	movl	%edx, 273(%rbx)
	movq	1584(%rsp), %rdx
	movq	%rdx, 280(%rbx)
	movaps	3120(%rsp), %xmm1
	movups	%xmm1, 288(%rbx)
	movaps	2272(%rsp), %xmm1
	movups	%xmm1, 304(%rbx)
	movzbl	13(%rsp), %edx
	movb	%dl, 320(%rbx)
	movl	336(%rsp), %edx
	movl	339(%rsp), %esi
	movl	%esi, 324(%rbx)
	movl	%edx, 321(%rbx)
	movq	1984(%rsp), %rdx
	movq	%rdx, 328(%rbx)
	movq	1528(%rsp), %rdx
	movq	%rdx, 336(%rbx)
	movaps	3104(%rsp), %xmm1
	movups	%xmm1, 344(%rbx)
	movzbl	20(%rsp), %edx
	movb	%dl, 360(%rbx)
	movl	328(%rsp), %edx
	movl	331(%rsp), %esi
	movl	%esi, 364(%rbx)
	movl	%edx, 361(%rbx)
	movq	1592(%rsp), %rdx
	movq	%rdx, 368(%rbx)
	movaps	3088(%rsp), %xmm1
	movups	%xmm1, 376(%rbx)
	movaps	2256(%rsp), %xmm1
	movups	%xmm1, 392(%rbx)
	movzbl	14(%rsp), %edx
	movb	%dl, 408(%rbx)
	movl	320(%rsp), %edx
	movl	323(%rsp), %esi
	movl	%esi, 412(%rbx)
	movl	%edx, 409(%rbx)
	movq	1976(%rsp), %rdx
	movq	%rdx, 416(%rbx)
	movq	1536(%rsp), %rdx
	movq	%rdx, 424(%rbx)
	movaps	3072(%rsp), %xmm1
	movups	%xmm1, 432(%rbx)
	movzbl	21(%rsp), %edx
	movb	%dl, 448(%rbx)
	movl	312(%rsp), %edx
	movl	315(%rsp), %esi
	movl	%esi, 452(%rbx)
	movl	%edx, 449(%rbx)
	movq	1600(%rsp), %rdx
	movq	%rdx, 456(%rbx)
	movaps	3056(%rsp), %xmm1
	movups	%xmm1, 464(%rbx)
	movaps	2240(%rsp), %xmm1
	movups	%xmm1, 480(%rbx)
	movzbl	15(%rsp), %edx
	movb	%dl, 496(%rbx)
	movl	304(%rsp), %edx
	movl	307(%rsp), %esi
	movl	%esi, 500(%rbx)
	movl	%edx, 497(%rbx)
	movq	1968(%rsp), %rdx
	movq	%rdx, 504(%rbx)
	movq	1544(%rsp), %rdx
	movq	%rdx, 512(%rbx)
	movaps	3040(%rsp), %xmm1
	movups	%xmm1, 520(%rbx)
	movzbl	22(%rsp), %edx
	movb	%dl, 536(%rbx)
	movl	296(%rsp), %edx
	movl	299(%rsp), %esi
	movl	%esi, 540(%rbx)
	movl	%edx, 537(%rbx)
	movq	1608(%rsp), %rdx
	movq	%rdx, 544(%rbx)
	movaps	3024(%rsp), %xmm1
	movups	%xmm1, 552(%rbx)
	movaps	2224(%rsp), %xmm1
	movups	%xmm1, 568(%rbx)
	movzbl	16(%rsp), %edx
	movb	%dl, 584(%rbx)
	movl	288(%rsp), %edx
	movl	291(%rsp), %esi
	movl	%esi, 588(%rbx)
	movl	%edx, 585(%rbx)
	movq	1960(%rsp), %rdx
	movq	%rdx, 592(%rbx)
	movq	1552(%rsp), %rdx
	movq	%rdx, 600(%rbx)
	movaps	3008(%rsp), %xmm1
	movups	%xmm1, 608(%rbx)
	movzbl	23(%rsp), %edx
	movb	%dl, 624(%rbx)
	movl	56(%rsp), %edx
	movl	59(%rsp), %esi
	movl	%esi, 628(%rbx)
	movl	%edx, 625(%rbx)
	movq	%r13, 632(%rbx)
	movaps	2992(%rsp), %xmm1
	movups	%xmm1, 640(%rbx)
	movaps	1744(%rsp), %xmm1
	movups	%xmm1, 656(%rbx)
	movb	%r12b, 672(%rbx)
	movl	48(%rsp), %edx
	movl	51(%rsp), %esi
	movl	%esi, 676(%rbx)
	movl	%edx, 673(%rbx)
	movq	1952(%rsp), %rdx
	movq	%rdx, 680(%rbx)
	movq	%r15, 688(%rbx)
	movaps	2976(%rsp), %xmm1
	movups	%xmm1, 696(%rbx)
	movq	1944(%rsp), %rdx
	movq	%rdx, 712(%rbx)
	movaps	1712(%rsp), %xmm1
	movaps	1728(%rsp), %xmm2
	movups	%xmm2, 736(%rbx)
	movups	%xmm1, 720(%rbx)
	movq	%r9, 752(%rbx)
	movq	%rbp, 760(%rbx)
	movq	%rbp, 768(%rbx)
	movq	%r11, 776(%rbx)
	movq	%r14, 784(%rbx)
	movq	%r10, 792(%rbx)
	movq	%rax, 800(%rbx)
	movq	88(%rsp), %rax
	movq	%rax, 808(%rbx)
	movq	%rbp, 816(%rbx)
	movb	$0, 824(%rbx)
	movq	%rcx, 825(%rbx)
	movq	952(%rsp), %rax
	movq	959(%rsp), %rcx
	movq	%rax, 833(%rbx)
	movq	%rcx, 840(%rbx)
	movlps	%xmm0, 848(%rbx)
	movzbl	128(%rsp), %eax
	movb	%al, 864(%rbx)
	movq	120(%rsp), %rax
	movq	%rax, 856(%rbx)
	movl	40(%rsp), %eax
	movl	43(%rsp), %ecx
	movl	%ecx, 868(%rbx)
	movl	%eax, 865(%rbx)
	movaps	1616(%rsp), %xmm0
	movaps	1632(%rsp), %xmm1
	movaps	1648(%rsp), %xmm2
	movaps	1664(%rsp), %xmm3
	movups	%xmm0, 872(%rbx)
	movups	%xmm1, 888(%rbx)
	movups	%xmm2, 904(%rbx)
	movups	%xmm3, 920(%rbx)
	movups	1674(%rsp), %xmm0
	movups	%xmm0, 930(%rbx)
	movzwl	36(%rsp), %eax
	movw	%ax, 950(%rbx)
	movl	32(%rsp), %eax
	movl	%eax, 946(%rbx)
	movq	$0, 952(%rbx)
	movw	$0, 960(%rbx)
	movzwl	28(%rsp), %eax
	movw	%ax, 966(%rbx)
	movl	24(%rsp), %eax
	movl	%eax, 962(%rbx)
	movaps	1344(%rsp), %xmm0
	movups	%xmm0, 968(%rbx)
	movq	1360(%rsp), %rax
	movq	%rax, 984(%rbx)
	movb	$1, 992(%rbx)
	movq	$0, 993(%rbx)
	movq	936(%rsp), %rax
	movq	943(%rsp), %rcx
	movq	%rcx, 1008(%rbx)
	movq	%rax, 1001(%rbx)
	movaps	1696(%rsp), %xmm0
	movups	%xmm0, 1016(%rbx)
	movw	$0, 1032(%rbx)
	movzwl	140(%rsp), %eax
	movw	%ax, 1038(%rbx)
	movl	136(%rsp), %eax
	jmp	.LBB42bf483_79
.LBB42bf483_30:
	movw	$0, 68(%rsp)
	movl	$0, 64(%rsp)
	movq	$0, 1304(%rsp)
	movq	$0, 1311(%rsp)
	movl	$0, 112(%rsp)
	movl	$0, 115(%rsp)
	movl	$0, 80(%rsp)
	movw	$0, 84(%rsp)
	movl	$0, 72(%rsp)
	movw	$0, 76(%rsp)
	movq	$0, 1288(%rsp)
	movq	$0, 1295(%rsp)
	movzbl	100(%rsp), %eax
	movb	%al, 108(%rsp)
	movl	96(%rsp), %eax
	movl	%eax, 104(%rsp)
	movl	1152(%rsp), %eax
	movl	1155(%rsp), %ecx
	movl	%ecx, 507(%rsp)
	movl	%eax, 504(%rsp)
	movaps	3392(%rsp), %xmm0
	movaps	%xmm0, 2432(%rsp)
	movl	1144(%rsp), %eax
	movl	1147(%rsp), %ecx
	movl	%ecx, 499(%rsp)
	movl	%eax, 496(%rsp)
	movl	1136(%rsp), %eax
	movl	1139(%rsp), %ecx
	movl	%ecx, 491(%rsp)
	movl	%eax, 488(%rsp)
	movaps	3376(%rsp), %xmm0
	movaps	%xmm0, 2416(%rsp)
	movl	1128(%rsp), %eax
	movl	1131(%rsp), %ecx
	movl	%ecx, 483(%rsp)
	movl	%eax, 480(%rsp)
	movl	1120(%rsp), %eax
	movl	1123(%rsp), %ecx
	movl	%ecx, 475(%rsp)
	movl	%eax, 472(%rsp)
	movaps	3360(%rsp), %xmm0
	movaps	%xmm0, 2400(%rsp)
	movl	1112(%rsp), %eax
	movl	1115(%rsp), %ecx
	movl	%ecx, 467(%rsp)
	movl	%eax, 464(%rsp)
	movl	1104(%rsp), %eax
	movl	1107(%rsp), %ecx
	movl	%ecx, 459(%rsp)
	movl	%eax, 456(%rsp)
	movaps	3344(%rsp), %xmm0
	movaps	%xmm0, 2384(%rsp)
	movl	1096(%rsp), %eax
	movl	1099(%rsp), %ecx
	movl	%ecx, 451(%rsp)
	movl	%eax, 448(%rsp)
	movl	1088(%rsp), %eax
	movl	1091(%rsp), %ecx
	movl	%ecx, 443(%rsp)
	movl	%eax, 440(%rsp)
	movaps	3328(%rsp), %xmm0
	movaps	%xmm0, 2368(%rsp)
	movl	1080(%rsp), %eax
	movl	1083(%rsp), %ecx
	movl	%ecx, 435(%rsp)
	movl	%eax, 432(%rsp)
	movl	1072(%rsp), %eax
	movl	1075(%rsp), %ecx
	movl	%ecx, 427(%rsp)
	movl	%eax, 424(%rsp)
	movaps	3312(%rsp), %xmm0
	movaps	%xmm0, 2352(%rsp)
	movl	1064(%rsp), %eax
	movl	1067(%rsp), %ecx
	movl	%ecx, 419(%rsp)
	movl	%eax, 416(%rsp)
	movl	1056(%rsp), %eax
	movl	1059(%rsp), %ecx
	movl	%ecx, 411(%rsp)
	movl	%eax, 408(%rsp)
	movaps	3296(%rsp), %xmm0
	movaps	%xmm0, 2336(%rsp)
	movl	1048(%rsp), %eax
	movl	1051(%rsp), %ecx
	movl	%ecx, 403(%rsp)
	movl	%eax, 400(%rsp)
	movl	1040(%rsp), %eax
	movl	1043(%rsp), %ecx
	movl	%ecx, 59(%rsp)
	movl	%eax, 56(%rsp)
	movaps	3280(%rsp), %xmm0
	movaps	%xmm0, 1744(%rsp)
	movl	1032(%rsp), %eax
	movl	1035(%rsp), %ecx
	movl	%ecx, 51(%rsp)
	movl	%eax, 48(%rsp)
	movaps	3248(%rsp), %xmm0
	movaps	3264(%rsp), %xmm1
	movaps	%xmm1, 1728(%rsp)
	movaps	%xmm0, 1712(%rsp)
	movq	1784(%rsp), %rax
	movq	1791(%rsp), %rcx
	movq	%rcx, 959(%rsp)
	movq	%rax, 952(%rsp)
	movzbl	1336(%rsp), %eax
	movb	%al, 128(%rsp)
	movq	1328(%rsp), %rax
	movq	%rax, 120(%rsp)
	movl	1024(%rsp), %eax
	movl	1027(%rsp), %ecx
	movl	%ecx, 43(%rsp)
	movl	%eax, 40(%rsp)
	movups	2954(%rsp), %xmm0
	movups	%xmm0, 1674(%rsp)
	movaps	2896(%rsp), %xmm0
	movaps	2912(%rsp), %xmm1
	movaps	2928(%rsp), %xmm2
	movaps	2944(%rsp), %xmm3
	movaps	%xmm3, 1664(%rsp)
	movaps	%xmm2, 1648(%rsp)
	movaps	%xmm1, 1632(%rsp)
	movaps	%xmm0, 1616(%rsp)
	movzwl	988(%rsp), %eax
	movw	%ax, 36(%rsp)
	movl	984(%rsp), %eax
	movl	%eax, 32(%rsp)
	movzwl	980(%rsp), %eax
	movw	%ax, 28(%rsp)
	movl	976(%rsp), %eax
	movl	%eax, 24(%rsp)
	movq	2880(%rsp), %rax
	movq	%rax, 1360(%rsp)
	movaps	2864(%rsp), %xmm0
	movaps	%xmm0, 1344(%rsp)
	movq	1768(%rsp), %rax
	movq	1775(%rsp), %rcx
	movq	%rcx, 943(%rsp)
	movq	%rax, 936(%rsp)
	movaps	3232(%rsp), %xmm0
	movaps	%xmm0, 1696(%rsp)
	cmpb	$1, %r8b
	jne	.LBB42bf483_36
	cmpq	$0, 1880(%rsp)
	je	.LBB42bf483_33
	movq	1560(%rsp), %rdi
	callq	rattle_dealloc@PLT
.LBB42bf483_33:
	cmpb	$1, 10(%rsp)
	jne	.LBB42bf483_36
	cmpq	$0, 1816(%rsp)
	je	.LBB42bf483_36
	movq	1504(%rsp), %rdi
	callq	rattle_dealloc@PLT
.LBB42bf483_36:
	cmpb	$1, 17(%rsp)
	jne	.LBB42bf483_42
	cmpq	$0, 1888(%rsp)
	je	.LBB42bf483_39
	movq	1568(%rsp), %rdi
	callq	rattle_dealloc@PLT
.LBB42bf483_39:
	cmpb	$1, 11(%rsp)
	jne	.LBB42bf483_42
	cmpq	$0, 1832(%rsp)
	je	.LBB42bf483_42
	movq	1512(%rsp), %rdi
	callq	rattle_dealloc@PLT
.LBB42bf483_42:
	cmpb	$1, 18(%rsp)
	jne	.LBB42bf483_48
	cmpq	$0, 1896(%rsp)
	je	.LBB42bf483_45
	movq	1576(%rsp), %rdi
	callq	rattle_dealloc@PLT
.LBB42bf483_45:
	cmpb	$1, 12(%rsp)
	jne	.LBB42bf483_48
	cmpq	$0, 1824(%rsp)
	je	.LBB42bf483_48
	movq	1520(%rsp), %rdi
	callq	rattle_dealloc@PLT
.LBB42bf483_48:
	cmpb	$1, 19(%rsp)
	jne	.LBB42bf483_54
	cmpq	$0, 1904(%rsp)
	je	.LBB42bf483_51
	movq	1584(%rsp), %rdi
	callq	rattle_dealloc@PLT
.LBB42bf483_51:
	cmpb	$1, 13(%rsp)
	jne	.LBB42bf483_54
	cmpq	$0, 1840(%rsp)
	je	.LBB42bf483_54
	movq	1528(%rsp), %rdi
	callq	rattle_dealloc@PLT
.LBB42bf483_54:
	cmpb	$1, 20(%rsp)
	jne	.LBB42bf483_60
	cmpq	$0, 1912(%rsp)
	je	.LBB42bf483_57
	movq	1592(%rsp), %rdi
	callq	rattle_dealloc@PLT
.LBB42bf483_57:
	cmpb	$1, 14(%rsp)
	jne	.LBB42bf483_60
	cmpq	$0, 1848(%rsp)
	je	.LBB42bf483_60
	movq	1536(%rsp), %rdi
	callq	rattle_dealloc@PLT
.LBB42bf483_60:
	cmpb	$1, 21(%rsp)
	jne	.LBB42bf483_66
	cmpq	$0, 1920(%rsp)
	je	.LBB42bf483_63
	movq	1600(%rsp), %rdi
	callq	rattle_dealloc@PLT
.LBB42bf483_63:
	cmpb	$1, 15(%rsp)
	jne	.LBB42bf483_66
	cmpq	$0, 1856(%rsp)
	je	.LBB42bf483_66
	movq	1544(%rsp), %rdi
	callq	rattle_dealloc@PLT
.LBB42bf483_66:
	cmpb	$1, 22(%rsp)
	jne	.LBB42bf483_72
	cmpq	$0, 1928(%rsp)
	je	.LBB42bf483_69
	movq	1608(%rsp), %rdi
	callq	rattle_dealloc@PLT
.LBB42bf483_69:
	cmpb	$1, 16(%rsp)
	jne	.LBB42bf483_72
	cmpq	$0, 1864(%rsp)
	je	.LBB42bf483_72
	movq	1552(%rsp), %rdi
	callq	rattle_dealloc@PLT
.LBB42bf483_72:
	cmpb	$1, 23(%rsp)
	jne	.LBB42bf483_78
	cmpq	$0, 1936(%rsp)
	je	.LBB42bf483_75
	movq	%r13, %rdi
	callq	rattle_dealloc@PLT
.LBB42bf483_75:
	cmpb	$1, %r12b
	jne	.LBB42bf483_78
	cmpq	$0, 1872(%rsp)
	je	.LBB42bf483_78
	movq	%r15, %rdi
	callq	rattle_dealloc@PLT
.LBB42bf483_78:
	movw	$513, (%rbx)
	movb	$0, 2(%rbx)
	movl	104(%rsp), %eax
	movl	%eax, 3(%rbx)
	movzbl	108(%rsp), %eax
	movb	%al, 7(%rbx)
	movb	$0, 8(%rbx)
	movl	504(%rsp), %eax
	movl	507(%rsp), %ecx
	movl	%eax, 9(%rbx)
	movl	%ecx, 12(%rbx)
	xorps	%xmm0, %xmm0
	movups	%xmm0, 16(%rbx)
	movq	$0, 32(%rbx)
	movaps	2432(%rsp), %xmm1
	movups	%xmm1, 40(%rbx)
	movb	$0, 56(%rbx)
	movl	496(%rsp), %eax
	movl	499(%rsp), %ecx
	movl	%eax, 57(%rbx)
	movl	%ecx, 60(%rbx)
	movups	%xmm0, 80(%rbx)
	movups	%xmm0, 64(%rbx)
	movb	$0, 96(%rbx)
	movl	488(%rsp), %eax
	movl	491(%rsp), %ecx
	movl	%eax, 97(%rbx)
	movl	%ecx, 100(%rbx)
	movups	%xmm0, 104(%rbx)
	movq	$0, 120(%rbx)
	movaps	2416(%rsp), %xmm1
	movups	%xmm1, 128(%rbx)
	movb	$0, 144(%rbx)
	movl	480(%rsp), %eax
	movl	483(%rsp), %ecx
	movl	%ecx, 148(%rbx)
	movl	%eax, 145(%rbx)
	movups	%xmm0, 152(%rbx)
	movups	%xmm0, 168(%rbx)
	movb	$0, 184(%rbx)
	movl	472(%rsp), %eax
	movl	475(%rsp), %ecx
	movl	%eax, 185(%rbx)
	movl	%ecx, 188(%rbx)
	movups	%xmm0, 192(%rbx)
	movq	$0, 208(%rbx)
	movaps	2400(%rsp), %xmm1
	movups	%xmm1, 216(%rbx)
	movb	$0, 232(%rbx)
	movl	464(%rsp), %eax
	movl	467(%rsp), %ecx
	movl	%ecx, 236(%rbx)
	movl	%eax, 233(%rbx)
	movups	%xmm0, 240(%rbx)
	movups	%xmm0, 256(%rbx)
	movb	$0, 272(%rbx)
	movl	456(%rsp), %eax
	movl	459(%rsp), %ecx
	movl	%eax, 273(%rbx)
	movl	%ecx, 276(%rbx)
	movups	%xmm0, 280(%rbx)
	movq	$0, 296(%rbx)
	movaps	2384(%rsp), %xmm1
	movups	%xmm1, 304(%rbx)
	movb	$0, 320(%rbx)
	movl	448(%rsp), %eax
	movl	451(%rsp), %ecx
	movl	%ecx, 324(%rbx)
	movl	%eax, 321(%rbx)
	movups	%xmm0, 328(%rbx)
	movups	%xmm0, 344(%rbx)
	movb	$0, 360(%rbx)
	movl	440(%rsp), %eax
	movl	443(%rsp), %ecx
	movl	%eax, 361(%rbx)
	movl	%ecx, 364(%rbx)
	movups	%xmm0, 368(%rbx)
	movq	$0, 384(%rbx)
	movaps	2368(%rsp), %xmm1
	movups	%xmm1, 392(%rbx)
	movb	$0, 408(%rbx)
	movl	432(%rsp), %eax
	movl	435(%rsp), %ecx
	movl	%ecx, 412(%rbx)
	movl	%eax, 409(%rbx)
	movups	%xmm0, 416(%rbx)
	movups	%xmm0, 432(%rbx)
	movb	$0, 448(%rbx)
	movl	424(%rsp), %eax
	movl	427(%rsp), %ecx
	movl	%eax, 449(%rbx)
	movl	%ecx, 452(%rbx)
	movups	%xmm0, 456(%rbx)
	movq	$0, 472(%rbx)
	movaps	2352(%rsp), %xmm1
	movups	%xmm1, 480(%rbx)
	movb	$0, 496(%rbx)
	movl	416(%rsp), %eax
	movl	419(%rsp), %ecx
	movl	%ecx, 500(%rbx)
	movl	%eax, 497(%rbx)
	movups	%xmm0, 504(%rbx)
	movups	%xmm0, 520(%rbx)
	movb	$0, 536(%rbx)
	movl	408(%rsp), %eax
	movl	411(%rsp), %ecx
	movl	%eax, 537(%rbx)
	movl	%ecx, 540(%rbx)
	movups	%xmm0, 544(%rbx)
	movq	$0, 560(%rbx)
	movaps	2336(%rsp), %xmm1
	movups	%xmm1, 568(%rbx)
	movb	$0, 584(%rbx)
	movl	400(%rsp), %eax
	movl	403(%rsp), %ecx
	movl	%ecx, 588(%rbx)
	movl	%eax, 585(%rbx)
	movups	%xmm0, 592(%rbx)
	movups	%xmm0, 608(%rbx)
	movb	$0, 624(%rbx)
	movl	56(%rsp), %eax
	movl	59(%rsp), %ecx
	movl	%eax, 625(%rbx)
	movl	%ecx, 628(%rbx)
	movups	%xmm0, 632(%rbx)
	movq	$0, 648(%rbx)
	movaps	1744(%rsp), %xmm1
	movups	%xmm1, 656(%rbx)
	movb	$0, 672(%rbx)
	movl	48(%rsp), %eax
	movl	51(%rsp), %ecx
	movl	%ecx, 676(%rbx)
	movl	%eax, 673(%rbx)
	movups	%xmm0, 680(%rbx)
	movups	%xmm0, 696(%rbx)
	movq	$0, 712(%rbx)
	movaps	1712(%rsp), %xmm1
	movaps	1728(%rsp), %xmm2
	movups	%xmm1, 720(%rbx)
	movups	%xmm2, 736(%rbx)
	movups	%xmm0, 752(%rbx)
	movups	%xmm0, 768(%rbx)
	movups	%xmm0, 784(%rbx)
	movups	%xmm0, 800(%rbx)
	movups	%xmm0, 816(%rbx)
	movb	$0, 832(%rbx)
	movq	952(%rsp), %rax
	movq	959(%rsp), %rcx
	movq	%rax, 833(%rbx)
	movq	%rcx, 840(%rbx)
	movq	$0, 848(%rbx)
	movzbl	128(%rsp), %eax
	movb	%al, 864(%rbx)
	movq	120(%rsp), %rax
	movq	%rax, 856(%rbx)
	movl	40(%rsp), %eax
	movl	43(%rsp), %ecx
	movl	%ecx, 868(%rbx)
	movl	%eax, 865(%rbx)
	movups	1674(%rsp), %xmm0
	movups	%xmm0, 930(%rbx)
	movaps	1616(%rsp), %xmm0
	movaps	1632(%rsp), %xmm1
	movaps	1648(%rsp), %xmm2
	movaps	1664(%rsp), %xmm3
	movups	%xmm3, 920(%rbx)
	movups	%xmm2, 904(%rbx)
	movups	%xmm1, 888(%rbx)
	movups	%xmm0, 872(%rbx)
	movzwl	36(%rsp), %eax
	movw	%ax, 950(%rbx)
	movl	32(%rsp), %eax
	movl	%eax, 946(%rbx)
	movq	$0, 952(%rbx)
	movw	$0, 960(%rbx)
	movzwl	28(%rsp), %eax
	movw	%ax, 966(%rbx)
	movl	24(%rsp), %eax
	movl	%eax, 962(%rbx)
	movq	1360(%rsp), %rax
	movq	%rax, 984(%rbx)
	movaps	1344(%rsp), %xmm0
	movups	%xmm0, 968(%rbx)
	movb	$0, 992(%rbx)
	movq	$0, 993(%rbx)
	movq	936(%rsp), %rax
	movq	943(%rsp), %rcx
	movq	%rcx, 1008(%rbx)
	movq	%rax, 1001(%rbx)
	movaps	1696(%rsp), %xmm0
	movups	%xmm0, 1016(%rbx)
	movw	$0, 1032(%rbx)
	movzwl	972(%rsp), %eax
	movw	%ax, 1038(%rbx)
	movl	968(%rsp), %eax
.LBB42bf483_79:
	movl	%eax, 1034(%rbx)
	addq	$3576, %rsp
	popq	%rbx
	popq	%r12
	popq	%r13
	popq	%r14
	popq	%r15
	popq	%rbp
	retq
.LBB42bf483_11:
	addq	$-4, %r13
	movq	%r11, %rdi
	xorl	%esi, %esi
	movq	%r13, %rdx
	movq	%r11, %r12
	callq	memset@PLT
	movq	%r12, %r11
	movq	1496(%rsp), %r10
	leaq	-1(%r10), %rax
.LBB42bf483_12:
	movzbl	6(%rsp), %r8d
	movq	928(%rsp), %r9
	movl	$0, (%r11,%rax,4)
	incq	%rax
	movq	%rax, 1016(%rsp)
	movq	%r14, %r13
	movq	%r15, %r14
	movq	920(%rsp), %r15
	movzbl	7(%rsp), %r12d
	movq	%r14, %rax
	shrq	$32, %rax
	cmpl	$13, %eax
	jb	.LBB42bf483_14
.LBB42bf483_15:
	movq	%r13, 1320(%rsp)
	leaq	-5(%rbp), %r12
	leaq	5(%r9), %r13
	movl	$5, %r15d
	xorl	%edx, %edx
	movq	1016(%rsp), %r14
	.p2align	4
.LBB42bf483_16:
	cmpl	$-1, (%r13)
	jne	.LBB42bf483_20
	movq	%rdx, 88(%rsp)
	leaq	.Lstatic.4(%rip), %rdx
	movl	$8, %esi
	movq	%r13, %rdi
	movq	%rbp, %r14
	movq	%r11, %rbp
	callq	core_cmp_slices_groups_equal_i8_31_core_cmp_numbers_U8PartialEq_.3f1b21c
	movq	88(%rsp), %rdx
	movq	%rbp, %r11
	movq	%r14, %rbp
	movq	1016(%rsp), %r14
	movq	1496(%rsp), %r10
	movq	928(%rsp), %r9
	movzbl	6(%rsp), %r8d
	testb	%al, %al
	jne	.LBB42bf483_18
.LBB42bf483_20:
	movzwl	6(%r13), %eax
	rolw	$8, %ax
	movzbl	5(%r13), %ecx
	movzwl	%ax, %eax
	addq	%rcx, %rax
	addq	$8, %rax
	cmpq	%rax, %r12
	jb	.LBB42bf483_21
	movl	%r15d, (%r11,%rdx,4)
	addq	%rax, %r15
	incq	%rdx
	leaq	(%r9,%r15), %r13
	movq	%rbp, %r12
	subq	%r15, %r12
	cmpq	$8, %r12
	jae	.LBB42bf483_16
.LBB42bf483_21:
	xorl	%eax, %eax
	movq	$0, 88(%rsp)
.LBB42bf483_19:
	movq	920(%rsp), %r15
	movzbl	7(%rsp), %r12d
	movq	1320(%rsp), %r13
	jmp	.LBB42bf483_5
.LBB42bf483_18:
	movl	$1, %eax
	jmp	.LBB42bf483_19
.Lfunc_end42bf483:
	.size	lone_drive_c_drive_over.837ff07, .Lfunc_end42bf483-lone_drive_c_drive_over.837ff07

	.section	".text.lone_drive_c::handle::hold","ax",@progbits
	.p2align	4
	.type	lone_drive_c_handle_hold.4592c1f,@function
lone_drive_c_handle_hold.4592c1f:
	pushq	%rbp
	pushq	%r15
	pushq	%r14
	pushq	%r13
	pushq	%r12
	pushq	%rbx
	subq	$1176, %rsp
	movq	%rdi, %r15
	movq	(%rsi), %rax
	movq	%rax, 224(%rsp)
	movq	8(%rsi), %rax
	movq	%rax, 184(%rsp)
	movq	24(%rsi), %rax
	movq	%rax, 440(%rsp)
	movups	16(%rsi), %xmm0
	movaps	%xmm0, 656(%rsp)
	movzbl	48(%rsi), %eax
	movb	%al, 7(%rsp)
	movq	56(%rsi), %rax
	movq	%rax, 512(%rsp)
	movq	64(%rsi), %rax
	movq	%rax, 168(%rsp)
	movq	80(%rsi), %rax
	movq	%rax, 376(%rsp)
	movups	72(%rsi), %xmm0
	movaps	%xmm0, 672(%rsp)
	movzbl	88(%rsi), %eax
	movb	%al, 5(%rsp)
	movups	104(%rsi), %xmm0
	movaps	%xmm0, 688(%rsp)
	movzbl	136(%rsi), %eax
	movb	%al, 6(%rsp)
	movups	160(%rsi), %xmm0
	movaps	%xmm0, 704(%rsp)
	movzbl	176(%rsi), %eax
	movb	%al, 10(%rsp)
	movups	192(%rsi), %xmm0
	movaps	%xmm0, 720(%rsp)
	movzbl	224(%rsi), %eax
	movb	%al, 4(%rsp)
	movups	248(%rsi), %xmm0
	movaps	%xmm0, 736(%rsp)
	movzbl	264(%rsi), %eax
	movb	%al, 11(%rsp)
	movups	280(%rsi), %xmm0
	movaps	%xmm0, 752(%rsp)
	movzbl	312(%rsi), %eax
	movb	%al, 12(%rsp)
	movups	336(%rsi), %xmm0
	movaps	%xmm0, 800(%rsp)
	movzbl	352(%rsi), %eax
	movb	%al, 3(%rsp)
	movups	368(%rsi), %xmm0
	movaps	%xmm0, 816(%rsp)
	movzbl	400(%rsi), %eax
	movb	%al, 2(%rsp)
	movups	424(%rsi), %xmm0
	movaps	%xmm0, 832(%rsp)
	movzbl	440(%rsi), %eax
	movb	%al, 1(%rsp)
	movups	456(%rsi), %xmm0
	movaps	%xmm0, 848(%rsp)
	movzbl	488(%rsi), %eax
	movb	%al, 15(%rsp)
	movups	512(%rsi), %xmm0
	movaps	%xmm0, 288(%rsp)
	movzbl	528(%rsi), %eax
	movb	%al, 14(%rsp)
	movups	544(%rsi), %xmm0
	movaps	%xmm0, 304(%rsp)
	movzbl	576(%rsi), %eax
	movb	%al, 9(%rsp)
	movups	600(%rsi), %xmm0
	movaps	%xmm0, 320(%rsp)
	movzbl	616(%rsi), %eax
	movb	%al, 13(%rsp)
	movups	632(%rsi), %xmm0
	movaps	%xmm0, 336(%rsp)
	movups	688(%rsi), %xmm0
	movaps	%xmm0, 144(%rsp)
	movzbl	664(%rsi), %eax
	movb	%al, 8(%rsp)
	movq	96(%rsi), %r12
	movq	112(%rsi), %rax
	movq	%rax, 416(%rsp)
	movq	144(%rsi), %rax
	movq	%rax, 472(%rsp)
	movq	152(%rsi), %r13
	movq	168(%rsi), %rax
	movq	%rax, 352(%rsp)
	movq	184(%rsi), %rbx
	movq	200(%rsi), %rax
	movq	%rax, 424(%rsp)
	movq	232(%rsi), %rax
	movq	%rax, 480(%rsp)
	movq	240(%rsi), %rax
	movq	%rax, 232(%rsp)
	movq	256(%rsi), %rax
	movq	%rax, 360(%rsp)
	movq	272(%rsi), %rax
	movq	%rax, 16(%rsp)
	movq	288(%rsi), %rax
	movq	%rax, 432(%rsp)
	movq	320(%rsi), %rax
	movq	%rax, 488(%rsp)
	movq	328(%rsi), %rax
	movq	%rax, 240(%rsp)
	movq	344(%rsi), %rax
	movq	%rax, 368(%rsp)
	movq	360(%rsi), %rax
	movq	%rax, 248(%rsp)
	movq	376(%rsi), %rax
	movq	%rax, 448(%rsp)
	movq	408(%rsi), %rax
	movq	%rax, 496(%rsp)
	movq	416(%rsi), %rax
	movq	%rax, 256(%rsp)
	movq	432(%rsi), %rax
	movq	%rax, 384(%rsp)
	movq	448(%rsi), %rax
	movq	%rax, 264(%rsp)
	movq	464(%rsi), %rax
	movq	%rax, 456(%rsp)
	movq	496(%rsi), %rax
	movq	%rax, 504(%rsp)
	movq	504(%rsi), %rax
	movq	%rax, 272(%rsp)
	movq	520(%rsi), %rax
	movq	%rax, 392(%rsp)
	movq	536(%rsi), %rax
	movq	%rax, 200(%rsp)
	movq	552(%rsi), %r14
	movq	584(%rsi), %rax
	movq	%rax, 520(%rsp)
	movq	592(%rsi), %rax
	movq	%rax, 280(%rsp)
	movq	608(%rsi), %rax
	movq	%rax, 400(%rsp)
	movq	624(%rsi), %rax
	movq	%rax, 192(%rsp)
	movq	640(%rsi), %rax
	movq	%rax, 464(%rsp)
	movq	672(%rsi), %rax
	movq	%rax, 528(%rsp)
	movq	680(%rsi), %rax
	movq	%rax, 176(%rsp)
	movq	696(%rsi), %rax
	movq	%rax, 408(%rsp)
	movq	744(%rsi), %rax
	movq	%rax, 208(%rsp)
	movq	760(%rsi), %rax
	movq	%rax, 536(%rsp)
	movq	768(%rsi), %rax
	movq	%rax, 216(%rsp)
	movq	784(%rsi), %rbp
	movups	752(%rsi), %xmm0
	movaps	%xmm0, 768(%rsp)
	movups	776(%rsi), %xmm0
	movaps	%xmm0, 784(%rsp)
	movups	32(%rsi), %xmm0
	movaps	%xmm0, 976(%rsp)
	movl	49(%rsi), %eax
	movl	52(%rsi), %ecx
	movl	%ecx, 139(%rsp)
	movl	%eax, 136(%rsp)
	movl	89(%rsi), %eax
	movl	92(%rsi), %ecx
	movl	%ecx, 131(%rsp)
	movl	%eax, 128(%rsp)
	movups	120(%rsi), %xmm0
	movaps	%xmm0, 960(%rsp)
	movl	137(%rsi), %eax
	movl	140(%rsi), %ecx
	movl	%ecx, 123(%rsp)
	movl	%eax, 120(%rsp)
	movl	177(%rsi), %eax
	movl	180(%rsi), %ecx
	movl	%ecx, 115(%rsp)
	movl	%eax, 112(%rsp)
	movups	208(%rsi), %xmm0
	movaps	%xmm0, 944(%rsp)
	movl	225(%rsi), %eax
	movl	228(%rsi), %ecx
	movl	%ecx, 107(%rsp)
	movl	%eax, 104(%rsp)
	movl	265(%rsi), %eax
	movl	268(%rsi), %ecx
	movl	%ecx, 99(%rsp)
	movl	%eax, 96(%rsp)
	movups	296(%rsi), %xmm0
	movaps	%xmm0, 928(%rsp)
	movl	313(%rsi), %eax
	movl	316(%rsi), %ecx
	movl	%ecx, 91(%rsp)
	movl	%eax, 88(%rsp)
	movl	353(%rsi), %eax
	movl	356(%rsi), %ecx
	movl	%ecx, 83(%rsp)
	movl	%eax, 80(%rsp)
	movups	384(%rsi), %xmm0
	movaps	%xmm0, 912(%rsp)
	movl	401(%rsi), %eax
	movl	404(%rsi), %ecx
	movl	%ecx, 75(%rsp)
	movl	%eax, 72(%rsp)
	movl	441(%rsi), %eax
	movl	444(%rsi), %ecx
	movl	%ecx, 67(%rsp)
	movl	%eax, 64(%rsp)
	movups	472(%rsi), %xmm0
	movaps	%xmm0, 896(%rsp)
	movl	489(%rsi), %eax
	movl	492(%rsi), %ecx
	movl	%ecx, 59(%rsp)
	movl	%eax, 56(%rsp)
	movl	529(%rsi), %eax
	movl	532(%rsi), %ecx
	movl	%ecx, 51(%rsp)
	movl	%eax, 48(%rsp)
	movups	560(%rsi), %xmm0
	movaps	%xmm0, 880(%rsp)
	movl	577(%rsi), %eax
	movl	580(%rsi), %ecx
	movl	%ecx, 43(%rsp)
	movl	%eax, 40(%rsp)
	movl	617(%rsi), %eax
	movl	620(%rsi), %ecx
	movl	%ecx, 35(%rsp)
	movl	%eax, 32(%rsp)
	movups	648(%rsi), %xmm0
	movaps	%xmm0, 864(%rsp)
	movl	665(%rsi), %eax
	movl	668(%rsi), %ecx
	movl	%ecx, 27(%rsp)
	movl	%eax, 24(%rsp)
	movq	736(%rsi), %rax
	movq	%rax, 576(%rsp)
	movups	704(%rsi), %xmm0
	movups	720(%rsi), %xmm1
	movaps	%xmm1, 560(%rsp)
	movaps	%xmm0, 544(%rsp)
	movq	840(%rsi), %rax
	movq	%rax, 640(%rsp)
	movups	792(%rsi), %xmm0
	movups	808(%rsi), %xmm1
	movups	824(%rsi), %xmm2
	movaps	%xmm2, 624(%rsp)
	movaps	%xmm1, 608(%rsp)
	movaps	%xmm0, 592(%rsp)
	addq	$848, %rsi
	leaq	992(%rsp), %rdi
	movl	$184, %edx
	callq	memcpy@PLT
	movl	$1032, %edi
	movl	$8, %esi
	callq	rattle_alloc@PLT
	testb	$1, %al
	je	.LBB297c38d_2
	movq	%rdx, %rdi
	movq	%r15, %rbp
	movq	%rdx, %r15
	movq	224(%rsp), %rax
	movq	%rax, (%rdi)
	movq	184(%rsp), %rax
	movq	%rax, 8(%rdi)
	movaps	656(%rsp), %xmm0
	movups	%xmm0, 16(%rdi)
	movaps	976(%rsp), %xmm0
	movups	%xmm0, 32(%rdi)
	movzbl	7(%rsp), %eax
	movb	%al, 48(%rdi)
	movl	136(%rsp), %eax
	movl	139(%rsp), %ecx
	movl	%eax, 49(%rdi)
	movl	%ecx, 52(%rdi)
	movq	512(%rsp), %rax
	movq	%rax, 56(%rdi)
	movq	168(%rsp), %rax
	movq	%rax, 64(%rdi)
	movaps	672(%rsp), %xmm0
	movups	%xmm0, 72(%rdi)
	movzbl	5(%rsp), %eax
	movb	%al, 88(%rdi)
	movl	128(%rsp), %eax
	movl	131(%rsp), %ecx
	movl	%eax, 89(%rdi)
	movl	%ecx, 92(%rdi)
	movq	%r12, 96(%rdi)
	movaps	688(%rsp), %xmm0
	movups	%xmm0, 104(%rdi)
	movaps	960(%rsp), %xmm0
	movups	%xmm0, 120(%rdi)
	movzbl	6(%rsp), %eax
	movb	%al, 136(%rdi)
	movl	120(%rsp), %eax
	movl	123(%rsp), %ecx
	movl	%ecx, 140(%rdi)
	movl	%eax, 137(%rdi)
	movq	472(%rsp), %rax
	movq	%rax, 144(%rdi)
	movq	%r13, 152(%rdi)
	movaps	704(%rsp), %xmm0
	movups	%xmm0, 160(%rdi)
	movzbl	10(%rsp), %eax
	movb	%al, 176(%rdi)
	movl	112(%rsp), %eax
	movl	115(%rsp), %ecx
	movl	%ecx, 180(%rdi)
	movl	%eax, 177(%rdi)
	movq	%rbx, 184(%rdi)
	movaps	720(%rsp), %xmm0
	movups	%xmm0, 192(%rdi)
	movaps	944(%rsp), %xmm0
	movups	%xmm0, 208(%rdi)
	movzbl	4(%rsp), %eax
	movb	%al, 224(%rdi)
	movl	104(%rsp), %eax
	movl	107(%rsp), %ecx
	movl	%ecx, 228(%rdi)
	movl	%eax, 225(%rdi)
	movq	480(%rsp), %rax
	movq	%rax, 232(%rdi)
	movq	232(%rsp), %rax
	movq	%rax, 240(%rdi)
	movaps	736(%rsp), %xmm0
	movups	%xmm0, 248(%rdi)
	movzbl	11(%rsp), %eax
	movb	%al, 264(%rdi)
	movl	96(%rsp), %eax
	movl	99(%rsp), %ecx
	movl	%ecx, 268(%rdi)
	movl	%eax, 265(%rdi)
	movq	16(%rsp), %rax
	movq	%rax, 272(%rdi)
	movaps	752(%rsp), %xmm0
	movups	%xmm0, 280(%rdi)
	movaps	928(%rsp), %xmm0
	movups	%xmm0, 296(%rdi)
	movzbl	12(%rsp), %eax
	movb	%al, 312(%rdi)
	movl	88(%rsp), %eax
	movl	91(%rsp), %ecx
	movl	%ecx, 316(%rdi)
	movl	%eax, 313(%rdi)
	movq	488(%rsp), %rax
	movq	%rax, 320(%rdi)
	movq	240(%rsp), %rax
	movq	%rax, 328(%rdi)
	movaps	800(%rsp), %xmm0
	movups	%xmm0, 336(%rdi)
	movzbl	3(%rsp), %eax
	movb	%al, 352(%rdi)
	movl	80(%rsp), %eax
	movl	83(%rsp), %ecx
	movl	%ecx, 356(%rdi)
	movl	%eax, 353(%rdi)
	movq	248(%rsp), %rax
	movq	%rax, 360(%rdi)
	movaps	816(%rsp), %xmm0
	movups	%xmm0, 368(%rdi)
	movaps	912(%rsp), %xmm0
	movups	%xmm0, 384(%rdi)
	movzbl	2(%rsp), %eax
	movb	%al, 400(%rdi)
	movl	72(%rsp), %eax
	movl	75(%rsp), %ecx
	movl	%ecx, 404(%rdi)
	movl	%eax, 401(%rdi)
	movq	496(%rsp), %rax
	movq	%rax, 408(%rdi)
	movq	256(%rsp), %rax
	movq	%rax, 416(%rdi)
	movaps	832(%rsp), %xmm0
	movups	%xmm0, 424(%rdi)
	movzbl	1(%rsp), %eax
	movb	%al, 440(%rdi)
	movl	64(%rsp), %eax
	movl	67(%rsp), %ecx
	movl	%ecx, 444(%rdi)
	movl	%eax, 441(%rdi)
	movq	264(%rsp), %rax
	movq	%rax, 448(%rdi)
	movaps	848(%rsp), %xmm0
	movups	%xmm0, 456(%rdi)
	movaps	896(%rsp), %xmm0
	movups	%xmm0, 472(%rdi)
	movzbl	15(%rsp), %eax
	movb	%al, 488(%rdi)
	movl	56(%rsp), %eax
	movl	59(%rsp), %ecx
	movl	%ecx, 492(%rdi)
	movl	%eax, 489(%rdi)
	movq	504(%rsp), %rax
	movq	%rax, 496(%rdi)
	movq	272(%rsp), %rax
	movq	%rax, 504(%rdi)
	movaps	288(%rsp), %xmm0
	movups	%xmm0, 512(%rdi)
	movzbl	14(%rsp), %eax
	movb	%al, 528(%rdi)
	movl	48(%rsp), %eax
	movl	51(%rsp), %ecx
	movl	%ecx, 532(%rdi)
	movl	%eax, 529(%rdi)
	movq	200(%rsp), %rax
	movq	%rax, 536(%rdi)
	movaps	304(%rsp), %xmm0
	movups	%xmm0, 544(%rdi)
	movaps	880(%rsp), %xmm0
	movups	%xmm0, 560(%rdi)
	movzbl	9(%rsp), %eax
	movb	%al, 576(%rdi)
	movl	40(%rsp), %eax
	movl	43(%rsp), %ecx
	movl	%ecx, 580(%rdi)
	movl	%eax, 577(%rdi)
	movq	520(%rsp), %rax
	movq	%rax, 584(%rdi)
	movq	280(%rsp), %rax
	movq	%rax, 592(%rdi)
	movaps	320(%rsp), %xmm0
	movups	%xmm0, 600(%rdi)
	movzbl	13(%rsp), %eax
	movb	%al, 616(%rdi)
	movl	32(%rsp), %eax
	movl	35(%rsp), %ecx
	movl	%ecx, 620(%rdi)
	movl	%eax, 617(%rdi)
	movq	192(%rsp), %rax
	movq	%rax, 624(%rdi)
	movaps	336(%rsp), %xmm0
	movups	%xmm0, 632(%rdi)
	movaps	864(%rsp), %xmm0
	movups	%xmm0, 648(%rdi)
	movzbl	8(%rsp), %eax
	movb	%al, 664(%rdi)
	movl	24(%rsp), %eax
	movl	27(%rsp), %ecx
	movl	%ecx, 668(%rdi)
	movl	%eax, 665(%rdi)
	movq	528(%rsp), %rax
	movq	%rax, 672(%rdi)
	movq	176(%rsp), %rax
	movq	%rax, 680(%rdi)
	movaps	144(%rsp), %xmm0
	movups	%xmm0, 688(%rdi)
	movq	576(%rsp), %rax
	movq	%rax, 736(%rdi)
	movaps	544(%rsp), %xmm0
	movaps	560(%rsp), %xmm1
	movups	%xmm1, 720(%rdi)
	movups	%xmm0, 704(%rdi)
	movq	208(%rsp), %rax
	movq	%rax, 744(%rdi)
	movaps	768(%rsp), %xmm0
	movups	%xmm0, 752(%rdi)
	movq	216(%rsp), %rax
	movq	%rax, 768(%rdi)
	movaps	784(%rsp), %xmm0
	movups	%xmm0, 776(%rdi)
	movaps	592(%rsp), %xmm0
	movaps	608(%rsp), %xmm1
	movaps	624(%rsp), %xmm2
	movups	%xmm0, 792(%rdi)
	movups	%xmm1, 808(%rdi)
	movups	%xmm2, 824(%rdi)
	movq	640(%rsp), %rax
	movq	%rax, 840(%rdi)
	addq	$848, %rdi
	leaq	992(%rsp), %rsi
	movl	$184, %edx
	callq	memcpy@PLT
	movabsq	$5498699729448618326, %rax
	movq	%rax, (%rbp)
	movq	%r15, 8(%rbp)
	xorl	%eax, %eax
	jmp	.LBB297c38d_54
.LBB297c38d_2:
	movq	%r12, 288(%rsp)
	movq	%r13, 320(%rsp)
	movq	%rbx, 144(%rsp)
	movq	%r14, 304(%rsp)
	movzbl	10(%rsp), %r14d
	movq	%rbp, 336(%rsp)
	movzbl	13(%rsp), %r13d
	cmpb	$1, 224(%rsp)
	movzbl	1(%rsp), %eax
	movzbl	2(%rsp), %ecx
	movzbl	3(%rsp), %edx
	movzbl	12(%rsp), %esi
	movl	%esi, %ebx
	movzbl	11(%rsp), %r9d
	movl	%r9d, %r15d
	movzbl	4(%rsp), %r8d
	movq	16(%rsp), %rdi
	movzbl	6(%rsp), %r10d
	movzbl	5(%rsp), %r11d
	jne	.LBB297c38d_8
	cmpq	$0, 440(%rsp)
	je	.LBB297c38d_5
	movq	184(%rsp), %rdi
	callq	rattle_dealloc@PLT
	movzbl	5(%rsp), %r11d
	movzbl	6(%rsp), %r10d
	movq	16(%rsp), %rdi
	movzbl	4(%rsp), %r8d
	movl	%r15d, %r9d
	movl	%ebx, %esi
	movzbl	3(%rsp), %edx
	movzbl	2(%rsp), %ecx
	movzbl	1(%rsp), %eax
.LBB297c38d_5:
	cmpb	$1, 7(%rsp)
	jne	.LBB297c38d_8
	cmpq	$0, 376(%rsp)
	je	.LBB297c38d_8
	movq	168(%rsp), %rdi
	callq	rattle_dealloc@PLT
	movzbl	5(%rsp), %r11d
	movzbl	6(%rsp), %r10d
	movq	16(%rsp), %rdi
	movzbl	4(%rsp), %r8d
	movl	%r15d, %r9d
	movl	%ebx, %esi
	movzbl	3(%rsp), %edx
	movzbl	2(%rsp), %ecx
	movzbl	1(%rsp), %eax
.LBB297c38d_8:
	cmpb	$1, %r11b
	movl	%r13d, %ebp
	movq	144(%rsp), %r11
	movq	320(%rsp), %r13
	jne	.LBB297c38d_14
	cmpq	$0, 416(%rsp)
	je	.LBB297c38d_11
	movq	288(%rsp), %rdi
	movl	%r10d, %r12d
	callq	rattle_dealloc@PLT
	movq	144(%rsp), %r11
	movl	%r12d, %r10d
	movq	16(%rsp), %rdi
	movzbl	4(%rsp), %r8d
	movl	%r15d, %r9d
	movl	%ebx, %esi
	movzbl	3(%rsp), %edx
	movzbl	2(%rsp), %ecx
	movzbl	1(%rsp), %eax
.LBB297c38d_11:
	cmpb	$1, %r10b
	jne	.LBB297c38d_14
	cmpq	$0, 352(%rsp)
	je	.LBB297c38d_14
	movq	%r13, %rdi
	callq	rattle_dealloc@PLT
	movq	144(%rsp), %r11
	movq	16(%rsp), %rdi
	movzbl	4(%rsp), %r8d
	movl	%r15d, %r9d
	movl	%ebx, %esi
	movzbl	3(%rsp), %edx
	movzbl	2(%rsp), %ecx
	movzbl	1(%rsp), %eax
.LBB297c38d_14:
	cmpb	$1, %r14b
	movzbl	14(%rsp), %r13d
	movzbl	15(%rsp), %r12d
	movq	232(%rsp), %r14
	jne	.LBB297c38d_20
	cmpq	$0, 424(%rsp)
	je	.LBB297c38d_17
	movq	%r11, %rdi
	callq	rattle_dealloc@PLT
	movq	16(%rsp), %rdi
	movzbl	4(%rsp), %r8d
	movl	%r15d, %r9d
	movl	%ebx, %esi
	movzbl	3(%rsp), %edx
	movzbl	2(%rsp), %ecx
	movzbl	1(%rsp), %eax
.LBB297c38d_17:
	cmpb	$1, %r8b
	jne	.LBB297c38d_20
	cmpq	$0, 360(%rsp)
	je	.LBB297c38d_20
	movq	%r14, %rdi
	callq	rattle_dealloc@PLT
	movq	16(%rsp), %rdi
	movl	%r15d, %r9d
	movl	%ebx, %esi
	movzbl	3(%rsp), %edx
	movzbl	2(%rsp), %ecx
	movzbl	1(%rsp), %eax
.LBB297c38d_20:
	cmpb	$1, %r9b
	movq	248(%rsp), %r15
	movq	240(%rsp), %r14
	jne	.LBB297c38d_26
	cmpq	$0, 432(%rsp)
	je	.LBB297c38d_23
	callq	rattle_dealloc@PLT
	movl	%ebx, %esi
	movzbl	3(%rsp), %edx
	movzbl	2(%rsp), %ecx
	movzbl	1(%rsp), %eax
.LBB297c38d_23:
	cmpb	$1, %sil
	jne	.LBB297c38d_26
	cmpq	$0, 368(%rsp)
	je	.LBB297c38d_26
	movq	%r14, %rdi
	callq	rattle_dealloc@PLT
	movzbl	3(%rsp), %edx
	movzbl	2(%rsp), %ecx
	movzbl	1(%rsp), %eax
.LBB297c38d_26:
	cmpb	$1, %dl
	movq	264(%rsp), %r14
	movq	256(%rsp), %rbx
	jne	.LBB297c38d_32
	cmpq	$0, 448(%rsp)
	je	.LBB297c38d_29
	movq	%r15, %rdi
	callq	rattle_dealloc@PLT
	movzbl	2(%rsp), %ecx
	movzbl	1(%rsp), %eax
.LBB297c38d_29:
	cmpb	$1, %cl
	jne	.LBB297c38d_32
	cmpq	$0, 384(%rsp)
	je	.LBB297c38d_32
	movq	%rbx, %rdi
	callq	rattle_dealloc@PLT
	movzbl	1(%rsp), %eax
.LBB297c38d_32:
	cmpb	$1, %al
	movq	272(%rsp), %rbx
	jne	.LBB297c38d_38
	cmpq	$0, 456(%rsp)
	je	.LBB297c38d_35
	movq	%r14, %rdi
	callq	rattle_dealloc@PLT
.LBB297c38d_35:
	cmpb	$1, %r12b
	jne	.LBB297c38d_38
	cmpq	$0, 392(%rsp)
	je	.LBB297c38d_38
	movq	%rbx, %rdi
	callq	rattle_dealloc@PLT
.LBB297c38d_38:
	cmpb	$1, %r13b
	movq	280(%rsp), %r14
	jne	.LBB297c38d_44
	cmpq	$0, 304(%rsp)
	je	.LBB297c38d_41
	movq	200(%rsp), %rdi
	callq	rattle_dealloc@PLT
.LBB297c38d_41:
	cmpb	$1, 9(%rsp)
	jne	.LBB297c38d_44
	cmpq	$0, 400(%rsp)
	je	.LBB297c38d_44
	movq	%r14, %rdi
	callq	rattle_dealloc@PLT
.LBB297c38d_44:
	cmpb	$1, %bpl
	movq	336(%rsp), %rbx
	jne	.LBB297c38d_50
	cmpq	$0, 464(%rsp)
	je	.LBB297c38d_47
	movq	192(%rsp), %rdi
	callq	rattle_dealloc@PLT
.LBB297c38d_47:
	cmpb	$1, 8(%rsp)
	jne	.LBB297c38d_50
	cmpq	$0, 408(%rsp)
	je	.LBB297c38d_50
	movq	176(%rsp), %rdi
	callq	rattle_dealloc@PLT
.LBB297c38d_50:
	cmpq	$0, 536(%rsp)
	je	.LBB297c38d_52
	movq	208(%rsp), %rdi
	callq	rattle_dealloc@PLT
.LBB297c38d_52:
	movl	$-3, %eax
	testq	%rbx, %rbx
	je	.LBB297c38d_54
	movq	216(%rsp), %rdi
	callq	rattle_dealloc@PLT
	movl	$-3, %eax
.LBB297c38d_54:
	addq	$1176, %rsp
	popq	%rbx
	popq	%r12
	popq	%r13
	popq	%r14
	popq	%r15
	popq	%rbp
	retq
.Lfunc_end297c38d:
	.size	lone_drive_c_handle_hold.4592c1f, .Lfunc_end297c38d-lone_drive_c_handle_hold.4592c1f

	.section	.rodata.cst16,"aM",@progbits,16
	.p2align	4, 0x0
.LCPI940d290_0:
	.quad	1
	.quad	1
	.section	".text.dasd_files::volume_file::VolumeFileImageStore::write_at","ax",@progbits
	.p2align	4
	.type	dasd_files_volume_file_VolumeFileImageStore_write_at.fa93a83,@function
dasd_files_volume_file_VolumeFileImageStore_write_at.fa93a83:
	pushq	%rbp
	pushq	%r15
	pushq	%r14
	pushq	%r13
	pushq	%r12
	pushq	%rbx
	pushq	%rax
	movq	8(%rdi), %r8
	subq	%rsi, %r8
	movb	$1, %al
	cmpq	%rcx, %r8
	jb	.LBB940d290_88
	movq	(%rdi), %r15
	leaq	(%r15,%rsi), %rbx
	cmpb	$0, 32(%rdi)
	je	.LBB940d290_9
	cmpq	$4, %rcx
	jae	.LBB940d290_12
	testq	%rcx, %rcx
	je	.LBB940d290_87
	movzbl	(%rbx), %eax
	cmpb	(%rdx), %al
	jne	.LBB940d290_14
	cmpq	$1, %rcx
	je	.LBB940d290_87
	movzbl	1(%rbx), %r8d
	movl	$1, %eax
	cmpb	1(%rdx), %r8b
	jne	.LBB940d290_15
	cmpq	$2, %rcx
	je	.LBB940d290_87
	movzbl	2(%rbx), %r8d
	movl	$2, %eax
	cmpb	2(%rdx), %r8b
	jne	.LBB940d290_15
	jmp	.LBB940d290_87
.LBB940d290_9:
	movq	%rbx, %rax
	subq	%rdx, %rax
	cmpq	%rcx, %rax
	jae	.LBB940d290_19
	cmpq	$4, %rcx
	jb	.LBB940d290_11
	cmpq	$32, %rax
	jae	.LBB940d290_39
.LBB940d290_11:
	xorl	%eax, %eax
.LBB940d290_57:
	movq	%rcx, %r9
	movq	%rax, %r8
	andq	$3, %r9
	je	.LBB940d290_60
	movq	%rax, %r8
	.p2align	4
.LBB940d290_59:
	movzbl	(%rdx,%r8), %r10d
	movb	%r10b, (%rbx,%r8)
	incq	%r8
	decq	%r9
	jne	.LBB940d290_59
.LBB940d290_60:
	subq	%rcx, %rax
	cmpq	$-4, %rax
	ja	.LBB940d290_20
	leaq	(%rsi,%r15), %rax
	addq	$3, %rax
	.p2align	4
.LBB940d290_62:
	movzbl	(%rdx,%r8), %r9d
	movb	%r9b, -3(%rax,%r8)
	movzbl	1(%rdx,%r8), %r9d
	movb	%r9b, -2(%rax,%r8)
	movzbl	2(%rdx,%r8), %r9d
	movb	%r9b, -1(%rax,%r8)
	movzbl	3(%rdx,%r8), %r9d
	movb	%r9b, (%rax,%r8)
	addq	$4, %r8
	cmpq	%r8, %rcx
	jne	.LBB940d290_62
	jmp	.LBB940d290_20
.LBB940d290_12:
	movl	(%rbx), %eax
	cmpl	(%rdx), %eax
	jne	.LBB940d290_16
	movq	%rdi, %r12
	movq	%rbx, %rdi
	movq	%rsi, %r13
	movq	%rcx, %rsi
	movq	%rdx, %r14
	movq	%rcx, %rbp
	callq	core_cmp_slices_groups_equal_i8_31_core_cmp_numbers_U8PartialEq_.3f1b21c
	movq	%r14, %rdx
	movq	%r13, %rsi
	movq	%rbp, %rcx
	movq	%r12, %rdi
	testb	%al, %al
	je	.LBB940d290_16
	jmp	.LBB940d290_87
.LBB940d290_14:
	xorl	%eax, %eax
.LBB940d290_15:
	cmpq	%rcx, %rax
	jae	.LBB940d290_87
.LBB940d290_16:
	movq	%rbx, %rax
	subq	%rdx, %rax
	cmpq	%rcx, %rax
	jae	.LBB940d290_19
	cmpq	$4, %rcx
	jb	.LBB940d290_18
	cmpq	$32, %rax
	jae	.LBB940d290_46
.LBB940d290_18:
	xorl	%eax, %eax
.LBB940d290_70:
	movq	%rcx, %r9
	movq	%rax, %r8
	andq	$3, %r9
	je	.LBB940d290_73
	movq	%rax, %r8
	.p2align	4
.LBB940d290_72:
	movzbl	(%rdx,%r8), %r10d
	movb	%r10b, (%rbx,%r8)
	incq	%r8
	decq	%r9
	jne	.LBB940d290_72
.LBB940d290_73:
	subq	%rcx, %rax
	cmpq	$-4, %rax
	ja	.LBB940d290_20
	leaq	(%rsi,%r15), %rax
	addq	$3, %rax
	.p2align	4
.LBB940d290_75:
	movzbl	(%rdx,%r8), %r9d
	movb	%r9b, -3(%rax,%r8)
	movzbl	1(%rdx,%r8), %r9d
	movb	%r9b, -2(%rax,%r8)
	movzbl	2(%rdx,%r8), %r9d
	movb	%r9b, -1(%rax,%r8)
	movzbl	3(%rdx,%r8), %r9d
	movb	%r9b, (%rax,%r8)
	addq	$4, %r8
	cmpq	%r8, %rcx
	jne	.LBB940d290_75
	jmp	.LBB940d290_20
.LBB940d290_19:
	movq	%rdi, %r14
	movq	%rbx, %rdi
	movq	%rsi, %rbx
	movq	%rdx, %rsi
	movq	%rcx, %rdx
	movq	%rcx, %r15
	callq	memmove@PLT
	movq	%rbx, %rsi
	movq	%r15, %rcx
	movq	%r14, %rdi
.LBB940d290_20:
	movq	24(%rdi), %r9
	cmpb	$1, 40(%rdi)
	jne	.LBB940d290_86
	cmpq	$-1, %r9
	je	.LBB940d290_25
	movl	52(%rdi), %r11d
	testq	%r11, %r11
	je	.LBB940d290_82
	movl	48(%rdi), %ebx
	leaq	(%rsi,%rbx), %rax
	movq	%rax, %rdx
	shrq	$32, %rdx
	je	.LBB940d290_31
	xorl	%edx, %edx
	divq	%r11
	movq	%rax, %r8
	jmp	.LBB940d290_32
.LBB940d290_25:
	movq	64(%rdi), %rax
	testq	%rax, %rax
	je	.LBB940d290_86
	movq	56(%rdi), %rcx
	movq	%rax, %rdx
	decq	%rdx
	je	.LBB940d290_85
	cmpq	$5, %rax
	jae	.LBB940d290_48
	xorl	%esi, %esi
	jmp	.LBB940d290_83
.LBB940d290_31:
	xorl	%edx, %edx
	divl	%r11d
	movl	%eax, %r8d
.LBB940d290_32:
	leaq	1(%r9), %r10
	leaq	(%rdx,%rcx), %rax
	decq	%rax
	movq	64(%rdi), %r14
	cmpq	%r11, %rax
	jae	.LBB940d290_35
	cmpq	%r14, %r8
	jae	.LBB940d290_35
	movq	56(%rdi), %rax
	movq	%r10, (%rax,%r8,8)
	jmp	.LBB940d290_86
.LBB940d290_35:
	decq	%rcx
	addq	%rsi, %rcx
	addq	%r11, %rcx
	addq	%rbx, %rcx
	movq	%rcx, %rax
	shrq	$32, %rax
	je	.LBB940d290_41
	movq	%rcx, %rax
	xorl	%edx, %edx
	divq	%r11
	jmp	.LBB940d290_42
.LBB940d290_39:
	cmpq	$32, %rcx
	jae	.LBB940d290_50
	xorl	%eax, %eax
	jmp	.LBB940d290_54
.LBB940d290_41:
	movl	%ecx, %eax
	xorl	%edx, %edx
	divl	%r11d
.LBB940d290_42:
	cmpq	%rax, %r14
	cmovbq	%r14, %rax
	cmpq	%r8, %rax
	cmovbq	%rax, %r8
	jbe	.LBB940d290_86
	leaq	(,%r8,8), %rcx
	addq	56(%rdi), %rcx
	notq	%r8
	addq	%r8, %rax
	je	.LBB940d290_81
	cmpq	$4, %rax
	jae	.LBB940d290_76
	xorl	%edx, %edx
	jmp	.LBB940d290_79
.LBB940d290_46:
	cmpq	$32, %rcx
	jae	.LBB940d290_63
	xorl	%eax, %eax
	jmp	.LBB940d290_67
.LBB940d290_48:
	movq	%rdx, %rsi
	andq	$-4, %rsi
	xorl	%r8d, %r8d
	.p2align	4
.LBB940d290_49:
	movdqa	.LCPI940d290_0(%rip), %xmm0
	movdqu	%xmm0, (%rcx,%r8,8)
	movdqu	%xmm0, 16(%rcx,%r8,8)
	addq	$4, %r8
	cmpq	%r8, %rsi
	jne	.LBB940d290_49
	jmp	.LBB940d290_84
.LBB940d290_50:
	movq	%rcx, %rax
	andq	$-32, %rax
	leaq	(%rsi,%r15), %r8
	addq	$16, %r8
	xorl	%r9d, %r9d
	.p2align	4
.LBB940d290_51:
	movdqu	(%rdx,%r9), %xmm0
	movups	16(%rdx,%r9), %xmm1
	movdqu	%xmm0, -16(%r8,%r9)
	movups	%xmm1, (%r8,%r9)
	addq	$32, %r9
	cmpq	%r9, %rax
	jne	.LBB940d290_51
	cmpq	%rax, %rcx
	je	.LBB940d290_20
	testb	$28, %cl
	je	.LBB940d290_57
.LBB940d290_54:
	movq	%rax, %r8
	movq	%rcx, %rax
	andq	$-4, %rax
	.p2align	4
.LBB940d290_55:
	movl	(%rdx,%r8), %r9d
	movl	%r9d, (%rbx,%r8)
	addq	$4, %r8
	cmpq	%r8, %rax
	jne	.LBB940d290_55
	cmpq	%rax, %rcx
	je	.LBB940d290_20
	jmp	.LBB940d290_57
.LBB940d290_63:
	movq	%rcx, %rax
	andq	$-32, %rax
	leaq	(%rsi,%r15), %r8
	addq	$16, %r8
	xorl	%r9d, %r9d
	.p2align	4
.LBB940d290_64:
	movdqu	(%rdx,%r9), %xmm0
	movups	16(%rdx,%r9), %xmm1
	movdqu	%xmm0, -16(%r8,%r9)
	movups	%xmm1, (%r8,%r9)
	addq	$32, %r9
	cmpq	%r9, %rax
	jne	.LBB940d290_64
	cmpq	%rax, %rcx
	je	.LBB940d290_20
	testb	$28, %cl
	je	.LBB940d290_70
.LBB940d290_67:
	movq	%rax, %r8
	movq	%rcx, %rax
	andq	$-4, %rax
	.p2align	4
.LBB940d290_68:
	movl	(%rdx,%r8), %r9d
	movl	%r9d, (%rbx,%r8)
	addq	$4, %r8
	cmpq	%r8, %rax
	jne	.LBB940d290_68
	cmpq	%rax, %rcx
	je	.LBB940d290_20
	jmp	.LBB940d290_70
.LBB940d290_76:
	movq	%rax, %rdx
	andq	$-4, %rdx
	movq	%r10, %xmm0
	pshufd	$68, %xmm0, %xmm0
	xorl	%esi, %esi
	movq	%rdx, %r8
	.p2align	4
.LBB940d290_77:
	movdqu	%xmm0, (%rcx,%rsi,8)
	movdqu	%xmm0, 16(%rcx,%rsi,8)
	addq	$4, %rsi
	addq	$-4, %r8
	jne	.LBB940d290_77
	cmpq	%rdx, %rax
	je	.LBB940d290_81
.LBB940d290_79:
	movq	%rax, %rsi
	subq	%rdx, %rsi
	.p2align	4
.LBB940d290_80:
	movq	%r10, (%rcx,%rdx,8)
	incq	%rdx
	decq	%rsi
	jne	.LBB940d290_80
.LBB940d290_81:
	movq	%r10, (%rcx,%rax,8)
	jmp	.LBB940d290_86
.LBB940d290_82:
	ud2
.LBB940d290_83:
	movq	$1, (%rcx,%rsi,8)
	incq	%rsi
.LBB940d290_84:
	cmpq	%rsi, %rdx
	jne	.LBB940d290_83
.LBB940d290_85:
	movq	$1, -8(%rcx,%rax,8)
.LBB940d290_86:
	incq	%r9
	movl	$1, %eax
	cmovneq	%r9, %rax
	movq	%rax, 24(%rdi)
	movb	$0, 32(%rdi)
.LBB940d290_87:
	xorl	%eax, %eax
.LBB940d290_88:
	addq	$8, %rsp
	popq	%rbx
	popq	%r12
	popq	%r13
	popq	%r14
	popq	%r15
	popq	%rbp
	retq
.Lfunc_end940d290:
	.size	dasd_files_volume_file_VolumeFileImageStore_write_at.fa93a83, .Lfunc_end940d290-dasd_files_volume_file_VolumeFileImageStore_write_at.fa93a83

	.section	".text.ckd_image::stores::copy_file::<#700aef77bd01d6bd>","ax",@progbits
	.p2align	4
	.type	ckd_image_stores_copy_file_700aef77bd01d6bd_.84a472a,@function
ckd_image_stores_copy_file_700aef77bd01d6bd_.84a472a:
	pushq	%rbp
	pushq	%r15
	pushq	%r14
	pushq	%r13
	pushq	%r12
	pushq	%rbx
	subq	$56, %rsp
	movq	%rdi, %rbx
	movzbl	(%rsi), %eax
	cmpq	$1, %rax
	jne	.LBBb4166c4_46
	movq	%rsi, %r12
	movq	%rax, 48(%rsp)
	movq	8(%rsi), %r13
	movq	16(%rsi), %r14
	testq	%r14, %r14
	je	.LBBb4166c4_2
	js	.LBBb4166c4_44
	movl	$1, %esi
	movq	%r14, %rdi
	callq	rattle_alloc@PLT
	testb	$1, %al
	je	.LBBb4166c4_44
	movq	%rdx, %r15
	movq	%r15, %rcx
	subq	%r13, %rcx
	cmpq	%r14, %rcx
	jb	.LBBb4166c4_7
.LBBb4166c4_48:
	movq	%r15, %rdi
	movq	%r13, %rsi
	movq	%r14, %rdx
	callq	memmove@PLT
	jmp	.LBBb4166c4_23
.LBBb4166c4_46:
	movl	$0, 11(%rsp)
	movl	$0, 8(%rsp)
	xorps	%xmm2, %xmm2
	xorl	%r15d, %r15d
	xorl	%r14d, %r14d
	xorl	%r8d, %r8d
	xorl	%r9d, %r9d
	xorl	%r10d, %r10d
	xorl	%r12d, %r12d
	xorl	%ebp, %ebp
	jmp	.LBBb4166c4_47
.LBBb4166c4_2:
	movq	%rsp, %r15
	movq	%r15, %rcx
	subq	%r13, %rcx
	cmpq	%r14, %rcx
	jae	.LBBb4166c4_48
.LBBb4166c4_7:
	xorl	%eax, %eax
	cmpq	$4, %r14
	jb	.LBBb4166c4_18
	cmpq	$32, %rcx
	jb	.LBBb4166c4_18
	cmpq	$32, %r14
	jae	.LBBb4166c4_11
	xorl	%eax, %eax
	jmp	.LBBb4166c4_15
.LBBb4166c4_11:
	movq	%r14, %rax
	andq	$-32, %rax
	xorl	%ecx, %ecx
	.p2align	4
.LBBb4166c4_12:
	movups	(%r13,%rcx), %xmm0
	movups	16(%r13,%rcx), %xmm1
	movups	%xmm0, (%r15,%rcx)
	movups	%xmm1, 16(%r15,%rcx)
	addq	$32, %rcx
	cmpq	%rcx, %rax
	jne	.LBBb4166c4_12
	cmpq	%rax, %r14
	je	.LBBb4166c4_23
	testb	$28, %r14b
	je	.LBBb4166c4_18
.LBBb4166c4_15:
	movq	%rax, %rcx
	movq	%r14, %rax
	andq	$-4, %rax
	.p2align	4
.LBBb4166c4_16:
	movl	(%r13,%rcx), %edx
	movl	%edx, (%r15,%rcx)
	addq	$4, %rcx
	cmpq	%rcx, %rax
	jne	.LBBb4166c4_16
	cmpq	%rax, %r14
	je	.LBBb4166c4_23
.LBBb4166c4_18:
	movq	%r14, %rdx
	movq	%rax, %rcx
	andq	$3, %rdx
	je	.LBBb4166c4_21
	movq	%rax, %rcx
	.p2align	4
.LBBb4166c4_20:
	movzbl	(%r13,%rcx), %esi
	movb	%sil, (%r15,%rcx)
	incq	%rcx
	decq	%rdx
	jne	.LBBb4166c4_20
.LBBb4166c4_21:
	subq	%r14, %rax
	cmpq	$-4, %rax
	ja	.LBBb4166c4_23
	.p2align	4
.LBBb4166c4_22:
	movzbl	(%r13,%rcx), %eax
	movb	%al, (%r15,%rcx)
	movzbl	1(%r13,%rcx), %eax
	movb	%al, 1(%r15,%rcx)
	movzbl	2(%r13,%rcx), %eax
	movb	%al, 2(%r15,%rcx)
	movzbl	3(%r13,%rcx), %eax
	movb	%al, 3(%r15,%rcx)
	addq	$4, %rcx
	cmpq	%rcx, %r14
	jne	.LBBb4166c4_22
.LBBb4166c4_23:
	movq	32(%r12), %r8
	movzbl	40(%r12), %r9d
	movzbl	48(%r12), %r10d
	cmpq	$1, %r10
	jne	.LBBb4166c4_24
	movsd	56(%r12), %xmm2
	movq	64(%r12), %r13
	movq	72(%r12), %rbp
	testq	%rbp, %rbp
	je	.LBBb4166c4_26
	movabsq	$1152921504606846972, %rax
	addq	$4, %rax
	cmpq	%rax, %rbp
	jae	.LBBb4166c4_42
	leaq	(,%rbp,8), %rdi
	movl	$8, %esi
	movq	%r10, 24(%rsp)
	movaps	%xmm2, 32(%rsp)
	movq	%r8, %r12
	movq	%r9, 16(%rsp)
	callq	rattle_alloc@PLT
	movq	16(%rsp), %r9
	movq	24(%rsp), %r10
	movaps	32(%rsp), %xmm2
	movabsq	$1152921504606846972, %rsi
	testb	$1, %al
	je	.LBBb4166c4_42
	movq	%r12, %r8
	movq	%rdx, %r12
	movq	%rdx, %rax
	subq	%r13, %rax
	leaq	(,%rbp,8), %rdx
	cmpq	%rdx, %rax
	jae	.LBBb4166c4_27
	xorl	%eax, %eax
	cmpq	$4, %rbp
	jb	.LBBb4166c4_37
	movq	%r12, %rcx
	subq	%r13, %rcx
	cmpq	$32, %rcx
	jb	.LBBb4166c4_37
	movq	%rsi, %rax
	andq	%rbp, %rax
	leaq	(,%rbp,8), %rdx
	movabsq	$9223372036854775776, %rcx
	andq	%rdx, %rcx
	xorl	%edx, %edx
.LBBb4166c4_35:
	movups	(%r13,%rdx), %xmm0
	movups	16(%r13,%rdx), %xmm1
	movups	%xmm0, (%r12,%rdx)
	movups	%xmm1, 16(%r12,%rdx)
	addq	$32, %rdx
	cmpq	%rdx, %rcx
	jne	.LBBb4166c4_35
	cmpq	%rax, %rbp
	je	.LBBb4166c4_28
.LBBb4166c4_37:
	movq	%rbp, %rdx
	movq	%rax, %rcx
	andq	$3, %rdx
	je	.LBBb4166c4_40
	movq	%rax, %rcx
.LBBb4166c4_39:
	movq	(%r13,%rcx,8), %rsi
	movq	%rsi, (%r12,%rcx,8)
	incq	%rcx
	decq	%rdx
	jne	.LBBb4166c4_39
.LBBb4166c4_40:
	subq	%rbp, %rax
	cmpq	$-4, %rax
	ja	.LBBb4166c4_28
.LBBb4166c4_41:
	movq	(%r13,%rcx,8), %rax
	movq	%rax, (%r12,%rcx,8)
	movq	8(%r13,%rcx,8), %rax
	movq	%rax, 8(%r12,%rcx,8)
	movq	16(%r13,%rcx,8), %rax
	movq	%rax, 16(%r12,%rcx,8)
	movq	24(%r13,%rcx,8), %rax
	movq	%rax, 24(%r12,%rcx,8)
	addq	$4, %rcx
	cmpq	%rcx, %rbp
	jne	.LBBb4166c4_41
	jmp	.LBBb4166c4_28
.LBBb4166c4_24:
	xorl	%r12d, %r12d
	xorps	%xmm2, %xmm2
	xorl	%ebp, %ebp
	jmp	.LBBb4166c4_28
.LBBb4166c4_42:
	testq	%r14, %r14
	je	.LBBb4166c4_44
	movq	%r15, %rdi
	callq	rattle_dealloc@PLT
.LBBb4166c4_44:
	movb	$1, (%rbx)
	xorps	%xmm0, %xmm0
	movups	%xmm0, 8(%rbx)
	movups	%xmm0, 24(%rbx)
	movups	%xmm0, 40(%rbx)
	movups	%xmm0, 56(%rbx)
	movups	%xmm0, 72(%rbx)
	movq	$0, 88(%rbx)
	jmp	.LBBb4166c4_45
.LBBb4166c4_26:
	movq	%rsp, %r12
	xorl	%edx, %edx
.LBBb4166c4_27:
	movq	%r9, 16(%rsp)
	movq	%r10, 24(%rsp)
	movaps	%xmm2, 32(%rsp)
	movq	%r12, %rdi
	movq	%r13, %rsi
	movq	%r8, %r13
	callq	memmove@PLT
	movq	16(%rsp), %r9
	movq	%r13, %r8
	movq	24(%rsp), %r10
	movaps	32(%rsp), %xmm2
.LBBb4166c4_28:
	movl	$0, 11(%rsp)
	movl	$0, 8(%rsp)
	movq	48(%rsp), %rax
.LBBb4166c4_47:
	movb	$0, (%rbx)
	movq	%rax, 8(%rbx)
	movq	%r15, 16(%rbx)
	movq	%r14, 24(%rbx)
	movq	%r14, 32(%rbx)
	movq	%r8, 40(%rbx)
	movb	%r9b, 48(%rbx)
	movl	8(%rsp), %eax
	movl	11(%rsp), %ecx
	movl	%eax, 49(%rbx)
	movl	%ecx, 52(%rbx)
	movq	%r10, 56(%rbx)
	movlps	%xmm2, 64(%rbx)
	movq	%r12, 72(%rbx)
	movq	%rbp, 80(%rbx)
	movq	%rbp, 88(%rbx)
.LBBb4166c4_45:
	addq	$56, %rsp
	popq	%rbx
	popq	%r12
	popq	%r13
	popq	%r14
	popq	%r15
	popq	%rbp
	retq
.Lfunc_endb4166c4:
	.size	ckd_image_stores_copy_file_700aef77bd01d6bd_.84a472a, .Lfunc_endb4166c4-ckd_image_stores_copy_file_700aef77bd01d6bd_.84a472a

	.section	".text.lone_drive_c::dasd_files++volume_file++VolumeFile+Destruct::drop","ax",@progbits
	.p2align	4
	.type	lone_drive_c_dasd_files_volume_file_VolumeFile_Destruct_drop.6038f02,@function
lone_drive_c_dasd_files_volume_file_VolumeFile_Destruct_drop.6038f02:
	pushq	%rbp
	pushq	%r14
	pushq	%rbx
	movzbl	40(%rdi), %ebp
	movq	56(%rdi), %rbx
	movq	72(%rdi), %r14
	cmpq	$0, 16(%rdi)
	je	.LBB2513607_2
	movq	(%rdi), %rdi
	callq	rattle_dealloc@PLT
.LBB2513607_2:
	testb	%bpl, %bpl
	je	.LBB2513607_4
	testq	%r14, %r14
	je	.LBB2513607_4
	movq	%rbx, %rdi
	popq	%rbx
	popq	%r14
	popq	%rbp
	jmp	rattle_dealloc@PLT
.LBB2513607_4:
	popq	%rbx
	popq	%r14
	popq	%rbp
	retq
.Lfunc_end2513607:
	.size	lone_drive_c_dasd_files_volume_file_VolumeFile_Destruct_drop.6038f02, .Lfunc_end2513607-lone_drive_c_dasd_files_volume_file_VolumeFile_Destruct_drop.6038f02

	.section	".text.std_alloc::boxed::Box::drop::<#3643461161959432>","ax",@progbits
	.p2align	4
	.type	std_alloc_boxed_Box_drop_3643461161959432_.3befa6e,@function
std_alloc_boxed_Box_drop_3643461161959432_.3befa6e:
	pushq	%rbp
	pushq	%r15
	pushq	%r14
	pushq	%r13
	pushq	%r12
	pushq	%rbx
	subq	$280, %rsp
	movq	8(%rdi), %rax
	movq	%rax, 88(%rsp)
	movq	24(%rdi), %r12
	movzbl	48(%rdi), %r14d
	movq	64(%rdi), %rax
	movq	%rax, 32(%rsp)
	movq	80(%rdi), %rax
	movq	%rax, 152(%rsp)
	movzbl	88(%rdi), %ebx
	movq	96(%rdi), %rax
	movq	%rax, 104(%rsp)
	movq	112(%rdi), %rax
	movq	%rax, 208(%rsp)
	movzbl	136(%rdi), %eax
	movb	%al, 3(%rsp)
	movzbl	176(%rdi), %eax
	movb	%al, 10(%rsp)
	movzbl	224(%rdi), %eax
	movb	%al, 4(%rsp)
	movzbl	264(%rdi), %eax
	movb	%al, 11(%rsp)
	movzbl	312(%rdi), %eax
	movb	%al, 5(%rsp)
	movzbl	352(%rdi), %eax
	movb	%al, 12(%rsp)
	movzbl	400(%rdi), %eax
	movb	%al, 6(%rsp)
	movzbl	440(%rdi), %eax
	movb	%al, 13(%rsp)
	movzbl	488(%rdi), %eax
	movb	%al, 7(%rsp)
	movzbl	528(%rdi), %eax
	movb	%al, 14(%rsp)
	movzbl	576(%rdi), %eax
	movb	%al, 8(%rsp)
	movzbl	616(%rdi), %eax
	movb	%al, 15(%rsp)
	movzbl	664(%rdi), %eax
	movb	%al, 9(%rsp)
	movzbl	(%rdi), %ebp
	movq	152(%rdi), %rax
	movq	%rax, 16(%rsp)
	movq	168(%rdi), %r15
	movq	184(%rdi), %rax
	movq	%rax, 80(%rsp)
	movq	200(%rdi), %r13
	movq	240(%rdi), %rax
	movq	%rax, 24(%rsp)
	movq	256(%rdi), %rax
	movq	%rax, 144(%rsp)
	movq	272(%rdi), %rax
	movq	%rax, 96(%rsp)
	movq	288(%rdi), %rax
	movq	%rax, 200(%rsp)
	movq	328(%rdi), %rax
	movq	%rax, 40(%rsp)
	movq	344(%rdi), %rax
	movq	%rax, 160(%rsp)
	movq	360(%rdi), %rax
	movq	%rax, 112(%rsp)
	movq	376(%rdi), %rax
	movq	%rax, 216(%rsp)
	movq	416(%rdi), %rax
	movq	%rax, 48(%rsp)
	movq	432(%rdi), %rax
	movq	%rax, 168(%rsp)
	movq	448(%rdi), %rax
	movq	%rax, 120(%rsp)
	movq	464(%rdi), %rax
	movq	%rax, 224(%rsp)
	movq	504(%rdi), %rax
	movq	%rax, 56(%rsp)
	movq	520(%rdi), %rax
	movq	%rax, 176(%rsp)
	movq	536(%rdi), %rax
	movq	%rax, 128(%rsp)
	movq	552(%rdi), %rax
	movq	%rax, 232(%rsp)
	movq	592(%rdi), %rax
	movq	%rax, 64(%rsp)
	movq	608(%rdi), %rax
	movq	%rax, 184(%rsp)
	movq	624(%rdi), %rax
	movq	%rax, 136(%rsp)
	movq	640(%rdi), %rax
	movq	%rax, 240(%rsp)
	movq	680(%rdi), %rax
	movq	%rax, 72(%rsp)
	movq	696(%rdi), %rax
	movq	%rax, 192(%rsp)
	movq	744(%rdi), %rax
	movq	%rax, 248(%rsp)
	movq	760(%rdi), %rax
	movq	%rax, 264(%rsp)
	movq	768(%rdi), %rax
	movq	%rax, 256(%rsp)
	movq	784(%rdi), %rax
	movq	%rax, 272(%rsp)
	callq	rattle_dealloc@PLT
	testb	%bpl, %bpl
	je	.LBBb4560b0_6
	testq	%r12, %r12
	je	.LBBb4560b0_3
	movq	88(%rsp), %rdi
	callq	rattle_dealloc@PLT
.LBBb4560b0_3:
	testb	%r14b, %r14b
	je	.LBBb4560b0_6
	cmpq	$0, 152(%rsp)
	je	.LBBb4560b0_6
	movq	32(%rsp), %rdi
	callq	rattle_dealloc@PLT
.LBBb4560b0_6:
	testb	%bl, %bl
	je	.LBBb4560b0_12
	cmpq	$0, 208(%rsp)
	je	.LBBb4560b0_9
	movq	104(%rsp), %rdi
	callq	rattle_dealloc@PLT
.LBBb4560b0_9:
	cmpb	$0, 3(%rsp)
	je	.LBBb4560b0_12
	testq	%r15, %r15
	je	.LBBb4560b0_12
	movq	16(%rsp), %rdi
	callq	rattle_dealloc@PLT
.LBBb4560b0_12:
	cmpb	$0, 10(%rsp)
	je	.LBBb4560b0_18
	testq	%r13, %r13
	je	.LBBb4560b0_15
	movq	80(%rsp), %rdi
	callq	rattle_dealloc@PLT
.LBBb4560b0_15:
	cmpb	$0, 4(%rsp)
	je	.LBBb4560b0_18
	cmpq	$0, 144(%rsp)
	je	.LBBb4560b0_18
	movq	24(%rsp), %rdi
	callq	rattle_dealloc@PLT
.LBBb4560b0_18:
	cmpb	$0, 11(%rsp)
	je	.LBBb4560b0_24
	cmpq	$0, 200(%rsp)
	je	.LBBb4560b0_21
	movq	96(%rsp), %rdi
	callq	rattle_dealloc@PLT
.LBBb4560b0_21:
	cmpb	$0, 5(%rsp)
	je	.LBBb4560b0_24
	cmpq	$0, 160(%rsp)
	je	.LBBb4560b0_24
	movq	40(%rsp), %rdi
	callq	rattle_dealloc@PLT
.LBBb4560b0_24:
	cmpb	$0, 12(%rsp)
	je	.LBBb4560b0_30
	cmpq	$0, 216(%rsp)
	je	.LBBb4560b0_27
	movq	112(%rsp), %rdi
	callq	rattle_dealloc@PLT
.LBBb4560b0_27:
	cmpb	$0, 6(%rsp)
	je	.LBBb4560b0_30
	cmpq	$0, 168(%rsp)
	je	.LBBb4560b0_30
	movq	48(%rsp), %rdi
	callq	rattle_dealloc@PLT
.LBBb4560b0_30:
	cmpb	$0, 13(%rsp)
	je	.LBBb4560b0_36
	cmpq	$0, 224(%rsp)
	je	.LBBb4560b0_33
	movq	120(%rsp), %rdi
	callq	rattle_dealloc@PLT
.LBBb4560b0_33:
	cmpb	$0, 7(%rsp)
	je	.LBBb4560b0_36
	cmpq	$0, 176(%rsp)
	je	.LBBb4560b0_36
	movq	56(%rsp), %rdi
	callq	rattle_dealloc@PLT
.LBBb4560b0_36:
	cmpb	$0, 14(%rsp)
	je	.LBBb4560b0_42
	cmpq	$0, 232(%rsp)
	je	.LBBb4560b0_39
	movq	128(%rsp), %rdi
	callq	rattle_dealloc@PLT
.LBBb4560b0_39:
	cmpb	$0, 8(%rsp)
	je	.LBBb4560b0_42
	cmpq	$0, 184(%rsp)
	je	.LBBb4560b0_42
	movq	64(%rsp), %rdi
	callq	rattle_dealloc@PLT
.LBBb4560b0_42:
	cmpb	$0, 15(%rsp)
	je	.LBBb4560b0_48
	cmpq	$0, 240(%rsp)
	je	.LBBb4560b0_45
	movq	136(%rsp), %rdi
	callq	rattle_dealloc@PLT
.LBBb4560b0_45:
	cmpb	$0, 9(%rsp)
	je	.LBBb4560b0_48
	cmpq	$0, 192(%rsp)
	je	.LBBb4560b0_48
	movq	72(%rsp), %rdi
	callq	rattle_dealloc@PLT
.LBBb4560b0_48:
	cmpq	$0, 264(%rsp)
	je	.LBBb4560b0_50
	movq	248(%rsp), %rdi
	callq	rattle_dealloc@PLT
.LBBb4560b0_50:
	cmpq	$0, 272(%rsp)
	je	.LBBb4560b0_51
	movq	256(%rsp), %rdi
	addq	$280, %rsp
	popq	%rbx
	popq	%r12
	popq	%r13
	popq	%r14
	popq	%r15
	popq	%rbp
	jmp	rattle_dealloc@PLT
.LBBb4560b0_51:
	addq	$280, %rsp
	popq	%rbx
	popq	%r12
	popq	%r13
	popq	%r14
	popq	%r15
	popq	%rbp
	retq
.Lfunc_endb4560b0:
	.size	std_alloc_boxed_Box_drop_3643461161959432_.3befa6e, .Lfunc_endb4560b0-std_alloc_boxed_Box_drop_3643461161959432_.3befa6e

	.section	".text.ckd_drive::job::Job::start::<#808c45e55832e08b>","ax",@progbits
	.p2align	4
	.type	ckd_drive_job_Job_start_808c45e55832e08b_.d85c7fa,@function
ckd_drive_job_Job_start_808c45e55832e08b_.d85c7fa:
	movl	%edx, %eax
	movzbl	%al, %edx
	leal	-5(%rdx), %ecx
	cmpl	$44, %ecx
	ja	.LBB98f003d_4
	leaq	.LJTI98f003d_0(%rip), %r8
	movslq	(%r8,%rcx,4), %rcx
	addq	%r8, %rcx
	jmpq	*%rcx
.LBB98f003d_2:
	movw	$-32764, %ax
	cmpb	$1, 896(%rdi)
	jne	.LBB98f003d_28
.LBB98f003d_3:
	xorps	%xmm0, %xmm0
	movups	%xmm0, 913(%rdi)
	movups	%xmm0, 904(%rdi)
	movw	%ax, 868(%rdi)
	xorl	%eax, %eax
	retq
.LBB98f003d_4:
	cmpl	$134, %edx
	je	.LBB98f003d_26
	cmpl	$177, %edx
	jne	.LBB98f003d_7
	movw	$0, 868(%rdi)
	xorps	%xmm0, %xmm0
	movups	%xmm0, 904(%rdi)
	movq	$0, 920(%rdi)
	movb	$8, 936(%rdi)
	jmp	.LBB98f003d_27
.LBB98f003d_7:
	andb	$127, %al
	cmpb	$30, %al
	ja	.LBB98f003d_34
	movzbl	%al, %eax
	movl	$1074020352, %ecx
	btl	%eax, %ecx
	jae	.LBB98f003d_34
	cmpl	$141, %edx
	jle	.LBB98f003d_31
	cmpl	$142, %edx
	je	.LBB98f003d_36
	cmpl	$146, %edx
	je	.LBB98f003d_37
	cmpl	$158, %edx
	jne	.LBB98f003d_34
	movw	$0, 868(%rdi)
	xorps	%xmm0, %xmm0
	movups	%xmm0, 904(%rdi)
	movups	%xmm0, 913(%rdi)
	movb	$20, 936(%rdi)
	jmp	.LBB98f003d_27
.LBB98f003d_14:
	movzbl	896(%rdi), %eax
	decb	%al
	movw	$-32764, %cx
	cmpb	$2, %al
	jb	.LBB98f003d_25
	movw	$-32752, %cx
	cmpb	$1, 904(%rdi)
	jne	.LBB98f003d_25
	leaq	904(%rdi), %rax
	movzbl	912(%rdi), %edx
	movzbl	%dl, %esi
	movl	$22, %r8d
	btl	%esi, %r8d
	jae	.LBB98f003d_25
	xorl	%ecx, %ecx
	cmpb	$3, %dl
	setne	%cl
	je	.LBB98f003d_39
	movl	$513, %edx
	movq	920(%rdi), %rsi
	jmp	.LBB98f003d_40
.LBB98f003d_19:
	movw	$0, 868(%rdi)
	xorps	%xmm0, %xmm0
	movups	%xmm0, 904(%rdi)
	movups	%xmm0, 913(%rdi)
	movb	$18, 936(%rdi)
	movups	%xmm0, 937(%rdi)
	movups	%xmm0, 952(%rdi)
	movb	$4, %al
	retq
.LBB98f003d_21:
	movw	$0, 868(%rdi)
	xorps	%xmm0, %xmm0
	movups	%xmm0, 904(%rdi)
	movups	%xmm0, 913(%rdi)
	movb	$20, 936(%rdi)
	movups	%xmm0, 937(%rdi)
	movups	%xmm0, 952(%rdi)
	movb	$4, %al
	retq
.LBB98f003d_22:
	cmpb	$0, 897(%rdi)
	je	.LBB98f003d_35
	xorps	%xmm0, %xmm0
	movups	%xmm0, 913(%rdi)
	movups	%xmm0, 904(%rdi)
	movw	$4, 868(%rdi)
	xorl	%eax, %eax
	retq
.LBB98f003d_24:
	movw	$0, 868(%rdi)
	xorps	%xmm0, %xmm0
	movups	%xmm0, 904(%rdi)
	movq	$0, 920(%rdi)
	movb	$8, 936(%rdi)
	movups	%xmm0, 937(%rdi)
	movups	%xmm0, 952(%rdi)
	movb	$4, %al
	retq
.LBB98f003d_25:
	xorps	%xmm0, %xmm0
	movups	%xmm0, 913(%rdi)
	movups	%xmm0, 904(%rdi)
	movw	%cx, 868(%rdi)
	xorl	%eax, %eax
	retq
.LBB98f003d_26:
	movw	$0, 868(%rdi)
	xorps	%xmm0, %xmm0
	movups	%xmm0, 904(%rdi)
	movups	%xmm0, 913(%rdi)
	movb	$18, 936(%rdi)
.LBB98f003d_27:
	movb	$0, 943(%rdi)
	movw	$0, 941(%rdi)
	movl	$1, 937(%rdi)
	movups	%xmm0, 944(%rdi)
	movq	$0, 960(%rdi)
	movb	$4, %al
	retq
.LBB98f003d_28:
	cmpb	$1, 904(%rdi)
	movw	$-32752, %ax
	jne	.LBB98f003d_3
	movzbl	912(%rdi), %ecx
	addb	$-3, %cl
	cmpb	$-3, %cl
	jbe	.LBB98f003d_3
	leaq	904(%rdi), %rax
	movq	920(%rdi), %rcx
	movw	$0, 868(%rdi)
	xorps	%xmm0, %xmm0
	movups	%xmm0, 9(%rax)
	movups	%xmm0, (%rax)
	movb	$24, 936(%rdi)
	movb	$0, 943(%rdi)
	movw	$0, 941(%rdi)
	movl	$0, 937(%rdi)
	movq	$1, 944(%rdi)
	movq	$513, 952(%rdi)
	movq	%rcx, 960(%rdi)
	movb	$4, %al
	retq
.LBB98f003d_31:
	cmpl	$14, %edx
	je	.LBB98f003d_38
	cmpl	$18, %edx
	jne	.LBB98f003d_34
	movw	$0, 868(%rdi)
	xorps	%xmm0, %xmm0
	movups	%xmm0, 904(%rdi)
	movups	%xmm0, 913(%rdi)
	movb	$17, 936(%rdi)
	movups	%xmm0, 937(%rdi)
	movups	%xmm0, 952(%rdi)
	movb	$4, %al
	retq
.LBB98f003d_34:
	jmp	ckd_drive_job_Job_start_elsewhere_808c45e55832e08b_.276fc35
.LBB98f003d_35:
	movw	$0, 868(%rdi)
	xorps	%xmm0, %xmm0
	movups	%xmm0, 904(%rdi)
	movups	%xmm0, 913(%rdi)
	movb	$2, 936(%rdi)
	movups	%xmm0, 937(%rdi)
	movups	%xmm0, 952(%rdi)
	movb	$4, %al
	retq
.LBB98f003d_36:
	movw	$0, 868(%rdi)
	xorps	%xmm0, %xmm0
	movups	%xmm0, 904(%rdi)
	movups	%xmm0, 913(%rdi)
	movb	$19, 936(%rdi)
	jmp	.LBB98f003d_27
.LBB98f003d_37:
	movw	$0, 868(%rdi)
	xorps	%xmm0, %xmm0
	movups	%xmm0, 904(%rdi)
	movups	%xmm0, 913(%rdi)
	movb	$17, 936(%rdi)
	jmp	.LBB98f003d_27
.LBB98f003d_38:
	movw	$0, 868(%rdi)
	xorps	%xmm0, %xmm0
	movups	%xmm0, 904(%rdi)
	movups	%xmm0, 913(%rdi)
	movb	$19, 936(%rdi)
	movups	%xmm0, 937(%rdi)
	movups	%xmm0, 952(%rdi)
	movb	$4, %al
	retq
.LBB98f003d_39:
	xorl	%edx, %edx
	xorl	%esi, %esi
.LBB98f003d_40:
	movw	$0, 868(%rdi)
	xorps	%xmm0, %xmm0
	movups	%xmm0, 9(%rax)
	movups	%xmm0, (%rax)
	movb	$23, 936(%rdi)
	movb	$0, 943(%rdi)
	movw	$0, 941(%rdi)
	movl	$0, 937(%rdi)
	movq	%rcx, 944(%rdi)
	movq	%rdx, 952(%rdi)
	movq	%rsi, 960(%rdi)
	movb	$4, %al
	retq
.Lfunc_end98f003d:
	.size	ckd_drive_job_Job_start_808c45e55832e08b_.d85c7fa, .Lfunc_end98f003d-ckd_drive_job_Job_start_808c45e55832e08b_.d85c7fa
	.section	".rodata.ckd_drive::job::Job::start::<#808c45e55832e08b>","a",@progbits
	.p2align	2, 0x0
.LJTI98f003d_0:
	.long	.LBB98f003d_2-.LJTI98f003d_0
	.long	.LBB98f003d_19-.LJTI98f003d_0
	.long	.LBB98f003d_22-.LJTI98f003d_0
	.long	.LBB98f003d_7-.LJTI98f003d_0
	.long	.LBB98f003d_7-.LJTI98f003d_0
	.long	.LBB98f003d_7-.LJTI98f003d_0
	.long	.LBB98f003d_7-.LJTI98f003d_0
	.long	.LBB98f003d_7-.LJTI98f003d_0
	.long	.LBB98f003d_7-.LJTI98f003d_0
	.long	.LBB98f003d_7-.LJTI98f003d_0
	.long	.LBB98f003d_7-.LJTI98f003d_0
	.long	.LBB98f003d_7-.LJTI98f003d_0
	.long	.LBB98f003d_7-.LJTI98f003d_0
	.long	.LBB98f003d_7-.LJTI98f003d_0
	.long	.LBB98f003d_7-.LJTI98f003d_0
	.long	.LBB98f003d_7-.LJTI98f003d_0
	.long	.LBB98f003d_7-.LJTI98f003d_0
	.long	.LBB98f003d_7-.LJTI98f003d_0
	.long	.LBB98f003d_7-.LJTI98f003d_0
	.long	.LBB98f003d_7-.LJTI98f003d_0
	.long	.LBB98f003d_7-.LJTI98f003d_0
	.long	.LBB98f003d_7-.LJTI98f003d_0
	.long	.LBB98f003d_7-.LJTI98f003d_0
	.long	.LBB98f003d_7-.LJTI98f003d_0
	.long	.LBB98f003d_14-.LJTI98f003d_0
	.long	.LBB98f003d_21-.LJTI98f003d_0
	.long	.LBB98f003d_7-.LJTI98f003d_0
	.long	.LBB98f003d_7-.LJTI98f003d_0
	.long	.LBB98f003d_7-.LJTI98f003d_0
	.long	.LBB98f003d_7-.LJTI98f003d_0
	.long	.LBB98f003d_7-.LJTI98f003d_0
	.long	.LBB98f003d_7-.LJTI98f003d_0
	.long	.LBB98f003d_7-.LJTI98f003d_0
	.long	.LBB98f003d_7-.LJTI98f003d_0
	.long	.LBB98f003d_7-.LJTI98f003d_0
	.long	.LBB98f003d_7-.LJTI98f003d_0
	.long	.LBB98f003d_7-.LJTI98f003d_0
	.long	.LBB98f003d_7-.LJTI98f003d_0
	.long	.LBB98f003d_7-.LJTI98f003d_0
	.long	.LBB98f003d_7-.LJTI98f003d_0
	.long	.LBB98f003d_7-.LJTI98f003d_0
	.long	.LBB98f003d_7-.LJTI98f003d_0
	.long	.LBB98f003d_7-.LJTI98f003d_0
	.long	.LBB98f003d_7-.LJTI98f003d_0
	.long	.LBB98f003d_24-.LJTI98f003d_0

	.section	".text.ckd_drive::job::Job::leave::<#808c45e55832e08b>","ax",@progbits
	.p2align	4
	.type	ckd_drive_job_Job_leave_808c45e55832e08b_.db7d905,@function
ckd_drive_job_Job_leave_808c45e55832e08b_.db7d905:
	pushq	%rbp
	pushq	%r15
	pushq	%r14
	pushq	%rbx
	pushq	%rax
	movl	%ecx, %ebp
	movl	%edx, %r15d
	movq	%rsi, %rbx
	movq	%rdi, %r14
	cmpb	$1, 856(%rdi)
	jne	.LBBcf88ed1_2
	movq	%r14, %rdi
	callq	ckd_slot_cache_TrackCache_save_changed_808c45e55832e08b_.7b334c2
	testb	%al, %al
	je	.LBBcf88ed1_2
	xorps	%xmm0, %xmm0
	movups	%xmm0, 904(%r14)
	movq	$0, 920(%r14)
	orb	$16, 869(%r14)
	movb	$1, %al
	movb	$2, %cl
	jmp	.LBBcf88ed1_4
.LBBcf88ed1_2:
	movw	%r15w, 864(%r14)
	movw	%bp, 866(%r14)
	movq	$0, 872(%r14)
	movw	$0, 880(%r14)
	movq	$0, 888(%r14)
	movb	$0, 928(%r14)
	xorl	%ecx, %ecx
	xorl	%eax, %eax
.LBBcf88ed1_4:
	movb	%cl, (%rbx)
	addq	$8, %rsp
	popq	%rbx
	popq	%r14
	popq	%r15
	popq	%rbp
	retq
.Lfunc_endcf88ed1:
	.size	ckd_drive_job_Job_leave_808c45e55832e08b_.db7d905, .Lfunc_endcf88ed1-ckd_drive_job_Job_leave_808c45e55832e08b_.db7d905

	.section	".text.ckd_slot::cache::TrackCache::save_changed::<#808c45e55832e08b>","ax",@progbits
	.p2align	4
	.type	ckd_slot_cache_TrackCache_save_changed_808c45e55832e08b_.7b334c2,@function
ckd_slot_cache_TrackCache_save_changed_808c45e55832e08b_.7b334c2:
	pushq	%r15
	pushq	%r14
	pushq	%r12
	pushq	%rbx
	pushq	%rax
	cmpb	$1, 848(%rdi)
	jne	.LBB2438043_22
	movq	%rdi, %rbx
	movl	852(%rdi), %edx
	movb	$0, 856(%rdi)
	movq	744(%rdi), %r15
	movq	752(%rdi), %r14
	movl	708(%rdi), %r12d
	addq	$712, %rdi
	movl	$8, %esi
	callq	ckd_image_files_place_of.2003b0d
	movl	%edx, %esi
	imulq	%r12, %rsi
	addq	$512, %rsi
	cmpq	$6, %rax
	ja	.LBB2438043_12
	leaq	.LJTI2438043_0(%rip), %rcx
	movslq	(%rcx,%rax,4), %rax
	addq	%rcx, %rax
	jmpq	*%rax
.LBB2438043_3:
	cmpb	$1, (%rbx)
	jne	.LBB2438043_24
	leaq	8(%rbx), %rdi
	jmp	.LBB2438043_20
.LBB2438043_6:
	cmpb	$1, 352(%rbx)
	jne	.LBB2438043_24
	leaq	360(%rbx), %rdi
	jmp	.LBB2438043_20
.LBB2438043_8:
	cmpb	$1, 176(%rbx)
	jne	.LBB2438043_24
	leaq	184(%rbx), %rdi
	jmp	.LBB2438043_20
.LBB2438043_10:
	cmpb	$1, 264(%rbx)
	jne	.LBB2438043_24
	leaq	272(%rbx), %rdi
	jmp	.LBB2438043_20
.LBB2438043_12:
	cmpb	$1, 616(%rbx)
	jne	.LBB2438043_24
	leaq	624(%rbx), %rdi
	jmp	.LBB2438043_20
.LBB2438043_14:
	cmpb	$1, 88(%rbx)
	jne	.LBB2438043_24
	leaq	96(%rbx), %rdi
	jmp	.LBB2438043_20
.LBB2438043_16:
	cmpb	$1, 440(%rbx)
	jne	.LBB2438043_24
	leaq	448(%rbx), %rdi
	jmp	.LBB2438043_20
.LBB2438043_18:
	cmpb	$1, 528(%rbx)
	jne	.LBB2438043_24
	leaq	536(%rbx), %rdi
.LBB2438043_20:
	movq	%r15, %rdx
	movq	%r14, %rcx
	callq	dasd_files_volume_file_VolumeFileImageStore_write_at.fa93a83
	testb	%al, %al
	je	.LBB2438043_22
	movq	$0, 848(%rbx)
	movb	$1, %al
	jmp	.LBB2438043_23
.LBB2438043_22:
	xorl	%eax, %eax
.LBB2438043_23:
	addq	$8, %rsp
	popq	%rbx
	popq	%r12
	popq	%r14
	popq	%r15
	retq
.LBB2438043_24:
	ud2
.Lfunc_end2438043:
	.size	ckd_slot_cache_TrackCache_save_changed_808c45e55832e08b_.7b334c2, .Lfunc_end2438043-ckd_slot_cache_TrackCache_save_changed_808c45e55832e08b_.7b334c2
	.section	".rodata.ckd_slot::cache::TrackCache::save_changed::<#808c45e55832e08b>","a",@progbits
	.p2align	2, 0x0
.LJTI2438043_0:
	.long	.LBB2438043_3-.LJTI2438043_0
	.long	.LBB2438043_14-.LJTI2438043_0
	.long	.LBB2438043_8-.LJTI2438043_0
	.long	.LBB2438043_10-.LJTI2438043_0
	.long	.LBB2438043_6-.LJTI2438043_0
	.long	.LBB2438043_16-.LJTI2438043_0
	.long	.LBB2438043_18-.LJTI2438043_0

	.section	".text.ckd_image::files::place_of","ax",@progbits
	.p2align	4
	.type	ckd_image_files_place_of.2003b0d,@function
ckd_image_files_place_of.2003b0d:
	movl	%edx, %eax
	subl	(%rdi), %eax
	jae	.LBB531e601_2
	xorl	%eax, %eax
	retq
.LBB531e601_2:
	pushq	%rax
	decq	%rsi
	addq	$4, %rdi
	movl	%eax, %edx
	callq	ckd_image_files_place_of.2003b0d
	incq	%rax
	addq	$8, %rsp
	retq
.Lfunc_end531e601:
	.size	ckd_image_files_place_of.2003b0d, .Lfunc_end531e601-ckd_image_files_place_of.2003b0d

	.section	".text.ckd_drive::job::Job::start_elsewhere::<#808c45e55832e08b>","ax",@progbits
	.p2align	4
	.type	ckd_drive_job_Job_start_elsewhere_808c45e55832e08b_.276fc35,@function
ckd_drive_job_Job_start_elsewhere_808c45e55832e08b_.276fc35:
	pushq	%rbp
	pushq	%r15
	pushq	%r14
	pushq	%r12
	pushq	%rbx
	movzbl	%dl, %eax
	addl	$-2, %eax
	cmpl	$239, %eax
	ja	.LBBc726510_64
	leaq	.LJTIc726510_0(%rip), %rcx
	movslq	(%rcx,%rax,4), %rax
	addq	%rcx, %rax
	jmpq	*%rax
.LBBc726510_19:
	movb	$18, %cl
	shrb	$7, %dl
	movzbl	897(%rdi), %eax
	movzbl	%cl, %ecx
	leaq	.LJTIc726510_1(%rip), %r8
	movslq	(%r8,%rcx,4), %r9
	addq	%r8, %r9
	jmpq	*%r9
.LBBc726510_13:
	movb	$12, %cl
	shrb	$7, %dl
	movzbl	897(%rdi), %eax
	movzbl	%cl, %ecx
	leaq	.LJTIc726510_1(%rip), %r8
	movslq	(%r8,%rcx,4), %r9
	addq	%r8, %r9
	jmpq	*%r9
.LBBc726510_8:
	movb	$7, %cl
	shrb	$7, %dl
	movzbl	897(%rdi), %eax
	movzbl	%cl, %ecx
	leaq	.LJTIc726510_1(%rip), %r8
	movslq	(%r8,%rcx,4), %r9
	addq	%r8, %r9
	jmpq	*%r9
.LBBc726510_17:
	movb	$16, %cl
	shrb	$7, %dl
	movzbl	897(%rdi), %eax
	movzbl	%cl, %ecx
	leaq	.LJTIc726510_1(%rip), %r8
	movslq	(%r8,%rcx,4), %r9
	addq	%r8, %r9
	jmpq	*%r9
.LBBc726510_14:
	movb	$13, %cl
	shrb	$7, %dl
	movzbl	897(%rdi), %eax
	movzbl	%cl, %ecx
	leaq	.LJTIc726510_1(%rip), %r8
	movslq	(%r8,%rcx,4), %r9
	addq	%r8, %r9
	jmpq	*%r9
.LBBc726510_10:
	movb	$9, %cl
	shrb	$7, %dl
	movzbl	897(%rdi), %eax
	movzbl	%cl, %ecx
	leaq	.LJTIc726510_1(%rip), %r8
	movslq	(%r8,%rcx,4), %r9
	addq	%r8, %r9
	jmpq	*%r9
.LBBc726510_21:
	movb	$20, %cl
	shrb	$7, %dl
	movzbl	897(%rdi), %eax
	movzbl	%cl, %ecx
	leaq	.LJTIc726510_1(%rip), %r8
	movslq	(%r8,%rcx,4), %r9
	addq	%r8, %r9
	jmpq	*%r9
.LBBc726510_11:
	movb	$10, %cl
	shrb	$7, %dl
	movzbl	897(%rdi), %eax
	movzbl	%cl, %ecx
	leaq	.LJTIc726510_1(%rip), %r8
	movslq	(%r8,%rcx,4), %r9
	addq	%r8, %r9
	jmpq	*%r9
.LBBc726510_16:
	movb	$15, %cl
	shrb	$7, %dl
	movzbl	897(%rdi), %eax
	movzbl	%cl, %ecx
	leaq	.LJTIc726510_1(%rip), %r8
	movslq	(%r8,%rcx,4), %r9
	addq	%r8, %r9
	jmpq	*%r9
.LBBc726510_20:
	movb	$19, %cl
	shrb	$7, %dl
	movzbl	897(%rdi), %eax
	movzbl	%cl, %ecx
	leaq	.LJTIc726510_1(%rip), %r8
	movslq	(%r8,%rcx,4), %r9
	addq	%r8, %r9
	jmpq	*%r9
.LBBc726510_18:
	movb	$17, %cl
	shrb	$7, %dl
	movzbl	897(%rdi), %eax
	movzbl	%cl, %ecx
	leaq	.LJTIc726510_1(%rip), %r8
	movslq	(%r8,%rcx,4), %r9
	addq	%r8, %r9
	jmpq	*%r9
.LBBc726510_9:
	movb	$8, %cl
	shrb	$7, %dl
	movzbl	897(%rdi), %eax
	movzbl	%cl, %ecx
	leaq	.LJTIc726510_1(%rip), %r8
	movslq	(%r8,%rcx,4), %r9
	addq	%r8, %r9
	jmpq	*%r9
.LBBc726510_12:
	movb	$11, %cl
	shrb	$7, %dl
	movzbl	897(%rdi), %eax
	movzbl	%cl, %ecx
	leaq	.LJTIc726510_1(%rip), %r8
	movslq	(%r8,%rcx,4), %r9
	addq	%r8, %r9
	jmpq	*%r9
.LBBc726510_25:
	movb	$21, %cl
	movw	$-32764, %r8w
	cmpb	$3, 896(%rdi)
	je	.LBBc726510_31
	jmp	.LBBc726510_66
.LBBc726510_22:
	movb	$22, %cl
	movw	$-32764, %r8w
	cmpb	$3, 896(%rdi)
	je	.LBBc726510_31
	jmp	.LBBc726510_66
.LBBc726510_5:
	movb	$4, %cl
	shrb	$7, %dl
	movzbl	897(%rdi), %eax
	movzbl	%cl, %ecx
	leaq	.LJTIc726510_1(%rip), %r8
	movslq	(%r8,%rcx,4), %r9
	addq	%r8, %r9
	jmpq	*%r9
.LBBc726510_15:
	movb	$14, %cl
	shrb	$7, %dl
	movzbl	897(%rdi), %eax
	movzbl	%cl, %ecx
	leaq	.LJTIc726510_1(%rip), %r8
	movslq	(%r8,%rcx,4), %r9
	addq	%r8, %r9
	jmpq	*%r9
.LBBc726510_4:
	movb	$3, %cl
	shrb	$7, %dl
	movzbl	897(%rdi), %eax
	movzbl	%cl, %ecx
	leaq	.LJTIc726510_1(%rip), %r8
	movslq	(%r8,%rcx,4), %r9
	addq	%r8, %r9
	jmpq	*%r9
.LBBc726510_23:
	movb	$25, %cl
	movw	$-32764, %r8w
	cmpb	$1, 896(%rdi)
	jne	.LBBc726510_31
	jmp	.LBBc726510_66
.LBBc726510_24:
	xorl	%ecx, %ecx
	shrb	$7, %dl
	movzbl	897(%rdi), %eax
	movzbl	%cl, %ecx
	leaq	.LJTIc726510_1(%rip), %r8
	movslq	(%r8,%rcx,4), %r9
	addq	%r8, %r9
	jmpq	*%r9
.LBBc726510_7:
	movb	$6, %cl
	shrb	$7, %dl
	movzbl	897(%rdi), %eax
	movzbl	%cl, %ecx
	leaq	.LJTIc726510_1(%rip), %r8
	movslq	(%r8,%rcx,4), %r9
	addq	%r8, %r9
	jmpq	*%r9
.LBBc726510_3:
	movb	$2, %cl
	shrb	$7, %dl
	movzbl	897(%rdi), %eax
	movzbl	%cl, %ecx
	leaq	.LJTIc726510_1(%rip), %r8
	movslq	(%r8,%rcx,4), %r9
	addq	%r8, %r9
	jmpq	*%r9
.LBBc726510_29:
	movb	$24, %cl
	movw	$-32764, %r8w
	cmpb	$1, 896(%rdi)
	je	.LBBc726510_66
.LBBc726510_31:
	xorl	%edx, %edx
	movzbl	897(%rdi), %eax
	movzbl	%cl, %r8d
	leaq	.LJTIc726510_1(%rip), %r9
	movslq	(%r9,%r8,4), %r8
	addq	%r9, %r8
	jmpq	*%r8
.LBBc726510_27:
	movzbl	896(%rdi), %eax
	decb	%al
	cmpb	$2, %al
	jae	.LBBc726510_44
	movw	$-32764, %r8w
	movb	$23, %cl
	jmp	.LBBc726510_67
.LBBc726510_2:
	movb	$1, %cl
	shrb	$7, %dl
	movzbl	897(%rdi), %eax
	movzbl	%cl, %ecx
	leaq	.LJTIc726510_1(%rip), %r8
	movslq	(%r8,%rcx,4), %r9
	addq	%r8, %r9
	jmpq	*%r9
.LBBc726510_64:
	xorps	%xmm0, %xmm0
	movups	%xmm0, 913(%rdi)
	movups	%xmm0, 904(%rdi)
	movw	$-32768, 868(%rdi)
	xorl	%eax, %eax
	jmp	.LBBc726510_84
.LBBc726510_6:
	movb	$5, %cl
	shrb	$7, %dl
	movzbl	897(%rdi), %eax
	movzbl	%cl, %ecx
	leaq	.LJTIc726510_1(%rip), %r8
	movslq	(%r8,%rcx,4), %r9
	addq	%r8, %r9
	jmpq	*%r9
.LBBc726510_65:
	movw	$4, %r8w
	testb	%al, %al
	je	.LBBc726510_37
.LBBc726510_66:
	leal	-7(%rcx), %eax
	cmpb	$7, %al
	jae	.LBBc726510_67
	xorl	%eax, %eax
	movl	$0, %edx
	cmpb	$6, %cl
	jne	.LBBc726510_70
.LBBc726510_69:
	movzwl	868(%rdi), %edx
.LBBc726510_70:
	orl	%edx, %r8d
	xorps	%xmm0, %xmm0
	movups	%xmm0, 904(%rdi)
	movq	$0, 920(%rdi)
	movw	%r8w, 868(%rdi)
	jmp	.LBBc726510_84
.LBBc726510_37:
	movzbl	%cl, %r8d
	movl	$4194176, %eax
	btl	%r8d, %eax
	jae	.LBBc726510_38
.LBBc726510_71:
	leal	-7(%rcx), %eax
	xorl	%ebx, %ebx
	movl	$0, %r14d
	movl	$0, %r15d
	cmpb	$7, %al
	jae	.LBBc726510_72
	cmpb	$6, %cl
	jne	.LBBc726510_74
.LBBc726510_75:
	movzwl	868(%rdi), %eax
	jmp	.LBBc726510_76
.LBBc726510_38:
	movl	$127, %eax
	btl	%r8d, %eax
	jae	.LBBc726510_39
	cmpb	$5, %cl
	jne	.LBBc726510_71
	cmpb	$0, 898(%rdi)
	je	.LBBc726510_62
	movw	$-32752, %r8w
	movb	$5, %cl
	jmp	.LBBc726510_67
.LBBc726510_39:
	movzbl	904(%rdi), %r9d
	movzbl	912(%rdi), %eax
	addl	$-22, %r8d
	leaq	.LJTIc726510_2(%rip), %r10
	movslq	(%r10,%r8,4), %r8
	addq	%r10, %r8
	jmpq	*%r8
.LBBc726510_40:
	movw	$-32752, %r8w
	movb	$22, %cl
	cmpb	$1, %r9b
	jne	.LBBc726510_67
	movzbl	%al, %eax
	movl	$22, %r9d
	btl	%eax, %r9d
	jb	.LBBc726510_67
	movb	$22, %cl
	cmpb	$1, 904(%rdi)
	jne	.LBBc726510_63
	movzbl	912(%rdi), %eax
	movl	$1, %ebx
	movb	$22, %cl
	xorl	%r14d, %r14d
	movl	$22, %r8d
	btl	%eax, %r8d
	movl	$0, %r15d
	jb	.LBBc726510_63
	jmp	.LBBc726510_72
.LBBc726510_62:
	movb	$5, %cl
.LBBc726510_63:
	xorl	%ebx, %ebx
	xorl	%r14d, %r14d
	xorl	%r15d, %r15d
.LBBc726510_72:
	movb	$0, 928(%rdi)
	cmpb	$6, %cl
	je	.LBBc726510_75
.LBBc726510_74:
	xorl	%eax, %eax
.LBBc726510_76:
	movw	%ax, 868(%rdi)
	xorps	%xmm0, %xmm0
	movups	%xmm0, 904(%rdi)
	movq	$0, 920(%rdi)
	movzbl	%cl, %eax
	leaq	.LJTIc726510_3(%rip), %r8
	movslq	(%r8,%rax,4), %rax
	addq	%r8, %rax
	jmpq	*%rax
.LBBc726510_79:
	movb	%cl, 936(%rdi)
	movzbl	%dl, %eax
	movl	%eax, 937(%rdi)
	movb	$0, 943(%rdi)
	movw	$0, 941(%rdi)
	movq	%rbx, 944(%rdi)
	movq	%r15, 952(%rdi)
	movq	%r14, 960(%rdi)
.LBBc726510_83:
	movb	$4, %al
.LBBc726510_84:
	popq	%rbx
	popq	%r12
	popq	%r14
	popq	%r15
	popq	%rbp
	retq
.LBBc726510_34:
	cmpb	$3, %al
	jne	.LBBc726510_71
	movw	$4, %r8w
	movb	$4, %cl
	jmp	.LBBc726510_67
.LBBc726510_32:
	andb	$-2, %al
	cmpb	$2, %al
	jne	.LBBc726510_71
	movw	$4, %r8w
	movb	$3, %cl
	jmp	.LBBc726510_67
.LBBc726510_49:
	cmpb	$1, %r9b
	sete	%r8b
	decb	%al
	cmpb	$2, %al
	setb	%al
	andb	%r8b, %al
	cmpb	$1, %al
	jne	.LBBc726510_50
	cmpb	$1, 904(%rdi)
	jne	.LBBc726510_63
	movzbl	912(%rdi), %eax
	decb	%al
	cmpb	$2, %al
	jae	.LBBc726510_63
	movq	920(%rdi), %r14
	movl	$513, %r15d
	movl	$1, %ebx
	movb	$24, %cl
	jmp	.LBBc726510_72
.LBBc726510_54:
	xorb	$1, %r9b
	xorb	$1, %al
	orb	%r9b, %al
	jne	.LBBc726510_55
	cmpb	$1, 904(%rdi)
	jne	.LBBc726510_63
	cmpb	$1, 912(%rdi)
	jne	.LBBc726510_63
	movq	920(%rdi), %r14
	movl	$513, %r15d
	movl	$1, %ebx
	movb	$25, %cl
	jmp	.LBBc726510_72
.LBBc726510_80:
	movl	%edx, %ebp
	movq	%rdi, %r12
	xorl	%edx, %edx
	xorl	%ecx, %ecx
	callq	ckd_drive_job_Job_leave_808c45e55832e08b_.db7d905
	testb	%al, %al
	je	.LBBc726510_82
	xorb	$1, %al
	addb	%al, %al
	jmp	.LBBc726510_84
.LBBc726510_77:
	movb	$1, %al
	jmp	.LBBc726510_84
.LBBc726510_78:
	xorl	%edx, %edx
	xorl	%ecx, %ecx
	callq	ckd_drive_job_Job_leave_808c45e55832e08b_.db7d905
	addb	%al, %al
	xorb	$2, %al
	jmp	.LBBc726510_84
.LBBc726510_50:
	movw	$-32752, %r8w
	movb	$24, %cl
	jmp	.LBBc726510_67
.LBBc726510_55:
	movw	$-32752, %r8w
	movb	$25, %cl
	jmp	.LBBc726510_67
.LBBc726510_82:
	movzbl	%bpl, %eax
	shll	$8, %eax
	orq	$14, %rax
	movq	%rax, 936(%r12)
	movq	%rbx, 944(%r12)
	movq	%r15, 952(%r12)
	movq	%r14, 960(%r12)
	jmp	.LBBc726510_83
.LBBc726510_44:
	movzbl	904(%rdi), %r9d
	movzbl	912(%rdi), %eax
	xorl	%edx, %edx
.LBBc726510_45:
	movw	$-32752, %r8w
	movb	$23, %cl
	cmpb	$1, %r9b
	jne	.LBBc726510_67
	movzbl	%al, %eax
	movl	$22, %r9d
	btl	%eax, %r9d
	jae	.LBBc726510_67
	movb	$23, %cl
	cmpb	$1, 904(%rdi)
	jne	.LBBc726510_63
	movq	920(%rdi), %r14
	movzbl	912(%rdi), %eax
	movl	$513, %r15d
	movl	$1, %ebx
	movb	$23, %cl
	movl	$22, %r8d
	btl	%eax, %r8d
	jb	.LBBc726510_72
	jmp	.LBBc726510_63
.LBBc726510_67:
	movb	$0, 928(%rdi)
	xorl	%eax, %eax
	movl	$0, %edx
	cmpb	$6, %cl
	je	.LBBc726510_69
	jmp	.LBBc726510_70
.LBBc726510_36:
	ud2
.Lfunc_endc726510:
	.size	ckd_drive_job_Job_start_elsewhere_808c45e55832e08b_.276fc35, .Lfunc_endc726510-ckd_drive_job_Job_start_elsewhere_808c45e55832e08b_.276fc35
	.section	".rodata.ckd_drive::job::Job::start_elsewhere::<#808c45e55832e08b>","a",@progbits
	.p2align	2, 0x0
.LJTIc726510_0:
	.long	.LBBc726510_15-.LJTIc726510_0
	.long	.LBBc726510_24-.LJTIc726510_0
	.long	.LBBc726510_7-.LJTIc726510_0
	.long	.LBBc726510_29-.LJTIc726510_0
	.long	.LBBc726510_19-.LJTIc726510_0
	.long	.LBBc726510_3-.LJTIc726510_0
	.long	.LBBc726510_64-.LJTIc726510_0
	.long	.LBBc726510_64-.LJTIc726510_0
	.long	.LBBc726510_64-.LJTIc726510_0
	.long	.LBBc726510_4-.LJTIc726510_0
	.long	.LBBc726510_64-.LJTIc726510_0
	.long	.LBBc726510_23-.LJTIc726510_0
	.long	.LBBc726510_20-.LJTIc726510_0
	.long	.LBBc726510_64-.LJTIc726510_0
	.long	.LBBc726510_64-.LJTIc726510_0
	.long	.LBBc726510_64-.LJTIc726510_0
	.long	.LBBc726510_18-.LJTIc726510_0
	.long	.LBBc726510_2-.LJTIc726510_0
	.long	.LBBc726510_64-.LJTIc726510_0
	.long	.LBBc726510_22-.LJTIc726510_0
	.long	.LBBc726510_17-.LJTIc726510_0
	.long	.LBBc726510_64-.LJTIc726510_0
	.long	.LBBc726510_64-.LJTIc726510_0
	.long	.LBBc726510_25-.LJTIc726510_0
	.long	.LBBc726510_16-.LJTIc726510_0
	.long	.LBBc726510_5-.LJTIc726510_0
	.long	.LBBc726510_64-.LJTIc726510_0
	.long	.LBBc726510_27-.LJTIc726510_0
	.long	.LBBc726510_21-.LJTIc726510_0
	.long	.LBBc726510_6-.LJTIc726510_0
	.long	.LBBc726510_64-.LJTIc726510_0
	.long	.LBBc726510_64-.LJTIc726510_0
	.long	.LBBc726510_64-.LJTIc726510_0
	.long	.LBBc726510_64-.LJTIc726510_0
	.long	.LBBc726510_64-.LJTIc726510_0
	.long	.LBBc726510_64-.LJTIc726510_0
	.long	.LBBc726510_64-.LJTIc726510_0
	.long	.LBBc726510_64-.LJTIc726510_0
	.long	.LBBc726510_64-.LJTIc726510_0
	.long	.LBBc726510_12-.LJTIc726510_0
	.long	.LBBc726510_64-.LJTIc726510_0
	.long	.LBBc726510_64-.LJTIc726510_0
	.long	.LBBc726510_64-.LJTIc726510_0
	.long	.LBBc726510_64-.LJTIc726510_0
	.long	.LBBc726510_64-.LJTIc726510_0
	.long	.LBBc726510_64-.LJTIc726510_0
	.long	.LBBc726510_64-.LJTIc726510_0
	.long	.LBBc726510_9-.LJTIc726510_0
	.long	.LBBc726510_64-.LJTIc726510_0
	.long	.LBBc726510_64-.LJTIc726510_0
	.long	.LBBc726510_64-.LJTIc726510_0
	.long	.LBBc726510_64-.LJTIc726510_0
	.long	.LBBc726510_64-.LJTIc726510_0
	.long	.LBBc726510_64-.LJTIc726510_0
	.long	.LBBc726510_64-.LJTIc726510_0
	.long	.LBBc726510_8-.LJTIc726510_0
	.long	.LBBc726510_64-.LJTIc726510_0
	.long	.LBBc726510_64-.LJTIc726510_0
	.long	.LBBc726510_64-.LJTIc726510_0
	.long	.LBBc726510_64-.LJTIc726510_0
	.long	.LBBc726510_64-.LJTIc726510_0
	.long	.LBBc726510_64-.LJTIc726510_0
	.long	.LBBc726510_64-.LJTIc726510_0
	.long	.LBBc726510_64-.LJTIc726510_0
	.long	.LBBc726510_64-.LJTIc726510_0
	.long	.LBBc726510_64-.LJTIc726510_0
	.long	.LBBc726510_64-.LJTIc726510_0
	.long	.LBBc726510_64-.LJTIc726510_0
	.long	.LBBc726510_64-.LJTIc726510_0
	.long	.LBBc726510_64-.LJTIc726510_0
	.long	.LBBc726510_64-.LJTIc726510_0
	.long	.LBBc726510_13-.LJTIc726510_0
	.long	.LBBc726510_64-.LJTIc726510_0
	.long	.LBBc726510_64-.LJTIc726510_0
	.long	.LBBc726510_64-.LJTIc726510_0
	.long	.LBBc726510_64-.LJTIc726510_0
	.long	.LBBc726510_64-.LJTIc726510_0
	.long	.LBBc726510_64-.LJTIc726510_0
	.long	.LBBc726510_64-.LJTIc726510_0
	.long	.LBBc726510_10-.LJTIc726510_0
	.long	.LBBc726510_64-.LJTIc726510_0
	.long	.LBBc726510_64-.LJTIc726510_0
	.long	.LBBc726510_64-.LJTIc726510_0
	.long	.LBBc726510_64-.LJTIc726510_0
	.long	.LBBc726510_64-.LJTIc726510_0
	.long	.LBBc726510_64-.LJTIc726510_0
	.long	.LBBc726510_64-.LJTIc726510_0
	.long	.LBBc726510_64-.LJTIc726510_0
	.long	.LBBc726510_64-.LJTIc726510_0
	.long	.LBBc726510_64-.LJTIc726510_0
	.long	.LBBc726510_64-.LJTIc726510_0
	.long	.LBBc726510_64-.LJTIc726510_0
	.long	.LBBc726510_64-.LJTIc726510_0
	.long	.LBBc726510_64-.LJTIc726510_0
	.long	.LBBc726510_64-.LJTIc726510_0
	.long	.LBBc726510_64-.LJTIc726510_0
	.long	.LBBc726510_64-.LJTIc726510_0
	.long	.LBBc726510_64-.LJTIc726510_0
	.long	.LBBc726510_64-.LJTIc726510_0
	.long	.LBBc726510_64-.LJTIc726510_0
	.long	.LBBc726510_64-.LJTIc726510_0
	.long	.LBBc726510_64-.LJTIc726510_0
	.long	.LBBc726510_64-.LJTIc726510_0
	.long	.LBBc726510_14-.LJTIc726510_0
	.long	.LBBc726510_64-.LJTIc726510_0
	.long	.LBBc726510_64-.LJTIc726510_0
	.long	.LBBc726510_64-.LJTIc726510_0
	.long	.LBBc726510_64-.LJTIc726510_0
	.long	.LBBc726510_64-.LJTIc726510_0
	.long	.LBBc726510_64-.LJTIc726510_0
	.long	.LBBc726510_64-.LJTIc726510_0
	.long	.LBBc726510_11-.LJTIc726510_0
	.long	.LBBc726510_64-.LJTIc726510_0
	.long	.LBBc726510_64-.LJTIc726510_0
	.long	.LBBc726510_64-.LJTIc726510_0
	.long	.LBBc726510_64-.LJTIc726510_0
	.long	.LBBc726510_64-.LJTIc726510_0
	.long	.LBBc726510_64-.LJTIc726510_0
	.long	.LBBc726510_64-.LJTIc726510_0
	.long	.LBBc726510_64-.LJTIc726510_0
	.long	.LBBc726510_64-.LJTIc726510_0
	.long	.LBBc726510_64-.LJTIc726510_0
	.long	.LBBc726510_64-.LJTIc726510_0
	.long	.LBBc726510_64-.LJTIc726510_0
	.long	.LBBc726510_64-.LJTIc726510_0
	.long	.LBBc726510_64-.LJTIc726510_0
	.long	.LBBc726510_64-.LJTIc726510_0
	.long	.LBBc726510_64-.LJTIc726510_0
	.long	.LBBc726510_64-.LJTIc726510_0
	.long	.LBBc726510_64-.LJTIc726510_0
	.long	.LBBc726510_64-.LJTIc726510_0
	.long	.LBBc726510_64-.LJTIc726510_0
	.long	.LBBc726510_19-.LJTIc726510_0
	.long	.LBBc726510_64-.LJTIc726510_0
	.long	.LBBc726510_64-.LJTIc726510_0
	.long	.LBBc726510_64-.LJTIc726510_0
	.long	.LBBc726510_64-.LJTIc726510_0
	.long	.LBBc726510_64-.LJTIc726510_0
	.long	.LBBc726510_64-.LJTIc726510_0
	.long	.LBBc726510_64-.LJTIc726510_0
	.long	.LBBc726510_20-.LJTIc726510_0
	.long	.LBBc726510_64-.LJTIc726510_0
	.long	.LBBc726510_64-.LJTIc726510_0
	.long	.LBBc726510_64-.LJTIc726510_0
	.long	.LBBc726510_18-.LJTIc726510_0
	.long	.LBBc726510_64-.LJTIc726510_0
	.long	.LBBc726510_64-.LJTIc726510_0
	.long	.LBBc726510_64-.LJTIc726510_0
	.long	.LBBc726510_17-.LJTIc726510_0
	.long	.LBBc726510_64-.LJTIc726510_0
	.long	.LBBc726510_64-.LJTIc726510_0
	.long	.LBBc726510_64-.LJTIc726510_0
	.long	.LBBc726510_16-.LJTIc726510_0
	.long	.LBBc726510_64-.LJTIc726510_0
	.long	.LBBc726510_64-.LJTIc726510_0
	.long	.LBBc726510_64-.LJTIc726510_0
	.long	.LBBc726510_21-.LJTIc726510_0
	.long	.LBBc726510_64-.LJTIc726510_0
	.long	.LBBc726510_64-.LJTIc726510_0
	.long	.LBBc726510_64-.LJTIc726510_0
	.long	.LBBc726510_64-.LJTIc726510_0
	.long	.LBBc726510_64-.LJTIc726510_0
	.long	.LBBc726510_64-.LJTIc726510_0
	.long	.LBBc726510_64-.LJTIc726510_0
	.long	.LBBc726510_64-.LJTIc726510_0
	.long	.LBBc726510_64-.LJTIc726510_0
	.long	.LBBc726510_64-.LJTIc726510_0
	.long	.LBBc726510_12-.LJTIc726510_0
	.long	.LBBc726510_64-.LJTIc726510_0
	.long	.LBBc726510_64-.LJTIc726510_0
	.long	.LBBc726510_64-.LJTIc726510_0
	.long	.LBBc726510_64-.LJTIc726510_0
	.long	.LBBc726510_64-.LJTIc726510_0
	.long	.LBBc726510_64-.LJTIc726510_0
	.long	.LBBc726510_64-.LJTIc726510_0
	.long	.LBBc726510_9-.LJTIc726510_0
	.long	.LBBc726510_64-.LJTIc726510_0
	.long	.LBBc726510_64-.LJTIc726510_0
	.long	.LBBc726510_64-.LJTIc726510_0
	.long	.LBBc726510_64-.LJTIc726510_0
	.long	.LBBc726510_64-.LJTIc726510_0
	.long	.LBBc726510_64-.LJTIc726510_0
	.long	.LBBc726510_64-.LJTIc726510_0
	.long	.LBBc726510_8-.LJTIc726510_0
	.long	.LBBc726510_64-.LJTIc726510_0
	.long	.LBBc726510_64-.LJTIc726510_0
	.long	.LBBc726510_64-.LJTIc726510_0
	.long	.LBBc726510_64-.LJTIc726510_0
	.long	.LBBc726510_64-.LJTIc726510_0
	.long	.LBBc726510_64-.LJTIc726510_0
	.long	.LBBc726510_64-.LJTIc726510_0
	.long	.LBBc726510_64-.LJTIc726510_0
	.long	.LBBc726510_64-.LJTIc726510_0
	.long	.LBBc726510_64-.LJTIc726510_0
	.long	.LBBc726510_64-.LJTIc726510_0
	.long	.LBBc726510_64-.LJTIc726510_0
	.long	.LBBc726510_64-.LJTIc726510_0
	.long	.LBBc726510_64-.LJTIc726510_0
	.long	.LBBc726510_64-.LJTIc726510_0
	.long	.LBBc726510_13-.LJTIc726510_0
	.long	.LBBc726510_64-.LJTIc726510_0
	.long	.LBBc726510_64-.LJTIc726510_0
	.long	.LBBc726510_64-.LJTIc726510_0
	.long	.LBBc726510_64-.LJTIc726510_0
	.long	.LBBc726510_64-.LJTIc726510_0
	.long	.LBBc726510_64-.LJTIc726510_0
	.long	.LBBc726510_64-.LJTIc726510_0
	.long	.LBBc726510_10-.LJTIc726510_0
	.long	.LBBc726510_64-.LJTIc726510_0
	.long	.LBBc726510_64-.LJTIc726510_0
	.long	.LBBc726510_64-.LJTIc726510_0
	.long	.LBBc726510_64-.LJTIc726510_0
	.long	.LBBc726510_64-.LJTIc726510_0
	.long	.LBBc726510_64-.LJTIc726510_0
	.long	.LBBc726510_64-.LJTIc726510_0
	.long	.LBBc726510_64-.LJTIc726510_0
	.long	.LBBc726510_64-.LJTIc726510_0
	.long	.LBBc726510_64-.LJTIc726510_0
	.long	.LBBc726510_64-.LJTIc726510_0
	.long	.LBBc726510_64-.LJTIc726510_0
	.long	.LBBc726510_64-.LJTIc726510_0
	.long	.LBBc726510_64-.LJTIc726510_0
	.long	.LBBc726510_64-.LJTIc726510_0
	.long	.LBBc726510_64-.LJTIc726510_0
	.long	.LBBc726510_64-.LJTIc726510_0
	.long	.LBBc726510_64-.LJTIc726510_0
	.long	.LBBc726510_64-.LJTIc726510_0
	.long	.LBBc726510_64-.LJTIc726510_0
	.long	.LBBc726510_64-.LJTIc726510_0
	.long	.LBBc726510_64-.LJTIc726510_0
	.long	.LBBc726510_64-.LJTIc726510_0
	.long	.LBBc726510_14-.LJTIc726510_0
	.long	.LBBc726510_64-.LJTIc726510_0
	.long	.LBBc726510_64-.LJTIc726510_0
	.long	.LBBc726510_64-.LJTIc726510_0
	.long	.LBBc726510_64-.LJTIc726510_0
	.long	.LBBc726510_64-.LJTIc726510_0
	.long	.LBBc726510_64-.LJTIc726510_0
	.long	.LBBc726510_64-.LJTIc726510_0
	.long	.LBBc726510_11-.LJTIc726510_0
.LJTIc726510_1:
	.long	.LBBc726510_37-.LJTIc726510_1
	.long	.LBBc726510_65-.LJTIc726510_1
	.long	.LBBc726510_65-.LJTIc726510_1
	.long	.LBBc726510_32-.LJTIc726510_1
	.long	.LBBc726510_34-.LJTIc726510_1
	.long	.LBBc726510_37-.LJTIc726510_1
	.long	.LBBc726510_37-.LJTIc726510_1
	.long	.LBBc726510_37-.LJTIc726510_1
	.long	.LBBc726510_37-.LJTIc726510_1
	.long	.LBBc726510_37-.LJTIc726510_1
	.long	.LBBc726510_37-.LJTIc726510_1
	.long	.LBBc726510_37-.LJTIc726510_1
	.long	.LBBc726510_37-.LJTIc726510_1
	.long	.LBBc726510_37-.LJTIc726510_1
	.long	.LBBc726510_65-.LJTIc726510_1
	.long	.LBBc726510_37-.LJTIc726510_1
	.long	.LBBc726510_37-.LJTIc726510_1
	.long	.LBBc726510_37-.LJTIc726510_1
	.long	.LBBc726510_37-.LJTIc726510_1
	.long	.LBBc726510_37-.LJTIc726510_1
	.long	.LBBc726510_37-.LJTIc726510_1
	.long	.LBBc726510_37-.LJTIc726510_1
	.long	.LBBc726510_37-.LJTIc726510_1
	.long	.LBBc726510_36-.LJTIc726510_1
	.long	.LBBc726510_37-.LJTIc726510_1
	.long	.LBBc726510_37-.LJTIc726510_1
.LJTIc726510_2:
	.long	.LBBc726510_40-.LJTIc726510_2
	.long	.LBBc726510_45-.LJTIc726510_2
	.long	.LBBc726510_49-.LJTIc726510_2
	.long	.LBBc726510_54-.LJTIc726510_2
.LJTIc726510_3:
	.long	.LBBc726510_77-.LJTIc726510_3
	.long	.LBBc726510_78-.LJTIc726510_3
	.long	.LBBc726510_79-.LJTIc726510_3
	.long	.LBBc726510_79-.LJTIc726510_3
	.long	.LBBc726510_79-.LJTIc726510_3
	.long	.LBBc726510_79-.LJTIc726510_3
	.long	.LBBc726510_79-.LJTIc726510_3
	.long	.LBBc726510_79-.LJTIc726510_3
	.long	.LBBc726510_79-.LJTIc726510_3
	.long	.LBBc726510_79-.LJTIc726510_3
	.long	.LBBc726510_79-.LJTIc726510_3
	.long	.LBBc726510_79-.LJTIc726510_3
	.long	.LBBc726510_79-.LJTIc726510_3
	.long	.LBBc726510_79-.LJTIc726510_3
	.long	.LBBc726510_80-.LJTIc726510_3
	.long	.LBBc726510_79-.LJTIc726510_3
	.long	.LBBc726510_79-.LJTIc726510_3
	.long	.LBBc726510_79-.LJTIc726510_3
	.long	.LBBc726510_79-.LJTIc726510_3
	.long	.LBBc726510_79-.LJTIc726510_3
	.long	.LBBc726510_79-.LJTIc726510_3
	.long	.LBBc726510_79-.LJTIc726510_3
	.long	.LBBc726510_79-.LJTIc726510_3
	.long	.LBBc726510_79-.LJTIc726510_3
	.long	.LBBc726510_79-.LJTIc726510_3
	.long	.LBBc726510_79-.LJTIc726510_3

	.section	".text.ckd_image::stores::nth_store::<#808c45e55832e08b>","ax",@progbits
	.p2align	4
	.type	ckd_image_stores_nth_store_808c45e55832e08b_.4c8b56e,@function
ckd_image_stores_nth_store_808c45e55832e08b_.4c8b56e:
	testq	%rsi, %rsi
	je	.LBB40afd09_1
	cmpb	$0, (%rdi)
	je	.LBB40afd09_3
	movq	8(%rdi), %rdx
	movb	$1, %al
	retq
.LBB40afd09_1:
	xorl	%edx, %edx
	xorl	%eax, %eax
	retq
.LBB40afd09_3:
	pushq	%rax
	decq	%rsi
	addq	$16, %rdi
	callq	ckd_image_stores_nth_store_808c45e55832e08b_.4c8b56e
	addq	$8, %rsp
	retq
.Lfunc_end40afd09:
	.size	ckd_image_stores_nth_store_808c45e55832e08b_.4c8b56e, .Lfunc_end40afd09-ckd_image_stores_nth_store_808c45e55832e08b_.4c8b56e

	.section	".text.ckd_drive::close::written_ends","ax",@progbits
	.p2align	4
	.type	ckd_drive_close_written_ends.f2d7708,@function
ckd_drive_close_written_ends.f2d7708:
	movzbl	(%rcx), %eax
	cmpl	$2, %eax
	je	.LBBaf9d097_3
	cmpl	$1, %eax
	jne	.LBBaf9d097_7
	movq	8(%rcx), %rax
	movq	$1, 8(%rdx)
	movb	$1, 16(%rdx)
	movb	$2, 17(%rdx)
	movq	%rax, 24(%rdx)
	movq	$1, 40(%rdx)
	movq	$4, 48(%rdx)
	movq	%rax, 56(%rdx)
	jmp	.LBBaf9d097_10
.LBBaf9d097_3:
	movzbl	1(%rcx), %eax
	cmpb	$1, 8(%rsi)
	jne	.LBBaf9d097_5
	pushq	%rbx
	movzbl	16(%rsi), %ecx
	movq	24(%rsi), %r8
	cmpb	$1, %cl
	movzbl	17(%rsi), %r9d
	movl	$2, %r10d
	cmovnel	%r9d, %r10d
	movzbl	(%rsi), %r11d
	movl	$1114112, %ebx
	btl	%r11d, %ebx
	cmovael	%r9d, %r10d
	movq	$1, 8(%rdx)
	movb	%cl, 16(%rdx)
	movb	%r10b, 17(%rdx)
	movq	%r8, 24(%rdx)
	popq	%rbx
.LBBaf9d097_5:
	movb	$12, %cl
	testb	$1, %al
	je	.LBBaf9d097_11
	movzbl	(%rsi), %eax
	leaq	.Lswitch.table.dasd_drive_do.162(%rip), %rcx
	movzbl	(%rax,%rcx), %ecx
	jmp	.LBBaf9d097_11
.LBBaf9d097_7:
	cmpb	$1, 8(%rsi)
	jne	.LBBaf9d097_9
	movzbl	16(%rsi), %eax
	movq	24(%rsi), %rcx
	cmpb	$1, %al
	movzbl	17(%rsi), %r8d
	movl	$2, %r9d
	cmovnel	%r8d, %r9d
	movzbl	(%rsi), %esi
	movl	$1114112, %r10d
	btl	%esi, %r10d
	cmovael	%r8d, %r9d
	movq	$1, 8(%rdx)
	movb	%al, 16(%rdx)
	movb	%r9b, 17(%rdx)
	movq	%rcx, 24(%rdx)
.LBBaf9d097_9:
	movq	$1, 40(%rdx)
	movq	$3, 48(%rdx)
	movq	$0, 56(%rdx)
.LBBaf9d097_10:
	movb	$12, %cl
.LBBaf9d097_11:
	movb	$0, (%rdi)
	movb	%cl, 1(%rdi)
	movl	$0, 2(%rdi)
	movw	$0, 6(%rdi)
	retq
.Lfunc_endaf9d097:
	.size	ckd_drive_close_written_ends.f2d7708, .Lfunc_endaf9d097-ckd_drive_close_written_ends.f2d7708

	.section	".text.ckd_drive::close::field_ends","ax",@progbits
	.p2align	4
	.type	ckd_drive_close_field_ends.8c3037b,@function
ckd_drive_close_field_ends.8c3037b:
	movzbl	(%rdx), %r10d
	movb	$12, %al
	leaq	.LJTI848c6cf_0(%rip), %r11
	movslq	(%r11,%r10,4), %r10
	addq	%r11, %r10
	jmpq	*%r10
.LBB848c6cf_21:
	xorl	%ecx, %ecx
	xorl	%edx, %edx
	xorl	%r9d, %r9d
	xorl	%esi, %esi
.LBB848c6cf_22:
	movb	%sil, (%rdi)
	movb	%al, 1(%rdi)
	movw	%r9w, 2(%rdi)
	movw	%dx, 4(%rdi)
	movw	%cx, 6(%rdi)
	retq
.LBB848c6cf_11:
	testq	%r9, %r9
	je	.LBB848c6cf_21
	cmpq	$8, %r9
	jne	.LBB848c6cf_19
	orb	$64, 4(%rcx)
	jmp	.LBB848c6cf_20
.LBB848c6cf_1:
	testq	%r9, %r9
	je	.LBB848c6cf_21
	cmpq	$6, %r9
	jne	.LBB848c6cf_19
	movl	%esi, %eax
	movzwl	2(%r8), %r9d
	rolw	$8, %r9w
	shrl	$16, %eax
	cmpw	$0, (%r8)
	sete	%dl
	cmpw	%ax, %r9w
	setb	%al
	andb	%dl, %al
	cmpb	$1, %al
	jne	.LBB848c6cf_9
	movzwl	4(%r8), %edx
	rolw	$8, %dx
	testb	%sil, %sil
	movl	$10, %eax
	movl	$20, %esi
	cmovel	%eax, %esi
	cmpw	%dx, %si
	jbe	.LBB848c6cf_9
	movb	$1, %sil
	movw	$264, %cx
	xorl	%eax, %eax
	jmp	.LBB848c6cf_22
.LBB848c6cf_6:
	testq	%r9, %r9
	je	.LBB848c6cf_21
	cmpq	$6, %r9
	jne	.LBB848c6cf_19
	movzwl	4(%r8), %edx
	rolw	$8, %dx
	testb	%sil, %sil
	movl	$10, %eax
	movl	$20, %esi
	cmovel	%eax, %esi
	cmpw	%dx, %si
	jbe	.LBB848c6cf_9
	movzwl	(%rcx), %r9d
	movb	$1, %sil
	movw	$12, %cx
	xorl	%eax, %eax
	jmp	.LBB848c6cf_22
.LBB848c6cf_14:
	testq	%r9, %r9
	je	.LBB848c6cf_21
	movzbl	(%r8), %edx
	movl	%edx, %esi
	shrb	$6, %sil
	shrb	$3, %dl
	andb	$3, %dl
	movb	%sil, 32(%rcx)
	movb	%dl, 33(%rcx)
	movb	$1, 34(%rcx)
	jmp	.LBB848c6cf_21
.LBB848c6cf_16:
	cmpb	$1, 8(%rdx)
	jne	.LBB848c6cf_18
	movzwl	16(%rdx), %esi
	movq	24(%rdx), %rdx
	movq	$1, 8(%rcx)
	movw	%si, 16(%rcx)
	movq	%rdx, 24(%rcx)
.LBB848c6cf_18:
	testq	%r9, %r9
	je	.LBB848c6cf_21
.LBB848c6cf_19:
	orb	$-128, 5(%rcx)
	jmp	.LBB848c6cf_20
.LBB848c6cf_9:
	orb	$-127, 5(%rcx)
.LBB848c6cf_20:
	movb	$14, %al
	jmp	.LBB848c6cf_21
.Lfunc_end848c6cf:
	.size	ckd_drive_close_field_ends.8c3037b, .Lfunc_end848c6cf-ckd_drive_close_field_ends.8c3037b
	.section	".rodata.ckd_drive::close::field_ends","a",@progbits
	.p2align	2, 0x0
.LJTI848c6cf_0:
	.long	.LBB848c6cf_21-.LJTI848c6cf_0
	.long	.LBB848c6cf_21-.LJTI848c6cf_0
	.long	.LBB848c6cf_1-.LJTI848c6cf_0
	.long	.LBB848c6cf_1-.LJTI848c6cf_0
	.long	.LBB848c6cf_6-.LJTI848c6cf_0
	.long	.LBB848c6cf_14-.LJTI848c6cf_0
	.long	.LBB848c6cf_21-.LJTI848c6cf_0
	.long	.LBB848c6cf_21-.LJTI848c6cf_0
	.long	.LBB848c6cf_21-.LJTI848c6cf_0
	.long	.LBB848c6cf_21-.LJTI848c6cf_0
	.long	.LBB848c6cf_21-.LJTI848c6cf_0
	.long	.LBB848c6cf_21-.LJTI848c6cf_0
	.long	.LBB848c6cf_21-.LJTI848c6cf_0
	.long	.LBB848c6cf_21-.LJTI848c6cf_0
	.long	.LBB848c6cf_21-.LJTI848c6cf_0
	.long	.LBB848c6cf_21-.LJTI848c6cf_0
	.long	.LBB848c6cf_21-.LJTI848c6cf_0
	.long	.LBB848c6cf_21-.LJTI848c6cf_0
	.long	.LBB848c6cf_21-.LJTI848c6cf_0
	.long	.LBB848c6cf_21-.LJTI848c6cf_0
	.long	.LBB848c6cf_21-.LJTI848c6cf_0
	.long	.LBB848c6cf_16-.LJTI848c6cf_0
	.long	.LBB848c6cf_11-.LJTI848c6cf_0
	.long	.LBB848c6cf_11-.LJTI848c6cf_0
	.long	.LBB848c6cf_21-.LJTI848c6cf_0
	.long	.LBB848c6cf_21-.LJTI848c6cf_0

	.section	".text.ckd_drive::job::Job::close_due::<#808c45e55832e08b>","ax",@progbits
	.p2align	4
	.type	ckd_drive_job_Job_close_due_808c45e55832e08b_.4535013,@function
ckd_drive_job_Job_close_due_808c45e55832e08b_.4535013:
	cmpb	$5, 984(%rsi)
	jne	.LBB4153f4b_2
	pushq	%r15
	pushq	%r14
	pushq	%rbx
	movq	%rsi, %r14
	movq	%rdi, %rbx
	movq	1008(%rsi), %r15
	leaq	.Lstatic.0(%rip), %rsi
	movq	%r14, %rdi
	xorl	%edx, %edx
	callq	ckd_drive_job_Job_make_808c45e55832e08b_.9cfe1de
	movq	$1, 872(%r14)
	movb	$1, 880(%r14)
	movb	$2, 881(%r14)
	movq	%r15, 888(%r14)
	movq	$1, 904(%r14)
	movq	$4, 912(%r14)
	movq	%r15, 920(%r14)
	movw	$3072, (%rbx)
	movl	$0, 2(%rbx)
	movw	$0, 6(%rbx)
	popq	%rbx
	popq	%r14
	popq	%r15
	retq
.LBB4153f4b_2:
	ud2
.Lfunc_end4153f4b:
	.size	ckd_drive_job_Job_close_due_808c45e55832e08b_.4535013, .Lfunc_end4153f4b-ckd_drive_job_Job_close_due_808c45e55832e08b_.4535013

	.section	".text.ckd_drive::job::Job::make::<#808c45e55832e08b>","ax",@progbits
	.p2align	4
	.type	ckd_drive_job_Job_make_808c45e55832e08b_.9cfe1de,@function
ckd_drive_job_Job_make_808c45e55832e08b_.9cfe1de:
	pushq	%rbx
	subq	$16, %rsp
	cmpb	$5, 984(%rdi)
	jne	.LBBcc0e982_27
	movq	%rdx, %r9
	movq	%rsi, %r8
	movq	992(%rdi), %rdx
	movq	1000(%rdi), %rcx
	movq	1008(%rdi), %r11
	movq	1016(%rdi), %rsi
	leaq	(%rdx,%r9), %rax
	movq	%rcx, %r10
	subq	%r9, %r10
	movb	$6, 984(%rdi)
	movl	$0, 985(%rdi)
	movl	$0, 988(%rdi)
	movq	%rax, 992(%rdi)
	movq	%r10, 1000(%rdi)
	movq	$1, 1008(%rdi)
	movq	%r11, 1016(%rdi)
	movb	$1, 856(%rdi)
	movq	%rsi, 8(%rsp)
	movq	768(%rdi), %r10
	movq	808(%rdi), %rax
	leal	-8(%rdx), %ebx
	movl	%ebx, (%r10,%r11,4)
	leaq	1(%r11), %r10
	movq	$1, 792(%rdi)
	movq	%r10, 800(%rdi)
	leaq	(%rcx,%rdx), %r10
	addq	$8, %r10
	movq	%r10, 808(%rdi)
	movb	$0, 816(%rdi)
	cmpq	832(%rdi), %r11
	jae	.LBBcc0e982_3
	cmpb	$0, 824(%rdi)
	movl	$3625, %r11d
	movl	$7294, %ebx
	cmovel	%r11d, %ebx
	movq	$0, 832(%rdi)
	movl	$1, 840(%rdi)
	movl	%ebx, 844(%rdi)
.LBBcc0e982_3:
	cmpq	%r9, %rcx
	setbe	%r11b
	movq	744(%rdi), %rdi
	cmpq	%rax, %r10
	setae	%r10b
	testb	%r10b, %r11b
	jne	.LBBcc0e982_6
	movq	%rax, (%rsp)
	leaq	8(%rsp), %rsi
	callq	ckd_slot_buffer_clear_and_write.f1e5954
.LBBcc0e982_5:
	addq	$16, %rsp
	popq	%rbx
	retq
.LBBcc0e982_6:
	addq	%rdx, %rcx
	leaq	(%rdi,%rdx), %rax
	movq	%rsi, -8(%rdi,%rdx)
	movq	$-1, (%rdi,%rcx)
	movq	%rax, %rcx
	subq	%r8, %rcx
	cmpq	%r9, %rcx
	jae	.LBBcc0e982_9
	cmpq	$4, %r9
	jb	.LBBcc0e982_8
	cmpq	$32, %rcx
	jae	.LBBcc0e982_12
.LBBcc0e982_8:
	xorl	%ecx, %ecx
.LBBcc0e982_21:
	movq	%r9, %r10
	movq	%rcx, %rsi
	andq	$3, %r10
	je	.LBBcc0e982_24
	movq	%rcx, %rsi
	.p2align	4
.LBBcc0e982_23:
	movzbl	(%r8,%rsi), %r11d
	movb	%r11b, (%rax,%rsi)
	incq	%rsi
	decq	%r10
	jne	.LBBcc0e982_23
.LBBcc0e982_24:
	subq	%r9, %rcx
	cmpq	$-4, %rcx
	ja	.LBBcc0e982_5
	leaq	(%rdx,%rdi), %rax
	addq	$3, %rax
	.p2align	4
.LBBcc0e982_26:
	movzbl	(%r8,%rsi), %ecx
	movb	%cl, -3(%rax,%rsi)
	movzbl	1(%r8,%rsi), %ecx
	movb	%cl, -2(%rax,%rsi)
	movzbl	2(%r8,%rsi), %ecx
	movb	%cl, -1(%rax,%rsi)
	movzbl	3(%r8,%rsi), %ecx
	movb	%cl, (%rax,%rsi)
	addq	$4, %rsi
	cmpq	%rsi, %r9
	jne	.LBBcc0e982_26
	jmp	.LBBcc0e982_5
.LBBcc0e982_9:
	movq	%rax, %rdi
	movq	%r8, %rsi
	movq	%r9, %rdx
	addq	$16, %rsp
	popq	%rbx
	jmp	memmove@PLT
.LBBcc0e982_12:
	cmpq	$32, %r9
	jae	.LBBcc0e982_14
	xorl	%ecx, %ecx
	jmp	.LBBcc0e982_18
.LBBcc0e982_14:
	movq	%r9, %rcx
	andq	$-32, %rcx
	leaq	(%rdx,%rdi), %rsi
	addq	$16, %rsi
	xorl	%r10d, %r10d
	.p2align	4
.LBBcc0e982_15:
	movups	(%r8,%r10), %xmm0
	movups	16(%r8,%r10), %xmm1
	movups	%xmm0, -16(%rsi,%r10)
	movups	%xmm1, (%rsi,%r10)
	addq	$32, %r10
	cmpq	%r10, %rcx
	jne	.LBBcc0e982_15
	cmpq	%rcx, %r9
	je	.LBBcc0e982_5
	testb	$28, %r9b
	je	.LBBcc0e982_21
.LBBcc0e982_18:
	movq	%rcx, %rsi
	movq	%r9, %rcx
	andq	$-4, %rcx
	.p2align	4
.LBBcc0e982_19:
	movl	(%r8,%rsi), %r10d
	movl	%r10d, (%rax,%rsi)
	addq	$4, %rsi
	cmpq	%rsi, %rcx
	jne	.LBBcc0e982_19
	cmpq	%rcx, %r9
	je	.LBBcc0e982_5
	jmp	.LBBcc0e982_21
.LBBcc0e982_27:
	ud2
.Lfunc_endcc0e982:
	.size	ckd_drive_job_Job_make_808c45e55832e08b_.9cfe1de, .Lfunc_endcc0e982-ckd_drive_job_Job_make_808c45e55832e08b_.9cfe1de

	.section	".text.ckd_slot::buffer::clear_and_write","ax",@progbits
	.p2align	4
	.type	ckd_slot_buffer_clear_and_write.f1e5954,@function
ckd_slot_buffer_clear_and_write.f1e5954:
	pushq	%rbp
	pushq	%r15
	pushq	%r14
	pushq	%r13
	pushq	%r12
	pushq	%rbx
	subq	$24, %rsp
	movq	%r8, %r14
	movq	%rcx, %r15
	movq	%rdx, %r12
	movq	80(%rsp), %rbp
	leaq	(%rdi,%rdx), %r13
	leaq	(%rdi,%rdx), %rax
	addq	$-8, %rax
	movq	%rax, %rcx
	subq	%rsi, %rcx
	cmpq	$7, %rcx
	ja	.LBBdfed053_6
	movzbl	(%rsi), %eax
	movb	%al, -8(%r13)
	movzbl	1(%rsi), %eax
	movb	%al, -7(%r13)
	movzbl	2(%rsi), %eax
	movb	%al, -6(%r13)
	movzbl	3(%rsi), %eax
	movb	%al, -5(%r13)
	movzbl	4(%rsi), %eax
	movb	%al, -4(%r13)
	movzbl	5(%rsi), %eax
	movb	%al, -3(%r13)
	movzbl	6(%rsi), %eax
	movb	%al, -2(%r13)
	movzbl	7(%rsi), %eax
	movb	%al, -1(%r13)
	leaq	(%r15,%r12), %rbx
	cmpq	%r9, %r15
	je	.LBBdfed053_7
.LBBdfed053_2:
	movq	%r12, 16(%rsp)
	addq	%r9, %r12
	cmpq	%rbp, %r12
	cmovaq	%r12, %rbp
	addq	%rdi, %r12
	movq	%r9, %rax
	notq	%rax
	addq	%rax, %r15
	movq	%rdi, (%rsp)
	je	.LBBdfed053_4
	movq	%r12, %rdi
	xorl	%esi, %esi
	movq	%r15, %rdx
	movq	%r9, 8(%rsp)
	callq	memset@PLT
	movq	(%rsp), %rdi
	movq	8(%rsp), %r9
.LBBdfed053_4:
	movb	$0, (%r12,%r15)
	leaq	8(%rbx), %r15
	movq	$-1, (%rdi,%rbx)
	cmpq	%rbp, %r15
	movq	16(%rsp), %r12
	jae	.LBBdfed053_12
	addq	%rdi, %r15
	subq	%rbx, %rbp
	addq	$-9, %rbp
	jne	.LBBdfed053_10
	jmp	.LBBdfed053_11
.LBBdfed053_6:
	movq	(%rsi), %rcx
	movq	%rcx, (%rax)
	leaq	(%r15,%r12), %rbx
	cmpq	%r9, %r15
	jne	.LBBdfed053_2
.LBBdfed053_7:
	leaq	8(%rbx), %r15
	movq	$-1, (%rdi,%rbx)
	cmpq	%rbp, %r15
	jae	.LBBdfed053_12
	addq	%rdi, %r15
	subq	%rbx, %rbp
	addq	$-9, %rbp
	je	.LBBdfed053_11
	movq	%rdi, (%rsp)
.LBBdfed053_10:
	movq	%r15, %rdi
	xorl	%esi, %esi
	movq	%rbp, %rdx
	movq	%r9, %rbx
	callq	memset@PLT
	movq	(%rsp), %rdi
	movq	%rbx, %r9
.LBBdfed053_11:
	movb	$0, (%r15,%rbp)
.LBBdfed053_12:
	movq	%r13, %rax
	subq	%r14, %rax
	cmpq	%r9, %rax
	jae	.LBBdfed053_15
	cmpq	$4, %r9
	jb	.LBBdfed053_14
	cmpq	$32, %rax
	jae	.LBBdfed053_18
.LBBdfed053_14:
	xorl	%eax, %eax
.LBBdfed053_27:
	movq	%r9, %rdx
	movq	%rax, %rcx
	andq	$3, %rdx
	je	.LBBdfed053_30
	movq	%rax, %rcx
	.p2align	4
.LBBdfed053_29:
	movzbl	(%r14,%rcx), %esi
	movb	%sil, (%r13,%rcx)
	incq	%rcx
	decq	%rdx
	jne	.LBBdfed053_29
.LBBdfed053_30:
	subq	%r9, %rax
	cmpq	$-4, %rax
	ja	.LBBdfed053_33
	leaq	(%r12,%rdi), %rax
	addq	$3, %rax
	.p2align	4
.LBBdfed053_32:
	movzbl	(%r14,%rcx), %edx
	movb	%dl, -3(%rax,%rcx)
	movzbl	1(%r14,%rcx), %edx
	movb	%dl, -2(%rax,%rcx)
	movzbl	2(%r14,%rcx), %edx
	movb	%dl, -1(%rax,%rcx)
	movzbl	3(%r14,%rcx), %edx
	movb	%dl, (%rax,%rcx)
	addq	$4, %rcx
	cmpq	%rcx, %r9
	jne	.LBBdfed053_32
.LBBdfed053_33:
	addq	$24, %rsp
	popq	%rbx
	popq	%r12
	popq	%r13
	popq	%r14
	popq	%r15
	popq	%rbp
	retq
.LBBdfed053_15:
	movq	%r13, %rdi
	movq	%r14, %rsi
	movq	%r9, %rdx
	addq	$24, %rsp
	popq	%rbx
	popq	%r12
	popq	%r13
	popq	%r14
	popq	%r15
	popq	%rbp
	jmp	memmove@PLT
.LBBdfed053_18:
	cmpq	$32, %r9
	jae	.LBBdfed053_20
	xorl	%eax, %eax
	jmp	.LBBdfed053_24
.LBBdfed053_20:
	movq	%r9, %rax
	andq	$-32, %rax
	leaq	(%r12,%rdi), %rcx
	addq	$16, %rcx
	xorl	%edx, %edx
	.p2align	4
.LBBdfed053_21:
	movups	(%r14,%rdx), %xmm0
	movups	16(%r14,%rdx), %xmm1
	movups	%xmm0, -16(%rcx,%rdx)
	movups	%xmm1, (%rcx,%rdx)
	addq	$32, %rdx
	cmpq	%rdx, %rax
	jne	.LBBdfed053_21
	cmpq	%rax, %r9
	je	.LBBdfed053_33
	testb	$28, %r9b
	je	.LBBdfed053_27
.LBBdfed053_24:
	movq	%rax, %rcx
	movq	%r9, %rax
	andq	$-4, %rax
	.p2align	4
.LBBdfed053_25:
	movl	(%r14,%rcx), %edx
	movl	%edx, (%r13,%rcx)
	addq	$4, %rcx
	cmpq	%rcx, %rax
	jne	.LBBdfed053_25
	cmpq	%rax, %r9
	je	.LBBdfed053_33
	jmp	.LBBdfed053_27
.Lfunc_enddfed053:
	.size	ckd_slot_buffer_clear_and_write.f1e5954, .Lfunc_enddfed053-ckd_slot_buffer_clear_and_write.f1e5954

	.section	.rodata.cst16,"aM",@progbits,16
	.p2align	4, 0x0
.LCPId6c1ba5_0:
	.quad	1
	.quad	2
.LCPId6c1ba5_1:
	.quad	1
	.quad	1
.LCPId6c1ba5_2:
	.long	1
	.long	0
	.long	0
	.long	0
	.section	.rodata.cst4,"aM",@progbits,4
	.p2align	2, 0x0
.LCPId6c1ba5_3:
	.long	1
	.section	".text.ckd_drive::drive::Drive::end_elsewhere::<#808c45e55832e08b>","ax",@progbits
	.p2align	4
	.type	ckd_drive_drive_Drive_end_elsewhere_808c45e55832e08b_.1a20373,@function
ckd_drive_drive_Drive_end_elsewhere_808c45e55832e08b_.1a20373:
	pushq	%rbx
	subq	$32, %rsp
	movzbl	1025(%rdi), %eax
	leaq	.LJTId6c1ba5_0(%rip), %rcx
	movslq	(%rcx,%rax,4), %rax
	addq	%rcx, %rax
	jmpq	*%rax
.LBBd6c1ba5_2:
	movb	$0, 1025(%rdi)
	movb	$12, %al
	addq	$32, %rsp
	popq	%rbx
	retq
.LBBd6c1ba5_4:
	movb	$0, 1025(%rdi)
	movb	$14, %al
	addq	$32, %rsp
	popq	%rbx
	retq
.LBBd6c1ba5_5:
	movq	$0, 8(%rsp)
	movq	$0, 16(%rsp)
	movq	968(%rdi), %r9
	leaq	936(%rdi), %rdx
	leaq	864(%rdi), %rcx
	movzbl	984(%rdi), %eax
	leaq	.LJTId6c1ba5_1(%rip), %rsi
	movslq	(%rsi,%rax,4), %rax
	addq	%rsi, %rax
	jmpq	*%rax
.LBBd6c1ba5_33:
	leaq	1008(%rdi), %rax
	movzbl	(%rax), %eax
	cmpb	$1, 944(%rdi)
	jne	.LBBd6c1ba5_36
.LBBd6c1ba5_35:
	movzbl	952(%rdi), %ecx
	movq	960(%rdi), %rsi
	cmpb	$1, %cl
	movzbl	953(%rdi), %r8d
	movl	$2, %r9d
	cmovnel	%r8d, %r9d
	movzbl	936(%rdi), %r10d
	movl	$1114112, %r11d
	btl	%r10d, %r11d
	cmovael	%r8d, %r9d
	movq	$1, 872(%rdi)
	movb	%cl, 880(%rdi)
	movb	%r9b, 881(%rdi)
	movq	%rsi, 888(%rdi)
.LBBd6c1ba5_36:
	movb	$12, %cl
	testb	%al, %al
	je	.LBBd6c1ba5_38
	movzbl	(%rdx), %eax
	leaq	.Lswitch.table.dasd_drive_do.162(%rip), %rcx
	movzbl	(%rax,%rcx), %ecx
.LBBd6c1ba5_38:
	movb	$0, 8(%rsp)
	movb	%cl, 9(%rsp)
	jmp	.LBBd6c1ba5_39
.LBBd6c1ba5_3:
	movb	$0, 1025(%rdi)
	movb	$8, %al
	addq	$32, %rsp
	popq	%rbx
	retq
.LBBd6c1ba5_12:
	testq	%r9, %r9
	je	.LBBd6c1ba5_13
	movzbl	936(%rdi), %ecx
	movzbl	1008(%rdi), %eax
	movl	$67095039, %edx
	btl	%ecx, %edx
	jae	.LBBd6c1ba5_15
	cmpb	$1, %al
	sete	%cl
	jmp	.LBBd6c1ba5_18
.LBBd6c1ba5_6:
	cmpb	$1, 944(%rdi)
	jne	.LBBd6c1ba5_8
	movzbl	952(%rdi), %eax
	movq	960(%rdi), %rcx
	cmpb	$1, %al
	movzbl	953(%rdi), %edx
	movl	$2, %esi
	cmovnel	%edx, %esi
	movzbl	936(%rdi), %r8d
	movl	$1114112, %r9d
	btl	%r8d, %r9d
	cmovael	%edx, %esi
	movq	$1, 872(%rdi)
	movb	%al, 880(%rdi)
	movb	%sil, 881(%rdi)
	movq	%rcx, 888(%rdi)
	jmp	.LBBd6c1ba5_8
.LBBd6c1ba5_31:
	movq	704(%rdi), %rsi
	leaq	985(%rdi), %r8
	leaq	8(%rsp), %rax
	movq	%rdi, %rbx
	movq	%rax, %rdi
	callq	ckd_drive_close_field_ends.8c3037b
	movq	%rbx, %rdi
	jmp	.LBBd6c1ba5_40
.LBBd6c1ba5_32:
	leaq	8(%rsp), %rax
	movq	%rdi, %rbx
	movq	%rax, %rdi
	movq	%rbx, %rsi
	callq	ckd_drive_job_Job_close_due_808c45e55832e08b_.4535013
	movq	%rbx, %rdi
	jmp	.LBBd6c1ba5_40
.LBBd6c1ba5_9:
	movzbl	1008(%rdi), %eax
	cmpb	$2, %al
	jne	.LBBd6c1ba5_11
	leaq	1009(%rdi), %rax
	movzbl	(%rax), %eax
	cmpb	$1, 944(%rdi)
	je	.LBBd6c1ba5_35
	jmp	.LBBd6c1ba5_36
.LBBd6c1ba5_11:
	movb	%al, 16(%rsp)
	movzbl	1009(%rdi), %eax
	movb	%al, 17(%rsp)
	movq	1016(%rdi), %rax
	movq	%rax, 24(%rsp)
	leaq	8(%rsp), %rax
	leaq	16(%rsp), %r8
	movq	%rdi, %rbx
	movq	%rax, %rdi
	movq	%rdx, %rsi
	movq	%rcx, %rdx
	movq	%r8, %rcx
	callq	ckd_drive_close_written_ends.f2d7708
	movq	%rbx, %rdi
	jmp	.LBBd6c1ba5_40
.LBBd6c1ba5_13:
	xorl	%ecx, %ecx
.LBBd6c1ba5_18:
	movzbl	944(%rdi), %eax
	cmpb	$1, %al
	jne	.LBBd6c1ba5_20
	movzbl	952(%rdi), %edx
	movq	960(%rdi), %rsi
	cmpb	$1, %dl
	movzbl	953(%rdi), %r8d
	movl	$2, %r9d
	cmovnel	%r8d, %r9d
	movzbl	936(%rdi), %r10d
	movl	$1114112, %r11d
	btl	%r10d, %r11d
	cmovael	%r8d, %r9d
	movq	$1, 872(%rdi)
	movb	%dl, 880(%rdi)
	movb	%r9b, 881(%rdi)
	movq	%rsi, 888(%rdi)
.LBBd6c1ba5_20:
	testb	%cl, %cl
	je	.LBBd6c1ba5_8
	xorps	%xmm0, %xmm0
	cmpq	$0, 1000(%rdi)
	jne	.LBBd6c1ba5_25
	movzbl	936(%rdi), %esi
	movzbl	952(%rdi), %edx
	movq	960(%rdi), %rcx
	leaq	.LJTId6c1ba5_2(%rip), %r8
	movslq	(%r8,%rsi,4), %rsi
	addq	%r8, %rsi
	jmpq	*%rsi
.LBBd6c1ba5_25:
	xorl	%ecx, %ecx
.LBBd6c1ba5_30:
	movups	%xmm0, 904(%rdi)
	movq	%rcx, 920(%rdi)
	movw	$19456, 8(%rsp)
	jmp	.LBBd6c1ba5_39
.LBBd6c1ba5_8:
	movw	$3072, 8(%rsp)
.LBBd6c1ba5_39:
	movl	$0, 10(%rsp)
	movw	$0, 14(%rsp)
.LBBd6c1ba5_40:
	movzbl	9(%rsp), %eax
	movzwl	10(%rsp), %edx
	movzwl	12(%rsp), %ecx
	movzwl	14(%rsp), %ebx
	cmpb	$0, 8(%rsp)
	movb	$0, 1025(%rdi)
	je	.LBBd6c1ba5_41
	leaq	1024(%rdi), %rsi
	callq	ckd_drive_job_Job_leave_808c45e55832e08b_.db7d905
	testb	%al, %al
	movl	$14, %eax
	cmovel	%ebx, %eax
	addq	$32, %rsp
	popq	%rbx
	retq
.LBBd6c1ba5_41:
	cmpb	$6, 984(%rdi)
	movzbl	1024(%rdi), %ecx
	movl	$1, %edx
	cmovnel	%ecx, %edx
	movb	%dl, 1024(%rdi)
	addq	$32, %rsp
	popq	%rbx
	retq
.LBBd6c1ba5_15:
	movl	$4608, %edx
	btl	%ecx, %edx
	jae	.LBBd6c1ba5_17
	cmpb	$2, %al
	sete	%cl
	jmp	.LBBd6c1ba5_18
.LBBd6c1ba5_17:
	testb	%al, %al
	setne	%cl
	jmp	.LBBd6c1ba5_18
.LBBd6c1ba5_28:
	xorb	$1, %al
	xorb	$1, %dl
	orb	%al, %dl
	jne	.LBBd6c1ba5_25
	movaps	.LCPId6c1ba5_0(%rip), %xmm0
	jmp	.LBBd6c1ba5_30
.LBBd6c1ba5_26:
	xorb	$1, %al
	xorb	$1, %dl
	orb	%al, %dl
	jne	.LBBd6c1ba5_25
	movaps	.LCPId6c1ba5_1(%rip), %xmm0
	jmp	.LBBd6c1ba5_30
.LBBd6c1ba5_23:
	xorb	$1, %al
	orb	%dl, %al
	jne	.LBBd6c1ba5_25
	movss	.LCPId6c1ba5_3(%rip), %xmm0
	jmp	.LBBd6c1ba5_25
.LBBd6c1ba5_1:
	ud2
.Lfunc_endd6c1ba5:
	.size	ckd_drive_drive_Drive_end_elsewhere_808c45e55832e08b_.1a20373, .Lfunc_endd6c1ba5-ckd_drive_drive_Drive_end_elsewhere_808c45e55832e08b_.1a20373
	.section	".rodata.ckd_drive::drive::Drive::end_elsewhere::<#808c45e55832e08b>","a",@progbits
	.p2align	2, 0x0
.LJTId6c1ba5_0:
	.long	.LBBd6c1ba5_1-.LJTId6c1ba5_0
	.long	.LBBd6c1ba5_2-.LJTId6c1ba5_0
	.long	.LBBd6c1ba5_3-.LJTId6c1ba5_0
	.long	.LBBd6c1ba5_4-.LJTId6c1ba5_0
	.long	.LBBd6c1ba5_1-.LJTId6c1ba5_0
	.long	.LBBd6c1ba5_5-.LJTId6c1ba5_0
.LJTId6c1ba5_1:
	.long	.LBBd6c1ba5_6-.LJTId6c1ba5_1
	.long	.LBBd6c1ba5_31-.LJTId6c1ba5_1
	.long	.LBBd6c1ba5_33-.LJTId6c1ba5_1
	.long	.LBBd6c1ba5_12-.LJTId6c1ba5_1
	.long	.LBBd6c1ba5_33-.LJTId6c1ba5_1
	.long	.LBBd6c1ba5_32-.LJTId6c1ba5_1
	.long	.LBBd6c1ba5_9-.LJTId6c1ba5_1
.LJTId6c1ba5_2:
	.long	.LBBd6c1ba5_25-.LJTId6c1ba5_2
	.long	.LBBd6c1ba5_25-.LJTId6c1ba5_2
	.long	.LBBd6c1ba5_25-.LJTId6c1ba5_2
	.long	.LBBd6c1ba5_25-.LJTId6c1ba5_2
	.long	.LBBd6c1ba5_25-.LJTId6c1ba5_2
	.long	.LBBd6c1ba5_25-.LJTId6c1ba5_2
	.long	.LBBd6c1ba5_25-.LJTId6c1ba5_2
	.long	.LBBd6c1ba5_23-.LJTId6c1ba5_2
	.long	.LBBd6c1ba5_26-.LJTId6c1ba5_2
	.long	.LBBd6c1ba5_25-.LJTId6c1ba5_2
	.long	.LBBd6c1ba5_25-.LJTId6c1ba5_2
	.long	.LBBd6c1ba5_28-.LJTId6c1ba5_2
	.long	.LBBd6c1ba5_25-.LJTId6c1ba5_2
	.long	.LBBd6c1ba5_25-.LJTId6c1ba5_2
	.long	.LBBd6c1ba5_25-.LJTId6c1ba5_2
	.long	.LBBd6c1ba5_25-.LJTId6c1ba5_2
	.long	.LBBd6c1ba5_25-.LJTId6c1ba5_2
	.long	.LBBd6c1ba5_25-.LJTId6c1ba5_2
	.long	.LBBd6c1ba5_25-.LJTId6c1ba5_2
	.long	.LBBd6c1ba5_25-.LJTId6c1ba5_2
	.long	.LBBd6c1ba5_25-.LJTId6c1ba5_2
	.long	.LBBd6c1ba5_25-.LJTId6c1ba5_2
	.long	.LBBd6c1ba5_25-.LJTId6c1ba5_2
	.long	.LBBd6c1ba5_25-.LJTId6c1ba5_2
	.long	.LBBd6c1ba5_25-.LJTId6c1ba5_2
	.long	.LBBd6c1ba5_25-.LJTId6c1ba5_2

	.section	".text.ckd_drive::drive::Drive::give::<#808c45e55832e08b>","ax",@progbits
	.p2align	4
	.type	ckd_drive_drive_Drive_give_808c45e55832e08b_.3403fdf,@function
ckd_drive_drive_Drive_give_808c45e55832e08b_.3403fdf:
	pushq	%r14
	pushq	%rbx
	pushq	%rax
	cmpb	$5, 1025(%rdi)
	jne	.LBB01f3c9b_50
	movzbl	984(%rdi), %eax
	leaq	.LJTI01f3c9b_0(%rip), %rcx
	movslq	(%rcx,%rax,4), %rax
	addq	%rcx, %rax
	jmpq	*%rax
.LBB01f3c9b_2:
	movq	968(%rdi), %rcx
	leaq	(%rdi,%rcx), %rax
	addq	$985, %rax
	movq	%rsi, %r8
	subq	%rax, %r8
	cmpq	%rdx, %r8
	jae	.LBB01f3c9b_9
	cmpq	$4, %rdx
	jb	.LBB01f3c9b_4
	movq	%rsi, %r9
	subq	%rcx, %r9
	subq	%rdi, %r9
	addq	$-985, %r9
	cmpq	$32, %r9
	jae	.LBB01f3c9b_16
.LBB01f3c9b_4:
	xorl	%r8d, %r8d
.LBB01f3c9b_39:
	movq	%rdx, %r10
	movq	%r8, %r9
	andq	$3, %r10
	je	.LBB01f3c9b_42
	movq	%r8, %r9
	.p2align	4
.LBB01f3c9b_41:
	movzbl	(%rax,%r9), %r11d
	movb	%r11b, (%rsi,%r9)
	incq	%r9
	decq	%r10
	jne	.LBB01f3c9b_41
.LBB01f3c9b_42:
	subq	%rdx, %r8
	cmpq	$-4, %r8
	ja	.LBB01f3c9b_45
	leaq	(%rcx,%rdi), %rax
	addq	$988, %rax
	.p2align	4
.LBB01f3c9b_44:
	movzbl	-3(%rax,%r9), %ecx
	movb	%cl, (%rsi,%r9)
	movzbl	-2(%rax,%r9), %ecx
	movb	%cl, 1(%rsi,%r9)
	movzbl	-1(%rax,%r9), %ecx
	movb	%cl, 2(%rsi,%r9)
	movzbl	(%rax,%r9), %ecx
	movb	%cl, 3(%rsi,%r9)
	addq	$4, %r9
	cmpq	%r9, %rdx
	jne	.LBB01f3c9b_44
	jmp	.LBB01f3c9b_45
.LBB01f3c9b_5:
	movq	744(%rdi), %rcx
	movq	992(%rdi), %r8
	leaq	(%r8,%rdx), %rax
	movq	%rax, 992(%rdi)
	subq	%rdx, 1000(%rdi)
	addq	%rdx, 968(%rdi)
	subq	%rdx, 976(%rdi)
	leaq	(%rcx,%r8), %rax
	movq	%rsi, %rdi
	subq	%rax, %rdi
	cmpq	%rdx, %rdi
	jae	.LBB01f3c9b_8
	cmpq	$4, %rdx
	jb	.LBB01f3c9b_7
	cmpq	$32, %rdi
	jae	.LBB01f3c9b_14
.LBB01f3c9b_7:
	xorl	%edi, %edi
.LBB01f3c9b_25:
	movq	%rdx, %r10
	movq	%rdi, %r9
	andq	$3, %r10
	je	.LBB01f3c9b_28
	movq	%rdi, %r9
	.p2align	4
.LBB01f3c9b_27:
	movzbl	(%rax,%r9), %r11d
	movb	%r11b, (%rsi,%r9)
	incq	%r9
	decq	%r10
	jne	.LBB01f3c9b_27
.LBB01f3c9b_28:
	subq	%rdx, %rdi
	cmpq	$-4, %rdi
	ja	.LBB01f3c9b_31
	leaq	(%r8,%rcx), %rax
	addq	$3, %rax
	.p2align	4
.LBB01f3c9b_30:
	movzbl	-3(%rax,%r9), %ecx
	movb	%cl, (%rsi,%r9)
	movzbl	-2(%rax,%r9), %ecx
	movb	%cl, 1(%rsi,%r9)
	movzbl	-1(%rax,%r9), %ecx
	movb	%cl, 2(%rsi,%r9)
	movzbl	(%rax,%r9), %ecx
	movb	%cl, 3(%rsi,%r9)
	addq	$4, %r9
	cmpq	%r9, %rdx
	jne	.LBB01f3c9b_30
.LBB01f3c9b_31:
	addq	$8, %rsp
	popq	%rbx
	popq	%r14
	retq
.LBB01f3c9b_8:
	movq	%rsi, %rdi
	movq	%rax, %rsi
	addq	$8, %rsp
	popq	%rbx
	popq	%r14
	jmp	memmove@PLT
.LBB01f3c9b_9:
	movq	%rdi, %r14
	movq	%rsi, %rdi
	movq	%rax, %rsi
	movq	%rdx, %rbx
	callq	memmove@PLT
	movq	%r14, %rdi
	movq	%rbx, %rdx
.LBB01f3c9b_45:
	cmpb	$5, 1025(%rdi)
	jne	.LBB01f3c9b_50
	movzbl	984(%rdi), %eax
	leaq	.LJTI01f3c9b_1(%rip), %rcx
	movslq	(%rcx,%rax,4), %rax
	addq	%rcx, %rax
	jmpq	*%rax
.LBB01f3c9b_47:
	movq	976(%rdi), %rax
	jmp	.LBB01f3c9b_49
.LBB01f3c9b_48:
	movq	976(%rdi), %rax
	addq	%rdx, 992(%rdi)
	subq	%rdx, 1000(%rdi)
.LBB01f3c9b_49:
	addq	%rdx, 968(%rdi)
	subq	%rdx, %rax
	movq	%rax, 976(%rdi)
	addq	$8, %rsp
	popq	%rbx
	popq	%r14
	retq
.LBB01f3c9b_14:
	cmpq	$32, %rdx
	jae	.LBB01f3c9b_18
	xorl	%edi, %edi
	jmp	.LBB01f3c9b_22
.LBB01f3c9b_16:
	cmpq	$32, %rdx
	jae	.LBB01f3c9b_32
	xorl	%r8d, %r8d
	jmp	.LBB01f3c9b_36
.LBB01f3c9b_18:
	movq	%rdx, %rdi
	andq	$-32, %rdi
	leaq	(%r8,%rcx), %r9
	addq	$16, %r9
	xorl	%r10d, %r10d
	.p2align	4
.LBB01f3c9b_19:
	movups	-16(%r9,%r10), %xmm0
	movups	(%r9,%r10), %xmm1
	movups	%xmm0, (%rsi,%r10)
	movups	%xmm1, 16(%rsi,%r10)
	addq	$32, %r10
	cmpq	%r10, %rdi
	jne	.LBB01f3c9b_19
	cmpq	%rdi, %rdx
	je	.LBB01f3c9b_31
	testb	$28, %dl
	je	.LBB01f3c9b_25
.LBB01f3c9b_22:
	movq	%rdi, %r9
	movq	%rdx, %rdi
	andq	$-4, %rdi
	.p2align	4
.LBB01f3c9b_23:
	movl	(%rax,%r9), %r10d
	movl	%r10d, (%rsi,%r9)
	addq	$4, %r9
	cmpq	%r9, %rdi
	jne	.LBB01f3c9b_23
	cmpq	%rdi, %rdx
	je	.LBB01f3c9b_31
	jmp	.LBB01f3c9b_25
.LBB01f3c9b_32:
	movq	%rdx, %r8
	andq	$-32, %r8
	leaq	(%rcx,%rdi), %r9
	addq	$1001, %r9
	xorl	%r10d, %r10d
	.p2align	4
.LBB01f3c9b_33:
	movups	-16(%r9,%r10), %xmm0
	movups	(%r9,%r10), %xmm1
	movups	%xmm0, (%rsi,%r10)
	movups	%xmm1, 16(%rsi,%r10)
	addq	$32, %r10
	cmpq	%r10, %r8
	jne	.LBB01f3c9b_33
	cmpq	%r8, %rdx
	je	.LBB01f3c9b_45
	testb	$28, %dl
	je	.LBB01f3c9b_39
.LBB01f3c9b_36:
	movq	%r8, %r9
	movq	%rdx, %r8
	andq	$-4, %r8
	.p2align	4
.LBB01f3c9b_37:
	movl	(%rax,%r9), %r10d
	movl	%r10d, (%rsi,%r9)
	addq	$4, %r9
	cmpq	%r9, %r8
	jne	.LBB01f3c9b_37
	cmpq	%r8, %rdx
	je	.LBB01f3c9b_45
	jmp	.LBB01f3c9b_39
.LBB01f3c9b_50:
	ud2
.Lfunc_end01f3c9b:
	.size	ckd_drive_drive_Drive_give_808c45e55832e08b_.3403fdf, .Lfunc_end01f3c9b-ckd_drive_drive_Drive_give_808c45e55832e08b_.3403fdf
	.section	".rodata.ckd_drive::drive::Drive::give::<#808c45e55832e08b>","a",@progbits
	.p2align	2, 0x0
.LJTI01f3c9b_0:
	.long	.LBB01f3c9b_2-.LJTI01f3c9b_0
	.long	.LBB01f3c9b_50-.LJTI01f3c9b_0
	.long	.LBB01f3c9b_5-.LJTI01f3c9b_0
	.long	.LBB01f3c9b_50-.LJTI01f3c9b_0
	.long	.LBB01f3c9b_50-.LJTI01f3c9b_0
	.long	.LBB01f3c9b_50-.LJTI01f3c9b_0
	.long	.LBB01f3c9b_50-.LJTI01f3c9b_0
.LJTI01f3c9b_1:
	.long	.LBB01f3c9b_47-.LJTI01f3c9b_1
	.long	.LBB01f3c9b_50-.LJTI01f3c9b_1
	.long	.LBB01f3c9b_48-.LJTI01f3c9b_1
	.long	.LBB01f3c9b_50-.LJTI01f3c9b_1
	.long	.LBB01f3c9b_50-.LJTI01f3c9b_1
	.long	.LBB01f3c9b_50-.LJTI01f3c9b_1
	.long	.LBB01f3c9b_50-.LJTI01f3c9b_1

	.section	".text.ckd_drive::drive::Drive::look_for_area::<#808c45e55832e08b>","ax",@progbits
	.p2align	4
	.type	ckd_drive_drive_Drive_look_for_area_808c45e55832e08b_.a55b112,@function
ckd_drive_drive_Drive_look_for_area_808c45e55832e08b_.a55b112:
	cmpb	$4, 1025(%rdi)
	jne	.LBB53d1cf7_80
	pushq	%rbp
	pushq	%r14
	pushq	%rbx
	subq	$32, %rsp
	movq	%rdi, %rbx
	leaq	1024(%rdi), %rsi
	movzbl	936(%rdi), %eax
	leaq	.LJTI53d1cf7_0(%rip), %rcx
	movslq	(%rcx,%rax,4), %rax
	addq	%rcx, %rax
	jmpq	*%rax
.LBB53d1cf7_2:
	movq	%rbx, %rdi
	callq	ckd_drive_job_Job_look_elsewhere_808c45e55832e08b_.81cf5b5
	movb	%al, 1025(%rbx)
	cmpb	$3, %al
	je	.LBB53d1cf7_42
.LBB53d1cf7_3:
	movzbl	%al, %eax
	cmpl	$5, %eax
	jne	.LBB53d1cf7_76
	movq	976(%rbx), %rdx
.LBB53d1cf7_5:
	xorl	%eax, %eax
	jmp	.LBB53d1cf7_78
.LBB53d1cf7_6:
	cmpb	$1, 944(%rbx)
	jne	.LBB53d1cf7_43
	cmpb	$0, 952(%rbx)
	je	.LBB53d1cf7_43
	movl	$1, %eax
	cmpb	$1, 792(%rbx)
	jne	.LBB53d1cf7_50
	movq	960(%rbx), %rcx
	cmpq	%rcx, 800(%rbx)
	jbe	.LBB53d1cf7_50
	movq	744(%rbx), %rax
	movq	768(%rbx), %rdx
	movl	(%rdx,%rcx,4), %ecx
	movzbl	5(%rax,%rcx), %esi
	movzwl	6(%rax,%rcx), %edi
	movl	%edi, %eax
	rolw	$8, %ax
	movzwl	%ax, %edx
	addq	%rsi, %rcx
	addq	$8, %rcx
	xorl	%eax, %eax
	testw	%di, %di
	sete	%al
	jmp	.LBB53d1cf7_51
.LBB53d1cf7_11:
	movq	$0, 968(%rbx)
	movq	$8, 976(%rbx)
	movb	$1, 984(%rbx)
	xorps	%xmm0, %xmm0
	movups	%xmm0, 985(%rbx)
	movups	%xmm0, 1001(%rbx)
	movq	$0, 1016(%rbx)
	movl	$8, %edx
	movb	$5, 1025(%rbx)
	jmp	.LBB53d1cf7_5
.LBB53d1cf7_12:
	movq	$0, 968(%rbx)
	movq	$6, 976(%rbx)
	movb	$1, 984(%rbx)
	xorps	%xmm0, %xmm0
	movups	%xmm0, 985(%rbx)
	movups	%xmm0, 1001(%rbx)
	movq	$0, 1016(%rbx)
	movl	$6, %edx
	movb	$5, 1025(%rbx)
	jmp	.LBB53d1cf7_5
.LBB53d1cf7_13:
	movzwl	864(%rbx), %eax
	movzwl	866(%rbx), %ecx
	cmpb	$0, 704(%rbx)
	movl	$10, %edx
	movl	$20, %ebp
	cmovel	%edx, %ebp
	imull	%eax, %ebp
	addl	%ecx, %ebp
	cmpb	$1, 848(%rbx)
	jne	.LBB53d1cf7_15
	cmpl	%ebp, 852(%rbx)
	je	.LBB53d1cf7_16
.LBB53d1cf7_15:
	movl	$0, 848(%rbx)
	movl	%ebp, 852(%rbx)
	leaq	744(%rbx), %rdi
	movq	%rsi, %r14
	movq	%rbx, %rsi
	movl	%ebp, %edx
	callq	ckd_slot_buffer_TrackBuffer_load_808c45e55832e08b_.5d2ea6a
	movq	%r14, %rsi
	movl	$1, 848(%rbx)
	movl	%ebp, 852(%rbx)
.LBB53d1cf7_16:
	testb	$1, 792(%rbx)
	je	.LBB53d1cf7_40
	movzbl	872(%rbx), %ecx
	movzbl	880(%rbx), %edx
	movq	888(%rbx), %rax
	movq	800(%rbx), %rdi
	xorb	$1, %cl
	xorb	$1, %dl
	leaq	1(%rax), %r8
	cmpq	%rdi, %rax
	cmovaeq	%rdi, %r8
	xorl	%eax, %eax
	orb	%cl, %dl
	cmoveq	%r8, %rax
	movzbl	704(%rbx), %ecx
	xorps	%xmm0, %xmm0
	movups	%xmm0, 16(%rsp)
	cmpq	%rdi, %rax
	jae	.LBB53d1cf7_44
	movq	$1, 944(%rbx)
	movw	$1, 952(%rbx)
	movq	%rax, 960(%rbx)
.LBB53d1cf7_19:
	cmpq	%rax, 800(%rbx)
	jbe	.LBB53d1cf7_62
	movq	768(%rbx), %rcx
	movl	(%rcx,%rax,4), %eax
	movl	$5, %edx
	jmp	.LBB53d1cf7_63
.LBB53d1cf7_21:
	movzbl	704(%rbx), %eax
	movzwl	864(%rbx), %ecx
	movzwl	866(%rbx), %edx
	testq	%rax, %rax
	movl	$10, %edi
	movl	$20, %ebp
	cmovel	%edi, %ebp
	imull	%ecx, %ebp
	addl	%edx, %ebp
	cmpb	$1, 848(%rbx)
	jne	.LBB53d1cf7_23
	cmpl	%ebp, 852(%rbx)
	je	.LBB53d1cf7_24
.LBB53d1cf7_23:
	movl	$0, 848(%rbx)
	movl	%ebp, 852(%rbx)
	leaq	744(%rbx), %rdi
	movq	%rsi, %r14
	movq	%rbx, %rsi
	movl	%ebp, %edx
	callq	ckd_slot_buffer_TrackBuffer_load_808c45e55832e08b_.5d2ea6a
	movq	%r14, %rsi
	movl	$1, 848(%rbx)
	movl	%ebp, 852(%rbx)
	movq	704(%rbx), %rax
.LBB53d1cf7_24:
	testb	$1, 792(%rbx)
	je	.LBB53d1cf7_40
	movzbl	872(%rbx), %edi
	movzbl	880(%rbx), %r8d
	movq	888(%rbx), %rcx
	movq	800(%rbx), %rdx
	xorb	$1, %dil
	xorb	$1, %r8b
	orb	%dil, %r8b
	setne	%dil
	jne	.LBB53d1cf7_27
	cmpb	$2, 881(%rbx)
	jne	.LBB53d1cf7_28
.LBB53d1cf7_27:
	cmpq	$1, %rdx
	movq	%rdx, %r8
	adcq	$0, %r8
	leaq	1(%rcx), %r9
	cmpq	%rdx, %rcx
	cmovbq	%r9, %r8
	testb	%dil, %dil
	movl	$1, %ecx
	cmoveq	%r8, %rcx
.LBB53d1cf7_28:
	xorps	%xmm0, %xmm0
	movups	%xmm0, 16(%rsp)
	cmpq	%rdx, %rcx
	jae	.LBB53d1cf7_46
	movq	$1, 944(%rbx)
	movw	$513, 952(%rbx)
	movq	%rcx, 960(%rbx)
.LBB53d1cf7_30:
	cmpq	%rcx, 800(%rbx)
	jbe	.LBB53d1cf7_72
	movq	744(%rbx), %rax
	movq	768(%rbx), %rdx
	movl	(%rdx,%rcx,4), %ecx
	movzbl	5(%rax,%rcx), %esi
	movzwl	6(%rax,%rcx), %edi
	movl	%edi, %eax
	rolw	$8, %ax
	movzwl	%ax, %edx
	leaq	(%rcx,%rsi), %rax
	addq	$8, %rax
	xorl	%ecx, %ecx
	testw	%di, %di
	sete	%cl
	jmp	.LBB53d1cf7_73
.LBB53d1cf7_32:
	movzwl	864(%rbx), %eax
	movzwl	866(%rbx), %ecx
	cmpb	$0, 704(%rbx)
	movl	$10, %edx
	movl	$20, %ebp
	cmovel	%edx, %ebp
	imull	%eax, %ebp
	addl	%ecx, %ebp
	cmpb	$1, 848(%rbx)
	jne	.LBB53d1cf7_34
	cmpl	%ebp, 852(%rbx)
	je	.LBB53d1cf7_35
.LBB53d1cf7_34:
	movl	$0, 848(%rbx)
	movl	%ebp, 852(%rbx)
	leaq	744(%rbx), %rdi
	movq	%rsi, %r14
	movq	%rbx, %rsi
	movl	%ebp, %edx
	callq	ckd_slot_buffer_TrackBuffer_load_808c45e55832e08b_.5d2ea6a
	movq	%r14, %rsi
	movl	$1, 848(%rbx)
	movl	%ebp, 852(%rbx)
.LBB53d1cf7_35:
	testb	$1, 792(%rbx)
	je	.LBB53d1cf7_40
	movzbl	872(%rbx), %eax
	movzbl	880(%rbx), %ecx
	movq	888(%rbx), %rdx
	movq	800(%rbx), %rdi
	xorb	$1, %al
	xorb	$1, %cl
	cmpq	$1, %rdi
	movq	%rdi, %r8
	adcq	$0, %r8
	leaq	1(%rdx), %r9
	cmpq	%rdi, %rdx
	cmovbq	%r9, %r8
	orb	%al, %cl
	movl	$1, %eax
	cmoveq	%r8, %rax
	movzbl	704(%rbx), %ecx
	xorps	%xmm0, %xmm0
	movups	%xmm0, 16(%rsp)
	cmpq	%rdi, %rax
	jae	.LBB53d1cf7_48
	movq	$1, 944(%rbx)
	movw	$1, 952(%rbx)
	movq	%rax, 960(%rbx)
.LBB53d1cf7_38:
	cmpq	%rax, 800(%rbx)
	jbe	.LBB53d1cf7_72
	movq	744(%rbx), %rcx
	movq	768(%rbx), %rdx
	movl	(%rdx,%rax,4), %eax
	movzbl	5(%rcx,%rax), %edx
	movzwl	6(%rcx,%rax), %esi
	movl	%esi, %ecx
	rolw	$8, %cx
	movzwl	%cx, %ecx
	addq	%rcx, %rdx
	addq	$8, %rdx
	xorl	%ecx, %ecx
	testw	%si, %si
	sete	%cl
	jmp	.LBB53d1cf7_73
.LBB53d1cf7_40:
	orw	$2050, 868(%rbx)
.LBB53d1cf7_41:
	movb	$3, 1025(%rbx)
.LBB53d1cf7_42:
	movb	$2, %al
	jmp	.LBB53d1cf7_77
.LBB53d1cf7_43:
	xorl	%ecx, %ecx
	xorl	%edx, %edx
	xorl	%eax, %eax
	jmp	.LBB53d1cf7_51
.LBB53d1cf7_44:
	cmpb	$1, 937(%rbx)
	jne	.LBB53d1cf7_52
	leaq	864(%rbx), %rdx
	movzbl	%cl, %eax
	leaq	8(%rsp), %rdi
	movq	%rsi, %r14
	movl	%eax, %esi
	callq	ckd_command_look_next_head.d94fc1a
	movq	%r14, %rsi
	movzbl	16(%rsp), %ecx
	movzbl	17(%rsp), %edx
	movq	24(%rsp), %rax
	movzbl	8(%rsp), %edi
	leaq	.LJTI53d1cf7_3(%rip), %r8
	movslq	(%r8,%rdi,4), %rdi
	addq	%r8, %rdi
	jmpq	*%rdi
.LBB53d1cf7_46:
	cmpb	$1, 937(%rbx)
	jne	.LBB53d1cf7_54
	leaq	864(%rbx), %rdx
	movzbl	%al, %eax
	leaq	8(%rsp), %rdi
	movq	%rsi, %r14
	movl	%eax, %esi
	callq	ckd_command_look_next_head.d94fc1a
	movq	%r14, %rsi
	movzbl	16(%rsp), %eax
	movzbl	17(%rsp), %edx
	movq	24(%rsp), %rcx
	movzbl	8(%rsp), %edi
	leaq	.LJTI53d1cf7_2(%rip), %r8
	movslq	(%r8,%rdi,4), %rdi
	addq	%r8, %rdi
	jmpq	*%rdi
.LBB53d1cf7_48:
	cmpb	$1, 937(%rbx)
	jne	.LBB53d1cf7_56
	leaq	864(%rbx), %rdx
	movzbl	%cl, %eax
	leaq	8(%rsp), %rdi
	movq	%rsi, %r14
	movl	%eax, %esi
	callq	ckd_command_look_next_head.d94fc1a
	movq	%r14, %rsi
	movzbl	16(%rsp), %ecx
	movzbl	17(%rsp), %edx
	movq	24(%rsp), %rax
	movzbl	8(%rsp), %edi
	leaq	.LJTI53d1cf7_1(%rip), %r8
	movslq	(%r8,%rdi,4), %rdi
	addq	%r8, %rdi
	jmpq	*%rdi
.LBB53d1cf7_50:
	xorl	%ecx, %ecx
	xorl	%edx, %edx
.LBB53d1cf7_51:
	movq	$0, 968(%rbx)
	movq	%rdx, 976(%rbx)
	movb	$4, 984(%rbx)
	movl	$0, 985(%rbx)
	movl	$0, 988(%rbx)
	movq	%rcx, 992(%rbx)
	movq	%rdx, 1000(%rbx)
	movq	%rax, 1008(%rbx)
	movq	$0, 1016(%rbx)
	movb	$5, 1025(%rbx)
	jmp	.LBB53d1cf7_5
.LBB53d1cf7_52:
	cmpb	$0, 928(%rbx)
	je	.LBB53d1cf7_58
	orb	$8, 868(%rbx)
	movb	$3, %al
	xorl	%ecx, %ecx
	jmp	.LBB53d1cf7_59
.LBB53d1cf7_54:
	cmpb	$0, 928(%rbx)
	je	.LBB53d1cf7_64
	orb	$8, 868(%rbx)
	movb	$3, %cl
	xorl	%eax, %eax
	jmp	.LBB53d1cf7_65
.LBB53d1cf7_56:
	cmpb	$0, 928(%rbx)
	je	.LBB53d1cf7_68
	orb	$8, 868(%rbx)
	movb	$3, %al
	xorl	%ecx, %ecx
	jmp	.LBB53d1cf7_69
.LBB53d1cf7_58:
	movb	$1, %cl
	movb	$1, %al
.LBB53d1cf7_59:
	movq	$0, 872(%rbx)
	movw	$0, 880(%rbx)
	movq	$0, 888(%rbx)
	movb	%cl, 928(%rbx)
	xorl	%ecx, %ecx
	movzbl	%al, %eax
	leaq	.LJTI53d1cf7_3(%rip), %rdx
	movslq	(%rdx,%rax,4), %rdi
	addq	%rdx, %rdi
	xorl	%edx, %edx
	xorl	%eax, %eax
	jmpq	*%rdi
.LBB53d1cf7_60:
	movq	$1, 944(%rbx)
	movb	%cl, 952(%rbx)
	movb	%dl, 953(%rbx)
	movq	%rax, 960(%rbx)
	testb	%cl, %cl
	je	.LBB53d1cf7_62
	cmpb	$1, 792(%rbx)
	je	.LBB53d1cf7_19
.LBB53d1cf7_62:
	xorl	%eax, %eax
	xorl	%edx, %edx
.LBB53d1cf7_63:
	movq	$0, 968(%rbx)
	movq	%rdx, 976(%rbx)
	movb	$3, 984(%rbx)
	movl	$0, 985(%rbx)
	movl	$0, 988(%rbx)
	movq	%rax, 992(%rbx)
	movq	%rdx, 1000(%rbx)
	movq	$1, 1008(%rbx)
	movq	$0, 1016(%rbx)
	movb	$5, 1025(%rbx)
	jmp	.LBB53d1cf7_5
.LBB53d1cf7_64:
	movb	$1, %al
	movb	$1, %cl
.LBB53d1cf7_65:
	movq	$0, 872(%rbx)
	movw	$0, 880(%rbx)
	movq	$0, 888(%rbx)
	movb	%al, 928(%rbx)
	xorl	%eax, %eax
	movzbl	%cl, %ecx
	leaq	.LJTI53d1cf7_2(%rip), %rdx
	movslq	(%rdx,%rcx,4), %rdi
	addq	%rdx, %rdi
	xorl	%edx, %edx
	xorl	%ecx, %ecx
	jmpq	*%rdi
.LBB53d1cf7_66:
	movq	$1, 944(%rbx)
	movb	%al, 952(%rbx)
	movb	%dl, 953(%rbx)
	movq	%rcx, 960(%rbx)
	testb	%al, %al
	je	.LBB53d1cf7_79
	cmpb	$1, 792(%rbx)
	je	.LBB53d1cf7_30
	jmp	.LBB53d1cf7_72
.LBB53d1cf7_68:
	movb	$1, %cl
	movb	$1, %al
.LBB53d1cf7_69:
	movq	$0, 872(%rbx)
	movw	$0, 880(%rbx)
	movq	$0, 888(%rbx)
	movb	%cl, 928(%rbx)
	xorl	%ecx, %ecx
	movzbl	%al, %eax
	leaq	.LJTI53d1cf7_1(%rip), %rdx
	movslq	(%rdx,%rax,4), %rdi
	addq	%rdx, %rdi
	xorl	%edx, %edx
	xorl	%eax, %eax
	jmpq	*%rdi
.LBB53d1cf7_70:
	movq	$1, 944(%rbx)
	movb	%cl, 952(%rbx)
	movb	%dl, 953(%rbx)
	movq	%rax, 960(%rbx)
	testb	%cl, %cl
	je	.LBB53d1cf7_79
	cmpb	$1, 792(%rbx)
	je	.LBB53d1cf7_38
.LBB53d1cf7_72:
	movl	$1, %ecx
	xorl	%eax, %eax
	xorl	%edx, %edx
.LBB53d1cf7_73:
	movq	$0, 968(%rbx)
	movq	%rdx, 976(%rbx)
	movb	$2, 984(%rbx)
	movl	$0, 985(%rbx)
	movl	$0, 988(%rbx)
	movq	%rax, 992(%rbx)
	movq	%rdx, 1000(%rbx)
	movq	%rcx, 1008(%rbx)
	movq	$0, 1016(%rbx)
	movb	$5, 1025(%rbx)
	jmp	.LBB53d1cf7_5
.LBB53d1cf7_74:
	movzwl	866(%rbx), %ecx
	incl	%ecx
	movzwl	864(%rbx), %edx
	movq	%rbx, %rdi
	callq	ckd_drive_job_Job_leave_808c45e55832e08b_.db7d905
	movl	%eax, %ecx
	movb	$4, %al
	subb	%cl, %al
	movb	%al, 1025(%rbx)
	cmpb	$3, %al
	jne	.LBB53d1cf7_3
	jmp	.LBB53d1cf7_42
.LBB53d1cf7_75:
	movb	$4, 1025(%rbx)
.LBB53d1cf7_76:
	movb	$1, %al
.LBB53d1cf7_77:
	xorl	%edx, %edx
.LBB53d1cf7_78:
	addq	$32, %rsp
	popq	%rbx
	popq	%r14
	popq	%rbp
	retq
.LBB53d1cf7_79:
	xorl	%eax, %eax
	xorl	%edx, %edx
	xorl	%ecx, %ecx
	jmp	.LBB53d1cf7_73
.LBB53d1cf7_80:
	ud2
.Lfunc_end53d1cf7:
	.size	ckd_drive_drive_Drive_look_for_area_808c45e55832e08b_.a55b112, .Lfunc_end53d1cf7-ckd_drive_drive_Drive_look_for_area_808c45e55832e08b_.a55b112
	.section	".rodata.ckd_drive::drive::Drive::look_for_area::<#808c45e55832e08b>","a",@progbits
	.p2align	2, 0x0
.LJTI53d1cf7_0:
	.long	.LBB53d1cf7_2-.LJTI53d1cf7_0
	.long	.LBB53d1cf7_2-.LJTI53d1cf7_0
	.long	.LBB53d1cf7_12-.LJTI53d1cf7_0
	.long	.LBB53d1cf7_2-.LJTI53d1cf7_0
	.long	.LBB53d1cf7_2-.LJTI53d1cf7_0
	.long	.LBB53d1cf7_2-.LJTI53d1cf7_0
	.long	.LBB53d1cf7_2-.LJTI53d1cf7_0
	.long	.LBB53d1cf7_2-.LJTI53d1cf7_0
	.long	.LBB53d1cf7_13-.LJTI53d1cf7_0
	.long	.LBB53d1cf7_2-.LJTI53d1cf7_0
	.long	.LBB53d1cf7_2-.LJTI53d1cf7_0
	.long	.LBB53d1cf7_2-.LJTI53d1cf7_0
	.long	.LBB53d1cf7_2-.LJTI53d1cf7_0
	.long	.LBB53d1cf7_2-.LJTI53d1cf7_0
	.long	.LBB53d1cf7_2-.LJTI53d1cf7_0
	.long	.LBB53d1cf7_2-.LJTI53d1cf7_0
	.long	.LBB53d1cf7_2-.LJTI53d1cf7_0
	.long	.LBB53d1cf7_2-.LJTI53d1cf7_0
	.long	.LBB53d1cf7_21-.LJTI53d1cf7_0
	.long	.LBB53d1cf7_2-.LJTI53d1cf7_0
	.long	.LBB53d1cf7_32-.LJTI53d1cf7_0
	.long	.LBB53d1cf7_2-.LJTI53d1cf7_0
	.long	.LBB53d1cf7_2-.LJTI53d1cf7_0
	.long	.LBB53d1cf7_11-.LJTI53d1cf7_0
	.long	.LBB53d1cf7_6-.LJTI53d1cf7_0
	.long	.LBB53d1cf7_2-.LJTI53d1cf7_0
.LJTI53d1cf7_1:
	.long	.LBB53d1cf7_70-.LJTI53d1cf7_1
	.long	.LBB53d1cf7_75-.LJTI53d1cf7_1
	.long	.LBB53d1cf7_74-.LJTI53d1cf7_1
	.long	.LBB53d1cf7_41-.LJTI53d1cf7_1
.LJTI53d1cf7_2:
	.long	.LBB53d1cf7_66-.LJTI53d1cf7_2
	.long	.LBB53d1cf7_75-.LJTI53d1cf7_2
	.long	.LBB53d1cf7_74-.LJTI53d1cf7_2
	.long	.LBB53d1cf7_41-.LJTI53d1cf7_2
.LJTI53d1cf7_3:
	.long	.LBB53d1cf7_60-.LJTI53d1cf7_3
	.long	.LBB53d1cf7_75-.LJTI53d1cf7_3
	.long	.LBB53d1cf7_74-.LJTI53d1cf7_3
	.long	.LBB53d1cf7_41-.LJTI53d1cf7_3

	.section	".text.ckd_drive::look::ready","ax",@progbits
	.p2align	4
	.type	ckd_drive_look_ready.f21f60a,@function
ckd_drive_look_ready.f21f60a:
	movzbl	(%rdx), %ecx
	movups	16(%rdx), %xmm0
	movq	16(%rdx), %r8
	movq	32(%rdx), %rax
	movq	8(%rdx), %r9
	movq	%r9, -9(%rsp)
	movq	1(%rdx), %rdx
	movq	%rdx, -16(%rsp)
	movzbl	%cl, %edx
	leal	-2(%rdx), %r9d
	cmpl	$5, %r9d
	jae	.LBB230bc24_1
.LBB230bc24_3:
	movq	$0, (%rsi)
	movq	%r8, 8(%rsi)
	movb	%cl, 16(%rsi)
	movq	-16(%rsp), %rcx
	movq	-9(%rsp), %rdx
	movq	%rcx, 17(%rsi)
	movq	%rdx, 24(%rsi)
	movups	%xmm0, 32(%rsi)
	movq	%rax, 48(%rsi)
	retq
.LBB230bc24_1:
	movl	$6, %r8d
	testl	%edx, %edx
	je	.LBB230bc24_3
	movzbl	%dil, %edx
	leaq	.Lswitch.table.dasd_drive_do.160(%rip), %rdi
	movq	(%rdi,%rdx,8), %r8
	jmp	.LBB230bc24_3
.Lfunc_end230bc24:
	.size	ckd_drive_look_ready.f21f60a, .Lfunc_end230bc24-ckd_drive_look_ready.f21f60a

	.section	".text.ckd_slot::buffer::TrackBuffer::load::<#808c45e55832e08b>","ax",@progbits
	.p2align	4
	.type	ckd_slot_buffer_TrackBuffer_load_808c45e55832e08b_.5d2ea6a,@function
ckd_slot_buffer_TrackBuffer_load_808c45e55832e08b_.5d2ea6a:
	pushq	%rbp
	pushq	%r15
	pushq	%r14
	pushq	%r13
	pushq	%r12
	pushq	%rbx
	subq	$24, %rsp
	movq	%rsi, %r12
	movq	%rdi, %r13
	movq	(%rdi), %r15
	movq	8(%rdi), %r14
	movl	708(%rsi), %ebx
	leaq	712(%rsi), %rdi
	movl	$8, %esi
	callq	ckd_image_files_place_of.2003b0d
	movl	%edx, %ecx
	imulq	%rbx, %rcx
	leaq	512(%rcx), %rsi
	cmpq	$6, %rax
	ja	.LBBefd557b_18
	leaq	.LJTIefd557b_0(%rip), %rdx
	movslq	(%rdx,%rax,4), %rax
	addq	%rdx, %rax
	jmpq	*%rax
.LBBefd557b_2:
	cmpb	$1, (%r12)
	jne	.LBBefd557b_184
	movq	8(%r12), %rax
	addq	%rax, %rsi
	movq	%r15, %rdx
	subq	%rsi, %rdx
	cmpq	%r14, %rdx
	jae	.LBBefd557b_34
	cmpq	$4, %r14
	jb	.LBBefd557b_5
	movq	%r15, %rdi
	subq	%rcx, %rdi
	subq	%rax, %rdi
	addq	$-512, %rdi
	cmpq	$32, %rdi
	jae	.LBBefd557b_72
.LBBefd557b_5:
	xorl	%edx, %edx
.LBBefd557b_139:
	movq	%r14, %r8
	movq	%rdx, %rdi
	andq	$3, %r8
	je	.LBBefd557b_142
	movq	%rdx, %rdi
	.p2align	4
.LBBefd557b_141:
	movzbl	(%rsi,%rdi), %r9d
	movb	%r9b, (%r15,%rdi)
	incq	%rdi
	decq	%r8
	jne	.LBBefd557b_141
.LBBefd557b_142:
	subq	%r14, %rdx
	cmpq	$-4, %rdx
	ja	.LBBefd557b_35
	addq	%rcx, %rax
	addq	$515, %rax
	.p2align	4
.LBBefd557b_144:
	movzbl	-3(%rax,%rdi), %ecx
	movb	%cl, (%r15,%rdi)
	movzbl	-2(%rax,%rdi), %ecx
	movb	%cl, 1(%r15,%rdi)
	movzbl	-1(%rax,%rdi), %ecx
	movb	%cl, 2(%r15,%rdi)
	movzbl	(%rax,%rdi), %ecx
	movb	%cl, 3(%r15,%rdi)
	addq	$4, %rdi
	cmpq	%rdi, %r14
	jne	.LBBefd557b_144
	jmp	.LBBefd557b_35
.LBBefd557b_6:
	cmpb	$1, 352(%r12)
	jne	.LBBefd557b_184
	movq	360(%r12), %rax
	addq	%rax, %rsi
	movq	%r15, %rdx
	subq	%rsi, %rdx
	cmpq	%r14, %rdx
	jae	.LBBefd557b_34
	cmpq	$4, %r14
	jb	.LBBefd557b_9
	movq	%r15, %rdi
	subq	%rcx, %rdi
	subq	%rax, %rdi
	addq	$-512, %rdi
	cmpq	$32, %rdi
	jae	.LBBefd557b_64
.LBBefd557b_9:
	xorl	%edx, %edx
.LBBefd557b_87:
	movq	%r14, %r8
	movq	%rdx, %rdi
	andq	$3, %r8
	je	.LBBefd557b_90
	movq	%rdx, %rdi
	.p2align	4
.LBBefd557b_89:
	movzbl	(%rsi,%rdi), %r9d
	movb	%r9b, (%r15,%rdi)
	incq	%rdi
	decq	%r8
	jne	.LBBefd557b_89
.LBBefd557b_90:
	subq	%r14, %rdx
	cmpq	$-4, %rdx
	ja	.LBBefd557b_35
	addq	%rcx, %rax
	addq	$515, %rax
	.p2align	4
.LBBefd557b_92:
	movzbl	-3(%rax,%rdi), %ecx
	movb	%cl, (%r15,%rdi)
	movzbl	-2(%rax,%rdi), %ecx
	movb	%cl, 1(%r15,%rdi)
	movzbl	-1(%rax,%rdi), %ecx
	movb	%cl, 2(%r15,%rdi)
	movzbl	(%rax,%rdi), %ecx
	movb	%cl, 3(%r15,%rdi)
	addq	$4, %rdi
	cmpq	%rdi, %r14
	jne	.LBBefd557b_92
	jmp	.LBBefd557b_35
.LBBefd557b_10:
	cmpb	$1, 176(%r12)
	jne	.LBBefd557b_184
	movq	184(%r12), %rax
	addq	%rax, %rsi
	movq	%r15, %rdx
	subq	%rsi, %rdx
	cmpq	%r14, %rdx
	jae	.LBBefd557b_34
	cmpq	$4, %r14
	jb	.LBBefd557b_13
	movq	%r15, %rdi
	subq	%rcx, %rdi
	subq	%rax, %rdi
	addq	$-512, %rdi
	cmpq	$32, %rdi
	jae	.LBBefd557b_66
.LBBefd557b_13:
	xorl	%edx, %edx
.LBBefd557b_100:
	movq	%r14, %r8
	movq	%rdx, %rdi
	andq	$3, %r8
	je	.LBBefd557b_103
	movq	%rdx, %rdi
	.p2align	4
.LBBefd557b_102:
	movzbl	(%rsi,%rdi), %r9d
	movb	%r9b, (%r15,%rdi)
	incq	%rdi
	decq	%r8
	jne	.LBBefd557b_102
.LBBefd557b_103:
	subq	%r14, %rdx
	cmpq	$-4, %rdx
	ja	.LBBefd557b_35
	addq	%rcx, %rax
	addq	$515, %rax
	.p2align	4
.LBBefd557b_105:
	movzbl	-3(%rax,%rdi), %ecx
	movb	%cl, (%r15,%rdi)
	movzbl	-2(%rax,%rdi), %ecx
	movb	%cl, 1(%r15,%rdi)
	movzbl	-1(%rax,%rdi), %ecx
	movb	%cl, 2(%r15,%rdi)
	movzbl	(%rax,%rdi), %ecx
	movb	%cl, 3(%r15,%rdi)
	addq	$4, %rdi
	cmpq	%rdi, %r14
	jne	.LBBefd557b_105
	jmp	.LBBefd557b_35
.LBBefd557b_14:
	cmpb	$1, 264(%r12)
	jne	.LBBefd557b_184
	movq	272(%r12), %rax
	addq	%rax, %rsi
	movq	%r15, %rdx
	subq	%rsi, %rdx
	cmpq	%r14, %rdx
	jae	.LBBefd557b_34
	cmpq	$4, %r14
	jb	.LBBefd557b_17
	movq	%r15, %rdi
	subq	%rcx, %rdi
	subq	%rax, %rdi
	addq	$-512, %rdi
	cmpq	$32, %rdi
	jae	.LBBefd557b_68
.LBBefd557b_17:
	xorl	%edx, %edx
.LBBefd557b_113:
	movq	%r14, %r8
	movq	%rdx, %rdi
	andq	$3, %r8
	je	.LBBefd557b_116
	movq	%rdx, %rdi
	.p2align	4
.LBBefd557b_115:
	movzbl	(%rsi,%rdi), %r9d
	movb	%r9b, (%r15,%rdi)
	incq	%rdi
	decq	%r8
	jne	.LBBefd557b_115
.LBBefd557b_116:
	subq	%r14, %rdx
	cmpq	$-4, %rdx
	ja	.LBBefd557b_35
	addq	%rcx, %rax
	addq	$515, %rax
	.p2align	4
.LBBefd557b_118:
	movzbl	-3(%rax,%rdi), %ecx
	movb	%cl, (%r15,%rdi)
	movzbl	-2(%rax,%rdi), %ecx
	movb	%cl, 1(%r15,%rdi)
	movzbl	-1(%rax,%rdi), %ecx
	movb	%cl, 2(%r15,%rdi)
	movzbl	(%rax,%rdi), %ecx
	movb	%cl, 3(%r15,%rdi)
	addq	$4, %rdi
	cmpq	%rdi, %r14
	jne	.LBBefd557b_118
	jmp	.LBBefd557b_35
.LBBefd557b_18:
	cmpb	$1, 616(%r12)
	jne	.LBBefd557b_184
	movq	624(%r12), %rax
	addq	%rax, %rsi
	movq	%r15, %rdx
	subq	%rsi, %rdx
	cmpq	%r14, %rdx
	jae	.LBBefd557b_34
	cmpq	$4, %r14
	jb	.LBBefd557b_21
	movq	%r15, %rdi
	subq	%rcx, %rdi
	subq	%rax, %rdi
	addq	$-512, %rdi
	cmpq	$32, %rdi
	jae	.LBBefd557b_70
.LBBefd557b_21:
	xorl	%edx, %edx
.LBBefd557b_126:
	movq	%r14, %r8
	movq	%rdx, %rdi
	andq	$3, %r8
	je	.LBBefd557b_129
	movq	%rdx, %rdi
	.p2align	4
.LBBefd557b_128:
	movzbl	(%rsi,%rdi), %r9d
	movb	%r9b, (%r15,%rdi)
	incq	%rdi
	decq	%r8
	jne	.LBBefd557b_128
.LBBefd557b_129:
	subq	%r14, %rdx
	cmpq	$-4, %rdx
	ja	.LBBefd557b_35
	addq	%rcx, %rax
	addq	$515, %rax
	.p2align	4
.LBBefd557b_131:
	movzbl	-3(%rax,%rdi), %ecx
	movb	%cl, (%r15,%rdi)
	movzbl	-2(%rax,%rdi), %ecx
	movb	%cl, 1(%r15,%rdi)
	movzbl	-1(%rax,%rdi), %ecx
	movb	%cl, 2(%r15,%rdi)
	movzbl	(%rax,%rdi), %ecx
	movb	%cl, 3(%r15,%rdi)
	addq	$4, %rdi
	cmpq	%rdi, %r14
	jne	.LBBefd557b_131
	jmp	.LBBefd557b_35
.LBBefd557b_22:
	cmpb	$1, 88(%r12)
	jne	.LBBefd557b_184
	movq	96(%r12), %rax
	addq	%rax, %rsi
	movq	%r15, %rdx
	subq	%rsi, %rdx
	cmpq	%r14, %rdx
	jae	.LBBefd557b_34
	cmpq	$4, %r14
	jb	.LBBefd557b_25
	movq	%r15, %rdi
	subq	%rcx, %rdi
	subq	%rax, %rdi
	addq	$-512, %rdi
	cmpq	$32, %rdi
	jae	.LBBefd557b_74
.LBBefd557b_25:
	xorl	%edx, %edx
.LBBefd557b_152:
	movq	%r14, %r8
	movq	%rdx, %rdi
	andq	$3, %r8
	je	.LBBefd557b_155
	movq	%rdx, %rdi
	.p2align	4
.LBBefd557b_154:
	movzbl	(%rsi,%rdi), %r9d
	movb	%r9b, (%r15,%rdi)
	incq	%rdi
	decq	%r8
	jne	.LBBefd557b_154
.LBBefd557b_155:
	subq	%r14, %rdx
	cmpq	$-4, %rdx
	ja	.LBBefd557b_35
	addq	%rcx, %rax
	addq	$515, %rax
	.p2align	4
.LBBefd557b_157:
	movzbl	-3(%rax,%rdi), %ecx
	movb	%cl, (%r15,%rdi)
	movzbl	-2(%rax,%rdi), %ecx
	movb	%cl, 1(%r15,%rdi)
	movzbl	-1(%rax,%rdi), %ecx
	movb	%cl, 2(%r15,%rdi)
	movzbl	(%rax,%rdi), %ecx
	movb	%cl, 3(%r15,%rdi)
	addq	$4, %rdi
	cmpq	%rdi, %r14
	jne	.LBBefd557b_157
	jmp	.LBBefd557b_35
.LBBefd557b_26:
	cmpb	$1, 440(%r12)
	jne	.LBBefd557b_184
	movq	448(%r12), %rax
	addq	%rax, %rsi
	movq	%r15, %rdx
	subq	%rsi, %rdx
	cmpq	%r14, %rdx
	jae	.LBBefd557b_34
	cmpq	$4, %r14
	jb	.LBBefd557b_29
	movq	%r15, %rdi
	subq	%rcx, %rdi
	subq	%rax, %rdi
	addq	$-512, %rdi
	cmpq	$32, %rdi
	jae	.LBBefd557b_76
.LBBefd557b_29:
	xorl	%edx, %edx
.LBBefd557b_165:
	movq	%r14, %r8
	movq	%rdx, %rdi
	andq	$3, %r8
	je	.LBBefd557b_168
	movq	%rdx, %rdi
	.p2align	4
.LBBefd557b_167:
	movzbl	(%rsi,%rdi), %r9d
	movb	%r9b, (%r15,%rdi)
	incq	%rdi
	decq	%r8
	jne	.LBBefd557b_167
.LBBefd557b_168:
	subq	%r14, %rdx
	cmpq	$-4, %rdx
	ja	.LBBefd557b_35
	addq	%rcx, %rax
	addq	$515, %rax
	.p2align	4
.LBBefd557b_170:
	movzbl	-3(%rax,%rdi), %ecx
	movb	%cl, (%r15,%rdi)
	movzbl	-2(%rax,%rdi), %ecx
	movb	%cl, 1(%r15,%rdi)
	movzbl	-1(%rax,%rdi), %ecx
	movb	%cl, 2(%r15,%rdi)
	movzbl	(%rax,%rdi), %ecx
	movb	%cl, 3(%r15,%rdi)
	addq	$4, %rdi
	cmpq	%rdi, %r14
	jne	.LBBefd557b_170
	jmp	.LBBefd557b_35
.LBBefd557b_30:
	cmpb	$1, 528(%r12)
	jne	.LBBefd557b_184
	movq	536(%r12), %rax
	addq	%rax, %rsi
	movq	%r15, %rdx
	subq	%rsi, %rdx
	cmpq	%r14, %rdx
	jae	.LBBefd557b_34
	cmpq	$4, %r14
	jb	.LBBefd557b_33
	movq	%r15, %rdi
	subq	%rcx, %rdi
	subq	%rax, %rdi
	addq	$-512, %rdi
	cmpq	$32, %rdi
	jae	.LBBefd557b_78
.LBBefd557b_33:
	xorl	%edx, %edx
.LBBefd557b_178:
	movq	%r14, %r8
	movq	%rdx, %rdi
	andq	$3, %r8
	je	.LBBefd557b_181
	movq	%rdx, %rdi
	.p2align	4
.LBBefd557b_180:
	movzbl	(%rsi,%rdi), %r9d
	movb	%r9b, (%r15,%rdi)
	incq	%rdi
	decq	%r8
	jne	.LBBefd557b_180
.LBBefd557b_181:
	subq	%r14, %rdx
	cmpq	$-4, %rdx
	ja	.LBBefd557b_35
	addq	%rcx, %rax
	addq	$515, %rax
	.p2align	4
.LBBefd557b_183:
	movzbl	-3(%rax,%rdi), %ecx
	movb	%cl, (%r15,%rdi)
	movzbl	-2(%rax,%rdi), %ecx
	movb	%cl, 1(%r15,%rdi)
	movzbl	-1(%rax,%rdi), %ecx
	movb	%cl, 2(%r15,%rdi)
	movzbl	(%rax,%rdi), %ecx
	movb	%cl, 3(%r15,%rdi)
	addq	$4, %rdi
	cmpq	%rdi, %r14
	jne	.LBBefd557b_183
	jmp	.LBBefd557b_35
.LBBefd557b_34:
	movq	%r15, %rdi
	movq	%r14, %rdx
	callq	memmove@PLT
.LBBefd557b_35:
	movq	(%r13), %rbp
	movq	8(%r13), %r12
	movq	%r12, 64(%r13)
	movb	$0, 72(%r13)
	cmpq	$5, %r12
	jae	.LBBefd557b_37
	xorl	%eax, %eax
	xorl	%r15d, %r15d
	movq	%rax, 48(%r13)
	movq	%r15, 56(%r13)
	cmpq	$0, 88(%r13)
	jne	.LBBefd557b_45
	jmp	.LBBefd557b_46
.LBBefd557b_37:
	movq	%r13, 8(%rsp)
	leaq	-5(%r12), %r13
	cmpq	$8, %r13
	jb	.LBBefd557b_43
	movq	8(%rsp), %rax
	movq	24(%rax), %rdx
	leaq	5(%rbp), %r14
	movl	$5, %ebx
	xorl	%r15d, %r15d
	movq	%rdx, 16(%rsp)
	.p2align	4
.LBBefd557b_39:
	cmpl	$-1, (%r14)
	jne	.LBBefd557b_41
	leaq	.Lstatic.4(%rip), %rdx
	movl	$8, %esi
	movq	%r14, %rdi
	callq	core_cmp_slices_groups_equal_i8_31_core_cmp_numbers_U8PartialEq_.3f1b21c
	movq	16(%rsp), %rdx
	testb	%al, %al
	jne	.LBBefd557b_47
.LBBefd557b_41:
	movzwl	6(%r14), %eax
	rolw	$8, %ax
	movzbl	5(%r14), %ecx
	movzwl	%ax, %eax
	addq	%rcx, %rax
	addq	$8, %rax
	cmpq	%rax, %r13
	jb	.LBBefd557b_43
	movl	%ebx, (%rdx,%r15,4)
	addq	%rax, %rbx
	incq	%r15
	leaq	(%rbx,%rbp), %r14
	movq	%r12, %r13
	subq	%rbx, %r13
	cmpq	$7, %r13
	ja	.LBBefd557b_39
.LBBefd557b_43:
	xorl	%eax, %eax
	xorl	%r15d, %r15d
.LBBefd557b_44:
	movq	8(%rsp), %r13
	movq	%rax, 48(%r13)
	movq	%r15, 56(%r13)
	cmpq	$0, 88(%r13)
	je	.LBBefd557b_46
.LBBefd557b_45:
	cmpb	$0, 80(%r13)
	movl	$3625, %eax
	movl	$7294, %ecx
	cmovel	%eax, %ecx
	movq	$0, 88(%r13)
	movl	$1, 96(%r13)
	movl	%ecx, 100(%r13)
.LBBefd557b_46:
	addq	$24, %rsp
	popq	%rbx
	popq	%r12
	popq	%r13
	popq	%r14
	popq	%r15
	popq	%rbp
	retq
.LBBefd557b_47:
	movl	$1, %eax
	jmp	.LBBefd557b_44
.LBBefd557b_64:
	cmpq	$32, %r14
	jae	.LBBefd557b_80
	xorl	%edx, %edx
	jmp	.LBBefd557b_84
.LBBefd557b_66:
	cmpq	$32, %r14
	jae	.LBBefd557b_93
	xorl	%edx, %edx
	jmp	.LBBefd557b_97
.LBBefd557b_68:
	cmpq	$32, %r14
	jae	.LBBefd557b_106
	xorl	%edx, %edx
	jmp	.LBBefd557b_110
.LBBefd557b_70:
	cmpq	$32, %r14
	jae	.LBBefd557b_119
	xorl	%edx, %edx
	jmp	.LBBefd557b_123
.LBBefd557b_72:
	cmpq	$32, %r14
	jae	.LBBefd557b_132
	xorl	%edx, %edx
	jmp	.LBBefd557b_136
.LBBefd557b_74:
	cmpq	$32, %r14
	jae	.LBBefd557b_145
	xorl	%edx, %edx
	jmp	.LBBefd557b_149
.LBBefd557b_76:
	cmpq	$32, %r14
	jae	.LBBefd557b_158
	xorl	%edx, %edx
	jmp	.LBBefd557b_162
.LBBefd557b_78:
	cmpq	$32, %r14
	jae	.LBBefd557b_171
	xorl	%edx, %edx
	jmp	.LBBefd557b_175
.LBBefd557b_80:
	movq	%r14, %rdx
	andq	$-32, %rdx
	leaq	(%rcx,%rax), %rdi
	addq	$528, %rdi
	xorl	%r8d, %r8d
	.p2align	4
.LBBefd557b_81:
	movups	-16(%rdi,%r8), %xmm0
	movups	(%rdi,%r8), %xmm1
	movups	%xmm0, (%r15,%r8)
	movups	%xmm1, 16(%r15,%r8)
	addq	$32, %r8
	cmpq	%r8, %rdx
	jne	.LBBefd557b_81
	cmpq	%rdx, %r14
	je	.LBBefd557b_35
	testb	$28, %r14b
	je	.LBBefd557b_87
.LBBefd557b_84:
	movq	%rdx, %rdi
	movq	%r14, %rdx
	andq	$-4, %rdx
	.p2align	4
.LBBefd557b_85:
	movl	(%rsi,%rdi), %r8d
	movl	%r8d, (%r15,%rdi)
	addq	$4, %rdi
	cmpq	%rdi, %rdx
	jne	.LBBefd557b_85
	cmpq	%rdx, %r14
	je	.LBBefd557b_35
	jmp	.LBBefd557b_87
.LBBefd557b_93:
	movq	%r14, %rdx
	andq	$-32, %rdx
	leaq	(%rcx,%rax), %rdi
	addq	$528, %rdi
	xorl	%r8d, %r8d
	.p2align	4
.LBBefd557b_94:
	movups	-16(%rdi,%r8), %xmm0
	movups	(%rdi,%r8), %xmm1
	movups	%xmm0, (%r15,%r8)
	movups	%xmm1, 16(%r15,%r8)
	addq	$32, %r8
	cmpq	%r8, %rdx
	jne	.LBBefd557b_94
	cmpq	%rdx, %r14
	je	.LBBefd557b_35
	testb	$28, %r14b
	je	.LBBefd557b_100
.LBBefd557b_97:
	movq	%rdx, %rdi
	movq	%r14, %rdx
	andq	$-4, %rdx
	.p2align	4
.LBBefd557b_98:
	movl	(%rsi,%rdi), %r8d
	movl	%r8d, (%r15,%rdi)
	addq	$4, %rdi
	cmpq	%rdi, %rdx
	jne	.LBBefd557b_98
	cmpq	%rdx, %r14
	je	.LBBefd557b_35
	jmp	.LBBefd557b_100
.LBBefd557b_106:
	movq	%r14, %rdx
	andq	$-32, %rdx
	leaq	(%rcx,%rax), %rdi
	addq	$528, %rdi
	xorl	%r8d, %r8d
	.p2align	4
.LBBefd557b_107:
	movups	-16(%rdi,%r8), %xmm0
	movups	(%rdi,%r8), %xmm1
	movups	%xmm0, (%r15,%r8)
	movups	%xmm1, 16(%r15,%r8)
	addq	$32, %r8
	cmpq	%r8, %rdx
	jne	.LBBefd557b_107
	cmpq	%rdx, %r14
	je	.LBBefd557b_35
	testb	$28, %r14b
	je	.LBBefd557b_113
.LBBefd557b_110:
	movq	%rdx, %rdi
	movq	%r14, %rdx
	andq	$-4, %rdx
	.p2align	4
.LBBefd557b_111:
	movl	(%rsi,%rdi), %r8d
	movl	%r8d, (%r15,%rdi)
	addq	$4, %rdi
	cmpq	%rdi, %rdx
	jne	.LBBefd557b_111
	cmpq	%rdx, %r14
	je	.LBBefd557b_35
	jmp	.LBBefd557b_113
.LBBefd557b_119:
	movq	%r14, %rdx
	andq	$-32, %rdx
	leaq	(%rcx,%rax), %rdi
	addq	$528, %rdi
	xorl	%r8d, %r8d
	.p2align	4
.LBBefd557b_120:
	movups	-16(%rdi,%r8), %xmm0
	movups	(%rdi,%r8), %xmm1
	movups	%xmm0, (%r15,%r8)
	movups	%xmm1, 16(%r15,%r8)
	addq	$32, %r8
	cmpq	%r8, %rdx
	jne	.LBBefd557b_120
	cmpq	%rdx, %r14
	je	.LBBefd557b_35
	testb	$28, %r14b
	je	.LBBefd557b_126
.LBBefd557b_123:
	movq	%rdx, %rdi
	movq	%r14, %rdx
	andq	$-4, %rdx
	.p2align	4
.LBBefd557b_124:
	movl	(%rsi,%rdi), %r8d
	movl	%r8d, (%r15,%rdi)
	addq	$4, %rdi
	cmpq	%rdi, %rdx
	jne	.LBBefd557b_124
	cmpq	%rdx, %r14
	je	.LBBefd557b_35
	jmp	.LBBefd557b_126
.LBBefd557b_132:
	movq	%r14, %rdx
	andq	$-32, %rdx
	leaq	(%rcx,%rax), %rdi
	addq	$528, %rdi
	xorl	%r8d, %r8d
	.p2align	4
.LBBefd557b_133:
	movups	-16(%rdi,%r8), %xmm0
	movups	(%rdi,%r8), %xmm1
	movups	%xmm0, (%r15,%r8)
	movups	%xmm1, 16(%r15,%r8)
	addq	$32, %r8
	cmpq	%r8, %rdx
	jne	.LBBefd557b_133
	cmpq	%rdx, %r14
	je	.LBBefd557b_35
	testb	$28, %r14b
	je	.LBBefd557b_139
.LBBefd557b_136:
	movq	%rdx, %rdi
	movq	%r14, %rdx
	andq	$-4, %rdx
	.p2align	4
.LBBefd557b_137:
	movl	(%rsi,%rdi), %r8d
	movl	%r8d, (%r15,%rdi)
	addq	$4, %rdi
	cmpq	%rdi, %rdx
	jne	.LBBefd557b_137
	cmpq	%rdx, %r14
	je	.LBBefd557b_35
	jmp	.LBBefd557b_139
.LBBefd557b_145:
	movq	%r14, %rdx
	andq	$-32, %rdx
	leaq	(%rcx,%rax), %rdi
	addq	$528, %rdi
	xorl	%r8d, %r8d
	.p2align	4
.LBBefd557b_146:
	movups	-16(%rdi,%r8), %xmm0
	movups	(%rdi,%r8), %xmm1
	movups	%xmm0, (%r15,%r8)
	movups	%xmm1, 16(%r15,%r8)
	addq	$32, %r8
	cmpq	%r8, %rdx
	jne	.LBBefd557b_146
	cmpq	%rdx, %r14
	je	.LBBefd557b_35
	testb	$28, %r14b
	je	.LBBefd557b_152
.LBBefd557b_149:
	movq	%rdx, %rdi
	movq	%r14, %rdx
	andq	$-4, %rdx
	.p2align	4
.LBBefd557b_150:
	movl	(%rsi,%rdi), %r8d
	movl	%r8d, (%r15,%rdi)
	addq	$4, %rdi
	cmpq	%rdi, %rdx
	jne	.LBBefd557b_150
	cmpq	%rdx, %r14
	je	.LBBefd557b_35
	jmp	.LBBefd557b_152
.LBBefd557b_158:
	movq	%r14, %rdx
	andq	$-32, %rdx
	leaq	(%rcx,%rax), %rdi
	addq	$528, %rdi
	xorl	%r8d, %r8d
	.p2align	4
.LBBefd557b_159:
	movups	-16(%rdi,%r8), %xmm0
	movups	(%rdi,%r8), %xmm1
	movups	%xmm0, (%r15,%r8)
	movups	%xmm1, 16(%r15,%r8)
	addq	$32, %r8
	cmpq	%r8, %rdx
	jne	.LBBefd557b_159
	cmpq	%rdx, %r14
	je	.LBBefd557b_35
	testb	$28, %r14b
	je	.LBBefd557b_165
.LBBefd557b_162:
	movq	%rdx, %rdi
	movq	%r14, %rdx
	andq	$-4, %rdx
	.p2align	4
.LBBefd557b_163:
	movl	(%rsi,%rdi), %r8d
	movl	%r8d, (%r15,%rdi)
	addq	$4, %rdi
	cmpq	%rdi, %rdx
	jne	.LBBefd557b_163
	cmpq	%rdx, %r14
	je	.LBBefd557b_35
	jmp	.LBBefd557b_165
.LBBefd557b_171:
	movq	%r14, %rdx
	andq	$-32, %rdx
	leaq	(%rcx,%rax), %rdi
	addq	$528, %rdi
	xorl	%r8d, %r8d
	.p2align	4
.LBBefd557b_172:
	movups	-16(%rdi,%r8), %xmm0
	movups	(%rdi,%r8), %xmm1
	movups	%xmm0, (%r15,%r8)
	movups	%xmm1, 16(%r15,%r8)
	addq	$32, %r8
	cmpq	%r8, %rdx
	jne	.LBBefd557b_172
	cmpq	%rdx, %r14
	je	.LBBefd557b_35
	testb	$28, %r14b
	je	.LBBefd557b_178
.LBBefd557b_175:
	movq	%rdx, %rdi
	movq	%r14, %rdx
	andq	$-4, %rdx
	.p2align	4
.LBBefd557b_176:
	movl	(%rsi,%rdi), %r8d
	movl	%r8d, (%r15,%rdi)
	addq	$4, %rdi
	cmpq	%rdi, %rdx
	jne	.LBBefd557b_176
	cmpq	%rdx, %r14
	je	.LBBefd557b_35
	jmp	.LBBefd557b_178
.LBBefd557b_184:
	ud2
.Lfunc_endefd557b:
	.size	ckd_slot_buffer_TrackBuffer_load_808c45e55832e08b_.5d2ea6a, .Lfunc_endefd557b-ckd_slot_buffer_TrackBuffer_load_808c45e55832e08b_.5d2ea6a
	.section	".rodata.ckd_slot::buffer::TrackBuffer::load::<#808c45e55832e08b>","a",@progbits
	.p2align	2, 0x0
.LJTIefd557b_0:
	.long	.LBBefd557b_2-.LJTIefd557b_0
	.long	.LBBefd557b_22-.LJTIefd557b_0
	.long	.LBBefd557b_10-.LJTIefd557b_0
	.long	.LBBefd557b_14-.LJTIefd557b_0
	.long	.LBBefd557b_6-.LJTIefd557b_0
	.long	.LBBefd557b_26-.LJTIefd557b_0
	.long	.LBBefd557b_30-.LJTIefd557b_0

	.section	".text.ckd_command::look::next_head","ax",@progbits
	.p2align	4
	.type	ckd_command_look_next_head.d94fc1a,@function
ckd_command_look_next_head.d94fc1a:
	cmpb	$3, 33(%rdx)
	jne	.LBB8cabf4b_4
	movq	$0, 8(%rdx)
	movw	$0, 16(%rdx)
	movq	$0, 24(%rdx)
	movb	$0, 64(%rdx)
	orb	$4, 4(%rdx)
	movq	$3, (%rdi)
	movw	$0, 8(%rdi)
	movq	$0, 16(%rdi)
	retq
.LBB8cabf4b_4:
	testb	%sil, %sil
	movl	$9, %eax
	movl	$19, %ecx
	cmovel	%eax, %ecx
	cmpw	%cx, 2(%rdx)
	jne	.LBB8cabf4b_6
	movq	$0, 8(%rdx)
	movw	$0, 16(%rdx)
	movq	$0, 24(%rdx)
	movb	$0, 64(%rdx)
	orb	$32, 4(%rdx)
	movq	$3, (%rdi)
	movw	$0, 8(%rdi)
	movq	$0, 16(%rdi)
	retq
.LBB8cabf4b_6:
	movq	$2, (%rdi)
	movw	$0, 8(%rdi)
	movq	$0, 16(%rdi)
	retq
.Lfunc_end8cabf4b:
	.size	ckd_command_look_next_head.d94fc1a, .Lfunc_end8cabf4b-ckd_command_look_next_head.d94fc1a

	.section	".text.ckd_drive::job::Job::look_elsewhere::<#808c45e55832e08b>","ax",@progbits
	.p2align	4
	.type	ckd_drive_job_Job_look_elsewhere_808c45e55832e08b_.81cf5b5,@function
ckd_drive_job_Job_look_elsewhere_808c45e55832e08b_.81cf5b5:
	pushq	%rbp
	pushq	%r15
	pushq	%r14
	pushq	%r13
	pushq	%r12
	pushq	%rbx
	subq	$104, %rsp
	movq	%rsi, %r14
	movq	%rdi, %rbx
	movzbl	936(%rdi), %r15d
	leaq	.LJTIaac319e_0(%rip), %rax
	movslq	(%rax,%r15,4), %rcx
	addq	%rax, %rcx
	jmpq	*%rcx
.LBBaac319e_1:
	movl	%r15d, %eax
	leaq	.LJTIaac319e_1(%rip), %rcx
	movslq	(%rcx,%rax,4), %rax
	addq	%rcx, %rax
	jmpq	*%rax
.LBBaac319e_2:
	movl	$0, 19(%rsp)
	movl	$0, 16(%rsp)
	movl	$6, %edx
	jmp	.LBBaac319e_33
.LBBaac319e_3:
	movl	%r15d, %eax
	andb	$-2, %al
	cmpb	$24, %al
	jne	.LBBaac319e_12
	cmpb	$1, 944(%rbx)
	jne	.LBBaac319e_15
	cmpb	$0, 952(%rbx)
	je	.LBBaac319e_15
	movl	$1, %edx
	cmpb	$1, 792(%rbx)
	jne	.LBBaac319e_62
	movq	960(%rbx), %rax
	cmpq	%rax, 800(%rbx)
	jbe	.LBBaac319e_62
	movq	744(%rbx), %rdx
	movq	768(%rbx), %rcx
	movl	(%rcx,%rax,4), %eax
	movzwl	6(%rdx,%rax), %esi
	movl	%esi, %edi
	rolw	$8, %di
	xorl	%ecx, %ecx
	cmpl	$25, %r15d
	movzbl	5(%rdx,%rax), %edx
	movq	%rdx, %r8
	cmoveq	%rcx, %r8
	movzwl	%di, %edi
	leaq	8(%rax,%r8), %rax
	cmoveq	%rdx, %rcx
	addq	%rdi, %rcx
	xorl	%edx, %edx
	testw	%si, %si
	sete	%dl
	jmp	.LBBaac319e_63
.LBBaac319e_9:
	movb	$1, %r12b
	jmp	.LBBaac319e_20
.LBBaac319e_10:
	xorl	%r12d, %r12d
	jmp	.LBBaac319e_20
.LBBaac319e_11:
	movb	$4, %r12b
	jmp	.LBBaac319e_20
.LBBaac319e_12:
	movq	$0, 968(%rbx)
	movq	$8, 976(%rbx)
	movb	$1, 984(%rbx)
	xorps	%xmm0, %xmm0
	movups	%xmm0, 985(%rbx)
	movups	%xmm0, 1001(%rbx)
	jmp	.LBBaac319e_64
.LBBaac319e_13:
	movb	$3, %r12b
	jmp	.LBBaac319e_20
.LBBaac319e_14:
	movl	$0, 19(%rsp)
	movl	$0, 16(%rsp)
	movb	$1, %cl
	xorl	%eax, %eax
	xorl	%edx, %edx
	jmp	.LBBaac319e_34
.LBBaac319e_15:
	xorl	%eax, %eax
	xorl	%ecx, %ecx
	xorl	%edx, %edx
	jmp	.LBBaac319e_63
.LBBaac319e_16:
	movb	$7, %r12b
	jmp	.LBBaac319e_20
.LBBaac319e_17:
	movb	$5, %r12b
	jmp	.LBBaac319e_20
.LBBaac319e_18:
	movb	$6, %r12b
	jmp	.LBBaac319e_20
.LBBaac319e_19:
	movb	$2, %r12b
.LBBaac319e_20:
	movzbl	704(%rbx), %eax
	movzwl	864(%rbx), %ecx
	movzwl	866(%rbx), %edx
	testq	%rax, %rax
	movl	$10, %esi
	movl	$20, %ebp
	cmovel	%esi, %ebp
	imull	%ecx, %ebp
	addl	%edx, %ebp
	cmpb	$1, 848(%rbx)
	jne	.LBBaac319e_22
	cmpl	%ebp, 852(%rbx)
	je	.LBBaac319e_23
.LBBaac319e_22:
	movl	$0, 848(%rbx)
	movl	%ebp, 852(%rbx)
	leaq	744(%rbx), %rdi
	movq	%rbx, %rsi
	movl	%ebp, %edx
	callq	ckd_slot_buffer_TrackBuffer_load_808c45e55832e08b_.5d2ea6a
	movl	$1, 848(%rbx)
	movl	%ebp, 852(%rbx)
	movzbl	704(%rbx), %eax
.LBBaac319e_23:
	movzbl	792(%rbx), %ecx
	cmpl	$21, %r15d
	jne	.LBBaac319e_26
	movq	%r14, 56(%rsp)
	movzbl	872(%rbx), %esi
	cmpb	$1, %cl
	jne	.LBBaac319e_29
	movzbl	880(%rbx), %r9d
	movzbl	881(%rbx), %r11d
	movq	888(%rbx), %rcx
	movq	800(%rbx), %r8
	movq	744(%rbx), %r13
	movq	768(%rbx), %rbp
	movzbl	%r12b, %r10d
	movb	$1, %dl
	movq	%rdx, 8(%rsp)
	xorl	%edx, %edx
	leaq	.LJTIaac319e_2(%rip), %rdi
	movslq	(%rdi,%r10,4), %r14
	addq	%rdi, %r14
	jmpq	*%r14
.LBBaac319e_26:
	cmpb	$1, %cl
	jne	.LBBaac319e_31
	movq	%r14, 56(%rsp)
	movzbl	872(%rbx), %esi
	movzbl	880(%rbx), %r9d
	movzbl	881(%rbx), %r11d
	movq	888(%rbx), %rcx
	movq	800(%rbx), %r8
	movq	744(%rbx), %r13
	movq	768(%rbx), %rbp
	movzbl	%r12b, %r10d
	movb	$1, %dl
	movq	%rdx, 8(%rsp)
	xorl	%edx, %edx
	leaq	.LJTIaac319e_2(%rip), %r14
	movslq	(%r14,%r10,4), %rdi
	addq	%r14, %rdi
	jmpq	*%rdi
.LBBaac319e_28:
	xorb	$1, %sil
	xorb	$1, %r9b
	leaq	1(%rcx), %r10
	cmpq	%r8, %rcx
	cmovaeq	%r8, %r10
	xorl	%r12d, %r12d
	orb	%sil, %r9b
	cmovneq	%r12, %r10
	cmpq	%r8, %r10
	setb	%dl
	setae	%sil
	cmovaeq	%r12, %r10
	jmp	.LBBaac319e_51
.LBBaac319e_29:
	orb	%r12b, %sil
	movq	$0, 8(%rsp)
	xorl	%edx, %edx
.LBBaac319e_30:
	xorl	%r12d, %r12d
	xorl	%r10d, %r10d
	movq	%r10, %rcx
	testb	%sil, %sil
	jne	.LBBaac319e_53
	jmp	.LBBaac319e_68
.LBBaac319e_31:
	orw	$2050, 868(%rbx)
	movb	$3, %al
	jmp	.LBBaac319e_110
.LBBaac319e_32:
	movl	$0, 19(%rsp)
	movl	$0, 16(%rsp)
	movl	$1, %edx
.LBBaac319e_33:
	movb	$1, %cl
	xorl	%eax, %eax
.LBBaac319e_34:
	movq	$0, 968(%rbx)
	movq	%rdx, 976(%rbx)
	movb	%cl, 984(%rbx)
	movq	%rax, 985(%rbx)
	movl	16(%rsp), %eax
	movl	19(%rsp), %ecx
	movl	%eax, 993(%rbx)
	movl	%ecx, 996(%rbx)
	xorps	%xmm0, %xmm0
	movups	%xmm0, 1000(%rbx)
	jmp	.LBBaac319e_64
.LBBaac319e_35:
	movzwl	868(%rbx), %eax
	rolw	$8, %ax
	movzwl	%ax, %eax
	movl	$0, 19(%rsp)
	movl	$0, 16(%rsp)
	movl	$6, %edx
	xorl	%ecx, %ecx
	jmp	.LBBaac319e_34
.LBBaac319e_36:
	xorb	$1, %sil
	xorb	$1, %r9b
	orb	%sil, %r9b
	sete	%dl
	orb	%r11b, %r9b
	je	.LBBaac319e_38
	cmpq	$1, %r8
	movq	%r8, %rsi
	adcq	$0, %rsi
	leaq	1(%rcx), %rdi
	cmpq	%r8, %rcx
	cmovbq	%rdi, %rsi
	testb	%dl, %dl
	movl	$1, %ecx
	cmovneq	%rsi, %rcx
.LBBaac319e_38:
	cmpq	%r8, %rcx
	jae	.LBBaac319e_53
	.p2align	4
.LBBaac319e_39:
	movl	(%rbp,%rcx,4), %edx
	cmpb	$0, 5(%r13,%rdx)
	jne	.LBBaac319e_65
	incq	%rcx
	cmpq	%rcx, %r8
	jne	.LBBaac319e_39
	jmp	.LBBaac319e_53
.LBBaac319e_41:
	xorb	$1, %sil
	xorb	$1, %r9b
	orb	%sil, %r9b
	sete	%sil
	testq	%r8, %r8
	setne	%dl
	sete	%cl
	andb	%sil, %dl
	orb	%cl, %sil
	xorb	%cl, %dl
	xorb	$1, %dl
	movb	$1, %cl
	movq	%rcx, 8(%rsp)
	jmp	.LBBaac319e_30
.LBBaac319e_42:
	xorb	$1, %sil
	xorb	$1, %r9b
	cmpq	$1, %r8
	movq	%r8, %rdx
	adcq	$0, %rdx
	leaq	1(%rcx), %rdi
	cmpq	%r8, %rcx
	cmovbq	%rdi, %rdx
	orb	%sil, %r9b
	movl	$1, %ecx
	cmoveq	%rdx, %rcx
	xorl	%r12d, %r12d
	cmpq	%r8, %rcx
	setb	%dl
	setae	%sil
	movl	$0, %r10d
	cmovbq	%rcx, %r10
	jmp	.LBBaac319e_51
.LBBaac319e_43:
	xorb	$1, %sil
	xorb	$1, %r9b
	orb	%sil, %r9b
	jne	.LBBaac319e_67
	cmpb	$2, %r11b
	jne	.LBBaac319e_66
	testq	%rcx, %rcx
	jne	.LBBaac319e_53
	jmp	.LBBaac319e_67
.LBBaac319e_46:
	xorb	$1, %sil
	xorb	$1, %r9b
	orb	%sil, %r9b
	setne	%dl
	cmpb	$2, %r11b
	sete	%sil
	orb	%dl, %sil
	cmpb	$1, %sil
	jne	.LBBaac319e_50
	cmpq	$1, %r8
	movq	%r8, %rsi
	adcq	$0, %rsi
	leaq	1(%rcx), %rdi
	cmpq	%r8, %rcx
	cmovbq	%rdi, %rsi
	testb	%dl, %dl
	movl	$1, %ecx
	cmoveq	%rsi, %rcx
	jmp	.LBBaac319e_50
.LBBaac319e_48:
	xorb	$1, %sil
	xorb	$1, %r9b
	orb	%sil, %r9b
	sete	%dl
	orb	%r11b, %r9b
	je	.LBBaac319e_50
	cmpq	$1, %r8
	movq	%r8, %rsi
	adcq	$0, %rsi
	leaq	1(%rcx), %rdi
	cmpq	%r8, %rcx
	cmovbq	%rdi, %rsi
	testb	%dl, %dl
	movl	$1, %ecx
	cmovneq	%rsi, %rcx
.LBBaac319e_50:
	xorl	%r10d, %r10d
	cmpq	%r8, %rcx
	setae	%sil
	setb	%dl
	cmovbq	%rcx, %r10
	leal	(%rdx,%rdx), %r12d
.LBBaac319e_51:
	movb	$1, %cl
	movq	%rcx, 8(%rsp)
.LBBaac319e_52:
	movq	%r10, %rcx
	testb	%sil, %sil
	je	.LBBaac319e_68
.LBBaac319e_53:
	cmpb	$1, 937(%rbx)
	jne	.LBBaac319e_56
	cmpb	$3, 897(%rbx)
	jne	.LBBaac319e_58
	movq	$0, 872(%rbx)
	movw	$0, 880(%rbx)
	movq	$0, 888(%rbx)
	movb	$0, 928(%rbx)
	orb	$4, 868(%rbx)
	movb	$3, %al
	jmp	.LBBaac319e_110
.LBBaac319e_56:
	cmpb	$0, 928(%rbx)
	je	.LBBaac319e_60
	orb	$8, 868(%rbx)
	movq	$0, 872(%rbx)
	movw	$0, 880(%rbx)
	movq	$0, 888(%rbx)
	movb	$0, 928(%rbx)
	movb	$3, %al
	jmp	.LBBaac319e_110
.LBBaac319e_58:
	movzwl	866(%rbx), %ecx
	testq	%rax, %rax
	movl	$9, %eax
	movl	$19, %edx
	cmovel	%eax, %edx
	cmpw	%dx, %cx
	jne	.LBBaac319e_61
	movq	$0, 872(%rbx)
	movw	$0, 880(%rbx)
	movq	$0, 888(%rbx)
	movb	$0, 928(%rbx)
	orb	$32, 868(%rbx)
	movb	$3, %al
	jmp	.LBBaac319e_110
.LBBaac319e_60:
	movq	$0, 872(%rbx)
	movw	$0, 880(%rbx)
	movq	$0, 888(%rbx)
	movb	$1, 928(%rbx)
	movb	$4, %al
	jmp	.LBBaac319e_110
.LBBaac319e_61:
	incl	%ecx
	movzwl	864(%rbx), %edx
	movq	%rbx, %rdi
	movq	56(%rsp), %rsi
	callq	ckd_drive_job_Job_leave_808c45e55832e08b_.db7d905
	movl	%eax, %ecx
	movb	$4, %al
	subb	%cl, %al
	jmp	.LBBaac319e_110
.LBBaac319e_62:
	xorl	%eax, %eax
	xorl	%ecx, %ecx
.LBBaac319e_63:
	movq	$0, 968(%rbx)
	movq	%rcx, 976(%rbx)
	movb	$4, 984(%rbx)
	movl	$0, 985(%rbx)
	movl	$0, 988(%rbx)
	movq	%rax, 992(%rbx)
	movq	%rcx, 1000(%rbx)
	movq	%rdx, 1008(%rbx)
.LBBaac319e_64:
	movq	$0, 1016(%rbx)
	jmp	.LBBaac319e_109
.LBBaac319e_65:
	movb	$1, %r12b
	movb	$1, %dl
	movb	$1, %al
	movq	%rax, 8(%rsp)
	jmp	.LBBaac319e_68
.LBBaac319e_66:
	cmpq	$1, %rcx
	ja	.LBBaac319e_53
.LBBaac319e_67:
	xorl	%edx, %edx
	cmpq	$2, %r8
	setb	%sil
	setae	%dl
	leal	(%rdx,%rdx), %r12d
	movb	$1, %cl
	movq	%rcx, 8(%rsp)
	movq	%rdx, %r10
	movq	%r10, %rcx
	testb	%sil, %sil
	jne	.LBBaac319e_53
.LBBaac319e_68:
	movq	$1, 944(%rbx)
	movb	%dl, 952(%rbx)
	movb	%r12b, 953(%rbx)
	movq	%rcx, 960(%rbx)
	leaq	968(%rbx), %rsi
	xorps	%xmm0, %xmm0
	movups	%xmm0, 88(%rsp)
	movups	%xmm0, 72(%rsp)
	xorl	%r9d, %r9d
	movl	%r15d, %eax
	leaq	.LJTIaac319e_3(%rip), %rdi
	movslq	(%rdi,%rax,4), %r8
	addq	%rdi, %r8
	jmpq	*%r8
.LBBaac319e_69:
	movb	$5, %r9b
	movb	$1, %r8b
	leaq	.LJTIaac319e_4(%rip), %rdi
	movslq	(%rdi,%rax,4), %r10
	addq	%rdi, %r10
	movb	$5, %al
	jmpq	*%r10
.LBBaac319e_70:
	movb	$6, %r9b
	movb	$1, %r8b
	leaq	.LJTIaac319e_4(%rip), %rdi
	movslq	(%rdi,%rax,4), %r10
	addq	%rdi, %r10
	movb	$6, %al
	jmpq	*%r10
.LBBaac319e_71:
	movb	$8, %al
	jmp	.LBBaac319e_86
.LBBaac319e_72:
	movb	$1, %r8b
	leaq	.LJTIaac319e_4(%rip), %rdi
	movslq	(%rdi,%rax,4), %r10
	addq	%rdi, %r10
	xorl	%eax, %eax
	jmpq	*%r10
.LBBaac319e_73:
	movb	$1, %r9b
	movb	$1, %r8b
	leaq	.LJTIaac319e_4(%rip), %rdi
	movslq	(%rdi,%rax,4), %r10
	addq	%rdi, %r10
	movb	$1, %al
	jmpq	*%r10
.LBBaac319e_74:
	movb	$9, %r9b
	movb	$1, %r8b
	leaq	.LJTIaac319e_4(%rip), %rdi
	movslq	(%rdi,%rax,4), %r10
	addq	%rdi, %r10
	movb	$9, %al
	jmpq	*%r10
.LBBaac319e_75:
	xorl	%r8d, %r8d
	jmp	.LBBaac319e_89
.LBBaac319e_76:
	movb	$3, %r8b
	jmp	.LBBaac319e_89
.LBBaac319e_77:
	movb	$5, %r8b
	jmp	.LBBaac319e_89
.LBBaac319e_78:
	movb	$6, %r8b
	jmp	.LBBaac319e_89
.LBBaac319e_79:
	movb	$7, %r8b
	jmp	.LBBaac319e_89
.LBBaac319e_80:
	movb	$8, %r8b
	jmp	.LBBaac319e_89
.LBBaac319e_81:
	movb	$2, %al
	jmp	.LBBaac319e_84
.LBBaac319e_82:
	movb	$3, %al
	jmp	.LBBaac319e_84
.LBBaac319e_83:
	movb	$4, %al
.LBBaac319e_84:
	xorl	%r8d, %r8d
	jmp	.LBBaac319e_90
.LBBaac319e_85:
	movb	$7, %al
.LBBaac319e_86:
	movb	$1, 64(%rsp)
	movq	$0, 65(%rsp)
	movzbl	%al, %edi
	leaq	64(%rsp), %rdx
	jmp	.LBBaac319e_108
.LBBaac319e_87:
	movb	$4, %r8b
	jmp	.LBBaac319e_89
.LBBaac319e_88:
	movb	$2, %r8b
.LBBaac319e_89:
	movl	%r9d, %eax
.LBBaac319e_90:
	testb	%dl, %dl
	je	.LBBaac319e_95
	movb	$1, %r9b
	cmpb	$0, 8(%rsp)
	je	.LBBaac319e_96
	cmpq	%rcx, 800(%rbx)
	jbe	.LBBaac319e_96
	movq	744(%rbx), %rdi
	movq	768(%rbx), %rdx
	movl	(%rdx,%rcx,4), %ecx
	movzbl	5(%rdi,%rcx), %edx
	movzwl	6(%rdi,%rcx), %edi
	movl	%edi, %r9d
	rolw	$8, %r9w
	movzwl	%r9w, %r9d
	movzbl	%r8b, %r8d
	leaq	.LJTIaac319e_5(%rip), %r10
	movslq	(%r10,%r8,4), %r8
	addq	%r10, %r8
	jmpq	*%r8
.LBBaac319e_94:
	xorl	%ecx, %ecx
	xorl	%edx, %edx
	jmp	.LBBaac319e_103
.LBBaac319e_95:
	movzbl	%r8b, %edx
	shll	$3, %edx
	leaq	.Lswitch.table.ckd_drive_job_Job_look_elsewhere_808c45e55832e08b_.6b479ce(%rip), %rcx
	movq	(%rdx,%rcx), %rcx
	leaq	.Lswitch.table.ckd_drive_job_Job_look_elsewhere_808c45e55832e08b_.155.8c74411(%rip), %rdi
	movq	(%rdx,%rdi), %rdx
	xorl	%r9d, %r9d
	jmp	.LBBaac319e_104
.LBBaac319e_96:
	xorl	%ecx, %ecx
	xorl	%edx, %edx
	jmp	.LBBaac319e_104
.LBBaac319e_97:
	addq	$8, %rcx
	addq	%r9, %rdx
	jmp	.LBBaac319e_103
.LBBaac319e_98:
	addq	$8, %rcx
	jmp	.LBBaac319e_103
.LBBaac319e_99:
	addq	%rdx, %rcx
	addq	$8, %rcx
	movq	%r9, %rdx
	jmp	.LBBaac319e_103
.LBBaac319e_100:
	addq	%r9, %rdx
	addq	$8, %rdx
	jmp	.LBBaac319e_103
.LBBaac319e_101:
	movl	$8, %edx
	jmp	.LBBaac319e_103
.LBBaac319e_102:
	movl	$5, %edx
.LBBaac319e_103:
	testw	%di, %di
	sete	%r9b
.LBBaac319e_104:
	movzbl	%al, %edi
	movb	$1, %al
	movb	$3, %r8b
	movl	$927, %r10d
	btl	%edi, %r10d
	jae	.LBBaac319e_111
	movb	$4, %r8b
.LBBaac319e_106:
	movl	%r9d, %eax
.LBBaac319e_107:
	movb	%r8b, 16(%rsp)
	movl	$0, 17(%rsp)
	movl	$0, 20(%rsp)
	movq	%rcx, 24(%rsp)
	movq	%rdx, 32(%rsp)
	movb	%al, 40(%rsp)
	movq	$0, 41(%rsp)
	movq	$0, 48(%rsp)
	leaq	16(%rsp), %rdx
.LBBaac319e_108:
	callq	ckd_drive_look_ready.f21f60a
.LBBaac319e_109:
	movb	$5, %al
.LBBaac319e_110:
	addq	$104, %rsp
	popq	%rbx
	popq	%r12
	popq	%r13
	popq	%r14
	popq	%r15
	popq	%rbp
	retq
.LBBaac319e_111:
	cmpl	$5, %edi
	je	.LBBaac319e_107
	movb	$2, %r8b
	jmp	.LBBaac319e_106
.LBBaac319e_113:
	ud2
.Lfunc_endaac319e:
	.size	ckd_drive_job_Job_look_elsewhere_808c45e55832e08b_.81cf5b5, .Lfunc_endaac319e-ckd_drive_job_Job_look_elsewhere_808c45e55832e08b_.81cf5b5
	.section	".rodata.ckd_drive::job::Job::look_elsewhere::<#808c45e55832e08b>","a",@progbits
	.p2align	2, 0x0
.LJTIaac319e_0:
	.long	.LBBaac319e_1-.LJTIaac319e_0
	.long	.LBBaac319e_1-.LJTIaac319e_0
	.long	.LBBaac319e_1-.LJTIaac319e_0
	.long	.LBBaac319e_1-.LJTIaac319e_0
	.long	.LBBaac319e_1-.LJTIaac319e_0
	.long	.LBBaac319e_1-.LJTIaac319e_0
	.long	.LBBaac319e_1-.LJTIaac319e_0
	.long	.LBBaac319e_10-.LJTIaac319e_0
	.long	.LBBaac319e_9-.LJTIaac319e_0
	.long	.LBBaac319e_9-.LJTIaac319e_0
	.long	.LBBaac319e_9-.LJTIaac319e_0
	.long	.LBBaac319e_11-.LJTIaac319e_0
	.long	.LBBaac319e_11-.LJTIaac319e_0
	.long	.LBBaac319e_11-.LJTIaac319e_0
	.long	.LBBaac319e_16-.LJTIaac319e_0
	.long	.LBBaac319e_10-.LJTIaac319e_0
	.long	.LBBaac319e_19-.LJTIaac319e_0
	.long	.LBBaac319e_13-.LJTIaac319e_0
	.long	.LBBaac319e_17-.LJTIaac319e_0
	.long	.LBBaac319e_18-.LJTIaac319e_0
	.long	.LBBaac319e_13-.LJTIaac319e_0
	.long	.LBBaac319e_10-.LJTIaac319e_0
	.long	.LBBaac319e_3-.LJTIaac319e_0
	.long	.LBBaac319e_3-.LJTIaac319e_0
	.long	.LBBaac319e_3-.LJTIaac319e_0
	.long	.LBBaac319e_3-.LJTIaac319e_0
.LJTIaac319e_1:
	.long	.LBBaac319e_14-.LJTIaac319e_1
	.long	.LBBaac319e_14-.LJTIaac319e_1
	.long	.LBBaac319e_2-.LJTIaac319e_1
	.long	.LBBaac319e_2-.LJTIaac319e_1
	.long	.LBBaac319e_2-.LJTIaac319e_1
	.long	.LBBaac319e_32-.LJTIaac319e_1
	.long	.LBBaac319e_35-.LJTIaac319e_1
.LJTIaac319e_2:
	.long	.LBBaac319e_52-.LJTIaac319e_2
	.long	.LBBaac319e_28-.LJTIaac319e_2
	.long	.LBBaac319e_41-.LJTIaac319e_2
	.long	.LBBaac319e_42-.LJTIaac319e_2
	.long	.LBBaac319e_36-.LJTIaac319e_2
	.long	.LBBaac319e_46-.LJTIaac319e_2
	.long	.LBBaac319e_48-.LJTIaac319e_2
	.long	.LBBaac319e_43-.LJTIaac319e_2
.LJTIaac319e_3:
	.long	.LBBaac319e_72-.LJTIaac319e_3
	.long	.LBBaac319e_72-.LJTIaac319e_3
	.long	.LBBaac319e_73-.LJTIaac319e_3
	.long	.LBBaac319e_73-.LJTIaac319e_3
	.long	.LBBaac319e_81-.LJTIaac319e_3
	.long	.LBBaac319e_82-.LJTIaac319e_3
	.long	.LBBaac319e_83-.LJTIaac319e_3
	.long	.LBBaac319e_69-.LJTIaac319e_3
	.long	.LBBaac319e_69-.LJTIaac319e_3
	.long	.LBBaac319e_69-.LJTIaac319e_3
	.long	.LBBaac319e_69-.LJTIaac319e_3
	.long	.LBBaac319e_69-.LJTIaac319e_3
	.long	.LBBaac319e_69-.LJTIaac319e_3
	.long	.LBBaac319e_69-.LJTIaac319e_3
	.long	.LBBaac319e_70-.LJTIaac319e_3
	.long	.LBBaac319e_70-.LJTIaac319e_3
	.long	.LBBaac319e_70-.LJTIaac319e_3
	.long	.LBBaac319e_70-.LJTIaac319e_3
	.long	.LBBaac319e_70-.LJTIaac319e_3
	.long	.LBBaac319e_70-.LJTIaac319e_3
	.long	.LBBaac319e_70-.LJTIaac319e_3
	.long	.LBBaac319e_85-.LJTIaac319e_3
	.long	.LBBaac319e_71-.LJTIaac319e_3
	.long	.LBBaac319e_71-.LJTIaac319e_3
	.long	.LBBaac319e_74-.LJTIaac319e_3
	.long	.LBBaac319e_74-.LJTIaac319e_3
.LJTIaac319e_4:
	.long	.LBBaac319e_75-.LJTIaac319e_4
	.long	.LBBaac319e_75-.LJTIaac319e_4
	.long	.LBBaac319e_75-.LJTIaac319e_4
	.long	.LBBaac319e_75-.LJTIaac319e_4
	.long	.LBBaac319e_113-.LJTIaac319e_4
	.long	.LBBaac319e_113-.LJTIaac319e_4
	.long	.LBBaac319e_113-.LJTIaac319e_4
	.long	.LBBaac319e_90-.LJTIaac319e_4
	.long	.LBBaac319e_76-.LJTIaac319e_4
	.long	.LBBaac319e_76-.LJTIaac319e_4
	.long	.LBBaac319e_76-.LJTIaac319e_4
	.long	.LBBaac319e_77-.LJTIaac319e_4
	.long	.LBBaac319e_77-.LJTIaac319e_4
	.long	.LBBaac319e_77-.LJTIaac319e_4
	.long	.LBBaac319e_78-.LJTIaac319e_4
	.long	.LBBaac319e_88-.LJTIaac319e_4
	.long	.LBBaac319e_80-.LJTIaac319e_4
	.long	.LBBaac319e_87-.LJTIaac319e_4
	.long	.LBBaac319e_78-.LJTIaac319e_4
	.long	.LBBaac319e_79-.LJTIaac319e_4
	.long	.LBBaac319e_80-.LJTIaac319e_4
	.long	.LBBaac319e_113-.LJTIaac319e_4
	.long	.LBBaac319e_113-.LJTIaac319e_4
	.long	.LBBaac319e_113-.LJTIaac319e_4
	.long	.LBBaac319e_78-.LJTIaac319e_4
	.long	.LBBaac319e_79-.LJTIaac319e_4
.LJTIaac319e_5:
	.long	.LBBaac319e_94-.LJTIaac319e_5
	.long	.LBBaac319e_94-.LJTIaac319e_5
	.long	.LBBaac319e_94-.LJTIaac319e_5
	.long	.LBBaac319e_102-.LJTIaac319e_5
	.long	.LBBaac319e_101-.LJTIaac319e_5
	.long	.LBBaac319e_98-.LJTIaac319e_5
	.long	.LBBaac319e_99-.LJTIaac319e_5
	.long	.LBBaac319e_97-.LJTIaac319e_5
	.long	.LBBaac319e_100-.LJTIaac319e_5

	.section	".text.ckd_drive::transfer::compared","ax",@progbits
	.p2align	4
	.type	ckd_drive_transfer_compared.c54acf5,@function
ckd_drive_transfer_compared.c54acf5:
	leaq	(%rsi,%rdx), %rax
	cmpq	$5, %r8
	jne	.LBB12d3d57_7
	movzbl	(%rax), %edx
	movzbl	(%rcx), %r8d
	cmpb	%r8b, %dl
	jne	.LBB12d3d57_6
	movzbl	1(%rax), %edx
	movzbl	1(%rcx), %r8d
	cmpb	%r8b, %dl
	jne	.LBB12d3d57_6
	movzbl	2(%rax), %edx
	movzbl	2(%rcx), %r8d
	cmpb	%r8b, %dl
	jne	.LBB12d3d57_6
	movzbl	3(%rax), %edx
	movzbl	3(%rcx), %r8d
	cmpb	%r8b, %dl
	jne	.LBB12d3d57_6
	movzbl	4(%rax), %edx
	movzbl	4(%rcx), %r8d
	movb	$1, %sil
	cmpb	%r8b, %dl
	je	.LBB12d3d57_19
.LBB12d3d57_6:
	cmpb	%r8b, %dl
.LBB12d3d57_18:
	setae	%sil
	addb	%sil, %sil
	jmp	.LBB12d3d57_19
.LBB12d3d57_7:
	cmpq	$64, %r8
	jb	.LBB12d3d57_8
	addq	%rdx, %rsi
	addq	$48, %rsi
	xorl	%edx, %edx
	movq	%r8, %r9
	.p2align	4
.LBB12d3d57_10:
	movdqu	-48(%rsi,%rdx), %xmm0
	movdqu	-32(%rsi,%rdx), %xmm1
	movdqu	-16(%rsi,%rdx), %xmm2
	movdqu	(%rsi,%rdx), %xmm3
	movdqu	(%rcx,%rdx), %xmm4
	pcmpeqb	%xmm0, %xmm4
	movdqu	16(%rcx,%rdx), %xmm0
	pcmpeqb	%xmm1, %xmm0
	movdqu	32(%rcx,%rdx), %xmm1
	pcmpeqb	%xmm2, %xmm1
	pand	%xmm4, %xmm1
	movdqu	48(%rcx,%rdx), %xmm2
	pcmpeqb	%xmm3, %xmm2
	pand	%xmm0, %xmm2
	pand	%xmm1, %xmm2
	pmovmskb	%xmm2, %r10d
	cmpl	$65535, %r10d
	jne	.LBB12d3d57_12
	addq	$64, %rdx
	addq	$-64, %r9
	cmpq	$63, %r9
	ja	.LBB12d3d57_10
	jmp	.LBB12d3d57_12
.LBB12d3d57_8:
	xorl	%edx, %edx
.LBB12d3d57_12:
	movq	%r8, %rsi
	subq	%rdx, %rsi
	cmpq	$8, %rsi
	jb	.LBB12d3d57_15
	.p2align	4
.LBB12d3d57_13:
	movq	(%rax,%rdx), %r9
	cmpq	(%rcx,%rdx), %r9
	jne	.LBB12d3d57_15
	addq	$8, %rdx
	addq	$-8, %rsi
	cmpq	$7, %rsi
	ja	.LBB12d3d57_13
.LBB12d3d57_15:
	movb	$1, %sil
	cmpq	%r8, %rdx
	jae	.LBB12d3d57_19
	.p2align	4
.LBB12d3d57_17:
	movzbl	(%rcx,%rdx), %r9d
	cmpb	%r9b, (%rax,%rdx)
	jne	.LBB12d3d57_18
	incq	%rdx
	cmpq	%rdx, %r8
	jne	.LBB12d3d57_17
.LBB12d3d57_19:
	cmpb	$1, %dil
	movzbl	%sil, %ecx
	movzbl	%dil, %eax
	cmovel	%ecx, %eax
	retq
.Lfunc_end12d3d57:
	.size	ckd_drive_transfer_compared.c54acf5, .Lfunc_end12d3d57-ckd_drive_transfer_compared.c54acf5

	.section	".text.ckd_drive::job::Job::collect_or_write::<#808c45e55832e08b>","ax",@progbits
	.p2align	4
	.type	ckd_drive_job_Job_collect_or_write_808c45e55832e08b_.04dba8e,@function
ckd_drive_job_Job_collect_or_write_808c45e55832e08b_.04dba8e:
	movzbl	984(%rdi), %eax
	leaq	.LJTIec24d96_0(%rip), %rcx
	movslq	(%rcx,%rax,4), %rax
	addq	%rcx, %rax
	jmpq	*%rax
.LBBec24d96_1:
	movq	985(%rdi), %rcx
	jmp	ckd_drive_job_Job_collect_808c45e55832e08b_.7006b13
.LBBec24d96_2:
	movq	992(%rdi), %rax
	movzwl	1008(%rdi), %ecx
	leaq	(%rax,%rdx), %r8
	movb	$6, 984(%rdi)
	movl	$0, 985(%rdi)
	movl	$0, 988(%rdi)
	movq	%r8, 992(%rdi)
	subq	%rdx, 1000(%rdi)
	movq	%rcx, 1008(%rdi)
	movb	$1, 856(%rdi)
	movq	808(%rdi), %r9
	cmpq	%r9, %r8
	cmovaq	%r8, %r9
	movq	744(%rdi), %rcx
	movq	%r9, 808(%rdi)
	movb	$0, 816(%rdi)
	leaq	(%rcx,%rax), %rdi
	movq	%rdi, %r8
	subq	%rsi, %r8
	cmpq	%rdx, %r8
	jae	memmove@PLT
	cmpq	$4, %rdx
	jb	.LBBec24d96_4
	cmpq	$32, %r8
	jae	.LBBec24d96_9
.LBBec24d96_4:
	xorl	%r8d, %r8d
.LBBec24d96_18:
	movq	%rdx, %r10
	movq	%r8, %r9
	andq	$3, %r10
	je	.LBBec24d96_21
	movq	%r8, %r9
	.p2align	4
.LBBec24d96_20:
	movzbl	(%rsi,%r9), %r11d
	movb	%r11b, (%rdi,%r9)
	incq	%r9
	decq	%r10
	jne	.LBBec24d96_20
.LBBec24d96_21:
	subq	%rdx, %r8
	cmpq	$-4, %r8
	ja	.LBBec24d96_24
	addq	%rcx, %rax
	addq	$3, %rax
	.p2align	4
.LBBec24d96_23:
	movzbl	(%rsi,%r9), %ecx
	movb	%cl, -3(%rax,%r9)
	movzbl	1(%rsi,%r9), %ecx
	movb	%cl, -2(%rax,%r9)
	movzbl	2(%rsi,%r9), %ecx
	movb	%cl, -1(%rax,%r9)
	movzbl	3(%rsi,%r9), %ecx
	movb	%cl, (%rax,%r9)
	addq	$4, %r9
	cmpq	%r9, %rdx
	jne	.LBBec24d96_23
.LBBec24d96_24:
	retq
.LBBec24d96_5:
	jmp	ckd_drive_job_Job_make_808c45e55832e08b_.9cfe1de
.LBBec24d96_6:
	movq	992(%rdi), %rcx
	movq	1000(%rdi), %r8
	movzbl	1008(%rdi), %r9d
	jmp	ckd_drive_job_Job_fill_808c45e55832e08b_.ddae6a7
.LBBec24d96_9:
	cmpq	$32, %rdx
	jae	.LBBec24d96_11
	xorl	%r8d, %r8d
	jmp	.LBBec24d96_15
.LBBec24d96_11:
	movq	%rdx, %r8
	andq	$-32, %r8
	leaq	(%rax,%rcx), %r9
	addq	$16, %r9
	xorl	%r10d, %r10d
	.p2align	4
.LBBec24d96_12:
	movups	(%rsi,%r10), %xmm0
	movups	16(%rsi,%r10), %xmm1
	movups	%xmm0, -16(%r9,%r10)
	movups	%xmm1, (%r9,%r10)
	addq	$32, %r10
	cmpq	%r10, %r8
	jne	.LBBec24d96_12
	cmpq	%r8, %rdx
	je	.LBBec24d96_24
	testb	$28, %dl
	je	.LBBec24d96_18
.LBBec24d96_15:
	movq	%r8, %r9
	movq	%rdx, %r8
	andq	$-4, %r8
	.p2align	4
.LBBec24d96_16:
	movl	(%rsi,%r9), %r10d
	movl	%r10d, (%rdi,%r9)
	addq	$4, %r9
	cmpq	%r9, %r8
	jne	.LBBec24d96_16
	cmpq	%r8, %rdx
	je	.LBBec24d96_24
	jmp	.LBBec24d96_18
.LBBec24d96_25:
	ud2
.Lfunc_endec24d96:
	.size	ckd_drive_job_Job_collect_or_write_808c45e55832e08b_.04dba8e, .Lfunc_endec24d96-ckd_drive_job_Job_collect_or_write_808c45e55832e08b_.04dba8e
	.section	".rodata.ckd_drive::job::Job::collect_or_write::<#808c45e55832e08b>","a",@progbits
	.p2align	2, 0x0
.LJTIec24d96_0:
	.long	.LBBec24d96_25-.LJTIec24d96_0
	.long	.LBBec24d96_1-.LJTIec24d96_0
	.long	.LBBec24d96_25-.LJTIec24d96_0
	.long	.LBBec24d96_25-.LJTIec24d96_0
	.long	.LBBec24d96_6-.LJTIec24d96_0
	.long	.LBBec24d96_5-.LJTIec24d96_0
	.long	.LBBec24d96_2-.LJTIec24d96_0

	.section	".text.ckd_drive::job::Job::collect::<#808c45e55832e08b>","ax",@progbits
	.p2align	4
	.type	ckd_drive_job_Job_collect_808c45e55832e08b_.7006b13,@function
ckd_drive_job_Job_collect_808c45e55832e08b_.7006b13:
	pushq	%rbp
	pushq	%r15
	pushq	%r14
	pushq	%r12
	pushq	%rbx
	subq	$32, %rsp
	movq	%rdx, %r14
	movq	%rdi, %rbx
	movq	$0, 23(%rsp)
	movq	$0, 16(%rsp)
	movq	968(%rdi), %r12
	cmpq	$8, %rdx
	je	.LBB0c7ac18_6
	movq	%rcx, 8(%rsp)
	testq	%r12, %r12
	je	.LBB0c7ac18_3
	leaq	(%rsp,%r12), %rdi
	addq	$8, %rdi
	movq	%r14, %rdx
	callq	memcpy@PLT
	jmp	.LBB0c7ac18_5
.LBB0c7ac18_3:
	cmpq	$6, %r14
	jne	.LBB0c7ac18_10
	movzwl	4(%rsi), %eax
	movw	%ax, 12(%rsp)
	movl	(%rsi), %eax
	movl	%eax, 8(%rsp)
.LBB0c7ac18_5:
	leaq	8(%rsp), %rsi
.LBB0c7ac18_6:
	movq	(%rsi), %rax
	movzbl	936(%rbx), %ecx
	cmpl	$21, %ecx
	jae	.LBB0c7ac18_11
.LBB0c7ac18_7:
	movb	$1, 984(%rbx)
	movq	%rax, 985(%rbx)
	xorps	%xmm0, %xmm0
	movups	%xmm0, 993(%rbx)
.LBB0c7ac18_8:
	movups	%xmm0, 1008(%rbx)
.LBB0c7ac18_9:
	addq	$32, %rsp
	popq	%rbx
	popq	%r12
	popq	%r14
	popq	%r15
	popq	%rbp
	retq
.LBB0c7ac18_10:
	leaq	8(%rsp), %r15
	movq	%r15, %rdi
	movq	%r14, %rdx
	callq	memcpy@PLT
	movq	%r15, %rsi
	movq	(%rsi), %rax
	movzbl	936(%rbx), %ecx
	cmpl	$21, %ecx
	jb	.LBB0c7ac18_7
.LBB0c7ac18_11:
	addq	%r14, %r12
	leal	-22(%rcx), %edx
	cmpl	$2, %edx
	jb	.LBB0c7ac18_21
	addl	$-24, %ecx
	cmpl	$2, %ecx
	jb	.LBB0c7ac18_7
	cmpq	$5, %r12
	jne	.LBB0c7ac18_7
	testb	%al, %al
	jne	.LBB0c7ac18_7
	movl	%eax, %ecx
	shrl	$24, %ecx
	movzwl	866(%rbx), %edx
	movl	%edx, %esi
	shrl	$8, %esi
	cmpb	%sil, %cl
	jne	.LBB0c7ac18_7
	movl	%eax, %esi
	shrl	$8, %esi
	movzwl	864(%rbx), %ecx
	movl	%ecx, %edi
	shrl	$8, %edi
	cmpb	%dil, %sil
	jne	.LBB0c7ac18_7
	movl	%eax, %esi
	shrl	$16, %esi
	cmpb	%cl, %sil
	jne	.LBB0c7ac18_7
	movq	%rax, %rcx
	shrq	$32, %rcx
	cmpb	%dl, %cl
	jne	.LBB0c7ac18_7
	movq	744(%rbx), %rbp
	movl	%eax, 8(%rsp)
	movb	%cl, 12(%rsp)
	movb	$1, 856(%rbx)
	movq	808(%rbx), %r14
	leaq	8(%rsp), %rdx
	movq	%rbp, %rsi
	subq	%rdx, %rsi
	cmpq	$4, %rsi
	ja	.LBB0c7ac18_51
	movl	%eax, %edx
	shrl	$24, %edx
	movl	%eax, %esi
	shrl	$16, %esi
	movb	$0, (%rbp)
	movb	%ah, 1(%rbp)
	movb	%sil, 2(%rbp)
	movb	%dl, 3(%rbp)
	movb	%cl, 4(%rbp)
	jmp	.LBB0c7ac18_52
.LBB0c7ac18_21:
	cmpq	$8, %r12
	jne	.LBB0c7ac18_7
	movzbl	704(%rbx), %esi
	cmpb	$1, 944(%rbx)
	jne	.LBB0c7ac18_26
	cmpb	$1, 952(%rbx)
	jne	.LBB0c7ac18_26
	movq	800(%rbx), %rcx
	cmpb	$1, 792(%rbx)
	setne	%dl
	testq	%rcx, %rcx
	sete	%dil
	orb	%dl, %dil
	movq	744(%rbx), %r9
	jne	.LBB0c7ac18_27
	movq	960(%rbx), %rdx
	decq	%rcx
	cmpq	%rdx, %rcx
	cmovaeq	%rdx, %rcx
	movq	768(%rbx), %rdx
	movl	(%rdx,%rcx,4), %edx
	incq	%rcx
	movzbl	5(%r9,%rdx), %edi
	movzwl	6(%r9,%rdx), %r8d
	rolw	$8, %r8w
	movzwl	%r8w, %r8d
	addq	%rdx, %rdi
	leaq	(%r8,%rdi), %rdx
	addq	$16, %rdx
	xorl	%r8d, %r8d
	jmp	.LBB0c7ac18_28
.LBB0c7ac18_26:
	movq	744(%rbx), %r9
.LBB0c7ac18_27:
	movl	$13, %edx
	movb	$1, %r8b
	xorl	%ecx, %ecx
.LBB0c7ac18_28:
	movq	768(%rbx), %r10
	cmpb	%sil, 824(%rbx)
	jne	.LBB0c7ac18_31
	movq	832(%rbx), %r11
	cmpq	%r11, %rcx
	jae	.LBB0c7ac18_42
	testb	%sil, %sil
	movl	$3625, %r11d
	movl	$7294, %edi
	cmovel	%r11d, %edi
	jmp	.LBB0c7ac18_32
.LBB0c7ac18_31:
	testb	%sil, %sil
	movl	$3625, %r11d
	movl	$7294, %edi
	cmovel	%r11d, %edi
	movb	%sil, 824(%rbx)
.LBB0c7ac18_32:
	movq	$0, 832(%rbx)
	movl	$1, 840(%rbx)
	movl	%edi, 844(%rbx)
	xorl	%r11d, %r11d
	movl	$1, %ebp
	cmpq	%rcx, %r11
	jae	.LBB0c7ac18_45
.LBB0c7ac18_33:
	testb	%sil, %sil
	je	.LBB0c7ac18_38
.LBB0c7ac18_34:
	movl	(%r10,%r11,4), %r14d
	movzbl	5(%r9,%r14), %r15d
	movzwl	6(%r9,%r14), %r14d
	rolw	$8, %r14w
	movzwl	%r14w, %r14d
	addl	%r15d, %r14d
	imull	$2137, %r14d, %r14d
	shrl	$11, %r14d
	leal	146(%r14), %r12d
	addl	$101, %r14d
	testl	%r15d, %r15d
	cmovnel	%r12d, %r14d
	testq	%r11, %r11
	jne	.LBB0c7ac18_36
	xorl	%r15d, %r15d
	subl	$109, %r14d
	cmovbl	%r15d, %r14d
.LBB0c7ac18_36:
	subl	%r14d, %edi
	jb	.LBB0c7ac18_44
	incq	%r11
	cmpq	%r11, %rcx
	jne	.LBB0c7ac18_34
	jmp	.LBB0c7ac18_45
.LBB0c7ac18_40:
	testb	%r15b, %r15b
	cmovnel	%r12d, %r14d
	xorl	%r15d, %r15d
	subl	$69, %r14d
	cmovbl	%r15d, %r14d
	subl	%r14d, %edi
	jb	.LBB0c7ac18_44
.LBB0c7ac18_41:
	incq	%r11
	cmpq	%r11, %rcx
	je	.LBB0c7ac18_45
.LBB0c7ac18_38:
	movl	(%r10,%r11,4), %r14d
	movzwl	6(%r9,%r14), %r12d
	rolw	$8, %r12w
	movzbl	5(%r9,%r14), %r15d
	movzwl	%r12w, %r14d
	addl	%r15d, %r14d
	imull	$537, %r14d, %r14d
	shrl	$9, %r14d
	leal	81(%r14), %r12d
	addl	$61, %r14d
	testq	%r11, %r11
	je	.LBB0c7ac18_40
	testb	%r15b, %r15b
	cmovnel	%r12d, %r14d
	subl	%r14d, %edi
	jae	.LBB0c7ac18_41
	jmp	.LBB0c7ac18_44
.LBB0c7ac18_42:
	cmpb	$1, 840(%rbx)
	jne	.LBB0c7ac18_44
	movl	844(%rbx), %edi
	movl	$1, %ebp
	cmpq	%rcx, %r11
	jb	.LBB0c7ac18_33
	jmp	.LBB0c7ac18_45
.LBB0c7ac18_44:
	xorl	%edi, %edi
	xorl	%ebp, %ebp
.LBB0c7ac18_45:
	movl	%ebp, 840(%rbx)
	movl	%edi, 844(%rbx)
	movq	%rcx, 832(%rbx)
	testl	%ebp, %ebp
	je	.LBB0c7ac18_50
	movq	%rax, %r9
	shrq	$40, %r9
	movq	%rax, %r10
	shrq	$48, %r10
	rolw	$8, %r10w
	movzbl	%r9b, %r11d
	movzwl	%r10w, %r10d
	addl	%r10d, %r11d
	testb	%r8b, %r8b
	je	.LBB0c7ac18_49
	testb	%sil, %sil
	je	.LBB0c7ac18_59
	imull	$2137, %r11d, %esi
	shrl	$11, %esi
	leal	146(%rsi), %r8d
	addl	$101, %esi
	testb	%r9b, %r9b
	cmovnel	%r8d, %esi
	movl	$109, %r8d
	jmp	.LBB0c7ac18_60
.LBB0c7ac18_49:
	testb	%sil, %sil
	movl	$20, %esi
	movl	$45, %r8d
	cmovel	%esi, %r8d
	xorl	%esi, %esi
	testb	%r9b, %r9b
	cmovnel	%r8d, %esi
	addl	%r11d, %esi
	cmpl	%edi, %esi
	jbe	.LBB0c7ac18_61
.LBB0c7ac18_50:
	movb	$1, 984(%rbx)
	movq	%rax, 985(%rbx)
	movq	16(%rsp), %rax
	movq	23(%rsp), %rcx
	movq	%rax, 993(%rbx)
	movq	%rcx, 1000(%rbx)
	xorps	%xmm0, %xmm0
	jmp	.LBB0c7ac18_8
.LBB0c7ac18_51:
	movzbl	12(%rsp), %eax
	movb	%al, 4(%rbp)
	movl	8(%rsp), %eax
	movl	%eax, (%rbp)
.LBB0c7ac18_52:
	movq	$-1, 5(%rbp)
	cmpq	$14, %r14
	jb	.LBB0c7ac18_56
	addq	$13, %rbp
	addq	$-14, %r14
	je	.LBB0c7ac18_55
	movq	%rbp, %rdi
	xorl	%esi, %esi
	movq	%r14, %rdx
	callq	memset@PLT
.LBB0c7ac18_55:
	movb	$0, (%rbp,%r14)
.LBB0c7ac18_56:
	movq	$1, 792(%rbx)
	movq	$0, 800(%rbx)
	movq	$13, 808(%rbx)
	movb	$0, 816(%rbx)
	cmpq	$0, 832(%rbx)
	je	.LBB0c7ac18_58
	cmpb	$0, 824(%rbx)
	movl	$3625, %eax
	movl	$7294, %ecx
	cmovel	%eax, %ecx
	movq	$0, 832(%rbx)
	movl	$1, 840(%rbx)
	movl	%ecx, 844(%rbx)
.LBB0c7ac18_58:
	movb	$6, 984(%rbx)
	movl	$0, 985(%rbx)
	movl	$0, 988(%rbx)
	movq	$5, 992(%rbx)
	xorps	%xmm0, %xmm0
	movups	%xmm0, 1000(%rbx)
	movq	$0, 1016(%rbx)
	jmp	.LBB0c7ac18_9
.LBB0c7ac18_59:
	imull	$537, %r11d, %esi
	shrl	$9, %esi
	leal	81(%rsi), %r8d
	addl	$61, %esi
	testb	%r9b, %r9b
	cmovnel	%r8d, %esi
	movl	$69, %r8d
.LBB0c7ac18_60:
	xorl	%r11d, %r11d
	subl	%r8d, %esi
	cmovbl	%r11d, %esi
	cmpl	%edi, %esi
	ja	.LBB0c7ac18_50
.LBB0c7ac18_61:
	movzbl	%r9b, %esi
	addq	%rsi, %r10
	movb	$5, 984(%rbx)
	movl	$0, 985(%rbx)
	movl	$0, 988(%rbx)
	movq	%rdx, 992(%rbx)
	movq	%r10, 1000(%rbx)
	movq	%rcx, 1008(%rbx)
	movq	%rax, 1016(%rbx)
	jmp	.LBB0c7ac18_9
.Lfunc_end0c7ac18:
	.size	ckd_drive_job_Job_collect_808c45e55832e08b_.7006b13, .Lfunc_end0c7ac18-ckd_drive_job_Job_collect_808c45e55832e08b_.7006b13

	.section	".text.ckd_drive::job::Job::fill::<#808c45e55832e08b>","ax",@progbits
	.p2align	4
	.type	ckd_drive_job_Job_fill_808c45e55832e08b_.ddae6a7,@function
ckd_drive_job_Job_fill_808c45e55832e08b_.ddae6a7:
	testq	%rdx, %rdx
	je	.LBB6c1a733_6
	movq	744(%rdi), %rax
	leaq	(%rcx,%rdx), %r10
	movzbl	%r9b, %r9d
	shll	$8, %r9d
	orq	$2, %r9
	movb	$6, 984(%rdi)
	movl	$0, 985(%rdi)
	movl	$0, 988(%rdi)
	movq	%r10, 992(%rdi)
	movq	%r8, %r10
	subq	%rdx, %r10
	movq	%r10, 1000(%rdi)
	movq	%r9, 1008(%rdi)
	movq	$0, 1016(%rdi)
	movb	$1, 856(%rdi)
	jne	.LBB6c1a733_7
	cmpb	$0, 816(%rdi)
	je	.LBB6c1a733_7
	leaq	(%rax,%rcx), %rdi
	movq	%rdi, %r8
	subq	%rsi, %r8
	cmpq	%rdx, %r8
	jae	memmove@PLT
	cmpq	$4, %rdx
	jb	.LBB6c1a733_5
	cmpq	$32, %r8
	jae	.LBB6c1a733_10
.LBB6c1a733_5:
	xorl	%r8d, %r8d
.LBB6c1a733_19:
	movq	%rdx, %r10
	movq	%r8, %r9
	andq	$3, %r10
	je	.LBB6c1a733_22
	movq	%r8, %r9
	.p2align	4
.LBB6c1a733_21:
	movzbl	(%rsi,%r9), %r11d
	movb	%r11b, (%rdi,%r9)
	incq	%r9
	decq	%r10
	jne	.LBB6c1a733_21
.LBB6c1a733_22:
	subq	%rdx, %r8
	cmpq	$-4, %r8
	ja	.LBB6c1a733_25
	addq	%rcx, %rax
	addq	$3, %rax
	.p2align	4
.LBB6c1a733_24:
	movzbl	(%rsi,%r9), %ecx
	movb	%cl, -3(%rax,%r9)
	movzbl	1(%rsi,%r9), %ecx
	movb	%cl, -2(%rax,%r9)
	movzbl	2(%rsi,%r9), %ecx
	movb	%cl, -1(%rax,%r9)
	movzbl	3(%rsi,%r9), %ecx
	movb	%cl, (%rax,%r9)
	addq	$4, %r9
	cmpq	%r9, %rdx
	jne	.LBB6c1a733_24
.LBB6c1a733_25:
	retq
.LBB6c1a733_6:
	movb	$4, 984(%rdi)
	movl	$0, 985(%rdi)
	movl	$0, 988(%rdi)
	movq	%rcx, 992(%rdi)
	movq	%r8, 1000(%rdi)
	movb	%r9b, 1008(%rdi)
	movq	$0, 1009(%rdi)
	movq	$0, 1016(%rdi)
	retq
.LBB6c1a733_7:
	addq	$744, %rdi
	movq	%rsi, %rax
	movq	%rcx, %rsi
	movq	%rdx, %r9
	movq	%r8, %rdx
	movq	%rax, %rcx
	movq	%r9, %r8
	jmp	ckd_slot_buffer_TrackBuffer_replace_and_clear.1a339ea
.LBB6c1a733_10:
	cmpq	$32, %rdx
	jae	.LBB6c1a733_12
	xorl	%r8d, %r8d
	jmp	.LBB6c1a733_16
.LBB6c1a733_12:
	movq	%rdx, %r8
	andq	$-32, %r8
	leaq	(%rcx,%rax), %r9
	addq	$16, %r9
	xorl	%r10d, %r10d
	.p2align	4
.LBB6c1a733_13:
	movups	(%rsi,%r10), %xmm0
	movups	16(%rsi,%r10), %xmm1
	movups	%xmm0, -16(%r9,%r10)
	movups	%xmm1, (%r9,%r10)
	addq	$32, %r10
	cmpq	%r10, %r8
	jne	.LBB6c1a733_13
	cmpq	%r8, %rdx
	je	.LBB6c1a733_25
	testb	$28, %dl
	je	.LBB6c1a733_19
.LBB6c1a733_16:
	movq	%r8, %r9
	movq	%rdx, %r8
	andq	$-4, %r8
	.p2align	4
.LBB6c1a733_17:
	movl	(%rsi,%r9), %r10d
	movl	%r10d, (%rdi,%r9)
	addq	$4, %r9
	cmpq	%r9, %r8
	jne	.LBB6c1a733_17
	cmpq	%r8, %rdx
	je	.LBB6c1a733_25
	jmp	.LBB6c1a733_19
.Lfunc_end6c1a733:
	.size	ckd_drive_job_Job_fill_808c45e55832e08b_.ddae6a7, .Lfunc_end6c1a733-ckd_drive_job_Job_fill_808c45e55832e08b_.ddae6a7

	.section	".text.ckd_slot::buffer::TrackBuffer::replace_and_clear","ax",@progbits
	.p2align	4
	.type	ckd_slot_buffer_TrackBuffer_replace_and_clear.1a339ea,@function
ckd_slot_buffer_TrackBuffer_replace_and_clear.1a339ea:
	pushq	%rbp
	pushq	%r15
	pushq	%r14
	pushq	%r13
	pushq	%r12
	pushq	%rbx
	subq	$24, %rsp
	movq	%r8, %rbx
	movq	%rcx, %r14
	movq	%rsi, %rbp
	cmpb	$1, 48(%rdi)
	movq	56(%rdi), %rax
	sete	%cl
	testq	%rax, %rax
	setne	%sil
	andb	%cl, %sil
	movq	(%rdi), %r8
	movl	$5, %r15d
	cmpb	$1, %sil
	jne	.LBB0e7e23c_2
	movq	24(%rdi), %rcx
	movl	-4(%rcx,%rax,4), %eax
	movzwl	6(%r8,%rax), %ecx
	rolw	$8, %cx
	movzbl	5(%r8,%rax), %esi
	movzwl	%cx, %ecx
	addq	%rax, %rsi
	leaq	(%rcx,%rsi), %r15
	addq	$8, %r15
.LBB0e7e23c_2:
	movq	64(%rdi), %r12
	leaq	8(%r15), %r13
	movq	%r13, 64(%rdi)
	movb	$1, 72(%rdi)
	cmpq	%rbx, %rdx
	jne	.LBB0e7e23c_4
	movq	$-1, (%r8,%r15)
	cmpq	%r12, %r13
	jb	.LBB0e7e23c_7
	jmp	.LBB0e7e23c_10
.LBB0e7e23c_4:
	movq	%rbp, 16(%rsp)
	addq	%rbx, %rbp
	cmpq	%r12, %rbp
	cmovaq	%rbp, %r12
	addq	%r8, %rbp
	movq	%rbx, %rax
	notq	%rax
	addq	%rax, %rdx
	je	.LBB0e7e23c_6
	movq	%rbp, %rdi
	xorl	%esi, %esi
	movq	%rdx, (%rsp)
	movq	(%rsp), %rdx
	movq	%r8, 8(%rsp)
	callq	memset@PLT
	movq	8(%rsp), %r8
	movq	(%rsp), %rdx
.LBB0e7e23c_6:
	movb	$0, (%rbp,%rdx)
	movq	$-1, (%r8,%r15)
	cmpq	%r12, %r13
	movq	16(%rsp), %rbp
	jae	.LBB0e7e23c_10
.LBB0e7e23c_7:
	addq	%r8, %r13
	subq	%r15, %r12
	addq	$-9, %r12
	je	.LBB0e7e23c_9
	movq	%r13, %rdi
	xorl	%esi, %esi
	movq	%r12, %rdx
	movq	%r8, %r15
	callq	memset@PLT
	movq	%r15, %r8
.LBB0e7e23c_9:
	movb	$0, (%r13,%r12)
.LBB0e7e23c_10:
	leaq	(%r8,%rbp), %rdi
	movq	%rdi, %rax
	subq	%r14, %rax
	cmpq	%rbx, %rax
	jae	.LBB0e7e23c_13
	cmpq	$4, %rbx
	jb	.LBB0e7e23c_12
	cmpq	$32, %rax
	jae	.LBB0e7e23c_16
.LBB0e7e23c_12:
	xorl	%eax, %eax
.LBB0e7e23c_25:
	movq	%rbx, %rdx
	movq	%rax, %rcx
	andq	$3, %rdx
	je	.LBB0e7e23c_28
	movq	%rax, %rcx
	.p2align	4
.LBB0e7e23c_27:
	movzbl	(%r14,%rcx), %esi
	movb	%sil, (%rdi,%rcx)
	incq	%rcx
	decq	%rdx
	jne	.LBB0e7e23c_27
.LBB0e7e23c_28:
	subq	%rbx, %rax
	cmpq	$-4, %rax
	ja	.LBB0e7e23c_31
	leaq	(%r8,%rbp), %rax
	addq	$3, %rax
	.p2align	4
.LBB0e7e23c_30:
	movzbl	(%r14,%rcx), %edx
	movb	%dl, -3(%rax,%rcx)
	movzbl	1(%r14,%rcx), %edx
	movb	%dl, -2(%rax,%rcx)
	movzbl	2(%r14,%rcx), %edx
	movb	%dl, -1(%rax,%rcx)
	movzbl	3(%r14,%rcx), %edx
	movb	%dl, (%rax,%rcx)
	addq	$4, %rcx
	cmpq	%rcx, %rbx
	jne	.LBB0e7e23c_30
.LBB0e7e23c_31:
	addq	$24, %rsp
	popq	%rbx
	popq	%r12
	popq	%r13
	popq	%r14
	popq	%r15
	popq	%rbp
	retq
.LBB0e7e23c_13:
	movq	%r14, %rsi
	movq	%rbx, %rdx
	addq	$24, %rsp
	popq	%rbx
	popq	%r12
	popq	%r13
	popq	%r14
	popq	%r15
	popq	%rbp
	jmp	memmove@PLT
.LBB0e7e23c_16:
	cmpq	$32, %rbx
	jae	.LBB0e7e23c_18
	xorl	%eax, %eax
	jmp	.LBB0e7e23c_22
.LBB0e7e23c_18:
	movq	%rbx, %rax
	andq	$-32, %rax
	leaq	(%r8,%rbp), %rcx
	addq	$16, %rcx
	xorl	%edx, %edx
	.p2align	4
.LBB0e7e23c_19:
	movups	(%r14,%rdx), %xmm0
	movups	16(%r14,%rdx), %xmm1
	movups	%xmm0, -16(%rcx,%rdx)
	movups	%xmm1, (%rcx,%rdx)
	addq	$32, %rdx
	cmpq	%rdx, %rax
	jne	.LBB0e7e23c_19
	cmpq	%rax, %rbx
	je	.LBB0e7e23c_31
	testb	$28, %bl
	je	.LBB0e7e23c_25
.LBB0e7e23c_22:
	movq	%rax, %rcx
	movq	%rbx, %rax
	andq	$-4, %rax
	.p2align	4
.LBB0e7e23c_23:
	movl	(%r14,%rcx), %edx
	movl	%edx, (%rdi,%rcx)
	addq	$4, %rcx
	cmpq	%rcx, %rax
	jne	.LBB0e7e23c_23
	cmpq	%rax, %rbx
	je	.LBB0e7e23c_31
	jmp	.LBB0e7e23c_25
.Lfunc_end0e7e23c:
	.size	ckd_slot_buffer_TrackBuffer_replace_and_clear.1a339ea, .Lfunc_end0e7e23c-ckd_slot_buffer_TrackBuffer_replace_and_clear.1a339ea

	.section	.text.dasd_drive_attach,"ax",@progbits
	.globl	dasd_drive_attach
	.p2align	4
	.type	dasd_drive_attach,@function
dasd_drive_attach:
	pushq	%rbp
	pushq	%r15
	pushq	%r14
	pushq	%r13
	pushq	%r12
	pushq	%rbx
	subq	$2872, %rsp
	xorl	%ebx, %ebx
	testq	%rsi, %rsi
	sete	%r13b
	movl	$-2, %eax
	movabsq	$5498699729448618326, %rcx
	cmpq	%rcx, (%rdi)
	je	.LBBff896b9_45
	movq	%rdx, %r14
	movq	%rsi, %r12
	movq	%rdi, 40(%rsp)
	leaq	1832(%rsp), %rdi
	movl	$1040, %edx
	xorl	%esi, %esi
	callq	memset@PLT
	leaq	128(%rsp), %rdi
	movl	$664, %edx
	xorl	%esi, %esi
	callq	memset@PLT
	testq	%r14, %r14
	je	.LBBff896b9_5
	movb	$2, %bpl
	js	.LBBff896b9_39
	movl	$1, %esi
	movq	%r14, %rdi
	callq	rattle_alloc@PLT
	testb	$1, %al
	je	.LBBff896b9_39
	movq	%rdx, %r15
	jmp	.LBBff896b9_6
.LBBff896b9_5:
	leaq	8(%rsp), %r15
.LBBff896b9_6:
	movb	%r13b, %bl
	shll	$12, %ebx
	leaq	(%r12,%rbx), %r13
	movq	%r15, %rax
	subq	%r13, %rax
	cmpq	%r14, %rax
	jae	.LBBff896b9_9
	cmpq	$4, %r14
	jb	.LBBff896b9_8
	cmpq	$32, %rax
	jae	.LBBff896b9_12
.LBBff896b9_8:
	xorl	%eax, %eax
.LBBff896b9_21:
	movq	%r14, %rdx
	movq	%rax, %rcx
	andq	$3, %rdx
	je	.LBBff896b9_24
	movq	%rax, %rcx
	.p2align	4
.LBBff896b9_23:
	movzbl	(%r13,%rcx), %esi
	movb	%sil, (%r15,%rcx)
	incq	%rcx
	decq	%rdx
	jne	.LBBff896b9_23
.LBBff896b9_24:
	subq	%r14, %rax
	cmpq	$-4, %rax
	ja	.LBBff896b9_27
	leaq	(%rbx,%r12), %rax
	addq	$3, %rax
	.p2align	4
.LBBff896b9_26:
	movzbl	-3(%rax,%rcx), %edx
	movb	%dl, (%r15,%rcx)
	movzbl	-2(%rax,%rcx), %edx
	movb	%dl, 1(%r15,%rcx)
	movzbl	-1(%rax,%rcx), %edx
	movb	%dl, 2(%r15,%rcx)
	movzbl	(%rax,%rcx), %edx
	movb	%dl, 3(%r15,%rcx)
	addq	$4, %rcx
	cmpq	%rcx, %r14
	jne	.LBBff896b9_26
	jmp	.LBBff896b9_27
.LBBff896b9_9:
	movq	%r15, %rdi
	movq	%r13, %rsi
	movq	%r14, %rdx
	callq	memmove@PLT
.LBBff896b9_27:
	cmpq	$16, %r14
	jae	.LBBff896b9_30
	movb	$6, %r12b
	movb	$1, %bpl
	testq	%r14, %r14
	je	.LBBff896b9_40
	movq	%r15, %rdi
	callq	rattle_dealloc@PLT
	jmp	.LBBff896b9_40
.LBBff896b9_30:
	movl	12(%r13), %ebp
	cmpq	$513, %rbp
	jae	.LBBff896b9_32
	xorl	%ecx, %ecx
	xorl	%r13d, %r13d
	xorl	%ebx, %ebx
	movq	$0, 16(%rsp)
	xorl	%eax, %eax
	movb	$6, %r12b
	cmpq	$512, %r14
	jae	.LBBff896b9_53
	jmp	.LBBff896b9_61
.LBBff896b9_32:
	leal	-512(%rbp), %r12d
	leaq	(%r14,%rbp), %rax
	addq	%r12, %rax
	decq	%rax
	movq	%rax, %rcx
	shrq	$32, %rcx
	je	.LBBff896b9_34
	xorl	%edx, %edx
	divq	%rbp
	movq	%rax, %rbx
	jmp	.LBBff896b9_35
.LBBff896b9_12:
	cmpq	$32, %r14
	jae	.LBBff896b9_14
	xorl	%eax, %eax
	jmp	.LBBff896b9_18
.LBBff896b9_34:
	xorl	%edx, %edx
	divl	%ebp
	movl	%eax, %ebx
.LBBff896b9_35:
	leaq	(,%rbx,8), %rdi
	movl	$8, %esi
	callq	rattle_alloc@PLT
	testb	$1, %al
	je	.LBBff896b9_38
	movq	%rdx, %r13
	cmpq	$1, %rbx
	movq	%rbx, 16(%rsp)
	jne	.LBBff896b9_46
	xorl	%ebx, %ebx
	jmp	.LBBff896b9_52
.LBBff896b9_38:
	movq	%r15, %rdi
	callq	rattle_dealloc@PLT
	movb	$2, %bpl
.LBBff896b9_39:
	xorl	%r12d, %r12d
.LBBff896b9_40:
	testb	%bpl, %bpl
	je	.LBBff896b9_43
	movzbl	%bpl, %eax
	cmpl	$1, %eax
	jne	.LBBff896b9_44
	movzbl	%r12b, %ecx
	movl	$-32, %eax
	subl	%ecx, %eax
	jmp	.LBBff896b9_45
.LBBff896b9_43:
	movl	$-9, %eax
	jmp	.LBBff896b9_45
.LBBff896b9_44:
	movl	$-3, %eax
.LBBff896b9_45:
	addq	$2872, %rsp
	popq	%rbx
	popq	%r12
	popq	%r13
	popq	%r14
	popq	%r15
	popq	%rbp
	retq
.LBBff896b9_14:
	movq	%r14, %rax
	andq	$-32, %rax
	leaq	(%rbx,%r12), %rcx
	addq	$16, %rcx
	xorl	%edx, %edx
	.p2align	4
.LBBff896b9_15:
	movups	-16(%rcx,%rdx), %xmm0
	movups	(%rcx,%rdx), %xmm1
	movups	%xmm0, (%r15,%rdx)
	movups	%xmm1, 16(%r15,%rdx)
	addq	$32, %rdx
	cmpq	%rdx, %rax
	jne	.LBBff896b9_15
	cmpq	%rax, %r14
	je	.LBBff896b9_27
	testb	$28, %r14b
	je	.LBBff896b9_21
.LBBff896b9_18:
	movq	%rax, %rcx
	movq	%r14, %rax
	andq	$-4, %rax
	.p2align	4
.LBBff896b9_19:
	movl	(%r13,%rcx), %edx
	movl	%edx, (%r15,%rcx)
	addq	$4, %rcx
	cmpq	%rcx, %rax
	jne	.LBBff896b9_19
	cmpq	%rax, %r14
	je	.LBBff896b9_27
	jmp	.LBBff896b9_21
.LBBff896b9_46:
	decq	%rbx
	cmpq	$4, %rbx
	jae	.LBBff896b9_48
	xorl	%eax, %eax
	jmp	.LBBff896b9_50
.LBBff896b9_48:
	movq	%rbx, %rax
	andq	$-4, %rax
	xorl	%ecx, %ecx
	.p2align	4
.LBBff896b9_49:
	xorps	%xmm0, %xmm0
	movups	%xmm0, (%r13,%rcx,8)
	movups	%xmm0, 16(%r13,%rcx,8)
	addq	$4, %rcx
	cmpq	%rcx, %rax
	jne	.LBBff896b9_49
	jmp	.LBBff896b9_51
.LBBff896b9_50:
	movq	$0, (%r13,%rax,8)
	incq	%rax
.LBBff896b9_51:
	cmpq	%rax, %rbx
	jne	.LBBff896b9_50
.LBBff896b9_52:
	movq	$0, (%r13,%rbx,8)
	incq	%rbx
	movq	%rbp, %rax
	shlq	$32, %rax
	orq	%r12, %rax
	movb	$1, %cl
	movb	$6, %r12b
	cmpq	$512, %r14
	jb	.LBBff896b9_61
.LBBff896b9_53:
	movq	%rcx, 24(%rsp)
	movq	%rax, 32(%rsp)
	leaq	792(%rsp), %rdi
	movl	$512, %edx
	movq	%r15, %rsi
	callq	memcpy@PLT
	cmpl	$1598311235, 792(%rsp)
	jne	.LBBff896b9_60
	leaq	.Lstatic.1+8(%rip), %rdx
	leaq	792(%rsp), %rdi
	movl	$5, %esi
	callq	core_cmp_slices_groups_equal_i8_31_core_cmp_numbers_U8PartialEq_.3f1b21c
	movb	$1, %r12b
	testb	%al, %al
	jne	.LBBff896b9_61
	leaq	.Lstatic.2+8(%rip), %rdx
	leaq	792(%rsp), %rdi
	movl	$5, %esi
	callq	core_cmp_slices_groups_equal_i8_31_core_cmp_numbers_U8PartialEq_.3f1b21c
	testb	%al, %al
	jne	.LBBff896b9_61
	leaq	.Lstatic.3(%rip), %rdx
	leaq	792(%rsp), %rdi
	movl	$8, %esi
	callq	core_cmp_slices_groups_equal_i8_31_core_cmp_numbers_U8PartialEq_.3f1b21c
	testb	%al, %al
	je	.LBBff896b9_60
	movzbl	808(%rsp), %eax
	cmpl	$20, %eax
	je	.LBBff896b9_65
	movb	$2, %r12b
	cmpl	$17, %eax
	movq	32(%rsp), %r9
	movq	24(%rsp), %r10
	jne	.LBBff896b9_61
	movl	$10, %eax
	movl	$3662, %ecx
	movl	$10, %r8d
	xorl	%esi, %esi
	jmp	.LBBff896b9_66
.LBBff896b9_60:
	xorl	%r12d, %r12d
.LBBff896b9_61:
	movq	%r15, %rdi
	callq	rattle_dealloc@PLT
	movq	%rbp, %rax
	movb	$1, %bpl
	cmpl	$513, %eax
	jb	.LBBff896b9_40
	cmpq	$0, 16(%rsp)
	je	.LBBff896b9_40
	movq	%r13, %rdi
	callq	rattle_dealloc@PLT
	jmp	.LBBff896b9_40
.LBBff896b9_65:
	movl	$7331, %ecx
	movl	$1, %esi
	movq	%rax, %r8
	movq	32(%rsp), %r9
	movq	24(%rsp), %r10
.LBBff896b9_66:
	movb	$3, %r12b
	cmpl	%eax, 800(%rsp)
	jne	.LBBff896b9_61
	movl	804(%rsp), %edi
	cmpl	%ecx, %edi
	setb	%al
	cmpl	$65537, %edi
	setae	%cl
	orb	%al, %cl
	movb	$4, %r12b
	jne	.LBBff896b9_61
	cmpb	$1, 809(%rsp)
	movb	$5, %r12b
	ja	.LBBff896b9_61
	cmpw	$0, 810(%rsp)
	jne	.LBBff896b9_61
	imulq	%rdi, %r8
	leaq	-512(%r14), %rcx
	movq	%rcx, %rax
	orq	%r8, %rax
	shrq	$32, %rax
	je	.LBBff896b9_72
	movq	%rcx, %rax
	xorl	%edx, %edx
	divq	%r8
	jmp	.LBBff896b9_73
.LBBff896b9_72:
	movl	%ecx, %eax
	xorl	%edx, %edx
	divl	%r8d
.LBBff896b9_73:
	movb	$6, %r12b
	cmpq	$65535, %rax
	ja	.LBBff896b9_61
	cmpq	%rcx, %r8
	ja	.LBBff896b9_61
	imulq	%rax, %r8
	addq	$512, %r8
	cmpq	%r14, %r8
	jne	.LBBff896b9_61
	shlq	$16, %rax
	orq	%rsi, %rax
	movq	%rdi, %r12
	shlq	$32, %r12
	orq	%rax, %r12
	movq	%rcx, %rax
	shrq	$32, %rax
	je	.LBBff896b9_78
	movq	%rcx, %rax
	xorl	%edx, %edx
	divq	%rdi
	movq	%rax, %rbp
	jmp	.LBBff896b9_79
.LBBff896b9_78:
	movl	%ecx, %eax
	xorl	%edx, %edx
	divl	%edi
	movl	%eax, %ebp
.LBBff896b9_79:
	movq	$1, 48(%rsp)
	movq	%r15, 56(%rsp)
	movq	%r14, 64(%rsp)
	movq	%r14, 72(%rsp)
	xorps	%xmm0, %xmm0
	movups	%xmm0, 80(%rsp)
	movb	%r10b, 96(%rsp)
	movb	$0, 103(%rsp)
	movw	$0, 101(%rsp)
	movl	$0, 97(%rsp)
	movq	%r9, 104(%rsp)
	movq	%r13, 112(%rsp)
	movq	%rbx, 120(%rsp)
	movq	16(%rsp), %rax
	movq	%rax, 128(%rsp)
	leaq	136(%rsp), %rdi
	movl	$616, %edx
	xorl	%esi, %esi
	callq	memset@PLT
	movq	%r12, 752(%rsp)
	movl	%ebp, 760(%rsp)
	xorps	%xmm0, %xmm0
	movups	%xmm0, 764(%rsp)
	movups	%xmm0, 776(%rsp)
	leaq	1832(%rsp), %rdi
	leaq	48(%rsp), %rsi
	callq	lone_drive_c_drive_over.837ff07
	movzbl	1833(%rsp), %ebp
	movzbl	1834(%rsp), %r12d
	leaq	1835(%rsp), %rsi
	movzbl	1832(%rsp), %ebx
	leaq	792(%rsp), %rdi
	movl	$1037, %edx
	callq	memcpy@PLT
	testb	%bl, %bl
	jne	.LBBff896b9_40
	leaq	797(%rsp), %rsi
	leaq	1832(%rsp), %r14
	movl	$1032, %edx
	movq	%r14, %rdi
	callq	memcpy@PLT
	movq	40(%rsp), %rdi
	movq	%r14, %rsi
	callq	lone_drive_c_handle_hold.4592c1f
	jmp	.LBBff896b9_45
.Lfunc_endff896b9:
	.size	dasd_drive_attach, .Lfunc_endff896b9-dasd_drive_attach

	.section	.text.dasd_drive_attach_new,"ax",@progbits
	.globl	dasd_drive_attach_new
	.p2align	4
	.type	dasd_drive_attach_new,@function
dasd_drive_attach_new:
	pushq	%rbp
	pushq	%r15
	pushq	%r14
	pushq	%r13
	pushq	%r12
	pushq	%rbx
	subq	$3072, %rsp
	movq	$0, (%rsp)
	subq	$3072, %rsp
	movq	$0, (%rsp)
	subq	$3072, %rsp
	movq	$0, (%rsp)
	subq	$2984, %rsp
	movl	%edx, %ebp
	movl	%esi, %r14d
	movq	%rdi, %rbx
	leaq	2451(%rsp), %rdi
	movl	$1037, %edx
	xorl	%esi, %esi
	callq	memset@PLT
	leaq	11168(%rsp), %rdi
	movl	$1032, %edx
	xorl	%esi, %esi
	callq	memset@PLT
	movl	$-2, %eax
	movabsq	$5498699729448618326, %rcx
	cmpq	%rcx, (%rbx)
	je	.LBB19f1188_30
	movzwl	%r14w, %ecx
	cmpl	$2311, %ecx
	je	.LBB19f1188_2
	movl	$-8, %eax
	cmpl	$2314, %ecx
	jne	.LBB19f1188_30
	movl	$1, %r14d
	xorl	%r13d, %r13d
	jmp	.LBB19f1188_5
.LBB19f1188_2:
	movb	$1, %r13b
	xorl	%r14d, %r14d
.LBB19f1188_5:
	leaq	1408(%rsp), %rdi
	xorl	%r12d, %r12d
	movl	$1040, %edx
	xorl	%esi, %esi
	callq	memset@PLT
	leaq	152(%rsp), %rdi
	movl	$744, %edx
	xorl	%esi, %esi
	callq	memset@PLT
	testw	%bp, %bp
	je	.LBB19f1188_32
	movq	%rbx, 144(%rsp)
	testb	%r13b, %r13b
	movl	$4096, %eax
	movl	$7680, %ecx
	cmovneq	%rax, %rcx
	movl	$10, %eax
	movl	$20, %r15d
	cmovneq	%rax, %r15
	movzwl	%bp, %ebp
	imulq	%rbp, %r15
	imulq	%rcx, %r15
	leaq	512(%r15), %rbx
	movl	$1, %esi
	movq	%rbx, %rdi
	callq	rattle_alloc@PLT
	movb	$2, %r12b
	testb	$1, %al
	je	.LBB19f1188_32
	movq	%rdx, %rdi
	movq	%r14, 8(%rsp)
	movq	%r15, %rdx
	orq	$511, %rdx
	xorl	%esi, %esi
	movq	%rdi, %r14
	callq	memset@PLT
	movq	%r14, 40(%rsp)
	movb	$0, 511(%r14,%r15)
	movl	%r13d, 28(%rsp)
	testb	%r13b, %r13b
	movl	$4096, %eax
	movl	$7680, %r13d
	cmovnel	%eax, %r13d
	leal	-512(%r13), %eax
	movq	%rax, 16(%rsp)
	addq	%r13, %rax
	addq	%rbx, %rax
	decq	%rax
	movabsq	$30064771072, %rcx
	testq	%rcx, %rax
	movq	%rbp, 32(%rsp)
	je	.LBB19f1188_8
	xorl	%edx, %edx
	divq	%r13
	movq	%rax, %r14
	jmp	.LBB19f1188_10
.LBB19f1188_8:
	xorl	%edx, %edx
	divl	%r13d
	movl	%eax, %r14d
.LBB19f1188_10:
	leaq	(,%r14,8), %rbp
	movl	$8, %esi
	movq	%rbp, %rdi
	callq	rattle_alloc@PLT
	testb	$1, %al
	je	.LBB19f1188_31
	addq	$-8, %rbp
	movq	%rdx, %r12
	movq	%rdx, %rdi
	xorl	%esi, %esi
	movq	%rbp, %rdx
	callq	memset@PLT
	movq	%r14, %rdx
	movq	$0, -8(%r12,%r14,8)
	movq	%r13, %rax
	shlq	$32, %rax
	addq	16(%rsp), %rax
	movq	40(%rsp), %rdi
	movq	%rdi, 48(%rsp)
	movq	%rbx, 56(%rsp)
	movq	%rbx, 64(%rsp)
	xorps	%xmm0, %xmm0
	movups	%xmm0, 72(%rsp)
	movq	$1, 88(%rsp)
	movq	%rax, 96(%rsp)
	movq	%r12, 16(%rsp)
	movq	%r12, 104(%rsp)
	movq	%r14, 112(%rsp)
	movl	28(%rsp), %ebp
	testb	%bpl, %bpl
	movabsq	$17592186044416, %rax
	movabsq	$32985348833280, %rbx
	cmovneq	%rax, %rbx
	movl	$10, %eax
	movl	$20, %r12d
	cmovnel	%eax, %r12d
	movq	%r14, 120(%rsp)
	movq	%rbx, %r14
	shrq	$32, %r14
	movl	%r12d, %ecx
	imull	32(%rsp), %ecx
	movq	%r14, %rax
	movq	%rcx, 136(%rsp)
	imulq	%rcx, %rax
	cmpq	%r15, %rax
	jae	.LBB19f1188_13
	movq	%rdx, %r14
	movl	$0, 3(%rsp)
	movl	$0, (%rsp)
	movw	$257, 1408(%rsp)
	movb	$6, 1410(%rsp)
	movb	$1, %bl
	movb	$6, %bpl
	jmp	.LBB19f1188_18
.LBB19f1188_31:
	movq	40(%rsp), %rdi
	callq	rattle_dealloc@PLT
.LBB19f1188_32:
	xorl	%ebp, %ebp
.LBB19f1188_33:
	testb	%r12b, %r12b
	je	.LBB19f1188_34
	movzbl	%r12b, %eax
	cmpl	$1, %eax
	jne	.LBB19f1188_28
	movzbl	%bpl, %ecx
	movl	$-32, %eax
	subl	%ecx, %eax
	jmp	.LBB19f1188_30
.LBB19f1188_34:
	movl	$-9, %eax
	jmp	.LBB19f1188_30
.LBB19f1188_28:
	movl	$-3, %eax
.LBB19f1188_30:
	addq	$12200, %rsp
	popq	%rbx
	popq	%r12
	popq	%r13
	popq	%r14
	popq	%r15
	popq	%rbp
	retq
.LBB19f1188_13:
	leaq	916(%rsp), %rdi
	movl	$492, %edx
	xorl	%esi, %esi
	callq	memset@PLT
	xorb	$1, %bpl
	movzbl	%bpl, %eax
	leal	(%rax,%rax,2), %eax
	addl	$17, %eax
	movabsq	$3474302057828338499, %rcx
	movq	%rcx, 896(%rsp)
	movl	%r12d, 904(%rsp)
	movl	%r13d, 908(%rsp)
	movl	%eax, 912(%rsp)
	leaq	48(%rsp), %rdi
	leaq	896(%rsp), %rdx
	movl	$512, %r15d
	movl	$512, %ecx
	xorl	%esi, %esi
	callq	dasd_files_volume_file_VolumeFileImageStore_write_at.fa93a83
	testb	%al, %al
	movq	136(%rsp), %rbp
	je	.LBB19f1188_14
.LBB19f1188_17:
	movq	48(%rsp), %rdi
	movzbl	88(%rsp), %ebx
	movq	104(%rsp), %rax
	movq	%rax, 16(%rsp)
	movq	120(%rsp), %r14
	leaq	81(%rsp), %rcx
	movl	(%rcx), %eax
	movl	3(%rcx), %ecx
	movl	%eax, (%rsp)
	movl	%ecx, 3(%rsp)
	cmpq	$0, 64(%rsp)
	movw	$257, 1408(%rsp)
	movb	$7, 1410(%rsp)
	movb	$7, %bpl
	je	.LBB19f1188_19
.LBB19f1188_18:
	callq	rattle_dealloc@PLT
.LBB19f1188_19:
	movb	$1, %r12b
	cmpb	$1, %bl
	movq	16(%rsp), %rdi
	jne	.LBB19f1188_33
	testq	%r14, %r14
	je	.LBB19f1188_33
	callq	rattle_dealloc@PLT
	jmp	.LBB19f1188_33
.LBB19f1188_14:
	movq	32(%rsp), %rcx
	shll	$16, %ecx
	movq	8(%rsp), %rax
	orq	%rcx, %rax
	orq	%rbx, %rax
	movq	%rax, 8(%rsp)
	leaq	3517(%rsp), %rbx
	xorl	%r13d, %r13d
	movl	$7651, %edx
	movq	%rbx, %rdi
	xorl	%esi, %esi
	callq	memset@PLT
	.p2align	4
.LBB19f1188_16:
	movl	%r13d, %eax
	xorl	%edx, %edx
	divl	%r12d
	movl	%eax, %ecx
	shrl	$8, %ecx
	movb	$0, 3488(%rsp)
	movb	%cl, 3489(%rsp)
	movb	%al, 3490(%rsp)
	movb	$0, 3491(%rsp)
	movb	%dl, 3492(%rsp)
	movb	%cl, 3493(%rsp)
	movb	%al, 3494(%rsp)
	movb	$0, 3495(%rsp)
	movb	%dl, 3496(%rsp)
	movl	$134217728, 3497(%rsp)
	movq	$0, 3501(%rsp)
	movq	$-1, 3509(%rsp)
	movq	%rbx, %rdi
	xorl	%esi, %esi
	leaq	-30(%r14), %rdx
	callq	memset@PLT
	movb	$0, 3487(%rsp,%r14)
	leaq	48(%rsp), %rdi
	leaq	3488(%rsp), %rdx
	movq	%r15, %rsi
	movq	%r14, %rcx
	callq	dasd_files_volume_file_VolumeFileImageStore_write_at.fa93a83
	testb	%al, %al
	jne	.LBB19f1188_17
	incq	%r13
	addq	%r14, %r15
	cmpq	%r13, %rbp
	jne	.LBB19f1188_16
	movzbl	80(%rsp), %r9d
	movzbl	88(%rsp), %ecx
	movzbl	95(%rsp), %eax
	shll	$16, %eax
	movzwl	93(%rsp), %edx
	orl	%eax, %edx
	shlq	$32, %rdx
	movl	89(%rsp), %esi
	orq	%rdx, %rsi
	movq	96(%rsp), %rdi
	movq	104(%rsp), %r8
	leaq	81(%rsp), %rdx
	movl	(%rdx), %eax
	movl	3(%rdx), %edx
	movl	%eax, (%rsp)
	movl	%edx, 3(%rsp)
	movaps	48(%rsp), %xmm0
	movq	$-512, %rax
	addq	56(%rsp), %rax
	movq	%rax, %rdx
	shrq	$32, %rdx
	je	.LBB19f1188_23
	xorl	%edx, %edx
	divq	%r14
	movq	%rax, %r14
	jmp	.LBB19f1188_25
.LBB19f1188_23:
	xorl	%edx, %edx
	divl	%r14d
	movl	%eax, %r14d
.LBB19f1188_25:
	movq	8(%rsp), %r15
	movaps	64(%rsp), %xmm1
	movaps	112(%rsp), %xmm2
	movq	$1, 152(%rsp)
	movups	%xmm0, 160(%rsp)
	movups	%xmm1, 176(%rsp)
	movb	%r9b, 192(%rsp)
	movl	(%rsp), %eax
	movl	3(%rsp), %edx
	movl	%eax, 193(%rsp)
	movl	%edx, 196(%rsp)
	movb	%cl, 200(%rsp)
	movl	%esi, 201(%rsp)
	movq	%rsi, %rax
	shrq	$48, %rax
	movb	%al, 207(%rsp)
	shrq	$32, %rsi
	movw	%si, 205(%rsp)
	movq	%rdi, 208(%rsp)
	movq	%r8, 216(%rsp)
	movups	%xmm2, 224(%rsp)
	leaq	240(%rsp), %rdi
	movl	$616, %edx
	xorl	%esi, %esi
	callq	memset@PLT
	movq	%r15, 856(%rsp)
	movl	%r14d, 864(%rsp)
	xorps	%xmm0, %xmm0
	movups	%xmm0, 868(%rsp)
	movups	%xmm0, 880(%rsp)
	leaq	1408(%rsp), %rdi
	leaq	152(%rsp), %rsi
	callq	lone_drive_c_drive_over.837ff07
	movzbl	1409(%rsp), %r12d
	movzbl	1410(%rsp), %ebp
	leaq	1411(%rsp), %rsi
	movzbl	1408(%rsp), %r14d
	leaq	2451(%rsp), %rdi
	movl	$1037, %edx
	callq	memcpy@PLT
	testb	%r14b, %r14b
	jne	.LBB19f1188_33
	leaq	2456(%rsp), %rsi
	leaq	11168(%rsp), %r14
	movl	$1032, %edx
	movq	%r14, %rdi
	callq	memcpy@PLT
	movq	144(%rsp), %rdi
	movq	%r14, %rsi
	callq	lone_drive_c_handle_hold.4592c1f
	jmp	.LBB19f1188_30
.Lfunc_end19f1188:
	.size	dasd_drive_attach_new, .Lfunc_end19f1188-dasd_drive_attach_new

	.section	.text.dasd_drive_copy,"ax",@progbits
	.globl	dasd_drive_copy
	.p2align	4
	.type	dasd_drive_copy,@function
dasd_drive_copy:
	pushq	%rbp
	pushq	%r15
	pushq	%r14
	pushq	%r13
	pushq	%r12
	pushq	%rbx
	subq	$3072, %rsp
	movq	$0, (%rsp)
	subq	$3072, %rsp
	movq	$0, (%rsp)
	subq	$1688, %rsp
	movabsq	$5498699729448618326, %rbx
	movl	$-1, %eax
	cmpq	%rbx, (%rdi)
	jne	.LBBdb5fcef_203
	movq	%rsi, %r15
	movq	%rdi, %r14
	movq	8(%rdi), %r12
	xorps	%xmm0, %xmm0
	movups	%xmm0, (%rdi)
	movl	$0, 819(%rsp)
	movl	$0, 816(%rsp)
	movl	$0, 811(%rsp)
	movl	$0, 808(%rsp)
	movaps	%xmm0, 5488(%rsp)
	movaps	%xmm0, 5472(%rsp)
	movaps	%xmm0, 5456(%rsp)
	movaps	%xmm0, 5440(%rsp)
	movq	$0, 5504(%rsp)
	movaps	%xmm0, 5888(%rsp)
	movaps	%xmm0, 5872(%rsp)
	movaps	%xmm0, 5200(%rsp)
	movaps	%xmm0, 5184(%rsp)
	movaps	%xmm0, 5168(%rsp)
	movq	$0, 5216(%rsp)
	movw	$0, 780(%rsp)
	movl	$0, 776(%rsp)
	movaps	%xmm0, 5856(%rsp)
	movq	$0, 2647(%rsp)
	movq	$0, 2640(%rsp)
	movaps	%xmm0, 5840(%rsp)
	movq	$0, 2631(%rsp)
	movq	$0, 2624(%rsp)
	movaps	%xmm0, 5824(%rsp)
	movq	$0, 2615(%rsp)
	movq	$0, 2608(%rsp)
	movaps	%xmm0, 5808(%rsp)
	movq	$0, 2599(%rsp)
	movq	$0, 2592(%rsp)
	movaps	%xmm0, 5792(%rsp)
	movq	$0, 2583(%rsp)
	movq	$0, 2576(%rsp)
	movaps	%xmm0, 5776(%rsp)
	movq	$0, 2567(%rsp)
	movq	$0, 2560(%rsp)
	movaps	%xmm0, 5760(%rsp)
	movq	$0, 2551(%rsp)
	movq	$0, 2544(%rsp)
	movaps	%xmm0, 5744(%rsp)
	movq	$0, 2535(%rsp)
	movq	$0, 2528(%rsp)
	movaps	%xmm0, 5728(%rsp)
	movaps	%xmm0, 5712(%rsp)
	movl	$0, 803(%rsp)
	movl	$0, 800(%rsp)
	movl	$0, 795(%rsp)
	movl	$0, 792(%rsp)
	movaps	%xmm0, 5408(%rsp)
	movaps	%xmm0, 5392(%rsp)
	movaps	%xmm0, 5376(%rsp)
	movaps	%xmm0, 5360(%rsp)
	movq	$0, 5424(%rsp)
	movaps	%xmm0, 5696(%rsp)
	movaps	%xmm0, 5680(%rsp)
	movaps	%xmm0, 5136(%rsp)
	movaps	%xmm0, 5120(%rsp)
	movaps	%xmm0, 5104(%rsp)
	movq	$0, 5152(%rsp)
	movw	$0, 772(%rsp)
	movl	$0, 768(%rsp)
	leaq	6800(%rsp), %rdi
	movl	$1032, %edx
	xorl	%esi, %esi
	callq	memset@PLT
	movl	$-2, %eax
	movq	%r15, 5096(%rsp)
	cmpq	%rbx, (%r15)
	je	.LBBdb5fcef_202
	xorps	%xmm0, %xmm0
	movaps	%xmm0, 4752(%rsp)
	movq	$0, 1399(%rsp)
	movq	$0, 1392(%rsp)
	movaps	%xmm0, 4736(%rsp)
	movq	$0, 1383(%rsp)
	movq	$0, 1376(%rsp)
	movaps	%xmm0, 4720(%rsp)
	movq	$0, 1367(%rsp)
	movq	$0, 1360(%rsp)
	movaps	%xmm0, 4704(%rsp)
	movq	$0, 1351(%rsp)
	movq	$0, 1344(%rsp)
	movaps	%xmm0, 4688(%rsp)
	movq	$0, 1335(%rsp)
	movq	$0, 1328(%rsp)
	movaps	%xmm0, 4672(%rsp)
	movq	$0, 1319(%rsp)
	movq	$0, 1312(%rsp)
	movaps	%xmm0, 4656(%rsp)
	movq	$0, 1303(%rsp)
	movq	$0, 1296(%rsp)
	movaps	%xmm0, 4640(%rsp)
	movq	$0, 1287(%rsp)
	movq	$0, 1280(%rsp)
	movaps	%xmm0, 4624(%rsp)
	movaps	%xmm0, 4608(%rsp)
	movl	$0, 723(%rsp)
	movl	$0, 720(%rsp)
	movl	$0, 715(%rsp)
	movl	$0, 712(%rsp)
	movaps	%xmm0, 4464(%rsp)
	movaps	%xmm0, 4448(%rsp)
	movaps	%xmm0, 4432(%rsp)
	movaps	%xmm0, 4416(%rsp)
	movq	$0, 4480(%rsp)
	movaps	%xmm0, 4592(%rsp)
	movaps	%xmm0, 4576(%rsp)
	movaps	%xmm0, 4320(%rsp)
	movaps	%xmm0, 4304(%rsp)
	movaps	%xmm0, 4288(%rsp)
	movq	$0, 4336(%rsp)
	movw	$0, 700(%rsp)
	movl	$0, 696(%rsp)
	movaps	%xmm0, 6080(%rsp)
	movq	$0, 2775(%rsp)
	movq	$0, 2768(%rsp)
	movaps	%xmm0, 6064(%rsp)
	movq	$0, 2759(%rsp)
	movq	$0, 2752(%rsp)
	movaps	%xmm0, 6048(%rsp)
	movq	$0, 2743(%rsp)
	movq	$0, 2736(%rsp)
	movaps	%xmm0, 6032(%rsp)
	movq	$0, 2727(%rsp)
	movq	$0, 2720(%rsp)
	movaps	%xmm0, 6016(%rsp)
	movq	$0, 2711(%rsp)
	movq	$0, 2704(%rsp)
	movaps	%xmm0, 6000(%rsp)
	movq	$0, 2695(%rsp)
	movq	$0, 2688(%rsp)
	movaps	%xmm0, 5984(%rsp)
	movq	$0, 2679(%rsp)
	movq	$0, 2672(%rsp)
	movaps	%xmm0, 5968(%rsp)
	movq	$0, 2663(%rsp)
	movq	$0, 2656(%rsp)
	movaps	%xmm0, 5952(%rsp)
	movaps	%xmm0, 5936(%rsp)
	movl	$0, 835(%rsp)
	movl	$0, 832(%rsp)
	movl	$0, 827(%rsp)
	movl	$0, 824(%rsp)
	movaps	%xmm0, 5568(%rsp)
	movaps	%xmm0, 5552(%rsp)
	movaps	%xmm0, 5536(%rsp)
	movaps	%xmm0, 5520(%rsp)
	movq	$0, 5584(%rsp)
	movaps	%xmm0, 5920(%rsp)
	movaps	%xmm0, 5904(%rsp)
	movaps	%xmm0, 5264(%rsp)
	movaps	%xmm0, 5248(%rsp)
	movaps	%xmm0, 5232(%rsp)
	movq	$0, 5280(%rsp)
	movw	$0, 788(%rsp)
	movl	$0, 784(%rsp)
	movaps	%xmm0, 6272(%rsp)
	movq	$0, 2903(%rsp)
	movq	$0, 2896(%rsp)
	movaps	%xmm0, 6256(%rsp)
	movq	$0, 2887(%rsp)
	movq	$0, 2880(%rsp)
	movaps	%xmm0, 6240(%rsp)
	movq	$0, 2871(%rsp)
	movq	$0, 2864(%rsp)
	movaps	%xmm0, 6224(%rsp)
	movq	$0, 2855(%rsp)
	movq	$0, 2848(%rsp)
	movaps	%xmm0, 6208(%rsp)
	movq	$0, 2839(%rsp)
	movq	$0, 2832(%rsp)
	movaps	%xmm0, 6192(%rsp)
	movq	$0, 2823(%rsp)
	movq	$0, 2816(%rsp)
	movaps	%xmm0, 6176(%rsp)
	movq	$0, 2807(%rsp)
	movq	$0, 2800(%rsp)
	movaps	%xmm0, 6160(%rsp)
	movq	$0, 2791(%rsp)
	movq	$0, 2784(%rsp)
	movaps	%xmm0, 6144(%rsp)
	movaps	%xmm0, 6128(%rsp)
	movl	$0, 851(%rsp)
	movl	$0, 848(%rsp)
	movl	$0, 843(%rsp)
	movl	$0, 840(%rsp)
	movaps	%xmm0, 5648(%rsp)
	movaps	%xmm0, 5632(%rsp)
	movaps	%xmm0, 5616(%rsp)
	movaps	%xmm0, 5600(%rsp)
	movq	$0, 5664(%rsp)
	movaps	%xmm0, 6112(%rsp)
	movaps	%xmm0, 6096(%rsp)
	movaps	%xmm0, 5328(%rsp)
	movaps	%xmm0, 5312(%rsp)
	movaps	%xmm0, 5296(%rsp)
	movq	$0, 5344(%rsp)
	movaps	%xmm0, 4944(%rsp)
	movq	$0, 1527(%rsp)
	movq	$0, 1520(%rsp)
	movaps	%xmm0, 4928(%rsp)
	movq	$0, 1511(%rsp)
	movq	$0, 1504(%rsp)
	movaps	%xmm0, 4912(%rsp)
	movq	$0, 1495(%rsp)
	movq	$0, 1488(%rsp)
	movaps	%xmm0, 4896(%rsp)
	movq	$0, 1479(%rsp)
	movq	$0, 1472(%rsp)
	movaps	%xmm0, 4880(%rsp)
	movq	$0, 1463(%rsp)
	movq	$0, 1456(%rsp)
	movaps	%xmm0, 4864(%rsp)
	movq	$0, 1447(%rsp)
	movq	$0, 1440(%rsp)
	movaps	%xmm0, 4848(%rsp)
	movq	$0, 1431(%rsp)
	movq	$0, 1424(%rsp)
	movaps	%xmm0, 4832(%rsp)
	movq	$0, 1415(%rsp)
	movq	$0, 1408(%rsp)
	movaps	%xmm0, 4816(%rsp)
	movaps	%xmm0, 4800(%rsp)
	movl	$0, 739(%rsp)
	movl	$0, 736(%rsp)
	movl	$0, 731(%rsp)
	movl	$0, 728(%rsp)
	movaps	%xmm0, 4544(%rsp)
	movaps	%xmm0, 4528(%rsp)
	movaps	%xmm0, 4512(%rsp)
	movaps	%xmm0, 4496(%rsp)
	movq	$0, 4560(%rsp)
	movaps	%xmm0, 4784(%rsp)
	movaps	%xmm0, 4768(%rsp)
	movaps	%xmm0, 4384(%rsp)
	movaps	%xmm0, 4368(%rsp)
	movaps	%xmm0, 4352(%rsp)
	movq	$0, 4400(%rsp)
	movw	$0, 1148(%rsp)
	movl	$0, 1144(%rsp)
	movaps	%xmm0, 6400(%rsp)
	movq	$0, 3031(%rsp)
	movq	$0, 3024(%rsp)
	movaps	%xmm0, 6384(%rsp)
	movq	$0, 3015(%rsp)
	movq	$0, 3008(%rsp)
	movaps	%xmm0, 6368(%rsp)
	movq	$0, 2999(%rsp)
	movq	$0, 2992(%rsp)
	movaps	%xmm0, 6352(%rsp)
	movq	$0, 2983(%rsp)
	movq	$0, 2976(%rsp)
	movaps	%xmm0, 6336(%rsp)
	movq	$0, 2967(%rsp)
	movq	$0, 2960(%rsp)
	movaps	%xmm0, 6320(%rsp)
	movq	$0, 2951(%rsp)
	movq	$0, 2944(%rsp)
	movaps	%xmm0, 6304(%rsp)
	movq	$0, 2935(%rsp)
	movq	$0, 2928(%rsp)
	movaps	%xmm0, 6288(%rsp)
	movq	$0, 2919(%rsp)
	movq	$0, 2912(%rsp)
	movaps	%xmm0, 3520(%rsp)
	movaps	%xmm0, 3504(%rsp)
	movl	$0, 867(%rsp)
	movl	$0, 864(%rsp)
	movl	$0, 859(%rsp)
	movl	$0, 856(%rsp)
	movaps	%xmm0, 4272(%rsp)
	movq	$0, 1135(%rsp)
	movq	$0, 1128(%rsp)
	movaps	%xmm0, 4256(%rsp)
	movq	$0, 1119(%rsp)
	movq	$0, 1112(%rsp)
	movaps	%xmm0, 4240(%rsp)
	movq	$0, 1103(%rsp)
	movq	$0, 1096(%rsp)
	movaps	%xmm0, 4224(%rsp)
	movq	$0, 1087(%rsp)
	movq	$0, 1080(%rsp)
	movaps	%xmm0, 4208(%rsp)
	movq	$0, 1071(%rsp)
	movq	$0, 1064(%rsp)
	movaps	%xmm0, 4192(%rsp)
	movq	$0, 1055(%rsp)
	movq	$0, 1048(%rsp)
	movaps	%xmm0, 4176(%rsp)
	movq	$0, 1039(%rsp)
	movq	$0, 1032(%rsp)
	movaps	%xmm0, 4160(%rsp)
	movq	$0, 1023(%rsp)
	movq	$0, 1016(%rsp)
	movaps	%xmm0, 4144(%rsp)
	movaps	%xmm0, 4128(%rsp)
	movl	$0, 683(%rsp)
	movl	$0, 680(%rsp)
	movl	$0, 675(%rsp)
	movl	$0, 672(%rsp)
	movaps	%xmm0, 6656(%rsp)
	movq	$0, 3287(%rsp)
	movq	$0, 3280(%rsp)
	movaps	%xmm0, 6640(%rsp)
	movq	$0, 3271(%rsp)
	movq	$0, 3264(%rsp)
	movaps	%xmm0, 6624(%rsp)
	movq	$0, 3255(%rsp)
	movq	$0, 3248(%rsp)
	movaps	%xmm0, 6608(%rsp)
	movq	$0, 3239(%rsp)
	movq	$0, 3232(%rsp)
	movaps	%xmm0, 6592(%rsp)
	movq	$0, 3223(%rsp)
	movq	$0, 3216(%rsp)
	movaps	%xmm0, 6576(%rsp)
	movq	$0, 3207(%rsp)
	movq	$0, 3200(%rsp)
	movaps	%xmm0, 6560(%rsp)
	movq	$0, 3191(%rsp)
	movq	$0, 3184(%rsp)
	movaps	%xmm0, 6544(%rsp)
	movq	$0, 3175(%rsp)
	movq	$0, 3168(%rsp)
	movaps	%xmm0, 1168(%rsp)
	movaps	%xmm0, 1152(%rsp)
	movl	$0, 755(%rsp)
	movl	$0, 752(%rsp)
	movl	$0, 747(%rsp)
	movl	$0, 744(%rsp)
	movaps	%xmm0, 6528(%rsp)
	movq	$0, 3159(%rsp)
	movq	$0, 3152(%rsp)
	movaps	%xmm0, 6512(%rsp)
	movq	$0, 3143(%rsp)
	movq	$0, 3136(%rsp)
	movaps	%xmm0, 6496(%rsp)
	movq	$0, 3127(%rsp)
	movq	$0, 3120(%rsp)
	movaps	%xmm0, 6480(%rsp)
	movq	$0, 3111(%rsp)
	movq	$0, 3104(%rsp)
	movaps	%xmm0, 6464(%rsp)
	movq	$0, 3095(%rsp)
	movq	$0, 3088(%rsp)
	movaps	%xmm0, 6448(%rsp)
	movq	$0, 3079(%rsp)
	movq	$0, 3072(%rsp)
	movaps	%xmm0, 6432(%rsp)
	movq	$0, 3063(%rsp)
	movq	$0, 3056(%rsp)
	movaps	%xmm0, 6416(%rsp)
	movq	$0, 3047(%rsp)
	movq	$0, 3040(%rsp)
	movaps	%xmm0, 3552(%rsp)
	movaps	%xmm0, 3536(%rsp)
	movaps	%xmm0, 5072(%rsp)
	movq	$0, 1655(%rsp)
	movq	$0, 1648(%rsp)
	movaps	%xmm0, 5056(%rsp)
	movq	$0, 1639(%rsp)
	movq	$0, 1632(%rsp)
	movaps	%xmm0, 5040(%rsp)
	movq	$0, 1623(%rsp)
	movq	$0, 1616(%rsp)
	movaps	%xmm0, 5024(%rsp)
	movq	$0, 1607(%rsp)
	movq	$0, 1600(%rsp)
	movaps	%xmm0, 5008(%rsp)
	movq	$0, 1591(%rsp)
	movq	$0, 1584(%rsp)
	movaps	%xmm0, 4992(%rsp)
	movq	$0, 1575(%rsp)
	movq	$0, 1568(%rsp)
	movaps	%xmm0, 4976(%rsp)
	movq	$0, 1559(%rsp)
	movq	$0, 1552(%rsp)
	movaps	%xmm0, 4960(%rsp)
	movq	$0, 1543(%rsp)
	movq	$0, 1536(%rsp)
	movaps	%xmm0, 2240(%rsp)
	movaps	%xmm0, 2224(%rsp)
	movl	$0, 875(%rsp)
	movl	$0, 872(%rsp)
	movaps	%xmm0, 6784(%rsp)
	movq	$0, 3415(%rsp)
	movq	$0, 3408(%rsp)
	movaps	%xmm0, 6768(%rsp)
	movq	$0, 3399(%rsp)
	movq	$0, 3392(%rsp)
	movaps	%xmm0, 6752(%rsp)
	movq	$0, 3383(%rsp)
	movq	$0, 3376(%rsp)
	movaps	%xmm0, 6736(%rsp)
	movq	$0, 3367(%rsp)
	movq	$0, 3360(%rsp)
	movaps	%xmm0, 6720(%rsp)
	movq	$0, 3351(%rsp)
	movq	$0, 3344(%rsp)
	movaps	%xmm0, 6704(%rsp)
	movq	$0, 3335(%rsp)
	movq	$0, 3328(%rsp)
	movaps	%xmm0, 6688(%rsp)
	movq	$0, 3319(%rsp)
	movq	$0, 3312(%rsp)
	movaps	%xmm0, 6672(%rsp)
	movq	$0, 3303(%rsp)
	movq	$0, 3296(%rsp)
	movaps	%xmm0, 992(%rsp)
	movq	$0, 663(%rsp)
	movq	$0, 656(%rsp)
	movaps	%xmm0, 976(%rsp)
	movq	$0, 647(%rsp)
	movq	$0, 640(%rsp)
	movaps	%xmm0, 960(%rsp)
	movq	$0, 631(%rsp)
	movq	$0, 624(%rsp)
	movaps	%xmm0, 944(%rsp)
	movq	$0, 615(%rsp)
	movq	$0, 608(%rsp)
	movaps	%xmm0, 928(%rsp)
	movq	$0, 599(%rsp)
	movq	$0, 592(%rsp)
	movaps	%xmm0, 912(%rsp)
	movq	$0, 583(%rsp)
	movq	$0, 576(%rsp)
	movaps	%xmm0, 896(%rsp)
	movq	$0, 567(%rsp)
	movq	$0, 560(%rsp)
	movaps	%xmm0, 880(%rsp)
	movq	$0, 551(%rsp)
	movq	$0, 544(%rsp)
	movaps	%xmm0, 1184(%rsp)
	movaps	%xmm0, 1200(%rsp)
	movaps	%xmm0, 1216(%rsp)
	movaps	%xmm0, 1232(%rsp)
	movaps	%xmm0, 1248(%rsp)
	movaps	%xmm0, 1264(%rsp)
	movaps	%xmm0, 2336(%rsp)
	movaps	%xmm0, 2320(%rsp)
	movaps	%xmm0, 2304(%rsp)
	movaps	%xmm0, 2288(%rsp)
	movaps	%xmm0, 2272(%rsp)
	movaps	%xmm0, 2256(%rsp)
	movaps	%xmm0, 2512(%rsp)
	movaps	%xmm0, 2496(%rsp)
	movaps	%xmm0, 2480(%rsp)
	movaps	%xmm0, 2464(%rsp)
	movaps	%xmm0, 2448(%rsp)
	movaps	%xmm0, 2432(%rsp)
	movaps	%xmm0, 3648(%rsp)
	movaps	%xmm0, 3632(%rsp)
	movaps	%xmm0, 3616(%rsp)
	movaps	%xmm0, 3600(%rsp)
	movaps	%xmm0, 3584(%rsp)
	movaps	%xmm0, 3568(%rsp)
	movaps	%xmm0, 3744(%rsp)
	movaps	%xmm0, 3728(%rsp)
	movaps	%xmm0, 3712(%rsp)
	movaps	%xmm0, 3696(%rsp)
	movaps	%xmm0, 3680(%rsp)
	movaps	%xmm0, 3664(%rsp)
	movaps	%xmm0, 3920(%rsp)
	movaps	%xmm0, 3904(%rsp)
	movaps	%xmm0, 3888(%rsp)
	movaps	%xmm0, 3872(%rsp)
	movaps	%xmm0, 3856(%rsp)
	movaps	%xmm0, 3840(%rsp)
	movaps	%xmm0, 4016(%rsp)
	movaps	%xmm0, 4000(%rsp)
	movaps	%xmm0, 3984(%rsp)
	movaps	%xmm0, 3968(%rsp)
	movaps	%xmm0, 3952(%rsp)
	movaps	%xmm0, 3936(%rsp)
	movaps	%xmm0, 4112(%rsp)
	movaps	%xmm0, 4096(%rsp)
	movaps	%xmm0, 4080(%rsp)
	movaps	%xmm0, 4064(%rsp)
	movaps	%xmm0, 4048(%rsp)
	movaps	%xmm0, 4032(%rsp)
	movaps	%xmm0, 3488(%rsp)
	movaps	%xmm0, 3472(%rsp)
	movaps	%xmm0, 3456(%rsp)
	movaps	%xmm0, 3440(%rsp)
	movaps	%xmm0, 3424(%rsp)
	movaps	%xmm0, 2208(%rsp)
	movaps	%xmm0, 2192(%rsp)
	movaps	%xmm0, 2176(%rsp)
	movaps	%xmm0, 2160(%rsp)
	movaps	%xmm0, 2144(%rsp)
	movaps	%xmm0, 2128(%rsp)
	movaps	%xmm0, 2112(%rsp)
	movaps	%xmm0, 2096(%rsp)
	movaps	%xmm0, 2080(%rsp)
	movaps	%xmm0, 2064(%rsp)
	movaps	%xmm0, 2048(%rsp)
	movaps	%xmm0, 2032(%rsp)
	movaps	%xmm0, 2016(%rsp)
	movaps	%xmm0, 2000(%rsp)
	movaps	%xmm0, 1984(%rsp)
	movaps	%xmm0, 1968(%rsp)
	movaps	%xmm0, 1952(%rsp)
	movaps	%xmm0, 1936(%rsp)
	movaps	%xmm0, 1920(%rsp)
	movaps	%xmm0, 1904(%rsp)
	movaps	%xmm0, 1888(%rsp)
	movaps	%xmm0, 1872(%rsp)
	movaps	%xmm0, 1856(%rsp)
	movaps	%xmm0, 1840(%rsp)
	movaps	%xmm0, 1824(%rsp)
	movaps	%xmm0, 1808(%rsp)
	movaps	%xmm0, 1792(%rsp)
	movaps	%xmm0, 1776(%rsp)
	movaps	%xmm0, 1760(%rsp)
	movaps	%xmm0, 1744(%rsp)
	movaps	%xmm0, 1728(%rsp)
	movaps	%xmm0, 1712(%rsp)
	movaps	%xmm0, 1696(%rsp)
	movaps	%xmm0, 1680(%rsp)
	movaps	%xmm0, 1664(%rsp)
	movaps	%xmm0, 2416(%rsp)
	movaps	%xmm0, 2400(%rsp)
	movaps	%xmm0, 2384(%rsp)
	movaps	%xmm0, 2368(%rsp)
	movaps	%xmm0, 2352(%rsp)
	movaps	%xmm0, 3824(%rsp)
	movaps	%xmm0, 3808(%rsp)
	movaps	%xmm0, 3792(%rsp)
	movaps	%xmm0, 3776(%rsp)
	movaps	%xmm0, 3760(%rsp)
	leaq	1184(%rsp), %rdi
	movq	%r12, %rsi
	callq	ckd_image_stores_copy_file_700aef77bd01d6bd_.84a472a
	cmpb	$0, 1184(%rsp)
	movq	%r12, %rbx
	movq	%r12, 528(%rsp)
	je	.LBBdb5fcef_3
.LBBdb5fcef_28:
	xorps	%xmm0, %xmm0
	movaps	%xmm0, 992(%rsp)
	movq	$0, 656(%rsp)
	movq	$0, 663(%rsp)
	movaps	%xmm0, 976(%rsp)
	movq	$0, 640(%rsp)
	movq	$0, 647(%rsp)
	movaps	%xmm0, 960(%rsp)
	movq	$0, 624(%rsp)
	movq	$0, 631(%rsp)
	movaps	%xmm0, 944(%rsp)
	movq	$0, 608(%rsp)
	movq	$0, 615(%rsp)
	movaps	%xmm0, 928(%rsp)
	movq	$0, 592(%rsp)
	movq	$0, 599(%rsp)
	movaps	%xmm0, 912(%rsp)
	movq	$0, 576(%rsp)
	movq	$0, 583(%rsp)
	movaps	%xmm0, 896(%rsp)
	movq	$0, 567(%rsp)
	movq	$0, 560(%rsp)
	movaps	%xmm0, 880(%rsp)
	movq	$0, 551(%rsp)
	movq	$0, 544(%rsp)
	xorl	%edi, %edi
	movq	$0, 376(%rsp)
	movq	$0, 72(%rsp)
	xorl	%r9d, %r9d
	xorl	%r15d, %r15d
	movq	$0, 464(%rsp)
	movq	$0, 128(%rsp)
	movq	$0, 80(%rsp)
	movq	$0, 456(%rsp)
	movq	$0, 328(%rsp)
	movq	$0, 320(%rsp)
	movq	$0, 176(%rsp)
	movq	$0, 448(%rsp)
	movq	$0, 248(%rsp)
	movq	$0, 208(%rsp)
	movq	$0, 440(%rsp)
	movq	$0, 312(%rsp)
	movq	$0, 304(%rsp)
	movq	$0, 168(%rsp)
	movq	$0, 432(%rsp)
	movq	$0, 240(%rsp)
	movq	$0, 200(%rsp)
	movq	$0, 424(%rsp)
	movq	$0, 296(%rsp)
	movq	$0, 288(%rsp)
	movq	$0, 160(%rsp)
	movq	$0, 416(%rsp)
	movq	$0, 232(%rsp)
	movq	$0, 192(%rsp)
	movq	$0, 408(%rsp)
	movq	$0, 280(%rsp)
	movq	$0, 272(%rsp)
	movq	$0, 152(%rsp)
	movq	$0, 400(%rsp)
	movq	$0, 224(%rsp)
	movq	$0, 184(%rsp)
	movq	$0, 392(%rsp)
	movq	$0, 264(%rsp)
	movq	$0, 256(%rsp)
	movq	$0, 144(%rsp)
	movq	$0, 384(%rsp)
	movq	$0, 216(%rsp)
	xorl	%eax, %eax
	xorl	%esi, %esi
	xorl	%r10d, %r10d
	movq	$0, 8(%rsp)
	movq	$0, 64(%rsp)
	xorl	%r11d, %r11d
	xorl	%r12d, %r12d
	xorl	%r13d, %r13d
	xorl	%r8d, %r8d
	movq	$0, 56(%rsp)
	movq	$0, 24(%rsp)
	movq	$0, 88(%rsp)
	movq	$0, 40(%rsp)
	movq	$0, 48(%rsp)
	movq	$0, 16(%rsp)
	xorl	%ebp, %ebp
	movq	$0, 32(%rsp)
	movq	$0, 360(%rsp)
	movq	$0, 352(%rsp)
	movq	$0, 112(%rsp)
	movq	$0, 120(%rsp)
	movq	$0, 344(%rsp)
	movq	$0, 336(%rsp)
.LBBdb5fcef_81:
	xorps	%xmm0, %xmm0
	movaps	%xmm0, 1184(%rsp)
	movq	$0, 3424(%rsp)
	movq	$0, 3431(%rsp)
	movaps	%xmm0, 2256(%rsp)
	movq	$0, 2144(%rsp)
	movq	$0, 2151(%rsp)
	movaps	%xmm0, 2432(%rsp)
	movq	$0, 2064(%rsp)
	movq	$0, 2071(%rsp)
	movaps	%xmm0, 3568(%rsp)
	movq	$0, 1991(%rsp)
	movq	$0, 1984(%rsp)
	movaps	%xmm0, 3664(%rsp)
	movq	$0, 1911(%rsp)
	movq	$0, 1904(%rsp)
	movaps	%xmm0, 3840(%rsp)
	movq	$0, 1831(%rsp)
	movq	$0, 1824(%rsp)
	movaps	%xmm0, 3936(%rsp)
	movq	$0, 1751(%rsp)
	movq	$0, 1744(%rsp)
	movaps	%xmm0, 4032(%rsp)
	movq	$0, 1671(%rsp)
	movq	$0, 1664(%rsp)
	testb	%al, %al
	je	.LBBdb5fcef_82
	movaps	992(%rsp), %xmm0
	movaps	%xmm0, 1184(%rsp)
	movq	656(%rsp), %rcx
	movq	663(%rsp), %rdx
	movq	%rcx, 3424(%rsp)
	movq	%rdx, 3431(%rsp)
	movaps	976(%rsp), %xmm0
	movaps	%xmm0, 2256(%rsp)
	movq	640(%rsp), %rcx
	movq	647(%rsp), %rdx
	movq	%rcx, 2144(%rsp)
	movq	%rdx, 2151(%rsp)
	movaps	960(%rsp), %xmm0
	movaps	%xmm0, 2432(%rsp)
	movq	624(%rsp), %rcx
	movq	631(%rsp), %rdx
	movq	%rdx, 2071(%rsp)
	movq	%rcx, 2064(%rsp)
	movaps	944(%rsp), %xmm0
	movaps	%xmm0, 3568(%rsp)
	movq	608(%rsp), %rcx
	movq	615(%rsp), %rdx
	movq	%rdx, 1991(%rsp)
	movq	%rcx, 1984(%rsp)
	movaps	928(%rsp), %xmm0
	movaps	%xmm0, 3664(%rsp)
	movq	592(%rsp), %rcx
	movq	599(%rsp), %rdx
	movq	%rdx, 1911(%rsp)
	movq	%rcx, 1904(%rsp)
	movaps	912(%rsp), %xmm0
	movaps	%xmm0, 3840(%rsp)
	movq	576(%rsp), %rcx
	movq	583(%rsp), %rdx
	movq	%rdx, 1831(%rsp)
	movq	%rcx, 1824(%rsp)
	movaps	896(%rsp), %xmm0
	movaps	%xmm0, 3936(%rsp)
	movq	560(%rsp), %rcx
	movq	567(%rsp), %rdx
	movq	%rdx, 1751(%rsp)
	movq	%rcx, 1744(%rsp)
	movaps	880(%rsp), %xmm0
	movaps	%xmm0, 4032(%rsp)
	movq	544(%rsp), %rcx
	movq	551(%rsp), %rdx
	movq	%rdx, 1671(%rsp)
	movq	%rcx, 1664(%rsp)
	jmp	.LBBdb5fcef_84
.LBBdb5fcef_82:
	xorl	%edi, %edi
	movq	$0, 376(%rsp)
	movq	$0, 72(%rsp)
	xorl	%r9d, %r9d
	xorl	%r15d, %r15d
	movq	$0, 464(%rsp)
	movq	$0, 128(%rsp)
	movq	$0, 80(%rsp)
	movq	$0, 456(%rsp)
	movq	$0, 328(%rsp)
	movq	$0, 320(%rsp)
	movq	$0, 176(%rsp)
	movq	$0, 448(%rsp)
	movq	$0, 248(%rsp)
	movq	$0, 208(%rsp)
	movq	$0, 440(%rsp)
	movq	$0, 312(%rsp)
	movq	$0, 304(%rsp)
	movq	$0, 168(%rsp)
	movq	$0, 432(%rsp)
	movq	$0, 240(%rsp)
	movq	$0, 200(%rsp)
	movq	$0, 424(%rsp)
	movq	$0, 296(%rsp)
	movq	$0, 288(%rsp)
	movq	$0, 160(%rsp)
	movq	$0, 416(%rsp)
	movq	$0, 232(%rsp)
	movq	$0, 192(%rsp)
	movq	$0, 408(%rsp)
	movq	$0, 280(%rsp)
	movq	$0, 272(%rsp)
	movq	$0, 152(%rsp)
	movq	$0, 400(%rsp)
	movq	$0, 224(%rsp)
	movq	$0, 184(%rsp)
	movq	$0, 392(%rsp)
	movq	$0, 264(%rsp)
	movq	$0, 256(%rsp)
	movq	$0, 144(%rsp)
	movq	$0, 384(%rsp)
	movq	$0, 216(%rsp)
	xorl	%esi, %esi
	xorl	%r10d, %r10d
	movq	$0, 8(%rsp)
	movq	$0, 64(%rsp)
	xorl	%r11d, %r11d
	xorl	%r12d, %r12d
	xorl	%r13d, %r13d
	xorl	%r8d, %r8d
	movq	$0, 56(%rsp)
	movq	$0, 24(%rsp)
	movq	$0, 88(%rsp)
	movq	$0, 40(%rsp)
	movq	$0, 48(%rsp)
	movq	$0, 16(%rsp)
	xorl	%ebp, %ebp
	movq	$0, 32(%rsp)
	movq	$0, 360(%rsp)
	movq	$0, 352(%rsp)
	movq	$0, 112(%rsp)
	movq	$0, 120(%rsp)
	movq	$0, 344(%rsp)
	movq	$0, 336(%rsp)
.LBBdb5fcef_84:
	movaps	1184(%rsp), %xmm0
	movaps	%xmm0, 6784(%rsp)
	movq	3424(%rsp), %rcx
	movq	3431(%rsp), %rdx
	movq	%rcx, 3408(%rsp)
	movq	%rdx, 3415(%rsp)
	movaps	2256(%rsp), %xmm0
	movaps	%xmm0, 6768(%rsp)
	movq	2144(%rsp), %rcx
	movq	2151(%rsp), %rdx
	movq	%rcx, 3392(%rsp)
	movq	%rdx, 3399(%rsp)
	movaps	2432(%rsp), %xmm0
	movaps	%xmm0, 6752(%rsp)
	movq	2064(%rsp), %rcx
	movq	2071(%rsp), %rdx
	movq	%rdx, 3383(%rsp)
	movq	%rcx, 3376(%rsp)
	movaps	3568(%rsp), %xmm0
	movaps	%xmm0, 6736(%rsp)
	movq	1984(%rsp), %rcx
	movq	1991(%rsp), %rdx
	movq	%rcx, 3360(%rsp)
	movq	%rdx, 3367(%rsp)
	movaps	3664(%rsp), %xmm0
	movaps	%xmm0, 6720(%rsp)
	movq	1904(%rsp), %rcx
	movq	1911(%rsp), %rdx
	movq	%rcx, 3344(%rsp)
	movq	%rdx, 3351(%rsp)
	movaps	3840(%rsp), %xmm0
	movaps	%xmm0, 6704(%rsp)
	movq	1824(%rsp), %rcx
	movq	1831(%rsp), %rdx
	movq	%rcx, 3328(%rsp)
	movq	%rdx, 3335(%rsp)
	movaps	3936(%rsp), %xmm0
	movaps	%xmm0, 6688(%rsp)
	movq	1744(%rsp), %rcx
	movq	1751(%rsp), %rdx
	movq	%rdx, 3319(%rsp)
	movq	%rcx, 3312(%rsp)
	movaps	4032(%rsp), %xmm0
	movaps	%xmm0, 6672(%rsp)
	movq	1664(%rsp), %rcx
	movq	1671(%rsp), %rdx
	movq	%rdx, 3303(%rsp)
	movq	%rcx, 3296(%rsp)
	testb	%al, %al
	je	.LBBdb5fcef_86
	movq	704(%rbx), %rcx
	movq	%rcx, 104(%rsp)
	movaps	6784(%rsp), %xmm0
	movaps	%xmm0, 5072(%rsp)
	movq	3408(%rsp), %rcx
	movq	3415(%rsp), %rdx
	movq	%rcx, 1648(%rsp)
	movq	%rdx, 1655(%rsp)
	movaps	6768(%rsp), %xmm0
	movaps	%xmm0, 5056(%rsp)
	movq	3392(%rsp), %rcx
	movq	3399(%rsp), %rdx
	movq	%rcx, 1632(%rsp)
	movq	%rdx, 1639(%rsp)
	movaps	6752(%rsp), %xmm0
	movaps	%xmm0, 5040(%rsp)
	movq	3376(%rsp), %rcx
	movq	3383(%rsp), %rdx
	movq	%rcx, 1616(%rsp)
	movq	%rdx, 1623(%rsp)
	movaps	6736(%rsp), %xmm0
	movaps	%xmm0, 5024(%rsp)
	movq	3360(%rsp), %rcx
	movq	3367(%rsp), %rdx
	movq	%rdx, 1607(%rsp)
	movq	%rcx, 1600(%rsp)
	movaps	6720(%rsp), %xmm0
	movaps	%xmm0, 5008(%rsp)
	movq	3344(%rsp), %rcx
	movq	3351(%rsp), %rdx
	movq	%rdx, 1591(%rsp)
	movq	%rcx, 1584(%rsp)
	movaps	6704(%rsp), %xmm0
	movaps	%xmm0, 4992(%rsp)
	movq	3328(%rsp), %rcx
	movq	3335(%rsp), %rdx
	movq	%rdx, 1575(%rsp)
	movq	%rcx, 1568(%rsp)
	movaps	6688(%rsp), %xmm0
	movaps	%xmm0, 4976(%rsp)
	movq	3312(%rsp), %rcx
	movq	3319(%rsp), %rdx
	movq	%rdx, 1559(%rsp)
	movq	%rcx, 1552(%rsp)
	movaps	6672(%rsp), %xmm0
	movaps	%xmm0, 4960(%rsp)
	movq	3296(%rsp), %rcx
	movq	3303(%rsp), %rdx
	movq	%rdx, 1543(%rsp)
	movq	%rcx, 1536(%rsp)
	movups	712(%rbx), %xmm0
	movups	728(%rbx), %xmm1
	movaps	%xmm1, 2240(%rsp)
	movaps	%xmm0, 2224(%rsp)
	jmp	.LBBdb5fcef_87
.LBBdb5fcef_86:
	xorps	%xmm0, %xmm0
	movaps	%xmm0, 4976(%rsp)
	movq	$0, 1552(%rsp)
	movq	$0, 1559(%rsp)
	movaps	%xmm0, 4960(%rsp)
	movq	$0, 1536(%rsp)
	movq	$0, 1543(%rsp)
	movaps	%xmm0, 2224(%rsp)
	movaps	%xmm0, 2240(%rsp)
	movaps	%xmm0, 5072(%rsp)
	movq	$0, 1648(%rsp)
	movq	$0, 1655(%rsp)
	movaps	%xmm0, 5056(%rsp)
	movq	$0, 1632(%rsp)
	movq	$0, 1639(%rsp)
	movaps	%xmm0, 5040(%rsp)
	movq	$0, 1616(%rsp)
	movq	$0, 1623(%rsp)
	movaps	%xmm0, 5024(%rsp)
	movq	$0, 1607(%rsp)
	movq	$0, 1600(%rsp)
	movaps	%xmm0, 5008(%rsp)
	movq	$0, 1591(%rsp)
	movq	$0, 1584(%rsp)
	movaps	%xmm0, 4992(%rsp)
	movq	$0, 1575(%rsp)
	movq	$0, 1568(%rsp)
	xorl	%edi, %edi
	movq	$0, 376(%rsp)
	movq	$0, 72(%rsp)
	xorl	%r9d, %r9d
	xorl	%r15d, %r15d
	movq	$0, 464(%rsp)
	movq	$0, 128(%rsp)
	movq	$0, 80(%rsp)
	movq	$0, 456(%rsp)
	movq	$0, 328(%rsp)
	movq	$0, 320(%rsp)
	movq	$0, 176(%rsp)
	movq	$0, 448(%rsp)
	movq	$0, 248(%rsp)
	movq	$0, 208(%rsp)
	movq	$0, 440(%rsp)
	movq	$0, 312(%rsp)
	movq	$0, 304(%rsp)
	movq	$0, 168(%rsp)
	movq	$0, 432(%rsp)
	movq	$0, 240(%rsp)
	movq	$0, 200(%rsp)
	movq	$0, 424(%rsp)
	movq	$0, 296(%rsp)
	movq	$0, 288(%rsp)
	movq	$0, 160(%rsp)
	movq	$0, 416(%rsp)
	movq	$0, 232(%rsp)
	movq	$0, 192(%rsp)
	movq	$0, 408(%rsp)
	movq	$0, 280(%rsp)
	movq	$0, 272(%rsp)
	movq	$0, 152(%rsp)
	movq	$0, 400(%rsp)
	movq	$0, 224(%rsp)
	movq	$0, 184(%rsp)
	movq	$0, 392(%rsp)
	movq	$0, 264(%rsp)
	movq	$0, 256(%rsp)
	movq	$0, 144(%rsp)
	movq	$0, 384(%rsp)
	movq	$0, 216(%rsp)
	xorl	%esi, %esi
	xorl	%r10d, %r10d
	movq	$0, 8(%rsp)
	movq	$0, 64(%rsp)
	xorl	%r11d, %r11d
	xorl	%r12d, %r12d
	xorl	%r13d, %r13d
	xorl	%r8d, %r8d
	movq	$0, 56(%rsp)
	movq	$0, 24(%rsp)
	movq	$0, 88(%rsp)
	movq	$0, 40(%rsp)
	movq	$0, 48(%rsp)
	movq	$0, 16(%rsp)
	xorl	%ebp, %ebp
	movq	$0, 32(%rsp)
	movq	$0, 360(%rsp)
	movq	$0, 352(%rsp)
	movq	$0, 112(%rsp)
	movq	$0, 120(%rsp)
	movq	$0, 344(%rsp)
	movq	$0, 336(%rsp)
	movq	$0, 104(%rsp)
.LBBdb5fcef_87:
	xorps	%xmm0, %xmm0
	movaps	%xmm0, 2256(%rsp)
	movq	$0, 2144(%rsp)
	movq	$0, 2151(%rsp)
	movaps	%xmm0, 2432(%rsp)
	movq	$0, 2064(%rsp)
	movq	$0, 2071(%rsp)
	movaps	%xmm0, 3568(%rsp)
	movq	$0, 1991(%rsp)
	movq	$0, 1984(%rsp)
	movaps	%xmm0, 3664(%rsp)
	movq	$0, 1911(%rsp)
	movq	$0, 1904(%rsp)
	movaps	%xmm0, 3840(%rsp)
	movq	$0, 1831(%rsp)
	movq	$0, 1824(%rsp)
	movaps	%xmm0, 3936(%rsp)
	movq	$0, 1751(%rsp)
	movq	$0, 1744(%rsp)
	movaps	%xmm0, 4032(%rsp)
	movq	$0, 1671(%rsp)
	movq	$0, 1664(%rsp)
	movaps	%xmm0, 3424(%rsp)
	movq	$0, 2359(%rsp)
	movq	$0, 2352(%rsp)
	movaps	%xmm0, 1200(%rsp)
	movaps	%xmm0, 1184(%rsp)
	testb	%al, %al
	je	.LBBdb5fcef_88
	movq	%rbp, 496(%rsp)
	movaps	5072(%rsp), %xmm0
	movaps	%xmm0, 2256(%rsp)
	movq	1648(%rsp), %rcx
	movq	1655(%rsp), %rdx
	movq	%rcx, 2144(%rsp)
	movq	%rdx, 2151(%rsp)
	movaps	5056(%rsp), %xmm0
	movaps	%xmm0, 2432(%rsp)
	movq	1632(%rsp), %rcx
	movq	1639(%rsp), %rdx
	movq	%rcx, 2064(%rsp)
	movq	%rdx, 2071(%rsp)
	movaps	5040(%rsp), %xmm0
	movaps	%xmm0, 3568(%rsp)
	movq	1616(%rsp), %rcx
	movq	1623(%rsp), %rdx
	movq	%rdx, 1991(%rsp)
	movq	%rcx, 1984(%rsp)
	movaps	5024(%rsp), %xmm0
	movaps	%xmm0, 3664(%rsp)
	movq	1600(%rsp), %rcx
	movq	1607(%rsp), %rdx
	movq	%rdx, 1911(%rsp)
	movq	%rcx, 1904(%rsp)
	movaps	5008(%rsp), %xmm0
	movaps	%xmm0, 3840(%rsp)
	movq	1584(%rsp), %rcx
	movq	1591(%rsp), %rdx
	movq	%rdx, 1831(%rsp)
	movq	%rcx, 1824(%rsp)
	movaps	4992(%rsp), %xmm0
	movaps	%xmm0, 3936(%rsp)
	movq	1568(%rsp), %rcx
	movq	1575(%rsp), %rdx
	movq	%rdx, 1751(%rsp)
	movq	%rcx, 1744(%rsp)
	movaps	4976(%rsp), %xmm0
	movaps	%xmm0, 4032(%rsp)
	movq	1552(%rsp), %rcx
	movq	1559(%rsp), %rdx
	movq	%rdx, 1671(%rsp)
	movq	%rcx, 1664(%rsp)
	movaps	4960(%rsp), %xmm0
	movaps	%xmm0, 3424(%rsp)
	movq	1536(%rsp), %rcx
	movq	1543(%rsp), %rdx
	movq	%rdx, 2359(%rsp)
	movq	%rcx, 2352(%rsp)
	movaps	2224(%rsp), %xmm0
	movaps	2240(%rsp), %xmm1
	movaps	%xmm1, 1200(%rsp)
	movaps	%xmm0, 1184(%rsp)
	movq	128(%rsp), %rbp
	jmp	.LBBdb5fcef_90
.LBBdb5fcef_88:
	xorl	%esi, %esi
	xorl	%r10d, %r10d
	movq	$0, 8(%rsp)
	movq	$0, 64(%rsp)
	xorl	%r11d, %r11d
	xorl	%r12d, %r12d
	xorl	%r13d, %r13d
	xorl	%r8d, %r8d
	movq	$0, 56(%rsp)
	movq	$0, 24(%rsp)
	movq	$0, 88(%rsp)
	movq	$0, 40(%rsp)
	movq	$0, 48(%rsp)
	movq	$0, 16(%rsp)
	movq	$0, 496(%rsp)
	movq	$0, 32(%rsp)
	movq	$0, 360(%rsp)
	xorl	%edi, %edi
	movq	$0, 376(%rsp)
	movq	$0, 72(%rsp)
	xorl	%r9d, %r9d
	xorl	%r15d, %r15d
	movq	$0, 464(%rsp)
	xorl	%ebp, %ebp
	movq	$0, 352(%rsp)
	movq	$0, 80(%rsp)
	movq	$0, 456(%rsp)
	movq	$0, 328(%rsp)
	movq	$0, 320(%rsp)
	movq	$0, 176(%rsp)
	movq	$0, 448(%rsp)
	movq	$0, 248(%rsp)
	movq	$0, 112(%rsp)
	movq	$0, 208(%rsp)
	movq	$0, 440(%rsp)
	movq	$0, 312(%rsp)
	movq	$0, 304(%rsp)
	movq	$0, 168(%rsp)
	movq	$0, 432(%rsp)
	movq	$0, 240(%rsp)
	movq	$0, 120(%rsp)
	movq	$0, 200(%rsp)
	movq	$0, 424(%rsp)
	movq	$0, 296(%rsp)
	movq	$0, 288(%rsp)
	movq	$0, 160(%rsp)
	movq	$0, 416(%rsp)
	movq	$0, 232(%rsp)
	movq	$0, 344(%rsp)
	movq	$0, 192(%rsp)
	movq	$0, 408(%rsp)
	movq	$0, 280(%rsp)
	movq	$0, 272(%rsp)
	movq	$0, 152(%rsp)
	movq	$0, 400(%rsp)
	movq	$0, 224(%rsp)
	movq	$0, 336(%rsp)
	movq	$0, 184(%rsp)
	movq	$0, 392(%rsp)
	movq	$0, 264(%rsp)
	movq	$0, 256(%rsp)
	movq	$0, 144(%rsp)
	movq	$0, 384(%rsp)
	movq	$0, 216(%rsp)
	movq	$0, 104(%rsp)
.LBBdb5fcef_90:
	movaps	2256(%rsp), %xmm0
	movaps	%xmm0, 6528(%rsp)
	movq	2144(%rsp), %rcx
	movq	2151(%rsp), %rdx
	movq	%rcx, 3152(%rsp)
	movq	%rdx, 3159(%rsp)
	movaps	2432(%rsp), %xmm0
	movaps	%xmm0, 6512(%rsp)
	movq	2064(%rsp), %rcx
	movq	2071(%rsp), %rdx
	movq	%rcx, 3136(%rsp)
	movq	%rdx, 3143(%rsp)
	movaps	3568(%rsp), %xmm0
	movaps	%xmm0, 6496(%rsp)
	movq	1984(%rsp), %rcx
	movq	1991(%rsp), %rdx
	movq	%rdx, 3127(%rsp)
	movq	%rcx, 3120(%rsp)
	movaps	3664(%rsp), %xmm0
	movaps	%xmm0, 6480(%rsp)
	movq	1904(%rsp), %rcx
	movq	1911(%rsp), %rdx
	movq	%rcx, 3104(%rsp)
	movq	%rdx, 3111(%rsp)
	movaps	3840(%rsp), %xmm0
	movaps	%xmm0, 6464(%rsp)
	movq	1824(%rsp), %rcx
	movq	1831(%rsp), %rdx
	movq	%rcx, 3088(%rsp)
	movq	%rdx, 3095(%rsp)
	movaps	3936(%rsp), %xmm0
	movaps	%xmm0, 6448(%rsp)
	movq	1744(%rsp), %rcx
	movq	1751(%rsp), %rdx
	movq	%rcx, 3072(%rsp)
	movq	%rdx, 3079(%rsp)
	movaps	4032(%rsp), %xmm0
	movaps	%xmm0, 6432(%rsp)
	movq	1664(%rsp), %rcx
	movq	1671(%rsp), %rdx
	movq	%rdx, 3063(%rsp)
	movq	%rcx, 3056(%rsp)
	movaps	3424(%rsp), %xmm0
	movaps	%xmm0, 6416(%rsp)
	movq	2352(%rsp), %rcx
	movq	2359(%rsp), %rdx
	movq	%rdx, 3047(%rsp)
	movq	%rcx, 3040(%rsp)
	movaps	1184(%rsp), %xmm0
	movaps	1200(%rsp), %xmm1
	movaps	%xmm1, 3552(%rsp)
	movaps	%xmm0, 3536(%rsp)
	testb	%al, %al
	movq	%r14, 5088(%rsp)
	je	.LBBdb5fcef_183
	movq	%rbp, 128(%rsp)
	movq	%r13, 504(%rsp)
	movq	%r15, 704(%rsp)
	movq	%r9, 136(%rsp)
	movq	%r8, 96(%rsp)
	movq	%rsi, 472(%rsp)
	movq	744(%rbx), %rbp
	movq	752(%rbx), %r8
	testq	%r8, %r8
	movq	%rdi, 368(%rsp)
	movq	%r10, %r13
	movq	%r11, %r14
	je	.LBBdb5fcef_92
	js	.LBBdb5fcef_134
	movl	$1, %esi
	movq	%r8, %rdi
	movq	%r8, %r15
	callq	rattle_alloc@PLT
	movq	%r14, %r11
	movq	%r13, %r10
	movq	368(%rsp), %rdi
	testb	$1, %al
	je	.LBBdb5fcef_134
	movq	%r15, %r8
	movq	%rdx, %r15
	movq	%r15, %rcx
	subq	%rbp, %rcx
	cmpq	%r8, %rcx
	jb	.LBBdb5fcef_97
.LBBdb5fcef_204:
	movq	%r15, %rdi
	movq	%rbp, %rsi
	movq	%r8, %rdx
	movq	%r8, %rbp
	callq	memmove@PLT
	movq	%rbp, %r8
	movq	%r14, %r11
	movq	%r13, %r10
	jmp	.LBBdb5fcef_113
.LBBdb5fcef_183:
	xorps	%xmm0, %xmm0
	movaps	%xmm0, 4272(%rsp)
	movq	$0, 1128(%rsp)
	movq	$0, 1135(%rsp)
	movaps	%xmm0, 4256(%rsp)
	movq	$0, 1112(%rsp)
	movq	$0, 1119(%rsp)
	movaps	%xmm0, 4240(%rsp)
	movq	$0, 1096(%rsp)
	movq	$0, 1103(%rsp)
	movaps	%xmm0, 4224(%rsp)
	movq	$0, 1080(%rsp)
	movq	$0, 1087(%rsp)
	movaps	%xmm0, 4208(%rsp)
	movq	$0, 1064(%rsp)
	movq	$0, 1071(%rsp)
	movaps	%xmm0, 4192(%rsp)
	movq	$0, 1048(%rsp)
	movq	$0, 1055(%rsp)
	movaps	%xmm0, 4176(%rsp)
	movq	$0, 1039(%rsp)
	movq	$0, 1032(%rsp)
	movaps	%xmm0, 4160(%rsp)
	movq	$0, 1023(%rsp)
	movq	$0, 1016(%rsp)
	movaps	%xmm0, 4144(%rsp)
	movaps	%xmm0, 4128(%rsp)
	movl	$0, 683(%rsp)
	movl	$0, 680(%rsp)
	movl	$0, 675(%rsp)
	movl	$0, 672(%rsp)
	jmp	.LBBdb5fcef_184
.LBBdb5fcef_3:
	movzbl	1192(%rsp), %r15d
	movq	1200(%rsp), %rax
	movq	%rax, 136(%rsp)
	movq	1208(%rsp), %r13
	movq	1216(%rsp), %rax
	movq	%rax, 64(%rsp)
	movzbl	1240(%rsp), %eax
	movq	%rax, 104(%rsp)
	movq	1256(%rsp), %r12
	movq	1264(%rsp), %rbp
	movq	1272(%rsp), %rax
	movq	%rax, 96(%rsp)
	leaq	88(%rbx), %rsi
	leaq	2256(%rsp), %rdi
	callq	ckd_image_stores_copy_file_700aef77bd01d6bd_.84a472a
	cmpb	$0, 2256(%rsp)
	je	.LBBdb5fcef_4
	cmpb	$1, %r15b
	jne	.LBBdb5fcef_28
	cmpq	$0, 64(%rsp)
	je	.LBBdb5fcef_14
	movq	136(%rsp), %rdi
	callq	rattle_dealloc@PLT
.LBBdb5fcef_14:
	cmpb	$0, 104(%rsp)
	je	.LBBdb5fcef_28
	cmpq	$0, 96(%rsp)
	jne	.LBBdb5fcef_27
	jmp	.LBBdb5fcef_28
.LBBdb5fcef_92:
	leaq	516(%rsp), %r15
	movq	%r15, %rcx
	subq	%rbp, %rcx
	cmpq	%r8, %rcx
	jae	.LBBdb5fcef_204
.LBBdb5fcef_97:
	xorl	%eax, %eax
	cmpq	$4, %r8
	jb	.LBBdb5fcef_108
	cmpq	$32, %rcx
	jb	.LBBdb5fcef_108
	cmpq	$32, %r8
	jae	.LBBdb5fcef_101
	xorl	%eax, %eax
	jmp	.LBBdb5fcef_105
.LBBdb5fcef_4:
	movq	%rbp, 504(%rsp)
	movq	%r13, 8(%rsp)
	movq	%r15, 472(%rsp)
	movzbl	2264(%rsp), %r13d
	movq	2272(%rsp), %rax
	movq	%rax, 24(%rsp)
	movq	2280(%rsp), %r15
	movq	2288(%rsp), %rax
	movq	%rax, 40(%rsp)
	movzbl	2312(%rsp), %eax
	movq	%rax, 48(%rsp)
	movq	2328(%rsp), %rax
	movq	%rax, 16(%rsp)
	movq	2336(%rsp), %rbp
	movq	2344(%rsp), %rax
	movq	%rax, 32(%rsp)
	leaq	176(%rbx), %rsi
	leaq	2432(%rsp), %rdi
	callq	ckd_image_stores_copy_file_700aef77bd01d6bd_.84a472a
	cmpb	$0, 2432(%rsp)
	je	.LBBdb5fcef_5
	cmpb	$1, %r13b
	movq	136(%rsp), %rdi
	movq	104(%rsp), %rax
	jne	.LBBdb5fcef_22
	cmpq	$0, 40(%rsp)
	je	.LBBdb5fcef_19
	movq	24(%rsp), %rdi
	callq	rattle_dealloc@PLT
	movq	104(%rsp), %rax
	movq	136(%rsp), %rdi
.LBBdb5fcef_19:
	cmpb	$0, 48(%rsp)
	je	.LBBdb5fcef_22
	cmpq	$0, 32(%rsp)
	je	.LBBdb5fcef_22
	movq	16(%rsp), %rdi
	callq	rattle_dealloc@PLT
	movq	104(%rsp), %rax
	movq	136(%rsp), %rdi
.LBBdb5fcef_22:
	cmpb	$1, 472(%rsp)
	movq	96(%rsp), %r15
	jne	.LBBdb5fcef_28
	cmpq	$0, 64(%rsp)
	je	.LBBdb5fcef_25
	callq	rattle_dealloc@PLT
	movq	104(%rsp), %rax
.LBBdb5fcef_25:
	testb	%al, %al
	je	.LBBdb5fcef_28
	testq	%r15, %r15
	je	.LBBdb5fcef_28
.LBBdb5fcef_27:
	movq	%r12, %rdi
	callq	rattle_dealloc@PLT
	jmp	.LBBdb5fcef_28
.LBBdb5fcef_5:
	movq	%rbp, 496(%rsp)
	movq	%r15, 88(%rsp)
	movq	%r13, 56(%rsp)
	leaq	2296(%rsp), %rbp
	movzbl	2440(%rsp), %r15d
	leaq	2448(%rsp), %r13
	leaq	264(%rbx), %rsi
	leaq	3568(%rsp), %rdi
	callq	ckd_image_stores_copy_file_700aef77bd01d6bd_.84a472a
	cmpb	$0, 3568(%rsp)
	je	.LBBdb5fcef_6
	cmpb	$1, %r15b
	jne	.LBBdb5fcef_31
	movq	%r13, %rdi
	callq	lone_drive_c_dasd_files_volume_file_VolumeFile_Destruct_drop.6038f02
.LBBdb5fcef_31:
	cmpb	$1, 56(%rsp)
	movq	64(%rsp), %rbx
	jne	.LBBdb5fcef_33
	movq	24(%rsp), %rax
	movq	%rax, 3424(%rsp)
	movq	88(%rsp), %rax
	movq	%rax, 3432(%rsp)
	movq	40(%rsp), %rax
	movq	%rax, 3440(%rsp)
	movups	(%rbp), %xmm0
	movups	%xmm0, 3448(%rsp)
	movq	48(%rsp), %rax
	movb	%al, 3464(%rsp)
	movq	17(%rbp), %rax
	movq	24(%rbp), %rcx
	movq	%rax, 3465(%rsp)
	movq	%rcx, 3472(%rsp)
	movq	16(%rsp), %rax
	movq	%rax, 3480(%rsp)
	movq	496(%rsp), %rax
	movq	%rax, 3488(%rsp)
	movq	32(%rsp), %rax
	movq	%rax, 3496(%rsp)
	leaq	3424(%rsp), %rdi
	callq	lone_drive_c_dasd_files_volume_file_VolumeFile_Destruct_drop.6038f02
.LBBdb5fcef_33:
	cmpb	$1, 472(%rsp)
	movq	136(%rsp), %r13
	movq	104(%rsp), %rbp
	movq	8(%rsp), %rax
	jne	.LBBdb5fcef_80
	movq	%r13, 2144(%rsp)
	movq	%rax, 2152(%rsp)
	movq	%rbx, 2160(%rsp)
	leaq	1224(%rsp), %rcx
	movups	(%rcx), %xmm0
	movups	%xmm0, 2168(%rsp)
	movb	%bpl, 2184(%rsp)
	movq	17(%rcx), %rax
	movq	24(%rcx), %rcx
	movq	%rax, 2185(%rsp)
	movq	%rcx, 2192(%rsp)
	movq	%r12, 2200(%rsp)
	movq	504(%rsp), %rax
	movq	%rax, 2208(%rsp)
	movq	96(%rsp), %rax
	movq	%rax, 2216(%rsp)
	leaq	2144(%rsp), %rdi
	jmp	.LBBdb5fcef_79
.LBBdb5fcef_101:
	movq	%r8, %rax
	andq	$-32, %rax
	xorl	%ecx, %ecx
	.p2align	4
.LBBdb5fcef_102:
	movups	(%rbp,%rcx), %xmm0
	movups	16(%rbp,%rcx), %xmm1
	movups	%xmm0, (%r15,%rcx)
	movups	%xmm1, 16(%r15,%rcx)
	addq	$32, %rcx
	cmpq	%rcx, %rax
	jne	.LBBdb5fcef_102
	cmpq	%rax, %r8
	je	.LBBdb5fcef_113
	testb	$28, %r8b
	je	.LBBdb5fcef_108
.LBBdb5fcef_105:
	movq	%rax, %rcx
	movq	%r8, %rax
	andq	$-4, %rax
	.p2align	4
.LBBdb5fcef_106:
	movl	(%rbp,%rcx), %edx
	movl	%edx, (%r15,%rcx)
	addq	$4, %rcx
	cmpq	%rcx, %rax
	jne	.LBBdb5fcef_106
	cmpq	%rax, %r8
	je	.LBBdb5fcef_113
.LBBdb5fcef_108:
	movq	%r8, %rdx
	movq	%rax, %rcx
	andq	$3, %rdx
	je	.LBBdb5fcef_111
	movq	%rax, %rcx
	.p2align	4
.LBBdb5fcef_110:
	movzbl	(%rbp,%rcx), %esi
	movb	%sil, (%r15,%rcx)
	incq	%rcx
	decq	%rdx
	jne	.LBBdb5fcef_110
.LBBdb5fcef_111:
	subq	%r8, %rax
	cmpq	$-4, %rax
	ja	.LBBdb5fcef_113
	.p2align	4
.LBBdb5fcef_112:
	movzbl	(%rbp,%rcx), %eax
	movb	%al, (%r15,%rcx)
	movzbl	1(%rbp,%rcx), %eax
	movb	%al, 1(%r15,%rcx)
	movzbl	2(%rbp,%rcx), %eax
	movb	%al, 2(%r15,%rcx)
	movzbl	3(%rbp,%rcx), %eax
	movb	%al, 3(%r15,%rcx)
	addq	$4, %rcx
	cmpq	%rcx, %r8
	jne	.LBBdb5fcef_112
.LBBdb5fcef_113:
	movq	%r12, 536(%rsp)
	movq	768(%rbx), %r12
	movq	776(%rbx), %rcx
	testq	%rcx, %rcx
	je	.LBBdb5fcef_114
	movabsq	$2305843009213693944, %rbp
	leaq	8(%rbp), %rax
	cmpq	%rax, %rcx
	jae	.LBBdb5fcef_132
	leaq	(,%rcx,4), %rbx
	movq	%rcx, 520(%rsp)
	movl	$4, %esi
	movq	%rbx, %rdi
	movq	%r8, 688(%rsp)
	callq	rattle_alloc@PLT
	movq	520(%rsp), %rcx
	movq	688(%rsp), %r8
	movq	%r14, %r11
	movq	%r13, %r10
	testb	$1, %al
	je	.LBBdb5fcef_132
	movq	%rbp, %rsi
	movq	%rdx, %rax
	subq	%r12, %rax
	cmpq	%rbx, %rax
	movq	%rdx, %rbp
	jae	.LBBdb5fcef_115
	xorl	%eax, %eax
	cmpq	$8, %rcx
	jb	.LBBdb5fcef_122
	movq	%rsi, %rdx
	movq	%rbp, %rcx
	subq	%r12, %rcx
	cmpq	$32, %rcx
	movq	528(%rsp), %rbx
	movq	368(%rsp), %r9
	movq	96(%rsp), %r13
	movq	72(%rsp), %rdi
	movq	8(%rsp), %r8
	movq	80(%rsp), %r14
	movq	376(%rsp), %rsi
	jb	.LBBdb5fcef_127
	movq	%rdx, %rax
	movq	520(%rsp), %rcx
	andq	%rcx, %rax
	leaq	(,%rcx,4), %rdx
	movabsq	$9223372036854775776, %rcx
	andq	%rdx, %rcx
	xorl	%edx, %edx
.LBBdb5fcef_125:
	movups	(%r12,%rdx), %xmm0
	movups	16(%r12,%rdx), %xmm1
	movups	%xmm0, (%rbp,%rdx)
	movups	%xmm1, 16(%rbp,%rdx)
	addq	$32, %rdx
	cmpq	%rdx, %rcx
	jne	.LBBdb5fcef_125
	cmpq	%rax, 520(%rsp)
	je	.LBBdb5fcef_117
	jmp	.LBBdb5fcef_127
.LBBdb5fcef_132:
	testq	%r8, %r8
	movq	536(%rsp), %r12
	movq	368(%rsp), %rdi
	je	.LBBdb5fcef_134
	movq	%r15, %rdi
	callq	rattle_dealloc@PLT
	movq	%r14, %r11
	movq	%r13, %r10
	movq	368(%rsp), %rdi
.LBBdb5fcef_134:
	xorps	%xmm0, %xmm0
	movaps	%xmm0, 6656(%rsp)
	movq	$0, 3280(%rsp)
	movq	$0, 3287(%rsp)
	movaps	%xmm0, 6640(%rsp)
	movq	$0, 3264(%rsp)
	movq	$0, 3271(%rsp)
	movaps	%xmm0, 6624(%rsp)
	movq	$0, 3248(%rsp)
	movq	$0, 3255(%rsp)
	movaps	%xmm0, 6608(%rsp)
	movq	$0, 3232(%rsp)
	movq	$0, 3239(%rsp)
	movaps	%xmm0, 6592(%rsp)
	movq	$0, 3216(%rsp)
	movq	$0, 3223(%rsp)
	movaps	%xmm0, 6576(%rsp)
	movq	$0, 3200(%rsp)
	movq	$0, 3207(%rsp)
	movaps	%xmm0, 6560(%rsp)
	movq	$0, 3184(%rsp)
	movq	$0, 3191(%rsp)
	movaps	%xmm0, 6544(%rsp)
	movq	$0, 3168(%rsp)
	movq	$0, 3175(%rsp)
	movaps	%xmm0, 1152(%rsp)
	movaps	%xmm0, 1168(%rsp)
	movl	$0, 752(%rsp)
	movl	$0, 755(%rsp)
	movl	$0, 744(%rsp)
	movl	$0, 747(%rsp)
	cmpb	$1, 472(%rsp)
	movq	96(%rsp), %rbx
	movq	136(%rsp), %r15
	movq	128(%rsp), %r13
	movq	48(%rsp), %rbp
	jne	.LBBdb5fcef_140
	cmpq	$0, 64(%rsp)
	je	.LBBdb5fcef_137
	movq	%r10, %rdi
	callq	rattle_dealloc@PLT
	movq	%r14, %r11
	movq	368(%rsp), %rdi
.LBBdb5fcef_137:
	testb	%r11b, %r11b
	je	.LBBdb5fcef_140
	testq	%rbx, %rbx
	je	.LBBdb5fcef_140
	movq	%r12, %rdi
	callq	rattle_dealloc@PLT
	movq	368(%rsp), %rdi
.LBBdb5fcef_140:
	cmpb	$1, 56(%rsp)
	movq	80(%rsp), %rbx
	jne	.LBBdb5fcef_146
	cmpq	$0, 40(%rsp)
	je	.LBBdb5fcef_143
	movq	24(%rsp), %rdi
	callq	rattle_dealloc@PLT
	movq	368(%rsp), %rdi
.LBBdb5fcef_143:
	testb	%bpl, %bpl
	je	.LBBdb5fcef_146
	cmpq	$0, 32(%rsp)
	je	.LBBdb5fcef_146
	movq	16(%rsp), %rdi
	callq	rattle_dealloc@PLT
	movq	368(%rsp), %rdi
.LBBdb5fcef_146:
	cmpb	$1, 360(%rsp)
	jne	.LBBdb5fcef_152
	cmpq	$0, 72(%rsp)
	je	.LBBdb5fcef_149
	callq	rattle_dealloc@PLT
.LBBdb5fcef_149:
	testb	%r15b, %r15b
	je	.LBBdb5fcef_152
	testq	%r13, %r13
	je	.LBBdb5fcef_152
	movq	704(%rsp), %rdi
	callq	rattle_dealloc@PLT
.LBBdb5fcef_152:
	cmpb	$1, 352(%rsp)
	movq	112(%rsp), %r14
	jne	.LBBdb5fcef_158
	cmpq	$0, 328(%rsp)
	je	.LBBdb5fcef_155
	movq	%rbx, %rdi
	callq	rattle_dealloc@PLT
.LBBdb5fcef_155:
	cmpb	$0, 320(%rsp)
	je	.LBBdb5fcef_158
	cmpq	$0, 248(%rsp)
	je	.LBBdb5fcef_158
	movq	176(%rsp), %rdi
	callq	rattle_dealloc@PLT
.LBBdb5fcef_158:
	cmpb	$1, %r14b
	movq	120(%rsp), %rbx
	jne	.LBBdb5fcef_164
	cmpq	$0, 312(%rsp)
	je	.LBBdb5fcef_161
	movq	208(%rsp), %rdi
	callq	rattle_dealloc@PLT
.LBBdb5fcef_161:
	cmpb	$0, 304(%rsp)
	je	.LBBdb5fcef_164
	cmpq	$0, 240(%rsp)
	je	.LBBdb5fcef_164
	movq	168(%rsp), %rdi
	callq	rattle_dealloc@PLT
.LBBdb5fcef_164:
	cmpb	$1, %bl
	movq	344(%rsp), %rbx
	jne	.LBBdb5fcef_170
	cmpq	$0, 296(%rsp)
	je	.LBBdb5fcef_167
	movq	200(%rsp), %rdi
	callq	rattle_dealloc@PLT
.LBBdb5fcef_167:
	cmpb	$0, 288(%rsp)
	je	.LBBdb5fcef_170
	cmpq	$0, 232(%rsp)
	je	.LBBdb5fcef_170
	movq	160(%rsp), %rdi
	callq	rattle_dealloc@PLT
.LBBdb5fcef_170:
	cmpb	$1, %bl
	jne	.LBBdb5fcef_176
	cmpq	$0, 280(%rsp)
	je	.LBBdb5fcef_173
	movq	192(%rsp), %rdi
	callq	rattle_dealloc@PLT
.LBBdb5fcef_173:
	cmpb	$0, 272(%rsp)
	je	.LBBdb5fcef_176
	cmpq	$0, 224(%rsp)
	je	.LBBdb5fcef_176
	movq	152(%rsp), %rdi
	callq	rattle_dealloc@PLT
.LBBdb5fcef_176:
	cmpb	$1, 336(%rsp)
	jne	.LBBdb5fcef_182
	cmpq	$0, 264(%rsp)
	je	.LBBdb5fcef_179
	movq	184(%rsp), %rdi
	callq	rattle_dealloc@PLT
.LBBdb5fcef_179:
	cmpb	$0, 256(%rsp)
	je	.LBBdb5fcef_182
	cmpq	$0, 216(%rsp)
	je	.LBBdb5fcef_182
	movq	144(%rsp), %rdi
	callq	rattle_dealloc@PLT
.LBBdb5fcef_182:
	movaps	6656(%rsp), %xmm0
	movaps	%xmm0, 4272(%rsp)
	movq	3280(%rsp), %rax
	movq	3287(%rsp), %rcx
	movq	%rax, 1128(%rsp)
	movq	%rcx, 1135(%rsp)
	movaps	6640(%rsp), %xmm0
	movaps	%xmm0, 4256(%rsp)
	movq	3264(%rsp), %rax
	movq	3271(%rsp), %rcx
	movq	%rax, 1112(%rsp)
	movq	%rcx, 1119(%rsp)
	movaps	6624(%rsp), %xmm0
	movaps	%xmm0, 4240(%rsp)
	movq	3248(%rsp), %rax
	movq	3255(%rsp), %rcx
	movq	%rcx, 1103(%rsp)
	movq	%rax, 1096(%rsp)
	movaps	6608(%rsp), %xmm0
	movaps	%xmm0, 4224(%rsp)
	movq	3232(%rsp), %rax
	movq	3239(%rsp), %rcx
	movq	%rcx, 1087(%rsp)
	movq	%rax, 1080(%rsp)
	movaps	6592(%rsp), %xmm0
	movaps	%xmm0, 4208(%rsp)
	movq	3216(%rsp), %rax
	movq	3223(%rsp), %rcx
	movq	%rcx, 1071(%rsp)
	movq	%rax, 1064(%rsp)
	movaps	6576(%rsp), %xmm0
	movaps	%xmm0, 4192(%rsp)
	movq	3200(%rsp), %rax
	movq	3207(%rsp), %rcx
	movq	%rcx, 1055(%rsp)
	movq	%rax, 1048(%rsp)
	movaps	6560(%rsp), %xmm0
	movaps	%xmm0, 4176(%rsp)
	movq	3184(%rsp), %rax
	movq	3191(%rsp), %rcx
	movq	%rcx, 1039(%rsp)
	movq	%rax, 1032(%rsp)
	movaps	6544(%rsp), %xmm0
	movaps	%xmm0, 4160(%rsp)
	movq	3168(%rsp), %rax
	movq	3175(%rsp), %rcx
	movq	%rcx, 1023(%rsp)
	movq	%rax, 1016(%rsp)
	movaps	1152(%rsp), %xmm0
	movaps	1168(%rsp), %xmm1
	movaps	%xmm1, 4144(%rsp)
	movaps	%xmm0, 4128(%rsp)
	movl	752(%rsp), %eax
	movl	755(%rsp), %ecx
	movl	%ecx, 683(%rsp)
	movl	%eax, 680(%rsp)
	movl	744(%rsp), %eax
	movl	747(%rsp), %ecx
	movl	%ecx, 675(%rsp)
	movl	%eax, 672(%rsp)
	xorps	%xmm0, %xmm0
.LBBdb5fcef_184:
	xorl	%ecx, %ecx
	movq	$0, 472(%rsp)
	xorl	%r10d, %r10d
	xorl	%r8d, %r8d
	xorl	%ebx, %ebx
	xorl	%r11d, %r11d
	xorl	%r12d, %r12d
	movq	$0, 504(%rsp)
	xorl	%r13d, %r13d
	movq	$0, 56(%rsp)
	movq	$0, 24(%rsp)
	movq	$0, 88(%rsp)
	movq	$0, 40(%rsp)
	movq	$0, 48(%rsp)
	movq	$0, 16(%rsp)
	movq	$0, 496(%rsp)
	movq	$0, 32(%rsp)
	movq	$0, 360(%rsp)
	xorl	%r9d, %r9d
	xorl	%esi, %esi
	xorl	%edi, %edi
	movq	$0, 136(%rsp)
	movq	$0, 704(%rsp)
	movq	$0, 464(%rsp)
	movq	$0, 128(%rsp)
	movq	$0, 352(%rsp)
	xorl	%r14d, %r14d
	movq	$0, 456(%rsp)
	movq	$0, 328(%rsp)
	movq	$0, 320(%rsp)
	movq	$0, 176(%rsp)
	movq	$0, 448(%rsp)
	movq	$0, 248(%rsp)
	movq	$0, 112(%rsp)
	movq	$0, 208(%rsp)
	movq	$0, 440(%rsp)
	movq	$0, 312(%rsp)
	movq	$0, 304(%rsp)
	movq	$0, 168(%rsp)
	movq	$0, 432(%rsp)
	movq	$0, 240(%rsp)
	movq	$0, 120(%rsp)
	movq	$0, 200(%rsp)
	movq	$0, 424(%rsp)
	movq	$0, 296(%rsp)
	movq	$0, 288(%rsp)
	movq	$0, 160(%rsp)
	movq	$0, 416(%rsp)
	movq	$0, 232(%rsp)
	movq	$0, 344(%rsp)
	movq	$0, 192(%rsp)
	movq	$0, 408(%rsp)
	movq	$0, 280(%rsp)
	movq	$0, 272(%rsp)
	movq	$0, 152(%rsp)
	movq	$0, 400(%rsp)
	movq	$0, 224(%rsp)
	movq	$0, 336(%rsp)
	movq	$0, 184(%rsp)
	movq	$0, 392(%rsp)
	movq	$0, 264(%rsp)
	movq	$0, 256(%rsp)
	movq	$0, 144(%rsp)
	movq	$0, 384(%rsp)
	movq	$0, 216(%rsp)
	movq	$0, 104(%rsp)
	xorl	%r15d, %r15d
	movq	$0, 688(%rsp)
	xorl	%ebp, %ebp
	movq	$0, 520(%rsp)
	movq	$0, 80(%rsp)
	movq	$0, 8(%rsp)
	movq	$0, 96(%rsp)
	movq	$0, 72(%rsp)
	movl	$0, 368(%rsp)
	movl	$0, 492(%rsp)
	movl	$0, 488(%rsp)
	movl	$0, 484(%rsp)
	movq	$0, 760(%rsp)
.LBBdb5fcef_185:
	xorps	%xmm1, %xmm1
	movaps	%xmm1, 2256(%rsp)
	movq	$0, 2144(%rsp)
	movq	$0, 2151(%rsp)
	movaps	%xmm1, 2432(%rsp)
	movq	$0, 2071(%rsp)
	movq	$0, 2064(%rsp)
	movaps	%xmm1, 3568(%rsp)
	movq	$0, 1991(%rsp)
	movq	$0, 1984(%rsp)
	movaps	%xmm1, 3664(%rsp)
	movq	$0, 1911(%rsp)
	movq	$0, 1904(%rsp)
	movaps	%xmm1, 3840(%rsp)
	movq	$0, 1831(%rsp)
	movq	$0, 1824(%rsp)
	movaps	%xmm1, 3936(%rsp)
	movq	$0, 1751(%rsp)
	movq	$0, 1744(%rsp)
	movaps	%xmm1, 4032(%rsp)
	movq	$0, 1671(%rsp)
	movq	$0, 1664(%rsp)
	movaps	%xmm1, 3424(%rsp)
	movq	$0, 2359(%rsp)
	movq	$0, 2352(%rsp)
	movaps	%xmm1, 1200(%rsp)
	movaps	%xmm1, 1184(%rsp)
	movl	$0, 3763(%rsp)
	movl	$0, 3760(%rsp)
	movl	$0, 1155(%rsp)
	movl	$0, 1152(%rsp)
	testb	%cl, %cl
	je	.LBBdb5fcef_186
	movaps	4272(%rsp), %xmm1
	movaps	%xmm1, 2256(%rsp)
	movq	1128(%rsp), %rax
	movq	1135(%rsp), %rdx
	movq	%rax, 2144(%rsp)
	movq	%rdx, 2151(%rsp)
	movaps	4256(%rsp), %xmm1
	movaps	%xmm1, 2432(%rsp)
	movq	1112(%rsp), %rax
	movq	1119(%rsp), %rdx
	movq	%rax, 2064(%rsp)
	movq	%rdx, 2071(%rsp)
	movaps	4240(%rsp), %xmm1
	movaps	%xmm1, 3568(%rsp)
	movq	1096(%rsp), %rax
	movq	1103(%rsp), %rdx
	movq	%rdx, 1991(%rsp)
	movq	%rax, 1984(%rsp)
	movaps	4224(%rsp), %xmm1
	movaps	%xmm1, 3664(%rsp)
	movq	1080(%rsp), %rax
	movq	1087(%rsp), %rdx
	movq	%rdx, 1911(%rsp)
	movq	%rax, 1904(%rsp)
	movaps	4208(%rsp), %xmm1
	movaps	%xmm1, 3840(%rsp)
	movq	1064(%rsp), %rax
	movq	1071(%rsp), %rdx
	movq	%rdx, 1831(%rsp)
	movq	%rax, 1824(%rsp)
	movaps	4192(%rsp), %xmm1
	movaps	%xmm1, 3936(%rsp)
	movq	1048(%rsp), %rax
	movq	1055(%rsp), %rdx
	movq	%rdx, 1751(%rsp)
	movq	%rax, 1744(%rsp)
	movaps	4176(%rsp), %xmm1
	movaps	%xmm1, 4032(%rsp)
	movq	1032(%rsp), %rax
	movq	1039(%rsp), %rdx
	movq	%rdx, 1671(%rsp)
	movq	%rax, 1664(%rsp)
	movaps	4160(%rsp), %xmm1
	movaps	%xmm1, 3424(%rsp)
	movq	1016(%rsp), %rax
	movq	1023(%rsp), %rdx
	movq	%rdx, 2359(%rsp)
	movq	%rax, 2352(%rsp)
	movaps	4128(%rsp), %xmm1
	movaps	4144(%rsp), %xmm2
	movaps	%xmm2, 1200(%rsp)
	movaps	%xmm1, 1184(%rsp)
	movl	680(%rsp), %eax
	movl	683(%rsp), %edx
	movl	%edx, 3763(%rsp)
	movl	%eax, 3760(%rsp)
	movl	672(%rsp), %eax
	movl	675(%rsp), %edx
	movl	%edx, 1155(%rsp)
	movl	%eax, 1152(%rsp)
	movaps	%xmm0, %xmm1
	jmp	.LBBdb5fcef_188
.LBBdb5fcef_186:
	movq	$0, 472(%rsp)
	xorl	%r10d, %r10d
	xorl	%r8d, %r8d
	xorl	%ebx, %ebx
	xorl	%r11d, %r11d
	xorl	%r12d, %r12d
	movq	$0, 504(%rsp)
	xorl	%r13d, %r13d
	movq	$0, 56(%rsp)
	movq	$0, 24(%rsp)
	movq	$0, 88(%rsp)
	movq	$0, 40(%rsp)
	movq	$0, 48(%rsp)
	movq	$0, 16(%rsp)
	movq	$0, 496(%rsp)
	movq	$0, 32(%rsp)
	movq	$0, 360(%rsp)
	xorl	%r9d, %r9d
	xorl	%esi, %esi
	xorl	%edi, %edi
	movq	$0, 136(%rsp)
	movq	$0, 704(%rsp)
	movq	$0, 464(%rsp)
	movq	$0, 128(%rsp)
	movq	$0, 352(%rsp)
	xorl	%r14d, %r14d
	movq	$0, 456(%rsp)
	movq	$0, 328(%rsp)
	movq	$0, 320(%rsp)
	movq	$0, 176(%rsp)
	movq	$0, 448(%rsp)
	movq	$0, 248(%rsp)
	movq	$0, 112(%rsp)
	movq	$0, 208(%rsp)
	movq	$0, 440(%rsp)
	movq	$0, 312(%rsp)
	movq	$0, 304(%rsp)
	movq	$0, 168(%rsp)
	movq	$0, 432(%rsp)
	movq	$0, 240(%rsp)
	movq	$0, 120(%rsp)
	movq	$0, 200(%rsp)
	movq	$0, 424(%rsp)
	movq	$0, 296(%rsp)
	movq	$0, 288(%rsp)
	movq	$0, 160(%rsp)
	movq	$0, 416(%rsp)
	movq	$0, 232(%rsp)
	movq	$0, 344(%rsp)
	movq	$0, 192(%rsp)
	movq	$0, 408(%rsp)
	movq	$0, 280(%rsp)
	movq	$0, 272(%rsp)
	movq	$0, 152(%rsp)
	movq	$0, 400(%rsp)
	movq	$0, 224(%rsp)
	movq	$0, 336(%rsp)
	movq	$0, 184(%rsp)
	movq	$0, 392(%rsp)
	movq	$0, 264(%rsp)
	movq	$0, 256(%rsp)
	movq	$0, 144(%rsp)
	movq	$0, 384(%rsp)
	movq	$0, 216(%rsp)
	movq	$0, 104(%rsp)
	xorl	%r15d, %r15d
	movq	$0, 688(%rsp)
	xorl	%ebp, %ebp
	movq	$0, 520(%rsp)
	movq	$0, 80(%rsp)
	movq	$0, 8(%rsp)
	movq	$0, 96(%rsp)
	movq	$0, 72(%rsp)
	movl	$0, 368(%rsp)
	movl	$0, 492(%rsp)
	movl	$0, 488(%rsp)
	movl	$0, 484(%rsp)
	movq	$0, 760(%rsp)
.LBBdb5fcef_188:
	movaps	2256(%rsp), %xmm0
	movaps	%xmm0, 6400(%rsp)
	movq	2144(%rsp), %rax
	movq	2151(%rsp), %rdx
	movq	%rax, 3024(%rsp)
	movq	%rdx, 3031(%rsp)
	movaps	2432(%rsp), %xmm0
	movaps	%xmm0, 6384(%rsp)
	movq	2064(%rsp), %rax
	movq	2071(%rsp), %rdx
	movq	%rax, 3008(%rsp)
	movq	%rdx, 3015(%rsp)
	movaps	3568(%rsp), %xmm0
	movaps	%xmm0, 6368(%rsp)
	movq	1984(%rsp), %rax
	movq	1991(%rsp), %rdx
	movq	%rdx, 2999(%rsp)
	movq	%rax, 2992(%rsp)
	movaps	3664(%rsp), %xmm0
	movaps	%xmm0, 6352(%rsp)
	movq	1904(%rsp), %rax
	movq	1911(%rsp), %rdx
	movq	%rax, 2976(%rsp)
	movq	%rdx, 2983(%rsp)
	movaps	3840(%rsp), %xmm0
	movaps	%xmm0, 6336(%rsp)
	movq	1824(%rsp), %rax
	movq	1831(%rsp), %rdx
	movq	%rax, 2960(%rsp)
	movq	%rdx, 2967(%rsp)
	movaps	3936(%rsp), %xmm0
	movaps	%xmm0, 6320(%rsp)
	movq	1744(%rsp), %rax
	movq	1751(%rsp), %rdx
	movq	%rax, 2944(%rsp)
	movq	%rdx, 2951(%rsp)
	movaps	4032(%rsp), %xmm0
	movaps	%xmm0, 6304(%rsp)
	movq	1664(%rsp), %rax
	movq	1671(%rsp), %rdx
	movq	%rdx, 2935(%rsp)
	movq	%rax, 2928(%rsp)
	movaps	3424(%rsp), %xmm0
	movaps	%xmm0, 6288(%rsp)
	movq	2352(%rsp), %rax
	movq	2359(%rsp), %rdx
	movq	%rdx, 2919(%rsp)
	movq	%rax, 2912(%rsp)
	movaps	1184(%rsp), %xmm0
	movaps	1200(%rsp), %xmm2
	movaps	%xmm2, 3520(%rsp)
	movaps	%xmm0, 3504(%rsp)
	movl	3760(%rsp), %eax
	movl	3763(%rsp), %edx
	movl	%edx, 867(%rsp)
	movl	%eax, 864(%rsp)
	movl	1152(%rsp), %eax
	movl	1155(%rsp), %edx
	movl	%edx, 859(%rsp)
	movl	%eax, 856(%rsp)
	testb	%cl, %cl
	je	.LBBdb5fcef_190
	movaps	6400(%rsp), %xmm0
	movaps	%xmm0, 4944(%rsp)
	movq	3024(%rsp), %rax
	movq	3031(%rsp), %rdx
	movq	%rax, 1520(%rsp)
	movq	%rdx, 1527(%rsp)
	movaps	6384(%rsp), %xmm0
	movaps	%xmm0, 4928(%rsp)
	movq	3008(%rsp), %rax
	movq	3015(%rsp), %rdx
	movq	%rax, 1504(%rsp)
	movq	%rdx, 1511(%rsp)
	movaps	6368(%rsp), %xmm0
	movaps	%xmm0, 4912(%rsp)
	movq	2992(%rsp), %rax
	movq	2999(%rsp), %rdx
	movq	%rdx, 1495(%rsp)
	movq	%rax, 1488(%rsp)
	movaps	6352(%rsp), %xmm0
	movaps	%xmm0, 4896(%rsp)
	movq	2976(%rsp), %rax
	movq	2983(%rsp), %rdx
	movq	%rdx, 1479(%rsp)
	movq	%rax, 1472(%rsp)
	movaps	6336(%rsp), %xmm0
	movaps	%xmm0, 4880(%rsp)
	movq	2960(%rsp), %rax
	movq	2967(%rsp), %rdx
	movq	%rdx, 1463(%rsp)
	movq	%rax, 1456(%rsp)
	movaps	6320(%rsp), %xmm0
	movaps	%xmm0, 4864(%rsp)
	movq	2944(%rsp), %rax
	movq	2951(%rsp), %rdx
	movq	%rdx, 1447(%rsp)
	movq	%rax, 1440(%rsp)
	movaps	6304(%rsp), %xmm0
	movaps	%xmm0, 4848(%rsp)
	movq	2928(%rsp), %rax
	movq	2935(%rsp), %rdx
	movq	%rdx, 1431(%rsp)
	movq	%rax, 1424(%rsp)
	movaps	6288(%rsp), %xmm0
	movaps	%xmm0, 4832(%rsp)
	movq	2912(%rsp), %rax
	movq	2919(%rsp), %rdx
	movq	%rdx, 1415(%rsp)
	movq	%rax, 1408(%rsp)
	movaps	3504(%rsp), %xmm0
	movaps	3520(%rsp), %xmm2
	movaps	%xmm2, 4816(%rsp)
	movaps	%xmm0, 4800(%rsp)
	movl	864(%rsp), %eax
	movl	867(%rsp), %edx
	movl	%edx, 739(%rsp)
	movl	%eax, 736(%rsp)
	movl	856(%rsp), %eax
	movl	859(%rsp), %edx
	movl	%edx, 731(%rsp)
	movl	%eax, 728(%rsp)
	movq	528(%rsp), %rdx
	movq	928(%rdx), %rax
	movq	%rax, 4560(%rsp)
	movups	864(%rdx), %xmm0
	movups	880(%rdx), %xmm2
	movups	896(%rdx), %xmm3
	movups	912(%rdx), %xmm4
	movaps	%xmm4, 4544(%rsp)
	movaps	%xmm3, 4528(%rsp)
	movaps	%xmm2, 4512(%rsp)
	movaps	%xmm0, 4496(%rsp)
	movups	936(%rdx), %xmm0
	movups	952(%rdx), %xmm2
	movaps	%xmm2, 4784(%rsp)
	movaps	%xmm0, 4768(%rsp)
	movq	1016(%rdx), %rax
	movq	%rax, 4400(%rsp)
	movups	968(%rdx), %xmm0
	movups	984(%rdx), %xmm2
	movups	1000(%rdx), %xmm3
	movaps	%xmm3, 4384(%rsp)
	movaps	%xmm2, 4368(%rsp)
	movaps	%xmm0, 4352(%rsp)
	jmp	.LBBdb5fcef_191
.LBBdb5fcef_190:
	xorps	%xmm1, %xmm1
	movaps	%xmm1, 4944(%rsp)
	movq	$0, 1520(%rsp)
	movq	$0, 1527(%rsp)
	movaps	%xmm1, 4928(%rsp)
	movq	$0, 1504(%rsp)
	movq	$0, 1511(%rsp)
	movaps	%xmm1, 4912(%rsp)
	movq	$0, 1488(%rsp)
	movq	$0, 1495(%rsp)
	movaps	%xmm1, 4896(%rsp)
	movq	$0, 1472(%rsp)
	movq	$0, 1479(%rsp)
	movaps	%xmm1, 4880(%rsp)
	movq	$0, 1456(%rsp)
	movq	$0, 1463(%rsp)
	movaps	%xmm1, 4864(%rsp)
	movq	$0, 1440(%rsp)
	movq	$0, 1447(%rsp)
	movaps	%xmm1, 4848(%rsp)
	movq	$0, 1431(%rsp)
	movq	$0, 1424(%rsp)
	movaps	%xmm1, 4832(%rsp)
	movq	$0, 1415(%rsp)
	movq	$0, 1408(%rsp)
	movaps	%xmm1, 4816(%rsp)
	movaps	%xmm1, 4800(%rsp)
	movl	$0, 739(%rsp)
	movl	$0, 736(%rsp)
	movl	$0, 731(%rsp)
	movl	$0, 728(%rsp)
	movaps	%xmm1, 4544(%rsp)
	movaps	%xmm1, 4528(%rsp)
	movaps	%xmm1, 4512(%rsp)
	movaps	%xmm1, 4496(%rsp)
	movq	$0, 4560(%rsp)
	movaps	%xmm1, 4768(%rsp)
	movaps	%xmm1, 4784(%rsp)
	movaps	%xmm1, 4384(%rsp)
	movaps	%xmm1, 4368(%rsp)
	movaps	%xmm1, 4352(%rsp)
	movq	$0, 4400(%rsp)
	movq	$0, 472(%rsp)
	xorl	%r10d, %r10d
	xorl	%r8d, %r8d
	xorl	%ebx, %ebx
	xorl	%r11d, %r11d
	xorl	%r12d, %r12d
	movq	$0, 504(%rsp)
	xorl	%r13d, %r13d
	movq	$0, 56(%rsp)
	movq	$0, 24(%rsp)
	movq	$0, 88(%rsp)
	movq	$0, 40(%rsp)
	movq	$0, 48(%rsp)
	movq	$0, 16(%rsp)
	movq	$0, 496(%rsp)
	movq	$0, 32(%rsp)
	movq	$0, 360(%rsp)
	xorl	%r9d, %r9d
	xorl	%esi, %esi
	xorl	%edi, %edi
	movq	$0, 136(%rsp)
	movq	$0, 704(%rsp)
	movq	$0, 464(%rsp)
	movq	$0, 128(%rsp)
	movq	$0, 352(%rsp)
	xorl	%r14d, %r14d
	movq	$0, 456(%rsp)
	movq	$0, 328(%rsp)
	movq	$0, 320(%rsp)
	movq	$0, 176(%rsp)
	movq	$0, 448(%rsp)
	movq	$0, 248(%rsp)
	movq	$0, 112(%rsp)
	movq	$0, 208(%rsp)
	movq	$0, 440(%rsp)
	movq	$0, 312(%rsp)
	movq	$0, 304(%rsp)
	movq	$0, 168(%rsp)
	movq	$0, 432(%rsp)
	movq	$0, 240(%rsp)
	movq	$0, 120(%rsp)
	movq	$0, 200(%rsp)
	movq	$0, 424(%rsp)
	movq	$0, 296(%rsp)
	movq	$0, 288(%rsp)
	movq	$0, 160(%rsp)
	movq	$0, 416(%rsp)
	movq	$0, 232(%rsp)
	movq	$0, 344(%rsp)
	movq	$0, 192(%rsp)
	movq	$0, 408(%rsp)
	movq	$0, 280(%rsp)
	movq	$0, 272(%rsp)
	movq	$0, 152(%rsp)
	movq	$0, 400(%rsp)
	movq	$0, 224(%rsp)
	movq	$0, 336(%rsp)
	movq	$0, 184(%rsp)
	movq	$0, 392(%rsp)
	movq	$0, 264(%rsp)
	movq	$0, 256(%rsp)
	movq	$0, 144(%rsp)
	movq	$0, 384(%rsp)
	movq	$0, 216(%rsp)
	movq	$0, 104(%rsp)
	xorl	%r15d, %r15d
	movq	$0, 688(%rsp)
	xorl	%ebp, %ebp
	movq	$0, 520(%rsp)
	movq	$0, 80(%rsp)
	movq	$0, 8(%rsp)
	movq	$0, 96(%rsp)
	movq	$0, 72(%rsp)
	movl	$0, 368(%rsp)
	movl	$0, 492(%rsp)
	movl	$0, 488(%rsp)
	movl	$0, 484(%rsp)
	movq	$0, 760(%rsp)
.LBBdb5fcef_191:
	xorps	%xmm0, %xmm0
	movaps	%xmm0, 3664(%rsp)
	movq	$0, 1911(%rsp)
	movq	$0, 1904(%rsp)
	movaps	%xmm0, 3840(%rsp)
	movq	$0, 1831(%rsp)
	movq	$0, 1824(%rsp)
	movaps	%xmm0, 3936(%rsp)
	movq	$0, 1751(%rsp)
	movq	$0, 1744(%rsp)
	movaps	%xmm0, 4032(%rsp)
	movq	$0, 1671(%rsp)
	movq	$0, 1664(%rsp)
	movaps	%xmm0, 3424(%rsp)
	movq	$0, 2359(%rsp)
	movq	$0, 2352(%rsp)
	movaps	%xmm0, 2144(%rsp)
	movq	$0, 3767(%rsp)
	movq	$0, 3760(%rsp)
	movaps	%xmm0, 2064(%rsp)
	movq	$0, 1159(%rsp)
	movq	$0, 1152(%rsp)
	movaps	%xmm0, 1984(%rsp)
	movq	$0, 3543(%rsp)
	movq	$0, 3536(%rsp)
	movaps	%xmm0, 2448(%rsp)
	movaps	%xmm0, 2432(%rsp)
	movl	$0, 2227(%rsp)
	movl	$0, 2224(%rsp)
	movl	$0, 3507(%rsp)
	movl	$0, 3504(%rsp)
	movaps	%xmm0, 1232(%rsp)
	movaps	%xmm0, 1216(%rsp)
	movaps	%xmm0, 1200(%rsp)
	movaps	%xmm0, 1184(%rsp)
	movq	$0, 1248(%rsp)
	movaps	%xmm0, 3584(%rsp)
	movaps	%xmm0, 3568(%rsp)
	movaps	%xmm0, 2288(%rsp)
	movaps	%xmm0, 2272(%rsp)
	movaps	%xmm0, 2256(%rsp)
	movq	$0, 2304(%rsp)
	testb	%cl, %cl
	je	.LBBdb5fcef_192
	movaps	4944(%rsp), %xmm0
	movaps	%xmm0, 3664(%rsp)
	movq	1520(%rsp), %rax
	movq	1527(%rsp), %rdx
	movq	%rax, 1904(%rsp)
	movq	%rdx, 1911(%rsp)
	movaps	4928(%rsp), %xmm0
	movaps	%xmm0, 3840(%rsp)
	movq	1504(%rsp), %rax
	movq	1511(%rsp), %rdx
	movq	%rax, 1824(%rsp)
	movq	%rdx, 1831(%rsp)
	movaps	4912(%rsp), %xmm0
	movaps	%xmm0, 3936(%rsp)
	movq	1488(%rsp), %rax
	movq	1495(%rsp), %rdx
	movq	%rdx, 1751(%rsp)
	movq	%rax, 1744(%rsp)
	movaps	4896(%rsp), %xmm0
	movaps	%xmm0, 4032(%rsp)
	movq	1472(%rsp), %rax
	movq	1479(%rsp), %rdx
	movq	%rdx, 1671(%rsp)
	movq	%rax, 1664(%rsp)
	movaps	4880(%rsp), %xmm0
	movaps	%xmm0, 3424(%rsp)
	movq	1456(%rsp), %rax
	movq	1463(%rsp), %rdx
	movq	%rdx, 2359(%rsp)
	movq	%rax, 2352(%rsp)
	movaps	4864(%rsp), %xmm0
	movaps	%xmm0, 2144(%rsp)
	movq	1440(%rsp), %rax
	movq	1447(%rsp), %rdx
	movq	%rdx, 3767(%rsp)
	movq	%rax, 3760(%rsp)
	movaps	4848(%rsp), %xmm0
	movaps	%xmm0, 2064(%rsp)
	movq	1424(%rsp), %rax
	movq	1431(%rsp), %rdx
	movq	%rdx, 1159(%rsp)
	movq	%rax, 1152(%rsp)
	movaps	4832(%rsp), %xmm0
	movaps	%xmm0, 1984(%rsp)
	movq	1408(%rsp), %rax
	movq	1415(%rsp), %rdx
	movq	%rdx, 3543(%rsp)
	movq	%rax, 3536(%rsp)
	movaps	4800(%rsp), %xmm0
	movaps	4816(%rsp), %xmm2
	movaps	%xmm2, 2448(%rsp)
	movaps	%xmm0, 2432(%rsp)
	movl	736(%rsp), %eax
	movl	739(%rsp), %edx
	movl	%edx, 2227(%rsp)
	movl	%eax, 2224(%rsp)
	movl	728(%rsp), %eax
	movl	731(%rsp), %edx
	movl	%edx, 3507(%rsp)
	movl	%eax, 3504(%rsp)
	movq	4560(%rsp), %rax
	movq	%rax, 1248(%rsp)
	movaps	4496(%rsp), %xmm0
	movaps	4512(%rsp), %xmm2
	movaps	4528(%rsp), %xmm3
	movaps	4544(%rsp), %xmm4
	movaps	%xmm4, 1232(%rsp)
	movaps	%xmm3, 1216(%rsp)
	movaps	%xmm2, 1200(%rsp)
	movaps	%xmm0, 1184(%rsp)
	movaps	4768(%rsp), %xmm0
	movaps	4784(%rsp), %xmm2
	movaps	%xmm2, 3584(%rsp)
	movaps	%xmm0, 3568(%rsp)
	movq	4400(%rsp), %rax
	movq	%rax, 2304(%rsp)
	movaps	4352(%rsp), %xmm0
	movaps	4368(%rsp), %xmm2
	movaps	4384(%rsp), %xmm3
	movaps	%xmm3, 2288(%rsp)
	movaps	%xmm2, 2272(%rsp)
	movaps	%xmm0, 2256(%rsp)
	movaps	%xmm1, %xmm0
	jmp	.LBBdb5fcef_194
.LBBdb5fcef_192:
	movq	$0, 472(%rsp)
	xorl	%r10d, %r10d
	xorl	%r8d, %r8d
	xorl	%ebx, %ebx
	xorl	%r11d, %r11d
	xorl	%r12d, %r12d
	movq	$0, 504(%rsp)
	xorl	%r13d, %r13d
	movq	$0, 56(%rsp)
	movq	$0, 24(%rsp)
	movq	$0, 88(%rsp)
	movq	$0, 40(%rsp)
	movq	$0, 48(%rsp)
	movq	$0, 16(%rsp)
	movq	$0, 496(%rsp)
	movq	$0, 32(%rsp)
	movq	$0, 360(%rsp)
	xorl	%r9d, %r9d
	xorl	%esi, %esi
	xorl	%edi, %edi
	movq	$0, 136(%rsp)
	movq	$0, 704(%rsp)
	movq	$0, 464(%rsp)
	movq	$0, 128(%rsp)
	movq	$0, 352(%rsp)
	xorl	%r14d, %r14d
	movq	$0, 456(%rsp)
	movq	$0, 328(%rsp)
	movq	$0, 320(%rsp)
	movq	$0, 176(%rsp)
	movq	$0, 448(%rsp)
	movq	$0, 248(%rsp)
	movq	$0, 112(%rsp)
	movq	$0, 208(%rsp)
	movq	$0, 440(%rsp)
	movq	$0, 312(%rsp)
	movq	$0, 304(%rsp)
	movq	$0, 168(%rsp)
	movq	$0, 432(%rsp)
	movq	$0, 240(%rsp)
	movq	$0, 120(%rsp)
	movq	$0, 200(%rsp)
	movq	$0, 424(%rsp)
	movq	$0, 296(%rsp)
	movq	$0, 288(%rsp)
	movq	$0, 160(%rsp)
	movq	$0, 416(%rsp)
	movq	$0, 232(%rsp)
	movq	$0, 344(%rsp)
	movq	$0, 192(%rsp)
	movq	$0, 408(%rsp)
	movq	$0, 280(%rsp)
	movq	$0, 272(%rsp)
	movq	$0, 152(%rsp)
	movq	$0, 400(%rsp)
	movq	$0, 224(%rsp)
	movq	$0, 336(%rsp)
	movq	$0, 184(%rsp)
	movq	$0, 392(%rsp)
	movq	$0, 264(%rsp)
	movq	$0, 256(%rsp)
	movq	$0, 144(%rsp)
	movq	$0, 384(%rsp)
	movq	$0, 216(%rsp)
	movq	$0, 104(%rsp)
	xorl	%r15d, %r15d
	movq	$0, 688(%rsp)
	xorl	%ebp, %ebp
	movq	$0, 520(%rsp)
	movq	$0, 80(%rsp)
	movq	$0, 8(%rsp)
	movq	$0, 96(%rsp)
	movq	$0, 72(%rsp)
	movl	$0, 368(%rsp)
	movl	$0, 492(%rsp)
	movl	$0, 488(%rsp)
	movl	$0, 484(%rsp)
	movq	$0, 760(%rsp)
.LBBdb5fcef_194:
	movaps	3664(%rsp), %xmm1
	movaps	%xmm1, 6272(%rsp)
	movq	1904(%rsp), %rax
	movq	1911(%rsp), %rdx
	movq	%rax, 2896(%rsp)
	movq	%rdx, 2903(%rsp)
	movaps	3840(%rsp), %xmm1
	movaps	%xmm1, 6256(%rsp)
	movq	1824(%rsp), %rax
	movq	1831(%rsp), %rdx
	movq	%rax, 2880(%rsp)
	movq	%rdx, 2887(%rsp)
	movaps	3936(%rsp), %xmm1
	movaps	%xmm1, 6240(%rsp)
	movq	1744(%rsp), %rax
	movq	1751(%rsp), %rdx
	movq	%rdx, 2871(%rsp)
	movq	%rax, 2864(%rsp)
	movaps	4032(%rsp), %xmm1
	movaps	%xmm1, 6224(%rsp)
	movq	1664(%rsp), %rax
	movq	1671(%rsp), %rdx
	movq	%rax, 2848(%rsp)
	movq	%rdx, 2855(%rsp)
	movaps	3424(%rsp), %xmm1
	movaps	%xmm1, 6208(%rsp)
	movq	2352(%rsp), %rax
	movq	2359(%rsp), %rdx
	movq	%rax, 2832(%rsp)
	movq	%rdx, 2839(%rsp)
	movaps	2144(%rsp), %xmm1
	movaps	%xmm1, 6192(%rsp)
	movq	3760(%rsp), %rax
	movq	3767(%rsp), %rdx
	movq	%rax, 2816(%rsp)
	movq	%rdx, 2823(%rsp)
	movaps	2064(%rsp), %xmm1
	movaps	%xmm1, 6176(%rsp)
	movq	1152(%rsp), %rax
	movq	1159(%rsp), %rdx
	movq	%rdx, 2807(%rsp)
	movq	%rax, 2800(%rsp)
	movaps	1984(%rsp), %xmm1
	movaps	%xmm1, 6160(%rsp)
	movq	3536(%rsp), %rax
	movq	3543(%rsp), %rdx
	movq	%rdx, 2791(%rsp)
	movq	%rax, 2784(%rsp)
	movaps	2432(%rsp), %xmm1
	movaps	2448(%rsp), %xmm2
	movaps	%xmm2, 6144(%rsp)
	movaps	%xmm1, 6128(%rsp)
	movl	2224(%rsp), %eax
	movl	2227(%rsp), %edx
	movl	%edx, 851(%rsp)
	movl	%eax, 848(%rsp)
	movl	3504(%rsp), %eax
	movl	3507(%rsp), %edx
	movl	%edx, 843(%rsp)
	movl	%eax, 840(%rsp)
	movq	1248(%rsp), %rax
	movq	%rax, 5664(%rsp)
	movaps	1184(%rsp), %xmm1
	movaps	1200(%rsp), %xmm2
	movaps	1216(%rsp), %xmm3
	movaps	1232(%rsp), %xmm4
	movaps	%xmm4, 5648(%rsp)
	movaps	%xmm3, 5632(%rsp)
	movaps	%xmm2, 5616(%rsp)
	movaps	%xmm1, 5600(%rsp)
	movaps	3568(%rsp), %xmm1
	movaps	3584(%rsp), %xmm2
	movaps	%xmm2, 6112(%rsp)
	movaps	%xmm1, 6096(%rsp)
	movq	2304(%rsp), %rax
	movq	%rax, 5344(%rsp)
	movaps	2256(%rsp), %xmm1
	movaps	2272(%rsp), %xmm2
	movaps	2288(%rsp), %xmm3
	movaps	%xmm3, 5328(%rsp)
	movaps	%xmm2, 5312(%rsp)
	movaps	%xmm1, 5296(%rsp)
	testb	%cl, %cl
	je	.LBBdb5fcef_196
	movq	%rsi, 376(%rsp)
	movq	528(%rsp), %rax
	movzbl	1024(%rax), %edx
	movzbl	1025(%rax), %eax
	movq	%rax, 64(%rsp)
	movaps	6272(%rsp), %xmm1
	movaps	%xmm1, 4752(%rsp)
	movq	2896(%rsp), %rax
	movq	%r14, %rsi
	movq	2903(%rsp), %r14
	movq	%rax, 1392(%rsp)
	movq	%r14, 1399(%rsp)
	movaps	6256(%rsp), %xmm1
	movaps	%xmm1, 4736(%rsp)
	movq	2880(%rsp), %rax
	movq	2887(%rsp), %r14
	movq	%rax, 1376(%rsp)
	movq	%r14, 1383(%rsp)
	movaps	6240(%rsp), %xmm1
	movaps	%xmm1, 4720(%rsp)
	movq	2864(%rsp), %rax
	movq	2871(%rsp), %r14
	movq	%r14, 1367(%rsp)
	movq	%rax, 1360(%rsp)
	movaps	6224(%rsp), %xmm1
	movaps	%xmm1, 4704(%rsp)
	movq	2848(%rsp), %rax
	movq	2855(%rsp), %r14
	movq	%r14, 1351(%rsp)
	movq	%rax, 1344(%rsp)
	movaps	6208(%rsp), %xmm1
	movaps	%xmm1, 4688(%rsp)
	movq	2832(%rsp), %rax
	movq	2839(%rsp), %r14
	movq	%r14, 1335(%rsp)
	movq	%rax, 1328(%rsp)
	movaps	6192(%rsp), %xmm1
	movaps	%xmm1, 4672(%rsp)
	movq	2816(%rsp), %rax
	movq	2823(%rsp), %r14
	movq	%r14, 1319(%rsp)
	movq	%rax, 1312(%rsp)
	movaps	6176(%rsp), %xmm1
	movaps	%xmm1, 4656(%rsp)
	movq	2800(%rsp), %rax
	movq	2807(%rsp), %r14
	movq	%r14, 1303(%rsp)
	movq	%rax, 1296(%rsp)
	movaps	6160(%rsp), %xmm1
	movaps	%xmm1, 4640(%rsp)
	movq	2784(%rsp), %rax
	movq	2791(%rsp), %r14
	movq	%r14, 1287(%rsp)
	movq	%rax, 1280(%rsp)
	movaps	6128(%rsp), %xmm1
	movaps	6144(%rsp), %xmm2
	movaps	%xmm2, 4624(%rsp)
	movaps	%xmm1, 4608(%rsp)
	movl	848(%rsp), %eax
	movl	851(%rsp), %r14d
	movl	%r14d, 723(%rsp)
	movl	%eax, 720(%rsp)
	movl	840(%rsp), %eax
	movl	843(%rsp), %r14d
	movl	%r14d, 715(%rsp)
	movl	%eax, 712(%rsp)
	movq	5664(%rsp), %rax
	movq	%rax, 4480(%rsp)
	movaps	5600(%rsp), %xmm1
	movaps	5616(%rsp), %xmm2
	movaps	5632(%rsp), %xmm3
	movaps	5648(%rsp), %xmm4
	movaps	%xmm4, 4464(%rsp)
	movaps	%xmm3, 4448(%rsp)
	movaps	%xmm2, 4432(%rsp)
	movaps	%xmm1, 4416(%rsp)
	movaps	6096(%rsp), %xmm1
	movaps	6112(%rsp), %xmm2
	movaps	%xmm2, 4592(%rsp)
	movaps	%xmm1, 4576(%rsp)
	movq	5344(%rsp), %rax
	movq	%rax, 4336(%rsp)
	movaps	5296(%rsp), %xmm1
	movaps	5312(%rsp), %xmm2
	movaps	5328(%rsp), %xmm3
	movaps	%xmm3, 4320(%rsp)
	movaps	%xmm2, 4304(%rsp)
	movaps	%xmm1, 4288(%rsp)
	movzwl	1148(%rsp), %eax
	movw	%ax, 700(%rsp)
	movl	1144(%rsp), %eax
	movl	%eax, 696(%rsp)
	testb	%cl, %cl
	jne	.LBBdb5fcef_199
.LBBdb5fcef_198:
	xorps	%xmm0, %xmm0
	movq	$0, 472(%rsp)
	xorl	%r10d, %r10d
	xorl	%r8d, %r8d
	xorl	%ebx, %ebx
	xorl	%r11d, %r11d
	xorl	%r9d, %r9d
	movq	$0, 504(%rsp)
	xorl	%r13d, %r13d
	movq	$0, 56(%rsp)
	movq	$0, 24(%rsp)
	movq	$0, 88(%rsp)
	movq	$0, 40(%rsp)
	movq	$0, 48(%rsp)
	movq	$0, 16(%rsp)
	movq	$0, 496(%rsp)
	movq	$0, 32(%rsp)
	movq	$0, 360(%rsp)
	xorl	%edx, %edx
	movq	$0, 376(%rsp)
	xorl	%edi, %edi
	movq	$0, 136(%rsp)
	movq	$0, 704(%rsp)
	movq	$0, 464(%rsp)
	movq	$0, 128(%rsp)
	movq	$0, 352(%rsp)
	xorl	%esi, %esi
	movq	$0, 456(%rsp)
	movq	$0, 328(%rsp)
	movq	$0, 320(%rsp)
	movq	$0, 176(%rsp)
	movq	$0, 448(%rsp)
	movq	$0, 248(%rsp)
	movq	$0, 112(%rsp)
	movq	$0, 208(%rsp)
	movq	$0, 440(%rsp)
	movq	$0, 312(%rsp)
	movq	$0, 304(%rsp)
	movq	$0, 168(%rsp)
	movq	$0, 432(%rsp)
	movq	$0, 240(%rsp)
	movq	$0, 120(%rsp)
	movq	$0, 200(%rsp)
	movq	$0, 424(%rsp)
	movq	$0, 296(%rsp)
	movq	$0, 288(%rsp)
	movq	$0, 160(%rsp)
	movq	$0, 416(%rsp)
	movq	$0, 232(%rsp)
	movq	$0, 344(%rsp)
	movq	$0, 192(%rsp)
	movq	$0, 408(%rsp)
	movq	$0, 280(%rsp)
	movq	$0, 272(%rsp)
	movq	$0, 152(%rsp)
	movq	$0, 400(%rsp)
	movq	$0, 224(%rsp)
	movq	$0, 336(%rsp)
	movq	$0, 184(%rsp)
	movq	$0, 392(%rsp)
	movq	$0, 264(%rsp)
	movq	$0, 256(%rsp)
	movq	$0, 144(%rsp)
	movq	$0, 384(%rsp)
	movq	$0, 216(%rsp)
	movq	$0, 104(%rsp)
	xorl	%r15d, %r15d
	movq	$0, 688(%rsp)
	xorl	%ebp, %ebp
	movq	$0, 520(%rsp)
	movq	$0, 80(%rsp)
	movq	$0, 8(%rsp)
	movq	$0, 96(%rsp)
	movq	$0, 72(%rsp)
	movl	$0, 368(%rsp)
	movl	$0, 492(%rsp)
	movl	$0, 488(%rsp)
	movl	$0, 484(%rsp)
	movq	$0, 760(%rsp)
	movq	$0, 536(%rsp)
	movq	$0, 64(%rsp)
	jmp	.LBBdb5fcef_200
.LBBdb5fcef_196:
	xorps	%xmm0, %xmm0
	movaps	%xmm0, 4752(%rsp)
	movq	$0, 1392(%rsp)
	movq	$0, 1399(%rsp)
	movaps	%xmm0, 4736(%rsp)
	movq	$0, 1376(%rsp)
	movq	$0, 1383(%rsp)
	movaps	%xmm0, 4720(%rsp)
	movq	$0, 1360(%rsp)
	movq	$0, 1367(%rsp)
	movaps	%xmm0, 4704(%rsp)
	movq	$0, 1344(%rsp)
	movq	$0, 1351(%rsp)
	movaps	%xmm0, 4688(%rsp)
	movq	$0, 1328(%rsp)
	movq	$0, 1335(%rsp)
	movaps	%xmm0, 4672(%rsp)
	movq	$0, 1312(%rsp)
	movq	$0, 1319(%rsp)
	movaps	%xmm0, 4656(%rsp)
	movq	$0, 1303(%rsp)
	movq	$0, 1296(%rsp)
	movaps	%xmm0, 4640(%rsp)
	movq	$0, 1287(%rsp)
	movq	$0, 1280(%rsp)
	movaps	%xmm0, 4624(%rsp)
	movaps	%xmm0, 4608(%rsp)
	movl	$0, 723(%rsp)
	movl	$0, 720(%rsp)
	movl	$0, 715(%rsp)
	movl	$0, 712(%rsp)
	movaps	%xmm0, 4464(%rsp)
	movaps	%xmm0, 4448(%rsp)
	movaps	%xmm0, 4432(%rsp)
	movaps	%xmm0, 4416(%rsp)
	movq	$0, 4480(%rsp)
	movaps	%xmm0, 4576(%rsp)
	movaps	%xmm0, 4592(%rsp)
	movaps	%xmm0, 4320(%rsp)
	movaps	%xmm0, 4304(%rsp)
	movaps	%xmm0, 4288(%rsp)
	movq	$0, 4336(%rsp)
	movw	$0, 700(%rsp)
	movl	$0, 696(%rsp)
	movq	$0, 472(%rsp)
	xorl	%r10d, %r10d
	xorl	%r8d, %r8d
	xorl	%ebx, %ebx
	xorl	%r11d, %r11d
	xorl	%r12d, %r12d
	movq	$0, 504(%rsp)
	xorl	%r13d, %r13d
	movq	$0, 56(%rsp)
	movq	$0, 24(%rsp)
	movq	$0, 88(%rsp)
	movq	$0, 40(%rsp)
	movq	$0, 48(%rsp)
	movq	$0, 16(%rsp)
	movq	$0, 496(%rsp)
	movq	$0, 32(%rsp)
	movq	$0, 360(%rsp)
	xorl	%r9d, %r9d
	movq	$0, 376(%rsp)
	xorl	%edi, %edi
	movq	$0, 136(%rsp)
	movq	$0, 704(%rsp)
	movq	$0, 464(%rsp)
	movq	$0, 128(%rsp)
	movq	$0, 352(%rsp)
	xorl	%esi, %esi
	movq	$0, 456(%rsp)
	movq	$0, 328(%rsp)
	movq	$0, 320(%rsp)
	movq	$0, 176(%rsp)
	movq	$0, 448(%rsp)
	movq	$0, 248(%rsp)
	movq	$0, 112(%rsp)
	movq	$0, 208(%rsp)
	movq	$0, 440(%rsp)
	movq	$0, 312(%rsp)
	movq	$0, 304(%rsp)
	movq	$0, 168(%rsp)
	movq	$0, 432(%rsp)
	movq	$0, 240(%rsp)
	movq	$0, 120(%rsp)
	movq	$0, 200(%rsp)
	movq	$0, 424(%rsp)
	movq	$0, 296(%rsp)
	movq	$0, 288(%rsp)
	movq	$0, 160(%rsp)
	movq	$0, 416(%rsp)
	movq	$0, 232(%rsp)
	movq	$0, 344(%rsp)
	movq	$0, 192(%rsp)
	movq	$0, 408(%rsp)
	movq	$0, 280(%rsp)
	movq	$0, 272(%rsp)
	movq	$0, 152(%rsp)
	movq	$0, 400(%rsp)
	movq	$0, 224(%rsp)
	movq	$0, 336(%rsp)
	movq	$0, 184(%rsp)
	movq	$0, 392(%rsp)
	movq	$0, 264(%rsp)
	movq	$0, 256(%rsp)
	movq	$0, 144(%rsp)
	movq	$0, 384(%rsp)
	movq	$0, 216(%rsp)
	movq	$0, 104(%rsp)
	xorl	%r15d, %r15d
	movq	$0, 688(%rsp)
	xorl	%ebp, %ebp
	movq	$0, 520(%rsp)
	movq	$0, 80(%rsp)
	movq	$0, 8(%rsp)
	movq	$0, 96(%rsp)
	movq	$0, 72(%rsp)
	movl	$0, 368(%rsp)
	movl	$0, 492(%rsp)
	movl	$0, 488(%rsp)
	movl	$0, 484(%rsp)
	movq	$0, 760(%rsp)
	xorl	%edx, %edx
	movq	$0, 64(%rsp)
	testb	%cl, %cl
	je	.LBBdb5fcef_198
.LBBdb5fcef_199:
	movq	%rdx, 536(%rsp)
	movq	%r9, %rdx
	movq	%r12, %r9
	movaps	4752(%rsp), %xmm1
	movaps	%xmm1, 6080(%rsp)
	movq	1392(%rsp), %rax
	movq	1399(%rsp), %r14
	movq	%rax, 2768(%rsp)
	movq	%r14, 2775(%rsp)
	movaps	4736(%rsp), %xmm1
	movaps	%xmm1, 6064(%rsp)
	movq	1376(%rsp), %rax
	movq	1383(%rsp), %r14
	movq	%rax, 2752(%rsp)
	movq	%r14, 2759(%rsp)
	movaps	4720(%rsp), %xmm1
	movaps	%xmm1, 6048(%rsp)
	movq	1360(%rsp), %rax
	movq	1367(%rsp), %r14
	movq	%r14, 2743(%rsp)
	movq	%rax, 2736(%rsp)
	movaps	4704(%rsp), %xmm1
	movaps	%xmm1, 6032(%rsp)
	movq	1344(%rsp), %rax
	movq	1351(%rsp), %r14
	movq	%r14, 2727(%rsp)
	movq	%rax, 2720(%rsp)
	movaps	4688(%rsp), %xmm1
	movaps	%xmm1, 6016(%rsp)
	movq	1328(%rsp), %rax
	movq	1335(%rsp), %r14
	movq	%r14, 2711(%rsp)
	movq	%rax, 2704(%rsp)
	movaps	4672(%rsp), %xmm1
	movaps	%xmm1, 6000(%rsp)
	movq	1312(%rsp), %rax
	movq	1319(%rsp), %r14
	movq	%r14, 2695(%rsp)
	movq	%rax, 2688(%rsp)
	movaps	4656(%rsp), %xmm1
	movaps	%xmm1, 5984(%rsp)
	movq	1296(%rsp), %rax
	movq	1303(%rsp), %r14
	movq	%r14, 2679(%rsp)
	movq	%rax, 2672(%rsp)
	movaps	4640(%rsp), %xmm1
	movaps	%xmm1, 5968(%rsp)
	movq	1280(%rsp), %rax
	movq	1287(%rsp), %r14
	movq	%r14, 2663(%rsp)
	movq	%rax, 2656(%rsp)
	movaps	4608(%rsp), %xmm1
	movaps	4624(%rsp), %xmm2
	movaps	%xmm2, 5952(%rsp)
	movaps	%xmm1, 5936(%rsp)
	movl	720(%rsp), %eax
	movl	723(%rsp), %r14d
	movl	%r14d, 835(%rsp)
	movl	%eax, 832(%rsp)
	movl	712(%rsp), %eax
	movl	715(%rsp), %r14d
	movl	%r14d, 827(%rsp)
	movl	%eax, 824(%rsp)
	movq	4480(%rsp), %rax
	movq	%rax, 5584(%rsp)
	movaps	4416(%rsp), %xmm1
	movaps	4432(%rsp), %xmm2
	movaps	4448(%rsp), %xmm3
	movaps	4464(%rsp), %xmm4
	movaps	%xmm4, 5568(%rsp)
	movaps	%xmm3, 5552(%rsp)
	movaps	%xmm2, 5536(%rsp)
	movaps	%xmm1, 5520(%rsp)
	movaps	4576(%rsp), %xmm1
	movaps	4592(%rsp), %xmm2
	movaps	%xmm2, 5920(%rsp)
	movaps	%xmm1, 5904(%rsp)
	movq	4336(%rsp), %rax
	movq	%rax, 5280(%rsp)
	movaps	4288(%rsp), %xmm1
	movaps	4304(%rsp), %xmm2
	movaps	4320(%rsp), %xmm3
	movaps	%xmm3, 5264(%rsp)
	movaps	%xmm2, 5248(%rsp)
	movaps	%xmm1, 5232(%rsp)
	movzwl	700(%rsp), %eax
	movw	%ax, 788(%rsp)
	movl	696(%rsp), %eax
	movl	%eax, 784(%rsp)
.LBBdb5fcef_200:
	movaps	6080(%rsp), %xmm1
	movaps	%xmm1, 5856(%rsp)
	movq	2768(%rsp), %rax
	movq	2775(%rsp), %r14
	movq	%rax, 2640(%rsp)
	movq	%r14, 2647(%rsp)
	movaps	6064(%rsp), %xmm1
	movaps	%xmm1, 5840(%rsp)
	movq	2752(%rsp), %rax
	movq	2759(%rsp), %r14
	movq	%rax, 2624(%rsp)
	movq	%r14, 2631(%rsp)
	movaps	6048(%rsp), %xmm1
	movaps	%xmm1, 5824(%rsp)
	movq	2736(%rsp), %rax
	movq	2743(%rsp), %r14
	movq	%r14, 2615(%rsp)
	movq	%rax, 2608(%rsp)
	movaps	6032(%rsp), %xmm1
	movaps	%xmm1, 5808(%rsp)
	movq	2720(%rsp), %rax
	movq	2727(%rsp), %r14
	movq	%rax, 2592(%rsp)
	movq	%r14, 2599(%rsp)
	movaps	6016(%rsp), %xmm1
	movaps	%xmm1, 5792(%rsp)
	movq	2704(%rsp), %rax
	movq	2711(%rsp), %r14
	movq	%rax, 2576(%rsp)
	movq	%r14, 2583(%rsp)
	movaps	6000(%rsp), %xmm1
	movaps	%xmm1, 5776(%rsp)
	movq	2688(%rsp), %rax
	movq	2695(%rsp), %r14
	movq	%rax, 2560(%rsp)
	movq	%r14, 2567(%rsp)
	movaps	5984(%rsp), %xmm1
	movaps	%xmm1, 5760(%rsp)
	movq	2672(%rsp), %rax
	movq	2679(%rsp), %r14
	movq	%r14, 2551(%rsp)
	movq	%rax, 2544(%rsp)
	movaps	5968(%rsp), %xmm1
	movaps	%xmm1, 5744(%rsp)
	movq	2656(%rsp), %rax
	movq	2663(%rsp), %r14
	movq	%r14, 2535(%rsp)
	movq	%rax, 2528(%rsp)
	movaps	5936(%rsp), %xmm1
	movaps	5952(%rsp), %xmm2
	movaps	%xmm2, 5728(%rsp)
	movaps	%xmm1, 5712(%rsp)
	movl	832(%rsp), %eax
	movl	835(%rsp), %r14d
	movl	%r14d, 803(%rsp)
	movl	%eax, 800(%rsp)
	movl	824(%rsp), %eax
	movl	827(%rsp), %r14d
	movl	%r14d, 795(%rsp)
	movl	%eax, 792(%rsp)
	movq	5584(%rsp), %rax
	movq	%rax, 5424(%rsp)
	movaps	5520(%rsp), %xmm1
	movaps	5536(%rsp), %xmm2
	movaps	5552(%rsp), %xmm3
	movaps	5568(%rsp), %xmm4
	movaps	%xmm4, 5408(%rsp)
	movaps	%xmm3, 5392(%rsp)
	movaps	%xmm2, 5376(%rsp)
	movaps	%xmm1, 5360(%rsp)
	movaps	5904(%rsp), %xmm1
	movaps	5920(%rsp), %xmm2
	movaps	%xmm2, 5696(%rsp)
	movaps	%xmm1, 5680(%rsp)
	movq	5280(%rsp), %rax
	movq	%rax, 5152(%rsp)
	movaps	5232(%rsp), %xmm1
	movaps	5248(%rsp), %xmm2
	movaps	5264(%rsp), %xmm3
	movaps	%xmm3, 5136(%rsp)
	movaps	%xmm2, 5120(%rsp)
	movaps	%xmm1, 5104(%rsp)
	movzwl	788(%rsp), %eax
	movw	%ax, 772(%rsp)
	movl	784(%rsp), %eax
	movl	%eax, 768(%rsp)
	movl	$-3, %eax
	testb	%cl, %cl
	movq	5088(%rsp), %r14
	movq	528(%rsp), %r12
	je	.LBBdb5fcef_202
	movl	803(%rsp), %eax
	movl	%eax, 819(%rsp)
	movl	800(%rsp), %eax
	movl	%eax, 816(%rsp)
	movl	792(%rsp), %eax
	movl	%eax, 808(%rsp)
	movl	795(%rsp), %eax
	movl	%eax, 811(%rsp)
	movq	5424(%rsp), %rax
	movq	%rax, 5504(%rsp)
	movq	5152(%rsp), %rax
	movq	%rax, 5216(%rsp)
	movl	768(%rsp), %eax
	movl	%eax, 776(%rsp)
	movzwl	772(%rsp), %eax
	movw	%ax, 780(%rsp)
	movq	472(%rsp), %rax
	movb	%al, 6800(%rsp)
	movb	$0, 6807(%rsp)
	movw	$0, 6805(%rsp)
	movl	$0, 6801(%rsp)
	movq	%r10, 6808(%rsp)
	movq	%r8, 6816(%rsp)
	movq	%rbx, 6824(%rsp)
	movaps	5856(%rsp), %xmm1
	movups	%xmm1, 6832(%rsp)
	movb	%r11b, 6848(%rsp)
	movq	2647(%rsp), %rax
	movq	%rax, 6856(%rsp)
	movq	2640(%rsp), %rax
	movq	%rax, 6849(%rsp)
	movq	%r9, 6864(%rsp)
	movq	504(%rsp), %rax
	movq	%rax, 6872(%rsp)
	movq	%r13, 6880(%rsp)
	movq	56(%rsp), %rax
	movb	%al, 6888(%rsp)
	movb	$0, 6895(%rsp)
	movw	$0, 6893(%rsp)
	movl	$0, 6889(%rsp)
	movq	24(%rsp), %rax
	movq	%rax, 6896(%rsp)
	movq	88(%rsp), %rax
	movq	%rax, 6904(%rsp)
	movq	40(%rsp), %rax
	movq	%rax, 6912(%rsp)
	movaps	5840(%rsp), %xmm1
	movups	%xmm1, 6920(%rsp)
	movq	48(%rsp), %rax
	movb	%al, 6936(%rsp)
	movq	2631(%rsp), %rax
	movq	%rax, 6944(%rsp)
	movq	2624(%rsp), %rax
	movq	%rax, 6937(%rsp)
	movq	16(%rsp), %rax
	movq	%rax, 6952(%rsp)
	movq	496(%rsp), %rax
	movq	%rax, 6960(%rsp)
	movq	32(%rsp), %rax
	movq	%rax, 6968(%rsp)
	movq	360(%rsp), %rax
	movb	%al, 6976(%rsp)
	movb	$0, 6983(%rsp)
	movw	$0, 6981(%rsp)
	movl	$0, 6977(%rsp)
	movq	%rdx, 6984(%rsp)
	movq	376(%rsp), %rax
	movq	%rax, 6992(%rsp)
	movq	%rdi, 7000(%rsp)
	movaps	5824(%rsp), %xmm1
	movups	%xmm1, 7008(%rsp)
	movq	136(%rsp), %rax
	movb	%al, 7024(%rsp)
	movq	2615(%rsp), %rax
	movq	%rax, 7032(%rsp)
	movq	2608(%rsp), %rax
	movq	%rax, 7025(%rsp)
	movq	704(%rsp), %rax
	movq	%rax, 7040(%rsp)
	movq	464(%rsp), %rax
	movq	%rax, 7048(%rsp)
	movq	128(%rsp), %rax
	movq	%rax, 7056(%rsp)
	movq	352(%rsp), %rax
	movb	%al, 7064(%rsp)
	movb	$0, 7071(%rsp)
	movw	$0, 7069(%rsp)
	movl	$0, 7065(%rsp)
	movq	%rsi, 7072(%rsp)
	movq	456(%rsp), %rax
	movq	%rax, 7080(%rsp)
	movq	328(%rsp), %rax
	movq	%rax, 7088(%rsp)
	movaps	5808(%rsp), %xmm1
	movups	%xmm1, 7096(%rsp)
	movq	320(%rsp), %rax
	movb	%al, 7112(%rsp)
	movq	2599(%rsp), %rax
	movq	%rax, 7120(%rsp)
	movq	2592(%rsp), %rax
	movq	%rax, 7113(%rsp)
	movq	176(%rsp), %rax
	movq	%rax, 7128(%rsp)
	movq	448(%rsp), %rax
	movq	%rax, 7136(%rsp)
	movq	248(%rsp), %rax
	movq	%rax, 7144(%rsp)
	movq	112(%rsp), %rax
	movb	%al, 7152(%rsp)
	movb	$0, 7159(%rsp)
	movw	$0, 7157(%rsp)
	movl	$0, 7153(%rsp)
	movq	208(%rsp), %rax
	movq	%rax, 7160(%rsp)
	movq	440(%rsp), %rax
	movq	%rax, 7168(%rsp)
	movq	312(%rsp), %rax
	movq	%rax, 7176(%rsp)
	movaps	5792(%rsp), %xmm1
	movups	%xmm1, 7184(%rsp)
	movq	304(%rsp), %rax
	movb	%al, 7200(%rsp)
	movq	2583(%rsp), %rax
	movq	%rax, 7208(%rsp)
	movq	2576(%rsp), %rax
	movq	%rax, 7201(%rsp)
	movq	168(%rsp), %rax
	movq	%rax, 7216(%rsp)
	movq	432(%rsp), %rax
	movq	%rax, 7224(%rsp)
	movq	240(%rsp), %rax
	movq	%rax, 7232(%rsp)
	movq	120(%rsp), %rax
	movb	%al, 7240(%rsp)
	movb	$0, 7247(%rsp)
	movw	$0, 7245(%rsp)
	movl	$0, 7241(%rsp)
	movq	200(%rsp), %rax
	movq	%rax, 7248(%rsp)
	movq	424(%rsp), %rax
	movq	%rax, 7256(%rsp)
	movq	296(%rsp), %rax
	movq	%rax, 7264(%rsp)
	movaps	5776(%rsp), %xmm1
	movups	%xmm1, 7272(%rsp)
	movq	288(%rsp), %rax
	movb	%al, 7288(%rsp)
	movq	2567(%rsp), %rax
	movq	%rax, 7296(%rsp)
	movq	2560(%rsp), %rax
	movq	%rax, 7289(%rsp)
	movq	160(%rsp), %rax
	movq	%rax, 7304(%rsp)
	movq	416(%rsp), %rax
	movq	%rax, 7312(%rsp)
	movq	232(%rsp), %rax
	movq	%rax, 7320(%rsp)
	movq	344(%rsp), %rax
	movb	%al, 7328(%rsp)
	movb	$0, 7335(%rsp)
	movw	$0, 7333(%rsp)
	movl	$0, 7329(%rsp)
	movq	192(%rsp), %rax
	movq	%rax, 7336(%rsp)
	movq	408(%rsp), %rax
	movq	%rax, 7344(%rsp)
	movq	280(%rsp), %rax
	movq	%rax, 7352(%rsp)
	movaps	5760(%rsp), %xmm1
	movups	%xmm1, 7360(%rsp)
	movq	272(%rsp), %rax
	movb	%al, 7376(%rsp)
	movq	2551(%rsp), %rax
	movq	%rax, 7384(%rsp)
	movq	2544(%rsp), %rax
	movq	%rax, 7377(%rsp)
	movq	152(%rsp), %rax
	movq	%rax, 7392(%rsp)
	movq	400(%rsp), %rax
	movq	%rax, 7400(%rsp)
	movq	224(%rsp), %rax
	movq	%rax, 7408(%rsp)
	movq	336(%rsp), %rax
	movb	%al, 7416(%rsp)
	movb	$0, 7423(%rsp)
	movw	$0, 7421(%rsp)
	movl	$0, 7417(%rsp)
	movq	184(%rsp), %rax
	movq	%rax, 7424(%rsp)
	movq	392(%rsp), %rax
	movq	%rax, 7432(%rsp)
	movq	264(%rsp), %rax
	movq	%rax, 7440(%rsp)
	movaps	5744(%rsp), %xmm1
	movups	%xmm1, 7448(%rsp)
	movq	256(%rsp), %rax
	movb	%al, 7464(%rsp)
	movq	2535(%rsp), %rax
	movq	%rax, 7472(%rsp)
	movq	2528(%rsp), %rax
	movq	%rax, 7465(%rsp)
	movq	144(%rsp), %rax
	movq	%rax, 7480(%rsp)
	movq	384(%rsp), %rax
	movq	%rax, 7488(%rsp)
	movq	216(%rsp), %rax
	movq	%rax, 7496(%rsp)
	movq	104(%rsp), %rax
	movq	%rax, 7504(%rsp)
	movaps	5712(%rsp), %xmm1
	movaps	5728(%rsp), %xmm2
	movups	%xmm2, 7528(%rsp)
	movups	%xmm1, 7512(%rsp)
	movq	%r15, 7544(%rsp)
	movq	688(%rsp), %rax
	movq	%rax, 7552(%rsp)
	movq	%rax, 7560(%rsp)
	movq	%rbp, 7568(%rsp)
	movq	520(%rsp), %rax
	movq	%rax, 7576(%rsp)
	movq	%rax, 7584(%rsp)
	movq	80(%rsp), %rax
	movq	%rax, 7592(%rsp)
	movups	%xmm0, 7600(%rsp)
	movq	8(%rsp), %rax
	movb	%al, 7616(%rsp)
	movq	96(%rsp), %rax
	movq	%rax, 7617(%rsp)
	movl	819(%rsp), %eax
	movl	%eax, 7628(%rsp)
	movl	816(%rsp), %eax
	movl	%eax, 7625(%rsp)
	movq	72(%rsp), %rax
	movq	%rax, 7632(%rsp)
	movl	368(%rsp), %eax
	movl	%eax, 7640(%rsp)
	movl	492(%rsp), %eax
	movl	%eax, 7644(%rsp)
	movl	488(%rsp), %eax
	movl	%eax, 7648(%rsp)
	movl	484(%rsp), %eax
	movl	%eax, 7652(%rsp)
	movaps	5360(%rsp), %xmm0
	movaps	5376(%rsp), %xmm1
	movaps	5392(%rsp), %xmm2
	movaps	5408(%rsp), %xmm3
	movaps	%xmm0, 5440(%rsp)
	movaps	%xmm1, 5456(%rsp)
	movaps	%xmm2, 5472(%rsp)
	movaps	%xmm3, 5488(%rsp)
	movaps	5680(%rsp), %xmm0
	movaps	5696(%rsp), %xmm1
	movaps	%xmm1, 5888(%rsp)
	movaps	%xmm0, 5872(%rsp)
	movq	760(%rsp), %rax
	movb	%al, 7656(%rsp)
	movl	811(%rsp), %eax
	movl	%eax, 7660(%rsp)
	movl	808(%rsp), %eax
	movl	%eax, 7657(%rsp)
	movq	5504(%rsp), %rax
	movq	%rax, 7728(%rsp)
	movaps	5440(%rsp), %xmm0
	movaps	5456(%rsp), %xmm1
	movaps	5472(%rsp), %xmm2
	movaps	5488(%rsp), %xmm3
	movups	%xmm3, 7712(%rsp)
	movups	%xmm2, 7696(%rsp)
	movups	%xmm1, 7680(%rsp)
	movups	%xmm0, 7664(%rsp)
	movaps	5872(%rsp), %xmm0
	movaps	5888(%rsp), %xmm1
	movups	%xmm1, 7752(%rsp)
	movups	%xmm0, 7736(%rsp)
	movq	5216(%rsp), %rax
	movq	%rax, 7816(%rsp)
	movaps	5104(%rsp), %xmm0
	movaps	5120(%rsp), %xmm1
	movaps	5136(%rsp), %xmm2
	movaps	%xmm0, 5168(%rsp)
	movaps	%xmm1, 5184(%rsp)
	movaps	%xmm2, 5200(%rsp)
	movaps	5168(%rsp), %xmm0
	movaps	5184(%rsp), %xmm1
	movaps	5200(%rsp), %xmm2
	movups	%xmm2, 7800(%rsp)
	movups	%xmm1, 7784(%rsp)
	movups	%xmm0, 7768(%rsp)
	movq	536(%rsp), %rax
	movb	%al, 7824(%rsp)
	movq	64(%rsp), %rax
	movb	%al, 7825(%rsp)
	movzwl	780(%rsp), %eax
	movw	%ax, 7830(%rsp)
	movl	776(%rsp), %eax
	movl	%eax, 7826(%rsp)
	leaq	6800(%rsp), %rsi
	movq	5096(%rsp), %rdi
	callq	lone_drive_c_handle_hold.4592c1f
.LBBdb5fcef_202:
	movabsq	$5498699729448618326, %rcx
	movq	%rcx, (%r14)
	movq	%r12, 8(%r14)
.LBBdb5fcef_203:
	addq	$7832, %rsp
	popq	%rbx
	popq	%r12
	popq	%r13
	popq	%r14
	popq	%r15
	popq	%rbp
	retq
.LBBdb5fcef_114:
	leaq	516(%rsp), %rbp
	xorl	%ebx, %ebx
.LBBdb5fcef_115:
	movq	%rcx, 520(%rsp)
	movq	%r8, 688(%rsp)
	movq	%rbp, %rdi
	movq	%r12, %rsi
	movq	%rbx, %rdx
	callq	memmove@PLT
	movq	%r14, %r11
	movq	%r13, %r10
	movq	528(%rsp), %rbx
	movq	368(%rsp), %r9
	movq	96(%rsp), %r13
	movq	72(%rsp), %rdi
	movq	8(%rsp), %r8
	movq	80(%rsp), %r14
.LBBdb5fcef_116:
	movq	376(%rsp), %rsi
.LBBdb5fcef_117:
	movzbl	792(%rbx), %eax
	movq	%rax, 80(%rsp)
	movups	800(%rbx), %xmm0
	movzbl	816(%rbx), %eax
	movq	%rax, 8(%rsp)
	movq	832(%rbx), %rax
	movq	%rax, 72(%rsp)
	movzbl	840(%rbx), %eax
	movl	%eax, 368(%rsp)
	movl	844(%rbx), %eax
	movl	%eax, 492(%rsp)
	movl	824(%rbx), %eax
	shlq	$56, %rax
	movq	%rax, 96(%rsp)
	movzbl	848(%rbx), %eax
	movl	%eax, 488(%rsp)
	movl	852(%rbx), %eax
	movl	%eax, 484(%rsp)
	movzbl	856(%rbx), %eax
	movq	%rax, 760(%rsp)
	movl	$0, 755(%rsp)
	movl	$0, 752(%rsp)
	movl	872(%rsp), %eax
	movl	875(%rsp), %ecx
	movl	%eax, 744(%rsp)
	movl	%ecx, 747(%rsp)
	movaps	6528(%rsp), %xmm1
	movaps	%xmm1, 4272(%rsp)
	movq	3152(%rsp), %rax
	movq	3159(%rsp), %rcx
	movq	%rax, 1128(%rsp)
	movq	%rcx, 1135(%rsp)
	movaps	6512(%rsp), %xmm1
	movaps	%xmm1, 4256(%rsp)
	movq	3136(%rsp), %rax
	movq	3143(%rsp), %rcx
	movq	%rax, 1112(%rsp)
	movq	%rcx, 1119(%rsp)
	movaps	6496(%rsp), %xmm1
	movaps	%xmm1, 4240(%rsp)
	movq	3120(%rsp), %rax
	movq	3127(%rsp), %rcx
	movq	%rcx, 1103(%rsp)
	movq	%rax, 1096(%rsp)
	movaps	6480(%rsp), %xmm1
	movaps	%xmm1, 4224(%rsp)
	movq	3104(%rsp), %rax
	movq	3111(%rsp), %rcx
	movq	%rcx, 1087(%rsp)
	movq	%rax, 1080(%rsp)
	movaps	6464(%rsp), %xmm1
	movaps	%xmm1, 4208(%rsp)
	movq	3088(%rsp), %rax
	movq	3095(%rsp), %rcx
	movq	%rcx, 1071(%rsp)
	movq	%rax, 1064(%rsp)
	movaps	6448(%rsp), %xmm1
	movaps	%xmm1, 4192(%rsp)
	movq	3072(%rsp), %rax
	movq	3079(%rsp), %rcx
	movq	%rcx, 1055(%rsp)
	movq	%rax, 1048(%rsp)
	movaps	6432(%rsp), %xmm1
	movaps	%xmm1, 4176(%rsp)
	movq	3056(%rsp), %rax
	movq	3063(%rsp), %rcx
	movq	%rcx, 1039(%rsp)
	movq	%rax, 1032(%rsp)
	movaps	6416(%rsp), %xmm1
	movaps	%xmm1, 4160(%rsp)
	movq	3040(%rsp), %rax
	movq	3047(%rsp), %rcx
	movq	%rcx, 1023(%rsp)
	movq	%rax, 1016(%rsp)
	movaps	3536(%rsp), %xmm1
	movaps	3552(%rsp), %xmm2
	movaps	%xmm2, 4144(%rsp)
	movaps	%xmm1, 4128(%rsp)
	movl	$0, 683(%rsp)
	movl	$0, 680(%rsp)
	movl	872(%rsp), %eax
	movl	875(%rsp), %ecx
	movl	%ecx, 675(%rsp)
	movl	%eax, 672(%rsp)
	movb	$1, %cl
	movq	536(%rsp), %r12
	movq	64(%rsp), %rbx
	jmp	.LBBdb5fcef_185
.LBBdb5fcef_6:
	movq	%r12, 536(%rsp)
	movzbl	3576(%rsp), %r13d
	leaq	3584(%rsp), %r12
	leaq	352(%rbx), %rsi
	leaq	3664(%rsp), %rdi
	callq	ckd_image_stores_copy_file_700aef77bd01d6bd_.84a472a
	cmpb	$0, 3664(%rsp)
	je	.LBBdb5fcef_7
	cmpb	$1, %r13b
	movq	56(%rsp), %rbx
	je	.LBBdb5fcef_36
	cmpb	$1, %r15b
	leaq	2448(%rsp), %rdi
	je	.LBBdb5fcef_38
.LBBdb5fcef_39:
	cmpb	$1, %bl
	movq	536(%rsp), %rbx
	movq	88(%rsp), %rcx
	jne	.LBBdb5fcef_41
.LBBdb5fcef_40:
	movq	24(%rsp), %rax
	movq	%rax, 2064(%rsp)
	movq	%rcx, 2072(%rsp)
	movq	40(%rsp), %rax
	movq	%rax, 2080(%rsp)
	movups	(%rbp), %xmm0
	movups	%xmm0, 2088(%rsp)
	movq	48(%rsp), %rax
	movb	%al, 2104(%rsp)
	movq	17(%rbp), %rax
	movq	24(%rbp), %rcx
	movq	%rax, 2105(%rsp)
	movq	%rcx, 2112(%rsp)
	movq	16(%rsp), %rax
	movq	%rax, 2120(%rsp)
	movq	496(%rsp), %rax
	movq	%rax, 2128(%rsp)
	movq	32(%rsp), %rax
	movq	%rax, 2136(%rsp)
	leaq	2064(%rsp), %rdi
	callq	lone_drive_c_dasd_files_volume_file_VolumeFile_Destruct_drop.6038f02
.LBBdb5fcef_41:
	cmpb	$1, 472(%rsp)
	movq	136(%rsp), %r13
	movq	104(%rsp), %rbp
	movq	8(%rsp), %rax
	jne	.LBBdb5fcef_80
	movq	%r13, 1984(%rsp)
	movq	%rax, 1992(%rsp)
	movq	64(%rsp), %rax
	movq	%rax, 2000(%rsp)
	leaq	1224(%rsp), %rcx
	movups	(%rcx), %xmm0
	movups	%xmm0, 2008(%rsp)
	movb	%bpl, 2024(%rsp)
	movq	17(%rcx), %rax
	movq	24(%rcx), %rcx
	movq	%rax, 2025(%rsp)
	movq	%rcx, 2032(%rsp)
	movq	%rbx, 2040(%rsp)
	movq	504(%rsp), %rax
	movq	%rax, 2048(%rsp)
	movq	96(%rsp), %rax
	movq	%rax, 2056(%rsp)
	leaq	1984(%rsp), %rdi
	jmp	.LBBdb5fcef_79
.LBBdb5fcef_7:
	movzbl	3672(%rsp), %ebp
	leaq	440(%rbx), %rsi
	leaq	3840(%rsp), %rdi
	callq	ckd_image_stores_copy_file_700aef77bd01d6bd_.84a472a
	cmpb	$0, 3840(%rsp)
	je	.LBBdb5fcef_8
	cmpb	$1, %bpl
	je	.LBBdb5fcef_44
	cmpb	$1, %r13b
	movq	56(%rsp), %rbx
	leaq	2296(%rsp), %r13
	je	.LBBdb5fcef_46
.LBBdb5fcef_47:
	cmpb	$1, %r15b
	je	.LBBdb5fcef_48
.LBBdb5fcef_49:
	cmpb	$1, %bl
	movq	536(%rsp), %rbx
	jne	.LBBdb5fcef_51
.LBBdb5fcef_50:
	movq	24(%rsp), %rax
	movq	%rax, 1904(%rsp)
	movq	88(%rsp), %rax
	movq	%rax, 1912(%rsp)
	movq	40(%rsp), %rax
	movq	%rax, 1920(%rsp)
	movups	(%r13), %xmm0
	movups	%xmm0, 1928(%rsp)
	movq	48(%rsp), %rax
	movb	%al, 1944(%rsp)
	movq	17(%r13), %rax
	movq	24(%r13), %rcx
	movq	%rax, 1945(%rsp)
	movq	%rcx, 1952(%rsp)
	movq	16(%rsp), %rax
	movq	%rax, 1960(%rsp)
	movq	496(%rsp), %rax
	movq	%rax, 1968(%rsp)
	movq	32(%rsp), %rax
	movq	%rax, 1976(%rsp)
	leaq	1904(%rsp), %rdi
	callq	lone_drive_c_dasd_files_volume_file_VolumeFile_Destruct_drop.6038f02
.LBBdb5fcef_51:
	cmpb	$1, 472(%rsp)
	movq	136(%rsp), %r13
	movq	104(%rsp), %rbp
	movq	8(%rsp), %rax
	jne	.LBBdb5fcef_80
	movq	%r13, 1824(%rsp)
	movq	%rax, 1832(%rsp)
	movq	64(%rsp), %rax
	movq	%rax, 1840(%rsp)
	leaq	1224(%rsp), %rcx
	movups	(%rcx), %xmm0
	movups	%xmm0, 1848(%rsp)
	movb	%bpl, 1864(%rsp)
	movq	17(%rcx), %rax
	movq	24(%rcx), %rcx
	movq	%rax, 1865(%rsp)
	movq	%rcx, 1872(%rsp)
	movq	%rbx, 1880(%rsp)
	movq	504(%rsp), %rax
	movq	%rax, 1888(%rsp)
	movq	96(%rsp), %rax
	movq	%rax, 1896(%rsp)
	leaq	1824(%rsp), %rdi
	jmp	.LBBdb5fcef_79
.LBBdb5fcef_36:
	movq	%r12, %rdi
	callq	lone_drive_c_dasd_files_volume_file_VolumeFile_Destruct_drop.6038f02
	cmpb	$1, %r15b
	leaq	2448(%rsp), %rdi
	jne	.LBBdb5fcef_39
.LBBdb5fcef_38:
	callq	lone_drive_c_dasd_files_volume_file_VolumeFile_Destruct_drop.6038f02
	cmpb	$1, %bl
	movq	536(%rsp), %rbx
	movq	88(%rsp), %rcx
	je	.LBBdb5fcef_40
	jmp	.LBBdb5fcef_41
.LBBdb5fcef_122:
	movq	528(%rsp), %rbx
	movq	368(%rsp), %r9
	movq	96(%rsp), %r13
	movq	72(%rsp), %rdi
	movq	8(%rsp), %r8
	movq	80(%rsp), %r14
.LBBdb5fcef_127:
	movq	520(%rsp), %rdx
	movq	%rax, %rcx
	andq	$3, %rdx
	je	.LBBdb5fcef_130
	movq	%rax, %rcx
.LBBdb5fcef_129:
	movl	(%r12,%rcx,4), %esi
	movl	%esi, (%rbp,%rcx,4)
	incq	%rcx
	decq	%rdx
	jne	.LBBdb5fcef_129
.LBBdb5fcef_130:
	movq	520(%rsp), %rdx
	subq	%rdx, %rax
	cmpq	$-4, %rax
	ja	.LBBdb5fcef_116
.LBBdb5fcef_131:
	movl	(%r12,%rcx,4), %eax
	movl	%eax, (%rbp,%rcx,4)
	movl	4(%r12,%rcx,4), %eax
	movl	%eax, 4(%rbp,%rcx,4)
	movl	8(%r12,%rcx,4), %eax
	movl	%eax, 8(%rbp,%rcx,4)
	movl	12(%r12,%rcx,4), %eax
	movl	%eax, 12(%rbp,%rcx,4)
	addq	$4, %rcx
	cmpq	%rcx, %rdx
	jne	.LBBdb5fcef_131
	jmp	.LBBdb5fcef_116
.LBBdb5fcef_8:
	movq	%rbp, 112(%rsp)
	movzbl	3848(%rsp), %ebp
	leaq	528(%rbx), %rsi
	leaq	3936(%rsp), %rdi
	callq	ckd_image_stores_copy_file_700aef77bd01d6bd_.84a472a
	cmpb	$0, 3936(%rsp)
	je	.LBBdb5fcef_9
	cmpb	$1, %bpl
	movq	56(%rsp), %rbx
	je	.LBBdb5fcef_54
	cmpb	$1, 112(%rsp)
	leaq	2296(%rsp), %rbp
	je	.LBBdb5fcef_56
.LBBdb5fcef_57:
	cmpb	$1, %r13b
	je	.LBBdb5fcef_58
.LBBdb5fcef_59:
	cmpb	$1, %r15b
	leaq	2448(%rsp), %rdi
	je	.LBBdb5fcef_60
.LBBdb5fcef_61:
	cmpb	$1, %bl
	movq	536(%rsp), %rbx
	movq	88(%rsp), %rcx
	jne	.LBBdb5fcef_63
.LBBdb5fcef_62:
	movq	24(%rsp), %rax
	movq	%rax, 1744(%rsp)
	movq	%rcx, 1752(%rsp)
	movq	40(%rsp), %rax
	movq	%rax, 1760(%rsp)
	movups	(%rbp), %xmm0
	movups	%xmm0, 1768(%rsp)
	movq	48(%rsp), %rax
	movb	%al, 1784(%rsp)
	movq	17(%rbp), %rax
	movq	24(%rbp), %rcx
	movq	%rax, 1785(%rsp)
	movq	%rcx, 1792(%rsp)
	movq	16(%rsp), %rax
	movq	%rax, 1800(%rsp)
	movq	496(%rsp), %rax
	movq	%rax, 1808(%rsp)
	movq	32(%rsp), %rax
	movq	%rax, 1816(%rsp)
	leaq	1744(%rsp), %rdi
	callq	lone_drive_c_dasd_files_volume_file_VolumeFile_Destruct_drop.6038f02
.LBBdb5fcef_63:
	cmpb	$1, 472(%rsp)
	movq	136(%rsp), %r13
	movq	104(%rsp), %rbp
	movq	8(%rsp), %rax
	jne	.LBBdb5fcef_80
	movq	%r13, 1664(%rsp)
	movq	%rax, 1672(%rsp)
	movq	64(%rsp), %rax
	movq	%rax, 1680(%rsp)
	leaq	1224(%rsp), %rcx
	movups	(%rcx), %xmm0
	movups	%xmm0, 1688(%rsp)
	movb	%bpl, 1704(%rsp)
	movq	17(%rcx), %rax
	movq	24(%rcx), %rcx
	movq	%rax, 1705(%rsp)
	movq	%rcx, 1712(%rsp)
	movq	%rbx, 1720(%rsp)
	movq	504(%rsp), %rax
	movq	%rax, 1728(%rsp)
	movq	96(%rsp), %rax
	movq	%rax, 1736(%rsp)
	leaq	1664(%rsp), %rdi
	jmp	.LBBdb5fcef_79
.LBBdb5fcef_44:
	leaq	3680(%rsp), %rdi
	callq	lone_drive_c_dasd_files_volume_file_VolumeFile_Destruct_drop.6038f02
	cmpb	$1, %r13b
	movq	56(%rsp), %rbx
	leaq	2296(%rsp), %r13
	jne	.LBBdb5fcef_47
.LBBdb5fcef_46:
	movq	%r12, %rdi
	callq	lone_drive_c_dasd_files_volume_file_VolumeFile_Destruct_drop.6038f02
	cmpb	$1, %r15b
	jne	.LBBdb5fcef_49
.LBBdb5fcef_48:
	leaq	2448(%rsp), %rdi
	callq	lone_drive_c_dasd_files_volume_file_VolumeFile_Destruct_drop.6038f02
	cmpb	$1, %bl
	movq	536(%rsp), %rbx
	je	.LBBdb5fcef_50
	jmp	.LBBdb5fcef_51
.LBBdb5fcef_9:
	movq	%rbp, 120(%rsp)
	movzbl	3944(%rsp), %ebx
	movq	528(%rsp), %rax
	leaq	616(%rax), %rsi
	leaq	4032(%rsp), %rdi
	callq	ckd_image_stores_copy_file_700aef77bd01d6bd_.84a472a
	cmpb	$0, 4032(%rsp)
	je	.LBBdb5fcef_10
	cmpb	$1, %bl
	movq	56(%rsp), %rbx
	je	.LBBdb5fcef_66
	cmpb	$1, 120(%rsp)
	je	.LBBdb5fcef_68
.LBBdb5fcef_69:
	cmpb	$1, 112(%rsp)
	je	.LBBdb5fcef_70
.LBBdb5fcef_71:
	cmpb	$1, %r13b
	je	.LBBdb5fcef_72
.LBBdb5fcef_73:
	cmpb	$1, %r15b
	je	.LBBdb5fcef_74
.LBBdb5fcef_75:
	cmpb	$1, %bl
	je	.LBBdb5fcef_76
.LBBdb5fcef_77:
	cmpb	$1, 472(%rsp)
	je	.LBBdb5fcef_78
	jmp	.LBBdb5fcef_80
.LBBdb5fcef_54:
	leaq	3856(%rsp), %rdi
	callq	lone_drive_c_dasd_files_volume_file_VolumeFile_Destruct_drop.6038f02
	cmpb	$1, 112(%rsp)
	leaq	2296(%rsp), %rbp
	jne	.LBBdb5fcef_57
.LBBdb5fcef_56:
	leaq	3680(%rsp), %rdi
	callq	lone_drive_c_dasd_files_volume_file_VolumeFile_Destruct_drop.6038f02
	cmpb	$1, %r13b
	jne	.LBBdb5fcef_59
.LBBdb5fcef_58:
	movq	%r12, %rdi
	callq	lone_drive_c_dasd_files_volume_file_VolumeFile_Destruct_drop.6038f02
	cmpb	$1, %r15b
	leaq	2448(%rsp), %rdi
	jne	.LBBdb5fcef_61
.LBBdb5fcef_60:
	callq	lone_drive_c_dasd_files_volume_file_VolumeFile_Destruct_drop.6038f02
	cmpb	$1, %bl
	movq	536(%rsp), %rbx
	movq	88(%rsp), %rcx
	je	.LBBdb5fcef_62
	jmp	.LBBdb5fcef_63
.LBBdb5fcef_10:
	movq	%rbx, 344(%rsp)
	movq	%r13, 352(%rsp)
	movq	%r15, 360(%rsp)
	movzbl	4040(%rsp), %eax
	movq	%rax, 336(%rsp)
	leaq	1224(%rsp), %rcx
	movups	(%rcx), %xmm0
	movaps	%xmm0, 992(%rsp)
	movq	17(%rcx), %rax
	movq	24(%rcx), %rcx
	movq	%rcx, 663(%rsp)
	movq	%rax, 656(%rsp)
	leaq	2296(%rsp), %rcx
	movups	(%rcx), %xmm0
	movaps	%xmm0, 976(%rsp)
	movq	17(%rcx), %rax
	movq	24(%rcx), %rcx
	movq	%rcx, 647(%rsp)
	movq	%rax, 640(%rsp)
	movq	2448(%rsp), %rdi
	movq	2456(%rsp), %rax
	movq	%rax, 376(%rsp)
	movq	2464(%rsp), %rax
	movq	%rax, 72(%rsp)
	movups	2472(%rsp), %xmm0
	movaps	%xmm0, 960(%rsp)
	movzbl	2488(%rsp), %r9d
	movq	2489(%rsp), %rax
	movq	2496(%rsp), %rcx
	movq	%rcx, 631(%rsp)
	movq	%rax, 624(%rsp)
	movq	2504(%rsp), %r15
	movq	2512(%rsp), %rax
	movq	%rax, 464(%rsp)
	movq	2520(%rsp), %rax
	movq	%rax, 128(%rsp)
	movq	3584(%rsp), %rax
	movq	%rax, 80(%rsp)
	movq	3592(%rsp), %rax
	movq	%rax, 456(%rsp)
	movq	3600(%rsp), %rax
	movq	%rax, 328(%rsp)
	movups	3608(%rsp), %xmm0
	movaps	%xmm0, 944(%rsp)
	movzbl	3624(%rsp), %eax
	movq	%rax, 320(%rsp)
	movq	3625(%rsp), %rax
	movq	3632(%rsp), %rcx
	movq	%rcx, 615(%rsp)
	movq	%rax, 608(%rsp)
	movq	3640(%rsp), %rax
	movq	%rax, 176(%rsp)
	movq	3648(%rsp), %rax
	movq	%rax, 448(%rsp)
	movq	3728(%rsp), %rax
	movq	%rax, 599(%rsp)
	movq	3721(%rsp), %rax
	movq	%rax, 592(%rsp)
	movq	3904(%rsp), %rax
	movq	%rax, 583(%rsp)
	movq	3897(%rsp), %rax
	movq	%rax, 576(%rsp)
	movq	4000(%rsp), %rax
	movq	%rax, 567(%rsp)
	movq	3993(%rsp), %rax
	movq	%rax, 560(%rsp)
	movq	4096(%rsp), %rax
	movq	%rax, 551(%rsp)
	movq	4089(%rsp), %rax
	movq	%rax, 544(%rsp)
	movq	3656(%rsp), %rax
	movq	%rax, 248(%rsp)
	movups	3704(%rsp), %xmm0
	movaps	%xmm0, 928(%rsp)
	movups	3880(%rsp), %xmm0
	movaps	%xmm0, 912(%rsp)
	movups	3976(%rsp), %xmm0
	movaps	%xmm0, 896(%rsp)
	movups	4072(%rsp), %xmm0
	movaps	%xmm0, 880(%rsp)
	movq	3680(%rsp), %rax
	movq	%rax, 208(%rsp)
	movq	3688(%rsp), %rax
	movq	%rax, 440(%rsp)
	movq	3696(%rsp), %rax
	movq	%rax, 312(%rsp)
	movzbl	3720(%rsp), %eax
	movq	%rax, 304(%rsp)
	movq	3736(%rsp), %rax
	movq	%rax, 168(%rsp)
	movq	3744(%rsp), %rax
	movq	%rax, 432(%rsp)
	movq	3752(%rsp), %rax
	movq	%rax, 240(%rsp)
	movq	3856(%rsp), %rax
	movq	%rax, 200(%rsp)
	movq	3864(%rsp), %rax
	movq	%rax, 424(%rsp)
	movq	3872(%rsp), %rax
	movq	%rax, 296(%rsp)
	movzbl	3896(%rsp), %eax
	movq	%rax, 288(%rsp)
	movq	3912(%rsp), %rax
	movq	%rax, 160(%rsp)
	movq	3920(%rsp), %rax
	movq	%rax, 416(%rsp)
	movq	3928(%rsp), %rax
	movq	%rax, 232(%rsp)
	movq	3952(%rsp), %rax
	movq	%rax, 192(%rsp)
	movq	3960(%rsp), %rax
	movq	%rax, 408(%rsp)
	movq	3968(%rsp), %rax
	movq	%rax, 280(%rsp)
	movzbl	3992(%rsp), %eax
	movq	%rax, 272(%rsp)
	movq	4008(%rsp), %rax
	movq	%rax, 152(%rsp)
	movq	4016(%rsp), %rax
	movq	%rax, 400(%rsp)
	movq	4024(%rsp), %rax
	movq	%rax, 224(%rsp)
	movq	4048(%rsp), %rax
	movq	%rax, 184(%rsp)
	movq	4056(%rsp), %rax
	movq	%rax, 392(%rsp)
	movq	4064(%rsp), %rax
	movq	%rax, 264(%rsp)
	movzbl	4088(%rsp), %eax
	movq	%rax, 256(%rsp)
	movq	4104(%rsp), %rax
	movq	%rax, 144(%rsp)
	movq	4112(%rsp), %rax
	movq	%rax, 384(%rsp)
	movb	$1, %al
	movq	4120(%rsp), %rcx
	movq	%rcx, 216(%rsp)
	movq	528(%rsp), %rbx
	movq	536(%rsp), %r12
	movq	136(%rsp), %r10
	movq	472(%rsp), %rsi
	movq	104(%rsp), %r11
	movq	96(%rsp), %r8
	movq	504(%rsp), %r13
	movq	496(%rsp), %rbp
	jmp	.LBBdb5fcef_81
.LBBdb5fcef_66:
	leaq	3952(%rsp), %rdi
	callq	lone_drive_c_dasd_files_volume_file_VolumeFile_Destruct_drop.6038f02
	cmpb	$1, 120(%rsp)
	jne	.LBBdb5fcef_69
.LBBdb5fcef_68:
	leaq	3856(%rsp), %rdi
	callq	lone_drive_c_dasd_files_volume_file_VolumeFile_Destruct_drop.6038f02
	cmpb	$1, 112(%rsp)
	jne	.LBBdb5fcef_71
.LBBdb5fcef_70:
	leaq	3680(%rsp), %rdi
	callq	lone_drive_c_dasd_files_volume_file_VolumeFile_Destruct_drop.6038f02
	cmpb	$1, %r13b
	jne	.LBBdb5fcef_73
.LBBdb5fcef_72:
	movq	%r12, %rdi
	callq	lone_drive_c_dasd_files_volume_file_VolumeFile_Destruct_drop.6038f02
	cmpb	$1, %r15b
	jne	.LBBdb5fcef_75
.LBBdb5fcef_74:
	leaq	2448(%rsp), %rdi
	callq	lone_drive_c_dasd_files_volume_file_VolumeFile_Destruct_drop.6038f02
	cmpb	$1, %bl
	jne	.LBBdb5fcef_77
.LBBdb5fcef_76:
	movq	24(%rsp), %rax
	movq	%rax, 2352(%rsp)
	movq	88(%rsp), %rax
	movq	%rax, 2360(%rsp)
	movq	40(%rsp), %rax
	movq	%rax, 2368(%rsp)
	leaq	2296(%rsp), %rcx
	movups	(%rcx), %xmm0
	movups	%xmm0, 2376(%rsp)
	movq	48(%rsp), %rax
	movb	%al, 2392(%rsp)
	movq	17(%rcx), %rax
	movq	24(%rcx), %rcx
	movq	%rax, 2393(%rsp)
	movq	%rcx, 2400(%rsp)
	movq	16(%rsp), %rax
	movq	%rax, 2408(%rsp)
	movq	496(%rsp), %rax
	movq	%rax, 2416(%rsp)
	movq	32(%rsp), %rax
	movq	%rax, 2424(%rsp)
	leaq	2352(%rsp), %rdi
	callq	lone_drive_c_dasd_files_volume_file_VolumeFile_Destruct_drop.6038f02
	cmpb	$1, 472(%rsp)
	jne	.LBBdb5fcef_80
.LBBdb5fcef_78:
	movq	136(%rsp), %rax
	movq	%rax, 3760(%rsp)
	movq	8(%rsp), %rax
	movq	%rax, 3768(%rsp)
	movq	64(%rsp), %rax
	movq	%rax, 3776(%rsp)
	leaq	1224(%rsp), %rcx
	movups	(%rcx), %xmm0
	movups	%xmm0, 3784(%rsp)
	movq	104(%rsp), %rax
	movb	%al, 3800(%rsp)
	movq	17(%rcx), %rax
	movq	24(%rcx), %rcx
	movq	%rax, 3801(%rsp)
	movq	%rcx, 3808(%rsp)
	movq	536(%rsp), %rax
	movq	%rax, 3816(%rsp)
	movq	504(%rsp), %rax
	movq	%rax, 3824(%rsp)
	movq	96(%rsp), %rax
	movq	%rax, 3832(%rsp)
	leaq	3760(%rsp), %rdi
.LBBdb5fcef_79:
	callq	lone_drive_c_dasd_files_volume_file_VolumeFile_Destruct_drop.6038f02
.LBBdb5fcef_80:
	xorps	%xmm0, %xmm0
	movaps	%xmm0, 992(%rsp)
	movq	$0, 656(%rsp)
	movq	$0, 663(%rsp)
	movaps	%xmm0, 976(%rsp)
	movq	$0, 640(%rsp)
	movq	$0, 647(%rsp)
	movaps	%xmm0, 960(%rsp)
	movq	$0, 624(%rsp)
	movq	$0, 631(%rsp)
	movaps	%xmm0, 944(%rsp)
	movq	$0, 608(%rsp)
	movq	$0, 615(%rsp)
	movaps	%xmm0, 928(%rsp)
	movq	$0, 592(%rsp)
	movq	$0, 599(%rsp)
	movaps	%xmm0, 912(%rsp)
	movq	$0, 576(%rsp)
	movq	$0, 583(%rsp)
	movaps	%xmm0, 896(%rsp)
	movq	$0, 567(%rsp)
	movq	$0, 560(%rsp)
	movaps	%xmm0, 880(%rsp)
	movq	$0, 551(%rsp)
	movq	$0, 544(%rsp)
	xorl	%edi, %edi
	movq	$0, 376(%rsp)
	movq	$0, 72(%rsp)
	xorl	%r9d, %r9d
	xorl	%r15d, %r15d
	movq	$0, 464(%rsp)
	movq	$0, 128(%rsp)
	movq	$0, 80(%rsp)
	movq	$0, 456(%rsp)
	movq	$0, 328(%rsp)
	movq	$0, 320(%rsp)
	movq	$0, 176(%rsp)
	movq	$0, 448(%rsp)
	movq	$0, 248(%rsp)
	movq	$0, 208(%rsp)
	movq	$0, 440(%rsp)
	movq	$0, 312(%rsp)
	movq	$0, 304(%rsp)
	movq	$0, 168(%rsp)
	movq	$0, 432(%rsp)
	movq	$0, 240(%rsp)
	movq	$0, 200(%rsp)
	movq	$0, 424(%rsp)
	movq	$0, 296(%rsp)
	movq	$0, 288(%rsp)
	movq	$0, 160(%rsp)
	movq	$0, 416(%rsp)
	movq	$0, 232(%rsp)
	movq	$0, 192(%rsp)
	movq	$0, 408(%rsp)
	movq	$0, 280(%rsp)
	movq	$0, 272(%rsp)
	movq	$0, 152(%rsp)
	movq	$0, 400(%rsp)
	movq	$0, 224(%rsp)
	movq	$0, 184(%rsp)
	movq	$0, 392(%rsp)
	movq	$0, 264(%rsp)
	movq	$0, 256(%rsp)
	movq	$0, 144(%rsp)
	movq	$0, 384(%rsp)
	movq	$0, 216(%rsp)
	xorl	%eax, %eax
	xorl	%esi, %esi
	xorl	%r10d, %r10d
	movq	$0, 8(%rsp)
	movq	$0, 64(%rsp)
	xorl	%r11d, %r11d
	xorl	%r12d, %r12d
	xorl	%r13d, %r13d
	xorl	%r8d, %r8d
	movq	$0, 56(%rsp)
	movq	$0, 24(%rsp)
	movq	$0, 88(%rsp)
	movq	$0, 40(%rsp)
	movq	$0, 48(%rsp)
	movq	$0, 16(%rsp)
	xorl	%ebp, %ebp
	movq	$0, 32(%rsp)
	movq	$0, 360(%rsp)
	movq	$0, 352(%rsp)
	movq	$0, 112(%rsp)
	movq	$0, 120(%rsp)
	movq	$0, 344(%rsp)
	movq	$0, 336(%rsp)
	movq	528(%rsp), %rbx
	jmp	.LBBdb5fcef_81
.Lfunc_enddb5fcef:
	.size	dasd_drive_copy, .Lfunc_enddb5fcef-dasd_drive_copy

	.section	.text.dasd_drive_free,"ax",@progbits
	.globl	dasd_drive_free
	.p2align	4
	.type	dasd_drive_free,@function
dasd_drive_free:
	movl	$-1, %eax
	movabsq	$5498699729448618326, %rcx
	cmpq	%rcx, (%rdi)
	jne	.LBB8cc248a_2
	pushq	%rax
	movq	8(%rdi), %rax
	xorps	%xmm0, %xmm0
	movups	%xmm0, (%rdi)
	movq	%rax, %rdi
	callq	std_alloc_boxed_Box_drop_3643461161959432_.3befa6e
	xorl	%eax, %eax
	addq	$8, %rsp
.LBB8cc248a_2:
	retq
.Lfunc_end8cc248a:
	.size	dasd_drive_free, .Lfunc_end8cc248a-dasd_drive_free

	.section	.text.dasd_drive_next,"ax",@progbits
	.globl	dasd_drive_next
	.p2align	4
	.type	dasd_drive_next,@function
dasd_drive_next:
	movabsq	$5498699729448618326, %rcx
	movl	$-1, %eax
	cmpq	%rcx, (%rdi)
	jne	.LBBf2c509b_9
	movq	8(%rdi), %rdx
	xorps	%xmm0, %xmm0
	movups	%xmm0, (%rdi)
	movzbl	1025(%rdx), %eax
	leaq	.LJTIf2c509b_0(%rip), %r8
	movslq	(%r8,%rax,4), %r9
	addq	%r8, %r9
	jmpq	*%r9
.LBBf2c509b_3:
	movl	$1, %eax
	jmp	.LBBf2c509b_4
.LBBf2c509b_2:
	movq	%rax, %r8
	movq	%rax, %r9
	jmp	.LBBf2c509b_8
.LBBf2c509b_6:
	movzbl	936(%rdx), %r10d
	movq	968(%rdx), %r8
	movq	976(%rdx), %r9
	movl	$3, %eax
	movl	$65028031, %r11d
	btl	%r10d, %r11d
	jae	.LBBf2c509b_8
	movl	$4, %eax
	jmp	.LBBf2c509b_8
.LBBf2c509b_5:
	movl	$2, %eax
.LBBf2c509b_4:
	xorl	%r8d, %r8d
	xorl	%r9d, %r9d
.LBBf2c509b_8:
	movq	%r8, (%rsi)
	movq	%r9, 8(%rsi)
	movq	%rcx, (%rdi)
	movq	%rdx, 8(%rdi)
.LBBf2c509b_9:
	retq
.Lfunc_endf2c509b:
	.size	dasd_drive_next, .Lfunc_endf2c509b-dasd_drive_next
	.section	.rodata.dasd_drive_next,"a",@progbits
	.p2align	2, 0x0
.LJTIf2c509b_0:
	.long	.LBBf2c509b_2-.LJTIf2c509b_0
	.long	.LBBf2c509b_3-.LJTIf2c509b_0
	.long	.LBBf2c509b_3-.LJTIf2c509b_0
	.long	.LBBf2c509b_3-.LJTIf2c509b_0
	.long	.LBBf2c509b_5-.LJTIf2c509b_0
	.long	.LBBf2c509b_6-.LJTIf2c509b_0

	.section	.text.dasd_drive_show,"ax",@progbits
	.globl	dasd_drive_show
	.p2align	4
	.type	dasd_drive_show,@function
dasd_drive_show:
	movabsq	$5498699729448618326, %rcx
	movl	$-1, %eax
	cmpq	%rcx, (%rdi)
	jne	.LBB3534ed0_2
	movq	8(%rdi), %rax
	xorps	%xmm0, %xmm0
	movups	%xmm0, (%rdi)
	movq	704(%rax), %rdx
	movl	%edx, %r8d
	shrl	$16, %r8d
	xorl	%r9d, %r9d
	testb	%dl, %dl
	setne	%r9b
	leal	(%r9,%r9,2), %r9d
	addl	$2311, %r9d
	cmpb	$1, 1024(%rax)
	movzwl	868(%rax), %edx
	movl	864(%rax), %r10d
	movw	%r9w, (%rsi)
	movw	%r8w, 2(%rsi)
	movl	%r10d, 4(%rsi)
	sete	8(%rsi)
	movb	%dh, 9(%rsi)
	movb	%dl, 10(%rsi)
	movl	$0, 11(%rsi)
	movb	$0, 15(%rsi)
	movq	%rcx, (%rdi)
	movq	%rax, 8(%rdi)
	xorl	%eax, %eax
.LBB3534ed0_2:
	retq
.Lfunc_end3534ed0:
	.size	dasd_drive_show, .Lfunc_end3534ed0-dasd_drive_show

	.section	.text.dasd_drive_begin,"ax",@progbits
	.globl	dasd_drive_begin
	.p2align	4
	.type	dasd_drive_begin,@function
dasd_drive_begin:
	pushq	%r15
	pushq	%r14
	pushq	%rbx
	movabsq	$5498699729448618326, %r14
	movl	$-1, %eax
	cmpq	%r14, (%rdi)
	jne	.LBB1a4a150_4
	movq	8(%rdi), %rbx
	xorps	%xmm0, %xmm0
	movups	%xmm0, (%rdi)
	movl	$-48, %eax
	cmpb	$0, 1025(%rbx)
	jne	.LBB1a4a150_3
	leaq	1024(%rbx), %rax
	movzbl	%sil, %edx
	movq	%rdi, %r15
	movq	%rbx, %rdi
	movq	%rax, %rsi
	callq	ckd_drive_job_Job_start_808c45e55832e08b_.d85c7fa
	movq	%r15, %rdi
	movb	%al, 1025(%rbx)
	movzbl	%al, %eax
	leaq	.Lswitch.table.dasd_drive_begin(%rip), %rcx
	movl	(%rcx,%rax,4), %eax
.LBB1a4a150_3:
	movq	%r14, (%rdi)
	movq	%rbx, 8(%rdi)
.LBB1a4a150_4:
	popq	%rbx
	popq	%r14
	popq	%r15
	retq
.Lfunc_end1a4a150:
	.size	dasd_drive_begin, .Lfunc_end1a4a150-dasd_drive_begin

	.section	.text.dasd_drive_begin_program,"ax",@progbits
	.globl	dasd_drive_begin_program
	.p2align	4
	.type	dasd_drive_begin_program,@function
dasd_drive_begin_program:
	movabsq	$5498699729448618326, %rcx
	movl	$-1, %eax
	cmpq	%rcx, (%rdi)
	jne	.LBBfdff528_4
	movq	8(%rdi), %rdx
	xorps	%xmm0, %xmm0
	movups	%xmm0, (%rdi)
	movl	$-48, %eax
	cmpb	$0, 1025(%rdx)
	jne	.LBBfdff528_3
	movq	$0, 872(%rdx)
	movw	$0, 880(%rdx)
	movq	$0, 888(%rdx)
	movl	$0, 895(%rdx)
	movups	%xmm0, 904(%rdx)
	movups	%xmm0, 913(%rdx)
	cmpb	$1, 1024(%rdx)
	sete	1024(%rdx)
	xorl	%eax, %eax
.LBBfdff528_3:
	movq	%rcx, (%rdi)
	movq	%rdx, 8(%rdi)
.LBBfdff528_4:
	retq
.Lfunc_endfdff528:
	.size	dasd_drive_begin_program, .Lfunc_endfdff528-dasd_drive_begin_program

	.section	.text.dasd_drive_clear_sense,"ax",@progbits
	.globl	dasd_drive_clear_sense
	.p2align	4
	.type	dasd_drive_clear_sense,@function
dasd_drive_clear_sense:
	movabsq	$5498699729448618326, %rcx
	movl	$-1, %eax
	cmpq	%rcx, (%rdi)
	jne	.LBBd88c8da_4
	movq	8(%rdi), %rdx
	xorps	%xmm0, %xmm0
	movups	%xmm0, (%rdi)
	movl	$-48, %eax
	cmpb	$0, 1025(%rdx)
	jne	.LBBd88c8da_3
	movw	$0, 868(%rdx)
	xorl	%eax, %eax
.LBBd88c8da_3:
	movq	%rcx, (%rdi)
	movq	%rdx, 8(%rdi)
.LBBd88c8da_4:
	retq
.Lfunc_endd88c8da:
	.size	dasd_drive_clear_sense, .Lfunc_endd88c8da-dasd_drive_clear_sense

	.section	.text.dasd_drive_give_back,"ax",@progbits
	.globl	dasd_drive_give_back
	.p2align	4
	.type	dasd_drive_give_back,@function
dasd_drive_give_back:
	pushq	%rbp
	pushq	%r15
	pushq	%r14
	pushq	%r13
	pushq	%r12
	pushq	%rbx
	subq	$200, %rsp
	movabsq	$5498699729448618326, %r15
	testq	%rsi, %rsi
	sete	%bpl
	movl	$-1, %eax
	cmpq	%r15, (%rdi)
	jne	.LBBfba67b4_9
	movq	8(%rdi), %rbx
	xorps	%xmm0, %xmm0
	movups	%xmm0, (%rdi)
	movl	$-48, %eax
	cmpb	$0, 1025(%rbx)
	jne	.LBBfba67b4_8
	movl	$-55, %eax
	cmpb	$1, 1024(%rbx)
	je	.LBBfba67b4_8
	movq	%rdi, 16(%rsp)
	movq	%rsi, 24(%rsp)
	movq	%rdx, 8(%rsp)
	movzbl	(%rbx), %eax
	movq	%rax, 64(%rsp)
	leaq	8(%rbx), %r10
	xorl	%esi, %esi
	cmpq	$1, %rax
	cmovneq	%rsi, %r10
	movzbl	88(%rbx), %eax
	movq	%rax, 56(%rsp)
	leaq	96(%rbx), %rdi
	cmpq	$1, %rax
	cmovneq	%rsi, %rdi
	movzbl	176(%rbx), %eax
	movq	%rax, 48(%rsp)
	leaq	184(%rbx), %r9
	cmpq	$1, %rax
	cmovneq	%rsi, %r9
	movzbl	264(%rbx), %eax
	movq	%rax, 40(%rsp)
	leaq	272(%rbx), %r11
	cmpq	$1, %rax
	cmovneq	%rsi, %r11
	movzbl	352(%rbx), %eax
	movq	%rax, 32(%rsp)
	leaq	360(%rbx), %r12
	cmpq	$1, %rax
	cmovneq	%rsi, %r12
	movzbl	440(%rbx), %r8d
	leaq	448(%rbx), %r14
	cmpq	$1, %r8
	cmovneq	%rsi, %r14
	movzbl	528(%rbx), %r13d
	leaq	536(%rbx), %rcx
	cmpq	$1, %r13
	cmovneq	%rsi, %rcx
	movzbl	616(%rbx), %edx
	cmpq	$1, %rdx
	leaq	624(%rbx), %rax
	cmovneq	%rsi, %rax
	movq	64(%rsp), %rsi
	movq	%rsi, 72(%rsp)
	movq	%r10, 80(%rsp)
	movq	56(%rsp), %rsi
	movq	%rsi, 88(%rsp)
	movq	%rdi, 96(%rsp)
	movq	48(%rsp), %rsi
	movq	%rsi, 104(%rsp)
	movq	%r9, 112(%rsp)
	movq	40(%rsp), %rsi
	movq	%rsi, 120(%rsp)
	movq	%r11, 128(%rsp)
	movq	32(%rsp), %rsi
	movq	%rsi, 136(%rsp)
	movq	%r12, 144(%rsp)
	movq	%r8, 152(%rsp)
	movq	%r14, 160(%rsp)
	movq	%r13, 168(%rsp)
	movq	%rcx, 176(%rsp)
	movq	%rdx, 184(%rsp)
	movq	%rax, 192(%rsp)
	leaq	72(%rsp), %rdi
	movl	$8, %esi
	callq	ckd_image_stores_nth_store_808c45e55832e08b_.4c8b56e
	cmpb	$1, %al
	jne	.LBBfba67b4_29
	movq	%rdx, %rcx
	movl	$-56, %eax
	movq	8(%rsp), %rdx
	cmpq	%rdx, 8(%rcx)
	movq	24(%rsp), %r8
	movq	16(%rsp), %rdi
	movl	$0, %r11d
	jne	.LBBfba67b4_8
	movb	%bpl, %r11b
	shll	$12, %r11d
	leaq	(%r8,%r11), %rdi
	movq	(%rcx), %rsi
	movq	%rdi, %rax
	subq	%rsi, %rax
	cmpq	%rdx, %rax
	jae	.LBBfba67b4_10
	cmpq	$4, %rdx
	jb	.LBBfba67b4_7
	cmpq	$32, %rax
	jae	.LBBfba67b4_13
.LBBfba67b4_7:
	xorl	%eax, %eax
.LBBfba67b4_22:
	movq	%rdx, %r9
	movq	%rax, %rcx
	andq	$3, %r9
	je	.LBBfba67b4_25
	movq	%rax, %rcx
	.p2align	4
.LBBfba67b4_24:
	movzbl	(%rsi,%rcx), %r10d
	movb	%r10b, (%rdi,%rcx)
	incq	%rcx
	decq	%r9
	jne	.LBBfba67b4_24
.LBBfba67b4_25:
	subq	%rdx, %rax
	cmpq	$-4, %rax
	ja	.LBBfba67b4_28
	leaq	(%r11,%r8), %rax
	addq	$3, %rax
	.p2align	4
.LBBfba67b4_27:
	movzbl	(%rsi,%rcx), %edi
	movb	%dil, -3(%rax,%rcx)
	movzbl	1(%rsi,%rcx), %edi
	movb	%dil, -2(%rax,%rcx)
	movzbl	2(%rsi,%rcx), %edi
	movb	%dil, -1(%rax,%rcx)
	movzbl	3(%rsi,%rcx), %edi
	movb	%dil, (%rax,%rcx)
	addq	$4, %rcx
	cmpq	%rcx, %rdx
	jne	.LBBfba67b4_27
	jmp	.LBBfba67b4_28
.LBBfba67b4_8:
	movq	%r15, (%rdi)
	movq	%rbx, 8(%rdi)
.LBBfba67b4_9:
	addq	$200, %rsp
	popq	%rbx
	popq	%r12
	popq	%r13
	popq	%r14
	popq	%r15
	popq	%rbp
	retq
.LBBfba67b4_10:
	callq	memmove@PLT
.LBBfba67b4_28:
	movq	%rbx, %rdi
	callq	std_alloc_boxed_Box_drop_3643461161959432_.3befa6e
	xorl	%eax, %eax
	jmp	.LBBfba67b4_9
.LBBfba67b4_13:
	cmpq	$32, %rdx
	jae	.LBBfba67b4_15
	xorl	%eax, %eax
	jmp	.LBBfba67b4_19
.LBBfba67b4_15:
	movq	%rdx, %rax
	andq	$-32, %rax
	leaq	(%r11,%r8), %rcx
	addq	$16, %rcx
	xorl	%r9d, %r9d
.LBBfba67b4_16:
	movups	(%rsi,%r9), %xmm0
	movups	16(%rsi,%r9), %xmm1
	movups	%xmm0, -16(%rcx,%r9)
	movups	%xmm1, (%rcx,%r9)
	addq	$32, %r9
	cmpq	%r9, %rax
	jne	.LBBfba67b4_16
	cmpq	%rax, %rdx
	je	.LBBfba67b4_28
	testb	$28, %dl
	je	.LBBfba67b4_22
.LBBfba67b4_19:
	movq	%rax, %rcx
	movq	%rdx, %rax
	andq	$-4, %rax
.LBBfba67b4_20:
	movl	(%rsi,%rcx), %r9d
	movl	%r9d, (%rdi,%rcx)
	addq	$4, %rcx
	cmpq	%rcx, %rax
	jne	.LBBfba67b4_20
	cmpq	%rax, %rdx
	je	.LBBfba67b4_28
	jmp	.LBBfba67b4_22
.LBBfba67b4_29:
	ud2
.Lfunc_endfba67b4:
	.size	dasd_drive_give_back, .Lfunc_endfba67b4-dasd_drive_give_back

	.section	.rodata.cst16,"aM",@progbits,16
	.p2align	4, 0x0
.LCPIc847674_0:
	.quad	1
	.quad	2
.LCPIc847674_1:
	.quad	1
	.quad	1
.LCPIc847674_2:
	.long	1
	.long	0
	.long	0
	.long	0
	.section	.rodata.cst4,"aM",@progbits,4
	.p2align	2, 0x0
.LCPIc847674_3:
	.long	1
	.section	.text.dasd_drive_end,"ax",@progbits
	.globl	dasd_drive_end
	.p2align	4
	.type	dasd_drive_end,@function
dasd_drive_end:
	pushq	%rbp
	pushq	%r15
	pushq	%r14
	pushq	%rbx
	subq	$24, %rsp
	movabsq	$5498699729448618326, %r14
	movl	$-1, %eax
	cmpq	%r14, (%rdi)
	jne	.LBBc847674_6
	movq	8(%rdi), %rbx
	xorps	%xmm0, %xmm0
	movups	%xmm0, (%rdi)
	movzbl	1025(%rbx), %eax
	leaq	.LJTIc847674_0(%rip), %rcx
	movslq	(%rcx,%rax,4), %rax
	addq	%rcx, %rax
	jmpq	*%rax
.LBBc847674_2:
	movq	%rdi, %r15
	movq	%rbx, %rdi
	callq	ckd_drive_drive_Drive_end_elsewhere_808c45e55832e08b_.1a20373
	movq	%r15, %rdi
.LBBc847674_3:
	movzbl	%al, %eax
	jmp	.LBBc847674_5
.LBBc847674_4:
	movl	$-50, %eax
.LBBc847674_5:
	movq	%r14, (%rdi)
	movq	%rbx, 8(%rdi)
.LBBc847674_6:
	addq	$24, %rsp
	popq	%rbx
	popq	%r14
	popq	%r15
	popq	%rbp
	retq
.LBBc847674_7:
	movzbl	984(%rbx), %eax
	leaq	.LJTIc847674_1(%rip), %rcx
	movslq	(%rcx,%rax,4), %rax
	addq	%rcx, %rax
	jmpq	*%rax
.LBBc847674_8:
	movzbl	1008(%rbx), %ecx
	cmpb	$1, 944(%rbx)
	jne	.LBBc847674_10
	movzbl	952(%rbx), %eax
	movq	960(%rbx), %rdx
	cmpb	$1, %al
	movzbl	953(%rbx), %esi
	movl	$2, %r8d
	cmovnel	%esi, %r8d
	movzbl	936(%rbx), %r9d
	movl	$1114112, %r10d
	btl	%r9d, %r10d
	cmovael	%esi, %r8d
	movq	$1, 872(%rbx)
	movb	%al, 880(%rbx)
	movb	%r8b, 881(%rbx)
	movq	%rdx, 888(%rbx)
.LBBc847674_10:
	movb	$12, %al
	testb	%cl, %cl
	je	.LBBc847674_12
	movzbl	936(%rbx), %eax
	leaq	.Lswitch.table.dasd_drive_do.162(%rip), %rcx
	movzbl	(%rax,%rcx), %eax
	jmp	.LBBc847674_12
.LBBc847674_13:
	cmpq	$0, 968(%rbx)
	je	.LBBc847674_24
	movzbl	936(%rbx), %ecx
	movzbl	1008(%rbx), %eax
	movl	$67095039, %edx
	btl	%ecx, %edx
	jae	.LBBc847674_34
	cmpb	$1, %al
	sete	%dl
	jmp	.LBBc847674_25
.LBBc847674_16:
	movq	$0, (%rsp)
	movq	$0, 8(%rsp)
	leaq	936(%rbx), %rsi
	movzbl	1008(%rbx), %eax
	cmpb	$2, %al
	jne	.LBBc847674_22
	movzbl	1009(%rbx), %ecx
	cmpb	$1, 944(%rbx)
	jne	.LBBc847674_19
	movzbl	952(%rbx), %eax
	movq	960(%rbx), %rdx
	cmpb	$1, %al
	movzbl	953(%rbx), %r8d
	movl	$2, %r9d
	cmovnel	%r8d, %r9d
	movzbl	936(%rbx), %r10d
	movl	$1114112, %r11d
	btl	%r10d, %r11d
	cmovael	%r8d, %r9d
	movq	$1, 872(%rbx)
	movb	%al, 880(%rbx)
	movb	%r9b, 881(%rbx)
	movq	%rdx, 888(%rbx)
.LBBc847674_19:
	movb	$12, %al
	testb	%cl, %cl
	je	.LBBc847674_21
	movzbl	(%rsi), %eax
	leaq	.Lswitch.table.dasd_drive_do.162(%rip), %rcx
	movzbl	(%rax,%rcx), %eax
.LBBc847674_21:
	movb	$0, 1025(%rbx)
	leaq	1024(%rbx), %rcx
	movb	$1, %dl
	movb	%dl, (%rcx)
	jmp	.LBBc847674_3
.LBBc847674_22:
	movq	%rdi, %r15
	leaq	864(%rbx), %rdx
	movb	%al, 8(%rsp)
	movzbl	1009(%rbx), %eax
	movb	%al, 9(%rsp)
	movq	1016(%rbx), %rax
	movq	%rax, 16(%rsp)
	movq	%rsp, %rdi
	leaq	8(%rsp), %rcx
	callq	ckd_drive_close_written_ends.f2d7708
	movzbl	1(%rsp), %eax
	movzwl	2(%rsp), %edx
	movzwl	4(%rsp), %ecx
	movzwl	6(%rsp), %ebp
	cmpb	$0, (%rsp)
	movb	$0, 1025(%rbx)
	je	.LBBc847674_33
	leaq	1024(%rbx), %rsi
	movq	%rbx, %rdi
	callq	ckd_drive_job_Job_leave_808c45e55832e08b_.db7d905
	testb	%al, %al
	movl	$14, %eax
	cmovel	%ebp, %eax
	movq	%r15, %rdi
	jmp	.LBBc847674_3
.LBBc847674_24:
	xorl	%edx, %edx
.LBBc847674_25:
	movzbl	944(%rbx), %ecx
	cmpb	$1, %cl
	jne	.LBBc847674_27
	movzbl	952(%rbx), %eax
	movq	960(%rbx), %rsi
	cmpb	$1, %al
	movzbl	953(%rbx), %r8d
	movl	$2, %r9d
	cmovnel	%r8d, %r9d
	movzbl	936(%rbx), %r10d
	movl	$1114112, %r11d
	btl	%r10d, %r11d
	cmovael	%r8d, %r9d
	movq	$1, 872(%rbx)
	movb	%al, 880(%rbx)
	movb	%r9b, 881(%rbx)
	movq	%rsi, 888(%rbx)
.LBBc847674_27:
	movb	$12, %al
	testb	%dl, %dl
	je	.LBBc847674_12
	cmpq	$0, 1000(%rbx)
	jne	.LBBc847674_30
	movzbl	936(%rbx), %esi
	movzbl	952(%rbx), %edx
	movq	960(%rbx), %rax
	leaq	.LJTIc847674_2(%rip), %r8
	movslq	(%r8,%rsi,4), %rsi
	addq	%r8, %rsi
	jmpq	*%rsi
.LBBc847674_30:
	xorl	%eax, %eax
.LBBc847674_31:
	movups	%xmm0, 904(%rbx)
	movq	%rax, 920(%rbx)
	movb	$76, %al
.LBBc847674_12:
	movb	$0, 1025(%rbx)
	jmp	.LBBc847674_3
.LBBc847674_33:
	leaq	1024(%rbx), %rcx
	cmpb	$6, 984(%rbx)
	movzbl	1024(%rbx), %edx
	movl	$1, %esi
	cmovnel	%edx, %esi
	movb	%sil, (%rcx)
	movq	%r15, %rdi
	jmp	.LBBc847674_3
.LBBc847674_34:
	movl	$4608, %edx
	btl	%ecx, %edx
	jae	.LBBc847674_36
	cmpb	$2, %al
	sete	%dl
	jmp	.LBBc847674_25
.LBBc847674_36:
	testb	%al, %al
	setne	%dl
	jmp	.LBBc847674_25
.LBBc847674_37:
	xorb	$1, %cl
	xorb	$1, %dl
	orb	%cl, %dl
	jne	.LBBc847674_30
	movaps	.LCPIc847674_0(%rip), %xmm0
	jmp	.LBBc847674_31
.LBBc847674_39:
	xorb	$1, %cl
	xorb	$1, %dl
	orb	%cl, %dl
	jne	.LBBc847674_30
	movaps	.LCPIc847674_1(%rip), %xmm0
	jmp	.LBBc847674_31
.LBBc847674_41:
	xorb	$1, %cl
	orb	%dl, %cl
	jne	.LBBc847674_30
	movss	.LCPIc847674_3(%rip), %xmm0
	jmp	.LBBc847674_30
.Lfunc_endc847674:
	.size	dasd_drive_end, .Lfunc_endc847674-dasd_drive_end
	.section	.rodata.dasd_drive_end,"a",@progbits
	.p2align	2, 0x0
.LJTIc847674_0:
	.long	.LBBc847674_4-.LJTIc847674_0
	.long	.LBBc847674_2-.LJTIc847674_0
	.long	.LBBc847674_2-.LJTIc847674_0
	.long	.LBBc847674_2-.LJTIc847674_0
	.long	.LBBc847674_4-.LJTIc847674_0
	.long	.LBBc847674_7-.LJTIc847674_0
.LJTIc847674_1:
	.long	.LBBc847674_2-.LJTIc847674_1
	.long	.LBBc847674_2-.LJTIc847674_1
	.long	.LBBc847674_8-.LJTIc847674_1
	.long	.LBBc847674_13-.LJTIc847674_1
	.long	.LBBc847674_2-.LJTIc847674_1
	.long	.LBBc847674_2-.LJTIc847674_1
	.long	.LBBc847674_16-.LJTIc847674_1
.LJTIc847674_2:
	.long	.LBBc847674_30-.LJTIc847674_2
	.long	.LBBc847674_30-.LJTIc847674_2
	.long	.LBBc847674_30-.LJTIc847674_2
	.long	.LBBc847674_30-.LJTIc847674_2
	.long	.LBBc847674_30-.LJTIc847674_2
	.long	.LBBc847674_30-.LJTIc847674_2
	.long	.LBBc847674_30-.LJTIc847674_2
	.long	.LBBc847674_41-.LJTIc847674_2
	.long	.LBBc847674_39-.LJTIc847674_2
	.long	.LBBc847674_30-.LJTIc847674_2
	.long	.LBBc847674_30-.LJTIc847674_2
	.long	.LBBc847674_37-.LJTIc847674_2
	.long	.LBBc847674_30-.LJTIc847674_2
	.long	.LBBc847674_30-.LJTIc847674_2
	.long	.LBBc847674_30-.LJTIc847674_2
	.long	.LBBc847674_30-.LJTIc847674_2
	.long	.LBBc847674_30-.LJTIc847674_2
	.long	.LBBc847674_30-.LJTIc847674_2
	.long	.LBBc847674_30-.LJTIc847674_2
	.long	.LBBc847674_30-.LJTIc847674_2
	.long	.LBBc847674_30-.LJTIc847674_2
	.long	.LBBc847674_30-.LJTIc847674_2
	.long	.LBBc847674_30-.LJTIc847674_2
	.long	.LBBc847674_30-.LJTIc847674_2
	.long	.LBBc847674_30-.LJTIc847674_2
	.long	.LBBc847674_30-.LJTIc847674_2

	.section	.text.dasd_drive_give,"ax",@progbits
	.globl	dasd_drive_give
	.p2align	4
	.type	dasd_drive_give,@function
dasd_drive_give:
	pushq	%r15
	pushq	%r14
	pushq	%rbx
	movabsq	$5498699729448618326, %r14
	xorl	%ecx, %ecx
	testq	%rsi, %rsi
	sete	%r8b
	movl	$-1, %eax
	cmpq	%r14, (%rdi)
	jne	.LBB8d41885_6
	movq	8(%rdi), %rbx
	xorps	%xmm0, %xmm0
	movups	%xmm0, (%rdi)
	movl	$-51, %eax
	cmpb	$5, 1025(%rbx)
	jne	.LBB8d41885_5
	movb	%r8b, %cl
	shll	$12, %ecx
	addq	%rcx, %rsi
	movzbl	936(%rbx), %ecx
	movl	$65028031, %r8d
	btl	%ecx, %r8d
	jae	.LBB8d41885_3
.LBB8d41885_5:
	movq	%r14, (%rdi)
	movq	%rbx, 8(%rdi)
.LBB8d41885_6:
	popq	%rbx
	popq	%r14
	popq	%r15
	retq
.LBB8d41885_3:
	movl	$-53, %eax
	cmpq	%rdx, 976(%rbx)
	jb	.LBB8d41885_5
	movq	%rdi, %r15
	movq	%rbx, %rdi
	callq	ckd_drive_drive_Drive_give_808c45e55832e08b_.3403fdf
	movq	%r15, %rdi
	xorl	%eax, %eax
	jmp	.LBB8d41885_5
.Lfunc_end8d41885:
	.size	dasd_drive_give, .Lfunc_end8d41885-dasd_drive_give

	.section	.text.dasd_drive_look,"ax",@progbits
	.globl	dasd_drive_look
	.p2align	4
	.type	dasd_drive_look,@function
dasd_drive_look:
	pushq	%r15
	pushq	%r14
	pushq	%rbx
	movabsq	$5498699729448618326, %r14
	movl	$-1, %eax
	cmpq	%r14, (%rdi)
	jne	.LBB265e3db_13
	movq	8(%rdi), %rbx
	xorps	%xmm0, %xmm0
	movups	%xmm0, (%rdi)
	movzbl	1025(%rbx), %ecx
	movl	$-49, %eax
	cmpl	$4, %ecx
	jb	.LBB265e3db_12
	jne	.LBB265e3db_3
	movq	%rdi, %r15
	movq	%rbx, %rdi
	callq	ckd_drive_drive_Drive_look_for_area_808c45e55832e08b_.a55b112
	movq	%r15, %rdi
	jmp	.LBB265e3db_11
.LBB265e3db_3:
	movzbl	984(%rbx), %eax
	leal	-2(%rax), %ecx
	cmpl	$5, %ecx
	jae	.LBB265e3db_4
	movq	1000(%rbx), %rax
	jmp	.LBB265e3db_9
.LBB265e3db_4:
	movq	968(%rbx), %rcx
	testl	%eax, %eax
	jne	.LBB265e3db_7
	xorl	%eax, %eax
	movl	$6, %edx
	jmp	.LBB265e3db_6
.LBB265e3db_7:
	movzbl	936(%rbx), %eax
	leaq	.Lswitch.table.dasd_drive_do.159(%rip), %rdx
	movzbl	(%rax,%rdx), %eax
	leaq	.Lswitch.table.dasd_drive_do.160(%rip), %rdx
	movq	(%rdx,%rax,8), %rdx
	xorl	%eax, %eax
.LBB265e3db_6:
	subq	%rcx, %rdx
	cmovaeq	%rdx, %rax
.LBB265e3db_9:
	movq	%rax, 976(%rbx)
	xorl	%eax, %eax
.LBB265e3db_11:
	movb	$2, %cl
	subb	%al, %cl
	movzbl	%cl, %eax
.LBB265e3db_12:
	movq	%r14, (%rdi)
	movq	%rbx, 8(%rdi)
.LBB265e3db_13:
	popq	%rbx
	popq	%r14
	popq	%r15
	retq
.Lfunc_end265e3db:
	.size	dasd_drive_look, .Lfunc_end265e3db-dasd_drive_look

	.section	.rodata.cst16,"aM",@progbits,16
	.p2align	4, 0x0
.LCPIdf50b21_0:
	.quad	1
	.quad	2
.LCPIdf50b21_1:
	.quad	1
	.quad	1
.LCPIdf50b21_2:
	.long	1
	.long	0
	.long	0
	.long	0
	.section	.rodata.cst4,"aM",@progbits,4
	.p2align	2, 0x0
.LCPIdf50b21_3:
	.long	1
	.section	.text.dasd_drive_do,"ax",@progbits
	.globl	dasd_drive_do
	.p2align	4
	.type	dasd_drive_do,@function
dasd_drive_do:
	pushq	%rbp
	pushq	%r15
	pushq	%r14
	pushq	%r13
	pushq	%r12
	pushq	%rbx
	subq	$56, %rsp
	movq	%rdx, %r12
	movabsq	$5498699729448618326, %rdx
	xorl	%r13d, %r13d
	testq	%r12, %r12
	sete	%bpl
	movl	$-1, %eax
	cmpq	%rdx, (%rdi)
	jne	.LBBdf50b21_57
	movq	%rsi, %r15
	movq	%rdi, %rbx
	movq	8(%rdi), %r14
	xorps	%xmm0, %xmm0
	movups	%xmm0, (%rdi)
	movzbl	1025(%r14), %eax
	testb	%al, %al
	sete	%sil
	movzbl	17(%r15), %edx
	testb	%dl, %dl
	setne	%dil
	xorb	%sil, %dil
	je	.LBBdf50b21_7
	movzbl	18(%r15), %esi
	movb	%sil, 7(%rsp)
	testb	%dl, %dl
	movq	%rcx, 8(%rsp)
	je	.LBBdf50b21_8
	cmpb	$5, %al
	jne	.LBBdf50b21_19
.LBBdf50b21_4:
	movb	%bpl, %r13b
	shll	$12, %r13d
	addq	%r13, %r12
	movzbl	936(%r14), %eax
	movq	976(%r14), %rbp
	cmpq	%rbp, %rcx
	movq	%rbp, %r13
	cmovbq	%rcx, %r13
	movl	$65028031, %ecx
	btl	%eax, %ecx
	jae	.LBBdf50b21_12
	cmpb	$3, 984(%r14)
	jne	.LBBdf50b21_10
	movq	744(%r14), %rsi
	movq	%rbp, 32(%rsp)
	movq	992(%r14), %rbp
	movq	%rbx, 16(%rsp)
	movq	1000(%r14), %rbx
	movzbl	1008(%r14), %edi
	movq	%rbp, %rdx
	movq	%r12, %rcx
	movq	%r13, %r8
	callq	ckd_drive_transfer_compared.c54acf5
	addq	%r13, %rbp
	subq	%r13, %rbx
	movq	%rbp, 992(%r14)
	movq	32(%rsp), %rbp
	movq	%rbx, 1000(%r14)
	movq	16(%rsp), %rbx
	movb	%al, 1008(%r14)
	movq	%rbp, %rax
	jmp	.LBBdf50b21_11
.LBBdf50b21_7:
	xorl	%eax, %eax
	cmpb	$1, %dl
	adcl	$-49, %eax
	jmp	.LBBdf50b21_56
.LBBdf50b21_8:
	movq	%rbx, 16(%rsp)
	leaq	1024(%r14), %rsi
	movzbl	16(%r15), %edx
	movq	%r14, %rdi
	callq	ckd_drive_job_Job_start_808c45e55832e08b_.d85c7fa
	movb	%al, 1025(%r14)
	movzbl	%al, %edx
	leal	-1(%rdx), %eax
	cmpl	$3, %eax
	jae	.LBBdf50b21_17
	movb	$1, %dl
	movq	8(%rsp), %rcx
	jmp	.LBBdf50b21_18
.LBBdf50b21_10:
	movq	%r14, %rdi
	movq	%r12, %rsi
	movq	%r13, %rdx
	callq	ckd_drive_job_Job_collect_or_write_808c45e55832e08b_.04dba8e
	movq	976(%r14), %rax
.LBBdf50b21_11:
	addq	%r13, 968(%r14)
	subq	%r13, %rax
	movq	%rax, 976(%r14)
	cmpb	$5, 1025(%r14)
	je	.LBBdf50b21_13
	jmp	.LBBdf50b21_20
.LBBdf50b21_12:
	movq	%r14, %rdi
	movq	%r12, %rsi
	movq	%r13, %rdx
	callq	ckd_drive_drive_Drive_give_808c45e55832e08b_.3403fdf
	cmpb	$5, 1025(%r14)
	jne	.LBBdf50b21_20
.LBBdf50b21_13:
	movzbl	936(%r14), %ecx
	movl	$65028031, %eax
	btl	%ecx, %eax
	movq	8(%rsp), %rax
	jae	.LBBdf50b21_20
	cmpq	$0, 976(%r14)
	jne	.LBBdf50b21_20
	movq	968(%r14), %r8
	movzbl	984(%r14), %edx
	movzbl	%dl, %esi
	leal	-2(%rsi), %edi
	cmpl	$5, %edi
	movq	%rbx, 16(%rsp)
	jae	.LBBdf50b21_34
	movq	1000(%r14), %rbx
	jmp	.LBBdf50b21_38
.LBBdf50b21_17:
	testl	%edx, %edx
	movq	8(%rsp), %rcx
	je	.LBBdf50b21_18
	movb	$4, %al
	movl	$254, %ebx
	cmpb	$5, %al
	jne	.LBBdf50b21_25
	jmp	.LBBdf50b21_23
	.p2align	4
.LBBdf50b21_32:
	subl	$1, %ebx
	jb	.LBBdf50b21_18
	movzbl	1025(%r14), %eax
	cmpb	$5, %al
	je	.LBBdf50b21_23
.LBBdf50b21_25:
	movq	%r14, %rdi
	callq	ckd_drive_drive_Drive_look_for_area_808c45e55832e08b_.a55b112
	movq	8(%rsp), %rcx
	jmp	.LBBdf50b21_31
.LBBdf50b21_23:
	movzbl	984(%r14), %eax
	leal	-2(%rax), %edx
	cmpl	$5, %edx
	jae	.LBBdf50b21_26
	movq	1000(%r14), %rax
	jmp	.LBBdf50b21_30
.LBBdf50b21_26:
	movq	968(%r14), %rdx
	cmpl	$1, %eax
	jne	.LBBdf50b21_28
	movzbl	936(%r14), %eax
	leaq	.Lswitch.table.dasd_drive_do.159(%rip), %rsi
	movzbl	(%rax,%rsi), %eax
	leaq	.Lswitch.table.dasd_drive_do.160(%rip), %rsi
	movq	(%rsi,%rax,8), %rsi
	xorl	%eax, %eax
	jmp	.LBBdf50b21_29
.LBBdf50b21_28:
	xorl	%eax, %eax
	movl	$6, %esi
.LBBdf50b21_29:
	subq	%rdx, %rsi
	cmovaeq	%rsi, %rax
.LBBdf50b21_30:
	movq	%rax, 976(%r14)
	xorl	%eax, %eax
.LBBdf50b21_31:
	movb	$2, %dl
	cmpb	$1, %al
	je	.LBBdf50b21_32
.LBBdf50b21_18:
	movb	%dl, 17(%r15)
	movzbl	1025(%r14), %eax
	movq	16(%rsp), %rbx
	cmpb	$5, %al
	je	.LBBdf50b21_4
.LBBdf50b21_19:
	xorl	%r13d, %r13d
.LBBdf50b21_20:
	movq	%r13, (%r15)
	cmpb	$5, 1025(%r14)
	jne	.LBBdf50b21_47
.LBBdf50b21_21:
	movq	976(%r14), %rax
	jmp	.LBBdf50b21_48
.LBBdf50b21_34:
	cmpl	$1, %esi
	jne	.LBBdf50b21_36
	leaq	.Lswitch.table.dasd_drive_do.159(%rip), %rsi
	movzbl	(%rcx,%rsi), %esi
	leaq	.Lswitch.table.dasd_drive_do.160(%rip), %rdi
	movq	(%rdi,%rsi,8), %rsi
	xorl	%ebx, %ebx
	jmp	.LBBdf50b21_37
.LBBdf50b21_36:
	xorl	%ebx, %ebx
	movl	$6, %esi
.LBBdf50b21_37:
	subq	%r8, %rsi
	cmovaeq	%rsi, %rbx
.LBBdf50b21_38:
	movq	%rbx, 976(%r14)
	cmpq	%rbp, %rax
	jbe	.LBBdf50b21_46
	subq	%r13, %rax
	cmpq	%rbx, %rax
	cmovaeq	%rbx, %rax
	addq	%r13, %r12
	movl	$65028031, %esi
	btl	%ecx, %esi
	jae	.LBBdf50b21_44
	cmpb	$3, %dl
	jne	.LBBdf50b21_42
	movq	744(%r14), %rsi
	movq	992(%r14), %rbp
	movq	1000(%r14), %rcx
	movq	%rcx, 32(%rsp)
	movzbl	1008(%r14), %edi
	movq	%rbp, %rdx
	movq	%rax, 8(%rsp)
	movq	%r12, %rcx
	movq	%r8, %r12
	movq	8(%rsp), %r8
	callq	ckd_drive_transfer_compared.c54acf5
	movq	%r12, %rdx
	movq	8(%rsp), %rcx
	addq	%rcx, %rbp
	movq	32(%rsp), %rsi
	subq	%rcx, %rsi
	movq	%rbp, 992(%r14)
	movq	%rsi, 1000(%r14)
	movb	%al, 1008(%r14)
	jmp	.LBBdf50b21_43
.LBBdf50b21_42:
	movq	%r14, %rdi
	movq	%r12, %rsi
	movq	%rax, %rdx
	movq	%rax, %rbx
	callq	ckd_drive_job_Job_collect_or_write_808c45e55832e08b_.04dba8e
	movq	%rbx, %rcx
	movq	968(%r14), %rdx
	movq	976(%r14), %rbx
.LBBdf50b21_43:
	addq	%rcx, %rdx
	movq	%rdx, 968(%r14)
	subq	%rcx, %rbx
	movq	%rbx, 976(%r14)
	jmp	.LBBdf50b21_45
.LBBdf50b21_44:
	movq	%r14, %rdi
	movq	%r12, %rsi
	movq	%rax, %rdx
	movq	%rax, %rbx
	callq	ckd_drive_drive_Drive_give_808c45e55832e08b_.3403fdf
	movq	%rbx, %rcx
.LBBdf50b21_45:
	addq	%rcx, %r13
.LBBdf50b21_46:
	movq	16(%rsp), %rbx
	movq	%r13, (%r15)
	cmpb	$5, 1025(%r14)
	je	.LBBdf50b21_21
.LBBdf50b21_47:
	xorl	%eax, %eax
.LBBdf50b21_48:
	movq	%rax, 8(%r15)
	movzbl	1025(%r14), %ecx
	movl	$256, %eax
	leaq	.LJTIdf50b21_0(%rip), %rdx
	movslq	(%rdx,%rcx,4), %rcx
	addq	%rdx, %rcx
	jmpq	*%rcx
.LBBdf50b21_49:
	movq	%r14, %rdi
	callq	ckd_drive_drive_Drive_end_elsewhere_808c45e55832e08b_.1a20373
	movzbl	%al, %eax
	jmp	.LBBdf50b21_56
.LBBdf50b21_50:
	movl	$14, %eax
	jmp	.LBBdf50b21_56
.LBBdf50b21_51:
	cmpb	$0, 7(%rsp)
	je	.LBBdf50b21_53
	cmpq	$0, 976(%r14)
	jne	.LBBdf50b21_56
.LBBdf50b21_53:
	movzbl	984(%r14), %eax
	leaq	.LJTIdf50b21_1(%rip), %rcx
	movslq	(%rcx,%rax,4), %rax
	addq	%rcx, %rax
	jmpq	*%rax
.LBBdf50b21_54:
	movq	%r14, %rdi
	callq	ckd_drive_drive_Drive_end_elsewhere_808c45e55832e08b_.1a20373
	jmp	.LBBdf50b21_55
.LBBdf50b21_58:
	cmpq	$0, 968(%r14)
	je	.LBBdf50b21_74
	movzbl	936(%r14), %ecx
	movzbl	1008(%r14), %eax
	movl	$67095039, %edx
	btl	%ecx, %edx
	jae	.LBBdf50b21_84
	cmpb	$1, %al
	sete	%dl
	jmp	.LBBdf50b21_75
.LBBdf50b21_61:
	movq	$0, 24(%rsp)
	movq	$0, 40(%rsp)
	leaq	936(%r14), %rsi
	movzbl	1008(%r14), %eax
	cmpb	$2, %al
	jne	.LBBdf50b21_72
	movzbl	1009(%r14), %ecx
	cmpb	$1, 944(%r14)
	jne	.LBBdf50b21_64
	movzbl	952(%r14), %eax
	movq	960(%r14), %rdx
	cmpb	$1, %al
	movzbl	953(%r14), %edi
	movl	$2, %r8d
	cmovnel	%edi, %r8d
	movzbl	936(%r14), %r9d
	movl	$1114112, %r10d
	btl	%r9d, %r10d
	cmovael	%edi, %r8d
	movq	$1, 872(%r14)
	movb	%al, 880(%r14)
	movb	%r8b, 881(%r14)
	movq	%rdx, 888(%r14)
.LBBdf50b21_64:
	movb	$12, %al
	testb	%cl, %cl
	je	.LBBdf50b21_66
	movzbl	(%rsi), %eax
	leaq	.Lswitch.table.dasd_drive_do.162(%rip), %rcx
	movzbl	(%rax,%rcx), %eax
.LBBdf50b21_66:
	movb	$0, 1025(%r14)
	leaq	1024(%r14), %rcx
	movb	$1, %dl
	movb	%dl, (%rcx)
	jmp	.LBBdf50b21_55
.LBBdf50b21_67:
	movzbl	1008(%r14), %ecx
	cmpb	$1, 944(%r14)
	jne	.LBBdf50b21_69
	movzbl	952(%r14), %eax
	movq	960(%r14), %rdx
	cmpb	$1, %al
	movzbl	953(%r14), %esi
	movl	$2, %edi
	cmovnel	%esi, %edi
	movzbl	936(%r14), %r8d
	movl	$1114112, %r9d
	btl	%r8d, %r9d
	cmovael	%esi, %edi
	movq	$1, 872(%r14)
	movb	%al, 880(%r14)
	movb	%dil, 881(%r14)
	movq	%rdx, 888(%r14)
.LBBdf50b21_69:
	movb	$12, %al
	testb	%cl, %cl
	je	.LBBdf50b21_71
	movzbl	936(%r14), %eax
	leaq	.Lswitch.table.dasd_drive_do.162(%rip), %rcx
	movzbl	(%rax,%rcx), %eax
	jmp	.LBBdf50b21_71
.LBBdf50b21_72:
	movq	%rbx, %r15
	leaq	864(%r14), %rdx
	movb	%al, 40(%rsp)
	movzbl	1009(%r14), %eax
	movb	%al, 41(%rsp)
	movq	1016(%r14), %rax
	movq	%rax, 48(%rsp)
	leaq	24(%rsp), %rdi
	leaq	40(%rsp), %rcx
	callq	ckd_drive_close_written_ends.f2d7708
	movzbl	25(%rsp), %eax
	movzwl	26(%rsp), %edx
	movzwl	28(%rsp), %ecx
	movzwl	30(%rsp), %ebx
	cmpb	$0, 24(%rsp)
	movb	$0, 1025(%r14)
	je	.LBBdf50b21_83
	leaq	1024(%r14), %rsi
	movq	%r14, %rdi
	callq	ckd_drive_job_Job_leave_808c45e55832e08b_.db7d905
	testb	%al, %al
	movl	$14, %eax
	cmovel	%ebx, %eax
	movq	%r15, %rbx
	jmp	.LBBdf50b21_55
.LBBdf50b21_74:
	xorl	%edx, %edx
.LBBdf50b21_75:
	movzbl	944(%r14), %ecx
	cmpb	$1, %cl
	jne	.LBBdf50b21_77
	movzbl	952(%r14), %eax
	movq	960(%r14), %rsi
	cmpb	$1, %al
	movzbl	953(%r14), %edi
	movl	$2, %r8d
	cmovnel	%edi, %r8d
	movzbl	936(%r14), %r9d
	movl	$1114112, %r10d
	btl	%r9d, %r10d
	cmovael	%edi, %r8d
	movq	$1, 872(%r14)
	movb	%al, 880(%r14)
	movb	%r8b, 881(%r14)
	movq	%rsi, 888(%r14)
.LBBdf50b21_77:
	movb	$12, %al
	testb	%dl, %dl
	je	.LBBdf50b21_71
	xorps	%xmm0, %xmm0
	cmpq	$0, 1000(%r14)
	jne	.LBBdf50b21_80
	movzbl	936(%r14), %esi
	movzbl	952(%r14), %edx
	movq	960(%r14), %rax
	leaq	.LJTIdf50b21_2(%rip), %rdi
	movslq	(%rdi,%rsi,4), %rsi
	addq	%rdi, %rsi
	jmpq	*%rsi
.LBBdf50b21_80:
	xorl	%eax, %eax
.LBBdf50b21_81:
	movups	%xmm0, 904(%r14)
	movq	%rax, 920(%r14)
	movb	$76, %al
.LBBdf50b21_71:
	movb	$0, 1025(%r14)
.LBBdf50b21_55:
	movzbl	%al, %eax
.LBBdf50b21_56:
	movabsq	$5498699729448618326, %rcx
	movq	%rcx, (%rbx)
	movq	%r14, 8(%rbx)
.LBBdf50b21_57:
	addq	$56, %rsp
	popq	%rbx
	popq	%r12
	popq	%r13
	popq	%r14
	popq	%r15
	popq	%rbp
	retq
.LBBdf50b21_83:
	leaq	1024(%r14), %rcx
	cmpb	$6, 984(%r14)
	movzbl	1024(%r14), %edx
	movl	$1, %esi
	cmovnel	%edx, %esi
	movb	%sil, (%rcx)
	movq	%r15, %rbx
	jmp	.LBBdf50b21_55
.LBBdf50b21_84:
	movl	$4608, %edx
	btl	%ecx, %edx
	jae	.LBBdf50b21_86
	cmpb	$2, %al
	sete	%dl
	jmp	.LBBdf50b21_75
.LBBdf50b21_86:
	testb	%al, %al
	setne	%dl
	jmp	.LBBdf50b21_75
.LBBdf50b21_87:
	xorb	$1, %cl
	xorb	$1, %dl
	orb	%cl, %dl
	jne	.LBBdf50b21_80
	movaps	.LCPIdf50b21_0(%rip), %xmm0
	jmp	.LBBdf50b21_81
.LBBdf50b21_89:
	xorb	$1, %cl
	xorb	$1, %dl
	orb	%cl, %dl
	jne	.LBBdf50b21_80
	movaps	.LCPIdf50b21_1(%rip), %xmm0
	jmp	.LBBdf50b21_81
.LBBdf50b21_91:
	xorb	$1, %cl
	orb	%dl, %cl
	jne	.LBBdf50b21_80
	movss	.LCPIdf50b21_3(%rip), %xmm0
	jmp	.LBBdf50b21_80
.Lfunc_enddf50b21:
	.size	dasd_drive_do, .Lfunc_enddf50b21-dasd_drive_do
	.section	.rodata.dasd_drive_do,"a",@progbits
	.p2align	2, 0x0
.LJTIdf50b21_0:
	.long	.LBBdf50b21_50-.LJTIdf50b21_0
	.long	.LBBdf50b21_49-.LJTIdf50b21_0
	.long	.LBBdf50b21_49-.LJTIdf50b21_0
	.long	.LBBdf50b21_49-.LJTIdf50b21_0
	.long	.LBBdf50b21_56-.LJTIdf50b21_0
	.long	.LBBdf50b21_51-.LJTIdf50b21_0
.LJTIdf50b21_1:
	.long	.LBBdf50b21_54-.LJTIdf50b21_1
	.long	.LBBdf50b21_54-.LJTIdf50b21_1
	.long	.LBBdf50b21_67-.LJTIdf50b21_1
	.long	.LBBdf50b21_58-.LJTIdf50b21_1
	.long	.LBBdf50b21_54-.LJTIdf50b21_1
	.long	.LBBdf50b21_54-.LJTIdf50b21_1
	.long	.LBBdf50b21_61-.LJTIdf50b21_1
.LJTIdf50b21_2:
	.long	.LBBdf50b21_80-.LJTIdf50b21_2
	.long	.LBBdf50b21_80-.LJTIdf50b21_2
	.long	.LBBdf50b21_80-.LJTIdf50b21_2
	.long	.LBBdf50b21_80-.LJTIdf50b21_2
	.long	.LBBdf50b21_80-.LJTIdf50b21_2
	.long	.LBBdf50b21_80-.LJTIdf50b21_2
	.long	.LBBdf50b21_80-.LJTIdf50b21_2
	.long	.LBBdf50b21_91-.LJTIdf50b21_2
	.long	.LBBdf50b21_89-.LJTIdf50b21_2
	.long	.LBBdf50b21_80-.LJTIdf50b21_2
	.long	.LBBdf50b21_80-.LJTIdf50b21_2
	.long	.LBBdf50b21_87-.LJTIdf50b21_2
	.long	.LBBdf50b21_80-.LJTIdf50b21_2
	.long	.LBBdf50b21_80-.LJTIdf50b21_2
	.long	.LBBdf50b21_80-.LJTIdf50b21_2
	.long	.LBBdf50b21_80-.LJTIdf50b21_2
	.long	.LBBdf50b21_80-.LJTIdf50b21_2
	.long	.LBBdf50b21_80-.LJTIdf50b21_2
	.long	.LBBdf50b21_80-.LJTIdf50b21_2
	.long	.LBBdf50b21_80-.LJTIdf50b21_2
	.long	.LBBdf50b21_80-.LJTIdf50b21_2
	.long	.LBBdf50b21_80-.LJTIdf50b21_2
	.long	.LBBdf50b21_80-.LJTIdf50b21_2
	.long	.LBBdf50b21_80-.LJTIdf50b21_2
	.long	.LBBdf50b21_80-.LJTIdf50b21_2
	.long	.LBBdf50b21_80-.LJTIdf50b21_2

	.section	.text.dasd_drive_restore,"ax",@progbits
	.globl	dasd_drive_restore
	.p2align	4
	.type	dasd_drive_restore,@function
dasd_drive_restore:
	pushq	%r15
	pushq	%r14
	pushq	%r13
	pushq	%r12
	pushq	%rbx
	movabsq	$5498699729448618326, %r14
	xorl	%ecx, %ecx
	testq	%rsi, %rsi
	sete	%r8b
	movl	$-1, %eax
	cmpq	%r14, (%rdi)
	jne	.LBB573345c_12
	movq	8(%rdi), %r15
	xorps	%xmm0, %xmm0
	movups	%xmm0, (%rdi)
	movl	$-48, %eax
	cmpb	$0, 1025(%r15)
	jne	.LBB573345c_11
	movl	$-55, %eax
	cmpb	$1, 1024(%r15)
	je	.LBB573345c_11
	movl	$-40, %eax
	cmpq	$9, %rdx
	jb	.LBB573345c_11
	movb	%r8b, %cl
	shll	$12, %ecx
	addq	%rcx, %rsi
	cmpl	$1146306884, (%rsi)
	jne	.LBB573345c_11
	leaq	.Lstatic.11+8(%rip), %rax
	movq	%rsi, %rbx
	movl	$8, %esi
	movq	%rdi, %r12
	movq	%rbx, %rdi
	movq	%rdx, %r13
	movq	%rax, %rdx
	callq	core_cmp_slices_groups_equal_i8_31_core_cmp_numbers_U8PartialEq_.3f1b21c
	movq	%r12, %rdi
	movl	%eax, %ecx
	movl	$-40, %eax
	testb	%cl, %cl
	je	.LBB573345c_11
	movl	$-41, %eax
	cmpb	$1, 8(%rbx)
	jne	.LBB573345c_11
	movl	$-42, %eax
	cmpq	$15, %r13
	jne	.LBB573345c_11
	movzwl	9(%rbx), %ecx
	rolw	$8, %cx
	movq	704(%r15), %rsi
	movl	%esi, %edx
	shrl	$16, %edx
	movl	$-47, %eax
	cmpw	%dx, %cx
	jae	.LBB573345c_11
	movzwl	11(%rbx), %edx
	rolw	$8, %dx
	testb	%sil, %sil
	movl	$10, %esi
	movl	$20, %r8d
	cmovel	%esi, %r8d
	cmpw	%dx, %r8w
	jbe	.LBB573345c_11
	movzwl	13(%rbx), %eax
	rolw	$8, %ax
	movw	%cx, 864(%r15)
	movw	%dx, 866(%r15)
	movw	%ax, 868(%r15)
	xorps	%xmm0, %xmm0
	movups	%xmm0, 870(%r15)
	movups	%xmm0, 886(%r15)
	movups	%xmm0, 902(%r15)
	movups	%xmm0, 918(%r15)
	movw	$0, 934(%r15)
	movw	$0, 1024(%r15)
	xorl	%eax, %eax
.LBB573345c_11:
	movq	%r14, (%rdi)
	movq	%r15, 8(%rdi)
.LBB573345c_12:
	popq	%rbx
	popq	%r12
	popq	%r13
	popq	%r14
	popq	%r15
	retq
.Lfunc_end573345c:
	.size	dasd_drive_restore, .Lfunc_end573345c-dasd_drive_restore

	.section	.text.dasd_drive_settle,"ax",@progbits
	.globl	dasd_drive_settle
	.p2align	4
	.type	dasd_drive_settle,@function
dasd_drive_settle:
	pushq	%r15
	pushq	%r14
	pushq	%rbx
	movabsq	$5498699729448618326, %r14
	movl	$-1, %eax
	cmpq	%r14, (%rdi)
	jne	.LBB58ef05d_9
	movq	8(%rdi), %rbx
	xorps	%xmm0, %xmm0
	movups	%xmm0, (%rdi)
	cmpb	$5, 1025(%rbx)
	jne	.LBB58ef05d_3
	movl	$-54, %eax
	cmpq	$0, 968(%rbx)
	jne	.LBB58ef05d_8
.LBB58ef05d_3:
	movb	$0, 1025(%rbx)
	cmpb	$1, 856(%rbx)
	jne	.LBB58ef05d_5
	movq	%rdi, %r15
	movq	%rbx, %rdi
	callq	ckd_slot_cache_TrackCache_save_changed_808c45e55832e08b_.7b334c2
	movq	%r15, %rdi
	testb	%al, %al
	je	.LBB58ef05d_5
	xorps	%xmm0, %xmm0
	movups	%xmm0, 904(%rbx)
	movq	$0, 920(%rbx)
	orb	$16, 869(%rbx)
	movl	$1, %eax
	movb	$2, %cl
	jmp	.LBB58ef05d_7
.LBB58ef05d_5:
	movzbl	1024(%rbx), %ecx
	xorl	%eax, %eax
	cmpb	$1, %cl
	cmovel	%eax, %ecx
.LBB58ef05d_7:
	movb	%cl, 1024(%rbx)
.LBB58ef05d_8:
	movq	%r14, (%rdi)
	movq	%rbx, 8(%rdi)
.LBB58ef05d_9:
	popq	%rbx
	popq	%r14
	popq	%r15
	retq
.Lfunc_end58ef05d:
	.size	dasd_drive_settle, .Lfunc_end58ef05d-dasd_drive_settle

	.section	.text.dasd_drive_show_file,"ax",@progbits
	.globl	dasd_drive_show_file
	.p2align	4
	.type	dasd_drive_show_file,@function
dasd_drive_show_file:
	pushq	%r15
	pushq	%r14
	pushq	%r13
	pushq	%r12
	pushq	%rbx
	subq	$128, %rsp
	movabsq	$5498699729448618326, %rbx
	movl	$-1, %eax
	cmpq	%rbx, (%rdi)
	jne	.LBBafb3b44_6
	movq	8(%rdi), %r14
	xorps	%xmm0, %xmm0
	movups	%xmm0, (%rdi)
	movl	$-48, %eax
	cmpb	$0, 1025(%r14)
	jne	.LBBafb3b44_5
	movl	$-55, %eax
	cmpb	$1, 1024(%r14)
	je	.LBBafb3b44_5
	movq	%rsi, %r12
	movq	%rdi, %r15
	movzbl	(%r14), %ecx
	leaq	8(%r14), %rdx
	xorl	%eax, %eax
	cmpq	$1, %rcx
	cmovneq	%rax, %rdx
	movzbl	88(%r14), %edi
	movzbl	176(%r14), %esi
	movzbl	264(%r14), %r9d
	movzbl	352(%r14), %r8d
	movzbl	440(%r14), %r11d
	movzbl	528(%r14), %r10d
	movzbl	616(%r14), %r13d
	movq	%rcx, (%rsp)
	movq	%rdx, 8(%rsp)
	cmpq	$1, %rdi
	movq	%rdi, 16(%rsp)
	leaq	96(%r14), %rcx
	cmovneq	%rax, %rcx
	movq	%rcx, 24(%rsp)
	leaq	184(%r14), %rcx
	cmpq	$1, %rsi
	cmovneq	%rax, %rcx
	movq	%rsi, 32(%rsp)
	movq	%rcx, 40(%rsp)
	cmpq	$1, %r9
	movq	%r9, 48(%rsp)
	leaq	272(%r14), %rcx
	cmovneq	%rax, %rcx
	movq	%rcx, 56(%rsp)
	leaq	360(%r14), %rcx
	cmpq	$1, %r8
	cmovneq	%rax, %rcx
	movq	%r8, 64(%rsp)
	movq	%rcx, 72(%rsp)
	cmpq	$1, %r11
	movq	%r11, 80(%rsp)
	leaq	448(%r14), %rcx
	cmovneq	%rax, %rcx
	movq	%rcx, 88(%rsp)
	leaq	536(%r14), %rcx
	cmpq	$1, %r10
	cmovneq	%rax, %rcx
	movq	%r10, 96(%rsp)
	movq	%rcx, 104(%rsp)
	cmpq	$1, %r13
	movq	%r13, 112(%rsp)
	leaq	624(%r14), %rcx
	cmovneq	%rax, %rcx
	movq	%rcx, 120(%rsp)
	movq	%rsp, %rdi
	movl	$8, %esi
	callq	ckd_image_stores_nth_store_808c45e55832e08b_.4c8b56e
	cmpb	$1, %al
	jne	.LBBafb3b44_7
	movups	(%rdx), %xmm0
	movq	24(%rdx), %rax
	movups	%xmm0, (%r12)
	movq	%rax, 16(%r12)
	movq	%r15, %rdi
	xorl	%eax, %eax
.LBBafb3b44_5:
	movq	%rbx, (%rdi)
	movq	%r14, 8(%rdi)
.LBBafb3b44_6:
	addq	$128, %rsp
	popq	%rbx
	popq	%r12
	popq	%r13
	popq	%r14
	popq	%r15
	retq
.LBBafb3b44_7:
	ud2
.Lfunc_endafb3b44:
	.size	dasd_drive_show_file, .Lfunc_endafb3b44-dasd_drive_show_file

	.section	.text.dasd_drive_next_changed,"ax",@progbits
	.globl	dasd_drive_next_changed
	.p2align	4
	.type	dasd_drive_next_changed,@function
dasd_drive_next_changed:
	pushq	%rbp
	pushq	%r15
	pushq	%r14
	pushq	%r13
	pushq	%r12
	pushq	%rbx
	subq	$152, %rsp
	movabsq	$5498699729448618326, %rbx
	movl	$-1, %eax
	cmpq	%rbx, (%rdi)
	jne	.LBBcaabb4f_31
	movq	8(%rdi), %r14
	xorps	%xmm0, %xmm0
	movups	%xmm0, (%rdi)
	movl	$-48, %eax
	cmpb	$0, 1025(%r14)
	jne	.LBBcaabb4f_30
	movl	$-55, %eax
	cmpb	$1, 1024(%r14)
	jne	.LBBcaabb4f_3
.LBBcaabb4f_30:
	movq	%rbx, (%rdi)
	movq	%r14, 8(%rdi)
.LBBcaabb4f_31:
	addq	$152, %rsp
	popq	%rbx
	popq	%r12
	popq	%r13
	popq	%r14
	popq	%r15
	popq	%rbp
	retq
.LBBcaabb4f_3:
	movq	%rsi, 8(%rsp)
	movq	%rdx, %r13
	movq	%rdi, %rbp
	movzbl	(%r14), %ecx
	leaq	8(%r14), %rdx
	xorl	%eax, %eax
	cmpq	$1, %rcx
	cmovneq	%rax, %rdx
	movq	704(%r14), %r15
	movzbl	88(%r14), %edi
	movzbl	176(%r14), %esi
	movzbl	264(%r14), %r9d
	movzbl	352(%r14), %r8d
	movzbl	440(%r14), %r11d
	movzbl	528(%r14), %r10d
	movzbl	616(%r14), %r12d
	movq	%rcx, 24(%rsp)
	movq	%rdx, 32(%rsp)
	cmpq	$1, %rdi
	movq	%rdi, 40(%rsp)
	leaq	96(%r14), %rcx
	cmovneq	%rax, %rcx
	movq	%rcx, 48(%rsp)
	leaq	184(%r14), %rcx
	cmpq	$1, %rsi
	cmovneq	%rax, %rcx
	movq	%rsi, 56(%rsp)
	movq	%rcx, 64(%rsp)
	cmpq	$1, %r9
	movq	%r9, 72(%rsp)
	leaq	272(%r14), %rcx
	cmovneq	%rax, %rcx
	movq	%rcx, 80(%rsp)
	leaq	360(%r14), %rcx
	cmpq	$1, %r8
	cmovneq	%rax, %rcx
	movq	%r8, 88(%rsp)
	movq	%rcx, 96(%rsp)
	cmpq	$1, %r11
	movq	%r11, 104(%rsp)
	leaq	448(%r14), %rcx
	cmovneq	%rax, %rcx
	movq	%rcx, 112(%rsp)
	leaq	536(%r14), %rcx
	cmpq	$1, %r10
	cmovneq	%rax, %rcx
	movq	%r10, 120(%rsp)
	movq	%rcx, 128(%rsp)
	cmpq	$1, %r12
	movq	%r12, 136(%rsp)
	leaq	624(%r14), %rcx
	cmovneq	%rax, %rcx
	movq	%rcx, 144(%rsp)
	leaq	24(%rsp), %rdi
	movl	$8, %esi
	callq	ckd_image_stores_nth_store_808c45e55832e08b_.4c8b56e
	cmpb	$1, %al
	jne	.LBBcaabb4f_32
	shrq	$32, %r15
	movq	%rbp, %rdi
	movl	$0, %eax
	je	.LBBcaabb4f_30
	movq	%rdx, %rcx
	movq	8(%rdx), %rdx
	cmpq	$512, %rdx
	jb	.LBBcaabb4f_30
	movq	24(%r13), %r9
	addq	$-512, %rdx
	movq	%rdx, %rax
	shrq	$32, %rax
	je	.LBBcaabb4f_7
	movq	%rdx, %rax
	xorl	%edx, %edx
	divq	%r15
	movq	%rax, %rsi
	movq	8(%rsp), %rbp
	cmpq	%rsi, %r9
	movl	$0, %eax
	jae	.LBBcaabb4f_30
	jmp	.LBBcaabb4f_10
.LBBcaabb4f_7:
	movl	%edx, %eax
	xorl	%edx, %edx
	divl	%r15d
	movl	%eax, %esi
	movq	8(%rsp), %rbp
	cmpq	%rsi, %r9
	movl	$0, %eax
	jae	.LBBcaabb4f_30
.LBBcaabb4f_10:
	movq	24(%rcx), %rdx
	cmpb	$1, 40(%rcx)
	jne	.LBBcaabb4f_26
	cmpq	%rbp, %rdx
	movq	%r13, %r12
	jb	.LBBcaabb4f_28
	movl	52(%rcx), %eax
	testq	%rax, %rax
	je	.LBBcaabb4f_32
	cmpl	%r15d, %eax
	jne	.LBBcaabb4f_28
	movq	%rax, 16(%rsp)
	movl	48(%rcx), %eax
	movq	%rax, 8(%rsp)
	movq	%r9, %r10
	imulq	%r15, %r10
	addq	$512, %r10
.LBBcaabb4f_15:
	movq	8(%rsp), %rax
	leaq	(%rax,%r10), %r11
	movq	%r11, %r8
	shrq	$32, %r8
	je	.LBBcaabb4f_16
	movq	%r11, %rax
	xorl	%edx, %edx
	divq	16(%rsp)
	jmp	.LBBcaabb4f_18
.LBBcaabb4f_16:
	movl	%r11d, %eax
	xorl	%edx, %edx
	divl	16(%rsp)
.LBBcaabb4f_18:
	testq	%rdx, %rdx
	jne	.LBBcaabb4f_19
	testq	%r8, %r8
	je	.LBBcaabb4f_21
	movq	%r11, %rax
	xorl	%edx, %edx
	divq	%r15
	movq	%rax, %rdx
	jmp	.LBBcaabb4f_23
.LBBcaabb4f_21:
	movl	%r11d, %eax
	xorl	%edx, %edx
	divl	%r15d
	movl	%eax, %edx
.LBBcaabb4f_23:
	cmpq	64(%rcx), %rdx
	movq	%r13, %r12
	movl	$0, %eax
	jae	.LBBcaabb4f_29
	movq	56(%rcx), %r8
	cmpq	(%r8,%rdx,8), %rbp
	jb	.LBBcaabb4f_29
	incq	%r9
	addq	%r15, %r10
	cmpq	%rsi, %r9
	jb	.LBBcaabb4f_15
	jmp	.LBBcaabb4f_30
.LBBcaabb4f_26:
	cmpq	%rdx, %rbp
	je	.LBBcaabb4f_30
	movq	%r13, %r12
.LBBcaabb4f_28:
	movq	%r9, %r10
	imulq	%r15, %r10
	addq	$512, %r10
.LBBcaabb4f_29:
	movq	%r10, (%r12)
	movq	%r15, 8(%r12)
	movq	%r9, 16(%r12)
	incq	%r9
	movq	%r9, 24(%r12)
	movl	$1, %eax
	jmp	.LBBcaabb4f_30
.LBBcaabb4f_19:
	movq	%r13, %r12
	jmp	.LBBcaabb4f_29
.LBBcaabb4f_32:
	ud2
.Lfunc_endcaabb4f:
	.size	dasd_drive_next_changed, .Lfunc_endcaabb4f-dasd_drive_next_changed

	.section	.text.dasd_drive_take,"ax",@progbits
	.globl	dasd_drive_take
	.p2align	4
	.type	dasd_drive_take,@function
dasd_drive_take:
	pushq	%rbp
	pushq	%r15
	pushq	%r14
	pushq	%r13
	pushq	%r12
	pushq	%rbx
	pushq	%rax
	movq	%rsi, %rcx
	movabsq	$5498699729448618326, %r12
	xorl	%esi, %esi
	testq	%rcx, %rcx
	sete	%r8b
	movl	$-1, %eax
	cmpq	%r12, (%rdi)
	jne	.LBB3948797_9
	movq	8(%rdi), %rbx
	xorps	%xmm0, %xmm0
	movups	%xmm0, (%rdi)
	movl	$-52, %eax
	cmpb	$5, 1025(%rbx)
	jne	.LBB3948797_8
	movb	%r8b, %sil
	shll	$12, %esi
	addq	%rsi, %rcx
	movzbl	936(%rbx), %esi
	movl	$65028031, %r8d
	btl	%esi, %r8d
	jae	.LBB3948797_8
	movq	976(%rbx), %rbp
	movl	$-53, %eax
	cmpq	%rdx, %rbp
	jb	.LBB3948797_8
	movq	%rdi, (%rsp)
	cmpb	$3, 984(%rbx)
	jne	.LBB3948797_6
	movq	744(%rbx), %rsi
	movq	992(%rbx), %r15
	movq	1000(%rbx), %r13
	movzbl	1008(%rbx), %edi
	movq	%rdx, %r14
	movq	%r15, %rdx
	movq	%r14, %r8
	callq	ckd_drive_transfer_compared.c54acf5
	addq	%r14, %r15
	subq	%r14, %r13
	movq	%r15, 992(%rbx)
	movq	%r13, 1000(%rbx)
	movb	%al, 1008(%rbx)
	jmp	.LBB3948797_7
.LBB3948797_6:
	movq	%rbx, %rdi
	movq	%rcx, %rsi
	movq	%rdx, %r14
	callq	ckd_drive_job_Job_collect_or_write_808c45e55832e08b_.04dba8e
	movq	976(%rbx), %rbp
.LBB3948797_7:
	addq	%r14, 968(%rbx)
	subq	%r14, %rbp
	movq	%rbp, 976(%rbx)
	xorl	%eax, %eax
	movq	(%rsp), %rdi
.LBB3948797_8:
	movq	%r12, (%rdi)
	movq	%rbx, 8(%rdi)
.LBB3948797_9:
	addq	$8, %rsp
	popq	%rbx
	popq	%r12
	popq	%r13
	popq	%r14
	popq	%r15
	popq	%rbp
	retq
.Lfunc_end3948797:
	.size	dasd_drive_take, .Lfunc_end3948797-dasd_drive_take

	.section	.text.dasd_drive_save,"ax",@progbits
	.globl	dasd_drive_save
	.p2align	4
	.type	dasd_drive_save,@function
dasd_drive_save:
	pushq	%rbx
	movabsq	$5498699729448618326, %r8
	xorl	%ebx, %ebx
	testq	%rsi, %rsi
	sete	%r10b
	movl	$-1, %eax
	cmpq	%r8, (%rdi)
	jne	.LBB19c974c_13
	movq	8(%rdi), %r9
	xorps	%xmm0, %xmm0
	movups	%xmm0, (%rdi)
	movl	$-48, %eax
	cmpb	$0, 1025(%r9)
	jne	.LBB19c974c_12
	movzbl	1024(%r9), %r11d
	movl	$-55, %eax
	cmpb	$1, %r11b
	je	.LBB19c974c_12
	movl	$-17, %eax
	cmpb	$0, 872(%r9)
	jne	.LBB19c974c_12
	cmpb	$0, 928(%r9)
	jne	.LBB19c974c_12
	cmpb	$0, 896(%r9)
	jne	.LBB19c974c_12
	cmpb	$0, 897(%r9)
	jne	.LBB19c974c_12
	cmpb	$0, 898(%r9)
	je	.LBB19c974c_8
.LBB19c974c_12:
	movq	%r8, (%rdi)
	movq	%r9, 8(%rdi)
.LBB19c974c_13:
	popq	%rbx
	retq
.LBB19c974c_8:
	cmpb	$2, %r11b
	je	.LBB19c974c_12
	cmpb	$1, 904(%r9)
	je	.LBB19c974c_12
	movl	$-24, %eax
	cmpq	$15, %rdx
	jb	.LBB19c974c_12
	movb	%r10b, %bl
	shll	$12, %ebx
	movzwl	868(%r9), %r11d
	movzwl	866(%r9), %edx
	movzwl	864(%r9), %eax
	movabsq	$6217591213719241028, %r10
	movq	%r10, (%rsi,%rbx)
	movb	$1, 8(%rsi,%rbx)
	movb	%ah, 9(%rsi,%rbx)
	movb	%al, 10(%rsi,%rbx)
	movb	%dh, 11(%rsi,%rbx)
	movb	%dl, 12(%rsi,%rbx)
	movl	%r11d, %eax
	movb	%ah, 13(%rsi,%rbx)
	movb	%al, 14(%rsi,%rbx)
	movq	$15, (%rcx)
	xorl	%eax, %eax
	jmp	.LBB19c974c_12
.Lfunc_end19c974c:
	.size	dasd_drive_save, .Lfunc_end19c974c-dasd_drive_save

	.type	.Lstatic.0,@object
	.section	.rodata..Lstatic.0,"a",@progbits
.Lstatic.0:
	.size	.Lstatic.0, 0

	.type	.Lstatic.1,@object
	.section	.data.rel.ro..Lstatic.1,"aw",@progbits
	.p2align	3, 0x0
.Lstatic.1:
	.quad	.Lstatic.1+8
	.asciz	"CKD_C\000\000"
	.size	.Lstatic.1, 16

	.type	.Lstatic.2,@object
	.section	.data.rel.ro..Lstatic.2,"aw",@progbits
	.p2align	3, 0x0
.Lstatic.2:
	.quad	.Lstatic.2+8
	.asciz	"CKD_S\000\000"
	.size	.Lstatic.2, 16

	.type	.Lstatic.3,@object
	.section	.rodata.cst8,"aM",@progbits,8
.Lstatic.3:
	.ascii	"CKD_P370"
	.size	.Lstatic.3, 8

	.type	.Lstatic.4,@object
.Lstatic.4:
	.zero	8,255
	.size	.Lstatic.4, 8

	.type	.Lstatic.11,@object
	.section	.data.rel.ro..Lstatic.11,"aw",@progbits
	.p2align	3, 0x0
.Lstatic.11:
	.quad	.Lstatic.11+8
	.ascii	"DASDDRIV"
	.size	.Lstatic.11, 16

	.type	.Lswitch.table.ckd_drive_job_Job_look_elsewhere_808c45e55832e08b_.6b479ce,@object
	.section	".rodata..Lswitch.table.ckd_drive::job::Job::look_elsewhere::<#808c45e55832e08b>","a",@progbits
	.p2align	3, 0x0
.Lswitch.table.ckd_drive_job_Job_look_elsewhere_808c45e55832e08b_.6b479ce:
	.quad	0
	.quad	1
	.quad	0
	.quad	0
	.quad	0
	.quad	0
	.quad	0
	.quad	0
	.quad	0
	.size	.Lswitch.table.ckd_drive_job_Job_look_elsewhere_808c45e55832e08b_.6b479ce, 72

	.type	.Lswitch.table.ckd_drive_job_Job_look_elsewhere_808c45e55832e08b_.155.8c74411,@object
	.section	".rodata..Lswitch.table.ckd_drive::job::Job::look_elsewhere::<#808c45e55832e08b>.155","a",@progbits
	.p2align	3, 0x0
.Lswitch.table.ckd_drive_job_Job_look_elsewhere_808c45e55832e08b_.155.8c74411:
	.quad	0
	.quad	4
	.quad	5
	.quad	0
	.quad	0
	.quad	0
	.quad	0
	.quad	0
	.quad	0
	.size	.Lswitch.table.ckd_drive_job_Job_look_elsewhere_808c45e55832e08b_.155.8c74411, 72

	.type	.Lswitch.table.dasd_drive_begin,@object
	.section	.rodata..Lswitch.table.dasd_drive_begin,"a",@progbits
	.p2align	2, 0x0
.Lswitch.table.dasd_drive_begin:
	.long	0
	.long	1
	.long	1
	.long	1
	.long	2
	.size	.Lswitch.table.dasd_drive_begin, 20

	.type	.Lswitch.table.dasd_drive_do.159,@object
	.section	.rodata..Lswitch.table.dasd_drive_do.159,"a",@progbits
.Lswitch.table.dasd_drive_do.159:
	.ascii	"\000\000\001\001\002\003\004\005\005\005\005\005\005\005\006\006\006\006\006\006\006\007\b\b\t\t"
	.size	.Lswitch.table.dasd_drive_do.159, 26

	.type	.Lswitch.table.dasd_drive_do.160,@object
	.section	.rodata..Lswitch.table.dasd_drive_do.160,"a",@progbits
	.p2align	3, 0x0
.Lswitch.table.dasd_drive_do.160:
	.quad	0
	.quad	6
	.quad	6
	.quad	1
	.quad	0
	.quad	0
	.quad	0
	.quad	5
	.quad	8
	.quad	0
	.size	.Lswitch.table.dasd_drive_do.160, 80

	.type	.Lswitch.table.dasd_drive_do.162,@object
	.section	.rodata..Lswitch.table.dasd_drive_do.162,"a",@progbits
.Lswitch.table.dasd_drive_do.162:
	.ascii	"\f\f\f\f\f\f\f\f\f\f\f\f\f\f\r\f\r\f\r\r\r\f\f\f\r\r"
	.size	.Lswitch.table.dasd_drive_do.162, 26

	.ident	"rattle logic=dac8208d650f15bf3e2dc313a14fa4c783a3acf887bdfab66e1714b038d9e11b"
	.section	".note.GNU-stack","",@progbits
