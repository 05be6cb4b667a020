	.file	"rattle"
	.section	".text.column::Column::open","ax",@progbits
	.p2align	4
	.type	"column::Column::open",@function
"column::Column::open":
	pushq	%rbp
	pushq	%r15
	pushq	%r14
	pushq	%r13
	pushq	%r12
	pushq	%rbx
	movl	$5, %r8d
	testq	%rdx, %rdx
	je	.LBB0_23
	movzbl	(%rsi), %eax
	movl	$1, %ecx
	testb	%al, %al
	js	.LBB0_24
	decq	%rax
	cmpq	$3, %rax
	ja	.LBB0_38
.LBB0_3:
	movl	$5, %r9d
	cmpq	%rcx, %rdx
	jbe	.LBB0_89
	movzbl	(%rsi,%rcx), %r8d
	leaq	1(%rcx), %r11
	testb	%r8b, %r8b
	js	.LBB0_32
	cmpq	%r11, %rdx
	jbe	.LBB0_89
.LBB0_6:
	movzbl	(%rsi,%r11), %r10d
	leaq	1(%r11), %rcx
	testb	%r10b, %r10b
	js	.LBB0_39
	cmpq	%rcx, %rdx
	jbe	.LBB0_89
.LBB0_8:
	movzbl	(%rsi,%rcx), %r13d
	leaq	1(%rcx), %r11
	testb	%r13b, %r13b
	js	.LBB0_46
	cmpq	%r11, %rdx
	jbe	.LBB0_89
.LBB0_10:
	movzbl	(%rsi,%r11), %r14d
	leaq	1(%r11), %r15
	testb	%r14b, %r14b
	js	.LBB0_53
	cmpq	%r15, %rdx
	jbe	.LBB0_89
.LBB0_12:
	movzbl	(%rsi,%r15), %ecx
	leaq	1(%r15), %r11
	testb	%cl, %cl
	js	.LBB0_60
	cmpq	%r11, %rdx
	jbe	.LBB0_89
.LBB0_14:
	movq	%r14, -16(%rsp)
	movzbl	(%rsi,%r11), %r14d
	leaq	1(%r11), %rbx
	testb	%r14b, %r14b
	js	.LBB0_67
	cmpq	%rbx, %rdx
	jbe	.LBB0_89
.LBB0_16:
	movq	%rcx, -24(%rsp)
	movzbl	(%rsi,%rbx), %r12d
	leaq	1(%rbx), %rcx
	testb	%r12b, %r12b
	movq	%r13, -32(%rsp)
	js	.LBB0_74
	cmpq	%rcx, %rdx
	jbe	.LBB0_89
.LBB0_18:
	movzbl	(%rsi,%rcx), %r13d
	movq	%rcx, -64(%rsp)
	incq	%rcx
	movq	%rcx, -8(%rsp)
	testb	%r13b, %r13b
	js	.LBB0_81
	movl	$8, %ebx
	movl	$1, %r11d
	cmpq	$2147352576, %r8
	jbe	.LBB0_94
.LBB0_20:
	movq	$0, -56(%rsp)
.LBB0_21:
	xorl	%ecx, %ecx
	movq	$0, -64(%rsp)
	movq	$0, -40(%rsp)
	movq	$0, -48(%rsp)
	xorl	%esi, %esi
	xorl	%r9d, %r9d
	xorl	%r15d, %r15d
	xorl	%ebp, %ebp
.LBB0_22:
	movq	%r11, (%rdi)
	movq	%rbx, 8(%rdi)
	movq	-56(%rsp), %rax
	movq	%rax, 16(%rdi)
	movq	%rcx, 24(%rdi)
	movq	-64(%rsp), %rax
	movq	%rax, 32(%rdi)
	movq	-40(%rsp), %rax
	movq	%rax, 40(%rdi)
	movq	-48(%rsp), %rax
	movq	%rax, 48(%rdi)
	movq	%rsi, 56(%rdi)
	movq	%r9, 64(%rdi)
	movq	%r15, 72(%rdi)
	movq	%rbp, 80(%rdi)
	jmp	.LBB0_91
.LBB0_23:
	xorl	%ecx, %ecx
	jmp	.LBB0_31
.LBB0_24:
	cmpq	$1, %rdx
	je	.LBB0_31
	addq	$-128, %rax
	movl	$1, %r10d
	subq	%rdx, %r10
	movl	$128, %r9d
	movl	$2, %ecx
	.p2align	4
.LBB0_26:
	movzbl	-1(%rsi,%rcx), %r11d
	xorl	%ebx, %ebx
	testq	%r11, %r11
	sete	%bl
	xorl	%ebp, %ebp
	cmpq	$1, %r11
	setne	%bpl
	cmpq	$10, %rcx
	cmovel	%ebp, %ebx
	testb	%bl, %bl
	jne	.LBB0_30
	testb	%r11b, %r11b
	jns	.LBB0_37
	addq	$-128, %r11
	imulq	%r9, %r11
	addq	%r11, %rax
	shlq	$7, %r9
	leaq	(%r10,%rcx), %r11
	incq	%r11
	incq	%rcx
	cmpq	$2, %r11
	jne	.LBB0_26
	movq	%rdx, %rcx
	jmp	.LBB0_31
.LBB0_30:
	decq	%rcx
	movl	$6, %r8d
.LBB0_31:
	movq	$1, (%rdi)
	movq	%r8, 8(%rdi)
	movq	%rcx, 16(%rdi)
	jmp	.LBB0_90
.LBB0_32:
	cmpq	%rdx, %r11
	jae	.LBB0_89
	addq	$-128, %r8
	movq	%rcx, %r10
	subq	%rdx, %r10
	incq	%r10
	addq	%rsi, %r11
	movl	$128, %r14d
	xorl	%ebx, %ebx
	.p2align	4
.LBB0_34:
	movzbl	(%r11,%rbx), %r15d
	xorl	%ebp, %ebp
	testq	%r15, %r15
	sete	%bpl
	xorl	%r12d, %r12d
	cmpq	$1, %r15
	setne	%r12b
	cmpq	$8, %rbx
	cmovel	%r12d, %ebp
	testb	%bpl, %bpl
	jne	.LBB0_44
	testb	%r15b, %r15b
	jns	.LBB0_45
	addq	$-128, %r15
	imulq	%r14, %r15
	addq	%r15, %r8
	shlq	$7, %r14
	incq	%rbx
	movq	%r10, %r15
	addq	%rbx, %r15
	jne	.LBB0_34
	jmp	.LBB0_89
.LBB0_37:
	imulq	%r11, %r9
	addq	%r9, %rax
	decq	%rax
	cmpq	$3, %rax
	jbe	.LBB0_3
.LBB0_38:
	movq	$1, (%rdi)
	movq	$7, 8(%rdi)
	xorps	%xmm0, %xmm0
	movups	%xmm0, 16(%rdi)
	movups	%xmm0, 32(%rdi)
	movups	%xmm0, 48(%rdi)
	movups	%xmm0, 64(%rdi)
	movq	$0, 80(%rdi)
	jmp	.LBB0_91
.LBB0_39:
	cmpq	%rdx, %rcx
	jae	.LBB0_89
	addq	$-128, %r10
	movq	%r11, %rbx
	subq	%rdx, %rbx
	incq	%rbx
	addq	%rsi, %rcx
	movl	$128, %r15d
	xorl	%r14d, %r14d
.LBB0_41:
	movzbl	(%rcx,%r14), %r12d
	xorl	%ebp, %ebp
	testq	%r12, %r12
	sete	%bpl
	xorl	%r13d, %r13d
	cmpq	$1, %r12
	setne	%r13b
	cmpq	$8, %r14
	cmovel	%r13d, %ebp
	testb	%bpl, %bpl
	jne	.LBB0_51
	testb	%r12b, %r12b
	jns	.LBB0_52
	addq	$-128, %r12
	imulq	%r15, %r12
	addq	%r12, %r10
	shlq	$7, %r15
	incq	%r14
	movq	%rbx, %r12
	addq	%r14, %r12
	jne	.LBB0_41
	jmp	.LBB0_89
.LBB0_44:
	leaq	(%rcx,%rbx), %rdx
	incq	%rdx
	jmp	.LBB0_88
.LBB0_45:
	imulq	%r15, %r14
	addq	%r14, %r8
	leaq	(%rcx,%rbx), %r11
	addq	$2, %r11
	cmpq	%r11, %rdx
	ja	.LBB0_6
	jmp	.LBB0_89
.LBB0_46:
	cmpq	%rdx, %r11
	jae	.LBB0_89
	addq	$-128, %r13
	movq	%rcx, %rbx
	subq	%rdx, %rbx
	incq	%rbx
	movq	%rbx, -56(%rsp)
	addq	%rsi, %r11
	movl	$128, %r12d
	xorl	%r15d, %r15d
.LBB0_48:
	movq	%r13, %r14
	movq	%r11, %rbx
	movzbl	(%r11,%r15), %r13d
	xorl	%ebp, %ebp
	testq	%r13, %r13
	sete	%bpl
	xorl	%r11d, %r11d
	cmpq	$1, %r13
	setne	%r11b
	cmpq	$8, %r15
	cmovel	%r11d, %ebp
	testb	%bpl, %bpl
	jne	.LBB0_58
	testb	%r13b, %r13b
	jns	.LBB0_59
	addq	$-128, %r13
	imulq	%r12, %r13
	addq	%r13, %r14
	movq	%r14, %r13
	shlq	$7, %r12
	incq	%r15
	movq	-56(%rsp), %r11
	addq	%r15, %r11
	movq	%rbx, %r11
	jne	.LBB0_48
	jmp	.LBB0_89
.LBB0_51:
	leaq	(%r11,%r14), %rdx
	incq	%rdx
	jmp	.LBB0_88
.LBB0_52:
	imulq	%r12, %r15
	addq	%r15, %r10
	leaq	(%r11,%r14), %rcx
	addq	$2, %rcx
	cmpq	%rcx, %rdx
	ja	.LBB0_8
	jmp	.LBB0_89
.LBB0_53:
	cmpq	%rdx, %r15
	jae	.LBB0_89
	movq	%r13, -32(%rsp)
	addq	$-128, %r14
	movq	%r11, -56(%rsp)
	movq	%r11, %rcx
	subq	%rdx, %rcx
	incq	%rcx
	addq	%rsi, %r15
	movl	$128, %r13d
	xorl	%r12d, %r12d
.LBB0_55:
	movzbl	(%r15,%r12), %ebp
	xorl	%r11d, %r11d
	testq	%rbp, %rbp
	sete	%r11b
	xorl	%ebx, %ebx
	cmpq	$1, %rbp
	setne	%bl
	cmpq	$8, %r12
	cmovel	%ebx, %r11d
	testb	%r11b, %r11b
	jne	.LBB0_65
	testb	%bpl, %bpl
	jns	.LBB0_66
	addq	$-128, %rbp
	imulq	%r13, %rbp
	addq	%rbp, %r14
	shlq	$7, %r13
	incq	%r12
	movq	%rcx, %r11
	addq	%r12, %r11
	jne	.LBB0_55
	jmp	.LBB0_89
.LBB0_58:
	leaq	(%rcx,%r15), %rdx
	incq	%rdx
	jmp	.LBB0_88
.LBB0_59:
	imulq	%r13, %r12
	movq	%r14, %r13
	addq	%r12, %r13
	leaq	(%rcx,%r15), %r11
	addq	$2, %r11
	cmpq	%r11, %rdx
	ja	.LBB0_10
	jmp	.LBB0_89
.LBB0_60:
	cmpq	%rdx, %r11
	jae	.LBB0_89
	movq	%r14, -16(%rsp)
	movq	%r13, -32(%rsp)
	addq	$-128, %rcx
	movq	%r15, %rbx
	subq	%rdx, %rbx
	incq	%rbx
	movq	%rbx, -56(%rsp)
	addq	%rsi, %r11
	movl	$128, %ebp
	xorl	%r13d, %r13d
.LBB0_62:
	movq	%r11, %r14
	movzbl	(%r11,%r13), %r12d
	xorl	%r11d, %r11d
	testq	%r12, %r12
	sete	%r11b
	xorl	%ebx, %ebx
	cmpq	$1, %r12
	setne	%bl
	cmpq	$8, %r13
	cmovel	%ebx, %r11d
	testb	%r11b, %r11b
	jne	.LBB0_72
	testb	%r12b, %r12b
	jns	.LBB0_73
	addq	$-128, %r12
	imulq	%rbp, %r12
	addq	%r12, %rcx
	shlq	$7, %rbp
	incq	%r13
	movq	-56(%rsp), %r11
	addq	%r13, %r11
	movq	%r14, %r11
	jne	.LBB0_62
	jmp	.LBB0_89
.LBB0_65:
	movq	-56(%rsp), %rax
	leaq	(%rax,%r12), %rdx
	incq	%rdx
	jmp	.LBB0_88
.LBB0_66:
	imulq	%rbp, %r13
	addq	%r13, %r14
	movq	-56(%rsp), %rcx
	leaq	(%rcx,%r12), %r15
	addq	$2, %r15
	movq	-32(%rsp), %r13
	cmpq	%r15, %rdx
	ja	.LBB0_12
	jmp	.LBB0_89
.LBB0_67:
	movq	%r13, -32(%rsp)
	cmpq	%rdx, %rbx
	jae	.LBB0_89
	movq	%rcx, -24(%rsp)
	addq	$-128, %r14
	movq	%r11, -56(%rsp)
	movq	%r11, %r13
	subq	%rdx, %r13
	incq	%r13
	addq	%rsi, %rbx
	movl	$128, %r15d
	xorl	%ebp, %ebp
.LBB0_69:
	movq	%rbx, %rcx
	movzbl	(%rbx,%rbp), %r12d
	xorl	%r11d, %r11d
	testq	%r12, %r12
	sete	%r11b
	xorl	%ebx, %ebx
	cmpq	$1, %r12
	setne	%bl
	cmpq	$8, %rbp
	cmovel	%ebx, %r11d
	testb	%r11b, %r11b
	jne	.LBB0_79
	testb	%r12b, %r12b
	jns	.LBB0_80
	addq	$-128, %r12
	imulq	%r15, %r12
	addq	%r12, %r14
	shlq	$7, %r15
	incq	%rbp
	movq	%r13, %r11
	addq	%rbp, %r11
	movq	%rcx, %rbx
	jne	.LBB0_69
	jmp	.LBB0_89
.LBB0_72:
	leaq	(%r15,%r13), %rdx
	incq	%rdx
	jmp	.LBB0_88
.LBB0_73:
	imulq	%r12, %rbp
	addq	%rbp, %rcx
	leaq	(%r15,%r13), %r11
	addq	$2, %r11
	movq	-32(%rsp), %r13
	movq	-16(%rsp), %r14
	cmpq	%r11, %rdx
	ja	.LBB0_14
	jmp	.LBB0_89
.LBB0_74:
	movq	%rbx, -64(%rsp)
	cmpq	%rdx, %rcx
	jae	.LBB0_89
	movq	%rcx, %r11
	addq	$-128, %r12
	movq	-64(%rsp), %rcx
	subq	%rdx, %rcx
	incq	%rcx
	movq	%rcx, -56(%rsp)
	movq	%r11, %rcx
	addq	%rsi, %rcx
	movl	$128, %r15d
	xorl	%ebp, %ebp
.LBB0_76:
	movq	%rcx, %r13
	movzbl	(%rcx,%rbp), %ecx
	xorl	%r11d, %r11d
	testq	%rcx, %rcx
	sete	%r11b
	xorl	%ebx, %ebx
	cmpq	$1, %rcx
	setne	%bl
	cmpq	$8, %rbp
	cmovel	%ebx, %r11d
	testb	%r11b, %r11b
	jne	.LBB0_86
	testb	%cl, %cl
	jns	.LBB0_92
	addq	$-128, %rcx
	imulq	%r15, %rcx
	addq	%rcx, %r12
	shlq	$7, %r15
	incq	%rbp
	movq	-56(%rsp), %rcx
	addq	%rbp, %rcx
	movq	%r13, %rcx
	jne	.LBB0_76
	jmp	.LBB0_89
.LBB0_79:
	movq	-56(%rsp), %rax
	jmp	.LBB0_87
.LBB0_80:
	imulq	%r12, %r15
	addq	%r15, %r14
	movq	-56(%rsp), %rcx
	leaq	(%rcx,%rbp), %rbx
	addq	$2, %rbx
	movq	-32(%rsp), %r13
	movq	-24(%rsp), %rcx
	cmpq	%rbx, %rdx
	ja	.LBB0_16
	jmp	.LBB0_89
.LBB0_81:
	movq	-64(%rsp), %rcx
	incq	%rcx
	cmpq	%rdx, %rcx
	jae	.LBB0_89
	addq	$-128, %r13
	movq	-64(%rsp), %rcx
	movq	%rcx, %r11
	subq	%rdx, %r11
	incq	%r11
	movq	%r11, -56(%rsp)
	incq	%rcx
	addq	%rcx, %rsi
	movl	$128, %r15d
	xorl	%ebp, %ebp
.LBB0_83:
	movzbl	(%rsi,%rbp), %ecx
	xorl	%r11d, %r11d
	testq	%rcx, %rcx
	sete	%r11b
	xorl	%ebx, %ebx
	cmpq	$1, %rcx
	setne	%bl
	cmpq	$8, %rbp
	cmovel	%ebx, %r11d
	testb	%r11b, %r11b
	jne	.LBB0_86
	testb	%cl, %cl
	jns	.LBB0_93
	addq	$-128, %rcx
	imulq	%r15, %rcx
	addq	%rcx, %r13
	shlq	$7, %r15
	incq	%rbp
	movq	-56(%rsp), %rcx
	addq	%rbp, %rcx
	jne	.LBB0_83
	jmp	.LBB0_89
.LBB0_86:
	movq	-64(%rsp), %rax
.LBB0_87:
	leaq	(%rax,%rbp), %rdx
	incq	%rdx
.LBB0_88:
	movl	$6, %r9d
.LBB0_89:
	movq	$1, (%rdi)
	movq	%r9, 8(%rdi)
	movq	%rdx, 16(%rdi)
.LBB0_90:
	xorps	%xmm0, %xmm0
	movups	%xmm0, 24(%rdi)
	movups	%xmm0, 40(%rdi)
	movups	%xmm0, 56(%rdi)
	movups	%xmm0, 72(%rdi)
.LBB0_91:
	popq	%rbx
	popq	%r12
	popq	%r13
	popq	%r14
	popq	%r15
	popq	%rbp
	retq
.LBB0_92:
	imulq	%rcx, %r15
	addq	%r15, %r12
	movq	-64(%rsp), %rcx
	addq	%rbp, %rcx
	addq	$2, %rcx
	cmpq	%rcx, %rdx
	ja	.LBB0_18
	jmp	.LBB0_89
.LBB0_93:
	imulq	%rcx, %r15
	addq	%r15, %r13
	movq	-64(%rsp), %rcx
	addq	%rbp, %rcx
	addq	$2, %rcx
	movq	%rcx, -8(%rsp)
	movl	$8, %ebx
	movl	$1, %r11d
	cmpq	$2147352576, %r8
	ja	.LBB0_20
.LBB0_94:
	testq	%r10, %r10
	setne	%cl
	leaq	-16(%r10), %rsi
	cmpq	$-9, %rsi
	setb	%sil
	movq	$0, -56(%rsp)
	testb	%sil, %cl
	jne	.LBB0_21
	cmpq	$32767, -16(%rsp)
	ja	.LBB0_21
	movq	$0, -56(%rsp)
	cmpq	$64, -24(%rsp)
	ja	.LBB0_21
	movq	-16(%rsp), %rcx
	leaq	6(,%rcx,8), %rcx
	cmpq	%rcx, -32(%rsp)
	jb	.LBB0_21
	movq	-24(%rsp), %rsi
	imulq	%r8, %rsi
	addq	$7, %rsi
	shrq	$3, %rsi
	cmpb	$2, %al
	jae	.LBB0_106
	testq	%r12, %r12
	je	.LBB0_20
	movabsq	$72340173107564823, %r9
	movq	-24(%rsp), %rcx
	shrq	%cl, %r9
	movq	$0, -56(%rsp)
	cmpq	%rsi, %r13
	jne	.LBB0_21
	movl	%eax, %ecx
	xorb	$1, %cl
	orb	%cl, %r9b
	testb	$1, %r9b
	je	.LBB0_21
.LBB0_102:
	movl	$9, %ebx
	subq	-8(%rsp), %rdx
	jb	.LBB0_20
	movq	$0, -56(%rsp)
	subq	-32(%rsp), %rdx
	jb	.LBB0_21
	movl	$0, %ecx
	movl	$0, %esi
	movq	%rsi, -64(%rsp)
	movl	$0, %esi
	movq	%rsi, -40(%rsp)
	movl	$0, %esi
	movq	%rsi, -48(%rsp)
	movl	$0, %esi
	movl	$0, %r9d
	movl	$0, %r15d
	movl	$0, %ebp
	cmpq	%r13, %rdx
	jne	.LBB0_22
	xorl	%r11d, %r11d
	movq	%rax, %rbx
	movq	%r8, -56(%rsp)
	movq	%r10, %rcx
	movq	-32(%rsp), %rax
	movq	%rax, -64(%rsp)
	movq	-16(%rsp), %rax
	movq	%rax, -40(%rsp)
	movq	-24(%rsp), %rax
	movq	%rax, -48(%rsp)
	movq	%r14, %rsi
	movq	%r12, %r9
	movq	%r13, %r15
	movq	-8(%rsp), %rbp
	jmp	.LBB0_22
.LBB0_106:
	movzbl	%al, %ecx
	cmpl	$2, %ecx
	jne	.LBB0_111
	cmpq	$0, -24(%rsp)
	jne	.LBB0_20
	movq	$0, -56(%rsp)
	testq	%r14, %r14
	jne	.LBB0_21
	testq	%r12, %r12
	je	.LBB0_21
	leaq	16383(%r8), %rcx
	shrq	$14, %rcx
	leaq	(%rcx,%rcx,4), %rcx
	leaq	(%rcx,%rcx,4), %rcx
	cmpq	%r13, %rcx
	ja	.LBB0_20
	jmp	.LBB0_102
.LBB0_111:
	leaq	-257(%r12), %rcx
	cmpq	$-255, %rcx
	jb	.LBB0_20
	movq	$0, -56(%rsp)
	testq	%r14, %r14
	jne	.LBB0_21
	leaq	-1(%r12), %rcx
	movl	$127, %r9d
	bsrq	%rcx, %r9
	xorq	$-64, %r9
	addq	$65, %r9
	cmpq	%r9, -24(%rsp)
	jne	.LBB0_21
	leaq	(%rsi,%r12,8), %rcx
	cmpq	%rcx, %r13
	jne	.LBB0_20
	jmp	.LBB0_102
.Lfunc_end0:
	.size	"column::Column::open", .Lfunc_end0-"column::Column::open"

	.section	".text.checking::accepts","ax",@progbits
	.p2align	4
	.type	"checking::accepts",@function
"checking::accepts":
	pushq	%rbp
	pushq	%r15
	pushq	%r14
	pushq	%r13
	pushq	%r12
	pushq	%rbx
	subq	$2472, %rsp
	movq	%rdx, %r14
	movq	%rsi, 8(%rsp)
	movzbl	(%rdx), %eax
	movl	%eax, 16(%rsp)
	movq	8(%rdx), %r13
	movq	16(%rdx), %r8
	movq	24(%rdx), %rbx
	movq	32(%rdx), %r9
	movq	72(%rdx), %r12
	movq	%rdi, %r15
	leaq	(%rdi,%r12), %rsi
	xorps	%xmm0, %xmm0
	movaps	%xmm0, 416(%rsp)
	movq	$0, 432(%rsp)
	leaq	416(%rsp), %rdi
	xorl	%ebp, %ebp
	movq	%rbx, %rdx
	xorl	%ecx, %ecx
	callq	"section_check::judge"
	cmpb	$0, 416(%rsp)
	jne	.LBB1_4
	cmpq	%r13, 424(%rsp)
	jne	.LBB1_4
	movq	%r13, %r9
	addq	%rbx, %r12
	leaq	(%r15,%r12), %r11
	movq	8(%rsp), %r13
	movq	%r13, %rsi
	subq	%r12, %rsi
	movq	56(%r14), %rax
	movq	%rax, 80(%rsp)
	movups	40(%r14), %xmm0
	movaps	%xmm0, 64(%rsp)
	movl	16(%rsp), %edx
	cmpl	$2, %edx
	jae	.LBB1_5
	leaq	64(%rsp), %r8
	movq	%r11, %rdi
	movq	%r9, %rcx
	callq	"scaled_check::values_ok"
	movl	%eax, %ebp
	jmp	.LBB1_4
.LBB1_5:
	movq	%r9, 32(%rsp)
	jne	.LBB1_61
	movq	80(%rsp), %r10
	movq	%r9, %rax
	shrq	$14, %rax
	movl	%r9d, %r12d
	andl	$16383, %r12d
	addl	$16383, %r12d
	shrl	$14, %r12d
	addq	%rax, %r12
	leaq	(%r12,%r12,4), %rax
	leaq	(%rax,%rax,4), %rax
	subq	%rax, %rsi
	movq	%rsi, 40(%rsp)
	testq	%r12, %r12
	je	.LBB1_71
	addq	%r11, %rax
	movq	%rax, 120(%rsp)
	xorl	%edi, %edi
	xorl	%r8d, %r8d
	movq	$0, 24(%rsp)
	xorl	%ebx, %ebx
	movq	%r10, 112(%rsp)
	movq	%r11, 104(%rsp)
	movq	%r12, 96(%rsp)
	jmp	.LBB1_9
	.p2align	4
.LBB1_8:
	addq	%rcx, %rdi
	incq	%r8
	cmpq	%r12, %r8
	je	.LBB1_72
.LBB1_9:
	leaq	(%r8,%r8,4), %rax
	movq	%r8, %rsi
	shlq	$14, %rsi
	movq	%r9, %rcx
	subq	%rsi, %rcx
	cmpq	$16384, %rcx
	movl	$16384, %r14d
	cmovbq	%rcx, %r14
	leaq	(%rax,%rax,4), %rax
	xorl	%ebp, %ebp
	cmpq	%rdi, 16(%r11,%rax)
	jne	.LBB1_4
	movq	%r8, 136(%rsp)
	movq	%rdi, 48(%rsp)
	movzbl	24(%r11,%rax), %ecx
	cmpb	$64, %cl
	ja	.LBB1_4
	movzbl	%cl, %ecx
	movq	%r14, %rdx
	movq	%rcx, 8(%rsp)
	imulq	%rcx, %rdx
	leaq	7(%rdx), %rcx
	movq	%rcx, %rbp
	shrq	$3, %rbp
	movq	40(%rsp), %r8
	movq	48(%rsp), %r15
	subq	%r15, %r8
	cmpq	%rbp, %r8
	jb	.LBB1_86
	movq	(%r11,%rax), %r13
	movabsq	$-9223372036854775808, %r8
	xorq	%r8, %r13
	movq	8(%r11,%rax), %rax
	xorq	%r8, %rax
	movq	%rax, 144(%rsp)
	movq	120(%rsp), %rax
	leaq	(%rax,%r15), %r8
	testq	%rbp, %rbp
	je	.LBB1_14
	andl	$248, %ecx
	subl	%edx, %ecx
	movq	$-1, %rax
	shlq	%cl, %rax
	movzbl	-1(%r8,%rbp), %ecx
	notl	%eax
	testl	%eax, %ecx
	jne	.LBB1_86
.LBB1_14:
	movq	%r8, 56(%rsp)
	movq	8(%rsp), %rdx
	testq	%rdx, %rdx
	movq	%rbp, 128(%rsp)
	je	.LBB1_17
	movq	24(%rsp), %rcx
	movabsq	$-4294967296, %rdx
	leaq	(%rcx,%rdx), %rax
	addq	$2, %rdx
	movq	%rdx, 152(%rsp)
	cmpq	%rdx, %rax
	jae	.LBB1_18
	movq	$0, 16(%rsp)
	jmp	.LBB1_19
.LBB1_17:
	xorl	%r15d, %r15d
	jmp	.LBB1_47
.LBB1_18:
	movabsq	$4294967296, %rax
	xorl	%edx, %edx
	divq	%rcx
	incq	%rax
	movq	%rax, 16(%rsp)
.LBB1_19:
	cmpq	%rsi, %r9
	movq	8(%rsp), %rdx
	je	.LBB1_86
	movl	$64, %edi
	subq	%rdx, %rdi
	movq	$-1, %r12
	xorl	%ecx, %ecx
	xorl	%r8d, %r8d
	xorl	%r11d, %r11d
	xorl	%r15d, %r15d
	movq	24(%rsp), %r9
	movq	56(%rsp), %rbp
	jmp	.LBB1_24
	.p2align	4
.LBB1_21:
	movabsq	$4294967296, %rax
	xorl	%edx, %edx
	divq	%rcx
	movq	8(%rsp), %rdx
	incq	%rax
	movq	%rax, 16(%rsp)
.LBB1_22:
	movq	%rcx, %r9
.LBB1_23:
	movq	%rsi, %rax
	shrq	$3, %rax
	addq	%rax, %r11
	andl	$7, %esi
	incq	%r8
	movq	%rsi, %rcx
	cmpq	%r14, %r8
	je	.LBB1_46
.LBB1_24:
	movq	%r14, %rax
	subq	%r8, %rax
	leaq	(%rcx,%rdx), %rsi
	cmpq	$64, %rax
	jb	.LBB1_27
	cmpq	$64, %rsi
	ja	.LBB1_27
	movq	(%rbp,%r11), %rax
	bswapq	%rax
	shlq	%cl, %rax
	jmp	.LBB1_35
	.p2align	4
.LBB1_27:
	leaq	7(%rsi), %r10
	shrq	$3, %r10
	leaq	(%r11,%rbp), %rax
	movq	%r9, %rbp
	cmpb	$8, %dl
	ja	.LBB1_29
	movzbl	(%rax), %r9d
	movzbl	-1(%rax,%r10), %eax
	movq	$-1, %rdx
	jmp	.LBB1_34
	.p2align	4
.LBB1_29:
	cmpb	$24, %dl
	ja	.LBB1_31
	movzwl	(%rax), %r9d
	movzwl	-2(%rax,%r10), %eax
	movq	$-2, %rdx
	jmp	.LBB1_34
.LBB1_31:
	cmpb	$56, %dl
	ja	.LBB1_33
	movl	(%rax), %r9d
	movl	-4(%rax,%r10), %eax
	movq	$-4, %rdx
	jmp	.LBB1_34
.LBB1_33:
	movq	(%rax), %r9
	movq	-8(%rax,%r10), %rax
	movq	$-8, %rdx
	.p2align	4
.LBB1_34:
	bswapq	%r9
	shlq	%cl, %r9
	bswapq	%rax
	addl	%r10d, %edx
	shll	$3, %edx
	subl	%ecx, %edx
	movl	%edx, %ecx
	shrq	%cl, %rax
	orq	%r9, %rax
	movq	%rbp, %r9
	movq	56(%rsp), %rbp
.LBB1_35:
	movl	%edi, %ecx
	shrq	%cl, %rax
	cmpq	%r12, %rax
	cmovbq	%rax, %r12
	cmpq	%r15, %rax
	cmovaq	%rax, %r15
	movl	$1, %ecx
	cmpq	$1, %r9
	je	.LBB1_43
	movq	%rax, %rcx
	shrq	$32, %rcx
	jne	.LBB1_39
	movq	%rax, %rcx
	imulq	16(%rsp), %rcx
	shrq	$32, %rcx
	imulq	%r9, %rcx
	cmpq	%rax, %rcx
	jne	.LBB1_39
	movq	8(%rsp), %rdx
	jmp	.LBB1_23
	.p2align	4
.LBB1_39:
	movq	%r9, %rdx
	movq	%rax, %rcx
	testq	%r9, %r9
	jne	.LBB1_41
	jmp	.LBB1_43
	.p2align	4
.LBB1_42:
	xorl	%edx, %edx
	divl	%ecx
	movq	%rcx, %rax
	testq	%rdx, %rdx
	je	.LBB1_43
.LBB1_41:
	movq	%rdx, %rcx
	movq	%rax, %rdx
	orq	%rcx, %rdx
	shrq	$32, %rdx
	je	.LBB1_42
	xorl	%edx, %edx
	divq	%rcx
	movq	%rcx, %rax
	testq	%rdx, %rdx
	jne	.LBB1_41
	.p2align	4
.LBB1_43:
	cmpq	%r9, %rcx
	movq	8(%rsp), %rdx
	je	.LBB1_23
	movabsq	$-4294967296, %rax
	addq	%rcx, %rax
	cmpq	152(%rsp), %rax
	jae	.LBB1_21
	movq	$0, 16(%rsp)
	jmp	.LBB1_22
.LBB1_46:
	movq	%r9, 24(%rsp)
	testq	%r12, %r12
	movq	32(%rsp), %r9
	movq	104(%rsp), %r11
	movq	112(%rsp), %r10
	movq	96(%rsp), %r12
	jne	.LBB1_86
.LBB1_47:
	testq	%rdx, %rdx
	setne	%al
	leal	-1(%rdx), %ecx
	movq	%r15, %rdx
	shrq	%cl, %rdx
	testq	%rdx, %rdx
	sete	%cl
	xorl	%ebp, %ebp
	testb	%cl, %al
	jne	.LBB1_4
	movq	144(%rsp), %rcx
	subq	%r13, %rcx
	jb	.LBB1_4
	cmpq	$2, %r10
	jb	.LBB1_53
	movq	%r15, %rax
	orq	%r10, %rax
	shrq	$32, %rax
	je	.LBB1_53
	movq	%rcx, %rax
	orq	%r10, %rax
	shrq	$32, %rax
	je	.LBB1_54
	movq	%rcx, %rax
	xorl	%edx, %edx
	divq	%r10
	cmpq	%rax, %r15
	jbe	.LBB1_55
	jmp	.LBB1_86
.LBB1_53:
	imulq	%r10, %r15
	cmpq	%rcx, %r15
	jbe	.LBB1_56
	jmp	.LBB1_86
.LBB1_54:
	movl	%ecx, %eax
	xorl	%edx, %edx
	divl	%r10d
	cmpq	%rax, %r15
	ja	.LBB1_86
.LBB1_55:
	imulq	%r10, %r15
.LBB1_56:
	cmpq	%rcx, %r15
	jne	.LBB1_86
	movq	(%r11), %rax
	movabsq	$-9223372036854775808, %rcx
	xorq	%rcx, %rax
	movq	%rax, %rcx
	subq	%r13, %rcx
	subq	%rax, %r13
	cmovbq	%rcx, %r13
	testq	%r13, %r13
	movq	48(%rsp), %rdi
	movq	136(%rsp), %r8
	movq	128(%rsp), %rcx
	jne	.LBB1_59
	jmp	.LBB1_8
	.p2align	4
.LBB1_60:
	movl	%ebx, %eax
	xorl	%edx, %edx
	divl	%r13d
	movq	%r13, %rbx
	movq	%rdx, %r13
	testq	%rdx, %rdx
	je	.LBB1_8
.LBB1_59:
	movq	%rbx, %rax
	orq	%r13, %rax
	shrq	$32, %rax
	je	.LBB1_60
	movq	%rbx, %rax
	xorl	%edx, %edx
	divq	%r13
	movq	%r13, %rbx
	movq	%rdx, %r13
	testq	%rdx, %rdx
	jne	.LBB1_59
	jmp	.LBB1_8
.LBB1_61:
	movq	%r15, %rbp
	movq	%r11, %r12
	movq	%rsi, %r14
	movq	64(%rsp), %rbx
	movq	80(%rsp), %r15
	leaq	416(%rsp), %rdi
	movl	$2048, %edx
	xorl	%esi, %esi
	callq	memset@PLT
	movq	32(%rsp), %rdx
	testq	%r15, %r15
	je	.LBB1_66
	leaq	(,%r15,8), %rdx
	leaq	416(%rsp), %rdi
	movq	%r12, %rsi
	callq	memcpy@PLT
	movq	32(%rsp), %rdx
	cmpq	$1, %r15
	je	.LBB1_66
	movl	$1, %eax
	.p2align	4
.LBB1_64:
	movq	408(%rsp,%rax,8), %rcx
	cmpq	416(%rsp,%rax,8), %rcx
	jge	.LBB1_86
	incq	%rax
	cmpq	%rax, %r15
	jne	.LBB1_64
.LBB1_66:
	leaq	416(%rsp), %rdi
	movq	%r15, %rsi
	callq	"table_values::saves"
	testb	%al, %al
	je	.LBB1_86
	leaq	(,%r15,8), %rax
	cmpq	%rax, %r14
	movq	32(%rsp), %r11
	je	.LBB1_76
	movq	%r14, %rcx
	subl	%eax, %ecx
	shll	$3, %ecx
	movl	%ebx, %eax
	imull	%r11d, %eax
	subl	%eax, %ecx
	movq	$-1, %rax
	shlq	%cl, %rax
	movzbl	-1(%rbp,%r13), %ecx
	notl	%eax
	testl	%eax, %ecx
	jne	.LBB1_86
.LBB1_76:
	xorps	%xmm0, %xmm0
	movaps	%xmm0, 400(%rsp)
	movaps	%xmm0, 384(%rsp)
	movaps	%xmm0, 368(%rsp)
	movaps	%xmm0, 352(%rsp)
	movaps	%xmm0, 336(%rsp)
	movaps	%xmm0, 320(%rsp)
	movaps	%xmm0, 304(%rsp)
	movaps	%xmm0, 288(%rsp)
	movaps	%xmm0, 272(%rsp)
	movaps	%xmm0, 256(%rsp)
	movaps	%xmm0, 240(%rsp)
	movaps	%xmm0, 224(%rsp)
	movaps	%xmm0, 208(%rsp)
	movaps	%xmm0, 192(%rsp)
	movaps	%xmm0, 176(%rsp)
	movaps	%xmm0, 160(%rsp)
	testq	%r11, %r11
	je	.LBB1_114
	testq	%rbx, %rbx
	je	.LBB1_98
	leaq	(%r12,%r15,8), %rsi
	movl	$64, %eax
	subq	%rbx, %rax
	xorl	%ecx, %ecx
	xorl	%edi, %edi
	cmpq	$8, %rbx
	ja	.LBB1_100
.LBB1_79:
	leaq	(%rcx,%rbx), %r8
	cmpq	$63, %r11
	jbe	.LBB1_81
	movq	(%rsi,%rdi), %r9
	bswapq	%r9
	shlq	%cl, %r9
	jmp	.LBB1_82
.LBB1_81:
	leaq	7(%r8), %rdx
	movq	%rdx, %r9
	shrq	$3, %r9
	leaq	(%rsi,%rdi), %r10
	movq	%r11, %r14
	movzbl	(%rsi,%rdi), %r11d
	movzbl	-1(%r9,%r10), %r9d
	shlq	$56, %r11
	shlq	%cl, %r11
	shlq	$56, %r9
	andl	$56, %edx
	subl	%ecx, %edx
	addb	$56, %dl
	movl	%edx, %ecx
	shrq	%cl, %r9
	orq	%r11, %r9
	movq	%r14, %r11
.LBB1_82:
	movl	%eax, %ecx
	shrq	%cl, %r9
	cmpq	%r9, %r15
	jbe	.LBB1_86
	movb	$1, 160(%rsp,%r9)
	movq	%r8, %rcx
	shrq	$3, %rcx
	addq	%rcx, %rdi
	andl	$7, %r8d
	movq	%r8, %rcx
	decq	%r11
	jne	.LBB1_79
	jmp	.LBB1_114
.LBB1_71:
	xorl	%ebx, %ebx
	movq	$0, 24(%rsp)
	xorl	%edi, %edi
.LBB1_72:
	cmpq	40(%rsp), %rdi
	jne	.LBB1_86
	testq	%r10, %r10
	je	.LBB1_127
	movq	%rbx, %rax
	orq	%r10, %rax
	shrq	$32, %rax
	movq	24(%rsp), %rsi
	je	.LBB1_87
	movq	%rbx, %rax
	xorl	%edx, %edx
	divq	%r10
	jmp	.LBB1_88
.LBB1_87:
	movl	%ebx, %eax
	xorl	%edx, %edx
	divl	%r10d
.LBB1_88:
	testq	%rdx, %rdx
	je	.LBB1_90
.LBB1_86:
	xorl	%ebp, %ebp
.LBB1_4:
	movl	%ebp, %eax
	addq	$2472, %rsp
	popq	%rbx
	popq	%r12
	popq	%r13
	popq	%r14
	popq	%r15
	popq	%rbp
	retq
.LBB1_90:
	testq	%rsi, %rsi
	jne	.LBB1_92
	jmp	.LBB1_94
.LBB1_93:
	xorl	%edx, %edx
	divl	%esi
	movq	%rsi, %rax
	movq	%rdx, %rsi
	testq	%rdx, %rdx
	je	.LBB1_94
.LBB1_92:
	movq	%rax, %rcx
	orq	%rsi, %rcx
	shrq	$32, %rcx
	je	.LBB1_93
	xorl	%edx, %edx
	divq	%rsi
	movq	%rsi, %rax
	movq	%rdx, %rsi
	testq	%rdx, %rdx
	jne	.LBB1_92
.LBB1_94:
	testq	%rax, %rax
	je	.LBB1_123
	movb	$1, %bpl
	cmpq	$1, %rax
	je	.LBB1_4
	jmp	.LBB1_86
.LBB1_98:
	testq	%r15, %r15
	je	.LBB1_86
	movb	$1, 160(%rsp)
	jmp	.LBB1_114
.LBB1_100:
	cmpq	$25, %rbx
	jae	.LBB1_106
.LBB1_101:
	cmpq	$64, %r11
	setae	%dl
	leaq	(%rcx,%rbx), %r8
	cmpq	$65, %r8
	setb	%r9b
	testb	%r9b, %dl
	je	.LBB1_103
	movq	(%rsi,%rdi), %r9
	bswapq	%r9
	shlq	%cl, %r9
	jmp	.LBB1_104
.LBB1_103:
	leaq	7(%r8), %rdx
	movq	%rdx, %r9
	shrq	$3, %r9
	movzwl	(%rsi,%rdi), %r10d
	bswapq	%r10
	shlq	%cl, %r10
	movq	%r11, %r14
	leaq	(%rsi,%rdi), %r11
	movzwl	-2(%r9,%r11), %r9d
	movq	%r14, %r11
	bswapq	%r9
	andl	$56, %edx
	subl	%ecx, %edx
	addb	$48, %dl
	movl	%edx, %ecx
	shrq	%cl, %r9
	orq	%r10, %r9
.LBB1_104:
	movl	%eax, %ecx
	shrq	%cl, %r9
	cmpq	%r9, %r15
	jbe	.LBB1_86
	movb	$1, 160(%rsp,%r9)
	movq	%r8, %rcx
	shrq	$3, %rcx
	addq	%rcx, %rdi
	andl	$7, %r8d
	movq	%r8, %rcx
	decq	%r11
	jne	.LBB1_101
	jmp	.LBB1_114
.LBB1_106:
	cmpq	$64, %r11
	setb	%dl
	leaq	(%rcx,%rbx), %r8
	cmpq	$65, %r8
	setae	%r9b
	orb	%dl, %r9b
	jne	.LBB1_108
	movq	(%rsi,%rdi), %r9
	bswapq	%r9
	shlq	%cl, %r9
	jmp	.LBB1_112
.LBB1_108:
	movq	%r11, %r14
	leaq	7(%r8), %r11
	shrq	$3, %r11
	leaq	(%rsi,%rdi), %rdx
	cmpq	$56, %rbx
	ja	.LBB1_110
	movl	(%rdx), %r10d
	movl	-4(%rdx,%r11), %r9d
	movq	$-4, %rdx
	jmp	.LBB1_111
.LBB1_110:
	movq	(%rdx), %r10
	movq	-8(%rdx,%r11), %r9
	movq	$-8, %rdx
.LBB1_111:
	bswapq	%r10
	shlq	%cl, %r10
	bswapq	%r9
	addl	%r11d, %edx
	shll	$3, %edx
	subl	%ecx, %edx
	movl	%edx, %ecx
	shrq	%cl, %r9
	orq	%r10, %r9
	movq	%r14, %r11
.LBB1_112:
	movl	%eax, %ecx
	shrq	%cl, %r9
	cmpq	%r9, %r15
	jbe	.LBB1_86
	movb	$1, 160(%rsp,%r9)
	movq	%r8, %rcx
	shrq	$3, %rcx
	addq	%rcx, %rdi
	andl	$7, %r8d
	movq	%r8, %rcx
	decq	%r11
	jne	.LBB1_106
.LBB1_114:
	xorl	%eax, %eax
	.p2align	4
.LBB1_115:
	cmpq	%rax, %r15
	sete	%bpl
	je	.LBB1_4
	cmpb	$0, 160(%rsp,%rax)
	leaq	1(%rax), %rax
	jne	.LBB1_115
	jmp	.LBB1_4
.LBB1_123:
	cmpq	$1, %r10
	sete	%bpl
	jmp	.LBB1_4
.LBB1_127:
	ud2
.Lfunc_end1:
	.size	"checking::accepts", .Lfunc_end1-"checking::accepts"

	.section	.rodata.cst16,"aM",@progbits,16
	.p2align	4, 0x0
.LCPI2_0:
	.short	1
	.short	1
	.short	1
	.short	1
	.short	1
	.short	1
	.short	1
	.short	1
.LCPI2_1:
	.short	32768
	.short	32768
	.short	32768
	.short	32768
	.short	32768
	.short	32768
	.short	32768
	.short	32768
.LCPI2_2:
	.zero	4
	.long	4294967295
	.long	4294967295
	.long	4294967295
.LCPI2_3:
	.zero	2
	.short	65535
	.short	65535
	.short	65535
	.short	65535
	.short	65535
	.short	65535
	.short	65535
.LCPI2_4:
	.zero	16,85
.LCPI2_5:
	.zero	16,51
.LCPI2_6:
	.zero	16,15
	.section	".text.section_check::judge","ax",@progbits
	.p2align	4
	.type	"section_check::judge",@function
"section_check::judge":
	pushq	%rbp
	pushq	%r15
	pushq	%r14
	pushq	%r13
	pushq	%r12
	pushq	%rbx
	subq	$16, %rsp
	movq	%rdi, -80(%rsp)
	cmpq	$4, %rdx
	jb	.LBB2_1
	movl	%ecx, %ebx
	movq	%r9, -56(%rsp)
	movq	%rdx, -120(%rsp)
	leaq	-4(%rdx), %rax
	movq	%rax, -96(%rsp)
	movl	$17, %ecx
	subq	%r8, %rcx
	movl	$1, %edi
	movq	%rcx, -8(%rsp)
	shlq	%cl, %rdi
	movl	$1, %r9d
	leaq	8192(%rdi), %rax
	testq	%r8, %r8
	movl	$8192, %edx
	cmovneq	%rax, %rdx
	movq	%rdi, %rax
	leal	-6(%r8), %ecx
	shlq	%cl, %r9
	shrq	%rax
	movq	%r8, 8(%rsp)
	leaq	-8(%r8), %rcx
	movl	$4, %r8d
	movq	%rcx, (%rsp)
	shlq	%cl, %r8
	movq	%r8, -88(%rsp)
	movq	%rax, %rcx
	andq	$-16, %rcx
	movq	%rcx, -64(%rsp)
	movabsq	$9223372036854775792, %rcx
	orq	$12, %rcx
	movq	%rax, -112(%rsp)
	andq	%rax, %rcx
	movq	%rcx, -24(%rsp)
	shlq	$3, %r9
	movq	%r9, -104(%rsp)
	movq	%rdi, -72(%rsp)
	leaq	(%rsi,%rdi), %rax
	addq	$20, %rax
	movq	%rax, -16(%rsp)
	xorl	%ecx, %ecx
	xorl	%r11d, %r11d
	xorl	%ebp, %ebp
	movl	%ebx, -124(%rsp)
.LBB2_3:
	testb	$1, %bl
	je	.LBB2_4
	movq	-120(%rsp), %rax
	jmp	.LBB2_9
	.p2align	4
.LBB2_23:
	testb	%r12b, %r12b
	je	.LBB2_24
.LBB2_32:
	addq	%rbx, %rbp
	addq	$4, %rbp
	addq	%r10, %r11
	leaq	1(%r15), %rcx
	movq	%rax, %rdi
	subq	%rbp, %rdi
	cmpq	$3, %rdi
	jbe	.LBB2_12
.LBB2_9:
	movzwl	(%rsi,%rbp), %r8d
	cmpl	$65407, %r8d
	je	.LBB2_6
	rolw	$8, %r8w
	leaq	(%rsi,%rbp), %r9
	movzwl	%r8w, %r15d
	movzwl	2(%r9), %r13d
	movl	%r13d, %r14d
	rolw	$8, %r14w
	movzwl	%r14w, %edi
	cmpl	$4094, %edi
	ja	.LBB2_35
	leaq	1(%rdi), %r10
	movq	-96(%rsp), %r8
	subq	%rbp, %r8
	leal	(%r10,%r10), %ebx
	cmpq	%rbx, %r8
	jb	.LBB2_12
	movl	$1, %r8d
	cmpl	$32765, %r15d
	ja	.LBB2_103
	cmpq	%r15, %rcx
	ja	.LBB2_103
	testw	%r13w, %r13w
	je	.LBB2_32
	cmpw	$8, %r14w
	jae	.LBB2_18
	movl	$1, %r14d
	movb	$1, %r12b
	jmp	.LBB2_30
	.p2align	4
.LBB2_18:
	cmpw	$16, %r14w
	jae	.LBB2_25
	movb	$1, %r12b
	xorl	%ecx, %ecx
.LBB2_20:
	movl	%edi, %r8d
	andl	$4088, %r8d
	leaq	1(%r8), %r14
	movzbl	%r12b, %r12d
	movdqa	.LCPI2_3(%rip), %xmm0
	pinsrw	$0, %r12d, %xmm0
	leaq	6(%rsi), %r12
	addq	%rbp, %r12
	.p2align	4
.LBB2_21:
	movdqu	-2(%r12,%rcx,2), %xmm1
	movdqu	(%r12,%rcx,2), %xmm2
	movdqa	%xmm2, %xmm3
	psrlw	$8, %xmm3
	psllw	$8, %xmm2
	por	%xmm3, %xmm2
	movdqa	%xmm1, %xmm3
	psrlw	$8, %xmm3
	psllw	$8, %xmm1
	por	%xmm3, %xmm1
	movdqa	.LCPI2_1(%rip), %xmm3
	pxor	%xmm3, %xmm1
	pxor	%xmm3, %xmm2
	pcmpgtw	%xmm1, %xmm2
	pand	%xmm2, %xmm0
	addq	$8, %rcx
	cmpq	%rcx, %r8
	jne	.LBB2_21
	psllw	$7, %xmm0
	pmovmskb	%xmm0, %ecx
	notl	%ecx
	testl	$21845, %ecx
	sete	%r12b
	cmpl	%edi, %r8d
	je	.LBB2_23
	jmp	.LBB2_30
.LBB2_25:
	movl	%edi, %ecx
	andl	$4080, %ecx
	leaq	22(%rsi), %r8
	addq	%rbp, %r8
	leal	(%rdi,%rdi), %r14d
	andl	$8160, %r14d
	movdqa	.LCPI2_0(%rip), %xmm0
	xorl	%r12d, %r12d
	movdqa	%xmm0, %xmm1
	.p2align	4
.LBB2_26:
	movdqu	-18(%r8,%r12), %xmm5
	movdqu	-16(%r8,%r12), %xmm4
	movdqu	-2(%r8,%r12), %xmm3
	movdqu	(%r8,%r12), %xmm2
	movdqa	%xmm4, %xmm6
	psrlw	$8, %xmm6
	psllw	$8, %xmm4
	por	%xmm6, %xmm4
	movdqa	%xmm2, %xmm6
	psrlw	$8, %xmm6
	psllw	$8, %xmm2
	por	%xmm6, %xmm2
	movdqa	%xmm5, %xmm6
	psrlw	$8, %xmm6
	psllw	$8, %xmm5
	por	%xmm6, %xmm5
	movdqa	%xmm3, %xmm6
	psrlw	$8, %xmm6
	psllw	$8, %xmm3
	por	%xmm6, %xmm3
	movdqa	.LCPI2_1(%rip), %xmm6
	pxor	%xmm6, %xmm5
	pxor	%xmm6, %xmm4
	pcmpgtw	%xmm5, %xmm4
	pand	%xmm4, %xmm1
	pxor	%xmm6, %xmm3
	pxor	%xmm6, %xmm2
	pcmpgtw	%xmm3, %xmm2
	pand	%xmm2, %xmm0
	addq	$32, %r12
	cmpq	%r12, %r14
	jne	.LBB2_26
	pand	%xmm1, %xmm0
	psllw	$15, %xmm0
	packsswb	%xmm0, %xmm0
	pmovmskb	%xmm0, %r8d
	cmpb	$-1, %r8b
	sete	%r12b
	cmpl	%edi, %ecx
	je	.LBB2_23
	testb	$8, %dil
	jne	.LBB2_20
	orq	$1, %rcx
	movq	%rcx, %r14
	.p2align	4
.LBB2_30:
	addq	$4, %r9
	.p2align	4
.LBB2_31:
	movzwl	(%r9,%r14,2), %ecx
	rolw	$8, %cx
	movzwl	-2(%r9,%r14,2), %edi
	rolw	$8, %di
	cmpw	%cx, %di
	setb	%cl
	andb	%cl, %r12b
	incq	%r14
	cmpq	%r14, %r10
	jne	.LBB2_31
	jmp	.LBB2_23
	.p2align	4
.LBB2_4:
	movq	-120(%rsp), %rax
	jmp	.LBB2_5
	.p2align	4
.LBB2_61:
	testb	%r12b, %r12b
	je	.LBB2_24
.LBB2_62:
	addq	%rbx, %rbp
	addq	$4, %rbp
	addq	%r9, %r11
	incq	%r15
	movq	%rax, %rdi
	subq	%rbp, %rdi
	movq	%r15, %rcx
	cmpq	$3, %rdi
	jbe	.LBB2_12
.LBB2_5:
	movzwl	(%rsi,%rbp), %r15d
	cmpq	$32767, %r15
	je	.LBB2_6
	leaq	(%rsi,%rbp), %r10
	movzwl	2(%r10), %r14d
	cmpq	$4094, %r14
	ja	.LBB2_34
	leaq	1(%r14), %r9
	movq	-96(%rsp), %rdi
	subq	%rbp, %rdi
	leal	(%r9,%r9), %ebx
	cmpq	%rbx, %rdi
	jb	.LBB2_12
	movzwl	%r15w, %edi
	movl	$1, %r8d
	cmpl	$32765, %edi
	ja	.LBB2_103
	cmpq	%r15, %rcx
	ja	.LBB2_103
	testw	%r14w, %r14w
	je	.LBB2_62
	cmpw	$4, %r14w
	jae	.LBB2_49
	movl	$1, %edi
	movb	$1, %r12b
	jmp	.LBB2_59
	.p2align	4
.LBB2_49:
	cmpw	$16, %r14w
	jae	.LBB2_54
	movb	$1, %r12b
	xorl	%ecx, %ecx
	jmp	.LBB2_51
.LBB2_54:
	movl	%r14d, %ecx
	andl	$4080, %ecx
	leaq	22(%rsi), %rdi
	addq	%rbp, %rdi
	leal	(%r14,%r14), %r8d
	andl	$8160, %r8d
	movdqa	.LCPI2_0(%rip), %xmm0
	xorl	%r12d, %r12d
	movdqa	%xmm0, %xmm1
	.p2align	4
.LBB2_55:
	movdqu	-18(%rdi,%r12), %xmm2
	movdqu	-16(%rdi,%r12), %xmm3
	movdqu	-2(%rdi,%r12), %xmm4
	movdqu	(%rdi,%r12), %xmm5
	movdqa	.LCPI2_1(%rip), %xmm6
	pxor	%xmm6, %xmm2
	pxor	%xmm6, %xmm3
	pcmpgtw	%xmm2, %xmm3
	pand	%xmm3, %xmm1
	pxor	%xmm6, %xmm4
	pxor	%xmm6, %xmm5
	pcmpgtw	%xmm4, %xmm5
	pand	%xmm5, %xmm0
	addq	$32, %r12
	cmpq	%r12, %r8
	jne	.LBB2_55
	pand	%xmm1, %xmm0
	psllw	$15, %xmm0
	packsswb	%xmm0, %xmm0
	pmovmskb	%xmm0, %edi
	cmpb	$-1, %dil
	sete	%r12b
	cmpl	%r14d, %ecx
	je	.LBB2_61
	testb	$12, %r14b
	je	.LBB2_58
.LBB2_51:
	movl	%r14d, %r8d
	andl	$4092, %r8d
	leaq	1(%r8), %rdi
	movzbl	%r12b, %r12d
	movd	%r12d, %xmm1
	movaps	.LCPI2_2(%rip), %xmm0
	movss	%xmm1, %xmm0
	leaq	6(%rsi), %r12
	addq	%rbp, %r12
	.p2align	4
.LBB2_52:
	movq	(%r12,%rcx,2), %xmm1
	movq	-2(%r12,%rcx,2), %xmm2
	movdqa	.LCPI2_1(%rip), %xmm3
	pxor	%xmm3, %xmm2
	pxor	%xmm3, %xmm1
	pcmpgtw	%xmm2, %xmm1
	punpcklwd	%xmm1, %xmm1
	andps	%xmm1, %xmm0
	addq	$4, %rcx
	cmpq	%rcx, %r8
	jne	.LBB2_52
	pslld	$31, %xmm0
	movmskps	%xmm0, %ecx
	xorl	$15, %ecx
	sete	%r12b
	cmpl	%r14d, %r8d
	je	.LBB2_61
.LBB2_59:
	addq	$4, %r10
	.p2align	4
.LBB2_60:
	movzwl	(%r10,%rdi,2), %ecx
	cmpw	%cx, -2(%r10,%rdi,2)
	setb	%cl
	andb	%cl, %r12b
	incq	%rdi
	cmpq	%rdi, %r9
	jne	.LBB2_60
	jmp	.LBB2_61
.LBB2_58:
	orq	$1, %rcx
	movq	%rcx, %rdi
	jmp	.LBB2_59
.LBB2_34:
	movl	%r15d, %r8d
.LBB2_35:
	movzwl	%r14w, %edi
	leaq	1(%rdi), %r9
	cmpw	$-1, %di
	movl	-124(%rsp), %ebx
	je	.LBB2_68
	movq	-96(%rsp), %rdi
	subq	%rbp, %rdi
	cmpq	%rdx, %rdi
	jb	.LBB2_12
	movzwl	%r8w, %edi
	movl	$1, %r8d
	cmpl	$32765, %edi
	ja	.LBB2_103
	cmpq	%r15, %rcx
	ja	.LBB2_103
	leaq	4(%rbp), %r14
	movq	8(%rsp), %rcx
	testq	%rcx, %rcx
	je	.LBB2_40
	cmpq	$0, -112(%rsp)
	je	.LBB2_73
	movq	%rdx, -32(%rsp)
	addq	%rsi, %r14
	cmpq	$7, %rcx
	movq	%r9, -40(%rsp)
	movq	%rsi, -48(%rsp)
	je	.LBB2_78
	cmpq	$9, %rcx
	movq	-104(%rsp), %rbx
	movq	-112(%rsp), %rdx
	jne	.LBB2_80
	movb	$1, %r10b
	xorl	%r12d, %r12d
	movq	-72(%rsp), %rcx
	xorl	%edi, %edi
	.p2align	4
.LBB2_77:
	movzwl	(%r14,%rdi,2), %eax
	rolw	$8, %ax
	movq	%r12, %r8
	movzwl	%ax, %eax
	cmpq	%rax, %r12
	sete	%al
	andb	%al, %r10b
	movdqu	(%r14,%rcx), %xmm6
	movdqu	16(%r14,%rcx), %xmm0
	movdqu	32(%r14,%rcx), %xmm3
	movdqu	48(%r14,%rcx), %xmm4
	movdqa	%xmm3, %xmm1
	psrlw	$1, %xmm1
	movdqa	.LCPI2_4(%rip), %xmm2
	pand	%xmm2, %xmm1
	psubb	%xmm1, %xmm3
	movdqa	.LCPI2_5(%rip), %xmm1
	movdqa	%xmm3, %xmm5
	pand	%xmm1, %xmm5
	psrlw	$2, %xmm3
	pand	%xmm1, %xmm3
	paddb	%xmm5, %xmm3
	movdqa	%xmm3, %xmm7
	psrlw	$4, %xmm7
	paddb	%xmm3, %xmm7
	movdqa	.LCPI2_6(%rip), %xmm3
	pand	%xmm3, %xmm7
	movdqa	%xmm6, %xmm5
	psrlw	$1, %xmm5
	pand	%xmm2, %xmm5
	psubb	%xmm5, %xmm6
	movdqa	%xmm6, %xmm5
	pand	%xmm1, %xmm5
	psrlw	$2, %xmm6
	pand	%xmm1, %xmm6
	paddb	%xmm5, %xmm6
	movdqa	%xmm6, %xmm5
	psrlw	$4, %xmm5
	paddb	%xmm6, %xmm5
	pand	%xmm3, %xmm5
	paddb	%xmm7, %xmm5
	movdqa	%xmm4, %xmm6
	psrlw	$1, %xmm6
	pand	%xmm2, %xmm6
	psubb	%xmm6, %xmm4
	movdqa	%xmm4, %xmm6
	pand	%xmm1, %xmm6
	psrlw	$2, %xmm4
	pand	%xmm1, %xmm4
	paddb	%xmm6, %xmm4
	movdqa	%xmm4, %xmm6
	psrlw	$4, %xmm6
	paddb	%xmm4, %xmm6
	pand	%xmm3, %xmm6
	movdqa	%xmm0, %xmm4
	psrlw	$1, %xmm4
	pand	%xmm2, %xmm4
	psubb	%xmm4, %xmm0
	movdqa	%xmm0, %xmm2
	pand	%xmm1, %xmm2
	psrlw	$2, %xmm0
	pand	%xmm1, %xmm0
	paddb	%xmm2, %xmm0
	movdqa	%xmm0, %xmm1
	psrlw	$4, %xmm1
	paddb	%xmm0, %xmm1
	pand	%xmm3, %xmm1
	paddb	%xmm6, %xmm1
	paddb	%xmm5, %xmm1
	pxor	%xmm0, %xmm0
	psadbw	%xmm1, %xmm0
	pshufd	$238, %xmm0, %xmm1
	paddq	%xmm0, %xmm1
	movq	%xmm1, %r12
	addq	%r8, %r12
	incq	%rdi
	addq	%rbx, %rcx
	cmpq	%rdi, %rdx
	jne	.LBB2_77
	jmp	.LBB2_99
.LBB2_68:
	movzwl	%r8w, %edi
	movl	$1, %r8d
	cmpl	$32765, %edi
	ja	.LBB2_103
	cmpq	%r15, %rcx
	ja	.LBB2_103
	addq	$4, %rbp
	xorl	%ecx, %ecx
	movq	%rbp, %r14
	jmp	.LBB2_71
.LBB2_40:
	leaq	20(%rsi), %rcx
	addq	%rbp, %rcx
	pxor	%xmm1, %xmm1
	xorl	%edi, %edi
	pxor	%xmm2, %xmm2
	pxor	%xmm0, %xmm0
	.p2align	4
.LBB2_41:
	movdqu	-16(%rcx,%rdi,8), %xmm4
	movdqu	(%rcx,%rdi,8), %xmm3
	movdqa	%xmm4, %xmm5
	psrlw	$1, %xmm5
	movdqa	.LCPI2_4(%rip), %xmm6
	pand	%xmm6, %xmm5
	psubb	%xmm5, %xmm4
	movdqa	.LCPI2_5(%rip), %xmm5
	movdqa	%xmm4, %xmm7
	pand	%xmm5, %xmm7
	psrlw	$2, %xmm4
	pand	%xmm5, %xmm4
	paddb	%xmm7, %xmm4
	movdqa	%xmm4, %xmm7
	psrlw	$4, %xmm7
	paddb	%xmm4, %xmm7
	movdqa	.LCPI2_6(%rip), %xmm4
	pand	%xmm4, %xmm7
	psadbw	%xmm1, %xmm7
	paddq	%xmm7, %xmm2
	movdqa	%xmm3, %xmm7
	psrlw	$1, %xmm7
	pand	%xmm6, %xmm7
	psubb	%xmm7, %xmm3
	movdqa	%xmm3, %xmm6
	pand	%xmm5, %xmm6
	psrlw	$2, %xmm3
	pand	%xmm5, %xmm3
	paddb	%xmm6, %xmm3
	movdqa	%xmm3, %xmm5
	psrlw	$4, %xmm5
	paddb	%xmm3, %xmm5
	pand	%xmm4, %xmm5
	psadbw	%xmm1, %xmm5
	paddq	%xmm5, %xmm0
	addq	$4, %rdi
	cmpq	$1024, %rdi
	jne	.LBB2_41
	paddq	%xmm2, %xmm0
	pshufd	$238, %xmm0, %xmm1
	paddq	%xmm0, %xmm1
	movq	%xmm1, %r12
	xorl	%r10d, %r10d
	xorl	%r8d, %r8d
	jmp	.LBB2_100
.LBB2_78:
	movb	$1, %r10b
	xorl	%r9d, %r9d
	movq	-72(%rsp), %rcx
	xorl	%edi, %edi
	.p2align	4
.LBB2_79:
	movzwl	(%r14,%rdi,2), %r8d
	rolw	$8, %r8w
	movzwl	%r8w, %r8d
	cmpq	%r8, %r9
	sete	%r8b
	andb	%r8b, %r10b
	movq	(%r14,%rcx), %rbx
	movq	8(%r14,%rcx), %rax
	movq	%rbx, %r12
	shrq	%r12
	movabsq	$6148914691236517205, %rsi
	andq	%rsi, %r12
	subq	%r12, %rbx
	movabsq	$3689348814741910323, %r13
	movq	%rbx, %r12
	andq	%r13, %r12
	shrq	$2, %rbx
	andq	%r13, %rbx
	addq	%r12, %rbx
	movq	%rbx, %r12
	shrq	$4, %r12
	addq	%rbx, %r12
	movabsq	$1085102592571150095, %rbx
	andq	%rbx, %r12
	movabsq	$72340172838076673, %rdx
	imulq	%rdx, %r12
	shrq	$56, %r12
	movq	%rax, %r8
	shrq	%r8
	andq	%rsi, %r8
	subq	%r8, %rax
	movq	%rax, %r8
	andq	%r13, %r8
	shrq	$2, %rax
	andq	%r13, %rax
	addq	%r8, %rax
	movq	%rax, %r8
	shrq	$4, %r8
	addq	%rax, %r8
	andq	%rbx, %r8
	imulq	%rdx, %r8
	shrq	$56, %r8
	addq	%r9, %r12
	addq	%r8, %r12
	incq	%rdi
	addq	-104(%rsp), %rcx
	movq	%r12, %r9
	cmpq	%rdi, -112(%rsp)
	jne	.LBB2_79
	jmp	.LBB2_99
.LBB2_80:
	cmpq	$61, (%rsp)
	jbe	.LBB2_81
	movq	-8(%rsp), %rax
	cmpq	$3, %rax
	jae	.LBB2_88
	movb	$1, %r10b
	xorl	%edi, %edi
	jmp	.LBB2_87
.LBB2_81:
	movq	-16(%rsp), %rax
	leaq	(%rax,%rbp), %rcx
	movb	$1, %r10b
	xorl	%r12d, %r12d
	xorl	%edi, %edi
	.p2align	4
.LBB2_82:
	movzwl	(%r14,%rdi,2), %r9d
	pxor	%xmm1, %xmm1
	xorl	%r8d, %r8d
	pxor	%xmm2, %xmm2
	pxor	%xmm0, %xmm0
	movq	-88(%rsp), %rax
	.p2align	4
.LBB2_83:
	movdqu	-16(%rcx,%r8,8), %xmm4
	movdqu	(%rcx,%r8,8), %xmm3
	movdqa	%xmm4, %xmm5
	psrlw	$1, %xmm5
	movdqa	.LCPI2_4(%rip), %xmm6
	pand	%xmm6, %xmm5
	psubb	%xmm5, %xmm4
	movdqa	.LCPI2_5(%rip), %xmm5
	movdqa	%xmm4, %xmm7
	pand	%xmm5, %xmm7
	psrlw	$2, %xmm4
	pand	%xmm5, %xmm4
	paddb	%xmm7, %xmm4
	movdqa	%xmm4, %xmm7
	psrlw	$4, %xmm7
	paddb	%xmm4, %xmm7
	movdqa	.LCPI2_6(%rip), %xmm4
	pand	%xmm4, %xmm7
	psadbw	%xmm1, %xmm7
	paddq	%xmm7, %xmm2
	movdqa	%xmm3, %xmm7
	psrlw	$1, %xmm7
	pand	%xmm6, %xmm7
	psubb	%xmm7, %xmm3
	movdqa	%xmm3, %xmm6
	pand	%xmm5, %xmm6
	psrlw	$2, %xmm3
	pand	%xmm5, %xmm3
	paddb	%xmm6, %xmm3
	movdqa	%xmm3, %xmm5
	psrlw	$4, %xmm5
	paddb	%xmm3, %xmm5
	pand	%xmm4, %xmm5
	psadbw	%xmm1, %xmm5
	paddq	%xmm5, %xmm0
	addq	$4, %r8
	cmpq	%r8, %rax
	jne	.LBB2_83
	paddq	%xmm2, %xmm0
	pshufd	$238, %xmm0, %xmm1
	paddq	%xmm0, %xmm1
	movq	%xmm1, %rax
	rolw	$8, %r9w
	movzwl	%r9w, %edx
	cmpq	%rdx, %r12
	sete	%dl
	andb	%dl, %r10b
	addq	%rax, %r12
	incq	%rdi
	addq	%rbx, %rcx
	cmpq	-112(%rsp), %rdi
	jne	.LBB2_82
	jmp	.LBB2_99
.LBB2_88:
	cmpq	$5, %rax
	jae	.LBB2_90
	movb	$1, %r10b
	xorl	%ecx, %ecx
	jmp	.LBB2_94
.LBB2_90:
	leaq	20(%rsi), %rax
	leaq	(%rax,%rbp), %rcx
	movdqa	.LCPI2_0(%rip), %xmm0
	xorl	%edi, %edi
	movdqa	%xmm0, %xmm1
	movq	-64(%rsp), %rax
.LBB2_91:
	movdqu	-16(%rcx,%rdi,2), %xmm2
	movdqu	(%rcx,%rdi,2), %xmm3
	pxor	%xmm4, %xmm4
	pcmpeqw	%xmm4, %xmm2
	pand	%xmm2, %xmm1
	pcmpeqw	%xmm4, %xmm3
	pand	%xmm3, %xmm0
	addq	$16, %rdi
	cmpq	%rdi, %rax
	jne	.LBB2_91
	pand	%xmm1, %xmm0
	psllw	$15, %xmm0
	packsswb	%xmm0, %xmm0
	pmovmskb	%xmm0, %eax
	cmpb	$-1, %al
	movq	-64(%rsp), %rdi
	sete	%r10b
	cmpq	%rdi, %rdx
	je	.LBB2_98
	movq	%rdi, %rcx
	testb	$24, -72(%rsp)
	je	.LBB2_87
.LBB2_94:
	movzbl	%r10b, %eax
	movd	%eax, %xmm1
	movaps	.LCPI2_2(%rip), %xmm0
	movss	%xmm1, %xmm0
	movq	-24(%rsp), %rdi
.LBB2_95:
	movq	(%r14,%rcx,2), %xmm1
	punpcklwd	%xmm1, %xmm1
	pxor	%xmm2, %xmm2
	pcmpeqw	%xmm1, %xmm2
	andps	%xmm2, %xmm0
	addq	$4, %rcx
	cmpq	%rcx, %rdi
	jne	.LBB2_95
	pslld	$31, %xmm0
	movmskps	%xmm0, %eax
	xorl	$15, %eax
	sete	%r10b
	jmp	.LBB2_97
.LBB2_71:
	addq	%rcx, %r14
	addq	%r9, %r11
	incq	%r15
	subq	%r14, %rax
	xorl	%r8d, %r8d
	movq	%r15, %rcx
	movq	%r14, %rbp
	cmpq	$3, %rax
	ja	.LBB2_3
	jmp	.LBB2_104
.LBB2_87:
	cmpw	$0, (%r14,%rdi,2)
	sete	%al
	andb	%al, %r10b
	incq	%rdi
.LBB2_97:
	cmpq	%rdi, %rdx
	jne	.LBB2_87
.LBB2_98:
	xorl	%r12d, %r12d
.LBB2_99:
	xorb	$1, %r10b
	movzbl	%r10b, %r8d
	andl	$1, %r8d
	shll	$2, %r8d
	movq	-120(%rsp), %rax
	movl	-124(%rsp), %ebx
	movq	-32(%rsp), %rdx
	leaq	4(%rbp), %r14
	movq	-40(%rsp), %r9
	movq	-48(%rsp), %rsi
.LBB2_100:
	cmpq	%r9, %r12
	setne	%dil
	testb	$1, %r10b
	jne	.LBB2_102
	movq	%rdx, %rcx
	testb	%dil, %dil
	je	.LBB2_71
.LBB2_102:
	testb	%dil, %dil
	movl	$3, %eax
	cmovneq	%rax, %r8
	jmp	.LBB2_103
.LBB2_1:
	xorl	%r14d, %r14d
	xorl	%r8d, %r8d
	jmp	.LBB2_104
.LBB2_12:
	xorl	%r8d, %r8d
	jmp	.LBB2_103
.LBB2_6:
	movq	%rdx, %rbx
	movq	%rbp, %r14
	movl	-124(%rsp), %edx
	subq	%rbp, %rax
	cmpq	$6, %rax
	jae	.LBB2_63
	xorl	%r8d, %r8d
	jmp	.LBB2_104
.LBB2_24:
	movl	$2, %r8d
.LBB2_103:
	movq	%rbp, %r14
.LBB2_104:
	movq	-80(%rsp), %rax
	movq	$1, (%rax)
	movq	%r8, 8(%rax)
	movq	%r14, 16(%rax)
.LBB2_145:
	addq	$16, %rsp
	popq	%rbx
	popq	%r12
	popq	%r13
	popq	%r14
	popq	%r15
	popq	%rbp
	retq
.LBB2_63:
	movzwl	2(%rsi,%r14), %eax
	movl	%eax, %edi
	rolw	$8, %di
	testb	$1, %dl
	cmovel	%eax, %edi
	movl	$5, %r8d
	testw	%di, %di
	jne	.LBB2_104
	movzwl	4(%rsi,%r14), %eax
	movl	%eax, %edi
	rolw	$8, %di
	testb	$1, %dl
	cmovel	%eax, %edi
	cmpw	$-1, %di
	jne	.LBB2_104
	leaq	6(%r14), %r15
	incq	%rcx
	cmpq	$2, %rcx
	jne	.LBB2_107
	movl	$1, %r12d
	cmpq	$0, -56(%rsp)
	movq	-80(%rsp), %r9
	je	.LBB2_105
	movl	$6, %r13d
	xorl	%ecx, %ecx
	jmp	.LBB2_144
.LBB2_107:
	movl	$6, %r13d
	movl	$1, %r12d
	cmpq	%rcx, -56(%rsp)
	movq	-80(%rsp), %r9
	jne	.LBB2_108
	testq	%r14, %r14
	je	.LBB2_110
	movq	-120(%rsp), %rax
	subq	$8, %rax
	movq	%r15, -88(%rsp)
	jae	.LBB2_113
	xorl	%r12d, %r12d
	xorl	%r15d, %r15d
.LBB2_118:
	addq	%r15, %r12
	movq	-88(%rsp), %r15
	leaq	(%r15,%r12,8), %r15
	xorl	%ecx, %ecx
	movl	$1, %r12d
	movl	$6, %r13d
	jmp	.LBB2_144
.LBB2_108:
	xorl	%ecx, %ecx
	jmp	.LBB2_144
.LBB2_105:
	cmpq	-120(%rsp), %r15
	jne	.LBB2_106
.LBB2_143:
	movq	%r11, %rcx
	andq	$-256, %rcx
	xorl	%r12d, %r12d
	movq	%r11, %r13
	xorl	%r15d, %r15d
	jmp	.LBB2_144
.LBB2_73:
	movl	$3, %r8d
	jmp	.LBB2_103
.LBB2_110:
	movq	-120(%rsp), %rdx
	leaq	-8(%rdx), %rax
	xorl	%edi, %edi
	xorl	%r14d, %r14d
	xorl	%r10d, %r10d
	jmp	.LBB2_136
.LBB2_113:
	testb	$1, -124(%rsp)
	movq	%r14, -96(%rsp)
	leaq	10(%r14,%rsi), %rcx
	je	.LBB2_114
	movq	%rcx, -112(%rsp)
	leaq	6(%r14), %rcx
	movq	%rcx, -104(%rsp)
	xorl	%r10d, %r10d
	xorl	%r14d, %r14d
	xorl	%r15d, %r15d
	jmp	.LBB2_120
.LBB2_121:
	xorl	%r12d, %r12d
.LBB2_122:
	cmpq	%rcx, %r12
	jb	.LBB2_118
.LBB2_128:
	movl	%r13d, %ecx
	rolw	$8, %cx
	movzwl	%cx, %ecx
	leaq	1(%rcx), %rdx
	addl	%edx, %edx
	xorl	%r8d, %r8d
	cmpw	$-1, %r13w
	cmovneq	%rbx, %r8
	cmpl	$4095, %ecx
	cmovaeq	%r8, %rdx
	addq	%rdx, %r10
	addq	$4, %r10
	addq	%rcx, %r14
	incq	%r14
	movq	%rdi, %r15
	cmpq	-96(%rsp), %r10
	jae	.LBB2_135
.LBB2_120:
	movzwl	(%rsi,%r10), %ecx
	movzwl	2(%rsi,%r10), %r13d
	rolw	$8, %cx
	movzwl	%cx, %edi
	incq	%rdi
	movq	%rdi, %rcx
	subq	%r15, %rcx
	je	.LBB2_121
	movq	-112(%rsp), %rdx
	leaq	(%rdx,%r15,8), %rbp
	movq	-104(%rsp), %rdx
	leaq	(%rdx,%r15,8), %r8
	xorl	%r12d, %r12d
.LBB2_124:
	cmpq	%r8, %rax
	jb	.LBB2_122
	movl	-4(%rbp,%r12,8), %edx
	bswapl	%edx
	cmpq	%rdx, %r14
	jne	.LBB2_122
	movl	(%rbp,%r12,8), %edx
	bswapl	%edx
	cmpq	%rdx, %r10
	jne	.LBB2_122
	incq	%r12
	addq	$8, %r8
	cmpq	%r12, %rcx
	jne	.LBB2_124
	jmp	.LBB2_128
.LBB2_114:
	movq	%rcx, -112(%rsp)
	leaq	6(%r14), %rcx
	movq	%rcx, -104(%rsp)
	xorl	%r10d, %r10d
	xorl	%r14d, %r14d
	xorl	%r15d, %r15d
	jmp	.LBB2_115
.LBB2_116:
	xorl	%r12d, %r12d
.LBB2_117:
	cmpq	%rbp, %r12
	jb	.LBB2_118
.LBB2_134:
	leaq	1(%r13), %rcx
	addl	%ecx, %ecx
	xorl	%edx, %edx
	cmpq	$65535, %r13
	cmovneq	%rbx, %rdx
	cmpl	$4095, %r13d
	cmovaeq	%rdx, %rcx
	addq	%rcx, %r10
	addq	$4, %r10
	addq	%r13, %r14
	incq	%r14
	movq	%rdi, %r15
	cmpq	-96(%rsp), %r10
	jae	.LBB2_135
.LBB2_115:
	movzwl	(%rsi,%r10), %edi
	movzwl	2(%rsi,%r10), %r13d
	incq	%rdi
	movq	%rdi, %rbp
	subq	%r15, %rbp
	je	.LBB2_116
	movq	-112(%rsp), %rcx
	leaq	(%rcx,%r15,8), %r8
	movq	-104(%rsp), %rcx
	leaq	(%rcx,%r15,8), %rcx
	xorl	%r12d, %r12d
.LBB2_130:
	cmpq	%rcx, %rax
	jb	.LBB2_117
	movl	-4(%r8,%r12,8), %edx
	cmpq	%rdx, %r14
	jne	.LBB2_117
	movl	(%r8,%r12,8), %edx
	cmpq	%rdx, %r10
	jne	.LBB2_117
	incq	%r12
	addq	$8, %rcx
	cmpq	%r12, %rbp
	jne	.LBB2_130
	jmp	.LBB2_134
.LBB2_135:
	movq	-120(%rsp), %rdx
	movq	-88(%rsp), %r15
	movl	$1, %r12d
	movl	$6, %r13d
.LBB2_136:
	leaq	(%r15,%rdi,8), %r15
	xorl	%ecx, %ecx
	cmpq	$8, %rdx
	jb	.LBB2_137
	cmpq	%r15, %rax
	movq	-80(%rsp), %r9
	jb	.LBB2_144
	movq	%r9, %rdi
	movl	(%rsi,%r15), %ecx
	movl	%ecx, %edx
	bswapl	%edx
	movl	-124(%rsp), %r8d
	testb	$1, %r8b
	cmovel	%ecx, %edx
	cmpq	%rdx, %r14
	jne	.LBB2_140
	movl	4(%rsi,%r15), %ecx
	movl	%ecx, %edx
	bswapl	%edx
	testb	$1, %r8b
	cmovel	%ecx, %edx
	cmpq	%rdx, %r10
	jne	.LBB2_140
	addq	$8, %r15
	cmpq	-120(%rsp), %r15
	movq	%rdi, %r9
	je	.LBB2_143
.LBB2_106:
	movl	$7, %r13d
	xorl	%ecx, %ecx
	jmp	.LBB2_144
.LBB2_140:
	xorl	%ecx, %ecx
	movq	%rdi, %r9
	jmp	.LBB2_144
.LBB2_137:
	movq	-80(%rsp), %r9
.LBB2_144:
	movq	%r12, (%r9)
	movzbl	%r13b, %edx
	orq	%rcx, %rdx
	movq	%rdx, 8(%r9)
	movq	%r15, 16(%r9)
	jmp	.LBB2_145
.Lfunc_end2:
	.size	"section_check::judge", .Lfunc_end2-"section_check::judge"

	.section	".text.scaled_check::values_ok","ax",@progbits
	.p2align	4
	.type	"scaled_check::values_ok",@function
"scaled_check::values_ok":
	pushq	%rbp
	pushq	%r15
	pushq	%r14
	pushq	%r13
	pushq	%r12
	pushq	%rbx
	subq	$24, %rsp
	movq	%rcx, %r10
	movq	(%r8), %r14
	movq	8(%r8), %r9
	movq	16(%r8), %r8
	testq	%r14, %r14
	je	.LBB3_5
	testq	%rsi, %rsi
	je	.LBB3_6
	leaq	(,%rsi,8), %rcx
	movq	%r14, %rax
	imulq	%r10, %rax
	subq	%rax, %rcx
	movzbl	-1(%rdi,%rsi), %esi
	cmpb	$1, %dl
	jne	.LBB3_8
	movb	$8, %al
	subb	%cl, %al
	movl	%eax, %ecx
	shrq	%cl, %rsi
	testq	%rsi, %rsi
	jne	.LBB3_4
.LBB3_6:
	leaq	-1(%r14), %rcx
	testb	%dl, %dl
	sete	%dl
	cmpq	$3, %r14
	setb	%al
	movl	%edx, -124(%rsp)
	orb	%dl, %al
	je	.LBB3_10
	movq	%rcx, %rax
	jmp	.LBB3_17
.LBB3_5:
	cmpq	$1, %r8
	sete	%cl
	testq	%r10, %r10
	setne	%dl
	testq	%r9, %r9
	sete	%al
	orb	%dl, %al
	andb	%cl, %al
	jmp	.LBB3_120
.LBB3_8:
	movq	$-1, %rax
	shlq	%cl, %rax
	notl	%eax
	testl	%eax, %esi
	jne	.LBB3_4
	leaq	-1(%r14), %rcx
	movb	$1, %al
	movl	%eax, -124(%rsp)
	movq	%rcx, %rax
	jmp	.LBB3_17
.LBB3_10:
	cmpq	$5, %r14
	jae	.LBB3_12
	movl	$2, %eax
	jmp	.LBB3_16
.LBB3_12:
	cmpq	$32, %r14
	ja	.LBB3_15
	leaq	-4(%r14), %rax
	jmp	.LBB3_16
.LBB3_15:
	leaq	-8(%r14), %rax
.LBB3_16:
	movl	$0, -124(%rsp)
.LBB3_17:
	movl	$2, %esi
	shlq	%cl, %rsi
	decq	%rsi
	movl	$1, %edx
	movl	%eax, %ecx
	shlq	%cl, %rdx
	movq	%rdx, -48(%rsp)
	movl	%r9d, %eax
	movq	%r9, %rcx
	shrq	%rcx
	movabsq	$-9223372036854775808, %rdx
	orq	%rcx, %rdx
	notq	%r9
	shrq	%r9
	testb	$1, %al
	cmoveq	%rdx, %r9
	notq	%r9
	cmpq	$2, %r8
	jb	.LBB3_20
	movq	%rsi, %rax
	orq	%r8, %rax
	shrq	$32, %rax
	je	.LBB3_20
	movq	$0, -64(%rsp)
	movq	%r9, %rax
	xorl	%edx, %edx
	divq	%r8
	movq	%rsi, %rdx
	cmpq	%rax, %rsi
	jbe	.LBB3_109
	testq	%r10, %r10
	jne	.LBB3_23
	jmp	.LBB3_4
.LBB3_20:
	movq	%rsi, %rdx
	movq	%rsi, %rax
	imulq	%r8, %rax
	cmpq	%r9, %rax
	jbe	.LBB3_109
	movq	$0, -64(%rsp)
	testq	%r10, %r10
	jne	.LBB3_23
	jmp	.LBB3_4
.LBB3_109:
	movb	$1, %al
	movq	%rax, -64(%rsp)
	testq	%r10, %r10
	je	.LBB3_4
.LBB3_23:
	movq	%r8, (%rsp)
	movq	%r9, -32(%rsp)
	movl	$64, %r12d
	subq	%r14, %r12
	xorl	%r8d, %r8d
	movq	%r10, %rax
	subq	$64, %rax
	cmovbq	%r8, %rax
	movq	%rax, 8(%rsp)
	movq	%r14, %rcx
	negq	%rcx
	movq	$-1, %rax
	shrq	%cl, %rax
	movq	%rax, -40(%rsp)
	movq	%r14, %rax
	shlq	$5, %rax
	movq	%rax, -24(%rsp)
	xorl	%esi, %esi
	xorl	%ecx, %ecx
	movq	%r10, -88(%rsp)
	movq	%r14, 16(%rsp)
	movq	%rdx, %rax
	movq	%r12, -8(%rsp)
	movq	%rdi, -16(%rsp)
	jmp	.LBB3_26
	.p2align	4
.LBB3_24:
	movq	%r8, %rax
.LBB3_25:
	movq	%r11, %r8
	movq	%rbp, %rsi
	cmpq	%r10, %r11
	jae	.LBB3_111
.LBB3_26:
	movq	%rax, %r9
	movq	%r10, %rax
	subq	%r8, %rax
	cmpq	$32, %rax
	movl	$32, %edx
	cmovbq	%rax, %rdx
	movq	%rdx, -104(%rsp)
	movq	%rcx, %r13
	movabsq	$-4294967296, %rcx
	leaq	(%rsi,%rcx), %rax
	addq	$2, %rcx
	movq	%rcx, -80(%rsp)
	movq	%r12, %r10
	cmpq	%rcx, %rax
	jae	.LBB3_28
	movq	$0, -112(%rsp)
	jmp	.LBB3_29
	.p2align	4
.LBB3_28:
	movabsq	$4294967296, %rax
	xorl	%edx, %edx
	divq	%rsi
	incq	%rax
	movq	%rax, -112(%rsp)
.LBB3_29:
	movq	-104(%rsp), %rax
	leaq	(%rax,%r8), %r11
	movq	%r9, %rax
	movq	%r13, %rcx
	movq	%rsi, %rbp
	movq	%r8, -120(%rsp)
	cmpq	%r11, %r8
	jae	.LBB3_64
	movq	-120(%rsp), %rbx
	movq	%rsi, %rbp
	movq	%r13, %rcx
	movq	%r9, %rax
	movq	%r13, -96(%rsp)
	movq	%rsi, -72(%rsp)
	jmp	.LBB3_32
	.p2align	4
.LBB3_31:
	incq	%rbx
	cmpq	%r11, %rbx
	je	.LBB3_64
.LBB3_32:
	movq	%rax, %r12
	movq	%rcx, %r15
	movq	%r9, %r13
	movq	%r10, %r9
	movq	%rbx, %rcx
	imulq	%r14, %rcx
	movq	%rcx, %r8
	shrq	$3, %r8
	andl	$7, %ecx
	movq	-88(%rsp), %rax
	subq	%rbx, %rax
	cmpq	$64, %rax
	setb	%dl
	leaq	(%rcx,%r14), %rax
	cmpq	$65, %rax
	setae	%r10b
	orb	%dl, %r10b
	jne	.LBB3_35
	movq	(%rdi,%r8), %r8
	cmpb	$0, -124(%rsp)
	je	.LBB3_37
	bswapq	%r8
	jmp	.LBB3_38
	.p2align	4
.LBB3_35:
	movq	%rbp, %r9
	leaq	7(%rax), %rdx
	shrq	$3, %rdx
	addq	%rdi, %r8
	cmpq	$8, %r14
	ja	.LBB3_39
	movzbl	(%r8), %r10d
	movzbl	-1(%r8,%rdx), %r8d
	movl	$1, %ebp
	cmpb	$0, -124(%rsp)
	je	.LBB3_43
.LBB3_45:
	bswapq	%r10
	shlq	%cl, %r10
	bswapq	%r8
	subl	%ebp, %edx
	shll	$3, %edx
	subl	%ecx, %edx
	movl	%edx, %ecx
	shrq	%cl, %r8
	orq	%r10, %r8
	jmp	.LBB3_46
	.p2align	4
.LBB3_37:
	negb	%al
	movl	%eax, %ecx
.LBB3_38:
	shlq	%cl, %r8
	movq	%r9, %rcx
	jmp	.LBB3_47
	.p2align	4
.LBB3_39:
	cmpq	$24, %r14
	ja	.LBB3_41
	movzwl	(%r8), %r10d
	movzwl	-2(%r8,%rdx), %r8d
	movl	$2, %ebp
	cmpb	$0, -124(%rsp)
	jne	.LBB3_45
.LBB3_43:
	subl	%ebp, %edx
	shll	$3, %edx
	movl	%edx, %ecx
	shlq	%cl, %r8
	orq	%r10, %r8
	negb	%al
	movl	%eax, %ecx
	shlq	%cl, %r8
.LBB3_46:
	movq	%r9, %rbp
	movq	-8(%rsp), %rcx
	movq	-120(%rsp), %rax
	movq	-104(%rsp), %rdx
	leaq	(%rdx,%rax), %r11
	movq	-16(%rsp), %rdi
.LBB3_47:
	movq	%rcx, %r10
	shrq	%cl, %r8
	movl	$1, %ecx
	cmpq	$1, %rbp
	movq	-72(%rsp), %rsi
	movq	%r13, %r9
	movq	-96(%rsp), %r13
	movq	16(%rsp), %r14
	je	.LBB3_54
	movq	%r8, %rax
	shrq	$32, %rax
	jne	.LBB3_50
	movq	%r8, %rax
	imulq	-112(%rsp), %rax
	shrq	$32, %rax
	imulq	%rbp, %rax
	cmpq	%r8, %rax
	je	.LBB3_59
.LBB3_50:
	movq	%r8, %rax
	movq	%rbp, %rdx
	movq	%r8, %rcx
	testq	%rbp, %rbp
	jne	.LBB3_52
	jmp	.LBB3_54
	.p2align	4
.LBB3_53:
	xorl	%edx, %edx
	divl	%ecx
	movq	%rcx, %rax
	testq	%rdx, %rdx
	je	.LBB3_54
.LBB3_52:
	movq	%rdx, %rcx
	movq	%rax, %rdx
	orq	%rcx, %rdx
	shrq	$32, %rdx
	je	.LBB3_53
	xorl	%edx, %edx
	divq	%rcx
	movq	%rcx, %rax
	testq	%rdx, %rdx
	jne	.LBB3_52
	.p2align	4
.LBB3_54:
	cmpq	%rbp, %rcx
	je	.LBB3_59
	movabsq	$-4294967296, %rax
	addq	%rcx, %rax
	cmpq	-80(%rsp), %rax
	jae	.LBB3_57
	movq	$0, -112(%rsp)
	jmp	.LBB3_58
	.p2align	4
.LBB3_57:
	movabsq	$4294967296, %rax
	xorl	%edx, %edx
	divq	%rcx
	incq	%rax
	movq	%rax, -112(%rsp)
.LBB3_58:
	movq	%rcx, %rbp
.LBB3_59:
	movq	%r12, %rax
	cmpq	%r12, %r8
	cmovbq	%r8, %rax
	movq	%r15, %rcx
	cmpq	%r15, %r8
	cmovaq	%r8, %rcx
	cmpb	$0, -64(%rsp)
	je	.LBB3_31
	testq	%rax, %rax
	jne	.LBB3_31
	cmpq	%rcx, -48(%rsp)
	ja	.LBB3_31
	cmpq	$1, %rbp
	jne	.LBB3_31
	jmp	.LBB3_63
.LBB3_41:
	cmpq	$56, %r14
	ja	.LBB3_44
	movl	(%r8), %r10d
	movl	-4(%r8,%rdx), %r8d
	movl	$4, %ebp
	cmpb	$0, -124(%rsp)
	jne	.LBB3_45
	jmp	.LBB3_43
.LBB3_44:
	movq	(%r8), %r10
	movq	-8(%r8,%rdx), %r8
	movl	$8, %ebp
	cmpb	$0, -124(%rsp)
	je	.LBB3_43
	jmp	.LBB3_45
	.p2align	4
.LBB3_64:
	cmpb	$0, -64(%rsp)
	movq	-40(%rsp), %rdx
	movq	%r10, %r12
	movq	-88(%rsp), %r10
	movq	-120(%rsp), %rbx
	je	.LBB3_68
	testq	%rax, %rax
	je	.LBB3_66
	jmp	.LBB3_68
.LBB3_63:
	xorl	%eax, %eax
	movl	$1, %ebp
	movq	-40(%rsp), %rdx
	movq	%r10, %r12
	movq	-88(%rsp), %r10
	movq	-120(%rsp), %rbx
	testq	%rax, %rax
	jne	.LBB3_68
.LBB3_66:
	cmpq	%rcx, -48(%rsp)
	ja	.LBB3_68
	cmpq	$1, %rbp
	je	.LBB3_119
.LBB3_68:
	cmpq	$57, %r14
	ja	.LBB3_25
	cmpq	%rax, %r9
	jne	.LBB3_25
	cmpq	%rcx, %r13
	jne	.LBB3_25
	cmpq	%rbp, %rsi
	jne	.LBB3_25
	subq	%r9, %r13
	jb	.LBB3_25
	movq	%rax, %r8
	movq	%rsi, %rax
	shrq	$32, %rax
	jne	.LBB3_24
	testq	%r13, %r13
	js	.LBB3_24
	movq	8(%rsp), %r15
	cmpq	%r15, %r11
	cmovaq	%r11, %r15
	cmpq	$1, %rsi
	movq	%r8, -120(%rsp)
	movq	%rcx, -112(%rsp)
	movq	%rbp, -80(%rsp)
	movq	%r15, -56(%rsp)
	jne	.LBB3_85
	movq	%r15, %rax
	subq	%r11, %rax
	cmpb	$0, -124(%rsp)
	je	.LBB3_99
	cmpq	$32, %rax
	jb	.LBB3_24
	movq	-104(%rsp), %rax
	addq	%rax, %rbx
	incq	%rbx
	imulq	%r14, %rbx
	movq	%r11, %rdx
	movq	%r8, %rax
	jmp	.LBB3_80
	.p2align	4
.LBB3_79:
	movq	%r15, %rcx
	subq	%rdx, %rcx
	addq	-24(%rsp), %rbx
	movq	%rdx, %r11
	cmpq	$31, %rcx
	movq	-112(%rsp), %rcx
	jbe	.LBB3_25
.LBB3_80:
	subq	$-32, %rdx
	jae	.LBB3_79
	movq	%rdx, -104(%rsp)
	movq	%r11, -96(%rsp)
	imulq	%r14, %r11
	movl	$32, %r8d
	xorl	%r10d, %r10d
	movq	%rbx, -72(%rsp)
	leaq	(%r14,%r14), %rax
	.p2align	4
.LBB3_82:
	movq	%r11, %rcx
	shrq	$3, %rcx
	movq	(%rdi,%rcx), %rbp
	bswapq	%rbp
	movl	%r11d, %ecx
	andb	$7, %cl
	shlq	%cl, %rbp
	movl	%r12d, %ecx
	shrq	%cl, %rbp
	subq	%r9, %rbp
	movq	%r13, %r15
	subq	%rbp, %r15
	orq	%r10, %r15
	movq	%rbx, %rcx
	shrq	$3, %rcx
	movq	(%rdi,%rcx), %rdx
	bswapq	%rdx
	addq	%r14, %r11
	movl	%ebx, %ecx
	andb	$7, %cl
	shlq	%cl, %rdx
	movl	%r12d, %ecx
	shrq	%cl, %rdx
	subq	%r9, %rdx
	movq	%r13, %r10
	subq	%rdx, %r10
	orq	%rbp, %r10
	orq	%r15, %r10
	orq	%rdx, %r10
	addq	%r14, %r11
	addq	%rax, %rbx
	addq	$-2, %r8
	jne	.LBB3_82
	testq	%r10, %r10
	movq	-120(%rsp), %rax
	movq	-80(%rsp), %rbp
	movq	-96(%rsp), %r11
	movq	-88(%rsp), %r10
	movq	-112(%rsp), %rcx
	movq	-56(%rsp), %r15
	movq	-72(%rsp), %rbx
	movq	-104(%rsp), %rdx
	jns	.LBB3_79
	jmp	.LBB3_25
.LBB3_85:
	movq	%r8, %rax
	movq	%r11, %rdx
	.p2align	4
.LBB3_86:
	movq	%rax, %r8
	movq	%rdx, %r11
	movq	%r15, %rax
	subq	%rdx, %rax
	cmpq	$32, %rax
	jb	.LBB3_24
	cmpq	$2, %rsi
	jae	.LBB3_90
	xorl	%eax, %eax
	movq	%r11, %rdx
	subq	$-32, %rdx
	movq	%r11, -96(%rsp)
	jb	.LBB3_91
.LBB3_89:
	xorl	%ebx, %ebx
	xorl	%ecx, %ecx
	jmp	.LBB3_96
	.p2align	4
.LBB3_90:
	movabsq	$4294967296, %rax
	xorl	%edx, %edx
	divq	%rsi
	incq	%rax
	movq	%r11, %rdx
	subq	$-32, %rdx
	movq	%r11, -96(%rsp)
	jae	.LBB3_89
.LBB3_91:
	movq	%r11, %r8
	imulq	%r14, %r8
	cmpb	$0, -124(%rsp)
	je	.LBB3_94
	movl	$32, %r10d
	xorl	%ebp, %ebp
	xorl	%ebx, %ebx
	.p2align	4
.LBB3_93:
	movq	%r8, %rcx
	shrq	$3, %rcx
	movq	(%rdi,%rcx), %r15
	bswapq	%r15
	movl	%r8d, %ecx
	andb	$7, %cl
	shlq	%cl, %r15
	movl	%r12d, %ecx
	shrq	%cl, %r15
	movq	%r15, %rcx
	subq	%r9, %rcx
	movq	%r13, %r11
	subq	%rcx, %r11
	orq	%rbp, %rcx
	orq	%r11, %rcx
	movl	%r15d, %r11d
	imulq	%rax, %r11
	shrq	$32, %r11
	imulq	%rsi, %r11
	subq	%r11, %r15
	orq	%r15, %rbx
	addq	%r14, %r8
	movq	%rcx, %rbp
	decq	%r10
	jne	.LBB3_93
	jmp	.LBB3_96
	.p2align	4
.LBB3_94:
	movl	$32, %r10d
	xorl	%ebp, %ebp
	xorl	%ebx, %ebx
	.p2align	4
.LBB3_95:
	movq	%r8, %rcx
	shrq	$3, %rcx
	movq	(%rdi,%rcx), %r11
	movl	%r8d, %ecx
	andb	$7, %cl
	shrq	%cl, %r11
	andq	-40(%rsp), %r11
	movq	%r11, %rcx
	subq	%r9, %rcx
	movq	%r13, %r15
	subq	%rcx, %r15
	orq	%rbp, %rcx
	orq	%r15, %rcx
	movl	%r11d, %r15d
	imulq	%rax, %r15
	shrq	$32, %r15
	imulq	%rsi, %r15
	subq	%r15, %r11
	orq	%r11, %rbx
	addq	%r14, %r8
	movq	%rcx, %rbp
	decq	%r10
	jne	.LBB3_95
.LBB3_96:
	testq	%rcx, %rcx
	js	.LBB3_108
	testq	%rbx, %rbx
	movq	-88(%rsp), %r10
	movq	-120(%rsp), %rax
	movq	-112(%rsp), %rcx
	movq	-80(%rsp), %rbp
	movq	-96(%rsp), %r11
	movq	-56(%rsp), %r15
	je	.LBB3_86
	jmp	.LBB3_25
.LBB3_99:
	cmpq	$32, %rax
	jb	.LBB3_24
	movq	-104(%rsp), %rax
	addq	%rax, %rbx
	incq	%rbx
	imulq	%r14, %rbx
	movq	%r8, %rax
	movq	%r11, %r8
	jmp	.LBB3_102
	.p2align	4
.LBB3_101:
	movq	%rax, %rsi
	movq	%rcx, %rax
	movq	%r15, %rcx
	subq	%r8, %rcx
	addq	-24(%rsp), %rbx
	movq	%r8, %r11
	cmpq	$31, %rcx
	movq	%rax, %rcx
	movq	%rsi, %rax
	jbe	.LBB3_25
.LBB3_102:
	subq	$-32, %r8
	jae	.LBB3_101
	movq	%r8, -104(%rsp)
	movq	%r11, -96(%rsp)
	movq	%r11, %rsi
	imulq	%r14, %rsi
	movq	%rdx, %r11
	movl	$32, %r8d
	xorl	%r10d, %r10d
	movq	%rbx, -72(%rsp)
	leaq	(%r14,%r14), %rax
	.p2align	4
.LBB3_104:
	movq	%rsi, %rcx
	shrq	$3, %rcx
	movq	(%rdi,%rcx), %rbp
	movl	%esi, %ecx
	andb	$7, %cl
	shrq	%cl, %rbp
	andq	%r11, %rbp
	subq	%r9, %rbp
	movq	%r13, %r15
	subq	%rbp, %r15
	movq	%rbx, %rcx
	shrq	$3, %rcx
	movq	(%rdi,%rcx), %rdx
	movl	%ebx, %ecx
	andb	$7, %cl
	shrq	%cl, %rdx
	orq	%r10, %r15
	addq	%r14, %rsi
	andq	%r11, %rdx
	subq	%r9, %rdx
	movq	%r13, %r10
	subq	%rdx, %r10
	orq	%rbp, %r10
	orq	%r15, %r10
	orq	%rdx, %r10
	addq	%r14, %rsi
	addq	%rax, %rbx
	addq	$-2, %r8
	jne	.LBB3_104
	testq	%r10, %r10
	movq	-120(%rsp), %rax
	movq	%r11, %rdx
	movq	-112(%rsp), %rcx
	movq	-80(%rsp), %rbp
	movq	-96(%rsp), %r11
	movq	-88(%rsp), %r10
	movq	-56(%rsp), %r15
	movq	-72(%rsp), %rbx
	movq	-104(%rsp), %r8
	jns	.LBB3_101
	jmp	.LBB3_25
.LBB3_108:
	movq	-88(%rsp), %r10
	movq	-120(%rsp), %rax
	movq	-112(%rsp), %rcx
	movq	-80(%rsp), %rbp
	movq	-96(%rsp), %r11
	jmp	.LBB3_25
.LBB3_111:
	movq	%rax, %rdx
	xorl	%eax, %eax
	testq	%rdx, %rdx
	jne	.LBB3_120
	cmpq	%rcx, -48(%rsp)
	ja	.LBB3_120
	cmpq	$1, %rbp
	jne	.LBB3_120
	movq	%rcx, %rsi
	movq	(%rsp), %rcx
	cmpq	$2, %rcx
	jb	.LBB3_117
	movq	%rsi, %rax
	orq	%rcx, %rax
	shrq	$32, %rax
	je	.LBB3_117
	movq	-32(%rsp), %rax
	xorl	%edx, %edx
	divq	%rcx
	movq	%rax, %rcx
	xorl	%eax, %eax
	cmpq	%rcx, %rsi
	jbe	.LBB3_119
	jmp	.LBB3_120
.LBB3_117:
	imulq	%rcx, %rsi
	cmpq	-32(%rsp), %rsi
	jbe	.LBB3_119
.LBB3_4:
	xorl	%eax, %eax
	jmp	.LBB3_120
.LBB3_119:
	movb	$1, %al
.LBB3_120:
	addq	$24, %rsp
	popq	%rbx
	popq	%r12
	popq	%r13
	popq	%r14
	popq	%r15
	popq	%rbp
	retq
.Lfunc_end3:
	.size	"scaled_check::values_ok", .Lfunc_end3-"scaled_check::values_ok"

	.section	".text.table_values::saves","ax",@progbits
	.p2align	4
	.type	"table_values::saves",@function
"table_values::saves":
	pushq	%r15
	pushq	%r14
	pushq	%r12
	pushq	%rbx
	subq	$24, %rsp
	movq	%rdx, %rbx
	movq	%rsi, %rdx
	movq	%rdi, %rsi
	leaq	-1(%rdx), %rax
	movl	$127, %ecx
	bsrq	%rax, %rcx
	xorq	$-64, %rcx
	addq	$65, %rcx
	imulq	%rbx, %rcx
	addq	$7, %rcx
	shrq	$3, %rcx
	leaq	(%rcx,%rdx,8), %r14
	movl	$1, %r15d
	movl	$1, %r12d
	cmpq	$128, %rdx
	jb	.LBB4_3
	movq	%rdx, %rax
	movq	%rdx, %rcx
	.p2align	4
.LBB4_2:
	shrq	$7, %rcx
	incq	%r12
	cmpq	$16383, %rax
	movq	%rcx, %rax
	ja	.LBB4_2
.LBB4_3:
	cmpq	$128, %r14
	jb	.LBB4_6
	movl	$1, %r15d
	movq	%r14, %rax
	movq	%r14, %rcx
	.p2align	4
.LBB4_5:
	shrq	$7, %rcx
	incq	%r15
	cmpq	$16383, %rax
	movq	%rcx, %rax
	ja	.LBB4_5
.LBB4_6:
	xorps	%xmm0, %xmm0
	movaps	%xmm0, (%rsp)
	movq	$0, 16(%rsp)
	movq	%rsp, %rdi
	callq	"scaling::scale_of"
	movl	$127, %edx
	bsrq	16(%rsp), %rdx
	xorq	$-64, %rdx
	addq	$65, %rdx
	movq	(%rsp), %rdi
	movq	8(%rsp), %rsi
	imulq	%rbx, %rdx
	movl	$1, %eax
	movl	$1, %ecx
	cmpq	$128, %rdi
	jb	.LBB4_9
	movq	%rdi, %r8
	.p2align	4
.LBB4_8:
	shrq	$7, %r8
	incq	%rcx
	cmpq	$16383, %rdi
	movq	%r8, %rdi
	ja	.LBB4_8
.LBB4_9:
	addq	$7, %rdx
	cmpq	$128, %rsi
	jb	.LBB4_12
	movl	$1, %eax
	movq	%rsi, %rdi
	.p2align	4
.LBB4_11:
	shrq	$7, %rdi
	incq	%rax
	cmpq	$16383, %rsi
	movq	%rdi, %rsi
	ja	.LBB4_11
.LBB4_12:
	movq	%rdx, %rsi
	shrq	$3, %rsi
	movl	$1, %edi
	cmpq	$1024, %rdx
	jb	.LBB4_15
	movq	%rsi, %rdx
	movq	%rsi, %r8
	.p2align	4
.LBB4_14:
	shrq	$7, %r8
	incq	%rdi
	cmpq	$16383, %rdx
	movq	%r8, %rdx
	ja	.LBB4_14
.LBB4_15:
	addq	%r12, %r14
	leaq	(%r15,%r14), %rdx
	addq	$2, %rdx
	addq	%rcx, %rsi
	addq	%rax, %rsi
	leaq	(%rdi,%rsi), %rax
	incq	%rax
	cmpq	%rax, %rdx
	setb	%al
	addq	$24, %rsp
	popq	%rbx
	popq	%r12
	popq	%r14
	popq	%r15
	retq
.Lfunc_end4:
	.size	"table_values::saves", .Lfunc_end4-"table_values::saves"

	.section	.rodata.cst16,"aM",@progbits,16
	.p2align	4, 0x0
.LCPI5_0:
	.quad	-9223372036854775808
	.quad	-9223372036854775808
.LCPI5_1:
	.quad	-9223372034707292160
	.quad	-9223372034707292160
.LCPI5_2:
	.quad	2147483648
	.quad	2147483648
	.section	".text.scaling::scale_of","ax",@progbits
	.p2align	4
	.type	"scaling::scale_of",@function
"scaling::scale_of":
	pushq	%rbp
	pushq	%r15
	pushq	%r14
	pushq	%r13
	pushq	%r12
	pushq	%rbx
	movabsq	$-9223372036854775808, %r10
	testq	%rdx, %rdx
	je	.LBB5_1
	movq	%rdx, %rcx
	movq	(%rsi), %r8
	xorq	%r10, %r8
	leaq	16(%rsi), %r12
	xorl	%eax, %eax
	movq	%r8, %rbx
	jmp	.LBB5_4
	.p2align	4
.LBB5_18:
	cmpq	%rcx, %rax
	jae	.LBB5_19
.LBB5_4:
	movq	%rcx, %r11
	subq	%rax, %r11
	cmpq	$1024, %r11
	movl	$1024, %edx
	cmovbq	%r11, %rdx
	leaq	(,%rax,8), %r9
	cmpq	$4, %r11
	jae	.LBB5_6
	xorl	%r14d, %r14d
	jmp	.LBB5_9
	.p2align	4
.LBB5_6:
	movl	%edx, %r14d
	andl	$2044, %r14d
	movq	%r8, %xmm0
	pshufd	$68, %xmm0, %xmm0
	movq	%rbx, %xmm1
	pshufd	$68, %xmm1, %xmm3
	leaq	(%r12,%r9), %r11
	xorl	%r8d, %r8d
	movdqa	%xmm3, %xmm4
	movdqa	%xmm0, %xmm2
	.p2align	4
.LBB5_7:
	movdqu	-16(%r11,%r8,8), %xmm8
	movdqu	(%r11,%r8,8), %xmm6
	movdqa	.LCPI5_0(%rip), %xmm5
	movdqa	%xmm8, %xmm7
	pxor	%xmm5, %xmm7
	pxor	%xmm6, %xmm5
	movdqa	.LCPI5_1(%rip), %xmm1
	movdqa	%xmm3, %xmm9
	pxor	%xmm1, %xmm9
	movdqa	.LCPI5_2(%rip), %xmm10
	pxor	%xmm10, %xmm8
	movdqa	%xmm9, %xmm11
	pcmpgtd	%xmm8, %xmm11
	pshufd	$160, %xmm11, %xmm12
	pcmpeqd	%xmm8, %xmm9
	pshufd	$245, %xmm9, %xmm9
	pand	%xmm12, %xmm9
	pshufd	$245, %xmm11, %xmm11
	por	%xmm9, %xmm11
	movdqa	%xmm7, %xmm9
	pand	%xmm11, %xmm9
	pandn	%xmm3, %xmm11
	movdqa	%xmm11, %xmm3
	por	%xmm9, %xmm3
	movdqa	%xmm4, %xmm9
	pxor	%xmm1, %xmm9
	pxor	%xmm10, %xmm6
	movdqa	%xmm9, %xmm10
	pcmpgtd	%xmm6, %xmm10
	pshufd	$160, %xmm10, %xmm11
	pcmpeqd	%xmm6, %xmm9
	pshufd	$245, %xmm9, %xmm9
	pand	%xmm11, %xmm9
	pshufd	$245, %xmm10, %xmm10
	por	%xmm9, %xmm10
	movdqa	%xmm5, %xmm9
	pand	%xmm10, %xmm9
	pandn	%xmm4, %xmm10
	movdqa	%xmm10, %xmm4
	por	%xmm9, %xmm4
	movdqa	%xmm0, %xmm9
	pxor	%xmm1, %xmm9
	movdqa	%xmm8, %xmm10
	pcmpgtd	%xmm9, %xmm10
	pshufd	$160, %xmm10, %xmm11
	pcmpeqd	%xmm8, %xmm9
	pshufd	$245, %xmm9, %xmm8
	pand	%xmm11, %xmm8
	pshufd	$245, %xmm10, %xmm9
	por	%xmm8, %xmm9
	pand	%xmm9, %xmm7
	pandn	%xmm0, %xmm9
	movdqa	%xmm9, %xmm0
	por	%xmm7, %xmm0
	movdqa	%xmm2, %xmm7
	pxor	%xmm1, %xmm7
	movdqa	%xmm6, %xmm8
	pcmpgtd	%xmm7, %xmm8
	pshufd	$160, %xmm8, %xmm9
	pcmpeqd	%xmm6, %xmm7
	pshufd	$245, %xmm7, %xmm6
	pand	%xmm9, %xmm6
	pshufd	$245, %xmm8, %xmm7
	por	%xmm6, %xmm7
	pand	%xmm7, %xmm5
	pandn	%xmm2, %xmm7
	movdqa	%xmm7, %xmm2
	por	%xmm5, %xmm2
	addq	$4, %r8
	cmpq	%r8, %r14
	jne	.LBB5_7
	movdqa	%xmm3, %xmm5
	pxor	%xmm1, %xmm5
	movdqa	%xmm4, %xmm6
	pxor	%xmm1, %xmm6
	movdqa	%xmm6, %xmm7
	pcmpgtd	%xmm5, %xmm7
	pshufd	$160, %xmm7, %xmm8
	pcmpeqd	%xmm5, %xmm6
	pshufd	$245, %xmm6, %xmm5
	pand	%xmm8, %xmm5
	pshufd	$245, %xmm7, %xmm6
	por	%xmm5, %xmm6
	pand	%xmm6, %xmm3
	pandn	%xmm4, %xmm6
	por	%xmm3, %xmm6
	pshufd	$238, %xmm6, %xmm3
	movdqa	%xmm6, %xmm4
	pxor	%xmm1, %xmm4
	movdqa	%xmm3, %xmm5
	pxor	%xmm1, %xmm5
	movdqa	%xmm5, %xmm7
	pcmpgtd	%xmm4, %xmm7
	pshufd	$160, %xmm7, %xmm8
	pcmpeqd	%xmm4, %xmm5
	pshufd	$245, %xmm5, %xmm4
	pand	%xmm8, %xmm4
	pshufd	$245, %xmm7, %xmm5
	por	%xmm4, %xmm5
	pand	%xmm5, %xmm6
	pandn	%xmm3, %xmm5
	por	%xmm6, %xmm5
	movq	%xmm5, %rbx
	movdqa	%xmm2, %xmm3
	pxor	%xmm1, %xmm3
	movdqa	%xmm0, %xmm4
	pxor	%xmm1, %xmm4
	movdqa	%xmm4, %xmm5
	pcmpgtd	%xmm3, %xmm5
	pshufd	$160, %xmm5, %xmm6
	pcmpeqd	%xmm3, %xmm4
	pshufd	$245, %xmm4, %xmm3
	pand	%xmm6, %xmm3
	pshufd	$245, %xmm5, %xmm4
	por	%xmm3, %xmm4
	pand	%xmm4, %xmm0
	pandn	%xmm2, %xmm4
	por	%xmm0, %xmm4
	pshufd	$238, %xmm4, %xmm0
	movdqa	%xmm4, %xmm2
	pxor	%xmm1, %xmm2
	pxor	%xmm0, %xmm1
	movdqa	%xmm2, %xmm3
	pcmpgtd	%xmm1, %xmm3
	pshufd	$160, %xmm3, %xmm5
	pcmpeqd	%xmm2, %xmm1
	pshufd	$245, %xmm1, %xmm1
	pand	%xmm5, %xmm1
	pshufd	$245, %xmm3, %xmm2
	por	%xmm1, %xmm2
	pand	%xmm2, %xmm4
	pandn	%xmm0, %xmm2
	por	%xmm4, %xmm2
	movq	%xmm2, %r8
	cmpq	%r14, %rdx
	je	.LBB5_11
.LBB5_9:
	leaq	(%rsi,%rax,8), %r15
	.p2align	4
.LBB5_10:
	movq	%r8, %r11
	movq	(%r15,%r14,8), %r8
	xorq	%r10, %r8
	cmpq	%rbx, %r8
	cmovbq	%r8, %rbx
	cmpq	%r11, %r8
	cmovbeq	%r11, %r8
	incq	%r14
	cmpq	%r14, %rdx
	jne	.LBB5_10
.LBB5_11:
	addq	%rdx, %rax
	movq	%rcx, %r11
	subq	%rax, %r11
	cmpq	$128, %r11
	jb	.LBB5_18
	movq	%r8, %r11
	subq	%rbx, %r11
	js	.LBB5_18
	movq	%rbx, %xmm0
	pshufd	$68, %xmm0, %xmm0
	movq	%r11, %xmm1
	pshufd	$68, %xmm1, %xmm1
	leaq	(%r9,%rdx,8), %rdx
	addq	%r12, %rdx
	.p2align	4
.LBB5_14:
	pxor	%xmm2, %xmm2
	xorl	%r9d, %r9d
	pxor	%xmm3, %xmm3
	.p2align	4
.LBB5_15:
	movdqu	-16(%rdx,%r9,8), %xmm4
	movdqu	(%rdx,%r9,8), %xmm5
	movdqa	.LCPI5_0(%rip), %xmm6
	pxor	%xmm6, %xmm4
	pxor	%xmm6, %xmm5
	psubq	%xmm0, %xmm4
	psubq	%xmm0, %xmm5
	movdqa	%xmm1, %xmm6
	psubq	%xmm4, %xmm6
	movdqa	%xmm1, %xmm7
	psubq	%xmm5, %xmm7
	por	%xmm4, %xmm3
	por	%xmm6, %xmm3
	por	%xmm5, %xmm2
	por	%xmm7, %xmm2
	addq	$4, %r9
	cmpq	$128, %r9
	jne	.LBB5_15
	por	%xmm3, %xmm2
	pshufd	$238, %xmm2, %xmm3
	por	%xmm2, %xmm3
	movq	%xmm3, %r9
	testq	%r9, %r9
	js	.LBB5_18
	subq	$-128, %rax
	movq	%rcx, %r9
	subq	%rax, %r9
	addq	$1024, %rdx
	cmpq	$127, %r9
	ja	.LBB5_14
	jmp	.LBB5_18
.LBB5_19:
	subq	%rbx, %r8
	je	.LBB5_20
	movq	%rdi, -16(%rsp)
	movabsq	$-4294967296, %rdi
	movq	%rbx, %xmm0
	pshufd	$68, %xmm0, %xmm0
	xorl	%r11d, %r11d
	xorl	%r15d, %r15d
	jmp	.LBB5_22
.LBB5_1:
	xorl	%r8d, %r8d
	jmp	.LBB5_2
.LBB5_20:
	xorl	%r8d, %r8d
	movq	%rbx, %r10
	jmp	.LBB5_2
.LBB5_41:
	movabsq	$-4294967296, %rdi
.LBB5_54:
	movq	%r13, %r11
	cmpq	%rcx, %r13
	jae	.LBB5_55
.LBB5_22:
	movq	%rcx, %rax
	subq	%r11, %rax
	cmpq	$1024, %rax
	movl	$1024, %r12d
	cmovbq	%rax, %r12
	leaq	(%r15,%rdi), %rax
	leaq	2(%rdi), %rdx
	movq	%rdx, %rbp
	cmpq	%rdx, %rax
	jae	.LBB5_24
	xorl	%r9d, %r9d
	jmp	.LBB5_25
	.p2align	4
.LBB5_24:
	movabsq	$4294967296, %rax
	xorl	%edx, %edx
	divq	%r15
	movq	%rax, %r9
	incq	%r9
.LBB5_25:
	leaq	(%r12,%r11), %r13
	leaq	(%rsi,%r11,8), %rdi
	shlq	$3, %r11
	movq	%r11, -8(%rsp)
	xorl	%r11d, %r11d
	jmp	.LBB5_26
.LBB5_38:
	movabsq	$4294967296, %rdx
	movq	%rax, %r15
	movq	%rdx, %rax
	xorl	%edx, %edx
	divq	%r15
	movq	%rax, %r9
	incq	%r9
	.p2align	4
.LBB5_39:
	incq	%r11
	cmpq	%r12, %r11
	je	.LBB5_40
.LBB5_26:
	movq	(%rdi,%r11,8), %rax
	xorq	%r10, %rax
	subq	%rbx, %rax
	movq	%rax, %rdx
	shrq	$32, %rdx
	jne	.LBB5_28
	movq	%rax, %rdx
	imulq	%r9, %rdx
	shrq	$32, %rdx
	imulq	%r15, %rdx
	cmpq	%rax, %rdx
	je	.LBB5_39
.LBB5_28:
	movq	%r15, %r14
	testq	%r15, %r15
	jne	.LBB5_29
	jmp	.LBB5_33
	.p2align	4
.LBB5_31:
	xorl	%edx, %edx
	divq	%r14
	movq	%r14, %rax
	movq	%rdx, %r14
	testq	%rdx, %rdx
	je	.LBB5_33
.LBB5_29:
	movq	%rax, %rdx
	orq	%r14, %rdx
	shrq	$32, %rdx
	jne	.LBB5_31
	xorl	%edx, %edx
	divl	%r14d
	movq	%r14, %rax
	movq	%rdx, %r14
	testq	%rdx, %rdx
	jne	.LBB5_29
.LBB5_33:
	cmpq	$1, %rax
	je	.LBB5_34
	cmpq	%r15, %rax
	je	.LBB5_39
	movabsq	$-4294967296, %rdx
	addq	%rax, %rdx
	cmpq	%rbp, %rdx
	jae	.LBB5_38
	xorl	%r9d, %r9d
	movq	%rax, %r15
	jmp	.LBB5_39
	.p2align	4
.LBB5_40:
	movq	%rcx, %rax
	subq	%r13, %rax
	cmpq	$128, %rax
	jb	.LBB5_41
	movq	%r15, %rax
	shrq	$32, %rax
	movabsq	$-4294967296, %rdi
	jne	.LBB5_54
	cmpq	$1, %r15
	ja	.LBB5_49
	movq	-8(%rsp), %rax
	leaq	(%rax,%r12,8), %rax
	leaq	48(%rsi), %rdx
	addq	%rdx, %rax
	.p2align	4
.LBB5_45:
	pxor	%xmm1, %xmm1
	xorl	%edx, %edx
	pxor	%xmm2, %xmm2
	.p2align	4
.LBB5_46:
	movdqa	.LCPI5_0(%rip), %xmm3
	movdqu	-48(%rax,%rdx,8), %xmm4
	movdqu	-32(%rax,%rdx,8), %xmm5
	pxor	%xmm3, %xmm4
	psubq	%xmm0, %xmm4
	por	%xmm1, %xmm4
	movdqu	-16(%rax,%rdx,8), %xmm1
	pxor	%xmm3, %xmm5
	psubq	%xmm0, %xmm5
	por	%xmm2, %xmm5
	movdqu	(%rax,%rdx,8), %xmm2
	pxor	%xmm3, %xmm1
	pxor	%xmm3, %xmm2
	psubq	%xmm0, %xmm1
	por	%xmm4, %xmm1
	psubq	%xmm0, %xmm2
	por	%xmm5, %xmm2
	addq	$8, %rdx
	cmpq	$128, %rdx
	jne	.LBB5_46
	por	%xmm1, %xmm2
	pxor	%xmm1, %xmm1
	pcmpeqd	%xmm2, %xmm1
	movmskps	%xmm1, %edx
	xorl	$15, %edx
	jne	.LBB5_54
	subq	$-128, %r13
	movq	%rcx, %rdx
	subq	%r13, %rdx
	addq	$1024, %rax
	cmpq	$127, %rdx
	ja	.LBB5_45
	jmp	.LBB5_54
.LBB5_49:
	movabsq	$4294967296, %rax
	xorl	%edx, %edx
	divq	%r15
	incq	%rax
	movq	%rax, %xmm1
	pshufd	$68, %xmm1, %xmm1
	movq	%r15, %xmm2
	pshufd	$68, %xmm2, %xmm2
	movq	-8(%rsp), %rax
	leaq	(%rax,%r12,8), %rax
	leaq	16(%rsi), %rdx
	addq	%rdx, %rax
	.p2align	4
.LBB5_50:
	pxor	%xmm3, %xmm3
	xorl	%edx, %edx
	pxor	%xmm4, %xmm4
	.p2align	4
.LBB5_51:
	movdqu	-16(%rax,%rdx,8), %xmm6
	movdqu	(%rax,%rdx,8), %xmm5
	movdqa	.LCPI5_0(%rip), %xmm7
	pxor	%xmm7, %xmm6
	pxor	%xmm7, %xmm5
	psubq	%xmm0, %xmm6
	psubq	%xmm0, %xmm5
	movdqa	%xmm6, %xmm9
	pmuludq	%xmm1, %xmm9
	movdqa	%xmm1, %xmm8
	psrlq	$32, %xmm8
	movdqa	%xmm6, %xmm7
	pmuludq	%xmm8, %xmm7
	psllq	$32, %xmm7
	paddq	%xmm9, %xmm7
	movdqa	%xmm5, %xmm9
	pmuludq	%xmm1, %xmm9
	pmuludq	%xmm5, %xmm8
	psllq	$32, %xmm8
	paddq	%xmm9, %xmm8
	psrlq	$32, %xmm7
	psrlq	$32, %xmm8
	movdqa	%xmm7, %xmm9
	pmuludq	%xmm2, %xmm9
	movdqa	%xmm2, %xmm10
	psrlq	$32, %xmm10
	pmuludq	%xmm10, %xmm7
	psllq	$32, %xmm7
	paddq	%xmm9, %xmm7
	pmuludq	%xmm8, %xmm10
	pmuludq	%xmm2, %xmm8
	psllq	$32, %xmm10
	paddq	%xmm8, %xmm10
	psubq	%xmm7, %xmm6
	por	%xmm6, %xmm4
	psubq	%xmm10, %xmm5
	por	%xmm5, %xmm3
	addq	$4, %rdx
	cmpq	$128, %rdx
	jne	.LBB5_51
	por	%xmm4, %xmm3
	pxor	%xmm4, %xmm4
	pcmpeqd	%xmm3, %xmm4
	movmskps	%xmm4, %edx
	xorl	$15, %edx
	jne	.LBB5_54
	subq	$-128, %r13
	movq	%rcx, %rdx
	subq	%r13, %rdx
	addq	$1024, %rax
	cmpq	$127, %rdx
	ja	.LBB5_50
	jmp	.LBB5_54
.LBB5_34:
	movq	%rbx, %r10
	movq	-16(%rsp), %rdi
.LBB5_2:
	leaq	(%r10,%r10), %rax
	notq	%r10
	sarq	$63, %r10
	xorq	%rax, %r10
	movl	$1, %r15d
	movq	%r8, %rax
	orq	%r15, %rax
	shrq	$32, %rax
	je	.LBB5_58
.LBB5_59:
	movq	%r8, %rax
	xorl	%edx, %edx
	divq	%r15
	jmp	.LBB5_60
.LBB5_55:
	testq	%r15, %r15
	je	.LBB5_61
	leaq	(%rbx,%rbx), %rax
	notq	%rbx
	sarq	$63, %rbx
	xorq	%rax, %rbx
	movq	%rbx, %r10
	movq	-16(%rsp), %rdi
	movq	%r8, %rax
	orq	%r15, %rax
	shrq	$32, %rax
	jne	.LBB5_59
.LBB5_58:
	movl	%r8d, %eax
	xorl	%edx, %edx
	divl	%r15d
.LBB5_60:
	movq	%r10, (%rdi)
	movq	%r15, 8(%rdi)
	movq	%rax, 16(%rdi)
	popq	%rbx
	popq	%r12
	popq	%r13
	popq	%r14
	popq	%r15
	popq	%rbp
	retq
.LBB5_61:
	ud2
.Lfunc_end5:
	.size	"scaling::scale_of", .Lfunc_end5-"scaling::scale_of"

	.section	".text.between::first_between_from_in","ax",@progbits
	.p2align	4
	.type	"between::first_between_from_in",@function
"between::first_between_from_in":
	cmpb	$2, (%rsi)
	jne	.LBB6_9
	pushq	%rbp
	pushq	%r15
	pushq	%r14
	pushq	%r13
	pushq	%r12
	pushq	%rbx
	subq	$168, %rsp
	movq	8(%rsi), %rbx
	cmpq	$2147352576, %rbx
	ja	.LBB6_6
	movq	16(%rsi), %rax
	movq	32(%rsi), %r10
	testq	%rax, %rax
	setne	%r11b
	addq	$-16, %rax
	cmpq	$-9, %rax
	setb	%al
	andb	%r11b, %al
	cmpq	$32768, %r10
	setae	%r11b
	orb	%al, %r11b
	jne	.LBB6_6
	movq	24(%rsi), %rax
	movq	40(%rsi), %r13
	leaq	6(,%r10,8), %r10
	cmpq	%r10, %rax
	setae	%r10b
	testq	%r13, %r13
	sete	%r11b
	andb	%r10b, %r11b
	cmpb	$1, %r11b
	jne	.LBB6_6
	movq	48(%rsi), %rbp
	movq	56(%rsi), %r15
	testq	%rbp, %rbp
	setne	%r10b
	testq	%r15, %r15
	sete	%r11b
	orb	%r10b, %r11b
	jne	.LBB6_6
	movq	64(%rsi), %r10
	leaq	16383(%rbx), %r11
	shrq	$14, %r11
	leaq	(%r11,%r11,4), %r11
	leaq	(%r11,%r11,4), %r11
	cmpq	%r10, %r11
	jbe	.LBB6_10
.LBB6_6:
	movq	$1, (%rdi)
	movq	$8, 8(%rdi)
.LBB6_7:
	movq	$0, 16(%rdi)
.LBB6_8:
	addq	$168, %rsp
	popq	%rbx
	popq	%r12
	popq	%r13
	popq	%r14
	popq	%r15
	popq	%rbp
	retq
.LBB6_9:
	movq	$1, (%rdi)
	movq	$7, 8(%rdi)
	movq	$0, 16(%rdi)
	retq
.LBB6_10:
	movq	72(%rsi), %rsi
	movq	%rcx, %r11
	subq	%rsi, %r11
	jb	.LBB6_17
	subq	%rax, %r11
	setae	%r14b
	cmpq	%r10, %r11
	sete	%r10b
	testb	%r10b, %r14b
	je	.LBB6_17
	movabsq	$-9223372036854775808, %r12
	xorq	%r12, %r9
	xorq	224(%rsp), %r12
	cmpq	%r9, %r12
	setae	%r10b
	cmpq	%r8, %rbx
	seta	%r11b
	andb	%r10b, %r11b
	cmpb	$1, %r11b
	jne	.LBB6_18
	movq	%rdi, 32(%rsp)
	addq	%rax, %rsi
	addq	%rsi, %rdx
	subq	%rsi, %rcx
	movq	%r13, 120(%rsp)
	movq	%rbp, 128(%rsp)
	movq	%r15, 136(%rsp)
	xorps	%xmm0, %xmm0
	movaps	%xmm0, 96(%rsp)
	movq	$0, 112(%rsp)
	movq	%r8, %r14
	shrq	$14, %r14
	andl	$16383, %r8d
	movq	%r12, 16(%rsp)
	movq	%r9, 56(%rsp)
	movq	%r9, 8(%rsp)
	movq	%r8, (%rsp)
	leaq	96(%rsp), %rdi
	leaq	120(%rsp), %r8
	movq	%rdx, 48(%rsp)
	movq	%rdx, %rsi
	movq	%rcx, 40(%rsp)
	movq	%rcx, %rdx
	movq	%rbx, %rcx
	movq	%r14, %r9
	callq	"run_search::in_run"
	movzbl	104(%rsp), %edx
	movq	112(%rsp), %rcx
	movl	$1, %eax
	cmpb	$0, 96(%rsp)
	jne	.LBB6_26
	cmpb	$1, %dl
	jne	.LBB6_19
	movb	$1, %dl
.LBB6_16:
	xorl	%eax, %eax
	jmp	.LBB6_26
.LBB6_17:
	movq	$1, (%rdi)
	movq	$9, 8(%rdi)
	jmp	.LBB6_7
.LBB6_18:
	xorl	%eax, %eax
	xorl	%edx, %edx
	xorl	%ecx, %ecx
	jmp	.LBB6_27
.LBB6_19:
	incq	%r14
	movq	%r13, 144(%rsp)
	movq	%rbp, 152(%rsp)
	movq	%r15, 160(%rsp)
	xorps	%xmm0, %xmm0
	movaps	%xmm0, 64(%rsp)
	movq	$0, 80(%rsp)
	movq	%rbx, %rax
	shrq	$14, %rax
	movl	%ebx, %r15d
	andl	$16383, %r15d
	addl	$16383, %r15d
	shrl	$14, %r15d
	addq	%rax, %r15
.LBB6_20:
	cmpq	%r15, %r14
	movq	56(%rsp), %rax
	movq	40(%rsp), %rdx
	movq	48(%rsp), %rsi
	jae	.LBB6_24
	movq	%r12, 16(%rsp)
	movq	%rax, 8(%rsp)
	movq	$0, (%rsp)
	leaq	64(%rsp), %rdi
	leaq	144(%rsp), %r8
	movq	%rbx, %rcx
	movq	%r14, %r9
	callq	"run_search::in_run"
	movzbl	72(%rsp), %edx
	cmpb	$0, 64(%rsp)
	jne	.LBB6_25
	cmpb	$1, %dl
	je	.LBB6_28
	incq	%r14
	jmp	.LBB6_20
.LBB6_24:
	xorl	%eax, %eax
	xorl	%edx, %edx
	xorl	%ecx, %ecx
	jmp	.LBB6_26
.LBB6_25:
	movl	$1, %eax
	movq	80(%rsp), %rcx
.LBB6_26:
	movq	32(%rsp), %rdi
	movzbl	%dl, %edx
.LBB6_27:
	movq	%rax, (%rdi)
	movq	%rdx, 8(%rdi)
	movq	%rcx, 16(%rdi)
	jmp	.LBB6_8
.LBB6_28:
	movb	$1, %dl
	movq	80(%rsp), %rcx
	jmp	.LBB6_16
.Lfunc_end6:
	.size	"between::first_between_from_in", .Lfunc_end6-"between::first_between_from_in"

	.section	.rodata.cst16,"aM",@progbits,16
	.p2align	4, 0x0
.LCPI7_0:
	.quad	1
	.quad	13
.LCPI7_1:
	.byte	0
	.byte	0
	.byte	0
	.byte	0
	.byte	0
	.byte	0
	.byte	0
	.byte	0
	.byte	1
	.byte	0
	.byte	0
	.byte	0
	.byte	0
	.byte	0
	.byte	0
	.byte	0
	.section	".text.run_search::in_run","ax",@progbits
	.p2align	4
	.type	"run_search::in_run",@function
"run_search::in_run":
	pushq	%rbp
	pushq	%r15
	pushq	%r14
	pushq	%r13
	pushq	%r12
	pushq	%rbx
	movabsq	$-9223372036854775808, %rax
	leaq	(%r9,%r9,4), %r10
	leaq	(%r10,%r10,4), %rbx
	movq	(%rsi,%rbx), %r11
	movq	%r11, %r14
	xorq	%rax, %r14
	cmpq	%r14, 72(%rsp)
	jb	.LBB7_7
	movq	64(%rsp), %r12
	movq	8(%rsi,%rbx), %r10
	xorq	%rax, %r10
	cmpq	%r12, %r10
	jb	.LBB7_7
	movq	56(%rsp), %r10
	shlq	$14, %r9
	movq	%rcx, %r15
	subq	%r9, %r15
	cmpq	$16384, %r15
	movl	$16384, %r13d
	cmovbq	%r15, %r13
	xorps	%xmm0, %xmm0
	cmpq	%r10, %r15
	jbe	.LBB7_8
	movzbl	24(%rsi,%rbx), %ebp
	movaps	.LCPI7_0(%rip), %xmm1
	cmpb	$64, %bpl
	ja	.LBB7_6
	testq	%rbp, %rbp
	je	.LBB7_11
	movq	16(%rsi,%rbx), %rbx
	movl	%ecx, %r15d
	andl	$16383, %r15d
	addl	$16383, %r15d
	shrl	$14, %r15d
	shrq	$14, %rcx
	addq	%r15, %rcx
	leaq	(%rcx,%rcx,4), %rcx
	leaq	(%rcx,%rcx,4), %rcx
	subq	%rcx, %rdx
	cmpq	%rbx, %rdx
	jae	.LBB7_13
.LBB7_6:
	xorl	%ecx, %ecx
	movaps	%xmm1, %xmm0
	jmp	.LBB7_9
.LBB7_7:
	xorps	%xmm0, %xmm0
	movups	%xmm0, (%rdi)
	movq	$0, 16(%rdi)
	jmp	.LBB7_10
.LBB7_11:
	cmpq	%r12, %r14
	jae	.LBB7_29
.LBB7_8:
	xorl	%ecx, %ecx
.LBB7_9:
	movups	%xmm0, (%rdi)
	movq	%rcx, 16(%rdi)
.LBB7_10:
	popq	%rbx
	popq	%r12
	popq	%r13
	popq	%r14
	popq	%r15
	popq	%rbp
	retq
.LBB7_13:
	movq	16(%r8), %r8
	movq	%r8, -8(%rsp)
	subq	%rbx, %rdx
	addq	%rbx, %rsi
	addq	%rcx, %rsi
	movl	$64, %ecx
	subq	%rbp, %rcx
	movq	%rcx, -16(%rsp)
	decq	%rax
	xorq	%rax, %r11
	movq	%r10, %r15
	imulq	%rbp, %r15
	leaq	1(%r10), %r12
	imulq	%rbp, %r12
	addq	$7, %r12
	movq	%r13, -24(%rsp)
	.p2align	4
.LBB7_14:
	movq	%r12, %rbx
	shrq	$3, %rbx
	cmpq	%rbx, %rdx
	jb	.LBB7_6
	movq	%r15, %r8
	shrq	$3, %r8
	movq	%rbx, %rax
	subq	%r8, %rax
	movl	%r15d, %ecx
	andl	$7, %ecx
	cmpb	$8, %bpl
	ja	.LBB7_17
	movzbl	(%rsi,%r8), %r8d
	movzbl	-1(%rsi,%rbx), %ebx
	movq	$-1, %r13
	jmp	.LBB7_22
.LBB7_17:
	cmpb	$24, %bpl
	ja	.LBB7_19
	movzwl	(%rsi,%r8), %r8d
	movzwl	-2(%rsi,%rbx), %ebx
	movq	$-2, %r13
	jmp	.LBB7_22
.LBB7_19:
	cmpb	$56, %bpl
	ja	.LBB7_21
	movl	(%rsi,%r8), %r8d
	movl	-4(%rsi,%rbx), %ebx
	movq	$-4, %r13
	jmp	.LBB7_22
.LBB7_21:
	movq	(%rsi,%r8), %r8
	movq	-8(%rsi,%rbx), %rbx
	movq	$-8, %r13
	.p2align	4
.LBB7_22:
	bswapq	%r8
	shlq	%cl, %r8
	bswapq	%rbx
	addl	%r13d, %eax
	shll	$3, %eax
	subl	%ecx, %eax
	movl	%eax, %ecx
	shrq	%cl, %rbx
	orq	%r8, %rbx
	movq	-16(%rsp), %rcx
	shrq	%cl, %rbx
	movq	-8(%rsp), %r13
	cmpq	$2, %r13
	jb	.LBB7_26
	movq	%rbx, %rax
	orq	%r13, %rax
	shrq	$32, %rax
	je	.LBB7_26
	movq	%rdx, %r8
	xorl	%ecx, %ecx
	movq	%r11, %rax
	xorl	%edx, %edx
	divq	%r13
	cmpq	%rax, %rbx
	movq	%r13, %rax
	movq	72(%rsp), %r13
	ja	.LBB7_30
	imulq	%rax, %rbx
	movq	%r8, %rdx
	jmp	.LBB7_27
.LBB7_26:
	imulq	%r13, %rbx
	cmpq	%r11, %rbx
	movq	72(%rsp), %r13
	ja	.LBB7_6
.LBB7_27:
	addq	%r14, %rbx
	cmpq	64(%rsp), %rbx
	setb	%al
	cmpq	%r13, %rbx
	seta	%cl
	orb	%al, %cl
	je	.LBB7_29
	incq	%r10
	addq	%rbp, %r15
	addq	%rbp, %r12
	xorl	%ecx, %ecx
	cmpq	-24(%rsp), %r10
	jb	.LBB7_14
	jmp	.LBB7_9
.LBB7_29:
	addq	%r9, %r10
	movaps	.LCPI7_1(%rip), %xmm0
	movq	%r10, %rcx
	jmp	.LBB7_9
.LBB7_30:
	movaps	%xmm1, %xmm0
	jmp	.LBB7_9
.Lfunc_end7:
	.size	"run_search::in_run", .Lfunc_end7-"run_search::in_run"

	.section	".text.between::first_between_from","ax",@progbits
	.p2align	4
	.type	"between::first_between_from",@function
"between::first_between_from":
	pushq	%rbp
	pushq	%r15
	pushq	%r14
	pushq	%r13
	pushq	%r12
	pushq	%rbx
	subq	$216, %rsp
	movq	%r9, %rbp
	movq	%r8, %r14
	movq	%rcx, %r15
	movq	%rdx, %r12
	movq	%rsi, %r13
	movq	%rdi, %rbx
	xorps	%xmm0, %xmm0
	movaps	%xmm0, 16(%rsp)
	movq	$0, 32(%rsp)
	movaps	%xmm0, 48(%rsp)
	movaps	%xmm0, 64(%rsp)
	movaps	%xmm0, 80(%rsp)
	movaps	%xmm0, 96(%rsp)
	movaps	%xmm0, 112(%rsp)
	movq	$0, 128(%rsp)
	testq	%rdx, %rdx
	je	.LBB8_10
	movzbl	(%r13), %eax
	testb	%al, %al
	js	.LBB8_4
	cmpq	$3, %rax
	je	.LBB8_10
.LBB8_3:
	movq	$1, (%rbx)
	movq	$7, 8(%rbx)
	movq	$0, 16(%rbx)
	jmp	.LBB8_14
.LBB8_4:
	cmpq	$1, %r12
	je	.LBB8_10
	addq	$-128, %rax
	leaq	-1(%r12), %rdx
	movl	$128, %ecx
	xorl	%esi, %esi
	.p2align	4
.LBB8_6:
	movzbl	1(%r13,%rsi), %edi
	xorl	%r8d, %r8d
	testq	%rdi, %rdi
	sete	%r8b
	xorl	%r9d, %r9d
	cmpq	$1, %rdi
	setne	%r9b
	cmpq	$8, %rsi
	cmovel	%r9d, %r8d
	testb	%r8b, %r8b
	jne	.LBB8_10
	testb	%dil, %dil
	jns	.LBB8_9
	addq	$-128, %rdi
	imulq	%rcx, %rdi
	addq	%rdi, %rax
	shlq	$7, %rcx
	incq	%rsi
	cmpq	%rsi, %rdx
	jne	.LBB8_6
	jmp	.LBB8_10
.LBB8_9:
	imulq	%rdi, %rcx
	addq	%rcx, %rax
	cmpq	$3, %rax
	jne	.LBB8_3
.LBB8_10:
	leaq	48(%rsp), %rdi
	movq	%r13, %rsi
	movq	%r12, %rdx
	callq	"column::Column::open"
	movq	56(%rsp), %rcx
	movq	64(%rsp), %rax
	cmpb	$0, 48(%rsp)
	je	.LBB8_12
	movq	$1, (%rbx)
	movzbl	%cl, %ecx
	movq	%rcx, 8(%rbx)
	jmp	.LBB8_13
.LBB8_12:
	movq	%rcx, 136(%rsp)
	movq	%rax, 144(%rsp)
	movups	72(%rsp), %xmm0
	movups	88(%rsp), %xmm1
	movups	104(%rsp), %xmm2
	movups	120(%rsp), %xmm3
	movups	%xmm0, 152(%rsp)
	movups	%xmm1, 168(%rsp)
	movups	%xmm2, 184(%rsp)
	movups	%xmm3, 200(%rsp)
	movq	%rbp, (%rsp)
	leaq	16(%rsp), %rdi
	leaq	136(%rsp), %rsi
	movq	%r13, %rdx
	movq	%r12, %rcx
	movq	%r15, %r8
	movq	%r14, %r9
	callq	"between::first_between_from_in"
	movzbl	16(%rsp), %eax
	movq	%rax, (%rbx)
	movzbl	24(%rsp), %eax
	movq	%rax, 8(%rbx)
	movq	32(%rsp), %rax
.LBB8_13:
	movq	%rax, 16(%rbx)
.LBB8_14:
	addq	$216, %rsp
	popq	%rbx
	popq	%r12
	popq	%r13
	popq	%r14
	popq	%r15
	popq	%rbp
	retq
.Lfunc_end8:
	.size	"between::first_between_from", .Lfunc_end8-"between::first_between_from"

	.section	.rodata.cst16,"aM",@progbits,16
	.p2align	4, 0x0
.LCPI9_0:
	.quad	1
	.quad	13
.LCPI9_1:
	.byte	0
	.byte	0
	.byte	0
	.byte	0
	.byte	0
	.byte	0
	.byte	0
	.byte	0
	.byte	1
	.byte	0
	.byte	0
	.byte	0
	.byte	0
	.byte	0
	.byte	0
	.byte	0
	.section	".text.layered::answer_from","ax",@progbits
	.p2align	4
	.type	"layered::answer_from",@function
"layered::answer_from":
	pushq	%rbp
	pushq	%r15
	pushq	%r14
	pushq	%rbx
	subq	$248, %rsp
	movq	%rdi, %rbx
	xorps	%xmm0, %xmm0
	movaps	%xmm0, 112(%rsp)
	movaps	%xmm0, 96(%rsp)
	movaps	%xmm0, 80(%rsp)
	movaps	%xmm0, 64(%rsp)
	movaps	%xmm0, 48(%rsp)
	movq	$0, 128(%rsp)
	cmpl	$2147352576, %ecx
	jae	.LBB9_1
	movl	%ecx, %ebp
	leaq	48(%rsp), %rdi
	movq	%rsi, %r15
	movq	%rdx, %r14
	callq	"column::Column::open"
	movzbl	56(%rsp), %esi
	movq	64(%rsp), %rax
	cmpb	$0, 48(%rsp)
	je	.LBB9_3
	movq	$1, (%rbx)
	movq	%rsi, 8(%rbx)
	movq	%rax, 16(%rbx)
	xorps	%xmm0, %xmm0
	movups	%xmm0, 24(%rbx)
	movq	$0, 40(%rbx)
	jmp	.LBB9_10
.LBB9_1:
	movq	$1, (%rbx)
	movq	$12, 8(%rbx)
	movups	%xmm0, 16(%rbx)
	movups	%xmm0, 32(%rbx)
	jmp	.LBB9_10
.LBB9_3:
	xorps	%xmm4, %xmm4
	movaps	%xmm4, 144(%rsp)
	movq	$0, 160(%rsp)
	movq	%rax, 168(%rsp)
	movups	72(%rsp), %xmm0
	movups	88(%rsp), %xmm1
	movups	104(%rsp), %xmm2
	movups	120(%rsp), %xmm3
	movaps	%xmm0, 176(%rsp)
	movaps	%xmm1, 192(%rsp)
	movaps	%xmm2, 208(%rsp)
	movaps	%xmm3, 224(%rsp)
	movaps	%xmm4, (%rsp)
	movaps	%xmm4, 16(%rsp)
	movaps	%xmm4, 32(%rsp)
	movq	%rsp, %rdi
	leaq	144(%rsp), %rdx
	movq	%r15, %rcx
	movq	%r14, %r8
	movl	%ebp, %r9d
	callq	"lookup::apart::put_steps"
	movq	(%rsp), %rax
	cmpq	$1, %rax
	je	.LBB9_7
	testq	%rax, %rax
	jne	.LBB9_5
	movaps	16(%rsp), %xmm1
	movaps	32(%rsp), %xmm2
	xorps	%xmm0, %xmm0
	jmp	.LBB9_9
.LBB9_7:
	movaps	.LCPI9_1(%rip), %xmm0
	movaps	32(%rsp), %xmm1
	jmp	.LBB9_8
.LBB9_5:
	movaps	.LCPI9_0(%rip), %xmm0
	xorps	%xmm1, %xmm1
.LBB9_8:
	xorps	%xmm2, %xmm2
.LBB9_9:
	movups	%xmm0, (%rbx)
	movups	%xmm1, 16(%rbx)
	movups	%xmm2, 32(%rbx)
.LBB9_10:
	addq	$248, %rsp
	popq	%rbx
	popq	%r14
	popq	%r15
	popq	%rbp
	retq
.Lfunc_end9:
	.size	"layered::answer_from", .Lfunc_end9-"layered::answer_from"

	.section	.rodata.cst16,"aM",@progbits,16
	.p2align	4, 0x0
.LCPI10_0:
	.zero	16,85
.LCPI10_1:
	.zero	16,51
.LCPI10_2:
	.zero	16,15
	.section	".text.lookup::apart::put_steps","ax",@progbits
	.p2align	4
	.type	"lookup::apart::put_steps",@function
"lookup::apart::put_steps":
	pushq	%rbp
	pushq	%r15
	pushq	%r14
	pushq	%r13
	pushq	%r12
	pushq	%rbx
	movq	%r8, -8(%rsp)
	movl	%esi, -68(%rsp)
	movq	40(%rdx), %r15
	movq	48(%rdx), %rax
	movq	88(%rdx), %rbx
	leaq	(%rcx,%rbx), %r12
	leaq	(,%rax,8), %rsi
	movq	%r15, %r14
	subq	%rsi, %r14
	movl	%r9d, %r10d
	shrl	$16, %r10d
	testq	%rax, %rax
	je	.LBB10_1
	leaq	-1(%rax), %rsi
	cmpq	%r10, %rsi
	cmovaeq	%r10, %rsi
	movl	%esi, %esi
	leaq	(%r12,%rsi,8), %r11
	movl	(%r14,%r11), %r8d
	movl	4(%r14,%r11), %ebp
	leaq	4(%rbp), %r13
	cmpq	%r13, %r14
	jae	.LBB10_4
	jmp	.LBB10_68
.LBB10_1:
	xorl	%ebp, %ebp
	xorl	%r8d, %r8d
	leaq	4(%rbp), %r13
	cmpq	%r13, %r14
	jb	.LBB10_68
.LBB10_4:
	movzwl	(%r12,%rbp), %r11d
	cmpl	%r11d, %r10d
	jae	.LBB10_8
.LBB10_5:
	xorl	%r12d, %r12d
.LBB10_6:
	xorl	%r11d, %r11d
.LBB10_7:
	movq	$1, (%rdi)
	pxor	%xmm0, %xmm0
	movdqu	%xmm0, 8(%rdi)
	movq	$0, 24(%rdi)
.LBB10_89:
	movq	%r12, 32(%rdi)
	movq	%r11, 40(%rdi)
	jmp	.LBB10_90
.LBB10_8:
	cmpl	%r11d, %r10d
	jbe	.LBB10_9
	testq	%rax, %rax
	je	.LBB10_5
.LBB10_68:
	movq	$15, (%rdi)
	pxor	%xmm0, %xmm0
	movdqu	%xmm0, 8(%rdi)
	movdqu	%xmm0, 24(%rdi)
	movq	$0, 40(%rdi)
.LBB10_90:
	popq	%rbx
	popq	%r12
	popq	%r13
	popq	%r14
	popq	%r15
	popq	%rbp
	retq
.LBB10_9:
	movl	%r9d, %r11d
	movzwl	%r11w, %eax
	movq	24(%rdx), %r9
	movq	%r9, -64(%rsp)
	movzwl	2(%r12,%rbp), %r10d
	leaq	1(%r10), %r9
	cmpq	$4095, %r10
	jae	.LBB10_10
	leaq	(,%r9,2), %r10
	addq	%r13, %r10
	cmpq	%r10, %r14
	jb	.LBB10_68
	leaq	(%r9,%r8), %r10
	cmpq	%r10, -64(%rsp)
	jb	.LBB10_68
	addq	%r13, %r12
	movl	$1048576, %r10d
	xorl	%r11d, %r11d
	.p2align	4
.LBB10_21:
	leaq	(%r11,%r9), %r13
	movq	%r13, %r14
	shrq	%r14
	andq	$-2, %r13
	movzwl	(%r12,%r13), %ebp
	cmpl	%ebp, %eax
	je	.LBB10_22
	leaq	1(%r14), %r13
	cmpl	%ebp, %eax
	cmovaq	%r13, %r11
	cmovbeq	%r14, %r9
	incq	%r10
	cmpq	%r9, %r11
	jne	.LBB10_21
	jmp	.LBB10_38
.LBB10_10:
	cmpl	$65535, %r10d
	je	.LBB10_11
	movq	%r11, -40(%rsp)
	movq	%r10, -16(%rsp)
	movq	32(%rdx), %r10
	movb	$17, %r11b
	subb	%r10b, %r11b
	movl	$1, %esi
	movq	%rcx, -48(%rsp)
	movl	%r11d, %ecx
	shlq	%cl, %rsi
	movq	%rsi, -56(%rsp)
	leaq	8192(%rsi), %rcx
	testq	%r10, %r10
	movl	$8192, %r11d
	cmovneq	%rcx, %r11
	addq	%r13, %r11
	cmpq	%r11, %r14
	jb	.LBB10_68
	addq	%r8, %r9
	cmpq	%r9, -64(%rsp)
	jb	.LBB10_68
	testq	%r10, %r10
	movq	-56(%rsp), %r14
	cmoveq	%r10, %r14
	movl	%eax, %r11d
	shrl	$6, %r11d
	movq	-40(%rsp), %r9
	andl	$63, %r9d
	addq	%r13, %r12
	leaq	(%r12,%r14), %rcx
	movq	(%rcx,%r11,8), %rcx
	movq	%r9, -40(%rsp)
	btq	%r9, %rcx
	jae	.LBB10_17
	movq	%rcx, -24(%rsp)
	movl	%r10d, %ecx
	shrq	%cl, %rax
	leal	-6(%r10), %ecx
	movq	%rax, %rsi
	shlq	%cl, %rsi
	testq	%r10, %r10
	cmoveq	%r10, %rsi
	movq	%rsi, %rcx
	je	.LBB10_24
	movzwl	(%r12,%rax,2), %eax
	rolw	$8, %ax
	movzwl	%ax, %eax
	jmp	.LBB10_26
.LBB10_11:
	addq	%r8, %r9
	cmpq	%r9, -64(%rsp)
	jb	.LBB10_68
	xorl	%r11d, %r11d
	xorl	%r12d, %r12d
	jmp	.LBB10_13
.LBB10_22:
	shlq	$4, %r14
	addq	%r14, %r10
	addq	$-1048575, %r10
.LBB10_38:
	movl	%r10d, %r11d
	andl	$15, %r11d
	xorl	%r12d, %r12d
	cmpq	$1048576, %r10
	jae	.LBB10_7
	shrq	$4, %r10
	movq	%r10, %rax
	jmp	.LBB10_13
.LBB10_17:
	movl	$1, %r12d
	jmp	.LBB10_6
.LBB10_24:
	xorl	%eax, %eax
.LBB10_26:
	movq	%r11, %r10
	subq	%rcx, %r10
	movabsq	$3689348814741910323, %rsi
	movabsq	$72340172838076673, %r13
	subq	%rcx, %r11
	movq	-48(%rsp), %r12
	movq	%r10, -32(%rsp)
	jne	.LBB10_28
	xorl	%r12d, %r12d
	jmp	.LBB10_35
.LBB10_28:
	cmpq	$4, %r10
	jae	.LBB10_30
	xorl	%r12d, %r12d
	xorl	%r10d, %r10d
	jmp	.LBB10_33
.LBB10_30:
	andq	$-4, %r10
	movq	%r14, -56(%rsp)
	leaq	(%r14,%rbp), %r9
	addq	%rbx, %r9
	leaq	(%r9,%rcx,8), %r9
	addq	%r12, %r9
	addq	$20, %r9
	pxor	%xmm1, %xmm1
	xorl	%r14d, %r14d
	pxor	%xmm2, %xmm2
	pxor	%xmm0, %xmm0
.LBB10_31:
	movdqu	-16(%r9,%r14,8), %xmm4
	movdqu	(%r9,%r14,8), %xmm3
	movdqa	%xmm4, %xmm5
	psrlw	$1, %xmm5
	movdqa	.LCPI10_0(%rip), %xmm6
	pand	%xmm6, %xmm5
	psubb	%xmm5, %xmm4
	movdqa	.LCPI10_1(%rip), %xmm5
	movdqa	%xmm4, %xmm7
	pand	%xmm5, %xmm7
	psrlw	$2, %xmm4
	pand	%xmm5, %xmm4
	paddb	%xmm7, %xmm4
	movdqa	%xmm4, %xmm7
	psrlw	$4, %xmm7
	paddb	%xmm4, %xmm7
	movdqa	.LCPI10_2(%rip), %xmm4
	pand	%xmm4, %xmm7
	psadbw	%xmm1, %xmm7
	paddq	%xmm7, %xmm2
	movdqa	%xmm3, %xmm7
	psrlw	$1, %xmm7
	pand	%xmm6, %xmm7
	psubb	%xmm7, %xmm3
	movdqa	%xmm3, %xmm6
	pand	%xmm5, %xmm6
	psrlw	$2, %xmm3
	pand	%xmm5, %xmm3
	paddb	%xmm6, %xmm3
	movdqa	%xmm3, %xmm5
	psrlw	$4, %xmm5
	paddb	%xmm3, %xmm5
	pand	%xmm4, %xmm5
	psadbw	%xmm1, %xmm5
	paddq	%xmm5, %xmm0
	addq	$4, %r14
	cmpq	%r14, %r10
	jne	.LBB10_31
	paddq	%xmm2, %xmm0
	pshufd	$238, %xmm0, %xmm1
	paddq	%xmm0, %xmm1
	movq	%xmm1, %r12
	cmpq	%r10, -32(%rsp)
	movq	-56(%rsp), %r14
	movabsq	$3689348814741910323, %rsi
	je	.LBB10_35
.LBB10_33:
	subq	%r10, %r11
	addq	%rbp, %r14
	addq	%rbx, %r14
	addq	%r10, %rcx
	leaq	(%r14,%rcx,8), %r9
	movq	-48(%rsp), %rcx
	addq	%r9, %rcx
	addq	$4, %rcx
	xorl	%r9d, %r9d
.LBB10_34:
	movq	(%rcx,%r9,8), %r10
	movq	%r10, %r14
	shrq	%r14
	movq	%r13, %rbp
	movabsq	$6148914691236517205, %r13
	andq	%r14, %r13
	subq	%r13, %r10
	movq	%rbp, %r13
	movq	%r10, %r14
	andq	%rsi, %r14
	shrq	$2, %r10
	andq	%rsi, %r10
	addq	%r14, %r10
	movq	%r10, %r14
	shrq	$4, %r14
	addq	%r10, %r14
	movabsq	$1085102592571150095, %r10
	andq	%r10, %r14
	imulq	%rbp, %r14
	shrq	$56, %r14
	addq	%r14, %r12
	incq	%r9
	cmpq	%r9, %r11
	jne	.LBB10_34
.LBB10_35:
	movq	$-1, %r9
	movq	-40(%rsp), %rcx
	shlq	%cl, %r9
	movq	-48(%rsp), %rcx
	notq	%r9
	movq	-24(%rsp), %r11
	andq	%r9, %r11
	movq	%r11, %r9
	shrq	%r9
	movabsq	$1537228672809129301, %r10
	andq	%r9, %r10
	subq	%r10, %r11
	movq	%r11, %r9
	andq	%rsi, %r9
	shrq	$2, %r11
	andq	%rsi, %r11
	addq	%r9, %r11
	movq	%r11, %r9
	shrq	$4, %r9
	addq	%r11, %r9
	movabsq	$1085102592571150095, %rsi
	andq	%rsi, %r9
	imulq	%r13, %r9
	shrq	$56, %r9
	addq	%r9, %rax
	addq	%r12, %rax
	cmpq	-16(%rsp), %rax
	movq	-32(%rsp), %r12
	ja	.LBB10_68
	incq	%r12
	xorl	%r11d, %r11d
.LBB10_13:
	addq	%r8, %rax
	addq	%r15, %rbx
	movl	%eax, %r14d
	movq	56(%rdx), %r9
	movq	72(%rdx), %r15
	addq	%rbx, %rcx
	movzbl	-68(%rsp), %esi
	leaq	.LJTI10_0(%rip), %r10
	movslq	(%r10,%rsi,4), %rsi
	addq	%r10, %rsi
	jmpq	*%rsi
.LBB10_72:
	movabsq	$-9223372036854775808, %rsi
	movq	64(%rdx), %r8
	movl	%r8d, %eax
	movq	%r8, %rdx
	shrq	%rdx
	orq	%rsi, %rdx
	notq	%r8
	shrq	%r8
	testb	$1, %al
	cmoveq	%rdx, %r8
	testq	%r9, %r9
	je	.LBB10_73
	movq	%r14, %rax
	imulq	%r9, %rax
	movq	%rax, %r10
	shrq	$3, %r10
	leaq	(%r9,%rax), %rbx
	addq	$7, %rbx
	shrq	$3, %rbx
	movq	%rbx, %rdx
	subq	%r10, %rdx
	andl	$7, %eax
	movq	%r12, %r13
	cmpq	$8, %r9
	ja	.LBB10_76
	movzbl	(%rcx,%r10), %r10d
	movzbl	-1(%rcx,%rbx), %ebx
	movq	$-1, %r12
	jmp	.LBB10_81
.LBB10_42:
	movl	%r14d, %edx
	shrl	$14, %edx
	leaq	(%rdx,%rdx,4), %rdx
	leaq	(%rdx,%rdx,4), %rsi
	movzbl	24(%rcx,%rsi), %r9d
	cmpq	$64, %r9
	ja	.LBB10_68
	movabsq	$-9223372036854775808, %r13
	xorq	(%rcx,%rsi), %r13
	movq	-64(%rsp), %r10
	movq	%r10, %rdx
	shrq	$14, %rdx
	andl	$16383, %r10d
	addl	$16383, %r10d
	shrl	$14, %r10d
	addq	%rdx, %r10
	leaq	(%r10,%r10,4), %rdx
	leaq	(%rdx,%rdx,4), %rdx
	andl	$16383, %eax
	testq	%r9, %r9
	je	.LBB10_44
	movq	16(%rcx,%rsi), %r10
	addq	%rdx, %rbx
	movq	-8(%rsp), %r8
	subq	%rbx, %r8
	subq	%r10, %r8
	jb	.LBB10_68
	leal	1(%rax), %esi
	movl	%r9d, %ebx
	imull	%esi, %ebx
	addl	$7, %ebx
	shrl	$3, %ebx
	cmpq	%rbx, %r8
	jb	.LBB10_68
	addq	%rdx, %r10
	testq	%r9, %r9
	jne	.LBB10_52
	jmp	.LBB10_51
.LBB10_48:
	leaq	(,%r15,8), %r10
	xorl	%r13d, %r13d
	movq	%r14, %rax
	testq	%r9, %r9
	jne	.LBB10_52
	jmp	.LBB10_51
.LBB10_41:
	movq	64(%rdx), %r13
	movl	%r13d, %eax
	movq	%r13, %rdx
	shrq	%rdx
	movabsq	$-9223372036854775808, %rsi
	orq	%rdx, %rsi
	notq	%r13
	shrq	%r13
	testb	$1, %al
	cmoveq	%rsi, %r13
	xorl	%r10d, %r10d
	movq	%r14, %rax
	testq	%r9, %r9
	je	.LBB10_51
.LBB10_52:
	addq	%rcx, %r10
	imulq	%r9, %rax
	movq	%rax, %rbx
	shrq	$3, %rbx
	leaq	(%r9,%rax), %rdx
	addq	$7, %rdx
	shrq	$3, %rdx
	andl	$7, %eax
	cmpq	$8, %r9
	ja	.LBB10_54
	movzbl	(%r10,%rbx), %esi
	movzbl	-1(%r10,%rdx), %r8d
	movl	$1, %r10d
	jmp	.LBB10_59
.LBB10_54:
	cmpq	$24, %r9
	ja	.LBB10_56
	movzwl	(%r10,%rbx), %esi
	movzwl	-2(%r10,%rdx), %r8d
	movl	$2, %r10d
	jmp	.LBB10_59
.LBB10_73:
	xorl	%ebx, %ebx
	jmp	.LBB10_82
.LBB10_56:
	cmpq	$56, %r9
	ja	.LBB10_58
	movl	(%r10,%rbx), %esi
	movl	-4(%r10,%rdx), %r8d
	movl	$4, %r10d
	jmp	.LBB10_59
.LBB10_76:
	cmpq	$24, %r9
	ja	.LBB10_78
	movzwl	(%rcx,%r10), %r10d
	movzwl	-2(%rcx,%rbx), %ebx
	movq	$-2, %r12
	jmp	.LBB10_81
.LBB10_44:
	xorl	%r10d, %r10d
	addq	%rdx, %r10
	testq	%r9, %r9
	jne	.LBB10_52
.LBB10_51:
	xorl	%r8d, %r8d
	jmp	.LBB10_61
.LBB10_58:
	movq	(%r10,%rbx), %rsi
	movq	-8(%r10,%rdx), %r8
	movl	$8, %r10d
.LBB10_59:
	subq	%rbx, %rdx
	cmpb	$1, -68(%rsp)
	jne	.LBB10_60
	subl	%r10d, %edx
	shll	$3, %edx
	movl	%edx, %ecx
	shlq	%cl, %r8
	orq	%rsi, %r8
	addl	%r9d, %eax
	negb	%al
	movl	%eax, %ecx
	shlq	%cl, %r8
	negb	%r9b
	movl	%r9d, %ecx
	shrq	%cl, %r8
	jmp	.LBB10_65
.LBB10_60:
	bswapq	%rsi
	movq	%rcx, %rbx
	movl	%eax, %ecx
	shlq	%cl, %rsi
	bswapq	%r8
	subl	%r10d, %edx
	shll	$3, %edx
	subl	%eax, %edx
	movl	%edx, %ecx
	shrq	%cl, %r8
	orq	%rsi, %r8
	negb	%r9b
	movl	%r9d, %ecx
	shrq	%cl, %r8
	movq	%rbx, %rcx
.LBB10_61:
	cmpb	$3, -68(%rsp)
	jne	.LBB10_65
	cmpq	%r8, %r15
	jbe	.LBB10_68
	movq	(%rcx,%r8,8), %rbx
	jmp	.LBB10_88
.LBB10_65:
	movq	%r13, %rax
	notq	%rax
	cmpq	$2, %r15
	jb	.LBB10_67
	movq	%r8, %rcx
	orq	%r15, %rcx
	shrq	$32, %rcx
	je	.LBB10_67
	xorl	%edx, %edx
	divq	%r15
	cmpq	%rax, %r8
	ja	.LBB10_68
	imulq	%r15, %r8
	jmp	.LBB10_71
.LBB10_67:
	imulq	%r15, %r8
	cmpq	%rax, %r8
	ja	.LBB10_68
.LBB10_71:
	addq	%r13, %r8
	movabsq	$-9223372036854775808, %rbx
	xorq	%r8, %rbx
	jmp	.LBB10_88
.LBB10_78:
	cmpq	$56, %r9
	ja	.LBB10_80
	movl	(%rcx,%r10), %r10d
	movl	-4(%rcx,%rbx), %ebx
	movq	$-4, %r12
	jmp	.LBB10_81
.LBB10_80:
	movq	(%rcx,%r10), %r10
	movq	-8(%rcx,%rbx), %rbx
	movq	$-8, %r12
.LBB10_81:
	bswapq	%r10
	movl	%eax, %ecx
	shlq	%cl, %r10
	bswapq	%rbx
	addl	%r12d, %edx
	shll	$3, %edx
	subl	%eax, %edx
	movl	%edx, %ecx
	shrq	%cl, %rbx
	orq	%r10, %rbx
	negb	%r9b
	movl	%r9d, %ecx
	shrq	%cl, %rbx
	movq	%r13, %r12
.LBB10_82:
	movq	%r8, %rax
	notq	%rax
	cmpq	$2, %r15
	jb	.LBB10_84
	movq	%rbx, %rcx
	orq	%r15, %rcx
	shrq	$32, %rcx
	je	.LBB10_84
	xorl	%edx, %edx
	divq	%r15
	cmpq	%rax, %rbx
	ja	.LBB10_68
	imulq	%r15, %rbx
	jmp	.LBB10_87
.LBB10_84:
	imulq	%r15, %rbx
	cmpq	%rax, %rbx
	ja	.LBB10_68
.LBB10_87:
	addq	%r8, %rbx
	xorq	%rsi, %rbx
.LBB10_88:
	pxor	%xmm0, %xmm0
	movdqu	%xmm0, (%rdi)
	movq	%r14, 16(%rdi)
	movq	%rbx, 24(%rdi)
	jmp	.LBB10_89
.Lfunc_end10:
	.size	"lookup::apart::put_steps", .Lfunc_end10-"lookup::apart::put_steps"
	.section	".rodata.lookup::apart::put_steps","a",@progbits
	.p2align	2, 0x0
.LJTI10_0:
	.long	.LBB10_72-.LJTI10_0
	.long	.LBB10_41-.LJTI10_0
	.long	.LBB10_42-.LJTI10_0
	.long	.LBB10_48-.LJTI10_0

	.section	".text.signalfern_c::look_in","ax",@progbits
	.p2align	4
	.type	"signalfern_c::look_in",@function
"signalfern_c::look_in":
	movl	%ecx, %r9d
	cmpq	$1, 16(%rsi)
	jne	.LBB11_10
	movq	24(%rsi), %rax
	cmpl	$2147352576, %r9d
	setae	%cl
	cmpq	$2147352577, %rax
	setae	%r8b
	orb	%cl, %r8b
	je	.LBB11_2
.LBB11_10:
	movl	%r9d, %ecx
	jmp	"signalfern_c::answer_in"
.LBB11_2:
	movq	48(%rsi), %rcx
	movq	32(%rsi), %r10
	testq	%r10, %r10
	setne	%r8b
	addq	$-16, %r10
	cmpq	$-9, %r10
	setb	%r10b
	cmpq	$32767, %rcx
	ja	.LBB11_10
	andb	%r10b, %r8b
	jne	.LBB11_10
	cmpq	$0, 72(%rsi)
	je	.LBB11_10
	movq	56(%rsi), %r11
	cmpq	$64, %r11
	ja	.LBB11_10
	movq	40(%rsi), %r10
	leaq	6(,%rcx,8), %rcx
	cmpq	%rcx, %r10
	jb	.LBB11_10
	pushq	%rbx
	movq	80(%rsi), %rcx
	movq	8(%rdx), %r8
	imulq	%r11, %rax
	addq	$7, %rax
	shrq	$3, %rax
	cmpq	%rax, %rcx
	setne	%r11b
	movq	%r8, %rax
	subq	88(%rsi), %rax
	setb	%bl
	orb	%r11b, %bl
	popq	%rbx
	jne	.LBB11_10
	subq	%r10, %rax
	setae	%r10b
	cmpq	%rcx, %rax
	sete	%al
	testb	%al, %r10b
	je	.LBB11_10
	movq	(%rdx), %rcx
	movq	%rsi, %rdx
	xorl	%esi, %esi
	jmp	"lookup::apart::put_steps"
.Lfunc_end11:
	.size	"signalfern_c::look_in", .Lfunc_end11-"signalfern_c::look_in"

	.section	".text.signalfern_c::answer_in","ax",@progbits
	.p2align	4
	.type	"signalfern_c::answer_in",@function
"signalfern_c::answer_in":
	pushq	%rbp
	pushq	%r15
	pushq	%r14
	pushq	%r13
	pushq	%r12
	pushq	%rbx
	subq	$200, %rsp
	movl	%ecx, %r9d
	movq	16(%rsi), %r15
	decq	%r15
	cmpq	$3, %r15
	ja	.LBB12_1
	movq	56(%rsi), %rcx
	movl	$14, %r10d
	cmpl	$2147352575, %r9d
	jbe	.LBB12_4
	jmp	.LBB12_28
.LBB12_1:
	movl	$65, %ecx
	xorl	%r15d, %r15d
	movl	$14, %r10d
	cmpl	$2147352575, %r9d
	ja	.LBB12_28
.LBB12_4:
	movq	24(%rsi), %r11
	movl	$10, %r10d
	cmpq	$2147352576, %r11
	jbe	.LBB12_5
.LBB12_28:
	movq	%r10, (%rdi)
	xorps	%xmm0, %xmm0
	movups	%xmm0, 8(%rdi)
	movups	%xmm0, 24(%rdi)
	movq	$0, 40(%rdi)
.LBB12_29:
	addq	$200, %rsp
	popq	%rbx
	popq	%r12
	popq	%r13
	popq	%r14
	popq	%r15
	popq	%rbp
	retq
.LBB12_5:
	movq	48(%rsi), %rbx
	movq	32(%rsi), %r14
	testq	%r14, %r14
	setne	%al
	leaq	-16(%r14), %r8
	cmpq	$-9, %r8
	setb	%r8b
	cmpq	$32767, %rbx
	ja	.LBB12_28
	andb	%r8b, %al
	jne	.LBB12_28
	cmpq	$64, %rcx
	ja	.LBB12_28
	movq	40(%rsi), %r12
	leaq	6(,%rbx,8), %rax
	cmpq	%rax, %r12
	jb	.LBB12_28
	movq	88(%rsi), %rax
	movq	%rax, 32(%rsp)
	movq	80(%rsi), %rax
	movq	%rax, 8(%rsp)
	movq	72(%rsi), %rbp
	movq	64(%rsi), %rax
	movq	%rax, 16(%rsp)
	movq	(%rdx), %r8
	movq	8(%rdx), %rax
	movq	%r11, %rdx
	imulq	%rcx, %rdx
	addq	$7, %rdx
	shrq	$3, %rdx
	movzbl	%r15b, %esi
	cmpb	$2, %sil
	jae	.LBB12_10
	testq	%rbp, %rbp
	je	.LBB12_28
	movq	%rax, %r13
	movq	%r8, %rax
	movabsq	$72340173107564823, %r8
	shrq	%cl, %r8
	notb	%r15b
	orb	%r15b, %r8b
	testb	$1, %r8b
	je	.LBB12_28
	cmpq	%rdx, 8(%rsp)
	movq	%rax, %r8
	movq	%r13, %rax
	jne	.LBB12_28
.LBB12_21:
	movl	$11, %r10d
	movq	%rax, %rdx
	subq	32(%rsp), %rdx
	jb	.LBB12_28
	subq	%r12, %rdx
	movq	%rax, 40(%rsp)
	movq	%r8, %r15
	setae	%r8b
	movq	8(%rsp), %rax
	cmpq	%rax, %rdx
	sete	%dl
	andb	%r8b, %dl
	movq	%r15, %r8
	movq	40(%rsp), %r15
	cmpb	$1, %dl
	jne	.LBB12_28
	movq	%rax, %rdx
	movq	%rdi, 24(%rsp)
	xorps	%xmm0, %xmm0
	movaps	%xmm0, 96(%rsp)
	movq	$0, 112(%rsp)
	movq	%r11, 120(%rsp)
	movq	%r14, 128(%rsp)
	movq	%r12, 136(%rsp)
	movq	%rbx, 144(%rsp)
	movq	%rcx, 152(%rsp)
	movq	16(%rsp), %rax
	movq	%rax, 160(%rsp)
	movq	%rbp, 168(%rsp)
	movq	%rdx, 176(%rsp)
	movq	32(%rsp), %rax
	movq	%rax, 184(%rsp)
	movaps	%xmm0, 48(%rsp)
	movaps	%xmm0, 64(%rsp)
	movaps	%xmm0, 80(%rsp)
	leaq	48(%rsp), %rdi
	leaq	96(%rsp), %rdx
	movq	%r8, %rcx
	movq	%r15, %r8
	callq	"lookup::apart::put_steps"
	movq	48(%rsp), %rax
	cmpq	$1, %rax
	je	.LBB12_26
	testq	%rax, %rax
	movq	24(%rsp), %rdi
	jne	.LBB12_27
	movaps	64(%rsp), %xmm0
	movaps	80(%rsp), %xmm1
	xorps	%xmm2, %xmm2
	movups	%xmm2, (%rdi)
	movups	%xmm0, 16(%rdi)
	movups	%xmm1, 32(%rdi)
	jmp	.LBB12_29
.LBB12_10:
	cmpl	$2, %esi
	jne	.LBB12_17
	testq	%rcx, %rcx
	jne	.LBB12_28
	cmpq	$0, 16(%rsp)
	setne	%dl
	testq	%rbp, %rbp
	sete	%r15b
	orb	%dl, %r15b
	jne	.LBB12_28
	leaq	16383(%r11), %rdx
	shrq	$14, %rdx
	leaq	(%rdx,%rdx,4), %rdx
	leaq	(%rdx,%rdx,4), %rdx
	cmpq	8(%rsp), %rdx
	ja	.LBB12_28
	jmp	.LBB12_21
.LBB12_17:
	leaq	-257(%rbp), %r15
	cmpq	$-255, %r15
	jb	.LBB12_28
	cmpq	$0, 16(%rsp)
	jne	.LBB12_28
	movl	$127, %r15d
	leaq	-1(%rbp), %r13
	bsrq	%r13, %r15
	xorq	$-64, %r15
	addq	$65, %r15
	cmpq	%r15, %rcx
	jne	.LBB12_28
	leaq	(%rdx,%rbp,8), %rdx
	cmpq	%rdx, 8(%rsp)
	jne	.LBB12_28
	jmp	.LBB12_21
.LBB12_26:
	movaps	80(%rsp), %xmm0
	movq	24(%rsp), %r15
	movq	$1, (%r15)
	xorps	%xmm1, %xmm1
	movups	%xmm1, 8(%r15)
	movq	$0, 24(%r15)
	movups	%xmm0, 32(%r15)
	jmp	.LBB12_29
.LBB12_27:
	movl	$15, %r10d
	jmp	.LBB12_28
.Lfunc_end12:
	.size	"signalfern_c::answer_in", .Lfunc_end12-"signalfern_c::answer_in"

	.section	.rodata.cst16,"aM",@progbits,16
	.p2align	4, 0x0
.LCPI13_0:
	.short	1
	.short	1
	.short	1
	.short	1
	.short	1
	.short	1
	.short	1
	.short	1
.LCPI13_1:
	.short	32768
	.short	32768
	.short	32768
	.short	32768
	.short	32768
	.short	32768
	.short	32768
	.short	32768
.LCPI13_2:
	.zero	4
	.long	4294967295
	.long	4294967295
	.long	4294967295
	.section	".text.page::fill_by","ax",@progbits
	.p2align	4
	.type	"page::fill_by",@function
"page::fill_by":
	pushq	%rbp
	pushq	%r15
	pushq	%r14
	pushq	%r13
	pushq	%r12
	pushq	%rbx
	subq	$328, %rsp
	movq	%r9, 120(%rsp)
	movq	%r8, %rbx
	movq	%rcx, %r14
	movq	%rdx, %r15
	movq	%rsi, %r12
	movq	%rdi, %r13
	movq	392(%rsp), %rax
	movzbl	8(%rax), %esi
	cmpb	$1, (%rax)
	jne	.LBB13_6
	testq	%rbx, %rbx
	je	.LBB13_84
	movzbl	%sil, %eax
	xorl	%ecx, %ecx
	jmp	.LBB13_4
	.p2align	4
.LBB13_3:
	movq	$0, (%r13,%rcx,8)
	movq	$0, (%r12,%rcx,8)
	movb	%dl, (%r15,%rcx)
	incq	%rcx
	cmpq	%rcx, %rbx
	je	.LBB13_84
.LBB13_4:
	movb	$14, %dl
	cmpl	$2147352575, (%r14,%rcx,4)
	ja	.LBB13_3
	leaq	".Lswitch.table.page::fill_by"(%rip), %rdx
	movzbl	(%rax,%rdx), %edx
	jmp	.LBB13_3
.LBB13_6:
	movq	16(%rax), %rdi
	movb	%sil, 248(%rsp)
	movl	9(%rax), %ecx
	movl	12(%rax), %edx
	movl	%ecx, 249(%rsp)
	movl	%edx, 252(%rsp)
	movq	%rdi, 200(%rsp)
	movq	%rdi, 256(%rsp)
	movdqu	24(%rax), %xmm0
	movdqu	40(%rax), %xmm1
	movdqu	56(%rax), %xmm2
	movdqu	72(%rax), %xmm3
	movdqu	%xmm0, 264(%rsp)
	movdqu	%xmm1, 280(%rsp)
	movdqu	%xmm2, 296(%rsp)
	movdqu	%xmm3, 312(%rsp)
	testq	%rbx, %rbx
	je	.LBB13_84
	movb	%sil, 47(%rsp)
	movq	264(%rsp), %rdi
	movq	272(%rsp), %rdx
	movq	280(%rsp), %rbp
	movq	288(%rsp), %rax
	movq	%rax, 112(%rsp)
	movq	296(%rsp), %rax
	movq	304(%rsp), %rcx
	movq	%rcx, 104(%rsp)
	movq	320(%rsp), %rsi
	movq	120(%rsp), %r9
	leaq	(%r9,%rsi), %r10
	movb	$17, %cl
	subb	%dil, %cl
	movl	$1, %r8d
	shlq	%cl, %r8
	movq	%rdx, %rcx
	leaq	(,%rbp,8), %r11
	subq	%r11, %rcx
	addq	$8192, %r8
	testq	%rdi, %rdi
	movl	$8192, %edi
	cmovneq	%r8, %rdi
	movq	%rdi, 184(%rsp)
	addq	%rsi, %rdx
	leaq	(%r9,%rdx), %rdi
	movq	%rdi, 64(%rsp)
	movq	384(%rsp), %rdi
	subq	%rdx, %rdi
	movq	%rdi, 208(%rsp)
	movl	%eax, %edi
	movq	%rax, %rdx
	shrq	%rdx
	movabsq	$-9223372036854775808, %r8
	orq	%r8, %rdx
	movq	112(%rsp), %r11
	notq	%rax
	shrq	%rax
	testb	$1, %dil
	cmoveq	%rdx, %rax
	movl	$64, %edx
	subq	%r11, %rdx
	movq	%rdx, 136(%rsp)
	movq	%rax, 192(%rsp)
	notq	%rax
	movq	%rax, 144(%rsp)
	leaq	22(%r9,%rsi), %rax
	movq	%rax, 160(%rsp)
	leaq	6(%r9,%rsi), %rax
	movq	%rax, 168(%rsp)
	movq	%rbp, 240(%rsp)
	leaq	-1(%rbp), %rax
	movq	%rax, 232(%rsp)
	movq	%r10, 88(%rsp)
	movq	%rcx, 152(%rsp)
	leaq	(%r10,%rcx), %rax
	movq	%rax, 224(%rsp)
	leaq	-1(%r11), %rax
	movq	%rax, 216(%rsp)
	leaq	7(%r11), %rax
	movq	%rax, 176(%rsp)
	xorl	%ebp, %ebp
	xorl	%eax, %eax
	.p2align	4
.LBB13_8:
	movq	%rbp, %r8
	leaq	1(%rbp), %r9
	.p2align	4
.LBB13_9:
	cmpq	%rbx, %r9
	jae	.LBB13_13
	movl	-4(%r14,%r9,4), %edx
	movl	(%r14,%r9,4), %ecx
	incq	%r9
	cmpl	%ecx, %edx
	ja	.LBB13_12
	xorl	%edx, %ecx
	cmpl	$65536, %ecx
	jb	.LBB13_9
.LBB13_12:
	decq	%r9
	jmp	.LBB13_14
	.p2align	4
.LBB13_13:
	movq	%rbx, %r9
.LBB13_14:
	movq	%r9, %rdx
	subq	%r8, %rdx
	movq	%rbx, %rcx
	subq	%r8, %rcx
	leaq	1024(%r8), %r10
	cmpq	$1025, %rcx
	cmovbq	%rbx, %r10
	cmpq	$17, %rdx
	movq	%r10, %rbp
	cmovaeq	%r9, %rbp
	jb	.LBB13_18
	cmpb	$0, 47(%rsp)
	sete	%cl
	movl	(%r14,%r8,4), %esi
	cmpq	$2147352576, %rsi
	setb	%dil
	andb	%cl, %dil
	cmpb	$1, %dil
	jne	.LBB13_78
	shrl	$16, %esi
	cmpq	$0, 240(%rsp)
	je	.LBB13_19
	movq	232(%rsp), %rdi
	cmpq	%rsi, %rdi
	movq	%rsi, %rcx
	cmovbq	%rdi, %rcx
	movl	%ecx, %ecx
	movq	224(%rsp), %rdi
	movl	(%rdi,%rcx,8), %r10d
	movl	4(%rdi,%rcx,8), %ecx
	leaq	4(%rcx), %rdi
	cmpq	%rdi, 152(%rsp)
	jae	.LBB13_20
	jmp	.LBB13_78
	.p2align	4
.LBB13_18:
	movq	%rax, 24(%rsp)
	leaq	248(%rsp), %rax
	movq	%rax, 16(%rsp)
	movq	384(%rsp), %rax
	movq	%rax, 8(%rsp)
	movq	120(%rsp), %rax
	movq	%rax, (%rsp)
	movq	%r13, %rdi
	movq	%r12, %rsi
	movq	%r15, %rdx
	movq	%r14, %rcx
	movq	%r10, %r9
	jmp	.LBB13_79
.LBB13_19:
	xorl	%ecx, %ecx
	xorl	%r10d, %r10d
	leaq	4(%rcx), %rdi
	cmpq	%rdi, 152(%rsp)
	jb	.LBB13_78
.LBB13_20:
	movq	%rdi, 96(%rsp)
	movq	88(%rsp), %rdi
	movzwl	(%rdi,%rcx), %edi
	cmpl	%edi, %esi
	jne	.LBB13_78
	movq	88(%rsp), %rsi
	movzwl	2(%rsi,%rcx), %r11d
	leaq	1(%r11), %rsi
	movq	%rsi, 48(%rsp)
	addl	%esi, %esi
	xorl	%edi, %edi
	cmpq	$65535, %r11
	cmovneq	184(%rsp), %rdi
	cmpq	$4095, %r11
	cmovaeq	%rdi, %rsi
	leaq	4(%rcx), %rdi
	addq	%rdi, %rsi
	cmpq	%rsi, 152(%rsp)
	jb	.LBB13_78
	leaq	(%r11,%r10), %rsi
	incq	%rsi
	cmpq	%rsi, 200(%rsp)
	jb	.LBB13_78
	cmpq	$65535, %r11
	sete	%sil
	incb	%sil
	xorl	%edi, %edi
	movq	%r11, 80(%rsp)
	cmpl	$4095, %r11d
	movzbl	%sil, %esi
	cmovbl	%edi, %esi
	cmpb	$2, %sil
	je	.LBB13_29
	movzbl	%sil, %esi
	cmpl	$1, %esi
	leaq	4(%rcx), %rdi
	je	.LBB13_78
	movq	48(%rsp), %rsi
	shrl	$4, %esi
	cmpq	%rsi, %rdx
	movq	80(%rsp), %rdx
	jb	.LBB13_78
	testq	%rdx, %rdx
	je	.LBB13_65
	cmpw	$4, %dx
	movq	%r10, 72(%rsp)
	jae	.LBB13_66
	movl	$1, %esi
	movb	$1, %r10b
	movq	48(%rsp), %r11
	jmp	.LBB13_75
.LBB13_29:
	movq	96(%rsp), %rdi
.LBB13_30:
	cmpq	%r8, %r9
	jbe	.LBB13_80
	addq	88(%rsp), %rdi
	xorl	%r9d, %r9d
	movq	104(%rsp), %rdx
	movq	%rdi, 96(%rsp)
	movq	48(%rsp), %r11
	movq	%r15, 128(%rsp)
	movq	%r10, 72(%rsp)
	movq	%r12, 56(%rsp)
	jmp	.LBB13_35
	.p2align	4
.LBB13_32:
	xorl	%esi, %esi
	movq	%r11, %r9
.LBB13_33:
	xorl	%edi, %edi
.LBB13_34:
	movq	%rsi, (%r13,%r8,8)
	movq	%rdi, (%r12,%r8,8)
	movb	%cl, (%r15,%r8)
	incq	%r8
	cmpq	%rbp, %r8
	movq	96(%rsp), %rdi
	je	.LBB13_80
.LBB13_35:
	movzwl	(%r14,%r8,4), %esi
	cmpl	$4094, 80(%rsp)
	ja	.LBB13_43
	movb	$1, %cl
	cmpq	%r11, %r9
	jae	.LBB13_32
	.p2align	4
.LBB13_37:
	cmpw	%si, (%rdi,%r9,2)
	jae	.LBB13_40
	incq	%r9
	cmpq	%r9, %r11
	jne	.LBB13_37
	movq	%r11, %r9
.LBB13_40:
	cmpq	%r9, %r11
	jbe	.LBB13_49
	cmpw	%si, (%rdi,%r9,2)
	jne	.LBB13_49
	movq	%r9, %rsi
	.p2align	4
.LBB13_43:
	addq	%r10, %rsi
	movq	%rsi, %rcx
	imulq	112(%rsp), %rcx
	movq	%rcx, %r10
	shrq	$3, %r10
	cmpq	$56, 216(%rsp)
	ja	.LBB13_46
	leaq	8(%r10), %rdx
	cmpq	208(%rsp), %rdx
	movq	104(%rsp), %rdx
	ja	.LBB13_46
	movq	64(%rsp), %rdi
	movq	(%rdi,%r10), %r10
	bswapq	%r10
	andb	$7, %cl
	shlq	%cl, %r10
	movq	136(%rsp), %rcx
	shrq	%cl, %r10
	cmpq	$2, %rdx
	jae	.LBB13_57
	jmp	.LBB13_60
	.p2align	4
.LBB13_46:
	movq	112(%rsp), %r12
	testq	%r12, %r12
	je	.LBB13_50
	movq	176(%rsp), %rdx
	leaq	(%rdx,%rcx), %rdi
	shrq	$3, %rdi
	movq	%rdi, %rdx
	subq	%r10, %rdx
	andl	$7, %ecx
	cmpq	$8, %r12
	ja	.LBB13_51
	movq	64(%rsp), %r12
	movzbl	(%r12,%r10), %r11d
	movzbl	-1(%r12,%rdi), %r10d
	movq	$-1, %rdi
	jmp	.LBB13_56
.LBB13_49:
	xorl	%esi, %esi
	jmp	.LBB13_33
.LBB13_50:
	xorl	%r10d, %r10d
	movq	56(%rsp), %r12
	cmpq	$2, %rdx
	jae	.LBB13_57
	jmp	.LBB13_60
.LBB13_51:
	cmpq	$24, %r12
	ja	.LBB13_53
	movq	64(%rsp), %r12
	movzwl	(%r12,%r10), %r11d
	movzwl	-2(%r12,%rdi), %r10d
	movq	$-2, %rdi
	jmp	.LBB13_56
.LBB13_53:
	cmpq	$56, %r12
	ja	.LBB13_55
	movq	64(%rsp), %r12
	movl	(%r12,%r10), %r11d
	movl	-4(%r12,%rdi), %r10d
	movq	$-4, %rdi
	jmp	.LBB13_56
.LBB13_55:
	movq	64(%rsp), %r12
	movq	(%r12,%r10), %r11
	movq	-8(%r12,%rdi), %r10
	movq	$-8, %rdi
.LBB13_56:
	movq	56(%rsp), %r12
	bswapq	%r11
	shlq	%cl, %r11
	bswapq	%r10
	addl	%edi, %edx
	shll	$3, %edx
	subl	%ecx, %edx
	movl	%edx, %ecx
	shrq	%cl, %r10
	orq	%r11, %r10
	movq	136(%rsp), %rcx
	shrq	%cl, %r10
	movq	104(%rsp), %rdx
	movq	48(%rsp), %r11
	cmpq	$2, %rdx
	jb	.LBB13_60
.LBB13_57:
	movq	%r10, %rcx
	orq	%rdx, %rcx
	shrq	$32, %rcx
	je	.LBB13_60
	movq	%rax, %r11
	xorl	%edi, %edi
	movq	144(%rsp), %rax
	movq	%rdx, %r15
	xorl	%edx, %edx
	divq	%r15
	movb	$15, %cl
	cmpq	%rax, %r10
	jbe	.LBB13_62
	xorl	%esi, %esi
	movq	%r11, %rax
	movq	%r15, %rdx
	movq	128(%rsp), %r15
	movq	72(%rsp), %r10
	movq	48(%rsp), %r11
	jmp	.LBB13_34
	.p2align	4
.LBB13_60:
	imulq	%rdx, %r10
	cmpq	144(%rsp), %r10
	jbe	.LBB13_63
	movb	$15, %cl
	xorl	%esi, %esi
	xorl	%edi, %edi
	jmp	.LBB13_64
.LBB13_62:
	imulq	%r15, %r10
	movq	%r11, %rax
	movq	%r15, %rdx
	movq	128(%rsp), %r15
	movq	48(%rsp), %r11
.LBB13_63:
	addq	192(%rsp), %r10
	movabsq	$-9223372036854775808, %rcx
	xorq	%rcx, %r10
	xorl	%ecx, %ecx
	movq	%r10, %rdi
.LBB13_64:
	movq	72(%rsp), %r10
	jmp	.LBB13_34
.LBB13_65:
	movl	$1, %ecx
	movq	%rcx, 48(%rsp)
	jmp	.LBB13_30
.LBB13_66:
	cmpw	$16, %dx
	movq	48(%rsp), %r11
	jae	.LBB13_68
	movb	$1, %r10b
	xorl	%edx, %edx
	jmp	.LBB13_72
.LBB13_68:
	andl	$-16, %edx
	movq	160(%rsp), %rsi
	addq	%rcx, %rsi
	movdqa	.LCPI13_0(%rip), %xmm0
	xorl	%r10d, %r10d
	movdqa	%xmm0, %xmm1
	.p2align	4
.LBB13_69:
	movdqu	-18(%rsi,%r10,2), %xmm2
	movdqu	-16(%rsi,%r10,2), %xmm3
	movdqu	-2(%rsi,%r10,2), %xmm4
	movdqu	(%rsi,%r10,2), %xmm5
	movdqa	.LCPI13_1(%rip), %xmm6
	pxor	%xmm6, %xmm2
	pxor	%xmm6, %xmm3
	pcmpgtw	%xmm2, %xmm3
	pand	%xmm3, %xmm1
	pxor	%xmm6, %xmm4
	pxor	%xmm6, %xmm5
	pcmpgtw	%xmm4, %xmm5
	pand	%xmm5, %xmm0
	addq	$16, %r10
	cmpq	%r10, %rdx
	jne	.LBB13_69
	pand	%xmm1, %xmm0
	psllw	$15, %xmm0
	packsswb	%xmm0, %xmm0
	pmovmskb	%xmm0, %esi
	cmpb	$-1, %sil
	sete	%r10b
	movq	80(%rsp), %rsi
	cmpl	%esi, %edx
	je	.LBB13_77
	testb	$12, %sil
	je	.LBB13_81
.LBB13_72:
	movq	80(%rsp), %r11
	andl	$-4, %r11d
	leaq	1(%r11), %rsi
	movzbl	%r10b, %edi
	movd	%edi, %xmm1
	movaps	.LCPI13_2(%rip), %xmm0
	movss	%xmm1, %xmm0
	addq	168(%rsp), %rcx
	.p2align	4
.LBB13_73:
	movq	(%rcx,%rdx,2), %xmm1
	movq	-2(%rcx,%rdx,2), %xmm2
	movdqa	.LCPI13_1(%rip), %xmm3
	pxor	%xmm3, %xmm2
	pxor	%xmm3, %xmm1
	pcmpgtw	%xmm2, %xmm1
	punpcklwd	%xmm1, %xmm1
	andps	%xmm1, %xmm0
	addq	$4, %rdx
	cmpq	%rdx, %r11
	jne	.LBB13_73
	pslld	$31, %xmm0
	movmskps	%xmm0, %ecx
	xorl	$15, %ecx
	sete	%r10b
	cmpl	80(%rsp), %r11d
	movq	96(%rsp), %rdi
	movq	48(%rsp), %r11
	je	.LBB13_77
.LBB13_75:
	movq	88(%rsp), %rcx
	addq	%rdi, %rcx
	.p2align	4
.LBB13_76:
	movzwl	-2(%rcx,%rsi,2), %edx
	cmpw	(%rcx,%rsi,2), %dx
	setb	%dl
	andb	%dl, %r10b
	incq	%rsi
	cmpq	%rsi, %r11
	jne	.LBB13_76
.LBB13_77:
	testb	%r10b, %r10b
	movq	72(%rsp), %r10
	jne	.LBB13_30
	.p2align	4
.LBB13_78:
	movq	%rax, 24(%rsp)
	leaq	248(%rsp), %rax
	movq	%rax, 16(%rsp)
	movq	384(%rsp), %rax
	movq	%rax, 8(%rsp)
	movq	120(%rsp), %rax
	movq	%rax, (%rsp)
	movq	%r13, %rdi
	movq	%r12, %rsi
	movq	%r15, %rdx
	movq	%r14, %rcx
.LBB13_79:
	callq	"page::fill_any"
.LBB13_80:
	cmpq	%rbx, %rbp
	jb	.LBB13_8
	jmp	.LBB13_85
.LBB13_81:
	orq	$1, %rdx
	movq	%rdx, %rsi
	jmp	.LBB13_75
.LBB13_84:
	xorl	%eax, %eax
.LBB13_85:
	addq	$328, %rsp
	popq	%rbx
	popq	%r12
	popq	%r13
	popq	%r14
	popq	%r15
	popq	%rbp
	retq
.Lfunc_end13:
	.size	"page::fill_by", .Lfunc_end13-"page::fill_by"

	.section	.rodata.cst16,"aM",@progbits,16
	.p2align	4, 0x0
.LCPI14_0:
	.quad	65536
	.quad	65536
.LCPI14_1:
	.zero	16,85
.LCPI14_2:
	.zero	16,51
.LCPI14_3:
	.zero	16,15
	.section	".text.page::fill_any","ax",@progbits
	.p2align	4
	.type	"page::fill_any",@function
"page::fill_any":
	pushq	%rbp
	pushq	%r15
	pushq	%r14
	pushq	%r13
	pushq	%r12
	pushq	%rbx
	subq	$920, %rsp
	movq	%rcx, %r13
	movq	%rdx, 144(%rsp)
	movq	%rsi, 136(%rsp)
	movq	%rdi, 128(%rsp)
	movq	992(%rsp), %rax
	movzbl	(%rax), %ecx
	movl	%ecx, -124(%rsp)
	movq	8(%rax), %rdi
	movq	16(%rax), %r10
	movq	24(%rax), %rsi
	movq	32(%rax), %r11
	movq	40(%rax), %rbx
	movq	48(%rax), %r15
	movq	56(%rax), %r12
	movq	72(%rax), %rax
	movdqa	.LCPI14_0(%rip), %xmm0
	movdqu	%xmm0, 808(%rsp)
	movdqu	%xmm0, 792(%rsp)
	movdqu	%xmm0, 840(%rsp)
	movdqu	%xmm0, 824(%rsp)
	movdqu	%xmm0, 872(%rsp)
	movdqu	%xmm0, 856(%rsp)
	movdqu	%xmm0, 904(%rsp)
	movdqu	%xmm0, 888(%rsp)
	movq	$1, 152(%rsp)
	pxor	%xmm0, %xmm0
	movdqu	%xmm0, 160(%rsp)
	movdqu	%xmm0, 176(%rsp)
	movq	$1, 192(%rsp)
	movdqu	%xmm0, 200(%rsp)
	movdqu	%xmm0, 216(%rsp)
	movq	$1, 232(%rsp)
	movdqu	%xmm0, 240(%rsp)
	movdqu	%xmm0, 256(%rsp)
	movq	$1, 272(%rsp)
	movdqu	%xmm0, 280(%rsp)
	movdqu	%xmm0, 296(%rsp)
	movq	$1, 312(%rsp)
	movdqu	%xmm0, 336(%rsp)
	movdqu	%xmm0, 320(%rsp)
	movq	$1, 352(%rsp)
	movdqu	%xmm0, 360(%rsp)
	movdqu	%xmm0, 376(%rsp)
	movq	$1, 392(%rsp)
	movdqu	%xmm0, 400(%rsp)
	movdqu	%xmm0, 416(%rsp)
	movq	$1, 432(%rsp)
	movdqu	%xmm0, 440(%rsp)
	movdqu	%xmm0, 456(%rsp)
	movq	$1, 472(%rsp)
	movdqu	%xmm0, 480(%rsp)
	movdqu	%xmm0, 496(%rsp)
	movq	$1, 512(%rsp)
	movdqu	%xmm0, 520(%rsp)
	movdqu	%xmm0, 536(%rsp)
	movq	$1, 552(%rsp)
	movdqu	%xmm0, 576(%rsp)
	movdqu	%xmm0, 560(%rsp)
	movq	$1, 592(%rsp)
	movdqu	%xmm0, 616(%rsp)
	movdqu	%xmm0, 600(%rsp)
	movq	$1, 632(%rsp)
	movdqu	%xmm0, 656(%rsp)
	movdqu	%xmm0, 640(%rsp)
	movq	$1, 672(%rsp)
	movdqu	%xmm0, 696(%rsp)
	movdqu	%xmm0, 680(%rsp)
	movq	$1, 712(%rsp)
	movdqu	%xmm0, 736(%rsp)
	movdqu	%xmm0, 720(%rsp)
	movq	$1, 752(%rsp)
	movdqu	%xmm0, 776(%rsp)
	movdqu	%xmm0, 760(%rsp)
	movq	1000(%rsp), %r14
	cmpq	%r9, %r8
	jae	.LBB14_97
	movq	984(%rsp), %rbp
	movq	%r12, -120(%rsp)
	movq	976(%rsp), %rcx
	addq	%rax, %rcx
	movq	%rcx, -88(%rsp)
	leaq	(,%r11,8), %rcx
	movq	%rsi, %rdx
	subq	%rcx, %rdx
	movb	$17, %cl
	subb	%r10b, %cl
	movq	%rax, %r12
	movl	$1, %eax
	shlq	%cl, %rax
	leaq	8192(%rax), %rcx
	movq	%r11, 120(%rsp)
	subq	$1, %r11
	movq	%r11, 112(%rsp)
	movl	$2, %r11d
	sbbq	$0, %r11
	movq	%r11, 96(%rsp)
	testq	%r10, %r10
	movl	$8192, %r11d
	cmovneq	%rcx, %r11
	movq	%r11, 88(%rsp)
	cmoveq	%r10, %rax
	addq	%r12, %rsi
	subq	%rsi, %rbp
	movq	%rdi, %rcx
	shrq	$14, %rcx
	movq	%rdi, 72(%rsp)
	andl	$16383, %edi
	addl	$16383, %edi
	shrl	$14, %edi
	addq	%rcx, %rdi
	leaq	(%rdi,%rdi,4), %rcx
	leaq	(%rcx,%rcx,4), %rcx
	movq	%rbp, 24(%rsp)
	movq	%rcx, -16(%rsp)
	subq	%rcx, %rbp
	movq	%rbp, (%rsp)
	movl	%r15d, %ecx
	movq	%r15, %rdi
	shrq	%rdi
	movabsq	$-9223372036854775808, %r11
	orq	%r11, %rdi
	notq	%r15
	shrq	%r15
	testb	$1, %cl
	movq	%rdx, -24(%rsp)
	movq	-88(%rsp), %r11
	leaq	(%r11,%rdx), %rcx
	movq	%rcx, 104(%rsp)
	cmoveq	%rdi, %r15
	movq	%r15, -64(%rsp)
	leaq	(%r11,%rax), %rcx
	movq	%rcx, 80(%rsp)
	movq	976(%rsp), %rdx
	leaq	(%rdx,%rsi), %rcx
	movq	%rcx, -80(%rsp)
	addq	%r12, %rax
	leaq	(%rdx,%rax), %rcx
	addq	$16, %rcx
	movq	%rcx, 8(%rsp)
	addq	%rdx, %rax
	movq	%rax, 16(%rsp)
	movl	$64, %eax
	subq	%rbx, %rax
	movq	%rax, -32(%rsp)
	movq	%r10, 48(%rsp)
	leaq	-6(%r10), %rax
	movq	%rax, 40(%rsp)
	movq	-120(%rsp), %rax
	leaq	(,%rax,8), %rax
	movq	%rax, -40(%rsp)
	leaq	-1(%rbx), %rax
	movq	%rax, 32(%rsp)
	movq	%rbx, -96(%rsp)
	leaq	7(%rbx), %rax
	movq	%rax, -8(%rsp)
	xorl	%ebp, %ebp
	movq	%r8, %rbx
	movq	%r9, -48(%rsp)
	movq	%r8, -104(%rsp)
	movq	%r13, -112(%rsp)
	jmp	.LBB14_2
	.p2align	4
.LBB14_20:
	movb	$14, %sil
.LBB14_83:
	xorl	%ecx, %ecx
	xorl	%edx, %edx
	xorl	%edi, %edi
.LBB14_96:
	addq	%rdi, %r14
	movq	128(%rsp), %rax
	movq	%rcx, (%rax,%rbx,8)
	movq	136(%rsp), %rax
	movq	%rdx, (%rax,%rbx,8)
	movq	144(%rsp), %rax
	movb	%sil, (%rax,%rbx)
	incq	%rbx
	cmpq	%r9, %rbx
	je	.LBB14_97
.LBB14_2:
	movl	(%r13,%rbx,4), %ecx
	movl	%ecx, %edx
	shrl	$16, %edx
	movl	%edx, %eax
	andl	$15, %eax
	movq	%rbx, %rsi
	subq	%r8, %rsi
	shrq	$3, %rsi
	addq	$32, %rsi
	cmpq	%rsi, %rbp
	ja	.LBB14_5
	movl	%eax, %esi
	cmpq	%rdx, 792(%rsp,%rsi,8)
	jne	.LBB14_5
	shll	$3, %eax
	leaq	(%rax,%rax,4), %rdx
	cmpl	$2147352575, %ecx
	ja	.LBB14_20
	jmp	.LBB14_21
	.p2align	4
.LBB14_5:
	movq	%r14, %r9
	cmpq	$0, 120(%rsp)
	je	.LBB14_6
	movq	%rbp, %r14
	movq	112(%rsp), %rdi
	cmpq	%rdx, %rdi
	movq	%rdx, %rsi
	cmovbq	%rdi, %rsi
	movl	%esi, %esi
	movq	104(%rsp), %r10
	movl	(%r10,%rsi,8), %edi
	movl	4(%r10,%rsi,8), %r10d
	leaq	4(%r10), %rsi
	movl	$2, %ebp
	cmpq	%rsi, -24(%rsp)
	jae	.LBB14_10
.LBB14_9:
	xorl	%esi, %esi
	jmp	.LBB14_17
.LBB14_6:
	movq	%rbp, %r14
	xorl	%r10d, %r10d
	xorl	%edi, %edi
	leaq	4(%r10), %rsi
	movl	$2, %ebp
	cmpq	%rsi, -24(%rsp)
	jb	.LBB14_9
.LBB14_10:
	movq	-88(%rsp), %r11
	movzwl	(%r11,%r10), %r11d
	cmpl	%r11d, %edx
	jae	.LBB14_12
	movl	$1, %ebp
	xorl	%esi, %esi
	jmp	.LBB14_17
.LBB14_12:
	cmpl	%r11d, %edx
	jbe	.LBB14_14
	xorl	%esi, %esi
	movq	96(%rsp), %rbp
	jmp	.LBB14_17
.LBB14_14:
	movq	-88(%rsp), %r8
	movzwl	2(%r8,%r10), %r15d
	leaq	1(%r15), %r10
	xorl	%ebp, %ebp
	xorl	%r11d, %r11d
	cmpq	$65535, %r15
	sete	%r11b
	movq	88(%rsp), %r12
	cmoveq	%rbp, %r12
	incq	%r11
	leal	(%r10,%r10), %r13d
	cmpq	$4095, %r15
	cmovbq	%rbp, %r11
	cmovaeq	%r12, %r13
	addq	%rsi, %r13
	cmpq	%r13, -24(%rsp)
	movq	-112(%rsp), %r13
	movq	-104(%rsp), %r8
	jb	.LBB14_16
	addq	%rdi, %r15
	incq	%r15
	cmpq	%r15, 72(%rsp)
	jae	.LBB14_18
.LBB14_16:
	xorl	%esi, %esi
	movl	$2, %ebp
	.p2align	4
.LBB14_17:
	xorl	%edi, %edi
	xorl	%r10d, %r10d
	xorl	%r11d, %r11d
.LBB14_18:
	shll	$3, %eax
	movq	%rdx, 792(%rsp,%rax)
	leaq	(%rax,%rax,4), %rdx
	movq	%rbp, 152(%rsp,%rdx)
	movq	%rsi, 160(%rsp,%rdx)
	movq	%rdi, 168(%rsp,%rdx)
	movq	%r10, 176(%rsp,%rdx)
	movq	%r11, 184(%rsp,%rdx)
	movq	%r14, %rbp
	incq	%rbp
	movq	%r9, %r14
	movq	-48(%rsp), %r9
	cmpl	$2147352575, %ecx
	ja	.LBB14_20
.LBB14_21:
	movzbl	152(%rsp,%rdx), %esi
	cmpl	$2, %esi
	je	.LBB14_82
	cmpl	$1, %esi
	je	.LBB14_83
	movq	160(%rsp,%rdx), %r10
	movq	168(%rsp,%rdx), %rax
	movq	176(%rsp,%rdx), %r13
	movzbl	184(%rsp,%rdx), %edx
	movzwl	%cx, %edi
	cmpl	$2, %edx
	je	.LBB14_47
	cmpl	$1, %edx
	jne	.LBB14_25
	movl	%edi, %r11d
	shrl	$6, %r11d
	movl	%edi, %edx
	andl	$63, %edx
	movq	80(%rsp), %rcx
	addq	%r10, %rcx
	movq	(%rcx,%r11,8), %r15
	btq	%rdx, %r15
	jae	.LBB14_32
	movq	48(%rsp), %r8
	movl	%r8d, %ecx
	shrq	%cl, %rdi
	movq	%rdi, %rsi
	movq	40(%rsp), %rcx
	shlq	%cl, %rsi
	testq	%r8, %r8
	cmoveq	%r8, %rsi
	movq	%rdx, 56(%rsp)
	je	.LBB14_34
	movq	-88(%rsp), %rcx
	addq	%r10, %rcx
	movzwl	(%rcx,%rdi,2), %ecx
	rolw	$8, %cx
	movzwl	%cx, %ecx
	jmp	.LBB14_36
.LBB14_47:
	addq	%rdi, %rax
	movq	$0, -72(%rsp)
	xorl	%ecx, %ecx
	movl	-124(%rsp), %edx
	leaq	.LJTI14_0(%rip), %rsi
	movslq	(%rsi,%rdx,4), %r10
	addq	%rsi, %r10
	movq	%rax, %r12
	movq	-40(%rsp), %rdi
	movq	-96(%rsp), %rdx
	xorl	%r15d, %r15d
	movq	-104(%rsp), %r8
	movq	-112(%rsp), %r13
	jmpq	*%r10
.LBB14_25:
	movq	%r14, -56(%rsp)
	movq	%rbp, %r14
	leaq	1(%r13), %rsi
	cmpq	$2, %rsi
	jb	.LBB14_26
	movq	-88(%rsp), %rdx
	leaq	(%rdx,%r10), %r9
	xorl	%edx, %edx
	movq	%rsi, %r11
	.p2align	4
.LBB14_28:
	movq	%r13, %r15
	movq	%rdx, %r12
	addq	%r13, %rdx
	movq	%rdx, %r13
	shrq	%r13
	andq	$-2, %rdx
	movzwl	(%r9,%rdx), %ebp
	leaq	1(%r13), %rdx
	cmpl	%ebp, %edi
	cmovbeq	%r12, %rdx
	cmovaeq	%r15, %r13
	shrq	%r11
	cmpq	$3, %rsi
	movq	%r11, %rsi
	ja	.LBB14_28
	jmp	.LBB14_29
.LBB14_26:
	xorl	%edx, %edx
.LBB14_29:
	leaq	(%rdx,%r13), %rsi
	movq	%rsi, %r12
	shrq	%r12
	andq	$-2, %rsi
	xorl	%edi, %edi
	cmpq	%r13, %rdx
	cmovaeq	%rdi, %rsi
	addq	-88(%rsp), %r10
	cmpw	%cx, (%rsi,%r10)
	movl	$65536, %ecx
	cmovneq	%rcx, %r12
	cmpq	%r13, %rdx
	cmovaeq	%rcx, %r12
	movb	$1, %sil
	cmpq	$65535, %r12
	ja	.LBB14_30
	movq	$0, -72(%rsp)
	addq	%rax, %r12
	xorl	%ecx, %ecx
	movl	-124(%rsp), %eax
	leaq	.LJTI14_0(%rip), %rdx
	movslq	(%rdx,%rax,4), %rsi
	addq	%rdx, %rsi
	movq	-40(%rsp), %rdi
	movq	-96(%rsp), %rdx
	movq	%r12, %rax
	xorl	%r15d, %r15d
	movq	-48(%rsp), %r9
	movq	-104(%rsp), %r8
	movq	-112(%rsp), %r13
	movq	%r14, %rbp
	movq	-56(%rsp), %r14
	jmpq	*%rsi
.LBB14_30:
	xorl	%ecx, %ecx
	xorl	%edx, %edx
	xorl	%edi, %edi
	movq	-48(%rsp), %r9
	movq	-104(%rsp), %r8
	movq	-112(%rsp), %r13
	movq	%r14, %rbp
	movq	-56(%rsp), %r14
	jmp	.LBB14_96
.LBB14_32:
	movl	$1, %edi
	movb	$1, %sil
	xorl	%ecx, %ecx
	xorl	%edx, %edx
	movq	-104(%rsp), %r8
	movq	-112(%rsp), %r13
	jmp	.LBB14_96
.LBB14_34:
	xorl	%ecx, %ecx
.LBB14_36:
	movq	%rbp, -56(%rsp)
	movq	%r11, %r8
	subq	%rsi, %r8
	movabsq	$3689348814741910323, %r12
	movabsq	$1085102592571150095, %rbp
	subq	%rsi, %r11
	movq	%r8, -72(%rsp)
	movq	%rcx, 64(%rsp)
	jne	.LBB14_38
	xorl	%edi, %edi
	movabsq	$72340172838076673, %r8
	jmp	.LBB14_45
.LBB14_38:
	cmpq	$4, %r8
	jae	.LBB14_40
	xorl	%edi, %edi
	xorl	%ecx, %ecx
	movabsq	$72340172838076673, %r8
	jmp	.LBB14_43
.LBB14_40:
	movq	%r8, %rcx
	andq	$-4, %rcx
	leaq	(%r10,%rsi,8), %rdi
	addq	8(%rsp), %rdi
	pxor	%xmm1, %xmm1
	xorl	%ebp, %ebp
	pxor	%xmm2, %xmm2
	pxor	%xmm0, %xmm0
	.p2align	4
.LBB14_41:
	movdqu	-16(%rdi,%rbp,8), %xmm4
	movdqu	(%rdi,%rbp,8), %xmm3
	movdqa	%xmm4, %xmm5
	psrlw	$1, %xmm5
	movdqa	.LCPI14_1(%rip), %xmm6
	pand	%xmm6, %xmm5
	psubb	%xmm5, %xmm4
	movdqa	.LCPI14_2(%rip), %xmm5
	movdqa	%xmm4, %xmm7
	pand	%xmm5, %xmm7
	psrlw	$2, %xmm4
	pand	%xmm5, %xmm4
	paddb	%xmm7, %xmm4
	movdqa	%xmm4, %xmm7
	psrlw	$4, %xmm7
	paddb	%xmm4, %xmm7
	movdqa	.LCPI14_3(%rip), %xmm4
	pand	%xmm4, %xmm7
	psadbw	%xmm1, %xmm7
	paddq	%xmm7, %xmm2
	movdqa	%xmm3, %xmm7
	psrlw	$1, %xmm7
	pand	%xmm6, %xmm7
	psubb	%xmm7, %xmm3
	movdqa	%xmm3, %xmm6
	pand	%xmm5, %xmm6
	psrlw	$2, %xmm3
	pand	%xmm5, %xmm3
	paddb	%xmm6, %xmm3
	movdqa	%xmm3, %xmm5
	psrlw	$4, %xmm5
	paddb	%xmm3, %xmm5
	pand	%xmm4, %xmm5
	psadbw	%xmm1, %xmm5
	paddq	%xmm5, %xmm0
	addq	$4, %rbp
	cmpq	%rbp, %rcx
	jne	.LBB14_41
	paddq	%xmm2, %xmm0
	pshufd	$238, %xmm0, %xmm1
	paddq	%xmm0, %xmm1
	movq	%xmm1, %rdi
	cmpq	%rcx, %r8
	movabsq	$72340172838076673, %r8
	movabsq	$1085102592571150095, %rbp
	je	.LBB14_45
.LBB14_43:
	subq	%rcx, %r11
	addq	%rcx, %rsi
	leaq	(%r10,%rsi,8), %rcx
	addq	16(%rsp), %rcx
	xorl	%esi, %esi
	.p2align	4
.LBB14_44:
	movq	(%rcx,%rsi,8), %r10
	movq	%rbp, %rdx
	movq	%r10, %rbp
	shrq	%rbp
	movabsq	$6148914691236517205, %r9
	andq	%rbp, %r9
	movq	%rdx, %rbp
	subq	%r9, %r10
	movq	%r10, %r9
	andq	%r12, %r9
	shrq	$2, %r10
	andq	%r12, %r10
	addq	%r9, %r10
	movq	%r10, %r9
	shrq	$4, %r9
	addq	%r10, %r9
	andq	%rdx, %r9
	imulq	%r8, %r9
	shrq	$56, %r9
	addq	%r9, %rdi
	incq	%rsi
	cmpq	%rsi, %r11
	jne	.LBB14_44
.LBB14_45:
	movq	$-1, %rsi
	movq	56(%rsp), %rcx
	shlq	%cl, %rsi
	notq	%rsi
	andq	%rsi, %r15
	movq	%r15, %rcx
	shrq	%rcx
	movabsq	$1537228672809129301, %rdx
	andq	%rcx, %rdx
	subq	%rdx, %r15
	movq	%r15, %rcx
	andq	%r12, %rcx
	shrq	$2, %r15
	andq	%r12, %r15
	addq	%rcx, %r15
	movq	%r15, %rcx
	shrq	$4, %rcx
	addq	%r15, %rcx
	andq	%rbp, %rcx
	imulq	%r8, %rcx
	shrq	$56, %rcx
	movq	64(%rsp), %rdx
	addq	%rcx, %rdx
	movq	%rdx, %rcx
	addq	%rdi, %rcx
	cmpq	%r13, %rcx
	movq	-48(%rsp), %r9
	movq	-104(%rsp), %r8
	movq	-112(%rsp), %r13
	movq	-56(%rsp), %rbp
	jae	.LBB14_82
	incq	-72(%rsp)
	movl	%ecx, %r12d
	addq	%rax, %r12
	xorl	%ecx, %ecx
	movl	-124(%rsp), %eax
	leaq	.LJTI14_0(%rip), %rdx
	movslq	(%rdx,%rax,4), %rsi
	addq	%rdx, %rsi
	movq	-40(%rsp), %rdi
	movq	-96(%rsp), %rdx
	movq	%r12, %rax
	xorl	%r15d, %r15d
	jmpq	*%rsi
.LBB14_72:
	movq	%r12, %rcx
	imulq	-96(%rsp), %rcx
	movq	%rcx, %rdx
	shrq	$3, %rdx
	cmpq	$56, 32(%rsp)
	ja	.LBB14_76
	leaq	8(%rdx), %rax
	cmpq	24(%rsp), %rax
	ja	.LBB14_76
	movq	-80(%rsp), %rax
	movq	(%rax,%rdx), %r10
	bswapq	%r10
	andb	$7, %cl
	shlq	%cl, %r10
	jmp	.LBB14_75
.LBB14_55:
	movb	$1, %cl
	xorl	%edi, %edi
	movq	-96(%rsp), %rdx
	movq	%r12, %rax
	movq	-64(%rsp), %r15
.LBB14_56:
	testq	%rdx, %rdx
	je	.LBB14_57
.LBB14_61:
	addq	-80(%rsp), %rdi
	imulq	%rdx, %rax
	movq	%rax, %r11
	shrq	$3, %r11
	leaq	(%rdx,%rax), %r13
	addq	$7, %r13
	shrq	$3, %r13
	cmpq	$8, %rdx
	ja	.LBB14_63
	movzbl	(%rdi,%r11), %esi
	movzbl	-1(%rdi,%r13), %r10d
	movl	$1, %edi
	subq	%r11, %r13
	andl	$7, %eax
	testb	%cl, %cl
	je	.LBB14_69
	jmp	.LBB14_70
.LBB14_49:
	movq	%r12, %rax
	shrq	$14, %rax
	leaq	(%rax,%rax,4), %rax
	leaq	(%rax,%rax,4), %rcx
	movq	-80(%rsp), %rdi
	movzbl	24(%rdi,%rcx), %edx
	movb	$15, %sil
	cmpq	$64, %rdx
	ja	.LBB14_83
	movq	(%rdi,%rcx), %r15
	movabsq	$-9223372036854775808, %rax
	xorq	%rax, %r15
	movl	%r12d, %eax
	andl	$16383, %eax
	testq	%rdx, %rdx
	je	.LBB14_51
	movq	16(%rdi,%rcx), %rdi
	movq	(%rsp), %rcx
	subq	%rdi, %rcx
	jb	.LBB14_83
	leal	1(%rax), %r11d
	movl	%edx, %r10d
	imull	%r11d, %r10d
	addl	$7, %r10d
	shrl	$3, %r10d
	cmpq	%r10, %rcx
	jb	.LBB14_83
	jmp	.LBB14_54
.LBB14_63:
	cmpq	$24, %rdx
	ja	.LBB14_65
	movzwl	(%rdi,%r11), %esi
	movzwl	-2(%rdi,%r13), %r10d
	movl	$2, %edi
	subq	%r11, %r13
	andl	$7, %eax
	testb	%cl, %cl
	je	.LBB14_69
	jmp	.LBB14_70
.LBB14_76:
	movq	-96(%rsp), %rdi
	testq	%rdi, %rdi
	movq	-80(%rsp), %r10
	je	.LBB14_77
	movq	-8(%rsp), %rax
	leaq	(%rax,%rcx), %rsi
	shrq	$3, %rsi
	movq	%rsi, %rax
	subq	%rdx, %rax
	andl	$7, %ecx
	cmpq	$8, %rdi
	ja	.LBB14_86
	movzbl	(%r10,%rdx), %edx
	movzbl	-1(%r10,%rsi), %r10d
	movq	$-1, %rsi
	jmp	.LBB14_91
.LBB14_65:
	cmpq	$56, %rdx
	ja	.LBB14_67
	movl	(%rdi,%r11), %esi
	movl	-4(%rdi,%r13), %r10d
	movl	$4, %edi
	subq	%r11, %r13
	andl	$7, %eax
	testb	%cl, %cl
	jne	.LBB14_70
.LBB14_69:
	bswapq	%rsi
	movl	%eax, %ecx
	shlq	%cl, %rsi
	bswapq	%r10
	subl	%edi, %r13d
	shll	$3, %r13d
	subl	%eax, %r13d
	movl	%r13d, %ecx
	shrq	%cl, %r10
	orq	%rsi, %r10
	jmp	.LBB14_71
.LBB14_51:
	xorl	%edi, %edi
.LBB14_54:
	addq	-16(%rsp), %rdi
	xorl	%ecx, %ecx
	testq	%rdx, %rdx
	jne	.LBB14_61
.LBB14_57:
	xorl	%r10d, %r10d
	movq	-120(%rsp), %rsi
	cmpl	$3, -124(%rsp)
	je	.LBB14_59
	jmp	.LBB14_79
.LBB14_77:
	xorl	%r10d, %r10d
	jmp	.LBB14_78
.LBB14_67:
	movq	(%rdi,%r11), %rsi
	movq	-8(%rdi,%r13), %r10
	movl	$8, %edi
	subq	%r11, %r13
	andl	$7, %eax
	testb	%cl, %cl
	je	.LBB14_69
.LBB14_70:
	subl	%edi, %r13d
	shll	$3, %r13d
	movl	%r13d, %ecx
	shlq	%cl, %r10
	orq	%rsi, %r10
	addl	%edx, %eax
	negb	%al
	movl	%eax, %ecx
	shlq	%cl, %r10
.LBB14_71:
	negb	%dl
	movl	%edx, %ecx
	shrq	%cl, %r10
	movq	-104(%rsp), %r8
	movq	-112(%rsp), %r13
	movq	-120(%rsp), %rsi
	cmpl	$3, -124(%rsp)
	jne	.LBB14_79
.LBB14_59:
	cmpq	%r10, %rsi
	jbe	.LBB14_82
	movq	-80(%rsp), %rax
	movq	(%rax,%r10,8), %rdx
	xorl	%esi, %esi
	movq	%r12, %rcx
	jmp	.LBB14_95
.LBB14_86:
	cmpq	$24, %rdi
	ja	.LBB14_88
	movzwl	(%r10,%rdx), %edx
	movzwl	-2(%r10,%rsi), %r10d
	movq	$-2, %rsi
	jmp	.LBB14_91
.LBB14_88:
	cmpq	$56, %rdi
	ja	.LBB14_90
	movl	(%r10,%rdx), %edx
	movl	-4(%r10,%rsi), %r10d
	movq	$-4, %rsi
	jmp	.LBB14_91
.LBB14_90:
	movq	(%r10,%rdx), %rdx
	movq	-8(%r10,%rsi), %r10
	movq	$-8, %rsi
.LBB14_91:
	bswapq	%rdx
	shlq	%cl, %rdx
	bswapq	%r10
	addl	%esi, %eax
	shll	$3, %eax
	subl	%ecx, %eax
	movl	%eax, %ecx
	shrq	%cl, %r10
	orq	%rdx, %r10
.LBB14_75:
	movq	-32(%rsp), %rcx
	shrq	%cl, %r10
.LBB14_78:
	movq	-64(%rsp), %r15
	movq	-120(%rsp), %rsi
.LBB14_79:
	movq	%r15, %rax
	notq	%rax
	cmpq	$2, %rsi
	jb	.LBB14_81
	movq	%r10, %rcx
	orq	%rsi, %rcx
	shrq	$32, %rcx
	je	.LBB14_81
	xorl	%ecx, %ecx
	xorl	%edx, %edx
	divq	%rsi
	movb	$15, %sil
	movl	$0, %edx
	movl	$0, %edi
	cmpq	%rax, %r10
	ja	.LBB14_96
	imulq	-120(%rsp), %r10
	jmp	.LBB14_94
.LBB14_81:
	imulq	%rsi, %r10
	cmpq	%rax, %r10
	jbe	.LBB14_94
	.p2align	4
.LBB14_82:
	movb	$15, %sil
	jmp	.LBB14_83
.LBB14_94:
	addq	%r15, %r10
	movabsq	$-9223372036854775808, %rax
	xorq	%rax, %r10
	xorl	%esi, %esi
	movq	%r12, %rcx
	movq	%r10, %rdx
.LBB14_95:
	movq	-72(%rsp), %rdi
	jmp	.LBB14_96
.LBB14_97:
	movq	%r14, %rax
	addq	$920, %rsp
	popq	%rbx
	popq	%r12
	popq	%r13
	popq	%r14
	popq	%r15
	popq	%rbp
	retq
.Lfunc_end14:
	.size	"page::fill_any", .Lfunc_end14-"page::fill_any"
	.section	".rodata.page::fill_any","a",@progbits
	.p2align	2, 0x0
.LJTI14_0:
	.long	.LBB14_72-.LJTI14_0
	.long	.LBB14_55-.LJTI14_0
	.long	.LBB14_49-.LJTI14_0
	.long	.LBB14_56-.LJTI14_0

	.section	".text.layered_page::tested","ax",@progbits
	.p2align	4
	.type	"layered_page::tested",@function
"layered_page::tested":
	pushq	%rbp
	pushq	%r15
	pushq	%r14
	pushq	%r13
	pushq	%r12
	pushq	%rbx
	movq	8(%rdx), %rax
	cmpq	$2147352576, %rax
	ja	.LBB15_17
	movq	16(%rdx), %r9
	movq	32(%rdx), %r8
	testq	%r9, %r9
	setne	%cl
	leaq	-16(%r9), %r10
	cmpq	$-9, %r10
	setb	%r10b
	andb	%cl, %r10b
	cmpq	$32768, %r8
	setae	%cl
	orb	%r10b, %cl
	jne	.LBB15_17
	movq	24(%rdx), %r10
	movq	40(%rdx), %rcx
	leaq	6(,%r8,8), %r11
	cmpq	%r11, %r10
	setb	%r11b
	cmpq	$65, %rcx
	setae	%bl
	orb	%r11b, %bl
	je	.LBB15_3
.LBB15_17:
	movq	$1, (%rdi)
	movq	$8, 8(%rdi)
.LBB15_18:
	xorps	%xmm0, %xmm0
	movups	%xmm0, 16(%rdi)
	movups	%xmm0, 32(%rdi)
	movups	%xmm0, 48(%rdi)
	movups	%xmm0, 64(%rdi)
	movq	$0, 80(%rdi)
.LBB15_19:
	popq	%rbx
	popq	%r12
	popq	%r13
	popq	%r14
	popq	%r15
	popq	%rbp
	retq
.LBB15_3:
	movq	(%rdx), %r15
	movq	48(%rdx), %r11
	movq	56(%rdx), %rbx
	movq	64(%rdx), %r14
	movq	72(%rdx), %rdx
	movq	%rcx, %r12
	imulq	%rax, %r12
	addq	$7, %r12
	shrq	$3, %r12
	cmpb	$2, %r15b
	jae	.LBB15_4
	testq	%rbx, %rbx
	je	.LBB15_17
	movabsq	$72340173107564823, %r13
	shrq	%cl, %r13
	cmpq	%r12, %r14
	jne	.LBB15_17
	movl	%r15d, %ebp
	xorb	$1, %bpl
	orb	%bpl, %r13b
	testb	$1, %r13b
	je	.LBB15_17
.LBB15_11:
	subq	%rdx, %rsi
	jb	.LBB15_13
	subq	%r10, %rsi
	setae	%bpl
	cmpq	%r14, %rsi
	sete	%sil
	testb	%sil, %bpl
	je	.LBB15_13
	movq	$0, (%rdi)
	movq	%r15, 8(%rdi)
	movq	%rax, 16(%rdi)
	movq	%r9, 24(%rdi)
	movq	%r10, 32(%rdi)
	movq	%r8, 40(%rdi)
	movq	%rcx, 48(%rdi)
	movq	%r11, 56(%rdi)
	movq	%rbx, 64(%rdi)
	movq	%r14, 72(%rdi)
	movq	%rdx, 80(%rdi)
	jmp	.LBB15_19
.LBB15_4:
	movzbl	%r15b, %ebp
	cmpl	$2, %ebp
	jne	.LBB15_8
	testq	%rcx, %rcx
	jne	.LBB15_17
	testq	%r11, %r11
	setne	%bpl
	testq	%rbx, %rbx
	sete	%r12b
	orb	%bpl, %r12b
	jne	.LBB15_17
	leaq	16383(%rax), %r12
	shrq	$14, %r12
	leaq	(%r12,%r12,4), %r12
	leaq	(%r12,%r12,4), %r12
	cmpq	%r14, %r12
	ja	.LBB15_17
	jmp	.LBB15_11
.LBB15_8:
	leaq	-257(%rbx), %r13
	cmpq	$-255, %r13
	jb	.LBB15_17
	leaq	-1(%rbx), %r13
	movl	$127, %ebp
	bsrq	%r13, %rbp
	xorq	$-64, %rbp
	addq	$65, %rbp
	xorq	%rcx, %rbp
	orq	%r11, %rbp
	jne	.LBB15_17
	leaq	(%r12,%rbx,8), %r12
	cmpq	%r12, %r14
	jne	.LBB15_17
	jmp	.LBB15_11
.LBB15_13:
	movq	$1, (%rdi)
	movq	$9, 8(%rdi)
	jmp	.LBB15_18
.Lfunc_end15:
	.size	"layered_page::tested", .Lfunc_end15-"layered_page::tested"

	.section	".text.layered_page::under::fill_under","ax",@progbits
	.p2align	4
	.type	"layered_page::under::fill_under",@function
"layered_page::under::fill_under":
	pushq	%rbp
	pushq	%r15
	pushq	%r14
	pushq	%r13
	pushq	%r12
	pushq	%rbx
	subq	$3072, %rsp
	movq	$0, (%rsp)
	subq	$3072, %rsp
	movq	$0, (%rsp)
	subq	$1768, %rsp
	movq	%rdx, 64(%rsp)
	movq	%rsi, 56(%rsp)
	movq	%rdi, 24(%rsp)
	movq	8016(%rsp), %rdx
	movq	8008(%rsp), %rax
	movq	7984(%rsp), %rsi
	movzbl	(%rsi), %edi
	movq	%rdi, 96(%rsp)
	movups	72(%rsi), %xmm0
	movaps	%xmm0, 272(%rsp)
	movups	8(%rsi), %xmm0
	movups	24(%rsi), %xmm1
	movups	40(%rsi), %xmm2
	movups	56(%rsi), %xmm3
	movaps	%xmm3, 256(%rsp)
	movaps	%xmm2, 240(%rsp)
	movaps	%xmm1, 224(%rsp)
	movaps	%xmm0, 208(%rsp)
	movzbl	(%rax), %esi
	movq	%rsi, 48(%rsp)
	movups	8(%rax), %xmm0
	movups	24(%rax), %xmm1
	movups	40(%rax), %xmm2
	movups	56(%rax), %xmm3
	movaps	%xmm3, 176(%rsp)
	movaps	%xmm2, 160(%rsp)
	movaps	%xmm1, 144(%rsp)
	movaps	%xmm0, 128(%rsp)
	movups	72(%rax), %xmm0
	movaps	%xmm0, 192(%rsp)
	testq	%r9, %r9
	je	.LBB16_1
	movq	%r8, 72(%rsp)
	leaq	4(%r8), %rax
	movq	%rax, 40(%rsp)
	leaq	1(%rcx), %rax
	movq	%rax, 32(%rsp)
	xorl	%esi, %esi
	xorl	%r14d, %r14d
	movq	%r9, 88(%rsp)
	movq	%rcx, 80(%rsp)
	jmp	.LBB16_3
	.p2align	4
.LBB16_19:
	movq	120(%rsp), %rdx
	subq	%r12, %rdx
	addq	104(%rsp), %r14
	movq	112(%rsp), %rsi
	addq	%r13, %rsi
	movq	88(%rsp), %r9
	cmpq	%r9, %r14
	movq	80(%rsp), %rcx
	jae	.LBB16_20
.LBB16_3:
	movq	%rsi, 112(%rsp)
	movq	%rdx, 120(%rsp)
	movq	%r9, %r12
	subq	%r14, %r12
	cmpq	$256, %r12
	movl	$256, %r13d
	cmovbq	%r12, %r13
	leaq	(%rcx,%r14), %r15
	leaq	744(%rsp), %rdi
	xorl	%ebx, %ebx
	movl	$1024, %edx
	xorl	%esi, %esi
	callq	memset@PLT
	leaq	1768(%rsp), %rdi
	movl	$2048, %edx
	xorl	%esi, %esi
	callq	memset@PLT
	cmpq	$1, %r12
	movq	%r13, 104(%rsp)
	jne	.LBB16_5
	xorl	%eax, %eax
	jmp	.LBB16_8
	.p2align	4
.LBB16_5:
	leaq	(,%r14,4), %rcx
	addq	40(%rsp), %rcx
	movl	%r13d, %edx
	andl	$510, %edx
	movq	32(%rsp), %rax
	leaq	(%rax,%r14), %rsi
	xorl	%ebx, %ebx
	xorl	%eax, %eax
	.p2align	4
.LBB16_6:
	movl	-4(%rcx,%rax,4), %edi
	movl	%edi, 744(%rsp,%rbx,4)
	movq	%rax, 1768(%rsp,%rbx,8)
	xorl	%edi, %edi
	cmpb	$1, -1(%rsi,%rax)
	sete	%dil
	addq	%rbx, %rdi
	movl	(%rcx,%rax,4), %r8d
	movl	%r8d, 744(%rsp,%rdi,4)
	leaq	1(%rax), %r8
	movq	%r8, 1768(%rsp,%rdi,8)
	xorl	%ebx, %ebx
	cmpb	$1, (%rsi,%rax)
	sete	%bl
	addq	%rdi, %rbx
	addq	$2, %rax
	cmpq	%rdx, %rax
	jne	.LBB16_6
	testb	$1, %r13b
	je	.LBB16_9
.LBB16_8:
	movq	%rbx, %rcx
	movq	72(%rsp), %rdx
	leaq	(%rdx,%r14,4), %rdx
	movl	(%rdx,%rax,4), %edx
	movl	%edx, 744(%rsp,%rbx,4)
	movq	%rax, 1768(%rsp,%rbx,8)
	xorl	%ebx, %ebx
	cmpb	$1, (%r15,%rax)
	sete	%bl
	addq	%rcx, %rbx
.LBB16_9:
	movq	96(%rsp), %rax
	movq	%rax, 568(%rsp)
	movaps	272(%rsp), %xmm0
	leaq	576(%rsp), %rax
	movups	%xmm0, 64(%rax)
	movaps	208(%rsp), %xmm0
	movaps	224(%rsp), %xmm1
	movaps	240(%rsp), %xmm2
	movaps	256(%rsp), %xmm3
	movups	%xmm3, 48(%rax)
	movups	%xmm2, 32(%rax)
	movups	%xmm1, 16(%rax)
	movups	%xmm0, (%rax)
	leaq	5864(%rsp), %r13
	xorl	%r12d, %r12d
	movl	$2048, %edx
	movq	%r13, %rdi
	xorl	%esi, %esi
	callq	memset@PLT
	leaq	3816(%rsp), %rbp
	movl	$2048, %edx
	movq	%rbp, %rdi
	xorl	%esi, %esi
	callq	memset@PLT
	xorps	%xmm0, %xmm0
	movaps	%xmm0, 304(%rsp)
	movaps	%xmm0, 320(%rsp)
	movaps	%xmm0, 336(%rsp)
	movaps	%xmm0, 352(%rsp)
	movaps	%xmm0, 368(%rsp)
	movaps	%xmm0, 384(%rsp)
	movaps	%xmm0, 400(%rsp)
	movaps	%xmm0, 416(%rsp)
	movaps	%xmm0, 432(%rsp)
	movaps	%xmm0, 448(%rsp)
	movaps	%xmm0, 464(%rsp)
	movaps	%xmm0, 480(%rsp)
	movaps	%xmm0, 496(%rsp)
	movaps	%xmm0, 512(%rsp)
	movaps	%xmm0, 528(%rsp)
	movaps	%xmm0, 544(%rsp)
	leaq	568(%rsp), %rax
	movq	%rax, 8(%rsp)
	movq	7976(%rsp), %rax
	movq	%rax, (%rsp)
	leaq	304(%rsp), %rdx
	leaq	744(%rsp), %rcx
	movq	%r13, %rdi
	movq	%rbp, %rsi
	movq	%rbx, %r8
	movq	7968(%rsp), %r9
	callq	"page::fill_by"
	movq	%rax, %r13
	testq	%rbx, %rbx
	je	.LBB16_19
	movq	56(%rsp), %rax
	leaq	(%rax,%r14,8), %rax
	movq	64(%rsp), %rcx
	leaq	(%rcx,%r14,8), %rcx
	cmpq	$1, %rbx
	jne	.LBB16_12
	xorl	%edx, %edx
	jmp	.LBB16_15
	.p2align	4
.LBB16_12:
	movq	%rbx, %rsi
	andq	$-2, %rsi
	xorl	%edx, %edx
	.p2align	4
.LBB16_13:
	movq	1768(%rsp,%rdx,8), %rdi
	movq	3816(%rsp,%rdx,8), %r8
	movq	5864(%rsp,%rdx,8), %r9
	movq	%r9, (%rax,%rdi,8)
	movq	%r8, (%rcx,%rdi,8)
	movzbl	304(%rsp,%rdx), %r8d
	movb	%r8b, (%r15,%rdi)
	movq	1776(%rsp,%rdx,8), %rdi
	movq	3824(%rsp,%rdx,8), %r8
	movq	5872(%rsp,%rdx,8), %r9
	movq	%r9, (%rax,%rdi,8)
	movq	%r8, (%rcx,%rdi,8)
	movzbl	305(%rsp,%rdx), %r8d
	movb	%r8b, (%r15,%rdi)
	addq	$2, %rdx
	cmpq	%rdx, %rsi
	jne	.LBB16_13
	testb	$1, %bl
	je	.LBB16_16
.LBB16_15:
	movq	1768(%rsp,%rdx,8), %rsi
	movq	3816(%rsp,%rdx,8), %rdi
	movq	5864(%rsp,%rdx,8), %r8
	movq	%r8, (%rax,%rsi,8)
	movq	%rdi, (%rcx,%rsi,8)
	movzbl	304(%rsp,%rdx), %eax
	movb	%al, (%r15,%rsi)
.LBB16_16:
	xorl	%r12d, %r12d
	xorl	%r15d, %r15d
	.p2align	4
.LBB16_17:
	cmpb	$1, 304(%rsp,%r15)
	ja	.LBB16_21
	incq	%r15
	cmpq	%rbx, %r15
	jb	.LBB16_17
	jmp	.LBB16_19
.LBB16_21:
	movl	744(%rsp,%r15,4), %eax
	movq	48(%rsp), %rcx
	movq	%rcx, 656(%rsp)
	movaps	192(%rsp), %xmm0
	leaq	664(%rsp), %rcx
	movups	%xmm0, 64(%rcx)
	movaps	128(%rsp), %xmm0
	movaps	144(%rsp), %xmm1
	movaps	160(%rsp), %xmm2
	movaps	176(%rsp), %xmm3
	movups	%xmm3, 48(%rcx)
	movups	%xmm2, 32(%rcx)
	movups	%xmm1, 16(%rcx)
	movups	%xmm0, (%rcx)
	movl	%eax, 20(%rsp)
	leaq	656(%rsp), %rax
	movq	%rax, 8(%rsp)
	movq	8000(%rsp), %rax
	movq	%rax, (%rsp)
	leaq	296(%rsp), %rdi
	leaq	288(%rsp), %rsi
	leaq	19(%rsp), %rdx
	leaq	20(%rsp), %rcx
	movl	$1, %r8d
	movq	7992(%rsp), %r9
	callq	"page::fill_by"
	addq	%rax, %r12
	incq	%r15
	cmpq	%rbx, %r15
	jb	.LBB16_17
	jmp	.LBB16_19
.LBB16_1:
	xorl	%esi, %esi
.LBB16_20:
	movq	24(%rsp), %rax
	movq	$0, (%rax)
	movq	%rsi, 8(%rax)
	movq	%rdx, 16(%rax)
	addq	$7912, %rsp
	popq	%rbx
	popq	%r12
	popq	%r13
	popq	%r14
	popq	%r15
	popq	%rbp
	retq
.Lfunc_end16:
	.size	"layered_page::under::fill_under", .Lfunc_end16-"layered_page::under::fill_under"

	.section	".text.signalfern_c::look_from","ax",@progbits
	.p2align	4
	.type	"signalfern_c::look_from",@function
"signalfern_c::look_from":
	pushq	%rbp
	pushq	%r15
	pushq	%r14
	pushq	%r13
	pushq	%r12
	pushq	%rbx
	subq	$392, %rsp
	movl	%ecx, %ebp
	movq	%rdx, %r8
	movq	%rdi, %rbx
	cmpq	$45, %rdx
	movq	%rsi, 16(%rsp)
	jb	.LBB17_82
	movzbl	(%rsi), %eax
	testb	%al, %al
	js	.LBB17_82
	decb	%al
	cmpb	$3, %al
	ja	.LBB17_82
	movzbl	1(%rsi), %r13d
	movl	$2, %r14d
	testb	%r13b, %r13b
	js	.LBB17_16
.LBB17_4:
	movzbl	(%rsi,%r14), %ecx
	xorl	%r11d, %r11d
	testb	%cl, %cl
	cmovlel	%r11d, %ecx
	js	.LBB17_15
	movzbl	1(%rsi,%r14), %edi
	incq	%r14
	movl	$1, %r10d
	movq	%rdi, (%rsp)
	testb	%dil, %dil
	js	.LBB17_19
	movl	$1, %r9d
.LBB17_7:
	addq	%r14, %r9
	movzbl	(%rsi,%r9), %r15d
	testb	%r15b, %r15b
	js	.LBB17_22
.LBB17_8:
	addq	%r9, %r10
	movzbl	(%rsi,%r10), %r14d
	xorl	%r11d, %r11d
	testb	%r14b, %r14b
	cmovlel	%r11d, %r14d
	js	.LBB17_15
	movzbl	1(%rsi,%r10), %edi
	incq	%r10
	testb	%dil, %dil
	js	.LBB17_28
	movl	$1, %r11d
	movq	%r13, %r9
.LBB17_11:
	addq	%r10, %r11
	movzbl	(%rsi,%r11), %edx
	testb	%dl, %dl
	js	.LBB17_31
	movl	$1, %r10d
.LBB17_13:
	addq	%r11, %r10
	movzbl	(%rsi,%r10), %r12d
	movl	$1, %r13d
	testb	%r12b, %r12b
	js	.LBB17_37
.LBB17_14:
	movzbl	%cl, %r11d
	movzbl	%r14b, %ecx
	addq	%r10, %r13
	jmp	.LBB17_84
.LBB17_15:
	xorl	%eax, %eax
	xorl	%r9d, %r9d
	jmp	.LBB17_83
.LBB17_16:
	movzbl	2(%rsi), %ecx
	testb	%cl, %cl
	js	.LBB17_25
	testq	%rcx, %rcx
	je	.LBB17_82
	addq	$-128, %r13
	shll	$7, %ecx
	orq	%rcx, %r13
	movl	$3, %r14d
	jmp	.LBB17_4
.LBB17_19:
	movzbl	1(%rsi,%r14), %edx
	testb	%dl, %dl
	js	.LBB17_34
	testq	%rdx, %rdx
	je	.LBB17_82
	movq	(%rsp), %rdi
	addq	$-128, %rdi
	shll	$7, %edx
	orq	%rdx, %rdi
	movq	%rdi, (%rsp)
	movl	$2, %r9d
	jmp	.LBB17_7
.LBB17_22:
	movzbl	1(%rsi,%r9), %edi
	testb	%dil, %dil
	js	.LBB17_40
	testq	%rdi, %rdi
	je	.LBB17_82
	addq	$-128, %r15
	shll	$7, %edi
	orq	%rdi, %r15
	movl	$2, %r10d
	jmp	.LBB17_8
.LBB17_25:
	movzbl	3(%rsi), %r9d
	testb	%r9b, %r9b
	js	.LBB17_43
	testq	%r9, %r9
	je	.LBB17_82
	shll	$7, %ecx
	shll	$14, %r9d
	addq	%rcx, %r13
	addq	$-16512, %r13
	orq	%r9, %r13
	movl	$4, %r14d
	jmp	.LBB17_4
.LBB17_28:
	movzbl	1(%rsi,%r10), %r11d
	testb	%r11b, %r11b
	movq	%r13, %r9
	js	.LBB17_46
	testq	%r11, %r11
	je	.LBB17_82
	addq	$-128, %rdi
	shll	$7, %r11d
	orq	%r11, %rdi
	movl	$2, %r11d
	jmp	.LBB17_11
.LBB17_31:
	movzbl	1(%rsi,%r11), %r12d
	testb	%r12b, %r12b
	js	.LBB17_49
	testq	%r12, %r12
	je	.LBB17_82
	addq	$-128, %rdx
	shll	$7, %r12d
	orq	%r12, %rdx
	movl	$2, %r10d
	jmp	.LBB17_13
.LBB17_34:
	movzbl	2(%rsi,%r14), %r9d
	testb	%r9b, %r9b
	js	.LBB17_52
	testq	%r9, %r9
	je	.LBB17_82
	shll	$7, %edx
	shll	$14, %r9d
	movq	(%rsp), %rdi
	addq	%rdx, %rdi
	addq	$-16512, %rdi
	orq	%r9, %rdi
	movq	%rdi, (%rsp)
	movl	$3, %r9d
	jmp	.LBB17_7
.LBB17_37:
	movzbl	1(%rsi,%r10), %r11d
	testb	%r11b, %r11b
	js	.LBB17_55
	testq	%r11, %r11
	je	.LBB17_82
	addq	$-128, %r12
	shll	$7, %r11d
	orq	%r11, %r12
	movl	$2, %r13d
	jmp	.LBB17_14
.LBB17_40:
	movzbl	2(%rsi,%r9), %r10d
	testb	%r10b, %r10b
	js	.LBB17_58
	testq	%r10, %r10
	je	.LBB17_82
	shll	$7, %edi
	shll	$14, %r10d
	addq	%rdi, %r15
	addq	$-16512, %r15
	orq	%r10, %r15
	movl	$3, %r10d
	jmp	.LBB17_8
.LBB17_43:
	movzbl	4(%rsi), %edi
	testb	%dil, %dil
	js	.LBB17_61
	testq	%rdi, %rdi
	je	.LBB17_82
	shll	$7, %ecx
	shll	$14, %r9d
	shll	$21, %edi
	addq	%rcx, %r13
	addq	%r9, %r13
	addq	$-2113664, %r13
	orq	%rdi, %r13
	movl	$5, %r14d
	jmp	.LBB17_4
.LBB17_46:
	movzbl	2(%rsi,%r10), %r12d
	testb	%r12b, %r12b
	js	.LBB17_63
	testq	%r12, %r12
	je	.LBB17_82
	shll	$7, %r11d
	shll	$14, %r12d
	addq	%r11, %rdi
	addq	$-16512, %rdi
	orq	%r12, %rdi
	movl	$3, %r11d
	jmp	.LBB17_11
.LBB17_49:
	movzbl	2(%rsi,%r11), %r13d
	testb	%r13b, %r13b
	js	.LBB17_66
	testq	%r13, %r13
	je	.LBB17_82
	shll	$7, %r12d
	shll	$14, %r13d
	addq	%r12, %rdx
	addq	$-16512, %rdx
	orq	%r13, %rdx
	movl	$3, %r10d
	movq	16(%rsp), %rsi
	jmp	.LBB17_13
.LBB17_52:
	movzbl	3(%rsi,%r14), %r11d
	testb	%r11b, %r11b
	js	.LBB17_69
	testq	%r11, %r11
	je	.LBB17_82
	shll	$7, %edx
	shll	$14, %r9d
	shll	$21, %r11d
	movq	(%rsp), %rdi
	addq	%rdx, %rdi
	addq	%r9, %rdi
	addq	$-2113664, %rdi
	orq	%r11, %rdi
	movq	%rdi, (%rsp)
	movl	$4, %r9d
	jmp	.LBB17_7
.LBB17_55:
	movzbl	2(%rsi,%r10), %r13d
	testb	%r13b, %r13b
	js	.LBB17_71
	testq	%r13, %r13
	je	.LBB17_82
	shll	$7, %r11d
	shll	$14, %r13d
	addq	%r11, %r12
	addq	$-16512, %r12
	orq	%r13, %r12
	movl	$3, %r13d
	jmp	.LBB17_14
.LBB17_58:
	movzbl	3(%rsi,%r9), %r11d
	testb	%r11b, %r11b
	js	.LBB17_74
	testq	%r11, %r11
	je	.LBB17_82
	shll	$7, %edi
	shll	$14, %r10d
	shll	$21, %r11d
	addq	%rdi, %r15
	addq	%r10, %r15
	addq	$-2113664, %r15
	orq	%r11, %r15
	movl	$4, %r10d
	jmp	.LBB17_8
.LBB17_61:
	movsbq	5(%rsi), %rdx
	testq	%rdx, %rdx
	jle	.LBB17_82
	shll	$7, %ecx
	shll	$14, %r9d
	shll	$21, %edi
	shlq	$28, %rdx
	addq	%rcx, %r13
	addq	%r9, %r13
	addq	%rdi, %r13
	addq	$-270549120, %r13
	orq	%rdx, %r13
	movl	$6, %r14d
	jmp	.LBB17_4
.LBB17_63:
	movzbl	3(%rsi,%r10), %r13d
	testb	%r13b, %r13b
	js	.LBB17_76
	testq	%r13, %r13
	je	.LBB17_82
	shll	$7, %r11d
	shll	$14, %r12d
	shll	$21, %r13d
	addq	%r11, %rdi
	addq	%r12, %rdi
	addq	$-2113664, %rdi
	orq	%r13, %rdi
	movl	$4, %r11d
	movq	16(%rsp), %rsi
	jmp	.LBB17_11
.LBB17_66:
	movzbl	3(%rsi,%r11), %r10d
	testb	%r10b, %r10b
	js	.LBB17_78
	testq	%r10, %r10
	je	.LBB17_82
	shll	$7, %r12d
	shll	$14, %r13d
	shll	$21, %r10d
	addq	%r12, %rdx
	addq	%r13, %rdx
	addq	$-2113664, %rdx
	orq	%r10, %rdx
	movl	$4, %r10d
	movq	16(%rsp), %rsi
	jmp	.LBB17_13
.LBB17_69:
	movsbq	4(%rsi,%r14), %r12
	testq	%r12, %r12
	jle	.LBB17_82
	shll	$7, %edx
	shll	$14, %r9d
	shll	$21, %r11d
	shlq	$28, %r12
	movq	(%rsp), %rdi
	addq	%rdx, %rdi
	addq	%r9, %rdi
	addq	%r11, %rdi
	addq	$-270549120, %rdi
	orq	%r12, %rdi
	movq	%rdi, (%rsp)
	movl	$5, %r9d
	jmp	.LBB17_7
.LBB17_71:
	movq	%r13, 40(%rsp)
	movzbl	3(%rsi,%r10), %r13d
	movq	%r13, 32(%rsp)
	cmpb	$0, 32(%rsp)
	js	.LBB17_80
	movq	32(%rsp), %rsi
	testq	%rsi, %rsi
	movq	40(%rsp), %r13
	je	.LBB17_82
	shll	$7, %r11d
	shll	$14, %r13d
	shll	$21, %esi
	addq	%r11, %r12
	addq	%r13, %r12
	addq	$-2113664, %r12
	orq	%rsi, %r12
	movl	$4, %r13d
	jmp	.LBB17_14
.LBB17_74:
	movsbq	4(%rsi,%r9), %r12
	testq	%r12, %r12
	jle	.LBB17_82
	shll	$7, %edi
	shll	$14, %r10d
	shll	$21, %r11d
	shlq	$28, %r12
	addq	%rdi, %r15
	addq	%r10, %r15
	addq	%r11, %r15
	addq	$-270549120, %r15
	orq	%r12, %r15
	movl	$5, %r10d
	jmp	.LBB17_8
.LBB17_76:
	movq	%r9, %rdx
	movsbq	4(%rsi,%r10), %r9
	testq	%r9, %r9
	jle	.LBB17_82
	shll	$7, %r11d
	shll	$14, %r12d
	shll	$21, %r13d
	shlq	$28, %r9
	addq	%r11, %rdi
	addq	%r12, %rdi
	addq	%r13, %rdi
	addq	$-270549120, %rdi
	orq	%r9, %rdi
	movl	$5, %r11d
	movq	16(%rsp), %rsi
	movq	%rdx, %r9
	jmp	.LBB17_11
.LBB17_78:
	movq	%r9, 24(%rsp)
	movsbq	4(%rsi,%r11), %r9
	testq	%r9, %r9
	jle	.LBB17_82
	shll	$7, %r12d
	shll	$14, %r13d
	shll	$21, %r10d
	shlq	$28, %r9
	addq	%r12, %rdx
	addq	%r13, %rdx
	addq	%r10, %rdx
	addq	$-270549120, %rdx
	orq	%r9, %rdx
	movq	16(%rsp), %rsi
	movq	24(%rsp), %r9
	movl	$5, %r10d
	jmp	.LBB17_13
.LBB17_80:
	movq	%r9, 24(%rsp)
	movq	%r10, 184(%rsp)
	movsbq	4(%rsi,%r10), %r9
	testq	%r9, %r9
	movq	40(%rsp), %r10
	jle	.LBB17_82
	shll	$7, %r11d
	shll	$14, %r10d
	movq	32(%rsp), %rsi
	shll	$21, %esi
	shlq	$28, %r9
	addq	%r11, %r12
	addq	%r10, %r12
	addq	%rsi, %r12
	addq	$-270549120, %r12
	orq	%r9, %r12
	movl	$5, %r13d
	movq	24(%rsp), %r9
	movq	184(%rsp), %r10
	jmp	.LBB17_14
.LBB17_82:
	xorl	%eax, %eax
	xorl	%r9d, %r9d
	xorl	%r11d, %r11d
.LBB17_83:
	movq	$0, (%rsp)
	xorl	%r15d, %r15d
	xorl	%ecx, %ecx
	xorl	%edi, %edi
	xorl	%edx, %edx
	xorl	%r12d, %r12d
	xorl	%r13d, %r13d
.LBB17_84:
	cmpl	$2147352575, %ebp
	ja	.LBB17_97
	testb	%al, %al
	jne	.LBB17_97
	cmpq	$2147352576, %r9
	ja	.LBB17_97
	movq	%r9, %r10
	movq	%rdi, %r14
	testq	%r11, %r11
	setne	%dil
	leaq	-16(%r11), %rsi
	cmpq	$-9, %rsi
	setb	%r9b
	testb	%r9b, %dil
	jne	.LBB17_100
	cmpq	$32767, %r15
	ja	.LBB17_100
	leaq	6(,%r15,8), %rdi
	cmpq	%rdi, (%rsp)
	jb	.LBB17_100
	cmpl	$64, %ecx
	ja	.LBB17_100
	testq	%rdx, %rdx
	je	.LBB17_100
	movq	%rcx, %rdi
	imulq	%r10, %rdi
	addq	$7, %rdi
	shrq	$3, %rdi
	cmpq	%rdi, %r12
	jne	.LBB17_100
	movq	%r8, %rdi
	subq	%r13, %rdi
	jb	.LBB17_100
	subq	(%rsp), %rdi
	jb	.LBB17_100
	cmpq	%r12, %rdi
	jne	.LBB17_100
	pxor	%xmm0, %xmm0
	movdqa	%xmm0, 288(%rsp)
	movq	$0, 304(%rsp)
	movq	%r10, 312(%rsp)
	movq	%r11, 320(%rsp)
	movq	(%rsp), %rax
	movq	%rax, 328(%rsp)
	movq	%r15, 336(%rsp)
	movq	%rcx, 344(%rsp)
	movq	%r14, 352(%rsp)
	movq	%rdx, 360(%rsp)
	movq	%r12, 368(%rsp)
	movq	%r13, 376(%rsp)
	leaq	288(%rsp), %rdx
	movq	%rbx, %rdi
	xorl	%esi, %esi
	movq	16(%rsp), %rcx
	movl	%ebp, %r9d
	callq	"lookup::apart::put_steps"
	jmp	.LBB17_149
.LBB17_97:
	pxor	%xmm0, %xmm0
	movdqa	%xmm0, 160(%rsp)
	movdqa	%xmm0, 144(%rsp)
	movdqa	%xmm0, 128(%rsp)
	movdqa	%xmm0, 112(%rsp)
	movdqa	%xmm0, 96(%rsp)
	movq	$0, 176(%rsp)
	cmpl	$2147352575, %ebp
	ja	.LBB17_113
	cmpq	$2147352576, %r9
	ja	.LBB17_120
	movq	%rdi, %r14
	movq	%r9, %r10
	leaq	-16(%r11), %rsi
	jmp	.LBB17_101
.LBB17_100:
	pxor	%xmm0, %xmm0
	movdqa	%xmm0, 160(%rsp)
	movdqa	%xmm0, 144(%rsp)
	movdqa	%xmm0, 128(%rsp)
	movdqa	%xmm0, 112(%rsp)
	movdqa	%xmm0, 96(%rsp)
	movq	$0, 176(%rsp)
.LBB17_101:
	testq	%r11, %r11
	setne	%dil
	cmpl	$-9, %esi
	setb	%sil
	testb	%sil, %dil
	jne	.LBB17_120
	cmpq	$32767, %r15
	ja	.LBB17_120
	leaq	6(,%r15,8), %rsi
	cmpq	%rsi, (%rsp)
	jb	.LBB17_120
	cmpl	$64, %ecx
	ja	.LBB17_120
	movq	%rcx, %r9
	imulq	%r10, %r9
	addq	$7, %r9
	shrq	$3, %r9
	movzbl	%al, %esi
	cmpb	$2, %al
	jae	.LBB17_114
	testq	%rdx, %rdx
	je	.LBB17_120
	movabsq	$72340173107564823, %rdi
	shrq	%cl, %rdi
	cmpq	%r9, %r12
	jne	.LBB17_120
	xorb	$1, %al
	orb	%al, %dil
	testb	$1, %dil
	je	.LBB17_120
.LBB17_109:
	cmpq	%r13, %r8
	jb	.LBB17_120
	movq	%r8, %rax
	subq	%r13, %rax
	subq	(%rsp), %rax
	jb	.LBB17_120
	cmpq	%r12, %rax
	jne	.LBB17_120
	xorps	%xmm1, %xmm1
	movaps	%xmm1, 192(%rsp)
	movq	$0, 208(%rsp)
	movq	%r10, 216(%rsp)
	movq	%r11, 224(%rsp)
	movq	(%rsp), %rax
	movq	%rax, 232(%rsp)
	movq	%r15, 240(%rsp)
	movq	%rcx, 248(%rsp)
	movq	%r14, 256(%rsp)
	movq	%rdx, 264(%rsp)
	movq	%r12, 272(%rsp)
	movq	%r13, 280(%rsp)
	movaps	%xmm1, 48(%rsp)
	movaps	%xmm1, 64(%rsp)
	movdqa	%xmm0, (%rsp)
	movaps	%xmm1, 80(%rsp)
	leaq	48(%rsp), %rdi
	leaq	192(%rsp), %rdx
	movq	16(%rsp), %rcx
	jmp	.LBB17_123
.LBB17_113:
	movb	$12, %sil
	xorl	%eax, %eax
	jmp	.LBB17_121
.LBB17_114:
	cmpl	$2, %esi
	jne	.LBB17_119
	testq	%rcx, %rcx
	jne	.LBB17_120
	testq	%r14, %r14
	jne	.LBB17_120
	testq	%rdx, %rdx
	je	.LBB17_120
	leaq	16383(%r10), %rax
	shrq	$14, %rax
	leaq	(%rax,%rax,4), %rax
	leaq	(%rax,%rax,4), %rax
	cmpq	%r12, %rax
	jbe	.LBB17_109
	jmp	.LBB17_120
.LBB17_119:
	leaq	-257(%rdx), %rax
	cmpq	$-255, %rax
	jae	.LBB17_151
.LBB17_120:
	leaq	96(%rsp), %rdi
	movq	16(%rsp), %r15
	movq	%r15, %rsi
	movq	%r8, %r14
	movq	%r8, %rdx
	callq	"column::Column::open"
	movq	104(%rsp), %rsi
	movq	112(%rsp), %rax
	cmpb	$0, 96(%rsp)
	je	.LBB17_122
.LBB17_121:
	movl	$3, %ecx
	movzbl	%sil, %edx
	leaq	.LJTI17_0(%rip), %rsi
	movslq	(%rsi,%rdx,4), %rdx
	addq	%rsi, %rdx
	jmpq	*%rdx
.LBB17_122:
	xorps	%xmm4, %xmm4
	movaps	%xmm4, 192(%rsp)
	movq	$0, 208(%rsp)
	movq	%rax, 216(%rsp)
	movdqu	120(%rsp), %xmm0
	movups	136(%rsp), %xmm1
	movups	152(%rsp), %xmm2
	movups	168(%rsp), %xmm3
	movdqa	%xmm0, 224(%rsp)
	movaps	%xmm1, 240(%rsp)
	movaps	%xmm2, 256(%rsp)
	movaps	%xmm3, 272(%rsp)
	movaps	%xmm4, 48(%rsp)
	movaps	%xmm4, 64(%rsp)
	pxor	%xmm0, %xmm0
	movdqa	%xmm0, (%rsp)
	movaps	%xmm4, 80(%rsp)
	leaq	48(%rsp), %rdi
	leaq	192(%rsp), %rdx
	movq	%r15, %rcx
	movq	%r14, %r8
.LBB17_123:
	movl	%ebp, %r9d
	callq	"lookup::apart::put_steps"
	movq	48(%rsp), %rax
	cmpq	$1, %rax
	je	.LBB17_126
	testq	%rax, %rax
	jne	.LBB17_129
	movdqa	64(%rsp), %xmm0
	movaps	80(%rsp), %xmm1
	movaps	%xmm1, (%rsp)
	xorl	%eax, %eax
	xorl	%edx, %edx
	testb	%al, %al
	je	.LBB17_130
.LBB17_127:
	movq	%xmm0, %rax
	movl	$3, %ecx
	movzbl	%dl, %edx
	leaq	.LJTI17_0(%rip), %rsi
	movslq	(%rsi,%rdx,4), %rdx
	addq	%rsi, %rdx
	jmpq	*%rdx
.LBB17_128:
	movl	$1, %ecx
	jmp	.LBB17_146
.LBB17_126:
	movb	$1, %dl
	movdqa	80(%rsp), %xmm0
	xorl	%eax, %eax
	testb	%al, %al
	jne	.LBB17_127
.LBB17_130:
	testb	%dl, %dl
	je	.LBB17_150
	movq	$1, (%rbx)
	xorps	%xmm1, %xmm1
	movups	%xmm1, 8(%rbx)
	movq	$0, 24(%rbx)
	jmp	.LBB17_148
.LBB17_129:
	movb	$13, %dl
	movb	$1, %al
	pxor	%xmm0, %xmm0
	testb	%al, %al
	jne	.LBB17_127
	jmp	.LBB17_130
.LBB17_132:
	movl	$16, %ecx
	jmp	.LBB17_146
.LBB17_133:
	movl	$13, %ecx
	jmp	.LBB17_146
.LBB17_134:
	movl	$6, %ecx
	jmp	.LBB17_147
.LBB17_135:
	movl	$14, %ecx
	jmp	.LBB17_146
.LBB17_136:
	movl	$11, %ecx
	jmp	.LBB17_146
.LBB17_137:
	movl	$2, %ecx
	jmp	.LBB17_146
.LBB17_138:
	movl	$17, %ecx
	jmp	.LBB17_146
.LBB17_139:
	movl	$4, %ecx
	jmp	.LBB17_147
.LBB17_140:
	movl	$9, %ecx
	jmp	.LBB17_146
.LBB17_141:
	movl	$7, %ecx
	jmp	.LBB17_147
.LBB17_142:
	movl	$15, %ecx
	jmp	.LBB17_146
.LBB17_143:
	movl	$8, %ecx
	jmp	.LBB17_147
.LBB17_144:
	movl	$12, %ecx
	jmp	.LBB17_147
.LBB17_145:
	movl	$10, %ecx
.LBB17_146:
	xorl	%eax, %eax
.LBB17_147:
	movq	%rcx, (%rbx)
	movq	%rax, 8(%rbx)
	pxor	%xmm0, %xmm0
	movdqu	%xmm0, 16(%rbx)
.LBB17_148:
	movdqu	%xmm0, 32(%rbx)
.LBB17_149:
	addq	$392, %rsp
	popq	%rbx
	popq	%r12
	popq	%r13
	popq	%r14
	popq	%r15
	popq	%rbp
	retq
.LBB17_150:
	xorps	%xmm1, %xmm1
	movups	%xmm1, (%rbx)
	movdqu	%xmm0, 16(%rbx)
	movdqa	(%rsp), %xmm0
	jmp	.LBB17_148
.LBB17_151:
	leaq	-1(%rdx), %rax
	movl	$127, %edi
	bsrq	%rax, %rdi
	xorl	$-64, %edi
	addl	$65, %edi
	cmpl	%edi, %ecx
	jne	.LBB17_120
	testq	%r14, %r14
	jne	.LBB17_120
	leaq	(%r9,%rdx,8), %rax
	cmpq	%rax, %r12
	je	.LBB17_109
	jmp	.LBB17_120
.Lfunc_end17:
	.size	"signalfern_c::look_from", .Lfunc_end17-"signalfern_c::look_from"
	.section	".rodata.signalfern_c::look_from","a",@progbits
	.p2align	2, 0x0
.LJTI17_0:
	.long	.LBB17_128-.LJTI17_0
	.long	.LBB17_137-.LJTI17_0
	.long	.LBB17_147-.LJTI17_0
	.long	.LBB17_139-.LJTI17_0
	.long	.LBB17_134-.LJTI17_0
	.long	.LBB17_141-.LJTI17_0
	.long	.LBB17_143-.LJTI17_0
	.long	.LBB17_140-.LJTI17_0
	.long	.LBB17_145-.LJTI17_0
	.long	.LBB17_136-.LJTI17_0
	.long	.LBB17_144-.LJTI17_0
	.long	.LBB17_133-.LJTI17_0
	.long	.LBB17_135-.LJTI17_0
	.long	.LBB17_142-.LJTI17_0
	.long	.LBB17_132-.LJTI17_0
	.long	.LBB17_138-.LJTI17_0

	.section	.rodata.cst16,"aM",@progbits,16
	.p2align	4, 0x0
.LCPI18_0:
	.zero	16,85
.LCPI18_1:
	.zero	16,51
.LCPI18_2:
	.zero	16,15
	.section	".text.next::steps_from","ax",@progbits
	.p2align	4
	.type	"next::steps_from",@function
"next::steps_from":
	pushq	%rbp
	pushq	%r15
	pushq	%r14
	pushq	%r13
	pushq	%r12
	pushq	%rbx
	subq	$168, %rsp
	movq	%rdx, 144(%rsp)
	movq	%rdi, %r11
	cmpl	$2147352575, %r8d
	ja	.LBB18_42
	movq	%rsi, %rbp
	movzbl	(%rcx), %eax
	movl	%eax, 28(%rsp)
	movq	8(%rcx), %rbx
	movq	16(%rcx), %rdi
	movq	24(%rcx), %rsi
	movq	32(%rcx), %r13
	movq	40(%rcx), %rax
	movq	%rax, 48(%rsp)
	movq	48(%rcx), %rax
	movq	%rax, 96(%rsp)
	movq	56(%rcx), %rax
	movq	%rax, 56(%rsp)
	movq	72(%rcx), %rdx
	leaq	(,%r13,8), %rax
	movq	%rsi, 72(%rsp)
	movq	%rsi, %r9
	subq	%rax, %r9
	movl	%r8d, %r14d
	movb	$17, %cl
	subb	%dil, %cl
	movl	$1, %esi
	shlq	%cl, %rsi
	shrl	$16, %r14d
	leaq	8192(%rsi), %rax
	testq	%rdi, %rdi
	movl	$8192, %ecx
	cmovneq	%rax, %rcx
	movq	%rcx, 152(%rsp)
	leaq	(%rbp,%rdx), %rcx
	movzwl	%r8w, %eax
	cmoveq	%rdi, %rsi
	leaq	(%rcx,%rsi), %r8
	movq	%r8, 136(%rsp)
	movq	%rdx, 104(%rsp)
	addq	%rdx, %rsi
	movq	%rcx, 8(%rsp)
	movq	%r9, 16(%rsp)
	addq	%r9, %rcx
	movq	%rcx, 160(%rsp)
	movq	%rdi, 120(%rsp)
	leaq	-6(%rdi), %rcx
	movq	%rcx, 112(%rsp)
	movq	%rsi, 40(%rsp)
	leaq	(%rsi,%rbp), %rcx
	addq	$12, %rcx
	movq	%rcx, 128(%rsp)
	movq	%rbx, 64(%rsp)
	jmp	.LBB18_2
.LBB18_40:
	testq	%r13, %r13
	movl	$32766, %edx
	cmovneq	%rcx, %rdx
	cmpq	%rax, %rcx
	cmovneq	%rdx, %rcx
	.p2align	4
.LBB18_41:
	xorl	%eax, %eax
	movq	%rcx, %r14
	cmpq	$32766, %rcx
	jae	.LBB18_42
.LBB18_2:
	testq	%r13, %r13
	je	.LBB18_3
	leaq	-1(%r13), %rdx
	cmpq	%r14, %rdx
	movq	%r14, %rcx
	cmovbq	%rdx, %rcx
	movq	160(%rsp), %rdx
	movl	(%rdx,%rcx,8), %edi
	movl	4(%rdx,%rcx,8), %r8d
	leaq	4(%r8), %r15
	cmpq	%r15, 16(%rsp)
	jae	.LBB18_6
	jmp	.LBB18_46
	.p2align	4
.LBB18_3:
	xorl	%r8d, %r8d
	xorl	%edi, %edi
	leaq	4(%r8), %r15
	cmpq	%r15, 16(%rsp)
	jb	.LBB18_46
.LBB18_6:
	movq	8(%rsp), %rcx
	movzwl	(%rcx,%r8), %ecx
	cmpq	%rcx, %r14
	jae	.LBB18_7
.LBB18_33:
	leaq	1(%r14), %rcx
	addq	$2, %r14
	cmpq	%r13, %r14
	jb	.LBB18_41
	testq	%r13, %r13
	je	.LBB18_35
	movq	72(%rsp), %rax
	movq	8(%rsp), %rdx
	movl	-4(%rdx,%rax), %eax
	leaq	4(%rax), %rdx
	cmpq	%rdx, 16(%rsp)
	jb	.LBB18_41
	jmp	.LBB18_38
	.p2align	4
.LBB18_7:
	jbe	.LBB18_8
	testq	%r13, %r13
	jne	.LBB18_46
	incq	%r14
	xorl	%eax, %eax
	movq	%r14, %rcx
	leaq	4(%rax), %rdx
	cmpq	%rdx, 16(%rsp)
	jb	.LBB18_41
	jmp	.LBB18_38
	.p2align	4
.LBB18_8:
	movq	8(%rsp), %rcx
	movzwl	2(%rcx,%r8), %esi
	leaq	1(%rsi), %r12
	leal	(%r12,%r12), %ecx
	xorl	%edx, %edx
	cmpq	$65535, %rsi
	cmovneq	152(%rsp), %rdx
	cmpq	$4095, %rsi
	cmovaeq	%rdx, %rcx
	addq	%r15, %rcx
	cmpq	%rcx, 16(%rsp)
	jb	.LBB18_46
	leaq	(%rsi,%rdi), %rcx
	incq	%rcx
	cmpq	%rcx, %rbx
	jb	.LBB18_46
	cmpq	$65535, %rsi
	sete	%cl
	incb	%cl
	xorl	%edx, %edx
	cmpl	$4095, %esi
	movzbl	%cl, %ecx
	cmovbl	%edx, %ecx
	testb	%cl, %cl
	movq	%rdi, 80(%rsp)
	je	.LBB18_19
	movzbl	%cl, %ecx
	cmpl	$1, %ecx
	jne	.LBB18_47
	movq	%rax, %r10
	shrq	$6, %r10
	andl	$63, %eax
	movq	136(%rsp), %rcx
	leaq	(%rcx,%r15), %r9
	movq	(%r9,%r10,8), %rdi
	movl	%eax, %ecx
	shrq	%cl, %rdi
	movl	$64, %edx
	rep		bsfq	%rdi, %rdx
	addq	%rax, %rdx
	cmpq	$64, %rdx
	jb	.LBB18_17
	leaq	1(%r10), %rax
	cmpq	$1024, %rax
	je	.LBB18_33
	leaq	(%r8,%r10,8), %rcx
	addq	128(%rsp), %rcx
	.p2align	4
.LBB18_15:
	movl	$64, %edx
	rep		bsfq	(%rcx), %rdx
	cmpq	$64, %rdx
	jb	.LBB18_16
	incq	%rax
	addq	$8, %rcx
	cmpq	$1024, %rax
	jne	.LBB18_15
	jmp	.LBB18_33
.LBB18_35:
	xorl	%eax, %eax
	leaq	4(%rax), %rdx
	cmpq	%rdx, 16(%rsp)
	jb	.LBB18_41
.LBB18_38:
	movq	8(%rsp), %rdx
	movzwl	(%rdx,%rax), %eax
	cmpq	%rax, %rcx
	jae	.LBB18_40
	cmpq	$32766, %rax
	movl	$32766, %ecx
	cmovbq	%rax, %rcx
	jmp	.LBB18_41
.LBB18_19:
	movq	8(%rsp), %rdi
	movq	%r15, %rsi
	movq	%r12, %rdx
	movl	%eax, %ecx
	movq	%rbp, %rbx
	movq	%r11, %rbp
	callq	"next_in_block::first_entry"
	movq	80(%rsp), %rdi
	movq	%rbp, %r11
	movq	%rbx, %rbp
	movq	64(%rsp), %rbx
	cmpq	%r12, %rax
	je	.LBB18_33
	movq	8(%rsp), %rcx
	addq	%r15, %rcx
	movzwl	(%rcx,%rax,2), %ecx
	movq	%rcx, 16(%rsp)
	jmp	.LBB18_48
.LBB18_42:
	pxor	%xmm0, %xmm0
	movdqu	%xmm0, 16(%r11)
	movdqu	%xmm0, (%r11)
	jmp	.LBB18_43
.LBB18_16:
	movq	%rax, %r10
.LBB18_17:
	movq	%r10, %rdi
	shlq	$6, %rdi
	orq	%rdx, %rdi
	movq	%rdi, %rax
	movq	120(%rsp), %r13
	movl	%r13d, %ecx
	shrq	%cl, %rax
	movq	%rax, %r12
	movq	112(%rsp), %rcx
	shlq	%cl, %r12
	testq	%r13, %r13
	cmoveq	%r13, %r12
	movq	%r11, 88(%rsp)
	je	.LBB18_18
	movq	8(%rsp), %rcx
	addq	%r15, %rcx
	movzwl	(%rcx,%rax,2), %eax
	rolw	$8, %ax
	movzwl	%ax, %ecx
	jmp	.LBB18_22
.LBB18_18:
	xorl	%ecx, %ecx
.LBB18_22:
	movq	%r10, %r15
	movabsq	$3689348814741910323, %rax
	movabsq	$1085102592571150095, %rbx
	movabsq	$72340172838076673, %r11
	subq	%r12, %r15
	movq	%rbp, 32(%rsp)
	movq	%rdi, 16(%rsp)
	movq	%rcx, 8(%rsp)
	jne	.LBB18_24
	xorl	%r13d, %r13d
	jmp	.LBB18_31
.LBB18_24:
	cmpq	$4, %r15
	jae	.LBB18_26
	xorl	%r13d, %r13d
	xorl	%ebp, %ebp
	jmp	.LBB18_29
.LBB18_26:
	movq	%r15, %rbp
	andq	$-4, %rbp
	movq	40(%rsp), %rcx
	leaq	(%rcx,%r12,8), %rcx
	addq	32(%rsp), %rcx
	leaq	(%r8,%rcx), %r13
	addq	$20, %r13
	pxor	%xmm1, %xmm1
	xorl	%ecx, %ecx
	pxor	%xmm2, %xmm2
	pxor	%xmm0, %xmm0
	.p2align	4
.LBB18_27:
	movdqu	-16(%r13,%rcx,8), %xmm4
	movdqu	(%r13,%rcx,8), %xmm3
	movdqa	%xmm4, %xmm5
	psrlw	$1, %xmm5
	movdqa	.LCPI18_0(%rip), %xmm6
	pand	%xmm6, %xmm5
	psubb	%xmm5, %xmm4
	movdqa	.LCPI18_1(%rip), %xmm5
	movdqa	%xmm4, %xmm7
	pand	%xmm5, %xmm7
	psrlw	$2, %xmm4
	pand	%xmm5, %xmm4
	paddb	%xmm7, %xmm4
	movdqa	%xmm4, %xmm7
	psrlw	$4, %xmm7
	paddb	%xmm4, %xmm7
	movdqa	.LCPI18_2(%rip), %xmm4
	pand	%xmm4, %xmm7
	psadbw	%xmm1, %xmm7
	paddq	%xmm7, %xmm2
	movdqa	%xmm3, %xmm7
	psrlw	$1, %xmm7
	pand	%xmm6, %xmm7
	psubb	%xmm7, %xmm3
	movdqa	%xmm3, %xmm6
	pand	%xmm5, %xmm6
	psrlw	$2, %xmm3
	pand	%xmm5, %xmm3
	paddb	%xmm6, %xmm3
	movdqa	%xmm3, %xmm5
	psrlw	$4, %xmm5
	paddb	%xmm3, %xmm5
	pand	%xmm4, %xmm5
	psadbw	%xmm1, %xmm5
	paddq	%xmm5, %xmm0
	addq	$4, %rcx
	cmpq	%rcx, %rbp
	jne	.LBB18_27
	paddq	%xmm2, %xmm0
	pshufd	$238, %xmm0, %xmm1
	paddq	%xmm0, %xmm1
	movq	%xmm1, %r13
	cmpq	%rbp, %r15
	je	.LBB18_31
.LBB18_29:
	subq	%rbp, %r15
	addq	%rbp, %r12
	movq	40(%rsp), %rcx
	leaq	(%rcx,%r12,8), %rcx
	addq	32(%rsp), %rcx
	addq	%r8, %rcx
	addq	$4, %rcx
	xorl	%r8d, %r8d
	.p2align	4
.LBB18_30:
	movq	(%rcx,%r8,8), %r12
	movq	%r12, %rbp
	shrq	%rbp
	movabsq	$6148914691236517205, %rdi
	andq	%rbp, %rdi
	subq	%rdi, %r12
	movq	%r12, %rdi
	andq	%rax, %rdi
	shrq	$2, %r12
	andq	%rax, %r12
	addq	%rdi, %r12
	movq	%r12, %rdi
	shrq	$4, %rdi
	addq	%r12, %rdi
	andq	%rbx, %rdi
	imulq	%r11, %rdi
	shrq	$56, %rdi
	addq	%rdi, %r13
	incq	%r8
	cmpq	%r8, %r15
	jne	.LBB18_30
.LBB18_31:
	addq	8(%rsp), %r13
	movq	$-1, %rdi
	movl	%edx, %ecx
	shlq	%cl, %rdi
	notq	%rdi
	andq	(%r9,%r10,8), %rdi
	movq	%rdi, %rcx
	shrq	%rcx
	movabsq	$1537228672809129301, %rdx
	andq	%rcx, %rdx
	subq	%rdx, %rdi
	movq	%rdi, %rcx
	andq	%rax, %rcx
	shrq	$2, %rdi
	andq	%rax, %rdi
	addq	%rcx, %rdi
	movq	%rdi, %rax
	shrq	$4, %rax
	addq	%rdi, %rax
	andq	%rbx, %rax
	imulq	%r11, %rax
	shrq	$56, %rax
	addq	%r13, %rax
	cmpq	%rsi, %rax
	movq	88(%rsp), %r11
	movq	32(%rsp), %rbp
	movq	64(%rsp), %rbx
	movq	80(%rsp), %rdi
	jbe	.LBB18_48
.LBB18_46:
	movq	$1, (%r11)
	movq	$13, 8(%r11)
	pxor	%xmm0, %xmm0
	movdqu	%xmm0, 16(%r11)
.LBB18_43:
	movq	$0, 32(%r11)
.LBB18_44:
	addq	$168, %rsp
	popq	%rbx
	popq	%r12
	popq	%r13
	popq	%r14
	popq	%r15
	popq	%rbp
	retq
.LBB18_47:
	movq	%rax, 16(%rsp)
.LBB18_48:
	movabsq	$-9223372036854775808, %r8
	addq	%rdi, %rax
	movq	104(%rsp), %rdi
	addq	72(%rsp), %rdi
	addq	%rdi, %rbp
	cmpl	$2, 28(%rsp)
	jae	.LBB18_49
	movq	96(%rsp), %r12
	movl	%r12d, %ecx
	movq	%r12, %rdx
	shrq	%rdx
	orq	%r8, %rdx
	notq	%r12
	shrq	%r12
	testb	$1, %cl
	cmoveq	%rdx, %r12
	xorl	%ecx, %ecx
	movq	%rax, %rdx
	movq	56(%rsp), %r15
	movq	48(%rsp), %r13
	testq	%r13, %r13
	jne	.LBB18_59
	jmp	.LBB18_58
.LBB18_49:
	movq	56(%rsp), %r15
	movq	48(%rsp), %r13
	jne	.LBB18_56
	movq	%rax, %rcx
	shrq	$14, %rcx
	leaq	(%rcx,%rcx,4), %rcx
	leaq	(%rcx,%rcx,4), %rcx
	movzbl	24(%rbp,%rcx), %r13d
	cmpq	$64, %r13
	ja	.LBB18_46
	movq	(%rbp,%rcx), %r12
	xorq	%r8, %r12
	movq	%rbx, %rdx
	shrq	$14, %rdx
	andl	$16383, %ebx
	addl	$16383, %ebx
	shrl	$14, %ebx
	addq	%rdx, %rbx
	leaq	(%rbx,%rbx,4), %rdx
	leaq	(%rdx,%rdx,4), %rsi
	movl	%eax, %edx
	andl	$16383, %edx
	testq	%r13, %r13
	je	.LBB18_52
	movq	16(%rbp,%rcx), %rcx
	addq	%rsi, %rdi
	movq	144(%rsp), %r10
	subq	%rdi, %r10
	subq	%rcx, %r10
	jb	.LBB18_46
	leal	1(%rdx), %edi
	movl	%r13d, %r9d
	imull	%edi, %r9d
	addl	$7, %r9d
	shrl	$3, %r9d
	cmpq	%r9, %r10
	jb	.LBB18_46
	addq	%rsi, %rcx
	testq	%r13, %r13
	jne	.LBB18_59
	jmp	.LBB18_58
.LBB18_56:
	leaq	(,%r15,8), %rcx
	xorl	%r12d, %r12d
	movq	%rax, %rdx
	testq	%r13, %r13
	je	.LBB18_58
.LBB18_59:
	movq	%r11, %rdi
	addq	%rbp, %rcx
	imulq	%r13, %rdx
	movq	%rdx, %r11
	shrq	$3, %r11
	leaq	(%rdx,%r13), %rsi
	addq	$7, %rsi
	shrq	$3, %rsi
	andl	$7, %edx
	cmpq	$8, %r13
	ja	.LBB18_61
	movzbl	(%rcx,%r11), %r10d
	movzbl	-1(%rcx,%rsi), %r9d
	movl	$1, %ebx
	jmp	.LBB18_66
.LBB18_61:
	cmpq	$24, %r13
	ja	.LBB18_63
	movzwl	(%rcx,%r11), %r10d
	movzwl	-2(%rcx,%rsi), %r9d
	movl	$2, %ebx
	jmp	.LBB18_66
.LBB18_63:
	cmpq	$56, %r13
	ja	.LBB18_65
	movl	(%rcx,%r11), %r10d
	movl	-4(%rcx,%rsi), %r9d
	movl	$4, %ebx
	jmp	.LBB18_66
.LBB18_65:
	movq	(%rcx,%r11), %r10
	movq	-8(%rcx,%rsi), %r9
	movl	$8, %ebx
.LBB18_66:
	subq	%r11, %rsi
	cmpl	$1, 28(%rsp)
	jne	.LBB18_67
	subl	%ebx, %esi
	shll	$3, %esi
	movl	%esi, %ecx
	shlq	%cl, %r9
	orq	%r10, %r9
	addl	%r13d, %edx
	negb	%dl
	movl	%edx, %ecx
	shlq	%cl, %r9
	negb	%r13b
	movl	%r13d, %ecx
	shrq	%cl, %r9
	movq	%rdi, %r11
	jmp	.LBB18_72
.LBB18_67:
	bswapq	%r10
	movl	%edx, %ecx
	shlq	%cl, %r10
	bswapq	%r9
	subl	%ebx, %esi
	shll	$3, %esi
	subl	%edx, %esi
	movl	%esi, %ecx
	shrq	%cl, %r9
	orq	%r10, %r9
	negb	%r13b
	movl	%r13d, %ecx
	shrq	%cl, %r9
	movq	%rdi, %r11
	cmpl	$3, 28(%rsp)
	je	.LBB18_69
.LBB18_72:
	movq	%r12, %rcx
	notq	%rcx
	cmpq	$2, %r15
	jb	.LBB18_74
	movq	%r9, %rdx
	orq	%r15, %rdx
	shrq	$32, %rdx
	je	.LBB18_74
	movq	%rax, %rsi
	movq	%rcx, %rax
	xorl	%edx, %edx
	divq	%r15
	cmpq	%rax, %r9
	ja	.LBB18_46
	movq	%rsi, %rax
	imulq	%r15, %r9
	jmp	.LBB18_77
.LBB18_74:
	imulq	%r15, %r9
	cmpq	%rcx, %r9
	ja	.LBB18_46
.LBB18_77:
	addq	%r12, %r9
	xorq	%r8, %r9
	jmp	.LBB18_78
.LBB18_52:
	xorl	%ecx, %ecx
	addq	%rsi, %rcx
	testq	%r13, %r13
	jne	.LBB18_59
.LBB18_58:
	xorl	%r9d, %r9d
	cmpl	$3, 28(%rsp)
	jne	.LBB18_72
.LBB18_69:
	cmpq	%r9, %r15
	jbe	.LBB18_46
	movq	(%rbp,%r9,8), %r9
.LBB18_78:
	shll	$16, %r14d
	movq	16(%rsp), %rcx
	addl	%r14d, %ecx
	movq	$0, (%r11)
	movq	$1, 8(%r11)
	movq	%rax, 16(%r11)
	movl	%ecx, 24(%r11)
	movl	$0, 28(%r11)
	movq	%r9, 32(%r11)
	jmp	.LBB18_44
.Lfunc_end18:
	.size	"next::steps_from", .Lfunc_end18-"next::steps_from"

	.section	".text.next_in_block::first_entry","ax",@progbits
	.p2align	4
	.type	"next_in_block::first_entry",@function
"next_in_block::first_entry":
	movq	%rdx, %rax
	movq	%rdx, %r8
	shrq	$4, %r8
	je	.LBB19_4
	leaq	(%rdi,%rsi), %r9
	movd	%ecx, %xmm0
	pshuflw	$0, %xmm0, %xmm0
	pshufd	$68, %xmm0, %xmm0
	xorl	%edx, %edx
	.p2align	4
.LBB19_2:
	movdqu	(%r9,%rdx,2), %xmm1
	movdqu	16(%r9,%rdx,2), %xmm2
	movdqa	%xmm0, %xmm3
	psubusw	%xmm2, %xmm3
	pxor	%xmm2, %xmm2
	pcmpeqw	%xmm2, %xmm3
	movdqa	%xmm0, %xmm4
	psubusw	%xmm1, %xmm4
	pcmpeqw	%xmm2, %xmm4
	packsswb	%xmm3, %xmm4
	pmovmskb	%xmm4, %r10d
	testl	%r10d, %r10d
	jne	.LBB19_5
	addq	$16, %rdx
	decq	%r8
	jne	.LBB19_2
.LBB19_4:
	movq	%rax, %rdx
	andq	$-16, %rdx
.LBB19_5:
	cmpq	%rax, %rdx
	jae	.LBB19_9
	addq	%rsi, %rdi
	.p2align	4
.LBB19_7:
	cmpw	(%rdi,%rdx,2), %cx
	jbe	.LBB19_8
	incq	%rdx
	cmpq	%rdx, %rax
	jne	.LBB19_7
.LBB19_9:
	retq
.LBB19_8:
	movq	%rdx, %rax
	retq
.Lfunc_end19:
	.size	"next_in_block::first_entry", .Lfunc_end19-"next_in_block::first_entry"

	.section	".text.pair_at::steps_at","ax",@progbits
	.p2align	4
	.type	"pair_at::steps_at",@function
"pair_at::steps_at":
	pushq	%rbp
	pushq	%r15
	pushq	%r14
	pushq	%r13
	pushq	%r12
	pushq	%rbx
	movq	8(%rcx), %r12
	cmpq	%r8, %r12
	jbe	.LBB20_1
	movq	24(%rcx), %r13
	movq	32(%rcx), %r9
	movq	72(%rcx), %r10
	leaq	(%rsi,%r10), %r11
	leaq	(,%r9,8), %rax
	movq	%r13, %rbx
	subq	%rax, %rbx
	cmpq	$2, %r9
	movq	%rdx, -8(%rsp)
	movq	%r10, -32(%rsp)
	jb	.LBB20_11
	leaq	(%r11,%rbx), %r10
	xorl	%r14d, %r14d
	movq	%r9, %r15
	jmp	.LBB20_6
	.p2align	4
.LBB20_8:
	movq	%rax, %r14
	movq	%r15, %rbp
	subq	%rax, %rbp
	cmpq	$1, %rbp
	jbe	.LBB20_10
.LBB20_6:
	leaq	(%r15,%r14), %rax
	shrq	%rax
	movl	(%r10,%rax,8), %ebp
	cmpq	%rbp, %r8
	jae	.LBB20_8
	movq	%rax, %r15
	movq	%r14, %rax
	movq	%r15, %rbp
	subq	%rax, %rbp
	cmpq	$1, %rbp
	ja	.LBB20_6
	jmp	.LBB20_10
.LBB20_1:
	xorps	%xmm0, %xmm0
	movups	%xmm0, 16(%rdi)
	movups	%xmm0, (%rdi)
	jmp	.LBB20_2
.LBB20_11:
	xorl	%eax, %eax
	testq	%r9, %r9
	je	.LBB20_12
.LBB20_10:
	decq	%r9
	cmpq	%rax, %r9
	cmovaeq	%rax, %r9
	leaq	(%r11,%r9,8), %r10
	movl	(%rbx,%r10), %r9d
	movl	4(%rbx,%r10), %ebp
	movb	$1, %r10b
	leaq	4(%rbp), %r14
	cmpq	%r14, %rbx
	jb	.LBB20_86
.LBB20_14:
	movzwl	(%r11,%rbp), %edx
	cmpq	$32765, %rdx
	ja	.LBB20_86
	cmpq	%rdx, %rax
	setne	%al
	testb	%al, %r10b
	jne	.LBB20_86
	movq	16(%rcx), %rax
	movq	%rax, -40(%rsp)
	movzwl	2(%r11,%rbp), %r10d
	leaq	1(%r10), %r15
	cmpq	$4094, %r10
	ja	.LBB20_18
	leal	(%r15,%r15), %eax
	jmp	.LBB20_21
.LBB20_12:
	xorl	%r10d, %r10d
	xorl	%ebp, %ebp
	xorl	%r9d, %r9d
	leaq	4(%rbp), %r14
	cmpq	%r14, %rbx
	jae	.LBB20_14
	jmp	.LBB20_86
.LBB20_18:
	cmpw	$-1, %r10w
	je	.LBB20_19
	movb	$17, %al
	movq	%r13, -48(%rsp)
	movq	-40(%rsp), %r13
	subb	%r13b, %al
	movq	%rdx, -64(%rsp)
	movl	$1, %edx
	movq	%rcx, -56(%rsp)
	movl	%eax, %ecx
	shlq	%cl, %rdx
	movq	-56(%rsp), %rcx
	addq	$8192, %rdx
	testq	%r13, %r13
	movq	-48(%rsp), %r13
	movl	$8192, %eax
	cmovneq	%rdx, %rax
	movq	-64(%rsp), %rdx
	jmp	.LBB20_21
.LBB20_19:
	xorl	%eax, %eax
.LBB20_21:
	addq	%r14, %rax
	cmpq	%rax, %rbx
	jb	.LBB20_86
	addq	%r9, %r15
	cmpq	%r8, %r15
	jbe	.LBB20_86
	movq	%r8, %rbx
	subq	%r9, %rbx
	jb	.LBB20_86
	cmpq	%r15, %r12
	jb	.LBB20_86
	movq	%rdx, -64(%rsp)
	movzbl	(%rcx), %eax
	movl	%eax, -56(%rsp)
	movq	40(%rcx), %rax
	movq	%rax, -48(%rsp)
	movq	48(%rcx), %rax
	movq	%rax, -16(%rsp)
	movq	56(%rcx), %r15
	cmpw	$-1, %r10w
	sete	%al
	movzwl	%r10w, %ecx
	incb	%al
	xorl	%edx, %edx
	cmpl	$4095, %ecx
	movzbl	%al, %eax
	cmovbl	%edx, %eax
	cmpb	$2, %al
	je	.LBB20_26
	movzbl	%al, %eax
	cmpl	$1, %eax
	jne	.LBB20_28
	movq	-40(%rsp), %rdx
	testq	%rdx, %rdx
	movq	%r15, -24(%rsp)
	je	.LBB20_30
	cmpq	$16, %rdx
	jne	.LBB20_34
	xorl	%r9d, %r9d
	jmp	.LBB20_40
.LBB20_26:
	movq	-64(%rsp), %rdx
	movq	-48(%rsp), %rbp
	movl	-56(%rsp), %r10d
	jmp	.LBB20_53
.LBB20_28:
	movq	-64(%rsp), %rdx
	movl	-56(%rsp), %r10d
	addq	%r14, %r11
	movzwl	(%r11,%rbx,2), %ebx
	movq	-48(%rsp), %rbp
	jmp	.LBB20_53
.LBB20_30:
	movq	%rdx, %r9
	jmp	.LBB20_31
.LBB20_34:
	movb	$16, %cl
	subb	%dl, %cl
	movl	$1, %eax
	shlq	%cl, %rax
	leaq	(%r11,%r14), %rcx
	xorl	%r9d, %r9d
	jmp	.LBB20_35
.LBB20_37:
	movq	%r10, %r9
	movq	%rax, %rdx
	subq	%r9, %rdx
	cmpq	$1, %rdx
	jbe	.LBB20_39
.LBB20_35:
	leaq	(%rax,%r9), %rdx
	movq	%rdx, %r10
	shrq	%r10
	andq	$-2, %rdx
	movzwl	(%rcx,%rdx), %edx
	rolw	$8, %dx
	movzwl	%dx, %edx
	cmpq	%rdx, %rbx
	jae	.LBB20_37
	movq	%r10, %rax
	movq	%rax, %rdx
	subq	%r9, %rdx
	cmpq	$1, %rdx
	ja	.LBB20_35
.LBB20_39:
	movq	-40(%rsp), %rdx
	movl	%edx, %ecx
	shlq	%cl, %r9
	testq	%rdx, %rdx
	je	.LBB20_31
.LBB20_40:
	movq	%r9, %rax
	movl	%edx, %ecx
	shrq	%cl, %rax
	addq	%r14, %r11
	movzwl	(%r11,%rax,2), %eax
	rolw	$8, %ax
	movzwl	%ax, %eax
	subq	%rax, %rbx
	jb	.LBB20_86
	shrq	$6, %r9
	leal	-6(%rdx), %ecx
	movl	$1, %eax
	shlq	%cl, %rax
	movl	$1, %r10d
	addq	%r9, %rax
	movb	$17, %cl
	subb	%dl, %cl
	shlq	%cl, %r10
	jmp	.LBB20_42
.LBB20_31:
	shrq	$6, %r9
	leaq	1024(%r9), %rax
	xorl	%r10d, %r10d
.LBB20_42:
	movq	%r9, %r11
	shlq	$6, %r11
	negq	%r11
	subq	%r9, %rax
	addq	%r10, %rbp
	addq	-32(%rsp), %rbp
	leaq	(,%r9,8), %rcx
	addq	%rbp, %rcx
	addq	%rsi, %rcx
	addq	$4, %rcx
	xorl	%r9d, %r9d
	movq	%rbx, %r10
.LBB20_43:
	movq	(%rcx,%r9,8), %r14
	movq	%r14, %rdx
	shrq	%rdx
	movabsq	$6148914691236517205, %r15
	andq	%rdx, %r15
	movq	%r14, %rdx
	subq	%r15, %rdx
	movabsq	$3689348814741910323, %r15
	movq	%rdx, %rbp
	andq	%r15, %rbp
	shrq	$2, %rdx
	andq	%r15, %rdx
	addq	%rbp, %rdx
	movq	%rdx, %r15
	shrq	$4, %r15
	addq	%rdx, %r15
	movabsq	$1085102592571150095, %rdx
	andq	%r15, %rdx
	movabsq	$72340172838076673, %r15
	imulq	%rdx, %r15
	shrq	$56, %r15
	subq	%r15, %r10
	jb	.LBB20_44
	addq	$-64, %r11
	incq	%r9
	movq	%r10, %rbx
	cmpq	%r9, %rax
	jne	.LBB20_43
	jmp	.LBB20_86
.LBB20_44:
	testq	%rbx, %rbx
	movq	-24(%rsp), %r15
	je	.LBB20_45
	cmpq	$1, %rbx
	movq	-64(%rsp), %rdx
	movq	-48(%rsp), %rbp
	jne	.LBB20_48
	xorl	%eax, %eax
	movl	-56(%rsp), %r10d
	jmp	.LBB20_51
.LBB20_45:
	xorl	%eax, %eax
	movq	-64(%rsp), %rdx
	movq	-48(%rsp), %rbp
	movl	-56(%rsp), %r10d
	jmp	.LBB20_52
.LBB20_48:
	movq	%rbx, %r10
	andq	$-2, %r10
	xorl	%eax, %eax
.LBB20_49:
	movl	$64, %r9d
	rep		bsfq	%r14, %r9
	movl	%r9d, %ecx
	shrq	%cl, %r14
	movl	$64, %ecx
	shrq	%r14
	rep		bsfq	%r14, %rcx
	shrq	%cl, %r14
	addq	%rax, %r9
	shrq	%r14
	leaq	(%rcx,%r9), %rax
	addq	$2, %rax
	addq	$-2, %r10
	jne	.LBB20_49
	testb	$1, %bl
	movl	-56(%rsp), %r10d
	je	.LBB20_52
.LBB20_51:
	movl	$64, %ecx
	rep		bsfq	%r14, %rcx
	shrq	%cl, %r14
	shrq	%r14
	addq	%rcx, %rax
	incq	%rax
.LBB20_52:
	movl	$64, %ebx
	rep		bsfq	%r14, %rbx
	addq	%rax, %rbx
	subq	%r11, %rbx
.LBB20_53:
	movabsq	$-9223372036854775808, %r9
	movq	-32(%rsp), %r14
	addq	%r13, %r14
	addq	%r14, %rsi
	cmpl	$2, %r10d
	jae	.LBB20_54
	movq	-16(%rsp), %r13
	movl	%r13d, %eax
	movq	%r13, %rcx
	shrq	%rcx
	orq	%r9, %rcx
	notq	%r13
	shrq	%r13
	testb	$1, %al
	cmoveq	%rcx, %r13
	xorl	%eax, %eax
	movq	%r8, %r9
	testq	%rbp, %rbp
	jne	.LBB20_65
	jmp	.LBB20_64
.LBB20_54:
	jne	.LBB20_61
	movq	%r8, %rax
	shrq	$14, %rax
	leaq	(%rax,%rax,4), %rax
	leaq	(%rax,%rax,4), %rax
	movzbl	24(%rsi,%rax), %ebp
	cmpq	$64, %rbp
	ja	.LBB20_86
	movq	(%rsi,%rax), %r13
	movabsq	$-9223372036854775808, %rcx
	xorq	%rcx, %r13
	movq	%r12, %rcx
	shrq	$14, %rcx
	andl	$16383, %r12d
	addl	$16383, %r12d
	shrl	$14, %r12d
	addq	%rcx, %r12
	leaq	(%r12,%r12,4), %rcx
	leaq	(%rcx,%rcx,4), %rcx
	movl	%r8d, %r9d
	andl	$16383, %r9d
	testq	%rbp, %rbp
	je	.LBB20_57
	movq	16(%rsi,%rax), %rax
	addq	%rcx, %r14
	movq	-8(%rsp), %r11
	subq	%r14, %r11
	subq	%rax, %r11
	jb	.LBB20_86
	leal	1(%r9), %edx
	movl	%ebp, %r10d
	imull	%edx, %r10d
	movq	-64(%rsp), %rdx
	addl	$7, %r10d
	shrl	$3, %r10d
	cmpq	%r10, %r11
	movl	-56(%rsp), %r10d
	jb	.LBB20_86
	addq	%rcx, %rax
	testq	%rbp, %rbp
	jne	.LBB20_65
	jmp	.LBB20_64
.LBB20_61:
	leaq	(,%r15,8), %rax
	xorl	%r13d, %r13d
	movq	%r8, %r9
	testq	%rbp, %rbp
	je	.LBB20_64
.LBB20_65:
	addq	%rsi, %rax
	imulq	%rbp, %r9
	movq	%r9, %rcx
	shrq	$3, %rcx
	leaq	(%r9,%rbp), %rdx
	addq	$7, %rdx
	shrq	$3, %rdx
	andl	$7, %r9d
	cmpq	$8, %rbp
	ja	.LBB20_67
	movzbl	(%rax,%rcx), %r14d
	movzbl	-1(%rax,%rdx), %r11d
	movl	$1, %eax
	jmp	.LBB20_72
.LBB20_67:
	cmpq	$24, %rbp
	ja	.LBB20_69
	movzwl	(%rax,%rcx), %r14d
	movzwl	-2(%rax,%rdx), %r11d
	movl	$2, %eax
	jmp	.LBB20_72
.LBB20_69:
	cmpq	$56, %rbp
	ja	.LBB20_71
	movl	(%rax,%rcx), %r14d
	movl	-4(%rax,%rdx), %r11d
	movl	$4, %eax
	jmp	.LBB20_72
.LBB20_71:
	movq	(%rax,%rcx), %r14
	movq	-8(%rax,%rdx), %r11
	movl	$8, %eax
.LBB20_72:
	subq	%rcx, %rdx
	cmpl	$1, %r10d
	jne	.LBB20_73
	subl	%eax, %edx
	shll	$3, %edx
	movl	%edx, %ecx
	shlq	%cl, %r11
	orq	%r14, %r11
	addl	%ebp, %r9d
	negb	%r9b
	movl	%r9d, %ecx
	shlq	%cl, %r11
	negb	%bpl
	movl	%ebp, %ecx
	shrq	%cl, %r11
	movq	-64(%rsp), %rdx
	jmp	.LBB20_78
.LBB20_73:
	bswapq	%r14
	movl	%r9d, %ecx
	shlq	%cl, %r14
	bswapq	%r11
	subl	%eax, %edx
	shll	$3, %edx
	subl	%r9d, %edx
	movl	%edx, %ecx
	shrq	%cl, %r11
	orq	%r14, %r11
	negb	%bpl
	movl	%ebp, %ecx
	shrq	%cl, %r11
	movq	-64(%rsp), %rdx
	jmp	.LBB20_74
.LBB20_57:
	xorl	%eax, %eax
	addq	%rcx, %rax
	testq	%rbp, %rbp
	jne	.LBB20_65
.LBB20_64:
	xorl	%r11d, %r11d
.LBB20_74:
	cmpl	$3, %r10d
	jne	.LBB20_78
	cmpq	%r11, %r15
	jbe	.LBB20_86
	movq	(%rsi,%r11,8), %r11
	jmp	.LBB20_84
.LBB20_78:
	movq	%r13, %rax
	notq	%rax
	cmpq	$2, %r15
	jb	.LBB20_80
	movq	%r11, %rcx
	orq	%r15, %rcx
	shrq	$32, %rcx
	je	.LBB20_80
	xorl	%edx, %edx
	divq	%r15
	movq	-64(%rsp), %rdx
	cmpq	%rax, %r11
	ja	.LBB20_86
	imulq	%r15, %r11
	jmp	.LBB20_83
.LBB20_80:
	imulq	%r15, %r11
	cmpq	%rax, %r11
	jbe	.LBB20_83
.LBB20_86:
	movq	$1, (%rdi)
	movq	$13, 8(%rdi)
	xorps	%xmm0, %xmm0
	movups	%xmm0, 16(%rdi)
.LBB20_2:
	movq	$0, 32(%rdi)
.LBB20_3:
	popq	%rbx
	popq	%r12
	popq	%r13
	popq	%r14
	popq	%r15
	popq	%rbp
	retq
.LBB20_83:
	addq	%r13, %r11
	movabsq	$-9223372036854775808, %rax
	xorq	%rax, %r11
.LBB20_84:
	shll	$16, %edx
	addl	%edx, %ebx
	movq	$0, (%rdi)
	movq	$1, 8(%rdi)
	movq	%r8, 16(%rdi)
	movl	%ebx, 24(%rdi)
	movl	$0, 28(%rdi)
	movq	%r11, 32(%rdi)
	jmp	.LBB20_3
.Lfunc_end20:
	.size	"pair_at::steps_at", .Lfunc_end20-"pair_at::steps_at"

	.section	".text.plans::plan","ax",@progbits
	.p2align	4
	.type	"plans::plan",@function
"plans::plan":
	cmpq	$2147352576, %rdx
	jbe	.LBB21_2
	xorl	%eax, %eax
	retq
.LBB21_2:
	pushq	%r15
	pushq	%r14
	pushq	%r13
	pushq	%r12
	pushq	%rbx
	subq	$3072, %rsp
	movq	$0, (%rsp)
	subq	$3072, %rsp
	movq	%rdx, %r14
	movq	%rsi, %r15
	movq	%rdi, %rbx
	movq	%rsp, %rdi
	movl	$2048, %edx
	xorl	%esi, %esi
	callq	memset@PLT
	cmpq	$128, %r14
	jae	.LBB21_36
	xorps	%xmm0, %xmm0
	movaps	%xmm0, 2288(%rsp)
	movaps	%xmm0, 2272(%rsp)
	movaps	%xmm0, 2256(%rsp)
	movaps	%xmm0, 2240(%rsp)
	movaps	%xmm0, 2224(%rsp)
	movaps	%xmm0, 2208(%rsp)
	movaps	%xmm0, 2192(%rsp)
	movaps	%xmm0, 2176(%rsp)
	movaps	%xmm0, 2160(%rsp)
	movaps	%xmm0, 2144(%rsp)
	movaps	%xmm0, 2128(%rsp)
	movaps	%xmm0, 2112(%rsp)
	movaps	%xmm0, 2096(%rsp)
	movaps	%xmm0, 2080(%rsp)
	movaps	%xmm0, 2064(%rsp)
	movaps	%xmm0, 2048(%rsp)
	testq	%r14, %r14
	je	.LBB21_68
	leaq	-8(%rsp), %rax
	xorl	%ecx, %ecx
	xorl	%edx, %edx
	jmp	.LBB21_7
	.p2align	4
.LBB21_18:
	movq	%rcx, %rsi
	incq	%rdx
	cmpq	%r14, %rdx
	je	.LBB21_70
.LBB21_7:
	movq	(%r15,%rdx,8), %rsi
	movq	%rsi, %rdi
	shrq	$32, %rdi
	movl	$2147483648, %r8d
	xorl	%edi, %r8d
	imull	$1969558475, %esi, %edi
	imull	$898614065, %r8d, %r8d
	addl	%edi, %r8d
	shrl	$24, %r8d
	movzbl	2048(%rsp,%r8), %edi
	cmpq	%rdi, %rcx
	jbe	.LBB21_10
	cmpq	%rsi, (%rsp,%rdi,8)
	jne	.LBB21_11
	movq	%rcx, %r8
	subq	%rdi, %r8
	ja	.LBB21_17
	jmp	.LBB21_19
	.p2align	4
.LBB21_10:
	testq	%rcx, %rcx
	je	.LBB21_15
.LBB21_11:
	xorl	%edi, %edi
	movq	%rcx, %r9
	jmp	.LBB21_13
	.p2align	4
.LBB21_12:
	movq	%r11, %r9
	cmpq	%r9, %rdi
	jae	.LBB21_16
.LBB21_13:
	movq	%r9, %r10
	subq	%rdi, %r10
	shrq	%r10
	leaq	(%r10,%rdi), %r11
	cmpq	%rsi, (%rsp,%r11,8)
	jge	.LBB21_12
	addq	%r10, %rdi
	incq	%rdi
	cmpq	%r9, %rdi
	jb	.LBB21_13
.LBB21_16:
	movb	%dil, 2048(%rsp,%r8)
	movq	%rcx, %r8
	subq	%rdi, %r8
	jbe	.LBB21_19
.LBB21_17:
	cmpq	%rsi, (%rsp,%rdi,8)
	jne	.LBB21_19
	jmp	.LBB21_18
.LBB21_15:
	xorl	%edi, %edi
	movb	%dil, 2048(%rsp,%r8)
	movq	%rcx, %r8
	subq	%rdi, %r8
	ja	.LBB21_17
	.p2align	4
.LBB21_19:
	cmpq	$256, %rcx
	je	.LBB21_72
	cmpq	$-1, %rdi
	je	.LBB21_24
	testq	%r8, %r8
	je	.LBB21_5
	cmpq	$4, %r8
	jae	.LBB21_26
	movq	%r8, %r9
	jmp	.LBB21_29
	.p2align	4
.LBB21_24:
	movq	-8(%rsp), %r9
	movl	%r8d, %r10d
	andl	$3, %r10d
	cmpq	$3, %rcx
	jae	.LBB21_31
	xorl	%r11d, %r11d
	jmp	.LBB21_34
.LBB21_26:
	movq	%r8, %r10
	andq	$-4, %r10
	movl	%r8d, %r9d
	andl	$3, %r9d
	movq	%r10, %r11
	negq	%r11
	leaq	(%rax,%rcx,8), %r12
	xorl	%r13d, %r13d
	.p2align	4
.LBB21_27:
	movups	-24(%r12,%r13,8), %xmm0
	movups	-8(%r12,%r13,8), %xmm1
	movups	%xmm1, (%r12,%r13,8)
	movups	%xmm0, -16(%r12,%r13,8)
	addq	$-4, %r13
	cmpq	%r13, %r11
	jne	.LBB21_27
	cmpq	%r10, %r8
	je	.LBB21_5
.LBB21_29:
	leaq	(%rsp,%rdi,8), %r8
	movq	%r9, %r10
	.p2align	4
.LBB21_30:
	decq	%r10
	movq	-8(%r8,%r9,8), %r11
	movq	%r11, (%r8,%r9,8)
	movq	%r10, %r9
	jne	.LBB21_30
	jmp	.LBB21_5
.LBB21_31:
	andq	$-4, %r8
	xorl	%r11d, %r11d
	.p2align	4
.LBB21_32:
	movq	%r9, (%rsp,%r11,8)
	movq	%r9, 8(%rsp,%r11,8)
	movq	%r9, 16(%rsp,%r11,8)
	movq	%r9, 24(%rsp,%r11,8)
	addq	$4, %r11
	cmpq	%r11, %r8
	jne	.LBB21_32
	testq	%r10, %r10
	je	.LBB21_5
.LBB21_34:
	leaq	(%rsp,%r11,8), %r8
	xorl	%r11d, %r11d
	.p2align	4
.LBB21_35:
	movq	%r9, (%r8,%r11,8)
	incq	%r11
	cmpq	%r11, %r10
	jne	.LBB21_35
.LBB21_5:
	movq	%rsi, (%rsp,%rdi,8)
	leaq	1(%rcx), %rsi
	cmpq	$255, %rcx
	movq	%rsi, %rcx
	ja	.LBB21_70
	incq	%rdx
	cmpq	%r14, %rdx
	jne	.LBB21_7
	jmp	.LBB21_70
.LBB21_36:
	leaq	2048(%rsp), %rdi
	xorl	%r12d, %r12d
	movl	$4096, %edx
	xorl	%esi, %esi
	callq	memset@PLT
	leaq	-8(%rsp), %rax
	xorl	%ecx, %ecx
	jmp	.LBB21_39
	.p2align	4
.LBB21_50:
	movq	%r12, %rsi
	incq	%rcx
	cmpq	%r14, %rcx
	je	.LBB21_70
.LBB21_39:
	movq	(%r15,%rcx,8), %rdx
	movq	%rdx, %rsi
	shrq	$32, %rsi
	movl	$2147483648, %edi
	xorl	%esi, %edi
	imull	$1969558475, %edx, %esi
	imull	$898614065, %edi, %edi
	addl	%esi, %edi
	shrl	$20, %edi
	movzbl	2048(%rsp,%rdi), %esi
	cmpq	%rsi, %r12
	jbe	.LBB21_42
	cmpq	%rdx, (%rsp,%rsi,8)
	jne	.LBB21_43
	movq	%r12, %rdi
	subq	%rsi, %rdi
	ja	.LBB21_49
	jmp	.LBB21_51
	.p2align	4
.LBB21_42:
	testq	%r12, %r12
	je	.LBB21_47
.LBB21_43:
	xorl	%esi, %esi
	movq	%r12, %r8
	jmp	.LBB21_45
	.p2align	4
.LBB21_44:
	movq	%r10, %r8
	cmpq	%r8, %rsi
	jae	.LBB21_48
.LBB21_45:
	movq	%r8, %r9
	subq	%rsi, %r9
	shrq	%r9
	leaq	(%r9,%rsi), %r10
	cmpq	%rdx, (%rsp,%r10,8)
	jge	.LBB21_44
	addq	%r9, %rsi
	incq	%rsi
	cmpq	%r8, %rsi
	jb	.LBB21_45
.LBB21_48:
	movb	%sil, 2048(%rsp,%rdi)
	movq	%r12, %rdi
	subq	%rsi, %rdi
	jbe	.LBB21_51
.LBB21_49:
	cmpq	%rdx, (%rsp,%rsi,8)
	jne	.LBB21_51
	jmp	.LBB21_50
.LBB21_47:
	xorl	%esi, %esi
	movb	%sil, 2048(%rsp,%rdi)
	movq	%r12, %rdi
	subq	%rsi, %rdi
	ja	.LBB21_49
	.p2align	4
.LBB21_51:
	cmpq	$256, %r12
	je	.LBB21_69
	cmpq	$-1, %rsi
	je	.LBB21_56
	testq	%rdi, %rdi
	je	.LBB21_37
	cmpq	$4, %rdi
	jae	.LBB21_58
	movq	%rdi, %r8
	jmp	.LBB21_61
	.p2align	4
.LBB21_56:
	movq	-8(%rsp), %r8
	movl	%edi, %r9d
	andl	$3, %r9d
	cmpq	$3, %r12
	jae	.LBB21_63
	xorl	%r10d, %r10d
	jmp	.LBB21_66
.LBB21_58:
	movq	%rdi, %r9
	andq	$-4, %r9
	movl	%edi, %r8d
	andl	$3, %r8d
	movq	%r9, %r10
	negq	%r10
	leaq	(%rax,%r12,8), %r11
	xorl	%r13d, %r13d
	.p2align	4
.LBB21_59:
	movups	-24(%r11,%r13,8), %xmm0
	movups	-8(%r11,%r13,8), %xmm1
	movups	%xmm1, (%r11,%r13,8)
	movups	%xmm0, -16(%r11,%r13,8)
	addq	$-4, %r13
	cmpq	%r13, %r10
	jne	.LBB21_59
	cmpq	%r9, %rdi
	je	.LBB21_37
.LBB21_61:
	leaq	(%rsp,%rsi,8), %rdi
	movq	%r8, %r9
	.p2align	4
.LBB21_62:
	decq	%r9
	movq	-8(%rdi,%r8,8), %r10
	movq	%r10, (%rdi,%r8,8)
	movq	%r9, %r8
	jne	.LBB21_62
	jmp	.LBB21_37
.LBB21_63:
	andq	$-4, %rdi
	xorl	%r10d, %r10d
	.p2align	4
.LBB21_64:
	movq	%r8, (%rsp,%r10,8)
	movq	%r8, 8(%rsp,%r10,8)
	movq	%r8, 16(%rsp,%r10,8)
	movq	%r8, 24(%rsp,%r10,8)
	addq	$4, %r10
	cmpq	%r10, %rdi
	jne	.LBB21_64
	testq	%r9, %r9
	je	.LBB21_37
.LBB21_66:
	leaq	(%rsp,%r10,8), %rdi
	xorl	%r10d, %r10d
	.p2align	4
.LBB21_67:
	movq	%r8, (%rdi,%r10,8)
	incq	%r10
	cmpq	%r10, %r9
	jne	.LBB21_67
.LBB21_37:
	movq	%rdx, (%rsp,%rsi,8)
	leaq	1(%r12), %rsi
	cmpq	$255, %r12
	movq	%rsi, %r12
	ja	.LBB21_70
	incq	%rcx
	cmpq	%r14, %rcx
	jne	.LBB21_39
.LBB21_70:
	leaq	-257(%rsi), %rax
	cmpq	$-255, %rax
	jb	.LBB21_75
.LBB21_73:
	movq	%rsp, %rdi
	movq	%rsi, %r15
	movq	%r14, %rdx
	callq	"table_values::saves"
	testb	%al, %al
	je	.LBB21_75
	leaq	(,%r15,8), %rdx
	movq	%rsp, %rsi
	movq	%rbx, %rdi
	callq	memcpy@PLT
	movq	%r15, %rax
	jmp	.LBB21_76
.LBB21_68:
	xorl	%esi, %esi
	leaq	-257(%rsi), %rax
	cmpq	$-255, %rax
	jb	.LBB21_75
	jmp	.LBB21_73
.LBB21_69:
	movl	$257, %esi
	leaq	-257(%rsi), %rax
	cmpq	$-255, %rax
	jae	.LBB21_73
	jmp	.LBB21_75
.LBB21_72:
	movl	$257, %esi
	leaq	-257(%rsi), %rax
	cmpq	$-255, %rax
	jae	.LBB21_73
.LBB21_75:
	xorl	%eax, %eax
.LBB21_76:
	addq	$6144, %rsp
	popq	%rbx
	popq	%r12
	popq	%r13
	popq	%r14
	popq	%r15
	retq
.Lfunc_end21:
	.size	"plans::plan", .Lfunc_end21-"plans::plan"

	.section	.rodata.cst16,"aM",@progbits,16
	.p2align	4, 0x0
.LCPI22_0:
	.long	0
	.long	1
	.long	2
	.long	3
.LCPI22_1:
	.long	4
	.long	4
	.long	4
	.long	4
.LCPI22_2:
	.long	8
	.long	8
	.long	8
	.long	8
.LCPI22_3:
	.zero	16,85
.LCPI22_4:
	.zero	16,51
.LCPI22_5:
	.zero	16,15
	.section	".text.read_from::read_up_to","ax",@progbits
	.p2align	4
	.type	"read_from::read_up_to",@function
"read_from::read_up_to":
	pushq	%rbp
	pushq	%r15
	pushq	%r14
	pushq	%r13
	pushq	%r12
	pushq	%rbx
	subq	$600, %rsp
	movq	%rcx, %r10
	movq	%rdx, 256(%rsp)
	movq	%rdi, 504(%rsp)
	movl	664(%rsp), %eax
	movzbl	(%r9), %edi
	movl	1(%r9), %ecx
	movl	4(%r9), %edx
	movl	%edx, 43(%rsp)
	movl	%ecx, 40(%rsp)
	cmpl	$2147352575, %eax
	ja	.LBB22_2
	movq	8(%r9), %rbx
	movq	16(%r9), %r13
	movq	24(%r9), %rdx
	movq	32(%r9), %r14
	leaq	(,%r14,8), %rcx
	movq	%rdx, %r12
	subq	%rcx, %r12
	movl	%eax, %ebp
	shrl	$16, %ebp
	movb	$17, %cl
	subb	%r13b, %cl
	movl	$1, %r11d
	shlq	%cl, %r11
	leaq	8192(%r11), %rcx
	testq	%r13, %r13
	movl	$8192, %r15d
	cmovneq	%rcx, %r15
	movq	%r15, 496(%rsp)
	movq	72(%r9), %r15
	cmoveq	%r13, %r11
	movq	%rdx, 144(%rsp)
	leaq	(%r15,%rdx), %rcx
	leaq	(%r10,%rcx), %rdx
	movq	%rdx, 320(%rsp)
	movq	%rbx, %rdx
	shrq	$14, %rdx
	movq	%rbx, 120(%rsp)
	andl	$16383, %ebx
	addl	$16383, %ebx
	shrl	$14, %ebx
	addq	%rdx, %rbx
	leaq	(%rbx,%rbx,4), %rdx
	leaq	(%rdx,%rdx,4), %rdx
	movq	%rdx, 448(%rsp)
	addq	%rdx, %rcx
	movq	%r8, %rdx
	subq	%rcx, %rdx
	movq	%rdx, 440(%rsp)
	movq	48(%r9), %rdx
	movq	%rdx, %rcx
	shrq	%rcx
	movabsq	$-9223372036854775808, %rbx
	orq	%rbx, %rcx
	movq	%rdx, %rbx
	notq	%rbx
	shrq	%rbx
	movq	%rdx, 272(%rsp)
	testb	$1, %dl
	cmoveq	%rcx, %rbx
	movq	%rbx, 464(%rsp)
	movq	40(%r9), %rcx
	movq	%rcx, 104(%rsp)
	movq	56(%r9), %rcx
	movq	64(%r9), %rdx
	movq	%rdx, 264(%rsp)
	movzwl	%ax, %r9d
	leaq	(%r11,%r15), %rax
	leaq	20(%r10,%rax), %rdx
	movq	%rdx, 352(%rsp)
	leaq	4(%r10,%rax), %rdx
	movq	%rdx, 368(%rsp)
	leaq	12(%r10,%rax), %rax
	movq	%rax, 424(%rsp)
	movq	%r8, 240(%rsp)
	movq	656(%rsp), %rax
	movq	%rax, 288(%rsp)
	movb	%dil, 23(%rsp)
	movzbl	%dil, %eax
	movl	%eax, 340(%rsp)
	leaq	(%r10,%r15), %rax
	leaq	-1(%r14), %rdx
	movq	%rdx, 520(%rsp)
	movq	%r12, 328(%rsp)
	leaq	(%rax,%r12), %rdx
	movq	%rdx, 512(%rsp)
	movq	%r13, 72(%rsp)
	leaq	-6(%r13), %rdx
	movq	%rdx, 304(%rsp)
	movq	%r11, 376(%rsp)
	movq	%rax, 48(%rsp)
	leaq	(%rax,%r11), %rax
	movq	%rax, 416(%rsp)
	leaq	(,%rcx,8), %rax
	movq	%rax, 456(%rsp)
	leaq	4(%r15), %rax
	movq	%rax, 488(%rsp)
	leaq	16(%rsi), %rax
	movq	%rax, 360(%rsp)
	leaq	4(%r10,%r15), %rax
	movq	%rax, 480(%rsp)
	movq	%rsi, 248(%rsp)
	leaq	4(%rsi), %rax
	movq	%r9, %rsi
	movq	%rax, 432(%rsp)
	movq	%r15, 280(%rsp)
	leaq	(%r10,%r15), %rax
	addq	$6, %rax
	movq	%rax, 472(%rsp)
	xorl	%r9d, %r9d
	movq	%r10, 64(%rsp)
	movq	%r14, 88(%rsp)
	movq	%rcx, 112(%rsp)
	jmp	.LBB22_6
.LBB22_2:
	xorl	%r9d, %r9d
.LBB22_3:
	movb	$1, %al
	xorl	%ecx, %ecx
	movq	%r9, 288(%rsp)
	jmp	.LBB22_182
.LBB22_4:
	testq	%r14, %r14
	movl	$32766, %edx
	cmovneq	%rax, %rdx
	cmpq	%rcx, %rax
	cmovneq	%rdx, %rax
	.p2align	4
.LBB22_5:
	xorl	%esi, %esi
	movq	%rax, %rbp
	cmpq	$32766, %rax
	jae	.LBB22_3
.LBB22_6:
	testq	%r14, %r14
	je	.LBB22_8
	movq	520(%rsp), %rcx
	cmpq	%rbp, %rcx
	movq	%rbp, %rax
	cmovbq	%rcx, %rax
	movq	512(%rsp), %rcx
	movl	(%rcx,%rax,8), %r15d
	movl	4(%rcx,%rax,8), %edi
	leaq	4(%rdi), %rbx
	cmpq	%rbx, 328(%rsp)
	jae	.LBB22_9
	jmp	.LBB22_180
	.p2align	4
.LBB22_8:
	xorl	%edi, %edi
	xorl	%r15d, %r15d
	leaq	4(%rdi), %rbx
	cmpq	%rbx, 328(%rsp)
	jb	.LBB22_180
.LBB22_9:
	movq	48(%rsp), %rax
	movzwl	(%rax,%rdi), %eax
	movl	$65536, %r13d
	cmpq	%rax, %rbp
	movq	%rbp, 384(%rsp)
	jb	.LBB22_10
	jbe	.LBB22_14
	testq	%r14, %r14
	jne	.LBB22_180
.LBB22_10:
	xorl	%ecx, %ecx
	cmpq	656(%rsp), %r9
	movq	384(%rsp), %rbp
	jne	.LBB22_155
	jmp	.LBB22_189
	.p2align	4
.LBB22_14:
	movq	48(%rsp), %rax
	movzwl	2(%rax,%rdi), %edx
	leaq	1(%rdx), %rax
	cmpq	$4094, %rdx
	movq	%rax, 312(%rsp)
	ja	.LBB22_16
	addl	%eax, %eax
	jmp	.LBB22_17
.LBB22_16:
	movq	496(%rsp), %rax
	cmpl	$65535, %edx
	je	.LBB22_56
.LBB22_17:
	addq	%rbx, %rax
	cmpq	%rax, 328(%rsp)
	jb	.LBB22_180
	leaq	1(%rdx), %rax
	addq	%r15, %rax
	cmpq	%rax, 120(%rsp)
	jb	.LBB22_180
	cmpw	$4, %dx
	ja	.LBB22_57
	movq	%r9, %r12
	addq	48(%rsp), %rbx
	movq	%rbp, %rdi
	shlq	$16, %rdi
	xorl	%eax, %eax
.LBB22_21:
	movq	%rax, %r8
	.p2align	4
.LBB22_22:
	movzwl	(%rbx,%r8,2), %r9d
	cmpq	%r9, %rsi
	jbe	.LBB22_24
	cmpq	%rdx, %r8
	leaq	1(%r8), %r8
	jb	.LBB22_22
	jmp	.LBB22_55
	.p2align	4
.LBB22_24:
	cmpq	656(%rsp), %r12
	je	.LBB22_183
	leaq	(%r15,%r8), %rax
	cmpl	$2, 340(%rsp)
	movq	%rdx, 128(%rsp)
	jae	.LBB22_27
	xorl	%ecx, %ecx
	movq	104(%rsp), %rdx
	movq	464(%rsp), %r10
	testq	%rdx, %rdx
	je	.LBB22_42
.LBB22_33:
	addq	320(%rsp), %rcx
	imulq	%rdx, %rax
	movq	%rax, %r14
	shrq	$3, %r14
	leaq	(%rdx,%rax), %rsi
	addq	$7, %rsi
	shrq	$3, %rsi
	cmpq	$8, %rdx
	movq	%r15, 136(%rsp)
	movq	%rbx, 56(%rsp)
	ja	.LBB22_35
	movzbl	(%rcx,%r14), %ebx
	movzbl	-1(%rcx,%rsi), %r11d
	movl	$1, %r15d
	subq	%r14, %rsi
	andl	$7, %eax
	cmpb	$1, 23(%rsp)
	jne	.LBB22_39
.LBB22_46:
	subl	%r15d, %esi
	shll	$3, %esi
	movl	%esi, %ecx
	shlq	%cl, %r11
	orq	%rbx, %r11
	addl	%edx, %eax
	negb	%al
	movl	%eax, %ecx
	shlq	%cl, %r11
	negb	%dl
	movl	%edx, %ecx
	shrq	%cl, %r11
	movq	88(%rsp), %r14
	movq	136(%rsp), %r15
	movq	56(%rsp), %rbx
	movq	128(%rsp), %rdx
	jmp	.LBB22_47
.LBB22_27:
	jne	.LBB22_32
	movq	%rax, %rcx
	shrq	$14, %rcx
	leaq	(%rcx,%rcx,4), %rcx
	leaq	(%rcx,%rcx,4), %rcx
	movq	320(%rsp), %rsi
	movzbl	24(%rsi,%rcx), %edx
	cmpq	$64, %rdx
	ja	.LBB22_187
	movq	(%rsi,%rcx), %r10
	movabsq	$-9223372036854775808, %r11
	xorq	%r11, %r10
	andl	$16383, %eax
	testq	%rdx, %rdx
	je	.LBB22_40
	movq	16(%rsi,%rcx), %rcx
	movq	440(%rsp), %rsi
	subq	%rcx, %rsi
	jb	.LBB22_187
	leal	1(%rax), %r11d
	movq	%rbx, 56(%rsp)
	movl	%edx, %ebx
	imull	%r11d, %ebx
	addl	$7, %ebx
	shrl	$3, %ebx
	cmpq	%rbx, %rsi
	movq	56(%rsp), %rbx
	jb	.LBB22_187
	addq	448(%rsp), %rcx
	testq	%rdx, %rdx
	jne	.LBB22_33
	jmp	.LBB22_42
.LBB22_35:
	cmpq	$24, %rdx
	ja	.LBB22_37
	movzwl	(%rcx,%r14), %ebx
	movzwl	-2(%rcx,%rsi), %r11d
	movl	$2, %r15d
	subq	%r14, %rsi
	andl	$7, %eax
	cmpb	$1, 23(%rsp)
	je	.LBB22_46
.LBB22_39:
	bswapq	%rbx
	movl	%eax, %ecx
	shlq	%cl, %rbx
	bswapq	%r11
	subl	%r15d, %esi
	shll	$3, %esi
	subl	%eax, %esi
	movl	%esi, %ecx
	shrq	%cl, %r11
	orq	%rbx, %r11
	negb	%dl
	movl	%edx, %ecx
	shrq	%cl, %r11
	movq	88(%rsp), %r14
	movq	136(%rsp), %r15
	movq	56(%rsp), %rbx
	cmpb	$3, 23(%rsp)
	movq	128(%rsp), %rdx
	je	.LBB22_43
.LBB22_47:
	movq	%r10, %rax
	notq	%rax
	movq	112(%rsp), %rsi
	cmpq	$2, %rsi
	jb	.LBB22_51
	movq	%r11, %rcx
	orq	%rsi, %rcx
	shrq	$32, %rcx
	je	.LBB22_51
	movq	%rdx, %rcx
	xorl	%edx, %edx
	divq	%rsi
	cmpq	%rax, %r11
	ja	.LBB22_187
	imulq	%rsi, %r11
	movq	%rcx, %rdx
	jmp	.LBB22_52
.LBB22_51:
	imulq	%rsi, %r11
	cmpq	%rax, %r11
	ja	.LBB22_187
.LBB22_52:
	addq	%r10, %r11
	movabsq	$-9223372036854775808, %rax
	xorq	%rax, %r11
	jmp	.LBB22_53
.LBB22_32:
	xorl	%r10d, %r10d
	movq	456(%rsp), %rcx
	movq	104(%rsp), %rdx
	testq	%rdx, %rdx
	jne	.LBB22_33
.LBB22_42:
	xorl	%r11d, %r11d
	cmpb	$3, 23(%rsp)
	movq	128(%rsp), %rdx
	jne	.LBB22_47
.LBB22_43:
	cmpq	%r11, 112(%rsp)
	jbe	.LBB22_187
	movq	320(%rsp), %rax
	movq	(%rax,%r11,8), %r11
.LBB22_53:
	movl	%edi, %eax
	orl	%r9d, %eax
	movq	248(%rsp), %rcx
	movl	%eax, (%rcx,%r12,4)
	movq	256(%rsp), %rax
	movq	%r11, (%rax,%r12,8)
	incq	%r12
	incq	%r9
	leaq	1(%r8), %rax
	xorl	%ecx, %ecx
	movq	%r9, %rsi
	cmpq	%rdx, %r8
	movq	64(%rsp), %r10
	movl	$65536, %r13d
	jb	.LBB22_21
	jmp	.LBB22_54
.LBB22_37:
	cmpq	$56, %rdx
	ja	.LBB22_45
	movl	(%rcx,%r14), %ebx
	movl	-4(%rcx,%rsi), %r11d
	movl	$4, %r15d
	subq	%r14, %rsi
	andl	$7, %eax
	cmpb	$1, 23(%rsp)
	je	.LBB22_46
	jmp	.LBB22_39
.LBB22_40:
	xorl	%ecx, %ecx
	addq	448(%rsp), %rcx
	testq	%rdx, %rdx
	jne	.LBB22_33
	jmp	.LBB22_42
.LBB22_45:
	movq	(%rcx,%r14), %rbx
	movq	-8(%rcx,%rsi), %r11
	movl	$8, %r15d
	subq	%r14, %rsi
	andl	$7, %eax
	cmpb	$1, 23(%rsp)
	jne	.LBB22_39
	jmp	.LBB22_46
.LBB22_55:
	xorl	%ecx, %ecx
	movq	%r12, %r9
	cmpq	656(%rsp), %r9
	movq	384(%rsp), %rbp
	jne	.LBB22_155
	jmp	.LBB22_189
.LBB22_56:
	leaq	1(%rdx), %rax
	addq	%r15, %rax
	cmpq	%rax, 120(%rsp)
	jb	.LBB22_180
.LBB22_57:
	cmpq	$65535, %rdx
	sete	%al
	incb	%al
	xorl	%ecx, %ecx
	cmpl	$4095, %edx
	movzbl	%al, %eax
	cmovbl	%ecx, %eax
	cmpb	$2, %al
	je	.LBB22_62
	movq	%rdi, 96(%rsp)
	movq	%r15, 136(%rsp)
	movzbl	%al, %eax
	cmpl	$1, %eax
	movq	%rdx, 128(%rsp)
	jne	.LBB22_71
	movzbl	23(%rsp), %eax
	movb	%al, 152(%rsp)
	movl	40(%rsp), %eax
	movl	43(%rsp), %ecx
	leaq	153(%rsp), %rdx
	movl	%ecx, 3(%rdx)
	movl	%eax, (%rdx)
	movq	120(%rsp), %rax
	movq	%rax, 160(%rsp)
	movq	72(%rsp), %rax
	movq	%rax, 168(%rsp)
	movq	144(%rsp), %rax
	movq	%rax, 176(%rsp)
	movq	%r14, 184(%rsp)
	movq	104(%rsp), %rax
	movq	%rax, 192(%rsp)
	movq	272(%rsp), %rax
	movq	%rax, 200(%rsp)
	movq	112(%rsp), %rax
	movq	%rax, 208(%rsp)
	movq	264(%rsp), %rax
	movq	%rax, 216(%rsp)
	movq	280(%rsp), %rax
	movq	%rax, 224(%rsp)
	movq	656(%rsp), %rax
	subq	%r9, %rax
	movq	376(%rsp), %rcx
	addq	%rbx, %rcx
	movq	%rcx, 80(%rsp)
	movabsq	$72340172838076673, %r11
	movabsq	$1537228672809129301, %r13
	cmpq	$64, %rax
	jb	.LBB22_113
	movq	%rsi, 24(%rsp)
	movq	%rsi, %rdx
	movq	72(%rsp), %rdi
	movl	%edi, %ecx
	shrq	%cl, %rdx
	movq	%rdx, %rsi
	movq	304(%rsp), %rcx
	shlq	%cl, %rsi
	testq	%rdi, %rdi
	cmoveq	%rdi, %rsi
	je	.LBB22_102
	movq	48(%rsp), %rcx
	addq	%rbx, %rcx
	movzwl	(%rcx,%rdx,2), %ecx
	rolw	$8, %cx
	movzwl	%cx, %ecx
	movq	%rcx, 296(%rsp)
	jmp	.LBB22_103
.LBB22_62:
	movzbl	23(%rsp), %eax
	movb	%al, 152(%rsp)
	movl	43(%rsp), %eax
	leaq	153(%rsp), %rcx
	movl	%eax, 3(%rcx)
	movq	656(%rsp), %rax
	subq	%r9, %rax
	movl	$65536, %ebx
	subq	%rsi, %rbx
	cmpq	%rax, %rbx
	cmovaeq	%rax, %rbx
	movl	40(%rsp), %eax
	movl	%eax, (%rcx)
	movq	120(%rsp), %rax
	movq	%rax, 160(%rsp)
	movq	72(%rsp), %rax
	movq	%rax, 168(%rsp)
	movq	144(%rsp), %rax
	movq	%rax, 176(%rsp)
	movq	%r14, 184(%rsp)
	movq	104(%rsp), %rax
	movq	%rax, 192(%rsp)
	movq	272(%rsp), %rax
	movq	%rax, 200(%rsp)
	movq	112(%rsp), %rax
	movq	%rax, 208(%rsp)
	movq	264(%rsp), %rax
	movq	%rax, 216(%rsp)
	movq	280(%rsp), %rax
	movq	%rax, 224(%rsp)
	addq	%r9, %rbx
	movq	%rsi, %r12
	addq	%rsi, %r15
	movq	%rbx, (%rsp)
	leaq	152(%rsp), %rcx
	movq	256(%rsp), %rdi
	movq	%r10, %rsi
	movq	240(%rsp), %rdx
	movq	%r15, %r8
	movq	%r9, %r15
	callq	"read_in_block::draw"
	movq	%rax, %rdx
	subq	%r15, %rdx
	jbe	.LBB22_69
	movl	%ebp, %esi
	shll	$16, %esi
	movl	%r12d, %ecx
	orl	%esi, %ecx
	cmpq	$8, %rdx
	jb	.LBB22_67
	movq	%rdx, %rsi
	andq	$-8, %rsi
	movd	%ecx, %xmm0
	pshufd	$0, %xmm0, %xmm0
	paddd	.LCPI22_0(%rip), %xmm0
	addl	%esi, %ecx
	movq	360(%rsp), %rdi
	leaq	(%rdi,%r15,4), %rdi
	addq	%rsi, %r15
	xorl	%r8d, %r8d
	.p2align	4
.LBB22_65:
	movdqa	.LCPI22_1(%rip), %xmm1
	paddd	%xmm0, %xmm1
	movdqu	%xmm0, -16(%rdi,%r8,4)
	movdqu	%xmm1, (%rdi,%r8,4)
	addq	$8, %r8
	paddd	.LCPI22_2(%rip), %xmm0
	cmpq	%r8, %rsi
	jne	.LBB22_65
	cmpq	%rsi, %rdx
	je	.LBB22_69
.LBB22_67:
	movl	%ecx, %ecx
	movq	%rax, %rsi
	subq	%r15, %rsi
	movq	248(%rsp), %rdi
	leaq	(%rdi,%r15,4), %rdi
	xorl	%r8d, %r8d
	.p2align	4
.LBB22_68:
	leal	(%rcx,%r8), %r9d
	movl	%r9d, (%rdi,%r8,4)
	incq	%r8
	cmpq	%r8, %rsi
	jne	.LBB22_68
.LBB22_69:
	addq	%r12, %rdx
	xorl	%esi, %esi
	cmpq	$65536, %rdx
	setb	%sil
	shll	$8, %esi
	xorl	%ecx, %ecx
	xorl	%edi, %edi
	cmpq	%rbx, %rax
	setb	%dil
	cmovaeq	%rsi, %rcx
	orq	%rdi, %rcx
	movq	%rax, %r9
.LBB22_70:
	movq	64(%rsp), %r10
	movq	%rdx, %r13
	testb	$1, %cl
	jne	.LBB22_180
	.p2align	4
.LBB22_154:
	cmpq	656(%rsp), %r9
	movq	384(%rsp), %rbp
	je	.LBB22_189
.LBB22_155:
	leaq	1(%rbp), %rax
	addq	$2, %rbp
	cmpq	%r14, %rbp
	jb	.LBB22_5
	testq	%r14, %r14
	je	.LBB22_158
	movq	144(%rsp), %rcx
	movq	48(%rsp), %rdx
	movl	-4(%rdx,%rcx), %ecx
	leaq	4(%rcx), %rdx
	cmpq	%rdx, 328(%rsp)
	jb	.LBB22_5
	jmp	.LBB22_159
.LBB22_158:
	xorl	%ecx, %ecx
	leaq	4(%rcx), %rdx
	cmpq	%rdx, 328(%rsp)
	jb	.LBB22_5
.LBB22_159:
	movq	48(%rsp), %rdx
	movzwl	(%rdx,%rcx), %ecx
	cmpq	%rcx, %rax
	jae	.LBB22_4
	cmpq	$32766, %rcx
	movl	$32766, %eax
	cmovbq	%rcx, %rax
	jmp	.LBB22_5
.LBB22_71:
	movq	%rsi, 24(%rsp)
	movq	%rbx, %r12
	movq	%r9, %r15
	movzbl	23(%rsp), %eax
	movb	%al, 152(%rsp)
	movl	40(%rsp), %eax
	movl	43(%rsp), %ecx
	leaq	153(%rsp), %rdx
	movl	%ecx, 3(%rdx)
	movl	%eax, (%rdx)
	movq	120(%rsp), %rax
	movq	%rax, 160(%rsp)
	movq	72(%rsp), %rax
	movq	%rax, 168(%rsp)
	movq	144(%rsp), %rax
	movq	%rax, 176(%rsp)
	movq	%r14, 184(%rsp)
	movq	104(%rsp), %rax
	movq	%rax, 192(%rsp)
	movq	272(%rsp), %rax
	movq	%rax, 200(%rsp)
	movq	112(%rsp), %rax
	movq	%rax, 208(%rsp)
	movq	264(%rsp), %rax
	movq	%rax, 216(%rsp)
	movq	280(%rsp), %rax
	movq	%rax, 224(%rsp)
	movq	48(%rsp), %rbx
	movq	%rbx, %rdi
	movq	%r12, %rsi
	movq	312(%rsp), %rdx
	movq	24(%rsp), %rcx
	callq	"next_in_block::first_entry"
	movq	%rax, %r13
	addq	%rbx, %r12
	movq	%rbp, %rax
	shlq	$16, %rax
	movq	%rax, 344(%rsp)
	movq	488(%rsp), %rax
	movq	96(%rsp), %rcx
	addq	%rcx, %rax
	movq	%rax, 400(%rsp)
	movq	%rbp, %xmm0
	pshufd	$68, %xmm0, %xmm4
	psllq	$16, %xmm4
	movq	480(%rsp), %rax
	addq	%rcx, %rax
	movq	%rax, 80(%rsp)
	movq	472(%rsp), %rax
	leaq	(%rax,%rcx), %rdi
	movq	%r15, %r9
	movq	%r12, 56(%rsp)
	movq	%rdi, 408(%rsp)
.LBB22_72:
	movl	$65536, %edx
	cmpq	128(%rsp), %r13
	ja	.LBB22_166
	movq	656(%rsp), %rax
	subq	%r9, %rax
	movq	64(%rsp), %r10
	je	.LBB22_167
	movq	312(%rsp), %r11
	movq	%r11, %rcx
	subq	%r13, %rcx
	movq	80(%rsp), %rsi
	leaq	(%rsi,%r13,2), %r15
	leaq	(%r9,%r9), %rsi
	movq	%rdi, %rbp
	movq	%rsi, 296(%rsp)
	subq	%rsi, %rbp
	movq	%r13, %rdi
	subq	%r9, %rdi
	xorl	%ebx, %ebx
	movq	%r13, 232(%rsp)
	movq	%r13, %r14
	movq	%r9, 32(%rsp)
	.p2align	4
.LBB22_75:
	cmpq	%rax, %rcx
	movq	%rax, %rsi
	cmovbq	%rcx, %rsi
	movq	%r11, %r13
	subq	%r14, %r13
	cmpq	%r13, %rax
	cmovbq	%rax, %r13
	addq	%r14, %r13
	cmpq	%r13, %r14
	jae	.LBB22_81
	movq	%rdi, %r12
	xorl	%edi, %edi
	movq	24(%rsp), %r9
	.p2align	4
.LBB22_77:
	movzwl	(%r15,%rdi,2), %r8d
	cmpq	%r8, %r9
	ja	.LBB22_79
	incq	%r8
	incq	%rdi
	movq	%r8, %r9
	cmpq	%rdi, %rsi
	jne	.LBB22_77
	jmp	.LBB22_80
	.p2align	4
.LBB22_79:
	addq	%r14, %rdi
	movq	%rdi, %r13
.LBB22_80:
	movq	32(%rsp), %r9
	movq	%r12, %rdi
.LBB22_81:
	movq	%r13, %r12
	subq	%r14, %r12
	jne	.LBB22_83
	incq	%rbx
	decq	%rcx
	addq	$2, %r15
	addq	$2, %rbp
	incq	%rdi
	cmpq	128(%rsp), %r14
	leaq	1(%r14), %r14
	jne	.LBB22_75
	jmp	.LBB22_101
.LBB22_83:
	movq	%rdi, 392(%rsp)
	addq	%r9, %r12
	movq	136(%rsp), %rax
	leaq	(%r14,%rax), %r8
	movq	%r12, (%rsp)
	leaq	152(%rsp), %rcx
	movq	256(%rsp), %rdi
	movq	%r10, %rsi
	movq	240(%rsp), %rdx
	movq	32(%rsp), %r9
	movdqa	%xmm4, 576(%rsp)
	callq	"read_in_block::draw"
	movaps	576(%rsp), %xmm4
	movq	32(%rsp), %r8
	movq	%rax, %rdx
	subq	%r8, %rdx
	jbe	.LBB22_99
	movq	%r8, %rcx
	cmpq	$12, %rdx
	movq	64(%rsp), %rdi
	movq	248(%rsp), %r9
	jb	.LBB22_91
	leaq	(%r9,%r8,4), %rcx
	movq	400(%rsp), %rsi
	movq	232(%rsp), %r10
	leaq	(%rsi,%r10,2), %rsi
	subq	296(%rsp), %rsi
	leaq	(%rdi,%rbx,2), %rdi
	addq	%rsi, %rdi
	leaq	(%rdi,%rax,2), %rsi
	cmpq	%rsi, %rcx
	jae	.LBB22_87
	leaq	(%r9,%rax,4), %rsi
	movq	48(%rsp), %rcx
	leaq	(%rcx,%rbx,2), %rcx
	addq	96(%rsp), %rcx
	movq	232(%rsp), %rdi
	leaq	(%rcx,%rdi,2), %rdi
	addq	$4, %rdi
	movq	%r8, %rcx
	cmpq	%rsi, %rdi
	jb	.LBB22_91
.LBB22_87:
	movq	%rdx, %rsi
	andq	$-8, %rsi
	leaq	(%r8,%rsi), %rcx
	movq	360(%rsp), %rdi
	leaq	(%rdi,%r8,4), %rdi
	xorl	%r8d, %r8d
	.p2align	4
.LBB22_88:
	movq	(%r15,%r8,2), %xmm2
	movq	8(%r15,%r8,2), %xmm0
	pxor	%xmm1, %xmm1
	punpcklwd	%xmm1, %xmm0
	punpcklwd	%xmm1, %xmm2
	movaps	%xmm4, %xmm3
	shufps	$136, %xmm4, %xmm3
	por	%xmm3, %xmm2
	por	%xmm0, %xmm3
	movdqu	%xmm2, -16(%rdi,%r8,4)
	movdqu	%xmm3, (%rdi,%r8,4)
	addq	$8, %r8
	cmpq	%r8, %rsi
	jne	.LBB22_88
	cmpq	%rsi, %rdx
	jne	.LBB22_91
	punpckhdq	%xmm1, %xmm0
	pshufd	$238, %xmm0, %xmm0
	movq	%xmm0, %rsi
	jmp	.LBB22_98
.LBB22_91:
	movl	%eax, %esi
	subl	%ecx, %esi
	leaq	1(%rcx), %rdx
	testb	$1, %sil
	jne	.LBB22_93
	jmp	.LBB22_94
.LBB22_93:
	subq	32(%rsp), %r14
	addq	%rcx, %r14
	movq	56(%rsp), %rsi
	movzwl	(%rsi,%r14,2), %edi
	movl	%edi, %esi
	orl	344(%rsp), %esi
	movl	%esi, (%r9,%rcx,4)
	movq	%rdi, %rsi
	movq	%rdx, %rcx
.LBB22_94:
	cmpq	%rdx, %rax
	je	.LBB22_98
	movq	%rax, %rdx
	subq	%rcx, %rdx
	movq	432(%rsp), %rsi
	leaq	(%rsi,%rcx,4), %rsi
	movq	232(%rsp), %rdi
	addq	%rcx, %rdi
	leaq	(,%rdi,2), %rdi
	addq	%rbp, %rdi
	movq	392(%rsp), %r8
	addq	%rcx, %r8
	movq	80(%rsp), %rcx
	leaq	(%rcx,%r8,2), %rcx
	xorl	%r8d, %r8d
	movq	344(%rsp), %r11
	.p2align	4
.LBB22_96:
	movzwl	(%rcx,%r8,2), %r9d
	orl	%r11d, %r9d
	movl	%r9d, -4(%rsi,%r8,4)
	movzwl	(%rdi,%r8,2), %r10d
	movl	%r11d, %r9d
	orl	%r10d, %r9d
	movl	%r9d, (%rsi,%r8,4)
	addq	$2, %r8
	cmpq	%r8, %rdx
	jne	.LBB22_96
	movq	%r10, %rsi
.LBB22_98:
	incq	%rsi
	movq	%rsi, 24(%rsp)
.LBB22_99:
	movq	%rax, %r9
	cmpq	%r12, %rax
	movq	88(%rsp), %r14
	movq	56(%rsp), %r12
	movq	408(%rsp), %rdi
	jae	.LBB22_72
	movl	$1, %ecx
	movq	%rax, %r9
	movq	24(%rsp), %rdx
	jmp	.LBB22_70
.LBB22_101:
	xorl	%ecx, %ecx
	movq	88(%rsp), %r14
	movq	%rdx, %r13
	testb	$1, %cl
	je	.LBB22_154
	jmp	.LBB22_180
.LBB22_102:
	movq	$0, 296(%rsp)
.LBB22_103:
	movq	96(%rsp), %r10
	movq	80(%rsp), %r12
	movq	%r9, 32(%rsp)
	movq	24(%rsp), %r15
	shrq	$6, %r15
	movq	%r15, %rdx
	subq	%rsi, %rdx
	movq	%rax, 232(%rsp)
	jne	.LBB22_105
	xorl	%edi, %edi
	movabsq	$3689348814741910323, %rax
	movq	%r11, %r13
	movabsq	$1085102592571150095, %r11
	jmp	.LBB22_112
.LBB22_105:
	cmpq	$4, %rdx
	jae	.LBB22_107
	xorl	%edi, %edi
	xorl	%r8d, %r8d
	movabsq	$6148914691236517205, %rcx
	movabsq	$3689348814741910323, %rax
	movq	%r11, %r13
	movabsq	$1085102592571150095, %r11
	jmp	.LBB22_110
.LBB22_107:
	movq	%rdx, %r8
	andq	$-4, %r8
	leaq	(%r10,%rsi,8), %rdi
	addq	352(%rsp), %rdi
	pxor	%xmm1, %xmm1
	xorl	%r9d, %r9d
	pxor	%xmm2, %xmm2
	pxor	%xmm0, %xmm0
	.p2align	4
.LBB22_108:
	movdqu	-16(%rdi,%r9,8), %xmm4
	movdqu	(%rdi,%r9,8), %xmm3
	movdqa	%xmm4, %xmm5
	psrlw	$1, %xmm5
	movdqa	.LCPI22_3(%rip), %xmm6
	pand	%xmm6, %xmm5
	psubb	%xmm5, %xmm4
	movdqa	.LCPI22_4(%rip), %xmm5
	movdqa	%xmm4, %xmm7
	pand	%xmm5, %xmm7
	psrlw	$2, %xmm4
	pand	%xmm5, %xmm4
	paddb	%xmm7, %xmm4
	movdqa	%xmm4, %xmm7
	psrlw	$4, %xmm7
	paddb	%xmm4, %xmm7
	movdqa	.LCPI22_5(%rip), %xmm4
	pand	%xmm4, %xmm7
	psadbw	%xmm1, %xmm7
	paddq	%xmm7, %xmm2
	movdqa	%xmm3, %xmm7
	psrlw	$1, %xmm7
	pand	%xmm6, %xmm7
	psubb	%xmm7, %xmm3
	movdqa	%xmm3, %xmm6
	pand	%xmm5, %xmm6
	psrlw	$2, %xmm3
	pand	%xmm5, %xmm3
	paddb	%xmm6, %xmm3
	movdqa	%xmm3, %xmm5
	psrlw	$4, %xmm5
	paddb	%xmm3, %xmm5
	pand	%xmm4, %xmm5
	psadbw	%xmm1, %xmm5
	paddq	%xmm5, %xmm0
	addq	$4, %r9
	cmpq	%r9, %r8
	jne	.LBB22_108
	paddq	%xmm2, %xmm0
	pshufd	$238, %xmm0, %xmm1
	paddq	%xmm0, %xmm1
	movq	%xmm1, %rdi
	cmpq	%r8, %rdx
	movabsq	$6148914691236517205, %rcx
	movabsq	$3689348814741910323, %rax
	movabsq	$1085102592571150095, %r11
	movabsq	$72340172838076673, %r13
	je	.LBB22_112
.LBB22_110:
	subq	%r8, %rdx
	addq	%r8, %rsi
	leaq	(%r10,%rsi,8), %rsi
	addq	368(%rsp), %rsi
	xorl	%r8d, %r8d
	.p2align	4
.LBB22_111:
	movq	(%rsi,%r8,8), %r9
	movq	%r9, %r10
	shrq	%r10
	andq	%rcx, %r10
	subq	%r10, %r9
	movq	%r9, %r10
	andq	%rax, %r10
	shrq	$2, %r9
	andq	%rax, %r9
	addq	%r10, %r9
	movq	%r9, %r10
	shrq	$4, %r10
	addq	%r9, %r10
	andq	%r11, %r10
	imulq	%r13, %r10
	shrq	$56, %r10
	addq	%r10, %rdi
	incq	%r8
	cmpq	%r8, %rdx
	jne	.LBB22_111
.LBB22_112:
	addq	296(%rsp), %rdi
	movq	48(%rsp), %rcx
	leaq	(%rcx,%r12), %rdx
	movq	$-1, %r12
	movq	24(%rsp), %rsi
	movl	%esi, %ecx
	shlq	%cl, %r12
	movq	%r12, %rcx
	notq	%rcx
	andq	(%rdx,%r15,8), %rcx
	movq	%rcx, %rdx
	shrq	%rdx
	movabsq	$1537228672809129301, %r8
	andq	%r8, %rdx
	subq	%rdx, %rcx
	movq	%rcx, %rdx
	andq	%rax, %rdx
	shrq	$2, %rcx
	andq	%rax, %rcx
	addq	%rdx, %rcx
	movq	%rcx, %r8
	shrq	$4, %r8
	addq	%rcx, %r8
	andq	%r11, %r8
	imulq	%r13, %r8
	shrq	$56, %r8
	addq	%rdi, %r8
	cmpq	128(%rsp), %r8
	movq	32(%rsp), %r9
	movq	%rax, %r10
	movq	%r13, %r11
	movabsq	$1537228672809129301, %r13
	movq	232(%rsp), %rax
	jbe	.LBB22_121
.LBB22_113:
	movq	96(%rsp), %r10
.LBB22_114:
	movq	%rsi, %r15
	movq	%rsi, %rax
	movq	72(%rsp), %rdx
	movl	%edx, %ecx
	shrq	%cl, %rax
	movq	%rax, %rsi
	movq	304(%rsp), %rcx
	shlq	%cl, %rsi
	testq	%rdx, %rdx
	cmoveq	%rdx, %rsi
	movq	80(%rsp), %r12
	je	.LBB22_116
	movq	48(%rsp), %rcx
	addq	%rbx, %rcx
	movzwl	(%rcx,%rax,2), %eax
	rolw	$8, %ax
	movzwl	%ax, %edx
	jmp	.LBB22_117
.LBB22_116:
	xorl	%edx, %edx
.LBB22_117:
	movq	%r9, 32(%rsp)
	movq	%r15, %rax
	shrq	$6, %rax
	movq	%rax, %rcx
	subq	%rsi, %rcx
	movq	%rbx, 56(%rsp)
	movq	%rdx, 24(%rsp)
	jne	.LBB22_119
	xorl	%edi, %edi
	movabsq	$3689348814741910323, %r14
	movabsq	$1085102592571150095, %rdx
	jmp	.LBB22_134
.LBB22_119:
	cmpq	$4, %rcx
	jae	.LBB22_129
	xorl	%edi, %edi
	xorl	%r8d, %r8d
	movabsq	$6148914691236517205, %rbx
	movabsq	$3689348814741910323, %r14
	movabsq	$1085102592571150095, %rdx
	jmp	.LBB22_132
.LBB22_121:
	movq	312(%rsp), %rdx
	subq	%r8, %rdx
	cmpq	%rax, %rdx
	cmovaeq	%rax, %rdx
	movq	48(%rsp), %rax
	leaq	(%rax,%rbx), %rsi
	movq	376(%rsp), %rax
	addq	%rsi, %rax
	cmpq	$0, 72(%rsp)
	je	.LBB22_161
	xorl	%r9d, %r9d
	jmp	.LBB22_124
	.p2align	4
.LBB22_123:
	movq	%rbx, %r9
	cmpl	$65472, %r10d
	je	.LBB22_164
.LBB22_124:
	movq	24(%rsp), %rcx
	movq	%rcx, %rdi
	shrq	$6, %rdi
	movq	(%rax,%rdi,8), %r10
	shrq	%cl, %r10
	movq	%r10, %r11
	shrq	%r11
	movabsq	$6148914691236517205, %rbx
	andq	%rbx, %r11
	subq	%r11, %r10
	movq	%r10, %r11
	movabsq	$3689348814741910323, %rbx
	andq	%rbx, %r11
	shrq	$2, %r10
	andq	%rbx, %r10
	addq	%r11, %r10
	movq	%r10, %rbx
	shrq	$4, %rbx
	addq	%r10, %rbx
	movabsq	$1085102592571150095, %r10
	andq	%r10, %rbx
	movabsq	$72340172838076673, %r10
	imulq	%r10, %rbx
	shrq	$56, %rbx
	movq	%rdx, %r10
	subq	%r9, %r10
	cmpq	%rbx, %r10
	jb	.LBB22_165
	addq	%r9, %rbx
	movl	%ecx, %r10d
	andl	$65472, %r10d
	leaq	64(%r10), %rcx
	movq	%rcx, 24(%rsp)
	incq	%rdi
	cmpq	$1024, %rdi
	je	.LBB22_123
	movq	%rdi, %r9
	shlq	$6, %r9
	movq	72(%rsp), %rcx
	shrq	%cl, %r9
	movq	%r9, %r11
	movq	304(%rsp), %rcx
	shlq	%cl, %r11
	cmpq	%rdi, %r11
	jne	.LBB22_123
	cmpl	$65472, %r10d
	je	.LBB22_169
	movzwl	(%rsi,%r9,2), %ecx
	rolw	$8, %cx
	leaq	(%rbx,%r8), %rdi
	movzwl	%cx, %ecx
	movq	%rbx, %r9
	cmpq	%rcx, %rdi
	je	.LBB22_124
	jmp	.LBB22_169
.LBB22_129:
	movq	%rcx, %r8
	andq	$-4, %r8
	leaq	(%r10,%rsi,8), %rdi
	addq	352(%rsp), %rdi
	pxor	%xmm1, %xmm1
	xorl	%r9d, %r9d
	pxor	%xmm2, %xmm2
	pxor	%xmm0, %xmm0
	.p2align	4
.LBB22_130:
	movdqu	-16(%rdi,%r9,8), %xmm4
	movdqu	(%rdi,%r9,8), %xmm3
	movdqa	%xmm4, %xmm5
	psrlw	$1, %xmm5
	movdqa	.LCPI22_3(%rip), %xmm6
	pand	%xmm6, %xmm5
	psubb	%xmm5, %xmm4
	movdqa	.LCPI22_4(%rip), %xmm5
	movdqa	%xmm4, %xmm7
	pand	%xmm5, %xmm7
	psrlw	$2, %xmm4
	pand	%xmm5, %xmm4
	paddb	%xmm7, %xmm4
	movdqa	%xmm4, %xmm7
	psrlw	$4, %xmm7
	paddb	%xmm4, %xmm7
	movdqa	.LCPI22_5(%rip), %xmm4
	pand	%xmm4, %xmm7
	psadbw	%xmm1, %xmm7
	paddq	%xmm7, %xmm2
	movdqa	%xmm3, %xmm7
	psrlw	$1, %xmm7
	pand	%xmm6, %xmm7
	psubb	%xmm7, %xmm3
	movdqa	%xmm3, %xmm6
	pand	%xmm5, %xmm6
	psrlw	$2, %xmm3
	pand	%xmm5, %xmm3
	paddb	%xmm6, %xmm3
	movdqa	%xmm3, %xmm5
	psrlw	$4, %xmm5
	paddb	%xmm3, %xmm5
	pand	%xmm4, %xmm5
	psadbw	%xmm1, %xmm5
	paddq	%xmm5, %xmm0
	addq	$4, %r9
	cmpq	%r9, %r8
	jne	.LBB22_130
	paddq	%xmm2, %xmm0
	pshufd	$238, %xmm0, %xmm1
	paddq	%xmm0, %xmm1
	movq	%xmm1, %rdi
	cmpq	%r8, %rcx
	movabsq	$6148914691236517205, %rbx
	movabsq	$3689348814741910323, %r14
	movabsq	$1085102592571150095, %rdx
	je	.LBB22_134
.LBB22_132:
	subq	%r8, %rcx
	addq	%r8, %rsi
	leaq	(%r10,%rsi,8), %rsi
	addq	368(%rsp), %rsi
	xorl	%r8d, %r8d
	.p2align	4
.LBB22_133:
	movq	(%rsi,%r8,8), %r9
	movq	%r9, %r10
	shrq	%r10
	andq	%rbx, %r10
	subq	%r10, %r9
	movq	%r9, %r10
	andq	%r14, %r10
	shrq	$2, %r9
	andq	%r14, %r9
	addq	%r10, %r9
	movq	%r9, %r10
	shrq	$4, %r10
	addq	%r9, %r10
	andq	%rdx, %r10
	imulq	%r11, %r10
	shrq	$56, %r10
	addq	%r10, %rdi
	incq	%r8
	cmpq	%r8, %rcx
	jne	.LBB22_133
.LBB22_134:
	movq	$-1, %rsi
	movl	%r15d, %ecx
	shlq	%cl, %rsi
	movq	48(%rsp), %rcx
	addq	%rcx, %r12
	notq	%rsi
	andq	(%r12,%rax,8), %rsi
	addq	24(%rsp), %rdi
	movq	%rsi, %rax
	shrq	%rax
	andq	%r13, %rax
	subq	%rax, %rsi
	movq	%rsi, %rax
	andq	%r14, %rax
	shrq	$2, %rsi
	andq	%r14, %rsi
	addq	%rax, %rsi
	movq	%rsi, %r8
	shrq	$4, %r8
	addq	%rsi, %r8
	movq	%r15, %rsi
	andq	%rdx, %r8
	imulq	%r11, %r8
	shrq	$56, %r8
	addq	%rdi, %r8
	movq	%rbp, %r15
	shlq	$16, %r15
	addq	%rcx, 56(%rsp)
	movq	64(%rsp), %r10
	movq	32(%rsp), %r9
	movq	%r12, 80(%rsp)
	jmp	.LBB22_137
.LBB22_135:
	movq	%r8, %rsi
	.p2align	4
.LBB22_136:
	andl	$65472, %esi
	xorl	%ecx, %ecx
	movq	%rax, %r8
	cmpq	$65472, %rsi
	leaq	64(%rsi), %rsi
	je	.LBB22_153
.LBB22_137:
	movq	%r9, %rbx
	movq	%rsi, %rbp
	shrq	$6, %rbp
	movq	(%r12,%rbp,8), %r14
	movl	%esi, %ecx
	shrq	%cl, %r14
	movzbl	23(%rsp), %eax
	movb	%al, 152(%rsp)
	movl	40(%rsp), %eax
	movl	43(%rsp), %ecx
	leaq	153(%rsp), %rdx
	movl	%ecx, 3(%rdx)
	movl	%eax, (%rdx)
	movq	%r14, %rax
	shrq	%rax
	movabsq	$6148914691236517205, %rcx
	andq	%rcx, %rax
	movq	%r14, %rcx
	subq	%rax, %rcx
	movq	%rcx, %rax
	movabsq	$3689348814741910323, %rdx
	andq	%rdx, %rax
	shrq	$2, %rcx
	andq	%rdx, %rcx
	addq	%rax, %rcx
	movq	%rcx, %rax
	shrq	$4, %rax
	addq	%rcx, %rax
	movabsq	$1085102592571150095, %rcx
	andq	%rcx, %rax
	imulq	%r11, %rax
	shrq	$56, %rax
	movq	656(%rsp), %r13
	subq	%r9, %r13
	cmpq	%rax, %r13
	cmovaeq	%rax, %r13
	movq	120(%rsp), %rax
	movq	%rax, 160(%rsp)
	movq	72(%rsp), %rax
	movq	%rax, 168(%rsp)
	movq	144(%rsp), %rax
	movq	%rax, 176(%rsp)
	movq	88(%rsp), %rax
	movq	%rax, 184(%rsp)
	movq	104(%rsp), %rax
	movq	%rax, 192(%rsp)
	movq	272(%rsp), %rax
	movq	%rax, 200(%rsp)
	movq	112(%rsp), %rax
	movq	%rax, 208(%rsp)
	movq	264(%rsp), %rax
	movq	%rax, 216(%rsp)
	movq	280(%rsp), %rax
	movq	%rax, 224(%rsp)
	cmpq	128(%rsp), %r8
	jbe	.LBB22_139
	movq	%rsi, %rdx
	movq	%rbx, %r9
	testq	%r13, %r13
	movq	88(%rsp), %r14
	je	.LBB22_145
	jmp	.LBB22_179
	.p2align	4
.LBB22_139:
	movq	312(%rsp), %rax
	subq	%r8, %rax
	cmpq	%r13, %rax
	cmovaeq	%r13, %rax
	addq	%rbx, %rax
	movq	136(%rsp), %rcx
	movq	%r8, 32(%rsp)
	addq	%rcx, %r8
	movq	%rax, (%rsp)
	leaq	152(%rsp), %rcx
	movq	256(%rsp), %rdi
	movq	%rsi, %r12
	movq	%r10, %rsi
	movq	240(%rsp), %rdx
	movq	%rbx, %r9
	callq	"read_in_block::draw"
	movq	%rax, %r9
	movq	%r12, %r11
	movq	%r12, %rdx
	movq	%rbx, %r10
	cmpq	%rbx, %rax
	movq	248(%rsp), %r8
	jbe	.LBB22_144
	movl	%r9d, %ecx
	movq	%r10, %rdi
	subl	%edi, %ecx
	leaq	1(%r10), %rax
	testb	$1, %cl
	jne	.LBB22_142
	movq	%r11, %rdx
	movq	%rdi, %rsi
	cmpq	%rax, %r9
	jne	.LBB22_143
	jmp	.LBB22_144
.LBB22_142:
	movl	$64, %ecx
	rep		bsfq	%r14, %rcx
	leaq	(%rcx,%r11), %rdx
	addl	%r15d, %edx
	shrq	%cl, %r14
	movl	%edx, (%r8,%rdi,4)
	shrq	%r14
	leaq	(%rcx,%r11), %rdx
	incq	%rdx
	movq	%rax, %rsi
	cmpq	%rax, %r9
	je	.LBB22_144
	.p2align	4
.LBB22_143:
	movl	$64, %eax
	movl	$64, %ecx
	rep		bsfq	%r14, %rcx
	addq	%rcx, %rdx
	leal	(%r15,%rdx), %edi
	movl	%edi, (%r8,%rsi,4)
	shrq	%cl, %r14
	shrq	%r14
	rep		bsfq	%r14, %rax
	leaq	(%rdx,%rax), %rcx
	addl	%r15d, %ecx
	incl	%ecx
	movl	%ecx, 4(%r8,%rsi,4)
	movl	%eax, %ecx
	shrq	%cl, %r14
	shrq	%r14
	addq	%rax, %rdx
	addq	$2, %rdx
	addq	$2, %rsi
	cmpq	%rsi, %r9
	jne	.LBB22_143
.LBB22_144:
	movq	%r10, %rbx
	addq	%r10, %r13
	cmpq	%r13, %r9
	movq	64(%rsp), %r10
	movq	88(%rsp), %r14
	movq	%r11, %rsi
	movq	80(%rsp), %r12
	movabsq	$72340172838076673, %r11
	movq	32(%rsp), %r8
	jb	.LBB22_180
.LBB22_145:
	cmpq	656(%rsp), %r9
	je	.LBB22_150
	movq	%r9, %rax
	subq	%rbx, %rax
	addq	%r8, %rax
	incq	%rbp
	cmpq	$1024, %rbp
	je	.LBB22_136
	movq	%rsi, %r8
	movq	%rbp, %rdx
	shlq	$6, %rdx
	movq	72(%rsp), %rdi
	movl	%edi, %ecx
	shrq	%cl, %rdx
	movq	%rdx, %rsi
	movq	304(%rsp), %rcx
	shlq	%cl, %rsi
	testq	%rdi, %rdi
	je	.LBB22_135
	cmpq	%rbp, %rsi
	movq	%r8, %rsi
	jne	.LBB22_136
	movq	56(%rsp), %rax
	movzwl	(%rax,%rdx,2), %eax
	rolw	$8, %ax
	movzwl	%ax, %eax
	jmp	.LBB22_136
.LBB22_150:
	cmpq	$65536, %rdx
	je	.LBB22_188
	movq	%rdx, %rax
	shrq	$6, %rax
	movq	(%r12,%rax,8), %rax
	movl	%edx, %ecx
	shrq	%cl, %rax
	xorl	%ecx, %ecx
	testq	%rax, %rax
	setne	%cl
.LBB22_152:
	shll	$8, %ecx
	movq	656(%rsp), %r9
	movq	%rdx, %r13
	testb	$1, %cl
	je	.LBB22_154
	jmp	.LBB22_180
.LBB22_153:
	movq	88(%rsp), %r14
	movl	$65536, %r13d
	cmpq	656(%rsp), %r9
	movq	384(%rsp), %rbp
	jne	.LBB22_155
	jmp	.LBB22_189
.LBB22_161:
	xorl	%ebx, %ebx
	movq	24(%rsp), %rcx
	movabsq	$1085102592571150095, %r11
	.p2align	4
.LBB22_162:
	movl	%ecx, %esi
	shrl	$3, %esi
	andl	$8184, %esi
	movq	(%rax,%rsi), %rsi
	shrq	%cl, %rsi
	movq	%rsi, %rdi
	shrq	%rdi
	movabsq	$6148914691236517205, %r9
	andq	%r9, %rdi
	subq	%rdi, %rsi
	movq	%rsi, %rdi
	andq	%r10, %rdi
	shrq	$2, %rsi
	andq	%r10, %rsi
	addq	%rdi, %rsi
	movq	%rsi, %rdi
	shrq	$4, %rdi
	addq	%rsi, %rdi
	andq	%r11, %rdi
	movabsq	$72340172838076673, %rsi
	imulq	%rsi, %rdi
	shrq	$56, %rdi
	movq	%rdx, %rsi
	subq	%rbx, %rsi
	cmpq	%rdi, %rsi
	jb	.LBB22_168
	addq	%rdi, %rbx
	andl	$65472, %ecx
	cmpq	$65472, %rcx
	leaq	64(%rcx), %rcx
	jne	.LBB22_162
.LBB22_164:
	movl	$65536, %eax
	movq	%rax, 24(%rsp)
	jmp	.LBB22_169
.LBB22_165:
	movq	%r9, %rbx
	jmp	.LBB22_169
.LBB22_166:
	xorl	%ecx, %ecx
	jmp	.LBB22_70
.LBB22_167:
	movzwl	(%r12,%r13,2), %eax
	xorl	%ecx, %ecx
	movq	24(%rsp), %rdx
	cmpq	%rax, %rdx
	setbe	%cl
	jmp	.LBB22_152
.LBB22_54:
	movq	%r12, %r9
	cmpq	656(%rsp), %r9
	movq	384(%rsp), %rbp
	jne	.LBB22_155
	jmp	.LBB22_189
.LBB22_168:
	movq	%rcx, 24(%rsp)
.LBB22_169:
	movq	32(%rsp), %r13
	addq	%r13, %rbx
	addq	136(%rsp), %r8
	movq	%rbx, (%rsp)
	leaq	152(%rsp), %rcx
	movq	256(%rsp), %rdi
	movq	64(%rsp), %rsi
	movq	240(%rsp), %rdx
	movq	%r13, %r9
	callq	"read_in_block::draw"
	cmpq	%rax, %r13
	movq	248(%rsp), %r9
	movl	$65536, %r13d
	movabsq	$72340172838076673, %r11
	jae	.LBB22_175
	movq	416(%rsp), %rcx
	movq	96(%rsp), %rsi
	leaq	4(%rsi), %rdx
	addq	%rdx, %rcx
	andq	(%rcx,%r15,8), %r12
	movq	%rbp, %rcx
	shlq	$16, %rcx
	movq	424(%rsp), %rdx
	addq	%rsi, %rdx
	jmp	.LBB22_172
	.p2align	4
.LBB22_171:
	movl	%r15d, %esi
	shll	$6, %esi
	rep		bsfq	%r12, %rdi
	movl	%ecx, %r8d
	orl	%edi, %r8d
	addl	%esi, %r8d
	movq	32(%rsp), %rdi
	movl	%r8d, (%r9,%rdi,4)
	leaq	-1(%r12), %rsi
	andq	%rsi, %r12
	incq	%rdi
	movq	%rdi, 32(%rsp)
	cmpq	%rax, %rdi
	je	.LBB22_175
.LBB22_172:
	testq	%r12, %r12
	jne	.LBB22_171
	leaq	(%rdx,%r15,8), %rsi
	.p2align	4
.LBB22_174:
	incq	%r15
	movq	(%rsi), %r12
	addq	$8, %rsi
	testq	%r12, %r12
	je	.LBB22_174
	jmp	.LBB22_171
.LBB22_175:
	cmpq	%rbx, %rax
	movq	24(%rsp), %rsi
	jb	.LBB22_200
	cmpq	$65536, %rsi
	jne	.LBB22_178
	xorl	%ecx, %ecx
	movq	%rax, %r9
	movq	64(%rsp), %r10
	cmpq	656(%rsp), %r9
	movq	384(%rsp), %rbp
	jne	.LBB22_155
	jmp	.LBB22_189
.LBB22_178:
	movq	%rax, %r9
	movq	96(%rsp), %r10
	leaq	4(%r10), %rbx
	movabsq	$1537228672809129301, %r13
	jmp	.LBB22_114
.LBB22_179:
	movq	%rbx, %r9
	jmp	.LBB22_180
.LBB22_187:
	movq	%r12, %r9
.LBB22_180:
	movb	$13, %al
	xorl	%edx, %edx
	movq	%r9, 288(%rsp)
.LBB22_181:
	xorl	%esi, %esi
	xorl	%ecx, %ecx
	movq	288(%rsp), %rdi
	testq	%rdi, %rdi
	sete	%cl
	movzbl	%al, %eax
	cmovnel	%esi, %eax
	cmoveq	%rdx, %rdi
	movq	%rdi, 288(%rsp)
.LBB22_182:
	movq	504(%rsp), %rdx
	movq	%rcx, (%rdx)
	movzbl	%al, %eax
	movq	%rax, 8(%rdx)
	movq	288(%rsp), %rax
	movq	%rax, 16(%rdx)
	addq	$600, %rsp
	popq	%rbx
	popq	%r12
	popq	%r13
	popq	%r14
	popq	%r15
	popq	%rbp
	retq
.LBB22_183:
	movb	$1, %cl
	jmp	.LBB22_190
.LBB22_188:
	movl	$65536, %r13d
	xorl	%ecx, %ecx
	movq	384(%rsp), %rbp
.LBB22_189:
	shrl	$8, %ecx
	movq	%r13, %rsi
.LBB22_190:
	cmpq	$0, 656(%rsp)
	je	.LBB22_193
	testb	%cl, %cl
	je	.LBB22_193
	xorl	%ecx, %ecx
	xorl	%eax, %eax
	jmp	.LBB22_182
.LBB22_193:
	movzbl	23(%rsp), %eax
	movb	%al, 152(%rsp)
	movl	40(%rsp), %eax
	movl	43(%rsp), %ecx
	movl	%eax, 153(%rsp)
	movl	%ecx, 156(%rsp)
	movq	120(%rsp), %rax
	movq	%rax, 160(%rsp)
	movq	72(%rsp), %rax
	movq	%rax, 168(%rsp)
	movq	144(%rsp), %rax
	movq	%rax, 176(%rsp)
	movq	%r14, 184(%rsp)
	movq	104(%rsp), %rax
	movq	%rax, 192(%rsp)
	movq	272(%rsp), %rax
	movq	%rax, 200(%rsp)
	movq	112(%rsp), %rax
	movq	%rax, 208(%rsp)
	movq	264(%rsp), %rax
	movq	%rax, 216(%rsp)
	movq	280(%rsp), %rax
	movq	%rax, 224(%rsp)
	pxor	%xmm0, %xmm0
	movdqa	%xmm0, 528(%rsp)
	movdqa	%xmm0, 544(%rsp)
	movq	$0, 560(%rsp)
	shlq	$16, %rbp
	addq	%rbp, %rsi
	movb	$1, %al
	cmpq	$2147352576, %rsi
	je	.LBB22_197
	leaq	528(%rsp), %rdi
	leaq	152(%rsp), %rcx
	movq	%rsi, %r8
	movq	%r10, %rsi
	movq	240(%rsp), %rdx
	callq	"next::steps_from"
	movzbl	536(%rsp), %eax
	cmpb	$0, 528(%rsp)
	je	.LBB22_196
	movq	544(%rsp), %rdx
	jmp	.LBB22_181
.LBB22_196:
	cmpb	$1, %al
	setne	%al
.LBB22_197:
	xorl	%ecx, %ecx
	jmp	.LBB22_182
.LBB22_200:
	movq	%rax, %r9
	jmp	.LBB22_180
.Lfunc_end22:
	.size	"read_from::read_up_to", .Lfunc_end22-"read_from::read_up_to"

	.section	".text.read_in_block::draw","ax",@progbits
	.p2align	4
	.type	"read_in_block::draw",@function
"read_in_block::draw":
	pushq	%rbp
	pushq	%r15
	pushq	%r14
	pushq	%r13
	pushq	%r12
	pushq	%rbx
	movq	%rdx, %r10
	movq	%rdi, %r12
	movq	56(%rsp), %r15
	movzbl	(%rcx), %ebp
	movq	8(%rcx), %rbx
	movq	24(%rcx), %rdx
	movq	72(%rcx), %rdi
	leaq	(%rdi,%rdx), %rax
	leaq	(%rsi,%rax), %r14
	movq	40(%rcx), %r13
	movq	56(%rcx), %r11
	movq	%r11, -72(%rsp)
	cmpl	$2, %ebp
	jae	.LBB23_25
	movabsq	$-9223372036854775808, %rdx
	movq	48(%rcx), %rsi
	movl	%esi, %eax
	movq	%rsi, %rcx
	shrq	%rcx
	orq	%rdx, %rcx
	notq	%rsi
	shrq	%rsi
	testb	$1, %al
	cmoveq	%rcx, %rsi
	movq	%r15, %rax
	subq	%r9, %rax
	jbe	.LBB23_131
	testq	%r13, %r13
	je	.LBB23_61
	movq	%r14, -48(%rsp)
	movl	$64, %r10d
	subq	%r13, %r10
	movq	%rsi, %r11
	notq	%r11
	subq	%r8, %rbx
	imulq	%r13, %r8
	movq	%r12, -56(%rsp)
	movq	-72(%rsp), %rdi
	jmp	.LBB23_6
	.p2align	4
.LBB23_4:
	imulq	%rdi, %r14
	cmpq	%r11, %r14
	ja	.LBB23_130
.LBB23_5:
	addq	%rsi, %r14
	movabsq	$-9223372036854775808, %rax
	xorq	%rax, %r14
	movq	%r14, (%r12,%r9,8)
	incq	%r9
	decq	%rbx
	addq	%r13, %r8
	cmpq	%r9, %r15
	je	.LBB23_131
.LBB23_6:
	movq	%r8, %r14
	shrq	$3, %r14
	movl	%r8d, %ecx
	andl	$7, %ecx
	leaq	(%rcx,%r13), %rax
	cmpq	$64, %rbx
	jb	.LBB23_10
	cmpq	$64, %rax
	ja	.LBB23_10
	movq	-48(%rsp), %rdx
	movq	(%rdx,%r14), %r14
	testb	%bpl, %bpl
	je	.LBB23_14
	negb	%al
	movl	%eax, %ecx
	shlq	%cl, %r14
	movl	%r10d, %ecx
	shrq	%cl, %r14
	cmpq	$2, %rdi
	jae	.LBB23_22
	jmp	.LBB23_4
	.p2align	4
.LBB23_10:
	leaq	7(%rax), %rdx
	shrq	$3, %rdx
	addq	-48(%rsp), %r14
	movq	%r15, %r12
	cmpq	$8, %r13
	ja	.LBB23_12
	movzbl	(%r14), %r15d
	movzbl	-1(%r14,%rdx), %r14d
	movl	$1, %edi
	testb	%bpl, %bpl
	je	.LBB23_19
.LBB23_17:
	subl	%edi, %edx
	shll	$3, %edx
	movl	%edx, %ecx
	shlq	%cl, %r14
	orq	%r15, %r14
	negb	%al
	movl	%eax, %ecx
	shlq	%cl, %r14
	jmp	.LBB23_20
	.p2align	4
.LBB23_12:
	cmpq	$24, %r13
	ja	.LBB23_15
	movzwl	(%r14), %r15d
	movzwl	-2(%r14,%rdx), %r14d
	movl	$2, %edi
	testb	%bpl, %bpl
	jne	.LBB23_17
.LBB23_19:
	bswapq	%r15
	shlq	%cl, %r15
	bswapq	%r14
	subl	%edi, %edx
	shll	$3, %edx
	subl	%ecx, %edx
	movl	%edx, %ecx
	shrq	%cl, %r14
	orq	%r15, %r14
.LBB23_20:
	movq	%r12, %r15
	movq	-56(%rsp), %r12
	movq	-72(%rsp), %rdi
	movl	%r10d, %ecx
	shrq	%cl, %r14
	cmpq	$2, %rdi
	jae	.LBB23_22
	jmp	.LBB23_4
.LBB23_14:
	bswapq	%r14
	shlq	%cl, %r14
	movl	%r10d, %ecx
	shrq	%cl, %r14
	cmpq	$2, %rdi
	jb	.LBB23_4
	.p2align	4
.LBB23_22:
	movq	%r14, %rax
	orq	%rdi, %rax
	shrq	$32, %rax
	je	.LBB23_4
	movq	%r11, %rax
	xorl	%edx, %edx
	divq	%rdi
	cmpq	%rax, %r14
	ja	.LBB23_130
	imulq	%rdi, %r14
	jmp	.LBB23_5
.LBB23_15:
	cmpq	$56, %r13
	ja	.LBB23_18
	movl	(%r14), %r15d
	movl	-4(%r14,%rdx), %r14d
	movl	$4, %edi
	testb	%bpl, %bpl
	jne	.LBB23_17
	jmp	.LBB23_19
.LBB23_18:
	movq	(%r14), %r15
	movq	-8(%r14,%rdx), %r14
	movl	$8, %edi
	testb	%bpl, %bpl
	jne	.LBB23_17
	jmp	.LBB23_19
.LBB23_25:
	jne	.LBB23_28
	subq	%rax, %r10
	movq	%r15, %rbp
	subq	%r9, %rbp
	jne	.LBB23_36
	movl	%ebx, %eax
	andl	$16383, %eax
	addl	$16383, %eax
	shrl	$14, %eax
	shrq	$14, %rbx
	addq	%rax, %rbx
	leaq	(%rbx,%rbx,4), %rax
	leaq	(%rax,%rax,4), %rbp
	subq	%rbp, %r10
	movq	%r9, %r13
	movq	-72(%rsp), %rdi
	cmpq	%r15, %r13
	jb	.LBB23_42
	jmp	.LBB23_131
.LBB23_28:
	movq	%r15, %rax
	subq	%r9, %rax
	jbe	.LBB23_131
	testq	%r13, %r13
	je	.LBB23_67
	movq	-72(%rsp), %rdi
	leaq	(%r14,%rdi,8), %rsi
	movq	%r8, %rax
	shrq	$3, %rax
	imulq	%r13, %rax
	movl	%r8d, %r10d
	andl	$7, %r10d
	imulq	%r13, %r10
	shrq	$3, %r10
	addq	%rax, %r10
	movl	%r13d, %ecx
	imull	%r8d, %ecx
	andl	$7, %ecx
	movl	$64, %eax
	subq	%r13, %rax
	subq	%r8, %rbx
	cmpq	$8, %r13
	ja	.LBB23_85
	.p2align	4
.LBB23_31:
	leaq	(%rcx,%r13), %r8
	cmpq	$63, %rbx
	jbe	.LBB23_33
	movq	(%rsi,%r10), %r11
	bswapq	%r11
	shlq	%cl, %r11
	jmp	.LBB23_34
	.p2align	4
.LBB23_33:
	leaq	7(%r8), %rdx
	movq	%rdx, %rdi
	shrq	$3, %rdi
	leaq	(%rsi,%r10), %r11
	movq	%r14, %rbp
	movzbl	(%rsi,%r10), %r14d
	movzbl	-1(%rdi,%r11), %r11d
	movq	-72(%rsp), %rdi
	shlq	$56, %r14
	shlq	%cl, %r14
	shlq	$56, %r11
	andl	$56, %edx
	subl	%ecx, %edx
	addb	$56, %dl
	movl	%edx, %ecx
	shrq	%cl, %r11
	orq	%r14, %r11
	movq	%rbp, %r14
.LBB23_34:
	movl	%eax, %ecx
	shrq	%cl, %r11
	cmpq	%r11, %rdi
	jbe	.LBB23_130
	movq	(%r14,%r11,8), %rcx
	movq	%rcx, (%r12,%r9,8)
	movq	%r8, %rcx
	shrq	$3, %rcx
	addq	%rcx, %r10
	incq	%r9
	andl	$7, %r8d
	decq	%rbx
	movq	%r8, %rcx
	cmpq	%r9, %r15
	jne	.LBB23_31
	jmp	.LBB23_131
.LBB23_36:
	movq	%r8, %rax
	shrq	$14, %rax
	leaq	(%rax,%rax,4), %rax
	leaq	(%rax,%rax,4), %rcx
	movzbl	24(%r14,%rcx), %r11d
	movq	%r8, %rax
	andq	$-16384, %rax
	movq	%rbx, %rdx
	subq	%rax, %rdx
	cmpq	$16384, %rdx
	movl	$16384, %esi
	cmovbq	%rdx, %rsi
	movq	%rbx, %rax
	shrq	$14, %rax
	andl	$16383, %ebx
	addl	$16383, %ebx
	shrl	$14, %ebx
	addq	%rax, %rbx
	leaq	(%rbx,%rbx,4), %rax
	leaq	(%rax,%rax,4), %rax
	movq	%rax, -64(%rsp)
	subq	%rax, %r10
	cmpq	$64, %r11
	movq	-72(%rsp), %rdi
	ja	.LBB23_40
	movq	(%r14,%rcx), %rax
	testq	%r11, %r11
	je	.LBB23_102
	movq	16(%r14,%rcx), %rdx
	movq	%r10, %rcx
	subq	%rdx, %rcx
	jb	.LBB23_40
	movq	%rdx, %rbx
	movq	%rsi, %rdx
	imulq	%r11, %rdx
	addq	$7, %rdx
	shrq	$3, %rdx
	cmpq	%rdx, %rcx
	jae	.LBB23_103
.LBB23_40:
	movq	%r9, %r13
.LBB23_41:
	movq	-64(%rsp), %rbp
	cmpq	%r15, %r13
	jae	.LBB23_131
.LBB23_42:
	addq	%r14, %rbp
	movabsq	$-9223372036854775808, %rsi
	subq	%r9, %r8
	jmp	.LBB23_45
	.p2align	4
.LBB23_43:
	imulq	%rdi, %r11
	cmpq	%rax, %r11
	ja	.LBB23_101
.LBB23_44:
	xorq	%rsi, %r9
	addq	%r11, %r9
	xorq	%rsi, %r9
	movq	%r9, (%r12,%r13,8)
	incq	%r13
	cmpq	%r13, %r15
	je	.LBB23_131
.LBB23_45:
	leaq	(%r8,%r13), %rcx
	movq	%rcx, %rax
	shrq	$14, %rax
	leaq	(%rax,%rax,4), %rax
	leaq	(%rax,%rax,4), %rdx
	movzbl	24(%r14,%rdx), %eax
	cmpq	$64, %rax
	ja	.LBB23_101
	movq	(%r14,%rdx), %r9
	testq	%rax, %rax
	je	.LBB23_51
	movq	16(%r14,%rdx), %r11
	movq	%r10, %rdx
	subq	%r11, %rdx
	jb	.LBB23_101
	andl	$16383, %ecx
	leal	1(%rcx), %edi
	movl	%eax, %ebx
	imull	%edi, %ebx
	addl	$7, %ebx
	shrl	$3, %ebx
	cmpq	%rbx, %rdx
	jb	.LBB23_101
	addq	%rbp, %r11
	imulq	%rax, %rcx
	movl	%ecx, %ebx
	shrl	$3, %ebx
	leal	(%rax,%rcx), %edi
	addl	$7, %edi
	shrl	$3, %edi
	movq	%rdi, %rdx
	subq	%rbx, %rdx
	andl	$7, %ecx
	cmpb	$8, %al
	ja	.LBB23_52
	movzbl	(%r11,%rbx), %ebx
	movzbl	-1(%r11,%rdi), %r11d
	movq	$-1, %rdi
	jmp	.LBB23_57
	.p2align	4
.LBB23_51:
	xorl	%r11d, %r11d
	leaq	-1(%rsi), %rax
	xorq	%r9, %rax
	cmpq	$2, %rdi
	jae	.LBB23_58
	jmp	.LBB23_43
	.p2align	4
.LBB23_52:
	cmpb	$24, %al
	ja	.LBB23_54
	movzwl	(%r11,%rbx), %ebx
	movzwl	-2(%r11,%rdi), %r11d
	movq	$-2, %rdi
	jmp	.LBB23_57
.LBB23_54:
	cmpb	$56, %al
	ja	.LBB23_56
	movl	(%r11,%rbx), %ebx
	movl	-4(%r11,%rdi), %r11d
	movq	$-4, %rdi
	jmp	.LBB23_57
.LBB23_56:
	movq	(%r11,%rbx), %rbx
	movq	-8(%r11,%rdi), %r11
	movq	$-8, %rdi
	.p2align	4
.LBB23_57:
	bswapq	%rbx
	shlq	%cl, %rbx
	bswapq	%r11
	addl	%edi, %edx
	shll	$3, %edx
	subl	%ecx, %edx
	movl	%edx, %ecx
	shrq	%cl, %r11
	orq	%rbx, %r11
	negb	%al
	movl	%eax, %ecx
	shrq	%cl, %r11
	movq	-72(%rsp), %rdi
	leaq	-1(%rsi), %rax
	xorq	%r9, %rax
	cmpq	$2, %rdi
	jb	.LBB23_43
.LBB23_58:
	movq	%r11, %rcx
	orq	%rdi, %rcx
	shrq	$32, %rcx
	je	.LBB23_43
	xorl	%edx, %edx
	divq	%rdi
	cmpq	%rax, %r11
	ja	.LBB23_101
	imulq	%rdi, %r11
	jmp	.LBB23_44
.LBB23_101:
	movq	%r13, %r15
	jmp	.LBB23_131
.LBB23_61:
	movq	-72(%rsp), %rcx
	shrq	$32, %rcx
	xorq	%rdx, %rsi
	testq	%rcx, %rcx
	jne	.LBB23_78
	cmpq	$4, %rax
	jb	.LBB23_66
	movq	%rax, %rcx
	andq	$-4, %rcx
	movq	%rsi, %xmm0
	pshufd	$68, %xmm0, %xmm0
	leaq	(%r12,%r9,8), %rdx
	addq	$16, %rdx
	addq	%rcx, %r9
	xorl	%edi, %edi
	.p2align	4
.LBB23_64:
	movdqu	%xmm0, -16(%rdx,%rdi,8)
	movdqu	%xmm0, (%rdx,%rdi,8)
	addq	$4, %rdi
	cmpq	%rdi, %rcx
	jne	.LBB23_64
	cmpq	%rcx, %rax
	je	.LBB23_131
	.p2align	4
.LBB23_66:
	movq	%rsi, (%r12,%r9,8)
	incq	%r9
	cmpq	%r9, %r15
	jne	.LBB23_66
	jmp	.LBB23_131
.LBB23_67:
	cmpq	$0, -72(%rsp)
	je	.LBB23_130
	cmpq	$14, %rax
	jb	.LBB23_73
	leaq	(%r12,%r9,8), %rcx
	leaq	(%r12,%r15,8), %r8
	addq	%rdx, %rsi
	leaq	(%rdi,%rsi), %rdx
	addq	$8, %rdx
	cmpq	%rdx, %rcx
	setb	%cl
	cmpq	%r8, %r14
	setb	%dl
	testb	%dl, %cl
	jne	.LBB23_73
	leaq	(,%r9,8), %rdx
	movq	%rax, %rcx
	andq	$-4, %rcx
	movq	(%r14), %xmm0
	pshufd	$68, %xmm0, %xmm0
	addq	%rcx, %r9
	addq	%r12, %rdx
	addq	$16, %rdx
	xorl	%esi, %esi
	.p2align	4
.LBB23_71:
	movdqu	%xmm0, -16(%rdx,%rsi,8)
	movdqu	%xmm0, (%rdx,%rsi,8)
	addq	$4, %rsi
	cmpq	%rsi, %rcx
	jne	.LBB23_71
	cmpq	%rcx, %rax
	je	.LBB23_131
.LBB23_73:
	movl	%r15d, %ecx
	subl	%r9d, %ecx
	movq	%r9, %rax
	andl	$3, %ecx
	je	.LBB23_76
	movq	%r9, %rax
	.p2align	4
.LBB23_75:
	movq	(%r14), %rdx
	movq	%rdx, (%r12,%rax,8)
	incq	%rax
	decq	%rcx
	jne	.LBB23_75
.LBB23_76:
	subq	%r15, %r9
	cmpq	$-4, %r9
	ja	.LBB23_131
	.p2align	4
.LBB23_77:
	movq	(%r14), %rcx
	movq	%rcx, (%r12,%rax,8)
	movq	(%r14), %rcx
	movq	%rcx, 8(%r12,%rax,8)
	movq	(%r14), %rcx
	movq	%rcx, 16(%r12,%rax,8)
	movq	(%r14), %rcx
	movq	%rcx, 24(%r12,%rax,8)
	addq	$4, %rax
	cmpq	%rax, %r15
	jne	.LBB23_77
	jmp	.LBB23_131
.LBB23_78:
	cmpq	$4, %rax
	jb	.LBB23_82
	movq	%rax, %rcx
	andq	$-4, %rcx
	movq	%rsi, %xmm0
	pshufd	$68, %xmm0, %xmm0
	leaq	(%r12,%r9,8), %rdx
	addq	$16, %rdx
	addq	%rcx, %r9
	xorl	%edi, %edi
	.p2align	4
.LBB23_80:
	movdqu	%xmm0, -16(%rdx,%rdi,8)
	movdqu	%xmm0, (%rdx,%rdi,8)
	addq	$4, %rdi
	cmpq	%rdi, %rcx
	jne	.LBB23_80
	cmpq	%rcx, %rax
	je	.LBB23_131
	.p2align	4
.LBB23_82:
	movq	%rsi, (%r12,%r9,8)
	incq	%r9
	cmpq	%r9, %r15
	jne	.LBB23_82
	jmp	.LBB23_131
.LBB23_85:
	cmpq	$25, %r13
	jae	.LBB23_92
	.p2align	4
.LBB23_86:
	leaq	(%rcx,%r13), %r8
	cmpq	$64, %r8
	ja	.LBB23_89
	cmpq	$63, %rbx
	jbe	.LBB23_89
	movq	(%rsi,%r10), %rdi
	bswapq	%rdi
	shlq	%cl, %rdi
	jmp	.LBB23_90
.LBB23_89:
	leaq	7(%r8), %rdx
	movq	%rdx, %rdi
	shrq	$3, %rdi
	movzwl	(%rsi,%r10), %r11d
	bswapq	%r11
	shlq	%cl, %r11
	movq	%r14, %rbp
	leaq	(%rsi,%r10), %r14
	movzwl	-2(%rdi,%r14), %edi
	movq	%rbp, %r14
	bswapq	%rdi
	andl	$56, %edx
	subl	%ecx, %edx
	addb	$48, %dl
	movl	%edx, %ecx
	shrq	%cl, %rdi
	orq	%r11, %rdi
.LBB23_90:
	movl	%eax, %ecx
	shrq	%cl, %rdi
	cmpq	%rdi, -72(%rsp)
	jbe	.LBB23_130
	movq	(%r14,%rdi,8), %rcx
	movq	%rcx, (%r12,%r9,8)
	movq	%r8, %rcx
	shrq	$3, %rcx
	addq	%rcx, %r10
	incq	%r9
	andl	$7, %r8d
	decq	%rbx
	movq	%r8, %rcx
	cmpq	%r9, %r15
	jne	.LBB23_86
	jmp	.LBB23_131
	.p2align	4
.LBB23_92:
	leaq	(%rcx,%r13), %r8
	cmpq	$64, %r8
	ja	.LBB23_95
	cmpq	$64, %rbx
	jb	.LBB23_95
	movq	(%rsi,%r10), %r11
	bswapq	%r11
	shlq	%cl, %r11
	jmp	.LBB23_99
.LBB23_95:
	movq	%r14, %rbp
	leaq	7(%r8), %r14
	shrq	$3, %r14
	leaq	(%rsi,%r10), %rdx
	cmpq	$56, %r13
	ja	.LBB23_97
	movl	(%rdx), %edi
	movl	-4(%rdx,%r14), %r11d
	movq	$-4, %rdx
	jmp	.LBB23_98
.LBB23_97:
	movq	(%rdx), %rdi
	movq	-8(%rdx,%r14), %r11
	movq	$-8, %rdx
.LBB23_98:
	bswapq	%rdi
	shlq	%cl, %rdi
	bswapq	%r11
	addl	%r14d, %edx
	shll	$3, %edx
	subl	%ecx, %edx
	movl	%edx, %ecx
	shrq	%cl, %r11
	orq	%rdi, %r11
	movq	%rbp, %r14
	movq	-72(%rsp), %rdi
.LBB23_99:
	movl	%eax, %ecx
	shrq	%cl, %r11
	cmpq	%r11, %rdi
	jbe	.LBB23_130
	movq	(%r14,%r11,8), %rcx
	movq	%rcx, (%r12,%r9,8)
	movq	%r8, %rcx
	shrq	$3, %rcx
	addq	%rcx, %r10
	incq	%r9
	andl	$7, %r8d
	decq	%rbx
	movq	%r8, %rcx
	cmpq	%r9, %r15
	jne	.LBB23_92
	jmp	.LBB23_131
.LBB23_130:
	movq	%r9, %r15
.LBB23_131:
	movq	%r15, %rax
	popq	%rbx
	popq	%r12
	popq	%r13
	popq	%r14
	popq	%r15
	popq	%rbp
	retq
.LBB23_102:
	xorl	%ebx, %ebx
.LBB23_103:
	movq	%r11, -56(%rsp)
	movabsq	$-9223372036854775808, %rdx
	movl	%r8d, %ecx
	andl	$16383, %ecx
	movq	%rcx, -40(%rsp)
	subq	%rcx, %rsi
	cmpq	%rsi, %rbp
	cmovaeq	%rsi, %rbp
	leaq	(%r9,%rbp), %r13
	leaq	(%rax,%rax), %rcx
	movq	%rax, %r11
	sarq	$63, %r11
	xorq	%rcx, %r11
	movq	%r11, %rcx
	shrq	%rcx
	orq	%rdx, %rcx
	notq	%r11
	shrq	%r11
	testq	%rax, %rax
	cmovnsq	%rcx, %r11
	cmpq	%r13, %r9
	jae	.LBB23_41
	movq	-56(%rsp), %rdx
	testb	%dl, %dl
	je	.LBB23_132
	addq	%r14, %rbx
	addq	-64(%rsp), %rbx
	movq	%rbx, -24(%rsp)
	movl	$64, %eax
	subq	%rdx, %rax
	movq	%rax, -8(%rsp)
	movq	%r11, -16(%rsp)
	notq	%r11
	movq	%r11, -32(%rsp)
	movl	%r8d, %eax
	andl	$7, %eax
	movl	%edx, %ecx
	imull	%eax, %ecx
	shrl	$3, %ecx
	movq	-40(%rsp), %rax
	movl	%eax, %ebx
	shrl	$3, %ebx
	imulq	%rdx, %rbx
	addq	%rcx, %rbx
	imulq	%rdx, %rax
	movq	%rax, %rdx
	negq	%rbp
	movq	%r9, %r11
	movq	%r14, -48(%rsp)
	jmp	.LBB23_108
.LBB23_106:
	imulq	%rcx, %r14
	cmpq	-32(%rsp), %r14
	ja	.LBB23_144
.LBB23_107:
	addq	-16(%rsp), %r14
	movabsq	$-9223372036854775808, %rax
	xorq	%rax, %r14
	movq	%r14, (%r12,%r11,8)
	movl	%edx, %eax
	shrl	$3, %eax
	addq	%rax, %rbx
	incq	%r11
	decq	%rsi
	incq	%rbp
	movq	-48(%rsp), %r14
	movq	-72(%rsp), %rdi
	je	.LBB23_41
.LBB23_108:
	movl	%edx, %ecx
	andl	$7, %ecx
	movq	-56(%rsp), %rax
	leaq	(%rcx,%rax), %rdx
	cmpq	$64, %rdx
	ja	.LBB23_111
	cmpq	$64, %rsi
	jb	.LBB23_111
	movq	-24(%rsp), %rax
	movq	(%rax,%rbx), %r14
	bswapq	%r14
	shlq	%cl, %r14
	jmp	.LBB23_119
.LBB23_111:
	movq	%rdx, -40(%rsp)
	addl	$7, %edx
	shrl	$3, %edx
	movq	-24(%rsp), %rax
	addq	%rbx, %rax
	movq	-56(%rsp), %r15
	cmpb	$8, %r15b
	ja	.LBB23_113
	movzbl	(%rax), %r15d
	movzbl	-1(%rax,%rdx), %r14d
	movq	$-1, %rax
	jmp	.LBB23_118
.LBB23_113:
	cmpb	$24, %r15b
	ja	.LBB23_115
	movzwl	(%rax), %r15d
	movzwl	-2(%rax,%rdx), %r14d
	movq	$-2, %rax
	jmp	.LBB23_118
.LBB23_115:
	cmpb	$56, %r15b
	ja	.LBB23_117
	movl	(%rax), %r15d
	movl	-4(%rax,%rdx), %r14d
	movq	$-4, %rax
	jmp	.LBB23_118
.LBB23_117:
	movq	(%rax), %r15
	movq	-8(%rax,%rdx), %r14
	movq	$-8, %rax
.LBB23_118:
	bswapq	%r15
	shlq	%cl, %r15
	bswapq	%r14
	addl	%edx, %eax
	shll	$3, %eax
	subl	%ecx, %eax
	movl	%eax, %ecx
	shrq	%cl, %r14
	orq	%r15, %r14
	movq	56(%rsp), %r15
	movq	-40(%rsp), %rdx
.LBB23_119:
	movq	-8(%rsp), %rcx
	shrq	%cl, %r14
	movq	-72(%rsp), %rcx
	cmpq	$2, %rcx
	jb	.LBB23_106
	movq	%r14, %rax
	orq	%rcx, %rax
	shrq	$32, %rax
	je	.LBB23_106
	movq	%rdx, %rdi
	movq	-32(%rsp), %rax
	xorl	%edx, %edx
	divq	%rcx
	cmpq	%rax, %r14
	ja	.LBB23_143
	imulq	%rcx, %r14
	movq	%rdi, %rdx
	jmp	.LBB23_107
.LBB23_132:
	movq	%rdi, %rax
	shrq	$32, %rax
	movabsq	$-9223372036854775808, %rcx
	xorq	%rcx, %r11
	testq	%rax, %rax
	jne	.LBB23_138
	movq	%r9, %rax
	cmpq	$4, %rbp
	jb	.LBB23_137
	movq	%rbp, %rcx
	andq	$-4, %rcx
	leaq	(%r9,%rcx), %rax
	movq	%r11, %xmm0
	pshufd	$68, %xmm0, %xmm0
	leaq	(%r12,%r9,8), %rdx
	addq	$16, %rdx
	xorl	%esi, %esi
.LBB23_135:
	movdqu	%xmm0, -16(%rdx,%rsi,8)
	movdqu	%xmm0, (%rdx,%rsi,8)
	addq	$4, %rsi
	cmpq	%rsi, %rcx
	jne	.LBB23_135
	cmpq	%rcx, %rbp
	je	.LBB23_41
.LBB23_137:
	movq	%r11, (%r12,%rax,8)
	incq	%rax
	cmpq	%rax, %r13
	jne	.LBB23_137
	jmp	.LBB23_41
.LBB23_138:
	movq	%r9, %rax
	cmpq	$4, %rbp
	jb	.LBB23_142
	movq	%rbp, %rcx
	andq	$-4, %rcx
	leaq	(%r9,%rcx), %rax
	movq	%r11, %xmm0
	pshufd	$68, %xmm0, %xmm0
	leaq	(%r12,%r9,8), %rdx
	addq	$16, %rdx
	xorl	%esi, %esi
.LBB23_140:
	movdqu	%xmm0, -16(%rdx,%rsi,8)
	movdqu	%xmm0, (%rdx,%rsi,8)
	addq	$4, %rsi
	cmpq	%rsi, %rcx
	jne	.LBB23_140
	cmpq	%rcx, %rbp
	je	.LBB23_41
.LBB23_142:
	movq	%r11, (%r12,%rax,8)
	incq	%rax
	cmpq	%rax, %r13
	jne	.LBB23_142
	jmp	.LBB23_41
.LBB23_143:
	movq	%r11, %r13
	movq	-48(%rsp), %r14
	movq	%rcx, %rdi
	jmp	.LBB23_41
.LBB23_144:
	movq	%r11, %r13
	movq	-48(%rsp), %r14
	movq	-72(%rsp), %rdi
	jmp	.LBB23_41
.Lfunc_end23:
	.size	"read_in_block::draw", .Lfunc_end23-"read_in_block::draw"

	.section	".text.layered_reading::layered_steps","ax",@progbits
	.p2align	4
	.type	"layered_reading::layered_steps",@function
"layered_reading::layered_steps":
	pushq	%rbp
	pushq	%r15
	pushq	%r14
	pushq	%r13
	pushq	%r12
	pushq	%rbx
	subq	$3072, %rsp
	movq	$0, (%rsp)
	subq	$3072, %rsp
	movq	$0, (%rsp)
	subq	$3072, %rsp
	movq	$0, (%rsp)
	subq	$3072, %rsp
	movq	$0, (%rsp)
	subq	$312, %rsp
	movq	%r9, 24(%rsp)
	movq	%r8, %rbp
	movq	%rcx, 96(%rsp)
	movq	%rdx, %r14
	movq	%rsi, 88(%rsp)
	movq	%rdi, 64(%rsp)
	movl	12712(%rsp), %eax
	movq	%rax, 80(%rsp)
	movq	12656(%rsp), %rbx
	movq	12704(%rsp), %rax
	movq	12680(%rsp), %rcx
	movups	64(%rcx), %xmm0
	movaps	%xmm0, 288(%rsp)
	movups	(%rcx), %xmm0
	movups	16(%rcx), %xmm1
	movups	32(%rcx), %xmm2
	movups	48(%rcx), %xmm3
	movaps	%xmm3, 272(%rsp)
	movaps	%xmm2, 256(%rsp)
	movaps	%xmm1, 240(%rsp)
	movaps	%xmm0, 224(%rsp)
	movups	(%rax), %xmm0
	movups	16(%rax), %xmm1
	movups	32(%rax), %xmm2
	movups	48(%rax), %xmm3
	movaps	%xmm0, 144(%rsp)
	movaps	%xmm1, 160(%rsp)
	movaps	%xmm2, 176(%rsp)
	movaps	%xmm3, 192(%rsp)
	movups	64(%rax), %xmm0
	movaps	%xmm0, 208(%rsp)
	leaq	312(%rsp), %rdi
	xorl	%r15d, %r15d
	movl	$2048, %edx
	xorl	%esi, %esi
	callq	memset@PLT
	leaq	4408(%rsp), %rdi
	movl	$4096, %edx
	xorl	%esi, %esi
	callq	memset@PLT
	leaq	2360(%rsp), %rdi
	movl	$2048, %edx
	xorl	%esi, %esi
	callq	memset@PLT
	leaq	8504(%rsp), %rdi
	movl	$4096, %edx
	xorl	%esi, %esi
	callq	memset@PLT
	movq	%r14, %rdi
	cmpq	%r14, %rbp
	cmovbq	%rbp, %rdi
	cmpq	%rbx, %rdi
	cmovaeq	%rbx, %rdi
	xorl	%r9d, %r9d
	movq	$0, 128(%rsp)
	xorl	%r14d, %r14d
	xorl	%r8d, %r8d
	xorl	%r13d, %r13d
	xorl	%r11d, %r11d
	movq	%rdi, 120(%rsp)
.LBB24_1:
	movq	%rdi, %rax
	subq	%r11, %rax
	cmpq	$512, %rax
	movl	$512, %ebx
	movq	%rax, 72(%rsp)
	cmovbq	%rax, %rbx
	movq	%r11, %rbp
	shrq	%rbp
	incq	%rbp
	movq	%r11, 16(%rsp)
	.p2align	4
.LBB24_2:
	movq	%rbx, %rax
	imulq	%r8, %rax
	shrq	%rax
	movq	%rax, %rcx
	orq	%rbp, %rcx
	shrq	$32, %rcx
	je	.LBB24_3
	xorl	%edx, %edx
	divq	%rbp
	jmp	.LBB24_5
	.p2align	4
.LBB24_3:
	xorl	%edx, %edx
	divl	%ebp
.LBB24_5:
	addq	$16, %rax
	cmpq	%rbx, %rax
	cmovaeq	%rbx, %rax
	cmpq	%r8, %r14
	jb	.LBB24_6
	testb	$1, %r13b
	je	.LBB24_8
.LBB24_6:
	movq	%r14, %rax
	andq	$-256, %rax
	jmp	.LBB24_10
	.p2align	4
.LBB24_8:
	movq	%r9, %r14
	xorps	%xmm0, %xmm0
	movaps	%xmm0, 32(%rsp)
	movq	$0, 48(%rsp)
	movq	80(%rsp), %rcx
	movl	%ecx, 8(%rsp)
	movq	%rax, (%rsp)
	leaq	32(%rsp), %rdi
	leaq	2360(%rsp), %rsi
	leaq	8504(%rsp), %rdx
	leaq	144(%rsp), %r9
	movq	12688(%rsp), %rcx
	movq	12696(%rsp), %r8
	callq	"read_from::read_up_to"
	movzbl	40(%rsp), %ecx
	xorl	%eax, %eax
	cmpb	$0, 32(%rsp)
	movq	48(%rsp), %r8
	movl	%ecx, %r13d
	cmovnel	%eax, %r13d
	jne	.LBB24_14
	movq	16(%rsp), %r11
	movq	120(%rsp), %rdi
	movq	%r14, %r9
	xorl	%r14d, %r14d
.LBB24_10:
	movzbl	%r14b, %r14d
	orq	%rax, %r14
	movq	%r14, 104(%rsp)
	cmpq	%r8, %r14
	sete	%r14b
	jne	.LBB24_24
	testb	$1, %r13b
	jne	.LBB24_12
.LBB24_24:
	cmpq	%r9, %r15
	jb	.LBB24_25
	testb	$1, 128(%rsp)
	je	.LBB24_27
.LBB24_25:
	movq	%r15, %rax
	andq	$-256, %rax
	movzbl	%r15b, %r15d
	orq	%rax, %r15
	cmpq	%r9, %r15
	je	.LBB24_30
	jmp	.LBB24_40
	.p2align	4
.LBB24_27:
	movq	%r8, %r12
	xorps	%xmm0, %xmm0
	movaps	%xmm0, 32(%rsp)
	movq	$0, 48(%rsp)
	movq	80(%rsp), %rax
	movl	%eax, 8(%rsp)
	movq	%rbx, (%rsp)
	leaq	32(%rsp), %rdi
	leaq	312(%rsp), %rsi
	leaq	4408(%rsp), %rdx
	leaq	224(%rsp), %r9
	movq	12664(%rsp), %rcx
	movq	12672(%rsp), %r8
	callq	"read_from::read_up_to"
	movzbl	40(%rsp), %ecx
	xorl	%eax, %eax
	cmpb	$0, 32(%rsp)
	movq	48(%rsp), %r9
	movl	%ecx, %edx
	cmovnel	%eax, %edx
	movq	%rdx, 128(%rsp)
	jne	.LBB24_73
	xorl	%r15d, %r15d
	movq	16(%rsp), %r11
	movq	120(%rsp), %rdi
	movq	%r12, %r8
	movzbl	%r15b, %r15d
	orq	%rax, %r15
	cmpq	%r9, %r15
	jne	.LBB24_40
.LBB24_30:
	testb	$1, 128(%rsp)
	jne	.LBB24_31
.LBB24_40:
	cmpq	%r11, %rdi
	je	.LBB24_41
	testb	%r14b, %r14b
	movq	104(%rsp), %r14
	jne	.LBB24_2
	movq	24(%rsp), %rbx
	movq	%r9, 72(%rsp)
	movq	%r8, 112(%rsp)
	movq	%r13, 136(%rsp)
.LBB24_45:
	movq	%r14, 104(%rsp)
	jmp	.LBB24_46
	.p2align	4
.LBB24_70:
	addq	%rdx, %r11
	movq	%rcx, %r15
	cmpq	%rcx, %r8
	movq	120(%rsp), %rdi
	movq	136(%rsp), %r13
	jne	.LBB24_71
.LBB24_46:
	movq	%rdi, %rdx
	subq	%r11, %rdx
	jbe	.LBB24_47
	movq	%r9, %rcx
	subq	%r15, %rcx
	je	.LBB24_49
	movl	2360(%rsp,%r14,4), %eax
	cmpq	%rcx, %rdx
	cmovbq	%rdx, %rcx
	movq	96(%rsp), %rdx
	leaq	(%rdx,%r11,8), %rdx
	movq	88(%rsp), %rsi
	leaq	(%rsi,%r11,4), %rsi
	movq	%r15, %rdi
	cmpq	$4, %rcx
	jae	.LBB24_51
	addq	%r15, %rcx
	movq	%rcx, %r8
	cmpq	%rcx, %rdi
	jb	.LBB24_62
.LBB24_68:
	movq	%r8, %rdx
	subq	%r15, %rdx
	jbe	.LBB24_70
	jmp	.LBB24_69
	.p2align	4
.LBB24_51:
	movq	%r11, 16(%rsp)
	leaq	(%rbx,%r11), %r8
	leaq	(%rsp,%r15,8), %r9
	addq	$4408, %r9
	leaq	(%rsp,%r15,4), %r10
	addq	$312, %r10
	xorl	%edi, %edi
	movq	%rcx, %r11
	xorl	%ebx, %ebx
	xorl	%r14d, %r14d
	jmp	.LBB24_52
	.p2align	4
.LBB24_58:
	leaq	(%rdx,%rdi,8), %r12
	leaq	(%r9,%rdi,8), %r13
	movups	(%r13), %xmm0
	movups	16(%r13), %xmm1
	movups	%xmm1, 16(%r12)
	movups	%xmm0, (%r12)
.LBB24_59:
	movl	$0, (%r8,%rdi)
	addq	$4, %rdi
	addq	$32, %r14
	addq	$16, %rbx
	addq	$-4, %r11
	cmpq	$3, %r11
	jbe	.LBB24_60
.LBB24_52:
	movl	12(%r10,%rdi,4), %ebp
	cmpl	%ebp, %eax
	jbe	.LBB24_60
	leaq	(%rsi,%rbx), %r13
	subq	%r10, %r13
	subq	%rbx, %r13
	cmpq	$15, %r13
	ja	.LBB24_55
	movq	(%r10,%rdi,4), %r12
	movq	%r12, (%rsi,%rdi,4)
	movl	8(%r10,%rdi,4), %r12d
	movl	%r12d, 8(%rsi,%rdi,4)
	movl	%ebp, 12(%rsi,%rdi,4)
	jmp	.LBB24_56
	.p2align	4
.LBB24_55:
	leaq	(%r10,%rdi,4), %r12
	leaq	(%rsi,%rdi,4), %r13
	movups	(%r12), %xmm0
	movups	%xmm0, (%r13)
.LBB24_56:
	leaq	(%rdx,%r14), %r12
	subq	%r9, %r12
	subq	%r14, %r12
	cmpq	$31, %r12
	ja	.LBB24_58
	movups	(%r9,%rdi,8), %xmm0
	movups	%xmm0, (%rdx,%rdi,8)
	movups	16(%r9,%rdi,8), %xmm0
	movups	%xmm0, 16(%rdx,%rdi,8)
	jmp	.LBB24_59
	.p2align	4
.LBB24_60:
	addq	%r15, %rdi
	movq	16(%rsp), %r11
	movq	24(%rsp), %rbx
	movq	72(%rsp), %r9
	movq	104(%rsp), %r14
	addq	%r15, %rcx
	movq	%rcx, %r8
	cmpq	%rcx, %rdi
	jae	.LBB24_68
.LBB24_62:
	movq	%r11, %r8
	subq	%r15, %r8
	addq	%rbx, %r8
	leaq	(,%r15,8), %r9
	subq	%r9, %rdx
	leaq	(,%r15,4), %r9
	subq	%r9, %rsi
	.p2align	4
.LBB24_63:
	movl	312(%rsp,%rdi,4), %r9d
	cmpl	%r9d, %eax
	jbe	.LBB24_64
	movq	4408(%rsp,%rdi,8), %r10
	movl	%r9d, (%rsi,%rdi,4)
	movq	%r10, (%rdx,%rdi,8)
	movb	$0, (%r8,%rdi)
	incq	%rdi
	cmpq	%rdi, %rcx
	jne	.LBB24_63
	movq	%rcx, %r8
	jmp	.LBB24_67
	.p2align	4
.LBB24_64:
	movq	%rdi, %r8
.LBB24_67:
	movq	72(%rsp), %r9
	movq	%r8, %rdx
	subq	%r15, %rdx
	jbe	.LBB24_70
.LBB24_69:
	movl	308(%rsp,%r8,4), %esi
	incq	%rsi
	movq	%rsi, 80(%rsp)
	jmp	.LBB24_70
.LBB24_71:
	movl	312(%rsp,%r8,4), %ecx
	movq	8504(%rsp,%r14,8), %rdx
	movq	88(%rsp), %rsi
	movl	%eax, (%rsi,%r11,4)
	movq	96(%rsp), %rsi
	movq	%rdx, (%rsi,%r11,8)
	movq	136(%rsp), %r13
	movb	$1, (%rbx,%r11)
	leaq	1(%rax), %rdx
	movq	%rdx, 80(%rsp)
	xorl	%r15d, %r15d
	cmpl	%eax, %ecx
	sete	%r15b
	addq	%r8, %r15
	incq	%r14
	incq	%r11
	movq	112(%rsp), %r8
	cmpq	%r8, %r14
	jne	.LBB24_45
	jmp	.LBB24_1
.LBB24_47:
	movq	112(%rsp), %r8
	jmp	.LBB24_1
.LBB24_49:
	movq	%r9, %r15
	movq	112(%rsp), %r8
	jmp	.LBB24_1
.LBB24_12:
	xorps	%xmm0, %xmm0
	movaps	%xmm0, 32(%rsp)
	movq	$0, 48(%rsp)
	movq	80(%rsp), %rcx
	cmpq	$2147352575, %rcx
	jbe	.LBB24_16
	movb	$1, %bl
	xorl	%eax, %eax
	xorl	%ecx, %ecx
	movq	64(%rsp), %r12
	jmp	.LBB24_22
.LBB24_31:
	xorps	%xmm0, %xmm0
	movaps	%xmm0, 32(%rsp)
	movq	$0, 48(%rsp)
	movq	80(%rsp), %rcx
	cmpq	$2147352575, %rcx
	jbe	.LBB24_33
	movb	$1, %bl
	xorl	%eax, %eax
	xorl	%ecx, %ecx
	movq	64(%rsp), %r12
	jmp	.LBB24_39
.LBB24_41:
	movq	64(%rsp), %rax
	movq	$0, (%rax)
	movb	$0, 8(%rax)
	movq	%rdi, 16(%rax)
	movq	$0, 24(%rax)
	jmp	.LBB24_42
.LBB24_16:
	movq	88(%rsp), %rax
	leaq	(%rax,%r11,4), %rsi
	movq	96(%rsp), %rax
	leaq	(%rax,%r11,8), %rdx
	movl	%ecx, 8(%rsp)
	movq	72(%rsp), %rax
	movq	%rax, (%rsp)
	leaq	32(%rsp), %rdi
	leaq	224(%rsp), %r9
	movq	12664(%rsp), %rcx
	movq	12672(%rsp), %r8
	movq	%r11, %r15
	callq	"read_from::read_up_to"
	cmpb	$0, 32(%rsp)
	movq	64(%rsp), %r12
	je	.LBB24_17
	xorl	%ebx, %ebx
	xorl	%eax, %eax
	testq	%r15, %r15
	movzbl	40(%rsp), %ecx
	cmoveq	%rcx, %r15
	sete	%al
	movq	48(%rsp), %rcx
	cmovneq	%rbx, %rcx
	movq	%r15, %r11
	jmp	.LBB24_22
.LBB24_33:
	movq	88(%rsp), %rax
	leaq	(%rax,%r11,4), %rsi
	movq	96(%rsp), %rax
	leaq	(%rax,%r11,8), %rdx
	movl	%ecx, 8(%rsp)
	movq	72(%rsp), %rax
	movq	%rax, (%rsp)
	leaq	32(%rsp), %rdi
	leaq	144(%rsp), %r9
	movq	12688(%rsp), %rcx
	movq	12696(%rsp), %r8
	movq	%r11, %r15
	callq	"read_from::read_up_to"
	cmpb	$0, 32(%rsp)
	movq	64(%rsp), %r12
	je	.LBB24_34
	xorl	%ecx, %ecx
	xorl	%eax, %eax
	testq	%r15, %r15
	sete	%al
	movzbl	40(%rsp), %edx
	cmoveq	%rdx, %r15
	cmoveq	48(%rsp), %rcx
	movl	%eax, %ebx
	movq	%r15, %r11
	jmp	.LBB24_39
.LBB24_14:
	xorl	%eax, %eax
	xorl	%edx, %edx
	movq	16(%rsp), %r13
	testq	%r13, %r13
	sete	%dl
	cmovneq	%r13, %rcx
	movq	64(%rsp), %rsi
	movq	%rdx, (%rsi)
	sete	8(%rsi)
	cmoveq	%r8, %rax
	jmp	.LBB24_15
.LBB24_73:
	xorl	%eax, %eax
	xorl	%edx, %edx
	movq	16(%rsp), %r13
	testq	%r13, %r13
	sete	%dl
	cmovneq	%r13, %rcx
	cmoveq	%r9, %rax
	movq	64(%rsp), %rsi
	movq	%rdx, (%rsi)
	movb	$0, 8(%rsi)
.LBB24_15:
	movq	%rcx, 16(%rsi)
	movq	%rax, 24(%rsi)
	jmp	.LBB24_42
.LBB24_17:
	movzbl	40(%rsp), %ebx
	movq	48(%rsp), %r14
	addq	%r15, 24(%rsp)
	testb	%bl, %bl
	movq	%r15, %r11
	testq	%r14, %r14
	je	.LBB24_21
	movq	%r14, %r15
	decq	%r15
	movq	24(%rsp), %rbp
	je	.LBB24_20
	movq	%rbp, %rdi
	xorl	%esi, %esi
	movq	%r15, %rdx
	callq	memset@PLT
	movq	16(%rsp), %r11
.LBB24_20:
	movb	$0, (%rbp,%r15)
.LBB24_21:
	addq	%r14, %r11
	xorl	%eax, %eax
	xorl	%ecx, %ecx
.LBB24_22:
	movq	%rax, (%r12)
	movb	%bl, 8(%r12)
	jmp	.LBB24_23
.LBB24_34:
	movzbl	40(%rsp), %ebx
	movq	48(%rsp), %r14
	addq	%r15, 24(%rsp)
	testb	%bl, %bl
	movq	%r15, %r11
	testq	%r14, %r14
	je	.LBB24_38
	movq	%r14, %r15
	decq	%r15
	movq	24(%rsp), %rbp
	je	.LBB24_37
	movq	%rbp, %rdi
	movl	$1, %esi
	movq	%r15, %rdx
	callq	memset@PLT
	movq	16(%rsp), %r11
.LBB24_37:
	movb	$1, (%rbp,%r15)
.LBB24_38:
	addq	%r14, %r11
	xorl	%eax, %eax
	xorl	%ecx, %ecx
.LBB24_39:
	movq	%rax, (%r12)
	movb	%bl, 8(%r12)
.LBB24_23:
	movq	%r11, 16(%r12)
	movq	%rcx, 24(%r12)
.LBB24_42:
	addq	$12600, %rsp
	popq	%rbx
	popq	%r12
	popq	%r13
	popq	%r14
	popq	%r15
	popq	%rbp
	retq
.Lfunc_end24:
	.size	"layered_reading::layered_steps", .Lfunc_end24-"layered_reading::layered_steps"

	.section	".text.scaled_reader::fill","ax",@progbits
	.p2align	4
	.type	"scaled_reader::fill",@function
"scaled_reader::fill":
	pushq	%rbp
	pushq	%r15
	pushq	%r14
	pushq	%r13
	pushq	%r12
	pushq	%rbx
	movq	%rcx, %r11
	movq	%rsi, -64(%rsp)
	movabsq	$-9223372036854775808, %r13
	movq	(%r8), %r12
	movq	8(%r8), %r15
	movq	16(%r8), %rax
	movl	%r15d, %ecx
	movq	%r15, %r8
	shrq	%r8
	orq	%r13, %r8
	notq	%r15
	shrq	%r15
	testb	$1, %cl
	cmoveq	%r8, %r15
	cmpq	$15, %r12
	movq	%rax, -72(%rsp)
	movq	%r12, -40(%rsp)
	movl	%edx, -28(%rsp)
	movq	%r11, -8(%rsp)
	jb	.LBB25_12
	xorl	%ebp, %ebp
	cmpq	$57, %r12
	ja	.LBB25_26
	movq	%r11, %rcx
	subq	$63, %rcx
	cmovaeq	%rcx, %rbp
	jbe	.LBB25_26
	movq	%r12, %rcx
	negq	%rcx
	movq	$-1, %r14
	shrq	%cl, %r14
	testb	%dl, %dl
	je	.LBB25_4
	cmpq	$63, %r11
	movl	$63, %ecx
	cmovbq	%r11, %rcx
	incq	%rcx
	cmpq	%rcx, %r11
	jne	.LBB25_8
	xorl	%ebx, %ebx
	jmp	.LBB25_11
.LBB25_12:
	testb	$1, %dl
	je	.LBB25_13
	testq	%r12, %r12
	sete	%cl
	cmpq	$64, %r11
	setb	%dl
	orb	%cl, %dl
	jne	.LBB25_17
	movq	%r11, %rdx
	movl	$64, %r9d
	movl	$64, %r10d
	movq	%r12, %rcx
	negq	%rcx
	movq	$-1, %rax
	shrq	%cl, %rax
	movq	%rax, -48(%rsp)
	subq	%r12, %r10
	movl	$64, %r11d
	subq	%r12, %r11
	subq	%r12, %r11
	leaq	(%r12,%r12,2), %rcx
	movl	$64, %ebx
	subq	%rcx, %rbx
	leaq	(,%r12,4), %rax
	movq	%rax, -56(%rsp)
	subq	%rax, %r9
	xorl	%r8d, %r8d
	xorl	%ebp, %ebp
	movq	-72(%rsp), %rax
	.p2align	4
.LBB25_25:
	movq	%r8, %rcx
	shrq	$3, %rcx
	movq	-64(%rsp), %rsi
	movq	(%rsi,%rcx), %r12
	movl	%r8d, %ecx
	andb	$4, %cl
	shrq	%cl, %r12
	movq	%r12, %rcx
	andq	-48(%rsp), %rcx
	imulq	%rax, %rcx
	addq	%r15, %rcx
	xorq	%r13, %rcx
	movq	%rcx, (%rdi,%rbp,8)
	movq	%r12, %r14
	movl	%r11d, %ecx
	shlq	%cl, %r14
	movl	%r10d, %ecx
	shrq	%cl, %r14
	imulq	%rax, %r14
	addq	%r15, %r14
	xorq	%r13, %r14
	movq	%r14, 8(%rdi,%rbp,8)
	movq	%r12, %r14
	movl	%ebx, %ecx
	shlq	%cl, %r14
	movl	%r10d, %ecx
	shrq	%cl, %r14
	imulq	%rax, %r14
	addq	%r15, %r14
	xorq	%r13, %r14
	movq	%r14, 16(%rdi,%rbp,8)
	movl	%r9d, %ecx
	shlq	%cl, %r12
	movl	%r10d, %ecx
	shrq	%cl, %r12
	imulq	%rax, %r12
	addq	%r15, %r12
	xorq	%r13, %r12
	movq	%r12, 24(%rdi,%rbp,8)
	addq	$4, %rbp
	addq	$-4, %rdx
	addq	-56(%rsp), %r8
	cmpq	$63, %rdx
	ja	.LBB25_25
	jmp	.LBB25_26
.LBB25_13:
	testq	%r12, %r12
	je	.LBB25_14
	leal	(,%r12,4), %ecx
	movq	%r12, %r8
	shrq	%r8
	andl	$4, %ecx
	movq	%rcx, -48(%rsp)
	cmpq	$1, %rax
	movq	%r8, -56(%rsp)
	jne	.LBB25_20
	cmpq	$72, %r11
	jb	.LBB25_17
	movl	$64, %r10d
	subq	%r12, %r10
	leaq	(%r12,%r12), %rsi
	leaq	(%r12,%r12,2), %r12
	xorl	%ebp, %ebp
	movq	-64(%rsp), %r9
	movq	-72(%rsp), %rax
	.p2align	4
.LBB25_19:
	movq	(%r9), %rdx
	movq	(%r9,%r8), %rbx
	bswapq	%rbx
	movq	-48(%rsp), %rcx
	shlq	%cl, %rbx
	bswapq	%rdx
	movq	%rdx, %r14
	movl	%r10d, %ecx
	shrq	%cl, %r14
	addq	%r15, %r14
	xorq	%r13, %r14
	movq	%r14, (%rdi,%rbp,8)
	movq	%rdx, %r14
	movq	-40(%rsp), %r8
	movl	%r8d, %ecx
	shlq	%cl, %r14
	movl	%r10d, %ecx
	shrq	%cl, %r14
	addq	%r15, %r14
	xorq	%r13, %r14
	movq	%r14, 8(%rdi,%rbp,8)
	movq	%rdx, %r14
	movl	%esi, %ecx
	shlq	%cl, %r14
	movl	%r10d, %ecx
	shrq	%cl, %r14
	addq	%r15, %r14
	movl	%r12d, %ecx
	shlq	%cl, %rdx
	movl	%r10d, %ecx
	shrq	%cl, %rdx
	xorq	%r13, %r14
	movq	%r14, 16(%rdi,%rbp,8)
	addq	%r15, %rdx
	movq	%rbx, %r14
	shrq	%cl, %r14
	xorq	%r13, %rdx
	movq	%rdx, 24(%rdi,%rbp,8)
	addq	%r15, %r14
	movq	%rbx, %rdx
	movl	%r8d, %ecx
	shlq	%cl, %rdx
	movl	%r10d, %ecx
	shrq	%cl, %rdx
	xorq	%r13, %r14
	movq	%r14, 32(%rdi,%rbp,8)
	addq	%r15, %rdx
	movq	%rbx, %r14
	movl	%esi, %ecx
	shlq	%cl, %r14
	movl	%r10d, %ecx
	shrq	%cl, %r14
	xorq	%r13, %rdx
	movq	%rdx, 40(%rdi,%rbp,8)
	addq	%r15, %r14
	xorq	%r13, %r14
	movl	%r12d, %ecx
	shlq	%cl, %rbx
	movl	%r10d, %ecx
	shrq	%cl, %rbx
	movq	%r14, 48(%rdi,%rbp,8)
	addq	%r15, %rbx
	xorq	%r13, %rbx
	movq	%rbx, 56(%rdi,%rbp,8)
	addq	$8, %rbp
	addq	$-8, %r11
	addq	%r8, %r9
	movq	-56(%rsp), %r8
	cmpq	$71, %r11
	ja	.LBB25_19
	jmp	.LBB25_26
.LBB25_14:
	xorl	%ebp, %ebp
	jmp	.LBB25_26
.LBB25_20:
	cmpq	$72, %r11
	jb	.LBB25_17
	movl	$64, %r10d
	subq	%r12, %r10
	leaq	(%r12,%r12), %rax
	movq	%rax, -16(%rsp)
	leaq	(%r12,%r12,2), %rax
	movq	%rax, -24(%rsp)
	xorl	%ebp, %ebp
	movq	-64(%rsp), %r12
	movq	-72(%rsp), %rax
	.p2align	4
.LBB25_22:
	movq	(%r12), %r9
	movq	(%r12,%r8), %rbx
	bswapq	%rbx
	movq	-48(%rsp), %rcx
	shlq	%cl, %rbx
	bswapq	%r9
	movq	%r9, %r14
	movl	%r10d, %ecx
	shrq	%cl, %r14
	imulq	%rax, %r14
	addq	%r15, %r14
	xorq	%r13, %r14
	movq	%r14, (%rdi,%rbp,8)
	movq	%r9, %r14
	movq	-40(%rsp), %rsi
	movl	%esi, %ecx
	shlq	%cl, %r14
	movl	%r10d, %ecx
	shrq	%cl, %r14
	imulq	%rax, %r14
	addq	%r15, %r14
	xorq	%r13, %r14
	movq	%r9, %rdx
	movq	-16(%rsp), %r8
	movl	%r8d, %ecx
	shlq	%cl, %rdx
	movl	%r10d, %ecx
	shrq	%cl, %rdx
	movq	%r14, 8(%rdi,%rbp,8)
	imulq	%rax, %rdx
	addq	%r15, %rdx
	xorq	%r13, %rdx
	movq	-24(%rsp), %r14
	movl	%r14d, %ecx
	shlq	%cl, %r9
	movl	%r10d, %ecx
	shrq	%cl, %r9
	movq	%rdx, 16(%rdi,%rbp,8)
	imulq	%rax, %r9
	addq	%r15, %r9
	movq	%rbx, %rdx
	shrq	%cl, %rdx
	xorq	%r13, %r9
	movq	%r9, 24(%rdi,%rbp,8)
	imulq	%rax, %rdx
	addq	%r15, %rdx
	xorq	%r13, %rdx
	movq	%rdx, 32(%rdi,%rbp,8)
	movq	%rbx, %rdx
	movl	%esi, %ecx
	shlq	%cl, %rdx
	movl	%r10d, %ecx
	shrq	%cl, %rdx
	imulq	%rax, %rdx
	addq	%r15, %rdx
	xorq	%r13, %rdx
	movq	%rdx, 40(%rdi,%rbp,8)
	movq	%rbx, %rdx
	movl	%r8d, %ecx
	shlq	%cl, %rdx
	movl	%r10d, %ecx
	shrq	%cl, %rdx
	imulq	%rax, %rdx
	addq	%r15, %rdx
	xorq	%r13, %rdx
	movq	%rdx, 48(%rdi,%rbp,8)
	movl	%r14d, %ecx
	shlq	%cl, %rbx
	movl	%r10d, %ecx
	shrq	%cl, %rbx
	imulq	%rax, %rbx
	addq	%r15, %rbx
	xorq	%r13, %rbx
	movq	%rbx, 56(%rdi,%rbp,8)
	addq	$8, %rbp
	addq	$-8, %r11
	addq	%rsi, %r12
	movq	-56(%rsp), %r8
	cmpq	$71, %r11
	ja	.LBB25_22
	jmp	.LBB25_26
.LBB25_17:
	xorl	%ebp, %ebp
	movq	-72(%rsp), %rax
	jmp	.LBB25_26
.LBB25_4:
	movl	$64, %r9d
	subq	%r12, %r9
	xorl	%edx, %edx
	xorl	%r10d, %r10d
	.p2align	4
.LBB25_5:
	movq	%rdx, %rcx
	shrq	$3, %rcx
	movq	-64(%rsp), %rsi
	movq	(%rsi,%rcx), %r8
	bswapq	%r8
	movl	%edx, %ecx
	andb	$7, %cl
	shlq	%cl, %r8
	movl	%r9d, %ecx
	shrq	%cl, %r8
	imulq	%rax, %r8
	addq	%r15, %r8
	xorq	%r13, %r8
	movq	%r8, (%rdi,%r10,8)
	incq	%r10
	addq	%r12, %rdx
	cmpq	%rbp, %r10
	jb	.LBB25_5
	jmp	.LBB25_26
.LBB25_8:
	movq	%rbp, %r8
	andq	$-2, %r8
	leaq	(%r12,%r12), %r9
	xorl	%r10d, %r10d
	xorl	%ebx, %ebx
	.p2align	4
.LBB25_9:
	movq	%r10, %rcx
	shrq	$3, %rcx
	movq	-64(%rsp), %rsi
	movq	(%rsi,%rcx), %r11
	movl	%r10d, %ecx
	andb	$6, %cl
	shrq	%cl, %r11
	andq	%r14, %r11
	imulq	%rax, %r11
	addq	%r15, %r11
	xorq	%r13, %r11
	movq	%r11, (%rdi,%rbx,8)
	leaq	(%r12,%r10), %rcx
	movq	%rcx, %r11
	shrq	$3, %r11
	movq	(%rsi,%r11), %r11
	andb	$7, %cl
	shrq	%cl, %r11
	andq	%r14, %r11
	imulq	%rax, %r11
	addq	%r15, %r11
	xorq	%r13, %r11
	movq	%r11, 8(%rdi,%rbx,8)
	addq	$2, %rbx
	addq	%r9, %r10
	cmpq	%rbx, %r8
	jne	.LBB25_9
	testb	$1, %bpl
	je	.LBB25_26
.LBB25_11:
	movq	%rbx, %rcx
	imulq	%r12, %rcx
	movq	%rcx, %r8
	shrq	$3, %r8
	movq	-64(%rsp), %rdx
	movq	(%rdx,%r8), %r8
	andb	$7, %cl
	shrq	%cl, %r8
	andq	%r14, %r8
	imulq	%rax, %r8
	addq	%r15, %r8
	xorq	%r13, %r8
	movq	%r8, (%rdi,%rbx,8)
.LBB25_26:
	movq	-8(%rsp), %r8
	movq	%r8, %r10
	subq	%rbp, %r10
	movl	-28(%rsp), %r14d
	movq	-40(%rsp), %rdx
	jbe	.LBB25_51
	testq	%rdx, %rdx
	je	.LBB25_33
	movl	$64, %r8d
	subq	%rdx, %r8
	leaq	(%rdi,%rbp,8), %r11
	imulq	%rdx, %rbp
	jmp	.LBB25_29
	.p2align	4
.LBB25_48:
	subl	%ebx, %r9d
	shll	$3, %r9d
	movl	%r9d, %ecx
	shlq	%cl, %r12
	orq	%rdx, %r12
	negb	%dil
	movl	%edi, %ecx
	shlq	%cl, %r12
.LBB25_49:
	movq	-72(%rsp), %rax
.LBB25_50:
	movl	%r8d, %ecx
	shrq	%cl, %r12
	imulq	%rax, %r12
	addq	%r15, %r12
	xorq	%r13, %r12
	movq	%r12, (%r11)
	movq	-40(%rsp), %rdx
	addq	%rdx, %rbp
	addq	$8, %r11
	decq	%r10
	je	.LBB25_51
.LBB25_29:
	movq	%rbp, %rbx
	shrq	$3, %rbx
	movl	%ebp, %ecx
	andl	$7, %ecx
	leaq	(%rcx,%rdx), %rdi
	cmpq	$64, %r10
	jb	.LBB25_39
	cmpq	$64, %rdi
	ja	.LBB25_39
	movq	-64(%rsp), %rdx
	movq	(%rdx,%rbx), %r12
	testb	%r14b, %r14b
	je	.LBB25_32
	negb	%dil
	movl	%edi, %ecx
	shlq	%cl, %r12
	jmp	.LBB25_50
	.p2align	4
.LBB25_39:
	leaq	7(%rdi), %r9
	shrq	$3, %r9
	addq	-64(%rsp), %rbx
	cmpq	$8, %rdx
	ja	.LBB25_41
	movzbl	(%rbx), %edx
	movzbl	-1(%rbx,%r9), %r12d
	movl	$1, %ebx
	testb	%r14b, %r14b
	jne	.LBB25_48
	jmp	.LBB25_47
	.p2align	4
.LBB25_41:
	cmpq	$24, %rdx
	ja	.LBB25_43
	movzwl	(%rbx), %edx
	movzwl	-2(%rbx,%r9), %r12d
	movl	$2, %ebx
	testb	%r14b, %r14b
	jne	.LBB25_48
	jmp	.LBB25_47
.LBB25_32:
	bswapq	%r12
	shlq	%cl, %r12
	jmp	.LBB25_50
.LBB25_43:
	cmpq	$56, %rdx
	ja	.LBB25_45
	movl	(%rbx), %edx
	movl	-4(%rbx,%r9), %r12d
	movl	$4, %ebx
	testb	%r14b, %r14b
	jne	.LBB25_48
	jmp	.LBB25_47
.LBB25_45:
	movq	(%rbx), %rdx
	movq	-8(%rbx,%r9), %r12
	movl	$8, %ebx
	testb	%r14b, %r14b
	jne	.LBB25_48
.LBB25_47:
	bswapq	%rdx
	shlq	%cl, %rdx
	bswapq	%r12
	subl	%ebx, %r9d
	shll	$3, %r9d
	subl	%ecx, %r9d
	movl	%r9d, %ecx
	shrq	%cl, %r12
	orq	%rdx, %r12
	jmp	.LBB25_49
.LBB25_33:
	xorq	%r13, %r15
	movq	%r8, %rax
	subq	%rbp, %rax
	cmpq	$4, %rax
	jb	.LBB25_37
	movq	%rax, %rcx
	andq	$-4, %rcx
	movq	%r15, %xmm0
	pshufd	$68, %xmm0, %xmm0
	leaq	(%rdi,%rbp,8), %rdx
	addq	$16, %rdx
	addq	%rcx, %rbp
	xorl	%esi, %esi
	.p2align	4
.LBB25_35:
	movdqu	%xmm0, -16(%rdx,%rsi,8)
	movdqu	%xmm0, (%rdx,%rsi,8)
	addq	$4, %rsi
	cmpq	%rsi, %rcx
	jne	.LBB25_35
	cmpq	%rcx, %rax
	je	.LBB25_51
	.p2align	4
.LBB25_37:
	movq	%r15, (%rdi,%rbp,8)
	incq	%rbp
	cmpq	%rbp, %r8
	jne	.LBB25_37
.LBB25_51:
	popq	%rbx
	popq	%r12
	popq	%r13
	popq	%r14
	popq	%r15
	popq	%rbp
	retq
.Lfunc_end25:
	.size	"scaled_reader::fill", .Lfunc_end25-"scaled_reader::fill"

	.section	.rodata.cst16,"aM",@progbits,16
	.p2align	4, 0x0
.LCPI26_0:
	.zero	16,85
.LCPI26_1:
	.zero	16,51
.LCPI26_2:
	.zero	16,15
.LCPI26_3:
	.short	1
	.short	1
	.short	1
	.short	1
	.short	1
	.short	1
	.short	1
	.short	1
.LCPI26_4:
	.short	32768
	.short	32768
	.short	32768
	.short	32768
	.short	32768
	.short	32768
	.short	32768
	.short	32768
.LCPI26_5:
	.zero	4
	.long	4294967295
	.long	4294967295
	.long	4294967295
	.section	".text.set_check::walk","ax",@progbits
	.p2align	4
	.type	"set_check::walk",@function
"set_check::walk":
	pushq	%rbp
	pushq	%r15
	pushq	%r14
	pushq	%r13
	pushq	%r12
	pushq	%rbx
	movq	%rdi, %r15
	movl	$5, %eax
	testq	%rdx, %rdx
	je	.LBB26_120
	movzbl	(%rsi), %r8d
	movl	$1, %r9d
	testb	%r8b, %r8b
	js	.LBB26_121
.LBB26_2:
	testq	%r8, %r8
	je	.LBB26_127
	movl	%ecx, %eax
	shrl	$16, %eax
	movq	%rax, -8(%rsp)
	movzwl	%cx, %ebp
	movl	%ebp, %r14d
	shrl	$6, %r14d
	movq	%rcx, %rax
	movl	%ebp, %ecx
	andl	$63, %ecx
	movq	$-1, %rdi
	movq	%rcx, -16(%rsp)
	shlq	%cl, %rdi
	movq	%rax, %rcx
	notq	%rdi
	movq	%rdi, -24(%rsp)
	movl	%r14d, %eax
	andl	$-4, %eax
	movq	%rax, -32(%rsp)
	movl	$1, %r13d
	subq	%rdx, %r13
	shrl	$3, %ecx
	andl	$8160, %ecx
	movq	%rcx, -40(%rsp)
	xorl	%r10d, %r10d
	xorl	%edi, %edi
	movq	$0, -64(%rsp)
	movq	$0, -56(%rsp)
	movq	%rbp, -104(%rsp)
	movq	%r14, -96(%rsp)
	movq	%r13, -88(%rsp)
.LBB26_4:
	movq	%rdi, -80(%rsp)
	movl	$5, %edi
	cmpq	%r9, %rdx
	jbe	.LBB26_142
	movzbl	(%rsi,%r9), %eax
	leaq	1(%r9), %r11
	testb	%al, %al
	js	.LBB26_17
	xorl	%r12d, %r12d
	cmpq	%r10, %rax
	jb	.LBB26_140
.LBB26_7:
	cmpq	$32765, %rax
	ja	.LBB26_140
	cmpq	%r11, %rdx
	jbe	.LBB26_142
	movzbl	(%rsi,%r11), %r10d
	leaq	1(%r11), %rbx
	testb	%r10b, %r10b
	js	.LBB26_22
	xorl	%r12d, %r12d
	cmpq	$3, %r10
	cmovael	%r12d, %r10d
	jae	.LBB26_140
.LBB26_11:
	cmpq	%rbx, %rdx
	jbe	.LBB26_142
	movzbl	(%rsi,%rbx), %r9d
	leaq	1(%rbx), %rcx
	testb	%r9b, %r9b
	js	.LBB26_27
	movq	%rcx, %rbx
.LBB26_14:
	movzbl	%r10b, %ecx
	cmpb	$2, %cl
	movq	-80(%rsp), %rdi
	movl	%ecx, -112(%rsp)
	je	.LBB26_32
	cmpl	$1, %ecx
	jne	.LBB26_34
	xorl	%r12d, %r12d
	cmpq	$4095, %r9
	jbe	.LBB26_35
	jmp	.LBB26_140
.LBB26_17:
	cmpq	%rdx, %r11
	jae	.LBB26_142
	movq	%r15, %rbp
	addq	$-128, %rax
	leaq	(%r9,%r13), %r12
	leaq	1(%rsi), %rcx
	leaq	(%rcx,%r9), %r15
	movl	$128, %ebx
	xorl	%r11d, %r11d
	.p2align	4
.LBB26_19:
	movzbl	(%r15,%r11), %r14d
	xorl	%r13d, %r13d
	testq	%r14, %r14
	sete	%r13b
	xorl	%ecx, %ecx
	cmpq	$1, %r14
	setne	%cl
	cmpq	$8, %r11
	cmovel	%ecx, %r13d
	testb	%r13b, %r13b
	jne	.LBB26_129
	testb	%r14b, %r14b
	jns	.LBB26_43
	addq	$-128, %r14
	imulq	%rbx, %r14
	addq	%r14, %rax
	shlq	$7, %rbx
	incq	%r11
	movq	%r12, %rcx
	addq	%r11, %rcx
	jne	.LBB26_19
	jmp	.LBB26_137
.LBB26_22:
	cmpq	%rdx, %rbx
	jae	.LBB26_142
	movq	%r15, %rbp
	addq	$-128, %r10
	leaq	(%r11,%r13), %r12
	leaq	1(%rsi), %rcx
	leaq	(%rcx,%r11), %r15
	movl	$128, %ebx
	xorl	%r9d, %r9d
	.p2align	4
.LBB26_24:
	movzbl	(%r15,%r9), %r14d
	xorl	%ecx, %ecx
	testq	%r14, %r14
	sete	%cl
	xorl	%r13d, %r13d
	cmpq	$1, %r14
	setne	%r13b
	cmpq	$8, %r9
	cmovel	%r13d, %ecx
	testb	%cl, %cl
	jne	.LBB26_135
	testb	%r14b, %r14b
	jns	.LBB26_50
	addq	$-128, %r14
	imulq	%rbx, %r14
	addq	%r14, %r10
	shlq	$7, %rbx
	incq	%r9
	movq	%r12, %rcx
	addq	%r9, %rcx
	jne	.LBB26_24
	jmp	.LBB26_137
.LBB26_27:
	cmpq	%rdx, %rcx
	jae	.LBB26_142
	movq	%r15, -112(%rsp)
	addq	$-128, %r9
	leaq	(%rbx,%r13), %r15
	leaq	1(%rsi), %rcx
	leaq	(%rcx,%rbx), %r14
	movl	$128, %r12d
	xorl	%r11d, %r11d
	.p2align	4
.LBB26_29:
	movzbl	(%r14,%r11), %r13d
	xorl	%ecx, %ecx
	testq	%r13, %r13
	sete	%cl
	xorl	%ebp, %ebp
	cmpq	$1, %r13
	setne	%bpl
	cmpq	$8, %r11
	cmovel	%ebp, %ecx
	testb	%cl, %cl
	jne	.LBB26_138
	testb	%r13b, %r13b
	jns	.LBB26_51
	addq	$-128, %r13
	imulq	%r12, %r13
	addq	%r13, %r9
	shlq	$7, %r12
	incq	%r11
	movq	%r15, %rcx
	addq	%r11, %rcx
	jne	.LBB26_29
	jmp	.LBB26_139
.LBB26_32:
	xorl	%r12d, %r12d
	testq	%r9, %r9
	jne	.LBB26_140
	movl	$8192, %r11d
	cmpq	%rbx, %rdx
	jae	.LBB26_37
	jmp	.LBB26_140
.LBB26_34:
	leaq	-4097(%r9), %rcx
	xorl	%r12d, %r12d
	cmpq	$-4096, %rcx
	jb	.LBB26_140
.LBB26_35:
	cmpq	%rbx, %rdx
	jb	.LBB26_140
	leaq	(%r9,%r9), %r11
.LBB26_37:
	movq	%rdx, %rcx
	subq	%rbx, %rcx
	cmpq	%r11, %rcx
	jb	.LBB26_141
	cmpb	$2, %r10b
	je	.LBB26_44
	movl	-112(%rsp), %r12d
	cmpl	$1, %r12d
	jne	.LBB26_47
	movl	$65536, %r11d
	subq	%r9, %r11
	cmpq	$2, %r9
	jb	.LBB26_79
	cmpq	$5, %r9
	movq	%rbx, -120(%rsp)
	movq	%r11, -72(%rsp)
	jae	.LBB26_53
	movl	$1, %r11d
	movb	$1, %bl
	jmp	.LBB26_69
.LBB26_43:
	imulq	%r14, %rbx
	addq	%rbx, %rax
	addq	%r9, %r11
	addq	$2, %r11
	movq	%rbp, %r15
	movq	-104(%rsp), %rbp
	movq	-96(%rsp), %r14
	movq	-88(%rsp), %r13
	xorl	%r12d, %r12d
	cmpq	%r10, %rax
	jae	.LBB26_7
	jmp	.LBB26_140
.LBB26_44:
	leaq	16(%rsi), %rcx
	movq	%rbx, %r12
	leaq	(%rcx,%rbx), %r11
	pxor	%xmm1, %xmm1
	xorl	%ebx, %ebx
	pxor	%xmm2, %xmm2
	pxor	%xmm0, %xmm0
	.p2align	4
.LBB26_45:
	movdqu	-16(%r11,%rbx,8), %xmm4
	movdqu	(%r11,%rbx,8), %xmm3
	movdqa	%xmm4, %xmm5
	psrlw	$1, %xmm5
	movdqa	.LCPI26_0(%rip), %xmm6
	pand	%xmm6, %xmm5
	psubb	%xmm5, %xmm4
	movdqa	.LCPI26_1(%rip), %xmm5
	movdqa	%xmm4, %xmm7
	pand	%xmm5, %xmm7
	psrlw	$2, %xmm4
	pand	%xmm5, %xmm4
	paddb	%xmm7, %xmm4
	movdqa	%xmm4, %xmm7
	psrlw	$4, %xmm7
	paddb	%xmm4, %xmm7
	movdqa	.LCPI26_2(%rip), %xmm4
	pand	%xmm4, %xmm7
	psadbw	%xmm1, %xmm7
	paddq	%xmm7, %xmm2
	movdqa	%xmm3, %xmm7
	psrlw	$1, %xmm7
	pand	%xmm6, %xmm7
	psubb	%xmm7, %xmm3
	movdqa	%xmm3, %xmm6
	pand	%xmm5, %xmm6
	psrlw	$2, %xmm3
	pand	%xmm5, %xmm3
	paddb	%xmm6, %xmm3
	movdqa	%xmm3, %xmm5
	psrlw	$4, %xmm5
	paddb	%xmm3, %xmm5
	pand	%xmm4, %xmm5
	psadbw	%xmm1, %xmm5
	paddq	%xmm5, %xmm0
	addq	$4, %rbx
	cmpq	$1024, %rbx
	jne	.LBB26_45
	paddq	%xmm2, %xmm0
	pshufd	$238, %xmm0, %xmm1
	paddq	%xmm0, %xmm1
	movq	%xmm1, %r11
	leaq	-4097(%r11), %rcx
	cmpq	$57344, %rcx
	movq	%r12, %rbx
	movl	-112(%rsp), %r12d
	jb	.LBB26_79
	jmp	.LBB26_141
.LBB26_47:
	cmpq	$2, %r9
	jb	.LBB26_52
	cmpq	$5, %r9
	jae	.LBB26_55
	movq	%rbx, %r12
	movl	$1, %r11d
	movb	$1, %bl
	jmp	.LBB26_76
.LBB26_50:
	imulq	%r14, %rbx
	addq	%rbx, %r10
	leaq	(%r11,%r9), %rbx
	addq	$2, %rbx
	movq	%rbp, %r15
	movq	-104(%rsp), %rbp
	movq	-96(%rsp), %r14
	movq	-88(%rsp), %r13
	xorl	%r12d, %r12d
	cmpq	$3, %r10
	cmovael	%r12d, %r10d
	jb	.LBB26_11
	jmp	.LBB26_140
.LBB26_51:
	imulq	%r13, %r12
	addq	%r12, %r9
	addq	%r11, %rbx
	addq	$2, %rbx
	movq	-112(%rsp), %r15
	movq	-104(%rsp), %rbp
	movq	-96(%rsp), %r14
	movq	-88(%rsp), %r13
	jmp	.LBB26_14
.LBB26_52:
	movl	$1, %r11d
	testq	%r9, %r9
	jne	.LBB26_79
	jmp	.LBB26_150
.LBB26_53:
	leaq	-1(%r9), %r14
	cmpq	$17, %r9
	jae	.LBB26_57
	movb	$1, %bl
	xorl	%r12d, %r12d
	jmp	.LBB26_66
.LBB26_55:
	leaq	-1(%r9), %r14
	cmpq	$17, %r9
	jae	.LBB26_61
	movq	%rbx, %r12
	movb	$1, %bl
	xorl	%ebp, %ebp
	jmp	.LBB26_73
.LBB26_57:
	movq	%r14, %r12
	andq	$-16, %r12
	leaq	18(%rsi), %rcx
	leaq	(%rcx,%rbx), %r11
	movdqa	.LCPI26_3(%rip), %xmm0
	xorl	%ebx, %ebx
	movdqa	%xmm0, %xmm1
.LBB26_58:
	movdqu	-18(%r11,%rbx,2), %xmm2
	movdqu	-16(%r11,%rbx,2), %xmm3
	movdqu	-2(%r11,%rbx,2), %xmm4
	movdqu	(%r11,%rbx,2), %xmm5
	movdqa	.LCPI26_4(%rip), %xmm6
	pxor	%xmm6, %xmm2
	pxor	%xmm6, %xmm3
	pcmpgtw	%xmm2, %xmm3
	pand	%xmm3, %xmm1
	pxor	%xmm6, %xmm4
	pxor	%xmm6, %xmm5
	pcmpgtw	%xmm4, %xmm5
	pand	%xmm5, %xmm0
	addq	$16, %rbx
	cmpq	%rbx, %r12
	jne	.LBB26_58
	pand	%xmm1, %xmm0
	psllw	$15, %xmm0
	packsswb	%xmm0, %xmm0
	pmovmskb	%xmm0, %ecx
	cmpb	$-1, %cl
	sete	%bl
	cmpq	%r12, %r14
	jne	.LBB26_65
	movl	-112(%rsp), %r12d
	jmp	.LBB26_71
.LBB26_61:
	movq	%r14, %rbp
	andq	$-16, %rbp
	leaq	18(%rsi), %rcx
	movq	%rbx, %r12
	leaq	(%rcx,%rbx), %r11
	movdqa	.LCPI26_3(%rip), %xmm0
	xorl	%ebx, %ebx
	movdqa	%xmm0, %xmm1
.LBB26_62:
	movdqu	-18(%r11,%rbx,2), %xmm2
	movdqu	-16(%r11,%rbx,2), %xmm3
	movdqu	-2(%r11,%rbx,2), %xmm4
	movdqu	(%r11,%rbx,2), %xmm5
	movdqa	.LCPI26_4(%rip), %xmm6
	pxor	%xmm6, %xmm2
	pxor	%xmm6, %xmm3
	pcmpgtw	%xmm2, %xmm3
	pand	%xmm3, %xmm1
	pxor	%xmm6, %xmm4
	pxor	%xmm6, %xmm5
	pcmpgtw	%xmm4, %xmm5
	pand	%xmm5, %xmm0
	addq	$16, %rbx
	cmpq	%rbx, %rbp
	jne	.LBB26_62
	pand	%xmm1, %xmm0
	psllw	$15, %xmm0
	packsswb	%xmm0, %xmm0
	pmovmskb	%xmm0, %ecx
	cmpb	$-1, %cl
	sete	%bl
	cmpq	%rbp, %r14
	jne	.LBB26_72
	movq	-104(%rsp), %rbp
	jmp	.LBB26_78
.LBB26_65:
	testb	$12, %r14b
	je	.LBB26_118
.LBB26_66:
	andq	$-4, %r14
	leaq	1(%r14), %r11
	movzbl	%bl, %ecx
	movd	%ecx, %xmm1
	movaps	.LCPI26_5(%rip), %xmm0
	movss	%xmm1, %xmm0
	leaq	2(%rsi), %rcx
	movq	-120(%rsp), %rbx
	addq	%rcx, %rbx
	.p2align	4
.LBB26_67:
	movq	(%rbx,%r12,2), %xmm1
	movq	-2(%rbx,%r12,2), %xmm2
	movdqa	.LCPI26_4(%rip), %xmm3
	pxor	%xmm3, %xmm2
	pxor	%xmm3, %xmm1
	pcmpgtw	%xmm2, %xmm1
	punpcklwd	%xmm1, %xmm1
	andps	%xmm1, %xmm0
	addq	$4, %r12
	cmpq	%r12, %r14
	jne	.LBB26_67
	pslld	$31, %xmm0
	movmskps	%xmm0, %ecx
	xorl	$15, %ecx
	sete	%bl
	leaq	-1(%r9), %rcx
	cmpq	%r14, %rcx
	movl	-112(%rsp), %r12d
	je	.LBB26_71
.LBB26_69:
	movq	-120(%rsp), %rcx
	leaq	(%rsi,%rcx), %r14
	.p2align	4
.LBB26_70:
	movzwl	-2(%r14,%r11,2), %ecx
	cmpw	(%r14,%r11,2), %cx
	setb	%cl
	andb	%cl, %bl
	incq	%r11
	cmpq	%r11, %r9
	jne	.LBB26_70
.LBB26_71:
	testb	%bl, %bl
	movq	-96(%rsp), %r14
	movq	-120(%rsp), %rbx
	movq	-72(%rsp), %r11
	jne	.LBB26_79
	jmp	.LBB26_149
.LBB26_72:
	testb	$12, %r14b
	je	.LBB26_119
.LBB26_73:
	andq	$-4, %r14
	leaq	1(%r14), %r11
	movzbl	%bl, %ecx
	movd	%ecx, %xmm1
	movaps	.LCPI26_5(%rip), %xmm0
	movss	%xmm1, %xmm0
	leaq	2(%rsi), %rcx
	leaq	(%rcx,%r12), %rbx
	.p2align	4
.LBB26_74:
	movq	(%rbx,%rbp,2), %xmm1
	movq	-2(%rbx,%rbp,2), %xmm2
	movdqa	.LCPI26_4(%rip), %xmm3
	pxor	%xmm3, %xmm2
	pxor	%xmm3, %xmm1
	pcmpgtw	%xmm2, %xmm1
	punpcklwd	%xmm1, %xmm1
	andps	%xmm1, %xmm0
	addq	$4, %rbp
	cmpq	%rbp, %r14
	jne	.LBB26_74
	pslld	$31, %xmm0
	movmskps	%xmm0, %ecx
	xorl	$15, %ecx
	sete	%bl
	leaq	-1(%r9), %rcx
	cmpq	%r14, %rcx
	movq	-104(%rsp), %rbp
	je	.LBB26_78
.LBB26_76:
	leaq	(%rsi,%r12), %r14
	.p2align	4
.LBB26_77:
	movzwl	-2(%r14,%r11,2), %ecx
	cmpw	(%r14,%r11,2), %cx
	setb	%cl
	andb	%cl, %bl
	incq	%r11
	cmpq	%r11, %r9
	jne	.LBB26_77
.LBB26_78:
	movq	%r9, %r11
	testb	%bl, %bl
	movq	-96(%rsp), %r14
	movq	%r12, %rbx
	movl	-112(%rsp), %r12d
	je	.LBB26_149
.LBB26_79:
	cmpq	-8(%rsp), %rax
	jae	.LBB26_81
	addq	%r11, -64(%rsp)
	jmp	.LBB26_114
.LBB26_81:
	ja	.LBB26_114
	cmpb	$2, %r10b
	movq	%r11, -72(%rsp)
	je	.LBB26_87
	cmpl	$1, %r12d
	jne	.LBB26_90
	testq	%r9, %r9
	movq	%rbx, -120(%rsp)
	je	.LBB26_93
	cmpq	$1, %r9
	jne	.LBB26_96
	xorl	%r11d, %r11d
	xorl	%r12d, %r12d
	xorl	%ebx, %ebx
	jmp	.LBB26_99
.LBB26_87:
	leaq	(%rsi,%rbx), %r12
	movabsq	$72340172838076673, %rdi
	testq	%r14, %r14
	movq	%rbx, -120(%rsp)
	movq	%rdx, -48(%rsp)
	je	.LBB26_94
	cmpl	$256, %ebp
	jae	.LBB26_102
	xorl	%ebp, %ebp
	xorl	%r11d, %r11d
	movq	%rdi, %rbx
	movabsq	$3689348814741910323, %rdx
	jmp	.LBB26_105
.LBB26_90:
	testq	%r9, %r9
	je	.LBB26_95
	cmpq	$1, %r9
	movq	%rbx, -120(%rsp)
	jne	.LBB26_107
	xorl	%ebx, %ebx
	xorl	%r12d, %r12d
	xorl	%r11d, %r11d
	jmp	.LBB26_110
.LBB26_93:
	movb	$1, %r12b
	xorl	%ebx, %ebx
	jmp	.LBB26_101
.LBB26_94:
	xorl	%ebp, %ebp
	movq	%rdi, %rbx
	movabsq	$3689348814741910323, %rdx
	jmp	.LBB26_106
.LBB26_95:
	xorl	%r9d, %r9d
	xorl	%r11d, %r11d
	xorl	%r12d, %r12d
	jmp	.LBB26_113
.LBB26_96:
	movq	%r15, %r13
	movq	%r9, %r14
	andq	$-2, %r14
	leaq	2(%rsi), %rcx
	leaq	(%rcx,%rbx), %r15
	xorl	%r11d, %r11d
	xorl	%r12d, %r12d
	xorl	%ebx, %ebx
.LBB26_97:
	movzwl	-2(%r15,%r11,2), %ecx
	xorl	%edi, %edi
	cmpq	%rcx, %rbp
	seta	%dil
	sete	%cl
	addq	%rbx, %rdi
	orb	%r12b, %cl
	movzwl	(%r15,%r11,2), %r12d
	xorl	%ebx, %ebx
	cmpq	%r12, %rbp
	seta	%bl
	sete	%r12b
	addq	%rdi, %rbx
	orb	%cl, %r12b
	addq	$2, %r11
	cmpq	%r11, %r14
	jne	.LBB26_97
	testb	$1, %r9b
	movq	%r13, %r15
	movq	-96(%rsp), %r14
	movq	-88(%rsp), %r13
	je	.LBB26_100
.LBB26_99:
	movq	%rbx, %rcx
	movq	-120(%rsp), %rdi
	addq	%rsi, %rdi
	movzwl	(%rdi,%r11,2), %edi
	xorl	%ebx, %ebx
	cmpq	%rdi, %rbp
	seta	%bl
	movl	%r12d, %edi
	sete	%r12b
	addq	%rcx, %rbx
	orb	%dil, %r12b
.LBB26_100:
	notb	%r12b
	andb	$1, %r12b
	movq	-80(%rsp), %rdi
.LBB26_101:
	movq	%rbp, %r11
	subq	%rbx, %r11
	jmp	.LBB26_112
.LBB26_102:
	leaq	16(%rsi), %rcx
	leaq	(%rcx,%rbx), %r11
	pxor	%xmm2, %xmm2
	xorl	%ebx, %ebx
	pxor	%xmm1, %xmm1
	pxor	%xmm0, %xmm0
	movq	-40(%rsp), %r13
.LBB26_103:
	movdqu	-16(%r11,%rbx), %xmm4
	movdqu	(%r11,%rbx), %xmm3
	movdqa	%xmm4, %xmm5
	psrlw	$1, %xmm5
	movdqa	.LCPI26_0(%rip), %xmm6
	pand	%xmm6, %xmm5
	psubb	%xmm5, %xmm4
	movdqa	.LCPI26_1(%rip), %xmm5
	movdqa	%xmm4, %xmm7
	pand	%xmm5, %xmm7
	psrlw	$2, %xmm4
	pand	%xmm5, %xmm4
	paddb	%xmm7, %xmm4
	movdqa	%xmm4, %xmm7
	psrlw	$4, %xmm7
	paddb	%xmm4, %xmm7
	movdqa	.LCPI26_2(%rip), %xmm4
	pand	%xmm4, %xmm7
	psadbw	%xmm2, %xmm7
	paddq	%xmm7, %xmm1
	movdqa	%xmm3, %xmm7
	psrlw	$1, %xmm7
	pand	%xmm6, %xmm7
	psubb	%xmm7, %xmm3
	movdqa	%xmm3, %xmm6
	pand	%xmm5, %xmm6
	psrlw	$2, %xmm3
	pand	%xmm5, %xmm3
	paddb	%xmm6, %xmm3
	movdqa	%xmm3, %xmm5
	psrlw	$4, %xmm5
	paddb	%xmm3, %xmm5
	pand	%xmm4, %xmm5
	psadbw	%xmm2, %xmm5
	paddq	%xmm5, %xmm0
	addq	$32, %rbx
	cmpq	%rbx, %r13
	jne	.LBB26_103
	paddq	%xmm1, %xmm0
	pshufd	$238, %xmm0, %xmm1
	paddq	%xmm0, %xmm1
	movq	%xmm1, %rbp
	movq	-32(%rsp), %rcx
	movq	%rcx, %r11
	cmpl	%ecx, %r14d
	movq	%rdi, %rbx
	movabsq	$3689348814741910323, %rdx
	je	.LBB26_106
.LBB26_105:
	movq	(%r12,%r11,8), %rcx
	movq	%rcx, %rdi
	shrq	%rdi
	movq	%r14, %r13
	movq	%r12, %r14
	movq	%rbx, %r12
	movabsq	$6148914691236517205, %rbx
	andq	%rdi, %rbx
	subq	%rbx, %rcx
	movq	%r12, %rbx
	movq	%r14, %r12
	movq	%r13, %r14
	movq	%rcx, %rdi
	andq	%rdx, %rdi
	shrq	$2, %rcx
	andq	%rdx, %rcx
	addq	%rdi, %rcx
	movq	%rcx, %rdi
	shrq	$4, %rdi
	addq	%rcx, %rdi
	movabsq	$1085102592571150095, %rcx
	andq	%rcx, %rdi
	imulq	%rbx, %rdi
	shrq	$56, %rdi
	addq	%rdi, %rbp
	incq	%r11
	cmpq	%r11, %r13
	jne	.LBB26_105
.LBB26_106:
	movq	(%r12,%r14,8), %rdi
	movq	%rdi, %r12
	movq	-16(%rsp), %rcx
	shrq	%cl, %r12
	andq	-24(%rsp), %rdi
	movq	%rdi, %rcx
	shrq	%rcx
	movabsq	$1537228672809129301, %r11
	andq	%rcx, %r11
	subq	%r11, %rdi
	movq	%rdi, %rcx
	andq	%rdx, %rcx
	shrq	$2, %rdi
	andq	%rdx, %rdi
	addq	%rcx, %rdi
	movq	%rdi, %r11
	shrq	$4, %r11
	addq	%rdi, %r11
	movabsq	$1085102592571150095, %rcx
	andq	%rcx, %r11
	imulq	%rbx, %r11
	shrq	$56, %r11
	addq	%rbp, %r11
	movq	-104(%rsp), %rbp
	movq	-88(%rsp), %r13
	movq	-80(%rsp), %rdi
	movq	-120(%rsp), %rbx
	movq	-48(%rsp), %rdx
	jmp	.LBB26_113
.LBB26_107:
	movq	%r15, %r13
	movq	%r9, %r14
	andq	$-2, %r14
	leaq	2(%rsi), %rcx
	leaq	(%rcx,%rbx), %r15
	xorl	%ebx, %ebx
	xorl	%r12d, %r12d
	xorl	%r11d, %r11d
.LBB26_108:
	movzwl	-2(%r15,%rbx,2), %ecx
	xorl	%edi, %edi
	cmpq	%rcx, %rbp
	seta	%dil
	sete	%cl
	addq	%r11, %rdi
	orb	%r12b, %cl
	movzwl	(%r15,%rbx,2), %r12d
	xorl	%r11d, %r11d
	cmpq	%r12, %rbp
	seta	%r11b
	sete	%r12b
	addq	%rdi, %r11
	orb	%cl, %r12b
	addq	$2, %rbx
	cmpq	%rbx, %r14
	jne	.LBB26_108
	testb	$1, %r9b
	movq	%r13, %r15
	movq	-96(%rsp), %r14
	movq	-88(%rsp), %r13
	je	.LBB26_111
.LBB26_110:
	movq	%r11, %rcx
	movq	-120(%rsp), %rdi
	addq	%rsi, %rdi
	movzwl	(%rdi,%rbx,2), %edi
	xorl	%r11d, %r11d
	cmpq	%rdi, %rbp
	seta	%r11b
	movl	%r12d, %edi
	sete	%r12b
	addq	%rcx, %r11
	orb	%dil, %r12b
.LBB26_111:
	andb	$1, %r12b
	movq	-80(%rsp), %rdi
.LBB26_112:
	movq	-120(%rsp), %rbx
.LBB26_113:
	addq	%r11, -64(%rsp)
	orb	%r12b, %dil
	movl	-112(%rsp), %r12d
	movq	-72(%rsp), %r11
.LBB26_114:
	cmpb	$2, %r10b
	je	.LBB26_116
	cmpl	$1, %r12d
	addq	%r9, %r9
	jmp	.LBB26_117
.LBB26_116:
	movl	$8192, %r9d
.LBB26_117:
	addq	%r11, -56(%rsp)
	andb	$1, %dil
	addq	%rbx, %r9
	incq	%rax
	movq	%rax, %r10
	decq	%r8
	jne	.LBB26_4
	jmp	.LBB26_144
.LBB26_118:
	orq	$1, %r12
	movq	%r12, %r11
	movl	-112(%rsp), %r12d
	jmp	.LBB26_69
.LBB26_119:
	orq	$1, %rbp
	movq	%rbp, %r11
	movq	-104(%rsp), %rbp
	jmp	.LBB26_76
.LBB26_120:
	xorl	%r9d, %r9d
	jmp	.LBB26_131
.LBB26_121:
	cmpq	$1, %rdx
	je	.LBB26_131
	movq	%r8, %r10
	addq	$-128, %r10
	movl	$1, %r11d
	subq	%rdx, %r11
	movl	$128, %r8d
	movl	$2, %r9d
	.p2align	4
.LBB26_123:
	movzbl	-1(%rsi,%r9), %ebx
	xorl	%ebp, %ebp
	testq	%rbx, %rbx
	sete	%bpl
	xorl	%r14d, %r14d
	cmpq	$1, %rbx
	setne	%r14b
	cmpq	$10, %r9
	cmovel	%r14d, %ebp
	testb	%bpl, %bpl
	jne	.LBB26_130
	testb	%bl, %bl
	jns	.LBB26_132
	addq	$-128, %rbx
	imulq	%r8, %rbx
	addq	%rbx, %r10
	shlq	$7, %r8
	leaq	(%r11,%r9), %rbx
	incq	%rbx
	incq	%r9
	cmpq	$2, %rbx
	jne	.LBB26_123
	movq	%rdx, %r9
	jmp	.LBB26_131
.LBB26_127:
	xorl	%edi, %edi
	xorl	%ecx, %ecx
	xorl	%r12d, %r12d
	cmpq	%rdx, %r9
	jne	.LBB26_145
.LBB26_128:
	xorl	%eax, %eax
	movq	%rcx, %rdx
	jmp	.LBB26_147
.LBB26_129:
	leaq	(%r9,%r11), %rdx
	incq	%rdx
	jmp	.LBB26_136
.LBB26_130:
	decq	%r9
	movl	$6, %eax
.LBB26_131:
	movq	$1, (%r15)
	movq	%rax, 8(%r15)
	movq	%r9, 16(%r15)
	movq	$0, 24(%r15)
	jmp	.LBB26_148
.LBB26_132:
	imulq	%rbx, %r8
	addq	%r10, %r8
	cmpq	$32766, %r8
	jbe	.LBB26_2
	movq	$1, (%r15)
	movq	$11, 8(%r15)
	pxor	%xmm0, %xmm0
	movdqu	%xmm0, 16(%r15)
	jmp	.LBB26_148
.LBB26_135:
	leaq	(%r11,%r9), %rdx
	incq	%rdx
.LBB26_136:
	movl	$6, %edi
.LBB26_137:
	xorl	%r12d, %r12d
	movq	%rbp, %r15
	jmp	.LBB26_143
.LBB26_138:
	leaq	(%rbx,%r11), %rdx
	incq	%rdx
	movl	$6, %edi
.LBB26_139:
	xorl	%r12d, %r12d
	movq	-112(%rsp), %r15
	jmp	.LBB26_143
.LBB26_140:
	movl	$11, %edi
	xorl	%edx, %edx
	jmp	.LBB26_143
.LBB26_141:
	xorl	%edx, %edx
	movl	$11, %edi
.LBB26_142:
	xorl	%r12d, %r12d
.LBB26_143:
	movl	$1, %eax
	jmp	.LBB26_147
.LBB26_144:
	movzbl	%dil, %r12d
	movq	-56(%rsp), %rdi
	movq	-64(%rsp), %rcx
	cmpq	%rdx, %r9
	je	.LBB26_128
.LBB26_145:
	movl	$11, %edi
	movl	$1, %eax
	xorl	%edx, %edx
.LBB26_146:
	xorl	%r12d, %r12d
.LBB26_147:
	movq	%rax, (%r15)
	movq	%rdi, 8(%r15)
	movq	%rdx, 16(%r15)
	movq	%r12, 24(%r15)
.LBB26_148:
	popq	%rbx
	popq	%r12
	popq	%r13
	popq	%r14
	popq	%r15
	popq	%rbp
	retq
.LBB26_149:
	movl	$1, %eax
	xorl	%edx, %edx
	jmp	.LBB26_151
.LBB26_150:
	xorl	%edx, %edx
	movl	$1, %eax
.LBB26_151:
	movl	$11, %edi
	jmp	.LBB26_146
.Lfunc_end26:
	.size	"set_check::walk", .Lfunc_end26-"set_check::walk"

	.section	".text.writer::write_checked","ax",@progbits
	.p2align	4
	.type	"writer::write_checked",@function
"writer::write_checked":
	pushq	%rbp
	pushq	%r15
	pushq	%r14
	pushq	%r13
	pushq	%r12
	pushq	%rbx
	subq	$3072, %rsp
	movq	$0, (%rsp)
	subq	$1384, %rsp
	movq	%rdi, %rbx
	movq	4512(%rsp), %r14
	xorps	%xmm0, %xmm0
	movaps	%xmm0, 64(%rsp)
	movq	$0, 80(%rsp)
	testq	%r14, %r14
	je	.LBB27_38
	cmpq	$1, %r14
	je	.LBB27_36
	cmpq	$256, %r14
	jbe	.LBB27_3
.LBB27_36:
	movq	$1, (%rbx)
	movq	$15, 8(%rbx)
	movq	$0, 16(%rbx)
	jmp	.LBB27_39
.LBB27_3:
	movl	$1, %eax
	.p2align	4
.LBB27_5:
	movq	-8(%r9,%rax,8), %rdi
	cmpq	(%r9,%rax,8), %rdi
	jge	.LBB27_36
	incq	%rax
	cmpq	%rax, %r14
	jne	.LBB27_5
	xorps	%xmm0, %xmm0
	movaps	%xmm0, 336(%rsp)
	movaps	%xmm0, 320(%rsp)
	movaps	%xmm0, 304(%rsp)
	movaps	%xmm0, 288(%rsp)
	movaps	%xmm0, 272(%rsp)
	movaps	%xmm0, 256(%rsp)
	movaps	%xmm0, 240(%rsp)
	movaps	%xmm0, 224(%rsp)
	movaps	%xmm0, 208(%rsp)
	movaps	%xmm0, 192(%rsp)
	movaps	%xmm0, 176(%rsp)
	movaps	%xmm0, 160(%rsp)
	movaps	%xmm0, 144(%rsp)
	movaps	%xmm0, 128(%rsp)
	movaps	%xmm0, 112(%rsp)
	movaps	%xmm0, 96(%rsp)
	cmpq	$127, %r8
	ja	.LBB27_20
	movaps	%xmm0, 592(%rsp)
	movaps	%xmm0, 576(%rsp)
	movaps	%xmm0, 560(%rsp)
	movaps	%xmm0, 544(%rsp)
	movaps	%xmm0, 528(%rsp)
	movaps	%xmm0, 512(%rsp)
	movaps	%xmm0, 496(%rsp)
	movaps	%xmm0, 480(%rsp)
	movaps	%xmm0, 464(%rsp)
	movaps	%xmm0, 448(%rsp)
	movaps	%xmm0, 432(%rsp)
	movaps	%xmm0, 416(%rsp)
	movaps	%xmm0, 400(%rsp)
	movaps	%xmm0, 384(%rsp)
	movaps	%xmm0, 368(%rsp)
	movaps	%xmm0, 352(%rsp)
	testq	%r8, %r8
	je	.LBB27_33
	xorl	%eax, %eax
	.p2align	4
.LBB27_9:
	movq	(%rcx,%rax,8), %rdi
	movq	%rdi, %r10
	shrq	$32, %r10
	movl	$2147483648, %r11d
	xorl	%r10d, %r11d
	imull	$1969558475, %edi, %r10d
	imull	$898614065, %r11d, %r11d
	addl	%r10d, %r11d
	shrl	$24, %r11d
	movzbl	352(%rsp,%r11), %r10d
	cmpq	%r10, %r14
	jbe	.LBB27_11
	cmpq	%rdi, (%r9,%r10,8)
	je	.LBB27_17
.LBB27_11:
	xorl	%r10d, %r10d
	movq	%r14, %r15
	jmp	.LBB27_12
	.p2align	4
.LBB27_14:
	movq	%r13, %r15
	cmpq	%r15, %r10
	jae	.LBB27_16
.LBB27_12:
	movq	%r15, %r12
	subq	%r10, %r12
	shrq	%r12
	leaq	(%r12,%r10), %r13
	cmpq	%rdi, (%r9,%r13,8)
	jge	.LBB27_14
	addq	%r12, %r10
	incq	%r10
	cmpq	%r15, %r10
	jb	.LBB27_12
.LBB27_16:
	movb	%r10b, 352(%rsp,%r11)
.LBB27_17:
	cmpq	%r14, %r10
	jae	.LBB27_36
	cmpq	%rdi, (%r9,%r10,8)
	jne	.LBB27_36
	movb	$1, 96(%rsp,%r10)
	incq	%rax
	cmpq	%r8, %rax
	jne	.LBB27_9
	jmp	.LBB27_33
.LBB27_20:
	movq	%rsi, 48(%rsp)
	movq	%rdx, 56(%rsp)
	leaq	352(%rsp), %rdi
	xorl	%r13d, %r13d
	movl	$4096, %edx
	xorl	%esi, %esi
	movq	%r9, %rbp
	movq	%r8, %r12
	movq	%rcx, %r15
	callq	memset@PLT
	movq	%r15, %rcx
	movq	%r12, %r8
	movq	%rbp, %r9
	.p2align	4
.LBB27_21:
	movq	(%rcx,%r13,8), %rax
	movq	%rax, %rdx
	shrq	$32, %rdx
	movl	$2147483648, %esi
	xorl	%edx, %esi
	imull	$1969558475, %eax, %edx
	imull	$898614065, %esi, %esi
	addl	%edx, %esi
	shrl	$20, %esi
	movzbl	352(%rsp,%rsi), %edx
	cmpq	%rdx, %r14
	jbe	.LBB27_23
	cmpq	%rax, (%r9,%rdx,8)
	je	.LBB27_29
.LBB27_23:
	xorl	%edx, %edx
	movq	%r14, %rdi
	jmp	.LBB27_24
	.p2align	4
.LBB27_26:
	movq	%r11, %rdi
	cmpq	%rdi, %rdx
	jae	.LBB27_28
.LBB27_24:
	movq	%rdi, %r10
	subq	%rdx, %r10
	shrq	%r10
	leaq	(%r10,%rdx), %r11
	cmpq	%rax, (%r9,%r11,8)
	jge	.LBB27_26
	addq	%r10, %rdx
	incq	%rdx
	cmpq	%rdi, %rdx
	jb	.LBB27_24
.LBB27_28:
	movb	%dl, 352(%rsp,%rsi)
.LBB27_29:
	cmpq	%r14, %rdx
	jae	.LBB27_36
	cmpq	%rax, (%r9,%rdx,8)
	jne	.LBB27_36
	movb	$1, 96(%rsp,%rdx)
	incq	%r13
	cmpq	%r8, %r13
	jne	.LBB27_21
	movq	56(%rsp), %rdx
	movq	48(%rsp), %rsi
.LBB27_33:
	xorl	%eax, %eax
	.p2align	4
.LBB27_34:
	cmpq	%rax, %r14
	je	.LBB27_37
	cmpb	$0, 96(%rsp,%rax)
	leaq	1(%rax), %rax
	jne	.LBB27_34
	jmp	.LBB27_36
.LBB27_37:
	movq	%r9, %rdi
	movq	%rsi, 48(%rsp)
	movq	%r14, %rsi
	movq	%rdx, %r12
	movq	%r8, %rdx
	movq	%r9, %r13
	movq	%r8, %r15
	movq	%rcx, %rbp
	callq	"table_values::saves"
	movq	48(%rsp), %rsi
	movq	%r12, %rdx
	movq	%rbp, %rcx
	movq	%r15, %r8
	movq	%r13, %r9
	testb	%al, %al
	je	.LBB27_36
.LBB27_38:
	movq	4536(%rsp), %rax
	movq	4528(%rsp), %rdi
	movl	4520(%rsp), %r10d
	xorl	%r11d, %r11d
	testq	%r14, %r14
	setne	%r11b
	movq	%rax, 32(%rsp)
	movq	%rdi, 24(%rsp)
	movl	%r10d, 16(%rsp)
	movq	%r14, (%rsp)
	leal	(%r11,%r11,2), %eax
	movl	%eax, 8(%rsp)
	leaq	64(%rsp), %rdi
	callq	"writer::write_by"
	movzbl	64(%rsp), %eax
	movq	%rax, (%rbx)
	movups	72(%rsp), %xmm0
	movups	%xmm0, 8(%rbx)
.LBB27_39:
	addq	$4456, %rsp
	popq	%rbx
	popq	%r12
	popq	%r13
	popq	%r14
	popq	%r15
	popq	%rbp
	retq
.Lfunc_end27:
	.size	"writer::write_checked", .Lfunc_end27-"writer::write_checked"

	.section	.rodata.cst16,"aM",@progbits,16
	.p2align	4, 0x0
.LCPI28_0:
	.quad	-9223372036854775808
	.quad	-9223372036854775808
.LCPI28_1:
	.quad	-9223372034707292160
	.quad	-9223372034707292160
.LCPI28_2:
	.quad	2147483648
	.quad	2147483648
	.section	".text.writer::write_by","ax",@progbits
	.p2align	4
	.type	"writer::write_by",@function
"writer::write_by":
	pushq	%rbp
	pushq	%r15
	pushq	%r14
	pushq	%r13
	pushq	%r12
	pushq	%rbx
	subq	$3072, %rsp
	movq	$0, (%rsp)
	subq	$1256, %rsp
	movq	%r9, %r12
	movq	%r8, %rbx
	movq	%rdx, 88(%rsp)
	movq	%rsi, %r14
	movq	%rdi, 160(%rsp)
	movzbl	4392(%rsp), %edi
	movl	4400(%rsp), %r8d
	cmpl	$2, %edi
	movq	%rdi, 48(%rsp)
	movq	%rcx, 32(%rsp)
	jae	.LBB28_4
	pxor	%xmm0, %xmm0
	movdqa	%xmm0, 224(%rsp)
	movq	$0, 240(%rsp)
	leaq	224(%rsp), %rdi
	movq	%rcx, %rsi
	movq	%rbx, %rdx
	callq	"scaling::scale_of"
	movq	48(%rsp), %rdi
	movq	240(%rsp), %rcx
	movl	%edi, %edx
	notb	%dl
	movl	$127, %eax
	bsrq	%rcx, %rax
	xorq	$63, %rax
	cmpq	$4, %rcx
	setb	%sil
	orb	%dl, %sil
	testb	$1, %sil
	jne	.LBB28_6
	shrq	$32, %rcx
	jne	.LBB28_9
	movl	$67, %r15d
	subl	%eax, %r15d
	andl	$124, %r15d
	jmp	.LBB28_10
.LBB28_4:
	jne	.LBB28_7
	pxor	%xmm0, %xmm0
	movdqa	%xmm0, 224(%rsp)
	movq	$0, 240(%rsp)
	leaq	224(%rsp), %rdi
	movq	%rcx, %rsi
	movq	%rbx, %rdx
	callq	"scaling::scale_of"
	movl	4400(%rsp), %r8d
	movq	48(%rsp), %rdi
	movq	232(%rsp), %rdx
	xorl	%r15d, %r15d
	jmp	.LBB28_8
.LBB28_6:
	movl	$64, %r15d
	subq	%rax, %r15
	jmp	.LBB28_10
.LBB28_7:
	movq	4384(%rsp), %rdx
	leaq	-1(%rdx), %rax
	movl	$127, %r15d
	bsrq	%rax, %r15
	xorq	$-64, %r15
	addq	$65, %r15
.LBB28_8:
	movq	$0, 72(%rsp)
	jmp	.LBB28_11
.LBB28_9:
	movl	$71, %r15d
	subl	%eax, %r15d
	andl	$120, %r15d
.LBB28_10:
	movl	4400(%rsp), %r8d
	movq	224(%rsp), %rax
	movq	%rax, 72(%rsp)
	movq	232(%rsp), %rdx
.LBB28_11:
	movl	%r8d, %eax
	movq	88(%rsp), %rsi
	testq	%rsi, %rsi
	movq	%rbx, 16(%rsp)
	movq	%rdx, 40(%rsp)
	movq	%rax, 8(%rsp)
	je	.LBB28_21
	movb	$17, %cl
	subb	%al, %cl
	movl	$1, %eax
	shlq	%cl, %rax
	addq	$8192, %rax
	testl	%r8d, %r8d
	movl	$8192, %ecx
	cmovneq	%rax, %rcx
	xorl	%eax, %eax
	movq	%rsi, %rdx
	movq	%r14, %rsi
	jmp	.LBB28_15
	.p2align	4
.LBB28_13:
	xorl	%r9d, %r9d
.LBB28_14:
	movzwl	2(%rsi,%r9,4), %r8d
	xorl	%r10d, %r10d
	cmpl	%r8d, %edi
	sete	%r10b
	addq	%r9, %r10
	leaq	(%rsi,%r10,4), %rsi
	leaq	(%r10,%r10), %rdi
	xorl	%r8d, %r8d
	cmpq	$65536, %r10
	cmovbq	%rcx, %r8
	cmpq	$4096, %r10
	cmovbq	%rdi, %r8
	addq	%r8, %rax
	addq	$4, %rax
	subq	%r10, %rdx
	je	.LBB28_20
.LBB28_15:
	movzwl	2(%rsi), %edi
	cmpq	$1, %rdx
	je	.LBB28_13
	cmpq	$16, %rdx
	movl	$16, %r9d
	movl	$16, %r8d
	cmovbq	%rdx, %r8
	movl	%r8d, %r8d
	movzwl	-2(%rsi,%r8,4), %r8d
	cmpl	%r8d, %edi
	movl	$65536, %r8d
	cmovneq	%r9, %r8
	cmpq	%rdx, %r8
	cmovaeq	%rdx, %r8
	xorl	%r10d, %r10d
	jmp	.LBB28_18
	.p2align	4
.LBB28_17:
	subq	%r11, %r8
	movq	%r9, %r10
	cmpq	$1, %r8
	jbe	.LBB28_14
.LBB28_18:
	movq	%r8, %r11
	shrq	%r11
	leaq	(%r11,%r10), %r9
	movzwl	2(%rsi,%r9,4), %ebx
	cmpl	%ebx, %edi
	je	.LBB28_17
	movq	%r10, %r9
	jmp	.LBB28_17
.LBB28_20:
	movq	88(%rsp), %rcx
	movl	-4(%r14,%rcx,4), %ecx
	shrl	$16, %ecx
	testl	%ecx, %ecx
	leal	16(,%rcx,8), %edx
	cmovel	%ecx, %edx
	leal	2(%rcx), %esi
	leaq	6(%rax,%rdx), %rax
	movq	%rax, 80(%rsp)
	cmovel	%ecx, %esi
	movq	%rsi, 24(%rsp)
	movq	16(%rsp), %rbx
	movq	40(%rsp), %rdx
	movq	48(%rsp), %rdi
	jmp	.LBB28_22
.LBB28_21:
	movl	$1, %eax
	movq	%rax, 24(%rsp)
	movl	$14, %eax
	movq	%rax, 80(%rsp)
.LBB28_22:
	movzbl	%dil, %ecx
	cmpb	$2, %dil
	movq	%r12, 56(%rsp)
	movq	%r14, 176(%rsp)
	movq	%r15, 152(%rsp)
	movl	%ecx, 108(%rsp)
	jae	.LBB28_24
	movq	%r15, %rcx
	imulq	%rbx, %rcx
	addq	$7, %rcx
	shrq	$3, %rcx
	jmp	.LBB28_51
.LBB28_24:
	cmpl	$2, %ecx
	jne	.LBB28_49
	movq	%rbx, %rax
	shrq	$14, %rax
	movl	%ebx, %edx
	andl	$16383, %edx
	addl	$16383, %edx
	shrl	$14, %edx
	addq	%rax, %rdx
	je	.LBB28_50
	movabsq	$-9223372036854775808, %r9
	leaq	(%rdx,%rdx,4), %rax
	leaq	(%rax,%rax,4), %rcx
	xorl	%r11d, %r11d
	movq	32(%rsp), %r14
	movq	%rbx, %rax
	movq	%rdx, 96(%rsp)
	jmp	.LBB28_29
	.p2align	4
.LBB28_27:
	movq	%r15, %rax
	xorl	%edx, %edx
	divq	%rsi
.LBB28_28:
	movq	56(%rsp), %r12
	movl	$127, %edx
	bsrq	%rax, %rdx
	xorq	$-64, %rdx
	addq	$65, %rdx
	imulq	%r10, %rdx
	addq	$7, %rdx
	shrq	$3, %rdx
	addq	%rdx, %rcx
	incq	%r11
	movq	64(%rsp), %rax
	addq	$-16384, %rax
	addq	$131072, %r14
	movq	96(%rsp), %rdx
	cmpq	%rdx, %r11
	je	.LBB28_51
.LBB28_29:
	cmpq	$16384, %rax
	movl	$16384, %edx
	movq	%rax, 64(%rsp)
	cmovbq	%rax, %rdx
	movl	$16384, %eax
	movq	%r11, %rsi
	shlq	$14, %rsi
	movq	%rbx, %r10
	subq	%rsi, %r10
	cmpq	$16384, %r10
	cmovaeq	%rax, %r10
	movq	%r9, %rdi
	movq	%r9, %r15
	cmpq	%rsi, %rbx
	jne	.LBB28_33
.LBB28_30:
	movq	40(%rsp), %rsi
	testq	%rsi, %rsi
	je	.LBB28_245
	subq	%rdi, %r15
	movq	%r15, %rax
	orq	%rsi, %rax
	shrq	$32, %rax
	movq	16(%rsp), %rbx
	jne	.LBB28_27
	movl	%r15d, %eax
	xorl	%edx, %edx
	divl	%esi
	jmp	.LBB28_28
	.p2align	4
.LBB28_33:
	movq	%r11, %rax
	shlq	$17, %rax
	movq	32(%rsp), %rsi
	movq	(%rsi,%rax), %r15
	xorq	%r9, %r15
	xorl	%r12d, %r12d
	movq	%r15, %rdi
	jmp	.LBB28_35
	.p2align	4
.LBB28_34:
	movq	%r8, %r12
	cmpq	%r10, %r8
	jae	.LBB28_30
.LBB28_35:
	movq	%r10, %rbx
	subq	%r12, %rbx
	cmpq	$1024, %rbx
	movl	$1024, %esi
	movl	$1024, %r8d
	cmovbq	%rbx, %r8
	leaq	(,%r12,8), %rbp
	cmpq	$4, %rbx
	jae	.LBB28_37
	xorl	%ebx, %ebx
	jmp	.LBB28_40
	.p2align	4
.LBB28_37:
	movl	%r8d, %ebx
	andl	$2044, %ebx
	movq	%r15, %xmm0
	pshufd	$68, %xmm0, %xmm0
	movq	%rdi, %xmm1
	pshufd	$68, %xmm1, %xmm3
	movq	%rdx, %rax
	subq	%r12, %rax
	cmpq	$1024, %rax
	cmovaeq	%rsi, %rax
	andl	$2044, %eax
	leaq	(%r14,%rbp), %rdi
	xorl	%r13d, %r13d
	movdqa	%xmm3, %xmm4
	movdqa	%xmm0, %xmm2
	.p2align	4
.LBB28_38:
	movdqu	(%rdi,%r13,8), %xmm8
	movdqu	16(%rdi,%r13,8), %xmm6
	movdqa	.LCPI28_0(%rip), %xmm5
	movdqa	%xmm8, %xmm7
	pxor	%xmm5, %xmm7
	pxor	%xmm6, %xmm5
	movdqa	.LCPI28_1(%rip), %xmm1
	movdqa	%xmm3, %xmm9
	pxor	%xmm1, %xmm9
	movdqa	.LCPI28_2(%rip), %xmm10
	pxor	%xmm10, %xmm8
	movdqa	%xmm9, %xmm11
	pcmpgtd	%xmm8, %xmm11
	pshufd	$160, %xmm11, %xmm12
	pcmpeqd	%xmm8, %xmm9
	pshufd	$245, %xmm9, %xmm9
	pand	%xmm12, %xmm9
	pshufd	$245, %xmm11, %xmm11
	por	%xmm9, %xmm11
	movdqa	%xmm7, %xmm9
	pand	%xmm11, %xmm9
	pandn	%xmm3, %xmm11
	movdqa	%xmm11, %xmm3
	por	%xmm9, %xmm3
	movdqa	%xmm4, %xmm9
	pxor	%xmm1, %xmm9
	pxor	%xmm10, %xmm6
	movdqa	%xmm9, %xmm10
	pcmpgtd	%xmm6, %xmm10
	pshufd	$160, %xmm10, %xmm11
	pcmpeqd	%xmm6, %xmm9
	pshufd	$245, %xmm9, %xmm9
	pand	%xmm11, %xmm9
	pshufd	$245, %xmm10, %xmm10
	por	%xmm9, %xmm10
	movdqa	%xmm5, %xmm9
	pand	%xmm10, %xmm9
	pandn	%xmm4, %xmm10
	movdqa	%xmm10, %xmm4
	por	%xmm9, %xmm4
	movdqa	%xmm0, %xmm9
	pxor	%xmm1, %xmm9
	movdqa	%xmm8, %xmm10
	pcmpgtd	%xmm9, %xmm10
	pshufd	$160, %xmm10, %xmm11
	pcmpeqd	%xmm8, %xmm9
	pshufd	$245, %xmm9, %xmm8
	pand	%xmm11, %xmm8
	pshufd	$245, %xmm10, %xmm9
	por	%xmm8, %xmm9
	pand	%xmm9, %xmm7
	pandn	%xmm0, %xmm9
	movdqa	%xmm9, %xmm0
	por	%xmm7, %xmm0
	movdqa	%xmm2, %xmm7
	pxor	%xmm1, %xmm7
	movdqa	%xmm6, %xmm8
	pcmpgtd	%xmm7, %xmm8
	pshufd	$160, %xmm8, %xmm9
	pcmpeqd	%xmm6, %xmm7
	pshufd	$245, %xmm7, %xmm6
	pand	%xmm9, %xmm6
	pshufd	$245, %xmm8, %xmm7
	por	%xmm6, %xmm7
	pand	%xmm7, %xmm5
	pandn	%xmm2, %xmm7
	movdqa	%xmm7, %xmm2
	por	%xmm5, %xmm2
	addq	$4, %r13
	cmpq	%r13, %rax
	jne	.LBB28_38
	movdqa	%xmm3, %xmm5
	pxor	%xmm1, %xmm5
	movdqa	%xmm4, %xmm6
	pxor	%xmm1, %xmm6
	movdqa	%xmm6, %xmm7
	pcmpgtd	%xmm5, %xmm7
	pshufd	$160, %xmm7, %xmm8
	pcmpeqd	%xmm5, %xmm6
	pshufd	$245, %xmm6, %xmm5
	pand	%xmm8, %xmm5
	pshufd	$245, %xmm7, %xmm6
	por	%xmm5, %xmm6
	pand	%xmm6, %xmm3
	pandn	%xmm4, %xmm6
	por	%xmm3, %xmm6
	pshufd	$238, %xmm6, %xmm3
	movdqa	%xmm6, %xmm4
	pxor	%xmm1, %xmm4
	movdqa	%xmm3, %xmm5
	pxor	%xmm1, %xmm5
	movdqa	%xmm5, %xmm7
	pcmpgtd	%xmm4, %xmm7
	pshufd	$160, %xmm7, %xmm8
	pcmpeqd	%xmm4, %xmm5
	pshufd	$245, %xmm5, %xmm4
	pand	%xmm8, %xmm4
	pshufd	$245, %xmm7, %xmm5
	por	%xmm4, %xmm5
	pand	%xmm5, %xmm6
	pandn	%xmm3, %xmm5
	por	%xmm6, %xmm5
	movq	%xmm5, %rdi
	movdqa	%xmm2, %xmm3
	pxor	%xmm1, %xmm3
	movdqa	%xmm0, %xmm4
	pxor	%xmm1, %xmm4
	movdqa	%xmm4, %xmm5
	pcmpgtd	%xmm3, %xmm5
	pshufd	$160, %xmm5, %xmm6
	pcmpeqd	%xmm3, %xmm4
	pshufd	$245, %xmm4, %xmm3
	pand	%xmm6, %xmm3
	pshufd	$245, %xmm5, %xmm4
	por	%xmm3, %xmm4
	pand	%xmm4, %xmm0
	pandn	%xmm2, %xmm4
	por	%xmm0, %xmm4
	pshufd	$238, %xmm4, %xmm0
	movdqa	%xmm4, %xmm2
	pxor	%xmm1, %xmm2
	pxor	%xmm0, %xmm1
	movdqa	%xmm2, %xmm3
	pcmpgtd	%xmm1, %xmm3
	pshufd	$160, %xmm3, %xmm5
	pcmpeqd	%xmm2, %xmm1
	pshufd	$245, %xmm1, %xmm1
	pand	%xmm5, %xmm1
	pshufd	$245, %xmm3, %xmm2
	por	%xmm1, %xmm2
	pand	%xmm2, %xmm4
	pandn	%xmm0, %xmm2
	por	%xmm4, %xmm2
	movq	%xmm2, %r15
	cmpq	%rbx, %r8
	je	.LBB28_42
.LBB28_40:
	movq	%rdx, %r13
	subq	%r12, %r13
	cmpq	$1024, %r13
	cmovbq	%r13, %rsi
	leaq	(%r14,%rbp), %r13
	.p2align	4
.LBB28_41:
	movq	%r15, %rax
	movq	(%r13,%rbx,8), %r15
	xorq	%r9, %r15
	cmpq	%rdi, %r15
	cmovbq	%r15, %rdi
	cmpq	%rax, %r15
	cmovbeq	%rax, %r15
	incq	%rbx
	cmpq	%rbx, %rsi
	jne	.LBB28_41
.LBB28_42:
	addq	%r12, %r8
	movq	%r10, %rax
	subq	%r8, %rax
	cmpq	$128, %rax
	jb	.LBB28_34
	movq	%r15, %rsi
	subq	%rdi, %rsi
	js	.LBB28_34
	movq	%rdi, %xmm0
	pshufd	$68, %xmm0, %xmm0
	movq	%rsi, %xmm1
	movq	%rdx, %rax
	subq	%r12, %rax
	cmpq	$1024, %rax
	movl	$1024, %esi
	cmovbq	%rax, %rsi
	pshufd	$68, %xmm1, %xmm1
	movl	%esi, %eax
	leaq	(,%rax,8), %rsi
	addq	%rbp, %rsi
	addq	%r14, %rsi
	.p2align	4
.LBB28_45:
	pxor	%xmm2, %xmm2
	movl	$2, %ebx
	pxor	%xmm3, %xmm3
	.p2align	4
.LBB28_46:
	movdqu	-16(%rsi,%rbx,8), %xmm4
	movdqu	(%rsi,%rbx,8), %xmm5
	movdqa	.LCPI28_0(%rip), %xmm6
	pxor	%xmm6, %xmm4
	pxor	%xmm6, %xmm5
	psubq	%xmm0, %xmm4
	psubq	%xmm0, %xmm5
	movdqa	%xmm1, %xmm6
	psubq	%xmm4, %xmm6
	movdqa	%xmm1, %xmm7
	psubq	%xmm5, %xmm7
	por	%xmm4, %xmm3
	por	%xmm6, %xmm3
	por	%xmm5, %xmm2
	por	%xmm7, %xmm2
	addq	$4, %rbx
	cmpq	$130, %rbx
	jne	.LBB28_46
	por	%xmm3, %xmm2
	pshufd	$238, %xmm2, %xmm3
	por	%xmm2, %xmm3
	movq	%xmm3, %rax
	testq	%rax, %rax
	js	.LBB28_34
	subq	$-128, %r8
	movq	%r10, %rax
	subq	%r8, %rax
	addq	$1024, %rsi
	cmpq	$127, %rax
	ja	.LBB28_45
	jmp	.LBB28_34
.LBB28_49:
	leaq	-1(%rdx), %rax
	movl	$127, %ecx
	bsrq	%rax, %rcx
	xorq	$-64, %rcx
	addq	$65, %rcx
	imulq	%rbx, %rcx
	addq	$7, %rcx
	shrq	$3, %rcx
	leaq	(%rcx,%rdx,8), %rcx
	jmp	.LBB28_51
.LBB28_50:
	xorl	%ecx, %ecx
.LBB28_51:
	movl	$1, %edx
	movl	$1, %eax
	movq	88(%rsp), %rsi
	cmpq	$128, %rsi
	jb	.LBB28_54
	movq	%rsi, %rdi
	.p2align	4
.LBB28_53:
	shrq	$7, %rdi
	incq	%rax
	cmpq	$16383, %rsi
	movq	%rdi, %rsi
	ja	.LBB28_53
.LBB28_54:
	cmpl	$128, 4400(%rsp)
	movq	176(%rsp), %r15
	movq	72(%rsp), %r10
	movq	80(%rsp), %r8
	movq	24(%rsp), %r11
	jb	.LBB28_57
	movl	$1, %edx
	movq	8(%rsp), %rsi
	movq	%rsi, %rdi
	.p2align	4
.LBB28_56:
	shrq	$7, %rdi
	incq	%rdx
	cmpq	$16383, %rsi
	movq	%rdi, %rsi
	ja	.LBB28_56
.LBB28_57:
	movl	$1, %edi
	movl	$1, %esi
	cmpq	$128, %r8
	jb	.LBB28_60
	movq	%r8, %r9
	.p2align	4
.LBB28_59:
	shrq	$7, %r9
	incq	%rsi
	cmpq	$16383, %r8
	movq	%r9, %r8
	ja	.LBB28_59
.LBB28_60:
	cmpl	$128, %r11d
	jb	.LBB28_63
	movl	$1, %edi
	movq	%r11, %r8
	movq	%r11, %r9
	.p2align	4
.LBB28_62:
	shrq	$7, %r9
	incq	%rdi
	cmpq	$16383, %r8
	movq	%r9, %r8
	ja	.LBB28_62
.LBB28_63:
	movl	$1, %r8d
	movl	$1, %r9d
	cmpq	$128, %r10
	jb	.LBB28_66
	movq	%r10, %r11
	.p2align	4
.LBB28_65:
	shrq	$7, %r11
	incq	%r9
	cmpq	$16383, %r10
	movq	%r11, %r10
	ja	.LBB28_65
.LBB28_66:
	cmpq	$128, 40(%rsp)
	jb	.LBB28_69
	movl	$1, %r8d
	movq	40(%rsp), %r10
	movq	%r10, %r11
	.p2align	4
.LBB28_68:
	shrq	$7, %r11
	incq	%r8
	cmpq	$16383, %r10
	movq	%r11, %r10
	ja	.LBB28_68
.LBB28_69:
	movq	4416(%rsp), %r10
	movl	$1, %r11d
	cmpq	$128, %rcx
	jb	.LBB28_72
	movq	%rcx, %rbx
	movq	%rcx, %r14
	.p2align	4
.LBB28_71:
	shrq	$7, %r14
	incq	%r11
	cmpq	$16383, %rbx
	movq	%r14, %rbx
	ja	.LBB28_71
.LBB28_72:
	movq	80(%rsp), %rbx
	addq	%rcx, %rbx
	addq	%rdx, %rax
	addq	%rbx, %rax
	addq	%rdi, %rsi
	addq	%r9, %rsi
	addq	%rax, %rsi
	addq	%r8, %rsi
	leaq	(%r11,%rsi), %rdx
	addq	$2, %rdx
	cmpq	%rdx, %r10
	jae	.LBB28_74
	movq	160(%rsp), %rax
	movq	$1, (%rax)
	movq	$4, 8(%rax)
	movq	%rdx, 16(%rax)
	jmp	.LBB28_244
.LBB28_74:
	movq	%rdx, 192(%rsp)
	movq	4408(%rsp), %rbx
	movq	48(%rsp), %r8
	leal	1(%r8), %eax
	movb	%al, (%rbx)
	movl	$1, %edx
	movq	88(%rsp), %r10
	movq	%r10, %rsi
	cmpq	$128, %r10
	jb	.LBB28_77
	movq	%r10, %rax
	movq	%r10, %rsi
	.p2align	4
.LBB28_76:
	movl	%eax, %edi
	orb	$-128, %dil
	movb	%dil, (%rbx,%rdx)
	shrq	$7, %rsi
	incq	%rdx
	cmpq	$16383, %rax
	movq	%rsi, %rax
	ja	.LBB28_76
.LBB28_77:
	leaq	1(%rdx), %rax
	movb	%sil, (%rbx,%rdx)
	cmpl	$128, 4400(%rsp)
	movq	72(%rsp), %r9
	movq	80(%rsp), %r11
	movq	24(%rsp), %r14
	jb	.LBB28_86
	movq	8(%rsp), %rdx
	movq	%rdx, %rsi
	.p2align	4
.LBB28_79:
	movl	%edx, %edi
	orb	$-128, %dil
	movb	%dil, (%rbx,%rax)
	shrq	$7, %rsi
	incq	%rax
	cmpq	$16383, %rdx
	movq	%rsi, %rdx
	ja	.LBB28_79
	leaq	1(%rax), %rdx
	movb	%sil, (%rbx,%rax)
	cmpq	$128, %r11
	jb	.LBB28_87
.LBB28_81:
	movq	%r11, %rax
	movq	%r11, %rsi
	.p2align	4
.LBB28_82:
	movl	%eax, %edi
	orb	$-128, %dil
	movb	%dil, (%rbx,%rdx)
	shrq	$7, %rsi
	incq	%rdx
	cmpq	$16383, %rax
	movq	%rsi, %rax
	ja	.LBB28_82
	leaq	1(%rdx), %rax
	movb	%sil, (%rbx,%rdx)
	cmpl	$128, %r14d
	jb	.LBB28_88
.LBB28_84:
	movq	%r14, %rsi
	.p2align	4
.LBB28_85:
	movl	%r14d, %edx
	orb	$-128, %dl
	movb	%dl, (%rbx,%rax)
	shrq	$7, %rsi
	incq	%rax
	cmpq	$16383, %r14
	movq	%rsi, %r14
	ja	.LBB28_85
	jmp	.LBB28_89
.LBB28_86:
	movq	8(%rsp), %rsi
	leaq	1(%rax), %rdx
	movb	%sil, (%rbx,%rax)
	cmpq	$128, %r11
	jae	.LBB28_81
.LBB28_87:
	movq	%r11, %rsi
	leaq	1(%rdx), %rax
	movb	%sil, (%rbx,%rdx)
	cmpl	$128, %r14d
	jae	.LBB28_84
.LBB28_88:
	movq	%r14, %rsi
.LBB28_89:
	leaq	2(%rax), %rdx
	movb	%sil, (%rbx,%rax)
	movq	152(%rsp), %rsi
	movb	%sil, 1(%rbx,%rax)
	cmpq	$128, %r9
	jb	.LBB28_92
	movq	%r9, %rax
	movq	%r9, %rsi
	.p2align	4
.LBB28_91:
	movl	%eax, %edi
	orb	$-128, %dil
	movb	%dil, (%rbx,%rdx)
	shrq	$7, %rsi
	incq	%rdx
	cmpq	$16383, %rax
	movq	%rsi, %rax
	ja	.LBB28_91
	jmp	.LBB28_93
.LBB28_92:
	movq	%r9, %rsi
.LBB28_93:
	leaq	1(%rdx), %rax
	movb	%sil, (%rbx,%rdx)
	movq	40(%rsp), %rdx
	cmpq	$128, %rdx
	jb	.LBB28_96
	movq	%rdx, %rsi
	.p2align	4
.LBB28_95:
	movl	%esi, %edi
	orb	$-128, %dil
	movb	%dil, (%rbx,%rax)
	shrq	$7, %rdx
	incq	%rax
	cmpq	$16383, %rsi
	movq	%rdx, %rsi
	ja	.LBB28_95
.LBB28_96:
	leaq	1(%rax), %rsi
	movb	%dl, (%rbx,%rax)
	cmpq	$128, %rcx
	jb	.LBB28_166
	movq	%rcx, %rax
	.p2align	4
.LBB28_98:
	movl	%ecx, %edx
	orb	$-128, %dl
	movb	%dl, (%rbx,%rsi)
	shrq	$7, %rax
	incq	%rsi
	cmpq	$16383, %rcx
	movq	%rax, %rcx
	ja	.LBB28_98
	leaq	1(%rsi), %r13
	movb	%al, (%rbx,%rsi)
	testq	%r10, %r10
	je	.LBB28_167
.LBB28_100:
	movq	%rsi, 144(%rsp)
	movq	8(%rsp), %rdx
	leaq	-6(%rdx), %rcx
	movl	$1, %r9d
	movq	%rcx, 24(%rsp)
	shlq	%cl, %r9
	movl	$16, %ecx
	subq	%rdx, %rcx
	movl	$2, %eax
	movq	%rcx, 120(%rsp)
	shlq	%cl, %rax
	movq	%rax, 208(%rsp)
	movl	$1, %eax
	movb	$17, %cl
	subb	%dl, %cl
	shlq	%cl, %rax
	addq	$8192, %rax
	cmpl	$0, 4400(%rsp)
	movl	$8192, %ecx
	cmovneq	%rax, %rcx
	movq	%rcx, 168(%rsp)
	leaq	4(%rbx), %rax
	movq	%rax, 128(%rsp)
	leaq	12(%rbx), %rax
	movq	%rax, 184(%rsp)
	leaq	10(%rbx), %rax
	movq	%rax, 200(%rsp)
	movq	%r15, %rbx
	jmp	.LBB28_103
	.p2align	4
.LBB28_101:
	leaq	(%r15,%r15), %r13
.LBB28_102:
	subq	%r15, %r10
	addq	8(%rsp), %r13
	movq	216(%rsp), %rbx
	testq	%r10, %r10
	movq	56(%rsp), %r12
	movq	176(%rsp), %r15
	je	.LBB28_145
.LBB28_103:
	movzwl	2(%rbx), %edx
	xorl	%eax, %eax
	cmpq	$1, %r10
	movq	%r10, 112(%rsp)
	jne	.LBB28_118
	xorl	%r12d, %r12d
.LBB28_105:
	movzwl	2(%rbx,%r12,4), %edi
	xorl	%esi, %esi
	cmpl	%edi, %edx
	sete	%sil
	leaq	(%r12,%rsi), %r15
	leaq	(%rbx,%r15,4), %rcx
	movq	%rcx, 216(%rsp)
	movq	4408(%rsp), %rcx
	movw	%dx, (%rcx,%r13)
	leal	-1(%r15), %edx
	movw	%dx, 2(%rcx,%r13)
	leaq	4(%r13), %rcx
	movq	%rcx, 8(%rsp)
	cmpq	$65536, %r15
	movb	$2, %dl
	sbbb	$0, %dl
	cmpq	$4096, %r15
	movzbl	%dl, %edx
	cmovbl	%eax, %edx
	cmpb	$2, %dl
	je	.LBB28_143
	movzbl	%dl, %eax
	cmpl	$1, %eax
	jne	.LBB28_122
	movq	4408(%rsp), %rax
	movq	8(%rsp), %rcx
	leaq	(%rax,%rcx), %r8
	cmpl	$0, 4400(%rsp)
	je	.LBB28_125
	movq	208(%rsp), %rax
	addq	%r8, %rax
	movq	%rax, 96(%rsp)
	xorl	%esi, %esi
	xorl	%r10d, %r10d
	xorl	%r11d, %r11d
	movq	%r8, 64(%rsp)
	jmp	.LBB28_110
	.p2align	4
.LBB28_109:
	addq	%r8, %r10
	incq	%r11
	movq	%r11, %rax
	movq	120(%rsp), %rcx
	shrq	%cl, %rax
	testq	%rax, %rax
	movq	64(%rsp), %r8
	jne	.LBB28_143
.LBB28_110:
	movq	%r11, %r13
	movq	24(%rsp), %rcx
	shlq	%cl, %r13
	movq	%r10, %rax
	bswapq	%rax
	shrq	$48, %rax
	movw	%ax, (%r8,%r11,2)
	movq	96(%rsp), %rax
	leaq	(%rax,%r13,8), %rdi
	xorl	%r8d, %r8d
	xorl	%eax, %eax
	jmp	.LBB28_114
	.p2align	4
.LBB28_111:
	xorl	%edx, %edx
.LBB28_112:
	movq	%r15, %rsi
.LBB28_113:
	movq	%rdx, (%rdi,%rax,8)
	movq	%rdx, %rcx
	shrq	%rcx
	movabsq	$6148914691236517205, %r14
	andq	%rcx, %r14
	subq	%r14, %rdx
	movabsq	$3689348814741910323, %rcx
	movq	%rdx, %r14
	andq	%rcx, %r14
	shrq	$2, %rdx
	andq	%rcx, %rdx
	addq	%r14, %rdx
	movq	%rdx, %rcx
	shrq	$4, %rcx
	addq	%rdx, %rcx
	movabsq	$1085102592571150095, %rdx
	andq	%rcx, %rdx
	movabsq	$72340172838076673, %rcx
	imulq	%rdx, %rcx
	shrq	$56, %rcx
	addq	%rcx, %r8
	incq	%rax
	cmpq	%r9, %rax
	je	.LBB28_109
.LBB28_114:
	cmpq	%r15, %rsi
	jae	.LBB28_111
	leaq	(%rax,%r13), %rbp
	xorl	%edx, %edx
	.p2align	4
.LBB28_116:
	movzwl	(%rbx,%rsi,4), %r14d
	movl	%r14d, %ecx
	shrl	$6, %ecx
	cmpq	%rbp, %rcx
	jne	.LBB28_113
	movl	$1, %r12d
	movl	%r14d, %ecx
	shlq	%cl, %r12
	addq	%r12, %rdx
	incq	%rsi
	cmpq	%rsi, %r15
	jne	.LBB28_116
	jmp	.LBB28_112
	.p2align	4
.LBB28_118:
	cmpq	$16, %r10
	movl	$16, %edi
	movl	$16, %esi
	cmovbq	%r10, %rsi
	movl	%esi, %esi
	movzwl	-2(%rbx,%rsi,4), %esi
	cmpl	%esi, %edx
	movl	$65536, %esi
	cmovneq	%rdi, %rsi
	cmpq	%r10, %rsi
	cmovaeq	%r10, %rsi
	xorl	%edi, %edi
	jmp	.LBB28_120
	.p2align	4
.LBB28_119:
	subq	%r8, %rsi
	movq	%r12, %rdi
	cmpq	$1, %rsi
	jbe	.LBB28_105
.LBB28_120:
	movq	%rsi, %r8
	shrq	%r8
	leaq	(%r8,%rdi), %r12
	movzwl	2(%rbx,%r12,4), %r10d
	cmpl	%r10d, %edx
	je	.LBB28_119
	movq	%rdi, %r12
	jmp	.LBB28_119
	.p2align	4
.LBB28_122:
	testq	%r15, %r15
	movq	112(%rsp), %r10
	je	.LBB28_101
	movq	4408(%rsp), %rax
	leaq	4(%r13), %rcx
	addq	%rcx, %rax
	cmpq	$8, %r15
	jb	.LBB28_124
	leaq	(%rbx,%r15,4), %rcx
	cmpq	%rcx, %rax
	jae	.LBB28_134
	movq	128(%rsp), %rcx
	leaq	(%rcx,%r13), %rdx
	leaq	(%rdx,%r15,2), %rdx
	cmpq	%rdx, %rbx
	jae	.LBB28_134
.LBB28_124:
	xorl	%edi, %edi
.LBB28_137:
	leal	(%r12,%rsi), %r8d
	movq	%rdi, %rdx
	andl	$3, %r8d
	je	.LBB28_140
	movq	%rdi, %rdx
	.p2align	4
.LBB28_139:
	movzwl	(%rbx,%rdx,4), %r10d
	movw	%r10w, (%rax,%rdx,2)
	incq	%rdx
	decq	%r8
	jne	.LBB28_139
.LBB28_140:
	addq	%rsi, %r12
	notq	%rdi
	addq	%r12, %rdi
	cmpq	$3, %rdi
	jb	.LBB28_143
	addq	200(%rsp), %r13
	.p2align	4
.LBB28_142:
	movzwl	(%rbx,%rdx,4), %eax
	movw	%ax, -6(%r13,%rdx,2)
	movzwl	4(%rbx,%rdx,4), %eax
	movw	%ax, -4(%r13,%rdx,2)
	movzwl	8(%rbx,%rdx,4), %eax
	movw	%ax, -2(%r13,%rdx,2)
	movzwl	12(%rbx,%rdx,4), %eax
	movw	%ax, (%r13,%rdx,2)
	addq	$4, %rdx
	cmpq	%rdx, %r15
	jne	.LBB28_142
	jmp	.LBB28_143
.LBB28_125:
	xorl	%edx, %edx
	xorl	%eax, %eax
	jmp	.LBB28_128
	.p2align	4
.LBB28_126:
	movq	%r15, %rdx
.LBB28_127:
	movq	%rsi, (%r8,%rax,8)
	incq	%rax
	cmpq	$1024, %rax
	je	.LBB28_143
.LBB28_128:
	xorl	%esi, %esi
	cmpq	%r15, %rdx
	jae	.LBB28_126
	.p2align	4
.LBB28_129:
	movzwl	(%rbx,%rdx,4), %ecx
	movl	%ecx, %edi
	shrl	$6, %edi
	cmpq	%rax, %rdi
	jne	.LBB28_127
	movl	$1, %edi
	shlq	%cl, %rdi
	addq	%rdi, %rsi
	incq	%rdx
	cmpq	%rdx, %r15
	jne	.LBB28_129
	jmp	.LBB28_126
.LBB28_134:
	movq	%r15, %rdi
	andq	$-8, %rdi
	movq	184(%rsp), %rcx
	leaq	(%rcx,%r13), %rdx
	xorl	%r8d, %r8d
	.p2align	4
.LBB28_135:
	movdqu	(%rbx,%r8,4), %xmm0
	movdqu	16(%rbx,%r8,4), %xmm1
	pshuflw	$232, %xmm0, %xmm0
	pshufhw	$232, %xmm0, %xmm0
	pshufd	$232, %xmm0, %xmm0
	pshuflw	$232, %xmm1, %xmm1
	pshufhw	$232, %xmm1, %xmm1
	pshufd	$232, %xmm1, %xmm1
	punpcklqdq	%xmm1, %xmm0
	movdqu	%xmm0, -8(%rdx,%r8,2)
	addq	$8, %r8
	cmpq	%r8, %rdi
	jne	.LBB28_135
	cmpq	%rdi, %r15
	jne	.LBB28_137
	.p2align	4
.LBB28_143:
	cmpq	$4095, %r15
	movq	112(%rsp), %r10
	jbe	.LBB28_101
	xorl	%r13d, %r13d
	cmpq	$65536, %r15
	cmovbq	168(%rsp), %r13
	jmp	.LBB28_102
.LBB28_145:
	movq	4408(%rsp), %rax
	movw	$32767, (%rax,%r13)
	movl	$-65536, 2(%rax,%r13)
	movq	88(%rsp), %rbx
	cmpl	$65536, -4(%r15,%rbx,4)
	movq	16(%rsp), %rcx
	movq	4384(%rsp), %rdi
	movq	48(%rsp), %r8
	movq	144(%rsp), %rsi
	jb	.LBB28_170
	addq	$6, %r13
	leaq	16(%rax), %rsi
	xorl	%eax, %eax
	xorl	%r9d, %r9d
	xorl	%edx, %edx
	jmp	.LBB28_148
	.p2align	4
.LBB28_147:
	movb	%bl, %r10b
	addq	%r10, %r8
	leaq	(%r15,%r8,4), %r15
	movq	%rcx, %rbx
	subq	%r8, %rbx
	leaq	(%r13,%rdi,8), %r13
	addq	%r8, %rax
	leaq	(%r8,%r8), %rdi
	xorl	%r10d, %r10d
	cmpq	$65536, %r8
	cmovbq	168(%rsp), %r10
	cmpq	$4096, %r8
	cmovbq	%rdi, %r10
	addq	%r10, %rdx
	addq	$4, %rdx
	testq	%rbx, %rbx
	je	.LBB28_168
.LBB28_148:
	movq	%r9, %r14
	movl	(%r15), %r11d
	movl	%r11d, %edi
	shrl	$16, %edi
	cmpq	$1, %rbx
	jne	.LBB28_153
	movq	%rbx, %rcx
	xorl	%r8d, %r8d
.LBB28_150:
	movzwl	2(%r15,%r8,4), %r9d
	xorl	%r10d, %r10d
	cmpl	%r9d, %edi
	sete	%bl
	leaq	1(%rdi), %r9
	movq	%r9, %rdi
	subq	%r14, %rdi
	je	.LBB28_147
	cmpq	$46, %rdi
	jae	.LBB28_157
	xorl	%r14d, %r14d
	jmp	.LBB28_164
	.p2align	4
.LBB28_153:
	cmpq	$16, %rbx
	movl	$16, %r8d
	movl	$16, %r9d
	cmovbq	%rbx, %r9
	movl	%r9d, %r9d
	movzwl	-2(%r15,%r9,4), %r9d
	cmpl	%r9d, %edi
	movl	$65536, %r9d
	cmovneq	%r8, %r9
	cmpq	%rbx, %r9
	movq	%rbx, %rcx
	cmovaeq	%rbx, %r9
	xorl	%r10d, %r10d
	jmp	.LBB28_155
	.p2align	4
.LBB28_154:
	subq	%rbx, %r9
	movq	%r8, %r10
	cmpq	$1, %r9
	jbe	.LBB28_150
.LBB28_155:
	movq	%r9, %rbx
	shrq	%rbx
	leaq	(%rbx,%r10), %r8
	movzwl	2(%r15,%r8,4), %ebp
	cmpl	%ebp, %edi
	je	.LBB28_154
	movq	%r10, %r8
	jmp	.LBB28_154
	.p2align	4
.LBB28_157:
	movq	%r15, %rbp
	movq	4408(%rsp), %r15
	addq	%r13, %r15
	shrl	$16, %r11d
	subq	%r14, %r11
	leaq	(%r15,%r11,8), %r12
	xorl	%r14d, %r14d
	cmpq	%r15, %r12
	jb	.LBB28_163
	movq	128(%rsp), %r15
	addq	%r13, %r15
	leaq	(%r15,%r11,8), %r12
	cmpq	%r15, %r12
	jb	.LBB28_163
	shrq	$61, %r11
	movq	56(%rsp), %r12
	movq	%rbp, %r15
	jne	.LBB28_164
	movq	%rdi, %r14
	andq	$-4, %r14
	movd	%edx, %xmm0
	movd	%eax, %xmm1
	punpckldq	%xmm0, %xmm1
	pshufd	$68, %xmm1, %xmm0
	leaq	(%rsi,%r13), %r11
	xorl	%r15d, %r15d
	.p2align	4
.LBB28_161:
	movdqu	%xmm0, -16(%r11,%r15,8)
	movdqu	%xmm0, (%r11,%r15,8)
	addq	$4, %r15
	cmpq	%r15, %r14
	jne	.LBB28_161
	cmpq	%r14, %rdi
	movq	%rbp, %r15
	je	.LBB28_147
	jmp	.LBB28_164
.LBB28_163:
	movq	56(%rsp), %r12
	movq	%rbp, %r15
.LBB28_164:
	movq	128(%rsp), %r11
	addq	%r13, %r11
	.p2align	4
.LBB28_165:
	movl	%eax, -4(%r11,%r14,8)
	movl	%edx, (%r11,%r14,8)
	incq	%r14
	cmpq	%r14, %rdi
	jne	.LBB28_165
	jmp	.LBB28_147
.LBB28_166:
	movq	%rcx, %rax
	leaq	1(%rsi), %r13
	movb	%al, (%rbx,%rsi)
	testq	%r10, %r10
	jne	.LBB28_100
.LBB28_167:
	movw	$32767, 1(%rbx,%rsi)
	movl	$-65536, 3(%rbx,%rsi)
	leaq	7(%rsi), %r13
	xorl	%edx, %edx
	xorl	%eax, %eax
	jmp	.LBB28_169
.LBB28_168:
	movq	48(%rsp), %r8
	movq	4408(%rsp), %rbx
	movq	144(%rsp), %rsi
.LBB28_169:
	movl	%eax, (%rbx,%r13)
	movl	%edx, 4(%rbx,%r13)
	movq	16(%rsp), %rcx
	movq	4384(%rsp), %rdi
	movq	%rbx, %rax
.LBB28_170:
	leaq	1(%rsi), %r10
	addq	%rax, %r10
	movq	80(%rsp), %r9
	addq	%r9, %r10
	cmpb	$2, %r8b
	jae	.LBB28_172
	movq	72(%rsp), %r8
	movl	%r8d, %eax
	movq	%r8, %rsi
	shrq	%rsi
	movabsq	$-9223372036854775808, %rdx
	orq	%rsi, %rdx
	notq	%r8
	shrq	%r8
	testb	$1, %al
	cmoveq	%rdx, %r8
	movq	152(%rsp), %rax
	movq	%rax, (%rsp)
	movq	%r10, %rdi
	movl	108(%rsp), %esi
	movq	32(%rsp), %rdx
	movq	40(%rsp), %r9
	callq	"scaled_values::put_numbers"
	jmp	.LBB28_243
.LBB28_172:
	cmpl	$2, 108(%rsp)
	jne	.LBB28_197
	movq	%r10, 120(%rsp)
	movq	%rcx, %rax
	shrq	$14, %rax
	andl	$16383, %ecx
	addl	$16383, %ecx
	shrl	$14, %ecx
	addq	%rax, %rcx
	movq	%rcx, 8(%rsp)
	je	.LBB28_243
	movabsq	$-9223372036854775808, %r14
	movq	8(%rsp), %rax
	leaq	(%rax,%rax,4), %rax
	leaq	(%rax,%rax,4), %rax
	addq	120(%rsp), %rax
	movq	%rax, 112(%rsp)
	xorl	%ebp, %ebp
	movq	32(%rsp), %rbx
	movq	16(%rsp), %rcx
	xorl	%r12d, %r12d
	jmp	.LBB28_177
	.p2align	4
.LBB28_175:
	xorl	%edx, %edx
	divq	%r9
.LBB28_176:
	movq	24(%rsp), %r12
	movl	$127, %edx
	bsrq	%rax, %rdx
	xorq	$-64, %rdx
	addq	$65, %rdx
	leaq	(,%rbp,4), %rax
	addq	%rbp, %rax
	leaq	(%rax,%rax,4), %rax
	movq	%r8, %rsi
	xorq	%r14, %rsi
	movq	120(%rsp), %rdi
	movq	%rsi, (%rdi,%rax)
	xorq	%r14, %r13
	movq	%r13, 8(%rdi,%rax)
	movq	%r12, 16(%rdi,%rax)
	movb	%dl, 24(%rdi,%rax)
	movq	%rdx, %r15
	imulq	%rcx, %r15
	addq	$7, %r15
	shrq	$3, %r15
	movq	112(%rsp), %rax
	leaq	(%rax,%r12), %rdi
	movq	%rdx, (%rsp)
	xorl	%esi, %esi
	movq	64(%rsp), %rdx
	callq	"scaled_values::put_numbers"
	addq	%r15, %r12
	incq	%rbp
	movq	96(%rsp), %rcx
	addq	$-16384, %rcx
	addq	$131072, %rbx
	cmpq	8(%rsp), %rbp
	je	.LBB28_243
.LBB28_177:
	movq	%r12, 24(%rsp)
	cmpq	$16384, %rcx
	movl	$16384, %edx
	movl	$16384, %eax
	movq	%rcx, 96(%rsp)
	cmovbq	%rcx, %rax
	movq	%rbp, %rsi
	shlq	$14, %rsi
	movq	16(%rsp), %rdi
	movq	%rdi, %rcx
	subq	%rsi, %rcx
	cmpq	$16384, %rcx
	cmovaeq	%rdx, %rcx
	movq	%rbp, %rdx
	shlq	$17, %rdx
	addq	32(%rsp), %rdx
	movq	%rdx, 64(%rsp)
	movq	%r14, %r8
	movq	%r14, %r13
	cmpq	%rsi, %rdi
	jne	.LBB28_181
.LBB28_178:
	movq	40(%rsp), %r9
	testq	%r9, %r9
	je	.LBB28_245
	movq	%r13, %rax
	subq	%r8, %rax
	movq	%rax, %rdx
	orq	%r9, %rdx
	shrq	$32, %rdx
	jne	.LBB28_175
	xorl	%edx, %edx
	divl	%r9d
	jmp	.LBB28_176
	.p2align	4
.LBB28_181:
	movq	64(%rsp), %rdx
	movq	(%rdx), %r13
	xorq	%r14, %r13
	xorl	%esi, %esi
	movq	%r13, %r8
	jmp	.LBB28_183
	.p2align	4
.LBB28_182:
	movq	%rdx, %rsi
	cmpq	%rcx, %rdx
	jae	.LBB28_178
.LBB28_183:
	movq	%rcx, %r11
	subq	%rsi, %r11
	cmpq	$1024, %r11
	movl	$1024, %r10d
	movl	$1024, %edx
	cmovbq	%r11, %rdx
	leaq	(,%rsi,8), %rdi
	cmpq	$4, %r11
	jae	.LBB28_185
	xorl	%r11d, %r11d
	jmp	.LBB28_188
	.p2align	4
.LBB28_185:
	movl	%edx, %r11d
	andl	$2044, %r11d
	movq	%r13, %xmm0
	pshufd	$68, %xmm0, %xmm0
	movq	%r8, %xmm1
	pshufd	$68, %xmm1, %xmm3
	movq	%rax, %r8
	subq	%rsi, %r8
	cmpq	$1024, %r8
	cmovaeq	%r10, %r8
	andl	$2044, %r8d
	leaq	(%rbx,%rdi), %r12
	xorl	%r9d, %r9d
	movdqa	%xmm3, %xmm4
	movdqa	%xmm0, %xmm2
	.p2align	4
.LBB28_186:
	movdqu	(%r12,%r9,8), %xmm8
	movdqu	16(%r12,%r9,8), %xmm6
	movdqa	.LCPI28_0(%rip), %xmm5
	movdqa	%xmm8, %xmm7
	pxor	%xmm5, %xmm7
	pxor	%xmm6, %xmm5
	movdqa	.LCPI28_1(%rip), %xmm1
	movdqa	%xmm3, %xmm9
	pxor	%xmm1, %xmm9
	movdqa	.LCPI28_2(%rip), %xmm10
	pxor	%xmm10, %xmm8
	movdqa	%xmm9, %xmm11
	pcmpgtd	%xmm8, %xmm11
	pshufd	$160, %xmm11, %xmm12
	pcmpeqd	%xmm8, %xmm9
	pshufd	$245, %xmm9, %xmm9
	pand	%xmm12, %xmm9
	pshufd	$245, %xmm11, %xmm11
	por	%xmm9, %xmm11
	movdqa	%xmm7, %xmm9
	pand	%xmm11, %xmm9
	pandn	%xmm3, %xmm11
	movdqa	%xmm11, %xmm3
	por	%xmm9, %xmm3
	movdqa	%xmm4, %xmm9
	pxor	%xmm1, %xmm9
	pxor	%xmm10, %xmm6
	movdqa	%xmm9, %xmm10
	pcmpgtd	%xmm6, %xmm10
	pshufd	$160, %xmm10, %xmm11
	pcmpeqd	%xmm6, %xmm9
	pshufd	$245, %xmm9, %xmm9
	pand	%xmm11, %xmm9
	pshufd	$245, %xmm10, %xmm10
	por	%xmm9, %xmm10
	movdqa	%xmm5, %xmm9
	pand	%xmm10, %xmm9
	pandn	%xmm4, %xmm10
	movdqa	%xmm10, %xmm4
	por	%xmm9, %xmm4
	movdqa	%xmm0, %xmm9
	pxor	%xmm1, %xmm9
	movdqa	%xmm8, %xmm10
	pcmpgtd	%xmm9, %xmm10
	pshufd	$160, %xmm10, %xmm11
	pcmpeqd	%xmm8, %xmm9
	pshufd	$245, %xmm9, %xmm8
	pand	%xmm11, %xmm8
	pshufd	$245, %xmm10, %xmm9
	por	%xmm8, %xmm9
	pand	%xmm9, %xmm7
	pandn	%xmm0, %xmm9
	movdqa	%xmm9, %xmm0
	por	%xmm7, %xmm0
	movdqa	%xmm2, %xmm7
	pxor	%xmm1, %xmm7
	movdqa	%xmm6, %xmm8
	pcmpgtd	%xmm7, %xmm8
	pshufd	$160, %xmm8, %xmm9
	pcmpeqd	%xmm6, %xmm7
	pshufd	$245, %xmm7, %xmm6
	pand	%xmm9, %xmm6
	pshufd	$245, %xmm8, %xmm7
	por	%xmm6, %xmm7
	pand	%xmm7, %xmm5
	pandn	%xmm2, %xmm7
	movdqa	%xmm7, %xmm2
	por	%xmm5, %xmm2
	addq	$4, %r9
	cmpq	%r9, %r8
	jne	.LBB28_186
	movdqa	%xmm3, %xmm5
	pxor	%xmm1, %xmm5
	movdqa	%xmm4, %xmm6
	pxor	%xmm1, %xmm6
	movdqa	%xmm6, %xmm7
	pcmpgtd	%xmm5, %xmm7
	pshufd	$160, %xmm7, %xmm8
	pcmpeqd	%xmm5, %xmm6
	pshufd	$245, %xmm6, %xmm5
	pand	%xmm8, %xmm5
	pshufd	$245, %xmm7, %xmm6
	por	%xmm5, %xmm6
	pand	%xmm6, %xmm3
	pandn	%xmm4, %xmm6
	por	%xmm3, %xmm6
	pshufd	$238, %xmm6, %xmm3
	movdqa	%xmm6, %xmm4
	pxor	%xmm1, %xmm4
	movdqa	%xmm3, %xmm5
	pxor	%xmm1, %xmm5
	movdqa	%xmm5, %xmm7
	pcmpgtd	%xmm4, %xmm7
	pshufd	$160, %xmm7, %xmm8
	pcmpeqd	%xmm4, %xmm5
	pshufd	$245, %xmm5, %xmm4
	pand	%xmm8, %xmm4
	pshufd	$245, %xmm7, %xmm5
	por	%xmm4, %xmm5
	pand	%xmm5, %xmm6
	pandn	%xmm3, %xmm5
	por	%xmm6, %xmm5
	movq	%xmm5, %r8
	movdqa	%xmm2, %xmm3
	pxor	%xmm1, %xmm3
	movdqa	%xmm0, %xmm4
	pxor	%xmm1, %xmm4
	movdqa	%xmm4, %xmm5
	pcmpgtd	%xmm3, %xmm5
	pshufd	$160, %xmm5, %xmm6
	pcmpeqd	%xmm3, %xmm4
	pshufd	$245, %xmm4, %xmm3
	pand	%xmm6, %xmm3
	pshufd	$245, %xmm5, %xmm4
	por	%xmm3, %xmm4
	pand	%xmm4, %xmm0
	pandn	%xmm2, %xmm4
	por	%xmm0, %xmm4
	pshufd	$238, %xmm4, %xmm0
	movdqa	%xmm4, %xmm2
	pxor	%xmm1, %xmm2
	pxor	%xmm0, %xmm1
	movdqa	%xmm2, %xmm3
	pcmpgtd	%xmm1, %xmm3
	pshufd	$160, %xmm3, %xmm5
	pcmpeqd	%xmm2, %xmm1
	pshufd	$245, %xmm1, %xmm1
	pand	%xmm5, %xmm1
	pshufd	$245, %xmm3, %xmm2
	por	%xmm1, %xmm2
	pand	%xmm2, %xmm4
	pandn	%xmm0, %xmm2
	por	%xmm4, %xmm2
	movq	%xmm2, %r13
	cmpq	%r11, %rdx
	je	.LBB28_190
.LBB28_188:
	movq	%rax, %r12
	subq	%rsi, %r12
	cmpq	$1024, %r12
	cmovbq	%r12, %r10
	leaq	(%rbx,%rdi), %r15
	.p2align	4
.LBB28_189:
	movq	%r13, %r12
	movq	(%r15,%r11,8), %r13
	xorq	%r14, %r13
	cmpq	%r8, %r13
	cmovbq	%r13, %r8
	cmpq	%r12, %r13
	cmovbeq	%r12, %r13
	incq	%r11
	cmpq	%r11, %r10
	jne	.LBB28_189
.LBB28_190:
	addq	%rsi, %rdx
	movq	%rcx, %r10
	subq	%rdx, %r10
	cmpq	$128, %r10
	jb	.LBB28_182
	movq	%r13, %r10
	subq	%r8, %r10
	js	.LBB28_182
	movq	%r8, %xmm0
	pshufd	$68, %xmm0, %xmm0
	movq	%r10, %xmm1
	movq	%rax, %r10
	subq	%rsi, %r10
	cmpq	$1024, %r10
	movl	$1024, %esi
	cmovbq	%r10, %rsi
	pshufd	$68, %xmm1, %xmm1
	movl	%esi, %esi
	leaq	(%rdi,%rsi,8), %rsi
	addq	%rbx, %rsi
	.p2align	4
.LBB28_193:
	pxor	%xmm2, %xmm2
	movl	$2, %edi
	pxor	%xmm3, %xmm3
	.p2align	4
.LBB28_194:
	movdqu	-16(%rsi,%rdi,8), %xmm4
	movdqu	(%rsi,%rdi,8), %xmm5
	movdqa	.LCPI28_0(%rip), %xmm6
	pxor	%xmm6, %xmm4
	pxor	%xmm6, %xmm5
	psubq	%xmm0, %xmm4
	psubq	%xmm0, %xmm5
	movdqa	%xmm1, %xmm6
	psubq	%xmm4, %xmm6
	movdqa	%xmm1, %xmm7
	psubq	%xmm5, %xmm7
	por	%xmm4, %xmm3
	por	%xmm6, %xmm3
	por	%xmm5, %xmm2
	por	%xmm7, %xmm2
	addq	$4, %rdi
	cmpq	$130, %rdi
	jne	.LBB28_194
	por	%xmm3, %xmm2
	pshufd	$238, %xmm2, %xmm3
	por	%xmm2, %xmm3
	movq	%xmm3, %rdi
	testq	%rdi, %rdi
	js	.LBB28_182
	subq	$-128, %rdx
	movq	%rcx, %rdi
	subq	%rdx, %rdi
	addq	$1024, %rsi
	cmpq	$127, %rdi
	ja	.LBB28_193
	jmp	.LBB28_182
.LBB28_197:
	testq	%rdi, %rdi
	je	.LBB28_211
	movq	%rsi, %r11
	movq	%rax, %r8
	cmpq	$10, %rdi
	jb	.LBB28_199
	leaq	(%r11,%r9), %rcx
	leaq	(%rcx,%r8), %rax
	subq	%r12, %rax
	incq	%rax
	cmpq	$32, %rax
	jae	.LBB28_202
.LBB28_199:
	xorl	%eax, %eax
.LBB28_205:
	movq	%rdi, %rdx
	movq	%rax, %rcx
	andq	$3, %rdx
	je	.LBB28_208
	movq	%rax, %rcx
	.p2align	4
.LBB28_207:
	movq	(%r12,%rcx,8), %rsi
	movq	%rsi, (%r10,%rcx,8)
	incq	%rcx
	decq	%rdx
	jne	.LBB28_207
.LBB28_208:
	subq	%rdi, %rax
	cmpq	$-4, %rax
	ja	.LBB28_211
	addq	%r9, %r11
	leaq	(%r8,%r11), %rax
	addq	$25, %rax
	.p2align	4
.LBB28_210:
	movq	(%r12,%rcx,8), %rdx
	movq	%rdx, -24(%rax,%rcx,8)
	movq	8(%r12,%rcx,8), %rdx
	movq	%rdx, -16(%rax,%rcx,8)
	movq	16(%r12,%rcx,8), %rdx
	movq	%rdx, -8(%rax,%rcx,8)
	movq	24(%r12,%rcx,8), %rdx
	movq	%rdx, (%rax,%rcx,8)
	addq	$4, %rcx
	cmpq	%rcx, %rdi
	jne	.LBB28_210
	jmp	.LBB28_211
.LBB28_202:
	movq	%rdi, %rax
	andq	$-4, %rax
	addq	%r8, %rcx
	addq	$17, %rcx
	xorl	%edx, %edx
	.p2align	4
.LBB28_203:
	movdqu	(%r12,%rdx,8), %xmm0
	movdqu	16(%r12,%rdx,8), %xmm1
	movdqu	%xmm0, -16(%rcx,%rdx,8)
	movdqu	%xmm1, (%rcx,%rdx,8)
	addq	$4, %rdx
	cmpq	%rdx, %rax
	jne	.LBB28_203
	cmpq	%rax, %rdi
	jne	.LBB28_205
.LBB28_211:
	leaq	(%r10,%rdi,8), %rbx
	leaq	-1(%rdi), %rax
	movl	$127, %r15d
	bsrq	%rax, %r15
	xorq	$-64, %r15
	addq	$65, %r15
	movq	16(%rsp), %rax
	cmpq	$127, %rax
	ja	.LBB28_226
	pxor	%xmm0, %xmm0
	movdqa	%xmm0, 464(%rsp)
	movdqa	%xmm0, 448(%rsp)
	movdqa	%xmm0, 432(%rsp)
	movdqa	%xmm0, 416(%rsp)
	movdqa	%xmm0, 400(%rsp)
	movdqa	%xmm0, 384(%rsp)
	movdqa	%xmm0, 368(%rsp)
	movdqa	%xmm0, 352(%rsp)
	movdqa	%xmm0, 336(%rsp)
	movdqa	%xmm0, 320(%rsp)
	movdqa	%xmm0, 304(%rsp)
	movdqa	%xmm0, 288(%rsp)
	movdqa	%xmm0, 272(%rsp)
	movdqa	%xmm0, 256(%rsp)
	movdqa	%xmm0, 240(%rsp)
	movdqa	%xmm0, 224(%rsp)
	testq	%rax, %rax
	je	.LBB28_240
	xorl	%edi, %edi
	xorl	%edx, %edx
	xorl	%eax, %eax
	xorl	%r8d, %r8d
	jmp	.LBB28_215
	.p2align	4
.LBB28_214:
	movq	%r9, %r10
	movl	%esi, %ecx
	shrq	%cl, %r10
	notb	%al
	movl	%eax, %ecx
	shlq	%cl, %rdi
	leaq	-64(%rsi), %rax
	addq	%rdi, %rdi
	orq	%r10, %rdi
	bswapq	%rdi
	movq	%rdi, (%rbx,%r8)
	movq	$-1, %rdi
	movl	%esi, %ecx
	shlq	%cl, %rdi
	addq	$8, %r8
	notq	%rdi
	andq	%r9, %rdi
	movq	%rax, %rsi
	incq	%rdx
	movq	%rsi, %rax
	cmpq	16(%rsp), %rdx
	je	.LBB28_241
.LBB28_215:
	movq	32(%rsp), %rcx
	movq	(%rcx,%rdx,8), %rcx
	movq	%rcx, %rsi
	shrq	$32, %rsi
	movl	$2147483648, %r9d
	xorl	%esi, %r9d
	imull	$1969558475, %ecx, %r10d
	imull	$898614065, %r9d, %esi
	addl	%r10d, %esi
	shrl	$24, %esi
	movzbl	224(%rsp,%rsi), %r9d
	movq	4384(%rsp), %r10
	cmpq	%r9, %r10
	jbe	.LBB28_218
	cmpq	%rcx, (%r12,%r9,8)
	jne	.LBB28_219
	leaq	(%rax,%r15), %rsi
	cmpq	$63, %rsi
	ja	.LBB28_214
	jmp	.LBB28_225
	.p2align	4
.LBB28_218:
	testq	%r10, %r10
	je	.LBB28_223
.LBB28_219:
	xorl	%r9d, %r9d
	jmp	.LBB28_221
	.p2align	4
.LBB28_220:
	movq	%r14, %r10
	cmpq	%r10, %r9
	jae	.LBB28_224
.LBB28_221:
	movq	%r10, %r11
	subq	%r9, %r11
	shrq	%r11
	leaq	(%r11,%r9), %r14
	cmpq	%rcx, (%r12,%r14,8)
	jge	.LBB28_220
	addq	%r11, %r9
	incq	%r9
	cmpq	%r10, %r9
	jb	.LBB28_221
.LBB28_224:
	movb	%r9b, 224(%rsp,%rsi)
	leaq	(%rax,%r15), %rsi
	cmpq	$63, %rsi
	ja	.LBB28_214
.LBB28_225:
	movl	%r15d, %ecx
	shlq	%cl, %rdi
	orq	%r9, %rdi
	incq	%rdx
	movq	%rsi, %rax
	cmpq	16(%rsp), %rdx
	jne	.LBB28_215
	jmp	.LBB28_241
.LBB28_223:
	xorl	%r9d, %r9d
	movb	%r9b, 224(%rsp,%rsi)
	leaq	(%rax,%r15), %rsi
	cmpq	$63, %rsi
	ja	.LBB28_214
	jmp	.LBB28_225
.LBB28_226:
	leaq	224(%rsp), %rdi
	xorl	%r14d, %r14d
	movl	$4096, %edx
	xorl	%esi, %esi
	callq	memset@PLT
	xorl	%edi, %edi
	xorl	%eax, %eax
	xorl	%esi, %esi
	jmp	.LBB28_228
	.p2align	4
.LBB28_227:
	movq	%r8, %r9
	movl	%edx, %ecx
	shrq	%cl, %r9
	notb	%al
	movl	%eax, %ecx
	shlq	%cl, %r14
	leaq	-64(%rdx), %rax
	addq	%r14, %r14
	orq	%r9, %r14
	bswapq	%r14
	movq	%r14, (%rbx,%rsi)
	movq	$-1, %r14
	movl	%edx, %ecx
	shlq	%cl, %r14
	addq	$8, %rsi
	notq	%r14
	andq	%r8, %r14
	incq	%rdi
	cmpq	16(%rsp), %rdi
	je	.LBB28_239
.LBB28_228:
	movq	32(%rsp), %rcx
	movq	(%rcx,%rdi,8), %rcx
	movq	%rcx, %rdx
	shrq	$32, %rdx
	movl	$2147483648, %r8d
	xorl	%edx, %r8d
	imull	$1969558475, %ecx, %r9d
	imull	$898614065, %r8d, %edx
	addl	%r9d, %edx
	shrl	$20, %edx
	movzbl	224(%rsp,%rdx), %r8d
	movq	4384(%rsp), %r9
	cmpq	%r8, %r9
	jbe	.LBB28_231
	cmpq	%rcx, (%r12,%r8,8)
	jne	.LBB28_232
	leaq	(%rax,%r15), %rdx
	cmpq	$63, %rdx
	ja	.LBB28_227
	jmp	.LBB28_238
	.p2align	4
.LBB28_231:
	testq	%r9, %r9
	je	.LBB28_236
.LBB28_232:
	xorl	%r8d, %r8d
	jmp	.LBB28_234
	.p2align	4
.LBB28_233:
	movq	%r11, %r9
	cmpq	%r9, %r8
	jae	.LBB28_237
.LBB28_234:
	movq	%r9, %r10
	subq	%r8, %r10
	shrq	%r10
	leaq	(%r10,%r8), %r11
	cmpq	%rcx, (%r12,%r11,8)
	jge	.LBB28_233
	addq	%r10, %r8
	incq	%r8
	cmpq	%r9, %r8
	jb	.LBB28_234
.LBB28_237:
	movb	%r8b, 224(%rsp,%rdx)
	leaq	(%rax,%r15), %rdx
	cmpq	$63, %rdx
	ja	.LBB28_227
.LBB28_238:
	movl	%r15d, %ecx
	shlq	%cl, %r14
	orq	%r8, %r14
	movq	%rdx, %rax
	incq	%rdi
	cmpq	16(%rsp), %rdi
	jne	.LBB28_228
	jmp	.LBB28_239
.LBB28_236:
	xorl	%r8d, %r8d
	movb	%r8b, 224(%rsp,%rdx)
	leaq	(%rax,%r15), %rdx
	cmpq	$63, %rdx
	ja	.LBB28_227
	jmp	.LBB28_238
.LBB28_239:
	leaq	7(%rax), %rdx
	shrq	$3, %rdx
	notb	%al
	movl	%eax, %ecx
	shlq	%cl, %r14
	addq	%r14, %r14
	addq	%rsi, %rbx
	bswapq	%r14
	movq	%r14, 136(%rsp)
	jmp	.LBB28_242
.LBB28_240:
	xorl	%r8d, %r8d
	xorl	%esi, %esi
	xorl	%edi, %edi
.LBB28_241:
	leaq	7(%rsi), %rdx
	shrq	$3, %rdx
	notb	%sil
	movl	%esi, %ecx
	shlq	%cl, %rdi
	addq	%rdi, %rdi
	addq	%r8, %rbx
	bswapq	%rdi
	movq	%rdi, 136(%rsp)
.LBB28_242:
	leaq	136(%rsp), %rsi
	movq	%rbx, %rdi
	callq	memcpy@PLT
.LBB28_243:
	movq	160(%rsp), %rax
	movq	$0, (%rax)
	movq	192(%rsp), %rcx
	movq	%rcx, 8(%rax)
	movq	$0, 16(%rax)
.LBB28_244:
	addq	$4328, %rsp
	popq	%rbx
	popq	%r12
	popq	%r13
	popq	%r14
	popq	%r15
	popq	%rbp
	retq
.LBB28_245:
	ud2
.Lfunc_end28:
	.size	"writer::write_by", .Lfunc_end28-"writer::write_by"

	.section	".text.scaled_values::put_numbers","ax",@progbits
	.p2align	4
	.type	"scaled_values::put_numbers",@function
"scaled_values::put_numbers":
	pushq	%rbp
	pushq	%r15
	pushq	%r14
	pushq	%r13
	pushq	%r12
	pushq	%rbx
	pushq	%rax
	movq	%rcx, %rbx
	movq	%rdx, %r10
	movabsq	$-4294967296, %rax
	leaq	(%r9,%rax), %rcx
	orq	$2, %rax
	cmpq	%rax, %rcx
	jae	.LBB29_2
	xorl	%r11d, %r11d
	testq	%rbx, %rbx
	je	.LBB29_48
.LBB29_4:
	movq	64(%rsp), %r12
	cmpb	$1, %sil
	jne	.LBB29_23
	cmpq	$1, %r9
	jne	.LBB29_6
	xorl	%r9d, %r9d
	xorl	%esi, %esi
	xorl	%ecx, %ecx
	xorl	%r14d, %r14d
	jmp	.LBB29_13
	.p2align	4
.LBB29_15:
	incq	%rsi
	movq	%rax, %r9
	movq	%rdx, %rcx
	cmpq	%rsi, %rbx
	je	.LBB29_21
.LBB29_13:
	movq	(%r10,%rsi,8), %r11
	movabsq	$-9223372036854775808, %rax
	xorq	%rax, %r11
	subq	%r8, %r11
	movq	%r11, %rax
	shlq	%cl, %rax
	leaq	(%rcx,%r12), %rdx
	orq	%r9, %rax
	cmpq	$64, %rdx
	jb	.LBB29_15
	movq	%rax, (%rdi,%r14)
	addq	$8, %r14
	addq	$-64, %rdx
	shrq	%r11
	notb	%cl
	shrq	%cl, %r11
	movq	%r11, %rax
	jmp	.LBB29_15
.LBB29_2:
	movabsq	$4294967296, %rax
	xorl	%edx, %edx
	divq	%r9
	movq	%rax, %r11
	incq	%r11
	testq	%rbx, %rbx
	jne	.LBB29_4
.LBB29_48:
	xorl	%edx, %edx
	movl	$0, %ebp
	movl	$0, %r13d
	movl	$0, %eax
	movl	$0, %r14d
	testb	$1, %sil
	jne	.LBB29_22
	jmp	.LBB29_49
.LBB29_23:
	xorl	%r13d, %r13d
	cmpq	$1, %r9
	jne	.LBB29_29
	xorl	%edx, %edx
	xorl	%eax, %eax
	xorl	%ebp, %ebp
	jmp	.LBB29_25
	.p2align	4
.LBB29_27:
	movl	%r12d, %ecx
	shlq	%cl, %r13
	orq	%rsi, %r13
.LBB29_28:
	incq	%rdx
	movq	%r15, %rax
	cmpq	%rdx, %rbx
	je	.LBB29_47
.LBB29_25:
	movq	(%r10,%rdx,8), %rsi
	movabsq	$-9223372036854775808, %rcx
	xorq	%rcx, %rsi
	subq	%r8, %rsi
	leaq	(%rax,%r12), %r15
	cmpq	$64, %r15
	jb	.LBB29_27
	movq	%rsi, %r9
	movl	%r15d, %ecx
	shrq	%cl, %r9
	notb	%al
	movl	%eax, %ecx
	shlq	%cl, %r13
	leaq	-64(%r15), %rax
	addq	%r13, %r13
	orq	%r9, %r13
	bswapq	%r13
	movq	%r13, (%rdi,%rbp)
	movq	$-1, %r13
	movl	%r15d, %ecx
	shlq	%cl, %r13
	addq	$8, %rbp
	notq	%r13
	andq	%rsi, %r13
	movq	%rax, %r15
	jmp	.LBB29_28
.LBB29_6:
	xorl	%r15d, %r15d
	xorl	%esi, %esi
	xorl	%ecx, %ecx
	xorl	%r14d, %r14d
	jmp	.LBB29_7
	.p2align	4
.LBB29_20:
	incq	%rsi
	movq	%rax, %r15
	movq	%rdx, %rcx
	cmpq	%rsi, %rbx
	je	.LBB29_21
.LBB29_7:
	movq	(%r10,%rsi,8), %rdx
	movabsq	$-9223372036854775808, %rax
	xorq	%rax, %rdx
	subq	%r8, %rdx
	movq	%rdx, %rax
	shrq	$32, %rax
	jne	.LBB29_9
	movq	%rdx, %r13
	imulq	%r11, %r13
	shrq	$32, %r13
	movq	%r13, %rax
	imulq	%r9, %rax
	cmpq	%rdx, %rax
	je	.LBB29_18
.LBB29_9:
	testq	%r9, %r9
	je	.LBB29_16
	movq	%rdx, %rax
	orq	%r9, %rax
	shrq	$32, %rax
	je	.LBB29_11
	movq	%rdx, %rax
	xorl	%edx, %edx
	divq	%r9
	movq	%rax, %r13
	jmp	.LBB29_18
	.p2align	4
.LBB29_11:
	movl	%edx, %eax
	xorl	%edx, %edx
	divl	%r9d
	movl	%eax, %r13d
.LBB29_18:
	movq	%r13, %rax
	shlq	%cl, %rax
	leaq	(%rcx,%r12), %rdx
	orq	%r15, %rax
	cmpq	$64, %rdx
	jb	.LBB29_20
	movq	%rax, (%rdi,%r14)
	addq	$8, %r14
	addq	$-64, %rdx
	shrq	%r13
	notb	%cl
	shrq	%cl, %r13
	movq	%r13, %rax
	jmp	.LBB29_20
.LBB29_21:
	addq	$7, %rdx
	shrq	$3, %rdx
.LBB29_22:
	addq	%r14, %rdi
	movq	%rax, (%rsp)
	jmp	.LBB29_50
.LBB29_29:
	testq	%r9, %r9
	je	.LBB29_34
	xorl	%esi, %esi
	xorl	%r14d, %r14d
	xorl	%ebp, %ebp
	jmp	.LBB29_31
	.p2align	4
.LBB29_45:
	movq	%rax, %rdx
	movl	%r15d, %ecx
	shrq	%cl, %rdx
	notb	%r14b
	movl	%r14d, %ecx
	shlq	%cl, %r13
	leaq	-64(%r15), %r14
	addq	%r13, %r13
	orq	%rdx, %r13
	bswapq	%r13
	movq	%r13, (%rdi,%rbp)
	movq	$-1, %r13
	movl	%r15d, %ecx
	shlq	%cl, %r13
	addq	$8, %rbp
	notq	%r13
	andq	%rax, %r13
	movq	%r14, %r15
	incq	%rsi
	movq	%r15, %r14
	cmpq	%rsi, %rbx
	je	.LBB29_47
.LBB29_31:
	movq	(%r10,%rsi,8), %rcx
	movabsq	$-9223372036854775808, %rax
	xorq	%rax, %rcx
	subq	%r8, %rcx
	movq	%rcx, %rax
	shrq	$32, %rax
	jne	.LBB29_32
	movq	%rcx, %rax
	imulq	%r11, %rax
	shrq	$32, %rax
	movq	%rax, %rdx
	imulq	%r9, %rdx
	cmpq	%rcx, %rdx
	je	.LBB29_43
.LBB29_32:
	movq	%rcx, %rax
	orq	%r9, %rax
	shrq	$32, %rax
	je	.LBB29_33
	movq	%rcx, %rax
	xorl	%edx, %edx
	divq	%r9
.LBB29_43:
	leaq	(%r14,%r12), %r15
	cmpq	$63, %r15
	ja	.LBB29_45
	jmp	.LBB29_44
	.p2align	4
.LBB29_33:
	movl	%ecx, %eax
	xorl	%edx, %edx
	divl	%r9d
	leaq	(%r14,%r12), %r15
	cmpq	$63, %r15
	ja	.LBB29_45
.LBB29_44:
	movl	%r12d, %ecx
	shlq	%cl, %r13
	orq	%rax, %r13
	incq	%rsi
	movq	%r15, %r14
	cmpq	%rsi, %rbx
	jne	.LBB29_31
.LBB29_47:
	leaq	7(%r15), %rdx
	notb	%r15b
	movl	%r15d, %ecx
	shlq	%cl, %r13
	shrq	$3, %rdx
	addq	%r13, %r13
	bswapq	%r13
.LBB29_49:
	addq	%rbp, %rdi
	movq	%r13, (%rsp)
.LBB29_50:
	movq	%rsp, %rsi
	callq	memcpy@PLT
	addq	$8, %rsp
	popq	%rbx
	popq	%r12
	popq	%r13
	popq	%r14
	popq	%r15
	popq	%rbp
	retq
.LBB29_34:
	xorl	%edx, %edx
	xorl	%eax, %eax
	xorl	%ebp, %ebp
	jmp	.LBB29_35
	.p2align	4
.LBB29_39:
	movl	%r12d, %ecx
	shlq	%cl, %r13
	orq	%rsi, %r13
.LBB29_40:
	incq	%rdx
	movq	%r15, %rax
	cmpq	%rdx, %rbx
	je	.LBB29_47
.LBB29_35:
	movq	(%r10,%rdx,8), %rcx
	movabsq	$-9223372036854775808, %rsi
	xorq	%rsi, %rcx
	movq	%rcx, %rsi
	subq	%r8, %rsi
	movq	%rsi, %r9
	shrq	$32, %r9
	jne	.LBB29_16
	cmpq	%r8, %rcx
	jne	.LBB29_16
	imulq	%r11, %rsi
	shrq	$32, %rsi
	leaq	(%rax,%r12), %r15
	cmpq	$64, %r15
	jb	.LBB29_39
	movq	%rsi, %r9
	movl	%r15d, %ecx
	shrq	%cl, %r9
	notb	%al
	movl	%eax, %ecx
	shlq	%cl, %r13
	addq	%r13, %r13
	orq	%r9, %r13
	bswapq	%r13
	leaq	-64(%r15), %rax
	movq	%r13, (%rdi,%rbp)
	addq	$8, %rbp
	movq	$-1, %r9
	movl	%r15d, %ecx
	shlq	%cl, %r9
	notl	%r9d
	andl	%r9d, %esi
	movq	%rax, %r15
	movq	%rsi, %r13
	jmp	.LBB29_40
.LBB29_16:
	ud2
.Lfunc_end29:
	.size	"scaled_values::put_numbers", .Lfunc_end29-"scaled_values::put_numbers"

	.section	.text.signalfern_abi_0_2,"ax",@progbits
	.globl	signalfern_abi_0_2
	.p2align	4
	.type	signalfern_abi_0_2,@function
signalfern_abi_0_2:
	movl	$2, %eax
	retq
.Lfunc_end30:
	.size	signalfern_abi_0_2, .Lfunc_end30-signalfern_abi_0_2

	.section	.text.signalfern_check_to,"ax",@progbits
	.globl	signalfern_check_to
	.p2align	4
	.type	signalfern_check_to,@function
signalfern_check_to:
	pushq	%r15
	pushq	%r14
	pushq	%r12
	pushq	%rbx
	subq	$168, %rsp
	movq	%rdx, %rbx
	movq	%rsi, %r14
	xorl	%r15d, %r15d
	testq	%rdi, %rdi
	sete	%r15b
	shll	$12, %r15d
	addq	%rdi, %r15
	xorps	%xmm0, %xmm0
	movaps	%xmm0, 64(%rsp)
	movaps	%xmm0, 48(%rsp)
	movaps	%xmm0, 32(%rsp)
	movaps	%xmm0, 16(%rsp)
	movaps	%xmm0, (%rsp)
	movq	$0, 80(%rsp)
	movq	%rsp, %rdi
	movq	%r15, %rsi
	movq	%r14, %rdx
	callq	"column::Column::open"
	movq	8(%rsp), %rax
	movq	16(%rsp), %r12
	cmpb	$0, (%rsp)
	je	.LBB31_1
	movzbl	%al, %ecx
	leaq	.LJTI31_0(%rip), %rax
	movslq	(%rax,%rcx,4), %rdx
	addq	%rax, %rdx
	jmpq	*%rdx
.LBB31_4:
	movl	$1, %eax
	jmp	.LBB31_21
.LBB31_1:
	movq	%rax, 88(%rsp)
	movq	%r12, 96(%rsp)
	movups	24(%rsp), %xmm0
	movups	40(%rsp), %xmm1
	movups	56(%rsp), %xmm2
	movups	72(%rsp), %xmm3
	movups	%xmm0, 104(%rsp)
	movups	%xmm1, 120(%rsp)
	movups	%xmm2, 136(%rsp)
	movups	%xmm3, 152(%rsp)
	leaq	88(%rsp), %rdx
	movq	%r15, %rdi
	movq	%r14, %rsi
	callq	"checking::accepts"
	testb	%al, %al
	je	.LBB31_14
	movq	$0, (%rbx)
	movq	%r12, 8(%rbx)
	jmp	.LBB31_22
.LBB31_14:
	movl	$13, %eax
	xorl	%ecx, %ecx
	jmp	.LBB31_21
.LBB31_17:
	movl	$16, %eax
	xorl	%ecx, %ecx
	jmp	.LBB31_21
.LBB31_13:
	movl	$12, %eax
	jmp	.LBB31_20
.LBB31_6:
	movl	$4, %eax
	jmp	.LBB31_20
.LBB31_15:
	movl	$14, %eax
	xorl	%ecx, %ecx
	jmp	.LBB31_21
.LBB31_11:
	movl	$10, %eax
	xorl	%ecx, %ecx
	jmp	.LBB31_21
.LBB31_5:
	movl	$2, %eax
	xorl	%ecx, %ecx
	jmp	.LBB31_21
.LBB31_18:
	movl	$17, %eax
	xorl	%ecx, %ecx
	jmp	.LBB31_21
.LBB31_19:
	movl	$3, %eax
	jmp	.LBB31_20
.LBB31_9:
	movl	$8, %eax
	jmp	.LBB31_20
.LBB31_7:
	movl	$6, %eax
	jmp	.LBB31_20
.LBB31_16:
	movl	$15, %eax
	xorl	%ecx, %ecx
	jmp	.LBB31_21
.LBB31_8:
	movl	$7, %eax
.LBB31_20:
	movq	%r12, %rcx
.LBB31_21:
	movq	%rax, (%rbx)
	movq	%rcx, 8(%rbx)
.LBB31_22:
	addq	$168, %rsp
	popq	%rbx
	popq	%r12
	popq	%r14
	popq	%r15
	retq
.LBB31_12:
	movl	$11, %eax
	xorl	%ecx, %ecx
	jmp	.LBB31_21
.LBB31_10:
	movl	$9, %eax
	xorl	%ecx, %ecx
	jmp	.LBB31_21
.Lfunc_end31:
	.size	signalfern_check_to, .Lfunc_end31-signalfern_check_to
	.section	.rodata.signalfern_check_to,"a",@progbits
	.p2align	2, 0x0
.LJTI31_0:
	.long	.LBB31_4-.LJTI31_0
	.long	.LBB31_5-.LJTI31_0
	.long	.LBB31_19-.LJTI31_0
	.long	.LBB31_6-.LJTI31_0
	.long	.LBB31_7-.LJTI31_0
	.long	.LBB31_8-.LJTI31_0
	.long	.LBB31_9-.LJTI31_0
	.long	.LBB31_10-.LJTI31_0
	.long	.LBB31_11-.LJTI31_0
	.long	.LBB31_12-.LJTI31_0
	.long	.LBB31_13-.LJTI31_0
	.long	.LBB31_14-.LJTI31_0
	.long	.LBB31_15-.LJTI31_0
	.long	.LBB31_16-.LJTI31_0
	.long	.LBB31_17-.LJTI31_0
	.long	.LBB31_18-.LJTI31_0

	.section	.text.signalfern_first_between_from_in_to,"ax",@progbits
	.globl	signalfern_first_between_from_in_to
	.p2align	4
	.type	signalfern_first_between_from_in_to,@function
signalfern_first_between_from_in_to:
	pushq	%rbx
	subq	$128, %rsp
	movq	%r8, %rax
	movq	%rcx, %r8
	movq	%rdx, %rcx
	xorl	%edx, %edx
	testq	%rsi, %rsi
	sete	%dl
	shll	$12, %edx
	addq	%rsi, %rdx
	movq	16(%rdi), %rsi
	decq	%rsi
	cmpq	$3, %rsi
	ja	.LBB32_2
	movq	56(%rdi), %r10
	jmp	.LBB32_3
.LBB32_2:
	movl	$65, %r10d
	xorl	%esi, %esi
.LBB32_3:
	movq	144(%rsp), %rbx
	movq	%rsi, 48(%rsp)
	movups	24(%rdi), %xmm0
	movups	%xmm0, 56(%rsp)
	movups	40(%rdi), %xmm0
	movups	%xmm0, 72(%rsp)
	movq	%r10, 88(%rsp)
	movups	64(%rdi), %xmm0
	movups	%xmm0, 96(%rsp)
	movups	80(%rdi), %xmm0
	movups	%xmm0, 112(%rsp)
	xorps	%xmm0, %xmm0
	movaps	%xmm0, 16(%rsp)
	movq	$0, 32(%rsp)
	movq	%r9, (%rsp)
	leaq	16(%rsp), %rdi
	leaq	48(%rsp), %rsi
	movq	%rax, %r9
	callq	"between::first_between_from_in"
	movzbl	24(%rsp), %edx
	movq	32(%rsp), %rax
	cmpb	$0, 16(%rsp)
	je	.LBB32_6
	movl	%edx, %ecx
	leaq	.LJTI32_0(%rip), %rsi
	movslq	(%rsi,%rcx,4), %rcx
	addq	%rsi, %rcx
	jmpq	*%rcx
.LBB32_5:
	movl	$1, %ecx
	movq	%rdx, %rax
	jmp	.LBB32_25
.LBB32_6:
	cmpl	$1, %edx
	jne	.LBB32_8
	xorps	%xmm0, %xmm0
	movups	%xmm0, (%rbx)
	movq	%rax, 16(%rbx)
	addq	$128, %rsp
	popq	%rbx
	retq
.LBB32_8:
	movq	$1, (%rbx)
	xorps	%xmm0, %xmm0
	movups	%xmm0, 8(%rbx)
	addq	$128, %rsp
	popq	%rbx
	retq
.LBB32_9:
	movl	$16, %ecx
	jmp	.LBB32_24
.LBB32_10:
	movl	$13, %ecx
	jmp	.LBB32_24
.LBB32_11:
	movl	$6, %ecx
	jmp	.LBB32_25
.LBB32_12:
	movl	$14, %ecx
	jmp	.LBB32_24
.LBB32_13:
	movl	$11, %ecx
	jmp	.LBB32_24
.LBB32_14:
	movl	$3, %ecx
	jmp	.LBB32_25
.LBB32_15:
	movl	$17, %ecx
	jmp	.LBB32_24
.LBB32_16:
	movl	$4, %ecx
	jmp	.LBB32_25
.LBB32_17:
	movl	$9, %ecx
	jmp	.LBB32_24
.LBB32_18:
	movl	$2, %ecx
	jmp	.LBB32_24
.LBB32_19:
	movl	$7, %ecx
	jmp	.LBB32_25
.LBB32_20:
	movl	$15, %ecx
	jmp	.LBB32_24
.LBB32_21:
	movl	$8, %ecx
	jmp	.LBB32_25
.LBB32_22:
	movl	$12, %ecx
	jmp	.LBB32_25
.LBB32_23:
	movl	$10, %ecx
.LBB32_24:
	xorl	%eax, %eax
.LBB32_25:
	movq	%rcx, (%rbx)
	movq	%rax, 8(%rbx)
	movq	$0, 16(%rbx)
	addq	$128, %rsp
	popq	%rbx
	retq
.Lfunc_end32:
	.size	signalfern_first_between_from_in_to, .Lfunc_end32-signalfern_first_between_from_in_to
	.section	.rodata.signalfern_first_between_from_in_to,"a",@progbits
	.p2align	2, 0x0
.LJTI32_0:
	.long	.LBB32_5-.LJTI32_0
	.long	.LBB32_18-.LJTI32_0
	.long	.LBB32_14-.LJTI32_0
	.long	.LBB32_16-.LJTI32_0
	.long	.LBB32_11-.LJTI32_0
	.long	.LBB32_19-.LJTI32_0
	.long	.LBB32_21-.LJTI32_0
	.long	.LBB32_17-.LJTI32_0
	.long	.LBB32_23-.LJTI32_0
	.long	.LBB32_13-.LJTI32_0
	.long	.LBB32_22-.LJTI32_0
	.long	.LBB32_10-.LJTI32_0
	.long	.LBB32_12-.LJTI32_0
	.long	.LBB32_20-.LJTI32_0
	.long	.LBB32_9-.LJTI32_0
	.long	.LBB32_15-.LJTI32_0

	.section	.text.signalfern_first_between_from_to,"ax",@progbits
	.globl	signalfern_first_between_from_to
	.p2align	4
	.type	signalfern_first_between_from_to,@function
signalfern_first_between_from_to:
	pushq	%rbx
	subq	$32, %rsp
	movq	%r9, %rbx
	movq	%r8, %r9
	movq	%rcx, %r8
	movq	%rdx, %rcx
	movq	%rsi, %rdx
	xorl	%esi, %esi
	testq	%rdi, %rdi
	sete	%sil
	shll	$12, %esi
	addq	%rdi, %rsi
	xorps	%xmm0, %xmm0
	movaps	%xmm0, (%rsp)
	movq	$0, 16(%rsp)
	movq	%rsp, %rdi
	callq	"between::first_between_from"
	movzbl	8(%rsp), %edx
	movq	16(%rsp), %rax
	cmpb	$0, (%rsp)
	je	.LBB33_3
	movl	%edx, %ecx
	leaq	.LJTI33_0(%rip), %rsi
	movslq	(%rsi,%rcx,4), %rcx
	addq	%rsi, %rcx
	jmpq	*%rcx
.LBB33_2:
	movl	$1, %ecx
	movq	%rdx, %rax
	jmp	.LBB33_22
.LBB33_3:
	cmpl	$1, %edx
	jne	.LBB33_5
	xorps	%xmm0, %xmm0
	movups	%xmm0, (%rbx)
	movq	%rax, 16(%rbx)
	addq	$32, %rsp
	popq	%rbx
	retq
.LBB33_5:
	movq	$1, (%rbx)
	xorps	%xmm0, %xmm0
	movups	%xmm0, 8(%rbx)
	addq	$32, %rsp
	popq	%rbx
	retq
.LBB33_6:
	movl	$16, %ecx
	jmp	.LBB33_21
.LBB33_7:
	movl	$13, %ecx
	jmp	.LBB33_21
.LBB33_8:
	movl	$6, %ecx
	jmp	.LBB33_22
.LBB33_9:
	movl	$14, %ecx
	jmp	.LBB33_21
.LBB33_10:
	movl	$11, %ecx
	jmp	.LBB33_21
.LBB33_11:
	movl	$3, %ecx
	jmp	.LBB33_22
.LBB33_12:
	movl	$17, %ecx
	jmp	.LBB33_21
.LBB33_13:
	movl	$4, %ecx
	jmp	.LBB33_22
.LBB33_14:
	movl	$9, %ecx
	jmp	.LBB33_21
.LBB33_15:
	movl	$2, %ecx
	jmp	.LBB33_21
.LBB33_16:
	movl	$7, %ecx
	jmp	.LBB33_22
.LBB33_17:
	movl	$15, %ecx
	jmp	.LBB33_21
.LBB33_18:
	movl	$8, %ecx
	jmp	.LBB33_22
.LBB33_19:
	movl	$12, %ecx
	jmp	.LBB33_22
.LBB33_20:
	movl	$10, %ecx
.LBB33_21:
	xorl	%eax, %eax
.LBB33_22:
	movq	%rcx, (%rbx)
	movq	%rax, 8(%rbx)
	movq	$0, 16(%rbx)
	addq	$32, %rsp
	popq	%rbx
	retq
.Lfunc_end33:
	.size	signalfern_first_between_from_to, .Lfunc_end33-signalfern_first_between_from_to
	.section	.rodata.signalfern_first_between_from_to,"a",@progbits
	.p2align	2, 0x0
.LJTI33_0:
	.long	.LBB33_2-.LJTI33_0
	.long	.LBB33_15-.LJTI33_0
	.long	.LBB33_11-.LJTI33_0
	.long	.LBB33_13-.LJTI33_0
	.long	.LBB33_8-.LJTI33_0
	.long	.LBB33_16-.LJTI33_0
	.long	.LBB33_18-.LJTI33_0
	.long	.LBB33_14-.LJTI33_0
	.long	.LBB33_20-.LJTI33_0
	.long	.LBB33_10-.LJTI33_0
	.long	.LBB33_19-.LJTI33_0
	.long	.LBB33_7-.LJTI33_0
	.long	.LBB33_9-.LJTI33_0
	.long	.LBB33_17-.LJTI33_0
	.long	.LBB33_6-.LJTI33_0
	.long	.LBB33_12-.LJTI33_0

	.section	.text.signalfern_first_between_in_to,"ax",@progbits
	.globl	signalfern_first_between_in_to
	.p2align	4
	.type	signalfern_first_between_in_to,@function
signalfern_first_between_in_to:
	pushq	%rbx
	subq	$128, %rsp
	movq	%r9, %rbx
	movq	%rcx, %r9
	movq	%rdx, %rcx
	xorl	%edx, %edx
	testq	%rsi, %rsi
	sete	%dl
	shll	$12, %edx
	addq	%rsi, %rdx
	movq	16(%rdi), %rax
	decq	%rax
	cmpq	$3, %rax
	ja	.LBB34_2
	movq	56(%rdi), %rsi
	jmp	.LBB34_3
.LBB34_2:
	movl	$65, %esi
	xorl	%eax, %eax
.LBB34_3:
	movq	%rax, 48(%rsp)
	movups	24(%rdi), %xmm0
	movups	%xmm0, 56(%rsp)
	movups	40(%rdi), %xmm0
	movups	%xmm0, 72(%rsp)
	movq	%rsi, 88(%rsp)
	movups	64(%rdi), %xmm0
	movups	%xmm0, 96(%rsp)
	movups	80(%rdi), %xmm0
	movups	%xmm0, 112(%rsp)
	xorps	%xmm0, %xmm0
	movaps	%xmm0, 16(%rsp)
	movq	$0, 32(%rsp)
	movq	%r8, (%rsp)
	leaq	16(%rsp), %rdi
	leaq	48(%rsp), %rsi
	xorl	%r8d, %r8d
	callq	"between::first_between_from_in"
	movzbl	24(%rsp), %edx
	movq	32(%rsp), %rax
	cmpb	$0, 16(%rsp)
	je	.LBB34_6
	movl	%edx, %ecx
	leaq	.LJTI34_0(%rip), %rsi
	movslq	(%rsi,%rcx,4), %rcx
	addq	%rsi, %rcx
	jmpq	*%rcx
.LBB34_5:
	movl	$1, %ecx
	movq	%rdx, %rax
	jmp	.LBB34_25
.LBB34_6:
	cmpl	$1, %edx
	jne	.LBB34_8
	xorps	%xmm0, %xmm0
	movups	%xmm0, (%rbx)
	movq	%rax, 16(%rbx)
	addq	$128, %rsp
	popq	%rbx
	retq
.LBB34_8:
	movq	$1, (%rbx)
	xorps	%xmm0, %xmm0
	movups	%xmm0, 8(%rbx)
	addq	$128, %rsp
	popq	%rbx
	retq
.LBB34_9:
	movl	$16, %ecx
	jmp	.LBB34_24
.LBB34_10:
	movl	$13, %ecx
	jmp	.LBB34_24
.LBB34_11:
	movl	$6, %ecx
	jmp	.LBB34_25
.LBB34_12:
	movl	$14, %ecx
	jmp	.LBB34_24
.LBB34_13:
	movl	$11, %ecx
	jmp	.LBB34_24
.LBB34_14:
	movl	$3, %ecx
	jmp	.LBB34_25
.LBB34_15:
	movl	$17, %ecx
	jmp	.LBB34_24
.LBB34_16:
	movl	$4, %ecx
	jmp	.LBB34_25
.LBB34_17:
	movl	$9, %ecx
	jmp	.LBB34_24
.LBB34_18:
	movl	$2, %ecx
	jmp	.LBB34_24
.LBB34_19:
	movl	$7, %ecx
	jmp	.LBB34_25
.LBB34_20:
	movl	$15, %ecx
	jmp	.LBB34_24
.LBB34_21:
	movl	$8, %ecx
	jmp	.LBB34_25
.LBB34_22:
	movl	$12, %ecx
	jmp	.LBB34_25
.LBB34_23:
	movl	$10, %ecx
.LBB34_24:
	xorl	%eax, %eax
.LBB34_25:
	movq	%rcx, (%rbx)
	movq	%rax, 8(%rbx)
	movq	$0, 16(%rbx)
	addq	$128, %rsp
	popq	%rbx
	retq
.Lfunc_end34:
	.size	signalfern_first_between_in_to, .Lfunc_end34-signalfern_first_between_in_to
	.section	.rodata.signalfern_first_between_in_to,"a",@progbits
	.p2align	2, 0x0
.LJTI34_0:
	.long	.LBB34_5-.LJTI34_0
	.long	.LBB34_18-.LJTI34_0
	.long	.LBB34_14-.LJTI34_0
	.long	.LBB34_16-.LJTI34_0
	.long	.LBB34_11-.LJTI34_0
	.long	.LBB34_19-.LJTI34_0
	.long	.LBB34_21-.LJTI34_0
	.long	.LBB34_17-.LJTI34_0
	.long	.LBB34_23-.LJTI34_0
	.long	.LBB34_13-.LJTI34_0
	.long	.LBB34_22-.LJTI34_0
	.long	.LBB34_10-.LJTI34_0
	.long	.LBB34_12-.LJTI34_0
	.long	.LBB34_20-.LJTI34_0
	.long	.LBB34_9-.LJTI34_0
	.long	.LBB34_15-.LJTI34_0

	.section	.text.signalfern_first_between_to,"ax",@progbits
	.globl	signalfern_first_between_to
	.p2align	4
	.type	signalfern_first_between_to,@function
signalfern_first_between_to:
	pushq	%rbx
	subq	$32, %rsp
	movq	%r8, %rbx
	movq	%rcx, %r9
	movq	%rdx, %r8
	movq	%rsi, %rdx
	xorl	%esi, %esi
	testq	%rdi, %rdi
	sete	%sil
	shll	$12, %esi
	addq	%rdi, %rsi
	xorps	%xmm0, %xmm0
	movaps	%xmm0, (%rsp)
	movq	$0, 16(%rsp)
	movq	%rsp, %rdi
	xorl	%ecx, %ecx
	callq	"between::first_between_from"
	movzbl	8(%rsp), %edx
	movq	16(%rsp), %rax
	cmpb	$0, (%rsp)
	je	.LBB35_3
	movl	%edx, %ecx
	leaq	.LJTI35_0(%rip), %rsi
	movslq	(%rsi,%rcx,4), %rcx
	addq	%rsi, %rcx
	jmpq	*%rcx
.LBB35_2:
	movl	$1, %ecx
	movq	%rdx, %rax
	jmp	.LBB35_22
.LBB35_3:
	cmpl	$1, %edx
	jne	.LBB35_5
	xorps	%xmm0, %xmm0
	movups	%xmm0, (%rbx)
	movq	%rax, 16(%rbx)
	addq	$32, %rsp
	popq	%rbx
	retq
.LBB35_5:
	movq	$1, (%rbx)
	xorps	%xmm0, %xmm0
	movups	%xmm0, 8(%rbx)
	addq	$32, %rsp
	popq	%rbx
	retq
.LBB35_6:
	movl	$16, %ecx
	jmp	.LBB35_21
.LBB35_7:
	movl	$13, %ecx
	jmp	.LBB35_21
.LBB35_8:
	movl	$6, %ecx
	jmp	.LBB35_22
.LBB35_9:
	movl	$14, %ecx
	jmp	.LBB35_21
.LBB35_10:
	movl	$11, %ecx
	jmp	.LBB35_21
.LBB35_11:
	movl	$3, %ecx
	jmp	.LBB35_22
.LBB35_12:
	movl	$17, %ecx
	jmp	.LBB35_21
.LBB35_13:
	movl	$4, %ecx
	jmp	.LBB35_22
.LBB35_14:
	movl	$9, %ecx
	jmp	.LBB35_21
.LBB35_15:
	movl	$2, %ecx
	jmp	.LBB35_21
.LBB35_16:
	movl	$7, %ecx
	jmp	.LBB35_22
.LBB35_17:
	movl	$15, %ecx
	jmp	.LBB35_21
.LBB35_18:
	movl	$8, %ecx
	jmp	.LBB35_22
.LBB35_19:
	movl	$12, %ecx
	jmp	.LBB35_22
.LBB35_20:
	movl	$10, %ecx
.LBB35_21:
	xorl	%eax, %eax
.LBB35_22:
	movq	%rcx, (%rbx)
	movq	%rax, 8(%rbx)
	movq	$0, 16(%rbx)
	addq	$32, %rsp
	popq	%rbx
	retq
.Lfunc_end35:
	.size	signalfern_first_between_to, .Lfunc_end35-signalfern_first_between_to
	.section	.rodata.signalfern_first_between_to,"a",@progbits
	.p2align	2, 0x0
.LJTI35_0:
	.long	.LBB35_2-.LJTI35_0
	.long	.LBB35_15-.LJTI35_0
	.long	.LBB35_11-.LJTI35_0
	.long	.LBB35_13-.LJTI35_0
	.long	.LBB35_8-.LJTI35_0
	.long	.LBB35_16-.LJTI35_0
	.long	.LBB35_18-.LJTI35_0
	.long	.LBB35_14-.LJTI35_0
	.long	.LBB35_20-.LJTI35_0
	.long	.LBB35_10-.LJTI35_0
	.long	.LBB35_19-.LJTI35_0
	.long	.LBB35_7-.LJTI35_0
	.long	.LBB35_9-.LJTI35_0
	.long	.LBB35_17-.LJTI35_0
	.long	.LBB35_6-.LJTI35_0
	.long	.LBB35_12-.LJTI35_0

	.section	.text.signalfern_judge_section_to,"ax",@progbits
	.globl	signalfern_judge_section_to
	.p2align	4
	.type	signalfern_judge_section_to,@function
signalfern_judge_section_to:
	pushq	%rbx
	subq	$32, %rsp
	movq	%r9, %rbx
	movq	%rcx, %rax
	movq	%rdx, %r9
	movq	%rsi, %rdx
	xorps	%xmm0, %xmm0
	movaps	%xmm0, (%rsp)
	movq	$0, 16(%rsp)
	testq	%rcx, %rcx
	setne	%cl
	leaq	-16(%rax), %rsi
	cmpq	$-9, %rsi
	setb	%sil
	cmpq	$32767, %r9
	ja	.LBB36_5
	andb	%sil, %cl
	jne	.LBB36_5
	xorl	%esi, %esi
	testq	%rdi, %rdi
	sete	%sil
	shll	$12, %esi
	addq	%rdi, %rsi
	xorl	%ecx, %ecx
	testl	%r8d, %r8d
	setne	%cl
	movq	%rsp, %rdi
	movq	%rax, %r8
	callq	"section_check::judge"
	cmpb	$0, (%rsp)
	je	.LBB36_3
	movzbl	8(%rsp), %eax
	movq	16(%rsp), %rcx
	incq	%rax
	movq	$1, (%rbx)
	movq	$0, 8(%rbx)
	movq	%rcx, 16(%rbx)
	movq	%rax, 24(%rbx)
	addq	$32, %rsp
	popq	%rbx
	retq
.LBB36_5:
	movq	$10, (%rbx)
	movups	%xmm0, 8(%rbx)
	movq	$0, 24(%rbx)
	addq	$32, %rsp
	popq	%rbx
	retq
.LBB36_3:
	movq	8(%rsp), %rax
	movq	$0, (%rbx)
	movq	%rax, 8(%rbx)
	xorps	%xmm0, %xmm0
	movups	%xmm0, 16(%rbx)
	addq	$32, %rsp
	popq	%rbx
	retq
.Lfunc_end36:
	.size	signalfern_judge_section_to, .Lfunc_end36-signalfern_judge_section_to

	.section	.text.signalfern_layered_values_to,"ax",@progbits
	.globl	signalfern_layered_values_to
	.p2align	4
	.type	signalfern_layered_values_to,@function
signalfern_layered_values_to:
	pushq	%rbp
	pushq	%r15
	pushq	%r14
	pushq	%r13
	pushq	%r12
	pushq	%rbx
	subq	$104, %rsp
	movq	%r9, 96(%rsp)
	movl	%r8d, %ebp
	movq	%rcx, %r12
	movq	%rsi, 88(%rsp)
	movq	%rdi, %r15
	xorl	%r14d, %r14d
	testq	%rdi, %rdi
	sete	%bl
	xorl	%r13d, %r13d
	testq	%rdx, %rdx
	sete	%r13b
	shll	$12, %r13d
	addq	%rdx, %r13
	movq	%rsp, %rdi
	movq	%r13, %rsi
	movq	%rcx, %rdx
	movl	%r8d, %ecx
	callq	"layered::answer_from"
	cmpb	$0, (%rsp)
	je	.LBB37_2
.LBB37_1:
	xorl	%eax, %eax
	xorl	%ecx, %ecx
	xorl	%edx, %edx
.LBB37_11:
	movq	96(%rsp), %rsi
	movq	%rax, (%rsi)
	movq	%rcx, 8(%rsi)
	movq	%rdx, 16(%rsi)
	addq	$104, %rsp
	popq	%rbx
	popq	%r12
	popq	%r13
	popq	%r14
	popq	%r15
	popq	%rbp
	retq
.LBB37_2:
	movl	%ebx, %eax
	movq	88(%rsp), %rbx
	cmpb	$0, 8(%rsp)
	je	.LBB37_7
	movb	%al, %r14b
	shll	$12, %r14d
	addq	%r14, %r15
	movq	%rsp, %rdi
	movq	%r15, %rsi
	movq	%rbx, %rdx
	movl	%ebp, %ecx
	callq	"layered::answer_from"
	cmpb	$0, (%rsp)
	jne	.LBB37_1
	cmpb	$0, 8(%rsp)
	jne	.LBB37_1
	xorps	%xmm0, %xmm0
	movaps	%xmm0, 64(%rsp)
	movaps	%xmm0, 48(%rsp)
	movaps	%xmm0, 32(%rsp)
	movaps	%xmm0, 16(%rsp)
	movaps	%xmm0, (%rsp)
	movq	$0, 80(%rsp)
	movq	%rsp, %rdi
	movq	%r15, %rsi
	movq	%rbx, %rdx
	callq	"column::Column::open"
	xorl	%eax, %eax
	cmpb	$0, (%rsp)
	movl	$0, %ecx
	movl	$0, %edx
	jne	.LBB37_11
	movq	80(%rsp), %rcx
	addq	32(%rsp), %rcx
	movq	72(%rsp), %rdx
	jmp	.LBB37_11
.LBB37_7:
	xorps	%xmm0, %xmm0
	movaps	%xmm0, 64(%rsp)
	movaps	%xmm0, 48(%rsp)
	movaps	%xmm0, 32(%rsp)
	movaps	%xmm0, 16(%rsp)
	movaps	%xmm0, (%rsp)
	movq	$0, 80(%rsp)
	movq	%rsp, %rdi
	movq	%r13, %rsi
	movq	%r12, %rdx
	callq	"column::Column::open"
	xorl	%eax, %eax
	cmpb	$0, (%rsp)
	sete	%sil
	jne	.LBB37_8
	movq	80(%rsp), %rcx
	addq	32(%rsp), %rcx
	movq	72(%rsp), %rdx
	jmp	.LBB37_10
.LBB37_8:
	xorl	%ecx, %ecx
	xorl	%edx, %edx
.LBB37_10:
	movb	%sil, %al
	jmp	.LBB37_11
.Lfunc_end37:
	.size	signalfern_layered_values_to, .Lfunc_end37-signalfern_layered_values_to

	.section	.text.signalfern_look_up_in_to,"ax",@progbits
	.globl	signalfern_look_up_in_to
	.p2align	4
	.type	signalfern_look_up_in_to,@function
signalfern_look_up_in_to:
	subq	$24, %rsp
	movq	%rdi, %rax
	xorl	%edi, %edi
	testq	%rsi, %rsi
	sete	%dil
	shll	$12, %edi
	addq	%rsi, %rdi
	movq	%rdi, 8(%rsp)
	movq	%rdx, 16(%rsp)
	leaq	8(%rsp), %rdx
	movq	%r8, %rdi
	movq	%rax, %rsi
	callq	"signalfern_c::look_in"
	addq	$24, %rsp
	retq
.Lfunc_end38:
	.size	signalfern_look_up_in_to, .Lfunc_end38-signalfern_look_up_in_to

	.section	.text.signalfern_look_up_layered_in_to,"ax",@progbits
	.globl	signalfern_look_up_layered_in_to
	.p2align	4
	.type	signalfern_look_up_layered_in_to,@function
signalfern_look_up_layered_in_to:
	pushq	%rbp
	pushq	%r14
	pushq	%rbx
	subq	$128, %rsp
	movq	%rdi, %rbx
	movq	168(%rsp), %r14
	movl	160(%rsp), %ebp
	xorl	%eax, %eax
	testq	%rsi, %rsi
	sete	%al
	shll	$12, %eax
	addq	%rsi, %rax
	xorl	%esi, %esi
	testq	%r8, %r8
	sete	%sil
	shll	$12, %esi
	addq	%r8, %rsi
	movq	%rax, 64(%rsp)
	movq	%rdx, 72(%rsp)
	movq	%rsi, 48(%rsp)
	movq	%r9, 56(%rsp)
	xorps	%xmm0, %xmm0
	movaps	%xmm0, (%rsp)
	movaps	%xmm0, 16(%rsp)
	movaps	%xmm0, 32(%rsp)
	movq	%rsp, %rdi
	leaq	48(%rsp), %rdx
	movq	%rcx, %rsi
	movl	%ebp, %ecx
	callq	"signalfern_c::look_in"
	movq	(%rsp), %rax
	cmpq	$1, %rax
	jne	.LBB39_7
	xorps	%xmm0, %xmm0
	movaps	%xmm0, 112(%rsp)
	movaps	%xmm0, 96(%rsp)
	movaps	%xmm0, 80(%rsp)
	leaq	80(%rsp), %rdi
	leaq	64(%rsp), %rdx
	movq	%rbx, %rsi
	movl	%ebp, %ecx
	callq	"signalfern_c::look_in"
	movq	80(%rsp), %rcx
	xorl	%eax, %eax
	cmpq	$2, %rcx
	jae	.LBB39_2
	movq	112(%rsp), %rax
	movq	32(%rsp), %rdx
	movq	88(%rsp), %rsi
	xorps	%xmm0, %xmm0
	jb	.LBB39_5
	jmp	.LBB39_6
.LBB39_7:
	movq	8(%rsp), %rcx
	movq	32(%rsp), %rdx
	movq	%rax, (%r14)
	movq	%rcx, 8(%r14)
	movq	$1, 16(%r14)
	movaps	16(%rsp), %xmm0
	movups	%xmm0, 24(%r14)
	movq	$0, 40(%r14)
	jmp	.LBB39_8
.LBB39_2:
	movl	$0, %edx
	movq	88(%rsp), %rsi
	xorps	%xmm0, %xmm0
	jae	.LBB39_6
.LBB39_5:
	movaps	96(%rsp), %xmm0
.LBB39_6:
	movq	%rcx, (%r14)
	movq	%rsi, 8(%r14)
	movq	$0, 16(%r14)
	movups	%xmm0, 24(%r14)
	movq	%rax, 40(%r14)
.LBB39_8:
	movq	%rdx, 48(%r14)
	addq	$128, %rsp
	popq	%rbx
	popq	%r14
	popq	%rbp
	retq
.Lfunc_end39:
	.size	signalfern_look_up_layered_in_to, .Lfunc_end39-signalfern_look_up_layered_in_to

	.section	.rodata.cst16,"aM",@progbits,16
	.p2align	4, 0x0
.LCPI40_0:
	.zero	16,1
.LCPI40_1:
	.byte	1
	.byte	1
	.byte	1
	.byte	1
	.zero	1
	.zero	1
	.zero	1
	.zero	1
	.zero	1
	.zero	1
	.zero	1
	.zero	1
	.zero	1
	.zero	1
	.zero	1
	.zero	1
	.section	.text.signalfern_look_up_layered_page_in_to,"ax",@progbits
	.globl	signalfern_look_up_layered_page_in_to
	.p2align	4
	.type	signalfern_look_up_layered_page_in_to,@function
signalfern_look_up_layered_page_in_to:
	pushq	%rbp
	pushq	%r15
	pushq	%r14
	pushq	%r13
	pushq	%r12
	pushq	%rbx
	subq	$504, %rsp
	movq	%r9, 104(%rsp)
	movq	%rdx, 144(%rsp)
	movq	%rsi, 152(%rsp)
	testq	%rsi, %rsi
	sete	70(%rsp)
	xorl	%eax, %eax
	testq	%r8, %r8
	sete	96(%rsp)
	xorl	%edx, %edx
	cmpq	$0, 560(%rsp)
	sete	72(%rsp)
	xorl	%esi, %esi
	cmpq	$0, 576(%rsp)
	sete	88(%rsp)
	xorl	%r14d, %r14d
	cmpq	$0, 592(%rsp)
	sete	80(%rsp)
	cmpq	$0, 608(%rsp)
	sete	%r15b
	cmpq	$0, 624(%rsp)
	sete	71(%rsp)
	movq	16(%rdi), %r10
	decq	%r10
	movl	$65, %r9d
	cmpq	$3, %r10
	ja	.LBB40_1
	movq	56(%rdi), %r11
	jmp	.LBB40_3
.LBB40_1:
	xorl	%r10d, %r10d
	movl	$65, %r11d
.LBB40_3:
	movq	616(%rsp), %rbp
	movq	600(%rsp), %r13
	movq	584(%rsp), %r12
	movq	568(%rsp), %rbx
	movdqu	24(%rdi), %xmm3
	movdqu	40(%rdi), %xmm2
	movdqu	64(%rdi), %xmm1
	movups	80(%rdi), %xmm0
	movq	16(%rcx), %rdi
	decq	%rdi
	cmpq	$3, %rdi
	ja	.LBB40_4
	movq	56(%rcx), %r9
	jmp	.LBB40_6
.LBB40_4:
	xorl	%edi, %edi
.LBB40_6:
	movq	%r10, 424(%rsp)
	movdqu	%xmm3, 432(%rsp)
	movdqu	%xmm2, 448(%rsp)
	movq	%r11, 464(%rsp)
	movdqu	%xmm1, 472(%rsp)
	movups	%xmm0, 488(%rsp)
	movq	%rdi, 344(%rsp)
	movups	24(%rcx), %xmm0
	movups	%xmm0, 352(%rsp)
	movups	40(%rcx), %xmm0
	movups	%xmm0, 368(%rsp)
	movq	%r9, 384(%rsp)
	movups	64(%rcx), %xmm0
	movups	%xmm0, 392(%rsp)
	movdqu	80(%rcx), %xmm0
	movdqu	%xmm0, 408(%rsp)
	pxor	%xmm0, %xmm0
	movdqa	%xmm0, 112(%rsp)
	movq	$0, 128(%rsp)
	movdqa	%xmm0, 256(%rsp)
	movdqa	%xmm0, 272(%rsp)
	movdqa	%xmm0, 288(%rsp)
	movdqa	%xmm0, 304(%rsp)
	movdqa	%xmm0, 320(%rsp)
	movq	$0, 336(%rsp)
	movdqa	%xmm0, 160(%rsp)
	movdqa	%xmm0, 176(%rsp)
	movdqa	%xmm0, 192(%rsp)
	movdqa	%xmm0, 208(%rsp)
	movdqa	%xmm0, 224(%rsp)
	movq	$0, 240(%rsp)
	cmpq	%r12, %rbx
	setbe	%cl
	cmpq	%r13, %rbx
	setbe	%dil
	andb	%cl, %dil
	cmpq	%rbp, %rbx
	setbe	%cl
	andb	%dil, %cl
	cmpq	632(%rsp), %rbx
	setbe	%dil
	testb	%dil, %cl
	je	.LBB40_7
	movzbl	96(%rsp), %ecx
	movb	%cl, %al
	movzbl	72(%rsp), %ecx
	movb	%cl, %dl
	movzbl	88(%rsp), %ecx
	movb	%cl, %sil
	movzbl	80(%rsp), %ecx
	movb	%cl, %r14b
	xorl	%ecx, %ecx
	movb	%r15b, %cl
	shll	$12, %eax
	shll	$12, %edx
	shll	$12, %esi
	shll	$12, %r14d
	shll	$12, %ecx
	movq	%r8, %r13
	addq	%rax, %r13
	movq	560(%rsp), %r15
	addq	%rdx, %r15
	movq	576(%rsp), %rbp
	addq	%rsi, %rbp
	movq	592(%rsp), %r12
	addq	%r14, %r12
	movq	608(%rsp), %rax
	movq	%rcx, 72(%rsp)
	addq	%rcx, %rax
	movq	%rax, 96(%rsp)
	leaq	256(%rsp), %rbx
	leaq	344(%rsp), %rdx
	movq	%rbx, %rdi
	movq	104(%rsp), %r14
	movq	%r14, %rsi
	callq	"layered_page::tested"
	movq	%rbx, 8(%rsp)
	movq	568(%rsp), %rbx
	movq	%r14, (%rsp)
	movq	%r13, %r14
	movq	96(%rsp), %r13
	movq	%rbp, %rdi
	movq	%r12, 80(%rsp)
	movq	%r12, %rsi
	movq	%r13, %rdx
	movq	%r15, 88(%rsp)
	movq	%r15, %rcx
	movq	%rbx, %r8
	movq	%r14, %r9
	callq	"page::fill_by"
	testq	%rbx, %rbx
	je	.LBB40_27
	xorl	%r9d, %r9d
	movzbl	71(%rsp), %ecx
	movb	%cl, %r9b
	shll	$12, %r9d
	movq	624(%rsp), %r8
	leaq	(%r8,%r9), %rcx
	cmpq	$4, %rbx
	jb	.LBB40_10
	movq	%rcx, %rdx
	subq	%r13, %rdx
	cmpq	$32, %rdx
	jae	.LBB40_12
.LBB40_10:
	xorl	%edx, %edx
	xorl	%r10d, %r10d
.LBB40_21:
	movq	%r10, %rsi
	orq	$1, %rsi
	testb	$1, %bl
	je	.LBB40_23
	cmpb	$1, (%r13,%r10)
	setne	(%rcx,%r10)
	sete	%cl
	orb	%cl, %dl
	movq	%rsi, %r10
.LBB40_23:
	cmpq	%rsi, %rbx
	je	.LBB40_26
	leaq	(%r9,%r8), %rcx
	incq	%rcx
	movq	608(%rsp), %rsi
	movq	72(%rsp), %rdi
	addq	%rdi, %rsi
	incq	%rsi
	.p2align	4
.LBB40_25:
	cmpb	$1, -1(%rsi,%r10)
	setne	-1(%rcx,%r10)
	sete	%dil
	orb	%dl, %dil
	cmpb	$1, (%rsi,%r10)
	setne	(%rcx,%r10)
	sete	%dl
	orb	%dil, %dl
	addq	$2, %r10
	cmpq	%r10, %rbx
	jne	.LBB40_25
.LBB40_26:
	testb	$1, %dl
	je	.LBB40_27
	xorl	%edx, %edx
	movzbl	70(%rsp), %ecx
	movb	%cl, %dl
	shll	$12, %edx
	movq	%rbp, 72(%rsp)
	movq	152(%rsp), %rbp
	addq	%rdx, %rbp
	leaq	160(%rsp), %rdi
	leaq	424(%rsp), %rdx
	movq	144(%rsp), %r15
	movq	%r15, %rsi
	movq	%rax, %r12
	callq	"layered_page::tested"
	movq	%r12, 48(%rsp)
	leaq	256(%rsp), %rax
	movq	%rax, 40(%rsp)
	movq	104(%rsp), %rax
	movq	%rax, 32(%rsp)
	movq	%r14, 24(%rsp)
	leaq	160(%rsp), %rax
	movq	%rax, 16(%rsp)
	movq	%r15, 8(%rsp)
	movq	%rbp, (%rsp)
	leaq	112(%rsp), %rdi
	movq	72(%rsp), %rsi
	movq	80(%rsp), %rdx
	movq	%r13, %rcx
	movq	88(%rsp), %r8
	movq	%rbx, %r9
	callq	"layered_page::under::fill_under"
	movq	120(%rsp), %rdx
	movq	128(%rsp), %rax
	cmpb	$0, 112(%rsp)
	je	.LBB40_29
	movzbl	%dl, %ebx
	leaq	.LJTI40_0(%rip), %rdx
	movslq	(%rdx,%rbx,4), %rcx
	addq	%rdx, %rcx
	jmpq	*%rcx
.LBB40_31:
	movl	$1, %edx
	jmp	.LBB40_48
.LBB40_7:
	movl	$12, %edx
.LBB40_48:
	movq	640(%rsp), %rcx
	movq	%rdx, (%rcx)
	movq	%rbx, 8(%rcx)
	pxor	%xmm0, %xmm0
	movdqu	%xmm0, 16(%rcx)
	jmp	.LBB40_49
.LBB40_27:
	xorl	%edx, %edx
.LBB40_29:
	movq	640(%rsp), %rcx
	movq	$0, (%rcx)
	movq	%rbx, 8(%rcx)
	movq	%rdx, 16(%rcx)
	movq	%rax, 24(%rcx)
.LBB40_49:
	addq	$504, %rsp
	popq	%rbx
	popq	%r12
	popq	%r13
	popq	%r14
	popq	%r15
	popq	%rbp
	retq
.LBB40_12:
	cmpq	$32, %rbx
	jae	.LBB40_14
	xorl	%r10d, %r10d
	xorl	%edx, %edx
	jmp	.LBB40_18
.LBB40_14:
	movq	%rbx, %r10
	andq	$-32, %r10
	leaq	(%r9,%r8), %rdx
	addq	$16, %rdx
	movq	608(%rsp), %rsi
	movq	72(%rsp), %rdi
	addq	%rdi, %rsi
	addq	$16, %rsi
	pxor	%xmm0, %xmm0
	xorl	%edi, %edi
	pxor	%xmm1, %xmm1
	.p2align	4
.LBB40_15:
	movdqu	-16(%rsi,%rdi), %xmm2
	movdqu	(%rsi,%rdi), %xmm3
	movdqa	.LCPI40_0(%rip), %xmm4
	pcmpeqb	%xmm4, %xmm2
	por	%xmm2, %xmm1
	pandn	%xmm4, %xmm2
	pcmpeqb	%xmm4, %xmm3
	por	%xmm3, %xmm0
	pandn	%xmm4, %xmm3
	movdqu	%xmm2, -16(%rdx,%rdi)
	movdqu	%xmm3, (%rdx,%rdi)
	addq	$32, %rdi
	cmpq	%rdi, %r10
	jne	.LBB40_15
	por	%xmm1, %xmm0
	psllw	$7, %xmm0
	pmovmskb	%xmm0, %edx
	testl	%edx, %edx
	setne	%dl
	cmpq	%r10, %rbx
	je	.LBB40_26
	testb	$28, %bl
	je	.LBB40_21
.LBB40_18:
	movq	%r10, %rsi
	movq	%rbx, %r10
	andq	$-4, %r10
	movzbl	%dl, %edx
	movd	%edx, %xmm0
	.p2align	4
.LBB40_19:
	movd	(%r13,%rsi), %xmm1
	movdqa	.LCPI40_1(%rip), %xmm2
	pcmpeqb	%xmm2, %xmm1
	movdqa	%xmm1, %xmm3
	pandn	%xmm2, %xmm3
	movd	%xmm3, (%rcx,%rsi)
	punpcklbw	%xmm1, %xmm1
	punpcklwd	%xmm1, %xmm1
	por	%xmm1, %xmm0
	addq	$4, %rsi
	cmpq	%rsi, %r10
	jne	.LBB40_19
	pslld	$31, %xmm0
	movmskps	%xmm0, %edx
	testl	%edx, %edx
	setne	%dl
	cmpq	%r10, %rbx
	jne	.LBB40_21
	jmp	.LBB40_26
.LBB40_44:
	movl	$16, %edx
	xorl	%ebx, %ebx
	jmp	.LBB40_48
.LBB40_41:
	movl	$13, %edx
	xorl	%ebx, %ebx
	jmp	.LBB40_48
.LBB40_34:
	movl	$6, %edx
	jmp	.LBB40_47
.LBB40_42:
	movl	$14, %edx
	xorl	%ebx, %ebx
	jmp	.LBB40_48
.LBB40_39:
	movl	$11, %edx
	xorl	%ebx, %ebx
	jmp	.LBB40_48
.LBB40_46:
	movl	$3, %edx
	jmp	.LBB40_47
.LBB40_45:
	movl	$17, %edx
	xorl	%ebx, %ebx
	jmp	.LBB40_48
.LBB40_33:
	movl	$4, %edx
	jmp	.LBB40_47
.LBB40_37:
	movl	$9, %edx
	xorl	%ebx, %ebx
	jmp	.LBB40_48
.LBB40_32:
	movl	$2, %edx
	xorl	%ebx, %ebx
	jmp	.LBB40_48
.LBB40_35:
	movl	$7, %edx
	jmp	.LBB40_47
.LBB40_43:
	movl	$15, %edx
	xorl	%ebx, %ebx
	jmp	.LBB40_48
.LBB40_36:
	movl	$8, %edx
	jmp	.LBB40_47
.LBB40_40:
	movl	$12, %edx
.LBB40_47:
	movq	%rax, %rbx
	jmp	.LBB40_48
.LBB40_38:
	movl	$10, %edx
	xorl	%ebx, %ebx
	jmp	.LBB40_48
.Lfunc_end40:
	.size	signalfern_look_up_layered_page_in_to, .Lfunc_end40-signalfern_look_up_layered_page_in_to
	.section	.rodata.signalfern_look_up_layered_page_in_to,"a",@progbits
	.p2align	2, 0x0
.LJTI40_0:
	.long	.LBB40_31-.LJTI40_0
	.long	.LBB40_32-.LJTI40_0
	.long	.LBB40_46-.LJTI40_0
	.long	.LBB40_33-.LJTI40_0
	.long	.LBB40_34-.LJTI40_0
	.long	.LBB40_35-.LJTI40_0
	.long	.LBB40_36-.LJTI40_0
	.long	.LBB40_37-.LJTI40_0
	.long	.LBB40_38-.LJTI40_0
	.long	.LBB40_39-.LJTI40_0
	.long	.LBB40_40-.LJTI40_0
	.long	.LBB40_41-.LJTI40_0
	.long	.LBB40_42-.LJTI40_0
	.long	.LBB40_43-.LJTI40_0
	.long	.LBB40_44-.LJTI40_0
	.long	.LBB40_45-.LJTI40_0

	.section	.rodata.cst16,"aM",@progbits,16
	.p2align	4, 0x0
.LCPI41_0:
	.zero	16,1
.LCPI41_1:
	.byte	1
	.byte	1
	.byte	1
	.byte	1
	.zero	1
	.zero	1
	.zero	1
	.zero	1
	.zero	1
	.zero	1
	.zero	1
	.zero	1
	.zero	1
	.zero	1
	.zero	1
	.zero	1
	.section	.text.signalfern_look_up_layered_page_to,"ax",@progbits
	.globl	signalfern_look_up_layered_page_to
	.p2align	4
	.type	signalfern_look_up_layered_page_to,@function
signalfern_look_up_layered_page_to:
	pushq	%rbp
	pushq	%r15
	pushq	%r14
	pushq	%r13
	pushq	%r12
	pushq	%rbx
	subq	$328, %rsp
	movq	%r9, %rbx
	movq	%rcx, 88(%rsp)
	movq	400(%rsp), %r12
	movq	384(%rsp), %rax
	movq	%rdi, 136(%rsp)
	testq	%rdi, %rdi
	sete	62(%rsp)
	xorl	%r10d, %r10d
	testq	%rdx, %rdx
	sete	%r13b
	xorl	%r14d, %r14d
	movq	%r8, 64(%rsp)
	testq	%r8, %r8
	sete	%r11b
	xorl	%ecx, %ecx
	movq	%rax, %r8
	testq	%rax, %rax
	sete	%r9b
	xorl	%eax, %eax
	testq	%r12, %r12
	sete	72(%rsp)
	xorl	%edi, %edi
	cmpq	$0, 416(%rsp)
	sete	80(%rsp)
	cmpq	$0, 432(%rsp)
	sete	63(%rsp)
	cmpq	392(%rsp), %rbx
	setbe	%bpl
	cmpq	408(%rsp), %rbx
	setbe	%r15b
	movq	%rsi, 128(%rsp)
	andb	%bpl, %r15b
	cmpq	424(%rsp), %rbx
	setbe	%sil
	andb	%r15b, %sil
	pxor	%xmm0, %xmm0
	movdqa	%xmm0, 96(%rsp)
	movq	$0, 112(%rsp)
	movdqa	%xmm0, 144(%rsp)
	movdqa	%xmm0, 160(%rsp)
	movdqa	%xmm0, 176(%rsp)
	movdqa	%xmm0, 192(%rsp)
	movdqa	%xmm0, 208(%rsp)
	movq	$0, 224(%rsp)
	movdqa	%xmm0, 240(%rsp)
	movdqa	%xmm0, 256(%rsp)
	movdqa	%xmm0, 272(%rsp)
	movdqa	%xmm0, 288(%rsp)
	movdqa	%xmm0, 304(%rsp)
	movq	$0, 320(%rsp)
	cmpq	440(%rsp), %rbx
	setbe	%bpl
	movq	448(%rsp), %r15
	testb	%bpl, %sil
	je	.LBB41_1
	movb	%r13b, %r10b
	shll	$12, %r10d
	addq	%r10, %rdx
	movb	%r11b, %r14b
	shll	$12, %r14d
	movq	64(%rsp), %r15
	addq	%r14, %r15
	movb	%r9b, %cl
	shll	$12, %ecx
	movq	%r8, %rbp
	addq	%rcx, %rbp
	movzbl	72(%rsp), %ecx
	movb	%cl, %al
	shll	$12, %eax
	addq	%rax, %r12
	movzbl	80(%rsp), %eax
	movb	%al, %dil
	shll	$12, %edi
	movq	%rdi, 64(%rsp)
	movq	416(%rsp), %rax
	addq	%rdi, %rax
	movq	%rax, 80(%rsp)
	leaq	144(%rsp), %rdi
	movq	%rdx, %rsi
	movq	%rdx, %r14
	movq	88(%rsp), %r13
	movq	%r13, %rdx
	callq	"column::Column::open"
	leaq	144(%rsp), %rax
	movq	%rax, 8(%rsp)
	movq	80(%rsp), %rdx
	movq	%r13, (%rsp)
	movq	%rbp, 120(%rsp)
	movq	%rbp, %rdi
	movq	%r12, 72(%rsp)
	movq	%r12, %rsi
	movq	%rdx, %rbp
	movq	%r15, %rcx
	movq	%rbx, %r8
	movq	%r14, %r9
	callq	"page::fill_by"
	testq	%rbx, %rbx
	je	.LBB41_22
	movq	%r14, %r12
	xorl	%r11d, %r11d
	movzbl	63(%rsp), %ecx
	movb	%cl, %r11b
	shll	$12, %r11d
	movq	432(%rsp), %r10
	leaq	(%r10,%r11), %rcx
	cmpq	$4, %rbx
	jae	.LBB41_5
	xorl	%edx, %edx
	xorl	%r14d, %r14d
	movq	416(%rsp), %r8
	movq	64(%rsp), %r9
	jmp	.LBB41_16
.LBB41_1:
	movl	$12, %ecx
.LBB41_43:
	movq	%rcx, (%r15)
	movq	%rbx, 8(%r15)
	pxor	%xmm0, %xmm0
	movdqu	%xmm0, 16(%r15)
	jmp	.LBB41_44
.LBB41_5:
	movq	%rcx, %rdx
	subq	%rbp, %rdx
	cmpq	$32, %rdx
	movq	416(%rsp), %r8
	movq	64(%rsp), %r9
	jae	.LBB41_7
	xorl	%edx, %edx
	xorl	%r14d, %r14d
	jmp	.LBB41_16
.LBB41_7:
	cmpq	$32, %rbx
	jae	.LBB41_9
	xorl	%r14d, %r14d
	xorl	%edx, %edx
	jmp	.LBB41_13
.LBB41_9:
	movq	%rbx, %r14
	andq	$-32, %r14
	leaq	(%r11,%r10), %rdx
	addq	$16, %rdx
	leaq	(%r9,%r8), %rsi
	addq	$16, %rsi
	pxor	%xmm0, %xmm0
	xorl	%edi, %edi
	pxor	%xmm1, %xmm1
	.p2align	4
.LBB41_10:
	movdqu	-16(%rsi,%rdi), %xmm2
	movdqu	(%rsi,%rdi), %xmm3
	movdqa	.LCPI41_0(%rip), %xmm4
	pcmpeqb	%xmm4, %xmm2
	por	%xmm2, %xmm1
	pandn	%xmm4, %xmm2
	pcmpeqb	%xmm4, %xmm3
	por	%xmm3, %xmm0
	pandn	%xmm4, %xmm3
	movdqu	%xmm2, -16(%rdx,%rdi)
	movdqu	%xmm3, (%rdx,%rdi)
	addq	$32, %rdi
	cmpq	%rdi, %r14
	jne	.LBB41_10
	por	%xmm1, %xmm0
	psllw	$7, %xmm0
	pmovmskb	%xmm0, %edx
	testl	%edx, %edx
	setne	%dl
	cmpq	%r14, %rbx
	je	.LBB41_21
	testb	$28, %bl
	je	.LBB41_16
.LBB41_13:
	movq	%r14, %rsi
	movq	%rbx, %r14
	andq	$-4, %r14
	movzbl	%dl, %edx
	movd	%edx, %xmm0
	.p2align	4
.LBB41_14:
	movd	(%rbp,%rsi), %xmm1
	movdqa	.LCPI41_1(%rip), %xmm2
	pcmpeqb	%xmm2, %xmm1
	movdqa	%xmm1, %xmm3
	pandn	%xmm2, %xmm3
	movd	%xmm3, (%rcx,%rsi)
	punpcklbw	%xmm1, %xmm1
	punpcklwd	%xmm1, %xmm1
	por	%xmm1, %xmm0
	addq	$4, %rsi
	cmpq	%rsi, %r14
	jne	.LBB41_14
	pslld	$31, %xmm0
	movmskps	%xmm0, %edx
	testl	%edx, %edx
	setne	%dl
	cmpq	%r14, %rbx
	je	.LBB41_21
.LBB41_16:
	movq	%r14, %rsi
	orq	$1, %rsi
	testb	$1, %bl
	je	.LBB41_18
	cmpb	$1, (%rbp,%r14)
	setne	(%rcx,%r14)
	sete	%cl
	orb	%cl, %dl
	movq	%rsi, %r14
.LBB41_18:
	cmpq	%rsi, %rbx
	je	.LBB41_21
	leaq	(%r11,%r10), %rcx
	incq	%rcx
	leaq	(%r9,%r8), %rsi
	incq	%rsi
	.p2align	4
.LBB41_20:
	cmpb	$1, -1(%rsi,%r14)
	setne	-1(%rcx,%r14)
	sete	%dil
	orb	%dl, %dil
	cmpb	$1, (%rsi,%r14)
	setne	(%rcx,%r14)
	sete	%dl
	orb	%dil, %dl
	addq	$2, %r14
	cmpq	%r14, %rbx
	jne	.LBB41_20
.LBB41_21:
	testb	$1, %dl
	je	.LBB41_22
	xorl	%edx, %edx
	movzbl	62(%rsp), %ecx
	movb	%cl, %dl
	shll	$12, %edx
	movq	%r15, 64(%rsp)
	movq	%rax, %r15
	movq	136(%rsp), %r14
	addq	%rdx, %r14
	leaq	240(%rsp), %rdi
	movq	%r14, %rsi
	movq	128(%rsp), %r13
	movq	%r13, %rdx
	callq	"column::Column::open"
	movq	%r15, 48(%rsp)
	leaq	144(%rsp), %rax
	movq	%rax, 40(%rsp)
	movq	88(%rsp), %rax
	movq	%rax, 32(%rsp)
	movq	%r12, 24(%rsp)
	leaq	240(%rsp), %rax
	movq	%rax, 16(%rsp)
	movq	%r13, 8(%rsp)
	movq	%r14, (%rsp)
	leaq	96(%rsp), %rdi
	movq	120(%rsp), %rsi
	movq	72(%rsp), %rdx
	movq	%rbp, %rcx
	movq	64(%rsp), %r8
	movq	%rbx, %r9
	callq	"layered_page::under::fill_under"
	movq	104(%rsp), %rdx
	movq	112(%rsp), %rax
	cmpb	$0, 96(%rsp)
	je	.LBB41_24
	movzbl	%dl, %ebx
	leaq	.LJTI41_0(%rip), %rdx
	movslq	(%rdx,%rbx,4), %rcx
	addq	%rdx, %rcx
	movq	448(%rsp), %r15
	jmpq	*%rcx
.LBB41_26:
	movl	$1, %ecx
	jmp	.LBB41_43
.LBB41_22:
	xorl	%edx, %edx
.LBB41_24:
	movq	448(%rsp), %rcx
	movq	$0, (%rcx)
	movq	%rbx, 8(%rcx)
	movq	%rdx, 16(%rcx)
	movq	%rax, 24(%rcx)
.LBB41_44:
	addq	$328, %rsp
	popq	%rbx
	popq	%r12
	popq	%r13
	popq	%r14
	popq	%r15
	popq	%rbp
	retq
.LBB41_39:
	movl	$16, %ecx
	xorl	%ebx, %ebx
	jmp	.LBB41_43
.LBB41_36:
	movl	$13, %ecx
	xorl	%ebx, %ebx
	jmp	.LBB41_43
.LBB41_29:
	movl	$6, %ecx
	jmp	.LBB41_42
.LBB41_37:
	movl	$14, %ecx
	xorl	%ebx, %ebx
	jmp	.LBB41_43
.LBB41_34:
	movl	$11, %ecx
	xorl	%ebx, %ebx
	jmp	.LBB41_43
.LBB41_41:
	movl	$3, %ecx
	jmp	.LBB41_42
.LBB41_40:
	movl	$17, %ecx
	xorl	%ebx, %ebx
	jmp	.LBB41_43
.LBB41_28:
	movl	$4, %ecx
	jmp	.LBB41_42
.LBB41_32:
	movl	$9, %ecx
	xorl	%ebx, %ebx
	jmp	.LBB41_43
.LBB41_27:
	movl	$2, %ecx
	xorl	%ebx, %ebx
	jmp	.LBB41_43
.LBB41_30:
	movl	$7, %ecx
	jmp	.LBB41_42
.LBB41_38:
	movl	$15, %ecx
	xorl	%ebx, %ebx
	jmp	.LBB41_43
.LBB41_31:
	movl	$8, %ecx
	jmp	.LBB41_42
.LBB41_35:
	movl	$12, %ecx
.LBB41_42:
	movq	%rax, %rbx
	jmp	.LBB41_43
.LBB41_33:
	movl	$10, %ecx
	xorl	%ebx, %ebx
	jmp	.LBB41_43
.Lfunc_end41:
	.size	signalfern_look_up_layered_page_to, .Lfunc_end41-signalfern_look_up_layered_page_to
	.section	.rodata.signalfern_look_up_layered_page_to,"a",@progbits
	.p2align	2, 0x0
.LJTI41_0:
	.long	.LBB41_26-.LJTI41_0
	.long	.LBB41_27-.LJTI41_0
	.long	.LBB41_41-.LJTI41_0
	.long	.LBB41_28-.LJTI41_0
	.long	.LBB41_29-.LJTI41_0
	.long	.LBB41_30-.LJTI41_0
	.long	.LBB41_31-.LJTI41_0
	.long	.LBB41_32-.LJTI41_0
	.long	.LBB41_33-.LJTI41_0
	.long	.LBB41_34-.LJTI41_0
	.long	.LBB41_35-.LJTI41_0
	.long	.LBB41_36-.LJTI41_0
	.long	.LBB41_37-.LJTI41_0
	.long	.LBB41_38-.LJTI41_0
	.long	.LBB41_39-.LJTI41_0
	.long	.LBB41_40-.LJTI41_0

	.section	.text.signalfern_look_up_layered_to,"ax",@progbits
	.globl	signalfern_look_up_layered_to
	.p2align	4
	.type	signalfern_look_up_layered_to,@function
signalfern_look_up_layered_to:
	pushq	%rbp
	pushq	%r15
	pushq	%r14
	pushq	%rbx
	subq	$104, %rsp
	movq	%r9, %rbx
	movl	%r8d, %ebp
	movq	%rsi, %r14
	movq	%rdi, %r15
	xorl	%esi, %esi
	testq	%rdx, %rdx
	sete	%sil
	shll	$12, %esi
	addq	%rdx, %rsi
	xorps	%xmm0, %xmm0
	movaps	%xmm0, (%rsp)
	movaps	%xmm0, 16(%rsp)
	movaps	%xmm0, 32(%rsp)
	movq	%rsp, %rdi
	movq	%rcx, %rdx
	movl	%r8d, %ecx
	callq	"signalfern_c::look_from"
	movq	(%rsp), %rax
	cmpq	$1, %rax
	jne	.LBB42_7
	xorl	%esi, %esi
	testq	%r15, %r15
	sete	%sil
	shll	$12, %esi
	addq	%r15, %rsi
	xorps	%xmm0, %xmm0
	movaps	%xmm0, 80(%rsp)
	movaps	%xmm0, 64(%rsp)
	movaps	%xmm0, 48(%rsp)
	leaq	48(%rsp), %rdi
	movq	%r14, %rdx
	movl	%ebp, %ecx
	callq	"signalfern_c::look_from"
	movq	48(%rsp), %rcx
	xorl	%eax, %eax
	cmpq	$2, %rcx
	jae	.LBB42_2
	movq	80(%rsp), %rax
	movq	32(%rsp), %rdx
	movq	56(%rsp), %rsi
	xorps	%xmm0, %xmm0
	jb	.LBB42_5
	jmp	.LBB42_6
.LBB42_7:
	movq	8(%rsp), %rcx
	movq	32(%rsp), %rdx
	movq	%rax, (%rbx)
	movq	%rcx, 8(%rbx)
	movq	$1, 16(%rbx)
	movaps	16(%rsp), %xmm0
	movups	%xmm0, 24(%rbx)
	movq	$0, 40(%rbx)
	jmp	.LBB42_8
.LBB42_2:
	movl	$0, %edx
	movq	56(%rsp), %rsi
	xorps	%xmm0, %xmm0
	jae	.LBB42_6
.LBB42_5:
	movaps	64(%rsp), %xmm0
.LBB42_6:
	movq	%rcx, (%rbx)
	movq	%rsi, 8(%rbx)
	movq	$0, 16(%rbx)
	movups	%xmm0, 24(%rbx)
	movq	%rax, 40(%rbx)
.LBB42_8:
	movq	%rdx, 48(%rbx)
	addq	$104, %rsp
	popq	%rbx
	popq	%r14
	popq	%r15
	popq	%rbp
	retq
.Lfunc_end42:
	.size	signalfern_look_up_layered_to, .Lfunc_end42-signalfern_look_up_layered_to

	.section	.text.signalfern_look_up_page_to,"ax",@progbits
	.globl	signalfern_look_up_page_to
	.p2align	4
	.type	signalfern_look_up_page_to,@function
signalfern_look_up_page_to:
	pushq	%rbp
	pushq	%r15
	pushq	%r14
	pushq	%r13
	pushq	%r12
	pushq	%rbx
	subq	$136, %rsp
	movq	%rcx, %rbx
	movq	%rsi, 40(%rsp)
	movq	208(%rsp), %r14
	movq	192(%rsp), %r15
	xorl	%r10d, %r10d
	testq	%rdi, %rdi
	sete	%bpl
	xorl	%r12d, %r12d
	testq	%rdx, %rdx
	sete	%sil
	xorl	%r11d, %r11d
	testq	%r8, %r8
	sete	29(%rsp)
	xorl	%ecx, %ecx
	testq	%r15, %r15
	sete	30(%rsp)
	xorl	%eax, %eax
	testq	%r14, %r14
	sete	31(%rsp)
	cmpq	%rbx, %r9
	setb	%r9b
	movq	200(%rsp), %r13
	cmpq	%rbx, %r13
	setb	%r13b
	orb	%r9b, %r13b
	movq	216(%rsp), %r9
	cmpq	%rbx, %r9
	setb	%r9b
	orb	%r13b, %r9b
	xorps	%xmm0, %xmm0
	movaps	%xmm0, 112(%rsp)
	movaps	%xmm0, 96(%rsp)
	movaps	%xmm0, 80(%rsp)
	movaps	%xmm0, 64(%rsp)
	movaps	%xmm0, 48(%rsp)
	movq	$0, 128(%rsp)
	movq	224(%rsp), %r9
	je	.LBB43_1
	movq	$12, (%r9)
	movq	%rbx, 8(%r9)
	movq	$0, 16(%r9)
	jmp	.LBB43_6
.LBB43_1:
	testq	%rbx, %rbx
	je	.LBB43_2
	movb	%bpl, %r10b
	shll	$12, %r10d
	addq	%r10, %rdi
	movb	%sil, %r12b
	shll	$12, %r12d
	addq	%r12, %rdx
	movq	%rdx, 32(%rsp)
	movzbl	29(%rsp), %esi
	movb	%sil, %r11b
	shll	$12, %r11d
	addq	%r11, %r8
	movzbl	30(%rsp), %esi
	movb	%sil, %cl
	shll	$12, %ecx
	addq	%rcx, %r15
	movzbl	31(%rsp), %ecx
	movb	%cl, %al
	shll	$12, %eax
	addq	%rax, %r14
	leaq	48(%rsp), %rax
	movq	%rdi, %r13
	movq	%rax, %rdi
	movq	40(%rsp), %rbp
	movq	%r13, %rsi
	movq	%rbp, %rdx
	movq	%r8, %r12
	callq	"column::Column::open"
	leaq	48(%rsp), %rax
	movq	%rax, 8(%rsp)
	movq	%rbp, (%rsp)
	movq	%r12, %rdi
	movq	%r15, %rsi
	movq	%r14, %rdx
	movq	32(%rsp), %rcx
	movq	%rbx, %r8
	movq	%r13, %r9
	callq	"page::fill_by"
	movq	224(%rsp), %r9
	jmp	.LBB43_4
.LBB43_2:
	xorl	%eax, %eax
.LBB43_4:
	movq	$0, (%r9)
	movq	%rbx, 8(%r9)
	movq	%rax, 16(%r9)
.LBB43_6:
	addq	$136, %rsp
	popq	%rbx
	popq	%r12
	popq	%r13
	popq	%r14
	popq	%r15
	popq	%rbp
	retq
.Lfunc_end43:
	.size	signalfern_look_up_page_to, .Lfunc_end43-signalfern_look_up_page_to

	.section	.text.signalfern_look_up_to,"ax",@progbits
	.globl	signalfern_look_up_to
	.p2align	4
	.type	signalfern_look_up_to,@function
signalfern_look_up_to:
	movl	%edx, %eax
	movq	%rsi, %rdx
	xorl	%esi, %esi
	testq	%rdi, %rdi
	sete	%sil
	shll	$12, %esi
	addq	%rdi, %rsi
	movq	%rcx, %rdi
	movl	%eax, %ecx
	jmp	"signalfern_c::look_from"
.Lfunc_end44:
	.size	signalfern_look_up_to, .Lfunc_end44-signalfern_look_up_to

	.section	.text.signalfern_next_in_to,"ax",@progbits
	.globl	signalfern_next_in_to
	.p2align	4
	.type	signalfern_next_in_to,@function
signalfern_next_in_to:
	pushq	%rbp
	pushq	%r15
	pushq	%r14
	pushq	%r13
	pushq	%r12
	pushq	%rbx
	subq	$152, %rsp
	movq	%rcx, 16(%rsp)
	movq	%rsi, 24(%rsp)
	testq	%rdx, %rdx
	sete	7(%rsp)
	movq	16(%rdi), %r13
	decq	%r13
	cmpq	$3, %r13
	ja	.LBB45_1
	movq	56(%rdi), %rax
	jmp	.LBB45_3
.LBB45_1:
	movl	$65, %eax
	xorl	%r13d, %r13d
.LBB45_3:
	movq	88(%rdi), %r15
	movq	80(%rdi), %rsi
	movq	72(%rdi), %rbp
	movq	64(%rdi), %r11
	movq	48(%rdi), %rbx
	movq	40(%rdi), %r12
	movq	24(%rdi), %r10
	movq	32(%rdi), %r14
	movq	%r13, 72(%rsp)
	movq	%r10, 80(%rsp)
	movq	%r14, 88(%rsp)
	movq	%r12, 96(%rsp)
	movq	%rbx, 104(%rsp)
	movq	%rax, 112(%rsp)
	movq	%r11, 120(%rsp)
	movq	%rbp, 128(%rsp)
	movq	%rsi, 136(%rsp)
	movq	%r15, 144(%rsp)
	xorps	%xmm0, %xmm0
	movaps	%xmm0, 48(%rsp)
	movaps	%xmm0, 32(%rsp)
	movq	$0, 64(%rsp)
	movb	$12, %dil
	cmpl	$2147352575, %r8d
	ja	.LBB45_15
	movl	%r8d, %ecx
	movb	$14, %dil
	movq	%rcx, 8(%rsp)
	cmpq	%rcx, 24(%rsp)
	ja	.LBB45_15
	movb	$8, %dil
	cmpq	$2147352576, %r10
	jbe	.LBB45_6
.LBB45_15:
	xorl	%eax, %eax
	movl	$3, %ecx
	movzbl	%dil, %edx
	leaq	.LJTI45_0(%rip), %rsi
	movslq	(%rsi,%rdx,4), %rdx
	addq	%rsi, %rdx
	jmpq	*%rdx
.LBB45_45:
	movl	$1, %ecx
	jmp	.LBB45_46
.LBB45_6:
	testq	%r14, %r14
	setne	%cl
	addq	$-16, %r14
	cmpq	$-9, %r14
	setb	%r14b
	cmpq	$32767, %rbx
	ja	.LBB45_15
	andb	%r14b, %cl
	jne	.LBB45_15
	cmpq	$64, %rax
	ja	.LBB45_15
	leaq	6(,%rbx,8), %rcx
	cmpq	%rcx, %r12
	jb	.LBB45_15
	movq	%r10, %rbx
	imulq	%rax, %rbx
	addq	$7, %rbx
	shrq	$3, %rbx
	cmpb	$2, %r13b
	jae	.LBB45_11
	testq	%rbp, %rbp
	je	.LBB45_15
	movabsq	$72340173107564823, %r10
	movl	%eax, %ecx
	shrq	%cl, %r10
	notb	%r13b
	orb	%r13b, %r10b
	testb	$1, %r10b
	je	.LBB45_15
	cmpq	%rbx, %rsi
	jne	.LBB45_15
.LBB45_23:
	movb	$9, %dil
	movq	16(%rsp), %rax
	subq	%r15, %rax
	jb	.LBB45_15
	subq	%r12, %rax
	setae	%cl
	cmpq	%rsi, %rax
	sete	%al
	andb	%cl, %al
	xorl	%ecx, %ecx
	cmpb	$1, %al
	jne	.LBB45_15
	movq	%r9, %rbx
	movzbl	7(%rsp), %eax
	movb	%al, %cl
	shll	$12, %ecx
	addq	%rcx, %rdx
	leaq	32(%rsp), %rdi
	leaq	72(%rsp), %rcx
	movq	%rdx, %rsi
	movq	16(%rsp), %rdx
	callq	"next::steps_from"
	movzbl	40(%rsp), %edx
	movq	48(%rsp), %rax
	cmpb	$0, 32(%rsp)
	je	.LBB45_27
	movl	$3, %ecx
	movzbl	%dl, %edx
	leaq	.LJTI45_0(%rip), %rsi
	movslq	(%rsi,%rdx,4), %rdx
	addq	%rsi, %rdx
	movq	%rbx, %r9
	jmpq	*%rdx
.LBB45_31:
	movl	$2, %ecx
	jmp	.LBB45_46
.LBB45_43:
	movl	$16, %ecx
	jmp	.LBB45_46
.LBB45_40:
	movl	$13, %ecx
	jmp	.LBB45_46
.LBB45_33:
	movl	$6, %ecx
	jmp	.LBB45_47
.LBB45_41:
	movl	$14, %ecx
	jmp	.LBB45_46
.LBB45_38:
	movl	$11, %ecx
	jmp	.LBB45_46
.LBB45_44:
	movl	$17, %ecx
	jmp	.LBB45_46
.LBB45_32:
	movl	$4, %ecx
	jmp	.LBB45_47
.LBB45_36:
	movl	$9, %ecx
	jmp	.LBB45_46
.LBB45_34:
	movl	$7, %ecx
	jmp	.LBB45_47
.LBB45_42:
	movl	$15, %ecx
	jmp	.LBB45_46
.LBB45_35:
	movl	$8, %ecx
	jmp	.LBB45_47
.LBB45_39:
	movl	$12, %ecx
	jmp	.LBB45_47
.LBB45_37:
	movl	$10, %ecx
.LBB45_46:
	xorl	%eax, %eax
.LBB45_47:
	movq	%rcx, (%r9)
	movq	%rax, 8(%r9)
	xorps	%xmm0, %xmm0
	movups	%xmm0, 16(%r9)
	movq	$0, 32(%r9)
	movq	24(%rsp), %rax
	movq	%rax, 40(%r9)
.LBB45_48:
	addq	$152, %rsp
	popq	%rbx
	popq	%r12
	popq	%r13
	popq	%r14
	popq	%r15
	popq	%rbp
	retq
.LBB45_11:
	movzbl	%r13b, %ecx
	cmpl	$2, %ecx
	jne	.LBB45_19
	testq	%rax, %rax
	jne	.LBB45_15
	testq	%r11, %r11
	setne	%al
	testq	%rbp, %rbp
	sete	%cl
	orb	%al, %cl
	jne	.LBB45_15
	addq	$16383, %r10
	shrq	$14, %r10
	leaq	(%r10,%r10,4), %rax
	leaq	(%rax,%rax,4), %rax
	cmpq	%rsi, %rax
	ja	.LBB45_15
	jmp	.LBB45_23
.LBB45_19:
	leaq	-257(%rbp), %rcx
	cmpq	$-255, %rcx
	jb	.LBB45_15
	testq	%r11, %r11
	jne	.LBB45_15
	leaq	-1(%rbp), %rcx
	movl	$127, %r10d
	bsrq	%rcx, %r10
	xorq	$-64, %r10
	addq	$65, %r10
	cmpq	%r10, %rax
	jne	.LBB45_15
	leaq	(%rbx,%rbp,8), %rax
	cmpq	%rax, %rsi
	jne	.LBB45_15
	jmp	.LBB45_23
.LBB45_27:
	cmpb	$1, %dl
	jne	.LBB45_29
	movl	56(%rsp), %ecx
	movq	64(%rsp), %rdx
	xorps	%xmm0, %xmm0
	movups	%xmm0, (%rbx)
	movq	%rcx, 16(%rbx)
	movq	%rax, 24(%rbx)
	movq	%rdx, 32(%rbx)
	jmp	.LBB45_30
.LBB45_29:
	movq	$1, (%rbx)
	xorps	%xmm0, %xmm0
	movups	%xmm0, 8(%rbx)
	movups	%xmm0, 24(%rbx)
.LBB45_30:
	movq	8(%rsp), %rax
	movq	%rax, 40(%rbx)
	jmp	.LBB45_48
.Lfunc_end45:
	.size	signalfern_next_in_to, .Lfunc_end45-signalfern_next_in_to
	.section	.rodata.signalfern_next_in_to,"a",@progbits
	.p2align	2, 0x0
.LJTI45_0:
	.long	.LBB45_45-.LJTI45_0
	.long	.LBB45_31-.LJTI45_0
	.long	.LBB45_47-.LJTI45_0
	.long	.LBB45_32-.LJTI45_0
	.long	.LBB45_33-.LJTI45_0
	.long	.LBB45_34-.LJTI45_0
	.long	.LBB45_35-.LJTI45_0
	.long	.LBB45_36-.LJTI45_0
	.long	.LBB45_37-.LJTI45_0
	.long	.LBB45_38-.LJTI45_0
	.long	.LBB45_39-.LJTI45_0
	.long	.LBB45_40-.LJTI45_0
	.long	.LBB45_41-.LJTI45_0
	.long	.LBB45_42-.LJTI45_0
	.long	.LBB45_43-.LJTI45_0
	.long	.LBB45_44-.LJTI45_0

	.section	.text.signalfern_next_to,"ax",@progbits
	.globl	signalfern_next_to
	.p2align	4
	.type	signalfern_next_to,@function
signalfern_next_to:
	pushq	%rbp
	pushq	%r15
	pushq	%r14
	pushq	%r13
	pushq	%r12
	pushq	%rbx
	subq	$136, %rsp
	xorl	%eax, %eax
	testq	%rsi, %rsi
	sete	%r9b
	xorps	%xmm0, %xmm0
	movaps	%xmm0, 48(%rsp)
	movaps	%xmm0, 64(%rsp)
	movaps	%xmm0, 80(%rsp)
	movaps	%xmm0, 96(%rsp)
	movaps	%xmm0, 112(%rsp)
	movq	$0, 128(%rsp)
	movaps	%xmm0, (%rsp)
	movaps	%xmm0, 16(%rsp)
	movq	$0, 32(%rsp)
	movb	$12, %r10b
	cmpl	$2147352575, %ecx
	ja	.LBB46_4
	movl	%ecx, %r12d
	movb	$14, %r10b
	cmpq	%r12, %rdi
	jbe	.LBB46_2
.LBB46_4:
	xorl	%eax, %eax
	movl	$3, %ecx
	movzbl	%r10b, %edx
	leaq	.LJTI46_0(%rip), %rsi
	movslq	(%rsi,%rdx,4), %rdx
	addq	%rsi, %rdx
	jmpq	*%rdx
.LBB46_24:
	movl	$1, %ecx
	jmp	.LBB46_25
.LBB46_2:
	movl	%ecx, %ebx
	movq	%rdi, %rbp
	movq	%r8, %r13
	movb	%r9b, %al
	shll	$12, %eax
	addq	%rax, %rsi
	leaq	48(%rsp), %rdi
	movq	%rsi, %r15
	movq	%rdx, %r14
	callq	"column::Column::open"
	cmpb	$1, 48(%rsp)
	jne	.LBB46_5
	movq	64(%rsp), %rax
	movl	$3, %ecx
	movzbl	56(%rsp), %edx
	leaq	.LJTI46_0(%rip), %rsi
	movslq	(%rsi,%rdx,4), %rdx
	addq	%rsi, %rdx
	movq	%r13, %r8
	movq	%rbp, %rdi
	jmpq	*%rdx
.LBB46_5:
	leaq	56(%rsp), %rcx
	movq	%rsp, %rdi
	movq	%r15, %rsi
	movq	%r14, %rdx
	movl	%ebx, %r8d
	callq	"next::steps_from"
	movzbl	8(%rsp), %edx
	movq	16(%rsp), %rax
	cmpb	$0, (%rsp)
	je	.LBB46_7
	movl	$3, %ecx
	movzbl	%dl, %edx
	leaq	.LJTI46_0(%rip), %rsi
	movslq	(%rsi,%rdx,4), %rdx
	addq	%rsi, %rdx
	movq	%r13, %r8
	movq	%rbp, %rdi
	jmpq	*%rdx
.LBB46_10:
	movl	$2, %ecx
	jmp	.LBB46_25
.LBB46_22:
	movl	$16, %ecx
	jmp	.LBB46_25
.LBB46_19:
	movl	$13, %ecx
	jmp	.LBB46_25
.LBB46_12:
	movl	$6, %ecx
	jmp	.LBB46_26
.LBB46_20:
	movl	$14, %ecx
	jmp	.LBB46_25
.LBB46_17:
	movl	$11, %ecx
	jmp	.LBB46_25
.LBB46_23:
	movl	$17, %ecx
	jmp	.LBB46_25
.LBB46_11:
	movl	$4, %ecx
	jmp	.LBB46_26
.LBB46_15:
	movl	$9, %ecx
	jmp	.LBB46_25
.LBB46_13:
	movl	$7, %ecx
	jmp	.LBB46_26
.LBB46_21:
	movl	$15, %ecx
	jmp	.LBB46_25
.LBB46_14:
	movl	$8, %ecx
	jmp	.LBB46_26
.LBB46_18:
	movl	$12, %ecx
	jmp	.LBB46_26
.LBB46_16:
	movl	$10, %ecx
.LBB46_25:
	xorl	%eax, %eax
.LBB46_26:
	movq	%rcx, (%r8)
	movq	%rax, 8(%r8)
	xorps	%xmm0, %xmm0
	movups	%xmm0, 16(%r8)
	movq	$0, 32(%r8)
	movq	%rdi, 40(%r8)
.LBB46_27:
	addq	$136, %rsp
	popq	%rbx
	popq	%r12
	popq	%r13
	popq	%r14
	popq	%r15
	popq	%rbp
	retq
.LBB46_7:
	cmpb	$1, %dl
	jne	.LBB46_9
	movl	24(%rsp), %ecx
	movq	32(%rsp), %rdx
	xorps	%xmm0, %xmm0
	movups	%xmm0, (%r13)
	movq	%rcx, 16(%r13)
	movq	%rax, 24(%r13)
	movq	%rdx, 32(%r13)
	movq	%r12, 40(%r13)
	jmp	.LBB46_27
.LBB46_9:
	movq	$1, (%r13)
	xorps	%xmm0, %xmm0
	movups	%xmm0, 8(%r13)
	movups	%xmm0, 24(%r13)
	movq	%r12, 40(%r13)
	jmp	.LBB46_27
.Lfunc_end46:
	.size	signalfern_next_to, .Lfunc_end46-signalfern_next_to
	.section	.rodata.signalfern_next_to,"a",@progbits
	.p2align	2, 0x0
.LJTI46_0:
	.long	.LBB46_24-.LJTI46_0
	.long	.LBB46_10-.LJTI46_0
	.long	.LBB46_26-.LJTI46_0
	.long	.LBB46_11-.LJTI46_0
	.long	.LBB46_12-.LJTI46_0
	.long	.LBB46_13-.LJTI46_0
	.long	.LBB46_14-.LJTI46_0
	.long	.LBB46_15-.LJTI46_0
	.long	.LBB46_16-.LJTI46_0
	.long	.LBB46_17-.LJTI46_0
	.long	.LBB46_18-.LJTI46_0
	.long	.LBB46_19-.LJTI46_0
	.long	.LBB46_20-.LJTI46_0
	.long	.LBB46_21-.LJTI46_0
	.long	.LBB46_22-.LJTI46_0
	.long	.LBB46_23-.LJTI46_0

	.section	.text.signalfern_open_to,"ax",@progbits
	.globl	signalfern_open_to
	.p2align	4
	.type	signalfern_open_to,@function
signalfern_open_to:
	pushq	%rbx
	subq	$96, %rsp
	movq	%rdx, %rbx
	movq	%rsi, %rdx
	xorl	%esi, %esi
	testq	%rdi, %rdi
	sete	%sil
	shll	$12, %esi
	addq	%rdi, %rsi
	xorps	%xmm0, %xmm0
	movaps	%xmm0, 64(%rsp)
	movaps	%xmm0, 48(%rsp)
	movaps	%xmm0, 32(%rsp)
	movaps	%xmm0, 16(%rsp)
	movaps	%xmm0, (%rsp)
	movq	$0, 80(%rsp)
	movq	%rsp, %rdi
	callq	"column::Column::open"
	movzbl	8(%rsp), %edx
	movq	16(%rsp), %rax
	cmpb	$0, (%rsp)
	je	.LBB47_3
	leaq	.LJTI47_0(%rip), %rcx
	movslq	(%rcx,%rdx,4), %rsi
	addq	%rcx, %rsi
	jmpq	*%rsi
.LBB47_2:
	movl	$1, %ecx
	movq	%rdx, %rax
	jmp	.LBB47_20
.LBB47_3:
	incq	%rdx
	xorps	%xmm0, %xmm0
	movups	%xmm0, (%rbx)
	movq	%rdx, 16(%rbx)
	movq	%rax, 24(%rbx)
	movups	24(%rsp), %xmm0
	movups	%xmm0, 32(%rbx)
	movups	40(%rsp), %xmm0
	movups	%xmm0, 48(%rbx)
	movups	56(%rsp), %xmm0
	movups	%xmm0, 64(%rbx)
	movups	72(%rsp), %xmm0
	movups	%xmm0, 80(%rbx)
	addq	$96, %rsp
	popq	%rbx
	retq
.LBB47_4:
	movl	$16, %ecx
	jmp	.LBB47_19
.LBB47_5:
	movl	$13, %ecx
	jmp	.LBB47_19
.LBB47_6:
	movl	$6, %ecx
	jmp	.LBB47_20
.LBB47_7:
	movl	$14, %ecx
	jmp	.LBB47_19
.LBB47_8:
	movl	$11, %ecx
	jmp	.LBB47_19
.LBB47_9:
	movl	$3, %ecx
	jmp	.LBB47_20
.LBB47_10:
	movl	$17, %ecx
	jmp	.LBB47_19
.LBB47_11:
	movl	$4, %ecx
	jmp	.LBB47_20
.LBB47_12:
	movl	$9, %ecx
	jmp	.LBB47_19
.LBB47_13:
	movl	$2, %ecx
	jmp	.LBB47_19
.LBB47_14:
	movl	$7, %ecx
	jmp	.LBB47_20
.LBB47_15:
	movl	$15, %ecx
	jmp	.LBB47_19
.LBB47_16:
	movl	$8, %ecx
	jmp	.LBB47_20
.LBB47_17:
	movl	$12, %ecx
	jmp	.LBB47_20
.LBB47_18:
	movl	$10, %ecx
.LBB47_19:
	xorl	%eax, %eax
.LBB47_20:
	movq	%rcx, (%rbx)
	movq	%rax, 8(%rbx)
	xorps	%xmm0, %xmm0
	movups	%xmm0, 16(%rbx)
	movups	%xmm0, 32(%rbx)
	movups	%xmm0, 48(%rbx)
	movups	%xmm0, 64(%rbx)
	movups	%xmm0, 80(%rbx)
	addq	$96, %rsp
	popq	%rbx
	retq
.Lfunc_end47:
	.size	signalfern_open_to, .Lfunc_end47-signalfern_open_to
	.section	.rodata.signalfern_open_to,"a",@progbits
	.p2align	2, 0x0
.LJTI47_0:
	.long	.LBB47_2-.LJTI47_0
	.long	.LBB47_13-.LJTI47_0
	.long	.LBB47_9-.LJTI47_0
	.long	.LBB47_11-.LJTI47_0
	.long	.LBB47_6-.LJTI47_0
	.long	.LBB47_14-.LJTI47_0
	.long	.LBB47_16-.LJTI47_0
	.long	.LBB47_12-.LJTI47_0
	.long	.LBB47_18-.LJTI47_0
	.long	.LBB47_8-.LJTI47_0
	.long	.LBB47_17-.LJTI47_0
	.long	.LBB47_5-.LJTI47_0
	.long	.LBB47_7-.LJTI47_0
	.long	.LBB47_15-.LJTI47_0
	.long	.LBB47_4-.LJTI47_0
	.long	.LBB47_10-.LJTI47_0

	.section	.text.signalfern_pair_at_in_to,"ax",@progbits
	.globl	signalfern_pair_at_in_to
	.p2align	4
	.type	signalfern_pair_at_in_to,@function
signalfern_pair_at_in_to:
	pushq	%rbp
	pushq	%r15
	pushq	%r14
	pushq	%r13
	pushq	%r12
	pushq	%rbx
	subq	$136, %rsp
	testq	%rsi, %rsi
	sete	%r10b
	movq	16(%rdi), %r15
	decq	%r15
	cmpq	$3, %r15
	ja	.LBB48_2
	movq	56(%rdi), %rax
	jmp	.LBB48_3
.LBB48_2:
	movl	$65, %eax
	xorl	%r15d, %r15d
.LBB48_3:
	movq	88(%rdi), %rbx
	movq	80(%rdi), %r11
	movq	72(%rdi), %r12
	movq	64(%rdi), %rbp
	movq	48(%rdi), %r9
	movq	40(%rdi), %r14
	movq	24(%rdi), %r13
	movq	32(%rdi), %rdi
	movq	%r15, 56(%rsp)
	movq	%r13, 64(%rsp)
	movq	%rdi, 72(%rsp)
	movq	%r14, 80(%rsp)
	movq	%r9, 88(%rsp)
	movq	%rax, 96(%rsp)
	movq	%rbp, 104(%rsp)
	movq	%r12, 112(%rsp)
	movq	%r11, 120(%rsp)
	movq	%rbx, 128(%rsp)
	xorps	%xmm0, %xmm0
	movaps	%xmm0, 32(%rsp)
	movaps	%xmm0, 16(%rsp)
	movq	$0, 48(%rsp)
	cmpq	$2147352576, %r13
	jbe	.LBB48_7
.LBB48_4:
	movb	$8, %bpl
.LBB48_5:
	xorl	%edx, %edx
	movzbl	%bpl, %ecx
	movl	$1, %eax
	leaq	.LJTI48_0(%rip), %rsi
	movslq	(%rsi,%rcx,4), %rdi
	addq	%rsi, %rdi
	jmpq	*%rdi
.LBB48_6:
	movl	$2, %eax
	xorl	%ecx, %ecx
	jmp	.LBB48_48
.LBB48_7:
	movb	%r10b, 7(%rsp)
	movq	%rdx, 8(%rsp)
	testq	%rdi, %rdi
	setne	%r10b
	addq	$-16, %rdi
	cmpq	$-9, %rdi
	setb	%dl
	cmpq	$32767, %r9
	ja	.LBB48_4
	andb	%dl, %r10b
	jne	.LBB48_4
	cmpq	$64, %rax
	ja	.LBB48_4
	leaq	6(,%r9,8), %rdx
	cmpq	%rdx, %r14
	jb	.LBB48_4
	movq	%r13, %r9
	imulq	%rax, %r9
	addq	$7, %r9
	shrq	$3, %r9
	cmpb	$2, %r15b
	jae	.LBB48_19
	testq	%r12, %r12
	movb	$8, %bpl
	je	.LBB48_5
	movq	%rcx, %rdx
	movabsq	$72340173107564823, %r10
	movl	%eax, %ecx
	shrq	%cl, %r10
	notb	%r15b
	orb	%r15b, %r10b
	testb	$1, %r10b
	je	.LBB48_5
	cmpq	%r9, %r11
	movq	%rdx, %rcx
	movq	8(%rsp), %rdx
	movl	$0, %r9d
	movzbl	7(%rsp), %r10d
	je	.LBB48_30
	jmp	.LBB48_5
.LBB48_19:
	movzbl	%r15b, %edx
	cmpl	$2, %edx
	jne	.LBB48_22
	testq	%rax, %rax
	movq	8(%rsp), %rdx
	movl	$0, %r9d
	movzbl	7(%rsp), %r10d
	jne	.LBB48_4
	testq	%rbp, %rbp
	setne	%al
	testq	%r12, %r12
	sete	%dil
	orb	%al, %dil
	jne	.LBB48_4
	addq	$16383, %r13
	shrq	$14, %r13
	leaq	(,%r13,4), %rax
	addq	%r13, %rax
	leaq	(%rax,%rax,4), %rax
	cmpq	%r11, %rax
	movb	$8, %bpl
	ja	.LBB48_5
	jmp	.LBB48_30
.LBB48_22:
	leaq	-257(%r12), %rdx
	cmpq	$-255, %rdx
	jb	.LBB48_4
	testq	%rbp, %rbp
	jne	.LBB48_4
	leaq	-1(%r12), %rdx
	movl	$127, %r10d
	bsrq	%rdx, %r10
	xorq	$-64, %r10
	addq	$65, %r10
	cmpq	%r10, %rax
	movb	$8, %bpl
	jne	.LBB48_5
	leaq	(%r9,%r12,8), %rax
	cmpq	%rax, %r11
	movq	8(%rsp), %rdx
	movl	$0, %r9d
	movzbl	7(%rsp), %r10d
	jne	.LBB48_5
.LBB48_30:
	movb	$9, %bpl
	movq	%rdx, %rax
	subq	%rbx, %rax
	jb	.LBB48_5
	subq	%r14, %rax
	setae	%dil
	cmpq	%r11, %rax
	sete	%al
	testb	%al, %dil
	je	.LBB48_5
	movq	%r8, %rbx
	movb	%r10b, %r9b
	shll	$12, %r9d
	addq	%r9, %rsi
	leaq	16(%rsp), %rdi
	leaq	56(%rsp), %rax
	movq	%rcx, %r8
	movq	%rax, %rcx
	callq	"pair_at::steps_at"
	movzbl	24(%rsp), %eax
	movq	32(%rsp), %rdx
	cmpb	$0, 16(%rsp)
	je	.LBB48_52
	movzbl	%al, %ecx
	movl	$1, %eax
	leaq	.LJTI48_0(%rip), %rsi
	movslq	(%rsi,%rcx,4), %rdi
	addq	%rsi, %rdi
	movq	%rbx, %r8
	jmpq	*%rdi
.LBB48_34:
	movl	$3, %eax
	jmp	.LBB48_47
.LBB48_35:
	movl	$16, %eax
	xorl	%ecx, %ecx
	jmp	.LBB48_48
.LBB48_36:
	movl	$13, %eax
	xorl	%ecx, %ecx
	jmp	.LBB48_48
.LBB48_37:
	movl	$6, %eax
	jmp	.LBB48_47
.LBB48_38:
	movl	$14, %eax
	xorl	%ecx, %ecx
	jmp	.LBB48_48
.LBB48_39:
	movl	$11, %eax
	xorl	%ecx, %ecx
	jmp	.LBB48_48
.LBB48_40:
	movl	$17, %eax
	xorl	%ecx, %ecx
	jmp	.LBB48_48
.LBB48_41:
	movl	$4, %eax
	jmp	.LBB48_47
.LBB48_42:
	movl	$9, %eax
	xorl	%ecx, %ecx
	jmp	.LBB48_48
.LBB48_43:
	movl	$7, %eax
	jmp	.LBB48_47
.LBB48_44:
	movl	$15, %eax
	xorl	%ecx, %ecx
	jmp	.LBB48_48
.LBB48_45:
	movl	$8, %eax
	jmp	.LBB48_47
.LBB48_46:
	movl	$12, %eax
.LBB48_47:
	movq	%rdx, %rcx
.LBB48_48:
	movq	%rax, (%r8)
	movq	%rcx, 8(%r8)
	xorps	%xmm0, %xmm0
	movups	%xmm0, 16(%r8)
	movq	$0, 32(%r8)
.LBB48_49:
	addq	$136, %rsp
	popq	%rbx
	popq	%r12
	popq	%r13
	popq	%r14
	popq	%r15
	popq	%rbp
	retq
.LBB48_50:
	movl	$10, %eax
	xorl	%ecx, %ecx
	jmp	.LBB48_48
.LBB48_52:
	cmpb	$1, %al
	jne	.LBB48_54
	movl	40(%rsp), %eax
	movq	48(%rsp), %rcx
	xorps	%xmm0, %xmm0
	movups	%xmm0, (%rbx)
	movq	%rax, 16(%rbx)
	movq	%rdx, 24(%rbx)
	movq	%rcx, 32(%rbx)
	jmp	.LBB48_49
.LBB48_54:
	movq	$1, (%rbx)
	xorps	%xmm0, %xmm0
	movups	%xmm0, 8(%rbx)
	movups	%xmm0, 24(%rbx)
	jmp	.LBB48_49
.Lfunc_end48:
	.size	signalfern_pair_at_in_to, .Lfunc_end48-signalfern_pair_at_in_to
	.section	.rodata.signalfern_pair_at_in_to,"a",@progbits
	.p2align	2, 0x0
.LJTI48_0:
	.long	.LBB48_48-.LJTI48_0
	.long	.LBB48_6-.LJTI48_0
	.long	.LBB48_34-.LJTI48_0
	.long	.LBB48_41-.LJTI48_0
	.long	.LBB48_37-.LJTI48_0
	.long	.LBB48_43-.LJTI48_0
	.long	.LBB48_45-.LJTI48_0
	.long	.LBB48_42-.LJTI48_0
	.long	.LBB48_50-.LJTI48_0
	.long	.LBB48_39-.LJTI48_0
	.long	.LBB48_46-.LJTI48_0
	.long	.LBB48_36-.LJTI48_0
	.long	.LBB48_38-.LJTI48_0
	.long	.LBB48_44-.LJTI48_0
	.long	.LBB48_35-.LJTI48_0
	.long	.LBB48_40-.LJTI48_0

	.section	.text.signalfern_pair_at_to,"ax",@progbits
	.globl	signalfern_pair_at_to
	.p2align	4
	.type	signalfern_pair_at_to,@function
signalfern_pair_at_to:
	pushq	%r15
	pushq	%r14
	pushq	%r12
	pushq	%rbx
	subq	$216, %rsp
	movq	%rcx, %rbx
	movq	%rdx, %r14
	movq	%rsi, %r15
	xorl	%r12d, %r12d
	testq	%rdi, %rdi
	sete	%r12b
	shll	$12, %r12d
	addq	%rdi, %r12
	xorps	%xmm0, %xmm0
	movaps	%xmm0, (%rsp)
	movaps	%xmm0, 16(%rsp)
	movq	$0, 32(%rsp)
	movaps	%xmm0, 48(%rsp)
	movaps	%xmm0, 64(%rsp)
	movaps	%xmm0, 80(%rsp)
	movaps	%xmm0, 96(%rsp)
	movaps	%xmm0, 112(%rsp)
	movq	$0, 128(%rsp)
	leaq	48(%rsp), %rdi
	movq	%r12, %rsi
	movq	%r15, %rdx
	callq	"column::Column::open"
	movq	56(%rsp), %rax
	movq	64(%rsp), %rdx
	cmpb	$0, 48(%rsp)
	je	.LBB49_2
	movzbl	%al, %ecx
	movl	$1, %eax
	leaq	.LJTI49_0(%rip), %rsi
	movslq	(%rsi,%rcx,4), %rdi
	addq	%rsi, %rdi
	jmpq	*%rdi
.LBB49_2:
	movq	%rax, 136(%rsp)
	movq	%rdx, 144(%rsp)
	movups	72(%rsp), %xmm0
	movups	88(%rsp), %xmm1
	movups	104(%rsp), %xmm2
	movups	120(%rsp), %xmm3
	movups	%xmm0, 152(%rsp)
	movups	%xmm1, 168(%rsp)
	movups	%xmm2, 184(%rsp)
	movups	%xmm3, 200(%rsp)
	movq	%rsp, %rdi
	leaq	136(%rsp), %rcx
	movq	%r12, %rsi
	movq	%r15, %rdx
	movq	%r14, %r8
	callq	"pair_at::steps_at"
	movzbl	8(%rsp), %eax
	movq	16(%rsp), %rdx
	cmpb	$0, (%rsp)
	je	.LBB49_3
	movzbl	%al, %ecx
	movl	$1, %eax
	leaq	.LJTI49_0(%rip), %rsi
	movslq	(%rsi,%rcx,4), %rdi
	addq	%rsi, %rdi
	jmpq	*%rdi
.LBB49_8:
	movl	$2, %eax
	xorl	%ecx, %ecx
	jmp	.LBB49_24
.LBB49_3:
	cmpb	$1, %al
	jne	.LBB49_5
	movl	24(%rsp), %eax
	movq	32(%rsp), %rcx
	xorps	%xmm0, %xmm0
	movups	%xmm0, (%rbx)
	movq	%rax, 16(%rbx)
	movq	%rdx, 24(%rbx)
	movq	%rcx, 32(%rbx)
	jmp	.LBB49_6
.LBB49_5:
	movq	$1, (%rbx)
	xorps	%xmm0, %xmm0
	movups	%xmm0, 8(%rbx)
	movups	%xmm0, 24(%rbx)
	jmp	.LBB49_6
.LBB49_20:
	movl	$16, %eax
	xorl	%ecx, %ecx
	jmp	.LBB49_24
.LBB49_17:
	movl	$13, %eax
	xorl	%ecx, %ecx
	jmp	.LBB49_24
.LBB49_10:
	movl	$6, %eax
	jmp	.LBB49_23
.LBB49_18:
	movl	$14, %eax
	xorl	%ecx, %ecx
	jmp	.LBB49_24
.LBB49_15:
	movl	$11, %eax
	xorl	%ecx, %ecx
	jmp	.LBB49_24
.LBB49_22:
	movl	$3, %eax
	jmp	.LBB49_23
.LBB49_21:
	movl	$17, %eax
	xorl	%ecx, %ecx
	jmp	.LBB49_24
.LBB49_9:
	movl	$4, %eax
	jmp	.LBB49_23
.LBB49_13:
	movl	$9, %eax
	xorl	%ecx, %ecx
	jmp	.LBB49_24
.LBB49_11:
	movl	$7, %eax
	jmp	.LBB49_23
.LBB49_19:
	movl	$15, %eax
	xorl	%ecx, %ecx
	jmp	.LBB49_24
.LBB49_12:
	movl	$8, %eax
	jmp	.LBB49_23
.LBB49_16:
	movl	$12, %eax
.LBB49_23:
	movq	%rdx, %rcx
.LBB49_24:
	movq	%rax, (%rbx)
	movq	%rcx, 8(%rbx)
	xorps	%xmm0, %xmm0
	movups	%xmm0, 16(%rbx)
	movq	$0, 32(%rbx)
.LBB49_6:
	addq	$216, %rsp
	popq	%rbx
	popq	%r12
	popq	%r14
	popq	%r15
	retq
.LBB49_14:
	movl	$10, %eax
	xorl	%ecx, %ecx
	jmp	.LBB49_24
.Lfunc_end49:
	.size	signalfern_pair_at_to, .Lfunc_end49-signalfern_pair_at_to
	.section	.rodata.signalfern_pair_at_to,"a",@progbits
	.p2align	2, 0x0
.LJTI49_0:
	.long	.LBB49_24-.LJTI49_0
	.long	.LBB49_8-.LJTI49_0
	.long	.LBB49_22-.LJTI49_0
	.long	.LBB49_9-.LJTI49_0
	.long	.LBB49_10-.LJTI49_0
	.long	.LBB49_11-.LJTI49_0
	.long	.LBB49_12-.LJTI49_0
	.long	.LBB49_13-.LJTI49_0
	.long	.LBB49_14-.LJTI49_0
	.long	.LBB49_15-.LJTI49_0
	.long	.LBB49_16-.LJTI49_0
	.long	.LBB49_17-.LJTI49_0
	.long	.LBB49_18-.LJTI49_0
	.long	.LBB49_19-.LJTI49_0
	.long	.LBB49_20-.LJTI49_0
	.long	.LBB49_21-.LJTI49_0

	.section	.text.signalfern_plan_to,"ax",@progbits
	.globl	signalfern_plan_to
	.p2align	4
	.type	signalfern_plan_to,@function
signalfern_plan_to:
	pushq	%rbx
	movq	%r8, %rbx
	cmpq	$256, %rcx
	jae	.LBB50_1
	movq	$12, (%rbx)
	movq	$256, 8(%rbx)
	popq	%rbx
	retq
.LBB50_1:
	movq	%rsi, %rax
	xorl	%ecx, %ecx
	testq	%rdx, %rdx
	sete	%cl
	shll	$12, %ecx
	addq	%rdx, %rcx
	xorl	%esi, %esi
	testq	%rdi, %rdi
	sete	%sil
	shll	$12, %esi
	addq	%rdi, %rsi
	movq	%rcx, %rdi
	movq	%rax, %rdx
	callq	"plans::plan"
	movq	$0, (%rbx)
	movq	%rax, 8(%rbx)
	popq	%rbx
	retq
.Lfunc_end50:
	.size	signalfern_plan_to, .Lfunc_end50-signalfern_plan_to

	.section	.text.signalfern_read_from_in_to,"ax",@progbits
	.globl	signalfern_read_from_in_to
	.p2align	4
	.type	signalfern_read_from_in_to,@function
signalfern_read_from_in_to:
	pushq	%rbp
	pushq	%r15
	pushq	%r14
	pushq	%r13
	pushq	%r12
	pushq	%rbx
	subq	$200, %rsp
	movq	%r9, 112(%rsp)
	movq	%rdx, 72(%rsp)
	movq	256(%rsp), %rax
	testq	%rsi, %rsi
	sete	%r11b
	testq	%r8, %r8
	sete	%bpl
	testq	%rax, %rax
	sete	%r13b
	movq	16(%rdi), %r12
	decq	%r12
	cmpq	$3, %r12
	ja	.LBB51_2
	movq	56(%rdi), %r10
	movq	272(%rsp), %rbx
	cmpl	$2147352575, %ecx
	jbe	.LBB51_3
	jmp	.LBB51_26
.LBB51_2:
	movl	$65, %r10d
	xorl	%r12d, %r12d
	movq	272(%rsp), %rbx
	cmpl	$2147352575, %ecx
	ja	.LBB51_26
.LBB51_3:
	movq	24(%rdi), %r9
	cmpq	$2147352576, %r9
	jbe	.LBB51_5
.LBB51_4:
	movl	$10, %ecx
	jmp	.LBB51_27
.LBB51_5:
	movl	%r11d, %ebx
	movl	%ebp, %r11d
	movq	48(%rdi), %rbp
	movq	32(%rdi), %r14
	testq	%r14, %r14
	setne	%dl
	movq	%r14, 104(%rsp)
	addq	$-16, %r14
	cmpq	$-9, %r14
	setb	%r14b
	movq	%rbp, 64(%rsp)
	xorl	%r15d, %r15d
	cmpq	$32767, %rbp
	movl	%r13d, %ebp
	movl	%r11d, %r13d
	movl	%ebx, %r11d
	movq	272(%rsp), %rbx
	ja	.LBB51_4
	andb	%r14b, %dl
	jne	.LBB51_4
	cmpq	$64, %r10
	ja	.LBB51_4
	movq	40(%rdi), %r14
	movq	64(%rsp), %rdx
	leaq	6(,%rdx,8), %rdx
	movq	%r14, 56(%rsp)
	cmpq	%rdx, %r14
	jb	.LBB51_4
	movq	88(%rdi), %rdx
	movq	%rdx, 48(%rsp)
	movq	80(%rdi), %rdx
	movq	%rdx, 24(%rsp)
	movq	72(%rdi), %r14
	movq	64(%rdi), %rdx
	movq	%rdx, 40(%rsp)
	movq	%r9, %rdx
	imulq	%r10, %rdx
	addq	$7, %rdx
	shrq	$3, %rdx
	cmpb	$2, %r12b
	movq	%r14, 32(%rsp)
	jae	.LBB51_12
	testq	%r14, %r14
	je	.LBB51_4
	movabsq	$72340173107564823, %rdi
	movl	%ecx, %r14d
	movl	%r10d, %ecx
	shrq	%cl, %rdi
	movl	%r14d, %ecx
	movl	%r12d, %r14d
	notb	%r14b
	orb	%r14b, %dil
	testb	$1, %dil
	jne	.LBB51_20
	jmp	.LBB51_4
.LBB51_12:
	movzbl	%r12b, %r14d
	cmpl	$2, %r14d
	jne	.LBB51_16
	testq	%r10, %r10
	jne	.LBB51_4
	cmpq	$0, 40(%rsp)
	setne	%dl
	cmpq	$0, 32(%rsp)
	sete	%r14b
	orb	%dl, %r14b
	jne	.LBB51_4
	leaq	16383(%r9), %rdx
	shrq	$14, %rdx
	leaq	(%rdx,%rdx,4), %rdx
	leaq	(%rdx,%rdx,4), %rdx
	cmpq	24(%rsp), %rdx
	ja	.LBB51_4
	jmp	.LBB51_21
.LBB51_16:
	movq	32(%rsp), %rdi
	leaq	-257(%rdi), %r14
	cmpq	$-255, %r14
	jb	.LBB51_4
	cmpq	$0, 40(%rsp)
	jne	.LBB51_4
	movq	32(%rsp), %rdi
	decq	%rdi
	movl	$127, %r14d
	bsrq	%rdi, %r14
	xorq	$-64, %r14
	addq	$65, %r14
	cmpq	%r14, %r10
	jne	.LBB51_4
	movq	32(%rsp), %rdi
	leaq	(%rdx,%rdi,8), %rdx
.LBB51_20:
	cmpq	%rdx, 24(%rsp)
	jne	.LBB51_4
.LBB51_21:
	movq	72(%rsp), %rdx
	subq	48(%rsp), %rdx
	jb	.LBB51_30
	subq	56(%rsp), %rdx
	setae	%dil
	cmpq	24(%rsp), %rdx
	sete	%dl
	andb	%dil, %dl
	cmpb	$1, %dl
	jne	.LBB51_30
	movb	%r11b, %r15b
	shll	$12, %r15d
	addq	%r15, %rsi
	xorl	%edx, %edx
	movb	%r13b, %dl
	shll	$12, %edx
	addq	%rdx, %r8
	xorl	%edx, %edx
	movb	%bpl, %dl
	shll	$12, %edx
	addq	%rdx, %rax
	movb	%r12b, 120(%rsp)
	movb	$0, 127(%rsp)
	movw	$0, 125(%rsp)
	movl	$0, 121(%rsp)
	movq	%r9, 128(%rsp)
	movq	104(%rsp), %rdx
	movq	%rdx, 136(%rsp)
	movq	56(%rsp), %rdx
	movq	%rdx, 144(%rsp)
	movq	64(%rsp), %rdx
	movq	%rdx, 152(%rsp)
	movq	%r10, 160(%rsp)
	movq	40(%rsp), %rdx
	movq	%rdx, 168(%rsp)
	movq	32(%rsp), %rdx
	movq	%rdx, 176(%rsp)
	movq	24(%rsp), %rdx
	movq	%rdx, 184(%rsp)
	movq	264(%rsp), %rdx
	movq	112(%rsp), %rdi
	cmpq	%rdi, %rdx
	cmovbq	%rdx, %rdi
	movq	48(%rsp), %rdx
	movq	%rdx, 192(%rsp)
	xorps	%xmm0, %xmm0
	movaps	%xmm0, 80(%rsp)
	movq	$0, 96(%rsp)
	movl	%ecx, 8(%rsp)
	movq	%rdi, (%rsp)
	leaq	80(%rsp), %rdi
	leaq	120(%rsp), %r9
	movq	%rsi, %rcx
	movq	%r8, %rsi
	movq	%rax, %rdx
	movq	72(%rsp), %r8
	callq	"read_from::read_up_to"
	movzbl	88(%rsp), %edx
	movq	96(%rsp), %rax
	cmpb	$0, 80(%rsp)
	je	.LBB51_31
	movl	%edx, %ecx
	leaq	.LJTI51_0(%rip), %rsi
	movslq	(%rsi,%rcx,4), %rcx
	addq	%rsi, %rcx
	jmpq	*%rcx
.LBB51_25:
	movl	$1, %ecx
	movq	%rdx, %rax
	jmp	.LBB51_28
.LBB51_26:
	movl	$14, %ecx
.LBB51_27:
	xorl	%eax, %eax
.LBB51_28:
	movq	%rcx, (%rbx)
	movq	%rax, 8(%rbx)
	movq	$0, 16(%rbx)
.LBB51_29:
	addq	$200, %rsp
	popq	%rbx
	popq	%r12
	popq	%r13
	popq	%r14
	popq	%r15
	popq	%rbp
	retq
.LBB51_30:
	movl	$11, %ecx
	jmp	.LBB51_27
.LBB51_31:
	testl	%edx, %edx
	je	.LBB51_33
	movq	$1, (%rbx)
	movq	$0, 8(%rbx)
	movq	%rax, 16(%rbx)
	jmp	.LBB51_29
.LBB51_33:
	xorps	%xmm0, %xmm0
	movups	%xmm0, (%rbx)
	movq	%rax, 16(%rbx)
	jmp	.LBB51_29
.LBB51_34:
	movl	$16, %ecx
	jmp	.LBB51_27
.LBB51_35:
	movl	$13, %ecx
	jmp	.LBB51_27
.LBB51_36:
	movl	$3, %ecx
	jmp	.LBB51_28
.LBB51_37:
	movl	$9, %ecx
	jmp	.LBB51_27
.LBB51_38:
	movl	$17, %ecx
	jmp	.LBB51_27
.LBB51_39:
	movl	$2, %ecx
	jmp	.LBB51_27
.LBB51_40:
	movl	$7, %ecx
	jmp	.LBB51_28
.LBB51_41:
	movl	$4, %ecx
	jmp	.LBB51_28
.LBB51_42:
	movl	$15, %ecx
	jmp	.LBB51_27
.LBB51_43:
	movl	$6, %ecx
	jmp	.LBB51_28
.LBB51_44:
	movl	$12, %ecx
	jmp	.LBB51_28
.LBB51_45:
	movl	$8, %ecx
	jmp	.LBB51_28
.Lfunc_end51:
	.size	signalfern_read_from_in_to, .Lfunc_end51-signalfern_read_from_in_to
	.section	.rodata.signalfern_read_from_in_to,"a",@progbits
	.p2align	2, 0x0
.LJTI51_0:
	.long	.LBB51_25-.LJTI51_0
	.long	.LBB51_39-.LJTI51_0
	.long	.LBB51_36-.LJTI51_0
	.long	.LBB51_41-.LJTI51_0
	.long	.LBB51_43-.LJTI51_0
	.long	.LBB51_40-.LJTI51_0
	.long	.LBB51_45-.LJTI51_0
	.long	.LBB51_37-.LJTI51_0
	.long	.LBB51_4-.LJTI51_0
	.long	.LBB51_30-.LJTI51_0
	.long	.LBB51_44-.LJTI51_0
	.long	.LBB51_35-.LJTI51_0
	.long	.LBB51_26-.LJTI51_0
	.long	.LBB51_42-.LJTI51_0
	.long	.LBB51_34-.LJTI51_0
	.long	.LBB51_38-.LJTI51_0

	.section	.text.signalfern_read_from_to,"ax",@progbits
	.globl	signalfern_read_from_to
	.p2align	4
	.type	signalfern_read_from_to,@function
signalfern_read_from_to:
	pushq	%rbp
	pushq	%r15
	pushq	%r14
	pushq	%r13
	pushq	%r12
	pushq	%rbx
	subq	$248, %rsp
	movq	%rsi, %rbx
	movq	312(%rsp), %r10
	xorl	%eax, %eax
	testq	%rdi, %rdi
	sete	%sil
	xorl	%r15d, %r15d
	testq	%rcx, %rcx
	sete	%r12b
	xorl	%r13d, %r13d
	testq	%r9, %r9
	sete	%bpl
	xorps	%xmm0, %xmm0
	movaps	%xmm0, 144(%rsp)
	movaps	%xmm0, 128(%rsp)
	movaps	%xmm0, 112(%rsp)
	movaps	%xmm0, 96(%rsp)
	movaps	%xmm0, 80(%rsp)
	movq	$0, 160(%rsp)
	cmpl	$2147352575, %edx
	ja	.LBB52_1
	movq	%rdi, %r14
	movl	%edx, 28(%rsp)
	movq	%r8, 72(%rsp)
	movq	%rcx, 56(%rsp)
	movq	%r9, 64(%rsp)
	movb	%sil, %al
	shll	$12, %eax
	addq	%rax, %r14
	leaq	80(%rsp), %rdi
	movq	%r14, %rsi
	movq	%rbx, %rdx
	callq	"column::Column::open"
	movq	88(%rsp), %rax
	movq	96(%rsp), %rcx
	cmpb	$0, 80(%rsp)
	je	.LBB52_5
	movq	312(%rsp), %r10
	jmp	.LBB52_4
.LBB52_1:
	movb	$12, %al
	xorl	%ecx, %ecx
.LBB52_4:
	movzbl	%al, %edx
	movl	$1, %eax
	leaq	.LJTI52_0(%rip), %rsi
	movslq	(%rsi,%rdx,4), %rdi
	addq	%rsi, %rdi
	jmpq	*%rdi
.LBB52_10:
	movl	$2, %eax
	xorl	%edx, %edx
	jmp	.LBB52_26
.LBB52_5:
	movq	304(%rsp), %rdi
	movb	%r12b, %r15b
	shll	$12, %r15d
	movq	56(%rsp), %rsi
	addq	%r15, %rsi
	movb	%bpl, %r13b
	shll	$12, %r13d
	movq	64(%rsp), %rdx
	addq	%r13, %rdx
	movq	%rax, 168(%rsp)
	movq	%rcx, 176(%rsp)
	movups	104(%rsp), %xmm0
	movups	120(%rsp), %xmm1
	movups	136(%rsp), %xmm2
	movups	152(%rsp), %xmm3
	movups	%xmm0, 184(%rsp)
	movups	%xmm1, 200(%rsp)
	movups	%xmm2, 216(%rsp)
	movups	%xmm3, 232(%rsp)
	xorps	%xmm0, %xmm0
	movaps	%xmm0, 32(%rsp)
	movq	$0, 48(%rsp)
	movq	72(%rsp), %rcx
	cmpq	%rcx, %rdi
	cmovbq	%rdi, %rcx
	movl	28(%rsp), %eax
	movl	%eax, 8(%rsp)
	movq	%rcx, (%rsp)
	leaq	32(%rsp), %rdi
	leaq	168(%rsp), %r9
	movq	%r14, %rcx
	movq	%rbx, %r8
	callq	"read_from::read_up_to"
	movzbl	40(%rsp), %eax
	movq	48(%rsp), %rcx
	cmpb	$0, 32(%rsp)
	je	.LBB52_6
	movzbl	%al, %edx
	movl	$1, %eax
	leaq	.LJTI52_0(%rip), %rsi
	movslq	(%rsi,%rdx,4), %rdi
	addq	%rsi, %rdi
	movq	312(%rsp), %r10
	jmpq	*%rdi
.LBB52_24:
	movl	$3, %eax
	jmp	.LBB52_25
.LBB52_6:
	testb	%al, %al
	movq	312(%rsp), %rax
	je	.LBB52_7
	movq	$1, (%rax)
	movq	$0, 8(%rax)
	movq	%rcx, 16(%rax)
	jmp	.LBB52_27
.LBB52_22:
	movl	$16, %eax
	xorl	%edx, %edx
	jmp	.LBB52_26
.LBB52_19:
	movl	$13, %eax
	xorl	%edx, %edx
	jmp	.LBB52_26
.LBB52_12:
	movl	$6, %eax
	jmp	.LBB52_25
.LBB52_20:
	movl	$14, %eax
	xorl	%edx, %edx
	jmp	.LBB52_26
.LBB52_17:
	movl	$11, %eax
	xorl	%edx, %edx
	jmp	.LBB52_26
.LBB52_23:
	movl	$17, %eax
	xorl	%edx, %edx
	jmp	.LBB52_26
.LBB52_11:
	movl	$4, %eax
	jmp	.LBB52_25
.LBB52_15:
	movl	$9, %eax
	xorl	%edx, %edx
	jmp	.LBB52_26
.LBB52_13:
	movl	$7, %eax
	jmp	.LBB52_25
.LBB52_21:
	movl	$15, %eax
	xorl	%edx, %edx
	jmp	.LBB52_26
.LBB52_14:
	movl	$8, %eax
	jmp	.LBB52_25
.LBB52_18:
	movl	$12, %eax
.LBB52_25:
	movq	%rcx, %rdx
.LBB52_26:
	movq	%rax, (%r10)
	movq	%rdx, 8(%r10)
	movq	$0, 16(%r10)
.LBB52_27:
	addq	$248, %rsp
	popq	%rbx
	popq	%r12
	popq	%r13
	popq	%r14
	popq	%r15
	popq	%rbp
	retq
.LBB52_16:
	movl	$10, %eax
	xorl	%edx, %edx
	jmp	.LBB52_26
.LBB52_7:
	xorps	%xmm0, %xmm0
	movups	%xmm0, (%rax)
	movq	%rcx, 16(%rax)
	jmp	.LBB52_27
.Lfunc_end52:
	.size	signalfern_read_from_to, .Lfunc_end52-signalfern_read_from_to
	.section	.rodata.signalfern_read_from_to,"a",@progbits
	.p2align	2, 0x0
.LJTI52_0:
	.long	.LBB52_26-.LJTI52_0
	.long	.LBB52_10-.LJTI52_0
	.long	.LBB52_24-.LJTI52_0
	.long	.LBB52_11-.LJTI52_0
	.long	.LBB52_12-.LJTI52_0
	.long	.LBB52_13-.LJTI52_0
	.long	.LBB52_14-.LJTI52_0
	.long	.LBB52_15-.LJTI52_0
	.long	.LBB52_16-.LJTI52_0
	.long	.LBB52_17-.LJTI52_0
	.long	.LBB52_18-.LJTI52_0
	.long	.LBB52_19-.LJTI52_0
	.long	.LBB52_20-.LJTI52_0
	.long	.LBB52_21-.LJTI52_0
	.long	.LBB52_22-.LJTI52_0
	.long	.LBB52_23-.LJTI52_0

	.section	.text.signalfern_read_layered_from_in_to,"ax",@progbits
	.globl	signalfern_read_layered_from_in_to
	.p2align	4
	.type	signalfern_read_layered_from_in_to,@function
signalfern_read_layered_from_in_to:
	pushq	%rbp
	pushq	%r15
	pushq	%r14
	pushq	%r13
	pushq	%r12
	pushq	%rbx
	subq	$536, %rsp
	movq	%r9, 320(%rsp)
	movq	%rdx, 208(%rsp)
	testq	%rsi, %rsi
	sete	%dl
	testq	%r8, %r8
	sete	71(%rsp)
	cmpq	$0, 600(%rsp)
	sete	70(%rsp)
	cmpq	$0, 616(%rsp)
	sete	69(%rsp)
	cmpq	$0, 632(%rsp)
	sete	68(%rsp)
	movq	16(%rdi), %r14
	decq	%r14
	movl	$65, %r10d
	cmpq	$3, %r14
	ja	.LBB53_2
	movq	56(%rdi), %rax
	jmp	.LBB53_3
.LBB53_2:
	xorl	%r14d, %r14d
	movl	$65, %eax
.LBB53_3:
	movq	%rax, 80(%rsp)
	movq	88(%rdi), %rax
	movq	%rax, 216(%rsp)
	movq	80(%rdi), %rax
	movq	%rax, 104(%rsp)
	movq	72(%rdi), %rax
	movq	%rax, 96(%rsp)
	movq	64(%rdi), %rax
	movq	%rax, 176(%rsp)
	movq	48(%rdi), %rax
	movq	%rax, 192(%rsp)
	movq	40(%rdi), %rax
	movq	%rax, 184(%rsp)
	movq	24(%rdi), %rax
	movq	%rax, 120(%rsp)
	movq	32(%rdi), %rax
	movq	%rax, 224(%rsp)
	movq	16(%rcx), %r12
	decq	%r12
	cmpq	$3, %r12
	ja	.LBB53_5
	movq	56(%rcx), %r10
	jmp	.LBB53_6
.LBB53_5:
	xorl	%r12d, %r12d
.LBB53_6:
	movq	88(%rcx), %r13
	movq	80(%rcx), %r11
	movq	72(%rcx), %rax
	movq	64(%rcx), %rbp
	movq	48(%rcx), %rdi
	movq	40(%rcx), %r15
	movq	24(%rcx), %rbx
	movq	32(%rcx), %r9
	movq	%r14, 456(%rsp)
	movq	120(%rsp), %rcx
	movq	%rcx, 464(%rsp)
	movq	224(%rsp), %rcx
	movq	%rcx, 472(%rsp)
	movq	184(%rsp), %rcx
	movq	%rcx, 480(%rsp)
	movq	192(%rsp), %rcx
	movq	%rcx, 488(%rsp)
	movq	80(%rsp), %rcx
	movq	%rcx, 496(%rsp)
	movq	176(%rsp), %rcx
	movq	%rcx, 504(%rsp)
	movq	96(%rsp), %rcx
	movq	%rcx, 512(%rsp)
	movq	104(%rsp), %rcx
	movq	%rcx, 520(%rsp)
	movq	216(%rsp), %rcx
	movq	%rcx, 528(%rsp)
	movq	%r12, 376(%rsp)
	movq	%rbx, 384(%rsp)
	movq	%r9, 168(%rsp)
	movq	%r9, 392(%rsp)
	movq	%r15, 400(%rsp)
	movq	%rdi, 408(%rsp)
	movq	%r10, 72(%rsp)
	movq	%r10, 416(%rsp)
	movq	%rbp, 112(%rsp)
	movq	%rbp, 424(%rsp)
	movq	%rax, 432(%rsp)
	movq	%r11, 88(%rsp)
	movq	%r11, 440(%rsp)
	movq	%r13, 160(%rsp)
	movq	%r13, 448(%rsp)
	xorps	%xmm0, %xmm0
	movaps	%xmm0, 336(%rsp)
	movaps	%xmm0, 352(%rsp)
	movb	$1, %r10b
	cmpl	$2147352575, 592(%rsp)
	ja	.LBB53_9
	movb	%dl, 67(%rsp)
	movq	%rsi, 312(%rsp)
	movb	$8, %dl
	cmpq	$2147352576, %rbx
	jbe	.LBB53_10
	xorl	%ecx, %ecx
	movq	648(%rsp), %rbx
	jmp	.LBB53_34
.LBB53_9:
	xorl	%ecx, %ecx
	movb	$12, %dl
	movq	648(%rsp), %rbx
	jmp	.LBB53_34
.LBB53_10:
	movq	%r15, %r9
	movq	%rdi, %r15
	movq	%rax, %rbp
	movq	%rbx, %rdi
	movq	320(%rsp), %rsi
	movq	168(%rsp), %rax
	testq	%rax, %rax
	setne	%r10b
	leaq	-16(%rax), %rcx
	cmpq	$-9, %rcx
	setb	%bl
	xorl	%ecx, %ecx
	cmpq	$32767, %r15
	ja	.LBB53_32
	andb	%bl, %r10b
	jne	.LBB53_32
	xorl	%ecx, %ecx
	cmpq	$64, 72(%rsp)
	movq	648(%rsp), %rbx
	ja	.LBB53_33
	movq	%r15, %rax
	leaq	6(,%r15,8), %r10
	cmpq	%r10, %r9
	jb	.LBB53_33
	movq	%r9, %r13
	movq	%rdi, %r9
	imulq	72(%rsp), %r9
	addq	$7, %r9
	shrq	$3, %r9
	cmpb	$2, %r12b
	movb	$1, %r10b
	jae	.LBB53_22
	testq	%rbp, %rbp
	je	.LBB53_24
	movl	%r12d, %r10d
	movabsq	$72340173107564823, %rbx
	movq	72(%rsp), %rcx
	shrq	%cl, %rbx
	notb	%r10b
	orb	%r10b, %bl
	xorl	%ecx, %ecx
	testb	$1, %bl
	je	.LBB53_32
	cmpq	%r9, 88(%rsp)
	movq	648(%rsp), %rbx
	movb	$1, %r10b
	jne	.LBB53_34
.LBB53_18:
	movb	$9, %dl
	movq	%rsi, %rcx
	subq	160(%rsp), %rcx
	jb	.LBB53_24
	subq	%r13, %rcx
	setae	%r10b
	cmpq	88(%rsp), %rcx
	sete	%cl
	andb	%r10b, %cl
	cmpb	$1, %cl
	jne	.LBB53_41
	movq	%rdi, %r9
	xorl	%ecx, %ecx
	movzbl	71(%rsp), %edx
	movb	%dl, %cl
	shll	$12, %ecx
	movq	%r8, %r10
	addq	%rcx, %r10
	cmpq	$2147352576, 120(%rsp)
	movq	%rsi, %r8
	movl	592(%rsp), %r15d
	jbe	.LBB53_44
.LBB53_38:
	movq	%r12, 232(%rsp)
	movq	%r9, 240(%rsp)
	movq	168(%rsp), %rcx
	movq	%rcx, 248(%rsp)
	movq	%r13, 256(%rsp)
	movq	%rax, 264(%rsp)
	movq	72(%rsp), %rax
	movq	%rax, 272(%rsp)
	movq	112(%rsp), %rax
	movq	%rax, 280(%rsp)
	movq	%rbp, 288(%rsp)
	movq	88(%rsp), %rax
	movq	%rax, 296(%rsp)
	movq	160(%rsp), %rax
	movq	%rax, 304(%rsp)
	movaps	%xmm0, 128(%rsp)
	movq	$0, 144(%rsp)
	movl	%r15d, 8(%rsp)
	movq	$0, (%rsp)
	leaq	128(%rsp), %rdi
	leaq	204(%rsp), %rsi
	leaq	328(%rsp), %rdx
	leaq	232(%rsp), %r9
	movq	%r10, %rcx
	callq	"read_from::read_up_to"
	xorl	%ecx, %ecx
	cmpb	$0, 128(%rsp)
	movl	$8, %eax
	cmovnel	136(%rsp), %eax
	cmovneq	144(%rsp), %rcx
	setne	%r10b
	movzbl	%al, %edx
	movl	$3, %eax
	movzbl	%dl, %edx
	leaq	.LJTI53_0(%rip), %rsi
	movslq	(%rsi,%rdx,4), %rdx
	addq	%rsi, %rdx
	jmpq	*%rdx
.LBB53_22:
	movzbl	%r12b, %ecx
	cmpl	$2, %ecx
	jne	.LBB53_25
	cmpq	$0, 72(%rsp)
	jne	.LBB53_24
	cmpq	$0, 112(%rsp)
	setne	%cl
	testq	%rbp, %rbp
	sete	%r10b
	orb	%cl, %r10b
	je	.LBB53_42
.LBB53_41:
	xorl	%ecx, %ecx
	jmp	.LBB53_33
.LBB53_25:
	leaq	-257(%rbp), %rcx
	cmpq	$-255, %rcx
	jae	.LBB53_28
.LBB53_24:
	xorl	%ecx, %ecx
	jmp	.LBB53_34
.LBB53_28:
	xorl	%ecx, %ecx
	cmpq	$0, 112(%rsp)
	jne	.LBB53_34
	leaq	-1(%rbp), %r10
	movl	$127, %ebx
	bsrq	%r10, %rbx
	xorq	$-64, %rbx
	addq	$65, %rbx
	cmpq	%rbx, 72(%rsp)
	jne	.LBB53_32
	leaq	(%r9,%rbp,8), %rcx
	cmpq	%rcx, 88(%rsp)
	movq	648(%rsp), %rbx
	movb	$1, %r10b
	je	.LBB53_18
	jmp	.LBB53_24
.LBB53_32:
	movq	648(%rsp), %rbx
.LBB53_33:
	movb	$1, %r10b
.LBB53_34:
	movzbl	%dl, %edx
	movl	$3, %eax
	movzbl	%dl, %edx
	leaq	.LJTI53_0(%rip), %rsi
	movslq	(%rsi,%rdx,4), %rdx
	addq	%rsi, %rdx
	jmpq	*%rdx
.LBB53_35:
	movl	$1, %eax
	jmp	.LBB53_69
.LBB53_42:
	leaq	16383(%rdi), %rcx
	shrq	$14, %rcx
	leaq	(%rcx,%rcx,4), %rcx
	leaq	(%rcx,%rcx,4), %rcx
	cmpq	88(%rsp), %rcx
	movb	$1, %r10b
	jbe	.LBB53_18
	jmp	.LBB53_24
.LBB53_44:
	movq	224(%rsp), %rdx
	testq	%rdx, %rdx
	setne	%cl
	addq	$-16, %rdx
	cmpq	$-9, %rdx
	setb	%dil
	cmpq	$32767, 192(%rsp)
	ja	.LBB53_38
	andb	%dil, %cl
	jne	.LBB53_38
	cmpq	$64, 80(%rsp)
	ja	.LBB53_38
	movq	192(%rsp), %rcx
	leaq	6(,%rcx,8), %rcx
	cmpq	%rcx, 184(%rsp)
	jb	.LBB53_38
	movq	120(%rsp), %rdi
	imulq	80(%rsp), %rdi
	addq	$7, %rdi
	shrq	$3, %rdi
	cmpb	$2, %r14b
	jae	.LBB53_72
	cmpq	$0, 96(%rsp)
	je	.LBB53_38
	movabsq	$72340173107564823, %rdx
	movq	80(%rsp), %rcx
	shrq	%cl, %rdx
	notb	%r14b
	orb	%r14b, %dl
	testb	$1, %dl
	je	.LBB53_38
	cmpq	%rdi, 104(%rsp)
	jne	.LBB53_38
.LBB53_52:
	movq	208(%rsp), %rcx
	subq	216(%rsp), %rcx
	jb	.LBB53_80
	subq	184(%rsp), %rcx
	setae	%dl
	cmpq	104(%rsp), %rcx
	sete	%cl
	testb	%cl, %dl
	je	.LBB53_80
	xorl	%ecx, %ecx
	movzbl	67(%rsp), %eax
	movb	%al, %cl
	xorl	%esi, %esi
	movzbl	70(%rsp), %eax
	movb	%al, %sil
	xorl	%r9d, %r9d
	movzbl	69(%rsp), %eax
	movb	%al, %r9b
	xorl	%r14d, %r14d
	movzbl	68(%rsp), %eax
	movb	%al, %r14b
	shll	$12, %ecx
	shll	$12, %esi
	shll	$12, %r9d
	shll	$12, %r14d
	movq	640(%rsp), %rax
	movq	624(%rsp), %rbx
	movq	608(%rsp), %rdx
	movq	312(%rsp), %rdi
	addq	%rcx, %rdi
	movq	600(%rsp), %r11
	addq	%rsi, %r11
	movq	616(%rsp), %rcx
	addq	%r9, %rcx
	movq	632(%rsp), %r9
	addq	%r14, %r9
	movl	%r15d, 56(%rsp)
	leaq	376(%rsp), %rsi
	movq	%rsi, 48(%rsp)
	movq	%r8, 40(%rsp)
	movq	%r10, 32(%rsp)
	leaq	456(%rsp), %rsi
	movq	%rsi, 24(%rsp)
	movq	208(%rsp), %rsi
	movq	%rsi, 16(%rsp)
	movq	%rdi, 8(%rsp)
	movq	%rax, (%rsp)
	leaq	336(%rsp), %rdi
	movq	%r11, %rsi
	movq	%rbx, %r8
	callq	"layered_reading::layered_steps"
	movzbl	344(%rsp), %r10d
	movq	352(%rsp), %rdx
	cmpb	$0, 336(%rsp)
	je	.LBB53_81
	movq	360(%rsp), %rcx
	movl	$3, %eax
	movzbl	%dl, %edx
	leaq	.LJTI53_0(%rip), %rsi
	movslq	(%rsi,%rdx,4), %rdx
	addq	%rsi, %rdx
	movq	648(%rsp), %rbx
	jmpq	*%rdx
.LBB53_39:
	movl	$2, %eax
	jmp	.LBB53_69
.LBB53_57:
	movl	$16, %eax
	jmp	.LBB53_69
.LBB53_58:
	movl	$13, %eax
	jmp	.LBB53_69
.LBB53_59:
	movl	$6, %eax
	jmp	.LBB53_70
.LBB53_60:
	movl	$14, %eax
	jmp	.LBB53_69
.LBB53_61:
	movl	$11, %eax
	jmp	.LBB53_69
.LBB53_62:
	movl	$17, %eax
	jmp	.LBB53_69
.LBB53_56:
	movl	$4, %eax
	jmp	.LBB53_70
.LBB53_63:
	movl	$9, %eax
	jmp	.LBB53_69
.LBB53_64:
	movl	$7, %eax
	jmp	.LBB53_70
.LBB53_65:
	movl	$15, %eax
	jmp	.LBB53_69
.LBB53_66:
	movl	$8, %eax
	jmp	.LBB53_70
.LBB53_67:
	movl	$12, %eax
	jmp	.LBB53_70
.LBB53_68:
	movl	$10, %eax
.LBB53_69:
	xorl	%ecx, %ecx
.LBB53_70:
	xorl	%edx, %edx
	testb	%r10b, %r10b
	setne	%dl
	movq	%rax, (%rbx)
	movq	%rcx, 8(%rbx)
	movq	%rdx, 16(%rbx)
	movq	$0, 24(%rbx)
.LBB53_71:
	addq	$536, %rsp
	popq	%rbx
	popq	%r12
	popq	%r13
	popq	%r14
	popq	%r15
	popq	%rbp
	retq
.LBB53_72:
	movzbl	%r14b, %ecx
	cmpl	$2, %ecx
	jne	.LBB53_76
	cmpq	$0, 80(%rsp)
	jne	.LBB53_38
	cmpq	$0, 176(%rsp)
	setne	%cl
	cmpq	$0, 96(%rsp)
	sete	%dl
	orb	%cl, %dl
	jne	.LBB53_38
	movq	120(%rsp), %rcx
	addq	$16383, %rcx
	shrq	$14, %rcx
	leaq	(%rcx,%rcx,4), %rcx
	leaq	(%rcx,%rcx,4), %rcx
	cmpq	104(%rsp), %rcx
	ja	.LBB53_38
	jmp	.LBB53_52
.LBB53_76:
	movq	96(%rsp), %rcx
	addq	$-257, %rcx
	cmpq	$-255, %rcx
	jb	.LBB53_38
	cmpq	$0, 176(%rsp)
	jne	.LBB53_38
	movq	96(%rsp), %rcx
	decq	%rcx
	movl	$127, %esi
	bsrq	%rcx, %rsi
	xorq	$-64, %rsi
	addq	$65, %rsi
	cmpq	%rsi, 80(%rsp)
	jne	.LBB53_38
	movq	96(%rsp), %rcx
	leaq	(%rdi,%rcx,8), %rcx
	cmpq	%rcx, 104(%rsp)
	jne	.LBB53_38
	jmp	.LBB53_52
.LBB53_80:
	movq	%r12, 232(%rsp)
	movq	%r9, 240(%rsp)
	movq	168(%rsp), %rcx
	movq	%rcx, 248(%rsp)
	movq	%r13, 256(%rsp)
	movq	%rax, 264(%rsp)
	movq	72(%rsp), %rax
	movq	%rax, 272(%rsp)
	movq	112(%rsp), %rax
	movq	%rax, 280(%rsp)
	movq	%rbp, 288(%rsp)
	movq	88(%rsp), %rax
	movq	%rax, 296(%rsp)
	movq	160(%rsp), %rax
	movq	%rax, 304(%rsp)
	movaps	%xmm0, 128(%rsp)
	movq	$0, 144(%rsp)
	movl	%r15d, 8(%rsp)
	movq	$0, (%rsp)
	leaq	128(%rsp), %rdi
	leaq	204(%rsp), %rsi
	leaq	328(%rsp), %rdx
	leaq	232(%rsp), %r9
	movq	%r10, %rcx
	callq	"read_from::read_up_to"
	xorl	%ecx, %ecx
	cmpb	$0, 128(%rsp)
	movl	$9, %edx
	cmovnel	136(%rsp), %edx
	setne	%r10b
	cmovneq	144(%rsp), %rcx
	jmp	.LBB53_34
.LBB53_81:
	testb	%r10b, %r10b
	je	.LBB53_83
	movq	648(%rsp), %rax
	movq	$1, (%rax)
	xorps	%xmm0, %xmm0
	movups	%xmm0, 8(%rax)
	movq	%rdx, 24(%rax)
	jmp	.LBB53_71
.LBB53_83:
	xorps	%xmm0, %xmm0
	movq	648(%rsp), %rax
	movups	%xmm0, (%rax)
	movq	$0, 16(%rax)
	movq	%rdx, 24(%rax)
	jmp	.LBB53_71
.Lfunc_end53:
	.size	signalfern_read_layered_from_in_to, .Lfunc_end53-signalfern_read_layered_from_in_to
	.section	.rodata.signalfern_read_layered_from_in_to,"a",@progbits
	.p2align	2, 0x0
.LJTI53_0:
	.long	.LBB53_35-.LJTI53_0
	.long	.LBB53_39-.LJTI53_0
	.long	.LBB53_70-.LJTI53_0
	.long	.LBB53_56-.LJTI53_0
	.long	.LBB53_59-.LJTI53_0
	.long	.LBB53_64-.LJTI53_0
	.long	.LBB53_66-.LJTI53_0
	.long	.LBB53_63-.LJTI53_0
	.long	.LBB53_68-.LJTI53_0
	.long	.LBB53_61-.LJTI53_0
	.long	.LBB53_67-.LJTI53_0
	.long	.LBB53_58-.LJTI53_0
	.long	.LBB53_60-.LJTI53_0
	.long	.LBB53_65-.LJTI53_0
	.long	.LBB53_57-.LJTI53_0
	.long	.LBB53_62-.LJTI53_0

	.section	.text.signalfern_read_layered_from_to,"ax",@progbits
	.globl	signalfern_read_layered_from_to
	.p2align	4
	.type	signalfern_read_layered_from_to,@function
signalfern_read_layered_from_to:
	pushq	%rbp
	pushq	%r15
	pushq	%r14
	pushq	%r13
	pushq	%r12
	pushq	%rbx
	subq	$360, %rsp
	movq	%rdx, %r14
	movq	%rdi, %r13
	movq	440(%rsp), %r15
	movq	424(%rsp), %r12
	xorl	%ebx, %ebx
	testq	%rdi, %rdi
	sete	%bpl
	xorl	%eax, %eax
	testq	%rdx, %rdx
	sete	%dl
	testq	%r9, %r9
	sete	%r11b
	testq	%r12, %r12
	sete	%r10b
	testq	%r15, %r15
	xorps	%xmm0, %xmm0
	movaps	%xmm0, 224(%rsp)
	movaps	%xmm0, 208(%rsp)
	movaps	%xmm0, 192(%rsp)
	movaps	%xmm0, 176(%rsp)
	movaps	%xmm0, 160(%rsp)
	movq	$0, 240(%rsp)
	sete	67(%rsp)
	movq	456(%rsp), %rdi
	cmpl	$2147352575, %r8d
	ja	.LBB54_7
	movb	%r11b, 65(%rsp)
	movb	%r10b, 66(%rsp)
	movq	%rsi, 112(%rsp)
	movl	%r8d, 68(%rsp)
	movq	%r9, 104(%rsp)
	movb	%dl, %al
	shll	$12, %eax
	addq	%rax, %r14
	leaq	160(%rsp), %rdi
	movq	%r14, %rsi
	movq	%rcx, 72(%rsp)
	movq	%rcx, %rdx
	callq	"column::Column::open"
	cmpb	$1, 160(%rsp)
	jne	.LBB54_3
	movzbl	168(%rsp), %edx
	movq	176(%rsp), %r15
	movb	$1, %al
	movl	$3, %ecx
	movzbl	%dl, %edx
	leaq	.LJTI54_0(%rip), %rsi
	movslq	(%rsi,%rdx,4), %rdx
	addq	%rsi, %rdx
	movq	456(%rsp), %rdi
	jmpq	*%rdx
.LBB54_7:
	movl	$12, %edx
	xorl	%r15d, %r15d
	movb	$1, %al
	movl	$3, %ecx
	movzbl	%dl, %edx
	leaq	.LJTI54_0(%rip), %rsi
	movslq	(%rsi,%rdx,4), %rdx
	addq	%rsi, %rdx
	jmpq	*%rdx
.LBB54_27:
	movl	$1, %ecx
	jmp	.LBB54_28
.LBB54_3:
	movb	%bpl, %bl
	shll	$12, %ebx
	addq	%rbx, %r13
	leaq	168(%rsp), %rbp
	xorps	%xmm0, %xmm0
	movaps	%xmm0, 256(%rsp)
	movaps	%xmm0, 272(%rsp)
	movaps	%xmm0, 288(%rsp)
	movaps	%xmm0, 304(%rsp)
	movaps	%xmm0, 320(%rsp)
	movq	$0, 336(%rsp)
	movaps	%xmm0, 128(%rsp)
	movaps	%xmm0, 144(%rsp)
	leaq	256(%rsp), %rdi
	movq	%r13, %rsi
	movq	112(%rsp), %rbx
	movq	%rbx, %rdx
	callq	"column::Column::open"
	cmpb	$1, 256(%rsp)
	jne	.LBB54_8
	movzbl	264(%rsp), %ebx
	movq	272(%rsp), %r15
	xorps	%xmm0, %xmm0
	movaps	%xmm0, 80(%rsp)
	movq	$0, 96(%rsp)
	movl	68(%rsp), %eax
	movl	%eax, 8(%rsp)
	movq	$0, (%rsp)
	leaq	80(%rsp), %rdi
	leaq	124(%rsp), %rsi
	leaq	352(%rsp), %rdx
	movq	%r14, %rcx
	movq	72(%rsp), %r8
	movq	%rbp, %r9
	callq	"read_from::read_up_to"
	cmpb	$0, 80(%rsp)
	setne	%al
	je	.LBB54_6
	movzbl	88(%rsp), %ebx
	movq	96(%rsp), %r15
.LBB54_6:
	movq	456(%rsp), %rdi
	movl	$3, %ecx
	movzbl	%bl, %edx
	leaq	.LJTI54_0(%rip), %rsi
	movslq	(%rsi,%rdx,4), %rdx
	addq	%rsi, %rdx
	jmpq	*%rdx
.LBB54_8:
	movq	448(%rsp), %rax
	movq	432(%rsp), %r8
	movq	416(%rsp), %rdx
	xorl	%ecx, %ecx
	movzbl	65(%rsp), %esi
	movb	%sil, %cl
	shll	$12, %ecx
	movq	104(%rsp), %rsi
	addq	%rcx, %rsi
	xorl	%ecx, %ecx
	movzbl	66(%rsp), %edi
	movb	%dil, %cl
	shll	$12, %ecx
	addq	%rcx, %r12
	xorl	%ecx, %ecx
	movzbl	67(%rsp), %edi
	movb	%dil, %cl
	shll	$12, %ecx
	addq	%rcx, %r15
	leaq	264(%rsp), %rcx
	movl	68(%rsp), %edi
	movl	%edi, 56(%rsp)
	movq	%rbp, 48(%rsp)
	movq	72(%rsp), %rdi
	movq	%rdi, 40(%rsp)
	movq	%r14, 32(%rsp)
	movq	%rcx, 24(%rsp)
	movq	%rbx, 16(%rsp)
	movq	%r13, 8(%rsp)
	movq	%rax, (%rsp)
	leaq	128(%rsp), %rdi
	movq	%r12, %rcx
	movq	%r15, %r9
	callq	"layered_reading::layered_steps"
	movzbl	136(%rsp), %eax
	movq	144(%rsp), %rdx
	cmpb	$0, 128(%rsp)
	je	.LBB54_9
	movq	152(%rsp), %r15
	movl	$3, %ecx
	movzbl	%dl, %edx
	leaq	.LJTI54_0(%rip), %rsi
	movslq	(%rsi,%rdx,4), %rdx
	addq	%rsi, %rdx
	movq	456(%rsp), %rdi
	jmpq	*%rdx
.LBB54_13:
	movl	$2, %ecx
	jmp	.LBB54_28
.LBB54_25:
	movl	$16, %ecx
	jmp	.LBB54_28
.LBB54_22:
	movl	$13, %ecx
	jmp	.LBB54_28
.LBB54_15:
	movl	$6, %ecx
	jmp	.LBB54_29
.LBB54_23:
	movl	$14, %ecx
	jmp	.LBB54_28
.LBB54_20:
	movl	$11, %ecx
	jmp	.LBB54_28
.LBB54_26:
	movl	$17, %ecx
	jmp	.LBB54_28
.LBB54_14:
	movl	$4, %ecx
	jmp	.LBB54_29
.LBB54_18:
	movl	$9, %ecx
	jmp	.LBB54_28
.LBB54_16:
	movl	$7, %ecx
	jmp	.LBB54_29
.LBB54_24:
	movl	$15, %ecx
	jmp	.LBB54_28
.LBB54_17:
	movl	$8, %ecx
	jmp	.LBB54_29
.LBB54_21:
	movl	$12, %ecx
	jmp	.LBB54_29
.LBB54_19:
	movl	$10, %ecx
.LBB54_28:
	xorl	%r15d, %r15d
.LBB54_29:
	xorl	%edx, %edx
	testb	%al, %al
	setne	%dl
	movq	%rcx, (%rdi)
	movq	%r15, 8(%rdi)
	movq	%rdx, 16(%rdi)
	movq	$0, 24(%rdi)
.LBB54_30:
	addq	$360, %rsp
	popq	%rbx
	popq	%r12
	popq	%r13
	popq	%r14
	popq	%r15
	popq	%rbp
	retq
.LBB54_9:
	testb	%al, %al
	movq	456(%rsp), %rax
	je	.LBB54_10
	movq	$1, (%rax)
	xorps	%xmm0, %xmm0
	movups	%xmm0, 8(%rax)
	movq	%rdx, 24(%rax)
	jmp	.LBB54_30
.LBB54_10:
	xorps	%xmm0, %xmm0
	movups	%xmm0, (%rax)
	movq	$0, 16(%rax)
	movq	%rdx, 24(%rax)
	jmp	.LBB54_30
.Lfunc_end54:
	.size	signalfern_read_layered_from_to, .Lfunc_end54-signalfern_read_layered_from_to
	.section	.rodata.signalfern_read_layered_from_to,"a",@progbits
	.p2align	2, 0x0
.LJTI54_0:
	.long	.LBB54_27-.LJTI54_0
	.long	.LBB54_13-.LJTI54_0
	.long	.LBB54_29-.LJTI54_0
	.long	.LBB54_14-.LJTI54_0
	.long	.LBB54_15-.LJTI54_0
	.long	.LBB54_16-.LJTI54_0
	.long	.LBB54_17-.LJTI54_0
	.long	.LBB54_18-.LJTI54_0
	.long	.LBB54_19-.LJTI54_0
	.long	.LBB54_20-.LJTI54_0
	.long	.LBB54_21-.LJTI54_0
	.long	.LBB54_22-.LJTI54_0
	.long	.LBB54_23-.LJTI54_0
	.long	.LBB54_24-.LJTI54_0
	.long	.LBB54_25-.LJTI54_0
	.long	.LBB54_26-.LJTI54_0

	.section	.rodata.cst16,"aM",@progbits,16
	.p2align	4, 0x0
.LCPI55_0:
	.long	4
	.long	4
	.long	4
	.long	4
.LCPI55_1:
	.long	8
	.long	8
	.long	8
	.long	8
.LCPI55_2:
	.long	12
	.long	12
	.long	12
	.long	12
.LCPI55_3:
	.long	0
	.long	1
	.long	2
	.long	3
.LCPI55_4:
	.long	16
	.long	16
	.long	16
	.long	16
	.section	.text.signalfern_read_to,"ax",@progbits
	.globl	signalfern_read_to
	.p2align	4
	.type	signalfern_read_to,@function
signalfern_read_to:
	pushq	%rbp
	pushq	%r15
	pushq	%r14
	pushq	%r13
	pushq	%r12
	pushq	%rbx
	subq	$280, %rsp
	movq	%r9, (%rsp)
	movq	%r8, %rbp
	movq	%rcx, 72(%rsp)
	movq	%rdx, %rbx
	movq	%rsi, %r15
	movq	%rdi, %r13
	xorl	%r12d, %r12d
	testq	%rdi, %rdi
	sete	%r12b
	shll	$12, %r12d
	leaq	(%rdi,%r12), %rsi
	testq	%rdx, %rdx
	sete	64(%rsp)
	testq	%r8, %r8
	sete	%r14b
	pxor	%xmm0, %xmm0
	movdqa	%xmm0, 256(%rsp)
	movdqa	%xmm0, 240(%rsp)
	movdqa	%xmm0, 224(%rsp)
	movdqa	%xmm0, 208(%rsp)
	movdqa	%xmm0, 192(%rsp)
	movq	$0, 272(%rsp)
	leaq	192(%rsp), %rdi
	movq	%r15, %rdx
	callq	"column::Column::open"
	movq	200(%rsp), %rdx
	movq	208(%rsp), %r8
	cmpb	$0, 192(%rsp)
	je	.LBB55_2
	movzbl	%dl, %ecx
	movl	$1, %eax
	leaq	.LJTI55_0(%rip), %rdx
	movslq	(%rdx,%rcx,4), %rsi
	addq	%rdx, %rsi
	movq	336(%rsp), %rdi
	jmpq	*%rsi
.LBB55_2:
	movb	%r14b, 40(%rsp)
	movq	%rbx, 32(%rsp)
	movq	%r12, 48(%rsp)
	movq	%r13, 56(%rsp)
	movq	%rdx, 112(%rsp)
	movq	%r8, 120(%rsp)
	movdqu	216(%rsp), %xmm0
	movdqu	232(%rsp), %xmm1
	movdqu	248(%rsp), %xmm2
	movdqu	264(%rsp), %xmm3
	movdqu	%xmm0, 128(%rsp)
	movdqu	%xmm1, 144(%rsp)
	movdqu	%xmm2, 160(%rsp)
	movdqu	%xmm3, 176(%rsp)
	cmpq	%r8, 72(%rsp)
	setb	%al
	cmpq	%r8, (%rsp)
	setb	%cl
	orb	%al, %cl
	movl	$10, %eax
	jne	.LBB55_9
	movq	%rdx, 80(%rsp)
	movq	%r8, 8(%rsp)
	leaq	112(%rsp), %rdx
	movq	56(%rsp), %rax
	movq	48(%rsp), %rcx
	leaq	(%rax,%rcx), %rbx
	movq	%rbx, %rdi
	movq	%r15, %rsi
	callq	"checking::accepts"
	testb	%al, %al
	je	.LBB55_8
	movq	%rbp, 16(%rsp)
	xorl	%esi, %esi
	movzbl	40(%rsp), %eax
	movb	%al, %sil
	shll	$12, %esi
	movq	184(%rsp), %rax
	leaq	(%rbx,%rax), %r14
	movq	%rax, 24(%rsp)
	movzwl	(%rbx,%rax), %r9d
	cmpl	$32767, %r9d
	jne	.LBB55_28
.LBB55_5:
	movq	16(%rsp), %rax
	movq	%rsi, %r10
	leaq	(%rax,%rsi), %r12
	movq	136(%rsp), %rax
	movq	56(%rsp), %rdi
	movq	48(%rsp), %r8
	leaq	(%rdi,%r8), %rsi
	addq	%rax, %rsi
	addq	24(%rsp), %rsi
	movzbl	80(%rsp), %edx
	cmpb	$2, %dl
	jae	.LBB55_52
	leaq	152(%rsp), %r8
	movq	%r12, %rdi
	movq	8(%rsp), %rbx
	movq	%rbx, %rcx
	callq	"scaled_reader::fill"
	movq	%rbx, %rbp
.LBB55_7:
	movq	336(%rsp), %rdi
	jmp	.LBB55_78
.LBB55_8:
	movl	$11, %eax
	xorl	%r8d, %r8d
.LBB55_9:
	movq	336(%rsp), %rdi
	movzbl	%al, %ecx
	movl	$1, %eax
	leaq	.LJTI55_0(%rip), %rdx
	movslq	(%rdx,%rcx,4), %rsi
	addq	%rdx, %rsi
	jmpq	*%rsi
.LBB55_10:
	movl	$2, %eax
	xorl	%ecx, %ecx
	jmp	.LBB55_25
.LBB55_11:
	movl	$16, %eax
	xorl	%ecx, %ecx
	jmp	.LBB55_25
.LBB55_12:
	movl	$13, %eax
	xorl	%ecx, %ecx
	jmp	.LBB55_25
.LBB55_13:
	movl	$6, %eax
	jmp	.LBB55_24
.LBB55_14:
	movl	$14, %eax
	xorl	%ecx, %ecx
	jmp	.LBB55_25
.LBB55_15:
	movl	$11, %eax
	xorl	%ecx, %ecx
	jmp	.LBB55_25
.LBB55_16:
	movl	$3, %eax
	jmp	.LBB55_24
.LBB55_17:
	movl	$17, %eax
	xorl	%ecx, %ecx
	jmp	.LBB55_25
.LBB55_18:
	movl	$4, %eax
	jmp	.LBB55_24
.LBB55_19:
	movl	$9, %eax
	xorl	%ecx, %ecx
	jmp	.LBB55_25
.LBB55_20:
	movl	$7, %eax
	jmp	.LBB55_24
.LBB55_21:
	movl	$15, %eax
	xorl	%ecx, %ecx
	jmp	.LBB55_25
.LBB55_22:
	movl	$8, %eax
	jmp	.LBB55_24
.LBB55_23:
	movl	$12, %eax
.LBB55_24:
	movq	%r8, %rcx
.LBB55_25:
	movq	%rax, (%rdi)
	movq	%rcx, 8(%rdi)
.LBB55_26:
	addq	$280, %rsp
	popq	%rbx
	popq	%r12
	popq	%r13
	popq	%r14
	popq	%r15
	popq	%rbp
	retq
.LBB55_27:
	movl	$10, %eax
	xorl	%ecx, %ecx
	jmp	.LBB55_25
.LBB55_28:
	xorl	%r11d, %r11d
	movzbl	64(%rsp), %eax
	movb	%al, %r11b
	shll	$12, %r11d
	movq	32(%rsp), %r10
	leaq	(%r10,%r11), %rdx
	movq	128(%rsp), %rax
	movb	$17, %cl
	subb	%al, %cl
	movl	$1, %r8d
	shlq	%cl, %r8
	leaq	8192(%r8), %rdi
	testq	%rax, %rax
	cmoveq	%rax, %r8
	movl	$8192, %ecx
	cmovneq	%rdi, %rcx
	addq	%r14, %r8
	movq	%r8, 72(%rsp)
	leaq	(%r10,%r11), %rax
	addq	$4, %rax
	movq	%rax, (%rsp)
	movq	56(%rsp), %rdi
	movq	48(%rsp), %r8
	leaq	(%rdi,%r8), %rax
	movq	24(%rsp), %r10
	leaq	6(%r10,%rax), %rax
	movq	%rax, 64(%rsp)
	leaq	(%r8,%r10), %rax
	leaq	12(%rdi,%rax), %r8
	movq	%r8, 32(%rsp)
	addq	%rdi, %rax
	addq	$6, %rax
	movq	%rax, 40(%rsp)
	xorl	%r11d, %r11d
	xorl	%r15d, %r15d
	jmp	.LBB55_30
	.p2align	4
.LBB55_29:
	addq	%r12, %r15
	addl	%r12d, %r12d
	xorl	%eax, %eax
	cmpq	$65535, %rbp
	cmovneq	%rcx, %rax
	cmpl	$4095, %ebp
	cmovaeq	%rax, %r12
	addq	%r10, %r12
	movzwl	(%r14,%r12), %r9d
	movq	%r12, %r11
	cmpl	$32767, %r9d
	je	.LBB55_5
.LBB55_30:
	movzwl	2(%r14,%r11), %ebp
	cmpq	$65535, %rbp
	sete	%al
	leaq	1(%rbp), %r12
	shll	$16, %r9d
	leaq	4(%r11), %r10
	incb	%al
	cmpq	$4095, %rbp
	movzbl	%al, %eax
	movl	$0, %edi
	cmovbl	%edi, %eax
	testb	%al, %al
	je	.LBB55_37
	movzbl	%al, %eax
	cmpl	$1, %eax
	jne	.LBB55_39
	movq	72(%rsp), %rax
	addq	%r10, %rax
	xorl	%r11d, %r11d
	movq	%r15, %r13
	jmp	.LBB55_34
	.p2align	4
.LBB55_33:
	incq	%r11
	cmpq	$1024, %r11
	je	.LBB55_29
.LBB55_34:
	movq	(%rax,%r11,8), %r8
	testq	%r8, %r8
	je	.LBB55_33
	movl	%r11d, %edi
	shll	$6, %edi
	addl	%r9d, %edi
	.p2align	4
.LBB55_36:
	movq	%r8, %rbx
	rep		bsfq	%r8, %r8
	orl	%edi, %r8d
	movl	%r8d, (%rdx,%r13,4)
	leaq	-1(%rbx), %r8
	incq	%r13
	andq	%rbx, %r8
	jne	.LBB55_36
	jmp	.LBB55_33
	.p2align	4
.LBB55_37:
	leaq	(%r14,%r10), %rbx
	cmpw	$7, %bp
	jb	.LBB55_38
	leaq	(%rdx,%r15,4), %rax
	movq	64(%rsp), %rdi
	addq	%r11, %rdi
	leaq	(%rdi,%rbp,2), %rdi
	cmpq	%rdi, %rax
	jae	.LBB55_44
	leaq	(%r15,%rbp), %rax
	movq	(%rsp), %rdi
	leaq	(%rdi,%rax,4), %rax
	cmpq	%rax, %rbx
	jae	.LBB55_44
.LBB55_38:
	xorl	%eax, %eax
.LBB55_47:
	movq	%rax, %r8
	testb	$1, %bpl
	jne	.LBB55_49
	movzwl	(%rbx,%rax,2), %edi
	orl	%r9d, %edi
	leaq	(%rax,%r15), %r8
	movl	%edi, (%rdx,%r8,4)
	movq	%rax, %r8
	orq	$1, %r8
.LBB55_49:
	cmpl	%ebp, %eax
	je	.LBB55_29
	movq	%rbp, %rax
	subq	%r8, %rax
	incq	%rax
	leaq	(%r8,%r15), %rdi
	movq	(%rsp), %rbx
	leaq	(%rbx,%rdi,4), %rdi
	leaq	(%r11,%r8,2), %r8
	addq	40(%rsp), %r8
	xorl	%r11d, %r11d
	.p2align	4
.LBB55_51:
	movzwl	-2(%r8,%r11,2), %ebx
	orl	%r9d, %ebx
	movl	%ebx, -4(%rdi,%r11,4)
	movzwl	(%r8,%r11,2), %ebx
	orl	%r9d, %ebx
	movl	%ebx, (%rdi,%r11,4)
	addq	$2, %r11
	cmpq	%r11, %rax
	jne	.LBB55_51
	jmp	.LBB55_29
	.p2align	4
.LBB55_39:
	movd	%r9d, %xmm0
	pshufd	$0, %xmm0, %xmm0
	movdqa	.LCPI55_0(%rip), %xmm1
	paddd	%xmm0, %xmm1
	movdqa	.LCPI55_1(%rip), %xmm2
	paddd	%xmm0, %xmm2
	movdqa	.LCPI55_2(%rip), %xmm3
	paddd	%xmm0, %xmm3
	movq	(%rsp), %rax
	leaq	(%rax,%r15,4), %rax
	addq	$44, %rax
	movdqa	.LCPI55_3(%rip), %xmm4
	xorl	%r9d, %r9d
	.p2align	4
.LBB55_40:
	movdqa	%xmm0, %xmm5
	paddd	%xmm4, %xmm5
	movdqa	%xmm4, %xmm6
	paddd	%xmm1, %xmm6
	movdqu	%xmm5, -48(%rax,%r9,4)
	movdqu	%xmm6, -32(%rax,%r9,4)
	movdqa	%xmm4, %xmm5
	paddd	%xmm2, %xmm5
	movdqa	%xmm4, %xmm6
	paddd	%xmm3, %xmm6
	movdqu	%xmm5, -16(%rax,%r9,4)
	movdqu	%xmm6, (%rax,%r9,4)
	addq	$16, %r9
	paddd	.LCPI55_4(%rip), %xmm4
	cmpq	$65536, %r9
	jne	.LBB55_40
	jmp	.LBB55_29
.LBB55_44:
	movl	%r12d, %eax
	andl	$-8, %eax
	movd	%r9d, %xmm0
	pshufd	$0, %xmm0, %xmm0
	leal	(%r12,%r12), %ebx
	andl	$-16, %ebx
	movq	(%rsp), %rdi
	leaq	(%rdi,%r15,4), %rdi
	addq	$12, %rdi
	movq	32(%rsp), %r8
	addq	%r11, %r8
	xorl	%r13d, %r13d
	.p2align	4
.LBB55_45:
	movq	-8(%r8,%r13), %xmm1
	movq	(%r8,%r13), %xmm2
	pxor	%xmm3, %xmm3
	punpcklwd	%xmm3, %xmm1
	punpcklwd	%xmm3, %xmm2
	por	%xmm0, %xmm1
	por	%xmm0, %xmm2
	movdqu	%xmm1, -16(%rdi,%r13,2)
	movdqu	%xmm2, (%rdi,%r13,2)
	addq	$16, %r13
	cmpq	%r13, %rbx
	jne	.LBB55_45
	cmpl	%eax, %r12d
	leaq	(%r14,%r10), %rbx
	je	.LBB55_29
	jmp	.LBB55_47
.LBB55_52:
	movq	168(%rsp), %rcx
	movq	%rcx, (%rsp)
	cmpl	$2, %edx
	jne	.LBB55_58
	movq	8(%rsp), %rbp
	movq	%rbp, %rdx
	shrq	$14, %rdx
	movl	%ebp, %ecx
	andl	$16383, %ecx
	addl	$16383, %ecx
	shrl	$14, %ecx
	addq	%rdx, %rcx
	je	.LBB55_7
	leaq	(%rcx,%rcx,4), %rcx
	movq	%rsi, %rbx
	leaq	(%rcx,%rcx,4), %r15
	addq	%r15, %rbx
	addq	%rax, %r8
	addq	24(%rsp), %r8
	leaq	(%rdi,%r8), %r14
	addq	$24, %r14
	xorl	%r13d, %r13d
	jmp	.LBB55_56
	.p2align	4
.LBB55_55:
	addq	%rbx, %rsi
	movq	-24(%r14,%r13), %rdx
	leaq	(%rdx,%rdx), %rdi
	sarq	$63, %rdx
	xorq	%rdi, %rdx
	movq	%rax, 88(%rsp)
	movq	%rdx, 96(%rsp)
	movq	(%rsp), %rax
	movq	%rax, 104(%rsp)
	leaq	88(%rsp), %r8
	movq	%r12, %rdi
	xorl	%edx, %edx
	callq	"scaled_reader::fill"
	addq	$25, %r13
	addq	$131072, %r12
	cmpq	%r13, %r15
	je	.LBB55_77
.LBB55_56:
	movq	%rbp, %rdx
	movzbl	(%r14,%r13), %eax
	subq	$16384, %rbp
	movl	$16384, %ecx
	cmovbq	%rdx, %rcx
	movq	%rax, %rsi
	testq	%rax, %rax
	je	.LBB55_55
	movq	-8(%r14,%r13), %rsi
	jmp	.LBB55_55
.LBB55_58:
	movq	8(%rsp), %rbp
	testq	%rbp, %rbp
	je	.LBB55_79
	movq	152(%rsp), %rdi
	testq	%rdi, %rdi
	je	.LBB55_80
	movq	(%rsp), %rax
	leaq	(%rsi,%rax,8), %r15
	movl	$64, %eax
	subq	%rdi, %rax
	xorl	%ecx, %ecx
	movq	%rbp, %r8
	xorl	%r9d, %r9d
	cmpq	$8, %rdi
	jbe	.LBB55_64
	cmpq	$25, %rdi
	jb	.LBB55_68
	jmp	.LBB55_72
.LBB55_62:
	movq	(%r15,%r9), %r11
	bswapq	%r11
	shlq	%cl, %r11
.LBB55_63:
	movl	%eax, %ecx
	shrq	%cl, %r11
	movq	(%rsi,%r11,8), %rcx
	movq	%rcx, (%r12)
	movq	%r10, %rcx
	shrq	$3, %rcx
	addq	%rcx, %r9
	andl	$7, %r10d
	addq	$8, %r12
	movq	%r10, %rcx
	decq	%r8
	je	.LBB55_77
.LBB55_64:
	leaq	(%rcx,%rdi), %r10
	cmpq	$63, %r8
	ja	.LBB55_62
	leaq	7(%r10), %rdx
	movq	%rdx, %r11
	shrq	$3, %r11
	leaq	(%r15,%r9), %rbx
	movzbl	(%r15,%r9), %r14d
	movzbl	-1(%r11,%rbx), %r11d
	shlq	$56, %r14
	shlq	%cl, %r14
	shlq	$56, %r11
	andl	$56, %edx
	subl	%ecx, %edx
	addb	$56, %dl
	movl	%edx, %ecx
	shrq	%cl, %r11
	orq	%r14, %r11
	jmp	.LBB55_63
.LBB55_66:
	movq	(%r15,%r9), %r11
	bswapq	%r11
	shlq	%cl, %r11
.LBB55_67:
	movl	%eax, %ecx
	shrq	%cl, %r11
	movq	(%rsi,%r11,8), %rcx
	movq	%rcx, (%r12)
	movq	%r10, %rcx
	shrq	$3, %rcx
	addq	%rcx, %r9
	andl	$7, %r10d
	addq	$8, %r12
	movq	%r10, %rcx
	decq	%r8
	je	.LBB55_77
.LBB55_68:
	cmpq	$64, %r8
	setae	%dl
	leaq	(%rcx,%rdi), %r10
	cmpq	$65, %r10
	setb	%r11b
	testb	%dl, %r11b
	jne	.LBB55_66
	leaq	7(%r10), %rdx
	movq	%rdx, %r11
	shrq	$3, %r11
	movzwl	(%r15,%r9), %ebx
	bswapq	%rbx
	shlq	%cl, %rbx
	leaq	(%r15,%r9), %r14
	movzwl	-2(%r11,%r14), %r11d
	bswapq	%r11
	andl	$56, %edx
	subl	%ecx, %edx
	addb	$48, %dl
	movl	%edx, %ecx
	shrq	%cl, %r11
	orq	%rbx, %r11
	jmp	.LBB55_67
.LBB55_70:
	movq	(%r15,%r9), %r11
	bswapq	%r11
	shlq	%cl, %r11
.LBB55_71:
	movl	%eax, %ecx
	shrq	%cl, %r11
	movq	(%rsi,%r11,8), %rcx
	movq	%rcx, (%r12)
	movq	%r10, %rcx
	shrq	$3, %rcx
	addq	%rcx, %r9
	andl	$7, %r10d
	addq	$8, %r12
	movq	%r10, %rcx
	decq	%r8
	je	.LBB55_77
.LBB55_72:
	cmpq	$64, %r8
	setb	%dl
	leaq	(%rcx,%rdi), %r10
	cmpq	$65, %r10
	setae	%r11b
	orb	%dl, %r11b
	je	.LBB55_70
	leaq	7(%r10), %r14
	shrq	$3, %r14
	leaq	(%r15,%r9), %rdx
	cmpq	$56, %rdi
	ja	.LBB55_75
	movl	(%rdx), %ebx
	movl	-4(%rdx,%r14), %r11d
	movq	$-4, %rdx
	jmp	.LBB55_76
.LBB55_75:
	movq	(%rdx), %rbx
	movq	-8(%rdx,%r14), %r11
	movq	$-8, %rdx
.LBB55_76:
	bswapq	%rbx
	shlq	%cl, %rbx
	bswapq	%r11
	addl	%r14d, %edx
	shll	$3, %edx
	subl	%ecx, %edx
	movl	%edx, %ecx
	shrq	%cl, %r11
	orq	%rbx, %r11
	jmp	.LBB55_71
.LBB55_77:
	movq	336(%rsp), %rdi
	movq	8(%rsp), %rbp
.LBB55_78:
	movq	$0, (%rdi)
	movq	%rbp, 8(%rdi)
	jmp	.LBB55_26
.LBB55_79:
	xorl	%ebp, %ebp
	jmp	.LBB55_7
.LBB55_80:
	cmpq	$16, %rbp
	jae	.LBB55_82
	xorl	%eax, %eax
	movq	336(%rsp), %rdi
	movq	16(%rsp), %r9
	jmp	.LBB55_88
.LBB55_82:
	addq	%r14, %rax
	addq	$8, %rax
	cmpq	%rax, %r12
	movq	336(%rsp), %rdi
	jae	.LBB55_85
	leaq	(%r12,%rbp,8), %rax
	cmpq	%rax, %rsi
	jae	.LBB55_85
	xorl	%eax, %eax
	movq	16(%rsp), %r9
	jmp	.LBB55_88
.LBB55_85:
	movq	%rbp, %rax
	andq	$-4, %rax
	movq	(%rsi), %xmm0
	pshufd	$68, %xmm0, %xmm0
	movq	16(%rsp), %r9
	leaq	(%r10,%r9), %rcx
	addq	$16, %rcx
	xorl	%edx, %edx
.LBB55_86:
	movdqu	%xmm0, -16(%rcx,%rdx,8)
	movdqu	%xmm0, (%rcx,%rdx,8)
	addq	$4, %rdx
	cmpq	%rdx, %rax
	jne	.LBB55_86
	cmpq	%rax, %rbp
	je	.LBB55_78
.LBB55_88:
	movq	%rbp, %rdx
	movq	%rax, %rcx
	andq	$3, %rdx
	je	.LBB55_91
	movq	%rax, %rcx
.LBB55_90:
	movq	(%rsi), %r8
	movq	%r8, (%r12,%rcx,8)
	incq	%rcx
	decq	%rdx
	jne	.LBB55_90
.LBB55_91:
	subq	%rbp, %rax
	cmpq	$-4, %rax
	ja	.LBB55_78
	leaq	(%r10,%r9), %rax
	addq	$24, %rax
.LBB55_93:
	movq	(%rsi), %rdx
	movq	%rdx, -24(%rax,%rcx,8)
	movq	(%rsi), %rdx
	movq	%rdx, -16(%rax,%rcx,8)
	movq	(%rsi), %rdx
	movq	%rdx, -8(%rax,%rcx,8)
	movq	(%rsi), %rdx
	movq	%rdx, (%rax,%rcx,8)
	addq	$4, %rcx
	cmpq	%rcx, %rbp
	jne	.LBB55_93
	jmp	.LBB55_78
.Lfunc_end55:
	.size	signalfern_read_to, .Lfunc_end55-signalfern_read_to
	.section	.rodata.signalfern_read_to,"a",@progbits
	.p2align	2, 0x0
.LJTI55_0:
	.long	.LBB55_25-.LJTI55_0
	.long	.LBB55_10-.LJTI55_0
	.long	.LBB55_16-.LJTI55_0
	.long	.LBB55_18-.LJTI55_0
	.long	.LBB55_13-.LJTI55_0
	.long	.LBB55_20-.LJTI55_0
	.long	.LBB55_22-.LJTI55_0
	.long	.LBB55_19-.LJTI55_0
	.long	.LBB55_27-.LJTI55_0
	.long	.LBB55_15-.LJTI55_0
	.long	.LBB55_23-.LJTI55_0
	.long	.LBB55_12-.LJTI55_0
	.long	.LBB55_14-.LJTI55_0
	.long	.LBB55_21-.LJTI55_0
	.long	.LBB55_11-.LJTI55_0
	.long	.LBB55_17-.LJTI55_0

	.section	.text.signalfern_set_check_to,"ax",@progbits
	.globl	signalfern_set_check_to
	.p2align	4
	.type	signalfern_set_check_to,@function
signalfern_set_check_to:
	pushq	%rbx
	subq	$32, %rsp
	movq	%rdx, %rbx
	movq	%rsi, %rdx
	xorl	%esi, %esi
	testq	%rdi, %rdi
	sete	%sil
	shll	$12, %esi
	addq	%rdi, %rsi
	xorps	%xmm0, %xmm0
	movaps	%xmm0, 16(%rsp)
	movaps	%xmm0, (%rsp)
	movq	%rsp, %rdi
	xorl	%ecx, %ecx
	callq	"set_check::walk"
	movq	8(%rsp), %rax
	cmpb	$0, (%rsp)
	je	.LBB56_1
	movq	16(%rsp), %rdx
	movzbl	%al, %ecx
	leaq	.LJTI56_0(%rip), %rax
	movslq	(%rax,%rcx,4), %rsi
	addq	%rax, %rsi
	jmpq	*%rsi
.LBB56_3:
	movl	$1, %eax
	jmp	.LBB56_20
.LBB56_1:
	movq	$0, (%rbx)
	movq	%rax, 8(%rbx)
	addq	$32, %rsp
	popq	%rbx
	retq
.LBB56_16:
	movl	$16, %eax
	xorl	%ecx, %ecx
	jmp	.LBB56_20
.LBB56_13:
	movl	$13, %eax
	xorl	%ecx, %ecx
	jmp	.LBB56_20
.LBB56_6:
	movl	$6, %eax
	jmp	.LBB56_19
.LBB56_14:
	movl	$14, %eax
	xorl	%ecx, %ecx
	jmp	.LBB56_20
.LBB56_11:
	movl	$11, %eax
	xorl	%ecx, %ecx
	jmp	.LBB56_20
.LBB56_18:
	movl	$3, %eax
	jmp	.LBB56_19
.LBB56_17:
	movl	$17, %eax
	xorl	%ecx, %ecx
	jmp	.LBB56_20
.LBB56_5:
	movl	$4, %eax
	jmp	.LBB56_19
.LBB56_9:
	movl	$9, %eax
	xorl	%ecx, %ecx
	jmp	.LBB56_20
.LBB56_4:
	movl	$2, %eax
	xorl	%ecx, %ecx
	jmp	.LBB56_20
.LBB56_7:
	movl	$7, %eax
	jmp	.LBB56_19
.LBB56_15:
	movl	$15, %eax
	xorl	%ecx, %ecx
	jmp	.LBB56_20
.LBB56_8:
	movl	$8, %eax
	jmp	.LBB56_19
.LBB56_12:
	movl	$12, %eax
.LBB56_19:
	movq	%rdx, %rcx
.LBB56_20:
	movq	%rax, (%rbx)
	movq	%rcx, 8(%rbx)
	addq	$32, %rsp
	popq	%rbx
	retq
.LBB56_10:
	movl	$10, %eax
	xorl	%ecx, %ecx
	jmp	.LBB56_20
.Lfunc_end56:
	.size	signalfern_set_check_to, .Lfunc_end56-signalfern_set_check_to
	.section	.rodata.signalfern_set_check_to,"a",@progbits
	.p2align	2, 0x0
.LJTI56_0:
	.long	.LBB56_3-.LJTI56_0
	.long	.LBB56_4-.LJTI56_0
	.long	.LBB56_18-.LJTI56_0
	.long	.LBB56_5-.LJTI56_0
	.long	.LBB56_6-.LJTI56_0
	.long	.LBB56_7-.LJTI56_0
	.long	.LBB56_8-.LJTI56_0
	.long	.LBB56_9-.LJTI56_0
	.long	.LBB56_10-.LJTI56_0
	.long	.LBB56_11-.LJTI56_0
	.long	.LBB56_12-.LJTI56_0
	.long	.LBB56_13-.LJTI56_0
	.long	.LBB56_14-.LJTI56_0
	.long	.LBB56_15-.LJTI56_0
	.long	.LBB56_16-.LJTI56_0
	.long	.LBB56_17-.LJTI56_0

	.section	.text.signalfern_set_find_to,"ax",@progbits
	.globl	signalfern_set_find_to
	.p2align	4
	.type	signalfern_set_find_to,@function
signalfern_set_find_to:
	pushq	%rbx
	subq	$32, %rsp
	movq	%rcx, %rbx
	movl	%edx, %ecx
	xorps	%xmm0, %xmm0
	movaps	%xmm0, 16(%rsp)
	movaps	%xmm0, (%rsp)
	cmpl	$2147352576, %edx
	jae	.LBB57_4
	movq	%rsi, %rdx
	xorl	%esi, %esi
	testq	%rdi, %rdi
	sete	%sil
	shll	$12, %esi
	addq	%rdi, %rsi
	movq	%rsp, %rdi
	callq	"set_check::walk"
	movq	16(%rsp), %rdx
	cmpb	$0, (%rsp)
	je	.LBB57_7
	movzbl	8(%rsp), %ecx
	leaq	.LJTI57_0(%rip), %rax
	movslq	(%rax,%rcx,4), %rsi
	addq	%rax, %rsi
	jmpq	*%rsi
.LBB57_3:
	movl	$1, %eax
	jmp	.LBB57_6
.LBB57_4:
	movl	$14, %eax
.LBB57_5:
	xorl	%ecx, %ecx
.LBB57_6:
	movq	%rax, (%rbx)
	movq	%rcx, 8(%rbx)
	movq	$0, 16(%rbx)
	addq	$32, %rsp
	popq	%rbx
	retq
.LBB57_7:
	testb	$1, 24(%rsp)
	jne	.LBB57_9
	movq	$1, (%rbx)
	xorps	%xmm0, %xmm0
	movups	%xmm0, 8(%rbx)
	addq	$32, %rsp
	popq	%rbx
	retq
.LBB57_9:
	xorps	%xmm0, %xmm0
	movups	%xmm0, (%rbx)
	movq	%rdx, 16(%rbx)
	addq	$32, %rsp
	popq	%rbx
	retq
.LBB57_10:
	movl	$16, %eax
	jmp	.LBB57_5
.LBB57_11:
	movl	$13, %eax
	jmp	.LBB57_5
.LBB57_12:
	movl	$6, %eax
	jmp	.LBB57_23
.LBB57_13:
	movl	$11, %eax
	jmp	.LBB57_5
.LBB57_14:
	movl	$3, %eax
	jmp	.LBB57_23
.LBB57_15:
	movl	$17, %eax
	jmp	.LBB57_5
.LBB57_16:
	movl	$4, %eax
	jmp	.LBB57_23
.LBB57_17:
	movl	$9, %eax
	jmp	.LBB57_5
.LBB57_18:
	movl	$2, %eax
	jmp	.LBB57_5
.LBB57_19:
	movl	$7, %eax
	jmp	.LBB57_23
.LBB57_20:
	movl	$15, %eax
	jmp	.LBB57_5
.LBB57_21:
	movl	$8, %eax
	jmp	.LBB57_23
.LBB57_22:
	movl	$12, %eax
.LBB57_23:
	movq	%rdx, %rcx
	jmp	.LBB57_6
.LBB57_24:
	movl	$10, %eax
	jmp	.LBB57_5
.Lfunc_end57:
	.size	signalfern_set_find_to, .Lfunc_end57-signalfern_set_find_to
	.section	.rodata.signalfern_set_find_to,"a",@progbits
	.p2align	2, 0x0
.LJTI57_0:
	.long	.LBB57_3-.LJTI57_0
	.long	.LBB57_18-.LJTI57_0
	.long	.LBB57_14-.LJTI57_0
	.long	.LBB57_16-.LJTI57_0
	.long	.LBB57_12-.LJTI57_0
	.long	.LBB57_19-.LJTI57_0
	.long	.LBB57_21-.LJTI57_0
	.long	.LBB57_17-.LJTI57_0
	.long	.LBB57_24-.LJTI57_0
	.long	.LBB57_13-.LJTI57_0
	.long	.LBB57_22-.LJTI57_0
	.long	.LBB57_11-.LJTI57_0
	.long	.LBB57_4-.LJTI57_0
	.long	.LBB57_20-.LJTI57_0
	.long	.LBB57_10-.LJTI57_0
	.long	.LBB57_15-.LJTI57_0

	.section	.rodata.cst16,"aM",@progbits,16
	.p2align	4, 0x0
.LCPI58_0:
	.long	2147483648
	.long	2147483648
	.long	2147483648
	.long	2147483648
.LCPI58_1:
	.quad	6
	.quad	7
.LCPI58_2:
	.quad	4
	.quad	5
.LCPI58_3:
	.quad	2
	.quad	3
.LCPI58_4:
	.byte	0
	.byte	0
	.byte	0
	.byte	0
	.byte	0
	.byte	0
	.byte	0
	.byte	0
	.byte	1
	.byte	0
	.byte	0
	.byte	0
	.byte	0
	.byte	0
	.byte	0
	.byte	0
.LCPI58_5:
	.quad	8
	.quad	8
	.section	.text.signalfern_set_write_to,"ax",@progbits
	.globl	signalfern_set_write_to
	.p2align	4
	.type	signalfern_set_write_to,@function
signalfern_set_write_to:
	pushq	%rbp
	pushq	%r15
	pushq	%r14
	pushq	%r13
	pushq	%r12
	pushq	%rbx
	xorl	%r15d, %r15d
	testq	%rdi, %rdi
	sete	%r15b
	shll	$12, %r15d
	leaq	(%rdi,%r15), %r9
	xorl	%r14d, %r14d
	testq	%rdx, %rdx
	sete	%r14b
	shll	$12, %r14d
	leaq	(%rdx,%r14), %rax
	cmpq	$2, %rsi
	jb	.LBB58_3
	cmpq	$9, %rsi
	jae	.LBB58_6
	movl	$1, %r10d
	xorl	%ebp, %ebp
	jmp	.LBB58_9
.LBB58_3:
	testq	%rsi, %rsi
	jne	.LBB58_14
	testq	%rcx, %rcx
	je	.LBB58_125
	movb	$0, (%rax)
	movl	$1, %edi
	jmp	.LBB58_122
.LBB58_6:
	leaq	-1(%rsi), %rbx
	movq	%rbx, %r11
	andq	$-8, %r11
	leaq	1(%r11), %r10
	addq	%rdi, %r15
	addq	$20, %r15
	pxor	%xmm0, %xmm0
	xorl	%edi, %edi
	pxor	%xmm1, %xmm1
	.p2align	4
.LBB58_7:
	movdqu	-20(%r15,%rdi,4), %xmm2
	movdqu	-16(%r15,%rdi,4), %xmm3
	movdqu	-4(%r15,%rdi,4), %xmm4
	movdqu	(%r15,%rdi,4), %xmm5
	movdqa	.LCPI58_0(%rip), %xmm6
	pxor	%xmm6, %xmm2
	pxor	%xmm6, %xmm3
	pcmpgtd	%xmm2, %xmm3
	pcmpeqd	%xmm2, %xmm2
	pxor	%xmm2, %xmm3
	por	%xmm3, %xmm1
	pxor	%xmm6, %xmm4
	pxor	%xmm6, %xmm5
	pcmpgtd	%xmm4, %xmm5
	pxor	%xmm2, %xmm5
	por	%xmm5, %xmm0
	addq	$8, %rdi
	cmpq	%rdi, %r11
	jne	.LBB58_7
	por	%xmm1, %xmm0
	pslld	$31, %xmm0
	movmskps	%xmm0, %edi
	testl	%edi, %edi
	setne	%bpl
	cmpq	%r11, %rbx
	je	.LBB58_10
	.p2align	4
.LBB58_9:
	movl	(%r9,%r10,4), %edi
	cmpl	-4(%r9,%r10,4), %edi
	setbe	%dil
	orb	%dil, %bpl
	incq	%r10
	cmpq	%r10, %rsi
	jne	.LBB58_9
.LBB58_10:
	testb	$1, %bpl
	je	.LBB58_14
	movl	$1, %edi
	.p2align	4
.LBB58_12:
	movl	(%r9,%rdi,4), %r10d
	cmpl	-4(%r9,%rdi,4), %r10d
	jbe	.LBB58_123
	incq	%rdi
	cmpq	%rdi, %rsi
	jne	.LBB58_12
.LBB58_14:
	cmpl	$2147352576, -4(%r9,%rsi,4)
	jb	.LBB58_18
	xorl	%edi, %edi
	.p2align	4
.LBB58_16:
	cmpl	$2147352575, (%r9,%rdi,4)
	ja	.LBB58_44
	incq	%rdi
	cmpq	%rdi, %rsi
	jne	.LBB58_16
.LBB58_18:
	movq	%rcx, -48(%rsp)
	movq	%r14, -40(%rsp)
	movq	%rdx, -24(%rsp)
	movq	%r8, -32(%rsp)
	xorl	%edi, %edi
	xorl	%r11d, %r11d
	movq	%rsi, %r10
	movq	%r9, %rbx
	jmp	.LBB58_20
	.p2align	4
.LBB58_19:
	leaq	(%rbx,%r13,4), %rbx
	subq	%r13, %r10
	addq	%r14, %rdi
	movq	%rdi, %r14
	addq	%rcx, %r14
	leaq	(%r8,%r14), %rdi
	incq	%rdi
	incq	%r11
	testq	%r10, %r10
	je	.LBB58_36
.LBB58_20:
	movl	(%rbx), %ebp
	movl	%ebp, %r12d
	shrl	$16, %r12d
	xorl	%r15d, %r15d
	cmpq	$1, %r10
	jne	.LBB58_25
	xorl	%r8d, %r8d
.LBB58_22:
	movzwl	2(%rbx,%r8,4), %ecx
	xorl	%r13d, %r13d
	cmpl	%ecx, %r12d
	sete	%r13b
	addq	%r8, %r13
	cmpq	$61441, %r13
	movl	$0, %ecx
	adcb	$1, %cl
	cmpq	$4097, %r13
	movzbl	%cl, %ecx
	cmovbl	%r15d, %ecx
	testb	%cl, %cl
	je	.LBB58_29
	movzbl	%cl, %ecx
	cmpl	$1, %ecx
	jne	.LBB58_30
	movl	$65536, %r15d
	subq	%r13, %r15
	leaq	(%r15,%r15), %r14
	movl	$1, %r8d
	movl	$1, %ecx
	cmpl	$8388608, %ebp
	jae	.LBB58_31
	jmp	.LBB58_33
	.p2align	4
.LBB58_25:
	cmpq	$16, %r10
	movl	$16, %r8d
	movl	$16, %ecx
	cmovbq	%r10, %rcx
	movl	%ecx, %ecx
	movzwl	-2(%rbx,%rcx,4), %ecx
	cmpl	%ecx, %r12d
	movl	$65536, %ecx
	cmovneq	%r8, %rcx
	cmpq	%r10, %rcx
	cmovaeq	%r10, %rcx
	xorl	%r14d, %r14d
	jmp	.LBB58_27
	.p2align	4
.LBB58_26:
	subq	%r13, %rcx
	movq	%r8, %r14
	cmpq	$1, %rcx
	jbe	.LBB58_22
.LBB58_27:
	movq	%rcx, %r13
	shrq	%r13
	leaq	(%r14,%r13), %r8
	movzwl	2(%rbx,%r8,4), %edx
	cmpl	%edx, %r12d
	je	.LBB58_26
	movq	%r14, %r8
	jmp	.LBB58_26
	.p2align	4
.LBB58_29:
	leaq	(,%r13,2), %r14
	movq	%r13, %r15
	movl	$1, %r8d
	movl	$1, %ecx
	cmpl	$8388608, %ebp
	jae	.LBB58_31
	jmp	.LBB58_33
	.p2align	4
.LBB58_30:
	movl	$8192, %r14d
	movl	$1, %r8d
	movl	$1, %ecx
	cmpl	$8388608, %ebp
	jb	.LBB58_33
.LBB58_31:
	movq	%r12, %rbp
	.p2align	4
.LBB58_32:
	shrq	$7, %rbp
	incq	%rcx
	cmpq	$16383, %r12
	movq	%rbp, %r12
	ja	.LBB58_32
.LBB58_33:
	cmpq	$128, %r15
	jb	.LBB58_19
	movl	$1, %r8d
	movq	%r15, %r12
	.p2align	4
.LBB58_35:
	shrq	$7, %r12
	incq	%r8
	cmpq	$16383, %r15
	movq	%r12, %r15
	ja	.LBB58_35
	jmp	.LBB58_19
.LBB58_36:
	cmpq	$128, %r11
	jb	.LBB58_42
	leaq	(%r8,%r14), %rdi
	addq	$2, %rdi
	movq	%r11, %r8
	movq	%r11, %rcx
	movq	-48(%rsp), %rdx
	.p2align	4
.LBB58_38:
	shrq	$7, %rcx
	incq	%rdi
	cmpq	$16383, %r8
	movq	%rcx, %r8
	ja	.LBB58_38
	movl	$6, %ecx
	cmpq	%rdi, %rdx
	movq	-32(%rsp), %r8
	jb	.LBB58_126
	xorl	%r15d, %r15d
	.p2align	4
.LBB58_41:
	movq	%r11, %rcx
	movl	%ecx, %edx
	orb	$-128, %dl
	movb	%dl, (%rax,%r15)
	shrq	$7, %r11
	incq	%r15
	cmpq	$16383, %rcx
	ja	.LBB58_41
	jmp	.LBB58_46
.LBB58_42:
	incq	%rdi
	movl	$6, %ecx
	cmpq	%rdi, -48(%rsp)
	jae	.LBB58_45
	movq	-32(%rsp), %r8
	jmp	.LBB58_126
.LBB58_44:
	movl	$4, %ecx
	jmp	.LBB58_126
.LBB58_45:
	xorl	%r15d, %r15d
.LBB58_46:
	movb	%r11b, (%rax,%r15)
	incq	%r15
	movq	-24(%rsp), %rdx
	movq	-40(%rsp), %r8
	leaq	(%rdx,%r8), %rcx
	incq	%rcx
	movq	%rcx, -8(%rsp)
	leaq	9(%rdx,%r8), %rcx
	movq	%rcx, -16(%rsp)
	leaq	(%rdx,%r8), %rcx
	addq	$7, %rcx
	movq	%rcx, -40(%rsp)
	jmp	.LBB58_48
	.p2align	4
.LBB58_47:
	subq	%r14, %rsi
	addq	%rcx, %r15
	addq	%r10, %r15
	addq	%r8, %r15
	incq	%r15
	movq	-24(%rsp), %r9
	testq	%rsi, %rsi
	je	.LBB58_121
.LBB58_48:
	movl	(%r9), %edx
	movl	%edx, %r11d
	shrl	$16, %r11d
	xorl	%r8d, %r8d
	cmpq	$1, %rsi
	jne	.LBB58_56
	xorl	%ecx, %ecx
.LBB58_50:
	movzwl	2(%r9,%rcx,4), %r10d
	xorl	%ebx, %ebx
	cmpl	%r10d, %r11d
	sete	%bl
	leaq	(%rcx,%rbx), %r14
	cmpq	$61441, %r14
	movl	$0, %r10d
	adcb	$1, %r10b
	cmpq	$4097, %r14
	movzbl	%r10b, %ebp
	cmovbl	%r8d, %ebp
	movzbl	%bpl, %r10d
	movq	%r14, %r8
	movl	%r10d, -48(%rsp)
	testb	%r10b, %r10b
	je	.LBB58_53
	cmpl	$2, -48(%rsp)
	jne	.LBB58_60
	xorl	%r8d, %r8d
.LBB58_53:
	movq	%r15, %r10
	cmpl	$8388608, %edx
	jb	.LBB58_61
.LBB58_54:
	movq	%r11, %rdx
	.p2align	4
.LBB58_55:
	movl	%r11d, %r12d
	orb	$-128, %r12b
	movb	%r12b, (%rax,%r10)
	shrq	$7, %rdx
	incq	%r10
	cmpq	$16383, %r11
	movq	%rdx, %r11
	ja	.LBB58_55
	jmp	.LBB58_62
	.p2align	4
.LBB58_56:
	cmpq	$16, %rsi
	movl	$16, %ecx
	movl	$16, %r10d
	cmovbq	%rsi, %r10
	movl	%r10d, %r10d
	movzwl	-2(%r9,%r10,4), %r10d
	cmpl	%r10d, %r11d
	movl	$65536, %r10d
	cmovneq	%rcx, %r10
	cmpq	%rsi, %r10
	cmovaeq	%rsi, %r10
	xorl	%ebx, %ebx
	jmp	.LBB58_58
	.p2align	4
.LBB58_57:
	subq	%r14, %r10
	movq	%rcx, %rbx
	cmpq	$1, %r10
	jbe	.LBB58_50
.LBB58_58:
	movq	%r10, %r14
	shrq	%r14
	leaq	(%r14,%rbx), %rcx
	movzwl	2(%r9,%rcx,4), %ebp
	cmpl	%ebp, %r11d
	je	.LBB58_57
	movq	%rbx, %rcx
	jmp	.LBB58_57
	.p2align	4
.LBB58_60:
	movl	$65536, %r8d
	subq	%r14, %r8
	movq	%r15, %r10
	cmpl	$8388608, %edx
	jae	.LBB58_54
.LBB58_61:
	movq	%r11, %rdx
.LBB58_62:
	movb	%dl, (%rax,%r10)
	movb	%bpl, 1(%rax,%r10)
	addq	$2, %r10
	cmpq	$128, %r8
	jb	.LBB58_65
	movq	%r8, %rdx
	.p2align	4
.LBB58_64:
	movl	%r8d, %r11d
	orb	$-128, %r11b
	movb	%r11b, (%rax,%r10)
	shrq	$7, %rdx
	incq	%r10
	cmpq	$16383, %r8
	movq	%rdx, %r8
	ja	.LBB58_64
	jmp	.LBB58_66
	.p2align	4
.LBB58_65:
	movq	%r8, %rdx
.LBB58_66:
	leaq	(%r9,%r14,4), %r8
	movq	%r8, -24(%rsp)
	movb	%dl, (%rax,%r10)
	leaq	1(%r10), %r13
	cmpb	$2, %bpl
	je	.LBB58_79
	cmpl	$1, -48(%rsp)
	jne	.LBB58_85
	testq	%r14, %r14
	je	.LBB58_93
	xorl	%ecx, %ecx
	xorl	%r10d, %r10d
	jmp	.LBB58_71
	.p2align	4
.LBB58_70:
	leaq	(%r13,%r11,2), %r13
	leaq	1(%rbx), %rcx
	incq	%r10
	cmpq	%r14, %r10
	je	.LBB58_88
.LBB58_71:
	movzwl	(%r9,%r10,4), %ebx
	movq	%rbx, %r11
	subq	%rcx, %r11
	je	.LBB58_70
	cmpq	$8, %r11
	jae	.LBB58_74
	xorl	%edx, %edx
	jmp	.LBB58_77
	.p2align	4
.LBB58_74:
	leaq	(%rax,%r13), %r8
	movq	%r11, %rdx
	andq	$-8, %rdx
	movq	%rcx, %xmm0
	pshufd	$68, %xmm0, %xmm0
	movdqa	.LCPI58_1(%rip), %xmm1
	movdqa	.LCPI58_2(%rip), %xmm2
	movdqa	.LCPI58_3(%rip), %xmm3
	movdqa	.LCPI58_4(%rip), %xmm4
	xorl	%r12d, %r12d
	.p2align	4
.LBB58_75:
	movdqa	%xmm2, %xmm5
	paddq	%xmm0, %xmm5
	movdqa	%xmm1, %xmm6
	paddq	%xmm0, %xmm6
	shufps	$136, %xmm6, %xmm5
	movdqa	%xmm4, %xmm6
	paddq	%xmm0, %xmm6
	movdqa	%xmm3, %xmm7
	paddq	%xmm0, %xmm7
	shufps	$136, %xmm7, %xmm6
	pslld	$16, %xmm6
	psrad	$16, %xmm6
	pslld	$16, %xmm5
	psrad	$16, %xmm5
	packssdw	%xmm5, %xmm6
	movdqu	%xmm6, (%r8,%r12,2)
	addq	$8, %r12
	movdqa	.LCPI58_5(%rip), %xmm5
	paddq	%xmm5, %xmm4
	paddq	%xmm5, %xmm3
	paddq	%xmm5, %xmm2
	paddq	%xmm5, %xmm1
	cmpq	%r12, %rdx
	jne	.LBB58_75
	cmpq	%rdx, %r11
	je	.LBB58_70
.LBB58_77:
	addq	%rdx, %rcx
	leaq	(,%rdx,2), %rdx
	addq	%r13, %rdx
	addq	%rax, %rdx
	.p2align	4
.LBB58_78:
	movw	%cx, (%rdx)
	incq	%rcx
	addq	$2, %rdx
	cmpq	%rcx, %rbx
	jne	.LBB58_78
	jmp	.LBB58_70
	.p2align	4
.LBB58_79:
	addq	%rax, %r13
	xorl	%r8d, %r8d
	xorl	%edx, %edx
	jmp	.LBB58_82
	.p2align	4
.LBB58_80:
	movq	%r14, %r8
.LBB58_81:
	movq	%r10, (%r13,%rdx,8)
	incq	%rdx
	cmpq	$1024, %rdx
	je	.LBB58_97
.LBB58_82:
	xorl	%r10d, %r10d
	cmpq	%r14, %r8
	jae	.LBB58_80
	.p2align	4
.LBB58_83:
	movzwl	(%r9,%r8,4), %ecx
	movl	%ecx, %r11d
	shrl	$6, %r11d
	cmpq	%rdx, %r11
	jne	.LBB58_81
	movl	$1, %r11d
	shlq	%cl, %r11
	addq	%r11, %r10
	incq	%r8
	cmpq	%r8, %r14
	jne	.LBB58_83
	jmp	.LBB58_80
	.p2align	4
.LBB58_85:
	testq	%r14, %r14
	je	.LBB58_113
	addq	%rax, %r13
	cmpq	$8, %r14
	jb	.LBB58_87
	leaq	(%r9,%r14,4), %rdx
	cmpq	%rdx, %r13
	jae	.LBB58_104
	movq	-8(%rsp), %rdx
	addq	%r10, %rdx
	leaq	(%rdx,%r14,2), %rdx
	cmpq	%rdx, %r9
	jae	.LBB58_104
.LBB58_87:
	xorl	%edx, %edx
.LBB58_107:
	leal	(%rcx,%rbx), %r11d
	movq	%rdx, %r8
	andl	$3, %r11d
	je	.LBB58_110
	movq	%rdx, %r8
	.p2align	4
.LBB58_109:
	movzwl	(%r9,%r8,4), %ebp
	movw	%bp, (%r13,%r8,2)
	incq	%r8
	decq	%r11
	jne	.LBB58_109
.LBB58_110:
	addq	%rbx, %rcx
	notq	%rdx
	addq	%rcx, %rdx
	cmpq	$3, %rdx
	jb	.LBB58_113
	addq	-40(%rsp), %r10
	.p2align	4
.LBB58_112:
	movzwl	(%r9,%r8,4), %ecx
	movw	%cx, -6(%r10,%r8,2)
	movzwl	4(%r9,%r8,4), %ecx
	movw	%cx, -4(%r10,%r8,2)
	movzwl	8(%r9,%r8,4), %ecx
	movw	%cx, -2(%r10,%r8,2)
	movzwl	12(%r9,%r8,4), %ecx
	movw	%cx, (%r10,%r8,2)
	addq	$4, %r8
	cmpq	%r8, %r14
	jne	.LBB58_112
	jmp	.LBB58_113
	.p2align	4
.LBB58_88:
	cmpl	$65536, %ecx
	je	.LBB58_97
	xorq	$65535, %rbx
	cmpl	$8, %ebx
	jb	.LBB58_94
.LBB58_90:
	leaq	(%rax,%r13), %r10
	movl	%ebx, %edx
	andl	$-8, %edx
	movd	%ecx, %xmm0
	pshufd	$68, %xmm0, %xmm0
	leal	(%rbx,%rbx), %r8d
	andl	$-16, %r8d
	movdqa	.LCPI58_1(%rip), %xmm1
	movdqa	.LCPI58_2(%rip), %xmm2
	movdqa	.LCPI58_3(%rip), %xmm3
	movdqa	.LCPI58_4(%rip), %xmm4
	xorl	%r11d, %r11d
	.p2align	4
.LBB58_91:
	movdqa	%xmm2, %xmm5
	paddq	%xmm0, %xmm5
	movdqa	%xmm1, %xmm6
	paddq	%xmm0, %xmm6
	shufps	$136, %xmm6, %xmm5
	movdqa	%xmm4, %xmm6
	paddq	%xmm0, %xmm6
	movdqa	%xmm3, %xmm7
	paddq	%xmm0, %xmm7
	shufps	$136, %xmm7, %xmm6
	pslld	$16, %xmm6
	psrad	$16, %xmm6
	pslld	$16, %xmm5
	psrad	$16, %xmm5
	packssdw	%xmm5, %xmm6
	movdqu	%xmm6, (%r10,%r11)
	movdqa	.LCPI58_5(%rip), %xmm5
	paddq	%xmm5, %xmm4
	paddq	%xmm5, %xmm3
	paddq	%xmm5, %xmm2
	paddq	%xmm5, %xmm1
	addq	$16, %r11
	cmpq	%r11, %r8
	jne	.LBB58_91
	cmpl	%edx, %ebx
	jne	.LBB58_95
	jmp	.LBB58_97
.LBB58_93:
	movl	$65536, %ebx
	xorl	%ecx, %ecx
	cmpl	$8, %ebx
	jae	.LBB58_90
.LBB58_94:
	xorl	%edx, %edx
.LBB58_95:
	subq	%rdx, %rbx
	addq	%rdx, %rcx
	leaq	(,%rdx,2), %rdx
	addq	%r13, %rdx
	addq	%rax, %rdx
	xorl	%r8d, %r8d
	.p2align	4
.LBB58_96:
	leal	(%rcx,%r8), %r10d
	movw	%r10w, (%rdx,%r8,2)
	incq	%r8
	cmpq	%r8, %rbx
	jne	.LBB58_96
.LBB58_97:
	movl	(%r9), %r9d
	cmpb	$2, %bpl
	je	.LBB58_100
	cmpl	$1, -48(%rsp)
	jne	.LBB58_114
	movl	$65536, %edx
	subq	%r14, %rdx
	leaq	(%rdx,%rdx), %rcx
	jmp	.LBB58_115
	.p2align	4
.LBB58_100:
	movl	$8192, %ecx
	xorl	%edx, %edx
	jmp	.LBB58_115
.LBB58_104:
	movq	%r14, %rdx
	andq	$-8, %rdx
	movq	-16(%rsp), %r8
	addq	%r10, %r8
	xorl	%r11d, %r11d
	.p2align	4
.LBB58_105:
	movdqu	(%r9,%r11,4), %xmm0
	movdqu	16(%r9,%r11,4), %xmm1
	pshuflw	$232, %xmm0, %xmm0
	pshufhw	$232, %xmm0, %xmm0
	pshufd	$232, %xmm0, %xmm0
	pshuflw	$232, %xmm1, %xmm1
	pshufhw	$232, %xmm1, %xmm1
	pshufd	$232, %xmm1, %xmm1
	punpcklqdq	%xmm1, %xmm0
	movdqu	%xmm0, -8(%r8,%r11,2)
	addq	$8, %r11
	cmpq	%r11, %rdx
	jne	.LBB58_105
	cmpq	%rdx, %r14
	jne	.LBB58_107
	.p2align	4
.LBB58_113:
	movl	(%r9), %r9d
.LBB58_114:
	leaq	(%r14,%r14), %rcx
	movq	%r14, %rdx
.LBB58_115:
	movl	$1, %r8d
	movl	$1, %r10d
	cmpl	$8388608, %r9d
	jb	.LBB58_118
	shrl	$16, %r9d
	movq	%r9, %r11
	.p2align	4
.LBB58_117:
	shrq	$7, %r11
	incq	%r10
	cmpq	$16383, %r9
	movq	%r11, %r9
	ja	.LBB58_117
.LBB58_118:
	cmpq	$128, %rdx
	jb	.LBB58_47
	movl	$1, %r8d
	movq	%rdx, %r9
	.p2align	4
.LBB58_120:
	shrq	$7, %r9
	incq	%r8
	cmpq	$16383, %rdx
	movq	%r9, %rdx
	ja	.LBB58_120
	jmp	.LBB58_47
.LBB58_121:
	movq	-32(%rsp), %r8
.LBB58_122:
	movq	$0, (%r8)
	jmp	.LBB58_127
.LBB58_123:
	movl	$3, %ecx
	jmp	.LBB58_126
.LBB58_125:
	movl	$1, %edi
	movl	$6, %ecx
.LBB58_126:
	movq	%rcx, (%r8)
.LBB58_127:
	movq	%rdi, 8(%r8)
	popq	%rbx
	popq	%r12
	popq	%r13
	popq	%r14
	popq	%r15
	popq	%rbp
	retq
.Lfunc_end58:
	.size	signalfern_set_write_to, .Lfunc_end58-signalfern_set_write_to

	.section	.rodata.cst16,"aM",@progbits,16
	.p2align	4, 0x0
.LCPI59_0:
	.long	2147483648
	.long	2147483648
	.long	2147483648
	.long	2147483648
	.section	.text.signalfern_write_planned_to,"ax",@progbits
	.globl	signalfern_write_planned_to
	.p2align	4
	.type	signalfern_write_planned_to,@function
signalfern_write_planned_to:
	pushq	%rbp
	pushq	%r15
	pushq	%r14
	pushq	%r13
	pushq	%r12
	pushq	%rbx
	subq	$72, %rsp
	movq	%r9, 64(%rsp)
	movq	%rdx, %rax
	movq	%rsi, %rdx
	movq	152(%rsp), %rbx
	movq	136(%rsp), %r10
	xorl	%ebp, %ebp
	testq	%rdi, %rdi
	sete	%sil
	xorl	%r15d, %r15d
	testq	%rax, %rax
	sete	%r13b
	xorl	%r14d, %r14d
	testq	%r8, %r8
	sete	%r12b
	xorl	%r11d, %r11d
	testq	%r10, %r10
	sete	%r9b
	pxor	%xmm0, %xmm0
	movdqa	%xmm0, 32(%rsp)
	movq	$0, 48(%rsp)
	cmpq	%rcx, %rdx
	jne	.LBB59_1
	movl	128(%rsp), %ebx
	testl	%ebx, %ebx
	setne	%cl
	addl	$-7, %ebx
	cmpl	$9, %ebx
	setae	%bl
	testb	%bl, %cl
	jne	.LBB59_3
	movb	%sil, %bpl
	shll	$12, %ebp
	leaq	(%rdi,%rbp), %rsi
	cmpq	$2, %rdx
	jb	.LBB59_16
	cmpq	$9, %rdx
	jae	.LBB59_7
	movl	$1, %ebx
	xorl	%edi, %edi
	jmp	.LBB59_10
.LBB59_1:
	xorl	%eax, %eax
	xorl	%edi, %edi
	jmp	.LBB59_21
.LBB59_3:
	movl	$1, %eax
	xorl	%edi, %edi
	movq	152(%rsp), %rbx
.LBB59_21:
	movzbl	%al, %ecx
	movl	$1, %eax
	leaq	.LJTI59_0(%rip), %rdx
	movslq	(%rdx,%rcx,4), %rsi
	addq	%rdx, %rsi
	jmpq	*%rsi
.LBB59_26:
	movl	$2, %eax
	xorl	%ecx, %ecx
	jmp	.LBB59_42
.LBB59_16:
	testq	%rdx, %rdx
	movq	152(%rsp), %rbx
	jne	.LBB59_17
	jmp	.LBB59_23
.LBB59_7:
	leaq	-1(%rdx), %rcx
	andq	$-8, %rcx
	leaq	1(%rcx), %rbx
	addq	%rbp, %rdi
	addq	$20, %rdi
	xorl	%ebp, %ebp
	pxor	%xmm1, %xmm1
	.p2align	4
.LBB59_8:
	movdqu	-20(%rdi,%rbp,4), %xmm2
	movdqu	-16(%rdi,%rbp,4), %xmm3
	movdqu	-4(%rdi,%rbp,4), %xmm4
	movdqu	(%rdi,%rbp,4), %xmm5
	movdqa	.LCPI59_0(%rip), %xmm6
	pxor	%xmm6, %xmm2
	pxor	%xmm6, %xmm3
	pcmpgtd	%xmm2, %xmm3
	pcmpeqd	%xmm2, %xmm2
	pxor	%xmm2, %xmm3
	por	%xmm3, %xmm1
	pxor	%xmm6, %xmm4
	pxor	%xmm6, %xmm5
	pcmpgtd	%xmm4, %xmm5
	pxor	%xmm2, %xmm5
	por	%xmm5, %xmm0
	addq	$8, %rbp
	cmpq	%rbp, %rcx
	jne	.LBB59_8
	por	%xmm1, %xmm0
	pslld	$31, %xmm0
	movmskps	%xmm0, %edi
	testl	%edi, %edi
	setne	%dil
	leaq	-1(%rdx), %rbp
	cmpq	%rcx, %rbp
	je	.LBB59_11
	.p2align	4
.LBB59_10:
	movl	(%rsi,%rbx,4), %ecx
	cmpl	-4(%rsi,%rbx,4), %ecx
	setbe	%cl
	orb	%cl, %dil
	incq	%rbx
	cmpq	%rbx, %rdx
	jne	.LBB59_10
.LBB59_11:
	testb	$1, %dil
	movq	152(%rsp), %rbx
	je	.LBB59_17
	movl	$1, %edi
	.p2align	4
.LBB59_13:
	movl	(%rsi,%rdi,4), %ecx
	cmpl	-4(%rsi,%rdi,4), %ecx
	jbe	.LBB59_14
	incq	%rdi
	cmpq	%rdi, %rdx
	jne	.LBB59_13
.LBB59_17:
	cmpl	$2147352576, -4(%rsi,%rdx,4)
	jb	.LBB59_23
	xorl	%edi, %edi
	.p2align	4
.LBB59_19:
	cmpl	$2147352575, (%rsi,%rdi,4)
	ja	.LBB59_20
	incq	%rdi
	cmpq	%rdi, %rdx
	jne	.LBB59_19
.LBB59_23:
	movq	144(%rsp), %rcx
	movb	%r13b, %r15b
	shll	$12, %r15d
	addq	%r15, %rax
	movb	%r12b, %r14b
	shll	$12, %r14d
	addq	%r14, %r8
	movb	%r9b, %r11b
	shll	$12, %r11d
	addq	%r11, %r10
	movq	%rcx, 24(%rsp)
	movq	%r10, 16(%rsp)
	movl	128(%rsp), %ecx
	movl	%ecx, 8(%rsp)
	movq	64(%rsp), %rcx
	movq	%rcx, (%rsp)
	leaq	32(%rsp), %rdi
	movq	%rax, %rcx
	movq	%r8, %r9
	movq	%rdx, %r8
	callq	"writer::write_checked"
	movq	40(%rsp), %rax
	cmpb	$0, 32(%rsp)
	je	.LBB59_24
	movq	48(%rsp), %rdi
	movzbl	%al, %ecx
	movl	$1, %eax
	leaq	.LJTI59_0(%rip), %rdx
	movslq	(%rdx,%rcx,4), %rsi
	addq	%rdx, %rsi
	jmpq	*%rsi
.LBB59_40:
	movl	$3, %eax
	jmp	.LBB59_41
.LBB59_24:
	movq	$0, (%rbx)
	movq	%rax, 8(%rbx)
	jmp	.LBB59_43
.LBB59_38:
	movl	$16, %eax
	xorl	%ecx, %ecx
	jmp	.LBB59_42
.LBB59_35:
	movl	$13, %eax
	xorl	%ecx, %ecx
	jmp	.LBB59_42
.LBB59_28:
	movl	$6, %eax
	jmp	.LBB59_41
.LBB59_36:
	movl	$14, %eax
	xorl	%ecx, %ecx
	jmp	.LBB59_42
.LBB59_33:
	movl	$11, %eax
	xorl	%ecx, %ecx
	jmp	.LBB59_42
.LBB59_39:
	movl	$17, %eax
	xorl	%ecx, %ecx
	jmp	.LBB59_42
.LBB59_27:
	movl	$4, %eax
	jmp	.LBB59_41
.LBB59_31:
	movl	$9, %eax
	xorl	%ecx, %ecx
	jmp	.LBB59_42
.LBB59_29:
	movl	$7, %eax
	jmp	.LBB59_41
.LBB59_37:
	movl	$15, %eax
	xorl	%ecx, %ecx
	jmp	.LBB59_42
.LBB59_30:
	movl	$8, %eax
	jmp	.LBB59_41
.LBB59_34:
	movl	$12, %eax
.LBB59_41:
	movq	%rdi, %rcx
.LBB59_42:
	movq	%rax, (%rbx)
	movq	%rcx, 8(%rbx)
.LBB59_43:
	addq	$72, %rsp
	popq	%rbx
	popq	%r12
	popq	%r13
	popq	%r14
	popq	%r15
	popq	%rbp
	retq
.LBB59_32:
	movl	$10, %eax
	xorl	%ecx, %ecx
	jmp	.LBB59_42
.LBB59_20:
	movl	$3, %eax
	jmp	.LBB59_21
.LBB59_14:
	movl	$2, %eax
	jmp	.LBB59_21
.Lfunc_end59:
	.size	signalfern_write_planned_to, .Lfunc_end59-signalfern_write_planned_to
	.section	.rodata.signalfern_write_planned_to,"a",@progbits
	.p2align	2, 0x0
.LJTI59_0:
	.long	.LBB59_42-.LJTI59_0
	.long	.LBB59_26-.LJTI59_0
	.long	.LBB59_40-.LJTI59_0
	.long	.LBB59_27-.LJTI59_0
	.long	.LBB59_28-.LJTI59_0
	.long	.LBB59_29-.LJTI59_0
	.long	.LBB59_30-.LJTI59_0
	.long	.LBB59_31-.LJTI59_0
	.long	.LBB59_32-.LJTI59_0
	.long	.LBB59_33-.LJTI59_0
	.long	.LBB59_34-.LJTI59_0
	.long	.LBB59_35-.LJTI59_0
	.long	.LBB59_36-.LJTI59_0
	.long	.LBB59_37-.LJTI59_0
	.long	.LBB59_38-.LJTI59_0
	.long	.LBB59_39-.LJTI59_0

	.section	.rodata.cst16,"aM",@progbits,16
	.p2align	4, 0x0
.LCPI60_0:
	.long	2147483648
	.long	2147483648
	.long	2147483648
	.long	2147483648
	.section	.text.signalfern_write_to,"ax",@progbits
	.globl	signalfern_write_to
	.p2align	4
	.type	signalfern_write_to,@function
signalfern_write_to:
	pushq	%rbp
	pushq	%r15
	pushq	%r14
	pushq	%r13
	pushq	%r12
	pushq	%rbx
	subq	$2152, %rsp
	movq	2224(%rsp), %r12
	movq	2208(%rsp), %r14
	xorl	%r13d, %r13d
	testq	%rdi, %rdi
	sete	%bl
	xorl	%r10d, %r10d
	testq	%rdx, %rdx
	sete	%r15b
	xorl	%eax, %eax
	testq	%r14, %r14
	sete	%r11b
	cmpq	%rcx, %rsi
	jne	.LBB60_1
	decl	%r8d
	cmpl	$3, %r8d
	ja	.LBB60_35
	pxor	%xmm0, %xmm0
	movdqa	%xmm0, 48(%rsp)
	movq	$0, 64(%rsp)
	testl	%r9d, %r9d
	setne	%cl
	leal	-7(%r9), %ebp
	cmpl	$9, %ebp
	setae	%r12b
	movl	$1, %ebp
	testb	%r12b, %cl
	jne	.LBB60_4
	movb	%bl, %r13b
	shll	$12, %r13d
	leaq	(%rdi,%r13), %rbx
	cmpq	$2, %rsi
	jb	.LBB60_18
	cmpq	$9, %rsi
	jae	.LBB60_9
	movl	$1, %ecx
	xorl	%edi, %edi
	jmp	.LBB60_12
.LBB60_1:
	movl	$1, %ebp
	xorl	%eax, %eax
	jmp	.LBB60_46
.LBB60_4:
	xorl	%ecx, %ecx
	movl	$1, %eax
	movq	2224(%rsp), %r12
.LBB60_5:
	movzbl	%al, %eax
	leaq	.LJTI60_0(%rip), %rdx
	movslq	(%rdx,%rax,4), %rsi
	addq	%rdx, %rsi
	jmpq	*%rsi
.LBB60_18:
	testq	%rsi, %rsi
	movq	2224(%rsp), %r12
	jne	.LBB60_19
	jmp	.LBB60_24
.LBB60_9:
	leaq	-1(%rsi), %r12
	andq	$-8, %r12
	leaq	1(%r12), %rcx
	addq	%r13, %rdi
	addq	$20, %rdi
	xorl	%r13d, %r13d
	pxor	%xmm1, %xmm1
	.p2align	4
.LBB60_10:
	movdqu	-20(%rdi,%r13,4), %xmm2
	movdqu	-16(%rdi,%r13,4), %xmm3
	movdqu	-4(%rdi,%r13,4), %xmm4
	movdqu	(%rdi,%r13,4), %xmm5
	movdqa	.LCPI60_0(%rip), %xmm6
	pxor	%xmm6, %xmm2
	pxor	%xmm6, %xmm3
	pcmpgtd	%xmm2, %xmm3
	pcmpeqd	%xmm2, %xmm2
	pxor	%xmm2, %xmm3
	por	%xmm3, %xmm1
	pxor	%xmm6, %xmm4
	pxor	%xmm6, %xmm5
	pcmpgtd	%xmm4, %xmm5
	pxor	%xmm2, %xmm5
	por	%xmm5, %xmm0
	addq	$8, %r13
	cmpq	%r13, %r12
	jne	.LBB60_10
	por	%xmm1, %xmm0
	pslld	$31, %xmm0
	movmskps	%xmm0, %edi
	testl	%edi, %edi
	setne	%dil
	leaq	-1(%rsi), %r13
	cmpq	%r12, %r13
	je	.LBB60_13
	.p2align	4
.LBB60_12:
	movl	(%rbx,%rcx,4), %r12d
	cmpl	-4(%rbx,%rcx,4), %r12d
	setbe	%r12b
	orb	%r12b, %dil
	incq	%rcx
	cmpq	%rcx, %rsi
	jne	.LBB60_12
.LBB60_13:
	testb	$1, %dil
	movq	2224(%rsp), %r12
	je	.LBB60_19
	movl	$1, %ecx
	.p2align	4
.LBB60_15:
	movl	(%rbx,%rcx,4), %edi
	cmpl	-4(%rbx,%rcx,4), %edi
	jbe	.LBB60_16
	incq	%rcx
	cmpq	%rcx, %rsi
	jne	.LBB60_15
.LBB60_19:
	cmpl	$2147352576, -4(%rbx,%rsi,4)
	jb	.LBB60_24
	xorl	%ecx, %ecx
	.p2align	4
.LBB60_21:
	cmpl	$2147352575, (%rbx,%rcx,4)
	ja	.LBB60_22
	incq	%rcx
	cmpq	%rcx, %rsi
	jne	.LBB60_21
.LBB60_24:
	movq	%rsi, %r12
	movq	2216(%rsp), %rcx
	movb	%r15b, %r10b
	shll	$12, %r10d
	addq	%r10, %rdx
	movq	%rdx, %r15
	movb	%r11b, %al
	shll	$12, %eax
	addq	%rax, %r14
	cmpl	$3, %r8d
	jne	.LBB60_26
	pxor	%xmm0, %xmm0
	movdqa	%xmm0, 80(%rsp)
	movq	$0, 96(%rsp)
	leaq	104(%rsp), %rdi
	movl	$2048, %edx
	xorl	%esi, %esi
	movq	%r9, %r13
	callq	memset@PLT
	leaq	104(%rsp), %rdi
	movq	%r15, %rsi
	movq	%r12, %rdx
	callq	"plans::plan"
	movq	2216(%rsp), %rcx
	movq	%rcx, 24(%rsp)
	movq	%r14, 16(%rsp)
	movl	%r13d, 8(%rsp)
	movq	%rax, (%rsp)
	leaq	80(%rsp), %rdi
	movq	%rbx, %rsi
	movq	%r12, %rdx
	movq	%r15, %rcx
	movq	%r12, %r8
	leaq	104(%rsp), %r9
	callq	"writer::write_checked"
	movzbl	80(%rsp), %edx
	movq	88(%rsp), %rax
	movq	96(%rsp), %rcx
	testb	%dl, %dl
	movq	2224(%rsp), %r12
	je	.LBB60_28
.LBB60_29:
	movzbl	%al, %eax
	leaq	.LJTI60_0(%rip), %rdx
	movslq	(%rdx,%rax,4), %rsi
	addq	%rdx, %rsi
	jmpq	*%rsi
.LBB60_30:
	movl	$2, %ebp
	xorl	%eax, %eax
	jmp	.LBB60_46
.LBB60_35:
	movl	$9, %ebp
	xorl	%eax, %eax
	jmp	.LBB60_46
.LBB60_26:
	movq	%rcx, 32(%rsp)
	movq	%r14, 24(%rsp)
	movl	%r9d, 16(%rsp)
	movzbl	%r8b, %eax
	movl	%eax, 8(%rsp)
	movq	$0, (%rsp)
	leaq	48(%rsp), %rdi
	movq	%rbx, %rsi
	movq	%r12, %rdx
	movq	%r15, %rcx
	movq	%r12, %r8
	movq	%r15, %r9
	callq	"writer::write_by"
	movzbl	48(%rsp), %edx
	movq	56(%rsp), %rax
	movq	64(%rsp), %rcx
	testb	%dl, %dl
	movq	2224(%rsp), %r12
	jne	.LBB60_29
.LBB60_28:
	movq	$0, (%r12)
	jmp	.LBB60_47
.LBB60_22:
	movl	$3, %eax
	jmp	.LBB60_5
.LBB60_16:
	movl	$2, %eax
	jmp	.LBB60_5
.LBB60_42:
	movl	$16, %ebp
	xorl	%eax, %eax
	jmp	.LBB60_46
.LBB60_39:
	movl	$13, %ebp
	xorl	%eax, %eax
	jmp	.LBB60_46
.LBB60_32:
	movl	$6, %ebp
	jmp	.LBB60_45
.LBB60_40:
	movl	$14, %ebp
	xorl	%eax, %eax
	jmp	.LBB60_46
.LBB60_37:
	movl	$11, %ebp
	xorl	%eax, %eax
	jmp	.LBB60_46
.LBB60_44:
	movl	$3, %ebp
	jmp	.LBB60_45
.LBB60_43:
	movl	$17, %ebp
	xorl	%eax, %eax
	jmp	.LBB60_46
.LBB60_31:
	movl	$4, %ebp
	jmp	.LBB60_45
.LBB60_33:
	movl	$7, %ebp
	jmp	.LBB60_45
.LBB60_41:
	movl	$15, %ebp
	xorl	%eax, %eax
	jmp	.LBB60_46
.LBB60_34:
	movl	$8, %ebp
	jmp	.LBB60_45
.LBB60_38:
	movl	$12, %ebp
.LBB60_45:
	movq	%rcx, %rax
.LBB60_46:
	movq	%rbp, (%r12)
.LBB60_47:
	movq	%rax, 8(%r12)
	addq	$2152, %rsp
	popq	%rbx
	popq	%r12
	popq	%r13
	popq	%r14
	popq	%r15
	popq	%rbp
	retq
.LBB60_36:
	movl	$10, %ebp
	xorl	%eax, %eax
	jmp	.LBB60_46
.Lfunc_end60:
	.size	signalfern_write_to, .Lfunc_end60-signalfern_write_to
	.section	.rodata.signalfern_write_to,"a",@progbits
	.p2align	2, 0x0
.LJTI60_0:
	.long	.LBB60_46-.LJTI60_0
	.long	.LBB60_30-.LJTI60_0
	.long	.LBB60_44-.LJTI60_0
	.long	.LBB60_31-.LJTI60_0
	.long	.LBB60_32-.LJTI60_0
	.long	.LBB60_33-.LJTI60_0
	.long	.LBB60_34-.LJTI60_0
	.long	.LBB60_35-.LJTI60_0
	.long	.LBB60_36-.LJTI60_0
	.long	.LBB60_37-.LJTI60_0
	.long	.LBB60_38-.LJTI60_0
	.long	.LBB60_39-.LJTI60_0
	.long	.LBB60_40-.LJTI60_0
	.long	.LBB60_41-.LJTI60_0
	.long	.LBB60_42-.LJTI60_0
	.long	.LBB60_43-.LJTI60_0

	.type	".Lswitch.table.page::fill_by",@object
	.section	.rodata.cst16,"aM",@progbits,16
".Lswitch.table.page::fill_by":
	.ascii	"\001\002\003\004\006\007\b\t\n\013\f\r\016\017\020\021"
	.size	".Lswitch.table.page::fill_by", 16

	.ident	"rattle logic=dac8208d650f15bf3e2dc313a14fa4c783a3acf887bdfab66e1714b038d9e11b"
	.section	".note.GNU-stack","",@progbits
