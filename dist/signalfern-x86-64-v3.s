	.file	"rattle"
	.section	".text.column::Column::open","ax",@progbits
	.p2align	4
	.type	"column::Column::open",@function
"column::Column::open":
	pushq	%rbp
	pushq	%r15
	pushq	%r14
	pushq	%r13
	pushq	%r12
	pushq	%rbx
	movl	$5, %ecx
	testq	%rdx, %rdx
	je	.LBB0_23
	movzbl	(%rsi), %eax
	movl	$1, %r9d
	testb	%al, %al
	js	.LBB0_24
	decq	%rax
	cmpq	$3, %rax
	ja	.LBB0_38
.LBB0_3:
	movl	$5, %r8d
	cmpq	%r9, %rdx
	jbe	.LBB0_89
	movzbl	(%rsi,%r9), %ecx
	leaq	1(%r9), %r10
	testb	%cl, %cl
	js	.LBB0_32
	cmpq	%r10, %rdx
	jbe	.LBB0_89
.LBB0_6:
	movzbl	(%rsi,%r10), %r9d
	leaq	1(%r10), %r11
	testb	%r9b, %r9b
	js	.LBB0_39
	cmpq	%r11, %rdx
	jbe	.LBB0_89
.LBB0_8:
	movzbl	(%rsi,%r11), %r13d
	leaq	1(%r11), %r10
	testb	%r13b, %r13b
	js	.LBB0_46
	cmpq	%r10, %rdx
	jbe	.LBB0_89
.LBB0_10:
	movzbl	(%rsi,%r10), %ebx
	leaq	1(%r10), %r14
	testb	%bl, %bl
	js	.LBB0_53
	cmpq	%r14, %rdx
	jbe	.LBB0_89
.LBB0_12:
	movzbl	(%rsi,%r14), %r10d
	leaq	1(%r14), %r11
	testb	%r10b, %r10b
	js	.LBB0_60
	cmpq	%r11, %rdx
	jbe	.LBB0_89
.LBB0_14:
	movzbl	(%rsi,%r11), %r14d
	leaq	1(%r11), %r15
	testb	%r14b, %r14b
	js	.LBB0_67
	cmpq	%r15, %rdx
	jbe	.LBB0_89
.LBB0_16:
	movzbl	(%rsi,%r15), %r12d
	leaq	1(%r15), %r11
	testb	%r12b, %r12b
	movq	%r13, -32(%rsp)
	movq	%rbx, -16(%rsp)
	movq	%r10, -24(%rsp)
	js	.LBB0_74
	cmpq	%r11, %rdx
	jbe	.LBB0_89
.LBB0_18:
	movzbl	(%rsi,%r11), %r13d
	movq	%r11, -64(%rsp)
	leaq	1(%r11), %r10
	movq	%r10, -8(%rsp)
	testb	%r13b, %r13b
	js	.LBB0_81
	movl	$8, %ebx
	movl	$1, %r11d
	cmpq	$2147352576, %rcx
	jbe	.LBB0_94
.LBB0_20:
	movq	$0, -56(%rsp)
.LBB0_21:
	xorl	%r10d, %r10d
	movq	$0, -64(%rsp)
	movq	$0, -40(%rsp)
	movq	$0, -48(%rsp)
	xorl	%esi, %esi
	xorl	%r8d, %r8d
	xorl	%ebp, %ebp
	xorl	%r15d, %r15d
.LBB0_22:
	movq	%r11, (%rdi)
	movq	%rbx, 8(%rdi)
	movq	-56(%rsp), %rax
	movq	%rax, 16(%rdi)
	movq	%r10, 24(%rdi)
	movq	-64(%rsp), %rax
	movq	%rax, 32(%rdi)
	movq	-40(%rsp), %rax
	movq	%rax, 40(%rdi)
	movq	-48(%rsp), %rax
	movq	%rax, 48(%rdi)
	movq	%rsi, 56(%rdi)
	movq	%r8, 64(%rdi)
	movq	%rbp, 72(%rdi)
	movq	%r15, 80(%rdi)
	jmp	.LBB0_91
.LBB0_23:
	xorl	%r9d, %r9d
	jmp	.LBB0_31
.LBB0_24:
	cmpq	$1, %rdx
	je	.LBB0_31
	addq	$-128, %rax
	movl	$1, %r10d
	subq	%rdx, %r10
	movl	$128, %r8d
	movl	$2, %r9d
	.p2align	4
.LBB0_26:
	movzbl	-1(%rsi,%r9), %r11d
	xorl	%ebx, %ebx
	testq	%r11, %r11
	sete	%bl
	xorl	%ebp, %ebp
	cmpq	$1, %r11
	setne	%bpl
	cmpq	$10, %r9
	cmovel	%ebp, %ebx
	testb	%bl, %bl
	jne	.LBB0_30
	testb	%r11b, %r11b
	jns	.LBB0_37
	addq	$-128, %r11
	imulq	%r8, %r11
	addq	%r11, %rax
	shlq	$7, %r8
	leaq	(%r10,%r9), %r11
	incq	%r11
	incq	%r9
	cmpq	$2, %r11
	jne	.LBB0_26
	movq	%rdx, %r9
	jmp	.LBB0_31
.LBB0_30:
	decq	%r9
	movl	$6, %ecx
.LBB0_31:
	movq	$1, (%rdi)
	movq	%rcx, 8(%rdi)
	movq	%r9, 16(%rdi)
	jmp	.LBB0_90
.LBB0_32:
	cmpq	%rdx, %r10
	jae	.LBB0_89
	addq	$-128, %rcx
	movq	%r9, %r11
	subq	%rdx, %r11
	incq	%r11
	addq	%rsi, %r10
	movl	$128, %r14d
	xorl	%ebx, %ebx
	.p2align	4
.LBB0_34:
	movzbl	(%r10,%rbx), %r15d
	xorl	%ebp, %ebp
	testq	%r15, %r15
	sete	%bpl
	xorl	%r12d, %r12d
	cmpq	$1, %r15
	setne	%r12b
	cmpq	$8, %rbx
	cmovel	%r12d, %ebp
	testb	%bpl, %bpl
	jne	.LBB0_44
	testb	%r15b, %r15b
	jns	.LBB0_45
	addq	$-128, %r15
	imulq	%r14, %r15
	addq	%r15, %rcx
	shlq	$7, %r14
	incq	%rbx
	movq	%r11, %r15
	addq	%rbx, %r15
	jne	.LBB0_34
	jmp	.LBB0_89
.LBB0_37:
	imulq	%r11, %r8
	addq	%r8, %rax
	decq	%rax
	cmpq	$3, %rax
	jbe	.LBB0_3
.LBB0_38:
	movq	$1, (%rdi)
	movq	$7, 8(%rdi)
	vxorps	%xmm0, %xmm0, %xmm0
	vmovups	%ymm0, 16(%rdi)
	vmovups	%ymm0, 48(%rdi)
	movq	$0, 80(%rdi)
	jmp	.LBB0_91
.LBB0_39:
	cmpq	%rdx, %r11
	jae	.LBB0_89
	addq	$-128, %r9
	movq	%r10, %rbx
	subq	%rdx, %rbx
	incq	%rbx
	addq	%rsi, %r11
	movl	$128, %r15d
	xorl	%r14d, %r14d
.LBB0_41:
	movzbl	(%r11,%r14), %r12d
	xorl	%ebp, %ebp
	testq	%r12, %r12
	sete	%bpl
	xorl	%r13d, %r13d
	cmpq	$1, %r12
	setne	%r13b
	cmpq	$8, %r14
	cmovel	%r13d, %ebp
	testb	%bpl, %bpl
	jne	.LBB0_51
	testb	%r12b, %r12b
	jns	.LBB0_52
	addq	$-128, %r12
	imulq	%r15, %r12
	addq	%r12, %r9
	shlq	$7, %r15
	incq	%r14
	movq	%rbx, %r12
	addq	%r14, %r12
	jne	.LBB0_41
	jmp	.LBB0_89
.LBB0_44:
	leaq	(%r9,%rbx), %rdx
	incq	%rdx
	jmp	.LBB0_88
.LBB0_45:
	imulq	%r15, %r14
	addq	%r14, %rcx
	leaq	(%r9,%rbx), %r10
	addq	$2, %r10
	cmpq	%r10, %rdx
	ja	.LBB0_6
	jmp	.LBB0_89
.LBB0_46:
	cmpq	%rdx, %r10
	jae	.LBB0_89
	addq	$-128, %r13
	movq	%r11, %rbx
	subq	%rdx, %rbx
	incq	%rbx
	movq	%rbx, -56(%rsp)
	addq	%rsi, %r10
	movl	$128, %r12d
	xorl	%r15d, %r15d
.LBB0_48:
	movq	%r13, %rbx
	movq	%r10, %r14
	movzbl	(%r10,%r15), %r13d
	xorl	%ebp, %ebp
	testq	%r13, %r13
	sete	%bpl
	xorl	%r10d, %r10d
	cmpq	$1, %r13
	setne	%r10b
	cmpq	$8, %r15
	cmovel	%r10d, %ebp
	testb	%bpl, %bpl
	jne	.LBB0_58
	testb	%r13b, %r13b
	jns	.LBB0_59
	addq	$-128, %r13
	imulq	%r12, %r13
	addq	%r13, %rbx
	movq	%rbx, %r13
	shlq	$7, %r12
	incq	%r15
	movq	-56(%rsp), %r10
	addq	%r15, %r10
	movq	%r14, %r10
	jne	.LBB0_48
	jmp	.LBB0_89
.LBB0_51:
	leaq	(%r10,%r14), %rdx
	incq	%rdx
	jmp	.LBB0_88
.LBB0_52:
	imulq	%r12, %r15
	addq	%r15, %r9
	leaq	(%r10,%r14), %r11
	addq	$2, %r11
	cmpq	%r11, %rdx
	ja	.LBB0_8
	jmp	.LBB0_89
.LBB0_53:
	cmpq	%rdx, %r14
	jae	.LBB0_89
	movq	%r13, -32(%rsp)
	addq	$-128, %rbx
	movq	%r10, -56(%rsp)
	movq	%r10, %r15
	subq	%rdx, %r15
	incq	%r15
	addq	%rsi, %r14
	movl	$128, %r13d
	xorl	%r12d, %r12d
.LBB0_55:
	movzbl	(%r14,%r12), %ebp
	xorl	%r10d, %r10d
	testq	%rbp, %rbp
	sete	%r10b
	xorl	%r11d, %r11d
	cmpq	$1, %rbp
	setne	%r11b
	cmpq	$8, %r12
	cmovel	%r11d, %r10d
	testb	%r10b, %r10b
	jne	.LBB0_65
	testb	%bpl, %bpl
	jns	.LBB0_66
	addq	$-128, %rbp
	imulq	%r13, %rbp
	addq	%rbp, %rbx
	shlq	$7, %r13
	incq	%r12
	movq	%r15, %r10
	addq	%r12, %r10
	jne	.LBB0_55
	jmp	.LBB0_89
.LBB0_58:
	leaq	(%r11,%r15), %rdx
	incq	%rdx
	jmp	.LBB0_88
.LBB0_59:
	imulq	%r13, %r12
	movq	%rbx, %r13
	addq	%r12, %r13
	leaq	(%r11,%r15), %r10
	addq	$2, %r10
	cmpq	%r10, %rdx
	ja	.LBB0_10
	jmp	.LBB0_89
.LBB0_60:
	cmpq	%rdx, %r11
	jae	.LBB0_89
	movq	%rbx, -16(%rsp)
	movq	%r13, -32(%rsp)
	addq	$-128, %r10
	movq	%r10, %r15
	movq	%r14, %r10
	subq	%rdx, %r10
	incq	%r10
	movq	%r10, -56(%rsp)
	addq	%rsi, %r11
	movl	$128, %ebp
	xorl	%r13d, %r13d
.LBB0_62:
	movq	%r11, %r12
	movzbl	(%r11,%r13), %ebx
	xorl	%r10d, %r10d
	testq	%rbx, %rbx
	sete	%r10b
	xorl	%r11d, %r11d
	cmpq	$1, %rbx
	setne	%r11b
	cmpq	$8, %r13
	cmovel	%r11d, %r10d
	testb	%r10b, %r10b
	jne	.LBB0_72
	testb	%bl, %bl
	movq	%r15, %r10
	jns	.LBB0_73
	addq	$-128, %rbx
	imulq	%rbp, %rbx
	addq	%rbx, %r10
	movq	%r10, %r15
	shlq	$7, %rbp
	incq	%r13
	movq	-56(%rsp), %r10
	addq	%r13, %r10
	movq	%r12, %r11
	jne	.LBB0_62
	jmp	.LBB0_89
.LBB0_65:
	movq	-56(%rsp), %rax
	leaq	(%rax,%r12), %rdx
	incq	%rdx
	jmp	.LBB0_88
.LBB0_66:
	imulq	%rbp, %r13
	addq	%r13, %rbx
	movq	-56(%rsp), %r10
	leaq	(%r10,%r12), %r14
	addq	$2, %r14
	movq	-32(%rsp), %r13
	cmpq	%r14, %rdx
	ja	.LBB0_12
	jmp	.LBB0_89
.LBB0_67:
	movq	%r13, -32(%rsp)
	cmpq	%rdx, %r15
	jae	.LBB0_89
	movq	%r10, -24(%rsp)
	movq	%rbx, -16(%rsp)
	addq	$-128, %r14
	movq	%r11, -56(%rsp)
	movq	%r11, %r12
	subq	%rdx, %r12
	incq	%r12
	addq	%rsi, %r15
	movl	$128, %r13d
	xorl	%ebp, %ebp
.LBB0_69:
	movzbl	(%r15,%rbp), %ebx
	xorl	%r10d, %r10d
	testq	%rbx, %rbx
	sete	%r10b
	xorl	%r11d, %r11d
	cmpq	$1, %rbx
	setne	%r11b
	cmpq	$8, %rbp
	cmovel	%r11d, %r10d
	testb	%r10b, %r10b
	jne	.LBB0_79
	testb	%bl, %bl
	jns	.LBB0_80
	addq	$-128, %rbx
	imulq	%r13, %rbx
	addq	%rbx, %r14
	shlq	$7, %r13
	incq	%rbp
	movq	%r12, %r10
	addq	%rbp, %r10
	jne	.LBB0_69
	jmp	.LBB0_89
.LBB0_72:
	leaq	(%r14,%r13), %rdx
	incq	%rdx
	jmp	.LBB0_88
.LBB0_73:
	imulq	%rbx, %rbp
	addq	%rbp, %r10
	leaq	(%r14,%r13), %r11
	addq	$2, %r11
	movq	-32(%rsp), %r13
	movq	-16(%rsp), %rbx
	cmpq	%r11, %rdx
	ja	.LBB0_14
	jmp	.LBB0_89
.LBB0_74:
	movq	%r15, -64(%rsp)
	cmpq	%rdx, %r11
	jae	.LBB0_89
	movq	%r11, %r10
	addq	$-128, %r12
	movq	-64(%rsp), %r11
	subq	%rdx, %r11
	incq	%r11
	movq	%r11, -56(%rsp)
	addq	%rsi, %r10
	movl	$128, %r13d
	xorl	%ebp, %ebp
.LBB0_76:
	movq	%r10, %r15
	movzbl	(%r10,%rbp), %ebx
	xorl	%r10d, %r10d
	testq	%rbx, %rbx
	sete	%r10b
	xorl	%r11d, %r11d
	cmpq	$1, %rbx
	setne	%r11b
	cmpq	$8, %rbp
	cmovel	%r11d, %r10d
	testb	%r10b, %r10b
	jne	.LBB0_86
	testb	%bl, %bl
	jns	.LBB0_92
	addq	$-128, %rbx
	imulq	%r13, %rbx
	addq	%rbx, %r12
	shlq	$7, %r13
	incq	%rbp
	movq	-56(%rsp), %r10
	addq	%rbp, %r10
	movq	%r15, %r10
	jne	.LBB0_76
	jmp	.LBB0_89
.LBB0_79:
	movq	-56(%rsp), %rax
	jmp	.LBB0_87
.LBB0_80:
	imulq	%rbx, %r13
	addq	%r13, %r14
	movq	-56(%rsp), %r10
	leaq	(%r10,%rbp), %r15
	addq	$2, %r15
	movq	-32(%rsp), %r13
	movq	-16(%rsp), %rbx
	movq	-24(%rsp), %r10
	cmpq	%r15, %rdx
	ja	.LBB0_16
	jmp	.LBB0_89
.LBB0_81:
	movq	-64(%rsp), %r10
	incq	%r10
	cmpq	%rdx, %r10
	jae	.LBB0_89
	addq	$-128, %r13
	movq	-64(%rsp), %r10
	movq	%r10, %r11
	subq	%rdx, %r11
	incq	%r11
	movq	%r11, -56(%rsp)
	incq	%r10
	addq	%r10, %rsi
	movl	$128, %r15d
	xorl	%ebp, %ebp
.LBB0_83:
	movzbl	(%rsi,%rbp), %ebx
	xorl	%r10d, %r10d
	testq	%rbx, %rbx
	sete	%r10b
	xorl	%r11d, %r11d
	cmpq	$1, %rbx
	setne	%r11b
	cmpq	$8, %rbp
	cmovel	%r11d, %r10d
	testb	%r10b, %r10b
	jne	.LBB0_86
	testb	%bl, %bl
	jns	.LBB0_93
	addq	$-128, %rbx
	imulq	%r15, %rbx
	addq	%rbx, %r13
	shlq	$7, %r15
	incq	%rbp
	movq	-56(%rsp), %r10
	addq	%rbp, %r10
	jne	.LBB0_83
	jmp	.LBB0_89
.LBB0_86:
	movq	-64(%rsp), %rax
.LBB0_87:
	leaq	(%rax,%rbp), %rdx
	incq	%rdx
.LBB0_88:
	movl	$6, %r8d
.LBB0_89:
	movq	$1, (%rdi)
	movq	%r8, 8(%rdi)
	movq	%rdx, 16(%rdi)
.LBB0_90:
	vxorps	%xmm0, %xmm0, %xmm0
	vmovups	%ymm0, 24(%rdi)
	vmovups	%ymm0, 56(%rdi)
.LBB0_91:
	popq	%rbx
	popq	%r12
	popq	%r13
	popq	%r14
	popq	%r15
	popq	%rbp
	vzeroupper
	retq
.LBB0_92:
	imulq	%rbx, %r13
	addq	%r13, %r12
	movq	-64(%rsp), %r10
	leaq	(%r10,%rbp), %r11
	addq	$2, %r11
	cmpq	%r11, %rdx
	ja	.LBB0_18
	jmp	.LBB0_89
.LBB0_93:
	imulq	%rbx, %r15
	addq	%r15, %r13
	movq	-64(%rsp), %rsi
	addq	%rbp, %rsi
	addq	$2, %rsi
	movq	%rsi, -8(%rsp)
	movl	$8, %ebx
	movl	$1, %r11d
	cmpq	$2147352576, %rcx
	ja	.LBB0_20
.LBB0_94:
	testq	%r9, %r9
	setne	%sil
	leaq	-16(%r9), %r8
	cmpq	$-9, %r8
	setb	%r8b
	movq	$0, -56(%rsp)
	testb	%r8b, %sil
	jne	.LBB0_21
	cmpq	$32767, -16(%rsp)
	ja	.LBB0_21
	movq	$0, -56(%rsp)
	cmpq	$64, -24(%rsp)
	ja	.LBB0_21
	movq	-16(%rsp), %rsi
	leaq	6(,%rsi,8), %rsi
	cmpq	%rsi, -32(%rsp)
	jb	.LBB0_21
	movq	-24(%rsp), %rsi
	imulq	%rcx, %rsi
	addq	$7, %rsi
	shrq	$3, %rsi
	cmpb	$2, %al
	jae	.LBB0_106
	testq	%r12, %r12
	je	.LBB0_20
	movq	$0, -56(%rsp)
	cmpq	%rsi, %r13
	jne	.LBB0_21
	movl	%eax, %esi
	xorb	$1, %sil
	movabsq	$72340173107564823, %r8
	movq	-24(%rsp), %r10
	shrxq	%r10, %r8, %r8
	orb	%sil, %r8b
	testb	$1, %r8b
	je	.LBB0_21
.LBB0_102:
	movl	$9, %ebx
	subq	-8(%rsp), %rdx
	jb	.LBB0_20
	movq	$0, -56(%rsp)
	subq	-32(%rsp), %rdx
	jb	.LBB0_21
	movl	$0, %r10d
	movl	$0, %esi
	movq	%rsi, -64(%rsp)
	movl	$0, %esi
	movq	%rsi, -40(%rsp)
	movl	$0, %esi
	movq	%rsi, -48(%rsp)
	movl	$0, %esi
	movl	$0, %r8d
	movl	$0, %ebp
	movl	$0, %r15d
	cmpq	%r13, %rdx
	jne	.LBB0_22
	xorl	%r11d, %r11d
	movq	%rax, %rbx
	movq	%rcx, -56(%rsp)
	movq	%r9, %r10
	movq	-32(%rsp), %rax
	movq	%rax, -64(%rsp)
	movq	-16(%rsp), %rax
	movq	%rax, -40(%rsp)
	movq	-24(%rsp), %rax
	movq	%rax, -48(%rsp)
	movq	%r14, %rsi
	movq	%r12, %r8
	movq	%r13, %rbp
	movq	-8(%rsp), %r15
	jmp	.LBB0_22
.LBB0_106:
	movzbl	%al, %r8d
	cmpl	$2, %r8d
	jne	.LBB0_111
	cmpq	$0, -24(%rsp)
	jne	.LBB0_20
	movq	$0, -56(%rsp)
	testq	%r14, %r14
	jne	.LBB0_21
	testq	%r12, %r12
	je	.LBB0_21
	leaq	16383(%rcx), %rsi
	shrq	$14, %rsi
	leaq	(%rsi,%rsi,4), %rsi
	leaq	(%rsi,%rsi,4), %rsi
	cmpq	%r13, %rsi
	ja	.LBB0_20
	jmp	.LBB0_102
.LBB0_111:
	leaq	-257(%r12), %r8
	cmpq	$-255, %r8
	jb	.LBB0_20
	movq	$0, -56(%rsp)
	testq	%r14, %r14
	jne	.LBB0_21
	leaq	-1(%r12), %r8
	lzcntq	%r8, %r8
	movl	$64, %r10d
	subq	%r8, %r10
	cmpq	%r10, -24(%rsp)
	jne	.LBB0_21
	leaq	(%rsi,%r12,8), %rsi
	cmpq	%rsi, %r13
	jne	.LBB0_20
	jmp	.LBB0_102
.Lfunc_end0:
	.size	"column::Column::open", .Lfunc_end0-"column::Column::open"

	.section	".text.checking::accepts","ax",@progbits
	.p2align	4
	.type	"checking::accepts",@function
"checking::accepts":
	pushq	%rbp
	pushq	%r15
	pushq	%r14
	pushq	%r13
	pushq	%r12
	pushq	%rbx
	subq	$2456, %rsp
	movq	%rdx, %r14
	movq	%rsi, %r15
	movzbl	(%rdx), %eax
	movl	%eax, 16(%rsp)
	movq	8(%rdx), %r13
	movq	16(%rdx), %r8
	movq	24(%rdx), %rbx
	movq	32(%rdx), %r9
	movq	72(%rdx), %r12
	movq	%rdi, 24(%rsp)
	leaq	(%rdi,%r12), %rsi
	vxorps	%xmm0, %xmm0, %xmm0
	vmovaps	%xmm0, 400(%rsp)
	movq	$0, 416(%rsp)
	leaq	400(%rsp), %rdi
	xorl	%ebp, %ebp
	movq	%rbx, %rdx
	xorl	%ecx, %ecx
	callq	"section_check::judge"
	cmpb	$0, 400(%rsp)
	jne	.LBB1_4
	movq	%r13, 8(%rsp)
	cmpq	%r13, 408(%rsp)
	jne	.LBB1_4
	addq	%rbx, %r12
	movq	24(%rsp), %rax
	leaq	(%rax,%r12), %r13
	movq	%r15, %rsi
	subq	%r12, %rsi
	movq	56(%r14), %rax
	movq	%rax, 80(%rsp)
	vmovups	40(%r14), %xmm0
	vmovaps	%xmm0, 64(%rsp)
	movl	16(%rsp), %edx
	cmpl	$2, %edx
	jae	.LBB1_5
	leaq	64(%rsp), %r8
	movq	%r13, %rdi
	movq	8(%rsp), %rcx
	callq	"scaled_check::values_ok"
	movl	%eax, %ebp
	jmp	.LBB1_4
.LBB1_5:
	jne	.LBB1_60
	movq	80(%rsp), %r10
	movq	8(%rsp), %r12
	movq	%r12, %rax
	shrq	$14, %rax
	movl	%r12d, %r14d
	andl	$16383, %r14d
	addl	$16383, %r14d
	shrl	$14, %r14d
	addq	%rax, %r14
	leaq	(%r14,%r14,4), %rax
	leaq	(%rax,%rax,4), %rax
	subq	%rax, %rsi
	movq	%rsi, 40(%rsp)
	testq	%r14, %r14
	je	.LBB1_70
	addq	%r13, %rax
	movq	%rax, 104(%rsp)
	xorl	%edi, %edi
	xorl	%r8d, %r8d
	xorl	%r15d, %r15d
	xorl	%ebx, %ebx
	movq	%r13, 96(%rsp)
	movq	%r10, 88(%rsp)
	movq	%r14, 32(%rsp)
	jmp	.LBB1_9
	.p2align	4
.LBB1_8:
	addq	%rsi, %rdi
	incq	%r8
	cmpq	%r14, %r8
	je	.LBB1_71
.LBB1_9:
	leaq	(%r8,%r8,4), %rax
	movq	%r8, %rsi
	shlq	$14, %rsi
	movq	%r12, %rcx
	subq	%rsi, %rcx
	cmpq	$16384, %rcx
	movl	$16384, %r9d
	cmovbq	%rcx, %r9
	leaq	(%rax,%rax,4), %rdx
	xorl	%ebp, %ebp
	cmpq	%rdi, 16(%r13,%rdx)
	jne	.LBB1_4
	movq	%r8, 120(%rsp)
	movq	%rdi, 48(%rsp)
	movzbl	24(%r13,%rdx), %eax
	cmpb	$64, %al
	ja	.LBB1_4
	movq	%r10, %r12
	movzbl	%al, %eax
	movq	%r9, %rdi
	movq	%rax, 24(%rsp)
	imulq	%rax, %rdi
	leaq	7(%rdi), %r10
	movq	%r10, %rax
	shrq	$3, %rax
	movq	40(%rsp), %rcx
	movq	48(%rsp), %r11
	subq	%r11, %rcx
	cmpq	%rax, %rcx
	jb	.LBB1_85
	movq	%r13, %r14
	movq	(%r14,%rdx), %rcx
	movabsq	$-9223372036854775808, %r8
	xorq	%r8, %rcx
	movq	8(%r14,%rdx), %rdx
	xorq	%r8, %rdx
	movq	%rdx, 128(%rsp)
	movq	104(%rsp), %rdx
	addq	%rdx, %r11
	testq	%rax, %rax
	movq	%rax, %r8
	je	.LBB1_14
	andl	$248, %r10d
	subl	%edi, %r10d
	movzbl	-1(%r11,%r8), %edx
	bzhil	%r10d, %edx, %eax
	jne	.LBB1_85
.LBB1_14:
	movq	%r11, 56(%rsp)
	movq	24(%rsp), %rdi
	testq	%rdi, %rdi
	movq	%r8, 112(%rsp)
	je	.LBB1_17
	movabsq	$-4294967296, %rdx
	leaq	(%r15,%rdx), %rax
	addq	$2, %rdx
	movq	%rdx, 136(%rsp)
	cmpq	%rdx, %rax
	jae	.LBB1_18
	movq	$0, 16(%rsp)
	jmp	.LBB1_19
.LBB1_17:
	xorl	%r11d, %r11d
	movq	%r12, %r10
	movq	8(%rsp), %r12
	movq	%r14, %r13
	movq	32(%rsp), %r14
	jmp	.LBB1_46
.LBB1_18:
	movabsq	$4294967296, %rax
	xorl	%edx, %edx
	divq	%r15
	incq	%rax
	movq	%rax, 16(%rsp)
.LBB1_19:
	cmpq	%rsi, 8(%rsp)
	je	.LBB1_85
	movl	$64, %r8d
	subq	%rdi, %r8
	movq	$-1, %r13
	xorl	%eax, %eax
	xorl	%r14d, %r14d
	xorl	%edi, %edi
	xorl	%r11d, %r11d
	movq	56(%rsp), %rsi
	jmp	.LBB1_24
	.p2align	4
.LBB1_21:
	movabsq	$4294967296, %rax
	xorl	%edx, %edx
	divq	%r10
	incq	%rax
	movq	%rax, 16(%rsp)
.LBB1_22:
	movq	%r10, %r15
.LBB1_23:
	movq	%r12, %rax
	shrq	$3, %rax
	addq	%rax, %rdi
	andl	$7, %r12d
	incq	%r14
	movq	%r12, %rax
	cmpq	%r9, %r14
	je	.LBB1_45
.LBB1_24:
	movq	%r9, %rdx
	subq	%r14, %rdx
	movq	24(%rsp), %r10
	leaq	(%rax,%r10), %r12
	cmpq	$64, %rdx
	jb	.LBB1_27
	cmpq	$64, %r12
	ja	.LBB1_27
	movbeq	(%rsi,%rdi), %rdx
	shlxq	%rax, %rdx, %rax
	jmp	.LBB1_35
	.p2align	4
.LBB1_27:
	movq	%r15, %rbp
	movq	%r8, %r15
	leaq	7(%r12), %rdx
	shrq	$3, %rdx
	leaq	(%rsi,%rdi), %r8
	cmpb	$8, %r10b
	ja	.LBB1_29
	movzbl	(%r8), %esi
	movzbl	-1(%r8,%rdx), %r10d
	movq	$-1, %r8
	jmp	.LBB1_34
	.p2align	4
.LBB1_29:
	cmpb	$24, %r10b
	ja	.LBB1_31
	movzwl	(%r8), %esi
	movzwl	-2(%r8,%rdx), %r10d
	movq	$-2, %r8
	jmp	.LBB1_34
.LBB1_31:
	cmpb	$56, %r10b
	ja	.LBB1_33
	movl	(%r8), %esi
	movl	-4(%r8,%rdx), %r10d
	movq	$-4, %r8
	jmp	.LBB1_34
.LBB1_33:
	movq	(%r8), %rsi
	movq	-8(%r8,%rdx), %r10
	movq	$-8, %r8
	.p2align	4
.LBB1_34:
	bswapq	%rsi
	shlxq	%rax, %rsi, %rsi
	bswapq	%r10
	addl	%edx, %r8d
	shll	$3, %r8d
	subl	%eax, %r8d
	shrxq	%r8, %r10, %rax
	orq	%rsi, %rax
	movq	56(%rsp), %rsi
	movq	%r15, %r8
	movq	%rbp, %r15
.LBB1_35:
	shrxq	%r8, %rax, %rax
	cmpq	%r13, %rax
	cmovbq	%rax, %r13
	cmpq	%r11, %rax
	cmovaq	%rax, %r11
	movl	$1, %r10d
	cmpq	$1, %r15
	je	.LBB1_42
	movq	%rax, %rdx
	shrq	$32, %rdx
	jne	.LBB1_38
	movq	%rax, %rdx
	imulq	16(%rsp), %rdx
	shrq	$32, %rdx
	imulq	%r15, %rdx
	cmpq	%rax, %rdx
	je	.LBB1_23
.LBB1_38:
	movq	%r15, %rdx
	movq	%rax, %r10
	testq	%r15, %r15
	jne	.LBB1_40
	jmp	.LBB1_42
	.p2align	4
.LBB1_41:
	xorl	%edx, %edx
	divl	%r10d
	movq	%r10, %rax
	testq	%rdx, %rdx
	je	.LBB1_42
.LBB1_40:
	movq	%rdx, %r10
	movq	%rax, %rdx
	orq	%r10, %rdx
	shrq	$32, %rdx
	je	.LBB1_41
	xorl	%edx, %edx
	divq	%r10
	movq	%r10, %rax
	testq	%rdx, %rdx
	jne	.LBB1_40
	.p2align	4
.LBB1_42:
	cmpq	%r15, %r10
	je	.LBB1_23
	movabsq	$-4294967296, %rax
	addq	%r10, %rax
	cmpq	136(%rsp), %rax
	jae	.LBB1_21
	movq	$0, 16(%rsp)
	jmp	.LBB1_22
.LBB1_45:
	testq	%r13, %r13
	movq	8(%rsp), %r12
	movq	96(%rsp), %r13
	movq	88(%rsp), %r10
	movq	32(%rsp), %r14
	jne	.LBB1_85
.LBB1_46:
	movq	24(%rsp), %rdx
	testq	%rdx, %rdx
	setne	%al
	decl	%edx
	shrxq	%rdx, %r11, %rdx
	testq	%rdx, %rdx
	sete	%dl
	xorl	%ebp, %ebp
	testb	%dl, %al
	jne	.LBB1_4
	movq	128(%rsp), %rsi
	subq	%rcx, %rsi
	jb	.LBB1_4
	cmpq	$2, %r10
	jb	.LBB1_52
	movq	%r11, %rax
	orq	%r10, %rax
	shrq	$32, %rax
	je	.LBB1_52
	movq	%rsi, %rax
	orq	%r10, %rax
	shrq	$32, %rax
	je	.LBB1_53
	movq	%rsi, %rax
	xorl	%edx, %edx
	divq	%r10
	cmpq	%rax, %r11
	jbe	.LBB1_54
	jmp	.LBB1_85
.LBB1_52:
	imulq	%r10, %r11
	cmpq	%rsi, %r11
	jbe	.LBB1_55
	jmp	.LBB1_85
.LBB1_53:
	movl	%esi, %eax
	xorl	%edx, %edx
	divl	%r10d
	cmpq	%rax, %r11
	ja	.LBB1_85
.LBB1_54:
	imulq	%r10, %r11
.LBB1_55:
	cmpq	%rsi, %r11
	jne	.LBB1_85
	movq	(%r13), %rax
	movabsq	$-9223372036854775808, %rdx
	xorq	%rdx, %rax
	movq	%rax, %rdx
	subq	%rcx, %rdx
	subq	%rax, %rcx
	cmovbq	%rdx, %rcx
	testq	%rcx, %rcx
	movq	48(%rsp), %rdi
	movq	120(%rsp), %r8
	movq	112(%rsp), %rsi
	jne	.LBB1_58
	jmp	.LBB1_8
	.p2align	4
.LBB1_59:
	movl	%ebx, %eax
	xorl	%edx, %edx
	divl	%ecx
	movq	%rcx, %rbx
	movq	%rdx, %rcx
	testq	%rdx, %rdx
	je	.LBB1_8
.LBB1_58:
	movq	%rbx, %rax
	orq	%rcx, %rax
	shrq	$32, %rax
	je	.LBB1_59
	movq	%rbx, %rax
	xorl	%edx, %edx
	divq	%rcx
	movq	%rcx, %rbx
	movq	%rdx, %rcx
	testq	%rdx, %rdx
	jne	.LBB1_58
	jmp	.LBB1_8
.LBB1_60:
	movq	%r15, %rbp
	movq	%rsi, %r14
	movq	64(%rsp), %rbx
	movq	80(%rsp), %r15
	leaq	400(%rsp), %rdi
	movl	$2048, %edx
	xorl	%esi, %esi
	callq	memset@PLT
	testq	%r15, %r15
	je	.LBB1_65
	leaq	(,%r15,8), %rdx
	leaq	400(%rsp), %rdi
	movq	%r13, %rsi
	callq	memcpy@PLT
	cmpq	$1, %r15
	je	.LBB1_65
	movl	$1, %eax
	.p2align	4
.LBB1_63:
	movq	392(%rsp,%rax,8), %rcx
	cmpq	400(%rsp,%rax,8), %rcx
	jge	.LBB1_85
	incq	%rax
	cmpq	%rax, %r15
	jne	.LBB1_63
.LBB1_65:
	leaq	400(%rsp), %rdi
	movq	%r15, %rsi
	movq	8(%rsp), %rdx
	callq	"table_values::saves"
	testb	%al, %al
	je	.LBB1_85
	leaq	(,%r15,8), %rax
	cmpq	%rax, %r14
	je	.LBB1_75
	subl	%eax, %r14d
	shll	$3, %r14d
	movl	%ebx, %eax
	imull	8(%rsp), %eax
	subl	%eax, %r14d
	movq	24(%rsp), %rax
	movzbl	-1(%rax,%rbp), %eax
	bzhil	%r14d, %eax, %eax
	jne	.LBB1_85
.LBB1_75:
	vxorps	%xmm0, %xmm0, %xmm0
	vmovups	%ymm0, 368(%rsp)
	vmovups	%ymm0, 336(%rsp)
	vmovups	%ymm0, 304(%rsp)
	vmovups	%ymm0, 272(%rsp)
	vmovups	%ymm0, 240(%rsp)
	vmovups	%ymm0, 208(%rsp)
	vmovups	%ymm0, 176(%rsp)
	vmovups	%ymm0, 144(%rsp)
	movq	8(%rsp), %r14
	testq	%r14, %r14
	je	.LBB1_113
	testq	%rbx, %rbx
	je	.LBB1_97
	leaq	(,%r15,8), %rax
	addq	%r13, %rax
	movl	$64, %ecx
	subq	%rbx, %rcx
	xorl	%edi, %edi
	xorl	%edx, %edx
	cmpq	$8, %rbx
	ja	.LBB1_99
.LBB1_78:
	leaq	(%rdi,%rbx), %rsi
	cmpq	$63, %r14
	jbe	.LBB1_80
	movbeq	(%rax,%rdx), %r8
	shlxq	%rdi, %r8, %rdi
	jmp	.LBB1_81
.LBB1_80:
	leaq	7(%rsi), %r8
	movq	%r8, %r9
	shrq	$3, %r9
	leaq	(%rax,%rdx), %r10
	movzbl	(%rax,%rdx), %r11d
	movzbl	-1(%r9,%r10), %r9d
	shlq	$56, %r11
	shlxq	%rdi, %r11, %r10
	shlq	$56, %r9
	andl	$56, %r8d
	subl	%edi, %r8d
	addb	$56, %r8b
	shrxq	%r8, %r9, %rdi
	orq	%r10, %rdi
.LBB1_81:
	shrxq	%rcx, %rdi, %rdi
	cmpq	%rdi, %r15
	jbe	.LBB1_85
	movb	$1, 144(%rsp,%rdi)
	movq	%rsi, %rdi
	shrq	$3, %rdi
	addq	%rdi, %rdx
	andl	$7, %esi
	movq	%rsi, %rdi
	decq	%r14
	jne	.LBB1_78
	jmp	.LBB1_113
.LBB1_70:
	xorl	%ebx, %ebx
	xorl	%r15d, %r15d
	xorl	%edi, %edi
.LBB1_71:
	cmpq	40(%rsp), %rdi
	jne	.LBB1_85
	testq	%r10, %r10
	je	.LBB1_126
	movq	%rbx, %rax
	orq	%r10, %rax
	shrq	$32, %rax
	je	.LBB1_86
	movq	%rbx, %rax
	xorl	%edx, %edx
	divq	%r10
	jmp	.LBB1_87
.LBB1_86:
	movl	%ebx, %eax
	xorl	%edx, %edx
	divl	%r10d
.LBB1_87:
	testq	%rdx, %rdx
	je	.LBB1_89
.LBB1_85:
	xorl	%ebp, %ebp
.LBB1_4:
	movl	%ebp, %eax
	addq	$2456, %rsp
	popq	%rbx
	popq	%r12
	popq	%r13
	popq	%r14
	popq	%r15
	popq	%rbp
	vzeroupper
	retq
.LBB1_89:
	testq	%r15, %r15
	jne	.LBB1_91
	jmp	.LBB1_93
.LBB1_92:
	xorl	%edx, %edx
	divl	%r15d
	movq	%r15, %rax
	movq	%rdx, %r15
	testq	%rdx, %rdx
	je	.LBB1_93
.LBB1_91:
	movq	%rax, %rcx
	orq	%r15, %rcx
	shrq	$32, %rcx
	je	.LBB1_92
	xorl	%edx, %edx
	divq	%r15
	movq	%r15, %rax
	movq	%rdx, %r15
	testq	%rdx, %rdx
	jne	.LBB1_91
.LBB1_93:
	testq	%rax, %rax
	je	.LBB1_122
	movb	$1, %bpl
	cmpq	$1, %rax
	je	.LBB1_4
	jmp	.LBB1_85
.LBB1_97:
	testq	%r15, %r15
	je	.LBB1_85
	movb	$1, 144(%rsp)
	jmp	.LBB1_113
.LBB1_99:
	cmpq	$25, %rbx
	jae	.LBB1_105
.LBB1_100:
	cmpq	$64, %r14
	setae	%r8b
	leaq	(%rdi,%rbx), %rsi
	cmpq	$65, %rsi
	setb	%r9b
	testb	%r9b, %r8b
	je	.LBB1_102
	movbeq	(%rax,%rdx), %r8
	shlxq	%rdi, %r8, %rdi
	jmp	.LBB1_103
.LBB1_102:
	leaq	7(%rsi), %r8
	movq	%r8, %r9
	shrq	$3, %r9
	leaq	(%rax,%rdx), %r10
	movzwl	(%rax,%rdx), %r11d
	movzwl	-2(%r9,%r10), %r9d
	bswapq	%r11
	shlxq	%rdi, %r11, %r10
	bswapq	%r9
	andl	$56, %r8d
	subl	%edi, %r8d
	addb	$48, %r8b
	shrxq	%r8, %r9, %rdi
	orq	%r10, %rdi
.LBB1_103:
	shrxq	%rcx, %rdi, %rdi
	cmpq	%rdi, %r15
	jbe	.LBB1_85
	movb	$1, 144(%rsp,%rdi)
	movq	%rsi, %rdi
	shrq	$3, %rdi
	addq	%rdi, %rdx
	andl	$7, %esi
	movq	%rsi, %rdi
	decq	%r14
	jne	.LBB1_100
	jmp	.LBB1_113
.LBB1_105:
	cmpq	$64, %r14
	setb	%r8b
	leaq	(%rdi,%rbx), %rsi
	cmpq	$65, %rsi
	setae	%r9b
	orb	%r8b, %r9b
	jne	.LBB1_107
	movbeq	(%rax,%rdx), %r8
	shlxq	%rdi, %r8, %rdi
	jmp	.LBB1_111
.LBB1_107:
	leaq	7(%rsi), %r8
	shrq	$3, %r8
	leaq	(%rax,%rdx), %r9
	cmpq	$56, %rbx
	ja	.LBB1_109
	movl	(%r9), %r11d
	movl	-4(%r9,%r8), %r9d
	movq	$-4, %r10
	jmp	.LBB1_110
.LBB1_109:
	movq	(%r9), %r11
	movq	-8(%r9,%r8), %r9
	movq	$-8, %r10
.LBB1_110:
	bswapq	%r11
	shlxq	%rdi, %r11, %r11
	bswapq	%r9
	addl	%r8d, %r10d
	shll	$3, %r10d
	subl	%edi, %r10d
	shrxq	%r10, %r9, %rdi
	orq	%r11, %rdi
.LBB1_111:
	shrxq	%rcx, %rdi, %rdi
	cmpq	%rdi, %r15
	jbe	.LBB1_85
	movb	$1, 144(%rsp,%rdi)
	movq	%rsi, %rdi
	shrq	$3, %rdi
	addq	%rdi, %rdx
	andl	$7, %esi
	movq	%rsi, %rdi
	decq	%r14
	jne	.LBB1_105
.LBB1_113:
	xorl	%eax, %eax
	.p2align	4
.LBB1_114:
	cmpq	%rax, %r15
	sete	%bpl
	je	.LBB1_4
	cmpb	$0, 144(%rsp,%rax)
	leaq	1(%rax), %rax
	jne	.LBB1_114
	jmp	.LBB1_4
.LBB1_122:
	cmpq	$1, %r10
	sete	%bpl
	jmp	.LBB1_4
.LBB1_126:
	ud2
.Lfunc_end1:
	.size	"checking::accepts", .Lfunc_end1-"checking::accepts"

	.section	.rodata.cst16,"aM",@progbits,16
	.p2align	4, 0x0
.LCPI2_0:
	.zero	16,1
.LCPI2_1:
	.zero	2
	.short	65535
	.short	65535
	.short	65535
	.short	65535
	.short	65535
	.short	65535
	.short	65535
.LCPI2_2:
	.quad	281479271743489
	.quad	281479271743489
.LCPI2_4:
	.byte	1
	.byte	0
	.byte	3
	.byte	2
	.byte	5
	.byte	4
	.byte	7
	.byte	6
	.byte	9
	.byte	8
	.byte	11
	.byte	10
	.byte	13
	.byte	12
	.byte	15
	.byte	14
.LCPI2_10:
	.byte	0
	.byte	1
	.byte	1
	.byte	2
	.byte	1
	.byte	2
	.byte	2
	.byte	3
	.byte	1
	.byte	2
	.byte	2
	.byte	3
	.byte	2
	.byte	3
	.byte	3
	.byte	4
	.section	.rodata.cst32,"aM",@progbits,32
	.p2align	5, 0x0
.LCPI2_3:
	.byte	1
	.byte	0
	.byte	3
	.byte	2
	.byte	5
	.byte	4
	.byte	7
	.byte	6
	.byte	9
	.byte	8
	.byte	11
	.byte	10
	.byte	13
	.byte	12
	.byte	15
	.byte	14
	.byte	1
	.byte	0
	.byte	3
	.byte	2
	.byte	5
	.byte	4
	.byte	7
	.byte	6
	.byte	9
	.byte	8
	.byte	11
	.byte	10
	.byte	13
	.byte	12
	.byte	15
	.byte	14
.LCPI2_5:
	.zero	32,15
.LCPI2_6:
	.byte	0
	.byte	1
	.byte	1
	.byte	2
	.byte	1
	.byte	2
	.byte	2
	.byte	3
	.byte	1
	.byte	2
	.byte	2
	.byte	3
	.byte	2
	.byte	3
	.byte	3
	.byte	4
	.byte	0
	.byte	1
	.byte	1
	.byte	2
	.byte	1
	.byte	2
	.byte	2
	.byte	3
	.byte	1
	.byte	2
	.byte	2
	.byte	3
	.byte	2
	.byte	3
	.byte	3
	.byte	4
	.section	.rodata.cst4,"aM",@progbits,4
	.p2align	2, 0x0
.LCPI2_7:
	.zero	4,1
.LCPI2_8:
	.zero	4,255
.LCPI2_9:
	.zero	4,15
	.section	".text.section_check::judge","ax",@progbits
	.p2align	4
	.type	"section_check::judge",@function
"section_check::judge":
	pushq	%rbp
	pushq	%r15
	pushq	%r14
	pushq	%r13
	pushq	%r12
	pushq	%rbx
	subq	$88, %rsp
	movq	%rdi, %r13
	cmpq	$4, %rdx
	jb	.LBB2_108
	movq	%r9, -48(%rsp)
	movl	%ecx, -116(%rsp)
	movl	$17, %ecx
	subq	%r8, %rcx
	movl	$1, %eax
	movq	%rcx, 40(%rsp)
	shlxq	%rcx, %rax, %r9
	leaq	8192(%r9), %rcx
	testq	%r8, %r8
	movl	$8192, %edi
	cmovneq	%rcx, %rdi
	movq	%rdi, -88(%rsp)
	movq	%r9, %rdi
	shrq	%rdi
	leal	-6(%r8), %ecx
	shlxq	%rcx, %rax, %rcx
	movq	%r8, 56(%rsp)
	addq	$-8, %r8
	movl	$4, %eax
	movq	%r8, -40(%rsp)
	shlxq	%r8, %rax, %rax
	movabsq	$9223372036854775744, %r8
	leaq	62(%r8), %r10
	andq	%rdi, %r10
	movq	%r10, 72(%rsp)
	movq	%rax, %r14
	andq	$-16, %r14
	movq	%rdi, %r10
	andq	$-64, %r10
	movq	%r10, 16(%rsp)
	orq	$56, %r8
	movq	%rdi, -128(%rsp)
	andq	%rdi, %r8
	movq	%r8, 24(%rsp)
	leaq	(,%rcx,8), %rdi
	movq	%rdi, -24(%rsp)
	leaq	(%rcx,%rcx), %rdi
	movq	%rdi, 64(%rsp)
	leaq	(%r9,%rcx,8), %rdi
	movq	%rdi, 8(%rsp)
	shlq	$4, %rcx
	movq	%rcx, 32(%rsp)
	movq	%rax, -32(%rsp)
	andl	$12, %eax
	movq	%rax, 80(%rsp)
	leaq	(%r9,%r14,8), %rax
	addq	%rsi, %rax
	addq	$4, %rax
	movq	%rax, (%rsp)
	leaq	-4(%rdx), %rax
	movq	%rax, -96(%rsp)
	leaq	(%rsi,%r9), %rax
	movq	%rax, 48(%rsp)
	movq	%r9, -56(%rsp)
	leaq	(%rsi,%r9), %rax
	addq	$100, %rax
	movq	%rax, -8(%rsp)
	xorl	%ebp, %ebp
	xorl	%eax, %eax
	xorl	%ecx, %ecx
	movq	%rdx, -104(%rsp)
	movq	%r14, -80(%rsp)
.LBB2_2:
	testb	$1, -116(%rsp)
	je	.LBB2_27
	jmp	.LBB2_5
	.p2align	4
.LBB2_3:
	testb	%bpl, %bpl
	movq	-104(%rsp), %rdx
	je	.LBB2_112
.LBB2_4:
	addq	%r11, %rcx
	addq	$4, %rcx
	addq	%r10, %rax
	leaq	1(%r9), %rbp
	movq	%rdx, %rdi
	subq	%rcx, %rdi
	cmpq	$3, %rdi
	jbe	.LBB2_109
.LBB2_5:
	movzwl	(%rsi,%rcx), %r10d
	cmpl	$65407, %r10d
	je	.LBB2_110
	leaq	(%rsi,%rcx), %rdi
	rolw	$8, %r10w
	movzwl	%r10w, %r9d
	movzwl	2(%rdi), %r14d
	movl	%r14d, %r12d
	rolw	$8, %r12w
	movzwl	%r12w, %r8d
	cmpl	$4094, %r8d
	ja	.LBB2_47
	leaq	1(%r8), %r10
	movq	-96(%rsp), %rbx
	subq	%rcx, %rbx
	leal	(%r10,%r10), %r11d
	cmpq	%r11, %rbx
	jb	.LBB2_109
	movl	$1, %ebx
	cmpl	$32765, %r9d
	ja	.LBB2_113
	cmpq	%r9, %rbp
	ja	.LBB2_113
	testw	%r14w, %r14w
	je	.LBB2_4
	cmpw	$8, %r12w
	jae	.LBB2_13
	movl	$1, %r15d
	movb	$1, %bpl
	jmp	.LBB2_22
	.p2align	4
.LBB2_13:
	cmpw	$64, %r12w
	jae	.LBB2_15
	movb	$1, %bpl
	xorl	%ebx, %ebx
	jmp	.LBB2_19
.LBB2_15:
	movl	%r8d, %ebx
	andl	$4032, %ebx
	leaq	102(%rsi), %rdx
	leaq	(%rdx,%rcx), %r15
	leal	(%r8,%r8), %r12d
	andl	$8064, %r12d
	vpbroadcastd	.LCPI2_7(%rip), %xmm0
	xorl	%ebp, %ebp
	vmovdqa	%xmm0, %xmm1
	vmovdqa	%xmm0, %xmm2
	vmovdqa	%xmm0, %xmm3
	.p2align	4
.LBB2_16:
	vmovdqu	-98(%r15,%rbp), %ymm4
	vmovdqu	-96(%r15,%rbp), %ymm5
	vmovdqu	-66(%r15,%rbp), %ymm6
	vmovdqu	-64(%r15,%rbp), %ymm7
	vbroadcasti128	.LCPI2_4(%rip), %ymm8
	vpshufb	%ymm8, %ymm5, %ymm5
	vpshufb	%ymm8, %ymm7, %ymm7
	vmovdqu	-32(%r15,%rbp), %ymm9
	vpshufb	%ymm8, %ymm9, %ymm9
	vmovdqu	(%r15,%rbp), %ymm10
	vpshufb	%ymm8, %ymm10, %ymm10
	vpshufb	%ymm8, %ymm4, %ymm4
	vpshufb	%ymm8, %ymm6, %ymm6
	vmovdqu	-34(%r15,%rbp), %ymm11
	vpshufb	%ymm8, %ymm11, %ymm11
	vmovdqu	-2(%r15,%rbp), %ymm12
	vpshufb	%ymm8, %ymm12, %ymm8
	vpmaxuw	%ymm5, %ymm4, %ymm5
	vpcmpeqw	%ymm5, %ymm4, %ymm4
	vpcmpeqd	%ymm5, %ymm5, %ymm5
	vpxor	%ymm5, %ymm4, %ymm4
	vextracti128	$1, %ymm4, %xmm12
	vpacksswb	%xmm12, %xmm4, %xmm4
	vpand	%xmm4, %xmm0, %xmm0
	vpmaxuw	%ymm7, %ymm6, %ymm4
	vpcmpeqw	%ymm4, %ymm6, %ymm4
	vpxor	%ymm5, %ymm4, %ymm4
	vextracti128	$1, %ymm4, %xmm6
	vpacksswb	%xmm6, %xmm4, %xmm4
	vpand	%xmm4, %xmm1, %xmm1
	vpmaxuw	%ymm9, %ymm11, %ymm4
	vpcmpeqw	%ymm4, %ymm11, %ymm4
	vpxor	%ymm5, %ymm4, %ymm4
	vextracti128	$1, %ymm4, %xmm6
	vpacksswb	%xmm6, %xmm4, %xmm4
	vpand	%xmm4, %xmm2, %xmm2
	vpmaxuw	%ymm10, %ymm8, %ymm4
	vpcmpeqw	%ymm4, %ymm8, %ymm4
	vpxor	%ymm5, %ymm4, %ymm4
	vextracti128	$1, %ymm4, %xmm5
	vpacksswb	%xmm5, %xmm4, %xmm4
	vpand	%xmm4, %xmm3, %xmm3
	subq	$-128, %rbp
	cmpq	%rbp, %r12
	jne	.LBB2_16
	vpand	%xmm0, %xmm1, %xmm0
	vpand	%xmm0, %xmm2, %xmm0
	vpand	%xmm0, %xmm3, %xmm0
	vpsllw	$7, %xmm0, %xmm0
	vpmovmskb	%xmm0, %ebp
	cmpl	$65535, %ebp
	sete	%bpl
	cmpl	%r8d, %ebx
	je	.LBB2_3
	testb	$56, %r8b
	je	.LBB2_24
.LBB2_19:
	movl	%r8d, %r12d
	andl	$4088, %r12d
	leaq	1(%r12), %r15
	movzbl	%bpl, %ebp
	vpbroadcastd	.LCPI2_8(%rip), %xmm0
	vpinsrw	$0, %ebp, %xmm0, %xmm0
	leaq	6(%rsi), %rdx
	leaq	(%rdx,%rcx), %r14
	.p2align	4
.LBB2_20:
	vmovdqu	-2(%r14,%rbx,2), %xmm1
	vmovdqu	(%r14,%rbx,2), %xmm2
	vmovdqa	.LCPI2_4(%rip), %xmm3
	vpshufb	%xmm3, %xmm2, %xmm2
	vpshufb	%xmm3, %xmm1, %xmm1
	vpmaxuw	%xmm2, %xmm1, %xmm2
	vpcmpeqw	%xmm2, %xmm1, %xmm1
	vpandn	%xmm0, %xmm1, %xmm0
	addq	$8, %rbx
	cmpq	%rbx, %r12
	jne	.LBB2_20
	vptest	.LCPI2_2(%rip), %xmm0
	setb	%bpl
	cmpl	%r8d, %r12d
	je	.LBB2_3
.LBB2_22:
	addq	$4, %rdi
	.p2align	4
.LBB2_23:
	movzwl	-2(%rdi,%r15,2), %r8d
	movzwl	(%rdi,%r15,2), %ebx
	rolw	$8, %bx
	rolw	$8, %r8w
	cmpw	%bx, %r8w
	setb	%r8b
	andb	%r8b, %bpl
	incq	%r15
	cmpq	%r15, %r10
	jne	.LBB2_23
	jmp	.LBB2_3
.LBB2_24:
	orq	$1, %rbx
	movq	%rbx, %r15
	jmp	.LBB2_22
	.p2align	4
.LBB2_25:
	testb	%bl, %bl
	movq	-104(%rsp), %rdx
	je	.LBB2_112
.LBB2_26:
	addq	%r10, %rcx
	addq	$4, %rcx
	addq	%rdi, %rax
	incq	%r9
	movq	%rdx, %rdi
	subq	%rcx, %rdi
	movq	%r9, %rbp
	cmpq	$3, %rdi
	jbe	.LBB2_109
.LBB2_27:
	movzwl	(%rsi,%rcx), %r9d
	cmpq	$32767, %r9
	je	.LBB2_110
	leaq	(%rsi,%rcx), %r8
	movzwl	2(%r8), %r12d
	cmpq	$4094, %r12
	ja	.LBB2_57
	leaq	1(%r12), %rdi
	movq	-96(%rsp), %r11
	subq	%rcx, %r11
	leal	(%rdi,%rdi), %r10d
	cmpq	%r10, %r11
	jb	.LBB2_109
	movzwl	%r9w, %r11d
	movl	$1, %ebx
	cmpl	$32765, %r11d
	ja	.LBB2_113
	cmpq	%r9, %rbp
	ja	.LBB2_113
	testw	%r12w, %r12w
	je	.LBB2_26
	cmpw	$8, %r12w
	jae	.LBB2_35
	movl	$1, %r15d
	movb	$1, %bl
	jmp	.LBB2_44
	.p2align	4
.LBB2_35:
	cmpw	$64, %r12w
	jae	.LBB2_37
	movb	$1, %bl
	xorl	%r11d, %r11d
	jmp	.LBB2_41
.LBB2_37:
	movl	%r12d, %r11d
	andl	$4032, %r11d
	leaq	102(%rsi), %rdx
	leaq	(%rdx,%rcx), %rbx
	leal	(%r12,%r12), %r15d
	andl	$8064, %r15d
	vpbroadcastd	.LCPI2_7(%rip), %xmm0
	xorl	%ebp, %ebp
	vmovdqa	%xmm0, %xmm1
	vmovdqa	%xmm0, %xmm2
	vmovdqa	%xmm0, %xmm3
	.p2align	4
.LBB2_38:
	vmovdqu	-98(%rbx,%rbp), %ymm4
	vmovdqu	-66(%rbx,%rbp), %ymm5
	vmovdqu	-34(%rbx,%rbp), %ymm6
	vmovdqu	-2(%rbx,%rbp), %ymm7
	vpmaxuw	-96(%rbx,%rbp), %ymm4, %ymm8
	vpcmpeqw	%ymm4, %ymm8, %ymm4
	vpcmpeqd	%ymm8, %ymm8, %ymm8
	vpxor	%ymm4, %ymm8, %ymm4
	vextracti128	$1, %ymm4, %xmm9
	vpacksswb	%xmm9, %xmm4, %xmm4
	vpand	%xmm4, %xmm0, %xmm0
	vpmaxuw	-64(%rbx,%rbp), %ymm5, %ymm4
	vpcmpeqw	%ymm4, %ymm5, %ymm4
	vpxor	%ymm4, %ymm8, %ymm4
	vextracti128	$1, %ymm4, %xmm5
	vpacksswb	%xmm5, %xmm4, %xmm4
	vpand	%xmm4, %xmm1, %xmm1
	vpmaxuw	-32(%rbx,%rbp), %ymm6, %ymm4
	vpcmpeqw	%ymm4, %ymm6, %ymm4
	vpxor	%ymm4, %ymm8, %ymm4
	vextracti128	$1, %ymm4, %xmm5
	vpacksswb	%xmm5, %xmm4, %xmm4
	vpmaxuw	(%rbx,%rbp), %ymm7, %ymm5
	vpand	%xmm4, %xmm2, %xmm2
	vpcmpeqw	%ymm5, %ymm7, %ymm4
	vpxor	%ymm4, %ymm8, %ymm4
	vextracti128	$1, %ymm4, %xmm5
	vpacksswb	%xmm5, %xmm4, %xmm4
	vpand	%xmm4, %xmm3, %xmm3
	subq	$-128, %rbp
	cmpq	%rbp, %r15
	jne	.LBB2_38
	vpand	%xmm0, %xmm1, %xmm0
	vpand	%xmm0, %xmm2, %xmm0
	vpand	%xmm0, %xmm3, %xmm0
	vpsllw	$7, %xmm0, %xmm0
	vpmovmskb	%xmm0, %ebx
	cmpl	$65535, %ebx
	sete	%bl
	cmpl	%r12d, %r11d
	je	.LBB2_25
	testb	$56, %r12b
	je	.LBB2_46
.LBB2_41:
	movl	%r12d, %ebp
	andl	$4088, %ebp
	leaq	1(%rbp), %r15
	movzbl	%bl, %ebx
	vpbroadcastd	.LCPI2_8(%rip), %xmm0
	vpinsrw	$0, %ebx, %xmm0, %xmm0
	leaq	6(%rsi), %rdx
	leaq	(%rdx,%rcx), %rbx
	.p2align	4
.LBB2_42:
	vmovdqu	-2(%rbx,%r11,2), %xmm1
	vpmaxuw	(%rbx,%r11,2), %xmm1, %xmm2
	vpcmpeqw	%xmm2, %xmm1, %xmm1
	vpandn	%xmm0, %xmm1, %xmm0
	addq	$8, %r11
	cmpq	%r11, %rbp
	jne	.LBB2_42
	vptest	.LCPI2_2(%rip), %xmm0
	setb	%bl
	cmpl	%r12d, %ebp
	je	.LBB2_25
.LBB2_44:
	addq	$4, %r8
	.p2align	4
.LBB2_45:
	movzwl	(%r8,%r15,2), %r11d
	cmpw	%r11w, -2(%r8,%r15,2)
	setb	%r11b
	andb	%r11b, %bl
	incq	%r15
	cmpq	%r15, %rdi
	jne	.LBB2_45
	jmp	.LBB2_25
.LBB2_46:
	orq	$1, %r11
	movq	%r11, %r15
	jmp	.LBB2_44
.LBB2_47:
	movq	-80(%rsp), %r14
	movzwl	%r12w, %edi
	leaq	1(%rdi), %r15
	cmpw	$-1, %di
	je	.LBB2_58
.LBB2_48:
	movq	-96(%rsp), %rdi
	subq	%rcx, %rdi
	cmpq	-88(%rsp), %rdi
	jb	.LBB2_109
	movzwl	%r10w, %edi
	movl	$1, %ebx
	cmpl	$32765, %edi
	ja	.LBB2_113
	cmpq	%r9, %rbp
	ja	.LBB2_113
	leaq	4(%rcx), %r11
	movq	56(%rsp), %r8
	testq	%r8, %r8
	je	.LBB2_61
	movq	-128(%rsp), %rdi
	testq	%rdi, %rdi
	je	.LBB2_128
	leaq	(%rsi,%r11), %rbx
	movq	48(%rsp), %rdx
	addq	%r11, %rdx
	movq	%rdx, -72(%rsp)
	cmpq	$7, %r8
	movq	%rbx, -64(%rsp)
	movq	%r15, -16(%rsp)
	je	.LBB2_64
	cmpq	$9, %r8
	movq	-32(%rsp), %rdx
	jne	.LBB2_66
	movb	$1, %r12b
	xorl	%ebp, %ebp
	movq	-56(%rsp), %rdi
	xorl	%r8d, %r8d
	.p2align	4
.LBB2_56:
	movq	%rbp, %r10
	movbew	(%rbx,%r8,2), %r11w
	movzwl	%r11w, %r11d
	cmpq	%r11, %rbp
	sete	%r11b
	andb	%r11b, %r12b
	vmovdqu	(%rbx,%rdi), %ymm0
	vmovdqu	32(%rbx,%rdi), %ymm1
	vpbroadcastd	.LCPI2_9(%rip), %ymm2
	vpand	%ymm2, %ymm1, %ymm3
	vbroadcasti128	.LCPI2_10(%rip), %ymm4
	vpshufb	%ymm3, %ymm4, %ymm3
	vpsrlw	$4, %ymm1, %ymm1
	vpand	%ymm2, %ymm1, %ymm1
	vpshufb	%ymm1, %ymm4, %ymm1
	vpaddb	%ymm3, %ymm1, %ymm1
	vpand	%ymm2, %ymm0, %ymm3
	vpshufb	%ymm3, %ymm4, %ymm3
	vpsrlw	$4, %ymm0, %ymm0
	vpand	%ymm2, %ymm0, %ymm0
	vpshufb	%ymm0, %ymm4, %ymm0
	vpaddb	%ymm3, %ymm0, %ymm0
	vpaddb	%ymm1, %ymm0, %ymm0
	vpxor	%xmm1, %xmm1, %xmm1
	vpsadbw	%ymm1, %ymm0, %ymm0
	vextracti128	$1, %ymm0, %xmm1
	vpaddq	%xmm1, %xmm0, %xmm0
	vpshufd	$238, %xmm0, %xmm1
	vpaddq	%xmm1, %xmm0, %xmm0
	vmovq	%xmm0, %rbp
	addq	%r10, %rbp
	incq	%r8
	addq	-24(%rsp), %rdi
	cmpq	%r8, -128(%rsp)
	jne	.LBB2_56
	jmp	.LBB2_104
.LBB2_57:
	movl	%r9d, %r10d
	movzwl	%r12w, %edi
	leaq	1(%rdi), %r15
	cmpw	$-1, %di
	jne	.LBB2_48
.LBB2_58:
	movzwl	%r10w, %edi
	movl	$1, %ebx
	cmpl	$32765, %edi
	ja	.LBB2_113
	cmpq	%r9, %rbp
	ja	.LBB2_113
	addq	$4, %rcx
	xorl	%edi, %edi
	movq	%rcx, %r11
	jmp	.LBB2_107
.LBB2_61:
	leaq	100(%rsi), %rdi
	addq	%rcx, %rdi
	vpxor	%xmm0, %xmm0, %xmm0
	xorl	%r8d, %r8d
	vpxor	%xmm1, %xmm1, %xmm1
	vpxor	%xmm2, %xmm2, %xmm2
	vpxor	%xmm3, %xmm3, %xmm3
	vpxor	%xmm4, %xmm4, %xmm4
	.p2align	4
.LBB2_62:
	vmovdqu	-96(%rdi,%r8,8), %ymm5
	vmovdqu	-64(%rdi,%r8,8), %ymm6
	vmovdqu	-32(%rdi,%r8,8), %ymm7
	vmovdqu	(%rdi,%r8,8), %ymm8
	vpbroadcastd	.LCPI2_9(%rip), %ymm9
	vpand	%ymm5, %ymm9, %ymm10
	vbroadcasti128	.LCPI2_10(%rip), %ymm11
	vpshufb	%ymm10, %ymm11, %ymm10
	vpsrlw	$4, %ymm5, %ymm5
	vpand	%ymm5, %ymm9, %ymm5
	vpshufb	%ymm5, %ymm11, %ymm5
	vpaddb	%ymm5, %ymm10, %ymm5
	vpsadbw	%ymm0, %ymm5, %ymm5
	vpaddq	%ymm1, %ymm5, %ymm1
	vpand	%ymm6, %ymm9, %ymm5
	vpshufb	%ymm5, %ymm11, %ymm5
	vpsrlw	$4, %ymm6, %ymm6
	vpand	%ymm6, %ymm9, %ymm6
	vpshufb	%ymm6, %ymm11, %ymm6
	vpaddb	%ymm5, %ymm6, %ymm5
	vpsadbw	%ymm0, %ymm5, %ymm5
	vpaddq	%ymm2, %ymm5, %ymm2
	vpand	%ymm7, %ymm9, %ymm5
	vpshufb	%ymm5, %ymm11, %ymm5
	vpsrlw	$4, %ymm7, %ymm6
	vpand	%ymm6, %ymm9, %ymm6
	vpshufb	%ymm6, %ymm11, %ymm6
	vpaddb	%ymm5, %ymm6, %ymm5
	vpsadbw	%ymm0, %ymm5, %ymm5
	vpaddq	%ymm3, %ymm5, %ymm3
	vpand	%ymm9, %ymm8, %ymm5
	vpshufb	%ymm5, %ymm11, %ymm5
	vpsrlw	$4, %ymm8, %ymm6
	vpand	%ymm6, %ymm9, %ymm6
	vpshufb	%ymm6, %ymm11, %ymm6
	vpaddb	%ymm5, %ymm6, %ymm5
	vpsadbw	%ymm0, %ymm5, %ymm5
	vpaddq	%ymm4, %ymm5, %ymm4
	addq	$16, %r8
	cmpq	$1024, %r8
	jne	.LBB2_62
	vpaddq	%ymm1, %ymm2, %ymm0
	vpaddq	%ymm0, %ymm3, %ymm0
	vpaddq	%ymm0, %ymm4, %ymm0
	vextracti128	$1, %ymm0, %xmm1
	vpaddq	%xmm1, %xmm0, %xmm0
	vpshufd	$238, %xmm0, %xmm1
	vpaddq	%xmm1, %xmm0, %xmm0
	vmovq	%xmm0, %rbp
	xorl	%r12d, %r12d
	xorl	%ebx, %ebx
	jmp	.LBB2_105
.LBB2_64:
	cmpq	$1, %rdi
	jne	.LBB2_69
	movb	$1, %r12b
	xorl	%ebx, %ebx
	xorl	%r8d, %r8d
	xorl	%ebp, %ebp
	movq	-72(%rsp), %rdi
	jmp	.LBB2_89
.LBB2_66:
	cmpq	$61, -40(%rsp)
	jbe	.LBB2_73
	movq	40(%rsp), %rdx
	cmpq	$4, %rdx
	movq	24(%rsp), %r10
	movq	16(%rsp), %r11
	jae	.LBB2_90
	movb	$1, %r12b
	xorl	%r8d, %r8d
	movq	-128(%rsp), %rdx
	jmp	.LBB2_102
.LBB2_69:
	movq	%r13, -112(%rsp)
	movb	$1, %r12b
	xorl	%r8d, %r8d
	movq	-56(%rsp), %r10
	movq	8(%rsp), %r15
	xorl	%ebx, %ebx
	xorl	%ebp, %ebp
	movq	32(%rsp), %rdx
	movq	-64(%rsp), %rdi
	.p2align	4
.LBB2_70:
	movbew	(%rdi,%rbx,2), %r11w
	movzwl	%r11w, %r11d
	cmpq	%r11, %rbp
	sete	%r11b
	xorl	%r14d, %r14d
	popcntq	(%rdi,%r10), %r14
	xorl	%r13d, %r13d
	popcntq	8(%rdi,%r10), %r13
	andb	%r12b, %r11b
	addq	%rbp, %r14
	movbew	2(%rdi,%rbx,2), %bp
	addq	%r13, %r14
	movzwl	%bp, %r12d
	cmpq	%r12, %r14
	sete	%r12b
	xorl	%r13d, %r13d
	popcntq	(%rdi,%r15), %r13
	xorl	%ebp, %ebp
	popcntq	8(%rdi,%r15), %rbp
	andb	%r11b, %r12b
	addq	%r13, %rbp
	addq	%r14, %rbp
	addq	$2, %rbx
	subq	64(%rsp), %r8
	addq	%rdx, %r15
	addq	%rdx, %r10
	cmpq	%rbx, 72(%rsp)
	jne	.LBB2_70
	testb	$1, -128(%rsp)
	movq	-72(%rsp), %rdi
	jne	.LBB2_88
	movq	-112(%rsp), %r13
	movq	-80(%rsp), %r14
	jmp	.LBB2_104
.LBB2_73:
	movq	-8(%rsp), %r8
	addq	%rcx, %r8
	movq	(%rsp), %r10
	leaq	(%r10,%rcx), %r15
	movb	$1, %r12b
	xorl	%ebp, %ebp
	xorl	%ebx, %ebx
	movq	-72(%rsp), %rdi
	jmp	.LBB2_76
.LBB2_74:
	movq	%rdi, %rdx
.LBB2_75:
	movq	-64(%rsp), %rdi
	movzwl	(%rdi,%rbx,2), %r11d
	rolw	$8, %r11w
	movzwl	%r11w, %r11d
	cmpq	%r11, %rbp
	sete	%r11b
	andb	%r11b, %r12b
	addq	%r10, %rbp
	incq	%rbx
	movq	-24(%rsp), %r10
	addq	%r10, %r8
	addq	%r10, %r15
	movq	%rdx, %rdi
	addq	%r10, %rdi
	cmpq	-128(%rsp), %rbx
	movq	-80(%rsp), %r14
	movq	-32(%rsp), %rdx
	je	.LBB2_104
.LBB2_76:
	cmpq	$16, %rdx
	jae	.LBB2_78
	xorl	%r11d, %r11d
	xorl	%r10d, %r10d
	jmp	.LBB2_83
.LBB2_78:
	vpxor	%xmm0, %xmm0, %xmm0
	xorl	%r10d, %r10d
	vpxor	%xmm1, %xmm1, %xmm1
	vpxor	%xmm2, %xmm2, %xmm2
	vpxor	%xmm3, %xmm3, %xmm3
	vpxor	%xmm4, %xmm4, %xmm4
	.p2align	4
.LBB2_79:
	vmovdqu	-96(%r8,%r10,8), %ymm5
	vmovdqu	-64(%r8,%r10,8), %ymm6
	vmovdqu	-32(%r8,%r10,8), %ymm7
	vmovdqu	(%r8,%r10,8), %ymm8
	vpbroadcastd	.LCPI2_9(%rip), %ymm9
	vpand	%ymm5, %ymm9, %ymm10
	vbroadcasti128	.LCPI2_10(%rip), %ymm11
	vpshufb	%ymm10, %ymm11, %ymm10
	vpsrlw	$4, %ymm5, %ymm5
	vpand	%ymm5, %ymm9, %ymm5
	vpshufb	%ymm5, %ymm11, %ymm5
	vpaddb	%ymm5, %ymm10, %ymm5
	vpsadbw	%ymm0, %ymm5, %ymm5
	vpaddq	%ymm1, %ymm5, %ymm1
	vpand	%ymm6, %ymm9, %ymm5
	vpshufb	%ymm5, %ymm11, %ymm5
	vpsrlw	$4, %ymm6, %ymm6
	vpand	%ymm6, %ymm9, %ymm6
	vpshufb	%ymm6, %ymm11, %ymm6
	vpaddb	%ymm5, %ymm6, %ymm5
	vpsadbw	%ymm0, %ymm5, %ymm5
	vpaddq	%ymm2, %ymm5, %ymm2
	vpand	%ymm7, %ymm9, %ymm5
	vpshufb	%ymm5, %ymm11, %ymm5
	vpsrlw	$4, %ymm7, %ymm6
	vpand	%ymm6, %ymm9, %ymm6
	vpshufb	%ymm6, %ymm11, %ymm6
	vpaddb	%ymm5, %ymm6, %ymm5
	vpsadbw	%ymm0, %ymm5, %ymm5
	vpaddq	%ymm3, %ymm5, %ymm3
	vpand	%ymm9, %ymm8, %ymm5
	vpshufb	%ymm5, %ymm11, %ymm5
	vpsrlw	$4, %ymm8, %ymm6
	vpand	%ymm6, %ymm9, %ymm6
	vpshufb	%ymm6, %ymm11, %ymm6
	vpaddb	%ymm5, %ymm6, %ymm5
	vpsadbw	%ymm0, %ymm5, %ymm5
	vpaddq	%ymm4, %ymm5, %ymm4
	addq	$16, %r10
	cmpq	%r10, %r14
	jne	.LBB2_79
	vpaddq	%ymm1, %ymm2, %ymm0
	vpaddq	%ymm0, %ymm3, %ymm0
	vpaddq	%ymm0, %ymm4, %ymm0
	vextracti128	$1, %ymm0, %xmm1
	vpaddq	%xmm1, %xmm0, %xmm0
	vpshufd	$238, %xmm0, %xmm1
	vpaddq	%xmm1, %xmm0, %xmm0
	vmovq	%xmm0, %r10
	cmpq	%r14, %rdx
	je	.LBB2_74
	cmpq	$2, -40(%rsp)
	jae	.LBB2_86
	movq	%r14, %r11
.LBB2_83:
	vmovq	%r10, %xmm0
	movq	%rdx, %r10
	subq	%r11, %r10
	movq	%rdi, %rdx
	leaq	(%rdi,%r11,8), %r14
	xorl	%r11d, %r11d
	.p2align	4
.LBB2_84:
	vmovdqu	(%r14,%r11,8), %ymm1
	vpbroadcastd	.LCPI2_9(%rip), %ymm2
	vpand	%ymm2, %ymm1, %ymm3
	vbroadcasti128	.LCPI2_10(%rip), %ymm4
	vpshufb	%ymm3, %ymm4, %ymm3
	vpsrlw	$4, %ymm1, %ymm1
	vpand	%ymm2, %ymm1, %ymm1
	vpshufb	%ymm1, %ymm4, %ymm1
	vpaddb	%ymm3, %ymm1, %ymm1
	vpxor	%xmm2, %xmm2, %xmm2
	vpsadbw	%ymm2, %ymm1, %ymm1
	vpaddq	%ymm0, %ymm1, %ymm0
	addq	$4, %r11
	cmpq	%r11, %r10
	jne	.LBB2_84
	vextracti128	$1, %ymm0, %xmm1
	vpaddq	%xmm1, %xmm0, %xmm0
	vpshufd	$238, %xmm0, %xmm1
	vpaddq	%xmm1, %xmm0, %xmm0
	vmovq	%xmm0, %r10
	jmp	.LBB2_75
.LBB2_86:
	movq	%rdi, %rdx
	xorl	%r11d, %r11d
	.p2align	4
.LBB2_87:
	xorl	%r14d, %r14d
	popcntq	(%r15,%r11,8), %r14
	addq	%r14, %r10
	incq	%r11
	cmpq	%r11, 80(%rsp)
	jne	.LBB2_87
	jmp	.LBB2_75
.LBB2_88:
	negq	%r8
	movq	-112(%rsp), %r13
	movq	-80(%rsp), %r14
.LBB2_89:
	movq	-64(%rsp), %rdx
	movbew	(%rdx,%rbx,2), %r10w
	movzwl	%r10w, %r10d
	cmpq	%r10, %rbp
	sete	%r10b
	andb	%r10b, %r12b
	xorl	%r10d, %r10d
	popcntq	(%rdi,%r8,8), %r10
	popcntq	8(%rdi,%r8,8), %rdi
	addq	%r10, %rdi
	addq	%rdi, %rbp
	jmp	.LBB2_104
.LBB2_90:
	cmpq	$7, %rdx
	jae	.LBB2_92
	movb	$1, %r12b
	xorl	%edi, %edi
	movq	-128(%rsp), %rdx
	jmp	.LBB2_97
.LBB2_92:
	leaq	100(%rsi), %rdx
	leaq	(%rdx,%rcx), %rdi
	vpbroadcastd	.LCPI2_7(%rip), %xmm0
	xorl	%r8d, %r8d
	vmovdqa	%xmm0, %xmm1
	vmovdqa	%xmm0, %xmm2
	vmovdqa	%xmm0, %xmm3
	movq	-128(%rsp), %rdx
.LBB2_93:
	vpxor	%xmm4, %xmm4, %xmm4
	vpcmpeqw	-96(%rdi,%r8,2), %ymm4, %ymm5
	vextracti128	$1, %ymm5, %xmm6
	vpacksswb	%xmm6, %xmm5, %xmm5
	vpcmpeqw	-64(%rdi,%r8,2), %ymm4, %ymm6
	vpand	%xmm5, %xmm0, %xmm0
	vextracti128	$1, %ymm6, %xmm5
	vpacksswb	%xmm5, %xmm6, %xmm5
	vpand	%xmm5, %xmm1, %xmm1
	vpcmpeqw	-32(%rdi,%r8,2), %ymm4, %ymm5
	vextracti128	$1, %ymm5, %xmm6
	vpacksswb	%xmm6, %xmm5, %xmm5
	vpand	%xmm5, %xmm2, %xmm2
	vpcmpeqw	(%rdi,%r8,2), %ymm4, %ymm4
	vextracti128	$1, %ymm4, %xmm5
	vpacksswb	%xmm5, %xmm4, %xmm4
	vpand	%xmm4, %xmm3, %xmm3
	addq	$64, %r8
	cmpq	%r8, %r11
	jne	.LBB2_93
	vpand	%xmm0, %xmm1, %xmm0
	vpand	%xmm0, %xmm2, %xmm0
	vpand	%xmm0, %xmm3, %xmm0
	vpsllw	$7, %xmm0, %xmm0
	vpmovmskb	%xmm0, %edi
	cmpl	$65535, %edi
	sete	%r12b
	cmpq	%r11, %rdx
	je	.LBB2_103
	movq	%r11, %rdi
	movq	%r11, %r8
	testb	$112, -56(%rsp)
	je	.LBB2_102
.LBB2_97:
	movzbl	%r12b, %r8d
	vpbroadcastd	.LCPI2_8(%rip), %xmm0
	vpinsrw	$0, %r8d, %xmm0, %xmm0
.LBB2_98:
	vpxor	%xmm1, %xmm1, %xmm1
	vpcmpeqw	(%rbx,%rdi,2), %xmm1, %xmm1
	vpand	%xmm1, %xmm0, %xmm0
	addq	$8, %rdi
	cmpq	%rdi, %r10
	jne	.LBB2_98
	vptest	.LCPI2_2(%rip), %xmm0
	setb	%r12b
	cmpq	%r10, %rdx
	je	.LBB2_103
	movq	%r10, %r8
.LBB2_102:
	cmpw	$0, (%rbx,%r8,2)
	sete	%dil
	andb	%dil, %r12b
	incq	%r8
	cmpq	%r8, %rdx
	jne	.LBB2_102
.LBB2_103:
	xorl	%ebp, %ebp
.LBB2_104:
	xorb	$1, %r12b
	movzbl	%r12b, %ebx
	andl	$1, %ebx
	shll	$2, %ebx
	movq	-104(%rsp), %rdx
	leaq	4(%rcx), %r11
	movq	-16(%rsp), %r15
.LBB2_105:
	cmpq	%r15, %rbp
	setne	%r8b
	testb	$1, %r12b
	jne	.LBB2_127
	movq	-88(%rsp), %rdi
	testb	%r8b, %r8b
	jne	.LBB2_127
.LBB2_107:
	addq	%rdi, %r11
	addq	%r15, %rax
	incq	%r9
	movq	%rdx, %rdi
	subq	%r11, %rdi
	xorl	%ebx, %ebx
	movq	%r9, %rbp
	movq	%r11, %rcx
	cmpq	$3, %rdi
	ja	.LBB2_2
	jmp	.LBB2_114
.LBB2_108:
	xorl	%r11d, %r11d
	xorl	%ebx, %ebx
	jmp	.LBB2_114
.LBB2_109:
	xorl	%ebx, %ebx
	jmp	.LBB2_113
.LBB2_110:
	movq	%rcx, %r11
	movq	%rdx, %rcx
	subq	%r11, %rcx
	cmpq	$6, %rcx
	jae	.LBB2_116
	xorl	%ebx, %ebx
	jmp	.LBB2_114
.LBB2_112:
	movl	$2, %ebx
.LBB2_113:
	movq	%rcx, %r11
.LBB2_114:
	movq	$1, (%r13)
	movq	%rbx, 8(%r13)
	movq	%r11, 16(%r13)
.LBB2_115:
	addq	$88, %rsp
	popq	%rbx
	popq	%r12
	popq	%r13
	popq	%r14
	popq	%r15
	popq	%rbp
	vzeroupper
	retq
.LBB2_116:
	movzwl	2(%rsi,%r11), %ecx
	movl	%ecx, %edi
	rolw	$8, %di
	movl	-116(%rsp), %r8d
	testb	$1, %r8b
	cmovel	%ecx, %edi
	movl	$5, %ebx
	testw	%di, %di
	jne	.LBB2_114
	movzwl	4(%rsi,%r11), %ecx
	movl	%ecx, %edi
	rolw	$8, %di
	testb	$1, %r8b
	cmovel	%ecx, %edi
	cmpw	$-1, %di
	jne	.LBB2_114
	leaq	6(%r11), %rcx
	incq	%rbp
	cmpq	$2, %rbp
	jne	.LBB2_121
	movl	$1, %r14d
	cmpq	$0, -48(%rsp)
	je	.LBB2_157
	movl	$6, %r15d
	jmp	.LBB2_161
.LBB2_121:
	movl	$6, %r15d
	movl	$1, %r14d
	cmpq	%rbp, -48(%rsp)
	jne	.LBB2_161
	testq	%r11, %r11
	je	.LBB2_129
	movq	%r13, -112(%rsp)
	movq	%rdx, %r10
	subq	$8, %r10
	jae	.LBB2_130
	xorl	%r12d, %r12d
	xorl	%r15d, %r15d
.LBB2_125:
	addq	%r15, %r12
	leaq	(%rcx,%r12,8), %rcx
	xorl	%r11d, %r11d
	movq	-112(%rsp), %r13
	movl	$1, %r14d
	movl	$6, %r15d
	jmp	.LBB2_162
.LBB2_127:
	testb	%r8b, %r8b
	movl	$3, %eax
	cmovneq	%rax, %rbx
	jmp	.LBB2_113
.LBB2_128:
	movl	$3, %ebx
	jmp	.LBB2_113
.LBB2_129:
	leaq	-8(%rdx), %r10
	xorl	%r8d, %r8d
	xorl	%ebx, %ebx
	xorl	%edi, %edi
	jmp	.LBB2_152
.LBB2_130:
	testb	$1, -116(%rsp)
	je	.LBB2_141
	leaq	(%r11,%rsi), %rdx
	addq	$10, %rdx
	movq	%rdx, -96(%rsp)
	leaq	6(%r11), %rdx
	movq	%rdx, -128(%rsp)
	xorl	%edi, %edi
	xorl	%ebx, %ebx
	xorl	%r15d, %r15d
	jmp	.LBB2_135
.LBB2_132:
	xorl	%r12d, %r12d
.LBB2_133:
	cmpq	%r14, %r12
	jb	.LBB2_125
.LBB2_134:
	movl	%r13d, %edx
	rolw	$8, %dx
	movzwl	%dx, %edx
	leaq	1(%rdx), %r9
	addl	%r9d, %r9d
	movq	%r11, %r14
	xorl	%r11d, %r11d
	cmpw	$-1, %r13w
	cmovneq	-88(%rsp), %r11
	cmpl	$4095, %edx
	cmovaeq	%r11, %r9
	movq	%r14, %r11
	addq	%r9, %rdi
	addq	$4, %rdi
	addq	%rdx, %rbx
	incq	%rbx
	movq	%r8, %r15
	cmpq	%r14, %rdi
	jae	.LBB2_151
.LBB2_135:
	movbew	(%rsi,%rdi), %dx
	movzwl	%dx, %r8d
	movzwl	2(%rsi,%rdi), %r13d
	incq	%r8
	movq	%r8, %r14
	subq	%r15, %r14
	je	.LBB2_132
	movq	-96(%rsp), %rdx
	leaq	(%rdx,%r15,8), %rbp
	movq	-128(%rsp), %rdx
	leaq	(%rdx,%r15,8), %r9
	xorl	%r12d, %r12d
.LBB2_137:
	cmpq	%r9, %r10
	jb	.LBB2_133
	movbel	-4(%rbp,%r12,8), %edx
	cmpq	%rdx, %rbx
	jne	.LBB2_133
	movbel	(%rbp,%r12,8), %edx
	cmpq	%rdx, %rdi
	jne	.LBB2_133
	incq	%r12
	addq	$8, %r9
	cmpq	%r12, %r14
	jne	.LBB2_137
	jmp	.LBB2_134
.LBB2_141:
	xorl	%edi, %edi
	xorl	%ebx, %ebx
	xorl	%r15d, %r15d
	jmp	.LBB2_145
.LBB2_142:
	xorl	%r12d, %r12d
.LBB2_143:
	cmpq	%rbp, %r12
	jb	.LBB2_125
.LBB2_144:
	leaq	1(%r13), %rdx
	addl	%edx, %edx
	xorl	%r9d, %r9d
	cmpq	$65535, %r13
	cmovneq	-88(%rsp), %r9
	cmpl	$4095, %r13d
	cmovaeq	%r9, %rdx
	addq	%rdx, %rdi
	addq	$4, %rdi
	addq	%r13, %rbx
	incq	%rbx
	movq	%r8, %r15
	cmpq	%r11, %rdi
	jae	.LBB2_151
.LBB2_145:
	movzwl	(%rsi,%rdi), %r8d
	movzwl	2(%rsi,%rdi), %r13d
	incq	%r8
	movq	%r8, %rbp
	subq	%r15, %rbp
	je	.LBB2_142
	leaq	(%r11,%rsi), %rdx
	addq	$10, %rdx
	leaq	(%rdx,%r15,8), %r14
	leaq	6(%r11), %rdx
	leaq	(%rdx,%r15,8), %r9
	xorl	%r12d, %r12d
.LBB2_147:
	cmpq	%r9, %r10
	jb	.LBB2_143
	movl	-4(%r14,%r12,8), %edx
	cmpq	%rdx, %rbx
	jne	.LBB2_143
	movl	(%r14,%r12,8), %edx
	cmpq	%rdx, %rdi
	jne	.LBB2_143
	incq	%r12
	addq	$8, %r9
	cmpq	%r12, %rbp
	jne	.LBB2_147
	jmp	.LBB2_144
.LBB2_151:
	movq	-112(%rsp), %r13
	movq	-104(%rsp), %rdx
	movl	$1, %r14d
	movl	$6, %r15d
.LBB2_152:
	leaq	(%rcx,%r8,8), %rcx
	xorl	%r11d, %r11d
	cmpq	$8, %rdx
	jb	.LBB2_162
	cmpq	%rcx, %r10
	jb	.LBB2_162
	movl	(%rsi,%rcx), %r9d
	movl	%r9d, %r8d
	bswapl	%r8d
	movl	-116(%rsp), %r10d
	testb	$1, %r10b
	cmovel	%r9d, %r8d
	cmpq	%r8, %rbx
	jne	.LBB2_161
	movl	4(%rsi,%rcx), %r8d
	movl	%r8d, %esi
	bswapl	%esi
	testb	$1, %r10b
	cmovel	%r8d, %esi
	cmpq	%rsi, %rdi
	jne	.LBB2_161
	addq	$8, %rcx
.LBB2_157:
	cmpq	%rdx, %rcx
	jne	.LBB2_159
	movq	%rax, %r11
	andq	$-256, %r11
	xorl	%r14d, %r14d
	movq	%rax, %r15
	xorl	%ecx, %ecx
	jmp	.LBB2_162
.LBB2_159:
	movl	$7, %r15d
.LBB2_161:
	xorl	%r11d, %r11d
.LBB2_162:
	movq	%r14, (%r13)
	movzbl	%r15b, %eax
	orq	%r11, %rax
	movq	%rax, 8(%r13)
	movq	%rcx, 16(%r13)
	jmp	.LBB2_115
.Lfunc_end2:
	.size	"section_check::judge", .Lfunc_end2-"section_check::judge"

	.section	.rodata.cst32,"aM",@progbits,32
	.p2align	5, 0x0
.LCPI3_0:
	.quad	0
	.quad	1
	.quad	2
	.quad	3
.LCPI3_2:
	.byte	7
	.byte	6
	.byte	5
	.byte	4
	.byte	3
	.byte	2
	.byte	1
	.byte	0
	.byte	15
	.byte	14
	.byte	13
	.byte	12
	.byte	11
	.byte	10
	.byte	9
	.byte	8
	.byte	7
	.byte	6
	.byte	5
	.byte	4
	.byte	3
	.byte	2
	.byte	1
	.byte	0
	.byte	15
	.byte	14
	.byte	13
	.byte	12
	.byte	11
	.byte	10
	.byte	9
	.byte	8
	.section	.rodata.cst8,"aM",@progbits,8
	.p2align	3, 0x0
.LCPI3_1:
	.quad	7
	.section	.rodata.cst16,"aM",@progbits,16
	.p2align	4, 0x0
.LCPI3_3:
	.byte	7
	.byte	6
	.byte	5
	.byte	4
	.byte	3
	.byte	2
	.byte	1
	.byte	0
	.byte	15
	.byte	14
	.byte	13
	.byte	12
	.byte	11
	.byte	10
	.byte	9
	.byte	8
	.section	".text.scaled_check::values_ok","ax",@progbits
	.p2align	4
	.type	"scaled_check::values_ok",@function
"scaled_check::values_ok":
	pushq	%rbp
	pushq	%r15
	pushq	%r14
	pushq	%r13
	pushq	%r12
	pushq	%rbx
	subq	$824, %rsp
	movq	(%r8), %rbx
	movq	8(%r8), %r9
	movq	16(%r8), %r8
	testq	%rbx, %rbx
	je	.LBB3_5
	testq	%rsi, %rsi
	je	.LBB3_6
	leaq	(,%rsi,8), %rax
	movq	%rbx, %r10
	imulq	%rcx, %r10
	subq	%r10, %rax
	movzbl	-1(%rdi,%rsi), %r10d
	cmpb	$1, %dl
	jne	.LBB3_8
	movb	$8, %sil
	subb	%al, %sil
	shrxq	%rsi, %r10, %rax
	testq	%rax, %rax
	jne	.LBB3_4
.LBB3_6:
	leaq	-1(%rbx), %rax
	testb	%dl, %dl
	sete	%sil
	cmpq	$3, %rbx
	setb	%dl
	movl	%esi, -124(%rsp)
	orb	%sil, %dl
	je	.LBB3_10
	movq	%rax, %r10
	jmp	.LBB3_17
.LBB3_5:
	cmpq	$1, %r8
	sete	%sil
	testq	%rcx, %rcx
	setne	%dl
	testq	%r9, %r9
	sete	%al
	orb	%dl, %al
	andb	%sil, %al
	jmp	.LBB3_119
.LBB3_8:
	bzhil	%eax, %r10d, %eax
	jne	.LBB3_4
	leaq	-1(%rbx), %rax
	movb	$1, %dl
	movl	%edx, -124(%rsp)
	movq	%rax, %r10
	jmp	.LBB3_17
.LBB3_10:
	cmpq	$5, %rbx
	jae	.LBB3_12
	movl	$2, %r10d
	jmp	.LBB3_16
.LBB3_12:
	cmpq	$32, %rbx
	ja	.LBB3_15
	leaq	-4(%rbx), %r10
	jmp	.LBB3_16
.LBB3_15:
	leaq	-8(%rbx), %r10
.LBB3_16:
	movl	$0, -124(%rsp)
.LBB3_17:
	movl	$2, %edx
	shlxq	%rax, %rdx, %r14
	decq	%r14
	movl	%r9d, %eax
	movq	%r9, %rdx
	shrq	%rdx
	movabsq	$-9223372036854775808, %rsi
	orq	%rdx, %rsi
	notq	%r9
	shrq	%r9
	testb	$1, %al
	cmoveq	%rsi, %r9
	notq	%r9
	cmpq	$2, %r8
	jb	.LBB3_20
	movq	%r14, %rax
	orq	%r8, %rax
	shrq	$32, %rax
	je	.LBB3_20
	movq	%r9, %rax
	xorl	%edx, %edx
	divq	%r8
	movq	$0, 56(%rsp)
	cmpq	%rax, %r14
	jbe	.LBB3_108
	testq	%rcx, %rcx
	jne	.LBB3_23
	jmp	.LBB3_4
.LBB3_20:
	movq	%r14, %rax
	imulq	%r8, %rax
	cmpq	%r9, %rax
	jbe	.LBB3_108
	movq	$0, 56(%rsp)
	testq	%rcx, %rcx
	jne	.LBB3_23
	jmp	.LBB3_4
.LBB3_108:
	movb	$1, %al
	movq	%rax, 56(%rsp)
	testq	%rcx, %rcx
	je	.LBB3_4
.LBB3_23:
	movq	%rcx, %rsi
	movq	%r8, 296(%rsp)
	movq	%r9, 264(%rsp)
	movl	$1, %eax
	shlxq	%r10, %rax, %rax
	movq	%rax, 184(%rsp)
	movl	$64, %ecx
	subq	%rbx, %rcx
	xorl	%edx, %edx
	movq	%rsi, %rax
	subq	$64, %rax
	cmovbq	%rdx, %rax
	movq	%rax, 304(%rsp)
	movq	$-1, %rax
	bzhiq	%rbx, %rax, %rax
	vmovq	%rbx, %xmm0
	vpbroadcastq	%xmm0, %ymm1
	vpsllq	$2, %ymm1, %ymm0
	vmovdqa	.LCPI3_0(%rip), %ymm2
	vpmuludq	%ymm2, %ymm1, %ymm3
	vpsrlq	$32, %ymm1, %ymm4
	vpmuludq	%ymm2, %ymm4, %ymm2
	vpsllq	$32, %ymm2, %ymm2
	vpaddq	%ymm2, %ymm3, %ymm3
	vmovq	%rax, %xmm2
	vpbroadcastq	%xmm2, %ymm2
	vmovdqu	%ymm2, 720(%rsp)
	vmovdqa	%ymm0, %ymm2
	vpsllq	$3, %ymm1, %ymm5
	movq	%rcx, 328(%rsp)
	vmovq	%rcx, %xmm1
	movl	$0, %ecx
	vpbroadcastq	%xmm1, %ymm12
	vmovdqu	%ymm3, 464(%rsp)
	vpaddq	%ymm0, %ymm3, %ymm0
	vmovdqu	%ymm0, 688(%rsp)
	vpaddq	%ymm2, %ymm0, %ymm0
	vmovdqu	%ymm0, 656(%rsp)
	vpaddq	%ymm2, %ymm0, %ymm0
	vmovdqu	%ymm0, 624(%rsp)
	vpaddq	%ymm2, %ymm0, %ymm0
	vmovdqu	%ymm0, 592(%rsp)
	vpaddq	%ymm2, %ymm0, %ymm0
	vmovdqu	%ymm0, 560(%rsp)
	vpaddq	%ymm2, %ymm0, %ymm0
	vmovdqu	%ymm0, 528(%rsp)
	vpaddq	%ymm2, %ymm0, %ymm0
	vmovdqu	%ymm0, 496(%rsp)
	movq	%rbx, %rax
	shlq	$5, %rax
	movq	%rax, 176(%rsp)
	leaq	(,%rbx,8), %rax
	movq	%rax, 272(%rsp)
	xorl	%r11d, %r11d
	movq	$0, 168(%rsp)
	movq	%rbx, 280(%rsp)
	vmovdqu	%ymm5, 784(%rsp)
	vmovdqu	%ymm12, 224(%rsp)
	movq	%rsi, %r10
	movq	%rsi, 312(%rsp)
	vmovdqu	%ymm2, 752(%rsp)
	jmp	.LBB3_26
	.p2align	4
.LBB3_24:
	movq	%r9, %rcx
.LBB3_25:
	movq	%rbp, %r11
	movq	312(%rsp), %r10
	cmpq	%r10, %rcx
	movq	280(%rsp), %rbx
	movq	320(%rsp), %r14
	jae	.LBB3_110
.LBB3_26:
	movq	%r10, %rax
	subq	%rcx, %rax
	cmpq	$32, %rax
	movl	$32, %esi
	cmovbq	%rax, %rsi
	movq	168(%rsp), %r15
	movabsq	$-4294967296, %rdx
	leaq	(%r11,%rdx), %rax
	addq	$2, %rdx
	movq	%rdx, 96(%rsp)
	cmpq	%rdx, %rax
	jae	.LBB3_28
	xorl	%r8d, %r8d
	jmp	.LBB3_29
	.p2align	4
.LBB3_28:
	movabsq	$4294967296, %rax
	xorl	%edx, %edx
	divq	%r11
	movq	%rax, %r8
	incq	%r8
.LBB3_29:
	movq	%rsi, -112(%rsp)
	leaq	(%rsi,%rcx), %r9
	movq	%r14, 64(%rsp)
	movq	%r14, %r13
	movq	%r15, 192(%rsp)
	movq	%r15, %r14
	movq	%r11, -120(%rsp)
	movq	%r11, %rbp
	cmpq	%r9, %rcx
	movq	%r9, 8(%rsp)
	jae	.LBB3_63
	movq	%rcx, %rsi
	movq	-120(%rsp), %rbp
	movq	192(%rsp), %r14
	movq	64(%rsp), %r13
	jmp	.LBB3_32
	.p2align	4
.LBB3_31:
	incq	%rsi
	cmpq	%r9, %rsi
	je	.LBB3_63
.LBB3_32:
	movq	%rsi, %rax
	imulq	%rbx, %rax
	movq	%rax, %r15
	shrq	$3, %r15
	andl	$7, %eax
	movq	%r10, %rdx
	subq	%rsi, %rdx
	cmpq	$64, %rdx
	setb	%r11b
	leaq	(%rax,%rbx), %rdx
	cmpq	$65, %rdx
	setae	%r12b
	orb	%r11b, %r12b
	jne	.LBB3_35
	movq	(%rdi,%r15), %r11
	cmpb	$0, -124(%rsp)
	je	.LBB3_37
	bswapq	%r11
	shlxq	%rax, %r11, %rax
	jmp	.LBB3_46
	.p2align	4
.LBB3_35:
	movq	%r10, %r9
	movq	%rcx, %r10
	leaq	7(%rdx), %r11
	shrq	$3, %r11
	addq	%rdi, %r15
	movq	%r14, %rcx
	movq	%r13, %r14
	cmpq	$8, %rbx
	ja	.LBB3_38
	movzbl	(%r15), %r12d
	movzbl	-1(%r15,%r11), %r15d
	movl	$1, %r13d
	cmpb	$0, -124(%rsp)
	je	.LBB3_42
.LBB3_44:
	bswapq	%r12
	shlxq	%rax, %r12, %rdx
	bswapq	%r15
	subl	%r13d, %r11d
	shll	$3, %r11d
	subl	%eax, %r11d
	shrxq	%r11, %r15, %rax
	orq	%rdx, %rax
	jmp	.LBB3_45
	.p2align	4
.LBB3_37:
	negb	%dl
	shlxq	%rdx, %r11, %rax
	jmp	.LBB3_46
	.p2align	4
.LBB3_38:
	cmpq	$24, %rbx
	ja	.LBB3_40
	movzwl	(%r15), %r12d
	movzwl	-2(%r15,%r11), %r15d
	movl	$2, %r13d
	cmpb	$0, -124(%rsp)
	jne	.LBB3_44
.LBB3_42:
	subl	%r13d, %r11d
	shll	$3, %r11d
	shlxq	%r11, %r15, %rax
	orq	%r12, %rax
	negb	%dl
	shlxq	%rdx, %rax, %rax
.LBB3_45:
	movq	%r14, %r13
	movq	%rcx, %r14
	movq	%r10, %rcx
	movq	%r9, %r10
	movq	8(%rsp), %r9
.LBB3_46:
	movq	328(%rsp), %rdx
	shrxq	%rdx, %rax, %r11
	movl	$1, %r15d
	cmpq	$1, %rbp
	je	.LBB3_53
	movq	%r11, %rax
	shrq	$32, %rax
	jne	.LBB3_49
	movq	%r11, %rax
	imulq	%r8, %rax
	shrq	$32, %rax
	imulq	%rbp, %rax
	cmpq	%r11, %rax
	je	.LBB3_58
.LBB3_49:
	movq	%r11, %rax
	movq	%rbp, %rdx
	movq	%r11, %r15
	testq	%rbp, %rbp
	jne	.LBB3_51
	jmp	.LBB3_53
	.p2align	4
.LBB3_52:
	xorl	%edx, %edx
	divl	%r15d
	movq	%r15, %rax
	testq	%rdx, %rdx
	je	.LBB3_53
.LBB3_51:
	movq	%rdx, %r15
	movq	%rax, %rdx
	orq	%r15, %rdx
	shrq	$32, %rdx
	je	.LBB3_52
	xorl	%edx, %edx
	divq	%r15
	movq	%r15, %rax
	testq	%rdx, %rdx
	jne	.LBB3_51
	.p2align	4
.LBB3_53:
	cmpq	%rbp, %r15
	je	.LBB3_58
	movabsq	$-4294967296, %rax
	addq	%r15, %rax
	cmpq	96(%rsp), %rax
	jae	.LBB3_56
	xorl	%r8d, %r8d
	jmp	.LBB3_57
	.p2align	4
.LBB3_56:
	movabsq	$4294967296, %rax
	xorl	%edx, %edx
	divq	%r15
	movq	%rax, %r8
	incq	%r8
.LBB3_57:
	movq	%r15, %rbp
.LBB3_58:
	cmpq	%r13, %r11
	cmovbq	%r11, %r13
	cmpq	%r14, %r11
	cmovaq	%r11, %r14
	cmpb	$0, 56(%rsp)
	je	.LBB3_31
	testq	%r13, %r13
	jne	.LBB3_31
	cmpq	%r14, 184(%rsp)
	ja	.LBB3_31
	cmpq	$1, %rbp
	jne	.LBB3_31
	jmp	.LBB3_62
.LBB3_40:
	cmpq	$56, %rbx
	ja	.LBB3_43
	movl	(%r15), %r12d
	movl	-4(%r15,%r11), %r15d
	movl	$4, %r13d
	cmpb	$0, -124(%rsp)
	jne	.LBB3_44
	jmp	.LBB3_42
.LBB3_43:
	movq	(%r15), %r12
	movq	-8(%r15,%r11), %r15
	movl	$8, %r13d
	cmpb	$0, -124(%rsp)
	je	.LBB3_42
	jmp	.LBB3_44
	.p2align	4
.LBB3_63:
	cmpb	$0, 56(%rsp)
	movq	-120(%rsp), %rdx
	movq	64(%rsp), %r8
	movq	192(%rsp), %r11
	je	.LBB3_67
	testq	%r13, %r13
	je	.LBB3_65
	jmp	.LBB3_67
.LBB3_62:
	xorl	%r13d, %r13d
	movl	$1, %ebp
	movq	-120(%rsp), %rdx
	movq	64(%rsp), %r8
	movq	192(%rsp), %r11
	testq	%r13, %r13
	jne	.LBB3_67
.LBB3_65:
	cmpq	%r14, 184(%rsp)
	ja	.LBB3_67
	cmpq	$1, %rbp
	je	.LBB3_118
.LBB3_67:
	cmpq	$57, %rbx
	movq	%r13, 320(%rsp)
	movq	%r14, 168(%rsp)
	ja	.LBB3_24
	cmpq	%r13, %r8
	jne	.LBB3_24
	cmpq	%r14, %r11
	jne	.LBB3_24
	cmpq	%rbp, %rdx
	jne	.LBB3_24
	subq	%r8, %r11
	jb	.LBB3_24
	movq	%rdx, %rax
	shrq	$32, %rax
	jne	.LBB3_24
	testq	%r11, %r11
	js	.LBB3_24
	movq	304(%rsp), %rsi
	cmpq	%rsi, %r9
	cmovaq	%r9, %rsi
	cmpq	$1, %rdx
	jne	.LBB3_84
	movq	%rsi, %rax
	subq	%r9, %rax
	cmpb	$0, -124(%rsp)
	je	.LBB3_99
	cmpq	$32, %rax
	jb	.LBB3_24
	vmovq	%r11, %xmm5
	vmovq	%r8, %xmm1
	movq	-112(%rsp), %r10
	leaq	(%rcx,%r10), %rax
	addq	$31, %rax
	movq	%rax, -120(%rsp)
	leaq	30(%rcx,%r10), %rax
	movq	%rax, -104(%rsp)
	leaq	29(%rcx,%r10), %rax
	movq	%rax, (%rsp)
	leaq	28(%rcx,%r10), %rax
	movq	%rax, -8(%rsp)
	leaq	27(%rcx,%r10), %rax
	movq	%rax, -16(%rsp)
	leaq	26(%rcx,%r10), %rax
	movq	%rax, -24(%rsp)
	leaq	25(%rcx,%r10), %rax
	movq	%rax, -32(%rsp)
	leaq	24(%rcx,%r10), %rax
	movq	%rax, -40(%rsp)
	leaq	23(%rcx,%r10), %rax
	movq	%rax, -48(%rsp)
	leaq	22(%rcx,%r10), %rax
	movq	%rax, -56(%rsp)
	leaq	21(%rcx,%r10), %rax
	movq	%rax, -64(%rsp)
	leaq	(%rcx,%r10), %rax
	addq	$20, %rax
	movq	%rax, -72(%rsp)
	subq	%rcx, %rsi
	leaq	(%rcx,%r10), %rax
	addq	$19, %rax
	movq	%rax, -88(%rsp)
	leaq	18(%rcx,%r10), %rax
	movq	%rax, -96(%rsp)
	leaq	1(%rcx,%r10), %rax
	movq	%rax, -80(%rsp)
	leaq	2(%rcx,%r10), %r15
	leaq	3(%rcx,%r10), %r13
	leaq	4(%rcx,%r10), %rax
	leaq	5(%rcx,%r10), %rdx
	leaq	6(%rcx,%r10), %r8
	leaq	7(%rcx,%r10), %r14
	leaq	8(%rcx,%r10), %r11
	movq	%r11, 16(%rsp)
	leaq	9(%rcx,%r10), %r12
	leaq	10(%rcx,%r10), %r11
	movq	%r11, 64(%rsp)
	leaq	11(%rcx,%r10), %r11
	movq	%r11, 48(%rsp)
	leaq	12(%rcx,%r10), %r11
	movq	%r11, 40(%rsp)
	leaq	13(%rcx,%r10), %r9
	movq	%r9, 32(%rsp)
	leaq	14(%rcx,%r10), %r9
	movq	%r9, 192(%rsp)
	leaq	15(%rcx,%r10), %r9
	movq	%r9, 144(%rsp)
	leaq	16(%rcx,%r10), %r9
	movq	%r9, 136(%rsp)
	addq	%r10, %rcx
	addq	$17, %rcx
	movq	%rcx, 96(%rsp)
	subq	%r10, %rsi
	movq	%rsi, %r11
	vpbroadcastq	%xmm5, %ymm0
	vmovdqu	%ymm0, 368(%rsp)
	vpbroadcastq	%xmm1, %ymm0
	vmovdqu	%ymm0, 336(%rsp)
	movq	-120(%rsp), %rcx
	imulq	%rbx, %rcx
	movq	%rcx, -120(%rsp)
	movq	-104(%rsp), %rcx
	imulq	%rbx, %rcx
	movq	%rcx, -104(%rsp)
	movq	(%rsp), %rcx
	imulq	%rbx, %rcx
	movq	%rcx, (%rsp)
	movq	-8(%rsp), %rcx
	imulq	%rbx, %rcx
	movq	%rcx, -8(%rsp)
	movq	-16(%rsp), %rcx
	imulq	%rbx, %rcx
	movq	%rcx, -16(%rsp)
	movq	-24(%rsp), %rcx
	imulq	%rbx, %rcx
	movq	%rcx, -24(%rsp)
	movq	-32(%rsp), %rcx
	imulq	%rbx, %rcx
	movq	%rcx, -32(%rsp)
	movq	-40(%rsp), %rcx
	imulq	%rbx, %rcx
	movq	%rcx, -40(%rsp)
	movq	-48(%rsp), %rcx
	imulq	%rbx, %rcx
	movq	%rcx, -48(%rsp)
	movq	-56(%rsp), %rcx
	imulq	%rbx, %rcx
	movq	%rcx, -56(%rsp)
	movq	-64(%rsp), %r9
	imulq	%rbx, %r9
	movq	%r9, -64(%rsp)
	movq	-72(%rsp), %r9
	imulq	%rbx, %r9
	movq	%r9, -72(%rsp)
	movq	-88(%rsp), %rsi
	imulq	%rbx, %rsi
	movq	%rsi, -88(%rsp)
	movq	-96(%rsp), %rsi
	imulq	%rbx, %rsi
	movq	%rsi, -96(%rsp)
	movq	%rbx, %rsi
	movq	8(%rsp), %r10
	imulq	%r10, %rsi
	movq	-80(%rsp), %rcx
	imulq	%rbx, %rcx
	movq	%rcx, -80(%rsp)
	imulq	%rbx, %r15
	movq	%r15, -112(%rsp)
	imulq	%rbx, %r13
	movq	%r13, 160(%rsp)
	imulq	%rbx, %rax
	movq	%rax, 152(%rsp)
	imulq	%rbx, %rdx
	movq	%rdx, 24(%rsp)
	imulq	%rbx, %r8
	movq	%r8, 432(%rsp)
	imulq	%rbx, %r14
	movq	%r14, 400(%rsp)
	movq	16(%rsp), %r14
	imulq	%rbx, %r14
	imulq	%rbx, %r12
	movq	%r12, 16(%rsp)
	movq	64(%rsp), %r12
	imulq	%rbx, %r12
	movq	48(%rsp), %rax
	imulq	%rbx, %rax
	movq	%rax, 48(%rsp)
	movq	40(%rsp), %rax
	imulq	%rbx, %rax
	movq	%rax, 40(%rsp)
	movq	32(%rsp), %rax
	imulq	%rbx, %rax
	movq	%rax, 32(%rsp)
	movq	192(%rsp), %r9
	imulq	%rbx, %r9
	movq	144(%rsp), %r13
	imulq	%rbx, %r13
	movq	136(%rsp), %r15
	imulq	%rbx, %r15
	movq	96(%rsp), %rax
	imulq	%rbx, %rax
	movq	%rax, %rbx
	movq	%r10, %rcx
	xorl	%r10d, %r10d
	jmp	.LBB3_79
	.p2align	4
.LBB3_78:
	addq	176(%rsp), %r10
	movq	%r11, %r8
	addq	$-32, %r8
	addq	$32, %rcx
	movq	%r8, %r11
	cmpq	$31, %r8
	jbe	.LBB3_25
.LBB3_79:
	cmpq	$-33, %rcx
	ja	.LBB3_78
	movq	160(%rsp), %rax
	leaq	(%rax,%r10), %r8
	shrq	$3, %r8
	vmovq	(%rdi,%r8), %xmm8
	movq	-112(%rsp), %rax
	leaq	(%rax,%r10), %r8
	shrq	$3, %r8
	vmovq	(%rdi,%r8), %xmm12
	movq	-80(%rsp), %rax
	leaq	(%rax,%r10), %r8
	shrq	$3, %r8
	vmovq	(%rdi,%r8), %xmm11
	leaq	(%rsi,%r10), %r8
	vmovq	%r8, %xmm1
	vpbroadcastq	%xmm1, %ymm9
	vpaddq	464(%rsp), %ymm9, %ymm0
	vpaddq	688(%rsp), %ymm9, %ymm1
	vpaddq	656(%rsp), %ymm9, %ymm4
	vpaddq	624(%rsp), %ymm9, %ymm3
	vmovdqu	%ymm3, 96(%rsp)
	shrq	$3, %r8
	vmovq	(%rdi,%r8), %xmm5
	movq	400(%rsp), %rax
	leaq	(%rax,%r10), %r8
	shrq	$3, %r8
	vmovq	(%rdi,%r8), %xmm14
	movq	432(%rsp), %rax
	leaq	(%rax,%r10), %r8
	shrq	$3, %r8
	vmovq	(%rdi,%r8), %xmm10
	movq	24(%rsp), %rax
	leaq	(%rax,%r10), %r8
	shrq	$3, %r8
	vmovq	(%rdi,%r8), %xmm13
	movq	152(%rsp), %rax
	leaq	(%rax,%r10), %r8
	shrq	$3, %r8
	vmovq	(%rdi,%r8), %xmm6
	movq	48(%rsp), %rax
	leaq	(%rax,%r10), %r8
	shrq	$3, %r8
	vmovsd	(%rdi,%r8), %xmm3
	vmovaps	%xmm3, 64(%rsp)
	leaq	(%r12,%r10), %r8
	shrq	$3, %r8
	vmovq	(%rdi,%r8), %xmm15
	movq	16(%rsp), %rax
	leaq	(%rax,%r10), %r8
	shrq	$3, %r8
	vpunpcklqdq	%xmm8, %xmm12, %xmm8
	vmovq	(%rdi,%r8), %xmm12
	leaq	(%r14,%r10), %r8
	shrq	$3, %r8
	vpunpcklqdq	%xmm11, %xmm5, %xmm5
	vmovq	(%rdi,%r8), %xmm11
	leaq	(%r10,%r13), %r8
	shrq	$3, %r8
	vinserti128	$1, %xmm8, %ymm5, %ymm7
	vmovq	(%rdi,%r8), %xmm5
	leaq	(%r9,%r10), %r8
	shrq	$3, %r8
	vpunpcklqdq	%xmm14, %xmm10, %xmm8
	vmovq	(%rdi,%r8), %xmm10
	movq	32(%rsp), %rax
	leaq	(%rax,%r10), %r8
	shrq	$3, %r8
	vpunpcklqdq	%xmm13, %xmm6, %xmm6
	vmovq	(%rdi,%r8), %xmm13
	movq	40(%rsp), %rax
	leaq	(%rax,%r10), %r8
	shrq	$3, %r8
	vinserti128	$1, %xmm8, %ymm6, %ymm6
	vpbroadcastq	.LCPI3_1(%rip), %ymm8
	vpand	%ymm0, %ymm8, %ymm14
	vpand	%ymm1, %ymm8, %ymm3
	vpand	%ymm4, %ymm8, %ymm0
	vpand	96(%rsp), %ymm8, %ymm1
	vpunpcklqdq	64(%rsp), %xmm15, %xmm15
	vpunpcklqdq	%xmm12, %xmm11, %xmm11
	vinserti128	$1, %xmm15, %ymm11, %ymm11
	vpunpcklqdq	%xmm5, %xmm10, %xmm5
	vmovq	(%rdi,%r8), %xmm10
	vpunpcklqdq	%xmm13, %xmm10, %xmm10
	vinserti128	$1, %xmm5, %ymm10, %ymm5
	vbroadcasti128	.LCPI3_3(%rip), %ymm13
	vpshufb	%ymm13, %ymm7, %ymm7
	vpsllvq	%ymm14, %ymm7, %ymm4
	vpshufb	%ymm13, %ymm6, %ymm6
	vpsllvq	%ymm3, %ymm6, %ymm3
	vmovdqu	%ymm3, 96(%rsp)
	vpshufb	%ymm13, %ymm11, %ymm3
	vpsllvq	%ymm0, %ymm3, %ymm0
	vmovdqu	%ymm0, 64(%rsp)
	vpshufb	%ymm13, %ymm5, %ymm0
	vpsllvq	%ymm1, %ymm0, %ymm11
	vpaddq	592(%rsp), %ymm9, %ymm10
	vpaddq	560(%rsp), %ymm9, %ymm15
	vpaddq	528(%rsp), %ymm9, %ymm7
	vpaddq	496(%rsp), %ymm9, %ymm9
	movq	-88(%rsp), %rax
	leaq	(%rax,%r10), %r8
	shrq	$3, %r8
	vmovq	(%rdi,%r8), %xmm0
	movq	-96(%rsp), %rax
	leaq	(%rax,%r10), %r8
	shrq	$3, %r8
	vmovq	(%rdi,%r8), %xmm3
	leaq	(%rbx,%r10), %r8
	shrq	$3, %r8
	vmovq	(%rdi,%r8), %xmm5
	leaq	(%r15,%r10), %r8
	shrq	$3, %r8
	vmovq	(%rdi,%r8), %xmm6
	movq	-48(%rsp), %rdx
	leaq	(%rdx,%r10), %r8
	shrq	$3, %r8
	vmovq	(%rdi,%r8), %xmm1
	movq	-56(%rsp), %rdx
	leaq	(%rdx,%r10), %r8
	shrq	$3, %r8
	vpand	%ymm8, %ymm10, %ymm12
	vpand	%ymm8, %ymm15, %ymm10
	vpand	%ymm7, %ymm8, %ymm14
	vpand	%ymm8, %ymm9, %ymm7
	vmovdqu	%ymm7, 192(%rsp)
	vmovq	(%rdi,%r8), %xmm7
	movq	-64(%rsp), %rdx
	leaq	(%rdx,%r10), %r8
	shrq	$3, %r8
	vpunpcklqdq	%xmm0, %xmm3, %xmm0
	vmovq	(%rdi,%r8), %xmm3
	movq	-72(%rsp), %rdx
	leaq	(%rdx,%r10), %r8
	shrq	$3, %r8
	vpunpcklqdq	%xmm5, %xmm6, %xmm5
	vmovq	(%rdi,%r8), %xmm6
	movq	-16(%rsp), %r8
	addq	%r10, %r8
	shrq	$3, %r8
	vinserti128	$1, %xmm0, %ymm5, %ymm15
	vmovq	(%rdi,%r8), %xmm0
	movq	-24(%rsp), %r8
	addq	%r10, %r8
	shrq	$3, %r8
	vpunpcklqdq	%xmm1, %xmm7, %xmm1
	vmovq	(%rdi,%r8), %xmm5
	movq	-32(%rsp), %r8
	addq	%r10, %r8
	shrq	$3, %r8
	vpunpcklqdq	%xmm3, %xmm6, %xmm3
	vmovq	(%rdi,%r8), %xmm6
	movq	-40(%rsp), %r8
	addq	%r10, %r8
	shrq	$3, %r8
	vinserti128	$1, %xmm1, %ymm3, %ymm9
	vmovq	(%rdi,%r8), %xmm1
	movq	-120(%rsp), %r8
	addq	%r10, %r8
	shrq	$3, %r8
	vpunpcklqdq	%xmm0, %xmm5, %xmm0
	vmovq	(%rdi,%r8), %xmm3
	movq	-104(%rsp), %r8
	addq	%r10, %r8
	shrq	$3, %r8
	vpunpcklqdq	%xmm6, %xmm1, %xmm1
	vmovq	(%rdi,%r8), %xmm5
	movq	(%rsp), %r8
	addq	%r10, %r8
	shrq	$3, %r8
	vinserti128	$1, %xmm0, %ymm1, %ymm0
	vmovq	(%rdi,%r8), %xmm1
	movq	-8(%rsp), %r8
	addq	%r10, %r8
	shrq	$3, %r8
	vpunpcklqdq	%xmm3, %xmm5, %xmm3
	vmovq	(%rdi,%r8), %xmm5
	vpunpcklqdq	%xmm1, %xmm5, %xmm1
	vinserti128	$1, %xmm3, %ymm1, %ymm8
	vpsrlvq	224(%rsp), %ymm4, %ymm3
	vmovdqu	96(%rsp), %ymm1
	vpsrlvq	224(%rsp), %ymm1, %ymm5
	vmovdqu	64(%rsp), %ymm1
	vpsrlvq	224(%rsp), %ymm1, %ymm6
	vpsrlvq	224(%rsp), %ymm11, %ymm7
	vmovdqu	336(%rsp), %ymm1
	vpsubq	%ymm1, %ymm3, %ymm3
	vpsubq	%ymm1, %ymm5, %ymm11
	vpsubq	%ymm1, %ymm6, %ymm6
	vpsubq	%ymm1, %ymm7, %ymm7
	vpshufb	%ymm13, %ymm15, %ymm5
	vpsllvq	%ymm12, %ymm5, %ymm5
	vmovdqu	368(%rsp), %ymm4
	vpsubq	%ymm3, %ymm4, %ymm15
	vpshufb	%ymm13, %ymm9, %ymm9
	vpsllvq	%ymm10, %ymm9, %ymm9
	vpsubq	%ymm11, %ymm4, %ymm12
	vpshufb	%ymm13, %ymm0, %ymm0
	vpsllvq	%ymm14, %ymm0, %ymm0
	vpsubq	%ymm6, %ymm4, %ymm10
	vpshufb	%ymm13, %ymm8, %ymm8
	vpsubq	%ymm7, %ymm4, %ymm13
	vpsllvq	192(%rsp), %ymm8, %ymm8
	vpsrlvq	224(%rsp), %ymm5, %ymm5
	vpsrlvq	224(%rsp), %ymm9, %ymm9
	vpsrlvq	224(%rsp), %ymm0, %ymm0
	vpsrlvq	224(%rsp), %ymm8, %ymm8
	vpsubq	%ymm1, %ymm5, %ymm5
	vpsubq	%ymm1, %ymm9, %ymm9
	vpsubq	%ymm1, %ymm0, %ymm0
	vpsubq	%ymm1, %ymm8, %ymm1
	vpsubq	%ymm5, %ymm4, %ymm14
	vpor	%ymm14, %ymm15, %ymm8
	vpsubq	%ymm9, %ymm4, %ymm14
	vpor	%ymm14, %ymm12, %ymm12
	vpsubq	%ymm0, %ymm4, %ymm14
	vpor	%ymm14, %ymm10, %ymm10
	vpsubq	%ymm1, %ymm4, %ymm14
	vpor	%ymm14, %ymm13, %ymm13
	vpor	%ymm5, %ymm3, %ymm3
	vpor	%ymm3, %ymm8, %ymm3
	vpor	%ymm11, %ymm12, %ymm5
	vmovdqu	224(%rsp), %ymm12
	vpor	%ymm3, %ymm5, %ymm3
	vpor	%ymm3, %ymm9, %ymm3
	vpor	%ymm6, %ymm10, %ymm5
	vpor	%ymm0, %ymm5, %ymm0
	vpor	%ymm3, %ymm0, %ymm0
	vpor	%ymm7, %ymm13, %ymm3
	vpor	%ymm1, %ymm3, %ymm1
	vpor	%ymm0, %ymm1, %ymm0
	vextracti128	$1, %ymm0, %xmm1
	vpor	%xmm1, %xmm0, %xmm0
	vpshufd	$238, %xmm0, %xmm1
	vpor	%xmm1, %xmm0, %xmm0
	vmovq	%xmm0, %r8
	testq	%r8, %r8
	jns	.LBB3_78
	jmp	.LBB3_25
.LBB3_84:
	movq	%rsi, -104(%rsp)
	vmovq	%r8, %xmm1
	vpbroadcastq	%xmm1, %ymm13
	vmovq	%r11, %xmm1
	vpbroadcastq	%xmm1, %ymm14
	vmovq	%rdx, %xmm1
	vpbroadcastq	%xmm1, %ymm3
	movq	%r9, %rdx
	movq	-112(%rsp), %r10
	leaq	(%rcx,%r10), %r9
	addq	$7, %r9
	imulq	%rbx, %r9
	leaq	(%rcx,%r10), %r14
	addq	$6, %r14
	imulq	%rbx, %r14
	movq	%rbx, %rax
	leaq	(%rcx,%r10), %rbx
	addq	$5, %rbx
	imulq	%rax, %rbx
	leaq	(%rcx,%r10), %r8
	addq	$4, %r8
	imulq	%rax, %r8
	leaq	(%rcx,%r10), %rsi
	addq	$3, %rsi
	imulq	%rax, %rsi
	leaq	(%rcx,%r10), %r12
	addq	$2, %r12
	imulq	%rax, %r12
	movq	%rax, %r11
	imulq	%rdx, %r11
	leaq	(%rcx,%r10), %r15
	incq	%r15
	imulq	%rax, %r15
	xorl	%r13d, %r13d
	vmovdqu	%ymm3, 96(%rsp)
	vmovdqu	%ymm14, 64(%rsp)
	vmovdqu	%ymm13, 192(%rsp)
	jmp	.LBB3_85
	.p2align	4
.LBB3_88:
	xorl	%eax, %eax
	xorl	%edx, %edx
	testq	%rdx, %rdx
	js	.LBB3_25
.LBB3_97:
	addq	176(%rsp), %r13
	testq	%rax, %rax
	jne	.LBB3_25
.LBB3_85:
	movq	8(%rsp), %rcx
	movq	-104(%rsp), %rax
	subq	%rcx, %rax
	cmpq	$32, %rax
	jb	.LBB3_25
	movq	-120(%rsp), %r10
	cmpq	$2, %r10
	jae	.LBB3_89
	xorl	%eax, %eax
	movq	%rcx, %rdx
	subq	$-32, %rdx
	movq	%rdx, 8(%rsp)
	jb	.LBB3_90
	jmp	.LBB3_88
	.p2align	4
.LBB3_89:
	movabsq	$4294967296, %rax
	xorl	%edx, %edx
	divq	%r10
	incq	%rax
	movq	%rcx, %rdx
	subq	$-32, %rdx
	movq	%rdx, 8(%rsp)
	jae	.LBB3_88
.LBB3_90:
	movq	%rcx, -112(%rsp)
	movq	%rcx, %rdx
	imulq	280(%rsp), %rdx
	vmovq	%rax, %xmm0
	vpbroadcastq	%xmm0, %ymm15
	vmovq	%rdx, %xmm0
	vpbroadcastq	%xmm0, %ymm0
	vpaddq	464(%rsp), %ymm0, %ymm11
	vpsrlq	$32, %ymm15, %ymm5
	vpsrlq	$32, %ymm3, %ymm6
	cmpb	$0, -124(%rsp)
	je	.LBB3_94
	vpxor	%xmm7, %xmm7, %xmm7
	movl	$32, %eax
	movq	%r13, %rdx
	vpxor	%xmm8, %xmm8, %xmm8
	vpxor	%xmm9, %xmm9, %xmm9
	vpxor	%xmm10, %xmm10, %xmm10
	movq	272(%rsp), %rcx
	.p2align	4
.LBB3_92:
	leaq	(%rsi,%rdx), %r10
	shrq	$3, %r10
	vmovq	(%rdi,%r10), %xmm0
	leaq	(%r12,%rdx), %r10
	shrq	$3, %r10
	vmovq	(%rdi,%r10), %xmm1
	leaq	(%r15,%rdx), %r10
	shrq	$3, %r10
	vmovq	(%rdi,%r10), %xmm2
	leaq	(%r11,%rdx), %r10
	shrq	$3, %r10
	vmovq	(%rdi,%r10), %xmm3
	leaq	(%r9,%rdx), %r10
	shrq	$3, %r10
	vmovq	(%rdi,%r10), %xmm4
	leaq	(%r14,%rdx), %r10
	shrq	$3, %r10
	vpunpcklqdq	%xmm0, %xmm1, %xmm0
	vmovq	(%rdi,%r10), %xmm1
	leaq	(%rbx,%rdx), %r10
	shrq	$3, %r10
	vpunpcklqdq	%xmm2, %xmm3, %xmm2
	vmovq	(%rdi,%r10), %xmm3
	leaq	(%r8,%rdx), %r10
	shrq	$3, %r10
	vinserti128	$1, %xmm0, %ymm2, %ymm0
	vmovq	(%rdi,%r10), %xmm2
	vpunpcklqdq	%xmm4, %xmm1, %xmm1
	vpaddq	752(%rsp), %ymm11, %ymm4
	vpunpcklqdq	%xmm3, %xmm2, %xmm2
	vpbroadcastq	.LCPI3_1(%rip), %ymm3
	vpand	%ymm3, %ymm4, %ymm4
	vpand	%ymm3, %ymm11, %ymm3
	vinserti128	$1, %xmm1, %ymm2, %ymm1
	vbroadcasti128	.LCPI3_3(%rip), %ymm2
	vpshufb	%ymm2, %ymm0, %ymm0
	vpsllvq	%ymm3, %ymm0, %ymm0
	vpshufb	%ymm2, %ymm1, %ymm1
	vpsllvq	%ymm4, %ymm1, %ymm1
	vpsrlvq	%ymm12, %ymm0, %ymm0
	vpsrlvq	%ymm12, %ymm1, %ymm1
	vpsubq	%ymm13, %ymm0, %ymm2
	vpsubq	%ymm13, %ymm1, %ymm3
	vmovdqu	64(%rsp), %ymm12
	vpsubq	%ymm2, %ymm12, %ymm4
	vpor	%ymm2, %ymm7, %ymm2
	vpsubq	%ymm3, %ymm12, %ymm12
	vpor	%ymm4, %ymm2, %ymm7
	vpor	%ymm3, %ymm8, %ymm2
	vpor	%ymm2, %ymm12, %ymm8
	vmovdqu	224(%rsp), %ymm14
	vpmuludq	%ymm0, %ymm15, %ymm2
	vpmuludq	%ymm5, %ymm0, %ymm3
	vpsllq	$32, %ymm3, %ymm3
	vpaddq	%ymm3, %ymm2, %ymm2
	vpmuludq	%ymm1, %ymm15, %ymm3
	vpmuludq	%ymm5, %ymm1, %ymm4
	vpsllq	$32, %ymm4, %ymm4
	vpaddq	%ymm4, %ymm3, %ymm3
	vpsrlq	$32, %ymm2, %ymm2
	vpsrlq	$32, %ymm3, %ymm3
	vmovdqu	96(%rsp), %ymm12
	vpmuludq	%ymm2, %ymm12, %ymm4
	vpmuludq	%ymm6, %ymm2, %ymm2
	vpsllq	$32, %ymm2, %ymm2
	vpaddq	%ymm2, %ymm4, %ymm2
	vpmuludq	%ymm3, %ymm12, %ymm4
	vmovdqa	%ymm14, %ymm12
	vpmuludq	%ymm6, %ymm3, %ymm3
	vpsllq	$32, %ymm3, %ymm3
	vpaddq	%ymm3, %ymm4, %ymm3
	vpsubq	%ymm2, %ymm0, %ymm0
	vpor	%ymm0, %ymm9, %ymm9
	vpsubq	%ymm3, %ymm1, %ymm0
	vpor	%ymm0, %ymm10, %ymm10
	vpaddq	784(%rsp), %ymm11, %ymm11
	addq	%rcx, %rdx
	addq	$-8, %rax
	jne	.LBB3_92
	vpor	%ymm9, %ymm10, %ymm0
	vextracti128	$1, %ymm0, %xmm1
	vpor	%xmm1, %xmm0, %xmm0
	vpshufd	$238, %xmm0, %xmm1
	vpor	%xmm1, %xmm0, %xmm0
	vmovq	%xmm0, %rax
	vpor	%ymm7, %ymm8, %ymm0
	vextracti128	$1, %ymm0, %xmm1
	vpor	%xmm1, %xmm0, %xmm0
	vpshufd	$238, %xmm0, %xmm1
	vpor	%xmm1, %xmm0, %xmm0
	vmovq	%xmm0, %rdx
	vmovdqu	752(%rsp), %ymm2
	movq	-112(%rsp), %rcx
	vmovdqu	64(%rsp), %ymm14
	vmovdqu	96(%rsp), %ymm3
	testq	%rdx, %rdx
	jns	.LBB3_97
	jmp	.LBB3_25
	.p2align	4
.LBB3_94:
	vpxor	%xmm7, %xmm7, %xmm7
	movl	$32, %eax
	movq	%r13, %rdx
	vpxor	%xmm8, %xmm8, %xmm8
	vpxor	%xmm9, %xmm9, %xmm9
	vpxor	%xmm10, %xmm10, %xmm10
	movq	272(%rsp), %rcx
	.p2align	4
.LBB3_95:
	vpaddq	%ymm2, %ymm11, %ymm1
	leaq	(%rsi,%rdx), %r10
	shrq	$3, %r10
	vmovq	(%rdi,%r10), %xmm0
	leaq	(%r12,%rdx), %r10
	shrq	$3, %r10
	vmovq	(%rdi,%r10), %xmm3
	leaq	(%r15,%rdx), %r10
	shrq	$3, %r10
	vmovdqa	%ymm2, %ymm13
	vmovq	(%rdi,%r10), %xmm2
	leaq	(%r11,%rdx), %r10
	shrq	$3, %r10
	vmovq	(%rdi,%r10), %xmm4
	leaq	(%r9,%rdx), %r10
	shrq	$3, %r10
	vpunpcklqdq	%xmm0, %xmm3, %xmm0
	vmovq	(%rdi,%r10), %xmm3
	leaq	(%r14,%rdx), %r10
	shrq	$3, %r10
	vpunpcklqdq	%xmm2, %xmm4, %xmm2
	vmovq	(%rdi,%r10), %xmm4
	leaq	(%rbx,%rdx), %r10
	shrq	$3, %r10
	vinserti128	$1, %xmm0, %ymm2, %ymm0
	vpbroadcastq	.LCPI3_1(%rip), %ymm2
	vpand	%ymm2, %ymm1, %ymm1
	vpand	%ymm2, %ymm11, %ymm2
	vpsrlvq	%ymm2, %ymm0, %ymm0
	vmovq	(%rdi,%r10), %xmm2
	leaq	(%r8,%rdx), %r10
	shrq	$3, %r10
	vpunpcklqdq	%xmm3, %xmm4, %xmm3
	vmovq	(%rdi,%r10), %xmm4
	vpunpcklqdq	%xmm2, %xmm4, %xmm2
	vinserti128	$1, %xmm3, %ymm2, %ymm2
	vpsrlvq	%ymm1, %ymm2, %ymm1
	vmovdqu	720(%rsp), %ymm2
	vpand	%ymm2, %ymm0, %ymm0
	vpand	%ymm2, %ymm1, %ymm1
	vmovdqu	192(%rsp), %ymm3
	vpsubq	%ymm3, %ymm0, %ymm2
	vpsubq	%ymm3, %ymm1, %ymm3
	vpsubq	%ymm2, %ymm14, %ymm4
	vpor	%ymm2, %ymm7, %ymm2
	vpsubq	%ymm3, %ymm14, %ymm12
	vpor	%ymm4, %ymm2, %ymm7
	vpor	%ymm3, %ymm8, %ymm2
	vpor	%ymm2, %ymm12, %ymm8
	vpmuludq	%ymm0, %ymm15, %ymm2
	vpmuludq	%ymm5, %ymm0, %ymm3
	vpsllq	$32, %ymm3, %ymm3
	vpaddq	%ymm3, %ymm2, %ymm2
	vpmuludq	%ymm1, %ymm15, %ymm3
	vpmuludq	%ymm5, %ymm1, %ymm4
	vpsllq	$32, %ymm4, %ymm4
	vpaddq	%ymm4, %ymm3, %ymm3
	vpsrlq	$32, %ymm2, %ymm2
	vpsrlq	$32, %ymm3, %ymm3
	vmovdqu	96(%rsp), %ymm12
	vpmuludq	%ymm2, %ymm12, %ymm4
	vpmuludq	%ymm6, %ymm2, %ymm2
	vpsllq	$32, %ymm2, %ymm2
	vpaddq	%ymm2, %ymm4, %ymm2
	vpmuludq	%ymm3, %ymm12, %ymm4
	vpmuludq	%ymm6, %ymm3, %ymm3
	vpsllq	$32, %ymm3, %ymm3
	vpaddq	%ymm3, %ymm4, %ymm3
	vpsubq	%ymm2, %ymm0, %ymm0
	vmovdqa	%ymm13, %ymm2
	vpor	%ymm0, %ymm9, %ymm9
	vpsubq	%ymm3, %ymm1, %ymm0
	vpor	%ymm0, %ymm10, %ymm10
	vpaddq	784(%rsp), %ymm11, %ymm11
	addq	%rcx, %rdx
	addq	$-8, %rax
	jne	.LBB3_95
	vpor	%ymm9, %ymm10, %ymm0
	vextracti128	$1, %ymm0, %xmm1
	vpor	%xmm1, %xmm0, %xmm0
	vpshufd	$238, %xmm0, %xmm1
	vpor	%xmm1, %xmm0, %xmm0
	vmovq	%xmm0, %rax
	vpor	%ymm7, %ymm8, %ymm0
	vextracti128	$1, %ymm0, %xmm1
	vpor	%xmm1, %xmm0, %xmm0
	vpshufd	$238, %xmm0, %xmm1
	vpor	%xmm1, %xmm0, %xmm0
	vmovq	%xmm0, %rdx
	vmovdqu	224(%rsp), %ymm12
	movq	-112(%rsp), %rcx
	vmovdqu	192(%rsp), %ymm13
	vmovdqu	96(%rsp), %ymm3
	testq	%rdx, %rdx
	jns	.LBB3_97
	jmp	.LBB3_25
.LBB3_99:
	cmpq	$32, %rax
	jb	.LBB3_24
	vmovq	%r11, %xmm5
	vmovq	%r8, %xmm6
	movq	-112(%rsp), %r10
	leaq	(%rcx,%r10), %rax
	addq	$31, %rax
	movq	%rax, 192(%rsp)
	leaq	30(%rcx,%r10), %rax
	movq	%rax, -120(%rsp)
	leaq	29(%rcx,%r10), %rax
	movq	%rax, -104(%rsp)
	leaq	28(%rcx,%r10), %rax
	movq	%rax, (%rsp)
	leaq	27(%rcx,%r10), %rax
	movq	%rax, -8(%rsp)
	leaq	26(%rcx,%r10), %rax
	movq	%rax, -16(%rsp)
	leaq	25(%rcx,%r10), %rax
	movq	%rax, -24(%rsp)
	leaq	24(%rcx,%r10), %rax
	movq	%rax, -32(%rsp)
	leaq	23(%rcx,%r10), %rax
	movq	%rax, -40(%rsp)
	leaq	22(%rcx,%r10), %rax
	movq	%rax, -48(%rsp)
	leaq	21(%rcx,%r10), %rax
	movq	%rax, -56(%rsp)
	leaq	(%rcx,%r10), %rax
	addq	$20, %rax
	movq	%rax, -64(%rsp)
	subq	%rcx, %rsi
	leaq	(%rcx,%r10), %r8
	addq	$19, %r8
	leaq	18(%rcx,%r10), %rax
	movq	%rax, -72(%rsp)
	leaq	1(%rcx,%r10), %r13
	leaq	2(%rcx,%r10), %rax
	movq	%rax, -88(%rsp)
	leaq	3(%rcx,%r10), %rax
	movq	%rax, -96(%rsp)
	leaq	4(%rcx,%r10), %rax
	movq	%rax, -80(%rsp)
	leaq	5(%rcx,%r10), %r15
	leaq	6(%rcx,%r10), %rax
	leaq	7(%rcx,%r10), %r12
	leaq	8(%rcx,%r10), %rdx
	leaq	9(%rcx,%r10), %r11
	movq	%r11, 24(%rsp)
	leaq	10(%rcx,%r10), %r14
	leaq	11(%rcx,%r10), %r11
	movq	%r11, 288(%rsp)
	leaq	12(%rcx,%r10), %r11
	movq	%r11, 136(%rsp)
	leaq	13(%rcx,%r10), %r11
	movq	%r11, 64(%rsp)
	leaq	14(%rcx,%r10), %r9
	movq	%r9, 368(%rsp)
	leaq	15(%rcx,%r10), %r9
	movq	%r9, 336(%rsp)
	leaq	16(%rcx,%r10), %r9
	movq	%r9, 144(%rsp)
	addq	%r10, %rcx
	addq	$17, %rcx
	movq	%rcx, 96(%rsp)
	subq	%r10, %rsi
	movq	%rsi, %r11
	vpbroadcastq	%xmm5, %ymm0
	vmovdqu	%ymm0, 432(%rsp)
	vpbroadcastq	%xmm6, %ymm0
	vmovdqu	%ymm0, 400(%rsp)
	movq	192(%rsp), %rcx
	imulq	%rbx, %rcx
	movq	%rcx, 192(%rsp)
	movq	-120(%rsp), %rcx
	imulq	%rbx, %rcx
	movq	%rcx, -120(%rsp)
	movq	-104(%rsp), %rcx
	imulq	%rbx, %rcx
	movq	%rcx, -104(%rsp)
	movq	(%rsp), %rcx
	imulq	%rbx, %rcx
	movq	%rcx, (%rsp)
	movq	-8(%rsp), %rcx
	imulq	%rbx, %rcx
	movq	%rcx, -8(%rsp)
	movq	-16(%rsp), %rcx
	imulq	%rbx, %rcx
	movq	%rcx, -16(%rsp)
	movq	-24(%rsp), %rcx
	imulq	%rbx, %rcx
	movq	%rcx, -24(%rsp)
	movq	-32(%rsp), %rcx
	imulq	%rbx, %rcx
	movq	%rcx, -32(%rsp)
	movq	-40(%rsp), %rcx
	imulq	%rbx, %rcx
	movq	%rcx, -40(%rsp)
	movq	-48(%rsp), %rcx
	imulq	%rbx, %rcx
	movq	%rcx, -48(%rsp)
	movq	-56(%rsp), %rcx
	imulq	%rbx, %rcx
	movq	%rcx, -56(%rsp)
	movq	-64(%rsp), %rsi
	imulq	%rbx, %rsi
	movq	%rsi, -64(%rsp)
	imulq	%rbx, %r8
	movq	%r8, -112(%rsp)
	movq	-72(%rsp), %rcx
	imulq	%rbx, %rcx
	movq	%rcx, -72(%rsp)
	movq	%rbx, %rcx
	movq	8(%rsp), %r8
	imulq	%r8, %rcx
	movq	%rcx, 16(%rsp)
	imulq	%rbx, %r13
	movq	%r13, 48(%rsp)
	movq	-88(%rsp), %rcx
	imulq	%rbx, %rcx
	movq	%rcx, -88(%rsp)
	movq	-96(%rsp), %rcx
	imulq	%rbx, %rcx
	movq	%rcx, -96(%rsp)
	movq	288(%rsp), %r10
	movq	-80(%rsp), %rcx
	imulq	%rbx, %rcx
	movq	%rcx, -80(%rsp)
	imulq	%rbx, %r15
	movq	%r15, 40(%rsp)
	imulq	%rbx, %rax
	movq	%rax, 32(%rsp)
	imulq	%rbx, %r12
	movq	%r12, 160(%rsp)
	imulq	%rbx, %rdx
	movq	%rdx, 152(%rsp)
	movq	24(%rsp), %rdx
	imulq	%rbx, %rdx
	imulq	%rbx, %r14
	movq	%r14, 24(%rsp)
	movq	136(%rsp), %r14
	imulq	%rbx, %r10
	imulq	%rbx, %r14
	movq	64(%rsp), %r9
	imulq	%rbx, %r9
	movq	368(%rsp), %r13
	imulq	%rbx, %r13
	movq	336(%rsp), %r12
	imulq	%rbx, %r12
	movq	144(%rsp), %r15
	imulq	%rbx, %r15
	movq	96(%rsp), %rax
	imulq	%rbx, %rax
	movq	%rax, %rbx
	movq	%r8, %rcx
	xorl	%esi, %esi
	jmp	.LBB3_102
	.p2align	4
.LBB3_101:
	addq	176(%rsp), %rsi
	movq	%r11, %r8
	addq	$-32, %r8
	addq	$32, %rcx
	movq	%r8, %r11
	cmpq	$31, %r8
	jbe	.LBB3_25
.LBB3_102:
	cmpq	$-33, %rcx
	ja	.LBB3_101
	movq	-96(%rsp), %rax
	leaq	(%rax,%rsi), %r8
	shrq	$3, %r8
	vmovq	(%rdi,%r8), %xmm10
	movq	-88(%rsp), %rax
	leaq	(%rax,%rsi), %r8
	shrq	$3, %r8
	vmovq	(%rdi,%r8), %xmm11
	movq	48(%rsp), %rax
	leaq	(%rax,%rsi), %r8
	shrq	$3, %r8
	vmovq	(%rdi,%r8), %xmm8
	movq	16(%rsp), %rax
	leaq	(%rax,%rsi), %r8
	vmovq	%r8, %xmm0
	vpbroadcastq	%xmm0, %ymm9
	vpaddq	464(%rsp), %ymm9, %ymm7
	vpaddq	688(%rsp), %ymm9, %ymm6
	vpaddq	656(%rsp), %ymm9, %ymm1
	vpaddq	624(%rsp), %ymm9, %ymm5
	shrq	$3, %r8
	vmovq	(%rdi,%r8), %xmm0
	movq	160(%rsp), %rax
	leaq	(%rax,%rsi), %r8
	shrq	$3, %r8
	vmovq	(%rdi,%r8), %xmm14
	movq	32(%rsp), %rax
	leaq	(%rax,%rsi), %r8
	shrq	$3, %r8
	vmovq	(%rdi,%r8), %xmm3
	movq	40(%rsp), %rax
	leaq	(%rax,%rsi), %r8
	shrq	$3, %r8
	vmovq	(%rdi,%r8), %xmm15
	movq	-80(%rsp), %rax
	leaq	(%rax,%rsi), %r8
	shrq	$3, %r8
	vmovq	(%rdi,%r8), %xmm12
	leaq	(%r10,%rsi), %r8
	shrq	$3, %r8
	vpunpcklqdq	%xmm10, %xmm11, %xmm13
	vmovq	(%rdi,%r8), %xmm10
	movq	24(%rsp), %rax
	leaq	(%rax,%rsi), %r8
	shrq	$3, %r8
	vpunpcklqdq	%xmm8, %xmm0, %xmm0
	vmovq	(%rdi,%r8), %xmm11
	leaq	(%rdx,%rsi), %r8
	shrq	$3, %r8
	vinserti128	$1, %xmm13, %ymm0, %ymm0
	vpbroadcastq	.LCPI3_1(%rip), %ymm8
	vpand	%ymm7, %ymm8, %ymm7
	vpsrlvq	%ymm7, %ymm0, %ymm7
	vmovq	(%rdi,%r8), %xmm0
	movq	152(%rsp), %rax
	leaq	(%rax,%rsi), %r8
	shrq	$3, %r8
	vpunpcklqdq	%xmm14, %xmm3, %xmm3
	vmovq	(%rdi,%r8), %xmm13
	leaq	(%r12,%rsi), %r8
	shrq	$3, %r8
	vpunpcklqdq	%xmm15, %xmm12, %xmm12
	vmovq	(%rdi,%r8), %xmm14
	leaq	(%rsi,%r13), %r8
	shrq	$3, %r8
	vinserti128	$1, %xmm3, %ymm12, %ymm3
	vmovq	(%rdi,%r8), %xmm12
	leaq	(%r9,%rsi), %r8
	shrq	$3, %r8
	vpand	%ymm6, %ymm8, %ymm6
	vpsrlvq	%ymm6, %ymm3, %ymm3
	vmovq	(%rdi,%r8), %xmm6
	leaq	(%r14,%rsi), %r8
	shrq	$3, %r8
	vpand	%ymm1, %ymm8, %ymm1
	vpand	%ymm5, %ymm8, %ymm5
	vpunpcklqdq	%xmm10, %xmm11, %xmm10
	vpunpcklqdq	%xmm0, %xmm13, %xmm0
	vinserti128	$1, %xmm10, %ymm0, %ymm0
	vpsrlvq	%ymm1, %ymm0, %ymm0
	vpunpcklqdq	%xmm14, %xmm12, %xmm1
	vmovq	(%rdi,%r8), %xmm10
	vpunpcklqdq	%xmm6, %xmm10, %xmm6
	vinserti128	$1, %xmm1, %ymm6, %ymm1
	vpsrlvq	%ymm5, %ymm1, %ymm1
	vmovdqu	720(%rsp), %ymm13
	vpand	%ymm7, %ymm13, %ymm5
	vpand	%ymm3, %ymm13, %ymm3
	vpand	%ymm0, %ymm13, %ymm0
	vpand	%ymm1, %ymm13, %ymm1
	vmovdqu	400(%rsp), %ymm4
	vpsubq	%ymm4, %ymm5, %ymm14
	vpsubq	%ymm4, %ymm3, %ymm11
	vpsubq	%ymm4, %ymm0, %ymm7
	vpsubq	%ymm4, %ymm1, %ymm15
	vmovdqu	432(%rsp), %ymm6
	vpsubq	%ymm14, %ymm6, %ymm0
	vmovdqu	%ymm0, 64(%rsp)
	vpsubq	%ymm11, %ymm6, %ymm0
	vmovdqu	%ymm0, 96(%rsp)
	vpaddq	592(%rsp), %ymm9, %ymm1
	vpaddq	560(%rsp), %ymm9, %ymm10
	vpaddq	528(%rsp), %ymm9, %ymm5
	vpaddq	496(%rsp), %ymm9, %ymm9
	movq	-112(%rsp), %r8
	addq	%rsi, %r8
	shrq	$3, %r8
	vmovq	(%rdi,%r8), %xmm0
	movq	-72(%rsp), %rax
	leaq	(%rax,%rsi), %r8
	shrq	$3, %r8
	vmovq	(%rdi,%r8), %xmm3
	leaq	(%rbx,%rsi), %r8
	shrq	$3, %r8
	vpand	%ymm1, %ymm8, %ymm12
	vpand	%ymm8, %ymm10, %ymm10
	vpand	%ymm5, %ymm8, %ymm5
	vpand	%ymm8, %ymm9, %ymm1
	vmovq	(%rdi,%r8), %xmm8
	leaq	(%r15,%rsi), %r8
	shrq	$3, %r8
	vpunpcklqdq	%xmm0, %xmm3, %xmm0
	vmovq	(%rdi,%r8), %xmm3
	movq	-40(%rsp), %r8
	addq	%rsi, %r8
	shrq	$3, %r8
	vpunpcklqdq	%xmm8, %xmm3, %xmm3
	vmovq	(%rdi,%r8), %xmm9
	movq	-48(%rsp), %r8
	addq	%rsi, %r8
	shrq	$3, %r8
	vinserti128	$1, %xmm0, %ymm3, %ymm0
	vmovq	(%rdi,%r8), %xmm3
	movq	-56(%rsp), %r8
	addq	%rsi, %r8
	shrq	$3, %r8
	vpsrlvq	%ymm12, %ymm0, %ymm8
	vmovq	(%rdi,%r8), %xmm0
	movq	-64(%rsp), %r8
	addq	%rsi, %r8
	shrq	$3, %r8
	vpunpcklqdq	%xmm9, %xmm3, %xmm3
	vmovq	(%rdi,%r8), %xmm9
	movq	-8(%rsp), %r8
	addq	%rsi, %r8
	shrq	$3, %r8
	vpunpcklqdq	%xmm0, %xmm9, %xmm0
	vmovq	(%rdi,%r8), %xmm12
	movq	-16(%rsp), %r8
	addq	%rsi, %r8
	shrq	$3, %r8
	vinserti128	$1, %xmm3, %ymm0, %ymm0
	vmovq	(%rdi,%r8), %xmm3
	movq	-24(%rsp), %r8
	addq	%rsi, %r8
	shrq	$3, %r8
	vpsrlvq	%ymm10, %ymm0, %ymm9
	vmovq	(%rdi,%r8), %xmm0
	movq	-32(%rsp), %r8
	addq	%rsi, %r8
	shrq	$3, %r8
	vpunpcklqdq	%xmm12, %xmm3, %xmm3
	vmovq	(%rdi,%r8), %xmm10
	movq	192(%rsp), %r8
	addq	%rsi, %r8
	shrq	$3, %r8
	vpunpcklqdq	%xmm0, %xmm10, %xmm0
	vmovq	(%rdi,%r8), %xmm10
	movq	-120(%rsp), %r8
	addq	%rsi, %r8
	shrq	$3, %r8
	vinserti128	$1, %xmm3, %ymm0, %ymm0
	vmovq	(%rdi,%r8), %xmm3
	movq	-104(%rsp), %r8
	addq	%rsi, %r8
	shrq	$3, %r8
	vpsrlvq	%ymm5, %ymm0, %ymm0
	vmovq	(%rdi,%r8), %xmm5
	movq	(%rsp), %r8
	addq	%rsi, %r8
	shrq	$3, %r8
	vpunpcklqdq	%xmm10, %xmm3, %xmm3
	vmovq	(%rdi,%r8), %xmm10
	vpunpcklqdq	%xmm5, %xmm10, %xmm5
	vpsubq	%ymm7, %ymm6, %ymm10
	vinserti128	$1, %xmm3, %ymm5, %ymm3
	vpsubq	%ymm15, %ymm6, %ymm5
	vpsrlvq	%ymm1, %ymm3, %ymm1
	vpand	%ymm13, %ymm8, %ymm3
	vpand	%ymm13, %ymm9, %ymm8
	vpand	%ymm0, %ymm13, %ymm0
	vpand	%ymm1, %ymm13, %ymm1
	vpsubq	%ymm4, %ymm3, %ymm3
	vpsubq	%ymm4, %ymm8, %ymm8
	vpsubq	%ymm4, %ymm0, %ymm0
	vpsubq	%ymm4, %ymm1, %ymm1
	vpsubq	%ymm3, %ymm6, %ymm9
	vpor	64(%rsp), %ymm9, %ymm9
	vpsubq	%ymm8, %ymm6, %ymm12
	vpor	96(%rsp), %ymm12, %ymm12
	vpsubq	%ymm0, %ymm6, %ymm13
	vpor	%ymm13, %ymm10, %ymm10
	vpsubq	%ymm1, %ymm6, %ymm13
	vpor	%ymm5, %ymm13, %ymm5
	vpor	%ymm3, %ymm14, %ymm3
	vpor	%ymm3, %ymm9, %ymm3
	vpor	%ymm11, %ymm12, %ymm9
	vmovdqu	224(%rsp), %ymm12
	vpor	%ymm3, %ymm9, %ymm3
	vpor	%ymm3, %ymm8, %ymm3
	vpor	%ymm7, %ymm10, %ymm6
	vpor	%ymm0, %ymm6, %ymm0
	vpor	%ymm3, %ymm0, %ymm0
	vpor	%ymm5, %ymm15, %ymm3
	vpor	%ymm1, %ymm3, %ymm1
	vpor	%ymm0, %ymm1, %ymm0
	vextracti128	$1, %ymm0, %xmm1
	vpor	%xmm1, %xmm0, %xmm0
	vpshufd	$238, %xmm0, %xmm1
	vpor	%xmm1, %xmm0, %xmm0
	vmovq	%xmm0, %r8
	testq	%r8, %r8
	jns	.LBB3_101
	jmp	.LBB3_25
.LBB3_110:
	xorl	%eax, %eax
	testq	%r14, %r14
	jne	.LBB3_119
	movq	168(%rsp), %rsi
	cmpq	%rsi, 184(%rsp)
	ja	.LBB3_119
	cmpq	$1, %rbp
	jne	.LBB3_119
	movq	296(%rsp), %rcx
	cmpq	$2, %rcx
	jb	.LBB3_116
	movq	%rsi, %rax
	orq	%rcx, %rax
	shrq	$32, %rax
	je	.LBB3_116
	movq	264(%rsp), %rax
	xorl	%edx, %edx
	divq	%rcx
	movq	%rax, %rcx
	xorl	%eax, %eax
	cmpq	%rcx, %rsi
	jbe	.LBB3_118
	jmp	.LBB3_119
.LBB3_116:
	imulq	%rcx, %rsi
	cmpq	264(%rsp), %rsi
	jbe	.LBB3_118
.LBB3_4:
	xorl	%eax, %eax
	jmp	.LBB3_119
.LBB3_118:
	movb	$1, %al
.LBB3_119:
	addq	$824, %rsp
	popq	%rbx
	popq	%r12
	popq	%r13
	popq	%r14
	popq	%r15
	popq	%rbp
	vzeroupper
	retq
.Lfunc_end3:
	.size	"scaled_check::values_ok", .Lfunc_end3-"scaled_check::values_ok"

	.section	".text.table_values::saves","ax",@progbits
	.p2align	4
	.type	"table_values::saves",@function
"table_values::saves":
	pushq	%r15
	pushq	%r14
	pushq	%r12
	pushq	%rbx
	subq	$24, %rsp
	movq	%rdx, %rbx
	movq	%rsi, %rdx
	movq	%rdi, %rsi
	leaq	-1(%rdx), %rax
	lzcntq	%rax, %rax
	movl	$64, %ecx
	subq	%rax, %rcx
	imulq	%rbx, %rcx
	addq	$7, %rcx
	shrq	$3, %rcx
	leaq	(%rcx,%rdx,8), %r14
	movl	$1, %r15d
	movl	$1, %r12d
	cmpq	$128, %rdx
	jb	.LBB4_3
	movq	%rdx, %rax
	movq	%rdx, %rcx
	.p2align	4
.LBB4_2:
	shrq	$7, %rcx
	incq	%r12
	cmpq	$16383, %rax
	movq	%rcx, %rax
	ja	.LBB4_2
.LBB4_3:
	cmpq	$128, %r14
	jb	.LBB4_6
	movl	$1, %r15d
	movq	%r14, %rax
	movq	%r14, %rcx
	.p2align	4
.LBB4_5:
	shrq	$7, %rcx
	incq	%r15
	cmpq	$16383, %rax
	movq	%rcx, %rax
	ja	.LBB4_5
.LBB4_6:
	vxorps	%xmm0, %xmm0, %xmm0
	vmovaps	%xmm0, (%rsp)
	movq	$0, 16(%rsp)
	movq	%rsp, %rdi
	callq	"scaling::scale_of"
	xorl	%eax, %eax
	lzcntq	16(%rsp), %rax
	movl	$64, %edx
	subq	%rax, %rdx
	movq	(%rsp), %rdi
	movq	8(%rsp), %rsi
	imulq	%rbx, %rdx
	movl	$1, %eax
	movl	$1, %ecx
	cmpq	$128, %rdi
	jb	.LBB4_9
	movq	%rdi, %r8
	.p2align	4
.LBB4_8:
	shrq	$7, %r8
	incq	%rcx
	cmpq	$16383, %rdi
	movq	%r8, %rdi
	ja	.LBB4_8
.LBB4_9:
	addq	$7, %rdx
	cmpq	$128, %rsi
	jb	.LBB4_12
	movl	$1, %eax
	movq	%rsi, %rdi
	.p2align	4
.LBB4_11:
	shrq	$7, %rdi
	incq	%rax
	cmpq	$16383, %rsi
	movq	%rdi, %rsi
	ja	.LBB4_11
.LBB4_12:
	movq	%rdx, %rsi
	shrq	$3, %rsi
	movl	$1, %edi
	cmpq	$1024, %rdx
	jb	.LBB4_15
	movq	%rsi, %rdx
	movq	%rsi, %r8
	.p2align	4
.LBB4_14:
	shrq	$7, %r8
	incq	%rdi
	cmpq	$16383, %rdx
	movq	%r8, %rdx
	ja	.LBB4_14
.LBB4_15:
	addq	%r12, %r14
	leaq	(%r15,%r14), %rdx
	addq	$2, %rdx
	addq	%rcx, %rsi
	addq	%rax, %rsi
	leaq	(%rdi,%rsi), %rax
	incq	%rax
	cmpq	%rax, %rdx
	setb	%al
	addq	$24, %rsp
	popq	%rbx
	popq	%r12
	popq	%r14
	popq	%r15
	retq
.Lfunc_end4:
	.size	"table_values::saves", .Lfunc_end4-"table_values::saves"

	.section	.rodata.cst8,"aM",@progbits,8
	.p2align	3, 0x0
.LCPI5_0:
	.quad	-9223372036854775808
	.section	".text.scaling::scale_of","ax",@progbits
	.p2align	4
	.type	"scaling::scale_of",@function
"scaling::scale_of":
	pushq	%rbp
	pushq	%r15
	pushq	%r14
	pushq	%r13
	pushq	%r12
	pushq	%rbx
	subq	$616, %rsp
	movabsq	$-9223372036854775808, %r10
	testq	%rdx, %rdx
	je	.LBB5_1
	movq	%rdx, %rcx
	movq	(%rsi), %r8
	xorq	%r10, %r8
	leaq	96(%rsi), %r12
	xorl	%eax, %eax
	movq	%r8, %rbx
	jmp	.LBB5_4
	.p2align	4
.LBB5_22:
	cmpq	%rcx, %rax
	jae	.LBB5_23
.LBB5_4:
	movq	%rcx, %rdx
	subq	%rax, %rdx
	cmpq	$1024, %rdx
	movl	$1024, %r9d
	cmovbq	%rdx, %r9
	leaq	(%rsi,%rax,8), %r14
	cmpq	$4, %rdx
	jae	.LBB5_7
	xorl	%r15d, %r15d
	jmp	.LBB5_6
	.p2align	4
.LBB5_7:
	cmpq	$16, %rdx
	jae	.LBB5_9
	xorl	%r15d, %r15d
	jmp	.LBB5_13
	.p2align	4
.LBB5_9:
	leaq	(,%rax,8), %r11
	movl	%r9d, %r15d
	andl	$2032, %r15d
	vmovq	%r8, %xmm0
	vpbroadcastq	%xmm0, %ymm0
	vmovq	%rbx, %xmm1
	vpbroadcastq	%xmm1, %ymm5
	addq	%r12, %r11
	xorl	%r8d, %r8d
	vmovdqa	%ymm5, %ymm8
	vmovdqa	%ymm5, %ymm7
	vmovdqa	%ymm5, %ymm6
	vmovdqa	%ymm0, %ymm4
	vmovdqa	%ymm0, %ymm2
	vmovdqa	%ymm0, %ymm1
	.p2align	4
.LBB5_10:
	vmovdqu	-96(%r11,%r8,8), %ymm9
	vpbroadcastq	.LCPI5_0(%rip), %ymm3
	vpxor	%ymm3, %ymm9, %ymm10
	vpxor	%ymm3, %ymm5, %ymm11
	vpcmpgtq	%ymm9, %ymm11, %ymm11
	vblendvpd	%ymm11, %ymm10, %ymm5, %ymm5
	vpxor	%ymm3, %ymm0, %ymm11
	vpcmpgtq	%ymm11, %ymm9, %ymm9
	vblendvpd	%ymm9, %ymm10, %ymm0, %ymm0
	vmovdqu	-64(%r11,%r8,8), %ymm9
	vpxor	%ymm3, %ymm9, %ymm10
	vpxor	%ymm3, %ymm8, %ymm11
	vpcmpgtq	%ymm9, %ymm11, %ymm11
	vblendvpd	%ymm11, %ymm10, %ymm8, %ymm8
	vpxor	%ymm3, %ymm4, %ymm11
	vpcmpgtq	%ymm11, %ymm9, %ymm9
	vmovdqu	-32(%r11,%r8,8), %ymm11
	vblendvpd	%ymm9, %ymm10, %ymm4, %ymm4
	vpxor	%ymm3, %ymm11, %ymm9
	vpxor	%ymm3, %ymm7, %ymm10
	vpcmpgtq	%ymm11, %ymm10, %ymm10
	vblendvpd	%ymm10, %ymm9, %ymm7, %ymm7
	vpxor	%ymm3, %ymm2, %ymm10
	vpcmpgtq	%ymm10, %ymm11, %ymm10
	vblendvpd	%ymm10, %ymm9, %ymm2, %ymm2
	vmovdqu	(%r11,%r8,8), %ymm9
	vpxor	%ymm3, %ymm9, %ymm10
	vpxor	%ymm3, %ymm6, %ymm11
	vpcmpgtq	%ymm9, %ymm11, %ymm11
	vblendvpd	%ymm11, %ymm10, %ymm6, %ymm6
	vpxor	%ymm3, %ymm1, %ymm11
	vpcmpgtq	%ymm11, %ymm9, %ymm9
	vblendvpd	%ymm9, %ymm10, %ymm1, %ymm1
	addq	$16, %r8
	cmpq	%r8, %r15
	jne	.LBB5_10
	vxorpd	%ymm3, %ymm5, %ymm9
	vxorpd	%ymm3, %ymm8, %ymm10
	vpcmpgtq	%ymm9, %ymm10, %ymm9
	vblendvpd	%ymm9, %ymm5, %ymm8, %ymm5
	vxorpd	%ymm3, %ymm5, %ymm8
	vxorpd	%ymm3, %ymm7, %ymm9
	vpcmpgtq	%ymm8, %ymm9, %ymm8
	vblendvpd	%ymm8, %ymm5, %ymm7, %ymm5
	vxorpd	%ymm3, %ymm5, %ymm7
	vxorpd	%ymm3, %ymm6, %ymm8
	vpcmpgtq	%ymm7, %ymm8, %ymm7
	vblendvpd	%ymm7, %ymm5, %ymm6, %ymm5
	vextractf128	$1, %ymm5, %xmm6
	vxorpd	%xmm3, %xmm5, %xmm7
	vxorpd	%xmm3, %xmm6, %xmm8
	vpcmpgtq	%xmm7, %xmm8, %xmm7
	vblendvpd	%xmm7, %xmm5, %xmm6, %xmm5
	vshufps	$238, %xmm5, %xmm5, %xmm6
	vxorpd	%xmm3, %xmm5, %xmm7
	vxorpd	%xmm3, %xmm6, %xmm8
	vpcmpgtq	%xmm7, %xmm8, %xmm7
	vblendvpd	%xmm7, %xmm5, %xmm6, %xmm5
	vxorpd	%ymm3, %ymm4, %ymm6
	vxorpd	%ymm3, %ymm0, %ymm7
	vpcmpgtq	%ymm6, %ymm7, %ymm6
	vblendvpd	%ymm6, %ymm0, %ymm4, %ymm0
	vxorpd	%ymm3, %ymm0, %ymm4
	vxorpd	%ymm3, %ymm2, %ymm6
	vpcmpgtq	%ymm6, %ymm4, %ymm4
	vblendvpd	%ymm4, %ymm0, %ymm2, %ymm0
	vmovq	%xmm5, %rbx
	vxorpd	%ymm3, %ymm0, %ymm2
	vxorpd	%ymm3, %ymm1, %ymm4
	vpcmpgtq	%ymm4, %ymm2, %ymm2
	vblendvpd	%ymm2, %ymm0, %ymm1, %ymm0
	vextractf128	$1, %ymm0, %xmm1
	vxorpd	%xmm3, %xmm1, %xmm2
	vxorpd	%xmm3, %xmm0, %xmm4
	vpcmpgtq	%xmm2, %xmm4, %xmm2
	vblendvpd	%xmm2, %xmm0, %xmm1, %xmm0
	vshufps	$238, %xmm0, %xmm0, %xmm1
	vxorpd	%xmm3, %xmm0, %xmm2
	vxorpd	%xmm3, %xmm1, %xmm3
	vpcmpgtq	%xmm3, %xmm2, %xmm2
	vblendvpd	%xmm2, %xmm0, %xmm1, %xmm0
	vmovq	%xmm0, %r8
	cmpq	%r15, %r9
	je	.LBB5_17
	testb	$12, %r9b
	je	.LBB5_6
.LBB5_13:
	movq	%r15, %r11
	movl	%r9d, %r15d
	andl	$2044, %r15d
	vmovq	%rbx, %xmm0
	vpbroadcastq	%xmm0, %ymm1
	vmovq	%r8, %xmm0
	vpbroadcastq	%xmm0, %ymm0
	.p2align	4
.LBB5_14:
	vmovdqu	(%r14,%r11,8), %ymm2
	vpbroadcastq	.LCPI5_0(%rip), %ymm3
	vpxor	%ymm3, %ymm2, %ymm4
	vpxor	%ymm3, %ymm1, %ymm5
	vpcmpgtq	%ymm2, %ymm5, %ymm5
	vblendvpd	%ymm5, %ymm4, %ymm1, %ymm1
	vpxor	%ymm3, %ymm0, %ymm3
	vpcmpgtq	%ymm3, %ymm2, %ymm2
	vblendvpd	%ymm2, %ymm4, %ymm0, %ymm0
	addq	$4, %r11
	cmpq	%r11, %r15
	jne	.LBB5_14
	vextractf128	$1, %ymm1, %xmm2
	vmovddup	.LCPI5_0(%rip), %xmm3
	vxorpd	%xmm3, %xmm1, %xmm4
	vxorpd	%xmm3, %xmm2, %xmm5
	vpcmpgtq	%xmm4, %xmm5, %xmm4
	vblendvpd	%xmm4, %xmm1, %xmm2, %xmm1
	vshufps	$238, %xmm1, %xmm1, %xmm2
	vxorpd	%xmm3, %xmm1, %xmm4
	vxorpd	%xmm3, %xmm2, %xmm5
	vpcmpgtq	%xmm4, %xmm5, %xmm4
	vblendvpd	%xmm4, %xmm1, %xmm2, %xmm1
	vmovq	%xmm1, %rbx
	vextractf128	$1, %ymm0, %xmm1
	vxorpd	%xmm3, %xmm1, %xmm2
	vxorpd	%xmm3, %xmm0, %xmm4
	vpcmpgtq	%xmm2, %xmm4, %xmm2
	vblendvpd	%xmm2, %xmm0, %xmm1, %xmm0
	vshufps	$238, %xmm0, %xmm0, %xmm1
	vxorpd	%xmm3, %xmm0, %xmm2
	vxorpd	%xmm3, %xmm1, %xmm3
	vpcmpgtq	%xmm3, %xmm2, %xmm2
	vblendvpd	%xmm2, %xmm0, %xmm1, %xmm0
	vmovq	%xmm0, %r8
	jmp	.LBB5_16
	.p2align	4
.LBB5_6:
	movq	%r8, %r11
	movq	(%r14,%r15,8), %r8
	xorq	%r10, %r8
	cmpq	%rbx, %r8
	cmovbq	%r8, %rbx
	cmpq	%r11, %r8
	cmovbeq	%r11, %r8
	incq	%r15
.LBB5_16:
	cmpq	%r15, %r9
	jne	.LBB5_6
.LBB5_17:
	addq	%r9, %rax
	movq	%rcx, %r11
	subq	%rax, %r11
	cmpq	$128, %r11
	jb	.LBB5_22
	movq	%r8, %r11
	subq	%rbx, %r11
	js	.LBB5_22
	vmovq	%r11, %xmm0
	vpbroadcastq	%xmm0, %ymm0
	vmovq	%rbx, %xmm1
	vpbroadcastq	%xmm1, %ymm1
	subq	%r9, %rdx
	.p2align	4
.LBB5_20:
	vpbroadcastq	.LCPI5_0(%rip), %ymm7
	vpxor	(%rsi,%rax,8), %ymm7, %ymm2
	vpxor	32(%rsi,%rax,8), %ymm7, %ymm3
	vpxor	64(%rsi,%rax,8), %ymm7, %ymm4
	vpxor	96(%rsi,%rax,8), %ymm7, %ymm5
	vpsubq	%ymm1, %ymm2, %ymm2
	vmovdqu	%ymm2, 544(%rsp)
	vpsubq	%ymm1, %ymm3, %ymm3
	vmovdqu	%ymm3, -128(%rsp)
	vpsubq	%ymm1, %ymm4, %ymm4
	vmovdqu	%ymm4, -64(%rsp)
	vpsubq	%ymm1, %ymm5, %ymm9
	vmovdqu	%ymm9, -32(%rsp)
	vpsubq	%ymm2, %ymm0, %ymm2
	vpsubq	%ymm3, %ymm0, %ymm3
	vpsubq	%ymm4, %ymm0, %ymm5
	vpxor	128(%rsi,%rax,8), %ymm7, %ymm4
	vpxor	160(%rsi,%rax,8), %ymm7, %ymm6
	vpxor	192(%rsi,%rax,8), %ymm7, %ymm8
	vpsubq	%ymm9, %ymm0, %ymm9
	vpxor	224(%rsi,%rax,8), %ymm7, %ymm10
	vpsubq	%ymm1, %ymm4, %ymm4
	vmovdqu	%ymm4, 480(%rsp)
	vpsubq	%ymm1, %ymm6, %ymm12
	vmovdqu	%ymm12, 512(%rsp)
	vpsubq	%ymm1, %ymm8, %ymm11
	vmovdqu	%ymm11, 576(%rsp)
	vpsubq	%ymm1, %ymm10, %ymm8
	vmovdqu	%ymm8, -96(%rsp)
	vpsubq	%ymm4, %ymm0, %ymm4
	vpor	%ymm4, %ymm2, %ymm6
	vpsubq	%ymm12, %ymm0, %ymm2
	vpor	%ymm2, %ymm3, %ymm4
	vpsubq	%ymm11, %ymm0, %ymm2
	vpor	%ymm2, %ymm5, %ymm3
	vpsubq	%ymm8, %ymm0, %ymm2
	vpxor	256(%rsi,%rax,8), %ymm7, %ymm5
	vpor	%ymm2, %ymm9, %ymm2
	vpsubq	%ymm1, %ymm5, %ymm8
	vmovdqu	%ymm8, 448(%rsp)
	vpxor	384(%rsi,%rax,8), %ymm7, %ymm5
	vpsubq	%ymm8, %ymm0, %ymm8
	vpsubq	%ymm1, %ymm5, %ymm5
	vmovdqu	%ymm5, 288(%rsp)
	vpsubq	%ymm5, %ymm0, %ymm5
	vpor	%ymm5, %ymm8, %ymm5
	vpor	%ymm5, %ymm6, %ymm10
	vpxor	288(%rsi,%rax,8), %ymm7, %ymm5
	vpsubq	%ymm1, %ymm5, %ymm6
	vmovdqu	%ymm6, 256(%rsp)
	vpxor	416(%rsi,%rax,8), %ymm7, %ymm5
	vpsubq	%ymm1, %ymm5, %ymm8
	vmovdqu	%ymm8, 224(%rsp)
	vpsubq	%ymm6, %ymm0, %ymm5
	vpsubq	%ymm8, %ymm0, %ymm6
	vpor	%ymm6, %ymm5, %ymm5
	vpxor	320(%rsi,%rax,8), %ymm7, %ymm6
	vpor	%ymm5, %ymm4, %ymm15
	vpsubq	%ymm1, %ymm6, %ymm5
	vmovdqu	%ymm5, 320(%rsp)
	vpxor	448(%rsi,%rax,8), %ymm7, %ymm4
	vpsubq	%ymm1, %ymm4, %ymm6
	vmovdqu	%ymm6, 384(%rsp)
	vpsubq	%ymm5, %ymm0, %ymm4
	vpsubq	%ymm6, %ymm0, %ymm5
	vpor	%ymm5, %ymm4, %ymm4
	vpor	%ymm4, %ymm3, %ymm12
	vpxor	352(%rsi,%rax,8), %ymm7, %ymm3
	vpsubq	%ymm1, %ymm3, %ymm4
	vmovdqu	%ymm4, 416(%rsp)
	vpxor	480(%rsi,%rax,8), %ymm7, %ymm3
	vpsubq	%ymm1, %ymm3, %ymm5
	vmovdqu	%ymm5, 352(%rsp)
	vpsubq	%ymm4, %ymm0, %ymm3
	vpsubq	%ymm5, %ymm0, %ymm4
	vpor	%ymm4, %ymm3, %ymm3
	vpxor	512(%rsi,%rax,8), %ymm7, %ymm4
	vpor	%ymm3, %ymm2, %ymm13
	vpsubq	%ymm1, %ymm4, %ymm3
	vmovdqu	%ymm3, 64(%rsp)
	vpxor	640(%rsi,%rax,8), %ymm7, %ymm2
	vpsubq	%ymm1, %ymm2, %ymm4
	vmovdqu	%ymm4, (%rsp)
	vpsubq	%ymm3, %ymm0, %ymm2
	vpsubq	%ymm4, %ymm0, %ymm3
	vpor	%ymm3, %ymm2, %ymm9
	vpxor	544(%rsi,%rax,8), %ymm7, %ymm3
	vpxor	672(%rsi,%rax,8), %ymm7, %ymm4
	vpsubq	%ymm1, %ymm3, %ymm14
	vpsubq	%ymm1, %ymm4, %ymm2
	vmovdqu	%ymm2, 32(%rsp)
	vpsubq	%ymm14, %ymm0, %ymm3
	vpsubq	%ymm2, %ymm0, %ymm4
	vpor	%ymm4, %ymm3, %ymm3
	vpxor	576(%rsi,%rax,8), %ymm7, %ymm4
	vpsubq	%ymm1, %ymm4, %ymm2
	vmovdqu	%ymm2, 128(%rsp)
	vpxor	704(%rsi,%rax,8), %ymm7, %ymm4
	vpsubq	%ymm1, %ymm4, %ymm5
	vmovdqu	%ymm5, 96(%rsp)
	vpsubq	%ymm2, %ymm0, %ymm4
	vpsubq	%ymm5, %ymm0, %ymm5
	vpor	%ymm5, %ymm4, %ymm4
	vpxor	608(%rsi,%rax,8), %ymm7, %ymm5
	vpsubq	%ymm1, %ymm5, %ymm2
	vmovdqu	%ymm2, 160(%rsp)
	vpxor	736(%rsi,%rax,8), %ymm7, %ymm5
	vpsubq	%ymm1, %ymm5, %ymm6
	vmovdqu	%ymm6, 192(%rsp)
	vpsubq	%ymm2, %ymm0, %ymm5
	vpsubq	%ymm6, %ymm0, %ymm6
	vpxor	768(%rsi,%rax,8), %ymm7, %ymm8
	vpor	%ymm6, %ymm5, %ymm2
	vpsubq	%ymm1, %ymm8, %ymm8
	vpsubq	%ymm8, %ymm0, %ymm6
	vpor	%ymm6, %ymm9, %ymm6
	vpor	%ymm6, %ymm10, %ymm11
	vpxor	800(%rsi,%rax,8), %ymm7, %ymm6
	vpsubq	%ymm1, %ymm6, %ymm10
	vpsubq	%ymm10, %ymm0, %ymm9
	vpor	%ymm3, %ymm9, %ymm3
	vpxor	832(%rsi,%rax,8), %ymm7, %ymm9
	vpor	%ymm3, %ymm15, %ymm3
	vpsubq	%ymm1, %ymm9, %ymm15
	vpsubq	%ymm15, %ymm0, %ymm9
	vpor	%ymm4, %ymm9, %ymm4
	vpor	%ymm4, %ymm12, %ymm5
	vpxor	864(%rsi,%rax,8), %ymm7, %ymm9
	vpsubq	%ymm1, %ymm9, %ymm12
	vpsubq	%ymm12, %ymm0, %ymm9
	vpor	%ymm2, %ymm9, %ymm2
	vpxor	928(%rsi,%rax,8), %ymm7, %ymm9
	vpor	%ymm2, %ymm13, %ymm4
	vpsubq	%ymm1, %ymm9, %ymm2
	vpsubq	%ymm2, %ymm0, %ymm9
	vpor	%ymm3, %ymm9, %ymm6
	vpxor	960(%rsi,%rax,8), %ymm7, %ymm3
	vpsubq	%ymm1, %ymm3, %ymm3
	vpsubq	%ymm3, %ymm0, %ymm9
	vpor	%ymm5, %ymm9, %ymm5
	vpxor	992(%rsi,%rax,8), %ymm7, %ymm9
	vpsubq	%ymm1, %ymm9, %ymm9
	vpsubq	%ymm9, %ymm0, %ymm13
	vpor	%ymm4, %ymm13, %ymm4
	vpxor	896(%rsi,%rax,8), %ymm7, %ymm7
	vpsubq	%ymm1, %ymm7, %ymm7
	vpsubq	%ymm7, %ymm0, %ymm13
	vpor	544(%rsp), %ymm13, %ymm13
	vpor	480(%rsp), %ymm13, %ymm13
	vpor	448(%rsp), %ymm13, %ymm13
	vpor	%ymm13, %ymm11, %ymm11
	vmovdqu	64(%rsp), %ymm13
	vpor	288(%rsp), %ymm13, %ymm13
	vpor	(%rsp), %ymm13, %ymm13
	vpor	%ymm8, %ymm13, %ymm8
	vpor	%ymm7, %ymm8, %ymm7
	vpor	%ymm7, %ymm11, %ymm7
	vpor	-128(%rsp), %ymm6, %ymm6
	vpor	%ymm7, %ymm6, %ymm6
	vmovdqu	256(%rsp), %ymm7
	vpor	512(%rsp), %ymm7, %ymm7
	vpor	224(%rsp), %ymm7, %ymm7
	vpor	%ymm7, %ymm14, %ymm7
	vpor	32(%rsp), %ymm7, %ymm7
	vpor	%ymm7, %ymm10, %ymm7
	vpor	%ymm2, %ymm7, %ymm2
	vpor	%ymm2, %ymm6, %ymm2
	vpor	-64(%rsp), %ymm5, %ymm5
	vpor	576(%rsp), %ymm5, %ymm5
	vpor	320(%rsp), %ymm5, %ymm5
	vpor	%ymm2, %ymm5, %ymm2
	vmovdqu	128(%rsp), %ymm5
	vpor	384(%rsp), %ymm5, %ymm5
	vpor	96(%rsp), %ymm5, %ymm5
	vpor	%ymm5, %ymm15, %ymm5
	vpor	%ymm3, %ymm5, %ymm3
	vpor	%ymm3, %ymm2, %ymm2
	vpor	-32(%rsp), %ymm4, %ymm3
	vpor	-96(%rsp), %ymm3, %ymm3
	vpor	416(%rsp), %ymm3, %ymm3
	vpor	352(%rsp), %ymm3, %ymm3
	vpor	160(%rsp), %ymm3, %ymm3
	vpor	%ymm2, %ymm3, %ymm2
	vpor	192(%rsp), %ymm12, %ymm3
	vpor	%ymm3, %ymm9, %ymm3
	vpor	%ymm3, %ymm2, %ymm2
	vextracti128	$1, %ymm2, %xmm3
	vpor	%xmm3, %xmm2, %xmm2
	vpshufd	$238, %xmm2, %xmm3
	vpor	%xmm3, %xmm2, %xmm2
	vmovq	%xmm2, %r9
	testq	%r9, %r9
	js	.LBB5_22
	subq	$-128, %rax
	addq	$-128, %rdx
	cmpq	$127, %rdx
	ja	.LBB5_20
	jmp	.LBB5_22
.LBB5_23:
	subq	%rbx, %r8
	je	.LBB5_24
	movq	%rdi, -128(%rsp)
	movabsq	$-4294967296, %rdi
	vmovq	%rbx, %xmm0
	vpbroadcastq	%xmm0, %ymm14
	xorl	%r14d, %r14d
	xorl	%ebp, %ebp
	jmp	.LBB5_26
.LBB5_1:
	xorl	%r8d, %r8d
	jmp	.LBB5_2
.LBB5_24:
	xorl	%r8d, %r8d
	movq	%rbx, %r10
	jmp	.LBB5_2
.LBB5_45:
	movabsq	$-4294967296, %rdi
.LBB5_56:
	movq	%r12, %r14
	cmpq	%rcx, %r12
	jae	.LBB5_57
.LBB5_26:
	movq	%rcx, %r13
	subq	%r14, %r13
	cmpq	$1024, %r13
	movl	$1024, %r11d
	cmovbq	%r13, %r11
	leaq	(%rdi,%rbp), %rax
	leaq	2(%rdi), %rdx
	movq	%rdx, -64(%rsp)
	cmpq	%rdx, %rax
	jae	.LBB5_28
	xorl	%r9d, %r9d
	jmp	.LBB5_29
	.p2align	4
.LBB5_28:
	movabsq	$4294967296, %rax
	xorl	%edx, %edx
	divq	%rbp
	movq	%rax, %r9
	incq	%r9
.LBB5_29:
	leaq	(%r11,%r14), %r12
	leaq	(%rsi,%r14,8), %rdi
	shlq	$3, %r14
	movq	%r14, -96(%rsp)
	xorl	%r15d, %r15d
	jmp	.LBB5_30
.LBB5_42:
	movabsq	$4294967296, %rdx
	movq	%rax, %rbp
	movq	%rdx, %rax
	xorl	%edx, %edx
	divq	%rbp
	movq	%rax, %r9
	incq	%r9
	.p2align	4
.LBB5_43:
	incq	%r15
	cmpq	%r11, %r15
	je	.LBB5_44
.LBB5_30:
	movq	(%rdi,%r15,8), %rax
	xorq	%r10, %rax
	subq	%rbx, %rax
	movq	%rax, %rdx
	shrq	$32, %rdx
	jne	.LBB5_32
	movq	%rax, %rdx
	imulq	%r9, %rdx
	shrq	$32, %rdx
	imulq	%rbp, %rdx
	cmpq	%rax, %rdx
	je	.LBB5_43
.LBB5_32:
	movq	%rbp, %r14
	testq	%rbp, %rbp
	jne	.LBB5_33
	jmp	.LBB5_37
	.p2align	4
.LBB5_35:
	xorl	%edx, %edx
	divq	%r14
	movq	%r14, %rax
	movq	%rdx, %r14
	testq	%rdx, %rdx
	je	.LBB5_37
.LBB5_33:
	movq	%rax, %rdx
	orq	%r14, %rdx
	shrq	$32, %rdx
	jne	.LBB5_35
	xorl	%edx, %edx
	divl	%r14d
	movq	%r14, %rax
	movq	%rdx, %r14
	testq	%rdx, %rdx
	jne	.LBB5_33
.LBB5_37:
	cmpq	$1, %rax
	je	.LBB5_38
	cmpq	%rbp, %rax
	je	.LBB5_43
	movabsq	$-4294967296, %rdx
	addq	%rax, %rdx
	cmpq	-64(%rsp), %rdx
	jae	.LBB5_42
	xorl	%r9d, %r9d
	movq	%rax, %rbp
	jmp	.LBB5_43
	.p2align	4
.LBB5_44:
	movq	%rcx, %rax
	subq	%r12, %rax
	cmpq	$128, %rax
	jb	.LBB5_45
	movq	%rbp, %rax
	shrq	$32, %rax
	movabsq	$-4294967296, %rdi
	jne	.LBB5_56
	cmpq	$1, %rbp
	ja	.LBB5_51
	subq	%r11, %r13
	.p2align	4
.LBB5_49:
	vpbroadcastq	.LCPI5_0(%rip), %ymm1
	vpxor	(%rsi,%r12,8), %ymm1, %ymm2
	vpxor	32(%rsi,%r12,8), %ymm1, %ymm3
	vpxor	64(%rsi,%r12,8), %ymm1, %ymm4
	vpxor	96(%rsi,%r12,8), %ymm1, %ymm5
	vpsubq	%ymm14, %ymm2, %ymm2
	vpsubq	%ymm14, %ymm3, %ymm3
	vpsubq	%ymm14, %ymm4, %ymm4
	vpxor	128(%rsi,%r12,8), %ymm1, %ymm6
	vpxor	160(%rsi,%r12,8), %ymm1, %ymm7
	vpxor	192(%rsi,%r12,8), %ymm1, %ymm8
	vpsubq	%ymm14, %ymm5, %ymm5
	vpxor	224(%rsi,%r12,8), %ymm1, %ymm9
	vpsubq	%ymm14, %ymm6, %ymm6
	vpor	%ymm2, %ymm6, %ymm2
	vpsubq	%ymm14, %ymm7, %ymm6
	vpor	%ymm3, %ymm6, %ymm3
	vpsubq	%ymm14, %ymm8, %ymm6
	vpor	%ymm4, %ymm6, %ymm4
	vpsubq	%ymm14, %ymm9, %ymm6
	vpxor	256(%rsi,%r12,8), %ymm1, %ymm7
	vpxor	288(%rsi,%r12,8), %ymm1, %ymm8
	vpxor	320(%rsi,%r12,8), %ymm1, %ymm9
	vpor	%ymm5, %ymm6, %ymm5
	vpxor	352(%rsi,%r12,8), %ymm1, %ymm6
	vpsubq	%ymm14, %ymm7, %ymm7
	vpsubq	%ymm14, %ymm8, %ymm8
	vpsubq	%ymm14, %ymm9, %ymm9
	vpxor	384(%rsi,%r12,8), %ymm1, %ymm10
	vpxor	416(%rsi,%r12,8), %ymm1, %ymm11
	vpxor	448(%rsi,%r12,8), %ymm1, %ymm12
	vpsubq	%ymm14, %ymm6, %ymm6
	vpxor	480(%rsi,%r12,8), %ymm1, %ymm13
	vpsubq	%ymm14, %ymm10, %ymm10
	vpor	%ymm7, %ymm10, %ymm7
	vpor	%ymm2, %ymm7, %ymm2
	vpsubq	%ymm14, %ymm11, %ymm7
	vpor	%ymm7, %ymm8, %ymm7
	vpor	%ymm3, %ymm7, %ymm3
	vpsubq	%ymm14, %ymm12, %ymm7
	vpor	%ymm7, %ymm9, %ymm7
	vpor	%ymm4, %ymm7, %ymm4
	vpsubq	%ymm14, %ymm13, %ymm7
	vpor	%ymm6, %ymm7, %ymm6
	vpxor	512(%rsi,%r12,8), %ymm1, %ymm7
	vpxor	544(%rsi,%r12,8), %ymm1, %ymm8
	vpxor	576(%rsi,%r12,8), %ymm1, %ymm9
	vpor	%ymm5, %ymm6, %ymm5
	vpxor	608(%rsi,%r12,8), %ymm1, %ymm6
	vpsubq	%ymm14, %ymm7, %ymm7
	vpsubq	%ymm14, %ymm8, %ymm8
	vpsubq	%ymm14, %ymm9, %ymm9
	vpxor	640(%rsi,%r12,8), %ymm1, %ymm10
	vpxor	672(%rsi,%r12,8), %ymm1, %ymm11
	vpxor	704(%rsi,%r12,8), %ymm1, %ymm12
	vpsubq	%ymm14, %ymm6, %ymm6
	vpxor	736(%rsi,%r12,8), %ymm1, %ymm13
	vpsubq	%ymm14, %ymm10, %ymm10
	vpor	%ymm7, %ymm10, %ymm7
	vpsubq	%ymm14, %ymm11, %ymm10
	vpor	%ymm8, %ymm10, %ymm8
	vpsubq	%ymm14, %ymm12, %ymm10
	vpor	%ymm9, %ymm10, %ymm9
	vpsubq	%ymm14, %ymm13, %ymm10
	vpxor	768(%rsi,%r12,8), %ymm1, %ymm11
	vpxor	800(%rsi,%r12,8), %ymm1, %ymm12
	vpxor	832(%rsi,%r12,8), %ymm1, %ymm13
	vpor	%ymm6, %ymm10, %ymm6
	vpxor	864(%rsi,%r12,8), %ymm1, %ymm10
	vpsubq	%ymm14, %ymm11, %ymm11
	vpor	%ymm7, %ymm11, %ymm7
	vpor	%ymm2, %ymm7, %ymm2
	vpsubq	%ymm14, %ymm12, %ymm7
	vpor	%ymm7, %ymm8, %ymm7
	vpor	%ymm3, %ymm7, %ymm3
	vpsubq	%ymm14, %ymm13, %ymm7
	vpor	%ymm7, %ymm9, %ymm7
	vpor	%ymm4, %ymm7, %ymm4
	vpsubq	%ymm14, %ymm10, %ymm7
	vpor	%ymm6, %ymm7, %ymm6
	vpxor	896(%rsi,%r12,8), %ymm1, %ymm7
	vpxor	928(%rsi,%r12,8), %ymm1, %ymm8
	vpxor	960(%rsi,%r12,8), %ymm1, %ymm9
	vpor	%ymm5, %ymm6, %ymm5
	vpxor	992(%rsi,%r12,8), %ymm1, %ymm1
	vpsubq	%ymm14, %ymm7, %ymm6
	vpor	%ymm2, %ymm6, %ymm2
	vpsubq	%ymm14, %ymm8, %ymm6
	vpor	%ymm3, %ymm6, %ymm3
	vpor	%ymm2, %ymm3, %ymm2
	vpsubq	%ymm14, %ymm9, %ymm3
	vpor	%ymm4, %ymm3, %ymm3
	vpor	%ymm2, %ymm3, %ymm2
	vpsubq	%ymm14, %ymm1, %ymm1
	vpor	%ymm5, %ymm1, %ymm1
	vpor	%ymm2, %ymm1, %ymm1
	vptest	%ymm1, %ymm1
	jne	.LBB5_56
	subq	$-128, %r12
	addq	$-128, %r13
	cmpq	$127, %r13
	ja	.LBB5_49
	jmp	.LBB5_56
.LBB5_51:
	movabsq	$4294967296, %rax
	xorl	%edx, %edx
	divq	%rbp
	incq	%rax
	vmovq	%rax, %xmm1
	vpbroadcastq	%xmm1, %ymm1
	vmovq	%rbp, %xmm2
	vpbroadcastq	%xmm2, %ymm2
	movq	-96(%rsp), %rax
	leaq	(%rax,%r11,8), %rax
	leaq	96(%rsi), %rdx
	addq	%rdx, %rax
	vmovdqu	%ymm14, -32(%rsp)
	.p2align	4
.LBB5_52:
	vpxor	%xmm3, %xmm3, %xmm3
	xorl	%edx, %edx
	vpxor	%xmm4, %xmm4, %xmm4
	vpxor	%xmm5, %xmm5, %xmm5
	vpxor	%xmm6, %xmm6, %xmm6
	.p2align	4
.LBB5_53:
	vpbroadcastq	.LCPI5_0(%rip), %ymm7
	vpxor	-96(%rax,%rdx,8), %ymm7, %ymm8
	vpxor	-64(%rax,%rdx,8), %ymm7, %ymm9
	vpxor	-32(%rax,%rdx,8), %ymm7, %ymm11
	vpxor	(%rax,%rdx,8), %ymm7, %ymm7
	vpsubq	%ymm14, %ymm8, %ymm10
	vpsubq	%ymm14, %ymm9, %ymm9
	vpsubq	%ymm14, %ymm11, %ymm8
	vpsubq	%ymm14, %ymm7, %ymm7
	vpmuludq	%ymm1, %ymm10, %ymm11
	vpsrlq	$32, %ymm1, %ymm12
	vpmuludq	%ymm12, %ymm10, %ymm13
	vpsllq	$32, %ymm13, %ymm13
	vpaddq	%ymm13, %ymm11, %ymm11
	vpmuludq	%ymm1, %ymm9, %ymm13
	vpmuludq	%ymm12, %ymm9, %ymm14
	vpsllq	$32, %ymm14, %ymm14
	vpaddq	%ymm14, %ymm13, %ymm13
	vpmuludq	%ymm1, %ymm8, %ymm14
	vpmuludq	%ymm12, %ymm8, %ymm15
	vpsllq	$32, %ymm15, %ymm15
	vpaddq	%ymm15, %ymm14, %ymm14
	vpmuludq	%ymm1, %ymm7, %ymm15
	vpmuludq	%ymm7, %ymm12, %ymm12
	vpsllq	$32, %ymm12, %ymm12
	vpaddq	%ymm12, %ymm15, %ymm12
	vpsrlq	$32, %ymm11, %ymm11
	vpsrlq	$32, %ymm13, %ymm13
	vpsrlq	$32, %ymm14, %ymm14
	vpmuludq	%ymm2, %ymm11, %ymm15
	vpsrlq	$32, %ymm2, %ymm0
	vpmuludq	%ymm0, %ymm11, %ymm11
	vpsllq	$32, %ymm11, %ymm11
	vpaddq	%ymm11, %ymm15, %ymm11
	vpmuludq	%ymm2, %ymm13, %ymm15
	vpmuludq	%ymm0, %ymm13, %ymm13
	vpsllq	$32, %ymm13, %ymm13
	vpaddq	%ymm13, %ymm15, %ymm13
	vpmuludq	%ymm2, %ymm14, %ymm15
	vpmuludq	%ymm0, %ymm14, %ymm14
	vpsllq	$32, %ymm14, %ymm14
	vpaddq	%ymm14, %ymm15, %ymm14
	vpsrlq	$32, %ymm12, %ymm12
	vpmuludq	%ymm0, %ymm12, %ymm0
	vpmuludq	%ymm2, %ymm12, %ymm12
	vpsllq	$32, %ymm0, %ymm0
	vpaddq	%ymm0, %ymm12, %ymm0
	vpsubq	%ymm11, %ymm10, %ymm10
	vpor	%ymm3, %ymm10, %ymm3
	vpsubq	%ymm13, %ymm9, %ymm9
	vpor	%ymm4, %ymm9, %ymm4
	vpsubq	%ymm14, %ymm8, %ymm8
	vmovdqu	-32(%rsp), %ymm14
	vpor	%ymm5, %ymm8, %ymm5
	vpsubq	%ymm0, %ymm7, %ymm0
	vpor	%ymm6, %ymm0, %ymm6
	addq	$16, %rdx
	cmpq	$128, %rdx
	jne	.LBB5_53
	vpor	%ymm3, %ymm4, %ymm0
	vpor	%ymm0, %ymm5, %ymm0
	vpor	%ymm0, %ymm6, %ymm0
	vptest	%ymm0, %ymm0
	jne	.LBB5_56
	subq	$-128, %r12
	movq	%rcx, %rdx
	subq	%r12, %rdx
	addq	$1024, %rax
	cmpq	$127, %rdx
	ja	.LBB5_52
	jmp	.LBB5_56
.LBB5_38:
	movq	%rbx, %r10
	movq	-128(%rsp), %rdi
.LBB5_2:
	leaq	(%r10,%r10), %rax
	notq	%r10
	sarq	$63, %r10
	xorq	%rax, %r10
	movl	$1, %ebp
	movq	%r8, %rax
	orq	%rbp, %rax
	shrq	$32, %rax
	je	.LBB5_60
.LBB5_61:
	movq	%r8, %rax
	xorl	%edx, %edx
	divq	%rbp
	jmp	.LBB5_62
.LBB5_57:
	testq	%rbp, %rbp
	je	.LBB5_63
	leaq	(%rbx,%rbx), %rax
	notq	%rbx
	sarq	$63, %rbx
	xorq	%rax, %rbx
	movq	%rbx, %r10
	movq	-128(%rsp), %rdi
	movq	%r8, %rax
	orq	%rbp, %rax
	shrq	$32, %rax
	jne	.LBB5_61
.LBB5_60:
	movl	%r8d, %eax
	xorl	%edx, %edx
	divl	%ebp
.LBB5_62:
	movq	%r10, (%rdi)
	movq	%rbp, 8(%rdi)
	movq	%rax, 16(%rdi)
	addq	$616, %rsp
	popq	%rbx
	popq	%r12
	popq	%r13
	popq	%r14
	popq	%r15
	popq	%rbp
	vzeroupper
	retq
.LBB5_63:
	ud2
.Lfunc_end5:
	.size	"scaling::scale_of", .Lfunc_end5-"scaling::scale_of"

	.section	".text.between::first_between_from_in","ax",@progbits
	.p2align	4
	.type	"between::first_between_from_in",@function
"between::first_between_from_in":
	cmpb	$2, (%rsi)
	jne	.LBB6_9
	pushq	%rbp
	pushq	%r15
	pushq	%r14
	pushq	%r13
	pushq	%r12
	pushq	%rbx
	subq	$168, %rsp
	movq	8(%rsi), %rbx
	cmpq	$2147352576, %rbx
	ja	.LBB6_6
	movq	16(%rsi), %rax
	movq	32(%rsi), %r10
	testq	%rax, %rax
	setne	%r11b
	addq	$-16, %rax
	cmpq	$-9, %rax
	setb	%al
	andb	%r11b, %al
	cmpq	$32768, %r10
	setae	%r11b
	orb	%al, %r11b
	jne	.LBB6_6
	movq	24(%rsi), %rax
	movq	40(%rsi), %r13
	leaq	6(,%r10,8), %r10
	cmpq	%r10, %rax
	setae	%r10b
	testq	%r13, %r13
	sete	%r11b
	andb	%r10b, %r11b
	cmpb	$1, %r11b
	jne	.LBB6_6
	movq	48(%rsi), %r15
	movq	56(%rsi), %rbp
	testq	%r15, %r15
	setne	%r10b
	testq	%rbp, %rbp
	sete	%r11b
	orb	%r10b, %r11b
	jne	.LBB6_6
	movq	64(%rsi), %r10
	leaq	16383(%rbx), %r11
	shrq	$14, %r11
	leaq	(%r11,%r11,4), %r11
	leaq	(%r11,%r11,4), %r11
	cmpq	%r10, %r11
	jbe	.LBB6_10
.LBB6_6:
	movq	$1, (%rdi)
	movq	$8, 8(%rdi)
.LBB6_7:
	movq	$0, 16(%rdi)
.LBB6_8:
	addq	$168, %rsp
	popq	%rbx
	popq	%r12
	popq	%r13
	popq	%r14
	popq	%r15
	popq	%rbp
	retq
.LBB6_9:
	movq	$1, (%rdi)
	movq	$7, 8(%rdi)
	movq	$0, 16(%rdi)
	retq
.LBB6_10:
	movq	72(%rsi), %rsi
	movq	%rcx, %r11
	subq	%rsi, %r11
	jb	.LBB6_17
	subq	%rax, %r11
	setae	%r14b
	cmpq	%r10, %r11
	sete	%r10b
	testb	%r10b, %r14b
	je	.LBB6_17
	movabsq	$-9223372036854775808, %r12
	xorq	%r12, %r9
	xorq	224(%rsp), %r12
	cmpq	%r9, %r12
	setae	%r10b
	cmpq	%r8, %rbx
	seta	%r11b
	andb	%r10b, %r11b
	cmpb	$1, %r11b
	jne	.LBB6_18
	movq	%rdi, 32(%rsp)
	addq	%rax, %rsi
	addq	%rsi, %rdx
	subq	%rsi, %rcx
	movq	%r13, 120(%rsp)
	movq	%r15, 128(%rsp)
	vxorps	%xmm0, %xmm0, %xmm0
	vmovaps	%xmm0, 96(%rsp)
	movq	%rbp, 136(%rsp)
	movq	$0, 112(%rsp)
	movq	%r8, %r14
	shrq	$14, %r14
	andl	$16383, %r8d
	movq	%r12, 16(%rsp)
	movq	%r9, 56(%rsp)
	movq	%r9, 8(%rsp)
	movq	%r8, (%rsp)
	leaq	96(%rsp), %rdi
	leaq	120(%rsp), %r8
	movq	%rdx, 48(%rsp)
	movq	%rdx, %rsi
	movq	%rcx, 40(%rsp)
	movq	%rcx, %rdx
	movq	%rbx, %rcx
	movq	%r14, %r9
	callq	"run_search::in_run"
	movzbl	104(%rsp), %edx
	movq	112(%rsp), %rcx
	movl	$1, %eax
	cmpb	$0, 96(%rsp)
	jne	.LBB6_26
	cmpb	$1, %dl
	jne	.LBB6_19
	movb	$1, %dl
.LBB6_16:
	xorl	%eax, %eax
	jmp	.LBB6_26
.LBB6_17:
	movq	$1, (%rdi)
	movq	$9, 8(%rdi)
	jmp	.LBB6_7
.LBB6_18:
	xorl	%eax, %eax
	xorl	%edx, %edx
	xorl	%ecx, %ecx
	jmp	.LBB6_27
.LBB6_19:
	incq	%r14
	movq	%r13, 144(%rsp)
	movq	%r15, 152(%rsp)
	vxorps	%xmm0, %xmm0, %xmm0
	vmovaps	%xmm0, 64(%rsp)
	movq	%rbp, 160(%rsp)
	movq	$0, 80(%rsp)
	movq	%rbx, %rax
	shrq	$14, %rax
	movl	%ebx, %r15d
	andl	$16383, %r15d
	addl	$16383, %r15d
	shrl	$14, %r15d
	addq	%rax, %r15
.LBB6_20:
	cmpq	%r15, %r14
	movq	56(%rsp), %rax
	movq	40(%rsp), %rdx
	movq	48(%rsp), %rsi
	jae	.LBB6_24
	movq	%r12, 16(%rsp)
	movq	%rax, 8(%rsp)
	movq	$0, (%rsp)
	leaq	64(%rsp), %rdi
	leaq	144(%rsp), %r8
	movq	%rbx, %rcx
	movq	%r14, %r9
	callq	"run_search::in_run"
	movzbl	72(%rsp), %edx
	cmpb	$0, 64(%rsp)
	jne	.LBB6_25
	cmpb	$1, %dl
	je	.LBB6_28
	incq	%r14
	jmp	.LBB6_20
.LBB6_24:
	xorl	%eax, %eax
	xorl	%edx, %edx
	xorl	%ecx, %ecx
	jmp	.LBB6_26
.LBB6_25:
	movl	$1, %eax
	movq	80(%rsp), %rcx
.LBB6_26:
	movq	32(%rsp), %rdi
	movzbl	%dl, %edx
.LBB6_27:
	movq	%rax, (%rdi)
	movq	%rdx, 8(%rdi)
	movq	%rcx, 16(%rdi)
	jmp	.LBB6_8
.LBB6_28:
	movb	$1, %dl
	movq	80(%rsp), %rcx
	jmp	.LBB6_16
.Lfunc_end6:
	.size	"between::first_between_from_in", .Lfunc_end6-"between::first_between_from_in"

	.section	.rodata.cst16,"aM",@progbits,16
	.p2align	4, 0x0
.LCPI7_0:
	.quad	1
	.quad	13
.LCPI7_1:
	.byte	0
	.byte	0
	.byte	0
	.byte	0
	.byte	0
	.byte	0
	.byte	0
	.byte	0
	.byte	1
	.byte	0
	.byte	0
	.byte	0
	.byte	0
	.byte	0
	.byte	0
	.byte	0
	.section	".text.run_search::in_run","ax",@progbits
	.p2align	4
	.type	"run_search::in_run",@function
"run_search::in_run":
	pushq	%rbp
	pushq	%r15
	pushq	%r14
	pushq	%r13
	pushq	%r12
	pushq	%rbx
	movabsq	$-9223372036854775808, %rax
	leaq	(%r9,%r9,4), %r10
	leaq	(%r10,%r10,4), %r11
	movq	(%rsi,%r11), %r10
	movq	%r10, %rbx
	xorq	%rax, %rbx
	cmpq	%rbx, 72(%rsp)
	jb	.LBB7_7
	movq	64(%rsp), %r12
	movq	8(%rsi,%r11), %r14
	xorq	%rax, %r14
	cmpq	%r12, %r14
	jb	.LBB7_7
	movq	56(%rsp), %r15
	shlq	$14, %r9
	movq	%rcx, %r14
	subq	%r9, %r14
	cmpq	$16384, %r14
	movl	$16384, %ebp
	cmovbq	%r14, %rbp
	vxorps	%xmm0, %xmm0, %xmm0
	cmpq	%r15, %r14
	jbe	.LBB7_8
	movzbl	24(%rsi,%r11), %r13d
	vmovaps	.LCPI7_0(%rip), %xmm1
	cmpb	$64, %r13b
	ja	.LBB7_6
	testq	%r13, %r13
	je	.LBB7_11
	movq	16(%rsi,%r11), %r11
	movl	%ecx, %r14d
	andl	$16383, %r14d
	addl	$16383, %r14d
	shrl	$14, %r14d
	shrq	$14, %rcx
	addq	%r14, %rcx
	leaq	(%rcx,%rcx,4), %rcx
	leaq	(%rcx,%rcx,4), %rcx
	subq	%rcx, %rdx
	cmpq	%r11, %rdx
	jae	.LBB7_13
.LBB7_6:
	xorl	%ebp, %ebp
	vmovaps	%xmm1, %xmm0
	jmp	.LBB7_9
.LBB7_7:
	vxorps	%xmm0, %xmm0, %xmm0
	vmovups	%xmm0, (%rdi)
	movq	$0, 16(%rdi)
	jmp	.LBB7_10
.LBB7_11:
	cmpq	%r12, %rbx
	jae	.LBB7_29
.LBB7_8:
	xorl	%ebp, %ebp
.LBB7_9:
	vmovups	%xmm0, (%rdi)
	movq	%rbp, 16(%rdi)
.LBB7_10:
	popq	%rbx
	popq	%r12
	popq	%r13
	popq	%r14
	popq	%r15
	popq	%rbp
	retq
.LBB7_13:
	movq	%rbp, -24(%rsp)
	movq	16(%r8), %r8
	movq	%r8, -8(%rsp)
	subq	%r11, %rdx
	addq	%r11, %rsi
	addq	%rcx, %rsi
	movl	$64, %ecx
	subq	%r13, %rcx
	movq	%rcx, -16(%rsp)
	decq	%rax
	xorq	%rax, %r10
	movq	%r15, %r14
	imulq	%r13, %r14
	leaq	1(%r15), %r8
	imulq	%r13, %r8
	addq	$7, %r8
	.p2align	4
.LBB7_14:
	movq	%r8, %r11
	shrq	$3, %r11
	cmpq	%r11, %rdx
	jb	.LBB7_6
	movq	%r14, %rcx
	shrq	$3, %rcx
	movq	%r11, %rax
	subq	%rcx, %rax
	movl	%r14d, %ebp
	andl	$7, %ebp
	cmpb	$8, %r13b
	ja	.LBB7_17
	movzbl	(%rsi,%rcx), %ecx
	movzbl	-1(%rsi,%r11), %r11d
	movq	$-1, %r12
	jmp	.LBB7_22
.LBB7_17:
	cmpb	$24, %r13b
	ja	.LBB7_19
	movzwl	(%rsi,%rcx), %ecx
	movzwl	-2(%rsi,%r11), %r11d
	movq	$-2, %r12
	jmp	.LBB7_22
.LBB7_19:
	cmpb	$56, %r13b
	ja	.LBB7_21
	movl	(%rsi,%rcx), %ecx
	movl	-4(%rsi,%r11), %r11d
	movq	$-4, %r12
	jmp	.LBB7_22
.LBB7_21:
	movq	(%rsi,%rcx), %rcx
	movq	-8(%rsi,%r11), %r11
	movq	$-8, %r12
	.p2align	4
.LBB7_22:
	bswapq	%rcx
	bswapq	%r11
	shlxq	%rbp, %rcx, %rcx
	addl	%r12d, %eax
	shll	$3, %eax
	subl	%ebp, %eax
	shrxq	%rax, %r11, %rax
	orq	%rcx, %rax
	movq	-16(%rsp), %rcx
	shrxq	%rcx, %rax, %rcx
	movq	-8(%rsp), %r12
	cmpq	$2, %r12
	jb	.LBB7_26
	movq	%rcx, %rax
	orq	%r12, %rax
	shrq	$32, %rax
	je	.LBB7_26
	movq	%rdx, %r11
	movq	%r10, %rax
	xorl	%edx, %edx
	divq	%r12
	movq	%r12, %rdx
	xorl	%ebp, %ebp
	cmpq	%rax, %rcx
	movq	72(%rsp), %r12
	ja	.LBB7_30
	imulq	%rdx, %rcx
	movq	%r11, %rdx
	jmp	.LBB7_27
.LBB7_26:
	imulq	%r12, %rcx
	cmpq	%r10, %rcx
	movq	72(%rsp), %r12
	ja	.LBB7_6
.LBB7_27:
	addq	%rbx, %rcx
	cmpq	64(%rsp), %rcx
	setb	%al
	cmpq	%r12, %rcx
	seta	%cl
	orb	%al, %cl
	je	.LBB7_29
	incq	%r15
	addq	%r13, %r14
	addq	%r13, %r8
	xorl	%ebp, %ebp
	cmpq	-24(%rsp), %r15
	jb	.LBB7_14
	jmp	.LBB7_9
.LBB7_29:
	addq	%r9, %r15
	vmovaps	.LCPI7_1(%rip), %xmm0
	movq	%r15, %rbp
	jmp	.LBB7_9
.LBB7_30:
	vmovaps	%xmm1, %xmm0
	jmp	.LBB7_9
.Lfunc_end7:
	.size	"run_search::in_run", .Lfunc_end7-"run_search::in_run"

	.section	".text.between::first_between_from","ax",@progbits
	.p2align	4
	.type	"between::first_between_from",@function
"between::first_between_from":
	pushq	%rbp
	pushq	%r15
	pushq	%r14
	pushq	%r13
	pushq	%r12
	pushq	%rbx
	subq	$216, %rsp
	movq	%r9, %rbp
	movq	%r8, %r14
	movq	%rcx, %r15
	movq	%rdx, %r12
	movq	%rsi, %r13
	movq	%rdi, %rbx
	vxorps	%xmm0, %xmm0, %xmm0
	vmovaps	%xmm0, 16(%rsp)
	vxorps	%xmm0, %xmm0, %xmm0
	vmovups	%ymm0, 48(%rsp)
	vmovups	%ymm0, 80(%rsp)
	movq	$0, 32(%rsp)
	vmovups	%ymm0, 104(%rsp)
	testq	%rdx, %rdx
	je	.LBB8_10
	movzbl	(%r13), %eax
	testb	%al, %al
	js	.LBB8_4
	cmpq	$3, %rax
	je	.LBB8_10
.LBB8_3:
	movq	$1, (%rbx)
	movq	$7, 8(%rbx)
	movq	$0, 16(%rbx)
	jmp	.LBB8_14
.LBB8_4:
	cmpq	$1, %r12
	je	.LBB8_10
	addq	$-128, %rax
	leaq	-1(%r12), %rdx
	movl	$128, %ecx
	xorl	%esi, %esi
	.p2align	4
.LBB8_6:
	movzbl	1(%r13,%rsi), %edi
	xorl	%r8d, %r8d
	testq	%rdi, %rdi
	sete	%r8b
	xorl	%r9d, %r9d
	cmpq	$1, %rdi
	setne	%r9b
	cmpq	$8, %rsi
	cmovel	%r9d, %r8d
	testb	%r8b, %r8b
	jne	.LBB8_10
	testb	%dil, %dil
	jns	.LBB8_9
	addq	$-128, %rdi
	imulq	%rcx, %rdi
	addq	%rdi, %rax
	shlq	$7, %rcx
	incq	%rsi
	cmpq	%rsi, %rdx
	jne	.LBB8_6
	jmp	.LBB8_10
.LBB8_9:
	imulq	%rdi, %rcx
	addq	%rcx, %rax
	cmpq	$3, %rax
	jne	.LBB8_3
.LBB8_10:
	leaq	48(%rsp), %rdi
	movq	%r13, %rsi
	movq	%r12, %rdx
	vzeroupper
	callq	"column::Column::open"
	movq	56(%rsp), %rcx
	movq	64(%rsp), %rax
	cmpb	$0, 48(%rsp)
	je	.LBB8_12
	movq	$1, (%rbx)
	movzbl	%cl, %ecx
	movq	%rcx, 8(%rbx)
	jmp	.LBB8_13
.LBB8_12:
	movq	%rcx, 136(%rsp)
	movq	%rax, 144(%rsp)
	vmovups	72(%rsp), %ymm0
	vmovups	104(%rsp), %ymm1
	vmovups	%ymm0, 152(%rsp)
	vmovups	%ymm1, 184(%rsp)
	movq	%rbp, (%rsp)
	leaq	16(%rsp), %rdi
	leaq	136(%rsp), %rsi
	movq	%r13, %rdx
	movq	%r12, %rcx
	movq	%r15, %r8
	movq	%r14, %r9
	vzeroupper
	callq	"between::first_between_from_in"
	movzbl	16(%rsp), %eax
	movq	%rax, (%rbx)
	movzbl	24(%rsp), %eax
	movq	%rax, 8(%rbx)
	movq	32(%rsp), %rax
.LBB8_13:
	movq	%rax, 16(%rbx)
.LBB8_14:
	addq	$216, %rsp
	popq	%rbx
	popq	%r12
	popq	%r13
	popq	%r14
	popq	%r15
	popq	%rbp
	vzeroupper
	retq
.Lfunc_end8:
	.size	"between::first_between_from", .Lfunc_end8-"between::first_between_from"

	.section	.rodata.cst32,"aM",@progbits,32
	.p2align	5, 0x0
.LCPI9_0:
	.quad	1
	.quad	13
	.quad	0
	.quad	0
.LCPI9_1:
	.quad	0
	.quad	1
	.zero	8
	.zero	8
	.section	.rodata.cst16,"aM",@progbits,16
	.p2align	4, 0x0
.LCPI9_2:
	.quad	0
	.quad	1
	.section	".text.layered::answer_from","ax",@progbits
	.p2align	4
	.type	"layered::answer_from",@function
"layered::answer_from":
	pushq	%rbp
	pushq	%r15
	pushq	%r14
	pushq	%rbx
	subq	$248, %rsp
	vxorps	%xmm0, %xmm0, %xmm0
	vmovups	%ymm0, 104(%rsp)
	vmovups	%ymm0, 80(%rsp)
	movq	%rdi, %rbx
	vmovups	%ymm0, 48(%rsp)
	cmpl	$2147352576, %ecx
	jae	.LBB9_1
	movl	%ecx, %ebp
	leaq	48(%rsp), %rdi
	movq	%rsi, %r15
	movq	%rdx, %r14
	vzeroupper
	callq	"column::Column::open"
	movzbl	56(%rsp), %esi
	movq	64(%rsp), %rax
	cmpb	$0, 48(%rsp)
	je	.LBB9_3
	movq	$1, (%rbx)
	movq	%rsi, 8(%rbx)
	movq	%rax, 16(%rbx)
	vxorps	%xmm0, %xmm0, %xmm0
	vmovups	%xmm0, 24(%rbx)
	movq	$0, 40(%rbx)
	jmp	.LBB9_10
.LBB9_1:
	movq	$1, (%rbx)
	movq	$12, 8(%rbx)
	vmovups	%ymm0, 16(%rbx)
	jmp	.LBB9_10
.LBB9_3:
	vxorps	%xmm0, %xmm0, %xmm0
	vmovaps	%xmm0, 144(%rsp)
	movq	$0, 160(%rsp)
	movq	%rax, 168(%rsp)
	vmovups	72(%rsp), %ymm0
	vmovups	%ymm0, 176(%rsp)
	vmovups	104(%rsp), %ymm0
	vmovups	%ymm0, 208(%rsp)
	vxorps	%xmm0, %xmm0, %xmm0
	vmovups	%ymm0, (%rsp)
	vmovups	%ymm0, 16(%rsp)
	movq	%rsp, %rdi
	leaq	144(%rsp), %rdx
	movq	%r15, %rcx
	movq	%r14, %r8
	movl	%ebp, %r9d
	vzeroupper
	callq	"lookup::apart::put_steps"
	movq	(%rsp), %rax
	cmpq	$1, %rax
	je	.LBB9_7
	testq	%rax, %rax
	jne	.LBB9_5
	vmovaps	32(%rsp), %xmm1
	vperm2f128	$40, 16(%rsp), %ymm0, %ymm0
	jmp	.LBB9_9
.LBB9_7:
	vbroadcastf128	.LCPI9_2(%rip), %ymm0
	vinsertf128	$1, 32(%rsp), %ymm0, %ymm0
	jmp	.LBB9_8
.LBB9_5:
	vmovaps	.LCPI9_0(%rip), %ymm0
.LBB9_8:
	vxorps	%xmm1, %xmm1, %xmm1
.LBB9_9:
	vmovups	%ymm0, (%rbx)
	vmovups	%xmm1, 32(%rbx)
.LBB9_10:
	addq	$248, %rsp
	popq	%rbx
	popq	%r14
	popq	%r15
	popq	%rbp
	vzeroupper
	retq
.Lfunc_end9:
	.size	"layered::answer_from", .Lfunc_end9-"layered::answer_from"

	.section	.rodata.cst32,"aM",@progbits,32
	.p2align	5, 0x0
.LCPI10_0:
	.zero	32,15
.LCPI10_1:
	.byte	0
	.byte	1
	.byte	1
	.byte	2
	.byte	1
	.byte	2
	.byte	2
	.byte	3
	.byte	1
	.byte	2
	.byte	2
	.byte	3
	.byte	2
	.byte	3
	.byte	3
	.byte	4
	.byte	0
	.byte	1
	.byte	1
	.byte	2
	.byte	1
	.byte	2
	.byte	2
	.byte	3
	.byte	1
	.byte	2
	.byte	2
	.byte	3
	.byte	2
	.byte	3
	.byte	3
	.byte	4
	.section	.rodata.cst4,"aM",@progbits,4
	.p2align	2, 0x0
.LCPI10_2:
	.zero	4,15
	.section	.rodata.cst16,"aM",@progbits,16
	.p2align	4, 0x0
.LCPI10_3:
	.byte	0
	.byte	1
	.byte	1
	.byte	2
	.byte	1
	.byte	2
	.byte	2
	.byte	3
	.byte	1
	.byte	2
	.byte	2
	.byte	3
	.byte	2
	.byte	3
	.byte	3
	.byte	4
	.section	".text.lookup::apart::put_steps","ax",@progbits
	.p2align	4
	.type	"lookup::apart::put_steps",@function
"lookup::apart::put_steps":
	pushq	%rbp
	pushq	%r15
	pushq	%r14
	pushq	%r13
	pushq	%r12
	pushq	%rbx
	movq	%r8, -8(%rsp)
	movl	%esi, -60(%rsp)
	movq	40(%rdx), %r12
	movq	48(%rdx), %rax
	movq	88(%rdx), %r11
	leaq	(%rcx,%r11), %r14
	leaq	(,%rax,8), %rsi
	movq	%r12, %rbx
	subq	%rsi, %rbx
	movl	%r9d, %r10d
	shrl	$16, %r10d
	testq	%rax, %rax
	je	.LBB10_1
	leaq	-1(%rax), %rsi
	cmpq	%r10, %rsi
	cmovaeq	%r10, %rsi
	movl	%esi, %esi
	leaq	(%r14,%rsi,8), %r15
	movl	(%rbx,%r15), %esi
	movl	4(%rbx,%r15), %r13d
	leaq	4(%r13), %rbp
	cmpq	%rbp, %rbx
	jae	.LBB10_4
	jmp	.LBB10_74
.LBB10_1:
	xorl	%r13d, %r13d
	xorl	%esi, %esi
	leaq	4(%r13), %rbp
	cmpq	%rbp, %rbx
	jb	.LBB10_74
.LBB10_4:
	movzwl	(%r14,%r13), %r15d
	cmpl	%r15d, %r10d
	jae	.LBB10_8
.LBB10_5:
	xorl	%r14d, %r14d
.LBB10_6:
	xorl	%r10d, %r10d
.LBB10_7:
	movq	$1, (%rdi)
	vpxor	%xmm0, %xmm0, %xmm0
	vmovdqu	%xmm0, 8(%rdi)
	movq	$0, 24(%rdi)
.LBB10_95:
	movq	%r14, 32(%rdi)
	movq	%r10, 40(%rdi)
	jmp	.LBB10_96
.LBB10_8:
	cmpl	%r15d, %r10d
	jbe	.LBB10_9
	testq	%rax, %rax
	je	.LBB10_5
.LBB10_74:
	movq	$15, (%rdi)
	vpxor	%xmm0, %xmm0, %xmm0
	vmovdqu	%ymm0, 8(%rdi)
	movq	$0, 40(%rdi)
.LBB10_96:
	popq	%rbx
	popq	%r12
	popq	%r13
	popq	%r14
	popq	%r15
	popq	%rbp
	vzeroupper
	retq
.LBB10_9:
	movl	%r9d, %r10d
	movzwl	%r10w, %r8d
	movq	24(%rdx), %rax
	movq	%rax, -48(%rsp)
	movzwl	2(%r14,%r13), %eax
	leaq	1(%rax), %r9
	cmpq	$4095, %rax
	jae	.LBB10_10
	leaq	(,%r9,2), %rax
	addq	%rbp, %rax
	cmpq	%rax, %rbx
	jb	.LBB10_74
	leaq	(%r9,%rsi), %rax
	cmpq	%rax, -48(%rsp)
	jb	.LBB10_74
	addq	%rbp, %r14
	movl	$1048576, %ebx
	xorl	%r10d, %r10d
	.p2align	4
.LBB10_21:
	leaq	(%r10,%r9), %rax
	movq	%rax, %r13
	shrq	%r13
	andq	$-2, %rax
	movzwl	(%r14,%rax), %ebp
	cmpl	%ebp, %r8d
	je	.LBB10_22
	leaq	1(%r13), %rax
	cmpl	%ebp, %r8d
	cmovaq	%rax, %r10
	cmovbeq	%r13, %r9
	incq	%rbx
	cmpq	%r9, %r10
	jne	.LBB10_21
	jmp	.LBB10_44
.LBB10_10:
	cmpl	$65535, %eax
	je	.LBB10_11
	movq	%r10, -40(%rsp)
	movq	%rax, -16(%rsp)
	movq	32(%rdx), %r10
	movb	$17, %r15b
	subb	%r10b, %r15b
	movl	$1, %eax
	shlxq	%r15, %rax, %rax
	movq	%rax, -56(%rsp)
	addq	$8192, %rax
	testq	%r10, %r10
	movl	$8192, %r15d
	cmovneq	%rax, %r15
	addq	%rbp, %r15
	cmpq	%r15, %rbx
	jb	.LBB10_74
	addq	%rsi, %r9
	cmpq	%r9, -48(%rsp)
	jb	.LBB10_74
	testq	%r10, %r10
	movq	-56(%rsp), %rax
	cmoveq	%r10, %rax
	movl	%r8d, %r9d
	shrl	$6, %r9d
	movq	-40(%rsp), %r15
	andl	$63, %r15d
	addq	%rbp, %r14
	movq	%rax, %rbp
	addq	%r14, %rax
	movq	(%rax,%r9,8), %rax
	btq	%r15, %rax
	jae	.LBB10_17
	movq	%rax, -40(%rsp)
	leal	-6(%r10), %ebx
	testq	%r10, %r10
	shrxq	%r10, %r8, %rax
	shlxq	%rbx, %rax, %rbx
	cmoveq	%r10, %rbx
	je	.LBB10_24
	movbew	(%r14,%rax,2), %ax
	movzwl	%ax, %r8d
	jmp	.LBB10_26
.LBB10_11:
	addq	%rsi, %r9
	cmpq	%r9, -48(%rsp)
	jb	.LBB10_74
	xorl	%r10d, %r10d
	xorl	%r14d, %r14d
	jmp	.LBB10_13
.LBB10_22:
	shlq	$4, %r13
	addq	%r13, %rbx
	addq	$-1048575, %rbx
.LBB10_44:
	movl	%ebx, %r10d
	andl	$15, %r10d
	xorl	%r14d, %r14d
	cmpq	$1048576, %rbx
	jae	.LBB10_7
	shrq	$4, %rbx
	movq	%rbx, %r8
	jmp	.LBB10_13
.LBB10_17:
	movl	$1, %r14d
	jmp	.LBB10_6
.LBB10_24:
	xorl	%r8d, %r8d
.LBB10_26:
	movq	%r9, %r14
	subq	%rbx, %r14
	subq	%rbx, %r9
	jne	.LBB10_28
	xorl	%ebx, %ebx
	jmp	.LBB10_41
.LBB10_28:
	cmpq	$4, %r14
	movq	%rbx, -32(%rsp)
	jae	.LBB10_30
	xorl	%ebx, %ebx
	xorl	%r10d, %r10d
	jmp	.LBB10_39
.LBB10_30:
	cmpq	$16, %r14
	movq	%rbp, -56(%rsp)
	jae	.LBB10_32
	xorl	%r10d, %r10d
	xorl	%ebx, %ebx
	jmp	.LBB10_36
.LBB10_32:
	movq	%r14, %r10
	andq	$-16, %r10
	movq	%rbp, %rax
	addq	%r13, %rax
	addq	%r11, %rax
	leaq	(%rax,%rbx,8), %rax
	leaq	(%rcx,%rax), %rbx
	addq	$100, %rbx
	vpxor	%xmm0, %xmm0, %xmm0
	xorl	%ebp, %ebp
	vpxor	%xmm1, %xmm1, %xmm1
	vpxor	%xmm2, %xmm2, %xmm2
	vpxor	%xmm3, %xmm3, %xmm3
	vpxor	%xmm4, %xmm4, %xmm4
.LBB10_33:
	vmovdqu	-96(%rbx,%rbp,8), %ymm5
	vmovdqu	-64(%rbx,%rbp,8), %ymm6
	vmovdqu	-32(%rbx,%rbp,8), %ymm7
	vmovdqu	(%rbx,%rbp,8), %ymm8
	vpbroadcastd	.LCPI10_2(%rip), %ymm9
	vpand	%ymm5, %ymm9, %ymm10
	vbroadcasti128	.LCPI10_3(%rip), %ymm11
	vpshufb	%ymm10, %ymm11, %ymm10
	vpsrlw	$4, %ymm5, %ymm5
	vpand	%ymm5, %ymm9, %ymm5
	vpshufb	%ymm5, %ymm11, %ymm5
	vpaddb	%ymm5, %ymm10, %ymm5
	vpsadbw	%ymm0, %ymm5, %ymm5
	vpaddq	%ymm1, %ymm5, %ymm1
	vpand	%ymm6, %ymm9, %ymm5
	vpshufb	%ymm5, %ymm11, %ymm5
	vpsrlw	$4, %ymm6, %ymm6
	vpand	%ymm6, %ymm9, %ymm6
	vpshufb	%ymm6, %ymm11, %ymm6
	vpaddb	%ymm5, %ymm6, %ymm5
	vpsadbw	%ymm0, %ymm5, %ymm5
	vpaddq	%ymm2, %ymm5, %ymm2
	vpand	%ymm7, %ymm9, %ymm5
	vpshufb	%ymm5, %ymm11, %ymm5
	vpsrlw	$4, %ymm7, %ymm6
	vpand	%ymm6, %ymm9, %ymm6
	vpshufb	%ymm6, %ymm11, %ymm6
	vpaddb	%ymm5, %ymm6, %ymm5
	vpsadbw	%ymm0, %ymm5, %ymm5
	vpaddq	%ymm3, %ymm5, %ymm3
	vpand	%ymm9, %ymm8, %ymm5
	vpshufb	%ymm5, %ymm11, %ymm5
	vpsrlw	$4, %ymm8, %ymm6
	vpand	%ymm6, %ymm9, %ymm6
	vpshufb	%ymm6, %ymm11, %ymm6
	vpaddb	%ymm5, %ymm6, %ymm5
	vpsadbw	%ymm0, %ymm5, %ymm5
	vpaddq	%ymm4, %ymm5, %ymm4
	addq	$16, %rbp
	cmpq	%rbp, %r10
	jne	.LBB10_33
	vpaddq	%ymm1, %ymm2, %ymm0
	vpaddq	%ymm0, %ymm3, %ymm0
	vpaddq	%ymm0, %ymm4, %ymm0
	vextracti128	$1, %ymm0, %xmm1
	vpaddq	%xmm1, %xmm0, %xmm0
	vpshufd	$238, %xmm0, %xmm1
	vpaddq	%xmm1, %xmm0, %xmm0
	vmovq	%xmm0, %rbx
	cmpq	%r10, %r14
	je	.LBB10_41
	testb	$12, %r14b
	movq	-56(%rsp), %rbp
	je	.LBB10_39
.LBB10_36:
	movq	%r10, %rax
	movq	%r14, %r10
	andq	$-4, %r10
	vmovq	%rbx, %xmm0
	movq	%r10, -24(%rsp)
	subq	%rax, %r10
	movq	%rbp, %rbx
	addq	%r13, %rbx
	addq	%r11, %rbx
	addq	-32(%rsp), %rax
	leaq	(%rbx,%rax,8), %rax
	leaq	(%rcx,%rax), %rbx
	addq	$4, %rbx
	xorl	%ebp, %ebp
.LBB10_37:
	vmovdqu	(%rbx,%rbp,8), %ymm1
	vpbroadcastd	.LCPI10_2(%rip), %ymm2
	vpand	%ymm2, %ymm1, %ymm3
	vbroadcasti128	.LCPI10_3(%rip), %ymm4
	vpshufb	%ymm3, %ymm4, %ymm3
	vpsrlw	$4, %ymm1, %ymm1
	vpand	%ymm2, %ymm1, %ymm1
	vpshufb	%ymm1, %ymm4, %ymm1
	vpaddb	%ymm3, %ymm1, %ymm1
	vpxor	%xmm2, %xmm2, %xmm2
	vpsadbw	%ymm2, %ymm1, %ymm1
	vpaddq	%ymm0, %ymm1, %ymm0
	addq	$4, %rbp
	cmpq	%rbp, %r10
	jne	.LBB10_37
	vextracti128	$1, %ymm0, %xmm1
	vpaddq	%xmm1, %xmm0, %xmm0
	vpshufd	$238, %xmm0, %xmm1
	vpaddq	%xmm1, %xmm0, %xmm0
	vmovq	%xmm0, %rbx
	movq	-24(%rsp), %r10
	cmpq	%r10, %r14
	movq	-56(%rsp), %rbp
	je	.LBB10_41
.LBB10_39:
	subq	%r10, %r9
	addq	%r13, %rbp
	addq	%r11, %rbp
	movq	-32(%rsp), %rax
	addq	%r10, %rax
	leaq	(,%rax,8), %rax
	addq	%rbp, %rax
	leaq	(%rcx,%rax), %r10
	addq	$4, %r10
	xorl	%r13d, %r13d
.LBB10_40:
	xorl	%eax, %eax
	popcntq	(%r10,%r13,8), %rax
	addq	%rax, %rbx
	incq	%r13
	cmpq	%r13, %r9
	jne	.LBB10_40
.LBB10_41:
	bzhiq	%r15, -40(%rsp), %rax
	popcntq	%rax, %rax
	addq	%rax, %r8
	addq	%rbx, %r8
	cmpq	-16(%rsp), %r8
	ja	.LBB10_74
	incq	%r14
	xorl	%r10d, %r10d
.LBB10_13:
	addq	%rsi, %r8
	addq	%r12, %r11
	movl	%r8d, %ebx
	movq	56(%rdx), %r12
	movq	72(%rdx), %r15
	addq	%r11, %rcx
	movzbl	-60(%rsp), %eax
	leaq	.LJTI10_0(%rip), %rsi
	movslq	(%rsi,%rax,4), %rax
	addq	%rsi, %rax
	jmpq	*%rax
.LBB10_78:
	movabsq	$-9223372036854775808, %rsi
	movq	64(%rdx), %r8
	movl	%r8d, %eax
	movq	%r8, %rdx
	shrq	%rdx
	orq	%rsi, %rdx
	notq	%r8
	shrq	%r8
	testb	$1, %al
	cmoveq	%rdx, %r8
	testq	%r12, %r12
	je	.LBB10_79
	movq	%rbx, %rax
	imulq	%r12, %rax
	movq	%rax, %r9
	shrq	$3, %r9
	leaq	(%r12,%rax), %r11
	addq	$7, %r11
	shrq	$3, %r11
	movq	%r11, %rdx
	subq	%r9, %rdx
	andl	$7, %eax
	cmpq	$8, %r12
	ja	.LBB10_82
	movzbl	(%rcx,%r9), %r9d
	movzbl	-1(%rcx,%r11), %ecx
	movq	$-1, %r11
	jmp	.LBB10_87
.LBB10_48:
	movl	%ebx, %eax
	shrl	$14, %eax
	leaq	(%rax,%rax,4), %rax
	leaq	(%rax,%rax,4), %rdx
	movzbl	24(%rcx,%rdx), %r12d
	cmpq	$64, %r12
	ja	.LBB10_74
	movabsq	$-9223372036854775808, %r13
	xorq	(%rcx,%rdx), %r13
	movq	-48(%rsp), %rsi
	movq	%rsi, %rax
	shrq	$14, %rax
	andl	$16383, %esi
	addl	$16383, %esi
	shrl	$14, %esi
	addq	%rax, %rsi
	leaq	(%rsi,%rsi,4), %rax
	leaq	(%rax,%rax,4), %r9
	andl	$16383, %r8d
	testq	%r12, %r12
	je	.LBB10_50
	movq	16(%rcx,%rdx), %rdx
	addq	%r9, %r11
	movq	-8(%rsp), %rax
	subq	%r11, %rax
	subq	%rdx, %rax
	jb	.LBB10_74
	movq	%rax, %r11
	leal	1(%r8), %eax
	movl	%r12d, %esi
	imull	%eax, %esi
	addl	$7, %esi
	shrl	$3, %esi
	cmpq	%rsi, %r11
	jb	.LBB10_74
	addq	%r9, %rdx
	testq	%r12, %r12
	jne	.LBB10_58
	jmp	.LBB10_57
.LBB10_54:
	leaq	(,%r15,8), %rdx
	xorl	%r13d, %r13d
	movq	%rbx, %r8
	testq	%r12, %r12
	jne	.LBB10_58
	jmp	.LBB10_57
.LBB10_47:
	movq	64(%rdx), %r13
	movl	%r13d, %eax
	movq	%r13, %rdx
	shrq	%rdx
	movabsq	$-9223372036854775808, %rsi
	orq	%rdx, %rsi
	notq	%r13
	shrq	%r13
	testb	$1, %al
	cmoveq	%rsi, %r13
	xorl	%edx, %edx
	movq	%rbx, %r8
	testq	%r12, %r12
	je	.LBB10_57
.LBB10_58:
	addq	%rcx, %rdx
	imulq	%r12, %r8
	movq	%r8, %r9
	shrq	$3, %r9
	leaq	(%r12,%r8), %rax
	addq	$7, %rax
	shrq	$3, %rax
	andl	$7, %r8d
	cmpq	$8, %r12
	ja	.LBB10_60
	movzbl	(%rdx,%r9), %r11d
	movzbl	-1(%rdx,%rax), %edx
	movl	$1, %ebp
	jmp	.LBB10_65
.LBB10_60:
	cmpq	$24, %r12
	ja	.LBB10_62
	movzwl	(%rdx,%r9), %r11d
	movzwl	-2(%rdx,%rax), %edx
	movl	$2, %ebp
	jmp	.LBB10_65
.LBB10_79:
	xorl	%ecx, %ecx
	jmp	.LBB10_88
.LBB10_62:
	cmpq	$56, %r12
	ja	.LBB10_64
	movl	(%rdx,%r9), %r11d
	movl	-4(%rdx,%rax), %edx
	movl	$4, %ebp
	jmp	.LBB10_65
.LBB10_82:
	cmpq	$24, %r12
	ja	.LBB10_84
	movzwl	(%rcx,%r9), %r9d
	movzwl	-2(%rcx,%r11), %ecx
	movq	$-2, %r11
	jmp	.LBB10_87
.LBB10_50:
	xorl	%edx, %edx
	addq	%r9, %rdx
	testq	%r12, %r12
	jne	.LBB10_58
.LBB10_57:
	xorl	%r8d, %r8d
	jmp	.LBB10_67
.LBB10_64:
	movq	(%rdx,%r9), %r11
	movq	-8(%rdx,%rax), %rdx
	movl	$8, %ebp
.LBB10_65:
	subq	%r9, %rax
	cmpb	$1, -60(%rsp)
	jne	.LBB10_66
	subl	%ebp, %eax
	shll	$3, %eax
	shlxq	%rax, %rdx, %rax
	orq	%r11, %rax
	addl	%r12d, %r8d
	negb	%r8b
	shlxq	%r8, %rax, %rax
	negb	%r12b
	shrxq	%r12, %rax, %r8
	jmp	.LBB10_71
.LBB10_66:
	bswapq	%r11
	bswapq	%rdx
	shlxq	%r8, %r11, %rsi
	subl	%ebp, %eax
	shll	$3, %eax
	subl	%r8d, %eax
	shrxq	%rax, %rdx, %rax
	orq	%rsi, %rax
	negb	%r12b
	shrxq	%r12, %rax, %r8
.LBB10_67:
	cmpb	$3, -60(%rsp)
	jne	.LBB10_71
	cmpq	%r8, %r15
	jbe	.LBB10_74
	movq	(%rcx,%r8,8), %rcx
	jmp	.LBB10_94
.LBB10_71:
	movq	%r13, %rax
	notq	%rax
	cmpq	$2, %r15
	jb	.LBB10_73
	movq	%r8, %rcx
	orq	%r15, %rcx
	shrq	$32, %rcx
	je	.LBB10_73
	xorl	%edx, %edx
	divq	%r15
	cmpq	%rax, %r8
	ja	.LBB10_74
	imulq	%r15, %r8
	jmp	.LBB10_77
.LBB10_73:
	imulq	%r15, %r8
	cmpq	%rax, %r8
	ja	.LBB10_74
.LBB10_77:
	addq	%r13, %r8
	movabsq	$-9223372036854775808, %rcx
	xorq	%r8, %rcx
	jmp	.LBB10_94
.LBB10_84:
	cmpq	$56, %r12
	ja	.LBB10_86
	movl	(%rcx,%r9), %r9d
	movl	-4(%rcx,%r11), %ecx
	movq	$-4, %r11
	jmp	.LBB10_87
.LBB10_86:
	movq	(%rcx,%r9), %r9
	movq	-8(%rcx,%r11), %rcx
	movq	$-8, %r11
.LBB10_87:
	bswapq	%r9
	bswapq	%rcx
	shlxq	%rax, %r9, %r9
	addl	%r11d, %edx
	shll	$3, %edx
	subl	%eax, %edx
	shrxq	%rdx, %rcx, %rax
	orq	%r9, %rax
	negb	%r12b
	shrxq	%r12, %rax, %rcx
.LBB10_88:
	movq	%r8, %rax
	notq	%rax
	cmpq	$2, %r15
	jb	.LBB10_90
	movq	%rcx, %rdx
	orq	%r15, %rdx
	shrq	$32, %rdx
	je	.LBB10_90
	xorl	%edx, %edx
	divq	%r15
	cmpq	%rax, %rcx
	ja	.LBB10_74
	imulq	%r15, %rcx
	jmp	.LBB10_93
.LBB10_90:
	imulq	%r15, %rcx
	cmpq	%rax, %rcx
	ja	.LBB10_74
.LBB10_93:
	addq	%r8, %rcx
	xorq	%rsi, %rcx
.LBB10_94:
	vpxor	%xmm0, %xmm0, %xmm0
	vmovdqu	%xmm0, (%rdi)
	movq	%rbx, 16(%rdi)
	movq	%rcx, 24(%rdi)
	jmp	.LBB10_95
.Lfunc_end10:
	.size	"lookup::apart::put_steps", .Lfunc_end10-"lookup::apart::put_steps"
	.section	".rodata.lookup::apart::put_steps","a",@progbits
	.p2align	2, 0x0
.LJTI10_0:
	.long	.LBB10_78-.LJTI10_0
	.long	.LBB10_47-.LJTI10_0
	.long	.LBB10_48-.LJTI10_0
	.long	.LBB10_54-.LJTI10_0

	.section	".text.signalfern_c::look_in","ax",@progbits
	.p2align	4
	.type	"signalfern_c::look_in",@function
"signalfern_c::look_in":
	movl	%ecx, %r9d
	cmpq	$1, 16(%rsi)
	jne	.LBB11_10
	movq	24(%rsi), %rax
	cmpl	$2147352576, %r9d
	setae	%cl
	cmpq	$2147352577, %rax
	setae	%r8b
	orb	%cl, %r8b
	je	.LBB11_2
.LBB11_10:
	movl	%r9d, %ecx
	jmp	"signalfern_c::answer_in"
.LBB11_2:
	movq	48(%rsi), %rcx
	movq	32(%rsi), %r10
	testq	%r10, %r10
	setne	%r8b
	addq	$-16, %r10
	cmpq	$-9, %r10
	setb	%r10b
	cmpq	$32767, %rcx
	ja	.LBB11_10
	andb	%r10b, %r8b
	jne	.LBB11_10
	cmpq	$0, 72(%rsi)
	je	.LBB11_10
	movq	56(%rsi), %r11
	cmpq	$64, %r11
	ja	.LBB11_10
	movq	40(%rsi), %r10
	leaq	6(,%rcx,8), %rcx
	cmpq	%rcx, %r10
	jb	.LBB11_10
	pushq	%rbx
	movq	80(%rsi), %rcx
	movq	8(%rdx), %r8
	imulq	%r11, %rax
	addq	$7, %rax
	shrq	$3, %rax
	cmpq	%rax, %rcx
	setne	%r11b
	movq	%r8, %rax
	subq	88(%rsi), %rax
	setb	%bl
	orb	%r11b, %bl
	popq	%rbx
	jne	.LBB11_10
	subq	%r10, %rax
	setae	%r10b
	cmpq	%rcx, %rax
	sete	%al
	testb	%al, %r10b
	je	.LBB11_10
	movq	(%rdx), %rcx
	movq	%rsi, %rdx
	xorl	%esi, %esi
	jmp	"lookup::apart::put_steps"
.Lfunc_end11:
	.size	"signalfern_c::look_in", .Lfunc_end11-"signalfern_c::look_in"

	.section	".text.signalfern_c::answer_in","ax",@progbits
	.p2align	4
	.type	"signalfern_c::answer_in",@function
"signalfern_c::answer_in":
	pushq	%rbp
	pushq	%r15
	pushq	%r14
	pushq	%r13
	pushq	%r12
	pushq	%rbx
	subq	$184, %rsp
	movl	%ecx, %r9d
	movq	16(%rsi), %rcx
	decq	%rcx
	cmpq	$3, %rcx
	ja	.LBB12_1
	movq	56(%rsi), %r10
	movl	$14, %eax
	cmpl	$2147352575, %r9d
	jbe	.LBB12_4
	jmp	.LBB12_28
.LBB12_1:
	movl	$65, %r10d
	xorl	%ecx, %ecx
	movl	$14, %eax
	cmpl	$2147352575, %r9d
	ja	.LBB12_28
.LBB12_4:
	movq	24(%rsi), %r11
	movl	$10, %eax
	cmpq	$2147352576, %r11
	jbe	.LBB12_5
.LBB12_28:
	movq	%rax, (%rdi)
	vxorps	%xmm0, %xmm0, %xmm0
	vmovups	%ymm0, 8(%rdi)
	movq	$0, 40(%rdi)
.LBB12_29:
	addq	$184, %rsp
	popq	%rbx
	popq	%r12
	popq	%r13
	popq	%r14
	popq	%r15
	popq	%rbp
	vzeroupper
	retq
.LBB12_5:
	movq	48(%rsi), %rbx
	movq	32(%rsi), %r14
	testq	%r14, %r14
	setne	%r8b
	leaq	-16(%r14), %r15
	cmpq	$-9, %r15
	setb	%bpl
	cmpq	$32767, %rbx
	ja	.LBB12_28
	andb	%bpl, %r8b
	jne	.LBB12_28
	cmpq	$64, %r10
	ja	.LBB12_28
	movq	40(%rsi), %r12
	leaq	6(,%rbx,8), %r8
	cmpq	%r8, %r12
	jb	.LBB12_28
	movq	88(%rsi), %r13
	movq	80(%rsi), %r8
	movq	%r8, 16(%rsp)
	movq	72(%rsi), %rbp
	movq	64(%rsi), %rsi
	movq	%rsi, 24(%rsp)
	movq	(%rdx), %r15
	movq	8(%rdx), %r8
	movq	%r11, %rdx
	imulq	%r10, %rdx
	addq	$7, %rdx
	shrq	$3, %rdx
	movzbl	%cl, %esi
	cmpb	$2, %sil
	jae	.LBB12_10
	testq	%rbp, %rbp
	je	.LBB12_28
	movq	%r13, 8(%rsp)
	movq	%r8, %r13
	notb	%cl
	movabsq	$72340173107564823, %r8
	shrxq	%r10, %r8, %r8
	orb	%cl, %r8b
	testb	$1, %r8b
	je	.LBB12_28
	cmpq	%rdx, 16(%rsp)
	movq	%r13, %r8
	movq	8(%rsp), %r13
	jne	.LBB12_28
.LBB12_21:
	movl	$11, %eax
	movq	%r8, %rcx
	subq	%r13, %rcx
	jb	.LBB12_28
	subq	%r12, %rcx
	setae	%dl
	cmpq	16(%rsp), %rcx
	sete	%cl
	andb	%dl, %cl
	movq	16(%rsp), %rdx
	cmpb	$1, %cl
	jne	.LBB12_28
	movq	%rdi, 8(%rsp)
	vxorps	%xmm0, %xmm0, %xmm0
	vmovaps	%xmm0, 80(%rsp)
	movq	$0, 96(%rsp)
	movq	%r11, 104(%rsp)
	movq	%r14, 112(%rsp)
	movq	%r12, 120(%rsp)
	movq	%rbx, 128(%rsp)
	movq	%r10, 136(%rsp)
	movq	24(%rsp), %rax
	movq	%rax, 144(%rsp)
	movq	%rbp, 152(%rsp)
	movq	%rdx, 160(%rsp)
	movq	%r13, 168(%rsp)
	vxorps	%xmm0, %xmm0, %xmm0
	vmovups	%ymm0, 32(%rsp)
	vmovups	%ymm0, 48(%rsp)
	leaq	32(%rsp), %rdi
	leaq	80(%rsp), %rdx
	movq	%r15, %rcx
	vzeroupper
	callq	"lookup::apart::put_steps"
	movq	32(%rsp), %rax
	cmpq	$1, %rax
	je	.LBB12_26
	testq	%rax, %rax
	movq	8(%rsp), %rdi
	jne	.LBB12_27
	vmovups	48(%rsp), %ymm0
	vxorps	%xmm1, %xmm1, %xmm1
	vmovups	%xmm1, (%rdi)
	vmovups	%ymm0, 16(%rdi)
	jmp	.LBB12_29
.LBB12_10:
	cmpl	$2, %esi
	jne	.LBB12_17
	testq	%r10, %r10
	jne	.LBB12_28
	cmpq	$0, 24(%rsp)
	setne	%cl
	testq	%rbp, %rbp
	sete	%dl
	orb	%cl, %dl
	jne	.LBB12_28
	leaq	16383(%r11), %rcx
	shrq	$14, %rcx
	leaq	(%rcx,%rcx,4), %rcx
	leaq	(%rcx,%rcx,4), %rcx
	cmpq	16(%rsp), %rcx
	ja	.LBB12_28
	jmp	.LBB12_21
.LBB12_17:
	leaq	-257(%rbp), %rcx
	cmpq	$-255, %rcx
	jb	.LBB12_28
	cmpq	$0, 24(%rsp)
	jne	.LBB12_28
	leaq	-1(%rbp), %rcx
	lzcntq	%rcx, %rcx
	movq	%rcx, 8(%rsp)
	movl	$64, %ecx
	subq	8(%rsp), %rcx
	cmpq	%rcx, %r10
	jne	.LBB12_28
	leaq	(%rdx,%rbp,8), %rcx
	cmpq	%rcx, 16(%rsp)
	jne	.LBB12_28
	jmp	.LBB12_21
.LBB12_26:
	vmovaps	64(%rsp), %xmm0
	movq	8(%rsp), %rax
	movq	$1, (%rax)
	vxorps	%xmm1, %xmm1, %xmm1
	vmovups	%xmm1, 8(%rax)
	movq	$0, 24(%rax)
	vmovups	%xmm0, 32(%rax)
	jmp	.LBB12_29
.LBB12_27:
	movl	$15, %eax
	jmp	.LBB12_28
.Lfunc_end12:
	.size	"signalfern_c::answer_in", .Lfunc_end12-"signalfern_c::answer_in"

	.section	.rodata.cst16,"aM",@progbits,16
	.p2align	4, 0x0
.LCPI13_0:
	.zero	16,1
.LCPI13_1:
	.zero	2
	.short	65535
	.short	65535
	.short	65535
	.short	65535
	.short	65535
	.short	65535
	.short	65535
.LCPI13_2:
	.quad	281479271743489
	.quad	281479271743489
	.section	.rodata.cst4,"aM",@progbits,4
	.p2align	2, 0x0
.LCPI13_3:
	.zero	4,1
.LCPI13_4:
	.zero	4,255
	.section	".text.page::fill_by","ax",@progbits
	.p2align	4
	.type	"page::fill_by",@function
"page::fill_by":
	pushq	%rbp
	pushq	%r15
	pushq	%r14
	pushq	%r13
	pushq	%r12
	pushq	%rbx
	subq	$312, %rsp
	movq	%r9, 104(%rsp)
	movq	%r8, %r13
	movq	%rcx, %r12
	movq	%rdx, %rbx
	movq	%rsi, %r14
	movq	%rdi, %r15
	movq	376(%rsp), %rax
	movzbl	8(%rax), %esi
	cmpb	$1, (%rax)
	jne	.LBB13_4
	testq	%r13, %r13
	je	.LBB13_90
	movzbl	%sil, %eax
	cmpq	$1, %r13
	jne	.LBB13_80
	xorl	%ecx, %ecx
	jmp	.LBB13_87
.LBB13_4:
	movq	16(%rax), %rdi
	movb	%sil, 232(%rsp)
	movl	9(%rax), %ecx
	movl	12(%rax), %edx
	movl	%ecx, 233(%rsp)
	movl	%edx, 236(%rsp)
	movq	%rdi, 176(%rsp)
	movq	%rdi, 240(%rsp)
	vmovdqu	24(%rax), %ymm0
	vmovdqu	56(%rax), %ymm1
	vmovdqu	%ymm0, 248(%rsp)
	vmovdqu	%ymm1, 280(%rsp)
	testq	%r13, %r13
	je	.LBB13_90
	movb	%sil, 47(%rsp)
	movq	248(%rsp), %r10
	movq	256(%rsp), %rcx
	movq	264(%rsp), %r11
	movq	272(%rsp), %rbp
	movq	280(%rsp), %rax
	movq	288(%rsp), %rdx
	movq	%rdx, 200(%rsp)
	movq	304(%rsp), %r9
	movq	104(%rsp), %r8
	leaq	(%r8,%r9), %rdx
	movq	%rdx, 88(%rsp)
	leaq	(,%r11,8), %rsi
	movq	%rcx, %rdx
	subq	%rsi, %rdx
	movb	$17, %sil
	subb	%r10b, %sil
	movl	$1, %edi
	shlxq	%rsi, %rdi, %rsi
	addq	$8192, %rsi
	testq	%r10, %r10
	movl	$8192, %edi
	cmovneq	%rsi, %rdi
	movq	%rdi, 160(%rsp)
	addq	%r9, %rcx
	movq	368(%rsp), %rsi
	subq	%rcx, %rsi
	movq	%rsi, 184(%rsp)
	movl	%eax, %edi
	movq	%rax, %rsi
	shrq	%rsi
	movabsq	$-9223372036854775808, %r10
	orq	%r10, %rsi
	movq	%rbp, 96(%rsp)
	notq	%rax
	shrq	%rax
	testb	$1, %dil
	cmoveq	%rsi, %rax
	addq	%r8, %rcx
	movq	%rcx, 72(%rsp)
	movl	$64, %ecx
	subq	%rbp, %rcx
	movq	%rcx, 112(%rsp)
	movq	%rax, 168(%rsp)
	notq	%rax
	movq	%rax, 120(%rsp)
	leaq	102(%r8,%r9), %rax
	movq	%rax, 136(%rsp)
	leaq	6(%r8,%r9), %rax
	movq	%rax, 144(%rsp)
	movq	%r11, 224(%rsp)
	leaq	-1(%r11), %rax
	movq	%rax, 216(%rsp)
	movq	%rdx, 128(%rsp)
	movq	88(%rsp), %rax
	addq	%rdx, %rax
	movq	%rax, 208(%rsp)
	leaq	-1(%rbp), %rax
	movq	%rax, 192(%rsp)
	leaq	7(%rbp), %rax
	movq	%rax, 152(%rsp)
	xorl	%ebp, %ebp
	xorl	%eax, %eax
	.p2align	4
.LBB13_6:
	movq	%rbp, %r8
	leaq	1(%rbp), %r9
	.p2align	4
.LBB13_7:
	cmpq	%r13, %r9
	jae	.LBB13_11
	movl	-4(%r12,%r9,4), %edx
	movl	(%r12,%r9,4), %ecx
	incq	%r9
	cmpl	%ecx, %edx
	ja	.LBB13_10
	xorl	%edx, %ecx
	cmpl	$65536, %ecx
	jb	.LBB13_7
.LBB13_10:
	decq	%r9
	jmp	.LBB13_12
	.p2align	4
.LBB13_11:
	movq	%r13, %r9
.LBB13_12:
	movq	%r9, %r11
	subq	%r8, %r11
	movq	%r13, %rcx
	subq	%r8, %rcx
	leaq	1024(%r8), %r10
	cmpq	$1025, %rcx
	cmovbq	%r13, %r10
	cmpq	$17, %r11
	movq	%r10, %rbp
	cmovaeq	%r9, %rbp
	jb	.LBB13_16
	cmpb	$0, 47(%rsp)
	sete	%dl
	movl	(%r12,%r8,4), %ecx
	cmpq	$2147352576, %rcx
	setb	%sil
	andb	%dl, %sil
	cmpb	$1, %sil
	jne	.LBB13_43
	shrl	$16, %ecx
	cmpq	$0, 224(%rsp)
	je	.LBB13_17
	movq	216(%rsp), %rsi
	cmpq	%rcx, %rsi
	movq	%rcx, %rdx
	cmovbq	%rsi, %rdx
	movl	%edx, %edx
	movq	208(%rsp), %rsi
	movl	(%rsi,%rdx,8), %edi
	movq	%rdi, 64(%rsp)
	movl	4(%rsi,%rdx,8), %edx
	leaq	4(%rdx), %rsi
	cmpq	%rsi, 128(%rsp)
	jae	.LBB13_18
	jmp	.LBB13_43
	.p2align	4
.LBB13_16:
	movq	%rax, 24(%rsp)
	leaq	232(%rsp), %rax
	movq	%rax, 16(%rsp)
	movq	368(%rsp), %rax
	movq	%rax, 8(%rsp)
	movq	104(%rsp), %rax
	movq	%rax, (%rsp)
	movq	%r15, %rdi
	movq	%r14, %rsi
	movq	%rbx, %rdx
	movq	%r12, %rcx
	movq	%r10, %r9
	jmp	.LBB13_44
.LBB13_17:
	xorl	%edx, %edx
	movq	$0, 64(%rsp)
	leaq	4(%rdx), %rsi
	cmpq	%rsi, 128(%rsp)
	jb	.LBB13_43
.LBB13_18:
	movq	%rsi, 80(%rsp)
	movq	88(%rsp), %rsi
	movzwl	(%rsi,%rdx), %edi
	leaq	4(%rdx), %rsi
	cmpl	%edi, %ecx
	jne	.LBB13_43
	movq	88(%rsp), %rcx
	movzwl	2(%rcx,%rdx), %r10d
	leaq	1(%r10), %rcx
	movq	%rcx, 56(%rsp)
	addl	%ecx, %ecx
	xorl	%edi, %edi
	cmpq	$65535, %r10
	cmovneq	160(%rsp), %rdi
	cmpq	$4095, %r10
	cmovaeq	%rdi, %rcx
	addq	%rsi, %rcx
	cmpq	%rcx, 128(%rsp)
	jb	.LBB13_43
	movq	64(%rsp), %rcx
	addq	%r10, %rcx
	incq	%rcx
	cmpq	%rcx, 176(%rsp)
	jb	.LBB13_43
	cmpq	$65535, %r10
	sete	%cl
	incb	%cl
	xorl	%edi, %edi
	movq	%r10, 48(%rsp)
	cmpl	$4095, %r10d
	movzbl	%cl, %ecx
	cmovbl	%edi, %ecx
	cmpb	$2, %cl
	je	.LBB13_41
	movzbl	%cl, %ecx
	cmpl	$1, %ecx
	je	.LBB13_43
	movq	56(%rsp), %rcx
	shrl	$4, %ecx
	cmpq	%rcx, %r11
	movq	48(%rsp), %rdi
	jb	.LBB13_43
	testq	%rdi, %rdi
	je	.LBB13_27
	cmpw	$8, %di
	jae	.LBB13_28
	movl	$1, %r11d
	movb	$1, %cl
	movq	56(%rsp), %r10
	jmp	.LBB13_38
.LBB13_27:
	movl	$1, %ecx
	movq	%rcx, 56(%rsp)
	jmp	.LBB13_41
.LBB13_28:
	cmpw	$64, %di
	jae	.LBB13_30
	movq	64(%rsp), %rsi
	movb	$1, %cl
	xorl	%edi, %edi
	jmp	.LBB13_35
.LBB13_30:
	andl	$-64, %edi
	movq	136(%rsp), %rcx
	addq	%rdx, %rcx
	vpbroadcastd	.LCPI13_3(%rip), %xmm0
	xorl	%r11d, %r11d
	vmovdqa	%xmm0, %xmm1
	vmovdqa	%xmm0, %xmm2
	vmovdqa	%xmm0, %xmm3
	.p2align	4
.LBB13_31:
	vmovdqu	-98(%rcx,%r11,2), %ymm4
	vmovdqu	-66(%rcx,%r11,2), %ymm5
	vmovdqu	-34(%rcx,%r11,2), %ymm6
	vmovdqu	-2(%rcx,%r11,2), %ymm7
	vpmaxuw	-96(%rcx,%r11,2), %ymm4, %ymm8
	vpcmpeqw	%ymm4, %ymm8, %ymm4
	vpcmpeqd	%ymm8, %ymm8, %ymm8
	vpxor	%ymm4, %ymm8, %ymm4
	vextracti128	$1, %ymm4, %xmm9
	vpacksswb	%xmm9, %xmm4, %xmm4
	vpand	%xmm4, %xmm0, %xmm0
	vpmaxuw	-64(%rcx,%r11,2), %ymm5, %ymm4
	vpcmpeqw	%ymm4, %ymm5, %ymm4
	vpxor	%ymm4, %ymm8, %ymm4
	vextracti128	$1, %ymm4, %xmm5
	vpacksswb	%xmm5, %xmm4, %xmm4
	vpand	%xmm4, %xmm1, %xmm1
	vpmaxuw	-32(%rcx,%r11,2), %ymm6, %ymm4
	vpcmpeqw	%ymm4, %ymm6, %ymm4
	vpxor	%ymm4, %ymm8, %ymm4
	vextracti128	$1, %ymm4, %xmm5
	vpacksswb	%xmm5, %xmm4, %xmm4
	vpmaxuw	(%rcx,%r11,2), %ymm7, %ymm5
	vpand	%xmm4, %xmm2, %xmm2
	vpcmpeqw	%ymm5, %ymm7, %ymm4
	vpxor	%ymm4, %ymm8, %ymm4
	vextracti128	$1, %ymm4, %xmm5
	vpacksswb	%xmm5, %xmm4, %xmm4
	vpand	%xmm4, %xmm3, %xmm3
	addq	$64, %r11
	cmpq	%r11, %rdi
	jne	.LBB13_31
	vpand	%xmm0, %xmm1, %xmm0
	vpand	%xmm0, %xmm2, %xmm0
	vpand	%xmm0, %xmm3, %xmm0
	vpsllw	$7, %xmm0, %xmm0
	vpmovmskb	%xmm0, %ecx
	cmpl	$65535, %ecx
	sete	%cl
	movq	48(%rsp), %r10
	cmpl	%r10d, %edi
	je	.LBB13_40
	testb	$56, %r10b
	je	.LBB13_78
	movq	64(%rsp), %rsi
.LBB13_35:
	movq	48(%rsp), %r10
	andl	$-8, %r10d
	leaq	1(%r10), %r11
	movzbl	%cl, %ecx
	vpbroadcastd	.LCPI13_4(%rip), %xmm0
	vpinsrw	$0, %ecx, %xmm0, %xmm0
	addq	144(%rsp), %rdx
	.p2align	4
.LBB13_36:
	vmovdqu	-2(%rdx,%rdi,2), %xmm1
	vpmaxuw	(%rdx,%rdi,2), %xmm1, %xmm2
	vpcmpeqw	%xmm2, %xmm1, %xmm1
	vpandn	%xmm0, %xmm1, %xmm0
	addq	$8, %rdi
	cmpq	%rdi, %r10
	jne	.LBB13_36
	vptest	.LCPI13_2(%rip), %xmm0
	setb	%cl
	cmpl	48(%rsp), %r10d
	movq	%rsi, 64(%rsp)
	movq	80(%rsp), %rsi
	movq	56(%rsp), %r10
	je	.LBB13_40
.LBB13_38:
	movq	88(%rsp), %rdx
	addq	%rsi, %rdx
	.p2align	4
.LBB13_39:
	movzwl	-2(%rdx,%r11,2), %edi
	cmpw	(%rdx,%r11,2), %di
	setb	%dil
	andb	%dil, %cl
	incq	%r11
	cmpq	%r11, %r10
	jne	.LBB13_39
.LBB13_40:
	testb	%cl, %cl
	je	.LBB13_43
.LBB13_41:
	cmpq	%r8, %r9
	jbe	.LBB13_45
	addq	88(%rsp), %rsi
	xorl	%r9d, %r9d
	movq	96(%rsp), %r10
	movq	%rsi, 80(%rsp)
	movq	48(%rsp), %rcx
	jmp	.LBB13_50
	.p2align	4
.LBB13_43:
	movq	%rax, 24(%rsp)
	leaq	232(%rsp), %rax
	movq	%rax, 16(%rsp)
	movq	368(%rsp), %rax
	movq	%rax, 8(%rsp)
	movq	104(%rsp), %rax
	movq	%rax, (%rsp)
	movq	%r15, %rdi
	movq	%r14, %rsi
	movq	%rbx, %rdx
	movq	%r12, %rcx
.LBB13_44:
	vzeroupper
	callq	"page::fill_any"
.LBB13_45:
	cmpq	%r13, %rbp
	jb	.LBB13_6
	jmp	.LBB13_91
.LBB13_46:
	imulq	%rsi, %rcx
	movq	%r10, %rax
	movq	96(%rsp), %r10
	movq	80(%rsp), %rsi
.LBB13_47:
	addq	168(%rsp), %rcx
	movabsq	$-9223372036854775808, %rdx
	xorq	%rdx, %rcx
	xorl	%edx, %edx
	movq	%rcx, %rdi
.LBB13_48:
	movq	48(%rsp), %rcx
.LBB13_49:
	movq	%r11, (%r15,%r8,8)
	movq	%rdi, (%r14,%r8,8)
	movb	%dl, (%rbx,%r8)
	incq	%r8
	cmpq	%rbp, %r8
	je	.LBB13_45
.LBB13_50:
	movzwl	(%r12,%r8,4), %r11d
	cmpl	$4094, %ecx
	ja	.LBB13_58
	movb	$1, %dl
	movq	56(%rsp), %rdi
	cmpq	%rdi, %r9
	jae	.LBB13_64
	.p2align	4
.LBB13_52:
	cmpw	%r11w, (%rsi,%r9,2)
	jae	.LBB13_55
	incq	%r9
	cmpq	%r9, %rdi
	jne	.LBB13_52
	movq	%rdi, %r9
.LBB13_55:
	cmpq	%r9, %rdi
	jbe	.LBB13_65
	cmpw	%r11w, (%rsi,%r9,2)
	jne	.LBB13_65
	movq	%r9, %r11
	.p2align	4
.LBB13_58:
	addq	64(%rsp), %r11
	movq	%r11, %rdx
	imulq	%r10, %rdx
	movq	%rdx, %rdi
	shrq	$3, %rdi
	cmpq	$56, 192(%rsp)
	ja	.LBB13_61
	leaq	8(%rdi), %rcx
	cmpq	184(%rsp), %rcx
	ja	.LBB13_61
	movq	72(%rsp), %rcx
	movbeq	(%rcx,%rdi), %rcx
	andb	$7, %dl
	shlxq	%rdx, %rcx, %rcx
	movq	112(%rsp), %rdx
	shrxq	%rdx, %rcx, %rcx
	movq	200(%rsp), %rdi
	cmpq	$2, %rdi
	jae	.LBB13_73
	jmp	.LBB13_76
	.p2align	4
.LBB13_61:
	testq	%r10, %r10
	je	.LBB13_66
	movq	%r10, %rsi
	movq	152(%rsp), %rcx
	leaq	(%rcx,%rdx), %r10
	shrq	$3, %r10
	movq	%r10, %rcx
	subq	%rdi, %rcx
	andl	$7, %edx
	cmpq	$8, %rsi
	ja	.LBB13_67
	movq	72(%rsp), %rsi
	movzbl	(%rsi,%rdi), %edi
	movzbl	-1(%rsi,%r10), %esi
	movq	$-1, %r10
	jmp	.LBB13_72
	.p2align	4
.LBB13_64:
	xorl	%r11d, %r11d
	movq	%rdi, %r9
	xorl	%edi, %edi
	jmp	.LBB13_49
.LBB13_65:
	xorl	%r11d, %r11d
	xorl	%edi, %edi
	jmp	.LBB13_49
.LBB13_66:
	xorl	%ecx, %ecx
	movq	200(%rsp), %rdi
	cmpq	$2, %rdi
	jae	.LBB13_73
	jmp	.LBB13_76
.LBB13_67:
	cmpq	$24, %rsi
	ja	.LBB13_69
	movq	72(%rsp), %rsi
	movzwl	(%rsi,%rdi), %edi
	movzwl	-2(%rsi,%r10), %esi
	movq	$-2, %r10
	jmp	.LBB13_72
.LBB13_69:
	cmpq	$56, %rsi
	ja	.LBB13_71
	movq	72(%rsp), %rsi
	movl	(%rsi,%rdi), %edi
	movl	-4(%rsi,%r10), %esi
	movq	$-4, %r10
	jmp	.LBB13_72
.LBB13_71:
	movq	72(%rsp), %rsi
	movq	(%rsi,%rdi), %rdi
	movq	-8(%rsi,%r10), %rsi
	movq	$-8, %r10
.LBB13_72:
	bswapq	%rdi
	shlxq	%rdx, %rdi, %rdi
	bswapq	%rsi
	addl	%r10d, %ecx
	shll	$3, %ecx
	subl	%edx, %ecx
	shrxq	%rcx, %rsi, %rcx
	orq	%rdi, %rcx
	movq	112(%rsp), %rdx
	shrxq	%rdx, %rcx, %rcx
	movq	96(%rsp), %r10
	movq	80(%rsp), %rsi
	movq	200(%rsp), %rdi
	cmpq	$2, %rdi
	jb	.LBB13_76
.LBB13_73:
	movq	%rcx, %rdx
	orq	%rdi, %rdx
	shrq	$32, %rdx
	je	.LBB13_76
	movq	%rax, %r10
	movq	120(%rsp), %rax
	xorl	%edx, %edx
	divq	%rdi
	movq	%rdi, %rsi
	xorl	%edi, %edi
	movb	$15, %dl
	cmpq	%rax, %rcx
	jbe	.LBB13_46
	xorl	%r11d, %r11d
	movq	%r10, %rax
	movq	96(%rsp), %r10
	movq	80(%rsp), %rsi
	jmp	.LBB13_48
	.p2align	4
.LBB13_76:
	imulq	%rdi, %rcx
	cmpq	120(%rsp), %rcx
	jbe	.LBB13_47
	movb	$15, %dl
	xorl	%r11d, %r11d
	xorl	%edi, %edi
	jmp	.LBB13_48
.LBB13_78:
	orq	$1, %rdi
	movq	%rdi, %r11
	movq	56(%rsp), %r10
	jmp	.LBB13_38
.LBB13_80:
	movq	%r13, %rdx
	andq	$-2, %rdx
	xorl	%ecx, %ecx
	jmp	.LBB13_82
	.p2align	4
.LBB13_81:
	movq	$0, 8(%r15,%rcx,8)
	movq	$0, 8(%r14,%rcx,8)
	movb	%sil, 1(%rbx,%rcx)
	addq	$2, %rcx
	cmpq	%rcx, %rdx
	je	.LBB13_86
.LBB13_82:
	movb	$14, %sil
	cmpl	$2147352575, (%r12,%rcx,4)
	leaq	".Lswitch.table.page::fill_by"(%rip), %rdi
	movb	$14, %r8b
	ja	.LBB13_84
	movzbl	(%rax,%rdi), %r8d
.LBB13_84:
	movq	$0, (%r15,%rcx,8)
	movq	$0, (%r14,%rcx,8)
	movb	%r8b, (%rbx,%rcx)
	cmpl	$2147352575, 4(%r12,%rcx,4)
	ja	.LBB13_81
	movzbl	(%rax,%rdi), %esi
	jmp	.LBB13_81
.LBB13_86:
	testb	$1, %r13b
	je	.LBB13_90
.LBB13_87:
	movb	$14, %dl
	cmpl	$2147352575, (%r12,%rcx,4)
	ja	.LBB13_89
	leaq	".Lswitch.table.page::fill_by"(%rip), %rdx
	movzbl	(%rax,%rdx), %edx
.LBB13_89:
	movq	$0, (%r15,%rcx,8)
	movq	$0, (%r14,%rcx,8)
	movb	%dl, (%rbx,%rcx)
.LBB13_90:
	xorl	%eax, %eax
.LBB13_91:
	addq	$312, %rsp
	popq	%rbx
	popq	%r12
	popq	%r13
	popq	%r14
	popq	%r15
	popq	%rbp
	vzeroupper
	retq
.Lfunc_end13:
	.size	"page::fill_by", .Lfunc_end13-"page::fill_by"

	.section	.rodata.cst8,"aM",@progbits,8
	.p2align	3, 0x0
.LCPI14_0:
	.quad	65536
	.section	.rodata.cst32,"aM",@progbits,32
	.p2align	5, 0x0
.LCPI14_1:
	.zero	32,15
.LCPI14_2:
	.byte	0
	.byte	1
	.byte	1
	.byte	2
	.byte	1
	.byte	2
	.byte	2
	.byte	3
	.byte	1
	.byte	2
	.byte	2
	.byte	3
	.byte	2
	.byte	3
	.byte	3
	.byte	4
	.byte	0
	.byte	1
	.byte	1
	.byte	2
	.byte	1
	.byte	2
	.byte	2
	.byte	3
	.byte	1
	.byte	2
	.byte	2
	.byte	3
	.byte	2
	.byte	3
	.byte	3
	.byte	4
	.section	.rodata.cst4,"aM",@progbits,4
	.p2align	2, 0x0
.LCPI14_3:
	.zero	4,15
	.section	.rodata.cst16,"aM",@progbits,16
	.p2align	4, 0x0
.LCPI14_4:
	.byte	0
	.byte	1
	.byte	1
	.byte	2
	.byte	1
	.byte	2
	.byte	2
	.byte	3
	.byte	1
	.byte	2
	.byte	2
	.byte	3
	.byte	2
	.byte	3
	.byte	3
	.byte	4
	.section	".text.page::fill_any","ax",@progbits
	.p2align	4
	.type	"page::fill_any",@function
"page::fill_any":
	pushq	%rbp
	pushq	%r15
	pushq	%r14
	pushq	%r13
	pushq	%r12
	pushq	%rbx
	subq	$904, %rsp
	movq	976(%rsp), %rax
	movzbl	(%rax), %r10d
	movl	%r10d, -124(%rsp)
	movq	8(%rax), %rbx
	movq	16(%rax), %r14
	movq	24(%rax), %r15
	movq	32(%rax), %rbp
	movq	40(%rax), %r10
	movq	48(%rax), %r12
	movq	56(%rax), %r13
	movq	72(%rax), %rax
	vpbroadcastq	.LCPI14_0(%rip), %ymm0
	vmovdqu	%ymm0, 776(%rsp)
	vmovdqu	%ymm0, 808(%rsp)
	vmovdqu	%ymm0, 840(%rsp)
	vmovdqu	%ymm0, 872(%rsp)
	movq	$1, 136(%rsp)
	vpxor	%xmm0, %xmm0, %xmm0
	vmovdqu	%ymm0, 144(%rsp)
	movq	$1, 176(%rsp)
	vmovdqu	%ymm0, 184(%rsp)
	movq	$1, 216(%rsp)
	vmovdqu	%ymm0, 224(%rsp)
	movq	$1, 256(%rsp)
	vmovdqu	%ymm0, 264(%rsp)
	movq	$1, 296(%rsp)
	vmovdqu	%ymm0, 304(%rsp)
	movq	$1, 336(%rsp)
	vmovdqu	%ymm0, 344(%rsp)
	movq	$1, 376(%rsp)
	vmovdqu	%ymm0, 384(%rsp)
	movq	$1, 416(%rsp)
	vmovdqu	%ymm0, 424(%rsp)
	movq	$1, 456(%rsp)
	vmovdqu	%ymm0, 464(%rsp)
	movq	$1, 496(%rsp)
	vmovdqu	%ymm0, 504(%rsp)
	movq	$1, 536(%rsp)
	vmovdqu	%ymm0, 544(%rsp)
	movq	$1, 576(%rsp)
	vmovdqu	%ymm0, 584(%rsp)
	movq	$1, 616(%rsp)
	vmovdqu	%ymm0, 624(%rsp)
	movq	%rcx, 120(%rsp)
	movq	%rdx, 112(%rsp)
	movq	%rsi, 104(%rsp)
	movq	%rdi, 96(%rsp)
	movq	$1, 656(%rsp)
	vmovdqu	%ymm0, 664(%rsp)
	movq	$1, 696(%rsp)
	vmovdqu	%ymm0, 704(%rsp)
	movq	$1, 736(%rsp)
	vmovdqu	%ymm0, 744(%rsp)
	movq	984(%rsp), %r11
	movq	%r9, 128(%rsp)
	cmpq	%r9, %r8
	jae	.LBB14_101
	movq	%r8, %rdi
	movq	968(%rsp), %r8
	movq	960(%rsp), %rcx
	addq	%rax, %rcx
	movq	%rcx, -88(%rsp)
	leaq	(,%rbp,8), %rdx
	movq	%r10, %rcx
	movq	%r15, %r10
	subq	%rdx, %r10
	movb	$17, %dl
	subb	%r14b, %dl
	movl	$1, %esi
	movq	%r13, -96(%rsp)
	shlxq	%rdx, %rsi, %r13
	leaq	8192(%r13), %rdx
	movq	%rbp, %r9
	subq	$1, %rbp
	movl	$2, %esi
	sbbq	$0, %rsi
	movq	%rsi, 72(%rsp)
	testq	%r14, %r14
	movl	$8192, %esi
	cmovneq	%rdx, %rsi
	movq	%rsi, 64(%rsp)
	cmoveq	%r14, %r13
	addq	%rax, %r15
	subq	%r15, %r8
	movq	%rbx, %rdx
	shrq	$14, %rdx
	movq	%rbx, 48(%rsp)
	movl	%ebx, %esi
	andl	$16383, %esi
	addl	$16383, %esi
	shrl	$14, %esi
	addq	%rdx, %rsi
	leaq	(%rsi,%rsi,4), %rdx
	leaq	(%rdx,%rdx,4), %rdx
	movq	%r8, 8(%rsp)
	movq	%rdx, -16(%rsp)
	subq	%rdx, %r8
	movq	%r8, (%rsp)
	movl	%r12d, %edx
	movq	%r12, %rsi
	shrq	%rsi
	movabsq	$-9223372036854775808, %r8
	orq	%r8, %rsi
	notq	%r12
	shrq	%r12
	testb	$1, %dl
	movq	%r10, -32(%rsp)
	movq	-88(%rsp), %r8
	leaq	(%r8,%r10), %rdx
	movq	%rdx, 80(%rsp)
	cmoveq	%rsi, %r12
	movq	%r12, -80(%rsp)
	leaq	(%r8,%r13), %rdx
	movq	%rdx, 56(%rsp)
	movq	960(%rsp), %rsi
	leaq	(%rsi,%r15), %rdx
	movq	%rdx, -120(%rsp)
	addq	%rax, %r13
	leaq	(%rsi,%r13), %rax
	addq	$96, %rax
	movq	%rax, -24(%rsp)
	addq	%rsi, %r13
	movq	%r13, -48(%rsp)
	movl	$64, %eax
	subq	%rcx, %rax
	movq	%rax, -40(%rsp)
	movq	%r14, 32(%rsp)
	leaq	-6(%r14), %rax
	movq	%rax, 24(%rsp)
	movq	-96(%rsp), %rax
	leaq	(,%rax,8), %rax
	movq	%rax, -72(%rsp)
	leaq	-1(%rcx), %rax
	movq	%rax, 16(%rsp)
	movq	%rcx, -64(%rsp)
	leaq	7(%rcx), %rax
	movq	%rax, -8(%rsp)
	xorl	%r15d, %r15d
	movq	%rdi, %r8
	movl	-124(%rsp), %eax
	movq	%r9, 88(%rsp)
	movl	%eax, %r9d
	movq	%rdi, -112(%rsp)
	movq	%rbp, -56(%rsp)
	jmp	.LBB14_2
	.p2align	4
.LBB14_20:
	movb	$14, %r10b
.LBB14_95:
	xorl	%ecx, %ecx
	xorl	%edx, %edx
	xorl	%esi, %esi
.LBB14_100:
	addq	%rsi, %r11
	movq	96(%rsp), %rax
	movq	%rcx, (%rax,%r8,8)
	movq	104(%rsp), %rax
	movq	%rdx, (%rax,%r8,8)
	movq	112(%rsp), %rax
	movb	%r10b, (%rax,%r8)
	incq	%r8
	cmpq	128(%rsp), %r8
	je	.LBB14_101
.LBB14_2:
	movq	120(%rsp), %rax
	movl	(%rax,%r8,4), %r14d
	movl	%r14d, %ecx
	shrl	$16, %ecx
	movl	%ecx, %eax
	andl	$15, %eax
	movq	%r8, %rdx
	subq	%rdi, %rdx
	shrq	$3, %rdx
	addq	$32, %rdx
	cmpq	%rdx, %r15
	ja	.LBB14_5
	movl	%eax, %edx
	cmpq	%rcx, 776(%rsp,%rdx,8)
	jne	.LBB14_5
	shll	$3, %eax
	leaq	(%rax,%rax,4), %rcx
	cmpl	$2147352575, %r14d
	ja	.LBB14_20
	jmp	.LBB14_21
	.p2align	4
.LBB14_5:
	cmpq	$0, 88(%rsp)
	je	.LBB14_6
	cmpq	%rcx, %rbp
	movq	%rcx, %rdx
	cmovbq	%rbp, %rdx
	movl	%edx, %edx
	movq	80(%rsp), %rsi
	movl	(%rsi,%rdx,8), %r10d
	movl	4(%rsi,%rdx,8), %esi
	leaq	4(%rsi), %rdx
	movl	$2, %ebx
	cmpq	%rdx, -32(%rsp)
	jae	.LBB14_10
.LBB14_9:
	xorl	%edx, %edx
	jmp	.LBB14_17
.LBB14_6:
	xorl	%esi, %esi
	xorl	%r10d, %r10d
	leaq	4(%rsi), %rdx
	movl	$2, %ebx
	cmpq	%rdx, -32(%rsp)
	jb	.LBB14_9
.LBB14_10:
	movq	-88(%rsp), %rdi
	movzwl	(%rdi,%rsi), %edi
	cmpl	%edi, %ecx
	jae	.LBB14_12
	movl	$1, %ebx
	xorl	%edx, %edx
	jmp	.LBB14_17
.LBB14_12:
	cmpl	%edi, %ecx
	jbe	.LBB14_14
	xorl	%edx, %edx
	movq	72(%rsp), %rbx
	jmp	.LBB14_17
.LBB14_14:
	movq	-88(%rsp), %rdi
	movzwl	2(%rdi,%rsi), %r12d
	leaq	1(%r12), %rsi
	xorl	%ebx, %ebx
	xorl	%edi, %edi
	cmpq	$65535, %r12
	sete	%dil
	movq	64(%rsp), %r13
	cmoveq	%rbx, %r13
	incq	%rdi
	leal	(%rsi,%rsi), %ebp
	cmpq	$4095, %r12
	cmovbq	%rbx, %rdi
	cmovaeq	%r13, %rbp
	addq	%rdx, %rbp
	cmpq	%rbp, -32(%rsp)
	movq	-56(%rsp), %rbp
	jb	.LBB14_16
	addq	%r10, %r12
	incq	%r12
	cmpq	%r12, 48(%rsp)
	jae	.LBB14_18
.LBB14_16:
	xorl	%edx, %edx
	movl	$2, %ebx
	.p2align	4
.LBB14_17:
	xorl	%r10d, %r10d
	xorl	%esi, %esi
	xorl	%edi, %edi
.LBB14_18:
	shll	$3, %eax
	movq	%rcx, 776(%rsp,%rax)
	leaq	(%rax,%rax,4), %rcx
	movq	%rbx, 136(%rsp,%rcx)
	movq	%rdx, 144(%rsp,%rcx)
	movq	%r10, 152(%rsp,%rcx)
	movq	%rsi, 160(%rsp,%rcx)
	movq	%rdi, 168(%rsp,%rcx)
	incq	%r15
	movq	-112(%rsp), %rdi
	cmpl	$2147352575, %r14d
	ja	.LBB14_20
.LBB14_21:
	movzbl	136(%rsp,%rcx), %r10d
	cmpl	$2, %r10d
	je	.LBB14_94
	cmpl	$1, %r10d
	je	.LBB14_95
	movq	144(%rsp,%rcx), %rbx
	movq	152(%rsp,%rcx), %rax
	movq	160(%rsp,%rcx), %rdx
	movzbl	168(%rsp,%rcx), %esi
	movzwl	%r14w, %ecx
	cmpl	$2, %esi
	je	.LBB14_53
	cmpl	$1, %esi
	jne	.LBB14_25
	movl	%ecx, %r12d
	shrl	$6, %r12d
	movl	%ecx, %r14d
	andl	$63, %r14d
	movq	56(%rsp), %rsi
	addq	%rbx, %rsi
	movq	(%rsi,%r12,8), %r9
	btq	%r14, %r9
	jae	.LBB14_32
	movq	32(%rsp), %rsi
	testq	%rsi, %rsi
	shrxq	%rsi, %rcx, %rcx
	movq	24(%rsp), %rdi
	shlxq	%rdi, %rcx, %r10
	cmoveq	%rsi, %r10
	je	.LBB14_34
	movq	-88(%rsp), %rsi
	addq	%rbx, %rsi
	movbew	(%rsi,%rcx,2), %cx
	movzwl	%cx, %ecx
	jmp	.LBB14_36
.LBB14_53:
	addq	%rcx, %rax
	movq	$0, -104(%rsp)
	xorl	%r10d, %r10d
	movl	%r9d, %ecx
	leaq	.LJTI14_0(%rip), %rdx
	movslq	(%rdx,%rcx,4), %rsi
	addq	%rdx, %rsi
	movq	%rax, %r13
	movq	-72(%rsp), %rcx
	movq	-64(%rsp), %r14
	movq	%r14, %rdx
	xorl	%ebx, %ebx
	jmpq	*%rsi
.LBB14_25:
	leaq	1(%rdx), %rdi
	cmpq	$2, %rdi
	jb	.LBB14_26
	movq	-88(%rsp), %rsi
	leaq	(%rsi,%rbx), %r10
	xorl	%esi, %esi
	movq	%rdi, %r12
	.p2align	4
.LBB14_28:
	movq	%rdx, %r13
	movq	%rsi, %rbp
	addq	%rdx, %rsi
	movq	%rsi, %rdx
	shrq	%rdx
	andq	$-2, %rsi
	movzwl	(%r10,%rsi), %r9d
	leaq	1(%rdx), %rsi
	cmpl	%r9d, %ecx
	cmovbeq	%rbp, %rsi
	cmovaeq	%r13, %rdx
	shrq	%r12
	cmpq	$3, %rdi
	movq	%r12, %rdi
	ja	.LBB14_28
	jmp	.LBB14_29
.LBB14_26:
	xorl	%esi, %esi
.LBB14_29:
	leaq	(%rsi,%rdx), %rcx
	movq	%rcx, %r13
	shrq	%r13
	andq	$-2, %rcx
	xorl	%edi, %edi
	cmpq	%rdx, %rsi
	cmovaeq	%rdi, %rcx
	addq	-88(%rsp), %rbx
	cmpw	%r14w, (%rcx,%rbx)
	movl	$65536, %ecx
	cmovneq	%rcx, %r13
	cmpq	%rdx, %rsi
	cmovaeq	%rcx, %r13
	movb	$1, %r10b
	cmpq	$65535, %r13
	ja	.LBB14_30
	movq	$0, -104(%rsp)
	addq	%rax, %r13
	xorl	%r10d, %r10d
	movl	-124(%rsp), %r9d
	movl	%r9d, %eax
	leaq	.LJTI14_0(%rip), %rcx
	movslq	(%rcx,%rax,4), %rsi
	addq	%rcx, %rsi
	movq	-72(%rsp), %rcx
	movq	-64(%rsp), %r14
	movq	%r14, %rdx
	movq	%r13, %rax
	xorl	%ebx, %ebx
	movq	-112(%rsp), %rdi
	movq	-56(%rsp), %rbp
	jmpq	*%rsi
.LBB14_30:
	xorl	%ecx, %ecx
	xorl	%edx, %edx
	xorl	%esi, %esi
	movl	-124(%rsp), %r9d
	movq	-112(%rsp), %rdi
	movq	-56(%rsp), %rbp
	jmp	.LBB14_100
.LBB14_32:
	movl	$1, %esi
	movb	$1, %r10b
	xorl	%ecx, %ecx
	xorl	%edx, %edx
	movl	-124(%rsp), %r9d
	jmp	.LBB14_100
.LBB14_34:
	xorl	%ecx, %ecx
.LBB14_36:
	movq	%r12, %rdi
	subq	%r10, %rdi
	subq	%r10, %r12
	movq	%rdi, -104(%rsp)
	movq	%rcx, 40(%rsp)
	jne	.LBB14_38
	xorl	%r13d, %r13d
	jmp	.LBB14_51
.LBB14_38:
	cmpq	$4, %rdi
	jae	.LBB14_40
	xorl	%r13d, %r13d
	xorl	%ecx, %ecx
	jmp	.LBB14_49
.LBB14_40:
	cmpq	$16, %rdi
	jae	.LBB14_42
	xorl	%ecx, %ecx
	xorl	%r13d, %r13d
	jmp	.LBB14_46
.LBB14_42:
	movq	%rdi, %rcx
	andq	$-16, %rcx
	leaq	(%rbx,%r10,8), %r13
	addq	-24(%rsp), %r13
	vpxor	%xmm0, %xmm0, %xmm0
	xorl	%esi, %esi
	vpxor	%xmm1, %xmm1, %xmm1
	vpxor	%xmm2, %xmm2, %xmm2
	vpxor	%xmm3, %xmm3, %xmm3
	vpxor	%xmm4, %xmm4, %xmm4
	.p2align	4
.LBB14_43:
	vmovdqu	-96(%r13,%rsi,8), %ymm5
	vmovdqu	-64(%r13,%rsi,8), %ymm6
	vmovdqu	-32(%r13,%rsi,8), %ymm7
	vmovdqu	(%r13,%rsi,8), %ymm8
	vpbroadcastd	.LCPI14_3(%rip), %ymm9
	vpand	%ymm5, %ymm9, %ymm10
	vbroadcasti128	.LCPI14_4(%rip), %ymm11
	vpshufb	%ymm10, %ymm11, %ymm10
	vpsrlw	$4, %ymm5, %ymm5
	vpand	%ymm5, %ymm9, %ymm5
	vpshufb	%ymm5, %ymm11, %ymm5
	vpaddb	%ymm5, %ymm10, %ymm5
	vpsadbw	%ymm0, %ymm5, %ymm5
	vpaddq	%ymm1, %ymm5, %ymm1
	vpand	%ymm6, %ymm9, %ymm5
	vpshufb	%ymm5, %ymm11, %ymm5
	vpsrlw	$4, %ymm6, %ymm6
	vpand	%ymm6, %ymm9, %ymm6
	vpshufb	%ymm6, %ymm11, %ymm6
	vpaddb	%ymm5, %ymm6, %ymm5
	vpsadbw	%ymm0, %ymm5, %ymm5
	vpaddq	%ymm2, %ymm5, %ymm2
	vpand	%ymm7, %ymm9, %ymm5
	vpshufb	%ymm5, %ymm11, %ymm5
	vpsrlw	$4, %ymm7, %ymm6
	vpand	%ymm6, %ymm9, %ymm6
	vpshufb	%ymm6, %ymm11, %ymm6
	vpaddb	%ymm5, %ymm6, %ymm5
	vpsadbw	%ymm0, %ymm5, %ymm5
	vpaddq	%ymm3, %ymm5, %ymm3
	vpand	%ymm9, %ymm8, %ymm5
	vpshufb	%ymm5, %ymm11, %ymm5
	vpsrlw	$4, %ymm8, %ymm6
	vpand	%ymm6, %ymm9, %ymm6
	vpshufb	%ymm6, %ymm11, %ymm6
	vpaddb	%ymm5, %ymm6, %ymm5
	vpsadbw	%ymm0, %ymm5, %ymm5
	vpaddq	%ymm4, %ymm5, %ymm4
	addq	$16, %rsi
	cmpq	%rsi, %rcx
	jne	.LBB14_43
	vpaddq	%ymm1, %ymm2, %ymm0
	vpaddq	%ymm0, %ymm3, %ymm0
	vpaddq	%ymm0, %ymm4, %ymm0
	vextracti128	$1, %ymm0, %xmm1
	vpaddq	%xmm1, %xmm0, %xmm0
	vpshufd	$238, %xmm0, %xmm1
	vpaddq	%xmm1, %xmm0, %xmm0
	vmovq	%xmm0, %r13
	cmpq	%rcx, %rdi
	je	.LBB14_51
	testb	$12, %dil
	je	.LBB14_49
.LBB14_46:
	movq	%rcx, %rdi
	movq	-104(%rsp), %rcx
	andq	$-4, %rcx
	vmovq	%r13, %xmm0
	movq	%rcx, %rsi
	subq	%rdi, %rsi
	addq	%r10, %rdi
	leaq	(%rbx,%rdi,8), %r13
	addq	-48(%rsp), %r13
	xorl	%edi, %edi
	.p2align	4
.LBB14_47:
	vmovdqu	(%r13,%rdi,8), %ymm1
	vpbroadcastd	.LCPI14_3(%rip), %ymm2
	vpand	%ymm2, %ymm1, %ymm3
	vbroadcasti128	.LCPI14_4(%rip), %ymm4
	vpshufb	%ymm3, %ymm4, %ymm3
	vpsrlw	$4, %ymm1, %ymm1
	vpand	%ymm2, %ymm1, %ymm1
	vpshufb	%ymm1, %ymm4, %ymm1
	vpaddb	%ymm3, %ymm1, %ymm1
	vpxor	%xmm2, %xmm2, %xmm2
	vpsadbw	%ymm2, %ymm1, %ymm1
	vpaddq	%ymm0, %ymm1, %ymm0
	addq	$4, %rdi
	cmpq	%rdi, %rsi
	jne	.LBB14_47
	vextracti128	$1, %ymm0, %xmm1
	vpaddq	%xmm1, %xmm0, %xmm0
	vpshufd	$238, %xmm0, %xmm1
	vpaddq	%xmm1, %xmm0, %xmm0
	vmovq	%xmm0, %r13
	cmpq	%rcx, -104(%rsp)
	je	.LBB14_51
.LBB14_49:
	subq	%rcx, %r12
	addq	%rcx, %r10
	leaq	(%rbx,%r10,8), %rcx
	addq	-48(%rsp), %rcx
	xorl	%esi, %esi
	.p2align	4
.LBB14_50:
	xorl	%edi, %edi
	popcntq	(%rcx,%rsi,8), %rdi
	addq	%rdi, %r13
	incq	%rsi
	cmpq	%rsi, %r12
	jne	.LBB14_50
.LBB14_51:
	bzhiq	%r14, %r9, %rcx
	popcntq	%rcx, %rcx
	movq	40(%rsp), %rsi
	addq	%rcx, %rsi
	movq	%rsi, %rcx
	addq	%r13, %rcx
	cmpq	%rdx, %rcx
	movq	-112(%rsp), %rdi
	movl	-124(%rsp), %r9d
	jae	.LBB14_94
	incq	-104(%rsp)
	movl	%ecx, %r13d
	addq	%rax, %r13
	xorl	%r10d, %r10d
	movl	%r9d, %eax
	leaq	.LJTI14_0(%rip), %rcx
	movslq	(%rcx,%rax,4), %rsi
	addq	%rcx, %rsi
	movq	-72(%rsp), %rcx
	movq	-64(%rsp), %r14
	movq	%r14, %rdx
	movq	%r13, %rax
	xorl	%ebx, %ebx
	jmpq	*%rsi
.LBB14_78:
	movq	%r13, %rax
	imulq	%r14, %rax
	movq	%rax, %rdx
	shrq	$3, %rdx
	cmpq	$56, 16(%rsp)
	ja	.LBB14_81
	leaq	8(%rdx), %rcx
	cmpq	8(%rsp), %rcx
	ja	.LBB14_81
	movq	-120(%rsp), %rcx
	movbeq	(%rcx,%rdx), %rcx
	andb	$7, %al
	shlxq	%rax, %rcx, %rax
	movq	-40(%rsp), %rcx
	shrxq	%rcx, %rax, %r14
	movq	-80(%rsp), %rbx
	movq	-96(%rsp), %rdx
	jmp	.LBB14_91
.LBB14_61:
	movb	$1, %r10b
	xorl	%ecx, %ecx
	movq	%r14, %rdx
	movq	%r13, %rax
	movq	-80(%rsp), %rbx
.LBB14_62:
	testq	%rdx, %rdx
	je	.LBB14_63
.LBB14_67:
	addq	-120(%rsp), %rcx
	imulq	%rdx, %rax
	movq	%rax, %rdi
	shrq	$3, %rdi
	leaq	(%rdx,%rax), %r14
	addq	$7, %r14
	shrq	$3, %r14
	cmpq	$8, %rdx
	ja	.LBB14_69
	movzbl	(%rcx,%rdi), %esi
	movzbl	-1(%rcx,%r14), %ecx
	movl	$1, %r12d
	subq	%rdi, %r14
	andl	$7, %eax
	testb	%r10b, %r10b
	je	.LBB14_75
	jmp	.LBB14_76
.LBB14_55:
	movq	%r13, %rax
	shrq	$14, %rax
	leaq	(%rax,%rax,4), %rax
	leaq	(%rax,%rax,4), %rcx
	movq	-120(%rsp), %rsi
	movzbl	24(%rsi,%rcx), %edx
	movb	$15, %r10b
	cmpq	$64, %rdx
	ja	.LBB14_95
	movq	(%rsi,%rcx), %rbx
	movabsq	$-9223372036854775808, %rax
	xorq	%rax, %rbx
	movl	%r13d, %eax
	andl	$16383, %eax
	testq	%rdx, %rdx
	je	.LBB14_57
	movq	16(%rsi,%rcx), %rcx
	movq	(%rsp), %rsi
	subq	%rcx, %rsi
	jb	.LBB14_95
	leal	1(%rax), %edi
	movl	%edx, %r9d
	imull	%edi, %r9d
	movq	-112(%rsp), %rdi
	addl	$7, %r9d
	shrl	$3, %r9d
	cmpq	%r9, %rsi
	movl	-124(%rsp), %r9d
	jb	.LBB14_95
	jmp	.LBB14_60
.LBB14_69:
	cmpq	$24, %rdx
	ja	.LBB14_71
	movzwl	(%rcx,%rdi), %esi
	movzwl	-2(%rcx,%r14), %ecx
	movl	$2, %r12d
	subq	%rdi, %r14
	andl	$7, %eax
	testb	%r10b, %r10b
	je	.LBB14_75
	jmp	.LBB14_76
.LBB14_81:
	testq	%r14, %r14
	movq	-80(%rsp), %rbx
	je	.LBB14_82
	movq	-8(%rsp), %rcx
	leaq	(%rcx,%rax), %rdi
	shrq	$3, %rdi
	movq	%rdi, %rcx
	subq	%rdx, %rcx
	andl	$7, %eax
	cmpq	$8, %r14
	ja	.LBB14_85
	movq	-120(%rsp), %r10
	movzbl	(%r10,%rdx), %esi
	movzbl	-1(%r10,%rdi), %edx
	movq	$-1, %rdi
	jmp	.LBB14_90
.LBB14_71:
	cmpq	$56, %rdx
	ja	.LBB14_73
	movl	(%rcx,%rdi), %esi
	movl	-4(%rcx,%r14), %ecx
	movl	$4, %r12d
	subq	%rdi, %r14
	andl	$7, %eax
	testb	%r10b, %r10b
	jne	.LBB14_76
.LBB14_75:
	bswapq	%rsi
	bswapq	%rcx
	shlxq	%rax, %rsi, %rsi
	subl	%r12d, %r14d
	shll	$3, %r14d
	subl	%eax, %r14d
	shrxq	%r14, %rcx, %rax
	orq	%rsi, %rax
	jmp	.LBB14_77
.LBB14_57:
	xorl	%ecx, %ecx
.LBB14_60:
	addq	-16(%rsp), %rcx
	xorl	%r10d, %r10d
	testq	%rdx, %rdx
	jne	.LBB14_67
.LBB14_63:
	xorl	%r14d, %r14d
	cmpl	$3, %r9d
	movq	-96(%rsp), %rdx
	je	.LBB14_65
	jmp	.LBB14_91
.LBB14_82:
	xorl	%r14d, %r14d
	movq	-96(%rsp), %rdx
	jmp	.LBB14_91
.LBB14_73:
	movq	(%rcx,%rdi), %rsi
	movq	-8(%rcx,%r14), %rcx
	movl	$8, %r12d
	subq	%rdi, %r14
	andl	$7, %eax
	testb	%r10b, %r10b
	je	.LBB14_75
.LBB14_76:
	subl	%r12d, %r14d
	shll	$3, %r14d
	shlxq	%r14, %rcx, %rcx
	orq	%rsi, %rcx
	addl	%edx, %eax
	negb	%al
	shlxq	%rax, %rcx, %rax
.LBB14_77:
	negb	%dl
	shrxq	%rdx, %rax, %r14
	movq	-112(%rsp), %rdi
	cmpl	$3, %r9d
	movq	-96(%rsp), %rdx
	jne	.LBB14_91
.LBB14_65:
	cmpq	%r14, %rdx
	jbe	.LBB14_94
	movq	-120(%rsp), %rax
	movq	(%rax,%r14,8), %rdx
	xorl	%r10d, %r10d
	movq	%r13, %rcx
	jmp	.LBB14_99
.LBB14_85:
	cmpq	$24, %r14
	ja	.LBB14_87
	movq	-120(%rsp), %r10
	movzwl	(%r10,%rdx), %esi
	movzwl	-2(%r10,%rdi), %edx
	movq	$-2, %rdi
	jmp	.LBB14_90
.LBB14_87:
	cmpq	$56, %r14
	ja	.LBB14_89
	movq	-120(%rsp), %r10
	movl	(%r10,%rdx), %esi
	movl	-4(%r10,%rdi), %edx
	movq	$-4, %rdi
	jmp	.LBB14_90
.LBB14_89:
	movq	-120(%rsp), %r10
	movq	(%r10,%rdx), %rsi
	movq	-8(%r10,%rdi), %rdx
	movq	$-8, %rdi
.LBB14_90:
	bswapq	%rsi
	shlxq	%rax, %rsi, %rsi
	bswapq	%rdx
	addl	%edi, %ecx
	shll	$3, %ecx
	subl	%eax, %ecx
	shrxq	%rcx, %rdx, %rax
	orq	%rsi, %rax
	movq	-40(%rsp), %rcx
	shrxq	%rcx, %rax, %r14
	movq	-96(%rsp), %rdx
	movq	-112(%rsp), %rdi
.LBB14_91:
	movq	%rbx, %rax
	notq	%rax
	cmpq	$2, %rdx
	jb	.LBB14_93
	movq	%r14, %rcx
	orq	%rdx, %rcx
	shrq	$32, %rcx
	je	.LBB14_93
	xorl	%ecx, %ecx
	movq	%rdx, %rsi
	xorl	%edx, %edx
	divq	%rsi
	movb	$15, %r10b
	movl	$0, %edx
	movl	$0, %esi
	cmpq	%rax, %r14
	ja	.LBB14_100
	imulq	-96(%rsp), %r14
	jmp	.LBB14_98
.LBB14_93:
	imulq	%rdx, %r14
	cmpq	%rax, %r14
	jbe	.LBB14_98
	.p2align	4
.LBB14_94:
	movb	$15, %r10b
	jmp	.LBB14_95
.LBB14_98:
	addq	%rbx, %r14
	movabsq	$-9223372036854775808, %rax
	xorq	%rax, %r14
	xorl	%r10d, %r10d
	movq	%r13, %rcx
	movq	%r14, %rdx
.LBB14_99:
	movq	-104(%rsp), %rsi
	jmp	.LBB14_100
.LBB14_101:
	movq	%r11, %rax
	addq	$904, %rsp
	popq	%rbx
	popq	%r12
	popq	%r13
	popq	%r14
	popq	%r15
	popq	%rbp
	vzeroupper
	retq
.Lfunc_end14:
	.size	"page::fill_any", .Lfunc_end14-"page::fill_any"
	.section	".rodata.page::fill_any","a",@progbits
	.p2align	2, 0x0
.LJTI14_0:
	.long	.LBB14_78-.LJTI14_0
	.long	.LBB14_61-.LJTI14_0
	.long	.LBB14_55-.LJTI14_0
	.long	.LBB14_62-.LJTI14_0

	.section	".text.layered_page::tested","ax",@progbits
	.p2align	4
	.type	"layered_page::tested",@function
"layered_page::tested":
	pushq	%rbp
	pushq	%r15
	pushq	%r14
	pushq	%r13
	pushq	%r12
	pushq	%rbx
	movq	8(%rdx), %rax
	cmpq	$2147352576, %rax
	ja	.LBB15_17
	movq	16(%rdx), %r8
	movq	32(%rdx), %rcx
	testq	%r8, %r8
	setne	%r9b
	leaq	-16(%r8), %r10
	cmpq	$-9, %r10
	setb	%r10b
	andb	%r9b, %r10b
	cmpq	$32768, %rcx
	setae	%r9b
	orb	%r10b, %r9b
	jne	.LBB15_17
	movq	24(%rdx), %r10
	movq	40(%rdx), %r9
	leaq	6(,%rcx,8), %r11
	cmpq	%r11, %r10
	setb	%r11b
	cmpq	$65, %r9
	setae	%bl
	orb	%r11b, %bl
	je	.LBB15_3
.LBB15_17:
	movq	$1, (%rdi)
	movq	$8, 8(%rdi)
.LBB15_18:
	vxorps	%xmm0, %xmm0, %xmm0
	vmovups	%ymm0, 16(%rdi)
	vmovups	%ymm0, 48(%rdi)
	movq	$0, 80(%rdi)
.LBB15_19:
	popq	%rbx
	popq	%r12
	popq	%r13
	popq	%r14
	popq	%r15
	popq	%rbp
	vzeroupper
	retq
.LBB15_3:
	movq	(%rdx), %r15
	movq	48(%rdx), %r11
	movq	56(%rdx), %rbx
	movq	64(%rdx), %r14
	movq	72(%rdx), %rdx
	movq	%r9, %r12
	imulq	%rax, %r12
	addq	$7, %r12
	shrq	$3, %r12
	cmpb	$2, %r15b
	jae	.LBB15_4
	testq	%rbx, %rbx
	je	.LBB15_17
	cmpq	%r12, %r14
	jne	.LBB15_17
	movl	%r15d, %ebp
	xorb	$1, %bpl
	movabsq	$72340173107564823, %r12
	shrxq	%r9, %r12, %r12
	orb	%bpl, %r12b
	testb	$1, %r12b
	je	.LBB15_17
.LBB15_11:
	subq	%rdx, %rsi
	jb	.LBB15_13
	subq	%r10, %rsi
	setae	%bpl
	cmpq	%r14, %rsi
	sete	%sil
	testb	%sil, %bpl
	je	.LBB15_13
	movq	$0, (%rdi)
	movq	%r15, 8(%rdi)
	movq	%rax, 16(%rdi)
	movq	%r8, 24(%rdi)
	movq	%r10, 32(%rdi)
	movq	%rcx, 40(%rdi)
	movq	%r9, 48(%rdi)
	movq	%r11, 56(%rdi)
	movq	%rbx, 64(%rdi)
	movq	%r14, 72(%rdi)
	movq	%rdx, 80(%rdi)
	jmp	.LBB15_19
.LBB15_4:
	movzbl	%r15b, %ebp
	cmpl	$2, %ebp
	jne	.LBB15_8
	testq	%r9, %r9
	jne	.LBB15_17
	testq	%r11, %r11
	setne	%bpl
	testq	%rbx, %rbx
	sete	%r12b
	orb	%bpl, %r12b
	jne	.LBB15_17
	leaq	16383(%rax), %r12
	shrq	$14, %r12
	leaq	(%r12,%r12,4), %r12
	leaq	(%r12,%r12,4), %r12
	cmpq	%r14, %r12
	ja	.LBB15_17
	jmp	.LBB15_11
.LBB15_8:
	leaq	-257(%rbx), %r13
	cmpq	$-255, %r13
	jb	.LBB15_17
	leaq	-1(%rbx), %r13
	lzcntq	%r13, %r13
	movl	$64, %ebp
	subq	%r13, %rbp
	xorq	%r9, %rbp
	orq	%r11, %rbp
	jne	.LBB15_17
	leaq	(%r12,%rbx,8), %r12
	cmpq	%r12, %r14
	jne	.LBB15_17
	jmp	.LBB15_11
.LBB15_13:
	movq	$1, (%rdi)
	movq	$9, 8(%rdi)
	jmp	.LBB15_18
.Lfunc_end15:
	.size	"layered_page::tested", .Lfunc_end15-"layered_page::tested"

	.section	".text.layered_page::under::fill_under","ax",@progbits
	.p2align	4
	.type	"layered_page::under::fill_under",@function
"layered_page::under::fill_under":
	pushq	%rbp
	pushq	%r15
	pushq	%r14
	pushq	%r13
	pushq	%r12
	pushq	%rbx
	subq	$3072, %rsp
	movq	$0, (%rsp)
	subq	$3072, %rsp
	movq	$0, (%rsp)
	subq	$1768, %rsp
	movq	%rdx, 64(%rsp)
	movq	%rsi, 56(%rsp)
	movq	%rdi, 24(%rsp)
	movq	8008(%rsp), %rax
	movq	7984(%rsp), %rdx
	movzbl	(%rdx), %esi
	movq	%rsi, 96(%rsp)
	vmovups	8(%rdx), %ymm0
	vmovups	40(%rdx), %ymm1
	vmovups	56(%rdx), %ymm2
	vmovups	%ymm2, 272(%rsp)
	vmovups	%ymm1, 256(%rsp)
	vmovups	%ymm0, 224(%rsp)
	movzbl	(%rax), %edx
	movq	%rdx, 48(%rsp)
	vmovups	8(%rax), %ymm0
	vmovups	40(%rax), %ymm1
	vmovups	56(%rax), %ymm2
	vmovups	%ymm1, 176(%rsp)
	vmovups	%ymm0, 144(%rsp)
	movq	8016(%rsp), %rdx
	vmovups	%ymm2, 192(%rsp)
	testq	%r9, %r9
	je	.LBB16_1
	movq	%r8, 72(%rsp)
	leaq	4(%r8), %rax
	movq	%rax, 40(%rsp)
	leaq	1(%rcx), %rax
	movq	%rax, 32(%rsp)
	xorl	%esi, %esi
	xorl	%r14d, %r14d
	movq	%r9, 88(%rsp)
	movq	%rcx, 80(%rsp)
	jmp	.LBB16_3
	.p2align	4
.LBB16_19:
	movq	120(%rsp), %rdx
	subq	%r12, %rdx
	addq	104(%rsp), %r14
	movq	112(%rsp), %rsi
	addq	%r13, %rsi
	movq	88(%rsp), %r9
	cmpq	%r9, %r14
	movq	80(%rsp), %rcx
	jae	.LBB16_20
.LBB16_3:
	movq	%rsi, 112(%rsp)
	movq	%rdx, 120(%rsp)
	movq	%r9, %r12
	subq	%r14, %r12
	cmpq	$256, %r12
	movl	$256, %r13d
	cmovbq	%r12, %r13
	leaq	(%rcx,%r14), %r15
	leaq	744(%rsp), %rdi
	xorl	%ebx, %ebx
	movl	$1024, %edx
	xorl	%esi, %esi
	vzeroupper
	callq	memset@PLT
	leaq	1768(%rsp), %rdi
	movl	$2048, %edx
	xorl	%esi, %esi
	callq	memset@PLT
	cmpq	$1, %r12
	movq	%r13, 104(%rsp)
	jne	.LBB16_5
	xorl	%eax, %eax
	jmp	.LBB16_8
	.p2align	4
.LBB16_5:
	leaq	(,%r14,4), %rcx
	addq	40(%rsp), %rcx
	movl	%r13d, %edx
	andl	$510, %edx
	movq	32(%rsp), %rax
	leaq	(%rax,%r14), %rsi
	xorl	%ebx, %ebx
	xorl	%eax, %eax
	.p2align	4
.LBB16_6:
	movl	-4(%rcx,%rax,4), %edi
	movl	%edi, 744(%rsp,%rbx,4)
	movq	%rax, 1768(%rsp,%rbx,8)
	xorl	%edi, %edi
	cmpb	$1, -1(%rsi,%rax)
	sete	%dil
	addq	%rbx, %rdi
	movl	(%rcx,%rax,4), %r8d
	movl	%r8d, 744(%rsp,%rdi,4)
	leaq	1(%rax), %r8
	movq	%r8, 1768(%rsp,%rdi,8)
	xorl	%ebx, %ebx
	cmpb	$1, (%rsi,%rax)
	sete	%bl
	addq	%rdi, %rbx
	addq	$2, %rax
	cmpq	%rdx, %rax
	jne	.LBB16_6
	testb	$1, %r13b
	je	.LBB16_9
.LBB16_8:
	movq	%rbx, %rcx
	movq	72(%rsp), %rdx
	leaq	(%rdx,%r14,4), %rdx
	movl	(%rdx,%rax,4), %edx
	movl	%edx, 744(%rsp,%rbx,4)
	movq	%rax, 1768(%rsp,%rbx,8)
	xorl	%ebx, %ebx
	cmpb	$1, (%r15,%rax)
	sete	%bl
	addq	%rcx, %rbx
.LBB16_9:
	movq	96(%rsp), %rax
	movq	%rax, 568(%rsp)
	vmovups	224(%rsp), %ymm0
	vmovups	256(%rsp), %ymm1
	vmovups	272(%rsp), %ymm2
	leaq	576(%rsp), %rax
	vmovups	%ymm2, 48(%rax)
	vmovups	%ymm1, 32(%rax)
	vmovups	%ymm0, (%rax)
	leaq	5864(%rsp), %r13
	xorl	%r12d, %r12d
	movl	$2048, %edx
	movq	%r13, %rdi
	xorl	%esi, %esi
	vzeroupper
	callq	memset@PLT
	leaq	3816(%rsp), %rbp
	movl	$2048, %edx
	movq	%rbp, %rdi
	xorl	%esi, %esi
	callq	memset@PLT
	vxorps	%xmm0, %xmm0, %xmm0
	vmovups	%ymm0, 304(%rsp)
	vmovups	%ymm0, 336(%rsp)
	vmovups	%ymm0, 368(%rsp)
	vmovups	%ymm0, 400(%rsp)
	vmovups	%ymm0, 432(%rsp)
	vmovups	%ymm0, 464(%rsp)
	vmovups	%ymm0, 496(%rsp)
	vmovups	%ymm0, 528(%rsp)
	leaq	568(%rsp), %rax
	movq	%rax, 8(%rsp)
	movq	7976(%rsp), %rax
	movq	%rax, (%rsp)
	leaq	304(%rsp), %rdx
	leaq	744(%rsp), %rcx
	movq	%r13, %rdi
	movq	%rbp, %rsi
	movq	%rbx, %r8
	movq	7968(%rsp), %r9
	vzeroupper
	callq	"page::fill_by"
	movq	%rax, %r13
	testq	%rbx, %rbx
	je	.LBB16_19
	movq	56(%rsp), %rax
	leaq	(%rax,%r14,8), %rax
	movq	64(%rsp), %rcx
	leaq	(%rcx,%r14,8), %rcx
	cmpq	$1, %rbx
	jne	.LBB16_12
	xorl	%edx, %edx
	jmp	.LBB16_15
	.p2align	4
.LBB16_12:
	movq	%rbx, %rsi
	andq	$-2, %rsi
	xorl	%edx, %edx
	.p2align	4
.LBB16_13:
	movq	1768(%rsp,%rdx,8), %rdi
	movq	3816(%rsp,%rdx,8), %r8
	movq	5864(%rsp,%rdx,8), %r9
	movq	%r9, (%rax,%rdi,8)
	movq	%r8, (%rcx,%rdi,8)
	movzbl	304(%rsp,%rdx), %r8d
	movb	%r8b, (%r15,%rdi)
	movq	1776(%rsp,%rdx,8), %rdi
	movq	3824(%rsp,%rdx,8), %r8
	movq	5872(%rsp,%rdx,8), %r9
	movq	%r9, (%rax,%rdi,8)
	movq	%r8, (%rcx,%rdi,8)
	movzbl	305(%rsp,%rdx), %r8d
	movb	%r8b, (%r15,%rdi)
	addq	$2, %rdx
	cmpq	%rdx, %rsi
	jne	.LBB16_13
	testb	$1, %bl
	je	.LBB16_16
.LBB16_15:
	movq	1768(%rsp,%rdx,8), %rsi
	movq	3816(%rsp,%rdx,8), %rdi
	movq	5864(%rsp,%rdx,8), %r8
	movq	%r8, (%rax,%rsi,8)
	movq	%rdi, (%rcx,%rsi,8)
	movzbl	304(%rsp,%rdx), %eax
	movb	%al, (%r15,%rsi)
.LBB16_16:
	xorl	%r12d, %r12d
	xorl	%r15d, %r15d
	.p2align	4
.LBB16_17:
	cmpb	$1, 304(%rsp,%r15)
	ja	.LBB16_21
	incq	%r15
	cmpq	%rbx, %r15
	jb	.LBB16_17
	jmp	.LBB16_19
.LBB16_21:
	movl	744(%rsp,%r15,4), %eax
	movq	48(%rsp), %rcx
	movq	%rcx, 656(%rsp)
	vmovups	176(%rsp), %ymm0
	vmovups	192(%rsp), %ymm1
	leaq	664(%rsp), %rcx
	vmovups	%ymm1, 48(%rcx)
	vmovups	%ymm0, 32(%rcx)
	vmovups	144(%rsp), %ymm0
	vmovups	%ymm0, (%rcx)
	movl	%eax, 20(%rsp)
	leaq	656(%rsp), %rax
	movq	%rax, 8(%rsp)
	movq	8000(%rsp), %rax
	movq	%rax, (%rsp)
	leaq	136(%rsp), %rdi
	leaq	128(%rsp), %rsi
	leaq	19(%rsp), %rdx
	leaq	20(%rsp), %rcx
	movl	$1, %r8d
	movq	7992(%rsp), %r9
	vzeroupper
	callq	"page::fill_by"
	addq	%rax, %r12
	incq	%r15
	cmpq	%rbx, %r15
	jb	.LBB16_17
	jmp	.LBB16_19
.LBB16_1:
	xorl	%esi, %esi
.LBB16_20:
	movq	24(%rsp), %rax
	movq	$0, (%rax)
	movq	%rsi, 8(%rax)
	movq	%rdx, 16(%rax)
	addq	$7912, %rsp
	popq	%rbx
	popq	%r12
	popq	%r13
	popq	%r14
	popq	%r15
	popq	%rbp
	vzeroupper
	retq
.Lfunc_end16:
	.size	"layered_page::under::fill_under", .Lfunc_end16-"layered_page::under::fill_under"

	.section	".text.signalfern_c::look_from","ax",@progbits
	.p2align	4
	.type	"signalfern_c::look_from",@function
"signalfern_c::look_from":
	pushq	%rbp
	pushq	%r15
	pushq	%r14
	pushq	%r13
	pushq	%r12
	pushq	%rbx
	subq	$392, %rsp
	movl	%ecx, %ebp
	movq	%rdx, %r14
	movq	%rdi, %rbx
	cmpq	$45, %rdx
	jb	.LBB17_1
	movzbl	(%rsi), %eax
	testb	%al, %al
	js	.LBB17_1
	decb	%al
	cmpb	$3, %al
	ja	.LBB17_1
	movzbl	1(%rsi), %r15d
	movl	$2, %edi
	testb	%r15b, %r15b
	js	.LBB17_5
.LBB17_16:
	movzbl	(%rsi,%rdi), %ecx
	xorl	%r10d, %r10d
	testb	%cl, %cl
	cmovlel	%r10d, %ecx
	js	.LBB17_17
	movzbl	1(%rsi,%rdi), %edx
	incq	%rdi
	movl	$1, %r9d
	movq	%rdx, 16(%rsp)
	testb	%dl, %dl
	js	.LBB17_21
	movl	$1, %r8d
.LBB17_32:
	addq	%rdi, %r8
	movzbl	(%rsi,%r8), %edi
	testb	%dil, %dil
	js	.LBB17_34
	movq	%r15, 24(%rsp)
.LBB17_45:
	addq	%r8, %r9
	movzbl	(%rsi,%r9), %r12d
	xorl	%r10d, %r10d
	testb	%r12b, %r12b
	cmovlel	%r10d, %r12d
	js	.LBB17_17
	movzbl	1(%rsi,%r9), %edx
	incq	%r9
	movl	$1, %r15d
	testb	%dl, %dl
	js	.LBB17_48
	movl	$1, %r10d
.LBB17_59:
	addq	%r9, %r10
	movzbl	(%rsi,%r10), %r9d
	movq	%r9, 8(%rsp)
	testb	%r9b, %r9b
	js	.LBB17_60
.LBB17_71:
	addq	%r10, %r15
	movzbl	(%rsi,%r15), %r11d
	movl	$1, %r13d
	testb	%r11b, %r11b
	js	.LBB17_73
	movq	%r15, %r9
.LBB17_84:
	movzbl	%cl, %r10d
	movzbl	%r12b, %r15d
	addq	%r9, %r13
	movq	24(%rsp), %r12
	jmp	.LBB17_85
.LBB17_17:
	xorl	%eax, %eax
	xorl	%r12d, %r12d
	jmp	.LBB17_18
.LBB17_5:
	movzbl	2(%rsi), %edx
	testb	%dl, %dl
	js	.LBB17_8
	testq	%rdx, %rdx
	je	.LBB17_1
	addq	$-128, %r15
	shll	$7, %edx
	orq	%rdx, %r15
	movl	$3, %edi
	jmp	.LBB17_16
.LBB17_21:
	movzbl	1(%rsi,%rdi), %r8d
	testb	%r8b, %r8b
	js	.LBB17_24
	testq	%r8, %r8
	je	.LBB17_1
	movq	16(%rsp), %rdx
	addq	$-128, %rdx
	shll	$7, %r8d
	orq	%r8, %rdx
	movq	%rdx, 16(%rsp)
	movl	$2, %r8d
	jmp	.LBB17_32
.LBB17_34:
	movzbl	1(%rsi,%r8), %r9d
	testb	%r9b, %r9b
	js	.LBB17_37
	testq	%r9, %r9
	je	.LBB17_1
	movq	%r15, 24(%rsp)
	addq	$-128, %rdi
	shll	$7, %r9d
	orq	%r9, %rdi
	movl	$2, %r9d
	jmp	.LBB17_45
.LBB17_8:
	movzbl	3(%rsi), %ecx
	testb	%cl, %cl
	js	.LBB17_11
	testq	%rcx, %rcx
	je	.LBB17_1
	shll	$7, %edx
	shll	$14, %ecx
	addq	%rdx, %r15
	addq	$-16512, %r15
	orq	%rcx, %r15
	movl	$4, %edi
	jmp	.LBB17_16
.LBB17_48:
	movzbl	1(%rsi,%r9), %r10d
	testb	%r10b, %r10b
	js	.LBB17_51
	testq	%r10, %r10
	je	.LBB17_1
	addq	$-128, %rdx
	shll	$7, %r10d
	orq	%r10, %rdx
	movl	$2, %r10d
	jmp	.LBB17_59
.LBB17_60:
	movzbl	1(%rsi,%r10), %r11d
	testb	%r11b, %r11b
	js	.LBB17_63
	testq	%r11, %r11
	je	.LBB17_1
	movq	8(%rsp), %r8
	addq	$-128, %r8
	shll	$7, %r11d
	orq	%r11, %r8
	movq	%r8, 8(%rsp)
	movl	$2, %r15d
	jmp	.LBB17_71
.LBB17_24:
	movzbl	2(%rsi,%rdi), %r10d
	testb	%r10b, %r10b
	js	.LBB17_27
	testq	%r10, %r10
	je	.LBB17_1
	shll	$7, %r8d
	shll	$14, %r10d
	movq	16(%rsp), %rdx
	addq	%r8, %rdx
	addq	$-16512, %rdx
	orq	%r10, %rdx
	movq	%rdx, 16(%rsp)
	movl	$3, %r8d
	jmp	.LBB17_32
.LBB17_73:
	movzbl	1(%rsi,%r15), %r10d
	testb	%r10b, %r10b
	js	.LBB17_76
	testq	%r10, %r10
	je	.LBB17_1
	movq	%r15, %r9
	addq	$-128, %r11
	shll	$7, %r10d
	orq	%r10, %r11
	movl	$2, %r13d
	jmp	.LBB17_84
.LBB17_37:
	movzbl	2(%rsi,%r8), %r10d
	testb	%r10b, %r10b
	js	.LBB17_40
	testq	%r10, %r10
	je	.LBB17_1
	movq	%r15, 24(%rsp)
	shll	$7, %r9d
	shll	$14, %r10d
	addq	%r9, %rdi
	addq	$-16512, %rdi
	orq	%r10, %rdi
	movl	$3, %r9d
	jmp	.LBB17_45
.LBB17_11:
	movzbl	4(%rsi), %edi
	testb	%dil, %dil
	js	.LBB17_14
	testq	%rdi, %rdi
	je	.LBB17_1
	shll	$7, %edx
	shll	$14, %ecx
	shll	$21, %edi
	addq	%rdx, %r15
	addq	%rcx, %r15
	addq	$-2113664, %r15
	orq	%rdi, %r15
	movl	$5, %edi
	jmp	.LBB17_16
.LBB17_51:
	movzbl	2(%rsi,%r9), %r11d
	testb	%r11b, %r11b
	js	.LBB17_54
	testq	%r11, %r11
	je	.LBB17_1
	shll	$7, %r10d
	shll	$14, %r11d
	addq	%r10, %rdx
	addq	$-16512, %rdx
	orq	%r11, %rdx
	movl	$3, %r10d
	jmp	.LBB17_59
.LBB17_63:
	movzbl	2(%rsi,%r10), %r13d
	testb	%r13b, %r13b
	js	.LBB17_66
	testq	%r13, %r13
	je	.LBB17_1
	shll	$7, %r11d
	shll	$14, %r13d
	movq	8(%rsp), %r8
	addq	%r11, %r8
	addq	$-16512, %r8
	orq	%r13, %r8
	movq	%r8, 8(%rsp)
	movl	$3, %r15d
	jmp	.LBB17_71
.LBB17_27:
	movzbl	3(%rsi,%rdi), %r11d
	testb	%r11b, %r11b
	js	.LBB17_30
	testq	%r11, %r11
	je	.LBB17_1
	shll	$7, %r8d
	shll	$14, %r10d
	shll	$21, %r11d
	movq	16(%rsp), %rdx
	addq	%r8, %rdx
	addq	%r10, %rdx
	addq	$-2113664, %rdx
	orq	%r11, %rdx
	movq	%rdx, 16(%rsp)
	movl	$4, %r8d
	jmp	.LBB17_32
.LBB17_76:
	movzbl	2(%rsi,%r15), %r13d
	testb	%r13b, %r13b
	js	.LBB17_79
	testq	%r13, %r13
	je	.LBB17_1
	movq	%r15, %r9
	shll	$7, %r10d
	shll	$14, %r13d
	addq	%r10, %r11
	addq	$-16512, %r11
	orq	%r13, %r11
	movl	$3, %r13d
	jmp	.LBB17_84
.LBB17_40:
	movzbl	3(%rsi,%r8), %r11d
	testb	%r11b, %r11b
	js	.LBB17_43
	testq	%r11, %r11
	je	.LBB17_1
	movq	%r15, 24(%rsp)
	shll	$7, %r9d
	shll	$14, %r10d
	shll	$21, %r11d
	addq	%r9, %rdi
	addq	%r10, %rdi
	addq	$-2113664, %rdi
	orq	%r11, %rdi
	movl	$4, %r9d
	jmp	.LBB17_45
.LBB17_14:
	movsbq	5(%rsi), %r8
	testq	%r8, %r8
	jle	.LBB17_1
	shll	$7, %edx
	shll	$14, %ecx
	shll	$21, %edi
	shlq	$28, %r8
	addq	%rdx, %r15
	addq	%rcx, %r15
	addq	%rdi, %r15
	addq	$-270549120, %r15
	orq	%r8, %r15
	movl	$6, %edi
	jmp	.LBB17_16
.LBB17_54:
	movzbl	3(%rsi,%r9), %r13d
	testb	%r13b, %r13b
	js	.LBB17_57
	testq	%r13, %r13
	je	.LBB17_1
	shll	$7, %r10d
	shll	$14, %r11d
	shll	$21, %r13d
	addq	%r10, %rdx
	addq	%r11, %rdx
	addq	$-2113664, %rdx
	orq	%r13, %rdx
	movl	$4, %r10d
	jmp	.LBB17_59
.LBB17_66:
	movzbl	3(%rsi,%r10), %r15d
	testb	%r15b, %r15b
	js	.LBB17_69
	testq	%r15, %r15
	je	.LBB17_1
	shll	$7, %r11d
	shll	$14, %r13d
	shll	$21, %r15d
	movq	8(%rsp), %r8
	addq	%r11, %r8
	addq	%r13, %r8
	addq	$-2113664, %r8
	orq	%r15, %r8
	movq	%r8, 8(%rsp)
	movl	$4, %r15d
	jmp	.LBB17_71
.LBB17_30:
	movsbq	4(%rsi,%rdi), %r12
	testq	%r12, %r12
	jle	.LBB17_1
	shll	$7, %r8d
	shll	$14, %r10d
	shll	$21, %r11d
	shlq	$28, %r12
	movq	16(%rsp), %rdx
	addq	%r8, %rdx
	addq	%r10, %rdx
	addq	%r11, %rdx
	addq	$-270549120, %rdx
	orq	%r12, %rdx
	movq	%rdx, 16(%rsp)
	movl	$5, %r8d
	jmp	.LBB17_32
.LBB17_79:
	movzbl	3(%rsi,%r15), %r8d
	testb	%r8b, %r8b
	js	.LBB17_82
	testq	%r8, %r8
	je	.LBB17_1
	movq	%r15, %r9
	shll	$7, %r10d
	shll	$14, %r13d
	shll	$21, %r8d
	addq	%r10, %r11
	addq	%r13, %r11
	addq	$-2113664, %r11
	orq	%r8, %r11
	movl	$4, %r13d
	jmp	.LBB17_84
.LBB17_43:
	movq	%r15, 24(%rsp)
	movsbq	4(%rsi,%r8), %r12
	testq	%r12, %r12
	jle	.LBB17_1
	shll	$7, %r9d
	shll	$14, %r10d
	shll	$21, %r11d
	shlq	$28, %r12
	addq	%r9, %rdi
	addq	%r10, %rdi
	addq	%r11, %rdi
	addq	$-270549120, %rdi
	orq	%r12, %rdi
	movl	$5, %r9d
	jmp	.LBB17_45
.LBB17_57:
	movsbq	4(%rsi,%r9), %r8
	testq	%r8, %r8
	jle	.LBB17_1
	shll	$7, %r10d
	shll	$14, %r11d
	shll	$21, %r13d
	shlq	$28, %r8
	addq	%r10, %rdx
	addq	%r11, %rdx
	addq	%r13, %rdx
	addq	$-270549120, %rdx
	orq	%r8, %rdx
	movl	$5, %r10d
	jmp	.LBB17_59
.LBB17_69:
	movsbq	4(%rsi,%r10), %r8
	testq	%r8, %r8
	jle	.LBB17_1
	shll	$7, %r11d
	shll	$14, %r13d
	shll	$21, %r15d
	shlq	$28, %r8
	movq	8(%rsp), %r9
	addq	%r11, %r9
	addq	%r13, %r9
	addq	%r15, %r9
	addq	$-270549120, %r9
	orq	%r8, %r9
	movq	%r9, 8(%rsp)
	movl	$5, %r15d
	jmp	.LBB17_71
.LBB17_82:
	movq	%r8, 88(%rsp)
	movsbq	4(%rsi,%r15), %r8
	testq	%r8, %r8
	jle	.LBB17_1
	movq	%r15, %r9
	shll	$7, %r10d
	shll	$14, %r13d
	movq	88(%rsp), %r15
	shll	$21, %r15d
	shlq	$28, %r8
	addq	%r10, %r11
	addq	%r13, %r11
	addq	%r15, %r11
	addq	$-270549120, %r11
	orq	%r8, %r11
	movl	$5, %r13d
	jmp	.LBB17_84
.LBB17_1:
	xorl	%eax, %eax
	xorl	%r12d, %r12d
	xorl	%r10d, %r10d
.LBB17_18:
	movq	$0, 16(%rsp)
	xorl	%edi, %edi
	xorl	%r15d, %r15d
	xorl	%edx, %edx
	movq	$0, 8(%rsp)
	xorl	%r11d, %r11d
	xorl	%r13d, %r13d
.LBB17_85:
	cmpl	$2147352575, %ebp
	ja	.LBB17_100
	testb	%al, %al
	jne	.LBB17_100
	cmpq	$2147352576, %r12
	ja	.LBB17_100
	movq	%r12, %r9
	movq	%rsi, %rcx
	movq	%r14, %r8
	movl	%ebp, %r14d
	movq	%rdx, %rbp
	testq	%r10, %r10
	setne	%r12b
	leaq	-16(%r10), %rsi
	cmpq	$-9, %rsi
	setb	%dl
	testb	%dl, %r12b
	jne	.LBB17_97
	cmpq	$32767, %rdi
	ja	.LBB17_97
	leaq	6(,%rdi,8), %rdx
	cmpq	%rdx, 16(%rsp)
	jb	.LBB17_97
	cmpl	$64, %r15d
	ja	.LBB17_97
	cmpq	$0, 8(%rsp)
	je	.LBB17_97
	movq	%r15, %rdx
	imulq	%r9, %rdx
	addq	$7, %rdx
	shrq	$3, %rdx
	cmpq	%rdx, %r11
	jne	.LBB17_97
	movq	%r8, %r12
	subq	%r13, %r12
	jb	.LBB17_97
	subq	16(%rsp), %r12
	jb	.LBB17_97
	cmpq	%r11, %r12
	jne	.LBB17_97
	vxorps	%xmm0, %xmm0, %xmm0
	vmovaps	%xmm0, 288(%rsp)
	movq	$0, 304(%rsp)
	movq	%r9, 312(%rsp)
	movq	%r10, 320(%rsp)
	movq	16(%rsp), %rax
	movq	%rax, 328(%rsp)
	movq	%rdi, 336(%rsp)
	movq	%r15, 344(%rsp)
	movq	%rbp, 352(%rsp)
	movq	8(%rsp), %rax
	movq	%rax, 360(%rsp)
	movq	%r11, 368(%rsp)
	movq	%r13, 376(%rsp)
	leaq	288(%rsp), %rdx
	movq	%rbx, %rdi
	xorl	%esi, %esi
	movl	%r14d, %r9d
	callq	"lookup::apart::put_steps"
	jmp	.LBB17_99
.LBB17_100:
	vxorps	%xmm0, %xmm0, %xmm0
	vmovups	%ymm0, 248(%rsp)
	vmovups	%ymm0, 224(%rsp)
	vmovups	%ymm0, 192(%rsp)
	cmpl	$2147352575, %ebp
	ja	.LBB17_101
	movq	%rsi, %rcx
	movq	%r14, %r8
	movl	%ebp, %r14d
	cmpq	$2147352576, %r12
	ja	.LBB17_129
	movq	%rdx, %rbp
	movq	%r12, %r9
	leaq	-16(%r10), %rsi
	jmp	.LBB17_105
.LBB17_97:
	vxorps	%xmm0, %xmm0, %xmm0
	vmovups	%ymm0, 248(%rsp)
	vmovups	%ymm0, 224(%rsp)
	vmovups	%ymm0, 192(%rsp)
.LBB17_105:
	testq	%r10, %r10
	setne	%dl
	cmpl	$-9, %esi
	setb	%sil
	testb	%sil, %dl
	jne	.LBB17_129
	cmpq	$32767, %rdi
	ja	.LBB17_129
	leaq	6(,%rdi,8), %rdx
	cmpq	%rdx, 16(%rsp)
	jb	.LBB17_129
	cmpl	$64, %r15d
	ja	.LBB17_129
	movq	%r15, %r12
	imulq	%r9, %r12
	addq	$7, %r12
	shrq	$3, %r12
	movzbl	%al, %esi
	cmpb	$2, %al
	jae	.LBB17_110
	cmpq	$0, 8(%rsp)
	je	.LBB17_129
	cmpq	%r12, %r11
	jne	.LBB17_129
	xorb	$1, %al
	movabsq	$72340173107564823, %rdx
	shrxq	%r15, %rdx, %rdx
	orb	%al, %dl
	testb	$1, %dl
	je	.LBB17_129
.LBB17_121:
	cmpq	%r13, %r8
	jb	.LBB17_129
	movq	%r8, %rax
	subq	%r13, %rax
	subq	16(%rsp), %rax
	jb	.LBB17_129
	cmpq	%r11, %rax
	jne	.LBB17_129
	vxorps	%xmm0, %xmm0, %xmm0
	vmovaps	%xmm0, 96(%rsp)
	movq	$0, 112(%rsp)
	movq	%r9, 120(%rsp)
	movq	%r10, 128(%rsp)
	movq	16(%rsp), %rax
	movq	%rax, 136(%rsp)
	movq	%rdi, 144(%rsp)
	movq	%r15, 152(%rsp)
	movq	%rbp, 160(%rsp)
	movq	8(%rsp), %rax
	movq	%rax, 168(%rsp)
	movq	%r11, 176(%rsp)
	movq	%r13, 184(%rsp)
	vxorps	%xmm0, %xmm0, %xmm0
	vmovups	%ymm0, 32(%rsp)
	vmovups	%ymm0, 48(%rsp)
	leaq	32(%rsp), %rdi
	leaq	96(%rsp), %rdx
	jmp	.LBB17_125
.LBB17_101:
	movb	$12, %sil
	xorl	%eax, %eax
	jmp	.LBB17_102
.LBB17_110:
	cmpl	$2, %esi
	jne	.LBB17_115
	testq	%r15, %r15
	jne	.LBB17_129
	testq	%rbp, %rbp
	jne	.LBB17_129
	cmpq	$0, 8(%rsp)
	je	.LBB17_129
	leaq	16383(%r9), %rax
	shrq	$14, %rax
	leaq	(%rax,%rax,4), %rax
	leaq	(%rax,%rax,4), %rax
	cmpq	%r11, %rax
	jbe	.LBB17_121
	jmp	.LBB17_129
.LBB17_115:
	movq	8(%rsp), %rax
	addq	$-257, %rax
	cmpq	$-255, %rax
	jae	.LBB17_116
.LBB17_129:
	leaq	192(%rsp), %rdi
	movq	%rcx, %r12
	movq	%rcx, %rsi
	movq	%r8, %r15
	movq	%r8, %rdx
	vzeroupper
	callq	"column::Column::open"
	movq	200(%rsp), %rsi
	movq	208(%rsp), %rax
	cmpb	$0, 192(%rsp)
	je	.LBB17_130
.LBB17_102:
	movl	$3, %ecx
	movzbl	%sil, %edx
	leaq	.LJTI17_0(%rip), %rsi
	movslq	(%rsi,%rdx,4), %rdx
	addq	%rsi, %rdx
	jmpq	*%rdx
.LBB17_130:
	vxorps	%xmm0, %xmm0, %xmm0
	vmovaps	%xmm0, 96(%rsp)
	movq	$0, 112(%rsp)
	movq	%rax, 120(%rsp)
	vmovups	216(%rsp), %ymm0
	vmovups	%ymm0, 128(%rsp)
	vmovups	248(%rsp), %ymm0
	vmovups	%ymm0, 160(%rsp)
	vxorps	%xmm0, %xmm0, %xmm0
	vmovups	%ymm0, 32(%rsp)
	vmovups	%ymm0, 48(%rsp)
	leaq	32(%rsp), %rdi
	leaq	96(%rsp), %rdx
	movq	%r12, %rcx
	movq	%r15, %r8
.LBB17_125:
	movl	%r14d, %r9d
	vzeroupper
	callq	"lookup::apart::put_steps"
	movq	32(%rsp), %rax
	cmpq	$1, %rax
	je	.LBB17_131
	testq	%rax, %rax
	jne	.LBB17_127
	vmovdqu	48(%rsp), %ymm1
	xorl	%eax, %eax
	xorl	%edx, %edx
	testb	%al, %al
	jne	.LBB17_136
	jmp	.LBB17_133
.LBB17_131:
	vmovdqa	64(%rsp), %xmm1
	movb	$1, %dl
	xorl	%eax, %eax
	testb	%al, %al
	je	.LBB17_133
.LBB17_136:
	vmovq	%xmm1, %rax
	movl	$3, %ecx
	movzbl	%dl, %edx
	leaq	.LJTI17_0(%rip), %rsi
	movslq	(%rsi,%rdx,4), %rdx
	addq	%rsi, %rdx
	jmpq	*%rdx
.LBB17_151:
	movl	$1, %ecx
	jmp	.LBB17_152
.LBB17_127:
	movb	$13, %dl
	movb	$1, %al
	vpxor	%xmm1, %xmm1, %xmm1
	testb	%al, %al
	jne	.LBB17_136
.LBB17_133:
	testb	%dl, %dl
	je	.LBB17_134
	movq	$1, (%rbx)
	vxorps	%xmm0, %xmm0, %xmm0
	vmovups	%xmm0, 8(%rbx)
	movq	$0, 24(%rbx)
	vmovdqu	%xmm1, 32(%rbx)
	jmp	.LBB17_99
.LBB17_149:
	movl	$16, %ecx
	jmp	.LBB17_152
.LBB17_146:
	movl	$13, %ecx
	jmp	.LBB17_152
.LBB17_139:
	movl	$6, %ecx
	jmp	.LBB17_153
.LBB17_147:
	movl	$14, %ecx
	jmp	.LBB17_152
.LBB17_144:
	movl	$11, %ecx
	jmp	.LBB17_152
.LBB17_137:
	movl	$2, %ecx
	jmp	.LBB17_152
.LBB17_150:
	movl	$17, %ecx
	jmp	.LBB17_152
.LBB17_138:
	movl	$4, %ecx
	jmp	.LBB17_153
.LBB17_142:
	movl	$9, %ecx
	jmp	.LBB17_152
.LBB17_140:
	movl	$7, %ecx
	jmp	.LBB17_153
.LBB17_148:
	movl	$15, %ecx
	jmp	.LBB17_152
.LBB17_141:
	movl	$8, %ecx
	jmp	.LBB17_153
.LBB17_145:
	movl	$12, %ecx
	jmp	.LBB17_153
.LBB17_143:
	movl	$10, %ecx
.LBB17_152:
	xorl	%eax, %eax
.LBB17_153:
	movq	%rcx, (%rbx)
	movq	%rax, 8(%rbx)
	vxorps	%xmm0, %xmm0, %xmm0
	vmovups	%ymm0, 16(%rbx)
.LBB17_99:
	addq	$392, %rsp
	popq	%rbx
	popq	%r12
	popq	%r13
	popq	%r14
	popq	%r15
	popq	%rbp
	vzeroupper
	retq
.LBB17_134:
	vxorps	%xmm0, %xmm0, %xmm0
	vmovups	%xmm0, (%rbx)
	vmovdqu	%ymm1, 16(%rbx)
	jmp	.LBB17_99
.LBB17_116:
	movq	8(%rsp), %rax
	decq	%rax
	lzcntq	%rax, %rax
	movl	$64, %edx
	subl	%eax, %edx
	cmpl	%edx, %r15d
	jne	.LBB17_129
	testq	%rbp, %rbp
	jne	.LBB17_129
	movq	8(%rsp), %rax
	leaq	(%r12,%rax,8), %rax
	cmpq	%rax, %r11
	je	.LBB17_121
	jmp	.LBB17_129
.Lfunc_end17:
	.size	"signalfern_c::look_from", .Lfunc_end17-"signalfern_c::look_from"
	.section	".rodata.signalfern_c::look_from","a",@progbits
	.p2align	2, 0x0
.LJTI17_0:
	.long	.LBB17_151-.LJTI17_0
	.long	.LBB17_137-.LJTI17_0
	.long	.LBB17_153-.LJTI17_0
	.long	.LBB17_138-.LJTI17_0
	.long	.LBB17_139-.LJTI17_0
	.long	.LBB17_140-.LJTI17_0
	.long	.LBB17_141-.LJTI17_0
	.long	.LBB17_142-.LJTI17_0
	.long	.LBB17_143-.LJTI17_0
	.long	.LBB17_144-.LJTI17_0
	.long	.LBB17_145-.LJTI17_0
	.long	.LBB17_146-.LJTI17_0
	.long	.LBB17_147-.LJTI17_0
	.long	.LBB17_148-.LJTI17_0
	.long	.LBB17_149-.LJTI17_0
	.long	.LBB17_150-.LJTI17_0

	.section	.rodata.cst32,"aM",@progbits,32
	.p2align	5, 0x0
.LCPI18_0:
	.zero	32,15
.LCPI18_1:
	.byte	0
	.byte	1
	.byte	1
	.byte	2
	.byte	1
	.byte	2
	.byte	2
	.byte	3
	.byte	1
	.byte	2
	.byte	2
	.byte	3
	.byte	2
	.byte	3
	.byte	3
	.byte	4
	.byte	0
	.byte	1
	.byte	1
	.byte	2
	.byte	1
	.byte	2
	.byte	2
	.byte	3
	.byte	1
	.byte	2
	.byte	2
	.byte	3
	.byte	2
	.byte	3
	.byte	3
	.byte	4
	.section	.rodata.cst4,"aM",@progbits,4
	.p2align	2, 0x0
.LCPI18_2:
	.zero	4,15
	.section	.rodata.cst16,"aM",@progbits,16
	.p2align	4, 0x0
.LCPI18_3:
	.byte	0
	.byte	1
	.byte	1
	.byte	2
	.byte	1
	.byte	2
	.byte	2
	.byte	3
	.byte	1
	.byte	2
	.byte	2
	.byte	3
	.byte	2
	.byte	3
	.byte	3
	.byte	4
	.section	".text.next::steps_from","ax",@progbits
	.p2align	4
	.type	"next::steps_from",@function
"next::steps_from":
	pushq	%rbp
	pushq	%r15
	pushq	%r14
	pushq	%r13
	pushq	%r12
	pushq	%rbx
	subq	$152, %rsp
	movq	%rdx, 128(%rsp)
	movq	%rdi, %r11
	cmpl	$2147352575, %r8d
	ja	.LBB18_50
	movzbl	(%rcx), %eax
	movl	%eax, 12(%rsp)
	movq	8(%rcx), %r12
	movq	16(%rcx), %r9
	movq	24(%rcx), %r10
	movq	32(%rcx), %r14
	movq	40(%rcx), %rax
	movq	%rax, 40(%rsp)
	movq	48(%rcx), %rax
	movq	%rax, 80(%rsp)
	movq	56(%rcx), %rax
	movq	%rax, 64(%rsp)
	movq	72(%rcx), %rdx
	leaq	(,%r14,8), %rax
	movq	%r10, %rbx
	subq	%rax, %rbx
	movl	%r8d, %r15d
	shrl	$16, %r15d
	movb	$17, %al
	subb	%r9b, %al
	movl	$1, %ecx
	shlxq	%rax, %rcx, %rdi
	leaq	8192(%rdi), %rax
	testq	%r9, %r9
	movl	$8192, %ecx
	cmovneq	%rax, %rcx
	movq	%rcx, 136(%rsp)
	leaq	(%rsi,%rdx), %rax
	movzwl	%r8w, %ecx
	cmoveq	%r9, %rdi
	leaq	(%rax,%rdi), %r8
	movq	%r8, 120(%rsp)
	movq	%rdx, 88(%rsp)
	addq	%rdx, %rdi
	movq	%rax, (%rsp)
	movq	%rbx, 16(%rsp)
	addq	%rbx, %rax
	movq	%rax, 144(%rsp)
	movq	%r9, 104(%rsp)
	leaq	-6(%r9), %rax
	movq	%rax, 96(%rsp)
	movq	%rdi, 32(%rsp)
	leaq	12(%rsi,%rdi), %rax
	movq	%rax, 112(%rsp)
	movq	%rsi, 24(%rsp)
	movq	%r12, 48(%rsp)
	jmp	.LBB18_2
.LBB18_48:
	testq	%r14, %r14
	movl	$32766, %edx
	cmovneq	%rax, %rdx
	cmpq	%rcx, %rax
	cmovneq	%rdx, %rax
	.p2align	4
.LBB18_49:
	xorl	%ecx, %ecx
	movq	%rax, %r15
	cmpq	$32766, %rax
	jae	.LBB18_50
.LBB18_2:
	testq	%r14, %r14
	je	.LBB18_3
	leaq	-1(%r14), %rdx
	cmpq	%r15, %rdx
	movq	%r15, %rax
	cmovbq	%rdx, %rax
	movq	144(%rsp), %rdx
	movl	(%rdx,%rax,8), %ebx
	movl	4(%rdx,%rax,8), %edx
	leaq	4(%rdx), %r13
	cmpq	%r13, 16(%rsp)
	jae	.LBB18_6
	jmp	.LBB18_54
	.p2align	4
.LBB18_3:
	xorl	%edx, %edx
	xorl	%ebx, %ebx
	leaq	4(%rdx), %r13
	cmpq	%r13, 16(%rsp)
	jb	.LBB18_54
.LBB18_6:
	movq	(%rsp), %rax
	movzwl	(%rax,%rdx), %eax
	cmpq	%rax, %r15
	jae	.LBB18_7
.LBB18_41:
	leaq	1(%r15), %rax
	addq	$2, %r15
	cmpq	%r14, %r15
	jb	.LBB18_49
	testq	%r14, %r14
	je	.LBB18_43
	movq	(%rsp), %rcx
	movl	-4(%rcx,%r10), %ecx
	leaq	4(%rcx), %rdx
	cmpq	%rdx, 16(%rsp)
	jb	.LBB18_49
	jmp	.LBB18_46
	.p2align	4
.LBB18_7:
	jbe	.LBB18_8
	testq	%r14, %r14
	jne	.LBB18_54
	incq	%r15
	xorl	%ecx, %ecx
	movq	%r15, %rax
	leaq	4(%rcx), %rdx
	cmpq	%rdx, 16(%rsp)
	jb	.LBB18_49
	jmp	.LBB18_46
	.p2align	4
.LBB18_8:
	movq	(%rsp), %rax
	movzwl	2(%rax,%rdx), %eax
	leaq	1(%rax), %rbp
	leal	(,%rbp,2), %r8d
	xorl	%edi, %edi
	cmpq	$65535, %rax
	cmovneq	136(%rsp), %rdi
	cmpq	$4095, %rax
	cmovaeq	%rdi, %r8
	addq	%r13, %r8
	cmpq	%r8, 16(%rsp)
	jb	.LBB18_54
	leaq	(%rax,%rbx), %rdi
	incq	%rdi
	cmpq	%rdi, %r12
	jb	.LBB18_54
	cmpq	$65535, %rax
	sete	%r8b
	incb	%r8b
	xorl	%edi, %edi
	cmpl	$4095, %eax
	movzbl	%r8b, %r8d
	cmovbl	%edi, %r8d
	testb	%r8b, %r8b
	je	.LBB18_14
	movzbl	%r8b, %edi
	cmpl	$1, %edi
	jne	.LBB18_55
	movq	%rcx, %r8
	shrq	$6, %r8
	andl	$63, %ecx
	movq	120(%rsp), %rdi
	addq	%r13, %rdi
	shrxq	%rcx, (%rdi,%r8,8), %r9
	tzcntq	%r9, %r9
	addq	%rcx, %r9
	cmpq	$64, %r9
	jb	.LBB18_13
	leaq	1(%r8), %rcx
	cmpq	$1024, %rcx
	je	.LBB18_41
	leaq	(%rdx,%r8,8), %r8
	addq	112(%rsp), %r8
	.p2align	4
.LBB18_18:
	xorl	%r9d, %r9d
	tzcntq	(%r8), %r9
	cmpq	$64, %r9
	jb	.LBB18_19
	incq	%rcx
	addq	$8, %r8
	cmpq	$1024, %rcx
	jne	.LBB18_18
	jmp	.LBB18_41
.LBB18_43:
	xorl	%ecx, %ecx
	leaq	4(%rcx), %rdx
	cmpq	%rdx, 16(%rsp)
	jb	.LBB18_49
.LBB18_46:
	movq	(%rsp), %rdx
	movzwl	(%rdx,%rcx), %ecx
	cmpq	%rcx, %rax
	jae	.LBB18_48
	cmpq	$32766, %rcx
	movl	$32766, %eax
	cmovbq	%rcx, %rax
	jmp	.LBB18_49
.LBB18_14:
	movq	(%rsp), %rdi
	movq	%r13, %rsi
	movq	%rbp, %rdx
	movq	%r11, %r12
	movq	%rbx, 56(%rsp)
	movq	%r10, %rbx
	callq	"next_in_block::first_entry"
	movq	%rbx, %r10
	movq	56(%rsp), %rbx
	movq	%r12, %r11
	movq	48(%rsp), %r12
	movq	24(%rsp), %rsi
	cmpq	%rbp, %rax
	je	.LBB18_41
	movq	%rax, %rcx
	movq	(%rsp), %rax
	addq	%r13, %rax
	movzwl	(%rax,%rcx,2), %ebp
	jmp	.LBB18_56
.LBB18_50:
	vpxor	%xmm0, %xmm0, %xmm0
	vmovdqu	%ymm0, (%r11)
	jmp	.LBB18_51
.LBB18_19:
	movq	%r11, 16(%rsp)
	movq	%rcx, %r8
.LBB18_20:
	movq	%r8, %rbp
	shlq	$6, %rbp
	orq	%r9, %rbp
	movq	104(%rsp), %r14
	testq	%r14, %r14
	shrxq	%r14, %rbp, %rcx
	movq	96(%rsp), %r11
	shlxq	%r11, %rcx, %r11
	cmoveq	%r14, %r11
	movq	%r10, 72(%rsp)
	movq	%rbx, 56(%rsp)
	je	.LBB18_21
	movq	(%rsp), %r10
	addq	%r13, %r10
	movbew	(%r10,%rcx,2), %cx
	movzwl	%cx, %ecx
	movq	%r8, %r10
	subq	%r11, %r10
	jne	.LBB18_25
.LBB18_24:
	xorl	%r14d, %r14d
	jmp	.LBB18_39
.LBB18_21:
	xorl	%ecx, %ecx
	movq	%r8, %r10
	subq	%r11, %r10
	je	.LBB18_24
.LBB18_25:
	cmpq	$4, %r10
	jae	.LBB18_27
	xorl	%r14d, %r14d
	xorl	%ebx, %ebx
	jmp	.LBB18_37
.LBB18_27:
	cmpq	$16, %r10
	jae	.LBB18_29
	xorl	%ebx, %ebx
	xorl	%r14d, %r14d
	jmp	.LBB18_34
.LBB18_29:
	movq	%r10, %rbx
	andq	$-16, %rbx
	movq	32(%rsp), %r14
	leaq	(%r14,%r11,8), %r14
	addq	%rsi, %r14
	addq	%rdx, %r14
	addq	$100, %r14
	vpxor	%xmm0, %xmm0, %xmm0
	xorl	%r12d, %r12d
	vpxor	%xmm1, %xmm1, %xmm1
	vpxor	%xmm2, %xmm2, %xmm2
	vpxor	%xmm3, %xmm3, %xmm3
	vpxor	%xmm4, %xmm4, %xmm4
	.p2align	4
.LBB18_30:
	vmovdqu	-96(%r14,%r12,8), %ymm5
	vmovdqu	-64(%r14,%r12,8), %ymm6
	vmovdqu	-32(%r14,%r12,8), %ymm7
	vmovdqu	(%r14,%r12,8), %ymm8
	vpbroadcastd	.LCPI18_2(%rip), %ymm9
	vpand	%ymm5, %ymm9, %ymm10
	vbroadcasti128	.LCPI18_3(%rip), %ymm11
	vpshufb	%ymm10, %ymm11, %ymm10
	vpsrlw	$4, %ymm5, %ymm5
	vpand	%ymm5, %ymm9, %ymm5
	vpshufb	%ymm5, %ymm11, %ymm5
	vpaddb	%ymm5, %ymm10, %ymm5
	vpsadbw	%ymm0, %ymm5, %ymm5
	vpaddq	%ymm1, %ymm5, %ymm1
	vpand	%ymm6, %ymm9, %ymm5
	vpshufb	%ymm5, %ymm11, %ymm5
	vpsrlw	$4, %ymm6, %ymm6
	vpand	%ymm6, %ymm9, %ymm6
	vpshufb	%ymm6, %ymm11, %ymm6
	vpaddb	%ymm5, %ymm6, %ymm5
	vpsadbw	%ymm0, %ymm5, %ymm5
	vpaddq	%ymm2, %ymm5, %ymm2
	vpand	%ymm7, %ymm9, %ymm5
	vpshufb	%ymm5, %ymm11, %ymm5
	vpsrlw	$4, %ymm7, %ymm6
	vpand	%ymm6, %ymm9, %ymm6
	vpshufb	%ymm6, %ymm11, %ymm6
	vpaddb	%ymm5, %ymm6, %ymm5
	vpsadbw	%ymm0, %ymm5, %ymm5
	vpaddq	%ymm3, %ymm5, %ymm3
	vpand	%ymm9, %ymm8, %ymm5
	vpshufb	%ymm5, %ymm11, %ymm5
	vpsrlw	$4, %ymm8, %ymm6
	vpand	%ymm6, %ymm9, %ymm6
	vpshufb	%ymm6, %ymm11, %ymm6
	vpaddb	%ymm5, %ymm6, %ymm5
	vpsadbw	%ymm0, %ymm5, %ymm5
	vpaddq	%ymm4, %ymm5, %ymm4
	addq	$16, %r12
	cmpq	%r12, %rbx
	jne	.LBB18_30
	vpaddq	%ymm1, %ymm2, %ymm0
	vpaddq	%ymm0, %ymm3, %ymm0
	vpaddq	%ymm0, %ymm4, %ymm0
	vextracti128	$1, %ymm0, %xmm1
	vpaddq	%xmm1, %xmm0, %xmm0
	vpshufd	$238, %xmm0, %xmm1
	vpaddq	%xmm1, %xmm0, %xmm0
	vmovq	%xmm0, %r14
	cmpq	%rbx, %r10
	movq	48(%rsp), %r12
	jne	.LBB18_33
	movq	24(%rsp), %rsi
	jmp	.LBB18_39
.LBB18_55:
	movq	%rcx, %rbp
	jmp	.LBB18_56
.LBB18_13:
	movq	%r11, 16(%rsp)
	jmp	.LBB18_20
.LBB18_33:
	testb	$12, %r10b
	movq	24(%rsp), %rsi
	je	.LBB18_37
.LBB18_34:
	movq	%rbx, %r12
	movq	%r10, %rbx
	andq	$-4, %rbx
	vmovq	%r14, %xmm0
	movq	%rbx, %r14
	subq	%r12, %r14
	addq	%r11, %r12
	movq	32(%rsp), %r13
	leaq	(,%r12,8), %r12
	addq	%r13, %r12
	addq	%rsi, %r12
	addq	%rdx, %r12
	addq	$4, %r12
	xorl	%r13d, %r13d
	.p2align	4
.LBB18_35:
	vmovdqu	(%r12,%r13,8), %ymm1
	vpbroadcastd	.LCPI18_2(%rip), %ymm2
	vpand	%ymm2, %ymm1, %ymm3
	vbroadcasti128	.LCPI18_3(%rip), %ymm4
	vpshufb	%ymm3, %ymm4, %ymm3
	vpsrlw	$4, %ymm1, %ymm1
	vpand	%ymm2, %ymm1, %ymm1
	vpshufb	%ymm1, %ymm4, %ymm1
	vpaddb	%ymm3, %ymm1, %ymm1
	vpxor	%xmm2, %xmm2, %xmm2
	vpsadbw	%ymm2, %ymm1, %ymm1
	vpaddq	%ymm0, %ymm1, %ymm0
	addq	$4, %r13
	cmpq	%r13, %r14
	jne	.LBB18_35
	vextracti128	$1, %ymm0, %xmm1
	vpaddq	%xmm1, %xmm0, %xmm0
	vpshufd	$238, %xmm0, %xmm1
	vpaddq	%xmm1, %xmm0, %xmm0
	vmovq	%xmm0, %r14
	cmpq	%rbx, %r10
	movq	24(%rsp), %rsi
	movq	48(%rsp), %r12
	je	.LBB18_39
.LBB18_37:
	subq	%rbx, %r10
	addq	%rbx, %r11
	movq	32(%rsp), %rbx
	leaq	(%rbx,%r11,8), %r11
	addq	%rsi, %r11
	addq	%r11, %rdx
	addq	$4, %rdx
	xorl	%r11d, %r11d
	.p2align	4
.LBB18_38:
	xorl	%ebx, %ebx
	popcntq	(%rdx,%r11,8), %rbx
	addq	%rbx, %r14
	incq	%r11
	cmpq	%r11, %r10
	jne	.LBB18_38
.LBB18_39:
	bzhiq	%r9, (%rdi,%r8,8), %rdx
	addq	%rcx, %r14
	xorl	%ecx, %ecx
	popcntq	%rdx, %rcx
	addq	%r14, %rcx
	cmpq	%rax, %rcx
	movq	16(%rsp), %r11
	movq	72(%rsp), %r10
	movq	56(%rsp), %rbx
	jbe	.LBB18_56
.LBB18_54:
	movq	$1, (%r11)
	movq	$13, 8(%r11)
	vpxor	%xmm0, %xmm0, %xmm0
	vmovdqu	%xmm0, 16(%r11)
.LBB18_51:
	movq	$0, 32(%r11)
.LBB18_52:
	addq	$152, %rsp
	popq	%rbx
	popq	%r12
	popq	%r13
	popq	%r14
	popq	%r15
	popq	%rbp
	vzeroupper
	retq
.LBB18_56:
	movabsq	$-9223372036854775808, %rdi
	addq	%rbx, %rcx
	movq	%r10, %rax
	movq	88(%rsp), %r10
	addq	%rax, %r10
	addq	%r10, %rsi
	cmpl	$2, 12(%rsp)
	jae	.LBB18_57
	movq	80(%rsp), %rbx
	movl	%ebx, %eax
	movq	%rbx, %rdx
	shrq	%rdx
	orq	%rdi, %rdx
	notq	%rbx
	shrq	%rbx
	testb	$1, %al
	cmoveq	%rdx, %rbx
	xorl	%edx, %edx
	movq	%rcx, %rax
	movq	64(%rsp), %r14
	movq	40(%rsp), %r10
	testq	%r10, %r10
	jne	.LBB18_67
	jmp	.LBB18_66
.LBB18_57:
	movq	64(%rsp), %r14
	jne	.LBB18_64
	movq	%rcx, %rax
	shrq	$14, %rax
	leaq	(%rax,%rax,4), %rax
	leaq	(%rax,%rax,4), %rdx
	movzbl	24(%rsi,%rdx), %r9d
	cmpq	$64, %r9
	ja	.LBB18_54
	movq	(%rsi,%rdx), %rbx
	xorq	%rdi, %rbx
	movq	%r12, %rax
	shrq	$14, %rax
	andl	$16383, %r12d
	addl	$16383, %r12d
	shrl	$14, %r12d
	addq	%rax, %r12
	leaq	(%r12,%r12,4), %rax
	leaq	(%rax,%rax,4), %r8
	movl	%ecx, %eax
	andl	$16383, %eax
	movq	%r9, 40(%rsp)
	testq	%r9, %r9
	je	.LBB18_60
	movq	16(%rsi,%rdx), %rdx
	addq	%r8, %r10
	movq	128(%rsp), %r12
	subq	%r10, %r12
	subq	%rdx, %r12
	movq	40(%rsp), %r10
	jb	.LBB18_54
	leal	1(%rax), %r9d
	imull	%r9d, %r10d
	addl	$7, %r10d
	shrl	$3, %r10d
	cmpq	%r10, %r12
	jb	.LBB18_54
	addq	%r8, %rdx
	movq	40(%rsp), %r10
	testq	%r10, %r10
	jne	.LBB18_67
	jmp	.LBB18_66
.LBB18_64:
	leaq	(,%r14,8), %rdx
	xorl	%ebx, %ebx
	movq	%rcx, %rax
	movq	40(%rsp), %r10
	testq	%r10, %r10
	je	.LBB18_66
.LBB18_67:
	movq	%rsi, %r13
	addq	%rsi, %rdx
	imulq	%r10, %rax
	movq	%rax, %r9
	shrq	$3, %r9
	leaq	(%r10,%rax), %r8
	addq	$7, %r8
	shrq	$3, %r8
	andl	$7, %eax
	cmpq	$8, %r10
	movq	%r10, %rsi
	movq	%rbx, %r12
	movq	%r11, %rbx
	ja	.LBB18_69
	movzbl	(%rdx,%r9), %r10d
	movzbl	-1(%rdx,%r8), %edx
	movl	$1, %r11d
	jmp	.LBB18_74
.LBB18_69:
	cmpq	$24, %rsi
	ja	.LBB18_71
	movzwl	(%rdx,%r9), %r10d
	movzwl	-2(%rdx,%r8), %edx
	movl	$2, %r11d
	jmp	.LBB18_74
.LBB18_71:
	cmpq	$56, %rsi
	ja	.LBB18_73
	movl	(%rdx,%r9), %r10d
	movl	-4(%rdx,%r8), %edx
	movl	$4, %r11d
	jmp	.LBB18_74
.LBB18_73:
	movq	(%rdx,%r9), %r10
	movq	-8(%rdx,%r8), %rdx
	movl	$8, %r11d
.LBB18_74:
	subq	%r9, %r8
	cmpl	$1, 12(%rsp)
	jne	.LBB18_75
	subl	%r11d, %r8d
	shll	$3, %r8d
	shlxq	%r8, %rdx, %rdx
	orq	%r10, %rdx
	addl	%esi, %eax
	negb	%al
	shlxq	%rax, %rdx, %rax
	negb	%sil
	shrxq	%rsi, %rax, %r8
	movq	%rbx, %r11
	movq	%r12, %rbx
	jmp	.LBB18_80
.LBB18_75:
	bswapq	%r10
	bswapq	%rdx
	shlxq	%rax, %r10, %r9
	subl	%r11d, %r8d
	shll	$3, %r8d
	subl	%eax, %r8d
	shrxq	%r8, %rdx, %rax
	orq	%r9, %rax
	negb	%sil
	shrxq	%rsi, %rax, %r8
	movq	%rbx, %r11
	movq	%r12, %rbx
	movq	%r13, %rsi
	cmpl	$3, 12(%rsp)
	je	.LBB18_77
.LBB18_80:
	movq	%rbx, %rax
	notq	%rax
	cmpq	$2, %r14
	jb	.LBB18_82
	movq	%r8, %rdx
	orq	%r14, %rdx
	shrq	$32, %rdx
	je	.LBB18_82
	xorl	%edx, %edx
	divq	%r14
	cmpq	%rax, %r8
	ja	.LBB18_54
	imulq	%r14, %r8
	jmp	.LBB18_85
.LBB18_82:
	imulq	%r14, %r8
	cmpq	%rax, %r8
	ja	.LBB18_54
.LBB18_85:
	addq	%rbx, %r8
	xorq	%rdi, %r8
	jmp	.LBB18_86
.LBB18_60:
	xorl	%edx, %edx
	addq	%r8, %rdx
	movq	40(%rsp), %r10
	testq	%r10, %r10
	jne	.LBB18_67
.LBB18_66:
	xorl	%r8d, %r8d
	cmpl	$3, 12(%rsp)
	jne	.LBB18_80
.LBB18_77:
	cmpq	%r8, %r14
	jbe	.LBB18_54
	movq	(%rsi,%r8,8), %r8
.LBB18_86:
	shll	$16, %r15d
	addl	%r15d, %ebp
	movq	$0, (%r11)
	movq	$1, 8(%r11)
	movq	%rcx, 16(%r11)
	movl	%ebp, 24(%r11)
	movl	$0, 28(%r11)
	movq	%r8, 32(%r11)
	jmp	.LBB18_52
.Lfunc_end18:
	.size	"next::steps_from", .Lfunc_end18-"next::steps_from"

	.section	".text.next_in_block::first_entry","ax",@progbits
	.p2align	4
	.type	"next_in_block::first_entry",@function
"next_in_block::first_entry":
	movq	%rdx, %rax
	movq	%rdx, %r8
	shrq	$4, %r8
	je	.LBB19_4
	leaq	(%rdi,%rsi), %r9
	vmovd	%ecx, %xmm0
	vpbroadcastw	%xmm0, %ymm0
	xorl	%edx, %edx
	.p2align	4
.LBB19_2:
	vpminuw	(%r9,%rdx,2), %ymm0, %ymm1
	vpcmpeqw	%ymm1, %ymm0, %ymm1
	vpmovmskb	%ymm1, %r10d
	testl	%r10d, %r10d
	jne	.LBB19_5
	addq	$16, %rdx
	decq	%r8
	jne	.LBB19_2
.LBB19_4:
	movq	%rax, %rdx
	andq	$-16, %rdx
.LBB19_5:
	cmpq	%rax, %rdx
	jae	.LBB19_9
	addq	%rsi, %rdi
	.p2align	4
.LBB19_7:
	cmpw	(%rdi,%rdx,2), %cx
	jbe	.LBB19_8
	incq	%rdx
	cmpq	%rdx, %rax
	jne	.LBB19_7
.LBB19_9:
	vzeroupper
	retq
.LBB19_8:
	movq	%rdx, %rax
	vzeroupper
	retq
.Lfunc_end19:
	.size	"next_in_block::first_entry", .Lfunc_end19-"next_in_block::first_entry"

	.section	".text.pair_at::steps_at","ax",@progbits
	.p2align	4
	.type	"pair_at::steps_at",@function
"pair_at::steps_at":
	pushq	%rbp
	pushq	%r15
	pushq	%r14
	pushq	%r13
	pushq	%r12
	pushq	%rbx
	movq	8(%rcx), %r15
	cmpq	%r8, %r15
	jbe	.LBB20_1
	movq	24(%rcx), %r12
	movq	32(%rcx), %r9
	movq	72(%rcx), %r11
	leaq	(%rsi,%r11), %r13
	leaq	(,%r9,8), %r10
	movq	%r12, %rax
	subq	%r10, %rax
	cmpq	$2, %r9
	movq	%rdx, -8(%rsp)
	movq	%r11, -40(%rsp)
	jb	.LBB20_11
	leaq	(%rax,%r13), %r10
	xorl	%ebx, %ebx
	movq	%r9, %rbp
	jmp	.LBB20_6
	.p2align	4
.LBB20_8:
	movq	%r11, %rbx
	movq	%rbp, %r14
	subq	%r11, %r14
	cmpq	$1, %r14
	jbe	.LBB20_10
.LBB20_6:
	leaq	(%rbx,%rbp), %r11
	shrq	%r11
	movl	(%r10,%r11,8), %r14d
	cmpq	%r14, %r8
	jae	.LBB20_8
	movq	%r11, %rbp
	movq	%rbx, %r11
	movq	%rbp, %r14
	subq	%r11, %r14
	cmpq	$1, %r14
	ja	.LBB20_6
	jmp	.LBB20_10
.LBB20_1:
	vxorps	%xmm0, %xmm0, %xmm0
	vmovups	%ymm0, (%rdi)
	jmp	.LBB20_2
.LBB20_11:
	xorl	%r11d, %r11d
	testq	%r9, %r9
	je	.LBB20_12
.LBB20_10:
	decq	%r9
	cmpq	%r11, %r9
	cmovaeq	%r11, %r9
	leaq	(%r13,%r9,8), %r9
	movl	(%rax,%r9), %ebx
	movl	4(%rax,%r9), %ebp
	movb	$1, %r9b
	leaq	4(%rbp), %r10
	cmpq	%r10, %rax
	jb	.LBB20_86
.LBB20_14:
	movzwl	(%r13,%rbp), %edx
	cmpq	$32765, %rdx
	ja	.LBB20_86
	cmpq	%rdx, %r11
	setne	%r11b
	testb	%r11b, %r9b
	jne	.LBB20_86
	movq	16(%rcx), %r9
	movq	%r9, -32(%rsp)
	movzwl	2(%r13,%rbp), %r9d
	leaq	1(%r9), %r11
	cmpq	$4094, %r9
	ja	.LBB20_18
	leal	(%r11,%r11), %r14d
	jmp	.LBB20_21
.LBB20_12:
	xorl	%r9d, %r9d
	xorl	%ebp, %ebp
	xorl	%ebx, %ebx
	leaq	4(%rbp), %r10
	cmpq	%r10, %rax
	jae	.LBB20_14
	jmp	.LBB20_86
.LBB20_18:
	cmpw	$-1, %r9w
	je	.LBB20_19
	movb	$17, %r14b
	movq	%r12, -48(%rsp)
	movq	-32(%rsp), %r12
	subb	%r12b, %r14b
	movq	%rdx, -56(%rsp)
	movl	$1, %edx
	shlxq	%r14, %rdx, %rdx
	addq	$8192, %rdx
	testq	%r12, %r12
	movq	-48(%rsp), %r12
	movl	$8192, %r14d
	cmovneq	%rdx, %r14
	movq	-56(%rsp), %rdx
	jmp	.LBB20_21
.LBB20_19:
	xorl	%r14d, %r14d
.LBB20_21:
	addq	%r10, %r14
	cmpq	%r14, %rax
	jb	.LBB20_86
	addq	%rbx, %r11
	cmpq	%r8, %r11
	jbe	.LBB20_86
	movq	%r8, %rax
	subq	%rbx, %rax
	jb	.LBB20_86
	cmpq	%r11, %r15
	jb	.LBB20_86
	movq	%rdx, -56(%rsp)
	movzbl	(%rcx), %ebx
	movq	40(%rcx), %rdx
	movq	%rdx, -48(%rsp)
	movq	48(%rcx), %r14
	movq	56(%rcx), %rcx
	cmpw	$-1, %r9w
	sete	%dl
	movzwl	%r9w, %r9d
	incb	%dl
	xorl	%r11d, %r11d
	cmpl	$4095, %r9d
	movzbl	%dl, %r9d
	cmovbl	%r11d, %r9d
	cmpb	$2, %r9b
	je	.LBB20_26
	movzbl	%r9b, %edx
	cmpl	$1, %edx
	movq	%rax, %r11
	jne	.LBB20_28
	movq	-32(%rsp), %r9
	testq	%r9, %r9
	movl	%ebx, -20(%rsp)
	je	.LBB20_30
	cmpq	$16, %r9
	jne	.LBB20_34
	xorl	%ebx, %ebx
	jmp	.LBB20_40
.LBB20_26:
	movq	%rax, %r11
	movq	-48(%rsp), %rax
	jmp	.LBB20_53
.LBB20_28:
	movq	-40(%rsp), %rbp
	addq	%r10, %r13
	movzwl	(%r13,%r11,2), %r11d
	movq	-48(%rsp), %rax
	jmp	.LBB20_54
.LBB20_30:
	movq	%r9, %rbx
	jmp	.LBB20_31
.LBB20_34:
	movq	%r14, -16(%rsp)
	movb	$16, %dl
	subb	%r9b, %dl
	movl	$1, %r9d
	shlxq	%rdx, %r9, %r11
	leaq	(%r10,%r13), %r9
	xorl	%ebx, %ebx
	jmp	.LBB20_35
.LBB20_37:
	movq	%r14, %rbx
	movq	%r11, %rdx
	subq	%rbx, %rdx
	cmpq	$1, %rdx
	jbe	.LBB20_39
.LBB20_35:
	leaq	(%r11,%rbx), %rdx
	movq	%rdx, %r14
	shrq	%r14
	andq	$-2, %rdx
	movbew	(%r9,%rdx), %dx
	movzwl	%dx, %edx
	cmpq	%rdx, %rax
	jae	.LBB20_37
	movq	%r14, %r11
	movq	%r11, %rdx
	subq	%rbx, %rdx
	cmpq	$1, %rdx
	ja	.LBB20_35
.LBB20_39:
	movq	-32(%rsp), %r9
	shlxq	%r9, %rbx, %rbx
	testq	%r9, %r9
	movq	-16(%rsp), %r14
	movq	%rax, %r11
	je	.LBB20_31
.LBB20_40:
	shrxq	%r9, %rbx, %rdx
	addq	%r10, %r13
	movbew	(%r13,%rdx,2), %dx
	movzwl	%dx, %edx
	subq	%rdx, %r11
	jb	.LBB20_86
	movq	%r11, %rax
	shrq	$6, %rbx
	leal	-6(%r9), %edx
	movl	$1, %r10d
	movq	%r9, %r11
	shlxq	%rdx, %r10, %r9
	addq	%rbx, %r9
	movb	$17, %dl
	subb	%r11b, %dl
	shlxq	%rdx, %r10, %r10
	jmp	.LBB20_42
.LBB20_31:
	shrq	$6, %rbx
	leaq	1024(%rbx), %r9
	xorl	%r10d, %r10d
.LBB20_42:
	movq	%rbx, %r13
	shlq	$6, %r13
	negq	%r13
	subq	%rbx, %r9
	addq	%r10, %rbp
	addq	-40(%rsp), %rbp
	leaq	(,%rbx,8), %rdx
	addq	%rbp, %rdx
	leaq	(%rsi,%rdx), %r10
	addq	$4, %r10
	xorl	%r11d, %r11d
	movq	%rax, %rbx
.LBB20_43:
	movq	(%r10,%r11,8), %rbp
	xorl	%edx, %edx
	popcntq	%rbp, %rdx
	subq	%rdx, %rbx
	jb	.LBB20_44
	addq	$-64, %r13
	incq	%r11
	movq	%rbx, %rax
	cmpq	%r11, %r9
	jne	.LBB20_43
	jmp	.LBB20_86
.LBB20_44:
	testq	%rax, %rax
	je	.LBB20_45
	movl	%eax, %ebx
	andl	$7, %ebx
	cmpq	$8, %rax
	jae	.LBB20_48
	xorl	%r10d, %r10d
	jmp	.LBB20_51
.LBB20_45:
	xorl	%r10d, %r10d
	jmp	.LBB20_52
.LBB20_48:
	andq	$-8, %rax
	xorl	%r10d, %r10d
.LBB20_49:
	xorl	%edx, %edx
	tzcntq	%rbp, %rdx
	shrxq	%rdx, %rbp, %r9
	shrq	%r9
	addq	%rdx, %r10
	xorl	%edx, %edx
	tzcntq	%r9, %rdx
	addq	%rdx, %r10
	shrxq	%rdx, %r9, %rdx
	shrq	%rdx
	xorl	%r9d, %r9d
	tzcntq	%rdx, %r9
	addq	%r9, %r10
	shrxq	%r9, %rdx, %rdx
	shrq	%rdx
	xorl	%r9d, %r9d
	tzcntq	%rdx, %r9
	addq	%r9, %r10
	shrxq	%r9, %rdx, %rdx
	shrq	%rdx
	xorl	%r9d, %r9d
	tzcntq	%rdx, %r9
	addq	%r9, %r10
	shrxq	%r9, %rdx, %rdx
	shrq	%rdx
	xorl	%r9d, %r9d
	tzcntq	%rdx, %r9
	addq	%r9, %r10
	shrxq	%r9, %rdx, %rdx
	shrq	%rdx
	xorl	%r9d, %r9d
	tzcntq	%rdx, %r9
	addq	%r9, %r10
	shrxq	%r9, %rdx, %rdx
	shrq	%rdx
	xorl	%r9d, %r9d
	tzcntq	%rdx, %r9
	shrxq	%r9, %rdx, %rbp
	shrq	%rbp
	addq	%r9, %r10
	addq	$8, %r10
	addq	$-8, %rax
	jne	.LBB20_49
	testq	%rbx, %rbx
	je	.LBB20_52
.LBB20_51:
	xorl	%edx, %edx
	tzcntq	%rbp, %rdx
	shrxq	%rdx, %rbp, %rbp
	shrq	%rbp
	addq	%rdx, %r10
	incq	%r10
	decq	%rbx
	jne	.LBB20_51
.LBB20_52:
	xorl	%r11d, %r11d
	tzcntq	%rbp, %r11
	addq	%r10, %r11
	subq	%r13, %r11
	movq	-48(%rsp), %rax
	movl	-20(%rsp), %ebx
.LBB20_53:
	movq	-40(%rsp), %rbp
.LBB20_54:
	movabsq	$-9223372036854775808, %r10
	addq	%r12, %rbp
	addq	%rbp, %rsi
	movl	%ebx, %r13d
	cmpl	$2, %ebx
	jae	.LBB20_55
	movl	%r14d, %edx
	movq	%r14, %r9
	shrq	%r9
	orq	%r10, %r9
	notq	%r14
	shrq	%r14
	testb	$1, %dl
	cmoveq	%r9, %r14
	xorl	%ebx, %ebx
	movq	%r8, %r10
	movq	-56(%rsp), %rdx
	jmp	.LBB20_63
.LBB20_55:
	movq	-56(%rsp), %rdx
	jne	.LBB20_62
	movq	%r11, %r12
	movq	%r8, %rax
	shrq	$14, %rax
	leaq	(%rax,%rax,4), %rax
	leaq	(%rax,%rax,4), %r11
	movzbl	24(%rsi,%r11), %eax
	cmpq	$64, %rax
	ja	.LBB20_86
	movq	(%rsi,%r11), %r14
	movabsq	$-9223372036854775808, %rdx
	xorq	%rdx, %r14
	movq	%r15, %rdx
	shrq	$14, %rdx
	andl	$16383, %r15d
	addl	$16383, %r15d
	shrl	$14, %r15d
	addq	%rdx, %r15
	leaq	(%r15,%r15,4), %rdx
	leaq	(%rdx,%rdx,4), %r9
	movl	%r8d, %r10d
	andl	$16383, %r10d
	movq	%rax, %r15
	testq	%rax, %rax
	je	.LBB20_58
	movq	16(%rsi,%r11), %rbx
	addq	%r9, %rbp
	movq	-8(%rsp), %rax
	subq	%rbp, %rax
	subq	%rbx, %rax
	jb	.LBB20_86
	leal	1(%r10), %edx
	movl	%r15d, %r11d
	imull	%edx, %r11d
	movq	-56(%rsp), %rdx
	addl	$7, %r11d
	shrl	$3, %r11d
	cmpq	%r11, %rax
	jae	.LBB20_61
	jmp	.LBB20_86
.LBB20_62:
	leaq	(,%rcx,8), %rbx
	xorl	%r14d, %r14d
	movq	%r8, %r10
	jmp	.LBB20_63
.LBB20_58:
	xorl	%ebx, %ebx
	movq	-56(%rsp), %rdx
.LBB20_61:
	addq	%r9, %rbx
	movq	%r12, %r11
	movq	%r15, %rax
.LBB20_63:
	testq	%rax, %rax
	je	.LBB20_64
	movq	%r14, %r12
	addq	%rsi, %rbx
	imulq	%rax, %r10
	movq	%r10, %r14
	shrq	$3, %r14
	leaq	(%rax,%r10), %rdx
	addq	$7, %rdx
	shrq	$3, %rdx
	andl	$7, %r10d
	movq	%r11, %rbp
	cmpq	$8, %rax
	ja	.LBB20_67
	movzbl	(%rbx,%r14), %r15d
	movzbl	-1(%rbx,%rdx), %r9d
	movl	$1, %r11d
	jmp	.LBB20_72
.LBB20_64:
	movq	%r11, %rbp
	xorl	%r10d, %r10d
	jmp	.LBB20_74
.LBB20_67:
	cmpq	$24, %rax
	ja	.LBB20_69
	movzwl	(%rbx,%r14), %r15d
	movzwl	-2(%rbx,%rdx), %r9d
	movl	$2, %r11d
	jmp	.LBB20_72
.LBB20_69:
	cmpq	$56, %rax
	ja	.LBB20_71
	movl	(%rbx,%r14), %r15d
	movl	-4(%rbx,%rdx), %r9d
	movl	$4, %r11d
	jmp	.LBB20_72
.LBB20_71:
	movq	(%rbx,%r14), %r15
	movq	-8(%rbx,%rdx), %r9
	movl	$8, %r11d
.LBB20_72:
	subq	%r14, %rdx
	cmpl	$1, %r13d
	jne	.LBB20_73
	subl	%r11d, %edx
	shll	$3, %edx
	shlxq	%rdx, %r9, %rdx
	orq	%r15, %rdx
	addl	%eax, %r10d
	negb	%r10b
	shlxq	%r10, %rdx, %rdx
	negb	%al
	shrxq	%rax, %rdx, %r10
	movq	%r12, %r14
	jmp	.LBB20_78
.LBB20_73:
	bswapq	%r15
	bswapq	%r9
	shlxq	%r10, %r15, %rbx
	subl	%r11d, %edx
	shll	$3, %edx
	subl	%r10d, %edx
	shrxq	%rdx, %r9, %rdx
	orq	%rbx, %rdx
	negb	%al
	shrxq	%rax, %rdx, %r10
	movq	-56(%rsp), %rdx
	movq	%r12, %r14
.LBB20_74:
	cmpl	$3, %r13d
	jne	.LBB20_78
	cmpq	%r10, %rcx
	jbe	.LBB20_86
	movq	(%rsi,%r10,8), %r10
	jmp	.LBB20_84
.LBB20_78:
	movq	%r14, %rax
	notq	%rax
	cmpq	$2, %rcx
	jb	.LBB20_80
	movq	%r10, %rdx
	orq	%rcx, %rdx
	shrq	$32, %rdx
	je	.LBB20_80
	xorl	%edx, %edx
	divq	%rcx
	cmpq	%rax, %r10
	movq	-56(%rsp), %rdx
	ja	.LBB20_86
	imulq	%rcx, %r10
	jmp	.LBB20_83
.LBB20_80:
	imulq	%rcx, %r10
	cmpq	%rax, %r10
	movq	-56(%rsp), %rdx
	jbe	.LBB20_83
.LBB20_86:
	movq	$1, (%rdi)
	movq	$13, 8(%rdi)
	vxorps	%xmm0, %xmm0, %xmm0
	vmovups	%xmm0, 16(%rdi)
.LBB20_2:
	movq	$0, 32(%rdi)
.LBB20_3:
	popq	%rbx
	popq	%r12
	popq	%r13
	popq	%r14
	popq	%r15
	popq	%rbp
	vzeroupper
	retq
.LBB20_83:
	addq	%r14, %r10
	movabsq	$-9223372036854775808, %rax
	xorq	%rax, %r10
.LBB20_84:
	shll	$16, %edx
	addl	%edx, %ebp
	movq	$0, (%rdi)
	movq	$1, 8(%rdi)
	movq	%r8, 16(%rdi)
	movl	%ebp, 24(%rdi)
	movl	$0, 28(%rdi)
	movq	%r10, 32(%rdi)
	jmp	.LBB20_3
.Lfunc_end20:
	.size	"pair_at::steps_at", .Lfunc_end20-"pair_at::steps_at"

	.section	".text.plans::plan","ax",@progbits
	.p2align	4
	.type	"plans::plan",@function
"plans::plan":
	cmpq	$2147352576, %rdx
	jbe	.LBB21_2
	xorl	%eax, %eax
	retq
.LBB21_2:
	pushq	%r15
	pushq	%r14
	pushq	%r13
	pushq	%r12
	pushq	%rbx
	subq	$3072, %rsp
	movq	$0, (%rsp)
	subq	$3072, %rsp
	movq	%rdx, %r14
	movq	%rsi, %r15
	movq	%rdi, %rbx
	movq	%rsp, %rdi
	movl	$2048, %edx
	xorl	%esi, %esi
	callq	memset@PLT
	cmpq	$128, %r14
	jae	.LBB21_43
	vxorps	%xmm0, %xmm0, %xmm0
	vmovups	%ymm0, 2272(%rsp)
	vmovups	%ymm0, 2240(%rsp)
	vmovups	%ymm0, 2208(%rsp)
	vmovups	%ymm0, 2176(%rsp)
	vmovups	%ymm0, 2144(%rsp)
	vmovups	%ymm0, 2112(%rsp)
	vmovups	%ymm0, 2080(%rsp)
	vmovups	%ymm0, 2048(%rsp)
	testq	%r14, %r14
	je	.LBB21_82
	leaq	-24(%rsp), %rax
	xorl	%ecx, %ecx
	xorl	%edx, %edx
	jmp	.LBB21_7
	.p2align	4
.LBB21_18:
	movq	%rcx, %rsi
	incq	%rdx
	cmpq	%r14, %rdx
	je	.LBB21_84
.LBB21_7:
	movq	(%r15,%rdx,8), %rsi
	movq	%rsi, %rdi
	shrq	$32, %rdi
	movl	$2147483648, %r8d
	xorl	%edi, %r8d
	imull	$1969558475, %esi, %edi
	imull	$898614065, %r8d, %r8d
	addl	%edi, %r8d
	shrl	$24, %r8d
	movzbl	2048(%rsp,%r8), %edi
	cmpq	%rdi, %rcx
	jbe	.LBB21_10
	cmpq	%rsi, (%rsp,%rdi,8)
	jne	.LBB21_11
	movq	%rcx, %r8
	subq	%rdi, %r8
	ja	.LBB21_17
	jmp	.LBB21_19
	.p2align	4
.LBB21_10:
	testq	%rcx, %rcx
	je	.LBB21_15
.LBB21_11:
	xorl	%edi, %edi
	movq	%rcx, %r9
	jmp	.LBB21_13
	.p2align	4
.LBB21_12:
	movq	%r11, %r9
	cmpq	%r9, %rdi
	jae	.LBB21_16
.LBB21_13:
	movq	%r9, %r10
	subq	%rdi, %r10
	shrq	%r10
	leaq	(%r10,%rdi), %r11
	cmpq	%rsi, (%rsp,%r11,8)
	jge	.LBB21_12
	addq	%r10, %rdi
	incq	%rdi
	cmpq	%r9, %rdi
	jb	.LBB21_13
.LBB21_16:
	movb	%dil, 2048(%rsp,%r8)
	movq	%rcx, %r8
	subq	%rdi, %r8
	jbe	.LBB21_19
.LBB21_17:
	cmpq	%rsi, (%rsp,%rdi,8)
	jne	.LBB21_19
	jmp	.LBB21_18
.LBB21_15:
	xorl	%edi, %edi
	movb	%dil, 2048(%rsp,%r8)
	movq	%rcx, %r8
	subq	%rdi, %r8
	ja	.LBB21_17
	.p2align	4
.LBB21_19:
	cmpq	$256, %rcx
	je	.LBB21_86
	cmpq	$-1, %rdi
	je	.LBB21_24
	testq	%r8, %r8
	je	.LBB21_5
	cmpq	$4, %r8
	jae	.LBB21_26
.LBB21_23:
	movq	%r8, %r10
	jmp	.LBB21_40
	.p2align	4
.LBB21_24:
	movq	-8(%rsp), %r9
	movl	%r8d, %r10d
	andl	$7, %r10d
	cmpq	$7, %rcx
	jae	.LBB21_28
	xorl	%r11d, %r11d
	jmp	.LBB21_31
.LBB21_26:
	cmpq	$16, %r8
	jae	.LBB21_33
	xorl	%r9d, %r9d
	jmp	.LBB21_37
.LBB21_28:
	andq	$-8, %r8
	xorl	%r11d, %r11d
	.p2align	4
.LBB21_29:
	movq	%r9, (%rsp,%r11,8)
	movq	%r9, 8(%rsp,%r11,8)
	movq	%r9, 16(%rsp,%r11,8)
	movq	%r9, 24(%rsp,%r11,8)
	movq	%r9, 32(%rsp,%r11,8)
	movq	%r9, 40(%rsp,%r11,8)
	movq	%r9, 48(%rsp,%r11,8)
	movq	%r9, 56(%rsp,%r11,8)
	addq	$8, %r11
	cmpq	%r11, %r8
	jne	.LBB21_29
	testq	%r10, %r10
	je	.LBB21_5
.LBB21_31:
	leaq	(%rsp,%r11,8), %r8
	xorl	%r11d, %r11d
	.p2align	4
.LBB21_32:
	movq	%r9, (%r8,%r11,8)
	incq	%r11
	cmpq	%r11, %r10
	jne	.LBB21_32
	jmp	.LBB21_5
.LBB21_33:
	movq	%r8, %r9
	andq	$-16, %r9
	movq	%r9, %r10
	negq	%r10
	leaq	(%rax,%rcx,8), %r11
	xorl	%r12d, %r12d
	.p2align	4
.LBB21_34:
	vmovups	-104(%r11,%r12,8), %ymm0
	vmovups	-72(%r11,%r12,8), %ymm1
	vmovups	-40(%r11,%r12,8), %ymm2
	vmovups	-8(%r11,%r12,8), %ymm3
	vmovups	%ymm3, (%r11,%r12,8)
	vmovups	%ymm2, -32(%r11,%r12,8)
	vmovups	%ymm1, -64(%r11,%r12,8)
	vmovups	%ymm0, -96(%r11,%r12,8)
	addq	$-16, %r12
	cmpq	%r12, %r10
	jne	.LBB21_34
	cmpq	%r9, %r8
	je	.LBB21_5
	testb	$12, %r8b
	je	.LBB21_42
.LBB21_37:
	movq	%r8, %r11
	andq	$-4, %r11
	movl	%r8d, %r10d
	andl	$3, %r10d
	movq	%r11, %r12
	negq	%r12
	negq	%r9
	leaq	(%rax,%rcx,8), %r13
	.p2align	4
.LBB21_38:
	vmovups	-8(%r13,%r9,8), %ymm0
	vmovups	%ymm0, (%r13,%r9,8)
	addq	$-4, %r9
	cmpq	%r9, %r12
	jne	.LBB21_38
	cmpq	%r11, %r8
	je	.LBB21_5
.LBB21_40:
	leaq	(%rsp,%rdi,8), %r8
	movq	%r10, %r9
	.p2align	4
.LBB21_41:
	decq	%r9
	movq	-8(%r8,%r10,8), %r11
	movq	%r11, (%r8,%r10,8)
	movq	%r9, %r10
	jne	.LBB21_41
.LBB21_5:
	movq	%rsi, (%rsp,%rdi,8)
	leaq	1(%rcx), %rsi
	cmpq	$255, %rcx
	movq	%rsi, %rcx
	ja	.LBB21_84
	incq	%rdx
	cmpq	%r14, %rdx
	jne	.LBB21_7
	jmp	.LBB21_84
.LBB21_42:
	andl	$15, %r8d
	jmp	.LBB21_23
.LBB21_43:
	leaq	2048(%rsp), %rdi
	xorl	%r12d, %r12d
	movl	$4096, %edx
	xorl	%esi, %esi
	callq	memset@PLT
	leaq	-24(%rsp), %rax
	xorl	%ecx, %ecx
	jmp	.LBB21_46
	.p2align	4
.LBB21_57:
	movq	%r12, %rsi
	incq	%rcx
	cmpq	%r14, %rcx
	je	.LBB21_84
.LBB21_46:
	movq	(%r15,%rcx,8), %rdx
	movq	%rdx, %rsi
	shrq	$32, %rsi
	movl	$2147483648, %edi
	xorl	%esi, %edi
	imull	$1969558475, %edx, %esi
	imull	$898614065, %edi, %edi
	addl	%esi, %edi
	shrl	$20, %edi
	movzbl	2048(%rsp,%rdi), %esi
	cmpq	%rsi, %r12
	jbe	.LBB21_49
	cmpq	%rdx, (%rsp,%rsi,8)
	jne	.LBB21_50
	movq	%r12, %rdi
	subq	%rsi, %rdi
	ja	.LBB21_56
	jmp	.LBB21_58
	.p2align	4
.LBB21_49:
	testq	%r12, %r12
	je	.LBB21_54
.LBB21_50:
	xorl	%esi, %esi
	movq	%r12, %r8
	jmp	.LBB21_52
	.p2align	4
.LBB21_51:
	movq	%r10, %r8
	cmpq	%r8, %rsi
	jae	.LBB21_55
.LBB21_52:
	movq	%r8, %r9
	subq	%rsi, %r9
	shrq	%r9
	leaq	(%r9,%rsi), %r10
	cmpq	%rdx, (%rsp,%r10,8)
	jge	.LBB21_51
	addq	%r9, %rsi
	incq	%rsi
	cmpq	%r8, %rsi
	jb	.LBB21_52
.LBB21_55:
	movb	%sil, 2048(%rsp,%rdi)
	movq	%r12, %rdi
	subq	%rsi, %rdi
	jbe	.LBB21_58
.LBB21_56:
	cmpq	%rdx, (%rsp,%rsi,8)
	jne	.LBB21_58
	jmp	.LBB21_57
.LBB21_54:
	xorl	%esi, %esi
	movb	%sil, 2048(%rsp,%rdi)
	movq	%r12, %rdi
	subq	%rsi, %rdi
	ja	.LBB21_56
	.p2align	4
.LBB21_58:
	cmpq	$256, %r12
	je	.LBB21_83
	cmpq	$-1, %rsi
	je	.LBB21_63
	testq	%rdi, %rdi
	je	.LBB21_44
	cmpq	$4, %rdi
	jae	.LBB21_65
.LBB21_62:
	movq	%rdi, %r9
	jmp	.LBB21_79
	.p2align	4
.LBB21_63:
	movq	-8(%rsp), %r8
	movl	%edi, %r9d
	andl	$7, %r9d
	cmpq	$7, %r12
	jae	.LBB21_67
	xorl	%r10d, %r10d
	jmp	.LBB21_70
.LBB21_65:
	cmpq	$16, %rdi
	jae	.LBB21_72
	xorl	%r8d, %r8d
	jmp	.LBB21_76
.LBB21_67:
	andq	$-8, %rdi
	xorl	%r10d, %r10d
	.p2align	4
.LBB21_68:
	movq	%r8, (%rsp,%r10,8)
	movq	%r8, 8(%rsp,%r10,8)
	movq	%r8, 16(%rsp,%r10,8)
	movq	%r8, 24(%rsp,%r10,8)
	movq	%r8, 32(%rsp,%r10,8)
	movq	%r8, 40(%rsp,%r10,8)
	movq	%r8, 48(%rsp,%r10,8)
	movq	%r8, 56(%rsp,%r10,8)
	addq	$8, %r10
	cmpq	%r10, %rdi
	jne	.LBB21_68
	testq	%r9, %r9
	je	.LBB21_44
.LBB21_70:
	leaq	(%rsp,%r10,8), %rdi
	xorl	%r10d, %r10d
	.p2align	4
.LBB21_71:
	movq	%r8, (%rdi,%r10,8)
	incq	%r10
	cmpq	%r10, %r9
	jne	.LBB21_71
	jmp	.LBB21_44
.LBB21_72:
	movq	%rdi, %r8
	andq	$-16, %r8
	movq	%r8, %r9
	negq	%r9
	leaq	(%rax,%r12,8), %r10
	xorl	%r11d, %r11d
	.p2align	4
.LBB21_73:
	vmovups	-104(%r10,%r11,8), %ymm0
	vmovups	-72(%r10,%r11,8), %ymm1
	vmovups	-40(%r10,%r11,8), %ymm2
	vmovups	-8(%r10,%r11,8), %ymm3
	vmovups	%ymm3, (%r10,%r11,8)
	vmovups	%ymm2, -32(%r10,%r11,8)
	vmovups	%ymm1, -64(%r10,%r11,8)
	vmovups	%ymm0, -96(%r10,%r11,8)
	addq	$-16, %r11
	cmpq	%r11, %r9
	jne	.LBB21_73
	cmpq	%r8, %rdi
	je	.LBB21_44
	testb	$12, %dil
	je	.LBB21_81
.LBB21_76:
	movq	%rdi, %r10
	andq	$-4, %r10
	movl	%edi, %r9d
	andl	$3, %r9d
	movq	%r10, %r11
	negq	%r11
	negq	%r8
	leaq	(%rax,%r12,8), %r13
	.p2align	4
.LBB21_77:
	vmovups	-8(%r13,%r8,8), %ymm0
	vmovups	%ymm0, (%r13,%r8,8)
	addq	$-4, %r8
	cmpq	%r8, %r11
	jne	.LBB21_77
	cmpq	%r10, %rdi
	je	.LBB21_44
.LBB21_79:
	leaq	(%rsp,%rsi,8), %rdi
	movq	%r9, %r8
	.p2align	4
.LBB21_80:
	decq	%r8
	movq	-8(%rdi,%r9,8), %r10
	movq	%r10, (%rdi,%r9,8)
	movq	%r8, %r9
	jne	.LBB21_80
.LBB21_44:
	movq	%rdx, (%rsp,%rsi,8)
	leaq	1(%r12), %rsi
	cmpq	$255, %r12
	movq	%rsi, %r12
	ja	.LBB21_84
	incq	%rcx
	cmpq	%r14, %rcx
	jne	.LBB21_46
	jmp	.LBB21_84
.LBB21_81:
	andl	$15, %edi
	jmp	.LBB21_62
.LBB21_82:
	xorl	%esi, %esi
	leaq	-257(%rsi), %rax
	cmpq	$-255, %rax
	jb	.LBB21_89
	jmp	.LBB21_87
.LBB21_83:
	movl	$257, %esi
.LBB21_84:
	leaq	-257(%rsi), %rax
	cmpq	$-255, %rax
	jb	.LBB21_89
.LBB21_87:
	movq	%rsp, %rdi
	movq	%rsi, %r15
	movq	%r14, %rdx
	vzeroupper
	callq	"table_values::saves"
	testb	%al, %al
	je	.LBB21_89
	leaq	(,%r15,8), %rdx
	movq	%rsp, %rsi
	movq	%rbx, %rdi
	callq	memcpy@PLT
	movq	%r15, %rax
	jmp	.LBB21_90
.LBB21_86:
	movl	$257, %esi
	leaq	-257(%rsi), %rax
	cmpq	$-255, %rax
	jae	.LBB21_87
.LBB21_89:
	xorl	%eax, %eax
.LBB21_90:
	addq	$6144, %rsp
	popq	%rbx
	popq	%r12
	popq	%r13
	popq	%r14
	popq	%r15
	vzeroupper
	retq
.Lfunc_end21:
	.size	"plans::plan", .Lfunc_end21-"plans::plan"

	.section	.rodata.cst32,"aM",@progbits,32
	.p2align	5, 0x0
.LCPI22_0:
	.long	0
	.long	1
	.long	2
	.long	3
	.long	4
	.long	5
	.long	6
	.long	7
.LCPI22_7:
	.zero	32,15
.LCPI22_8:
	.byte	0
	.byte	1
	.byte	1
	.byte	2
	.byte	1
	.byte	2
	.byte	2
	.byte	3
	.byte	1
	.byte	2
	.byte	2
	.byte	3
	.byte	2
	.byte	3
	.byte	3
	.byte	4
	.byte	0
	.byte	1
	.byte	1
	.byte	2
	.byte	1
	.byte	2
	.byte	2
	.byte	3
	.byte	1
	.byte	2
	.byte	2
	.byte	3
	.byte	2
	.byte	3
	.byte	3
	.byte	4
.LCPI22_9:
	.long	0
	.long	2
	.long	4
	.long	6
	.zero	4
	.zero	4
	.zero	4
	.zero	4
	.section	.rodata.cst4,"aM",@progbits,4
	.p2align	2, 0x0
.LCPI22_1:
	.long	8
.LCPI22_2:
	.long	16
.LCPI22_3:
	.long	24
.LCPI22_4:
	.long	32
.LCPI22_6:
	.long	4
.LCPI22_11:
	.zero	4,15
	.section	.rodata.cst16,"aM",@progbits,16
	.p2align	4, 0x0
.LCPI22_5:
	.long	0
	.long	1
	.long	2
	.long	3
.LCPI22_10:
	.long	0
	.long	2
	.long	4
	.long	6
.LCPI22_12:
	.byte	0
	.byte	1
	.byte	1
	.byte	2
	.byte	1
	.byte	2
	.byte	2
	.byte	3
	.byte	1
	.byte	2
	.byte	2
	.byte	3
	.byte	2
	.byte	3
	.byte	3
	.byte	4
	.section	".text.read_from::read_up_to","ax",@progbits
	.p2align	4
	.type	"read_from::read_up_to",@function
"read_from::read_up_to":
	pushq	%rbp
	pushq	%r15
	pushq	%r14
	pushq	%r13
	pushq	%r12
	pushq	%rbx
	subq	$600, %rsp
	movq	%r8, %r10
	movq	%rdx, 240(%rsp)
	movq	%rdi, 488(%rsp)
	movl	664(%rsp), %eax
	movzbl	(%r9), %edi
	movl	1(%r9), %r8d
	movl	4(%r9), %edx
	movl	%edx, 43(%rsp)
	movl	%r8d, 40(%rsp)
	cmpl	$2147352575, %eax
	ja	.LBB22_2
	movq	8(%r9), %r12
	movq	16(%r9), %r15
	movq	24(%r9), %r8
	movq	%rcx, %r14
	movq	32(%r9), %rcx
	movq	%rcx, 64(%rsp)
	movq	72(%r9), %rbx
	leaq	(,%rcx,8), %rcx
	movq	%r8, %rbp
	subq	%rcx, %rbp
	movl	%eax, %r13d
	shrl	$16, %r13d
	movb	$17, %cl
	subb	%r15b, %cl
	movl	$1, %edx
	shlxq	%rcx, %rdx, %r11
	leaq	8192(%r11), %rcx
	testq	%r15, %r15
	movl	$8192, %edx
	cmovneq	%rcx, %rdx
	movq	%rdx, 480(%rsp)
	cmoveq	%r15, %r11
	movq	%r8, 128(%rsp)
	leaq	(%rbx,%r8), %rcx
	leaq	(%r14,%rcx), %rdx
	movq	%rdx, 304(%rsp)
	movq	%r12, %rdx
	shrq	$14, %rdx
	movq	%r12, 104(%rsp)
	movl	%r12d, %r8d
	movq	%r13, %r12
	andl	$16383, %r8d
	addl	$16383, %r8d
	shrl	$14, %r8d
	addq	%rdx, %r8
	leaq	(%r8,%r8,4), %rdx
	leaq	(%rdx,%rdx,4), %rdx
	movq	%rdx, 432(%rsp)
	addq	%rdx, %rcx
	movq	%r10, %rdx
	subq	%rcx, %rdx
	movq	%rdx, 424(%rsp)
	movq	48(%r9), %rdx
	movq	%rdx, %rcx
	shrq	%rcx
	movabsq	$-9223372036854775808, %r8
	orq	%r8, %rcx
	movq	%rdx, %r8
	notq	%r8
	shrq	%r8
	movq	%rdx, 256(%rsp)
	testb	$1, %dl
	cmoveq	%rcx, %r8
	movq	%r8, 448(%rsp)
	movq	40(%r9), %rcx
	movq	%rcx, 96(%rsp)
	movq	56(%r9), %rcx
	movq	64(%r9), %rdx
	movq	%rdx, 248(%rsp)
	movzwl	%ax, %r8d
	leaq	(%r11,%rbx), %rax
	leaq	100(%r14,%rax), %rdx
	movq	%rdx, 360(%rsp)
	leaq	4(%r14,%rax), %rdx
	movq	%rdx, 280(%rsp)
	leaq	12(%r14,%rax), %rax
	movq	%rax, 352(%rsp)
	movq	656(%rsp), %r13
	movb	%dil, 15(%rsp)
	movzbl	%dil, %eax
	movl	%eax, 340(%rsp)
	leaq	(%r14,%rbx), %rax
	movq	64(%rsp), %rdi
	leaq	-1(%rdi), %rdx
	movq	%rdx, 504(%rsp)
	movq	%rbp, 320(%rsp)
	leaq	(%rax,%rbp), %rdx
	movq	%rdx, 496(%rsp)
	movq	%r15, 56(%rsp)
	leaq	-6(%r15), %rdx
	movq	%r8, %r15
	movq	%rdx, 296(%rsp)
	movq	%r11, 376(%rsp)
	movq	%rax, 48(%rsp)
	leaq	(%rax,%r11), %rax
	movq	%rax, 408(%rsp)
	leaq	(,%rcx,8), %rax
	movq	%rax, 440(%rsp)
	leaq	4(%rbx), %rax
	movq	%rax, 472(%rsp)
	leaq	96(%rsi), %rax
	movq	%rax, 368(%rsp)
	leaq	4(%r14,%rbx), %rax
	movq	%rax, 464(%rsp)
	movq	%rsi, 88(%rsp)
	leaq	12(%rsi), %rax
	movq	%rax, 416(%rsp)
	movq	%rbx, 264(%rsp)
	leaq	(%r14,%rbx), %rax
	addq	$8, %rax
	movq	%rax, 456(%rsp)
	xorl	%r8d, %r8d
	movq	%r10, 232(%rsp)
	movq	%r14, 112(%rsp)
	movq	%rdi, %r14
	movq	%rcx, 120(%rsp)
	jmp	.LBB22_6
.LBB22_2:
	xorl	%r8d, %r8d
.LBB22_3:
	movb	$1, %al
	xorl	%ecx, %ecx
	movq	%r8, %r13
	jmp	.LBB22_217
.LBB22_4:
	testq	%r14, %r14
	movl	$32766, %edx
	cmovneq	%rax, %rdx
	cmpq	%rcx, %rax
	cmovneq	%rdx, %rax
	.p2align	4
.LBB22_5:
	xorl	%r15d, %r15d
	movq	%rax, %r12
	cmpq	$32766, %rax
	jae	.LBB22_3
.LBB22_6:
	testq	%r14, %r14
	je	.LBB22_8
	movq	504(%rsp), %rcx
	cmpq	%r12, %rcx
	movq	%r12, %rax
	cmovbq	%rcx, %rax
	movq	496(%rsp), %rcx
	movl	(%rcx,%rax,8), %ebp
	movl	4(%rcx,%rax,8), %ecx
	leaq	4(%rcx), %rbx
	cmpq	%rbx, 320(%rsp)
	jae	.LBB22_9
	jmp	.LBB22_215
	.p2align	4
.LBB22_8:
	xorl	%ecx, %ecx
	xorl	%ebp, %ebp
	leaq	4(%rcx), %rbx
	cmpq	%rbx, 320(%rsp)
	jb	.LBB22_215
.LBB22_9:
	movq	48(%rsp), %rax
	movzwl	(%rax,%rcx), %eax
	movl	$65536, %edi
	cmpq	%rax, %r12
	movq	%r12, 328(%rsp)
	jb	.LBB22_10
	jbe	.LBB22_14
	testq	%r14, %r14
	jne	.LBB22_215
.LBB22_10:
	xorl	%edx, %edx
.LBB22_181:
	cmpq	%r13, %r8
	movq	328(%rsp), %r12
	je	.LBB22_223
	leaq	1(%r12), %rax
	addq	$2, %r12
	cmpq	%r14, %r12
	jb	.LBB22_5
	testq	%r14, %r14
	je	.LBB22_185
	movq	128(%rsp), %rcx
	movq	48(%rsp), %rdx
	movl	-4(%rdx,%rcx), %ecx
	leaq	4(%rcx), %rdx
	cmpq	%rdx, 320(%rsp)
	jb	.LBB22_5
	jmp	.LBB22_186
	.p2align	4
.LBB22_14:
	movq	120(%rsp), %r11
	movq	48(%rsp), %rax
	movzwl	2(%rax,%rcx), %r9d
	leaq	1(%r9), %r10
	cmpq	$4094, %r9
	movq	%r9, 72(%rsp)
	ja	.LBB22_16
	leal	(%r10,%r10), %eax
	jmp	.LBB22_17
.LBB22_185:
	xorl	%ecx, %ecx
	leaq	4(%rcx), %rdx
	cmpq	%rdx, 320(%rsp)
	jb	.LBB22_5
.LBB22_186:
	movq	48(%rsp), %rdx
	movzwl	(%rdx,%rcx), %ecx
	cmpq	%rcx, %rax
	jae	.LBB22_4
	cmpq	$32766, %rcx
	movl	$32766, %eax
	cmovbq	%rcx, %rax
	jmp	.LBB22_5
.LBB22_16:
	movq	480(%rsp), %rax
	cmpl	$65535, %r9d
	je	.LBB22_56
.LBB22_17:
	addq	%rbx, %rax
	cmpq	%rax, 320(%rsp)
	jb	.LBB22_215
	leaq	(%r10,%rbp), %rax
	cmpq	%rax, 104(%rsp)
	jb	.LBB22_215
	cmpw	$4, %r9w
	ja	.LBB22_57
	addq	48(%rsp), %rbx
	movq	%r12, %rcx
	shlq	$16, %rcx
	xorl	%eax, %eax
.LBB22_21:
	movq	%rax, %rsi
	.p2align	4
.LBB22_22:
	movzwl	(%rbx,%rsi,2), %edi
	cmpq	%rdi, %r15
	jbe	.LBB22_24
	cmpq	%r9, %rsi
	leaq	1(%rsi), %rsi
	jb	.LBB22_22
	jmp	.LBB22_54
	.p2align	4
.LBB22_24:
	cmpq	%r13, %r8
	je	.LBB22_218
	leaq	(%rsi,%rbp), %rax
	cmpl	$2, 340(%rsp)
	movq	%r8, 16(%rsp)
	jae	.LBB22_27
	xorl	%r10d, %r10d
	movq	96(%rsp), %rdx
	movq	448(%rsp), %r8
	testq	%rdx, %rdx
	je	.LBB22_43
.LBB22_33:
	movq	%rbx, %r15
	addq	304(%rsp), %r10
	imulq	%rdx, %rax
	movq	%rax, %rbx
	shrq	$3, %rbx
	leaq	(%rdx,%rax), %r9
	addq	$7, %r9
	shrq	$3, %r9
	cmpq	$8, %rdx
	ja	.LBB22_35
	movzbl	(%r10,%rbx), %r11d
	movzbl	-1(%r10,%r9), %r10d
	movl	$1, %r14d
	subq	%rbx, %r9
	andl	$7, %eax
	cmpb	$1, 15(%rsp)
	jne	.LBB22_39
.LBB22_47:
	subl	%r14d, %r9d
	shll	$3, %r9d
	shlxq	%r9, %r10, %r9
	orq	%r11, %r9
	addl	%edx, %eax
	negb	%al
	shlxq	%rax, %r9, %rax
	negb	%dl
	shrxq	%rdx, %rax, %r9
	movq	64(%rsp), %r14
	movq	120(%rsp), %r10
	movq	%r15, %rbx
	movq	%r8, %rax
	notq	%rax
	cmpq	$2, %r10
	jae	.LBB22_48
	jmp	.LBB22_51
.LBB22_27:
	jne	.LBB22_32
	movq	%rax, %rdx
	shrq	$14, %rdx
	leaq	(%rdx,%rdx,4), %rdx
	leaq	(%rdx,%rdx,4), %r9
	movq	304(%rsp), %r10
	movzbl	24(%r10,%r9), %edx
	cmpq	$64, %rdx
	ja	.LBB22_215
	movq	%rbx, %r15
	movq	(%r10,%r9), %r8
	movabsq	$-9223372036854775808, %rbx
	xorq	%rbx, %r8
	andl	$16383, %eax
	testq	%rdx, %rdx
	je	.LBB22_41
	movq	16(%r10,%r9), %r10
	movq	424(%rsp), %r9
	subq	%r10, %r9
	jb	.LBB22_232
	leal	1(%rax), %r11d
	movl	%edx, %ebx
	imull	%r11d, %ebx
	movq	120(%rsp), %r11
	addl	$7, %ebx
	shrl	$3, %ebx
	cmpq	%rbx, %r9
	movq	%r15, %rbx
	jb	.LBB22_232
	addq	432(%rsp), %r10
	testq	%rdx, %rdx
	jne	.LBB22_33
	jmp	.LBB22_43
.LBB22_35:
	cmpq	$24, %rdx
	ja	.LBB22_37
	movzwl	(%r10,%rbx), %r11d
	movzwl	-2(%r10,%r9), %r10d
	movl	$2, %r14d
	subq	%rbx, %r9
	andl	$7, %eax
	cmpb	$1, 15(%rsp)
	je	.LBB22_47
.LBB22_39:
	bswapq	%r11
	bswapq	%r10
	shlxq	%rax, %r11, %r11
	subl	%r14d, %r9d
	shll	$3, %r9d
	subl	%eax, %r9d
	shrxq	%r9, %r10, %rax
	orq	%r11, %rax
	negb	%dl
	shrxq	%rdx, %rax, %r9
	movq	64(%rsp), %r14
	movq	120(%rsp), %r11
	movq	%r15, %rbx
	cmpb	$3, 15(%rsp)
	je	.LBB22_44
.LBB22_40:
	movq	%r11, %r10
	movq	%r8, %rax
	notq	%rax
	cmpq	$2, %r10
	jb	.LBB22_51
.LBB22_48:
	movq	%r9, %rdx
	orq	%r10, %rdx
	shrq	$32, %rdx
	je	.LBB22_51
	xorl	%edx, %edx
	divq	%r10
	cmpq	%rax, %r9
	ja	.LBB22_232
	movq	%r10, %r11
	imulq	%r10, %r9
	jmp	.LBB22_52
.LBB22_51:
	movq	%r10, %r11
	imulq	%r10, %r9
	cmpq	%rax, %r9
	ja	.LBB22_232
.LBB22_52:
	addq	%r8, %r9
	movabsq	$-9223372036854775808, %rax
	xorq	%rax, %r9
	jmp	.LBB22_53
.LBB22_32:
	xorl	%r8d, %r8d
	movq	440(%rsp), %r10
	movq	96(%rsp), %rdx
	testq	%rdx, %rdx
	jne	.LBB22_33
.LBB22_43:
	xorl	%r9d, %r9d
	cmpb	$3, 15(%rsp)
	jne	.LBB22_40
.LBB22_44:
	cmpq	%r9, %r11
	jbe	.LBB22_232
	movq	304(%rsp), %rax
	movq	(%rax,%r9,8), %r9
.LBB22_53:
	movq	16(%rsp), %r8
	movl	%ecx, %eax
	orl	%edi, %eax
	movq	88(%rsp), %rdx
	movl	%eax, (%rdx,%r8,4)
	movq	240(%rsp), %rax
	movq	%r9, (%rax,%r8,8)
	incq	%r8
	incq	%rdi
	leaq	1(%rsi), %rax
	xorl	%edx, %edx
	movq	%rdi, %r15
	movq	72(%rsp), %r9
	cmpq	%r9, %rsi
	jb	.LBB22_21
	jmp	.LBB22_55
.LBB22_37:
	cmpq	$56, %rdx
	ja	.LBB22_46
	movl	(%r10,%rbx), %r11d
	movl	-4(%r10,%r9), %r10d
	movl	$4, %r14d
	subq	%rbx, %r9
	andl	$7, %eax
	cmpb	$1, 15(%rsp)
	je	.LBB22_47
	jmp	.LBB22_39
.LBB22_41:
	xorl	%r10d, %r10d
	movq	%r15, %rbx
	addq	432(%rsp), %r10
	testq	%rdx, %rdx
	jne	.LBB22_33
	jmp	.LBB22_43
.LBB22_46:
	movq	(%r10,%rbx), %r11
	movq	-8(%r10,%r9), %r10
	movl	$8, %r14d
	subq	%rbx, %r9
	andl	$7, %eax
	cmpb	$1, 15(%rsp)
	jne	.LBB22_39
	jmp	.LBB22_47
.LBB22_54:
	xorl	%edx, %edx
.LBB22_55:
	movl	$65536, %edi
	jmp	.LBB22_181
.LBB22_56:
	leaq	(%r10,%rbp), %rax
	cmpq	%rax, 104(%rsp)
	jb	.LBB22_215
.LBB22_57:
	movq	%rcx, 32(%rsp)
	cmpq	$65535, %r9
	sete	%al
	incb	%al
	xorl	%ecx, %ecx
	cmpl	$4095, %r9d
	movzbl	%al, %eax
	cmovbl	%ecx, %eax
	cmpb	$2, %al
	je	.LBB22_62
	movzbl	%al, %eax
	cmpl	$1, %eax
	movq	%rbx, 288(%rsp)
	movq	%r10, 224(%rsp)
	movq	%r11, %rsi
	movq	%r8, 16(%rsp)
	movq	%rbp, 312(%rsp)
	jne	.LBB22_66
	movzbl	15(%rsp), %eax
	movb	%al, 136(%rsp)
	movl	40(%rsp), %eax
	movl	43(%rsp), %ecx
	leaq	137(%rsp), %rdx
	movl	%ecx, 3(%rdx)
	movl	%eax, (%rdx)
	movq	104(%rsp), %rax
	movq	%rax, 144(%rsp)
	movq	56(%rsp), %rax
	movq	%rax, 152(%rsp)
	movq	128(%rsp), %rax
	movq	%rax, 160(%rsp)
	movq	%r14, 168(%rsp)
	movq	96(%rsp), %rax
	movq	%rax, 176(%rsp)
	movq	256(%rsp), %rax
	movq	%rax, 184(%rsp)
	movq	%rsi, 192(%rsp)
	movq	248(%rsp), %rax
	movq	%rax, 200(%rsp)
	movq	264(%rsp), %rax
	movq	%rax, 208(%rsp)
	movq	%r13, %rax
	subq	%r8, %rax
	movq	376(%rsp), %rcx
	addq	%rbx, %rcx
	movq	%rcx, 80(%rsp)
	cmpq	$64, %rax
	jb	.LBB22_134
	movq	56(%rsp), %rdx
	testq	%rdx, %rdx
	shrxq	%rdx, %r15, %rcx
	movq	296(%rsp), %rsi
	shlxq	%rsi, %rcx, %rsi
	cmoveq	%rdx, %rsi
	je	.LBB22_107
	movq	48(%rsp), %rdx
	movq	32(%rsp), %rdi
	addq	$4, %rdi
	addq	%rdi, %rdx
	movbew	(%rdx,%rcx,2), %cx
	movzwl	%cx, %ecx
	jmp	.LBB22_108
.LBB22_62:
	movzbl	15(%rsp), %eax
	movb	%al, 136(%rsp)
	movl	43(%rsp), %eax
	leaq	137(%rsp), %rcx
	movl	%eax, 3(%rcx)
	movq	%r13, %rax
	subq	%r8, %rax
	movl	$65536, %ebx
	subq	%r15, %rbx
	cmpq	%rax, %rbx
	cmovaeq	%rax, %rbx
	movl	40(%rsp), %eax
	movl	%eax, (%rcx)
	movq	104(%rsp), %rax
	movq	%rax, 144(%rsp)
	movq	56(%rsp), %rax
	movq	%rax, 152(%rsp)
	movq	128(%rsp), %rax
	movq	%rax, 160(%rsp)
	movq	%r14, 168(%rsp)
	movq	96(%rsp), %rax
	movq	%rax, 176(%rsp)
	movq	256(%rsp), %rax
	movq	%rax, 184(%rsp)
	movq	%r11, 192(%rsp)
	movq	248(%rsp), %rax
	movq	%rax, 200(%rsp)
	movq	264(%rsp), %rax
	movq	%rax, 208(%rsp)
	addq	%r8, %rbx
	movq	%r15, 24(%rsp)
	addq	%r15, %rbp
	movq	%rbx, (%rsp)
	leaq	136(%rsp), %rcx
	movq	240(%rsp), %rdi
	movq	112(%rsp), %rsi
	movq	232(%rsp), %rdx
	movq	%r8, %r15
	movq	%rbp, %r8
	movq	%r15, %r9
	vzeroupper
	callq	"read_in_block::draw"
	movq	%rax, %rcx
	subq	%r15, %rcx
	jbe	.LBB22_123
	movq	%r15, %r8
	movl	%r12d, %esi
	shll	$16, %esi
	movq	24(%rsp), %rdx
	orl	%esi, %edx
	cmpq	$4, %rcx
	jb	.LBB22_121
	cmpq	$32, %rcx
	jae	.LBB22_114
	xorl	%esi, %esi
	movl	%edx, %edi
	jmp	.LBB22_118
.LBB22_66:
	movq	%r15, 24(%rsp)
	movzbl	15(%rsp), %eax
	movb	%al, 136(%rsp)
	movl	40(%rsp), %eax
	movl	43(%rsp), %ecx
	leaq	137(%rsp), %rdx
	movl	%ecx, 3(%rdx)
	movl	%eax, (%rdx)
	movq	104(%rsp), %rax
	movq	%rax, 144(%rsp)
	movq	56(%rsp), %rax
	movq	%rax, 152(%rsp)
	movq	128(%rsp), %rax
	movq	%rax, 160(%rsp)
	movq	%r14, 168(%rsp)
	movq	96(%rsp), %rax
	movq	%rax, 176(%rsp)
	movq	256(%rsp), %rax
	movq	%rax, 184(%rsp)
	movq	%rsi, 192(%rsp)
	movq	248(%rsp), %rax
	movq	%rax, 200(%rsp)
	movq	264(%rsp), %rax
	movq	%rax, 208(%rsp)
	movq	48(%rsp), %rbx
	movq	%rbx, %rdi
	movq	32(%rsp), %r13
	leaq	4(%r13), %r15
	movq	%r15, %rsi
	movq	%r10, %rdx
	movq	24(%rsp), %rcx
	vzeroupper
	callq	"next_in_block::first_entry"
	movq	%rax, %rdx
	addq	%rbx, %r15
	movq	%r12, %rax
	shlq	$16, %rax
	movq	%rax, 272(%rsp)
	movq	472(%rsp), %rax
	addq	%r13, %rax
	movq	%rax, 392(%rsp)
	vmovq	%r12, %xmm0
	vpbroadcastq	%xmm0, %ymm0
	vpsllq	$16, %ymm0, %ymm6
	movq	464(%rsp), %rax
	addq	%r13, %rax
	movq	%rax, 216(%rsp)
	movq	456(%rsp), %rax
	leaq	(%rax,%r13), %rbx
	movq	16(%rsp), %r8
	movq	72(%rsp), %rdi
	movq	656(%rsp), %r13
	movq	%r15, 288(%rsp)
	movq	%rbx, 400(%rsp)
.LBB22_67:
	movl	$65536, %ecx
	cmpq	%rdi, %rdx
	ja	.LBB22_211
	movq	%r13, %rax
	subq	%r8, %rax
	je	.LBB22_212
	movq	224(%rsp), %r10
	movq	%rdx, %r13
	movq	%r10, %rdx
	subq	%r13, %rdx
	movq	216(%rsp), %rsi
	leaq	(%rsi,%r13,2), %r14
	movq	%r13, %rbp
	subq	%r8, %rbp
	leaq	(%r8,%r8), %r11
	movq	%rbx, %r15
	subq	%r11, %r15
	xorl	%ebx, %ebx
	movq	%r13, 344(%rsp)
	movq	%r8, 16(%rsp)
	movq	24(%rsp), %r9
	.p2align	4
.LBB22_70:
	cmpq	%rax, %rdx
	movq	%rax, %rsi
	cmovbq	%rdx, %rsi
	movq	%r10, %r12
	subq	%r13, %r12
	cmpq	%r12, %rax
	cmovbq	%rax, %r12
	addq	%r13, %r12
	cmpq	%r12, %r13
	movq	%r15, 80(%rsp)
	jae	.LBB22_76
	xorl	%edi, %edi
	.p2align	4
.LBB22_72:
	movzwl	(%r14,%rdi,2), %r8d
	cmpq	%r8, %r9
	ja	.LBB22_74
	incq	%r8
	incq	%rdi
	movq	%r8, %r9
	cmpq	%rdi, %rsi
	jne	.LBB22_72
	jmp	.LBB22_75
	.p2align	4
.LBB22_74:
	addq	%r13, %rdi
	movq	%rdi, %r12
.LBB22_75:
	movq	16(%rsp), %r8
	movq	72(%rsp), %rdi
.LBB22_76:
	movq	%r12, %r15
	subq	%r13, %r15
	jne	.LBB22_78
	incq	%rbx
	decq	%rdx
	addq	$2, %r14
	incq	%rbp
	movq	80(%rsp), %r15
	addq	$2, %r15
	cmpq	%rdi, %r13
	leaq	1(%r13), %r13
	movq	24(%rsp), %r9
	jne	.LBB22_70
	jmp	.LBB22_106
.LBB22_78:
	movq	%r11, 384(%rsp)
	addq	%r8, %r15
	movq	312(%rsp), %rax
	leaq	(%rax,%r13), %r8
	movq	%r15, (%rsp)
	leaq	136(%rsp), %rcx
	movq	240(%rsp), %rdi
	movq	112(%rsp), %rsi
	movq	232(%rsp), %rdx
	movq	16(%rsp), %r9
	vmovdqu	%ymm6, 560(%rsp)
	vzeroupper
	callq	"read_in_block::draw"
	vmovups	560(%rsp), %ymm6
	movq	16(%rsp), %r8
	movq	%rax, %rcx
	subq	%r8, %rcx
	jbe	.LBB22_104
	cmpq	$4, %rcx
	jae	.LBB22_81
	movq	%r8, %rdx
	movq	88(%rsp), %r11
	movq	272(%rsp), %rbx
	jmp	.LBB22_95
.LBB22_81:
	movq	88(%rsp), %r11
	leaq	(%r11,%r8,4), %rdx
	movq	392(%rsp), %rsi
	movq	344(%rsp), %r9
	leaq	(%rsi,%r9,2), %rsi
	subq	384(%rsp), %rsi
	movq	112(%rsp), %rdi
	leaq	(%rdi,%rbx,2), %rdi
	addq	%rsi, %rdi
	leaq	(%rdi,%rax,2), %rsi
	cmpq	%rsi, %rdx
	jae	.LBB22_84
	leaq	(%r11,%rax,4), %rdx
	movq	48(%rsp), %rsi
	leaq	(%rsi,%rbx,2), %rsi
	addq	32(%rsp), %rsi
	leaq	(%rsi,%r9,2), %rsi
	addq	$4, %rsi
	cmpq	%rdx, %rsi
	jae	.LBB22_84
	movq	%r8, %rdx
	movq	272(%rsp), %rbx
	jmp	.LBB22_95
.LBB22_84:
	cmpq	$32, %rcx
	jae	.LBB22_86
	xorl	%esi, %esi
	movq	272(%rsp), %rbx
	jmp	.LBB22_90
.LBB22_86:
	movq	%rcx, %rsi
	andq	$-32, %rsi
	movq	368(%rsp), %rdx
	leaq	(%rdx,%r8,4), %rdx
	xorl	%edi, %edi
	.p2align	4
.LBB22_87:
	vpmovzxwd	(%r14,%rdi,2), %ymm1
	vpmovzxwd	16(%r14,%rdi,2), %ymm2
	vpmovzxwd	32(%r14,%rdi,2), %ymm3
	vpbroadcastq	56(%r14,%rdi,2), %xmm0
	vshufps	$136, %ymm6, %ymm6, %ymm4
	vpermpd	$216, %ymm4, %ymm4
	vorps	%ymm1, %ymm4, %ymm1
	vorps	%ymm2, %ymm4, %ymm2
	vpmovzxwd	48(%r14,%rdi,2), %ymm5
	vorps	%ymm3, %ymm4, %ymm3
	vorps	%ymm5, %ymm4, %ymm4
	vmovups	%ymm1, -96(%rdx,%rdi,4)
	vmovups	%ymm2, -64(%rdx,%rdi,4)
	vmovups	%ymm3, -32(%rdx,%rdi,4)
	vmovups	%ymm4, (%rdx,%rdi,4)
	addq	$32, %rdi
	cmpq	%rdi, %rsi
	jne	.LBB22_87
	cmpq	%rsi, %rcx
	je	.LBB22_93
	testb	$28, %cl
	movq	272(%rsp), %rbx
	je	.LBB22_94
.LBB22_90:
	movq	%rcx, %rdi
	andq	$-4, %rdi
	leaq	(%r8,%rdi), %rdx
	addq	%rsi, %r13
	movq	%r8, %r10
	movq	216(%rsp), %r8
	leaq	(%r8,%r13,2), %r8
	movq	%rdi, %r9
	subq	%rsi, %r9
	addq	%rsi, %r10
	leaq	(%r11,%r10,4), %rsi
	xorl	%r10d, %r10d
	.p2align	4
.LBB22_91:
	vmovq	(%r8,%r10,2), %xmm0
	vpmovzxwd	%xmm0, %xmm1
	vbroadcastf128	.LCPI22_10(%rip), %ymm2
	vpermps	%ymm6, %ymm2, %ymm2
	vorps	%xmm1, %xmm2, %xmm1
	vmovups	%xmm1, (%rsi,%r10,4)
	addq	$4, %r10
	cmpq	%r10, %r9
	jne	.LBB22_91
	cmpq	%rdi, %rcx
	jne	.LBB22_95
.LBB22_93:
	vpmovzxwq	%xmm0, %ymm0
	vextracti128	$1, %ymm0, %xmm0
	vpextrq	$1, %xmm0, 24(%rsp)
	jmp	.LBB22_103
.LBB22_94:
	addq	%rsi, %r8
	movq	%r8, %rdx
.LBB22_95:
	movl	%eax, %esi
	subl	%edx, %esi
	andl	$3, %esi
	je	.LBB22_99
	leaq	(%r11,%rdx,4), %rdi
	addq	%rdx, %rbp
	movq	216(%rsp), %rcx
	leaq	(%rcx,%rbp,2), %r8
	xorl	%ecx, %ecx
	.p2align	4
.LBB22_97:
	movzwl	(%r8,%rcx,2), %r10d
	movl	%ebx, %r9d
	orl	%r10d, %r9d
	movl	%r9d, (%rdi,%rcx,4)
	incq	%rcx
	cmpq	%rcx, %rsi
	jne	.LBB22_97
	movq	%r10, 24(%rsp)
	addq	%rdx, %rcx
	subq	%rax, %rdx
	cmpq	$-4, %rdx
	jbe	.LBB22_100
	jmp	.LBB22_103
.LBB22_99:
	movq	%rdx, %rcx
	subq	%rax, %rdx
	cmpq	$-4, %rdx
	ja	.LBB22_103
.LBB22_100:
	movq	%rax, %rdx
	subq	%rcx, %rdx
	movq	416(%rsp), %rsi
	leaq	(%rsi,%rcx,4), %rsi
	movq	344(%rsp), %rdi
	addq	%rcx, %rdi
	movq	80(%rsp), %rcx
	leaq	(%rcx,%rdi,2), %rcx
	xorl	%edi, %edi
	.p2align	4
.LBB22_101:
	movzwl	-4(%rcx,%rdi,2), %r8d
	orl	%ebx, %r8d
	movl	%r8d, -12(%rsi,%rdi,4)
	movzwl	-2(%rcx,%rdi,2), %r8d
	orl	%ebx, %r8d
	movl	%r8d, -8(%rsi,%rdi,4)
	movzwl	(%rcx,%rdi,2), %r8d
	orl	%ebx, %r8d
	movl	%r8d, -4(%rsi,%rdi,4)
	movzwl	2(%rcx,%rdi,2), %r9d
	movl	%ebx, %r8d
	orl	%r9d, %r8d
	movl	%r8d, (%rsi,%rdi,4)
	addq	$4, %rdi
	cmpq	%rdi, %rdx
	jne	.LBB22_101
	movq	%r9, 24(%rsp)
.LBB22_103:
	incq	24(%rsp)
.LBB22_104:
	movq	%rax, %r8
	movq	%r12, %rdx
	cmpq	%r15, %rax
	movq	656(%rsp), %r13
	movq	64(%rsp), %r14
	movq	288(%rsp), %r15
	movq	72(%rsp), %rdi
	movq	400(%rsp), %rbx
	jae	.LBB22_67
	movl	$1, %edx
	movq	%rax, %r8
	movq	24(%rsp), %rcx
	movq	%rcx, %rdi
	testb	$1, %dl
	je	.LBB22_181
	jmp	.LBB22_215
.LBB22_106:
	xorl	%edx, %edx
	movq	656(%rsp), %r13
	movq	64(%rsp), %r14
	movq	%rcx, %rdi
	testb	$1, %dl
	je	.LBB22_181
	jmp	.LBB22_215
.LBB22_107:
	xorl	%ecx, %ecx
.LBB22_108:
	movq	%r15, %rbp
	shrq	$6, %rbp
	movq	%rbp, %rdx
	subq	%rsi, %rdx
	jne	.LBB22_110
	xorl	%r9d, %r9d
	jmp	.LBB22_133
.LBB22_110:
	cmpq	$4, %rdx
	jae	.LBB22_112
	xorl	%r9d, %r9d
	xorl	%edi, %edi
	jmp	.LBB22_131
.LBB22_112:
	cmpq	$16, %rdx
	jae	.LBB22_124
	xorl	%edi, %edi
	xorl	%r9d, %r9d
	jmp	.LBB22_128
.LBB22_114:
	movq	%rcx, %rsi
	andq	$-32, %rsi
	leal	(%rdx,%rsi), %edi
	vmovd	%edx, %xmm0
	vpbroadcastd	%xmm0, %ymm0
	vpaddd	.LCPI22_0(%rip), %ymm0, %ymm0
	movq	%r8, %r9
	movq	368(%rsp), %r8
	leaq	(%r8,%r9,4), %r8
	xorl	%r9d, %r9d
	.p2align	4
.LBB22_115:
	vpbroadcastd	.LCPI22_1(%rip), %ymm1
	vpaddd	%ymm1, %ymm0, %ymm1
	vpbroadcastd	.LCPI22_2(%rip), %ymm2
	vpaddd	%ymm2, %ymm0, %ymm2
	vpbroadcastd	.LCPI22_3(%rip), %ymm3
	vpaddd	%ymm3, %ymm0, %ymm3
	vmovdqu	%ymm0, -96(%r8,%r9,4)
	vmovdqu	%ymm1, -64(%r8,%r9,4)
	vmovdqu	%ymm2, -32(%r8,%r9,4)
	vmovdqu	%ymm3, (%r8,%r9,4)
	addq	$32, %r9
	vpbroadcastd	.LCPI22_4(%rip), %ymm1
	vpaddd	%ymm1, %ymm0, %ymm0
	cmpq	%r9, %rsi
	jne	.LBB22_115
	cmpq	%rsi, %rcx
	je	.LBB22_123
	testb	$28, %cl
	je	.LBB22_213
.LBB22_118:
	movq	%rcx, %r8
	andq	$-4, %r8
	addl	%r8d, %edx
	vmovd	%edi, %xmm0
	vpbroadcastd	%xmm0, %xmm0
	vpaddd	.LCPI22_5(%rip), %xmm0, %xmm0
	movq	88(%rsp), %rdi
	leaq	(%rdi,%r15,4), %rdi
	addq	%r8, %r15
	.p2align	4
.LBB22_119:
	vmovdqu	%xmm0, (%rdi,%rsi,4)
	addq	$4, %rsi
	vpbroadcastd	.LCPI22_6(%rip), %xmm1
	vpaddd	%xmm1, %xmm0, %xmm0
	cmpq	%rsi, %r8
	jne	.LBB22_119
	cmpq	%r8, %rcx
	movq	%r15, %r8
	je	.LBB22_123
.LBB22_121:
	movl	%edx, %edx
	movq	%rax, %rsi
	subq	%r8, %rsi
	movq	88(%rsp), %rdi
	leaq	(%rdi,%r8,4), %rdi
	xorl	%r8d, %r8d
	.p2align	4
.LBB22_122:
	leal	(%rdx,%r8), %r9d
	movl	%r9d, (%rdi,%r8,4)
	incq	%r8
	cmpq	%r8, %rsi
	jne	.LBB22_122
.LBB22_123:
	addq	24(%rsp), %rcx
	xorl	%esi, %esi
	cmpq	$65536, %rcx
	setb	%sil
	shll	$8, %esi
	xorl	%edx, %edx
	xorl	%edi, %edi
	cmpq	%rbx, %rax
	setb	%dil
	cmovaeq	%rsi, %rdx
	orq	%rdi, %rdx
	movq	%rax, %r8
	movq	%rcx, %rdi
	testb	$1, %dl
	je	.LBB22_181
	jmp	.LBB22_215
.LBB22_124:
	movq	%rdx, %rdi
	andq	$-16, %rdi
	movq	32(%rsp), %r8
	leaq	(%r8,%rsi,8), %r8
	addq	360(%rsp), %r8
	vpxor	%xmm0, %xmm0, %xmm0
	xorl	%r9d, %r9d
	vpxor	%xmm1, %xmm1, %xmm1
	vpxor	%xmm2, %xmm2, %xmm2
	vpxor	%xmm3, %xmm3, %xmm3
	vpxor	%xmm4, %xmm4, %xmm4
	.p2align	4
.LBB22_125:
	vmovdqu	-96(%r8,%r9,8), %ymm5
	vmovdqu	-64(%r8,%r9,8), %ymm6
	vmovdqu	-32(%r8,%r9,8), %ymm7
	vmovdqu	(%r8,%r9,8), %ymm8
	vpbroadcastd	.LCPI22_11(%rip), %ymm9
	vpand	%ymm5, %ymm9, %ymm10
	vbroadcasti128	.LCPI22_12(%rip), %ymm11
	vpshufb	%ymm10, %ymm11, %ymm10
	vpsrlw	$4, %ymm5, %ymm5
	vpand	%ymm5, %ymm9, %ymm5
	vpshufb	%ymm5, %ymm11, %ymm5
	vpaddb	%ymm5, %ymm10, %ymm5
	vpsadbw	%ymm0, %ymm5, %ymm5
	vpaddq	%ymm1, %ymm5, %ymm1
	vpand	%ymm6, %ymm9, %ymm5
	vpshufb	%ymm5, %ymm11, %ymm5
	vpsrlw	$4, %ymm6, %ymm6
	vpand	%ymm6, %ymm9, %ymm6
	vpshufb	%ymm6, %ymm11, %ymm6
	vpaddb	%ymm5, %ymm6, %ymm5
	vpsadbw	%ymm0, %ymm5, %ymm5
	vpaddq	%ymm2, %ymm5, %ymm2
	vpand	%ymm7, %ymm9, %ymm5
	vpshufb	%ymm5, %ymm11, %ymm5
	vpsrlw	$4, %ymm7, %ymm6
	vpand	%ymm6, %ymm9, %ymm6
	vpshufb	%ymm6, %ymm11, %ymm6
	vpaddb	%ymm5, %ymm6, %ymm5
	vpsadbw	%ymm0, %ymm5, %ymm5
	vpaddq	%ymm3, %ymm5, %ymm3
	vpand	%ymm9, %ymm8, %ymm5
	vpshufb	%ymm5, %ymm11, %ymm5
	vpsrlw	$4, %ymm8, %ymm6
	vpand	%ymm6, %ymm9, %ymm6
	vpshufb	%ymm6, %ymm11, %ymm6
	vpaddb	%ymm5, %ymm6, %ymm5
	vpsadbw	%ymm0, %ymm5, %ymm5
	vpaddq	%ymm4, %ymm5, %ymm4
	addq	$16, %r9
	cmpq	%r9, %rdi
	jne	.LBB22_125
	vpaddq	%ymm1, %ymm2, %ymm0
	vpaddq	%ymm0, %ymm3, %ymm0
	vpaddq	%ymm0, %ymm4, %ymm0
	vextracti128	$1, %ymm0, %xmm1
	vpaddq	%xmm1, %xmm0, %xmm0
	vpshufd	$238, %xmm0, %xmm1
	vpaddq	%xmm1, %xmm0, %xmm0
	vmovq	%xmm0, %r9
	cmpq	%rdi, %rdx
	je	.LBB22_133
	testb	$12, %dl
	je	.LBB22_131
.LBB22_128:
	movq	%rdi, %r10
	movq	%rdx, %rdi
	andq	$-4, %rdi
	vmovq	%r9, %xmm0
	movq	%rdi, %r8
	subq	%r10, %r8
	addq	%rsi, %r10
	movq	32(%rsp), %r9
	leaq	(%r9,%r10,8), %r9
	addq	280(%rsp), %r9
	xorl	%r10d, %r10d
	.p2align	4
.LBB22_129:
	vmovdqu	(%r9,%r10,8), %ymm1
	vpbroadcastd	.LCPI22_11(%rip), %ymm2
	vpand	%ymm2, %ymm1, %ymm3
	vbroadcasti128	.LCPI22_12(%rip), %ymm4
	vpshufb	%ymm3, %ymm4, %ymm3
	vpsrlw	$4, %ymm1, %ymm1
	vpand	%ymm2, %ymm1, %ymm1
	vpshufb	%ymm1, %ymm4, %ymm1
	vpaddb	%ymm3, %ymm1, %ymm1
	vpxor	%xmm2, %xmm2, %xmm2
	vpsadbw	%ymm2, %ymm1, %ymm1
	vpaddq	%ymm0, %ymm1, %ymm0
	addq	$4, %r10
	cmpq	%r10, %r8
	jne	.LBB22_129
	vextracti128	$1, %ymm0, %xmm1
	vpaddq	%xmm1, %xmm0, %xmm0
	vpshufd	$238, %xmm0, %xmm1
	vpaddq	%xmm1, %xmm0, %xmm0
	vmovq	%xmm0, %r9
	cmpq	%rdi, %rdx
	movq	224(%rsp), %r10
	je	.LBB22_133
.LBB22_131:
	subq	%rdi, %rdx
	addq	%rdi, %rsi
	movq	32(%rsp), %rdi
	leaq	(%rdi,%rsi,8), %rsi
	addq	280(%rsp), %rsi
	xorl	%edi, %edi
	.p2align	4
.LBB22_132:
	xorl	%r8d, %r8d
	popcntq	(%rsi,%rdi,8), %r8
	addq	%r8, %r9
	incq	%rdi
	cmpq	%rdi, %rdx
	jne	.LBB22_132
.LBB22_133:
	movq	48(%rsp), %rdx
	movq	80(%rsp), %rsi
	addq	%rsi, %rdx
	movl	%r15d, %ebx
	andl	$63, %ebx
	bzhiq	%rbx, (%rdx,%rbp,8), %rdx
	addq	%rcx, %r9
	xorl	%r8d, %r8d
	popcntq	%rdx, %r8
	addq	%r9, %r8
	cmpq	72(%rsp), %r8
	jbe	.LBB22_142
.LBB22_134:
	movq	16(%rsp), %r14
.LBB22_135:
	movq	56(%rsp), %rcx
	testq	%rcx, %rcx
	shrxq	%rcx, %r15, %rax
	movq	296(%rsp), %rdx
	shlxq	%rdx, %rax, %rsi
	cmoveq	%rcx, %rsi
	movq	32(%rsp), %rcx
	leaq	4(%rcx), %rdx
	je	.LBB22_137
	movq	48(%rsp), %rcx
	addq	%rdx, %rcx
	movbew	(%rcx,%rax,2), %ax
	movzwl	%ax, %eax
	jmp	.LBB22_138
.LBB22_137:
	xorl	%eax, %eax
.LBB22_138:
	movq	%r15, %rcx
	shrq	$6, %rcx
	movq	%rcx, %rdx
	subq	%rsi, %rdx
	jne	.LBB22_140
	xorl	%r8d, %r8d
	jmp	.LBB22_162
.LBB22_140:
	cmpq	$4, %rdx
	jae	.LBB22_151
	xorl	%r8d, %r8d
	xorl	%edi, %edi
	jmp	.LBB22_160
.LBB22_142:
	movq	%r10, %rcx
	subq	%r8, %rcx
	cmpq	%rax, %rcx
	cmovaeq	%rax, %rcx
	movq	48(%rsp), %rax
	movq	32(%rsp), %rdx
	addq	$4, %rdx
	addq	%rax, %rdx
	movq	376(%rsp), %rax
	addq	%rdx, %rax
	cmpq	$0, 56(%rsp)
	je	.LBB22_188
	shrxq	%rbx, (%rax,%rbp,8), %rsi
	xorl	%edi, %edi
	popcntq	%rsi, %rdi
	xorl	%r11d, %r11d
	cmpq	%rdi, %rcx
	jb	.LBB22_192
	movq	%rbp, %rsi
	jmp	.LBB22_147
.LBB22_145:
	cmpl	$65472, %edi
	je	.LBB22_191
.LBB22_146:
	movl	%r15d, %esi
	shrl	$6, %esi
	movl	%r15d, %edi
	shrl	$3, %edi
	popcntq	(%rax,%rdi), %rdi
	movq	%rcx, %r9
	subq	%r11, %r9
	cmpq	%rdi, %r9
	jb	.LBB22_192
.LBB22_147:
	movq	%r11, %r9
	movq	%rdi, %r11
	addq	%r9, %r11
	movl	%r15d, %edi
	andl	$65472, %edi
	leaq	64(%rdi), %r15
	incq	%rsi
	cmpq	$1024, %rsi
	je	.LBB22_145
	movq	%rsi, %r9
	shlq	$6, %r9
	movq	56(%rsp), %r10
	shrxq	%r10, %r9, %r9
	movq	296(%rsp), %r10
	shlxq	%r10, %r9, %r10
	cmpq	%rsi, %r10
	jne	.LBB22_145
	cmpl	$65472, %edi
	je	.LBB22_192
	leaq	(%r11,%r8), %rsi
	movbew	(%rdx,%r9,2), %di
	movzwl	%di, %edi
	cmpq	%rdi, %rsi
	je	.LBB22_146
	jmp	.LBB22_192
.LBB22_151:
	cmpq	$16, %rdx
	jae	.LBB22_153
	xorl	%edi, %edi
	xorl	%r8d, %r8d
	jmp	.LBB22_157
.LBB22_153:
	movq	%rdx, %rdi
	andq	$-16, %rdi
	movq	32(%rsp), %r8
	leaq	(%r8,%rsi,8), %r8
	addq	360(%rsp), %r8
	vpxor	%xmm0, %xmm0, %xmm0
	xorl	%r9d, %r9d
	vpxor	%xmm1, %xmm1, %xmm1
	vpxor	%xmm2, %xmm2, %xmm2
	vpxor	%xmm3, %xmm3, %xmm3
	vpxor	%xmm4, %xmm4, %xmm4
	.p2align	4
.LBB22_154:
	vmovdqu	-96(%r8,%r9,8), %ymm5
	vmovdqu	-64(%r8,%r9,8), %ymm6
	vmovdqu	-32(%r8,%r9,8), %ymm7
	vmovdqu	(%r8,%r9,8), %ymm8
	vpbroadcastd	.LCPI22_11(%rip), %ymm9
	vpand	%ymm5, %ymm9, %ymm10
	vbroadcasti128	.LCPI22_12(%rip), %ymm11
	vpshufb	%ymm10, %ymm11, %ymm10
	vpsrlw	$4, %ymm5, %ymm5
	vpand	%ymm5, %ymm9, %ymm5
	vpshufb	%ymm5, %ymm11, %ymm5
	vpaddb	%ymm5, %ymm10, %ymm5
	vpsadbw	%ymm0, %ymm5, %ymm5
	vpaddq	%ymm1, %ymm5, %ymm1
	vpand	%ymm6, %ymm9, %ymm5
	vpshufb	%ymm5, %ymm11, %ymm5
	vpsrlw	$4, %ymm6, %ymm6
	vpand	%ymm6, %ymm9, %ymm6
	vpshufb	%ymm6, %ymm11, %ymm6
	vpaddb	%ymm5, %ymm6, %ymm5
	vpsadbw	%ymm0, %ymm5, %ymm5
	vpaddq	%ymm2, %ymm5, %ymm2
	vpand	%ymm7, %ymm9, %ymm5
	vpshufb	%ymm5, %ymm11, %ymm5
	vpsrlw	$4, %ymm7, %ymm6
	vpand	%ymm6, %ymm9, %ymm6
	vpshufb	%ymm6, %ymm11, %ymm6
	vpaddb	%ymm5, %ymm6, %ymm5
	vpsadbw	%ymm0, %ymm5, %ymm5
	vpaddq	%ymm3, %ymm5, %ymm3
	vpand	%ymm9, %ymm8, %ymm5
	vpshufb	%ymm5, %ymm11, %ymm5
	vpsrlw	$4, %ymm8, %ymm6
	vpand	%ymm6, %ymm9, %ymm6
	vpshufb	%ymm6, %ymm11, %ymm6
	vpaddb	%ymm5, %ymm6, %ymm5
	vpsadbw	%ymm0, %ymm5, %ymm5
	vpaddq	%ymm4, %ymm5, %ymm4
	addq	$16, %r9
	cmpq	%r9, %rdi
	jne	.LBB22_154
	vpaddq	%ymm1, %ymm2, %ymm0
	vpaddq	%ymm0, %ymm3, %ymm0
	vpaddq	%ymm0, %ymm4, %ymm0
	vextracti128	$1, %ymm0, %xmm1
	vpaddq	%xmm1, %xmm0, %xmm0
	vpshufd	$238, %xmm0, %xmm1
	vpaddq	%xmm1, %xmm0, %xmm0
	vmovq	%xmm0, %r8
	cmpq	%rdi, %rdx
	je	.LBB22_162
	testb	$12, %dl
	je	.LBB22_160
.LBB22_157:
	movq	%rdi, %r9
	movq	%rdx, %rdi
	andq	$-4, %rdi
	vmovq	%r8, %xmm0
	movq	%rdi, %r8
	subq	%r9, %r8
	addq	%rsi, %r9
	movq	32(%rsp), %r10
	leaq	(%r10,%r9,8), %r9
	addq	280(%rsp), %r9
	xorl	%r10d, %r10d
	.p2align	4
.LBB22_158:
	vmovdqu	(%r9,%r10,8), %ymm1
	vpbroadcastd	.LCPI22_11(%rip), %ymm2
	vpand	%ymm2, %ymm1, %ymm3
	vbroadcasti128	.LCPI22_12(%rip), %ymm4
	vpshufb	%ymm3, %ymm4, %ymm3
	vpsrlw	$4, %ymm1, %ymm1
	vpand	%ymm2, %ymm1, %ymm1
	vpshufb	%ymm1, %ymm4, %ymm1
	vpaddb	%ymm3, %ymm1, %ymm1
	vpxor	%xmm2, %xmm2, %xmm2
	vpsadbw	%ymm2, %ymm1, %ymm1
	vpaddq	%ymm0, %ymm1, %ymm0
	addq	$4, %r10
	cmpq	%r10, %r8
	jne	.LBB22_158
	vextracti128	$1, %ymm0, %xmm1
	vpaddq	%xmm1, %xmm0, %xmm0
	vpshufd	$238, %xmm0, %xmm1
	vpaddq	%xmm1, %xmm0, %xmm0
	vmovq	%xmm0, %r8
	cmpq	%rdi, %rdx
	movq	224(%rsp), %r10
	je	.LBB22_162
.LBB22_160:
	subq	%rdi, %rdx
	addq	%rdi, %rsi
	movq	32(%rsp), %rdi
	leaq	(%rdi,%rsi,8), %rsi
	addq	280(%rsp), %rsi
	xorl	%edi, %edi
	.p2align	4
.LBB22_161:
	xorl	%r9d, %r9d
	popcntq	(%rsi,%rdi,8), %r9
	addq	%r9, %r8
	incq	%rdi
	cmpq	%rdi, %rdx
	jne	.LBB22_161
.LBB22_162:
	movq	%r10, %r9
	addq	%rax, %r8
	movq	48(%rsp), %rdx
	movq	80(%rsp), %rsi
	addq	%rdx, %rsi
	movl	%r15d, %eax
	andb	$63, %al
	movq	%rsi, 80(%rsp)
	bzhiq	%rax, (%rsi,%rcx,8), %rax
	xorl	%r10d, %r10d
	popcntq	%rax, %r10
	addq	%r8, %r10
	movq	328(%rsp), %rbx
	shlq	$16, %rbx
	addq	%rdx, 288(%rsp)
	movq	%r14, %r8
	movq	72(%rsp), %rsi
	movl	$65536, %edi
	jmp	.LBB22_164
	.p2align	4
.LBB22_163:
	andl	$65472, %r11d
	xorl	%edx, %edx
	movq	%rax, %r10
	cmpq	$65472, %r11
	leaq	64(%r11), %r15
	je	.LBB22_180
.LBB22_164:
	movq	%r15, %rbp
	movq	%r8, %r15
	movq	%rbp, %r12
	shrq	$6, %r12
	movq	80(%rsp), %rax
	shrxq	%rbp, (%rax,%r12,8), %r14
	movzbl	15(%rsp), %eax
	movb	%al, 136(%rsp)
	movl	40(%rsp), %eax
	movl	43(%rsp), %ecx
	leaq	137(%rsp), %rdx
	movl	%ecx, 3(%rdx)
	movl	%eax, (%rdx)
	xorl	%eax, %eax
	popcntq	%r14, %rax
	subq	%r8, %r13
	cmpq	%rax, %r13
	cmovaeq	%rax, %r13
	movq	104(%rsp), %rax
	movq	%rax, 144(%rsp)
	movq	56(%rsp), %rax
	movq	%rax, 152(%rsp)
	movq	128(%rsp), %rax
	movq	%rax, 160(%rsp)
	movq	64(%rsp), %rax
	movq	%rax, 168(%rsp)
	movq	96(%rsp), %rax
	movq	%rax, 176(%rsp)
	movq	256(%rsp), %rax
	movq	%rax, 184(%rsp)
	movq	120(%rsp), %rax
	movq	%rax, 192(%rsp)
	movq	248(%rsp), %rax
	movq	%rax, 200(%rsp)
	movq	264(%rsp), %rax
	movq	%rax, 208(%rsp)
	cmpq	%rsi, %r10
	jbe	.LBB22_166
	movq	%rbp, %r11
	movq	%rbp, %rcx
	movq	%r15, %r8
	testq	%r13, %r13
	movq	656(%rsp), %r13
	movq	64(%rsp), %r14
	je	.LBB22_172
	jmp	.LBB22_214
	.p2align	4
.LBB22_166:
	subq	%r10, %r9
	cmpq	%r13, %r9
	cmovaeq	%r13, %r9
	addq	%r15, %r9
	movq	312(%rsp), %rcx
	movq	%r10, 24(%rsp)
	leaq	(%r10,%rcx), %r8
	movq	%r9, (%rsp)
	leaq	136(%rsp), %rcx
	movq	240(%rsp), %rdi
	movq	112(%rsp), %rsi
	movq	232(%rsp), %rdx
	movq	%r15, %r9
	vzeroupper
	callq	"read_in_block::draw"
	movq	%rax, %r8
	movq	%r15, %rdx
	movq	%rbp, %r11
	movq	%rbp, %rcx
	subq	%rax, %rdx
	movq	88(%rsp), %r9
	jae	.LBB22_171
	movq	%r8, %r10
	movl	%r8d, %esi
	subl	%r15d, %esi
	movq	%r11, %rcx
	movq	%r15, %rax
	andl	$3, %esi
	je	.LBB22_169
	.p2align	4
.LBB22_168:
	xorl	%edi, %edi
	tzcntq	%r14, %rdi
	leaq	(%rdi,%rcx), %r8
	addl	%ebx, %r8d
	movl	%r8d, (%r9,%rax,4)
	shrxq	%rdi, %r14, %r14
	shrq	%r14
	addq	%rdi, %rcx
	incq	%rcx
	incq	%rax
	decq	%rsi
	jne	.LBB22_168
.LBB22_169:
	cmpq	$-4, %rdx
	movq	%r10, %r8
	ja	.LBB22_171
	.p2align	4
.LBB22_170:
	xorl	%edx, %edx
	tzcntq	%r14, %rdx
	addq	%rdx, %rcx
	leal	(%rcx,%rbx), %esi
	movl	%esi, (%r9,%rax,4)
	shrxq	%rdx, %r14, %rdx
	shrq	%rdx
	xorl	%esi, %esi
	tzcntq	%rdx, %rsi
	leaq	(%rsi,%rcx), %rdi
	incq	%rdi
	addq	%rsi, %rcx
	addl	%ebx, %edi
	movl	%edi, 4(%r9,%rax,4)
	shrxq	%rsi, %rdx, %rdx
	shrq	%rdx
	xorl	%esi, %esi
	tzcntq	%rdx, %rsi
	leaq	(%rsi,%rcx), %rdi
	incq	%rdi
	addq	%rsi, %rcx
	addq	$2, %rcx
	addl	%ebx, %ecx
	movl	%ecx, 8(%r9,%rax,4)
	shrxq	%rsi, %rdx, %rcx
	shrq	%rcx
	xorl	%edx, %edx
	tzcntq	%rcx, %rdx
	leaq	(%rdx,%rdi), %rsi
	incq	%rsi
	addl	%ebx, %esi
	incl	%esi
	movl	%esi, 12(%r9,%rax,4)
	shrxq	%rdx, %rcx, %r14
	shrq	%r14
	leaq	(%rdx,%rdi), %rcx
	addq	$3, %rcx
	addq	$4, %rax
	cmpq	%rax, %r8
	jne	.LBB22_170
.LBB22_171:
	addq	%r15, %r13
	cmpq	%r13, %r8
	movq	656(%rsp), %r13
	movq	64(%rsp), %r14
	movq	72(%rsp), %rsi
	movq	224(%rsp), %r9
	movl	$65536, %edi
	movq	24(%rsp), %r10
	jb	.LBB22_215
.LBB22_172:
	cmpq	%r13, %r8
	je	.LBB22_177
	movq	%r8, %rax
	subq	%r15, %rax
	addq	%r10, %rax
	incq	%r12
	cmpq	$1024, %r12
	je	.LBB22_163
	movq	56(%rsp), %rdx
	testq	%rdx, %rdx
	je	.LBB22_163
	movq	%r12, %rcx
	shlq	$6, %rcx
	shrxq	%rdx, %rcx, %rcx
	movq	296(%rsp), %rdx
	shlxq	%rdx, %rcx, %rdx
	cmpq	%r12, %rdx
	jne	.LBB22_163
	movq	288(%rsp), %rax
	movbew	(%rax,%rcx,2), %ax
	movzwl	%ax, %eax
	jmp	.LBB22_163
.LBB22_177:
	cmpq	$65536, %rcx
	je	.LBB22_222
	movq	%rcx, %rax
	shrq	$6, %rax
	movq	80(%rsp), %rdx
	shrxq	%rcx, (%rdx,%rax,8), %rax
	xorl	%edx, %edx
	testq	%rax, %rax
	setne	%dl
.LBB22_179:
	shll	$8, %edx
	movq	%r13, %r8
	movq	%rcx, %rdi
	testb	$1, %dl
	je	.LBB22_181
	jmp	.LBB22_215
.LBB22_180:
	movq	64(%rsp), %r14
	jmp	.LBB22_181
.LBB22_188:
	xorl	%r11d, %r11d
	.p2align	4
.LBB22_189:
	movl	%r15d, %edx
	shrl	$3, %edx
	andl	$8184, %edx
	shrxq	%r15, (%rax,%rdx), %rdx
	popcntq	%rdx, %rdx
	movq	%rcx, %rsi
	subq	%r11, %rsi
	cmpq	%rdx, %rsi
	jb	.LBB22_192
	addq	%rdx, %r11
	andl	$65472, %r15d
	cmpq	$65472, %r15
	leaq	64(%r15), %r15
	jne	.LBB22_189
.LBB22_191:
	movl	$65536, %r15d
.LBB22_192:
	movq	%r15, 24(%rsp)
	movq	16(%rsp), %r15
	addq	%r15, %r11
	addq	312(%rsp), %r8
	movq	%r11, 216(%rsp)
	movq	%r11, (%rsp)
	leaq	136(%rsp), %rcx
	movq	240(%rsp), %rdi
	movq	112(%rsp), %rsi
	movq	232(%rsp), %rdx
	movq	%r15, %r9
	vzeroupper
	callq	"read_in_block::draw"
	cmpq	%r15, %rax
	movq	88(%rsp), %r9
	jbe	.LBB22_199
	movq	%r15, %r10
	movq	$-1, %rcx
	shlxq	%rbx, %rcx, %rdx
	movq	408(%rsp), %rcx
	movq	32(%rsp), %rsi
	addq	$4, %rsi
	addq	%rsi, %rcx
	andq	(%rcx,%rbp,8), %rdx
	movq	%r12, %rcx
	shlq	$16, %rcx
	movl	%eax, %edi
	subl	%r10d, %edi
	leaq	1(%r15), %rsi
	testb	$1, %dil
	je	.LBB22_198
	testq	%rdx, %rdx
	jne	.LBB22_197
	movq	32(%rsp), %rdx
	leaq	(%rdx,%rbp,8), %rdi
	addq	352(%rsp), %rdi
.LBB22_196:
	incq	%rbp
	movq	(%rdi), %rdx
	addq	$8, %rdi
	testq	%rdx, %rdx
	je	.LBB22_196
.LBB22_197:
	movl	%ebp, %edi
	shll	$6, %edi
	xorl	%r8d, %r8d
	tzcntq	%rdx, %r8
	orl	%ecx, %r8d
	addl	%edi, %r8d
	movq	16(%rsp), %rdi
	movl	%r8d, (%r9,%rdi,4)
	blsrq	%rdx, %rdx
	movq	%rsi, %r10
.LBB22_198:
	cmpq	%rsi, %rax
	jne	.LBB22_203
.LBB22_199:
	cmpq	216(%rsp), %rax
	movq	24(%rsp), %r15
	jb	.LBB22_234
	cmpq	$65536, %r15
	jne	.LBB22_202
	xorl	%edx, %edx
	movq	%rax, %r8
	jmp	.LBB22_55
.LBB22_202:
	movq	%rax, %r14
	movq	224(%rsp), %r10
	jmp	.LBB22_135
.LBB22_203:
	movq	352(%rsp), %rsi
	movq	32(%rsp), %rdi
	addq	%rdi, %rsi
	jmp	.LBB22_205
	.p2align	4
.LBB22_204:
	movl	%ebp, %edi
	shll	$6, %edi
	xorl	%r8d, %r8d
	tzcntq	%rdx, %r8
	orl	%ecx, %r8d
	addl	%edi, %r8d
	movl	%r8d, 4(%r9,%r10,4)
	blsrq	%rdx, %rdx
	addq	$2, %r10
	cmpq	%rax, %r10
	je	.LBB22_199
.LBB22_205:
	testq	%rdx, %rdx
	jne	.LBB22_208
	leaq	(%rsi,%rbp,8), %rdi
	.p2align	4
.LBB22_207:
	incq	%rbp
	movq	(%rdi), %rdx
	addq	$8, %rdi
	testq	%rdx, %rdx
	je	.LBB22_207
.LBB22_208:
	movl	%ebp, %edi
	shll	$6, %edi
	xorl	%r8d, %r8d
	tzcntq	%rdx, %r8
	orl	%ecx, %r8d
	addl	%edi, %r8d
	movl	%r8d, (%r9,%r10,4)
	blsrq	%rdx, %rdx
	jne	.LBB22_204
	leaq	(%rsi,%rbp,8), %rdi
	.p2align	4
.LBB22_210:
	incq	%rbp
	movq	(%rdi), %rdx
	addq	$8, %rdi
	testq	%rdx, %rdx
	je	.LBB22_210
	jmp	.LBB22_204
.LBB22_211:
	xorl	%edx, %edx
	movq	%rcx, %rdi
	testb	$1, %dl
	je	.LBB22_181
	jmp	.LBB22_215
.LBB22_212:
	movzwl	(%r15,%rdx,2), %eax
	xorl	%edx, %edx
	movq	24(%rsp), %rcx
	cmpq	%rax, %rcx
	setbe	%dl
	jmp	.LBB22_179
.LBB22_213:
	movq	%r15, %r8
	addl	%esi, %edx
	addq	%rsi, %r8
	jmp	.LBB22_121
.LBB22_214:
	movq	%r15, %r8
	jmp	.LBB22_215
.LBB22_232:
	movq	16(%rsp), %r8
.LBB22_215:
	movb	$13, %al
	xorl	%edx, %edx
	movq	%r8, %r13
.LBB22_216:
	xorl	%esi, %esi
	xorl	%ecx, %ecx
	testq	%r13, %r13
	sete	%cl
	movzbl	%al, %eax
	cmovnel	%esi, %eax
	cmoveq	%rdx, %r13
.LBB22_217:
	movq	488(%rsp), %rdx
	movq	%rcx, (%rdx)
	movzbl	%al, %eax
	movq	%rax, 8(%rdx)
	movq	%r13, 16(%rdx)
	addq	$600, %rsp
	popq	%rbx
	popq	%r12
	popq	%r13
	popq	%r14
	popq	%r15
	popq	%rbp
	vzeroupper
	retq
.LBB22_218:
	movb	$1, %dl
	jmp	.LBB22_224
.LBB22_222:
	movl	$65536, %edi
	xorl	%edx, %edx
	movq	328(%rsp), %r12
.LBB22_223:
	shrl	$8, %edx
	movq	%rdi, %r15
	movq	120(%rsp), %r11
.LBB22_224:
	testq	%r13, %r13
	je	.LBB22_227
	testb	%dl, %dl
	je	.LBB22_227
	xorl	%ecx, %ecx
	xorl	%eax, %eax
	jmp	.LBB22_217
.LBB22_227:
	movzbl	15(%rsp), %eax
	movb	%al, 136(%rsp)
	movl	40(%rsp), %eax
	movl	43(%rsp), %ecx
	movl	%eax, 137(%rsp)
	movl	%ecx, 140(%rsp)
	movq	104(%rsp), %rax
	movq	%rax, 144(%rsp)
	movq	56(%rsp), %rax
	movq	%rax, 152(%rsp)
	movq	128(%rsp), %rax
	movq	%rax, 160(%rsp)
	movq	%r14, 168(%rsp)
	movq	96(%rsp), %rax
	movq	%rax, 176(%rsp)
	movq	256(%rsp), %rax
	movq	%rax, 184(%rsp)
	movq	%r11, 192(%rsp)
	movq	248(%rsp), %rax
	movq	%rax, 200(%rsp)
	movq	264(%rsp), %rax
	movq	%rax, 208(%rsp)
	vpxor	%xmm0, %xmm0, %xmm0
	vmovdqu	%ymm0, 512(%rsp)
	movq	$0, 544(%rsp)
	shlq	$16, %r12
	addq	%r12, %r15
	movb	$1, %al
	cmpq	$2147352576, %r15
	je	.LBB22_231
	leaq	512(%rsp), %rdi
	leaq	136(%rsp), %rcx
	movq	112(%rsp), %rsi
	movq	232(%rsp), %rdx
	movl	%r15d, %r8d
	vzeroupper
	callq	"next::steps_from"
	movzbl	520(%rsp), %eax
	cmpb	$0, 512(%rsp)
	je	.LBB22_230
	movq	528(%rsp), %rdx
	jmp	.LBB22_216
.LBB22_230:
	cmpb	$1, %al
	setne	%al
.LBB22_231:
	xorl	%ecx, %ecx
	jmp	.LBB22_217
.LBB22_234:
	movq	%rax, %r8
	jmp	.LBB22_215
.Lfunc_end22:
	.size	"read_from::read_up_to", .Lfunc_end22-"read_from::read_up_to"

	.section	".text.read_in_block::draw","ax",@progbits
	.p2align	4
	.type	"read_in_block::draw",@function
"read_in_block::draw":
	pushq	%rbp
	pushq	%r15
	pushq	%r14
	pushq	%r13
	pushq	%r12
	pushq	%rbx
	movq	%rdx, %r10
	movq	%rdi, %r11
	movq	56(%rsp), %rbx
	movzbl	(%rcx), %ebp
	movq	8(%rcx), %r15
	movq	24(%rcx), %rdx
	movq	72(%rcx), %rdi
	leaq	(%rdi,%rdx), %rax
	leaq	(%rsi,%rax), %r13
	movq	40(%rcx), %r12
	movq	56(%rcx), %r14
	movq	%r14, -72(%rsp)
	cmpl	$2, %ebp
	movq	%r11, -64(%rsp)
	jae	.LBB23_25
	movabsq	$-9223372036854775808, %rsi
	movq	48(%rcx), %rcx
	movl	%ecx, %eax
	movq	%rcx, %rdx
	shrq	%rdx
	orq	%rsi, %rdx
	notq	%rcx
	shrq	%rcx
	testb	$1, %al
	cmoveq	%rdx, %rcx
	movq	%rbx, %rax
	subq	%r9, %rax
	jbe	.LBB23_158
	testq	%r12, %r12
	je	.LBB23_38
	movq	%r13, %r14
	movl	$64, %r13d
	subq	%r12, %r13
	movq	%rcx, %rsi
	notq	%rsi
	subq	%r8, %r15
	imulq	%r12, %r8
	jmp	.LBB23_6
	.p2align	4
.LBB23_4:
	imulq	%r10, %rdi
	cmpq	%rsi, %rdi
	ja	.LBB23_54
.LBB23_5:
	addq	%rcx, %rdi
	movabsq	$-9223372036854775808, %rax
	xorq	%rax, %rdi
	movq	%rdi, (%r11,%r9,8)
	incq	%r9
	decq	%r15
	addq	%r12, %r8
	cmpq	%r9, %rbx
	je	.LBB23_158
.LBB23_6:
	movq	%r8, %r10
	shrq	$3, %r10
	movl	%r8d, %eax
	andl	$7, %eax
	leaq	(%rax,%r12), %rdx
	cmpq	$64, %r15
	jb	.LBB23_10
	cmpq	$64, %rdx
	ja	.LBB23_10
	movq	(%r14,%r10), %rdi
	testb	%bpl, %bpl
	je	.LBB23_14
	negb	%dl
	shlxq	%rdx, %rdi, %rax
	movq	-72(%rsp), %r10
	shrxq	%r13, %rax, %rdi
	cmpq	$2, %r10
	jae	.LBB23_22
	jmp	.LBB23_4
	.p2align	4
.LBB23_10:
	leaq	7(%rdx), %r11
	shrq	$3, %r11
	addq	%r14, %r10
	cmpq	$8, %r12
	ja	.LBB23_12
	movzbl	(%r10), %ebx
	movzbl	-1(%r10,%r11), %r10d
	movl	$1, %edi
	testb	%bpl, %bpl
	je	.LBB23_19
.LBB23_17:
	subl	%edi, %r11d
	shll	$3, %r11d
	shlxq	%r11, %r10, %rax
	orq	%rbx, %rax
	negb	%dl
	shlxq	%rdx, %rax, %rax
	jmp	.LBB23_20
	.p2align	4
.LBB23_12:
	cmpq	$24, %r12
	ja	.LBB23_15
	movzwl	(%r10), %ebx
	movzwl	-2(%r10,%r11), %r10d
	movl	$2, %edi
	testb	%bpl, %bpl
	jne	.LBB23_17
.LBB23_19:
	bswapq	%rbx
	shlxq	%rax, %rbx, %rdx
	bswapq	%r10
	subl	%edi, %r11d
	shll	$3, %r11d
	subl	%eax, %r11d
	shrxq	%r11, %r10, %rax
	orq	%rdx, %rax
.LBB23_20:
	movq	56(%rsp), %rbx
	movq	-64(%rsp), %r11
	movq	-72(%rsp), %r10
	shrxq	%r13, %rax, %rdi
	cmpq	$2, %r10
	jae	.LBB23_22
	jmp	.LBB23_4
.LBB23_14:
	bswapq	%rdi
	shlxq	%rax, %rdi, %rax
	movq	-72(%rsp), %r10
	shrxq	%r13, %rax, %rdi
	cmpq	$2, %r10
	jb	.LBB23_4
	.p2align	4
.LBB23_22:
	movq	%rdi, %rax
	orq	%r10, %rax
	shrq	$32, %rax
	je	.LBB23_4
	movq	%rsi, %rax
	xorl	%edx, %edx
	divq	%r10
	cmpq	%rax, %rdi
	ja	.LBB23_54
	imulq	%r10, %rdi
	jmp	.LBB23_5
.LBB23_15:
	cmpq	$56, %r12
	ja	.LBB23_18
	movl	(%r10), %ebx
	movl	-4(%r10,%r11), %r10d
	movl	$4, %edi
	testb	%bpl, %bpl
	jne	.LBB23_17
	jmp	.LBB23_19
.LBB23_18:
	movq	(%r10), %rbx
	movq	-8(%r10,%r11), %r10
	movl	$8, %edi
	testb	%bpl, %bpl
	jne	.LBB23_17
	jmp	.LBB23_19
.LBB23_25:
	jne	.LBB23_28
	subq	%rax, %r10
	movq	%rbx, %r12
	subq	%r9, %r12
	jne	.LBB23_36
	movl	%r15d, %eax
	andl	$16383, %eax
	addl	$16383, %eax
	shrl	$14, %eax
	shrq	$14, %r15
	addq	%rax, %r15
	leaq	(%r15,%r15,4), %rax
	leaq	(%rax,%rax,4), %r14
	subq	%r14, %r10
	movq	%r9, %r15
	jmp	.LBB23_120
.LBB23_28:
	movq	%rbx, %rax
	subq	%r9, %rax
	jbe	.LBB23_158
	testq	%r12, %r12
	je	.LBB23_45
	movq	-72(%rsp), %r10
	leaq	(,%r10,8), %rax
	addq	%r13, %rax
	movq	%r8, %rdx
	shrq	$3, %rdx
	imulq	%r12, %rdx
	movl	%r8d, %ecx
	andl	$7, %ecx
	imulq	%r12, %rcx
	shrq	$3, %rcx
	addq	%rdx, %rcx
	movl	%r12d, %esi
	imull	%r8d, %esi
	andl	$7, %esi
	movl	$64, %edx
	subq	%r12, %rdx
	subq	%r8, %r15
	cmpq	$8, %r12
	ja	.LBB23_55
	.p2align	4
.LBB23_31:
	leaq	(%rsi,%r12), %r8
	cmpq	$63, %r15
	jbe	.LBB23_33
	movbeq	(%rax,%rcx), %rdi
	shlxq	%rsi, %rdi, %rsi
	jmp	.LBB23_34
	.p2align	4
.LBB23_33:
	leaq	7(%r8), %rdi
	movq	%rdi, %r10
	shrq	$3, %r10
	leaq	(%rax,%rcx), %r11
	movzbl	(%rax,%rcx), %ebx
	movzbl	-1(%r10,%r11), %r10d
	shlq	$56, %rbx
	shlxq	%rsi, %rbx, %r11
	movq	56(%rsp), %rbx
	shlq	$56, %r10
	andl	$56, %edi
	subl	%esi, %edi
	addb	$56, %dil
	shrxq	%rdi, %r10, %rsi
	movq	-72(%rsp), %r10
	orq	%r11, %rsi
	movq	-64(%rsp), %r11
.LBB23_34:
	shrxq	%rdx, %rsi, %rsi
	cmpq	%rsi, %r10
	jbe	.LBB23_54
	movq	(%r13,%rsi,8), %rsi
	movq	%rsi, (%r11,%r9,8)
	movq	%r8, %rsi
	shrq	$3, %rsi
	addq	%rsi, %rcx
	incq	%r9
	andl	$7, %r8d
	decq	%r15
	movq	%r8, %rsi
	cmpq	%r9, %rbx
	jne	.LBB23_31
	jmp	.LBB23_158
.LBB23_36:
	movq	%r8, %rax
	shrq	$14, %rax
	leaq	(%rax,%rax,4), %rax
	leaq	(%rax,%rax,4), %rcx
	movzbl	24(%r13,%rcx), %edi
	movq	%r8, %rax
	andq	$-16384, %rax
	movq	%r15, %rdx
	subq	%rax, %rdx
	cmpq	$16384, %rdx
	movl	$16384, %esi
	cmovbq	%rdx, %rsi
	movq	%r15, %rax
	shrq	$14, %rax
	andl	$16383, %r15d
	addl	$16383, %r15d
	shrl	$14, %r15d
	addq	%rax, %r15
	leaq	(%r15,%r15,4), %rax
	leaq	(%rax,%rax,4), %r14
	subq	%r14, %r10
	cmpq	$64, %rdi
	ja	.LBB23_37
	movq	(%r13,%rcx), %rax
	testq	%rdi, %rdi
	je	.LBB23_71
	movq	16(%r13,%rcx), %rdx
	movq	%r10, %rcx
	movq	%rdx, -56(%rsp)
	subq	%rdx, %rcx
	jb	.LBB23_37
	movq	%rsi, %rdx
	imulq	%rdi, %rdx
	addq	$7, %rdx
	shrq	$3, %rdx
	cmpq	%rdx, %rcx
	jae	.LBB23_75
.LBB23_37:
	movq	%r9, %r15
.LBB23_120:
	cmpq	%rbx, %r15
	jae	.LBB23_158
	addq	%r13, %r14
	movabsq	$-9223372036854775808, %rsi
	subq	%r9, %r8
	jmp	.LBB23_124
	.p2align	4
.LBB23_122:
	imulq	%rdi, %r9
	cmpq	%rax, %r9
	ja	.LBB23_141
.LBB23_123:
	xorq	%rsi, %rcx
	addq	%r9, %rcx
	xorq	%rsi, %rcx
	movq	%rcx, (%r11,%r15,8)
	incq	%r15
	cmpq	%r15, %rbx
	je	.LBB23_158
.LBB23_124:
	leaq	(%r8,%r15), %rdx
	movq	%rdx, %rax
	shrq	$14, %rax
	leaq	(%rax,%rax,4), %rax
	leaq	(%rax,%rax,4), %rdi
	movzbl	24(%r13,%rdi), %eax
	cmpq	$64, %rax
	ja	.LBB23_141
	movq	(%r13,%rdi), %rcx
	testq	%rax, %rax
	je	.LBB23_130
	movq	16(%r13,%rdi), %r11
	movq	%r10, %rdi
	subq	%r11, %rdi
	jb	.LBB23_141
	andl	$16383, %edx
	leal	1(%rdx), %r9d
	movl	%eax, %ebx
	imull	%r9d, %ebx
	addl	$7, %ebx
	shrl	$3, %ebx
	cmpq	%rbx, %rdi
	jb	.LBB23_141
	addq	%r14, %r11
	imulq	%rax, %rdx
	movl	%edx, %ebx
	shrl	$3, %ebx
	leal	(%rax,%rdx), %edi
	addl	$7, %edi
	shrl	$3, %edi
	movq	%rdi, %r9
	subq	%rbx, %r9
	andl	$7, %edx
	cmpb	$8, %al
	ja	.LBB23_131
	movzbl	(%r11,%rbx), %ebx
	movzbl	-1(%r11,%rdi), %r11d
	movq	$-1, %rdi
	jmp	.LBB23_136
	.p2align	4
.LBB23_130:
	xorl	%r9d, %r9d
	jmp	.LBB23_137
	.p2align	4
.LBB23_131:
	cmpb	$24, %al
	ja	.LBB23_133
	movzwl	(%r11,%rbx), %ebx
	movzwl	-2(%r11,%rdi), %r11d
	movq	$-2, %rdi
	jmp	.LBB23_136
.LBB23_133:
	cmpb	$56, %al
	ja	.LBB23_135
	movl	(%r11,%rbx), %ebx
	movl	-4(%r11,%rdi), %r11d
	movq	$-4, %rdi
	jmp	.LBB23_136
.LBB23_135:
	movq	(%r11,%rbx), %rbx
	movq	-8(%r11,%rdi), %r11
	movq	$-8, %rdi
	.p2align	4
.LBB23_136:
	bswapq	%rbx
	bswapq	%r11
	shlxq	%rdx, %rbx, %rbx
	addl	%edi, %r9d
	shll	$3, %r9d
	subl	%edx, %r9d
	shrxq	%r9, %r11, %rdx
	orq	%rbx, %rdx
	negb	%al
	shrxq	%rax, %rdx, %r9
	movq	56(%rsp), %rbx
	movq	-64(%rsp), %r11
.LBB23_137:
	leaq	-1(%rsi), %rax
	xorq	%rcx, %rax
	movq	-72(%rsp), %rdi
	cmpq	$2, %rdi
	jb	.LBB23_122
	movq	%r9, %rdx
	orq	%rdi, %rdx
	shrq	$32, %rdx
	je	.LBB23_122
	xorl	%edx, %edx
	divq	%rdi
	cmpq	%rax, %r9
	ja	.LBB23_141
	imulq	%rdi, %r9
	jmp	.LBB23_123
.LBB23_141:
	movq	%r15, %rbx
	jmp	.LBB23_158
.LBB23_38:
	movq	-72(%rsp), %rdx
	shrq	$32, %rdx
	xorq	%rsi, %rcx
	testq	%rdx, %rdx
	jne	.LBB23_50
	cmpq	$4, %rax
	jb	.LBB23_103
	cmpq	$16, %rax
	jae	.LBB23_96
	xorl	%edx, %edx
	jmp	.LBB23_100
.LBB23_45:
	cmpq	$0, -72(%rsp)
	je	.LBB23_54
	cmpq	$4, %rax
	jb	.LBB23_153
	leaq	(%r11,%r9,8), %rcx
	leaq	(%r11,%rbx,8), %r8
	addq	%rdx, %rsi
	leaq	(%rdi,%rsi), %rdx
	addq	$8, %rdx
	cmpq	%rdx, %rcx
	setb	%dl
	cmpq	%r8, %r13
	setb	%sil
	testb	%sil, %dl
	jne	.LBB23_153
	cmpq	$16, %rax
	jae	.LBB23_146
	xorl	%edx, %edx
	jmp	.LBB23_150
.LBB23_50:
	cmpq	$4, %rax
	jb	.LBB23_111
	vmovq	%rcx, %xmm0
	cmpq	$16, %rax
	jae	.LBB23_104
	xorl	%edx, %edx
	jmp	.LBB23_108
.LBB23_55:
	cmpq	$25, %r12
	jae	.LBB23_62
	.p2align	4
.LBB23_56:
	leaq	(%rsi,%r12), %r8
	cmpq	$64, %r8
	ja	.LBB23_59
	cmpq	$63, %r15
	jbe	.LBB23_59
	movbeq	(%rax,%rcx), %rdi
	shlxq	%rsi, %rdi, %rsi
	jmp	.LBB23_60
.LBB23_59:
	leaq	7(%r8), %rdi
	movq	%rdi, %r10
	shrq	$3, %r10
	leaq	(%rax,%rcx), %r11
	movzwl	(%rax,%rcx), %ebx
	movzwl	-2(%r10,%r11), %r10d
	bswapq	%rbx
	shlxq	%rsi, %rbx, %r11
	movq	56(%rsp), %rbx
	bswapq	%r10
	andl	$56, %edi
	subl	%esi, %edi
	addb	$48, %dil
	shrxq	%rdi, %r10, %rsi
	movq	-72(%rsp), %r10
	orq	%r11, %rsi
	movq	-64(%rsp), %r11
.LBB23_60:
	shrxq	%rdx, %rsi, %rsi
	cmpq	%rsi, %r10
	jbe	.LBB23_54
	movq	(%r13,%rsi,8), %rsi
	movq	%rsi, (%r11,%r9,8)
	movq	%r8, %rsi
	shrq	$3, %rsi
	addq	%rsi, %rcx
	incq	%r9
	andl	$7, %r8d
	decq	%r15
	movq	%r8, %rsi
	cmpq	%r9, %rbx
	jne	.LBB23_56
	jmp	.LBB23_158
	.p2align	4
.LBB23_62:
	leaq	(%rsi,%r12), %r8
	cmpq	$64, %r8
	ja	.LBB23_65
	cmpq	$64, %r15
	jb	.LBB23_65
	movbeq	(%rax,%rcx), %rdi
	shlxq	%rsi, %rdi, %rsi
	jmp	.LBB23_69
.LBB23_65:
	leaq	7(%r8), %rdi
	shrq	$3, %rdi
	leaq	(%rax,%rcx), %r10
	cmpq	$56, %r12
	ja	.LBB23_67
	movl	(%r10), %ebx
	movl	-4(%r10,%rdi), %r10d
	movq	$-4, %r11
	jmp	.LBB23_68
.LBB23_67:
	movq	(%r10), %rbx
	movq	-8(%r10,%rdi), %r10
	movq	$-8, %r11
.LBB23_68:
	bswapq	%rbx
	shlxq	%rsi, %rbx, %rbx
	bswapq	%r10
	addl	%edi, %r11d
	shll	$3, %r11d
	subl	%esi, %r11d
	shrxq	%r11, %r10, %rsi
	orq	%rbx, %rsi
	movq	56(%rsp), %rbx
	movq	-64(%rsp), %r11
	movq	-72(%rsp), %r10
.LBB23_69:
	shrxq	%rdx, %rsi, %rsi
	cmpq	%rsi, %r10
	jbe	.LBB23_54
	movq	(%r13,%rsi,8), %rsi
	movq	%rsi, (%r11,%r9,8)
	movq	%r8, %rsi
	shrq	$3, %rsi
	addq	%rsi, %rcx
	incq	%r9
	andl	$7, %r8d
	decq	%r15
	movq	%r8, %rsi
	cmpq	%r9, %rbx
	jne	.LBB23_62
	jmp	.LBB23_158
.LBB23_54:
	movq	%r9, %rbx
.LBB23_158:
	movq	%rbx, %rax
	popq	%rbx
	popq	%r12
	popq	%r13
	popq	%r14
	popq	%r15
	popq	%rbp
	vzeroupper
	retq
.LBB23_71:
	movq	$0, -56(%rsp)
.LBB23_75:
	movq	%rdi, -24(%rsp)
	movabsq	$-9223372036854775808, %rbp
	movl	%r8d, %ecx
	andl	$16383, %ecx
	subq	%rcx, %rsi
	cmpq	%rsi, %r12
	cmovaeq	%rsi, %r12
	leaq	(%r12,%r9), %r15
	leaq	(%rax,%rax), %rdx
	movq	%rax, %rdi
	sarq	$63, %rdi
	xorq	%rdx, %rdi
	movq	%rdi, %rdx
	shrq	%rdx
	orq	%rbp, %rdx
	notq	%rdi
	shrq	%rdi
	testq	%rax, %rax
	cmovnsq	%rdx, %rdi
	cmpq	%r15, %r9
	jae	.LBB23_120
	movq	-24(%rsp), %rdx
	testb	%dl, %dl
	je	.LBB23_114
	movq	%r13, -40(%rsp)
	movq	-56(%rsp), %rbp
	addq	%r13, %rbp
	movq	%r14, -48(%rsp)
	addq	%r14, %rbp
	movq	%rbp, -56(%rsp)
	movl	$64, %eax
	subq	%rdx, %rax
	movq	%rax, -8(%rsp)
	movq	%rdi, -16(%rsp)
	notq	%rdi
	movq	%rdi, -32(%rsp)
	movl	%r8d, %eax
	andl	$7, %eax
	movq	%rdx, %rdi
	imull	%eax, %edx
	shrl	$3, %edx
	movl	%ecx, %r13d
	shrl	$3, %r13d
	imulq	%rdi, %r13
	addq	%rdx, %r13
	imulq	%rdi, %rcx
	negq	%r12
	movq	%r9, %rbp
	jmp	.LBB23_80
.LBB23_78:
	imulq	%r14, %rdi
	cmpq	-32(%rsp), %rdi
	ja	.LBB23_118
.LBB23_79:
	addq	-16(%rsp), %rdi
	movabsq	$-9223372036854775808, %rax
	xorq	%rax, %rdi
	movq	%rdi, (%r11,%rbp,8)
	movl	%ecx, %eax
	shrl	$3, %eax
	addq	%rax, %r13
	incq	%rbp
	decq	%rsi
	incq	%r12
	movq	-24(%rsp), %rdi
	je	.LBB23_119
.LBB23_80:
	movl	%ecx, %eax
	andl	$7, %eax
	leaq	(%rax,%rdi), %rcx
	cmpq	$64, %rcx
	ja	.LBB23_83
	cmpq	$64, %rsi
	jb	.LBB23_83
	movq	-56(%rsp), %rdx
	movbeq	(%rdx,%r13), %rdx
	shlxq	%rax, %rdx, %rax
	jmp	.LBB23_91
.LBB23_83:
	leal	7(%rcx), %edx
	shrl	$3, %edx
	movq	-56(%rsp), %r11
	addq	%r13, %r11
	cmpb	$8, %dil
	ja	.LBB23_85
	movzbl	(%r11), %edi
	movzbl	-1(%r11,%rdx), %r11d
	movq	$-1, %rbx
	jmp	.LBB23_90
.LBB23_85:
	cmpb	$24, %dil
	ja	.LBB23_87
	movzwl	(%r11), %edi
	movzwl	-2(%r11,%rdx), %r11d
	movq	$-2, %rbx
	jmp	.LBB23_90
.LBB23_87:
	cmpb	$56, %dil
	ja	.LBB23_89
	movl	(%r11), %edi
	movl	-4(%r11,%rdx), %r11d
	movq	$-4, %rbx
	jmp	.LBB23_90
.LBB23_89:
	movq	(%r11), %rdi
	movq	-8(%r11,%rdx), %r11
	movq	$-8, %rbx
.LBB23_90:
	bswapq	%rdi
	shlxq	%rax, %rdi, %rdi
	bswapq	%r11
	addl	%edx, %ebx
	shll	$3, %ebx
	subl	%eax, %ebx
	shrxq	%rbx, %r11, %rax
	orq	%rdi, %rax
	movq	56(%rsp), %rbx
	movq	-64(%rsp), %r11
.LBB23_91:
	movq	-8(%rsp), %rdx
	shrxq	%rdx, %rax, %rdi
	movq	-72(%rsp), %r14
	cmpq	$2, %r14
	jb	.LBB23_78
	movq	%rdi, %rax
	orq	%r14, %rax
	shrq	$32, %rax
	je	.LBB23_78
	movq	-32(%rsp), %rax
	xorl	%edx, %edx
	divq	%r14
	cmpq	%rax, %rdi
	ja	.LBB23_118
	imulq	%r14, %rdi
	jmp	.LBB23_79
.LBB23_96:
	movq	%rax, %rdx
	andq	$-16, %rdx
	vmovq	%rcx, %xmm0
	vpbroadcastq	%xmm0, %ymm0
	leaq	(%r11,%r9,8), %rsi
	addq	$96, %rsi
	xorl	%edi, %edi
	.p2align	4
.LBB23_97:
	vmovdqu	%ymm0, -96(%rsi,%rdi,8)
	vmovdqu	%ymm0, -64(%rsi,%rdi,8)
	vmovdqu	%ymm0, -32(%rsi,%rdi,8)
	vmovdqu	%ymm0, (%rsi,%rdi,8)
	addq	$16, %rdi
	cmpq	%rdi, %rdx
	jne	.LBB23_97
	cmpq	%rdx, %rax
	je	.LBB23_158
	testb	$12, %al
	je	.LBB23_162
.LBB23_100:
	movq	%rax, %rsi
	andq	$-4, %rsi
	vmovq	%rcx, %xmm0
	vpbroadcastq	%xmm0, %ymm0
	leaq	(%r11,%r9,8), %rdi
	addq	%rsi, %r9
	.p2align	4
.LBB23_101:
	vmovdqu	%ymm0, (%rdi,%rdx,8)
	addq	$4, %rdx
	cmpq	%rdx, %rsi
	jne	.LBB23_101
	cmpq	%rsi, %rax
	je	.LBB23_158
	.p2align	4
.LBB23_103:
	movq	%rcx, (%r11,%r9,8)
	incq	%r9
	cmpq	%r9, %rbx
	jne	.LBB23_103
	jmp	.LBB23_158
.LBB23_104:
	movq	%rax, %rdx
	andq	$-16, %rdx
	vpbroadcastq	%xmm0, %ymm1
	leaq	(%r11,%r9,8), %rsi
	addq	$96, %rsi
	xorl	%edi, %edi
	.p2align	4
.LBB23_105:
	vmovdqu	%ymm1, -96(%rsi,%rdi,8)
	vmovdqu	%ymm1, -64(%rsi,%rdi,8)
	vmovdqu	%ymm1, -32(%rsi,%rdi,8)
	vmovdqu	%ymm1, (%rsi,%rdi,8)
	addq	$16, %rdi
	cmpq	%rdi, %rdx
	jne	.LBB23_105
	cmpq	%rdx, %rax
	je	.LBB23_158
	testb	$12, %al
	je	.LBB23_163
.LBB23_108:
	movq	%rax, %rsi
	andq	$-4, %rsi
	vpbroadcastq	%xmm0, %ymm0
	leaq	(%r11,%r9,8), %rdi
	addq	%rsi, %r9
	.p2align	4
.LBB23_109:
	vmovdqu	%ymm0, (%rdi,%rdx,8)
	addq	$4, %rdx
	cmpq	%rdx, %rsi
	jne	.LBB23_109
	cmpq	%rsi, %rax
	je	.LBB23_158
	.p2align	4
.LBB23_111:
	movq	%rcx, (%r11,%r9,8)
	incq	%r9
	cmpq	%r9, %rbx
	jne	.LBB23_111
	jmp	.LBB23_158
.LBB23_114:
	movq	-72(%rsp), %rax
	shrq	$32, %rax
	movabsq	$-9223372036854775808, %rcx
	xorq	%rcx, %rdi
	movq	%r9, %rcx
	testq	%rax, %rax
	jne	.LBB23_159
	cmpq	$4, %r12
	jb	.LBB23_171
	cmpq	$16, %r12
	jae	.LBB23_164
	xorl	%eax, %eax
	jmp	.LBB23_168
.LBB23_118:
	movq	%rbp, %r15
.LBB23_119:
	movq	-40(%rsp), %r13
	movq	-48(%rsp), %r14
	jmp	.LBB23_120
.LBB23_146:
	movq	%rax, %rdx
	andq	$-16, %rdx
	vpbroadcastq	(%r13), %ymm0
	leaq	(%r11,%r9,8), %rsi
	addq	$96, %rsi
	xorl	%edi, %edi
.LBB23_147:
	vmovdqu	%ymm0, -96(%rsi,%rdi,8)
	vmovdqu	%ymm0, -64(%rsi,%rdi,8)
	vmovdqu	%ymm0, -32(%rsi,%rdi,8)
	vmovdqu	%ymm0, (%rsi,%rdi,8)
	addq	$16, %rdi
	cmpq	%rdi, %rdx
	jne	.LBB23_147
	cmpq	%rdx, %rax
	je	.LBB23_158
	testb	$12, %al
	je	.LBB23_180
.LBB23_150:
	movq	%rax, %rsi
	andq	$-4, %rsi
	vpbroadcastq	(%r13), %ymm0
	addq	%rsi, %r9
.LBB23_151:
	vmovdqu	%ymm0, (%rcx,%rdx,8)
	addq	$4, %rdx
	cmpq	%rdx, %rsi
	jne	.LBB23_151
	cmpq	%rsi, %rax
	je	.LBB23_158
.LBB23_153:
	movl	%ebx, %ecx
	subl	%r9d, %ecx
	movq	%r9, %rax
	andl	$7, %ecx
	je	.LBB23_156
	movq	%r9, %rax
	.p2align	4
.LBB23_155:
	movq	(%r13), %rdx
	movq	%rdx, (%r11,%rax,8)
	incq	%rax
	decq	%rcx
	jne	.LBB23_155
.LBB23_156:
	subq	%rbx, %r9
	cmpq	$-8, %r9
	ja	.LBB23_158
	.p2align	4
.LBB23_157:
	movq	(%r13), %rcx
	movq	%rcx, (%r11,%rax,8)
	movq	(%r13), %rcx
	movq	%rcx, 8(%r11,%rax,8)
	movq	(%r13), %rcx
	movq	%rcx, 16(%r11,%rax,8)
	movq	(%r13), %rcx
	movq	%rcx, 24(%r11,%rax,8)
	movq	(%r13), %rcx
	movq	%rcx, 32(%r11,%rax,8)
	movq	(%r13), %rcx
	movq	%rcx, 40(%r11,%rax,8)
	movq	(%r13), %rcx
	movq	%rcx, 48(%r11,%rax,8)
	movq	(%r13), %rcx
	movq	%rcx, 56(%r11,%rax,8)
	addq	$8, %rax
	cmpq	%rax, %rbx
	jne	.LBB23_157
	jmp	.LBB23_158
.LBB23_159:
	cmpq	$4, %r12
	jb	.LBB23_179
	vmovq	%rdi, %xmm0
	cmpq	$16, %r12
	jae	.LBB23_172
	xorl	%eax, %eax
	jmp	.LBB23_176
.LBB23_162:
	addq	%rdx, %r9
	jmp	.LBB23_103
.LBB23_163:
	addq	%rdx, %r9
	jmp	.LBB23_111
.LBB23_164:
	movq	%r12, %rax
	andq	$-16, %rax
	vmovq	%rdi, %xmm0
	vpbroadcastq	%xmm0, %ymm0
	leaq	(%r11,%r9,8), %rcx
	addq	$96, %rcx
	xorl	%edx, %edx
.LBB23_165:
	vmovdqu	%ymm0, -96(%rcx,%rdx,8)
	vmovdqu	%ymm0, -64(%rcx,%rdx,8)
	vmovdqu	%ymm0, -32(%rcx,%rdx,8)
	vmovdqu	%ymm0, (%rcx,%rdx,8)
	addq	$16, %rdx
	cmpq	%rdx, %rax
	jne	.LBB23_165
	cmpq	%rax, %r12
	je	.LBB23_120
	testb	$12, %r12b
	je	.LBB23_181
.LBB23_168:
	movq	%r12, %rdx
	andq	$-4, %rdx
	leaq	(%r9,%rdx), %rcx
	vmovq	%rdi, %xmm0
	vpbroadcastq	%xmm0, %ymm0
	leaq	(%r11,%r9,8), %rsi
.LBB23_169:
	vmovdqu	%ymm0, (%rsi,%rax,8)
	addq	$4, %rax
	cmpq	%rax, %rdx
	jne	.LBB23_169
	cmpq	%rdx, %r12
	je	.LBB23_120
.LBB23_171:
	movq	%rdi, (%r11,%rcx,8)
	incq	%rcx
	cmpq	%rcx, %r15
	jne	.LBB23_171
	jmp	.LBB23_120
.LBB23_172:
	movq	%r12, %rax
	andq	$-16, %rax
	vpbroadcastq	%xmm0, %ymm1
	leaq	(%r11,%r9,8), %rcx
	addq	$96, %rcx
	xorl	%edx, %edx
.LBB23_173:
	vmovdqu	%ymm1, -96(%rcx,%rdx,8)
	vmovdqu	%ymm1, -64(%rcx,%rdx,8)
	vmovdqu	%ymm1, -32(%rcx,%rdx,8)
	vmovdqu	%ymm1, (%rcx,%rdx,8)
	addq	$16, %rdx
	cmpq	%rdx, %rax
	jne	.LBB23_173
	cmpq	%rax, %r12
	je	.LBB23_120
	testb	$12, %r12b
	je	.LBB23_182
.LBB23_176:
	movq	%r12, %rdx
	andq	$-4, %rdx
	leaq	(%r9,%rdx), %rcx
	vpbroadcastq	%xmm0, %ymm0
	leaq	(%r11,%r9,8), %rsi
.LBB23_177:
	vmovdqu	%ymm0, (%rsi,%rax,8)
	addq	$4, %rax
	cmpq	%rax, %rdx
	jne	.LBB23_177
	cmpq	%rdx, %r12
	je	.LBB23_120
.LBB23_179:
	movq	%rdi, (%r11,%rcx,8)
	incq	%rcx
	cmpq	%rcx, %r15
	jne	.LBB23_179
	jmp	.LBB23_120
.LBB23_180:
	addq	%rdx, %r9
	jmp	.LBB23_153
.LBB23_181:
	addq	%r9, %rax
	movq	%rax, %rcx
	jmp	.LBB23_171
.LBB23_182:
	addq	%r9, %rax
	movq	%rax, %rcx
	jmp	.LBB23_179
.Lfunc_end23:
	.size	"read_in_block::draw", .Lfunc_end23-"read_in_block::draw"

	.section	".text.layered_reading::layered_steps","ax",@progbits
	.p2align	4
	.type	"layered_reading::layered_steps",@function
"layered_reading::layered_steps":
	pushq	%rbp
	pushq	%r15
	pushq	%r14
	pushq	%r13
	pushq	%r12
	pushq	%rbx
	subq	$3072, %rsp
	movq	$0, (%rsp)
	subq	$3072, %rsp
	movq	$0, (%rsp)
	subq	$3072, %rsp
	movq	$0, (%rsp)
	subq	$3072, %rsp
	movq	$0, (%rsp)
	subq	$328, %rsp
	movq	%r9, 80(%rsp)
	movq	%r8, %rbp
	movq	%rcx, 104(%rsp)
	movq	%rdx, %r14
	movq	%rsi, 96(%rsp)
	movq	%rdi, 64(%rsp)
	movl	12728(%rsp), %eax
	movq	%rax, 72(%rsp)
	movq	12672(%rsp), %rbx
	movq	12696(%rsp), %rax
	vmovups	(%rax), %ymm0
	vmovups	32(%rax), %ymm1
	vmovups	48(%rax), %ymm2
	vmovups	%ymm2, 288(%rsp)
	vmovups	%ymm1, 272(%rsp)
	movq	12720(%rsp), %rax
	vmovups	%ymm0, 240(%rsp)
	vmovups	(%rax), %ymm0
	vmovups	32(%rax), %ymm1
	vmovups	48(%rax), %ymm2
	vmovups	%ymm0, 160(%rsp)
	vmovups	%ymm1, 192(%rsp)
	vmovups	%ymm2, 208(%rsp)
	leaq	328(%rsp), %rdi
	xorl	%r15d, %r15d
	movl	$2048, %edx
	xorl	%esi, %esi
	vzeroupper
	callq	memset@PLT
	leaq	4424(%rsp), %rdi
	movl	$4096, %edx
	xorl	%esi, %esi
	callq	memset@PLT
	leaq	2376(%rsp), %rdi
	movl	$2048, %edx
	xorl	%esi, %esi
	callq	memset@PLT
	leaq	8520(%rsp), %rdi
	movl	$4096, %edx
	xorl	%esi, %esi
	callq	memset@PLT
	movq	%r14, %rdi
	cmpq	%r14, %rbp
	cmovbq	%rbp, %rdi
	cmpq	%rbx, %rdi
	cmovaeq	%rbx, %rdi
	xorl	%esi, %esi
	movq	$0, 128(%rsp)
	xorl	%r10d, %r10d
	xorl	%r9d, %r9d
	movq	$0, 136(%rsp)
	xorl	%r11d, %r11d
	movq	%rdi, 120(%rsp)
.LBB24_1:
	movq	%rdi, %rax
	subq	%r11, %rax
	cmpq	$512, %rax
	movl	$512, %ebx
	movq	%rax, 112(%rsp)
	cmovbq	%rax, %rbx
	movq	%r11, %rbp
	shrq	%rbp
	incq	%rbp
	movq	%r11, 24(%rsp)
	.p2align	4
.LBB24_2:
	movq	%rbx, %rax
	imulq	%r9, %rax
	shrq	%rax
	movq	%rax, %rcx
	orq	%rbp, %rcx
	shrq	$32, %rcx
	je	.LBB24_3
	xorl	%edx, %edx
	divq	%rbp
	jmp	.LBB24_5
	.p2align	4
.LBB24_3:
	xorl	%edx, %edx
	divl	%ebp
.LBB24_5:
	addq	$16, %rax
	cmpq	%rbx, %rax
	cmovaeq	%rbx, %rax
	cmpq	%r9, %r10
	jb	.LBB24_6
	testb	$1, 136(%rsp)
	je	.LBB24_8
.LBB24_6:
	movq	%r10, %rax
	andq	$-256, %rax
	jmp	.LBB24_10
	.p2align	4
.LBB24_8:
	movq	%rsi, %r14
	vxorps	%xmm0, %xmm0, %xmm0
	vmovaps	%xmm0, 32(%rsp)
	movq	$0, 48(%rsp)
	movq	72(%rsp), %rcx
	movl	%ecx, 8(%rsp)
	movq	%rax, (%rsp)
	leaq	32(%rsp), %rdi
	leaq	2376(%rsp), %rsi
	leaq	8520(%rsp), %rdx
	leaq	160(%rsp), %r9
	movq	12704(%rsp), %rcx
	movq	12712(%rsp), %r8
	vzeroupper
	callq	"read_from::read_up_to"
	movzbl	40(%rsp), %ecx
	movq	48(%rsp), %r9
	xorl	%eax, %eax
	cmpb	$0, 32(%rsp)
	movl	%ecx, %edx
	cmovnel	%eax, %edx
	movq	%rdx, 136(%rsp)
	jne	.LBB24_14
	movq	24(%rsp), %r11
	movq	120(%rsp), %rdi
	movq	%r14, %rsi
	xorl	%r10d, %r10d
.LBB24_10:
	movzbl	%r10b, %r10d
	orq	%rax, %r10
	movq	%r10, %r13
	cmpq	%r9, %r10
	sete	%r14b
	jne	.LBB24_24
	testb	$1, 136(%rsp)
	jne	.LBB24_12
.LBB24_24:
	cmpq	%rsi, %r15
	jb	.LBB24_25
	testb	$1, 128(%rsp)
	je	.LBB24_27
.LBB24_25:
	movq	%r15, %rax
	andq	$-256, %rax
	movzbl	%r15b, %r15d
	orq	%rax, %r15
	cmpq	%rsi, %r15
	je	.LBB24_30
	jmp	.LBB24_40
	.p2align	4
.LBB24_27:
	movq	%r9, %r12
	vxorps	%xmm0, %xmm0, %xmm0
	vmovaps	%xmm0, 32(%rsp)
	movq	$0, 48(%rsp)
	movq	72(%rsp), %rax
	movl	%eax, 8(%rsp)
	movq	%rbx, (%rsp)
	leaq	32(%rsp), %rdi
	leaq	328(%rsp), %rsi
	leaq	4424(%rsp), %rdx
	leaq	240(%rsp), %r9
	movq	12680(%rsp), %rcx
	movq	12688(%rsp), %r8
	vzeroupper
	callq	"read_from::read_up_to"
	movzbl	40(%rsp), %ecx
	movq	48(%rsp), %rsi
	xorl	%eax, %eax
	cmpb	$0, 32(%rsp)
	movl	%ecx, %edx
	cmovnel	%eax, %edx
	movq	%rdx, 128(%rsp)
	jne	.LBB24_69
	xorl	%r15d, %r15d
	movq	24(%rsp), %r11
	movq	120(%rsp), %rdi
	movq	%r12, %r9
	movzbl	%r15b, %r15d
	orq	%rax, %r15
	cmpq	%rsi, %r15
	jne	.LBB24_40
.LBB24_30:
	testb	$1, 128(%rsp)
	jne	.LBB24_31
.LBB24_40:
	cmpq	%r11, %rdi
	je	.LBB24_41
	testb	%r14b, %r14b
	movq	%r13, %r10
	jne	.LBB24_2
	movq	80(%rsp), %rbx
	movq	%r9, 144(%rsp)
	movq	%rsi, 152(%rsp)
.LBB24_45:
	movq	%r10, 88(%rsp)
	jmp	.LBB24_46
	.p2align	4
.LBB24_66:
	addq	%rdx, %r11
	movq	%rcx, %r15
	cmpq	%rcx, %r8
	movq	120(%rsp), %rdi
	movq	152(%rsp), %rsi
	jne	.LBB24_67
.LBB24_46:
	movq	%rdi, %rax
	subq	%r11, %rax
	jbe	.LBB24_1
	movq	%rsi, %rcx
	subq	%r15, %rcx
	je	.LBB24_48
	cmpq	%rcx, %rax
	cmovbq	%rax, %rcx
	movl	2376(%rsp,%r10,4), %eax
	movq	104(%rsp), %rdx
	leaq	(%rdx,%r11,8), %rdx
	movq	96(%rsp), %rsi
	leaq	(%rsi,%r11,4), %rsi
	movq	%r15, %rdi
	cmpq	$4, %rcx
	jae	.LBB24_50
	addq	%r15, %rcx
	movq	%rcx, %r8
	cmpq	%rcx, %rdi
	jb	.LBB24_58
.LBB24_64:
	movq	%r8, %rdx
	subq	%r15, %rdx
	jbe	.LBB24_66
	jmp	.LBB24_65
	.p2align	4
.LBB24_50:
	movq	%r11, 24(%rsp)
	leaq	(%rbx,%r11), %rdi
	movq	%rdi, 112(%rsp)
	leaq	(%rsp,%r15,8), %r9
	addq	$4424, %r9
	leaq	(%rsp,%r15,4), %r10
	addq	$328, %r10
	xorl	%edi, %edi
	movq	%rcx, %r11
	xorl	%ebx, %ebx
	xorl	%r14d, %r14d
	jmp	.LBB24_51
	.p2align	4
.LBB24_54:
	leaq	(%r10,%rdi,4), %r12
	leaq	(%rsi,%rdi,4), %r13
	vmovups	(%r12), %xmm0
	vmovups	%xmm0, (%r13)
.LBB24_55:
	leaq	(%rdx,%rdi,8), %rbp
	leaq	(%rdx,%r14), %r13
	leaq	(%r9,%rdi,8), %r12
	subq	%r9, %r13
	subq	%r14, %r13
	cmpq	$31, %r13
	vmovups	(%r12), %ymm0
	vmovups	%ymm0, (%rbp)
	movq	112(%rsp), %r8
	movl	$0, (%r8,%rdi)
	addq	$4, %rdi
	addq	$32, %r14
	addq	$16, %rbx
	addq	$-4, %r11
	cmpq	$3, %r11
	jbe	.LBB24_56
.LBB24_51:
	movl	12(%r10,%rdi,4), %ebp
	cmpl	%ebp, %eax
	jbe	.LBB24_56
	leaq	(%rsi,%rbx), %r13
	subq	%r10, %r13
	subq	%rbx, %r13
	cmpq	$15, %r13
	ja	.LBB24_54
	movq	(%r10,%rdi,4), %r12
	movq	%r12, (%rsi,%rdi,4)
	movl	8(%r10,%rdi,4), %r12d
	movl	%r12d, 8(%rsi,%rdi,4)
	movl	%ebp, 12(%rsi,%rdi,4)
	jmp	.LBB24_55
	.p2align	4
.LBB24_56:
	addq	%r15, %rdi
	movq	24(%rsp), %r11
	movq	80(%rsp), %rbx
	movq	144(%rsp), %r9
	movq	88(%rsp), %r10
	addq	%r15, %rcx
	movq	%rcx, %r8
	cmpq	%rcx, %rdi
	jae	.LBB24_64
.LBB24_58:
	movq	%r9, %r14
	movq	%r11, %r8
	subq	%r15, %r8
	addq	%rbx, %r8
	leaq	(,%r15,8), %r9
	subq	%r9, %rdx
	leaq	(,%r15,4), %r9
	subq	%r9, %rsi
	.p2align	4
.LBB24_59:
	movl	328(%rsp,%rdi,4), %r9d
	cmpl	%r9d, %eax
	jbe	.LBB24_60
	movq	4424(%rsp,%rdi,8), %r10
	movl	%r9d, (%rsi,%rdi,4)
	movq	%r10, (%rdx,%rdi,8)
	movb	$0, (%r8,%rdi)
	incq	%rdi
	cmpq	%rdi, %rcx
	jne	.LBB24_59
	movq	%rcx, %r8
	jmp	.LBB24_63
	.p2align	4
.LBB24_60:
	movq	%rdi, %r8
.LBB24_63:
	movq	%r14, %r9
	movq	88(%rsp), %r10
	movq	%r8, %rdx
	subq	%r15, %rdx
	jbe	.LBB24_66
.LBB24_65:
	movl	324(%rsp,%r8,4), %esi
	incq	%rsi
	movq	%rsi, 72(%rsp)
	jmp	.LBB24_66
.LBB24_67:
	movl	328(%rsp,%r8,4), %ecx
	movq	8520(%rsp,%r10,8), %rdx
	movq	96(%rsp), %rsi
	movl	%eax, (%rsi,%r11,4)
	movq	104(%rsp), %rsi
	movq	%rdx, (%rsi,%r11,8)
	movq	152(%rsp), %rsi
	movb	$1, (%rbx,%r11)
	leaq	1(%rax), %rdx
	movq	%rdx, 72(%rsp)
	xorl	%r15d, %r15d
	cmpl	%eax, %ecx
	sete	%r15b
	addq	%r8, %r15
	incq	%r10
	incq	%r11
	cmpq	%r9, %r10
	jne	.LBB24_45
	jmp	.LBB24_1
.LBB24_48:
	movq	%rsi, %r15
	jmp	.LBB24_1
.LBB24_12:
	vxorps	%xmm0, %xmm0, %xmm0
	vmovaps	%xmm0, 32(%rsp)
	movq	$0, 48(%rsp)
	movq	72(%rsp), %rcx
	cmpq	$2147352575, %rcx
	jbe	.LBB24_16
	movb	$1, %bl
	xorl	%eax, %eax
	xorl	%ecx, %ecx
	movq	64(%rsp), %r12
	jmp	.LBB24_22
.LBB24_31:
	vxorps	%xmm0, %xmm0, %xmm0
	vmovaps	%xmm0, 32(%rsp)
	movq	$0, 48(%rsp)
	movq	72(%rsp), %rcx
	cmpq	$2147352575, %rcx
	jbe	.LBB24_33
	movb	$1, %bl
	xorl	%eax, %eax
	xorl	%ecx, %ecx
	movq	64(%rsp), %r12
	jmp	.LBB24_39
.LBB24_41:
	movq	64(%rsp), %rax
	movq	$0, (%rax)
	movb	$0, 8(%rax)
	movq	%rdi, 16(%rax)
	movq	$0, 24(%rax)
	jmp	.LBB24_42
.LBB24_16:
	movq	96(%rsp), %rax
	leaq	(%rax,%r11,4), %rsi
	movq	104(%rsp), %rax
	leaq	(%rax,%r11,8), %rdx
	movl	%ecx, 8(%rsp)
	movq	112(%rsp), %rax
	movq	%rax, (%rsp)
	leaq	32(%rsp), %rdi
	leaq	240(%rsp), %r9
	movq	12680(%rsp), %rcx
	movq	12688(%rsp), %r8
	movq	%r11, %r15
	vzeroupper
	callq	"read_from::read_up_to"
	cmpb	$0, 32(%rsp)
	movq	64(%rsp), %r12
	je	.LBB24_17
	xorl	%ebx, %ebx
	xorl	%eax, %eax
	testq	%r15, %r15
	movzbl	40(%rsp), %ecx
	cmoveq	%rcx, %r15
	sete	%al
	movq	48(%rsp), %rcx
	cmovneq	%rbx, %rcx
	movq	%r15, %r11
	jmp	.LBB24_22
.LBB24_33:
	movq	96(%rsp), %rax
	leaq	(%rax,%r11,4), %rsi
	movq	104(%rsp), %rax
	leaq	(%rax,%r11,8), %rdx
	movl	%ecx, 8(%rsp)
	movq	112(%rsp), %rax
	movq	%rax, (%rsp)
	leaq	32(%rsp), %rdi
	leaq	160(%rsp), %r9
	movq	12704(%rsp), %rcx
	movq	12712(%rsp), %r8
	movq	%r11, %r15
	vzeroupper
	callq	"read_from::read_up_to"
	cmpb	$0, 32(%rsp)
	movq	64(%rsp), %r12
	je	.LBB24_34
	xorl	%ecx, %ecx
	xorl	%eax, %eax
	testq	%r15, %r15
	movzbl	40(%rsp), %edx
	cmoveq	%rdx, %r15
	sete	%al
	cmoveq	48(%rsp), %rcx
	movl	%eax, %ebx
	movq	%r15, %r11
	jmp	.LBB24_39
.LBB24_14:
	xorl	%eax, %eax
	xorl	%edx, %edx
	movq	24(%rsp), %r13
	testq	%r13, %r13
	sete	%dl
	cmovneq	%r13, %rcx
	movq	64(%rsp), %rsi
	movq	%rdx, (%rsi)
	sete	8(%rsi)
	cmoveq	%r9, %rax
	jmp	.LBB24_15
.LBB24_69:
	xorl	%eax, %eax
	xorl	%edx, %edx
	movq	24(%rsp), %r13
	testq	%r13, %r13
	sete	%dl
	cmovneq	%r13, %rcx
	cmoveq	%rsi, %rax
	movq	64(%rsp), %rsi
	movq	%rdx, (%rsi)
	movb	$0, 8(%rsi)
.LBB24_15:
	movq	%rcx, 16(%rsi)
	movq	%rax, 24(%rsi)
	jmp	.LBB24_42
.LBB24_17:
	movzbl	40(%rsp), %ebx
	movq	48(%rsp), %r14
	movq	80(%rsp), %rbp
	addq	%r15, %rbp
	testb	%bl, %bl
	movq	%r15, %r11
	testq	%r14, %r14
	je	.LBB24_21
	movq	%r14, %r15
	decq	%r15
	je	.LBB24_20
	movq	%rbp, %rdi
	xorl	%esi, %esi
	movq	%r15, %rdx
	callq	memset@PLT
	movq	24(%rsp), %r11
.LBB24_20:
	movb	$0, (%rbp,%r15)
.LBB24_21:
	addq	%r14, %r11
	xorl	%eax, %eax
	xorl	%ecx, %ecx
.LBB24_22:
	movq	%rax, (%r12)
	movb	%bl, 8(%r12)
	jmp	.LBB24_23
.LBB24_34:
	movzbl	40(%rsp), %ebx
	movq	48(%rsp), %r14
	movq	80(%rsp), %rbp
	addq	%r15, %rbp
	testb	%bl, %bl
	movq	%r15, %r11
	testq	%r14, %r14
	je	.LBB24_38
	movq	%r14, %r15
	decq	%r15
	je	.LBB24_37
	movq	%rbp, %rdi
	movl	$1, %esi
	movq	%r15, %rdx
	callq	memset@PLT
	movq	24(%rsp), %r11
.LBB24_37:
	movb	$1, (%rbp,%r15)
.LBB24_38:
	addq	%r14, %r11
	xorl	%eax, %eax
	xorl	%ecx, %ecx
.LBB24_39:
	movq	%rax, (%r12)
	movb	%bl, 8(%r12)
.LBB24_23:
	movq	%r11, 16(%r12)
	movq	%rcx, 24(%r12)
.LBB24_42:
	addq	$12616, %rsp
	popq	%rbx
	popq	%r12
	popq	%r13
	popq	%r14
	popq	%r15
	popq	%rbp
	vzeroupper
	retq
.Lfunc_end24:
	.size	"layered_reading::layered_steps", .Lfunc_end24-"layered_reading::layered_steps"

	.section	.rodata.cst32,"aM",@progbits,32
	.p2align	5, 0x0
.LCPI25_0:
	.byte	7
	.byte	6
	.byte	5
	.byte	4
	.byte	3
	.byte	2
	.byte	1
	.byte	0
	.byte	15
	.byte	14
	.byte	13
	.byte	12
	.byte	11
	.byte	10
	.byte	9
	.byte	8
	.byte	7
	.byte	6
	.byte	5
	.byte	4
	.byte	3
	.byte	2
	.byte	1
	.byte	0
	.byte	15
	.byte	14
	.byte	13
	.byte	12
	.byte	11
	.byte	10
	.byte	9
	.byte	8
	.section	.rodata.cst8,"aM",@progbits,8
	.p2align	3, 0x0
.LCPI25_1:
	.quad	-9223372036854775808
	.section	.rodata.cst16,"aM",@progbits,16
	.p2align	4, 0x0
.LCPI25_2:
	.byte	7
	.byte	6
	.byte	5
	.byte	4
	.byte	3
	.byte	2
	.byte	1
	.byte	0
	.byte	15
	.byte	14
	.byte	13
	.byte	12
	.byte	11
	.byte	10
	.byte	9
	.byte	8
	.section	".text.scaled_reader::fill","ax",@progbits
	.p2align	4
	.type	"scaled_reader::fill",@function
"scaled_reader::fill":
	pushq	%rbp
	pushq	%r15
	pushq	%r14
	pushq	%r13
	pushq	%r12
	pushq	%rbx
	subq	$104, %rsp
	movq	%rcx, %r9
	movl	%edx, %eax
	movq	%rsi, -120(%rsp)
	movq	%rdi, %rsi
	movabsq	$-9223372036854775808, %r12
	movq	(%r8), %r10
	movq	8(%r8), %rdx
	movq	16(%r8), %r8
	movl	%edx, %ecx
	movq	%rdx, %rdi
	shrq	%rdi
	orq	%r12, %rdi
	notq	%rdx
	shrq	%rdx
	testb	$1, %cl
	cmoveq	%rdi, %rdx
	cmpq	$15, %r10
	movq	%r8, -96(%rsp)
	movq	%rdx, -104(%rsp)
	movl	%eax, -108(%rsp)
	movq	%r9, -88(%rsp)
	jb	.LBB25_6
	xorl	%r11d, %r11d
	cmpq	$57, %r10
	ja	.LBB25_37
	movq	%r9, %rcx
	subq	$63, %rcx
	cmovaeq	%rcx, %r11
	movq	%rsi, %rax
	jbe	.LBB25_38
	cmpb	$0, -108(%rsp)
	je	.LBB25_24
	movq	$-1, %rcx
	bzhiq	%r10, %rcx, %rdi
	cmpq	$63, %r9
	movl	$63, %ecx
	cmovbq	%r9, %rcx
	incq	%rcx
	cmpq	%rcx, %r9
	jne	.LBB25_26
	xorl	%ebx, %ebx
	jmp	.LBB25_29
.LBB25_6:
	testb	$1, %al
	je	.LBB25_10
	testq	%r10, %r10
	sete	%cl
	cmpq	$64, %r9
	setb	%dil
	orb	%cl, %dil
	jne	.LBB25_19
	movl	$64, %edi
	movl	$64, %ebx
	subq	%r10, %rbx
	movq	$-1, %rcx
	bzhiq	%r10, %rcx, %r14
	movl	$64, %r15d
	subq	%r10, %r15
	subq	%r10, %r15
	leaq	(%r10,%r10,2), %rcx
	movl	$64, %r13d
	subq	%rcx, %r13
	leaq	(,%r10,4), %rbp
	subq	%rbp, %rdi
	vmovq	-96(%rsp), %xmm0
	vpbroadcastq	%xmm0, %ymm0
	vmovq	%rdx, %xmm1
	vpbroadcastq	%xmm1, %ymm1
	xorl	%edx, %edx
	movq	%r9, %rcx
	xorl	%r11d, %r11d
	.p2align	4
.LBB25_9:
	movq	%rdx, %r9
	shrq	$3, %r9
	movl	%edx, %r8d
	andb	$4, %r8b
	movq	-120(%rsp), %rax
	shrxq	%r8, (%rax,%r9), %r8
	shlxq	%r15, %r8, %r9
	shlxq	%r13, %r8, %r12
	shlxq	%rdi, %r8, %rax
	shrxq	%rbx, %rax, %rax
	shrxq	%rbx, %r12, %r12
	shrxq	%rbx, %r9, %r9
	andq	%r14, %r8
	vmovq	%rax, %xmm2
	movq	%rsi, %rax
	vmovq	%r12, %xmm3
	vpunpcklqdq	%xmm2, %xmm3, %xmm2
	vmovq	%r9, %xmm3
	vmovq	%r8, %xmm4
	vpunpcklqdq	%xmm3, %xmm4, %xmm3
	vinserti128	$1, %xmm2, %ymm3, %ymm2
	vpsrlq	$32, %ymm0, %ymm3
	vpmuludq	%ymm3, %ymm2, %ymm3
	vpsrlq	$32, %ymm2, %ymm4
	vpmuludq	%ymm0, %ymm4, %ymm4
	vpaddq	%ymm4, %ymm3, %ymm3
	vpsllq	$32, %ymm3, %ymm3
	vpmuludq	%ymm0, %ymm2, %ymm2
	vpaddq	%ymm1, %ymm2, %ymm2
	vpaddq	%ymm3, %ymm2, %ymm2
	vpbroadcastq	.LCPI25_1(%rip), %ymm3
	vpxor	%ymm3, %ymm2, %ymm2
	vmovdqu	%ymm2, (%rsi,%r11,8)
	addq	$4, %r11
	addq	$-4, %rcx
	addq	%rbp, %rdx
	cmpq	$63, %rcx
	ja	.LBB25_9
	jmp	.LBB25_38
.LBB25_10:
	testq	%r10, %r10
	movq	%rsi, %rax
	je	.LBB25_20
	leal	(,%r10,4), %esi
	movq	%r10, %r14
	shrq	%r14
	andl	$4, %esi
	cmpq	$1, %r8
	jne	.LBB25_21
	cmpq	$72, %r9
	jb	.LBB25_20
	movl	$64, %ecx
	subq	%r10, %rcx
	leaq	(%r10,%r10), %r8
	leaq	(%r10,%r10,2), %r12
	leaq	-72(%r9), %rdi
	vmovq	%rcx, %xmm0
	cmpq	$152, %rdi
	jb	.LBB25_16
	movq	%rdi, %rbx
	shrq	$3, %rbx
	movq	%r10, %r9
	xorq	$1, %r9
	leaq	8(%rax), %r11
	movq	%rbx, %rcx
	shlq	$6, %rcx
	shrq	$61, %rdi
	leaq	(%rax,%rcx), %r15
	addq	$8, %r15
	cmpq	%r11, %r15
	setb	(%rsp)
	orq	%r9, %rdi
	setne	-80(%rsp)
	leaq	16(%rax), %rdi
	leaq	(%rax,%rcx), %r15
	addq	$16, %r15
	cmpq	%rdi, %r15
	setb	%dil
	leaq	24(%rax), %r15
	leaq	(%rax,%rcx), %r13
	addq	$24, %r13
	cmpq	%r15, %r13
	setb	%bpl
	leaq	40(%rax), %r15
	leaq	(%rax,%rcx), %r13
	addq	$40, %r13
	cmpq	%r15, %r13
	setb	%r15b
	leaq	48(%rax), %r13
	leaq	(%rax,%rcx), %r9
	addq	$48, %r9
	cmpq	%r13, %r9
	setb	%r9b
	leaq	56(%rax), %rdx
	leaq	(%rax,%rcx), %r13
	addq	$56, %r13
	cmpq	%rdx, %r13
	setb	%r13b
	movq	-120(%rsp), %rdx
	leaq	(%rdx,%rbx), %r11
	cmpq	%rdx, %r11
	setb	%r11b
	orb	(%rsp), %dil
	orb	%bpl, %dil
	orb	-80(%rsp), %dil
	orb	%r15b, %r9b
	orb	%r13b, %r9b
	orb	%r11b, %r9b
	orb	%dil, %r9b
	testb	$1, %r9b
	jne	.LBB25_16
	addq	%rax, %rcx
	addq	$64, %rcx
	leaq	(%rdx,%rbx), %rdi
	addq	$8, %rdi
	cmpq	%rdi, %rax
	setb	%dil
	cmpq	%rcx, %rdx
	setb	%cl
	testb	%cl, %dil
	je	.LBB25_75
.LBB25_16:
	xorl	%r11d, %r11d
	xorl	%r13d, %r13d
.LBB25_17:
	vpbroadcastq	%xmm0, %ymm0
	vmovq	-104(%rsp), %xmm1
	vpbroadcastq	%xmm1, %ymm1
	movq	-88(%rsp), %rdi
	subq	%r11, %rdi
	addq	-120(%rsp), %r13
	.p2align	4
.LBB25_18:
	movbeq	(%r13,%r14), %rcx
	movbeq	(%r13), %r9
	shlxq	%r12, %r9, %r15
	shlxq	%r8, %r9, %rbp
	shlxq	%r10, %r9, %rbx
	vmovq	%r15, %xmm2
	vmovq	%rbp, %xmm3
	vpunpcklqdq	%xmm2, %xmm3, %xmm2
	vmovq	%rbx, %xmm3
	vmovq	%r9, %xmm4
	vpunpcklqdq	%xmm3, %xmm4, %xmm3
	vinserti128	$1, %xmm2, %ymm3, %ymm2
	vpsrlvq	%ymm0, %ymm2, %ymm2
	vpaddq	%ymm1, %ymm2, %ymm2
	vpbroadcastq	.LCPI25_1(%rip), %ymm3
	vpxor	%ymm3, %ymm2, %ymm2
	vmovdqu	%ymm2, (%rax,%r11,8)
	shlxq	%rsi, %rcx, %rcx
	shlxq	%r10, %rcx, %r9
	shlxq	%r8, %rcx, %rbx
	shlxq	%r12, %rcx, %r15
	vmovq	%r15, %xmm2
	vmovq	%rbx, %xmm4
	vpunpcklqdq	%xmm2, %xmm4, %xmm2
	vmovq	%rcx, %xmm4
	vmovq	%r9, %xmm5
	vpunpcklqdq	%xmm5, %xmm4, %xmm4
	vinserti128	$1, %xmm2, %ymm4, %ymm2
	vpsrlvq	%ymm0, %ymm2, %ymm2
	vpaddq	%ymm1, %ymm2, %ymm2
	vpxor	%ymm3, %ymm2, %ymm2
	vmovdqu	%ymm2, 32(%rax,%r11,8)
	addq	$8, %r11
	addq	$-8, %rdi
	addq	%r10, %r13
	cmpq	$71, %rdi
	ja	.LBB25_18
	jmp	.LBB25_38
.LBB25_19:
	movq	%rsi, %rax
	jmp	.LBB25_20
.LBB25_21:
	cmpq	$72, %r9
	jb	.LBB25_20
	movl	$64, %ecx
	subq	%r10, %rcx
	leaq	(%r10,%r10), %r12
	leaq	(%r10,%r10,2), %rdx
	leaq	-72(%r9), %rdi
	vmovq	%rcx, %xmm1
	vmovq	%r8, %xmm2
	vmovq	-104(%rsp), %xmm3
	cmpq	$120, %rdi
	jae	.LBB25_69
	xorl	%r11d, %r11d
	xorl	%r13d, %r13d
	jmp	.LBB25_72
.LBB25_20:
	xorl	%r11d, %r11d
	jmp	.LBB25_38
.LBB25_24:
	movl	$64, %edi
	subq	%r10, %rdi
	cmpq	$63, %r9
	movl	$63, %ecx
	cmovbq	%r9, %rcx
	incq	%rcx
	cmpq	%rcx, %r9
	jne	.LBB25_32
	xorl	%ebx, %ebx
	jmp	.LBB25_35
.LBB25_26:
	movq	%r11, %rcx
	andq	$-2, %rcx
	leaq	(%r10,%r10), %r9
	xorl	%r14d, %r14d
	xorl	%ebx, %ebx
	movq	-120(%rsp), %rbp
	.p2align	4
.LBB25_27:
	movq	%r14, %r15
	shrq	$3, %r15
	movl	%r14d, %r13d
	andb	$6, %r13b
	shrxq	%r13, (%rbp,%r15), %r15
	andq	%rdi, %r15
	imulq	%r8, %r15
	addq	%rdx, %r15
	xorq	%r12, %r15
	movq	%r15, (%rax,%rbx,8)
	leaq	(%r10,%r14), %r15
	movq	%r15, %r13
	shrq	$3, %r13
	andb	$7, %r15b
	shrxq	%r15, (%rbp,%r13), %r15
	andq	%rdi, %r15
	imulq	%r8, %r15
	addq	%rdx, %r15
	xorq	%r12, %r15
	movq	%r15, 8(%rax,%rbx,8)
	addq	$2, %rbx
	addq	%r9, %r14
	cmpq	%rbx, %rcx
	jne	.LBB25_27
	testb	$1, %r11b
	je	.LBB25_38
.LBB25_29:
	movq	%rbx, %rax
	imulq	%r10, %rax
	movq	%rax, %rcx
	shrq	$3, %rcx
	andb	$7, %al
	movq	-120(%rsp), %r9
	shrxq	%rax, (%r9,%rcx), %rax
	andq	%rdi, %rax
	jmp	.LBB25_36
.LBB25_32:
	movq	%r11, %rcx
	andq	$-2, %rcx
	leaq	(%r10,%r10), %r9
	xorl	%r14d, %r14d
	xorl	%ebx, %ebx
	movq	-120(%rsp), %rbp
	.p2align	4
.LBB25_33:
	movq	%r14, %r15
	shrq	$3, %r15
	movbeq	(%rbp,%r15), %r15
	movl	%r14d, %r13d
	andb	$6, %r13b
	shlxq	%r13, %r15, %r15
	shrxq	%rdi, %r15, %r15
	imulq	%r8, %r15
	addq	%rdx, %r15
	xorq	%r12, %r15
	movq	%r15, (%rax,%rbx,8)
	leaq	(%r10,%r14), %r15
	movq	%r15, %r13
	shrq	$3, %r13
	movbeq	(%rbp,%r13), %r13
	andb	$7, %r15b
	shlxq	%r15, %r13, %r15
	shrxq	%rdi, %r15, %r15
	imulq	%r8, %r15
	addq	%rdx, %r15
	xorq	%r12, %r15
	movq	%r15, 8(%rax,%rbx,8)
	addq	$2, %rbx
	addq	%r9, %r14
	cmpq	%rbx, %rcx
	jne	.LBB25_33
	testb	$1, %r11b
	je	.LBB25_38
.LBB25_35:
	movq	%rbx, %rax
	imulq	%r10, %rax
	movq	%rax, %rcx
	shrq	$3, %rcx
	movq	-120(%rsp), %r9
	movbeq	(%r9,%rcx), %rcx
	andb	$7, %al
	shlxq	%rax, %rcx, %rax
	shrxq	%rdi, %rax, %rax
.LBB25_36:
	imulq	%r8, %rax
	addq	%rdx, %rax
	xorq	%r12, %rax
	movq	%rax, (%rsi,%rbx,8)
.LBB25_37:
	movq	%rsi, %rax
.LBB25_38:
	movq	-88(%rsp), %r9
	movq	%r9, %rbx
	subq	%r11, %rbx
	movq	-104(%rsp), %r8
	movl	-108(%rsp), %edx
	movabsq	$-9223372036854775808, %r12
	movq	-96(%rsp), %r13
	movq	-120(%rsp), %rsi
	jbe	.LBB25_68
	testq	%r10, %r10
	je	.LBB25_57
	movl	$64, %ecx
	subq	%r10, %rcx
	leaq	(%rax,%r11,8), %rdi
	imulq	%r10, %r11
	jmp	.LBB25_44
	.p2align	4
.LBB25_49:
	movzbl	(%r9), %r13d
	movzbl	-1(%r9,%r12), %r9d
	movl	$1, %ebp
	testb	%dl, %dl
	je	.LBB25_56
.LBB25_41:
	subl	%ebp, %r12d
	shll	$3, %r12d
	shlxq	%r12, %r9, %rax
	orq	%r13, %rax
	negb	%r15b
	shlxq	%r15, %rax, %r9
.LBB25_42:
	movabsq	$-9223372036854775808, %r12
	movq	-96(%rsp), %r13
.LBB25_43:
	shrxq	%rcx, %r9, %rax
	imulq	%r13, %rax
	addq	%r8, %rax
	xorq	%r12, %rax
	movq	%rax, (%rdi)
	addq	%r10, %r11
	addq	$8, %rdi
	decq	%rbx
	je	.LBB25_68
.LBB25_44:
	movq	%r11, %r9
	shrq	$3, %r9
	movl	%r11d, %r14d
	andl	$7, %r14d
	leaq	(%r14,%r10), %r15
	cmpq	$64, %rbx
	jb	.LBB25_48
	cmpq	$64, %r15
	ja	.LBB25_48
	movq	(%rsi,%r9), %r9
	testb	%dl, %dl
	je	.LBB25_52
	negb	%r15b
	shlxq	%r15, %r9, %r9
	jmp	.LBB25_43
	.p2align	4
.LBB25_48:
	leaq	7(%r15), %r12
	shrq	$3, %r12
	addq	%rsi, %r9
	cmpq	$8, %r10
	jbe	.LBB25_49
	cmpq	$24, %r10
	ja	.LBB25_53
	movzwl	(%r9), %r13d
	movzwl	-2(%r9,%r12), %r9d
	movl	$2, %ebp
	testb	%dl, %dl
	jne	.LBB25_41
	jmp	.LBB25_56
.LBB25_52:
	bswapq	%r9
	shlxq	%r14, %r9, %r9
	jmp	.LBB25_43
.LBB25_53:
	cmpq	$56, %r10
	ja	.LBB25_55
	movl	(%r9), %r13d
	movl	-4(%r9,%r12), %r9d
	movl	$4, %ebp
	testb	%dl, %dl
	jne	.LBB25_41
	jmp	.LBB25_56
.LBB25_55:
	movq	(%r9), %r13
	movq	-8(%r9,%r12), %r9
	movl	$8, %ebp
	testb	%dl, %dl
	jne	.LBB25_41
.LBB25_56:
	bswapq	%r13
	shlxq	%r14, %r13, %rax
	bswapq	%r9
	subl	%ebp, %r12d
	shll	$3, %r12d
	subl	%r14d, %r12d
	shrxq	%r12, %r9, %r9
	orq	%rax, %r9
	jmp	.LBB25_42
.LBB25_57:
	xorq	%r12, %r8
	movq	%r9, %rdx
	subq	%r11, %rdx
	cmpq	$4, %rdx
	jb	.LBB25_67
	vmovq	%r8, %xmm0
	cmpq	$16, %rdx
	jae	.LBB25_60
	xorl	%ecx, %ecx
	jmp	.LBB25_64
.LBB25_60:
	movq	%rdx, %rcx
	andq	$-16, %rcx
	vpbroadcastq	%xmm0, %ymm1
	leaq	(%rax,%r11,8), %rsi
	addq	$96, %rsi
	xorl	%edi, %edi
	.p2align	4
.LBB25_61:
	vmovdqu	%ymm1, -96(%rsi,%rdi,8)
	vmovdqu	%ymm1, -64(%rsi,%rdi,8)
	vmovdqu	%ymm1, -32(%rsi,%rdi,8)
	vmovdqu	%ymm1, (%rsi,%rdi,8)
	addq	$16, %rdi
	cmpq	%rdi, %rcx
	jne	.LBB25_61
	cmpq	%rcx, %rdx
	je	.LBB25_68
	testb	$12, %dl
	je	.LBB25_74
.LBB25_64:
	movq	%rdx, %rsi
	andq	$-4, %rsi
	vpbroadcastq	%xmm0, %ymm0
	leaq	(%rax,%r11,8), %rdi
	addq	%rsi, %r11
	.p2align	4
.LBB25_65:
	vmovdqu	%ymm0, (%rdi,%rcx,8)
	addq	$4, %rcx
	cmpq	%rcx, %rsi
	jne	.LBB25_65
	cmpq	%rsi, %rdx
	je	.LBB25_68
	.p2align	4
.LBB25_67:
	movq	%r8, (%rax,%r11,8)
	incq	%r11
	cmpq	%r11, %r9
	jne	.LBB25_67
.LBB25_68:
	addq	$104, %rsp
	popq	%rbx
	popq	%r12
	popq	%r13
	popq	%r14
	popq	%r15
	popq	%rbp
	vzeroupper
	retq
.LBB25_69:
	movq	%rdi, %r8
	shrq	$3, %r8
	movq	%r10, %r9
	xorq	$1, %r9
	leaq	8(%rax), %r11
	movq	%r8, %rcx
	shlq	$6, %rcx
	shrq	$61, %rdi
	leaq	(%rax,%rcx), %rbx
	addq	$8, %rbx
	cmpq	%r11, %rbx
	setb	%r11b
	orq	%r9, %rdi
	setne	-80(%rsp)
	leaq	16(%rax), %rdi
	leaq	(%rax,%rcx), %rbx
	addq	$16, %rbx
	cmpq	%rdi, %rbx
	setb	%dil
	leaq	24(%rax), %rbx
	leaq	(%rax,%rcx), %r15
	addq	$24, %r15
	cmpq	%rbx, %r15
	setb	%bl
	leaq	40(%rax), %r15
	leaq	(%rax,%rcx), %r13
	addq	$40, %r13
	cmpq	%r15, %r13
	setb	%bpl
	leaq	48(%rax), %r15
	leaq	(%rax,%rcx), %r13
	addq	$48, %r13
	cmpq	%r15, %r13
	setb	%r15b
	leaq	56(%rax), %r13
	leaq	(%rax,%rcx), %r9
	addq	$56, %r9
	cmpq	%r13, %r9
	setb	%r9b
	movq	-120(%rsp), %rdx
	leaq	(%rdx,%r8), %r13
	cmpq	%rdx, %r13
	setb	%r13b
	orb	%r11b, %dil
	orb	%bl, %dil
	orb	-80(%rsp), %dil
	orb	%bpl, %r15b
	orb	%r9b, %r15b
	orb	%r13b, %r15b
	orb	%dil, %r15b
	testb	$1, %r15b
	jne	.LBB25_71
	addq	%rax, %rcx
	addq	$64, %rcx
	leaq	(%rdx,%r8), %rdi
	addq	$8, %rdi
	cmpq	%rdi, %rax
	setb	%dil
	cmpq	%rcx, %rdx
	setb	%cl
	testb	%cl, %dil
	je	.LBB25_78
.LBB25_71:
	xorl	%r11d, %r11d
	xorl	%r13d, %r13d
	leaq	(%r10,%r10,2), %rdx
.LBB25_72:
	vpbroadcastq	%xmm1, %ymm0
	vpbroadcastq	%xmm2, %ymm1
	vpbroadcastq	%xmm3, %ymm2
	movq	-88(%rsp), %rdi
	subq	%r11, %rdi
	addq	-120(%rsp), %r13
	.p2align	4
.LBB25_73:
	movbeq	(%r13,%r14), %rcx
	movbeq	(%r13), %r9
	shlxq	%rdx, %r9, %rbx
	shlxq	%r12, %r9, %r15
	shlxq	%r10, %r9, %rbp
	vmovq	%rbx, %xmm3
	vmovq	%r15, %xmm4
	vpunpcklqdq	%xmm3, %xmm4, %xmm3
	vmovq	%rbp, %xmm4
	vmovq	%r9, %xmm5
	vpunpcklqdq	%xmm4, %xmm5, %xmm4
	vinserti128	$1, %xmm3, %ymm4, %ymm3
	vpsrlvq	%ymm0, %ymm3, %ymm3
	vpsrlq	$32, %ymm1, %ymm4
	vpmuludq	%ymm4, %ymm3, %ymm5
	vpsrlq	$32, %ymm3, %ymm6
	vpmuludq	%ymm1, %ymm6, %ymm6
	vpaddq	%ymm6, %ymm5, %ymm5
	vpsllq	$32, %ymm5, %ymm5
	vpmuludq	%ymm1, %ymm3, %ymm3
	vpaddq	%ymm2, %ymm3, %ymm3
	vpaddq	%ymm5, %ymm3, %ymm3
	vpbroadcastq	.LCPI25_1(%rip), %ymm5
	vpxor	%ymm5, %ymm3, %ymm3
	vmovdqu	%ymm3, (%rax,%r11,8)
	shlxq	%rsi, %rcx, %rcx
	shlxq	%r10, %rcx, %r9
	shlxq	%r12, %rcx, %rbx
	shlxq	%rdx, %rcx, %r15
	vmovq	%r15, %xmm3
	vmovq	%rbx, %xmm6
	vpunpcklqdq	%xmm3, %xmm6, %xmm3
	vmovq	%rcx, %xmm6
	vmovq	%r9, %xmm7
	vpunpcklqdq	%xmm7, %xmm6, %xmm6
	vinserti128	$1, %xmm3, %ymm6, %ymm3
	vpsrlvq	%ymm0, %ymm3, %ymm3
	vpmuludq	%ymm4, %ymm3, %ymm4
	vpsrlq	$32, %ymm3, %ymm6
	vpmuludq	%ymm1, %ymm6, %ymm6
	vpaddq	%ymm6, %ymm4, %ymm4
	vpsllq	$32, %ymm4, %ymm4
	vpmuludq	%ymm1, %ymm3, %ymm3
	vpaddq	%ymm2, %ymm3, %ymm3
	vpaddq	%ymm4, %ymm3, %ymm3
	vpxor	%ymm5, %ymm3, %ymm3
	vmovdqu	%ymm3, 32(%rax,%r11,8)
	addq	$8, %r11
	addq	$-8, %rdi
	addq	%r10, %r13
	cmpq	$71, %rdi
	ja	.LBB25_73
	jmp	.LBB25_38
.LBB25_74:
	addq	%rcx, %r11
	jmp	.LBB25_67
.LBB25_75:
	incq	%rbx
	movq	%rbx, %r13
	andq	$-4, %r13
	leaq	(,%r13,8), %r11
	vmovq	%r8, %xmm1
	vpbroadcastq	%xmm1, %ymm1
	vmovq	%r12, %xmm2
	vpbroadcastq	%xmm2, %ymm2
	vmovq	%rsi, %xmm3
	vpbroadcastq	%xmm3, %ymm3
	vmovdqa	%xmm0, -80(%rsp)
	vpbroadcastq	%xmm0, %ymm4
	vmovq	-104(%rsp), %xmm5
	vpbroadcastq	%xmm5, %ymm5
	leaq	3(%rdx), %rbp
	movq	%r13, %r15
	movq	%rax, %rdi
.LBB25_76:
	vmovq	(%rbp), %xmm6
	vmovq	-1(%rbp), %xmm7
	vpunpcklqdq	%xmm6, %xmm7, %xmm6
	vmovq	-2(%rbp), %xmm7
	vmovq	-3(%rbp), %xmm8
	vpunpcklqdq	%xmm7, %xmm8, %xmm7
	vinserti128	$1, %xmm6, %ymm7, %ymm6
	vbroadcasti128	.LCPI25_2(%rip), %ymm7
	vpshufb	%ymm7, %ymm6, %ymm6
	vmovq	(%rbp,%r14), %xmm8
	vmovq	-1(%rbp,%r14), %xmm9
	vpunpcklqdq	%xmm8, %xmm9, %xmm8
	vmovq	-2(%rbp,%r14), %xmm9
	vmovq	-3(%rbp,%r14), %xmm10
	vpunpcklqdq	%xmm9, %xmm10, %xmm9
	vinserti128	$1, %xmm8, %ymm9, %ymm8
	vpshufb	%ymm7, %ymm8, %ymm7
	vpsllvq	%ymm3, %ymm7, %ymm7
	vpaddq	%ymm6, %ymm6, %ymm8
	vpsllvq	%ymm1, %ymm6, %ymm9
	vpsllvq	%ymm2, %ymm6, %ymm10
	vpaddq	%ymm7, %ymm7, %ymm11
	vpsllvq	%ymm1, %ymm7, %ymm12
	vpsllvq	%ymm2, %ymm7, %ymm13
	vpsrlvq	%ymm4, %ymm9, %ymm9
	vpsrlvq	%ymm4, %ymm10, %ymm10
	vpsrlvq	%ymm4, %ymm8, %ymm8
	vpsrlvq	%ymm4, %ymm6, %ymm6
	vpaddq	%ymm5, %ymm6, %ymm6
	vpaddq	%ymm5, %ymm8, %ymm8
	vpaddq	%ymm5, %ymm10, %ymm10
	vpaddq	%ymm5, %ymm9, %ymm9
	vpsrlvq	%ymm4, %ymm12, %ymm12
	vpsrlvq	%ymm4, %ymm13, %ymm13
	vpsrlvq	%ymm4, %ymm11, %ymm11
	vpsrlvq	%ymm4, %ymm7, %ymm7
	vpaddq	%ymm5, %ymm7, %ymm7
	vpaddq	%ymm5, %ymm11, %ymm11
	vpaddq	%ymm5, %ymm13, %ymm13
	vpaddq	%ymm5, %ymm12, %ymm12
	vpunpckhqdq	%ymm13, %ymm12, %ymm14
	vpunpckhqdq	%ymm11, %ymm7, %ymm15
	vperm2i128	$49, %ymm14, %ymm15, %ymm14
	vpunpcklqdq	%ymm13, %ymm12, %ymm15
	vpunpcklqdq	%ymm11, %ymm7, %ymm0
	vperm2i128	$49, %ymm15, %ymm0, %ymm0
	vinserti128	$1, %xmm13, %ymm11, %ymm11
	vinserti128	$1, %xmm12, %ymm7, %ymm7
	vpunpckhqdq	%ymm11, %ymm7, %ymm12
	vpunpcklqdq	%ymm11, %ymm7, %ymm7
	vpunpckhqdq	%ymm10, %ymm9, %ymm11
	vpunpckhqdq	%ymm8, %ymm6, %ymm13
	vperm2i128	$49, %ymm11, %ymm13, %ymm11
	vpunpcklqdq	%ymm10, %ymm9, %ymm13
	vpunpcklqdq	%ymm8, %ymm6, %ymm15
	vperm2i128	$49, %ymm13, %ymm15, %ymm13
	vinserti128	$1, %xmm10, %ymm8, %ymm8
	vinserti128	$1, %xmm9, %ymm6, %ymm6
	vpunpckhqdq	%ymm8, %ymm6, %ymm9
	vpunpcklqdq	%ymm8, %ymm6, %ymm6
	vpbroadcastq	.LCPI25_1(%rip), %ymm8
	vpxor	%ymm7, %ymm8, %ymm7
	vpxor	%ymm8, %ymm12, %ymm10
	vpxor	%ymm0, %ymm8, %ymm0
	vpxor	%ymm8, %ymm14, %ymm12
	vpxor	%ymm6, %ymm8, %ymm6
	vpxor	%ymm8, %ymm9, %ymm9
	vpxor	%ymm8, %ymm13, %ymm13
	vpxor	%ymm8, %ymm11, %ymm8
	vmovdqu	%ymm8, 192(%rdi)
	vmovdqu	%ymm13, 128(%rdi)
	vmovdqu	%ymm12, 224(%rdi)
	vmovdqu	%ymm0, 160(%rdi)
	vmovdqu	%ymm9, 64(%rdi)
	vmovdqu	%ymm6, (%rdi)
	vmovdqu	%ymm10, 96(%rdi)
	vmovdqu	%ymm7, 32(%rdi)
	addq	$4, %rbp
	addq	$256, %rdi
	addq	$-4, %r15
	jne	.LBB25_76
	cmpq	%r13, %rbx
	vmovdqa	-80(%rsp), %xmm0
	jne	.LBB25_17
	jmp	.LBB25_38
.LBB25_78:
	incq	%r8
	movq	%r8, %r13
	andq	$-4, %r13
	leaq	(,%r13,8), %r11
	vmovq	%r12, %xmm0
	vpbroadcastq	%xmm0, %ymm0
	vmovdqu	%ymm0, (%rsp)
	leaq	(%r10,%r10,2), %rcx
	vmovq	%rcx, %xmm0
	vpbroadcastq	%xmm0, %ymm0
	vmovdqu	%ymm0, 64(%rsp)
	vmovq	%rsi, %xmm0
	vpbroadcastq	%xmm0, %ymm0
	vmovdqu	%ymm0, 32(%rsp)
	vmovdqa	%xmm1, -16(%rsp)
	vpbroadcastq	%xmm1, %ymm6
	vmovdqa	%xmm2, -32(%rsp)
	vpbroadcastq	%xmm2, %ymm7
	vmovdqa	%xmm3, -48(%rsp)
	vpbroadcastq	%xmm3, %ymm8
	leaq	3(%rdx), %rbp
	movq	%r13, %r15
	movq	%rax, %rdi
.LBB25_79:
	vmovq	(%rbp), %xmm0
	vmovq	-1(%rbp), %xmm9
	vpunpcklqdq	%xmm0, %xmm9, %xmm0
	vmovq	-2(%rbp), %xmm9
	vmovq	-3(%rbp), %xmm10
	vpunpcklqdq	%xmm9, %xmm10, %xmm9
	vinserti128	$1, %xmm0, %ymm9, %ymm0
	vbroadcasti128	.LCPI25_2(%rip), %ymm9
	vpshufb	%ymm9, %ymm0, %ymm10
	vmovq	(%rbp,%r14), %xmm0
	vmovq	-1(%rbp,%r14), %xmm11
	vpunpcklqdq	%xmm0, %xmm11, %xmm0
	vmovq	-2(%rbp,%r14), %xmm11
	vmovq	-3(%rbp,%r14), %xmm12
	vpunpcklqdq	%xmm11, %xmm12, %xmm11
	vinserti128	$1, %xmm0, %ymm11, %ymm0
	vpshufb	%ymm9, %ymm0, %ymm0
	vpsllvq	32(%rsp), %ymm0, %ymm14
	vpaddq	%ymm10, %ymm10, %ymm11
	vmovdqu	(%rsp), %ymm1
	vpsllvq	%ymm1, %ymm10, %ymm12
	vmovdqu	64(%rsp), %ymm0
	vpsllvq	%ymm0, %ymm10, %ymm13
	vpaddq	%ymm14, %ymm14, %ymm15
	vpsllvq	%ymm1, %ymm14, %ymm1
	vmovdqu	%ymm1, -80(%rsp)
	vpsrlvq	%ymm6, %ymm10, %ymm9
	vpsrlvq	%ymm6, %ymm11, %ymm10
	vpsrlvq	%ymm6, %ymm13, %ymm11
	vpsrlvq	%ymm6, %ymm12, %ymm12
	vpsrlq	$32, %ymm7, %ymm13
	vpmuludq	%ymm13, %ymm12, %ymm1
	vpsrlq	$32, %ymm12, %ymm2
	vpmuludq	%ymm7, %ymm2, %ymm2
	vpaddq	%ymm2, %ymm1, %ymm1
	vpmuludq	%ymm13, %ymm11, %ymm2
	vpsrlq	$32, %ymm11, %ymm5
	vpmuludq	%ymm7, %ymm5, %ymm5
	vpaddq	%ymm5, %ymm2, %ymm2
	vpmuludq	%ymm13, %ymm10, %ymm5
	vpsrlq	$32, %ymm10, %ymm3
	vpmuludq	%ymm7, %ymm3, %ymm3
	vpaddq	%ymm3, %ymm5, %ymm3
	vpmuludq	%ymm13, %ymm9, %ymm5
	vpsrlq	$32, %ymm9, %ymm4
	vpmuludq	%ymm7, %ymm4, %ymm4
	vpaddq	%ymm4, %ymm5, %ymm4
	vpsllvq	%ymm0, %ymm14, %ymm5
	vpsllq	$32, %ymm1, %ymm1
	vpmuludq	%ymm7, %ymm12, %ymm12
	vpsllq	$32, %ymm2, %ymm2
	vpmuludq	%ymm7, %ymm11, %ymm11
	vpsllq	$32, %ymm3, %ymm3
	vpmuludq	%ymm7, %ymm10, %ymm10
	vpsllq	$32, %ymm4, %ymm4
	vpmuludq	%ymm7, %ymm9, %ymm9
	vpaddq	%ymm8, %ymm9, %ymm9
	vpaddq	%ymm4, %ymm9, %ymm9
	vpaddq	%ymm8, %ymm10, %ymm4
	vpaddq	%ymm3, %ymm4, %ymm10
	vpaddq	%ymm8, %ymm11, %ymm3
	vpaddq	%ymm2, %ymm3, %ymm11
	vpaddq	%ymm8, %ymm12, %ymm2
	vpaddq	%ymm1, %ymm2, %ymm12
	vpsrlvq	%ymm6, %ymm14, %ymm1
	vpsrlvq	%ymm6, %ymm15, %ymm0
	vpsrlvq	%ymm6, %ymm5, %ymm2
	vmovdqu	-80(%rsp), %ymm3
	vpsrlvq	%ymm6, %ymm3, %ymm3
	vpmuludq	%ymm3, %ymm13, %ymm4
	vpsrlq	$32, %ymm3, %ymm5
	vpmuludq	%ymm7, %ymm5, %ymm5
	vpaddq	%ymm5, %ymm4, %ymm4
	vpmuludq	%ymm2, %ymm13, %ymm5
	vpsrlq	$32, %ymm2, %ymm14
	vpmuludq	%ymm7, %ymm14, %ymm14
	vpaddq	%ymm5, %ymm14, %ymm5
	vpmuludq	%ymm0, %ymm13, %ymm14
	vpsrlq	$32, %ymm0, %ymm15
	vpmuludq	%ymm7, %ymm15, %ymm15
	vpaddq	%ymm15, %ymm14, %ymm14
	vpmuludq	%ymm1, %ymm13, %ymm13
	vpsrlq	$32, %ymm1, %ymm15
	vpmuludq	%ymm7, %ymm15, %ymm15
	vpaddq	%ymm15, %ymm13, %ymm13
	vpsllq	$32, %ymm13, %ymm13
	vpmuludq	%ymm7, %ymm1, %ymm1
	vpaddq	%ymm1, %ymm8, %ymm1
	vpaddq	%ymm1, %ymm13, %ymm1
	vpsllq	$32, %ymm4, %ymm4
	vpmuludq	%ymm7, %ymm3, %ymm3
	vpsllq	$32, %ymm5, %ymm5
	vpmuludq	%ymm7, %ymm2, %ymm2
	vpsllq	$32, %ymm14, %ymm13
	vpmuludq	%ymm7, %ymm0, %ymm0
	vpaddq	%ymm0, %ymm8, %ymm0
	vpaddq	%ymm0, %ymm13, %ymm0
	vpaddq	%ymm2, %ymm8, %ymm2
	vpaddq	%ymm5, %ymm2, %ymm2
	vpaddq	%ymm3, %ymm8, %ymm3
	vpaddq	%ymm4, %ymm3, %ymm3
	vpunpckhqdq	%ymm2, %ymm3, %ymm4
	vpunpckhqdq	%ymm0, %ymm1, %ymm5
	vperm2i128	$49, %ymm4, %ymm5, %ymm4
	vpunpcklqdq	%ymm2, %ymm3, %ymm5
	vpunpcklqdq	%ymm0, %ymm1, %ymm13
	vperm2i128	$49, %ymm5, %ymm13, %ymm5
	vinserti128	$1, %xmm2, %ymm0, %ymm0
	vinserti128	$1, %xmm3, %ymm1, %ymm1
	vpunpckhqdq	%ymm0, %ymm1, %ymm2
	vpunpcklqdq	%ymm0, %ymm1, %ymm0
	vpunpckhqdq	%ymm11, %ymm12, %ymm1
	vpunpckhqdq	%ymm10, %ymm9, %ymm3
	vperm2i128	$49, %ymm1, %ymm3, %ymm1
	vpunpcklqdq	%ymm11, %ymm12, %ymm3
	vpunpcklqdq	%ymm10, %ymm9, %ymm13
	vperm2i128	$49, %ymm3, %ymm13, %ymm3
	vinserti128	$1, %xmm11, %ymm10, %ymm10
	vinserti128	$1, %xmm12, %ymm9, %ymm9
	vpunpckhqdq	%ymm10, %ymm9, %ymm11
	vpunpcklqdq	%ymm10, %ymm9, %ymm9
	vpbroadcastq	.LCPI25_1(%rip), %ymm10
	vpxor	%ymm0, %ymm10, %ymm0
	vpxor	%ymm2, %ymm10, %ymm2
	vpxor	%ymm5, %ymm10, %ymm5
	vpxor	%ymm4, %ymm10, %ymm4
	vpxor	%ymm10, %ymm9, %ymm9
	vpxor	%ymm10, %ymm11, %ymm11
	vpxor	%ymm3, %ymm10, %ymm3
	vpxor	%ymm1, %ymm10, %ymm1
	vmovdqu	%ymm1, 192(%rdi)
	vmovdqu	%ymm3, 128(%rdi)
	vmovdqu	%ymm4, 224(%rdi)
	vmovdqu	%ymm5, 160(%rdi)
	vmovdqu	%ymm11, 64(%rdi)
	vmovdqu	%ymm9, (%rdi)
	vmovdqu	%ymm2, 96(%rdi)
	vmovdqu	%ymm0, 32(%rdi)
	addq	$4, %rbp
	addq	$256, %rdi
	addq	$-4, %r15
	jne	.LBB25_79
	cmpq	%r13, %r8
	leaq	(%r10,%r10,2), %rdx
	vmovdqa	-16(%rsp), %xmm1
	vmovdqa	-32(%rsp), %xmm2
	vmovdqa	-48(%rsp), %xmm3
	je	.LBB25_38
	jmp	.LBB25_72
.Lfunc_end25:
	.size	"scaled_reader::fill", .Lfunc_end25-"scaled_reader::fill"

	.section	.rodata.cst32,"aM",@progbits,32
	.p2align	5, 0x0
.LCPI26_0:
	.zero	32,15
.LCPI26_1:
	.byte	0
	.byte	1
	.byte	1
	.byte	2
	.byte	1
	.byte	2
	.byte	2
	.byte	3
	.byte	1
	.byte	2
	.byte	2
	.byte	3
	.byte	2
	.byte	3
	.byte	3
	.byte	4
	.byte	0
	.byte	1
	.byte	1
	.byte	2
	.byte	1
	.byte	2
	.byte	2
	.byte	3
	.byte	1
	.byte	2
	.byte	2
	.byte	3
	.byte	2
	.byte	3
	.byte	3
	.byte	4
	.section	.rodata.cst16,"aM",@progbits,16
	.p2align	4, 0x0
.LCPI26_2:
	.zero	16,1
.LCPI26_3:
	.zero	2
	.short	65535
	.short	65535
	.short	65535
	.short	65535
	.short	65535
	.short	65535
	.short	65535
.LCPI26_4:
	.quad	281479271743489
	.quad	281479271743489
.LCPI26_5:
	.quad	4294967297
	.quad	4294967297
.LCPI26_7:
	.byte	0
	.byte	1
	.byte	1
	.byte	2
	.byte	1
	.byte	2
	.byte	2
	.byte	3
	.byte	1
	.byte	2
	.byte	2
	.byte	3
	.byte	2
	.byte	3
	.byte	3
	.byte	4
	.section	.rodata.cst4,"aM",@progbits,4
	.p2align	2, 0x0
.LCPI26_6:
	.zero	4,15
.LCPI26_8:
	.zero	4,1
.LCPI26_9:
	.zero	4,255
	.section	".text.set_check::walk","ax",@progbits
	.p2align	4
	.type	"set_check::walk",@function
"set_check::walk":
	pushq	%rbp
	pushq	%r15
	pushq	%r14
	pushq	%r13
	pushq	%r12
	pushq	%rbx
	subq	$48, %rsp
	movl	$5, %eax
	testq	%rdx, %rdx
	je	.LBB26_1
	movzbl	(%rsi), %r8d
	movl	$1, %r9d
	testb	%r8b, %r8b
	js	.LBB26_3
.LBB26_13:
	testq	%r8, %r8
	je	.LBB26_14
	movl	%ecx, %eax
	shrl	$16, %eax
	movq	%rax, 40(%rsp)
	movzwl	%cx, %r10d
	movl	%r10d, %r11d
	shrl	$6, %r11d
	movq	%r11, -120(%rsp)
	movl	%r10d, %ebx
	andl	$63, %ebx
	movq	$-1, %rax
	movq	%rbx, 32(%rsp)
	shlxq	%rbx, %rax, %rax
	notq	%rax
	movq	%rax, 24(%rsp)
	movl	%r11d, %eax
	andl	$-16, %eax
	movq	%rax, 8(%rsp)
	andl	$-4, %r11d
	movq	%r11, -128(%rsp)
	movq	%r10, -104(%rsp)
	vmovq	%r10, %xmm0
	vpbroadcastq	%xmm0, %ymm0
	movl	$1, %eax
	subq	%rdx, %rax
	movq	%rax, -48(%rsp)
	leaq	1(%rsi), %rax
	movq	%rax, -56(%rsp)
	leaq	96(%rsi), %rax
	movq	%rax, -8(%rsp)
	leaq	98(%rsi), %rax
	movq	%rax, -24(%rsp)
	leaq	2(%rsi), %rax
	movq	%rax, -16(%rsp)
	shrl	$3, %ecx
	andl	$8064, %ecx
	movq	%rcx, 16(%rsp)
	leaq	24(%rsi), %rax
	movq	%rax, -32(%rsp)
	xorl	%r13d, %r13d
	xorl	%r15d, %r15d
	movq	$0, -72(%rsp)
	xorl	%ecx, %ecx
	movq	%rsi, -112(%rsp)
.LBB26_16:
	movl	$5, %ebp
	cmpq	%r9, %rdx
	jbe	.LBB26_167
	movzbl	(%rsi,%r9), %r12d
	leaq	1(%r9), %r11
	testb	%r12b, %r12b
	movq	%r15, -64(%rsp)
	js	.LBB26_18
	xorl	%r15d, %r15d
	cmpq	%r13, %r12
	jb	.LBB26_36
.LBB26_26:
	cmpq	$32765, %r12
	ja	.LBB26_36
	cmpq	%r11, %rdx
	jbe	.LBB26_167
	movq	-112(%rsp), %rax
	movzbl	(%rax,%r11), %r13d
	leaq	1(%r11), %r14
	testb	%r13b, %r13b
	js	.LBB26_29
	xorl	%r15d, %r15d
	cmpq	$3, %r13
	cmovael	%r15d, %r13d
	jae	.LBB26_36
.LBB26_37:
	cmpq	%r14, %rdx
	jbe	.LBB26_167
	movq	-112(%rsp), %rax
	movzbl	(%rax,%r14), %r9d
	leaq	1(%r14), %r10
	testb	%r9b, %r9b
	movq	%rcx, -96(%rsp)
	js	.LBB26_39
	movzbl	%r13b, %r14d
	cmpb	$2, %r14b
	je	.LBB26_50
.LBB26_46:
	cmpl	$1, %r14d
	jne	.LBB26_47
	xorl	%r15d, %r15d
	cmpq	$4095, %r9
	jbe	.LBB26_48
	jmp	.LBB26_36
.LBB26_18:
	cmpq	%rdx, %r11
	jae	.LBB26_167
	addq	$-128, %r12
	movq	-48(%rsp), %rax
	leaq	(%rax,%r9), %r15
	movq	-56(%rsp), %rax
	leaq	(%rax,%r9), %rbp
	movl	$128, %r14d
	xorl	%r11d, %r11d
	.p2align	4
.LBB26_20:
	movzbl	(%rbp,%r11), %eax
	xorl	%ebx, %ebx
	testq	%rax, %rax
	sete	%bl
	xorl	%r10d, %r10d
	cmpq	$1, %rax
	setne	%r10b
	cmpq	$8, %r11
	cmovel	%r10d, %ebx
	testb	%bl, %bl
	jne	.LBB26_165
	testb	%al, %al
	jns	.LBB26_24
	addq	$-128, %rax
	imulq	%r14, %rax
	addq	%rax, %r12
	shlq	$7, %r14
	incq	%r11
	movq	%r15, %rax
	addq	%r11, %rax
	jne	.LBB26_20
	jmp	.LBB26_23
.LBB26_29:
	cmpq	%rdx, %r14
	jae	.LBB26_167
	addq	$-128, %r13
	movq	-48(%rsp), %rax
	leaq	(%rax,%r11), %r15
	movq	-56(%rsp), %rax
	leaq	(%rax,%r11), %rbp
	movl	$128, %r14d
	xorl	%r9d, %r9d
	.p2align	4
.LBB26_31:
	movzbl	(%rbp,%r9), %eax
	xorl	%r10d, %r10d
	testq	%rax, %rax
	sete	%r10b
	xorl	%ebx, %ebx
	cmpq	$1, %rax
	setne	%bl
	cmpq	$8, %r9
	cmovel	%ebx, %r10d
	testb	%r10b, %r10b
	jne	.LBB26_164
	testb	%al, %al
	jns	.LBB26_34
	addq	$-128, %rax
	imulq	%r14, %rax
	addq	%rax, %r13
	shlq	$7, %r14
	incq	%r9
	movq	%r15, %rax
	addq	%r9, %rax
	jne	.LBB26_31
	jmp	.LBB26_23
.LBB26_39:
	cmpq	%rdx, %r10
	jae	.LBB26_167
	addq	$-128, %r9
	movq	-48(%rsp), %rax
	leaq	(%rax,%r14), %rbp
	movq	-56(%rsp), %rax
	addq	%r14, %rax
	movl	$128, %r15d
	xorl	%r11d, %r11d
	.p2align	4
.LBB26_41:
	movzbl	(%rax,%r11), %ebx
	xorl	%r10d, %r10d
	testq	%rbx, %rbx
	sete	%r10b
	xorl	%ecx, %ecx
	cmpq	$1, %rbx
	setne	%cl
	cmpq	$8, %r11
	cmovel	%ecx, %r10d
	testb	%r10b, %r10b
	jne	.LBB26_163
	testb	%bl, %bl
	jns	.LBB26_44
	addq	$-128, %rbx
	imulq	%r15, %rbx
	addq	%rbx, %r9
	shlq	$7, %r15
	incq	%r11
	movq	%rbp, %rcx
	addq	%r11, %rcx
	jne	.LBB26_41
	jmp	.LBB26_23
.LBB26_47:
	leaq	-4097(%r9), %rax
	xorl	%r15d, %r15d
	cmpq	$-4096, %rax
	jb	.LBB26_36
.LBB26_48:
	cmpq	%r10, %rdx
	jb	.LBB26_36
	leaq	(%r9,%r9), %rax
	jmp	.LBB26_52
.LBB26_24:
	imulq	%rax, %r14
	addq	%r14, %r12
	addq	%r9, %r11
	addq	$2, %r11
	movl	$5, %ebp
	xorl	%r15d, %r15d
	cmpq	%r13, %r12
	jae	.LBB26_26
	jmp	.LBB26_36
.LBB26_34:
	imulq	%rax, %r14
	addq	%r14, %r13
	leaq	(%r11,%r9), %r14
	addq	$2, %r14
	movl	$5, %ebp
	xorl	%r15d, %r15d
	cmpq	$3, %r13
	cmovael	%r15d, %r13d
	jb	.LBB26_37
	jmp	.LBB26_36
.LBB26_44:
	imulq	%rbx, %r15
	addq	%r15, %r9
	leaq	(%r14,%r11), %r10
	addq	$2, %r10
	movzbl	%r13b, %r14d
	cmpb	$2, %r14b
	jne	.LBB26_46
.LBB26_50:
	xorl	%r15d, %r15d
	testq	%r9, %r9
	jne	.LBB26_36
	movl	$8192, %eax
	cmpq	%r10, %rdx
	jb	.LBB26_36
.LBB26_52:
	movq	%rdi, %rbx
	movq	%rdx, -80(%rsp)
	movq	%rdx, %rcx
	subq	%r10, %rcx
	cmpq	%rax, %rcx
	jb	.LBB26_53
	cmpb	$2, %r13b
	movq	%rbx, %rdi
	je	.LBB26_96
	cmpl	$1, %r14d
	movq	-80(%rsp), %rdx
	movq	-120(%rsp), %rsi
	movq	-128(%rsp), %r15
	movq	-96(%rsp), %rcx
	jne	.LBB26_57
	movl	$65536, %ebp
	subq	%r9, %rbp
	cmpq	$2, %r9
	jb	.LBB26_94
	movq	%r10, %rdx
	leaq	-1(%r9), %r10
	cmpq	$8, %r10
	movl	%r14d, -84(%rsp)
	jae	.LBB26_80
	movl	$1, %r14d
	movb	$1, %r11b
.LBB26_91:
	movq	%rdx, %r10
	jmp	.LBB26_92
.LBB26_96:
	movl	%r14d, %ebp
	movq	-8(%rsp), %rax
	movq	%r10, %r14
	addq	%rax, %r10
	vpxor	%xmm1, %xmm1, %xmm1
	xorl	%r11d, %r11d
	vpxor	%xmm2, %xmm2, %xmm2
	vpxor	%xmm3, %xmm3, %xmm3
	vpxor	%xmm4, %xmm4, %xmm4
	vpxor	%xmm5, %xmm5, %xmm5
	movq	-80(%rsp), %rdx
	movq	-120(%rsp), %rsi
	movq	-128(%rsp), %r15
	movq	-96(%rsp), %rcx
	.p2align	4
.LBB26_97:
	vmovdqu	-96(%r10,%r11,8), %ymm6
	vmovdqu	-64(%r10,%r11,8), %ymm7
	vmovdqu	-32(%r10,%r11,8), %ymm8
	vmovdqu	(%r10,%r11,8), %ymm9
	vpbroadcastd	.LCPI26_6(%rip), %ymm10
	vpand	%ymm6, %ymm10, %ymm11
	vbroadcasti128	.LCPI26_7(%rip), %ymm12
	vpshufb	%ymm11, %ymm12, %ymm11
	vpsrlw	$4, %ymm6, %ymm6
	vpand	%ymm6, %ymm10, %ymm6
	vpshufb	%ymm6, %ymm12, %ymm6
	vpaddb	%ymm6, %ymm11, %ymm6
	vpsadbw	%ymm1, %ymm6, %ymm6
	vpaddq	%ymm2, %ymm6, %ymm2
	vpand	%ymm7, %ymm10, %ymm6
	vpshufb	%ymm6, %ymm12, %ymm6
	vpsrlw	$4, %ymm7, %ymm7
	vpand	%ymm7, %ymm10, %ymm7
	vpshufb	%ymm7, %ymm12, %ymm7
	vpaddb	%ymm6, %ymm7, %ymm6
	vpsadbw	%ymm1, %ymm6, %ymm6
	vpaddq	%ymm3, %ymm6, %ymm3
	vpand	%ymm10, %ymm8, %ymm6
	vpshufb	%ymm6, %ymm12, %ymm6
	vpsrlw	$4, %ymm8, %ymm7
	vpand	%ymm7, %ymm10, %ymm7
	vpshufb	%ymm7, %ymm12, %ymm7
	vpaddb	%ymm6, %ymm7, %ymm6
	vpsadbw	%ymm1, %ymm6, %ymm6
	vpaddq	%ymm4, %ymm6, %ymm4
	vpand	%ymm10, %ymm9, %ymm6
	vpshufb	%ymm6, %ymm12, %ymm6
	vpsrlw	$4, %ymm9, %ymm7
	vpand	%ymm7, %ymm10, %ymm7
	vpshufb	%ymm7, %ymm12, %ymm7
	vpaddb	%ymm6, %ymm7, %ymm6
	vpsadbw	%ymm1, %ymm6, %ymm6
	vpaddq	%ymm5, %ymm6, %ymm5
	addq	$16, %r11
	cmpq	$1024, %r11
	jne	.LBB26_97
	vpaddq	%ymm2, %ymm3, %ymm1
	vpaddq	%ymm1, %ymm4, %ymm1
	vpaddq	%ymm1, %ymm5, %ymm1
	vextracti128	$1, %ymm1, %xmm2
	vpaddq	%xmm2, %xmm1, %xmm1
	vpshufd	$238, %xmm1, %xmm2
	vpaddq	%xmm2, %xmm1, %xmm1
	vmovq	%xmm1, %r11
	leaq	-4097(%r11), %rax
	cmpq	$57344, %rax
	movq	%r14, %r10
	movl	%ebp, %r14d
	movq	%r11, %rbp
	jb	.LBB26_94
	jmp	.LBB26_99
.LBB26_57:
	cmpq	$2, %r9
	jb	.LBB26_100
	leaq	-1(%r9), %rdx
	cmpq	$8, %rdx
	movl	%r14d, -84(%rsp)
	jae	.LBB26_60
	movl	$1, %r14d
	movb	$1, %r11b
	jmp	.LBB26_71
.LBB26_100:
	movl	$1, %ebp
	testq	%r9, %r9
	jne	.LBB26_94
	jmp	.LBB26_101
.LBB26_80:
	cmpq	$64, %r10
	jae	.LBB26_85
	movb	$1, %r11b
	xorl	%r15d, %r15d
	jmp	.LBB26_82
.LBB26_60:
	cmpq	$64, %rdx
	jae	.LBB26_65
	movb	$1, %r11b
	xorl	%r15d, %r15d
	jmp	.LBB26_62
.LBB26_85:
	movq	%r10, %r15
	andq	$-64, %r15
	movq	-24(%rsp), %rax
	leaq	(%rax,%rdx), %r11
	vpbroadcastd	.LCPI26_8(%rip), %xmm1
	xorl	%r14d, %r14d
	vmovdqa	%xmm1, %xmm2
	vmovdqa	%xmm1, %xmm3
	vmovdqa	%xmm1, %xmm4
.LBB26_86:
	vmovdqu	-98(%r11,%r14,2), %ymm5
	vmovdqu	-66(%r11,%r14,2), %ymm6
	vmovdqu	-34(%r11,%r14,2), %ymm7
	vmovdqu	-2(%r11,%r14,2), %ymm8
	vpmaxuw	-96(%r11,%r14,2), %ymm5, %ymm9
	vpcmpeqw	%ymm5, %ymm9, %ymm5
	vpcmpeqd	%ymm9, %ymm9, %ymm9
	vpxor	%ymm5, %ymm9, %ymm5
	vextracti128	$1, %ymm5, %xmm10
	vpacksswb	%xmm10, %xmm5, %xmm5
	vpand	%xmm5, %xmm1, %xmm1
	vpmaxuw	-64(%r11,%r14,2), %ymm6, %ymm5
	vpcmpeqw	%ymm5, %ymm6, %ymm5
	vpxor	%ymm5, %ymm9, %ymm5
	vextracti128	$1, %ymm5, %xmm6
	vpacksswb	%xmm6, %xmm5, %xmm5
	vpand	%xmm5, %xmm2, %xmm2
	vpmaxuw	-32(%r11,%r14,2), %ymm7, %ymm5
	vpcmpeqw	%ymm5, %ymm7, %ymm5
	vpxor	%ymm5, %ymm9, %ymm5
	vextracti128	$1, %ymm5, %xmm6
	vpacksswb	%xmm6, %xmm5, %xmm5
	vpmaxuw	(%r11,%r14,2), %ymm8, %ymm6
	vpand	%xmm5, %xmm3, %xmm3
	vpcmpeqw	%ymm6, %ymm8, %ymm5
	vpxor	%ymm5, %ymm9, %ymm5
	vextracti128	$1, %ymm5, %xmm6
	vpacksswb	%xmm6, %xmm5, %xmm5
	vpand	%xmm5, %xmm4, %xmm4
	addq	$64, %r14
	cmpq	%r14, %r15
	jne	.LBB26_86
	vpand	%xmm1, %xmm2, %xmm1
	vpand	%xmm1, %xmm3, %xmm1
	vpand	%xmm1, %xmm4, %xmm1
	vpsllw	$7, %xmm1, %xmm1
	vpmovmskb	%xmm1, %eax
	cmpl	$65535, %eax
	sete	%r11b
	cmpq	%r15, %r10
	jne	.LBB26_89
	movq	-120(%rsp), %rsi
	movq	-128(%rsp), %r15
	movq	%rdx, %r10
	jmp	.LBB26_74
.LBB26_65:
	movq	%rdx, %r15
	andq	$-64, %r15
	movq	-24(%rsp), %rax
	leaq	(%rax,%r10), %r11
	vpbroadcastd	.LCPI26_8(%rip), %xmm1
	xorl	%r14d, %r14d
	vmovdqa	%xmm1, %xmm2
	vmovdqa	%xmm1, %xmm3
	vmovdqa	%xmm1, %xmm4
.LBB26_66:
	vmovdqu	-98(%r11,%r14,2), %ymm5
	vmovdqu	-66(%r11,%r14,2), %ymm6
	vmovdqu	-34(%r11,%r14,2), %ymm7
	vmovdqu	-2(%r11,%r14,2), %ymm8
	vpmaxuw	-96(%r11,%r14,2), %ymm5, %ymm9
	vpcmpeqw	%ymm5, %ymm9, %ymm5
	vpcmpeqd	%ymm9, %ymm9, %ymm9
	vpxor	%ymm5, %ymm9, %ymm5
	vextracti128	$1, %ymm5, %xmm10
	vpacksswb	%xmm10, %xmm5, %xmm5
	vpand	%xmm5, %xmm1, %xmm1
	vpmaxuw	-64(%r11,%r14,2), %ymm6, %ymm5
	vpcmpeqw	%ymm5, %ymm6, %ymm5
	vpxor	%ymm5, %ymm9, %ymm5
	vextracti128	$1, %ymm5, %xmm6
	vpacksswb	%xmm6, %xmm5, %xmm5
	vpand	%xmm5, %xmm2, %xmm2
	vpmaxuw	-32(%r11,%r14,2), %ymm7, %ymm5
	vpcmpeqw	%ymm5, %ymm7, %ymm5
	vpxor	%ymm5, %ymm9, %ymm5
	vextracti128	$1, %ymm5, %xmm6
	vpacksswb	%xmm6, %xmm5, %xmm5
	vpmaxuw	(%r11,%r14,2), %ymm8, %ymm6
	vpand	%xmm5, %xmm3, %xmm3
	vpcmpeqw	%ymm6, %ymm8, %ymm5
	vpxor	%ymm5, %ymm9, %ymm5
	vextracti128	$1, %ymm5, %xmm6
	vpacksswb	%xmm6, %xmm5, %xmm5
	vpand	%xmm5, %xmm4, %xmm4
	addq	$64, %r14
	cmpq	%r14, %r15
	jne	.LBB26_66
	vpand	%xmm1, %xmm2, %xmm1
	vpand	%xmm1, %xmm3, %xmm1
	vpand	%xmm1, %xmm4, %xmm1
	vpsllw	$7, %xmm1, %xmm1
	vpmovmskb	%xmm1, %eax
	cmpl	$65535, %eax
	sete	%r11b
	cmpq	%r15, %rdx
	jne	.LBB26_69
	movq	-120(%rsp), %rsi
	movq	-128(%rsp), %r15
	jmp	.LBB26_73
.LBB26_89:
	testb	$56, %r10b
	je	.LBB26_90
.LBB26_82:
	movq	%r10, %rax
	andq	$-8, %rax
	leaq	1(%rax), %r14
	movzbl	%r11b, %ecx
	vpbroadcastd	.LCPI26_9(%rip), %xmm1
	vpinsrw	$0, %ecx, %xmm1, %xmm1
	movq	-16(%rsp), %rcx
	leaq	(%rcx,%rdx), %r11
	.p2align	4
.LBB26_83:
	vmovdqu	-2(%r11,%r15,2), %xmm2
	vpmaxuw	(%r11,%r15,2), %xmm2, %xmm3
	vpcmpeqw	%xmm3, %xmm2, %xmm2
	vpandn	%xmm1, %xmm2, %xmm1
	addq	$8, %r15
	cmpq	%r15, %rax
	jne	.LBB26_83
	vptest	.LCPI26_4(%rip), %xmm1
	setb	%r11b
	cmpq	%rax, %r10
	movq	-120(%rsp), %rsi
	movq	-128(%rsp), %r15
	movq	%rdx, %r10
	je	.LBB26_74
.LBB26_92:
	movq	-112(%rsp), %rax
	addq	%r10, %rax
	.p2align	4
.LBB26_93:
	movzwl	-2(%rax,%r14,2), %ecx
	cmpw	(%rax,%r14,2), %cx
	setb	%cl
	andb	%cl, %r11b
	incq	%r14
	cmpq	%r14, %r9
	jne	.LBB26_93
	jmp	.LBB26_74
.LBB26_69:
	testb	$56, %dl
	je	.LBB26_70
.LBB26_62:
	movq	%rdx, %rax
	andq	$-8, %rax
	leaq	1(%rax), %r14
	movzbl	%r11b, %ecx
	vpbroadcastd	.LCPI26_9(%rip), %xmm1
	vpinsrw	$0, %ecx, %xmm1, %xmm1
	movq	-16(%rsp), %rcx
	leaq	(%rcx,%r10), %r11
	.p2align	4
.LBB26_63:
	vmovdqu	-2(%r11,%r15,2), %xmm2
	vpmaxuw	(%r11,%r15,2), %xmm2, %xmm3
	vpcmpeqw	%xmm3, %xmm2, %xmm2
	vpandn	%xmm1, %xmm2, %xmm1
	addq	$8, %r15
	cmpq	%r15, %rax
	jne	.LBB26_63
	vptest	.LCPI26_4(%rip), %xmm1
	setb	%r11b
	cmpq	%rax, %rdx
	movq	-120(%rsp), %rsi
	movq	-128(%rsp), %r15
	je	.LBB26_73
.LBB26_71:
	movq	-112(%rsp), %rax
	addq	%r10, %rax
	.p2align	4
.LBB26_72:
	movzwl	-2(%rax,%r14,2), %ecx
	cmpw	(%rax,%r14,2), %cx
	setb	%cl
	andb	%cl, %r11b
	incq	%r14
	cmpq	%r14, %r9
	jne	.LBB26_72
.LBB26_73:
	movq	%r9, %rbp
.LBB26_74:
	testb	%r11b, %r11b
	movq	%rbx, %rdi
	movq	-80(%rsp), %rdx
	movq	-96(%rsp), %rcx
	movl	-84(%rsp), %r14d
	je	.LBB26_75
.LBB26_94:
	cmpq	40(%rsp), %r12
	jae	.LBB26_102
	addq	%rbp, -72(%rsp)
	movq	-64(%rsp), %r15
	cmpb	$2, %r13b
	jne	.LBB26_157
	jmp	.LBB26_156
.LBB26_102:
	jbe	.LBB26_104
	movq	-64(%rsp), %r15
	cmpb	$2, %r13b
	je	.LBB26_156
.LBB26_157:
	cmpl	$1, %r14d
	addq	%r9, %r9
	jmp	.LBB26_158
.LBB26_104:
	cmpb	$2, %r13b
	je	.LBB26_139
	cmpl	$1, %r14d
	jne	.LBB26_106
	testq	%r9, %r9
	je	.LBB26_123
	movq	-112(%rsp), %rax
	leaq	(%rax,%r10), %rdi
	cmpq	$4, %r9
	movq	%r10, -40(%rsp)
	movl	%r14d, %esi
	jae	.LBB26_127
	xorl	%r10d, %r10d
	xorl	%r15d, %r15d
	xorl	%r14d, %r14d
	movq	-104(%rsp), %rdx
	jmp	.LBB26_126
.LBB26_139:
	movq	-112(%rsp), %rax
	movq	%r10, %rbx
	addq	%rax, %r10
	testq	%rsi, %rsi
	movq	%rbp, (%rsp)
	je	.LBB26_140
	movq	-104(%rsp), %rax
	movl	%r14d, %ebp
	cmpl	$256, %eax
	jae	.LBB26_143
	xorl	%r14d, %r14d
	xorl	%r11d, %r11d
	jmp	.LBB26_152
.LBB26_106:
	testq	%r9, %r9
	je	.LBB26_107
	movq	-112(%rsp), %rax
	leaq	(%rax,%r10), %rdi
	movq	%r10, %rsi
	cmpq	$4, %r9
	jae	.LBB26_111
	xorl	%r10d, %r10d
	xorl	%r15d, %r15d
	xorl	%r11d, %r11d
	movq	-104(%rsp), %rdx
	jmp	.LBB26_110
.LBB26_123:
	movl	%r14d, %esi
	movb	$1, %r15b
	xorl	%r14d, %r14d
	jmp	.LBB26_138
.LBB26_140:
	movl	%r14d, %ebp
	xorl	%r14d, %r14d
	jmp	.LBB26_153
.LBB26_107:
	xorl	%r9d, %r9d
	xorl	%r11d, %r11d
	xorl	%r15d, %r15d
	jmp	.LBB26_154
.LBB26_127:
	cmpq	$16, %r9
	movq	-104(%rsp), %rdx
	jae	.LBB26_129
	xorl	%r10d, %r10d
	xorl	%r15d, %r15d
	xorl	%r14d, %r14d
	jmp	.LBB26_133
.LBB26_143:
	cmpl	$1024, %eax
	jae	.LBB26_145
	xorl	%eax, %eax
	xorl	%r14d, %r14d
	jmp	.LBB26_149
.LBB26_111:
	cmpq	$16, %r9
	movq	-104(%rsp), %rdx
	jae	.LBB26_113
	xorl	%r10d, %r10d
	xorl	%r15d, %r15d
	xorl	%r11d, %r11d
	jmp	.LBB26_117
.LBB26_129:
	movq	%r9, %r10
	andq	$-16, %r10
	movq	-32(%rsp), %rax
	movq	-40(%rsp), %rcx
	leaq	(%rax,%rcx), %r11
	vpxor	%xmm1, %xmm1, %xmm1
	vpxor	%xmm2, %xmm2, %xmm2
	xorl	%r14d, %r14d
	vpxor	%xmm6, %xmm6, %xmm6
	vpxor	%xmm7, %xmm7, %xmm7
	vpxor	%xmm8, %xmm8, %xmm8
	vpxor	%xmm3, %xmm3, %xmm3
	vpxor	%xmm4, %xmm4, %xmm4
	vpxor	%xmm5, %xmm5, %xmm5
.LBB26_130:
	vpmovzxwq	-24(%r11,%r14,2), %ymm9
	vpmovzxwq	-16(%r11,%r14,2), %ymm10
	vpmovzxwq	-8(%r11,%r14,2), %ymm11
	vpmovzxwq	(%r11,%r14,2), %ymm12
	vpcmpgtq	%ymm9, %ymm0, %ymm13
	vpsubq	%ymm13, %ymm1, %ymm1
	vpcmpgtq	%ymm10, %ymm0, %ymm13
	vpsubq	%ymm13, %ymm3, %ymm3
	vpcmpgtq	%ymm11, %ymm0, %ymm13
	vpsubq	%ymm13, %ymm4, %ymm4
	vpcmpgtq	%ymm12, %ymm0, %ymm13
	vpsubq	%ymm13, %ymm5, %ymm5
	vpcmpeqq	%ymm9, %ymm0, %ymm9
	vextracti128	$1, %ymm9, %xmm13
	vpackssdw	%xmm13, %xmm9, %xmm9
	vpor	%xmm2, %xmm9, %xmm2
	vpcmpeqq	%ymm10, %ymm0, %ymm9
	vextracti128	$1, %ymm9, %xmm10
	vpackssdw	%xmm10, %xmm9, %xmm9
	vpor	%xmm6, %xmm9, %xmm6
	vpcmpeqq	%ymm11, %ymm0, %ymm9
	vextracti128	$1, %ymm9, %xmm10
	vpackssdw	%xmm10, %xmm9, %xmm9
	vpor	%xmm7, %xmm9, %xmm7
	vpcmpeqq	%ymm12, %ymm0, %ymm9
	vextracti128	$1, %ymm9, %xmm10
	vpackssdw	%xmm10, %xmm9, %xmm9
	vpor	%xmm9, %xmm8, %xmm8
	addq	$16, %r14
	cmpq	%r14, %r10
	jne	.LBB26_130
	vpor	%xmm2, %xmm6, %xmm2
	vpor	%xmm2, %xmm7, %xmm2
	vpor	%xmm2, %xmm8, %xmm2
	vpslld	$31, %xmm2, %xmm2
	vtestps	%xmm2, %xmm2
	setne	%r15b
	vpaddq	%ymm1, %ymm3, %ymm1
	vpaddq	%ymm4, %ymm5, %ymm2
	vpaddq	%ymm1, %ymm2, %ymm1
	vextracti128	$1, %ymm1, %xmm2
	vpaddq	%xmm2, %xmm1, %xmm1
	vpshufd	$238, %xmm1, %xmm2
	vpaddq	%xmm2, %xmm1, %xmm1
	vmovq	%xmm1, %r14
	cmpq	%r10, %r9
	je	.LBB26_137
	testb	$12, %r9b
	je	.LBB26_126
.LBB26_133:
	movq	%r10, %rax
	movq	%r9, %r10
	andq	$-4, %r10
	movzbl	%r15b, %ecx
	vmovd	%ecx, %xmm2
	vmovq	%r14, %xmm1
.LBB26_134:
	vpmovzxwq	(%rdi,%rax,2), %ymm3
	vpcmpgtq	%ymm3, %ymm0, %ymm4
	vpsubq	%ymm4, %ymm1, %ymm1
	vpcmpeqq	%ymm3, %ymm0, %ymm3
	vextracti128	$1, %ymm3, %xmm4
	vpackssdw	%xmm4, %xmm3, %xmm3
	vpor	%xmm3, %xmm2, %xmm2
	addq	$4, %rax
	cmpq	%rax, %r10
	jne	.LBB26_134
	vptest	.LCPI26_5(%rip), %xmm2
	setne	%r15b
	vextracti128	$1, %ymm1, %xmm2
	vpaddq	%xmm2, %xmm1, %xmm1
	vpshufd	$238, %xmm1, %xmm2
	vpaddq	%xmm2, %xmm1, %xmm1
	vmovq	%xmm1, %r14
	jmp	.LBB26_136
.LBB26_145:
	movq	-8(%rsp), %rax
	leaq	(%rax,%rbx), %r11
	vpxor	%xmm2, %xmm2, %xmm2
	xorl	%r14d, %r14d
	vpxor	%xmm1, %xmm1, %xmm1
	vpxor	%xmm3, %xmm3, %xmm3
	vpxor	%xmm4, %xmm4, %xmm4
	vpxor	%xmm5, %xmm5, %xmm5
	movq	16(%rsp), %rax
.LBB26_146:
	vmovdqu	-96(%r11,%r14), %ymm6
	vmovdqu	-64(%r11,%r14), %ymm7
	vmovdqu	-32(%r11,%r14), %ymm8
	vmovdqu	(%r11,%r14), %ymm9
	vpbroadcastd	.LCPI26_6(%rip), %ymm10
	vpand	%ymm6, %ymm10, %ymm11
	vbroadcasti128	.LCPI26_7(%rip), %ymm12
	vpshufb	%ymm11, %ymm12, %ymm11
	vpsrlw	$4, %ymm6, %ymm6
	vpand	%ymm6, %ymm10, %ymm6
	vpshufb	%ymm6, %ymm12, %ymm6
	vpaddb	%ymm6, %ymm11, %ymm6
	vpsadbw	%ymm2, %ymm6, %ymm6
	vpaddq	%ymm1, %ymm6, %ymm1
	vpand	%ymm7, %ymm10, %ymm6
	vpshufb	%ymm6, %ymm12, %ymm6
	vpsrlw	$4, %ymm7, %ymm7
	vpand	%ymm7, %ymm10, %ymm7
	vpshufb	%ymm7, %ymm12, %ymm7
	vpaddb	%ymm6, %ymm7, %ymm6
	vpsadbw	%ymm2, %ymm6, %ymm6
	vpaddq	%ymm3, %ymm6, %ymm3
	vpand	%ymm10, %ymm8, %ymm6
	vpshufb	%ymm6, %ymm12, %ymm6
	vpsrlw	$4, %ymm8, %ymm7
	vpand	%ymm7, %ymm10, %ymm7
	vpshufb	%ymm7, %ymm12, %ymm7
	vpaddb	%ymm6, %ymm7, %ymm6
	vpsadbw	%ymm2, %ymm6, %ymm6
	vpaddq	%ymm4, %ymm6, %ymm4
	vpand	%ymm10, %ymm9, %ymm6
	vpshufb	%ymm6, %ymm12, %ymm6
	vpsrlw	$4, %ymm9, %ymm7
	vpand	%ymm7, %ymm10, %ymm7
	vpshufb	%ymm7, %ymm12, %ymm7
	vpaddb	%ymm6, %ymm7, %ymm6
	vpsadbw	%ymm2, %ymm6, %ymm6
	vpaddq	%ymm5, %ymm6, %ymm5
	subq	$-128, %r14
	cmpq	%r14, %rax
	jne	.LBB26_146
	vpaddq	%ymm1, %ymm3, %ymm1
	vpaddq	%ymm1, %ymm4, %ymm1
	vpaddq	%ymm1, %ymm5, %ymm1
	vextracti128	$1, %ymm1, %xmm2
	vpaddq	%xmm2, %xmm1, %xmm1
	vpshufd	$238, %xmm1, %xmm2
	vpaddq	%xmm2, %xmm1, %xmm1
	vmovq	%xmm1, %r14
	movq	8(%rsp), %r11
	cmpl	%r11d, %esi
	je	.LBB26_153
	movq	%r11, %rax
	testl	$768, -104(%rsp)
	je	.LBB26_152
.LBB26_149:
	vmovq	%r14, %xmm1
.LBB26_150:
	vmovdqu	(%r10,%rax,8), %ymm2
	vpbroadcastd	.LCPI26_6(%rip), %ymm3
	vpand	%ymm3, %ymm2, %ymm4
	vbroadcasti128	.LCPI26_7(%rip), %ymm5
	vpshufb	%ymm4, %ymm5, %ymm4
	vpsrlw	$4, %ymm2, %ymm2
	vpand	%ymm3, %ymm2, %ymm2
	vpshufb	%ymm2, %ymm5, %ymm2
	vpaddb	%ymm4, %ymm2, %ymm2
	vpxor	%xmm3, %xmm3, %xmm3
	vpsadbw	%ymm3, %ymm2, %ymm2
	vpaddq	%ymm1, %ymm2, %ymm1
	addq	$4, %rax
	cmpq	%rax, %r15
	jne	.LBB26_150
	vextracti128	$1, %ymm1, %xmm2
	vpaddq	%xmm2, %xmm1, %xmm1
	vpshufd	$238, %xmm1, %xmm2
	vpaddq	%xmm2, %xmm1, %xmm1
	vmovq	%xmm1, %r14
	movq	%r15, %r11
	cmpl	%r15d, %esi
	je	.LBB26_153
.LBB26_152:
	xorl	%eax, %eax
	popcntq	(%r10,%r11,8), %rax
	addq	%rax, %r14
	incq	%r11
	cmpq	%r11, %rsi
	jne	.LBB26_152
.LBB26_153:
	movq	(%r10,%rsi,8), %rax
	movq	32(%rsp), %rcx
	shrxq	%rcx, %rax, %r15
	andq	24(%rsp), %rax
	xorl	%r11d, %r11d
	popcntq	%rax, %r11
	addq	%r14, %r11
	movq	-96(%rsp), %rcx
	movq	%rbx, %r10
	movl	%ebp, %r14d
	movq	(%rsp), %rbp
	jmp	.LBB26_154
.LBB26_113:
	movl	%r14d, %ecx
	movq	%r9, %r10
	andq	$-16, %r10
	movq	-32(%rsp), %rax
	leaq	(%rax,%rsi), %r11
	vpxor	%xmm1, %xmm1, %xmm1
	vpxor	%xmm2, %xmm2, %xmm2
	xorl	%r14d, %r14d
	vpxor	%xmm6, %xmm6, %xmm6
	vpxor	%xmm7, %xmm7, %xmm7
	vpxor	%xmm8, %xmm8, %xmm8
	vpxor	%xmm3, %xmm3, %xmm3
	vpxor	%xmm4, %xmm4, %xmm4
	vpxor	%xmm5, %xmm5, %xmm5
.LBB26_114:
	vpmovzxwq	-24(%r11,%r14,2), %ymm9
	vpmovzxwq	-16(%r11,%r14,2), %ymm10
	vpmovzxwq	-8(%r11,%r14,2), %ymm11
	vpmovzxwq	(%r11,%r14,2), %ymm12
	vpcmpgtq	%ymm9, %ymm0, %ymm13
	vpsubq	%ymm13, %ymm1, %ymm1
	vpcmpgtq	%ymm10, %ymm0, %ymm13
	vpsubq	%ymm13, %ymm3, %ymm3
	vpcmpgtq	%ymm11, %ymm0, %ymm13
	vpsubq	%ymm13, %ymm4, %ymm4
	vpcmpgtq	%ymm12, %ymm0, %ymm13
	vpsubq	%ymm13, %ymm5, %ymm5
	vpcmpeqq	%ymm9, %ymm0, %ymm9
	vextracti128	$1, %ymm9, %xmm13
	vpackssdw	%xmm13, %xmm9, %xmm9
	vpor	%xmm2, %xmm9, %xmm2
	vpcmpeqq	%ymm10, %ymm0, %ymm9
	vextracti128	$1, %ymm9, %xmm10
	vpackssdw	%xmm10, %xmm9, %xmm9
	vpor	%xmm6, %xmm9, %xmm6
	vpcmpeqq	%ymm11, %ymm0, %ymm9
	vextracti128	$1, %ymm9, %xmm10
	vpackssdw	%xmm10, %xmm9, %xmm9
	vpor	%xmm7, %xmm9, %xmm7
	vpcmpeqq	%ymm12, %ymm0, %ymm9
	vextracti128	$1, %ymm9, %xmm10
	vpackssdw	%xmm10, %xmm9, %xmm9
	vpor	%xmm9, %xmm8, %xmm8
	addq	$16, %r14
	cmpq	%r14, %r10
	jne	.LBB26_114
	vpor	%xmm2, %xmm6, %xmm2
	vpor	%xmm2, %xmm7, %xmm2
	vpor	%xmm2, %xmm8, %xmm2
	vpslld	$31, %xmm2, %xmm2
	vtestps	%xmm2, %xmm2
	setne	%r15b
	vpaddq	%ymm1, %ymm3, %ymm1
	vpaddq	%ymm4, %ymm5, %ymm2
	vpaddq	%ymm1, %ymm2, %ymm1
	vextracti128	$1, %ymm1, %xmm2
	vpaddq	%xmm2, %xmm1, %xmm1
	vpshufd	$238, %xmm1, %xmm2
	vpaddq	%xmm2, %xmm1, %xmm1
	vmovq	%xmm1, %r11
	cmpq	%r10, %r9
	movl	%ecx, %r14d
	je	.LBB26_121
	testb	$12, %r9b
	je	.LBB26_110
.LBB26_117:
	movq	%r10, %rax
	movq	%r9, %r10
	andq	$-4, %r10
	movzbl	%r15b, %ecx
	vmovd	%ecx, %xmm2
	vmovq	%r11, %xmm1
.LBB26_118:
	vpmovzxwq	(%rdi,%rax,2), %ymm3
	vpcmpgtq	%ymm3, %ymm0, %ymm4
	vpsubq	%ymm4, %ymm1, %ymm1
	vpcmpeqq	%ymm3, %ymm0, %ymm3
	vextracti128	$1, %ymm3, %xmm4
	vpackssdw	%xmm4, %xmm3, %xmm3
	vpor	%xmm3, %xmm2, %xmm2
	addq	$4, %rax
	cmpq	%rax, %r10
	jne	.LBB26_118
	vptest	.LCPI26_5(%rip), %xmm2
	setne	%r15b
	vextracti128	$1, %ymm1, %xmm2
	vpaddq	%xmm2, %xmm1, %xmm1
	vpshufd	$238, %xmm1, %xmm2
	vpaddq	%xmm2, %xmm1, %xmm1
	vmovq	%xmm1, %r11
	jmp	.LBB26_120
.LBB26_90:
	orq	$1, %r15
	movq	%r15, %r14
	movq	-120(%rsp), %rsi
	movq	-128(%rsp), %r15
	jmp	.LBB26_91
.LBB26_70:
	orq	$1, %r15
	movq	%r15, %r14
	movq	-120(%rsp), %rsi
	movq	-128(%rsp), %r15
	jmp	.LBB26_71
.LBB26_110:
	movzwl	(%rdi,%r10,2), %eax
	xorl	%ecx, %ecx
	cmpq	%rax, %rdx
	seta	%cl
	sete	%al
	addq	%rcx, %r11
	orb	%al, %r15b
	incq	%r10
.LBB26_120:
	cmpq	%r10, %r9
	jne	.LBB26_110
.LBB26_121:
	andb	$1, %r15b
	movq	%rbx, %rdi
	movq	-80(%rsp), %rdx
	movq	-96(%rsp), %rcx
	movq	%rsi, %r10
	jmp	.LBB26_154
.LBB26_126:
	movzwl	(%rdi,%r10,2), %eax
	xorl	%ecx, %ecx
	cmpq	%rax, %rdx
	seta	%cl
	sete	%al
	addq	%rcx, %r14
	orb	%al, %r15b
	incq	%r10
.LBB26_136:
	cmpq	%r10, %r9
	jne	.LBB26_126
.LBB26_137:
	notb	%r15b
	andb	$1, %r15b
	movq	%rbx, %rdi
	movq	-80(%rsp), %rdx
	movq	-96(%rsp), %rcx
	movq	-40(%rsp), %r10
.LBB26_138:
	movq	-104(%rsp), %r11
	subq	%r14, %r11
	movl	%esi, %r14d
.LBB26_154:
	addq	%r11, -72(%rsp)
	orb	-64(%rsp), %r15b
	cmpb	$2, %r13b
	jne	.LBB26_157
.LBB26_156:
	movl	$8192, %r9d
.LBB26_158:
	addq	%rbp, %rcx
	andb	$1, %r15b
	addq	%r10, %r9
	incq	%r12
	movq	%r12, %r13
	decq	%r8
	movq	-112(%rsp), %rsi
	jne	.LBB26_16
	movzbl	%r15b, %r15d
	movq	-72(%rsp), %rax
	jmp	.LBB26_160
.LBB26_1:
	xorl	%r9d, %r9d
	jmp	.LBB26_10
.LBB26_3:
	cmpq	$1, %rdx
	je	.LBB26_10
	movq	%r8, %r10
	addq	$-128, %r10
	movl	$1, %r11d
	subq	%rdx, %r11
	movl	$128, %r8d
	movl	$2, %r9d
	.p2align	4
.LBB26_5:
	movzbl	-1(%rsi,%r9), %ebx
	xorl	%ebp, %ebp
	testq	%rbx, %rbx
	sete	%bpl
	xorl	%r14d, %r14d
	cmpq	$1, %rbx
	setne	%r14b
	cmpq	$10, %r9
	cmovel	%r14d, %ebp
	testb	%bpl, %bpl
	jne	.LBB26_9
	testb	%bl, %bl
	jns	.LBB26_12
	addq	$-128, %rbx
	imulq	%r8, %rbx
	addq	%rbx, %r10
	shlq	$7, %r8
	leaq	(%r11,%r9), %rbx
	incq	%rbx
	incq	%r9
	cmpq	$2, %rbx
	jne	.LBB26_5
	movq	%rdx, %r9
	jmp	.LBB26_10
.LBB26_14:
	xorl	%ecx, %ecx
	xorl	%eax, %eax
	xorl	%r15d, %r15d
.LBB26_160:
	cmpq	%rdx, %r9
	jne	.LBB26_161
	xorl	%esi, %esi
	movq	%rcx, %rbp
	movq	%rax, %rdx
	jmp	.LBB26_169
.LBB26_23:
	xorl	%r15d, %r15d
	movl	$1, %esi
	movl	$5, %ebp
	jmp	.LBB26_169
.LBB26_161:
	movl	$11, %ebp
	movl	$1, %esi
	xorl	%edx, %edx
	xorl	%r15d, %r15d
	jmp	.LBB26_169
.LBB26_165:
	leaq	(%r9,%r11), %rdx
	incq	%rdx
	jmp	.LBB26_166
.LBB26_9:
	decq	%r9
	movl	$6, %eax
.LBB26_10:
	movq	$1, (%rdi)
	movq	%rax, 8(%rdi)
	movq	%r9, 16(%rdi)
	movq	$0, 24(%rdi)
	jmp	.LBB26_170
.LBB26_12:
	imulq	%rbx, %r8
	addq	%r10, %r8
	cmpq	$32766, %r8
	jbe	.LBB26_13
	movq	$1, (%rdi)
	movq	$11, 8(%rdi)
	vpxor	%xmm0, %xmm0, %xmm0
	vmovdqu	%xmm0, 16(%rdi)
	jmp	.LBB26_170
.LBB26_164:
	leaq	(%r11,%r9), %rdx
	incq	%rdx
	jmp	.LBB26_166
.LBB26_163:
	leaq	(%r14,%r11), %rdx
	incq	%rdx
.LBB26_166:
	movl	$6, %ebp
.LBB26_167:
	xorl	%r15d, %r15d
.LBB26_168:
	movl	$1, %esi
.LBB26_169:
	movq	%rsi, (%rdi)
	movq	%rbp, 8(%rdi)
	movq	%rdx, 16(%rdi)
	movq	%r15, 24(%rdi)
.LBB26_170:
	addq	$48, %rsp
	popq	%rbx
	popq	%r12
	popq	%r13
	popq	%r14
	popq	%r15
	popq	%rbp
	vzeroupper
	retq
.LBB26_36:
	movl	$11, %ebp
	xorl	%edx, %edx
	jmp	.LBB26_168
.LBB26_53:
	xorl	%edx, %edx
	movl	$11, %ebp
	xorl	%r15d, %r15d
	movq	%rbx, %rdi
	jmp	.LBB26_168
.LBB26_75:
	movl	$1, %esi
	xorl	%edx, %edx
	jmp	.LBB26_76
.LBB26_99:
	xorl	%edx, %edx
	movl	$11, %ebp
	jmp	.LBB26_167
.LBB26_101:
	xorl	%edx, %edx
	movl	$1, %esi
.LBB26_76:
	movl	$11, %ebp
	xorl	%r15d, %r15d
	jmp	.LBB26_169
.Lfunc_end26:
	.size	"set_check::walk", .Lfunc_end26-"set_check::walk"

	.section	".text.writer::write_checked","ax",@progbits
	.p2align	4
	.type	"writer::write_checked",@function
"writer::write_checked":
	pushq	%rbp
	pushq	%r15
	pushq	%r14
	pushq	%r13
	pushq	%r12
	pushq	%rbx
	subq	$3072, %rsp
	movq	$0, (%rsp)
	subq	$1384, %rsp
	movq	%rdi, %rbx
	movq	4512(%rsp), %r14
	vxorps	%xmm0, %xmm0, %xmm0
	vmovaps	%xmm0, 64(%rsp)
	movq	$0, 80(%rsp)
	testq	%r14, %r14
	je	.LBB27_38
	cmpq	$1, %r14
	je	.LBB27_36
	cmpq	$256, %r14
	jbe	.LBB27_3
.LBB27_36:
	movq	$1, (%rbx)
	movq	$15, 8(%rbx)
	movq	$0, 16(%rbx)
	jmp	.LBB27_39
.LBB27_3:
	movl	$1, %eax
	.p2align	4
.LBB27_5:
	movq	-8(%r9,%rax,8), %rdi
	cmpq	(%r9,%rax,8), %rdi
	jge	.LBB27_36
	incq	%rax
	cmpq	%rax, %r14
	jne	.LBB27_5
	vxorps	%xmm0, %xmm0, %xmm0
	vmovups	%ymm0, 320(%rsp)
	vmovups	%ymm0, 288(%rsp)
	vmovups	%ymm0, 256(%rsp)
	vmovups	%ymm0, 224(%rsp)
	vmovups	%ymm0, 192(%rsp)
	vmovups	%ymm0, 160(%rsp)
	vmovups	%ymm0, 128(%rsp)
	vmovups	%ymm0, 96(%rsp)
	cmpq	$127, %r8
	ja	.LBB27_20
	vmovups	%ymm0, 576(%rsp)
	vmovups	%ymm0, 544(%rsp)
	vmovups	%ymm0, 512(%rsp)
	vmovups	%ymm0, 480(%rsp)
	vmovups	%ymm0, 448(%rsp)
	vmovups	%ymm0, 416(%rsp)
	vmovups	%ymm0, 384(%rsp)
	vmovups	%ymm0, 352(%rsp)
	testq	%r8, %r8
	je	.LBB27_33
	xorl	%eax, %eax
	.p2align	4
.LBB27_9:
	movq	(%rcx,%rax,8), %rdi
	movq	%rdi, %r10
	shrq	$32, %r10
	movl	$2147483648, %r11d
	xorl	%r10d, %r11d
	imull	$1969558475, %edi, %r10d
	imull	$898614065, %r11d, %r11d
	addl	%r10d, %r11d
	shrl	$24, %r11d
	movzbl	352(%rsp,%r11), %r10d
	cmpq	%r10, %r14
	jbe	.LBB27_11
	cmpq	%rdi, (%r9,%r10,8)
	je	.LBB27_17
.LBB27_11:
	xorl	%r10d, %r10d
	movq	%r14, %r15
	jmp	.LBB27_12
	.p2align	4
.LBB27_14:
	movq	%r13, %r15
	cmpq	%r15, %r10
	jae	.LBB27_16
.LBB27_12:
	movq	%r15, %r12
	subq	%r10, %r12
	shrq	%r12
	leaq	(%r12,%r10), %r13
	cmpq	%rdi, (%r9,%r13,8)
	jge	.LBB27_14
	addq	%r12, %r10
	incq	%r10
	cmpq	%r15, %r10
	jb	.LBB27_12
.LBB27_16:
	movb	%r10b, 352(%rsp,%r11)
.LBB27_17:
	cmpq	%r14, %r10
	jae	.LBB27_36
	cmpq	%rdi, (%r9,%r10,8)
	jne	.LBB27_36
	movb	$1, 96(%rsp,%r10)
	incq	%rax
	cmpq	%r8, %rax
	jne	.LBB27_9
	jmp	.LBB27_33
.LBB27_20:
	movq	%rsi, 48(%rsp)
	movq	%rdx, 56(%rsp)
	leaq	352(%rsp), %rdi
	xorl	%r13d, %r13d
	movl	$4096, %edx
	xorl	%esi, %esi
	movq	%r9, %rbp
	movq	%r8, %r12
	movq	%rcx, %r15
	vzeroupper
	callq	memset@PLT
	movq	%r15, %rcx
	movq	%r12, %r8
	movq	%rbp, %r9
	.p2align	4
.LBB27_21:
	movq	(%rcx,%r13,8), %rax
	movq	%rax, %rdx
	shrq	$32, %rdx
	movl	$2147483648, %esi
	xorl	%edx, %esi
	imull	$1969558475, %eax, %edx
	imull	$898614065, %esi, %esi
	addl	%edx, %esi
	shrl	$20, %esi
	movzbl	352(%rsp,%rsi), %edx
	cmpq	%rdx, %r14
	jbe	.LBB27_23
	cmpq	%rax, (%r9,%rdx,8)
	je	.LBB27_29
.LBB27_23:
	xorl	%edx, %edx
	movq	%r14, %rdi
	jmp	.LBB27_24
	.p2align	4
.LBB27_26:
	movq	%r11, %rdi
	cmpq	%rdi, %rdx
	jae	.LBB27_28
.LBB27_24:
	movq	%rdi, %r10
	subq	%rdx, %r10
	shrq	%r10
	leaq	(%r10,%rdx), %r11
	cmpq	%rax, (%r9,%r11,8)
	jge	.LBB27_26
	addq	%r10, %rdx
	incq	%rdx
	cmpq	%rdi, %rdx
	jb	.LBB27_24
.LBB27_28:
	movb	%dl, 352(%rsp,%rsi)
.LBB27_29:
	cmpq	%r14, %rdx
	jae	.LBB27_36
	cmpq	%rax, (%r9,%rdx,8)
	jne	.LBB27_36
	movb	$1, 96(%rsp,%rdx)
	incq	%r13
	cmpq	%r8, %r13
	jne	.LBB27_21
	movq	56(%rsp), %rdx
	movq	48(%rsp), %rsi
.LBB27_33:
	xorl	%eax, %eax
	.p2align	4
.LBB27_34:
	cmpq	%rax, %r14
	je	.LBB27_37
	cmpb	$0, 96(%rsp,%rax)
	leaq	1(%rax), %rax
	jne	.LBB27_34
	jmp	.LBB27_36
.LBB27_37:
	movq	%r9, %rdi
	movq	%rsi, 48(%rsp)
	movq	%r14, %rsi
	movq	%rdx, %r12
	movq	%r8, %rdx
	movq	%r9, %r13
	movq	%r8, %r15
	movq	%rcx, %rbp
	vzeroupper
	callq	"table_values::saves"
	movq	48(%rsp), %rsi
	movq	%r12, %rdx
	movq	%rbp, %rcx
	movq	%r15, %r8
	movq	%r13, %r9
	testb	%al, %al
	je	.LBB27_36
.LBB27_38:
	movq	4536(%rsp), %rax
	movq	4528(%rsp), %rdi
	movl	4520(%rsp), %r10d
	xorl	%r11d, %r11d
	testq	%r14, %r14
	setne	%r11b
	movq	%rax, 32(%rsp)
	movq	%rdi, 24(%rsp)
	movl	%r10d, 16(%rsp)
	movq	%r14, (%rsp)
	leal	(%r11,%r11,2), %eax
	movl	%eax, 8(%rsp)
	leaq	64(%rsp), %rdi
	callq	"writer::write_by"
	movzbl	64(%rsp), %eax
	movq	%rax, (%rbx)
	vmovups	72(%rsp), %xmm0
	vmovups	%xmm0, 8(%rbx)
.LBB27_39:
	addq	$4456, %rsp
	popq	%rbx
	popq	%r12
	popq	%r13
	popq	%r14
	popq	%r15
	popq	%rbp
	vzeroupper
	retq
.Lfunc_end27:
	.size	"writer::write_checked", .Lfunc_end27-"writer::write_checked"

	.section	.rodata.cst8,"aM",@progbits,8
	.p2align	3, 0x0
.LCPI28_0:
	.quad	-9223372036854775808
	.section	.rodata.cst32,"aM",@progbits,32
	.p2align	5, 0x0
.LCPI28_1:
	.byte	0
	.byte	1
	.byte	4
	.byte	5
	.byte	8
	.byte	9
	.byte	12
	.byte	13
	.byte	8
	.byte	9
	.byte	12
	.byte	13
	.byte	12
	.byte	13
	.byte	14
	.byte	15
	.byte	16
	.byte	17
	.byte	20
	.byte	21
	.byte	24
	.byte	25
	.byte	28
	.byte	29
	.byte	24
	.byte	25
	.byte	28
	.byte	29
	.byte	28
	.byte	29
	.byte	30
	.byte	31
.LCPI28_2:
	.byte	0
	.byte	1
	.byte	4
	.byte	5
	.byte	8
	.byte	9
	.byte	12
	.byte	13
	.zero	1
	.zero	1
	.zero	1
	.zero	1
	.zero	1
	.zero	1
	.zero	1
	.zero	1
	.byte	16
	.byte	17
	.byte	20
	.byte	21
	.byte	24
	.byte	25
	.byte	28
	.byte	29
	.zero	1
	.zero	1
	.zero	1
	.zero	1
	.zero	1
	.zero	1
	.zero	1
	.zero	1
	.section	".text.writer::write_by","ax",@progbits
	.p2align	4
	.type	"writer::write_by",@function
"writer::write_by":
	pushq	%rbp
	pushq	%r15
	pushq	%r14
	pushq	%r13
	pushq	%r12
	pushq	%rbx
	subq	$3072, %rsp
	movq	$0, (%rsp)
	subq	$1928, %rsp
	movq	%r9, %r14
	movq	%rsi, %r13
	movzbl	5064(%rsp), %r15d
	movl	5072(%rsp), %r9d
	movq	5056(%rsp), %rsi
	cmpl	$2, %r15d
	movq	%r8, 16(%rsp)
	movq	%rdx, 8(%rsp)
	movq	%rdi, 120(%rsp)
	movq	%rcx, 48(%rsp)
	jae	.LBB28_4
	vxorpd	%xmm0, %xmm0, %xmm0
	vmovapd	%xmm0, 896(%rsp)
	movq	$0, 912(%rsp)
	leaq	896(%rsp), %rdi
	movq	%rcx, %rsi
	movq	%r8, %rdx
	callq	"scaling::scale_of"
	movq	912(%rsp), %rcx
	movl	%r15d, %edx
	notb	%dl
	lzcntq	%rcx, %rax
	cmpq	$4, %rcx
	setb	%sil
	orb	%dl, %sil
	testb	$1, %sil
	jne	.LBB28_6
	shrq	$32, %rcx
	jne	.LBB28_9
	movl	$67, %ecx
	subl	%eax, %ecx
	andl	$124, %ecx
	jmp	.LBB28_10
.LBB28_4:
	jne	.LBB28_7
	vxorpd	%xmm0, %xmm0, %xmm0
	vmovapd	%xmm0, 896(%rsp)
	movq	$0, 912(%rsp)
	leaq	896(%rsp), %rdi
	movq	%rcx, %rsi
	movq	%r8, %rdx
	callq	"scaling::scale_of"
	movl	5072(%rsp), %r9d
	movq	8(%rsp), %rdx
	movq	16(%rsp), %rax
	movq	904(%rsp), %rsi
	movq	$0, 40(%rsp)
	jmp	.LBB28_8
.LBB28_6:
	movl	$64, %ecx
	subq	%rax, %rcx
	jmp	.LBB28_10
.LBB28_7:
	leaq	-1(%rsi), %rax
	lzcntq	%rax, %rax
	movl	$64, %ecx
	subq	%rax, %rcx
	movq	%rcx, 40(%rsp)
	movq	16(%rsp), %rax
.LBB28_8:
	xorl	%r12d, %r12d
	jmp	.LBB28_11
.LBB28_9:
	movl	$71, %ecx
	subl	%eax, %ecx
	andl	$120, %ecx
.LBB28_10:
	movq	%rcx, 40(%rsp)
	movq	8(%rsp), %rdx
	movl	5072(%rsp), %r9d
	movq	896(%rsp), %r12
	movq	904(%rsp), %rsi
	movq	16(%rsp), %rax
.LBB28_11:
	movl	%r9d, %ecx
	testq	%rdx, %rdx
	movq	%rsi, 32(%rsp)
	movq	%rcx, 88(%rsp)
	je	.LBB28_21
	movb	$17, %al
	subb	%cl, %al
	movl	$1, %ecx
	shlxq	%rax, %rcx, %rax
	addq	$8192, %rax
	testl	%r9d, %r9d
	movl	$8192, %ecx
	cmovneq	%rax, %rcx
	xorl	%eax, %eax
	movq	%r13, %rsi
	jmp	.LBB28_15
	.p2align	4
.LBB28_13:
	xorl	%r9d, %r9d
.LBB28_14:
	movzwl	2(%rsi,%r9,4), %r8d
	xorl	%r10d, %r10d
	cmpl	%r8d, %edi
	sete	%r10b
	addq	%r9, %r10
	leaq	(%rsi,%r10,4), %rsi
	leaq	(%r10,%r10), %rdi
	xorl	%r8d, %r8d
	cmpq	$65536, %r10
	cmovbq	%rcx, %r8
	cmpq	$4096, %r10
	cmovbq	%rdi, %r8
	addq	%r8, %rax
	addq	$4, %rax
	subq	%r10, %rdx
	je	.LBB28_20
.LBB28_15:
	movzwl	2(%rsi), %edi
	cmpq	$1, %rdx
	je	.LBB28_13
	cmpq	$16, %rdx
	movl	$16, %r9d
	movl	$16, %r8d
	cmovbq	%rdx, %r8
	movl	%r8d, %r8d
	movzwl	-2(%rsi,%r8,4), %r8d
	cmpl	%r8d, %edi
	movl	$65536, %r8d
	cmovneq	%r9, %r8
	cmpq	%rdx, %r8
	cmovaeq	%rdx, %r8
	xorl	%r10d, %r10d
	jmp	.LBB28_18
	.p2align	4
.LBB28_17:
	subq	%r11, %r8
	movq	%r9, %r10
	cmpq	$1, %r8
	jbe	.LBB28_14
.LBB28_18:
	movq	%r8, %r11
	shrq	%r11
	leaq	(%r11,%r10), %r9
	movzwl	2(%rsi,%r9,4), %ebx
	cmpl	%ebx, %edi
	je	.LBB28_17
	movq	%r10, %r9
	jmp	.LBB28_17
.LBB28_20:
	movq	8(%rsp), %rcx
	movl	-4(%r13,%rcx,4), %ecx
	shrl	$16, %ecx
	testl	%ecx, %ecx
	leal	16(,%rcx,8), %edx
	cmovel	%ecx, %edx
	leal	2(%rcx), %esi
	leaq	6(%rax,%rdx), %rdx
	cmovel	%ecx, %esi
	movq	%rsi, 96(%rsp)
	movq	16(%rsp), %rax
	movq	32(%rsp), %rsi
	jmp	.LBB28_22
.LBB28_21:
	movl	$1, %ecx
	movq	%rcx, 96(%rsp)
	movl	$14, %edx
.LBB28_22:
	movq	%rdx, 24(%rsp)
	movzbl	%r15b, %ecx
	cmpb	$2, %r15b
	movq	%r14, 64(%rsp)
	movq	%r13, 56(%rsp)
	movq	%r15, 136(%rsp)
	movq	%r12, 128(%rsp)
	movl	%ecx, 84(%rsp)
	jae	.LBB28_24
	movq	40(%rsp), %r10
	imulq	%rax, %r10
	addq	$7, %r10
	shrq	$3, %r10
	jmp	.LBB28_56
.LBB28_24:
	cmpl	$2, %ecx
	jne	.LBB28_54
	movq	%rax, %rdx
	shrq	$14, %rax
	movl	%edx, %edi
	andl	$16383, %edi
	addl	$16383, %edi
	shrl	$14, %edi
	addq	%rax, %rdi
	je	.LBB28_55
	movabsq	$-9223372036854775808, %r14
	leaq	(%rdi,%rdi,4), %rax
	leaq	(%rax,%rax,4), %r10
	movq	48(%rsp), %rsi
	leaq	64(%rsi), %r12
	xorl	%ecx, %ecx
	movq	%rdx, %r8
	movq	%rdi, 72(%rsp)
	jmp	.LBB28_29
	.p2align	4
.LBB28_27:
	xorl	%edx, %edx
	divq	%rdi
.LBB28_28:
	movq	72(%rsp), %rdi
	movq	104(%rsp), %r8
	lzcntq	%rax, %rax
	movl	$64, %edx
	subq	%rax, %rdx
	imulq	%r9, %rdx
	addq	$7, %rdx
	shrq	$3, %rdx
	addq	%rdx, %r10
	incq	%rcx
	addq	$-16384, %r8
	addq	$131072, %r12
	addq	$131072, %rsi
	cmpq	%rdi, %rcx
	je	.LBB28_56
.LBB28_29:
	cmpq	$16384, %r8
	movl	$16384, %eax
	movl	$16384, %edx
	movq	%r8, 104(%rsp)
	cmovbq	%r8, %rdx
	movq	%rcx, %rdi
	shlq	$14, %rdi
	movq	16(%rsp), %r8
	movq	%r8, %r9
	subq	%rdi, %r9
	cmpq	$16384, %r9
	cmovaeq	%rax, %r9
	movq	%r14, %r15
	movq	%r14, %rax
	cmpq	%rdi, %r8
	jne	.LBB28_33
.LBB28_30:
	movq	32(%rsp), %rdi
	testq	%rdi, %rdi
	je	.LBB28_292
	subq	%r15, %rax
	movq	%rax, %rdx
	orq	%rdi, %rdx
	shrq	$32, %rdx
	jne	.LBB28_27
	xorl	%edx, %edx
	divl	%edi
	jmp	.LBB28_28
	.p2align	4
.LBB28_33:
	movq	%rcx, %rax
	shlq	$17, %rax
	movq	48(%rsp), %rdi
	movq	(%rdi,%rax), %rax
	xorq	%r14, %rax
	xorl	%ebx, %ebx
	movq	%rax, %r15
	jmp	.LBB28_36
	.p2align	4
.LBB28_34:
	movq	56(%rsp), %r13
.LBB28_35:
	movq	%rbp, %rbx
	cmpq	%r9, %rbp
	jae	.LBB28_30
.LBB28_36:
	movq	%r9, %rdi
	subq	%rbx, %rdi
	cmpq	$1024, %rdi
	movl	$1024, %r13d
	movl	$1024, %ebp
	cmovbq	%rdi, %rbp
	leaq	(,%rbx,8), %r11
	cmpq	$4, %rdi
	jae	.LBB28_38
	xorl	%r8d, %r8d
	jmp	.LBB28_47
	.p2align	4
.LBB28_38:
	cmpq	$16, %rdi
	jae	.LBB28_40
	xorl	%r8d, %r8d
	jmp	.LBB28_44
	.p2align	4
.LBB28_40:
	movl	%ebp, %r8d
	andl	$2032, %r8d
	vmovq	%rax, %xmm0
	vpbroadcastq	%xmm0, %ymm0
	vmovq	%r15, %xmm1
	movq	%rdx, %rdi
	subq	%rbx, %rdi
	cmpq	$1024, %rdi
	movl	$1024, %eax
	cmovbq	%rdi, %rax
	vpbroadcastq	%xmm1, %ymm5
	andl	$2032, %eax
	leaq	(%r12,%r11), %r15
	xorl	%edi, %edi
	vmovdqa	%ymm5, %ymm8
	vmovdqa	%ymm5, %ymm7
	vmovdqa	%ymm5, %ymm6
	vmovdqa	%ymm0, %ymm4
	vmovdqa	%ymm0, %ymm2
	vmovdqa	%ymm0, %ymm1
	.p2align	4
.LBB28_41:
	vmovdqu	-64(%r15,%rdi,8), %ymm9
	vpbroadcastq	.LCPI28_0(%rip), %ymm3
	vpxor	%ymm3, %ymm9, %ymm10
	vpxor	%ymm3, %ymm5, %ymm11
	vpcmpgtq	%ymm9, %ymm11, %ymm11
	vblendvpd	%ymm11, %ymm10, %ymm5, %ymm5
	vpxor	%ymm3, %ymm0, %ymm11
	vpcmpgtq	%ymm11, %ymm9, %ymm9
	vblendvpd	%ymm9, %ymm10, %ymm0, %ymm0
	vmovdqu	-32(%r15,%rdi,8), %ymm9
	vpxor	%ymm3, %ymm9, %ymm10
	vpxor	%ymm3, %ymm8, %ymm11
	vpcmpgtq	%ymm9, %ymm11, %ymm11
	vblendvpd	%ymm11, %ymm10, %ymm8, %ymm8
	vpxor	%ymm3, %ymm4, %ymm11
	vpcmpgtq	%ymm11, %ymm9, %ymm9
	vmovdqu	(%r15,%rdi,8), %ymm11
	vblendvpd	%ymm9, %ymm10, %ymm4, %ymm4
	vpxor	%ymm3, %ymm11, %ymm9
	vpxor	%ymm3, %ymm7, %ymm10
	vpcmpgtq	%ymm11, %ymm10, %ymm10
	vblendvpd	%ymm10, %ymm9, %ymm7, %ymm7
	vpxor	%ymm3, %ymm2, %ymm10
	vpcmpgtq	%ymm10, %ymm11, %ymm10
	vblendvpd	%ymm10, %ymm9, %ymm2, %ymm2
	vmovdqu	32(%r15,%rdi,8), %ymm9
	vpxor	%ymm3, %ymm9, %ymm10
	vpxor	%ymm3, %ymm6, %ymm11
	vpcmpgtq	%ymm9, %ymm11, %ymm11
	vblendvpd	%ymm11, %ymm10, %ymm6, %ymm6
	vpxor	%ymm3, %ymm1, %ymm11
	vpcmpgtq	%ymm11, %ymm9, %ymm9
	vblendvpd	%ymm9, %ymm10, %ymm1, %ymm1
	addq	$16, %rdi
	cmpq	%rdi, %rax
	jne	.LBB28_41
	vxorpd	%ymm3, %ymm5, %ymm9
	vxorpd	%ymm3, %ymm8, %ymm10
	vpcmpgtq	%ymm9, %ymm10, %ymm9
	vblendvpd	%ymm9, %ymm5, %ymm8, %ymm5
	vxorpd	%ymm3, %ymm5, %ymm8
	vxorpd	%ymm3, %ymm7, %ymm9
	vpcmpgtq	%ymm8, %ymm9, %ymm8
	vblendvpd	%ymm8, %ymm5, %ymm7, %ymm5
	vxorpd	%ymm3, %ymm5, %ymm7
	vxorpd	%ymm3, %ymm6, %ymm8
	vpcmpgtq	%ymm7, %ymm8, %ymm7
	vblendvpd	%ymm7, %ymm5, %ymm6, %ymm5
	vextractf128	$1, %ymm5, %xmm6
	vxorpd	%xmm3, %xmm5, %xmm7
	vxorpd	%xmm3, %xmm6, %xmm8
	vpcmpgtq	%xmm7, %xmm8, %xmm7
	vblendvpd	%xmm7, %xmm5, %xmm6, %xmm5
	vshufps	$238, %xmm5, %xmm5, %xmm6
	vxorpd	%xmm3, %xmm5, %xmm7
	vxorpd	%xmm3, %xmm6, %xmm8
	vpcmpgtq	%xmm7, %xmm8, %xmm7
	vblendvpd	%xmm7, %xmm5, %xmm6, %xmm5
	vxorpd	%ymm3, %ymm4, %ymm6
	vxorpd	%ymm3, %ymm0, %ymm7
	vpcmpgtq	%ymm6, %ymm7, %ymm6
	vblendvpd	%ymm6, %ymm0, %ymm4, %ymm0
	vxorpd	%ymm3, %ymm0, %ymm4
	vxorpd	%ymm3, %ymm2, %ymm6
	vpcmpgtq	%ymm6, %ymm4, %ymm4
	vblendvpd	%ymm4, %ymm0, %ymm2, %ymm0
	vmovq	%xmm5, %r15
	vxorpd	%ymm3, %ymm0, %ymm2
	vxorpd	%ymm3, %ymm1, %ymm4
	vpcmpgtq	%ymm4, %ymm2, %ymm2
	vblendvpd	%ymm2, %ymm0, %ymm1, %ymm0
	vextractf128	$1, %ymm0, %xmm1
	vxorpd	%xmm3, %xmm1, %xmm2
	vxorpd	%xmm3, %xmm0, %xmm4
	vpcmpgtq	%xmm2, %xmm4, %xmm2
	vblendvpd	%xmm2, %xmm0, %xmm1, %xmm0
	vshufps	$238, %xmm0, %xmm0, %xmm1
	vxorpd	%xmm3, %xmm0, %xmm2
	vxorpd	%xmm3, %xmm1, %xmm3
	vpcmpgtq	%xmm3, %xmm2, %xmm2
	vblendvpd	%xmm2, %xmm0, %xmm1, %xmm0
	vmovq	%xmm0, %rax
	cmpq	%r8, %rbp
	je	.LBB28_49
	testb	$12, %bpl
	je	.LBB28_47
.LBB28_44:
	movq	%r8, %rdi
	movl	%ebp, %r8d
	andl	$2044, %r8d
	vmovq	%r15, %xmm0
	vpbroadcastq	%xmm0, %ymm1
	vmovq	%rax, %xmm0
	vpbroadcastq	%xmm0, %ymm0
	movq	%rdx, %r15
	subq	%rbx, %r15
	cmpq	$1024, %r15
	movl	$1024, %eax
	cmovbq	%r15, %rax
	andl	$2044, %eax
	leaq	(%rsi,%r11), %r15
	.p2align	4
.LBB28_45:
	vmovdqu	(%r15,%rdi,8), %ymm2
	vpbroadcastq	.LCPI28_0(%rip), %ymm3
	vpxor	%ymm3, %ymm2, %ymm4
	vpxor	%ymm3, %ymm1, %ymm5
	vpcmpgtq	%ymm2, %ymm5, %ymm5
	vblendvpd	%ymm5, %ymm4, %ymm1, %ymm1
	vpxor	%ymm3, %ymm0, %ymm3
	vpcmpgtq	%ymm3, %ymm2, %ymm2
	vblendvpd	%ymm2, %ymm4, %ymm0, %ymm0
	addq	$4, %rdi
	cmpq	%rdi, %rax
	jne	.LBB28_45
	vextractf128	$1, %ymm1, %xmm2
	vmovddup	.LCPI28_0(%rip), %xmm3
	vxorpd	%xmm3, %xmm1, %xmm4
	vxorpd	%xmm3, %xmm2, %xmm5
	vpcmpgtq	%xmm4, %xmm5, %xmm4
	vblendvpd	%xmm4, %xmm1, %xmm2, %xmm1
	vshufps	$238, %xmm1, %xmm1, %xmm2
	vxorpd	%xmm3, %xmm1, %xmm4
	vxorpd	%xmm3, %xmm2, %xmm5
	vpcmpgtq	%xmm4, %xmm5, %xmm4
	vblendvpd	%xmm4, %xmm1, %xmm2, %xmm1
	vmovq	%xmm1, %r15
	vextractf128	$1, %ymm0, %xmm1
	vxorpd	%xmm3, %xmm1, %xmm2
	vxorpd	%xmm3, %xmm0, %xmm4
	vpcmpgtq	%xmm2, %xmm4, %xmm2
	vblendvpd	%xmm2, %xmm0, %xmm1, %xmm0
	vshufps	$238, %xmm0, %xmm0, %xmm1
	vxorpd	%xmm3, %xmm0, %xmm2
	vxorpd	%xmm3, %xmm1, %xmm3
	vpcmpgtq	%xmm3, %xmm2, %xmm2
	vblendvpd	%xmm2, %xmm0, %xmm1, %xmm0
	vmovq	%xmm0, %rax
	cmpq	%r8, %rbp
	je	.LBB28_49
.LBB28_47:
	movq	%rdx, %rdi
	subq	%rbx, %rdi
	cmpq	$1024, %rdi
	cmovbq	%rdi, %r13
	addq	%rsi, %r11
	.p2align	4
.LBB28_48:
	movq	%rax, %rdi
	movq	(%r11,%r8,8), %rax
	xorq	%r14, %rax
	cmpq	%r15, %rax
	cmovbq	%rax, %r15
	cmpq	%rdi, %rax
	cmovbeq	%rdi, %rax
	incq	%r8
	cmpq	%r8, %r13
	jne	.LBB28_48
.LBB28_49:
	addq	%rbx, %rbp
	movq	%r9, %rdi
	subq	%rbp, %rdi
	cmpq	$128, %rdi
	jb	.LBB28_34
	movq	%rax, %rdi
	subq	%r15, %rdi
	movq	56(%rsp), %r13
	js	.LBB28_35
	vmovq	%rdi, %xmm0
	vpbroadcastq	%xmm0, %ymm0
	vmovq	%r15, %xmm1
	vpbroadcastq	%xmm1, %ymm1
	movq	%rdx, %rdi
	subq	%rbx, %rdi
	xorl	%r8d, %r8d
	subq	$1024, %rdi
	cmovaeq	%rdi, %r8
	.p2align	4
.LBB28_52:
	vpbroadcastq	.LCPI28_0(%rip), %ymm7
	vpxor	(%rsi,%rbp,8), %ymm7, %ymm2
	vpxor	32(%rsi,%rbp,8), %ymm7, %ymm3
	vpxor	64(%rsi,%rbp,8), %ymm7, %ymm4
	vpxor	96(%rsi,%rbp,8), %ymm7, %ymm5
	vpsubq	%ymm1, %ymm2, %ymm2
	vmovdqu	%ymm2, 448(%rsp)
	vpsubq	%ymm1, %ymm3, %ymm3
	vmovdqu	%ymm3, 480(%rsp)
	vpsubq	%ymm1, %ymm4, %ymm4
	vmovdqu	%ymm4, 544(%rsp)
	vpsubq	%ymm1, %ymm5, %ymm9
	vmovdqu	%ymm9, 176(%rsp)
	vpsubq	%ymm2, %ymm0, %ymm2
	vpsubq	%ymm3, %ymm0, %ymm3
	vpsubq	%ymm4, %ymm0, %ymm5
	vpxor	128(%rsi,%rbp,8), %ymm7, %ymm4
	vpxor	160(%rsi,%rbp,8), %ymm7, %ymm6
	vpxor	192(%rsi,%rbp,8), %ymm7, %ymm8
	vpsubq	%ymm9, %ymm0, %ymm9
	vpxor	224(%rsi,%rbp,8), %ymm7, %ymm10
	vpsubq	%ymm1, %ymm4, %ymm4
	vmovdqu	%ymm4, 256(%rsp)
	vpsubq	%ymm1, %ymm6, %ymm12
	vmovdqu	%ymm12, 416(%rsp)
	vpsubq	%ymm1, %ymm8, %ymm11
	vmovdqu	%ymm11, 288(%rsp)
	vpsubq	%ymm1, %ymm10, %ymm8
	vmovdqu	%ymm8, 512(%rsp)
	vpsubq	%ymm4, %ymm0, %ymm4
	vpor	%ymm4, %ymm2, %ymm6
	vpsubq	%ymm12, %ymm0, %ymm2
	vpor	%ymm2, %ymm3, %ymm4
	vpsubq	%ymm11, %ymm0, %ymm2
	vpor	%ymm2, %ymm5, %ymm3
	vpsubq	%ymm8, %ymm0, %ymm2
	vpxor	256(%rsi,%rbp,8), %ymm7, %ymm5
	vpor	%ymm2, %ymm9, %ymm2
	vpsubq	%ymm1, %ymm5, %ymm8
	vmovdqu	%ymm8, 144(%rsp)
	vpxor	384(%rsi,%rbp,8), %ymm7, %ymm5
	vpsubq	%ymm8, %ymm0, %ymm8
	vpsubq	%ymm1, %ymm5, %ymm5
	vmovdqu	%ymm5, 864(%rsp)
	vpsubq	%ymm5, %ymm0, %ymm5
	vpor	%ymm5, %ymm8, %ymm5
	vpor	%ymm5, %ymm6, %ymm10
	vpxor	288(%rsi,%rbp,8), %ymm7, %ymm5
	vpsubq	%ymm1, %ymm5, %ymm6
	vmovdqu	%ymm6, 832(%rsp)
	vpxor	416(%rsi,%rbp,8), %ymm7, %ymm5
	vpsubq	%ymm1, %ymm5, %ymm8
	vmovdqu	%ymm8, 800(%rsp)
	vpsubq	%ymm6, %ymm0, %ymm5
	vpsubq	%ymm8, %ymm0, %ymm6
	vpor	%ymm6, %ymm5, %ymm5
	vpxor	320(%rsi,%rbp,8), %ymm7, %ymm6
	vpor	%ymm5, %ymm4, %ymm15
	vpsubq	%ymm1, %ymm6, %ymm5
	vmovdqu	%ymm5, 320(%rsp)
	vpxor	448(%rsi,%rbp,8), %ymm7, %ymm4
	vpsubq	%ymm1, %ymm4, %ymm6
	vmovdqu	%ymm6, 352(%rsp)
	vpsubq	%ymm5, %ymm0, %ymm4
	vpsubq	%ymm6, %ymm0, %ymm5
	vpor	%ymm5, %ymm4, %ymm4
	vpor	%ymm4, %ymm3, %ymm12
	vpxor	352(%rsi,%rbp,8), %ymm7, %ymm3
	vpsubq	%ymm1, %ymm3, %ymm4
	vmovdqu	%ymm4, 384(%rsp)
	vpxor	480(%rsi,%rbp,8), %ymm7, %ymm3
	vpsubq	%ymm1, %ymm3, %ymm5
	vmovdqu	%ymm5, 224(%rsp)
	vpsubq	%ymm4, %ymm0, %ymm3
	vpsubq	%ymm5, %ymm0, %ymm4
	vpor	%ymm4, %ymm3, %ymm3
	vpxor	512(%rsi,%rbp,8), %ymm7, %ymm4
	vpor	%ymm3, %ymm2, %ymm13
	vpsubq	%ymm1, %ymm4, %ymm3
	vmovdqu	%ymm3, 640(%rsp)
	vpxor	640(%rsi,%rbp,8), %ymm7, %ymm2
	vpsubq	%ymm1, %ymm2, %ymm4
	vmovdqu	%ymm4, 576(%rsp)
	vpsubq	%ymm3, %ymm0, %ymm2
	vpsubq	%ymm4, %ymm0, %ymm3
	vpor	%ymm3, %ymm2, %ymm9
	vpxor	544(%rsi,%rbp,8), %ymm7, %ymm3
	vpxor	672(%rsi,%rbp,8), %ymm7, %ymm4
	vpsubq	%ymm1, %ymm3, %ymm14
	vpsubq	%ymm1, %ymm4, %ymm2
	vmovdqu	%ymm2, 608(%rsp)
	vpsubq	%ymm14, %ymm0, %ymm3
	vpsubq	%ymm2, %ymm0, %ymm4
	vpor	%ymm4, %ymm3, %ymm3
	vpxor	576(%rsi,%rbp,8), %ymm7, %ymm4
	vpsubq	%ymm1, %ymm4, %ymm2
	vmovdqu	%ymm2, 704(%rsp)
	vpxor	704(%rsi,%rbp,8), %ymm7, %ymm4
	vpsubq	%ymm1, %ymm4, %ymm5
	vmovdqu	%ymm5, 672(%rsp)
	vpsubq	%ymm2, %ymm0, %ymm4
	vpsubq	%ymm5, %ymm0, %ymm5
	vpor	%ymm5, %ymm4, %ymm4
	vpxor	608(%rsi,%rbp,8), %ymm7, %ymm5
	vpsubq	%ymm1, %ymm5, %ymm2
	vmovdqu	%ymm2, 736(%rsp)
	vpxor	736(%rsi,%rbp,8), %ymm7, %ymm5
	vpsubq	%ymm1, %ymm5, %ymm6
	vmovdqu	%ymm6, 768(%rsp)
	vpsubq	%ymm2, %ymm0, %ymm5
	vpsubq	%ymm6, %ymm0, %ymm6
	vpxor	768(%rsi,%rbp,8), %ymm7, %ymm8
	vpor	%ymm6, %ymm5, %ymm2
	vpsubq	%ymm1, %ymm8, %ymm8
	vpsubq	%ymm8, %ymm0, %ymm6
	vpor	%ymm6, %ymm9, %ymm6
	vpor	%ymm6, %ymm10, %ymm11
	vpxor	800(%rsi,%rbp,8), %ymm7, %ymm6
	vpsubq	%ymm1, %ymm6, %ymm10
	vpsubq	%ymm10, %ymm0, %ymm9
	vpor	%ymm3, %ymm9, %ymm3
	vpxor	832(%rsi,%rbp,8), %ymm7, %ymm9
	vpor	%ymm3, %ymm15, %ymm3
	vpsubq	%ymm1, %ymm9, %ymm15
	vpsubq	%ymm15, %ymm0, %ymm9
	vpor	%ymm4, %ymm9, %ymm4
	vpor	%ymm4, %ymm12, %ymm5
	vpxor	864(%rsi,%rbp,8), %ymm7, %ymm9
	vpsubq	%ymm1, %ymm9, %ymm12
	vpsubq	%ymm12, %ymm0, %ymm9
	vpor	%ymm2, %ymm9, %ymm2
	vpxor	928(%rsi,%rbp,8), %ymm7, %ymm9
	vpor	%ymm2, %ymm13, %ymm4
	vpsubq	%ymm1, %ymm9, %ymm2
	vpsubq	%ymm2, %ymm0, %ymm9
	vpor	%ymm3, %ymm9, %ymm6
	vpxor	960(%rsi,%rbp,8), %ymm7, %ymm3
	vpsubq	%ymm1, %ymm3, %ymm3
	vpsubq	%ymm3, %ymm0, %ymm9
	vpor	%ymm5, %ymm9, %ymm5
	vpxor	992(%rsi,%rbp,8), %ymm7, %ymm9
	vpsubq	%ymm1, %ymm9, %ymm9
	vpsubq	%ymm9, %ymm0, %ymm13
	vpor	%ymm4, %ymm13, %ymm4
	vpxor	896(%rsi,%rbp,8), %ymm7, %ymm7
	vpsubq	%ymm1, %ymm7, %ymm7
	vpsubq	%ymm7, %ymm0, %ymm13
	vpor	448(%rsp), %ymm13, %ymm13
	vpor	256(%rsp), %ymm13, %ymm13
	vpor	144(%rsp), %ymm13, %ymm13
	vpor	%ymm13, %ymm11, %ymm11
	vmovdqu	640(%rsp), %ymm13
	vpor	864(%rsp), %ymm13, %ymm13
	vpor	576(%rsp), %ymm13, %ymm13
	vpor	%ymm8, %ymm13, %ymm8
	vpor	%ymm7, %ymm8, %ymm7
	vpor	%ymm7, %ymm11, %ymm7
	vpor	480(%rsp), %ymm6, %ymm6
	vpor	%ymm7, %ymm6, %ymm6
	vmovdqu	832(%rsp), %ymm7
	vpor	416(%rsp), %ymm7, %ymm7
	vpor	800(%rsp), %ymm7, %ymm7
	vpor	%ymm7, %ymm14, %ymm7
	vpor	608(%rsp), %ymm7, %ymm7
	vpor	%ymm7, %ymm10, %ymm7
	vpor	%ymm2, %ymm7, %ymm2
	vpor	%ymm2, %ymm6, %ymm2
	vpor	544(%rsp), %ymm5, %ymm5
	vpor	288(%rsp), %ymm5, %ymm5
	vpor	320(%rsp), %ymm5, %ymm5
	vpor	%ymm2, %ymm5, %ymm2
	vmovdqu	704(%rsp), %ymm5
	vpor	352(%rsp), %ymm5, %ymm5
	vpor	672(%rsp), %ymm5, %ymm5
	vpor	%ymm5, %ymm15, %ymm5
	vpor	%ymm3, %ymm5, %ymm3
	vpor	%ymm3, %ymm2, %ymm2
	vpor	176(%rsp), %ymm4, %ymm3
	vpor	512(%rsp), %ymm3, %ymm3
	vpor	384(%rsp), %ymm3, %ymm3
	vpor	224(%rsp), %ymm3, %ymm3
	vpor	736(%rsp), %ymm3, %ymm3
	vpor	%ymm2, %ymm3, %ymm2
	vpor	768(%rsp), %ymm12, %ymm3
	vpor	%ymm3, %ymm9, %ymm3
	vpor	%ymm3, %ymm2, %ymm2
	vextracti128	$1, %ymm2, %xmm3
	vpor	%xmm3, %xmm2, %xmm2
	vpshufd	$238, %xmm2, %xmm3
	vpor	%xmm3, %xmm2, %xmm2
	vmovq	%xmm2, %rdi
	testq	%rdi, %rdi
	js	.LBB28_35
	subq	$-128, %rbp
	addq	$-128, %r8
	cmpq	$127, %r8
	ja	.LBB28_52
	jmp	.LBB28_35
.LBB28_54:
	movq	%rax, %rdx
	leaq	-1(%rsi), %rax
	lzcntq	%rax, %rax
	movl	$64, %ecx
	subq	%rax, %rcx
	imulq	%rdx, %rcx
	addq	$7, %rcx
	shrq	$3, %rcx
	leaq	(%rcx,%rsi,8), %r10
	jmp	.LBB28_56
.LBB28_55:
	xorl	%r10d, %r10d
.LBB28_56:
	movl	$1, %ecx
	movl	$1, %eax
	movq	8(%rsp), %rdx
	cmpq	$128, %rdx
	jb	.LBB28_59
	movq	%rdx, %rsi
	.p2align	4
.LBB28_58:
	shrq	$7, %rsi
	incq	%rax
	cmpq	$16383, %rdx
	movq	%rsi, %rdx
	ja	.LBB28_58
.LBB28_59:
	cmpl	$128, 5072(%rsp)
	movq	128(%rsp), %r12
	jb	.LBB28_62
	movl	$1, %ecx
	movq	88(%rsp), %rdx
	movq	%rdx, %rsi
	.p2align	4
.LBB28_61:
	shrq	$7, %rsi
	incq	%rcx
	cmpq	$16383, %rdx
	movq	%rsi, %rdx
	ja	.LBB28_61
.LBB28_62:
	movl	$1, %esi
	movl	$1, %edx
	cmpq	$128, 24(%rsp)
	jb	.LBB28_65
	movq	24(%rsp), %rdi
	movq	%rdi, %r8
	.p2align	4
.LBB28_64:
	shrq	$7, %r8
	incq	%rdx
	cmpq	$16383, %rdi
	movq	%r8, %rdi
	ja	.LBB28_64
.LBB28_65:
	cmpl	$128, 96(%rsp)
	movq	136(%rsp), %r15
	jb	.LBB28_68
	movl	$1, %esi
	movq	96(%rsp), %rdi
	movq	%rdi, %r8
	.p2align	4
.LBB28_67:
	shrq	$7, %r8
	incq	%rsi
	cmpq	$16383, %rdi
	movq	%r8, %rdi
	ja	.LBB28_67
.LBB28_68:
	movl	$1, %edi
	movl	$1, %r8d
	cmpq	$128, %r12
	jb	.LBB28_71
	movq	%r12, %r9
	movq	%r12, %r11
	.p2align	4
.LBB28_70:
	shrq	$7, %r11
	incq	%r8
	cmpq	$16383, %r9
	movq	%r11, %r9
	ja	.LBB28_70
.LBB28_71:
	cmpq	$128, 32(%rsp)
	jb	.LBB28_74
	movl	$1, %edi
	movq	32(%rsp), %r9
	movq	%r9, %r11
	.p2align	4
.LBB28_73:
	shrq	$7, %r11
	incq	%rdi
	cmpq	$16383, %r9
	movq	%r11, %r9
	ja	.LBB28_73
.LBB28_74:
	movq	5088(%rsp), %r9
	movl	$1, %r11d
	cmpq	$128, %r10
	jb	.LBB28_77
	movq	%r10, %rbx
	movq	%r10, %r14
	.p2align	4
.LBB28_76:
	shrq	$7, %r14
	incq	%r11
	cmpq	$16383, %rbx
	movq	%r14, %rbx
	ja	.LBB28_76
.LBB28_77:
	movq	24(%rsp), %rbx
	addq	%r10, %rbx
	addq	%rcx, %rax
	addq	%rbx, %rax
	addq	%rsi, %rdx
	addq	%r8, %rdx
	addq	%rax, %rdx
	addq	%rdi, %rdx
	leaq	(%r11,%rdx), %rdi
	addq	$2, %rdi
	cmpq	%rdi, %r9
	jae	.LBB28_79
	movq	120(%rsp), %rax
	movq	$1, (%rax)
	movq	$4, 8(%rax)
	movq	%rdi, 16(%rax)
	jmp	.LBB28_291
.LBB28_79:
	movq	5080(%rsp), %r14
	leal	1(%r15), %eax
	movb	%al, (%r14)
	movl	$1, %ecx
	movq	8(%rsp), %rax
	movq	%rax, %rdx
	cmpq	$128, %rax
	jb	.LBB28_82
	movq	%rax, %rdx
	.p2align	4
.LBB28_81:
	movl	%eax, %esi
	orb	$-128, %sil
	movb	%sil, (%r14,%rcx)
	shrq	$7, %rdx
	incq	%rcx
	cmpq	$16383, %rax
	movq	%rdx, %rax
	ja	.LBB28_81
.LBB28_82:
	leaq	1(%rcx), %rax
	movb	%dl, (%r14,%rcx)
	cmpl	$128, 5072(%rsp)
	movq	32(%rsp), %r9
	jb	.LBB28_85
	movq	88(%rsp), %rcx
	movq	%rcx, %rdx
	.p2align	4
.LBB28_84:
	movl	%ecx, %esi
	orb	$-128, %sil
	movb	%sil, (%r14,%rax)
	shrq	$7, %rdx
	incq	%rax
	cmpq	$16383, %rcx
	movq	%rdx, %rcx
	ja	.LBB28_84
	jmp	.LBB28_86
.LBB28_85:
	movq	88(%rsp), %rdx
.LBB28_86:
	leaq	1(%rax), %rcx
	movb	%dl, (%r14,%rax)
	movq	24(%rsp), %rax
	cmpq	$128, %rax
	jb	.LBB28_89
	movq	%rax, %rdx
	.p2align	4
.LBB28_88:
	movl	%eax, %esi
	orb	$-128, %sil
	movb	%sil, (%r14,%rcx)
	shrq	$7, %rdx
	incq	%rcx
	cmpq	$16383, %rax
	movq	%rdx, %rax
	ja	.LBB28_88
	jmp	.LBB28_90
.LBB28_89:
	movq	%rax, %rdx
.LBB28_90:
	leaq	1(%rcx), %rax
	movb	%dl, (%r14,%rcx)
	movq	96(%rsp), %rsi
	cmpl	$128, %esi
	jb	.LBB28_93
	movq	%rsi, %rdx
	.p2align	4
.LBB28_92:
	movl	%esi, %ecx
	orb	$-128, %cl
	movb	%cl, (%r14,%rax)
	shrq	$7, %rdx
	incq	%rax
	cmpq	$16383, %rsi
	movq	%rdx, %rsi
	ja	.LBB28_92
	jmp	.LBB28_94
.LBB28_93:
	movq	%rsi, %rdx
.LBB28_94:
	leaq	2(%rax), %rcx
	movb	%dl, (%r14,%rax)
	movq	40(%rsp), %rdx
	movb	%dl, 1(%r14,%rax)
	cmpq	$128, %r12
	jb	.LBB28_103
	movq	%r12, %rax
	movq	%r12, %rdx
	.p2align	4
.LBB28_96:
	movl	%eax, %esi
	orb	$-128, %sil
	movb	%sil, (%r14,%rcx)
	shrq	$7, %rdx
	incq	%rcx
	cmpq	$16383, %rax
	movq	%rdx, %rax
	ja	.LBB28_96
	leaq	1(%rcx), %rax
	movb	%dl, (%r14,%rcx)
	cmpq	$128, %r9
	jb	.LBB28_104
.LBB28_98:
	movq	%r9, %rdx
	movq	%r9, %rcx
	.p2align	4
.LBB28_99:
	movl	%edx, %esi
	orb	$-128, %sil
	movb	%sil, (%r14,%rax)
	shrq	$7, %rcx
	incq	%rax
	cmpq	$16383, %rdx
	movq	%rcx, %rdx
	ja	.LBB28_99
	leaq	1(%rax), %rdx
	movb	%cl, (%r14,%rax)
	cmpq	$128, %r10
	jb	.LBB28_105
.LBB28_101:
	movq	%r10, %rax
	.p2align	4
.LBB28_102:
	movl	%r10d, %ecx
	orb	$-128, %cl
	movb	%cl, (%r14,%rdx)
	shrq	$7, %rax
	incq	%rdx
	cmpq	$16383, %r10
	movq	%rax, %r10
	ja	.LBB28_102
	jmp	.LBB28_106
.LBB28_103:
	movq	%r12, %rdx
	leaq	1(%rcx), %rax
	movb	%dl, (%r14,%rcx)
	cmpq	$128, %r9
	jae	.LBB28_98
.LBB28_104:
	movq	%r9, %rcx
	leaq	1(%rax), %rdx
	movb	%cl, (%r14,%rax)
	cmpq	$128, %r10
	jae	.LBB28_101
.LBB28_105:
	movq	%r10, %rax
.LBB28_106:
	leaq	1(%rdx), %r11
	movb	%al, (%r14,%rdx)
	movq	%rdx, %rax
	movq	8(%rsp), %rdx
	testq	%rdx, %rdx
	movq	%rdi, 216(%rsp)
	je	.LBB28_204
	movq	%rax, 224(%rsp)
	movq	88(%rsp), %rcx
	leaq	-6(%rcx), %rsi
	movl	$16, %r8d
	subq	%rcx, %r8
	movb	$17, %al
	subb	%cl, %al
	movl	$1, %ecx
	shlxq	%rax, %rcx, %rax
	addq	$8192, %rax
	cmpl	$0, 5072(%rsp)
	movq	%rsi, 512(%rsp)
	shlxq	%rsi, %rcx, %rdi
	movl	$2, %ecx
	movq	%r8, 480(%rsp)
	shlxq	%r8, %rcx, %rcx
	movq	%rcx, 384(%rsp)
	movl	$8192, %ecx
	cmovneq	%rax, %rcx
	movq	%rcx, 256(%rsp)
	leaq	4(%r14), %rax
	movq	%rax, 144(%rsp)
	andq	$-2, %rdi
	leaq	52(%r14), %rax
	movq	%rax, 320(%rsp)
	leaq	18(%r14), %rax
	movq	%rax, 352(%rsp)
	movq	%rdx, %r8
	movq	%r13, %r12
	jmp	.LBB28_110
	.p2align	4
.LBB28_108:
	leaq	(%r9,%r9), %r11
.LBB28_109:
	movq	448(%rsp), %r8
	subq	%r9, %r8
	addq	288(%rsp), %r11
	movq	416(%rsp), %r12
	testq	%r8, %r8
	je	.LBB28_176
.LBB28_110:
	movzwl	2(%r12), %esi
	xorl	%edx, %edx
	cmpq	$1, %r8
	movq	%r8, 448(%rsp)
	jne	.LBB28_137
	xorl	%ebx, %ebx
.LBB28_112:
	movzwl	2(%r12,%rbx,4), %ecx
	xorl	%eax, %eax
	cmpl	%ecx, %esi
	sete	%al
	leaq	(%rbx,%rax), %r9
	leaq	(%r12,%r9,4), %rcx
	movq	%rcx, 416(%rsp)
	movw	%si, (%r14,%r11)
	leal	-1(%r9), %ecx
	movw	%cx, 2(%r14,%r11)
	leaq	4(%r11), %rcx
	movq	%rcx, 288(%rsp)
	cmpq	$65536, %r9
	movb	$2, %cl
	sbbb	$0, %cl
	cmpq	$4096, %r9
	movzbl	%cl, %ecx
	cmovbl	%edx, %ecx
	cmpb	$2, %cl
	je	.LBB28_174
	movzbl	%cl, %ecx
	cmpl	$1, %ecx
	jne	.LBB28_141
	movq	5080(%rsp), %rax
	movq	288(%rsp), %rcx
	leaq	(%rax,%rcx), %r11
	cmpl	$0, 5072(%rsp)
	je	.LBB28_144
	movq	384(%rsp), %rax
	movq	%r11, 176(%rsp)
	addq	%r11, %rax
	movq	%rax, 544(%rsp)
	xorl	%r10d, %r10d
	xorl	%r13d, %r13d
	xorl	%ebp, %ebp
	jmp	.LBB28_119
	.p2align	4
.LBB28_116:
	movq	%r9, %r10
.LBB28_117:
	movq	%rdx, (%rax)
	xorl	%r8d, %r8d
	popcntq	%rdx, %r8
.LBB28_118:
	addq	%r8, %r13
	incq	%rbp
	movq	480(%rsp), %rax
	shrxq	%rax, %rbp, %rax
	testq	%rax, %rax
	jne	.LBB28_174
.LBB28_119:
	movq	%r13, %rax
	bswapq	%rax
	shrq	$48, %rax
	movq	512(%rsp), %rcx
	shlxq	%rcx, %rbp, %r14
	movq	176(%rsp), %rdx
	movw	%ax, (%rdx,%rbp,2)
	movq	544(%rsp), %rax
	leaq	(%rax,%r14,8), %rax
	xorl	%edx, %edx
	testq	%rcx, %rcx
	je	.LBB28_134
	xorl	%r8d, %r8d
	jmp	.LBB28_124
	.p2align	4
.LBB28_121:
	xorl	%ebx, %ebx
.LBB28_122:
	movq	%r9, %r10
.LBB28_123:
	xorl	%ecx, %ecx
	popcntq	%rsi, %rcx
	addq	%rcx, %r8
	movq	%rdx, %rcx
	orq	$1, %rcx
	movq	%rbx, (%rax,%rcx,8)
	xorl	%ecx, %ecx
	popcntq	%rbx, %rcx
	addq	%rcx, %r8
	addq	$2, %rdx
	cmpq	%rdi, %rdx
	je	.LBB28_118
.LBB28_124:
	cmpq	%r9, %r10
	jae	.LBB28_128
	leaq	(%rdx,%r14), %rbx
	xorl	%esi, %esi
	.p2align	4
.LBB28_126:
	movzwl	(%r12,%r10,4), %r15d
	movl	%r15d, %ecx
	shrl	$6, %ecx
	cmpq	%rbx, %rcx
	jne	.LBB28_130
	movl	$1, %ecx
	shlxq	%r15, %rcx, %rcx
	addq	%rcx, %rsi
	incq	%r10
	cmpq	%r10, %r9
	jne	.LBB28_126
	jmp	.LBB28_129
	.p2align	4
.LBB28_128:
	xorl	%esi, %esi
.LBB28_129:
	movq	%r9, %r10
.LBB28_130:
	movq	%rsi, (%rax,%rdx,8)
	cmpq	%r9, %r10
	jae	.LBB28_121
	leaq	(%rdx,%r14), %r15
	incq	%r15
	xorl	%ebx, %ebx
	.p2align	4
.LBB28_132:
	movzwl	(%r12,%r10,4), %r11d
	movl	%r11d, %ecx
	shrl	$6, %ecx
	cmpq	%r15, %rcx
	jne	.LBB28_123
	movl	$1, %ecx
	shlxq	%r11, %rcx, %rcx
	addq	%rcx, %rbx
	incq	%r10
	cmpq	%r10, %r9
	jne	.LBB28_132
	jmp	.LBB28_122
	.p2align	4
.LBB28_134:
	cmpq	%r9, %r10
	jae	.LBB28_116
	.p2align	4
.LBB28_135:
	movzwl	(%r12,%r10,4), %ecx
	movl	%ecx, %esi
	shrl	$6, %esi
	cmpq	%r14, %rsi
	jne	.LBB28_117
	movl	$1, %esi
	shlxq	%rcx, %rsi, %rcx
	addq	%rcx, %rdx
	incq	%r10
	cmpq	%r10, %r9
	jne	.LBB28_135
	jmp	.LBB28_116
	.p2align	4
.LBB28_137:
	cmpq	$16, %r8
	movl	$16, %ecx
	movl	$16, %eax
	cmovbq	%r8, %rax
	movl	%eax, %eax
	movzwl	-2(%r12,%rax,4), %eax
	cmpl	%eax, %esi
	movl	$65536, %eax
	cmovneq	%rcx, %rax
	cmpq	%r8, %rax
	cmovaeq	%r8, %rax
	xorl	%r8d, %r8d
	jmp	.LBB28_139
	.p2align	4
.LBB28_138:
	subq	%r9, %rax
	movq	%rbx, %r8
	cmpq	$1, %rax
	jbe	.LBB28_112
.LBB28_139:
	movq	%rax, %r9
	shrq	%r9
	leaq	(%r9,%r8), %rbx
	movzwl	2(%r12,%rbx,4), %ecx
	cmpl	%ecx, %esi
	je	.LBB28_138
	movq	%r8, %rbx
	jmp	.LBB28_138
	.p2align	4
.LBB28_141:
	movq	5080(%rsp), %r14
	testq	%r9, %r9
	movq	56(%rsp), %r13
	je	.LBB28_108
	leaq	4(%r11), %rcx
	leaq	(%r14,%rcx), %r10
	cmpq	$8, %r9
	jb	.LBB28_143
	leaq	(%r12,%r9,4), %rcx
	cmpq	%rcx, %r10
	jae	.LBB28_159
	movq	144(%rsp), %rcx
	addq	%r11, %rcx
	leaq	(%rcx,%r9,2), %rcx
	cmpq	%rcx, %r12
	jae	.LBB28_159
.LBB28_143:
	xorl	%edx, %edx
.LBB28_168:
	leal	(%rbx,%rax), %r8d
	movq	%rdx, %rsi
	andl	$7, %r8d
	je	.LBB28_171
	movq	%rdx, %rsi
	.p2align	4
.LBB28_170:
	movzwl	(%r12,%rsi,4), %ecx
	movw	%cx, (%r10,%rsi,2)
	incq	%rsi
	decq	%r8
	jne	.LBB28_170
.LBB28_171:
	addq	%rax, %rbx
	notq	%rdx
	addq	%rbx, %rdx
	cmpq	$7, %rdx
	jb	.LBB28_174
	addq	352(%rsp), %r11
	.p2align	4
.LBB28_173:
	movzwl	(%r12,%rsi,4), %eax
	movw	%ax, -14(%r11,%rsi,2)
	movzwl	4(%r12,%rsi,4), %eax
	movw	%ax, -12(%r11,%rsi,2)
	movzwl	8(%r12,%rsi,4), %eax
	movw	%ax, -10(%r11,%rsi,2)
	movzwl	12(%r12,%rsi,4), %eax
	movw	%ax, -8(%r11,%rsi,2)
	movzwl	16(%r12,%rsi,4), %eax
	movw	%ax, -6(%r11,%rsi,2)
	movzwl	20(%r12,%rsi,4), %eax
	movw	%ax, -4(%r11,%rsi,2)
	movzwl	24(%r12,%rsi,4), %eax
	movw	%ax, -2(%r11,%rsi,2)
	movzwl	28(%r12,%rsi,4), %eax
	movw	%ax, (%r11,%rsi,2)
	addq	$8, %rsi
	cmpq	%rsi, %r9
	jne	.LBB28_173
	.p2align	4
.LBB28_174:
	cmpq	$4095, %r9
	movq	56(%rsp), %r13
	movq	5080(%rsp), %r14
	jbe	.LBB28_108
	xorl	%r11d, %r11d
	cmpq	$65536, %r9
	cmovbq	256(%rsp), %r11
	jmp	.LBB28_109
.LBB28_144:
	xorl	%eax, %eax
	xorl	%edx, %edx
	jmp	.LBB28_147
	.p2align	4
.LBB28_145:
	movq	%r9, %rdx
.LBB28_146:
	movq	%r8, (%rbx,%rsi,8)
	addq	$2, %rax
	cmpq	$1024, %rax
	je	.LBB28_174
.LBB28_147:
	xorl	%esi, %esi
	cmpq	%r9, %rdx
	jae	.LBB28_152
	movq	%r11, %rbx
	.p2align	4
.LBB28_149:
	movzwl	(%r12,%rdx,4), %ecx
	movl	%ecx, %r8d
	shrl	$6, %r8d
	cmpq	%rax, %r8
	jne	.LBB28_153
	movl	$1, %r8d
	shlxq	%rcx, %r8, %rcx
	addq	%rcx, %rsi
	incq	%rdx
	cmpq	%rdx, %r9
	jne	.LBB28_149
	movq	%r9, %rdx
	jmp	.LBB28_153
	.p2align	4
.LBB28_152:
	movq	%r9, %rdx
	movq	%r11, %rbx
.LBB28_153:
	movq	%rsi, (%rbx,%rax,8)
	movq	%rax, %rsi
	orq	$1, %rsi
	xorl	%r8d, %r8d
	cmpq	%r9, %rdx
	jae	.LBB28_145
	.p2align	4
.LBB28_154:
	movzwl	(%r12,%rdx,4), %ecx
	movl	%ecx, %r10d
	shrl	$6, %r10d
	cmpq	%rsi, %r10
	jne	.LBB28_146
	movl	$1, %r10d
	shlxq	%rcx, %r10, %rcx
	addq	%rcx, %r8
	incq	%rdx
	cmpq	%rdx, %r9
	jne	.LBB28_154
	jmp	.LBB28_145
.LBB28_159:
	cmpq	$32, %r9
	jae	.LBB28_161
	xorl	%edx, %edx
	jmp	.LBB28_165
.LBB28_161:
	movq	%r9, %rdx
	andq	$-32, %rdx
	movq	320(%rsp), %rcx
	leaq	(%rcx,%r11), %rsi
	xorl	%r8d, %r8d
	.p2align	4
.LBB28_162:
	vmovdqu	(%r12,%r8,4), %ymm0
	vmovdqu	32(%r12,%r8,4), %ymm1
	vmovdqu	64(%r12,%r8,4), %ymm2
	vmovdqu	96(%r12,%r8,4), %ymm3
	vmovdqa	.LCPI28_1(%rip), %ymm4
	vpshufb	%ymm4, %ymm0, %ymm0
	vpermq	$232, %ymm0, %ymm0
	vpshufb	%ymm4, %ymm1, %ymm1
	vpermq	$232, %ymm1, %ymm1
	vpshufb	%ymm4, %ymm2, %ymm2
	vpermq	$232, %ymm2, %ymm2
	vpshufb	%ymm4, %ymm3, %ymm3
	vpermq	$232, %ymm3, %ymm3
	vmovdqu	%xmm0, -48(%rsi,%r8,2)
	vmovdqu	%xmm1, -32(%rsi,%r8,2)
	vmovdqu	%xmm2, -16(%rsi,%r8,2)
	vmovdqu	%xmm3, (%rsi,%r8,2)
	addq	$32, %r8
	cmpq	%r8, %rdx
	jne	.LBB28_162
	cmpq	%rdx, %r9
	je	.LBB28_174
	testb	$24, %r9b
	je	.LBB28_168
.LBB28_165:
	movq	%rdx, %rsi
	movq	%r9, %rdx
	andq	$-8, %rdx
	.p2align	4
.LBB28_166:
	vmovdqu	(%r12,%rsi,4), %ymm0
	vpshufb	.LCPI28_2(%rip), %ymm0, %ymm0
	vpermq	$232, %ymm0, %ymm0
	vmovdqu	%xmm0, (%r10,%rsi,2)
	addq	$8, %rsi
	cmpq	%rsi, %rdx
	jne	.LBB28_166
	cmpq	%rdx, %r9
	je	.LBB28_174
	jmp	.LBB28_168
.LBB28_176:
	movw	$32767, (%r14,%r11)
	movl	$-65536, 2(%r14,%r11)
	movq	8(%rsp), %rax
	cmpl	$65536, -4(%r13,%rax,4)
	movq	32(%rsp), %r9
	movq	64(%rsp), %r12
	movq	24(%rsp), %rax
	movq	224(%rsp), %rdx
	jb	.LBB28_207
	addq	$6, %r11
	leaq	192(%r14), %rax
	movq	%rax, 176(%rsp)
	xorl	%ecx, %ecx
	xorl	%eax, %eax
	xorl	%esi, %esi
	movq	8(%rsp), %rdi
	jmp	.LBB28_179
	.p2align	4
.LBB28_178:
	movb	%bl, %r10b
	addq	%r10, %r8
	leaq	(%r13,%r8,4), %r13
	subq	%r8, %rdi
	leaq	(%r11,%r9,8), %r11
	addq	%r8, %rcx
	leaq	(%r8,%r8), %rdx
	xorl	%r9d, %r9d
	cmpq	$65536, %r8
	cmovbq	256(%rsp), %r9
	cmpq	$4096, %r8
	cmovbq	%rdx, %r9
	addq	%r9, %rsi
	addq	$4, %rsi
	testq	%rdi, %rdi
	je	.LBB28_205
.LBB28_179:
	movq	%rax, %rdx
	movl	(%r13), %r14d
	movl	%r14d, %eax
	shrl	$16, %eax
	cmpq	$1, %rdi
	jne	.LBB28_186
	xorl	%r8d, %r8d
.LBB28_181:
	movzwl	2(%r13,%r8,4), %r9d
	xorl	%r10d, %r10d
	cmpl	%r9d, %eax
	sete	%bl
	incq	%rax
	movq	%rax, %r9
	subq	%rdx, %r9
	je	.LBB28_178
	cmpq	$4, %r9
	jae	.LBB28_190
	xorl	%edx, %edx
.LBB28_184:
	movq	144(%rsp), %r14
	addq	%r11, %r14
	.p2align	4
.LBB28_185:
	movl	%ecx, -4(%r14,%rdx,8)
	movl	%esi, (%r14,%rdx,8)
	incq	%rdx
	cmpq	%rdx, %r9
	jne	.LBB28_185
	jmp	.LBB28_178
	.p2align	4
.LBB28_186:
	cmpq	$16, %rdi
	movl	$16, %r8d
	movl	$16, %r9d
	cmovbq	%rdi, %r9
	movl	%r9d, %r9d
	movzwl	-2(%r13,%r9,4), %r9d
	cmpl	%r9d, %eax
	movl	$65536, %r9d
	cmovneq	%r8, %r9
	cmpq	%rdi, %r9
	cmovaeq	%rdi, %r9
	xorl	%r10d, %r10d
	jmp	.LBB28_188
	.p2align	4
.LBB28_187:
	subq	%rbx, %r9
	movq	%r8, %r10
	cmpq	$1, %r9
	jbe	.LBB28_181
.LBB28_188:
	movq	%r9, %rbx
	shrq	%rbx
	leaq	(%rbx,%r10), %r8
	movzwl	2(%r13,%r8,4), %ebp
	cmpl	%ebp, %eax
	je	.LBB28_187
	movq	%r10, %r8
	jmp	.LBB28_187
	.p2align	4
.LBB28_190:
	movq	5080(%rsp), %r15
	addq	%r11, %r15
	shrl	$16, %r14d
	subq	%rdx, %r14
	leaq	(%r15,%r14,8), %r12
	xorl	%edx, %edx
	cmpq	%r15, %r12
	jb	.LBB28_202
	movq	%r13, %rbp
	movq	144(%rsp), %r12
	addq	%r11, %r12
	leaq	(%r12,%r14,8), %r13
	cmpq	%r12, %r13
	jb	.LBB28_203
	shrq	$61, %r14
	movq	64(%rsp), %r12
	movq	%rbp, %r13
	jne	.LBB28_184
	vmovd	%esi, %xmm0
	vmovd	%ecx, %xmm1
	cmpq	$32, %r9
	jae	.LBB28_195
	xorl	%edx, %edx
	jmp	.LBB28_199
.LBB28_195:
	movq	%r9, %rdx
	andq	$-32, %rdx
	vpunpckldq	%xmm0, %xmm1, %xmm2
	vpbroadcastq	%xmm2, %ymm2
	movq	176(%rsp), %r14
	addq	%r11, %r14
	xorl	%r12d, %r12d
	.p2align	4
.LBB28_196:
	vmovdqu	%ymm2, -192(%r14,%r12,8)
	vmovdqu	%ymm2, -160(%r14,%r12,8)
	vmovdqu	%ymm2, -128(%r14,%r12,8)
	vmovdqu	%ymm2, -96(%r14,%r12,8)
	vmovdqu	%ymm2, -64(%r14,%r12,8)
	vmovdqu	%ymm2, -32(%r14,%r12,8)
	vmovdqu	%ymm2, (%r14,%r12,8)
	vmovdqu	%ymm2, 32(%r14,%r12,8)
	addq	$32, %r12
	cmpq	%r12, %rdx
	jne	.LBB28_196
	cmpq	%rdx, %r9
	movq	64(%rsp), %r12
	je	.LBB28_178
	testb	$28, %r9b
	je	.LBB28_184
.LBB28_199:
	movq	%rdx, %r14
	movq	%r9, %rdx
	andq	$-4, %rdx
	vpbroadcastd	%xmm0, %xmm0
	vpbroadcastd	%xmm1, %xmm1
	vpunpckldq	%xmm0, %xmm1, %xmm0
	vinserti128	$1, %xmm0, %ymm0, %ymm0
	.p2align	4
.LBB28_200:
	vmovdqu	%ymm0, (%r15,%r14,8)
	addq	$4, %r14
	cmpq	%r14, %rdx
	jne	.LBB28_200
	cmpq	%rdx, %r9
	je	.LBB28_178
	jmp	.LBB28_184
.LBB28_202:
	movq	64(%rsp), %r12
	jmp	.LBB28_184
.LBB28_203:
	movq	64(%rsp), %r12
	movq	%rbp, %r13
	jmp	.LBB28_184
.LBB28_204:
	movw	$32767, 1(%r14,%rax)
	movl	$-65536, 3(%r14,%rax)
	leaq	7(%rax), %r11
	xorl	%esi, %esi
	xorl	%ecx, %ecx
	movq	64(%rsp), %r12
	movq	%rax, %rdx
	jmp	.LBB28_206
.LBB28_205:
	movq	32(%rsp), %r9
	movq	5080(%rsp), %r14
	movq	224(%rsp), %rdx
.LBB28_206:
	movl	%ecx, (%r14,%r11)
	movl	%esi, 4(%r14,%r11)
	movq	24(%rsp), %rax
.LBB28_207:
	leaq	1(%rdx), %r10
	addq	%r14, %r10
	addq	%rax, %r10
	cmpb	$2, 136(%rsp)
	jae	.LBB28_209
	movq	128(%rsp), %r8
	movl	%r8d, %eax
	movq	%r8, %rcx
	shrq	%rcx
	movabsq	$-9223372036854775808, %rdx
	orq	%rcx, %rdx
	notq	%r8
	shrq	%r8
	testb	$1, %al
	cmoveq	%rdx, %r8
	movq	40(%rsp), %rax
	movq	%rax, (%rsp)
	movq	%r10, %rdi
	movl	84(%rsp), %esi
	movq	48(%rsp), %rdx
	movq	16(%rsp), %rcx
	vzeroupper
	callq	"scaled_values::put_numbers"
	jmp	.LBB28_290
.LBB28_209:
	cmpl	$2, 84(%rsp)
	jne	.LBB28_238
	movq	%r10, 72(%rsp)
	movq	16(%rsp), %rcx
	movq	%rcx, %rax
	shrq	$14, %rax
	andl	$16383, %ecx
	addl	$16383, %ecx
	shrl	$14, %ecx
	addq	%rax, %rcx
	movq	%rcx, 8(%rsp)
	je	.LBB28_290
	movabsq	$-9223372036854775808, %r13
	movq	8(%rsp), %rax
	leaq	(%rax,%rax,4), %rax
	leaq	(%rax,%rax,4), %rax
	addq	72(%rsp), %rax
	movq	%rax, 24(%rsp)
	movq	48(%rsp), %r14
	leaq	64(%r14), %rbp
	xorl	%ebx, %ebx
	movq	16(%rsp), %rcx
	xorl	%r15d, %r15d
	jmp	.LBB28_214
	.p2align	4
.LBB28_212:
	xorl	%edx, %edx
	divq	%r9
.LBB28_213:
	movq	56(%rsp), %r15
	lzcntq	%rax, %rax
	movl	$64, %edx
	subq	%rax, %rdx
	leaq	(%rbx,%rbx,4), %rax
	leaq	(%rax,%rax,4), %rax
	movq	%r8, %rdi
	xorq	%r13, %rdi
	movq	72(%rsp), %r10
	movq	%rdi, (%r10,%rax)
	xorq	%r13, %rsi
	movq	%rsi, 8(%r10,%rax)
	movq	%r15, 16(%r10,%rax)
	movb	%dl, 24(%r10,%rax)
	movq	%rdx, %r12
	imulq	%rcx, %r12
	addq	$7, %r12
	shrq	$3, %r12
	movq	24(%rsp), %rax
	leaq	(%rax,%r15), %rdi
	movq	%rdx, (%rsp)
	xorl	%esi, %esi
	movq	%r11, %rdx
	vzeroupper
	callq	"scaled_values::put_numbers"
	addq	%r12, %r15
	incq	%rbx
	movq	104(%rsp), %rcx
	addq	$-16384, %rcx
	addq	$131072, %rbp
	addq	$131072, %r14
	cmpq	8(%rsp), %rbx
	je	.LBB28_290
.LBB28_214:
	movq	%r15, 56(%rsp)
	cmpq	$16384, %rcx
	movl	$16384, %edx
	movl	$16384, %eax
	movq	%rcx, 104(%rsp)
	cmovbq	%rcx, %rax
	movq	%rbx, %rdi
	shlq	$14, %rdi
	movq	16(%rsp), %r9
	movq	%r9, %rcx
	subq	%rdi, %rcx
	cmpq	$16384, %rcx
	cmovaeq	%rdx, %rcx
	movq	%rbx, %r15
	shlq	$17, %r15
	addq	48(%rsp), %r15
	movq	%r13, %r8
	movq	%r13, %rsi
	cmpq	%rdi, %r9
	jne	.LBB28_218
.LBB28_215:
	movq	32(%rsp), %r9
	testq	%r9, %r9
	je	.LBB28_292
	movq	%r15, %r11
	movq	%rsi, %rax
	subq	%r8, %rax
	movq	%rax, %rdx
	orq	%r9, %rdx
	shrq	$32, %rdx
	jne	.LBB28_212
	xorl	%edx, %edx
	divl	%r9d
	jmp	.LBB28_213
	.p2align	4
.LBB28_218:
	movq	(%r15), %rsi
	xorq	%r13, %rsi
	xorl	%r9d, %r9d
	movq	%rsi, %r8
	jmp	.LBB28_220
	.p2align	4
.LBB28_219:
	movq	%rdi, %r9
	cmpq	%rcx, %rdi
	jae	.LBB28_215
.LBB28_220:
	movq	%rcx, %rdx
	subq	%r9, %rdx
	cmpq	$1024, %rdx
	movl	$1024, %r10d
	movl	$1024, %edi
	cmovbq	%rdx, %rdi
	leaq	(,%r9,8), %r11
	cmpq	$4, %rdx
	jae	.LBB28_222
	xorl	%edx, %edx
	jmp	.LBB28_231
	.p2align	4
.LBB28_222:
	cmpq	$16, %rdx
	jae	.LBB28_224
	xorl	%edx, %edx
	jmp	.LBB28_228
	.p2align	4
.LBB28_224:
	movl	%edi, %edx
	andl	$2032, %edx
	vmovq	%rsi, %xmm0
	vpbroadcastq	%xmm0, %ymm0
	vmovq	%r8, %xmm1
	movq	%rax, %r8
	subq	%r9, %r8
	cmpq	$1024, %r8
	movl	$1024, %esi
	cmovbq	%r8, %rsi
	vpbroadcastq	%xmm1, %ymm5
	andl	$2032, %esi
	leaq	(%r11,%rbp), %r8
	xorl	%r12d, %r12d
	vmovdqa	%ymm5, %ymm8
	vmovdqa	%ymm5, %ymm7
	vmovdqa	%ymm5, %ymm6
	vmovdqa	%ymm0, %ymm4
	vmovdqa	%ymm0, %ymm2
	vmovdqa	%ymm0, %ymm1
	.p2align	4
.LBB28_225:
	vmovdqu	-64(%r8,%r12,8), %ymm9
	vpbroadcastq	.LCPI28_0(%rip), %ymm3
	vpxor	%ymm3, %ymm9, %ymm10
	vpxor	%ymm3, %ymm5, %ymm11
	vpcmpgtq	%ymm9, %ymm11, %ymm11
	vblendvpd	%ymm11, %ymm10, %ymm5, %ymm5
	vpxor	%ymm3, %ymm0, %ymm11
	vpcmpgtq	%ymm11, %ymm9, %ymm9
	vblendvpd	%ymm9, %ymm10, %ymm0, %ymm0
	vmovdqu	-32(%r8,%r12,8), %ymm9
	vpxor	%ymm3, %ymm9, %ymm10
	vpxor	%ymm3, %ymm8, %ymm11
	vpcmpgtq	%ymm9, %ymm11, %ymm11
	vblendvpd	%ymm11, %ymm10, %ymm8, %ymm8
	vpxor	%ymm3, %ymm4, %ymm11
	vpcmpgtq	%ymm11, %ymm9, %ymm9
	vmovdqu	(%r8,%r12,8), %ymm11
	vblendvpd	%ymm9, %ymm10, %ymm4, %ymm4
	vpxor	%ymm3, %ymm11, %ymm9
	vpxor	%ymm3, %ymm7, %ymm10
	vpcmpgtq	%ymm11, %ymm10, %ymm10
	vblendvpd	%ymm10, %ymm9, %ymm7, %ymm7
	vpxor	%ymm3, %ymm2, %ymm10
	vpcmpgtq	%ymm10, %ymm11, %ymm10
	vblendvpd	%ymm10, %ymm9, %ymm2, %ymm2
	vmovdqu	32(%r8,%r12,8), %ymm9
	vpxor	%ymm3, %ymm9, %ymm10
	vpxor	%ymm3, %ymm6, %ymm11
	vpcmpgtq	%ymm9, %ymm11, %ymm11
	vblendvpd	%ymm11, %ymm10, %ymm6, %ymm6
	vpxor	%ymm3, %ymm1, %ymm11
	vpcmpgtq	%ymm11, %ymm9, %ymm9
	vblendvpd	%ymm9, %ymm10, %ymm1, %ymm1
	addq	$16, %r12
	cmpq	%r12, %rsi
	jne	.LBB28_225
	vxorpd	%ymm3, %ymm5, %ymm9
	vxorpd	%ymm3, %ymm8, %ymm10
	vpcmpgtq	%ymm9, %ymm10, %ymm9
	vblendvpd	%ymm9, %ymm5, %ymm8, %ymm5
	vxorpd	%ymm3, %ymm5, %ymm8
	vxorpd	%ymm3, %ymm7, %ymm9
	vpcmpgtq	%ymm8, %ymm9, %ymm8
	vblendvpd	%ymm8, %ymm5, %ymm7, %ymm5
	vxorpd	%ymm3, %ymm5, %ymm7
	vxorpd	%ymm3, %ymm6, %ymm8
	vpcmpgtq	%ymm7, %ymm8, %ymm7
	vblendvpd	%ymm7, %ymm5, %ymm6, %ymm5
	vextractf128	$1, %ymm5, %xmm6
	vxorpd	%xmm3, %xmm5, %xmm7
	vxorpd	%xmm3, %xmm6, %xmm8
	vpcmpgtq	%xmm7, %xmm8, %xmm7
	vblendvpd	%xmm7, %xmm5, %xmm6, %xmm5
	vshufps	$238, %xmm5, %xmm5, %xmm6
	vxorpd	%xmm3, %xmm5, %xmm7
	vxorpd	%xmm3, %xmm6, %xmm8
	vpcmpgtq	%xmm7, %xmm8, %xmm7
	vblendvpd	%xmm7, %xmm5, %xmm6, %xmm5
	vxorpd	%ymm3, %ymm4, %ymm6
	vxorpd	%ymm3, %ymm0, %ymm7
	vpcmpgtq	%ymm6, %ymm7, %ymm6
	vblendvpd	%ymm6, %ymm0, %ymm4, %ymm0
	vxorpd	%ymm3, %ymm0, %ymm4
	vxorpd	%ymm3, %ymm2, %ymm6
	vpcmpgtq	%ymm6, %ymm4, %ymm4
	vblendvpd	%ymm4, %ymm0, %ymm2, %ymm0
	vmovq	%xmm5, %r8
	vxorpd	%ymm3, %ymm0, %ymm2
	vxorpd	%ymm3, %ymm1, %ymm4
	vpcmpgtq	%ymm4, %ymm2, %ymm2
	vblendvpd	%ymm2, %ymm0, %ymm1, %ymm0
	vextractf128	$1, %ymm0, %xmm1
	vxorpd	%xmm3, %xmm1, %xmm2
	vxorpd	%xmm3, %xmm0, %xmm4
	vpcmpgtq	%xmm2, %xmm4, %xmm2
	vblendvpd	%xmm2, %xmm0, %xmm1, %xmm0
	vshufps	$238, %xmm0, %xmm0, %xmm1
	vxorpd	%xmm3, %xmm0, %xmm2
	vxorpd	%xmm3, %xmm1, %xmm3
	vpcmpgtq	%xmm3, %xmm2, %xmm2
	vblendvpd	%xmm2, %xmm0, %xmm1, %xmm0
	vmovq	%xmm0, %rsi
	cmpq	%rdx, %rdi
	je	.LBB28_233
	testb	$12, %dil
	je	.LBB28_231
.LBB28_228:
	movq	%rdx, %r12
	movl	%edi, %edx
	andl	$2044, %edx
	vmovq	%r8, %xmm0
	vpbroadcastq	%xmm0, %ymm1
	vmovq	%rsi, %xmm0
	vpbroadcastq	%xmm0, %ymm0
	movq	%rax, %r8
	subq	%r9, %r8
	cmpq	$1024, %r8
	movl	$1024, %esi
	cmovbq	%r8, %rsi
	andl	$2044, %esi
	leaq	(%r14,%r11), %r8
	.p2align	4
.LBB28_229:
	vmovdqu	(%r8,%r12,8), %ymm2
	vpbroadcastq	.LCPI28_0(%rip), %ymm3
	vpxor	%ymm3, %ymm2, %ymm4
	vpxor	%ymm3, %ymm1, %ymm5
	vpcmpgtq	%ymm2, %ymm5, %ymm5
	vblendvpd	%ymm5, %ymm4, %ymm1, %ymm1
	vpxor	%ymm3, %ymm0, %ymm3
	vpcmpgtq	%ymm3, %ymm2, %ymm2
	vblendvpd	%ymm2, %ymm4, %ymm0, %ymm0
	addq	$4, %r12
	cmpq	%r12, %rsi
	jne	.LBB28_229
	vextractf128	$1, %ymm1, %xmm2
	vmovddup	.LCPI28_0(%rip), %xmm3
	vxorpd	%xmm3, %xmm1, %xmm4
	vxorpd	%xmm3, %xmm2, %xmm5
	vpcmpgtq	%xmm4, %xmm5, %xmm4
	vblendvpd	%xmm4, %xmm1, %xmm2, %xmm1
	vshufps	$238, %xmm1, %xmm1, %xmm2
	vxorpd	%xmm3, %xmm1, %xmm4
	vxorpd	%xmm3, %xmm2, %xmm5
	vpcmpgtq	%xmm4, %xmm5, %xmm4
	vblendvpd	%xmm4, %xmm1, %xmm2, %xmm1
	vmovq	%xmm1, %r8
	vextractf128	$1, %ymm0, %xmm1
	vxorpd	%xmm3, %xmm1, %xmm2
	vxorpd	%xmm3, %xmm0, %xmm4
	vpcmpgtq	%xmm2, %xmm4, %xmm2
	vblendvpd	%xmm2, %xmm0, %xmm1, %xmm0
	vshufps	$238, %xmm0, %xmm0, %xmm1
	vxorpd	%xmm3, %xmm0, %xmm2
	vxorpd	%xmm3, %xmm1, %xmm3
	vpcmpgtq	%xmm3, %xmm2, %xmm2
	vblendvpd	%xmm2, %xmm0, %xmm1, %xmm0
	vmovq	%xmm0, %rsi
	cmpq	%rdx, %rdi
	je	.LBB28_233
.LBB28_231:
	movq	%rax, %r12
	subq	%r9, %r12
	cmpq	$1024, %r12
	cmovbq	%r12, %r10
	addq	%r14, %r11
	.p2align	4
.LBB28_232:
	movq	%rsi, %r12
	movq	(%r11,%rdx,8), %rsi
	xorq	%r13, %rsi
	cmpq	%r8, %rsi
	cmovbq	%rsi, %r8
	cmpq	%r12, %rsi
	cmovbeq	%r12, %rsi
	incq	%rdx
	cmpq	%rdx, %r10
	jne	.LBB28_232
.LBB28_233:
	addq	%r9, %rdi
	movq	%rcx, %rdx
	subq	%rdi, %rdx
	cmpq	$128, %rdx
	jb	.LBB28_219
	movq	%rsi, %rdx
	subq	%r8, %rdx
	js	.LBB28_219
	vmovq	%rdx, %xmm0
	vpbroadcastq	%xmm0, %ymm0
	vmovq	%r8, %xmm1
	vpbroadcastq	%xmm1, %ymm1
	movq	%rax, %r10
	subq	%r9, %r10
	xorl	%edx, %edx
	subq	$1024, %r10
	cmovaeq	%r10, %rdx
	.p2align	4
.LBB28_236:
	vpbroadcastq	.LCPI28_0(%rip), %ymm7
	vpxor	(%r14,%rdi,8), %ymm7, %ymm2
	vpxor	32(%r14,%rdi,8), %ymm7, %ymm3
	vpxor	64(%r14,%rdi,8), %ymm7, %ymm4
	vpxor	96(%r14,%rdi,8), %ymm7, %ymm5
	vpsubq	%ymm1, %ymm2, %ymm2
	vmovdqu	%ymm2, 448(%rsp)
	vpsubq	%ymm1, %ymm3, %ymm3
	vmovdqu	%ymm3, 480(%rsp)
	vpsubq	%ymm1, %ymm4, %ymm4
	vmovdqu	%ymm4, 544(%rsp)
	vpsubq	%ymm1, %ymm5, %ymm9
	vmovdqu	%ymm9, 176(%rsp)
	vpsubq	%ymm2, %ymm0, %ymm2
	vpsubq	%ymm3, %ymm0, %ymm3
	vpsubq	%ymm4, %ymm0, %ymm5
	vpxor	128(%r14,%rdi,8), %ymm7, %ymm4
	vpxor	160(%r14,%rdi,8), %ymm7, %ymm6
	vpxor	192(%r14,%rdi,8), %ymm7, %ymm8
	vpsubq	%ymm9, %ymm0, %ymm9
	vpxor	224(%r14,%rdi,8), %ymm7, %ymm10
	vpsubq	%ymm1, %ymm4, %ymm4
	vmovdqu	%ymm4, 256(%rsp)
	vpsubq	%ymm1, %ymm6, %ymm12
	vmovdqu	%ymm12, 416(%rsp)
	vpsubq	%ymm1, %ymm8, %ymm11
	vmovdqu	%ymm11, 288(%rsp)
	vpsubq	%ymm1, %ymm10, %ymm8
	vmovdqu	%ymm8, 512(%rsp)
	vpsubq	%ymm4, %ymm0, %ymm4
	vpor	%ymm4, %ymm2, %ymm6
	vpsubq	%ymm12, %ymm0, %ymm2
	vpor	%ymm2, %ymm3, %ymm4
	vpsubq	%ymm11, %ymm0, %ymm2
	vpor	%ymm2, %ymm5, %ymm3
	vpsubq	%ymm8, %ymm0, %ymm2
	vpxor	256(%r14,%rdi,8), %ymm7, %ymm5
	vpor	%ymm2, %ymm9, %ymm2
	vpsubq	%ymm1, %ymm5, %ymm8
	vmovdqu	%ymm8, 144(%rsp)
	vpxor	384(%r14,%rdi,8), %ymm7, %ymm5
	vpsubq	%ymm8, %ymm0, %ymm8
	vpsubq	%ymm1, %ymm5, %ymm5
	vmovdqu	%ymm5, 864(%rsp)
	vpsubq	%ymm5, %ymm0, %ymm5
	vpor	%ymm5, %ymm8, %ymm5
	vpor	%ymm5, %ymm6, %ymm10
	vpxor	288(%r14,%rdi,8), %ymm7, %ymm5
	vpsubq	%ymm1, %ymm5, %ymm6
	vmovdqu	%ymm6, 832(%rsp)
	vpxor	416(%r14,%rdi,8), %ymm7, %ymm5
	vpsubq	%ymm1, %ymm5, %ymm8
	vmovdqu	%ymm8, 800(%rsp)
	vpsubq	%ymm6, %ymm0, %ymm5
	vpsubq	%ymm8, %ymm0, %ymm6
	vpor	%ymm6, %ymm5, %ymm5
	vpxor	320(%r14,%rdi,8), %ymm7, %ymm6
	vpor	%ymm5, %ymm4, %ymm15
	vpsubq	%ymm1, %ymm6, %ymm5
	vmovdqu	%ymm5, 320(%rsp)
	vpxor	448(%r14,%rdi,8), %ymm7, %ymm4
	vpsubq	%ymm1, %ymm4, %ymm6
	vmovdqu	%ymm6, 352(%rsp)
	vpsubq	%ymm5, %ymm0, %ymm4
	vpsubq	%ymm6, %ymm0, %ymm5
	vpor	%ymm5, %ymm4, %ymm4
	vpor	%ymm4, %ymm3, %ymm12
	vpxor	352(%r14,%rdi,8), %ymm7, %ymm3
	vpsubq	%ymm1, %ymm3, %ymm4
	vmovdqu	%ymm4, 384(%rsp)
	vpxor	480(%r14,%rdi,8), %ymm7, %ymm3
	vpsubq	%ymm1, %ymm3, %ymm5
	vmovdqu	%ymm5, 224(%rsp)
	vpsubq	%ymm4, %ymm0, %ymm3
	vpsubq	%ymm5, %ymm0, %ymm4
	vpor	%ymm4, %ymm3, %ymm3
	vpxor	512(%r14,%rdi,8), %ymm7, %ymm4
	vpor	%ymm3, %ymm2, %ymm13
	vpsubq	%ymm1, %ymm4, %ymm3
	vmovdqu	%ymm3, 640(%rsp)
	vpxor	640(%r14,%rdi,8), %ymm7, %ymm2
	vpsubq	%ymm1, %ymm2, %ymm4
	vmovdqu	%ymm4, 576(%rsp)
	vpsubq	%ymm3, %ymm0, %ymm2
	vpsubq	%ymm4, %ymm0, %ymm3
	vpor	%ymm3, %ymm2, %ymm9
	vpxor	544(%r14,%rdi,8), %ymm7, %ymm3
	vpxor	672(%r14,%rdi,8), %ymm7, %ymm4
	vpsubq	%ymm1, %ymm3, %ymm14
	vpsubq	%ymm1, %ymm4, %ymm2
	vmovdqu	%ymm2, 608(%rsp)
	vpsubq	%ymm14, %ymm0, %ymm3
	vpsubq	%ymm2, %ymm0, %ymm4
	vpor	%ymm4, %ymm3, %ymm3
	vpxor	576(%r14,%rdi,8), %ymm7, %ymm4
	vpsubq	%ymm1, %ymm4, %ymm2
	vmovdqu	%ymm2, 704(%rsp)
	vpxor	704(%r14,%rdi,8), %ymm7, %ymm4
	vpsubq	%ymm1, %ymm4, %ymm5
	vmovdqu	%ymm5, 672(%rsp)
	vpsubq	%ymm2, %ymm0, %ymm4
	vpsubq	%ymm5, %ymm0, %ymm5
	vpor	%ymm5, %ymm4, %ymm4
	vpxor	608(%r14,%rdi,8), %ymm7, %ymm5
	vpsubq	%ymm1, %ymm5, %ymm2
	vmovdqu	%ymm2, 736(%rsp)
	vpxor	736(%r14,%rdi,8), %ymm7, %ymm5
	vpsubq	%ymm1, %ymm5, %ymm6
	vmovdqu	%ymm6, 768(%rsp)
	vpsubq	%ymm2, %ymm0, %ymm5
	vpsubq	%ymm6, %ymm0, %ymm6
	vpxor	768(%r14,%rdi,8), %ymm7, %ymm8
	vpor	%ymm6, %ymm5, %ymm2
	vpsubq	%ymm1, %ymm8, %ymm8
	vpsubq	%ymm8, %ymm0, %ymm6
	vpor	%ymm6, %ymm9, %ymm6
	vpor	%ymm6, %ymm10, %ymm11
	vpxor	800(%r14,%rdi,8), %ymm7, %ymm6
	vpsubq	%ymm1, %ymm6, %ymm10
	vpsubq	%ymm10, %ymm0, %ymm9
	vpor	%ymm3, %ymm9, %ymm3
	vpxor	832(%r14,%rdi,8), %ymm7, %ymm9
	vpor	%ymm3, %ymm15, %ymm3
	vpsubq	%ymm1, %ymm9, %ymm15
	vpsubq	%ymm15, %ymm0, %ymm9
	vpor	%ymm4, %ymm9, %ymm4
	vpor	%ymm4, %ymm12, %ymm5
	vpxor	864(%r14,%rdi,8), %ymm7, %ymm9
	vpsubq	%ymm1, %ymm9, %ymm12
	vpsubq	%ymm12, %ymm0, %ymm9
	vpor	%ymm2, %ymm9, %ymm2
	vpxor	928(%r14,%rdi,8), %ymm7, %ymm9
	vpor	%ymm2, %ymm13, %ymm4
	vpsubq	%ymm1, %ymm9, %ymm2
	vpsubq	%ymm2, %ymm0, %ymm9
	vpor	%ymm3, %ymm9, %ymm6
	vpxor	960(%r14,%rdi,8), %ymm7, %ymm3
	vpsubq	%ymm1, %ymm3, %ymm3
	vpsubq	%ymm3, %ymm0, %ymm9
	vpor	%ymm5, %ymm9, %ymm5
	vpxor	992(%r14,%rdi,8), %ymm7, %ymm9
	vpsubq	%ymm1, %ymm9, %ymm9
	vpsubq	%ymm9, %ymm0, %ymm13
	vpor	%ymm4, %ymm13, %ymm4
	vpxor	896(%r14,%rdi,8), %ymm7, %ymm7
	vpsubq	%ymm1, %ymm7, %ymm7
	vpsubq	%ymm7, %ymm0, %ymm13
	vpor	448(%rsp), %ymm13, %ymm13
	vpor	256(%rsp), %ymm13, %ymm13
	vpor	144(%rsp), %ymm13, %ymm13
	vpor	%ymm13, %ymm11, %ymm11
	vmovdqu	640(%rsp), %ymm13
	vpor	864(%rsp), %ymm13, %ymm13
	vpor	576(%rsp), %ymm13, %ymm13
	vpor	%ymm8, %ymm13, %ymm8
	vpor	%ymm7, %ymm8, %ymm7
	vpor	%ymm7, %ymm11, %ymm7
	vpor	480(%rsp), %ymm6, %ymm6
	vpor	%ymm7, %ymm6, %ymm6
	vmovdqu	832(%rsp), %ymm7
	vpor	416(%rsp), %ymm7, %ymm7
	vpor	800(%rsp), %ymm7, %ymm7
	vpor	%ymm7, %ymm14, %ymm7
	vpor	608(%rsp), %ymm7, %ymm7
	vpor	%ymm7, %ymm10, %ymm7
	vpor	%ymm2, %ymm7, %ymm2
	vpor	%ymm2, %ymm6, %ymm2
	vpor	544(%rsp), %ymm5, %ymm5
	vpor	288(%rsp), %ymm5, %ymm5
	vpor	320(%rsp), %ymm5, %ymm5
	vpor	%ymm2, %ymm5, %ymm2
	vmovdqu	704(%rsp), %ymm5
	vpor	352(%rsp), %ymm5, %ymm5
	vpor	672(%rsp), %ymm5, %ymm5
	vpor	%ymm5, %ymm15, %ymm5
	vpor	%ymm3, %ymm5, %ymm3
	vpor	%ymm3, %ymm2, %ymm2
	vpor	176(%rsp), %ymm4, %ymm3
	vpor	512(%rsp), %ymm3, %ymm3
	vpor	384(%rsp), %ymm3, %ymm3
	vpor	224(%rsp), %ymm3, %ymm3
	vpor	736(%rsp), %ymm3, %ymm3
	vpor	%ymm2, %ymm3, %ymm2
	vpor	768(%rsp), %ymm12, %ymm3
	vpor	%ymm3, %ymm9, %ymm3
	vpor	%ymm3, %ymm2, %ymm2
	vextracti128	$1, %ymm2, %xmm3
	vpor	%xmm3, %xmm2, %xmm2
	vpshufd	$238, %xmm2, %xmm3
	vpor	%xmm3, %xmm2, %xmm2
	vmovq	%xmm2, %r9
	testq	%r9, %r9
	js	.LBB28_219
	subq	$-128, %rdi
	addq	$-128, %rdx
	cmpq	$127, %rdx
	ja	.LBB28_236
	jmp	.LBB28_219
.LBB28_238:
	movq	5056(%rsp), %rdi
	testq	%rdi, %rdi
	je	.LBB28_258
	cmpq	$4, %rdi
	jb	.LBB28_240
	leaq	(%rdx,%rax), %rcx
	leaq	(%rcx,%r14), %rax
	subq	%r12, %rax
	incq	%rax
	cmpq	$128, %rax
	jae	.LBB28_243
.LBB28_240:
	xorl	%eax, %eax
.LBB28_252:
	movq	%rdx, %r8
	movl	%edi, %edx
	subl	%eax, %edx
	movq	%rax, %rcx
	andl	$7, %edx
	je	.LBB28_255
	movq	%rax, %rcx
	.p2align	4
.LBB28_254:
	movq	(%r12,%rcx,8), %rsi
	movq	%rsi, (%r10,%rcx,8)
	incq	%rcx
	decq	%rdx
	jne	.LBB28_254
.LBB28_255:
	subq	%rdi, %rax
	cmpq	$-8, %rax
	movq	24(%rsp), %rax
	ja	.LBB28_258
	addq	%rax, %r8
	leaq	(%r14,%r8), %rax
	addq	$57, %rax
	.p2align	4
.LBB28_257:
	movq	(%r12,%rcx,8), %rdx
	movq	%rdx, -56(%rax,%rcx,8)
	movq	8(%r12,%rcx,8), %rdx
	movq	%rdx, -48(%rax,%rcx,8)
	movq	16(%r12,%rcx,8), %rdx
	movq	%rdx, -40(%rax,%rcx,8)
	movq	24(%r12,%rcx,8), %rdx
	movq	%rdx, -32(%rax,%rcx,8)
	movq	32(%r12,%rcx,8), %rdx
	movq	%rdx, -24(%rax,%rcx,8)
	movq	40(%r12,%rcx,8), %rdx
	movq	%rdx, -16(%rax,%rcx,8)
	movq	48(%r12,%rcx,8), %rdx
	movq	%rdx, -8(%rax,%rcx,8)
	movq	56(%r12,%rcx,8), %rdx
	movq	%rdx, (%rax,%rcx,8)
	addq	$8, %rcx
	cmpq	%rcx, %rdi
	jne	.LBB28_257
.LBB28_258:
	leaq	(%r10,%rdi,8), %rbx
	leaq	-1(%rdi), %rax
	lzcntq	%rax, %rax
	movl	$64, %r14d
	subq	%rax, %r14
	movq	16(%rsp), %rax
	cmpq	$127, %rax
	ja	.LBB28_273
	vxorpd	%xmm0, %xmm0, %xmm0
	vmovupd	%ymm0, 1120(%rsp)
	vmovupd	%ymm0, 1088(%rsp)
	vmovupd	%ymm0, 1056(%rsp)
	vmovupd	%ymm0, 1024(%rsp)
	vmovupd	%ymm0, 992(%rsp)
	vmovupd	%ymm0, 960(%rsp)
	vmovupd	%ymm0, 928(%rsp)
	vmovupd	%ymm0, 896(%rsp)
	testq	%rax, %rax
	je	.LBB28_287
	xorl	%esi, %esi
	xorl	%ecx, %ecx
	xorl	%edx, %edx
	xorl	%eax, %eax
	jmp	.LBB28_262
	.p2align	4
.LBB28_261:
	movl	%r8d, %r9d
	shrxq	%r9, %rdi, %r9
	notb	%dl
	shlxq	%rdx, %rsi, %rdx
	addq	%rdx, %rdx
	orq	%r9, %rdx
	movbeq	%rdx, (%rbx,%rax)
	addq	$-64, %r8
	addq	$8, %rax
	bzhiq	%r8, %rdi, %rsi
	incq	%rcx
	movq	%r8, %rdx
	cmpq	16(%rsp), %rcx
	je	.LBB28_288
.LBB28_262:
	movq	48(%rsp), %rdi
	movq	(%rdi,%rcx,8), %r8
	movq	%r8, %rdi
	shrq	$32, %rdi
	movl	$2147483648, %r9d
	xorl	%edi, %r9d
	imull	$1969558475, %r8d, %edi
	imull	$898614065, %r9d, %r9d
	addl	%edi, %r9d
	shrl	$24, %r9d
	movzbl	896(%rsp,%r9), %edi
	movq	5056(%rsp), %r10
	cmpq	%rdi, %r10
	jbe	.LBB28_265
	cmpq	%r8, (%r12,%rdi,8)
	jne	.LBB28_266
	leaq	(%rdx,%r14), %r8
	cmpq	$63, %r8
	ja	.LBB28_261
	jmp	.LBB28_272
	.p2align	4
.LBB28_265:
	testq	%r10, %r10
	je	.LBB28_270
.LBB28_266:
	xorl	%edi, %edi
	jmp	.LBB28_268
	.p2align	4
.LBB28_267:
	movq	%r15, %r10
	cmpq	%r10, %rdi
	jae	.LBB28_271
.LBB28_268:
	movq	%r10, %r11
	subq	%rdi, %r11
	shrq	%r11
	leaq	(%r11,%rdi), %r15
	cmpq	%r8, (%r12,%r15,8)
	jge	.LBB28_267
	addq	%r11, %rdi
	incq	%rdi
	cmpq	%r10, %rdi
	jb	.LBB28_268
.LBB28_271:
	movb	%dil, 896(%rsp,%r9)
	leaq	(%rdx,%r14), %r8
	cmpq	$63, %r8
	ja	.LBB28_261
.LBB28_272:
	shlxq	%r14, %rsi, %rdx
	orq	%rdx, %rdi
	movq	%rdi, %rsi
	incq	%rcx
	movq	%r8, %rdx
	cmpq	16(%rsp), %rcx
	jne	.LBB28_262
	jmp	.LBB28_288
.LBB28_270:
	xorl	%edi, %edi
	movb	%dil, 896(%rsp,%r9)
	leaq	(%rdx,%r14), %r8
	cmpq	$63, %r8
	ja	.LBB28_261
	jmp	.LBB28_272
.LBB28_273:
	leaq	896(%rsp), %rdi
	xorl	%r15d, %r15d
	movl	$4096, %edx
	xorl	%esi, %esi
	vzeroupper
	callq	memset@PLT
	movq	5056(%rsp), %r9
	xorl	%ecx, %ecx
	xorl	%esi, %esi
	xorl	%eax, %eax
	jmp	.LBB28_275
	.p2align	4
.LBB28_274:
	movl	%edi, %r8d
	shrxq	%r8, %rdx, %r8
	notb	%sil
	shlxq	%rsi, %r15, %rsi
	addq	%rsi, %rsi
	orq	%r8, %rsi
	movbeq	%rsi, (%rbx,%rax)
	addq	$-64, %rdi
	addq	$8, %rax
	bzhiq	%rdi, %rdx, %r15
	movq	%rdi, %rsi
	incq	%rcx
	cmpq	16(%rsp), %rcx
	je	.LBB28_286
.LBB28_275:
	movq	48(%rsp), %rdx
	movq	(%rdx,%rcx,8), %rdi
	movq	%rdi, %rdx
	shrq	$32, %rdx
	movl	$2147483648, %r8d
	xorl	%edx, %r8d
	imull	$1969558475, %edi, %edx
	imull	$898614065, %r8d, %r8d
	addl	%edx, %r8d
	shrl	$20, %r8d
	movzbl	896(%rsp,%r8), %edx
	cmpq	%rdx, %r9
	jbe	.LBB28_278
	cmpq	%rdi, (%r12,%rdx,8)
	jne	.LBB28_279
	leaq	(%rsi,%r14), %rdi
	cmpq	$63, %rdi
	ja	.LBB28_274
	jmp	.LBB28_285
	.p2align	4
.LBB28_278:
	testq	%r9, %r9
	je	.LBB28_283
.LBB28_279:
	xorl	%edx, %edx
	jmp	.LBB28_281
	.p2align	4
.LBB28_280:
	movq	%r11, %r9
	cmpq	%r9, %rdx
	jae	.LBB28_284
.LBB28_281:
	movq	%r9, %r10
	subq	%rdx, %r10
	shrq	%r10
	leaq	(%r10,%rdx), %r11
	cmpq	%rdi, (%r12,%r11,8)
	jge	.LBB28_280
	addq	%r10, %rdx
	incq	%rdx
	cmpq	%r9, %rdx
	jb	.LBB28_281
	jmp	.LBB28_284
.LBB28_283:
	xorl	%edx, %edx
.LBB28_284:
	movb	%dl, 896(%rsp,%r8)
	movq	5056(%rsp), %r9
	leaq	(%rsi,%r14), %rdi
	cmpq	$63, %rdi
	ja	.LBB28_274
.LBB28_285:
	shlxq	%r14, %r15, %rsi
	orq	%rsi, %rdx
	movq	%rdi, %rsi
	movq	%rdx, %r15
	incq	%rcx
	cmpq	16(%rsp), %rcx
	jne	.LBB28_275
.LBB28_286:
	leaq	7(%rsi), %rdx
	shrq	$3, %rdx
	notb	%sil
	shlxq	%rsi, %r15, %rcx
	jmp	.LBB28_289
.LBB28_287:
	xorl	%eax, %eax
	xorl	%r8d, %r8d
	xorl	%esi, %esi
.LBB28_288:
	leaq	7(%r8), %rdx
	shrq	$3, %rdx
	notb	%r8b
	shlxq	%r8, %rsi, %rcx
.LBB28_289:
	addq	%rcx, %rcx
	addq	%rax, %rbx
	movbeq	%rcx, 112(%rsp)
	leaq	112(%rsp), %rsi
	movq	%rbx, %rdi
	vzeroupper
	callq	memcpy@PLT
.LBB28_290:
	movq	120(%rsp), %rax
	movq	$0, (%rax)
	movq	216(%rsp), %rcx
	movq	%rcx, 8(%rax)
	movq	$0, 16(%rax)
.LBB28_291:
	addq	$5000, %rsp
	popq	%rbx
	popq	%r12
	popq	%r13
	popq	%r14
	popq	%r15
	popq	%rbp
	vzeroupper
	retq
.LBB28_243:
	cmpq	$16, %rdi
	jae	.LBB28_245
	xorl	%eax, %eax
	jmp	.LBB28_249
.LBB28_245:
	movq	%rdx, %rsi
	movq	%rdi, %rax
	andq	$-16, %rax
	addq	%r14, %rcx
	addq	$97, %rcx
	xorl	%edx, %edx
	.p2align	4
.LBB28_246:
	vmovupd	(%r12,%rdx,8), %ymm0
	vmovdqu	32(%r12,%rdx,8), %ymm1
	vmovdqu	64(%r12,%rdx,8), %ymm2
	vmovdqu	96(%r12,%rdx,8), %ymm3
	vmovupd	%ymm0, -96(%rcx,%rdx,8)
	vmovdqu	%ymm1, -64(%rcx,%rdx,8)
	vmovdqu	%ymm2, -32(%rcx,%rdx,8)
	vmovdqu	%ymm3, (%rcx,%rdx,8)
	addq	$16, %rdx
	cmpq	%rdx, %rax
	jne	.LBB28_246
	cmpq	%rax, %rdi
	je	.LBB28_258
	movq	%rsi, %rdx
	testb	$12, %dil
	je	.LBB28_252
.LBB28_249:
	movq	%rax, %rcx
	movq	%rdi, %rax
	andq	$-4, %rax
	.p2align	4
.LBB28_250:
	vmovupd	(%r12,%rcx,8), %ymm0
	vmovupd	%ymm0, (%r10,%rcx,8)
	addq	$4, %rcx
	cmpq	%rcx, %rax
	jne	.LBB28_250
	cmpq	%rax, %rdi
	je	.LBB28_258
	jmp	.LBB28_252
.LBB28_292:
	ud2
.Lfunc_end28:
	.size	"writer::write_by", .Lfunc_end28-"writer::write_by"

	.section	".text.scaled_values::put_numbers","ax",@progbits
	.p2align	4
	.type	"scaled_values::put_numbers",@function
"scaled_values::put_numbers":
	pushq	%rbp
	pushq	%r15
	pushq	%r14
	pushq	%r13
	pushq	%r12
	pushq	%rbx
	pushq	%rax
	movq	%rdx, %r10
	movabsq	$-4294967296, %rax
	leaq	(%r9,%rax), %rdx
	orq	$2, %rax
	cmpq	%rax, %rdx
	jae	.LBB29_2
	xorl	%ebx, %ebx
	testq	%rcx, %rcx
	je	.LBB29_56
.LBB29_4:
	movq	64(%rsp), %r14
	movabsq	$-9223372036854775808, %r15
	cmpb	$1, %sil
	jne	.LBB29_31
	cmpq	$1, %r9
	jne	.LBB29_6
	cmpq	$1, %rcx
	jne	.LBB29_14
	xorl	%esi, %esi
	xorl	%eax, %eax
	xorl	%edx, %edx
	xorl	%r12d, %r12d
	jmp	.LBB29_21
.LBB29_2:
	movabsq	$4294967296, %rax
	xorl	%edx, %edx
	divq	%r9
	movq	%rax, %rbx
	incq	%rbx
	testq	%rcx, %rcx
	jne	.LBB29_4
.LBB29_56:
	xorl	%edx, %edx
	movl	$0, %r11d
	movl	$0, %ecx
	movl	$0, %eax
	movl	$0, %r12d
	testb	$1, %sil
	je	.LBB29_57
	jmp	.LBB29_30
.LBB29_31:
	xorl	%esi, %esi
	cmpq	$1, %r9
	jne	.LBB29_37
	xorl	%eax, %eax
	xorl	%r9d, %r9d
	xorl	%r11d, %r11d
	jmp	.LBB29_33
	.p2align	4
.LBB29_35:
	shlxq	%r14, %rsi, %rsi
	orq	%rsi, %rdx
	movq	%rdx, %rsi
.LBB29_36:
	incq	%rax
	movq	%r12, %r9
	cmpq	%rax, %rcx
	je	.LBB29_55
.LBB29_33:
	movq	(%r10,%rax,8), %rdx
	xorq	%r15, %rdx
	subq	%r8, %rdx
	leaq	(%r9,%r14), %r12
	cmpq	$64, %r12
	jb	.LBB29_35
	movl	%r12d, %ebx
	shrxq	%rbx, %rdx, %rbx
	notb	%r9b
	shlxq	%r9, %rsi, %rsi
	addq	%rsi, %rsi
	orq	%rbx, %rsi
	movbeq	%rsi, (%rdi,%r11)
	addq	$-64, %r12
	addq	$8, %r11
	bzhiq	%r12, %rdx, %rsi
	jmp	.LBB29_36
.LBB29_6:
	xorl	%ebp, %ebp
	xorl	%esi, %esi
	xorl	%r13d, %r13d
	xorl	%r12d, %r12d
	jmp	.LBB29_7
	.p2align	4
.LBB29_28:
	incq	%rsi
	movq	%rax, %rbp
	movq	%rdx, %r13
	cmpq	%rsi, %rcx
	je	.LBB29_29
.LBB29_7:
	movq	(%r10,%rsi,8), %rax
	xorq	%r15, %rax
	subq	%r8, %rax
	movq	%rax, %rdx
	shrq	$32, %rdx
	jne	.LBB29_9
	movq	%rax, %r11
	imulq	%rbx, %r11
	shrq	$32, %r11
	movq	%r11, %rdx
	imulq	%r9, %rdx
	cmpq	%rax, %rdx
	je	.LBB29_26
.LBB29_9:
	testq	%r9, %r9
	je	.LBB29_24
	movq	%rax, %rdx
	orq	%r9, %rdx
	shrq	$32, %rdx
	je	.LBB29_11
	xorl	%edx, %edx
	divq	%r9
	movq	%rax, %r11
	jmp	.LBB29_26
	.p2align	4
.LBB29_11:
	xorl	%edx, %edx
	divl	%r9d
	movl	%eax, %r11d
.LBB29_26:
	leaq	(%r14,%r13), %rdx
	shlxq	%r13, %r11, %rax
	orq	%rbp, %rax
	cmpq	$64, %rdx
	jb	.LBB29_28
	movq	%rax, (%rdi,%r12)
	addq	$8, %r12
	addq	$-64, %rdx
	shrq	%r11
	notb	%r13b
	shrxq	%r13, %r11, %rax
	jmp	.LBB29_28
.LBB29_37:
	testq	%r9, %r9
	je	.LBB29_42
	xorl	%r13d, %r13d
	xorl	%ebp, %ebp
	xorl	%r11d, %r11d
	jmp	.LBB29_39
	.p2align	4
.LBB29_53:
	movl	%r12d, %edx
	shrxq	%rdx, %rax, %rdx
	notb	%bpl
	shlxq	%rbp, %rsi, %rsi
	addq	%rsi, %rsi
	orq	%rdx, %rsi
	movbeq	%rsi, (%rdi,%r11)
	addq	$-64, %r12
	addq	$8, %r11
	bzhiq	%r12, %rax, %rsi
	incq	%r13
	movq	%r12, %rbp
	cmpq	%r13, %rcx
	je	.LBB29_55
.LBB29_39:
	movq	(%r10,%r13,8), %rdx
	xorq	%r15, %rdx
	subq	%r8, %rdx
	movq	%rdx, %rax
	shrq	$32, %rax
	jne	.LBB29_40
	movq	%rdx, %rax
	imulq	%rbx, %rax
	shrq	$32, %rax
	movq	%rax, %r12
	imulq	%r9, %r12
	cmpq	%rdx, %r12
	je	.LBB29_51
.LBB29_40:
	movq	%rdx, %rax
	orq	%r9, %rax
	shrq	$32, %rax
	je	.LBB29_41
	movq	%rdx, %rax
	xorl	%edx, %edx
	divq	%r9
.LBB29_51:
	leaq	(%r14,%rbp), %r12
	cmpq	$63, %r12
	ja	.LBB29_53
	jmp	.LBB29_52
	.p2align	4
.LBB29_41:
	movl	%edx, %eax
	xorl	%edx, %edx
	divl	%r9d
	leaq	(%r14,%rbp), %r12
	cmpq	$63, %r12
	ja	.LBB29_53
.LBB29_52:
	shlxq	%r14, %rsi, %rdx
	orq	%rdx, %rax
	movq	%rax, %rsi
	incq	%r13
	movq	%r12, %rbp
	cmpq	%r13, %rcx
	jne	.LBB29_39
.LBB29_55:
	leaq	7(%r12), %rdx
	shrq	$3, %rdx
	notb	%r12b
	shlxq	%r12, %rsi, %rcx
	addq	%rcx, %rcx
	bswapq	%rcx
.LBB29_57:
	addq	%r11, %rdi
	movq	%rcx, (%rsp)
	jmp	.LBB29_58
.LBB29_14:
	movq	%rcx, %r9
	andq	$-2, %r9
	xorl	%esi, %esi
	xorl	%eax, %eax
	xorl	%edx, %edx
	xorl	%r12d, %r12d
	jmp	.LBB29_15
	.p2align	4
.LBB29_19:
	addq	$2, %rsi
	cmpq	%rsi, %r9
	je	.LBB29_20
.LBB29_15:
	movq	(%r10,%rsi,8), %r13
	xorq	%r15, %r13
	subq	%r8, %r13
	leaq	(%rdx,%r14), %r11
	shlxq	%rdx, %r13, %rbx
	orq	%rax, %rbx
	cmpq	$64, %r11
	jb	.LBB29_17
	movq	%rbx, (%rdi,%r12)
	addq	$8, %r12
	addq	$-64, %r11
	shrq	%r13
	notb	%dl
	shrxq	%rdx, %r13, %rbx
.LBB29_17:
	movq	8(%r10,%rsi,8), %r13
	xorq	%r15, %r13
	subq	%r8, %r13
	leaq	(%r11,%r14), %rdx
	shlxq	%r11, %r13, %rax
	orq	%rbx, %rax
	cmpq	$64, %rdx
	jb	.LBB29_19
	movq	%rax, (%rdi,%r12)
	addq	$8, %r12
	addq	$-64, %rdx
	shrq	%r13
	notb	%r11b
	shrxq	%r11, %r13, %rax
	jmp	.LBB29_19
.LBB29_20:
	testb	$1, %cl
	je	.LBB29_29
.LBB29_21:
	movq	%rax, %rcx
	xorq	(%r10,%rsi,8), %r15
	subq	%r8, %r15
	addq	%rdx, %r14
	shlxq	%rdx, %r15, %rax
	orq	%rcx, %rax
	cmpq	$64, %r14
	jb	.LBB29_23
	movq	%rax, (%rdi,%r12)
	addq	$8, %r12
	addq	$-64, %r14
	shrq	%r15
	notb	%dl
	shrxq	%rdx, %r15, %rax
.LBB29_23:
	movq	%r14, %rdx
.LBB29_29:
	addq	$7, %rdx
	shrq	$3, %rdx
.LBB29_30:
	addq	%r12, %rdi
	movq	%rax, (%rsp)
.LBB29_58:
	movq	%rsp, %rsi
	callq	memcpy@PLT
	addq	$8, %rsp
	popq	%rbx
	popq	%r12
	popq	%r13
	popq	%r14
	popq	%r15
	popq	%rbp
	retq
.LBB29_42:
	xorl	%eax, %eax
	xorl	%r9d, %r9d
	xorl	%r11d, %r11d
	jmp	.LBB29_43
	.p2align	4
.LBB29_47:
	shlxq	%r14, %rsi, %rsi
	orq	%rsi, %rdx
	movq	%rdx, %rsi
.LBB29_48:
	incq	%rax
	movq	%r12, %r9
	cmpq	%rax, %rcx
	je	.LBB29_55
.LBB29_43:
	movq	(%r10,%rax,8), %r12
	xorq	%r15, %r12
	movq	%r12, %rdx
	subq	%r8, %rdx
	movq	%rdx, %r13
	shrq	$32, %r13
	jne	.LBB29_24
	cmpq	%r8, %r12
	jne	.LBB29_24
	imulq	%rbx, %rdx
	shrq	$32, %rdx
	leaq	(%r9,%r14), %r12
	cmpq	$64, %r12
	jb	.LBB29_47
	movl	%r12d, %r13d
	shrxq	%r13, %rdx, %r13
	notb	%r9b
	shlxq	%r9, %rsi, %rsi
	addq	%rsi, %rsi
	orq	%r13, %rsi
	movbeq	%rsi, (%rdi,%r11)
	addq	$-64, %r12
	addq	$8, %r11
	bzhil	%r12d, %edx, %esi
	jmp	.LBB29_48
.LBB29_24:
	ud2
.Lfunc_end29:
	.size	"scaled_values::put_numbers", .Lfunc_end29-"scaled_values::put_numbers"

	.section	.text.signalfern_abi_0_2,"ax",@progbits
	.globl	signalfern_abi_0_2
	.p2align	4
	.type	signalfern_abi_0_2,@function
signalfern_abi_0_2:
	movl	$2, %eax
	retq
.Lfunc_end30:
	.size	signalfern_abi_0_2, .Lfunc_end30-signalfern_abi_0_2

	.section	.text.signalfern_check_to,"ax",@progbits
	.globl	signalfern_check_to
	.p2align	4
	.type	signalfern_check_to,@function
signalfern_check_to:
	pushq	%r15
	pushq	%r14
	pushq	%r12
	pushq	%rbx
	subq	$168, %rsp
	movq	%rdx, %rbx
	movq	%rsi, %r14
	xorl	%r15d, %r15d
	testq	%rdi, %rdi
	sete	%r15b
	shll	$12, %r15d
	addq	%rdi, %r15
	vxorps	%xmm0, %xmm0, %xmm0
	vmovups	%ymm0, 56(%rsp)
	vmovups	%ymm0, 32(%rsp)
	vmovups	%ymm0, (%rsp)
	movq	%rsp, %rdi
	movq	%r15, %rsi
	movq	%r14, %rdx
	vzeroupper
	callq	"column::Column::open"
	movq	8(%rsp), %rax
	movq	16(%rsp), %r12
	cmpb	$0, (%rsp)
	je	.LBB31_1
	movzbl	%al, %ecx
	leaq	.LJTI31_0(%rip), %rax
	movslq	(%rax,%rcx,4), %rdx
	addq	%rax, %rdx
	jmpq	*%rdx
.LBB31_4:
	movl	$1, %eax
	jmp	.LBB31_21
.LBB31_1:
	movq	%rax, 88(%rsp)
	movq	%r12, 96(%rsp)
	vmovups	24(%rsp), %ymm0
	vmovups	56(%rsp), %ymm1
	vmovups	%ymm0, 104(%rsp)
	vmovups	%ymm1, 136(%rsp)
	leaq	88(%rsp), %rdx
	movq	%r15, %rdi
	movq	%r14, %rsi
	vzeroupper
	callq	"checking::accepts"
	testb	%al, %al
	je	.LBB31_14
	movq	$0, (%rbx)
	movq	%r12, 8(%rbx)
	jmp	.LBB31_22
.LBB31_14:
	movl	$13, %eax
	xorl	%ecx, %ecx
	jmp	.LBB31_21
.LBB31_17:
	movl	$16, %eax
	xorl	%ecx, %ecx
	jmp	.LBB31_21
.LBB31_13:
	movl	$12, %eax
	jmp	.LBB31_20
.LBB31_6:
	movl	$4, %eax
	jmp	.LBB31_20
.LBB31_15:
	movl	$14, %eax
	xorl	%ecx, %ecx
	jmp	.LBB31_21
.LBB31_11:
	movl	$10, %eax
	xorl	%ecx, %ecx
	jmp	.LBB31_21
.LBB31_5:
	movl	$2, %eax
	xorl	%ecx, %ecx
	jmp	.LBB31_21
.LBB31_18:
	movl	$17, %eax
	xorl	%ecx, %ecx
	jmp	.LBB31_21
.LBB31_19:
	movl	$3, %eax
	jmp	.LBB31_20
.LBB31_9:
	movl	$8, %eax
	jmp	.LBB31_20
.LBB31_7:
	movl	$6, %eax
	jmp	.LBB31_20
.LBB31_16:
	movl	$15, %eax
	xorl	%ecx, %ecx
	jmp	.LBB31_21
.LBB31_8:
	movl	$7, %eax
.LBB31_20:
	movq	%r12, %rcx
.LBB31_21:
	movq	%rax, (%rbx)
	movq	%rcx, 8(%rbx)
.LBB31_22:
	addq	$168, %rsp
	popq	%rbx
	popq	%r12
	popq	%r14
	popq	%r15
	retq
.LBB31_12:
	movl	$11, %eax
	xorl	%ecx, %ecx
	jmp	.LBB31_21
.LBB31_10:
	movl	$9, %eax
	xorl	%ecx, %ecx
	jmp	.LBB31_21
.Lfunc_end31:
	.size	signalfern_check_to, .Lfunc_end31-signalfern_check_to
	.section	.rodata.signalfern_check_to,"a",@progbits
	.p2align	2, 0x0
.LJTI31_0:
	.long	.LBB31_4-.LJTI31_0
	.long	.LBB31_5-.LJTI31_0
	.long	.LBB31_19-.LJTI31_0
	.long	.LBB31_6-.LJTI31_0
	.long	.LBB31_7-.LJTI31_0
	.long	.LBB31_8-.LJTI31_0
	.long	.LBB31_9-.LJTI31_0
	.long	.LBB31_10-.LJTI31_0
	.long	.LBB31_11-.LJTI31_0
	.long	.LBB31_12-.LJTI31_0
	.long	.LBB31_13-.LJTI31_0
	.long	.LBB31_14-.LJTI31_0
	.long	.LBB31_15-.LJTI31_0
	.long	.LBB31_16-.LJTI31_0
	.long	.LBB31_17-.LJTI31_0
	.long	.LBB31_18-.LJTI31_0

	.section	.text.signalfern_first_between_from_in_to,"ax",@progbits
	.globl	signalfern_first_between_from_in_to
	.p2align	4
	.type	signalfern_first_between_from_in_to,@function
signalfern_first_between_from_in_to:
	pushq	%rbx
	subq	$128, %rsp
	movq	%r8, %rax
	movq	%rcx, %r8
	movq	%rdx, %rcx
	xorl	%edx, %edx
	testq	%rsi, %rsi
	sete	%dl
	shll	$12, %edx
	addq	%rsi, %rdx
	movq	16(%rdi), %rsi
	decq	%rsi
	cmpq	$3, %rsi
	ja	.LBB32_2
	movq	56(%rdi), %r10
	jmp	.LBB32_3
.LBB32_2:
	movl	$65, %r10d
	xorl	%esi, %esi
.LBB32_3:
	movq	144(%rsp), %rbx
	movq	%rsi, 48(%rsp)
	vmovups	24(%rdi), %ymm0
	vmovups	%ymm0, 56(%rsp)
	movq	%r10, 88(%rsp)
	vmovups	64(%rdi), %ymm0
	vmovups	%ymm0, 96(%rsp)
	vxorps	%xmm0, %xmm0, %xmm0
	vmovaps	%xmm0, 16(%rsp)
	movq	$0, 32(%rsp)
	movq	%r9, (%rsp)
	leaq	16(%rsp), %rdi
	leaq	48(%rsp), %rsi
	movq	%rax, %r9
	vzeroupper
	callq	"between::first_between_from_in"
	movzbl	24(%rsp), %edx
	movq	32(%rsp), %rax
	cmpb	$0, 16(%rsp)
	je	.LBB32_6
	movl	%edx, %ecx
	leaq	.LJTI32_0(%rip), %rsi
	movslq	(%rsi,%rcx,4), %rcx
	addq	%rsi, %rcx
	jmpq	*%rcx
.LBB32_5:
	movl	$1, %ecx
	movq	%rdx, %rax
	jmp	.LBB32_25
.LBB32_6:
	cmpl	$1, %edx
	jne	.LBB32_8
	vxorps	%xmm0, %xmm0, %xmm0
	vmovups	%xmm0, (%rbx)
	movq	%rax, 16(%rbx)
	addq	$128, %rsp
	popq	%rbx
	retq
.LBB32_8:
	movq	$1, (%rbx)
	vxorps	%xmm0, %xmm0, %xmm0
	vmovups	%xmm0, 8(%rbx)
	addq	$128, %rsp
	popq	%rbx
	retq
.LBB32_9:
	movl	$16, %ecx
	jmp	.LBB32_24
.LBB32_10:
	movl	$13, %ecx
	jmp	.LBB32_24
.LBB32_11:
	movl	$6, %ecx
	jmp	.LBB32_25
.LBB32_12:
	movl	$14, %ecx
	jmp	.LBB32_24
.LBB32_13:
	movl	$11, %ecx
	jmp	.LBB32_24
.LBB32_14:
	movl	$3, %ecx
	jmp	.LBB32_25
.LBB32_15:
	movl	$17, %ecx
	jmp	.LBB32_24
.LBB32_16:
	movl	$4, %ecx
	jmp	.LBB32_25
.LBB32_17:
	movl	$9, %ecx
	jmp	.LBB32_24
.LBB32_18:
	movl	$2, %ecx
	jmp	.LBB32_24
.LBB32_19:
	movl	$7, %ecx
	jmp	.LBB32_25
.LBB32_20:
	movl	$15, %ecx
	jmp	.LBB32_24
.LBB32_21:
	movl	$8, %ecx
	jmp	.LBB32_25
.LBB32_22:
	movl	$12, %ecx
	jmp	.LBB32_25
.LBB32_23:
	movl	$10, %ecx
.LBB32_24:
	xorl	%eax, %eax
.LBB32_25:
	movq	%rcx, (%rbx)
	movq	%rax, 8(%rbx)
	movq	$0, 16(%rbx)
	addq	$128, %rsp
	popq	%rbx
	retq
.Lfunc_end32:
	.size	signalfern_first_between_from_in_to, .Lfunc_end32-signalfern_first_between_from_in_to
	.section	.rodata.signalfern_first_between_from_in_to,"a",@progbits
	.p2align	2, 0x0
.LJTI32_0:
	.long	.LBB32_5-.LJTI32_0
	.long	.LBB32_18-.LJTI32_0
	.long	.LBB32_14-.LJTI32_0
	.long	.LBB32_16-.LJTI32_0
	.long	.LBB32_11-.LJTI32_0
	.long	.LBB32_19-.LJTI32_0
	.long	.LBB32_21-.LJTI32_0
	.long	.LBB32_17-.LJTI32_0
	.long	.LBB32_23-.LJTI32_0
	.long	.LBB32_13-.LJTI32_0
	.long	.LBB32_22-.LJTI32_0
	.long	.LBB32_10-.LJTI32_0
	.long	.LBB32_12-.LJTI32_0
	.long	.LBB32_20-.LJTI32_0
	.long	.LBB32_9-.LJTI32_0
	.long	.LBB32_15-.LJTI32_0

	.section	.text.signalfern_first_between_from_to,"ax",@progbits
	.globl	signalfern_first_between_from_to
	.p2align	4
	.type	signalfern_first_between_from_to,@function
signalfern_first_between_from_to:
	pushq	%rbx
	subq	$32, %rsp
	movq	%r9, %rbx
	movq	%r8, %r9
	movq	%rcx, %r8
	movq	%rdx, %rcx
	movq	%rsi, %rdx
	xorl	%esi, %esi
	testq	%rdi, %rdi
	sete	%sil
	shll	$12, %esi
	addq	%rdi, %rsi
	vxorps	%xmm0, %xmm0, %xmm0
	vmovaps	%xmm0, (%rsp)
	movq	$0, 16(%rsp)
	movq	%rsp, %rdi
	callq	"between::first_between_from"
	movzbl	8(%rsp), %edx
	movq	16(%rsp), %rax
	cmpb	$0, (%rsp)
	je	.LBB33_3
	movl	%edx, %ecx
	leaq	.LJTI33_0(%rip), %rsi
	movslq	(%rsi,%rcx,4), %rcx
	addq	%rsi, %rcx
	jmpq	*%rcx
.LBB33_2:
	movl	$1, %ecx
	movq	%rdx, %rax
	jmp	.LBB33_22
.LBB33_3:
	cmpl	$1, %edx
	jne	.LBB33_5
	vxorps	%xmm0, %xmm0, %xmm0
	vmovups	%xmm0, (%rbx)
	movq	%rax, 16(%rbx)
	addq	$32, %rsp
	popq	%rbx
	retq
.LBB33_5:
	movq	$1, (%rbx)
	vxorps	%xmm0, %xmm0, %xmm0
	vmovups	%xmm0, 8(%rbx)
	addq	$32, %rsp
	popq	%rbx
	retq
.LBB33_6:
	movl	$16, %ecx
	jmp	.LBB33_21
.LBB33_7:
	movl	$13, %ecx
	jmp	.LBB33_21
.LBB33_8:
	movl	$6, %ecx
	jmp	.LBB33_22
.LBB33_9:
	movl	$14, %ecx
	jmp	.LBB33_21
.LBB33_10:
	movl	$11, %ecx
	jmp	.LBB33_21
.LBB33_11:
	movl	$3, %ecx
	jmp	.LBB33_22
.LBB33_12:
	movl	$17, %ecx
	jmp	.LBB33_21
.LBB33_13:
	movl	$4, %ecx
	jmp	.LBB33_22
.LBB33_14:
	movl	$9, %ecx
	jmp	.LBB33_21
.LBB33_15:
	movl	$2, %ecx
	jmp	.LBB33_21
.LBB33_16:
	movl	$7, %ecx
	jmp	.LBB33_22
.LBB33_17:
	movl	$15, %ecx
	jmp	.LBB33_21
.LBB33_18:
	movl	$8, %ecx
	jmp	.LBB33_22
.LBB33_19:
	movl	$12, %ecx
	jmp	.LBB33_22
.LBB33_20:
	movl	$10, %ecx
.LBB33_21:
	xorl	%eax, %eax
.LBB33_22:
	movq	%rcx, (%rbx)
	movq	%rax, 8(%rbx)
	movq	$0, 16(%rbx)
	addq	$32, %rsp
	popq	%rbx
	retq
.Lfunc_end33:
	.size	signalfern_first_between_from_to, .Lfunc_end33-signalfern_first_between_from_to
	.section	.rodata.signalfern_first_between_from_to,"a",@progbits
	.p2align	2, 0x0
.LJTI33_0:
	.long	.LBB33_2-.LJTI33_0
	.long	.LBB33_15-.LJTI33_0
	.long	.LBB33_11-.LJTI33_0
	.long	.LBB33_13-.LJTI33_0
	.long	.LBB33_8-.LJTI33_0
	.long	.LBB33_16-.LJTI33_0
	.long	.LBB33_18-.LJTI33_0
	.long	.LBB33_14-.LJTI33_0
	.long	.LBB33_20-.LJTI33_0
	.long	.LBB33_10-.LJTI33_0
	.long	.LBB33_19-.LJTI33_0
	.long	.LBB33_7-.LJTI33_0
	.long	.LBB33_9-.LJTI33_0
	.long	.LBB33_17-.LJTI33_0
	.long	.LBB33_6-.LJTI33_0
	.long	.LBB33_12-.LJTI33_0

	.section	.text.signalfern_first_between_in_to,"ax",@progbits
	.globl	signalfern_first_between_in_to
	.p2align	4
	.type	signalfern_first_between_in_to,@function
signalfern_first_between_in_to:
	pushq	%rbx
	subq	$128, %rsp
	movq	%r9, %rbx
	movq	%rcx, %r9
	movq	%rdx, %rcx
	xorl	%edx, %edx
	testq	%rsi, %rsi
	sete	%dl
	shll	$12, %edx
	addq	%rsi, %rdx
	movq	16(%rdi), %rax
	decq	%rax
	cmpq	$3, %rax
	ja	.LBB34_2
	movq	56(%rdi), %rsi
	jmp	.LBB34_3
.LBB34_2:
	movl	$65, %esi
	xorl	%eax, %eax
.LBB34_3:
	movq	%rax, 48(%rsp)
	vmovups	24(%rdi), %ymm0
	vmovups	%ymm0, 56(%rsp)
	movq	%rsi, 88(%rsp)
	vmovups	64(%rdi), %ymm0
	vmovups	%ymm0, 96(%rsp)
	vxorps	%xmm0, %xmm0, %xmm0
	vmovaps	%xmm0, 16(%rsp)
	movq	$0, 32(%rsp)
	movq	%r8, (%rsp)
	leaq	16(%rsp), %rdi
	leaq	48(%rsp), %rsi
	xorl	%r8d, %r8d
	vzeroupper
	callq	"between::first_between_from_in"
	movzbl	24(%rsp), %edx
	movq	32(%rsp), %rax
	cmpb	$0, 16(%rsp)
	je	.LBB34_6
	movl	%edx, %ecx
	leaq	.LJTI34_0(%rip), %rsi
	movslq	(%rsi,%rcx,4), %rcx
	addq	%rsi, %rcx
	jmpq	*%rcx
.LBB34_5:
	movl	$1, %ecx
	movq	%rdx, %rax
	jmp	.LBB34_25
.LBB34_6:
	cmpl	$1, %edx
	jne	.LBB34_8
	vxorps	%xmm0, %xmm0, %xmm0
	vmovups	%xmm0, (%rbx)
	movq	%rax, 16(%rbx)
	addq	$128, %rsp
	popq	%rbx
	retq
.LBB34_8:
	movq	$1, (%rbx)
	vxorps	%xmm0, %xmm0, %xmm0
	vmovups	%xmm0, 8(%rbx)
	addq	$128, %rsp
	popq	%rbx
	retq
.LBB34_9:
	movl	$16, %ecx
	jmp	.LBB34_24
.LBB34_10:
	movl	$13, %ecx
	jmp	.LBB34_24
.LBB34_11:
	movl	$6, %ecx
	jmp	.LBB34_25
.LBB34_12:
	movl	$14, %ecx
	jmp	.LBB34_24
.LBB34_13:
	movl	$11, %ecx
	jmp	.LBB34_24
.LBB34_14:
	movl	$3, %ecx
	jmp	.LBB34_25
.LBB34_15:
	movl	$17, %ecx
	jmp	.LBB34_24
.LBB34_16:
	movl	$4, %ecx
	jmp	.LBB34_25
.LBB34_17:
	movl	$9, %ecx
	jmp	.LBB34_24
.LBB34_18:
	movl	$2, %ecx
	jmp	.LBB34_24
.LBB34_19:
	movl	$7, %ecx
	jmp	.LBB34_25
.LBB34_20:
	movl	$15, %ecx
	jmp	.LBB34_24
.LBB34_21:
	movl	$8, %ecx
	jmp	.LBB34_25
.LBB34_22:
	movl	$12, %ecx
	jmp	.LBB34_25
.LBB34_23:
	movl	$10, %ecx
.LBB34_24:
	xorl	%eax, %eax
.LBB34_25:
	movq	%rcx, (%rbx)
	movq	%rax, 8(%rbx)
	movq	$0, 16(%rbx)
	addq	$128, %rsp
	popq	%rbx
	retq
.Lfunc_end34:
	.size	signalfern_first_between_in_to, .Lfunc_end34-signalfern_first_between_in_to
	.section	.rodata.signalfern_first_between_in_to,"a",@progbits
	.p2align	2, 0x0
.LJTI34_0:
	.long	.LBB34_5-.LJTI34_0
	.long	.LBB34_18-.LJTI34_0
	.long	.LBB34_14-.LJTI34_0
	.long	.LBB34_16-.LJTI34_0
	.long	.LBB34_11-.LJTI34_0
	.long	.LBB34_19-.LJTI34_0
	.long	.LBB34_21-.LJTI34_0
	.long	.LBB34_17-.LJTI34_0
	.long	.LBB34_23-.LJTI34_0
	.long	.LBB34_13-.LJTI34_0
	.long	.LBB34_22-.LJTI34_0
	.long	.LBB34_10-.LJTI34_0
	.long	.LBB34_12-.LJTI34_0
	.long	.LBB34_20-.LJTI34_0
	.long	.LBB34_9-.LJTI34_0
	.long	.LBB34_15-.LJTI34_0

	.section	.text.signalfern_first_between_to,"ax",@progbits
	.globl	signalfern_first_between_to
	.p2align	4
	.type	signalfern_first_between_to,@function
signalfern_first_between_to:
	pushq	%rbx
	subq	$32, %rsp
	movq	%r8, %rbx
	movq	%rcx, %r9
	movq	%rdx, %r8
	movq	%rsi, %rdx
	xorl	%esi, %esi
	testq	%rdi, %rdi
	sete	%sil
	shll	$12, %esi
	addq	%rdi, %rsi
	vxorps	%xmm0, %xmm0, %xmm0
	vmovaps	%xmm0, (%rsp)
	movq	$0, 16(%rsp)
	movq	%rsp, %rdi
	xorl	%ecx, %ecx
	callq	"between::first_between_from"
	movzbl	8(%rsp), %edx
	movq	16(%rsp), %rax
	cmpb	$0, (%rsp)
	je	.LBB35_3
	movl	%edx, %ecx
	leaq	.LJTI35_0(%rip), %rsi
	movslq	(%rsi,%rcx,4), %rcx
	addq	%rsi, %rcx
	jmpq	*%rcx
.LBB35_2:
	movl	$1, %ecx
	movq	%rdx, %rax
	jmp	.LBB35_22
.LBB35_3:
	cmpl	$1, %edx
	jne	.LBB35_5
	vxorps	%xmm0, %xmm0, %xmm0
	vmovups	%xmm0, (%rbx)
	movq	%rax, 16(%rbx)
	addq	$32, %rsp
	popq	%rbx
	retq
.LBB35_5:
	movq	$1, (%rbx)
	vxorps	%xmm0, %xmm0, %xmm0
	vmovups	%xmm0, 8(%rbx)
	addq	$32, %rsp
	popq	%rbx
	retq
.LBB35_6:
	movl	$16, %ecx
	jmp	.LBB35_21
.LBB35_7:
	movl	$13, %ecx
	jmp	.LBB35_21
.LBB35_8:
	movl	$6, %ecx
	jmp	.LBB35_22
.LBB35_9:
	movl	$14, %ecx
	jmp	.LBB35_21
.LBB35_10:
	movl	$11, %ecx
	jmp	.LBB35_21
.LBB35_11:
	movl	$3, %ecx
	jmp	.LBB35_22
.LBB35_12:
	movl	$17, %ecx
	jmp	.LBB35_21
.LBB35_13:
	movl	$4, %ecx
	jmp	.LBB35_22
.LBB35_14:
	movl	$9, %ecx
	jmp	.LBB35_21
.LBB35_15:
	movl	$2, %ecx
	jmp	.LBB35_21
.LBB35_16:
	movl	$7, %ecx
	jmp	.LBB35_22
.LBB35_17:
	movl	$15, %ecx
	jmp	.LBB35_21
.LBB35_18:
	movl	$8, %ecx
	jmp	.LBB35_22
.LBB35_19:
	movl	$12, %ecx
	jmp	.LBB35_22
.LBB35_20:
	movl	$10, %ecx
.LBB35_21:
	xorl	%eax, %eax
.LBB35_22:
	movq	%rcx, (%rbx)
	movq	%rax, 8(%rbx)
	movq	$0, 16(%rbx)
	addq	$32, %rsp
	popq	%rbx
	retq
.Lfunc_end35:
	.size	signalfern_first_between_to, .Lfunc_end35-signalfern_first_between_to
	.section	.rodata.signalfern_first_between_to,"a",@progbits
	.p2align	2, 0x0
.LJTI35_0:
	.long	.LBB35_2-.LJTI35_0
	.long	.LBB35_15-.LJTI35_0
	.long	.LBB35_11-.LJTI35_0
	.long	.LBB35_13-.LJTI35_0
	.long	.LBB35_8-.LJTI35_0
	.long	.LBB35_16-.LJTI35_0
	.long	.LBB35_18-.LJTI35_0
	.long	.LBB35_14-.LJTI35_0
	.long	.LBB35_20-.LJTI35_0
	.long	.LBB35_10-.LJTI35_0
	.long	.LBB35_19-.LJTI35_0
	.long	.LBB35_7-.LJTI35_0
	.long	.LBB35_9-.LJTI35_0
	.long	.LBB35_17-.LJTI35_0
	.long	.LBB35_6-.LJTI35_0
	.long	.LBB35_12-.LJTI35_0

	.section	.text.signalfern_judge_section_to,"ax",@progbits
	.globl	signalfern_judge_section_to
	.p2align	4
	.type	signalfern_judge_section_to,@function
signalfern_judge_section_to:
	pushq	%rbx
	subq	$32, %rsp
	vxorps	%xmm0, %xmm0, %xmm0
	vmovaps	%xmm0, (%rsp)
	movq	%r9, %rbx
	movq	%rcx, %rax
	movq	%rdx, %r9
	movq	%rsi, %rdx
	movq	$0, 16(%rsp)
	testq	%rcx, %rcx
	setne	%cl
	leaq	-16(%rax), %rsi
	cmpq	$-9, %rsi
	setb	%sil
	cmpq	$32767, %r9
	ja	.LBB36_5
	andb	%sil, %cl
	jne	.LBB36_5
	xorl	%esi, %esi
	testq	%rdi, %rdi
	sete	%sil
	shll	$12, %esi
	addq	%rdi, %rsi
	xorl	%ecx, %ecx
	testl	%r8d, %r8d
	setne	%cl
	movq	%rsp, %rdi
	movq	%rax, %r8
	callq	"section_check::judge"
	cmpb	$0, (%rsp)
	je	.LBB36_3
	movzbl	8(%rsp), %eax
	movq	16(%rsp), %rcx
	incq	%rax
	movq	$1, (%rbx)
	movq	$0, 8(%rbx)
	movq	%rcx, 16(%rbx)
	movq	%rax, 24(%rbx)
	addq	$32, %rsp
	popq	%rbx
	retq
.LBB36_5:
	movq	$10, (%rbx)
	vmovups	%xmm0, 8(%rbx)
	movq	$0, 24(%rbx)
	addq	$32, %rsp
	popq	%rbx
	retq
.LBB36_3:
	movq	8(%rsp), %rax
	movq	$0, (%rbx)
	movq	%rax, 8(%rbx)
	vxorps	%xmm0, %xmm0, %xmm0
	vmovups	%xmm0, 16(%rbx)
	addq	$32, %rsp
	popq	%rbx
	retq
.Lfunc_end36:
	.size	signalfern_judge_section_to, .Lfunc_end36-signalfern_judge_section_to

	.section	.text.signalfern_layered_values_to,"ax",@progbits
	.globl	signalfern_layered_values_to
	.p2align	4
	.type	signalfern_layered_values_to,@function
signalfern_layered_values_to:
	pushq	%rbp
	pushq	%r15
	pushq	%r14
	pushq	%r13
	pushq	%r12
	pushq	%rbx
	subq	$104, %rsp
	movq	%r9, 96(%rsp)
	movl	%r8d, %ebp
	movq	%rcx, %r12
	movq	%rsi, 88(%rsp)
	movq	%rdi, %r15
	xorl	%r14d, %r14d
	testq	%rdi, %rdi
	sete	%bl
	xorl	%r13d, %r13d
	testq	%rdx, %rdx
	sete	%r13b
	shll	$12, %r13d
	addq	%rdx, %r13
	movq	%rsp, %rdi
	movq	%r13, %rsi
	movq	%rcx, %rdx
	movl	%r8d, %ecx
	callq	"layered::answer_from"
	cmpb	$0, (%rsp)
	je	.LBB37_2
.LBB37_1:
	xorl	%eax, %eax
	xorl	%ecx, %ecx
	xorl	%edx, %edx
.LBB37_11:
	movq	96(%rsp), %rsi
	movq	%rax, (%rsi)
	movq	%rcx, 8(%rsi)
	movq	%rdx, 16(%rsi)
	addq	$104, %rsp
	popq	%rbx
	popq	%r12
	popq	%r13
	popq	%r14
	popq	%r15
	popq	%rbp
	retq
.LBB37_2:
	movl	%ebx, %eax
	movq	88(%rsp), %rbx
	cmpb	$0, 8(%rsp)
	je	.LBB37_7
	movb	%al, %r14b
	shll	$12, %r14d
	addq	%r14, %r15
	movq	%rsp, %rdi
	movq	%r15, %rsi
	movq	%rbx, %rdx
	movl	%ebp, %ecx
	callq	"layered::answer_from"
	cmpb	$0, (%rsp)
	jne	.LBB37_1
	cmpb	$0, 8(%rsp)
	jne	.LBB37_1
	vxorps	%xmm0, %xmm0, %xmm0
	vmovups	%ymm0, 56(%rsp)
	vmovups	%ymm0, 32(%rsp)
	vmovups	%ymm0, (%rsp)
	movq	%rsp, %rdi
	movq	%r15, %rsi
	movq	%rbx, %rdx
	vzeroupper
	callq	"column::Column::open"
	xorl	%eax, %eax
	cmpb	$0, (%rsp)
	movl	$0, %ecx
	movl	$0, %edx
	jne	.LBB37_11
	movq	80(%rsp), %rcx
	addq	32(%rsp), %rcx
	movq	72(%rsp), %rdx
	jmp	.LBB37_11
.LBB37_7:
	vxorps	%xmm0, %xmm0, %xmm0
	vmovups	%ymm0, 56(%rsp)
	vmovups	%ymm0, 32(%rsp)
	vmovups	%ymm0, (%rsp)
	movq	%rsp, %rdi
	movq	%r13, %rsi
	movq	%r12, %rdx
	vzeroupper
	callq	"column::Column::open"
	xorl	%eax, %eax
	cmpb	$0, (%rsp)
	sete	%sil
	jne	.LBB37_8
	movq	80(%rsp), %rcx
	addq	32(%rsp), %rcx
	movq	72(%rsp), %rdx
	jmp	.LBB37_10
.LBB37_8:
	xorl	%ecx, %ecx
	xorl	%edx, %edx
.LBB37_10:
	movb	%sil, %al
	jmp	.LBB37_11
.Lfunc_end37:
	.size	signalfern_layered_values_to, .Lfunc_end37-signalfern_layered_values_to

	.section	.text.signalfern_look_up_in_to,"ax",@progbits
	.globl	signalfern_look_up_in_to
	.p2align	4
	.type	signalfern_look_up_in_to,@function
signalfern_look_up_in_to:
	subq	$24, %rsp
	movq	%rdi, %rax
	xorl	%edi, %edi
	testq	%rsi, %rsi
	sete	%dil
	shll	$12, %edi
	addq	%rsi, %rdi
	movq	%rdi, 8(%rsp)
	movq	%rdx, 16(%rsp)
	leaq	8(%rsp), %rdx
	movq	%r8, %rdi
	movq	%rax, %rsi
	callq	"signalfern_c::look_in"
	addq	$24, %rsp
	retq
.Lfunc_end38:
	.size	signalfern_look_up_in_to, .Lfunc_end38-signalfern_look_up_in_to

	.section	.text.signalfern_look_up_layered_in_to,"ax",@progbits
	.globl	signalfern_look_up_layered_in_to
	.p2align	4
	.type	signalfern_look_up_layered_in_to,@function
signalfern_look_up_layered_in_to:
	pushq	%rbp
	pushq	%r14
	pushq	%rbx
	subq	$128, %rsp
	movq	%rdi, %rbx
	movq	168(%rsp), %r14
	movl	160(%rsp), %ebp
	xorl	%eax, %eax
	testq	%rsi, %rsi
	sete	%al
	shll	$12, %eax
	addq	%rsi, %rax
	xorl	%esi, %esi
	testq	%r8, %r8
	sete	%sil
	shll	$12, %esi
	addq	%r8, %rsi
	movq	%rax, 16(%rsp)
	movq	%rdx, 24(%rsp)
	movq	%rsi, (%rsp)
	movq	%r9, 8(%rsp)
	vxorps	%xmm0, %xmm0, %xmm0
	vmovups	%ymm0, 32(%rsp)
	vmovups	%ymm0, 48(%rsp)
	leaq	32(%rsp), %rdi
	movq	%rsp, %rdx
	movq	%rcx, %rsi
	movl	%ebp, %ecx
	vzeroupper
	callq	"signalfern_c::look_in"
	movq	32(%rsp), %rax
	cmpq	$1, %rax
	jne	.LBB39_7
	vxorps	%xmm0, %xmm0, %xmm0
	vmovups	%ymm0, 96(%rsp)
	vmovups	%ymm0, 80(%rsp)
	leaq	80(%rsp), %rdi
	leaq	16(%rsp), %rdx
	movq	%rbx, %rsi
	movl	%ebp, %ecx
	vzeroupper
	callq	"signalfern_c::look_in"
	movq	80(%rsp), %rcx
	xorl	%eax, %eax
	cmpq	$2, %rcx
	jae	.LBB39_2
	movq	112(%rsp), %rax
	movq	64(%rsp), %rdx
	movq	88(%rsp), %rsi
	vxorps	%xmm0, %xmm0, %xmm0
	jb	.LBB39_5
	jmp	.LBB39_6
.LBB39_7:
	movq	40(%rsp), %rcx
	movq	64(%rsp), %rdx
	movq	%rax, (%r14)
	movq	%rcx, 8(%r14)
	movq	$1, 16(%r14)
	vmovaps	48(%rsp), %xmm0
	vmovups	%xmm0, 24(%r14)
	movq	$0, 40(%r14)
	jmp	.LBB39_8
.LBB39_2:
	movl	$0, %edx
	movq	88(%rsp), %rsi
	vxorps	%xmm0, %xmm0, %xmm0
	jae	.LBB39_6
.LBB39_5:
	vmovaps	96(%rsp), %xmm0
.LBB39_6:
	movq	%rcx, (%r14)
	movq	%rsi, 8(%r14)
	movq	$0, 16(%r14)
	vmovups	%xmm0, 24(%r14)
	movq	%rax, 40(%r14)
.LBB39_8:
	movq	%rdx, 48(%r14)
	addq	$128, %rsp
	popq	%rbx
	popq	%r14
	popq	%rbp
	retq
.Lfunc_end39:
	.size	signalfern_look_up_layered_in_to, .Lfunc_end39-signalfern_look_up_layered_in_to

	.section	.rodata.cst32,"aM",@progbits,32
	.p2align	5, 0x0
.LCPI40_0:
	.zero	32,1
	.section	.rodata.cst16,"aM",@progbits,16
	.p2align	4, 0x0
.LCPI40_1:
	.byte	1
	.byte	1
	.byte	1
	.byte	1
	.byte	1
	.byte	1
	.byte	1
	.byte	1
	.zero	1
	.zero	1
	.zero	1
	.zero	1
	.zero	1
	.zero	1
	.zero	1
	.zero	1
.LCPI40_2:
	.quad	281479271743489
	.quad	281479271743489
	.section	.rodata.cst4,"aM",@progbits,4
	.p2align	2, 0x0
.LCPI40_3:
	.zero	4,1
	.section	.text.signalfern_look_up_layered_page_in_to,"ax",@progbits
	.globl	signalfern_look_up_layered_page_in_to
	.p2align	4
	.type	signalfern_look_up_layered_page_in_to,@function
signalfern_look_up_layered_page_in_to:
	pushq	%rbp
	pushq	%r15
	pushq	%r14
	pushq	%r13
	pushq	%r12
	pushq	%rbx
	subq	$504, %rsp
	movq	%r9, 104(%rsp)
	testq	%rsi, %rsi
	sete	%r9b
	xorl	%eax, %eax
	testq	%r8, %r8
	sete	%r13b
	xorl	%ebp, %ebp
	cmpq	$0, 560(%rsp)
	sete	88(%rsp)
	xorl	%r15d, %r15d
	cmpq	$0, 576(%rsp)
	sete	72(%rsp)
	xorl	%r10d, %r10d
	cmpq	$0, 592(%rsp)
	sete	80(%rsp)
	cmpq	$0, 608(%rsp)
	sete	71(%rsp)
	cmpq	$0, 624(%rsp)
	sete	%bl
	movq	16(%rdi), %r11
	decq	%r11
	movl	$65, %r14d
	cmpq	$3, %r11
	movq	%rsi, 152(%rsp)
	movq	%rdx, 144(%rsp)
	movb	%r9b, 69(%rsp)
	movb	%bl, 70(%rsp)
	movq	%r8, 96(%rsp)
	ja	.LBB40_1
	movq	56(%rdi), %r12
	jmp	.LBB40_3
.LBB40_1:
	xorl	%r11d, %r11d
	movl	$65, %r12d
.LBB40_3:
	movq	632(%rsp), %r8
	movq	616(%rsp), %r9
	movq	600(%rsp), %rdx
	movq	584(%rsp), %rsi
	movq	568(%rsp), %rbx
	vmovdqu	24(%rdi), %ymm1
	vmovups	64(%rdi), %ymm0
	movq	16(%rcx), %rdi
	decq	%rdi
	cmpq	$3, %rdi
	ja	.LBB40_4
	movq	56(%rcx), %r14
	jmp	.LBB40_6
.LBB40_4:
	xorl	%edi, %edi
.LBB40_6:
	movq	%r11, 240(%rsp)
	vmovdqu	%ymm1, 248(%rsp)
	movq	640(%rsp), %r11
	movq	%r12, 280(%rsp)
	vmovups	%ymm0, 288(%rsp)
	movq	%rdi, 160(%rsp)
	vmovups	24(%rcx), %ymm0
	vmovups	%ymm0, 168(%rsp)
	movq	%r14, 200(%rsp)
	vmovdqu	64(%rcx), %ymm0
	vmovdqu	%ymm0, 208(%rsp)
	vpxor	%xmm0, %xmm0, %xmm0
	vmovdqa	%xmm0, 112(%rsp)
	vpxor	%xmm0, %xmm0, %xmm0
	vmovdqu	%ymm0, 416(%rsp)
	vmovdqu	%ymm0, 448(%rsp)
	vmovdqu	%ymm0, 472(%rsp)
	vmovdqu	%ymm0, 320(%rsp)
	vmovdqu	%ymm0, 352(%rsp)
	vmovdqu	%ymm0, 376(%rsp)
	movq	$0, 128(%rsp)
	cmpq	%rsi, %rbx
	setbe	%cl
	cmpq	%rdx, %rbx
	setbe	%dil
	andb	%cl, %dil
	cmpq	%r9, %rbx
	setbe	%cl
	andb	%dil, %cl
	cmpq	%r8, %rbx
	setbe	%dil
	testb	%dil, %cl
	je	.LBB40_7
	movb	%r13b, %al
	movzbl	88(%rsp), %ecx
	movb	%cl, %bpl
	movzbl	72(%rsp), %ecx
	movb	%cl, %r15b
	movzbl	80(%rsp), %ecx
	movb	%cl, %r10b
	xorl	%ecx, %ecx
	movzbl	71(%rsp), %edx
	movb	%dl, %cl
	shll	$12, %eax
	shll	$12, %ebp
	shll	$12, %r15d
	shll	$12, %r10d
	shll	$12, %ecx
	movq	96(%rsp), %r13
	addq	%rax, %r13
	movq	560(%rsp), %rbx
	addq	%rbp, %rbx
	movq	576(%rsp), %r12
	addq	%r15, %r12
	movq	592(%rsp), %r14
	addq	%r10, %r14
	movq	608(%rsp), %rbp
	movq	%rcx, 72(%rsp)
	leaq	(%rcx,%rbp), %rax
	movq	%rax, 88(%rsp)
	leaq	416(%rsp), %rbp
	leaq	160(%rsp), %rdx
	movq	%rbp, %rdi
	movq	104(%rsp), %r15
	movq	%r15, %rsi
	vzeroupper
	callq	"layered_page::tested"
	movq	%rbp, 8(%rsp)
	movq	88(%rsp), %rbp
	movq	%r15, (%rsp)
	movq	%r12, %rdi
	movq	%r14, 80(%rsp)
	movq	%r14, %rsi
	movq	%rbp, %rdx
	movq	%rbx, %r14
	movq	%rbx, %rcx
	movq	568(%rsp), %rbx
	movq	%rbx, %r8
	movq	%r13, 96(%rsp)
	movq	%r13, %r9
	callq	"page::fill_by"
	testq	%rbx, %rbx
	je	.LBB40_27
	xorl	%r10d, %r10d
	movzbl	70(%rsp), %ecx
	movb	%cl, %r10b
	shll	$12, %r10d
	movq	624(%rsp), %r9
	leaq	(%r9,%r10), %r11
	cmpq	$8, %rbx
	jb	.LBB40_10
	movq	%r11, %rcx
	subq	%rbp, %rcx
	cmpq	$128, %rcx
	jae	.LBB40_12
.LBB40_10:
	xorl	%edx, %edx
	xorl	%ecx, %ecx
.LBB40_21:
	movq	%rbx, %rdi
	movq	%rcx, %rsi
	andq	$3, %rdi
	je	.LBB40_23
	.p2align	4
.LBB40_22:
	cmpb	$1, (%rbp,%rsi)
	setne	(%r11,%rsi)
	sete	%r8b
	orb	%r8b, %dl
	incq	%rsi
	decq	%rdi
	jne	.LBB40_22
.LBB40_23:
	subq	%rbx, %rcx
	cmpq	$-4, %rcx
	ja	.LBB40_26
	addq	%r10, %r9
	addq	$3, %r9
	movq	72(%rsp), %rcx
	movq	608(%rsp), %rdi
	addq	%rdi, %rcx
	addq	$3, %rcx
	.p2align	4
.LBB40_25:
	cmpb	$1, -3(%rcx,%rsi)
	setne	-3(%r9,%rsi)
	sete	%dil
	orb	%dl, %dil
	cmpb	$1, -2(%rcx,%rsi)
	setne	-2(%r9,%rsi)
	sete	%dl
	cmpb	$1, -1(%rcx,%rsi)
	setne	-1(%r9,%rsi)
	sete	%r8b
	orb	%dl, %r8b
	orb	%dil, %r8b
	cmpb	$1, (%rcx,%rsi)
	setne	(%r9,%rsi)
	sete	%dl
	orb	%r8b, %dl
	addq	$4, %rsi
	cmpq	%rsi, %rbx
	jne	.LBB40_25
.LBB40_26:
	testb	$1, %dl
	je	.LBB40_27
	xorl	%edx, %edx
	movzbl	69(%rsp), %ecx
	movb	%cl, %dl
	shll	$12, %edx
	movq	152(%rsp), %r15
	addq	%rdx, %r15
	leaq	320(%rsp), %rdi
	leaq	240(%rsp), %rdx
	movq	%r12, %r13
	movq	144(%rsp), %r12
	movq	%r12, %rsi
	movq	%r14, 72(%rsp)
	movq	%rax, %r14
	vzeroupper
	callq	"layered_page::tested"
	movq	%r14, 48(%rsp)
	leaq	416(%rsp), %rax
	movq	%rax, 40(%rsp)
	movq	104(%rsp), %rax
	movq	%rax, 32(%rsp)
	movq	96(%rsp), %rax
	movq	%rax, 24(%rsp)
	leaq	320(%rsp), %rax
	movq	%rax, 16(%rsp)
	movq	%r12, 8(%rsp)
	movq	%r15, (%rsp)
	leaq	112(%rsp), %rdi
	movq	%r13, %rsi
	movq	80(%rsp), %rdx
	movq	%rbp, %rcx
	movq	72(%rsp), %r8
	movq	%rbx, %r9
	callq	"layered_page::under::fill_under"
	movq	120(%rsp), %rcx
	movq	128(%rsp), %rax
	cmpb	$0, 112(%rsp)
	je	.LBB40_29
	movzbl	%cl, %ebx
	leaq	.LJTI40_0(%rip), %rdx
	movslq	(%rdx,%rbx,4), %rcx
	addq	%rdx, %rcx
	movq	640(%rsp), %r11
	jmpq	*%rcx
.LBB40_31:
	movl	$1, %ecx
	jmp	.LBB40_48
.LBB40_7:
	movl	$12, %ecx
.LBB40_48:
	movq	%rcx, (%r11)
	movq	%rbx, 8(%r11)
	vpxor	%xmm0, %xmm0, %xmm0
	vmovdqu	%xmm0, 16(%r11)
	jmp	.LBB40_49
.LBB40_27:
	xorl	%ecx, %ecx
.LBB40_29:
	movq	640(%rsp), %r14
	movq	$0, (%r14)
	movq	%rbx, 8(%r14)
	movq	%rcx, 16(%r14)
	movq	%rax, 24(%r14)
.LBB40_49:
	addq	$504, %rsp
	popq	%rbx
	popq	%r12
	popq	%r13
	popq	%r14
	popq	%r15
	popq	%rbp
	vzeroupper
	retq
.LBB40_12:
	cmpq	$128, %rbx
	jae	.LBB40_14
	xorl	%ecx, %ecx
	xorl	%edx, %edx
	jmp	.LBB40_18
.LBB40_14:
	movq	%rbx, %rcx
	andq	$-128, %rcx
	leaq	(%r10,%r9), %rdx
	addq	$96, %rdx
	movq	72(%rsp), %rsi
	movq	608(%rsp), %rdi
	addq	%rdi, %rsi
	addq	$96, %rsi
	vpxor	%xmm0, %xmm0, %xmm0
	xorl	%edi, %edi
	vpxor	%xmm1, %xmm1, %xmm1
	vpxor	%xmm2, %xmm2, %xmm2
	vpxor	%xmm3, %xmm3, %xmm3
	.p2align	4
.LBB40_15:
	vpbroadcastd	.LCPI40_3(%rip), %ymm4
	vpcmpeqb	-96(%rsi,%rdi), %ymm4, %ymm5
	vpandn	%ymm4, %ymm5, %ymm6
	vpcmpeqb	-64(%rsi,%rdi), %ymm4, %ymm7
	vpandn	%ymm4, %ymm7, %ymm8
	vpcmpeqb	-32(%rsi,%rdi), %ymm4, %ymm9
	vpcmpeqb	(%rsi,%rdi), %ymm4, %ymm10
	vpandn	%ymm4, %ymm9, %ymm11
	vpandn	%ymm4, %ymm10, %ymm4
	vmovdqu	%ymm6, -96(%rdx,%rdi)
	vmovdqu	%ymm8, -64(%rdx,%rdi)
	vmovdqu	%ymm11, -32(%rdx,%rdi)
	vmovdqu	%ymm4, (%rdx,%rdi)
	vpor	%ymm5, %ymm0, %ymm0
	vpor	%ymm7, %ymm1, %ymm1
	vpor	%ymm2, %ymm9, %ymm2
	vpor	%ymm3, %ymm10, %ymm3
	subq	$-128, %rdi
	cmpq	%rdi, %rcx
	jne	.LBB40_15
	vpor	%ymm0, %ymm1, %ymm0
	vpor	%ymm0, %ymm2, %ymm0
	vpor	%ymm0, %ymm3, %ymm0
	vpsllw	$7, %ymm0, %ymm0
	vpmovmskb	%ymm0, %edx
	testl	%edx, %edx
	setne	%dl
	cmpq	%rcx, %rbx
	je	.LBB40_26
	testb	$120, %bl
	je	.LBB40_21
.LBB40_18:
	movq	%rcx, %rsi
	movq	%rbx, %rcx
	andq	$-8, %rcx
	movzbl	%dl, %edx
	vmovd	%edx, %xmm0
	.p2align	4
.LBB40_19:
	vmovq	(%rbp,%rsi), %xmm1
	vpbroadcastd	.LCPI40_3(%rip), %xmm2
	vpcmpeqb	%xmm2, %xmm1, %xmm1
	vpandn	%xmm2, %xmm1, %xmm2
	vmovq	%xmm2, (%r11,%rsi)
	vpmovsxbw	%xmm1, %xmm1
	vpor	%xmm1, %xmm0, %xmm0
	addq	$8, %rsi
	cmpq	%rsi, %rcx
	jne	.LBB40_19
	vptest	.LCPI40_2(%rip), %xmm0
	setne	%dl
	cmpq	%rcx, %rbx
	jne	.LBB40_21
	jmp	.LBB40_26
.LBB40_44:
	movl	$16, %ecx
	xorl	%ebx, %ebx
	jmp	.LBB40_48
.LBB40_41:
	movl	$13, %ecx
	xorl	%ebx, %ebx
	jmp	.LBB40_48
.LBB40_34:
	movl	$6, %ecx
	jmp	.LBB40_47
.LBB40_42:
	movl	$14, %ecx
	xorl	%ebx, %ebx
	jmp	.LBB40_48
.LBB40_39:
	movl	$11, %ecx
	xorl	%ebx, %ebx
	jmp	.LBB40_48
.LBB40_46:
	movl	$3, %ecx
	jmp	.LBB40_47
.LBB40_45:
	movl	$17, %ecx
	xorl	%ebx, %ebx
	jmp	.LBB40_48
.LBB40_33:
	movl	$4, %ecx
	jmp	.LBB40_47
.LBB40_37:
	movl	$9, %ecx
	xorl	%ebx, %ebx
	jmp	.LBB40_48
.LBB40_32:
	movl	$2, %ecx
	xorl	%ebx, %ebx
	jmp	.LBB40_48
.LBB40_35:
	movl	$7, %ecx
	jmp	.LBB40_47
.LBB40_43:
	movl	$15, %ecx
	xorl	%ebx, %ebx
	jmp	.LBB40_48
.LBB40_36:
	movl	$8, %ecx
	jmp	.LBB40_47
.LBB40_40:
	movl	$12, %ecx
.LBB40_47:
	movq	%rax, %rbx
	jmp	.LBB40_48
.LBB40_38:
	movl	$10, %ecx
	xorl	%ebx, %ebx
	jmp	.LBB40_48
.Lfunc_end40:
	.size	signalfern_look_up_layered_page_in_to, .Lfunc_end40-signalfern_look_up_layered_page_in_to
	.section	.rodata.signalfern_look_up_layered_page_in_to,"a",@progbits
	.p2align	2, 0x0
.LJTI40_0:
	.long	.LBB40_31-.LJTI40_0
	.long	.LBB40_32-.LJTI40_0
	.long	.LBB40_46-.LJTI40_0
	.long	.LBB40_33-.LJTI40_0
	.long	.LBB40_34-.LJTI40_0
	.long	.LBB40_35-.LJTI40_0
	.long	.LBB40_36-.LJTI40_0
	.long	.LBB40_37-.LJTI40_0
	.long	.LBB40_38-.LJTI40_0
	.long	.LBB40_39-.LJTI40_0
	.long	.LBB40_40-.LJTI40_0
	.long	.LBB40_41-.LJTI40_0
	.long	.LBB40_42-.LJTI40_0
	.long	.LBB40_43-.LJTI40_0
	.long	.LBB40_44-.LJTI40_0
	.long	.LBB40_45-.LJTI40_0

	.section	.rodata.cst32,"aM",@progbits,32
	.p2align	5, 0x0
.LCPI41_0:
	.zero	32,1
	.section	.rodata.cst16,"aM",@progbits,16
	.p2align	4, 0x0
.LCPI41_1:
	.byte	1
	.byte	1
	.byte	1
	.byte	1
	.byte	1
	.byte	1
	.byte	1
	.byte	1
	.zero	1
	.zero	1
	.zero	1
	.zero	1
	.zero	1
	.zero	1
	.zero	1
	.zero	1
.LCPI41_2:
	.quad	281479271743489
	.quad	281479271743489
	.section	.rodata.cst4,"aM",@progbits,4
	.p2align	2, 0x0
.LCPI41_3:
	.zero	4,1
	.section	.text.signalfern_look_up_layered_page_to,"ax",@progbits
	.globl	signalfern_look_up_layered_page_to
	.p2align	4
	.type	signalfern_look_up_layered_page_to,@function
signalfern_look_up_layered_page_to:
	pushq	%rbp
	pushq	%r15
	pushq	%r14
	pushq	%r13
	pushq	%r12
	pushq	%rbx
	subq	$328, %rsp
	movq	%r9, %rbx
	movq	%rdx, %r14
	movq	400(%rsp), %r15
	movq	384(%rsp), %rbp
	movq	%rdi, 136(%rsp)
	testq	%rdi, %rdi
	sete	62(%rsp)
	xorl	%r11d, %r11d
	testq	%rdx, %rdx
	sete	%dil
	xorl	%r9d, %r9d
	movq	%r8, 64(%rsp)
	testq	%r8, %r8
	sete	%r12b
	xorl	%edx, %edx
	testq	%rbp, %rbp
	sete	80(%rsp)
	xorl	%eax, %eax
	testq	%r15, %r15
	sete	72(%rsp)
	xorl	%r8d, %r8d
	cmpq	$0, 416(%rsp)
	sete	88(%rsp)
	cmpq	$0, 432(%rsp)
	sete	63(%rsp)
	cmpq	392(%rsp), %rbx
	setbe	%r13b
	cmpq	408(%rsp), %rbx
	movq	%rcx, %r10
	movq	%rsi, 128(%rsp)
	setbe	%cl
	andb	%r13b, %cl
	cmpq	424(%rsp), %rbx
	setbe	%sil
	andb	%cl, %sil
	vpxor	%xmm0, %xmm0, %xmm0
	vmovdqa	%xmm0, 96(%rsp)
	movq	$0, 112(%rsp)
	vpxor	%xmm0, %xmm0, %xmm0
	vmovdqu	%ymm0, 240(%rsp)
	vmovdqu	%ymm0, 272(%rsp)
	vmovdqu	%ymm0, 296(%rsp)
	vmovdqu	%ymm0, 144(%rsp)
	vmovdqu	%ymm0, 176(%rsp)
	vmovdqu	%ymm0, 200(%rsp)
	cmpq	440(%rsp), %rbx
	setbe	%cl
	testb	%cl, %sil
	je	.LBB41_1
	movb	%dil, %r11b
	shll	$12, %r11d
	addq	%r11, %r14
	movb	%r12b, %r9b
	shll	$12, %r9d
	movq	64(%rsp), %r13
	addq	%r9, %r13
	movzbl	80(%rsp), %ecx
	movb	%cl, %dl
	shll	$12, %edx
	addq	%rdx, %rbp
	movzbl	72(%rsp), %ecx
	movb	%cl, %al
	shll	$12, %eax
	addq	%rax, %r15
	movq	%r15, 72(%rsp)
	movzbl	88(%rsp), %eax
	movb	%al, %r8b
	shll	$12, %r8d
	movq	%r8, 64(%rsp)
	movq	416(%rsp), %rax
	addq	%r8, %rax
	movq	%rax, 88(%rsp)
	leaq	240(%rsp), %r12
	movq	%r12, %rdi
	movq	%r14, %rsi
	movq	%r10, %r15
	movq	%r10, %rdx
	vzeroupper
	callq	"column::Column::open"
	movq	%r12, 8(%rsp)
	movq	88(%rsp), %r12
	movq	%r15, 120(%rsp)
	movq	%r15, (%rsp)
	movq	%rbp, 80(%rsp)
	movq	%rbp, %rdi
	movq	72(%rsp), %rsi
	movq	%r12, %rdx
	movq	%r13, %rcx
	movq	%rbx, %r8
	movq	%r14, %r9
	callq	"page::fill_by"
	testq	%rbx, %rbx
	je	.LBB41_22
	xorl	%ebp, %ebp
	movzbl	63(%rsp), %ecx
	movb	%cl, %bpl
	shll	$12, %ebp
	movq	432(%rsp), %r15
	leaq	(%r15,%rbp), %r9
	cmpq	$8, %rbx
	jae	.LBB41_5
	xorl	%edx, %edx
	xorl	%ecx, %ecx
	movq	416(%rsp), %r10
	movq	64(%rsp), %r11
	jmp	.LBB41_16
.LBB41_1:
	movl	$12, %ecx
.LBB41_43:
	movq	448(%rsp), %rax
	movq	%rcx, (%rax)
	movq	%rbx, 8(%rax)
	vpxor	%xmm0, %xmm0, %xmm0
	vmovdqu	%xmm0, 16(%rax)
	jmp	.LBB41_44
.LBB41_5:
	movq	%r9, %rcx
	subq	%r12, %rcx
	cmpq	$128, %rcx
	movq	416(%rsp), %r10
	movq	64(%rsp), %r11
	jae	.LBB41_7
	xorl	%edx, %edx
	xorl	%ecx, %ecx
	jmp	.LBB41_16
.LBB41_7:
	cmpq	$128, %rbx
	jae	.LBB41_9
	xorl	%ecx, %ecx
	xorl	%edx, %edx
	jmp	.LBB41_13
.LBB41_9:
	movq	%rbx, %rcx
	andq	$-128, %rcx
	leaq	(%r15,%rbp), %rdx
	addq	$96, %rdx
	leaq	(%r11,%r10), %rsi
	addq	$96, %rsi
	vpxor	%xmm0, %xmm0, %xmm0
	xorl	%edi, %edi
	vpxor	%xmm1, %xmm1, %xmm1
	vpxor	%xmm2, %xmm2, %xmm2
	vpxor	%xmm3, %xmm3, %xmm3
	.p2align	4
.LBB41_10:
	vpbroadcastd	.LCPI41_3(%rip), %ymm4
	vpcmpeqb	-96(%rsi,%rdi), %ymm4, %ymm5
	vpandn	%ymm4, %ymm5, %ymm6
	vpcmpeqb	-64(%rsi,%rdi), %ymm4, %ymm7
	vpandn	%ymm4, %ymm7, %ymm8
	vpcmpeqb	-32(%rsi,%rdi), %ymm4, %ymm9
	vpcmpeqb	(%rsi,%rdi), %ymm4, %ymm10
	vpandn	%ymm4, %ymm9, %ymm11
	vpandn	%ymm4, %ymm10, %ymm4
	vmovdqu	%ymm6, -96(%rdx,%rdi)
	vmovdqu	%ymm8, -64(%rdx,%rdi)
	vmovdqu	%ymm11, -32(%rdx,%rdi)
	vmovdqu	%ymm4, (%rdx,%rdi)
	vpor	%ymm5, %ymm0, %ymm0
	vpor	%ymm7, %ymm1, %ymm1
	vpor	%ymm2, %ymm9, %ymm2
	vpor	%ymm3, %ymm10, %ymm3
	subq	$-128, %rdi
	cmpq	%rdi, %rcx
	jne	.LBB41_10
	vpor	%ymm0, %ymm1, %ymm0
	vpor	%ymm0, %ymm2, %ymm0
	vpor	%ymm0, %ymm3, %ymm0
	vpsllw	$7, %ymm0, %ymm0
	vpmovmskb	%ymm0, %edx
	testl	%edx, %edx
	setne	%dl
	cmpq	%rcx, %rbx
	je	.LBB41_21
	testb	$120, %bl
	je	.LBB41_16
.LBB41_13:
	movq	%rcx, %rsi
	movq	%rbx, %rcx
	andq	$-8, %rcx
	movzbl	%dl, %edx
	vmovd	%edx, %xmm0
	.p2align	4
.LBB41_14:
	vmovq	(%r12,%rsi), %xmm1
	vpbroadcastd	.LCPI41_3(%rip), %xmm2
	vpcmpeqb	%xmm2, %xmm1, %xmm1
	vpandn	%xmm2, %xmm1, %xmm2
	vmovq	%xmm2, (%r9,%rsi)
	vpmovsxbw	%xmm1, %xmm1
	vpor	%xmm1, %xmm0, %xmm0
	addq	$8, %rsi
	cmpq	%rsi, %rcx
	jne	.LBB41_14
	vptest	.LCPI41_2(%rip), %xmm0
	setne	%dl
	cmpq	%rcx, %rbx
	je	.LBB41_21
.LBB41_16:
	movq	%rbx, %rdi
	movq	%rcx, %rsi
	andq	$3, %rdi
	je	.LBB41_18
	.p2align	4
.LBB41_17:
	cmpb	$1, (%r12,%rsi)
	setne	(%r9,%rsi)
	sete	%r8b
	orb	%r8b, %dl
	incq	%rsi
	decq	%rdi
	jne	.LBB41_17
.LBB41_18:
	subq	%rbx, %rcx
	cmpq	$-4, %rcx
	ja	.LBB41_21
	leaq	(%r15,%rbp), %r9
	addq	$3, %r9
	leaq	(%r11,%r10), %rcx
	addq	$3, %rcx
	.p2align	4
.LBB41_20:
	cmpb	$1, -3(%rcx,%rsi)
	setne	-3(%r9,%rsi)
	sete	%dil
	orb	%dl, %dil
	cmpb	$1, -2(%rcx,%rsi)
	setne	-2(%r9,%rsi)
	sete	%dl
	cmpb	$1, -1(%rcx,%rsi)
	setne	-1(%r9,%rsi)
	sete	%r8b
	orb	%dl, %r8b
	orb	%dil, %r8b
	cmpb	$1, (%rcx,%rsi)
	setne	(%r9,%rsi)
	sete	%dl
	orb	%r8b, %dl
	addq	$4, %rsi
	cmpq	%rsi, %rbx
	jne	.LBB41_20
.LBB41_21:
	testb	$1, %dl
	je	.LBB41_22
	xorl	%edx, %edx
	movzbl	62(%rsp), %ecx
	movb	%cl, %dl
	shll	$12, %edx
	movq	%r14, %rbp
	movq	136(%rsp), %r14
	addq	%rdx, %r14
	leaq	144(%rsp), %rdi
	movq	%r14, %rsi
	movq	128(%rsp), %r15
	movq	%r15, %rdx
	movq	%r13, 64(%rsp)
	movq	%rax, %r13
	vzeroupper
	callq	"column::Column::open"
	movq	%r13, 48(%rsp)
	leaq	240(%rsp), %rax
	movq	%rax, 40(%rsp)
	movq	120(%rsp), %rax
	movq	%rax, 32(%rsp)
	movq	%rbp, 24(%rsp)
	leaq	144(%rsp), %rax
	movq	%rax, 16(%rsp)
	movq	%r15, 8(%rsp)
	movq	%r14, (%rsp)
	leaq	96(%rsp), %rdi
	movq	80(%rsp), %rsi
	movq	72(%rsp), %rdx
	movq	%r12, %rcx
	movq	64(%rsp), %r8
	movq	%rbx, %r9
	callq	"layered_page::under::fill_under"
	movq	104(%rsp), %rcx
	movq	112(%rsp), %rax
	cmpb	$0, 96(%rsp)
	je	.LBB41_24
	movzbl	%cl, %ebx
	leaq	.LJTI41_0(%rip), %rdx
	movslq	(%rdx,%rbx,4), %rcx
	addq	%rdx, %rcx
	jmpq	*%rcx
.LBB41_26:
	movl	$1, %ecx
	jmp	.LBB41_43
.LBB41_22:
	xorl	%ecx, %ecx
.LBB41_24:
	movq	448(%rsp), %rdx
	movq	$0, (%rdx)
	movq	%rbx, 8(%rdx)
	movq	%rcx, 16(%rdx)
	movq	%rax, 24(%rdx)
.LBB41_44:
	addq	$328, %rsp
	popq	%rbx
	popq	%r12
	popq	%r13
	popq	%r14
	popq	%r15
	popq	%rbp
	vzeroupper
	retq
.LBB41_39:
	movl	$16, %ecx
	xorl	%ebx, %ebx
	jmp	.LBB41_43
.LBB41_36:
	movl	$13, %ecx
	xorl	%ebx, %ebx
	jmp	.LBB41_43
.LBB41_29:
	movl	$6, %ecx
	jmp	.LBB41_42
.LBB41_37:
	movl	$14, %ecx
	xorl	%ebx, %ebx
	jmp	.LBB41_43
.LBB41_34:
	movl	$11, %ecx
	xorl	%ebx, %ebx
	jmp	.LBB41_43
.LBB41_41:
	movl	$3, %ecx
	jmp	.LBB41_42
.LBB41_40:
	movl	$17, %ecx
	xorl	%ebx, %ebx
	jmp	.LBB41_43
.LBB41_28:
	movl	$4, %ecx
	jmp	.LBB41_42
.LBB41_32:
	movl	$9, %ecx
	xorl	%ebx, %ebx
	jmp	.LBB41_43
.LBB41_27:
	movl	$2, %ecx
	xorl	%ebx, %ebx
	jmp	.LBB41_43
.LBB41_30:
	movl	$7, %ecx
	jmp	.LBB41_42
.LBB41_38:
	movl	$15, %ecx
	xorl	%ebx, %ebx
	jmp	.LBB41_43
.LBB41_31:
	movl	$8, %ecx
	jmp	.LBB41_42
.LBB41_35:
	movl	$12, %ecx
.LBB41_42:
	movq	%rax, %rbx
	jmp	.LBB41_43
.LBB41_33:
	movl	$10, %ecx
	xorl	%ebx, %ebx
	jmp	.LBB41_43
.Lfunc_end41:
	.size	signalfern_look_up_layered_page_to, .Lfunc_end41-signalfern_look_up_layered_page_to
	.section	.rodata.signalfern_look_up_layered_page_to,"a",@progbits
	.p2align	2, 0x0
.LJTI41_0:
	.long	.LBB41_26-.LJTI41_0
	.long	.LBB41_27-.LJTI41_0
	.long	.LBB41_41-.LJTI41_0
	.long	.LBB41_28-.LJTI41_0
	.long	.LBB41_29-.LJTI41_0
	.long	.LBB41_30-.LJTI41_0
	.long	.LBB41_31-.LJTI41_0
	.long	.LBB41_32-.LJTI41_0
	.long	.LBB41_33-.LJTI41_0
	.long	.LBB41_34-.LJTI41_0
	.long	.LBB41_35-.LJTI41_0
	.long	.LBB41_36-.LJTI41_0
	.long	.LBB41_37-.LJTI41_0
	.long	.LBB41_38-.LJTI41_0
	.long	.LBB41_39-.LJTI41_0
	.long	.LBB41_40-.LJTI41_0

	.section	.text.signalfern_look_up_layered_to,"ax",@progbits
	.globl	signalfern_look_up_layered_to
	.p2align	4
	.type	signalfern_look_up_layered_to,@function
signalfern_look_up_layered_to:
	pushq	%rbp
	pushq	%r15
	pushq	%r14
	pushq	%rbx
	subq	$104, %rsp
	movq	%r9, %rbx
	movl	%r8d, %ebp
	movq	%rsi, %r14
	movq	%rdi, %r15
	xorl	%esi, %esi
	testq	%rdx, %rdx
	sete	%sil
	shll	$12, %esi
	addq	%rdx, %rsi
	vxorps	%xmm0, %xmm0, %xmm0
	vmovups	%ymm0, (%rsp)
	vmovups	%ymm0, 16(%rsp)
	movq	%rsp, %rdi
	movq	%rcx, %rdx
	movl	%r8d, %ecx
	vzeroupper
	callq	"signalfern_c::look_from"
	movq	(%rsp), %rax
	cmpq	$1, %rax
	jne	.LBB42_7
	xorl	%esi, %esi
	testq	%r15, %r15
	sete	%sil
	shll	$12, %esi
	addq	%r15, %rsi
	vxorps	%xmm0, %xmm0, %xmm0
	vmovups	%ymm0, 64(%rsp)
	vmovups	%ymm0, 48(%rsp)
	leaq	48(%rsp), %rdi
	movq	%r14, %rdx
	movl	%ebp, %ecx
	vzeroupper
	callq	"signalfern_c::look_from"
	movq	48(%rsp), %rcx
	xorl	%eax, %eax
	cmpq	$2, %rcx
	jae	.LBB42_2
	movq	80(%rsp), %rax
	movq	32(%rsp), %rdx
	movq	56(%rsp), %rsi
	vxorps	%xmm0, %xmm0, %xmm0
	jb	.LBB42_5
	jmp	.LBB42_6
.LBB42_7:
	movq	8(%rsp), %rcx
	movq	32(%rsp), %rdx
	movq	%rax, (%rbx)
	movq	%rcx, 8(%rbx)
	movq	$1, 16(%rbx)
	vmovaps	16(%rsp), %xmm0
	vmovups	%xmm0, 24(%rbx)
	movq	$0, 40(%rbx)
	jmp	.LBB42_8
.LBB42_2:
	movl	$0, %edx
	movq	56(%rsp), %rsi
	vxorps	%xmm0, %xmm0, %xmm0
	jae	.LBB42_6
.LBB42_5:
	vmovaps	64(%rsp), %xmm0
.LBB42_6:
	movq	%rcx, (%rbx)
	movq	%rsi, 8(%rbx)
	movq	$0, 16(%rbx)
	vmovups	%xmm0, 24(%rbx)
	movq	%rax, 40(%rbx)
.LBB42_8:
	movq	%rdx, 48(%rbx)
	addq	$104, %rsp
	popq	%rbx
	popq	%r14
	popq	%r15
	popq	%rbp
	retq
.Lfunc_end42:
	.size	signalfern_look_up_layered_to, .Lfunc_end42-signalfern_look_up_layered_to

	.section	.text.signalfern_look_up_page_to,"ax",@progbits
	.globl	signalfern_look_up_page_to
	.p2align	4
	.type	signalfern_look_up_page_to,@function
signalfern_look_up_page_to:
	pushq	%rbp
	pushq	%r15
	pushq	%r14
	pushq	%r13
	pushq	%r12
	pushq	%rbx
	subq	$136, %rsp
	movq	%rcx, %rbx
	movq	%rsi, 40(%rsp)
	movq	208(%rsp), %r14
	movq	192(%rsp), %r15
	xorl	%r10d, %r10d
	testq	%rdi, %rdi
	sete	%bpl
	xorl	%r12d, %r12d
	testq	%rdx, %rdx
	sete	%sil
	xorl	%r11d, %r11d
	testq	%r8, %r8
	sete	29(%rsp)
	xorl	%ecx, %ecx
	testq	%r15, %r15
	sete	30(%rsp)
	xorl	%eax, %eax
	testq	%r14, %r14
	sete	31(%rsp)
	cmpq	%rbx, %r9
	setb	%r9b
	movq	200(%rsp), %r13
	cmpq	%rbx, %r13
	setb	%r13b
	orb	%r9b, %r13b
	vxorps	%xmm0, %xmm0, %xmm0
	vmovups	%ymm0, 104(%rsp)
	movq	216(%rsp), %r9
	cmpq	%rbx, %r9
	vmovups	%ymm0, 80(%rsp)
	setb	%r9b
	orb	%r13b, %r9b
	vmovups	%ymm0, 48(%rsp)
	movq	224(%rsp), %r9
	je	.LBB43_1
	movq	$12, (%r9)
	movq	%rbx, 8(%r9)
	movq	$0, 16(%r9)
	jmp	.LBB43_6
.LBB43_1:
	testq	%rbx, %rbx
	je	.LBB43_2
	movb	%bpl, %r10b
	shll	$12, %r10d
	addq	%r10, %rdi
	movb	%sil, %r12b
	shll	$12, %r12d
	addq	%r12, %rdx
	movq	%rdx, 32(%rsp)
	movzbl	29(%rsp), %esi
	movb	%sil, %r11b
	shll	$12, %r11d
	addq	%r11, %r8
	movzbl	30(%rsp), %esi
	movb	%sil, %cl
	shll	$12, %ecx
	addq	%rcx, %r15
	movzbl	31(%rsp), %ecx
	movb	%cl, %al
	shll	$12, %eax
	addq	%rax, %r14
	leaq	48(%rsp), %rax
	movq	%rdi, %r13
	movq	%rax, %rdi
	movq	40(%rsp), %rbp
	movq	%r13, %rsi
	movq	%rbp, %rdx
	movq	%r8, %r12
	vzeroupper
	callq	"column::Column::open"
	leaq	48(%rsp), %rax
	movq	%rax, 8(%rsp)
	movq	%rbp, (%rsp)
	movq	%r12, %rdi
	movq	%r15, %rsi
	movq	%r14, %rdx
	movq	32(%rsp), %rcx
	movq	%rbx, %r8
	movq	%r13, %r9
	callq	"page::fill_by"
	movq	224(%rsp), %r9
	jmp	.LBB43_4
.LBB43_2:
	xorl	%eax, %eax
.LBB43_4:
	movq	$0, (%r9)
	movq	%rbx, 8(%r9)
	movq	%rax, 16(%r9)
.LBB43_6:
	addq	$136, %rsp
	popq	%rbx
	popq	%r12
	popq	%r13
	popq	%r14
	popq	%r15
	popq	%rbp
	vzeroupper
	retq
.Lfunc_end43:
	.size	signalfern_look_up_page_to, .Lfunc_end43-signalfern_look_up_page_to

	.section	.text.signalfern_look_up_to,"ax",@progbits
	.globl	signalfern_look_up_to
	.p2align	4
	.type	signalfern_look_up_to,@function
signalfern_look_up_to:
	movl	%edx, %eax
	movq	%rsi, %rdx
	xorl	%esi, %esi
	testq	%rdi, %rdi
	sete	%sil
	shll	$12, %esi
	addq	%rdi, %rsi
	movq	%rcx, %rdi
	movl	%eax, %ecx
	jmp	"signalfern_c::look_from"
.Lfunc_end44:
	.size	signalfern_look_up_to, .Lfunc_end44-signalfern_look_up_to

	.section	.text.signalfern_next_in_to,"ax",@progbits
	.globl	signalfern_next_in_to
	.p2align	4
	.type	signalfern_next_in_to,@function
signalfern_next_in_to:
	pushq	%rbp
	pushq	%r15
	pushq	%r14
	pushq	%r13
	pushq	%r12
	pushq	%rbx
	subq	$152, %rsp
	movq	%rcx, 16(%rsp)
	movq	%rsi, 24(%rsp)
	testq	%rdx, %rdx
	sete	7(%rsp)
	movq	16(%rdi), %r13
	decq	%r13
	cmpq	$3, %r13
	ja	.LBB45_1
	movq	56(%rdi), %r12
	jmp	.LBB45_3
.LBB45_1:
	movl	$65, %r12d
	xorl	%r13d, %r13d
.LBB45_3:
	movq	88(%rdi), %r14
	movq	80(%rdi), %r11
	movq	72(%rdi), %rbp
	movq	64(%rdi), %rcx
	movq	48(%rdi), %r10
	movq	40(%rdi), %r15
	movq	24(%rdi), %rax
	movq	32(%rdi), %rbx
	movq	%r13, 72(%rsp)
	movq	%rax, 80(%rsp)
	movq	%rbx, 88(%rsp)
	movq	%r15, 96(%rsp)
	movq	%r10, 104(%rsp)
	movq	%r12, 112(%rsp)
	movq	%rcx, 120(%rsp)
	movq	%rbp, 128(%rsp)
	movq	%r11, 136(%rsp)
	vxorps	%xmm0, %xmm0, %xmm0
	vmovups	%ymm0, 32(%rsp)
	movq	%r14, 144(%rsp)
	movq	$0, 64(%rsp)
	movb	$12, %dil
	cmpl	$2147352575, %r8d
	ja	.LBB45_15
	movl	%r8d, %esi
	movb	$14, %dil
	movq	%rsi, 8(%rsp)
	cmpq	%rsi, 24(%rsp)
	ja	.LBB45_15
	movb	$8, %dil
	cmpq	$2147352576, %rax
	jbe	.LBB45_6
.LBB45_15:
	xorl	%eax, %eax
	movl	$3, %ecx
	movzbl	%dil, %edx
	leaq	.LJTI45_0(%rip), %rsi
	movslq	(%rsi,%rdx,4), %rdx
	addq	%rsi, %rdx
	jmpq	*%rdx
.LBB45_45:
	movl	$1, %ecx
	jmp	.LBB45_46
.LBB45_6:
	testq	%rbx, %rbx
	setne	%sil
	addq	$-16, %rbx
	cmpq	$-9, %rbx
	setb	%bl
	cmpq	$32767, %r10
	ja	.LBB45_15
	andb	%bl, %sil
	jne	.LBB45_15
	cmpq	$64, %r12
	ja	.LBB45_15
	leaq	6(,%r10,8), %rsi
	cmpq	%rsi, %r15
	jb	.LBB45_15
	movq	%rax, %r10
	imulq	%r12, %r10
	addq	$7, %r10
	shrq	$3, %r10
	cmpb	$2, %r13b
	jae	.LBB45_11
	testq	%rbp, %rbp
	je	.LBB45_15
	notb	%r13b
	movabsq	$72340173107564823, %rax
	shrxq	%r12, %rax, %rax
	orb	%r13b, %al
	testb	$1, %al
	je	.LBB45_15
	cmpq	%r10, %r11
	movl	$0, %esi
	jne	.LBB45_15
.LBB45_23:
	movb	$9, %dil
	movq	16(%rsp), %rax
	subq	%r14, %rax
	jb	.LBB45_15
	subq	%r15, %rax
	setae	%cl
	cmpq	%r11, %rax
	sete	%al
	andb	%cl, %al
	cmpb	$1, %al
	jne	.LBB45_15
	movq	%r9, %rbx
	movzbl	7(%rsp), %eax
	movb	%al, %sil
	shll	$12, %esi
	addq	%rsi, %rdx
	leaq	32(%rsp), %rdi
	leaq	72(%rsp), %rcx
	movq	%rdx, %rsi
	movq	16(%rsp), %rdx
	vzeroupper
	callq	"next::steps_from"
	movzbl	40(%rsp), %edx
	movq	48(%rsp), %rax
	cmpb	$0, 32(%rsp)
	je	.LBB45_27
	movl	$3, %ecx
	movzbl	%dl, %edx
	leaq	.LJTI45_0(%rip), %rsi
	movslq	(%rsi,%rdx,4), %rdx
	addq	%rsi, %rdx
	movq	%rbx, %r9
	jmpq	*%rdx
.LBB45_31:
	movl	$2, %ecx
	jmp	.LBB45_46
.LBB45_43:
	movl	$16, %ecx
	jmp	.LBB45_46
.LBB45_40:
	movl	$13, %ecx
	jmp	.LBB45_46
.LBB45_33:
	movl	$6, %ecx
	jmp	.LBB45_47
.LBB45_41:
	movl	$14, %ecx
	jmp	.LBB45_46
.LBB45_38:
	movl	$11, %ecx
	jmp	.LBB45_46
.LBB45_44:
	movl	$17, %ecx
	jmp	.LBB45_46
.LBB45_32:
	movl	$4, %ecx
	jmp	.LBB45_47
.LBB45_36:
	movl	$9, %ecx
	jmp	.LBB45_46
.LBB45_34:
	movl	$7, %ecx
	jmp	.LBB45_47
.LBB45_42:
	movl	$15, %ecx
	jmp	.LBB45_46
.LBB45_35:
	movl	$8, %ecx
	jmp	.LBB45_47
.LBB45_39:
	movl	$12, %ecx
	jmp	.LBB45_47
.LBB45_37:
	movl	$10, %ecx
.LBB45_46:
	xorl	%eax, %eax
.LBB45_47:
	movq	%rcx, (%r9)
	movq	%rax, 8(%r9)
	vxorps	%xmm0, %xmm0, %xmm0
	vmovups	%xmm0, 16(%r9)
	movq	$0, 32(%r9)
	movq	24(%rsp), %rax
	movq	%rax, 40(%r9)
.LBB45_48:
	addq	$152, %rsp
	popq	%rbx
	popq	%r12
	popq	%r13
	popq	%r14
	popq	%r15
	popq	%rbp
	vzeroupper
	retq
.LBB45_11:
	movzbl	%r13b, %esi
	cmpl	$2, %esi
	jne	.LBB45_19
	testq	%r12, %r12
	jne	.LBB45_15
	testq	%rcx, %rcx
	setne	%cl
	testq	%rbp, %rbp
	sete	%sil
	orb	%cl, %sil
	jne	.LBB45_15
	addq	$16383, %rax
	shrq	$14, %rax
	leaq	(%rax,%rax,4), %rax
	leaq	(%rax,%rax,4), %rax
	cmpq	%r11, %rax
	movl	$0, %esi
	ja	.LBB45_15
	jmp	.LBB45_23
.LBB45_19:
	leaq	-257(%rbp), %rax
	cmpq	$-255, %rax
	movl	$0, %esi
	jb	.LBB45_15
	testq	%rcx, %rcx
	jne	.LBB45_15
	leaq	-1(%rbp), %rax
	lzcntq	%rax, %rax
	movl	$64, %ecx
	subq	%rax, %rcx
	cmpq	%rcx, %r12
	jne	.LBB45_15
	leaq	(%r10,%rbp,8), %rax
	cmpq	%rax, %r11
	jne	.LBB45_15
	jmp	.LBB45_23
.LBB45_27:
	cmpb	$1, %dl
	jne	.LBB45_29
	movl	56(%rsp), %ecx
	movq	64(%rsp), %rdx
	vxorps	%xmm0, %xmm0, %xmm0
	vmovups	%xmm0, (%rbx)
	movq	%rcx, 16(%rbx)
	movq	%rax, 24(%rbx)
	movq	%rdx, 32(%rbx)
	jmp	.LBB45_30
.LBB45_29:
	movq	$1, (%rbx)
	vxorps	%xmm0, %xmm0, %xmm0
	vmovups	%ymm0, 8(%rbx)
.LBB45_30:
	movq	8(%rsp), %rax
	movq	%rax, 40(%rbx)
	jmp	.LBB45_48
.Lfunc_end45:
	.size	signalfern_next_in_to, .Lfunc_end45-signalfern_next_in_to
	.section	.rodata.signalfern_next_in_to,"a",@progbits
	.p2align	2, 0x0
.LJTI45_0:
	.long	.LBB45_45-.LJTI45_0
	.long	.LBB45_31-.LJTI45_0
	.long	.LBB45_47-.LJTI45_0
	.long	.LBB45_32-.LJTI45_0
	.long	.LBB45_33-.LJTI45_0
	.long	.LBB45_34-.LJTI45_0
	.long	.LBB45_35-.LJTI45_0
	.long	.LBB45_36-.LJTI45_0
	.long	.LBB45_37-.LJTI45_0
	.long	.LBB45_38-.LJTI45_0
	.long	.LBB45_39-.LJTI45_0
	.long	.LBB45_40-.LJTI45_0
	.long	.LBB45_41-.LJTI45_0
	.long	.LBB45_42-.LJTI45_0
	.long	.LBB45_43-.LJTI45_0
	.long	.LBB45_44-.LJTI45_0

	.section	.text.signalfern_next_to,"ax",@progbits
	.globl	signalfern_next_to
	.p2align	4
	.type	signalfern_next_to,@function
signalfern_next_to:
	pushq	%rbp
	pushq	%r15
	pushq	%r14
	pushq	%r13
	pushq	%r12
	pushq	%rbx
	subq	$136, %rsp
	xorl	%eax, %eax
	testq	%rsi, %rsi
	vxorps	%xmm0, %xmm0, %xmm0
	vmovups	%ymm0, 48(%rsp)
	vmovups	%ymm0, 80(%rsp)
	vmovups	%ymm0, 104(%rsp)
	vmovups	%ymm0, (%rsp)
	sete	%r9b
	movq	$0, 32(%rsp)
	movb	$12, %r10b
	cmpl	$2147352575, %ecx
	ja	.LBB46_4
	movl	%ecx, %r12d
	movb	$14, %r10b
	cmpq	%r12, %rdi
	jbe	.LBB46_2
.LBB46_4:
	xorl	%eax, %eax
	movl	$3, %ecx
	movzbl	%r10b, %edx
	leaq	.LJTI46_0(%rip), %rsi
	movslq	(%rsi,%rdx,4), %rdx
	addq	%rsi, %rdx
	jmpq	*%rdx
.LBB46_24:
	movl	$1, %ecx
	jmp	.LBB46_25
.LBB46_2:
	movl	%ecx, %ebx
	movq	%rdi, %rbp
	movq	%r8, %r13
	movb	%r9b, %al
	shll	$12, %eax
	addq	%rax, %rsi
	leaq	48(%rsp), %rdi
	movq	%rsi, %r15
	movq	%rdx, %r14
	vzeroupper
	callq	"column::Column::open"
	cmpb	$1, 48(%rsp)
	jne	.LBB46_5
	movq	64(%rsp), %rax
	movl	$3, %ecx
	movzbl	56(%rsp), %edx
	leaq	.LJTI46_0(%rip), %rsi
	movslq	(%rsi,%rdx,4), %rdx
	addq	%rsi, %rdx
	movq	%r13, %r8
	movq	%rbp, %rdi
	jmpq	*%rdx
.LBB46_5:
	leaq	56(%rsp), %rcx
	movq	%rsp, %rdi
	movq	%r15, %rsi
	movq	%r14, %rdx
	movl	%ebx, %r8d
	callq	"next::steps_from"
	movzbl	8(%rsp), %edx
	movq	16(%rsp), %rax
	cmpb	$0, (%rsp)
	je	.LBB46_7
	movl	$3, %ecx
	movzbl	%dl, %edx
	leaq	.LJTI46_0(%rip), %rsi
	movslq	(%rsi,%rdx,4), %rdx
	addq	%rsi, %rdx
	movq	%r13, %r8
	movq	%rbp, %rdi
	jmpq	*%rdx
.LBB46_10:
	movl	$2, %ecx
	jmp	.LBB46_25
.LBB46_22:
	movl	$16, %ecx
	jmp	.LBB46_25
.LBB46_19:
	movl	$13, %ecx
	jmp	.LBB46_25
.LBB46_12:
	movl	$6, %ecx
	jmp	.LBB46_26
.LBB46_20:
	movl	$14, %ecx
	jmp	.LBB46_25
.LBB46_17:
	movl	$11, %ecx
	jmp	.LBB46_25
.LBB46_23:
	movl	$17, %ecx
	jmp	.LBB46_25
.LBB46_11:
	movl	$4, %ecx
	jmp	.LBB46_26
.LBB46_15:
	movl	$9, %ecx
	jmp	.LBB46_25
.LBB46_13:
	movl	$7, %ecx
	jmp	.LBB46_26
.LBB46_21:
	movl	$15, %ecx
	jmp	.LBB46_25
.LBB46_14:
	movl	$8, %ecx
	jmp	.LBB46_26
.LBB46_18:
	movl	$12, %ecx
	jmp	.LBB46_26
.LBB46_16:
	movl	$10, %ecx
.LBB46_25:
	xorl	%eax, %eax
.LBB46_26:
	movq	%rcx, (%r8)
	movq	%rax, 8(%r8)
	vxorps	%xmm0, %xmm0, %xmm0
	vmovups	%xmm0, 16(%r8)
	movq	$0, 32(%r8)
	movq	%rdi, 40(%r8)
.LBB46_27:
	addq	$136, %rsp
	popq	%rbx
	popq	%r12
	popq	%r13
	popq	%r14
	popq	%r15
	popq	%rbp
	vzeroupper
	retq
.LBB46_7:
	cmpb	$1, %dl
	jne	.LBB46_9
	movl	24(%rsp), %ecx
	movq	32(%rsp), %rdx
	vxorps	%xmm0, %xmm0, %xmm0
	vmovups	%xmm0, (%r13)
	movq	%rcx, 16(%r13)
	movq	%rax, 24(%r13)
	movq	%rdx, 32(%r13)
	movq	%r12, 40(%r13)
	jmp	.LBB46_27
.LBB46_9:
	movq	$1, (%r13)
	vxorps	%xmm0, %xmm0, %xmm0
	vmovups	%ymm0, 8(%r13)
	movq	%r12, 40(%r13)
	jmp	.LBB46_27
.Lfunc_end46:
	.size	signalfern_next_to, .Lfunc_end46-signalfern_next_to
	.section	.rodata.signalfern_next_to,"a",@progbits
	.p2align	2, 0x0
.LJTI46_0:
	.long	.LBB46_24-.LJTI46_0
	.long	.LBB46_10-.LJTI46_0
	.long	.LBB46_26-.LJTI46_0
	.long	.LBB46_11-.LJTI46_0
	.long	.LBB46_12-.LJTI46_0
	.long	.LBB46_13-.LJTI46_0
	.long	.LBB46_14-.LJTI46_0
	.long	.LBB46_15-.LJTI46_0
	.long	.LBB46_16-.LJTI46_0
	.long	.LBB46_17-.LJTI46_0
	.long	.LBB46_18-.LJTI46_0
	.long	.LBB46_19-.LJTI46_0
	.long	.LBB46_20-.LJTI46_0
	.long	.LBB46_21-.LJTI46_0
	.long	.LBB46_22-.LJTI46_0
	.long	.LBB46_23-.LJTI46_0

	.section	.text.signalfern_open_to,"ax",@progbits
	.globl	signalfern_open_to
	.p2align	4
	.type	signalfern_open_to,@function
signalfern_open_to:
	pushq	%rbx
	subq	$96, %rsp
	movq	%rdx, %rbx
	movq	%rsi, %rdx
	xorl	%esi, %esi
	testq	%rdi, %rdi
	sete	%sil
	shll	$12, %esi
	addq	%rdi, %rsi
	vxorps	%xmm0, %xmm0, %xmm0
	vmovups	%ymm0, 56(%rsp)
	vmovups	%ymm0, 32(%rsp)
	vmovups	%ymm0, (%rsp)
	movq	%rsp, %rdi
	vzeroupper
	callq	"column::Column::open"
	movzbl	8(%rsp), %edx
	movq	16(%rsp), %rax
	cmpb	$0, (%rsp)
	je	.LBB47_3
	leaq	.LJTI47_0(%rip), %rcx
	movslq	(%rcx,%rdx,4), %rsi
	addq	%rcx, %rsi
	jmpq	*%rsi
.LBB47_2:
	movl	$1, %ecx
	movq	%rdx, %rax
	jmp	.LBB47_20
.LBB47_3:
	incq	%rdx
	vxorps	%xmm0, %xmm0, %xmm0
	vmovups	%xmm0, (%rbx)
	movq	%rdx, 16(%rbx)
	movq	%rax, 24(%rbx)
	vmovups	24(%rsp), %ymm0
	vmovups	%ymm0, 32(%rbx)
	vmovups	56(%rsp), %ymm0
	vmovups	%ymm0, 64(%rbx)
	addq	$96, %rsp
	popq	%rbx
	vzeroupper
	retq
.LBB47_4:
	movl	$16, %ecx
	jmp	.LBB47_19
.LBB47_5:
	movl	$13, %ecx
	jmp	.LBB47_19
.LBB47_6:
	movl	$6, %ecx
	jmp	.LBB47_20
.LBB47_7:
	movl	$14, %ecx
	jmp	.LBB47_19
.LBB47_8:
	movl	$11, %ecx
	jmp	.LBB47_19
.LBB47_9:
	movl	$3, %ecx
	jmp	.LBB47_20
.LBB47_10:
	movl	$17, %ecx
	jmp	.LBB47_19
.LBB47_11:
	movl	$4, %ecx
	jmp	.LBB47_20
.LBB47_12:
	movl	$9, %ecx
	jmp	.LBB47_19
.LBB47_13:
	movl	$2, %ecx
	jmp	.LBB47_19
.LBB47_14:
	movl	$7, %ecx
	jmp	.LBB47_20
.LBB47_15:
	movl	$15, %ecx
	jmp	.LBB47_19
.LBB47_16:
	movl	$8, %ecx
	jmp	.LBB47_20
.LBB47_17:
	movl	$12, %ecx
	jmp	.LBB47_20
.LBB47_18:
	movl	$10, %ecx
.LBB47_19:
	xorl	%eax, %eax
.LBB47_20:
	movq	%rcx, (%rbx)
	movq	%rax, 8(%rbx)
	vxorps	%xmm0, %xmm0, %xmm0
	vmovups	%ymm0, 16(%rbx)
	vmovups	%ymm0, 48(%rbx)
	vmovups	%ymm0, 64(%rbx)
	addq	$96, %rsp
	popq	%rbx
	vzeroupper
	retq
.Lfunc_end47:
	.size	signalfern_open_to, .Lfunc_end47-signalfern_open_to
	.section	.rodata.signalfern_open_to,"a",@progbits
	.p2align	2, 0x0
.LJTI47_0:
	.long	.LBB47_2-.LJTI47_0
	.long	.LBB47_13-.LJTI47_0
	.long	.LBB47_9-.LJTI47_0
	.long	.LBB47_11-.LJTI47_0
	.long	.LBB47_6-.LJTI47_0
	.long	.LBB47_14-.LJTI47_0
	.long	.LBB47_16-.LJTI47_0
	.long	.LBB47_12-.LJTI47_0
	.long	.LBB47_18-.LJTI47_0
	.long	.LBB47_8-.LJTI47_0
	.long	.LBB47_17-.LJTI47_0
	.long	.LBB47_5-.LJTI47_0
	.long	.LBB47_7-.LJTI47_0
	.long	.LBB47_15-.LJTI47_0
	.long	.LBB47_4-.LJTI47_0
	.long	.LBB47_10-.LJTI47_0

	.section	.text.signalfern_pair_at_in_to,"ax",@progbits
	.globl	signalfern_pair_at_in_to
	.p2align	4
	.type	signalfern_pair_at_in_to,@function
signalfern_pair_at_in_to:
	pushq	%rbp
	pushq	%r15
	pushq	%r14
	pushq	%r13
	pushq	%r12
	pushq	%rbx
	subq	$136, %rsp
	movq	%rcx, 8(%rsp)
	testq	%rsi, %rsi
	sete	%r9b
	movq	16(%rdi), %r15
	decq	%r15
	cmpq	$3, %r15
	ja	.LBB48_1
	movq	56(%rdi), %r14
	jmp	.LBB48_3
.LBB48_1:
	movl	$65, %r14d
	xorl	%r15d, %r15d
.LBB48_3:
	movq	88(%rdi), %r11
	movq	80(%rdi), %r10
	movq	72(%rdi), %r12
	movq	64(%rdi), %rbp
	movq	48(%rdi), %rax
	movq	40(%rdi), %rbx
	movq	24(%rdi), %r13
	movq	32(%rdi), %rcx
	movq	%r15, 56(%rsp)
	movq	%r13, 64(%rsp)
	movq	%rcx, 72(%rsp)
	movq	%rbx, 80(%rsp)
	movq	%rax, 88(%rsp)
	movq	%r14, 96(%rsp)
	movq	%rbp, 104(%rsp)
	movq	%r12, 112(%rsp)
	movq	%r10, 120(%rsp)
	vxorps	%xmm0, %xmm0, %xmm0
	vmovups	%ymm0, 16(%rsp)
	movq	%r11, 128(%rsp)
	movq	$0, 48(%rsp)
	movb	$8, %dil
	cmpq	$2147352576, %r13
	jbe	.LBB48_4
.LBB48_23:
	xorl	%edx, %edx
	movzbl	%dil, %ecx
	movl	$1, %eax
	leaq	.LJTI48_0(%rip), %rsi
	movslq	(%rsi,%rcx,4), %rdi
	addq	%rsi, %rdi
	jmpq	*%rdi
.LBB48_30:
	movl	$2, %eax
	xorl	%ecx, %ecx
	jmp	.LBB48_46
.LBB48_4:
	movb	%r9b, 7(%rsp)
	movq	%rdx, %r9
	testq	%rcx, %rcx
	setne	%dl
	addq	$-16, %rcx
	cmpq	$-9, %rcx
	setb	%cl
	cmpq	$32767, %rax
	ja	.LBB48_23
	andb	%cl, %dl
	jne	.LBB48_23
	cmpq	$64, %r14
	ja	.LBB48_23
	leaq	6(,%rax,8), %rax
	cmpq	%rax, %rbx
	jb	.LBB48_23
	movq	%r13, %rax
	imulq	%r14, %rax
	addq	$7, %rax
	shrq	$3, %rax
	cmpb	$2, %r15b
	jae	.LBB48_9
	testq	%r12, %r12
	je	.LBB48_23
	notb	%r15b
	movabsq	$72340173107564823, %rcx
	shrxq	%r14, %rcx, %rcx
	orb	%r15b, %cl
	testb	$1, %cl
	je	.LBB48_23
	movq	%r9, %rdx
	cmpq	%rax, %r10
	movl	$0, %r9d
	je	.LBB48_21
	jmp	.LBB48_23
.LBB48_9:
	movzbl	%r15b, %ecx
	cmpl	$2, %ecx
	jne	.LBB48_16
	testq	%r14, %r14
	jne	.LBB48_23
	testq	%rbp, %rbp
	setne	%al
	testq	%r12, %r12
	sete	%cl
	orb	%al, %cl
	jne	.LBB48_23
	movq	%r9, %rdx
	addq	$16383, %r13
	shrq	$14, %r13
	leaq	(,%r13,4), %rax
	addq	%r13, %rax
	leaq	(%rax,%rax,4), %rax
	cmpq	%r10, %rax
	movl	$0, %r9d
	ja	.LBB48_23
	jmp	.LBB48_21
.LBB48_16:
	leaq	-257(%r12), %rcx
	cmpq	$-255, %rcx
	jb	.LBB48_23
	testq	%rbp, %rbp
	jne	.LBB48_23
	leaq	-1(%r12), %rcx
	lzcntq	%rcx, %rcx
	movl	$64, %edx
	subq	%rcx, %rdx
	cmpq	%rdx, %r14
	jne	.LBB48_23
	leaq	(%rax,%r12,8), %rax
	cmpq	%rax, %r10
	movq	%r9, %rdx
	movl	$0, %r9d
	jne	.LBB48_23
.LBB48_21:
	movb	$9, %dil
	movq	%rdx, %rax
	subq	%r11, %rax
	jb	.LBB48_23
	subq	%rbx, %rax
	setae	%cl
	cmpq	%r10, %rax
	sete	%al
	testb	%al, %cl
	je	.LBB48_23
	movq	%r8, %rbx
	movzbl	7(%rsp), %eax
	movb	%al, %r9b
	shll	$12, %r9d
	addq	%r9, %rsi
	leaq	16(%rsp), %rdi
	leaq	56(%rsp), %rcx
	movq	8(%rsp), %r8
	vzeroupper
	callq	"pair_at::steps_at"
	movzbl	24(%rsp), %eax
	movq	32(%rsp), %rdx
	cmpb	$0, 16(%rsp)
	je	.LBB48_25
	movzbl	%al, %ecx
	movl	$1, %eax
	leaq	.LJTI48_0(%rip), %rsi
	movslq	(%rsi,%rcx,4), %rdi
	addq	%rsi, %rdi
	movq	%rbx, %r8
	jmpq	*%rdi
.LBB48_44:
	movl	$3, %eax
	jmp	.LBB48_45
.LBB48_42:
	movl	$16, %eax
	xorl	%ecx, %ecx
	jmp	.LBB48_46
.LBB48_39:
	movl	$13, %eax
	xorl	%ecx, %ecx
	jmp	.LBB48_46
.LBB48_32:
	movl	$6, %eax
	jmp	.LBB48_45
.LBB48_40:
	movl	$14, %eax
	xorl	%ecx, %ecx
	jmp	.LBB48_46
.LBB48_37:
	movl	$11, %eax
	xorl	%ecx, %ecx
	jmp	.LBB48_46
.LBB48_43:
	movl	$17, %eax
	xorl	%ecx, %ecx
	jmp	.LBB48_46
.LBB48_31:
	movl	$4, %eax
	jmp	.LBB48_45
.LBB48_35:
	movl	$9, %eax
	xorl	%ecx, %ecx
	jmp	.LBB48_46
.LBB48_33:
	movl	$7, %eax
	jmp	.LBB48_45
.LBB48_41:
	movl	$15, %eax
	xorl	%ecx, %ecx
	jmp	.LBB48_46
.LBB48_34:
	movl	$8, %eax
	jmp	.LBB48_45
.LBB48_38:
	movl	$12, %eax
.LBB48_45:
	movq	%rdx, %rcx
.LBB48_46:
	movq	%rax, (%r8)
	movq	%rcx, 8(%r8)
	vxorps	%xmm0, %xmm0, %xmm0
	vmovups	%xmm0, 16(%r8)
	movq	$0, 32(%r8)
.LBB48_28:
	addq	$136, %rsp
	popq	%rbx
	popq	%r12
	popq	%r13
	popq	%r14
	popq	%r15
	popq	%rbp
	vzeroupper
	retq
.LBB48_36:
	movl	$10, %eax
	xorl	%ecx, %ecx
	jmp	.LBB48_46
.LBB48_25:
	cmpb	$1, %al
	jne	.LBB48_27
	movl	40(%rsp), %eax
	movq	48(%rsp), %rcx
	vxorps	%xmm0, %xmm0, %xmm0
	vmovups	%xmm0, (%rbx)
	movq	%rax, 16(%rbx)
	movq	%rdx, 24(%rbx)
	movq	%rcx, 32(%rbx)
	jmp	.LBB48_28
.LBB48_27:
	movq	$1, (%rbx)
	vxorps	%xmm0, %xmm0, %xmm0
	vmovups	%ymm0, 8(%rbx)
	jmp	.LBB48_28
.Lfunc_end48:
	.size	signalfern_pair_at_in_to, .Lfunc_end48-signalfern_pair_at_in_to
	.section	.rodata.signalfern_pair_at_in_to,"a",@progbits
	.p2align	2, 0x0
.LJTI48_0:
	.long	.LBB48_46-.LJTI48_0
	.long	.LBB48_30-.LJTI48_0
	.long	.LBB48_44-.LJTI48_0
	.long	.LBB48_31-.LJTI48_0
	.long	.LBB48_32-.LJTI48_0
	.long	.LBB48_33-.LJTI48_0
	.long	.LBB48_34-.LJTI48_0
	.long	.LBB48_35-.LJTI48_0
	.long	.LBB48_36-.LJTI48_0
	.long	.LBB48_37-.LJTI48_0
	.long	.LBB48_38-.LJTI48_0
	.long	.LBB48_39-.LJTI48_0
	.long	.LBB48_40-.LJTI48_0
	.long	.LBB48_41-.LJTI48_0
	.long	.LBB48_42-.LJTI48_0
	.long	.LBB48_43-.LJTI48_0

	.section	.text.signalfern_pair_at_to,"ax",@progbits
	.globl	signalfern_pair_at_to
	.p2align	4
	.type	signalfern_pair_at_to,@function
signalfern_pair_at_to:
	pushq	%r15
	pushq	%r14
	pushq	%r12
	pushq	%rbx
	subq	$216, %rsp
	movq	%rcx, %rbx
	movq	%rdx, %r14
	movq	%rsi, %r15
	xorl	%r12d, %r12d
	testq	%rdi, %rdi
	sete	%r12b
	shll	$12, %r12d
	vxorps	%xmm0, %xmm0, %xmm0
	vmovups	%ymm0, (%rsp)
	addq	%rdi, %r12
	movq	$0, 32(%rsp)
	vmovups	%ymm0, 48(%rsp)
	vmovups	%ymm0, 80(%rsp)
	vmovups	%ymm0, 104(%rsp)
	leaq	48(%rsp), %rdi
	movq	%r12, %rsi
	movq	%r15, %rdx
	vzeroupper
	callq	"column::Column::open"
	movq	56(%rsp), %rax
	movq	64(%rsp), %rdx
	cmpb	$0, 48(%rsp)
	je	.LBB49_2
	movzbl	%al, %ecx
	movl	$1, %eax
	leaq	.LJTI49_0(%rip), %rsi
	movslq	(%rsi,%rcx,4), %rdi
	addq	%rsi, %rdi
	jmpq	*%rdi
.LBB49_2:
	movq	%rax, 136(%rsp)
	movq	%rdx, 144(%rsp)
	vmovups	72(%rsp), %ymm0
	vmovups	104(%rsp), %ymm1
	vmovups	%ymm0, 152(%rsp)
	vmovups	%ymm1, 184(%rsp)
	movq	%rsp, %rdi
	leaq	136(%rsp), %rcx
	movq	%r12, %rsi
	movq	%r15, %rdx
	movq	%r14, %r8
	vzeroupper
	callq	"pair_at::steps_at"
	movzbl	8(%rsp), %eax
	movq	16(%rsp), %rdx
	cmpb	$0, (%rsp)
	je	.LBB49_3
	movzbl	%al, %ecx
	movl	$1, %eax
	leaq	.LJTI49_0(%rip), %rsi
	movslq	(%rsi,%rcx,4), %rdi
	addq	%rsi, %rdi
	jmpq	*%rdi
.LBB49_8:
	movl	$2, %eax
	xorl	%ecx, %ecx
	jmp	.LBB49_24
.LBB49_3:
	cmpb	$1, %al
	jne	.LBB49_5
	movl	24(%rsp), %eax
	movq	32(%rsp), %rcx
	vxorps	%xmm0, %xmm0, %xmm0
	vmovups	%xmm0, (%rbx)
	movq	%rax, 16(%rbx)
	movq	%rdx, 24(%rbx)
	movq	%rcx, 32(%rbx)
	jmp	.LBB49_6
.LBB49_5:
	movq	$1, (%rbx)
	vxorps	%xmm0, %xmm0, %xmm0
	vmovups	%ymm0, 8(%rbx)
	jmp	.LBB49_6
.LBB49_20:
	movl	$16, %eax
	xorl	%ecx, %ecx
	jmp	.LBB49_24
.LBB49_17:
	movl	$13, %eax
	xorl	%ecx, %ecx
	jmp	.LBB49_24
.LBB49_10:
	movl	$6, %eax
	jmp	.LBB49_23
.LBB49_18:
	movl	$14, %eax
	xorl	%ecx, %ecx
	jmp	.LBB49_24
.LBB49_15:
	movl	$11, %eax
	xorl	%ecx, %ecx
	jmp	.LBB49_24
.LBB49_22:
	movl	$3, %eax
	jmp	.LBB49_23
.LBB49_21:
	movl	$17, %eax
	xorl	%ecx, %ecx
	jmp	.LBB49_24
.LBB49_9:
	movl	$4, %eax
	jmp	.LBB49_23
.LBB49_13:
	movl	$9, %eax
	xorl	%ecx, %ecx
	jmp	.LBB49_24
.LBB49_11:
	movl	$7, %eax
	jmp	.LBB49_23
.LBB49_19:
	movl	$15, %eax
	xorl	%ecx, %ecx
	jmp	.LBB49_24
.LBB49_12:
	movl	$8, %eax
	jmp	.LBB49_23
.LBB49_16:
	movl	$12, %eax
.LBB49_23:
	movq	%rdx, %rcx
.LBB49_24:
	movq	%rax, (%rbx)
	movq	%rcx, 8(%rbx)
	vxorps	%xmm0, %xmm0, %xmm0
	vmovups	%xmm0, 16(%rbx)
	movq	$0, 32(%rbx)
.LBB49_6:
	addq	$216, %rsp
	popq	%rbx
	popq	%r12
	popq	%r14
	popq	%r15
	vzeroupper
	retq
.LBB49_14:
	movl	$10, %eax
	xorl	%ecx, %ecx
	jmp	.LBB49_24
.Lfunc_end49:
	.size	signalfern_pair_at_to, .Lfunc_end49-signalfern_pair_at_to
	.section	.rodata.signalfern_pair_at_to,"a",@progbits
	.p2align	2, 0x0
.LJTI49_0:
	.long	.LBB49_24-.LJTI49_0
	.long	.LBB49_8-.LJTI49_0
	.long	.LBB49_22-.LJTI49_0
	.long	.LBB49_9-.LJTI49_0
	.long	.LBB49_10-.LJTI49_0
	.long	.LBB49_11-.LJTI49_0
	.long	.LBB49_12-.LJTI49_0
	.long	.LBB49_13-.LJTI49_0
	.long	.LBB49_14-.LJTI49_0
	.long	.LBB49_15-.LJTI49_0
	.long	.LBB49_16-.LJTI49_0
	.long	.LBB49_17-.LJTI49_0
	.long	.LBB49_18-.LJTI49_0
	.long	.LBB49_19-.LJTI49_0
	.long	.LBB49_20-.LJTI49_0
	.long	.LBB49_21-.LJTI49_0

	.section	.text.signalfern_plan_to,"ax",@progbits
	.globl	signalfern_plan_to
	.p2align	4
	.type	signalfern_plan_to,@function
signalfern_plan_to:
	pushq	%rbx
	movq	%r8, %rbx
	cmpq	$256, %rcx
	jae	.LBB50_1
	movq	$12, (%rbx)
	movq	$256, 8(%rbx)
	popq	%rbx
	retq
.LBB50_1:
	movq	%rsi, %rax
	xorl	%ecx, %ecx
	testq	%rdx, %rdx
	sete	%cl
	shll	$12, %ecx
	addq	%rdx, %rcx
	xorl	%esi, %esi
	testq	%rdi, %rdi
	sete	%sil
	shll	$12, %esi
	addq	%rdi, %rsi
	movq	%rcx, %rdi
	movq	%rax, %rdx
	callq	"plans::plan"
	movq	$0, (%rbx)
	movq	%rax, 8(%rbx)
	popq	%rbx
	retq
.Lfunc_end50:
	.size	signalfern_plan_to, .Lfunc_end50-signalfern_plan_to

	.section	.text.signalfern_read_from_in_to,"ax",@progbits
	.globl	signalfern_read_from_in_to
	.p2align	4
	.type	signalfern_read_from_in_to,@function
signalfern_read_from_in_to:
	pushq	%rbp
	pushq	%r15
	pushq	%r14
	pushq	%r13
	pushq	%r12
	pushq	%rbx
	subq	$200, %rsp
	movq	%r9, 112(%rsp)
	movq	%rdx, 72(%rsp)
	movq	256(%rsp), %rax
	testq	%rsi, %rsi
	sete	%r10b
	testq	%r8, %r8
	sete	%r11b
	testq	%rax, %rax
	sete	%r13b
	movq	16(%rdi), %r12
	decq	%r12
	cmpq	$3, %r12
	ja	.LBB51_2
	movq	56(%rdi), %r14
	movq	272(%rsp), %rbx
	cmpl	$2147352575, %ecx
	jbe	.LBB51_3
	jmp	.LBB51_26
.LBB51_2:
	movl	$65, %r14d
	xorl	%r12d, %r12d
	movq	272(%rsp), %rbx
	cmpl	$2147352575, %ecx
	ja	.LBB51_26
.LBB51_3:
	movq	24(%rdi), %r9
	cmpq	$2147352576, %r9
	jbe	.LBB51_5
.LBB51_4:
	movl	$10, %ecx
	jmp	.LBB51_27
.LBB51_5:
	movl	%r10d, %ebx
	movl	%r11d, %r10d
	movq	48(%rdi), %rbp
	movq	32(%rdi), %r11
	testq	%r11, %r11
	setne	%dl
	movq	%r11, 104(%rsp)
	addq	$-16, %r11
	cmpq	$-9, %r11
	setb	%r11b
	movq	%rbp, 64(%rsp)
	xorl	%r15d, %r15d
	cmpq	$32767, %rbp
	movl	%r13d, %ebp
	movl	%r10d, %r13d
	movl	%ebx, %r10d
	movq	272(%rsp), %rbx
	ja	.LBB51_4
	andb	%r11b, %dl
	jne	.LBB51_4
	cmpq	$64, %r14
	ja	.LBB51_4
	movq	40(%rdi), %r11
	movq	64(%rsp), %rdx
	leaq	6(,%rdx,8), %rdx
	movq	%r11, 56(%rsp)
	cmpq	%rdx, %r11
	jb	.LBB51_4
	movq	88(%rdi), %rdx
	movq	%rdx, 48(%rsp)
	movq	80(%rdi), %rdx
	movq	%rdx, 24(%rsp)
	movq	72(%rdi), %r11
	movq	64(%rdi), %rdx
	movq	%rdx, 40(%rsp)
	movq	%r9, %rdx
	imulq	%r14, %rdx
	addq	$7, %rdx
	shrq	$3, %rdx
	cmpb	$2, %r12b
	movq	%r11, 32(%rsp)
	jae	.LBB51_12
	testq	%r11, %r11
	je	.LBB51_4
	movl	%r12d, %r11d
	notb	%r11b
	movabsq	$72340173107564823, %rdi
	shrxq	%r14, %rdi, %rdi
	orb	%r11b, %dil
	testb	$1, %dil
	jne	.LBB51_20
	jmp	.LBB51_4
.LBB51_12:
	movzbl	%r12b, %r11d
	cmpl	$2, %r11d
	jne	.LBB51_16
	testq	%r14, %r14
	jne	.LBB51_4
	cmpq	$0, 40(%rsp)
	setne	%dl
	cmpq	$0, 32(%rsp)
	sete	%r11b
	orb	%dl, %r11b
	jne	.LBB51_4
	leaq	16383(%r9), %rdx
	shrq	$14, %rdx
	leaq	(%rdx,%rdx,4), %rdx
	leaq	(%rdx,%rdx,4), %rdx
	cmpq	24(%rsp), %rdx
	ja	.LBB51_4
	jmp	.LBB51_21
.LBB51_16:
	movq	32(%rsp), %rdi
	leaq	-257(%rdi), %r11
	cmpq	$-255, %r11
	jb	.LBB51_4
	cmpq	$0, 40(%rsp)
	jne	.LBB51_4
	movq	32(%rsp), %rdi
	leaq	-1(%rdi), %r11
	xorl	%edi, %edi
	lzcntq	%r11, %rdi
	movl	$64, %r11d
	subq	%rdi, %r11
	cmpq	%r11, %r14
	jne	.LBB51_4
	movq	32(%rsp), %rdi
	leaq	(%rdx,%rdi,8), %rdx
.LBB51_20:
	cmpq	%rdx, 24(%rsp)
	jne	.LBB51_4
.LBB51_21:
	movq	72(%rsp), %rdx
	subq	48(%rsp), %rdx
	jb	.LBB51_30
	subq	56(%rsp), %rdx
	setae	%dil
	cmpq	24(%rsp), %rdx
	sete	%dl
	andb	%dil, %dl
	cmpb	$1, %dl
	jne	.LBB51_30
	movb	%r10b, %r15b
	shll	$12, %r15d
	addq	%r15, %rsi
	xorl	%edx, %edx
	movb	%r13b, %dl
	shll	$12, %edx
	addq	%rdx, %r8
	xorl	%edx, %edx
	movb	%bpl, %dl
	shll	$12, %edx
	addq	%rdx, %rax
	movb	%r12b, 120(%rsp)
	movb	$0, 127(%rsp)
	movw	$0, 125(%rsp)
	movl	$0, 121(%rsp)
	movq	%r9, 128(%rsp)
	movq	104(%rsp), %rdx
	movq	%rdx, 136(%rsp)
	movq	56(%rsp), %rdx
	movq	%rdx, 144(%rsp)
	movq	64(%rsp), %rdx
	movq	%rdx, 152(%rsp)
	movq	%r14, 160(%rsp)
	movq	40(%rsp), %rdx
	movq	%rdx, 168(%rsp)
	movq	32(%rsp), %rdx
	movq	%rdx, 176(%rsp)
	movq	24(%rsp), %rdx
	movq	%rdx, 184(%rsp)
	movq	48(%rsp), %rdx
	movq	%rdx, 192(%rsp)
	movq	264(%rsp), %rdx
	movq	112(%rsp), %rdi
	cmpq	%rdi, %rdx
	cmovbq	%rdx, %rdi
	vxorps	%xmm0, %xmm0, %xmm0
	vmovaps	%xmm0, 80(%rsp)
	movq	$0, 96(%rsp)
	movl	%ecx, 8(%rsp)
	movq	%rdi, (%rsp)
	leaq	80(%rsp), %rdi
	leaq	120(%rsp), %r9
	movq	%rsi, %rcx
	movq	%r8, %rsi
	movq	%rax, %rdx
	movq	72(%rsp), %r8
	callq	"read_from::read_up_to"
	movzbl	88(%rsp), %edx
	movq	96(%rsp), %rax
	cmpb	$0, 80(%rsp)
	je	.LBB51_31
	movl	%edx, %ecx
	leaq	.LJTI51_0(%rip), %rsi
	movslq	(%rsi,%rcx,4), %rcx
	addq	%rsi, %rcx
	jmpq	*%rcx
.LBB51_25:
	movl	$1, %ecx
	movq	%rdx, %rax
	jmp	.LBB51_28
.LBB51_26:
	movl	$14, %ecx
.LBB51_27:
	xorl	%eax, %eax
.LBB51_28:
	movq	%rcx, (%rbx)
	movq	%rax, 8(%rbx)
	movq	$0, 16(%rbx)
.LBB51_29:
	addq	$200, %rsp
	popq	%rbx
	popq	%r12
	popq	%r13
	popq	%r14
	popq	%r15
	popq	%rbp
	retq
.LBB51_30:
	movl	$11, %ecx
	jmp	.LBB51_27
.LBB51_31:
	testl	%edx, %edx
	je	.LBB51_33
	movq	$1, (%rbx)
	movq	$0, 8(%rbx)
	movq	%rax, 16(%rbx)
	jmp	.LBB51_29
.LBB51_33:
	vxorps	%xmm0, %xmm0, %xmm0
	vmovups	%xmm0, (%rbx)
	movq	%rax, 16(%rbx)
	jmp	.LBB51_29
.LBB51_34:
	movl	$16, %ecx
	jmp	.LBB51_27
.LBB51_35:
	movl	$13, %ecx
	jmp	.LBB51_27
.LBB51_36:
	movl	$3, %ecx
	jmp	.LBB51_28
.LBB51_37:
	movl	$9, %ecx
	jmp	.LBB51_27
.LBB51_38:
	movl	$17, %ecx
	jmp	.LBB51_27
.LBB51_39:
	movl	$2, %ecx
	jmp	.LBB51_27
.LBB51_40:
	movl	$7, %ecx
	jmp	.LBB51_28
.LBB51_41:
	movl	$4, %ecx
	jmp	.LBB51_28
.LBB51_42:
	movl	$15, %ecx
	jmp	.LBB51_27
.LBB51_43:
	movl	$6, %ecx
	jmp	.LBB51_28
.LBB51_44:
	movl	$12, %ecx
	jmp	.LBB51_28
.LBB51_45:
	movl	$8, %ecx
	jmp	.LBB51_28
.Lfunc_end51:
	.size	signalfern_read_from_in_to, .Lfunc_end51-signalfern_read_from_in_to
	.section	.rodata.signalfern_read_from_in_to,"a",@progbits
	.p2align	2, 0x0
.LJTI51_0:
	.long	.LBB51_25-.LJTI51_0
	.long	.LBB51_39-.LJTI51_0
	.long	.LBB51_36-.LJTI51_0
	.long	.LBB51_41-.LJTI51_0
	.long	.LBB51_43-.LJTI51_0
	.long	.LBB51_40-.LJTI51_0
	.long	.LBB51_45-.LJTI51_0
	.long	.LBB51_37-.LJTI51_0
	.long	.LBB51_4-.LJTI51_0
	.long	.LBB51_30-.LJTI51_0
	.long	.LBB51_44-.LJTI51_0
	.long	.LBB51_35-.LJTI51_0
	.long	.LBB51_26-.LJTI51_0
	.long	.LBB51_42-.LJTI51_0
	.long	.LBB51_34-.LJTI51_0
	.long	.LBB51_38-.LJTI51_0

	.section	.text.signalfern_read_from_to,"ax",@progbits
	.globl	signalfern_read_from_to
	.p2align	4
	.type	signalfern_read_from_to,@function
signalfern_read_from_to:
	pushq	%rbp
	pushq	%r15
	pushq	%r14
	pushq	%r13
	pushq	%r12
	pushq	%rbx
	subq	$248, %rsp
	movq	%rsi, %rbx
	movq	312(%rsp), %r10
	xorl	%eax, %eax
	testq	%rdi, %rdi
	sete	%sil
	xorl	%r15d, %r15d
	testq	%rcx, %rcx
	sete	%r13b
	xorl	%r12d, %r12d
	testq	%r9, %r9
	vxorps	%xmm0, %xmm0, %xmm0
	vmovups	%ymm0, 136(%rsp)
	vmovups	%ymm0, 112(%rsp)
	sete	%bpl
	vmovups	%ymm0, 80(%rsp)
	cmpl	$2147352575, %edx
	ja	.LBB52_1
	movq	%rdi, %r14
	movl	%edx, 28(%rsp)
	movq	%r8, 72(%rsp)
	movq	%rcx, 56(%rsp)
	movq	%r9, 64(%rsp)
	movb	%sil, %al
	shll	$12, %eax
	addq	%rax, %r14
	leaq	80(%rsp), %rdi
	movq	%r14, %rsi
	movq	%rbx, %rdx
	vzeroupper
	callq	"column::Column::open"
	movq	88(%rsp), %rax
	movq	96(%rsp), %rcx
	cmpb	$0, 80(%rsp)
	je	.LBB52_5
	movq	312(%rsp), %r10
	jmp	.LBB52_4
.LBB52_1:
	movb	$12, %al
	xorl	%ecx, %ecx
.LBB52_4:
	movzbl	%al, %edx
	movl	$1, %eax
	leaq	.LJTI52_0(%rip), %rsi
	movslq	(%rsi,%rdx,4), %rdi
	addq	%rsi, %rdi
	jmpq	*%rdi
.LBB52_10:
	movl	$2, %eax
	xorl	%edx, %edx
	jmp	.LBB52_26
.LBB52_5:
	movq	304(%rsp), %rdi
	movb	%r13b, %r15b
	shll	$12, %r15d
	movq	56(%rsp), %rsi
	addq	%r15, %rsi
	movb	%bpl, %r12b
	shll	$12, %r12d
	movq	%rax, 168(%rsp)
	movq	%rcx, 176(%rsp)
	vmovups	104(%rsp), %ymm0
	vmovups	136(%rsp), %ymm1
	vmovups	%ymm0, 184(%rsp)
	vmovups	%ymm1, 216(%rsp)
	movq	64(%rsp), %rdx
	addq	%r12, %rdx
	vxorps	%xmm0, %xmm0, %xmm0
	vmovaps	%xmm0, 32(%rsp)
	movq	$0, 48(%rsp)
	movq	72(%rsp), %rcx
	cmpq	%rcx, %rdi
	cmovbq	%rdi, %rcx
	movl	28(%rsp), %eax
	movl	%eax, 8(%rsp)
	movq	%rcx, (%rsp)
	leaq	32(%rsp), %rdi
	leaq	168(%rsp), %r9
	movq	%r14, %rcx
	movq	%rbx, %r8
	vzeroupper
	callq	"read_from::read_up_to"
	movzbl	40(%rsp), %eax
	movq	48(%rsp), %rcx
	cmpb	$0, 32(%rsp)
	je	.LBB52_6
	movzbl	%al, %edx
	movl	$1, %eax
	leaq	.LJTI52_0(%rip), %rsi
	movslq	(%rsi,%rdx,4), %rdi
	addq	%rsi, %rdi
	movq	312(%rsp), %r10
	jmpq	*%rdi
.LBB52_24:
	movl	$3, %eax
	jmp	.LBB52_25
.LBB52_6:
	testb	%al, %al
	movq	312(%rsp), %rax
	je	.LBB52_7
	movq	$1, (%rax)
	movq	$0, 8(%rax)
	movq	%rcx, 16(%rax)
	jmp	.LBB52_27
.LBB52_22:
	movl	$16, %eax
	xorl	%edx, %edx
	jmp	.LBB52_26
.LBB52_19:
	movl	$13, %eax
	xorl	%edx, %edx
	jmp	.LBB52_26
.LBB52_12:
	movl	$6, %eax
	jmp	.LBB52_25
.LBB52_20:
	movl	$14, %eax
	xorl	%edx, %edx
	jmp	.LBB52_26
.LBB52_17:
	movl	$11, %eax
	xorl	%edx, %edx
	jmp	.LBB52_26
.LBB52_23:
	movl	$17, %eax
	xorl	%edx, %edx
	jmp	.LBB52_26
.LBB52_11:
	movl	$4, %eax
	jmp	.LBB52_25
.LBB52_15:
	movl	$9, %eax
	xorl	%edx, %edx
	jmp	.LBB52_26
.LBB52_13:
	movl	$7, %eax
	jmp	.LBB52_25
.LBB52_21:
	movl	$15, %eax
	xorl	%edx, %edx
	jmp	.LBB52_26
.LBB52_14:
	movl	$8, %eax
	jmp	.LBB52_25
.LBB52_18:
	movl	$12, %eax
.LBB52_25:
	movq	%rcx, %rdx
.LBB52_26:
	movq	%rax, (%r10)
	movq	%rdx, 8(%r10)
	movq	$0, 16(%r10)
.LBB52_27:
	addq	$248, %rsp
	popq	%rbx
	popq	%r12
	popq	%r13
	popq	%r14
	popq	%r15
	popq	%rbp
	vzeroupper
	retq
.LBB52_16:
	movl	$10, %eax
	xorl	%edx, %edx
	jmp	.LBB52_26
.LBB52_7:
	vxorps	%xmm0, %xmm0, %xmm0
	vmovups	%xmm0, (%rax)
	movq	%rcx, 16(%rax)
	jmp	.LBB52_27
.Lfunc_end52:
	.size	signalfern_read_from_to, .Lfunc_end52-signalfern_read_from_to
	.section	.rodata.signalfern_read_from_to,"a",@progbits
	.p2align	2, 0x0
.LJTI52_0:
	.long	.LBB52_26-.LJTI52_0
	.long	.LBB52_10-.LJTI52_0
	.long	.LBB52_24-.LJTI52_0
	.long	.LBB52_11-.LJTI52_0
	.long	.LBB52_12-.LJTI52_0
	.long	.LBB52_13-.LJTI52_0
	.long	.LBB52_14-.LJTI52_0
	.long	.LBB52_15-.LJTI52_0
	.long	.LBB52_16-.LJTI52_0
	.long	.LBB52_17-.LJTI52_0
	.long	.LBB52_18-.LJTI52_0
	.long	.LBB52_19-.LJTI52_0
	.long	.LBB52_20-.LJTI52_0
	.long	.LBB52_21-.LJTI52_0
	.long	.LBB52_22-.LJTI52_0
	.long	.LBB52_23-.LJTI52_0

	.section	.text.signalfern_read_layered_from_in_to,"ax",@progbits
	.globl	signalfern_read_layered_from_in_to
	.p2align	4
	.type	signalfern_read_layered_from_in_to,@function
signalfern_read_layered_from_in_to:
	pushq	%rbp
	pushq	%r15
	pushq	%r14
	pushq	%r13
	pushq	%r12
	pushq	%rbx
	subq	$536, %rsp
	movq	%r9, 120(%rsp)
	movq	%rcx, %r11
	movq	%rdx, 216(%rsp)
	testq	%rsi, %rsi
	sete	70(%rsp)
	testq	%r8, %r8
	sete	71(%rsp)
	cmpq	$0, 600(%rsp)
	sete	%r13b
	cmpq	$0, 616(%rsp)
	sete	69(%rsp)
	cmpq	$0, 632(%rsp)
	sete	68(%rsp)
	movq	16(%rdi), %r12
	decq	%r12
	cmpq	$3, %r12
	ja	.LBB53_2
	movq	56(%rdi), %rax
	jmp	.LBB53_3
.LBB53_2:
	xorl	%r12d, %r12d
	movl	$65, %eax
.LBB53_3:
	movq	%rax, 72(%rsp)
	movq	88(%rdi), %rcx
	movq	%rcx, 224(%rsp)
	movq	80(%rdi), %rcx
	movq	%rcx, 96(%rsp)
	movq	72(%rdi), %rax
	movq	%rax, 88(%rsp)
	movq	64(%rdi), %rax
	movq	%rax, 184(%rsp)
	movq	48(%rdi), %rax
	movq	%rax, 200(%rsp)
	movq	40(%rdi), %rcx
	movq	%rcx, 192(%rsp)
	movq	24(%rdi), %rax
	movq	%rax, 136(%rsp)
	movq	32(%rdi), %rax
	movq	%rax, 232(%rsp)
	movq	16(%r11), %rbp
	decq	%rbp
	cmpq	$3, %rbp
	ja	.LBB53_5
	movq	56(%r11), %rbx
	jmp	.LBB53_6
.LBB53_5:
	xorl	%ebp, %ebp
	movl	$65, %ebx
.LBB53_6:
	movq	88(%r11), %r10
	movq	80(%r11), %rcx
	movq	72(%r11), %r14
	movq	64(%r11), %rdi
	movq	48(%r11), %r9
	movq	40(%r11), %r15
	movq	24(%r11), %rax
	movq	32(%r11), %rdx
	movq	%r12, 456(%rsp)
	movq	136(%rsp), %r11
	movq	%r11, 464(%rsp)
	movq	232(%rsp), %r11
	movq	%r11, 472(%rsp)
	movq	192(%rsp), %r11
	movq	%r11, 480(%rsp)
	movq	200(%rsp), %r11
	movq	%r11, 488(%rsp)
	movq	72(%rsp), %r11
	movq	%r11, 496(%rsp)
	movq	184(%rsp), %r11
	movq	%r11, 504(%rsp)
	movq	88(%rsp), %r11
	movq	%r11, 512(%rsp)
	movq	96(%rsp), %r11
	movq	%r11, 520(%rsp)
	movq	224(%rsp), %r11
	movq	%r11, 528(%rsp)
	movq	%rbp, 376(%rsp)
	movq	%rax, 384(%rsp)
	movq	%rdx, 392(%rsp)
	movq	%r15, 400(%rsp)
	movq	%r9, 408(%rsp)
	movq	%rbx, 416(%rsp)
	movq	%rdi, 128(%rsp)
	movq	%rdi, 424(%rsp)
	movq	%r14, 432(%rsp)
	movq	%rcx, 80(%rsp)
	movq	%rcx, 440(%rsp)
	movq	%r10, 176(%rsp)
	movq	%r10, 448(%rsp)
	vxorps	%xmm0, %xmm0, %xmm0
	vmovups	%ymm0, 336(%rsp)
	cmpl	$2147352575, 592(%rsp)
	ja	.LBB53_9
	movq	%rdx, %r11
	movq	%r15, %rdx
	movq	%r9, %r15
	movb	%r13b, 67(%rsp)
	movb	$8, %r9b
	cmpq	$2147352576, %rax
	jbe	.LBB53_13
	xorl	%r11d, %r11d
	jmp	.LBB53_10
.LBB53_9:
	xorl	%r11d, %r11d
	movb	$12, %r9b
.LBB53_10:
	movb	$1, %sil
	movq	648(%rsp), %r13
	jmp	.LBB53_11
.LBB53_13:
	movq	%r14, %rdi
	movq	%rax, %rcx
	movq	%rbx, 112(%rsp)
	movq	%rsi, 320(%rsp)
	movq	%r8, 104(%rsp)
	movq	%r11, %r14
	testq	%r11, %r11
	setne	%al
	addq	$-16, %r11
	cmpq	$-9, %r11
	setb	%r13b
	xorl	%r11d, %r11d
	cmpq	$32767, %r15
	ja	.LBB53_37
	andb	%r13b, %al
	jne	.LBB53_37
	xorl	%r11d, %r11d
	cmpq	$64, 112(%rsp)
	movq	648(%rsp), %r13
	ja	.LBB53_27
	movq	%r15, %r10
	leaq	6(,%r15,8), %rax
	cmpq	%rax, %rdx
	jb	.LBB53_27
	movq	%rdx, %rbx
	movq	%rcx, %r15
	movq	%rcx, %rsi
	movq	112(%rsp), %rdx
	imulq	%rdx, %rsi
	addq	$7, %rsi
	shrq	$3, %rsi
	cmpb	$2, %bpl
	jae	.LBB53_28
	testq	%rdi, %rdi
	je	.LBB53_33
	movl	%ebp, %eax
	notb	%al
	movabsq	$72340173107564823, %r11
	shrxq	%rdx, %r11, %r13
	orb	%al, %r13b
	xorl	%r11d, %r11d
	testb	$1, %r13b
	je	.LBB53_37
	movq	%rdi, %rcx
	cmpq	%rsi, 80(%rsp)
	movq	648(%rsp), %r13
	jne	.LBB53_27
.LBB53_21:
	movb	$9, %r9b
	movq	120(%rsp), %rax
	movq	176(%rsp), %rdx
	subq	%rdx, %rax
	jb	.LBB53_33
	subq	%rbx, %rax
	setae	%r11b
	cmpq	80(%rsp), %rax
	sete	%al
	andb	%r11b, %al
	cmpb	$1, %al
	jne	.LBB53_33
	xorl	%eax, %eax
	movzbl	71(%rsp), %esi
	movb	%sil, %al
	shll	$12, %eax
	addq	%rax, 104(%rsp)
	cmpq	$2147352576, 136(%rsp)
	movq	112(%rsp), %r8
	jbe	.LBB53_40
.LBB53_24:
	movq	%rbp, 240(%rsp)
	movq	%r15, 248(%rsp)
	movq	%r14, 256(%rsp)
	movq	%rbx, 264(%rsp)
	movq	%r10, 272(%rsp)
	movq	%r8, 280(%rsp)
	movq	128(%rsp), %rax
	movq	%rax, 288(%rsp)
	movq	%rcx, 296(%rsp)
	movq	80(%rsp), %rax
	movq	%rax, 304(%rsp)
	movq	%rdx, 312(%rsp)
	vxorps	%xmm0, %xmm0, %xmm0
	vmovaps	%xmm0, 144(%rsp)
	movq	$0, 160(%rsp)
	movl	592(%rsp), %eax
	movl	%eax, 8(%rsp)
	movq	$0, (%rsp)
	leaq	144(%rsp), %rdi
	leaq	212(%rsp), %rsi
	leaq	328(%rsp), %rdx
	leaq	240(%rsp), %r9
	movq	104(%rsp), %rcx
	movq	120(%rsp), %r8
	vzeroupper
	callq	"read_from::read_up_to"
	xorl	%r11d, %r11d
	cmpb	$0, 144(%rsp)
	movl	$8, %eax
	cmovnel	152(%rsp), %eax
	cmovneq	160(%rsp), %r11
	setne	%sil
	movzbl	%al, %ecx
	movl	$3, %eax
	movzbl	%cl, %ecx
	leaq	.LJTI53_0(%rip), %rdx
	movslq	(%rdx,%rcx,4), %rcx
	addq	%rdx, %rcx
	jmpq	*%rcx
.LBB53_28:
	movzbl	%bpl, %eax
	cmpl	$2, %eax
	movq	%rdi, %rcx
	jne	.LBB53_32
	testq	%rdx, %rdx
	jne	.LBB53_33
	cmpq	$0, 128(%rsp)
	setne	%al
	testq	%rcx, %rcx
	sete	%r11b
	orb	%al, %r11b
	jne	.LBB53_33
	leaq	16383(%r15), %rax
	shrq	$14, %rax
	leaq	(%rax,%rax,4), %rax
	leaq	(%rax,%rax,4), %rax
	cmpq	80(%rsp), %rax
	jbe	.LBB53_21
	jmp	.LBB53_33
.LBB53_32:
	leaq	-257(%rcx), %rax
	cmpq	$-255, %rax
	jae	.LBB53_34
.LBB53_33:
	xorl	%r11d, %r11d
	movb	$1, %sil
	jmp	.LBB53_11
.LBB53_34:
	xorl	%r11d, %r11d
	cmpq	$0, 128(%rsp)
	jne	.LBB53_27
	leaq	-1(%rcx), %rax
	lzcntq	%rax, %rax
	movl	$64, %r13d
	subq	%rax, %r13
	cmpq	%r13, 112(%rsp)
	jne	.LBB53_37
	leaq	(%rsi,%rcx,8), %rax
	cmpq	%rax, 80(%rsp)
	movq	648(%rsp), %r13
	je	.LBB53_21
	jmp	.LBB53_33
.LBB53_37:
	movq	648(%rsp), %r13
.LBB53_27:
	movb	$1, %sil
.LBB53_11:
	movzbl	%r9b, %ecx
	movl	$3, %eax
	movzbl	%cl, %ecx
	leaq	.LJTI53_0(%rip), %rdx
	movslq	(%rdx,%rcx,4), %rcx
	addq	%rdx, %rcx
	jmpq	*%rcx
.LBB53_12:
	movl	$1, %eax
	jmp	.LBB53_65
.LBB53_40:
	movq	232(%rsp), %rsi
	testq	%rsi, %rsi
	setne	%al
	addq	$-16, %rsi
	cmpq	$-9, %rsi
	setb	%dil
	cmpq	$32767, 200(%rsp)
	ja	.LBB53_24
	andb	%dil, %al
	jne	.LBB53_24
	cmpq	$64, 72(%rsp)
	ja	.LBB53_24
	movq	200(%rsp), %rax
	leaq	6(,%rax,8), %rax
	cmpq	%rax, 192(%rsp)
	jb	.LBB53_24
	movq	136(%rsp), %rdi
	imulq	72(%rsp), %rdi
	addq	$7, %rdi
	shrq	$3, %rdi
	cmpb	$2, %r12b
	jae	.LBB53_68
	cmpq	$0, 88(%rsp)
	je	.LBB53_24
	notb	%r12b
	movabsq	$72340173107564823, %rax
	movq	72(%rsp), %rsi
	shrxq	%rsi, %rax, %rax
	orb	%r12b, %al
	testb	$1, %al
	je	.LBB53_24
	cmpq	%rdi, 96(%rsp)
	jne	.LBB53_24
.LBB53_48:
	movq	216(%rsp), %rax
	subq	224(%rsp), %rax
	jb	.LBB53_76
	subq	192(%rsp), %rax
	setae	%dl
	cmpq	96(%rsp), %rax
	sete	%al
	testb	%al, %dl
	je	.LBB53_76
	xorl	%ecx, %ecx
	movzbl	70(%rsp), %eax
	movb	%al, %cl
	xorl	%edi, %edi
	movzbl	67(%rsp), %eax
	movb	%al, %dil
	xorl	%r9d, %r9d
	movzbl	69(%rsp), %eax
	movb	%al, %r9b
	xorl	%r10d, %r10d
	movzbl	68(%rsp), %eax
	movb	%al, %r10b
	shll	$12, %ecx
	shll	$12, %edi
	shll	$12, %r9d
	shll	$12, %r10d
	movq	640(%rsp), %rax
	movq	624(%rsp), %rbx
	movq	608(%rsp), %r11
	movq	320(%rsp), %rdx
	addq	%rcx, %rdx
	movq	600(%rsp), %rsi
	addq	%rdi, %rsi
	movq	616(%rsp), %r8
	addq	%r9, %r8
	movq	632(%rsp), %r9
	addq	%r10, %r9
	movl	592(%rsp), %ecx
	movl	%ecx, 56(%rsp)
	leaq	376(%rsp), %rcx
	movq	%rcx, 48(%rsp)
	movq	120(%rsp), %rcx
	movq	%rcx, 40(%rsp)
	movq	104(%rsp), %rcx
	movq	%rcx, 32(%rsp)
	leaq	456(%rsp), %rcx
	movq	%rcx, 24(%rsp)
	movq	216(%rsp), %rcx
	movq	%rcx, 16(%rsp)
	movq	%rdx, 8(%rsp)
	movq	%rax, (%rsp)
	leaq	336(%rsp), %rdi
	movq	%r11, %rdx
	movq	%r8, %rcx
	movq	%rbx, %r8
	vzeroupper
	callq	"layered_reading::layered_steps"
	movzbl	344(%rsp), %esi
	movq	352(%rsp), %rcx
	cmpb	$0, 336(%rsp)
	je	.LBB53_77
	movq	360(%rsp), %r11
	movl	$3, %eax
	movzbl	%cl, %ecx
	leaq	.LJTI53_0(%rip), %rdx
	movslq	(%rdx,%rcx,4), %rcx
	addq	%rdx, %rcx
	movq	648(%rsp), %r13
	jmpq	*%rcx
.LBB53_25:
	movl	$2, %eax
	jmp	.LBB53_65
.LBB53_53:
	movl	$16, %eax
	jmp	.LBB53_65
.LBB53_54:
	movl	$13, %eax
	jmp	.LBB53_65
.LBB53_55:
	movl	$6, %eax
	jmp	.LBB53_66
.LBB53_56:
	movl	$14, %eax
	jmp	.LBB53_65
.LBB53_57:
	movl	$11, %eax
	jmp	.LBB53_65
.LBB53_58:
	movl	$17, %eax
	jmp	.LBB53_65
.LBB53_52:
	movl	$4, %eax
	jmp	.LBB53_66
.LBB53_59:
	movl	$9, %eax
	jmp	.LBB53_65
.LBB53_60:
	movl	$7, %eax
	jmp	.LBB53_66
.LBB53_61:
	movl	$15, %eax
	jmp	.LBB53_65
.LBB53_62:
	movl	$8, %eax
	jmp	.LBB53_66
.LBB53_63:
	movl	$12, %eax
	jmp	.LBB53_66
.LBB53_64:
	movl	$10, %eax
.LBB53_65:
	xorl	%r11d, %r11d
.LBB53_66:
	xorl	%ecx, %ecx
	testb	%sil, %sil
	setne	%cl
	movq	%rax, (%r13)
	movq	%r11, 8(%r13)
	movq	%rcx, 16(%r13)
	movq	$0, 24(%r13)
.LBB53_67:
	addq	$536, %rsp
	popq	%rbx
	popq	%r12
	popq	%r13
	popq	%r14
	popq	%r15
	popq	%rbp
	vzeroupper
	retq
.LBB53_68:
	movzbl	%r12b, %eax
	cmpl	$2, %eax
	jne	.LBB53_72
	cmpq	$0, 72(%rsp)
	jne	.LBB53_24
	cmpq	$0, 184(%rsp)
	setne	%al
	cmpq	$0, 88(%rsp)
	sete	%sil
	orb	%al, %sil
	jne	.LBB53_24
	movq	136(%rsp), %rax
	addq	$16383, %rax
	shrq	$14, %rax
	leaq	(%rax,%rax,4), %rax
	leaq	(%rax,%rax,4), %rax
	cmpq	96(%rsp), %rax
	ja	.LBB53_24
	jmp	.LBB53_48
.LBB53_72:
	movq	88(%rsp), %rax
	addq	$-257, %rax
	cmpq	$-255, %rax
	jb	.LBB53_24
	cmpq	$0, 184(%rsp)
	jne	.LBB53_24
	movq	88(%rsp), %rax
	decq	%rax
	lzcntq	%rax, %rax
	movl	$64, %edx
	subq	%rax, %rdx
	cmpq	%rdx, 72(%rsp)
	movq	176(%rsp), %rdx
	jne	.LBB53_24
	movq	88(%rsp), %rax
	leaq	(%rdi,%rax,8), %rax
	cmpq	%rax, 96(%rsp)
	jne	.LBB53_24
	jmp	.LBB53_48
.LBB53_76:
	movq	%rbp, 240(%rsp)
	movq	%r15, 248(%rsp)
	movq	%r14, 256(%rsp)
	movq	%rbx, 264(%rsp)
	movq	%r10, 272(%rsp)
	movq	%r8, 280(%rsp)
	movq	128(%rsp), %rax
	movq	%rax, 288(%rsp)
	movq	%rcx, 296(%rsp)
	movq	80(%rsp), %rax
	movq	%rax, 304(%rsp)
	movq	176(%rsp), %rax
	movq	%rax, 312(%rsp)
	vxorps	%xmm0, %xmm0, %xmm0
	vmovaps	%xmm0, 144(%rsp)
	movq	$0, 160(%rsp)
	movl	592(%rsp), %eax
	movl	%eax, 8(%rsp)
	movq	$0, (%rsp)
	leaq	144(%rsp), %rdi
	leaq	212(%rsp), %rsi
	leaq	328(%rsp), %rdx
	leaq	240(%rsp), %r9
	movq	104(%rsp), %rcx
	movq	120(%rsp), %r8
	vzeroupper
	callq	"read_from::read_up_to"
	xorl	%r11d, %r11d
	cmpb	$0, 144(%rsp)
	movl	$9, %r9d
	cmovnel	152(%rsp), %r9d
	setne	%sil
	cmovneq	160(%rsp), %r11
	jmp	.LBB53_11
.LBB53_77:
	testb	%sil, %sil
	je	.LBB53_79
	movq	648(%rsp), %rax
	movq	$1, (%rax)
	vxorps	%xmm0, %xmm0, %xmm0
	vmovups	%xmm0, 8(%rax)
	movq	%rcx, 24(%rax)
	jmp	.LBB53_67
.LBB53_79:
	vxorps	%xmm0, %xmm0, %xmm0
	movq	648(%rsp), %rax
	vmovups	%xmm0, (%rax)
	movq	$0, 16(%rax)
	movq	%rcx, 24(%rax)
	jmp	.LBB53_67
.Lfunc_end53:
	.size	signalfern_read_layered_from_in_to, .Lfunc_end53-signalfern_read_layered_from_in_to
	.section	.rodata.signalfern_read_layered_from_in_to,"a",@progbits
	.p2align	2, 0x0
.LJTI53_0:
	.long	.LBB53_12-.LJTI53_0
	.long	.LBB53_25-.LJTI53_0
	.long	.LBB53_66-.LJTI53_0
	.long	.LBB53_52-.LJTI53_0
	.long	.LBB53_55-.LJTI53_0
	.long	.LBB53_60-.LJTI53_0
	.long	.LBB53_62-.LJTI53_0
	.long	.LBB53_59-.LJTI53_0
	.long	.LBB53_64-.LJTI53_0
	.long	.LBB53_57-.LJTI53_0
	.long	.LBB53_63-.LJTI53_0
	.long	.LBB53_54-.LJTI53_0
	.long	.LBB53_56-.LJTI53_0
	.long	.LBB53_61-.LJTI53_0
	.long	.LBB53_53-.LJTI53_0
	.long	.LBB53_58-.LJTI53_0

	.section	.text.signalfern_read_layered_from_to,"ax",@progbits
	.globl	signalfern_read_layered_from_to
	.p2align	4
	.type	signalfern_read_layered_from_to,@function
signalfern_read_layered_from_to:
	pushq	%rbp
	pushq	%r15
	pushq	%r14
	pushq	%r13
	pushq	%r12
	pushq	%rbx
	subq	$360, %rsp
	movq	%rdx, %r14
	movq	%rdi, %r13
	movq	440(%rsp), %r15
	movq	424(%rsp), %r12
	xorl	%ebp, %ebp
	testq	%rdi, %rdi
	sete	%bl
	xorl	%eax, %eax
	testq	%rdx, %rdx
	sete	%dl
	testq	%r9, %r9
	sete	67(%rsp)
	testq	%r12, %r12
	sete	%r10b
	vxorps	%xmm0, %xmm0, %xmm0
	vmovups	%ymm0, 232(%rsp)
	vmovups	%ymm0, 208(%rsp)
	vmovups	%ymm0, 176(%rsp)
	testq	%r15, %r15
	sete	%r11b
	movq	456(%rsp), %rdi
	cmpl	$2147352575, %r8d
	ja	.LBB54_7
	movb	%r11b, 65(%rsp)
	movb	%r10b, 66(%rsp)
	movq	%rsi, 112(%rsp)
	movl	%r8d, 68(%rsp)
	movq	%r9, 104(%rsp)
	movb	%dl, %al
	shll	$12, %eax
	addq	%rax, %r14
	leaq	176(%rsp), %rdi
	movq	%r14, %rsi
	movq	%rcx, 72(%rsp)
	movq	%rcx, %rdx
	vzeroupper
	callq	"column::Column::open"
	cmpb	$1, 176(%rsp)
	jne	.LBB54_3
	movzbl	184(%rsp), %edx
	movq	192(%rsp), %r15
	movb	$1, %al
	movl	$3, %ecx
	movzbl	%dl, %edx
	leaq	.LJTI54_0(%rip), %rsi
	movslq	(%rsi,%rdx,4), %rdx
	addq	%rsi, %rdx
	movq	456(%rsp), %rdi
	jmpq	*%rdx
.LBB54_7:
	movl	$12, %edx
	xorl	%r15d, %r15d
	movb	$1, %al
	movl	$3, %ecx
	movzbl	%dl, %edx
	leaq	.LJTI54_0(%rip), %rsi
	movslq	(%rsi,%rdx,4), %rdx
	addq	%rsi, %rdx
	jmpq	*%rdx
.LBB54_27:
	movl	$1, %ecx
	jmp	.LBB54_28
.LBB54_3:
	movb	%bl, %bpl
	shll	$12, %ebp
	addq	%rbp, %r13
	leaq	184(%rsp), %rbp
	vxorps	%xmm0, %xmm0, %xmm0
	vmovups	%ymm0, 272(%rsp)
	vmovups	%ymm0, 304(%rsp)
	vmovups	%ymm0, 328(%rsp)
	vmovups	%ymm0, 128(%rsp)
	leaq	272(%rsp), %rdi
	movq	%r13, %rsi
	movq	112(%rsp), %rbx
	movq	%rbx, %rdx
	vzeroupper
	callq	"column::Column::open"
	cmpb	$1, 272(%rsp)
	jne	.LBB54_8
	movzbl	280(%rsp), %ebx
	movq	288(%rsp), %r15
	vxorps	%xmm0, %xmm0, %xmm0
	vmovaps	%xmm0, 80(%rsp)
	movq	$0, 96(%rsp)
	movl	68(%rsp), %eax
	movl	%eax, 8(%rsp)
	movq	$0, (%rsp)
	leaq	80(%rsp), %rdi
	leaq	124(%rsp), %rsi
	leaq	168(%rsp), %rdx
	movq	%r14, %rcx
	movq	72(%rsp), %r8
	movq	%rbp, %r9
	callq	"read_from::read_up_to"
	cmpb	$0, 80(%rsp)
	setne	%al
	je	.LBB54_6
	movzbl	88(%rsp), %ebx
	movq	96(%rsp), %r15
.LBB54_6:
	movq	456(%rsp), %rdi
	movl	$3, %ecx
	movzbl	%bl, %edx
	leaq	.LJTI54_0(%rip), %rsi
	movslq	(%rsi,%rdx,4), %rdx
	addq	%rsi, %rdx
	jmpq	*%rdx
.LBB54_8:
	movq	448(%rsp), %rax
	movq	432(%rsp), %r8
	movq	416(%rsp), %rdx
	xorl	%ecx, %ecx
	movzbl	67(%rsp), %esi
	movb	%sil, %cl
	shll	$12, %ecx
	movq	104(%rsp), %rsi
	addq	%rcx, %rsi
	xorl	%ecx, %ecx
	movzbl	66(%rsp), %edi
	movb	%dil, %cl
	shll	$12, %ecx
	addq	%rcx, %r12
	xorl	%ecx, %ecx
	movzbl	65(%rsp), %edi
	movb	%dil, %cl
	shll	$12, %ecx
	addq	%rcx, %r15
	leaq	280(%rsp), %rcx
	movl	68(%rsp), %edi
	movl	%edi, 56(%rsp)
	movq	%rbp, 48(%rsp)
	movq	72(%rsp), %rdi
	movq	%rdi, 40(%rsp)
	movq	%r14, 32(%rsp)
	movq	%rcx, 24(%rsp)
	movq	%rbx, 16(%rsp)
	movq	%r13, 8(%rsp)
	movq	%rax, (%rsp)
	leaq	128(%rsp), %rdi
	movq	%r12, %rcx
	movq	%r15, %r9
	callq	"layered_reading::layered_steps"
	movzbl	136(%rsp), %eax
	movq	144(%rsp), %rdx
	cmpb	$0, 128(%rsp)
	je	.LBB54_9
	movq	152(%rsp), %r15
	movl	$3, %ecx
	movzbl	%dl, %edx
	leaq	.LJTI54_0(%rip), %rsi
	movslq	(%rsi,%rdx,4), %rdx
	addq	%rsi, %rdx
	movq	456(%rsp), %rdi
	jmpq	*%rdx
.LBB54_13:
	movl	$2, %ecx
	jmp	.LBB54_28
.LBB54_25:
	movl	$16, %ecx
	jmp	.LBB54_28
.LBB54_22:
	movl	$13, %ecx
	jmp	.LBB54_28
.LBB54_15:
	movl	$6, %ecx
	jmp	.LBB54_29
.LBB54_23:
	movl	$14, %ecx
	jmp	.LBB54_28
.LBB54_20:
	movl	$11, %ecx
	jmp	.LBB54_28
.LBB54_26:
	movl	$17, %ecx
	jmp	.LBB54_28
.LBB54_14:
	movl	$4, %ecx
	jmp	.LBB54_29
.LBB54_18:
	movl	$9, %ecx
	jmp	.LBB54_28
.LBB54_16:
	movl	$7, %ecx
	jmp	.LBB54_29
.LBB54_24:
	movl	$15, %ecx
	jmp	.LBB54_28
.LBB54_17:
	movl	$8, %ecx
	jmp	.LBB54_29
.LBB54_21:
	movl	$12, %ecx
	jmp	.LBB54_29
.LBB54_19:
	movl	$10, %ecx
.LBB54_28:
	xorl	%r15d, %r15d
.LBB54_29:
	xorl	%edx, %edx
	testb	%al, %al
	setne	%dl
	movq	%rcx, (%rdi)
	movq	%r15, 8(%rdi)
	movq	%rdx, 16(%rdi)
	movq	$0, 24(%rdi)
.LBB54_30:
	addq	$360, %rsp
	popq	%rbx
	popq	%r12
	popq	%r13
	popq	%r14
	popq	%r15
	popq	%rbp
	vzeroupper
	retq
.LBB54_9:
	testb	%al, %al
	movq	456(%rsp), %rax
	je	.LBB54_10
	movq	$1, (%rax)
	vxorps	%xmm0, %xmm0, %xmm0
	vmovups	%xmm0, 8(%rax)
	movq	%rdx, 24(%rax)
	jmp	.LBB54_30
.LBB54_10:
	vxorps	%xmm0, %xmm0, %xmm0
	vmovups	%xmm0, (%rax)
	movq	$0, 16(%rax)
	movq	%rdx, 24(%rax)
	jmp	.LBB54_30
.Lfunc_end54:
	.size	signalfern_read_layered_from_to, .Lfunc_end54-signalfern_read_layered_from_to
	.section	.rodata.signalfern_read_layered_from_to,"a",@progbits
	.p2align	2, 0x0
.LJTI54_0:
	.long	.LBB54_27-.LJTI54_0
	.long	.LBB54_13-.LJTI54_0
	.long	.LBB54_29-.LJTI54_0
	.long	.LBB54_14-.LJTI54_0
	.long	.LBB54_15-.LJTI54_0
	.long	.LBB54_16-.LJTI54_0
	.long	.LBB54_17-.LJTI54_0
	.long	.LBB54_18-.LJTI54_0
	.long	.LBB54_19-.LJTI54_0
	.long	.LBB54_20-.LJTI54_0
	.long	.LBB54_21-.LJTI54_0
	.long	.LBB54_22-.LJTI54_0
	.long	.LBB54_23-.LJTI54_0
	.long	.LBB54_24-.LJTI54_0
	.long	.LBB54_25-.LJTI54_0
	.long	.LBB54_26-.LJTI54_0

	.section	.rodata.cst4,"aM",@progbits,4
	.p2align	2, 0x0
.LCPI55_0:
	.long	8
.LCPI55_1:
	.long	16
.LCPI55_2:
	.long	24
.LCPI55_3:
	.long	32
.LCPI55_4:
	.long	40
.LCPI55_5:
	.long	48
.LCPI55_6:
	.long	56
.LCPI55_8:
	.long	64
	.section	.rodata.cst32,"aM",@progbits,32
	.p2align	5, 0x0
.LCPI55_7:
	.long	0
	.long	1
	.long	2
	.long	3
	.long	4
	.long	5
	.long	6
	.long	7
	.section	.text.signalfern_read_to,"ax",@progbits
	.globl	signalfern_read_to
	.p2align	4
	.type	signalfern_read_to,@function
signalfern_read_to:
	pushq	%rbp
	pushq	%r15
	pushq	%r14
	pushq	%r13
	pushq	%r12
	pushq	%rbx
	subq	$312, %rsp
	movq	%r9, 8(%rsp)
	movq	%r8, %r14
	movq	%rcx, 24(%rsp)
	movq	%rdx, %rbx
	movq	%rsi, %r15
	movq	%rdi, %r12
	xorl	%r13d, %r13d
	testq	%rdi, %rdi
	sete	%r13b
	shll	$12, %r13d
	leaq	(%rdi,%r13), %rsi
	testq	%rdx, %rdx
	sete	72(%rsp)
	testq	%r8, %r8
	sete	%bpl
	vpxor	%xmm0, %xmm0, %xmm0
	vmovdqu	%ymm0, 280(%rsp)
	vmovdqu	%ymm0, 256(%rsp)
	vmovdqu	%ymm0, 224(%rsp)
	leaq	224(%rsp), %rdi
	movq	%r15, %rdx
	vzeroupper
	callq	"column::Column::open"
	movq	232(%rsp), %rdx
	movq	240(%rsp), %rdi
	cmpb	$0, 224(%rsp)
	je	.LBB55_2
	movzbl	%dl, %ecx
	movl	$1, %eax
	leaq	.LJTI55_0(%rip), %rdx
	movslq	(%rdx,%rcx,4), %rsi
	addq	%rdx, %rsi
	movq	368(%rsp), %rdx
	jmpq	*%rsi
.LBB55_2:
	movb	%bpl, 32(%rsp)
	movq	%rbx, 48(%rsp)
	movq	%r13, 56(%rsp)
	movq	%r12, 64(%rsp)
	movq	%r14, 112(%rsp)
	movq	%rdx, 144(%rsp)
	movq	%rdi, 152(%rsp)
	vmovdqu	248(%rsp), %ymm0
	vmovdqu	280(%rsp), %ymm1
	vmovdqu	%ymm0, 160(%rsp)
	vmovdqu	%ymm1, 192(%rsp)
	cmpq	%rdi, 24(%rsp)
	setb	%al
	cmpq	%rdi, 8(%rsp)
	setb	%cl
	orb	%al, %cl
	movl	$10, %eax
	jne	.LBB55_9
	movq	%rdx, 104(%rsp)
	movq	%rdi, 16(%rsp)
	leaq	144(%rsp), %rdx
	movq	64(%rsp), %rax
	movq	56(%rsp), %rcx
	leaq	(%rax,%rcx), %rbx
	movq	%rbx, %rdi
	movq	%r15, %rsi
	vzeroupper
	callq	"checking::accepts"
	testb	%al, %al
	je	.LBB55_8
	xorl	%eax, %eax
	movzbl	32(%rsp), %ecx
	movb	%cl, %al
	shll	$12, %eax
	movq	%rax, 88(%rsp)
	movq	216(%rsp), %rax
	leaq	(%rbx,%rax), %rcx
	movq	%rax, 40(%rsp)
	movzwl	(%rbx,%rax), %ebx
	cmpl	$32767, %ebx
	jne	.LBB55_28
.LBB55_5:
	movq	112(%rsp), %r8
	movq	88(%rsp), %r9
	leaq	(%r8,%r9), %r13
	movq	168(%rsp), %rdi
	movq	64(%rsp), %r10
	movq	56(%rsp), %r11
	leaq	(%r10,%r11), %rsi
	addq	%rdi, %rsi
	addq	40(%rsp), %rsi
	movzbl	104(%rsp), %edx
	cmpb	$2, %dl
	jae	.LBB55_65
	leaq	184(%rsp), %r8
	movq	%r13, %rdi
	movq	16(%rsp), %rbx
	movq	%rbx, %rcx
	vzeroupper
	callq	"scaled_reader::fill"
	movq	%rbx, %rbp
.LBB55_7:
	movq	368(%rsp), %rsi
	jmp	.LBB55_91
.LBB55_8:
	movl	$11, %eax
	xorl	%edi, %edi
.LBB55_9:
	movzbl	%al, %ecx
	movl	$1, %eax
	leaq	.LJTI55_0(%rip), %rdx
	movslq	(%rdx,%rcx,4), %rsi
	addq	%rdx, %rsi
	movq	368(%rsp), %rdx
	jmpq	*%rsi
.LBB55_10:
	movl	$2, %eax
	xorl	%ecx, %ecx
	jmp	.LBB55_25
.LBB55_11:
	movl	$16, %eax
	xorl	%ecx, %ecx
	jmp	.LBB55_25
.LBB55_12:
	movl	$13, %eax
	xorl	%ecx, %ecx
	jmp	.LBB55_25
.LBB55_13:
	movl	$6, %eax
	jmp	.LBB55_24
.LBB55_14:
	movl	$14, %eax
	xorl	%ecx, %ecx
	jmp	.LBB55_25
.LBB55_15:
	movl	$11, %eax
	xorl	%ecx, %ecx
	jmp	.LBB55_25
.LBB55_16:
	movl	$3, %eax
	jmp	.LBB55_24
.LBB55_17:
	movl	$17, %eax
	xorl	%ecx, %ecx
	jmp	.LBB55_25
.LBB55_18:
	movl	$4, %eax
	jmp	.LBB55_24
.LBB55_19:
	movl	$9, %eax
	xorl	%ecx, %ecx
	jmp	.LBB55_25
.LBB55_20:
	movl	$7, %eax
	jmp	.LBB55_24
.LBB55_21:
	movl	$15, %eax
	xorl	%ecx, %ecx
	jmp	.LBB55_25
.LBB55_22:
	movl	$8, %eax
	jmp	.LBB55_24
.LBB55_23:
	movl	$12, %eax
.LBB55_24:
	movq	%rdi, %rcx
.LBB55_25:
	movq	%rax, (%rdx)
	movq	%rcx, 8(%rdx)
.LBB55_26:
	addq	$312, %rsp
	popq	%rbx
	popq	%r12
	popq	%r13
	popq	%r14
	popq	%r15
	popq	%rbp
	vzeroupper
	retq
.LBB55_27:
	movl	$10, %eax
	xorl	%ecx, %ecx
	jmp	.LBB55_25
.LBB55_28:
	xorl	%r8d, %r8d
	movzbl	72(%rsp), %eax
	movb	%al, %r8b
	shll	$12, %r8d
	movq	160(%rsp), %rax
	movb	$17, %dl
	subb	%al, %dl
	movl	$1, %esi
	shlxq	%rdx, %rsi, %rsi
	leaq	8192(%rsi), %rdx
	testq	%rax, %rax
	cmoveq	%rax, %rsi
	movl	$8192, %eax
	cmovneq	%rdx, %rax
	movq	%rax, 8(%rsp)
	addq	%rcx, %rsi
	movq	%rsi, 72(%rsp)
	movq	48(%rsp), %rax
	leaq	(%rax,%r8), %rdi
	addq	%r8, %rax
	addq	$4, %rax
	movq	%rax, 24(%rsp)
	movq	64(%rsp), %rdx
	movq	56(%rsp), %rsi
	leaq	(%rdx,%rsi), %rax
	movq	40(%rsp), %r8
	leaq	6(%r8,%rax), %rax
	movq	%rax, 48(%rsp)
	leaq	(%rsi,%r8), %rax
	leaq	52(%rdx,%rax), %rsi
	movq	%rsi, 80(%rsp)
	leaq	4(%rdx,%rax), %rsi
	movq	%rsi, 32(%rsp)
	addq	%rdx, %rax
	addq	$10, %rax
	movq	%rax, 96(%rsp)
	xorl	%ebp, %ebp
	xorl	%r13d, %r13d
	jmp	.LBB55_30
	.p2align	4
.LBB55_29:
	addq	%r11, %r13
	addl	%r11d, %r11d
	xorl	%eax, %eax
	cmpq	$65535, %r10
	cmovneq	8(%rsp), %rax
	cmpl	$4095, %r10d
	cmovaeq	%rax, %r11
	addq	%r9, %r11
	movzwl	(%rcx,%r11), %ebx
	movq	%r11, %rbp
	cmpl	$32767, %ebx
	je	.LBB55_5
.LBB55_30:
	movzwl	2(%rcx,%rbp), %r10d
	cmpq	$65535, %r10
	sete	%al
	leaq	1(%r10), %r11
	shll	$16, %ebx
	leaq	4(%rbp), %r9
	incb	%al
	cmpq	$4095, %r10
	movzbl	%al, %eax
	movl	$0, %edx
	cmovbl	%edx, %eax
	testb	%al, %al
	je	.LBB55_42
	movzbl	%al, %eax
	cmpl	$1, %eax
	jne	.LBB55_44
	movq	72(%rsp), %rax
	addq	%r9, %rax
	xorl	%edx, %edx
	movq	%r13, %r14
	jmp	.LBB55_34
	.p2align	4
.LBB55_33:
	addq	$2, %rdx
	cmpq	$1024, %rdx
	je	.LBB55_29
.LBB55_34:
	movq	(%rax,%rdx,8), %r12
	testq	%r12, %r12
	je	.LBB55_38
	movl	%edx, %ebp
	shll	$6, %ebp
	addl	%ebx, %ebp
	xorl	%r8d, %r8d
	popcntq	%r12, %r8
	leaq	(%r8,%r14), %r15
	incq	%r8
	leaq	(%rdi,%r14,4), %r14
	.p2align	4
.LBB55_36:
	xorl	%esi, %esi
	tzcntq	%r12, %rsi
	orl	%ebp, %esi
	movl	%esi, (%r14)
	blsrq	%r12, %r12
	decq	%r8
	addq	$4, %r14
	cmpq	$1, %r8
	ja	.LBB55_36
	movq	%r15, %r14
.LBB55_38:
	movq	8(%rax,%rdx,8), %r12
	testq	%r12, %r12
	je	.LBB55_33
	movq	%rdx, %rbp
	orq	$1, %rbp
	shll	$6, %ebp
	addl	%ebx, %ebp
	xorl	%r8d, %r8d
	popcntq	%r12, %r8
	leaq	(%r8,%r14), %r15
	incq	%r8
	leaq	(%rdi,%r14,4), %r14
	.p2align	4
.LBB55_40:
	xorl	%esi, %esi
	tzcntq	%r12, %rsi
	orl	%ebp, %esi
	movl	%esi, (%r14)
	blsrq	%r12, %r12
	decq	%r8
	addq	$4, %r14
	cmpq	$1, %r8
	ja	.LBB55_40
	movq	%r15, %r14
	jmp	.LBB55_33
	.p2align	4
.LBB55_42:
	cmpw	$7, %r10w
	jb	.LBB55_43
	leaq	(%rdi,%r13,4), %rax
	movq	48(%rsp), %rdx
	addq	%rbp, %rdx
	leaq	(%rdx,%r10,2), %rdx
	cmpq	%rdx, %rax
	jae	.LBB55_49
	leaq	(%rcx,%r9), %rax
	leaq	(%r10,%r13), %rdx
	movq	24(%rsp), %rsi
	leaq	(%rsi,%rdx,4), %rdx
	cmpq	%rdx, %rax
	jae	.LBB55_49
.LBB55_43:
	xorl	%eax, %eax
.LBB55_58:
	movl	%r10d, %edx
	notl	%edx
	movq	%rax, %r14
	testb	$3, %dl
	je	.LBB55_62
	leal	1(%r10), %edx
	andl	$3, %edx
	leaq	(%rax,%r13), %r8
	leaq	(%rdi,%r8,4), %r8
	leaq	(,%rax,2), %r15
	addq	%rbp, %r15
	addq	32(%rsp), %r15
	xorl	%r14d, %r14d
	.p2align	4
.LBB55_60:
	movzwl	(%r15,%r14,2), %r12d
	orl	%ebx, %r12d
	movl	%r12d, (%r8,%r14,4)
	incq	%r14
	cmpq	%r14, %rdx
	jne	.LBB55_60
	addq	%rax, %r14
.LBB55_62:
	movq	%r10, %rdx
	subq	%rax, %rdx
	cmpl	$3, %edx
	jb	.LBB55_29
	movq	%r10, %rax
	subq	%r14, %rax
	incq	%rax
	leaq	(%r14,%r13), %rdx
	movq	24(%rsp), %rsi
	leaq	(%rsi,%rdx,4), %rdx
	addq	$8, %rdx
	leaq	(,%r14,2), %r14
	addq	%rbp, %r14
	addq	96(%rsp), %r14
	xorl	%r15d, %r15d
	.p2align	4
.LBB55_64:
	movzwl	-6(%r14,%r15,2), %r8d
	orl	%ebx, %r8d
	movl	%r8d, -12(%rdx,%r15,4)
	movzwl	-4(%r14,%r15,2), %r8d
	orl	%ebx, %r8d
	movl	%r8d, -8(%rdx,%r15,4)
	movzwl	-2(%r14,%r15,2), %r8d
	orl	%ebx, %r8d
	movl	%r8d, -4(%rdx,%r15,4)
	movzwl	(%r14,%r15,2), %r8d
	orl	%ebx, %r8d
	movl	%r8d, (%rdx,%r15,4)
	addq	$4, %r15
	cmpq	%r15, %rax
	jne	.LBB55_64
	jmp	.LBB55_29
	.p2align	4
.LBB55_44:
	vmovd	%ebx, %xmm0
	vpbroadcastd	%xmm0, %ymm0
	vpbroadcastd	.LCPI55_0(%rip), %ymm1
	vpaddd	%ymm1, %ymm0, %ymm1
	vpbroadcastd	.LCPI55_1(%rip), %ymm2
	vpaddd	%ymm2, %ymm0, %ymm2
	vpbroadcastd	.LCPI55_2(%rip), %ymm3
	vpaddd	%ymm3, %ymm0, %ymm3
	vpbroadcastd	.LCPI55_3(%rip), %ymm4
	vpaddd	%ymm4, %ymm0, %ymm4
	vpbroadcastd	.LCPI55_4(%rip), %ymm5
	vpaddd	%ymm5, %ymm0, %ymm5
	vpbroadcastd	.LCPI55_5(%rip), %ymm6
	vpaddd	%ymm6, %ymm0, %ymm6
	vpbroadcastd	.LCPI55_6(%rip), %ymm7
	vpaddd	%ymm7, %ymm0, %ymm7
	movq	24(%rsp), %rax
	leaq	(%rax,%r13,4), %rax
	addq	$220, %rax
	vmovdqa	.LCPI55_7(%rip), %ymm8
	xorl	%edx, %edx
	.p2align	4
.LBB55_45:
	vpaddd	%ymm0, %ymm8, %ymm9
	vpaddd	%ymm1, %ymm8, %ymm10
	vpaddd	%ymm2, %ymm8, %ymm11
	vpaddd	%ymm3, %ymm8, %ymm12
	vmovdqu	%ymm9, -224(%rax,%rdx,4)
	vmovdqu	%ymm10, -192(%rax,%rdx,4)
	vmovdqu	%ymm11, -160(%rax,%rdx,4)
	vmovdqu	%ymm12, -128(%rax,%rdx,4)
	vpaddd	%ymm4, %ymm8, %ymm9
	vpaddd	%ymm5, %ymm8, %ymm10
	vpaddd	%ymm6, %ymm8, %ymm11
	vpaddd	%ymm7, %ymm8, %ymm12
	vmovdqu	%ymm9, -96(%rax,%rdx,4)
	vmovdqu	%ymm10, -64(%rax,%rdx,4)
	vmovdqu	%ymm11, -32(%rax,%rdx,4)
	vmovdqu	%ymm12, (%rax,%rdx,4)
	addq	$64, %rdx
	vpbroadcastd	.LCPI55_8(%rip), %ymm9
	vpaddd	%ymm9, %ymm8, %ymm8
	cmpq	$65536, %rdx
	jne	.LBB55_45
	jmp	.LBB55_29
.LBB55_49:
	cmpw	$31, %r10w
	jae	.LBB55_51
	xorl	%eax, %eax
	jmp	.LBB55_55
.LBB55_51:
	movl	%r11d, %eax
	andl	$-32, %eax
	vmovd	%ebx, %xmm0
	vpbroadcastd	%xmm0, %ymm0
	leal	(%r11,%r11), %edx
	andl	$-64, %edx
	movq	24(%rsp), %rsi
	leaq	(%rsi,%r13,4), %r8
	addq	$92, %r8
	movq	80(%rsp), %rsi
	leaq	(%rsi,%rbp), %r14
	xorl	%r15d, %r15d
	.p2align	4
.LBB55_52:
	vpmovzxwd	-48(%r14,%r15), %ymm1
	vpmovzxwd	-32(%r14,%r15), %ymm2
	vpmovzxwd	-16(%r14,%r15), %ymm3
	vpmovzxwd	(%r14,%r15), %ymm4
	vpor	%ymm1, %ymm0, %ymm1
	vpor	%ymm2, %ymm0, %ymm2
	vpor	%ymm3, %ymm0, %ymm3
	vpor	%ymm4, %ymm0, %ymm4
	vmovdqu	%ymm1, -96(%r8,%r15,2)
	vmovdqu	%ymm2, -64(%r8,%r15,2)
	vmovdqu	%ymm3, -32(%r8,%r15,2)
	vmovdqu	%ymm4, (%r8,%r15,2)
	addq	$64, %r15
	cmpq	%r15, %rdx
	jne	.LBB55_52
	cmpl	%eax, %r11d
	je	.LBB55_29
	testb	$24, %r11b
	je	.LBB55_58
.LBB55_55:
	movq	%rax, %r14
	movl	%r11d, %eax
	andl	$-8, %eax
	vmovd	%ebx, %xmm0
	vpbroadcastd	%xmm0, %ymm0
	movq	%rax, %rdx
	subq	%r14, %rdx
	leaq	(%r14,%r13), %r8
	leaq	(%rdi,%r8,4), %r8
	leaq	(,%r14,2), %r14
	addq	%rbp, %r14
	addq	32(%rsp), %r14
	xorl	%r15d, %r15d
	.p2align	4
.LBB55_56:
	vpmovzxwd	(%r14,%r15,2), %ymm1
	vpor	%ymm1, %ymm0, %ymm1
	vmovdqu	%ymm1, (%r8,%r15,4)
	addq	$8, %r15
	cmpq	%r15, %rdx
	jne	.LBB55_56
	cmpl	%eax, %r11d
	je	.LBB55_29
	jmp	.LBB55_58
.LBB55_65:
	movq	%rsi, 8(%rsp)
	movq	200(%rsp), %rbx
	cmpl	$2, %edx
	jne	.LBB55_71
	movq	16(%rsp), %rbp
	movq	%rbp, %rcx
	shrq	$14, %rcx
	movl	%ebp, %eax
	andl	$16383, %eax
	addl	$16383, %eax
	shrl	$14, %eax
	addq	%rcx, %rax
	je	.LBB55_7
	leaq	(%rax,%rax,4), %rax
	leaq	(%rax,%rax,4), %r15
	addq	%r15, 8(%rsp)
	addq	%rdi, %r11
	addq	40(%rsp), %r11
	leaq	(%r10,%r11), %r14
	addq	$24, %r14
	xorl	%r12d, %r12d
	jmp	.LBB55_69
	.p2align	4
.LBB55_68:
	addq	8(%rsp), %rsi
	movq	-24(%r14,%r12), %rdx
	leaq	(%rdx,%rdx), %rdi
	sarq	$63, %rdx
	xorq	%rdi, %rdx
	movq	%rax, 120(%rsp)
	movq	%rdx, 128(%rsp)
	movq	%rbx, 136(%rsp)
	leaq	120(%rsp), %r8
	movq	%r13, %rdi
	xorl	%edx, %edx
	vzeroupper
	callq	"scaled_reader::fill"
	addq	$25, %r12
	addq	$131072, %r13
	cmpq	%r12, %r15
	je	.LBB55_90
.LBB55_69:
	movq	%rbp, %rdx
	movzbl	(%r14,%r12), %eax
	subq	$16384, %rbp
	movl	$16384, %ecx
	cmovbq	%rdx, %rcx
	movq	%rax, %rsi
	testq	%rax, %rax
	je	.LBB55_68
	movq	-8(%r14,%r12), %rsi
	jmp	.LBB55_68
.LBB55_71:
	movq	16(%rsp), %rbp
	testq	%rbp, %rbp
	je	.LBB55_92
	movq	184(%rsp), %rax
	testq	%rax, %rax
	je	.LBB55_93
	movq	8(%rsp), %rdx
	leaq	(%rdx,%rbx,8), %rcx
	movq	%rdx, %rbx
	movl	$64, %edx
	subq	%rax, %rdx
	xorl	%r9d, %r9d
	movq	%rbp, %rsi
	xorl	%edi, %edi
	cmpq	$8, %rax
	jbe	.LBB55_77
	cmpq	$25, %rax
	jb	.LBB55_81
	jmp	.LBB55_85
.LBB55_75:
	movbeq	(%rcx,%rdi), %r10
	shlxq	%r9, %r10, %r9
.LBB55_76:
	shrxq	%rdx, %r9, %r9
	movq	(%rbx,%r9,8), %r9
	movq	%r9, (%r13)
	movq	%r8, %r9
	shrq	$3, %r9
	addq	%r9, %rdi
	andl	$7, %r8d
	addq	$8, %r13
	movq	%r8, %r9
	decq	%rsi
	je	.LBB55_90
.LBB55_77:
	leaq	(%r9,%rax), %r8
	cmpq	$63, %rsi
	ja	.LBB55_75
	leaq	7(%r8), %r10
	movq	%r10, %r11
	shrq	$3, %r11
	leaq	(%rcx,%rdi), %rbx
	movzbl	(%rcx,%rdi), %r14d
	movzbl	-1(%r11,%rbx), %r11d
	shlq	$56, %r14
	shlxq	%r9, %r14, %rbx
	shlq	$56, %r11
	andl	$56, %r10d
	subl	%r9d, %r10d
	addb	$56, %r10b
	shrxq	%r10, %r11, %r9
	orq	%rbx, %r9
	movq	8(%rsp), %rbx
	jmp	.LBB55_76
.LBB55_79:
	movbeq	(%rcx,%rdi), %r10
	shlxq	%r9, %r10, %r9
.LBB55_80:
	shrxq	%rdx, %r9, %r9
	movq	(%rbx,%r9,8), %r9
	movq	%r9, (%r13)
	movq	%r8, %r9
	shrq	$3, %r9
	addq	%r9, %rdi
	andl	$7, %r8d
	addq	$8, %r13
	movq	%r8, %r9
	decq	%rsi
	je	.LBB55_90
.LBB55_81:
	cmpq	$64, %rsi
	setae	%r10b
	leaq	(%r9,%rax), %r8
	cmpq	$65, %r8
	setb	%r11b
	testb	%r10b, %r11b
	jne	.LBB55_79
	leaq	7(%r8), %r10
	movq	%r10, %r11
	shrq	$3, %r11
	leaq	(%rcx,%rdi), %rbx
	movzwl	(%rcx,%rdi), %r14d
	movzwl	-2(%r11,%rbx), %r11d
	bswapq	%r14
	shlxq	%r9, %r14, %rbx
	bswapq	%r11
	andl	$56, %r10d
	subl	%r9d, %r10d
	addb	$48, %r10b
	shrxq	%r10, %r11, %r9
	orq	%rbx, %r9
	movq	8(%rsp), %rbx
	jmp	.LBB55_80
.LBB55_83:
	movbeq	(%rcx,%rdi), %r10
	shlxq	%r9, %r10, %r9
.LBB55_84:
	shrxq	%rdx, %r9, %r9
	movq	(%rbx,%r9,8), %r9
	movq	%r9, (%r13)
	movq	%r8, %r9
	shrq	$3, %r9
	addq	%r9, %rdi
	andl	$7, %r8d
	addq	$8, %r13
	movq	%r8, %r9
	decq	%rsi
	je	.LBB55_90
.LBB55_85:
	cmpq	$64, %rsi
	setb	%r10b
	leaq	(%r9,%rax), %r8
	cmpq	$65, %r8
	setae	%r11b
	orb	%r10b, %r11b
	je	.LBB55_83
	leaq	7(%r8), %r10
	shrq	$3, %r10
	leaq	(%rcx,%rdi), %r11
	cmpq	$56, %rax
	ja	.LBB55_88
	movl	(%r11), %r14d
	movl	-4(%r11,%r10), %r11d
	movq	$-4, %rbx
	jmp	.LBB55_89
.LBB55_88:
	movq	(%r11), %r14
	movq	-8(%r11,%r10), %r11
	movq	$-8, %rbx
.LBB55_89:
	bswapq	%r14
	shlxq	%r9, %r14, %r14
	bswapq	%r11
	addl	%r10d, %ebx
	shll	$3, %ebx
	subl	%r9d, %ebx
	shrxq	%rbx, %r11, %r9
	orq	%r14, %r9
	movq	8(%rsp), %rbx
	jmp	.LBB55_84
.LBB55_90:
	movq	368(%rsp), %rsi
	movq	16(%rsp), %rbp
.LBB55_91:
	movq	$0, (%rsi)
	movq	%rbp, 8(%rsi)
	jmp	.LBB55_26
.LBB55_92:
	xorl	%ebp, %ebp
	jmp	.LBB55_7
.LBB55_93:
	cmpq	$4, %rbp
	jae	.LBB55_95
	xorl	%eax, %eax
	movq	8(%rsp), %rdi
	jmp	.LBB55_107
.LBB55_95:
	leaq	(%rdi,%rcx), %rax
	addq	$8, %rax
	cmpq	%rax, %r13
	movq	8(%rsp), %rdi
	jae	.LBB55_98
	leaq	(,%rbp,8), %rax
	addq	%r13, %rax
	cmpq	%rax, %rdi
	jae	.LBB55_98
	xorl	%eax, %eax
	jmp	.LBB55_107
.LBB55_98:
	cmpq	$16, %rbp
	jae	.LBB55_100
	xorl	%eax, %eax
	jmp	.LBB55_104
.LBB55_100:
	movq	%rbp, %rax
	andq	$-16, %rax
	vpbroadcastq	(%rdi), %ymm0
	leaq	(%r9,%r8), %rcx
	addq	$96, %rcx
	xorl	%edx, %edx
.LBB55_101:
	vmovdqu	%ymm0, -96(%rcx,%rdx,8)
	vmovdqu	%ymm0, -64(%rcx,%rdx,8)
	vmovdqu	%ymm0, -32(%rcx,%rdx,8)
	vmovdqu	%ymm0, (%rcx,%rdx,8)
	addq	$16, %rdx
	cmpq	%rdx, %rax
	jne	.LBB55_101
	cmpq	%rax, %rbp
	je	.LBB55_7
	testb	$12, %bpl
	je	.LBB55_107
.LBB55_104:
	movq	%rax, %rcx
	movq	%rbp, %rax
	andq	$-4, %rax
	vpbroadcastq	(%rdi), %ymm0
.LBB55_105:
	vmovdqu	%ymm0, (%r13,%rcx,8)
	addq	$4, %rcx
	cmpq	%rcx, %rax
	jne	.LBB55_105
	cmpq	%rax, %rbp
	je	.LBB55_7
.LBB55_107:
	movl	%ebp, %edx
	subl	%eax, %edx
	movq	%rax, %rcx
	andl	$7, %edx
	je	.LBB55_110
	movq	%rax, %rcx
.LBB55_109:
	movq	(%rdi), %rsi
	movq	%rsi, (%r13,%rcx,8)
	incq	%rcx
	decq	%rdx
	jne	.LBB55_109
.LBB55_110:
	subq	%rbp, %rax
	cmpq	$-8, %rax
	movq	368(%rsp), %rsi
	ja	.LBB55_91
	leaq	(%r9,%r8), %rax
	addq	$56, %rax
.LBB55_112:
	movq	(%rdi), %rdx
	movq	%rdx, -56(%rax,%rcx,8)
	movq	(%rdi), %rdx
	movq	%rdx, -48(%rax,%rcx,8)
	movq	(%rdi), %rdx
	movq	%rdx, -40(%rax,%rcx,8)
	movq	(%rdi), %rdx
	movq	%rdx, -32(%rax,%rcx,8)
	movq	(%rdi), %rdx
	movq	%rdx, -24(%rax,%rcx,8)
	movq	(%rdi), %rdx
	movq	%rdx, -16(%rax,%rcx,8)
	movq	(%rdi), %rdx
	movq	%rdx, -8(%rax,%rcx,8)
	movq	(%rdi), %rdx
	movq	%rdx, (%rax,%rcx,8)
	addq	$8, %rcx
	cmpq	%rcx, %rbp
	jne	.LBB55_112
	jmp	.LBB55_91
.Lfunc_end55:
	.size	signalfern_read_to, .Lfunc_end55-signalfern_read_to
	.section	.rodata.signalfern_read_to,"a",@progbits
	.p2align	2, 0x0
.LJTI55_0:
	.long	.LBB55_25-.LJTI55_0
	.long	.LBB55_10-.LJTI55_0
	.long	.LBB55_16-.LJTI55_0
	.long	.LBB55_18-.LJTI55_0
	.long	.LBB55_13-.LJTI55_0
	.long	.LBB55_20-.LJTI55_0
	.long	.LBB55_22-.LJTI55_0
	.long	.LBB55_19-.LJTI55_0
	.long	.LBB55_27-.LJTI55_0
	.long	.LBB55_15-.LJTI55_0
	.long	.LBB55_23-.LJTI55_0
	.long	.LBB55_12-.LJTI55_0
	.long	.LBB55_14-.LJTI55_0
	.long	.LBB55_21-.LJTI55_0
	.long	.LBB55_11-.LJTI55_0
	.long	.LBB55_17-.LJTI55_0

	.section	.text.signalfern_set_check_to,"ax",@progbits
	.globl	signalfern_set_check_to
	.p2align	4
	.type	signalfern_set_check_to,@function
signalfern_set_check_to:
	pushq	%rbx
	subq	$32, %rsp
	movq	%rdx, %rbx
	movq	%rsi, %rdx
	xorl	%esi, %esi
	testq	%rdi, %rdi
	sete	%sil
	shll	$12, %esi
	addq	%rdi, %rsi
	vxorps	%xmm0, %xmm0, %xmm0
	vmovups	%ymm0, (%rsp)
	movq	%rsp, %rdi
	xorl	%ecx, %ecx
	vzeroupper
	callq	"set_check::walk"
	movq	8(%rsp), %rax
	cmpb	$0, (%rsp)
	je	.LBB56_1
	movq	16(%rsp), %rdx
	movzbl	%al, %ecx
	leaq	.LJTI56_0(%rip), %rax
	movslq	(%rax,%rcx,4), %rsi
	addq	%rax, %rsi
	jmpq	*%rsi
.LBB56_3:
	movl	$1, %eax
	jmp	.LBB56_20
.LBB56_1:
	movq	$0, (%rbx)
	movq	%rax, 8(%rbx)
	addq	$32, %rsp
	popq	%rbx
	retq
.LBB56_16:
	movl	$16, %eax
	xorl	%ecx, %ecx
	jmp	.LBB56_20
.LBB56_13:
	movl	$13, %eax
	xorl	%ecx, %ecx
	jmp	.LBB56_20
.LBB56_6:
	movl	$6, %eax
	jmp	.LBB56_19
.LBB56_14:
	movl	$14, %eax
	xorl	%ecx, %ecx
	jmp	.LBB56_20
.LBB56_11:
	movl	$11, %eax
	xorl	%ecx, %ecx
	jmp	.LBB56_20
.LBB56_18:
	movl	$3, %eax
	jmp	.LBB56_19
.LBB56_17:
	movl	$17, %eax
	xorl	%ecx, %ecx
	jmp	.LBB56_20
.LBB56_5:
	movl	$4, %eax
	jmp	.LBB56_19
.LBB56_9:
	movl	$9, %eax
	xorl	%ecx, %ecx
	jmp	.LBB56_20
.LBB56_4:
	movl	$2, %eax
	xorl	%ecx, %ecx
	jmp	.LBB56_20
.LBB56_7:
	movl	$7, %eax
	jmp	.LBB56_19
.LBB56_15:
	movl	$15, %eax
	xorl	%ecx, %ecx
	jmp	.LBB56_20
.LBB56_8:
	movl	$8, %eax
	jmp	.LBB56_19
.LBB56_12:
	movl	$12, %eax
.LBB56_19:
	movq	%rdx, %rcx
.LBB56_20:
	movq	%rax, (%rbx)
	movq	%rcx, 8(%rbx)
	addq	$32, %rsp
	popq	%rbx
	retq
.LBB56_10:
	movl	$10, %eax
	xorl	%ecx, %ecx
	jmp	.LBB56_20
.Lfunc_end56:
	.size	signalfern_set_check_to, .Lfunc_end56-signalfern_set_check_to
	.section	.rodata.signalfern_set_check_to,"a",@progbits
	.p2align	2, 0x0
.LJTI56_0:
	.long	.LBB56_3-.LJTI56_0
	.long	.LBB56_4-.LJTI56_0
	.long	.LBB56_18-.LJTI56_0
	.long	.LBB56_5-.LJTI56_0
	.long	.LBB56_6-.LJTI56_0
	.long	.LBB56_7-.LJTI56_0
	.long	.LBB56_8-.LJTI56_0
	.long	.LBB56_9-.LJTI56_0
	.long	.LBB56_10-.LJTI56_0
	.long	.LBB56_11-.LJTI56_0
	.long	.LBB56_12-.LJTI56_0
	.long	.LBB56_13-.LJTI56_0
	.long	.LBB56_14-.LJTI56_0
	.long	.LBB56_15-.LJTI56_0
	.long	.LBB56_16-.LJTI56_0
	.long	.LBB56_17-.LJTI56_0

	.section	.text.signalfern_set_find_to,"ax",@progbits
	.globl	signalfern_set_find_to
	.p2align	4
	.type	signalfern_set_find_to,@function
signalfern_set_find_to:
	pushq	%rbx
	subq	$32, %rsp
	movq	%rcx, %rbx
	movl	%edx, %ecx
	vxorps	%xmm0, %xmm0, %xmm0
	vmovups	%ymm0, (%rsp)
	cmpl	$2147352576, %edx
	jae	.LBB57_4
	movq	%rsi, %rdx
	xorl	%esi, %esi
	testq	%rdi, %rdi
	sete	%sil
	shll	$12, %esi
	addq	%rdi, %rsi
	movq	%rsp, %rdi
	vzeroupper
	callq	"set_check::walk"
	movq	16(%rsp), %rdx
	cmpb	$0, (%rsp)
	je	.LBB57_7
	movzbl	8(%rsp), %ecx
	leaq	.LJTI57_0(%rip), %rax
	movslq	(%rax,%rcx,4), %rsi
	addq	%rax, %rsi
	jmpq	*%rsi
.LBB57_3:
	movl	$1, %eax
	jmp	.LBB57_6
.LBB57_4:
	movl	$14, %eax
.LBB57_5:
	xorl	%ecx, %ecx
.LBB57_6:
	movq	%rax, (%rbx)
	movq	%rcx, 8(%rbx)
	movq	$0, 16(%rbx)
	addq	$32, %rsp
	popq	%rbx
	vzeroupper
	retq
.LBB57_7:
	testb	$1, 24(%rsp)
	jne	.LBB57_9
	movq	$1, (%rbx)
	vxorps	%xmm0, %xmm0, %xmm0
	vmovups	%xmm0, 8(%rbx)
	addq	$32, %rsp
	popq	%rbx
	retq
.LBB57_9:
	vxorps	%xmm0, %xmm0, %xmm0
	vmovups	%xmm0, (%rbx)
	movq	%rdx, 16(%rbx)
	addq	$32, %rsp
	popq	%rbx
	retq
.LBB57_10:
	movl	$16, %eax
	jmp	.LBB57_5
.LBB57_11:
	movl	$13, %eax
	jmp	.LBB57_5
.LBB57_12:
	movl	$6, %eax
	jmp	.LBB57_23
.LBB57_13:
	movl	$11, %eax
	jmp	.LBB57_5
.LBB57_14:
	movl	$3, %eax
	jmp	.LBB57_23
.LBB57_15:
	movl	$17, %eax
	jmp	.LBB57_5
.LBB57_16:
	movl	$4, %eax
	jmp	.LBB57_23
.LBB57_17:
	movl	$9, %eax
	jmp	.LBB57_5
.LBB57_18:
	movl	$2, %eax
	jmp	.LBB57_5
.LBB57_19:
	movl	$7, %eax
	jmp	.LBB57_23
.LBB57_20:
	movl	$15, %eax
	jmp	.LBB57_5
.LBB57_21:
	movl	$8, %eax
	jmp	.LBB57_23
.LBB57_22:
	movl	$12, %eax
.LBB57_23:
	movq	%rdx, %rcx
	jmp	.LBB57_6
.LBB57_24:
	movl	$10, %eax
	jmp	.LBB57_5
.Lfunc_end57:
	.size	signalfern_set_find_to, .Lfunc_end57-signalfern_set_find_to
	.section	.rodata.signalfern_set_find_to,"a",@progbits
	.p2align	2, 0x0
.LJTI57_0:
	.long	.LBB57_3-.LJTI57_0
	.long	.LBB57_18-.LJTI57_0
	.long	.LBB57_14-.LJTI57_0
	.long	.LBB57_16-.LJTI57_0
	.long	.LBB57_12-.LJTI57_0
	.long	.LBB57_19-.LJTI57_0
	.long	.LBB57_21-.LJTI57_0
	.long	.LBB57_17-.LJTI57_0
	.long	.LBB57_24-.LJTI57_0
	.long	.LBB57_13-.LJTI57_0
	.long	.LBB57_22-.LJTI57_0
	.long	.LBB57_11-.LJTI57_0
	.long	.LBB57_4-.LJTI57_0
	.long	.LBB57_20-.LJTI57_0
	.long	.LBB57_10-.LJTI57_0
	.long	.LBB57_15-.LJTI57_0

	.section	.rodata.cst16,"aM",@progbits,16
	.p2align	4, 0x0
.LCPI58_0:
	.quad	281479271743489
	.quad	281479271743489
	.section	.rodata.cst32,"aM",@progbits,32
	.p2align	5, 0x0
.LCPI58_1:
	.quad	12
	.quad	13
	.quad	14
	.quad	15
.LCPI58_2:
	.quad	8
	.quad	9
	.quad	10
	.quad	11
.LCPI58_3:
	.quad	4
	.quad	5
	.quad	6
	.quad	7
.LCPI58_4:
	.quad	0
	.quad	1
	.quad	2
	.quad	3
.LCPI58_7:
	.byte	0
	.byte	1
	.byte	4
	.byte	5
	.byte	8
	.byte	9
	.byte	12
	.byte	13
	.byte	8
	.byte	9
	.byte	12
	.byte	13
	.byte	12
	.byte	13
	.byte	14
	.byte	15
	.byte	16
	.byte	17
	.byte	20
	.byte	21
	.byte	24
	.byte	25
	.byte	28
	.byte	29
	.byte	24
	.byte	25
	.byte	28
	.byte	29
	.byte	28
	.byte	29
	.byte	30
	.byte	31
.LCPI58_8:
	.byte	0
	.byte	1
	.byte	4
	.byte	5
	.byte	8
	.byte	9
	.byte	12
	.byte	13
	.zero	1
	.zero	1
	.zero	1
	.zero	1
	.zero	1
	.zero	1
	.zero	1
	.zero	1
	.byte	16
	.byte	17
	.byte	20
	.byte	21
	.byte	24
	.byte	25
	.byte	28
	.byte	29
	.zero	1
	.zero	1
	.zero	1
	.zero	1
	.zero	1
	.zero	1
	.zero	1
	.zero	1
	.section	.rodata.cst8,"aM",@progbits,8
	.p2align	3, 0x0
.LCPI58_5:
	.quad	16
.LCPI58_6:
	.quad	4
	.section	.text.signalfern_set_write_to,"ax",@progbits
	.globl	signalfern_set_write_to
	.p2align	4
	.type	signalfern_set_write_to,@function
signalfern_set_write_to:
	pushq	%rbp
	pushq	%r15
	pushq	%r14
	pushq	%r13
	pushq	%r12
	pushq	%rbx
	xorl	%r10d, %r10d
	testq	%rdi, %rdi
	sete	%r10b
	shll	$12, %r10d
	leaq	(%rdi,%r10), %r9
	xorl	%r12d, %r12d
	testq	%rdx, %rdx
	sete	%r12b
	shll	$12, %r12d
	leaq	(%rdx,%r12), %rax
	cmpq	$2, %rsi
	jb	.LBB58_3
	cmpq	$9, %rsi
	jae	.LBB58_6
	movl	$1, %ebx
	xorl	%ebp, %ebp
	jmp	.LBB58_17
.LBB58_3:
	testq	%rsi, %rsi
	jne	.LBB58_22
	testq	%rcx, %rcx
	je	.LBB58_12
	movb	$0, (%rax)
	movl	$1, %edi
	jmp	.LBB58_153
.LBB58_6:
	movq	%r8, %r15
	leaq	-1(%rsi), %r11
	cmpq	$33, %rsi
	jae	.LBB58_8
	xorl	%r14d, %r14d
	xorl	%ebp, %ebp
	jmp	.LBB58_14
.LBB58_8:
	movq	%r11, %r14
	andq	$-32, %r14
	leaq	(%r10,%rdi), %r8
	addq	$100, %r8
	vpxor	%xmm0, %xmm0, %xmm0
	xorl	%ebx, %ebx
	vpxor	%xmm1, %xmm1, %xmm1
	vpxor	%xmm2, %xmm2, %xmm2
	vpxor	%xmm3, %xmm3, %xmm3
	.p2align	4
.LBB58_9:
	vmovdqu	-96(%r8,%rbx,4), %ymm4
	vmovdqu	-64(%r8,%rbx,4), %ymm5
	vmovdqu	-32(%r8,%rbx,4), %ymm6
	vmovdqu	(%r8,%rbx,4), %ymm7
	vpminud	-100(%r8,%rbx,4), %ymm4, %ymm8
	vpcmpeqd	%ymm4, %ymm8, %ymm4
	vextracti128	$1, %ymm4, %xmm8
	vpackssdw	%xmm8, %xmm4, %xmm4
	vpor	%xmm4, %xmm0, %xmm0
	vpminud	-68(%r8,%rbx,4), %ymm5, %ymm4
	vpcmpeqd	%ymm4, %ymm5, %ymm4
	vextracti128	$1, %ymm4, %xmm5
	vpackssdw	%xmm5, %xmm4, %xmm4
	vpor	%xmm4, %xmm1, %xmm1
	vpminud	-36(%r8,%rbx,4), %ymm6, %ymm4
	vpcmpeqd	%ymm4, %ymm6, %ymm4
	vextracti128	$1, %ymm4, %xmm5
	vpackssdw	%xmm5, %xmm4, %xmm4
	vpor	%xmm4, %xmm2, %xmm2
	vpminud	-4(%r8,%rbx,4), %ymm7, %ymm4
	vpcmpeqd	%ymm4, %ymm7, %ymm4
	vextracti128	$1, %ymm4, %xmm5
	vpackssdw	%xmm5, %xmm4, %xmm4
	vpor	%xmm4, %xmm3, %xmm3
	addq	$32, %rbx
	cmpq	%rbx, %r14
	jne	.LBB58_9
	vpor	%xmm0, %xmm1, %xmm0
	vpor	%xmm0, %xmm2, %xmm0
	vpor	%xmm0, %xmm3, %xmm0
	vpsllw	$15, %xmm0, %xmm0
	vpmovmskb	%xmm0, %r8d
	testl	$43690, %r8d
	setne	%bpl
	cmpq	%r14, %r11
	jne	.LBB58_13
	movq	%r15, %r8
	jmp	.LBB58_18
.LBB58_12:
	movl	$1, %edi
	movl	$6, %ecx
	jmp	.LBB58_155
.LBB58_13:
	testb	$24, %r11b
	je	.LBB58_157
.LBB58_14:
	movq	%r11, %r13
	andq	$-8, %r13
	leaq	1(%r13), %rbx
	movzbl	%bpl, %r8d
	vmovd	%r8d, %xmm0
	addq	%r10, %rdi
	addq	$4, %rdi
	.p2align	4
.LBB58_15:
	vmovdqu	(%rdi,%r14,4), %ymm1
	vpminud	-4(%rdi,%r14,4), %ymm1, %ymm2
	vpcmpeqd	%ymm2, %ymm1, %ymm1
	vextracti128	$1, %ymm1, %xmm2
	vpackssdw	%xmm2, %xmm1, %xmm1
	vpor	%xmm1, %xmm0, %xmm0
	addq	$8, %r14
	cmpq	%r14, %r13
	jne	.LBB58_15
	vptest	.LCPI58_0(%rip), %xmm0
	setne	%bpl
	cmpq	%r13, %r11
	movq	%r15, %r8
	je	.LBB58_18
	.p2align	4
.LBB58_17:
	movl	(%r9,%rbx,4), %edi
	cmpl	-4(%r9,%rbx,4), %edi
	setbe	%dil
	orb	%dil, %bpl
	incq	%rbx
	cmpq	%rbx, %rsi
	jne	.LBB58_17
.LBB58_18:
	testb	$1, %bpl
	je	.LBB58_22
	movl	$1, %edi
	.p2align	4
.LBB58_20:
	movl	(%r9,%rdi,4), %r10d
	cmpl	-4(%r9,%rdi,4), %r10d
	jbe	.LBB58_154
	incq	%rdi
	cmpq	%rdi, %rsi
	jne	.LBB58_20
.LBB58_22:
	cmpl	$2147352576, -4(%r9,%rsi,4)
	jb	.LBB58_26
	xorl	%edi, %edi
	.p2align	4
.LBB58_24:
	cmpl	$2147352575, (%r9,%rdi,4)
	ja	.LBB58_51
	incq	%rdi
	cmpq	%rdi, %rsi
	jne	.LBB58_24
.LBB58_26:
	movq	%rcx, -40(%rsp)
	movq	%r12, -32(%rsp)
	movq	%rdx, -48(%rsp)
	movq	%r8, -24(%rsp)
	xorl	%edi, %edi
	xorl	%r11d, %r11d
	movq	%rsi, %r10
	movq	%r9, %r14
	jmp	.LBB58_28
	.p2align	4
.LBB58_27:
	leaq	(%r14,%r13,4), %r14
	subq	%r13, %r10
	addq	%rbx, %rdi
	movq	%rdi, %r8
	addq	%rcx, %r8
	leaq	(%r8,%rbp), %rdi
	incq	%rdi
	incq	%r11
	testq	%r10, %r10
	je	.LBB58_44
.LBB58_28:
	movl	(%r14), %r8d
	movl	%r8d, %r12d
	shrl	$16, %r12d
	xorl	%r15d, %r15d
	cmpq	$1, %r10
	jne	.LBB58_33
	xorl	%ebx, %ebx
.LBB58_30:
	movzwl	2(%r14,%rbx,4), %ecx
	xorl	%r13d, %r13d
	cmpl	%ecx, %r12d
	sete	%r13b
	addq	%rbx, %r13
	cmpq	$61441, %r13
	movl	$0, %ecx
	adcb	$1, %cl
	cmpq	$4097, %r13
	movzbl	%cl, %ecx
	cmovbl	%r15d, %ecx
	testb	%cl, %cl
	je	.LBB58_37
	movzbl	%cl, %ecx
	cmpl	$1, %ecx
	jne	.LBB58_38
	movl	$65536, %r15d
	subq	%r13, %r15
	leaq	(%r15,%r15), %rbx
	movl	$1, %ebp
	movl	$1, %ecx
	cmpl	$8388608, %r8d
	jae	.LBB58_39
	jmp	.LBB58_41
	.p2align	4
.LBB58_33:
	cmpq	$16, %r10
	movl	$16, %ebx
	movl	$16, %ecx
	cmovbq	%r10, %rcx
	movl	%ecx, %ecx
	movzwl	-2(%r14,%rcx,4), %ecx
	cmpl	%ecx, %r12d
	movl	$65536, %ecx
	cmovneq	%rbx, %rcx
	cmpq	%r10, %rcx
	cmovaeq	%r10, %rcx
	xorl	%r13d, %r13d
	jmp	.LBB58_35
	.p2align	4
.LBB58_34:
	subq	%rbp, %rcx
	movq	%rbx, %r13
	cmpq	$1, %rcx
	jbe	.LBB58_30
.LBB58_35:
	movq	%rcx, %rbp
	shrq	%rbp
	movq	%rbp, %rbx
	addq	%r13, %rbx
	movzwl	2(%r14,%rbx,4), %edx
	cmpl	%edx, %r12d
	je	.LBB58_34
	movq	%r13, %rbx
	jmp	.LBB58_34
	.p2align	4
.LBB58_37:
	leaq	(,%r13,2), %rbx
	movq	%r13, %r15
	movl	$1, %ebp
	movl	$1, %ecx
	cmpl	$8388608, %r8d
	jae	.LBB58_39
	jmp	.LBB58_41
	.p2align	4
.LBB58_38:
	movl	$8192, %ebx
	movl	$1, %ebp
	movl	$1, %ecx
	cmpl	$8388608, %r8d
	jb	.LBB58_41
.LBB58_39:
	movq	%r12, %r8
	.p2align	4
.LBB58_40:
	shrq	$7, %r8
	incq	%rcx
	cmpq	$16383, %r12
	movq	%r8, %r12
	ja	.LBB58_40
.LBB58_41:
	cmpq	$128, %r15
	jb	.LBB58_27
	movl	$1, %ebp
	movq	%r15, %r8
	.p2align	4
.LBB58_43:
	shrq	$7, %r8
	incq	%rbp
	cmpq	$16383, %r15
	movq	%r8, %r15
	ja	.LBB58_43
	jmp	.LBB58_27
.LBB58_44:
	cmpq	$128, %r11
	jb	.LBB58_49
	leaq	(%r8,%rbp), %rdi
	addq	$2, %rdi
	movq	%r11, %r8
	movq	%r11, %rcx
	movq	-48(%rsp), %rbx
	movq	-32(%rsp), %r14
	movq	-40(%rsp), %rdx
	.p2align	4
.LBB58_46:
	shrq	$7, %rcx
	incq	%rdi
	cmpq	$16383, %r8
	movq	%rcx, %r8
	ja	.LBB58_46
	movl	$6, %ecx
	cmpq	%rdi, %rdx
	jb	.LBB58_48
	xorl	%r10d, %r10d
	.p2align	4
.LBB58_53:
	movq	%r11, %rcx
	movl	%ecx, %edx
	orb	$-128, %dl
	movb	%dl, (%rax,%r10)
	shrq	$7, %r11
	incq	%r10
	cmpq	$16383, %rcx
	ja	.LBB58_53
	jmp	.LBB58_55
.LBB58_49:
	incq	%rdi
	movl	$6, %ecx
	cmpq	%rdi, -40(%rsp)
	movq	-48(%rsp), %rbx
	movq	-32(%rsp), %r14
	jae	.LBB58_54
.LBB58_48:
	movq	-24(%rsp), %r8
	jmp	.LBB58_155
.LBB58_51:
	movl	$4, %ecx
	jmp	.LBB58_155
.LBB58_54:
	xorl	%r10d, %r10d
.LBB58_55:
	movb	%r11b, (%rax,%r10)
	incq	%r10
	leaq	(%rbx,%r14), %rcx
	incq	%rcx
	movq	%rcx, -8(%rsp)
	leaq	49(%rbx,%r14), %rcx
	movq	%rcx, -16(%rsp)
	leaq	(%rbx,%r14), %rcx
	addq	$15, %rcx
	movq	%rcx, -40(%rsp)
	jmp	.LBB58_57
	.p2align	4
.LBB58_56:
	subq	%rbx, %rsi
	addq	%rcx, %r10
	addq	%r11, %r10
	addq	%r9, %r10
	incq	%r10
	movq	-32(%rsp), %r9
	testq	%rsi, %rsi
	je	.LBB58_152
.LBB58_57:
	movl	(%r9), %ecx
	movl	%ecx, %edx
	shrl	$16, %edx
	xorl	%r8d, %r8d
	cmpq	$1, %rsi
	jne	.LBB58_65
	xorl	%r11d, %r11d
.LBB58_59:
	movzwl	2(%r9,%r11,4), %ebx
	xorl	%r13d, %r13d
	cmpl	%ebx, %edx
	sete	%r13b
	leaq	(%r11,%r13), %rbx
	cmpq	$61441, %rbx
	movl	$0, %r14d
	adcb	$1, %r14b
	cmpq	$4097, %rbx
	movzbl	%r14b, %ebp
	cmovbl	%r8d, %ebp
	movzbl	%bpl, %r14d
	movq	%rbx, %r8
	movl	%r14d, -48(%rsp)
	testb	%r14b, %r14b
	je	.LBB58_62
	cmpl	$2, -48(%rsp)
	jne	.LBB58_69
	xorl	%r8d, %r8d
.LBB58_62:
	cmpl	$8388608, %ecx
	jb	.LBB58_70
.LBB58_63:
	movq	%r10, %rcx
	movq	%rdx, %r14
	.p2align	4
.LBB58_64:
	movl	%edx, %r15d
	orb	$-128, %r15b
	movb	%r15b, (%rax,%rcx)
	shrq	$7, %r14
	incq	%rcx
	cmpq	$16383, %rdx
	movq	%r14, %rdx
	ja	.LBB58_64
	jmp	.LBB58_71
	.p2align	4
.LBB58_65:
	cmpq	$16, %rsi
	movl	$16, %r11d
	movl	$16, %ebx
	cmovbq	%rsi, %rbx
	movl	%ebx, %ebx
	movzwl	-2(%r9,%rbx,4), %ebx
	cmpl	%ebx, %edx
	movl	$65536, %ebx
	cmovneq	%r11, %rbx
	cmpq	%rsi, %rbx
	cmovaeq	%rsi, %rbx
	xorl	%r14d, %r14d
	jmp	.LBB58_67
	.p2align	4
.LBB58_66:
	subq	%r15, %rbx
	movq	%r11, %r14
	cmpq	$1, %rbx
	jbe	.LBB58_59
.LBB58_67:
	movq	%rbx, %r15
	shrq	%r15
	leaq	(%r15,%r14), %r11
	movzwl	2(%r9,%r11,4), %ebp
	cmpl	%ebp, %edx
	je	.LBB58_66
	movq	%r14, %r11
	jmp	.LBB58_66
	.p2align	4
.LBB58_69:
	movl	$65536, %r8d
	subq	%rbx, %r8
	cmpl	$8388608, %ecx
	jae	.LBB58_63
.LBB58_70:
	movq	%r10, %rcx
	movq	%rdx, %r14
.LBB58_71:
	movb	%r14b, (%rax,%rcx)
	movb	%bpl, 1(%rax,%rcx)
	addq	$2, %rcx
	cmpq	$128, %r8
	jb	.LBB58_74
	movq	%r8, %rdx
	.p2align	4
.LBB58_73:
	movl	%r8d, %r14d
	orb	$-128, %r14b
	movb	%r14b, (%rax,%rcx)
	shrq	$7, %rdx
	incq	%rcx
	cmpq	$16383, %r8
	movq	%rdx, %r8
	ja	.LBB58_73
	jmp	.LBB58_75
	.p2align	4
.LBB58_74:
	movq	%r8, %rdx
.LBB58_75:
	leaq	(%r9,%rbx,4), %r8
	movq	%r8, -32(%rsp)
	movb	%dl, (%rax,%rcx)
	leaq	1(%rcx), %r15
	cmpb	$2, %bpl
	je	.LBB58_94
	cmpl	$1, -48(%rsp)
	jne	.LBB58_104
	testq	%rbx, %rbx
	je	.LBB58_111
	xorl	%r13d, %r13d
	xorl	%ecx, %ecx
	jmp	.LBB58_80
	.p2align	4
.LBB58_79:
	leaq	(%r15,%r14,2), %r15
	leaq	1(%r11), %r13
	incq	%rcx
	cmpq	%rbx, %rcx
	je	.LBB58_107
.LBB58_80:
	movzwl	(%r9,%rcx,4), %r11d
	movq	%r11, %r14
	subq	%r13, %r14
	je	.LBB58_79
	cmpq	$4, %r14
	jae	.LBB58_83
	xorl	%edx, %edx
	jmp	.LBB58_92
	.p2align	4
.LBB58_83:
	leaq	(%rax,%r15), %r8
	vmovq	%r13, %xmm0
	cmpq	$16, %r14
	jae	.LBB58_85
	xorl	%edx, %edx
	jmp	.LBB58_89
.LBB58_85:
	movq	%r14, %rdx
	andq	$-16, %rdx
	vpbroadcastq	%xmm0, %ymm1
	vmovdqa	.LCPI58_1(%rip), %ymm2
	vmovdqa	.LCPI58_2(%rip), %ymm3
	vmovdqa	.LCPI58_3(%rip), %ymm4
	vmovdqa	.LCPI58_4(%rip), %ymm5
	xorl	%r12d, %r12d
	.p2align	4
.LBB58_86:
	vpaddq	%ymm1, %ymm2, %ymm6
	vpaddq	%ymm1, %ymm3, %ymm7
	vpaddq	%ymm1, %ymm4, %ymm8
	vpaddq	%ymm1, %ymm5, %ymm9
	vpxor	%xmm10, %xmm10, %xmm10
	vpblendw	$17, %ymm9, %ymm10, %ymm9
	vpblendw	$17, %ymm8, %ymm10, %ymm8
	vpackusdw	%ymm8, %ymm9, %ymm8
	vpermq	$216, %ymm8, %ymm8
	vpblendw	$17, %ymm7, %ymm10, %ymm7
	vpblendw	$17, %ymm6, %ymm10, %ymm6
	vpackusdw	%ymm6, %ymm7, %ymm6
	vpermq	$216, %ymm6, %ymm6
	vpackusdw	%ymm6, %ymm8, %ymm6
	vpermq	$216, %ymm6, %ymm6
	vmovdqu	%ymm6, (%r8,%r12,2)
	addq	$16, %r12
	vpbroadcastq	.LCPI58_5(%rip), %ymm6
	vpaddq	%ymm6, %ymm5, %ymm5
	vpaddq	%ymm6, %ymm4, %ymm4
	vpaddq	%ymm6, %ymm3, %ymm3
	vpaddq	%ymm6, %ymm2, %ymm2
	cmpq	%r12, %rdx
	jne	.LBB58_86
	cmpq	%rdx, %r14
	je	.LBB58_79
	testb	$12, %r14b
	je	.LBB58_92
.LBB58_89:
	movq	%rdx, %r12
	movq	%r14, %rdx
	andq	$-4, %rdx
	vpbroadcastq	%xmm0, %ymm0
	vmovq	%r12, %xmm1
	vpbroadcastq	%xmm1, %ymm1
	vpor	.LCPI58_4(%rip), %ymm1, %ymm1
	.p2align	4
.LBB58_90:
	vpaddq	%ymm0, %ymm1, %ymm2
	vpxor	%xmm3, %xmm3, %xmm3
	vpblendw	$238, %ymm3, %ymm2, %ymm2
	vextracti128	$1, %ymm2, %xmm3
	vpackusdw	%xmm3, %xmm2, %xmm2
	vpackusdw	%xmm2, %xmm2, %xmm2
	vmovq	%xmm2, (%r8,%r12,2)
	addq	$4, %r12
	vpbroadcastq	.LCPI58_6(%rip), %ymm2
	vpaddq	%ymm2, %ymm1, %ymm1
	cmpq	%r12, %rdx
	jne	.LBB58_90
	cmpq	%rdx, %r14
	je	.LBB58_79
.LBB58_92:
	addq	%rdx, %r13
	leaq	(%r15,%rdx,2), %rdx
	addq	%rax, %rdx
	.p2align	4
.LBB58_93:
	movw	%r13w, (%rdx)
	incq	%r13
	addq	$2, %rdx
	cmpq	%r13, %r11
	jne	.LBB58_93
	jmp	.LBB58_79
	.p2align	4
.LBB58_94:
	addq	%rax, %r15
	xorl	%ecx, %ecx
	xorl	%edx, %edx
	jmp	.LBB58_97
	.p2align	4
.LBB58_95:
	movq	%rbx, %rdx
.LBB58_96:
	movq	%r11, (%r15,%r8,8)
	addq	$2, %rcx
	cmpq	$1024, %rcx
	je	.LBB58_125
.LBB58_97:
	xorl	%r8d, %r8d
	cmpq	%rbx, %rdx
	jae	.LBB58_100
	.p2align	4
.LBB58_98:
	movzwl	(%r9,%rdx,4), %r11d
	movl	%r11d, %r14d
	shrl	$6, %r14d
	cmpq	%rcx, %r14
	jne	.LBB58_101
	movl	$1, %r14d
	shlxq	%r11, %r14, %r11
	addq	%r11, %r8
	incq	%rdx
	cmpq	%rdx, %rbx
	jne	.LBB58_98
.LBB58_100:
	movq	%rbx, %rdx
.LBB58_101:
	movq	%r8, (%r15,%rcx,8)
	movq	%rcx, %r8
	orq	$1, %r8
	xorl	%r11d, %r11d
	cmpq	%rbx, %rdx
	jae	.LBB58_95
	.p2align	4
.LBB58_102:
	movzwl	(%r9,%rdx,4), %r14d
	movl	%r14d, %r12d
	shrl	$6, %r12d
	cmpq	%r8, %r12
	jne	.LBB58_96
	movl	$1, %r12d
	shlxq	%r14, %r12, %r14
	addq	%r14, %r11
	incq	%rdx
	cmpq	%rdx, %rbx
	jne	.LBB58_102
	jmp	.LBB58_95
	.p2align	4
.LBB58_104:
	testq	%rbx, %rbx
	je	.LBB58_144
	addq	%rax, %r15
	cmpq	$8, %rbx
	jb	.LBB58_106
	leaq	(%r9,%rbx,4), %rdx
	cmpq	%rdx, %r15
	jae	.LBB58_129
	movq	-8(%rsp), %rdx
	addq	%rcx, %rdx
	leaq	(%rdx,%rbx,2), %rdx
	cmpq	%rdx, %r9
	jae	.LBB58_129
.LBB58_106:
	xorl	%edx, %edx
.LBB58_138:
	leal	(%r11,%r13), %r14d
	movq	%rdx, %r8
	andl	$7, %r14d
	je	.LBB58_141
	movq	%rdx, %r8
	.p2align	4
.LBB58_140:
	movzwl	(%r9,%r8,4), %ebp
	movw	%bp, (%r15,%r8,2)
	incq	%r8
	decq	%r14
	jne	.LBB58_140
.LBB58_141:
	addq	%r13, %r11
	notq	%rdx
	addq	%r11, %rdx
	cmpq	$7, %rdx
	jb	.LBB58_144
	addq	-40(%rsp), %rcx
	.p2align	4
.LBB58_143:
	movzwl	(%r9,%r8,4), %edx
	movw	%dx, -14(%rcx,%r8,2)
	movzwl	4(%r9,%r8,4), %edx
	movw	%dx, -12(%rcx,%r8,2)
	movzwl	8(%r9,%r8,4), %edx
	movw	%dx, -10(%rcx,%r8,2)
	movzwl	12(%r9,%r8,4), %edx
	movw	%dx, -8(%rcx,%r8,2)
	movzwl	16(%r9,%r8,4), %edx
	movw	%dx, -6(%rcx,%r8,2)
	movzwl	20(%r9,%r8,4), %edx
	movw	%dx, -4(%rcx,%r8,2)
	movzwl	24(%r9,%r8,4), %edx
	movw	%dx, -2(%rcx,%r8,2)
	movzwl	28(%r9,%r8,4), %edx
	movw	%dx, (%rcx,%r8,2)
	addq	$8, %r8
	cmpq	%r8, %rbx
	jne	.LBB58_143
.LBB58_144:
	movl	(%r9), %r8d
	jmp	.LBB58_145
	.p2align	4
.LBB58_107:
	cmpl	$65536, %r13d
	je	.LBB58_125
	xorq	$65535, %r11
	cmpl	$4, %r11d
	jb	.LBB58_112
.LBB58_109:
	leaq	(%rax,%r15), %rdx
	vmovq	%r13, %xmm0
	cmpl	$16, %r11d
	jae	.LBB58_116
	xorl	%ecx, %ecx
	jmp	.LBB58_120
.LBB58_111:
	movl	$65536, %r11d
	xorl	%r13d, %r13d
	cmpl	$4, %r11d
	jae	.LBB58_109
.LBB58_112:
	xorl	%ecx, %ecx
	jmp	.LBB58_123
.LBB58_116:
	movl	%r11d, %ecx
	andl	$-16, %ecx
	vpbroadcastq	%xmm0, %ymm1
	leal	(%r11,%r11), %r8d
	andl	$-32, %r8d
	vmovdqa	.LCPI58_1(%rip), %ymm2
	vmovdqa	.LCPI58_2(%rip), %ymm3
	vmovdqa	.LCPI58_3(%rip), %ymm4
	vmovdqa	.LCPI58_4(%rip), %ymm5
	xorl	%r14d, %r14d
	.p2align	4
.LBB58_117:
	vpaddq	%ymm1, %ymm2, %ymm6
	vpaddq	%ymm1, %ymm3, %ymm7
	vpaddq	%ymm1, %ymm4, %ymm8
	vpaddq	%ymm1, %ymm5, %ymm9
	vpxor	%xmm10, %xmm10, %xmm10
	vpblendw	$17, %ymm9, %ymm10, %ymm9
	vpblendw	$17, %ymm8, %ymm10, %ymm8
	vpackusdw	%ymm8, %ymm9, %ymm8
	vpermq	$216, %ymm8, %ymm8
	vpblendw	$17, %ymm7, %ymm10, %ymm7
	vpblendw	$17, %ymm6, %ymm10, %ymm6
	vpackusdw	%ymm6, %ymm7, %ymm6
	vpermq	$216, %ymm6, %ymm6
	vpackusdw	%ymm6, %ymm8, %ymm6
	vpermq	$216, %ymm6, %ymm6
	vmovdqu	%ymm6, (%rdx,%r14)
	vpbroadcastq	.LCPI58_5(%rip), %ymm6
	vpaddq	%ymm6, %ymm5, %ymm5
	vpaddq	%ymm6, %ymm4, %ymm4
	vpaddq	%ymm6, %ymm3, %ymm3
	vpaddq	%ymm6, %ymm2, %ymm2
	addq	$32, %r14
	cmpq	%r14, %r8
	jne	.LBB58_117
	cmpl	%ecx, %r11d
	je	.LBB58_125
	testb	$12, %r11b
	je	.LBB58_123
.LBB58_120:
	movq	%rcx, %r8
	movl	%r11d, %ecx
	andl	$-4, %ecx
	vpbroadcastq	%xmm0, %ymm0
	vmovq	%r8, %xmm1
	vpbroadcastq	%xmm1, %ymm1
	vpor	.LCPI58_4(%rip), %ymm1, %ymm1
	.p2align	4
.LBB58_121:
	vpaddq	%ymm0, %ymm1, %ymm2
	vpxor	%xmm3, %xmm3, %xmm3
	vpblendw	$238, %ymm3, %ymm2, %ymm2
	vextracti128	$1, %ymm2, %xmm3
	vpackusdw	%xmm3, %xmm2, %xmm2
	vpackusdw	%xmm2, %xmm2, %xmm2
	vmovq	%xmm2, (%rdx,%r8,2)
	addq	$4, %r8
	vpbroadcastq	.LCPI58_6(%rip), %ymm2
	vpaddq	%ymm2, %ymm1, %ymm1
	cmpq	%r8, %rcx
	jne	.LBB58_121
	cmpl	%ecx, %r11d
	je	.LBB58_125
.LBB58_123:
	subq	%rcx, %r11
	addq	%rcx, %r13
	leaq	(%r15,%rcx,2), %rcx
	addq	%rax, %rcx
	xorl	%edx, %edx
	.p2align	4
.LBB58_124:
	leal	(%rdx,%r13), %r8d
	movw	%r8w, (%rcx,%rdx,2)
	incq	%rdx
	cmpq	%rdx, %r11
	jne	.LBB58_124
.LBB58_125:
	movl	(%r9), %r8d
	cmpb	$2, %bpl
	je	.LBB58_128
	cmpl	$1, -48(%rsp)
	jne	.LBB58_145
	movl	$65536, %edx
	subq	%rbx, %rdx
	leaq	(%rdx,%rdx), %rcx
	movl	$1, %r9d
	movl	$1, %r11d
	cmpl	$8388608, %r8d
	jb	.LBB58_149
	jmp	.LBB58_147
	.p2align	4
.LBB58_145:
	leaq	(%rbx,%rbx), %rcx
	movq	%rbx, %rdx
	movl	$1, %r9d
	movl	$1, %r11d
	cmpl	$8388608, %r8d
	jb	.LBB58_149
	jmp	.LBB58_147
	.p2align	4
.LBB58_128:
	movl	$8192, %ecx
	xorl	%edx, %edx
	movl	$1, %r9d
	movl	$1, %r11d
	cmpl	$8388608, %r8d
	jb	.LBB58_149
.LBB58_147:
	shrl	$16, %r8d
	movq	%r8, %r14
	.p2align	4
.LBB58_148:
	shrq	$7, %r14
	incq	%r11
	cmpq	$16383, %r8
	movq	%r14, %r8
	ja	.LBB58_148
.LBB58_149:
	cmpq	$128, %rdx
	jb	.LBB58_56
	movl	$1, %r9d
	movq	%rdx, %r8
	.p2align	4
.LBB58_151:
	shrq	$7, %r8
	incq	%r9
	cmpq	$16383, %rdx
	movq	%r8, %rdx
	ja	.LBB58_151
	jmp	.LBB58_56
.LBB58_129:
	cmpq	$32, %rbx
	jae	.LBB58_131
	xorl	%edx, %edx
	jmp	.LBB58_135
.LBB58_131:
	movq	%rbx, %rdx
	andq	$-32, %rdx
	movq	-16(%rsp), %r8
	addq	%rcx, %r8
	xorl	%r14d, %r14d
	.p2align	4
.LBB58_132:
	vmovdqu	(%r9,%r14,4), %ymm0
	vmovdqu	32(%r9,%r14,4), %ymm1
	vmovdqu	64(%r9,%r14,4), %ymm2
	vmovdqu	96(%r9,%r14,4), %ymm3
	vmovdqa	.LCPI58_7(%rip), %ymm4
	vpshufb	%ymm4, %ymm0, %ymm0
	vpermq	$232, %ymm0, %ymm0
	vpshufb	%ymm4, %ymm1, %ymm1
	vpermq	$232, %ymm1, %ymm1
	vpshufb	%ymm4, %ymm2, %ymm2
	vpermq	$232, %ymm2, %ymm2
	vpshufb	%ymm4, %ymm3, %ymm3
	vpermq	$232, %ymm3, %ymm3
	vmovdqu	%xmm0, -48(%r8,%r14,2)
	vmovdqu	%xmm1, -32(%r8,%r14,2)
	vmovdqu	%xmm2, -16(%r8,%r14,2)
	vmovdqu	%xmm3, (%r8,%r14,2)
	addq	$32, %r14
	cmpq	%r14, %rdx
	jne	.LBB58_132
	cmpq	%rdx, %rbx
	je	.LBB58_144
	testb	$24, %bl
	je	.LBB58_138
.LBB58_135:
	movq	%rdx, %r8
	movq	%rbx, %rdx
	andq	$-8, %rdx
	.p2align	4
.LBB58_136:
	vmovdqu	(%r9,%r8,4), %ymm0
	vpshufb	.LCPI58_8(%rip), %ymm0, %ymm0
	vpermq	$232, %ymm0, %ymm0
	vmovdqu	%xmm0, (%r15,%r8,2)
	addq	$8, %r8
	cmpq	%r8, %rdx
	jne	.LBB58_136
	cmpq	%rdx, %rbx
	je	.LBB58_144
	jmp	.LBB58_138
.LBB58_152:
	movq	-24(%rsp), %r8
.LBB58_153:
	movq	$0, (%r8)
	jmp	.LBB58_156
.LBB58_154:
	movl	$3, %ecx
.LBB58_155:
	movq	%rcx, (%r8)
.LBB58_156:
	movq	%rdi, 8(%r8)
	popq	%rbx
	popq	%r12
	popq	%r13
	popq	%r14
	popq	%r15
	popq	%rbp
	vzeroupper
	retq
.LBB58_157:
	orq	$1, %r14
	movq	%r14, %rbx
	movq	%r15, %r8
	jmp	.LBB58_17
.Lfunc_end58:
	.size	signalfern_set_write_to, .Lfunc_end58-signalfern_set_write_to

	.section	.rodata.cst16,"aM",@progbits,16
	.p2align	4, 0x0
.LCPI59_0:
	.quad	281479271743489
	.quad	281479271743489
	.section	.text.signalfern_write_planned_to,"ax",@progbits
	.globl	signalfern_write_planned_to
	.p2align	4
	.type	signalfern_write_planned_to,@function
signalfern_write_planned_to:
	pushq	%rbp
	pushq	%r15
	pushq	%r14
	pushq	%r13
	pushq	%r12
	pushq	%rbx
	subq	$88, %rsp
	movq	%rdx, %rax
	movq	%rsi, %rdx
	movq	168(%rsp), %r12
	movq	152(%rsp), %r10
	xorl	%ebx, %ebx
	testq	%rdi, %rdi
	sete	%sil
	xorl	%r15d, %r15d
	testq	%rax, %rax
	sete	%r13b
	xorl	%r14d, %r14d
	testq	%r8, %r8
	sete	47(%rsp)
	xorl	%r11d, %r11d
	testq	%r10, %r10
	sete	%bpl
	vpxor	%xmm0, %xmm0, %xmm0
	vmovdqa	%xmm0, 48(%rsp)
	movq	$0, 64(%rsp)
	cmpq	%rcx, %rdx
	jne	.LBB59_5
	movb	%bpl, 46(%rsp)
	movl	144(%rsp), %ebp
	testl	%ebp, %ebp
	setne	%cl
	addl	$-7, %ebp
	cmpl	$9, %ebp
	setae	%bpl
	testb	%bpl, %cl
	jne	.LBB59_6
	movb	%sil, %bl
	shll	$12, %ebx
	leaq	(%rdi,%rbx), %rsi
	cmpq	$2, %rdx
	jb	.LBB59_10
	cmpq	$9, %rdx
	movq	%r9, 80(%rsp)
	jae	.LBB59_11
	movl	$1, %ecx
	xorl	%ebp, %ebp
	jmp	.LBB59_20
.LBB59_5:
	xorl	%eax, %eax
	jmp	.LBB59_7
.LBB59_6:
	movl	$1, %eax
.LBB59_7:
	xorl	%ecx, %ecx
.LBB59_8:
	movzbl	%al, %edx
	movl	$1, %eax
	leaq	.LJTI59_0(%rip), %rsi
	movslq	(%rsi,%rdx,4), %rdi
	addq	%rsi, %rdi
	jmpq	*%rdi
.LBB59_9:
	movl	$2, %eax
	xorl	%edx, %edx
	jmp	.LBB59_46
.LBB59_10:
	testq	%rdx, %rdx
	movzbl	46(%rsp), %ebx
	jne	.LBB59_25
	jmp	.LBB59_29
.LBB59_11:
	leaq	-1(%rdx), %rcx
	cmpq	$33, %rdx
	jae	.LBB59_13
	xorl	%r9d, %r9d
	xorl	%ebp, %ebp
	jmp	.LBB59_17
.LBB59_13:
	movq	%rcx, %r9
	andq	$-32, %r9
	leaq	(%rbx,%rdi), %rcx
	addq	$100, %rcx
	xorl	%ebp, %ebp
	vpxor	%xmm1, %xmm1, %xmm1
	vpxor	%xmm2, %xmm2, %xmm2
	vpxor	%xmm3, %xmm3, %xmm3
	.p2align	4
.LBB59_14:
	vmovdqu	-96(%rcx,%rbp,4), %ymm4
	vmovdqu	-64(%rcx,%rbp,4), %ymm5
	vmovdqu	-32(%rcx,%rbp,4), %ymm6
	vmovdqu	(%rcx,%rbp,4), %ymm7
	vpminud	-100(%rcx,%rbp,4), %ymm4, %ymm8
	vpcmpeqd	%ymm4, %ymm8, %ymm4
	vextracti128	$1, %ymm4, %xmm8
	vpackssdw	%xmm8, %xmm4, %xmm4
	vpor	%xmm4, %xmm0, %xmm0
	vpminud	-68(%rcx,%rbp,4), %ymm5, %ymm4
	vpcmpeqd	%ymm4, %ymm5, %ymm4
	vextracti128	$1, %ymm4, %xmm5
	vpackssdw	%xmm5, %xmm4, %xmm4
	vpor	%xmm4, %xmm1, %xmm1
	vpminud	-36(%rcx,%rbp,4), %ymm6, %ymm4
	vpcmpeqd	%ymm4, %ymm6, %ymm4
	vextracti128	$1, %ymm4, %xmm5
	vpackssdw	%xmm5, %xmm4, %xmm4
	vpor	%xmm4, %xmm2, %xmm2
	vpminud	-4(%rcx,%rbp,4), %ymm7, %ymm4
	vpcmpeqd	%ymm4, %ymm7, %ymm4
	vextracti128	$1, %ymm4, %xmm5
	vpackssdw	%xmm5, %xmm4, %xmm4
	vpor	%xmm4, %xmm3, %xmm3
	addq	$32, %rbp
	cmpq	%rbp, %r9
	jne	.LBB59_14
	vpor	%xmm0, %xmm1, %xmm0
	vpor	%xmm0, %xmm2, %xmm0
	vpor	%xmm0, %xmm3, %xmm0
	vpsllw	$15, %xmm0, %xmm0
	vpmovmskb	%xmm0, %ecx
	testl	$43690, %ecx
	setne	%bpl
	leaq	-1(%rdx), %rcx
	cmpq	%r9, %rcx
	je	.LBB59_21
	testb	$24, %cl
	je	.LBB59_51
.LBB59_17:
	movq	%rcx, %r12
	andq	$-8, %r12
	leaq	1(%r12), %rcx
	movzbl	%bpl, %ebp
	vmovd	%ebp, %xmm0
	addq	%rbx, %rdi
	addq	$4, %rdi
	.p2align	4
.LBB59_18:
	vmovdqu	(%rdi,%r9,4), %ymm1
	vpminud	-4(%rdi,%r9,4), %ymm1, %ymm2
	vpcmpeqd	%ymm2, %ymm1, %ymm1
	vextracti128	$1, %ymm1, %xmm2
	vpackssdw	%xmm2, %xmm1, %xmm1
	vpor	%xmm1, %xmm0, %xmm0
	addq	$8, %r9
	cmpq	%r9, %r12
	jne	.LBB59_18
	vptest	.LCPI59_0(%rip), %xmm0
	setne	%bpl
	leaq	-1(%rdx), %rdi
	cmpq	%r12, %rdi
	movq	168(%rsp), %r12
	je	.LBB59_21
	.p2align	4
.LBB59_20:
	movl	(%rsi,%rcx,4), %edi
	cmpl	-4(%rsi,%rcx,4), %edi
	setbe	%dil
	orb	%dil, %bpl
	incq	%rcx
	cmpq	%rcx, %rdx
	jne	.LBB59_20
.LBB59_21:
	testb	$1, %bpl
	movq	80(%rsp), %r9
	movzbl	46(%rsp), %ebx
	je	.LBB59_25
	movl	$1, %ecx
	.p2align	4
.LBB59_23:
	movl	(%rsi,%rcx,4), %edi
	cmpl	-4(%rsi,%rcx,4), %edi
	jbe	.LBB59_50
	incq	%rcx
	cmpq	%rcx, %rdx
	jne	.LBB59_23
.LBB59_25:
	cmpl	$2147352576, -4(%rsi,%rdx,4)
	jb	.LBB59_29
	xorl	%ecx, %ecx
	.p2align	4
.LBB59_27:
	cmpl	$2147352575, (%rsi,%rcx,4)
	ja	.LBB59_49
	incq	%rcx
	cmpq	%rcx, %rdx
	jne	.LBB59_27
.LBB59_29:
	movq	160(%rsp), %rcx
	movb	%r13b, %r15b
	shll	$12, %r15d
	addq	%r15, %rax
	movzbl	47(%rsp), %edi
	movb	%dil, %r14b
	shll	$12, %r14d
	addq	%r14, %r8
	movb	%bl, %r11b
	shll	$12, %r11d
	addq	%r11, %r10
	movq	%rcx, 24(%rsp)
	movq	%r10, 16(%rsp)
	movl	144(%rsp), %ecx
	movl	%ecx, 8(%rsp)
	movq	%r9, (%rsp)
	leaq	48(%rsp), %rdi
	movq	%rax, %rcx
	movq	%r8, %r9
	movq	%rdx, %r8
	vzeroupper
	callq	"writer::write_checked"
	movq	56(%rsp), %rax
	cmpb	$0, 48(%rsp)
	je	.LBB59_32
	movq	64(%rsp), %rcx
	movzbl	%al, %edx
	movl	$1, %eax
	leaq	.LJTI59_0(%rip), %rsi
	movslq	(%rsi,%rdx,4), %rdi
	addq	%rsi, %rdi
	jmpq	*%rdi
.LBB59_31:
	movl	$3, %eax
	jmp	.LBB59_45
.LBB59_32:
	movq	$0, (%r12)
	movq	%rax, 8(%r12)
	jmp	.LBB59_47
.LBB59_33:
	movl	$16, %eax
	xorl	%edx, %edx
	jmp	.LBB59_46
.LBB59_34:
	movl	$13, %eax
	xorl	%edx, %edx
	jmp	.LBB59_46
.LBB59_35:
	movl	$6, %eax
	jmp	.LBB59_45
.LBB59_36:
	movl	$14, %eax
	xorl	%edx, %edx
	jmp	.LBB59_46
.LBB59_37:
	movl	$11, %eax
	xorl	%edx, %edx
	jmp	.LBB59_46
.LBB59_38:
	movl	$17, %eax
	xorl	%edx, %edx
	jmp	.LBB59_46
.LBB59_39:
	movl	$4, %eax
	jmp	.LBB59_45
.LBB59_40:
	movl	$9, %eax
	xorl	%edx, %edx
	jmp	.LBB59_46
.LBB59_41:
	movl	$7, %eax
	jmp	.LBB59_45
.LBB59_42:
	movl	$15, %eax
	xorl	%edx, %edx
	jmp	.LBB59_46
.LBB59_43:
	movl	$8, %eax
	jmp	.LBB59_45
.LBB59_44:
	movl	$12, %eax
.LBB59_45:
	movq	%rcx, %rdx
.LBB59_46:
	movq	%rax, (%r12)
	movq	%rdx, 8(%r12)
.LBB59_47:
	addq	$88, %rsp
	popq	%rbx
	popq	%r12
	popq	%r13
	popq	%r14
	popq	%r15
	popq	%rbp
	vzeroupper
	retq
.LBB59_48:
	movl	$10, %eax
	xorl	%edx, %edx
	jmp	.LBB59_46
.LBB59_49:
	movl	$3, %eax
	jmp	.LBB59_8
.LBB59_50:
	movl	$2, %eax
	jmp	.LBB59_8
.LBB59_51:
	orq	$1, %r9
	movq	%r9, %rcx
	jmp	.LBB59_20
.Lfunc_end59:
	.size	signalfern_write_planned_to, .Lfunc_end59-signalfern_write_planned_to
	.section	.rodata.signalfern_write_planned_to,"a",@progbits
	.p2align	2, 0x0
.LJTI59_0:
	.long	.LBB59_46-.LJTI59_0
	.long	.LBB59_9-.LJTI59_0
	.long	.LBB59_31-.LJTI59_0
	.long	.LBB59_39-.LJTI59_0
	.long	.LBB59_35-.LJTI59_0
	.long	.LBB59_41-.LJTI59_0
	.long	.LBB59_43-.LJTI59_0
	.long	.LBB59_40-.LJTI59_0
	.long	.LBB59_48-.LJTI59_0
	.long	.LBB59_37-.LJTI59_0
	.long	.LBB59_44-.LJTI59_0
	.long	.LBB59_34-.LJTI59_0
	.long	.LBB59_36-.LJTI59_0
	.long	.LBB59_42-.LJTI59_0
	.long	.LBB59_33-.LJTI59_0
	.long	.LBB59_38-.LJTI59_0

	.section	.rodata.cst16,"aM",@progbits,16
	.p2align	4, 0x0
.LCPI60_0:
	.quad	281479271743489
	.quad	281479271743489
	.section	.text.signalfern_write_to,"ax",@progbits
	.globl	signalfern_write_to
	.p2align	4
	.type	signalfern_write_to,@function
signalfern_write_to:
	pushq	%rbp
	pushq	%r15
	pushq	%r14
	pushq	%r13
	pushq	%r12
	pushq	%rbx
	subq	$2152, %rsp
	movq	2224(%rsp), %r13
	movq	2208(%rsp), %r14
	xorl	%r12d, %r12d
	testq	%rdi, %rdi
	sete	%r11b
	xorl	%r10d, %r10d
	testq	%rdx, %rdx
	sete	%bl
	xorl	%eax, %eax
	testq	%r14, %r14
	sete	%r15b
	cmpq	%rcx, %rsi
	jne	.LBB60_1
	decl	%r8d
	cmpl	$3, %r8d
	ja	.LBB60_42
	movb	%bl, 47(%rsp)
	vpxor	%xmm0, %xmm0, %xmm0
	vmovdqa	%xmm0, 48(%rsp)
	movq	$0, 64(%rsp)
	testl	%r9d, %r9d
	setne	%cl
	leal	-7(%r9), %ebx
	cmpl	$9, %ebx
	setae	%bl
	movl	$1, %ebp
	testb	%bl, %cl
	jne	.LBB60_4
	movb	%r11b, %r12b
	shll	$12, %r12d
	leaq	(%rdi,%r12), %rbx
	cmpq	$2, %rsi
	jb	.LBB60_25
	cmpq	$9, %rsi
	jae	.LBB60_9
	movl	$1, %ecx
	xorl	%r13d, %r13d
	jmp	.LBB60_19
.LBB60_1:
	movl	$1, %ebp
	xorl	%eax, %eax
	jmp	.LBB60_53
.LBB60_4:
	xorl	%ecx, %ecx
	movl	$1, %eax
.LBB60_5:
	movzbl	%al, %eax
	leaq	.LJTI60_0(%rip), %rdx
	movslq	(%rdx,%rax,4), %rsi
	addq	%rdx, %rsi
	jmpq	*%rsi
.LBB60_25:
	testq	%rsi, %rsi
	jne	.LBB60_26
	jmp	.LBB60_31
.LBB60_9:
	leaq	-1(%rsi), %rcx
	cmpq	$33, %rsi
	jae	.LBB60_11
	movb	%r15b, 46(%rsp)
	xorl	%r11d, %r11d
	xorl	%r13d, %r13d
	jmp	.LBB60_16
.LBB60_11:
	movq	%rcx, %r11
	andq	$-32, %r11
	leaq	(%r12,%rdi), %rcx
	addq	$100, %rcx
	xorl	%r13d, %r13d
	vpxor	%xmm1, %xmm1, %xmm1
	vpxor	%xmm2, %xmm2, %xmm2
	vpxor	%xmm3, %xmm3, %xmm3
	.p2align	4
.LBB60_12:
	vmovdqu	-96(%rcx,%r13,4), %ymm4
	vmovdqu	-64(%rcx,%r13,4), %ymm5
	vmovdqu	-32(%rcx,%r13,4), %ymm6
	vmovdqu	(%rcx,%r13,4), %ymm7
	vpminud	-100(%rcx,%r13,4), %ymm4, %ymm8
	vpcmpeqd	%ymm4, %ymm8, %ymm4
	vextracti128	$1, %ymm4, %xmm8
	vpackssdw	%xmm8, %xmm4, %xmm4
	vpor	%xmm4, %xmm0, %xmm0
	vpminud	-68(%rcx,%r13,4), %ymm5, %ymm4
	vpcmpeqd	%ymm4, %ymm5, %ymm4
	vextracti128	$1, %ymm4, %xmm5
	vpackssdw	%xmm5, %xmm4, %xmm4
	vpor	%xmm4, %xmm1, %xmm1
	vpminud	-36(%rcx,%r13,4), %ymm6, %ymm4
	vpcmpeqd	%ymm4, %ymm6, %ymm4
	vextracti128	$1, %ymm4, %xmm5
	vpackssdw	%xmm5, %xmm4, %xmm4
	vpor	%xmm4, %xmm2, %xmm2
	vpminud	-4(%rcx,%r13,4), %ymm7, %ymm4
	vpcmpeqd	%ymm4, %ymm7, %ymm4
	vextracti128	$1, %ymm4, %xmm5
	vpackssdw	%xmm5, %xmm4, %xmm4
	vpor	%xmm4, %xmm3, %xmm3
	addq	$32, %r13
	cmpq	%r13, %r11
	jne	.LBB60_12
	vpor	%xmm0, %xmm1, %xmm0
	vpor	%xmm0, %xmm2, %xmm0
	vpor	%xmm0, %xmm3, %xmm0
	vpsllw	$15, %xmm0, %xmm0
	vpmovmskb	%xmm0, %ecx
	testl	$43690, %ecx
	setne	%r13b
	leaq	-1(%rsi), %rcx
	cmpq	%r11, %rcx
	je	.LBB60_20
	testb	$24, %cl
	je	.LBB60_55
	movb	%r15b, 46(%rsp)
.LBB60_16:
	movq	%rcx, %r15
	andq	$-8, %r15
	leaq	1(%r15), %rcx
	movzbl	%r13b, %r13d
	vmovd	%r13d, %xmm0
	addq	%r12, %rdi
	addq	$4, %rdi
	.p2align	4
.LBB60_17:
	vmovdqu	(%rdi,%r11,4), %ymm1
	vpminud	-4(%rdi,%r11,4), %ymm1, %ymm2
	vpcmpeqd	%ymm2, %ymm1, %ymm1
	vextracti128	$1, %ymm1, %xmm2
	vpackssdw	%xmm2, %xmm1, %xmm1
	vpor	%xmm1, %xmm0, %xmm0
	addq	$8, %r11
	cmpq	%r11, %r15
	jne	.LBB60_17
	vptest	.LCPI60_0(%rip), %xmm0
	setne	%r13b
	leaq	-1(%rsi), %rdi
	cmpq	%r15, %rdi
	movzbl	46(%rsp), %r15d
	je	.LBB60_20
	.p2align	4
.LBB60_19:
	movl	(%rbx,%rcx,4), %edi
	cmpl	-4(%rbx,%rcx,4), %edi
	setbe	%dil
	orb	%dil, %r13b
	incq	%rcx
	cmpq	%rcx, %rsi
	jne	.LBB60_19
.LBB60_20:
	testb	$1, %r13b
	movq	2224(%rsp), %r13
	je	.LBB60_26
	movl	$1, %ecx
	.p2align	4
.LBB60_22:
	movl	(%rbx,%rcx,4), %edi
	cmpl	-4(%rbx,%rcx,4), %edi
	jbe	.LBB60_23
	incq	%rcx
	cmpq	%rcx, %rsi
	jne	.LBB60_22
.LBB60_26:
	cmpl	$2147352576, -4(%rbx,%rsi,4)
	jb	.LBB60_31
	xorl	%ecx, %ecx
	.p2align	4
.LBB60_28:
	cmpl	$2147352575, (%rbx,%rcx,4)
	ja	.LBB60_29
	incq	%rcx
	cmpq	%rcx, %rsi
	jne	.LBB60_28
.LBB60_31:
	movq	%rsi, %r12
	movq	2216(%rsp), %rsi
	movzbl	47(%rsp), %ecx
	movb	%cl, %r10b
	shll	$12, %r10d
	addq	%r10, %rdx
	movl	%r15d, %ecx
	movq	%rdx, %r15
	movb	%cl, %al
	shll	$12, %eax
	addq	%rax, %r14
	cmpl	$3, %r8d
	jne	.LBB60_33
	vpxor	%xmm0, %xmm0, %xmm0
	vmovdqa	%xmm0, 80(%rsp)
	movq	$0, 96(%rsp)
	leaq	104(%rsp), %rdi
	movl	$2048, %edx
	xorl	%esi, %esi
	movq	%r9, %r13
	vzeroupper
	callq	memset@PLT
	leaq	104(%rsp), %rdi
	movq	%r15, %rsi
	movq	%r12, %rdx
	callq	"plans::plan"
	movq	2216(%rsp), %rcx
	movq	%rcx, 24(%rsp)
	movq	%r14, 16(%rsp)
	movl	%r13d, 8(%rsp)
	movq	2224(%rsp), %r13
	movq	%rax, (%rsp)
	leaq	80(%rsp), %rdi
	movq	%rbx, %rsi
	movq	%r12, %rdx
	movq	%r15, %rcx
	movq	%r12, %r8
	leaq	104(%rsp), %r9
	callq	"writer::write_checked"
	movzbl	80(%rsp), %edx
	movq	88(%rsp), %rax
	movq	96(%rsp), %rcx
	testb	%dl, %dl
	je	.LBB60_35
.LBB60_36:
	movzbl	%al, %eax
	leaq	.LJTI60_0(%rip), %rdx
	movslq	(%rdx,%rax,4), %rsi
	addq	%rdx, %rsi
	jmpq	*%rsi
.LBB60_37:
	movl	$2, %ebp
	xorl	%eax, %eax
	jmp	.LBB60_53
.LBB60_42:
	movl	$9, %ebp
	xorl	%eax, %eax
	jmp	.LBB60_53
.LBB60_33:
	movq	%rsi, 32(%rsp)
	movq	%r14, 24(%rsp)
	movl	%r9d, 16(%rsp)
	movzbl	%r8b, %eax
	movl	%eax, 8(%rsp)
	movq	$0, (%rsp)
	leaq	48(%rsp), %rdi
	movq	%rbx, %rsi
	movq	%r12, %rdx
	movq	%r15, %rcx
	movq	%r12, %r8
	movq	%r15, %r9
	vzeroupper
	callq	"writer::write_by"
	movzbl	48(%rsp), %edx
	movq	56(%rsp), %rax
	movq	64(%rsp), %rcx
	testb	%dl, %dl
	jne	.LBB60_36
.LBB60_35:
	movq	$0, (%r13)
	jmp	.LBB60_54
.LBB60_29:
	movl	$3, %eax
	jmp	.LBB60_5
.LBB60_23:
	movl	$2, %eax
	jmp	.LBB60_5
.LBB60_49:
	movl	$16, %ebp
	xorl	%eax, %eax
	jmp	.LBB60_53
.LBB60_46:
	movl	$13, %ebp
	xorl	%eax, %eax
	jmp	.LBB60_53
.LBB60_39:
	movl	$6, %ebp
	jmp	.LBB60_52
.LBB60_47:
	movl	$14, %ebp
	xorl	%eax, %eax
	jmp	.LBB60_53
.LBB60_44:
	movl	$11, %ebp
	xorl	%eax, %eax
	jmp	.LBB60_53
.LBB60_51:
	movl	$3, %ebp
	jmp	.LBB60_52
.LBB60_50:
	movl	$17, %ebp
	xorl	%eax, %eax
	jmp	.LBB60_53
.LBB60_38:
	movl	$4, %ebp
	jmp	.LBB60_52
.LBB60_40:
	movl	$7, %ebp
	jmp	.LBB60_52
.LBB60_48:
	movl	$15, %ebp
	xorl	%eax, %eax
	jmp	.LBB60_53
.LBB60_41:
	movl	$8, %ebp
	jmp	.LBB60_52
.LBB60_45:
	movl	$12, %ebp
.LBB60_52:
	movq	%rcx, %rax
.LBB60_53:
	movq	%rbp, (%r13)
.LBB60_54:
	movq	%rax, 8(%r13)
	addq	$2152, %rsp
	popq	%rbx
	popq	%r12
	popq	%r13
	popq	%r14
	popq	%r15
	popq	%rbp
	vzeroupper
	retq
.LBB60_43:
	movl	$10, %ebp
	xorl	%eax, %eax
	jmp	.LBB60_53
.LBB60_55:
	orq	$1, %r11
	movq	%r11, %rcx
	jmp	.LBB60_19
.Lfunc_end60:
	.size	signalfern_write_to, .Lfunc_end60-signalfern_write_to
	.section	.rodata.signalfern_write_to,"a",@progbits
	.p2align	2, 0x0
.LJTI60_0:
	.long	.LBB60_53-.LJTI60_0
	.long	.LBB60_37-.LJTI60_0
	.long	.LBB60_51-.LJTI60_0
	.long	.LBB60_38-.LJTI60_0
	.long	.LBB60_39-.LJTI60_0
	.long	.LBB60_40-.LJTI60_0
	.long	.LBB60_41-.LJTI60_0
	.long	.LBB60_42-.LJTI60_0
	.long	.LBB60_43-.LJTI60_0
	.long	.LBB60_44-.LJTI60_0
	.long	.LBB60_45-.LJTI60_0
	.long	.LBB60_46-.LJTI60_0
	.long	.LBB60_47-.LJTI60_0
	.long	.LBB60_48-.LJTI60_0
	.long	.LBB60_49-.LJTI60_0
	.long	.LBB60_50-.LJTI60_0

	.type	".Lswitch.table.page::fill_by",@object
	.section	.rodata.cst16,"aM",@progbits,16
".Lswitch.table.page::fill_by":
	.ascii	"\001\002\003\004\006\007\b\t\n\013\f\r\016\017\020\021"
	.size	".Lswitch.table.page::fill_by", 16

	.ident	"rattle logic=dac8208d650f15bf3e2dc313a14fa4c783a3acf887bdfab66e1714b038d9e11b"
	.section	".note.GNU-stack","",@progbits
