	.file	"rattle"
	.section	".text.checker::check","ax",@progbits
	.p2align	4                               # -- Begin function checker::check
	.type	"checker::check",@function
"checker::check":                       # @"checker::check"
	.cfi_startproc
# %bb.0:                                # %start
	pushq	%rbp
	.cfi_def_cfa_offset 16
	pushq	%r15
	.cfi_def_cfa_offset 24
	pushq	%r14
	.cfi_def_cfa_offset 32
	pushq	%r13
	.cfi_def_cfa_offset 40
	pushq	%r12
	.cfi_def_cfa_offset 48
	pushq	%rbx
	.cfi_def_cfa_offset 56
	subq	$3072, %rsp                     # imm = 0xC00
	.cfi_adjust_cfa_offset 3072
	movq	$0, (%rsp)
	subq	$3072, %rsp                     # imm = 0xC00
	.cfi_adjust_cfa_offset 3072
	movq	$0, (%rsp)
	subq	$2840, %rsp                     # imm = 0xB18
	.cfi_def_cfa_offset 9040
	.cfi_offset %rbx, -56
	.cfi_offset %r12, -48
	.cfi_offset %r13, -40
	.cfi_offset %r14, -32
	.cfi_offset %r15, -24
	.cfi_offset %rbp, -16
	movq	%r8, 8(%rsp)                    # 8-byte Spill
	movq	%rcx, %r13
	movq	%rdx, %rbp
	movq	%rsi, %r12
	movq	%rdi, %rbx
	movq	9064(%rsp), %rcx
	movq	9048(%rsp), %rax
	cmpq	$65, %rsi
	movq	%r9, (%rsp)                     # 8-byte Spill
	jae	.LBB0_27
# %bb.1:                                # %then.1
	cmpq	$65537, %rcx                    # imm = 0x10001
	setae	%cl
	cmpq	%rax, %r9
	setne	%al
	cmpq	$2050, %r13                     # imm = 0x802
	setae	%dl
	cmpq	$2, %r12
	setb	%r14b
	orb	%dl, %r14b
	orb	%r13b, %r14b
	orb	%al, %r14b
	orb	%cl, %r14b
	leaq	792(%rsp), %rdi
	xorl	%r15d, %r15d
	movl	$2048, %edx                     # imm = 0x800
	xorl	%esi, %esi
	callq	memset@PLT
	movb	$1, %dl
	testb	$1, %r14b
	jne	.LBB0_28
# %bb.2:                                # %join.3.i.i.i
	testq	%r13, %r13
	je	.LBB0_9
# %bb.3:                                # %join.5.i.i.i.i.preheader
	shrq	%r13
	xorl	%edi, %edi
	xorl	%esi, %esi
	.p2align	4
.LBB0_4:                                # %join.5.i.i.i.i
                                        # =>This Inner Loop Header: Depth=1
	movzwl	(%rbp,%rsi,4), %eax
	movzwl	2(%rbp,%rsi,4), %ecx
	movw	$1, %r8w
	cmpw	%cx, %ax
	je	.LBB0_58
# %bb.5:                                # %join.5.i.i.i.i
                                        #   in Loop: Header=BB0_4 Depth=1
	cmpq	%rax, %r12
	jbe	.LBB0_58
# %bb.6:                                # %join.5.i.i.i.i
                                        #   in Loop: Header=BB0_4 Depth=1
	cmpq	%rcx, %r12
	jbe	.LBB0_58
# %bb.7:                                # %"first_bad::is_bad.exit.i.i.i.i"
                                        #   in Loop: Header=BB0_4 Depth=1
	movl	%eax, %r9d
	shll	$8, %r9d
	leal	(%rcx,%r9), %r10d
	shrl	$6, %r10d
	movq	792(%rsp,%r10,8), %r11
	movl	$1, %r9d
	movl	$1, %r15d
	shlq	%cl, %r15
	btq	%rcx, %r11
	jb	.LBB0_52
# %bb.8:                                # %join.8.i.i.i.i
                                        #   in Loop: Header=BB0_4 Depth=1
	shlq	$3, %r10
	orq	%r15, %r11
	movq	%r11, 792(%rsp,%r10)
	shll	$8, %ecx
	leal	(%rax,%rcx), %r8d
	movl	%eax, %ecx
	shlq	%cl, %r9
	shrl	$6, %r8d
	orq	%r9, 792(%rsp,%r8,8)
	incq	%rsi
	cmpq	%rsi, %r13
	jne	.LBB0_4
.LBB0_9:                                # %join.5.i.preheader.i.i.i.i.i.i.preheader
	movl	$1, %edi
	xorl	%eax, %eax
	movl	$1, %ecx
	movq	(%rsp), %r9                     # 8-byte Reload
	.p2align	4
.LBB0_10:                               # %join.5.i.preheader.i.i.i.i.i.i
                                        # =>This Loop Header: Depth=1
                                        #     Child Loop BB0_11 Depth 2
	xorl	%esi, %esi
	.p2align	4
.LBB0_11:                               # %join.5.i.i.i.i.i.i.i
                                        #   Parent Loop BB0_10 Depth=1
                                        # =>  This Inner Loop Header: Depth=2
	movq	%rdi, %r8
	rep		bsfq	%rdi, %rdi
	shll	$5, %edi
	orq	792(%rsp,%rdi), %rsi
	leaq	-1(%r8), %rdi
	andq	%r8, %rdi
	jne	.LBB0_11
# %bb.12:                               # %"apart::beside_word.exit.i.i.i.i.i.i"
                                        #   in Loop: Header=BB0_10 Depth=1
	movq	%rsi, %r8
	orq	%rcx, %r8
	incq	%rax
	cmpq	%r12, %rax
	jae	.LBB0_14
# %bb.13:                               # %"apart::beside_word.exit.i.i.i.i.i.i"
                                        #   in Loop: Header=BB0_10 Depth=1
	notq	%rcx
	andq	%rcx, %rsi
	movq	%rsi, %rdi
	movq	%r8, %rcx
	jne	.LBB0_10
.LBB0_14:                               # %"apart::narrow_apart.exit.i.i.i.i"
	notq	%r8
	movl	$64, %edi
	rep		bsfq	%r8, %rdi
	cmpq	%r12, %rdi
	jb	.LBB0_57
# %bb.15:                               # %join.10.i.i.i
	leaq	-2(%r12), %rax
	cmpq	%r9, %rax
	jb	.LBB0_81
# %bb.16:                               # %join.13.i.i.i
	pxor	%xmm0, %xmm0
	movdqa	%xmm0, 512(%rsp)
	movdqa	%xmm0, 496(%rsp)
	movdqa	%xmm0, 480(%rsp)
	movdqa	%xmm0, 464(%rsp)
	movdqa	%xmm0, 448(%rsp)
	movdqa	%xmm0, 432(%rsp)
	movdqa	%xmm0, 416(%rsp)
	movdqa	%xmm0, 400(%rsp)
	movdqa	%xmm0, 384(%rsp)
	movdqa	%xmm0, 368(%rsp)
	movdqa	%xmm0, 352(%rsp)
	movdqa	%xmm0, 336(%rsp)
	movdqa	%xmm0, 320(%rsp)
	movdqa	%xmm0, 304(%rsp)
	movdqa	%xmm0, 288(%rsp)
	movdqa	%xmm0, 272(%rsp)
	testq	%r9, %r9
	je	.LBB0_61
# %bb.17:                               # %join.6.i.i.i.i.preheader
	xorl	%r15d, %r15d
	movq	9040(%rsp), %rcx
	movq	8(%rsp), %r14                   # 8-byte Reload
	.p2align	4
.LBB0_18:                               # %join.6.i.i.i.i
                                        # =>This Inner Loop Header: Depth=1
	movzwl	(%r14,%r15,2), %eax
	cmpq	%rax, %r12
	jbe	.LBB0_60
# %bb.19:                               # %else.11.i.i.i.i
                                        #   in Loop: Header=BB0_18 Depth=1
	cmpb	$1, 272(%rsp,%rax)
	je	.LBB0_60
# %bb.20:                               # %after.8.i.i.i.i
                                        #   in Loop: Header=BB0_18 Depth=1
	movb	$1, 272(%rsp,%rax)
	incq	%r15
	cmpq	%r15, %r9
	jne	.LBB0_18
# %bb.21:                               # %join.6.i121.preheader.i.i.i
	pxor	%xmm0, %xmm0
	movdqa	%xmm0, 512(%rsp)
	movdqa	%xmm0, 496(%rsp)
	movdqa	%xmm0, 480(%rsp)
	movdqa	%xmm0, 464(%rsp)
	movdqa	%xmm0, 448(%rsp)
	movdqa	%xmm0, 432(%rsp)
	movdqa	%xmm0, 416(%rsp)
	movdqa	%xmm0, 400(%rsp)
	movdqa	%xmm0, 384(%rsp)
	movdqa	%xmm0, 368(%rsp)
	movdqa	%xmm0, 352(%rsp)
	movdqa	%xmm0, 336(%rsp)
	movdqa	%xmm0, 320(%rsp)
	movdqa	%xmm0, 304(%rsp)
	movdqa	%xmm0, 288(%rsp)
	movdqa	%xmm0, 272(%rsp)
	xorl	%r15d, %r15d
.LBB0_22:                               # %join.6.i121.i.i.i
                                        # =>This Inner Loop Header: Depth=1
	movzwl	(%rcx,%r15,2), %eax
	cmpq	%rax, %r12
	jbe	.LBB0_78
# %bb.23:                               # %else.11.i132.i.i.i
                                        #   in Loop: Header=BB0_22 Depth=1
	cmpb	$1, 272(%rsp,%rax)
	je	.LBB0_78
# %bb.24:                               # %after.8.i136.i.i.i
                                        #   in Loop: Header=BB0_22 Depth=1
	movb	$1, 272(%rsp,%rax)
	incq	%r15
	cmpq	%r15, %r9
	jne	.LBB0_22
# %bb.25:                               # %join.5.i.i.preheader.i.i.i
	leaq	(%r9,%r9), %r12
	movl	$512, %edx                      # imm = 0x200
	subq	%r12, %rdx
	leaq	(%rsp,%r9,2), %rdi
	addq	$272, %rdi                      # imm = 0x110
	xorl	%r15d, %r15d
	xorl	%esi, %esi
	callq	memset@PLT
	leaq	272(%rsp), %rdi
	movq	%r14, %rsi
	movq	%r12, %rdx
	callq	memcpy@PLT
	movq	(%rsp), %r9                     # 8-byte Reload
	pxor	%xmm0, %xmm0
	movdqa	%xmm0, 16(%rsp)
	movdqa	%xmm0, 32(%rsp)
	movdqa	%xmm0, 48(%rsp)
	movdqa	%xmm0, 64(%rsp)
	movdqa	%xmm0, 80(%rsp)
	movdqa	%xmm0, 96(%rsp)
	movdqa	%xmm0, 112(%rsp)
	movdqa	%xmm0, 128(%rsp)
	movdqa	%xmm0, 144(%rsp)
	movdqa	%xmm0, 160(%rsp)
	movdqa	%xmm0, 176(%rsp)
	movdqa	%xmm0, 192(%rsp)
	movdqa	%xmm0, 208(%rsp)
	movdqa	%xmm0, 224(%rsp)
	movdqa	%xmm0, 240(%rsp)
	movdqa	%xmm0, 256(%rsp)
	movl	%r9d, %eax
	andl	$3, %eax
	cmpq	$4, %r9
	jae	.LBB0_114
# %bb.26:
	movq	9064(%rsp), %r10
	movq	9056(%rsp), %r11
	movq	8(%rsp), %rsi                   # 8-byte Reload
	jmp	.LBB0_117
.LBB0_27:                               # %join.3
	cmpq	$65537, %rcx                    # imm = 0x10001
	setae	%cl
	cmpq	%rax, %r9
	setne	%al
	cmpq	$2050, %r13                     # imm = 0x802
	setae	%dl
	cmpq	$257, %r12                      # imm = 0x101
	setae	%r14b
	orb	%dl, %r14b
	orb	%r13b, %r14b
	orb	%al, %r14b
	orb	%cl, %r14b
	leaq	792(%rsp), %rdi
	xorl	%r15d, %r15d
	movl	$8192, %edx                     # imm = 0x2000
	xorl	%esi, %esi
	callq	memset@PLT
	movb	$1, %dl
	testb	$1, %r14b
	je	.LBB0_30
.LBB0_28:
	xorl	%r8d, %r8d
.LBB0_29:                               # %"checker::check_by::<=256>.exit"
	xorl	%edi, %edi
	xorl	%esi, %esi
	jmp	.LBB0_112
.LBB0_30:                               # %join.3.i.i.i19
	testq	%r13, %r13
	je	.LBB0_37
# %bb.31:                               # %join.5.i.i.i.i22.preheader
	shrq	%r13
	xorl	%edi, %edi
	xorl	%esi, %esi
	.p2align	4
.LBB0_32:                               # %join.5.i.i.i.i22
                                        # =>This Inner Loop Header: Depth=1
	movzwl	(%rbp,%rsi,4), %eax
	movzwl	2(%rbp,%rsi,4), %ecx
	movw	$1, %r8w
	cmpw	%cx, %ax
	je	.LBB0_58
# %bb.33:                               # %join.5.i.i.i.i22
                                        #   in Loop: Header=BB0_32 Depth=1
	cmpq	%rax, %r12
	jbe	.LBB0_58
# %bb.34:                               # %join.5.i.i.i.i22
                                        #   in Loop: Header=BB0_32 Depth=1
	cmpq	%rcx, %r12
	jbe	.LBB0_58
# %bb.35:                               # %"first_bad::is_bad.exit.i.i.i.i36"
                                        #   in Loop: Header=BB0_32 Depth=1
	movl	%eax, %r9d
	shll	$8, %r9d
	leal	(%rcx,%r9), %r10d
	shrl	$6, %r10d
	movq	792(%rsp,%r10,8), %r11
	movl	$1, %r9d
	movl	$1, %r15d
	shlq	%cl, %r15
	btq	%rcx, %r11
	jb	.LBB0_52
# %bb.36:                               # %join.8.i.i.i.i52
                                        #   in Loop: Header=BB0_32 Depth=1
	shlq	$3, %r10
	orq	%r15, %r11
	movq	%r11, 792(%rsp,%r10)
	shll	$8, %ecx
	leal	(%rax,%rcx), %r8d
	movl	%eax, %ecx
	shlq	%cl, %r9
	shrl	$6, %r8d
	orq	%r9, 792(%rsp,%r8,8)
	incq	%rsi
	cmpq	%rsi, %r13
	jne	.LBB0_32
.LBB0_37:                               # %join.7.i.i.i63
	movl	$1, %edi
	xorl	%eax, %eax
	xorl	%esi, %esi
	xorl	%ecx, %ecx
	xorl	%r11d, %r11d
	xorl	%r10d, %r10d
	xorl	%r9d, %r9d
	xorl	%r8d, %r8d
	movl	$1, %r15d
	jmp	.LBB0_39
	.p2align	4
.LBB0_38:                               # %"words::beside.exit.i.i.i.i.i"
                                        #   in Loop: Header=BB0_39 Depth=1
	movq	%rdi, %r15
	notq	%r15
	movq	%xmm0, %r9
	andq	%r9, %r15
	orq	%r9, %rdi
	movq	%rcx, %r11
	notq	%r11
	pshufd	$238, %xmm0, %xmm0              # xmm0 = xmm0[2,3,2,3]
	movq	%xmm0, %r9
	andq	%r9, %r11
	orq	%r9, %rcx
	movq	%rsi, %r10
	notq	%r10
	movq	%xmm1, %r9
	andq	%r9, %r10
	orq	%r9, %rsi
	movq	%rax, %r9
	notq	%r9
	pshufd	$238, %xmm1, %xmm0              # xmm0 = xmm1[2,3,2,3]
	movq	%xmm0, %r14
	andq	%r14, %r9
	orq	%r14, %rax
	incq	%r8
	cmpq	%r12, %r8
	je	.LBB0_50
.LBB0_39:                               # %join.7.i.i.i.i.i
                                        # =>This Loop Header: Depth=1
                                        #     Child Loop BB0_40 Depth 2
                                        #     Child Loop BB0_43 Depth 2
                                        #     Child Loop BB0_45 Depth 2
                                        #     Child Loop BB0_47 Depth 2
	pxor	%xmm0, %xmm0
	pxor	%xmm1, %xmm1
	testq	%r15, %r15
	je	.LBB0_42
	.p2align	4
.LBB0_40:                               # %join.5.i.i.i5.i.i.i.i
                                        #   Parent Loop BB0_39 Depth=1
                                        # =>  This Inner Loop Header: Depth=2
	movq	%r15, %r14
	rep		bsfq	%r15, %r15
	shll	$5, %r15d
	movdqu	792(%rsp,%r15), %xmm2
	por	%xmm2, %xmm0
	movdqu	808(%rsp,%r15), %xmm2
	por	%xmm2, %xmm1
	leaq	-1(%r14), %r15
	andq	%r14, %r15
	jne	.LBB0_40
# %bb.41:                               # %"words::join_word.exit.i.i.i.i.i.i"
                                        #   in Loop: Header=BB0_39 Depth=1
	testq	%r11, %r11
	jne	.LBB0_43
	jmp	.LBB0_44
	.p2align	4
.LBB0_42:                               # %join.5.i.preheader.i.i.i.i.i
                                        #   in Loop: Header=BB0_39 Depth=1
	testq	%r11, %r11
	je	.LBB0_48
	.p2align	4
.LBB0_43:                               # %join.5.i.1.i.i.i.i.i.i
                                        #   Parent Loop BB0_39 Depth=1
                                        # =>  This Inner Loop Header: Depth=2
	movq	%r11, %r14
	rep		bsfq	%r11, %r11
	shll	$5, %r11d
	movdqu	2840(%rsp,%r11), %xmm2
	por	%xmm2, %xmm0
	movdqu	2856(%rsp,%r11), %xmm2
	por	%xmm2, %xmm1
	leaq	-1(%r14), %r11
	andq	%r14, %r11
	jne	.LBB0_43
.LBB0_44:                               # %"words::join_word.exit.1.i.i.i.i.i.i"
                                        #   in Loop: Header=BB0_39 Depth=1
	testq	%r10, %r10
	je	.LBB0_46
	.p2align	4
.LBB0_45:                               # %join.5.i.2.i.i.i.i.i.i
                                        #   Parent Loop BB0_39 Depth=1
                                        # =>  This Inner Loop Header: Depth=2
	movq	%r10, %r11
	rep		bsfq	%r10, %r10
	shll	$5, %r10d
	movdqu	4888(%rsp,%r10), %xmm2
	por	%xmm2, %xmm0
	movdqu	4904(%rsp,%r10), %xmm2
	por	%xmm2, %xmm1
	leaq	-1(%r11), %r10
	andq	%r11, %r10
	jne	.LBB0_45
.LBB0_46:                               # %"words::join_word.exit.2.i.i.i.i.i.i"
                                        #   in Loop: Header=BB0_39 Depth=1
	testq	%r9, %r9
	je	.LBB0_38
	.p2align	4
.LBB0_47:                               # %join.5.i.3.i.i.i.i.i.i
                                        #   Parent Loop BB0_39 Depth=1
                                        # =>  This Inner Loop Header: Depth=2
	movq	%r9, %r10
	rep		bsfq	%r9, %r9
	shll	$5, %r9d
	movdqu	6936(%rsp,%r9), %xmm2
	por	%xmm2, %xmm0
	movdqu	6952(%rsp,%r9), %xmm2
	por	%xmm2, %xmm1
	leaq	-1(%r10), %r9
	andq	%r10, %r9
	jne	.LBB0_47
	jmp	.LBB0_38
.LBB0_48:                               # %join.8.i.i.i.i.i.i
                                        #   in Loop: Header=BB0_39 Depth=1
	testq	%r10, %r10
	jne	.LBB0_45
# %bb.49:                               # %join.8.i.1.i.i.i.i.i
                                        #   in Loop: Header=BB0_39 Depth=1
	testq	%r9, %r9
	jne	.LBB0_47
.LBB0_50:                               # %"apart::reach.exit.i.i.i.i"
	cmpq	$-1, %rdi
	je	.LBB0_53
# %bb.51:
	xorl	%r8d, %r8d
	movq	%rdi, %rcx
	movq	(%rsp), %r9                     # 8-byte Reload
	jmp	.LBB0_56
.LBB0_58:
	xorl	%r15d, %r15d
	jmp	.LBB0_112
.LBB0_52:
	xorl	%edi, %edi
	xorl	%r15d, %r15d
	jmp	.LBB0_112
.LBB0_53:                               # %join.5.i.preheader.i.i.i.i
	movl	$64, %r8d
	cmpq	$-1, %rcx
	movq	(%rsp), %r9                     # 8-byte Reload
	jne	.LBB0_56
# %bb.54:                               # %join.8.i.i.i.i.i
	movl	$128, %r8d
	movq	%rsi, %rcx
	cmpq	$-1, %rsi
	jne	.LBB0_56
# %bb.55:                               # %join.8.i.1.i.i.i.i
	movl	$192, %r8d
	movq	%rax, %rcx
	cmpq	$-1, %rax
	je	.LBB0_79
.LBB0_56:                               # %then.6.i.i.i.i.i
	notq	%rcx
	rep		bsfq	%rcx, %rdi
	orq	%r8, %rdi
	movq	9040(%rsp), %rcx
	cmpq	%r12, %rdi
	jae	.LBB0_80
.LBB0_57:                               # %arm.8.i.i.i
	xorl	%r15d, %r15d
	movw	$2, %r8w
	xorl	%esi, %esi
	jmp	.LBB0_112
.LBB0_61:                               # %"copies::copy::<i16,21'core::clone::U16Clone{}>.exit.thread.i.i.i.i"
	leaq	272(%rsp), %rdi
	movl	$512, %edx                      # imm = 0x200
	xorl	%esi, %esi
	callq	memset@PLT
	movq	(%rsp), %r9                     # 8-byte Reload
	pxor	%xmm0, %xmm0
	movdqa	%xmm0, 256(%rsp)
	movdqa	%xmm0, 240(%rsp)
	movdqa	%xmm0, 224(%rsp)
	movdqa	%xmm0, 208(%rsp)
	movdqa	%xmm0, 192(%rsp)
	movdqa	%xmm0, 176(%rsp)
	movdqa	%xmm0, 160(%rsp)
	movdqa	%xmm0, 144(%rsp)
	movdqa	%xmm0, 128(%rsp)
	movdqa	%xmm0, 112(%rsp)
	movdqa	%xmm0, 96(%rsp)
	movdqa	%xmm0, 80(%rsp)
	movdqa	%xmm0, 64(%rsp)
	movdqa	%xmm0, 48(%rsp)
	movdqa	%xmm0, 32(%rsp)
	movdqa	%xmm0, 16(%rsp)
	movq	9064(%rsp), %r10
	movq	9056(%rsp), %r11
.LBB0_62:                               # %"replay::occupy.exit.i.i.i.i"
	xorl	%r15d, %r15d
	xorl	%esi, %esi
	testq	%r10, %r10
	je	.LBB0_69
.LBB0_63:                               # %join.5.i.i.i.i.i.i
                                        # =>This Inner Loop Header: Depth=1
	movq	(%r11,%rsi,8), %rax
	movq	%rax, %rcx
	shrq	$32, %rcx
	cmpq	%rcx, %r9
	jbe	.LBB0_69
# %bb.64:                               # %join.3.i.i.i.i.i.i.i
                                        #   in Loop: Header=BB0_63 Depth=1
	movq	%rax, %rdx
	shrq	$16, %rdx
	cmpw	%dx, 272(%rsp,%rcx,2)
	jne	.LBB0_69
# %bb.65:                               # %join.6.i.i.i.i.i.i.i
                                        #   in Loop: Header=BB0_63 Depth=1
	movzwl	%ax, %edi
	cmpq	$63, %rdi
	ja	.LBB0_69
# %bb.66:                               # %join.9.i.i.i.i.i.i.i
                                        #   in Loop: Header=BB0_63 Depth=1
	movzwl	%dx, %r8d
	shll	$5, %r8d
	movq	792(%rsp,%r8), %r8
	btq	%rax, %r8
	jae	.LBB0_69
# %bb.67:                               # %"replay::is_legal.exit.i.i.i.i.i.i"
                                        #   in Loop: Header=BB0_63 Depth=1
	cmpb	$1, 16(%rsp,%rdi)
	je	.LBB0_69
# %bb.68:                               # %join.8.i.i.i.i9.i.i
                                        #   in Loop: Header=BB0_63 Depth=1
	movzwl	%dx, %edx
	movw	%ax, 272(%rsp,%rcx,2)
	movb	$0, 16(%rsp,%rdx)
	movb	$1, 16(%rsp,%rdi)
	incq	%rsi
	cmpq	%rsi, %r10
	jne	.LBB0_63
	jmp	.LBB0_71
.LBB0_69:                               # %"replay::play.exit.i.i.i.i"
	cmpq	%r10, %rsi
	jb	.LBB0_103
# %bb.70:                               # %join.4.i.i.i.i.i
	testq	%r9, %r9
	je	.LBB0_108
.LBB0_71:                               # %join.5.i.i9.i.i.i.i.preheader
	xorl	%r15d, %r15d
	movq	9040(%rsp), %rcx
.LBB0_72:                               # %join.5.i.i9.i.i.i.i
                                        # =>This Inner Loop Header: Depth=1
	movzwl	272(%rsp,%r15,2), %eax
	cmpw	(%rcx,%r15,2), %ax
	jne	.LBB0_109
# %bb.73:                               # %join.8.i.i10.i.i.i.i
                                        #   in Loop: Header=BB0_72 Depth=1
	incq	%r15
	cmpq	%r15, %r9
	jne	.LBB0_72
	jmp	.LBB0_108
.LBB0_79:
	movl	$256, %edi                      # imm = 0x100
	movq	9040(%rsp), %rcx
	cmpq	%r12, %rdi
	jb	.LBB0_57
.LBB0_80:                               # %join.10.i.i.i64
	leaq	-2(%r12), %rax
	cmpq	%r9, %rax
	jae	.LBB0_82
.LBB0_81:
	xorl	%edi, %edi
	movw	$3, %r8w
	xorl	%r15d, %r15d
	xorl	%esi, %esi
	jmp	.LBB0_112
.LBB0_82:                               # %join.13.i.i.i67
	pxor	%xmm0, %xmm0
	movdqa	%xmm0, 512(%rsp)
	movdqa	%xmm0, 496(%rsp)
	movdqa	%xmm0, 480(%rsp)
	movdqa	%xmm0, 464(%rsp)
	movdqa	%xmm0, 448(%rsp)
	movdqa	%xmm0, 432(%rsp)
	movdqa	%xmm0, 416(%rsp)
	movdqa	%xmm0, 400(%rsp)
	movdqa	%xmm0, 384(%rsp)
	movdqa	%xmm0, 368(%rsp)
	movdqa	%xmm0, 352(%rsp)
	movdqa	%xmm0, 336(%rsp)
	movdqa	%xmm0, 320(%rsp)
	movdqa	%xmm0, 304(%rsp)
	movdqa	%xmm0, 288(%rsp)
	movdqa	%xmm0, 272(%rsp)
	testq	%r9, %r9
	je	.LBB0_94
# %bb.83:                               # %join.6.i.i.i.i69.preheader
	xorl	%r15d, %r15d
	movq	8(%rsp), %r14                   # 8-byte Reload
	.p2align	4
.LBB0_84:                               # %join.6.i.i.i.i69
                                        # =>This Inner Loop Header: Depth=1
	movzwl	(%r14,%r15,2), %eax
	cmpq	%rax, %r12
	jbe	.LBB0_60
# %bb.85:                               # %else.11.i.i.i.i78
                                        #   in Loop: Header=BB0_84 Depth=1
	cmpb	$1, 272(%rsp,%rax)
	je	.LBB0_60
# %bb.86:                               # %after.8.i.i.i.i82
                                        #   in Loop: Header=BB0_84 Depth=1
	movb	$1, 272(%rsp,%rax)
	incq	%r15
	cmpq	%r15, %r9
	jne	.LBB0_84
# %bb.87:                               # %join.6.i121.preheader.i.i.i85
	pxor	%xmm0, %xmm0
	movdqa	%xmm0, 512(%rsp)
	movdqa	%xmm0, 496(%rsp)
	movdqa	%xmm0, 480(%rsp)
	movdqa	%xmm0, 464(%rsp)
	movdqa	%xmm0, 448(%rsp)
	movdqa	%xmm0, 432(%rsp)
	movdqa	%xmm0, 416(%rsp)
	movdqa	%xmm0, 400(%rsp)
	movdqa	%xmm0, 384(%rsp)
	movdqa	%xmm0, 368(%rsp)
	movdqa	%xmm0, 352(%rsp)
	movdqa	%xmm0, 336(%rsp)
	movdqa	%xmm0, 320(%rsp)
	movdqa	%xmm0, 304(%rsp)
	movdqa	%xmm0, 288(%rsp)
	movdqa	%xmm0, 272(%rsp)
	xorl	%r15d, %r15d
.LBB0_88:                               # %join.6.i121.i.i.i86
                                        # =>This Inner Loop Header: Depth=1
	movzwl	(%rcx,%r15,2), %eax
	cmpq	%rax, %r12
	jbe	.LBB0_78
# %bb.89:                               # %else.11.i132.i.i.i95
                                        #   in Loop: Header=BB0_88 Depth=1
	cmpb	$1, 272(%rsp,%rax)
	je	.LBB0_78
# %bb.90:                               # %after.8.i136.i.i.i99
                                        #   in Loop: Header=BB0_88 Depth=1
	movb	$1, 272(%rsp,%rax)
	incq	%r15
	cmpq	%r15, %r9
	jne	.LBB0_88
# %bb.91:                               # %join.5.i.i.preheader.i.i.i102
	leaq	(%r9,%r9), %r12
	movl	$512, %edx                      # imm = 0x200
	subq	%r12, %rdx
	leaq	(%rsp,%r9,2), %rdi
	addq	$272, %rdi                      # imm = 0x110
	xorl	%r15d, %r15d
	xorl	%esi, %esi
	callq	memset@PLT
	leaq	272(%rsp), %rdi
	movq	%r14, %rsi
	movq	%r12, %rdx
	callq	memcpy@PLT
	movq	(%rsp), %r10                    # 8-byte Reload
	pxor	%xmm0, %xmm0
	movdqa	%xmm0, 16(%rsp)
	movdqa	%xmm0, 32(%rsp)
	movdqa	%xmm0, 48(%rsp)
	movdqa	%xmm0, 64(%rsp)
	movdqa	%xmm0, 80(%rsp)
	movdqa	%xmm0, 96(%rsp)
	movdqa	%xmm0, 112(%rsp)
	movdqa	%xmm0, 128(%rsp)
	movdqa	%xmm0, 144(%rsp)
	movdqa	%xmm0, 160(%rsp)
	movdqa	%xmm0, 176(%rsp)
	movdqa	%xmm0, 192(%rsp)
	movdqa	%xmm0, 208(%rsp)
	movdqa	%xmm0, 224(%rsp)
	movdqa	%xmm0, 240(%rsp)
	movdqa	%xmm0, 256(%rsp)
	movl	%r10d, %eax
	andl	$3, %eax
	cmpq	$4, %r10
	jae	.LBB0_119
# %bb.92:
	movq	9064(%rsp), %r11
	movq	9056(%rsp), %r14
	movq	8(%rsp), %rsi                   # 8-byte Reload
	jmp	.LBB0_122
.LBB0_60:                               # %arm.14.i.i.i
	movw	$4, %r8w
	jmp	.LBB0_29
.LBB0_94:                               # %"copies::copy::<i16,21'core::clone::U16Clone{}>.exit.thread.i.i.i.i168"
	leaq	272(%rsp), %rdi
	movl	$512, %edx                      # imm = 0x200
	xorl	%esi, %esi
	callq	memset@PLT
	movq	(%rsp), %r10                    # 8-byte Reload
	pxor	%xmm0, %xmm0
	movdqa	%xmm0, 256(%rsp)
	movdqa	%xmm0, 240(%rsp)
	movdqa	%xmm0, 224(%rsp)
	movdqa	%xmm0, 208(%rsp)
	movdqa	%xmm0, 192(%rsp)
	movdqa	%xmm0, 176(%rsp)
	movdqa	%xmm0, 160(%rsp)
	movdqa	%xmm0, 144(%rsp)
	movdqa	%xmm0, 128(%rsp)
	movdqa	%xmm0, 112(%rsp)
	movdqa	%xmm0, 96(%rsp)
	movdqa	%xmm0, 80(%rsp)
	movdqa	%xmm0, 64(%rsp)
	movdqa	%xmm0, 48(%rsp)
	movdqa	%xmm0, 32(%rsp)
	movdqa	%xmm0, 16(%rsp)
	movq	9064(%rsp), %r11
	movq	9056(%rsp), %r14
.LBB0_95:                               # %"replay::occupy.exit.i.i.i.i112"
	xorl	%r15d, %r15d
	xorl	%esi, %esi
	testq	%r11, %r11
	je	.LBB0_102
.LBB0_96:                               # %join.5.i.i.i.i.i.i114
                                        # =>This Inner Loop Header: Depth=1
	movq	(%r14,%rsi,8), %rax
	movq	%rax, %rcx
	shrq	$32, %rcx
	cmpq	%rcx, %r10
	jbe	.LBB0_102
# %bb.97:                               # %join.3.i.i.i.i.i.i.i144
                                        #   in Loop: Header=BB0_96 Depth=1
	movq	%rax, %rdx
	shrq	$16, %rdx
	cmpw	%dx, 272(%rsp,%rcx,2)
	jne	.LBB0_102
# %bb.98:                               # %join.6.i.i.i.i.i.i.i150
                                        #   in Loop: Header=BB0_96 Depth=1
	movzwl	%ax, %edi
	cmpq	$255, %rdi
	ja	.LBB0_102
# %bb.99:                               # %join.9.i.i.i.i.i.i.i153
                                        #   in Loop: Header=BB0_96 Depth=1
	movl	%edx, %r8d
	shll	$8, %r8d
	movl	%edi, %r9d
	orl	%r8d, %r9d
	shrl	$3, %r9d
	andl	$2097144, %r9d                  # imm = 0x1FFFF8
	movq	792(%rsp,%r9), %r8
	btq	%rax, %r8
	jae	.LBB0_102
# %bb.100:                              # %"replay::is_legal.exit.i.i.i.i.i.i159"
                                        #   in Loop: Header=BB0_96 Depth=1
	cmpb	$1, 16(%rsp,%rdi)
	je	.LBB0_102
# %bb.101:                              # %join.8.i.i.i.i9.i.i163
                                        #   in Loop: Header=BB0_96 Depth=1
	movzwl	%dx, %edx
	movw	%ax, 272(%rsp,%rcx,2)
	movb	$0, 16(%rsp,%rdx)
	movb	$1, 16(%rsp,%rdi)
	incq	%rsi
	cmpq	%rsi, %r11
	jne	.LBB0_96
	jmp	.LBB0_105
.LBB0_102:                              # %"replay::play.exit.i.i.i.i122"
	cmpq	%r11, %rsi
	jae	.LBB0_104
.LBB0_103:
	movw	$8, %r8w
	movb	$1, %dl
	jmp	.LBB0_111
.LBB0_78:                               # %arm.17.i.i.i
	movw	$5, %r8w
	jmp	.LBB0_29
.LBB0_104:                              # %join.4.i.i.i.i.i125
	testq	%r10, %r10
	je	.LBB0_108
.LBB0_105:                              # %join.5.i.i9.i.i.i.i127.preheader
	xorl	%r15d, %r15d
	movq	9040(%rsp), %rcx
.LBB0_106:                              # %join.5.i.i9.i.i.i.i127
                                        # =>This Inner Loop Header: Depth=1
	movzwl	272(%rsp,%r15,2), %eax
	cmpw	(%rcx,%r15,2), %ax
	jne	.LBB0_109
# %bb.107:                              # %join.8.i.i10.i.i.i.i141
                                        #   in Loop: Header=BB0_106 Depth=1
	incq	%r15
	cmpq	%r15, %r10
	jne	.LBB0_106
.LBB0_108:
	xorl	%edx, %edx
	xorl	%r8d, %r8d
	xorl	%r15d, %r15d
	jmp	.LBB0_110
.LBB0_109:
	movw	$9, %r8w
	movb	$1, %dl
.LBB0_110:                              # %"checker::check_from.exit.i.i"
	xorl	%esi, %esi
.LBB0_111:                              # %"checker::check_from.exit.i.i"
	xorl	%edi, %edi
.LBB0_112:                              # %"checker::check_by::<=256>.exit"
	movb	%dl, (%rbx)
	movw	%r8w, 8(%rbx)
	movw	%di, 10(%rbx)
	movl	%r15d, 12(%rbx)
	movq	%rsi, 16(%rbx)
	addq	$8984, %rsp                     # imm = 0x2318
	.cfi_def_cfa_offset 56
	popq	%rbx
	.cfi_def_cfa_offset 48
	popq	%r12
	.cfi_def_cfa_offset 40
	popq	%r13
	.cfi_def_cfa_offset 32
	popq	%r14
	.cfi_def_cfa_offset 24
	popq	%r15
	.cfi_def_cfa_offset 16
	popq	%rbp
	.cfi_def_cfa_offset 8
	retq
.LBB0_114:                              # %join.5.i.i.preheader.i.i.i.new
	.cfi_def_cfa_offset 9040
	movq	%r9, %rcx
	andq	$-4, %rcx
	xorl	%r15d, %r15d
	movq	9064(%rsp), %r10
	movq	9056(%rsp), %r11
	movq	8(%rsp), %rsi                   # 8-byte Reload
.LBB0_115:                              # %join.6.i.i.i.i.i
                                        # =>This Inner Loop Header: Depth=1
	movzwl	(%rsi,%r15,2), %edx
	movb	$1, 16(%rsp,%rdx)
	movzwl	2(%rsi,%r15,2), %edx
	movb	$1, 16(%rsp,%rdx)
	movzwl	4(%rsi,%r15,2), %edx
	movb	$1, 16(%rsp,%rdx)
	movzwl	6(%rsi,%r15,2), %edx
	movb	$1, 16(%rsp,%rdx)
	addq	$4, %r15
	cmpq	%r15, %rcx
	jne	.LBB0_115
# %bb.116:                              # %"replay::occupy.exit.i.i.i.i.loopexit.unr-lcssa"
	testq	%rax, %rax
	je	.LBB0_62
.LBB0_117:                              # %join.6.i.i.i.i.i.epil.preheader
	leaq	(%rsi,%r15,2), %rcx
	xorl	%edx, %edx
.LBB0_118:                              # %join.6.i.i.i.i.i.epil
                                        # =>This Inner Loop Header: Depth=1
	movzwl	(%rcx,%rdx,2), %esi
	movb	$1, 16(%rsp,%rsi)
	incq	%rdx
	cmpq	%rdx, %rax
	jne	.LBB0_118
	jmp	.LBB0_62
.LBB0_119:                              # %join.5.i.i.preheader.i.i.i102.new
	movq	%r10, %rcx
	andq	$-4, %rcx
	xorl	%r15d, %r15d
	movq	9064(%rsp), %r11
	movq	9056(%rsp), %r14
	movq	8(%rsp), %rsi                   # 8-byte Reload
.LBB0_120:                              # %join.6.i.i.i.i.i103
                                        # =>This Inner Loop Header: Depth=1
	movzwl	(%rsi,%r15,2), %edx
	movb	$1, 16(%rsp,%rdx)
	movzwl	2(%rsi,%r15,2), %edx
	movb	$1, 16(%rsp,%rdx)
	movzwl	4(%rsi,%r15,2), %edx
	movb	$1, 16(%rsp,%rdx)
	movzwl	6(%rsi,%r15,2), %edx
	movb	$1, 16(%rsp,%rdx)
	addq	$4, %r15
	cmpq	%r15, %rcx
	jne	.LBB0_120
# %bb.121:                              # %"replay::occupy.exit.i.i.i.i112.loopexit.unr-lcssa"
	testq	%rax, %rax
	je	.LBB0_95
.LBB0_122:                              # %join.6.i.i.i.i.i103.epil.preheader
	leaq	(%rsi,%r15,2), %rcx
	xorl	%edx, %edx
.LBB0_123:                              # %join.6.i.i.i.i.i103.epil
                                        # =>This Inner Loop Header: Depth=1
	movzwl	(%rcx,%rdx,2), %esi
	movb	$1, 16(%rsp,%rsi)
	incq	%rdx
	cmpq	%rdx, %rax
	jne	.LBB0_123
	jmp	.LBB0_95
.Lfunc_end0:
	.size	"checker::check", .Lfunc_end0-"checker::check"
	.cfi_endproc
                                        # -- End function
	.section	.rodata.cst16,"aM",@progbits,16
	.p2align	4, 0x0                          # -- Begin function agreeing::work_out
.LCPI1_0:
	.long	65536                           # 0x10000
	.long	65536                           # 0x10000
	.long	65536                           # 0x10000
	.long	65536                           # 0x10000
.LCPI1_1:
	.byte	1                               # 0x1
	.byte	1                               # 0x1
	.byte	1                               # 0x1
	.byte	1                               # 0x1
	.zero	1
	.zero	1
	.zero	1
	.zero	1
	.zero	1
	.zero	1
	.zero	1
	.zero	1
	.zero	1
	.zero	1
	.zero	1
	.zero	1
.LCPI1_2:
	.long	1                               # 0x1
	.long	1                               # 0x1
	.long	1                               # 0x1
	.long	1                               # 0x1
	.section	".text.agreeing::work_out","ax",@progbits
	.p2align	4
	.type	"agreeing::work_out",@function
"agreeing::work_out":                   # @"agreeing::work_out"
	.cfi_startproc
# %bb.0:                                # %start
	pushq	%rbp
	.cfi_def_cfa_offset 16
	pushq	%r15
	.cfi_def_cfa_offset 24
	pushq	%r14
	.cfi_def_cfa_offset 32
	pushq	%r13
	.cfi_def_cfa_offset 40
	pushq	%r12
	.cfi_def_cfa_offset 48
	pushq	%rbx
	.cfi_def_cfa_offset 56
	subq	$3072, %rsp                     # imm = 0xC00
	.cfi_adjust_cfa_offset 3072
	movq	$0, (%rsp)
	subq	$3072, %rsp                     # imm = 0xC00
	.cfi_adjust_cfa_offset 3072
	movq	$0, (%rsp)
	subq	$3072, %rsp                     # imm = 0xC00
	.cfi_adjust_cfa_offset 3072
	movq	$0, (%rsp)
	subq	$536, %rsp                      # imm = 0x218
	.cfi_def_cfa_offset 9808
	.cfi_offset %rbx, -56
	.cfi_offset %r12, -48
	.cfi_offset %r13, -40
	.cfi_offset %r14, -32
	.cfi_offset %r15, -24
	.cfi_offset %rbp, -16
	movq	%r9, %r15
	movq	%r8, %r12
	movq	%rcx, %r13
	movq	%rdx, %r14
	movq	%rsi, 8(%rsp)                   # 8-byte Spill
	movq	%rdi, %rbx
	leaq	16(%rsp), %rdi
	xorl	%ebp, %ebp
	movl	$1024, %edx                     # imm = 0x400
	xorl	%esi, %esi
	callq	memset@PLT
	leaq	6680(%rsp), %rdi
	movl	$3072, %edx                     # imm = 0xC00
	xorl	%esi, %esi
	callq	memset@PLT
	leaq	1048(%rsp), %rdi
	movl	$512, %edx                      # imm = 0x200
	xorl	%esi, %esi
	callq	memset@PLT
	leaq	1560(%rsp), %rdi
	movl	$1024, %edx                     # imm = 0x400
	xorl	%esi, %esi
	callq	memset@PLT
	movdqa	.LCPI1_0(%rip), %xmm0           # xmm0 = [65536,65536,65536,65536]
	movdqa	%xmm0, 16(%rsp)
	movdqa	%xmm0, 32(%rsp)
	movdqa	%xmm0, 48(%rsp)
	movdqa	%xmm0, 64(%rsp)
	movdqa	%xmm0, 80(%rsp)
	movdqa	%xmm0, 96(%rsp)
	movdqa	%xmm0, 112(%rsp)
	movdqa	%xmm0, 128(%rsp)
	movdqa	%xmm0, 144(%rsp)
	movdqa	%xmm0, 160(%rsp)
	movdqa	%xmm0, 176(%rsp)
	movdqa	%xmm0, 192(%rsp)
	movdqa	%xmm0, 208(%rsp)
	movdqa	%xmm0, 224(%rsp)
	movdqa	%xmm0, 240(%rsp)
	movdqa	%xmm0, 256(%rsp)
	movdqa	%xmm0, 272(%rsp)
	movdqa	%xmm0, 288(%rsp)
	movdqa	%xmm0, 304(%rsp)
	movdqa	%xmm0, 320(%rsp)
	movdqa	%xmm0, 336(%rsp)
	movdqa	%xmm0, 352(%rsp)
	movdqa	%xmm0, 368(%rsp)
	movdqa	%xmm0, 384(%rsp)
	movdqa	%xmm0, 400(%rsp)
	movdqa	%xmm0, 416(%rsp)
	movdqa	%xmm0, 432(%rsp)
	movdqa	%xmm0, 448(%rsp)
	movdqa	%xmm0, 464(%rsp)
	movdqa	%xmm0, 480(%rsp)
	movdqa	%xmm0, 496(%rsp)
	movdqa	%xmm0, 512(%rsp)
	movdqa	%xmm0, 528(%rsp)
	movdqa	%xmm0, 544(%rsp)
	movdqa	%xmm0, 560(%rsp)
	movdqa	%xmm0, 576(%rsp)
	movdqa	%xmm0, 592(%rsp)
	movdqa	%xmm0, 608(%rsp)
	movdqa	%xmm0, 624(%rsp)
	movdqa	%xmm0, 640(%rsp)
	movdqa	%xmm0, 656(%rsp)
	movdqa	%xmm0, 672(%rsp)
	movdqa	%xmm0, 688(%rsp)
	movdqa	%xmm0, 704(%rsp)
	movdqa	%xmm0, 720(%rsp)
	movdqa	%xmm0, 736(%rsp)
	movdqa	%xmm0, 752(%rsp)
	movdqa	%xmm0, 768(%rsp)
	movdqa	%xmm0, 784(%rsp)
	movdqa	%xmm0, 800(%rsp)
	movdqa	%xmm0, 816(%rsp)
	movdqa	%xmm0, 832(%rsp)
	movdqa	%xmm0, 848(%rsp)
	movdqa	%xmm0, 864(%rsp)
	movdqa	%xmm0, 880(%rsp)
	movdqa	%xmm0, 896(%rsp)
	movdqa	%xmm0, 912(%rsp)
	movdqa	%xmm0, 928(%rsp)
	movdqa	%xmm0, 944(%rsp)
	movdqa	%xmm0, 960(%rsp)
	movdqa	%xmm0, 976(%rsp)
	movdqa	%xmm0, 992(%rsp)
	movdqa	%xmm0, 1008(%rsp)
	movdqa	%xmm0, 1024(%rsp)
	testq	%r14, %r14
	je	.LBB1_2
# %bb.1:                                # %join.5.i.preheader
	leaq	(%r14,%r14), %rdx
	leaq	1048(%rsp), %rdi
	movq	8(%rsp), %rsi                   # 8-byte Reload
	callq	memcpy@PLT
.LBB1_2:                                # %"copies::copy::<i16,21'core::clone::U16Clone{}>.exit"
	movq	%r14, 8(%rsp)                   # 8-byte Spill
	leaq	3608(%rsp), %rdi
	movl	$1024, %edx                     # imm = 0x400
	xorl	%esi, %esi
	callq	memset@PLT
	leaq	2584(%rsp), %rdi
	movl	$1024, %edx                     # imm = 0x400
	xorl	%esi, %esi
	callq	memset@PLT
	movl	$0, %r14d
	testq	%r12, %r12
	je	.LBB1_7
# %bb.3:                                # %join.9.i.preheader
	movq	9808(%rsp), %rax
	xorl	%ecx, %ecx
	xorl	%r14d, %r14d
	xorl	%ebp, %ebp
	jmp	.LBB1_4
	.p2align	4
.LBB1_6:                                # %join.15.i
                                        #   in Loop: Header=BB1_4 Depth=1
	incq	%rcx
	cmpq	%rcx, %r12
	je	.LBB1_7
.LBB1_4:                                # %join.9.i
                                        # =>This Inner Loop Header: Depth=1
	movq	(%r13,%rcx,8), %rdx
	movl	%edx, %edi
	movzwl	%dx, %r8d
	shrq	$32, %rdx
	movl	3608(%rsp,%rdx,4), %r9d
	shrl	$16, %edi
	movl	2584(%rsp,%rdi,4), %esi
	movl	2584(%rsp,%r8,4), %r10d
	cmpl	%esi, %r10d
	cmoval	%r10d, %esi
	cmpl	%r9d, %esi
	cmovbel	%r9d, %esi
	incl	%esi
	movl	%esi, 3608(%rsp,%rdx,4)
	movl	%esi, 2584(%rsp,%rdi,4)
	movl	%esi, 2584(%rsp,%r8,4)
	cmpq	%rcx, %rax
	cmovel	%esi, %ebp
	cmpb	$1, (%r15,%rcx)
	jne	.LBB1_6
# %bb.5:                                # %then.13.i
                                        #   in Loop: Header=BB1_4 Depth=1
	shlq	$2, %rdx
	cmpl	%r14d, %esi
	cmoval	%esi, %r14d
	incl	1560(%rsp,%rdx)
	movl	%ecx, 16(%rsp,%rdx)
	jmp	.LBB1_6
.LBB1_7:                                # %join.5.i.preheader.i
	movl	$1, %eax
	jmp	.LBB1_8
	.p2align	4
.LBB1_12:                               # %join.8.i.i.1
                                        #   in Loop: Header=BB1_8 Depth=1
	addq	$2, %rax
	cmpq	$257, %rax                      # imm = 0x101
	je	.LBB1_13
.LBB1_8:                                # %join.5.i.i
                                        # =>This Inner Loop Header: Depth=1
	movl	12(%rsp,%rax,4), %ecx
	cmpq	%rcx, %r12
	ja	.LBB1_9
# %bb.10:                               # %join.8.i.i
                                        #   in Loop: Header=BB1_8 Depth=1
	movl	16(%rsp,%rax,4), %ecx
	cmpq	%rcx, %r12
	jbe	.LBB1_12
	jmp	.LBB1_11
	.p2align	4
.LBB1_9:                                # %then.6.i.i
                                        #   in Loop: Header=BB1_8 Depth=1
	movzwl	(%r13,%rcx,8), %ecx
	movw	%cx, 1046(%rsp,%rax,2)
	movl	16(%rsp,%rax,4), %ecx
	cmpq	%rcx, %r12
	jbe	.LBB1_12
.LBB1_11:                               # %then.6.i.i.1
                                        #   in Loop: Header=BB1_8 Depth=1
	movzwl	(%r13,%rcx,8), %ecx
	movw	%cx, 1048(%rsp,%rax,2)
	jmp	.LBB1_12
.LBB1_13:                               # %"afresh::bill_done.exit"
	testq	%r12, %r12
	je	.LBB1_14
# %bb.15:                               # %join.5.i7.preheader
	cmpq	$8, %r12
	jae	.LBB1_18
# %bb.16:
	xorl	%eax, %eax
	xorl	%r13d, %r13d
	jmp	.LBB1_17
.LBB1_14:
	xorl	%r13d, %r13d
	jmp	.LBB1_22
.LBB1_18:                               # %vector.ph1
	movq	%r12, %rax
	andq	$-8, %rax
	pxor	%xmm0, %xmm0
	xorl	%ecx, %ecx
	pxor	%xmm1, %xmm1
	.p2align	4
.LBB1_19:                               # %vector.body2
                                        # =>This Inner Loop Header: Depth=1
	movd	(%r15,%rcx), %xmm2              # xmm2 = mem[0],zero,zero,zero
	movd	4(%r15,%rcx), %xmm3             # xmm3 = mem[0],zero,zero,zero
	movdqa	.LCPI1_1(%rip), %xmm4           # xmm4 = [1,1,1,1,u,u,u,u,u,u,u,u,u,u,u,u]
	pcmpeqb	%xmm4, %xmm2
	punpcklbw	%xmm2, %xmm2            # xmm2 = xmm2[0,0,1,1,2,2,3,3,4,4,5,5,6,6,7,7]
	punpcklwd	%xmm2, %xmm2            # xmm2 = xmm2[0,0,1,1,2,2,3,3]
	movdqa	.LCPI1_2(%rip), %xmm5           # xmm5 = [1,1,1,1]
	pand	%xmm5, %xmm2
	paddd	%xmm2, %xmm1
	pcmpeqb	%xmm4, %xmm3
	punpcklbw	%xmm3, %xmm3            # xmm3 = xmm3[0,0,1,1,2,2,3,3,4,4,5,5,6,6,7,7]
	punpcklwd	%xmm3, %xmm3            # xmm3 = xmm3[0,0,1,1,2,2,3,3]
	pand	%xmm5, %xmm3
	paddd	%xmm3, %xmm0
	addq	$8, %rcx
	cmpq	%rcx, %rax
	jne	.LBB1_19
# %bb.20:                               # %middle.block7
	paddd	%xmm1, %xmm0
	pshufd	$238, %xmm0, %xmm1              # xmm1 = xmm0[2,3,2,3]
	paddd	%xmm0, %xmm1
	pshufd	$85, %xmm1, %xmm0               # xmm0 = xmm1[1,1,1,1]
	paddd	%xmm1, %xmm0
	movd	%xmm0, %r13d
	jmp	.LBB1_21
.LBB1_17:                               # %join.5.i7
	xorl	%ecx, %ecx
	cmpb	$1, (%r15,%rax)
	sete	%cl
	addl	%ecx, %r13d
	incq	%rax
.LBB1_21:                               # %join.5.i7
	cmpq	%rax, %r12
	jne	.LBB1_17
.LBB1_22:                               # %"afresh::count_done.exit"
	leaq	3608(%rsp), %rdi
	movl	$3072, %edx                     # imm = 0xC00
	xorl	%esi, %esi
	callq	memset@PLT
	movq	8(%rsp), %r12                   # 8-byte Reload
	testq	%r12, %r12
	je	.LBB1_29
# %bb.23:                               # %join.5.i11.preheader
	cmpq	$1, %r12
	jne	.LBB1_25
# %bb.24:
	xorl	%eax, %eax
	jmp	.LBB1_28
.LBB1_25:                               # %join.5.i11.preheader.new
	movq	%r12, %rcx
	andq	$-2, %rcx
	leaq	3628(%rsp), %rdx
	xorl	%eax, %eax
	.p2align	4
.LBB1_26:                               # %join.5.i11
                                        # =>This Inner Loop Header: Depth=1
	movl	1560(%rsp,%rax,4), %esi
	movl	16(%rsp,%rax,4), %edi
	movl	%eax, -20(%rdx)
	movl	%esi, -16(%rdx)
	movl	%edi, -12(%rdx)
	movl	1564(%rsp,%rax,4), %esi
	movl	20(%rsp,%rax,4), %edi
	leal	1(%rax), %r8d
	movl	%r8d, -8(%rdx)
	movl	%esi, -4(%rdx)
	movl	%edi, (%rdx)
	addq	$2, %rax
	addq	$24, %rdx
	cmpq	%rcx, %rax
	jne	.LBB1_26
# %bb.27:                               # %"held_lines::list_lines.exit.loopexit.unr-lcssa"
	testb	$1, %r12b
	je	.LBB1_29
.LBB1_28:                               # %join.5.i11.epil.preheader
	movl	1560(%rsp,%rax,4), %ecx
	movl	16(%rsp,%rax,4), %edx
	leaq	(%rax,%rax,2), %rsi
	movl	%eax, 3608(%rsp,%rsi,4)
	movl	%ecx, 3612(%rsp,%rsi,4)
	movl	%edx, 3616(%rsp,%rsi,4)
.LBB1_29:                               # %"held_lines::list_lines.exit"
	leaq	6680(%rsp), %r15
	leaq	3608(%rsp), %rsi
	movl	$3072, %edx                     # imm = 0xC00
	movq	%r15, %rdi
	callq	memcpy@PLT
	leaq	1048(%rsp), %rsi
	movl	$512, %edx                      # imm = 0x200
	movq	%rbx, %rdi
	callq	memcpy@PLT
	movl	%r13d, 512(%rbx)
	movl	%r14d, 516(%rbx)
	movq	%r12, 520(%rbx)
	leaq	528(%rbx), %rdi
	movl	$3072, %edx                     # imm = 0xC00
	movq	%r15, %rsi
	callq	memcpy@PLT
	movl	%ebp, 3600(%rbx)
	movl	$0, 3604(%rbx)
	addq	$9752, %rsp                     # imm = 0x2618
	.cfi_def_cfa_offset 56
	popq	%rbx
	.cfi_def_cfa_offset 48
	popq	%r12
	.cfi_def_cfa_offset 40
	popq	%r13
	.cfi_def_cfa_offset 32
	popq	%r14
	.cfi_def_cfa_offset 24
	popq	%r15
	.cfi_def_cfa_offset 16
	popq	%rbp
	.cfi_def_cfa_offset 8
	retq
.Lfunc_end1:
	.size	"agreeing::work_out", .Lfunc_end1-"agreeing::work_out"
	.cfi_endproc
                                        # -- End function
	.section	".text.entries::same_record","ax",@progbits
	.p2align	4                               # -- Begin function entries::same_record
	.type	"entries::same_record",@function
"entries::same_record":                 # @"entries::same_record"
	.cfi_startproc
# %bb.0:                                # %start
	pushq	%rbx
	.cfi_def_cfa_offset 16
	subq	$1040, %rsp                     # imm = 0x410
	.cfi_def_cfa_offset 1056
	.cfi_offset %rbx, -16
	movq	%rsi, %rbx
	movq	%rdi, %rsi
	leaq	520(%rsp), %rdi
	movl	$520, %edx                      # imm = 0x208
	callq	memcpy@PLT
	movq	%rsp, %rdi
	movl	$520, %edx                      # imm = 0x208
	movq	%rbx, %rsi
	callq	memcpy@PLT
	movl	1032(%rsp), %eax
	cmpl	512(%rsp), %eax
	jne	.LBB2_16
# %bb.1:                                # %"core::cmp::Ordering::and_eq::<i32,32'core::cmp::numbers::U32PartialEq{}>.exit.i"
	movl	1036(%rsp), %eax
	cmpl	516(%rsp), %eax
	jne	.LBB2_16
# %bb.2:                                # %join.5.i.preheader.i.i.i.i
	movdqu	520(%rsp), %xmm0
	movdqu	536(%rsp), %xmm1
	movdqu	552(%rsp), %xmm2
	movdqu	568(%rsp), %xmm3
	movdqu	(%rsp), %xmm4
	pcmpeqb	%xmm0, %xmm4
	movdqu	16(%rsp), %xmm0
	pcmpeqb	%xmm1, %xmm0
	movdqu	32(%rsp), %xmm1
	pcmpeqb	%xmm2, %xmm1
	pand	%xmm4, %xmm1
	movdqu	48(%rsp), %xmm2
	pcmpeqb	%xmm3, %xmm2
	pand	%xmm0, %xmm2
	pand	%xmm1, %xmm2
	pmovmskb	%xmm2, %eax
	xorl	$65535, %eax                    # imm = 0xFFFF
	je	.LBB2_4
# %bb.3:
	xorl	%eax, %eax
	jmp	.LBB2_11
.LBB2_4:                                # %join.5.i.i.i.i
	movdqu	584(%rsp), %xmm0
	movdqu	600(%rsp), %xmm1
	movdqu	616(%rsp), %xmm2
	movdqu	632(%rsp), %xmm3
	movdqu	64(%rsp), %xmm4
	pcmpeqb	%xmm0, %xmm4
	movdqu	80(%rsp), %xmm0
	pcmpeqb	%xmm1, %xmm0
	movdqu	96(%rsp), %xmm1
	pcmpeqb	%xmm2, %xmm1
	pand	%xmm4, %xmm1
	movdqu	112(%rsp), %xmm2
	pcmpeqb	%xmm3, %xmm2
	pand	%xmm0, %xmm2
	pand	%xmm1, %xmm2
	pmovmskb	%xmm2, %eax
	xorl	$65535, %eax                    # imm = 0xFFFF
	movl	$32, %eax
	jne	.LBB2_11
# %bb.5:                                # %join.5.i.i.i.i.1
	movdqu	648(%rsp), %xmm0
	movdqu	664(%rsp), %xmm1
	movdqu	680(%rsp), %xmm2
	movdqu	696(%rsp), %xmm3
	movdqu	128(%rsp), %xmm4
	pcmpeqb	%xmm0, %xmm4
	movdqu	144(%rsp), %xmm0
	pcmpeqb	%xmm1, %xmm0
	movdqu	160(%rsp), %xmm1
	pcmpeqb	%xmm2, %xmm1
	pand	%xmm4, %xmm1
	movdqu	176(%rsp), %xmm2
	pcmpeqb	%xmm3, %xmm2
	pand	%xmm0, %xmm2
	pand	%xmm1, %xmm2
	pmovmskb	%xmm2, %eax
	xorl	$65535, %eax                    # imm = 0xFFFF
	movl	$64, %eax
	jne	.LBB2_11
# %bb.6:                                # %join.5.i.i.i.i.2
	movdqu	712(%rsp), %xmm0
	movdqu	728(%rsp), %xmm1
	movdqu	744(%rsp), %xmm2
	movdqu	760(%rsp), %xmm3
	movdqu	192(%rsp), %xmm4
	pcmpeqb	%xmm0, %xmm4
	movdqu	208(%rsp), %xmm0
	pcmpeqb	%xmm1, %xmm0
	movdqu	224(%rsp), %xmm1
	pcmpeqb	%xmm2, %xmm1
	pand	%xmm4, %xmm1
	movdqu	240(%rsp), %xmm2
	pcmpeqb	%xmm3, %xmm2
	pand	%xmm0, %xmm2
	pand	%xmm1, %xmm2
	pmovmskb	%xmm2, %eax
	xorl	$65535, %eax                    # imm = 0xFFFF
	movl	$96, %eax
	jne	.LBB2_11
# %bb.7:                                # %join.5.i.i.i.i.3
	movdqu	776(%rsp), %xmm0
	movdqu	792(%rsp), %xmm1
	movdqu	808(%rsp), %xmm2
	movdqu	824(%rsp), %xmm3
	movdqu	256(%rsp), %xmm4
	pcmpeqb	%xmm0, %xmm4
	movdqu	272(%rsp), %xmm0
	pcmpeqb	%xmm1, %xmm0
	movdqu	288(%rsp), %xmm1
	pcmpeqb	%xmm2, %xmm1
	pand	%xmm4, %xmm1
	movdqu	304(%rsp), %xmm2
	pcmpeqb	%xmm3, %xmm2
	pand	%xmm0, %xmm2
	pand	%xmm1, %xmm2
	pmovmskb	%xmm2, %eax
	xorl	$65535, %eax                    # imm = 0xFFFF
	movl	$128, %eax
	jne	.LBB2_11
# %bb.8:                                # %join.5.i.i.i.i.4
	movdqu	840(%rsp), %xmm0
	movdqu	856(%rsp), %xmm1
	movdqu	872(%rsp), %xmm2
	movdqu	888(%rsp), %xmm3
	movdqu	320(%rsp), %xmm4
	pcmpeqb	%xmm0, %xmm4
	movdqu	336(%rsp), %xmm0
	pcmpeqb	%xmm1, %xmm0
	movdqu	352(%rsp), %xmm1
	pcmpeqb	%xmm2, %xmm1
	pand	%xmm4, %xmm1
	movdqu	368(%rsp), %xmm2
	pcmpeqb	%xmm3, %xmm2
	pand	%xmm0, %xmm2
	pand	%xmm1, %xmm2
	pmovmskb	%xmm2, %eax
	xorl	$65535, %eax                    # imm = 0xFFFF
	movl	$160, %eax
	jne	.LBB2_11
# %bb.9:                                # %join.5.i.i.i.i.5
	movdqu	904(%rsp), %xmm0
	movdqu	920(%rsp), %xmm1
	movdqu	936(%rsp), %xmm2
	movdqu	952(%rsp), %xmm3
	movdqu	384(%rsp), %xmm4
	pcmpeqb	%xmm0, %xmm4
	movdqu	400(%rsp), %xmm0
	pcmpeqb	%xmm1, %xmm0
	movdqu	416(%rsp), %xmm1
	pcmpeqb	%xmm2, %xmm1
	pand	%xmm4, %xmm1
	movdqu	432(%rsp), %xmm2
	pcmpeqb	%xmm3, %xmm2
	pand	%xmm0, %xmm2
	pand	%xmm1, %xmm2
	pmovmskb	%xmm2, %eax
	xorl	$65535, %eax                    # imm = 0xFFFF
	movl	$192, %eax
	jne	.LBB2_11
# %bb.10:                               # %join.5.i.i.i.i.6
	movdqu	968(%rsp), %xmm0
	movdqu	984(%rsp), %xmm1
	movdqu	1000(%rsp), %xmm2
	movdqu	1016(%rsp), %xmm3
	movdqu	448(%rsp), %xmm4
	pcmpeqb	%xmm0, %xmm4
	movdqu	464(%rsp), %xmm0
	pcmpeqb	%xmm1, %xmm0
	movdqu	480(%rsp), %xmm1
	pcmpeqb	%xmm2, %xmm1
	pand	%xmm4, %xmm1
	movdqu	496(%rsp), %xmm2
	pcmpeqb	%xmm3, %xmm2
	pand	%xmm0, %xmm2
	pand	%xmm1, %xmm2
	pmovmskb	%xmm2, %eax
	xorl	$65535, %eax                    # imm = 0xFFFF
	movl	$224, %eax
	je	.LBB2_14
.LBB2_11:                               # %join.5.i.preheader.i4.i.i.i.preheader
	addq	$-257, %rax                     # imm = 0xFEFF
	.p2align	4
.LBB2_12:                               # %join.5.i.preheader.i4.i.i.i
                                        # =>This Inner Loop Header: Depth=1
	movdqu	1034(%rsp,%rax,2), %xmm0
	movdqu	1050(%rsp,%rax,2), %xmm1
	movdqu	514(%rsp,%rax,2), %xmm2
	pcmpeqb	%xmm0, %xmm2
	movdqu	530(%rsp,%rax,2), %xmm0
	pcmpeqb	%xmm1, %xmm0
	pand	%xmm2, %xmm0
	pmovmskb	%xmm0, %ecx
	xorl	$65535, %ecx                    # imm = 0xFFFF
	jne	.LBB2_15
# %bb.13:                               # %join.5.i20.i.i.i
                                        #   in Loop: Header=BB2_12 Depth=1
	addq	$16, %rax
	cmpq	$-1, %rax
	jne	.LBB2_12
	jmp	.LBB2_14
.LBB2_15:                               # %"core::slice::scan::skip_groups::<#9dddba78fb57187b>.exit25.i.i.i"
	cmpq	$-16, %rax
	jae	.LBB2_14
.LBB2_16:
	xorl	%eax, %eax
                                        # kill: def $al killed $al killed $eax
	addq	$1040, %rsp                     # imm = 0x410
	.cfi_def_cfa_offset 16
	popq	%rbx
	.cfi_def_cfa_offset 8
	retq
.LBB2_14:                               # %join.5.i26.preheader.i.i.i
	.cfi_def_cfa_offset 1056
	movdqu	1000(%rsp), %xmm0
	movdqu	1016(%rsp), %xmm1
	movdqu	480(%rsp), %xmm2
	pcmpeqb	%xmm0, %xmm2
	movdqu	496(%rsp), %xmm0
	pcmpeqb	%xmm1, %xmm0
	pand	%xmm2, %xmm0
	pmovmskb	%xmm0, %eax
	xorl	$65535, %eax                    # imm = 0xFFFF
	sete	%al
                                        # kill: def $al killed $al killed $eax
	addq	$1040, %rsp                     # imm = 0x410
	.cfi_def_cfa_offset 16
	popq	%rbx
	.cfi_def_cfa_offset 8
	retq
.Lfunc_end2:
	.size	"entries::same_record", .Lfunc_end2-"entries::same_record"
	.cfi_endproc
                                        # -- End function
	.section	".text.core::cmp::slices::groups_equal::<i8,31'core::cmp::numbers::U8PartialEq{}>","ax",@progbits
	.p2align	4                               # -- Begin function core::cmp::slices::groups_equal::<i8,31'core::cmp::numbers::U8PartialEq{}>
	.type	"core::cmp::slices::groups_equal::<i8,31'core::cmp::numbers::U8PartialEq{}>",@function
"core::cmp::slices::groups_equal::<i8,31'core::cmp::numbers::U8PartialEq{}>": # @"core::cmp::slices::groups_equal::<i8,31'core::cmp::numbers::U8PartialEq{}>"
	.cfi_startproc
# %bb.0:                                # %start
	cmpq	$8, %rsi
	ja	.LBB3_2
# %bb.1:                                # %join.5.i.i.preheader
	movd	-4(%rdi,%rsi), %xmm0            # xmm0 = mem[0],zero,zero,zero
	movd	(%rdi), %xmm1                   # xmm1 = mem[0],zero,zero,zero
	punpckldq	%xmm0, %xmm1            # xmm1 = xmm1[0],xmm0[0],xmm1[1],xmm0[1]
	movd	-4(%rdx,%rsi), %xmm0            # xmm0 = mem[0],zero,zero,zero
	movd	(%rdx), %xmm2                   # xmm2 = mem[0],zero,zero,zero
	punpckldq	%xmm0, %xmm2            # xmm2 = xmm2[0],xmm0[0],xmm2[1],xmm0[1]
	movq	%xmm1, %rax
	movq	%xmm2, %rcx
	cmpq	%rcx, %rax
	jmp	.LBB3_17
.LBB3_2:                                # %join.12.i
	cmpq	$32, %rsi
	ja	.LBB3_4
# %bb.3:                                # %join.5.i.i10.preheader
	leaq	-8(%rsi), %rax
	cmpq	$8, %rax
	movl	$8, %ecx
	cmovbq	%rax, %rcx
	cmpq	$16, %rax
	movl	$16, %r8d
	cmovbq	%rax, %r8
	movq	(%rdi,%rcx), %xmm0              # xmm0 = mem[0],zero
	movq	(%rdi), %xmm1                   # xmm1 = mem[0],zero
	punpcklqdq	%xmm0, %xmm1            # xmm1 = xmm1[0],xmm0[0]
	movq	(%rdi,%r8), %xmm0               # xmm0 = mem[0],zero
	movq	-8(%rdi,%rsi), %xmm2            # xmm2 = mem[0],zero
	punpcklqdq	%xmm2, %xmm0            # xmm0 = xmm0[0],xmm2[0]
	movq	(%rdx,%rcx), %xmm2              # xmm2 = mem[0],zero
	movq	(%rdx), %xmm3                   # xmm3 = mem[0],zero
	punpcklqdq	%xmm2, %xmm3            # xmm3 = xmm3[0],xmm2[0]
	pcmpeqb	%xmm1, %xmm3
	movq	(%rdx,%r8), %xmm1               # xmm1 = mem[0],zero
	movq	-8(%rdx,%rsi), %xmm2            # xmm2 = mem[0],zero
	punpcklqdq	%xmm2, %xmm1            # xmm1 = xmm1[0],xmm2[0]
	pcmpeqb	%xmm0, %xmm1
	pand	%xmm3, %xmm1
	pmovmskb	%xmm1, %eax
	jmp	.LBB3_16
.LBB3_4:                                # %join.15.i
	cmpq	$65, %rsi
	jae	.LBB3_5
# %bb.12:                               # %join.5.i.i24.preheader
	movdqu	(%rdi), %xmm0
	movdqu	16(%rdi), %xmm1
	movdqu	(%rdx), %xmm2
	pcmpeqb	%xmm0, %xmm2
	movdqu	16(%rdx), %xmm0
	pcmpeqb	%xmm1, %xmm0
	movdqu	-32(%rdi,%rsi), %xmm1
	movdqu	-16(%rdi,%rsi), %xmm3
	movdqu	-32(%rdx,%rsi), %xmm4
	pcmpeqb	%xmm1, %xmm4
	pand	%xmm2, %xmm4
	movdqu	-16(%rdx,%rsi), %xmm1
	pcmpeqb	%xmm3, %xmm1
	pand	%xmm0, %xmm1
	pand	%xmm4, %xmm1
	pmovmskb	%xmm1, %eax
	jmp	.LBB3_16
.LBB3_5:                                # %vector.ph.preheader
	xorl	%eax, %eax
	movq	%rsi, %rcx
	.p2align	4
.LBB3_6:                                # %vector.ph
                                        # =>This Inner Loop Header: Depth=1
	movdqu	(%rdi,%rax), %xmm0
	movdqu	16(%rdi,%rax), %xmm1
	movdqu	32(%rdi,%rax), %xmm2
	movdqu	48(%rdi,%rax), %xmm3
	movdqu	(%rdx,%rax), %xmm4
	pcmpeqb	%xmm0, %xmm4
	movdqu	16(%rdx,%rax), %xmm0
	pcmpeqb	%xmm1, %xmm0
	movdqu	32(%rdx,%rax), %xmm1
	pcmpeqb	%xmm2, %xmm1
	pand	%xmm4, %xmm1
	movdqu	48(%rdx,%rax), %xmm2
	pcmpeqb	%xmm3, %xmm2
	pand	%xmm0, %xmm2
	pand	%xmm1, %xmm2
	pmovmskb	%xmm2, %r8d
	cmpl	$65535, %r8d                    # imm = 0xFFFF
	jne	.LBB3_8
# %bb.7:                                # %join.5.i
                                        #   in Loop: Header=BB3_6 Depth=1
	addq	$64, %rax
	addq	$-64, %rcx
	cmpq	$63, %rcx
	ja	.LBB3_6
.LBB3_8:                                # %"core::slice::scan::skip_groups::<#953750c03e87c3e2>.exit"
	cmpq	$32, %rcx
	jb	.LBB3_15
# %bb.9:                                # %join.5.i.preheader.i66.preheader
	movq	%rsi, %rcx
	subq	%rax, %rcx
	.p2align	4
.LBB3_10:                               # %join.5.i.preheader.i66
                                        # =>This Inner Loop Header: Depth=1
	movdqu	(%rdi,%rax), %xmm0
	movdqu	16(%rdi,%rax), %xmm1
	movdqu	(%rdx,%rax), %xmm2
	pcmpeqb	%xmm0, %xmm2
	movdqu	16(%rdx,%rax), %xmm0
	pcmpeqb	%xmm1, %xmm0
	pand	%xmm2, %xmm0
	pmovmskb	%xmm0, %r8d
	xorl	$65535, %r8d                    # imm = 0xFFFF
	jne	.LBB3_14
# %bb.11:                               # %join.5.i81
                                        #   in Loop: Header=BB3_10 Depth=1
	addq	$32, %rax
	addq	$-32, %rcx
	cmpq	$31, %rcx
	ja	.LBB3_10
	jmp	.LBB3_15
.LBB3_14:                               # %"core::slice::scan::skip_groups::<#953750c03e87c3e2>.exit85"
	movb	$1, %al
	cmpq	$31, %rcx
	ja	.LBB3_18
.LBB3_15:                               # %join.21.i
	movdqu	-32(%rdi,%rsi), %xmm0
	movdqu	-16(%rdi,%rsi), %xmm1
	movdqu	-32(%rdx,%rsi), %xmm2
	pcmpeqb	%xmm0, %xmm2
	movdqu	-16(%rdx,%rsi), %xmm0
	pcmpeqb	%xmm1, %xmm0
	pand	%xmm2, %xmm0
	pmovmskb	%xmm0, %eax
.LBB3_16:                               # %"core::slice::scan::any_by_groups::<#953750c03e87c3e2>.exit"
	xorl	$65535, %eax                    # imm = 0xFFFF
.LBB3_17:                               # %"core::slice::scan::any_by_groups::<#953750c03e87c3e2>.exit"
	setne	%al
.LBB3_18:                               # %"core::slice::scan::any_by_groups::<#953750c03e87c3e2>.exit"
	xorb	$1, %al
	retq
.Lfunc_end3:
	.size	"core::cmp::slices::groups_equal::<i8,31'core::cmp::numbers::U8PartialEq{}>", .Lfunc_end3-"core::cmp::slices::groups_equal::<i8,31'core::cmp::numbers::U8PartialEq{}>"
	.cfi_endproc
                                        # -- End function
	.section	".text.numbers::told","ax",@progbits
	.p2align	4                               # -- Begin function numbers::told
	.type	"numbers::told",@function
"numbers::told":                        # @"numbers::told"
	.cfi_startproc
# %bb.0:                                # %start
	movq	8(%rdi), %rax
	cmpb	$0, (%rdi)
	je	.LBB4_1
# %bb.2:                                # %arm.2
	movq	%rax, %rcx
	shrq	$32, %rcx
	movzbl	%al, %edx
	leaq	.LJTI4_0(%rip), %r8
	movslq	(%r8,%rdx,4), %rdx
	addq	%r8, %rdx
	jmpq	*%rdx
.LBB4_9:
	xorl	%ecx, %ecx
	jmp	.LBB4_10
.LBB4_1:                                # %arm.1
	movq	%rax, (%rsi)
	xorl	%eax, %eax
	retq
.LBB4_3:                                # %arm.2.i.i.i
	movq	16(%rdi), %rcx
.LBB4_10:                               # %"docket::carried.exit.i"
	movq	%rcx, (%rsi)
	movzbl	%al, %eax
	leaq	.Lswitch.table.sejjekoru_slots(%rip), %rcx
	movq	(%rcx,%rax,8), %rax
	retq
.LBB4_6:                                # %"docket::carried.exit.thread13.i"
	movq	%rcx, (%rsi)
	movl	$6, %eax
	retq
.LBB4_7:                                # %"docket::carried.exit.thread15.i"
	movq	%rcx, (%rsi)
	movl	$7, %eax
	retq
.LBB4_4:                                # %"docket::carried.exit.thread.i"
	shrl	$16, %eax
	movq	%rax, (%rsi)
	movl	$3, %eax
	retq
.LBB4_8:                                # %"docket::carried.exit.thread17.i"
	movq	%rcx, (%rsi)
	movl	$10, %eax
	retq
.LBB4_5:                                # %"docket::carried.exit.thread11.i"
	movq	%rcx, (%rsi)
	movl	$5, %eax
	retq
.Lfunc_end4:
	.size	"numbers::told", .Lfunc_end4-"numbers::told"
	.cfi_endproc
	.section	".rodata.numbers::told","a",@progbits
	.p2align	2, 0x0
.LJTI4_0:
	.long	.LBB4_9-.LJTI4_0
	.long	.LBB4_3-.LJTI4_0
	.long	.LBB4_4-.LJTI4_0
	.long	.LBB4_9-.LJTI4_0
	.long	.LBB4_5-.LJTI4_0
	.long	.LBB4_6-.LJTI4_0
	.long	.LBB4_7-.LJTI4_0
	.long	.LBB4_3-.LJTI4_0
	.long	.LBB4_3-.LJTI4_0
	.long	.LBB4_8-.LJTI4_0
	.long	.LBB4_9-.LJTI4_0
	.long	.LBB4_9-.LJTI4_0
	.long	.LBB4_3-.LJTI4_0
	.long	.LBB4_3-.LJTI4_0
	.long	.LBB4_3-.LJTI4_0
	.long	.LBB4_3-.LJTI4_0
	.long	.LBB4_9-.LJTI4_0
	.long	.LBB4_9-.LJTI4_0
	.long	.LBB4_9-.LJTI4_0
	.long	.LBB4_9-.LJTI4_0
	.long	.LBB4_9-.LJTI4_0
	.long	.LBB4_3-.LJTI4_0
	.long	.LBB4_3-.LJTI4_0
                                        # -- End function
	.section	.rodata.cst16,"aM",@progbits,16
	.p2align	4, 0x0                          # -- Begin function planner::plan_counted
.LCPI5_0:
	.zero	16,85
.LCPI5_1:
	.zero	16,51
.LCPI5_2:
	.zero	16,15
	.section	".text.planner::plan_counted","ax",@progbits
	.p2align	4
	.type	"planner::plan_counted",@function
"planner::plan_counted":                # @"planner::plan_counted"
	.cfi_startproc
# %bb.0:                                # %start
	pushq	%rbp
	.cfi_def_cfa_offset 16
	pushq	%r15
	.cfi_def_cfa_offset 24
	pushq	%r14
	.cfi_def_cfa_offset 32
	pushq	%r13
	.cfi_def_cfa_offset 40
	pushq	%r12
	.cfi_def_cfa_offset 48
	pushq	%rbx
	.cfi_def_cfa_offset 56
	subq	$3072, %rsp                     # imm = 0xC00
	.cfi_adjust_cfa_offset 3072
	movq	$0, (%rsp)
	subq	$3072, %rsp                     # imm = 0xC00
	.cfi_adjust_cfa_offset 3072
	movq	$0, (%rsp)
	subq	$3072, %rsp                     # imm = 0xC00
	.cfi_adjust_cfa_offset 3072
	movq	$0, (%rsp)
	subq	$3072, %rsp                     # imm = 0xC00
	.cfi_adjust_cfa_offset 3072
	movq	$0, (%rsp)
	subq	$3072, %rsp                     # imm = 0xC00
	.cfi_adjust_cfa_offset 3072
	movq	$0, (%rsp)
	subq	$1192, %rsp                     # imm = 0x4A8
	.cfi_def_cfa_offset 16608
	.cfi_offset %rbx, -56
	.cfi_offset %r12, -48
	.cfi_offset %r13, -40
	.cfi_offset %r14, -32
	.cfi_offset %r15, -24
	.cfi_offset %rbp, -16
	movq	%r8, 40(%rsp)                   # 8-byte Spill
	movq	%rcx, %r13
	movq	%rdx, %r15
	movq	%rsi, %r12
	movq	%rdi, 56(%rsp)                  # 8-byte Spill
	leaq	-257(%rsi), %rax
	cmpq	$-255, %rax
	setb	%al
	cmpq	$2050, %rcx                     # imm = 0x802
	setae	%cl
	movl	%r13d, %edx
	orb	%cl, %dl
	orb	%al, %dl
	movq	%r9, 48(%rsp)                   # 8-byte Spill
	cmpq	16616(%rsp), %r9
	setne	%bl
	orb	%dl, %bl
	leaq	8360(%rsp), %rbp
	xorl	%r14d, %r14d
	movl	$8192, %edx                     # imm = 0x2000
	movq	%rbp, %rdi
	xorl	%esi, %esi
	callq	memset@PLT
	testb	$1, %bl
	je	.LBB5_2
.LBB5_1:
	xorl	%edx, %edx
	xorl	%eax, %eax
	jmp	.LBB5_56
.LBB5_2:                                # %join.3.i.i
	testq	%r13, %r13
	je	.LBB5_9
# %bb.3:                                # %join.5.i.i.i.preheader
	movq	%r13, %rsi
	shrq	%rsi
	xorl	%ebx, %ebx
	.p2align	4
.LBB5_4:                                # %join.5.i.i.i
                                        # =>This Inner Loop Header: Depth=1
	movzwl	(%r15,%rbx,4), %eax
	movzwl	2(%r15,%rbx,4), %ecx
	xorl	%edx, %edx
	movl	$1, %r14d
	cmpw	%cx, %ax
	je	.LBB5_37
# %bb.5:                                # %join.5.i.i.i
                                        #   in Loop: Header=BB5_4 Depth=1
	cmpq	%rax, %r12
	jbe	.LBB5_37
# %bb.6:                                # %join.5.i.i.i
                                        #   in Loop: Header=BB5_4 Depth=1
	cmpq	%rcx, %r12
	jbe	.LBB5_37
# %bb.7:                                # %"first_bad::is_bad.exit.i.i.i"
                                        #   in Loop: Header=BB5_4 Depth=1
	movl	%eax, %edx
	shll	$8, %edx
	addl	%ecx, %edx
	shrl	$6, %edx
	movq	8360(%rsp,%rdx,8), %rdi
	movl	$1, %r8d
	shlq	%cl, %r8
	btq	%rcx, %rdi
	jb	.LBB5_31
# %bb.8:                                # %join.8.i.i.i
                                        #   in Loop: Header=BB5_4 Depth=1
	shlq	$3, %rdx
	orq	%r8, %rdi
	movq	%rdi, 8360(%rsp,%rdx)
	shll	$8, %ecx
	leal	(%rax,%rcx), %edx
	movl	$1, %edi
	movl	%eax, %ecx
	shlq	%cl, %rdi
	shrl	$6, %edx
	orq	%rdi, 8360(%rsp,%rdx,8)
	incq	%rbx
	cmpq	%rbx, %rsi
	jne	.LBB5_4
.LBB5_9:                                # %join.7.i.i
	movl	$1, %esi
	xorl	%eax, %eax
	cmpq	$64, %r12
	ja	.LBB5_16
# %bb.10:                               # %join.5.i.preheader.i.i.i.i.i.preheader
	movl	$1, %ecx
	movq	48(%rsp), %r9                   # 8-byte Reload
	.p2align	4
.LBB5_11:                               # %join.5.i.preheader.i.i.i.i.i
                                        # =>This Loop Header: Depth=1
                                        #     Child Loop BB5_12 Depth 2
	xorl	%edx, %edx
	.p2align	4
.LBB5_12:                               # %join.5.i.i.i.i.i.i
                                        #   Parent Loop BB5_11 Depth=1
                                        # =>  This Inner Loop Header: Depth=2
	movq	%rsi, %rdi
	rep		bsfq	%rsi, %rsi
	shll	$5, %esi
	orq	8360(%rsp,%rsi), %rdx
	leaq	-1(%rdi), %rsi
	andq	%rdi, %rsi
	jne	.LBB5_12
# %bb.13:                               # %"apart::beside_word.exit.i.i.i.i.i"
                                        #   in Loop: Header=BB5_11 Depth=1
	movq	%rdx, %rdi
	orq	%rcx, %rdi
	incq	%rax
	cmpq	%r12, %rax
	jae	.LBB5_15
# %bb.14:                               # %"apart::beside_word.exit.i.i.i.i.i"
                                        #   in Loop: Header=BB5_11 Depth=1
	notq	%rcx
	andq	%rcx, %rdx
	movq	%rdx, %rsi
	movq	%rdi, %rcx
	jne	.LBB5_11
.LBB5_15:                               # %"apart::narrow_apart.exit.i.i.i"
	notq	%rdi
	movl	$64, %edx
	rep		bsfq	%rdi, %rdx
	cmpq	%r12, %rdx
	jae	.LBB5_39
.LBB5_36:
	movl	$2, %r14d
	xorl	%eax, %eax
	jmp	.LBB5_56
.LBB5_16:                               # %repeat.5.preheader.i.i.i
	xorl	%edx, %edx
	xorl	%ecx, %ecx
	xorl	%r10d, %r10d
	xorl	%r9d, %r9d
	xorl	%r8d, %r8d
	xorl	%edi, %edi
	movl	$1, %r11d
	jmp	.LBB5_18
	.p2align	4
.LBB5_17:                               # %"words::beside.exit.i.i.i.i"
                                        #   in Loop: Header=BB5_18 Depth=1
	movq	%rsi, %r11
	notq	%r11
	movq	%xmm0, %r8
	andq	%r8, %r11
	orq	%r8, %rsi
	movq	%rcx, %r10
	notq	%r10
	pshufd	$238, %xmm0, %xmm0              # xmm0 = xmm0[2,3,2,3]
	movq	%xmm0, %r8
	andq	%r8, %r10
	orq	%r8, %rcx
	movq	%rdx, %r9
	notq	%r9
	movq	%xmm1, %r8
	andq	%r8, %r9
	orq	%r8, %rdx
	movq	%rax, %r8
	notq	%r8
	pshufd	$238, %xmm1, %xmm0              # xmm0 = xmm1[2,3,2,3]
	movq	%xmm0, %rbx
	andq	%rbx, %r8
	orq	%rbx, %rax
	incq	%rdi
	cmpq	%r12, %rdi
	je	.LBB5_29
.LBB5_18:                               # %join.7.i.i.i.i
                                        # =>This Loop Header: Depth=1
                                        #     Child Loop BB5_19 Depth 2
                                        #     Child Loop BB5_22 Depth 2
                                        #     Child Loop BB5_24 Depth 2
                                        #     Child Loop BB5_26 Depth 2
	pxor	%xmm0, %xmm0
	pxor	%xmm1, %xmm1
	testq	%r11, %r11
	je	.LBB5_21
	.p2align	4
.LBB5_19:                               # %join.5.i.i.i5.i.i.i
                                        #   Parent Loop BB5_18 Depth=1
                                        # =>  This Inner Loop Header: Depth=2
	movq	%r11, %rbx
	rep		bsfq	%r11, %r11
	shll	$5, %r11d
	movdqu	8360(%rsp,%r11), %xmm2
	por	%xmm2, %xmm0
	movdqu	8376(%rsp,%r11), %xmm2
	por	%xmm2, %xmm1
	leaq	-1(%rbx), %r11
	andq	%rbx, %r11
	jne	.LBB5_19
# %bb.20:                               # %"words::join_word.exit.i.i.i.i.i"
                                        #   in Loop: Header=BB5_18 Depth=1
	testq	%r10, %r10
	jne	.LBB5_22
	jmp	.LBB5_23
	.p2align	4
.LBB5_21:                               # %join.5.i.preheader.i.i.i.i
                                        #   in Loop: Header=BB5_18 Depth=1
	testq	%r10, %r10
	je	.LBB5_27
	.p2align	4
.LBB5_22:                               # %join.5.i.1.i.i.i.i.i
                                        #   Parent Loop BB5_18 Depth=1
                                        # =>  This Inner Loop Header: Depth=2
	movq	%r10, %r11
	rep		bsfq	%r10, %r10
	shll	$5, %r10d
	movdqu	10408(%rsp,%r10), %xmm2
	por	%xmm2, %xmm0
	movdqu	10424(%rsp,%r10), %xmm2
	por	%xmm2, %xmm1
	leaq	-1(%r11), %r10
	andq	%r11, %r10
	jne	.LBB5_22
.LBB5_23:                               # %"words::join_word.exit.1.i.i.i.i.i"
                                        #   in Loop: Header=BB5_18 Depth=1
	testq	%r9, %r9
	je	.LBB5_25
	.p2align	4
.LBB5_24:                               # %join.5.i.2.i.i.i.i.i
                                        #   Parent Loop BB5_18 Depth=1
                                        # =>  This Inner Loop Header: Depth=2
	movq	%r9, %r10
	rep		bsfq	%r9, %r9
	shll	$5, %r9d
	movdqu	12456(%rsp,%r9), %xmm2
	por	%xmm2, %xmm0
	movdqu	12472(%rsp,%r9), %xmm2
	por	%xmm2, %xmm1
	leaq	-1(%r10), %r9
	andq	%r10, %r9
	jne	.LBB5_24
.LBB5_25:                               # %"words::join_word.exit.2.i.i.i.i.i"
                                        #   in Loop: Header=BB5_18 Depth=1
	testq	%r8, %r8
	je	.LBB5_17
	.p2align	4
.LBB5_26:                               # %join.5.i.3.i.i.i.i.i
                                        #   Parent Loop BB5_18 Depth=1
                                        # =>  This Inner Loop Header: Depth=2
	movq	%r8, %r9
	rep		bsfq	%r8, %r8
	shll	$5, %r8d
	movdqu	14504(%rsp,%r8), %xmm2
	por	%xmm2, %xmm0
	movdqu	14520(%rsp,%r8), %xmm2
	por	%xmm2, %xmm1
	leaq	-1(%r9), %r8
	andq	%r9, %r8
	jne	.LBB5_26
	jmp	.LBB5_17
.LBB5_27:                               # %join.8.i.i.i.i.i
                                        #   in Loop: Header=BB5_18 Depth=1
	testq	%r9, %r9
	jne	.LBB5_24
# %bb.28:                               # %join.8.i.1.i.i.i.i
                                        #   in Loop: Header=BB5_18 Depth=1
	testq	%r8, %r8
	jne	.LBB5_26
.LBB5_29:                               # %"apart::reach.exit.i.i.i"
	cmpq	$-1, %rsi
	je	.LBB5_32
# %bb.30:
	xorl	%edi, %edi
	movq	%rsi, %rcx
	movq	48(%rsp), %r9                   # 8-byte Reload
	jmp	.LBB5_35
.LBB5_37:
	xorl	%eax, %eax
	jmp	.LBB5_57
.LBB5_31:
	xorl	%edx, %edx
	xorl	%eax, %eax
	jmp	.LBB5_57
.LBB5_32:                               # %join.5.i.preheader.i.i.i
	movl	$64, %edi
	cmpq	$-1, %rcx
	movq	48(%rsp), %r9                   # 8-byte Reload
	jne	.LBB5_35
# %bb.33:                               # %join.8.i.i.i.i
	movl	$128, %edi
	movq	%rdx, %rcx
	cmpq	$-1, %rdx
	jne	.LBB5_35
# %bb.34:                               # %join.8.i.1.i.i.i
	movl	$192, %edi
	movq	%rax, %rcx
	cmpq	$-1, %rax
	je	.LBB5_38
.LBB5_35:                               # %then.6.i.i.i.i
	notq	%rcx
	rep		bsfq	%rcx, %rdx
	orq	%rdi, %rdx
	cmpq	%r12, %rdx
	jb	.LBB5_36
.LBB5_39:                               # %join.10.i.i
	leaq	-2(%r12), %rax
	cmpq	%r9, %rax
	jae	.LBB5_41
# %bb.40:
	movl	$3, %r14d
	jmp	.LBB5_1
.LBB5_41:                               # %join.13.i.i
	movq	16608(%rsp), %rbx
	pxor	%xmm0, %xmm0
	movdqa	%xmm0, 400(%rsp)
	movdqa	%xmm0, 384(%rsp)
	movdqa	%xmm0, 368(%rsp)
	movdqa	%xmm0, 352(%rsp)
	movdqa	%xmm0, 336(%rsp)
	movdqa	%xmm0, 320(%rsp)
	movdqa	%xmm0, 304(%rsp)
	movdqa	%xmm0, 288(%rsp)
	movdqa	%xmm0, 272(%rsp)
	movdqa	%xmm0, 256(%rsp)
	movdqa	%xmm0, 240(%rsp)
	movdqa	%xmm0, 224(%rsp)
	movdqa	%xmm0, 208(%rsp)
	movdqa	%xmm0, 192(%rsp)
	movdqa	%xmm0, 176(%rsp)
	movdqa	%xmm0, 160(%rsp)
	testq	%r9, %r9
	je	.LBB5_50
# %bb.42:                               # %join.6.i.i.i.preheader
	xorl	%eax, %eax
	movq	40(%rsp), %rdx                  # 8-byte Reload
	.p2align	4
.LBB5_43:                               # %join.6.i.i.i
                                        # =>This Inner Loop Header: Depth=1
	movzwl	(%rdx,%rax,2), %ecx
	cmpq	%rcx, %r12
	jbe	.LBB5_218
# %bb.44:                               # %else.11.i.i.i
                                        #   in Loop: Header=BB5_43 Depth=1
	cmpb	$1, 160(%rsp,%rcx)
	je	.LBB5_218
# %bb.45:                               # %after.8.i.i.i
                                        #   in Loop: Header=BB5_43 Depth=1
	movb	$1, 160(%rsp,%rcx)
	incq	%rax
	cmpq	%rax, %r9
	jne	.LBB5_43
# %bb.46:                               # %join.6.i121.preheader.i.i
	pxor	%xmm0, %xmm0
	movdqa	%xmm0, 400(%rsp)
	movdqa	%xmm0, 384(%rsp)
	movdqa	%xmm0, 368(%rsp)
	movdqa	%xmm0, 352(%rsp)
	movdqa	%xmm0, 336(%rsp)
	movdqa	%xmm0, 320(%rsp)
	movdqa	%xmm0, 304(%rsp)
	movdqa	%xmm0, 288(%rsp)
	movdqa	%xmm0, 272(%rsp)
	movdqa	%xmm0, 256(%rsp)
	movdqa	%xmm0, 240(%rsp)
	movdqa	%xmm0, 224(%rsp)
	movdqa	%xmm0, 208(%rsp)
	movdqa	%xmm0, 192(%rsp)
	movdqa	%xmm0, 176(%rsp)
	movdqa	%xmm0, 160(%rsp)
	xorl	%eax, %eax
.LBB5_47:                               # %join.6.i121.i.i
                                        # =>This Inner Loop Header: Depth=1
	movzwl	(%rbx,%rax,2), %ecx
	cmpq	%rcx, %r12
	jbe	.LBB5_54
# %bb.48:                               # %else.11.i132.i.i
                                        #   in Loop: Header=BB5_47 Depth=1
	cmpb	$1, 160(%rsp,%rcx)
	je	.LBB5_54
# %bb.49:                               # %after.8.i136.i.i
                                        #   in Loop: Header=BB5_47 Depth=1
	movb	$1, 160(%rsp,%rcx)
	incq	%rax
	cmpq	%rax, %r9
	jne	.LBB5_47
.LBB5_50:                               # %arm.4
	pxor	%xmm0, %xmm0
	movdqa	%xmm0, 144(%rsp)
	leaq	(%r12,%r12,2), %rsi
	cmpq	%r13, %rsi
	setbe	%al
	movdqa	%xmm0, 128(%rsp)
	leaq	-257(%r12), %rcx
	cmpq	$-233, %rcx
	setb	%cl
	orb	%al, %cl
	je	.LBB5_51
.LBB5_59:
	movl	$257, %r10d                     # imm = 0x101
	jmp	.LBB5_60
.LBB5_218:                              # %arm.14.i.i
	movl	$4, %r14d
	jmp	.LBB5_55
.LBB5_51:                               # %join.14.i.i.i.preheader
	xorl	%r10d, %r10d
	movq	%r12, %rax
	.p2align	4
.LBB5_52:                               # %join.14.i.i.i
                                        # =>This Inner Loop Header: Depth=1
	movdqu	(%rbp), %xmm0
	movdqu	16(%rbp), %xmm1
	movdqa	%xmm1, %xmm2
	psrlw	$1, %xmm2
	movdqa	.LCPI5_0(%rip), %xmm3           # xmm3 = [85,85,85,85,85,85,85,85,85,85,85,85,85,85,85,85]
	pand	%xmm3, %xmm2
	psubb	%xmm2, %xmm1
	movdqa	.LCPI5_1(%rip), %xmm2           # xmm2 = [51,51,51,51,51,51,51,51,51,51,51,51,51,51,51,51]
	movdqa	%xmm1, %xmm4
	pand	%xmm2, %xmm4
	psrlw	$2, %xmm1
	pand	%xmm2, %xmm1
	paddb	%xmm4, %xmm1
	movdqa	%xmm1, %xmm4
	psrlw	$4, %xmm4
	paddb	%xmm1, %xmm4
	movdqa	.LCPI5_2(%rip), %xmm1           # xmm1 = [15,15,15,15,15,15,15,15,15,15,15,15,15,15,15,15]
	pand	%xmm1, %xmm4
	movdqa	%xmm0, %xmm5
	psrlw	$1, %xmm5
	pand	%xmm3, %xmm5
	psubb	%xmm5, %xmm0
	movdqa	%xmm0, %xmm3
	pand	%xmm2, %xmm3
	psrlw	$2, %xmm0
	pand	%xmm2, %xmm0
	paddb	%xmm3, %xmm0
	movdqa	%xmm0, %xmm2
	psrlw	$4, %xmm2
	paddb	%xmm0, %xmm2
	pand	%xmm1, %xmm2
	paddb	%xmm4, %xmm2
	pxor	%xmm0, %xmm0
	psadbw	%xmm2, %xmm0
	pshufd	$238, %xmm0, %xmm1              # xmm1 = xmm0[2,3,2,3]
	paddq	%xmm0, %xmm1
	movq	%xmm1, %rcx
	cmpq	$3, %rcx
	ja	.LBB5_59
# %bb.53:                               # %join.17.i.i.i
                                        #   in Loop: Header=BB5_52 Depth=1
	xorl	%edx, %edx
	cmpl	$3, %ecx
	sete	%dl
	addq	%rdx, %r10
	addq	$32, %rbp
	decq	%rax
	jne	.LBB5_52
.LBB5_60:                               # %"likely::junctions_if_thin.exit.i.i"
	movq	16632(%rsp), %r15
	movq	16624(%rsp), %r14
	cmpq	$24, %r12
	jae	.LBB5_68
.LBB5_61:                               # %then.1.i.i
	leaq	160(%rsp), %rbp
	movl	$8192, %edx                     # imm = 0x2000
	movq	%rbp, %rdi
	xorl	%esi, %esi
	callq	memset@PLT
	movq	48(%rsp), %r9                   # 8-byte Reload
	pxor	%xmm0, %xmm0
	movdqa	%xmm0, 64(%rsp)
	movq	$0, 80(%rsp)
	movq	%r12, %rax
	shrq	$2, %rax
	negq	%rax
	addq	%r12, %rax
	addq	$7, %rax
	cmpq	%rax, %r9
	jb	.LBB5_97
# %bb.62:                               # %else.4.i.i.i.i.i
	movabsq	$-3689348814741910323, %rcx     # imm = 0xCCCCCCCCCCCCCCCD
	movq	%r13, %rax
	mulq	%rcx
	shrq	%rdx
	andq	$-2, %rdx
	cmpq	%r12, %rdx
	jb	.LBB5_97
# %bb.63:                               # %repeat.4.preheader.i.i.i.i.i.i.i
	movdqa	%xmm0, 112(%rsp)
	movdqa	%xmm0, 96(%rsp)
	testq	%r9, %r9
	je	.LBB5_93
# %bb.64:                               # %join.6.i.i.i.i.i.i.i.i.preheader
	xorl	%eax, %eax
	movq	40(%rsp), %rdx                  # 8-byte Reload
	jmp	.LBB5_66
.LBB5_65:                               # %"occupancy::occupy.exit.i.i.i.i.i.i.i.i"
                                        #   in Loop: Header=BB5_66 Depth=1
	incq	%rax
	cmpq	%rax, %r9
	je	.LBB5_89
.LBB5_66:                               # %join.6.i.i.i.i.i.i.i.i
                                        # =>This Inner Loop Header: Depth=1
	movzwl	(%rdx,%rax,2), %ecx
	cmpq	%rcx, %r12
	jbe	.LBB5_65
# %bb.67:                               # %then.1.i.i.i.i.i.i.i.i.i
                                        #   in Loop: Header=BB5_66 Depth=1
	movl	$1, %edx
	shlq	%cl, %rdx
	shrl	$6, %ecx
	orq	%rdx, 96(%rsp,%rcx,8)
	movq	40(%rsp), %rdx                  # 8-byte Reload
	jmp	.LBB5_65
.LBB5_68:                               # %join.6.i.i.i12
	cmpq	$257, %r12                      # imm = 0x101
	setae	%al
	movq	%r12, %r8
	subq	%r9, %r8
	setbe	%cl
	orb	%al, %cl
	jne	.LBB5_179
# %bb.69:                               # %ok.14.i.i.i
	leaq	1(%r9), %rdi
	cmpq	$16384, %rdi                    # imm = 0x4000
	ja	.LBB5_71
# %bb.70:
	movl	$16384, %eax                    # imm = 0x4000
	xorl	%edx, %edx
	divl	%edi
	movl	%eax, %ecx
	jmp	.LBB5_72
.LBB5_54:                               # %arm.17.i.i
	movl	$5, %r14d
.LBB5_55:                               # %arm.3
	xorl	%edx, %edx
.LBB5_56:                               # %arm.3
	xorl	%ebx, %ebx
.LBB5_57:                               # %arm.3
	movl	%eax, %ecx
	movl	$1, %eax
	movq	56(%rsp), %r15                  # 8-byte Reload
.LBB5_58:                               # %join.6
	shlq	$32, %rcx
	shll	$16, %edx
	orq	%rcx, %rdx
	movzwl	%r14w, %ecx
	orq	%rdx, %rcx
	movq	%rax, (%r15)
	movq	%rcx, 8(%r15)
	movq	%rbx, 16(%r15)
	addq	$16552, %rsp                    # imm = 0x40A8
	.cfi_def_cfa_offset 56
	popq	%rbx
	.cfi_def_cfa_offset 48
	popq	%r12
	.cfi_def_cfa_offset 40
	popq	%r13
	.cfi_def_cfa_offset 32
	popq	%r14
	.cfi_def_cfa_offset 24
	popq	%r15
	.cfi_def_cfa_offset 16
	popq	%rbp
	.cfi_def_cfa_offset 8
	retq
.LBB5_71:
	.cfi_def_cfa_offset 16608
	xorl	%ecx, %ecx
.LBB5_72:
	cmpq	$257, %r10                      # imm = 0x101
	jb	.LBB5_80
# %bb.73:                               # %then.15.i.i.i
	movabsq	$-6148914691236517205, %rdx     # imm = 0xAAAAAAAAAAAAAAAB
	movq	%r13, %rax
	mulq	%rdx
	shrq	$2, %rdx
	cmpq	%rdx, %r12
	jbe	.LBB5_90
# %bb.74:                               # %join.3.i.i.i.i
	cmpq	%r13, %rsi
	jbe	.LBB5_110
# %bb.75:                               # %join.11.i.i.i.i
	leaq	(%r12,%r12), %rax
	cmpq	%rax, %r13
	jae	.LBB5_124
# %bb.76:                               # %then.14.i.i.i.i
	movq	%r12, %rax
	shrq	$5, %rax
	addq	$2, %rax
	cmpq	%rax, %r8
	jbe	.LBB5_61
# %bb.77:                               # %ok.20.i.i.i.i
	imulq	$290, %r12, %rdx                # imm = 0x122
	leaq	(%r8,%r8,2), %rax
	shlq	$4, %rax
	jmp	.LBB5_78
.LBB5_80:                               # %join.17.i39.i.i
	testq	%r10, %r10
	je	.LBB5_101
# %bb.81:                               # %join.3.i16.i.i.i
	leaq	(,%r9,8), %rax
	leaq	(%r10,%r10,4), %rdx
	cmpq	%rdx, %rax
	jbe	.LBB5_107
# %bb.82:                               # %join.6.i18.i.i.i
	leaq	(,%r10,8), %rdx
	subq	%r10, %rdx
	cmpq	%rdx, %rax
	jbe	.LBB5_121
# %bb.83:                               # %join.9.i.i.i.i
	leaq	(%r12,%r12), %rax
	cmpq	%rax, %r13
	jae	.LBB5_135
# %bb.84:                               # %then.10.i.i.i.i
	movq	%r10, %rax
	shrq	$3, %rax
	addq	%r10, %rax
	addq	$4, %rax
	cmpq	%r9, %rax
	jb	.LBB5_61
# %bb.85:                               # %then.10.i.i.i.i
	movq	%r12, %rax
	shlq	$4, %rax
	leaq	(%rax,%rax,2), %rsi
	cmpq	%rcx, %rsi
	jbe	.LBB5_61
# %bb.86:                               # %then.10.i.i72.i.i
	movl	$65536, %eax                    # imm = 0x10000
	xorl	%edx, %edx
	divl	%edi
                                        # kill: def $eax killed $eax def $rax
	cmpq	%rax, %rsi
	jbe	.LBB5_206
# %bb.87:                               # %then.10.i.i162.i.i
	movl	$131072, %eax                   # imm = 0x20000
	xorl	%edx, %edx
	divl	%edi
                                        # kill: def $eax killed $eax def $rax
	cmpq	%rax, %rsi
	ja	.LBB5_153
	jmp	.LBB5_88
.LBB5_89:                               # %"occupancy::occupied.exit.loopexit.i.i.i.i.i.i.i"
	movdqa	96(%rsp), %xmm0
	movdqa	112(%rsp), %xmm1
	movdqa	%xmm1, %xmm2
	psrlw	$1, %xmm2
	movdqa	.LCPI5_0(%rip), %xmm3           # xmm3 = [85,85,85,85,85,85,85,85,85,85,85,85,85,85,85,85]
	pand	%xmm3, %xmm2
	psubb	%xmm2, %xmm1
	movdqa	.LCPI5_1(%rip), %xmm2           # xmm2 = [51,51,51,51,51,51,51,51,51,51,51,51,51,51,51,51]
	movdqa	%xmm1, %xmm4
	pand	%xmm2, %xmm4
	psrlw	$2, %xmm1
	pand	%xmm2, %xmm1
	paddb	%xmm4, %xmm1
	movdqa	%xmm1, %xmm4
	psrlw	$4, %xmm4
	paddb	%xmm1, %xmm4
	movdqa	.LCPI5_2(%rip), %xmm1           # xmm1 = [15,15,15,15,15,15,15,15,15,15,15,15,15,15,15,15]
	pand	%xmm1, %xmm4
	movdqa	%xmm0, %xmm5
	psrlw	$1, %xmm5
	pand	%xmm3, %xmm5
	psubb	%xmm5, %xmm0
	movdqa	%xmm0, %xmm3
	pand	%xmm2, %xmm3
	psrlw	$2, %xmm0
	pand	%xmm2, %xmm0
	paddb	%xmm3, %xmm0
	movdqa	%xmm0, %xmm2
	psrlw	$4, %xmm2
	paddb	%xmm0, %xmm2
	pand	%xmm1, %xmm2
	paddb	%xmm4, %xmm2
	pxor	%xmm0, %xmm0
	psadbw	%xmm2, %xmm0
	pshufd	$238, %xmm0, %xmm1              # xmm1 = xmm0[2,3,2,3]
	paddq	%xmm0, %xmm1
	movq	%xmm1, %rdi
	jmp	.LBB5_94
.LBB5_38:
	movl	$256, %edx                      # imm = 0x100
	cmpq	%r12, %rdx
	jb	.LBB5_36
	jmp	.LBB5_39
.LBB5_90:                               # %then.1.i.i.i.i
	cmpq	$25, %r9
	jb	.LBB5_61
# %bb.91:                               # %ok.8.i.i.i.i
	movq	%r8, %rax
	shlq	$6, %rax
	leaq	(%rax,%rsi,8), %rax
	movq	%rax, %rdx
	orq	%r8, %rdx
	shrq	$32, %rdx
	je	.LBB5_126
# %bb.92:
	xorl	%edx, %edx
	divq	%r8
	jmp	.LBB5_127
.LBB5_93:
	xorl	%edi, %edi
.LBB5_94:                               # %"yard::Yard::empty_bays.exit.i.i.i.i.i"
	movq	%r12, %rsi
	movabsq	$-6148914691236517205, %rcx     # imm = 0xAAAAAAAAAAAAAAAB
	movq	%r13, %rax
	mulq	%rcx
	subq	%rdi, %rsi
	shrq	%rdx
	cmpq	%r12, %rdx
	jae	.LBB5_99
# %bb.95:                               # %"yard::Yard::empty_bays.exit.i.i.i.i.i"
	cmpq	$2, %rsi
	ja	.LBB5_99
.LBB5_96:                               # %then.15.i.i.i.i.i
	pxor	%xmm0, %xmm0
.LBB5_97:                               # %join.5.i.i.i.i.i
	movdqa	%xmm0, 96(%rsp)
	movq	$0, 112(%rsp)
	leaq	(,%r12,4), %rdx
	movq	%rbp, 16(%rsp)
	movq	%r9, 8(%rsp)
	movq	%rbx, (%rsp)
	movq	$1024, 24(%rsp)                 # imm = 0x400
	leaq	96(%rsp), %rdi
	leaq	8360(%rsp), %rsi
	movq	%r12, %rcx
	movq	40(%rsp), %r8                   # 8-byte Reload
	callq	"play::play_in"
	movzbl	96(%rsp), %eax
	movl	100(%rsp), %ebx
	movups	104(%rsp), %xmm0
	movups	%xmm0, 72(%rsp)
	movdqu	72(%rsp), %xmm0
	cmpb	$1, %al
	jne	.LBB5_114
.LBB5_98:                               # %arm.1.i.i.i.i.i
	shlq	$32, %rbx
	orq	$6, %rbx
	movl	$1, %r14d
	xorl	%eax, %eax
	xorl	%ebp, %ebp
	jmp	.LBB5_181
.LBB5_99:                               # %after.11.i.i.i.i.i
	movq	%r12, %rax
	mulq	%rcx
	shrq	$3, %rdx
	cmpq	%rsi, %rdx
	jae	.LBB5_105
# %bb.100:                              # %then.20.i.i.i.i.i
	movq	%r13, %rax
	mulq	%rcx
	shrq	$2, %rdx
	cmpq	%rdx, %r12
	jbe	.LBB5_96
	jmp	.LBB5_106
.LBB5_101:                              # %then.1.i21.i.i.i
	leaq	32(,%r12,8), %rsi
	cmpq	%rcx, %rsi
	jbe	.LBB5_61
# %bb.102:                              # %"likely::holds.exit130.i.i"
	leal	1(%r9), %ecx
	movl	$65536, %eax                    # imm = 0x10000
	xorl	%edx, %edx
	divl	%ecx
                                        # kill: def $eax killed $eax def $rax
	cmpq	%rax, %rsi
	jbe	.LBB5_206
# %bb.103:                              # %"likely::holds.exit220.i.i"
	movl	$131072, %eax                   # imm = 0x20000
	xorl	%edx, %edx
	divl	%ecx
                                        # kill: def $eax killed $eax def $rax
	cmpq	%rax, %rsi
	jbe	.LBB5_88
# %bb.104:                              # %"likely::holds.exit310.i.i"
	movl	$262144, %eax                   # imm = 0x40000
	jmp	.LBB5_176
.LBB5_105:                              # %join.22.i.i.i.i.i
	cmpq	$127, %r12
	ja	.LBB5_112
.LBB5_106:                              # %join.25.i.i.i.i.i
	movq	%rbp, 8(%rsp)
	movq	%r9, (%rsp)
	movq	$1024, 16(%rsp)                 # imm = 0x400
	leaq	64(%rsp), %rdi
	leaq	8360(%rsp), %rsi
	movq	%r12, %rdx
	movq	40(%rsp), %rcx                  # 8-byte Reload
	movq	%r9, %r8
	movq	%rbx, %r9
	callq	"play::play_within::<=8192>"
	jmp	.LBB5_113
.LBB5_107:                              # %then.4.i.i.i.i
	leaq	(,%r12,4), %rax
	leaq	(%rax,%rax,2), %rsi
	cmpq	%rcx, %rsi
	jbe	.LBB5_61
# %bb.108:                              # %then.4.i.i57.i.i
	cmpq	$65536, %rdi                    # imm = 0x10000
	ja	.LBB5_138
# %bb.109:
	movl	$65536, %eax                    # imm = 0x10000
	xorl	%edx, %edx
	divl	%edi
                                        # kill: def $eax killed $eax def $rax
	jmp	.LBB5_139
.LBB5_110:                              # %ok.13.i.i.i.i
	imull	$52429, %r12d, %r10d            # imm = 0xCCCD
	shrl	$20, %r10d
	addl	$5, %r10d
	leaq	(%r8,%r8,4), %rax
	shlq	$2, %rsi
	leaq	(%rsi,%rax,4), %rax
	movq	%rax, %rdx
	orq	%r8, %rdx
	shrq	$32, %rdx
	je	.LBB5_131
# %bb.111:
	xorl	%edx, %edx
	divq	%r8
	movq	%rax, %rsi
	jmp	.LBB5_132
.LBB5_112:                              # %join.28.i.i.i.i.i
	movq	%rbp, 8(%rsp)
	movq	%r9, (%rsp)
	movq	$1024, 16(%rsp)                 # imm = 0x400
	leaq	64(%rsp), %rdi
	leaq	8360(%rsp), %rsi
	movq	%r12, %rdx
	movq	40(%rsp), %rcx                  # 8-byte Reload
	movq	%r9, %r8
	movq	%rbx, %r9
	callq	"play::play_within::<=32768>"
.LBB5_113:                              # %"play::play.exit.i.i.i.i"
	movzbl	64(%rsp), %eax
	movl	68(%rsp), %ebx
	movdqu	72(%rsp), %xmm0
	cmpb	$1, %al
	je	.LBB5_98
.LBB5_114:                              # %arm.2.i.i.i.i.i
	movq	%xmm0, %rbp
	cmpq	%rbp, %r15
	setb	%al
	cmpq	$65537, %rbp                    # imm = 0x10001
	setae	%cl
	orb	%al, %cl
	je	.LBB5_116
# %bb.115:
	movl	$7, %ebx
	movl	$1, %r14d
	xorl	%eax, %eax
	jmp	.LBB5_181
.LBB5_116:                              # %join.10.i.i.i.i.i
	pshufd	$238, %xmm0, %xmm0              # xmm0 = xmm0[2,3,2,3]
	movq	%xmm0, %r15
	cmpq	$1024, %rbp                     # imm = 0x400
	jbe	.LBB5_118
# %bb.117:
	movb	$1, %al
	movq	%rbp, %r14
	movq	%r15, %rbx
	xorl	%ebp, %ebp
	jmp	.LBB5_181
.LBB5_118:                              # %join.13.i.i.i.i.i
	testq	%rbp, %rbp
	je	.LBB5_120
# %bb.119:                              # %join.5.i.i.i.preheader.i.i.i
	leaq	(,%rbp,8), %rdx
	leaq	160(%rsp), %rsi
	movq	%r14, %rdi
	callq	memcpy@PLT
	xorl	%eax, %eax
	xorl	%r14d, %r14d
	movq	%rbp, %rbx
	movq	%r15, %rbp
	jmp	.LBB5_181
.LBB5_120:
	xorl	%eax, %eax
	xorl	%r14d, %r14d
	xorl	%ebx, %ebx
	movq	%r15, %rbp
	jmp	.LBB5_181
.LBB5_121:                              # %then.7.i.i.i.i
	leaq	(,%r12,4), %rax
	leaq	(%rax,%rax,4), %rsi
	cmpq	%rcx, %rsi
	jbe	.LBB5_61
# %bb.122:                              # %then.7.i.i63.i.i
	cmpq	$65536, %rdi                    # imm = 0x10000
	ja	.LBB5_146
# %bb.123:
	movl	$65536, %eax                    # imm = 0x10000
	xorl	%edx, %edx
	divl	%edi
                                        # kill: def $eax killed $eax def $rax
	jmp	.LBB5_147
.LBB5_124:                              # %join.16.i.i.i.i
	cmpq	$3, %r8
	jb	.LBB5_61
# %bb.125:                              # %ok.24.i.i.i.i
	imulq	$800, %r12, %rdx                # imm = 0x320
	imulq	$-300, %r8, %rax                # imm = 0xFED4
.LBB5_78:                               # %ok.20.i.i.i.i
	addq	%rdx, %rax
	movq	%rax, %rdx
	orq	%r8, %rdx
	shrq	$32, %rdx
	je	.LBB5_163
# %bb.79:
	xorl	%edx, %edx
	divq	%r8
	movq	%rax, %rsi
	jmp	.LBB5_164
.LBB5_126:
                                        # kill: def $eax killed $eax killed $rax
	xorl	%edx, %edx
	divl	%r8d
                                        # kill: def $eax killed $eax def $rax
.LBB5_127:
	cmpq	%rcx, %rax
	jbe	.LBB5_61
# %bb.128:                              # %then.1.i.i85.i.i
	cmpq	$102, %r9
	jb	.LBB5_206
# %bb.129:                              # %ok.8.i.i87.i.i
	cmpq	$65536, %rdi                    # imm = 0x10000
	ja	.LBB5_154
# %bb.130:
	movq	%rax, %rsi
	movl	$65536, %eax                    # imm = 0x10000
	xorl	%edx, %edx
	divl	%edi
	movl	%eax, %ecx
	movq	%rsi, %rax
	jmp	.LBB5_155
.LBB5_131:
                                        # kill: def $eax killed $eax killed $rax
	xorl	%edx, %edx
	divl	%r8d
	movl	%eax, %esi
.LBB5_132:
	movl	%ecx, %eax
	xorl	%edx, %edx
	divw	%r10w
	movzwl	%ax, %eax
	cmpq	%rax, %rsi
	jbe	.LBB5_61
# %bb.133:                              # %ok.13.i.i96.i.i
	cmpq	$65536, %rdi                    # imm = 0x10000
	ja	.LBB5_142
# %bb.134:
	movl	$65536, %eax                    # imm = 0x10000
	xorl	%edx, %edx
	divl	%edi
                                        # kill: def $eax killed $eax def $rax
	jmp	.LBB5_143
.LBB5_135:                              # %"likely::holds.exit.i.i"
	movq	%r12, %rax
	shlq	$4, %rax
	leaq	(%rax,%rax,2), %rsi
	cmpq	%rcx, %rsi
	jbe	.LBB5_61
	jmp	.LBB5_136
.LBB5_138:
	xorl	%eax, %eax
.LBB5_139:
	cmpq	%rax, %rsi
	jbe	.LBB5_206
# %bb.140:                              # %then.4.i.i147.i.i
	cmpq	$131072, %rdi                   # imm = 0x20000
	ja	.LBB5_150
# %bb.141:
	movl	$131072, %eax                   # imm = 0x20000
	xorl	%edx, %edx
	divl	%edi
                                        # kill: def $eax killed $eax def $rax
	jmp	.LBB5_151
.LBB5_142:
	xorl	%eax, %eax
.LBB5_143:
	movzwl	%r10w, %ecx
                                        # kill: def $eax killed $eax killed $rax
	xorl	%edx, %edx
	divl	%ecx
                                        # kill: def $eax killed $eax def $rax
	cmpq	%rax, %rsi
	jbe	.LBB5_206
# %bb.144:                              # %ok.13.i.i186.i.i
	cmpq	$131072, %rdi                   # imm = 0x20000
	ja	.LBB5_159
# %bb.145:
	movl	$131072, %eax                   # imm = 0x20000
	xorl	%edx, %edx
	divl	%edi
                                        # kill: def $eax killed $eax def $rax
	jmp	.LBB5_160
.LBB5_163:
                                        # kill: def $eax killed $eax killed $rax
	xorl	%edx, %edx
	divl	%r8d
	movl	%eax, %esi
.LBB5_164:
	cmpq	%rcx, %rsi
	jbe	.LBB5_61
.LBB5_136:                              # %join.12.i.i69.i.i
	cmpq	$65536, %rdi                    # imm = 0x10000
	ja	.LBB5_165
# %bb.137:
	movl	$65536, %eax                    # imm = 0x10000
	xorl	%edx, %edx
	divl	%edi
                                        # kill: def $eax killed $eax def $rax
	jmp	.LBB5_166
.LBB5_165:
	xorl	%eax, %eax
.LBB5_166:
	cmpq	%rax, %rsi
	jbe	.LBB5_206
# %bb.167:                              # %join.12.i.i159.i.i
	movq	%r14, %r8
	movq	%rbx, %rcx
	cmpq	$131072, %rdi                   # imm = 0x20000
	ja	.LBB5_207
# %bb.168:
	movl	$131072, %eax                   # imm = 0x20000
	xorl	%edx, %edx
	divl	%edi
                                        # kill: def $eax killed $eax def $rax
	jmp	.LBB5_208
.LBB5_146:
	xorl	%eax, %eax
.LBB5_147:
	cmpq	%rax, %rsi
	jbe	.LBB5_206
# %bb.148:                              # %then.7.i.i153.i.i
	cmpq	$131072, %rdi                   # imm = 0x20000
	ja	.LBB5_169
# %bb.149:
	movl	$131072, %eax                   # imm = 0x20000
	xorl	%edx, %edx
	divl	%edi
                                        # kill: def $eax killed $eax def $rax
	jmp	.LBB5_170
.LBB5_150:
	xorl	%eax, %eax
.LBB5_151:
	cmpq	%rax, %rsi
	jbe	.LBB5_88
# %bb.152:                              # %then.4.i.i237.i.i
	cmpq	$262144, %rdi                   # imm = 0x40000
	ja	.LBB5_173
.LBB5_153:                              # %then.10.i.i252.i.i
	movl	$262144, %eax                   # imm = 0x40000
	xorl	%edx, %edx
	divl	%edi
	jmp	.LBB5_177
.LBB5_154:
	xorl	%ecx, %ecx
.LBB5_155:
	cmpq	%rcx, %rax
	jbe	.LBB5_206
# %bb.156:                              # %then.1.i.i175.i.i
	cmpq	$204, %r9
	jb	.LBB5_88
# %bb.157:                              # %ok.8.i.i177.i.i
	movq	%rax, %rcx
	cmpq	$131072, %rdi                   # imm = 0x20000
	ja	.LBB5_213
# %bb.158:
	movl	$131072, %eax                   # imm = 0x20000
	xorl	%edx, %edx
	divl	%edi
                                        # kill: def $eax killed $eax def $rax
	jmp	.LBB5_214
.LBB5_206:                              # %then.4.i.i
	movq	%r15, 24(%rsp)
	movq	%r14, 16(%rsp)
	movq	%r9, 8(%rsp)
	movq	%rbx, (%rsp)
	leaq	128(%rsp), %rdi
	leaq	8360(%rsp), %rsi
	movq	%r12, %rdx
	movq	%r13, %rcx
	movq	40(%rsp), %r8                   # 8-byte Reload
	callq	"planner::hand_out_within::<=4096>"
	jmp	.LBB5_180
.LBB5_159:
	xorl	%eax, %eax
.LBB5_160:
                                        # kill: def $eax killed $eax killed $rax
	xorl	%edx, %edx
	divl	%ecx
                                        # kill: def $eax killed $eax def $rax
	cmpq	%rax, %rsi
	jbe	.LBB5_88
# %bb.161:                              # %ok.13.i.i276.i.i
	cmpq	$262144, %rdi                   # imm = 0x40000
	ja	.LBB5_174
# %bb.162:
	movl	$262144, %eax                   # imm = 0x40000
	xorl	%edx, %edx
	divl	%edi
                                        # kill: def $eax killed $eax def $rax
	jmp	.LBB5_175
.LBB5_207:
	xorl	%eax, %eax
.LBB5_208:
	cmpq	%rax, %rsi
	movq	48(%rsp), %r9                   # 8-byte Reload
	movq	%rcx, %rbx
	movq	%r8, %r14
	jbe	.LBB5_88
# %bb.209:                              # %join.12.i.i249.i.i
	cmpq	$262144, %rdi                   # imm = 0x40000
	ja	.LBB5_210
# %bb.215:
	movl	$262144, %eax                   # imm = 0x40000
	xorl	%edx, %edx
	divl	%edi
                                        # kill: def $eax killed $eax def $rax
	jmp	.LBB5_216
.LBB5_169:
	xorl	%eax, %eax
.LBB5_170:
	cmpq	%rax, %rsi
	jbe	.LBB5_88
# %bb.171:                              # %then.7.i.i243.i.i
	cmpq	$262144, %rdi                   # imm = 0x40000
	ja	.LBB5_211
# %bb.172:
	movl	$262144, %eax                   # imm = 0x40000
	xorl	%edx, %edx
	divl	%edi
                                        # kill: def $eax killed $eax def $rax
	jmp	.LBB5_212
.LBB5_173:
	xorl	%eax, %eax
	jmp	.LBB5_178
.LBB5_174:
	xorl	%eax, %eax
.LBB5_175:                              # %"likely::holds.exit310.i.i"
                                        # kill: def $eax killed $eax killed $rax
.LBB5_176:                              # %"likely::holds.exit310.i.i"
	xorl	%edx, %edx
	divl	%ecx
.LBB5_177:                              # %"likely::holds.exit310.i.i"
                                        # kill: def $eax killed $eax def $rax
.LBB5_178:                              # %"likely::holds.exit310.i.i"
	cmpq	%rax, %rsi
	jbe	.LBB5_217
.LBB5_179:                              # %join.12.i.i
	movq	%r15, 24(%rsp)
	movq	%r14, 16(%rsp)
	movq	%r9, 8(%rsp)
	movq	%rbx, (%rsp)
	leaq	128(%rsp), %rdi
	leaq	8360(%rsp), %rsi
	movq	%r12, %rdx
	movq	%r13, %rcx
	movq	40(%rsp), %r8                   # 8-byte Reload
	callq	"planner::hand_out_within::<=65536>"
.LBB5_180:                              # %"planner::hand_out_likely.exit.i"
	movzbl	128(%rsp), %eax
	movq	136(%rsp), %r14
	movq	144(%rsp), %rbx
	movq	152(%rsp), %rbp
.LBB5_181:                              # %"planner::hand_out_likely.exit.i"
	testb	%al, %al
	je	.LBB5_186
# %bb.182:                              # %arm.2.i
	movq	%r12, %rax
	shrq	$2, %rax
	negq	%rax
	addq	%r12, %rax
	addq	$7, %rax
	movq	48(%rsp), %r9                   # 8-byte Reload
	cmpq	%rax, %r9
	jb	.LBB5_196
# %bb.183:                              # %else.4.i.i.i
	movabsq	$-3689348814741910323, %rcx     # imm = 0xCCCCCCCCCCCCCCCD
	movq	%r13, %rax
	mulq	%rcx
	shrq	%rdx
	andq	$-2, %rdx
	cmpq	%r12, %rdx
	jb	.LBB5_196
# %bb.184:                              # %after.1.i.i.i
	cmpq	$256, %r12                      # imm = 0x100
	jbe	.LBB5_187
# %bb.185:
	xorl	%ecx, %ecx
	jmp	.LBB5_194
.LBB5_186:                              # %arm.1.i18
	movzbl	%r14b, %eax
	movq	%rbx, %r14
	movq	%rbp, %rbx
	movq	56(%rsp), %r15                  # 8-byte Reload
	jmp	.LBB5_199
.LBB5_187:                              # %repeat.4.preheader.i.i.i.i.i
	pxor	%xmm0, %xmm0
	movdqa	%xmm0, 176(%rsp)
	movdqa	%xmm0, 160(%rsp)
	xorl	%eax, %eax
	testq	%r9, %r9
	je	.LBB5_193
# %bb.188:                              # %join.6.i.i.i.i.i.i.preheader
	movq	40(%rsp), %rdx                  # 8-byte Reload
	jmp	.LBB5_190
.LBB5_189:                              # %"occupancy::occupy.exit.i.i.i.i.i.i"
                                        #   in Loop: Header=BB5_190 Depth=1
	incq	%rax
	cmpq	%rax, %r9
	je	.LBB5_192
.LBB5_190:                              # %join.6.i.i.i.i.i.i
                                        # =>This Inner Loop Header: Depth=1
	movzwl	(%rdx,%rax,2), %ecx
	cmpq	%rcx, %r12
	jbe	.LBB5_189
# %bb.191:                              # %then.1.i.i.i.i.i.i.i
                                        #   in Loop: Header=BB5_190 Depth=1
	movl	$1, %edx
	shlq	%cl, %rdx
	shrl	$6, %ecx
	orq	%rdx, 160(%rsp,%rcx,8)
	movq	40(%rsp), %rdx                  # 8-byte Reload
	jmp	.LBB5_189
.LBB5_192:                              # %"occupancy::occupied.exit.loopexit.i.i.i.i.i"
	movdqa	160(%rsp), %xmm0
	movdqa	176(%rsp), %xmm1
	movdqa	%xmm1, %xmm2
	psrlw	$1, %xmm2
	movdqa	.LCPI5_0(%rip), %xmm3           # xmm3 = [85,85,85,85,85,85,85,85,85,85,85,85,85,85,85,85]
	pand	%xmm3, %xmm2
	psubb	%xmm2, %xmm1
	movdqa	.LCPI5_1(%rip), %xmm2           # xmm2 = [51,51,51,51,51,51,51,51,51,51,51,51,51,51,51,51]
	movdqa	%xmm1, %xmm4
	pand	%xmm2, %xmm4
	psrlw	$2, %xmm1
	pand	%xmm2, %xmm1
	paddb	%xmm4, %xmm1
	movdqa	%xmm1, %xmm4
	psrlw	$4, %xmm4
	paddb	%xmm1, %xmm4
	movdqa	.LCPI5_2(%rip), %xmm1           # xmm1 = [15,15,15,15,15,15,15,15,15,15,15,15,15,15,15,15]
	pand	%xmm1, %xmm4
	movdqa	%xmm0, %xmm5
	psrlw	$1, %xmm5
	pand	%xmm3, %xmm5
	psubb	%xmm5, %xmm0
	movdqa	%xmm0, %xmm3
	pand	%xmm2, %xmm3
	psrlw	$2, %xmm0
	pand	%xmm2, %xmm0
	paddb	%xmm3, %xmm0
	movdqa	%xmm0, %xmm2
	psrlw	$4, %xmm2
	paddb	%xmm0, %xmm2
	pand	%xmm1, %xmm2
	paddb	%xmm4, %xmm2
	pxor	%xmm0, %xmm0
	psadbw	%xmm2, %xmm0
	pshufd	$238, %xmm0, %xmm1              # xmm1 = xmm0[2,3,2,3]
	paddq	%xmm0, %xmm1
	movq	%xmm1, %rax
.LBB5_193:                              # %"occupancy::occupied.exit.i.i.i.i.i"
	movq	%r12, %rcx
	subq	%rax, %rcx
.LBB5_194:                              # %"yard::Yard::empty_bays.exit.i.i.i"
	movabsq	$-6148914691236517205, %rsi     # imm = 0xAAAAAAAAAAAAAAAB
	movq	%r13, %rax
	mulq	%rsi
	shrq	%rdx
	cmpq	%r12, %rdx
	jae	.LBB5_200
# %bb.195:                              # %"yard::Yard::empty_bays.exit.i.i.i"
	cmpq	$2, %rcx
	ja	.LBB5_200
.LBB5_196:                              # %join.5.i.i.i17
	leaq	(,%r12,4), %rdx
	movq	%r14, 24(%rsp)
	movq	16624(%rsp), %rax
	movq	%rax, 16(%rsp)
	movq	%r9, 8(%rsp)
	movq	16608(%rsp), %rax
	movq	%rax, (%rsp)
	leaq	160(%rsp), %rdi
	leaq	8360(%rsp), %rsi
	movq	%r12, %rcx
	movq	40(%rsp), %r8                   # 8-byte Reload
	callq	"play::play_in"
.LBB5_197:                              # %"rooms::hand_out_again.exit.i"
	movq	56(%rsp), %r15                  # 8-byte Reload
.LBB5_198:                              # %"rooms::hand_out_again.exit.i"
	xorl	%eax, %eax
.LBB5_199:                              # %"planner::hand_out.exit"
	movq	%r14, %rdx
	shrq	$16, %rdx
	movq	%r14, %rcx
	shrq	$32, %rcx
	jmp	.LBB5_58
.LBB5_200:                              # %after.11.i.i.i
	movq	%r12, %rax
	mulq	%rsi
	shrq	$3, %rdx
	cmpq	%rcx, %rdx
	jae	.LBB5_203
# %bb.201:                              # %then.20.i.i.i
	movq	%r13, %rax
	mulq	%rsi
	shrq	$2, %rdx
	cmpq	%rdx, %r12
	jbe	.LBB5_196
# %bb.202:                              # %join.25.i.i.i
	movq	%r14, 16(%rsp)
	movq	16624(%rsp), %rax
	movq	%rax, 8(%rsp)
	movq	%r9, (%rsp)
	leaq	160(%rsp), %rdi
	leaq	8360(%rsp), %rsi
	movq	%r12, %rdx
	movq	40(%rsp), %rcx                  # 8-byte Reload
	movq	%r9, %r8
	movq	16608(%rsp), %r9
	callq	"play::play_within::<=8192>"
	jmp	.LBB5_197
.LBB5_203:                              # %join.22.i.i.i
	cmpq	$127, %r12
	movq	56(%rsp), %r15                  # 8-byte Reload
	ja	.LBB5_205
# %bb.204:                              # %then.26.i.i.i
	movq	%r14, 16(%rsp)
	movq	16624(%rsp), %rax
	movq	%rax, 8(%rsp)
	movq	%r9, (%rsp)
	leaq	160(%rsp), %rdi
	leaq	8360(%rsp), %rsi
	movq	%r12, %rdx
	movq	40(%rsp), %rcx                  # 8-byte Reload
	movq	%r9, %r8
	movq	16608(%rsp), %r9
	callq	"play::play_within::<=8192>"
	jmp	.LBB5_198
.LBB5_205:                              # %join.28.i.i.i
	movq	%r14, 16(%rsp)
	movq	16624(%rsp), %rax
	movq	%rax, 8(%rsp)
	movq	%r9, (%rsp)
	leaq	160(%rsp), %rdi
	leaq	8360(%rsp), %rsi
	movq	%r12, %rdx
	movq	40(%rsp), %rcx                  # 8-byte Reload
	movq	%r9, %r8
	movq	16608(%rsp), %r9
	callq	"play::play_within::<=32768>"
	jmp	.LBB5_198
.LBB5_210:
	xorl	%eax, %eax
.LBB5_216:
	cmpq	%rax, %rsi
	movq	48(%rsp), %r9                   # 8-byte Reload
	movq	%rcx, %rbx
	movq	%r8, %r14
	ja	.LBB5_179
	jmp	.LBB5_217
.LBB5_211:
	xorl	%eax, %eax
.LBB5_212:
	cmpq	%rax, %rsi
	movq	48(%rsp), %r9                   # 8-byte Reload
	ja	.LBB5_179
	jmp	.LBB5_217
.LBB5_213:
	xorl	%eax, %eax
.LBB5_214:
	cmpq	%rax, %rcx
	movq	48(%rsp), %r9                   # 8-byte Reload
	jbe	.LBB5_88
.LBB5_217:                              # %then.10.i.i
	movq	%r15, 24(%rsp)
	movq	%r14, 16(%rsp)
	movq	%r9, 8(%rsp)
	movq	%rbx, (%rsp)
	leaq	128(%rsp), %rdi
	leaq	8360(%rsp), %rsi
	movq	%r12, %rdx
	movq	%r13, %rcx
	movq	40(%rsp), %r8                   # 8-byte Reload
	callq	"planner::hand_out_within::<=16384>"
	jmp	.LBB5_180
.LBB5_88:                               # %then.7.i.i
	movq	%r15, 24(%rsp)
	movq	%r14, 16(%rsp)
	movq	%r9, 8(%rsp)
	movq	%rbx, (%rsp)
	leaq	128(%rsp), %rdi
	leaq	8360(%rsp), %rsi
	movq	%r12, %rdx
	movq	%r13, %rcx
	movq	40(%rsp), %r8                   # 8-byte Reload
	callq	"planner::hand_out_within::<=8192>"
	jmp	.LBB5_180
.Lfunc_end5:
	.size	"planner::plan_counted", .Lfunc_end5-"planner::plan_counted"
	.cfi_endproc
                                        # -- End function
	.section	.rodata.cst16,"aM",@progbits,16
	.p2align	4, 0x0                          # -- Begin function play::play_in
.LCPI6_0:
	.zero	16,85
.LCPI6_1:
	.zero	16,51
.LCPI6_2:
	.zero	16,15
	.section	".text.play::play_in","ax",@progbits
	.p2align	4
	.type	"play::play_in",@function
"play::play_in":                        # @"play::play_in"
	.cfi_startproc
# %bb.0:                                # %start
	pushq	%rbp
	.cfi_def_cfa_offset 16
	pushq	%r15
	.cfi_def_cfa_offset 24
	pushq	%r14
	.cfi_def_cfa_offset 32
	pushq	%r13
	.cfi_def_cfa_offset 40
	pushq	%r12
	.cfi_def_cfa_offset 48
	pushq	%rbx
	.cfi_def_cfa_offset 56
	subq	$2344, %rsp                     # imm = 0x928
	.cfi_def_cfa_offset 2400
	.cfi_offset %rbx, -56
	.cfi_offset %r12, -48
	.cfi_offset %r13, -40
	.cfi_offset %r14, -32
	.cfi_offset %r15, -24
	.cfi_offset %rbp, -16
	movq	%r9, %r14
	movq	%r8, %rbx
	movq	%rcx, %r15
	movq	%rdx, 176(%rsp)                 # 8-byte Spill
	movq	%rsi, 88(%rsp)                  # 8-byte Spill
	movq	%rdi, 224(%rsp)                 # 8-byte Spill
	leaq	808(%rsp), %rdi
	movl	$512, %edx                      # imm = 0x200
	xorl	%esi, %esi
	callq	memset@PLT
	leaq	296(%rsp), %rdi
	movl	$512, %edx                      # imm = 0x200
	xorl	%esi, %esi
	callq	memset@PLT
	leaq	1320(%rsp), %rdi
	movl	$512, %edx                      # imm = 0x200
	xorl	%esi, %esi
	callq	memset@PLT
	pxor	%xmm0, %xmm0
	movdqa	%xmm0, 64(%rsp)
	movdqa	%xmm0, 48(%rsp)
	testq	%r14, %r14
	movq	%r14, 104(%rsp)                 # 8-byte Spill
	je	.LBB6_2
# %bb.1:                                # %join.5.i.i.preheader
	leaq	(%r14,%r14), %rdx
	leaq	808(%rsp), %rdi
	movq	%rbx, %rsi
	callq	memcpy@PLT
	pxor	%xmm0, %xmm0
	movq	104(%rsp), %r14                 # 8-byte Reload
.LBB6_2:                                # %"copies::copy::<i16,21'core::clone::U16Clone{}>.exit.i"
	movabsq	$2305843009213693944, %rax      # imm = 0x1FFFFFFFFFFFFFF8
	movdqa	%xmm0, 208(%rsp)
	movdqa	%xmm0, 192(%rsp)
	testq	%r15, %r15
	je	.LBB6_9
# %bb.3:                                # %join.6.i.i.i.preheader
	cmpq	$1, %r15
	jne	.LBB6_5
# %bb.4:
	xorl	%ecx, %ecx
	jmp	.LBB6_8
.LBB6_5:                                # %join.6.i.i.i.preheader.new
	movq	%r15, %rdx
	andq	$-2, %rdx
	xorl	%ecx, %ecx
	.p2align	4
.LBB6_6:                                # %join.6.i.i.i
                                        # =>This Inner Loop Header: Depth=1
	movw	%r14w, 296(%rsp,%rcx,2)
	movl	%ecx, %esi
	andb	$62, %sil
	movq	%rcx, %rdi
	shrq	$3, %rdi
	andq	%rax, %rdi
	movq	192(%rsp,%rdi), %r8
	btsq	%rsi, %r8
	movw	%r14w, 298(%rsp,%rcx,2)
	leal	1(%rcx), %esi
	btsq	%rsi, %r8
	movq	%r8, 192(%rsp,%rdi)
	addq	$2, %rcx
	cmpq	%rcx, %rdx
	jne	.LBB6_6
# %bb.7:                                # %"placing::nobody.exit.i.i.loopexit.unr-lcssa"
	testb	$1, %r15b
	je	.LBB6_9
.LBB6_8:                                # %join.6.i.i.i.epil.preheader
	movw	%r14w, 296(%rsp,%rcx,2)
	movl	$1, %edx
	shlq	%cl, %rdx
	shrq	$3, %rcx
	andq	%rax, %rcx
	orq	%rdx, 192(%rsp,%rcx)
.LBB6_9:                                # %"placing::nobody.exit.i.i"
	testq	%r14, %r14
	je	.LBB6_12
# %bb.10:                               # %join.6.i.i.preheader
	xorl	%edx, %edx
	.p2align	4
.LBB6_11:                               # %join.6.i.i
                                        # =>This Inner Loop Header: Depth=1
	movzwl	(%rbx,%rdx,2), %ecx
	movw	%dx, 296(%rsp,%rcx,2)
	movq	$-2, %rsi
	rolq	%cl, %rsi
	shrl	$6, %ecx
	andq	%rsi, 192(%rsp,%rcx,8)
	incq	%rdx
	cmpq	%rdx, %r14
	jne	.LBB6_11
.LBB6_12:                               # %"placing::place.exit.i"
	movq	2408(%rsp), %r9
	pxor	%xmm0, %xmm0
	movdqa	%xmm0, 272(%rsp)
	movdqa	%xmm0, 256(%rsp)
	testq	%r15, %r15
	je	.LBB6_19
# %bb.13:                               # %join.6.i.i11.i.preheader
	cmpq	$1, %r15
	jne	.LBB6_15
# %bb.14:
	xorl	%ecx, %ecx
	jmp	.LBB6_18
.LBB6_15:                               # %join.6.i.i11.i.preheader.new
	movq	%r15, %rdx
	andq	$-2, %rdx
	xorl	%ecx, %ecx
	.p2align	4
.LBB6_16:                               # %join.6.i.i11.i
                                        # =>This Inner Loop Header: Depth=1
	movw	%r9w, 1320(%rsp,%rcx,2)
	movl	%ecx, %esi
	andb	$62, %sil
	movq	%rcx, %rdi
	shrq	$3, %rdi
	andq	%rax, %rdi
	movq	256(%rsp,%rdi), %r8
	btsq	%rsi, %r8
	movw	%r9w, 1322(%rsp,%rcx,2)
	leal	1(%rcx), %esi
	btsq	%rsi, %r8
	movq	%r8, 256(%rsp,%rdi)
	addq	$2, %rcx
	cmpq	%rcx, %rdx
	jne	.LBB6_16
# %bb.17:                               # %"placing::nobody.exit.i23.i.loopexit.unr-lcssa"
	testb	$1, %r15b
	je	.LBB6_19
.LBB6_18:                               # %join.6.i.i11.i.epil.preheader
	movw	%r9w, 1320(%rsp,%rcx,2)
	movl	$1, %edx
	shlq	%cl, %rdx
	shrq	$3, %rcx
	andq	%rax, %rcx
	orq	%rdx, 256(%rsp,%rcx)
.LBB6_19:                               # %"placing::nobody.exit.i23.i"
	movq	2400(%rsp), %r8
	testq	%r9, %r9
	je	.LBB6_22
# %bb.20:                               # %join.6.i25.i.preheader
	xorl	%eax, %eax
	.p2align	4
.LBB6_21:                               # %join.6.i25.i
                                        # =>This Inner Loop Header: Depth=1
	movzwl	(%r8,%rax,2), %ecx
	movw	%ax, 1320(%rsp,%rcx,2)
	movq	$-2, %rdx
	rolq	%cl, %rdx
	shrl	$6, %ecx
	andq	%rdx, 256(%rsp,%rcx,8)
	incq	%rax
	cmpq	%rax, %r9
	jne	.LBB6_21
.LBB6_22:                               # %"placing::place.exit43.i"
	xorl	%eax, %eax
	testq	%r15, %r15
	je	.LBB6_23
# %bb.24:                               # %join.5.i.i.i.preheader
	leaq	-1(%r15), %rcx
	movq	88(%rsp), %rdx                  # 8-byte Reload
	.p2align	4
.LBB6_25:                               # %join.5.i.i.i
                                        # =>This Inner Loop Header: Depth=1
	movdqu	(%rdx), %xmm0
	movdqu	16(%rdx), %xmm1
	movdqa	%xmm1, %xmm2
	psrlw	$1, %xmm2
	movdqa	.LCPI6_0(%rip), %xmm3           # xmm3 = [85,85,85,85,85,85,85,85,85,85,85,85,85,85,85,85]
	pand	%xmm3, %xmm2
	psubb	%xmm2, %xmm1
	movdqa	.LCPI6_1(%rip), %xmm2           # xmm2 = [51,51,51,51,51,51,51,51,51,51,51,51,51,51,51,51]
	movdqa	%xmm1, %xmm4
	pand	%xmm2, %xmm4
	psrlw	$2, %xmm1
	pand	%xmm2, %xmm1
	paddb	%xmm4, %xmm1
	movdqa	%xmm1, %xmm4
	psrlw	$4, %xmm4
	paddb	%xmm1, %xmm4
	movdqa	.LCPI6_2(%rip), %xmm1           # xmm1 = [15,15,15,15,15,15,15,15,15,15,15,15,15,15,15,15]
	pand	%xmm1, %xmm4
	movdqa	%xmm0, %xmm5
	psrlw	$1, %xmm5
	pand	%xmm3, %xmm5
	psubb	%xmm5, %xmm0
	movdqa	%xmm0, %xmm3
	pand	%xmm2, %xmm3
	psrlw	$2, %xmm0
	pand	%xmm2, %xmm0
	paddb	%xmm3, %xmm0
	movdqa	%xmm0, %xmm2
	psrlw	$4, %xmm2
	paddb	%xmm0, %xmm2
	pand	%xmm1, %xmm2
	paddb	%xmm4, %xmm2
	pxor	%xmm0, %xmm0
	psadbw	%xmm2, %xmm0
	pshufd	$238, %xmm0, %xmm1              # xmm1 = xmm0[2,3,2,3]
	paddq	%xmm0, %xmm1
	movq	%xmm1, %rdi
	cmpq	$2, %rdi
	setne	%r13b
	subq	$1, %rcx
	setb	%sil
	cmpl	$2, %edi
	jne	.LBB6_27
# %bb.26:                               # %join.5.i.i.i
                                        #   in Loop: Header=BB6_25 Depth=1
	addq	$32, %rdx
	testb	%sil, %sil
	je	.LBB6_25
.LBB6_27:                               # %"kinds::is_carousel.exit.i.i"
	testq	%r9, %r9
	je	.LBB6_28
.LBB6_29:                               # %join.6.lr.ph.i.i
	xorl	%edi, %edi
	xorl	%esi, %esi
	xorl	%edx, %edx
	movq	%r15, 136(%rsp)                 # 8-byte Spill
	movq	%r13, 232(%rsp)                 # 8-byte Spill
	jmp	.LBB6_30
	.p2align	4
.LBB6_61:                               # %arm.8.i.i
                                        #   in Loop: Header=BB6_30 Depth=1
	movq	240(%rsp), %rsi                 # 8-byte Reload
	movq	%rsi, %rcx
	shrq	$32, %rcx
	xorl	%eax, %eax
	movq	%r14, %rdx
	shrq	$32, %rdx
	movl	$0, %edx
	cmoveq	%rsi, %rdx
	addq	%r14, %rdx
	testq	%rcx, %rcx
	cmoveq	%rdx, %rsi
	movq	248(%rsp), %rdx                 # 8-byte Reload
	addq	%r15, %rdx
	movq	96(%rsp), %rdi                  # 8-byte Reload
	incq	%rdi
	movl	$0, %ebx
	movq	2408(%rsp), %rcx
	cmpq	%rcx, %rdi
	movq	136(%rsp), %r15                 # 8-byte Reload
	movq	2400(%rsp), %r8
	movq	232(%rsp), %r13                 # 8-byte Reload
	je	.LBB6_62
.LBB6_30:                               # %join.6.i45.i
                                        # =>This Loop Header: Depth=1
                                        #     Child Loop BB6_41 Depth 2
                                        #     Child Loop BB6_56 Depth 2
	movq	%rsi, 240(%rsp)                 # 8-byte Spill
	movzwl	(%r8,%rdi,2), %ebx
	movq	2424(%rsp), %r14
	cmpq	%r14, %rdx
	movq	%rdx, 248(%rsp)                 # 8-byte Spill
	cmovbq	%rdx, %r14
	movq	%rdi, 96(%rsp)                  # 8-byte Spill
	movl	%edi, %r12d
	leaq	1832(%rsp), %rdi
	movl	$512, %edx                      # imm = 0x200
	xorl	%esi, %esi
	callq	memset@PLT
	movq	%r12, 112(%rsp)                 # 8-byte Spill
	movzwl	808(%rsp,%r12,2), %r12d
	pxor	%xmm0, %xmm0
	movdqa	%xmm0, 160(%rsp)
	movdqa	%xmm0, 144(%rsp)
	testb	%r13b, %r13b
	je	.LBB6_31
# %bb.32:                               # %join.5.i.i.i.i.i
                                        #   in Loop: Header=BB6_30 Depth=1
	leaq	144(%rsp), %rdx
	jmp	.LBB6_33
	.p2align	4
.LBB6_31:                               # %then.3.i.i.i.i.i
                                        #   in Loop: Header=BB6_30 Depth=1
	leaq	48(%rsp), %rdx
.LBB6_33:                               # %"along::path_past.exit.i.i.i.i"
                                        #   in Loop: Header=BB6_30 Depth=1
	leaq	1832(%rsp), %r9
	movq	88(%rsp), %rdi                  # 8-byte Reload
	movq	%r15, %rsi
	movl	%r12d, %ecx
	movl	%ebx, %r8d
	callq	"ways::path_between"
	xorl	%ebp, %ebp
	testb	$1, %al
	cmovneq	%rdx, %rbp
	cmpb	$1, %al
	movq	104(%rsp), %r9                  # 8-byte Reload
	jne	.LBB6_34
# %bb.37:                               # %"along::path_past.exit.i.i.i.i"
                                        #   in Loop: Header=BB6_30 Depth=1
	testq	%rdx, %rdx
	je	.LBB6_34
# %bb.38:                               # %join.7.i.i.i.i
                                        #   in Loop: Header=BB6_30 Depth=1
	movq	2416(%rsp), %rax
	leaq	(%rax,%r14,8), %rax
	movq	%rax, 184(%rsp)                 # 8-byte Spill
	movq	2424(%rsp), %r13
	subq	%r14, %r13
	cmpq	$1, %rdx
	je	.LBB6_39
# %bb.40:                               # %join.6.i.i.i.i.i.preheader
                                        #   in Loop: Header=BB6_30 Depth=1
	movl	$1, %ebx
	xorl	%r14d, %r14d
	xorl	%r15d, %r15d
	movq	112(%rsp), %r10                 # 8-byte Reload
	jmp	.LBB6_41
	.p2align	4
.LBB6_49:                               # %arm.8.thread.i.i.i.i.i
                                        #   in Loop: Header=BB6_41 Depth=2
	movl	$1, %eax
	xorl	%ecx, %ecx
	movq	%r14, %rdx
.LBB6_52:                               #   in Loop: Header=BB6_41 Depth=2
	addq	%rdx, %rcx
	movq	%r14, %rdx
	shrq	$32, %rdx
	testq	%rdx, %rdx
	cmoveq	%rcx, %r14
	addq	%rax, %r15
	incq	%rbx
	movq	%r12, %rdx
	cmpq	%rbx, %r12
	movq	112(%rsp), %r10                 # 8-byte Reload
	je	.LBB6_53
.LBB6_41:                               # %join.6.i.i.i.i.i
                                        #   Parent Loop BB6_30 Depth=1
                                        # =>  This Inner Loop Header: Depth=2
	movq	%rdx, %r12
	movzwl	1832(%rsp,%rbx,2), %eax
	cmpq	%r13, %r15
	movq	%r13, %rdi
	cmovbq	%r15, %rdi
	movq	184(%rsp), %rcx                 # 8-byte Reload
	leaq	(%rcx,%rdi,8), %rdx
	movq	%r10, 120(%rsp)
	movq	96(%rsp), %rcx                  # 8-byte Reload
	movl	%ecx, 128(%rsp)
	movw	%ax, 132(%rsp)
	movw	$0, 134(%rsp)
	pxor	%xmm0, %xmm0
	movdqa	%xmm0, 144(%rsp)
	movq	$0, 160(%rsp)
	movl	%eax, %r8d
	shrl	$6, %r8d
	movq	192(%rsp,%r8,8), %r11
	movl	$1, %esi
	movl	%eax, %ecx
	shlq	%cl, %rsi
	btq	%rax, %r11
	jae	.LBB6_50
# %bb.42:                               # %then.1.i.i.i.i.i.i
                                        #   in Loop: Header=BB6_41 Depth=2
	movzwl	808(%rsp,%r10,2), %ecx
	movzwl	296(%rsp,%rcx,2), %edi
	movw	%ax, 808(%rsp,%rdi,2)
	movw	%di, 296(%rsp,%rax,2)
	cmpq	%r15, %r13
	jbe	.LBB6_44
# %bb.43:                               # %then.1.i.i.i.i.i.i.i.i.i.i.i
                                        #   in Loop: Header=BB6_41 Depth=2
	movl	%ecx, %r10d
	shll	$16, %r10d
	shlq	$32, %rdi
	orq	%r10, %rdi
	orq	%rax, %rdi
	movq	%rdi, (%rdx)
.LBB6_44:                               # %"acting::cross.exit.i.i.i.i.i.i.i"
                                        #   in Loop: Header=BB6_41 Depth=2
	shlq	$3, %r8
	movq	%rsi, %rdi
	notq	%rdi
	andq	%rdi, %r11
	movq	%r11, 192(%rsp,%r8)
	movl	$1, %edx
	shlq	%cl, %rdx
	movl	%ecx, %r10d
	shrl	$6, %r10d
	orq	%rdx, 192(%rsp,%r10,8)
	movw	%r9w, 296(%rsp,%rcx,2)
	movq	48(%rsp,%r10,8), %r10
	testq	%rsi, 48(%rsp,%r8)
	je	.LBB6_47
# %bb.45:                               # %then.1.i.i.i.i.i.i.i.i
                                        #   in Loop: Header=BB6_41 Depth=2
	testq	%rdx, %r10
	jne	.LBB6_49
# %bb.46:                               # %join.6.i.i.i.i.i.i.i.i
                                        #   in Loop: Header=BB6_41 Depth=2
	shrl	$6, %eax
	shrl	$6, %ecx
	xorl	%esi, %esi
	movl	%eax, %r8d
	negl	%r8d
	movl	$0, %r8d
	sbbq	%r8, %r8
	orq	%rdi, %r8
	andq	48(%rsp), %r8
	testl	%ecx, %ecx
	movl	$0, %r10d
	cmoveq	%rdx, %r10
	orq	%r8, %r10
	movq	%r10, 48(%rsp)
	cmpl	$1, %eax
	movq	$-1, %r8
	movq	$-1, %r11
	cmoveq	%rdi, %r11
	andq	56(%rsp), %r11
	cmpl	$1, %ecx
	movl	$0, %r10d
	cmoveq	%rdx, %r10
	orq	%r11, %r10
	movq	%r10, 56(%rsp)
	cmpl	$2, %eax
	movq	$-1, %r11
	cmoveq	%rdi, %r11
	andq	64(%rsp), %r11
	cmpl	$2, %ecx
	movl	$0, %r10d
	cmoveq	%rdx, %r10
	orq	%r11, %r10
	cmpl	$3, %eax
	cmoveq	%rdi, %r8
	movq	%r10, 64(%rsp)
	andq	72(%rsp), %r8
	cmpl	$3, %ecx
	cmoveq	%rdx, %rsi
	orq	%r8, %rsi
	movq	%rsi, 72(%rsp)
	jmp	.LBB6_49
	.p2align	4
.LBB6_50:                               # %"go::advance.exit.i.i.i.i.i"
                                        #   in Loop: Header=BB6_41 Depth=2
	movq	%r13, %rax
	subq	%rdi, %rax
	movq	%rax, 40(%rsp)
	movq	%rdx, 32(%rsp)
	leaq	48(%rsp), %rax
	movq	%rax, 24(%rsp)
	leaq	192(%rsp), %rax
	movq	%rax, 16(%rsp)
	movq	136(%rsp), %rax                 # 8-byte Reload
	movq	%rax, 8(%rsp)
	leaq	296(%rsp), %rax
	movq	%rax, (%rsp)
	leaq	144(%rsp), %rdi
	leaq	120(%rsp), %rcx
	leaq	808(%rsp), %r8
	movq	88(%rsp), %rsi                  # 8-byte Reload
	movq	176(%rsp), %rdx                 # 8-byte Reload
	callq	"step::step"
	cmpb	$1, 144(%rsp)
	jne	.LBB6_34
# %bb.51:                               # %arm.8.i.i.i.i.i
                                        #   in Loop: Header=BB6_41 Depth=2
	movq	152(%rsp), %rax
	movq	160(%rsp), %rcx
	xorl	%edx, %edx
	movq	%rcx, %rsi
	shrq	$32, %rsi
	cmoveq	%r14, %rdx
	movq	104(%rsp), %r9                  # 8-byte Reload
	jmp	.LBB6_52
	.p2align	4
.LBB6_47:                               # %join.3.i.i.i.i.i.i.i.i
                                        #   in Loop: Header=BB6_41 Depth=2
	testq	%rdx, %r10
	je	.LBB6_49
# %bb.48:                               # %then.7.i.i.i.i.i.i.i.i
                                        #   in Loop: Header=BB6_41 Depth=2
	shrl	$6, %ecx
	notq	%rdx
	shrl	$6, %eax
	xorl	%edi, %edi
	movl	%ecx, %r8d
	negl	%r8d
	movl	$0, %r8d
	sbbq	%r8, %r8
	orq	%rdx, %r8
	andq	48(%rsp), %r8
	testl	%eax, %eax
	movl	$0, %r10d
	cmoveq	%rsi, %r10
	orq	%r8, %r10
	movq	%r10, 48(%rsp)
	cmpl	$1, %ecx
	movq	$-1, %r8
	movq	$-1, %r11
	cmoveq	%rdx, %r11
	andq	56(%rsp), %r11
	cmpl	$1, %eax
	movl	$0, %r10d
	cmoveq	%rsi, %r10
	orq	%r11, %r10
	movq	%r10, 56(%rsp)
	cmpl	$2, %ecx
	movq	$-1, %r11
	cmoveq	%rdx, %r11
	andq	64(%rsp), %r11
	cmpl	$2, %eax
	movl	$0, %r10d
	cmoveq	%rsi, %r10
	orq	%r11, %r10
	cmpl	$3, %ecx
	cmovneq	%r8, %rdx
	movq	%r10, 64(%rsp)
	andq	72(%rsp), %rdx
	cmpl	$3, %eax
	cmoveq	%rsi, %rdi
	orq	%rdx, %rdi
	movq	%rdi, 72(%rsp)
	jmp	.LBB6_49
	.p2align	4
.LBB6_53:                               # %arm.3.loopexit.i.i.i
                                        #   in Loop: Header=BB6_30 Depth=1
	movzwl	808(%rsp,%r10,2), %r12d
	jmp	.LBB6_54
	.p2align	4
.LBB6_39:                               #   in Loop: Header=BB6_30 Depth=1
	xorl	%r15d, %r15d
	xorl	%r14d, %r14d
	movq	112(%rsp), %r10                 # 8-byte Reload
.LBB6_54:                               # %arm.3.i.i.i
                                        #   in Loop: Header=BB6_30 Depth=1
	movzwl	%r12w, %ecx
	movl	$1, %eax
	shlq	%cl, %rax
	shrq	$6, %rcx
	orq	%rax, 48(%rsp,%rcx,8)
	cmpq	$3, %rbp
	jb	.LBB6_61
# %bb.55:                               # %join.14.lr.ph.i.i.i
                                        #   in Loop: Header=BB6_30 Depth=1
	leaq	1(%r10), %r12
	decq	%rbp
	jmp	.LBB6_56
	.p2align	4
.LBB6_63:                               # %arm.15.thread.i.i.i
                                        #   in Loop: Header=BB6_56 Depth=2
	xorl	%eax, %eax
	xorl	%ecx, %ecx
	movq	%r14, %rdx
.LBB6_60:                               # %loop.11.i.i.i
                                        #   in Loop: Header=BB6_56 Depth=2
	addq	%rdx, %rax
	decq	%rbp
	movq	%r14, %rdx
	shrq	$32, %rdx
	testq	%rdx, %rdx
	cmoveq	%rax, %r14
	addq	%rcx, %r15
	cmpq	$1, %rbp
	jbe	.LBB6_61
.LBB6_56:                               # %join.14.i.i.i
                                        #   Parent Loop BB6_30 Depth=1
                                        # =>  This Inner Loop Header: Depth=2
	movzwl	1830(%rsp,%rbp,2), %eax
	cmpq	%r13, %r15
	movq	%r13, %rcx
	cmovbq	%r15, %rcx
	movq	$0, 128(%rsp)
	pxor	%xmm0, %xmm0
	movdqa	%xmm0, 144(%rsp)
	movq	$0, 160(%rsp)
	movzwl	1320(%rsp,%rax,2), %ebx
	cmpl	%ebx, %r10d
	jb	.LBB6_63
# %bb.57:                               # %join.3.i.i.i.i
                                        #   in Loop: Header=BB6_56 Depth=2
	cmpw	%ax, 808(%rsp,%rbx,2)
	je	.LBB6_63
# %bb.58:                               # %join.6.i.i.i.i
                                        #   in Loop: Header=BB6_56 Depth=2
	movq	184(%rsp), %rdx                 # 8-byte Reload
	leaq	(%rdx,%rcx,8), %rdx
	movq	%r13, %rsi
	subq	%rcx, %rsi
	movq	%r12, 120(%rsp)
	movl	%ebx, 128(%rsp)
	movw	%ax, 132(%rsp)
	movq	%rsi, 40(%rsp)
	movq	%rdx, 32(%rsp)
	leaq	48(%rsp), %rax
	movq	%rax, 24(%rsp)
	leaq	192(%rsp), %rax
	movq	%rax, 16(%rsp)
	movq	136(%rsp), %rax                 # 8-byte Reload
	movq	%rax, 8(%rsp)
	leaq	296(%rsp), %rax
	movq	%rax, (%rsp)
	leaq	144(%rsp), %rdi
	leaq	120(%rsp), %rcx
	leaq	808(%rsp), %r8
	movq	88(%rsp), %rsi                  # 8-byte Reload
	movq	176(%rsp), %rdx                 # 8-byte Reload
	callq	"step::step"
	cmpb	$1, 144(%rsp)
	jne	.LBB6_35
# %bb.59:                               # %arm.15.i.i.i
                                        #   in Loop: Header=BB6_56 Depth=2
	movq	152(%rsp), %rcx
	movq	160(%rsp), %rax
	xorl	%edx, %edx
	movq	%rax, %rsi
	shrq	$32, %rsi
	cmoveq	%r14, %rdx
	movq	104(%rsp), %r9                  # 8-byte Reload
	movq	112(%rsp), %r10                 # 8-byte Reload
	jmp	.LBB6_60
.LBB6_34:
	movq	96(%rsp), %rbx                  # 8-byte Reload
                                        # kill: def $ebx killed $ebx killed $rbx def $rbx
.LBB6_35:                               # %arm.9.i.i
	movl	$1, %eax
	jmp	.LBB6_36
.LBB6_23:
	xorl	%r13d, %r13d
	testq	%r9, %r9
	jne	.LBB6_29
.LBB6_28:
	xorl	%ebx, %ebx
.LBB6_36:                               # %"play::play_on.exit"
	xorl	%edx, %edx
	xorl	%esi, %esi
.LBB6_62:                               # %"play::play_on.exit"
	movq	224(%rsp), %rcx                 # 8-byte Reload
	movl	%eax, (%rcx)
	movl	%ebx, 4(%rcx)
	movq	%rdx, 8(%rcx)
	movq	%rsi, 16(%rcx)
	addq	$2344, %rsp                     # imm = 0x928
	.cfi_def_cfa_offset 56
	popq	%rbx
	.cfi_def_cfa_offset 48
	popq	%r12
	.cfi_def_cfa_offset 40
	popq	%r13
	.cfi_def_cfa_offset 32
	popq	%r14
	.cfi_def_cfa_offset 24
	popq	%r15
	.cfi_def_cfa_offset 16
	popq	%rbp
	.cfi_def_cfa_offset 8
	retq
.Lfunc_end6:
	.size	"play::play_in", .Lfunc_end6-"play::play_in"
	.cfi_endproc
                                        # -- End function
	.section	.rodata.cst16,"aM",@progbits,16
	.p2align	4, 0x0                          # -- Begin function ways::path_between
.LCPI7_0:
	.zero	16,85
.LCPI7_1:
	.zero	16,51
.LCPI7_2:
	.zero	16,15
	.section	".text.ways::path_between","ax",@progbits
	.p2align	4
	.type	"ways::path_between",@function
"ways::path_between":                   # @"ways::path_between"
	.cfi_startproc
# %bb.0:                                # %start
	pushq	%rbp
	.cfi_def_cfa_offset 16
	pushq	%r15
	.cfi_def_cfa_offset 24
	pushq	%r14
	.cfi_def_cfa_offset 32
	pushq	%r13
	.cfi_def_cfa_offset 40
	pushq	%r12
	.cfi_def_cfa_offset 48
	pushq	%rbx
	.cfi_def_cfa_offset 56
	subq	$3072, %rsp                     # imm = 0xC00
	.cfi_adjust_cfa_offset 3072
	movq	$0, (%rsp)
	subq	$3072, %rsp                     # imm = 0xC00
	.cfi_adjust_cfa_offset 3072
	movq	$0, (%rsp)
	subq	$3072, %rsp                     # imm = 0xC00
	.cfi_adjust_cfa_offset 3072
	movq	$0, (%rsp)
	subq	$152, %rsp
	.cfi_def_cfa_offset 9424
	.cfi_offset %rbx, -56
	.cfi_offset %r12, -48
	.cfi_offset %r13, -40
	.cfi_offset %r14, -32
	.cfi_offset %r15, -24
	.cfi_offset %rbp, -16
	movq	%r9, (%rsp)                     # 8-byte Spill
	movq	%rdx, %rbp
	movq	%rsi, 48(%rsp)                  # 8-byte Spill
	movq	%rdi, %r14
	movzwl	%cx, %ebx
	movzwl	%r8w, %r10d
	movl	%ebx, %eax
	shll	$5, %eax
	movdqu	(%rdi,%rax), %xmm0
	movdqu	16(%rdi,%rax), %xmm1
	movdqa	%xmm1, %xmm2
	psrlw	$1, %xmm2
	movdqa	.LCPI7_0(%rip), %xmm4           # xmm4 = [85,85,85,85,85,85,85,85,85,85,85,85,85,85,85,85]
	pand	%xmm4, %xmm2
	psubb	%xmm2, %xmm1
	movdqa	.LCPI7_1(%rip), %xmm5           # xmm5 = [51,51,51,51,51,51,51,51,51,51,51,51,51,51,51,51]
	movdqa	%xmm1, %xmm2
	pand	%xmm5, %xmm2
	psrlw	$2, %xmm1
	pand	%xmm5, %xmm1
	paddb	%xmm2, %xmm1
	movdqa	%xmm1, %xmm2
	psrlw	$4, %xmm2
	paddb	%xmm1, %xmm2
	movdqa	.LCPI7_2(%rip), %xmm6           # xmm6 = [15,15,15,15,15,15,15,15,15,15,15,15,15,15,15,15]
	pand	%xmm6, %xmm2
	movdqa	%xmm0, %xmm1
	psrlw	$1, %xmm1
	pand	%xmm4, %xmm1
	psubb	%xmm1, %xmm0
	movdqa	%xmm0, %xmm1
	pand	%xmm5, %xmm1
	psrlw	$2, %xmm0
	pand	%xmm5, %xmm0
	paddb	%xmm1, %xmm0
	movdqa	%xmm0, %xmm1
	psrlw	$4, %xmm1
	paddb	%xmm0, %xmm1
	pand	%xmm6, %xmm1
	paddb	%xmm2, %xmm1
	pxor	%xmm0, %xmm0
	psadbw	%xmm0, %xmm1
	pshufd	$238, %xmm1, %xmm2              # xmm2 = xmm1[2,3,2,3]
	paddq	%xmm1, %xmm2
	movq	%xmm2, %rax
	cmpl	$3, %eax
	ja	.LBB7_56
# %bb.1:                                # %join.3.i
	movl	%r10d, %eax
	shll	$5, %eax
	movdqu	(%r14,%rax), %xmm1
	movdqu	16(%r14,%rax), %xmm2
	movdqa	%xmm2, %xmm3
	psrlw	$1, %xmm3
	pand	%xmm4, %xmm3
	psubb	%xmm3, %xmm2
	movdqa	%xmm2, %xmm3
	pand	%xmm5, %xmm3
	psrlw	$2, %xmm2
	pand	%xmm5, %xmm2
	paddb	%xmm3, %xmm2
	movdqa	%xmm2, %xmm3
	psrlw	$4, %xmm3
	paddb	%xmm2, %xmm3
	pand	%xmm6, %xmm3
	movdqa	%xmm1, %xmm2
	psrlw	$1, %xmm2
	pand	%xmm4, %xmm2
	psubb	%xmm2, %xmm1
	movdqa	%xmm1, %xmm2
	pand	%xmm5, %xmm2
	psrlw	$2, %xmm1
	pand	%xmm5, %xmm1
	paddb	%xmm2, %xmm1
	movdqa	%xmm1, %xmm2
	psrlw	$4, %xmm2
	paddb	%xmm1, %xmm2
	pand	%xmm6, %xmm2
	paddb	%xmm3, %xmm2
	psadbw	%xmm0, %xmm2
	pshufd	$238, %xmm2, %xmm0              # xmm0 = xmm2[2,3,2,3]
	paddq	%xmm2, %xmm0
	movq	%xmm0, %rax
	cmpl	$3, %eax
	ja	.LBB7_56
# %bb.2:                                # %join.6.i
	movl	%ebx, %eax
	shrl	$6, %eax
	movq	(%rbp,%rax,8), %rsi
	movl	$1, %edx
	movl	$1, %r12d
	movl	%ecx, %edi
	movl	%ebx, %ecx
	shlq	%cl, %r12
	movl	%edi, %ecx
	btq	%rbx, %rsi
	jb	.LBB7_56
# %bb.3:                                # %"ways::by_queue.exit"
	movl	%r10d, %ecx
	shrl	$6, %ecx
	movq	(%rbp,%rcx,8), %rsi
	movl	%r10d, %ecx
	shlq	%cl, %rdx
	movl	%edi, %ecx
	btq	%r10, %rsi
	jae	.LBB7_4
.LBB7_56:                               # %join.3
	movl	%ecx, 108(%rsp)                 # 4-byte Spill
	leaq	184(%rsp), %rdi
	xorl	%r15d, %r15d
	movl	$992, %edx                      # imm = 0x3E0
	xorl	%esi, %esi
	movq	%r10, %r12
	callq	memset@PLT
	movl	%ebx, %eax
	movl	$1, %esi
	movq	%rbx, 112(%rsp)                 # 8-byte Spill
	movl	%ebx, %ecx
	shlq	%cl, %rsi
	shrl	$6, %eax
	movl	$1, %r13d
	testl	%eax, %eax
	movl	$0, %ecx
	cmoveq	%rsi, %rcx
	movq	%rcx, 88(%rsp)                  # 8-byte Spill
	cmpl	$1, %eax
	movl	$0, %ecx
	cmoveq	%rsi, %rcx
	movq	%rcx, 80(%rsp)                  # 8-byte Spill
	cmpl	$2, %eax
	movl	$0, %ecx
	cmoveq	%rsi, %rcx
	movq	%rcx, 72(%rsp)                  # 8-byte Spill
	cmpl	$3, %eax
	movl	$0, %eax
	cmoveq	%rsi, %rax
	movq	%rax, 64(%rsp)                  # 8-byte Spill
	movq	(%rbp), %rdi
	movq	8(%rbp), %r8
	movq	16(%rbp), %r9
	movq	24(%rbp), %r10
	movl	%r12d, %eax
	shrl	$6, %eax
	movl	%r12d, %ecx
	shlq	%cl, %r13
	testl	%eax, %eax
	movl	$0, %ebx
	cmoveq	%r13, %rbx
	cmpl	$1, %eax
	movl	$0, %r12d
	cmoveq	%r13, %r12
	cmpl	$2, %eax
	movl	$0, %ebp
	cmoveq	%r13, %rbp
	cmpl	$3, %eax
	cmovneq	%r15, %r13
	movq	%rbx, 152(%rsp)
	movq	%r12, 160(%rsp)
	movq	%rbp, 168(%rsp)
	movq	%r13, 176(%rsp)
	movq	48(%rsp), %rax                  # 8-byte Reload
	cmpq	$32, %rax
	movl	$32, %ecx
	cmovbq	%rax, %rcx
	decq	%rcx
	movq	%rcx, 56(%rsp)                  # 8-byte Spill
	je	.LBB7_72
# %bb.57:                               # %join.9.lr.ph.i.i.i
	movq	%rsi, 8(%rsp)                   # 8-byte Spill
	movq	%r10, 16(%rsp)                  # 8-byte Spill
	movq	%r10, %rcx
	orq	%r13, %rcx
	movq	%r9, 24(%rsp)                   # 8-byte Spill
	movq	%r9, %rdx
	orq	%rbp, %rdx
	movq	%r8, 32(%rsp)                   # 8-byte Spill
	movq	%r8, %rsi
	orq	%r12, %rsi
	movq	%rdi, 40(%rsp)                  # 8-byte Spill
	orq	%rbx, %rdi
	xorl	%r15d, %r15d
	movq	%rbx, %r11
	movq	%r12, %r10
	movq	%rbp, %r9
	movq	%r13, %r8
	jmp	.LBB7_58
	.p2align	4
.LBB7_69:                               # %"rings::next_ring.exit.i.i.i"
                                        #   in Loop: Header=BB7_58 Depth=1
	movq	%rdi, %r11
	notq	%r11
	movq	%xmm1, %rax
	andq	%rax, %r11
	orq	%rax, %rdi
	movq	%rsi, %r10
	notq	%r10
	pshufd	$238, %xmm1, %xmm1              # xmm1 = xmm1[2,3,2,3]
	movq	%xmm1, %rax
	andq	%rax, %r10
	orq	%rax, %rsi
	movq	%rdx, %r9
	notq	%r9
	movq	%xmm0, %rax
	andq	%rax, %r9
	orq	%rax, %rdx
	movq	%rcx, %r8
	notq	%r8
	pshufd	$238, %xmm0, %xmm0              # xmm0 = xmm0[2,3,2,3]
	movq	%xmm0, %rax
	andq	%rax, %r8
	orq	%rax, %rcx
	movq	%r15, %rax
	shlq	$5, %rax
	movq	%r11, 184(%rsp,%rax)
	movq	%r10, 192(%rsp,%rax)
	movq	%r9, 200(%rsp,%rax)
	movq	%r8, 208(%rsp,%rax)
	incq	%r15
	cmpq	56(%rsp), %r15                  # 8-byte Folded Reload
	je	.LBB7_70
.LBB7_58:                               # %join.9.i.i.i
                                        # =>This Loop Header: Depth=1
                                        #     Child Loop BB7_62 Depth 2
                                        #     Child Loop BB7_64 Depth 2
                                        #     Child Loop BB7_66 Depth 2
                                        #     Child Loop BB7_68 Depth 2
	movq	%rdi, 96(%rsp)                  # 8-byte Spill
	movq	%rsi, %rdi
	movq	%rdx, %rsi
	movq	%rcx, %rdx
	movq	%r15, %rcx
	movq	%r11, %rax
	andq	88(%rsp), %rax                  # 8-byte Folded Reload
	movq	%r10, %r15
	andq	80(%rsp), %r15                  # 8-byte Folded Reload
	orq	%rax, %r15
	movq	%r9, %rax
	andq	72(%rsp), %rax                  # 8-byte Folded Reload
	orq	%r15, %rax
	movq	%r8, %r15
	andq	64(%rsp), %r15                  # 8-byte Folded Reload
	orq	%rax, %r15
	jne	.LBB7_59
# %bb.60:                               # %else.13.i.i.i
                                        #   in Loop: Header=BB7_58 Depth=1
	movq	%r10, %rax
	orq	%r11, %rax
	orq	%r9, %rax
	orq	%r8, %rax
	je	.LBB7_59
# %bb.61:                               # %after.10.i.i.i
                                        #   in Loop: Header=BB7_58 Depth=1
	testq	%r11, %r11
	movq	%rcx, %r15
	pxor	%xmm1, %xmm1
	pxor	%xmm0, %xmm0
	movq	%rdx, %rcx
	je	.LBB7_63
	.p2align	4
.LBB7_62:                               # %join.5.i.i.i.i.i.i.i
                                        #   Parent Loop BB7_58 Depth=1
                                        # =>  This Inner Loop Header: Depth=2
	movq	%r11, %rax
	rep		bsfq	%r11, %r11
	shll	$5, %r11d
	movdqu	(%r14,%r11), %xmm2
	por	%xmm2, %xmm1
	movdqu	16(%r14,%r11), %xmm2
	por	%xmm2, %xmm0
	leaq	-1(%rax), %r11
	andq	%rax, %r11
	jne	.LBB7_62
.LBB7_63:                               # %"words::join_word.exit.i.i.i.i.i.i"
                                        #   in Loop: Header=BB7_58 Depth=1
	testq	%r10, %r10
	movq	%rsi, %rdx
	movq	%rdi, %rsi
	je	.LBB7_65
	.p2align	4
.LBB7_64:                               # %join.5.i.1.i.i.i.i.i.i
                                        #   Parent Loop BB7_58 Depth=1
                                        # =>  This Inner Loop Header: Depth=2
	movq	%r10, %rax
	rep		bsfq	%r10, %r10
	shll	$5, %r10d
	movdqu	2048(%r14,%r10), %xmm2
	por	%xmm2, %xmm1
	movdqu	2064(%r14,%r10), %xmm2
	por	%xmm2, %xmm0
	leaq	-1(%rax), %r10
	andq	%rax, %r10
	jne	.LBB7_64
.LBB7_65:                               # %"words::join_word.exit.1.i.i.i.i.i.i"
                                        #   in Loop: Header=BB7_58 Depth=1
	testq	%r9, %r9
	movq	96(%rsp), %rdi                  # 8-byte Reload
	je	.LBB7_67
	.p2align	4
.LBB7_66:                               # %join.5.i.2.i.i.i.i.i.i
                                        #   Parent Loop BB7_58 Depth=1
                                        # =>  This Inner Loop Header: Depth=2
	movq	%r9, %rax
	rep		bsfq	%r9, %r9
	shll	$5, %r9d
	movdqu	4096(%r14,%r9), %xmm2
	por	%xmm2, %xmm1
	movdqu	4112(%r14,%r9), %xmm2
	por	%xmm2, %xmm0
	leaq	-1(%rax), %r9
	andq	%rax, %r9
	jne	.LBB7_66
.LBB7_67:                               # %"words::join_word.exit.2.i.i.i.i.i.i"
                                        #   in Loop: Header=BB7_58 Depth=1
	testq	%r8, %r8
	je	.LBB7_69
	.p2align	4
.LBB7_68:                               # %join.5.i.3.i.i.i.i.i.i
                                        #   Parent Loop BB7_58 Depth=1
                                        # =>  This Inner Loop Header: Depth=2
	movq	%r8, %rax
	rep		bsfq	%r8, %r8
	shll	$5, %r8d
	movdqu	6144(%r14,%r8), %xmm2
	por	%xmm2, %xmm1
	movdqu	6160(%r14,%r8), %xmm2
	por	%xmm2, %xmm0
	leaq	-1(%rax), %r8
	andq	%rax, %r8
	jne	.LBB7_68
	jmp	.LBB7_69
.LBB7_59:
	movq	%rcx, %r15
	jmp	.LBB7_71
.LBB7_70:
	movq	56(%rsp), %r15                  # 8-byte Reload
.LBB7_71:                               # %"rings::search.exit.i.i"
	movq	8(%rsp), %rsi                   # 8-byte Reload
	movq	40(%rsp), %rdi                  # 8-byte Reload
	movq	32(%rsp), %r8                   # 8-byte Reload
	movq	24(%rsp), %r9                   # 8-byte Reload
	movq	16(%rsp), %r10                  # 8-byte Reload
.LBB7_72:                               # %"rings::search.exit.i.i"
	movq	%r15, %rax
	shlq	$8, %rax
	addq	112(%rsp), %rax                 # 8-byte Folded Reload
	shrq	$6, %rax
	testq	%rsi, 152(%rsp,%rax,8)
	je	.LBB7_83
# %bb.73:                               # %then.3.i.i
	testq	%r15, %r15
	movq	(%rsp), %rdi                    # 8-byte Reload
	movl	108(%rsp), %eax                 # 4-byte Reload
	je	.LBB7_113
# %bb.74:                               # %join.5.i.i.i42.preheader
	movq	%r15, %rax
	shlq	$5, %rax
	leaq	152(%rsp), %rcx
	addq	%rcx, %rax
	addq	$-8, %rax
	xorl	%ecx, %ecx
	movq	112(%rsp), %r8                  # 8-byte Reload
	.p2align	4
.LBB7_75:                               # %join.5.i.i.i42
                                        # =>This Inner Loop Header: Depth=1
	movw	%r8w, (%rdi,%rcx,2)
	shlq	$5, %r8
	movq	-24(%rax), %rdx
	andq	(%r14,%r8), %rdx
	je	.LBB7_78
# %bb.76:                               #   in Loop: Header=BB7_75 Depth=1
	xorl	%esi, %esi
	jmp	.LBB7_77
	.p2align	4
.LBB7_78:                               # %join.8.i.i.i.i
                                        #   in Loop: Header=BB7_75 Depth=1
	movq	-16(%rax), %rdx
	movl	$64, %esi
	andq	8(%r14,%r8), %rdx
	jne	.LBB7_77
# %bb.79:                               # %join.8.1.i.i.i.i
                                        #   in Loop: Header=BB7_75 Depth=1
	movq	-8(%rax), %rdx
	movl	$128, %esi
	andq	16(%r14,%r8), %rdx
	jne	.LBB7_77
# %bb.80:                               # %join.8.2.i.i.i.i
                                        #   in Loop: Header=BB7_75 Depth=1
	movq	(%rax), %rdx
	movl	$192, %esi
	andq	24(%r14,%r8), %rdx
	je	.LBB7_81
	.p2align	4
.LBB7_77:                               # %then.6.i.i.i.i
                                        #   in Loop: Header=BB7_75 Depth=1
	rep		bsfq	%rdx, %r8
	orq	%rsi, %r8
.LBB7_82:                               # %"words::lowest_common.exit.i.i.i"
                                        #   in Loop: Header=BB7_75 Depth=1
	incq	%rcx
	addq	$-32, %rax
	cmpq	%rcx, %r15
	jne	.LBB7_75
	jmp	.LBB7_112
.LBB7_81:                               #   in Loop: Header=BB7_75 Depth=1
	movl	$256, %r8d                      # imm = 0x100
	jmp	.LBB7_82
.LBB7_83:                               # %"rings::path_near.exit.i"
	leaq	1(%r15), %rcx
	xorl	%edx, %edx
	movl	$0, %eax
	cmpq	%rcx, 48(%rsp)                  # 8-byte Folded Reload
	jbe	.LBB7_114
# %bb.84:                               # %"rings::path_near.exit.i"
	leaq	-121(,%r15,4), %rcx
	cmpq	$-130, %rcx
	ja	.LBB7_114
# %bb.85:                               # %repeat.7.preheader.i
	movq	%r10, 16(%rsp)                  # 8-byte Spill
	movq	%r9, 24(%rsp)                   # 8-byte Spill
	movq	%r8, 32(%rsp)                   # 8-byte Spill
	movq	%rdi, 40(%rsp)                  # 8-byte Spill
	movq	%rsi, 8(%rsp)                   # 8-byte Spill
	leaq	1208(%rsp), %rdi
	xorl	%r15d, %r15d
	movl	$8160, %edx                     # imm = 0x1FE0
	xorl	%esi, %esi
	callq	memset@PLT
	movq	%rbx, 1176(%rsp)
	movq	%r12, 1184(%rsp)
	movq	%rbp, 1192(%rsp)
	movq	%r13, 1200(%rsp)
	movq	48(%rsp), %rcx                  # 8-byte Reload
	cmpq	$256, %rcx                      # imm = 0x100
	movl	$256, %eax                      # imm = 0x100
	cmovbq	%rcx, %rax
	decq	%rax
	je	.LBB7_86
# %bb.87:                               # %join.9.lr.ph.i.i45.i
	movq	16(%rsp), %r11                  # 8-byte Reload
	orq	%r13, %r11
	movq	24(%rsp), %r10                  # 8-byte Reload
	orq	%rbp, %r10
	movq	32(%rsp), %r9                   # 8-byte Reload
	orq	%r12, %r9
	movq	40(%rsp), %r8                   # 8-byte Reload
	orq	%rbx, %r8
	xorl	%r15d, %r15d
	movq	(%rsp), %rdi                    # 8-byte Reload
	movq	8(%rsp), %rsi                   # 8-byte Reload
	jmp	.LBB7_88
	.p2align	4
.LBB7_98:                               # %"rings::next_ring.exit.i.i245.i"
                                        #   in Loop: Header=BB7_88 Depth=1
	movq	%r8, %rbx
	notq	%rbx
	movq	%xmm1, %rcx
	andq	%rcx, %rbx
	orq	%rcx, %r8
	movq	%r9, %r12
	notq	%r12
	pshufd	$238, %xmm1, %xmm1              # xmm1 = xmm1[2,3,2,3]
	movq	%xmm1, %rcx
	andq	%rcx, %r12
	orq	%rcx, %r9
	movq	%r10, %rbp
	notq	%rbp
	movq	%xmm0, %rcx
	andq	%rcx, %rbp
	orq	%rcx, %r10
	movq	%r11, %r13
	notq	%r13
	pshufd	$238, %xmm0, %xmm0              # xmm0 = xmm0[2,3,2,3]
	movq	%xmm0, %rcx
	andq	%rcx, %r13
	orq	%rcx, %r11
	movq	%r15, %rcx
	shlq	$5, %rcx
	movq	%rbx, 1208(%rsp,%rcx)
	movq	%r12, 1216(%rsp,%rcx)
	movq	%rbp, 1224(%rsp,%rcx)
	movq	%r13, 1232(%rsp,%rcx)
	incq	%r15
	cmpq	%rax, %r15
	je	.LBB7_99
.LBB7_88:                               # %join.9.i.i50.i
                                        # =>This Loop Header: Depth=1
                                        #     Child Loop BB7_91 Depth 2
                                        #     Child Loop BB7_93 Depth 2
                                        #     Child Loop BB7_95 Depth 2
                                        #     Child Loop BB7_97 Depth 2
	movq	%rbx, %rcx
	andq	88(%rsp), %rcx                  # 8-byte Folded Reload
	movq	%r12, %rdx
	andq	80(%rsp), %rdx                  # 8-byte Folded Reload
	orq	%rcx, %rdx
	movq	%rbp, %rcx
	andq	72(%rsp), %rcx                  # 8-byte Folded Reload
	orq	%rdx, %rcx
	movq	%r13, %rdx
	andq	64(%rsp), %rdx                  # 8-byte Folded Reload
	orq	%rcx, %rdx
	jne	.LBB7_100
# %bb.89:                               # %else.13.i.i136.i
                                        #   in Loop: Header=BB7_88 Depth=1
	movq	%r12, %rcx
	orq	%rbx, %rcx
	orq	%rbp, %rcx
	orq	%r13, %rcx
	je	.LBB7_100
# %bb.90:                               # %after.10.i.i141.i
                                        #   in Loop: Header=BB7_88 Depth=1
	pxor	%xmm1, %xmm1
	pxor	%xmm0, %xmm0
	testq	%rbx, %rbx
	je	.LBB7_92
	.p2align	4
.LBB7_91:                               # %join.5.i.i.i.i.i.i143.i
                                        #   Parent Loop BB7_88 Depth=1
                                        # =>  This Inner Loop Header: Depth=2
	movq	%rbx, %rcx
	rep		bsfq	%rbx, %rdx
	shll	$5, %edx
	movdqu	(%r14,%rdx), %xmm2
	por	%xmm2, %xmm1
	movdqu	16(%r14,%rdx), %xmm2
	por	%xmm2, %xmm0
	decq	%rbx
	andq	%rcx, %rbx
	jne	.LBB7_91
.LBB7_92:                               # %"words::join_word.exit.i.i.i.i.i164.i"
                                        #   in Loop: Header=BB7_88 Depth=1
	testq	%r12, %r12
	je	.LBB7_94
	.p2align	4
.LBB7_93:                               # %join.5.i.1.i.i.i.i.i170.i
                                        #   Parent Loop BB7_88 Depth=1
                                        # =>  This Inner Loop Header: Depth=2
	movq	%r12, %rcx
	rep		bsfq	%r12, %rdx
	shll	$5, %edx
	movdqu	2048(%r14,%rdx), %xmm2
	por	%xmm2, %xmm1
	movdqu	2064(%r14,%rdx), %xmm2
	por	%xmm2, %xmm0
	decq	%r12
	andq	%rcx, %r12
	jne	.LBB7_93
.LBB7_94:                               # %"words::join_word.exit.1.i.i.i.i.i191.i"
                                        #   in Loop: Header=BB7_88 Depth=1
	testq	%rbp, %rbp
	je	.LBB7_96
	.p2align	4
.LBB7_95:                               # %join.5.i.2.i.i.i.i.i197.i
                                        #   Parent Loop BB7_88 Depth=1
                                        # =>  This Inner Loop Header: Depth=2
	movq	%rbp, %rcx
	rep		bsfq	%rbp, %rdx
	shll	$5, %edx
	movdqu	4096(%r14,%rdx), %xmm2
	por	%xmm2, %xmm1
	movdqu	4112(%r14,%rdx), %xmm2
	por	%xmm2, %xmm0
	decq	%rbp
	andq	%rcx, %rbp
	jne	.LBB7_95
.LBB7_96:                               # %"words::join_word.exit.2.i.i.i.i.i218.i"
                                        #   in Loop: Header=BB7_88 Depth=1
	testq	%r13, %r13
	je	.LBB7_98
	.p2align	4
.LBB7_97:                               # %join.5.i.3.i.i.i.i.i224.i
                                        #   Parent Loop BB7_88 Depth=1
                                        # =>  This Inner Loop Header: Depth=2
	movq	%r13, %rcx
	rep		bsfq	%r13, %rdx
	shll	$5, %edx
	movdqu	6144(%r14,%rdx), %xmm2
	por	%xmm2, %xmm1
	movdqu	6160(%r14,%rdx), %xmm2
	por	%xmm2, %xmm0
	decq	%r13
	andq	%rcx, %r13
	jne	.LBB7_97
	jmp	.LBB7_98
.LBB7_86:
	movq	(%rsp), %rdi                    # 8-byte Reload
	movq	8(%rsp), %rsi                   # 8-byte Reload
	jmp	.LBB7_100
.LBB7_99:
	movq	%rax, %r15
.LBB7_100:                              # %"rings::search.exit.i68.i"
	movabsq	$2305843009213693944, %rcx      # imm = 0x1FFFFFFFFFFFFFF8
	movq	%r15, %rax
	shlq	$8, %rax
	movq	112(%rsp), %r8                  # 8-byte Reload
	addq	%r8, %rax
	shrq	$3, %rax
	andq	%rcx, %rax
	testq	%rsi, 1176(%rsp,%rax)
	movl	108(%rsp), %eax                 # 4-byte Reload
	je	.LBB7_101
# %bb.102:                              # %then.3.i76.i
	testq	%r15, %r15
	je	.LBB7_113
# %bb.103:                              # %join.5.i.i78.i.preheader
	movq	%r15, %rax
	shlq	$5, %rax
	leaq	1176(%rsp), %rcx
	addq	%rcx, %rax
	addq	$-8, %rax
	xorl	%ecx, %ecx
	.p2align	4
.LBB7_104:                              # %join.5.i.i78.i
                                        # =>This Inner Loop Header: Depth=1
	movw	%r8w, (%rdi,%rcx,2)
	shlq	$5, %r8
	movq	-24(%rax), %rdx
	andq	(%r14,%r8), %rdx
	je	.LBB7_107
# %bb.105:                              #   in Loop: Header=BB7_104 Depth=1
	xorl	%esi, %esi
	jmp	.LBB7_106
	.p2align	4
.LBB7_107:                              # %join.8.i.i.i106.i
                                        #   in Loop: Header=BB7_104 Depth=1
	movq	-16(%rax), %rdx
	movl	$64, %esi
	andq	8(%r14,%r8), %rdx
	jne	.LBB7_106
# %bb.108:                              # %join.8.1.i.i.i113.i
                                        #   in Loop: Header=BB7_104 Depth=1
	movq	-8(%rax), %rdx
	movl	$128, %esi
	andq	16(%r14,%r8), %rdx
	jne	.LBB7_106
# %bb.109:                              # %join.8.2.i.i.i120.i
                                        #   in Loop: Header=BB7_104 Depth=1
	movq	(%rax), %rdx
	movl	$192, %esi
	andq	24(%r14,%r8), %rdx
	je	.LBB7_110
	.p2align	4
.LBB7_106:                              # %then.6.i.i.i89.i
                                        #   in Loop: Header=BB7_104 Depth=1
	rep		bsfq	%rdx, %r8
	orq	%rsi, %r8
	incq	%rcx
	addq	$-32, %rax
	cmpq	%rcx, %r15
	jne	.LBB7_104
	jmp	.LBB7_112
.LBB7_110:                              #   in Loop: Header=BB7_104 Depth=1
	movl	$256, %r8d                      # imm = 0x100
	incq	%rcx
	addq	$-32, %rax
	cmpq	%rcx, %r15
	jne	.LBB7_104
.LBB7_112:                              # %after.1.loopexit.i.i98.i
	movl	%r8d, %eax
.LBB7_113:                              # %"rings::inward.exit.i99.i"
	movw	%ax, (%rdi,%r15,2)
	incq	%r15
	movb	$1, %al
	movq	%r15, %rdx
.LBB7_114:                              # %return.4
                                        # kill: def $al killed $al killed $rax
	addq	$9368, %rsp                     # imm = 0x2498
	.cfi_def_cfa_offset 56
	popq	%rbx
	.cfi_def_cfa_offset 48
	popq	%r12
	.cfi_def_cfa_offset 40
	popq	%r13
	.cfi_def_cfa_offset 32
	popq	%r14
	.cfi_def_cfa_offset 24
	popq	%r15
	.cfi_def_cfa_offset 16
	popq	%rbp
	.cfi_def_cfa_offset 8
	retq
.LBB7_101:
	.cfi_def_cfa_offset 9424
	xorl	%edx, %edx
	xorl	%eax, %eax
	jmp	.LBB7_114
.LBB7_4:                                # %then.1
	shlq	$3, %rax
	xorl	%esi, %esi
	shrl	$6, %r10d
	movl	$0, %edi
	cmoveq	%rdx, %rdi
	movq	%rdi, 120(%rsp)
	cmpl	$1, %r10d
	movl	$0, %r8d
	cmoveq	%rdx, %r8
	cmpl	$2, %r10d
	movl	$0, %r9d
	cmoveq	%rdx, %r9
	movq	%r8, 128(%rsp)
	cmpl	$3, %r10d
	cmoveq	%rdx, %rsi
	movq	%r9, 136(%rsp)
	movq	%rsi, 144(%rsp)
	testq	%r12, 120(%rsp,%rax)
	je	.LBB7_5
# %bb.115:                              # %then.1.i.i
	movq	(%rsp), %rax                    # 8-byte Reload
	movw	%cx, (%rax)
	movl	$1, %edx
	movb	$1, %al
	jmp	.LBB7_114
.LBB7_5:                                # %repeat.4.preheader.i.i
	movq	%r9, 64(%rsp)                   # 8-byte Spill
	movq	%r8, 72(%rsp)                   # 8-byte Spill
	movq	%rdi, 80(%rsp)                  # 8-byte Spill
	movq	%rsi, 88(%rsp)                  # 8-byte Spill
	leaq	1176(%rsp), %rdi
	movl	$512, %edx                      # imm = 0x200
	xorl	%esi, %esi
	movl	%ecx, %r15d
	callq	memset@PLT
	movq	(%rbp), %rax
	movq	8(%rbp), %rdx
	movq	16(%rbp), %rdi
	movq	24(%rbp), %rsi
	movq	(%rsp), %r8                     # 8-byte Reload
	movw	%r15w, (%r8)
	cmpq	$0, 48(%rsp)                    # 8-byte Folded Reload
	je	.LBB7_55
# %bb.6:                                # %join.5.i.preheader.lr.ph.i.i
	movq	%rax, %rcx
	notq	%rcx
	andq	%rcx, 80(%rsp)                  # 8-byte Folded Spill
	movq	%rdx, %rcx
	notq	%rcx
	andq	%rcx, 72(%rsp)                  # 8-byte Folded Spill
	movq	%rdi, %rcx
	notq	%rcx
	andq	%rcx, 64(%rsp)                  # 8-byte Folded Spill
	movq	%rsi, %rcx
	notq	%rcx
	andq	%rcx, 88(%rsp)                  # 8-byte Folded Spill
	shrl	$6, %ebx
	xorl	%r9d, %r9d
	cmpl	$3, %ebx
	movl	$0, %ecx
	cmoveq	%r12, %rcx
	orq	%rsi, %rcx
	cmpl	$2, %ebx
	movl	$0, %esi
	cmoveq	%r12, %rsi
	orq	%rdi, %rsi
	cmpl	$1, %ebx
	movl	$0, %edi
	cmoveq	%r12, %rdi
	orq	%rdx, %rdi
	testl	%ebx, %ebx
	cmovneq	%r9, %r12
	orq	%rax, %r12
	movl	$1, %edx
	movb	$1, 56(%rsp)                    # 1-byte Folded Spill
	movq	$0, 96(%rsp)                    # 8-byte Folded Spill
	movl	$1, %r10d
	jmp	.LBB7_7
	.p2align	4
.LBB7_19:                               # %"queue::meet.exit.i.i.i"
                                        #   in Loop: Header=BB7_7 Depth=1
	incq	%r9
	cmpq	%rdx, %r9
	je	.LBB7_20
.LBB7_7:                                # %join.5.i.i.i
                                        # =>This Loop Header: Depth=1
                                        #     Child Loop BB7_8 Depth 2
                                        #     Child Loop BB7_11 Depth 2
                                        #     Child Loop BB7_14 Depth 2
                                        #     Child Loop BB7_17 Depth 2
	movzwl	(%r8,%r9,2), %r15d
	movl	%r15d, %r11d
	shll	$5, %r15d
	movq	(%r14,%r15), %rbp
	movq	%r12, %rbx
	notq	%rbx
	andq	%rbp, %rbx
	je	.LBB7_10
	.p2align	4
.LBB7_8:                                # %join.5.i.i.i.i.i.i
                                        #   Parent Loop BB7_7 Depth=1
                                        # =>  This Inner Loop Header: Depth=2
	movq	%rbx, %rax
	rep		bsfq	%rbx, %r13
	decq	%rbx
	movw	%r11w, 1176(%rsp,%r13,2)
	movw	%r13w, (%r8,%r10,2)
	incq	%r10
	andq	%rax, %rbx
	jne	.LBB7_8
# %bb.9:                                # %"queue::meet_word.exit.i.i.loopexit.i.i"
                                        #   in Loop: Header=BB7_7 Depth=1
	orq	%rbp, %r12
.LBB7_10:                               # %"queue::meet_word.exit.i.i.i.i"
                                        #   in Loop: Header=BB7_7 Depth=1
	movq	8(%r14,%r15), %rbp
	movq	%rdi, %rbx
	notq	%rbx
	andq	%rbp, %rbx
	je	.LBB7_13
	.p2align	4
.LBB7_11:                               # %join.5.i.i.1.i.i.i.i
                                        #   Parent Loop BB7_7 Depth=1
                                        # =>  This Inner Loop Header: Depth=2
	movq	%rbx, %rax
	rep		bsfq	%rbx, %rbx
	movw	%r11w, 1304(%rsp,%rbx,2)
	movq	%rbx, %r13
	orq	$64, %r13
	leaq	-1(%rax), %rbx
	movw	%r13w, (%r8,%r10,2)
	incq	%r10
	andq	%rax, %rbx
	jne	.LBB7_11
# %bb.12:                               # %"queue::meet_word.exit.1.i.i.loopexit.i.i"
                                        #   in Loop: Header=BB7_7 Depth=1
	orq	%rbp, %rdi
.LBB7_13:                               # %"queue::meet_word.exit.1.i.i.i.i"
                                        #   in Loop: Header=BB7_7 Depth=1
	movq	16(%r14,%r15), %rbp
	movq	%rsi, %rbx
	notq	%rbx
	andq	%rbp, %rbx
	je	.LBB7_16
	.p2align	4
.LBB7_14:                               # %join.5.i.i.2.i.i.i.i
                                        #   Parent Loop BB7_7 Depth=1
                                        # =>  This Inner Loop Header: Depth=2
	movq	%rbx, %rax
	rep		bsfq	%rbx, %r13
	leaq	128(%r13), %r8
	decq	%rbx
	movw	%r11w, 1432(%rsp,%r13,2)
	movq	(%rsp), %r13                    # 8-byte Reload
	movw	%r8w, (%r13,%r10,2)
	movq	(%rsp), %r8                     # 8-byte Reload
	incq	%r10
	andq	%rax, %rbx
	jne	.LBB7_14
# %bb.15:                               # %"queue::meet_word.exit.2.i.i.loopexit.i.i"
                                        #   in Loop: Header=BB7_7 Depth=1
	orq	%rbp, %rsi
.LBB7_16:                               # %"queue::meet_word.exit.2.i.i.i.i"
                                        #   in Loop: Header=BB7_7 Depth=1
	movq	24(%r14,%r15), %r15
	movq	%rcx, %rbx
	notq	%rbx
	andq	%r15, %rbx
	je	.LBB7_19
	.p2align	4
.LBB7_17:                               # %join.5.i.i.3.i.i.i.i
                                        #   Parent Loop BB7_7 Depth=1
                                        # =>  This Inner Loop Header: Depth=2
	movq	%rbx, %rax
	rep		bsfq	%rbx, %r8
	movw	%r11w, 1560(%rsp,%r8,2)
	orq	$192, %r8
	decq	%rbx
	movq	(%rsp), %r13                    # 8-byte Reload
	movw	%r8w, (%r13,%r10,2)
	movq	(%rsp), %r8                     # 8-byte Reload
	incq	%r10
	andq	%rax, %rbx
	jne	.LBB7_17
# %bb.18:                               # %"queue::meet.exit.i.loopexit.i.i"
                                        #   in Loop: Header=BB7_7 Depth=1
	orq	%r15, %rcx
	jmp	.LBB7_19
.LBB7_20:                               # %"queue::pass.exit.i.i"
                                        #   in Loop: Header=BB7_7 Depth=1
	cmpq	%rdx, %r10
	je	.LBB7_55
# %bb.21:                               # %join.17.i.i
                                        #   in Loop: Header=BB7_7 Depth=1
	movq	80(%rsp), %r9                   # 8-byte Reload
	andq	%r12, %r9
	movq	72(%rsp), %r11                  # 8-byte Reload
	andq	%rdi, %r11
	movq	%r11, %rax
	orq	%r9, %rax
	movq	64(%rsp), %r15                  # 8-byte Reload
	andq	%rsi, %r15
	orq	%r15, %rax
	movq	88(%rsp), %rbp                  # 8-byte Reload
	andq	%rcx, %rbp
	orq	%rbp, %rax
	je	.LBB7_53
# %bb.22:                               # %repeat.4.preheader.i.i.i
                                        #   in Loop: Header=BB7_7 Depth=1
	movq	%r9, 152(%rsp)
	movq	%r11, 160(%rsp)
	movq	%r15, 168(%rsp)
	movq	%rbp, 176(%rsp)
	testq	%r9, %r9
	jne	.LBB7_23
# %bb.24:                               # %join.5.i.preheader.i.i.i.i
                                        #   in Loop: Header=BB7_7 Depth=1
	testq	%r11, %r11
	movdqa	.LCPI7_0(%rip), %xmm3           # xmm3 = [85,85,85,85,85,85,85,85,85,85,85,85,85,85,85,85]
	movdqa	.LCPI7_1(%rip), %xmm4           # xmm4 = [51,51,51,51,51,51,51,51,51,51,51,51,51,51,51,51]
	movdqa	.LCPI7_2(%rip), %xmm5           # xmm5 = [15,15,15,15,15,15,15,15,15,15,15,15,15,15,15,15]
	jne	.LBB7_25
# %bb.26:                               # %join.8.i.i.i.i.i
                                        #   in Loop: Header=BB7_7 Depth=1
	testq	%r15, %r15
	jne	.LBB7_27
# %bb.28:                               # %join.8.i.1.i.i.i.i
                                        #   in Loop: Header=BB7_7 Depth=1
	testq	%rbp, %rbp
	jne	.LBB7_29
.LBB7_53:                               # %join.20.i.i
                                        #   in Loop: Header=BB7_7 Depth=1
	movq	96(%rsp), %r9                   # 8-byte Reload
	incq	%r9
	movq	%r9, 96(%rsp)                   # 8-byte Spill
	cmpq	48(%rsp), %r9                   # 8-byte Folded Reload
	jae	.LBB7_55
# %bb.54:                               # %join.20.i.i
                                        #   in Loop: Header=BB7_7 Depth=1
	incb	56(%rsp)                        # 1-byte Folded Spill
	cmpq	%r10, %rdx
	movq	%rdx, %r9
	movq	%r10, %rdx
	jb	.LBB7_7
.LBB7_55:                               # %"ways::one_by_one.exit.thread.i"
	xorl	%eax, %eax
	xorl	%edx, %edx
	jmp	.LBB7_114
.LBB7_23:
	xorl	%ecx, %ecx
	jmp	.LBB7_30
.LBB7_25:
	movl	$64, %ecx
	movq	%r11, %r9
	jmp	.LBB7_31
.LBB7_27:
	movl	$128, %ecx
	movq	%r15, %r9
	jmp	.LBB7_31
.LBB7_29:
	movl	$192, %ecx
	movq	%rbp, %r9
.LBB7_30:                               # %join.3.i.i.i.i
	movdqa	.LCPI7_0(%rip), %xmm3           # xmm3 = [85,85,85,85,85,85,85,85,85,85,85,85,85,85,85,85]
	movdqa	.LCPI7_1(%rip), %xmm4           # xmm4 = [51,51,51,51,51,51,51,51,51,51,51,51,51,51,51,51]
	movdqa	.LCPI7_2(%rip), %xmm5           # xmm5 = [15,15,15,15,15,15,15,15,15,15,15,15,15,15,15,15]
.LBB7_31:                               # %join.3.i.i.i.i
	rep		bsfq	%r9, %rdi
	movq	%rdi, %rsi
	orq	%rcx, %rsi
	cmpq	$255, %rsi
	je	.LBB7_46
# %bb.32:                               # %join.5.preheader.i.i.i.i.i
	addq	%rdi, %rcx
	incq	%rcx
	movl	%ecx, %edi
	shrl	$6, %edi
	andl	$63, %ecx
	movq	152(%rsp,%rdi,8), %r8
	shrq	%cl, %r8
	testq	%r8, %r8
	je	.LBB7_33
.LBB7_36:                               # %"words::next_from.exit30.i.i.i.i"
	shlq	$6, %rdi
	orq	%rcx, %rdi
	rep		bsfq	%r8, %rcx
	addq	%rdi, %rcx
	cmpq	$255, %rcx
	ja	.LBB7_45
# %bb.37:                               # %join.6.i.i.i.i
	movl	%esi, %edi
	shll	$5, %edi
	movq	(%r14,%rdi), %rax
	movq	8(%r14,%rdi), %r15
	movq	%rax, %rdx
	shrq	%rdx
	movabsq	$6148914691236517205, %r9       # imm = 0x5555555555555555
	andq	%r9, %rdx
	subq	%rdx, %rax
	movabsq	$3689348814741910323, %r8       # imm = 0x3333333333333333
	movq	%rax, %rdx
	andq	%r8, %rdx
	shrq	$2, %rax
	andq	%r8, %rax
	addq	%rdx, %rax
	movq	%rax, %r12
	shrq	$4, %r12
	addq	%rax, %r12
	movabsq	$1085102592571150095, %r10      # imm = 0xF0F0F0F0F0F0F0F
	andq	%r10, %r12
	movabsq	$72340172838076673, %r11        # imm = 0x101010101010101
	imulq	%r11, %r12
	shrq	$56, %r12
	movq	%r15, %rax
	shrq	%rax
	andq	%r9, %rax
	subq	%rax, %r15
	movq	%r15, %rax
	andq	%r8, %rax
	shrq	$2, %r15
	andq	%r8, %r15
	addq	%rax, %r15
	movq	%r15, %rbx
	shrq	$4, %rbx
	addq	%r15, %rbx
	andq	%r10, %rbx
	imulq	%r11, %rbx
	shrq	$56, %rbx
	addq	%r12, %rbx
	movq	16(%r14,%rdi), %rax
	movq	%rax, %rdx
	shrq	%rdx
	andq	%r9, %rdx
	subq	%rdx, %rax
	movq	%rax, %rdx
	andq	%r8, %rdx
	shrq	$2, %rax
	andq	%r8, %rax
	addq	%rdx, %rax
	movq	%rax, %r15
	shrq	$4, %r15
	addq	%rax, %r15
	andq	%r10, %r15
	imulq	%r11, %r15
	shrq	$56, %r15
	movq	24(%r14,%rdi), %rax
	movq	%rax, %rdx
	shrq	%rdx
	andq	%r9, %rdx
	subq	%rdx, %rax
	movq	%rax, %rdx
	andq	%r8, %rdx
	shrq	$2, %rax
	andq	%r8, %rax
	addq	%rdx, %rax
	movq	%rax, %rdi
	shrq	$4, %rdi
	addq	%rax, %rdi
	andq	%r10, %rdi
	imulq	%r11, %rdi
	shrq	$56, %rdi
	addq	%r15, %rdi
	addq	%rbx, %rdi
	movq	(%rsp), %r8                     # 8-byte Reload
	jmp	.LBB7_38
.LBB7_33:                               # %join.8.peel.i20.i.i.i.i
	incq	%rdi
	cmpq	$4, %rdi
	movq	(%rsp), %r8                     # 8-byte Reload
	je	.LBB7_46
.LBB7_34:                               # %join.5.i21.i.i.i.i
                                        # =>This Inner Loop Header: Depth=1
	movq	152(%rsp,%rdi,8), %r8
	testq	%r8, %r8
	jne	.LBB7_35
# %bb.44:                               # %join.8.i27.i.i.i.i
                                        #   in Loop: Header=BB7_34 Depth=1
	incq	%rdi
	cmpq	$4, %rdi
	jne	.LBB7_34
.LBB7_45:
	movq	(%rsp), %r8                     # 8-byte Reload
.LBB7_46:                               # %then.18.i.i
	movq	96(%rsp), %rdx                  # 8-byte Reload
	movq	%rdx, %rcx
	incq	%rcx
	je	.LBB7_52
# %bb.47:                               # %join.5.i51.i.i.preheader
	testb	$3, %cl
	je	.LBB7_50
# %bb.48:                               # %join.5.i51.i.i.prol.preheader
	movzbl	56(%rsp), %eax                  # 1-byte Folded Reload
	andl	$3, %eax
.LBB7_49:                               # %join.5.i51.i.i.prol
                                        # =>This Inner Loop Header: Depth=1
	movw	%si, (%r8,%rcx,2)
	decq	%rcx
	movzwl	1176(%rsp,%rsi,2), %esi
	decq	%rax
	jne	.LBB7_49
.LBB7_50:                               # %join.5.i51.i.i.prol.loopexit
	cmpq	$3, %rdx
	jb	.LBB7_52
.LBB7_51:                               # %join.5.i51.i.i
                                        # =>This Inner Loop Header: Depth=1
	movw	%si, (%r8,%rcx,2)
	movzwl	1176(%rsp,%rsi,2), %eax
	movw	%ax, -2(%r8,%rcx,2)
	movzwl	1176(%rsp,%rax,2), %eax
	movw	%ax, -4(%r8,%rcx,2)
	movzwl	1176(%rsp,%rax,2), %eax
	movw	%ax, -6(%r8,%rcx,2)
	movzwl	1176(%rsp,%rax,2), %esi
	addq	$-4, %rcx
	jne	.LBB7_51
.LBB7_52:                               # %"queue::trace.exit.i.i"
	movw	%si, (%r8)
	addq	$2, %rdx
	movb	$1, %al
	jmp	.LBB7_114
.LBB7_42:                               #   in Loop: Header=BB7_38 Depth=1
	xorl	%ecx, %ecx
.LBB7_43:                               # %"words::next_from.exit.i.i.i.i.i"
                                        #   in Loop: Header=BB7_38 Depth=1
	shlq	$6, %r8
	orq	%rcx, %r8
	rep		bsfq	%r9, %rcx
	addq	%r8, %rcx
	cmpq	$256, %rcx                      # imm = 0x100
	movq	(%rsp), %r8                     # 8-byte Reload
	jae	.LBB7_46
.LBB7_38:                               # %join.5.i31.i.i.i.i
                                        # =>This Loop Header: Depth=1
                                        #     Child Loop BB7_40 Depth 2
	movq	%rcx, %rax
	shlq	$5, %rax
	movdqu	(%r14,%rax), %xmm0
	movdqu	16(%r14,%rax), %xmm1
	movdqa	%xmm1, %xmm2
	psrlw	$1, %xmm2
	pand	%xmm3, %xmm2
	psubb	%xmm2, %xmm1
	movdqa	%xmm1, %xmm2
	pand	%xmm4, %xmm2
	psrlw	$2, %xmm1
	pand	%xmm4, %xmm1
	paddb	%xmm2, %xmm1
	movdqa	%xmm1, %xmm2
	psrlw	$4, %xmm2
	paddb	%xmm1, %xmm2
	pand	%xmm5, %xmm2
	movdqa	%xmm0, %xmm1
	psrlw	$1, %xmm1
	pand	%xmm3, %xmm1
	psubb	%xmm1, %xmm0
	movdqa	%xmm0, %xmm1
	pand	%xmm4, %xmm1
	psrlw	$2, %xmm0
	pand	%xmm4, %xmm0
	paddb	%xmm1, %xmm0
	movdqa	%xmm0, %xmm1
	psrlw	$4, %xmm1
	paddb	%xmm0, %xmm1
	pand	%xmm5, %xmm1
	paddb	%xmm2, %xmm1
	pxor	%xmm0, %xmm0
	psadbw	%xmm1, %xmm0
	pshufd	$238, %xmm0, %xmm1              # xmm1 = xmm0[2,3,2,3]
	paddq	%xmm0, %xmm1
	movq	%xmm1, %rax
	cmpq	%rdi, %rax
	cmovbq	%rcx, %rsi
	cmovbq	%rax, %rdi
	cmpq	$255, %rcx
	je	.LBB7_46
# %bb.39:                               # %join.5.preheader.i.i.i.i.i.i
                                        #   in Loop: Header=BB7_38 Depth=1
	incq	%rcx
	movq	%rcx, %r8
	shrq	$6, %r8
	andl	$63, %ecx
	movq	152(%rsp,%r8,8), %r9
	shrq	%cl, %r9
	testq	%r9, %r9
	jne	.LBB7_43
.LBB7_40:                               # %join.8.peel.i.i.i.i.i.i
                                        #   Parent Loop BB7_38 Depth=1
                                        # =>  This Inner Loop Header: Depth=2
	incq	%r8
	cmpq	$4, %r8
	je	.LBB7_45
# %bb.41:                               # %join.5.i.i.i.i49.i.i
                                        #   in Loop: Header=BB7_40 Depth=2
	movq	152(%rsp,%r8,8), %r9
	testq	%r9, %r9
	je	.LBB7_40
	jmp	.LBB7_42
.LBB7_35:
	xorl	%ecx, %ecx
	jmp	.LBB7_36
.Lfunc_end7:
	.size	"ways::path_between", .Lfunc_end7-"ways::path_between"
	.cfi_endproc
                                        # -- End function
	.section	.rodata.cst16,"aM",@progbits,16
	.p2align	4, 0x0                          # -- Begin function step::step
.LCPI8_0:
	.quad	1                               # 0x1
	.quad	0                               # 0x0
.LCPI8_1:
	.zero	16,85
.LCPI8_2:
	.zero	16,51
.LCPI8_3:
	.zero	16,15
.LCPI8_4:
	.quad	2                               # 0x2
	.zero	8
	.section	.rodata.cst4,"aM",@progbits,4
	.p2align	2, 0x0
.LCPI8_5:
	.long	1                               # 0x1
	.section	".text.step::step","ax",@progbits
	.p2align	4
	.type	"step::step",@function
"step::step":                           # @"step::step"
	.cfi_startproc
# %bb.0:                                # %start
	pushq	%rbp
	.cfi_def_cfa_offset 16
	pushq	%r15
	.cfi_def_cfa_offset 24
	pushq	%r14
	.cfi_def_cfa_offset 32
	pushq	%r13
	.cfi_def_cfa_offset 40
	pushq	%r12
	.cfi_def_cfa_offset 48
	pushq	%rbx
	.cfi_def_cfa_offset 56
	subq	$216, %rsp
	.cfi_def_cfa_offset 272
	.cfi_offset %rbx, -56
	.cfi_offset %r12, -48
	.cfi_offset %r13, -40
	.cfi_offset %r14, -32
	.cfi_offset %r15, -24
	.cfi_offset %rbp, -16
	movq	288(%rsp), %r10
	movq	(%rcx), %rax
	movl	8(%rcx), %r15d
	movzwl	12(%rcx), %ebx
	movzwl	(%r8,%r15,2), %r14d
	xorps	%xmm0, %xmm0
	movaps	%xmm0, 80(%rsp)
	movq	$0, 96(%rsp)
	movl	%ebx, %r12d
	shrl	$6, %r12d
	movq	%r10, %rbp
	movq	(%r10,%r12,8), %r10
	movl	$1, %r13d
	movl	%ebx, %ecx
	shlq	%cl, %r13
	shlq	$3, %r12
	btq	%rbx, %r10
	movq	272(%rsp), %r11
	jae	.LBB8_4
# %bb.1:                                # %then.1.i
	movzwl	(%r11,%r14,2), %eax
	movw	%bx, (%r8,%rax,2)
	movw	%ax, (%r11,%rbx,2)
	cmpq	$0, 312(%rsp)
	je	.LBB8_3
# %bb.2:                                # %then.1.i.i.i.i.i
	movl	%r14d, %ecx
	shll	$16, %ecx
	shlq	$32, %rax
	orq	%rcx, %rax
	orq	%rbx, %rax
	movq	304(%rsp), %rcx
	movq	%rax, (%rcx)
.LBB8_3:                                # %"acting::cross.exit.i"
	movw	%r9w, (%r11,%r14,2)
	movq	%r13, %rax
	notq	%rax
	andq	%rax, (%rbp,%r12)
	movl	$1, %eax
	movl	%r14d, %ecx
	shlq	%cl, %rax
	movl	%r14d, %ecx
	shrl	$6, %ecx
	orq	%rax, (%rbp,%rcx,8)
	movd	.LCPI8_5(%rip), %xmm0           # xmm0 = [1,0,0,0]
.LBB8_39:                               # %arm.1
	movl	%r14d, %edx
	movl	$1, %eax
	movl	%r14d, %ecx
	shlq	%cl, %rax
	shrl	$6, %edx
	movq	296(%rsp), %rsi
	movq	(%rsi,%rdx,8), %rcx
	testq	%r13, (%rsi,%r12)
	je	.LBB8_42
# %bb.40:                               # %then.1.i7
	testq	%rax, %rcx
	jne	.LBB8_45
# %bb.41:                               # %join.6.i8
	shrl	$6, %ebx
	notq	%r13
	shrl	$6, %r14d
	xorl	%ecx, %ecx
	movl	%ebx, %edx
	negl	%edx
	movl	$0, %edx
	sbbq	%rdx, %rdx
	orq	%r13, %rdx
	movq	296(%rsp), %r9
	andq	(%r9), %rdx
	testl	%r14d, %r14d
	movl	$0, %esi
	cmoveq	%rax, %rsi
	orq	%rdx, %rsi
	movq	%rsi, (%r9)
	cmpl	$1, %ebx
	movq	$-1, %rdx
	movq	$-1, %rsi
	cmoveq	%r13, %rsi
	andq	8(%r9), %rsi
	cmpl	$1, %r14d
	movl	$0, %r8d
	cmoveq	%rax, %r8
	orq	%rsi, %r8
	movq	%r8, 8(%r9)
	cmpl	$2, %ebx
	movq	$-1, %rsi
	cmoveq	%r13, %rsi
	andq	16(%r9), %rsi
	cmpl	$2, %r14d
	movl	$0, %r8d
	cmoveq	%rax, %r8
	orq	%rsi, %r8
	cmpl	$3, %ebx
	cmovneq	%rdx, %r13
	movq	%r8, 16(%r9)
	andq	24(%r9), %r13
	cmpl	$3, %r14d
	cmoveq	%rax, %rcx
	orq	%r13, %rcx
	jmp	.LBB8_44
.LBB8_4:                                # %join.3.i
	movq	%r15, 72(%rsp)                  # 8-byte Spill
	movq	280(%rsp), %r15
	movzwl	(%r11,%rbx,2), %ecx
	movzwl	%cx, %r10d
	cmpq	%r10, %rax
	jbe	.LBB8_6
# %bb.5:                                # %then.4.i
	movq	312(%rsp), %rax
	movq	%rax, 40(%rsp)
	movq	304(%rsp), %rax
	movq	%rax, 32(%rsp)
	movq	%rbp, 24(%rsp)
	movq	%r15, 16(%rsp)
	movq	%r11, 8(%rsp)
	movq	%r9, (%rsp)
	leaq	80(%rsp), %rcx
	movq	%rdi, %rbp
	movq	%rcx, %rdi
	movq	72(%rsp), %rcx                  # 8-byte Reload
                                        # kill: def $ecx killed $ecx killed $rcx
	movq	%r8, %r9
	movl	%r10d, %r8d
	callq	"swap::swap"
	movq	%rbp, %rdi
	movzbl	80(%rsp), %eax
	movdqu	88(%rsp), %xmm0
	cmpb	$1, %al
	je	.LBB8_39
	jmp	.LBB8_47
.LBB8_42:                               # %join.3.i9
	testq	%rax, %rcx
	je	.LBB8_45
# %bb.43:                               # %then.7.i10
	shrl	$6, %r14d
	notq	%rax
	shrl	$6, %ebx
	xorl	%ecx, %ecx
	movl	%r14d, %edx
	negl	%edx
	movl	$0, %edx
	sbbq	%rdx, %rdx
	orq	%rax, %rdx
	movq	296(%rsp), %r9
	andq	(%r9), %rdx
	testl	%ebx, %ebx
	movl	$0, %esi
	cmoveq	%r13, %rsi
	orq	%rdx, %rsi
	movq	%rsi, (%r9)
	cmpl	$1, %r14d
	movq	$-1, %rdx
	movq	$-1, %rsi
	cmoveq	%rax, %rsi
	andq	8(%r9), %rsi
	cmpl	$1, %ebx
	movl	$0, %r8d
	cmoveq	%r13, %r8
	orq	%rsi, %r8
	movq	%r8, 8(%r9)
	cmpl	$2, %r14d
	movq	$-1, %rsi
	cmoveq	%rax, %rsi
	andq	16(%r9), %rsi
	cmpl	$2, %ebx
	movl	$0, %r8d
	cmoveq	%r13, %r8
	orq	%rsi, %r8
	cmpl	$3, %r14d
	cmovneq	%rdx, %rax
	movq	%r8, 16(%r9)
	andq	24(%r9), %rax
	cmpl	$3, %ebx
	cmoveq	%r13, %rcx
	orq	%rax, %rcx
.LBB8_44:                               # %"settle::settle.exit"
	movq	%rcx, 24(%r9)
.LBB8_45:                               # %"settle::settle.exit"
	movq	$1, (%rdi)
	movdqu	%xmm0, 8(%rdi)
.LBB8_46:                               # %"settle::settle.exit"
	addq	$216, %rsp
	.cfi_def_cfa_offset 56
	popq	%rbx
	.cfi_def_cfa_offset 48
	popq	%r12
	.cfi_def_cfa_offset 40
	popq	%r13
	.cfi_def_cfa_offset 32
	popq	%r14
	.cfi_def_cfa_offset 24
	popq	%r15
	.cfi_def_cfa_offset 16
	popq	%rbp
	.cfi_def_cfa_offset 8
	retq
.LBB8_6:                                # %join.6.i
	.cfi_def_cfa_offset 272
	movw	%cx, 56(%rsp)                   # 2-byte Spill
	movq	%r10, 64(%rsp)                  # 8-byte Spill
	movl	%ebx, %eax
	shll	$5, %eax
	movdqu	(%rsi,%rax), %xmm0
	movdqu	16(%rsi,%rax), %xmm3
	movdqu	(%rbp), %xmm2
	pand	%xmm0, %xmm2
	movdqu	16(%rbp), %xmm1
	pand	%xmm3, %xmm1
	movdqa	%xmm1, %xmm3
	por	%xmm2, %xmm3
	pxor	%xmm0, %xmm0
	pcmpeqd	%xmm0, %xmm3
	movmskps	%xmm3, %eax
	xorl	$15, %eax
	movq	312(%rsp), %r10
	je	.LBB8_32
# %bb.7:                                # %repeat.4.preheader.i.i
	movdqa	%xmm2, 112(%rsp)
	movdqa	%xmm1, 128(%rsp)
	movq	%xmm2, %rcx
	testq	%rcx, %rcx
	je	.LBB8_9
# %bb.8:
	xorl	%eax, %eax
	jmp	.LBB8_12
.LBB8_9:                                # %join.5.i.preheader.i.i.i
	pshufd	$238, %xmm2, %xmm2              # xmm2 = xmm2[2,3,2,3]
	movq	%xmm2, %rcx
	movl	$64, %eax
	testq	%rcx, %rcx
	jne	.LBB8_12
# %bb.10:                               # %join.8.i.i.i.i
	movq	%xmm1, %rcx
	movl	$128, %eax
	testq	%rcx, %rcx
	jne	.LBB8_12
# %bb.11:                               # %join.8.i.1.i.i.i
	pshufd	$238, %xmm1, %xmm1              # xmm1 = xmm1[2,3,2,3]
	movq	%xmm1, %rcx
	movl	$192, %eax
	testq	%rcx, %rcx
	je	.LBB8_32
.LBB8_12:                               # %join.3.i.i.i
	rep		bsfq	%rcx, %rcx
	movq	%rcx, %rdx
	orq	%rax, %rdx
	cmpq	$255, %rdx
	jne	.LBB8_13
.LBB8_48:                               # %"choice::common.exit.thread.i"
	movq	%rbp, %r15
	jmp	.LBB8_27
.LBB8_32:                               # %join.9.i
	movq	%rdi, 56(%rsp)                  # 8-byte Spill
	movdqa	%xmm0, 144(%rsp)
	movq	$0, 160(%rsp)
	movdqa	%xmm0, 176(%rsp)
	movq	$0, 192(%rsp)
	movq	296(%rsp), %rax
	movups	(%rax), %xmm0
	movaps	%xmm0, 112(%rsp)
	movups	16(%rax), %xmm0
	movaps	%xmm0, 128(%rsp)
	movl	$1, %eax
	movl	%r14d, %ecx
	shlq	%cl, %rax
	movl	%r14d, %ecx
	shrl	$6, %ecx
	orq	%rax, 112(%rsp,%rcx,8)
	movq	%r10, 40(%rsp)
	movq	304(%rsp), %rax
	movq	%rax, 32(%rsp)
	movq	%rbp, 24(%rsp)
	movq	%r15, 16(%rsp)
	movq	%r11, 8(%rsp)
	movq	%r9, 48(%rsp)                   # 8-byte Spill
	movq	%r9, (%rsp)
	leaq	176(%rsp), %rdi
	leaq	112(%rsp), %rcx
	movq	%rsi, 208(%rsp)                 # 8-byte Spill
	movq	%rdx, 200(%rsp)                 # 8-byte Spill
	movq	%r8, %r9
	movl	%ebx, %r8d
	movq	%r9, 64(%rsp)                   # 8-byte Spill
	movq	%r11, %r15
	callq	"acting::make_room"
	cmpb	$1, 176(%rsp)
	jne	.LBB8_36
# %bb.33:                               # %arm.3.i.i
	movdqu	184(%rsp), %xmm0
	movq	184(%rsp), %rax
	movq	64(%rsp), %rsi                  # 8-byte Reload
	movq	72(%rsp), %rcx                  # 8-byte Reload
	movzwl	(%rsi,%rcx,2), %ecx
	movzwl	(%r15,%rcx,2), %edx
	movw	%bx, (%rsi,%rdx,2)
	movw	%dx, (%r15,%rbx,2)
	cmpq	312(%rsp), %rax
	jae	.LBB8_35
# %bb.34:                               # %then.1.i.i.i.i87.i
	movl	%ecx, %esi
	shll	$16, %esi
	shlq	$32, %rdx
	orq	%rsi, %rdx
	orq	%rbx, %rdx
	movq	304(%rsp), %rsi
	movq	%rdx, (%rsi,%rax,8)
.LBB8_35:                               # %"moving::cross.exit.i.i"
	movq	48(%rsp), %rax                  # 8-byte Reload
	movw	%ax, (%r15,%rcx,2)
	movq	%r13, %rax
	notq	%rax
	andq	%rax, (%rbp,%r12)
	movl	$1, %eax
	shlq	%cl, %rax
	shrl	$6, %ecx
	orq	%rax, (%rbp,%rcx,8)
	paddq	.LCPI8_0(%rip), %xmm0
	movdqu	%xmm0, 152(%rsp)
	movups	152(%rsp), %xmm0
	movups	%xmm0, 88(%rsp)
	movb	$1, %al
	jmp	.LBB8_37
.LBB8_13:                               # %join.5.preheader.i.i.i.i
	addq	%rax, %rcx
	incq	%rcx
	movl	%ecx, %r10d
	shrl	$6, %r10d
	andl	$63, %ecx
	movq	112(%rsp,%r10,8), %rax
	shrq	%cl, %rax
	testq	%rax, %rax
	je	.LBB8_14
.LBB8_17:                               # %"words::next_from.exit30.i.i.i"
	shlq	$6, %r10
	orq	%rcx, %r10
	rep		bsfq	%rax, %rcx
	addq	%r10, %rcx
	cmpq	$255, %rcx
	ja	.LBB8_26
# %bb.18:                               # %join.6.i.i.i
	movl	%edx, %r15d
	shll	$5, %r15d
	movq	(%rsi,%r15), %rbp
	movq	8(%rsi,%r15), %r10
	movq	%rbp, %rax
	shrq	%rax
	movabsq	$6148914691236517205, %r11      # imm = 0x5555555555555555
	andq	%r11, %rax
	subq	%rax, %rbp
	movabsq	$3689348814741910323, %r11      # imm = 0x3333333333333333
	movq	%rbp, %rax
	andq	%r11, %rax
	shrq	$2, %rbp
	andq	%r11, %rbp
	addq	%rax, %rbp
	movq	%rbp, %rax
	shrq	$4, %rax
	addq	%rbp, %rax
	movabsq	$1085102592571150095, %r11      # imm = 0xF0F0F0F0F0F0F0F
	andq	%r11, %rax
	movabsq	$72340172838076673, %r11        # imm = 0x101010101010101
	imulq	%r11, %rax
	shrq	$56, %rax
	movq	%r10, %rbp
	shrq	%rbp
	movabsq	$6148914691236517205, %r11      # imm = 0x5555555555555555
	andq	%r11, %rbp
	subq	%rbp, %r10
	movq	%r10, %rbp
	movabsq	$3689348814741910323, %r11      # imm = 0x3333333333333333
	andq	%r11, %rbp
	shrq	$2, %r10
	andq	%r11, %r10
	addq	%rbp, %r10
	movq	288(%rsp), %rbp
	movq	%r10, %r11
	shrq	$4, %r11
	addq	%r10, %r11
	movabsq	$1085102592571150095, %r10      # imm = 0xF0F0F0F0F0F0F0F
	andq	%r10, %r11
	movabsq	$72340172838076673, %r10        # imm = 0x101010101010101
	imulq	%r10, %r11
	shrq	$56, %r11
	addq	%rax, %r11
	movq	%r11, 48(%rsp)                  # 8-byte Spill
	movq	16(%rsi,%r15), %r10
	movq	%r10, %rax
	shrq	%rax
	movabsq	$6148914691236517205, %r11      # imm = 0x5555555555555555
	andq	%r11, %rax
	subq	%rax, %r10
	movq	%r10, %rax
	movabsq	$3689348814741910323, %r11      # imm = 0x3333333333333333
	andq	%r11, %rax
	shrq	$2, %r10
	andq	%r11, %r10
	addq	%rax, %r10
	movq	%r10, %rax
	shrq	$4, %rax
	addq	%r10, %rax
	movabsq	$1085102592571150095, %r10      # imm = 0xF0F0F0F0F0F0F0F
	andq	%r10, %rax
	movabsq	$72340172838076673, %r10        # imm = 0x101010101010101
	imulq	%r10, %rax
	shrq	$56, %rax
	movq	24(%rsi,%r15), %r10
	movq	%r10, %r11
	shrq	%r11
	movabsq	$6148914691236517205, %r15      # imm = 0x5555555555555555
	andq	%r15, %r11
	subq	%r11, %r10
	movq	%r10, %r11
	movabsq	$3689348814741910323, %r15      # imm = 0x3333333333333333
	andq	%r15, %r11
	shrq	$2, %r10
	andq	%r15, %r10
	addq	%r11, %r10
	movq	%r10, %r11
	shrq	$4, %r11
	addq	%r10, %r11
	movabsq	$1085102592571150095, %r10      # imm = 0xF0F0F0F0F0F0F0F
	andq	%r10, %r11
	movabsq	$72340172838076673, %r10        # imm = 0x101010101010101
	imulq	%r10, %r11
	shrq	$56, %r11
	addq	%rax, %r11
	addq	48(%rsp), %r11                  # 8-byte Folded Reload
	jmp	.LBB8_19
.LBB8_36:                               # %arm.4.i.i
	movzwl	(%r15,%rbx,2), %r8d
	movq	312(%rsp), %rax
	movq	%rax, 40(%rsp)
	movq	304(%rsp), %rax
	movq	%rax, 32(%rsp)
	movq	%rbp, 24(%rsp)
	movq	280(%rsp), %rax
	movq	%rax, 16(%rsp)
	movq	%r15, 8(%rsp)
	movq	48(%rsp), %rax                  # 8-byte Reload
	movq	%rax, (%rsp)
	leaq	144(%rsp), %rdi
	movq	208(%rsp), %rsi                 # 8-byte Reload
	movq	200(%rsp), %rdx                 # 8-byte Reload
	movq	72(%rsp), %rcx                  # 8-byte Reload
                                        # kill: def $ecx killed $ecx killed $rcx
	movq	64(%rsp), %r9                   # 8-byte Reload
	callq	"swap::swap"
	movzbl	144(%rsp), %eax
	movups	152(%rsp), %xmm0
	movups	%xmm0, 88(%rsp)
.LBB8_37:                               # %"step::step_to.exit"
	movdqu	88(%rsp), %xmm0
	movq	56(%rsp), %rdi                  # 8-byte Reload
	cmpb	$1, %al
	je	.LBB8_39
.LBB8_47:                               # %arm.2
	pxor	%xmm0, %xmm0
	movdqu	%xmm0, (%rdi)
	movq	$0, 16(%rdi)
	jmp	.LBB8_46
.LBB8_14:                               # %join.8.peel.i20.i.i.i
	incq	%r10
	cmpq	$4, %r10
	je	.LBB8_48
.LBB8_15:                               # %join.5.i21.i.i.i
                                        # =>This Inner Loop Header: Depth=1
	movq	112(%rsp,%r10,8), %rax
	testq	%rax, %rax
	jne	.LBB8_16
# %bb.25:                               # %join.8.i27.i.i.i
                                        #   in Loop: Header=BB8_15 Depth=1
	incq	%r10
	cmpq	$4, %r10
	jne	.LBB8_15
.LBB8_26:                               # %"choice::common.exit.i"
	movq	%rbp, %r15
	movq	272(%rsp), %r11
.LBB8_27:                               # %then.7.i
	movzwl	%dx, %r10d
	movq	64(%rsp), %rbp                  # 8-byte Reload
	movw	%r10w, (%r8,%rbp,2)
	movl	%r10d, %eax
	movzwl	56(%rsp), %ecx                  # 2-byte Folded Reload
	movw	%cx, (%r11,%rax,2)
	cmpq	$0, 312(%rsp)
	movq	304(%rsp), %rcx
	je	.LBB8_29
# %bb.28:                               # %then.1.i.i.i.i.i.i
	movl	%ebx, %eax
	shll	$16, %eax
	shlq	$32, %rbp
	orq	%rax, %rbp
	orq	%r10, %rbp
	movq	%rbp, (%rcx)
.LBB8_29:                               # %"acting::fill.exit.i.i"
	movw	%r9w, (%r11,%rbx,2)
	movq	$-2, %rax
	movl	%edx, %ecx
	rolq	%cl, %rax
	shrl	$3, %edx
	andl	$24, %edx
	andq	%rax, (%r15,%rdx)
	orq	%r13, (%r15,%r12)
	shll	$5, %r10d
	movdqu	(%rsi,%r10), %xmm1
	movdqu	16(%rsi,%r10), %xmm0
	movq	72(%rsp), %rax                  # 8-byte Reload
	movzwl	(%r8,%rax,2), %ecx
	movzwl	(%r11,%rcx,2), %eax
	movw	%bx, (%r8,%rax,2)
	movw	%ax, (%r11,%rbx,2)
	cmpq	$2, 312(%rsp)
	jb	.LBB8_31
# %bb.30:                               # %then.1.i.i.i.i55.i
	movl	%ecx, %edx
	shll	$16, %edx
	shlq	$32, %rax
	orq	%rdx, %rax
	orq	%rbx, %rax
	movq	304(%rsp), %rdx
	movq	%rax, 8(%rdx)
.LBB8_31:                               # %"step::step_aside.exit.i"
	movdqa	%xmm1, %xmm2
	psrlw	$1, %xmm2
	movdqa	.LCPI8_1(%rip), %xmm3           # xmm3 = [85,85,85,85,85,85,85,85,85,85,85,85,85,85,85,85]
	pand	%xmm3, %xmm2
	psubb	%xmm2, %xmm1
	movdqa	.LCPI8_2(%rip), %xmm2           # xmm2 = [51,51,51,51,51,51,51,51,51,51,51,51,51,51,51,51]
	movdqa	%xmm1, %xmm4
	pand	%xmm2, %xmm4
	psrlw	$2, %xmm1
	pand	%xmm2, %xmm1
	paddb	%xmm4, %xmm1
	movdqa	%xmm1, %xmm4
	psrlw	$4, %xmm4
	paddb	%xmm1, %xmm4
	movdqa	.LCPI8_3(%rip), %xmm1           # xmm1 = [15,15,15,15,15,15,15,15,15,15,15,15,15,15,15,15]
	pand	%xmm1, %xmm4
	movdqa	%xmm0, %xmm5
	psrlw	$1, %xmm5
	pand	%xmm3, %xmm5
	psubb	%xmm5, %xmm0
	movdqa	%xmm0, %xmm3
	pand	%xmm2, %xmm3
	psrlw	$2, %xmm0
	pand	%xmm2, %xmm0
	paddb	%xmm3, %xmm0
	movdqa	%xmm0, %xmm2
	psrlw	$4, %xmm2
	paddb	%xmm0, %xmm2
	pand	%xmm1, %xmm2
	paddb	%xmm4, %xmm2
	pxor	%xmm0, %xmm0
	psadbw	%xmm2, %xmm0
	pshufd	$238, %xmm0, %xmm1              # xmm1 = xmm0[2,3,2,3]
	paddq	%xmm0, %xmm1
	movq	%xmm1, %rax
	xorl	%edx, %edx
	cmpl	$3, %eax
	setae	%dl
	movw	%r9w, (%r11,%rcx,2)
	movq	%r13, %rax
	notq	%rax
	andq	%rax, (%r15,%r12)
	movl	$1, %eax
	shlq	%cl, %rax
	shrl	$6, %ecx
	orq	%rax, (%r15,%rcx,8)
	movd	%edx, %xmm1
	movdqa	.LCPI8_4(%rip), %xmm0           # xmm0 = [2,u]
	punpcklqdq	%xmm1, %xmm0            # xmm0 = xmm0[0],xmm1[0]
	jmp	.LBB8_39
.LBB8_23:                               #   in Loop: Header=BB8_19 Depth=1
	xorl	%ecx, %ecx
.LBB8_24:                               # %"words::next_from.exit.i.i.i.i"
                                        #   in Loop: Header=BB8_19 Depth=1
	shlq	$6, %r10
	orq	%rcx, %r10
	rep		bsfq	%rax, %rcx
	addq	%r10, %rcx
	cmpq	$256, %rcx                      # imm = 0x100
	jae	.LBB8_26
.LBB8_19:                               # %join.5.i31.i.i.i
                                        # =>This Loop Header: Depth=1
                                        #     Child Loop BB8_21 Depth 2
	movq	%rcx, %rax
	shlq	$5, %rax
	movdqu	(%rsi,%rax), %xmm0
	movdqu	16(%rsi,%rax), %xmm1
	movdqa	%xmm1, %xmm2
	psrlw	$1, %xmm2
	movdqa	.LCPI8_1(%rip), %xmm3           # xmm3 = [85,85,85,85,85,85,85,85,85,85,85,85,85,85,85,85]
	pand	%xmm3, %xmm2
	psubb	%xmm2, %xmm1
	movdqa	.LCPI8_2(%rip), %xmm2           # xmm2 = [51,51,51,51,51,51,51,51,51,51,51,51,51,51,51,51]
	movdqa	%xmm1, %xmm4
	pand	%xmm2, %xmm4
	psrlw	$2, %xmm1
	pand	%xmm2, %xmm1
	paddb	%xmm4, %xmm1
	movdqa	%xmm1, %xmm4
	psrlw	$4, %xmm4
	paddb	%xmm1, %xmm4
	movdqa	.LCPI8_3(%rip), %xmm1           # xmm1 = [15,15,15,15,15,15,15,15,15,15,15,15,15,15,15,15]
	pand	%xmm1, %xmm4
	movdqa	%xmm0, %xmm5
	psrlw	$1, %xmm5
	pand	%xmm3, %xmm5
	psubb	%xmm5, %xmm0
	movdqa	%xmm0, %xmm3
	pand	%xmm2, %xmm3
	psrlw	$2, %xmm0
	pand	%xmm2, %xmm0
	paddb	%xmm3, %xmm0
	movdqa	%xmm0, %xmm2
	psrlw	$4, %xmm2
	paddb	%xmm0, %xmm2
	pand	%xmm1, %xmm2
	paddb	%xmm4, %xmm2
	pxor	%xmm0, %xmm0
	psadbw	%xmm2, %xmm0
	pshufd	$238, %xmm0, %xmm1              # xmm1 = xmm0[2,3,2,3]
	paddq	%xmm0, %xmm1
	movq	%xmm1, %rax
	cmpq	%r11, %rax
	cmovbq	%rcx, %rdx
	cmovbq	%rax, %r11
	cmpq	$255, %rcx
	je	.LBB8_26
# %bb.20:                               # %join.5.preheader.i.i.i.i.i
                                        #   in Loop: Header=BB8_19 Depth=1
	incq	%rcx
	movq	%rcx, %r10
	shrq	$6, %r10
	andl	$63, %ecx
	movq	112(%rsp,%r10,8), %rax
	shrq	%cl, %rax
	testq	%rax, %rax
	jne	.LBB8_24
	.p2align	4
.LBB8_21:                               # %join.8.peel.i.i.i.i.i
                                        #   Parent Loop BB8_19 Depth=1
                                        # =>  This Inner Loop Header: Depth=2
	incq	%r10
	cmpq	$4, %r10
	je	.LBB8_26
# %bb.22:                               # %join.5.i.i.i.i.i
                                        #   in Loop: Header=BB8_21 Depth=2
	movq	112(%rsp,%r10,8), %rax
	testq	%rax, %rax
	je	.LBB8_21
	jmp	.LBB8_23
.LBB8_16:
	xorl	%ecx, %ecx
	jmp	.LBB8_17
.Lfunc_end8:
	.size	"step::step", .Lfunc_end8-"step::step"
	.cfi_endproc
                                        # -- End function
	.section	.rodata.cst16,"aM",@progbits,16
	.p2align	4, 0x0                          # -- Begin function swap::swap
.LCPI9_0:
	.zero	16,85
.LCPI9_1:
	.zero	16,51
.LCPI9_2:
	.zero	16,15
	.section	".text.swap::swap","ax",@progbits
	.p2align	4
	.type	"swap::swap",@function
"swap::swap":                           # @"swap::swap"
	.cfi_startproc
# %bb.0:                                # %start
	pushq	%rbp
	.cfi_def_cfa_offset 16
	pushq	%r15
	.cfi_def_cfa_offset 24
	pushq	%r14
	.cfi_def_cfa_offset 32
	pushq	%r13
	.cfi_def_cfa_offset 40
	pushq	%r12
	.cfi_def_cfa_offset 48
	pushq	%rbx
	.cfi_def_cfa_offset 56
	subq	$3072, %rsp                     # imm = 0xC00
	.cfi_adjust_cfa_offset 3072
	movq	$0, (%rsp)
	subq	$2360, %rsp                     # imm = 0x938
	.cfi_def_cfa_offset 5488
	.cfi_offset %rbx, -56
	.cfi_offset %r12, -48
	.cfi_offset %r13, -40
	.cfi_offset %r14, -32
	.cfi_offset %r15, -24
	.cfi_offset %rbp, -16
                                        # kill: def $r8d killed $r8d def $r8
	movl	%ecx, %ebp
	movq	%rdx, 176(%rsp)                 # 8-byte Spill
	movq	%rsi, %r12
	movq	5512(%rsp), %r11
	movl	%ecx, %eax
	movq	%rax, 104(%rsp)                 # 8-byte Spill
	movzwl	(%r9,%rax,2), %r13d
	movq	%r8, 520(%rsp)                  # 8-byte Spill
	movl	%r8d, %eax
	movq	%rax, 64(%rsp)                  # 8-byte Spill
	movzwl	(%r9,%rax,2), %eax
	movl	%r13d, %edx
	shll	$5, %edx
	movups	(%rsi,%rdx), %xmm0
	movaps	%xmm0, 3376(%rsp)
	movq	$-2, %rsi
	movl	%eax, %ecx
	rolq	%cl, %rsi
	movdqu	16(%r12,%rdx), %xmm0
	movdqa	%xmm0, 3392(%rsp)
	movl	%eax, %ecx
	shrl	$6, %ecx
	andq	%rsi, 3376(%rsp,%rcx,8)
	movq	$-2, %r10
	movq	(%r11), %rdx
	movq	3376(%rsp), %rcx
	andq	%rdx, %rcx
	je	.LBB9_2
# %bb.1:
	xorl	%esi, %esi
	jmp	.LBB9_5
.LBB9_2:                                # %join.8.i.i
	movq	8(%r11), %rbx
	movq	3384(%rsp), %rcx
	movl	$64, %esi
	andq	%rbx, %rcx
	jne	.LBB9_5
# %bb.3:                                # %join.8.1.i.i
	movq	5512(%rsp), %rcx
	movq	16(%rcx), %r15
	movq	3392(%rsp), %rcx
	movl	$128, %esi
	andq	%r15, %rcx
	jne	.LBB9_5
# %bb.4:                                # %join.8.2.i.i
	movq	5512(%rsp), %rcx
	movq	24(%rcx), %r11
	movq	3400(%rsp), %rcx
	movl	$192, %esi
	andq	%r11, %rcx
	je	.LBB9_19
.LBB9_5:                                # %"words::lowest_common.exit.i"
	rep		bsfq	%rcx, %rcx
	rolq	%cl, %r10
	movl	%esi, %r11d
	shrl	$3, %r11d
	andq	%r10, 3376(%rsp,%r11)
	movq	3376(%rsp), %r14
	andq	%rdx, %r14
	je	.LBB9_7
# %bb.6:
	xorl	%r8d, %r8d
	jmp	.LBB9_10
.LBB9_7:                                # %join.8.i29.i
	movq	5512(%rsp), %r10
	movq	8(%r10), %rbx
	movq	3384(%rsp), %r14
	movl	$64, %r8d
	andq	%rbx, %r14
	jne	.LBB9_10
# %bb.8:                                # %join.8.1.i36.i
	movq	16(%r10), %r15
	movq	3392(%rsp), %r14
	movl	$128, %r8d
	andq	%r15, %r14
	jne	.LBB9_10
# %bb.9:                                # %join.8.2.i43.i
	movq	24(%r10), %r11
	movq	3400(%rsp), %r14
	movl	$192, %r8d
	andq	%r11, %r14
	je	.LBB9_19
.LBB9_10:                               # %arm.1
	movl	%ebp, %r10d
	movq	%r13, %rbp
	movq	5528(%rsp), %r13
	testq	%r13, %r13
	movq	5520(%rsp), %r12
	je	.LBB9_17
# %bb.11:                               # %"exchange::note.exit.i.i"
	orq	%rsi, %rcx
	movl	%ebp, %r15d
	shll	$16, %r15d
	movq	104(%rsp), %rbx                 # 8-byte Reload
	shlq	$32, %rbx
	leaq	(%r15,%rbx), %rdx
	leaq	(%rcx,%rdx), %rsi
	movq	%rsi, (%r12)
	cmpq	$1, %r13
	je	.LBB9_17
# %bb.12:                               # %"exchange::note.exit30.i.i"
	movl	%eax, %r11d
	shll	$16, %r11d
	movq	520(%rsp), %rsi                 # 8-byte Reload
	shlq	$32, %rsi
	orq	%rsi, %r11
	orq	%rbp, %r11
	movq	%r11, 8(%r12)
	cmpq	$3, %r13
	jb	.LBB9_17
# %bb.13:                               # %"exchange::note.exit43.i.i"
	rep		bsfq	%r14, %r11
	orq	%r8, %r11
	orq	%rsi, %r15
	orq	%r11, %r15
	movq	%r15, 16(%r12)
	cmpq	$3, %r13
	je	.LBB9_17
# %bb.14:                               # %"exchange::note.exit56.i.i"
	shll	$16, %ecx
	orq	%rbp, %rbx
	orq	%rcx, %rbx
	movq	%rbx, 24(%r12)
	cmpq	$5, %r13
	jb	.LBB9_17
# %bb.15:                               # %"exchange::note.exit69.i.i"
	orq	%rax, %rdx
	movq	%rdx, 32(%r12)
	cmpq	$5, %r13
	je	.LBB9_17
# %bb.16:                               # %then.1.i.i72.i.i
	shll	$16, %r11d
	orq	%rbp, %rsi
	orq	%r11, %rsi
	movq	%rsi, 40(%r12)
.LBB9_17:                               # %"swap::swap_beside.exit"
	movq	104(%rsp), %rdx                 # 8-byte Reload
	movzwl	(%r9,%rdx,2), %eax
	movq	64(%rsp), %rsi                  # 8-byte Reload
	movzwl	(%r9,%rsi,2), %ecx
	movw	%cx, (%r9,%rdx,2)
	movw	%ax, (%r9,%rsi,2)
	movq	5496(%rsp), %rdx
	movq	520(%rsp), %rsi                 # 8-byte Reload
	movw	%si, (%rdx,%rax,2)
	movw	%r10w, (%rdx,%rcx,2)
	movq	$1, (%rdi)
	movq	$6, 8(%rdi)
	movq	$0, 16(%rdi)
.LBB9_18:                               # %common.ret
	addq	$5432, %rsp                     # imm = 0x1538
	.cfi_def_cfa_offset 56
	popq	%rbx
	.cfi_def_cfa_offset 48
	popq	%r12
	.cfi_def_cfa_offset 40
	popq	%r13
	.cfi_def_cfa_offset 32
	popq	%r14
	.cfi_def_cfa_offset 24
	popq	%r15
	.cfi_def_cfa_offset 16
	popq	%rbp
	.cfi_def_cfa_offset 8
	retq
.LBB9_19:                               # %join.4
	.cfi_def_cfa_offset 5488
	movq	%r9, 168(%rsp)                  # 8-byte Spill
	movl	%ebp, 84(%rsp)                  # 4-byte Spill
	movq	%rdi, 616(%rsp)                 # 8-byte Spill
	movq	5504(%rsp), %rax
	movq	%rax, %rsi
	cmpq	$8, %rax
	jb	.LBB9_23
# %bb.20:                               # %join.3.i.i.i.i
	cmpq	$25, 5504(%rsp)
	jb	.LBB9_22
# %bb.21:                               # %then.4.i.i.i.i
	movq	%rdx, %xmm1
	movq	%rbx, %xmm0
	punpcklqdq	%xmm1, %xmm0            # xmm0 = xmm0[0],xmm1[0]
	movq	%r11, %xmm1
	movq	%r15, %xmm2
	punpcklqdq	%xmm1, %xmm2            # xmm2 = xmm2[0],xmm1[0]
	movdqa	%xmm2, %xmm1
	psrlw	$1, %xmm1
	movdqa	.LCPI9_0(%rip), %xmm3           # xmm3 = [85,85,85,85,85,85,85,85,85,85,85,85,85,85,85,85]
	pand	%xmm3, %xmm1
	psubb	%xmm1, %xmm2
	movdqa	.LCPI9_1(%rip), %xmm1           # xmm1 = [51,51,51,51,51,51,51,51,51,51,51,51,51,51,51,51]
	movdqa	%xmm2, %xmm4
	pand	%xmm1, %xmm4
	psrlw	$2, %xmm2
	pand	%xmm1, %xmm2
	paddb	%xmm4, %xmm2
	movdqa	%xmm2, %xmm4
	psrlw	$4, %xmm4
	paddb	%xmm2, %xmm4
	movdqa	.LCPI9_2(%rip), %xmm2           # xmm2 = [15,15,15,15,15,15,15,15,15,15,15,15,15,15,15,15]
	pand	%xmm2, %xmm4
	movdqa	%xmm0, %xmm5
	psrlw	$1, %xmm5
	pand	%xmm3, %xmm5
	psubb	%xmm5, %xmm0
	movdqa	%xmm0, %xmm3
	pand	%xmm1, %xmm3
	psrlw	$2, %xmm0
	pand	%xmm1, %xmm0
	paddb	%xmm3, %xmm0
	movdqa	%xmm0, %xmm1
	psrlw	$4, %xmm1
	paddb	%xmm0, %xmm1
	pand	%xmm2, %xmm1
	paddb	%xmm4, %xmm1
	pxor	%xmm0, %xmm0
	psadbw	%xmm1, %xmm0
	pshufd	$238, %xmm0, %xmm1              # xmm1 = xmm0[2,3,2,3]
	paddq	%xmm0, %xmm1
	movq	%xmm1, %rax
	movl	$2, %esi
	cmpl	$4, %eax
	jb	.LBB9_23
.LBB9_22:                               # %join.6.i.i.i.i
	movl	$8, %esi
.LBB9_23:                               # %"near::reach.exit.i.i.i"
	movq	%rsi, 688(%rsp)                 # 8-byte Spill
	movq	5488(%rsp), %rdx
	movl	%r13d, %r14d
	shrl	$6, %r14d
	movl	$1, %r15d
	movl	%r13d, %ecx
	shlq	%cl, %r15
	xorl	%r8d, %r8d
	cmpl	$1, %r14d
	movl	$0, %r9d
	cmoveq	%r15, %r9
	testl	%r14d, %r14d
	movl	$0, %ebx
	cmoveq	%r15, %rbx
	cmpl	$3, %r14d
	movl	$0, %eax
	cmoveq	%r15, %rax
	cmpl	$2, %r14d
	cmoveq	%r15, %r8
	movq	%rbx, 2864(%rsp)
	movq	%r9, 2872(%rsp)
	movq	%r8, 2880(%rsp)
	movq	%rax, 2888(%rsp)
	testq	%rsi, %rsi
	je	.LBB9_169
# %bb.24:                               # %join.9.lr.ph.i.i.i
	movq	64(%rsp), %r14                  # 8-byte Reload
	movq	%rax, %rdi
	movq	%r14, %rcx
	shlq	$32, %rcx
	movq	104(%rsp), %rax                 # 8-byte Reload
	movq	%rcx, 216(%rsp)                 # 8-byte Spill
	leaq	(%rcx,%rax), %rsi
	leaq	(%rdx,%rdx), %rcx
	movq	%rcx, 320(%rsp)                 # 8-byte Spill
	movq	5504(%rsp), %rcx
	addq	%rcx, %rcx
	movq	%rcx, 312(%rsp)                 # 8-byte Spill
	movq	%rdi, %rcx
	shlq	$32, %rax
	movq	%rax, 208(%rsp)                 # 8-byte Spill
	movq	%rsi, 248(%rsp)                 # 8-byte Spill
	rolq	$32, %rsi
	movq	%rsi, 680(%rsp)                 # 8-byte Spill
	movq	%r9, 336(%rsp)                  # 8-byte Spill
	movq	%r9, %xmm0
	movq	%rbx, %xmm1
	punpcklqdq	%xmm0, %xmm1            # xmm1 = xmm1[0],xmm0[0]
	movdqa	%xmm1, 592(%rsp)                # 16-byte Spill
	movq	%rdi, %xmm0
	movq	%r8, 328(%rsp)                  # 8-byte Spill
	movq	%r8, %xmm1
	punpcklqdq	%xmm0, %xmm1            # xmm1 = xmm1[0],xmm0[0]
	movdqa	%xmm1, 560(%rsp)                # 16-byte Spill
	xorl	%eax, %eax
	movl	84(%rsp), %ebp                  # 4-byte Reload
	jmp	.LBB9_25
	.p2align	4
.LBB9_167:                              # %"rings::widen.exit.i.i.i"
                                        #   in Loop: Header=BB9_25 Depth=1
	movdqa	%xmm0, %xmm2
	movdqa	592(%rsp), %xmm3                # 16-byte Reload
	por	%xmm3, %xmm2
	pandn	%xmm0, %xmm3
	movdqa	%xmm3, 2864(%rsp)
	movdqa	%xmm1, %xmm0
	movdqa	560(%rsp), %xmm4                # 16-byte Reload
	por	%xmm4, %xmm0
	pandn	%xmm1, %xmm4
	movdqa	%xmm4, 2880(%rsp)
	movq	496(%rsp), %rax                 # 8-byte Reload
	incq	%rax
	movq	%xmm3, %rbx
	pshufd	$238, %xmm3, %xmm1              # xmm1 = xmm3[2,3,2,3]
	movq	%xmm1, 336(%rsp)                # 8-byte Folded Spill
	movq	%xmm4, 328(%rsp)                # 8-byte Folded Spill
	pshufd	$238, %xmm4, %xmm1              # xmm1 = xmm4[2,3,2,3]
	movq	%xmm1, %rcx
	movdqa	%xmm2, 592(%rsp)                # 16-byte Spill
	movdqa	%xmm0, 560(%rsp)                # 16-byte Spill
	cmpq	%rdx, %rax
	je	.LBB9_168
.LBB9_25:                               # %join.9.i.i.i
                                        # =>This Loop Header: Depth=1
                                        #     Child Loop BB9_31 Depth 2
                                        #       Child Loop BB9_46 Depth 3
                                        #         Child Loop BB9_57 Depth 4
                                        #           Child Loop BB9_61 Depth 5
                                        #           Child Loop BB9_63 Depth 5
                                        #           Child Loop BB9_65 Depth 5
                                        #           Child Loop BB9_67 Depth 5
                                        #         Child Loop BB9_74 Depth 4
                                        #       Child Loop BB9_49 Depth 3
                                        #         Child Loop BB9_52 Depth 4
                                        #       Child Loop BB9_114 Depth 3
                                        #       Child Loop BB9_130 Depth 3
                                        #       Child Loop BB9_153 Depth 3
                                        #     Child Loop BB9_158 Depth 2
                                        #     Child Loop BB9_162 Depth 2
                                        #     Child Loop BB9_164 Depth 2
                                        #     Child Loop BB9_166 Depth 2
	movq	%rcx, 504(%rsp)                 # 8-byte Spill
	movq	%rax, 496(%rsp)                 # 8-byte Spill
	testq	%rbx, %rbx
	je	.LBB9_27
# %bb.26:                               #   in Loop: Header=BB9_25 Depth=1
	xorl	%eax, %eax
	movq	%rbx, %rcx
	jmp	.LBB9_30
.LBB9_27:                               # %join.5.i.preheader.i.i.i
                                        #   in Loop: Header=BB9_25 Depth=1
	movl	$64, %eax
	movq	336(%rsp), %rdx                 # 8-byte Reload
	movq	%rdx, %rcx
	testq	%rdx, %rdx
	jne	.LBB9_30
# %bb.28:                               # %join.8.i.i.i.i
                                        #   in Loop: Header=BB9_25 Depth=1
	movl	$128, %eax
	movq	328(%rsp), %rdx                 # 8-byte Reload
	movq	%rdx, %rcx
	testq	%rdx, %rdx
	jne	.LBB9_30
# %bb.29:                               # %join.8.i.1.i.i.i
                                        #   in Loop: Header=BB9_25 Depth=1
	movl	$192, %eax
	movq	504(%rsp), %rdx                 # 8-byte Reload
	movq	%rdx, %rcx
	testq	%rdx, %rdx
	je	.LBB9_277
	.p2align	4
.LBB9_30:                               # %join.17.preheader.i.i.i
                                        #   in Loop: Header=BB9_25 Depth=1
	rep		bsfq	%rcx, %r13
	orq	%rax, %r13
	jmp	.LBB9_31
.LBB9_155:                              #   in Loop: Header=BB9_31 Depth=2
	xorl	%r13d, %r13d
.LBB9_156:                              # %"words::next_from.exit54.i.i.i"
                                        #   in Loop: Header=BB9_31 Depth=2
	shlq	$6, %rax
	orq	%r13, %rax
	rep		bsfq	%rdx, %r13
	addq	%rax, %r13
	cmpq	$256, %r13                      # imm = 0x100
	jae	.LBB9_157
.LBB9_31:                               # %join.17.i.i.i
                                        #   Parent Loop BB9_25 Depth=1
                                        # =>  This Loop Header: Depth=2
                                        #       Child Loop BB9_46 Depth 3
                                        #         Child Loop BB9_57 Depth 4
                                        #           Child Loop BB9_61 Depth 5
                                        #           Child Loop BB9_63 Depth 5
                                        #           Child Loop BB9_65 Depth 5
                                        #           Child Loop BB9_67 Depth 5
                                        #         Child Loop BB9_74 Depth 4
                                        #       Child Loop BB9_49 Depth 3
                                        #         Child Loop BB9_52 Depth 4
                                        #       Child Loop BB9_114 Depth 3
                                        #       Child Loop BB9_130 Depth 3
                                        #       Child Loop BB9_153 Depth 3
	movq	%r13, %rax
	shlq	$5, %rax
	movdqu	(%r12,%rax), %xmm1
	movdqu	16(%r12,%rax), %xmm0
	movdqa	%xmm0, %xmm2
	psrlw	$1, %xmm2
	movdqa	.LCPI9_0(%rip), %xmm3           # xmm3 = [85,85,85,85,85,85,85,85,85,85,85,85,85,85,85,85]
	pand	%xmm3, %xmm2
	movdqa	%xmm0, %xmm4
	psubb	%xmm2, %xmm4
	movdqa	.LCPI9_1(%rip), %xmm2           # xmm2 = [51,51,51,51,51,51,51,51,51,51,51,51,51,51,51,51]
	movdqa	%xmm4, %xmm5
	pand	%xmm2, %xmm5
	psrlw	$2, %xmm4
	pand	%xmm2, %xmm4
	paddb	%xmm5, %xmm4
	movdqa	%xmm4, %xmm5
	psrlw	$4, %xmm5
	paddb	%xmm4, %xmm5
	movdqa	.LCPI9_2(%rip), %xmm4           # xmm4 = [15,15,15,15,15,15,15,15,15,15,15,15,15,15,15,15]
	pand	%xmm4, %xmm5
	movdqa	%xmm1, %xmm6
	psrlw	$1, %xmm6
	pand	%xmm3, %xmm6
	movdqa	%xmm1, %xmm3
	psubb	%xmm6, %xmm3
	movdqa	%xmm3, %xmm6
	pand	%xmm2, %xmm6
	psrlw	$2, %xmm3
	pand	%xmm2, %xmm3
	paddb	%xmm6, %xmm3
	movdqa	%xmm3, %xmm2
	psrlw	$4, %xmm2
	paddb	%xmm3, %xmm2
	pand	%xmm4, %xmm2
	paddb	%xmm5, %xmm2
	pxor	%xmm3, %xmm3
	psadbw	%xmm2, %xmm3
	pshufd	$238, %xmm3, %xmm2              # xmm2 = xmm3[2,3,2,3]
	paddq	%xmm3, %xmm2
	movq	%xmm2, %rax
	cmpl	$3, %eax
	jb	.LBB9_151
# %bb.32:                               # %then.1.i.i.i.i
                                        #   in Loop: Header=BB9_31 Depth=2
	movq	168(%rsp), %r9                  # 8-byte Reload
	movq	104(%rsp), %rax                 # 8-byte Reload
	movzwl	(%r9,%rax,2), %esi
	cmpw	%r13w, %si
	jne	.LBB9_39
# %bb.33:                               # %join.6.thread.i.i.i.i
                                        #   in Loop: Header=BB9_31 Depth=2
	leaq	3376(%rsp), %rdi
	movl	$512, %edx                      # imm = 0x200
	xorl	%esi, %esi
	callq	memset@PLT
	leaq	1328(%rsp), %r14
	movl	$512, %edx                      # imm = 0x200
	movq	%r14, %rdi
	xorl	%esi, %esi
	callq	memset@PLT
	movq	5488(%rsp), %rcx
	testq	%rcx, %rcx
	je	.LBB9_35
# %bb.34:                               # %join.5.i.preheader.i.i25.i.i.i.i
                                        #   in Loop: Header=BB9_31 Depth=2
	leaq	3376(%rsp), %rdi
	movq	168(%rsp), %rsi                 # 8-byte Reload
	movq	320(%rsp), %rdx                 # 8-byte Reload
	callq	memcpy@PLT
	movq	5488(%rsp), %rcx
.LBB9_35:                               # %"attempts::copy.exit.i.i.i.i.i.i"
                                        #   in Loop: Header=BB9_31 Depth=2
	cmpq	$0, 5504(%rsp)
	je	.LBB9_37
# %bb.36:                               # %join.5.i6.preheader.i.i.i.i.i.i
                                        #   in Loop: Header=BB9_31 Depth=2
	leaq	1328(%rsp), %rdi
	movq	5496(%rsp), %rsi
	movq	312(%rsp), %rdx                 # 8-byte Reload
	callq	memcpy@PLT
	movq	5488(%rsp), %rcx
.LBB9_37:                               # %"attempts::copy.exit14.i.i.i.i.i.i"
                                        #   in Loop: Header=BB9_31 Depth=2
	movq	5512(%rsp), %rax
	movups	(%rax), %xmm0
	movaps	%xmm0, 2352(%rsp)
	movdqu	16(%rax), %xmm0
	movdqa	%xmm0, 2368(%rsp)
	movq	248(%rsp), %rax                 # 8-byte Reload
	movq	%rax, 1840(%rsp)
	movq	%r13, %r15
	movw	%r13w, 1848(%rsp)
	movw	$0, 1850(%rsp)
	pxor	%xmm0, %xmm0
	movdqa	%xmm0, 816(%rsp)
	movdqa	%xmm0, 832(%rsp)
	movq	64(%rsp), %rax                  # 8-byte Reload
	movzwl	3376(%rsp,%rax,2), %r8d
	movq	5528(%rsp), %r13
	movq	%r13, 40(%rsp)
	movq	5520(%rsp), %rax
	movq	%rax, 32(%rsp)
	leaq	2352(%rsp), %rax
	movq	%rax, 24(%rsp)
	movq	5504(%rsp), %rax
	movq	%rax, 16(%rsp)
	movq	%r14, 8(%rsp)
	movq	%rcx, (%rsp)
	leaq	816(%rsp), %rdi
	leaq	1840(%rsp), %rcx
	leaq	3376(%rsp), %r9
	movq	%r12, %rsi
	movq	176(%rsp), %rdx                 # 8-byte Reload
	callq	"clear_on::clear_two"
	cmpb	$1, 816(%rsp)
	jne	.LBB9_38
# %bb.116:                              # %arm.1.i.i.i.i.i.i.i
                                        #   in Loop: Header=BB9_31 Depth=2
	movq	832(%rsp), %rax
	movzwl	826(%rsp), %esi
	movl	824(%rsp), %ecx
	cmpw	%cx, %si
	movl	%ecx, %edx
	cmovbl	%esi, %edx
	cmoval	%esi, %ecx
	cmpq	%r13, %rax
	movq	5520(%rsp), %r9
	movq	%r13, %r10
	movq	%r15, %r13
	jae	.LBB9_118
# %bb.117:                              # %then.1.i.i.i16.i.i.i.i.i.i.i
                                        #   in Loop: Header=BB9_31 Depth=2
	movq	%r13, %rsi
	shlq	$16, %rsi
	addq	208(%rsp), %rsi                 # 8-byte Folded Reload
	movzwl	%dx, %edi
	orq	%rsi, %rdi
	movq	%rdi, (%r9,%rax,8)
.LBB9_118:                              # %"exchange::note.exit.i.i.i.i.i.i.i.i"
                                        #   in Loop: Header=BB9_31 Depth=2
	movq	64(%rsp), %r14                  # 8-byte Reload
	movzwl	3376(%rsp,%r14,2), %esi
	leaq	1(%rax), %rdi
	cmpq	%r10, %rdi
	jb	.LBB9_119
# %bb.120:                              # %"exchange::note.exit30.i.i.i.i.i.i.i.i"
                                        #   in Loop: Header=BB9_31 Depth=2
	leaq	2(%rax), %rdi
	cmpq	%r10, %rdi
	jb	.LBB9_121
.LBB9_122:                              # %"exchange::note.exit43.i.i.i.i.i.i.i.i"
                                        #   in Loop: Header=BB9_31 Depth=2
	leaq	3(%rax), %rdi
	cmpq	%r10, %rdi
	jb	.LBB9_123
.LBB9_124:                              # %"exchange::note.exit56.i.i.i.i.i.i.i.i"
                                        #   in Loop: Header=BB9_31 Depth=2
	leaq	4(%rax), %rdx
	cmpq	%r10, %rdx
	jb	.LBB9_125
.LBB9_126:                              # %"exchange::note.exit69.i.i.i.i.i.i.i.i"
                                        #   in Loop: Header=BB9_31 Depth=2
	leaq	5(%rax), %rdx
	cmpq	%r10, %rdx
	jb	.LBB9_127
.LBB9_128:                              # %"exchange::exchange.exit.i.i.i.i.i.i.i"
                                        #   in Loop: Header=BB9_31 Depth=2
	leaq	6(%rax), %r11
	testq	%rax, %rax
	jne	.LBB9_129
	jmp	.LBB9_136
	.p2align	4
.LBB9_39:                               # %join.3.i.i.i.i.i
                                        #   in Loop: Header=BB9_31 Depth=2
	movq	%r13, %rdx
	shrq	$6, %rdx
	movl	$1, %edi
	movl	%r13d, %ecx
	shlq	%cl, %rdi
	xorl	%r10d, %r10d
	testq	%rdx, %rdx
	movl	$0, %ebp
	cmoveq	%rdi, %rbp
	cmpq	$1, %rdx
	movl	$0, %r11d
	cmoveq	%rdi, %r11
	cmpq	$2, %rdx
	movl	$0, %eax
	cmoveq	%rdi, %rax
	cmpq	$3, %rdx
	movl	$0, %r15d
	movq	%rdi, 288(%rsp)                 # 8-byte Spill
	cmoveq	%rdi, %r15
	movl	%esi, 480(%rsp)                 # 4-byte Spill
	movzwl	%si, %ecx
	movl	%ecx, %r8d
	shrl	$6, %r8d
	movl	$1, %edx
	movq	%rcx, 280(%rsp)                 # 8-byte Spill
                                        # kill: def $cl killed $cl killed $rcx
	shlq	%cl, %rdx
	testl	%r8d, %r8d
	movl	$0, %ecx
	cmoveq	%rdx, %rcx
	movq	%rcx, 344(%rsp)                 # 8-byte Spill
	cmpl	$1, %r8d
	movl	$0, %edi
	cmoveq	%rdx, %rdi
	cmpl	$2, %r8d
	movl	$0, %esi
	cmoveq	%rdx, %rsi
	movzwl	(%r9,%r14,2), %ecx
	cmpl	$3, %r8d
	cmovneq	%r10, %rdx
	movl	$1, %r10d
	movl	%ecx, %r9d
	shrl	$6, %r9d
	movl	%ecx, 736(%rsp)                 # 4-byte Spill
                                        # kill: def $cl killed $cl killed $ecx
	shlq	%cl, %r10
	testl	%r9d, %r9d
	movl	$0, %r8d
	cmoveq	%r10, %r8
	cmpl	$1, %r9d
	movl	$0, %ecx
	cmoveq	%r10, %rcx
	movq	%rcx, 304(%rsp)                 # 8-byte Spill
	cmpl	$2, %r9d
	movl	$0, %ecx
	cmoveq	%r10, %rcx
	movq	%rcx, 296(%rsp)                 # 8-byte Spill
	cmpl	$3, %r9d
	movq	5512(%rsp), %rcx
	movq	(%rcx), %r9
	movq	%r9, 448(%rsp)                  # 8-byte Spill
	movq	8(%rcx), %r9
	movq	%r9, 632(%rsp)                  # 8-byte Spill
	movq	16(%rcx), %r9
	movq	%r9, 264(%rsp)                  # 8-byte Spill
	movq	24(%rcx), %rcx
	movq	%rcx, 624(%rsp)                 # 8-byte Spill
	movq	%rbp, %r14
	movq	%rbp, 3376(%rsp)
	movq	%r11, %rbp
	movq	%r11, 3384(%rsp)
	movq	%rax, 112(%rsp)                 # 8-byte Spill
	movq	%rax, 3392(%rsp)
	movl	$0, %eax
	movq	%r15, %r11
	movq	%r15, 3400(%rsp)
	cmovneq	%rax, %r10
	movdqu	%xmm1, 1328(%rsp)
	pshufd	$238, %xmm1, %xmm2              # xmm2 = xmm1[2,3,2,3]
	movdqu	%xmm0, 1344(%rsp)
	pshufd	$238, %xmm0, %xmm3              # xmm3 = xmm0[2,3,2,3]
	movq	%xmm1, %r9
	movq	%xmm2, 224(%rsp)                # 8-byte Folded Spill
	movq	%xmm0, 512(%rsp)                # 8-byte Folded Spill
	movq	%xmm3, 456(%rsp)                # 8-byte Folded Spill
	movq	%r9, %rcx
	movq	%r9, 488(%rsp)                  # 8-byte Spill
	testq	%r9, %r9
	jne	.LBB9_44
# %bb.40:                               # %join.5.i.preheader.i.i.i.i.i.i
                                        #   in Loop: Header=BB9_31 Depth=2
	movl	$64, %eax
	movq	224(%rsp), %r9                  # 8-byte Reload
	movq	%r9, %rcx
	testq	%r9, %r9
	jne	.LBB9_44
# %bb.41:                               # %join.8.i.i.i.i.i.i.i
                                        #   in Loop: Header=BB9_31 Depth=2
	movl	$128, %eax
	movq	512(%rsp), %r9                  # 8-byte Reload
	movq	%r9, %rcx
	testq	%r9, %r9
	jne	.LBB9_44
# %bb.42:                               # %join.8.i.1.i.i.i.i.i.i
                                        #   in Loop: Header=BB9_31 Depth=2
	movl	$192, %eax
	movq	456(%rsp), %r9                  # 8-byte Reload
	movq	%r9, %rcx
	testq	%r9, %r9
	je	.LBB9_43
	.p2align	4
.LBB9_44:                               # %join.11.lr.ph.i.i.i.i.i.i
                                        #   in Loop: Header=BB9_31 Depth=2
	rep		bsfq	%rcx, %rcx
	orq	%rax, %rcx
	cmpq	$0, 5504(%rsp)
	movq	5520(%rsp), %r9
	je	.LBB9_48
# %bb.45:                               # %join.11.i.i.i.i.i.i.preheader
                                        #   in Loop: Header=BB9_31 Depth=2
	orq	448(%rsp), %r8                  # 8-byte Folded Reload
	orq	%r8, 344(%rsp)                  # 8-byte Folded Spill
	movq	304(%rsp), %rax                 # 8-byte Reload
	orq	632(%rsp), %rax                 # 8-byte Folded Reload
	orq	%rdi, %rax
	movq	%rax, 304(%rsp)                 # 8-byte Spill
	movq	296(%rsp), %rax                 # 8-byte Reload
	orq	264(%rsp), %rax                 # 8-byte Folded Reload
	orq	%rsi, %rax
	movq	%rax, 296(%rsp)                 # 8-byte Spill
	orq	624(%rsp), %r10                 # 8-byte Folded Reload
	orq	%rdx, %r10
	movq	%r10, 464(%rsp)                 # 8-byte Spill
	xorl	%esi, %esi
	movq	%r14, %rdi
	movq	%rbp, %r14
	movl	84(%rsp), %ebp                  # 4-byte Reload
	movq	112(%rsp), %r8                  # 8-byte Reload
	movq	%r11, %r15
	movq	%r13, 656(%rsp)                 # 8-byte Spill
	jmp	.LBB9_46
.LBB9_76:                               #   in Loop: Header=BB9_46 Depth=3
	xorl	%ecx, %ecx
.LBB9_77:                               # %"words::next_from.exit75.i.i.i.i.i.i"
                                        #   in Loop: Header=BB9_46 Depth=3
	shlq	$6, %rax
	orq	%rcx, %rax
	rep		bsfq	%rdx, %rcx
	addq	%rax, %rcx
	cmpq	$256, %rcx                      # imm = 0x100
	jae	.LBB9_78
.LBB9_46:                               # %join.11.i.i.i.i.i.i
                                        #   Parent Loop BB9_25 Depth=1
                                        #     Parent Loop BB9_31 Depth=2
                                        # =>    This Loop Header: Depth=3
                                        #         Child Loop BB9_57 Depth 4
                                        #           Child Loop BB9_61 Depth 5
                                        #           Child Loop BB9_63 Depth 5
                                        #           Child Loop BB9_65 Depth 5
                                        #           Child Loop BB9_67 Depth 5
                                        #         Child Loop BB9_74 Depth 4
	movl	%ecx, %eax
	shrl	$3, %eax
	andl	$24, %eax
	movq	3376(%rsp,%rax), %rax
	movl	$1, %r10d
	shlq	%cl, %r10
	btq	%rcx, %rax
	jae	.LBB9_56
# %bb.47:                               #   in Loop: Header=BB9_46 Depth=3
	xorl	%edx, %edx
	addq	%rdx, %rsi
	cmpq	$2, %rsi
	jbe	.LBB9_72
	jmp	.LBB9_93
	.p2align	4
.LBB9_56:                               # %repeat.4.preheader.i.i.i.i.i.i.i
                                        #   in Loop: Header=BB9_46 Depth=3
	movq	%rsi, 160(%rsp)                 # 8-byte Spill
	movq	%rcx, %rdx
	shrq	$6, %rdx
	movq	%r8, %r11
	xorl	%r8d, %r8d
	cmpq	$3, %rdx
	movl	$0, %esi
	cmoveq	%r10, %rsi
	movq	%rsi, %rax
	movq	%r15, 256(%rsp)                 # 8-byte Spill
	orq	%r15, %rax
	cmpq	$2, %rdx
	movq	%rdi, %r15
	movl	$0, %edi
	cmoveq	%r10, %rdi
	movq	%rdi, %r9
	movq	%r11, 112(%rsp)                 # 8-byte Spill
	orq	%r11, %r9
	cmpq	$1, %rdx
	movl	$0, %r11d
	cmoveq	%r10, %r11
	movq	%r14, 704(%rsp)                 # 8-byte Spill
	movq	%r14, %r13
	orq	%r11, %r13
	testq	%rdx, %rdx
	cmovneq	%r8, %r10
	movq	%r15, 720(%rsp)                 # 8-byte Spill
	orq	%r10, %r15
	jmp	.LBB9_57
	.p2align	4
.LBB9_68:                               # %"rings::widen.exit.i.i.i.i.i.i.i"
                                        #   in Loop: Header=BB9_57 Depth=4
	movq	%r15, %r10
	notq	%r10
	movq	%xmm1, %rsi
	andq	%rsi, %r10
	orq	%rsi, %r15
	movq	%r13, %r11
	notq	%r11
	pshufd	$238, %xmm1, %xmm1              # xmm1 = xmm1[2,3,2,3]
	movq	%xmm1, %rsi
	andq	%rsi, %r11
	orq	%rsi, %r13
	movq	%r9, %rdi
	notq	%rdi
	movq	%xmm0, %rsi
	andq	%rsi, %rdi
	orq	%rsi, %r9
	movq	%rax, %rsi
	notq	%rsi
	pshufd	$238, %xmm0, %xmm0              # xmm0 = xmm0[2,3,2,3]
	movq	%xmm0, %r14
	andq	%r14, %rsi
	orq	%r14, %rax
	incq	%r8
	cmpq	5504(%rsp), %r8
	je	.LBB9_69
.LBB9_57:                               # %join.12.i.i.i.i.i.i.i
                                        #   Parent Loop BB9_25 Depth=1
                                        #     Parent Loop BB9_31 Depth=2
                                        #       Parent Loop BB9_46 Depth=3
                                        # =>      This Loop Header: Depth=4
                                        #           Child Loop BB9_61 Depth 5
                                        #           Child Loop BB9_63 Depth 5
                                        #           Child Loop BB9_65 Depth 5
                                        #           Child Loop BB9_67 Depth 5
	movq	%r10, %rdx
	andq	344(%rsp), %rdx                 # 8-byte Folded Reload
	movq	%r11, %r14
	andq	304(%rsp), %r14                 # 8-byte Folded Reload
	orq	%rdx, %r14
	movq	%rdi, %rbp
	andq	296(%rsp), %rbp                 # 8-byte Folded Reload
	orq	%r14, %rbp
	movq	%rsi, %r14
	andq	464(%rsp), %r14                 # 8-byte Folded Reload
	movl	$1, %edx
	orq	%rbp, %r14
	jne	.LBB9_69
# %bb.58:                               # %join.15.i.i.i.i.i.i.i
                                        #   in Loop: Header=BB9_57 Depth=4
	movq	%r11, %r14
	orq	%r10, %r14
	orq	%rdi, %r14
	orq	%rsi, %r14
	je	.LBB9_59
# %bb.60:                               # %join.18.i.i.i.i.i.i.i
                                        #   in Loop: Header=BB9_57 Depth=4
	pxor	%xmm1, %xmm1
	pxor	%xmm0, %xmm0
	testq	%r10, %r10
	je	.LBB9_62
	.p2align	4
.LBB9_61:                               # %join.5.i.i.i.i.i.i.i.i.i.i
                                        #   Parent Loop BB9_25 Depth=1
                                        #     Parent Loop BB9_31 Depth=2
                                        #       Parent Loop BB9_46 Depth=3
                                        #         Parent Loop BB9_57 Depth=4
                                        # =>        This Inner Loop Header: Depth=5
	movq	%r10, %r14
	rep		bsfq	%r10, %r10
	shll	$5, %r10d
	movdqu	(%r12,%r10), %xmm2
	por	%xmm2, %xmm1
	movdqu	16(%r12,%r10), %xmm2
	por	%xmm2, %xmm0
	leaq	-1(%r14), %r10
	andq	%r14, %r10
	jne	.LBB9_61
.LBB9_62:                               # %"words::join_word.exit.i.i.i.i.i.i.i.i.i"
                                        #   in Loop: Header=BB9_57 Depth=4
	testq	%r11, %r11
	je	.LBB9_64
	.p2align	4
.LBB9_63:                               # %join.5.i.1.i.i.i.i.i.i.i.i.i
                                        #   Parent Loop BB9_25 Depth=1
                                        #     Parent Loop BB9_31 Depth=2
                                        #       Parent Loop BB9_46 Depth=3
                                        #         Parent Loop BB9_57 Depth=4
                                        # =>        This Inner Loop Header: Depth=5
	movq	%r11, %r10
	rep		bsfq	%r11, %r11
	shll	$5, %r11d
	movdqu	2048(%r12,%r11), %xmm2
	por	%xmm2, %xmm1
	movdqu	2064(%r12,%r11), %xmm2
	por	%xmm2, %xmm0
	leaq	-1(%r10), %r11
	andq	%r10, %r11
	jne	.LBB9_63
.LBB9_64:                               # %"words::join_word.exit.1.i.i.i.i.i.i.i.i.i"
                                        #   in Loop: Header=BB9_57 Depth=4
	testq	%rdi, %rdi
	je	.LBB9_66
	.p2align	4
.LBB9_65:                               # %join.5.i.2.i.i.i.i.i.i.i.i.i
                                        #   Parent Loop BB9_25 Depth=1
                                        #     Parent Loop BB9_31 Depth=2
                                        #       Parent Loop BB9_46 Depth=3
                                        #         Parent Loop BB9_57 Depth=4
                                        # =>        This Inner Loop Header: Depth=5
	movq	%rdi, %r10
	rep		bsfq	%rdi, %rdi
	shll	$5, %edi
	movdqu	4096(%r12,%rdi), %xmm2
	por	%xmm2, %xmm1
	movdqu	4112(%r12,%rdi), %xmm2
	por	%xmm2, %xmm0
	leaq	-1(%r10), %rdi
	andq	%r10, %rdi
	jne	.LBB9_65
.LBB9_66:                               # %"words::join_word.exit.2.i.i.i.i.i.i.i.i.i"
                                        #   in Loop: Header=BB9_57 Depth=4
	testq	%rsi, %rsi
	je	.LBB9_68
	.p2align	4
.LBB9_67:                               # %join.5.i.3.i.i.i.i.i.i.i.i.i
                                        #   Parent Loop BB9_25 Depth=1
                                        #     Parent Loop BB9_31 Depth=2
                                        #       Parent Loop BB9_46 Depth=3
                                        #         Parent Loop BB9_57 Depth=4
                                        # =>        This Inner Loop Header: Depth=5
	movq	%rsi, %rdi
	rep		bsfq	%rsi, %rsi
	shll	$5, %esi
	movdqu	6144(%r12,%rsi), %xmm2
	por	%xmm2, %xmm1
	movdqu	6160(%r12,%rsi), %xmm2
	por	%xmm2, %xmm0
	leaq	-1(%rdi), %rsi
	andq	%rdi, %rsi
	jne	.LBB9_67
	jmp	.LBB9_68
.LBB9_69:                               #   in Loop: Header=BB9_46 Depth=3
	movl	84(%rsp), %ebp                  # 4-byte Reload
	movq	5520(%rsp), %r9
	movq	656(%rsp), %r13                 # 8-byte Reload
	movq	720(%rsp), %rdi                 # 8-byte Reload
	movq	704(%rsp), %r14                 # 8-byte Reload
	movq	112(%rsp), %r8                  # 8-byte Reload
	movq	256(%rsp), %r15                 # 8-byte Reload
	jmp	.LBB9_70
.LBB9_59:                               # %then.16.i.i.i.i.i.i.i
                                        #   in Loop: Header=BB9_46 Depth=3
	movq	%r15, 3376(%rsp)
	movq	%r13, 3384(%rsp)
	movq	%r9, 3392(%rsp)
	movq	%rax, 3400(%rsp)
	xorl	%edx, %edx
	movq	%r15, %rdi
	movq	%r13, %r14
	movq	%r9, %r8
	movq	%rax, %r15
	movl	84(%rsp), %ebp                  # 4-byte Reload
	movq	5520(%rsp), %r9
	movq	656(%rsp), %r13                 # 8-byte Reload
.LBB9_70:                               # %"outlook::open_sides.exit.i.i.i.i.i.i"
                                        #   in Loop: Header=BB9_46 Depth=3
	movq	160(%rsp), %rsi                 # 8-byte Reload
	addq	%rdx, %rsi
	cmpq	$2, %rsi
	ja	.LBB9_93
.LBB9_72:                               # %join.14.i.i.i.i.i.i
                                        #   in Loop: Header=BB9_46 Depth=3
	cmpq	$255, %rcx
	je	.LBB9_78
# %bb.73:                               # %join.5.preheader.i.i.i.i.i.i.i
                                        #   in Loop: Header=BB9_46 Depth=3
	incq	%rcx
	movq	%rcx, %rax
	shrq	$6, %rax
	andl	$63, %ecx
	movq	1328(%rsp,%rax,8), %rdx
	shrq	%cl, %rdx
	testq	%rdx, %rdx
	jne	.LBB9_77
	.p2align	4
.LBB9_74:                               # %join.8.peel.i65.i.i.i.i.i.i
                                        #   Parent Loop BB9_25 Depth=1
                                        #     Parent Loop BB9_31 Depth=2
                                        #       Parent Loop BB9_46 Depth=3
                                        # =>      This Inner Loop Header: Depth=4
	incq	%rax
	cmpq	$4, %rax
	je	.LBB9_78
# %bb.75:                               # %join.5.i66.i.i.i.i.i.i
                                        #   in Loop: Header=BB9_74 Depth=4
	movq	1328(%rsp,%rax,8), %rdx
	testq	%rdx, %rdx
	je	.LBB9_74
	jmp	.LBB9_76
.LBB9_48:                               # %join.11.i.us.i.i.i.i.i.preheader
                                        #   in Loop: Header=BB9_31 Depth=2
	xorl	%eax, %eax
	movq	%r14, %rdi
	movq	%rbp, %r14
	movl	84(%rsp), %ebp                  # 4-byte Reload
	movq	112(%rsp), %r8                  # 8-byte Reload
	movq	%r11, %r15
	jmp	.LBB9_49
.LBB9_119:                              # %then.1.i.i20.i.i.i.i.i.i.i.i
                                        #   in Loop: Header=BB9_31 Depth=2
	movl	%esi, %edi
	shll	$16, %edi
	movq	216(%rsp), %r8                  # 8-byte Reload
	addq	%r13, %r8
	addq	%r8, %rdi
	movq	%rdi, 8(%r9,%rax,8)
	leaq	2(%rax), %rdi
	cmpq	%r10, %rdi
	jae	.LBB9_122
.LBB9_121:                              # %then.1.i.i33.i.i.i.i.i.i.i.i
                                        #   in Loop: Header=BB9_31 Depth=2
	movq	%r13, %rdi
	shlq	$16, %rdi
	movzwl	%cx, %r8d
	addq	216(%rsp), %rdi                 # 8-byte Folded Reload
	orq	%r8, %rdi
	movq	%rdi, 16(%r9,%rax,8)
	leaq	3(%rax), %rdi
	cmpq	%r10, %rdi
	jae	.LBB9_124
.LBB9_123:                              # %then.1.i.i46.i.i.i.i.i.i.i.i
                                        #   in Loop: Header=BB9_31 Depth=2
	shll	$16, %edx
	movq	208(%rsp), %rdi                 # 8-byte Reload
	addq	%r13, %rdi
	addq	%rdi, %rdx
	movq	%rdx, 24(%r9,%rax,8)
	leaq	4(%rax), %rdx
	cmpq	%r10, %rdx
	jae	.LBB9_126
.LBB9_125:                              # %then.1.i.i59.i.i.i.i.i.i.i.i
                                        #   in Loop: Header=BB9_31 Depth=2
	movq	%r13, %rdx
	shlq	$16, %rdx
	addq	208(%rsp), %rdx                 # 8-byte Folded Reload
	orq	%rsi, %rdx
	movq	%rdx, 32(%r9,%rax,8)
	leaq	5(%rax), %rdx
	cmpq	%r10, %rdx
	jae	.LBB9_128
.LBB9_127:                              # %then.1.i.i72.i.i.i.i.i.i.i.i
                                        #   in Loop: Header=BB9_31 Depth=2
	shll	$16, %ecx
	movq	216(%rsp), %rdx                 # 8-byte Reload
	addq	%r13, %rdx
	addq	%rdx, %rcx
	movq	%rcx, 40(%r9,%rax,8)
	leaq	6(%rax), %r11
	testq	%rax, %rax
	je	.LBB9_136
.LBB9_129:                              # %join.5.i.i.i.i.i.i.i.i.preheader
                                        #   in Loop: Header=BB9_31 Depth=2
	leaq	-1(%rax), %rcx
	movq	%r11, %rdx
	jmp	.LBB9_130
	.p2align	4
.LBB9_135:                              # %"stores::store::<i64,21'core::clone::U64Clone{}>.exit.i.i.i.i.i.i.i.i"
                                        #   in Loop: Header=BB9_130 Depth=3
	incq	%rdx
	addq	$-1, %rcx
	jae	.LBB9_136
.LBB9_130:                              # %join.5.i.i.i.i.i.i.i.i
                                        #   Parent Loop BB9_25 Depth=1
                                        #     Parent Loop BB9_31 Depth=2
                                        # =>    This Inner Loop Header: Depth=3
	cmpq	%r10, %rcx
	jae	.LBB9_131
# %bb.132:                              # %then.1.i.i.i.i.i.i.i.i.i
                                        #   in Loop: Header=BB9_130 Depth=3
	movq	(%r9,%rcx,8), %rsi
	cmpq	%r10, %rdx
	jae	.LBB9_135
	jmp	.LBB9_134
	.p2align	4
.LBB9_131:                              #   in Loop: Header=BB9_130 Depth=3
	xorl	%esi, %esi
	cmpq	%r10, %rdx
	jae	.LBB9_135
.LBB9_134:                              # %then.1.i6.i.i.i.i.i.i.i.i
                                        #   in Loop: Header=BB9_130 Depth=3
	movq	%rsi, %rdi
	shrq	$32, %rdi
	movl	%edi, %r8d
	cmpq	%r14, %rdi
	cmoveq	104(%rsp), %rdi                 # 8-byte Folded Reload
	cmpl	%r8d, %ebp
	cmoveq	%r14, %rdi
	shlq	$32, %rdi
	movl	%esi, %r8d
	shll	$16, %r8d
	orq	%rdi, %r8
	shrl	$16, %esi
	orq	%r8, %rsi
	movq	%rsi, (%r9,%rdx,8)
	jmp	.LBB9_135
.LBB9_54:                               #   in Loop: Header=BB9_49 Depth=3
	xorl	%ecx, %ecx
.LBB9_55:                               # %"words::next_from.exit75.i.us.i.i.i.i.i"
                                        #   in Loop: Header=BB9_49 Depth=3
	shlq	$6, %rdx
	orq	%rcx, %rdx
	rep		bsfq	%rsi, %rcx
	addq	%rdx, %rcx
	cmpq	$256, %rcx                      # imm = 0x100
	jae	.LBB9_78
.LBB9_49:                               # %join.11.i.us.i.i.i.i.i
                                        #   Parent Loop BB9_25 Depth=1
                                        #     Parent Loop BB9_31 Depth=2
                                        # =>    This Loop Header: Depth=3
                                        #         Child Loop BB9_52 Depth 4
	movl	%ecx, %edx
	shrl	$3, %edx
	andl	$24, %edx
	movq	3376(%rsp,%rdx), %rdx
	btq	%rcx, %rdx
	sbbq	$-1, %rax
	cmpq	$2, %rax
	ja	.LBB9_93
# %bb.50:                               # %join.14.i.us.i.i.i.i.i
                                        #   in Loop: Header=BB9_49 Depth=3
	cmpq	$255, %rcx
	je	.LBB9_78
# %bb.51:                               # %join.5.preheader.i.i.us.i.i.i.i.i
                                        #   in Loop: Header=BB9_49 Depth=3
	incq	%rcx
	movq	%rcx, %rdx
	shrq	$6, %rdx
	andl	$63, %ecx
	movq	1328(%rsp,%rdx,8), %rsi
	shrq	%cl, %rsi
	testq	%rsi, %rsi
	jne	.LBB9_55
	.p2align	4
.LBB9_52:                               # %join.8.peel.i65.i.us.i.i.i.i.i
                                        #   Parent Loop BB9_25 Depth=1
                                        #     Parent Loop BB9_31 Depth=2
                                        #       Parent Loop BB9_49 Depth=3
                                        # =>      This Inner Loop Header: Depth=4
	incq	%rdx
	cmpq	$4, %rdx
	je	.LBB9_78
# %bb.53:                               # %join.5.i66.i.us.i.i.i.i.i
                                        #   in Loop: Header=BB9_52 Depth=4
	movq	1328(%rsp,%rdx,8), %rsi
	testq	%rsi, %rsi
	je	.LBB9_52
	jmp	.LBB9_54
.LBB9_43:                               #   in Loop: Header=BB9_31 Depth=2
	movq	5520(%rsp), %r9
	movq	%r14, %rdi
	movq	%rbp, %r14
	movl	84(%rsp), %ebp                  # 4-byte Reload
	movq	112(%rsp), %r8                  # 8-byte Reload
	movq	%r11, %r15
	.p2align	4
.LBB9_78:                               # %after.7.i.i.i.i.i.i
                                        #   in Loop: Header=BB9_31 Depth=2
	notq	%rdi
	notq	%r14
	movq	224(%rsp), %rax                 # 8-byte Reload
	andq	%rax, %r14
	notq	%r8
	movq	512(%rsp), %rcx                 # 8-byte Reload
	andq	%rcx, %r8
	notq	%r15
	movq	456(%rsp), %rsi                 # 8-byte Reload
	andq	%rsi, %r15
	movq	488(%rsp), %rdx                 # 8-byte Reload
	movq	%rdx, 816(%rsp)
	movq	%rax, 2352(%rsp)
	movq	%rcx, 1840(%rsp)
	movq	%rsi, 416(%rsp)
	leaq	816(%rsp), %rax
	movq	%rax, %rcx
	andq	%rdx, %rdi
	movq	%rdi, %rdx
	jne	.LBB9_85
# %bb.79:                               # %join.8.i.i.i.i.i.i.i.i
                                        #   in Loop: Header=BB9_31 Depth=2
	testq	%r14, %r14
	je	.LBB9_81
# %bb.80:                               #   in Loop: Header=BB9_31 Depth=2
	leaq	2352(%rsp), %rcx
	movq	%r14, %rdx
	jmp	.LBB9_85
.LBB9_81:                               # %join.8.1.i.i.i.i.i.i.i.i
                                        #   in Loop: Header=BB9_31 Depth=2
	testq	%r8, %r8
	je	.LBB9_83
# %bb.82:                               #   in Loop: Header=BB9_31 Depth=2
	leaq	1840(%rsp), %rcx
	movq	%r8, %rdx
	jmp	.LBB9_85
.LBB9_83:                               # %join.8.2.i.i.i.i.i.i.i.i
                                        #   in Loop: Header=BB9_31 Depth=2
	testq	%r15, %r15
	je	.LBB9_281
# %bb.84:                               #   in Loop: Header=BB9_31 Depth=2
	leaq	416(%rsp), %rcx
	movq	%r15, %rdx
	.p2align	4
.LBB9_85:                               # %"words::lowest_common.exit.i.i.i.i.i.i.i"
                                        #   in Loop: Header=BB9_31 Depth=2
	movq	%rdx, %rsi
	negq	%rsi
	andq	%rdx, %rsi
	notq	%rsi
	andq	%rsi, (%rcx)
	movq	816(%rsp), %rcx
	movq	%rcx, %rdx
	andq	%rdi, %rdx
	jne	.LBB9_92
# %bb.86:                               # %join.8.i18.i.i.i.i.i.i.i
                                        #   in Loop: Header=BB9_31 Depth=2
	movq	2352(%rsp), %rcx
	movq	%rcx, %rdx
	andq	%r14, %rdx
	je	.LBB9_88
# %bb.87:                               #   in Loop: Header=BB9_31 Depth=2
	leaq	2352(%rsp), %rax
	jmp	.LBB9_92
.LBB9_88:                               # %join.8.1.i25.i.i.i.i.i.i.i
                                        #   in Loop: Header=BB9_31 Depth=2
	movq	1840(%rsp), %rcx
	movq	%rcx, %rdx
	andq	%r8, %rdx
	je	.LBB9_90
# %bb.89:                               #   in Loop: Header=BB9_31 Depth=2
	leaq	1840(%rsp), %rax
	jmp	.LBB9_92
.LBB9_90:                               # %join.8.2.i32.i.i.i.i.i.i.i
                                        #   in Loop: Header=BB9_31 Depth=2
	movq	416(%rsp), %rcx
	movq	%rcx, %rdx
	andq	%r15, %rdx
	je	.LBB9_281
# %bb.91:                               #   in Loop: Header=BB9_31 Depth=2
	leaq	416(%rsp), %rax
	.p2align	4
.LBB9_92:                               # %"near::surely_fails.exit.i.i.i.i"
                                        #   in Loop: Header=BB9_31 Depth=2
	movq	%rdx, %rsi
	negq	%rsi
	andq	%rdx, %rsi
	notq	%rsi
	andq	%rcx, %rsi
	movq	%rsi, (%rax)
	andq	816(%rsp), %rdi
	andq	2352(%rsp), %r14
	orq	%rdi, %r14
	andq	1840(%rsp), %r8
	orq	%r14, %r8
	andq	416(%rsp), %r15
	orq	%r8, %r15
	movq	64(%rsp), %r14                  # 8-byte Reload
	je	.LBB9_151
.LBB9_93:                               # %join.6.i33.i.i.i
                                        #   in Loop: Header=BB9_31 Depth=2
	movq	280(%rsp), %rax                 # 8-byte Reload
	shll	$8, %eax
	addl	%r13d, %eax
	shrl	$3, %eax
	andl	$2097144, %eax                  # imm = 0x1FFFF8
	movq	288(%rsp), %rcx                 # 8-byte Reload
	testq	%rcx, (%r12,%rax)
	movq	5528(%rsp), %rax
	je	.LBB9_142
# %bb.94:                               # %then.4.i.i.i.i.i
                                        #   in Loop: Header=BB9_31 Depth=2
	movl	480(%rsp), %ecx                 # 4-byte Reload
	movw	%cx, 784(%rsp)
	movw	%r13w, 786(%rsp)
	pxor	%xmm0, %xmm0
	movdqa	%xmm0, 1840(%rsp)
	movq	$0, 1856(%rsp)
	cmpw	%r13w, 736(%rsp)                # 2-byte Folded Reload
	jne	.LBB9_141
# %bb.95:                               # %then.1.i.i.i.i.i.i
                                        #   in Loop: Header=BB9_31 Depth=2
	leaq	3376(%rsp), %rdi
	movl	$512, %edx                      # imm = 0x200
	xorl	%esi, %esi
	callq	memset@PLT
	leaq	1328(%rsp), %r14
	movl	$512, %edx                      # imm = 0x200
	movq	%r14, %rdi
	xorl	%esi, %esi
	callq	memset@PLT
	movq	5488(%rsp), %rcx
	testq	%rcx, %rcx
	je	.LBB9_97
# %bb.96:                               # %join.5.i.preheader.i55.i.i.i.i.i
                                        #   in Loop: Header=BB9_31 Depth=2
	leaq	3376(%rsp), %rdi
	movq	168(%rsp), %rsi                 # 8-byte Reload
	movq	320(%rsp), %rdx                 # 8-byte Reload
	callq	memcpy@PLT
	movq	5488(%rsp), %rcx
.LBB9_97:                               # %"attempts::copy.exit.i56.i.i.i.i.i"
                                        #   in Loop: Header=BB9_31 Depth=2
	cmpq	$0, 5504(%rsp)
	je	.LBB9_99
# %bb.98:                               # %join.5.i6.preheader.i58.i.i.i.i.i
                                        #   in Loop: Header=BB9_31 Depth=2
	leaq	1328(%rsp), %rdi
	movq	5496(%rsp), %rsi
	movq	312(%rsp), %rdx                 # 8-byte Reload
	callq	memcpy@PLT
	movq	5488(%rsp), %rcx
.LBB9_99:                               # %"attempts::copy.exit14.i59.i.i.i.i.i"
                                        #   in Loop: Header=BB9_31 Depth=2
	movq	448(%rsp), %rax                 # 8-byte Reload
	movq	%rax, 2352(%rsp)
	movq	632(%rsp), %rax                 # 8-byte Reload
	movq	%rax, 2360(%rsp)
	movq	264(%rsp), %rax                 # 8-byte Reload
	movq	%rax, 2368(%rsp)
	movq	624(%rsp), %rax                 # 8-byte Reload
	movq	%rax, 2376(%rsp)
	movq	520(%rsp), %rax                 # 8-byte Reload
	movl	%eax, 416(%rsp)
	movl	%ebp, 420(%rsp)
	movq	%r13, %r15
	movw	%r13w, 424(%rsp)
	movw	$0, 426(%rsp)
	pxor	%xmm0, %xmm0
	movdqa	%xmm0, 816(%rsp)
	movdqa	%xmm0, 832(%rsp)
	movq	104(%rsp), %rax                 # 8-byte Reload
	movzwl	3376(%rsp,%rax,2), %r8d
	movq	5528(%rsp), %r13
	movq	%r13, 40(%rsp)
	movq	5520(%rsp), %rax
	movq	%rax, 32(%rsp)
	leaq	2352(%rsp), %rax
	movq	%rax, 24(%rsp)
	movq	5504(%rsp), %rax
	movq	%rax, 16(%rsp)
	movq	%r14, 8(%rsp)
	movq	%rcx, (%rsp)
	leaq	816(%rsp), %rdi
	leaq	416(%rsp), %rcx
	leaq	3376(%rsp), %r9
	movq	%r12, %rsi
	movq	176(%rsp), %rdx                 # 8-byte Reload
	callq	"clear_on::clear_two"
	cmpb	$1, 816(%rsp)
	jne	.LBB9_38
# %bb.100:                              # %arm.1.i.i84.i.i.i.i.i
                                        #   in Loop: Header=BB9_31 Depth=2
	movq	832(%rsp), %rax
	movzwl	826(%rsp), %esi
	movl	824(%rsp), %ecx
	cmpw	%cx, %si
	movl	%ecx, %edx
	cmovbl	%esi, %edx
	cmoval	%esi, %ecx
	cmpq	%r13, %rax
	movq	64(%rsp), %r14                  # 8-byte Reload
	movq	5520(%rsp), %r9
	movq	%r13, %r10
	movq	%r15, %r13
	jae	.LBB9_102
# %bb.101:                              # %then.1.i.i.i16.i.i200.i.i.i.i.i
                                        #   in Loop: Header=BB9_31 Depth=2
	movq	%r13, %rsi
	shlq	$16, %rsi
	movzwl	%dx, %edi
	addq	216(%rsp), %rsi                 # 8-byte Folded Reload
	orq	%rdi, %rsi
	movq	%rsi, (%r9,%rax,8)
.LBB9_102:                              # %"exchange::note.exit.i.i.i101.i.i.i.i.i"
                                        #   in Loop: Header=BB9_31 Depth=2
	movq	104(%rsp), %rsi                 # 8-byte Reload
	movzwl	3376(%rsp,%rsi,2), %esi
	leaq	1(%rax), %rdi
	cmpq	%r10, %rdi
	jb	.LBB9_103
# %bb.104:                              # %"exchange::note.exit30.i.i.i104.i.i.i.i.i"
                                        #   in Loop: Header=BB9_31 Depth=2
	leaq	2(%rax), %rdi
	cmpq	%r10, %rdi
	jb	.LBB9_105
.LBB9_106:                              # %"exchange::note.exit43.i.i.i107.i.i.i.i.i"
                                        #   in Loop: Header=BB9_31 Depth=2
	leaq	3(%rax), %rdi
	cmpq	%r10, %rdi
	jb	.LBB9_107
.LBB9_108:                              # %"exchange::note.exit56.i.i.i110.i.i.i.i.i"
                                        #   in Loop: Header=BB9_31 Depth=2
	leaq	4(%rax), %rdx
	cmpq	%r10, %rdx
	jb	.LBB9_109
.LBB9_110:                              # %"exchange::note.exit69.i.i.i113.i.i.i.i.i"
                                        #   in Loop: Header=BB9_31 Depth=2
	leaq	5(%rax), %rdx
	cmpq	%r10, %rdx
	jb	.LBB9_111
.LBB9_112:                              # %"exchange::exchange.exit.i.i116.i.i.i.i.i"
                                        #   in Loop: Header=BB9_31 Depth=2
	leaq	6(%rax), %r11
	testq	%rax, %rax
	jne	.LBB9_113
	jmp	.LBB9_136
.LBB9_38:                               # %"trial::set_up.exit.i.i.i.i.i.i.i"
                                        #   in Loop: Header=BB9_31 Depth=2
	xorl	%eax, %eax
	xorl	%r11d, %r11d
	xorl	%ecx, %ecx
	movq	64(%rsp), %r14                  # 8-byte Reload
	movq	%r15, %r13
	jmp	.LBB9_150
.LBB9_142:                              # %join.6.i.i.i.i.i
                                        #   in Loop: Header=BB9_31 Depth=2
	pxor	%xmm0, %xmm0
	movdqa	%xmm0, 1328(%rsp)
	movdqa	%xmm0, 1344(%rsp)
	leaq	3376(%rsp), %r14
	movl	$512, %edx                      # imm = 0x200
	movq	%r14, %rdi
	xorl	%esi, %esi
	callq	memset@PLT
	leaq	1328(%rsp), %rdx
	movq	%r12, %rdi
	movq	5504(%rsp), %rsi
	movl	480(%rsp), %ecx                 # 4-byte Reload
	movl	%r13d, %r8d
	movq	%r14, %r9
	callq	"ways::path_between"
	cmpb	$1, %al
	jne	.LBB9_143
# %bb.144:                              # %arm.5.i.i.i.i.i.i
                                        #   in Loop: Header=BB9_31 Depth=2
	movq	%rdx, %r8
	pxor	%xmm0, %xmm0
	movdqa	%xmm0, 816(%rsp)
	movq	$0, 832(%rsp)
	cmpq	$2, %rdx
	movq	5520(%rsp), %rax
	jb	.LBB9_147
# %bb.145:                              # %arm.5.i.i.i.i.i.i
                                        #   in Loop: Header=BB9_31 Depth=2
	movl	736(%rsp), %ecx                 # 4-byte Reload
	cmpw	%cx, 3378(%rsp)
	jne	.LBB9_147
# %bb.146:                              # %then.1.i.i.i.i.i.i.i
                                        #   in Loop: Header=BB9_31 Depth=2
	movq	680(%rsp), %rcx                 # 8-byte Reload
	movq	%rcx, 2352(%rsp)
	movw	%r13w, 2360(%rsp)
	movw	$0, 2362(%rsp)
	addq	$-2, %r8
	movq	5528(%rsp), %rcx
	movq	%rcx, 48(%rsp)
	movq	%rax, 40(%rsp)
	movq	5512(%rsp), %rax
	movq	%rax, 32(%rsp)
	movq	5504(%rsp), %rax
	movq	%rax, 24(%rsp)
	movq	5496(%rsp), %rax
	movq	%rax, 16(%rsp)
	movq	5488(%rsp), %rax
	movq	%rax, 8(%rsp)
	movq	168(%rsp), %rax                 # 8-byte Reload
	movq	%rax, (%rsp)
	leaq	816(%rsp), %rdi
	leaq	2352(%rsp), %r9
	movq	%r12, %rsi
	movq	176(%rsp), %rdx                 # 8-byte Reload
	leaq	3380(%rsp), %rcx
	jmp	.LBB9_148
.LBB9_141:                              # %join.3.i.i.i.i.i.i
                                        #   in Loop: Header=BB9_31 Depth=2
	movq	248(%rsp), %rcx                 # 8-byte Reload
	movq	%rcx, 384(%rsp)
	movw	%r13w, 392(%rsp)
	movw	$0, 394(%rsp)
	movq	%rax, 48(%rsp)
	movq	%r9, 40(%rsp)
	movq	5512(%rsp), %rax
	movq	%rax, 32(%rsp)
	movq	5504(%rsp), %rax
	movq	%rax, 24(%rsp)
	movq	5496(%rsp), %rax
	movq	%rax, 16(%rsp)
	movq	5488(%rsp), %rax
	movq	%rax, 8(%rsp)
	movq	168(%rsp), %rax                 # 8-byte Reload
	movq	%rax, (%rsp)
	leaq	1840(%rsp), %rdi
	leaq	384(%rsp), %r9
	movl	$1, %r8d
	movq	%r12, %rsi
	movq	176(%rsp), %rdx                 # 8-byte Reload
	leaq	786(%rsp), %rcx
	callq	"trial::attempt"
	movq	1848(%rsp), %r11
	movq	1856(%rsp), %rcx
	movzbl	1840(%rsp), %eax
	jmp	.LBB9_149
.LBB9_143:                              #   in Loop: Header=BB9_31 Depth=2
	xorl	%ecx, %ecx
	xorl	%eax, %eax
	movq	64(%rsp), %r14                  # 8-byte Reload
	xorl	%r11d, %r11d
	jmp	.LBB9_150
.LBB9_147:                              # %join.3.i.i.i.i.i.i.i
                                        #   in Loop: Header=BB9_31 Depth=2
	movq	248(%rsp), %rcx                 # 8-byte Reload
	movq	%rcx, 2352(%rsp)
	movw	%r13w, 2360(%rsp)
	movw	$0, 2362(%rsp)
	decq	%r8
	movq	5528(%rsp), %rcx
	movq	%rcx, 48(%rsp)
	movq	%rax, 40(%rsp)
	movq	5512(%rsp), %rax
	movq	%rax, 32(%rsp)
	movq	5504(%rsp), %rax
	movq	%rax, 24(%rsp)
	movq	5496(%rsp), %rax
	movq	%rax, 16(%rsp)
	movq	5488(%rsp), %rax
	movq	%rax, 8(%rsp)
	movq	168(%rsp), %rax                 # 8-byte Reload
	movq	%rax, (%rsp)
	leaq	816(%rsp), %rdi
	leaq	2352(%rsp), %r9
	movq	%r12, %rsi
	movq	176(%rsp), %rdx                 # 8-byte Reload
	leaq	3378(%rsp), %rcx
.LBB9_148:                              # %"trial::try_on.exit.i.i.i.i.i.i"
                                        #   in Loop: Header=BB9_31 Depth=2
	callq	"trial::attempt"
	movq	824(%rsp), %r11
	movq	832(%rsp), %rcx
	movzbl	816(%rsp), %eax
.LBB9_149:                              # %"near::try_junction.exit.i.i.i"
                                        #   in Loop: Header=BB9_31 Depth=2
	movq	64(%rsp), %r14                  # 8-byte Reload
	jmp	.LBB9_150
.LBB9_103:                              # %then.1.i.i20.i.i.i191.i.i.i.i.i
                                        #   in Loop: Header=BB9_31 Depth=2
	movl	%esi, %edi
	shll	$16, %edi
	movq	208(%rsp), %r8                  # 8-byte Reload
	addq	%r13, %r8
	addq	%r8, %rdi
	movq	%rdi, 8(%r9,%rax,8)
	leaq	2(%rax), %rdi
	cmpq	%r10, %rdi
	jae	.LBB9_106
.LBB9_105:                              # %then.1.i.i33.i.i.i182.i.i.i.i.i
                                        #   in Loop: Header=BB9_31 Depth=2
	movq	%r13, %rdi
	shlq	$16, %rdi
	addq	208(%rsp), %rdi                 # 8-byte Folded Reload
	movzwl	%cx, %r8d
	orq	%rdi, %r8
	movq	%r8, 16(%r9,%rax,8)
	leaq	3(%rax), %rdi
	cmpq	%r10, %rdi
	jae	.LBB9_108
.LBB9_107:                              # %then.1.i.i46.i.i.i172.i.i.i.i.i
                                        #   in Loop: Header=BB9_31 Depth=2
	shll	$16, %edx
	movq	216(%rsp), %rdi                 # 8-byte Reload
	addq	%r13, %rdi
	addq	%rdi, %rdx
	movq	%rdx, 24(%r9,%rax,8)
	leaq	4(%rax), %rdx
	cmpq	%r10, %rdx
	jae	.LBB9_110
.LBB9_109:                              # %then.1.i.i59.i.i.i162.i.i.i.i.i
                                        #   in Loop: Header=BB9_31 Depth=2
	movq	%r13, %rdx
	shlq	$16, %rdx
	addq	216(%rsp), %rdx                 # 8-byte Folded Reload
	orq	%rsi, %rdx
	movq	%rdx, 32(%r9,%rax,8)
	leaq	5(%rax), %rdx
	cmpq	%r10, %rdx
	jae	.LBB9_112
.LBB9_111:                              # %then.1.i.i72.i.i.i153.i.i.i.i.i
                                        #   in Loop: Header=BB9_31 Depth=2
	shll	$16, %ecx
	movq	208(%rsp), %rdx                 # 8-byte Reload
	addq	%r13, %rdx
	addq	%rdx, %rcx
	movq	%rcx, 40(%r9,%rax,8)
	leaq	6(%rax), %r11
	testq	%rax, %rax
	je	.LBB9_136
.LBB9_113:                              # %join.5.i.i.i119.i.i.i.i.i.preheader
                                        #   in Loop: Header=BB9_31 Depth=2
	leaq	-1(%rax), %rcx
	movq	%r11, %rdx
	jmp	.LBB9_114
	.p2align	4
.LBB9_140:                              # %"stores::store::<i64,21'core::clone::U64Clone{}>.exit.i.i.i127.i.i.i.i.i"
                                        #   in Loop: Header=BB9_114 Depth=3
	incq	%rdx
	addq	$-1, %rcx
	jae	.LBB9_136
.LBB9_114:                              # %join.5.i.i.i119.i.i.i.i.i
                                        #   Parent Loop BB9_25 Depth=1
                                        #     Parent Loop BB9_31 Depth=2
                                        # =>    This Inner Loop Header: Depth=3
	cmpq	%r10, %rcx
	jae	.LBB9_115
# %bb.137:                              # %then.1.i.i.i.i149.i.i.i.i.i
                                        #   in Loop: Header=BB9_114 Depth=3
	movq	(%r9,%rcx,8), %rsi
	cmpq	%r10, %rdx
	jae	.LBB9_140
	jmp	.LBB9_139
	.p2align	4
.LBB9_115:                              #   in Loop: Header=BB9_114 Depth=3
	xorl	%esi, %esi
	cmpq	%r10, %rdx
	jae	.LBB9_140
.LBB9_139:                              # %then.1.i6.i.i.i132.i.i.i.i.i
                                        #   in Loop: Header=BB9_114 Depth=3
	movq	%rsi, %rdi
	shrq	$32, %rdi
	cmpl	%edi, %ebp
	movq	%rdi, %r8
	cmoveq	%r14, %r8
	cmpq	%r14, %rdi
	cmoveq	104(%rsp), %r8                  # 8-byte Folded Reload
	shlq	$32, %r8
	movl	%esi, %edi
	shll	$16, %edi
	orq	%r8, %rdi
	shrl	$16, %esi
	orq	%rdi, %rsi
	movq	%rsi, (%r9,%rdx,8)
	jmp	.LBB9_140
.LBB9_136:                              # %"undo::undo.exit.i.i.i.i.i.i.i"
                                        #   in Loop: Header=BB9_31 Depth=2
	movq	840(%rsp), %rcx
	addq	%rax, %r11
	movb	$1, %al
.LBB9_150:                              # %"near::try_junction.exit.i.i.i"
                                        #   in Loop: Header=BB9_31 Depth=2
	cmpb	$1, %al
	je	.LBB9_282
.LBB9_151:                              # %join.21.i.i.i
                                        #   in Loop: Header=BB9_31 Depth=2
	cmpq	$255, %r13
	je	.LBB9_157
.LBB9_152:                              # %join.5.preheader.i.i.i.i
                                        #   in Loop: Header=BB9_31 Depth=2
	incq	%r13
	movq	%r13, %rax
	shrq	$6, %rax
	andl	$63, %r13d
	movq	2864(%rsp,%rax,8), %rdx
	movl	%r13d, %ecx
	shrq	%cl, %rdx
	testq	%rdx, %rdx
	jne	.LBB9_156
	.p2align	4
.LBB9_153:                              # %join.8.peel.i44.i.i.i
                                        #   Parent Loop BB9_25 Depth=1
                                        #     Parent Loop BB9_31 Depth=2
                                        # =>    This Inner Loop Header: Depth=3
	incq	%rax
	cmpq	$4, %rax
	je	.LBB9_157
# %bb.154:                              # %join.5.i45.i.i.i
                                        #   in Loop: Header=BB9_153 Depth=3
	movq	2864(%rsp,%rax,8), %rdx
	testq	%rdx, %rdx
	je	.LBB9_153
	jmp	.LBB9_155
.LBB9_281:                              # %"near::surely_fails.exit.thread52.i.i.i.i"
                                        #   in Loop: Header=BB9_31 Depth=2
	movq	64(%rsp), %r14                  # 8-byte Reload
	cmpq	$255, %r13
	jne	.LBB9_152
	.p2align	4
.LBB9_157:                              # %after.13.i.i.i
                                        #   in Loop: Header=BB9_25 Depth=1
	pxor	%xmm0, %xmm0
	pxor	%xmm1, %xmm1
	testq	%rbx, %rbx
	je	.LBB9_159
	.p2align	4
.LBB9_158:                              # %join.5.i.i.i.i.i.i
                                        #   Parent Loop BB9_25 Depth=1
                                        # =>  This Inner Loop Header: Depth=2
	movq	%rbx, %rax
	rep		bsfq	%rbx, %rcx
	shll	$5, %ecx
	movdqu	(%r12,%rcx), %xmm2
	por	%xmm2, %xmm0
	movdqu	16(%r12,%rcx), %xmm2
	por	%xmm2, %xmm1
	decq	%rbx
	andq	%rax, %rbx
	jne	.LBB9_158
.LBB9_159:                              # %"words::join_word.exit.i.i.i.i.i"
                                        #   in Loop: Header=BB9_25 Depth=1
	movq	336(%rsp), %rcx                 # 8-byte Reload
	testq	%rcx, %rcx
	movq	328(%rsp), %rsi                 # 8-byte Reload
	je	.LBB9_160
# %bb.161:                              # %join.5.i.1.i.i.i.i.i.preheader
                                        #   in Loop: Header=BB9_25 Depth=1
	movq	688(%rsp), %rdx                 # 8-byte Reload
	.p2align	4
.LBB9_162:                              # %join.5.i.1.i.i.i.i.i
                                        #   Parent Loop BB9_25 Depth=1
                                        # =>  This Inner Loop Header: Depth=2
	movq	%rcx, %rax
	rep		bsfq	%rcx, %rcx
	shll	$5, %ecx
	movdqu	2048(%r12,%rcx), %xmm2
	por	%xmm2, %xmm0
	movdqu	2064(%r12,%rcx), %xmm2
	por	%xmm2, %xmm1
	leaq	-1(%rax), %rcx
	andq	%rax, %rcx
	jne	.LBB9_162
# %bb.163:                              # %"words::join_word.exit.1.i.i.i.i.i"
                                        #   in Loop: Header=BB9_25 Depth=1
	testq	%rsi, %rsi
	je	.LBB9_165
	.p2align	4
.LBB9_164:                              # %join.5.i.2.i.i.i.i.i
                                        #   Parent Loop BB9_25 Depth=1
                                        # =>  This Inner Loop Header: Depth=2
	movq	%rsi, %rax
	rep		bsfq	%rsi, %rcx
	shll	$5, %ecx
	movdqu	4096(%r12,%rcx), %xmm2
	por	%xmm2, %xmm0
	movdqu	4112(%r12,%rcx), %xmm2
	por	%xmm2, %xmm1
	decq	%rsi
	andq	%rax, %rsi
	jne	.LBB9_164
.LBB9_165:                              # %"words::join_word.exit.2.i.i.i.i.i"
                                        #   in Loop: Header=BB9_25 Depth=1
	movq	504(%rsp), %rcx                 # 8-byte Reload
	testq	%rcx, %rcx
	je	.LBB9_167
	.p2align	4
.LBB9_166:                              # %join.5.i.3.i.i.i.i.i
                                        #   Parent Loop BB9_25 Depth=1
                                        # =>  This Inner Loop Header: Depth=2
	movq	%rcx, %rax
	rep		bsfq	%rcx, %rcx
	shll	$5, %ecx
	movdqu	6144(%r12,%rcx), %xmm2
	por	%xmm2, %xmm0
	movdqu	6160(%r12,%rcx), %xmm2
	por	%xmm2, %xmm1
	leaq	-1(%rax), %rcx
	andq	%rax, %rcx
	jne	.LBB9_166
	jmp	.LBB9_167
.LBB9_160:                              #   in Loop: Header=BB9_25 Depth=1
	movq	688(%rsp), %rdx                 # 8-byte Reload
	testq	%rsi, %rsi
	jne	.LBB9_164
	jmp	.LBB9_165
.LBB9_282:                              # %"seek::seek.exit.thread.i"
	movq	616(%rsp), %r8                  # 8-byte Reload
	jmp	.LBB9_279
.LBB9_168:                              # %arm.2.loopexit.i.i
	movq	168(%rsp), %rax                 # 8-byte Reload
	movq	104(%rsp), %rcx                 # 8-byte Reload
	movzwl	(%rax,%rcx,2), %r13d
	movl	%r13d, %r14d
	shrl	$6, %r14d
	movl	$1, %r15d
	movl	%r13d, %ecx
	shlq	%cl, %r15
.LBB9_169:                              # %arm.2.i.i
	movl	$0, 184(%rsp)
	movw	$0, 188(%rsp)
	movl	$0, 152(%rsp)
	movw	$0, 156(%rsp)
	movl	$0, 192(%rsp)
	movl	$0, 195(%rsp)
	leaq	2354(%rsp), %rdi
	xorl	%ebx, %ebx
	movl	$510, %edx                      # imm = 0x1FE
	xorl	%esi, %esi
	callq	memset@PLT
	leaq	2864(%rsp), %rdi
	movl	$512, %edx                      # imm = 0x200
	xorl	%esi, %esi
	callq	memset@PLT
	leaq	1842(%rsp), %rdi
	movl	$510, %edx                      # imm = 0x1FE
	xorl	%esi, %esi
	callq	memset@PLT
	leaq	3376(%rsp), %rdi
	movl	$2048, %edx                     # imm = 0x800
	xorl	%esi, %esi
	callq	memset@PLT
	movl	$0, 96(%rsp)
	movw	$0, 100(%rsp)
	movl	$0, 88(%rsp)
	movw	$0, 92(%rsp)
	movl	$0, 200(%rsp)
	movl	$0, 203(%rsp)
	testq	%r14, %r14
	movl	$0, %r10d
	cmoveq	%r15, %r10
	cmpq	$1, %r14
	movl	$0, %r8d
	cmoveq	%r15, %r8
	cmpq	$2, %r14
	movl	$0, %r11d
	cmoveq	%r15, %r11
	cmpq	$3, %r14
	cmoveq	%r15, %rbx
	movq	%r10, 752(%rsp)
	movq	%r8, 760(%rsp)
	movq	%r11, 768(%rsp)
	movq	%rbx, 776(%rsp)
	movw	%r13w, 2352(%rsp)
	cmpq	$0, 5504(%rsp)
	je	.LBB9_277
# %bb.170:                              # %join.17.lr.ph.i.i.i
	movq	64(%rsp), %rcx                  # 8-byte Reload
	shlq	$32, %rcx
	addq	104(%rsp), %rcx                 # 8-byte Folded Reload
	movq	5488(%rsp), %rax
	addq	%rax, %rax
	movq	%rax, 288(%rsp)                 # 8-byte Spill
	movq	%rcx, 480(%rsp)                 # 8-byte Spill
	rolq	$32, %rcx
	movq	%rcx, 680(%rsp)                 # 8-byte Spill
	movq	5504(%rsp), %rax
	addq	%rax, %rax
	movq	%rax, 264(%rsp)                 # 8-byte Spill
	pxor	%xmm0, %xmm0
	movdqa	%xmm0, 736(%rsp)                # 16-byte Spill
	movl	$256, %eax                      # imm = 0x100
	movq	%rax, 216(%rsp)                 # 8-byte Spill
	movl	$1, %r14d
	leaq	1840(%rsp), %rax
	movq	%rax, 504(%rsp)                 # 8-byte Spill
	movq	$0, 336(%rsp)                   # 8-byte Folded Spill
	movq	$0, 512(%rsp)                   # 8-byte Folded Spill
	movq	%r10, 296(%rsp)                 # 8-byte Spill
	movq	%r8, 304(%rsp)                  # 8-byte Spill
	movdqa	%xmm0, 656(%rsp)                # 16-byte Spill
	movdqa	%xmm0, 720(%rsp)                # 16-byte Spill
	movdqa	%xmm0, 704(%rsp)                # 16-byte Spill
	movq	%r11, 464(%rsp)                 # 8-byte Spill
	movq	%rbx, 344(%rsp)                 # 8-byte Spill
	xorl	%r15d, %r15d
	xorl	%r13d, %r13d
	movq	$0, 224(%rsp)                   # 8-byte Folded Spill
	movq	$0, 496(%rsp)                   # 8-byte Folded Spill
	movq	$0, 456(%rsp)                   # 8-byte Folded Spill
	movq	$0, 488(%rsp)                   # 8-byte Folded Spill
	movq	$0, 448(%rsp)                   # 8-byte Folded Spill
	movq	$0, 320(%rsp)                   # 8-byte Folded Spill
	movl	$256, %eax                      # imm = 0x100
	movq	%rax, 208(%rsp)                 # 8-byte Spill
	movq	$0, 312(%rsp)                   # 8-byte Folded Spill
	.p2align	4
.LBB9_171:                              # %join.17.i25.i.i
                                        # =>This Loop Header: Depth=1
                                        #     Child Loop BB9_178 Depth 2
                                        #       Child Loop BB9_183 Depth 3
                                        #       Child Loop BB9_186 Depth 3
                                        #       Child Loop BB9_189 Depth 3
                                        #       Child Loop BB9_233 Depth 3
                                        #       Child Loop BB9_206 Depth 3
                                        #       Child Loop BB9_256 Depth 3
                                        #     Child Loop BB9_262 Depth 2
                                        #       Child Loop BB9_263 Depth 3
                                        #       Child Loop BB9_266 Depth 3
                                        #       Child Loop BB9_269 Depth 3
                                        #       Child Loop BB9_272 Depth 3
	movq	%r13, 112(%rsp)                 # 8-byte Spill
	cmpq	688(%rsp), %r13                 # 8-byte Folded Reload
	jae	.LBB9_172
.LBB9_260:                              # %after.18.i.i.i
                                        #   in Loop: Header=BB9_171 Depth=1
	movq	296(%rsp), %rdi                 # 8-byte Reload
	movq	304(%rsp), %rsi                 # 8-byte Reload
	movq	464(%rsp), %rdx                 # 8-byte Reload
	movq	344(%rsp), %rcx                 # 8-byte Reload
	movq	%r14, %r9
	cmpq	%r14, %r15
	jae	.LBB9_275
# %bb.261:                              # %join.5.i.i.i.i.i.preheader
                                        #   in Loop: Header=BB9_171 Depth=1
	movq	344(%rsp), %rcx                 # 8-byte Reload
	movq	464(%rsp), %rdx                 # 8-byte Reload
	movq	304(%rsp), %rsi                 # 8-byte Reload
	movq	296(%rsp), %rdi                 # 8-byte Reload
	movq	%r14, %r9
	jmp	.LBB9_262
	.p2align	4
.LBB9_274:                              # %"queue::meet.exit.i.i.i.i.i"
                                        #   in Loop: Header=BB9_262 Depth=2
	incq	%r15
	movq	%rax, %r14
	cmpq	%rax, %r15
	je	.LBB9_275
.LBB9_262:                              # %join.5.i.i.i.i.i
                                        #   Parent Loop BB9_171 Depth=1
                                        # =>  This Loop Header: Depth=2
                                        #       Child Loop BB9_263 Depth 3
                                        #       Child Loop BB9_266 Depth 3
                                        #       Child Loop BB9_269 Depth 3
                                        #       Child Loop BB9_272 Depth 3
	movq	%r14, %rax
	movzwl	2352(%rsp,%r15,2), %r10d
	movl	%r10d, %r8d
	shll	$5, %r10d
	movq	(%r12,%r10), %r11
	movq	%rdi, %rbx
	notq	%rbx
	andq	%r11, %rbx
	je	.LBB9_265
	.p2align	4
.LBB9_263:                              # %join.5.i.i.i.i.i.i52.i.i
                                        #   Parent Loop BB9_171 Depth=1
                                        #     Parent Loop BB9_262 Depth=2
                                        # =>    This Inner Loop Header: Depth=3
	movq	%rbx, %r14
	rep		bsfq	%rbx, %r13
	decq	%rbx
	movw	%r13w, 2352(%rsp,%r9,2)
	incq	%r9
	movw	%r8w, 2864(%rsp,%r13,2)
	andq	%r14, %rbx
	jne	.LBB9_263
# %bb.264:                              # %"queue::meet_word.exit.i.i.i.loopexit.i.i.i"
                                        #   in Loop: Header=BB9_262 Depth=2
	orq	%r11, %rdi
.LBB9_265:                              # %"queue::meet_word.exit.i.i.i.i.i.i"
                                        #   in Loop: Header=BB9_262 Depth=2
	movq	8(%r12,%r10), %r11
	movq	%rsi, %rbx
	notq	%rbx
	andq	%r11, %rbx
	je	.LBB9_268
	.p2align	4
.LBB9_266:                              # %join.5.i.i.1.i.i.i.i.i.i
                                        #   Parent Loop BB9_171 Depth=1
                                        #     Parent Loop BB9_262 Depth=2
                                        # =>    This Inner Loop Header: Depth=3
	movq	%rbx, %r14
	rep		bsfq	%rbx, %rbx
	movw	%r8w, 2992(%rsp,%rbx,2)
	movq	%rbx, %r13
	orq	$64, %r13
	leaq	-1(%r14), %rbx
	movw	%r13w, 2352(%rsp,%r9,2)
	incq	%r9
	andq	%r14, %rbx
	jne	.LBB9_266
# %bb.267:                              # %"queue::meet_word.exit.1.i.i.i.loopexit.i.i.i"
                                        #   in Loop: Header=BB9_262 Depth=2
	orq	%r11, %rsi
.LBB9_268:                              # %"queue::meet_word.exit.1.i.i.i.i.i.i"
                                        #   in Loop: Header=BB9_262 Depth=2
	movq	16(%r12,%r10), %r11
	movq	%rdx, %rbx
	notq	%rbx
	andq	%r11, %rbx
	je	.LBB9_271
	.p2align	4
.LBB9_269:                              # %join.5.i.i.2.i.i.i.i.i.i
                                        #   Parent Loop BB9_171 Depth=1
                                        #     Parent Loop BB9_262 Depth=2
                                        # =>    This Inner Loop Header: Depth=3
	movq	%rbx, %r14
	rep		bsfq	%rbx, %r13
	leaq	128(%r13), %rbp
	decq	%rbx
	movw	%bp, 2352(%rsp,%r9,2)
	incq	%r9
	movw	%r8w, 3120(%rsp,%r13,2)
	andq	%r14, %rbx
	jne	.LBB9_269
# %bb.270:                              # %"queue::meet_word.exit.2.i.i.i.loopexit.i.i.i"
                                        #   in Loop: Header=BB9_262 Depth=2
	orq	%r11, %rdx
.LBB9_271:                              # %"queue::meet_word.exit.2.i.i.i.i.i.i"
                                        #   in Loop: Header=BB9_262 Depth=2
	movq	24(%r12,%r10), %r10
	movq	%rcx, %r11
	notq	%r11
	andq	%r10, %r11
	je	.LBB9_274
	.p2align	4
.LBB9_272:                              # %join.5.i.i.3.i.i.i.i.i.i
                                        #   Parent Loop BB9_171 Depth=1
                                        #     Parent Loop BB9_262 Depth=2
                                        # =>    This Inner Loop Header: Depth=3
	movq	%r11, %rbx
	rep		bsfq	%r11, %r11
	movw	%r8w, 3248(%rsp,%r11,2)
	movq	%r11, %r14
	orq	$192, %r14
	leaq	-1(%rbx), %r11
	movw	%r14w, 2352(%rsp,%r9,2)
	incq	%r9
	andq	%rbx, %r11
	jne	.LBB9_272
# %bb.273:                              # %"queue::meet.exit.i.i.loopexit.i.i.i"
                                        #   in Loop: Header=BB9_262 Depth=2
	orq	%r10, %rcx
	jmp	.LBB9_274
	.p2align	4
.LBB9_275:                              # %"rounds::next_ring.exit.i.i.i"
                                        #   in Loop: Header=BB9_171 Depth=1
	movq	296(%rsp), %r10                 # 8-byte Reload
	notq	%r10
	andq	%rdi, %r10
	movq	%r10, 752(%rsp)
	movq	304(%rsp), %r8                  # 8-byte Reload
	notq	%r8
	andq	%rsi, %r8
	movq	%r8, 760(%rsp)
	movq	464(%rsp), %r11                 # 8-byte Reload
	notq	%r11
	andq	%rdx, %r11
	movq	%r11, 768(%rsp)
	movq	344(%rsp), %rbx                 # 8-byte Reload
	notq	%rbx
	andq	%rcx, %rbx
	movq	%rbx, 776(%rsp)
	cmpq	%r14, %r9
	movq	112(%rsp), %r13                 # 8-byte Reload
	je	.LBB9_277
# %bb.276:                              # %"rounds::next_ring.exit.i.i.i"
                                        #   in Loop: Header=BB9_171 Depth=1
	incq	%r13
	addq	$2, 504(%rsp)                   # 8-byte Folded Spill
	decq	512(%rsp)                       # 8-byte Folded Spill
	movq	336(%rsp), %rax                 # 8-byte Reload
	incb	%al
	movq	%rax, 336(%rsp)                 # 8-byte Spill
	movq	%rdi, 296(%rsp)                 # 8-byte Spill
	movq	%rsi, 304(%rsp)                 # 8-byte Spill
	movq	%rdx, 464(%rsp)                 # 8-byte Spill
	movq	%rcx, 344(%rsp)                 # 8-byte Spill
	movq	%r14, %r15
	movq	%r9, %r14
	cmpq	5504(%rsp), %r13
	jne	.LBB9_171
	jmp	.LBB9_277
.LBB9_172:                              # %join.3.i.i28.i.i
                                        #   in Loop: Header=BB9_171 Depth=1
	testq	%r10, %r10
	movq	5520(%rsp), %r9
	je	.LBB9_174
# %bb.173:                              #   in Loop: Header=BB9_171 Depth=1
	xorl	%ecx, %ecx
	movq	%r10, %r8
	movq	5528(%rsp), %r10
	jmp	.LBB9_177
.LBB9_174:                              # %join.5.i.preheader.i.i.i.i
                                        #   in Loop: Header=BB9_171 Depth=1
	movl	$64, %ecx
	testq	%r8, %r8
	movq	5528(%rsp), %r10
	jne	.LBB9_177
# %bb.175:                              # %join.8.i.i.i.i.i
                                        #   in Loop: Header=BB9_171 Depth=1
	movl	$128, %ecx
	movq	%r11, %r8
	testq	%r11, %r11
	jne	.LBB9_177
# %bb.176:                              # %join.8.i.1.i.i.i.i
                                        #   in Loop: Header=BB9_171 Depth=1
	movl	$192, %ecx
	movq	%rbx, %r8
	testq	%rbx, %rbx
	je	.LBB9_260
.LBB9_177:                              # %"seek::first_far.exit.i.i.i"
                                        #   in Loop: Header=BB9_171 Depth=1
	movzbl	336(%rsp), %ebx                 # 1-byte Folded Reload
	andl	$3, %ebx
	negq	%rbx
	rep		bsfq	%r8, %rdi
	orq	%rcx, %rdi
	movq	112(%rsp), %r13                 # 8-byte Reload
	leaq	-1(%r13), %rax
	movq	%rax, 624(%rsp)                 # 8-byte Spill
	movq	512(%rsp), %rax                 # 8-byte Reload
	negq	%rax
	movq	%rax, 632(%rsp)                 # 8-byte Spill
	jmp	.LBB9_178
.LBB9_258:                              #   in Loop: Header=BB9_178 Depth=2
	xorl	%edi, %edi
.LBB9_259:                              # %"words::next_from.exit.i.i.i"
                                        #   in Loop: Header=BB9_178 Depth=2
	shlq	$6, %rdx
	orq	%rdi, %rdx
	rep		bsfq	%rsi, %rdi
	addq	%rdx, %rdi
	cmpq	$256, %rdi                      # imm = 0x100
	jae	.LBB9_260
.LBB9_178:                              # %join.22.i.i.i
                                        #   Parent Loop BB9_171 Depth=1
                                        # =>  This Loop Header: Depth=2
                                        #       Child Loop BB9_183 Depth 3
                                        #       Child Loop BB9_186 Depth 3
                                        #       Child Loop BB9_189 Depth 3
                                        #       Child Loop BB9_233 Depth 3
                                        #       Child Loop BB9_206 Depth 3
                                        #       Child Loop BB9_256 Depth 3
	movq	%rdi, %rcx
	shlq	$5, %rcx
	movdqu	(%r12,%rcx), %xmm0
	movdqu	16(%r12,%rcx), %xmm1
	movdqa	%xmm1, %xmm2
	psrlw	$1, %xmm2
	movdqa	.LCPI9_0(%rip), %xmm3           # xmm3 = [85,85,85,85,85,85,85,85,85,85,85,85,85,85,85,85]
	pand	%xmm3, %xmm2
	psubb	%xmm2, %xmm1
	movdqa	.LCPI9_1(%rip), %xmm2           # xmm2 = [51,51,51,51,51,51,51,51,51,51,51,51,51,51,51,51]
	movdqa	%xmm1, %xmm4
	pand	%xmm2, %xmm4
	psrlw	$2, %xmm1
	pand	%xmm2, %xmm1
	paddb	%xmm4, %xmm1
	movdqa	%xmm1, %xmm4
	psrlw	$4, %xmm4
	paddb	%xmm1, %xmm4
	movdqa	.LCPI9_2(%rip), %xmm1           # xmm1 = [15,15,15,15,15,15,15,15,15,15,15,15,15,15,15,15]
	pand	%xmm1, %xmm4
	movdqa	%xmm0, %xmm5
	psrlw	$1, %xmm5
	pand	%xmm3, %xmm5
	psubb	%xmm5, %xmm0
	movdqa	%xmm0, %xmm3
	pand	%xmm2, %xmm3
	psrlw	$2, %xmm0
	pand	%xmm2, %xmm0
	paddb	%xmm3, %xmm0
	movdqa	%xmm0, %xmm2
	psrlw	$4, %xmm2
	paddb	%xmm0, %xmm2
	pand	%xmm1, %xmm2
	paddb	%xmm4, %xmm2
	pxor	%xmm0, %xmm0
	psadbw	%xmm2, %xmm0
	pshufd	$238, %xmm0, %xmm1              # xmm1 = xmm0[2,3,2,3]
	paddq	%xmm0, %xmm1
	movq	%xmm1, %rcx
	cmpl	$3, %ecx
	jb	.LBB9_254
# %bb.179:                              # %then.23.i.i.i
                                        #   in Loop: Header=BB9_178 Depth=2
	movl	%edi, %ebp
	testq	%r13, %r13
	je	.LBB9_187
# %bb.180:                              # %join.5.i.i.i.i.preheader
                                        #   in Loop: Header=BB9_178 Depth=2
	testb	$3, %r13b
	je	.LBB9_181
# %bb.182:                              # %join.5.i.i.i.i.prol.preheader
                                        #   in Loop: Header=BB9_178 Depth=2
	xorl	%ecx, %ecx
	movq	%rdi, %rdx
	movq	504(%rsp), %rsi                 # 8-byte Reload
	.p2align	4
.LBB9_183:                              # %join.5.i.i.i.i.prol
                                        #   Parent Loop BB9_171 Depth=1
                                        #     Parent Loop BB9_178 Depth=2
                                        # =>    This Inner Loop Header: Depth=3
	movw	%dx, (%rsi,%rcx,2)
	movzwl	2864(%rsp,%rdx,2), %ebp
	movzwl	%bp, %edx
	decq	%rcx
	cmpq	%rcx, %rbx
	jne	.LBB9_183
# %bb.184:                              # %join.5.i.i.i.i.prol.loopexit.loopexit
                                        #   in Loop: Header=BB9_178 Depth=2
	addq	632(%rsp), %rcx                 # 8-byte Folded Reload
	cmpq	$4, %r13
	jb	.LBB9_187
	.p2align	4
.LBB9_186:                              # %join.5.i.i.i.i
                                        #   Parent Loop BB9_171 Depth=1
                                        #     Parent Loop BB9_178 Depth=2
                                        # =>    This Inner Loop Header: Depth=3
	movw	%dx, 1840(%rsp,%rcx,2)
	movzwl	2864(%rsp,%rdx,2), %edx
	movw	%dx, 1838(%rsp,%rcx,2)
	movzwl	2864(%rsp,%rdx,2), %edx
	movw	%dx, 1836(%rsp,%rcx,2)
	movzwl	2864(%rsp,%rdx,2), %edx
	movw	%dx, 1834(%rsp,%rcx,2)
	movzwl	2864(%rsp,%rdx,2), %ebp
	movzwl	%bp, %edx
	addq	$-4, %rcx
	jne	.LBB9_186
.LBB9_187:                              # %join.6.i.i.i.preheader.i.i.i
                                        #   in Loop: Header=BB9_178 Depth=2
	movw	%bp, 1840(%rsp)
	movl	$0, 360(%rsp)
	movw	$0, 364(%rsp)
	movl	$0, 352(%rsp)
	movw	$0, 356(%rsp)
	movl	$0, 472(%rsp)
	movl	$0, 475(%rsp)
	movl	$0, 128(%rsp)
	movw	$0, 132(%rsp)
	movl	$0, 120(%rsp)
	movw	$0, 124(%rsp)
	movl	$0, 144(%rsp)
	movl	$0, 147(%rsp)
	movl	$0, 240(%rsp)
	movw	$0, 244(%rsp)
	movl	$0, 232(%rsp)
	movw	$0, 236(%rsp)
	movl	$0, 272(%rsp)
	movl	$0, 275(%rsp)
	movq	448(%rsp), %rax                 # 8-byte Reload
	movq	%rax, 784(%rsp)
	movq	488(%rsp), %rax                 # 8-byte Reload
	movq	%rax, 792(%rsp)
	movq	456(%rsp), %rax                 # 8-byte Reload
	movq	%rax, 800(%rsp)
	movq	496(%rsp), %rax                 # 8-byte Reload
	movq	%rax, 808(%rsp)
	movq	$-1, %rcx
	.p2align	4
.LBB9_189:                              # %join.6.i.i.i.i.i.i
                                        #   Parent Loop BB9_171 Depth=1
                                        #     Parent Loop BB9_178 Depth=2
                                        # =>    This Inner Loop Header: Depth=3
	movzwl	1842(%rsp,%rcx,2), %edx
	movl	%edx, %esi
	shrl	$6, %esi
	movq	784(%rsp,%rsi,8), %rsi
	btq	%rdx, %rsi
	jb	.LBB9_190
# %bb.188:                              # %loop.3.i.i.i.i.i.i
                                        #   in Loop: Header=BB9_189 Depth=3
	incq	%rcx
	cmpq	%rcx, %r13
	jne	.LBB9_189
# %bb.192:                              # %join.3.i.i.i63.i.i
                                        #   in Loop: Header=BB9_178 Depth=2
	testb	$1, 224(%rsp)                   # 1-byte Folded Reload
	movq	%rdi, 560(%rsp)                 # 8-byte Spill
	je	.LBB9_248
# %bb.193:                              # %then.4.i.i.i64.i.i
                                        #   in Loop: Header=BB9_178 Depth=2
	movl	$0, 376(%rsp)
	movw	$0, 380(%rsp)
	movl	$0, 368(%rsp)
	movw	$0, 372(%rsp)
	movl	$0, 648(%rsp)
	movl	$0, 651(%rsp)
	movl	$0, 640(%rsp)
	movl	$0, 643(%rsp)
	movq	168(%rsp), %rax                 # 8-byte Reload
	movq	64(%rsp), %rcx                  # 8-byte Reload
	movzwl	(%rax,%rcx,2), %esi
	movzwl	100(%rsp), %eax
	movw	%ax, 588(%rsp)
	movl	96(%rsp), %eax
	movl	%eax, 584(%rsp)
	movl	88(%rsp), %eax
	movl	%eax, 576(%rsp)
	movzwl	92(%rsp), %eax
	movw	%ax, 580(%rsp)
	testq	%r13, %r13
	je	.LBB9_222
# %bb.194:                              # %then.4.i.i.i64.i.i
                                        #   in Loop: Header=BB9_178 Depth=2
	cmpw	%si, 1842(%rsp)
	jne	.LBB9_222
# %bb.195:                              # %then.1.i.i.i.i68.i.i
                                        #   in Loop: Header=BB9_178 Depth=2
	movw	$0, 80(%rsp)
	movl	$0, 76(%rsp)
	movq	216(%rsp), %rdx                 # 8-byte Reload
	cmpq	%r13, %rdx
	movq	5488(%rsp), %rcx
	ja	.LBB9_198
# %bb.196:                              # %then.1.i.i.i.i.i.i.i.i
                                        #   in Loop: Header=BB9_178 Depth=2
	movq	320(%rsp), %rax                 # 8-byte Reload
	cmpw	%ax, 1840(%rsp,%rdx,2)
	jne	.LBB9_198
# %bb.197:                              # %then.4.i.i.i.i.i.i.i.i
                                        #   in Loop: Header=BB9_178 Depth=2
	movzwl	92(%rsp), %eax
	movw	%ax, 140(%rsp)
	movl	88(%rsp), %eax
	movl	%eax, 136(%rsp)
	movq	320(%rsp), %rax                 # 8-byte Reload
                                        # kill: def $ax killed $ax killed $rax
	movw	%ax, 256(%rsp)                  # 2-byte Spill
	movq	%rdx, %rbp
	jmp	.LBB9_201
.LBB9_190:                              # %"scouts::hope.exit.thread.i.i.i.i"
                                        #   in Loop: Header=BB9_178 Depth=2
	movl	96(%rsp), %ecx
	movl	%ecx, 128(%rsp)
	movzwl	100(%rsp), %ecx
	movw	%cx, 132(%rsp)
	movl	88(%rsp), %ecx
	movl	%ecx, 120(%rsp)
	movzwl	92(%rsp), %ecx
	movw	%cx, 124(%rsp)
	movl	200(%rsp), %ecx
	movl	203(%rsp), %edx
	movl	%ecx, 144(%rsp)
	movl	%edx, 147(%rsp)
.LBB9_191:                              # %"seek::try_junction.exit.i.thread.i.i"
                                        #   in Loop: Header=BB9_178 Depth=2
	movzwl	132(%rsp), %ecx
	movw	%cx, 188(%rsp)
	movl	128(%rsp), %ecx
	movl	%ecx, 184(%rsp)
	movl	120(%rsp), %edx
	movl	%edx, 152(%rsp)
	movzwl	124(%rsp), %edx
	movw	%dx, 156(%rsp)
	movl	144(%rsp), %edx
	movl	147(%rsp), %esi
	movl	%edx, 192(%rsp)
	movl	%esi, 195(%rsp)
	movl	%ecx, 96(%rsp)
	movzwl	188(%rsp), %ecx
	movw	%cx, 100(%rsp)
	movzwl	156(%rsp), %ecx
	movw	%cx, 92(%rsp)
	movl	152(%rsp), %ecx
	movl	%ecx, 88(%rsp)
	movl	192(%rsp), %ecx
	movl	195(%rsp), %edx
	movl	%edx, 203(%rsp)
	movl	%ecx, 200(%rsp)
	jmp	.LBB9_254
.LBB9_248:                              # %"scouts::hope.exit.thread152.i.i.i.i"
                                        #   in Loop: Header=BB9_178 Depth=2
	movl	96(%rsp), %eax
	movl	%eax, 128(%rsp)
	movzwl	100(%rsp), %eax
	movw	%ax, 132(%rsp)
	movl	88(%rsp), %eax
	movl	%eax, 120(%rsp)
	movzwl	92(%rsp), %eax
	movw	%ax, 124(%rsp)
	movl	200(%rsp), %eax
	movl	203(%rsp), %ecx
	movl	%eax, 144(%rsp)
	movl	%ecx, 147(%rsp)
	jmp	.LBB9_249
.LBB9_181:                              #   in Loop: Header=BB9_178 Depth=2
                                        # implicit-def: $bp
	movq	%rdi, %rdx
	movq	%r13, %rcx
	cmpq	$4, %r13
	jae	.LBB9_186
	jmp	.LBB9_187
.LBB9_222:                              # %join.3.i.i.i.i67.i.i
                                        #   in Loop: Header=BB9_178 Depth=2
	movw	$0, 80(%rsp)
	movl	$0, 76(%rsp)
	movq	208(%rsp), %rdx                 # 8-byte Reload
	cmpq	%r13, %rdx
	movq	5488(%rsp), %rcx
	ja	.LBB9_225
# %bb.223:                              # %then.1.i.i288.i.i.i.i.i.i
                                        #   in Loop: Header=BB9_178 Depth=2
	movq	312(%rsp), %rax                 # 8-byte Reload
	cmpw	%ax, 1840(%rsp,%rdx,2)
	jne	.LBB9_225
# %bb.224:                              # %then.4.i.i293.i.i.i.i.i.i
                                        #   in Loop: Header=BB9_178 Depth=2
	movzwl	100(%rsp), %eax
	movw	%ax, 140(%rsp)
	movl	96(%rsp), %eax
	movl	%eax, 136(%rsp)
	movq	312(%rsp), %rax                 # 8-byte Reload
	movl	%eax, %ebp
	movq	%rdx, 160(%rsp)                 # 8-byte Spill
	jmp	.LBB9_228
.LBB9_225:                              # %join.3.i.i71.i.i.i.i.i.i
                                        #   in Loop: Header=BB9_178 Depth=2
	movq	5512(%rsp), %rax
	movups	(%rax), %xmm0
	movaps	%xmm0, 720(%rsp)                # 16-byte Spill
	movdqu	16(%rax), %xmm0
	movdqa	%xmm0, 704(%rsp)                # 16-byte Spill
	testq	%rcx, %rcx
	je	.LBB9_227
# %bb.226:                              # %join.5.i.i.i.i.i80.i.i.i.preheader.i.i.i
                                        #   in Loop: Header=BB9_178 Depth=2
	leaq	3376(%rsp), %rdi
	movq	168(%rsp), %rsi                 # 8-byte Reload
	movq	288(%rsp), %rdx                 # 8-byte Reload
	callq	memcpy@PLT
.LBB9_227:                              # %"attempts::copy.exit.i.i.i.i88.i.i.i.i.i.i"
                                        #   in Loop: Header=BB9_178 Depth=2
	leaq	3888(%rsp), %rdi
	movq	5496(%rsp), %rsi
	movq	264(%rsp), %rdx                 # 8-byte Reload
	callq	memcpy@PLT
	movl	$0, 136(%rsp)
	movw	$0, 140(%rsp)
	movq	$0, 160(%rsp)                   # 8-byte Folded Spill
.LBB9_228:                              # %"scouts::on_the_path.exit.i100.i.i.i.i.i.i"
                                        #   in Loop: Header=BB9_178 Depth=2
	leaq	1328(%rsp), %rdi
	movl	$512, %edx                      # imm = 0x200
	xorl	%esi, %esi
	callq	memset@PLT
	leaq	816(%rsp), %rdi
	movl	$512, %edx                      # imm = 0x200
	xorl	%esi, %esi
	callq	memset@PLT
	movaps	720(%rsp), %xmm0                # 16-byte Reload
	movaps	%xmm0, 384(%rsp)
	movdqa	704(%rsp), %xmm0                # 16-byte Reload
	movdqa	%xmm0, 400(%rsp)
	cmpq	$0, 5488(%rsp)
	je	.LBB9_230
# %bb.229:                              # %join.5.i.preheader.i.i115.i.i.i.i.i.i
                                        #   in Loop: Header=BB9_178 Depth=2
	leaq	1328(%rsp), %rdi
	leaq	3376(%rsp), %rsi
	movq	288(%rsp), %rdx                 # 8-byte Reload
	callq	memcpy@PLT
.LBB9_230:                              # %"attempts::copy.exit36.i.i120.i.i.i.i.i.i"
                                        #   in Loop: Header=BB9_178 Depth=2
	subq	160(%rsp), %r13                 # 8-byte Folded Reload
	leaq	816(%rsp), %rdi
	leaq	3888(%rsp), %rsi
	movq	264(%rsp), %rdx                 # 8-byte Reload
	callq	memcpy@PLT
	movq	%r13, 256(%rsp)                 # 8-byte Spill
	testq	%r13, %r13
	je	.LBB9_231
# %bb.232:                              # %join.6.i.i.i133.i.i.i.i.i.i.preheader
                                        #   in Loop: Header=BB9_178 Depth=2
	movq	%rbx, 280(%rsp)                 # 8-byte Spill
	movq	%r14, 248(%rsp)                 # 8-byte Spill
	movq	160(%rsp), %rcx                 # 8-byte Reload
	leaq	(%rsp,%rcx,2), %rax
	addq	$1842, %rax                     # imm = 0x732
	movq	%rax, 224(%rsp)                 # 8-byte Spill
	movq	112(%rsp), %rax                 # 8-byte Reload
	subq	%rcx, %rax
	movq	%rax, 328(%rsp)                 # 8-byte Spill
	xorl	%r10d, %r10d
	movq	64(%rsp), %r9                   # 8-byte Reload
	movq	5488(%rsp), %r11
	jmp	.LBB9_233
	.p2align	4
.LBB9_234:                              # %arm.8.thread.i.i.i.i147.i.i.i.i.i.i
                                        #   in Loop: Header=BB9_233 Depth=3
	movzwl	816(%rsp,%rcx,2), %r8d
	movw	%r14w, 1328(%rsp,%r8,2)
	movw	%r8w, 816(%rsp,%r14,2)
	movw	%r11w, 816(%rsp,%rcx,2)
	notq	%r13
	andq	%r13, %rsi
	movq	%rsi, 384(%rsp,%rbx)
	movl	%ecx, %esi
	shrl	$6, %esi
	movzwl	816(%rsp,%rax,2), %r8d
	movw	%di, 1328(%rsp,%r8,2)
	movw	%r8w, 816(%rsp,%rcx,2)
	movq	$-2, %rdi
                                        # kill: def $cl killed $cl killed $rcx
	rolq	%cl, %rdi
	movw	%r11w, 816(%rsp,%rax,2)
	andq	%rdi, 384(%rsp,%rsi,8)
	movl	%eax, %ecx
	shlq	%cl, %rdx
	shrl	$6, %eax
	orq	%rdx, 384(%rsp,%rax,8)
	incq	%r10
	cmpq	%r10, 328(%rsp)                 # 8-byte Folded Reload
	je	.LBB9_238
.LBB9_233:                              # %join.6.i.i.i133.i.i.i.i.i.i
                                        #   Parent Loop BB9_171 Depth=1
                                        #     Parent Loop BB9_178 Depth=2
                                        # =>    This Inner Loop Header: Depth=3
	movq	224(%rsp), %rax                 # 8-byte Reload
	movzwl	(%rax,%r10,2), %r14d
	pxor	%xmm0, %xmm0
	movdqa	%xmm0, 528(%rsp)
	movq	$0, 544(%rsp)
	movl	%r14d, %ebx
	shrl	$6, %ebx
	movq	384(%rsp,%rbx,8), %rsi
	shlq	$3, %rbx
	movl	$1, %edx
	movl	$1, %r13d
	movl	%r14d, %ecx
	shlq	%cl, %r13
	btq	%r14, %rsi
	movq	104(%rsp), %rax                 # 8-byte Reload
	movzwl	1328(%rsp,%rax,2), %edi
	movzwl	1328(%rsp,%r9,2), %eax
	movzwl	%di, %ecx
	jb	.LBB9_234
# %bb.235:                              # %join.3.i.i.i.i.i219.i.i.i.i.i.i
                                        #   in Loop: Header=BB9_233 Depth=3
	movq	%r10, 592(%rsp)                 # 8-byte Spill
	movl	$1, %esi
	shlq	%cl, %rsi
                                        # kill: def $ecx killed $ecx killed $rcx
	shrl	$6, %ecx
	xorl	%edi, %edi
	testl	%ecx, %ecx
	movl	$0, %r8d
	cmoveq	%rsi, %r8
	cmpl	$1, %ecx
	movl	$0, %r9d
	cmoveq	%rsi, %r9
	cmpl	$2, %ecx
	movl	$0, %r10d
	cmoveq	%rsi, %r10
	cmpl	$3, %ecx
	cmovneq	%rdi, %rsi
	movq	%r11, %rdi
	movl	%eax, %r11d
	shrl	$6, %r11d
	movl	%eax, %ecx
	shlq	%cl, %rdx
	testl	%r11d, %r11d
	movl	$0, %eax
	cmoveq	%rdx, %rax
	orq	%r8, %rax
	movq	%rax, 416(%rsp)
	cmpl	$1, %r11d
	movl	$0, %eax
	cmoveq	%rdx, %rax
	orq	%r9, %rax
	cmpl	$2, %r11d
	movl	$0, %ecx
	cmoveq	%rdx, %rcx
	movq	%rax, 424(%rsp)
	orq	%r10, %rcx
	movq	%rcx, 432(%rsp)
	cmpl	$3, %r11d
	movl	$0, %eax
	cmovneq	%rax, %rdx
	orq	%rsi, %rdx
	movq	%rdx, 440(%rsp)
	leaq	696(%rsp), %rax
	movq	%rax, 32(%rsp)
	leaq	384(%rsp), %rax
	movq	%rax, 24(%rsp)
	movq	5504(%rsp), %rax
	movq	%rax, 16(%rsp)
	leaq	816(%rsp), %rax
	movq	%rax, 8(%rsp)
	movq	%rdi, (%rsp)
	movq	$1, 40(%rsp)
	leaq	528(%rsp), %rdi
	leaq	416(%rsp), %rcx
	leaq	1328(%rsp), %r9
	movq	%r12, %rsi
	movq	176(%rsp), %rdx                 # 8-byte Reload
	movl	%r14d, %r8d
	callq	"acting::make_room"
	cmpb	$1, 528(%rsp)
	jne	.LBB9_239
# %bb.236:                              # %arm.6.i.i.i.i.i253.i.i.i.i.i.i
                                        #   in Loop: Header=BB9_233 Depth=3
	movq	104(%rsp), %rax                 # 8-byte Reload
	movzwl	1328(%rsp,%rax,2), %ecx
	movq	64(%rsp), %r9                   # 8-byte Reload
	movzwl	1328(%rsp,%r9,2), %eax
	movzwl	816(%rsp,%rcx,2), %edx
	movw	%r14w, 1328(%rsp,%rdx,2)
	movw	%dx, 816(%rsp,%r14,2)
	notq	%r13
	andq	%r13, 384(%rsp,%rbx)
	movq	5488(%rsp), %r11
	movw	%r11w, 816(%rsp,%rcx,2)
	movzwl	816(%rsp,%rax,2), %edx
	movw	%cx, 1328(%rsp,%rdx,2)
	movw	%dx, 816(%rsp,%rcx,2)
	movl	%ecx, %edx
	shrl	$6, %edx
	movw	%r11w, 816(%rsp,%rax,2)
	movq	$-2, %rsi
                                        # kill: def $cl killed $cl killed $rcx
	rolq	%cl, %rsi
	andq	%rsi, 384(%rsp,%rdx,8)
	movl	$1, %edx
	movl	%eax, %ecx
	shlq	%cl, %rdx
	shrl	$6, %eax
	orq	%rdx, 384(%rsp,%rax,8)
	movq	592(%rsp), %r10                 # 8-byte Reload
	incq	%r10
	cmpq	%r10, 328(%rsp)                 # 8-byte Folded Reload
	jne	.LBB9_233
.LBB9_238:                              # %"scout::advance.exit.thread.i.i181.i.i.i.i.i.i"
                                        #   in Loop: Header=BB9_178 Depth=2
	movq	248(%rsp), %r14                 # 8-byte Reload
	movq	112(%rsp), %r13                 # 8-byte Reload
	movq	280(%rsp), %rbx                 # 8-byte Reload
	jmp	.LBB9_242
.LBB9_198:                              # %join.3.i.i.i.i.i.i.i.i
                                        #   in Loop: Header=BB9_178 Depth=2
	movw	%si, 256(%rsp)                  # 2-byte Spill
	movq	5512(%rsp), %rax
	movups	(%rax), %xmm0
	movaps	%xmm0, 736(%rsp)                # 16-byte Spill
	movdqu	16(%rax), %xmm0
	movdqa	%xmm0, 656(%rsp)                # 16-byte Spill
	testq	%rcx, %rcx
	je	.LBB9_200
# %bb.199:                              # %join.5.i.i.i.i.i.i.i.i.preheader.i.i.i
                                        #   in Loop: Header=BB9_178 Depth=2
	leaq	4400(%rsp), %rdi
	movq	168(%rsp), %rsi                 # 8-byte Reload
	movq	288(%rsp), %rdx                 # 8-byte Reload
	callq	memcpy@PLT
.LBB9_200:                              # %"attempts::copy.exit.i.i.i.i.i.i.i.i.i.i"
                                        #   in Loop: Header=BB9_178 Depth=2
	leaq	4912(%rsp), %rdi
	movq	5496(%rsp), %rsi
	movq	264(%rsp), %rdx                 # 8-byte Reload
	callq	memcpy@PLT
	movl	$0, 136(%rsp)
	movw	$0, 140(%rsp)
	movl	$1, %ebp
.LBB9_201:                              # %"scouts::on_the_path.exit.i.i.i.i.i.i.i"
                                        #   in Loop: Header=BB9_178 Depth=2
	movq	%rbx, 280(%rsp)                 # 8-byte Spill
	leaq	1328(%rsp), %rdi
	movl	$512, %edx                      # imm = 0x200
	xorl	%esi, %esi
	callq	memset@PLT
	leaq	816(%rsp), %rdi
	movl	$512, %edx                      # imm = 0x200
	xorl	%esi, %esi
	callq	memset@PLT
	movaps	736(%rsp), %xmm0                # 16-byte Reload
	movaps	%xmm0, 384(%rsp)
	movdqa	656(%rsp), %xmm0                # 16-byte Reload
	movdqa	%xmm0, 400(%rsp)
	cmpq	$0, 5488(%rsp)
	je	.LBB9_203
# %bb.202:                              # %join.5.i.preheader.i.i.i.i.i.i.i.i
                                        #   in Loop: Header=BB9_178 Depth=2
	leaq	1328(%rsp), %rdi
	leaq	4400(%rsp), %rsi
	movq	288(%rsp), %rdx                 # 8-byte Reload
	callq	memcpy@PLT
.LBB9_203:                              # %"attempts::copy.exit36.i.i.i.i.i.i.i.i"
                                        #   in Loop: Header=BB9_178 Depth=2
	movq	%r13, %rbx
	subq	%rbp, %rbx
	leaq	816(%rsp), %rdi
	leaq	4912(%rsp), %rsi
	movq	264(%rsp), %rdx                 # 8-byte Reload
	callq	memcpy@PLT
	movq	%rbx, 592(%rsp)                 # 8-byte Spill
	testq	%rbx, %rbx
	movq	%rbp, 160(%rsp)                 # 8-byte Spill
	je	.LBB9_204
# %bb.205:                              # %join.6.i.i.i.i.i.i.i.i.i.preheader
                                        #   in Loop: Header=BB9_178 Depth=2
	movq	%r14, 248(%rsp)                 # 8-byte Spill
	leaq	(%rsp,%rbp,2), %r10
	addq	$1842, %r10                     # imm = 0x732
	subq	%rbp, %r13
	movq	%r13, 224(%rsp)                 # 8-byte Spill
	xorl	%ebp, %ebp
	movq	64(%rsp), %r9                   # 8-byte Reload
	movq	5488(%rsp), %r11
	movq	%r10, 328(%rsp)                 # 8-byte Spill
	jmp	.LBB9_206
	.p2align	4
.LBB9_207:                              # %arm.8.thread.i.i.i.i.i.i.i.i.i.i
                                        #   in Loop: Header=BB9_206 Depth=3
	movzwl	816(%rsp,%rcx,2), %r8d
	movw	%r13w, 1328(%rsp,%r8,2)
	movw	%r8w, 816(%rsp,%r13,2)
	movw	%r11w, 816(%rsp,%rcx,2)
	notq	%r14
	andq	%r14, %rsi
	movq	%rsi, 384(%rsp,%rbx)
	movl	%ecx, %esi
	shrl	$6, %esi
	movzwl	816(%rsp,%rax,2), %r8d
	movw	%di, 1328(%rsp,%r8,2)
	movw	%r8w, 816(%rsp,%rcx,2)
	movq	$-2, %rdi
                                        # kill: def $cl killed $cl killed $rcx
	rolq	%cl, %rdi
	movw	%r11w, 816(%rsp,%rax,2)
	andq	%rdi, 384(%rsp,%rsi,8)
	movl	%eax, %ecx
	shlq	%cl, %rdx
	shrl	$6, %eax
	orq	%rdx, 384(%rsp,%rax,8)
	incq	%rbp
	cmpq	%rbp, 224(%rsp)                 # 8-byte Folded Reload
	je	.LBB9_211
.LBB9_206:                              # %join.6.i.i.i.i.i.i.i.i.i
                                        #   Parent Loop BB9_171 Depth=1
                                        #     Parent Loop BB9_178 Depth=2
                                        # =>    This Inner Loop Header: Depth=3
	movzwl	(%r10,%rbp,2), %r13d
	pxor	%xmm0, %xmm0
	movdqa	%xmm0, 528(%rsp)
	movq	$0, 544(%rsp)
	movl	%r13d, %ebx
	shrl	$6, %ebx
	movq	384(%rsp,%rbx,8), %rsi
	shlq	$3, %rbx
	movl	$1, %edx
	movl	$1, %r14d
	movl	%r13d, %ecx
	shlq	%cl, %r14
	btq	%r13, %rsi
	movzwl	1328(%rsp,%r9,2), %edi
	movq	104(%rsp), %rax                 # 8-byte Reload
	movzwl	1328(%rsp,%rax,2), %eax
	movzwl	%di, %ecx
	jb	.LBB9_207
# %bb.208:                              # %join.3.i.i.i.i.i.i.i.i.i.i.i
                                        #   in Loop: Header=BB9_206 Depth=3
	movl	$1, %esi
	shlq	%cl, %rsi
                                        # kill: def $ecx killed $ecx killed $rcx
	shrl	$6, %ecx
	xorl	%edi, %edi
	testl	%ecx, %ecx
	movl	$0, %r8d
	cmoveq	%rsi, %r8
	cmpl	$1, %ecx
	movl	$0, %r9d
	cmoveq	%rsi, %r9
	cmpl	$2, %ecx
	movl	$0, %r10d
	cmoveq	%rsi, %r10
	cmpl	$3, %ecx
	cmovneq	%rdi, %rsi
	movq	%r11, %rdi
	movl	%eax, %r11d
	shrl	$6, %r11d
	movl	%eax, %ecx
	shlq	%cl, %rdx
	testl	%r11d, %r11d
	movl	$0, %eax
	cmoveq	%rdx, %rax
	orq	%r8, %rax
	movq	%rax, 416(%rsp)
	cmpl	$1, %r11d
	movl	$0, %eax
	cmoveq	%rdx, %rax
	orq	%r9, %rax
	cmpl	$2, %r11d
	movl	$0, %ecx
	cmoveq	%rdx, %rcx
	movq	%rax, 424(%rsp)
	orq	%r10, %rcx
	movq	%rcx, 432(%rsp)
	cmpl	$3, %r11d
	movl	$0, %eax
	cmovneq	%rax, %rdx
	orq	%rsi, %rdx
	movq	%rdx, 440(%rsp)
	leaq	696(%rsp), %rax
	movq	%rax, 32(%rsp)
	leaq	384(%rsp), %rax
	movq	%rax, 24(%rsp)
	movq	5504(%rsp), %rax
	movq	%rax, 16(%rsp)
	leaq	816(%rsp), %rax
	movq	%rax, 8(%rsp)
	movq	%rdi, (%rsp)
	movq	$1, 40(%rsp)
	leaq	528(%rsp), %rdi
	leaq	416(%rsp), %rcx
	leaq	1328(%rsp), %r9
	movq	%r12, %rsi
	movq	176(%rsp), %rdx                 # 8-byte Reload
	movl	%r13d, %r8d
	callq	"acting::make_room"
	cmpb	$1, 528(%rsp)
	jne	.LBB9_212
# %bb.209:                              # %arm.6.i.i.i.i.i.i.i.i.i.i.i
                                        #   in Loop: Header=BB9_206 Depth=3
	movq	64(%rsp), %r9                   # 8-byte Reload
	movzwl	1328(%rsp,%r9,2), %ecx
	movq	104(%rsp), %rax                 # 8-byte Reload
	movzwl	1328(%rsp,%rax,2), %eax
	movzwl	816(%rsp,%rcx,2), %edx
	movw	%r13w, 1328(%rsp,%rdx,2)
	movw	%dx, 816(%rsp,%r13,2)
	notq	%r14
	andq	%r14, 384(%rsp,%rbx)
	movq	5488(%rsp), %r11
	movw	%r11w, 816(%rsp,%rcx,2)
	movzwl	816(%rsp,%rax,2), %edx
	movw	%cx, 1328(%rsp,%rdx,2)
	movw	%dx, 816(%rsp,%rcx,2)
	movl	%ecx, %edx
	shrl	$6, %edx
	movw	%r11w, 816(%rsp,%rax,2)
	movq	$-2, %rsi
                                        # kill: def $cl killed $cl killed $rcx
	rolq	%cl, %rsi
	andq	%rsi, 384(%rsp,%rdx,8)
	movl	$1, %edx
	movl	%eax, %ecx
	shlq	%cl, %rdx
	shrl	$6, %eax
	orq	%rdx, 384(%rsp,%rax,8)
	movq	328(%rsp), %r10                 # 8-byte Reload
	incq	%rbp
	cmpq	%rbp, 224(%rsp)                 # 8-byte Folded Reload
	jne	.LBB9_206
.LBB9_211:                              # %"scout::advance.exit.thread.i.i.i.i.i.i.i.i"
                                        #   in Loop: Header=BB9_178 Depth=2
	movq	248(%rsp), %r14                 # 8-byte Reload
	movq	112(%rsp), %r13                 # 8-byte Reload
	movq	280(%rsp), %rbx                 # 8-byte Reload
	jmp	.LBB9_215
.LBB9_231:                              #   in Loop: Header=BB9_178 Depth=2
	xorl	%esi, %esi
	movq	5528(%rsp), %r10
	movq	112(%rsp), %r13                 # 8-byte Reload
	jmp	.LBB9_240
.LBB9_204:                              #   in Loop: Header=BB9_178 Depth=2
	xorl	%ebp, %ebp
	movq	5528(%rsp), %r10
	jmp	.LBB9_213
.LBB9_239:                              # %"bring::bring.exit.i.i.i248.i.i.i.i.i.i"
                                        #   in Loop: Header=BB9_178 Depth=2
	movq	5528(%rsp), %r10
	movq	248(%rsp), %r14                 # 8-byte Reload
	movq	112(%rsp), %r13                 # 8-byte Reload
	movq	280(%rsp), %rbx                 # 8-byte Reload
	movq	592(%rsp), %rsi                 # 8-byte Reload
.LBB9_240:                              # %"scout::advance.exit.i.i249.i.i.i.i.i.i"
                                        #   in Loop: Header=BB9_178 Depth=2
	cmpq	256(%rsp), %rsi                 # 8-byte Folded Reload
	jae	.LBB9_241
# %bb.284:                              # %then.5.i.i252.i.i.i.i.i.i
                                        #   in Loop: Header=BB9_178 Depth=2
	movzwl	140(%rsp), %eax
	movw	%ax, 80(%rsp)
	movl	136(%rsp), %eax
	movl	%eax, 76(%rsp)
	movb	$1, %dl
	movl	%ebp, %eax
	movq	%rax, 312(%rsp)                 # 8-byte Spill
	movq	160(%rsp), %rcx                 # 8-byte Reload
	movq	%rcx, 208(%rsp)                 # 8-byte Spill
	movq	%rsi, %rax
	movq	5520(%rsp), %r9
	movq	560(%rsp), %rdi                 # 8-byte Reload
	jmp	.LBB9_245
.LBB9_241:                              #   in Loop: Header=BB9_178 Depth=2
	movq	%rsi, 256(%rsp)                 # 8-byte Spill
	movq	5488(%rsp), %r11
.LBB9_242:                              # %join.7.i.i182.i.i.i.i.i.i
                                        #   in Loop: Header=BB9_178 Depth=2
	testq	%r11, %r11
	je	.LBB9_244
# %bb.243:                              # %join.5.i.i.preheader.i.i184.i.i.i.i.i.i
                                        #   in Loop: Header=BB9_178 Depth=2
	leaq	3376(%rsp), %rdi
	leaq	1328(%rsp), %rsi
	movq	288(%rsp), %rdx                 # 8-byte Reload
	callq	memcpy@PLT
.LBB9_244:                              # %"scout::show.exit.i.i187.i.i.i.i.i.i"
                                        #   in Loop: Header=BB9_178 Depth=2
	leaq	3888(%rsp), %rdi
	leaq	816(%rsp), %rsi
	movq	264(%rsp), %rdx                 # 8-byte Reload
	callq	memcpy@PLT
	movaps	384(%rsp), %xmm0
	movaps	%xmm0, 720(%rsp)                # 16-byte Spill
	movdqa	400(%rsp), %xmm0
	movdqa	%xmm0, 704(%rsp)                # 16-byte Spill
	movq	480(%rsp), %rax                 # 8-byte Reload
	movq	%rax, 528(%rsp)
	movq	560(%rsp), %rbp                 # 8-byte Reload
	movw	%bp, 536(%rsp)
	movw	$0, 538(%rsp)
	pxor	%xmm0, %xmm0
	movdqa	%xmm0, 416(%rsp)
	movdqa	%xmm0, 432(%rsp)
	movq	64(%rsp), %rax                  # 8-byte Reload
	movzwl	1328(%rsp,%rax,2), %r8d
	leaq	696(%rsp), %rax
	movq	%rax, 32(%rsp)
	leaq	384(%rsp), %rax
	movq	%rax, 24(%rsp)
	movq	5504(%rsp), %rax
	movq	%rax, 16(%rsp)
	leaq	816(%rsp), %rax
	movq	%rax, 8(%rsp)
	movq	5488(%rsp), %rax
	movq	%rax, (%rsp)
	movq	$1, 40(%rsp)
	leaq	416(%rsp), %rdi
	leaq	528(%rsp), %rcx
	leaq	1328(%rsp), %r9
	movq	%r12, %rsi
	movq	176(%rsp), %rdx                 # 8-byte Reload
	callq	"clear_on::clear_two"
	movq	%rbp, %rdi
	cmpb	$1, 416(%rsp)
	setne	%dl
	movl	$0, 76(%rsp)
	movw	$0, 80(%rsp)
	movl	%edi, %eax
	movq	%rax, 312(%rsp)                 # 8-byte Spill
	movq	%r13, 208(%rsp)                 # 8-byte Spill
	movq	5520(%rsp), %r9
	movq	5528(%rsp), %r10
	movq	160(%rsp), %rcx                 # 8-byte Reload
	movq	256(%rsp), %rax                 # 8-byte Reload
.LBB9_245:                              # %"scouts::send.exit294.i.i.i.i.i.i"
                                        #   in Loop: Header=BB9_178 Depth=2
	incq	%rcx
	addq	%rax, %rcx
	movl	76(%rsp), %eax
	movl	%eax, 368(%rsp)
	movzwl	80(%rsp), %eax
	movw	%ax, 372(%rsp)
	cmpq	%r13, %rcx
	ja	.LBB9_247
# %bb.246:                              # %then.1.i311.i.i.i.i.i.i
                                        #   in Loop: Header=BB9_178 Depth=2
	movzwl	1840(%rsp,%rcx,2), %ecx
	movl	%ecx, %eax
	shrl	$6, %eax
	movl	$1, %esi
                                        # kill: def $cl killed $cl killed $ecx
	shlq	%cl, %rsi
	xorl	%ecx, %ecx
	testl	%eax, %eax
	movl	$0, %edi
	cmoveq	%rsi, %rdi
	orq	%rdi, 448(%rsp)                 # 8-byte Folded Spill
	cmpl	$1, %eax
	movl	$0, %edi
	cmoveq	%rsi, %rdi
	orq	%rdi, 488(%rsp)                 # 8-byte Folded Spill
	cmpl	$2, %eax
	movl	$0, %edi
	cmoveq	%rsi, %rdi
	orq	%rdi, 456(%rsp)                 # 8-byte Folded Spill
	movq	560(%rsp), %rdi                 # 8-byte Reload
	cmpl	$3, %eax
	cmovneq	%rcx, %rsi
	orq	%rsi, 496(%rsp)                 # 8-byte Folded Spill
.LBB9_247:                              # %"scouts::noted.exit331.i.i.i.i.i.i"
                                        #   in Loop: Header=BB9_178 Depth=2
	movzwl	372(%rsp), %eax
	movw	%ax, 244(%rsp)
	movl	368(%rsp), %eax
	movl	%eax, 240(%rsp)
	movl	576(%rsp), %eax
	movl	%eax, 232(%rsp)
	movzwl	580(%rsp), %eax
	movw	%ax, 236(%rsp)
	movl	640(%rsp), %eax
	movl	643(%rsp), %ecx
	jmp	.LBB9_221
.LBB9_212:                              # %"bring::bring.exit.i.i.i.i.i.i.i.i.i"
                                        #   in Loop: Header=BB9_178 Depth=2
	movq	5528(%rsp), %r10
	movq	248(%rsp), %r14                 # 8-byte Reload
	movq	112(%rsp), %r13                 # 8-byte Reload
.LBB9_213:                              # %"scout::advance.exit.i.i.i.i.i.i.i.i"
                                        #   in Loop: Header=BB9_178 Depth=2
	movq	280(%rsp), %rbx                 # 8-byte Reload
	cmpq	592(%rsp), %rbp                 # 8-byte Folded Reload
	jae	.LBB9_214
# %bb.283:                              # %then.5.i.i.i.i.i.i.i.i
                                        #   in Loop: Header=BB9_178 Depth=2
	movzwl	140(%rsp), %eax
	movw	%ax, 80(%rsp)
	movl	136(%rsp), %eax
	movl	%eax, 76(%rsp)
	movb	$1, %dl
	movzwl	256(%rsp), %eax                 # 2-byte Folded Reload
                                        # kill: def $ax killed $ax def $rax
	movq	%rax, 320(%rsp)                 # 8-byte Spill
	movq	160(%rsp), %rax                 # 8-byte Reload
	movq	%rax, 216(%rsp)                 # 8-byte Spill
	movq	5520(%rsp), %r9
	movq	560(%rsp), %rdi                 # 8-byte Reload
	jmp	.LBB9_218
.LBB9_214:                              #   in Loop: Header=BB9_178 Depth=2
	movq	%rbp, 592(%rsp)                 # 8-byte Spill
	movq	5488(%rsp), %r11
.LBB9_215:                              # %join.7.i.i.i.i.i.i.i.i
                                        #   in Loop: Header=BB9_178 Depth=2
	testq	%r11, %r11
	je	.LBB9_217
# %bb.216:                              # %join.5.i.i.preheader.i.i.i.i.i.i.i.i
                                        #   in Loop: Header=BB9_178 Depth=2
	leaq	1328(%rsp), %rsi
	leaq	4400(%rsp), %rdi
	movq	288(%rsp), %rdx                 # 8-byte Reload
	callq	memcpy@PLT
.LBB9_217:                              # %"scout::show.exit.i.i.i.i.i.i.i.i"
                                        #   in Loop: Header=BB9_178 Depth=2
	leaq	4912(%rsp), %rdi
	leaq	816(%rsp), %rsi
	movq	264(%rsp), %rdx                 # 8-byte Reload
	callq	memcpy@PLT
	movaps	384(%rsp), %xmm0
	movaps	%xmm0, 736(%rsp)                # 16-byte Spill
	movdqa	400(%rsp), %xmm0
	movdqa	%xmm0, 656(%rsp)                # 16-byte Spill
	movq	520(%rsp), %rax                 # 8-byte Reload
	movl	%eax, 528(%rsp)
	movl	84(%rsp), %eax                  # 4-byte Reload
	movl	%eax, 532(%rsp)
	movq	560(%rsp), %rbp                 # 8-byte Reload
	movw	%bp, 536(%rsp)
	movw	$0, 538(%rsp)
	pxor	%xmm0, %xmm0
	movdqa	%xmm0, 416(%rsp)
	movdqa	%xmm0, 432(%rsp)
	movq	104(%rsp), %rax                 # 8-byte Reload
	movzwl	1328(%rsp,%rax,2), %r8d
	leaq	696(%rsp), %rax
	movq	%rax, 32(%rsp)
	leaq	384(%rsp), %rax
	movq	%rax, 24(%rsp)
	movq	5504(%rsp), %rax
	movq	%rax, 16(%rsp)
	leaq	816(%rsp), %rax
	movq	%rax, 8(%rsp)
	movq	5488(%rsp), %rax
	movq	%rax, (%rsp)
	movq	$1, 40(%rsp)
	leaq	416(%rsp), %rdi
	leaq	528(%rsp), %rcx
	leaq	1328(%rsp), %r9
	movq	%r12, %rsi
	movq	176(%rsp), %rdx                 # 8-byte Reload
	callq	"clear_on::clear_two"
	movq	%rbp, %rdi
	cmpb	$1, 416(%rsp)
	setne	%dl
	movl	$0, 76(%rsp)
	movw	$0, 80(%rsp)
	movl	%edi, %eax
	movq	%rax, 320(%rsp)                 # 8-byte Spill
	movq	%r13, 216(%rsp)                 # 8-byte Spill
	movq	5520(%rsp), %r9
	movq	5528(%rsp), %r10
	movq	592(%rsp), %rbp                 # 8-byte Reload
.LBB9_218:                              # %"scouts::send.exit.i.i.i.i.i.i"
                                        #   in Loop: Header=BB9_178 Depth=2
	movq	160(%rsp), %rcx                 # 8-byte Reload
	incq	%rcx
	addq	%rbp, %rcx
	movl	76(%rsp), %eax
	movl	%eax, 376(%rsp)
	movzwl	80(%rsp), %eax
	movw	%ax, 380(%rsp)
	cmpq	%r13, %rcx
	ja	.LBB9_220
# %bb.219:                              # %then.1.i.i.i.i.i69.i.i
                                        #   in Loop: Header=BB9_178 Depth=2
	movzwl	1840(%rsp,%rcx,2), %ecx
	movl	%ecx, %eax
	shrl	$6, %eax
	movl	$1, %esi
                                        # kill: def $cl killed $cl killed $ecx
	shlq	%cl, %rsi
	xorl	%ecx, %ecx
	testl	%eax, %eax
	movl	$0, %edi
	cmoveq	%rsi, %rdi
	orq	%rdi, 448(%rsp)                 # 8-byte Folded Spill
	cmpl	$1, %eax
	movl	$0, %edi
	cmoveq	%rsi, %rdi
	orq	%rdi, 488(%rsp)                 # 8-byte Folded Spill
	cmpl	$2, %eax
	movl	$0, %edi
	cmoveq	%rsi, %rdi
	orq	%rdi, 456(%rsp)                 # 8-byte Folded Spill
	movq	560(%rsp), %rdi                 # 8-byte Reload
	cmpl	$3, %eax
	cmovneq	%rcx, %rsi
	orq	%rsi, 496(%rsp)                 # 8-byte Folded Spill
.LBB9_220:                              # %"scouts::noted.exit.i.i.i.i.i.i"
                                        #   in Loop: Header=BB9_178 Depth=2
	movzwl	588(%rsp), %eax
	movw	%ax, 244(%rsp)
	movl	584(%rsp), %eax
	movl	%eax, 240(%rsp)
	movl	376(%rsp), %eax
	movl	%eax, 232(%rsp)
	movzwl	380(%rsp), %eax
	movw	%ax, 236(%rsp)
	movl	648(%rsp), %eax
	movl	651(%rsp), %ecx
.LBB9_221:                              # %"scouts::hope.exit.i.i.i.i"
                                        #   in Loop: Header=BB9_178 Depth=2
	movl	%eax, 272(%rsp)
	movl	%ecx, 275(%rsp)
	movl	240(%rsp), %eax
	movl	%eax, 360(%rsp)
	movzwl	244(%rsp), %eax
	movw	%ax, 364(%rsp)
	movl	232(%rsp), %eax
	movl	%eax, 352(%rsp)
	movzwl	236(%rsp), %eax
	movw	%ax, 356(%rsp)
	movl	272(%rsp), %eax
	movl	275(%rsp), %ecx
	movl	%eax, 472(%rsp)
	movl	%ecx, 475(%rsp)
	movzwl	364(%rsp), %eax
	movw	%ax, 132(%rsp)
	movl	360(%rsp), %eax
	movl	%eax, 128(%rsp)
	movzwl	356(%rsp), %eax
	movw	%ax, 124(%rsp)
	movl	352(%rsp), %eax
	movl	%eax, 120(%rsp)
	movl	472(%rsp), %eax
	movl	475(%rsp), %ecx
	movl	%ecx, 147(%rsp)
	movl	%eax, 144(%rsp)
	movb	$1, %al
	movq	%rax, 224(%rsp)                 # 8-byte Spill
	testb	%dl, %dl
	jne	.LBB9_191
.LBB9_249:                              # %join.3.i43.i.i.i
                                        #   in Loop: Header=BB9_178 Depth=2
	pxor	%xmm0, %xmm0
	movdqa	%xmm0, 1328(%rsp)
	movq	$0, 1344(%rsp)
	testq	%r13, %r13
	movq	168(%rsp), %rcx                 # 8-byte Reload
	je	.LBB9_252
# %bb.250:                              # %"trial::second_is.exit.i.i.i.i.i"
                                        #   in Loop: Header=BB9_178 Depth=2
	movzwl	1842(%rsp), %eax
	movq	64(%rsp), %rdx                  # 8-byte Reload
	cmpw	(%rcx,%rdx,2), %ax
	jne	.LBB9_252
# %bb.251:                              # %then.1.i13.i.i.i.i
                                        #   in Loop: Header=BB9_178 Depth=2
	movq	680(%rsp), %rax                 # 8-byte Reload
	movq	%rax, 816(%rsp)
	movw	%di, 824(%rsp)
	movw	$0, 826(%rsp)
	movq	%r10, 48(%rsp)
	movq	%r9, 40(%rsp)
	movq	5512(%rsp), %rax
	movq	%rax, 32(%rsp)
	movq	5504(%rsp), %rax
	movq	%rax, 24(%rsp)
	movq	5496(%rsp), %rax
	movq	%rax, 16(%rsp)
	movq	5488(%rsp), %rax
	movq	%rax, 8(%rsp)
	movq	%rcx, (%rsp)
	leaq	1328(%rsp), %rdi
	leaq	816(%rsp), %r9
	movq	%r12, %rsi
	movq	176(%rsp), %rdx                 # 8-byte Reload
	leaq	1844(%rsp), %rcx
	movq	624(%rsp), %r8                  # 8-byte Reload
	jmp	.LBB9_253
.LBB9_252:                              # %join.3.i12.i.i.i.i
                                        #   in Loop: Header=BB9_178 Depth=2
	movq	480(%rsp), %rax                 # 8-byte Reload
	movq	%rax, 816(%rsp)
	movw	%di, 824(%rsp)
	movw	$0, 826(%rsp)
	movq	%r10, 48(%rsp)
	movq	%r9, 40(%rsp)
	movq	5512(%rsp), %rax
	movq	%rax, 32(%rsp)
	movq	5504(%rsp), %rax
	movq	%rax, 24(%rsp)
	movq	5496(%rsp), %rax
	movq	%rax, 16(%rsp)
	movq	5488(%rsp), %rax
	movq	%rax, 8(%rsp)
	movq	%rcx, (%rsp)
	leaq	1328(%rsp), %rdi
	leaq	816(%rsp), %r9
	movq	%r12, %rsi
	movq	176(%rsp), %rdx                 # 8-byte Reload
	leaq	1842(%rsp), %rcx
	movq	%r13, %r8
.LBB9_253:                              # %"seek::try_junction.exit.i.i.i"
                                        #   in Loop: Header=BB9_178 Depth=2
	callq	"trial::attempt"
	movq	1336(%rsp), %r11
	movq	1344(%rsp), %rcx
	movzbl	1328(%rsp), %edx
	movl	128(%rsp), %eax
	movl	%eax, 184(%rsp)
	movzwl	132(%rsp), %eax
	movw	%ax, 188(%rsp)
	movl	120(%rsp), %eax
	movl	%eax, 152(%rsp)
	movzwl	124(%rsp), %eax
	movw	%ax, 156(%rsp)
	movl	144(%rsp), %eax
	movl	147(%rsp), %esi
	movl	%eax, 192(%rsp)
	movl	%esi, 195(%rsp)
	movzwl	188(%rsp), %eax
	movw	%ax, 100(%rsp)
	movl	184(%rsp), %eax
	movl	%eax, 96(%rsp)
	movzwl	156(%rsp), %eax
	movw	%ax, 92(%rsp)
	movl	152(%rsp), %eax
	movl	%eax, 88(%rsp)
	movl	192(%rsp), %eax
	movl	195(%rsp), %esi
	movl	%esi, 203(%rsp)
	movl	%eax, 200(%rsp)
	movb	$1, %al
	movq	%rax, 224(%rsp)                 # 8-byte Spill
	cmpb	$1, %dl
	movq	5520(%rsp), %r9
	movq	5528(%rsp), %r10
	movq	560(%rsp), %rdi                 # 8-byte Reload
	je	.LBB9_278
	.p2align	4
.LBB9_254:                              # %join.25.i.i.i
                                        #   in Loop: Header=BB9_178 Depth=2
	cmpq	$255, %rdi
	je	.LBB9_260
# %bb.255:                              # %join.5.preheader.i.i33.i.i
                                        #   in Loop: Header=BB9_178 Depth=2
	incq	%rdi
	movq	%rdi, %rdx
	shrq	$6, %rdx
	andl	$63, %edi
	movq	752(%rsp,%rdx,8), %rsi
	movl	%edi, %ecx
	shrq	%cl, %rsi
	testq	%rsi, %rsi
	jne	.LBB9_259
	.p2align	4
.LBB9_256:                              # %join.8.peel.i.i.i.i
                                        #   Parent Loop BB9_171 Depth=1
                                        #     Parent Loop BB9_178 Depth=2
                                        # =>    This Inner Loop Header: Depth=3
	incq	%rdx
	cmpq	$4, %rdx
	je	.LBB9_260
# %bb.257:                              # %join.5.i46.i.i.i
                                        #   in Loop: Header=BB9_256 Depth=3
	movq	752(%rsp,%rdx,8), %rsi
	testq	%rsi, %rsi
	je	.LBB9_256
	jmp	.LBB9_258
.LBB9_277:                              # %"seek::seek.exit.thread29.i"
	xorl	%eax, %eax
	xorl	%r11d, %r11d
	xorl	%ecx, %ecx
	movq	616(%rsp), %r8                  # 8-byte Reload
	jmp	.LBB9_280
.LBB9_278:                              # %"seek::seek.exit.i"
	movq	616(%rsp), %r8                  # 8-byte Reload
	movl	84(%rsp), %ebp                  # 4-byte Reload
	movq	64(%rsp), %r14                  # 8-byte Reload
.LBB9_279:                              # %arm.1.i
	movq	168(%rsp), %rsi                 # 8-byte Reload
	movq	104(%rsp), %rdi                 # 8-byte Reload
	movzwl	(%rsi,%rdi,2), %eax
	movzwl	(%rsi,%r14,2), %edx
	movw	%dx, (%rsi,%rdi,2)
	movw	%ax, (%rsi,%r14,2)
	movq	5496(%rsp), %rsi
	movq	520(%rsp), %rdi                 # 8-byte Reload
	movw	%di, (%rsi,%rax,2)
	movw	%bp, (%rsi,%rdx,2)
	movl	$1, %eax
.LBB9_280:                              # %"swap::swap_far.exit"
	movq	%rax, (%r8)
	movq	%r11, 8(%r8)
	movq	%rcx, 16(%r8)
	jmp	.LBB9_18
.Lfunc_end9:
	.size	"swap::swap", .Lfunc_end9-"swap::swap"
	.cfi_endproc
                                        # -- End function
	.section	".text.trial::attempt","ax",@progbits
	.p2align	4                               # -- Begin function trial::attempt
	.type	"trial::attempt",@function
"trial::attempt":                       # @"trial::attempt"
	.cfi_startproc
# %bb.0:                                # %start
	pushq	%rbp
	.cfi_def_cfa_offset 16
	pushq	%r15
	.cfi_def_cfa_offset 24
	pushq	%r14
	.cfi_def_cfa_offset 32
	pushq	%r13
	.cfi_def_cfa_offset 40
	pushq	%r12
	.cfi_def_cfa_offset 48
	pushq	%rbx
	.cfi_def_cfa_offset 56
	subq	$1336, %rsp                     # imm = 0x538
	.cfi_def_cfa_offset 1392
	.cfi_offset %rbx, -56
	.cfi_offset %r12, -48
	.cfi_offset %r13, -40
	.cfi_offset %r14, -32
	.cfi_offset %r15, -24
	.cfi_offset %rbp, -16
	movq	%r8, 136(%rsp)                  # 8-byte Spill
	movq	%rcx, 272(%rsp)                 # 8-byte Spill
	movq	%rdx, 120(%rsp)                 # 8-byte Spill
	movq	%rsi, 112(%rsp)                 # 8-byte Spill
	movq	%rdi, %r14
	movq	1416(%rsp), %r13
	movq	1400(%rsp), %rbx
	movl	(%r9), %eax
	movq	%rax, 56(%rsp)                  # 8-byte Spill
	movl	4(%r9), %r15d
	movss	8(%r9), %xmm0                   # xmm0 = mem[0],zero,zero,zero
	movaps	%xmm0, 176(%rsp)                # 16-byte Spill
	movzwl	8(%r9), %r12d
	xorps	%xmm0, %xmm0
	movaps	%xmm0, 64(%rsp)
	movq	$0, 80(%rsp)
	leaq	824(%rsp), %rdi
	movl	$512, %edx                      # imm = 0x200
	xorl	%esi, %esi
	callq	memset@PLT
	leaq	312(%rsp), %rdi
	movl	$512, %edx                      # imm = 0x200
	xorl	%esi, %esi
	callq	memset@PLT
	testq	%rbx, %rbx
	je	.LBB10_2
# %bb.1:                                # %join.5.i.preheader
	movq	1392(%rsp), %rsi
	leaq	(%rbx,%rbx), %rdx
	leaq	824(%rsp), %rdi
	callq	memcpy@PLT
.LBB10_2:                               # %"attempts::copy.exit"
	movq	1424(%rsp), %rbx
	testq	%r13, %r13
	je	.LBB10_4
# %bb.3:                                # %join.5.i6.preheader
	movq	1408(%rsp), %rsi
	leaq	(,%r13,2), %rdx
	leaq	312(%rsp), %rdi
	callq	memcpy@PLT
.LBB10_4:                               # %"attempts::copy.exit14"
	movq	1440(%rsp), %r9
	movups	(%rbx), %xmm0
	movaps	%xmm0, 64(%rsp)
	movups	16(%rbx), %xmm0
	movaps	%xmm0, 80(%rsp)
	movq	56(%rsp), %r11                  # 8-byte Reload
	movl	%r11d, 164(%rsp)
	movl	%r15d, 168(%rsp)
	movaps	176(%rsp), %xmm0                # 16-byte Reload
	movss	%xmm0, 172(%rsp)
	xorps	%xmm0, %xmm0
	movaps	%xmm0, 192(%rsp)
	movaps	%xmm0, 208(%rsp)
	cmpq	$0, 136(%rsp)                   # 8-byte Folded Reload
	je	.LBB10_5
# %bb.6:                                # %join.6.lr.ph.i.i.i
	movq	%r12, 256(%rsp)                 # 8-byte Spill
	movq	%r14, 104(%rsp)                 # 8-byte Spill
	movq	%r15, 264(%rsp)                 # 8-byte Spill
	leaq	(%r15,%r15), %r8
	xorl	%r10d, %r10d
	xorl	%r12d, %r12d
	xorl	%r13d, %r13d
	movq	%r8, 144(%rsp)                  # 8-byte Spill
	jmp	.LBB10_7
	.p2align	4
.LBB10_12:                              # %arm.8.thread.i.i.i
                                        #   in Loop: Header=BB10_7 Depth=1
	shlq	$3, %r8
	movw	%bx, 312(%rsp,%rax,2)
	notq	%rdi
	andq	%rdi, %r9
	movq	%r9, 64(%rsp,%r8)
	movl	%eax, %ecx
	shlq	%cl, %rdx
	shrl	$6, %eax
	orq	%rdx, 64(%rsp,%rax,8)
	movl	$2, %edx
	xorl	%esi, %esi
	movq	152(%rsp), %r13                 # 8-byte Reload
	movq	%r13, %rax
.LBB10_19:                              # %loop.3.i.i.i
                                        #   in Loop: Header=BB10_7 Depth=1
	addq	%rax, %rsi
	movq	%r13, %rax
	shrq	$32, %rax
	testq	%rax, %rax
	cmoveq	%rsi, %r13
	movq	176(%rsp), %r10                 # 8-byte Reload
	addq	%rdx, %r10
	incq	%r12
	cmpq	%r12, 136(%rsp)                 # 8-byte Folded Reload
	movq	1440(%rsp), %r9
	movq	144(%rsp), %r8                  # 8-byte Reload
	je	.LBB10_20
.LBB10_7:                               # %join.6.i.i.i
                                        # =>This Inner Loop Header: Depth=1
	movq	%r13, 152(%rsp)                 # 8-byte Spill
	movq	272(%rsp), %rax                 # 8-byte Reload
	movzwl	(%rax,%r12,2), %ebx
	cmpq	%r9, %r10
	movq	%r9, %rax
	cmovbq	%r10, %rax
	movq	1432(%rsp), %rcx
	leaq	(%rcx,%rax,8), %r13
	movq	%r9, %r15
	subq	%rax, %r15
	xorps	%xmm0, %xmm0
	movaps	%xmm0, 224(%rsp)
	movq	$0, 240(%rsp)
	movl	%ebx, %ebp
	shrl	$6, %ebp
	movq	64(%rsp,%rbp,8), %rdi
	shlq	$3, %rbp
	movl	$1, %edx
	movl	$1, %r14d
	movl	%ebx, %ecx
	shlq	%cl, %r14
	btq	%rbx, %rdi
	movzwl	824(%rsp,%r11,2), %esi
	movzwl	824(%rsp,%r8), %eax
	movzwl	%si, %ecx
	movq	%r10, 176(%rsp)                 # 8-byte Spill
	jae	.LBB10_13
# %bb.8:                                # %then.1.i.i.i.i
                                        #   in Loop: Header=BB10_7 Depth=1
	movzwl	312(%rsp,%rcx,2), %edx
	movw	%bx, 824(%rsp,%rdx,2)
	movw	%dx, 312(%rsp,%rbx,2)
	cmpq	%r10, %r9
	jbe	.LBB10_10
# %bb.9:                                # %then.1.i.i.i.i.i.i.i.i
                                        #   in Loop: Header=BB10_7 Depth=1
	movl	%ecx, %r8d
	shll	$16, %r8d
	shlq	$32, %rdx
	orq	%r8, %rdx
	orq	%rbx, %rdx
	movq	%rdx, (%r13)
.LBB10_10:                              # %"moving::cross.exit.i.i.i.i.i"
                                        #   in Loop: Header=BB10_7 Depth=1
	movq	1400(%rsp), %rbx
	movw	%bx, 312(%rsp,%rcx,2)
	notq	%r14
	andq	%r14, %rdi
	movq	%rdi, 64(%rsp,%rbp)
	movl	$1, %edi
	shlq	%cl, %rdi
	movl	$1, %edx
	movl	%ecx, %r8d
	shrl	$6, %r8d
	movq	64(%rsp,%r8,8), %r9
	movzwl	312(%rsp,%rax,2), %r10d
	movw	%si, 824(%rsp,%r10,2)
	movw	%r10w, 312(%rsp,%rcx,2)
	cmpq	$2, %r15
	jb	.LBB10_12
# %bb.11:                               # %then.1.i.i.i33.i.i.i.i.i
                                        #   in Loop: Header=BB10_7 Depth=1
	movl	%eax, %esi
	shll	$16, %esi
	shlq	$32, %r10
	orq	%rsi, %r10
	orq	%rcx, %r10
	movq	%r10, 8(%r13)
	jmp	.LBB10_12
	.p2align	4
.LBB10_13:                              # %join.3.i.i.i.i
                                        #   in Loop: Header=BB10_7 Depth=1
	movl	$1, %esi
	shlq	%cl, %rsi
                                        # kill: def $ecx killed $ecx killed $rcx
	shrl	$6, %ecx
	xorl	%edi, %edi
	testl	%ecx, %ecx
	movl	$0, %r8d
	cmoveq	%rsi, %r8
	cmpl	$1, %ecx
	movl	$0, %r9d
	cmoveq	%rsi, %r9
	cmpl	$2, %ecx
	movl	$0, %r10d
	cmoveq	%rsi, %r10
	cmpl	$3, %ecx
	cmovneq	%rdi, %rsi
	movl	%eax, %r11d
	shrl	$6, %r11d
	movl	%eax, %ecx
	shlq	%cl, %rdx
	testl	%r11d, %r11d
	movl	$0, %eax
	cmoveq	%rdx, %rax
	orq	%r8, %rax
	movq	%rax, 280(%rsp)
	cmpl	$1, %r11d
	movl	$0, %eax
	cmoveq	%rdx, %rax
	orq	%r9, %rax
	cmpl	$2, %r11d
	movl	$0, %ecx
	cmoveq	%rdx, %rcx
	movq	%rax, 288(%rsp)
	orq	%r10, %rcx
	movq	%rcx, 296(%rsp)
	cmpl	$3, %r11d
	cmovneq	%rdi, %rdx
	orq	%rsi, %rdx
	movq	%rdx, 304(%rsp)
	movq	%r15, 40(%rsp)
	movq	%r13, 128(%rsp)                 # 8-byte Spill
	movq	%r13, 32(%rsp)
	leaq	64(%rsp), %rax
	movq	%rax, 24(%rsp)
	movq	1416(%rsp), %rax
	movq	%rax, 16(%rsp)
	leaq	312(%rsp), %rax
	movq	%rax, 8(%rsp)
	movq	1400(%rsp), %rax
	movq	%rax, (%rsp)
	leaq	224(%rsp), %rdi
	leaq	280(%rsp), %rcx
	leaq	824(%rsp), %r9
	movq	112(%rsp), %rsi                 # 8-byte Reload
	movq	120(%rsp), %rdx                 # 8-byte Reload
	movl	%ebx, %r8d
	callq	"acting::make_room"
	cmpb	$1, 224(%rsp)
	jne	.LBB10_45
# %bb.14:                               # %arm.6.i.i.i.i
                                        #   in Loop: Header=BB10_7 Depth=1
	movq	232(%rsp), %rdx
	movq	240(%rsp), %rsi
	movq	56(%rsp), %rax                  # 8-byte Reload
	movzwl	824(%rsp,%rax,2), %ecx
	movq	144(%rsp), %rax                 # 8-byte Reload
	movzwl	824(%rsp,%rax), %eax
	movzwl	312(%rsp,%rcx,2), %r8d
	movw	%bx, 824(%rsp,%r8,2)
	movw	%r8w, 312(%rsp,%rbx,2)
	cmpq	%r15, %rdx
	movq	%r15, %rdi
	cmovbq	%rdx, %rdi
	jae	.LBB10_16
# %bb.15:                               # %then.1.i.i.i.i57.i.i.i.i
                                        #   in Loop: Header=BB10_7 Depth=1
	movl	%ecx, %r9d
	shll	$16, %r9d
	shlq	$32, %r8
	orq	%r9, %r8
	orq	%rbx, %r8
	movq	128(%rsp), %r9                  # 8-byte Reload
	movq	%r8, (%r9,%rdi,8)
.LBB10_16:                              # %"moving::cross.exit.i61.i.i.i.i"
                                        #   in Loop: Header=BB10_7 Depth=1
	subq	%rdi, %r15
	movq	1400(%rsp), %r8
	movw	%r8w, 312(%rsp,%rcx,2)
	notq	%r14
	andq	%r14, 64(%rsp,%rbp)
	movl	$1, %r9d
	shlq	%cl, %r9
	movl	$1, %r8d
	movl	%ecx, %r10d
	shrl	$6, %r10d
	movq	64(%rsp,%r10,8), %r11
	movzwl	312(%rsp,%rax,2), %ebx
	movw	%cx, 824(%rsp,%rbx,2)
	movw	%bx, 312(%rsp,%rcx,2)
	cmpq	$2, %r15
	movq	152(%rsp), %r13                 # 8-byte Reload
	jb	.LBB10_18
# %bb.17:                               # %then.1.i.i.i33.i93.i.i.i.i
                                        #   in Loop: Header=BB10_7 Depth=1
	movl	%eax, %r14d
	shll	$16, %r14d
	shlq	$32, %rbx
	orq	%r14, %rbx
	orq	%rcx, %rbx
	movq	128(%rsp), %rcx                 # 8-byte Reload
	movq	%rbx, 8(%rcx,%rdi,8)
.LBB10_18:                              # %arm.8.i.i.i
                                        #   in Loop: Header=BB10_7 Depth=1
	shlq	$3, %r10
	movq	1400(%rsp), %rbx
	movw	%bx, 312(%rsp,%rax,2)
	notq	%r9
	andq	%r9, %r11
	movq	%r11, 64(%rsp,%r10)
	movl	%eax, %ecx
	shlq	%cl, %r8
	shrl	$6, %eax
	orq	%r8, 64(%rsp,%rax,8)
	addq	$2, %rdx
	xorl	%eax, %eax
	movq	%rsi, %rcx
	shrq	$32, %rcx
	cmoveq	%r13, %rax
	movq	56(%rsp), %r11                  # 8-byte Reload
	jmp	.LBB10_19
.LBB10_20:
	movq	104(%rsp), %r14                 # 8-byte Reload
	movq	264(%rsp), %r15                 # 8-byte Reload
	movq	256(%rsp), %r12                 # 8-byte Reload
	jmp	.LBB10_21
.LBB10_5:                               # %start.arm.1_crit_edge.i.i
	leaq	(%r15,%r15), %r8
	xorl	%r10d, %r10d
	xorl	%r13d, %r13d
	movq	1400(%rsp), %rbx
.LBB10_21:                              # %arm.1.i.i
	cmpq	%r9, %r10
	movq	%r9, %rax
	cmovbq	%r10, %rax
	movq	1432(%rsp), %rcx
	leaq	(%rcx,%rax,8), %rcx
	movq	%r9, %rdx
	subq	%rax, %rdx
	movzwl	824(%rsp,%r8), %r8d
	movq	%rdx, 40(%rsp)
	movq	%rcx, 32(%rsp)
	leaq	64(%rsp), %rax
	movq	%rax, 24(%rsp)
	movq	1416(%rsp), %rax
	movq	%rax, 16(%rsp)
	leaq	312(%rsp), %rax
	movq	%rax, 8(%rsp)
	movq	%rbx, (%rsp)
	leaq	192(%rsp), %rdi
	leaq	164(%rsp), %rcx
	movq	%r9, %rbx
	leaq	824(%rsp), %r9
	movq	112(%rsp), %rsi                 # 8-byte Reload
	movq	120(%rsp), %rdx                 # 8-byte Reload
	movq	%r10, %rbp
	callq	"clear_on::clear_two"
	cmpb	$1, 192(%rsp)
	jne	.LBB10_22
# %bb.23:                               # %arm.1.i
	movq	216(%rsp), %rcx
	movzwl	202(%rsp), %edi
	movq	%r13, %rdx
	shrq	$32, %rdx
	xorl	%eax, %eax
	movq	%rcx, %rsi
	shrq	$32, %rsi
	cmoveq	%r13, %rax
	addq	%rcx, %rax
	testq	%rdx, %rdx
	cmovneq	%r13, %rax
	movl	200(%rsp), %ecx
	addq	208(%rsp), %rbp
	movzwl	824(%rsp,%r15,2), %edx
	cmpw	%cx, %di
	movl	%ecx, %esi
	cmovbl	%edi, %esi
	cmoval	%edi, %ecx
	cmpq	%rbx, %rbp
	movq	56(%rsp), %r10                  # 8-byte Reload
	movq	%rbx, %r9
	jb	.LBB10_24
# %bb.25:                               # %"exchange::note.exit.i.i"
	leaq	1(%rbp), %rdi
	cmpq	%r9, %rdi
	jb	.LBB10_26
.LBB10_27:                              # %"exchange::note.exit30.i.i"
	leaq	2(%rbp), %rdi
	cmpq	%r9, %rdi
	jb	.LBB10_28
.LBB10_29:                              # %"exchange::note.exit43.i.i"
	leaq	3(%rbp), %rdi
	cmpq	%r9, %rdi
	jb	.LBB10_30
.LBB10_31:                              # %"exchange::note.exit56.i.i"
	leaq	4(%rbp), %rsi
	cmpq	%r9, %rsi
	jb	.LBB10_32
.LBB10_33:                              # %"exchange::note.exit69.i.i"
	leaq	5(%rbp), %rdx
	cmpq	%r9, %rdx
	jb	.LBB10_34
.LBB10_35:                              # %"exchange::exchange.exit.i"
	leaq	6(%rbp), %rcx
	movq	%rbp, %r11
	testq	%rbp, %rbp
	jne	.LBB10_36
	jmp	.LBB10_43
.LBB10_22:                              # %"trial::set_up.exit.i"
	xorl	%edx, %edx
	xorl	%ecx, %ecx
	xorl	%eax, %eax
	jmp	.LBB10_44
.LBB10_24:                              # %then.1.i.i.i16.i
	movl	%r12d, %edi
	shll	$16, %edi
	movq	%r10, %r8
	shlq	$32, %r8
	orq	%rdi, %r8
	movzwl	%si, %edi
	orq	%r8, %rdi
	movq	1432(%rsp), %r8
	movq	%rdi, (%r8,%rbp,8)
	leaq	1(%rbp), %rdi
	cmpq	%r9, %rdi
	jae	.LBB10_27
.LBB10_26:                              # %then.1.i.i20.i.i
	movl	%edx, %edi
	shll	$16, %edi
	movq	%r15, %r8
	shlq	$32, %r8
	orq	%r12, %r8
	orq	%rdi, %r8
	movq	1432(%rsp), %rdi
	movq	%r8, 8(%rdi,%rbp,8)
	leaq	2(%rbp), %rdi
	cmpq	%r9, %rdi
	jae	.LBB10_29
.LBB10_28:                              # %then.1.i.i33.i.i
	movl	%r12d, %edi
	shll	$16, %edi
	movq	%r15, %r8
	shlq	$32, %r8
	orq	%rdi, %r8
	movzwl	%cx, %edi
	orq	%r8, %rdi
	movq	1432(%rsp), %r8
	movq	%rdi, 16(%r8,%rbp,8)
	leaq	3(%rbp), %rdi
	cmpq	%r9, %rdi
	jae	.LBB10_31
.LBB10_30:                              # %then.1.i.i46.i.i
	shll	$16, %esi
	movq	%r10, %rdi
	shlq	$32, %rdi
	orq	%rsi, %rdi
	orq	%r12, %rdi
	movq	1432(%rsp), %rsi
	movq	%rdi, 24(%rsi,%rbp,8)
	leaq	4(%rbp), %rsi
	cmpq	%r9, %rsi
	jae	.LBB10_33
.LBB10_32:                              # %then.1.i.i59.i.i
	movl	%r12d, %esi
	shll	$16, %esi
	movq	%r10, %rdi
	shlq	$32, %rdi
	orq	%rsi, %rdi
	orq	%rdx, %rdi
	movq	1432(%rsp), %rdx
	movq	%rdi, 32(%rdx,%rbp,8)
	leaq	5(%rbp), %rdx
	cmpq	%r9, %rdx
	jae	.LBB10_35
.LBB10_34:                              # %then.1.i.i72.i.i
	shll	$16, %ecx
	movq	%r15, %rdx
	shlq	$32, %rdx
	orq	%rcx, %rdx
	orq	%r12, %rdx
	movq	1432(%rsp), %rcx
	movq	%rdx, 40(%rcx,%rbp,8)
	leaq	6(%rbp), %rcx
	movq	%rbp, %r11
	testq	%rbp, %rbp
	je	.LBB10_43
.LBB10_36:                              # %join.5.i.i.preheader
	movq	%rcx, %rdx
	movq	%r11, %rsi
	jmp	.LBB10_37
	.p2align	4
.LBB10_42:                              # %"stores::store::<i64,21'core::clone::U64Clone{}>.exit.i.i"
                                        #   in Loop: Header=BB10_37 Depth=1
	incq	%rdx
	decq	%rsi
	je	.LBB10_43
.LBB10_37:                              # %join.5.i.i
                                        # =>This Inner Loop Header: Depth=1
	leaq	-1(%rsi), %rdi
	cmpq	%r9, %rdi
	jae	.LBB10_38
# %bb.39:                               # %then.1.i.i.i
                                        #   in Loop: Header=BB10_37 Depth=1
	movq	1432(%rsp), %rdi
	movq	-8(%rdi,%rsi,8), %rdi
	cmpq	%r9, %rdx
	jae	.LBB10_42
	jmp	.LBB10_41
	.p2align	4
.LBB10_38:                              #   in Loop: Header=BB10_37 Depth=1
	xorl	%edi, %edi
	cmpq	%r9, %rdx
	jae	.LBB10_42
.LBB10_41:                              # %then.1.i6.i.i
                                        #   in Loop: Header=BB10_37 Depth=1
	movq	%rdi, %r8
	shrq	$32, %r8
	cmpl	%r8d, %r15d
	movl	%r8d, %r9d
	cmovel	%r10d, %r9d
	cmpl	%r8d, %r10d
	cmovel	%r15d, %r9d
	shlq	$32, %r9
	movl	%edi, %r8d
	shll	$16, %r8d
	orq	%r9, %r8
	movq	1440(%rsp), %r9
	shrl	$16, %edi
	orq	%r8, %rdi
	movq	1432(%rsp), %r8
	movq	%rdi, (%r8,%rdx,8)
	jmp	.LBB10_42
.LBB10_43:                              # %"undo::undo.exit.i"
	addq	%r11, %rcx
	movl	$1, %edx
	jmp	.LBB10_44
.LBB10_45:                              # %"trial::set_up.exit.thread.i"
	xorl	%edx, %edx
	xorl	%ecx, %ecx
	xorl	%eax, %eax
	movq	104(%rsp), %r14                 # 8-byte Reload
.LBB10_44:                              # %"trial::attempt_on.exit"
	movq	%rdx, (%r14)
	movq	%rcx, 8(%r14)
	movq	%rax, 16(%r14)
	addq	$1336, %rsp                     # imm = 0x538
	.cfi_def_cfa_offset 56
	popq	%rbx
	.cfi_def_cfa_offset 48
	popq	%r12
	.cfi_def_cfa_offset 40
	popq	%r13
	.cfi_def_cfa_offset 32
	popq	%r14
	.cfi_def_cfa_offset 24
	popq	%r15
	.cfi_def_cfa_offset 16
	popq	%rbp
	.cfi_def_cfa_offset 8
	retq
.Lfunc_end10:
	.size	"trial::attempt", .Lfunc_end10-"trial::attempt"
	.cfi_endproc
                                        # -- End function
	.section	.rodata.cst16,"aM",@progbits,16
	.p2align	4, 0x0                          # -- Begin function acting::make_room
.LCPI11_0:
	.zero	16,85
.LCPI11_1:
	.zero	16,51
.LCPI11_2:
	.zero	16,15
	.section	".text.acting::make_room","ax",@progbits
	.p2align	4
	.type	"acting::make_room",@function
"acting::make_room":                    # @"acting::make_room"
	.cfi_startproc
# %bb.0:                                # %start
	pushq	%rbp
	.cfi_def_cfa_offset 16
	pushq	%r15
	.cfi_def_cfa_offset 24
	pushq	%r14
	.cfi_def_cfa_offset 32
	pushq	%r13
	.cfi_def_cfa_offset 40
	pushq	%r12
	.cfi_def_cfa_offset 48
	pushq	%rbx
	.cfi_def_cfa_offset 56
	subq	$3072, %rsp                     # imm = 0xC00
	.cfi_adjust_cfa_offset 3072
	movq	$0, (%rsp)
	subq	$3072, %rsp                     # imm = 0xC00
	.cfi_adjust_cfa_offset 3072
	movq	$0, (%rsp)
	subq	$3072, %rsp                     # imm = 0xC00
	.cfi_adjust_cfa_offset 3072
	movq	$0, (%rsp)
	subq	$712, %rsp                      # imm = 0x2C8
	.cfi_def_cfa_offset 9984
	.cfi_offset %rbx, -56
	.cfi_offset %r12, -48
	.cfi_offset %r13, -40
	.cfi_offset %r14, -32
	.cfi_offset %r15, -24
	.cfi_offset %rbp, -16
	movl	%r8d, %r10d
	movq	%rcx, %r15
	movq	%rdx, %r13
	movq	10008(%rsp), %r8
	movl	%r10d, %eax
	shrl	$3, %eax
	andl	$8184, %eax                     # imm = 0x1FF8
	movq	(%r8,%rax), %rdx
	movl	$1, %r11d
	movl	$1, %ebx
	movl	%r10d, %ecx
	shlq	%cl, %rbx
	btq	%r10, %rdx
	jb	.LBB11_3
# %bb.1:                                # %join.3.i
	testq	%rbx, (%r15,%rax)
	je	.LBB11_5
# %bb.2:
	xorl	%r11d, %r11d
.LBB11_3:
	xorl	%eax, %eax
	xorl	%ecx, %ecx
.LBB11_4:                               # %"acting::counted.exit"
	movq	%r11, (%rdi)
	movq	%rax, 8(%rdi)
	movq	%rcx, 16(%rdi)
	addq	$9928, %rsp                     # imm = 0x26C8
	.cfi_def_cfa_offset 56
	popq	%rbx
	.cfi_def_cfa_offset 48
	popq	%r12
	.cfi_def_cfa_offset 40
	popq	%r13
	.cfi_def_cfa_offset 32
	popq	%r14
	.cfi_def_cfa_offset 24
	popq	%r15
	.cfi_def_cfa_offset 16
	popq	%rbp
	.cfi_def_cfa_offset 8
	retq
.LBB11_5:                               # %join.6.i
	.cfi_def_cfa_offset 9984
	movq	%r9, 32(%rsp)                   # 8-byte Spill
	movq	%rbx, 24(%rsp)                  # 8-byte Spill
	movq	%r10, 72(%rsp)                  # 8-byte Spill
	movzwl	%r10w, %edx
	movq	(%r15), %rbx
	movq	8(%r15), %r12
	movq	%rbx, %rcx
	notq	%rcx
	movq	(%r8), %r10
	movq	%rcx, 80(%rsp)                  # 8-byte Spill
	andq	%rcx, %r10
	movq	%r12, %rcx
	notq	%rcx
	movq	8(%r8), %r11
	movq	%rcx, 152(%rsp)                 # 8-byte Spill
	andq	%rcx, %r11
	movq	16(%r15), %rbp
	movq	%rbp, %rcx
	notq	%rcx
	movq	16(%r8), %r14
	movq	%rcx, 144(%rsp)                 # 8-byte Spill
	andq	%rcx, %r14
	movq	%r15, 96(%rsp)                  # 8-byte Spill
	movq	24(%r15), %r15
	movq	%r15, %rcx
	notq	%rcx
	movq	%r13, %r9
	movq	24(%r8), %r13
	movq	%rcx, 136(%rsp)                 # 8-byte Spill
	andq	%rcx, %r13
	movq	%rdx, 40(%rsp)                  # 8-byte Spill
                                        # kill: def $edx killed $edx killed $rdx def $rdx
	shll	$5, %edx
	movdqu	(%rsi,%rdx), %xmm1
	movdqu	16(%rsi,%rdx), %xmm0
	movq	(%rsi,%rdx), %r8
	movq	%r10, 128(%rsp)                 # 8-byte Spill
	andq	%r10, %r8
	movq	8(%rsi,%rdx), %rcx
	movq	%r11, 120(%rsp)                 # 8-byte Spill
	andq	%r11, %rcx
	movq	%rcx, %r11
	orq	%r8, %r11
	movq	16(%rsi,%rdx), %r10
	movq	%r14, 112(%rsp)                 # 8-byte Spill
	andq	%r14, %r10
	orq	%r10, %r11
	movq	24(%rsi,%rdx), %rdx
	movq	%r13, 104(%rsp)                 # 8-byte Spill
	andq	%r13, %rdx
	movq	%r9, %r13
	orq	%rdx, %r11
	je	.LBB11_13
# %bb.6:                                # %repeat.4.preheader.i.i.i
	movq	%r8, 1736(%rsp)
	movq	%rcx, 1744(%rsp)
	movq	%r10, 1752(%rsp)
	movq	%rdx, 1760(%rsp)
	testq	%r8, %r8
	je	.LBB11_8
# %bb.7:
	xorl	%r11d, %r11d
	movq	%r8, %rcx
	jmp	.LBB11_11
.LBB11_8:                               # %join.5.i.preheader.i.i.i.i
	movl	$64, %r11d
	testq	%rcx, %rcx
	jne	.LBB11_11
# %bb.9:                                # %join.8.i.i.i.i.i
	movl	$128, %r11d
	movq	%r10, %rcx
	testq	%r10, %r10
	jne	.LBB11_11
# %bb.10:                               # %join.8.i.1.i.i.i.i
	movl	$192, %r11d
	movq	%rdx, %rcx
	testq	%rdx, %rdx
	je	.LBB11_13
.LBB11_11:                              # %join.3.i.i.i.i
	rep		bsfq	%rcx, %rcx
	movq	%rcx, %r13
	orq	%r11, %r13
	cmpq	$255, %r13
	movq	9992(%rsp), %rbp
	movq	40(%rsp), %rbx                  # 8-byte Reload
	je	.LBB11_49
# %bb.38:                               # %join.5.preheader.i.i.i.i.i
	addq	%r11, %rcx
	incq	%rcx
	movl	%ecx, %edx
	shrl	$6, %edx
	andl	$63, %ecx
	movq	1736(%rsp,%rdx,8), %r8
	shrq	%cl, %r8
	testq	%r8, %r8
	je	.LBB11_46
.LBB11_39:                              # %"words::next_from.exit30.i.i.i.i"
	shlq	$6, %rdx
	orq	%rcx, %rdx
	rep		bsfq	%r8, %rcx
	addq	%rdx, %rcx
	cmpq	$255, %rcx
	ja	.LBB11_49
# %bb.53:                               # %join.6.i.i.i.i
	movl	%r13d, %edx
	shll	$5, %edx
	movq	(%rsi,%rdx), %r11
	movq	8(%rsi,%rdx), %r12
	movq	%r11, %r8
	shrq	%r8
	movabsq	$6148914691236517205, %r10      # imm = 0x5555555555555555
	andq	%r10, %r8
	subq	%r8, %r11
	movabsq	$3689348814741910323, %r8       # imm = 0x3333333333333333
	movq	%r11, %rbx
	andq	%r8, %rbx
	shrq	$2, %r11
	andq	%r8, %r11
	addq	%rbx, %r11
	movq	%r11, %rbp
	shrq	$4, %rbp
	addq	%r11, %rbp
	movabsq	$1085102592571150095, %r11      # imm = 0xF0F0F0F0F0F0F0F
	andq	%r11, %rbp
	movabsq	$72340172838076673, %rbx        # imm = 0x101010101010101
	imulq	%rbx, %rbp
	shrq	$56, %rbp
	movq	%r12, %r15
	shrq	%r15
	andq	%r10, %r15
	subq	%r15, %r12
	movq	%r12, %r15
	andq	%r8, %r15
	shrq	$2, %r12
	andq	%r8, %r12
	addq	%r15, %r12
	movq	%r12, %r15
	shrq	$4, %r15
	addq	%r12, %r15
	andq	%r11, %r15
	imulq	%rbx, %r15
	shrq	$56, %r15
	addq	%rbp, %r15
	movq	16(%rsi,%rdx), %rbp
	movq	%rbp, %r12
	shrq	%r12
	andq	%r10, %r12
	subq	%r12, %rbp
	movq	%rbp, %r12
	andq	%r8, %r12
	shrq	$2, %rbp
	andq	%r8, %rbp
	addq	%r12, %rbp
	movq	%rbp, %r12
	shrq	$4, %r12
	addq	%rbp, %r12
	andq	%r11, %r12
	imulq	%rbx, %r12
	shrq	$56, %r12
	movq	24(%rsi,%rdx), %rbp
	movq	%rbp, %rdx
	shrq	%rdx
	andq	%r10, %rdx
	subq	%rdx, %rbp
	movq	%rbp, %rdx
	andq	%r8, %rdx
	shrq	$2, %rbp
	andq	%r8, %rbp
	addq	%rdx, %rbp
	movq	%rbp, %rdx
	shrq	$4, %rdx
	addq	%rbp, %rdx
	movq	9992(%rsp), %rbp
	andq	%r11, %rdx
	imulq	%rbx, %rdx
	movq	40(%rsp), %rbx                  # 8-byte Reload
	shrq	$56, %rdx
	addq	%r12, %rdx
	addq	%r15, %rdx
	movl	$1, %r11d
	jmp	.LBB11_60
.LBB11_13:                              # %join.9.i
	movdqa	%xmm1, 160(%rsp)                # 16-byte Spill
	movdqa	%xmm0, 176(%rsp)                # 16-byte Spill
	movq	%rsi, 64(%rsp)                  # 8-byte Spill
	movq	%rdi, 88(%rsp)                  # 8-byte Spill
	movq	10000(%rsp), %r14
	leaq	200(%rsp), %rdi
	movl	$512, %edx                      # imm = 0x200
	xorl	%esi, %esi
	callq	memset@PLT
	leaq	(,%r14,8), %rax
	cmpq	%rax, %r13
	jae	.LBB11_41
# %bb.14:                               # %then.1.i.i.i
	movdqa	160(%rsp), %xmm1                # 16-byte Reload
	movdqa	%xmm1, %xmm0
	psrlw	$1, %xmm0
	movdqa	.LCPI11_0(%rip), %xmm2          # xmm2 = [85,85,85,85,85,85,85,85,85,85,85,85,85,85,85,85]
	pand	%xmm2, %xmm0
	psubb	%xmm0, %xmm1
	movdqa	.LCPI11_1(%rip), %xmm3          # xmm3 = [51,51,51,51,51,51,51,51,51,51,51,51,51,51,51,51]
	movdqa	%xmm1, %xmm0
	pand	%xmm3, %xmm0
	psrlw	$2, %xmm1
	pand	%xmm3, %xmm1
	paddb	%xmm0, %xmm1
	movdqa	%xmm1, %xmm0
	psrlw	$4, %xmm0
	paddb	%xmm1, %xmm0
	movdqa	.LCPI11_2(%rip), %xmm4          # xmm4 = [15,15,15,15,15,15,15,15,15,15,15,15,15,15,15,15]
	pand	%xmm4, %xmm0
	movdqa	176(%rsp), %xmm5                # 16-byte Reload
	movdqa	%xmm5, %xmm1
	psrlw	$1, %xmm1
	pand	%xmm2, %xmm1
	psubb	%xmm1, %xmm5
	movdqa	%xmm5, %xmm1
	pand	%xmm3, %xmm1
	psrlw	$2, %xmm5
	pand	%xmm3, %xmm5
	paddb	%xmm1, %xmm5
	movdqa	%xmm5, %xmm1
	psrlw	$4, %xmm1
	paddb	%xmm5, %xmm1
	pand	%xmm4, %xmm1
	paddb	%xmm0, %xmm1
	pxor	%xmm0, %xmm0
	psadbw	%xmm0, %xmm1
	pshufd	$238, %xmm1, %xmm2              # xmm2 = xmm1[2,3,2,3]
	paddq	%xmm1, %xmm2
	movq	%xmm2, %rax
	cmpl	$3, %eax
	ja	.LBB11_54
# %bb.15:                               # %repeat.4.preheader.i.i.i.i.i
	leaq	1736(%rsp), %rdi
	movl	$512, %edx                      # imm = 0x200
	xorl	%esi, %esi
	callq	memset@PLT
	movq	72(%rsp), %rax                  # 8-byte Reload
	movw	%ax, 200(%rsp)
	cmpq	$0, 10000(%rsp)
	movq	64(%rsp), %rdi                  # 8-byte Reload
	je	.LBB11_121
# %bb.16:                               # %join.5.i.preheader.lr.ph.i.i.i.i.i
	movq	40(%rsp), %rcx                  # 8-byte Reload
	shrl	$6, %ecx
	xorl	%r8d, %r8d
	cmpl	$3, %ecx
	movl	$0, %eax
	movq	24(%rsp), %rdx                  # 8-byte Reload
	cmoveq	%rdx, %rax
	orq	%rax, %r15
	cmpl	$2, %ecx
	movl	$0, %eax
	cmoveq	%rdx, %rax
	orq	%rax, %rbp
	cmpl	$1, %ecx
	movl	$0, %eax
	cmoveq	%rdx, %rax
	orq	%rax, %r12
	testl	%ecx, %ecx
	cmovneq	%r8, %rdx
	orq	%rdx, %rbx
	movl	$1, %esi
	movb	$1, 80(%rsp)                    # 1-byte Folded Spill
	movq	$0, 24(%rsp)                    # 8-byte Folded Spill
	movl	$1, %r9d
	jmp	.LBB11_18
	.p2align	4
.LBB11_17:                              # %"queue::meet.exit.i.i.i.i.i.i"
                                        #   in Loop: Header=BB11_18 Depth=1
	incq	%r8
	cmpq	%rsi, %r8
	je	.LBB11_30
.LBB11_18:                              # %join.5.i.i.i.i.i50.i
                                        # =>This Loop Header: Depth=1
                                        #     Child Loop BB11_19 Depth 2
                                        #     Child Loop BB11_22 Depth 2
                                        #     Child Loop BB11_25 Depth 2
                                        #     Child Loop BB11_28 Depth 2
	movzwl	200(%rsp,%r8,2), %r11d
	movl	%r11d, %r10d
	shll	$5, %r11d
	movq	(%rdi,%r11), %r14
	movq	%rbx, %r13
	notq	%r13
	andq	%r14, %r13
	je	.LBB11_21
	.p2align	4
.LBB11_19:                              # %join.5.i.i.i.i.i.i.i.i.i
                                        #   Parent Loop BB11_18 Depth=1
                                        # =>  This Inner Loop Header: Depth=2
	movq	%r13, %rax
	rep		bsfq	%r13, %rdx
	decq	%r13
	movw	%dx, 200(%rsp,%r9,2)
	incq	%r9
	movw	%r10w, 1736(%rsp,%rdx,2)
	andq	%rax, %r13
	jne	.LBB11_19
# %bb.20:                               # %"queue::meet_word.exit.i.i.loopexit.i.i.i.i.i"
                                        #   in Loop: Header=BB11_18 Depth=1
	orq	%r14, %rbx
.LBB11_21:                              # %"queue::meet_word.exit.i.i.i.i.i.i.i"
                                        #   in Loop: Header=BB11_18 Depth=1
	movq	8(%rdi,%r11), %r14
	movq	%r12, %r13
	notq	%r13
	andq	%r14, %r13
	je	.LBB11_24
	.p2align	4
.LBB11_22:                              # %join.5.i.i.1.i.i.i.i.i.i.i
                                        #   Parent Loop BB11_18 Depth=1
                                        # =>  This Inner Loop Header: Depth=2
	movq	%r13, %rax
	rep		bsfq	%r13, %rdx
	movw	%r10w, 1864(%rsp,%rdx,2)
	orq	$64, %rdx
	decq	%r13
	movw	%dx, 200(%rsp,%r9,2)
	incq	%r9
	andq	%rax, %r13
	jne	.LBB11_22
# %bb.23:                               # %"queue::meet_word.exit.1.i.i.loopexit.i.i.i.i.i"
                                        #   in Loop: Header=BB11_18 Depth=1
	orq	%r14, %r12
.LBB11_24:                              # %"queue::meet_word.exit.1.i.i.i.i.i.i.i"
                                        #   in Loop: Header=BB11_18 Depth=1
	movq	16(%rdi,%r11), %r14
	movq	%rbp, %r13
	notq	%r13
	andq	%r14, %r13
	je	.LBB11_27
	.p2align	4
.LBB11_25:                              # %join.5.i.i.2.i.i.i.i.i.i.i
                                        #   Parent Loop BB11_18 Depth=1
                                        # =>  This Inner Loop Header: Depth=2
	movq	%r13, %rax
	rep		bsfq	%r13, %rdx
	leaq	128(%rdx), %rcx
	decq	%r13
	movw	%cx, 200(%rsp,%r9,2)
	incq	%r9
	movw	%r10w, 1992(%rsp,%rdx,2)
	andq	%rax, %r13
	jne	.LBB11_25
# %bb.26:                               # %"queue::meet_word.exit.2.i.i.loopexit.i.i.i.i.i"
                                        #   in Loop: Header=BB11_18 Depth=1
	orq	%r14, %rbp
.LBB11_27:                              # %"queue::meet_word.exit.2.i.i.i.i.i.i.i"
                                        #   in Loop: Header=BB11_18 Depth=1
	movq	24(%rdi,%r11), %r11
	movq	%r15, %r14
	notq	%r14
	andq	%r11, %r14
	je	.LBB11_17
	.p2align	4
.LBB11_28:                              # %join.5.i.i.3.i.i.i.i.i.i.i
                                        #   Parent Loop BB11_18 Depth=1
                                        # =>  This Inner Loop Header: Depth=2
	movq	%r14, %rax
	rep		bsfq	%r14, %rcx
	movw	%r10w, 2120(%rsp,%rcx,2)
	orq	$192, %rcx
	decq	%r14
	movw	%cx, 200(%rsp,%r9,2)
	incq	%r9
	andq	%rax, %r14
	jne	.LBB11_28
# %bb.29:                               # %"queue::meet.exit.i.loopexit.i.i.i.i.i"
                                        #   in Loop: Header=BB11_18 Depth=1
	orq	%r11, %r15
	jmp	.LBB11_17
.LBB11_30:                              # %"queue::pass.exit.i.i.i.i.i"
                                        #   in Loop: Header=BB11_18 Depth=1
	cmpq	%rsi, %r9
	je	.LBB11_121
# %bb.31:                               # %join.17.i.i.i.i.i
                                        #   in Loop: Header=BB11_18 Depth=1
	movq	%rbx, %r8
	andq	128(%rsp), %r8                  # 8-byte Folded Reload
	movq	%r12, %r10
	andq	120(%rsp), %r10                 # 8-byte Folded Reload
	movq	%r10, %rax
	orq	%r8, %rax
	movq	%rbp, %r11
	andq	112(%rsp), %r11                 # 8-byte Folded Reload
	orq	%r11, %rax
	movq	%r15, %r14
	andq	104(%rsp), %r14                 # 8-byte Folded Reload
	orq	%r14, %rax
	je	.LBB11_36
# %bb.32:                               # %repeat.4.preheader.i.i.i.i.i.i
                                        #   in Loop: Header=BB11_18 Depth=1
	movq	%r8, 712(%rsp)
	movq	%r10, 720(%rsp)
	movq	%r11, 728(%rsp)
	movq	%r14, 736(%rsp)
	testq	%r8, %r8
	jne	.LBB11_84
# %bb.33:                               # %join.5.i.preheader.i.i.i.i.i.i.i
                                        #   in Loop: Header=BB11_18 Depth=1
	testq	%r10, %r10
	jne	.LBB11_85
# %bb.34:                               # %join.8.i.i.i.i.i.i.i.i
                                        #   in Loop: Header=BB11_18 Depth=1
	testq	%r11, %r11
	jne	.LBB11_86
# %bb.35:                               # %join.8.i.1.i.i.i.i.i.i.i
                                        #   in Loop: Header=BB11_18 Depth=1
	testq	%r14, %r14
	jne	.LBB11_87
.LBB11_36:                              # %join.20.i.i.i.i.i
                                        #   in Loop: Header=BB11_18 Depth=1
	movq	24(%rsp), %rcx                  # 8-byte Reload
	incq	%rcx
	movq	%rcx, 24(%rsp)                  # 8-byte Spill
	cmpq	10000(%rsp), %rcx
	jae	.LBB11_121
# %bb.37:                               # %join.20.i.i.i.i.i
                                        #   in Loop: Header=BB11_18 Depth=1
	incb	80(%rsp)                        # 1-byte Folded Spill
	cmpq	%r9, %rsi
	movq	%rsi, %r8
	movq	%r9, %rsi
	jb	.LBB11_18
	jmp	.LBB11_121
.LBB11_41:                              # %join.3.i.i.i
	leaq	(,%r14,4), %rcx
	movabsq	$-576460752303423486, %rdi      # imm = 0xF800000000000002
	imulq	%r14, %rdi
	movq	40(%rsp), %rdx                  # 8-byte Reload
                                        # kill: def $edx killed $edx killed $rdx def $rdx
	shll	$5, %edx
	movq	64(%rsp), %rax                  # 8-byte Reload
	leaq	(%rdx,%rax), %r9
	addq	$24, %r9
	movq	$-1, %r12
	xorl	%r11d, %r11d
	movq	32(%rsp), %rdx                  # 8-byte Reload
	movq	9992(%rsp), %rbp
	.p2align	4
.LBB11_42:                              # %loop.2.i.i.i.i.i
                                        # =>This Inner Loop Header: Depth=1
	leaq	(%r11,%rcx), %r15
	cmpq	%r13, %r15
	ja	.LBB11_118
# %bb.43:                               # %join.5.i.i.i.i.i
                                        #   in Loop: Header=BB11_42 Depth=1
	subq	10000(%rsp), %rdi
	incq	%r12
	movq	-24(%r9,%r11,8), %rbx
	andq	128(%rsp), %rbx                 # 8-byte Folded Reload
	movq	-16(%r9,%r11,8), %r8
	andq	120(%rsp), %r8                  # 8-byte Folded Reload
	movq	%r8, %rsi
	orq	%rbx, %rsi
	movq	-8(%r9,%r11,8), %r14
	andq	112(%rsp), %r14                 # 8-byte Folded Reload
	orq	%r14, %rsi
	movq	(%r9,%r11,8), %r10
	andq	104(%rsp), %r10                 # 8-byte Folded Reload
	orq	%r10, %rsi
	movq	%r15, %r11
	je	.LBB11_42
# %bb.44:                               # %repeat.4.preheader.i.i14.i.i.i
	movq	%rbx, 1736(%rsp)
	movq	%r8, 1744(%rsp)
	movq	%r14, 1752(%rsp)
	movq	%r10, 1760(%rsp)
	testq	%rbx, %rbx
	je	.LBB11_64
# %bb.45:
	xorl	%ecx, %ecx
	movq	%rbx, %r8
	jmp	.LBB11_67
.LBB11_46:                              # %join.8.peel.i20.i.i.i.i
	incq	%rdx
	cmpq	$4, %rdx
	je	.LBB11_49
.LBB11_47:                              # %join.5.i21.i.i.i.i
                                        # =>This Inner Loop Header: Depth=1
	movq	1736(%rsp,%rdx,8), %r8
	testq	%r8, %r8
	jne	.LBB11_71
# %bb.48:                               # %join.8.i27.i.i.i.i
                                        #   in Loop: Header=BB11_47 Depth=1
	incq	%rdx
	cmpq	$4, %rdx
	jne	.LBB11_47
.LBB11_49:
	movl	$1, %r11d
.LBB11_50:                              # %then.7.i
	movzwl	%r13w, %ecx
	movzwl	(%rbp,%rbx,2), %edx
	movq	32(%rsp), %r8                   # 8-byte Reload
	movw	%cx, (%r8,%rdx,2)
	movl	%ecx, %r8d
	movw	%dx, (%rbp,%r8,2)
	cmpq	$0, 10024(%rsp)
	je	.LBB11_52
# %bb.51:                               # %then.1.i.i.i.i
	movl	%ebx, %r8d
	shll	$16, %r8d
	shlq	$32, %rdx
	orq	%r8, %rdx
	orq	%rcx, %rdx
	movq	10016(%rsp), %rcx
	movq	%rdx, (%rcx)
.LBB11_52:                              # %"vacate::vacate.exit.thread10"
	movq	$-2, %rdx
	movl	%r13d, %ecx
	rolq	%cl, %rdx
	movq	9984(%rsp), %rcx
	movw	%cx, (%rbp,%rbx,2)
	movl	%r13d, %ecx
	shrl	$3, %ecx
	andl	$8184, %ecx                     # imm = 0x1FF8
	movq	10008(%rsp), %r8
	andq	%rdx, (%r8,%rcx)
	movq	24(%rsp), %rcx                  # 8-byte Reload
	orq	%rcx, (%r8,%rax)
	movl	$1, %eax
	jmp	.LBB11_126
.LBB11_54:                              # %join.3.i.i.i46.i
	movdqa	%xmm0, 48(%rsp)
	leaq	744(%rsp), %rdi
	movl	$992, %edx                      # imm = 0x3E0
	xorl	%esi, %esi
	callq	memset@PLT
	leaq	200(%rsp), %r12
	movq	%r12, 16(%rsp)
	leaq	712(%rsp), %rax
	movq	%rax, (%rsp)
	movq	$128, 8(%rsp)
	leaq	48(%rsp), %rdi
	movq	64(%rsp), %rsi                  # 8-byte Reload
	movq	10000(%rsp), %rbx
	movq	%rbx, %rdx
	movq	96(%rsp), %r15                  # 8-byte Reload
	movq	%r15, %rcx
	movq	72(%rsp), %r14                  # 8-byte Reload
	movl	%r14d, %r8d
	movq	10008(%rsp), %r9
	callq	"rings::way_near"
	movzbl	48(%rsp), %eax
	cmpb	$2, %al
	jne	.LBB11_56
# %bb.55:                               # %repeat.7.preheader.i.i.i.i.i
	leaq	1768(%rsp), %rdi
	movl	$8160, %edx                     # imm = 0x1FE0
	xorl	%esi, %esi
	callq	memset@PLT
	movq	%r12, 16(%rsp)
	leaq	1736(%rsp), %rax
	movq	%rax, (%rsp)
	movq	$1024, 8(%rsp)                  # imm = 0x400
	leaq	48(%rsp), %rdi
	movq	64(%rsp), %rsi                  # 8-byte Reload
	movq	%rbx, %rdx
	movq	%r15, %rcx
	movl	%r14d, %r8d
	movq	10008(%rsp), %r9
	callq	"rings::way_near"
	movzbl	48(%rsp), %eax
.LBB11_56:                              # %"ways::way_to_nearest.exit.i.i.i"
	testb	%al, %al
	movq	9992(%rsp), %rbp
	jne	.LBB11_121
.LBB11_57:
	movq	56(%rsp), %r12
	movzwl	50(%rsp), %r13d
	movq	32(%rsp), %rdx                  # 8-byte Reload
	jmp	.LBB11_124
.LBB11_58:                              #   in Loop: Header=BB11_60 Depth=1
	xorl	%ecx, %ecx
.LBB11_59:                              # %"words::next_from.exit.i.i.i.i.i"
                                        #   in Loop: Header=BB11_60 Depth=1
	shlq	$6, %r8
	orq	%rcx, %r8
	rep		bsfq	%r10, %rcx
	addq	%r8, %rcx
	cmpq	$256, %rcx                      # imm = 0x100
	jae	.LBB11_50
.LBB11_60:                              # %join.5.i31.i.i.i.i
                                        # =>This Loop Header: Depth=1
                                        #     Child Loop BB11_62 Depth 2
	movq	%rcx, %r8
	shlq	$5, %r8
	movdqu	(%rsi,%r8), %xmm0
	movdqu	16(%rsi,%r8), %xmm1
	movdqa	%xmm1, %xmm2
	psrlw	$1, %xmm2
	movdqa	.LCPI11_0(%rip), %xmm3          # xmm3 = [85,85,85,85,85,85,85,85,85,85,85,85,85,85,85,85]
	pand	%xmm3, %xmm2
	psubb	%xmm2, %xmm1
	movdqa	.LCPI11_1(%rip), %xmm2          # xmm2 = [51,51,51,51,51,51,51,51,51,51,51,51,51,51,51,51]
	movdqa	%xmm1, %xmm4
	pand	%xmm2, %xmm4
	psrlw	$2, %xmm1
	pand	%xmm2, %xmm1
	paddb	%xmm4, %xmm1
	movdqa	%xmm1, %xmm4
	psrlw	$4, %xmm4
	paddb	%xmm1, %xmm4
	movdqa	.LCPI11_2(%rip), %xmm1          # xmm1 = [15,15,15,15,15,15,15,15,15,15,15,15,15,15,15,15]
	pand	%xmm1, %xmm4
	movdqa	%xmm0, %xmm5
	psrlw	$1, %xmm5
	pand	%xmm3, %xmm5
	psubb	%xmm5, %xmm0
	movdqa	%xmm0, %xmm3
	pand	%xmm2, %xmm3
	psrlw	$2, %xmm0
	pand	%xmm2, %xmm0
	paddb	%xmm3, %xmm0
	movdqa	%xmm0, %xmm2
	psrlw	$4, %xmm2
	paddb	%xmm0, %xmm2
	pand	%xmm1, %xmm2
	paddb	%xmm4, %xmm2
	pxor	%xmm0, %xmm0
	psadbw	%xmm2, %xmm0
	pshufd	$238, %xmm0, %xmm1              # xmm1 = xmm0[2,3,2,3]
	paddq	%xmm0, %xmm1
	movq	%xmm1, %r8
	cmpq	%rdx, %r8
	cmovbq	%rcx, %r13
	cmovbq	%r8, %rdx
	cmpq	$255, %rcx
	je	.LBB11_50
# %bb.61:                               # %join.5.preheader.i.i.i.i.i.i
                                        #   in Loop: Header=BB11_60 Depth=1
	incq	%rcx
	movq	%rcx, %r8
	shrq	$6, %r8
	andl	$63, %ecx
	movq	1736(%rsp,%r8,8), %r10
	shrq	%cl, %r10
	testq	%r10, %r10
	jne	.LBB11_59
	.p2align	4
.LBB11_62:                              # %join.8.peel.i.i.i.i.i.i
                                        #   Parent Loop BB11_60 Depth=1
                                        # =>  This Inner Loop Header: Depth=2
	incq	%r8
	cmpq	$4, %r8
	je	.LBB11_50
# %bb.63:                               # %join.5.i.i.i.i.i.i
                                        #   in Loop: Header=BB11_62 Depth=2
	movq	1736(%rsp,%r8,8), %r10
	testq	%r10, %r10
	je	.LBB11_62
	jmp	.LBB11_58
.LBB11_64:                              # %join.5.i.preheader.i.i.i.i.i.i
	movl	$64, %ecx
	testq	%r8, %r8
	jne	.LBB11_67
# %bb.65:                               # %join.8.i.i.i.i.i.i.i
	movl	$128, %ecx
	movq	%r14, %r8
	testq	%r14, %r14
	jne	.LBB11_67
# %bb.66:                               # %join.8.i.1.i.i.i.i.i.i
	movl	$192, %ecx
	movq	%r10, %r8
	testq	%r10, %r10
	je	.LBB11_109
.LBB11_67:                              # %join.3.i.i.i.i.i.i
	rep		bsfq	%r8, %r9
	movq	%r9, %r8
	orq	%rcx, %r8
	movl	$255, %r13d
	cmpq	$255, %r8
	movq	40(%rsp), %r11                  # 8-byte Reload
	je	.LBB11_110
# %bb.68:                               # %join.5.preheader.i.i.i.i.i.i.i
	addq	%r9, %rcx
	incq	%rcx
	movl	%ecx, %r9d
	shrl	$6, %r9d
	andl	$63, %ecx
	movq	1736(%rsp,%r9,8), %r10
	shrq	%cl, %r10
	testq	%r10, %r10
	je	.LBB11_72
.LBB11_69:                              # %"words::next_from.exit30.i.i.i.i.i.i"
	shlq	$6, %r9
	orq	%rcx, %r9
	rep		bsfq	%r10, %rcx
	addq	%r9, %rcx
	cmpq	$255, %rcx
	ja	.LBB11_73
# %bb.77:                               # %join.6.i.i.i.i.i.i
	movl	%r8d, %r9d
	shll	$5, %r9d
	movq	(%rax,%r9), %rbx
	movq	%r12, 24(%rsp)                  # 8-byte Spill
	movq	8(%rax,%r9), %r12
	movq	%rbx, %rsi
	shrq	%rsi
	movabsq	$6148914691236517205, %r11      # imm = 0x5555555555555555
	andq	%r11, %rsi
	subq	%rsi, %rbx
	movabsq	$3689348814741910323, %r10      # imm = 0x3333333333333333
	movq	%rbx, %rsi
	andq	%r10, %rsi
	shrq	$2, %rbx
	andq	%r10, %rbx
	addq	%rsi, %rbx
	movq	%rbx, %r13
	shrq	$4, %r13
	addq	%rbx, %r13
	movabsq	$1085102592571150095, %rbx      # imm = 0xF0F0F0F0F0F0F0F
	andq	%rbx, %r13
	movabsq	$72340172838076673, %r14        # imm = 0x101010101010101
	imulq	%r14, %r13
	shrq	$56, %r13
	movq	%r12, %rdx
	shrq	%rdx
	andq	%r11, %rdx
	subq	%rdx, %r12
	movq	%r12, %rdx
	andq	%r10, %rdx
	shrq	$2, %r12
	andq	%r10, %r12
	addq	%rdx, %r12
	movq	%r12, %r15
	shrq	$4, %r15
	addq	%r12, %r15
	andq	%rbx, %r15
	imulq	%r14, %r15
	shrq	$56, %r15
	addq	%r13, %r15
	movq	16(%rax,%r9), %rdx
	movq	%rdx, %rsi
	shrq	%rsi
	andq	%r11, %rsi
	subq	%rsi, %rdx
	movq	%rdx, %rsi
	andq	%r10, %rsi
	shrq	$2, %rdx
	andq	%r10, %rdx
	addq	%rsi, %rdx
	movq	%rdx, %r12
	shrq	$4, %r12
	addq	%rdx, %r12
	andq	%rbx, %r12
	imulq	%r14, %r12
	shrq	$56, %r12
	movq	24(%rax,%r9), %rdx
	movq	%rdx, %rsi
	shrq	%rsi
	andq	%r11, %rsi
	subq	%rsi, %rdx
	movq	%rdx, %rsi
	andq	%r10, %rsi
	shrq	$2, %rdx
	andq	%r10, %rdx
	addq	%rsi, %rdx
	movq	%rdx, %r9
	shrq	$4, %r9
	addq	%rdx, %r9
	andq	%rbx, %r9
	movq	40(%rsp), %r11                  # 8-byte Reload
	imulq	%r14, %r9
	shrq	$56, %r9
	addq	%r12, %r9
	movq	24(%rsp), %r12                  # 8-byte Reload
	movq	32(%rsp), %rdx                  # 8-byte Reload
	addq	%r15, %r9
	movq	%r8, %r13
	jmp	.LBB11_80
.LBB11_71:
	xorl	%ecx, %ecx
	jmp	.LBB11_39
.LBB11_72:                              # %join.8.peel.i20.i.i.i.i.i.i
	incq	%r9
	cmpq	$4, %r9
	je	.LBB11_73
.LBB11_74:                              # %join.5.i21.i.i.i.i.i.i
                                        # =>This Inner Loop Header: Depth=1
	movq	1736(%rsp,%r9,8), %r10
	testq	%r10, %r10
	jne	.LBB11_108
# %bb.75:                               # %join.8.i27.i.i.i.i.i.i
                                        #   in Loop: Header=BB11_74 Depth=1
	incq	%r9
	cmpq	$4, %r9
	jne	.LBB11_74
.LBB11_73:
	movq	%r8, %r13
.LBB11_110:                             # %"choice::common.exit.i.i.i.i"
	testq	%r12, %r12
	je	.LBB11_123
# %bb.111:                              # %join.5.lr.ph.i.i.i.i.i
	movq	%r13, %rcx
	subq	%rdi, %rcx
	shlq	$5, %rcx
	addq	%rax, %rcx
	addq	$24, %rcx
	movq	10000(%rsp), %rdi
	shlq	$5, %rdi
	negq	%rdi
	xorl	%r8d, %r8d
	jmp	.LBB11_114
.LBB11_112:                             #   in Loop: Header=BB11_114 Depth=1
	xorl	%r10d, %r10d
.LBB11_113:                             # %"words::lowest_free.exit.i.i.i.i.i"
                                        #   in Loop: Header=BB11_114 Depth=1
	rep		bsfq	%r9, %r11
	orq	%r10, %r11
	incq	%r8
	addq	%rdi, %rcx
	cmpq	%r8, %r12
	je	.LBB11_122
.LBB11_114:                             # %join.5.i52.i.i.i.i
                                        # =>This Inner Loop Header: Depth=1
	movw	%r11w, 200(%rsp,%r8,2)
	shlq	$5, %r11
	movq	(%rax,%r11), %r9
	andq	-24(%rcx), %r9
	andq	80(%rsp), %r9                   # 8-byte Folded Reload
	jne	.LBB11_112
# %bb.115:                              # %join.8.i.i.i.i.i28.i
                                        #   in Loop: Header=BB11_114 Depth=1
	movq	8(%rax,%r11), %r9
	andq	-16(%rcx), %r9
	movl	$64, %r10d
	andq	152(%rsp), %r9                  # 8-byte Folded Reload
	jne	.LBB11_113
# %bb.116:                              # %join.8.1.i.i.i.i.i.i
                                        #   in Loop: Header=BB11_114 Depth=1
	movq	%r11, %rsi
	movq	16(%rax,%r11), %r9
	andq	-8(%rcx), %r9
	movl	$128, %r10d
	andq	144(%rsp), %r9                  # 8-byte Folded Reload
	jne	.LBB11_113
# %bb.117:                              # %join.8.2.i.i.i.i.i.i
                                        #   in Loop: Header=BB11_114 Depth=1
	movq	24(%rax,%rsi), %r9
	andq	(%rcx), %r9
	movl	$192, %r10d
	andq	136(%rsp), %r9                  # 8-byte Folded Reload
	jne	.LBB11_113
.LBB11_118:                             # %join.7.i.i.i
	pxor	%xmm0, %xmm0
	movdqa	%xmm0, 48(%rsp)
	leaq	744(%rsp), %rdi
	movl	$992, %edx                      # imm = 0x3E0
	movq	%rax, %r13
	xorl	%esi, %esi
	callq	memset@PLT
	leaq	200(%rsp), %r12
	movq	%r12, 16(%rsp)
	leaq	712(%rsp), %rax
	movq	%rax, (%rsp)
	movq	$128, 8(%rsp)
	leaq	48(%rsp), %rdi
	movq	%r13, %rsi
	movq	10000(%rsp), %rbx
	movq	%rbx, %rdx
	movq	96(%rsp), %r15                  # 8-byte Reload
	movq	%r15, %rcx
	movq	72(%rsp), %r14                  # 8-byte Reload
	movl	%r14d, %r8d
	movq	10008(%rsp), %r9
	callq	"rings::way_near"
	movzbl	48(%rsp), %eax
	cmpb	$2, %al
	jne	.LBB11_120
# %bb.119:                              # %repeat.7.preheader.i.i.i.i
	leaq	1768(%rsp), %rdi
	movl	$8160, %edx                     # imm = 0x1FE0
	xorl	%esi, %esi
	callq	memset@PLT
	movq	%r12, 16(%rsp)
	leaq	1736(%rsp), %rax
	movq	%rax, (%rsp)
	movq	$1024, 8(%rsp)                  # imm = 0x400
	leaq	48(%rsp), %rdi
	movq	64(%rsp), %rsi                  # 8-byte Reload
	movq	%rbx, %rdx
	movq	%r15, %rcx
	movl	%r14d, %r8d
	movq	10008(%rsp), %r9
	callq	"rings::way_near"
	movzbl	48(%rsp), %eax
.LBB11_120:                             # %"vacate::way_out.exit.i.i"
	testb	%al, %al
	je	.LBB11_57
.LBB11_121:                             # %"vacate::vacate.exit.thread20"
	xorl	%r11d, %r11d
	xorl	%eax, %eax
	xorl	%ecx, %ecx
	movq	88(%rsp), %rdi                  # 8-byte Reload
	jmp	.LBB11_4
.LBB11_122:                             # %after.1.loopexit.i.i.i.i.i
                                        # kill: def $r11w killed $r11w killed $r11 def $r11
	movq	%r11, 72(%rsp)                  # 8-byte Spill
.LBB11_123:                             # %"vacate::way_out.exit.thread.i.i"
	movq	72(%rsp), %rax                  # 8-byte Reload
	movw	%ax, 200(%rsp,%r12,2)
	movw	%r13w, 202(%rsp,%r12,2)
	addq	$2, %r12
.LBB11_124:                             # %"vacate::vacate.exit"
	movq	9984(%rsp), %rcx
	movq	10016(%rsp), %rsi
	movq	10024(%rsp), %r8
.LBB11_125:                             # %"vacate::vacate.exit"
	movq	%r8, 8(%rsp)
	movq	%rsi, (%rsp)
	leaq	200(%rsp), %rdi
	movq	%r12, %rsi
	movq	%rbp, %r8
	movq	10008(%rsp), %r9
	callq	"moving::shift"
	movq	88(%rsp), %rdi                  # 8-byte Reload
	movq	64(%rsp), %rsi                  # 8-byte Reload
	movl	$1, %r11d
.LBB11_126:                             # %arm.2.i
	movzwl	%r13w, %ecx
	shll	$5, %ecx
	movdqu	(%rsi,%rcx), %xmm0
	movdqu	16(%rsi,%rcx), %xmm1
	movdqa	%xmm1, %xmm2
	psrlw	$1, %xmm2
	movdqa	.LCPI11_0(%rip), %xmm3          # xmm3 = [85,85,85,85,85,85,85,85,85,85,85,85,85,85,85,85]
	pand	%xmm3, %xmm2
	psubb	%xmm2, %xmm1
	movdqa	.LCPI11_1(%rip), %xmm2          # xmm2 = [51,51,51,51,51,51,51,51,51,51,51,51,51,51,51,51]
	movdqa	%xmm1, %xmm4
	pand	%xmm2, %xmm4
	psrlw	$2, %xmm1
	pand	%xmm2, %xmm1
	paddb	%xmm4, %xmm1
	movdqa	%xmm1, %xmm4
	psrlw	$4, %xmm4
	paddb	%xmm1, %xmm4
	movdqa	.LCPI11_2(%rip), %xmm1          # xmm1 = [15,15,15,15,15,15,15,15,15,15,15,15,15,15,15,15]
	pand	%xmm1, %xmm4
	movdqa	%xmm0, %xmm5
	psrlw	$1, %xmm5
	pand	%xmm3, %xmm5
	psubb	%xmm5, %xmm0
	movdqa	%xmm0, %xmm3
	pand	%xmm2, %xmm3
	psrlw	$2, %xmm0
	pand	%xmm2, %xmm0
	paddb	%xmm3, %xmm0
	movdqa	%xmm0, %xmm2
	psrlw	$4, %xmm2
	paddb	%xmm0, %xmm2
	pand	%xmm1, %xmm2
	paddb	%xmm4, %xmm2
	pxor	%xmm0, %xmm0
	psadbw	%xmm2, %xmm0
	pshufd	$238, %xmm0, %xmm1              # xmm1 = xmm0[2,3,2,3]
	paddq	%xmm0, %xmm1
	movq	%xmm1, %rdx
	xorl	%ecx, %ecx
	cmpl	$3, %edx
	setae	%cl
	jmp	.LBB11_4
.LBB11_78:                              #   in Loop: Header=BB11_80 Depth=1
	xorl	%ecx, %ecx
.LBB11_79:                              # %"words::next_from.exit.i.i.i.i.i.i.i"
                                        #   in Loop: Header=BB11_80 Depth=1
	shlq	$6, %r8
	orq	%rcx, %r8
	rep		bsfq	%r10, %rcx
	addq	%r8, %rcx
	cmpq	$256, %rcx                      # imm = 0x100
	jae	.LBB11_110
.LBB11_80:                              # %join.5.i31.i.i.i.i.i.i
                                        # =>This Loop Header: Depth=1
                                        #     Child Loop BB11_82 Depth 2
	movq	%rcx, %rsi
	shlq	$5, %rsi
	movdqu	(%rax,%rsi), %xmm0
	movdqu	16(%rax,%rsi), %xmm1
	movdqa	%xmm1, %xmm2
	psrlw	$1, %xmm2
	movdqa	.LCPI11_0(%rip), %xmm3          # xmm3 = [85,85,85,85,85,85,85,85,85,85,85,85,85,85,85,85]
	pand	%xmm3, %xmm2
	psubb	%xmm2, %xmm1
	movdqa	.LCPI11_1(%rip), %xmm2          # xmm2 = [51,51,51,51,51,51,51,51,51,51,51,51,51,51,51,51]
	movdqa	%xmm1, %xmm4
	pand	%xmm2, %xmm4
	psrlw	$2, %xmm1
	pand	%xmm2, %xmm1
	paddb	%xmm4, %xmm1
	movdqa	%xmm1, %xmm4
	psrlw	$4, %xmm4
	paddb	%xmm1, %xmm4
	movdqa	.LCPI11_2(%rip), %xmm1          # xmm1 = [15,15,15,15,15,15,15,15,15,15,15,15,15,15,15,15]
	pand	%xmm1, %xmm4
	movdqa	%xmm0, %xmm5
	psrlw	$1, %xmm5
	pand	%xmm3, %xmm5
	psubb	%xmm5, %xmm0
	movdqa	%xmm0, %xmm3
	pand	%xmm2, %xmm3
	psrlw	$2, %xmm0
	pand	%xmm2, %xmm0
	paddb	%xmm3, %xmm0
	movdqa	%xmm0, %xmm2
	psrlw	$4, %xmm2
	paddb	%xmm0, %xmm2
	pand	%xmm1, %xmm2
	paddb	%xmm4, %xmm2
	pxor	%xmm0, %xmm0
	psadbw	%xmm2, %xmm0
	pshufd	$238, %xmm0, %xmm1              # xmm1 = xmm0[2,3,2,3]
	paddq	%xmm0, %xmm1
	movq	%xmm1, %rsi
	cmpq	%r9, %rsi
	cmovbq	%rcx, %r13
	cmovbq	%rsi, %r9
	cmpq	$255, %rcx
	je	.LBB11_110
# %bb.81:                               # %join.5.preheader.i.i.i.i.i17.i.i.i
                                        #   in Loop: Header=BB11_80 Depth=1
	incq	%rcx
	movq	%rcx, %r8
	shrq	$6, %r8
	andl	$63, %ecx
	movq	1736(%rsp,%r8,8), %r10
	shrq	%cl, %r10
	testq	%r10, %r10
	jne	.LBB11_79
.LBB11_82:                              # %join.8.peel.i.i.i.i.i.i.i.i
                                        #   Parent Loop BB11_80 Depth=1
                                        # =>  This Inner Loop Header: Depth=2
	incq	%r8
	cmpq	$4, %r8
	je	.LBB11_110
# %bb.83:                               # %join.5.i.i.i.i.i.i.i.i
                                        #   in Loop: Header=BB11_82 Depth=2
	movq	1736(%rsp,%r8,8), %r10
	testq	%r10, %r10
	je	.LBB11_82
	jmp	.LBB11_78
.LBB11_84:
	xorl	%ecx, %ecx
	jmp	.LBB11_88
.LBB11_85:
	movl	$64, %ecx
	movq	%r10, %r8
	jmp	.LBB11_88
.LBB11_86:
	movl	$128, %ecx
	movq	%r11, %r8
	jmp	.LBB11_88
.LBB11_87:
	movl	$192, %ecx
	movq	%r14, %r8
.LBB11_88:                              # %join.3.i.i.i.i.i.i.i
	rep		bsfq	%r8, %r8
	movq	%r8, %r13
	orq	%rcx, %r13
	cmpq	$255, %r13
	movq	9992(%rsp), %rbp
	movq	32(%rsp), %rdx                  # 8-byte Reload
	movq	24(%rsp), %r12                  # 8-byte Reload
	je	.LBB11_94
# %bb.89:                               # %join.5.preheader.i.i.i.i.i.i.i.i
	addq	%r8, %rcx
	incq	%rcx
	movl	%ecx, %r8d
	shrl	$6, %r8d
	andl	$63, %ecx
	movq	712(%rsp,%r8,8), %r9
	shrq	%cl, %r9
	testq	%r9, %r9
	je	.LBB11_93
.LBB11_90:                              # %"words::next_from.exit30.i.i.i.i.i.i.i"
	shlq	$6, %r8
	orq	%rcx, %r8
	rep		bsfq	%r9, %rcx
	addq	%r8, %rcx
	cmpq	$255, %rcx
	ja	.LBB11_94
# %bb.91:                               # %join.6.i.i.i.i.i.i.i
	movl	%r13d, %r8d
	shll	$5, %r8d
	movq	(%rdi,%r8), %rax
	movq	8(%rdi,%r8), %r15
	movq	%rax, %rdx
	shrq	%rdx
	movabsq	$6148914691236517205, %r10      # imm = 0x5555555555555555
	andq	%r10, %rdx
	subq	%rdx, %rax
	movabsq	$3689348814741910323, %r9       # imm = 0x3333333333333333
	movq	%rax, %rdx
	andq	%r9, %rdx
	shrq	$2, %rax
	andq	%r9, %rax
	addq	%rdx, %rax
	movq	%rax, %r12
	shrq	$4, %r12
	addq	%rax, %r12
	movabsq	$1085102592571150095, %r11      # imm = 0xF0F0F0F0F0F0F0F
	andq	%r11, %r12
	movabsq	$72340172838076673, %rbx        # imm = 0x101010101010101
	imulq	%rbx, %r12
	shrq	$56, %r12
	movq	%r15, %rax
	shrq	%rax
	andq	%r10, %rax
	subq	%rax, %r15
	movq	%r15, %rax
	andq	%r9, %rax
	shrq	$2, %r15
	andq	%r9, %r15
	addq	%rax, %r15
	movq	%r15, %r14
	shrq	$4, %r14
	addq	%r15, %r14
	andq	%r11, %r14
	imulq	%rbx, %r14
	shrq	$56, %r14
	addq	%r12, %r14
	movq	24(%rsp), %r12                  # 8-byte Reload
	movq	32(%rsp), %rdx                  # 8-byte Reload
	movq	16(%rdi,%r8), %rax
	movq	%rax, %rsi
	shrq	%rsi
	andq	%r10, %rsi
	subq	%rsi, %rax
	movq	%rax, %rsi
	andq	%r9, %rsi
	shrq	$2, %rax
	andq	%r9, %rax
	addq	%rsi, %rax
	movq	%rax, %r15
	shrq	$4, %r15
	addq	%rax, %r15
	andq	%r11, %r15
	imulq	%rbx, %r15
	shrq	$56, %r15
	movq	24(%rdi,%r8), %rax
	movq	%rax, %rsi
	shrq	%rsi
	andq	%r10, %rsi
	subq	%rsi, %rax
	movq	%rax, %rsi
	andq	%r9, %rsi
	shrq	$2, %rax
	andq	%r9, %rax
	addq	%rsi, %rax
	movq	%rax, %r8
	shrq	$4, %r8
	addq	%rax, %r8
	andq	%r11, %r8
	imulq	%rbx, %r8
	shrq	$56, %r8
	addq	%r15, %r8
	addq	%r14, %r8
	jmp	.LBB11_99
.LBB11_92:                              # %join.5.i21.i.i.i.i.i.i.i
                                        #   in Loop: Header=BB11_93 Depth=1
	movq	712(%rsp,%r8,8), %r9
	testq	%r9, %r9
	jne	.LBB11_127
.LBB11_93:                              # %join.8.peel.i20.i.i.i.i.i.i.i
                                        # =>This Inner Loop Header: Depth=1
	incq	%r8
	cmpq	$4, %r8
	jne	.LBB11_92
.LBB11_94:                              # %then.18.i.i.i.i.i
	movq	%r12, %r9
	movq	%r13, %rdi
	incq	%r9
	movq	9984(%rsp), %rcx
	movq	10016(%rsp), %rsi
	movq	10024(%rsp), %r8
	je	.LBB11_107
# %bb.95:                               # %join.5.i51.i.i.i.i.i.preheader
	testb	$3, %r9b
	je	.LBB11_104
# %bb.96:                               # %join.5.i51.i.i.i.i.i.prol.preheader
	movzbl	80(%rsp), %eax                  # 1-byte Folded Reload
	andl	$3, %eax
	movq	%r13, %rdi
.LBB11_97:                              # %join.5.i51.i.i.i.i.i.prol
                                        # =>This Inner Loop Header: Depth=1
	movw	%di, 200(%rsp,%r9,2)
	decq	%r9
	movzwl	1736(%rsp,%rdi,2), %edi
	decq	%rax
	jne	.LBB11_97
	jmp	.LBB11_105
.LBB11_98:                              # %"words::next_from.exit.i.i.i.i.i.i.i.i"
                                        #   in Loop: Header=BB11_99 Depth=1
	shlq	$6, %r9
	orq	%rcx, %r9
	rep		bsfq	%r10, %rcx
	addq	%r9, %rcx
	cmpq	$256, %rcx                      # imm = 0x100
	jae	.LBB11_94
.LBB11_99:                              # %join.5.i31.i.i.i.i.i.i.i
                                        # =>This Loop Header: Depth=1
                                        #     Child Loop BB11_101 Depth 2
	movq	%rcx, %rax
	shlq	$5, %rax
	movdqu	(%rdi,%rax), %xmm0
	movdqu	16(%rdi,%rax), %xmm1
	movdqa	%xmm1, %xmm2
	psrlw	$1, %xmm2
	movdqa	.LCPI11_0(%rip), %xmm3          # xmm3 = [85,85,85,85,85,85,85,85,85,85,85,85,85,85,85,85]
	pand	%xmm3, %xmm2
	psubb	%xmm2, %xmm1
	movdqa	%xmm1, %xmm2
	movdqa	.LCPI11_1(%rip), %xmm4          # xmm4 = [51,51,51,51,51,51,51,51,51,51,51,51,51,51,51,51]
	pand	%xmm4, %xmm2
	psrlw	$2, %xmm1
	pand	%xmm4, %xmm1
	paddb	%xmm2, %xmm1
	movdqa	%xmm1, %xmm2
	psrlw	$4, %xmm2
	paddb	%xmm1, %xmm2
	movdqa	.LCPI11_2(%rip), %xmm5          # xmm5 = [15,15,15,15,15,15,15,15,15,15,15,15,15,15,15,15]
	pand	%xmm5, %xmm2
	movdqa	%xmm0, %xmm1
	psrlw	$1, %xmm1
	pand	%xmm3, %xmm1
	psubb	%xmm1, %xmm0
	movdqa	%xmm0, %xmm1
	pand	%xmm4, %xmm1
	psrlw	$2, %xmm0
	pand	%xmm4, %xmm0
	paddb	%xmm1, %xmm0
	movdqa	%xmm0, %xmm1
	psrlw	$4, %xmm1
	paddb	%xmm0, %xmm1
	pand	%xmm5, %xmm1
	paddb	%xmm2, %xmm1
	pxor	%xmm0, %xmm0
	psadbw	%xmm1, %xmm0
	pshufd	$238, %xmm0, %xmm1              # xmm1 = xmm0[2,3,2,3]
	paddq	%xmm0, %xmm1
	movq	%xmm1, %rax
	cmpq	%r8, %rax
	cmovbq	%rcx, %r13
	cmovbq	%rax, %r8
	cmpq	$255, %rcx
	je	.LBB11_94
# %bb.100:                              # %join.5.preheader.i.i.i.i.i.i.i.i.i
                                        #   in Loop: Header=BB11_99 Depth=1
	incq	%rcx
	movq	%rcx, %r9
	shrq	$6, %r9
	andl	$63, %ecx
	movq	712(%rsp,%r9,8), %r10
	shrq	%cl, %r10
	testq	%r10, %r10
	jne	.LBB11_98
.LBB11_101:                             # %join.8.peel.i.i.i.i.i.i.i.i.i
                                        #   Parent Loop BB11_99 Depth=1
                                        # =>  This Inner Loop Header: Depth=2
	incq	%r9
	cmpq	$4, %r9
	je	.LBB11_94
# %bb.102:                              # %join.5.i.i.i.i49.i.i.i.i.i
                                        #   in Loop: Header=BB11_101 Depth=2
	movq	712(%rsp,%r9,8), %r10
	testq	%r10, %r10
	je	.LBB11_101
# %bb.103:                              #   in Loop: Header=BB11_99 Depth=1
	xorl	%ecx, %ecx
	jmp	.LBB11_98
.LBB11_104:
	movq	%r13, %rdi
.LBB11_105:                             # %join.5.i51.i.i.i.i.i.prol.loopexit
	cmpq	$3, %r12
	jb	.LBB11_107
.LBB11_106:                             # %join.5.i51.i.i.i.i.i
                                        # =>This Inner Loop Header: Depth=1
	movw	%di, 200(%rsp,%r9,2)
	movzwl	1736(%rsp,%rdi,2), %eax
	movw	%ax, 198(%rsp,%r9,2)
	movzwl	1736(%rsp,%rax,2), %eax
	movw	%ax, 196(%rsp,%r9,2)
	movzwl	1736(%rsp,%rax,2), %eax
	movw	%ax, 194(%rsp,%r9,2)
	movzwl	1736(%rsp,%rax,2), %edi
	addq	$-4, %r9
	jne	.LBB11_106
.LBB11_107:                             # %"ways::one_by_one.exit.i.i.i.i"
	movw	%di, 200(%rsp)
	addq	$2, %r12
	jmp	.LBB11_125
.LBB11_108:
	xorl	%ecx, %ecx
	jmp	.LBB11_69
.LBB11_109:
	movl	$256, %r13d                     # imm = 0x100
	movq	40(%rsp), %r11                  # 8-byte Reload
	jmp	.LBB11_110
.LBB11_127:
	xorl	%ecx, %ecx
	jmp	.LBB11_90
.Lfunc_end11:
	.size	"acting::make_room", .Lfunc_end11-"acting::make_room"
	.cfi_endproc
                                        # -- End function
	.section	.rodata.cst16,"aM",@progbits,16
	.p2align	4, 0x0                          # -- Begin function rings::way_near
.LCPI12_0:
	.zero	16,85
.LCPI12_1:
	.zero	16,51
.LCPI12_2:
	.zero	16,15
	.section	".text.rings::way_near","ax",@progbits
	.p2align	4
	.type	"rings::way_near",@function
"rings::way_near":                      # @"rings::way_near"
	.cfi_startproc
# %bb.0:                                # %start
	pushq	%rbp
	.cfi_def_cfa_offset 16
	pushq	%r15
	.cfi_def_cfa_offset 24
	pushq	%r14
	.cfi_def_cfa_offset 32
	pushq	%r13
	.cfi_def_cfa_offset 40
	pushq	%r12
	.cfi_def_cfa_offset 48
	pushq	%rbx
	.cfi_def_cfa_offset 56
	.cfi_offset %rbx, -56
	.cfi_offset %r12, -48
	.cfi_offset %r13, -40
	.cfi_offset %r14, -32
	.cfi_offset %r15, -24
	.cfi_offset %rbp, -16
                                        # kill: def $r8d killed $r8d def $r8
	movq	%rcx, %rax
	movq	64(%rsp), %r14
	movq	56(%rsp), %r10
	movl	%r8d, %ebp
	shrl	$6, %ebp
	andl	$1023, %ebp                     # imm = 0x3FF
	movl	$1, %ebx
	movl	%r8d, %ecx
	shlq	%cl, %rbx
	movdqu	(%rax), %xmm1
	movdqu	16(%rax), %xmm0
	xorl	%r11d, %r11d
	cmpl	$1, %ebp
	movl	$0, %r15d
	cmoveq	%rbx, %r15
	testl	%ebp, %ebp
	movl	$0, %r12d
	cmoveq	%rbx, %r12
	cmpl	$3, %ebp
	movl	$0, %ecx
	cmoveq	%rbx, %rcx
	cmpl	$2, %ebp
	cmovneq	%r11, %rbx
	movq	%r12, (%r10)
	movq	%r15, 8(%r10)
	movq	%rbx, 16(%r10)
	movq	%rcx, 24(%r10)
	movq	%r14, %rax
	shrq	$2, %rax
	cmpq	%rdx, %rax
	cmovaeq	%rdx, %rax
	decq	%rax
	je	.LBB12_14
# %bb.1:                                # %join.9.lr.ph.i
	movq	%rcx, %xmm2
	movq	%rbx, %xmm3
	punpcklqdq	%xmm2, %xmm3            # xmm3 = xmm3[0],xmm2[0]
	por	%xmm3, %xmm0
	movq	%r15, %xmm2
	movq	%r12, %xmm3
	punpcklqdq	%xmm2, %xmm3            # xmm3 = xmm3[0],xmm2[0]
	por	%xmm3, %xmm1
	xorl	%r11d, %r11d
	jmp	.LBB12_2
	.p2align	4
.LBB12_12:                              # %"rings::next_ring.exit.i"
                                        #   in Loop: Header=BB12_2 Depth=1
	movdqa	%xmm2, %xmm4
	por	%xmm1, %xmm4
	movdqa	%xmm3, %xmm5
	por	%xmm0, %xmm5
	movq	%r11, %rcx
	shlq	$5, %rcx
	pandn	%xmm2, %xmm1
	movdqu	%xmm1, 32(%r10,%rcx)
	pandn	%xmm3, %xmm0
	movdqu	%xmm0, 48(%r10,%rcx)
	incq	%r11
	movq	%xmm1, %r12
	pshufd	$238, %xmm1, %xmm1              # xmm1 = xmm1[2,3,2,3]
	movq	%xmm1, %r15
	movq	%xmm0, %rbx
	pshufd	$238, %xmm0, %xmm0              # xmm0 = xmm0[2,3,2,3]
	movq	%xmm0, %rcx
	movdqa	%xmm4, %xmm1
	movdqa	%xmm5, %xmm0
	cmpq	%rax, %r11
	je	.LBB12_13
.LBB12_2:                               # %join.9.i
                                        # =>This Loop Header: Depth=1
                                        #     Child Loop BB12_5 Depth 2
                                        #     Child Loop BB12_7 Depth 2
                                        #     Child Loop BB12_9 Depth 2
                                        #     Child Loop BB12_11 Depth 2
	movq	(%r9), %r13
	andq	%r12, %r13
	movq	8(%r9), %rbp
	andq	%r15, %rbp
	orq	%r13, %rbp
	movq	16(%r9), %r13
	andq	%rbx, %r13
	orq	%rbp, %r13
	movq	24(%r9), %rbp
	andq	%rcx, %rbp
	orq	%r13, %rbp
	jne	.LBB12_14
# %bb.3:                                # %else.13.i
                                        #   in Loop: Header=BB12_2 Depth=1
	movq	%r15, %r13
	orq	%r12, %r13
	orq	%rbx, %r13
	orq	%rcx, %r13
	je	.LBB12_14
# %bb.4:                                # %after.10.i
                                        #   in Loop: Header=BB12_2 Depth=1
	pxor	%xmm2, %xmm2
	pxor	%xmm3, %xmm3
	testq	%r12, %r12
	je	.LBB12_6
	.p2align	4
.LBB12_5:                               # %join.5.i.i.i.i.i
                                        #   Parent Loop BB12_2 Depth=1
                                        # =>  This Inner Loop Header: Depth=2
	movq	%r12, %r13
	rep		bsfq	%r12, %r12
	shll	$5, %r12d
	movdqu	(%rsi,%r12), %xmm4
	por	%xmm4, %xmm2
	movdqu	16(%rsi,%r12), %xmm4
	por	%xmm4, %xmm3
	leaq	-1(%r13), %r12
	andq	%r13, %r12
	jne	.LBB12_5
.LBB12_6:                               # %"words::join_word.exit.i.i.i.i"
                                        #   in Loop: Header=BB12_2 Depth=1
	testq	%r15, %r15
	je	.LBB12_8
	.p2align	4
.LBB12_7:                               # %join.5.i.1.i.i.i.i
                                        #   Parent Loop BB12_2 Depth=1
                                        # =>  This Inner Loop Header: Depth=2
	movq	%r15, %r12
	rep		bsfq	%r15, %r15
	shll	$5, %r15d
	movdqu	2048(%rsi,%r15), %xmm4
	por	%xmm4, %xmm2
	movdqu	2064(%rsi,%r15), %xmm4
	por	%xmm4, %xmm3
	leaq	-1(%r12), %r15
	andq	%r12, %r15
	jne	.LBB12_7
.LBB12_8:                               # %"words::join_word.exit.1.i.i.i.i"
                                        #   in Loop: Header=BB12_2 Depth=1
	testq	%rbx, %rbx
	je	.LBB12_10
	.p2align	4
.LBB12_9:                               # %join.5.i.2.i.i.i.i
                                        #   Parent Loop BB12_2 Depth=1
                                        # =>  This Inner Loop Header: Depth=2
	movq	%rbx, %r15
	rep		bsfq	%rbx, %rbx
	shll	$5, %ebx
	movdqu	4096(%rsi,%rbx), %xmm4
	por	%xmm4, %xmm2
	movdqu	4112(%rsi,%rbx), %xmm4
	por	%xmm4, %xmm3
	leaq	-1(%r15), %rbx
	andq	%r15, %rbx
	jne	.LBB12_9
.LBB12_10:                              # %"words::join_word.exit.2.i.i.i.i"
                                        #   in Loop: Header=BB12_2 Depth=1
	testq	%rcx, %rcx
	je	.LBB12_12
	.p2align	4
.LBB12_11:                              # %join.5.i.3.i.i.i.i
                                        #   Parent Loop BB12_2 Depth=1
                                        # =>  This Inner Loop Header: Depth=2
	movq	%rcx, %rbx
	rep		bsfq	%rcx, %rcx
	shll	$5, %ecx
	movdqu	6144(%rsi,%rcx), %xmm4
	por	%xmm4, %xmm2
	movdqu	6160(%rsi,%rcx), %xmm4
	por	%xmm4, %xmm3
	leaq	-1(%rbx), %rcx
	andq	%rbx, %rcx
	jne	.LBB12_11
	jmp	.LBB12_12
.LBB12_13:
	movq	%rax, %r11
.LBB12_14:                              # %"rings::search.exit"
	movq	%r11, %rbx
	shlq	$5, %rbx
	movdqu	(%r10,%rbx), %xmm0
	movdqu	16(%r10,%rbx), %xmm2
	movdqu	(%r9), %xmm1
	pand	%xmm0, %xmm1
	movdqu	16(%r9), %xmm0
	pand	%xmm2, %xmm0
	movdqa	%xmm0, %xmm2
	por	%xmm1, %xmm2
	pxor	%xmm3, %xmm3
	pcmpeqd	%xmm2, %xmm3
	movmskps	%xmm3, %eax
	xorl	$15, %eax
	je	.LBB12_56
# %bb.15:                               # %repeat.4.preheader.i.i
	movdqa	%xmm1, -40(%rsp)
	movdqa	%xmm0, -24(%rsp)
	movq	%xmm1, %rcx
	testq	%rcx, %rcx
	je	.LBB12_17
# %bb.16:
	xorl	%eax, %eax
	jmp	.LBB12_20
.LBB12_17:                              # %join.5.i.preheader.i.i.i
	pshufd	$238, %xmm1, %xmm1              # xmm1 = xmm1[2,3,2,3]
	movq	%xmm1, %rcx
	movl	$64, %eax
	testq	%rcx, %rcx
	jne	.LBB12_20
# %bb.18:                               # %join.8.i.i.i.i
	movq	%xmm0, %rcx
	movl	$128, %eax
	testq	%rcx, %rcx
	jne	.LBB12_20
# %bb.19:                               # %join.8.i.1.i.i.i
	pshufd	$238, %xmm0, %xmm0              # xmm0 = xmm0[2,3,2,3]
	movq	%xmm0, %rcx
	movl	$192, %eax
	testq	%rcx, %rcx
	je	.LBB12_56
.LBB12_20:                              # %join.3.i.i.i
	rep		bsfq	%rcx, %rcx
	movq	%rcx, %r12
	orq	%rax, %r12
	cmpq	$255, %r12
	je	.LBB12_33
# %bb.21:                               # %join.5.preheader.i.i.i.i
	addq	%rax, %rcx
	incq	%rcx
	movl	%ecx, %edx
	shrl	$6, %edx
	andl	$63, %ecx
	movq	-40(%rsp,%rdx,8), %rax
	shrq	%cl, %rax
	testq	%rax, %rax
	je	.LBB12_22
.LBB12_25:                              # %"words::next_from.exit30.i.i.i"
	shlq	$6, %rdx
	orq	%rcx, %rdx
	rep		bsfq	%rax, %rcx
	addq	%rdx, %rcx
	cmpq	$255, %rcx
	ja	.LBB12_33
# %bb.26:                               # %join.6.i.i.i
	movl	%r12d, %edx
	shll	$5, %edx
	movq	(%rsi,%rdx), %r14
	movq	8(%rsi,%rdx), %rbp
	movq	%r14, %rax
	shrq	%rax
	movabsq	$6148914691236517205, %r9       # imm = 0x5555555555555555
	andq	%r9, %rax
	subq	%rax, %r14
	movabsq	$3689348814741910323, %r9       # imm = 0x3333333333333333
	movq	%r14, %rax
	andq	%r9, %rax
	shrq	$2, %r14
	andq	%r9, %r14
	addq	%rax, %r14
	movq	%r14, %rax
	shrq	$4, %rax
	addq	%r14, %rax
	movabsq	$1085102592571150095, %r14      # imm = 0xF0F0F0F0F0F0F0F
	andq	%r14, %rax
	movabsq	$72340172838076673, %r15        # imm = 0x101010101010101
	imulq	%r15, %rax
	shrq	$56, %rax
	movq	%rbp, %r13
	shrq	%r13
	movq	%rdi, -48(%rsp)                 # 8-byte Spill
	movabsq	$6148914691236517205, %rdi      # imm = 0x5555555555555555
	andq	%rdi, %r13
	subq	%r13, %rbp
	movq	%rbp, %r13
	andq	%r9, %r13
	shrq	$2, %rbp
	andq	%r9, %rbp
	addq	%r13, %rbp
	movq	%rbp, %r13
	shrq	$4, %r13
	addq	%rbp, %r13
	andq	%r14, %r13
	imulq	%r15, %r13
	shrq	$56, %r13
	addq	%rax, %r13
	movq	16(%rsi,%rdx), %rbp
	movq	%rbp, %rax
	shrq	%rax
	andq	%rdi, %rax
	subq	%rax, %rbp
	movq	%rbp, %rax
	andq	%r9, %rax
	shrq	$2, %rbp
	andq	%r9, %rbp
	addq	%rax, %rbp
	movq	%rbp, %rax
	shrq	$4, %rax
	addq	%rbp, %rax
	andq	%r14, %rax
	imulq	%r15, %rax
	shrq	$56, %rax
	movq	24(%rsi,%rdx), %rbp
	movq	%rbp, %rdx
	shrq	%rdx
	andq	%rdi, %rdx
	movq	-48(%rsp), %rdi                 # 8-byte Reload
	subq	%rdx, %rbp
	movq	%rbp, %rdx
	andq	%r9, %rdx
	shrq	$2, %rbp
	andq	%r9, %rbp
	addq	%rdx, %rbp
	movq	%rbp, %rdx
	shrq	$4, %rdx
	addq	%rbp, %rdx
	andq	%r14, %rdx
	imulq	%r15, %rdx
	shrq	$56, %rdx
	addq	%rax, %rdx
	addq	%r13, %rdx
	jmp	.LBB12_27
	.p2align	4
.LBB12_23:                              # %join.5.i21.i.i.i
                                        #   in Loop: Header=BB12_22 Depth=1
	movq	-40(%rsp,%rdx,8), %rax
	testq	%rax, %rax
	jne	.LBB12_24
.LBB12_22:                              # %join.8.peel.i20.i.i.i
                                        # =>This Inner Loop Header: Depth=1
	incq	%rdx
	cmpq	$4, %rdx
	jne	.LBB12_23
.LBB12_33:                              # %join.3
	movl	%r12d, %eax
	shrl	$6, %eax
	andl	$1023, %eax                     # imm = 0x3FF
	movl	$1, %edx
	movl	%r12d, %ecx
	shlq	%cl, %rdx
	xorl	%ecx, %ecx
	testl	%eax, %eax
	movl	$0, %r15d
	cmoveq	%rdx, %r15
	cmpl	$1, %eax
	movl	$0, %r14d
	cmoveq	%rdx, %r14
	cmpl	$2, %eax
	movl	$0, %r9d
	cmoveq	%rdx, %r9
	cmpl	$3, %eax
	cmovneq	%rcx, %rdx
	movq	%r15, (%r10,%rbx)
	movq	%r14, 8(%r10,%rbx)
	movq	%r9, 16(%r10,%rbx)
	movq	%rdx, 24(%r10,%rbx)
	cmpq	$2, %r11
	jb	.LBB12_44
# %bb.34:                               # %join.7.lr.ph.i
	movq	%r11, %rcx
	jmp	.LBB12_35
	.p2align	4
.LBB12_43:                              # %"rings::keep_beside.exit.i"
                                        #   in Loop: Header=BB12_35 Depth=1
	decq	%rcx
	movq	%rcx, %rax
	shlq	$5, %rax
	movdqu	(%r10,%rax), %xmm2
	pand	%xmm0, %xmm2
	movdqu	16(%r10,%rax), %xmm0
	pand	%xmm1, %xmm0
	movdqu	%xmm2, (%r10,%rax)
	movdqu	%xmm0, 16(%r10,%rax)
	movq	%xmm2, %r15
	pshufd	$238, %xmm2, %xmm1              # xmm1 = xmm2[2,3,2,3]
	movq	%xmm1, %r14
	movq	%xmm0, %r9
	pshufd	$238, %xmm0, %xmm0              # xmm0 = xmm0[2,3,2,3]
	movq	%xmm0, %rdx
	cmpq	$1, %rcx
	jbe	.LBB12_44
.LBB12_35:                              # %join.7.i
                                        # =>This Loop Header: Depth=1
                                        #     Child Loop BB12_36 Depth 2
                                        #     Child Loop BB12_38 Depth 2
                                        #     Child Loop BB12_40 Depth 2
                                        #     Child Loop BB12_42 Depth 2
	pxor	%xmm0, %xmm0
	pxor	%xmm1, %xmm1
	testq	%r15, %r15
	je	.LBB12_37
	.p2align	4
.LBB12_36:                              # %join.5.i.i.i.i
                                        #   Parent Loop BB12_35 Depth=1
                                        # =>  This Inner Loop Header: Depth=2
	movq	%r15, %rax
	rep		bsfq	%r15, %rbx
	shll	$5, %ebx
	movdqu	(%rsi,%rbx), %xmm2
	por	%xmm2, %xmm0
	movdqu	16(%rsi,%rbx), %xmm2
	por	%xmm2, %xmm1
	decq	%r15
	andq	%rax, %r15
	jne	.LBB12_36
.LBB12_37:                              # %"words::join_word.exit.i.i.i"
                                        #   in Loop: Header=BB12_35 Depth=1
	testq	%r14, %r14
	je	.LBB12_39
	.p2align	4
.LBB12_38:                              # %join.5.i.1.i.i.i
                                        #   Parent Loop BB12_35 Depth=1
                                        # =>  This Inner Loop Header: Depth=2
	movq	%r14, %rax
	rep		bsfq	%r14, %rbx
	shll	$5, %ebx
	movdqu	2048(%rsi,%rbx), %xmm2
	por	%xmm2, %xmm0
	movdqu	2064(%rsi,%rbx), %xmm2
	por	%xmm2, %xmm1
	decq	%r14
	andq	%rax, %r14
	jne	.LBB12_38
.LBB12_39:                              # %"words::join_word.exit.1.i.i.i"
                                        #   in Loop: Header=BB12_35 Depth=1
	testq	%r9, %r9
	je	.LBB12_41
	.p2align	4
.LBB12_40:                              # %join.5.i.2.i.i.i
                                        #   Parent Loop BB12_35 Depth=1
                                        # =>  This Inner Loop Header: Depth=2
	movq	%r9, %rax
	rep		bsfq	%r9, %r9
	shll	$5, %r9d
	movdqu	4096(%rsi,%r9), %xmm2
	por	%xmm2, %xmm0
	movdqu	4112(%rsi,%r9), %xmm2
	por	%xmm2, %xmm1
	leaq	-1(%rax), %r9
	andq	%rax, %r9
	jne	.LBB12_40
.LBB12_41:                              # %"words::join_word.exit.2.i.i.i"
                                        #   in Loop: Header=BB12_35 Depth=1
	testq	%rdx, %rdx
	je	.LBB12_43
	.p2align	4
.LBB12_42:                              # %join.5.i.3.i.i.i
                                        #   Parent Loop BB12_35 Depth=1
                                        # =>  This Inner Loop Header: Depth=2
	movq	%rdx, %rax
	rep		bsfq	%rdx, %rdx
	shll	$5, %edx
	movdqu	6144(%rsi,%rdx), %xmm2
	por	%xmm2, %xmm0
	movdqu	6160(%rsi,%rdx), %xmm2
	por	%xmm2, %xmm1
	leaq	-1(%rax), %rdx
	andq	%rax, %rdx
	jne	.LBB12_42
	jmp	.LBB12_43
.LBB12_44:                              # %"rings::narrow.exit"
	movq	72(%rsp), %rcx
	testq	%r11, %r11
	je	.LBB12_54
# %bb.45:                               # %join.5.i.preheader
	movzwl	%r8w, %r8d
	addq	$56, %r10
	xorl	%edx, %edx
	.p2align	4
.LBB12_46:                              # %join.5.i
                                        # =>This Inner Loop Header: Depth=1
	movw	%r8w, (%rcx,%rdx,2)
	shlq	$5, %r8
	movq	-24(%r10), %r9
	andq	(%rsi,%r8), %r9
	je	.LBB12_49
# %bb.47:                               #   in Loop: Header=BB12_46 Depth=1
	xorl	%eax, %eax
	jmp	.LBB12_48
	.p2align	4
.LBB12_49:                              # %join.8.i.i
                                        #   in Loop: Header=BB12_46 Depth=1
	movq	-16(%r10), %r9
	movl	$64, %eax
	andq	8(%rsi,%r8), %r9
	jne	.LBB12_48
# %bb.50:                               # %join.8.1.i.i
                                        #   in Loop: Header=BB12_46 Depth=1
	movq	-8(%r10), %r9
	movl	$128, %eax
	andq	16(%rsi,%r8), %r9
	jne	.LBB12_48
# %bb.51:                               # %join.8.2.i.i
                                        #   in Loop: Header=BB12_46 Depth=1
	movq	(%r10), %r9
	movl	$192, %eax
	andq	24(%rsi,%r8), %r9
	je	.LBB12_52
	.p2align	4
.LBB12_48:                              # %then.6.i.i
                                        #   in Loop: Header=BB12_46 Depth=1
	rep		bsfq	%r9, %r8
	orq	%rax, %r8
	incq	%rdx
	addq	$32, %r10
	cmpq	%rdx, %r11
	jne	.LBB12_46
	jmp	.LBB12_54
.LBB12_52:                              #   in Loop: Header=BB12_46 Depth=1
	movl	$256, %r8d                      # imm = 0x100
	incq	%rdx
	addq	$32, %r10
	cmpq	%rdx, %r11
	jne	.LBB12_46
.LBB12_54:                              # %"rings::outward.exit"
	movw	%r8w, (%rcx,%r11,2)
	incq	%r11
	movw	$0, (%rdi)
	movw	%r12w, 2(%rdi)
	movq	%r11, 8(%rdi)
	jmp	.LBB12_55
.LBB12_56:                              # %then.1
	leaq	1(%r11), %rax
	cmpq	%rax, %rdx
	seta	%al
	leaq	8(,%r11,4), %rcx
	cmpq	%rcx, %r14
	setb	%cl
	andb	%al, %cl
	movzbl	%cl, %eax
	incl	%eax
	movw	%ax, (%rdi)
	movw	$0, 2(%rdi)
	movq	$0, 8(%rdi)
.LBB12_55:                              # %common.ret
	popq	%rbx
	.cfi_def_cfa_offset 48
	popq	%r12
	.cfi_def_cfa_offset 40
	popq	%r13
	.cfi_def_cfa_offset 32
	popq	%r14
	.cfi_def_cfa_offset 24
	popq	%r15
	.cfi_def_cfa_offset 16
	popq	%rbp
	.cfi_def_cfa_offset 8
	retq
	.p2align	4
.LBB12_32:                              # %"words::next_from.exit.i.i.i.i"
                                        #   in Loop: Header=BB12_27 Depth=1
	.cfi_def_cfa_offset 56
	shlq	$6, %r9
	orq	%rcx, %r9
	rep		bsfq	%rax, %rcx
	addq	%r9, %rcx
	cmpq	$256, %rcx                      # imm = 0x100
	jae	.LBB12_33
.LBB12_27:                              # %join.5.i31.i.i.i
                                        # =>This Loop Header: Depth=1
                                        #     Child Loop BB12_29 Depth 2
	movq	%rcx, %rax
	shlq	$5, %rax
	movdqu	(%rsi,%rax), %xmm0
	movdqu	16(%rsi,%rax), %xmm1
	movdqa	%xmm1, %xmm2
	psrlw	$1, %xmm2
	movdqa	.LCPI12_0(%rip), %xmm3          # xmm3 = [85,85,85,85,85,85,85,85,85,85,85,85,85,85,85,85]
	pand	%xmm3, %xmm2
	psubb	%xmm2, %xmm1
	movdqa	.LCPI12_1(%rip), %xmm2          # xmm2 = [51,51,51,51,51,51,51,51,51,51,51,51,51,51,51,51]
	movdqa	%xmm1, %xmm4
	pand	%xmm2, %xmm4
	psrlw	$2, %xmm1
	pand	%xmm2, %xmm1
	paddb	%xmm4, %xmm1
	movdqa	%xmm1, %xmm4
	psrlw	$4, %xmm4
	paddb	%xmm1, %xmm4
	movdqa	.LCPI12_2(%rip), %xmm1          # xmm1 = [15,15,15,15,15,15,15,15,15,15,15,15,15,15,15,15]
	pand	%xmm1, %xmm4
	movdqa	%xmm0, %xmm5
	psrlw	$1, %xmm5
	pand	%xmm3, %xmm5
	psubb	%xmm5, %xmm0
	movdqa	%xmm0, %xmm3
	pand	%xmm2, %xmm3
	psrlw	$2, %xmm0
	pand	%xmm2, %xmm0
	paddb	%xmm3, %xmm0
	movdqa	%xmm0, %xmm2
	psrlw	$4, %xmm2
	paddb	%xmm0, %xmm2
	pand	%xmm1, %xmm2
	paddb	%xmm4, %xmm2
	pxor	%xmm0, %xmm0
	psadbw	%xmm2, %xmm0
	pshufd	$238, %xmm0, %xmm1              # xmm1 = xmm0[2,3,2,3]
	paddq	%xmm0, %xmm1
	movq	%xmm1, %rax
	cmpq	%rdx, %rax
	cmovbq	%rcx, %r12
	cmovbq	%rax, %rdx
	cmpq	$255, %rcx
	je	.LBB12_33
# %bb.28:                               # %join.5.preheader.i.i.i.i.i
                                        #   in Loop: Header=BB12_27 Depth=1
	incq	%rcx
	movq	%rcx, %r9
	shrq	$6, %r9
	andl	$63, %ecx
	movq	-40(%rsp,%r9,8), %rax
	shrq	%cl, %rax
	testq	%rax, %rax
	jne	.LBB12_32
	.p2align	4
.LBB12_29:                              # %join.8.peel.i.i.i.i.i
                                        #   Parent Loop BB12_27 Depth=1
                                        # =>  This Inner Loop Header: Depth=2
	incq	%r9
	cmpq	$4, %r9
	je	.LBB12_33
# %bb.30:                               # %join.5.i.i.i.i.i23
                                        #   in Loop: Header=BB12_29 Depth=2
	movq	-40(%rsp,%r9,8), %rax
	testq	%rax, %rax
	je	.LBB12_29
# %bb.31:                               #   in Loop: Header=BB12_27 Depth=1
	xorl	%ecx, %ecx
	jmp	.LBB12_32
.LBB12_24:
	xorl	%ecx, %ecx
	jmp	.LBB12_25
.Lfunc_end12:
	.size	"rings::way_near", .Lfunc_end12-"rings::way_near"
	.cfi_endproc
                                        # -- End function
	.section	".text.moving::shift","ax",@progbits
	.p2align	4                               # -- Begin function moving::shift
	.type	"moving::shift",@function
"moving::shift":                        # @"moving::shift"
	.cfi_startproc
# %bb.0:                                # %start
	pushq	%rbp
	.cfi_def_cfa_offset 16
	pushq	%r15
	.cfi_def_cfa_offset 24
	pushq	%r14
	.cfi_def_cfa_offset 32
	pushq	%r13
	.cfi_def_cfa_offset 40
	pushq	%r12
	.cfi_def_cfa_offset 48
	pushq	%rbx
	.cfi_def_cfa_offset 56
	subq	$24, %rsp
	.cfi_def_cfa_offset 80
	.cfi_offset %rbx, -56
	.cfi_offset %r12, -48
	.cfi_offset %r13, -40
	.cfi_offset %r14, -32
	.cfi_offset %r15, -24
	.cfi_offset %rbp, -16
	movq	%r9, %rbx
	movq	%r8, %r15
	movq	%rdx, %r13
	movq	%rdi, %r14
	movq	88(%rsp), %rbp
	movq	80(%rsp), %r12
	cmpq	$17, %rsi
	jae	.LBB13_10
# %bb.1:                                # %then.1
	cmpq	$2, %rsi
	jae	.LBB13_4
# %bb.2:
	xorl	%eax, %eax
	jmp	.LBB13_3
.LBB13_10:                              # %join.3
	leaq	30(%r14), %rdi
	addq	$-15, %rsi
	movq	%rbp, 8(%rsp)
	movq	%r12, (%rsp)
	movq	%r13, %rdx
	movq	%rcx, 16(%rsp)                  # 8-byte Spill
	movq	%r15, %r8
	movq	%rbx, %r9
	callq	"moving::shift"
	movl	$30, %ecx
	jmp	.LBB13_11
	.p2align	4
.LBB13_13:                              # %"moving::move_on.exit.i36"
                                        #   in Loop: Header=BB13_11 Depth=1
	incq	%rax
	addq	$-2, %rcx
	je	.LBB13_14
.LBB13_11:                              # %join.8.i15
                                        # =>This Inner Loop Header: Depth=1
	movzwl	-2(%r14,%rcx), %esi
	movzwl	(%r14,%rcx), %edx
	movzwl	(%r15,%rsi,2), %edi
	movw	%dx, (%r13,%rdi,2)
	movw	%di, (%r15,%rdx,2)
	cmpq	%rbp, %rax
	jae	.LBB13_13
# %bb.12:                               # %then.1.i.i.i64
                                        #   in Loop: Header=BB13_11 Depth=1
	shll	$16, %esi
	shlq	$32, %rdi
	orq	%rsi, %rdi
	orq	%rdx, %rdi
	movq	%rdi, (%r12,%rax,8)
	jmp	.LBB13_13
.LBB13_14:                              # %"moving::shift_stretch.exit70"
	movzwl	(%r14), %ecx
	movq	16(%rsp), %rdx                  # 8-byte Reload
	movw	%dx, (%r15,%rcx,2)
	movzwl	30(%r14), %ecx
	jmp	.LBB13_9
.LBB13_4:                               # %join.8.preheader.i
	leaq	-1(%rsi), %r9
	xorl	%eax, %eax
	jmp	.LBB13_5
	.p2align	4
.LBB13_7:                               # %"moving::move_on.exit.i"
                                        #   in Loop: Header=BB13_5 Depth=1
	decq	%r9
	incq	%rax
	testq	%r9, %r9
	je	.LBB13_8
.LBB13_5:                               # %join.8.i
                                        # =>This Inner Loop Header: Depth=1
	movzwl	-2(%r14,%r9,2), %edi
	movzwl	(%r14,%r9,2), %edx
	movzwl	(%r15,%rdi,2), %r8d
	movw	%dx, (%r13,%r8,2)
	movw	%r8w, (%r15,%rdx,2)
	cmpq	%rbp, %rax
	jae	.LBB13_7
# %bb.6:                                # %then.1.i.i.i
                                        #   in Loop: Header=BB13_5 Depth=1
	shll	$16, %edi
	shlq	$32, %r8
	orq	%rdi, %r8
	orq	%rdx, %r8
	movq	%r8, (%r12,%rax,8)
	jmp	.LBB13_7
.LBB13_8:                               # %after.4.i
	movzwl	(%r14), %edx
	movw	%cx, (%r15,%rdx,2)
	movzwl	-2(%r14,%rsi,2), %ecx
.LBB13_9:                               # %common.ret
	movq	$-2, %rdx
	rolq	%cl, %rdx
	shrl	$6, %ecx
	andq	%rdx, (%rbx,%rcx,8)
	movzwl	(%r14), %ecx
	movl	$1, %edx
	shlq	%cl, %rdx
	shrl	$6, %ecx
	orq	%rdx, (%rbx,%rcx,8)
.LBB13_3:                               # %common.ret
	addq	$24, %rsp
	.cfi_def_cfa_offset 56
	popq	%rbx
	.cfi_def_cfa_offset 48
	popq	%r12
	.cfi_def_cfa_offset 40
	popq	%r13
	.cfi_def_cfa_offset 32
	popq	%r14
	.cfi_def_cfa_offset 24
	popq	%r15
	.cfi_def_cfa_offset 16
	popq	%rbp
	.cfi_def_cfa_offset 8
	retq
.Lfunc_end13:
	.size	"moving::shift", .Lfunc_end13-"moving::shift"
	.cfi_endproc
                                        # -- End function
	.section	".text.clear_on::clear_two","ax",@progbits
	.p2align	4                               # -- Begin function clear_on::clear_two
	.type	"clear_on::clear_two",@function
"clear_on::clear_two":                  # @"clear_on::clear_two"
	.cfi_startproc
# %bb.0:                                # %start
	pushq	%rbp
	.cfi_def_cfa_offset 16
	pushq	%r15
	.cfi_def_cfa_offset 24
	pushq	%r14
	.cfi_def_cfa_offset 32
	pushq	%r13
	.cfi_def_cfa_offset 40
	pushq	%r12
	.cfi_def_cfa_offset 48
	pushq	%rbx
	.cfi_def_cfa_offset 56
	subq	$1416, %rsp                     # imm = 0x588
	.cfi_def_cfa_offset 1472
	.cfi_offset %rbx, -56
	.cfi_offset %r12, -48
	.cfi_offset %r13, -40
	.cfi_offset %r14, -32
	.cfi_offset %r15, -24
	.cfi_offset %rbp, -16
	movq	%rdx, 152(%rsp)                 # 8-byte Spill
	movq	(%rcx), %rax
	movq	%rax, 224(%rsp)                 # 8-byte Spill
	movzwl	8(%rcx), %eax
	movl	%eax, %ecx
	shll	$5, %ecx
	movups	(%rsi,%rcx), %xmm0
	movaps	%xmm0, 896(%rsp)
	movq	%rsi, 72(%rsp)                  # 8-byte Spill
	movq	%rcx, 120(%rsp)                 # 8-byte Spill
	movups	16(%rsi,%rcx), %xmm0
	movl	$1, %ebx
	movl	%r8d, %ecx
	shlq	%cl, %rbx
	movq	$-2, %rdx
	rolq	%cl, %rdx
	movaps	%xmm0, 912(%rsp)
	movl	%r8d, %r12d
	shrl	$3, %r12d
	andl	$8184, %r12d                    # imm = 0x1FF8
	movq	%rdx, 168(%rsp)                 # 8-byte Spill
	andq	%rdx, 896(%rsp,%r12)
	movl	$1, %r14d
	movl	%eax, %ecx
	shlq	%cl, %r14
	shrl	$6, %eax
	xorl	%r15d, %r15d
	testl	%eax, %eax
	movl	$0, %esi
	cmoveq	%r14, %rsi
	cmpl	$1, %eax
	movl	$0, %edx
	cmoveq	%r14, %rdx
	cmpl	$2, %eax
	movl	$0, %ecx
	cmoveq	%r14, %rcx
	cmpl	$3, %eax
	cmovneq	%r15, %r14
	movl	%r8d, 212(%rsp)                 # 4-byte Spill
	movl	%r8d, %eax
	shrl	$6, %eax
	andl	$1023, %eax                     # imm = 0x3FF
	movl	$0, %r8d
	cmoveq	%rbx, %r8
	movq	%r9, 280(%rsp)                  # 8-byte Spill
	movq	%rsi, 256(%rsp)                 # 8-byte Spill
	orq	%rsi, %r8
	cmpl	$1, %eax
	movl	$0, %esi
	cmoveq	%rbx, %rsi
	movq	%rdx, 264(%rsp)                 # 8-byte Spill
	orq	%rdx, %rsi
	cmpl	$2, %eax
	movl	$0, %edx
	cmoveq	%rbx, %rdx
	movq	%rcx, 272(%rsp)                 # 8-byte Spill
	orq	%rcx, %rdx
	cmpl	$3, %eax
	movq	%r8, 64(%rsp)                   # 8-byte Spill
	movq	%r8, 384(%rsp)
	movq	%rsi, 144(%rsp)                 # 8-byte Spill
	movq	%rsi, 392(%rsp)
	movq	%rdx, 136(%rsp)                 # 8-byte Spill
	movq	%rdx, 400(%rsp)
	cmovneq	%r15, %rbx
	orq	%r14, %rbx
	movq	%rbx, 408(%rsp)
	movq	1496(%rsp), %rbp
	movl	$1, %edx
	movq	$-2, %r13
	movq	896(%rsp), %rax
	movq	(%rbp), %r8
	movq	%r8, %rsi
	movl	$0, %r10d
	movl	$0, %r11d
	movl	$0, %r9d
	andq	%rax, %rsi
	movq	%rsi, %rcx
	jne	.LBB14_7
# %bb.1:                                # %join.8.i.i
	movq	904(%rsp), %r9
	movq	8(%rbp), %rcx
	andq	%r9, %rcx
	je	.LBB14_3
# %bb.2:
	xorl	%r10d, %r10d
	movl	$64, %r9d
	movb	$1, %r15b
	xorl	%r11d, %r11d
	jmp	.LBB14_7
.LBB14_3:                               # %join.8.1.i.i
	movq	912(%rsp), %r11
	movq	16(%rbp), %rcx
	andq	%r11, %rcx
	je	.LBB14_5
# %bb.4:
	xorl	%r15d, %r15d
	movl	$128, %r9d
	movb	$1, %r10b
	xorl	%r11d, %r11d
	jmp	.LBB14_7
.LBB14_5:                               # %join.8.2.i.i
	movq	920(%rsp), %r10
	movq	24(%rbp), %rcx
	andq	%r10, %rcx
	je	.LBB14_15
# %bb.6:
	xorl	%r15d, %r15d
	movl	$192, %r9d
	movb	$1, %r11b
	xorl	%r10d, %r10d
.LBB14_7:                               # %then.5.i
	rep		bsfq	%rcx, %rcx
	movq	%rcx, %rax
	orq	%r9, %rax
	movq	%rax, 56(%rsp)                  # 8-byte Spill
	shlq	%cl, %rdx
                                        # kill: def $cl killed $cl killed $rcx
	rolq	%cl, %r13
	shrl	$3, %r9d
	andq	%r13, 896(%rsp,%r9)
	movq	896(%rsp), %rcx
	andq	%rcx, %r8
	je	.LBB14_9
# %bb.8:
	xorl	%r9d, %r9d
	jmp	.LBB14_12
.LBB14_9:                               # %join.8.i62.i
	movq	904(%rsp), %r13
	movq	1496(%rsp), %rax
	movq	8(%rax), %r8
	movl	$64, %r9d
	andq	%r13, %r8
	jne	.LBB14_12
# %bb.10:                               # %join.8.1.i69.i
	movq	912(%rsp), %rbp
	movq	16(%rax), %r8
	movl	$128, %r9d
	movq	%rbp, 128(%rsp)                 # 8-byte Spill
	andq	%rbp, %r8
	jne	.LBB14_12
# %bb.11:                               # %join.8.2.i76.i
	movq	920(%rsp), %rbp
	movq	24(%rax), %r8
	movl	$192, %r9d
	andq	%rbp, %r8
	je	.LBB14_17
.LBB14_12:                              # %"clear::clear.exit.thread"
	rep		bsfq	%r8, %rax
	orl	%eax, %r9d
	movl	$1, %eax
	xorl	%r12d, %r12d
	movq	56(%rsp), %rbp                  # 8-byte Reload
                                        # kill: def $bp killed $bp killed $rbp def $rbp
                                        # kill: def $r9w killed $r9w killed $r9 def $r9
.LBB14_13:                              # %join.5
	xorl	%ecx, %ecx
.LBB14_14:                              # %join.5
	movq	%rax, (%rdi)
	movw	%bp, 8(%rdi)
	movw	%r9w, 10(%rdi)
	movl	$0, 12(%rdi)
	movq	%r12, 16(%rdi)
	movq	%rcx, 24(%rdi)
	addq	$1416, %rsp                     # imm = 0x588
	.cfi_def_cfa_offset 56
	popq	%rbx
	.cfi_def_cfa_offset 48
	popq	%r12
	.cfi_def_cfa_offset 40
	popq	%r13
	.cfi_def_cfa_offset 32
	popq	%r14
	.cfi_def_cfa_offset 24
	popq	%r15
	.cfi_def_cfa_offset 16
	popq	%rbp
	.cfi_def_cfa_offset 8
	retq
.LBB14_15:                              # %join.7.i
	.cfi_def_cfa_offset 1472
	xorps	%xmm0, %xmm0
	movaps	%xmm0, 80(%rsp)
	movq	$0, 96(%rsp)
	testq	%rax, %rax
	je	.LBB14_32
# %bb.16:
	xorl	%ecx, %ecx
	movq	%rax, %r9
	movq	1488(%rsp), %rsi
	jmp	.LBB14_35
.LBB14_17:                              # %join.10.i
	movq	%rdi, 48(%rsp)                  # 8-byte Spill
	testq	%rsi, %rsi
	cmovneq	%rdx, %rsi
	orq	64(%rsp), %rsi                  # 8-byte Folded Reload
	movq	%rsi, 384(%rsp)
	xorl	%r9d, %r9d
	testb	%r15b, %r15b
	movl	$0, %edi
	cmovneq	%rdx, %rdi
	orq	144(%rsp), %rdi                 # 8-byte Folded Reload
	testb	%r10b, %r10b
	movl	$0, %r8d
	cmovneq	%rdx, %r8
	movq	%rdi, 392(%rsp)
	orq	136(%rsp), %r8                  # 8-byte Folded Reload
	movq	%r8, 400(%rsp)
	testb	%r11b, %r11b
	cmoveq	%r9, %rdx
	orq	%rbx, %rdx
	movq	%rdx, 408(%rsp)
	xorps	%xmm0, %xmm0
	movaps	%xmm0, 80(%rsp)
	movq	$0, 96(%rsp)
	testq	%rcx, %rcx
	movq	152(%rsp), %rdx                 # 8-byte Reload
	movq	72(%rsp), %rsi                  # 8-byte Reload
	movq	280(%rsp), %r10                 # 8-byte Reload
	jne	.LBB14_21
# %bb.18:                               # %join.5.i.i.i.preheader.i
	movl	$64, %r9d
	movq	%r13, %rcx
	testq	%r13, %r13
	jne	.LBB14_21
# %bb.19:                               # %join.8.i.i.i.i
	movl	$128, %r9d
	movq	128(%rsp), %rax                 # 8-byte Reload
	movq	%rax, %rcx
	testq	%rax, %rax
	jne	.LBB14_21
# %bb.20:                               # %join.8.i.i.i.1.i
	movl	$192, %r9d
	movq	%rbp, %rcx
	testq	%rbp, %rbp
	je	.LBB14_29
.LBB14_21:                              # %join.5.i.i.preheader.i
	rep		bsfq	%rcx, %r13
	orq	%r9, %r13
	jmp	.LBB14_24
.LBB14_22:                              #   in Loop: Header=BB14_24 Depth=1
	xorl	%r13d, %r13d
.LBB14_23:                              # %"words::next_from.exit41.i.i.i"
                                        #   in Loop: Header=BB14_24 Depth=1
	shlq	$6, %rax
	orq	%r13, %rax
	rep		bsfq	%rdi, %r13
	addq	%rax, %r13
	cmpq	$256, %r13                      # imm = 0x100
	jae	.LBB14_29
.LBB14_24:                              # %join.5.i.i.i
                                        # =>This Loop Header: Depth=1
                                        #     Child Loop BB14_27 Depth 2
	movq	1512(%rsp), %rax
	movq	%rax, 40(%rsp)
	movq	1504(%rsp), %rax
	movq	%rax, 32(%rsp)
	movq	1496(%rsp), %rax
	movq	%rax, 24(%rsp)
	movq	1488(%rsp), %rax
	movq	%rax, 16(%rsp)
	movq	1480(%rsp), %rax
	movq	%rax, 8(%rsp)
	movq	1472(%rsp), %rax
	movq	%rax, (%rsp)
	leaq	80(%rsp), %rdi
	leaq	384(%rsp), %rcx
	movl	%r13d, %r8d
	movq	%r10, %r15
	movq	%r10, %r9
	callq	"acting::make_room"
	cmpb	$1, 80(%rsp)
	je	.LBB14_87
# %bb.25:                               # %join.9.i.i.i
                                        #   in Loop: Header=BB14_24 Depth=1
	cmpq	$255, %r13
	movq	152(%rsp), %rdx                 # 8-byte Reload
	movq	72(%rsp), %rsi                  # 8-byte Reload
	je	.LBB14_29
# %bb.26:                               # %join.5.preheader.i14.i.i.i
                                        #   in Loop: Header=BB14_24 Depth=1
	movq	%r15, %r10
	incq	%r13
	movq	%r13, %rax
	shrq	$6, %rax
	andl	$63, %r13d
	movq	896(%rsp,%rax,8), %rdi
	movl	%r13d, %ecx
	shrq	%cl, %rdi
	testq	%rdi, %rdi
	jne	.LBB14_23
	.p2align	4
.LBB14_27:                              # %join.8.peel.i29.i.i.i
                                        #   Parent Loop BB14_24 Depth=1
                                        # =>  This Inner Loop Header: Depth=2
	incq	%rax
	cmpq	$4, %rax
	je	.LBB14_29
# %bb.28:                               # %join.5.i32.i.i.i
                                        #   in Loop: Header=BB14_27 Depth=2
	movq	896(%rsp,%rax,8), %rdi
	testq	%rdi, %rdi
	je	.LBB14_27
	jmp	.LBB14_22
.LBB14_29:                              # %arm.2.i.i
	xorl	%ecx, %ecx
	movq	$0, 232(%rsp)                   # 8-byte Folded Spill
	movq	48(%rsp), %rdi                  # 8-byte Reload
	movq	56(%rsp), %r8                   # 8-byte Reload
.LBB14_30:                              # %arm.2
	movq	64(%rsp), %r15                  # 8-byte Reload
	movq	1512(%rsp), %rax
	cmpq	%rax, %rcx
	movq	%rcx, 160(%rsp)                 # 8-byte Spill
	cmovbq	%rcx, %rax
	movq	120(%rsp), %rcx                 # 8-byte Reload
	movups	(%rsi,%rcx), %xmm0
	movaps	%xmm0, 288(%rsp)
	movups	16(%rsi,%rcx), %xmm0
	movaps	%xmm0, 304(%rsp)
	movq	168(%rsp), %rcx                 # 8-byte Reload
	andq	%rcx, 288(%rsp,%r12)
	movl	$1, %esi
	movl	%r8d, %ecx
	shlq	%cl, %rsi
	movq	$-2, %rdx
	rolq	%cl, %rdx
	movl	%r8d, %ecx
	shrl	$3, %ecx
	andl	$4088, %ecx                     # imm = 0xFF8
	movq	%rdx, 376(%rsp)                 # 8-byte Spill
	movq	%rcx, 368(%rsp)                 # 8-byte Spill
	andq	%rdx, 288(%rsp,%rcx)
	movq	288(%rsp), %r9
	testq	%r9, %r9
	movq	1488(%rsp), %r13
	je	.LBB14_43
# %bb.31:
	xorl	%ecx, %ecx
	movq	%r9, %rdx
	jmp	.LBB14_46
.LBB14_32:                              # %join.5.i.i85.preheader.i
	movl	$64, %ecx
	testq	%r9, %r9
	movq	1488(%rsp), %rsi
	jne	.LBB14_35
# %bb.33:                               # %join.8.i.i.i
	movl	$128, %ecx
	movq	%r11, %r9
	testq	%r11, %r11
	jne	.LBB14_35
# %bb.34:                               # %join.8.i.i.1.i
	movl	$192, %ecx
	movq	%r10, %r9
	testq	%r10, %r10
	je	.LBB14_79
.LBB14_35:                              # %join.5.i.preheader.i
	rep		bsfq	%r9, %r15
	orq	%rcx, %r15
	movq	%rdi, 48(%rsp)                  # 8-byte Spill
	jmp	.LBB14_38
.LBB14_36:                              #   in Loop: Header=BB14_38 Depth=1
	xorl	%r15d, %r15d
.LBB14_37:                              # %"words::next_from.exit41.i.i"
                                        #   in Loop: Header=BB14_38 Depth=1
	shlq	$6, %rax
	orq	%r15, %rax
	rep		bsfq	%rdx, %r15
	addq	%rax, %r15
	cmpq	$256, %r15                      # imm = 0x100
	jae	.LBB14_79
.LBB14_38:                              # %join.5.i.i
                                        # =>This Loop Header: Depth=1
                                        #     Child Loop BB14_41 Depth 2
	movq	1512(%rsp), %rax
	movq	%rax, 40(%rsp)
	movq	1504(%rsp), %rax
	movq	%rax, 32(%rsp)
	movq	%rbp, 24(%rsp)
	movq	%rsi, 16(%rsp)
	movq	1480(%rsp), %rax
	movq	%rax, 8(%rsp)
	movq	1472(%rsp), %rax
	movq	%rax, (%rsp)
	leaq	80(%rsp), %rdi
	leaq	384(%rsp), %rcx
	movq	72(%rsp), %rsi                  # 8-byte Reload
	movq	152(%rsp), %rdx                 # 8-byte Reload
	movl	%r15d, %r8d
	movq	280(%rsp), %r9                  # 8-byte Reload
	movq	%r9, %r13
	callq	"acting::make_room"
	cmpb	$1, 80(%rsp)
	je	.LBB14_80
# %bb.39:                               # %join.9.i.i
                                        #   in Loop: Header=BB14_38 Depth=1
	cmpq	$255, %r15
	movq	48(%rsp), %rdi                  # 8-byte Reload
	movq	1488(%rsp), %rsi
	je	.LBB14_79
# %bb.40:                               # %join.5.preheader.i14.i.i
                                        #   in Loop: Header=BB14_38 Depth=1
	incq	%r15
	movq	%r15, %rax
	shrq	$6, %rax
	andl	$63, %r15d
	movq	896(%rsp,%rax,8), %rdx
	movl	%r15d, %ecx
	shrq	%cl, %rdx
	testq	%rdx, %rdx
	jne	.LBB14_37
	.p2align	4
.LBB14_41:                              # %join.8.peel.i29.i.i
                                        #   Parent Loop BB14_38 Depth=1
                                        # =>  This Inner Loop Header: Depth=2
	incq	%rax
	cmpq	$4, %rax
	je	.LBB14_79
# %bb.42:                               # %join.5.i32.i.i
                                        #   in Loop: Header=BB14_41 Depth=2
	movq	896(%rsp,%rax,8), %rdx
	testq	%rdx, %rdx
	je	.LBB14_41
	jmp	.LBB14_36
.LBB14_43:                              # %join.5.i.preheader.i.i.i
	movq	296(%rsp), %rdx
	movl	$64, %ecx
	testq	%rdx, %rdx
	jne	.LBB14_46
# %bb.44:                               # %join.8.i.i.i.i50
	movq	304(%rsp), %rdx
	movl	$128, %ecx
	testq	%rdx, %rdx
	jne	.LBB14_46
# %bb.45:                               # %join.8.i.1.i.i.i
	movq	312(%rsp), %rdx
	movl	$192, %ecx
	testq	%rdx, %rdx
	je	.LBB14_79
.LBB14_46:                              # %join.5.lr.ph.i.i.i
	movq	%r9, 240(%rsp)                  # 8-byte Spill
	movq	%rsi, 216(%rsp)                 # 8-byte Spill
	movzwl	212(%rsp), %esi                 # 2-byte Folded Reload
	movq	%rsi, 360(%rsp)                 # 8-byte Spill
	movq	1504(%rsp), %rsi
	leaq	(%rsi,%rax,8), %rsi
	movq	%rsi, 120(%rsp)                 # 8-byte Spill
	movq	1512(%rsp), %rsi
	subq	%rax, %rsi
	movq	%rsi, 168(%rsp)                 # 8-byte Spill
	movzwl	%r8w, %eax
	movq	%rax, 128(%rsp)                 # 8-byte Spill
	rep		bsfq	%rdx, %rbp
	orq	%rcx, %rbp
	leaq	(,%r13,2), %rax
	movq	%rax, 352(%rsp)                 # 8-byte Spill
	movq	%rdi, 48(%rsp)                  # 8-byte Spill
	movq	%r8, 56(%rsp)                   # 8-byte Spill
	jmp	.LBB14_48
.LBB14_47:                              # %"words::next_from.exit26.i.i.i"
                                        #   in Loop: Header=BB14_48 Depth=1
	shlq	$6, %rax
	orq	%rbp, %rax
	rep		bsfq	%rdx, %rbp
	addq	%rax, %rbp
	cmpq	$256, %rbp                      # imm = 0x100
	jae	.LBB14_57
.LBB14_48:                              # %join.5.i.i.i39
                                        # =>This Loop Header: Depth=1
                                        #     Child Loop BB14_54 Depth 2
	leaq	384(%rsp), %rdi
	movl	$512, %edx                      # imm = 0x200
	xorl	%esi, %esi
	callq	memset@PLT
	movq	%r13, %r12
	testq	%r13, %r13
	je	.LBB14_50
# %bb.49:                               # %join.5.i14.preheader.i.i.i.i
                                        #   in Loop: Header=BB14_48 Depth=1
	leaq	384(%rsp), %rdi
	movq	1480(%rsp), %rsi
	movq	352(%rsp), %rdx                 # 8-byte Reload
	callq	memcpy@PLT
.LBB14_50:                              # %"attempts::copy.exit22.i.i.i.i"
                                        #   in Loop: Header=BB14_48 Depth=1
	movq	1496(%rsp), %rax
	movups	(%rax), %xmm0
	movaps	%xmm0, 320(%rsp)
	movups	16(%rax), %xmm0
	movaps	%xmm0, 336(%rsp)
	xorps	%xmm0, %xmm0
	movaps	%xmm0, 176(%rsp)
	movq	$0, 192(%rsp)
	movq	%r15, 80(%rsp)
	movq	144(%rsp), %rax                 # 8-byte Reload
	movq	%rax, 88(%rsp)
	movq	136(%rsp), %rax                 # 8-byte Reload
	movq	%rax, 96(%rsp)
	movq	%rbx, 104(%rsp)
	movq	168(%rsp), %r15                 # 8-byte Reload
	movq	%r15, 40(%rsp)
	movq	120(%rsp), %rax                 # 8-byte Reload
	movq	%rax, 32(%rsp)
	leaq	320(%rsp), %rax
	movq	%rax, 24(%rsp)
	movq	%r12, 16(%rsp)
	leaq	384(%rsp), %rax
	movq	%rax, 8(%rsp)
	movq	1472(%rsp), %r13
	movq	%r13, (%rsp)
	leaq	176(%rsp), %rdi
	leaq	80(%rsp), %rcx
	leaq	896(%rsp), %r9
	movq	72(%rsp), %rsi                  # 8-byte Reload
	movq	152(%rsp), %rdx                 # 8-byte Reload
	movl	%ebp, %r8d
	callq	"acting::make_room"
	cmpb	$1, 176(%rsp)
	movq	%r12, %r9
	jne	.LBB14_52
# %bb.51:                               # %arm.3.i.i.i.i.i
                                        #   in Loop: Header=BB14_48 Depth=1
	movq	184(%rsp), %r12
	movq	192(%rsp), %rax
	movq	%rax, 248(%rsp)                 # 8-byte Spill
	movq	%rbp, %rdx
	movl	$1, %eax
	movl	%ebp, %ecx
	shlq	%cl, %rax
	shrq	$6, %rdx
	xorl	%ecx, %ecx
	testq	%rdx, %rdx
	movl	$0, %esi
	cmoveq	%rax, %rsi
	orq	64(%rsp), %rsi                  # 8-byte Folded Reload
	movq	%rsi, 80(%rsp)
	cmpq	$1, %rdx
	movl	$0, %esi
	cmoveq	%rax, %rsi
	orq	144(%rsp), %rsi                 # 8-byte Folded Reload
	movq	%rsi, 88(%rsp)
	cmpq	$2, %rdx
	movl	$0, %esi
	cmoveq	%rax, %rsi
	orq	136(%rsp), %rsi                 # 8-byte Folded Reload
	movq	%rsi, 96(%rsp)
	cmpq	$3, %rdx
	cmovneq	%rcx, %rax
	orq	%rbx, %rax
	cmpq	%r15, %r12
	movq	%r15, %rcx
	cmovbq	%r12, %rcx
	movq	%rax, 104(%rsp)
	movq	120(%rsp), %rax                 # 8-byte Reload
	leaq	(%rax,%rcx,8), %rax
	subq	%rcx, %r15
	movq	%r15, 40(%rsp)
	movq	%rax, 32(%rsp)
	leaq	320(%rsp), %rax
	movq	%rax, 24(%rsp)
	movq	%r9, 16(%rsp)
	leaq	384(%rsp), %rax
	movq	%rax, 8(%rsp)
	movq	%r13, (%rsp)
	leaq	176(%rsp), %rdi
	leaq	80(%rsp), %rcx
	movq	%r9, %r15
	leaq	896(%rsp), %r9
	movq	72(%rsp), %rsi                  # 8-byte Reload
	movq	152(%rsp), %rdx                 # 8-byte Reload
	movq	56(%rsp), %r8                   # 8-byte Reload
                                        # kill: def $r8d killed $r8d killed $r8
	callq	"acting::make_room"
	movq	%r15, %r9
	cmpb	$1, 176(%rsp)
	je	.LBB14_88
.LBB14_52:                              # %"either_way::attempt.exit.thread42.i.i.i"
                                        #   in Loop: Header=BB14_48 Depth=1
	cmpq	$255, %rbp
	movq	48(%rsp), %rdi                  # 8-byte Reload
	movq	%r13, %r12
	movq	64(%rsp), %r15                  # 8-byte Reload
	je	.LBB14_57
# %bb.53:                               # %join.5.preheader.i.i.i.i41
                                        #   in Loop: Header=BB14_48 Depth=1
	movq	%r9, %r13
	incq	%rbp
	movq	%rbp, %rax
	shrq	$6, %rax
	andl	$63, %ebp
	movq	288(%rsp,%rax,8), %rdx
	movl	%ebp, %ecx
	shrq	%cl, %rdx
	testq	%rdx, %rdx
	jne	.LBB14_47
	.p2align	4
.LBB14_54:                              # %join.8.peel.i16.i.i.i
                                        #   Parent Loop BB14_48 Depth=1
                                        # =>  This Inner Loop Header: Depth=2
	incq	%rax
	cmpq	$4, %rax
	je	.LBB14_57
# %bb.55:                               # %join.5.i17.i.i.i
                                        #   in Loop: Header=BB14_54 Depth=2
	movq	288(%rsp,%rax,8), %rdx
	testq	%rdx, %rdx
	je	.LBB14_54
# %bb.56:                               #   in Loop: Header=BB14_48 Depth=1
	xorl	%ebp, %ebp
	jmp	.LBB14_47
.LBB14_57:                              # %join.4.i.i
	movq	240(%rsp), %rcx                 # 8-byte Reload
	testq	%rcx, %rcx
	je	.LBB14_59
# %bb.58:
	xorl	%eax, %eax
	movq	216(%rsp), %rdx                 # 8-byte Reload
	jmp	.LBB14_62
.LBB14_59:                              # %join.5.i.preheader.i165.i.i
	movq	296(%rsp), %rcx
	movl	$64, %eax
	testq	%rcx, %rcx
	movq	216(%rsp), %rdx                 # 8-byte Reload
	jne	.LBB14_62
# %bb.60:                               # %join.8.i.i169.i.i
	movq	304(%rsp), %rcx
	movl	$128, %eax
	testq	%rcx, %rcx
	jne	.LBB14_62
# %bb.61:                               # %join.8.i.1.i173.i.i
	movq	312(%rsp), %rcx
	movl	$192, %eax
	testq	%rcx, %rcx
	je	.LBB14_79
.LBB14_62:                              # %join.5.lr.ph.i29.i.i
	rep		bsfq	%rcx, %rbp
	orq	%rax, %rbp
	movq	224(%rsp), %rax                 # 8-byte Reload
	movl	%eax, %ecx
	addq	%rcx, %rcx
	movq	%rcx, 136(%rsp)                 # 8-byte Spill
	shrq	$31, %rax
	andq	$-2, %rax
	movq	%rax, 224(%rsp)                 # 8-byte Spill
	movq	168(%rsp), %r13                 # 8-byte Reload
	cmpq	$2, %r13
	movl	$2, %eax
	cmovbq	%r13, %rax
	subq	%rax, %r13
	xorl	%esi, %esi
	movq	128(%rsp), %rcx                 # 8-byte Reload
                                        # kill: def $ecx killed $ecx killed $rcx
	shrl	$6, %ecx
	movl	$0, %ebx
	cmoveq	%rdx, %rbx
	orq	256(%rsp), %rbx                 # 8-byte Folded Reload
	cmpl	$1, %ecx
	movl	$0, %r15d
	cmoveq	%rdx, %r15
	orq	264(%rsp), %r15                 # 8-byte Folded Reload
	cmpl	$2, %ecx
	movl	$0, %r8d
	cmoveq	%rdx, %r8
	orq	272(%rsp), %r8                  # 8-byte Folded Reload
	cmpl	$3, %ecx
	cmoveq	%rdx, %rsi
	orq	%r14, %rsi
	leaq	(%r12,%r12), %rcx
	movq	%rcx, 248(%rsp)                 # 8-byte Spill
	movl	%eax, %eax
	movq	120(%rsp), %rcx                 # 8-byte Reload
	leaq	(%rcx,%rax,8), %r14
	movq	%rsi, 272(%rsp)                 # 8-byte Spill
	movq	%rbx, 64(%rsp)                  # 8-byte Spill
	movq	%r15, 264(%rsp)                 # 8-byte Spill
	movq	%r8, 144(%rsp)                  # 8-byte Spill
	movq	%r14, 256(%rsp)                 # 8-byte Spill
	jmp	.LBB14_65
.LBB14_63:                              #   in Loop: Header=BB14_65 Depth=1
	xorl	%ebp, %ebp
.LBB14_64:                              # %"words::next_from.exit26.i136.i.i"
                                        #   in Loop: Header=BB14_65 Depth=1
	shlq	$6, %rax
	orq	%rbp, %rax
	rep		bsfq	%rdx, %rbp
	addq	%rax, %rbp
	cmpq	$256, %rbp                      # imm = 0x100
	jae	.LBB14_79
.LBB14_65:                              # %join.5.i115.i.i
                                        # =>This Loop Header: Depth=1
                                        #     Child Loop BB14_77 Depth 2
	leaq	896(%rsp), %rdi
	movl	$512, %edx                      # imm = 0x200
	xorl	%esi, %esi
	callq	memset@PLT
	leaq	384(%rsp), %rdi
	movl	$512, %edx                      # imm = 0x200
	xorl	%esi, %esi
	callq	memset@PLT
	testq	%r12, %r12
	je	.LBB14_67
# %bb.66:                               # %join.5.i.preheader.i.i118.i.i
                                        #   in Loop: Header=BB14_65 Depth=1
	leaq	896(%rsp), %rdi
	movq	280(%rsp), %rsi                 # 8-byte Reload
	movq	248(%rsp), %rdx                 # 8-byte Reload
	callq	memcpy@PLT
.LBB14_67:                              # %"attempts::copy.exit.i.i119.i.i"
                                        #   in Loop: Header=BB14_65 Depth=1
	cmpq	$0, 1488(%rsp)
	movq	168(%rsp), %r14                 # 8-byte Reload
	je	.LBB14_69
# %bb.68:                               # %join.5.i14.preheader.i.i120.i.i
                                        #   in Loop: Header=BB14_65 Depth=1
	leaq	384(%rsp), %rdi
	movq	1480(%rsp), %rsi
	movq	352(%rsp), %rdx                 # 8-byte Reload
	callq	memcpy@PLT
.LBB14_69:                              # %"attempts::copy.exit22.i.i121.i.i"
                                        #   in Loop: Header=BB14_65 Depth=1
	movq	1496(%rsp), %rax
	movups	(%rax), %xmm0
	movaps	%xmm0, 320(%rsp)
	movups	16(%rax), %xmm0
	movaps	%xmm0, 336(%rsp)
	movq	136(%rsp), %rax                 # 8-byte Reload
	movzwl	896(%rsp,%rax), %ecx
	movq	224(%rsp), %rax                 # 8-byte Reload
	movzwl	896(%rsp,%rax), %eax
	movzwl	384(%rsp,%rcx,2), %edx
	movq	56(%rsp), %rsi                  # 8-byte Reload
	movw	%si, 896(%rsp,%rdx,2)
	movq	128(%rsp), %rsi                 # 8-byte Reload
	movw	%dx, 384(%rsp,%rsi,2)
	movq	160(%rsp), %rsi                 # 8-byte Reload
	cmpq	%rsi, 1512(%rsp)
	jbe	.LBB14_71
# %bb.70:                               # %then.1.i.i.i.i.i.i.i.i.i
                                        #   in Loop: Header=BB14_65 Depth=1
	movl	%ecx, %esi
	shll	$16, %esi
	shlq	$32, %rdx
	orq	%rsi, %rdx
	addq	128(%rsp), %rdx                 # 8-byte Folded Reload
	movq	120(%rsp), %rsi                 # 8-byte Reload
	movq	%rdx, (%rsi)
.LBB14_71:                              # %"moving::cross.exit.i.i.i.i.i.i"
                                        #   in Loop: Header=BB14_65 Depth=1
	movq	376(%rsp), %rdx                 # 8-byte Reload
	movq	368(%rsp), %rsi                 # 8-byte Reload
	andq	%rdx, 320(%rsp,%rsi)
	movl	$1, %edx
	movl	$1, %esi
	shlq	%cl, %rsi
	movl	%ecx, %r8d
	shrl	$6, %r8d
	leaq	(,%r8,8), %rdi
	movw	%r12w, 384(%rsp,%rcx,2)
	movq	320(%rsp,%r8,8), %r8
	movzwl	384(%rsp,%rax,2), %r9d
	movw	%cx, 896(%rsp,%r9,2)
	movw	%r9w, 384(%rsp,%rcx,2)
	cmpq	$2, %r14
	leaq	320(%rsp), %r11
	jb	.LBB14_73
# %bb.72:                               # %then.1.i.i.i33.i.i.i.i.i.i
                                        #   in Loop: Header=BB14_65 Depth=1
	movl	%eax, %r10d
	shll	$16, %r10d
	shlq	$32, %r9
	orq	%r10, %r9
	orq	%rcx, %r9
	movq	120(%rsp), %rcx                 # 8-byte Reload
	movq	%r9, 8(%rcx)
.LBB14_73:                              # %"bring::enter.exit.i.i.i.i.i"
                                        #   in Loop: Header=BB14_65 Depth=1
	movw	%r12w, 384(%rsp,%rax,2)
	notq	%rsi
	andq	%rsi, %r8
	movq	%r8, 320(%rsp,%rdi)
	movl	%eax, %ecx
	shlq	%cl, %rdx
	shrl	$6, %eax
	orq	%rdx, 320(%rsp,%rax,8)
	xorps	%xmm0, %xmm0
	movaps	%xmm0, 176(%rsp)
	movq	$0, 192(%rsp)
	movq	64(%rsp), %rax                  # 8-byte Reload
	movq	%rax, 80(%rsp)
	movq	264(%rsp), %r15                 # 8-byte Reload
	movq	%r15, 88(%rsp)
	movq	144(%rsp), %rax                 # 8-byte Reload
	movq	%rax, 96(%rsp)
	movq	272(%rsp), %rbx                 # 8-byte Reload
	movq	%rbx, 104(%rsp)
	movq	%r13, 40(%rsp)
	movq	256(%rsp), %r14                 # 8-byte Reload
	movq	%r14, 32(%rsp)
	movq	%r11, 24(%rsp)
	movq	1488(%rsp), %rax
	movq	%rax, 16(%rsp)
	leaq	384(%rsp), %rcx
	movq	%rcx, 8(%rsp)
	movq	%r12, (%rsp)
	leaq	176(%rsp), %rdi
	leaq	80(%rsp), %rcx
	leaq	896(%rsp), %r9
	movq	72(%rsp), %rsi                  # 8-byte Reload
	movq	152(%rsp), %r12                 # 8-byte Reload
	movq	%r12, %rdx
	movl	%ebp, %r8d
	callq	"acting::make_room"
	cmpb	$1, 176(%rsp)
	jne	.LBB14_75
# %bb.74:                               # %arm.3.i.i.i.i.i.i
                                        #   in Loop: Header=BB14_65 Depth=1
	movq	184(%rsp), %rdi
	movq	192(%rsp), %rax
	movq	%rax, 240(%rsp)                 # 8-byte Spill
	movq	%rbp, %rdx
	movl	$1, %eax
	movl	%ebp, %ecx
	shlq	%cl, %rax
	shrq	$6, %rdx
	xorl	%ecx, %ecx
	testq	%rdx, %rdx
	movl	$0, %esi
	cmoveq	%rax, %rsi
	orq	64(%rsp), %rsi                  # 8-byte Folded Reload
	movq	%rsi, 80(%rsp)
	cmpq	$1, %rdx
	movl	$0, %esi
	cmoveq	%rax, %rsi
	orq	%r15, %rsi
	movq	%rsi, 88(%rsp)
	cmpq	$2, %rdx
	movl	$0, %esi
	cmoveq	%rax, %rsi
	orq	144(%rsp), %rsi                 # 8-byte Folded Reload
	movq	%rsi, 96(%rsp)
	cmpq	$3, %rdx
	cmovneq	%rcx, %rax
	orq	%rbx, %rax
	cmpq	%r13, %rdi
	movq	%r13, %rcx
	movq	%rdi, 216(%rsp)                 # 8-byte Spill
	cmovbq	%rdi, %rcx
	movq	%rax, 104(%rsp)
	leaq	(%r14,%rcx,8), %rax
	movq	%r13, %rdx
	subq	%rcx, %rdx
	movq	%rdx, 40(%rsp)
	movq	%rax, 32(%rsp)
	leaq	320(%rsp), %rax
	movq	%rax, 24(%rsp)
	movq	1488(%rsp), %rax
	movq	%rax, 16(%rsp)
	leaq	384(%rsp), %rax
	movq	%rax, 8(%rsp)
	movq	1472(%rsp), %rax
	movq	%rax, (%rsp)
	leaq	176(%rsp), %rdi
	leaq	80(%rsp), %rcx
	leaq	896(%rsp), %r9
	movq	72(%rsp), %rsi                  # 8-byte Reload
	movq	%r12, %rdx
	movl	212(%rsp), %r8d                 # 4-byte Reload
	callq	"acting::make_room"
	cmpb	$1, 176(%rsp)
	je	.LBB14_89
.LBB14_75:                              # %"either_way::attempt.exit.thread37.i.i.i"
                                        #   in Loop: Header=BB14_65 Depth=1
	cmpq	$255, %rbp
	movq	48(%rsp), %rdi                  # 8-byte Reload
	movq	1472(%rsp), %r12
	je	.LBB14_79
# %bb.76:                               # %join.5.preheader.i.i129.i.i
                                        #   in Loop: Header=BB14_65 Depth=1
	incq	%rbp
	movq	%rbp, %rax
	shrq	$6, %rax
	andl	$63, %ebp
	movq	288(%rsp,%rax,8), %rdx
	movl	%ebp, %ecx
	shrq	%cl, %rdx
	testq	%rdx, %rdx
	jne	.LBB14_64
	.p2align	4
.LBB14_77:                              # %join.8.peel.i16.i149.i.i
                                        #   Parent Loop BB14_65 Depth=1
                                        # =>  This Inner Loop Header: Depth=2
	incq	%rax
	cmpq	$4, %rax
	je	.LBB14_79
# %bb.78:                               # %join.5.i17.i152.i.i
                                        #   in Loop: Header=BB14_77 Depth=2
	movq	288(%rsp,%rax,8), %rdx
	testq	%rdx, %rdx
	je	.LBB14_77
	jmp	.LBB14_63
.LBB14_79:                              # %"clear::clear.exit.thread78"
	xorl	%eax, %eax
	xorl	%ebp, %ebp
	xorl	%r9d, %r9d
	xorl	%r12d, %r12d
	jmp	.LBB14_13
.LBB14_80:                              # %arm.11.i
	movq	88(%rsp), %rcx
	movq	1512(%rsp), %rax
	cmpq	%rax, %rcx
	movq	%rcx, 160(%rsp)                 # 8-byte Spill
	cmovbq	%rcx, %rax
	movq	%r15, %rdx
	shrq	$6, %rdx
	movl	$1, %esi
	movl	%r15d, %ecx
	shlq	%cl, %rsi
	xorl	%ecx, %ecx
	testq	%rdx, %rdx
	movl	$0, %edi
	cmoveq	%rsi, %rdi
	orq	64(%rsp), %rdi                  # 8-byte Folded Reload
	movq	%rdi, 384(%rsp)
	cmpq	$1, %rdx
	movl	$0, %edi
	cmoveq	%rsi, %rdi
	orq	144(%rsp), %rdi                 # 8-byte Folded Reload
	movq	%rdi, 392(%rsp)
	cmpq	$2, %rdx
	movl	$0, %edi
	cmoveq	%rsi, %rdi
	movq	96(%rsp), %r8
	movq	%r8, 232(%rsp)                  # 8-byte Spill
	orq	136(%rsp), %rdi                 # 8-byte Folded Reload
	movq	%rdi, 400(%rsp)
	cmpq	$3, %rdx
	cmovneq	%rcx, %rsi
	orq	%rbx, %rsi
	movq	%rsi, 408(%rsp)
	xorps	%xmm0, %xmm0
	movaps	%xmm0, 80(%rsp)
	movq	$0, 96(%rsp)
	cmpq	$254, %r15
	movq	48(%rsp), %rdi                  # 8-byte Reload
	movq	%r15, %r8
	ja	.LBB14_86
# %bb.81:                               # %join.5.preheader.i.i.i.i
	movq	%r13, %r10
	leaq	1(%r8), %rcx
	movq	%rcx, %rdx
	shrq	$6, %rdx
	andl	$63, %ecx
	movq	896(%rsp,%rdx,8), %rsi
	shrq	%cl, %rsi
	testq	%rsi, %rsi
	je	.LBB14_85
.LBB14_82:                              # %"words::next_from.exit.i.i117.i"
	shlq	$6, %rdx
	orq	%rcx, %rdx
	rep		bsfq	%rsi, %r15
	addq	%rdx, %r15
	cmpq	$255, %r15
	ja	.LBB14_86
# %bb.83:                               # %join.5.i.i124.i.preheader
	movq	1504(%rsp), %rcx
	leaq	(%rcx,%rax,8), %rcx
	movq	%rcx, 56(%rsp)                  # 8-byte Spill
	movq	1512(%rsp), %rcx
	subq	%rax, %rcx
	movq	%rcx, 128(%rsp)                 # 8-byte Spill
	jmp	.LBB14_97
.LBB14_84:                              # %join.5.i.i.i170.i
                                        #   in Loop: Header=BB14_85 Depth=1
	movq	896(%rsp,%rdx,8), %rsi
	testq	%rsi, %rsi
	jne	.LBB14_102
.LBB14_85:                              # %join.8.peel.i.i.i169.i
                                        # =>This Inner Loop Header: Depth=1
	incq	%rdx
	cmpq	$4, %rdx
	jne	.LBB14_84
.LBB14_86:                              # %arm.2.i182.i
	movq	72(%rsp), %rsi                  # 8-byte Reload
	movq	160(%rsp), %rcx                 # 8-byte Reload
	jmp	.LBB14_30
.LBB14_87:                              # %arm.1.i.i
	movq	88(%rsp), %r12
	movq	96(%rsp), %rcx
	movl	$1, %eax
	movq	56(%rsp), %rbp                  # 8-byte Reload
                                        # kill: def $bp killed $bp killed $rbp def $rbp
	movl	%r13d, %r9d
	movq	48(%rsp), %rdi                  # 8-byte Reload
	jmp	.LBB14_14
.LBB14_88:                              # %"either_way::either_way.exit.thread.i"
	movq	192(%rsp), %rcx
	movq	248(%rsp), %rdi                 # 8-byte Reload
	movq	%rdi, %rdx
	shrq	$32, %rdx
	xorl	%eax, %eax
	movq	%rcx, %rsi
	shrq	$32, %rsi
	cmoveq	%rdi, %rax
	addq	%rcx, %rax
	testq	%rdx, %rdx
	cmovneq	%rdi, %rax
	addq	184(%rsp), %r12
	movq	48(%rsp), %rdi                  # 8-byte Reload
	movq	56(%rsp), %r9                   # 8-byte Reload
	movq	160(%rsp), %r10                 # 8-byte Reload
	jmp	.LBB14_94
.LBB14_89:                              # %arm.1.i.i.i.i.i
	movq	184(%rsp), %r12
	movq	192(%rsp), %rcx
	movq	240(%rsp), %rdi                 # 8-byte Reload
	movq	%rdi, %rdx
	shrq	$32, %rdx
	xorl	%eax, %eax
	movq	%rcx, %rsi
	shrq	$32, %rsi
	cmoveq	%rdi, %rax
	addq	%rcx, %rax
	testq	%rdx, %rdx
	cmovneq	%rdi, %rax
	movq	216(%rsp), %rbx                 # 8-byte Reload
	leaq	(%r12,%rbx), %r9
	addq	$2, %r9
	movq	168(%rsp), %r11                 # 8-byte Reload
	cmpq	%r11, %r9
	movq	%r11, %rcx
	cmovbq	%r9, %rcx
	movq	%r11, %rdi
	subq	%rcx, %rdi
	movq	224(%rsp), %rdx                 # 8-byte Reload
	movzwl	896(%rsp,%rdx), %edx
	movq	136(%rsp), %rsi                 # 8-byte Reload
	movzwl	896(%rsp,%rsi), %esi
	movzwl	384(%rsp,%rdx,2), %r8d
	movq	360(%rsp), %r10                 # 8-byte Reload
	movw	%r8w, 384(%rsp,%r10,2)
	cmpq	%r9, %r11
	movq	120(%rsp), %r11                 # 8-byte Reload
	jbe	.LBB14_91
# %bb.90:                               # %then.1.i.i.i.i43.i.i.i.i.i
	movl	%edx, %r9d
	shll	$16, %r9d
	shlq	$32, %r8
	orq	%r9, %r8
	orq	%r10, %r8
	movq	%r8, (%r11,%rcx,8)
.LBB14_91:                              # %"moving::cross.exit.i47.i.i.i.i.i"
	addq	%rbx, %r12
	movq	1472(%rsp), %r8
	movw	%r8w, 384(%rsp,%rdx,2)
	cmpq	$2, %rdi
	movq	48(%rsp), %rdi                  # 8-byte Reload
	movq	160(%rsp), %r10                 # 8-byte Reload
	jb	.LBB14_93
# %bb.92:                               # %then.1.i.i.i33.i79.i.i.i.i.i
	movzwl	384(%rsp,%rsi,2), %r8d
	shll	$16, %esi
	shlq	$32, %r8
	orq	%rsi, %r8
	orq	%rdx, %r8
	movq	%r8, 8(%r11,%rcx,8)
.LBB14_93:                              # %"either_way::attempt.exit.thread.i.i.i"
	addq	$4, %r12
	movq	56(%rsp), %r9                   # 8-byte Reload
.LBB14_94:                              # %arm.1.i
	movq	232(%rsp), %r8                  # 8-byte Reload
	movq	%r8, %rdx
	shrq	$32, %rdx
	xorl	%ecx, %ecx
	movq	%rax, %rsi
	shrq	$32, %rsi
	cmoveq	%r8, %rcx
	addq	%rax, %rcx
	testq	%rdx, %rdx
	cmovneq	%r8, %rcx
	addq	%r10, %r12
	movl	$1, %eax
	jmp	.LBB14_14
.LBB14_95:                              #   in Loop: Header=BB14_97 Depth=1
	xorl	%r15d, %r15d
.LBB14_96:                              # %"words::next_from.exit41.i.i139.i"
                                        #   in Loop: Header=BB14_97 Depth=1
	shlq	$6, %rax
	orq	%r15, %rax
	rep		bsfq	%rdx, %r15
	addq	%rax, %r15
	cmpq	$256, %r15                      # imm = 0x100
	jae	.LBB14_86
.LBB14_97:                              # %join.5.i.i124.i
                                        # =>This Loop Header: Depth=1
                                        #     Child Loop BB14_100 Depth 2
	movq	%rbp, %rax
	movq	%r8, %rbp
	movq	128(%rsp), %rcx                 # 8-byte Reload
	movq	%rcx, 40(%rsp)
	movq	56(%rsp), %rcx                  # 8-byte Reload
	movq	%rcx, 32(%rsp)
	movq	%rax, 24(%rsp)
	movq	1488(%rsp), %rax
	movq	%rax, 16(%rsp)
	movq	1480(%rsp), %rax
	movq	%rax, 8(%rsp)
	movq	1472(%rsp), %rax
	movq	%rax, (%rsp)
	leaq	80(%rsp), %rdi
	leaq	384(%rsp), %rcx
	movq	72(%rsp), %rsi                  # 8-byte Reload
	movq	152(%rsp), %rdx                 # 8-byte Reload
	movl	%r15d, %r8d
	movq	%r10, %r9
	callq	"acting::make_room"
	cmpb	$1, 80(%rsp)
	je	.LBB14_103
# %bb.98:                               # %join.9.i.i128.i
                                        #   in Loop: Header=BB14_97 Depth=1
	cmpq	$255, %r15
	movq	48(%rsp), %rdi                  # 8-byte Reload
	movq	%rbp, %r8
	movq	1496(%rsp), %rbp
	je	.LBB14_86
# %bb.99:                               # %join.5.preheader.i14.i.i132.i
                                        #   in Loop: Header=BB14_97 Depth=1
	movq	%r13, %r10
	incq	%r15
	movq	%r15, %rax
	shrq	$6, %rax
	andl	$63, %r15d
	movq	896(%rsp,%rax,8), %rdx
	movl	%r15d, %ecx
	shrq	%cl, %rdx
	testq	%rdx, %rdx
	jne	.LBB14_96
.LBB14_100:                             # %join.8.peel.i29.i.i148.i
                                        #   Parent Loop BB14_97 Depth=1
                                        # =>  This Inner Loop Header: Depth=2
	incq	%rax
	cmpq	$4, %rax
	je	.LBB14_86
# %bb.101:                              # %join.5.i32.i.i151.i
                                        #   in Loop: Header=BB14_100 Depth=2
	movq	896(%rsp,%rax,8), %rdx
	testq	%rdx, %rdx
	je	.LBB14_100
	jmp	.LBB14_95
.LBB14_102:
	xorl	%ecx, %ecx
	jmp	.LBB14_82
.LBB14_103:                             # %arm.1.i183.i
	movq	160(%rsp), %r12                 # 8-byte Reload
	addq	88(%rsp), %r12
	movq	96(%rsp), %rax
	movq	232(%rsp), %rdi                 # 8-byte Reload
	movq	%rdi, %rdx
	shrq	$32, %rdx
	xorl	%ecx, %ecx
	movq	%rax, %rsi
	shrq	$32, %rsi
	cmoveq	%rdi, %rcx
	addq	%rax, %rcx
	testq	%rdx, %rdx
	cmovneq	%rdi, %rcx
	movl	$1, %eax
                                        # kill: def $bp killed $bp killed $rbp def $rbp
	movl	%r15d, %r9d
	movq	48(%rsp), %rdi                  # 8-byte Reload
	jmp	.LBB14_14
.Lfunc_end14:
	.size	"clear_on::clear_two", .Lfunc_end14-"clear_on::clear_two"
	.cfi_endproc
                                        # -- End function
	.section	".text.play::play_within::<=8192>","ax",@progbits
	.p2align	4                               # -- Begin function play::play_within::<=8192>
	.type	"play::play_within::<=8192>",@function
"play::play_within::<=8192>":           # @"play::play_within::<=8192>"
	.cfi_startproc
# %bb.0:                                # %start
	pushq	%rbp
	.cfi_def_cfa_offset 16
	pushq	%r15
	.cfi_def_cfa_offset 24
	pushq	%r14
	.cfi_def_cfa_offset 32
	pushq	%r13
	.cfi_def_cfa_offset 40
	pushq	%r12
	.cfi_def_cfa_offset 48
	pushq	%rbx
	.cfi_def_cfa_offset 56
	movq	%rsp, %r11
	subq	$64512, %r11                    # imm = 0xFC00
	.cfi_def_cfa_register %r11
	.cfi_adjust_cfa_offset 64512
.LBB15_1:                               # %start
                                        # =>This Inner Loop Header: Depth=1
	subq	$3072, %rsp                     # imm = 0xC00
	movq	$0, (%rsp)
	cmpq	%r11, %rsp
	jne	.LBB15_1
# %bb.2:                                # %start
	subq	$1128, %rsp                     # imm = 0x468
	.cfi_def_cfa_register %rsp
	.cfi_def_cfa_offset 65696
	.cfi_offset %rbx, -56
	.cfi_offset %r12, -48
	.cfi_offset %r13, -40
	.cfi_offset %r14, -32
	.cfi_offset %r15, -24
	.cfi_offset %rbp, -16
	movq	%r9, %r13
	movq	%r8, %r14
	movq	%rcx, 72(%rsp)                  # 8-byte Spill
	movq	%rdx, %r12
	movq	%rsi, %rbp
	movq	%rdi, %rbx
	xorps	%xmm0, %xmm0
	movaps	%xmm0, 32(%rsp)
	movq	$0, 48(%rsp)
	leaq	8296(%rsp), %rdi
	movl	$57344, %edx                    # imm = 0xE000
	xorl	%esi, %esi
	callq	memset@PLT
	leaq	104(%rsp), %rdi
	movl	$8192, %edx                     # imm = 0x2000
	movq	%rbp, %rsi
	callq	memcpy@PLT
	leaq	(,%r12,4), %rcx
	testq	%rcx, %rcx
	je	.LBB15_34
# %bb.3:                                # %ok.2.i.i
	cmpq	$8192, %rcx                     # imm = 0x2000
	ja	.LBB15_4
# %bb.5:
	movl	$8192, %eax                     # imm = 0x2000
	xorl	%edx, %edx
	divl	%ecx
	movl	%eax, %edx
	jmp	.LBB15_6
.LBB15_4:
	xorl	%edx, %edx
.LBB15_6:
	movq	65712(%rsp), %rdi
	movq	65704(%rsp), %rsi
	movq	65696(%rsp), %rax
	cmpq	$4096, %rcx                     # imm = 0x1000
	ja	.LBB15_33
# %bb.7:                                # %join.7.lr.ph.i.i
	testq	%r12, %r12
	je	.LBB15_8
# %bb.9:                                # %join.7.i.i.preheader
	movq	%r12, %r8
	shlq	$5, %r8
	leaq	(%rsp,%r8), %r10
	addq	$128, %r10
	movl	$1, %r9d
	leaq	128(%rsp), %r11
	movq	%r14, 64(%rsp)                  # 8-byte Spill
.LBB15_10:                              # %join.7.i.i
                                        # =>This Loop Header: Depth=1
                                        #     Child Loop BB15_11 Depth 2
                                        #       Child Loop BB15_12 Depth 3
                                        #       Child Loop BB15_14 Depth 3
                                        #       Child Loop BB15_16 Depth 3
                                        #       Child Loop BB15_18 Depth 3
                                        #     Child Loop BB15_21 Depth 2
	leaq	-1(%r9), %rbp
	imulq	%r12, %rbp
	movq	%rbp, %rax
	shlq	$5, %rax
	addq	%rsp, %rax
	addq	$104, %rax
	xorl	%edi, %edi
	jmp	.LBB15_11
	.p2align	4
.LBB15_19:                              # %"levels::raise_row.exit.i.i.i"
                                        #   in Loop: Header=BB15_11 Depth=2
	leaq	(%rdi,%rbp), %rsi
	movq	%rsi, %r14
	shlq	$5, %r14
	addq	%r12, %rsi
	shlq	$5, %rsi
	movups	104(%rsp,%r14), %xmm2
	orps	%xmm0, %xmm2
	movups	%xmm2, 104(%rsp,%rsi)
	movups	120(%rsp,%r14), %xmm0
	orps	%xmm1, %xmm0
	movups	%xmm0, 120(%rsp,%rsi)
	incq	%rdi
	cmpq	%r12, %rdi
	je	.LBB15_20
.LBB15_11:                              # %join.5.i.i.i
                                        #   Parent Loop BB15_10 Depth=1
                                        # =>  This Loop Header: Depth=2
                                        #       Child Loop BB15_12 Depth 3
                                        #       Child Loop BB15_14 Depth 3
                                        #       Child Loop BB15_16 Depth 3
                                        #       Child Loop BB15_18 Depth 3
	movq	%rdi, %rsi
	shlq	$5, %rsi
	movq	104(%rsp,%rsi), %r14
	xorps	%xmm0, %xmm0
	xorps	%xmm1, %xmm1
	testq	%r14, %r14
	je	.LBB15_13
	.p2align	4
.LBB15_12:                              # %join.5.i.i.i.i.i.i
                                        #   Parent Loop BB15_10 Depth=1
                                        #     Parent Loop BB15_11 Depth=2
                                        # =>    This Inner Loop Header: Depth=3
	movq	%r14, %r15
	rep		bsfq	%r14, %r14
	shll	$5, %r14d
	movups	(%rax,%r14), %xmm2
	orps	%xmm2, %xmm0
	movups	16(%rax,%r14), %xmm2
	orps	%xmm2, %xmm1
	leaq	-1(%r15), %r14
	andq	%r15, %r14
	jne	.LBB15_12
.LBB15_13:                              # %"words::join_word.exit.i.i.i.i.i"
                                        #   in Loop: Header=BB15_11 Depth=2
	movq	112(%rsp,%rsi), %r14
	testq	%r14, %r14
	je	.LBB15_15
	.p2align	4
.LBB15_14:                              # %join.5.i.1.i.i.i.i.i
                                        #   Parent Loop BB15_10 Depth=1
                                        #     Parent Loop BB15_11 Depth=2
                                        # =>    This Inner Loop Header: Depth=3
	movq	%r14, %r15
	rep		bsfq	%r14, %r14
	shll	$5, %r14d
	movups	2048(%rax,%r14), %xmm2
	orps	%xmm2, %xmm0
	movups	2064(%rax,%r14), %xmm2
	orps	%xmm2, %xmm1
	leaq	-1(%r15), %r14
	andq	%r15, %r14
	jne	.LBB15_14
.LBB15_15:                              # %"words::join_word.exit.1.i.i.i.i.i"
                                        #   in Loop: Header=BB15_11 Depth=2
	movq	120(%rsp,%rsi), %r14
	testq	%r14, %r14
	je	.LBB15_17
	.p2align	4
.LBB15_16:                              # %join.5.i.2.i.i.i.i.i
                                        #   Parent Loop BB15_10 Depth=1
                                        #     Parent Loop BB15_11 Depth=2
                                        # =>    This Inner Loop Header: Depth=3
	movq	%r14, %r15
	rep		bsfq	%r14, %r14
	shll	$5, %r14d
	movups	4096(%rax,%r14), %xmm2
	orps	%xmm2, %xmm0
	movups	4112(%rax,%r14), %xmm2
	orps	%xmm2, %xmm1
	leaq	-1(%r15), %r14
	andq	%r15, %r14
	jne	.LBB15_16
.LBB15_17:                              # %"words::join_word.exit.2.i.i.i.i.i"
                                        #   in Loop: Header=BB15_11 Depth=2
	movq	128(%rsp,%rsi), %rsi
	testq	%rsi, %rsi
	je	.LBB15_19
	.p2align	4
.LBB15_18:                              # %join.5.i.3.i.i.i.i.i
                                        #   Parent Loop BB15_10 Depth=1
                                        #     Parent Loop BB15_11 Depth=2
                                        # =>    This Inner Loop Header: Depth=3
	movq	%rsi, %r14
	rep		bsfq	%rsi, %rsi
	shll	$5, %esi
	movups	6144(%rax,%rsi), %xmm2
	orps	%xmm2, %xmm0
	movups	6160(%rax,%rsi), %xmm2
	orps	%xmm2, %xmm1
	leaq	-1(%r14), %rsi
	andq	%r14, %rsi
	jne	.LBB15_18
	jmp	.LBB15_19
	.p2align	4
.LBB15_20:                              # %"levels::raise_level.exit.i.i"
                                        #   in Loop: Header=BB15_10 Depth=1
	xorl	%esi, %esi
	xorl	%eax, %eax
	movq	64(%rsp), %r14                  # 8-byte Reload
	jmp	.LBB15_21
.LBB15_24:                              #   in Loop: Header=BB15_21 Depth=2
	orq	$1, %rsi
.LBB15_28:                              # %"core::slice::scan::first_by_one::<#c2361d8cb1915808>.exit.loopexit.i.i.i.i.i"
                                        #   in Loop: Header=BB15_21 Depth=2
	cmpq	%rax, %rsi
	jb	.LBB15_31
.LBB15_29:                              # %loop.2.backedge.i.i.i.i.i
                                        #   in Loop: Header=BB15_21 Depth=2
	movq	%rax, %rsi
	cmpq	%rax, %rcx
	je	.LBB15_30
.LBB15_21:                              # %join.5.i.i.i.i.i
                                        #   Parent Loop BB15_10 Depth=1
                                        # =>  This Inner Loop Header: Depth=2
	subq	$-4, %rax
	je	.LBB15_29
# %bb.22:                               # %join.5.i.preheader.i.i.i.i.i
                                        #   in Loop: Header=BB15_21 Depth=2
	movq	-56(%r11,%rax,8), %rdi
	cmpq	-56(%r10,%rax,8), %rdi
	jne	.LBB15_28
# %bb.23:                               # %join.8.i.i.i.i.i.i
                                        #   in Loop: Header=BB15_21 Depth=2
	movq	-48(%r11,%rax,8), %rdi
	cmpq	-48(%r10,%rax,8), %rdi
	jne	.LBB15_24
# %bb.25:                               # %join.8.i.1.i.i.i.i.i
                                        #   in Loop: Header=BB15_21 Depth=2
	movq	-40(%r11,%rax,8), %rdi
	cmpq	-40(%r10,%rax,8), %rdi
	jne	.LBB15_26
# %bb.27:                               # %join.8.i.2.i.i.i.i.i
                                        #   in Loop: Header=BB15_21 Depth=2
	movq	(%r11,%rsi,8), %rdi
	cmpq	(%r10,%rsi,8), %rdi
	leaq	3(%rsi), %rsi
	cmoveq	%rax, %rsi
	jmp	.LBB15_28
.LBB15_26:                              #   in Loop: Header=BB15_21 Depth=2
	orq	$2, %rsi
	jmp	.LBB15_28
.LBB15_31:                              # %join.10.i.i
                                        #   in Loop: Header=BB15_10 Depth=1
	incq	%r9
	addq	%r8, %r10
	addq	%r8, %r11
	cmpq	%rdx, %r9
	jb	.LBB15_10
	jmp	.LBB15_32
.LBB15_30:
	movq	%r9, %rdx
.LBB15_32:
	movq	65696(%rsp), %rax
	movq	65704(%rsp), %rsi
	movq	65712(%rsp), %rdi
	jmp	.LBB15_33
.LBB15_8:
	movl	$1, %edx
.LBB15_33:                              # %"play::play_by_levels.exit"
	imulq	%rcx, %rdx
	movq	%rdi, 24(%rsp)
	movq	%rsi, 16(%rsp)
	movq	%rax, 8(%rsp)
	movq	%r13, (%rsp)
	leaq	32(%rsp), %rdi
	leaq	104(%rsp), %rsi
	movq	%r12, %rcx
	movq	72(%rsp), %r8                   # 8-byte Reload
	movq	%r14, %r9
	callq	"play::play_in"
	movzbl	32(%rsp), %eax
	movl	36(%rsp), %ecx
	movups	40(%rsp), %xmm0
	movaps	%xmm0, 80(%rsp)
	movl	%eax, (%rbx)
	movl	%ecx, 4(%rbx)
	movaps	80(%rsp), %xmm0
	movups	%xmm0, 8(%rbx)
	addq	$65640, %rsp                    # imm = 0x10068
	.cfi_def_cfa_offset 56
	popq	%rbx
	.cfi_def_cfa_offset 48
	popq	%r12
	.cfi_def_cfa_offset 40
	popq	%r13
	.cfi_def_cfa_offset 32
	popq	%r14
	.cfi_def_cfa_offset 24
	popq	%r15
	.cfi_def_cfa_offset 16
	popq	%rbp
	.cfi_def_cfa_offset 8
	retq
.LBB15_34:                              # %trap.1.i.i
	.cfi_def_cfa_offset 65696
	ud2
.Lfunc_end15:
	.size	"play::play_within::<=8192>", .Lfunc_end15-"play::play_within::<=8192>"
	.cfi_endproc
                                        # -- End function
	.section	".text.play::play_within::<=32768>","ax",@progbits
	.p2align	4                               # -- Begin function play::play_within::<=32768>
	.type	"play::play_within::<=32768>",@function
"play::play_within::<=32768>":          # @"play::play_within::<=32768>"
	.cfi_startproc
# %bb.0:                                # %start
	pushq	%rbp
	.cfi_def_cfa_offset 16
	pushq	%r15
	.cfi_def_cfa_offset 24
	pushq	%r14
	.cfi_def_cfa_offset 32
	pushq	%r13
	.cfi_def_cfa_offset 40
	pushq	%r12
	.cfi_def_cfa_offset 48
	pushq	%rbx
	.cfi_def_cfa_offset 56
	movq	%rsp, %r11
	subq	$261120, %r11                   # imm = 0x3FC00
	.cfi_def_cfa_register %r11
	.cfi_adjust_cfa_offset 261120
.LBB16_1:                               # %start
                                        # =>This Inner Loop Header: Depth=1
	subq	$3072, %rsp                     # imm = 0xC00
	movq	$0, (%rsp)
	cmpq	%r11, %rsp
	jne	.LBB16_1
# %bb.2:                                # %start
	subq	$1128, %rsp                     # imm = 0x468
	.cfi_def_cfa_register %rsp
	.cfi_def_cfa_offset 262304
	.cfi_offset %rbx, -56
	.cfi_offset %r12, -48
	.cfi_offset %r13, -40
	.cfi_offset %r14, -32
	.cfi_offset %r15, -24
	.cfi_offset %rbp, -16
	movq	%r9, %r13
	movq	%r8, %r14
	movq	%rcx, %r15
	movq	%rdx, %r12
	movq	%rsi, %rbp
	movq	%rdi, %rbx
	xorps	%xmm0, %xmm0
	movaps	%xmm0, 32(%rsp)
	movq	$0, 48(%rsp)
	leaq	8296(%rsp), %rdi
	movl	$253952, %edx                   # imm = 0x3E000
	xorl	%esi, %esi
	callq	memset@PLT
	leaq	104(%rsp), %rdi
	movl	$8192, %edx                     # imm = 0x2000
	movq	%rbp, %rsi
	callq	memcpy@PLT
	leaq	(,%r12,4), %rcx
	testq	%rcx, %rcx
	je	.LBB16_32
# %bb.3:                                # %ok.2.i.i
	cmpq	$32768, %rcx                    # imm = 0x8000
	ja	.LBB16_4
# %bb.5:
	movl	$32768, %eax                    # imm = 0x8000
	xorl	%edx, %edx
	divl	%ecx
	movl	%eax, %edx
	jmp	.LBB16_6
.LBB16_4:
	xorl	%edx, %edx
.LBB16_6:
	movq	262320(%rsp), %rdi
	movq	262312(%rsp), %rsi
	movq	262304(%rsp), %rax
	cmpq	$16384, %rcx                    # imm = 0x4000
	ja	.LBB16_31
# %bb.7:                                # %join.7.lr.ph.i.i
	movq	%r12, %r8
	shlq	$5, %r8
	leaq	(%rsp,%r8), %r10
	addq	$128, %r10
	movl	$1, %r9d
	leaq	128(%rsp), %r11
	movq	%r15, 72(%rsp)                  # 8-byte Spill
	movq	%r13, 64(%rsp)                  # 8-byte Spill
.LBB16_8:                               # %join.7.i.i
                                        # =>This Loop Header: Depth=1
                                        #     Child Loop BB16_9 Depth 2
                                        #       Child Loop BB16_10 Depth 3
                                        #       Child Loop BB16_12 Depth 3
                                        #       Child Loop BB16_14 Depth 3
                                        #       Child Loop BB16_16 Depth 3
                                        #     Child Loop BB16_19 Depth 2
	movq	%r14, %r13
	leaq	-1(%r9), %rbp
	imulq	%r12, %rbp
	movq	%rbp, %rax
	shlq	$5, %rax
	addq	%rsp, %rax
	addq	$104, %rax
	xorl	%edi, %edi
	jmp	.LBB16_9
	.p2align	4
.LBB16_17:                              # %"levels::raise_row.exit.i.i.i"
                                        #   in Loop: Header=BB16_9 Depth=2
	leaq	(%rdi,%rbp), %rsi
	movq	%rsi, %r14
	shlq	$5, %r14
	addq	%r12, %rsi
	shlq	$5, %rsi
	movups	104(%rsp,%r14), %xmm2
	orps	%xmm0, %xmm2
	movups	%xmm2, 104(%rsp,%rsi)
	movups	120(%rsp,%r14), %xmm0
	orps	%xmm1, %xmm0
	movups	%xmm0, 120(%rsp,%rsi)
	incq	%rdi
	cmpq	%r12, %rdi
	je	.LBB16_18
.LBB16_9:                               # %join.5.i.i.i
                                        #   Parent Loop BB16_8 Depth=1
                                        # =>  This Loop Header: Depth=2
                                        #       Child Loop BB16_10 Depth 3
                                        #       Child Loop BB16_12 Depth 3
                                        #       Child Loop BB16_14 Depth 3
                                        #       Child Loop BB16_16 Depth 3
	movq	%rdi, %rsi
	shlq	$5, %rsi
	movq	104(%rsp,%rsi), %r14
	xorps	%xmm0, %xmm0
	xorps	%xmm1, %xmm1
	testq	%r14, %r14
	je	.LBB16_11
	.p2align	4
.LBB16_10:                              # %join.5.i.i.i.i.i.i
                                        #   Parent Loop BB16_8 Depth=1
                                        #     Parent Loop BB16_9 Depth=2
                                        # =>    This Inner Loop Header: Depth=3
	movq	%r14, %r15
	rep		bsfq	%r14, %r14
	shll	$5, %r14d
	movups	(%rax,%r14), %xmm2
	orps	%xmm2, %xmm0
	movups	16(%rax,%r14), %xmm2
	orps	%xmm2, %xmm1
	leaq	-1(%r15), %r14
	andq	%r15, %r14
	jne	.LBB16_10
.LBB16_11:                              # %"words::join_word.exit.i.i.i.i.i"
                                        #   in Loop: Header=BB16_9 Depth=2
	movq	112(%rsp,%rsi), %r14
	testq	%r14, %r14
	je	.LBB16_13
	.p2align	4
.LBB16_12:                              # %join.5.i.1.i.i.i.i.i
                                        #   Parent Loop BB16_8 Depth=1
                                        #     Parent Loop BB16_9 Depth=2
                                        # =>    This Inner Loop Header: Depth=3
	movq	%r14, %r15
	rep		bsfq	%r14, %r14
	shll	$5, %r14d
	movups	2048(%rax,%r14), %xmm2
	orps	%xmm2, %xmm0
	movups	2064(%rax,%r14), %xmm2
	orps	%xmm2, %xmm1
	leaq	-1(%r15), %r14
	andq	%r15, %r14
	jne	.LBB16_12
.LBB16_13:                              # %"words::join_word.exit.1.i.i.i.i.i"
                                        #   in Loop: Header=BB16_9 Depth=2
	movq	120(%rsp,%rsi), %r14
	testq	%r14, %r14
	je	.LBB16_15
	.p2align	4
.LBB16_14:                              # %join.5.i.2.i.i.i.i.i
                                        #   Parent Loop BB16_8 Depth=1
                                        #     Parent Loop BB16_9 Depth=2
                                        # =>    This Inner Loop Header: Depth=3
	movq	%r14, %r15
	rep		bsfq	%r14, %r14
	shll	$5, %r14d
	movups	4096(%rax,%r14), %xmm2
	orps	%xmm2, %xmm0
	movups	4112(%rax,%r14), %xmm2
	orps	%xmm2, %xmm1
	leaq	-1(%r15), %r14
	andq	%r15, %r14
	jne	.LBB16_14
.LBB16_15:                              # %"words::join_word.exit.2.i.i.i.i.i"
                                        #   in Loop: Header=BB16_9 Depth=2
	movq	128(%rsp,%rsi), %rsi
	testq	%rsi, %rsi
	je	.LBB16_17
	.p2align	4
.LBB16_16:                              # %join.5.i.3.i.i.i.i.i
                                        #   Parent Loop BB16_8 Depth=1
                                        #     Parent Loop BB16_9 Depth=2
                                        # =>    This Inner Loop Header: Depth=3
	movq	%rsi, %r14
	rep		bsfq	%rsi, %rsi
	shll	$5, %esi
	movups	6144(%rax,%rsi), %xmm2
	orps	%xmm2, %xmm0
	movups	6160(%rax,%rsi), %xmm2
	orps	%xmm2, %xmm1
	leaq	-1(%r14), %rsi
	andq	%r14, %rsi
	jne	.LBB16_16
	jmp	.LBB16_17
	.p2align	4
.LBB16_18:                              # %"levels::raise_level.exit.i.i"
                                        #   in Loop: Header=BB16_8 Depth=1
	xorl	%esi, %esi
	xorl	%eax, %eax
	movq	%r13, %r14
	movq	72(%rsp), %r15                  # 8-byte Reload
	movq	64(%rsp), %r13                  # 8-byte Reload
	jmp	.LBB16_19
.LBB16_22:                              #   in Loop: Header=BB16_19 Depth=2
	orq	$1, %rsi
.LBB16_26:                              # %"core::slice::scan::first_by_one::<#c2361d8cb1915808>.exit.loopexit.i.i.i.i.i"
                                        #   in Loop: Header=BB16_19 Depth=2
	cmpq	%rax, %rsi
	jb	.LBB16_29
.LBB16_27:                              # %loop.2.backedge.i.i.i.i.i
                                        #   in Loop: Header=BB16_19 Depth=2
	movq	%rax, %rsi
	cmpq	%rax, %rcx
	je	.LBB16_28
.LBB16_19:                              # %join.5.i.i.i.i.i
                                        #   Parent Loop BB16_8 Depth=1
                                        # =>  This Inner Loop Header: Depth=2
	subq	$-4, %rax
	je	.LBB16_27
# %bb.20:                               # %join.5.i.preheader.i.i.i.i.i
                                        #   in Loop: Header=BB16_19 Depth=2
	movq	-56(%r11,%rax,8), %rdi
	cmpq	-56(%r10,%rax,8), %rdi
	jne	.LBB16_26
# %bb.21:                               # %join.8.i.i.i.i.i.i
                                        #   in Loop: Header=BB16_19 Depth=2
	movq	-48(%r11,%rax,8), %rdi
	cmpq	-48(%r10,%rax,8), %rdi
	jne	.LBB16_22
# %bb.23:                               # %join.8.i.1.i.i.i.i.i
                                        #   in Loop: Header=BB16_19 Depth=2
	movq	-40(%r11,%rax,8), %rdi
	cmpq	-40(%r10,%rax,8), %rdi
	jne	.LBB16_24
# %bb.25:                               # %join.8.i.2.i.i.i.i.i
                                        #   in Loop: Header=BB16_19 Depth=2
	movq	(%r11,%rsi,8), %rdi
	cmpq	(%r10,%rsi,8), %rdi
	leaq	3(%rsi), %rsi
	cmoveq	%rax, %rsi
	jmp	.LBB16_26
.LBB16_24:                              #   in Loop: Header=BB16_19 Depth=2
	orq	$2, %rsi
	jmp	.LBB16_26
	.p2align	4
.LBB16_29:                              # %join.10.i.i
                                        #   in Loop: Header=BB16_8 Depth=1
	incq	%r9
	addq	%r8, %r10
	addq	%r8, %r11
	cmpq	%rdx, %r9
	jb	.LBB16_8
	jmp	.LBB16_30
.LBB16_28:
	movq	%r9, %rdx
.LBB16_30:
	movq	262304(%rsp), %rax
	movq	262312(%rsp), %rsi
	movq	262320(%rsp), %rdi
.LBB16_31:                              # %"play::play_by_levels.exit"
	imulq	%rcx, %rdx
	movq	%rdi, 24(%rsp)
	movq	%rsi, 16(%rsp)
	movq	%rax, 8(%rsp)
	movq	%r13, (%rsp)
	leaq	32(%rsp), %rdi
	leaq	104(%rsp), %rsi
	movq	%r12, %rcx
	movq	%r15, %r8
	movq	%r14, %r9
	callq	"play::play_in"
	movzbl	32(%rsp), %eax
	movl	36(%rsp), %ecx
	movups	40(%rsp), %xmm0
	movaps	%xmm0, 80(%rsp)
	movl	%eax, (%rbx)
	movl	%ecx, 4(%rbx)
	movaps	80(%rsp), %xmm0
	movups	%xmm0, 8(%rbx)
	addq	$262248, %rsp                   # imm = 0x40068
	.cfi_def_cfa_offset 56
	popq	%rbx
	.cfi_def_cfa_offset 48
	popq	%r12
	.cfi_def_cfa_offset 40
	popq	%r13
	.cfi_def_cfa_offset 32
	popq	%r14
	.cfi_def_cfa_offset 24
	popq	%r15
	.cfi_def_cfa_offset 16
	popq	%rbp
	.cfi_def_cfa_offset 8
	retq
.LBB16_32:                              # %trap.1.i.i
	.cfi_def_cfa_offset 262304
	ud2
.Lfunc_end16:
	.size	"play::play_within::<=32768>", .Lfunc_end16-"play::play_within::<=32768>"
	.cfi_endproc
                                        # -- End function
	.section	.rodata.cst16,"aM",@progbits,16
	.p2align	4, 0x0                          # -- Begin function planner::hand_out_within::<=4096>
.LCPI17_0:
	.zero	16,85
.LCPI17_1:
	.zero	16,51
.LCPI17_2:
	.zero	16,15
.LCPI17_3:
	.quad	1                               # 0x1
	.quad	7                               # 0x7
.LCPI17_4:
	.quad	1                               # 0x1
	.zero	8
	.section	".text.planner::hand_out_within::<=4096>","ax",@progbits
	.p2align	4
	.type	"planner::hand_out_within::<=4096>",@function
"planner::hand_out_within::<=4096>":    # @"planner::hand_out_within::<=4096>"
	.cfi_startproc
# %bb.0:                                # %start
	pushq	%rbp
	.cfi_def_cfa_offset 16
	pushq	%r15
	.cfi_def_cfa_offset 24
	pushq	%r14
	.cfi_def_cfa_offset 32
	pushq	%r13
	.cfi_def_cfa_offset 40
	pushq	%r12
	.cfi_def_cfa_offset 48
	pushq	%rbx
	.cfi_def_cfa_offset 56
	movq	%rsp, %r11
	subq	$30720, %r11                    # imm = 0x7800
	.cfi_def_cfa_register %r11
	.cfi_adjust_cfa_offset 30720
.LBB17_1:                               # %start
                                        # =>This Inner Loop Header: Depth=1
	subq	$3072, %rsp                     # imm = 0xC00
	movq	$0, (%rsp)
	cmpq	%r11, %rsp
	jne	.LBB17_1
# %bb.2:                                # %start
	subq	$2168, %rsp                     # imm = 0x878
	.cfi_def_cfa_register %rsp
	.cfi_def_cfa_offset 32944
	.cfi_offset %rbx, -56
	.cfi_offset %r12, -48
	.cfi_offset %r13, -40
	.cfi_offset %r14, -32
	.cfi_offset %r15, -24
	.cfi_offset %rbp, -16
	movq	%r9, %rbp
	movq	%r8, %r14
	movq	%rcx, %r13
	movq	%rdx, %r15
	movq	%rsi, %r12
	movq	%rdi, %rbx
	leaq	120(%rsp), %rdi
	movl	$32768, %edx                    # imm = 0x8000
	xorl	%esi, %esi
	callq	memset@PLT
	pxor	%xmm0, %xmm0
	movdqa	%xmm0, 32(%rsp)
	movq	$0, 48(%rsp)
	movq	%r15, %rax
	shrq	$2, %rax
	negq	%rax
	addq	%r15, %rax
	addq	$7, %rax
	cmpq	%rax, %rbp
	jb	.LBB17_4
# %bb.3:                                # %else.4.i.i
	movabsq	$-3689348814741910323, %rcx     # imm = 0xCCCCCCCCCCCCCCCD
	movq	%r13, %rax
	mulq	%rcx
	shrq	%rdx
	andq	$-2, %rdx
	cmpq	%r15, %rdx
	jb	.LBB17_4
# %bb.5:                                # %after.1.i.i
	cmpq	$256, %r15                      # imm = 0x100
	jbe	.LBB17_7
# %bb.6:
	xorl	%ecx, %ecx
	jmp	.LBB17_13
.LBB17_7:                               # %repeat.4.preheader.i.i.i.i
	movdqa	%xmm0, 80(%rsp)
	movdqa	%xmm0, 64(%rsp)
	xorl	%eax, %eax
	testq	%rbp, %rbp
	jne	.LBB17_8
	jmp	.LBB17_12
	.p2align	4
.LBB17_10:                              # %"occupancy::occupy.exit.i.i.i.i.i"
                                        #   in Loop: Header=BB17_8 Depth=1
	incq	%rax
	cmpq	%rax, %rbp
	je	.LBB17_11
.LBB17_8:                               # %join.6.i.i.i.i.i
                                        # =>This Inner Loop Header: Depth=1
	movzwl	(%r14,%rax,2), %ecx
	cmpq	%rcx, %r15
	jbe	.LBB17_10
# %bb.9:                                # %then.1.i.i.i.i.i.i
                                        #   in Loop: Header=BB17_8 Depth=1
	movl	$1, %edx
	shlq	%cl, %rdx
	shrl	$6, %ecx
	orq	%rdx, 64(%rsp,%rcx,8)
	jmp	.LBB17_10
.LBB17_11:                              # %"occupancy::occupied.exit.loopexit.i.i.i.i"
	movdqa	64(%rsp), %xmm0
	movdqa	80(%rsp), %xmm1
	movdqa	%xmm1, %xmm2
	psrlw	$1, %xmm2
	movdqa	.LCPI17_0(%rip), %xmm3          # xmm3 = [85,85,85,85,85,85,85,85,85,85,85,85,85,85,85,85]
	pand	%xmm3, %xmm2
	psubb	%xmm2, %xmm1
	movdqa	.LCPI17_1(%rip), %xmm2          # xmm2 = [51,51,51,51,51,51,51,51,51,51,51,51,51,51,51,51]
	movdqa	%xmm1, %xmm4
	pand	%xmm2, %xmm4
	psrlw	$2, %xmm1
	pand	%xmm2, %xmm1
	paddb	%xmm4, %xmm1
	movdqa	%xmm1, %xmm4
	psrlw	$4, %xmm4
	paddb	%xmm1, %xmm4
	movdqa	.LCPI17_2(%rip), %xmm1          # xmm1 = [15,15,15,15,15,15,15,15,15,15,15,15,15,15,15,15]
	pand	%xmm1, %xmm4
	movdqa	%xmm0, %xmm5
	psrlw	$1, %xmm5
	pand	%xmm3, %xmm5
	psubb	%xmm5, %xmm0
	movdqa	%xmm0, %xmm3
	pand	%xmm2, %xmm3
	psrlw	$2, %xmm0
	pand	%xmm2, %xmm0
	paddb	%xmm3, %xmm0
	movdqa	%xmm0, %xmm2
	psrlw	$4, %xmm2
	paddb	%xmm0, %xmm2
	pand	%xmm1, %xmm2
	paddb	%xmm4, %xmm2
	pxor	%xmm0, %xmm0
	psadbw	%xmm2, %xmm0
	pshufd	$238, %xmm0, %xmm1              # xmm1 = xmm0[2,3,2,3]
	paddq	%xmm0, %xmm1
	movq	%xmm1, %rax
.LBB17_12:                              # %"occupancy::occupied.exit.i.i.i.i"
	movq	%r15, %rcx
	subq	%rax, %rcx
.LBB17_13:                              # %"yard::Yard::empty_bays.exit.i.i"
	movabsq	$-6148914691236517205, %rsi     # imm = 0xAAAAAAAAAAAAAAAB
	movq	%r13, %rax
	mulq	%rsi
	shrq	%rdx
	cmpq	%r15, %rdx
	jae	.LBB17_16
# %bb.14:                               # %"yard::Yard::empty_bays.exit.i.i"
	cmpq	$2, %rcx
	ja	.LBB17_16
.LBB17_15:                              # %then.15.i.i
	pxor	%xmm0, %xmm0
.LBB17_4:                               # %join.5.i.i
	movdqa	%xmm0, 64(%rsp)
	movq	$0, 80(%rsp)
	leaq	(,%r15,4), %rdx
	leaq	120(%rsp), %rax
	movq	%rax, 16(%rsp)
	movq	32952(%rsp), %rax
	movq	%rax, 8(%rsp)
	movq	32944(%rsp), %rax
	movq	%rax, (%rsp)
	movq	$4096, 24(%rsp)                 # imm = 0x1000
	leaq	64(%rsp), %rdi
	movq	%r12, %rsi
	movq	%r15, %rcx
	movq	%r14, %r8
	movq	%rbp, %r9
	callq	"play::play_in"
	movzbl	64(%rsp), %ecx
	movl	68(%rsp), %eax
	movdqu	72(%rsp), %xmm0
	movdqu	%xmm0, 40(%rsp)
	movdqu	40(%rsp), %xmm1
	cmpb	$1, %cl
	jne	.LBB17_24
.LBB17_23:                              # %arm.1.i.i
	shlq	$32, %rax
	orq	$6, %rax
	movq	%rax, %xmm0
	movdqa	.LCPI17_4(%rip), %xmm1          # xmm1 = [1,u]
	punpcklqdq	%xmm0, %xmm1            # xmm1 = xmm1[0],xmm0[0]
	xorl	%eax, %eax
	xorl	%edx, %edx
	jmp	.LBB17_32
.LBB17_16:                              # %after.11.i.i
	movq	%r15, %rax
	mulq	%rsi
	shrq	$3, %rdx
	cmpq	%rcx, %rdx
	jae	.LBB17_19
# %bb.17:                               # %then.20.i.i
	movq	%r13, %rax
	mulq	%rsi
	shrq	$2, %rdx
	cmpq	%rdx, %r15
	jbe	.LBB17_15
	jmp	.LBB17_18
.LBB17_19:                              # %join.22.i.i
	cmpq	$127, %r15
	ja	.LBB17_20
.LBB17_18:                              # %join.25.i.i
	leaq	120(%rsp), %rax
	movq	%rax, 8(%rsp)
	movq	32952(%rsp), %rax
	movq	%rax, (%rsp)
	movq	$4096, 16(%rsp)                 # imm = 0x1000
	leaq	32(%rsp), %rdi
	movq	%r12, %rsi
	movq	%r15, %rdx
	movq	%r14, %rcx
	movq	%rbp, %r8
	movq	32944(%rsp), %r9
	callq	"play::play_within::<=8192>"
	jmp	.LBB17_21
.LBB17_20:                              # %join.28.i.i
	leaq	120(%rsp), %rax
	movq	%rax, 8(%rsp)
	movq	32952(%rsp), %rax
	movq	%rax, (%rsp)
	movq	$4096, 16(%rsp)                 # imm = 0x1000
	leaq	32(%rsp), %rdi
	movq	%r12, %rsi
	movq	%r15, %rdx
	movq	%r14, %rcx
	movq	%rbp, %r8
	movq	32944(%rsp), %r9
	callq	"play::play_within::<=32768>"
.LBB17_21:                              # %"play::play.exit.i"
	movzbl	32(%rsp), %ecx
	movl	36(%rsp), %eax
	movdqu	40(%rsp), %xmm1
	cmpb	$1, %cl
	je	.LBB17_23
.LBB17_24:                              # %arm.2.i.i
	movq	%xmm1, %rdx
	cmpq	%rdx, 32968(%rsp)
	setb	%al
	cmpq	$65537, %rdx                    # imm = 0x10001
	setae	%cl
	orb	%al, %cl
	je	.LBB17_26
# %bb.25:
	movdqa	.LCPI17_3(%rip), %xmm1          # xmm1 = [1,7]
	xorl	%eax, %eax
	jmp	.LBB17_32
.LBB17_26:                              # %join.10.i.i
	cmpq	$4096, %rdx                     # imm = 0x1000
	jbe	.LBB17_28
# %bb.27:
	movl	$1, %eax
	xorl	%edx, %edx
	jmp	.LBB17_32
.LBB17_28:                              # %join.13.i.i
	pshufd	$238, %xmm1, %xmm0              # xmm0 = xmm1[2,3,2,3]
	movq	%xmm0, %r14
	testq	%rdx, %rdx
	je	.LBB17_29
# %bb.30:                               # %join.5.i.i.i.preheader
	movq	32960(%rsp), %rdi
	shlq	$3, %rdx
	leaq	120(%rsp), %rsi
	movdqa	%xmm1, 96(%rsp)                 # 16-byte Spill
	callq	memcpy@PLT
	movdqa	96(%rsp), %xmm1                 # 16-byte Reload
	pslldq	$8, %xmm1                       # xmm1 = zero,zero,zero,zero,zero,zero,zero,zero,xmm1[0,1,2,3,4,5,6,7]
	xorl	%eax, %eax
	jmp	.LBB17_31
.LBB17_29:
	xorl	%eax, %eax
	pxor	%xmm1, %xmm1
.LBB17_31:                              # %"rooms::hand_out_in.exit"
	movq	%r14, %rdx
.LBB17_32:                              # %"rooms::hand_out_in.exit"
	movq	%rax, (%rbx)
	movdqu	%xmm1, 8(%rbx)
	movq	%rdx, 24(%rbx)
	addq	$32888, %rsp                    # imm = 0x8078
	.cfi_def_cfa_offset 56
	popq	%rbx
	.cfi_def_cfa_offset 48
	popq	%r12
	.cfi_def_cfa_offset 40
	popq	%r13
	.cfi_def_cfa_offset 32
	popq	%r14
	.cfi_def_cfa_offset 24
	popq	%r15
	.cfi_def_cfa_offset 16
	popq	%rbp
	.cfi_def_cfa_offset 8
	retq
.Lfunc_end17:
	.size	"planner::hand_out_within::<=4096>", .Lfunc_end17-"planner::hand_out_within::<=4096>"
	.cfi_endproc
                                        # -- End function
	.section	.rodata.cst16,"aM",@progbits,16
	.p2align	4, 0x0                          # -- Begin function planner::hand_out_within::<=8192>
.LCPI18_0:
	.zero	16,85
.LCPI18_1:
	.zero	16,51
.LCPI18_2:
	.zero	16,15
.LCPI18_3:
	.quad	1                               # 0x1
	.quad	7                               # 0x7
.LCPI18_4:
	.quad	1                               # 0x1
	.zero	8
	.section	".text.planner::hand_out_within::<=8192>","ax",@progbits
	.p2align	4
	.type	"planner::hand_out_within::<=8192>",@function
"planner::hand_out_within::<=8192>":    # @"planner::hand_out_within::<=8192>"
	.cfi_startproc
# %bb.0:                                # %start
	pushq	%rbp
	.cfi_def_cfa_offset 16
	pushq	%r15
	.cfi_def_cfa_offset 24
	pushq	%r14
	.cfi_def_cfa_offset 32
	pushq	%r13
	.cfi_def_cfa_offset 40
	pushq	%r12
	.cfi_def_cfa_offset 48
	pushq	%rbx
	.cfi_def_cfa_offset 56
	movq	%rsp, %r11
	subq	$64512, %r11                    # imm = 0xFC00
	.cfi_def_cfa_register %r11
	.cfi_adjust_cfa_offset 64512
.LBB18_1:                               # %start
                                        # =>This Inner Loop Header: Depth=1
	subq	$3072, %rsp                     # imm = 0xC00
	movq	$0, (%rsp)
	cmpq	%r11, %rsp
	jne	.LBB18_1
# %bb.2:                                # %start
	subq	$1144, %rsp                     # imm = 0x478
	.cfi_def_cfa_register %rsp
	.cfi_def_cfa_offset 65712
	.cfi_offset %rbx, -56
	.cfi_offset %r12, -48
	.cfi_offset %r13, -40
	.cfi_offset %r14, -32
	.cfi_offset %r15, -24
	.cfi_offset %rbp, -16
	movq	%r9, %rbp
	movq	%r8, %r14
	movq	%rcx, %r13
	movq	%rdx, %r15
	movq	%rsi, %r12
	movq	%rdi, %rbx
	leaq	120(%rsp), %rdi
	movl	$65536, %edx                    # imm = 0x10000
	xorl	%esi, %esi
	callq	memset@PLT
	pxor	%xmm0, %xmm0
	movdqa	%xmm0, 32(%rsp)
	movq	$0, 48(%rsp)
	movq	%r15, %rax
	shrq	$2, %rax
	negq	%rax
	addq	%r15, %rax
	addq	$7, %rax
	cmpq	%rax, %rbp
	jb	.LBB18_4
# %bb.3:                                # %else.4.i.i
	movabsq	$-3689348814741910323, %rcx     # imm = 0xCCCCCCCCCCCCCCCD
	movq	%r13, %rax
	mulq	%rcx
	shrq	%rdx
	andq	$-2, %rdx
	cmpq	%r15, %rdx
	jb	.LBB18_4
# %bb.5:                                # %after.1.i.i
	cmpq	$256, %r15                      # imm = 0x100
	jbe	.LBB18_7
# %bb.6:
	xorl	%ecx, %ecx
	jmp	.LBB18_13
.LBB18_7:                               # %repeat.4.preheader.i.i.i.i
	movdqa	%xmm0, 80(%rsp)
	movdqa	%xmm0, 64(%rsp)
	xorl	%eax, %eax
	testq	%rbp, %rbp
	jne	.LBB18_8
	jmp	.LBB18_12
	.p2align	4
.LBB18_10:                              # %"occupancy::occupy.exit.i.i.i.i.i"
                                        #   in Loop: Header=BB18_8 Depth=1
	incq	%rax
	cmpq	%rax, %rbp
	je	.LBB18_11
.LBB18_8:                               # %join.6.i.i.i.i.i
                                        # =>This Inner Loop Header: Depth=1
	movzwl	(%r14,%rax,2), %ecx
	cmpq	%rcx, %r15
	jbe	.LBB18_10
# %bb.9:                                # %then.1.i.i.i.i.i.i
                                        #   in Loop: Header=BB18_8 Depth=1
	movl	$1, %edx
	shlq	%cl, %rdx
	shrl	$6, %ecx
	orq	%rdx, 64(%rsp,%rcx,8)
	jmp	.LBB18_10
.LBB18_11:                              # %"occupancy::occupied.exit.loopexit.i.i.i.i"
	movdqa	64(%rsp), %xmm0
	movdqa	80(%rsp), %xmm1
	movdqa	%xmm1, %xmm2
	psrlw	$1, %xmm2
	movdqa	.LCPI18_0(%rip), %xmm3          # xmm3 = [85,85,85,85,85,85,85,85,85,85,85,85,85,85,85,85]
	pand	%xmm3, %xmm2
	psubb	%xmm2, %xmm1
	movdqa	.LCPI18_1(%rip), %xmm2          # xmm2 = [51,51,51,51,51,51,51,51,51,51,51,51,51,51,51,51]
	movdqa	%xmm1, %xmm4
	pand	%xmm2, %xmm4
	psrlw	$2, %xmm1
	pand	%xmm2, %xmm1
	paddb	%xmm4, %xmm1
	movdqa	%xmm1, %xmm4
	psrlw	$4, %xmm4
	paddb	%xmm1, %xmm4
	movdqa	.LCPI18_2(%rip), %xmm1          # xmm1 = [15,15,15,15,15,15,15,15,15,15,15,15,15,15,15,15]
	pand	%xmm1, %xmm4
	movdqa	%xmm0, %xmm5
	psrlw	$1, %xmm5
	pand	%xmm3, %xmm5
	psubb	%xmm5, %xmm0
	movdqa	%xmm0, %xmm3
	pand	%xmm2, %xmm3
	psrlw	$2, %xmm0
	pand	%xmm2, %xmm0
	paddb	%xmm3, %xmm0
	movdqa	%xmm0, %xmm2
	psrlw	$4, %xmm2
	paddb	%xmm0, %xmm2
	pand	%xmm1, %xmm2
	paddb	%xmm4, %xmm2
	pxor	%xmm0, %xmm0
	psadbw	%xmm2, %xmm0
	pshufd	$238, %xmm0, %xmm1              # xmm1 = xmm0[2,3,2,3]
	paddq	%xmm0, %xmm1
	movq	%xmm1, %rax
.LBB18_12:                              # %"occupancy::occupied.exit.i.i.i.i"
	movq	%r15, %rcx
	subq	%rax, %rcx
.LBB18_13:                              # %"yard::Yard::empty_bays.exit.i.i"
	movabsq	$-6148914691236517205, %rsi     # imm = 0xAAAAAAAAAAAAAAAB
	movq	%r13, %rax
	mulq	%rsi
	shrq	%rdx
	cmpq	%r15, %rdx
	jae	.LBB18_16
# %bb.14:                               # %"yard::Yard::empty_bays.exit.i.i"
	cmpq	$2, %rcx
	ja	.LBB18_16
.LBB18_15:                              # %then.15.i.i
	pxor	%xmm0, %xmm0
.LBB18_4:                               # %join.5.i.i
	movdqa	%xmm0, 64(%rsp)
	movq	$0, 80(%rsp)
	leaq	(,%r15,4), %rdx
	leaq	120(%rsp), %rax
	movq	%rax, 16(%rsp)
	movq	65720(%rsp), %rax
	movq	%rax, 8(%rsp)
	movq	65712(%rsp), %rax
	movq	%rax, (%rsp)
	movq	$8192, 24(%rsp)                 # imm = 0x2000
	leaq	64(%rsp), %rdi
	movq	%r12, %rsi
	movq	%r15, %rcx
	movq	%r14, %r8
	movq	%rbp, %r9
	callq	"play::play_in"
	movzbl	64(%rsp), %ecx
	movl	68(%rsp), %eax
	movdqu	72(%rsp), %xmm0
	movdqu	%xmm0, 40(%rsp)
	movdqu	40(%rsp), %xmm1
	cmpb	$1, %cl
	jne	.LBB18_24
.LBB18_23:                              # %arm.1.i.i
	shlq	$32, %rax
	orq	$6, %rax
	movq	%rax, %xmm0
	movdqa	.LCPI18_4(%rip), %xmm1          # xmm1 = [1,u]
	punpcklqdq	%xmm0, %xmm1            # xmm1 = xmm1[0],xmm0[0]
	xorl	%eax, %eax
	xorl	%edx, %edx
	jmp	.LBB18_32
.LBB18_16:                              # %after.11.i.i
	movq	%r15, %rax
	mulq	%rsi
	shrq	$3, %rdx
	cmpq	%rcx, %rdx
	jae	.LBB18_19
# %bb.17:                               # %then.20.i.i
	movq	%r13, %rax
	mulq	%rsi
	shrq	$2, %rdx
	cmpq	%rdx, %r15
	jbe	.LBB18_15
	jmp	.LBB18_18
.LBB18_19:                              # %join.22.i.i
	cmpq	$127, %r15
	ja	.LBB18_20
.LBB18_18:                              # %join.25.i.i
	leaq	120(%rsp), %rax
	movq	%rax, 8(%rsp)
	movq	65720(%rsp), %rax
	movq	%rax, (%rsp)
	movq	$8192, 16(%rsp)                 # imm = 0x2000
	leaq	32(%rsp), %rdi
	movq	%r12, %rsi
	movq	%r15, %rdx
	movq	%r14, %rcx
	movq	%rbp, %r8
	movq	65712(%rsp), %r9
	callq	"play::play_within::<=8192>"
	jmp	.LBB18_21
.LBB18_20:                              # %join.28.i.i
	leaq	120(%rsp), %rax
	movq	%rax, 8(%rsp)
	movq	65720(%rsp), %rax
	movq	%rax, (%rsp)
	movq	$8192, 16(%rsp)                 # imm = 0x2000
	leaq	32(%rsp), %rdi
	movq	%r12, %rsi
	movq	%r15, %rdx
	movq	%r14, %rcx
	movq	%rbp, %r8
	movq	65712(%rsp), %r9
	callq	"play::play_within::<=32768>"
.LBB18_21:                              # %"play::play.exit.i"
	movzbl	32(%rsp), %ecx
	movl	36(%rsp), %eax
	movdqu	40(%rsp), %xmm1
	cmpb	$1, %cl
	je	.LBB18_23
.LBB18_24:                              # %arm.2.i.i
	movq	%xmm1, %rdx
	cmpq	%rdx, 65736(%rsp)
	setb	%al
	cmpq	$65537, %rdx                    # imm = 0x10001
	setae	%cl
	orb	%al, %cl
	je	.LBB18_26
# %bb.25:
	movdqa	.LCPI18_3(%rip), %xmm1          # xmm1 = [1,7]
	xorl	%eax, %eax
	jmp	.LBB18_32
.LBB18_26:                              # %join.10.i.i
	cmpq	$8192, %rdx                     # imm = 0x2000
	jbe	.LBB18_28
# %bb.27:
	movl	$1, %eax
	xorl	%edx, %edx
	jmp	.LBB18_32
.LBB18_28:                              # %join.13.i.i
	pshufd	$238, %xmm1, %xmm0              # xmm0 = xmm1[2,3,2,3]
	movq	%xmm0, %r14
	testq	%rdx, %rdx
	je	.LBB18_29
# %bb.30:                               # %join.5.i.i.i.preheader
	movq	65728(%rsp), %rdi
	shlq	$3, %rdx
	leaq	120(%rsp), %rsi
	movdqa	%xmm1, 96(%rsp)                 # 16-byte Spill
	callq	memcpy@PLT
	movdqa	96(%rsp), %xmm1                 # 16-byte Reload
	pslldq	$8, %xmm1                       # xmm1 = zero,zero,zero,zero,zero,zero,zero,zero,xmm1[0,1,2,3,4,5,6,7]
	xorl	%eax, %eax
	jmp	.LBB18_31
.LBB18_29:
	xorl	%eax, %eax
	pxor	%xmm1, %xmm1
.LBB18_31:                              # %"rooms::hand_out_in.exit"
	movq	%r14, %rdx
.LBB18_32:                              # %"rooms::hand_out_in.exit"
	movq	%rax, (%rbx)
	movdqu	%xmm1, 8(%rbx)
	movq	%rdx, 24(%rbx)
	addq	$65656, %rsp                    # imm = 0x10078
	.cfi_def_cfa_offset 56
	popq	%rbx
	.cfi_def_cfa_offset 48
	popq	%r12
	.cfi_def_cfa_offset 40
	popq	%r13
	.cfi_def_cfa_offset 32
	popq	%r14
	.cfi_def_cfa_offset 24
	popq	%r15
	.cfi_def_cfa_offset 16
	popq	%rbp
	.cfi_def_cfa_offset 8
	retq
.Lfunc_end18:
	.size	"planner::hand_out_within::<=8192>", .Lfunc_end18-"planner::hand_out_within::<=8192>"
	.cfi_endproc
                                        # -- End function
	.section	.rodata.cst16,"aM",@progbits,16
	.p2align	4, 0x0                          # -- Begin function planner::hand_out_within::<=16384>
.LCPI19_0:
	.zero	16,85
.LCPI19_1:
	.zero	16,51
.LCPI19_2:
	.zero	16,15
.LCPI19_3:
	.quad	1                               # 0x1
	.quad	7                               # 0x7
.LCPI19_4:
	.quad	1                               # 0x1
	.zero	8
	.section	".text.planner::hand_out_within::<=16384>","ax",@progbits
	.p2align	4
	.type	"planner::hand_out_within::<=16384>",@function
"planner::hand_out_within::<=16384>":   # @"planner::hand_out_within::<=16384>"
	.cfi_startproc
# %bb.0:                                # %start
	pushq	%rbp
	.cfi_def_cfa_offset 16
	pushq	%r15
	.cfi_def_cfa_offset 24
	pushq	%r14
	.cfi_def_cfa_offset 32
	pushq	%r13
	.cfi_def_cfa_offset 40
	pushq	%r12
	.cfi_def_cfa_offset 48
	pushq	%rbx
	.cfi_def_cfa_offset 56
	movq	%rsp, %r11
	subq	$129024, %r11                   # imm = 0x1F800
	.cfi_def_cfa_register %r11
	.cfi_adjust_cfa_offset 129024
.LBB19_1:                               # %start
                                        # =>This Inner Loop Header: Depth=1
	subq	$3072, %rsp                     # imm = 0xC00
	movq	$0, (%rsp)
	cmpq	%r11, %rsp
	jne	.LBB19_1
# %bb.2:                                # %start
	subq	$2168, %rsp                     # imm = 0x878
	.cfi_def_cfa_register %rsp
	.cfi_def_cfa_offset 131248
	.cfi_offset %rbx, -56
	.cfi_offset %r12, -48
	.cfi_offset %r13, -40
	.cfi_offset %r14, -32
	.cfi_offset %r15, -24
	.cfi_offset %rbp, -16
	movq	%r9, %rbp
	movq	%r8, %r14
	movq	%rcx, %r13
	movq	%rdx, %r15
	movq	%rsi, %r12
	movq	%rdi, %rbx
	leaq	120(%rsp), %rdi
	movl	$131072, %edx                   # imm = 0x20000
	xorl	%esi, %esi
	callq	memset@PLT
	pxor	%xmm0, %xmm0
	movdqa	%xmm0, 32(%rsp)
	movq	$0, 48(%rsp)
	movq	%r15, %rax
	shrq	$2, %rax
	negq	%rax
	addq	%r15, %rax
	addq	$7, %rax
	cmpq	%rax, %rbp
	jb	.LBB19_4
# %bb.3:                                # %else.4.i.i
	movabsq	$-3689348814741910323, %rcx     # imm = 0xCCCCCCCCCCCCCCCD
	movq	%r13, %rax
	mulq	%rcx
	shrq	%rdx
	andq	$-2, %rdx
	cmpq	%r15, %rdx
	jb	.LBB19_4
# %bb.5:                                # %after.1.i.i
	cmpq	$256, %r15                      # imm = 0x100
	jbe	.LBB19_7
# %bb.6:
	xorl	%ecx, %ecx
	jmp	.LBB19_13
.LBB19_7:                               # %repeat.4.preheader.i.i.i.i
	movdqa	%xmm0, 80(%rsp)
	movdqa	%xmm0, 64(%rsp)
	xorl	%eax, %eax
	testq	%rbp, %rbp
	jne	.LBB19_8
	jmp	.LBB19_12
	.p2align	4
.LBB19_10:                              # %"occupancy::occupy.exit.i.i.i.i.i"
                                        #   in Loop: Header=BB19_8 Depth=1
	incq	%rax
	cmpq	%rax, %rbp
	je	.LBB19_11
.LBB19_8:                               # %join.6.i.i.i.i.i
                                        # =>This Inner Loop Header: Depth=1
	movzwl	(%r14,%rax,2), %ecx
	cmpq	%rcx, %r15
	jbe	.LBB19_10
# %bb.9:                                # %then.1.i.i.i.i.i.i
                                        #   in Loop: Header=BB19_8 Depth=1
	movl	$1, %edx
	shlq	%cl, %rdx
	shrl	$6, %ecx
	orq	%rdx, 64(%rsp,%rcx,8)
	jmp	.LBB19_10
.LBB19_11:                              # %"occupancy::occupied.exit.loopexit.i.i.i.i"
	movdqa	64(%rsp), %xmm0
	movdqa	80(%rsp), %xmm1
	movdqa	%xmm1, %xmm2
	psrlw	$1, %xmm2
	movdqa	.LCPI19_0(%rip), %xmm3          # xmm3 = [85,85,85,85,85,85,85,85,85,85,85,85,85,85,85,85]
	pand	%xmm3, %xmm2
	psubb	%xmm2, %xmm1
	movdqa	.LCPI19_1(%rip), %xmm2          # xmm2 = [51,51,51,51,51,51,51,51,51,51,51,51,51,51,51,51]
	movdqa	%xmm1, %xmm4
	pand	%xmm2, %xmm4
	psrlw	$2, %xmm1
	pand	%xmm2, %xmm1
	paddb	%xmm4, %xmm1
	movdqa	%xmm1, %xmm4
	psrlw	$4, %xmm4
	paddb	%xmm1, %xmm4
	movdqa	.LCPI19_2(%rip), %xmm1          # xmm1 = [15,15,15,15,15,15,15,15,15,15,15,15,15,15,15,15]
	pand	%xmm1, %xmm4
	movdqa	%xmm0, %xmm5
	psrlw	$1, %xmm5
	pand	%xmm3, %xmm5
	psubb	%xmm5, %xmm0
	movdqa	%xmm0, %xmm3
	pand	%xmm2, %xmm3
	psrlw	$2, %xmm0
	pand	%xmm2, %xmm0
	paddb	%xmm3, %xmm0
	movdqa	%xmm0, %xmm2
	psrlw	$4, %xmm2
	paddb	%xmm0, %xmm2
	pand	%xmm1, %xmm2
	paddb	%xmm4, %xmm2
	pxor	%xmm0, %xmm0
	psadbw	%xmm2, %xmm0
	pshufd	$238, %xmm0, %xmm1              # xmm1 = xmm0[2,3,2,3]
	paddq	%xmm0, %xmm1
	movq	%xmm1, %rax
.LBB19_12:                              # %"occupancy::occupied.exit.i.i.i.i"
	movq	%r15, %rcx
	subq	%rax, %rcx
.LBB19_13:                              # %"yard::Yard::empty_bays.exit.i.i"
	movabsq	$-6148914691236517205, %rsi     # imm = 0xAAAAAAAAAAAAAAAB
	movq	%r13, %rax
	mulq	%rsi
	shrq	%rdx
	cmpq	%r15, %rdx
	jae	.LBB19_16
# %bb.14:                               # %"yard::Yard::empty_bays.exit.i.i"
	cmpq	$2, %rcx
	ja	.LBB19_16
.LBB19_15:                              # %then.15.i.i
	pxor	%xmm0, %xmm0
.LBB19_4:                               # %join.5.i.i
	movdqa	%xmm0, 64(%rsp)
	movq	$0, 80(%rsp)
	leaq	(,%r15,4), %rdx
	leaq	120(%rsp), %rax
	movq	%rax, 16(%rsp)
	movq	131256(%rsp), %rax
	movq	%rax, 8(%rsp)
	movq	131248(%rsp), %rax
	movq	%rax, (%rsp)
	movq	$16384, 24(%rsp)                # imm = 0x4000
	leaq	64(%rsp), %rdi
	movq	%r12, %rsi
	movq	%r15, %rcx
	movq	%r14, %r8
	movq	%rbp, %r9
	callq	"play::play_in"
	movzbl	64(%rsp), %ecx
	movl	68(%rsp), %eax
	movdqu	72(%rsp), %xmm0
	movdqu	%xmm0, 40(%rsp)
	movdqu	40(%rsp), %xmm1
	cmpb	$1, %cl
	jne	.LBB19_24
.LBB19_23:                              # %arm.1.i.i
	shlq	$32, %rax
	orq	$6, %rax
	movq	%rax, %xmm0
	movdqa	.LCPI19_4(%rip), %xmm1          # xmm1 = [1,u]
	punpcklqdq	%xmm0, %xmm1            # xmm1 = xmm1[0],xmm0[0]
	xorl	%eax, %eax
	xorl	%edx, %edx
	jmp	.LBB19_32
.LBB19_16:                              # %after.11.i.i
	movq	%r15, %rax
	mulq	%rsi
	shrq	$3, %rdx
	cmpq	%rcx, %rdx
	jae	.LBB19_19
# %bb.17:                               # %then.20.i.i
	movq	%r13, %rax
	mulq	%rsi
	shrq	$2, %rdx
	cmpq	%rdx, %r15
	jbe	.LBB19_15
	jmp	.LBB19_18
.LBB19_19:                              # %join.22.i.i
	cmpq	$127, %r15
	ja	.LBB19_20
.LBB19_18:                              # %join.25.i.i
	leaq	120(%rsp), %rax
	movq	%rax, 8(%rsp)
	movq	131256(%rsp), %rax
	movq	%rax, (%rsp)
	movq	$16384, 16(%rsp)                # imm = 0x4000
	leaq	32(%rsp), %rdi
	movq	%r12, %rsi
	movq	%r15, %rdx
	movq	%r14, %rcx
	movq	%rbp, %r8
	movq	131248(%rsp), %r9
	callq	"play::play_within::<=8192>"
	jmp	.LBB19_21
.LBB19_20:                              # %join.28.i.i
	leaq	120(%rsp), %rax
	movq	%rax, 8(%rsp)
	movq	131256(%rsp), %rax
	movq	%rax, (%rsp)
	movq	$16384, 16(%rsp)                # imm = 0x4000
	leaq	32(%rsp), %rdi
	movq	%r12, %rsi
	movq	%r15, %rdx
	movq	%r14, %rcx
	movq	%rbp, %r8
	movq	131248(%rsp), %r9
	callq	"play::play_within::<=32768>"
.LBB19_21:                              # %"play::play.exit.i"
	movzbl	32(%rsp), %ecx
	movl	36(%rsp), %eax
	movdqu	40(%rsp), %xmm1
	cmpb	$1, %cl
	je	.LBB19_23
.LBB19_24:                              # %arm.2.i.i
	movq	%xmm1, %rdx
	cmpq	%rdx, 131272(%rsp)
	setb	%al
	cmpq	$65537, %rdx                    # imm = 0x10001
	setae	%cl
	orb	%al, %cl
	je	.LBB19_26
# %bb.25:
	movdqa	.LCPI19_3(%rip), %xmm1          # xmm1 = [1,7]
	xorl	%eax, %eax
	jmp	.LBB19_32
.LBB19_26:                              # %join.10.i.i
	cmpq	$16384, %rdx                    # imm = 0x4000
	jbe	.LBB19_28
# %bb.27:
	movl	$1, %eax
	xorl	%edx, %edx
	jmp	.LBB19_32
.LBB19_28:                              # %join.13.i.i
	pshufd	$238, %xmm1, %xmm0              # xmm0 = xmm1[2,3,2,3]
	movq	%xmm0, %r14
	testq	%rdx, %rdx
	je	.LBB19_29
# %bb.30:                               # %join.5.i.i.i.preheader
	movq	131264(%rsp), %rdi
	shlq	$3, %rdx
	leaq	120(%rsp), %rsi
	movdqa	%xmm1, 96(%rsp)                 # 16-byte Spill
	callq	memcpy@PLT
	movdqa	96(%rsp), %xmm1                 # 16-byte Reload
	pslldq	$8, %xmm1                       # xmm1 = zero,zero,zero,zero,zero,zero,zero,zero,xmm1[0,1,2,3,4,5,6,7]
	xorl	%eax, %eax
	jmp	.LBB19_31
.LBB19_29:
	xorl	%eax, %eax
	pxor	%xmm1, %xmm1
.LBB19_31:                              # %"rooms::hand_out_in.exit"
	movq	%r14, %rdx
.LBB19_32:                              # %"rooms::hand_out_in.exit"
	movq	%rax, (%rbx)
	movdqu	%xmm1, 8(%rbx)
	movq	%rdx, 24(%rbx)
	addq	$131192, %rsp                   # imm = 0x20078
	.cfi_def_cfa_offset 56
	popq	%rbx
	.cfi_def_cfa_offset 48
	popq	%r12
	.cfi_def_cfa_offset 40
	popq	%r13
	.cfi_def_cfa_offset 32
	popq	%r14
	.cfi_def_cfa_offset 24
	popq	%r15
	.cfi_def_cfa_offset 16
	popq	%rbp
	.cfi_def_cfa_offset 8
	retq
.Lfunc_end19:
	.size	"planner::hand_out_within::<=16384>", .Lfunc_end19-"planner::hand_out_within::<=16384>"
	.cfi_endproc
                                        # -- End function
	.section	.rodata.cst16,"aM",@progbits,16
	.p2align	4, 0x0                          # -- Begin function planner::hand_out_within::<=65536>
.LCPI20_0:
	.zero	16,85
.LCPI20_1:
	.zero	16,51
.LCPI20_2:
	.zero	16,15
	.section	".text.planner::hand_out_within::<=65536>","ax",@progbits
	.p2align	4
	.type	"planner::hand_out_within::<=65536>",@function
"planner::hand_out_within::<=65536>":   # @"planner::hand_out_within::<=65536>"
	.cfi_startproc
# %bb.0:                                # %start
	pushq	%rbp
	.cfi_def_cfa_offset 16
	pushq	%r15
	.cfi_def_cfa_offset 24
	pushq	%r14
	.cfi_def_cfa_offset 32
	pushq	%r13
	.cfi_def_cfa_offset 40
	pushq	%r12
	.cfi_def_cfa_offset 48
	pushq	%rbx
	.cfi_def_cfa_offset 56
	movq	%rsp, %r11
	subq	$522240, %r11                   # imm = 0x7F800
	.cfi_def_cfa_register %r11
	.cfi_adjust_cfa_offset 522240
.LBB20_1:                               # %start
                                        # =>This Inner Loop Header: Depth=1
	subq	$3072, %rsp                     # imm = 0xC00
	movq	$0, (%rsp)
	cmpq	%r11, %rsp
	jne	.LBB20_1
# %bb.2:                                # %start
	subq	$2168, %rsp                     # imm = 0x878
	.cfi_def_cfa_register %rsp
	.cfi_def_cfa_offset 524464
	.cfi_offset %rbx, -56
	.cfi_offset %r12, -48
	.cfi_offset %r13, -40
	.cfi_offset %r14, -32
	.cfi_offset %r15, -24
	.cfi_offset %rbp, -16
	movq	%r9, %rbp
	movq	%r8, %r14
	movq	%rcx, %r13
	movq	%rdx, %r15
	movq	%rsi, %r12
	movq	%rdi, %rbx
	leaq	120(%rsp), %rdi
	movl	$524288, %edx                   # imm = 0x80000
	xorl	%esi, %esi
	callq	memset@PLT
	pxor	%xmm0, %xmm0
	movdqa	%xmm0, 32(%rsp)
	movq	$0, 48(%rsp)
	movq	%r15, %rax
	shrq	$2, %rax
	negq	%rax
	addq	%r15, %rax
	addq	$7, %rax
	cmpq	%rax, %rbp
	jb	.LBB20_4
# %bb.3:                                # %else.4.i.i
	movabsq	$-3689348814741910323, %rcx     # imm = 0xCCCCCCCCCCCCCCCD
	movq	%r13, %rax
	mulq	%rcx
	shrq	%rdx
	andq	$-2, %rdx
	cmpq	%r15, %rdx
	jb	.LBB20_4
# %bb.5:                                # %after.1.i.i
	cmpq	$256, %r15                      # imm = 0x100
	jbe	.LBB20_7
# %bb.6:
	xorl	%ecx, %ecx
	jmp	.LBB20_13
.LBB20_7:                               # %repeat.4.preheader.i.i.i.i
	movdqa	%xmm0, 80(%rsp)
	movdqa	%xmm0, 64(%rsp)
	xorl	%eax, %eax
	testq	%rbp, %rbp
	jne	.LBB20_8
	jmp	.LBB20_12
	.p2align	4
.LBB20_10:                              # %"occupancy::occupy.exit.i.i.i.i.i"
                                        #   in Loop: Header=BB20_8 Depth=1
	incq	%rax
	cmpq	%rax, %rbp
	je	.LBB20_11
.LBB20_8:                               # %join.6.i.i.i.i.i
                                        # =>This Inner Loop Header: Depth=1
	movzwl	(%r14,%rax,2), %ecx
	cmpq	%rcx, %r15
	jbe	.LBB20_10
# %bb.9:                                # %then.1.i.i.i.i.i.i
                                        #   in Loop: Header=BB20_8 Depth=1
	movl	$1, %edx
	shlq	%cl, %rdx
	shrl	$6, %ecx
	orq	%rdx, 64(%rsp,%rcx,8)
	jmp	.LBB20_10
.LBB20_11:                              # %"occupancy::occupied.exit.loopexit.i.i.i.i"
	movdqa	64(%rsp), %xmm0
	movdqa	80(%rsp), %xmm1
	movdqa	%xmm1, %xmm2
	psrlw	$1, %xmm2
	movdqa	.LCPI20_0(%rip), %xmm3          # xmm3 = [85,85,85,85,85,85,85,85,85,85,85,85,85,85,85,85]
	pand	%xmm3, %xmm2
	psubb	%xmm2, %xmm1
	movdqa	.LCPI20_1(%rip), %xmm2          # xmm2 = [51,51,51,51,51,51,51,51,51,51,51,51,51,51,51,51]
	movdqa	%xmm1, %xmm4
	pand	%xmm2, %xmm4
	psrlw	$2, %xmm1
	pand	%xmm2, %xmm1
	paddb	%xmm4, %xmm1
	movdqa	%xmm1, %xmm4
	psrlw	$4, %xmm4
	paddb	%xmm1, %xmm4
	movdqa	.LCPI20_2(%rip), %xmm1          # xmm1 = [15,15,15,15,15,15,15,15,15,15,15,15,15,15,15,15]
	pand	%xmm1, %xmm4
	movdqa	%xmm0, %xmm5
	psrlw	$1, %xmm5
	pand	%xmm3, %xmm5
	psubb	%xmm5, %xmm0
	movdqa	%xmm0, %xmm3
	pand	%xmm2, %xmm3
	psrlw	$2, %xmm0
	pand	%xmm2, %xmm0
	paddb	%xmm3, %xmm0
	movdqa	%xmm0, %xmm2
	psrlw	$4, %xmm2
	paddb	%xmm0, %xmm2
	pand	%xmm1, %xmm2
	paddb	%xmm4, %xmm2
	pxor	%xmm0, %xmm0
	psadbw	%xmm2, %xmm0
	pshufd	$238, %xmm0, %xmm1              # xmm1 = xmm0[2,3,2,3]
	paddq	%xmm0, %xmm1
	movq	%xmm1, %rax
.LBB20_12:                              # %"occupancy::occupied.exit.i.i.i.i"
	movq	%r15, %rcx
	subq	%rax, %rcx
.LBB20_13:                              # %"yard::Yard::empty_bays.exit.i.i"
	movabsq	$-6148914691236517205, %rsi     # imm = 0xAAAAAAAAAAAAAAAB
	movq	%r13, %rax
	mulq	%rsi
	shrq	%rdx
	cmpq	%r15, %rdx
	jae	.LBB20_16
# %bb.14:                               # %"yard::Yard::empty_bays.exit.i.i"
	cmpq	$2, %rcx
	ja	.LBB20_16
.LBB20_15:                              # %then.15.i.i
	pxor	%xmm0, %xmm0
.LBB20_4:                               # %join.5.i.i
	movdqa	%xmm0, 64(%rsp)
	movq	$0, 80(%rsp)
	leaq	(,%r15,4), %rdx
	leaq	120(%rsp), %rax
	movq	%rax, 16(%rsp)
	movq	524472(%rsp), %rax
	movq	%rax, 8(%rsp)
	movq	524464(%rsp), %rax
	movq	%rax, (%rsp)
	movq	$65536, 24(%rsp)                # imm = 0x10000
	leaq	64(%rsp), %rdi
	movq	%r12, %rsi
	movq	%r15, %rcx
	movq	%r14, %r8
	movq	%rbp, %r9
	callq	"play::play_in"
	movzbl	64(%rsp), %ecx
	movl	68(%rsp), %eax
	movups	72(%rsp), %xmm0
	movups	%xmm0, 40(%rsp)
	movdqu	40(%rsp), %xmm0
	cmpb	$1, %cl
	jne	.LBB20_24
.LBB20_23:                              # %arm.1.i.i
	shlq	$32, %rax
	movl	$6, %ecx
	movl	$1, %edx
	xorl	%r14d, %r14d
	jmp	.LBB20_29
.LBB20_16:                              # %after.11.i.i
	movq	%r15, %rax
	mulq	%rsi
	shrq	$3, %rdx
	cmpq	%rcx, %rdx
	jae	.LBB20_19
# %bb.17:                               # %then.20.i.i
	movq	%r13, %rax
	mulq	%rsi
	shrq	$2, %rdx
	cmpq	%rdx, %r15
	jbe	.LBB20_15
	jmp	.LBB20_18
.LBB20_19:                              # %join.22.i.i
	cmpq	$127, %r15
	ja	.LBB20_20
.LBB20_18:                              # %join.25.i.i
	leaq	120(%rsp), %rax
	movq	%rax, 8(%rsp)
	movq	524472(%rsp), %rax
	movq	%rax, (%rsp)
	movq	$65536, 16(%rsp)                # imm = 0x10000
	leaq	32(%rsp), %rdi
	movq	%r12, %rsi
	movq	%r15, %rdx
	movq	%r14, %rcx
	movq	%rbp, %r8
	movq	524464(%rsp), %r9
	callq	"play::play_within::<=8192>"
	jmp	.LBB20_21
.LBB20_20:                              # %join.28.i.i
	leaq	120(%rsp), %rax
	movq	%rax, 8(%rsp)
	movq	524472(%rsp), %rax
	movq	%rax, (%rsp)
	movq	$65536, 16(%rsp)                # imm = 0x10000
	leaq	32(%rsp), %rdi
	movq	%r12, %rsi
	movq	%r15, %rdx
	movq	%r14, %rcx
	movq	%rbp, %r8
	movq	524464(%rsp), %r9
	callq	"play::play_within::<=32768>"
.LBB20_21:                              # %"play::play.exit.i"
	movzbl	32(%rsp), %ecx
	movl	36(%rsp), %eax
	movdqu	40(%rsp), %xmm0
	cmpb	$1, %cl
	je	.LBB20_23
.LBB20_24:                              # %arm.2.i.i
	movq	%xmm0, %r14
	cmpq	%r14, 524488(%rsp)
	setb	%al
	cmpq	$65537, %r14                    # imm = 0x10001
	setae	%cl
	orb	%al, %cl
	je	.LBB20_26
# %bb.25:
	movl	$7, %ecx
	movl	$1, %edx
	jmp	.LBB20_30
.LBB20_26:                              # %join.10.i.i
	testq	%r14, %r14
	je	.LBB20_28
# %bb.27:                               # %join.5.i.i.i.preheader
	movq	524480(%rsp), %rdi
	leaq	(,%r14,8), %rdx
	leaq	120(%rsp), %rsi
	movdqa	%xmm0, 96(%rsp)                 # 16-byte Spill
	callq	memcpy@PLT
	movdqa	96(%rsp), %xmm0                 # 16-byte Reload
.LBB20_28:                              # %"copies::copy::<i64,21'core::clone::U64Clone{}>.exit.i.i"
	movl	%r14d, %eax
	andl	$65536, %eax                    # imm = 0x10000
	movzwl	%r14w, %ecx
	pshufd	$238, %xmm0, %xmm0              # xmm0 = xmm0[2,3,2,3]
	movq	%xmm0, %r14
	xorl	%edx, %edx
.LBB20_29:                              # %join.4.i.i
	orq	%rax, %rcx
.LBB20_30:                              # %"rooms::hand_out_in.exit"
	movq	$0, (%rbx)
	movq	%rdx, 8(%rbx)
	movq	%rcx, 16(%rbx)
	movq	%r14, 24(%rbx)
	addq	$524408, %rsp                   # imm = 0x80078
	.cfi_def_cfa_offset 56
	popq	%rbx
	.cfi_def_cfa_offset 48
	popq	%r12
	.cfi_def_cfa_offset 40
	popq	%r13
	.cfi_def_cfa_offset 32
	popq	%r14
	.cfi_def_cfa_offset 24
	popq	%r15
	.cfi_def_cfa_offset 16
	popq	%rbp
	.cfi_def_cfa_offset 8
	retq
.Lfunc_end20:
	.size	"planner::hand_out_within::<=65536>", .Lfunc_end20-"planner::hand_out_within::<=65536>"
	.cfi_endproc
                                        # -- End function
	.section	".text.put_bytes::put_number","ax",@progbits
	.p2align	4                               # -- Begin function put_bytes::put_number
	.type	"put_bytes::put_number",@function
"put_bytes::put_number":                # @"put_bytes::put_number"
	.cfi_startproc
# %bb.0:                                # %start
	pushq	%r15
	.cfi_def_cfa_offset 16
	pushq	%r14
	.cfi_def_cfa_offset 24
	pushq	%r12
	.cfi_def_cfa_offset 32
	pushq	%rbx
	.cfi_def_cfa_offset 40
	pushq	%rax
	.cfi_def_cfa_offset 48
	.cfi_offset %rbx, -40
	.cfi_offset %r12, -32
	.cfi_offset %r14, -24
	.cfi_offset %r15, -16
	movq	%rcx, %rbx
	movq	%rdx, %rax
	movq	%rdi, %r14
	cmpq	$10, %rcx
	jae	.LBB21_4
# %bb.1:                                # %then.1
	cmpq	%rsi, %rax
	jb	.LBB21_2
	jmp	.LBB21_3
.LBB21_4:                               # %join.3
	movabsq	$-3689348814741910323, %rdx     # imm = 0xCCCCCCCCCCCCCCCD
	movq	%rax, %rcx
	movq	%rbx, %rax
	mulq	%rdx
	movq	%rdx, %r15
	shrq	$3, %r15
	movq	%r14, %rdi
	movq	%rsi, %r12
	movq	%rcx, %rdx
	movq	%r15, %rcx
	callq	"put_bytes::put_number"
	cmpq	%r12, %rax
	jae	.LBB21_3
# %bb.5:                                # %then.1.i7
	addq	%r15, %r15
	leaq	(%r15,%r15,4), %rcx
	subq	%rcx, %rbx
.LBB21_2:                               # %then.1.i
	orb	$48, %bl
	movb	%bl, (%r14,%rax)
.LBB21_3:                               # %common.ret
	incq	%rax
	addq	$8, %rsp
	.cfi_def_cfa_offset 40
	popq	%rbx
	.cfi_def_cfa_offset 32
	popq	%r12
	.cfi_def_cfa_offset 24
	popq	%r14
	.cfi_def_cfa_offset 16
	popq	%r15
	.cfi_def_cfa_offset 8
	retq
.Lfunc_end21:
	.size	"put_bytes::put_number", .Lfunc_end21-"put_bytes::put_number"
	.cfi_endproc
                                        # -- End function
	.section	".text.printout::program","ax",@progbits
	.p2align	4                               # -- Begin function printout::program
	.type	"printout::program",@function
"printout::program":                    # @"printout::program"
	.cfi_startproc
# %bb.0:                                # %start
	pushq	%rbp
	.cfi_def_cfa_offset 16
	pushq	%r15
	.cfi_def_cfa_offset 24
	pushq	%r14
	.cfi_def_cfa_offset 32
	pushq	%r13
	.cfi_def_cfa_offset 40
	pushq	%r12
	.cfi_def_cfa_offset 48
	pushq	%rbx
	.cfi_def_cfa_offset 56
	movq	%rsp, %r11
	subq	$178176, %r11                   # imm = 0x2B800
	.cfi_def_cfa_register %r11
	.cfi_adjust_cfa_offset 178176
.LBB22_1:                               # %start
                                        # =>This Inner Loop Header: Depth=1
	subq	$3072, %rsp                     # imm = 0xC00
	movq	$0, (%rsp)
	cmpq	%r11, %rsp
	jne	.LBB22_1
# %bb.2:                                # %start
	subq	$2104, %rsp                     # imm = 0x838
	.cfi_def_cfa_register %rsp
	.cfi_def_cfa_offset 180336
	.cfi_offset %rbx, -56
	.cfi_offset %r12, -48
	.cfi_offset %r13, -40
	.cfi_offset %r14, -32
	.cfi_offset %r15, -24
	.cfi_offset %rbp, -16
	movq	%r9, 16(%rsp)                   # 8-byte Spill
	movq	%r8, %r14
	movl	%ecx, %ebp
	movq	%rdx, %r15
	movq	%rsi, %r12
	movl	%edi, %ebx
	leaq	30(%rsp), %r13
	movl	$180250, %edx                   # imm = 0x2C01A
	movq	%r13, %rdi
	xorl	%esi, %esi
	callq	memset@PLT
	testl	%ebx, %ebx
	je	.LBB22_4
# %bb.3:                                # %then.1.i
	movq	%r13, 8(%rsp)
	movzbl	180336(%rsp), %eax
	movl	%eax, (%rsp)
	movzbl	%bpl, %ecx
	movl	$1, %edi
	jmp	.LBB22_5
.LBB22_4:                               # %join.3.i
	movq	%r13, 8(%rsp)
	movzbl	180336(%rsp), %eax
	movl	%eax, (%rsp)
	movzbl	%bpl, %ecx
	xorl	%edi, %edi
.LBB22_5:                               # %"printout::print.exit"
	movq	%r12, %rsi
	movq	%r15, %rdx
	movq	%r14, %r8
	movq	16(%rsp), %r9                   # 8-byte Reload
	callq	"program::print_for"
	leaq	-1(%rax), %rcx
	cmpq	180352(%rsp), %rcx
	jae	.LBB22_7
# %bb.6:                                # %join.5.i.i.preheader
	movq	180344(%rsp), %rdi
	leaq	30(%rsp), %rsi
	movq	%rax, %rdx
	movq	%rax, %rbx
	callq	memcpy@PLT
	movq	%rbx, %rax
.LBB22_7:                               # %"handing::text.exit"
	addq	$180280, %rsp                   # imm = 0x2C038
	.cfi_def_cfa_offset 56
	popq	%rbx
	.cfi_def_cfa_offset 48
	popq	%r12
	.cfi_def_cfa_offset 40
	popq	%r13
	.cfi_def_cfa_offset 32
	popq	%r14
	.cfi_def_cfa_offset 24
	popq	%r15
	.cfi_def_cfa_offset 16
	popq	%rbp
	.cfi_def_cfa_offset 8
	retq
.Lfunc_end22:
	.size	"printout::program", .Lfunc_end22-"printout::program"
	.cfi_endproc
                                        # -- End function
	.section	".text.program::print_for","ax",@progbits
	.p2align	4                               # -- Begin function program::print_for
	.type	"program::print_for",@function
"program::print_for":                   # @"program::print_for"
	.cfi_startproc
# %bb.0:                                # %start
	pushq	%rbp
	.cfi_def_cfa_offset 16
	pushq	%r15
	.cfi_def_cfa_offset 24
	pushq	%r14
	.cfi_def_cfa_offset 32
	pushq	%r13
	.cfi_def_cfa_offset 40
	pushq	%r12
	.cfi_def_cfa_offset 48
	pushq	%rbx
	.cfi_def_cfa_offset 56
	movq	%rsp, %r11
	subq	$64512, %r11                    # imm = 0xFC00
	.cfi_def_cfa_register %r11
	.cfi_adjust_cfa_offset 64512
.LBB23_1:                               # %start
                                        # =>This Inner Loop Header: Depth=1
	subq	$3072, %rsp                     # imm = 0xC00
	movq	$0, (%rsp)
	cmpq	%r11, %rsp
	jne	.LBB23_1
# %bb.2:                                # %start
	subq	$1096, %rsp                     # imm = 0x448
	.cfi_def_cfa_register %rsp
	.cfi_def_cfa_offset 65664
	.cfi_offset %rbx, -56
	.cfi_offset %r12, -48
	.cfi_offset %r13, -40
	.cfi_offset %r14, -32
	.cfi_offset %r15, -24
	.cfi_offset %rbp, -16
	movq	%r9, %r15
	movq	%r8, 64(%rsp)                   # 8-byte Spill
	movl	%ecx, 28(%rsp)                  # 4-byte Spill
	movq	%rdx, %r12
	movq	%rsi, %r13
	movl	%edi, %r14d
	movq	65672(%rsp), %rbx
	xorps	%xmm0, %xmm0
	movaps	%xmm0, 32(%rsp)
	movq	$0, 48(%rsp)
	leaq	72(%rsp), %rbp
	movl	$65536, %edx                    # imm = 0x10000
	movq	%rbp, %rdi
	xorl	%esi, %esi
	callq	memset@PLT
	movq	%rbp, 16(%rsp)
	movzbl	65664(%rsp), %eax
	movl	%eax, 8(%rsp)
	movq	%r15, (%rsp)
	leaq	32(%rsp), %rdi
	movl	%r14d, %esi
	movq	%r13, %rdx
	movq	%r12, %rcx
	movl	28(%rsp), %r8d                  # 4-byte Reload
	movq	64(%rsp), %r9                   # 8-byte Reload
	callq	"program::answer_for"
	movq	40(%rsp), %r14
	cmpb	$0, 32(%rsp)
	je	.LBB23_3
# %bb.79:                               # %arm.2.i
	movq	48(%rsp), %r15
	movq	%r14, %r12
	shrq	$32, %r12
	movq	%r14, %r13
	shrq	$16, %r13
	movzbl	%r14b, %ebp
	leaq	.Lswitch.table.sejjekoru_slots(%rip), %rax
	movq	(%rax,%rbp,8), %rcx
	movabsq	$7310315702801539131, %rax      # imm = 0x657375666572203B
	movq	%rax, (%rbx)
	movw	$8292, 8(%rbx)                  # imm = 0x2064
	movl	$180250, %esi                   # imm = 0x2C01A
	movl	$10, %edx
	movq	%rbx, %rdi
	callq	"put_bytes::put_number"
	movl	$6353910, %ecx                  # imm = 0x60F3F6
	btl	%ebp, %ecx
	jae	.LBB23_88
# %bb.80:                               # %then.1.i7.i
	movzbl	%r14b, %ecx
	decl	%ecx
	leaq	.LJTI23_0(%rip), %rdx
	movslq	(%rdx,%rcx,4), %rcx
	addq	%rdx, %rcx
	jmpq	*%rcx
.LBB23_81:
	xorl	%r15d, %r15d
	cmpq	$180249, %rax                   # imm = 0x2C019
	jbe	.LBB23_85
	jmp	.LBB23_86
.LBB23_3:                               # %arm.1.i
	cmpq	$65536, %r14                    # imm = 0x10000
	ja	.LBB23_78
# %bb.4:                                # %then.1.i.i
	xorl	%edx, %edx
	testq	%r14, %r14
	je	.LBB23_34
# %bb.5:                                # %join.6.i.i.i.preheader
	xorl	%r15d, %r15d
	jmp	.LBB23_6
	.p2align	4
.LBB23_32:                              # %"plan_lines::action.exit.i.i.i"
                                        #   in Loop: Header=BB23_6 Depth=1
	addq	$2, %rdx
	incq	%r15
	cmpq	%r15, %r14
	je	.LBB23_33
.LBB23_6:                               # %join.6.i.i.i
                                        # =>This Inner Loop Header: Depth=1
	cmpq	$180249, %rdx                   # imm = 0x2C019
	jbe	.LBB23_7
# %bb.8:                                # %"stores::store::<i8,20'core::clone::U8Clone{}>.exit.i.i.i.i.i.i"
                                        #   in Loop: Header=BB23_6 Depth=1
	leaq	1(%rdx), %rax
	cmpq	$180249, %rax                   # imm = 0x2C019
	jbe	.LBB23_9
.LBB23_10:                              # %"stores::store::<i8,20'core::clone::U8Clone{}>.exit.i.i.1.i.i.i.i"
                                        #   in Loop: Header=BB23_6 Depth=1
	leaq	2(%rdx), %rax
	cmpq	$180249, %rax                   # imm = 0x2C019
	jbe	.LBB23_11
.LBB23_12:                              # %"stores::store::<i8,20'core::clone::U8Clone{}>.exit.i.i.2.i.i.i.i"
                                        #   in Loop: Header=BB23_6 Depth=1
	leaq	3(%rdx), %rax
	cmpq	$180249, %rax                   # imm = 0x2C019
	jbe	.LBB23_13
.LBB23_14:                              # %"stores::store::<i8,20'core::clone::U8Clone{}>.exit.i.i.3.i.i.i.i"
                                        #   in Loop: Header=BB23_6 Depth=1
	leaq	4(%rdx), %rax
	cmpq	$180249, %rax                   # imm = 0x2C019
	jbe	.LBB23_15
.LBB23_16:                              # %"stores::store::<i8,20'core::clone::U8Clone{}>.exit.i.i.4.i.i.i.i"
                                        #   in Loop: Header=BB23_6 Depth=1
	leaq	5(%rdx), %rax
	cmpq	$180249, %rax                   # imm = 0x2C019
	jbe	.LBB23_17
.LBB23_18:                              # %"stores::store::<i8,20'core::clone::U8Clone{}>.exit.i.i.5.i.i.i.i"
                                        #   in Loop: Header=BB23_6 Depth=1
	leaq	6(%rdx), %rax
	cmpq	$180249, %rax                   # imm = 0x2C019
	ja	.LBB23_20
.LBB23_19:                              # %then.1.i.i.i.6.i.i.i.i
                                        #   in Loop: Header=BB23_6 Depth=1
	movb	$99, (%rbx,%rax)
.LBB23_20:                              # %"stores::store::<i8,20'core::clone::U8Clone{}>.exit.i.i.6.i.i.i.i"
                                        #   in Loop: Header=BB23_6 Depth=1
	movq	72(%rsp,%r15,8), %r12
	movq	%r12, %rcx
	shrq	$32, %rcx
	addq	$7, %rdx
	movl	$180250, %esi                   # imm = 0x2C01A
	movq	%rbx, %rdi
	callq	"put_bytes::put_number"
	cmpq	$180249, %rax                   # imm = 0x2C019
	ja	.LBB23_22
# %bb.21:                               # %then.1.i.i.i15.i.i.i.i
                                        #   in Loop: Header=BB23_6 Depth=1
	movb	$32, (%rbx,%rax)
.LBB23_22:                              # %"stores::store::<i8,20'core::clone::U8Clone{}>.exit.i.i10.i.i.i.i"
                                        #   in Loop: Header=BB23_6 Depth=1
	leaq	1(%rax), %rcx
	cmpq	$180249, %rcx                   # imm = 0x2C019
	ja	.LBB23_24
# %bb.23:                               # %then.1.i.i.i15.1.i.i.i.i
                                        #   in Loop: Header=BB23_6 Depth=1
	movb	$98, (%rbx,%rcx)
.LBB23_24:                              # %"stores::store::<i8,20'core::clone::U8Clone{}>.exit.i.i10.1.i.i.i.i"
                                        #   in Loop: Header=BB23_6 Depth=1
	movq	%r12, %rcx
	shrq	$16, %rcx
	movzwl	%cx, %ecx
	addq	$2, %rax
	movl	$180250, %esi                   # imm = 0x2C01A
	movq	%rbx, %rdi
	movq	%rax, %rdx
	callq	"put_bytes::put_number"
	cmpq	$180249, %rax                   # imm = 0x2C019
	ja	.LBB23_26
# %bb.25:                               # %then.1.i.i.i29.i.i.i.i
                                        #   in Loop: Header=BB23_6 Depth=1
	movb	$32, (%rbx,%rax)
.LBB23_26:                              # %"stores::store::<i8,20'core::clone::U8Clone{}>.exit.i.i24.i.i.i.i"
                                        #   in Loop: Header=BB23_6 Depth=1
	leaq	1(%rax), %rcx
	cmpq	$180249, %rcx                   # imm = 0x2C019
	ja	.LBB23_28
# %bb.27:                               # %then.1.i.i.i29.1.i.i.i.i
                                        #   in Loop: Header=BB23_6 Depth=1
	movb	$98, (%rbx,%rcx)
.LBB23_28:                              # %"stores::store::<i8,20'core::clone::U8Clone{}>.exit.i.i24.1.i.i.i.i"
                                        #   in Loop: Header=BB23_6 Depth=1
	movzwl	%r12w, %ecx
	addq	$2, %rax
	movl	$180250, %esi                   # imm = 0x2C01A
	movq	%rbx, %rdi
	movq	%rax, %rdx
	callq	"put_bytes::put_number"
	movq	%rax, %rdx
	cmpq	$180249, %rax                   # imm = 0x2C019
	jbe	.LBB23_29
# %bb.30:                               # %"stores::store::<i8,20'core::clone::U8Clone{}>.exit.i.i.i.i.i"
                                        #   in Loop: Header=BB23_6 Depth=1
	leaq	1(%rdx), %rax
	cmpq	$180249, %rax                   # imm = 0x2C019
	ja	.LBB23_32
	jmp	.LBB23_31
	.p2align	4
.LBB23_7:                               # %then.1.i.i.i.i.i.i.i
                                        #   in Loop: Header=BB23_6 Depth=1
	movb	$40, (%rbx,%rdx)
	leaq	1(%rdx), %rax
	cmpq	$180249, %rax                   # imm = 0x2C019
	ja	.LBB23_10
.LBB23_9:                               # %then.1.i.i.i.1.i.i.i.i
                                        #   in Loop: Header=BB23_6 Depth=1
	movb	$109, (%rbx,%rax)
	leaq	2(%rdx), %rax
	cmpq	$180249, %rax                   # imm = 0x2C019
	ja	.LBB23_12
.LBB23_11:                              # %then.1.i.i.i.2.i.i.i.i
                                        #   in Loop: Header=BB23_6 Depth=1
	movb	$111, (%rbx,%rax)
	leaq	3(%rdx), %rax
	cmpq	$180249, %rax                   # imm = 0x2C019
	ja	.LBB23_14
.LBB23_13:                              # %then.1.i.i.i.3.i.i.i.i
                                        #   in Loop: Header=BB23_6 Depth=1
	movb	$118, (%rbx,%rax)
	leaq	4(%rdx), %rax
	cmpq	$180249, %rax                   # imm = 0x2C019
	ja	.LBB23_16
.LBB23_15:                              # %then.1.i.i.i.4.i.i.i.i
                                        #   in Loop: Header=BB23_6 Depth=1
	movb	$101, (%rbx,%rax)
	leaq	5(%rdx), %rax
	cmpq	$180249, %rax                   # imm = 0x2C019
	ja	.LBB23_18
.LBB23_17:                              # %then.1.i.i.i.5.i.i.i.i
                                        #   in Loop: Header=BB23_6 Depth=1
	movb	$32, (%rbx,%rax)
	leaq	6(%rdx), %rax
	cmpq	$180249, %rax                   # imm = 0x2C019
	jbe	.LBB23_19
	jmp	.LBB23_20
	.p2align	4
.LBB23_29:                              # %then.1.i.i.i.i.i.i
                                        #   in Loop: Header=BB23_6 Depth=1
	movb	$41, (%rbx,%rdx)
	leaq	1(%rdx), %rax
	cmpq	$180249, %rax                   # imm = 0x2C019
	ja	.LBB23_32
.LBB23_31:                              # %then.1.i.i.1.i.i.i.i
                                        #   in Loop: Header=BB23_6 Depth=1
	movb	$10, (%rbx,%rax)
	jmp	.LBB23_32
.LBB23_78:                              # %"stores::store::<i8,20'core::clone::U8Clone{}>.exit.i.i20.i.i.i"
	movabsq	$7310315702801539131, %rax      # imm = 0x657375666572203B
	movq	%rax, (%rbx)
	movl	$540549220, 8(%rbx)             # imm = 0x20382064
	movl	$180250, %esi                   # imm = 0x2C01A
	movl	$12, %edx
	movq	%rbx, %rdi
	movq	%r14, %rcx
	jmp	.LBB23_87
.LBB23_33:                              # %"printing::actions.exit.i.i"
	cmpq	$180249, %rdx                   # imm = 0x2C019
	jbe	.LBB23_34
# %bb.35:                               # %"stores::store::<i8,20'core::clone::U8Clone{}>.exit.i.i.i8.i.i"
	leaq	1(%rdx), %rax
	cmpq	$180249, %rax                   # imm = 0x2C019
	jbe	.LBB23_36
.LBB23_37:                              # %"stores::store::<i8,20'core::clone::U8Clone{}>.exit.i.i.1.i.i.i"
	leaq	2(%rdx), %rax
	cmpq	$180249, %rax                   # imm = 0x2C019
	jbe	.LBB23_38
.LBB23_39:                              # %"stores::store::<i8,20'core::clone::U8Clone{}>.exit.i.i.2.i.i.i"
	leaq	3(%rdx), %rax
	cmpq	$180249, %rax                   # imm = 0x2C019
	jbe	.LBB23_40
.LBB23_41:                              # %"stores::store::<i8,20'core::clone::U8Clone{}>.exit.i.i.3.i.i.i"
	leaq	4(%rdx), %rax
	cmpq	$180249, %rax                   # imm = 0x2C019
	jbe	.LBB23_42
.LBB23_43:                              # %"stores::store::<i8,20'core::clone::U8Clone{}>.exit.i.i.4.i.i.i"
	leaq	5(%rdx), %rax
	cmpq	$180249, %rax                   # imm = 0x2C019
	jbe	.LBB23_44
.LBB23_45:                              # %"stores::store::<i8,20'core::clone::U8Clone{}>.exit.i.i.5.i.i.i"
	leaq	6(%rdx), %rax
	cmpq	$180249, %rax                   # imm = 0x2C019
	jbe	.LBB23_46
.LBB23_47:                              # %"stores::store::<i8,20'core::clone::U8Clone{}>.exit.i.i.6.i.i.i"
	leaq	7(%rdx), %rax
	cmpq	$180249, %rax                   # imm = 0x2C019
	jbe	.LBB23_48
.LBB23_49:                              # %"stores::store::<i8,20'core::clone::U8Clone{}>.exit.i.i.7.i.i.i"
	leaq	8(%rdx), %rax
	cmpq	$180249, %rax                   # imm = 0x2C019
	ja	.LBB23_51
.LBB23_50:                              # %then.1.i.i.i.8.i.i.i
	movb	$32, (%rbx,%rax)
.LBB23_51:                              # %"stores::store::<i8,20'core::clone::U8Clone{}>.exit.i.i.8.i.i.i"
	addq	$9, %rdx
	movl	$180250, %esi                   # imm = 0x2C01A
	movq	%rbx, %rdi
	movq	%r14, %rcx
	callq	"put_bytes::put_number"
	cmpq	$180249, %rax                   # imm = 0x2C019
	jbe	.LBB23_52
# %bb.53:                               # %"stores::store::<i8,20'core::clone::U8Clone{}>.exit.i.i.i.i"
	leaq	1(%rax), %rcx
	cmpq	$180249, %rcx                   # imm = 0x2C019
	jbe	.LBB23_54
.LBB23_55:                              # %"stores::store::<i8,20'core::clone::U8Clone{}>.exit.i.1.i.i.i"
	leaq	2(%rax), %rcx
	cmpq	$180249, %rcx                   # imm = 0x2C019
	jbe	.LBB23_56
.LBB23_57:                              # %"stores::store::<i8,20'core::clone::U8Clone{}>.exit.i.2.i.i.i"
	leaq	3(%rax), %rcx
	cmpq	$180249, %rcx                   # imm = 0x2C019
	jbe	.LBB23_58
.LBB23_59:                              # %"stores::store::<i8,20'core::clone::U8Clone{}>.exit.i.3.i.i.i"
	leaq	4(%rax), %rcx
	cmpq	$180249, %rcx                   # imm = 0x2C019
	jbe	.LBB23_60
.LBB23_61:                              # %"stores::store::<i8,20'core::clone::U8Clone{}>.exit.i.4.i.i.i"
	leaq	5(%rax), %rcx
	cmpq	$180249, %rcx                   # imm = 0x2C019
	jbe	.LBB23_62
.LBB23_63:                              # %"stores::store::<i8,20'core::clone::U8Clone{}>.exit.i.5.i.i.i"
	leaq	6(%rax), %rcx
	cmpq	$180249, %rcx                   # imm = 0x2C019
	jbe	.LBB23_64
.LBB23_65:                              # %"stores::store::<i8,20'core::clone::U8Clone{}>.exit.i.6.i.i.i"
	leaq	7(%rax), %rcx
	cmpq	$180249, %rcx                   # imm = 0x2C019
	jbe	.LBB23_66
.LBB23_67:                              # %"stores::store::<i8,20'core::clone::U8Clone{}>.exit.i.7.i.i.i"
	leaq	8(%rax), %rcx
	cmpq	$180249, %rcx                   # imm = 0x2C019
	jbe	.LBB23_68
.LBB23_69:                              # %"stores::store::<i8,20'core::clone::U8Clone{}>.exit.i.8.i.i.i"
	leaq	9(%rax), %rcx
	cmpq	$180249, %rcx                   # imm = 0x2C019
	jbe	.LBB23_70
.LBB23_71:                              # %"stores::store::<i8,20'core::clone::U8Clone{}>.exit.i.9.i.i.i"
	leaq	10(%rax), %rcx
	cmpq	$180249, %rcx                   # imm = 0x2C019
	jbe	.LBB23_72
.LBB23_73:                              # %"stores::store::<i8,20'core::clone::U8Clone{}>.exit.i.10.i.i.i"
	leaq	11(%rax), %rcx
	cmpq	$180249, %rcx                   # imm = 0x2C019
	jbe	.LBB23_74
.LBB23_75:                              # %"stores::store::<i8,20'core::clone::U8Clone{}>.exit.i.11.i.i.i"
	leaq	12(%rax), %rcx
	cmpq	$180249, %rcx                   # imm = 0x2C019
	ja	.LBB23_77
.LBB23_76:                              # %then.1.i.i.12.i.i.i
	movb	$10, (%rbx,%rcx)
.LBB23_77:                              # %"plan_lines::cost.exit.i.i"
	addq	$13, %rax
	jmp	.LBB23_91
.LBB23_34:                              # %then.1.i.i.i.i10.i.i
	movb	$59, (%rbx,%rdx)
	leaq	1(%rdx), %rax
	cmpq	$180249, %rax                   # imm = 0x2C019
	ja	.LBB23_37
.LBB23_36:                              # %then.1.i.i.i.1.i.i.i
	movb	$32, (%rbx,%rax)
	leaq	2(%rdx), %rax
	cmpq	$180249, %rax                   # imm = 0x2C019
	ja	.LBB23_39
.LBB23_38:                              # %then.1.i.i.i.2.i.i.i
	movb	$99, (%rbx,%rax)
	leaq	3(%rdx), %rax
	cmpq	$180249, %rax                   # imm = 0x2C019
	ja	.LBB23_41
.LBB23_40:                              # %then.1.i.i.i.3.i.i.i
	movb	$111, (%rbx,%rax)
	leaq	4(%rdx), %rax
	cmpq	$180249, %rax                   # imm = 0x2C019
	ja	.LBB23_43
.LBB23_42:                              # %then.1.i.i.i.4.i.i.i
	movb	$115, (%rbx,%rax)
	leaq	5(%rdx), %rax
	cmpq	$180249, %rax                   # imm = 0x2C019
	ja	.LBB23_45
.LBB23_44:                              # %then.1.i.i.i.5.i.i.i
	movb	$116, (%rbx,%rax)
	leaq	6(%rdx), %rax
	cmpq	$180249, %rax                   # imm = 0x2C019
	ja	.LBB23_47
.LBB23_46:                              # %then.1.i.i.i.6.i.i.i
	movb	$32, (%rbx,%rax)
	leaq	7(%rdx), %rax
	cmpq	$180249, %rax                   # imm = 0x2C019
	ja	.LBB23_49
.LBB23_48:                              # %then.1.i.i.i.7.i.i.i
	movb	$61, (%rbx,%rax)
	leaq	8(%rdx), %rax
	cmpq	$180249, %rax                   # imm = 0x2C019
	jbe	.LBB23_50
	jmp	.LBB23_51
.LBB23_52:                              # %then.1.i.i.i.i.i
	movb	$32, (%rbx,%rax)
	leaq	1(%rax), %rcx
	cmpq	$180249, %rcx                   # imm = 0x2C019
	ja	.LBB23_55
.LBB23_54:                              # %then.1.i.i.1.i.i.i
	movb	$40, (%rbx,%rcx)
	leaq	2(%rax), %rcx
	cmpq	$180249, %rcx                   # imm = 0x2C019
	ja	.LBB23_57
.LBB23_56:                              # %then.1.i.i.2.i.i.i
	movb	$117, (%rbx,%rcx)
	leaq	3(%rax), %rcx
	cmpq	$180249, %rcx                   # imm = 0x2C019
	ja	.LBB23_59
.LBB23_58:                              # %then.1.i.i.3.i.i.i
	movb	$110, (%rbx,%rcx)
	leaq	4(%rax), %rcx
	cmpq	$180249, %rcx                   # imm = 0x2C019
	ja	.LBB23_61
.LBB23_60:                              # %then.1.i.i.4.i.i.i
	movb	$105, (%rbx,%rcx)
	leaq	5(%rax), %rcx
	cmpq	$180249, %rcx                   # imm = 0x2C019
	ja	.LBB23_63
.LBB23_62:                              # %then.1.i.i.5.i.i.i
	movb	$116, (%rbx,%rcx)
	leaq	6(%rax), %rcx
	cmpq	$180249, %rcx                   # imm = 0x2C019
	ja	.LBB23_65
.LBB23_64:                              # %then.1.i.i.6.i.i.i
	movb	$32, (%rbx,%rcx)
	leaq	7(%rax), %rcx
	cmpq	$180249, %rcx                   # imm = 0x2C019
	ja	.LBB23_67
.LBB23_66:                              # %then.1.i.i.7.i.i.i
	movb	$99, (%rbx,%rcx)
	leaq	8(%rax), %rcx
	cmpq	$180249, %rcx                   # imm = 0x2C019
	ja	.LBB23_69
.LBB23_68:                              # %then.1.i.i.8.i.i.i
	movb	$111, (%rbx,%rcx)
	leaq	9(%rax), %rcx
	cmpq	$180249, %rcx                   # imm = 0x2C019
	ja	.LBB23_71
.LBB23_70:                              # %then.1.i.i.9.i.i.i
	movb	$115, (%rbx,%rcx)
	leaq	10(%rax), %rcx
	cmpq	$180249, %rcx                   # imm = 0x2C019
	ja	.LBB23_73
.LBB23_72:                              # %then.1.i.i.10.i.i.i
	movb	$116, (%rbx,%rcx)
	leaq	11(%rax), %rcx
	cmpq	$180249, %rcx                   # imm = 0x2C019
	ja	.LBB23_75
.LBB23_74:                              # %then.1.i.i.11.i.i.i
	movb	$41, (%rbx,%rcx)
	leaq	12(%rax), %rcx
	cmpq	$180249, %rcx                   # imm = 0x2C019
	jbe	.LBB23_76
	jmp	.LBB23_77
.LBB23_83:                              # %arm.5.i.i14.i.i
	movq	%r12, %r15
.LBB23_84:                              # %"docket::carried.exit.i.i"
	cmpq	$180249, %rax                   # imm = 0x2C019
	ja	.LBB23_86
.LBB23_85:                              # %then.1.i.i.i25.i.i
	movb	$32, (%rbx,%rax)
.LBB23_86:                              # %"stores::store::<i8,20'core::clone::U8Clone{}>.exit.i.i20.i.i"
	incq	%rax
	movl	$180250, %esi                   # imm = 0x2C01A
	movq	%rbx, %rdi
	movq	%rax, %rdx
	movq	%r15, %rcx
.LBB23_87:                              # %join.3.i.i
	callq	"put_bytes::put_number"
.LBB23_88:                              # %join.3.i.i
	cmpq	$180249, %rax                   # imm = 0x2C019
	ja	.LBB23_90
# %bb.89:                               # %then.1.i.i38.i.i
	movb	$10, (%rbx,%rax)
.LBB23_90:                              # %"printing::refusal.exit.i"
	incq	%rax
.LBB23_91:                              # %"print_room::print.exit"
	addq	$65608, %rsp                    # imm = 0x10048
	.cfi_def_cfa_offset 56
	popq	%rbx
	.cfi_def_cfa_offset 48
	popq	%r12
	.cfi_def_cfa_offset 40
	popq	%r13
	.cfi_def_cfa_offset 32
	popq	%r14
	.cfi_def_cfa_offset 24
	popq	%r15
	.cfi_def_cfa_offset 16
	popq	%rbp
	.cfi_def_cfa_offset 8
	retq
.LBB23_82:                              # %arm.3.i.i15.i.i
	.cfi_def_cfa_offset 65664
	movzwl	%r13w, %r15d
	cmpq	$180249, %rax                   # imm = 0x2C019
	jbe	.LBB23_85
	jmp	.LBB23_86
.Lfunc_end23:
	.size	"program::print_for", .Lfunc_end23-"program::print_for"
	.cfi_endproc
	.section	".rodata.program::print_for","a",@progbits
	.p2align	2, 0x0
.LJTI23_0:
	.long	.LBB23_84-.LJTI23_0
	.long	.LBB23_82-.LJTI23_0
	.long	.LBB23_81-.LJTI23_0
	.long	.LBB23_83-.LJTI23_0
	.long	.LBB23_83-.LJTI23_0
	.long	.LBB23_83-.LJTI23_0
	.long	.LBB23_84-.LJTI23_0
	.long	.LBB23_84-.LJTI23_0
	.long	.LBB23_83-.LJTI23_0
	.long	.LBB23_81-.LJTI23_0
	.long	.LBB23_81-.LJTI23_0
	.long	.LBB23_84-.LJTI23_0
	.long	.LBB23_84-.LJTI23_0
	.long	.LBB23_84-.LJTI23_0
	.long	.LBB23_84-.LJTI23_0
	.long	.LBB23_81-.LJTI23_0
	.long	.LBB23_81-.LJTI23_0
	.long	.LBB23_81-.LJTI23_0
	.long	.LBB23_81-.LJTI23_0
	.long	.LBB23_81-.LJTI23_0
	.long	.LBB23_84-.LJTI23_0
	.long	.LBB23_84-.LJTI23_0
                                        # -- End function
	.section	".text.program::answer_for","ax",@progbits
	.p2align	4                               # -- Begin function program::answer_for
	.type	"program::answer_for",@function
"program::answer_for":                  # @"program::answer_for"
	.cfi_startproc
# %bb.0:                                # %start
	pushq	%rbp
	.cfi_def_cfa_offset 16
	pushq	%r15
	.cfi_def_cfa_offset 24
	pushq	%r14
	.cfi_def_cfa_offset 32
	pushq	%r13
	.cfi_def_cfa_offset 40
	pushq	%r12
	.cfi_def_cfa_offset 48
	pushq	%rbx
	.cfi_def_cfa_offset 56
	movq	%rsp, %r11
	subq	$39936, %r11                    # imm = 0x9C00
	.cfi_def_cfa_register %r11
	.cfi_adjust_cfa_offset 39936
.LBB24_1:                               # %start
                                        # =>This Inner Loop Header: Depth=1
	subq	$3072, %rsp                     # imm = 0xC00
	movq	$0, (%rsp)
	cmpq	%r11, %rsp
	jne	.LBB24_1
# %bb.2:                                # %start
	subq	$2200, %rsp                     # imm = 0x898
	.cfi_def_cfa_register %rsp
	.cfi_def_cfa_offset 42192
	.cfi_offset %rbx, -56
	.cfi_offset %r12, -48
	.cfi_offset %r13, -40
	.cfi_offset %r14, -32
	.cfi_offset %r15, -24
	.cfi_offset %rbp, -16
	movq	%r9, 72(%rsp)                   # 8-byte Spill
	movl	%r8d, %ebp
	movq	%rcx, %r13
	movq	%rdx, %r12
	movl	%esi, %r15d
	movq	%rdi, %rbx
	pxor	%xmm0, %xmm0
	movdqa	%xmm0, 80(%rsp)
	movq	$0, 96(%rsp)
	movdqa	%xmm0, 48(%rsp)
	movq	$0, 64(%rsp)
	leaq	9368(%rsp), %rdi
	xorl	%r14d, %r14d
	movl	$32768, %edx                    # imm = 0x8000
	xorl	%esi, %esi
	callq	memset@PLT
	leaq	668(%rsp), %rdi
	movl	$508, %edx                      # imm = 0x1FC
	xorl	%esi, %esi
	callq	memset@PLT
	leaq	160(%rsp), %rdi
	movl	$508, %edx                      # imm = 0x1FC
	xorl	%esi, %esi
	callq	memset@PLT
	leaq	1176(%rsp), %rdi
	movl	$8192, %edx                     # imm = 0x2000
	xorl	%esi, %esi
	callq	memset@PLT
	movw	$13, 30(%rsp)                   # 2-byte Folded Spill
	testl	%ebp, %ebp
	je	.LBB24_68
# %bb.3:                                # %loop.2.i.i.i.i.preheader
	movl	$1, %r14d
	xorl	%esi, %esi
	xorl	%ecx, %ecx
	xorl	%eax, %eax
	xorl	%r8d, %r8d
	xorl	%r9d, %r9d
	jmp	.LBB24_6
.LBB24_4:                               # %then.4.i129.i.i.i.i.i
                                        #   in Loop: Header=BB24_6 Depth=1
	incb	%sil
	movb	$4, %r8b
.LBB24_5:                               # %arm.7.i.i.i.i
                                        #   in Loop: Header=BB24_6 Depth=1
	incq	%r14
	movq	%rbp, %r9
.LBB24_6:                               # %loop.2.i.i.i.i
                                        # =>This Loop Header: Depth=1
                                        #     Child Loop BB24_8 Depth 2
                                        #     Child Loop BB24_32 Depth 2
	movabsq	$2482524913665, %rdx            # imm = 0x24202040001
	cmpq	%r13, %r9
	jae	.LBB24_10
# %bb.7:                                # %join.5.i.i.i.i.i.i.preheader
                                        #   in Loop: Header=BB24_6 Depth=1
	movq	%r9, %rbp
	.p2align	4
.LBB24_8:                               # %join.5.i.i.i.i.i.i
                                        #   Parent Loop BB24_6 Depth=1
                                        # =>  This Inner Loop Header: Depth=2
	cmpb	$10, (%r12,%rbp)
	je	.LBB24_17
# %bb.9:                                # %join.8.i.i.i.i.i.i
                                        #   in Loop: Header=BB24_8 Depth=2
	incq	%rbp
	cmpq	%rbp, %r13
	jne	.LBB24_8
.LBB24_10:                              # %"lines::line_end.exit.thread.i.i.i.i.i"
                                        #   in Loop: Header=BB24_6 Depth=1
	cmpq	%r9, %r13
	movq	%r9, %rbp
	cmovaq	%r13, %rbp
.LBB24_11:                              # %join.3.i.i.i.i.i
                                        #   in Loop: Header=BB24_6 Depth=1
	cmpq	%rbp, %r9
	jae	.LBB24_53
# %bb.12:                               # %arm.3.i.i.i.i
                                        #   in Loop: Header=BB24_6 Depth=1
	leaq	(%r12,%r9), %rdi
	movq	%rbp, %r10
	subq	%r9, %r10
	movzbl	%r8b, %r8d
	leaq	.LJTI24_0(%rip), %r11
	movslq	(%r11,%r8,4), %r8
	addq	%r11, %r8
	movq	%rbp, %r11
	jmpq	*%r8
.LBB24_13:                              # %arm.1.i.i.i.i.i
                                        #   in Loop: Header=BB24_6 Depth=1
	cmpq	$11, %r10
	jne	.LBB24_68
# %bb.14:                               # %join.3.i.i.i.i.i.i.i
                                        #   in Loop: Header=BB24_6 Depth=1
	cmpl	$1701869940, (%rdi)             # imm = 0x65707974
	jne	.LBB24_68
# %bb.15:                               # %"lines::is_word.exit.i.i.i.i.i"
                                        #   in Loop: Header=BB24_6 Depth=1
	leaq	.Lstatic.0(%rip), %rdx
	movl	$11, %esi
	callq	"core::cmp::slices::groups_equal::<i8,31'core::cmp::numbers::U8PartialEq{}>"
	testb	%al, %al
	je	.LBB24_68
# %bb.16:                               #   in Loop: Header=BB24_6 Depth=1
	movb	$1, %r8b
	xorl	%esi, %esi
	xorl	%ecx, %ecx
	xorl	%eax, %eax
	jmp	.LBB24_5
	.p2align	4
.LBB24_17:                              # %"lines::line_end.exit.i.i.i.i.i"
                                        #   in Loop: Header=BB24_6 Depth=1
	cmpq	%r13, %rbp
	jae	.LBB24_11
# %bb.18:                               # %then.1.i.i.i.i.i
                                        #   in Loop: Header=BB24_6 Depth=1
	movq	%r14, 32(%rsp)                  # 8-byte Spill
	movq	%rbx, %r14
	cmpq	%rbp, %r9
	jae	.LBB24_20
# %bb.19:                               # %then.4.i.i.i.i.i
                                        #   in Loop: Header=BB24_6 Depth=1
	cmpb	$13, -1(%r12,%rbp)
	leaq	-1(%rbp), %r11
	cmovneq	%rbp, %r11
	incq	%rbp
	leaq	(%r12,%r9), %rdi
	movq	%r11, %r10
	subq	%r9, %r10
	movzbl	%r8b, %r8d
	leaq	.LJTI24_0(%rip), %rbx
	movslq	(%rbx,%r8,4), %r8
	addq	%rbx, %r8
	movq	%r14, %rbx
	movq	32(%rsp), %r14                  # 8-byte Reload
	jmpq	*%r8
.LBB24_20:                              # %join.6.i.i.i.i.i
                                        #   in Loop: Header=BB24_6 Depth=1
	movq	%rbp, %r10
	movq	%rbp, %r11
	incq	%rbp
	leaq	(%r12,%r9), %rdi
	subq	%r9, %r10
	movzbl	%r8b, %r8d
	leaq	.LJTI24_0(%rip), %rbx
	movslq	(%rbx,%r8,4), %r8
	addq	%rbx, %r8
	movq	%r14, %rbx
	movq	32(%rsp), %r14                  # 8-byte Reload
	jmpq	*%r8
.LBB24_21:                              # %arm.2.i.i.i.i.i
                                        #   in Loop: Header=BB24_6 Depth=1
	cmpq	$7, %r10
	jb	.LBB24_68
# %bb.22:                               # %"lines::begins_with.exit.i.i.i.i.i.i"
                                        #   in Loop: Header=BB24_6 Depth=1
	movzwl	1(%rdi), %eax
	movd	%eax, %xmm0
	pinsrw	$1, 4(%rdi), %xmm0
	movd	%xmm0, %eax
	cmpl	$1952999781, %eax               # imm = 0x74686965
	jne	.LBB24_68
# %bb.23:                               # %"lines::begins_with.exit.i.i.i.i.i.i"
                                        #   in Loop: Header=BB24_6 Depth=1
	cmpb	$104, (%rdi)
	jne	.LBB24_68
# %bb.24:                               # %"lines::begins_with.exit.i.i.i.i.i.i"
                                        #   in Loop: Header=BB24_6 Depth=1
	cmpb	$32, 6(%rdi)
	jne	.LBB24_68
# %bb.25:                               # %"lines::begins_with.exit.i.i.i.i.i.i"
                                        #   in Loop: Header=BB24_6 Depth=1
	cmpb	$103, 3(%rdi)
	jne	.LBB24_68
# %bb.26:                               # %then.4.i.i.i.i.i.i
                                        #   in Loop: Header=BB24_6 Depth=1
	cmpq	$9, %r10
	je	.LBB24_50
# %bb.27:                               # %then.4.i.i.i.i.i.i
                                        #   in Loop: Header=BB24_6 Depth=1
	cmpq	$8, %r10
	jne	.LBB24_68
# %bb.28:                               # %then.1.i.i.i.i.i.i.i
                                        #   in Loop: Header=BB24_6 Depth=1
	movzbl	7(%rdi), %eax
	addb	$-48, %al
	cmpb	$10, %al
	jb	.LBB24_51
	jmp	.LBB24_68
.LBB24_29:                              # %arm.5.i.i.i.i.i
                                        #   in Loop: Header=BB24_6 Depth=1
	cmpb	%al, %sil
	jae	.LBB24_68
# %bb.30:                               # %arm.5.i.i.i.i.i
                                        #   in Loop: Header=BB24_6 Depth=1
	movzbl	%cl, %edi
	cmpq	%rdi, %r10
	jne	.LBB24_68
	.p2align	4
# %bb.31:                               # %then.1.i.i127.i.i.i.i.i
                                        #   in Loop: Header=BB24_6 Depth=1
	cmpq	%r9, %r11
	je	.LBB24_4
.LBB24_32:                              # %join.6.i.i.i.i.i.i.i.i
                                        #   Parent Loop BB24_6 Depth=1
                                        # =>  This Inner Loop Header: Depth=2
	movzbl	(%r12,%r9), %edi
	addl	$-46, %edi
	cmpl	$41, %edi
	ja	.LBB24_68
# %bb.33:                               # %join.6.i.i.i.i.i.i.i.i
                                        #   in Loop: Header=BB24_32 Depth=2
	btq	%rdi, %rdx
	jae	.LBB24_68
# %bb.34:                               # %after.7.i.i.i.i.i.i.i.i
                                        #   in Loop: Header=BB24_32 Depth=2
	incq	%r9
	cmpq	%r9, %r11
	jne	.LBB24_32
	jmp	.LBB24_4
.LBB24_35:                              # %arm.3.i.i.i.i.i
                                        #   in Loop: Header=BB24_6 Depth=1
	cmpq	$6, %r10
	jb	.LBB24_68
# %bb.36:                               # %"lines::begins_with.exit.i52.i.i.i.i.i"
                                        #   in Loop: Header=BB24_6 Depth=1
	movzwl	(%rdi), %ecx
	movd	%ecx, %xmm0
	pinsrw	$1, 4(%rdi), %xmm0
	movd	%xmm0, %ecx
	cmpl	$543713655, %ecx                # imm = 0x20686977
	jne	.LBB24_68
# %bb.37:                               # %"lines::begins_with.exit.i52.i.i.i.i.i"
                                        #   in Loop: Header=BB24_6 Depth=1
	cmpb	$116, 3(%rdi)
	jne	.LBB24_68
# %bb.38:                               # %"lines::begins_with.exit.i52.i.i.i.i.i"
                                        #   in Loop: Header=BB24_6 Depth=1
	cmpb	$100, 2(%rdi)
	jne	.LBB24_68
# %bb.39:                               # %then.4.i83.i.i.i.i.i
                                        #   in Loop: Header=BB24_6 Depth=1
	cmpq	$8, %r10
	je	.LBB24_47
# %bb.40:                               # %then.4.i83.i.i.i.i.i
                                        #   in Loop: Header=BB24_6 Depth=1
	cmpq	$7, %r10
	jne	.LBB24_68
# %bb.41:                               # %then.1.i.i102.i.i.i.i.i
                                        #   in Loop: Header=BB24_6 Depth=1
	movzbl	6(%rdi), %ecx
	addb	$-48, %cl
	cmpb	$10, %cl
	jb	.LBB24_48
	jmp	.LBB24_68
.LBB24_42:                              # %arm.4.i.i.i.i.i
                                        #   in Loop: Header=BB24_6 Depth=1
	cmpq	$3, %r10
	jne	.LBB24_68
# %bb.43:                               # %join.5.i.i.i.preheader.i.i.i.i.i
                                        #   in Loop: Header=BB24_6 Depth=1
	cmpb	$109, (%rdi)
	jne	.LBB24_68
# %bb.44:                               # %join.8.i.i.i.i.i.i.i.i
                                        #   in Loop: Header=BB24_6 Depth=1
	cmpb	$97, 1(%rdi)
	jne	.LBB24_68
# %bb.45:                               # %join.8.i.i.i.1.i.i.i.i.i
                                        #   in Loop: Header=BB24_6 Depth=1
	cmpb	$112, 2(%rdi)
	jne	.LBB24_68
# %bb.46:                               #   in Loop: Header=BB24_6 Depth=1
	movb	$4, %r8b
	xorl	%esi, %esi
	jmp	.LBB24_5
.LBB24_47:                              # %then.4.i.i86.i.i.i.i.i
                                        #   in Loop: Header=BB24_6 Depth=1
	movzbl	6(%rdi), %ecx
	addb	$-48, %cl
	cmpb	$10, %cl
	movzbl	%cl, %ecx
	movl	$100, %edx
	cmovael	%edx, %ecx
	movzbl	7(%rdi), %esi
	movzbl	%cl, %ecx
	addb	$-48, %sil
	cmpb	$10, %sil
	movzbl	%sil, %esi
	cmovael	%edx, %esi
	movzbl	%sil, %edx
	addl	%ecx, %ecx
	leal	(%rcx,%rcx,4), %ecx
	addl	%edx, %ecx
	cmpw	$64, %cx
	ja	.LBB24_68
.LBB24_48:                              # %"sides::side_after.exit106.i.i.i.i.i"
                                        #   in Loop: Header=BB24_6 Depth=1
	testb	%cl, %cl
	je	.LBB24_68
# %bb.49:                               #   in Loop: Header=BB24_6 Depth=1
	movb	$3, %r8b
	xorl	%esi, %esi
	jmp	.LBB24_5
.LBB24_50:                              # %then.4.i.i.i.i.i.i.i
                                        #   in Loop: Header=BB24_6 Depth=1
	movzbl	7(%rdi), %eax
	addb	$-48, %al
	cmpb	$10, %al
	movzbl	%al, %eax
	movl	$100, %ecx
	cmovael	%ecx, %eax
	movzbl	8(%rdi), %edx
	movzbl	%al, %eax
	addb	$-48, %dl
	cmpb	$10, %dl
	movzbl	%dl, %edx
	cmovael	%ecx, %edx
	movzbl	%dl, %ecx
	addl	%eax, %eax
	leal	(%rax,%rax,4), %eax
	addl	%ecx, %eax
	cmpw	$64, %ax
	ja	.LBB24_68
.LBB24_51:                              # %"sides::side_after.exit.i.i.i.i.i"
                                        #   in Loop: Header=BB24_6 Depth=1
	testb	%al, %al
	je	.LBB24_68
# %bb.52:                               #   in Loop: Header=BB24_6 Depth=1
	movb	$2, %r8b
	xorl	%esi, %esi
	xorl	%ecx, %ecx
	jmp	.LBB24_5
.LBB24_53:                              # %"sides::read.exit.i.i.i"
	xorb	$4, %r8b
	xorb	%al, %sil
	movzbl	%cl, %ecx
	shll	$8, %ecx
	movzbl	%al, %eax
	orl	%ecx, %eax
	xorl	%ecx, %ecx
	orb	%r8b, %sil
	cmovel	%eax, %ecx
	jne	.LBB24_68
# %bb.54:                               # %arm.1.i.i.i
	movl	%ecx, 32(%rsp)                  # 4-byte Spill
	xorl	%ebp, %ebp
	testq	%r13, %r13
	je	.LBB24_62
# %bb.55:                               # %join.6.i.i.i.i.preheader
	xorl	%eax, %eax
	xorl	%ecx, %ecx
	movzbl	42200(%rsp), %r9d
	jmp	.LBB24_58
	.p2align	4
.LBB24_56:                              # %"stores::store::<i16,21'core::clone::U16Clone{}>.exit.i.i.i.i"
                                        #   in Loop: Header=BB24_58 Depth=1
	movzbl	%sil, %esi
	addl	%esi, %ebp
	incq	%rax
.LBB24_57:                              # %after.7.i.i.i.i
                                        #   in Loop: Header=BB24_58 Depth=1
	incq	%rcx
	cmpq	%rcx, %r13
	je	.LBB24_63
.LBB24_58:                              # %join.6.i.i.i.i
                                        # =>This Inner Loop Header: Depth=1
	movzbl	(%r12,%rcx), %r8d
	cmpl	$71, %r8d
	sete	%dil
	subl	$46, %r8d
	sete	%sil
	cmpl	$41, %r8d
	ja	.LBB24_57
# %bb.59:                               # %join.6.i.i.i.i
                                        #   in Loop: Header=BB24_58 Depth=1
	btq	%r8, %rdx
	jae	.LBB24_57
# %bb.60:                               # %then.8.i.i.i.i
                                        #   in Loop: Header=BB24_58 Depth=1
	orb	%dil, %sil
	cmpq	$4095, %rax                     # imm = 0xFFF
	ja	.LBB24_56
# %bb.61:                               # %then.1.i.i7.i.i.i
                                        #   in Loop: Header=BB24_58 Depth=1
	leal	1(%rbp), %edi
	xorl	%r8d, %r8d
	testb	%sil, %sil
	cmovnel	%edi, %r8d
	movw	%r8w, 1176(%rsp,%rax,2)
	jmp	.LBB24_56
.LBB24_62:
	movzbl	42200(%rsp), %r9d
.LBB24_63:                              # %arm.3.i
	movw	$14, 30(%rsp)                   # 2-byte Folded Spill
	testb	%r9b, %r9b
	je	.LBB24_67
# %bb.64:                               # %then.1.i.i
	movl	%ebp, %eax
	shll	$16, %eax
	movl	32(%rsp), %ecx                  # 4-byte Reload
	movl	%ecx, %r12d
	andl	$65280, %r12d                   # imm = 0xFF00
	orl	%eax, %r12d
	movzbl	%cl, %r13d
	orl	%r13d, %r12d
	pxor	%xmm0, %xmm0
	movdqu	%xmm0, 140(%rsp)
	movdqa	%xmm0, 128(%rsp)
	movdqa	%xmm0, 112(%rsp)
	leaq	44(%rsp), %rax
	movq	%rax, 8(%rsp)
	movq	$1, 16(%rsp)
	movq	$1, (%rsp)
	leaq	112(%rsp), %rdi
	leaq	1176(%rsp), %r8
	leaq	46(%rsp), %r9
	movq	72(%rsp), %rsi                  # 8-byte Reload
	movq	42192(%rsp), %rdx
	movl	%r12d, %ecx
	callq	"scenario::fold"
	movl	$1, %r14d
	testb	$1, 113(%rsp)
	jne	.LBB24_68
# %bb.65:                               # %join.3.i.i.i.i
	testb	$1, 112(%rsp)
	je	.LBB24_70
# %bb.66:                               # %then.4.i.i.i.i
	movzwl	116(%rsp), %r14d
	addq	$2, %r14
	jmp	.LBB24_68
.LBB24_67:
	xorl	%r14d, %r14d
.LBB24_68:                              # %arm.8
	movzwl	30(%rsp), %eax                  # 2-byte Folded Reload
	movw	%ax, 56(%rsp)
	movw	$0, 58(%rsp)
	movl	$0, 60(%rsp)
	movl	$1, %eax
.LBB24_69:                              # %join.10
	movq	56(%rsp), %rcx
	movq	%rax, (%rbx)
	movq	%rcx, 8(%rbx)
	movq	%r14, 16(%rbx)
	addq	$42136, %rsp                    # imm = 0xA498
	.cfi_def_cfa_offset 56
	popq	%rbx
	.cfi_def_cfa_offset 48
	popq	%r12
	.cfi_def_cfa_offset 40
	popq	%r13
	.cfi_def_cfa_offset 32
	popq	%r14
	.cfi_def_cfa_offset 24
	popq	%r15
	.cfi_def_cfa_offset 16
	popq	%rbp
	.cfi_def_cfa_offset 8
	retq
.LBB24_70:                              # %arm.1.i.i4.i
	.cfi_def_cfa_offset 42192
	leaq	160(%rsp), %rax
	movq	%rax, 8(%rsp)
	movq	$254, 16(%rsp)
	movq	$254, (%rsp)
	leaq	112(%rsp), %rdi
	leaq	1176(%rsp), %r8
	leaq	668(%rsp), %r9
	movq	72(%rsp), %rsi                  # 8-byte Reload
	movq	42192(%rsp), %rdx
	movl	%r12d, %ecx
	callq	"scenario::fold"
	testb	$1, 113(%rsp)
	jne	.LBB24_68
# %bb.71:                               # %join.3.i10.i.i.i
	movzwl	116(%rsp), %r14d
	testb	$1, 112(%rsp)
	je	.LBB24_73
# %bb.72:                               # %then.4.i16.i.i.i
	addq	$2, %r14
	jmp	.LBB24_68
.LBB24_73:                              # %arm.7.i
	movl	32(%rsp), %eax                  # 4-byte Reload
	movzbl	%ah, %esi
	movzwl	%si, %edi
	movzwl	%r13w, %r8d
	imull	%edi, %r8d
	cmpq	$4096, %r8                      # imm = 0x1000
	movl	$4096, %r9d                     # imm = 0x1000
	cmovbq	%r8, %r9
	testl	%r8d, %r8d
	je	.LBB24_99
# %bb.74:                               # %join.5.lr.ph.i.i
	testw	%si, %si
	je	.LBB24_101
# %bb.75:                               # %join.5.i.i.preheader
	leaq	(%rsp,%rdi,2), %r11
	addq	$1176, %r11                     # imm = 0x498
	xorl	%ecx, %ecx
	xorl	%r10d, %r10d
	jmp	.LBB24_78
.LBB24_76:                              #   in Loop: Header=BB24_78 Depth=1
	movl	%r13d, %r15d
	incq	%rcx
	cmpq	%rcx, %r8
	je	.LBB24_100
.LBB24_78:                              # %join.5.i.i
                                        # =>This Inner Loop Header: Depth=1
	movl	%r15d, %r13d
	cmpq	$4095, %rcx                     # imm = 0xFFF
	ja	.LBB24_80
# %bb.79:                               # %then.5.i.i.i.i
                                        #   in Loop: Header=BB24_78 Depth=1
	movzwl	1176(%rsp,%rcx,2), %r15d
	jmp	.LBB24_81
.LBB24_80:                              #   in Loop: Header=BB24_78 Depth=1
	xorl	%r15d, %r15d
.LBB24_81:                              # %"gridmap::number_at.exit.i.i.i"
                                        #   in Loop: Header=BB24_78 Depth=1
	movl	%ecx, %eax
	xorl	%edx, %edx
	divw	%si
                                        # kill: def $dx killed $dx def $edx
	incl	%edx
	cmpw	%si, %dx
	jae	.LBB24_90
# %bb.82:                               # %then.3.i.i.i.i
                                        #   in Loop: Header=BB24_78 Depth=1
	leaq	1(%rcx), %rax
	cmpq	%r8, %rax
	setb	%al
	cmpq	$4095, %rcx                     # imm = 0xFFF
	setb	%dl
	testb	%dl, %al
	je	.LBB24_90
# %bb.83:                               # %"gridmap::number_beside.exit.i.i.i"
                                        #   in Loop: Header=BB24_78 Depth=1
	testw	%r15w, %r15w
	sete	%al
	je	.LBB24_91
# %bb.84:                               # %"gridmap::number_beside.exit.i.i.i"
                                        #   in Loop: Header=BB24_78 Depth=1
	movzwl	1178(%rsp,%rcx,2), %edx
	testw	%dx, %dx
	je	.LBB24_91
# %bb.85:                               # %after.1.i.i.i.i
                                        #   in Loop: Header=BB24_78 Depth=1
	cmpq	$16383, %r10                    # imm = 0x3FFF
	ja	.LBB24_87
# %bb.86:                               # %then.1.i.i.i.i9.i
                                        #   in Loop: Header=BB24_78 Depth=1
	leal	-1(%r15), %eax
	movw	%ax, 9368(%rsp,%r10,2)
.LBB24_87:                              # %"stores::store::<i16,21'core::clone::U16Clone{}>.exit.i.i.i8.i"
                                        #   in Loop: Header=BB24_78 Depth=1
	leaq	1(%r10), %rax
	cmpq	$16383, %rax                    # imm = 0x3FFF
	ja	.LBB24_89
# %bb.88:                               # %then.1.i6.i.i.i.i
                                        #   in Loop: Header=BB24_78 Depth=1
	decl	%edx
	movw	%dx, 9370(%rsp,%r10,2)
.LBB24_89:                              # %"stores::store::<i16,21'core::clone::U16Clone{}>.exit9.i.i.i.i"
                                        #   in Loop: Header=BB24_78 Depth=1
	addq	$2, %r10
	xorl	%eax, %eax
	jmp	.LBB24_91
.LBB24_90:                              # %"gridmap::number_beside.exit.thread.i.i.i"
                                        #   in Loop: Header=BB24_78 Depth=1
	testw	%r15w, %r15w
	sete	%al
.LBB24_91:                              # %"gridmap::put_rail.exit.i.i.i"
                                        #   in Loop: Header=BB24_78 Depth=1
	leaq	(%rdi,%rcx), %rdx
	cmpq	%r9, %rdx
	jae	.LBB24_76
# %bb.92:                               # %"gridmap::number_at.exit17.i.i.i"
                                        #   in Loop: Header=BB24_78 Depth=1
	movzwl	(%r11,%rcx,2), %edx
	testw	%dx, %dx
	sete	%r12b
	orb	%r12b, %al
	jne	.LBB24_76
# %bb.94:                               # %after.1.i21.i.i.i
                                        #   in Loop: Header=BB24_78 Depth=1
	cmpq	$16383, %r10                    # imm = 0x3FFF
	ja	.LBB24_96
# %bb.95:                               # %then.1.i.i33.i.i.i
                                        #   in Loop: Header=BB24_78 Depth=1
	decl	%r15d
	movw	%r15w, 9368(%rsp,%r10,2)
.LBB24_96:                              # %"stores::store::<i16,21'core::clone::U16Clone{}>.exit.i23.i.i.i"
                                        #   in Loop: Header=BB24_78 Depth=1
	leaq	1(%r10), %rax
	cmpq	$16383, %rax                    # imm = 0x3FFF
	movl	%r13d, %r15d
	ja	.LBB24_98
# %bb.97:                               # %then.1.i6.i29.i.i.i
                                        #   in Loop: Header=BB24_78 Depth=1
	decl	%edx
	movw	%dx, 9370(%rsp,%r10,2)
.LBB24_98:                              # %"stores::store::<i16,21'core::clone::U16Clone{}>.exit9.i26.i.i.i"
                                        #   in Loop: Header=BB24_78 Depth=1
	addq	$2, %r10
	incq	%rcx
	cmpq	%rcx, %r8
	jne	.LBB24_78
	jmp	.LBB24_100
.LBB24_99:
	xorl	%r10d, %r10d
.LBB24_100:                             # %arm.7
	movzwl	%bp, %eax
	movq	%rax, 80(%rsp)
	movq	%r10, 88(%rsp)
	movq	%r14, 96(%rsp)
	movq	42208(%rsp), %rax
	movq	%rax, (%rsp)
	movzbl	%r15b, %esi
	leaq	48(%rsp), %rdi
	leaq	80(%rsp), %rdx
	leaq	9368(%rsp), %rcx
	leaq	668(%rsp), %r8
	leaq	160(%rsp), %r9
	callq	"program::plan_order"
	movzbl	48(%rsp), %eax
	movq	64(%rsp), %r14
	jmp	.LBB24_69
.LBB24_101:                             # %trap.1.i.i.i.i
	ud2
.Lfunc_end24:
	.size	"program::answer_for", .Lfunc_end24-"program::answer_for"
	.cfi_endproc
	.section	".rodata.program::answer_for","a",@progbits
	.p2align	2, 0x0
.LJTI24_0:
	.long	.LBB24_13-.LJTI24_0
	.long	.LBB24_21-.LJTI24_0
	.long	.LBB24_35-.LJTI24_0
	.long	.LBB24_42-.LJTI24_0
	.long	.LBB24_29-.LJTI24_0
                                        # -- End function
	.section	".text.scenario::fold","ax",@progbits
	.p2align	4                               # -- Begin function scenario::fold
	.type	"scenario::fold",@function
"scenario::fold":                       # @"scenario::fold"
	.cfi_startproc
# %bb.0:                                # %start
	pushq	%rbp
	.cfi_def_cfa_offset 16
	pushq	%r15
	.cfi_def_cfa_offset 24
	pushq	%r14
	.cfi_def_cfa_offset 32
	pushq	%r13
	.cfi_def_cfa_offset 40
	pushq	%r12
	.cfi_def_cfa_offset 48
	pushq	%rbx
	.cfi_def_cfa_offset 56
	pushq	%rax
	.cfi_def_cfa_offset 64
	.cfi_offset %rbx, -56
	.cfi_offset %r12, -48
	.cfi_offset %r13, -40
	.cfi_offset %r14, -32
	.cfi_offset %r15, -24
	.cfi_offset %rbp, -16
	movq	%r9, (%rsp)                     # 8-byte Spill
	movq	%r8, -32(%rsp)                  # 8-byte Spill
	movq	$0, -18(%rsp)
	testq	%rdx, %rdx
	movl	%ecx, -8(%rsp)                  # 4-byte Spill
	je	.LBB25_79
# %bb.1:                                # %join.6.lr.ph.i
	movq	%rsi, %r8
	movq	%rdi, -48(%rsp)                 # 8-byte Spill
	movzbl	%ch, %eax
	movzbl	%cl, %ecx
	movq	%rax, -64(%rsp)                 # 8-byte Spill
                                        # kill: def $eax killed $eax killed $rax
	movl	%ecx, -68(%rsp)                 # 4-byte Spill
	imull	%ecx, %eax
	cmpl	$4096, %eax                     # imm = 0x1000
	movl	$4096, %ecx                     # imm = 0x1000
	cmovbl	%eax, %ecx
	movq	%rcx, -40(%rsp)                 # 8-byte Spill
	xorl	%esi, %esi
	movl	$65537, %ecx                    # imm = 0x10001
	movb	$1, %r11b
	xorl	%r15d, %r15d
	movq	$0, -80(%rsp)                   # 8-byte Folded Spill
	xorl	%r9d, %r9d
	movl	$0, -84(%rsp)                   # 4-byte Folded Spill
	movl	$0, -88(%rsp)                   # 4-byte Folded Spill
	movl	$0, -92(%rsp)                   # 4-byte Folded Spill
	movl	$0, -96(%rsp)                   # 4-byte Folded Spill
	movb	$1, %al
	movl	%eax, -116(%rsp)                # 4-byte Spill
	movl	$0, -120(%rsp)                  # 4-byte Folded Spill
	movb	$1, %al
	movl	%eax, -128(%rsp)                # 4-byte Spill
	movl	$0, -124(%rsp)                  # 4-byte Folded Spill
	.p2align	4
.LBB25_2:                               # %join.6.i
                                        # =>This Inner Loop Header: Depth=1
	movzbl	(%r8,%r15), %r14d
	movq	-18(%rsp), %r10
	movq	%r10, %r13
	shrq	$16, %r13
	movq	$0, -112(%rsp)
	movw	$0, -104(%rsp)
	testb	$1, %sil
	je	.LBB25_8
# %bb.3:                                # %then.1.i.i
                                        #   in Loop: Header=BB25_2 Depth=1
	movb	$1, -112(%rsp)
	movb	%r11b, -111(%rsp)
.LBB25_4:                               # %"scenario::step.exit.i.thread"
                                        #   in Loop: Header=BB25_2 Depth=1
	movq	%r10, -110(%rsp)
.LBB25_5:                               # %"scenario::step.exit.i.thread"
                                        #   in Loop: Header=BB25_2 Depth=1
	movq	%r10, %rax
	shrq	$48, %rax
	shrq	$32, %r10
	movl	-112(%rsp), %esi
.LBB25_6:                               # %"carrier_lists::keep.exit.i"
                                        #   in Loop: Header=BB25_2 Depth=1
	movl	%esi, -20(%rsp)
	movw	%r13w, -16(%rsp)
	movw	%r10w, -14(%rsp)
	movw	%ax, -12(%rsp)
	incq	%r15
	movl	%esi, %r11d
	shrl	$8, %r11d
	cmpq	%r15, %rdx
	jne	.LBB25_2
	jmp	.LBB25_7
	.p2align	4
.LBB25_8:                               # %join.3.i.i
                                        #   in Loop: Header=BB25_2 Depth=1
	cmpb	$10, %r14b
	jne	.LBB25_18
# %bb.9:                                # %then.4.i.i
                                        #   in Loop: Header=BB25_2 Depth=1
	cmpb	$1, %r11b
	jne	.LBB25_22
# %bb.10:                               # %then.1.i.i.i
                                        #   in Loop: Header=BB25_2 Depth=1
	movl	-124(%rsp), %eax                # 4-byte Reload
                                        # kill: def $al killed $al killed $eax
	andb	$-3, %al
	cmpb	$9, %al
	jne	.LBB25_27
# %bb.11:                               # %then.1.i.i.i
                                        #   in Loop: Header=BB25_2 Depth=1
	testb	$1, -128(%rsp)                  # 1-byte Folded Reload
	je	.LBB25_27
# %bb.12:                               # %"scenario::step.exit.i"
                                        #   in Loop: Header=BB25_2 Depth=1
	xorl	%esi, %esi
	testw	%r13w, %r13w
	je	.LBB25_46
# %bb.13:                               #   in Loop: Header=BB25_2 Depth=1
	xorl	%eax, %eax
	xorl	%r10d, %r10d
	xorl	%edi, %edi
	movzwl	%r13w, %r9d
	cmpq	%r9, 64(%rsp)
	jbe	.LBB25_15
.LBB25_14:                              # %then.1.i.i4.i
                                        #   in Loop: Header=BB25_2 Depth=1
	movq	(%rsp), %rcx                    # 8-byte Reload
	movw	%r10w, (%rcx,%r9,2)
.LBB25_15:                              # %"stores::store::<i16,21'core::clone::U16Clone{}>.exit.i.i"
                                        #   in Loop: Header=BB25_2 Depth=1
	movb	$1, %cl
	movl	%ecx, -116(%rsp)                # 4-byte Spill
	movl	$65537, %ecx                    # imm = 0x10001
	xorl	%esi, %esi
	cmpq	%r9, 80(%rsp)
	jbe	.LBB25_17
# %bb.16:                               # %then.1.i3.i.i
                                        #   in Loop: Header=BB25_2 Depth=1
	movq	72(%rsp), %rsi
	movw	%ax, (%rsi,%r9,2)
	xorl	%esi, %esi
.LBB25_17:                              # %"carrier_lists::keep.exit.i"
                                        #   in Loop: Header=BB25_2 Depth=1
	movq	$0, -80(%rsp)                   # 8-byte Folded Spill
	xorl	%r9d, %r9d
	movl	$0, -84(%rsp)                   # 4-byte Folded Spill
	movl	$0, -88(%rsp)                   # 4-byte Folded Spill
	movl	$0, -92(%rsp)                   # 4-byte Folded Spill
	movl	$0, -96(%rsp)                   # 4-byte Folded Spill
	movl	$0, -120(%rsp)                  # 4-byte Folded Spill
	movb	$1, %r11b
	movl	%r11d, -128(%rsp)               # 4-byte Spill
	movl	$0, -124(%rsp)                  # 4-byte Folded Spill
	movl	%edi, %r13d
	jmp	.LBB25_6
	.p2align	4
.LBB25_18:                              # %join.6.i.i
                                        #   in Loop: Header=BB25_2 Depth=1
	movl	%r9d, %ebp
	shrl	$8, %ebp
	movl	%ecx, %ebx
	shrl	$8, %ebx
	movl	%ecx, %esi
	shrl	$16, %esi
	movl	%ecx, %r12d
	shrl	$24, %r12d
	testl	$256, %r10d                     # imm = 0x100
	je	.LBB25_31
# %bb.19:                               # %then.1.i18.i.i
                                        #   in Loop: Header=BB25_2 Depth=1
	testb	$1, %r11b
	je	.LBB25_28
# %bb.20:                               # %then.1.i.i20.i.i
                                        #   in Loop: Header=BB25_2 Depth=1
	movl	-124(%rsp), %eax                # 4-byte Reload
	cmpb	$10, %al
	ja	.LBB25_29
# %bb.21:                               # %then.1.i.i.i22.i.i
                                        #   in Loop: Header=BB25_2 Depth=1
	incb	%al
	movl	%eax, -124(%rsp)                # 4-byte Spill
	jmp	.LBB25_30
.LBB25_22:                              # %join.3.i.i.i
                                        #   in Loop: Header=BB25_2 Depth=1
	movzwl	%r13w, %eax
	cmpl	$253, %eax
	ja	.LBB25_67
# %bb.23:                               # %then.7.i.i.i
                                        #   in Loop: Header=BB25_2 Depth=1
	cmpb	$1, -116(%rsp)                  # 1-byte Folded Reload
	jne	.LBB25_75
# %bb.24:                               # %then.1.i.i.i.i
                                        #   in Loop: Header=BB25_2 Depth=1
	movzbl	-120(%rsp), %eax                # 1-byte Folded Reload
	decl	%eax
	cmpl	$7, %eax
	ja	.LBB25_53
# %bb.25:                               # %then.1.i.i.i.i
                                        #   in Loop: Header=BB25_2 Depth=1
	leaq	.LJTI25_1(%rip), %rsi
	movslq	(%rsi,%rax,4), %rax
	addq	%rsi, %rax
	jmpq	*%rax
.LBB25_26:                              # %then.1.i.i.i.i.i
                                        #   in Loop: Header=BB25_2 Depth=1
	movl	%r9d, %eax
	decb	%al
	setns	%sil
	jmp	.LBB25_56
.LBB25_27:                              # %join.6.i.i.i
                                        #   in Loop: Header=BB25_2 Depth=1
	movw	$257, -112(%rsp)                # imm = 0x101
	jmp	.LBB25_4
.LBB25_28:                              # %join.3.i.i.i.i
                                        #   in Loop: Header=BB25_2 Depth=1
	andb	$1, %bl
	cmpb	$-127, %r9b
	adcb	$0, %r9b
	andb	$1, %r12b
	xorl	%ebp, %ebp
	xorl	%ecx, %ecx
	xorl	%esi, %esi
	jmp	.LBB25_31
.LBB25_29:                              # %join.3.i.i.i.i.i
                                        #   in Loop: Header=BB25_2 Depth=1
	cmpb	$11, %al
	movzbl	%al, %eax
	movl	$12, %edi
	cmovnel	%eax, %edi
	movl	%edi, -124(%rsp)                # 4-byte Spill
.LBB25_30:                              # %"scenario::released.exit.i.i"
                                        #   in Loop: Header=BB25_2 Depth=1
	movl	$0, -128(%rsp)                  # 4-byte Folded Spill
.LBB25_31:                              # %"scenario::released.exit.i.i"
                                        #   in Loop: Header=BB25_2 Depth=1
	movzbl	%sil, %eax
	movzbl	%r12b, %edi
	shll	$8, %edi
	orl	%eax, %edi
	movzbl	%r11b, %eax
	cmpb	$13, %r14b
	jne	.LBB25_33
# %bb.32:                               # %then.7.i.i
                                        #   in Loop: Header=BB25_2 Depth=1
	shll	$8, %eax
	movzbl	%r9b, %esi
	shll	$8, %ebp
	orl	%esi, %ebp
	movzbl	%cl, %ecx
	movzbl	%bl, %esi
	shll	$8, %esi
	orl	%ecx, %esi
	shll	$16, %edi
	orl	%esi, %edi
	movw	%ax, -112(%rsp)
	movw	$257, -110(%rsp)                # imm = 0x101
	movl	%ebp, %r9d
	movl	%edi, %ecx
	jmp	.LBB25_5
.LBB25_33:                              # %join.9.i.i
                                        #   in Loop: Header=BB25_2 Depth=1
	testb	$1, %r11b
	je	.LBB25_37
# %bb.34:                               # %then.1.i85.i.i
                                        #   in Loop: Header=BB25_2 Depth=1
	movl	-124(%rsp), %r11d               # 4-byte Reload
	movzbl	%r11b, %edi
	cmpb	$10, %dil
	ja	.LBB25_42
# %bb.35:                               # %then.1.i.i99.i.i
                                        #   in Loop: Header=BB25_2 Depth=1
	incb	%r11b
	movl	%r11d, -124(%rsp)               # 4-byte Spill
	cmpb	$1, -128(%rsp)                  # 1-byte Folded Reload
	jne	.LBB25_47
# %bb.36:                               # %then.4.i.i.i.i
                                        #   in Loop: Header=BB25_2 Depth=1
	leaq	.Lstatic.12(%rip), %r11
	cmpb	(%rdi,%r11), %r14b
	sete	%dil
	movl	%edi, -128(%rsp)                # 4-byte Spill
	jmp	.LBB25_48
.LBB25_37:                              # %join.3.i44.i.i
                                        #   in Loop: Header=BB25_2 Depth=1
	cmpb	$9, %r14b
	jne	.LBB25_43
# %bb.38:                               # %then.4.i49.i.i
                                        #   in Loop: Header=BB25_2 Depth=1
	xorl	%r11d, %r11d
	cmpb	$1, -116(%rsp)                  # 1-byte Folded Reload
	movl	$0, -116(%rsp)                  # 4-byte Folded Spill
	jne	.LBB25_77
# %bb.39:                               # %then.1.i167.i.i.i
                                        #   in Loop: Header=BB25_2 Depth=1
	movzbl	-120(%rsp), %esi                # 1-byte Folded Reload
	decl	%esi
	cmpl	$7, %esi
	ja	.LBB25_72
# %bb.40:                               # %then.1.i167.i.i.i
                                        #   in Loop: Header=BB25_2 Depth=1
	leaq	.LJTI25_0(%rip), %rbx
	movslq	(%rbx,%rsi,4), %rsi
	addq	%rbx, %rsi
	jmpq	*%rsi
.LBB25_41:                              # %then.1.i.i.i78.i.i
                                        #   in Loop: Header=BB25_2 Depth=1
	decb	%r9b
	setns	%cl
	movl	%ecx, -116(%rsp)                # 4-byte Spill
	jmp	.LBB25_77
.LBB25_42:                              # %join.3.i.i87.i.i
                                        #   in Loop: Header=BB25_2 Depth=1
	cmpb	$11, %dil
	movl	$12, %r11d
	cmovnel	%edi, %r11d
	movl	%r11d, -124(%rsp)               # 4-byte Spill
	testb	%r14b, %r14b
	sete	%dil
	andb	-128(%rsp), %dil                # 1-byte Folded Reload
                                        # kill: def $dil killed $dil def $edi
	movl	%edi, -128(%rsp)                # 4-byte Spill
	jmp	.LBB25_48
.LBB25_43:                              # %join.6.i45.i.i
                                        #   in Loop: Header=BB25_2 Depth=1
	movq	%r8, -56(%rsp)                  # 8-byte Spill
	leal	-48(%r14), %r11d
	andb	$1, %sil
	je	.LBB25_45
# %bb.44:                               # %then.7.i.i.i.i
                                        #   in Loop: Header=BB25_2 Depth=1
	cmpb	$46, %r14b
	sete	%sil
	cmpb	$10, %r11b
	setb	%dil
	orb	%sil, %dil
	cmpb	$46, %r14b
	movl	%ebx, %esi
	notb	%sil
	movzbl	%dil, %edi
	movzbl	%sil, %esi
	cmovnel	%edi, %esi
	cmpb	$10, %r11b
	cmovbl	%edi, %esi
	andb	$1, %sil
.LBB25_45:                              # %"fields::seen.exit.i.i.i"
                                        #   in Loop: Header=BB25_2 Depth=1
	cmpb	$46, %r14b
	sete	%dil
	orb	%bl, %dil
	andb	$1, %dil
	xorl	%ebx, %ebx
	cmpb	$10, %r11b
	setb	%bl
	movq	-80(%rsp), %r8                  # 8-byte Reload
	leal	(%r8,%r8,4), %r14d
	movzbl	%r11b, %r11d
	leal	(%r11,%r14,2), %r11d
	cmovael	%r8d, %r11d
	xorl	%ebp, %ebp
	testb	$1, %cl
	movl	$0, %ecx
	cmovnel	%ebx, %ecx
	cmpl	$10000, %r8d                    # imm = 0x2710
	cmovael	%r8d, %r11d
	cmpb	$-127, %r9b
	adcb	$0, %r9b
	testb	$1, %r12b
	movl	$1, %r12d
	cmovel	%ebx, %r12d
	movl	%edi, %ebx
	movq	-56(%rsp), %r8                  # 8-byte Reload
	jmp	.LBB25_78
.LBB25_46:                              #   in Loop: Header=BB25_2 Depth=1
	movb	$1, %al
	movl	%eax, -116(%rsp)                # 4-byte Spill
	movl	$65537, %ecx                    # imm = 0x10001
	movq	$0, -80(%rsp)                   # 8-byte Folded Spill
	xorl	%r9d, %r9d
	movl	$0, -84(%rsp)                   # 4-byte Folded Spill
	movl	$0, -88(%rsp)                   # 4-byte Folded Spill
	movl	$0, -92(%rsp)                   # 4-byte Folded Spill
	movl	$0, -96(%rsp)                   # 4-byte Folded Spill
	movl	$0, -120(%rsp)                  # 4-byte Folded Spill
	movb	$1, %al
	movl	%eax, -128(%rsp)                # 4-byte Spill
	movl	$0, -124(%rsp)                  # 4-byte Folded Spill
	xorl	%eax, %eax
	xorl	%r10d, %r10d
	xorl	%r13d, %r13d
	jmp	.LBB25_6
.LBB25_47:                              #   in Loop: Header=BB25_2 Depth=1
	movl	$0, -128(%rsp)                  # 4-byte Folded Spill
.LBB25_48:                              # %"scenario::on_byte.exit.i.i"
                                        #   in Loop: Header=BB25_2 Depth=1
	movq	-80(%rsp), %rdi                 # 8-byte Reload
	movl	%edi, %r11d
	jmp	.LBB25_78
.LBB25_49:                              # %then.13.i.i.i.i.i
                                        #   in Loop: Header=BB25_2 Depth=1
	leal	-1(%r9), %eax
	cmpb	$5, %al
	setb	%al
	movl	-68(%rsp), %esi                 # 4-byte Reload
	cmpl	%esi, -80(%rsp)                 # 4-byte Folded Reload
	jmp	.LBB25_51
.LBB25_50:                              # %then.7.i.i.i.i.i
                                        #   in Loop: Header=BB25_2 Depth=1
	leal	-1(%r9), %eax
	cmpb	$5, %al
	setb	%al
	movq	-64(%rsp), %rsi                 # 8-byte Reload
	cmpl	%esi, -80(%rsp)                 # 4-byte Folded Reload
.LBB25_51:                              # %"fields::field_past.exit.i.i.i"
                                        #   in Loop: Header=BB25_2 Depth=1
	sete	%sil
	andb	%cl, %sil
	jmp	.LBB25_55
.LBB25_52:                              # %then.4.i.i.i.i.i
                                        #   in Loop: Header=BB25_2 Depth=1
	leal	-1(%r9), %eax
	cmpb	$20, %al
	setb	%al
	movl	%ecx, %esi
	notl	%esi
	testl	$16842752, %esi                 # imm = 0x1010000
	sete	%sil
	jmp	.LBB25_55
.LBB25_53:                              # %join.15.i.i.i.i.i
                                        #   in Loop: Header=BB25_2 Depth=1
	cmpb	$7, -120(%rsp)                  # 1-byte Folded Reload
	ja	.LBB25_75
# %bb.54:                               # %then.19.i.i.i.i.i
                                        #   in Loop: Header=BB25_2 Depth=1
	leal	-1(%r9), %eax
	cmpb	$5, %al
	setb	%al
	movl	%ecx, %esi
.LBB25_55:                              # %"fields::field_past.exit.i.i.i"
                                        #   in Loop: Header=BB25_2 Depth=1
	andb	%al, %sil
	jmp	.LBB25_56
.LBB25_75:                              #   in Loop: Header=BB25_2 Depth=1
	xorl	%esi, %esi
.LBB25_56:                              # %"fields::field_past.exit.i.i.i"
                                        #   in Loop: Header=BB25_2 Depth=1
	movl	-120(%rsp), %edi                # 4-byte Reload
	cmpb	$9, %dil
	movl	%edi, %ebp
	adcb	$0, %bpl
	cmpb	$4, %dil
	movl	-96(%rsp), %r11d                # 4-byte Reload
	movq	-80(%rsp), %r14                 # 8-byte Reload
	cmovel	%r14d, %r11d
	cmpb	$5, %dil
	movl	-92(%rsp), %ebx                 # 4-byte Reload
	cmovel	%r14d, %ebx
	cmpb	$6, %dil
	movl	-88(%rsp), %eax                 # 4-byte Reload
	cmovel	%r14d, %eax
	cmpb	$7, %dil
	movl	-84(%rsp), %edi                 # 4-byte Reload
	cmovel	%r14d, %edi
	cmpb	$9, %bpl
	jne	.LBB25_67
# %bb.57:                               # %"fields::field_past.exit.i.i.i"
                                        #   in Loop: Header=BB25_2 Depth=1
	testb	%sil, %sil
	je	.LBB25_67
# %bb.58:                               # %then.5.i.i.i.i
                                        #   in Loop: Header=BB25_2 Depth=1
	cmpl	-64(%rsp), %r11d                # 4-byte Folded Reload
	jae	.LBB25_67
# %bb.59:                               # %then.5.i.i.i.i
                                        #   in Loop: Header=BB25_2 Depth=1
	cmpl	-68(%rsp), %ebx                 # 4-byte Folded Reload
	jae	.LBB25_67
# %bb.60:                               # %then.5.i.i.i.i.i
                                        #   in Loop: Header=BB25_2 Depth=1
	movl	%ebx, %esi
	movl	%r11d, %r11d
	imulq	-64(%rsp), %rsi                 # 8-byte Folded Reload
	addq	%r11, %rsi
	cmpq	-40(%rsp), %rsi                 # 8-byte Folded Reload
	jae	.LBB25_67
# %bb.61:                               # %"gridmap::bay_in.exit.i.i.i.i"
                                        #   in Loop: Header=BB25_2 Depth=1
	movq	-32(%rsp), %r11                 # 8-byte Reload
	movzwl	(%r11,%rsi,2), %r11d
	cmpw	$1, %r11w
	movl	%r11d, %esi
	adcl	$-1, %esi
	testw	%r11w, %r11w
	je	.LBB25_67
# %bb.62:                               # %arm.8.i.i.i.i
                                        #   in Loop: Header=BB25_2 Depth=1
	cmpl	-64(%rsp), %eax                 # 4-byte Folded Reload
	jae	.LBB25_67
# %bb.63:                               # %arm.8.i.i.i.i
                                        #   in Loop: Header=BB25_2 Depth=1
	cmpl	-68(%rsp), %edi                 # 4-byte Folded Reload
	jae	.LBB25_67
# %bb.64:                               # %then.5.i25.i.i.i.i
                                        #   in Loop: Header=BB25_2 Depth=1
	movl	%edi, %edi
	movl	%eax, %eax
	imulq	-64(%rsp), %rdi                 # 8-byte Folded Reload
	addq	%rax, %rdi
	cmpq	-40(%rsp), %rdi                 # 8-byte Folded Reload
	jae	.LBB25_67
# %bb.65:                               # %"gridmap::number_at.exit.i32.i.i.i.i"
                                        #   in Loop: Header=BB25_2 Depth=1
	movq	-32(%rsp), %rax                 # 8-byte Reload
	movzwl	(%rax,%rdi,2), %eax
	testw	%ax, %ax
	je	.LBB25_67
# %bb.66:                               # %"scenario::step.exit.thread162.i"
                                        #   in Loop: Header=BB25_2 Depth=1
	decl	%eax
	leal	1(%r13), %edi
	movl	%esi, %r10d
	movzwl	%r13w, %r9d
	cmpq	%r9, 64(%rsp)
	ja	.LBB25_14
	jmp	.LBB25_15
.LBB25_67:                              # %join.9.i.i.i
                                        #   in Loop: Header=BB25_2 Depth=1
	movb	$1, -112(%rsp)
	jmp	.LBB25_4
.LBB25_68:                              # %then.13.i.i.i62.i.i
                                        #   in Loop: Header=BB25_2 Depth=1
	decb	%r9b
	cmpb	$5, %r9b
	setb	%sil
	movl	-68(%rsp), %edi                 # 4-byte Reload
	cmpl	%edi, -80(%rsp)                 # 4-byte Folded Reload
	jmp	.LBB25_70
.LBB25_69:                              # %then.7.i.i.i70.i.i
                                        #   in Loop: Header=BB25_2 Depth=1
	decb	%r9b
	cmpb	$5, %r9b
	setb	%sil
	movq	-64(%rsp), %rdi                 # 8-byte Reload
	cmpl	%edi, -80(%rsp)                 # 4-byte Folded Reload
.LBB25_70:                              # %"fields::well_field.exit.i.i67.i.i"
                                        #   in Loop: Header=BB25_2 Depth=1
	sete	%dil
	andb	%dil, %cl
	andb	%sil, %cl
                                        # kill: def $cl killed $cl killed $ecx def $ecx
	movl	%ecx, -116(%rsp)                # 4-byte Spill
	jmp	.LBB25_77
.LBB25_71:                              # %then.4.i.i.i75.i.i
                                        #   in Loop: Header=BB25_2 Depth=1
	decb	%r9b
	cmpb	$20, %r9b
	setb	%cl
	notl	%edi
	testl	$257, %edi                      # imm = 0x101
	sete	%sil
	andb	%cl, %sil
	jmp	.LBB25_74
.LBB25_72:                              # %join.15.i.i.i80.i.i
                                        #   in Loop: Header=BB25_2 Depth=1
	cmpb	$7, -120(%rsp)                  # 1-byte Folded Reload
	ja	.LBB25_76
# %bb.73:                               # %then.19.i.i.i82.i.i
                                        #   in Loop: Header=BB25_2 Depth=1
	decb	%r9b
	cmpb	$5, %r9b
	setb	%sil
	andb	%cl, %sil
.LBB25_74:                              # %"fields::well_field.exit.i.i67.i.i"
                                        #   in Loop: Header=BB25_2 Depth=1
	movl	%esi, -116(%rsp)                # 4-byte Spill
	jmp	.LBB25_77
.LBB25_76:                              #   in Loop: Header=BB25_2 Depth=1
	movl	$0, -116(%rsp)                  # 4-byte Folded Spill
.LBB25_77:                              # %"fields::field_past.exit.i51.i.i"
                                        #   in Loop: Header=BB25_2 Depth=1
	movl	-120(%rsp), %edi                # 4-byte Reload
	cmpb	$9, %dil
	movl	%edi, %esi
	adcb	$0, %sil
	cmpb	$4, %dil
	movl	-96(%rsp), %ecx                 # 4-byte Reload
	movq	-80(%rsp), %r9                  # 8-byte Reload
	cmovel	%r9d, %ecx
	movl	%ecx, -96(%rsp)                 # 4-byte Spill
	cmpb	$5, %dil
	movl	-92(%rsp), %ecx                 # 4-byte Reload
	cmovel	%r9d, %ecx
	movl	%ecx, -92(%rsp)                 # 4-byte Spill
	cmpb	$6, %dil
	movl	-88(%rsp), %ecx                 # 4-byte Reload
	cmovel	%r9d, %ecx
	movl	%ecx, -88(%rsp)                 # 4-byte Spill
	cmpb	$7, %dil
	movl	-84(%rsp), %ecx                 # 4-byte Reload
	cmovel	%r9d, %ecx
	movl	%ecx, -84(%rsp)                 # 4-byte Spill
	movb	$1, %cl
                                        # kill: def $sil killed $sil def $esi
	movl	%esi, -120(%rsp)                # 4-byte Spill
	xorl	%r9d, %r9d
	xorl	%ebp, %ebp
	xorl	%ebx, %ebx
	movb	$1, %sil
	xorl	%r12d, %r12d
.LBB25_78:                              # %"scenario::on_byte.exit.i.i"
                                        #   in Loop: Header=BB25_2 Depth=1
	shll	$8, %eax
	shll	$8, %ebp
	movzbl	%r9b, %r9d
	orl	%ebp, %r9d
	movzbl	%cl, %ecx
	movzbl	%bl, %edi
	shll	$8, %edi
	orl	%ecx, %edi
	movzbl	%sil, %esi
	shll	$16, %esi
	orl	%edi, %esi
	movzbl	%r12b, %ecx
	shll	$24, %ecx
	orl	%esi, %ecx
	movw	%ax, -112(%rsp)
	movb	$1, -110(%rsp)
	movl	%r11d, %eax
	movq	%rax, -80(%rsp)                 # 8-byte Spill
	jmp	.LBB25_5
.LBB25_7:                               # %"scenario::feed_on.exit.loopexit"
	movl	%esi, %edx
	shrl	$16, %edx
	shll	$16, %r13d
	movq	-48(%rsp), %rdi                 # 8-byte Reload
	jmp	.LBB25_80
.LBB25_79:
	xorl	%eax, %eax
	movl	$65537, %ecx                    # imm = 0x10001
	movb	$1, %r11b
	xorl	%r10d, %r10d
	xorl	%r13d, %r13d
	xorl	%edx, %edx
	xorl	%esi, %esi
	movl	$0, -124(%rsp)                  # 4-byte Folded Spill
	movb	$1, %r8b
	movl	%r8d, -128(%rsp)                # 4-byte Spill
	movl	$0, -120(%rsp)                  # 4-byte Folded Spill
	movb	$1, %r8b
	movl	%r8d, -116(%rsp)                # 4-byte Spill
	movl	$0, -96(%rsp)                   # 4-byte Folded Spill
	movl	$0, -92(%rsp)                   # 4-byte Folded Spill
	movl	$0, -88(%rsp)                   # 4-byte Folded Spill
	movl	$0, -84(%rsp)                   # 4-byte Folded Spill
	xorl	%r9d, %r9d
	movq	$0, -80(%rsp)                   # 8-byte Folded Spill
.LBB25_80:                              # %"scenario::feed_on.exit"
	movzwl	%ax, %r14d
	shlq	$48, %r14
	movzwl	%r10w, %ebx
	shlq	$32, %rbx
	orq	%rbx, %r13
	orq	%r14, %r13
	movzwl	%dx, %r8d
	shrq	$16, %r13
	movl	%r13d, %edx
	shll	$16, %edx
	orq	%rbx, %rdx
	orq	%r14, %rdx
	orq	%r8, %rdx
	movw	$0, -104(%rsp)
	movq	$0, -112(%rsp)
	testb	$1, %sil
	je	.LBB25_83
# %bb.81:                               # %then.1.i.i176
	movb	$1, -112(%rsp)
	jmp	.LBB25_82
.LBB25_83:                              # %join.3.i.i35
	testb	$1, %r8b
	je	.LBB25_82
# %bb.84:                               # %then.4.i.i65
	movq	%rdi, -48(%rsp)                 # 8-byte Spill
	movl	%r9d, %ebx
	shrl	$8, %ebx
	movl	%ecx, %esi
	shrl	$8, %esi
	movl	%ecx, %edi
	shrl	$16, %edi
	movl	%ecx, %r15d
	shrl	$24, %r15d
	testl	$256, %r8d                      # imm = 0x100
	je	.LBB25_91
# %bb.85:                               # %then.1.i.i.i68
	testb	$1, %r11b
	je	.LBB25_88
# %bb.86:                               # %then.1.i.i.i.i169
	movl	-124(%rsp), %r8d                # 4-byte Reload
	cmpb	$10, %r8b
	ja	.LBB25_89
# %bb.87:                               # %then.1.i.i.i.i.i174
	incb	%r8b
	movl	%r8d, -124(%rsp)                # 4-byte Spill
	jmp	.LBB25_90
.LBB25_82:                              # %join.6.i.i37
	movb	%r11b, -111(%rsp)
	movq	%rdx, -110(%rsp)
	movl	-112(%rsp), %edx
	movl	-124(%rsp), %r11d               # 4-byte Reload
	jmp	.LBB25_127
.LBB25_88:                              # %join.3.i.i.i.i69
	andl	$1, %esi
	cmpb	$-127, %r9b
	adcb	$0, %r9b
	andl	$1, %r15d
	xorl	%r11d, %r11d
	xorl	%ebx, %ebx
	xorl	%ecx, %ecx
	xorl	%edi, %edi
	jmp	.LBB25_91
.LBB25_89:                              # %join.3.i.i.i.i.i171
	cmpb	$11, %r8b
	movzbl	%r8b, %r8d
	movl	$12, %r11d
	cmovnel	%r8d, %r11d
	movl	%r11d, -124(%rsp)               # 4-byte Spill
.LBB25_90:                              # %"scenario::released.exit.i.i75"
	movb	$1, %r11b
	movl	$0, -128(%rsp)                  # 4-byte Folded Spill
.LBB25_91:                              # %"scenario::released.exit.i.i75"
	movzwl	%r13w, %r14d
	movzbl	%dil, %edi
	shll	$16, %edi
	shll	$24, %r15d
	orl	%edi, %r15d
	testb	$1, %r11b
	je	.LBB25_100
# %bb.92:                               # %then.1.i18.i.i163
	movl	-124(%rsp), %r11d               # 4-byte Reload
	movl	%r11d, %edi
	andb	$-3, %dil
	cmpb	$9, %dil
	jne	.LBB25_105
# %bb.93:                               # %then.1.i18.i.i163
	testb	$1, -128(%rsp)                  # 1-byte Folded Reload
	je	.LBB25_105
# %bb.94:                               # %"scenario::finished.exit.i"
	xorl	%edx, %edx
	testw	%r13w, %r13w
	je	.LBB25_107
# %bb.95:
	xorl	%r13d, %r13d
	xorl	%r10d, %r10d
	xorl	%eax, %eax
	movq	-48(%rsp), %rdi                 # 8-byte Reload
	cmpq	%r14, 64(%rsp)
	jbe	.LBB25_97
.LBB25_96:                              # %then.1.i.i3.i
	movq	(%rsp), %rcx                    # 8-byte Reload
	movw	%r10w, (%rcx,%r14,2)
.LBB25_97:                              # %"stores::store::<i16,21'core::clone::U16Clone{}>.exit.i.i42"
	movb	$1, %cl
	movl	%ecx, -116(%rsp)                # 4-byte Spill
	movl	$65537, %ecx                    # imm = 0x10001
	xorl	%edx, %edx
	cmpq	%r14, 80(%rsp)
	jbe	.LBB25_99
# %bb.98:                               # %then.1.i3.i.i60
	movq	72(%rsp), %rdx
	movw	%ax, (%rdx,%r14,2)
	xorl	%edx, %edx
.LBB25_99:                              # %"scenario::finish_on.exit"
	movq	$0, -80(%rsp)                   # 8-byte Folded Spill
	xorl	%r9d, %r9d
	movl	$0, -84(%rsp)                   # 4-byte Folded Spill
	movl	$0, -88(%rsp)                   # 4-byte Folded Spill
	movl	$0, -92(%rsp)                   # 4-byte Folded Spill
	movl	$0, -96(%rsp)                   # 4-byte Folded Spill
	movl	$0, -120(%rsp)                  # 4-byte Folded Spill
	movb	$1, %sil
	movl	%esi, -128(%rsp)                # 4-byte Spill
	xorl	%r11d, %r11d
	jmp	.LBB25_127
.LBB25_100:                             # %join.3.i.i.i84
	cmpl	$253, %r14d
	movl	-124(%rsp), %r11d               # 4-byte Reload
	ja	.LBB25_106
# %bb.101:                              # %then.7.i.i.i88
	movl	-8(%rsp), %r8d                  # 4-byte Reload
	movl	%r8d, %edi
	shrl	$8, %edi
	movzbl	%dil, %edi
	movl	%edi, -68(%rsp)                 # 4-byte Spill
	movzbl	%r8b, %edi
	movl	%edi, -56(%rsp)                 # 4-byte Spill
	cmpb	$1, -116(%rsp)                  # 1-byte Folded Reload
	movl	%ebx, -64(%rsp)                 # 4-byte Spill
	movq	%r14, -40(%rsp)                 # 8-byte Spill
	jne	.LBB25_130
# %bb.102:                              # %then.1.i.i15.i.i
	movzbl	-120(%rsp), %edi                # 1-byte Folded Reload
	decl	%edi
	cmpl	$7, %edi
	ja	.LBB25_128
# %bb.103:                              # %then.1.i.i15.i.i
	leaq	.LJTI25_2(%rip), %r11
	movslq	(%r11,%rdi,4), %rdi
	addq	%r11, %rdi
	jmpq	*%rdi
.LBB25_104:                             # %then.1.i.i.i17.i.i
	movl	%r9d, %edi
	decb	%dil
	setns	%r14b
	jmp	.LBB25_113
.LBB25_105:                             # %join.6.i.i.i167
	movw	$257, -112(%rsp)                # imm = 0x101
	movq	%rdx, -110(%rsp)
	jmp	.LBB25_125
.LBB25_106:                             # %join.9.i.i.i86
	movb	$1, -112(%rsp)
	movq	%rdx, -110(%rsp)
	jmp	.LBB25_125
.LBB25_107:
	movb	$1, %al
	movl	%eax, -116(%rsp)                # 4-byte Spill
	movl	$65537, %ecx                    # imm = 0x10001
	movq	$0, -80(%rsp)                   # 8-byte Folded Spill
	xorl	%r9d, %r9d
	movl	$0, -84(%rsp)                   # 4-byte Folded Spill
	movl	$0, -88(%rsp)                   # 4-byte Folded Spill
	movl	$0, -92(%rsp)                   # 4-byte Folded Spill
	movl	$0, -96(%rsp)                   # 4-byte Folded Spill
	movl	$0, -120(%rsp)                  # 4-byte Folded Spill
	movb	$1, %al
	movl	%eax, -128(%rsp)                # 4-byte Spill
	xorl	%r11d, %r11d
	xorl	%eax, %eax
	xorl	%r10d, %r10d
	xorl	%r13d, %r13d
	jmp	.LBB25_126
.LBB25_108:                             # %then.13.i.i.i.i.i142
	leal	-1(%r9), %edi
	cmpb	$5, %dil
	setb	%dil
	movl	-56(%rsp), %r8d                 # 4-byte Reload
	cmpl	%r8d, -80(%rsp)                 # 4-byte Folded Reload
	sete	%r14b
	andb	%cl, %r14b
	jmp	.LBB25_112
.LBB25_109:                             # %then.7.i.i.i.i.i150
	leal	-1(%r9), %edi
	cmpb	$5, %dil
	setb	%dil
	andb	%cl, %dil
	movl	-68(%rsp), %r8d                 # 4-byte Reload
	cmpl	%r8d, -80(%rsp)                 # 4-byte Folded Reload
	jmp	.LBB25_111
.LBB25_110:                             # %then.4.i.i.i.i.i155
	leal	-1(%r9), %edi
	cmpb	$20, %dil
	setb	%dil
	movl	%r15d, %r11d
	notl	%r11d
	testl	$16842752, %r11d                # imm = 0x1010000
.LBB25_111:                             # %"fields::field_past.exit.i.i.i90"
	sete	%r14b
.LBB25_112:                             # %"fields::field_past.exit.i.i.i90"
	andb	%dil, %r14b
	jmp	.LBB25_113
.LBB25_128:                             # %join.15.i.i.i.i.i158
	cmpb	$7, -120(%rsp)                  # 1-byte Folded Reload
	ja	.LBB25_130
# %bb.129:                              # %then.19.i.i.i.i.i160
	leal	-1(%r9), %edi
	cmpb	$5, %dil
	setb	%r14b
	andb	%cl, %r14b
	jmp	.LBB25_113
.LBB25_130:
	xorl	%r14d, %r14d
.LBB25_113:                             # %"fields::field_past.exit.i.i.i90"
	movl	-120(%rsp), %ebp                # 4-byte Reload
	cmpb	$9, %bpl
	movl	%ebp, %ebx
	adcb	$0, %bl
	cmpb	$4, %bpl
	movl	-96(%rsp), %r12d                # 4-byte Reload
	movq	-80(%rsp), %r8                  # 8-byte Reload
	cmovel	%r8d, %r12d
	cmpb	$5, %bpl
	movl	-92(%rsp), %r11d                # 4-byte Reload
	cmovel	%r8d, %r11d
	cmpb	$6, %bpl
	movl	-88(%rsp), %edi                 # 4-byte Reload
	cmovel	%r8d, %edi
	cmpb	$7, %bpl
	movl	-84(%rsp), %ebp                 # 4-byte Reload
	cmovel	%r8d, %ebp
	cmpb	$9, %bl
	jne	.LBB25_124
# %bb.114:                              # %"fields::field_past.exit.i.i.i90"
	testb	%r14b, %r14b
	je	.LBB25_124
# %bb.115:                              # %then.5.i.i.i.i107
	cmpl	-68(%rsp), %r12d                # 4-byte Folded Reload
	jae	.LBB25_124
# %bb.116:                              # %then.5.i.i.i.i107
	cmpl	-56(%rsp), %r11d                # 4-byte Folded Reload
	jae	.LBB25_124
# %bb.117:                              # %then.5.i.i.i.i.i112
	movl	-68(%rsp), %r8d                 # 4-byte Reload
	movl	%r8d, %ebx
	movl	%r11d, %r11d
	movl	%r12d, %r12d
	movl	%r8d, %r14d
	imull	-56(%rsp), %r14d                # 4-byte Folded Reload
	movq	%rbx, -8(%rsp)                  # 8-byte Spill
	imulq	%rbx, %r11
	addq	%r12, %r11
	cmpq	%r14, %r11
	setb	%bl
	cmpq	$4096, %r11                     # imm = 0x1000
	setb	%r12b
	andb	%bl, %r12b
	cmpb	$1, %r12b
	jne	.LBB25_124
# %bb.118:                              # %"gridmap::bay_in.exit.i.i.i.i119"
	movq	-32(%rsp), %rbx                 # 8-byte Reload
	movzwl	(%rbx,%r11,2), %r11d
	cmpw	$1, %r11w
	movl	%r11d, %r8d
	adcl	$-1, %r8d
	testw	%r11w, %r11w
	je	.LBB25_124
# %bb.119:                              # %arm.8.i.i.i.i125
	cmpl	-68(%rsp), %edi                 # 4-byte Folded Reload
	jae	.LBB25_124
# %bb.120:                              # %arm.8.i.i.i.i125
	cmpl	-56(%rsp), %ebp                 # 4-byte Folded Reload
	jae	.LBB25_124
# %bb.121:                              # %then.5.i25.i.i.i.i129
	movl	%ebp, %r11d
	movl	%edi, %edi
	imulq	-8(%rsp), %r11                  # 8-byte Folded Reload
	addq	%rdi, %r11
	cmpq	%r14, %r11
	setb	%dil
	cmpq	$4096, %r11                     # imm = 0x1000
	setb	%bl
	andb	%dil, %bl
	cmpb	$1, %bl
	jne	.LBB25_124
# %bb.122:                              # %"gridmap::number_at.exit.i32.i.i.i.i135"
	movq	-32(%rsp), %rdi                 # 8-byte Reload
	movzwl	(%rdi,%r11,2), %edi
	testw	%di, %di
	je	.LBB25_124
# %bb.123:                              # %"scenario::finished.exit.i.thread147"
	decl	%edi
	incl	%r13d
	movl	%r8d, %r10d
	movl	%edi, %eax
	movq	-48(%rsp), %rdi                 # 8-byte Reload
	movq	-40(%rsp), %r14                 # 8-byte Reload
	cmpq	%r14, 64(%rsp)
	ja	.LBB25_96
	jmp	.LBB25_97
.LBB25_124:                             # %arm.11.i.i.i106
	movb	$1, -112(%rsp)
	movq	%rdx, -110(%rsp)
	movl	-124(%rsp), %r11d               # 4-byte Reload
	movl	-64(%rsp), %ebx                 # 4-byte Reload
.LBB25_125:                             # %"scenario::finished.exit.i.thread124"
	movzbl	%cl, %edx
	shll	$8, %esi
	movzwl	%si, %ecx
	orl	%edx, %ecx
	orl	%r15d, %ecx
	shll	$8, %ebx
	movzbl	%r9b, %r9d
	orl	%ebx, %r9d
	movl	-112(%rsp), %edx
.LBB25_126:                             # %"scenario::finish_on.exit"
	movq	-48(%rsp), %rdi                 # 8-byte Reload
.LBB25_127:                             # %"scenario::finish_on.exit"
	movl	%edx, (%rdi)
	movw	%r13w, 4(%rdi)
	movw	%r10w, 6(%rdi)
	movw	%ax, 8(%rdi)
	movb	%r11b, 10(%rdi)
	movl	-128(%rsp), %eax                # 4-byte Reload
	movb	%al, 11(%rdi)
	movl	-120(%rsp), %eax                # 4-byte Reload
	movb	%al, 12(%rdi)
	movl	-116(%rsp), %eax                # 4-byte Reload
	movb	%al, 13(%rdi)
	movw	$0, 14(%rdi)
	movl	-96(%rsp), %eax                 # 4-byte Reload
	movl	%eax, 16(%rdi)
	movl	-92(%rsp), %eax                 # 4-byte Reload
	movl	%eax, 20(%rdi)
	movl	-88(%rsp), %eax                 # 4-byte Reload
	movl	%eax, 24(%rdi)
	movl	-84(%rsp), %eax                 # 4-byte Reload
	movl	%eax, 28(%rdi)
	movl	%r9d, 32(%rdi)
	movq	-80(%rsp), %rax                 # 8-byte Reload
	movl	%eax, 36(%rdi)
	movl	%ecx, 40(%rdi)
	addq	$8, %rsp
	.cfi_def_cfa_offset 56
	popq	%rbx
	.cfi_def_cfa_offset 48
	popq	%r12
	.cfi_def_cfa_offset 40
	popq	%r13
	.cfi_def_cfa_offset 32
	popq	%r14
	.cfi_def_cfa_offset 24
	popq	%r15
	.cfi_def_cfa_offset 16
	popq	%rbp
	.cfi_def_cfa_offset 8
	retq
.Lfunc_end25:
	.size	"scenario::fold", .Lfunc_end25-"scenario::fold"
	.cfi_endproc
	.section	".rodata.scenario::fold","a",@progbits
	.p2align	2, 0x0
.LJTI25_0:
	.long	.LBB25_41-.LJTI25_0
	.long	.LBB25_69-.LJTI25_0
	.long	.LBB25_68-.LJTI25_0
	.long	.LBB25_72-.LJTI25_0
	.long	.LBB25_72-.LJTI25_0
	.long	.LBB25_72-.LJTI25_0
	.long	.LBB25_72-.LJTI25_0
	.long	.LBB25_71-.LJTI25_0
.LJTI25_1:
	.long	.LBB25_26-.LJTI25_1
	.long	.LBB25_50-.LJTI25_1
	.long	.LBB25_49-.LJTI25_1
	.long	.LBB25_53-.LJTI25_1
	.long	.LBB25_53-.LJTI25_1
	.long	.LBB25_53-.LJTI25_1
	.long	.LBB25_53-.LJTI25_1
	.long	.LBB25_52-.LJTI25_1
.LJTI25_2:
	.long	.LBB25_104-.LJTI25_2
	.long	.LBB25_109-.LJTI25_2
	.long	.LBB25_108-.LJTI25_2
	.long	.LBB25_128-.LJTI25_2
	.long	.LBB25_128-.LJTI25_2
	.long	.LBB25_128-.LJTI25_2
	.long	.LBB25_128-.LJTI25_2
	.long	.LBB25_110-.LJTI25_2
                                        # -- End function
	.section	".text.program::plan_order","ax",@progbits
	.p2align	4                               # -- Begin function program::plan_order
	.type	"program::plan_order",@function
"program::plan_order":                  # @"program::plan_order"
	.cfi_startproc
# %bb.0:                                # %start
	pushq	%rbp
	.cfi_def_cfa_offset 16
	pushq	%r15
	.cfi_def_cfa_offset 24
	pushq	%r14
	.cfi_def_cfa_offset 32
	pushq	%r13
	.cfi_def_cfa_offset 40
	pushq	%r12
	.cfi_def_cfa_offset 48
	pushq	%rbx
	.cfi_def_cfa_offset 56
	movq	%rsp, %r11
	subq	$73728, %r11                    # imm = 0x12000
	.cfi_def_cfa_register %r11
	.cfi_adjust_cfa_offset 73728
.LBB26_1:                               # %start
                                        # =>This Inner Loop Header: Depth=1
	subq	$3072, %rsp                     # imm = 0xC00
	movq	$0, (%rsp)
	cmpq	%r11, %rsp
	jne	.LBB26_1
# %bb.2:                                # %start
	subq	$136, %rsp
	.cfi_def_cfa_register %rsp
	.cfi_def_cfa_offset 73920
	.cfi_offset %rbx, -56
	.cfi_offset %r12, -48
	.cfi_offset %r13, -40
	.cfi_offset %r14, -32
	.cfi_offset %r15, -24
	.cfi_offset %rbp, -16
	movq	%rdi, %rbx
	movq	73920(%rsp), %rax
	movq	(%rdx), %r14
	movq	8(%rdx), %rbp
	movq	16(%rdx), %r12
	testl	%esi, %esi
	je	.LBB26_7
# %bb.3:                                # %repeat.4.preheader
	movq	%rbx, 96(%rsp)                  # 8-byte Spill
	movq	%r9, 120(%rsp)                  # 8-byte Spill
	movq	%rcx, %r13
	leaq	8328(%rsp), %r15
	movl	$65536, %edx                    # imm = 0x10000
	movq	%r15, %rdi
	xorl	%esi, %esi
	movq	%r8, %rbx
	callq	memset@PLT
	xorps	%xmm0, %xmm0
	movaps	%xmm0, 128(%rsp)
	movq	$0, 144(%rsp)
	movq	%r15, 16(%rsp)
	movq	%r13, %r15
	movq	%rbp, %r13
	movq	%r14, %rbp
	movq	120(%rsp), %r14                 # 8-byte Reload
	movq	%r12, 8(%rsp)
	movq	%r14, (%rsp)
	movq	$8192, 24(%rsp)                 # imm = 0x2000
	leaq	128(%rsp), %rdi
	movq	%rbp, %rsi
	movq	%r15, %rdx
	movq	%r13, %rcx
	movq	%rbx, 112(%rsp)                 # 8-byte Spill
	movq	%rbx, %r8
	movq	%r12, %r9
	callq	"planner::plan_counted"
	cmpb	$0, 128(%rsp)
	je	.LBB26_4
# %bb.5:                                # %arm.2.i18
	movzbl	136(%rsp), %ecx
	movzwl	138(%rsp), %edx
	movl	140(%rsp), %esi
	movq	144(%rsp), %rax
	xorps	%xmm0, %xmm0
	movaps	%xmm0, 64(%rsp)
	movq	$0, 80(%rsp)
	movw	%cx, 72(%rsp)
	movw	%dx, 74(%rsp)
	movl	%esi, 76(%rsp)
	movl	$1, %ecx
	jmp	.LBB26_6
.LBB26_7:                               # %join.3
	xorps	%xmm0, %xmm0
	movaps	%xmm0, 128(%rsp)
	movq	$0, 144(%rsp)
	movq	%rax, 16(%rsp)
	movq	%r12, 8(%rsp)
	movq	%r9, (%rsp)
	movq	$8192, 24(%rsp)                 # imm = 0x2000
	leaq	128(%rsp), %rdi
	movq	%r14, %rsi
	movq	%rcx, %rdx
	movq	%rbp, %rcx
	movq	%r12, %r9
	callq	"planner::plan_counted"
	movzbl	128(%rsp), %eax
	testq	%rax, %rax
	je	.LBB26_8
# %bb.9:                                # %arm.2.i23
	movzbl	136(%rsp), %ecx
	movzwl	138(%rsp), %edx
	movl	140(%rsp), %edi
	movl	$255, %r8d
	movq	144(%rsp), %rsi
	jmp	.LBB26_10
.LBB26_4:                               # %arm.1.i19
	movq	136(%rsp), %rax
	movq	%rax, 104(%rsp)                 # 8-byte Spill
	xorps	%xmm0, %xmm0
	movaps	%xmm0, 64(%rsp)
	movq	$0, 80(%rsp)
	movl	$8192, %edx                     # imm = 0x2000
	leaq	128(%rsp), %rbx
	movq	%rbx, %rdi
	xorl	%esi, %esi
	callq	memset@PLT
	movq	73920(%rsp), %rax
	movq	%rax, 48(%rsp)
	movq	104(%rsp), %rax                 # 8-byte Reload
	movq	%rax, 40(%rsp)
	movq	%rbx, 32(%rsp)
	movq	%rax, 24(%rsp)
	leaq	8328(%rsp), %rax
	movq	%rax, 16(%rsp)
	movq	%r12, 8(%rsp)
	movq	%r14, (%rsp)
	movq	$8192, 56(%rsp)                 # imm = 0x2000
	leaq	64(%rsp), %rdi
	movq	%rbp, %rsi
	movq	%r15, %rdx
	movq	%r13, %rcx
	movq	112(%rsp), %r8                  # 8-byte Reload
	movq	%r12, %r9
	callq	"shorten::shorten"
	movzbl	64(%rsp), %ecx
	movq	80(%rsp), %rax
.LBB26_6:                               # %"program::shorten_planned.exit"
	movq	96(%rsp), %rsi                  # 8-byte Reload
	movq	72(%rsp), %rdx
	movq	%rcx, (%rsi)
	movq	%rdx, 8(%rsi)
	movq	%rax, 16(%rsi)
	jmp	.LBB26_11
.LBB26_8:                               # %arm.1.i46
	movq	136(%rsp), %rcx
	movl	%ecx, %edx
	shrl	$16, %edx
	movq	%rcx, %rdi
	shrq	$32, %rdi
	movl	$65535, %r8d                    # imm = 0xFFFF
	xorl	%esi, %esi
.LBB26_10:                              # %"planner::plan.exit52"
	shlq	$32, %rdi
	shll	$16, %edx
	orq	%rdi, %rdx
	andl	%r8d, %ecx
	orq	%rdx, %rcx
	movq	%rax, (%rbx)
	movq	%rcx, 8(%rbx)
	movq	%rsi, 16(%rbx)
.LBB26_11:                              # %common.ret
	addq	$73864, %rsp                    # imm = 0x12088
	.cfi_def_cfa_offset 56
	popq	%rbx
	.cfi_def_cfa_offset 48
	popq	%r12
	.cfi_def_cfa_offset 40
	popq	%r13
	.cfi_def_cfa_offset 32
	popq	%r14
	.cfi_def_cfa_offset 24
	popq	%r15
	.cfi_def_cfa_offset 16
	popq	%rbp
	.cfi_def_cfa_offset 8
	retq
.Lfunc_end26:
	.size	"program::plan_order", .Lfunc_end26-"program::plan_order"
	.cfi_endproc
                                        # -- End function
	.section	.rodata.cst16,"aM",@progbits,16
	.p2align	4, 0x0                          # -- Begin function shorten::shorten
.LCPI27_0:
	.zero	16,2
.LCPI27_1:
	.byte	1                               # 0x1
	.byte	1                               # 0x1
	.byte	1                               # 0x1
	.byte	1                               # 0x1
	.byte	1                               # 0x1
	.byte	1                               # 0x1
	.byte	1                               # 0x1
	.byte	1                               # 0x1
	.zero	1
	.zero	1
	.zero	1
	.zero	1
	.zero	1
	.zero	1
	.zero	1
	.zero	1
.LCPI27_2:
	.zero	16,1
	.section	".text.shorten::shorten","ax",@progbits
	.p2align	4
	.type	"shorten::shorten",@function
"shorten::shorten":                     # @"shorten::shorten"
	.cfi_startproc
# %bb.0:                                # %start
	pushq	%r15
	.cfi_def_cfa_offset 16
	pushq	%r14
	.cfi_def_cfa_offset 24
	pushq	%rbx
	.cfi_def_cfa_offset 32
	subq	$576, %rsp                      # imm = 0x240
	.cfi_def_cfa_offset 608
	.cfi_offset %rbx, -32
	.cfi_offset %r14, -24
	.cfi_offset %r15, -16
	movq	%rdi, %rbx
	movq	632(%rsp), %r15
	movq	624(%rsp), %r14
	movdqa	608(%rsp), %xmm0
	pxor	%xmm1, %xmm1
	movdqa	%xmm1, 32(%rsp)
	movq	$0, 48(%rsp)
	movq	%r15, 24(%rsp)
	movq	%r14, 16(%rsp)
	movdqu	%xmm0, (%rsp)
	leaq	32(%rsp), %rdi
	callq	"checker::check"
	cmpb	$1, 32(%rsp)
	jne	.LBB27_2
# %bb.1:                                # %arm.1
	movzbl	40(%rsp), %eax
	movq	48(%rsp), %rcx
	movl	44(%rsp), %edx
	movzwl	42(%rsp), %esi
	movq	$1, (%rbx)
	shlq	$32, %rdx
	shll	$16, %esi
	orq	%rax, %rsi
	orq	%rdx, %rsi
	movq	%rsi, 8(%rbx)
	movq	%rcx, 16(%rbx)
	jmp	.LBB27_55
.LBB27_2:                               # %join.4
	movq	648(%rsp), %rdx
	cmpq	%r15, %rdx
	jne	.LBB27_50
# %bb.3:                                # %then.1.i
	movq	664(%rsp), %r8
	movq	656(%rsp), %rcx
	testq	%rdx, %rdx
	je	.LBB27_35
# %bb.4:                                # %iter.check
	movq	640(%rsp), %rax
	cmpq	$4, %rdx
	jae	.LBB27_7
# %bb.5:
	xorl	%edi, %edi
	xorl	%esi, %esi
	jmp	.LBB27_6
.LBB27_7:                               # %vector.main.loop.iter.check
	cmpq	$32, %rdx
	jae	.LBB27_9
# %bb.8:
	xorl	%esi, %esi
	xorl	%edi, %edi
	jmp	.LBB27_13
.LBB27_9:                               # %vector.ph
	movq	%rdx, %rsi
	andq	$-32, %rsi
	pxor	%xmm1, %xmm1
	xorl	%edi, %edi
	pxor	%xmm2, %xmm2
	pxor	%xmm0, %xmm0
	.p2align	4
.LBB27_10:                              # %vector.body
                                        # =>This Inner Loop Header: Depth=1
	movdqu	(%rax,%rdi), %xmm3
	movdqu	16(%rax,%rdi), %xmm4
	pcmpeqb	%xmm1, %xmm3
	pcmpeqd	%xmm5, %xmm5
	pxor	%xmm5, %xmm3
	por	%xmm3, %xmm2
	pcmpeqb	%xmm1, %xmm4
	pxor	%xmm5, %xmm4
	por	%xmm4, %xmm0
	addq	$32, %rdi
	cmpq	%rdi, %rsi
	jne	.LBB27_10
# %bb.11:                               # %middle.block
	por	%xmm2, %xmm0
	psllw	$7, %xmm0
	pmovmskb	%xmm0, %edi
	testl	%edi, %edi
	setne	%dil
	cmpq	%rsi, %rdx
	je	.LBB27_17
# %bb.12:                               # %vec.epilog.iter.check
	testb	$28, %dl
	je	.LBB27_6
.LBB27_13:                              # %vec.epilog.ph
	movq	%rsi, %r9
	movq	%rdx, %rsi
	andq	$-4, %rsi
	movzbl	%dil, %edi
	movd	%edi, %xmm0
	.p2align	4
.LBB27_14:                              # %vec.epilog.vector.body
                                        # =>This Inner Loop Header: Depth=1
	movd	(%rax,%r9), %xmm1               # xmm1 = mem[0],zero,zero,zero
	punpcklbw	%xmm1, %xmm1            # xmm1 = xmm1[0,0,1,1,2,2,3,3,4,4,5,5,6,6,7,7]
	punpcklwd	%xmm1, %xmm1            # xmm1 = xmm1[0,0,1,1,2,2,3,3]
	pxor	%xmm2, %xmm2
	pcmpeqb	%xmm1, %xmm2
	pcmpeqd	%xmm1, %xmm1
	pxor	%xmm2, %xmm1
	por	%xmm1, %xmm0
	addq	$4, %r9
	cmpq	%r9, %rsi
	jne	.LBB27_14
# %bb.15:                               # %vec.epilog.middle.block
	pslld	$31, %xmm0
	movmskps	%xmm0, %edi
	testl	%edi, %edi
	setne	%dil
	jmp	.LBB27_16
.LBB27_6:                               # %join.6.i.i
	cmpb	$0, (%rax,%rsi)
	setne	%r9b
	orb	%r9b, %dil
	incq	%rsi
.LBB27_16:                              # %join.6.i.i
	cmpq	%rsi, %rdx
	jne	.LBB27_6
.LBB27_17:                              # %"begun::is_fresh.exit"
	testb	$1, %dil
	je	.LBB27_34
# %bb.18:                               # %iter.check122
	cmpq	$8, %rdx
	jae	.LBB27_21
# %bb.19:
	xorl	%esi, %esi
	xorl	%ecx, %ecx
	jmp	.LBB27_20
.LBB27_34:                              # %then.5
	pxor	%xmm0, %xmm0
	movdqa	%xmm0, 64(%rsp)
	movq	$0, 80(%rsp)
	cmpq	$4096, %rdx                     # imm = 0x1000
	ja	.LBB27_36
.LBB27_35:                              # %then.1.i8
	leaq	64(%rsp), %rdi
	movq	%r14, %rsi
	callq	"shorten::shorten_within::<=4096,=64,=20480>"
.LBB27_41:                              # %"shorten::shorten_checked.exit"
	movdqu	72(%rsp), %xmm0
	movzbl	64(%rsp), %eax
	movq	%rax, (%rbx)
	movdqu	%xmm0, 8(%rbx)
	jmp	.LBB27_55
.LBB27_21:                              # %vector.main.loop.iter.check124
	cmpq	$32, %rdx
	jae	.LBB27_23
# %bb.22:
	xorl	%ecx, %ecx
	xorl	%esi, %esi
	jmp	.LBB27_27
.LBB27_36:                              # %join.3.i
	leaq	64(%rsp), %rdi
	movq	%r14, %rsi
	cmpq	$16384, %rdx                    # imm = 0x4000
	ja	.LBB27_38
# %bb.37:                               # %then.4.i
	callq	"shorten::shorten_within::<=16384,=256,=81920>"
	jmp	.LBB27_41
.LBB27_23:                              # %vector.ph125
	movq	%rdx, %rcx
	andq	$-32, %rcx
	pxor	%xmm0, %xmm0
	xorl	%esi, %esi
	pxor	%xmm1, %xmm1
	.p2align	4
.LBB27_24:                              # %vector.body128
                                        # =>This Inner Loop Header: Depth=1
	movdqu	(%rax,%rsi), %xmm2
	movdqu	16(%rax,%rsi), %xmm3
	movdqa	.LCPI27_0(%rip), %xmm4          # xmm4 = [2,2,2,2,2,2,2,2,2,2,2,2,2,2,2,2]
	movdqa	%xmm2, %xmm5
	pmaxub	%xmm4, %xmm5
	pcmpeqb	%xmm2, %xmm5
	por	%xmm5, %xmm1
	pmaxub	%xmm3, %xmm4
	pcmpeqb	%xmm3, %xmm4
	por	%xmm4, %xmm0
	addq	$32, %rsi
	cmpq	%rsi, %rcx
	jne	.LBB27_24
# %bb.25:                               # %middle.block135
	por	%xmm1, %xmm0
	psllw	$7, %xmm0
	pmovmskb	%xmm0, %esi
	testl	%esi, %esi
	setne	%sil
	cmpq	%rcx, %rdx
	je	.LBB27_31
# %bb.26:                               # %vec.epilog.iter.check141
	testb	$24, %dl
	je	.LBB27_20
.LBB27_27:                              # %vec.epilog.ph143
	movq	%rcx, %rdi
	movq	%rdx, %rcx
	andq	$-8, %rcx
	movzbl	%sil, %esi
	movd	%esi, %xmm0
	.p2align	4
.LBB27_28:                              # %vec.epilog.vector.body146
                                        # =>This Inner Loop Header: Depth=1
	movq	(%rax,%rdi), %xmm1              # xmm1 = mem[0],zero
	movdqa	.LCPI27_1(%rip), %xmm2          # xmm2 = [1,1,1,1,1,1,1,1,u,u,u,u,u,u,u,u]
	pminub	%xmm1, %xmm2
	pcmpeqb	%xmm1, %xmm2
	punpcklbw	%xmm2, %xmm2            # xmm2 = xmm2[0,0,1,1,2,2,3,3,4,4,5,5,6,6,7,7]
	pcmpeqd	%xmm1, %xmm1
	pxor	%xmm2, %xmm1
	por	%xmm1, %xmm0
	addq	$8, %rdi
	cmpq	%rdi, %rcx
	jne	.LBB27_28
# %bb.29:                               # %vec.epilog.middle.block151
	psllw	$7, %xmm0
	pmovmskb	%xmm0, %esi
	testl	$21845, %esi                    # imm = 0x5555
	setne	%sil
	jmp	.LBB27_30
.LBB27_38:                              # %join.6.i
	cmpq	$32768, %rdx                    # imm = 0x8000
	ja	.LBB27_40
# %bb.39:                               # %then.7.i
	callq	"shorten::shorten_within::<=32768,=512,=163840>"
	jmp	.LBB27_41
.LBB27_40:                              # %join.9.i
	callq	"shorten::shorten_within::<=65536,=1024,=327680>"
	jmp	.LBB27_41
.LBB27_20:                              # %join.6.i.i12
	cmpb	$2, (%rax,%rcx)
	setae	%dil
	orb	%dil, %sil
	incq	%rcx
.LBB27_30:                              # %join.6.i.i12
	cmpq	%rcx, %rdx
	jne	.LBB27_20
.LBB27_31:                              # %join.3.i21
	testb	$1, %sil
	je	.LBB27_32
.LBB27_50:                              # %then.8
	movq	$1, (%rbx)
	movq	$10, 8(%rbx)
.LBB27_54:                              # %common.ret
	movq	$0, 16(%rbx)
.LBB27_55:                              # %common.ret
	addq	$576, %rsp                      # imm = 0x240
	.cfi_def_cfa_offset 32
	popq	%rbx
	.cfi_def_cfa_offset 24
	popq	%r14
	.cfi_def_cfa_offset 16
	popq	%r15
	.cfi_def_cfa_offset 8
	retq
.LBB27_32:                              # %else.5.i
	.cfi_def_cfa_offset 608
	pxor	%xmm0, %xmm0
	movdqa	%xmm0, 64(%rsp)
	movdqa	%xmm0, 80(%rsp)
	movdqa	%xmm0, 96(%rsp)
	movdqa	%xmm0, 112(%rsp)
	movdqa	%xmm0, 128(%rsp)
	movdqa	%xmm0, 144(%rsp)
	movdqa	%xmm0, 160(%rsp)
	movdqa	%xmm0, 176(%rsp)
	movdqa	%xmm0, 192(%rsp)
	movdqa	%xmm0, 208(%rsp)
	movdqa	%xmm0, 224(%rsp)
	movdqa	%xmm0, 240(%rsp)
	movdqa	%xmm0, 256(%rsp)
	movdqa	%xmm0, 272(%rsp)
	movdqa	%xmm0, 288(%rsp)
	movdqa	%xmm0, 304(%rsp)
	movdqa	%xmm0, 320(%rsp)
	movdqa	%xmm0, 336(%rsp)
	movdqa	%xmm0, 352(%rsp)
	movdqa	%xmm0, 368(%rsp)
	movdqa	%xmm0, 384(%rsp)
	movdqa	%xmm0, 400(%rsp)
	movdqa	%xmm0, 416(%rsp)
	movdqa	%xmm0, 432(%rsp)
	movdqa	%xmm0, 448(%rsp)
	movdqa	%xmm0, 464(%rsp)
	movdqa	%xmm0, 480(%rsp)
	movdqa	%xmm0, 496(%rsp)
	movdqa	%xmm0, 512(%rsp)
	movdqa	%xmm0, 528(%rsp)
	movdqa	%xmm0, 544(%rsp)
	movdqa	%xmm0, 560(%rsp)
	movq	%rdx, %rsi
	shrq	$6, %rsi
	je	.LBB27_44
# %bb.33:                               # %join.5.i.i.i.preheader
	xorl	%ecx, %ecx
	.p2align	4
.LBB27_43:                              # %join.5.i.i.i
                                        # =>This Inner Loop Header: Depth=1
	movdqu	(%rax,%rcx), %xmm0
	movdqu	16(%rax,%rcx), %xmm1
	movdqu	32(%rax,%rcx), %xmm2
	movdqu	48(%rax,%rcx), %xmm3
	movdqa	.LCPI27_2(%rip), %xmm4          # xmm4 = [1,1,1,1,1,1,1,1,1,1,1,1,1,1,1,1]
	pcmpeqb	%xmm4, %xmm3
	pcmpeqb	%xmm4, %xmm1
	pand	%xmm3, %xmm1
	pcmpeqb	%xmm4, %xmm2
	pcmpeqb	%xmm4, %xmm0
	pand	%xmm2, %xmm0
	pand	%xmm1, %xmm0
	pmovmskb	%xmm0, %edi
	xorl	$65535, %edi                    # imm = 0xFFFF
	jne	.LBB27_45
# %bb.42:                               # %loop.2.i.i.i
                                        #   in Loop: Header=BB27_43 Depth=1
	addq	$64, %rcx
	decq	%rsi
	jne	.LBB27_43
.LBB27_44:                              # %after.1.i.i.i
	movq	%rdx, %rcx
	andq	$-64, %rcx
.LBB27_45:                              # %"mark_order::done_to.exit.i.i"
	cmpq	%rdx, %rcx
	jb	.LBB27_46
.LBB27_53:                              # %join.10
	movq	$1, (%rbx)
	movq	$20, 8(%rbx)
	jmp	.LBB27_54
.LBB27_51:                              # %else.7.i.i
                                        #   in Loop: Header=BB27_46 Depth=1
	movb	$1, 64(%rsp,%r8)
	movb	$1, 320(%rsp,%rdi)
	movb	$1, 320(%rsp,%rsi)
.LBB27_52:                              # %join.8.i.i
                                        #   in Loop: Header=BB27_46 Depth=1
	incq	%rcx
	cmpq	%rcx, %rdx
	je	.LBB27_53
.LBB27_46:                              # %join.5.i.i
                                        # =>This Inner Loop Header: Depth=1
	movq	(%r14,%rcx,8), %r8
	movl	%r8d, %edi
	movzwl	%r8w, %esi
	shrq	$32, %r8
	shrl	$16, %edi
	cmpb	$1, (%rax,%rcx)
	jne	.LBB27_51
# %bb.47:                               # %then.6.i.i
                                        #   in Loop: Header=BB27_46 Depth=1
	cmpb	$1, 64(%rsp,%r8)
	je	.LBB27_50
# %bb.48:                               # %join.3.i.i.i
                                        #   in Loop: Header=BB27_46 Depth=1
	cmpb	$1, 320(%rsp,%rdi)
	je	.LBB27_50
# %bb.49:                               # %"mark_order::touched.exit.i.i"
                                        #   in Loop: Header=BB27_46 Depth=1
	cmpb	$1, 320(%rsp,%rsi)
	jne	.LBB27_52
	jmp	.LBB27_50
.Lfunc_end27:
	.size	"shorten::shorten", .Lfunc_end27-"shorten::shorten"
	.cfi_endproc
                                        # -- End function
	.section	".text.shorten::shorten_within::<=4096,=64,=20480>","ax",@progbits
	.p2align	4                               # -- Begin function shorten::shorten_within::<=4096,=64,=20480>
	.type	"shorten::shorten_within::<=4096,=64,=20480>",@function
"shorten::shorten_within::<=4096,=64,=20480>": # @"shorten::shorten_within::<=4096,=64,=20480>"
	.cfi_startproc
# %bb.0:                                # %start
	pushq	%rbp
	.cfi_def_cfa_offset 16
	pushq	%r15
	.cfi_def_cfa_offset 24
	pushq	%r14
	.cfi_def_cfa_offset 32
	pushq	%r13
	.cfi_def_cfa_offset 40
	pushq	%r12
	.cfi_def_cfa_offset 48
	pushq	%rbx
	.cfi_def_cfa_offset 56
	movq	%rsp, %r11
	subq	$43008, %r11                    # imm = 0xA800
	.cfi_def_cfa_register %r11
	.cfi_adjust_cfa_offset 43008
.LBB28_1:                               # %start
                                        # =>This Inner Loop Header: Depth=1
	subq	$3072, %rsp                     # imm = 0xC00
	movq	$0, (%rsp)
	cmpq	%r11, %rsp
	jne	.LBB28_1
# %bb.2:                                # %start
	subq	$2616, %rsp                     # imm = 0xA38
	.cfi_def_cfa_register %rsp
	.cfi_def_cfa_offset 45680
	.cfi_offset %rbx, -56
	.cfi_offset %r12, -48
	.cfi_offset %r13, -40
	.cfi_offset %r14, -32
	.cfi_offset %r15, -24
	.cfi_offset %rbp, -16
	movq	%r8, %r13
	movq	%rcx, %r12
	movq	%rdx, %r14
	movq	%rsi, %r15
	movq	%rdi, %rbx
	xorps	%xmm0, %xmm0
	movaps	%xmm0, 32(%rsp)
	movq	$0, 48(%rsp)
	leaq	568(%rsp), %rdi
	movl	$4096, %edx                     # imm = 0x1000
	xorl	%esi, %esi
	callq	memset@PLT
	leaq	56(%rsp), %rdi
	movl	$512, %edx                      # imm = 0x200
	xorl	%esi, %esi
	callq	memset@PLT
	leaq	4664(%rsp), %rbp
	movl	$40960, %edx                    # imm = 0xA000
	movq	%rbp, %rdi
	xorl	%esi, %esi
	callq	memset@PLT
	movq	%r13, 24(%rsp)
	movq	%r12, 16(%rsp)
	movq	%rbp, 8(%rsp)
	movq	$64, (%rsp)
	leaq	32(%rsp), %rdi
	movq	%r15, %rsi
	movq	%r14, %rdx
	leaq	568(%rsp), %rcx
	movq	%r14, %r8
	leaq	56(%rsp), %r9
	callq	"shorten::shorten_in"
	movzbl	32(%rsp), %eax
	movq	%rax, (%rbx)
	movups	40(%rsp), %xmm0
	movups	%xmm0, 8(%rbx)
	addq	$45624, %rsp                    # imm = 0xB238
	.cfi_def_cfa_offset 56
	popq	%rbx
	.cfi_def_cfa_offset 48
	popq	%r12
	.cfi_def_cfa_offset 40
	popq	%r13
	.cfi_def_cfa_offset 32
	popq	%r14
	.cfi_def_cfa_offset 24
	popq	%r15
	.cfi_def_cfa_offset 16
	popq	%rbp
	.cfi_def_cfa_offset 8
	retq
.Lfunc_end28:
	.size	"shorten::shorten_within::<=4096,=64,=20480>", .Lfunc_end28-"shorten::shorten_within::<=4096,=64,=20480>"
	.cfi_endproc
                                        # -- End function
	.section	.rodata.cst16,"aM",@progbits,16
	.p2align	4, 0x0                          # -- Begin function shorten::shorten_in
.LCPI29_0:
	.quad	1                               # 0x1
	.quad	1                               # 0x1
	.section	".text.shorten::shorten_in","ax",@progbits
	.p2align	4
	.type	"shorten::shorten_in",@function
"shorten::shorten_in":                  # @"shorten::shorten_in"
	.cfi_startproc
# %bb.0:                                # %start
	pushq	%rbp
	.cfi_def_cfa_offset 16
	pushq	%r15
	.cfi_def_cfa_offset 24
	pushq	%r14
	.cfi_def_cfa_offset 32
	pushq	%r13
	.cfi_def_cfa_offset 40
	pushq	%r12
	.cfi_def_cfa_offset 48
	pushq	%rbx
	.cfi_def_cfa_offset 56
	subq	$3072, %rsp                     # imm = 0xC00
	.cfi_adjust_cfa_offset 3072
	movq	$0, (%rsp)
	subq	$1064, %rsp                     # imm = 0x428
	.cfi_def_cfa_offset 4192
	.cfi_offset %rbx, -56
	.cfi_offset %r12, -48
	.cfi_offset %r13, -40
	.cfi_offset %r14, -32
	.cfi_offset %r15, -24
	.cfi_offset %rbp, -16
	movq	%r9, %r13
	movq	%r8, 24(%rsp)                   # 8-byte Spill
	movq	%rcx, %r14
	movq	%rdx, %rbp
	movq	%rsi, %r15
	movq	%rdi, 8(%rsp)                   # 8-byte Spill
	movq	4200(%rsp), %rbx
	leaq	40(%rsp), %rdi
	xorl	%r12d, %r12d
	movl	$2048, %edx                     # imm = 0x800
	xorl	%esi, %esi
	callq	memset@PLT
	leaq	2088(%rsp), %rdi
	movl	$2048, %edx                     # imm = 0x800
	xorl	%esi, %esi
	callq	memset@PLT
	movq	%rbp, %xmm0
	pshufd	$68, %xmm0, %xmm0               # xmm0 = xmm0[0,1,0,1]
	.p2align	4
.LBB29_1:                               # %vector.body
                                        # =>This Inner Loop Header: Depth=1
	movdqu	%xmm0, 40(%rsp,%r12,8)
	movdqu	%xmm0, 56(%rsp,%r12,8)
	movdqu	%xmm0, 72(%rsp,%r12,8)
	movdqu	%xmm0, 88(%rsp,%r12,8)
	movdqu	%xmm0, 104(%rsp,%r12,8)
	movdqu	%xmm0, 120(%rsp,%r12,8)
	movdqu	%xmm0, 136(%rsp,%r12,8)
	movdqu	%xmm0, 152(%rsp,%r12,8)
	addq	$16, %r12
	cmpq	$256, %r12                      # imm = 0x100
	jne	.LBB29_1
# %bb.2:                                # %vector.ph7
	xorl	%eax, %eax
	.p2align	4
.LBB29_3:                               # %vector.body10
                                        # =>This Inner Loop Header: Depth=1
	movdqu	%xmm0, 2088(%rsp,%rax,8)
	movdqu	%xmm0, 2104(%rsp,%rax,8)
	movdqu	%xmm0, 2120(%rsp,%rax,8)
	movdqu	%xmm0, 2136(%rsp,%rax,8)
	movdqu	%xmm0, 2152(%rsp,%rax,8)
	movdqu	%xmm0, 2168(%rsp,%rax,8)
	movdqu	%xmm0, 2184(%rsp,%rax,8)
	movdqu	%xmm0, 2200(%rsp,%rax,8)
	addq	$16, %rax
	cmpq	$256, %rax                      # imm = 0x100
	jne	.LBB29_3
# %bb.4:                                # %loop.6.preheader.i.i
	movabsq	$2305843009213693944, %r9       # imm = 0x1FFFFFFFFFFFFFF8
	testq	%rbp, %rbp
	movq	4192(%rsp), %r11
	je	.LBB29_14
# %bb.5:                                # %join.9.i.i.preheader
	leaq	-1(%rbp), %rax
	leaq	(,%rbp,4), %rcx
	addq	%rbp, %rcx
	leaq	(%rbx,%rcx,2), %rcx
	addq	$-6, %rcx
	.p2align	4
.LBB29_6:                               # %join.9.i.i
                                        # =>This Inner Loop Header: Depth=1
	movq	(%r15,%rax,8), %rdx
	movl	%edx, %esi
	shrl	$16, %esi
	movl	40(%rsp,%rsi,8), %esi
	decl	%esi
	movw	%si, -4(%rcx)
	movzwl	%dx, %esi
	movl	40(%rsp,%rsi,8), %edi
	decl	%edi
	movw	%di, -2(%rcx)
	shrq	$32, %rdx
	movl	2088(%rsp,%rdx,8), %edi
	decl	%edi
	movw	%di, (%rcx)
	movq	%rax, 40(%rsp,%rsi,8)
	movq	%rax, 2088(%rsp,%rdx,8)
	addq	$-10, %rcx
	addq	$-1, %rax
	jb	.LBB29_6
# %bb.7:                                # %"chains::fill_ahead.exit.i"
	leaq	40(%rsp), %rdi
	movl	$2048, %edx                     # imm = 0x800
	xorl	%esi, %esi
	callq	memset@PLT
	movq	%rbp, %rax
	negq	%rax
	leaq	8(%rbx), %rcx
	movl	$1, %edx
	.p2align	4
.LBB29_8:                               # %join.7.i.i
                                        # =>This Inner Loop Header: Depth=1
	movl	-8(%r15,%rdx,8), %esi
	movzwl	%si, %edi
	movzwl	40(%rsp,%rdi,8), %edi
	movw	%di, -2(%rcx)
	shrl	$16, %esi
	movzwl	40(%rsp,%rsi,8), %edi
	movw	%di, (%rcx)
	movq	%rdx, 40(%rsp,%rsi,8)
	leaq	(%rax,%rdx), %rsi
	incq	%rsi
	incq	%rdx
	addq	$10, %rcx
	cmpq	$1, %rsi
	jne	.LBB29_8
# %bb.9:                                # %"chains::fill.exit"
	xorl	%ecx, %ecx
	movq	%rbx, %rax
	movq	4192(%rsp), %r11
	movabsq	$2305843009213693944, %r9       # imm = 0x1FFFFFFFFFFFFFF8
	jmp	.LBB29_11
	.p2align	4
.LBB29_10:                              # %join.8.i
                                        #   in Loop: Header=BB29_11 Depth=1
	incq	%rcx
	addq	$10, %rax
	cmpq	%rcx, %rbp
	je	.LBB29_14
.LBB29_11:                              # %join.5.i
                                        # =>This Inner Loop Header: Depth=1
	movzwl	(%rax), %edx
	leaq	1(%rdx), %rsi
	cmpq	%rbp, %rsi
	jae	.LBB29_10
# %bb.12:                               # %"setting_out::comes_back.exit.i"
                                        #   in Loop: Header=BB29_11 Depth=1
	movq	8(%r15,%rdx,8), %rdx
	xorq	(%r15,%rcx,8), %rdx
	shrq	$32, %rdx
	jne	.LBB29_10
# %bb.13:                               # %then.6.i
                                        #   in Loop: Header=BB29_11 Depth=1
	movl	$1, %edx
	shlq	%cl, %rdx
	movq	%rcx, %rsi
	shrq	$3, %rsi
	andq	%r9, %rsi
	orq	%rdx, (%r13,%rsi)
	jmp	.LBB29_10
.LBB29_14:                              # %"setting_out::set_out.exit"
	movq	(%r13), %rsi
	testq	%rsi, %rsi
	je	.LBB29_78
# %bb.15:
	xorl	%ecx, %ecx
.LBB29_16:                              # %then.6.i.i
	rep		bsfq	%rsi, %rax
	orq	%rcx, %rax
.LBB29_17:                              # %"name_sets::next_name.exit.i"
	cmpq	%rbp, %rax
	jae	.LBB29_75
# %bb.18:                               # %join.5.lr.ph.i
	movq	%r11, %r10
	shlq	$6, %r10
	movq	%r10, 16(%rsp)                  # 8-byte Spill
	jmp	.LBB29_22
.LBB29_19:                              #   in Loop: Header=BB29_22 Depth=1
	xorl	%edx, %edx
	.p2align	4
.LBB29_20:                              # %then.6.i11.i
                                        #   in Loop: Header=BB29_22 Depth=1
	shlq	$6, %rdi
	orq	%rdx, %rdi
	rep		bsfq	%rax, %rax
	addq	%rdi, %rax
.LBB29_21:                              # %"name_sets::next_name.exit27.i"
                                        #   in Loop: Header=BB29_22 Depth=1
	cmpq	%rbp, %rax
	jae	.LBB29_75
.LBB29_22:                              # %join.5.i12
                                        # =>This Loop Header: Depth=1
                                        #     Child Loop BB29_24 Depth 2
                                        #     Child Loop BB29_29 Depth 2
                                        #       Child Loop BB29_35 Depth 3
                                        #     Child Loop BB29_60 Depth 2
                                        #       Child Loop BB29_63 Depth 3
                                        #       Child Loop BB29_73 Depth 3
                                        #       Child Loop BB29_69 Depth 3
                                        #     Child Loop BB29_47 Depth 2
                                        #     Child Loop BB29_51 Depth 2
                                        #       Child Loop BB29_55 Depth 3
                                        #     Child Loop BB29_42 Depth 2
	cmpb	$0, (%r14,%rax)
	jne	.LBB29_38
# %bb.23:                               # %join.3.i.i
                                        #   in Loop: Header=BB29_22 Depth=1
	leaq	(%rax,%rax), %rcx
	leaq	(%rcx,%rcx,4), %rdi
	movzwl	(%rbx,%rdi), %ecx
	incq	%rcx
	cmpq	%rbp, %rcx
	jae	.LBB29_26
	.p2align	4
.LBB29_24:                              # %join.5.i.i.i.i.i
                                        #   Parent Loop BB29_22 Depth=1
                                        # =>  This Inner Loop Header: Depth=2
	cmpb	$1, (%r14,%rcx)
	jne	.LBB29_26
# %bb.25:                               # %join.8.i.i.i.i.i
                                        #   in Loop: Header=BB29_24 Depth=2
	leaq	(%rcx,%rcx,4), %rcx
	movzwl	2(%rbx,%rcx,2), %ecx
	incq	%rcx
	cmpq	%rbp, %rcx
	jb	.LBB29_24
.LBB29_26:                              # %"chains::ahead.exit.i.i.i"
                                        #   in Loop: Header=BB29_22 Depth=1
	movq	(%r15,%rax,8), %rdx
	leal	-1(%rcx), %esi
	movw	%si, (%rbx,%rdi)
	cmpq	%rbp, %rcx
	jae	.LBB29_38
# %bb.27:                               # %join.5.i.i.i.preheader
                                        #   in Loop: Header=BB29_22 Depth=1
	movl	%edx, %r9d
	shrl	$16, %r9d
	movq	%rax, %r10
	jmp	.LBB29_29
	.p2align	4
.LBB29_28:                              # %"chains::ahead.exit46.i.i.i"
                                        #   in Loop: Header=BB29_29 Depth=2
	leal	-1(%rcx), %esi
	movw	%si, 2(%rbx,%r8)
	movq	%r10, %r8
	cmpq	%rbp, %rcx
	jae	.LBB29_37
.LBB29_29:                              # %join.5.i.i.i
                                        #   Parent Loop BB29_22 Depth=1
                                        # =>  This Loop Header: Depth=2
                                        #       Child Loop BB29_35 Depth 3
	movq	%r10, %r8
	cmpb	$0, (%r14,%rcx)
	jne	.LBB29_33
# %bb.30:                               # %join.5.i.i.i
                                        #   in Loop: Header=BB29_29 Depth=2
	movq	(%r15,%rcx,8), %rsi
	cmpw	%r9w, %si
	jne	.LBB29_33
# %bb.31:                               # %then.10.i.i.i
                                        #   in Loop: Header=BB29_29 Depth=2
	xorq	%rdx, %rsi
	shrq	$32, %rsi
	movq	%rcx, %r10
	je	.LBB29_34
	jmp	.LBB29_37
	.p2align	4
.LBB29_33:                              #   in Loop: Header=BB29_29 Depth=2
	movq	%r8, %r10
.LBB29_34:                              # %after.6.i.i.i
                                        #   in Loop: Header=BB29_29 Depth=2
	addq	%rcx, %rcx
	leaq	(%rcx,%rcx,4), %r8
	movzwl	2(%rbx,%r8), %ecx
	incq	%rcx
	cmpq	%rbp, %rcx
	jae	.LBB29_28
	.p2align	4
.LBB29_35:                              # %join.5.i.i32.i.i.i
                                        #   Parent Loop BB29_22 Depth=1
                                        #     Parent Loop BB29_29 Depth=2
                                        # =>    This Inner Loop Header: Depth=3
	cmpb	$1, (%r14,%rcx)
	jne	.LBB29_28
# %bb.36:                               # %join.8.i.i37.i.i.i
                                        #   in Loop: Header=BB29_35 Depth=3
	leaq	(%rcx,%rcx,4), %rcx
	movzwl	2(%rbx,%rcx,2), %ecx
	incq	%rcx
	cmpq	%rbp, %rcx
	jb	.LBB29_35
	jmp	.LBB29_28
.LBB29_37:                              # %"returning::last_return.exit.i.i"
                                        #   in Loop: Header=BB29_22 Depth=1
	cmpq	%rax, %r8
	movabsq	$2305843009213693944, %r9       # imm = 0x1FFFFFFFFFFFFFF8
	movq	16(%rsp), %r10                  # 8-byte Reload
	jne	.LBB29_45
	.p2align	4
.LBB29_38:                              # %then.1.i.i
                                        #   in Loop: Header=BB29_22 Depth=1
	movq	$-2, %rdx
	movl	%eax, %ecx
	rolq	%cl, %rdx
	movq	%rax, %rcx
	shrq	$3, %rcx
	andq	%r9, %rcx
	andq	%rdx, (%r13,%rcx)
	incq	%rax
	movq	%rax, %rdx
.LBB29_39:                              # %"dropping::look.exit.i"
                                        #   in Loop: Header=BB29_22 Depth=1
	movq	%rdx, %rdi
	shrq	$6, %rdi
	movq	%r10, %rax
	cmpq	%r11, %rdi
	jae	.LBB29_21
# %bb.40:                               # %join.5.preheader.i.i
                                        #   in Loop: Header=BB29_22 Depth=1
	andl	$63, %edx
	movq	(%r13,%rdi,8), %rax
	movl	%edx, %ecx
	shrq	%cl, %rax
	testq	%rax, %rax
	jne	.LBB29_20
# %bb.41:                               # %join.8.peel.i17.i
                                        #   in Loop: Header=BB29_22 Depth=1
	incq	%rdi
	movq	%r10, %rax
	cmpq	%r11, %rdi
	je	.LBB29_21
	.p2align	4
.LBB29_42:                              # %join.5.i18.i
                                        #   Parent Loop BB29_22 Depth=1
                                        # =>  This Inner Loop Header: Depth=2
	movq	(%r13,%rdi,8), %rax
	testq	%rax, %rax
	jne	.LBB29_19
# %bb.43:                               # %join.8.i24.i
                                        #   in Loop: Header=BB29_42 Depth=2
	incq	%rdi
	cmpq	%rdi, %r11
	jne	.LBB29_42
# %bb.44:                               #   in Loop: Header=BB29_22 Depth=1
	movq	%r10, %rax
	jmp	.LBB29_21
.LBB29_45:                              # %join.6.i.i
                                        #   in Loop: Header=BB29_22 Depth=1
	movl	4(%r15,%rax,8), %r9d
	movq	%rax, %rdx
	jae	.LBB29_58
.LBB29_46:                              # %"dropping::note_leavings.exit.i.i"
                                        #   in Loop: Header=BB29_22 Depth=1
	movzwl	4(%rbx,%rdi), %ecx
	incq	%rcx
	cmpq	%rbp, %rcx
	movq	16(%rsp), %r10                  # 8-byte Reload
	movq	4192(%rsp), %r11
	jae	.LBB29_49
	.p2align	4
.LBB29_47:                              # %join.5.i.i.i.i45.i.i
                                        #   Parent Loop BB29_22 Depth=1
                                        # =>  This Inner Loop Header: Depth=2
	cmpb	$1, (%r14,%rcx)
	jne	.LBB29_49
# %bb.48:                               # %join.8.i.i.i.i50.i.i
                                        #   in Loop: Header=BB29_47 Depth=2
	leaq	(%rcx,%rcx,4), %rcx
	movzwl	4(%rbx,%rcx,2), %ecx
	incq	%rcx
	cmpq	%rbp, %rcx
	jb	.LBB29_47
.LBB29_49:                              # %"dropping::next_own.exit.i35.i.i"
                                        #   in Loop: Header=BB29_22 Depth=1
	leal	-1(%rcx), %esi
	movw	%si, 4(%rbx,%rdi)
	leaq	1(%r8), %rdi
	cmpq	%rcx, %rdi
	cmovbq	%rdi, %rcx
	movb	$1, (%r14,%rax)
	jmp	.LBB29_51
	.p2align	4
.LBB29_50:                              # %"dropping::next_own.exit30.i.i.i"
                                        #   in Loop: Header=BB29_51 Depth=2
	leal	-1(%rcx), %esi
	movw	%si, 4(%rbx,%rax)
	cmpq	%rcx, %rdi
	cmovbq	%rdi, %rcx
.LBB29_51:                              # %"dropping::next_own.exit.i35.i.i"
                                        #   Parent Loop BB29_22 Depth=1
                                        # =>  This Loop Header: Depth=2
                                        #       Child Loop BB29_55 Depth 3
	cmpq	%r8, %rcx
	ja	.LBB29_57
# %bb.52:                               # %join.5.i40.i.i
                                        #   in Loop: Header=BB29_51 Depth=2
	cmpl	4(%r15,%rcx,8), %r9d
	jne	.LBB29_54
# %bb.53:                               # %then.6.i.i.i
                                        #   in Loop: Header=BB29_51 Depth=2
	movb	$1, (%r14,%rcx)
.LBB29_54:                              # %join.8.i.i.i
                                        #   in Loop: Header=BB29_51 Depth=2
	addq	%rcx, %rcx
	leaq	(%rcx,%rcx,4), %rax
	movzwl	4(%rbx,%rax), %ecx
	incq	%rcx
	cmpq	%rbp, %rcx
	jae	.LBB29_50
	.p2align	4
.LBB29_55:                              # %join.5.i.i.i18.i.i.i
                                        #   Parent Loop BB29_22 Depth=1
                                        #     Parent Loop BB29_51 Depth=2
                                        # =>    This Inner Loop Header: Depth=3
	cmpb	$1, (%r14,%rcx)
	jne	.LBB29_50
# %bb.56:                               # %join.8.i.i.i23.i.i.i
                                        #   in Loop: Header=BB29_55 Depth=3
	leaq	(%rcx,%rcx,4), %rcx
	movzwl	4(%rbx,%rcx,2), %ecx
	incq	%rcx
	cmpq	%rbp, %rcx
	jb	.LBB29_55
	jmp	.LBB29_50
.LBB29_57:                              #   in Loop: Header=BB29_22 Depth=1
	movabsq	$2305843009213693944, %r9       # imm = 0x1FFFFFFFFFFFFFF8
	jmp	.LBB29_39
.LBB29_58:                              # %join.5.lr.ph.i.i.i
                                        #   in Loop: Header=BB29_22 Depth=1
	leaq	1(%r8), %r10
	movq	%rax, %r11
	movq	%rax, %rdx
	movq	%rdi, 32(%rsp)                  # 8-byte Spill
	jmp	.LBB29_60
	.p2align	4
.LBB29_59:                              # %"dropping::next_own.exit.i.i.i"
                                        #   in Loop: Header=BB29_60 Depth=2
	leal	-1(%r11), %esi
	movw	%si, 4(%rbx,%rcx)
	cmpq	%r11, %r10
	cmovbq	%r10, %r11
	cmpq	%r8, %r11
	ja	.LBB29_46
.LBB29_60:                              # %join.5.i23.i.i
                                        #   Parent Loop BB29_22 Depth=1
                                        # =>  This Loop Header: Depth=2
                                        #       Child Loop BB29_63 Depth 3
                                        #       Child Loop BB29_73 Depth 3
                                        #       Child Loop BB29_69 Depth 3
	cmpb	$0, (%r14,%r11)
	jne	.LBB29_68
# %bb.61:                               # %join.3.i.i.i.i
                                        #   in Loop: Header=BB29_60 Depth=2
	movq	(%r15,%r11,8), %r12
	movq	%r12, %rcx
	shrq	$32, %rcx
	cmpl	%ecx, %r9d
	jne	.LBB29_68
# %bb.62:                               # %join.6.i.i.i.i
                                        #   in Loop: Header=BB29_60 Depth=2
	leaq	(%r11,%r11), %rcx
	leaq	(%rcx,%rcx,4), %rsi
	movzwl	6(%rbx,%rsi), %ecx
	testw	%cx, %cx
	je	.LBB29_65
	.p2align	4
.LBB29_63:                              # %join.5.i.i.i.i.i.i.i
                                        #   Parent Loop BB29_22 Depth=1
                                        #     Parent Loop BB29_60 Depth=2
                                        # =>    This Inner Loop Header: Depth=3
	movzwl	%cx, %ecx
	cmpb	$1, -1(%r14,%rcx)
	jne	.LBB29_71
# %bb.64:                               # %join.8.i.i.i.i.i.i.i
                                        #   in Loop: Header=BB29_63 Depth=3
	decq	%rcx
	leaq	(%rcx,%rcx,4), %rcx
	movzwl	8(%rbx,%rcx,2), %ecx
	testw	%cx, %cx
	jne	.LBB29_63
.LBB29_65:                              # %"chains::behind.exit.thread.i.i.i.i.i"
                                        #   in Loop: Header=BB29_60 Depth=2
	movw	$0, 6(%rbx,%rsi)
.LBB29_66:                              #   in Loop: Header=BB29_60 Depth=2
	movq	%r11, %rcx
.LBB29_67:                              # %"dropping::last_leaving.exit.i.i.i.i"
                                        #   in Loop: Header=BB29_60 Depth=2
	movl	$1, %esi
	shlq	%cl, %rsi
	movq	%rcx, %r12
	shrq	$3, %r12
	movabsq	$2305843009213693944, %rdi      # imm = 0x1FFFFFFFFFFFFFF8
	andq	%rdi, %r12
	orq	%rsi, (%r13,%r12)
	cmpq	%rdx, %rcx
	cmovbq	%rcx, %rdx
	movq	32(%rsp), %rdi                  # 8-byte Reload
	.p2align	4
.LBB29_68:                              # %"dropping::note_one.exit.i.i.i"
                                        #   in Loop: Header=BB29_60 Depth=2
	addq	%r11, %r11
	leaq	(%r11,%r11,4), %rcx
	movzwl	4(%rbx,%rcx), %r11d
	incq	%r11
	cmpq	%rbp, %r11
	jae	.LBB29_59
	.p2align	4
.LBB29_69:                              # %join.5.i.i.i.i.i.i
                                        #   Parent Loop BB29_22 Depth=1
                                        #     Parent Loop BB29_60 Depth=2
                                        # =>    This Inner Loop Header: Depth=3
	cmpb	$1, (%r14,%r11)
	jne	.LBB29_59
# %bb.70:                               # %join.8.i.i.i.i.i.i
                                        #   in Loop: Header=BB29_69 Depth=3
	leaq	(%r11,%r11,4), %rsi
	movzwl	4(%rbx,%rsi,2), %r11d
	incq	%r11
	cmpq	%rbp, %r11
	jb	.LBB29_69
	jmp	.LBB29_59
.LBB29_71:                              # %join.5.preheader.i.i.i.i.i
                                        #   in Loop: Header=BB29_60 Depth=2
	movw	%cx, 6(%rbx,%rsi)
	decq	%rcx
	jmp	.LBB29_73
	.p2align	4
.LBB29_72:                              # %after.6.i.i.i.i.i
                                        #   in Loop: Header=BB29_73 Depth=3
	addq	$-1, %rcx
	jae	.LBB29_66
.LBB29_73:                              # %join.5.i.i.i27.i.i
                                        #   Parent Loop BB29_22 Depth=1
                                        #     Parent Loop BB29_60 Depth=2
                                        # =>    This Inner Loop Header: Depth=3
	cmpb	$0, (%r14,%rcx)
	jne	.LBB29_72
# %bb.74:                               # %then.7.i.i.i.i.i
                                        #   in Loop: Header=BB29_73 Depth=3
	cmpw	%r12w, 2(%r15,%rcx,8)
	jne	.LBB29_72
	jmp	.LBB29_67
.LBB29_75:                              # %"dropping::drop_trips.exit"
	movq	24(%rsp), %rsi                  # 8-byte Reload
	testq	%rsi, %rsi
	je	.LBB29_81
# %bb.76:                               # %join.6.i.i20.preheader
	cmpq	$4, %rsi
	movq	8(%rsp), %rdi                   # 8-byte Reload
	jae	.LBB29_82
# %bb.77:
	xorl	%ecx, %ecx
	xorl	%eax, %eax
	movq	4208(%rsp), %r8
	jmp	.LBB29_85
.LBB29_78:                              # %join.5.i.i.preheader
	movq	%r11, %rax
	shlq	$6, %rax
	leaq	8(%r13), %rdx
	movl	$64, %ecx
	.p2align	4
.LBB29_79:                              # %join.5.i.i
                                        # =>This Inner Loop Header: Depth=1
	movq	(%rdx), %rsi
	testq	%rsi, %rsi
	jne	.LBB29_16
# %bb.80:                               # %join.8.i.i
                                        #   in Loop: Header=BB29_79 Depth=1
	addq	$64, %rcx
	addq	$8, %rdx
	cmpq	%rcx, %rax
	jne	.LBB29_79
	jmp	.LBB29_17
.LBB29_81:
	xorl	%eax, %eax
	xorl	%edx, %edx
	xorl	%ecx, %ecx
	movq	8(%rsp), %rdi                   # 8-byte Reload
	jmp	.LBB29_93
.LBB29_82:                              # %vector.ph15
	movq	%rsi, %rax
	andq	$-4, %rax
	pxor	%xmm1, %xmm1
	xorl	%ecx, %ecx
	pxor	%xmm2, %xmm2
	pxor	%xmm0, %xmm0
	movq	4208(%rsp), %r8
	.p2align	4
.LBB29_83:                              # %vector.body16
                                        # =>This Inner Loop Header: Depth=1
	movzwl	(%r14,%rcx), %edx
	movd	%edx, %xmm3
	movzwl	2(%r14,%rcx), %edx
	movd	%edx, %xmm4
	pcmpeqb	%xmm1, %xmm3
	punpcklbw	%xmm3, %xmm3            # xmm3 = xmm3[0,0,1,1,2,2,3,3,4,4,5,5,6,6,7,7]
	pshuflw	$212, %xmm3, %xmm3              # xmm3 = xmm3[0,1,1,3,4,5,6,7]
	pshufd	$212, %xmm3, %xmm3              # xmm3 = xmm3[0,1,1,3]
	movdqa	.LCPI29_0(%rip), %xmm5          # xmm5 = [1,1]
	pand	%xmm5, %xmm3
	paddq	%xmm3, %xmm2
	pcmpeqb	%xmm1, %xmm4
	punpcklbw	%xmm4, %xmm4            # xmm4 = xmm4[0,0,1,1,2,2,3,3,4,4,5,5,6,6,7,7]
	pshuflw	$212, %xmm4, %xmm3              # xmm3 = xmm4[0,1,1,3,4,5,6,7]
	pshufd	$212, %xmm3, %xmm3              # xmm3 = xmm3[0,1,1,3]
	pand	%xmm5, %xmm3
	paddq	%xmm3, %xmm0
	addq	$4, %rcx
	cmpq	%rcx, %rax
	jne	.LBB29_83
# %bb.84:                               # %middle.block21
	paddq	%xmm2, %xmm0
	pshufd	$238, %xmm0, %xmm1              # xmm1 = xmm0[2,3,2,3]
	paddq	%xmm0, %xmm1
	movq	%xmm1, %rcx
	jmp	.LBB29_86
.LBB29_85:                              # %join.6.i.i20
	cmpb	$1, (%r14,%rax)
	adcq	$0, %rcx
	incq	%rax
.LBB29_86:                              # %join.6.i.i20
	cmpq	%rax, %rsi
	jne	.LBB29_85
# %bb.87:                               # %"remaining::count_left.exit.i"
	cmpq	%rcx, 4216(%rsp)
	jae	.LBB29_89
# %bb.88:
	movl	$7, %edx
	movl	$1, %eax
	jmp	.LBB29_93
.LBB29_89:                              # %join.3.i
	xorl	%eax, %eax
	xorl	%edx, %edx
	testq	%rcx, %rcx
	je	.LBB29_92
	.p2align	4
.LBB29_90:                              # %join.5.i.i23
                                        # =>This Inner Loop Header: Depth=1
	movq	(%r15,%rdx,8), %rsi
	movq	%rsi, (%r8,%rax,8)
	cmpb	$1, (%r14,%rdx)
	adcq	$0, %rax
	incq	%rdx
	cmpq	%rcx, %rax
	jb	.LBB29_90
# %bb.91:
	xorl	%eax, %eax
	movq	%rcx, %rdx
.LBB29_92:                              # %"remaining::finish.exit"
	xorl	%ecx, %ecx
.LBB29_93:                              # %"remaining::finish.exit"
	movq	%rax, (%rdi)
	movq	%rdx, 8(%rdi)
	movq	%rcx, 16(%rdi)
	addq	$4136, %rsp                     # imm = 0x1028
	.cfi_def_cfa_offset 56
	popq	%rbx
	.cfi_def_cfa_offset 48
	popq	%r12
	.cfi_def_cfa_offset 40
	popq	%r13
	.cfi_def_cfa_offset 32
	popq	%r14
	.cfi_def_cfa_offset 24
	popq	%r15
	.cfi_def_cfa_offset 16
	popq	%rbp
	.cfi_def_cfa_offset 8
	retq
.Lfunc_end29:
	.size	"shorten::shorten_in", .Lfunc_end29-"shorten::shorten_in"
	.cfi_endproc
                                        # -- End function
	.section	".text.shorten::shorten_within::<=16384,=256,=81920>","ax",@progbits
	.p2align	4                               # -- Begin function shorten::shorten_within::<=16384,=256,=81920>
	.type	"shorten::shorten_within::<=16384,=256,=81920>",@function
"shorten::shorten_within::<=16384,=256,=81920>": # @"shorten::shorten_within::<=16384,=256,=81920>"
	.cfi_startproc
# %bb.0:                                # %start
	pushq	%rbp
	.cfi_def_cfa_offset 16
	pushq	%r15
	.cfi_def_cfa_offset 24
	pushq	%r14
	.cfi_def_cfa_offset 32
	pushq	%r13
	.cfi_def_cfa_offset 40
	pushq	%r12
	.cfi_def_cfa_offset 48
	pushq	%rbx
	.cfi_def_cfa_offset 56
	movq	%rsp, %r11
	subq	$181248, %r11                   # imm = 0x2C400
	.cfi_def_cfa_register %r11
	.cfi_adjust_cfa_offset 181248
.LBB30_1:                               # %start
                                        # =>This Inner Loop Header: Depth=1
	subq	$3072, %rsp                     # imm = 0xC00
	movq	$0, (%rsp)
	cmpq	%r11, %rsp
	jne	.LBB30_1
# %bb.2:                                # %start
	subq	$1080, %rsp                     # imm = 0x438
	.cfi_def_cfa_register %rsp
	.cfi_def_cfa_offset 182384
	.cfi_offset %rbx, -56
	.cfi_offset %r12, -48
	.cfi_offset %r13, -40
	.cfi_offset %r14, -32
	.cfi_offset %r15, -24
	.cfi_offset %rbp, -16
	movq	%r8, %r13
	movq	%rcx, %r12
	movq	%rdx, %r14
	movq	%rsi, %r15
	movq	%rdi, %rbx
	xorps	%xmm0, %xmm0
	movaps	%xmm0, 32(%rsp)
	movq	$0, 48(%rsp)
	leaq	2104(%rsp), %rdi
	movl	$16384, %edx                    # imm = 0x4000
	xorl	%esi, %esi
	callq	memset@PLT
	leaq	56(%rsp), %rdi
	movl	$2048, %edx                     # imm = 0x800
	xorl	%esi, %esi
	callq	memset@PLT
	leaq	18488(%rsp), %rbp
	movl	$163840, %edx                   # imm = 0x28000
	movq	%rbp, %rdi
	xorl	%esi, %esi
	callq	memset@PLT
	movq	%r13, 24(%rsp)
	movq	%r12, 16(%rsp)
	movq	%rbp, 8(%rsp)
	movq	$256, (%rsp)                    # imm = 0x100
	leaq	32(%rsp), %rdi
	movq	%r15, %rsi
	movq	%r14, %rdx
	leaq	2104(%rsp), %rcx
	movq	%r14, %r8
	leaq	56(%rsp), %r9
	callq	"shorten::shorten_in"
	movzbl	32(%rsp), %eax
	movq	%rax, (%rbx)
	movups	40(%rsp), %xmm0
	movups	%xmm0, 8(%rbx)
	addq	$182328, %rsp                   # imm = 0x2C838
	.cfi_def_cfa_offset 56
	popq	%rbx
	.cfi_def_cfa_offset 48
	popq	%r12
	.cfi_def_cfa_offset 40
	popq	%r13
	.cfi_def_cfa_offset 32
	popq	%r14
	.cfi_def_cfa_offset 24
	popq	%r15
	.cfi_def_cfa_offset 16
	popq	%rbp
	.cfi_def_cfa_offset 8
	retq
.Lfunc_end30:
	.size	"shorten::shorten_within::<=16384,=256,=81920>", .Lfunc_end30-"shorten::shorten_within::<=16384,=256,=81920>"
	.cfi_endproc
                                        # -- End function
	.section	".text.shorten::shorten_within::<=32768,=512,=163840>","ax",@progbits
	.p2align	4                               # -- Begin function shorten::shorten_within::<=32768,=512,=163840>
	.type	"shorten::shorten_within::<=32768,=512,=163840>",@function
"shorten::shorten_within::<=32768,=512,=163840>": # @"shorten::shorten_within::<=32768,=512,=163840>"
	.cfi_startproc
# %bb.0:                                # %start
	pushq	%rbp
	.cfi_def_cfa_offset 16
	pushq	%r15
	.cfi_def_cfa_offset 24
	pushq	%r14
	.cfi_def_cfa_offset 32
	pushq	%r13
	.cfi_def_cfa_offset 40
	pushq	%r12
	.cfi_def_cfa_offset 48
	pushq	%rbx
	.cfi_def_cfa_offset 56
	movq	%rsp, %r11
	subq	$362496, %r11                   # imm = 0x58800
	.cfi_def_cfa_register %r11
	.cfi_adjust_cfa_offset 362496
.LBB31_1:                               # %start
                                        # =>This Inner Loop Header: Depth=1
	subq	$3072, %rsp                     # imm = 0xC00
	movq	$0, (%rsp)
	cmpq	%r11, %rsp
	jne	.LBB31_1
# %bb.2:                                # %start
	subq	$2104, %rsp                     # imm = 0x838
	.cfi_def_cfa_register %rsp
	.cfi_def_cfa_offset 364656
	.cfi_offset %rbx, -56
	.cfi_offset %r12, -48
	.cfi_offset %r13, -40
	.cfi_offset %r14, -32
	.cfi_offset %r15, -24
	.cfi_offset %rbp, -16
	movq	%r8, %r13
	movq	%rcx, %r12
	movq	%rdx, %r14
	movq	%rsi, %r15
	movq	%rdi, %rbx
	xorps	%xmm0, %xmm0
	movaps	%xmm0, 32(%rsp)
	movq	$0, 48(%rsp)
	leaq	4152(%rsp), %rdi
	movl	$32768, %edx                    # imm = 0x8000
	xorl	%esi, %esi
	callq	memset@PLT
	leaq	56(%rsp), %rdi
	movl	$4096, %edx                     # imm = 0x1000
	xorl	%esi, %esi
	callq	memset@PLT
	leaq	36920(%rsp), %rbp
	movl	$327680, %edx                   # imm = 0x50000
	movq	%rbp, %rdi
	xorl	%esi, %esi
	callq	memset@PLT
	movq	%r13, 24(%rsp)
	movq	%r12, 16(%rsp)
	movq	%rbp, 8(%rsp)
	movq	$512, (%rsp)                    # imm = 0x200
	leaq	32(%rsp), %rdi
	movq	%r15, %rsi
	movq	%r14, %rdx
	leaq	4152(%rsp), %rcx
	movq	%r14, %r8
	leaq	56(%rsp), %r9
	callq	"shorten::shorten_in"
	movzbl	32(%rsp), %eax
	movq	%rax, (%rbx)
	movups	40(%rsp), %xmm0
	movups	%xmm0, 8(%rbx)
	addq	$364600, %rsp                   # imm = 0x59038
	.cfi_def_cfa_offset 56
	popq	%rbx
	.cfi_def_cfa_offset 48
	popq	%r12
	.cfi_def_cfa_offset 40
	popq	%r13
	.cfi_def_cfa_offset 32
	popq	%r14
	.cfi_def_cfa_offset 24
	popq	%r15
	.cfi_def_cfa_offset 16
	popq	%rbp
	.cfi_def_cfa_offset 8
	retq
.Lfunc_end31:
	.size	"shorten::shorten_within::<=32768,=512,=163840>", .Lfunc_end31-"shorten::shorten_within::<=32768,=512,=163840>"
	.cfi_endproc
                                        # -- End function
	.section	".text.shorten::shorten_within::<=65536,=1024,=327680>","ax",@progbits
	.p2align	4                               # -- Begin function shorten::shorten_within::<=65536,=1024,=327680>
	.type	"shorten::shorten_within::<=65536,=1024,=327680>",@function
"shorten::shorten_within::<=65536,=1024,=327680>": # @"shorten::shorten_within::<=65536,=1024,=327680>"
	.cfi_startproc
# %bb.0:                                # %start
	pushq	%rbp
	.cfi_def_cfa_offset 16
	pushq	%r15
	.cfi_def_cfa_offset 24
	pushq	%r14
	.cfi_def_cfa_offset 32
	pushq	%r13
	.cfi_def_cfa_offset 40
	pushq	%r12
	.cfi_def_cfa_offset 48
	pushq	%rbx
	.cfi_def_cfa_offset 56
	movq	%rsp, %r11
	subq	$728064, %r11                   # imm = 0xB1C00
	.cfi_def_cfa_register %r11
	.cfi_adjust_cfa_offset 728064
.LBB32_1:                               # %start
                                        # =>This Inner Loop Header: Depth=1
	subq	$3072, %rsp                     # imm = 0xC00
	movq	$0, (%rsp)
	cmpq	%r11, %rsp
	jne	.LBB32_1
# %bb.2:                                # %start
	subq	$1080, %rsp                     # imm = 0x438
	.cfi_def_cfa_register %rsp
	.cfi_def_cfa_offset 729200
	.cfi_offset %rbx, -56
	.cfi_offset %r12, -48
	.cfi_offset %r13, -40
	.cfi_offset %r14, -32
	.cfi_offset %r15, -24
	.cfi_offset %rbp, -16
	movq	%r8, %r13
	movq	%rcx, %r12
	movq	%rdx, %r14
	movq	%rsi, %r15
	movq	%rdi, %rbx
	xorps	%xmm0, %xmm0
	movaps	%xmm0, 32(%rsp)
	movq	$0, 48(%rsp)
	leaq	8248(%rsp), %rdi
	movl	$65536, %edx                    # imm = 0x10000
	xorl	%esi, %esi
	callq	memset@PLT
	leaq	56(%rsp), %rdi
	movl	$8192, %edx                     # imm = 0x2000
	xorl	%esi, %esi
	callq	memset@PLT
	leaq	73784(%rsp), %rbp
	movl	$655360, %edx                   # imm = 0xA0000
	movq	%rbp, %rdi
	xorl	%esi, %esi
	callq	memset@PLT
	movq	%r13, 24(%rsp)
	movq	%r12, 16(%rsp)
	movq	%rbp, 8(%rsp)
	movq	$1024, (%rsp)                   # imm = 0x400
	leaq	32(%rsp), %rdi
	movq	%r15, %rsi
	movq	%r14, %rdx
	leaq	8248(%rsp), %rcx
	movq	%r14, %r8
	leaq	56(%rsp), %r9
	callq	"shorten::shorten_in"
	movzbl	32(%rsp), %eax
	movq	%rax, (%rbx)
	movups	40(%rsp), %xmm0
	movups	%xmm0, 8(%rbx)
	addq	$729144, %rsp                   # imm = 0xB2038
	.cfi_def_cfa_offset 56
	popq	%rbx
	.cfi_def_cfa_offset 48
	popq	%r12
	.cfi_def_cfa_offset 40
	popq	%r13
	.cfi_def_cfa_offset 32
	popq	%r14
	.cfi_def_cfa_offset 24
	popq	%r15
	.cfi_def_cfa_offset 16
	popq	%rbp
	.cfi_def_cfa_offset 8
	retq
.Lfunc_end32:
	.size	"shorten::shorten_within::<=65536,=1024,=327680>", .Lfunc_end32-"shorten::shorten_within::<=65536,=1024,=327680>"
	.cfi_endproc
                                        # -- End function
	.section	".text.timed::program","ax",@progbits
	.p2align	4                               # -- Begin function timed::program
	.type	"timed::program",@function
"timed::program":                       # @"timed::program"
	.cfi_startproc
# %bb.0:                                # %start
	pushq	%rbp
	.cfi_def_cfa_offset 16
	pushq	%r15
	.cfi_def_cfa_offset 24
	pushq	%r14
	.cfi_def_cfa_offset 32
	pushq	%r13
	.cfi_def_cfa_offset 40
	pushq	%r12
	.cfi_def_cfa_offset 48
	pushq	%rbx
	.cfi_def_cfa_offset 56
	movq	%rsp, %r11
	subq	$64512, %r11                    # imm = 0xFC00
	.cfi_def_cfa_register %r11
	.cfi_adjust_cfa_offset 64512
.LBB33_1:                               # %start
                                        # =>This Inner Loop Header: Depth=1
	subq	$3072, %rsp                     # imm = 0xC00
	movq	$0, (%rsp)
	cmpq	%r11, %rsp
	jne	.LBB33_1
# %bb.2:                                # %start
	subq	$1112, %rsp                     # imm = 0x458
	.cfi_def_cfa_register %rsp
	.cfi_def_cfa_offset 65680
	.cfi_offset %rbx, -56
	.cfi_offset %r12, -48
	.cfi_offset %r13, -40
	.cfi_offset %r14, -32
	.cfi_offset %r15, -24
	.cfi_offset %rbp, -16
	movq	%r9, %rbp
	movl	%r8d, %r13d
	movq	%rcx, %r15
	movq	%rdx, %r14
	movq	%rsi, %r12
	movq	%rdi, %rbx
	xorps	%xmm0, %xmm0
	movaps	%xmm0, 64(%rsp)
	movq	$0, 80(%rsp)
	leaq	88(%rsp), %rdi
	movl	$65536, %edx                    # imm = 0x10000
	xorl	%esi, %esi
	callq	memset@PLT
	leaq	-1(%r12), %rax
	cmpq	$2, %rax
	jae	.LBB33_3
# %bb.7:                                # %join.5
	movzbl	65696(%rsp), %eax
	movzbl	65688(%rsp), %ecx
	movq	65680(%rsp), %rdx
	leaq	88(%rsp), %rsi
	movq	%rsi, 16(%rsp)
	movzbl	%cl, %ecx
	movl	%ecx, 8(%rsp)
	movq	%rdx, (%rsp)
	movzbl	%al, %esi
	movzbl	%r13b, %r8d
	leaq	64(%rsp), %rdi
	movq	%r14, %rdx
	movq	%r15, %rcx
	movq	%rbp, %r9
	callq	"program::answer_for"
	movzbl	64(%rsp), %eax
	movq	%rax, 40(%rsp)
	movups	72(%rsp), %xmm0
	movups	%xmm0, 48(%rsp)
	leaq	40(%rsp), %rsi
	leaq	39(%rsp), %rcx
	movl	$1, %r15d
	movl	$1, %r8d
	movq	%r12, %rdi
	leaq	88(%rsp), %rdx
	jmp	.LBB33_4
.LBB33_3:                               # %then.3
	movq	$1, 40(%rsp)
	movq	$19, 48(%rsp)
	movq	$0, 56(%rsp)
	leaq	40(%rsp), %rsi
	leaq	88(%rsp), %rdx
	leaq	39(%rsp), %rcx
	movl	$1, %r15d
	movl	$1, %r8d
	movq	%r12, %rdi
.LBB33_4:                               # %then.3
	callq	"timed_handing::print_answer"
	movq	%rax, %r14
	movl	$7, %eax
	movq	65712(%rsp), %r8
	cmpq	%r14, %r8
	jb	.LBB33_6
# %bb.5:                                # %join.3.i
	leaq	40(%rsp), %rsi
	leaq	88(%rsp), %rdx
	movq	%r12, %rdi
	movq	65704(%rsp), %rcx
	callq	"timed_handing::print_answer"
	xorl	%r15d, %r15d
	movq	%r14, %rax
	xorl	%r14d, %r14d
.LBB33_6:                               # %"timed_handing::hand.exit"
	movq	%r15, (%rbx)
	movq	%rax, 8(%rbx)
	movq	%r14, 16(%rbx)
	addq	$65624, %rsp                    # imm = 0x10058
	.cfi_def_cfa_offset 56
	popq	%rbx
	.cfi_def_cfa_offset 48
	popq	%r12
	.cfi_def_cfa_offset 40
	popq	%r13
	.cfi_def_cfa_offset 32
	popq	%r14
	.cfi_def_cfa_offset 24
	popq	%r15
	.cfi_def_cfa_offset 16
	popq	%rbp
	.cfi_def_cfa_offset 8
	retq
.Lfunc_end33:
	.size	"timed::program", .Lfunc_end33-"timed::program"
	.cfi_endproc
                                        # -- End function
	.section	".text.timed_handing::print_answer","ax",@progbits
	.p2align	4                               # -- Begin function timed_handing::print_answer
	.type	"timed_handing::print_answer",@function
"timed_handing::print_answer":          # @"timed_handing::print_answer"
	.cfi_startproc
# %bb.0:                                # %start
	pushq	%rbp
	.cfi_def_cfa_offset 16
	pushq	%r15
	.cfi_def_cfa_offset 24
	pushq	%r14
	.cfi_def_cfa_offset 32
	pushq	%r13
	.cfi_def_cfa_offset 40
	pushq	%r12
	.cfi_def_cfa_offset 48
	pushq	%rbx
	.cfi_def_cfa_offset 56
	movq	%rsp, %r11
	subq	$33792, %r11                    # imm = 0x8400
	.cfi_def_cfa_register %r11
	.cfi_adjust_cfa_offset 33792
.LBB34_1:                               # %start
                                        # =>This Inner Loop Header: Depth=1
	subq	$3072, %rsp                     # imm = 0xC00
	movq	$0, (%rsp)
	cmpq	%r11, %rsp
	jne	.LBB34_1
# %bb.2:                                # %start
	subq	$1032, %rsp                     # imm = 0x408
	.cfi_def_cfa_register %rsp
	.cfi_def_cfa_offset 34880
	.cfi_offset %rbx, -56
	.cfi_offset %r12, -48
	.cfi_offset %r13, -40
	.cfi_offset %r14, -32
	.cfi_offset %r15, -24
	.cfi_offset %rbp, -16
	movq	%r8, %r14
	movq	%rcx, %rbx
	movq	8(%rsi), %r15
	cmpb	$0, (%rsi)
	je	.LBB34_3
# %bb.96:                               # %arm.2
	movq	16(%rsi), %r12
	movl	%r15d, %ebp
	movzbl	%r15b, %eax
	leaq	.Lswitch.table.sejjekoru_slots(%rip), %rcx
	movq	(%rcx,%rax,8), %rcx
	testq	%r14, %r14
	je	.LBB34_107
# %bb.97:                               # %"stores::store::<i8,20'core::clone::U8Clone{}>.exit.i.i.i11"
	movb	$59, (%rbx)
	cmpq	$1, %r14
	je	.LBB34_107
# %bb.98:                               # %"stores::store::<i8,20'core::clone::U8Clone{}>.exit.i.i.1.i"
	movb	$32, 1(%rbx)
	cmpq	$3, %r14
	jb	.LBB34_107
# %bb.99:                               # %"stores::store::<i8,20'core::clone::U8Clone{}>.exit.i.i.2.i"
	movb	$114, 2(%rbx)
	je	.LBB34_107
# %bb.100:                              # %"stores::store::<i8,20'core::clone::U8Clone{}>.exit.i.i.3.i"
	movb	$101, 3(%rbx)
	cmpq	$5, %r14
	jb	.LBB34_107
# %bb.101:                              # %"stores::store::<i8,20'core::clone::U8Clone{}>.exit.i.i.4.i"
	movb	$102, 4(%rbx)
	je	.LBB34_107
# %bb.102:                              # %"stores::store::<i8,20'core::clone::U8Clone{}>.exit.i.i.5.i"
	movb	$117, 5(%rbx)
	cmpq	$7, %r14
	jb	.LBB34_107
# %bb.103:                              # %"stores::store::<i8,20'core::clone::U8Clone{}>.exit.i.i.6.i"
	movb	$115, 6(%rbx)
	je	.LBB34_107
# %bb.104:                              # %"stores::store::<i8,20'core::clone::U8Clone{}>.exit.i.i.7.i"
	movb	$101, 7(%rbx)
	cmpq	$9, %r14
	jb	.LBB34_107
# %bb.105:                              # %"stores::store::<i8,20'core::clone::U8Clone{}>.exit.i.i.8.i"
	movb	$100, 8(%rbx)
	je	.LBB34_107
# %bb.106:                              # %then.1.i.i.i.9.i
	movb	$32, 9(%rbx)
.LBB34_107:                             # %"stores::store::<i8,20'core::clone::U8Clone{}>.exit.i.i.9.i"
	movq	%r15, %r13
	shrq	$32, %r13
	shrq	$16, %r15
	movl	$10, %edx
	movq	%rbx, %rdi
	movq	%r14, %rsi
	callq	"put_bytes::put_number"
	movzbl	%bpl, %ecx
	movl	$6353910, %edx                  # imm = 0x60F3F6
	btl	%ecx, %edx
	jae	.LBB34_115
# %bb.108:                              # %then.1.i12
	decl	%ecx
	leaq	.LJTI34_0(%rip), %rdx
	movslq	(%rdx,%rcx,4), %rcx
	addq	%rdx, %rcx
	jmpq	*%rcx
.LBB34_109:
	xorl	%r12d, %r12d
	cmpq	%r14, %rax
	jb	.LBB34_113
	jmp	.LBB34_114
.LBB34_3:                               # %repeat.5.preheader
	movq	%rdx, %r12
	movq	%rdi, %r13
	leaq	2056(%rsp), %rdi
	movl	$32768, %edx                    # imm = 0x8000
	xorl	%esi, %esi
	callq	memset@PLT
	leaq	1032(%rsp), %rdi
	movl	$1024, %edx                     # imm = 0x400
	xorl	%esi, %esi
	cmpq	$2, %r13
	jne	.LBB34_7
# %bb.4:                                # %then.1.i
	callq	memset@PLT
	leaq	8(%rsp), %rdi
	movl	$1024, %edx                     # imm = 0x400
	xorl	%esi, %esi
	callq	memset@PLT
	testq	%r15, %r15
	je	.LBB34_10
# %bb.5:                                # %join.9.i.i.preheader
	movabsq	$17179869180, %rax              # imm = 0x3FFFFFFFC
	xorl	%ecx, %ecx
	.p2align	4
.LBB34_6:                               # %join.9.i.i
                                        # =>This Inner Loop Header: Depth=1
	movq	(%r12,%rcx,8), %rdx
	movq	%rdx, %rsi
	shrq	$30, %rsi
	andq	%rax, %rsi
	movl	1032(%rsp,%rsi), %edi
	incl	%edi
	movzwl	%dx, %r8d
	movl	8(%rsp,%r8,4), %r8d
	cmpl	%edi, %r8d
	cmoval	%r8d, %edi
	movl	%edi, 1032(%rsp,%rsi)
	shrl	$16, %edx
	movl	%edi, 8(%rsp,%rdx,4)
	movl	%edi, 2056(%rsp,%rcx,4)
	incq	%rcx
	cmpq	%rcx, %r15
	jne	.LBB34_6
	jmp	.LBB34_10
.LBB34_7:                               # %join.3.i
	callq	memset@PLT
	leaq	8(%rsp), %rdi
	movl	$1024, %edx                     # imm = 0x400
	xorl	%esi, %esi
	callq	memset@PLT
	testq	%r15, %r15
	je	.LBB34_10
# %bb.8:                                # %join.9.i6.i.preheader
	movabsq	$17179869180, %rax              # imm = 0x3FFFFFFFC
	xorl	%ecx, %ecx
	.p2align	4
.LBB34_9:                               # %join.9.i6.i
                                        # =>This Inner Loop Header: Depth=1
	movq	(%r12,%rcx,8), %rdx
	movl	%edx, %esi
	movzwl	%dx, %edi
	shrq	$30, %rdx
	andq	%rax, %rdx
	movl	1032(%rsp,%rdx), %r8d
	shrl	$16, %esi
	movl	8(%rsp,%rsi,4), %r9d
	movl	8(%rsp,%rdi,4), %r10d
	cmpl	%r9d, %r10d
	cmoval	%r10d, %r9d
	cmpl	%r8d, %r9d
	cmovbel	%r8d, %r9d
	incl	%r9d
	movl	%r9d, 1032(%rsp,%rdx)
	movl	%r9d, 8(%rsp,%rsi,4)
	movl	%r9d, 8(%rsp,%rdi,4)
	movl	%r9d, 2056(%rsp,%rcx,4)
	incq	%rcx
	cmpq	%rcx, %r15
	jne	.LBB34_9
.LBB34_10:                              # %"editions::pass.exit"
	xorl	%edx, %edx
	testq	%r15, %r15
	je	.LBB34_51
# %bb.11:                               # %join.6.i.i.preheader
	xorl	%r13d, %r13d
	jmp	.LBB34_12
	.p2align	4
.LBB34_50:                              # %"timed_line::line.exit.i.i"
                                        #   in Loop: Header=BB34_12 Depth=1
	addq	$6, %rdx
	incq	%r13
	cmpq	%r13, %r15
	je	.LBB34_51
.LBB34_12:                              # %join.6.i.i
                                        # =>This Inner Loop Header: Depth=1
	movl	2056(%rsp,%r13,4), %ecx
	movq	(%r12,%r13,8), %rbp
	cmpl	$1, %ecx
	adcl	$-1, %ecx
	movq	%rbx, %rdi
	movq	%r14, %rsi
	callq	"put_bytes::put_number"
	cmpq	%r14, %rax
	jb	.LBB34_13
# %bb.14:                               # %"stores::store::<i8,20'core::clone::U8Clone{}>.exit.i.i.i.i.i"
                                        #   in Loop: Header=BB34_12 Depth=1
	leaq	1(%rax), %rcx
	cmpq	%r14, %rcx
	jb	.LBB34_15
.LBB34_16:                              # %"stores::store::<i8,20'core::clone::U8Clone{}>.exit.i.i.1.i.i.i"
                                        #   in Loop: Header=BB34_12 Depth=1
	leaq	2(%rax), %rcx
	cmpq	%r14, %rcx
	jb	.LBB34_17
.LBB34_18:                              # %"stores::store::<i8,20'core::clone::U8Clone{}>.exit.i.i.2.i.i.i"
                                        #   in Loop: Header=BB34_12 Depth=1
	leaq	3(%rax), %rcx
	cmpq	%r14, %rcx
	jb	.LBB34_19
.LBB34_20:                              # %"stores::store::<i8,20'core::clone::U8Clone{}>.exit.i.i.3.i.i.i"
                                        #   in Loop: Header=BB34_12 Depth=1
	leaq	4(%rax), %rcx
	cmpq	%r14, %rcx
	jb	.LBB34_21
.LBB34_22:                              # %"stores::store::<i8,20'core::clone::U8Clone{}>.exit.i.i.4.i.i.i"
                                        #   in Loop: Header=BB34_12 Depth=1
	leaq	5(%rax), %rcx
	cmpq	%r14, %rcx
	jb	.LBB34_23
.LBB34_24:                              # %"stores::store::<i8,20'core::clone::U8Clone{}>.exit.i.i.5.i.i.i"
                                        #   in Loop: Header=BB34_12 Depth=1
	leaq	6(%rax), %rcx
	cmpq	%r14, %rcx
	jb	.LBB34_25
.LBB34_26:                              # %"stores::store::<i8,20'core::clone::U8Clone{}>.exit.i.i.6.i.i.i"
                                        #   in Loop: Header=BB34_12 Depth=1
	leaq	7(%rax), %rcx
	cmpq	%r14, %rcx
	jb	.LBB34_27
.LBB34_28:                              # %"stores::store::<i8,20'core::clone::U8Clone{}>.exit.i.i.7.i.i.i"
                                        #   in Loop: Header=BB34_12 Depth=1
	leaq	8(%rax), %rcx
	cmpq	%r14, %rcx
	jae	.LBB34_30
.LBB34_29:                              # %then.1.i.i.i.8.i.i.i
                                        #   in Loop: Header=BB34_12 Depth=1
	movb	$99, (%rbx,%rcx)
.LBB34_30:                              # %"stores::store::<i8,20'core::clone::U8Clone{}>.exit.i.i.8.i.i.i"
                                        #   in Loop: Header=BB34_12 Depth=1
	movq	%rbp, %rcx
	shrq	$32, %rcx
	addq	$9, %rax
	movq	%rbx, %rdi
	movq	%r14, %rsi
	movq	%rax, %rdx
	callq	"put_bytes::put_number"
	cmpq	%r14, %rax
	jae	.LBB34_32
# %bb.31:                               # %then.1.i.i.i17.i.i.i
                                        #   in Loop: Header=BB34_12 Depth=1
	movb	$32, (%rbx,%rax)
.LBB34_32:                              # %"stores::store::<i8,20'core::clone::U8Clone{}>.exit.i.i12.i.i.i"
                                        #   in Loop: Header=BB34_12 Depth=1
	leaq	1(%rax), %rcx
	cmpq	%r14, %rcx
	jae	.LBB34_34
# %bb.33:                               # %then.1.i.i.i17.1.i.i.i
                                        #   in Loop: Header=BB34_12 Depth=1
	movb	$98, (%rbx,%rcx)
.LBB34_34:                              # %"stores::store::<i8,20'core::clone::U8Clone{}>.exit.i.i12.1.i.i.i"
                                        #   in Loop: Header=BB34_12 Depth=1
	movq	%rbp, %rcx
	shrq	$16, %rcx
	movzwl	%cx, %ecx
	addq	$2, %rax
	movq	%rbx, %rdi
	movq	%r14, %rsi
	movq	%rax, %rdx
	callq	"put_bytes::put_number"
	cmpq	%r14, %rax
	jae	.LBB34_36
# %bb.35:                               # %then.1.i.i.i31.i.i.i
                                        #   in Loop: Header=BB34_12 Depth=1
	movb	$32, (%rbx,%rax)
.LBB34_36:                              # %"stores::store::<i8,20'core::clone::U8Clone{}>.exit.i.i26.i.i.i"
                                        #   in Loop: Header=BB34_12 Depth=1
	leaq	1(%rax), %rcx
	cmpq	%r14, %rcx
	jae	.LBB34_38
# %bb.37:                               # %then.1.i.i.i31.1.i.i.i
                                        #   in Loop: Header=BB34_12 Depth=1
	movb	$98, (%rbx,%rcx)
.LBB34_38:                              # %"stores::store::<i8,20'core::clone::U8Clone{}>.exit.i.i26.1.i.i.i"
                                        #   in Loop: Header=BB34_12 Depth=1
	movzwl	%bp, %ecx
	addq	$2, %rax
	movq	%rbx, %rdi
	movq	%r14, %rsi
	movq	%rax, %rdx
	callq	"put_bytes::put_number"
	movq	%rax, %rdx
	cmpq	%r14, %rax
	jb	.LBB34_39
# %bb.40:                               # %"stores::store::<i8,20'core::clone::U8Clone{}>.exit.i.i.i.i"
                                        #   in Loop: Header=BB34_12 Depth=1
	leaq	1(%rdx), %rax
	cmpq	%r14, %rax
	jb	.LBB34_41
.LBB34_42:                              # %"stores::store::<i8,20'core::clone::U8Clone{}>.exit.i.1.i.i.i"
                                        #   in Loop: Header=BB34_12 Depth=1
	leaq	2(%rdx), %rax
	cmpq	%r14, %rax
	jb	.LBB34_43
.LBB34_44:                              # %"stores::store::<i8,20'core::clone::U8Clone{}>.exit.i.2.i.i.i"
                                        #   in Loop: Header=BB34_12 Depth=1
	leaq	3(%rdx), %rax
	cmpq	%r14, %rax
	jb	.LBB34_45
.LBB34_46:                              # %"stores::store::<i8,20'core::clone::U8Clone{}>.exit.i.3.i.i.i"
                                        #   in Loop: Header=BB34_12 Depth=1
	leaq	4(%rdx), %rax
	cmpq	%r14, %rax
	jb	.LBB34_47
.LBB34_48:                              # %"stores::store::<i8,20'core::clone::U8Clone{}>.exit.i.4.i.i.i"
                                        #   in Loop: Header=BB34_12 Depth=1
	leaq	5(%rdx), %rax
	cmpq	%r14, %rax
	jae	.LBB34_50
	jmp	.LBB34_49
	.p2align	4
.LBB34_13:                              # %then.1.i.i.i.i.i.i
                                        #   in Loop: Header=BB34_12 Depth=1
	movb	$58, (%rbx,%rax)
	leaq	1(%rax), %rcx
	cmpq	%r14, %rcx
	jae	.LBB34_16
.LBB34_15:                              # %then.1.i.i.i.1.i.i.i
                                        #   in Loop: Header=BB34_12 Depth=1
	movb	$32, (%rbx,%rcx)
	leaq	2(%rax), %rcx
	cmpq	%r14, %rcx
	jae	.LBB34_18
.LBB34_17:                              # %then.1.i.i.i.2.i.i.i
                                        #   in Loop: Header=BB34_12 Depth=1
	movb	$40, (%rbx,%rcx)
	leaq	3(%rax), %rcx
	cmpq	%r14, %rcx
	jae	.LBB34_20
.LBB34_19:                              # %then.1.i.i.i.3.i.i.i
                                        #   in Loop: Header=BB34_12 Depth=1
	movb	$109, (%rbx,%rcx)
	leaq	4(%rax), %rcx
	cmpq	%r14, %rcx
	jae	.LBB34_22
.LBB34_21:                              # %then.1.i.i.i.4.i.i.i
                                        #   in Loop: Header=BB34_12 Depth=1
	movb	$111, (%rbx,%rcx)
	leaq	5(%rax), %rcx
	cmpq	%r14, %rcx
	jae	.LBB34_24
.LBB34_23:                              # %then.1.i.i.i.5.i.i.i
                                        #   in Loop: Header=BB34_12 Depth=1
	movb	$118, (%rbx,%rcx)
	leaq	6(%rax), %rcx
	cmpq	%r14, %rcx
	jae	.LBB34_26
.LBB34_25:                              # %then.1.i.i.i.6.i.i.i
                                        #   in Loop: Header=BB34_12 Depth=1
	movb	$101, (%rbx,%rcx)
	leaq	7(%rax), %rcx
	cmpq	%r14, %rcx
	jae	.LBB34_28
.LBB34_27:                              # %then.1.i.i.i.7.i.i.i
                                        #   in Loop: Header=BB34_12 Depth=1
	movb	$32, (%rbx,%rcx)
	leaq	8(%rax), %rcx
	cmpq	%r14, %rcx
	jb	.LBB34_29
	jmp	.LBB34_30
	.p2align	4
.LBB34_39:                              # %then.1.i.i.i.i.i
                                        #   in Loop: Header=BB34_12 Depth=1
	movb	$41, (%rbx,%rdx)
	leaq	1(%rdx), %rax
	cmpq	%r14, %rax
	jae	.LBB34_42
.LBB34_41:                              # %then.1.i.i.1.i.i.i
                                        #   in Loop: Header=BB34_12 Depth=1
	movb	$32, (%rbx,%rax)
	leaq	2(%rdx), %rax
	cmpq	%r14, %rax
	jae	.LBB34_44
.LBB34_43:                              # %then.1.i.i.2.i.i.i
                                        #   in Loop: Header=BB34_12 Depth=1
	movb	$91, (%rbx,%rax)
	leaq	3(%rdx), %rax
	cmpq	%r14, %rax
	jae	.LBB34_46
.LBB34_45:                              # %then.1.i.i.3.i.i.i
                                        #   in Loop: Header=BB34_12 Depth=1
	movb	$49, (%rbx,%rax)
	leaq	4(%rdx), %rax
	cmpq	%r14, %rax
	jae	.LBB34_48
.LBB34_47:                              # %then.1.i.i.4.i.i.i
                                        #   in Loop: Header=BB34_12 Depth=1
	movb	$93, (%rbx,%rax)
	leaq	5(%rdx), %rax
	cmpq	%r14, %rax
	jae	.LBB34_50
.LBB34_49:                              # %then.1.i.i.5.i.i.i
                                        #   in Loop: Header=BB34_12 Depth=1
	movb	$10, (%rbx,%rax)
	jmp	.LBB34_50
.LBB34_51:                              # %"timed_print::lines.exit.i"
	cmpq	%r14, %rdx
	jb	.LBB34_52
# %bb.53:                               # %"stores::store::<i8,20'core::clone::U8Clone{}>.exit.i.i.i4.i"
	leaq	1(%rdx), %rax
	cmpq	%r14, %rax
	jb	.LBB34_54
.LBB34_55:                              # %"stores::store::<i8,20'core::clone::U8Clone{}>.exit.i.i.1.i.i"
	leaq	2(%rdx), %rax
	cmpq	%r14, %rax
	jb	.LBB34_56
.LBB34_57:                              # %"stores::store::<i8,20'core::clone::U8Clone{}>.exit.i.i.2.i.i"
	leaq	3(%rdx), %rax
	cmpq	%r14, %rax
	jb	.LBB34_58
.LBB34_59:                              # %"stores::store::<i8,20'core::clone::U8Clone{}>.exit.i.i.3.i.i"
	leaq	4(%rdx), %rax
	cmpq	%r14, %rax
	jb	.LBB34_60
.LBB34_61:                              # %"stores::store::<i8,20'core::clone::U8Clone{}>.exit.i.i.4.i.i"
	leaq	5(%rdx), %rax
	cmpq	%r14, %rax
	jb	.LBB34_62
.LBB34_63:                              # %"stores::store::<i8,20'core::clone::U8Clone{}>.exit.i.i.5.i.i"
	leaq	6(%rdx), %rax
	cmpq	%r14, %rax
	jb	.LBB34_64
.LBB34_65:                              # %"stores::store::<i8,20'core::clone::U8Clone{}>.exit.i.i.6.i.i"
	leaq	7(%rdx), %rax
	cmpq	%r14, %rax
	jb	.LBB34_66
.LBB34_67:                              # %"stores::store::<i8,20'core::clone::U8Clone{}>.exit.i.i.7.i.i"
	leaq	8(%rdx), %rax
	cmpq	%r14, %rax
	jae	.LBB34_69
.LBB34_68:                              # %then.1.i.i.i.8.i.i
	movb	$32, (%rbx,%rax)
.LBB34_69:                              # %"stores::store::<i8,20'core::clone::U8Clone{}>.exit.i.i.8.i.i"
	addq	$9, %rdx
	movq	%rbx, %rdi
	movq	%r14, %rsi
	movq	%r15, %rcx
	callq	"put_bytes::put_number"
	cmpq	%r14, %rax
	jb	.LBB34_70
# %bb.71:                               # %"stores::store::<i8,20'core::clone::U8Clone{}>.exit.i.i.i"
	leaq	1(%rax), %rcx
	cmpq	%r14, %rcx
	jb	.LBB34_72
.LBB34_73:                              # %"stores::store::<i8,20'core::clone::U8Clone{}>.exit.i.1.i.i"
	leaq	2(%rax), %rcx
	cmpq	%r14, %rcx
	jb	.LBB34_74
.LBB34_75:                              # %"stores::store::<i8,20'core::clone::U8Clone{}>.exit.i.2.i.i"
	leaq	3(%rax), %rcx
	cmpq	%r14, %rcx
	jb	.LBB34_76
.LBB34_77:                              # %"stores::store::<i8,20'core::clone::U8Clone{}>.exit.i.3.i.i"
	leaq	4(%rax), %rcx
	cmpq	%r14, %rcx
	jb	.LBB34_78
.LBB34_79:                              # %"stores::store::<i8,20'core::clone::U8Clone{}>.exit.i.4.i.i"
	leaq	5(%rax), %rcx
	cmpq	%r14, %rcx
	jb	.LBB34_80
.LBB34_81:                              # %"stores::store::<i8,20'core::clone::U8Clone{}>.exit.i.5.i.i"
	leaq	6(%rax), %rcx
	cmpq	%r14, %rcx
	jb	.LBB34_82
.LBB34_83:                              # %"stores::store::<i8,20'core::clone::U8Clone{}>.exit.i.6.i.i"
	leaq	7(%rax), %rcx
	cmpq	%r14, %rcx
	jb	.LBB34_84
.LBB34_85:                              # %"stores::store::<i8,20'core::clone::U8Clone{}>.exit.i.7.i.i"
	leaq	8(%rax), %rcx
	cmpq	%r14, %rcx
	jb	.LBB34_86
.LBB34_87:                              # %"stores::store::<i8,20'core::clone::U8Clone{}>.exit.i.8.i.i"
	leaq	9(%rax), %rcx
	cmpq	%r14, %rcx
	jb	.LBB34_88
.LBB34_89:                              # %"stores::store::<i8,20'core::clone::U8Clone{}>.exit.i.9.i.i"
	leaq	10(%rax), %rcx
	cmpq	%r14, %rcx
	jb	.LBB34_90
.LBB34_91:                              # %"stores::store::<i8,20'core::clone::U8Clone{}>.exit.i.10.i.i"
	leaq	11(%rax), %rcx
	cmpq	%r14, %rcx
	jb	.LBB34_92
.LBB34_93:                              # %"stores::store::<i8,20'core::clone::U8Clone{}>.exit.i.11.i.i"
	leaq	12(%rax), %rcx
	cmpq	%r14, %rcx
	jae	.LBB34_95
.LBB34_94:                              # %then.1.i.i.12.i.i
	movb	$10, (%rbx,%rcx)
.LBB34_95:                              # %"timed_print::print.exit"
	addq	$13, %rax
	jmp	.LBB34_118
.LBB34_52:                              # %then.1.i.i.i.i6.i
	movb	$59, (%rbx,%rdx)
	leaq	1(%rdx), %rax
	cmpq	%r14, %rax
	jae	.LBB34_55
.LBB34_54:                              # %then.1.i.i.i.1.i.i
	movb	$32, (%rbx,%rax)
	leaq	2(%rdx), %rax
	cmpq	%r14, %rax
	jae	.LBB34_57
.LBB34_56:                              # %then.1.i.i.i.2.i.i
	movb	$99, (%rbx,%rax)
	leaq	3(%rdx), %rax
	cmpq	%r14, %rax
	jae	.LBB34_59
.LBB34_58:                              # %then.1.i.i.i.3.i.i
	movb	$111, (%rbx,%rax)
	leaq	4(%rdx), %rax
	cmpq	%r14, %rax
	jae	.LBB34_61
.LBB34_60:                              # %then.1.i.i.i.4.i.i
	movb	$115, (%rbx,%rax)
	leaq	5(%rdx), %rax
	cmpq	%r14, %rax
	jae	.LBB34_63
.LBB34_62:                              # %then.1.i.i.i.5.i.i
	movb	$116, (%rbx,%rax)
	leaq	6(%rdx), %rax
	cmpq	%r14, %rax
	jae	.LBB34_65
.LBB34_64:                              # %then.1.i.i.i.6.i.i
	movb	$32, (%rbx,%rax)
	leaq	7(%rdx), %rax
	cmpq	%r14, %rax
	jae	.LBB34_67
.LBB34_66:                              # %then.1.i.i.i.7.i.i
	movb	$61, (%rbx,%rax)
	leaq	8(%rdx), %rax
	cmpq	%r14, %rax
	jb	.LBB34_68
	jmp	.LBB34_69
.LBB34_70:                              # %then.1.i.i.i.i
	movb	$32, (%rbx,%rax)
	leaq	1(%rax), %rcx
	cmpq	%r14, %rcx
	jae	.LBB34_73
.LBB34_72:                              # %then.1.i.i.1.i.i
	movb	$40, (%rbx,%rcx)
	leaq	2(%rax), %rcx
	cmpq	%r14, %rcx
	jae	.LBB34_75
.LBB34_74:                              # %then.1.i.i.2.i.i
	movb	$117, (%rbx,%rcx)
	leaq	3(%rax), %rcx
	cmpq	%r14, %rcx
	jae	.LBB34_77
.LBB34_76:                              # %then.1.i.i.3.i.i
	movb	$110, (%rbx,%rcx)
	leaq	4(%rax), %rcx
	cmpq	%r14, %rcx
	jae	.LBB34_79
.LBB34_78:                              # %then.1.i.i.4.i.i
	movb	$105, (%rbx,%rcx)
	leaq	5(%rax), %rcx
	cmpq	%r14, %rcx
	jae	.LBB34_81
.LBB34_80:                              # %then.1.i.i.5.i.i
	movb	$116, (%rbx,%rcx)
	leaq	6(%rax), %rcx
	cmpq	%r14, %rcx
	jae	.LBB34_83
.LBB34_82:                              # %then.1.i.i.6.i.i
	movb	$32, (%rbx,%rcx)
	leaq	7(%rax), %rcx
	cmpq	%r14, %rcx
	jae	.LBB34_85
.LBB34_84:                              # %then.1.i.i.7.i.i
	movb	$99, (%rbx,%rcx)
	leaq	8(%rax), %rcx
	cmpq	%r14, %rcx
	jae	.LBB34_87
.LBB34_86:                              # %then.1.i.i.8.i.i
	movb	$111, (%rbx,%rcx)
	leaq	9(%rax), %rcx
	cmpq	%r14, %rcx
	jae	.LBB34_89
.LBB34_88:                              # %then.1.i.i.9.i.i
	movb	$115, (%rbx,%rcx)
	leaq	10(%rax), %rcx
	cmpq	%r14, %rcx
	jae	.LBB34_91
.LBB34_90:                              # %then.1.i.i.10.i.i
	movb	$116, (%rbx,%rcx)
	leaq	11(%rax), %rcx
	cmpq	%r14, %rcx
	jae	.LBB34_93
.LBB34_92:                              # %then.1.i.i.11.i.i
	movb	$41, (%rbx,%rcx)
	leaq	12(%rax), %rcx
	cmpq	%r14, %rcx
	jb	.LBB34_94
	jmp	.LBB34_95
.LBB34_111:                             # %arm.5.i.i14.i
	movq	%r13, %r12
.LBB34_112:                             # %"docket::carried.exit.i"
	cmpq	%r14, %rax
	jae	.LBB34_114
.LBB34_113:                             # %then.1.i.i.i25.i
	movb	$32, (%rbx,%rax)
.LBB34_114:                             # %"stores::store::<i8,20'core::clone::U8Clone{}>.exit.i.i20.i"
	incq	%rax
	movq	%rbx, %rdi
	movq	%r14, %rsi
	movq	%rax, %rdx
	movq	%r12, %rcx
	callq	"put_bytes::put_number"
.LBB34_115:                             # %join.3.i16
	cmpq	%r14, %rax
	jae	.LBB34_117
# %bb.116:                              # %then.1.i.i38.i
	movb	$10, (%rbx,%rax)
.LBB34_117:                             # %"printing::refusal.exit"
	incq	%rax
.LBB34_118:                             # %join.4
	addq	$34824, %rsp                    # imm = 0x8808
	.cfi_def_cfa_offset 56
	popq	%rbx
	.cfi_def_cfa_offset 48
	popq	%r12
	.cfi_def_cfa_offset 40
	popq	%r13
	.cfi_def_cfa_offset 32
	popq	%r14
	.cfi_def_cfa_offset 24
	popq	%r15
	.cfi_def_cfa_offset 16
	popq	%rbp
	.cfi_def_cfa_offset 8
	retq
.LBB34_110:                             # %arm.3.i.i15.i
	.cfi_def_cfa_offset 34880
	movzwl	%r15w, %r12d
	cmpq	%r14, %rax
	jb	.LBB34_113
	jmp	.LBB34_114
.Lfunc_end34:
	.size	"timed_handing::print_answer", .Lfunc_end34-"timed_handing::print_answer"
	.cfi_endproc
	.section	".rodata.timed_handing::print_answer","a",@progbits
	.p2align	2, 0x0
.LJTI34_0:
	.long	.LBB34_112-.LJTI34_0
	.long	.LBB34_110-.LJTI34_0
	.long	.LBB34_109-.LJTI34_0
	.long	.LBB34_111-.LJTI34_0
	.long	.LBB34_111-.LJTI34_0
	.long	.LBB34_111-.LJTI34_0
	.long	.LBB34_112-.LJTI34_0
	.long	.LBB34_112-.LJTI34_0
	.long	.LBB34_111-.LJTI34_0
	.long	.LBB34_109-.LJTI34_0
	.long	.LBB34_109-.LJTI34_0
	.long	.LBB34_112-.LJTI34_0
	.long	.LBB34_112-.LJTI34_0
	.long	.LBB34_112-.LJTI34_0
	.long	.LBB34_112-.LJTI34_0
	.long	.LBB34_109-.LJTI34_0
	.long	.LBB34_109-.LJTI34_0
	.long	.LBB34_109-.LJTI34_0
	.long	.LBB34_109-.LJTI34_0
	.long	.LBB34_109-.LJTI34_0
	.long	.LBB34_112-.LJTI34_0
	.long	.LBB34_112-.LJTI34_0
                                        # -- End function
	.section	".text.scenario::finish","ax",@progbits
	.p2align	4                               # -- Begin function scenario::finish
	.type	"scenario::finish",@function
"scenario::finish":                     # @"scenario::finish"
	.cfi_startproc
# %bb.0:                                # %start
	pushq	%rbp
	.cfi_def_cfa_offset 16
	pushq	%r15
	.cfi_def_cfa_offset 24
	pushq	%r14
	.cfi_def_cfa_offset 32
	pushq	%r13
	.cfi_def_cfa_offset 40
	pushq	%r12
	.cfi_def_cfa_offset 48
	pushq	%rbx
	.cfi_def_cfa_offset 56
	.cfi_offset %rbx, -56
	.cfi_offset %r12, -48
	.cfi_offset %r13, -40
	.cfi_offset %r14, -32
	.cfi_offset %r15, -24
	.cfi_offset %rbp, -16
	movq	%r9, -8(%rsp)                   # 8-byte Spill
	movq	%r8, -16(%rsp)                  # 8-byte Spill
	movq	%rcx, -24(%rsp)                 # 8-byte Spill
	movl	(%rsi), %r10d
	movl	6(%rsi), %eax
	testl	$256, %r10d                     # imm = 0x100
	je	.LBB35_2
# %bb.1:
	xorl	%ebp, %ebp
	jmp	.LBB35_3
.LBB35_2:                               # %select.true.sink
	movzwl	4(%rsi), %ecx
	movzwl	%cx, %r8d
	cmpl	$254, %r8d
	movl	$254, %ebp
	cmovbl	%ecx, %ebp
.LBB35_3:                               # %select.end
	movzbl	12(%rsi), %ecx
	movl	%ecx, -124(%rsp)                # 4-byte Spill
	movl	32(%rsi), %r11d
	movl	40(%rsi), %r14d
	movzbl	10(%rsi), %r8d
	movzbl	11(%rsi), %ecx
	movl	%ecx, -128(%rsp)                # 4-byte Spill
	movzbl	13(%rsi), %r13d
	movzwl	14(%rsi), %ecx
	movl	%ecx, -88(%rsp)                 # 4-byte Spill
	movl	16(%rsi), %r9d
	movl	20(%rsi), %ecx
	movl	%ecx, -84(%rsp)                 # 4-byte Spill
	movl	24(%rsi), %ecx
	movl	%ecx, -80(%rsp)                 # 4-byte Spill
	movl	28(%rsi), %ebx
	movl	36(%rsi), %ecx
	movl	%ecx, -116(%rsp)                # 4-byte Spill
	movl	%r10d, -44(%rsp)
	movw	%bp, -40(%rsp)
	movl	%eax, -38(%rsp)
	movq	-42(%rsp), %r15
	movq	%r15, %rsi
	shrq	$16, %rsi
	movl	%esi, %r12d
	shll	$16, %r12d
	movabsq	$-4294901761, %rax              # imm = 0xFFFFFFFF0000FFFF
	andq	%r15, %rax
	orq	%r12, %rax
	movl	%r10d, %ebp
	shrl	$8, %ebp
	movw	$0, -104(%rsp)
	movq	$0, -112(%rsp)
	testb	$1, %r10b
	je	.LBB35_6
# %bb.4:                                # %then.1.i.i
	movb	$1, -112(%rsp)
	jmp	.LBB35_5
.LBB35_6:                               # %join.3.i.i
	testb	$1, %r15b
	je	.LBB35_5
# %bb.7:                                # %then.4.i.i
	movl	%r11d, %ecx
	shrl	$8, %ecx
	movl	%r14d, %r10d
	shrl	$8, %r10d
	movl	%r10d, -68(%rsp)                # 4-byte Spill
	movl	%r14d, %r10d
	shrl	$16, %r10d
	movl	%r14d, %r12d
	shrl	$24, %r12d
	testl	$256, %r15d                     # imm = 0x100
	jne	.LBB35_9
# %bb.8:
	movl	%r8d, -120(%rsp)                # 4-byte Spill
	jmp	.LBB35_15
.LBB35_5:                               # %join.6.i.i
	movb	%bpl, -111(%rsp)
	movq	%rax, -110(%rsp)
	movl	-116(%rsp), %ecx                # 4-byte Reload
	movl	-80(%rsp), %ebp                 # 4-byte Reload
	movl	-84(%rsp), %r12d                # 4-byte Reload
	movq	%r15, %r10
	shrq	$48, %r10
	shrq	$32, %r15
	movl	%r15d, %edx
	movl	-112(%rsp), %eax
	movl	%r10d, %r15d
	movl	-88(%rsp), %r10d                # 4-byte Reload
.LBB35_47:                              # %"scenario::finish_on.exit"
	movl	%eax, (%rdi)
	movw	%si, 4(%rdi)
	movw	%dx, 6(%rdi)
	movw	%r15w, 8(%rdi)
	movb	%r8b, 10(%rdi)
	movl	-128(%rsp), %eax                # 4-byte Reload
	movb	%al, 11(%rdi)
	movl	-124(%rsp), %eax                # 4-byte Reload
	movb	%al, 12(%rdi)
	movb	%r13b, 13(%rdi)
	movw	%r10w, 14(%rdi)
	movl	%r9d, 16(%rdi)
	movl	%r12d, 20(%rdi)
	movl	%ebp, 24(%rdi)
	movl	%ebx, 28(%rdi)
	movl	%r11d, 32(%rdi)
	movl	%ecx, 36(%rdi)
	movl	%r14d, 40(%rdi)
	popq	%rbx
	.cfi_def_cfa_offset 48
	popq	%r12
	.cfi_def_cfa_offset 40
	popq	%r13
	.cfi_def_cfa_offset 32
	popq	%r14
	.cfi_def_cfa_offset 24
	popq	%r15
	.cfi_def_cfa_offset 16
	popq	%rbp
	.cfi_def_cfa_offset 8
	retq
.LBB35_9:                               # %then.1.i.i.i
	.cfi_def_cfa_offset 56
	testb	$1, %bpl
	je	.LBB35_14
# %bb.10:                               # %then.1.i.i.i.i
	cmpb	$10, %r8b
	ja	.LBB35_13
# %bb.11:                               # %then.1.i.i.i.i.i
	incb	%r8b
	jmp	.LBB35_12
.LBB35_14:                              # %join.3.i.i.i.i
	movl	%r8d, -120(%rsp)                # 4-byte Spill
	andl	$1, -68(%rsp)                   # 4-byte Folded Spill
	cmpb	$-127, %r11b
	adcb	$0, %r11b
	andl	$1, %r12d
	xorl	%ecx, %ecx
	xorl	%r14d, %r14d
	xorl	%r10d, %r10d
	jmp	.LBB35_15
.LBB35_13:                              # %join.3.i.i.i.i.i
	cmpb	$11, %r8b
	movzbl	%r8b, %r8d
	movl	%r8d, -128(%rsp)                # 4-byte Spill
	movl	$12, %r8d
	cmovnel	-128(%rsp), %r8d                # 4-byte Folded Reload
.LBB35_12:                              # %"scenario::released.exit.i.i"
	movl	%r8d, -120(%rsp)                # 4-byte Spill
	movl	$0, -128(%rsp)                  # 4-byte Folded Spill
.LBB35_15:                              # %"scenario::released.exit.i.i"
	movzwl	%si, %r8d
	movzbl	%r10b, %r10d
	shll	$16, %r10d
	shll	$24, %r12d
	orl	%r10d, %r12d
	testb	$1, %bpl
	je	.LBB35_18
# %bb.16:                               # %then.1.i18.i.i
	movq	%r8, -32(%rsp)                  # 8-byte Spill
	movl	-120(%rsp), %r8d                # 4-byte Reload
	movl	%r8d, %edx
	andb	$-3, %dl
	cmpb	$9, %dl
	sete	%dl
	testb	%dl, -128(%rsp)                 # 1-byte Folded Reload
	movl	-88(%rsp), %r10d                # 4-byte Reload
	je	.LBB35_17
# %bb.42:                               # %"scenario::finished.exit.i"
	xorl	%eax, %eax
	testw	%si, %si
	je	.LBB35_48
# %bb.43:
	xorl	%esi, %esi
	xorl	%edx, %edx
	xorl	%r15d, %r15d
.LBB35_44:                              # %join.3.i1.i
	movb	$1, %r13b
	movl	$65537, %r14d                   # imm = 0x10001
	movq	-32(%rsp), %rcx                 # 8-byte Reload
	cmpl	$253, %ecx
	ja	.LBB35_46
# %bb.45:                               # %then.1.i3.i.i
	addl	%ecx, %ecx
	movq	-16(%rsp), %rax                 # 8-byte Reload
	movw	%dx, (%rax,%rcx)
	movq	-8(%rsp), %rax                  # 8-byte Reload
	movw	%r15w, (%rax,%rcx)
.LBB35_46:                              # %"scenario::finish_on.exit"
	xorl	%eax, %eax
	xorl	%ecx, %ecx
	xorl	%r11d, %r11d
	xorl	%ebx, %ebx
	xorl	%ebp, %ebp
	xorl	%r12d, %r12d
	xorl	%r9d, %r9d
	xorl	%r10d, %r10d
	movl	$0, -124(%rsp)                  # 4-byte Folded Spill
	movb	$1, %r8b
	movl	%r8d, -128(%rsp)                # 4-byte Spill
	xorl	%r8d, %r8d
	jmp	.LBB35_47
.LBB35_18:                              # %join.3.i.i.i
	cmpl	$253, %r8d
	ja	.LBB35_39
# %bb.19:                               # %then.7.i.i.i
	movq	%r8, -32(%rsp)                  # 8-byte Spill
	movl	%ecx, -48(%rsp)                 # 4-byte Spill
	movl	%edx, %r10d
	shrl	$8, %r10d
	movzbl	%r10b, %ecx
	movl	%ecx, -92(%rsp)                 # 4-byte Spill
	movzbl	%dl, %ecx
	movl	%ecx, -96(%rsp)                 # 4-byte Spill
	movl	%r13d, %ecx
	testb	$1, %r13b
	je	.LBB35_30
# %bb.20:                               # %then.1.i.i15.i.i
	movzbl	-124(%rsp), %edx                # 1-byte Folded Reload
	decl	%edx
	cmpl	$7, %edx
	ja	.LBB35_27
# %bb.21:                               # %then.1.i.i15.i.i
	leaq	.LJTI35_0(%rip), %r10
	movslq	(%r10,%rdx,4), %rdx
	addq	%r10, %rdx
	jmpq	*%rdx
.LBB35_22:                              # %then.1.i.i.i17.i.i
	movl	%r11d, %edx
	decb	%dl
	setns	%cl
	jmp	.LBB35_30
.LBB35_17:                              # %join.6.i.i.i
	movw	$257, -112(%rsp)                # imm = 0x101
	movq	%rax, -110(%rsp)
	jmp	.LBB35_41
.LBB35_39:                              # %join.9.i.i.i
	movb	$1, -112(%rsp)
	movq	%rax, -110(%rsp)
	movl	-88(%rsp), %r10d                # 4-byte Reload
	movl	-120(%rsp), %r8d                # 4-byte Reload
	jmp	.LBB35_41
.LBB35_48:
	movb	$1, %r13b
	movl	$65537, %r14d                   # imm = 0x10001
	xorl	%ecx, %ecx
	xorl	%r11d, %r11d
	xorl	%ebx, %ebx
	xorl	%ebp, %ebp
	xorl	%r12d, %r12d
	xorl	%r9d, %r9d
	xorl	%r10d, %r10d
	movl	$0, -124(%rsp)                  # 4-byte Folded Spill
	movb	$1, %dl
	movl	%edx, -128(%rsp)                # 4-byte Spill
	xorl	%r8d, %r8d
	xorl	%r15d, %r15d
	xorl	%edx, %edx
	xorl	%esi, %esi
	jmp	.LBB35_47
.LBB35_26:                              # %then.13.i.i.i.i.i
	leal	-1(%r11), %edx
	cmpb	$5, %dl
	setb	%r10b
	movl	-96(%rsp), %ecx                 # 4-byte Reload
	jmp	.LBB35_25
.LBB35_24:                              # %then.7.i.i.i.i.i
	leal	-1(%r11), %edx
	cmpb	$5, %dl
	setb	%r10b
	movl	-92(%rsp), %ecx                 # 4-byte Reload
.LBB35_25:                              # %"fields::well_field.exit.i.i.i.i"
	cmpl	%ecx, -116(%rsp)                # 4-byte Folded Reload
	sete	%cl
	andb	%r14b, %cl
	andb	%r10b, %cl
	jmp	.LBB35_30
.LBB35_23:                              # %then.4.i.i.i.i.i
	leal	-1(%r11), %edx
	cmpb	$20, %dl
	setb	%r10b
	movl	%r12d, %edx
	notl	%edx
	testl	$16842752, %edx                 # imm = 0x1010000
	sete	%cl
	andb	%r10b, %cl
	jmp	.LBB35_30
.LBB35_27:                              # %join.15.i.i.i.i.i
	cmpb	$7, -124(%rsp)                  # 1-byte Folded Reload
	ja	.LBB35_28
# %bb.29:                               # %then.19.i.i.i.i.i
	leal	-1(%r11), %edx
	cmpb	$5, %dl
	setb	%cl
	andb	%r14b, %cl
	jmp	.LBB35_30
.LBB35_28:
	xorl	%ecx, %ecx
.LBB35_30:                              # %"fields::field_past.exit.i.i.i"
	movl	%ecx, -56(%rsp)                 # 4-byte Spill
	movl	-124(%rsp), %r10d               # 4-byte Reload
	cmpb	$9, %r10b
	movl	%r10d, %edx
	adcb	$0, %dl
	cmpb	$4, %r10b
	movl	%r9d, %r8d
	movl	-116(%rsp), %ecx                # 4-byte Reload
	cmovel	%ecx, %r8d
	movl	%r8d, -64(%rsp)                 # 4-byte Spill
	cmpb	$5, %r10b
	movl	-84(%rsp), %ebp                 # 4-byte Reload
	cmovel	%ecx, %ebp
	cmpb	$6, %r10b
	movl	-80(%rsp), %r8d                 # 4-byte Reload
	cmovel	%ecx, %r8d
	movl	%r8d, -72(%rsp)                 # 4-byte Spill
	cmpb	$7, %r10b
	movl	%ebx, %r10d
	cmovel	%ecx, %r10d
	cmpb	$9, %dl
	movl	-120(%rsp), %r8d                # 4-byte Reload
	jne	.LBB35_40
# %bb.31:                               # %"fields::field_past.exit.i.i.i"
	testb	$1, -56(%rsp)                   # 1-byte Folded Reload
	je	.LBB35_40
# %bb.32:                               # %then.5.i.i.i.i
	movl	-64(%rsp), %ecx                 # 4-byte Reload
	cmpl	-92(%rsp), %ecx                 # 4-byte Folded Reload
	setb	%cl
	cmpl	-96(%rsp), %ebp                 # 4-byte Folded Reload
	setb	%dl
	andb	%cl, %dl
	cmpb	$1, %dl
	jne	.LBB35_40
# %bb.33:                               # %then.5.i.i.i.i.i
	movl	-92(%rsp), %ecx                 # 4-byte Reload
	movl	%ecx, %edx
	movq	%rdx, -56(%rsp)                 # 8-byte Spill
	movl	%ebp, %edx
	movl	%r10d, -76(%rsp)                # 4-byte Spill
	movl	-64(%rsp), %r10d                # 4-byte Reload
                                        # kill: def $ecx killed $ecx def $rcx
	imull	-96(%rsp), %ecx                 # 4-byte Folded Reload
	imulq	-56(%rsp), %rdx                 # 8-byte Folded Reload
	addq	%r10, %rdx
	movq	%rcx, -64(%rsp)                 # 8-byte Spill
	cmpq	%rcx, %rdx
	setb	%r10b
	cmpq	$4096, %rdx                     # imm = 0x1000
	setb	%bpl
	andb	%r10b, %bpl
	cmpb	$1, %bpl
	jne	.LBB35_40
# %bb.34:                               # %"gridmap::bay_in.exit.i.i.i.i"
	movq	-24(%rsp), %rcx                 # 8-byte Reload
	movzwl	(%rcx,%rdx,2), %r10d
	cmpw	$1, %r10w
	movl	%r10d, %edx
	adcl	$-1, %edx
	testw	%r10w, %r10w
	je	.LBB35_40
# %bb.35:                               # %arm.8.i.i.i.i
	movl	-72(%rsp), %ecx                 # 4-byte Reload
	cmpl	-92(%rsp), %ecx                 # 4-byte Folded Reload
	setb	%r10b
	movl	-76(%rsp), %ecx                 # 4-byte Reload
	cmpl	-96(%rsp), %ecx                 # 4-byte Folded Reload
	setb	%bpl
	andb	%r10b, %bpl
	movl	-76(%rsp), %ecx                 # 4-byte Reload
	cmpb	$1, %bpl
	jne	.LBB35_40
# %bb.36:                               # %then.5.i25.i.i.i.i
	movl	%ecx, %r10d
	movl	-72(%rsp), %ebp                 # 4-byte Reload
	imulq	-56(%rsp), %r10                 # 8-byte Folded Reload
	addq	%rbp, %r10
	cmpq	-64(%rsp), %r10                 # 8-byte Folded Reload
	setb	%cl
	cmpq	$4096, %r10                     # imm = 0x1000
	setb	%bpl
	andb	%cl, %bpl
	cmpb	$1, %bpl
	jne	.LBB35_40
# %bb.37:                               # %"gridmap::number_at.exit.i32.i.i.i.i"
	movq	-24(%rsp), %rcx                 # 8-byte Reload
	movzwl	(%rcx,%r10,2), %r10d
	testw	%r10w, %r10w
	je	.LBB35_40
# %bb.38:                               # %"scenario::finished.exit.i.thread67"
	decl	%r10d
	incl	%esi
	movl	%r10d, %r15d
	jmp	.LBB35_44
.LBB35_40:                              # %arm.11.i.i.i
	movb	$1, -112(%rsp)
	movq	%rax, -110(%rsp)
	movl	-88(%rsp), %r10d                # 4-byte Reload
	movl	-48(%rsp), %ecx                 # 4-byte Reload
.LBB35_41:                              # %"scenario::finished.exit.i.thread44"
	movzbl	%r14b, %eax
	movl	-68(%rsp), %edx                 # 4-byte Reload
	shll	$8, %edx
	movzwl	%dx, %r14d
	orl	%eax, %r14d
	orl	%r12d, %r14d
	movq	%r15, %rdx
	shrq	$32, %rdx
	shrq	$48, %r15
	shll	$8, %ecx
	movzbl	%r11b, %r11d
	orl	%ecx, %r11d
	movl	-112(%rsp), %eax
	movl	-116(%rsp), %ecx                # 4-byte Reload
	movl	-80(%rsp), %ebp                 # 4-byte Reload
	movl	-84(%rsp), %r12d                # 4-byte Reload
	jmp	.LBB35_47
.Lfunc_end35:
	.size	"scenario::finish", .Lfunc_end35-"scenario::finish"
	.cfi_endproc
	.section	".rodata.scenario::finish","a",@progbits
	.p2align	2, 0x0
.LJTI35_0:
	.long	.LBB35_22-.LJTI35_0
	.long	.LBB35_24-.LJTI35_0
	.long	.LBB35_26-.LJTI35_0
	.long	.LBB35_27-.LJTI35_0
	.long	.LBB35_27-.LJTI35_0
	.long	.LBB35_27-.LJTI35_0
	.long	.LBB35_27-.LJTI35_0
	.long	.LBB35_23-.LJTI35_0
                                        # -- End function
	.section	.rodata.cst16,"aM",@progbits,16
	.p2align	4, 0x0                          # -- Begin function sejjekoru_agrees
.LCPI36_0:
	.zero	16,2
.LCPI36_1:
	.byte	1                               # 0x1
	.byte	1                               # 0x1
	.byte	1                               # 0x1
	.byte	1                               # 0x1
	.byte	1                               # 0x1
	.byte	1                               # 0x1
	.byte	1                               # 0x1
	.byte	1                               # 0x1
	.zero	1
	.zero	1
	.zero	1
	.zero	1
	.zero	1
	.zero	1
	.zero	1
	.zero	1
.LCPI36_2:
	.zero	16,1
	.section	.text.sejjekoru_agrees,"ax",@progbits
	.globl	sejjekoru_agrees
	.p2align	4
	.type	sejjekoru_agrees,@function
sejjekoru_agrees:                       # @sejjekoru_agrees
	.cfi_startproc
# %bb.0:                                # %start
	pushq	%rbp
	.cfi_def_cfa_offset 16
	pushq	%r15
	.cfi_def_cfa_offset 24
	pushq	%r14
	.cfi_def_cfa_offset 32
	pushq	%r13
	.cfi_def_cfa_offset 40
	pushq	%r12
	.cfi_def_cfa_offset 48
	pushq	%rbx
	.cfi_def_cfa_offset 56
	subq	$3072, %rsp                     # imm = 0xC00
	.cfi_adjust_cfa_offset 3072
	movq	$0, (%rsp)
	subq	$3072, %rsp                     # imm = 0xC00
	.cfi_adjust_cfa_offset 3072
	movq	$0, (%rsp)
	subq	$3072, %rsp                     # imm = 0xC00
	.cfi_adjust_cfa_offset 3072
	movq	$0, (%rsp)
	subq	$3072, %rsp                     # imm = 0xC00
	.cfi_adjust_cfa_offset 3072
	movq	$0, (%rsp)
	subq	$1128, %rsp                     # imm = 0x468
	.cfi_def_cfa_offset 13472
	.cfi_offset %rbx, -56
	.cfi_offset %r12, -48
	.cfi_offset %r13, -40
	.cfi_offset %r14, -32
	.cfi_offset %r15, -24
	.cfi_offset %rbp, -16
	movq	%r8, 56(%rsp)                   # 8-byte Spill
	movq	%rdx, 48(%rsp)                  # 8-byte Spill
	movq	%rdi, 40(%rsp)                  # 8-byte Spill
	movq	13528(%rsp), %r13
	movq	13480(%rsp), %rax
	xorl	%ebp, %ebp
	testq	%rsi, %rsi
	sete	%bpl
	shll	$12, %ebp
	addq	%rsi, %rbp
	xorl	%r14d, %r14d
	testq	%rcx, %rcx
	sete	%r14b
	shll	$12, %r14d
	addq	%rcx, %r14
	xorl	%r12d, %r12d
	testq	%r9, %r9
	sete	%r12b
	shll	$12, %r12d
	addq	%r9, %r12
	xorl	%r15d, %r15d
	testq	%rax, %rax
	sete	%r15b
	shll	$12, %r15d
	addq	%rax, %r15
	xorl	%ebx, %ebx
	cmpq	$0, 13496(%rsp)
	sete	39(%rsp)                        # 1-byte Folded Spill
	leaq	10344(%rsp), %rdi
	movl	$3072, %edx                     # imm = 0xC00
	xorl	%esi, %esi
	callq	memset@PLT
	testq	%r13, %r13
	je	.LBB36_2
# %bb.1:                                # %join.5.i.i.preheader.i
	movq	13520(%rsp), %rax
	xorl	%esi, %esi
	testq	%rax, %rax
	sete	%sil
	shll	$12, %esi
	addq	%rax, %rsi
	cmpq	$256, %r13                      # imm = 0x100
	movl	$256, %eax                      # imm = 0x100
	cmovbq	%r13, %rax
	shll	$2, %eax
	leaq	(%rax,%rax,2), %rdx
	leaq	10344(%rsp), %rdi
	callq	memcpy@PLT
.LBB36_2:                               # %"sheets::gather.exit.i"
	pxor	%xmm0, %xmm0
	movdqa	%xmm0, 6752(%rsp)
	movq	$0, 6768(%rsp)
	movq	13488(%rsp), %r13
	movq	%r13, 24(%rsp)
	movq	%r15, 16(%rsp)
	movq	13472(%rsp), %rax
	movq	%rax, 8(%rsp)
	movq	%r12, (%rsp)
	leaq	6752(%rsp), %rdi
	movq	40(%rsp), %rsi                  # 8-byte Reload
	movq	%rbp, %rdx
	movq	48(%rsp), %rcx                  # 8-byte Reload
	movq	%r14, %r8
	movq	56(%rsp), %rbp                  # 8-byte Reload
	movq	%rbp, %r9
	callq	"checker::check"
	cmpb	$0, 6752(%rsp)
	je	.LBB36_5
# %bb.3:                                # %arm.3.i.i.i
	movl	6764(%rsp), %ecx
	movzbl	6760(%rsp), %eax
	leaq	.LJTI36_0(%rip), %rdx
	movslq	(%rdx,%rax,4), %rsi
	addq	%rdx, %rsi
	jmpq	*%rsi
.LBB36_4:
	xorl	%ecx, %ecx
	jmp	.LBB36_10
.LBB36_5:                               # %arm.1.i.i.i.i
	movq	13504(%rsp), %r12
	cmpq	%r13, %r12
	jne	.LBB36_29
# %bb.6:                                # %else.2.i.i.i.i.i
	movzbl	39(%rsp), %eax                  # 1-byte Folded Reload
	movb	%al, %bl
	shll	$12, %ebx
	movq	13496(%rsp), %rcx
	leaq	(%rcx,%rbx), %r13
	testq	%r12, %r12
	je	.LBB36_11
# %bb.7:                                # %iter.check
	cmpq	$8, %r12
	jae	.LBB36_12
# %bb.8:
	xorl	%ecx, %ecx
	xorl	%eax, %eax
	jmp	.LBB36_26
.LBB36_9:                               # %arm.2.i.i.i.i.i.i
	movq	6768(%rsp), %rcx
.LBB36_10:                              # %"docket::carried.exit.i.i.i.i"
	movq	13536(%rsp), %rdx
	movq	%rcx, (%rdx)
	leaq	.Lswitch.table.sejjekoru_slots(%rip), %rcx
	movq	(%rcx,%rax,8), %rax
	jmp	.LBB36_54
.LBB36_11:                              # %else.5.thread.i.i.i.i.i
	pxor	%xmm0, %xmm0
	movdqa	%xmm0, 3136(%rsp)
	movdqa	%xmm0, 3152(%rsp)
	movdqa	%xmm0, 3168(%rsp)
	movdqa	%xmm0, 3184(%rsp)
	movdqa	%xmm0, 3200(%rsp)
	movdqa	%xmm0, 3216(%rsp)
	movdqa	%xmm0, 3232(%rsp)
	movdqa	%xmm0, 3248(%rsp)
	movdqa	%xmm0, 3264(%rsp)
	movdqa	%xmm0, 3280(%rsp)
	movdqa	%xmm0, 3296(%rsp)
	movdqa	%xmm0, 3312(%rsp)
	movdqa	%xmm0, 3328(%rsp)
	movdqa	%xmm0, 3344(%rsp)
	movdqa	%xmm0, 3360(%rsp)
	movdqa	%xmm0, 3376(%rsp)
	movdqa	%xmm0, 64(%rsp)
	movdqa	%xmm0, 80(%rsp)
	movdqa	%xmm0, 96(%rsp)
	movdqa	%xmm0, 112(%rsp)
	movdqa	%xmm0, 128(%rsp)
	movdqa	%xmm0, 144(%rsp)
	movdqa	%xmm0, 160(%rsp)
	movdqa	%xmm0, 176(%rsp)
	movdqa	%xmm0, 192(%rsp)
	movdqa	%xmm0, 208(%rsp)
	movdqa	%xmm0, 224(%rsp)
	movdqa	%xmm0, 240(%rsp)
	movdqa	%xmm0, 256(%rsp)
	movdqa	%xmm0, 272(%rsp)
	movdqa	%xmm0, 288(%rsp)
	movdqa	%xmm0, 304(%rsp)
	jmp	.LBB36_34
.LBB36_12:                              # %vector.main.loop.iter.check
	cmpq	$32, %r12
	jae	.LBB36_14
# %bb.13:
	xorl	%eax, %eax
	xorl	%ecx, %ecx
	jmp	.LBB36_18
.LBB36_14:                              # %vector.ph
	movq	%r12, %rax
	andq	$-32, %rax
	addq	%rbx, %rcx
	addq	$16, %rcx
	pxor	%xmm0, %xmm0
	xorl	%edx, %edx
	pxor	%xmm1, %xmm1
	.p2align	4
.LBB36_15:                              # %vector.body
                                        # =>This Inner Loop Header: Depth=1
	movdqu	-16(%rcx,%rdx), %xmm2
	movdqu	(%rcx,%rdx), %xmm3
	movdqa	.LCPI36_0(%rip), %xmm4          # xmm4 = [2,2,2,2,2,2,2,2,2,2,2,2,2,2,2,2]
	movdqa	%xmm2, %xmm5
	pmaxub	%xmm4, %xmm5
	pcmpeqb	%xmm2, %xmm5
	por	%xmm5, %xmm1
	pmaxub	%xmm3, %xmm4
	pcmpeqb	%xmm3, %xmm4
	por	%xmm4, %xmm0
	addq	$32, %rdx
	cmpq	%rdx, %rax
	jne	.LBB36_15
# %bb.16:                               # %middle.block
	por	%xmm1, %xmm0
	psllw	$7, %xmm0
	pmovmskb	%xmm0, %ecx
	testl	%ecx, %ecx
	setne	%cl
	cmpq	%rax, %r12
	je	.LBB36_28
# %bb.17:                               # %vec.epilog.iter.check
	testb	$24, %r12b
	je	.LBB36_26
.LBB36_18:                              # %vec.epilog.ph
	movq	%rax, %rdx
	movq	%r12, %rax
	andq	$-8, %rax
	movzbl	%cl, %ecx
	movd	%ecx, %xmm0
	.p2align	4
.LBB36_19:                              # %vec.epilog.vector.body
                                        # =>This Inner Loop Header: Depth=1
	movq	(%r13,%rdx), %xmm1              # xmm1 = mem[0],zero
	movdqa	.LCPI36_1(%rip), %xmm2          # xmm2 = [1,1,1,1,1,1,1,1,u,u,u,u,u,u,u,u]
	pminub	%xmm1, %xmm2
	pcmpeqb	%xmm1, %xmm2
	punpcklbw	%xmm2, %xmm2            # xmm2 = xmm2[0,0,1,1,2,2,3,3,4,4,5,5,6,6,7,7]
	pcmpeqd	%xmm1, %xmm1
	pxor	%xmm2, %xmm1
	por	%xmm1, %xmm0
	addq	$8, %rdx
	cmpq	%rdx, %rax
	jne	.LBB36_19
# %bb.20:                               # %vec.epilog.middle.block
	psllw	$7, %xmm0
	pmovmskb	%xmm0, %ecx
	testl	$21845, %ecx                    # imm = 0x5555
	setne	%cl
	jmp	.LBB36_27
.LBB36_21:                              # %"docket::carried.exit.thread13.i.i.i.i"
	movq	13536(%rsp), %rax
	movq	%rcx, (%rax)
	movl	$6, %eax
	jmp	.LBB36_54
.LBB36_22:                              # %"docket::carried.exit.thread15.i.i.i.i"
	movq	13536(%rsp), %rax
	movq	%rcx, (%rax)
	movl	$7, %eax
	jmp	.LBB36_54
.LBB36_23:                              # %"docket::carried.exit.thread.i.i.i.i"
	movzwl	6762(%rsp), %eax
	movq	13536(%rsp), %rcx
	movq	%rax, (%rcx)
	movl	$3, %eax
	jmp	.LBB36_54
.LBB36_24:                              # %"docket::carried.exit.thread17.i.i.i.i"
	movq	13536(%rsp), %rax
	movq	%rcx, (%rax)
	movl	$10, %eax
	jmp	.LBB36_54
.LBB36_25:                              # %"docket::carried.exit.thread11.i.i.i.i"
	movq	13536(%rsp), %rax
	movq	%rcx, (%rax)
	movl	$5, %eax
	jmp	.LBB36_54
.LBB36_26:                              # %join.6.i.i.i.i.i.i
	cmpb	$2, (%r13,%rax)
	setae	%dl
	orb	%dl, %cl
	incq	%rax
.LBB36_27:                              # %join.6.i.i.i.i.i.i
	cmpq	%rax, %r12
	jne	.LBB36_26
.LBB36_28:                              # %join.3.i.i.i.i.i
	testb	$1, %cl
	je	.LBB36_30
.LBB36_29:                              # %"docket::carried.exit.i.i.thread.i.i"
	movq	13536(%rsp), %rax
	movq	$0, (%rax)
	movl	$11, %eax
	jmp	.LBB36_54
.LBB36_30:                              # %else.5.i.i.i.i.i
	pxor	%xmm0, %xmm0
	movdqa	%xmm0, 3136(%rsp)
	movdqa	%xmm0, 3152(%rsp)
	movdqa	%xmm0, 3168(%rsp)
	movdqa	%xmm0, 3184(%rsp)
	movdqa	%xmm0, 3200(%rsp)
	movdqa	%xmm0, 3216(%rsp)
	movdqa	%xmm0, 3232(%rsp)
	movdqa	%xmm0, 3248(%rsp)
	movdqa	%xmm0, 3264(%rsp)
	movdqa	%xmm0, 3280(%rsp)
	movdqa	%xmm0, 3296(%rsp)
	movdqa	%xmm0, 3312(%rsp)
	movdqa	%xmm0, 3328(%rsp)
	movdqa	%xmm0, 3344(%rsp)
	movdqa	%xmm0, 3360(%rsp)
	movdqa	%xmm0, 3376(%rsp)
	movdqa	%xmm0, 64(%rsp)
	movdqa	%xmm0, 80(%rsp)
	movdqa	%xmm0, 96(%rsp)
	movdqa	%xmm0, 112(%rsp)
	movdqa	%xmm0, 128(%rsp)
	movdqa	%xmm0, 144(%rsp)
	movdqa	%xmm0, 160(%rsp)
	movdqa	%xmm0, 176(%rsp)
	movdqa	%xmm0, 192(%rsp)
	movdqa	%xmm0, 208(%rsp)
	movdqa	%xmm0, 224(%rsp)
	movdqa	%xmm0, 240(%rsp)
	movdqa	%xmm0, 256(%rsp)
	movdqa	%xmm0, 272(%rsp)
	movdqa	%xmm0, 288(%rsp)
	movdqa	%xmm0, 304(%rsp)
	movq	%r12, %rcx
	shrq	$6, %rcx
	je	.LBB36_34
# %bb.31:                               # %join.5.i.i.i.i.i.i.i.preheader
	xorl	%eax, %eax
	.p2align	4
.LBB36_32:                              # %join.5.i.i.i.i.i.i.i
                                        # =>This Inner Loop Header: Depth=1
	movdqu	(%r13,%rax), %xmm0
	movdqu	16(%r13,%rax), %xmm1
	movdqu	32(%r13,%rax), %xmm2
	movdqu	48(%r13,%rax), %xmm3
	movdqa	.LCPI36_2(%rip), %xmm4          # xmm4 = [1,1,1,1,1,1,1,1,1,1,1,1,1,1,1,1]
	pcmpeqb	%xmm4, %xmm3
	pcmpeqb	%xmm4, %xmm1
	pand	%xmm3, %xmm1
	pcmpeqb	%xmm4, %xmm2
	pcmpeqb	%xmm4, %xmm0
	pand	%xmm2, %xmm0
	pand	%xmm1, %xmm0
	pmovmskb	%xmm0, %edx
	xorl	$65535, %edx                    # imm = 0xFFFF
	jne	.LBB36_35
# %bb.33:                               # %loop.2.i.i.i.i.i.i.i
                                        #   in Loop: Header=BB36_32 Depth=1
	addq	$64, %rax
	decq	%rcx
	jne	.LBB36_32
.LBB36_34:                              # %after.1.i.i.i.i.i.i.i
	movq	%r12, %rax
	andq	$-64, %rax
.LBB36_35:                              # %"mark_order::done_to.exit.i.i.i.i.i.i"
	cmpq	%r12, %rax
	jb	.LBB36_47
.LBB36_36:                              # %join.4.i.i.i
	movq	13512(%rsp), %rsi
	leaq	9824(%rsp), %rdi
	movl	$520, %edx                      # imm = 0x208
	callq	memcpy@PLT
	movq	%rbp, %rbx
	leaq	3136(%rsp), %rbp
	movl	$3608, %edx                     # imm = 0xE18
	movq	%rbp, %rdi
	xorl	%esi, %esi
	callq	memset@PLT
	movq	$0, (%rsp)
	movq	%rbp, %rdi
	movq	%r14, %rsi
	movq	%rbx, %rdx
	movq	%r15, %rcx
	movq	%r12, %r8
	movq	%r13, %r9
	callq	"agreeing::work_out"
	leaq	9824(%rsp), %rdi
	movq	%rbp, %rsi
	callq	"entries::same_record"
	testb	%al, %al
	je	.LBB36_51
# %bb.37:                               # %join.3.i.i.i.i
	leaq	3664(%rsp), %r14
	movq	3656(%rsp), %rbx
	leaq	64(%rsp), %rdi
	leaq	10344(%rsp), %rsi
	movl	$3072, %edx                     # imm = 0xC00
	callq	memcpy@PLT
	leaq	6752(%rsp), %rdi
	movl	$3072, %edx                     # imm = 0xC00
	movq	%r14, %rsi
	callq	memcpy@PLT
	movq	13528(%rsp), %rdx
	cmpq	%rbx, %rdx
	movq	13536(%rsp), %rsi
	jne	.LBB36_52
# %bb.38:                               # %loop.5.preheader.i.i.i.i.i
	testq	%rdx, %rdx
	je	.LBB36_44
# %bb.39:                               # %join.8.i.i.i.i.i.preheader
	movl	$8, %eax
.LBB36_40:                              # %join.8.i.i.i.i.i
                                        # =>This Inner Loop Header: Depth=1
	movl	56(%rsp,%rax), %ecx
	cmpl	6744(%rsp,%rax), %ecx
	jne	.LBB36_52
# %bb.41:                               # %"core::cmp::Ordering::and_eq::<i32,32'core::cmp::numbers::U32PartialEq{}>.exit.i.i.i.i.i.i.i"
                                        #   in Loop: Header=BB36_40 Depth=1
	movl	60(%rsp,%rax), %ecx
	cmpl	6748(%rsp,%rax), %ecx
	jne	.LBB36_52
# %bb.42:                               # %"core::cmp::PartialEq::ne::<11'bills::Line,20'bills::LinePartialEq{}>.exit.i.i.i.i.i"
                                        #   in Loop: Header=BB36_40 Depth=1
	movl	64(%rsp,%rax), %ecx
	cmpl	6752(%rsp,%rax), %ecx
	jne	.LBB36_52
# %bb.43:                               # %loop.5.i.i.i.i.i
                                        #   in Loop: Header=BB36_40 Depth=1
	addq	$12, %rax
	decq	%rdx
	jne	.LBB36_40
.LBB36_44:                              # %arm.1.i3.i.i
	movq	$1, (%rsi)
	jmp	.LBB36_53
	.p2align	4
.LBB36_45:                              # %else.7.i.i.i.i.i.i
                                        #   in Loop: Header=BB36_47 Depth=1
	movb	$1, 3136(%rsp,%rsi)
	movb	$1, 64(%rsp,%rdx)
	movb	$1, 64(%rsp,%rcx)
.LBB36_46:                              # %join.8.i.i.i.i.i.i
                                        #   in Loop: Header=BB36_47 Depth=1
	incq	%rax
	cmpq	%rax, %r12
	je	.LBB36_36
.LBB36_47:                              # %join.5.i.i.i.i.i.i
                                        # =>This Inner Loop Header: Depth=1
	movq	(%r15,%rax,8), %rsi
	movl	%esi, %edx
	movzwl	%si, %ecx
	shrq	$32, %rsi
	shrl	$16, %edx
	cmpb	$1, (%r13,%rax)
	jne	.LBB36_45
# %bb.48:                               # %then.6.i.i.i.i.i.i
                                        #   in Loop: Header=BB36_47 Depth=1
	cmpb	$1, 3136(%rsp,%rsi)
	je	.LBB36_29
# %bb.49:                               # %join.3.i.i.i.i.i.i.i
                                        #   in Loop: Header=BB36_47 Depth=1
	cmpb	$1, 64(%rsp,%rdx)
	je	.LBB36_29
# %bb.50:                               # %"mark_order::touched.exit.i.i.i.i.i.i"
                                        #   in Loop: Header=BB36_47 Depth=1
	cmpb	$1, 64(%rsp,%rcx)
	jne	.LBB36_46
	jmp	.LBB36_29
.LBB36_51:                              # %"agreeing::agree.exit.thread.i.i.i"
	movq	13536(%rsp), %rsi
.LBB36_52:                              # %arm.2.i.i.i
	movq	$0, (%rsi)
.LBB36_53:                              # %"sejjekoru::sejjekoru_agrees.exit"
	xorl	%eax, %eax
.LBB36_54:                              # %"sejjekoru::sejjekoru_agrees.exit"
	addq	$13416, %rsp                    # imm = 0x3468
	.cfi_def_cfa_offset 56
	popq	%rbx
	.cfi_def_cfa_offset 48
	popq	%r12
	.cfi_def_cfa_offset 40
	popq	%r13
	.cfi_def_cfa_offset 32
	popq	%r14
	.cfi_def_cfa_offset 24
	popq	%r15
	.cfi_def_cfa_offset 16
	popq	%rbp
	.cfi_def_cfa_offset 8
	retq
.Lfunc_end36:
	.size	sejjekoru_agrees, .Lfunc_end36-sejjekoru_agrees
	.cfi_endproc
	.section	.rodata.sejjekoru_agrees,"a",@progbits
	.p2align	2, 0x0
.LJTI36_0:
	.long	.LBB36_4-.LJTI36_0
	.long	.LBB36_9-.LJTI36_0
	.long	.LBB36_23-.LJTI36_0
	.long	.LBB36_4-.LJTI36_0
	.long	.LBB36_25-.LJTI36_0
	.long	.LBB36_21-.LJTI36_0
	.long	.LBB36_22-.LJTI36_0
	.long	.LBB36_9-.LJTI36_0
	.long	.LBB36_9-.LJTI36_0
	.long	.LBB36_24-.LJTI36_0
	.long	.LBB36_4-.LJTI36_0
	.long	.LBB36_4-.LJTI36_0
	.long	.LBB36_9-.LJTI36_0
	.long	.LBB36_9-.LJTI36_0
	.long	.LBB36_9-.LJTI36_0
	.long	.LBB36_9-.LJTI36_0
	.long	.LBB36_4-.LJTI36_0
	.long	.LBB36_4-.LJTI36_0
	.long	.LBB36_4-.LJTI36_0
	.long	.LBB36_4-.LJTI36_0
	.long	.LBB36_4-.LJTI36_0
	.long	.LBB36_9-.LJTI36_0
	.long	.LBB36_9-.LJTI36_0
                                        # -- End function
	.section	.text.sejjekoru_check,"ax",@progbits
	.globl	sejjekoru_check                 # -- Begin function sejjekoru_check
	.p2align	4
	.type	sejjekoru_check,@function
sejjekoru_check:                        # @sejjekoru_check
	.cfi_startproc
# %bb.0:                                # %start
	pushq	%r15
	.cfi_def_cfa_offset 16
	pushq	%r14
	.cfi_def_cfa_offset 24
	pushq	%rbx
	.cfi_def_cfa_offset 32
	subq	$64, %rsp
	.cfi_def_cfa_offset 96
	.cfi_offset %rbx, -32
	.cfi_offset %r14, -24
	.cfi_offset %r15, -16
	movq	%r8, %rax
	movq	%rcx, %r10
	movq	%rdx, %rcx
	movq	%rdi, %r11
	movq	120(%rsp), %rbx
	movq	96(%rsp), %rdi
	movq	112(%rsp), %r14
	movq	104(%rsp), %r15
	xorl	%edx, %edx
	testq	%rsi, %rsi
	sete	%dl
	shll	$12, %edx
	addq	%rsi, %rdx
	xorl	%r8d, %r8d
	testq	%r10, %r10
	sete	%r8b
	shll	$12, %r8d
	addq	%r10, %r8
	xorl	%esi, %esi
	testq	%r9, %r9
	sete	%sil
	shll	$12, %esi
	addq	%r9, %rsi
	xorl	%r9d, %r9d
	testq	%r15, %r15
	sete	%r9b
	shll	$12, %r9d
	addq	%r15, %r9
	xorps	%xmm0, %xmm0
	movaps	%xmm0, 32(%rsp)
	movq	$0, 48(%rsp)
	movq	%r14, 24(%rsp)
	movq	%rdi, 8(%rsp)
	movq	%r9, 16(%rsp)
	movq	%rsi, (%rsp)
	leaq	32(%rsp), %rdi
	movq	%r11, %rsi
	movq	%rax, %r9
	callq	"checker::check"
	cmpb	$0, 32(%rsp)
	je	.LBB37_1
# %bb.2:                                # %arm.2.i.i
	movzbl	40(%rsp), %eax
	movl	44(%rsp), %ecx
	leaq	.LJTI37_0(%rip), %rdx
	movslq	(%rdx,%rax,4), %rsi
	addq	%rdx, %rsi
	jmpq	*%rsi
.LBB37_9:
	xorl	%ecx, %ecx
	jmp	.LBB37_10
.LBB37_1:                               # %arm.1.i.i
	movq	$0, (%rbx)
	xorl	%eax, %eax
	jmp	.LBB37_11
.LBB37_3:                               # %arm.2.i.i.i.i.i
	movq	48(%rsp), %rcx
.LBB37_10:                              # %"docket::carried.exit.i.i.i"
	movq	%rcx, (%rbx)
	leaq	.Lswitch.table.sejjekoru_slots(%rip), %rcx
	movq	(%rcx,%rax,8), %rax
.LBB37_11:                              # %"sejjekoru::sejjekoru_check.exit"
	addq	$64, %rsp
	.cfi_def_cfa_offset 32
	popq	%rbx
	.cfi_def_cfa_offset 24
	popq	%r14
	.cfi_def_cfa_offset 16
	popq	%r15
	.cfi_def_cfa_offset 8
	retq
.LBB37_6:                               # %"docket::carried.exit.thread13.i.i.i"
	.cfi_def_cfa_offset 96
	movq	%rcx, (%rbx)
	movl	$6, %eax
	jmp	.LBB37_11
.LBB37_7:                               # %"docket::carried.exit.thread15.i.i.i"
	movq	%rcx, (%rbx)
	movl	$7, %eax
	jmp	.LBB37_11
.LBB37_4:                               # %"docket::carried.exit.thread.i.i.i"
	movzwl	42(%rsp), %eax
	movq	%rax, (%rbx)
	movl	$3, %eax
	jmp	.LBB37_11
.LBB37_8:                               # %"docket::carried.exit.thread17.i.i.i"
	movq	%rcx, (%rbx)
	movl	$10, %eax
	jmp	.LBB37_11
.LBB37_5:                               # %"docket::carried.exit.thread11.i.i.i"
	movq	%rcx, (%rbx)
	movl	$5, %eax
	jmp	.LBB37_11
.Lfunc_end37:
	.size	sejjekoru_check, .Lfunc_end37-sejjekoru_check
	.cfi_endproc
	.section	.rodata.sejjekoru_check,"a",@progbits
	.p2align	2, 0x0
.LJTI37_0:
	.long	.LBB37_9-.LJTI37_0
	.long	.LBB37_3-.LJTI37_0
	.long	.LBB37_4-.LJTI37_0
	.long	.LBB37_9-.LJTI37_0
	.long	.LBB37_5-.LJTI37_0
	.long	.LBB37_6-.LJTI37_0
	.long	.LBB37_7-.LJTI37_0
	.long	.LBB37_3-.LJTI37_0
	.long	.LBB37_3-.LJTI37_0
	.long	.LBB37_8-.LJTI37_0
	.long	.LBB37_9-.LJTI37_0
	.long	.LBB37_9-.LJTI37_0
	.long	.LBB37_3-.LJTI37_0
	.long	.LBB37_3-.LJTI37_0
	.long	.LBB37_3-.LJTI37_0
	.long	.LBB37_3-.LJTI37_0
	.long	.LBB37_9-.LJTI37_0
	.long	.LBB37_9-.LJTI37_0
	.long	.LBB37_9-.LJTI37_0
	.long	.LBB37_9-.LJTI37_0
	.long	.LBB37_9-.LJTI37_0
	.long	.LBB37_3-.LJTI37_0
	.long	.LBB37_3-.LJTI37_0
                                        # -- End function
	.section	.text.sejjekoru_compare,"ax",@progbits
	.globl	sejjekoru_compare               # -- Begin function sejjekoru_compare
	.p2align	4
	.type	sejjekoru_compare,@function
sejjekoru_compare:                      # @sejjekoru_compare
	.cfi_startproc
# %bb.0:                                # %start
	pushq	%rbp
	.cfi_def_cfa_offset 16
	pushq	%r15
	.cfi_def_cfa_offset 24
	pushq	%r14
	.cfi_def_cfa_offset 32
	pushq	%r13
	.cfi_def_cfa_offset 40
	pushq	%r12
	.cfi_def_cfa_offset 48
	pushq	%rbx
	.cfi_def_cfa_offset 56
	subq	$2072, %rsp                     # imm = 0x818
	.cfi_def_cfa_offset 2128
	.cfi_offset %rbx, -56
	.cfi_offset %r12, -48
	.cfi_offset %r13, -40
	.cfi_offset %r14, -32
	.cfi_offset %r15, -24
	.cfi_offset %rbp, -16
	movq	%r8, %r13
	movq	%rdx, %r15
	movq	%rsi, %r11
	movq	%rdi, %r12
	movq	2136(%rsp), %r8
	movq	2128(%rsp), %rbx
	xorl	%eax, %eax
	testq	%rdi, %rdi
	sete	%dl
	xorl	%r14d, %r14d
	testq	%r15, %r15
	sete	%r10b
	testq	%r13, %r13
	sete	%bpl
	cmpq	$65537, %rsi                    # imm = 0x10001
	setae	%sil
	cmpq	$65537, %rcx                    # imm = 0x10001
	setae	%dil
	orb	%sil, %dil
	je	.LBB38_1
# %bb.22:                               # %arm.2.i13.thread.i.i
	movl	$1, %eax
	xorl	%ebp, %ebp
	jmp	.LBB38_24
.LBB38_1:                               # %repeat.7.preheader.i.i.i
	movb	%bpl, 7(%rsp)                   # 1-byte Spill
	movq	%r9, 16(%rsp)                   # 8-byte Spill
	movq	%rcx, 32(%rsp)                  # 8-byte Spill
	movb	%dl, %al
	shll	$12, %eax
	addq	%rax, %r12
	movb	%r10b, %r14b
	shll	$12, %r14d
	movq	%r14, 24(%rsp)                  # 8-byte Spill
	movabsq	$1090921693184, %rbx            # imm = 0xFE00000000
	leaq	1056(%rsp), %rdi
	xorl	%ebp, %ebp
	movl	$1016, %edx                     # imm = 0x3F8
	xorl	%esi, %esi
	movq	%r11, 8(%rsp)                   # 8-byte Spill
	callq	memset@PLT
	movq	8(%rsp), %rdx                   # 8-byte Reload
	testq	%rdx, %rdx
	je	.LBB38_2
# %bb.3:                                # %join.6.i.i.i.i.preheader
	xorl	%eax, %eax
	.p2align	4
.LBB38_4:                               # %join.6.i.i.i.i
                                        # =>This Inner Loop Header: Depth=1
	movq	(%r12,%rax,8), %rcx
	movq	%rcx, %rbp
	shrq	$32, %rbp
	cmpq	%rbx, %rcx
	setb	%r14b
	jae	.LBB38_7
# %bb.5:                                # %join.10.i.i.i.i
                                        #   in Loop: Header=BB38_4 Depth=1
	incl	1056(%rsp,%rbp,4)
	incq	%rax
	cmpq	%rax, %rdx
	jne	.LBB38_4
# %bb.6:
	xorl	%ebp, %ebp
	jmp	.LBB38_7
.LBB38_2:
	movb	$1, %r14b
.LBB38_7:                               # %"comparing::count.exit.i.i.i"
	addq	24(%rsp), %r15                  # 8-byte Folded Reload
	leaq	40(%rsp), %rdi
	movl	$1016, %edx                     # imm = 0x3F8
	xorl	%esi, %esi
	callq	memset@PLT
	movq	32(%rsp), %rsi                  # 8-byte Reload
	testq	%rsi, %rsi
	movq	2128(%rsp), %rdi
	movq	2136(%rsp), %r8
	je	.LBB38_11
# %bb.8:                                # %join.6.i85.i.i.i.preheader
	xorl	%eax, %eax
	.p2align	4
.LBB38_9:                               # %join.6.i85.i.i.i
                                        # =>This Inner Loop Header: Depth=1
	movq	(%r15,%rax,8), %rdx
	movq	%rdx, %rcx
	shrq	$32, %rcx
	cmpq	%rbx, %rdx
	jae	.LBB38_13
# %bb.10:                               # %join.10.i92.i.i.i
                                        #   in Loop: Header=BB38_9 Depth=1
	incl	40(%rsp,%rcx,4)
	incq	%rax
	cmpq	%rax, %rsi
	jne	.LBB38_9
.LBB38_11:                              # %"comparing::count.exit105.i.i.i"
	testb	%r14b, %r14b
	je	.LBB38_12
# %bb.14:                               # %join.14.i.i.i
	cmpq	$254, 16(%rsp)                  # 8-byte Folded Reload
	movq	%rdi, %rbx
	jne	.LBB38_23
# %bb.15:                               # %vector.body.preheader
	xorl	%eax, %eax
	movzbl	7(%rsp), %ecx                   # 1-byte Folded Reload
	movb	%cl, %al
	shll	$12, %eax
	addq	%rax, %r13
	movl	$2, %eax
	.p2align	4
.LBB38_16:                              # %vector.body
                                        # =>This Inner Loop Header: Depth=1
	movq	32(%rsp,%rax,4), %xmm0          # xmm0 = mem[0],zero
	movq	40(%rsp,%rax,4), %xmm1          # xmm1 = mem[0],zero
	pxor	%xmm2, %xmm2
	punpckldq	%xmm2, %xmm0            # xmm0 = xmm0[0],xmm2[0],xmm0[1],xmm2[1]
	punpckldq	%xmm2, %xmm1            # xmm1 = xmm1[0],xmm2[0],xmm1[1],xmm2[1]
	movq	1048(%rsp,%rax,4), %xmm3        # xmm3 = mem[0],zero
	movq	1056(%rsp,%rax,4), %xmm4        # xmm4 = mem[0],zero
	punpckldq	%xmm2, %xmm3            # xmm3 = xmm3[0],xmm2[0],xmm3[1],xmm2[1]
	psubq	%xmm3, %xmm0
	punpckldq	%xmm2, %xmm4            # xmm4 = xmm4[0],xmm2[0],xmm4[1],xmm2[1]
	psubq	%xmm4, %xmm1
	movdqu	%xmm0, -16(%r13,%rax,8)
	movdqu	%xmm1, (%r13,%rax,8)
	addq	$4, %rax
	cmpq	$254, %rax
	jne	.LBB38_16
# %bb.17:                               # %join.5.i.i.i.i
	movl	1048(%rsp), %eax
	movl	2064(%rsp), %ecx
	subq	%rcx, %rax
	movq	%rax, 2016(%r13)
	movl	1052(%rsp), %eax
	movl	2068(%rsp), %ecx
	subq	%rcx, %rax
	movq	%rax, 2024(%r13)
	movq	8(%rsp), %rdi                   # 8-byte Reload
	cmpq	%rdi, %rsi
	movq	%rdi, %rcx
	cmovbq	%rsi, %rcx
	xorl	%eax, %eax
	testq	%rcx, %rcx
	je	.LBB38_18
	.p2align	4
.LBB38_19:                              # %join.5.i108.i.i.i
                                        # =>This Inner Loop Header: Depth=1
	movq	(%r12,%rax,8), %rdx
	cmpq	(%r15,%rax,8), %rdx
	jne	.LBB38_18
# %bb.20:                               # %join.8.i.i.i.i
                                        #   in Loop: Header=BB38_19 Depth=1
	incq	%rax
	cmpq	%rax, %rcx
	jne	.LBB38_19
# %bb.21:
	movq	%rcx, %rax
.LBB38_18:                              # %arm.1.i.i.i
	movq	%rax, (%r8)
	xorl	%eax, %eax
	cmpq	%rsi, %rdi
	movl	$0, %ecx
	adcq	$1, %rcx
	jmp	.LBB38_25
.LBB38_12:
	xorl	%ecx, %ecx
.LBB38_13:                              # %arm.2.i13.i.i
	movq	%rdi, %rbx
	testb	%r14b, %r14b
	cmovneq	%rcx, %rbp
	movl	$5, %eax
	jmp	.LBB38_24
.LBB38_23:                              # %arm.2.i13.thread86.i.i
	movl	$254, %ebp
	movl	$8, %eax
.LBB38_24:                              # %arm.2.i18.i.i
	movq	%rbp, (%r8)
	xorl	%ecx, %ecx
.LBB38_25:                              # %"sejjekoru::compare::sejjekoru_compare.exit"
	movq	%rcx, (%rbx)
	addq	$2072, %rsp                     # imm = 0x818
	.cfi_def_cfa_offset 56
	popq	%rbx
	.cfi_def_cfa_offset 48
	popq	%r12
	.cfi_def_cfa_offset 40
	popq	%r13
	.cfi_def_cfa_offset 32
	popq	%r14
	.cfi_def_cfa_offset 24
	popq	%r15
	.cfi_def_cfa_offset 16
	popq	%rbp
	.cfi_def_cfa_offset 8
	retq
.Lfunc_end38:
	.size	sejjekoru_compare, .Lfunc_end38-sejjekoru_compare
	.cfi_endproc
                                        # -- End function
	.section	.text.sejjekoru_map,"ax",@progbits
	.globl	sejjekoru_map                   # -- Begin function sejjekoru_map
	.p2align	4
	.type	sejjekoru_map,@function
sejjekoru_map:                          # @sejjekoru_map
	.cfi_startproc
# %bb.0:                                # %start
	pushq	%rbp
	.cfi_def_cfa_offset 16
	pushq	%r15
	.cfi_def_cfa_offset 24
	pushq	%r14
	.cfi_def_cfa_offset 32
	pushq	%r13
	.cfi_def_cfa_offset 40
	pushq	%r12
	.cfi_def_cfa_offset 48
	pushq	%rbx
	.cfi_def_cfa_offset 56
	subq	$3072, %rsp                     # imm = 0xC00
	.cfi_adjust_cfa_offset 3072
	movq	$0, (%rsp)
	subq	$3072, %rsp                     # imm = 0xC00
	.cfi_adjust_cfa_offset 3072
	movq	$0, (%rsp)
	subq	$2104, %rsp                     # imm = 0x838
	.cfi_def_cfa_offset 8304
	.cfi_offset %rbx, -56
	.cfi_offset %r12, -48
	.cfi_offset %r13, -40
	.cfi_offset %r14, -32
	.cfi_offset %r15, -24
	.cfi_offset %rbp, -16
	movq	%r9, 24(%rsp)                   # 8-byte Spill
	movq	%r8, 16(%rsp)                   # 8-byte Spill
	movq	%rdx, 8(%rsp)                   # 8-byte Spill
	movq	%rsi, %r12
	xorl	%r15d, %r15d
	testq	%rdi, %rdi
	sete	%r15b
	shll	$12, %r15d
	addq	%rdi, %r15
	xorl	%r13d, %r13d
	testq	%rcx, %rcx
	sete	%r13b
	shll	$12, %r13d
	addq	%rcx, %r13
	leaq	56(%rsp), %rdi
	xorl	%r14d, %r14d
	movl	$8192, %edx                     # imm = 0x2000
	xorl	%esi, %esi
	callq	memset@PLT
	movl	$1, %ebp
	xorl	%ecx, %ecx
	xorl	%eax, %eax
	xorl	%esi, %esi
	xorl	%r8d, %r8d
	jmp	.LBB39_3
.LBB39_1:                               # %then.4.i129.i.i.i.i.i
                                        #   in Loop: Header=BB39_3 Depth=1
	incb	%r14b
	movb	$4, %sil
.LBB39_2:                               # %arm.7.i.i.i.i
                                        #   in Loop: Header=BB39_3 Depth=1
	incq	%rbp
	movq	%rbx, %r8
.LBB39_3:                               # %loop.2.i.i.i.i
                                        # =>This Loop Header: Depth=1
                                        #     Child Loop BB39_5 Depth 2
                                        #     Child Loop BB39_29 Depth 2
	movabsq	$2482524913665, %rdx            # imm = 0x24202040001
	cmpq	%r12, %r8
	jae	.LBB39_7
# %bb.4:                                # %join.5.i.i.i.i.i.i.preheader
                                        #   in Loop: Header=BB39_3 Depth=1
	movq	%r8, %rbx
	.p2align	4
.LBB39_5:                               # %join.5.i.i.i.i.i.i
                                        #   Parent Loop BB39_3 Depth=1
                                        # =>  This Inner Loop Header: Depth=2
	cmpb	$10, (%r15,%rbx)
	je	.LBB39_14
# %bb.6:                                # %join.8.i.i.i.i.i.i
                                        #   in Loop: Header=BB39_5 Depth=2
	incq	%rbx
	cmpq	%rbx, %r12
	jne	.LBB39_5
.LBB39_7:                               # %"lines::line_end.exit.thread.i.i.i.i.i"
                                        #   in Loop: Header=BB39_3 Depth=1
	cmpq	%r8, %r12
	movq	%r8, %rbx
	cmovaq	%r12, %rbx
.LBB39_8:                               # %join.3.i.i.i.i.i
                                        #   in Loop: Header=BB39_3 Depth=1
	cmpq	%rbx, %r8
	jae	.LBB39_50
# %bb.9:                                # %arm.3.i.i.i.i
                                        #   in Loop: Header=BB39_3 Depth=1
	leaq	(%r15,%r8), %rdi
	movq	%rbx, %r9
	subq	%r8, %r9
	movzbl	%sil, %esi
	leaq	.LJTI39_0(%rip), %r10
	movslq	(%r10,%rsi,4), %rsi
	addq	%r10, %rsi
	movq	%rbx, %r10
	jmpq	*%rsi
.LBB39_10:                              # %arm.1.i.i.i.i.i
                                        #   in Loop: Header=BB39_3 Depth=1
	cmpq	$11, %r9
	jne	.LBB39_59
# %bb.11:                               # %join.3.i.i.i.i.i.i.i
                                        #   in Loop: Header=BB39_3 Depth=1
	cmpl	$1701869940, (%rdi)             # imm = 0x65707974
	jne	.LBB39_59
# %bb.12:                               # %"lines::is_word.exit.i.i.i.i.i"
                                        #   in Loop: Header=BB39_3 Depth=1
	leaq	.Lstatic.0(%rip), %rdx
	movl	$11, %esi
	callq	"core::cmp::slices::groups_equal::<i8,31'core::cmp::numbers::U8PartialEq{}>"
	testb	%al, %al
	je	.LBB39_59
# %bb.13:                               #   in Loop: Header=BB39_3 Depth=1
	movb	$1, %sil
	xorl	%r14d, %r14d
	xorl	%ecx, %ecx
	xorl	%eax, %eax
	jmp	.LBB39_2
	.p2align	4
.LBB39_14:                              # %"lines::line_end.exit.i.i.i.i.i"
                                        #   in Loop: Header=BB39_3 Depth=1
	cmpq	%r12, %rbx
	jae	.LBB39_8
# %bb.15:                               # %then.1.i.i.i.i.i
                                        #   in Loop: Header=BB39_3 Depth=1
	cmpq	%rbx, %r8
	jae	.LBB39_17
# %bb.16:                               # %then.4.i.i.i.i.i
                                        #   in Loop: Header=BB39_3 Depth=1
	cmpb	$13, -1(%r15,%rbx)
	leaq	-1(%rbx), %r10
	cmovneq	%rbx, %r10
	incq	%rbx
	leaq	(%r15,%r8), %rdi
	movq	%r10, %r9
	subq	%r8, %r9
	movzbl	%sil, %esi
	leaq	.LJTI39_0(%rip), %r11
	movslq	(%r11,%rsi,4), %rsi
	addq	%r11, %rsi
	jmpq	*%rsi
.LBB39_17:                              # %join.6.i.i.i.i.i
                                        #   in Loop: Header=BB39_3 Depth=1
	movq	%rbx, %r9
	movq	%rbx, %r10
	incq	%rbx
	leaq	(%r15,%r8), %rdi
	subq	%r8, %r9
	movzbl	%sil, %esi
	leaq	.LJTI39_0(%rip), %r11
	movslq	(%r11,%rsi,4), %rsi
	addq	%r11, %rsi
	jmpq	*%rsi
.LBB39_18:                              # %arm.2.i.i.i.i.i
                                        #   in Loop: Header=BB39_3 Depth=1
	cmpq	$7, %r9
	jb	.LBB39_59
# %bb.19:                               # %"lines::begins_with.exit.i.i.i.i.i.i"
                                        #   in Loop: Header=BB39_3 Depth=1
	movzwl	1(%rdi), %eax
	movd	%eax, %xmm0
	pinsrw	$1, 4(%rdi), %xmm0
	movd	%xmm0, %eax
	cmpl	$1952999781, %eax               # imm = 0x74686965
	jne	.LBB39_59
# %bb.20:                               # %"lines::begins_with.exit.i.i.i.i.i.i"
                                        #   in Loop: Header=BB39_3 Depth=1
	cmpb	$104, (%rdi)
	jne	.LBB39_59
# %bb.21:                               # %"lines::begins_with.exit.i.i.i.i.i.i"
                                        #   in Loop: Header=BB39_3 Depth=1
	cmpb	$32, 6(%rdi)
	jne	.LBB39_59
# %bb.22:                               # %"lines::begins_with.exit.i.i.i.i.i.i"
                                        #   in Loop: Header=BB39_3 Depth=1
	cmpb	$103, 3(%rdi)
	jne	.LBB39_59
# %bb.23:                               # %then.4.i.i.i.i.i.i
                                        #   in Loop: Header=BB39_3 Depth=1
	cmpq	$9, %r9
	je	.LBB39_47
# %bb.24:                               # %then.4.i.i.i.i.i.i
                                        #   in Loop: Header=BB39_3 Depth=1
	cmpq	$8, %r9
	jne	.LBB39_59
# %bb.25:                               # %then.1.i.i.i.i.i.i.i
                                        #   in Loop: Header=BB39_3 Depth=1
	movzbl	7(%rdi), %eax
	addb	$-48, %al
	cmpb	$10, %al
	jb	.LBB39_48
	jmp	.LBB39_59
.LBB39_26:                              # %arm.5.i.i.i.i.i
                                        #   in Loop: Header=BB39_3 Depth=1
	cmpb	%al, %r14b
	jae	.LBB39_59
# %bb.27:                               # %arm.5.i.i.i.i.i
                                        #   in Loop: Header=BB39_3 Depth=1
	movzbl	%cl, %esi
	cmpq	%rsi, %r9
	jne	.LBB39_59
	.p2align	4
# %bb.28:                               # %then.1.i.i127.i.i.i.i.i
                                        #   in Loop: Header=BB39_3 Depth=1
	cmpq	%r8, %r10
	je	.LBB39_1
.LBB39_29:                              # %join.6.i.i.i.i.i.i.i.i
                                        #   Parent Loop BB39_3 Depth=1
                                        # =>  This Inner Loop Header: Depth=2
	movzbl	(%r15,%r8), %esi
	addl	$-46, %esi
	cmpl	$41, %esi
	ja	.LBB39_59
# %bb.30:                               # %join.6.i.i.i.i.i.i.i.i
                                        #   in Loop: Header=BB39_29 Depth=2
	btq	%rsi, %rdx
	jae	.LBB39_59
# %bb.31:                               # %after.7.i.i.i.i.i.i.i.i
                                        #   in Loop: Header=BB39_29 Depth=2
	incq	%r8
	cmpq	%r8, %r10
	jne	.LBB39_29
	jmp	.LBB39_1
.LBB39_32:                              # %arm.3.i.i.i.i.i
                                        #   in Loop: Header=BB39_3 Depth=1
	cmpq	$6, %r9
	jb	.LBB39_59
# %bb.33:                               # %"lines::begins_with.exit.i52.i.i.i.i.i"
                                        #   in Loop: Header=BB39_3 Depth=1
	movzwl	(%rdi), %ecx
	movd	%ecx, %xmm0
	pinsrw	$1, 4(%rdi), %xmm0
	movd	%xmm0, %ecx
	cmpl	$543713655, %ecx                # imm = 0x20686977
	jne	.LBB39_59
# %bb.34:                               # %"lines::begins_with.exit.i52.i.i.i.i.i"
                                        #   in Loop: Header=BB39_3 Depth=1
	cmpb	$116, 3(%rdi)
	jne	.LBB39_59
# %bb.35:                               # %"lines::begins_with.exit.i52.i.i.i.i.i"
                                        #   in Loop: Header=BB39_3 Depth=1
	cmpb	$100, 2(%rdi)
	jne	.LBB39_59
# %bb.36:                               # %then.4.i83.i.i.i.i.i
                                        #   in Loop: Header=BB39_3 Depth=1
	cmpq	$8, %r9
	je	.LBB39_44
# %bb.37:                               # %then.4.i83.i.i.i.i.i
                                        #   in Loop: Header=BB39_3 Depth=1
	cmpq	$7, %r9
	jne	.LBB39_59
# %bb.38:                               # %then.1.i.i102.i.i.i.i.i
                                        #   in Loop: Header=BB39_3 Depth=1
	movzbl	6(%rdi), %ecx
	addb	$-48, %cl
	cmpb	$10, %cl
	jb	.LBB39_45
	jmp	.LBB39_59
.LBB39_39:                              # %arm.4.i.i.i.i.i
                                        #   in Loop: Header=BB39_3 Depth=1
	cmpq	$3, %r9
	jne	.LBB39_59
# %bb.40:                               # %join.5.i.i.i.preheader.i.i.i.i.i
                                        #   in Loop: Header=BB39_3 Depth=1
	cmpb	$109, (%rdi)
	jne	.LBB39_59
# %bb.41:                               # %join.8.i.i.i.i.i.i.i.i
                                        #   in Loop: Header=BB39_3 Depth=1
	cmpb	$97, 1(%rdi)
	jne	.LBB39_59
# %bb.42:                               # %join.8.i.i.i.1.i.i.i.i.i
                                        #   in Loop: Header=BB39_3 Depth=1
	cmpb	$112, 2(%rdi)
	jne	.LBB39_59
# %bb.43:                               #   in Loop: Header=BB39_3 Depth=1
	movb	$4, %sil
	xorl	%r14d, %r14d
	jmp	.LBB39_2
.LBB39_44:                              # %then.4.i.i86.i.i.i.i.i
                                        #   in Loop: Header=BB39_3 Depth=1
	movzbl	6(%rdi), %ecx
	addb	$-48, %cl
	cmpb	$10, %cl
	movzbl	%cl, %ecx
	movl	$100, %edx
	cmovael	%edx, %ecx
	movzbl	7(%rdi), %esi
	movzbl	%cl, %ecx
	addb	$-48, %sil
	cmpb	$10, %sil
	movzbl	%sil, %esi
	cmovael	%edx, %esi
	movzbl	%sil, %edx
	addl	%ecx, %ecx
	leal	(%rcx,%rcx,4), %ecx
	addl	%edx, %ecx
	cmpw	$64, %cx
	ja	.LBB39_59
.LBB39_45:                              # %"sides::side_after.exit106.i.i.i.i.i"
                                        #   in Loop: Header=BB39_3 Depth=1
	testb	%cl, %cl
	je	.LBB39_59
# %bb.46:                               #   in Loop: Header=BB39_3 Depth=1
	movb	$3, %sil
	xorl	%r14d, %r14d
	jmp	.LBB39_2
.LBB39_47:                              # %then.4.i.i.i.i.i.i.i
                                        #   in Loop: Header=BB39_3 Depth=1
	movzbl	7(%rdi), %eax
	addb	$-48, %al
	cmpb	$10, %al
	movzbl	%al, %eax
	movl	$100, %ecx
	cmovael	%ecx, %eax
	movzbl	8(%rdi), %edx
	movzbl	%al, %eax
	addb	$-48, %dl
	cmpb	$10, %dl
	movzbl	%dl, %edx
	cmovael	%ecx, %edx
	movzbl	%dl, %ecx
	addl	%eax, %eax
	leal	(%rax,%rax,4), %eax
	addl	%ecx, %eax
	cmpw	$64, %ax
	ja	.LBB39_59
.LBB39_48:                              # %"sides::side_after.exit.i.i.i.i.i"
                                        #   in Loop: Header=BB39_3 Depth=1
	testb	%al, %al
	je	.LBB39_59
# %bb.49:                               #   in Loop: Header=BB39_3 Depth=1
	movb	$2, %sil
	xorl	%r14d, %r14d
	xorl	%ecx, %ecx
	jmp	.LBB39_2
.LBB39_50:                              # %"sides::read.exit.i.i.i"
	xorb	$4, %sil
	xorb	%al, %r14b
	movzbl	%cl, %ecx
	shll	$8, %ecx
	movzbl	%al, %edi
	orl	%ecx, %edi
	xorl	%eax, %eax
	orb	%sil, %r14b
	cmovel	%edi, %eax
	jne	.LBB39_59
# %bb.51:                               # %arm.1.i.i.i
	testq	%r12, %r12
	je	.LBB39_63
# %bb.52:                               # %join.6.i.i.i.i.preheader
	xorl	%ecx, %ecx
	xorl	%esi, %esi
	xorl	%edi, %edi
	movq	16(%rsp), %r14                  # 8-byte Reload
	jmp	.LBB39_55
	.p2align	4
.LBB39_53:                              # %"stores::store::<i16,21'core::clone::U16Clone{}>.exit.i.i.i.i"
                                        #   in Loop: Header=BB39_55 Depth=1
	movzbl	%r8b, %r8d
	addl	%r8d, %ecx
	incq	%rsi
.LBB39_54:                              # %after.7.i.i.i.i
                                        #   in Loop: Header=BB39_55 Depth=1
	incq	%rdi
	cmpq	%rdi, %r12
	je	.LBB39_62
.LBB39_55:                              # %join.6.i.i.i.i
                                        # =>This Inner Loop Header: Depth=1
	movzbl	(%r15,%rdi), %r10d
	cmpl	$71, %r10d
	sete	%r9b
	subl	$46, %r10d
	sete	%r8b
	cmpl	$41, %r10d
	ja	.LBB39_54
# %bb.56:                               # %join.6.i.i.i.i
                                        #   in Loop: Header=BB39_55 Depth=1
	btq	%r10, %rdx
	jae	.LBB39_54
# %bb.57:                               # %then.8.i.i.i.i
                                        #   in Loop: Header=BB39_55 Depth=1
	orb	%r9b, %r8b
	cmpq	$4095, %rsi                     # imm = 0xFFF
	ja	.LBB39_53
# %bb.58:                               # %then.1.i.i7.i.i.i
                                        #   in Loop: Header=BB39_55 Depth=1
	leal	1(%rcx), %r9d
	xorl	%r10d, %r10d
	testb	%r8b, %r8b
	cmovnel	%r9d, %r10d
	movw	%r10w, 56(%rsp,%rsi,2)
	jmp	.LBB39_53
.LBB39_59:                              # %arm.4.i.i
	movq	8(%rsp), %rax                   # 8-byte Reload
	movq	$0, (%rax)
	movl	$13, %r11d
.LBB39_60:                              # %"sejjekoru::files::sejjekoru_map.exit"
	movl	$1, %eax
.LBB39_61:                              # %"sejjekoru::files::sejjekoru_map.exit"
	movq	%rax, 32(%rsp)
	movq	%r11, 40(%rsp)
	movq	%rbp, 48(%rsp)
	leaq	32(%rsp), %rdi
	movq	24(%rsp), %rsi                  # 8-byte Reload
	callq	"numbers::told"
	addq	$8248, %rsp                     # imm = 0x2038
	.cfi_def_cfa_offset 56
	popq	%rbx
	.cfi_def_cfa_offset 48
	popq	%r12
	.cfi_def_cfa_offset 40
	popq	%r13
	.cfi_def_cfa_offset 32
	popq	%r14
	.cfi_def_cfa_offset 24
	popq	%r15
	.cfi_def_cfa_offset 16
	popq	%rbp
	.cfi_def_cfa_offset 8
	retq
.LBB39_62:                              # %arm.3.loopexit.i.i
	.cfi_def_cfa_offset 8304
	movzwl	%cx, %esi
	jmp	.LBB39_64
.LBB39_63:
	xorl	%esi, %esi
	movq	16(%rsp), %r14                  # 8-byte Reload
.LBB39_64:                              # %arm.3.i.i
	movzbl	%al, %edi
	movzwl	%ax, %eax
	movl	%eax, %r8d
	shrl	$8, %r8d
	imull	%r8d, %edi
	cmpq	$4096, %rdi                     # imm = 0x1000
	movl	$4096, %r9d                     # imm = 0x1000
	cmovbq	%rdi, %r9
	testw	%di, %di
	je	.LBB39_77
# %bb.65:                               # %join.5.lr.ph.i.i.i.i
	cmpl	$256, %eax                      # imm = 0x100
	jb	.LBB39_101
# %bb.66:                               # %join.5.i.i.i.i.preheader
	leaq	(%rsp,%r8,2), %r10
	addq	$56, %r10
	xorl	%ecx, %ecx
	xorl	%ebp, %ebp
	jmp	.LBB39_68
	.p2align	4
.LBB39_67:                              # %"gridmap::put_rails.exit.i.i.i.i"
                                        #   in Loop: Header=BB39_68 Depth=1
	incq	%rcx
	cmpq	%rcx, %rdi
	je	.LBB39_75
.LBB39_68:                              # %join.5.i.i.i.i
                                        # =>This Inner Loop Header: Depth=1
	movb	$1, %r11b
	cmpq	$4095, %rcx                     # imm = 0xFFF
	ja	.LBB39_70
# %bb.69:                               # %then.5.i.i.i.i.i.i
                                        #   in Loop: Header=BB39_68 Depth=1
	cmpw	$0, 56(%rsp,%rcx,2)
	sete	%r11b
.LBB39_70:                              # %"gridmap::number_at.exit.i.i.i.i.i"
                                        #   in Loop: Header=BB39_68 Depth=1
	movl	%ecx, %eax
	xorl	%edx, %edx
	divw	%r8w
                                        # kill: def $dx killed $dx def $edx
	incl	%edx
	cmpw	%r8w, %dx
	jae	.LBB39_73
# %bb.71:                               # %then.3.i.i.i.i.i.i
                                        #   in Loop: Header=BB39_68 Depth=1
	leaq	1(%rcx), %rax
	cmpq	%rdi, %rax
	setb	%al
	cmpq	$4095, %rcx                     # imm = 0xFFF
	setb	%dl
	testb	%dl, %al
	je	.LBB39_73
# %bb.72:                               # %"gridmap::number_beside.exit.i.i.i.i.i"
                                        #   in Loop: Header=BB39_68 Depth=1
	leaq	2(%rbp), %rax
	cmpw	$0, 58(%rsp,%rcx,2)
	cmoveq	%rbp, %rax
	testb	%r11b, %r11b
	cmoveq	%rax, %rbp
.LBB39_73:                              # %"gridmap::put_rail.exit.i.i.i.i.i"
                                        #   in Loop: Header=BB39_68 Depth=1
	leaq	(%r8,%rcx), %rax
	cmpq	%r9, %rax
	jae	.LBB39_67
# %bb.74:                               # %"gridmap::number_at.exit17.i.i.i.i.i"
                                        #   in Loop: Header=BB39_68 Depth=1
	leaq	2(%rbp), %rax
	cmpw	$0, (%r10,%rcx,2)
	cmoveq	%rbp, %rax
	testb	%r11b, %r11b
	cmoveq	%rax, %rbp
	jmp	.LBB39_67
.LBB39_75:                              # %"gridmap::rails.exit.i.i.i"
	cmpq	%rbp, %r14
	jae	.LBB39_79
# %bb.76:                               # %then.1.i.i.i
	movq	8(%rsp), %rax                   # 8-byte Reload
	movq	$0, (%rax)
	movl	$7, %r11d
	jmp	.LBB39_60
.LBB39_77:
	xorl	%r11d, %r11d
.LBB39_78:                              # %"gridmap::rails.exit108.i.i.i"
	movq	8(%rsp), %rax                   # 8-byte Reload
	movq	%rsi, (%rax)
	xorl	%eax, %eax
	xorl	%ebp, %ebp
	jmp	.LBB39_61
.LBB39_79:                              # %join.5.i33.i.i.i.preheader
	xorl	%ecx, %ecx
	xorl	%r11d, %r11d
	jmp	.LBB39_82
	.p2align	4
.LBB39_80:                              # %"stores::store::<i16,21'core::clone::U16Clone{}>.exit9.i26.i.i66.i.i.i"
                                        #   in Loop: Header=BB39_82 Depth=1
	addq	$2, %r11
.LBB39_81:                              # %"gridmap::put_rails.exit.i50.i.i.i"
                                        #   in Loop: Header=BB39_82 Depth=1
	incq	%rcx
	cmpq	%rcx, %rdi
	je	.LBB39_78
.LBB39_82:                              # %join.5.i33.i.i.i
                                        # =>This Inner Loop Header: Depth=1
	cmpq	$4095, %rcx                     # imm = 0xFFF
	ja	.LBB39_84
# %bb.83:                               # %then.5.i.i.i103.i.i.i
                                        #   in Loop: Header=BB39_82 Depth=1
	movzwl	56(%rsp,%rcx,2), %ebx
	jmp	.LBB39_85
	.p2align	4
.LBB39_84:                              #   in Loop: Header=BB39_82 Depth=1
	xorl	%ebx, %ebx
.LBB39_85:                              # %"gridmap::number_at.exit.i.i37.i.i.i"
                                        #   in Loop: Header=BB39_82 Depth=1
	movl	%ecx, %eax
	xorl	%edx, %edx
	divw	%r8w
                                        # kill: def $dx killed $dx def $edx
	incl	%edx
	cmpw	%r8w, %dx
	jae	.LBB39_94
# %bb.86:                               # %then.3.i.i.i76.i.i.i
                                        #   in Loop: Header=BB39_82 Depth=1
	leaq	1(%rcx), %rax
	cmpq	%rdi, %rax
	setb	%al
	cmpq	$4095, %rcx                     # imm = 0xFFF
	setb	%dl
	testb	%dl, %al
	je	.LBB39_94
# %bb.87:                               # %"gridmap::number_beside.exit.i.i81.i.i.i"
                                        #   in Loop: Header=BB39_82 Depth=1
	testw	%bx, %bx
	sete	%al
	je	.LBB39_95
# %bb.88:                               # %"gridmap::number_beside.exit.i.i81.i.i.i"
                                        #   in Loop: Header=BB39_82 Depth=1
	movzwl	58(%rsp,%rcx,2), %edx
	testw	%dx, %dx
	je	.LBB39_95
# %bb.89:                               # %after.1.i.i.i88.i.i.i
                                        #   in Loop: Header=BB39_82 Depth=1
	cmpq	%r14, %r11
	jae	.LBB39_91
# %bb.90:                               # %then.1.i.i.i.i99.i.i.i
                                        #   in Loop: Header=BB39_82 Depth=1
	leal	-1(%rbx), %eax
	movw	%ax, (%r13,%r11,2)
.LBB39_91:                              # %"stores::store::<i16,21'core::clone::U16Clone{}>.exit.i.i.i90.i.i.i"
                                        #   in Loop: Header=BB39_82 Depth=1
	leaq	1(%r11), %rax
	cmpq	%r14, %rax
	jae	.LBB39_93
# %bb.92:                               # %then.1.i6.i.i.i95.i.i.i
                                        #   in Loop: Header=BB39_82 Depth=1
	decl	%edx
	movw	%dx, 2(%r13,%r11,2)
.LBB39_93:                              # %"stores::store::<i16,21'core::clone::U16Clone{}>.exit9.i.i.i93.i.i.i"
                                        #   in Loop: Header=BB39_82 Depth=1
	addq	$2, %r11
	xorl	%eax, %eax
	jmp	.LBB39_95
	.p2align	4
.LBB39_94:                              # %"gridmap::number_beside.exit.thread.i.i43.i.i.i"
                                        #   in Loop: Header=BB39_82 Depth=1
	testw	%bx, %bx
	sete	%al
.LBB39_95:                              # %"gridmap::put_rail.exit.i.i45.i.i.i"
                                        #   in Loop: Header=BB39_82 Depth=1
	leaq	(%r8,%rcx), %rdx
	cmpq	%r9, %rdx
	jae	.LBB39_81
# %bb.96:                               # %"gridmap::number_at.exit17.i.i55.i.i.i"
                                        #   in Loop: Header=BB39_82 Depth=1
	movzwl	(%r10,%rcx,2), %edx
	testw	%dx, %dx
	sete	%bpl
	orb	%bpl, %al
	jne	.LBB39_81
# %bb.97:                               # %after.1.i21.i.i61.i.i.i
                                        #   in Loop: Header=BB39_82 Depth=1
	cmpq	%r14, %r11
	jae	.LBB39_99
# %bb.98:                               # %then.1.i.i33.i.i72.i.i.i
                                        #   in Loop: Header=BB39_82 Depth=1
	decl	%ebx
	movw	%bx, (%r13,%r11,2)
.LBB39_99:                              # %"stores::store::<i16,21'core::clone::U16Clone{}>.exit.i23.i.i63.i.i.i"
                                        #   in Loop: Header=BB39_82 Depth=1
	leaq	1(%r11), %rax
	cmpq	%r14, %rax
	jae	.LBB39_80
# %bb.100:                              # %then.1.i6.i29.i.i68.i.i.i
                                        #   in Loop: Header=BB39_82 Depth=1
	decl	%edx
	movw	%dx, 2(%r13,%r11,2)
	jmp	.LBB39_80
.LBB39_101:                             # %trap.1.i.i.i.i.i.i
	ud2
.Lfunc_end39:
	.size	sejjekoru_map, .Lfunc_end39-sejjekoru_map
	.cfi_endproc
	.section	.rodata.sejjekoru_map,"a",@progbits
	.p2align	2, 0x0
.LJTI39_0:
	.long	.LBB39_10-.LJTI39_0
	.long	.LBB39_18-.LJTI39_0
	.long	.LBB39_32-.LJTI39_0
	.long	.LBB39_39-.LJTI39_0
	.long	.LBB39_26-.LJTI39_0
                                        # -- End function
	.section	.rodata.cst16,"aM",@progbits,16
	.p2align	4, 0x0                          # -- Begin function sejjekoru_open
.LCPI40_0:
	.zero	16,2
.LCPI40_1:
	.byte	1                               # 0x1
	.byte	1                               # 0x1
	.byte	1                               # 0x1
	.byte	1                               # 0x1
	.byte	1                               # 0x1
	.byte	1                               # 0x1
	.byte	1                               # 0x1
	.byte	1                               # 0x1
	.zero	1
	.zero	1
	.zero	1
	.zero	1
	.zero	1
	.zero	1
	.zero	1
	.zero	1
.LCPI40_2:
	.zero	16,1
	.section	.text.sejjekoru_open,"ax",@progbits
	.globl	sejjekoru_open
	.p2align	4
	.type	sejjekoru_open,@function
sejjekoru_open:                         # @sejjekoru_open
	.cfi_startproc
# %bb.0:                                # %start
	pushq	%rbp
	.cfi_def_cfa_offset 16
	pushq	%r15
	.cfi_def_cfa_offset 24
	pushq	%r14
	.cfi_def_cfa_offset 32
	pushq	%r13
	.cfi_def_cfa_offset 40
	pushq	%r12
	.cfi_def_cfa_offset 48
	pushq	%rbx
	.cfi_def_cfa_offset 56
	subq	$3072, %rsp                     # imm = 0xC00
	.cfi_adjust_cfa_offset 3072
	movq	$0, (%rsp)
	subq	$3072, %rsp                     # imm = 0xC00
	.cfi_adjust_cfa_offset 3072
	movq	$0, (%rsp)
	subq	$3072, %rsp                     # imm = 0xC00
	.cfi_adjust_cfa_offset 3072
	movq	$0, (%rsp)
	subq	$1688, %rsp                     # imm = 0x698
	.cfi_def_cfa_offset 10960
	.cfi_offset %rbx, -56
	.cfi_offset %r12, -48
	.cfi_offset %r13, -40
	.cfi_offset %r14, -32
	.cfi_offset %r15, -24
	.cfi_offset %rbp, -16
	movq	%r8, %r14
	movq	%rdx, 88(%rsp)                  # 8-byte Spill
	movq	%rdi, 80(%rsp)                  # 8-byte Spill
	movq	10968(%rsp), %rax
	xorl	%ebx, %ebx
	testq	%rsi, %rsi
	sete	%bl
	shll	$12, %ebx
	addq	%rsi, %rbx
	xorl	%r12d, %r12d
	testq	%rcx, %rcx
	sete	%r12b
	shll	$12, %r12d
	addq	%rcx, %r12
	xorl	%ebp, %ebp
	testq	%r9, %r9
	sete	%bpl
	shll	$12, %ebp
	addq	%r9, %rbp
	xorl	%r13d, %r13d
	testq	%rax, %rax
	sete	%r13b
	shll	$12, %r13d
	addq	%rax, %r13
	xorl	%r15d, %r15d
	cmpq	$0, 10984(%rsp)
	sete	46(%rsp)                        # 1-byte Folded Spill
	cmpq	$0, 11008(%rsp)
	sete	47(%rsp)                        # 1-byte Folded Spill
	leaq	3704(%rsp), %rdi
	movl	$520, %edx                      # imm = 0x208
	xorl	%esi, %esi
	callq	memset@PLT
	leaq	7832(%rsp), %rdi
	movl	$3072, %edx                     # imm = 0xC00
	xorl	%esi, %esi
	callq	memset@PLT
	leaq	4224(%rsp), %rdi
	movl	$3608, %edx                     # imm = 0xE18
	xorl	%esi, %esi
	callq	memset@PLT
	pxor	%xmm0, %xmm0
	movdqa	%xmm0, 48(%rsp)
	movq	$0, 64(%rsp)
	movq	10976(%rsp), %rax
	movq	%rax, 24(%rsp)
	movq	%r13, 16(%rsp)
	movq	10960(%rsp), %rax
	movq	%rax, 8(%rsp)
	movq	%rbp, (%rsp)
	leaq	48(%rsp), %rdi
	movq	80(%rsp), %rsi                  # 8-byte Reload
	movq	%rbx, %rdx
	movq	88(%rsp), %rcx                  # 8-byte Reload
	movq	%r12, %r8
	movq	%r14, %r9
	callq	"checker::check"
	cmpb	$0, 48(%rsp)
	je	.LBB40_1
# %bb.34:                               # %arm.2.i.i.i
	movq	64(%rsp), %r12
	movl	60(%rsp), %r14d
	movzwl	58(%rsp), %r15d
	movzbl	56(%rsp), %ebx
	leaq	96(%rsp), %rdi
	movl	$520, %edx                      # imm = 0x208
	movq	11000(%rsp), %r13
	movq	%r13, %rsi
	callq	memcpy@PLT
	leaq	624(%rsp), %rdi
	movl	$3072, %edx                     # imm = 0xC00
	xorl	%esi, %esi
	callq	memset@PLT
	movzbl	%bl, %eax
	leaq	.LJTI40_0(%rip), %rcx
	movslq	(%rcx,%rax,4), %rax
	addq	%rcx, %rax
	jmpq	*%rax
.LBB40_35:
	xorl	%r12d, %r12d
.LBB40_36:                              # %arm.2.i.i.i.i.i.i
	movq	11024(%rsp), %rax
	movq	%r12, (%rax)
	movzbl	%bl, %eax
	leaq	.Lswitch.table.sejjekoru_slots(%rip), %rcx
	movq	(%rcx,%rax,8), %r15
.LBB40_42:                              # %"sejjekoru::open_on.exit.i"
	xorl	%r12d, %r12d
	jmp	.LBB40_43
.LBB40_1:                               # %arm.1.i.i.i.i
	movzbl	46(%rsp), %eax                  # 1-byte Folded Reload
	movq	10984(%rsp), %rcx
	movq	11000(%rsp), %rbp
	movq	10992(%rsp), %r8
	cmpq	10976(%rsp), %r8
	jne	.LBB40_28
# %bb.2:                                # %else.2.i.i.i.i.i
	movb	%al, %r15b
	shll	$12, %r15d
	leaq	(%rcx,%r15), %r9
	testq	%r8, %r8
	je	.LBB40_21
# %bb.3:                                # %iter.check
	cmpq	$8, %r8
	jae	.LBB40_6
# %bb.4:
	xorl	%ecx, %ecx
	xorl	%eax, %eax
	jmp	.LBB40_5
.LBB40_21:                              # %else.5.thread.i.i.i.i.i
	pxor	%xmm0, %xmm0
	movdqa	%xmm0, 624(%rsp)
	movdqa	%xmm0, 640(%rsp)
	movdqa	%xmm0, 656(%rsp)
	movdqa	%xmm0, 672(%rsp)
	movdqa	%xmm0, 688(%rsp)
	movdqa	%xmm0, 704(%rsp)
	movdqa	%xmm0, 720(%rsp)
	movdqa	%xmm0, 736(%rsp)
	movdqa	%xmm0, 752(%rsp)
	movdqa	%xmm0, 768(%rsp)
	movdqa	%xmm0, 784(%rsp)
	movdqa	%xmm0, 800(%rsp)
	movdqa	%xmm0, 816(%rsp)
	movdqa	%xmm0, 832(%rsp)
	movdqa	%xmm0, 848(%rsp)
	movdqa	%xmm0, 864(%rsp)
	movdqa	%xmm0, 96(%rsp)
	movdqa	%xmm0, 112(%rsp)
	movdqa	%xmm0, 128(%rsp)
	movdqa	%xmm0, 144(%rsp)
	movdqa	%xmm0, 160(%rsp)
	movdqa	%xmm0, 176(%rsp)
	movdqa	%xmm0, 192(%rsp)
	movdqa	%xmm0, 208(%rsp)
	movdqa	%xmm0, 224(%rsp)
	movdqa	%xmm0, 240(%rsp)
	movdqa	%xmm0, 256(%rsp)
	movdqa	%xmm0, 272(%rsp)
	movdqa	%xmm0, 288(%rsp)
	movdqa	%xmm0, 304(%rsp)
	movdqa	%xmm0, 320(%rsp)
	movdqa	%xmm0, 336(%rsp)
	jmp	.LBB40_22
.LBB40_6:                               # %vector.main.loop.iter.check
	cmpq	$32, %r8
	jae	.LBB40_8
# %bb.7:
	xorl	%eax, %eax
	xorl	%ecx, %ecx
	jmp	.LBB40_12
.LBB40_8:                               # %vector.ph
	movq	%r8, %rax
	andq	$-32, %rax
	addq	%r15, %rcx
	addq	$16, %rcx
	pxor	%xmm0, %xmm0
	xorl	%edx, %edx
	pxor	%xmm1, %xmm1
	.p2align	4
.LBB40_9:                               # %vector.body
                                        # =>This Inner Loop Header: Depth=1
	movdqu	-16(%rcx,%rdx), %xmm2
	movdqu	(%rcx,%rdx), %xmm3
	movdqa	.LCPI40_0(%rip), %xmm4          # xmm4 = [2,2,2,2,2,2,2,2,2,2,2,2,2,2,2,2]
	movdqa	%xmm2, %xmm5
	pmaxub	%xmm4, %xmm5
	pcmpeqb	%xmm2, %xmm5
	por	%xmm5, %xmm1
	pmaxub	%xmm3, %xmm4
	pcmpeqb	%xmm3, %xmm4
	por	%xmm4, %xmm0
	addq	$32, %rdx
	cmpq	%rdx, %rax
	jne	.LBB40_9
# %bb.10:                               # %middle.block
	por	%xmm1, %xmm0
	psllw	$7, %xmm0
	pmovmskb	%xmm0, %ecx
	testl	%ecx, %ecx
	setne	%cl
	cmpq	%rax, %r8
	je	.LBB40_16
# %bb.11:                               # %vec.epilog.iter.check
	testb	$24, %r8b
	je	.LBB40_5
.LBB40_12:                              # %vec.epilog.ph
	movq	%rax, %rdx
	movq	%r8, %rax
	andq	$-8, %rax
	movzbl	%cl, %ecx
	movd	%ecx, %xmm0
	.p2align	4
.LBB40_13:                              # %vec.epilog.vector.body
                                        # =>This Inner Loop Header: Depth=1
	movq	(%r9,%rdx), %xmm1               # xmm1 = mem[0],zero
	movdqa	.LCPI40_1(%rip), %xmm2          # xmm2 = [1,1,1,1,1,1,1,1,u,u,u,u,u,u,u,u]
	pminub	%xmm1, %xmm2
	pcmpeqb	%xmm1, %xmm2
	punpcklbw	%xmm2, %xmm2            # xmm2 = xmm2[0,0,1,1,2,2,3,3,4,4,5,5,6,6,7,7]
	pcmpeqd	%xmm1, %xmm1
	pxor	%xmm2, %xmm1
	por	%xmm1, %xmm0
	addq	$8, %rdx
	cmpq	%rdx, %rax
	jne	.LBB40_13
# %bb.14:                               # %vec.epilog.middle.block
	psllw	$7, %xmm0
	pmovmskb	%xmm0, %ecx
	testl	$21845, %ecx                    # imm = 0x5555
	setne	%cl
	jmp	.LBB40_15
.LBB40_39:                              # %"docket::carried.exit.thread13.i.i.i.i"
	movq	11024(%rsp), %rax
	movq	%r14, (%rax)
	movl	$6, %r15d
	jmp	.LBB40_42
.LBB40_40:                              # %"docket::carried.exit.thread15.i.i.i.i"
	movq	11024(%rsp), %rax
	movq	%r14, (%rax)
	movl	$7, %r15d
	jmp	.LBB40_42
.LBB40_37:                              # %"docket::carried.exit.thread.i.i.i.i"
	movq	11024(%rsp), %rax
	movq	%r15, (%rax)
	movl	$3, %r15d
	jmp	.LBB40_42
.LBB40_41:                              # %"docket::carried.exit.thread17.i.i.i.i"
	movq	11024(%rsp), %rax
	movq	%r14, (%rax)
	movl	$10, %r15d
	jmp	.LBB40_42
.LBB40_38:                              # %"docket::carried.exit.thread11.i.i.i.i"
	movq	11024(%rsp), %rax
	movq	%r14, (%rax)
	movl	$5, %r15d
	jmp	.LBB40_42
.LBB40_5:                               # %join.6.i.i.i.i.i.i
	cmpb	$2, (%r9,%rax)
	setae	%dl
	orb	%dl, %cl
	incq	%rax
.LBB40_15:                              # %join.6.i.i.i.i.i.i
	cmpq	%rax, %r8
	jne	.LBB40_5
.LBB40_16:                              # %join.3.i.i.i.i.i
	testb	$1, %cl
	je	.LBB40_17
.LBB40_28:                              # %"docket::carried.exit.i.i.thread.i.i"
	leaq	96(%rsp), %rdi
	movl	$520, %edx                      # imm = 0x208
	movq	%rbp, %r13
	movq	%rbp, %rsi
	callq	memcpy@PLT
	leaq	624(%rsp), %rdi
	xorl	%r12d, %r12d
	movl	$3072, %edx                     # imm = 0xC00
	xorl	%esi, %esi
	callq	memset@PLT
	movq	11024(%rsp), %rax
	movq	$0, (%rax)
	movl	$11, %r15d
.LBB40_43:                              # %"sejjekoru::open_on.exit.i"
	leaq	3704(%rsp), %rbx
	leaq	96(%rsp), %rsi
	movl	$520, %edx                      # imm = 0x208
	movq	%rbx, %rdi
	callq	memcpy@PLT
	leaq	7832(%rsp), %r14
	leaq	624(%rsp), %rsi
	movl	$3072, %edx                     # imm = 0xC00
	movq	%r14, %rdi
	callq	memcpy@PLT
	movl	$520, %edx                      # imm = 0x208
	movq	%r13, %rdi
	movq	%rbx, %rsi
	callq	memcpy@PLT
	leaq	4224(%rsp), %rdi
	movl	$3072, %edx                     # imm = 0xC00
	movq	%r14, %rsi
	callq	memcpy@PLT
	testq	%r12, %r12
	je	.LBB40_45
# %bb.44:                               # %join.5.i.i.preheader.i
	xorl	%eax, %eax
	movzbl	47(%rsp), %ecx                  # 1-byte Folded Reload
	movb	%cl, %al
	shll	$12, %eax
	movq	11008(%rsp), %rdi
	addq	%rax, %rdi
	shlq	$2, %r12
	leaq	(%r12,%r12,2), %rdx
	leaq	4224(%rsp), %rsi
	callq	memcpy@PLT
.LBB40_45:                              # %"sejjekoru::sejjekoru_open.exit"
	movq	%r15, %rax
	addq	$10904, %rsp                    # imm = 0x2A98
	.cfi_def_cfa_offset 56
	popq	%rbx
	.cfi_def_cfa_offset 48
	popq	%r12
	.cfi_def_cfa_offset 40
	popq	%r13
	.cfi_def_cfa_offset 32
	popq	%r14
	.cfi_def_cfa_offset 24
	popq	%r15
	.cfi_def_cfa_offset 16
	popq	%rbp
	.cfi_def_cfa_offset 8
	retq
.LBB40_17:                              # %else.5.i.i.i.i.i
	.cfi_def_cfa_offset 10960
	pxor	%xmm0, %xmm0
	movdqa	%xmm0, 624(%rsp)
	movdqa	%xmm0, 640(%rsp)
	movdqa	%xmm0, 656(%rsp)
	movdqa	%xmm0, 672(%rsp)
	movdqa	%xmm0, 688(%rsp)
	movdqa	%xmm0, 704(%rsp)
	movdqa	%xmm0, 720(%rsp)
	movdqa	%xmm0, 736(%rsp)
	movdqa	%xmm0, 752(%rsp)
	movdqa	%xmm0, 768(%rsp)
	movdqa	%xmm0, 784(%rsp)
	movdqa	%xmm0, 800(%rsp)
	movdqa	%xmm0, 816(%rsp)
	movdqa	%xmm0, 832(%rsp)
	movdqa	%xmm0, 848(%rsp)
	movdqa	%xmm0, 864(%rsp)
	movdqa	%xmm0, 96(%rsp)
	movdqa	%xmm0, 112(%rsp)
	movdqa	%xmm0, 128(%rsp)
	movdqa	%xmm0, 144(%rsp)
	movdqa	%xmm0, 160(%rsp)
	movdqa	%xmm0, 176(%rsp)
	movdqa	%xmm0, 192(%rsp)
	movdqa	%xmm0, 208(%rsp)
	movdqa	%xmm0, 224(%rsp)
	movdqa	%xmm0, 240(%rsp)
	movdqa	%xmm0, 256(%rsp)
	movdqa	%xmm0, 272(%rsp)
	movdqa	%xmm0, 288(%rsp)
	movdqa	%xmm0, 304(%rsp)
	movdqa	%xmm0, 320(%rsp)
	movdqa	%xmm0, 336(%rsp)
	movq	%r8, %rcx
	shrq	$6, %rcx
	je	.LBB40_22
# %bb.18:                               # %join.5.i.i.i.i.i.i.i.preheader
	xorl	%eax, %eax
	.p2align	4
.LBB40_20:                              # %join.5.i.i.i.i.i.i.i
                                        # =>This Inner Loop Header: Depth=1
	movdqu	(%r9,%rax), %xmm0
	movdqu	16(%r9,%rax), %xmm1
	movdqu	32(%r9,%rax), %xmm2
	movdqu	48(%r9,%rax), %xmm3
	movdqa	.LCPI40_2(%rip), %xmm4          # xmm4 = [1,1,1,1,1,1,1,1,1,1,1,1,1,1,1,1]
	pcmpeqb	%xmm4, %xmm3
	pcmpeqb	%xmm4, %xmm1
	pand	%xmm3, %xmm1
	pcmpeqb	%xmm4, %xmm2
	pcmpeqb	%xmm4, %xmm0
	pand	%xmm2, %xmm0
	pand	%xmm1, %xmm0
	pmovmskb	%xmm0, %edx
	xorl	$65535, %edx                    # imm = 0xFFFF
	jne	.LBB40_23
# %bb.19:                               # %loop.2.i.i.i.i.i.i.i
                                        #   in Loop: Header=BB40_20 Depth=1
	addq	$64, %rax
	decq	%rcx
	jne	.LBB40_20
.LBB40_22:                              # %after.1.i.i.i.i.i.i.i
	movq	%r8, %rax
	andq	$-64, %rax
.LBB40_23:                              # %"mark_order::done_to.exit.i.i.i.i.i.i"
	cmpq	%r8, %rax
	jb	.LBB40_24
.LBB40_31:                              # %join.4.i.i.i
	movq	11016(%rsp), %rdx
	cmpq	%r14, %rdx
	jne	.LBB40_32
# %bb.33:                               # %arm.1.i4.i.i
	movq	$0, (%rsp)
	leaq	4224(%rsp), %rbx
	movq	%rbx, %rdi
	movq	%r12, %rsi
	movq	%r13, %rcx
	callq	"agreeing::work_out"
	movq	4744(%rsp), %r12
	leaq	4752(%rsp), %r14
	leaq	96(%rsp), %rdi
	movl	$520, %edx                      # imm = 0x208
	movq	%rbx, %rsi
	callq	memcpy@PLT
	leaq	624(%rsp), %rdi
	movl	$3072, %edx                     # imm = 0xC00
	movq	%r14, %rsi
	callq	memcpy@PLT
	movq	11024(%rsp), %rax
	movq	$0, (%rax)
	xorl	%r15d, %r15d
	movq	%rbp, %r13
	jmp	.LBB40_43
	.p2align	4
.LBB40_29:                              # %else.7.i.i.i.i.i.i
                                        #   in Loop: Header=BB40_24 Depth=1
	movb	$1, 624(%rsp,%rsi)
	movb	$1, 96(%rsp,%rdx)
	movb	$1, 96(%rsp,%rcx)
.LBB40_30:                              # %join.8.i.i.i.i.i.i
                                        #   in Loop: Header=BB40_24 Depth=1
	incq	%rax
	cmpq	%rax, %r8
	je	.LBB40_31
.LBB40_24:                              # %join.5.i.i.i.i.i.i
                                        # =>This Inner Loop Header: Depth=1
	movq	(%r13,%rax,8), %rsi
	movl	%esi, %edx
	movzwl	%si, %ecx
	shrq	$32, %rsi
	shrl	$16, %edx
	cmpb	$1, (%r9,%rax)
	jne	.LBB40_29
# %bb.25:                               # %then.6.i.i.i.i.i.i
                                        #   in Loop: Header=BB40_24 Depth=1
	cmpb	$1, 624(%rsp,%rsi)
	je	.LBB40_28
# %bb.26:                               # %join.3.i.i.i.i.i.i.i
                                        #   in Loop: Header=BB40_24 Depth=1
	cmpb	$1, 96(%rsp,%rdx)
	je	.LBB40_28
# %bb.27:                               # %"mark_order::touched.exit.i.i.i.i.i.i"
                                        #   in Loop: Header=BB40_24 Depth=1
	cmpb	$1, 96(%rsp,%rcx)
	jne	.LBB40_30
	jmp	.LBB40_28
.LBB40_32:                              # %arm.2.i.thread.i.i
	leaq	96(%rsp), %rdi
	movl	$520, %edx                      # imm = 0x208
	movq	%rbp, %r13
	movq	%rbp, %rsi
	callq	memcpy@PLT
	leaq	624(%rsp), %rdi
	movl	$3072, %edx                     # imm = 0xC00
	xorl	%esi, %esi
	callq	memset@PLT
	movb	$7, %bl
	movq	%r14, %r12
	jmp	.LBB40_36
.Lfunc_end40:
	.size	sejjekoru_open, .Lfunc_end40-sejjekoru_open
	.cfi_endproc
	.section	.rodata.sejjekoru_open,"a",@progbits
	.p2align	2, 0x0
.LJTI40_0:
	.long	.LBB40_35-.LJTI40_0
	.long	.LBB40_36-.LJTI40_0
	.long	.LBB40_37-.LJTI40_0
	.long	.LBB40_35-.LJTI40_0
	.long	.LBB40_38-.LJTI40_0
	.long	.LBB40_39-.LJTI40_0
	.long	.LBB40_40-.LJTI40_0
	.long	.LBB40_36-.LJTI40_0
	.long	.LBB40_36-.LJTI40_0
	.long	.LBB40_41-.LJTI40_0
	.long	.LBB40_35-.LJTI40_0
	.long	.LBB40_35-.LJTI40_0
	.long	.LBB40_36-.LJTI40_0
	.long	.LBB40_36-.LJTI40_0
	.long	.LBB40_36-.LJTI40_0
	.long	.LBB40_36-.LJTI40_0
	.long	.LBB40_35-.LJTI40_0
	.long	.LBB40_35-.LJTI40_0
	.long	.LBB40_35-.LJTI40_0
	.long	.LBB40_35-.LJTI40_0
	.long	.LBB40_35-.LJTI40_0
	.long	.LBB40_36-.LJTI40_0
	.long	.LBB40_36-.LJTI40_0
                                        # -- End function
	.section	.rodata.cst16,"aM",@progbits,16
	.p2align	4, 0x0                          # -- Begin function sejjekoru_placement
.LCPI41_0:
	.zero	16,2
.LCPI41_1:
	.byte	1                               # 0x1
	.byte	1                               # 0x1
	.byte	1                               # 0x1
	.byte	1                               # 0x1
	.byte	1                               # 0x1
	.byte	1                               # 0x1
	.byte	1                               # 0x1
	.byte	1                               # 0x1
	.zero	1
	.zero	1
	.zero	1
	.zero	1
	.zero	1
	.zero	1
	.zero	1
	.zero	1
.LCPI41_2:
	.zero	16,1
	.section	.text.sejjekoru_placement,"ax",@progbits
	.globl	sejjekoru_placement
	.p2align	4
	.type	sejjekoru_placement,@function
sejjekoru_placement:                    # @sejjekoru_placement
	.cfi_startproc
# %bb.0:                                # %start
	pushq	%rbp
	.cfi_def_cfa_offset 16
	pushq	%r15
	.cfi_def_cfa_offset 24
	pushq	%r14
	.cfi_def_cfa_offset 32
	pushq	%r13
	.cfi_def_cfa_offset 40
	pushq	%r12
	.cfi_def_cfa_offset 48
	pushq	%rbx
	.cfi_def_cfa_offset 56
	subq	$648, %rsp                      # imm = 0x288
	.cfi_def_cfa_offset 704
	.cfi_offset %rbx, -56
	.cfi_offset %r12, -48
	.cfi_offset %r13, -40
	.cfi_offset %r14, -32
	.cfi_offset %r15, -24
	.cfi_offset %rbp, -16
	movq	%r8, %r10
	movq	%rcx, %rbx
	movq	%rdx, %rcx
	movq	%rdi, %rax
	movq	712(%rsp), %r8
	xorl	%edx, %edx
	testq	%rsi, %rsi
	sete	%dl
	shll	$12, %edx
	addq	%rsi, %rdx
	xorl	%ebp, %ebp
	testq	%rbx, %rbx
	sete	%bpl
	shll	$12, %ebp
	xorl	%esi, %esi
	testq	%r9, %r9
	sete	%sil
	shll	$12, %esi
	addq	%r9, %rsi
	xorl	%r13d, %r13d
	testq	%r8, %r8
	sete	%r13b
	shll	$12, %r13d
	cmpq	$0, 728(%rsp)
	sete	88(%rsp)                        # 1-byte Folded Spill
	cmpq	$0, 744(%rsp)
	sete	47(%rsp)                        # 1-byte Folded Spill
	pxor	%xmm0, %xmm0
	movdqa	%xmm0, 48(%rsp)
	movq	$0, 64(%rsp)
	movdqa	%xmm0, 96(%rsp)
	movq	$0, 112(%rsp)
	movq	720(%rsp), %r9
	movq	704(%rsp), %rdi
	leaq	(%rbx,%rbp), %r14
	leaq	(%r8,%r13), %r12
	movq	%r9, 24(%rsp)
	movq	%rdi, 8(%rsp)
	movq	%r12, 16(%rsp)
	movq	%rsi, (%rsp)
	leaq	96(%rsp), %rdi
	movq	%rax, %rsi
	movq	%r14, %r8
	movq	%r10, %r15
	movq	%r10, %r9
	callq	"checker::check"
	cmpb	$0, 96(%rsp)
	je	.LBB41_2
# %bb.1:                                # %arm.2.i.i
	movq	112(%rsp), %rax
	movzbl	104(%rsp), %ecx
	movq	$1, 48(%rsp)
	movl	108(%rsp), %edx
	shlq	$32, %rdx
	movzwl	106(%rsp), %esi
	shll	$16, %esi
	orq	%rdx, %rsi
	orq	%rcx, %rsi
	movq	%rsi, 56(%rsp)
	movq	%rax, 64(%rsp)
	movq	760(%rsp), %rsi
	jmp	.LBB41_69
.LBB41_2:                               # %arm.1.i.i
	movzbl	88(%rsp), %eax                  # 1-byte Folded Reload
	movq	%r12, %r9
	movq	728(%rsp), %r12
	movq	736(%rsp), %rcx
	cmpq	720(%rsp), %rcx
	movq	760(%rsp), %rsi
	jne	.LBB41_34
# %bb.3:                                # %else.2.i.i.i
	movq	%r14, %r10
	movq	%rbp, %r11
	movq	%rbx, %r8
	xorl	%edi, %edi
	movb	%al, %dil
	shll	$12, %edi
	movq	%r12, %rbp
	leaq	(%r12,%rdi), %rax
	testq	%rcx, %rcx
	movq	%rdi, 88(%rsp)                  # 8-byte Spill
	je	.LBB41_6
# %bb.4:                                # %iter.check
	movq	%rsi, %rbx
	cmpq	$8, %rcx
	jae	.LBB41_7
# %bb.5:
	xorl	%esi, %esi
	xorl	%edx, %edx
	jmp	.LBB41_16
.LBB41_6:                               # %else.5.thread.i.i.i
	movq	%rsi, %r14
	pxor	%xmm0, %xmm0
	movdqa	%xmm0, 384(%rsp)
	movdqa	%xmm0, 400(%rsp)
	movdqa	%xmm0, 416(%rsp)
	movdqa	%xmm0, 432(%rsp)
	movdqa	%xmm0, 448(%rsp)
	movdqa	%xmm0, 464(%rsp)
	movdqa	%xmm0, 480(%rsp)
	movdqa	%xmm0, 496(%rsp)
	movdqa	%xmm0, 512(%rsp)
	movdqa	%xmm0, 528(%rsp)
	movdqa	%xmm0, 544(%rsp)
	movdqa	%xmm0, 560(%rsp)
	movdqa	%xmm0, 576(%rsp)
	movdqa	%xmm0, 592(%rsp)
	movdqa	%xmm0, 608(%rsp)
	movdqa	%xmm0, 624(%rsp)
	movdqa	%xmm0, 128(%rsp)
	movdqa	%xmm0, 144(%rsp)
	movdqa	%xmm0, 160(%rsp)
	movdqa	%xmm0, 176(%rsp)
	movdqa	%xmm0, 192(%rsp)
	movdqa	%xmm0, 208(%rsp)
	movdqa	%xmm0, 224(%rsp)
	movdqa	%xmm0, 240(%rsp)
	movdqa	%xmm0, 256(%rsp)
	movdqa	%xmm0, 272(%rsp)
	movdqa	%xmm0, 288(%rsp)
	movdqa	%xmm0, 304(%rsp)
	movdqa	%xmm0, 320(%rsp)
	movdqa	%xmm0, 336(%rsp)
	movdqa	%xmm0, 352(%rsp)
	movdqa	%xmm0, 368(%rsp)
	movq	%r15, %rbx
	movq	%r9, %r15
	movq	%r8, 80(%rsp)                   # 8-byte Spill
	xorl	%r12d, %r12d
	movq	%r10, %r9
	jmp	.LBB41_23
.LBB41_7:                               # %vector.main.loop.iter.check
	cmpq	$32, %rcx
	jae	.LBB41_9
# %bb.8:
	xorl	%edx, %edx
	xorl	%esi, %esi
	jmp	.LBB41_13
.LBB41_9:                               # %vector.ph
	movq	%rcx, %rdx
	andq	$-32, %rdx
	leaq	(%rdi,%rbp), %rsi
	addq	$16, %rsi
	pxor	%xmm0, %xmm0
	xorl	%edi, %edi
	pxor	%xmm1, %xmm1
	.p2align	4
.LBB41_10:                              # %vector.body
                                        # =>This Inner Loop Header: Depth=1
	movdqu	-16(%rsi,%rdi), %xmm2
	movdqu	(%rsi,%rdi), %xmm3
	movdqa	.LCPI41_0(%rip), %xmm4          # xmm4 = [2,2,2,2,2,2,2,2,2,2,2,2,2,2,2,2]
	movdqa	%xmm2, %xmm5
	pmaxub	%xmm4, %xmm5
	pcmpeqb	%xmm2, %xmm5
	por	%xmm5, %xmm1
	pmaxub	%xmm3, %xmm4
	pcmpeqb	%xmm3, %xmm4
	por	%xmm4, %xmm0
	addq	$32, %rdi
	cmpq	%rdi, %rdx
	jne	.LBB41_10
# %bb.11:                               # %middle.block
	por	%xmm1, %xmm0
	psllw	$7, %xmm0
	pmovmskb	%xmm0, %esi
	testl	%esi, %esi
	setne	%sil
	cmpq	%rdx, %rcx
	je	.LBB41_18
# %bb.12:                               # %vec.epilog.iter.check
	testb	$24, %cl
	je	.LBB41_16
.LBB41_13:                              # %vec.epilog.ph
	movq	%rdx, %rdi
	movq	%rcx, %rdx
	andq	$-8, %rdx
	movzbl	%sil, %esi
	movd	%esi, %xmm0
	.p2align	4
.LBB41_14:                              # %vec.epilog.vector.body
                                        # =>This Inner Loop Header: Depth=1
	movq	(%rax,%rdi), %xmm1              # xmm1 = mem[0],zero
	movdqa	.LCPI41_1(%rip), %xmm2          # xmm2 = [1,1,1,1,1,1,1,1,u,u,u,u,u,u,u,u]
	pminub	%xmm1, %xmm2
	pcmpeqb	%xmm1, %xmm2
	punpcklbw	%xmm2, %xmm2            # xmm2 = xmm2[0,0,1,1,2,2,3,3,4,4,5,5,6,6,7,7]
	pcmpeqd	%xmm1, %xmm1
	pxor	%xmm2, %xmm1
	por	%xmm1, %xmm0
	addq	$8, %rdi
	cmpq	%rdi, %rdx
	jne	.LBB41_14
# %bb.15:                               # %vec.epilog.middle.block
	psllw	$7, %xmm0
	pmovmskb	%xmm0, %esi
	testl	$21845, %esi                    # imm = 0x5555
	setne	%sil
	jmp	.LBB41_17
.LBB41_16:                              # %join.6.i.i.i.i
	cmpb	$2, (%rax,%rdx)
	setae	%dil
	orb	%dil, %sil
	incq	%rdx
.LBB41_17:                              # %join.6.i.i.i.i
	cmpq	%rdx, %rcx
	jne	.LBB41_16
.LBB41_18:                              # %join.3.i.i.i
	testb	$1, %sil
	movq	%rbx, %rsi
	jne	.LBB41_34
# %bb.19:                               # %else.5.i.i.i
	movq	%rsi, %r14
	pxor	%xmm0, %xmm0
	movdqa	%xmm0, 384(%rsp)
	movdqa	%xmm0, 400(%rsp)
	movdqa	%xmm0, 416(%rsp)
	movdqa	%xmm0, 432(%rsp)
	movdqa	%xmm0, 448(%rsp)
	movdqa	%xmm0, 464(%rsp)
	movdqa	%xmm0, 480(%rsp)
	movdqa	%xmm0, 496(%rsp)
	movdqa	%xmm0, 512(%rsp)
	movdqa	%xmm0, 528(%rsp)
	movdqa	%xmm0, 544(%rsp)
	movdqa	%xmm0, 560(%rsp)
	movdqa	%xmm0, 576(%rsp)
	movdqa	%xmm0, 592(%rsp)
	movdqa	%xmm0, 608(%rsp)
	movdqa	%xmm0, 624(%rsp)
	movdqa	%xmm0, 128(%rsp)
	movdqa	%xmm0, 144(%rsp)
	movdqa	%xmm0, 160(%rsp)
	movdqa	%xmm0, 176(%rsp)
	movdqa	%xmm0, 192(%rsp)
	movdqa	%xmm0, 208(%rsp)
	movdqa	%xmm0, 224(%rsp)
	movdqa	%xmm0, 240(%rsp)
	movdqa	%xmm0, 256(%rsp)
	movdqa	%xmm0, 272(%rsp)
	movdqa	%xmm0, 288(%rsp)
	movdqa	%xmm0, 304(%rsp)
	movdqa	%xmm0, 320(%rsp)
	movdqa	%xmm0, 336(%rsp)
	movdqa	%xmm0, 352(%rsp)
	movdqa	%xmm0, 368(%rsp)
	movq	%rcx, %rsi
	shrq	$6, %rsi
	movq	%r15, %rbx
	movq	%r12, %rbp
	movq	%r9, %r15
	movq	%r8, 80(%rsp)                   # 8-byte Spill
	movl	$0, %r12d
	movq	%r10, %r9
	je	.LBB41_23
# %bb.20:                               # %join.5.i.i.i.i.i.preheader
	xorl	%edx, %edx
	.p2align	4
.LBB41_21:                              # %join.5.i.i.i.i.i
                                        # =>This Inner Loop Header: Depth=1
	movdqu	(%rax,%rdx), %xmm0
	movdqu	16(%rax,%rdx), %xmm1
	movdqu	32(%rax,%rdx), %xmm2
	movdqu	48(%rax,%rdx), %xmm3
	movdqa	.LCPI41_2(%rip), %xmm4          # xmm4 = [1,1,1,1,1,1,1,1,1,1,1,1,1,1,1,1]
	pcmpeqb	%xmm4, %xmm3
	pcmpeqb	%xmm4, %xmm1
	pand	%xmm3, %xmm1
	pcmpeqb	%xmm4, %xmm2
	pcmpeqb	%xmm4, %xmm0
	pand	%xmm2, %xmm0
	pand	%xmm1, %xmm0
	pmovmskb	%xmm0, %edi
	xorl	$65535, %edi                    # imm = 0xFFFF
	jne	.LBB41_24
# %bb.22:                               # %loop.2.i.i.i.i.i
                                        #   in Loop: Header=BB41_21 Depth=1
	addq	$64, %rdx
	decq	%rsi
	jne	.LBB41_21
.LBB41_23:                              # %after.1.i.i.i.i.i
	movq	%rcx, %rdx
	andq	$-64, %rdx
.LBB41_24:                              # %"mark_order::done_to.exit.i.i.i.i"
	cmpq	%rcx, %rdx
	jb	.LBB41_29
.LBB41_25:                              # %join.7.i.i
	cmpq	%rbx, 752(%rsp)
	jae	.LBB41_35
# %bb.26:                               # %then.8.i.i
	movq	$1, 48(%rsp)
	movq	$7, 56(%rsp)
	movq	%rbx, 64(%rsp)
	jmp	.LBB41_68
	.p2align	4
.LBB41_27:                              # %else.7.i.i.i.i
                                        #   in Loop: Header=BB41_29 Depth=1
	movb	$1, 384(%rsp,%r8)
	movb	$1, 128(%rsp,%rdi)
	movb	$1, 128(%rsp,%rsi)
.LBB41_28:                              # %join.8.i.i.i.i
                                        #   in Loop: Header=BB41_29 Depth=1
	incq	%rdx
	cmpq	%rdx, %rcx
	je	.LBB41_25
.LBB41_29:                              # %join.5.i.i.i.i
                                        # =>This Inner Loop Header: Depth=1
	movq	(%r15,%rdx,8), %r8
	movl	%r8d, %edi
	movzwl	%r8w, %esi
	shrq	$32, %r8
	shrl	$16, %edi
	cmpb	$1, (%rax,%rdx)
	jne	.LBB41_27
# %bb.30:                               # %then.6.i.i.i.i
                                        #   in Loop: Header=BB41_29 Depth=1
	cmpb	$1, 384(%rsp,%r8)
	je	.LBB41_33
# %bb.31:                               # %join.3.i.i.i.i.i
                                        #   in Loop: Header=BB41_29 Depth=1
	cmpb	$1, 128(%rsp,%rdi)
	je	.LBB41_33
# %bb.32:                               # %"mark_order::touched.exit.i.i.i.i"
                                        #   in Loop: Header=BB41_29 Depth=1
	cmpb	$1, 128(%rsp,%rsi)
	jne	.LBB41_28
.LBB41_33:                              # %"mark_order::bad_marks.exit.thread63.i.i"
	movq	%r14, %rsi
.LBB41_34:                              # %then.5.i.i
	movq	$1, 48(%rsp)
	movq	$10, 56(%rsp)
	movq	$0, 64(%rsp)
	jmp	.LBB41_69
.LBB41_35:                              # %join.10.i.i
	movzbl	47(%rsp), %edx                  # 1-byte Folded Reload
	movb	%dl, %r12b
	shll	$12, %r12d
	movq	744(%rsp), %rdi
	leaq	(%rdi,%r12), %rdx
	testq	%rbx, %rbx
	je	.LBB41_55
# %bb.36:                               # %iter.check20
	cmpq	$4, %rbx
	jb	.LBB41_37
# %bb.38:                               # %vector.memcheck
	movq	%rdx, %rsi
	subq	%r9, %rsi
	cmpq	$32, %rsi
	jae	.LBB41_40
.LBB41_37:
	xorl	%esi, %esi
.LBB41_49:                              # %join.5.i.i.i.preheader
	movq	%rbx, %r8
	movq	%rsi, %rdi
	andq	$3, %r8
	je	.LBB41_52
# %bb.50:                               # %join.5.i.i.i.prol.preheader
	movq	%rsi, %rdi
	.p2align	4
.LBB41_51:                              # %join.5.i.i.i.prol
                                        # =>This Inner Loop Header: Depth=1
	movzwl	(%r10,%rdi,2), %r9d
	movw	%r9w, (%rdx,%rdi,2)
	incq	%rdi
	decq	%r8
	jne	.LBB41_51
.LBB41_52:                              # %join.5.i.i.i.prol.loopexit
	subq	%rbx, %rsi
	cmpq	$-4, %rsi
	movq	744(%rsp), %r8
	ja	.LBB41_55
# %bb.53:                               # %join.5.i.i.i.preheader58
	movq	80(%rsp), %rsi                  # 8-byte Reload
	addq	%r11, %rsi
	addq	$6, %rsi
	addq	%r12, %r8
	addq	$6, %r8
	.p2align	4
.LBB41_54:                              # %join.5.i.i.i
                                        # =>This Inner Loop Header: Depth=1
	movzwl	-6(%rsi,%rdi,2), %r9d
	movw	%r9w, -6(%r8,%rdi,2)
	movzwl	-4(%rsi,%rdi,2), %r9d
	movw	%r9w, -4(%r8,%rdi,2)
	movzwl	-2(%rsi,%rdi,2), %r9d
	movw	%r9w, -2(%r8,%rdi,2)
	movzwl	(%rsi,%rdi,2), %r9d
	movw	%r9w, (%r8,%rdi,2)
	addq	$4, %rdi
	cmpq	%rdi, %rbx
	jne	.LBB41_54
.LBB41_55:                              # %"copies::copy::<i16,21'core::clone::U16Clone{}>.exit.i.i"
	testq	%rcx, %rcx
	je	.LBB41_67
# %bb.56:                               # %join.5.i15.i.i.preheader
	cmpq	$1, %rcx
	jne	.LBB41_58
# %bb.57:
	xorl	%esi, %esi
	jmp	.LBB41_65
.LBB41_58:                              # %join.5.i15.i.i.preheader.new
	movabsq	$8589934590, %rdi               # imm = 0x1FFFFFFFE
	movq	%rcx, %r8
	andq	$-2, %r8
	movq	88(%rsp), %rsi                  # 8-byte Reload
	leaq	(%rsi,%rbp), %r9
	incq	%r9
	movq	712(%rsp), %rsi
	leaq	(%rsi,%r13), %r10
	addq	$8, %r10
	xorl	%esi, %esi
	jmp	.LBB41_60
	.p2align	4
.LBB41_59:                              # %join.8.i.i.i.1
                                        #   in Loop: Header=BB41_60 Depth=1
	addq	$2, %rsi
	cmpq	%rsi, %r8
	je	.LBB41_64
.LBB41_60:                              # %join.5.i15.i.i
                                        # =>This Inner Loop Header: Depth=1
	cmpb	$1, -1(%r9,%rsi)
	jne	.LBB41_61
# %bb.62:                               # %then.6.i.i.i
                                        #   in Loop: Header=BB41_60 Depth=1
	movq	-8(%r10,%rsi,8), %r11
	movl	%r11d, %ebp
	shrq	$31, %r11
	andq	%rdi, %r11
	movw	%bp, (%rdx,%r11)
	cmpb	$1, (%r9,%rsi)
	jne	.LBB41_59
	jmp	.LBB41_63
	.p2align	4
.LBB41_61:                              # %join.8.i.i.i
                                        #   in Loop: Header=BB41_60 Depth=1
	cmpb	$1, (%r9,%rsi)
	jne	.LBB41_59
.LBB41_63:                              # %then.6.i.i.i.1
                                        #   in Loop: Header=BB41_60 Depth=1
	movq	(%r10,%rsi,8), %r11
	movl	%r11d, %ebp
	shrq	$31, %r11
	andq	%rdi, %r11
	movw	%bp, (%rdx,%r11)
	jmp	.LBB41_59
.LBB41_64:                              # %"move_done::move_done.exit.i.i.loopexit.unr-lcssa"
	testb	$1, %cl
	je	.LBB41_67
.LBB41_65:                              # %join.5.i15.i.i.epil.preheader
	cmpb	$1, (%rax,%rsi)
	jne	.LBB41_67
# %bb.66:                               # %then.6.i.i.i.epil
	movq	(%r15,%rsi,8), %rax
	movq	%rax, %rcx
	shrq	$32, %rcx
	movw	%ax, (%rdx,%rcx,2)
.LBB41_67:                              # %"move_done::move_done.exit.i.i"
	movq	$0, 48(%rsp)
	movq	%rbx, 56(%rsp)
	movq	$0, 64(%rsp)
.LBB41_68:                              # %"sejjekoru::standing::sejjekoru_placement.exit"
	movq	%r14, %rsi
.LBB41_69:                              # %"sejjekoru::standing::sejjekoru_placement.exit"
	leaq	48(%rsp), %rdi
	callq	"numbers::told"
	addq	$648, %rsp                      # imm = 0x288
	.cfi_def_cfa_offset 56
	popq	%rbx
	.cfi_def_cfa_offset 48
	popq	%r12
	.cfi_def_cfa_offset 40
	popq	%r13
	.cfi_def_cfa_offset 32
	popq	%r14
	.cfi_def_cfa_offset 24
	popq	%r15
	.cfi_def_cfa_offset 16
	popq	%rbp
	.cfi_def_cfa_offset 8
	retq
.LBB41_40:                              # %vector.main.loop.iter.check22
	.cfi_def_cfa_offset 704
	cmpq	$16, %rbx
	jae	.LBB41_42
# %bb.41:
	xorl	%esi, %esi
	jmp	.LBB41_46
.LBB41_42:                              # %vector.ph23
	movq	%rbx, %rsi
	andq	$-16, %rsi
	addq	%r12, %rdi
	addq	$16, %rdi
	movq	80(%rsp), %r8                   # 8-byte Reload
	addq	%r11, %r8
	addq	$16, %r8
	xorl	%r9d, %r9d
.LBB41_43:                              # %vector.body26
                                        # =>This Inner Loop Header: Depth=1
	movdqu	-16(%r8,%r9,2), %xmm0
	movdqu	(%r8,%r9,2), %xmm1
	movdqu	%xmm0, -16(%rdi,%r9,2)
	movdqu	%xmm1, (%rdi,%r9,2)
	addq	$16, %r9
	cmpq	%r9, %rsi
	jne	.LBB41_43
# %bb.44:                               # %middle.block31
	cmpq	%rsi, %rbx
	je	.LBB41_55
# %bb.45:                               # %vec.epilog.iter.check35
	movq	%r10, %r9
	testb	$12, %bl
	je	.LBB41_49
.LBB41_46:                              # %vec.epilog.ph37
	movq	%rsi, %rdi
	movq	%rbx, %rsi
	andq	$-4, %rsi
.LBB41_47:                              # %vec.epilog.vector.body40
                                        # =>This Inner Loop Header: Depth=1
	movq	(%r9,%rdi,2), %r8
	movq	%r8, (%rdx,%rdi,2)
	addq	$4, %rdi
	cmpq	%rdi, %rsi
	jne	.LBB41_47
# %bb.48:                               # %vec.epilog.middle.block44
	cmpq	%rsi, %rbx
	je	.LBB41_55
	jmp	.LBB41_49
.Lfunc_end41:
	.size	sejjekoru_placement, .Lfunc_end41-sejjekoru_placement
	.cfi_endproc
                                        # -- End function
	.section	.text.sejjekoru_plan,"ax",@progbits
	.globl	sejjekoru_plan                  # -- Begin function sejjekoru_plan
	.p2align	4
	.type	sejjekoru_plan,@function
sejjekoru_plan:                         # @sejjekoru_plan
	.cfi_startproc
# %bb.0:                                # %start
	pushq	%r15
	.cfi_def_cfa_offset 16
	pushq	%r14
	.cfi_def_cfa_offset 24
	pushq	%r12
	.cfi_def_cfa_offset 32
	pushq	%rbx
	.cfi_def_cfa_offset 40
	subq	$88, %rsp
	.cfi_def_cfa_offset 128
	.cfi_offset %rbx, -40
	.cfi_offset %r12, -32
	.cfi_offset %r14, -24
	.cfi_offset %r15, -16
	movq	%r8, %rax
	movq	%rcx, %r10
	movq	%rdx, %rcx
	movq	%rdi, %r11
	movq	160(%rsp), %rbx
	movq	152(%rsp), %r14
	movq	128(%rsp), %rdi
	movq	144(%rsp), %r15
	movq	136(%rsp), %r12
	xorl	%edx, %edx
	testq	%rsi, %rsi
	sete	%dl
	shll	$12, %edx
	addq	%rsi, %rdx
	xorl	%r8d, %r8d
	testq	%r10, %r10
	sete	%r8b
	shll	$12, %r8d
	addq	%r10, %r8
	xorl	%esi, %esi
	testq	%r9, %r9
	sete	%sil
	shll	$12, %esi
	addq	%r9, %rsi
	xorl	%r9d, %r9d
	testq	%r12, %r12
	sete	%r9b
	shll	$12, %r9d
	addq	%r12, %r9
	xorps	%xmm0, %xmm0
	movaps	%xmm0, 32(%rsp)
	movq	$0, 48(%rsp)
	movq	%r15, 24(%rsp)
	movq	%rdi, 8(%rsp)
	movq	%r9, 16(%rsp)
	movq	%rsi, (%rsp)
	leaq	32(%rsp), %rdi
	movq	%r11, %rsi
	movq	%rax, %r9
	callq	"planner::plan_counted"
	movzbl	32(%rsp), %eax
	xorl	%ecx, %ecx
	xorl	%edx, %edx
	testq	%rax, %rax
	sete	%dl
	movq	48(%rsp), %rsi
	cmoveq	%rsi, %rcx
	cmoveq	%rax, %rsi
	negl	%edx
	orq	$-65281, %rdx                   # imm = 0xFFFF00FF
	andq	40(%rsp), %rdx
	movq	%rcx, (%r14)
	movq	%rax, 64(%rsp)
	movq	%rdx, 72(%rsp)
	movq	%rsi, 80(%rsp)
	leaq	64(%rsp), %rdi
	movq	%rbx, %rsi
	callq	"numbers::told"
	addq	$88, %rsp
	.cfi_def_cfa_offset 40
	popq	%rbx
	.cfi_def_cfa_offset 32
	popq	%r12
	.cfi_def_cfa_offset 24
	popq	%r14
	.cfi_def_cfa_offset 16
	popq	%r15
	.cfi_def_cfa_offset 8
	retq
.Lfunc_end42:
	.size	sejjekoru_plan, .Lfunc_end42-sejjekoru_plan
	.cfi_endproc
                                        # -- End function
	.section	.text.sejjekoru_plan_lean,"ax",@progbits
	.globl	sejjekoru_plan_lean             # -- Begin function sejjekoru_plan_lean
	.p2align	4
	.type	sejjekoru_plan_lean,@function
sejjekoru_plan_lean:                    # @sejjekoru_plan_lean
	.cfi_startproc
# %bb.0:                                # %start
	pushq	%rbp
	.cfi_def_cfa_offset 16
	pushq	%r15
	.cfi_def_cfa_offset 24
	pushq	%r14
	.cfi_def_cfa_offset 32
	pushq	%r13
	.cfi_def_cfa_offset 40
	pushq	%r12
	.cfi_def_cfa_offset 48
	pushq	%rbx
	.cfi_def_cfa_offset 56
	subq	$3072, %rsp                     # imm = 0xC00
	.cfi_adjust_cfa_offset 3072
	movq	$0, (%rsp)
	subq	$3072, %rsp                     # imm = 0xC00
	.cfi_adjust_cfa_offset 3072
	movq	$0, (%rsp)
	subq	$3072, %rsp                     # imm = 0xC00
	.cfi_adjust_cfa_offset 3072
	movq	$0, (%rsp)
	subq	$3072, %rsp                     # imm = 0xC00
	.cfi_adjust_cfa_offset 3072
	movq	$0, (%rsp)
	subq	$3072, %rsp                     # imm = 0xC00
	.cfi_adjust_cfa_offset 3072
	movq	$0, (%rsp)
	subq	$1128, %rsp                     # imm = 0x468
	.cfi_def_cfa_offset 16544
	.cfi_offset %rbx, -56
	.cfi_offset %r12, -48
	.cfi_offset %r13, -40
	.cfi_offset %r14, -32
	.cfi_offset %r15, -24
	.cfi_offset %rbp, -16
	movq	%rdx, %rbx
	movq	%rsi, %rbp
	movq	%rdi, %r12
	xorl	%r15d, %r15d
	testq	%rsi, %rsi
	sete	39(%rsp)                        # 1-byte Folded Spill
	movq	%rcx, 88(%rsp)                  # 8-byte Spill
	testq	%rcx, %rcx
	sete	37(%rsp)                        # 1-byte Folded Spill
	movq	%r9, 80(%rsp)                   # 8-byte Spill
	testq	%r9, %r9
	sete	38(%rsp)                        # 1-byte Folded Spill
	cmpq	$0, 16552(%rsp)
	sete	36(%rsp)                        # 1-byte Folded Spill
	leaq	-257(%rdi), %rax
	cmpq	$-255, %rax
	setb	%al
	cmpq	$2050, %rdx                     # imm = 0x802
	setae	%cl
	orb	%cl, %dl
	orb	%al, %dl
	movq	%r8, 40(%rsp)                   # 8-byte Spill
	cmpq	16544(%rsp), %r8
	setne	%r14b
	orb	%dl, %r14b
	leaq	8296(%rsp), %rdi
	xorl	%r13d, %r13d
	movl	$8192, %edx                     # imm = 0x2000
	xorl	%esi, %esi
	callq	memset@PLT
	testb	$1, %r14b
	je	.LBB43_2
.LBB43_1:
	xorl	%edx, %edx
	xorl	%eax, %eax
	jmp	.LBB43_59
.LBB43_2:                               # %join.3.i.i.i.i
	testq	%rbx, %rbx
	je	.LBB43_9
# %bb.3:                                # %join.5.i.i.i.i.i.preheader
	movzbl	39(%rsp), %eax                  # 1-byte Folded Reload
	movb	%al, %r15b
	shll	$12, %r15d
	shrq	%rbx
	leaq	(%r15,%rbp), %rsi
	addq	$2, %rsi
	xorl	%ebp, %ebp
	.p2align	4
.LBB43_4:                               # %join.5.i.i.i.i.i
                                        # =>This Inner Loop Header: Depth=1
	movzwl	-2(%rsi,%rbp,4), %eax
	movzwl	(%rsi,%rbp,4), %ecx
	xorl	%edx, %edx
	movl	$1, %r13d
	cmpw	%cx, %ax
	je	.LBB43_37
# %bb.5:                                # %join.5.i.i.i.i.i
                                        #   in Loop: Header=BB43_4 Depth=1
	cmpq	%rax, %r12
	jbe	.LBB43_37
# %bb.6:                                # %join.5.i.i.i.i.i
                                        #   in Loop: Header=BB43_4 Depth=1
	cmpq	%rcx, %r12
	jbe	.LBB43_37
# %bb.7:                                # %"first_bad::is_bad.exit.i.i.i.i.i"
                                        #   in Loop: Header=BB43_4 Depth=1
	movl	%eax, %edx
	shll	$8, %edx
	addl	%ecx, %edx
	shrl	$6, %edx
	movq	8296(%rsp,%rdx,8), %rdi
	movl	$1, %r8d
	shlq	%cl, %r8
	btq	%rcx, %rdi
	jb	.LBB43_31
# %bb.8:                                # %join.8.i.i.i.i.i
                                        #   in Loop: Header=BB43_4 Depth=1
	shlq	$3, %rdx
	orq	%r8, %rdi
	movq	%rdi, 8296(%rsp,%rdx)
	shll	$8, %ecx
	leal	(%rax,%rcx), %edx
	movl	$1, %edi
	movl	%eax, %ecx
	shlq	%cl, %rdi
	shrl	$6, %edx
	orq	%rdi, 8296(%rsp,%rdx,8)
	incq	%rbp
	cmpq	%rbp, %rbx
	jne	.LBB43_4
.LBB43_9:                               # %join.7.i.i.i.i
	movl	$1, %esi
	xorl	%eax, %eax
	cmpq	$64, %r12
	ja	.LBB43_16
# %bb.10:                               # %join.5.i.preheader.i.i.i.i.i.i.i.preheader
	movl	$1, %ecx
	.p2align	4
.LBB43_11:                              # %join.5.i.preheader.i.i.i.i.i.i.i
                                        # =>This Loop Header: Depth=1
                                        #     Child Loop BB43_12 Depth 2
	xorl	%edx, %edx
	.p2align	4
.LBB43_12:                              # %join.5.i.i.i.i.i.i.i.i
                                        #   Parent Loop BB43_11 Depth=1
                                        # =>  This Inner Loop Header: Depth=2
	movq	%rsi, %rdi
	rep		bsfq	%rsi, %rsi
	shll	$5, %esi
	orq	8296(%rsp,%rsi), %rdx
	leaq	-1(%rdi), %rsi
	andq	%rdi, %rsi
	jne	.LBB43_12
# %bb.13:                               # %"apart::beside_word.exit.i.i.i.i.i.i.i"
                                        #   in Loop: Header=BB43_11 Depth=1
	movq	%rdx, %rdi
	orq	%rcx, %rdi
	incq	%rax
	cmpq	%r12, %rax
	jae	.LBB43_15
# %bb.14:                               # %"apart::beside_word.exit.i.i.i.i.i.i.i"
                                        #   in Loop: Header=BB43_11 Depth=1
	notq	%rcx
	andq	%rcx, %rdx
	movq	%rdx, %rsi
	movq	%rdi, %rcx
	jne	.LBB43_11
.LBB43_15:                              # %"apart::narrow_apart.exit.i.i.i.i.i"
	notq	%rdi
	movl	$64, %edx
	rep		bsfq	%rdi, %rdx
	cmpq	%r12, %rdx
	jae	.LBB43_41
.LBB43_36:
	movl	$2, %r13d
	xorl	%eax, %eax
	jmp	.LBB43_59
.LBB43_16:                              # %repeat.5.preheader.i.i.i.i.i
	xorl	%edx, %edx
	xorl	%ecx, %ecx
	xorl	%r10d, %r10d
	xorl	%r9d, %r9d
	xorl	%r8d, %r8d
	xorl	%edi, %edi
	movl	$1, %r11d
	jmp	.LBB43_18
	.p2align	4
.LBB43_17:                              # %"words::beside.exit.i.i.i.i.i.i"
                                        #   in Loop: Header=BB43_18 Depth=1
	movq	%rsi, %r11
	notq	%r11
	movq	%xmm0, %r8
	andq	%r8, %r11
	orq	%r8, %rsi
	movq	%rcx, %r10
	notq	%r10
	pshufd	$238, %xmm0, %xmm0              # xmm0 = xmm0[2,3,2,3]
	movq	%xmm0, %r8
	andq	%r8, %r10
	orq	%r8, %rcx
	movq	%rdx, %r9
	notq	%r9
	movq	%xmm1, %r8
	andq	%r8, %r9
	orq	%r8, %rdx
	movq	%rax, %r8
	notq	%r8
	pshufd	$238, %xmm1, %xmm0              # xmm0 = xmm1[2,3,2,3]
	movq	%xmm0, %rbx
	andq	%rbx, %r8
	orq	%rbx, %rax
	incq	%rdi
	cmpq	%r12, %rdi
	je	.LBB43_29
.LBB43_18:                              # %join.7.i.i.i.i.i.i
                                        # =>This Loop Header: Depth=1
                                        #     Child Loop BB43_19 Depth 2
                                        #     Child Loop BB43_22 Depth 2
                                        #     Child Loop BB43_24 Depth 2
                                        #     Child Loop BB43_26 Depth 2
	pxor	%xmm0, %xmm0
	pxor	%xmm1, %xmm1
	testq	%r11, %r11
	je	.LBB43_21
	.p2align	4
.LBB43_19:                              # %join.5.i.i.i5.i.i.i.i.i
                                        #   Parent Loop BB43_18 Depth=1
                                        # =>  This Inner Loop Header: Depth=2
	movq	%r11, %rbx
	rep		bsfq	%r11, %r11
	shll	$5, %r11d
	movdqu	8296(%rsp,%r11), %xmm2
	por	%xmm2, %xmm0
	movdqu	8312(%rsp,%r11), %xmm2
	por	%xmm2, %xmm1
	leaq	-1(%rbx), %r11
	andq	%rbx, %r11
	jne	.LBB43_19
# %bb.20:                               # %"words::join_word.exit.i.i.i.i.i.i.i"
                                        #   in Loop: Header=BB43_18 Depth=1
	testq	%r10, %r10
	jne	.LBB43_22
	jmp	.LBB43_23
	.p2align	4
.LBB43_21:                              # %join.5.i.preheader.i.i.i.i.i.i
                                        #   in Loop: Header=BB43_18 Depth=1
	testq	%r10, %r10
	je	.LBB43_27
	.p2align	4
.LBB43_22:                              # %join.5.i.1.i.i.i.i.i.i.i
                                        #   Parent Loop BB43_18 Depth=1
                                        # =>  This Inner Loop Header: Depth=2
	movq	%r10, %r11
	rep		bsfq	%r10, %r10
	shll	$5, %r10d
	movdqu	10344(%rsp,%r10), %xmm2
	por	%xmm2, %xmm0
	movdqu	10360(%rsp,%r10), %xmm2
	por	%xmm2, %xmm1
	leaq	-1(%r11), %r10
	andq	%r11, %r10
	jne	.LBB43_22
.LBB43_23:                              # %"words::join_word.exit.1.i.i.i.i.i.i.i"
                                        #   in Loop: Header=BB43_18 Depth=1
	testq	%r9, %r9
	je	.LBB43_25
	.p2align	4
.LBB43_24:                              # %join.5.i.2.i.i.i.i.i.i.i
                                        #   Parent Loop BB43_18 Depth=1
                                        # =>  This Inner Loop Header: Depth=2
	movq	%r9, %r10
	rep		bsfq	%r9, %r9
	shll	$5, %r9d
	movdqu	12392(%rsp,%r9), %xmm2
	por	%xmm2, %xmm0
	movdqu	12408(%rsp,%r9), %xmm2
	por	%xmm2, %xmm1
	leaq	-1(%r10), %r9
	andq	%r10, %r9
	jne	.LBB43_24
.LBB43_25:                              # %"words::join_word.exit.2.i.i.i.i.i.i.i"
                                        #   in Loop: Header=BB43_18 Depth=1
	testq	%r8, %r8
	je	.LBB43_17
	.p2align	4
.LBB43_26:                              # %join.5.i.3.i.i.i.i.i.i.i
                                        #   Parent Loop BB43_18 Depth=1
                                        # =>  This Inner Loop Header: Depth=2
	movq	%r8, %r9
	rep		bsfq	%r8, %r8
	shll	$5, %r8d
	movdqu	14440(%rsp,%r8), %xmm2
	por	%xmm2, %xmm0
	movdqu	14456(%rsp,%r8), %xmm2
	por	%xmm2, %xmm1
	leaq	-1(%r9), %r8
	andq	%r9, %r8
	jne	.LBB43_26
	jmp	.LBB43_17
.LBB43_27:                              # %join.8.i.i.i.i.i.i.i
                                        #   in Loop: Header=BB43_18 Depth=1
	testq	%r9, %r9
	jne	.LBB43_24
# %bb.28:                               # %join.8.i.1.i.i.i.i.i.i
                                        #   in Loop: Header=BB43_18 Depth=1
	testq	%r8, %r8
	jne	.LBB43_26
.LBB43_29:                              # %"apart::reach.exit.i.i.i.i.i"
	cmpq	$-1, %rsi
	je	.LBB43_32
# %bb.30:
	xorl	%edi, %edi
	movq	%rsi, %rcx
	jmp	.LBB43_35
.LBB43_37:
	xorl	%eax, %eax
	jmp	.LBB43_60
.LBB43_31:
	xorl	%edx, %edx
	xorl	%eax, %eax
	jmp	.LBB43_60
.LBB43_32:                              # %join.5.i.preheader.i.i.i.i.i
	movl	$64, %edi
	cmpq	$-1, %rcx
	jne	.LBB43_35
# %bb.33:                               # %join.8.i.i.i.i.i.i
	movl	$128, %edi
	movq	%rdx, %rcx
	cmpq	$-1, %rdx
	jne	.LBB43_35
# %bb.34:                               # %join.8.i.1.i.i.i.i.i
	movl	$192, %edi
	movq	%rax, %rcx
	cmpq	$-1, %rax
	je	.LBB43_40
.LBB43_35:                              # %then.6.i.i.i.i.i.i
	notq	%rcx
	rep		bsfq	%rcx, %rdx
	orq	%rdi, %rdx
	cmpq	%r12, %rdx
	jb	.LBB43_36
.LBB43_41:                              # %join.10.i.i.i.i
	leaq	-2(%r12), %rax
	movq	40(%rsp), %r14                  # 8-byte Reload
	cmpq	%r14, %rax
	jae	.LBB43_43
# %bb.42:
	movl	$3, %r13d
	jmp	.LBB43_1
.LBB43_43:                              # %join.13.i.i.i.i
	xorl	%eax, %eax
	movzbl	37(%rsp), %ecx                  # 1-byte Folded Reload
	movb	%cl, %al
	shll	$12, %eax
	movq	88(%rsp), %r13                  # 8-byte Reload
	addq	%rax, %r13
	xorl	%eax, %eax
	movzbl	38(%rsp), %ecx                  # 1-byte Folded Reload
	movb	%cl, %al
	shll	$12, %eax
	movq	80(%rsp), %rdx                  # 8-byte Reload
	addq	%rax, %rdx
	pxor	%xmm0, %xmm0
	movdqa	%xmm0, 336(%rsp)
	movdqa	%xmm0, 320(%rsp)
	movdqa	%xmm0, 304(%rsp)
	movdqa	%xmm0, 288(%rsp)
	movdqa	%xmm0, 272(%rsp)
	movdqa	%xmm0, 256(%rsp)
	movdqa	%xmm0, 240(%rsp)
	movdqa	%xmm0, 224(%rsp)
	movdqa	%xmm0, 208(%rsp)
	movdqa	%xmm0, 192(%rsp)
	movdqa	%xmm0, 176(%rsp)
	movdqa	%xmm0, 160(%rsp)
	movdqa	%xmm0, 144(%rsp)
	movdqa	%xmm0, 128(%rsp)
	movdqa	%xmm0, 112(%rsp)
	movdqa	%xmm0, 96(%rsp)
	testq	%r14, %r14
	je	.LBB43_52
# %bb.44:                               # %join.6.i.i.i.i.i.preheader
	xorl	%eax, %eax
	.p2align	4
.LBB43_45:                              # %join.6.i.i.i.i.i
                                        # =>This Inner Loop Header: Depth=1
	movzwl	(%r13,%rax,2), %ecx
	cmpq	%rcx, %r12
	jbe	.LBB43_54
# %bb.46:                               # %else.11.i.i.i.i.i
                                        #   in Loop: Header=BB43_45 Depth=1
	cmpb	$1, 96(%rsp,%rcx)
	je	.LBB43_54
# %bb.47:                               # %after.8.i.i.i.i.i
                                        #   in Loop: Header=BB43_45 Depth=1
	movb	$1, 96(%rsp,%rcx)
	incq	%rax
	cmpq	%rax, %r14
	jne	.LBB43_45
# %bb.48:                               # %join.6.i121.preheader.i.i.i.i
	pxor	%xmm0, %xmm0
	movdqa	%xmm0, 336(%rsp)
	movdqa	%xmm0, 320(%rsp)
	movdqa	%xmm0, 304(%rsp)
	movdqa	%xmm0, 288(%rsp)
	movdqa	%xmm0, 272(%rsp)
	movdqa	%xmm0, 256(%rsp)
	movdqa	%xmm0, 240(%rsp)
	movdqa	%xmm0, 224(%rsp)
	movdqa	%xmm0, 208(%rsp)
	movdqa	%xmm0, 192(%rsp)
	movdqa	%xmm0, 176(%rsp)
	movdqa	%xmm0, 160(%rsp)
	movdqa	%xmm0, 144(%rsp)
	movdqa	%xmm0, 128(%rsp)
	movdqa	%xmm0, 112(%rsp)
	movdqa	%xmm0, 96(%rsp)
	xorl	%eax, %eax
.LBB43_49:                              # %join.6.i121.i.i.i.i
                                        # =>This Inner Loop Header: Depth=1
	movzwl	(%rdx,%rax,2), %ecx
	cmpq	%rcx, %r12
	jbe	.LBB43_57
# %bb.50:                               # %else.11.i132.i.i.i.i
                                        #   in Loop: Header=BB43_49 Depth=1
	cmpb	$1, 96(%rsp,%rcx)
	je	.LBB43_57
# %bb.51:                               # %after.8.i136.i.i.i.i
                                        #   in Loop: Header=BB43_49 Depth=1
	movb	$1, 96(%rsp,%rcx)
	incq	%rax
	cmpq	%rax, %r14
	jne	.LBB43_49
.LBB43_52:                              # %arm.4.i.i
	leaq	96(%rsp), %rbp
	movq	%rdx, %r15
	movl	$8192, %edx                     # imm = 0x2000
	movq	%rbp, %rdi
	xorl	%esi, %esi
	callq	memset@PLT
	pxor	%xmm0, %xmm0
	movdqa	%xmm0, 48(%rsp)
	movq	$0, 64(%rsp)
	leaq	(,%r12,4), %rdx
	movq	%rbp, 16(%rsp)
	movq	%r14, 8(%rsp)
	movq	%r15, %rbx
	movq	%r15, (%rsp)
	movq	$1024, 24(%rsp)                 # imm = 0x400
	leaq	48(%rsp), %rdi
	leaq	8296(%rsp), %rsi
	movq	%r12, %rcx
	movq	%r13, %r15
	movq	%r13, %r8
	movq	%r14, %r9
	callq	"play::play_in"
	cmpb	$1, 48(%rsp)
	jne	.LBB43_55
# %bb.53:                               # %arm.1.i.i.i.i.i
	movl	52(%rsp), %ecx
	shlq	$32, %rcx
	orq	$6, %rcx
	movb	$1, %al
	xorl	%r13d, %r13d
	jmp	.LBB43_68
.LBB43_54:                              # %arm.14.i.i.i.i
	movl	$4, %r13d
	jmp	.LBB43_58
.LBB43_55:                              # %arm.2.i.i.i.i.i
	movq	56(%rsp), %r13
	cmpq	%r13, 16560(%rsp)
	setb	%al
	cmpq	$65537, %r13                    # imm = 0x10001
	setae	%cl
	orb	%al, %cl
	je	.LBB43_62
# %bb.56:
	movl	$7, %ecx
	movb	$1, %al
	jmp	.LBB43_68
.LBB43_57:                              # %arm.17.i.i.i.i
	movl	$5, %r13d
.LBB43_58:                              # %arm.3.i.i
	xorl	%edx, %edx
.LBB43_59:                              # %arm.3.i.i
	xorl	%ebp, %ebp
.LBB43_60:                              # %arm.3.i.i
	movl	%eax, %ecx
	movb	$1, %al
	movq	16576(%rsp), %rsi
	movq	16568(%rsp), %r9
.LBB43_61:                              # %"sejjekoru::small_stack::sejjekoru_plan_lean.exit"
	shlq	$32, %rcx
	shll	$16, %edx
	orq	%rcx, %rdx
	movzwl	%r13w, %ecx
	orq	%rdx, %rcx
	movzbl	%al, %eax
	xorl	%edx, %edx
	xorl	%r8d, %r8d
	testb	%al, %al
	sete	%r8b
	movl	$0, %edi
	cmoveq	%rbp, %rdi
	movq	%rdi, (%r9)
	cmoveq	%rdx, %rbp
	negl	%r8d
	orq	$-65281, %r8                    # imm = 0xFFFF00FF
	andq	%rcx, %r8
	movq	%rax, 96(%rsp)
	movq	%r8, 104(%rsp)
	movq	%rbp, 112(%rsp)
	leaq	96(%rsp), %rdi
	callq	"numbers::told"
	addq	$16488, %rsp                    # imm = 0x4068
	.cfi_def_cfa_offset 56
	popq	%rbx
	.cfi_def_cfa_offset 48
	popq	%r12
	.cfi_def_cfa_offset 40
	popq	%r13
	.cfi_def_cfa_offset 32
	popq	%r14
	.cfi_def_cfa_offset 24
	popq	%r15
	.cfi_def_cfa_offset 16
	popq	%rbp
	.cfi_def_cfa_offset 8
	retq
.LBB43_62:                              # %join.10.i.i.i.i.i
	.cfi_def_cfa_offset 16544
	xorl	%eax, %eax
	movzbl	36(%rsp), %ecx                  # 1-byte Folded Reload
	movb	%cl, %al
	shll	$12, %eax
	movq	16552(%rsp), %rdi
	addq	%rax, %rdi
	movq	64(%rsp), %rbp
	cmpq	$1024, %r13                     # imm = 0x400
	jbe	.LBB43_64
# %bb.63:                               # %arm.2.i.i.i
	movq	%r13, 24(%rsp)
	movq	%rdi, 16(%rsp)
	movq	40(%rsp), %r9                   # 8-byte Reload
	movq	%r9, 8(%rsp)
	movq	%rbx, (%rsp)
	leaq	96(%rsp), %rdi
	leaq	8296(%rsp), %rsi
	leaq	(,%r12,4), %rdx
	movq	%r12, %rcx
	movq	%r15, %r8
	callq	"play::play_in"
	xorl	%eax, %eax
	movq	16576(%rsp), %rsi
	movq	16568(%rsp), %r9
	jmp	.LBB43_69
.LBB43_64:                              # %join.13.i.i.i.i.i
	testq	%r13, %r13
	je	.LBB43_66
# %bb.65:                               # %join.5.i.i.preheader.i.i.i.i
	leaq	(,%r13,8), %rdx
	leaq	96(%rsp), %rsi
	callq	memcpy@PLT
	xorl	%eax, %eax
	movq	%r13, %rcx
	jmp	.LBB43_67
.LBB43_40:
	movl	$256, %edx                      # imm = 0x100
	cmpq	%r12, %rdx
	jb	.LBB43_36
	jmp	.LBB43_41
.LBB43_66:
	xorl	%eax, %eax
	xorl	%ecx, %ecx
.LBB43_67:                              # %arm.1.i7.i.i
	movq	%rbp, %r13
.LBB43_68:                              # %arm.1.i7.i.i
	movq	16576(%rsp), %rsi
	movq	16568(%rsp), %r9
	movq	%r13, %rbp
	movq	%rcx, %r13
.LBB43_69:                              # %"lean::hand_out_lean.exit.i.i"
	movq	%r13, %rdx
	shrq	$16, %rdx
	movq	%r13, %rcx
	shrq	$32, %rcx
	jmp	.LBB43_61
.Lfunc_end43:
	.size	sejjekoru_plan_lean, .Lfunc_end43-sejjekoru_plan_lean
	.cfi_endproc
                                        # -- End function
	.section	.text.sejjekoru_print_plan,"ax",@progbits
	.globl	sejjekoru_print_plan            # -- Begin function sejjekoru_print_plan
	.p2align	4
	.type	sejjekoru_print_plan,@function
sejjekoru_print_plan:                   # @sejjekoru_print_plan
	.cfi_startproc
# %bb.0:                                # %start
	pushq	%rbp
	.cfi_def_cfa_offset 16
	pushq	%r15
	.cfi_def_cfa_offset 24
	pushq	%r14
	.cfi_def_cfa_offset 32
	pushq	%r13
	.cfi_def_cfa_offset 40
	pushq	%r12
	.cfi_def_cfa_offset 48
	pushq	%rbx
	.cfi_def_cfa_offset 56
	subq	$56, %rsp
	.cfi_def_cfa_offset 112
	.cfi_offset %rbx, -56
	.cfi_offset %r12, -48
	.cfi_offset %r13, -40
	.cfi_offset %r14, -32
	.cfi_offset %r15, -24
	.cfi_offset %rbp, -16
	movq	%r8, %r12
	movq	%rcx, %r14
	movq	%rdx, %r15
	movq	%rsi, %r13
	xorl	%eax, %eax
	testq	%rdi, %rdi
	sete	%cl
	xorl	%edx, %edx
	testq	%r15, %r15
	sete	%sil
	cmpq	$65537, %r13                    # imm = 0x10001
	jb	.LBB44_2
# %bb.1:                                # %then.1.i
	movq	$1, 16(%rsp)
	xorps	%xmm0, %xmm0
	movups	%xmm0, 24(%rsp)
	jmp	.LBB44_82
.LBB44_2:                               # %join.3.i
	movb	%sil, %dl
	shll	$12, %edx
	addq	%rdx, %r15
	testq	%r13, %r13
	je	.LBB44_34
# %bb.3:                                # %join.6.i.i.i.i.preheader
	movq	%rdi, %rbp
	movq	%r15, 40(%rsp)                  # 8-byte Spill
	movq	%r12, 48(%rsp)                  # 8-byte Spill
	movb	%cl, %al
	shll	$12, %eax
	addq	%rax, %rbp
	xorl	%edx, %edx
	xorl	%r12d, %r12d
	movq	%rbp, 8(%rsp)                   # 8-byte Spill
	.p2align	4
.LBB44_4:                               # %join.6.i.i.i.i
                                        # =>This Inner Loop Header: Depth=1
	movq	%r13, %r15
	movq	(%rbp,%r12,8), %r13
	movq	%r13, %rcx
	shrq	$32, %rcx
	movl	%r13d, %ebp
	shrl	$16, %ebp
	addq	$7, %rdx
	leaq	16(%rsp), %rbx
	movl	$1, %esi
	movq	%rbx, %rdi
	callq	"put_bytes::put_number"
	leaq	2(%rax), %rdx
	movl	$1, %esi
	movq	%rbx, %rdi
	movq	%rbp, %rcx
	movq	8(%rsp), %rbp                   # 8-byte Reload
	callq	"put_bytes::put_number"
	movzwl	%r13w, %ecx
	movq	%r15, %r13
	leaq	2(%rax), %rdx
	movl	$1, %esi
	movq	%rbx, %rdi
	callq	"put_bytes::put_number"
	leaq	2(%rax), %rdx
	incq	%r12
	cmpq	%r12, %r15
	jne	.LBB44_4
# %bb.5:                                # %"printing::actions.exit.i.i.i"
	addq	$11, %rax
	testq	%rdx, %rdx
	movl	$9, %edx
	cmovneq	%rax, %rdx
	leaq	16(%rsp), %rdi
	movl	$1, %esi
	movq	%r13, %rcx
	callq	"put_bytes::put_number"
	addq	$13, %rax
	cmpq	%r14, %rax
	movq	48(%rsp), %r12                  # 8-byte Reload
	movq	40(%rsp), %r15                  # 8-byte Reload
	ja	.LBB44_81
# %bb.6:                                # %join.6.i.i6.i.i.preheader
	xorl	%edx, %edx
	xorl	%ebx, %ebx
	jmp	.LBB44_7
	.p2align	4
.LBB44_33:                              # %"plan_lines::action.exit.i.i56.i.i"
                                        #   in Loop: Header=BB44_7 Depth=1
	addq	$2, %rdx
	incq	%rbx
	cmpq	%rbx, %r13
	je	.LBB44_36
.LBB44_7:                               # %join.6.i.i6.i.i
                                        # =>This Inner Loop Header: Depth=1
	movq	(%rbp,%rbx,8), %rbp
	cmpq	%r14, %rdx
	jb	.LBB44_8
# %bb.9:                                # %"stores::store::<i8,20'core::clone::U8Clone{}>.exit.i.i.i.i.i15.i.i"
                                        #   in Loop: Header=BB44_7 Depth=1
	leaq	1(%rdx), %rax
	cmpq	%r14, %rax
	jb	.LBB44_10
.LBB44_11:                              # %"stores::store::<i8,20'core::clone::U8Clone{}>.exit.i.i.1.i.i.i18.i.i"
                                        #   in Loop: Header=BB44_7 Depth=1
	leaq	2(%rdx), %rax
	cmpq	%r14, %rax
	jb	.LBB44_12
.LBB44_13:                              # %"stores::store::<i8,20'core::clone::U8Clone{}>.exit.i.i.2.i.i.i21.i.i"
                                        #   in Loop: Header=BB44_7 Depth=1
	leaq	3(%rdx), %rax
	cmpq	%r14, %rax
	jb	.LBB44_14
.LBB44_15:                              # %"stores::store::<i8,20'core::clone::U8Clone{}>.exit.i.i.3.i.i.i24.i.i"
                                        #   in Loop: Header=BB44_7 Depth=1
	leaq	4(%rdx), %rax
	cmpq	%r14, %rax
	jb	.LBB44_16
.LBB44_17:                              # %"stores::store::<i8,20'core::clone::U8Clone{}>.exit.i.i.4.i.i.i27.i.i"
                                        #   in Loop: Header=BB44_7 Depth=1
	leaq	5(%rdx), %rax
	cmpq	%r14, %rax
	jb	.LBB44_18
.LBB44_19:                              # %"stores::store::<i8,20'core::clone::U8Clone{}>.exit.i.i.5.i.i.i30.i.i"
                                        #   in Loop: Header=BB44_7 Depth=1
	leaq	6(%rdx), %rax
	cmpq	%r14, %rax
	jae	.LBB44_21
.LBB44_20:                              # %then.1.i.i.i.6.i.i.i184.i.i
                                        #   in Loop: Header=BB44_7 Depth=1
	movb	$99, (%r15,%rax)
.LBB44_21:                              # %"stores::store::<i8,20'core::clone::U8Clone{}>.exit.i.i.6.i.i.i33.i.i"
                                        #   in Loop: Header=BB44_7 Depth=1
	movq	%rbp, %rcx
	shrq	$32, %rcx
	addq	$7, %rdx
	movq	%r15, %rdi
	movq	%r14, %rsi
	callq	"put_bytes::put_number"
	cmpq	%r14, %rax
	jae	.LBB44_23
# %bb.22:                               # %then.1.i.i.i15.i.i.i182.i.i
                                        #   in Loop: Header=BB44_7 Depth=1
	movb	$32, (%r15,%rax)
.LBB44_23:                              # %"stores::store::<i8,20'core::clone::U8Clone{}>.exit.i.i10.i.i.i37.i.i"
                                        #   in Loop: Header=BB44_7 Depth=1
	leaq	1(%rax), %rcx
	cmpq	%r14, %rcx
	jae	.LBB44_25
# %bb.24:                               # %then.1.i.i.i15.1.i.i.i180.i.i
                                        #   in Loop: Header=BB44_7 Depth=1
	movb	$98, (%r15,%rcx)
.LBB44_25:                              # %"stores::store::<i8,20'core::clone::U8Clone{}>.exit.i.i10.1.i.i.i40.i.i"
                                        #   in Loop: Header=BB44_7 Depth=1
	movq	%rbp, %rcx
	shrq	$16, %rcx
	movzwl	%cx, %ecx
	addq	$2, %rax
	movq	%r15, %rdi
	movq	%r14, %rsi
	movq	%rax, %rdx
	callq	"put_bytes::put_number"
	cmpq	%r14, %rax
	jae	.LBB44_27
# %bb.26:                               # %then.1.i.i.i29.i.i.i178.i.i
                                        #   in Loop: Header=BB44_7 Depth=1
	movb	$32, (%r15,%rax)
.LBB44_27:                              # %"stores::store::<i8,20'core::clone::U8Clone{}>.exit.i.i24.i.i.i45.i.i"
                                        #   in Loop: Header=BB44_7 Depth=1
	leaq	1(%rax), %rcx
	cmpq	%r14, %rcx
	jae	.LBB44_29
# %bb.28:                               # %then.1.i.i.i29.1.i.i.i176.i.i
                                        #   in Loop: Header=BB44_7 Depth=1
	movb	$98, (%r15,%rcx)
.LBB44_29:                              # %"stores::store::<i8,20'core::clone::U8Clone{}>.exit.i.i24.1.i.i.i48.i.i"
                                        #   in Loop: Header=BB44_7 Depth=1
	movzwl	%bp, %ecx
	addq	$2, %rax
	movq	%r15, %rdi
	movq	%r14, %rsi
	movq	%rax, %rdx
	callq	"put_bytes::put_number"
	movq	%rax, %rdx
	cmpq	%r14, %rax
	jae	.LBB44_31
# %bb.30:                               # %then.1.i.i.i.i.i174.i.i
                                        #   in Loop: Header=BB44_7 Depth=1
	movb	$41, (%r15,%rdx)
.LBB44_31:                              # %"stores::store::<i8,20'core::clone::U8Clone{}>.exit.i.i.i.i53.i.i"
                                        #   in Loop: Header=BB44_7 Depth=1
	leaq	1(%rdx), %rax
	cmpq	%r14, %rax
	movq	8(%rsp), %rbp                   # 8-byte Reload
	jae	.LBB44_33
# %bb.32:                               # %then.1.i.i.1.i.i.i172.i.i
                                        #   in Loop: Header=BB44_7 Depth=1
	movb	$10, (%r15,%rax)
	jmp	.LBB44_33
	.p2align	4
.LBB44_8:                               # %then.1.i.i.i.i.i.i196.i.i
                                        #   in Loop: Header=BB44_7 Depth=1
	movb	$40, (%r15,%rdx)
	leaq	1(%rdx), %rax
	cmpq	%r14, %rax
	jae	.LBB44_11
.LBB44_10:                              # %then.1.i.i.i.1.i.i.i194.i.i
                                        #   in Loop: Header=BB44_7 Depth=1
	movb	$109, (%r15,%rax)
	leaq	2(%rdx), %rax
	cmpq	%r14, %rax
	jae	.LBB44_13
.LBB44_12:                              # %then.1.i.i.i.2.i.i.i192.i.i
                                        #   in Loop: Header=BB44_7 Depth=1
	movb	$111, (%r15,%rax)
	leaq	3(%rdx), %rax
	cmpq	%r14, %rax
	jae	.LBB44_15
.LBB44_14:                              # %then.1.i.i.i.3.i.i.i190.i.i
                                        #   in Loop: Header=BB44_7 Depth=1
	movb	$118, (%r15,%rax)
	leaq	4(%rdx), %rax
	cmpq	%r14, %rax
	jae	.LBB44_17
.LBB44_16:                              # %then.1.i.i.i.4.i.i.i188.i.i
                                        #   in Loop: Header=BB44_7 Depth=1
	movb	$101, (%r15,%rax)
	leaq	5(%rdx), %rax
	cmpq	%r14, %rax
	jae	.LBB44_19
.LBB44_18:                              # %then.1.i.i.i.5.i.i.i186.i.i
                                        #   in Loop: Header=BB44_7 Depth=1
	movb	$32, (%r15,%rax)
	leaq	6(%rdx), %rax
	cmpq	%r14, %rax
	jb	.LBB44_20
	jmp	.LBB44_21
.LBB44_34:                              # %"stores::store::<i8,20'core::clone::U8Clone{}>.exit.i.i.8.i.i.i.thread.i"
	movl	$23, %eax
	cmpq	$23, %r14
	jb	.LBB44_81
# %bb.35:
	xorl	%edx, %edx
.LBB44_36:                              # %"printing::actions.exit.i60.i.i"
	cmpq	%r14, %rdx
	jb	.LBB44_37
# %bb.38:                               # %"stores::store::<i8,20'core::clone::U8Clone{}>.exit.i.i.i8.i63.i.i"
	leaq	1(%rdx), %rax
	cmpq	%r14, %rax
	jb	.LBB44_39
.LBB44_40:                              # %"stores::store::<i8,20'core::clone::U8Clone{}>.exit.i.i.1.i.i66.i.i"
	leaq	2(%rdx), %rax
	cmpq	%r14, %rax
	jb	.LBB44_41
.LBB44_42:                              # %"stores::store::<i8,20'core::clone::U8Clone{}>.exit.i.i.2.i.i69.i.i"
	leaq	3(%rdx), %rax
	cmpq	%r14, %rax
	jb	.LBB44_43
.LBB44_44:                              # %"stores::store::<i8,20'core::clone::U8Clone{}>.exit.i.i.3.i.i72.i.i"
	leaq	4(%rdx), %rax
	cmpq	%r14, %rax
	jb	.LBB44_45
.LBB44_46:                              # %"stores::store::<i8,20'core::clone::U8Clone{}>.exit.i.i.4.i.i75.i.i"
	leaq	5(%rdx), %rax
	cmpq	%r14, %rax
	jb	.LBB44_47
.LBB44_48:                              # %"stores::store::<i8,20'core::clone::U8Clone{}>.exit.i.i.5.i.i78.i.i"
	leaq	6(%rdx), %rax
	cmpq	%r14, %rax
	jb	.LBB44_49
.LBB44_50:                              # %"stores::store::<i8,20'core::clone::U8Clone{}>.exit.i.i.6.i.i81.i.i"
	leaq	7(%rdx), %rax
	cmpq	%r14, %rax
	jb	.LBB44_51
.LBB44_52:                              # %"stores::store::<i8,20'core::clone::U8Clone{}>.exit.i.i.7.i.i84.i.i"
	leaq	8(%rdx), %rax
	cmpq	%r14, %rax
	jae	.LBB44_54
.LBB44_53:                              # %then.1.i.i.i.8.i.i154.i.i
	movb	$32, (%r15,%rax)
.LBB44_54:                              # %"stores::store::<i8,20'core::clone::U8Clone{}>.exit.i.i.8.i.i87.i.i"
	addq	$9, %rdx
	movq	%r15, %rdi
	movq	%r14, %rsi
	movq	%r13, %rcx
	callq	"put_bytes::put_number"
	cmpq	%r14, %rax
	jb	.LBB44_55
# %bb.56:                               # %"stores::store::<i8,20'core::clone::U8Clone{}>.exit.i.i.i91.i.i"
	leaq	1(%rax), %rcx
	cmpq	%r14, %rcx
	jb	.LBB44_57
.LBB44_58:                              # %"stores::store::<i8,20'core::clone::U8Clone{}>.exit.i.1.i.i94.i.i"
	leaq	2(%rax), %rcx
	cmpq	%r14, %rcx
	jb	.LBB44_59
.LBB44_60:                              # %"stores::store::<i8,20'core::clone::U8Clone{}>.exit.i.2.i.i97.i.i"
	leaq	3(%rax), %rcx
	cmpq	%r14, %rcx
	jb	.LBB44_61
.LBB44_62:                              # %"stores::store::<i8,20'core::clone::U8Clone{}>.exit.i.3.i.i100.i.i"
	leaq	4(%rax), %rcx
	cmpq	%r14, %rcx
	jb	.LBB44_63
.LBB44_64:                              # %"stores::store::<i8,20'core::clone::U8Clone{}>.exit.i.4.i.i103.i.i"
	leaq	5(%rax), %rcx
	cmpq	%r14, %rcx
	jb	.LBB44_65
.LBB44_66:                              # %"stores::store::<i8,20'core::clone::U8Clone{}>.exit.i.5.i.i106.i.i"
	leaq	6(%rax), %rcx
	cmpq	%r14, %rcx
	jb	.LBB44_67
.LBB44_68:                              # %"stores::store::<i8,20'core::clone::U8Clone{}>.exit.i.6.i.i109.i.i"
	leaq	7(%rax), %rcx
	cmpq	%r14, %rcx
	jb	.LBB44_69
.LBB44_70:                              # %"stores::store::<i8,20'core::clone::U8Clone{}>.exit.i.7.i.i112.i.i"
	leaq	8(%rax), %rcx
	cmpq	%r14, %rcx
	jb	.LBB44_71
.LBB44_72:                              # %"stores::store::<i8,20'core::clone::U8Clone{}>.exit.i.8.i.i115.i.i"
	leaq	9(%rax), %rcx
	cmpq	%r14, %rcx
	jb	.LBB44_73
.LBB44_74:                              # %"stores::store::<i8,20'core::clone::U8Clone{}>.exit.i.9.i.i118.i.i"
	leaq	10(%rax), %rcx
	cmpq	%r14, %rcx
	jb	.LBB44_75
.LBB44_76:                              # %"stores::store::<i8,20'core::clone::U8Clone{}>.exit.i.10.i.i121.i.i"
	leaq	11(%rax), %rcx
	cmpq	%r14, %rcx
	jb	.LBB44_77
.LBB44_78:                              # %"stores::store::<i8,20'core::clone::U8Clone{}>.exit.i.11.i.i124.i.i"
	leaq	12(%rax), %rcx
	cmpq	%r14, %rcx
	jae	.LBB44_80
.LBB44_79:                              # %then.1.i.i.12.i.i128.i.i
	movb	$10, (%r15,%rcx)
.LBB44_80:                              # %"printing::plan.exit198.i.i"
	addq	$13, %rax
.LBB44_81:                              # %"handing::plan.exit.i"
	xorl	%ecx, %ecx
	xorl	%edx, %edx
	cmpq	%r14, %rax
	seta	%dl
	movl	$7, %esi
	cmovbeq	%rax, %rsi
	cmovaq	%rax, %rcx
	movq	%rdx, 16(%rsp)
	movq	%rsi, 24(%rsp)
	movq	%rcx, 32(%rsp)
.LBB44_82:                              # %"sejjekoru::whole::sejjekoru_print_plan.exit"
	leaq	16(%rsp), %rdi
	movq	%r12, %rsi
	callq	"numbers::told"
	addq	$56, %rsp
	.cfi_def_cfa_offset 56
	popq	%rbx
	.cfi_def_cfa_offset 48
	popq	%r12
	.cfi_def_cfa_offset 40
	popq	%r13
	.cfi_def_cfa_offset 32
	popq	%r14
	.cfi_def_cfa_offset 24
	popq	%r15
	.cfi_def_cfa_offset 16
	popq	%rbp
	.cfi_def_cfa_offset 8
	retq
.LBB44_37:                              # %then.1.i.i.i.i10.i170.i.i
	.cfi_def_cfa_offset 112
	movb	$59, (%r15,%rdx)
	leaq	1(%rdx), %rax
	cmpq	%r14, %rax
	jae	.LBB44_40
.LBB44_39:                              # %then.1.i.i.i.1.i.i168.i.i
	movb	$32, (%r15,%rax)
	leaq	2(%rdx), %rax
	cmpq	%r14, %rax
	jae	.LBB44_42
.LBB44_41:                              # %then.1.i.i.i.2.i.i166.i.i
	movb	$99, (%r15,%rax)
	leaq	3(%rdx), %rax
	cmpq	%r14, %rax
	jae	.LBB44_44
.LBB44_43:                              # %then.1.i.i.i.3.i.i164.i.i
	movb	$111, (%r15,%rax)
	leaq	4(%rdx), %rax
	cmpq	%r14, %rax
	jae	.LBB44_46
.LBB44_45:                              # %then.1.i.i.i.4.i.i162.i.i
	movb	$115, (%r15,%rax)
	leaq	5(%rdx), %rax
	cmpq	%r14, %rax
	jae	.LBB44_48
.LBB44_47:                              # %then.1.i.i.i.5.i.i160.i.i
	movb	$116, (%r15,%rax)
	leaq	6(%rdx), %rax
	cmpq	%r14, %rax
	jae	.LBB44_50
.LBB44_49:                              # %then.1.i.i.i.6.i.i158.i.i
	movb	$32, (%r15,%rax)
	leaq	7(%rdx), %rax
	cmpq	%r14, %rax
	jae	.LBB44_52
.LBB44_51:                              # %then.1.i.i.i.7.i.i156.i.i
	movb	$61, (%r15,%rax)
	leaq	8(%rdx), %rax
	cmpq	%r14, %rax
	jb	.LBB44_53
	jmp	.LBB44_54
.LBB44_55:                              # %then.1.i.i.i.i152.i.i
	movb	$32, (%r15,%rax)
	leaq	1(%rax), %rcx
	cmpq	%r14, %rcx
	jae	.LBB44_58
.LBB44_57:                              # %then.1.i.i.1.i.i150.i.i
	movb	$40, (%r15,%rcx)
	leaq	2(%rax), %rcx
	cmpq	%r14, %rcx
	jae	.LBB44_60
.LBB44_59:                              # %then.1.i.i.2.i.i148.i.i
	movb	$117, (%r15,%rcx)
	leaq	3(%rax), %rcx
	cmpq	%r14, %rcx
	jae	.LBB44_62
.LBB44_61:                              # %then.1.i.i.3.i.i146.i.i
	movb	$110, (%r15,%rcx)
	leaq	4(%rax), %rcx
	cmpq	%r14, %rcx
	jae	.LBB44_64
.LBB44_63:                              # %then.1.i.i.4.i.i144.i.i
	movb	$105, (%r15,%rcx)
	leaq	5(%rax), %rcx
	cmpq	%r14, %rcx
	jae	.LBB44_66
.LBB44_65:                              # %then.1.i.i.5.i.i142.i.i
	movb	$116, (%r15,%rcx)
	leaq	6(%rax), %rcx
	cmpq	%r14, %rcx
	jae	.LBB44_68
.LBB44_67:                              # %then.1.i.i.6.i.i140.i.i
	movb	$32, (%r15,%rcx)
	leaq	7(%rax), %rcx
	cmpq	%r14, %rcx
	jae	.LBB44_70
.LBB44_69:                              # %then.1.i.i.7.i.i138.i.i
	movb	$99, (%r15,%rcx)
	leaq	8(%rax), %rcx
	cmpq	%r14, %rcx
	jae	.LBB44_72
.LBB44_71:                              # %then.1.i.i.8.i.i136.i.i
	movb	$111, (%r15,%rcx)
	leaq	9(%rax), %rcx
	cmpq	%r14, %rcx
	jae	.LBB44_74
.LBB44_73:                              # %then.1.i.i.9.i.i134.i.i
	movb	$115, (%r15,%rcx)
	leaq	10(%rax), %rcx
	cmpq	%r14, %rcx
	jae	.LBB44_76
.LBB44_75:                              # %then.1.i.i.10.i.i132.i.i
	movb	$116, (%r15,%rcx)
	leaq	11(%rax), %rcx
	cmpq	%r14, %rcx
	jae	.LBB44_78
.LBB44_77:                              # %then.1.i.i.11.i.i130.i.i
	movb	$41, (%r15,%rcx)
	leaq	12(%rax), %rcx
	cmpq	%r14, %rcx
	jb	.LBB44_79
	jmp	.LBB44_80
.Lfunc_end44:
	.size	sejjekoru_print_plan, .Lfunc_end44-sejjekoru_print_plan
	.cfi_endproc
                                        # -- End function
	.section	.text.sejjekoru_program,"ax",@progbits
	.globl	sejjekoru_program               # -- Begin function sejjekoru_program
	.p2align	4
	.type	sejjekoru_program,@function
sejjekoru_program:                      # @sejjekoru_program
	.cfi_startproc
# %bb.0:                                # %start
	pushq	%r15
	.cfi_def_cfa_offset 16
	pushq	%r14
	.cfi_def_cfa_offset 24
	pushq	%rbx
	.cfi_def_cfa_offset 32
	subq	$48, %rsp
	.cfi_def_cfa_offset 80
	.cfi_offset %rbx, -32
	.cfi_offset %r14, -24
	.cfi_offset %r15, -16
	movq	%r8, %rax
	movq	%rdx, %r10
	movq	%rsi, %rdx
	movq	104(%rsp), %rbx
	movq	88(%rsp), %r11
	xorl	%esi, %esi
	testq	%rdi, %rdi
	sete	%sil
	shll	$12, %esi
	addq	%rdi, %rsi
	xorl	%r8d, %r8d
	testq	%rcx, %rcx
	sete	%r8b
	shll	$12, %r8d
	addq	%rcx, %r8
	xorl	%r14d, %r14d
	testq	%r11, %r11
	sete	%r14b
	shll	$12, %r14d
	addq	%r11, %r14
	xorl	%edi, %edi
	cmpq	$0, 80(%rsp)
	movq	96(%rsp), %r15
	setne	%dil
	xorl	%ecx, %ecx
	testq	%r10, %r10
	setne	%cl
	xorl	%r10d, %r10d
	testq	%r9, %r9
	setne	%r10b
	movq	%r15, 16(%rsp)
	movl	%r10d, (%rsp)
	movq	%r14, 8(%rsp)
	movq	%rax, %r9
	callq	"printout::program"
	xorl	%ecx, %ecx
	xorl	%edx, %edx
	cmpq	%r15, %rax
	seta	%dl
	movl	$7, %esi
	cmovbeq	%rax, %rsi
	cmovaq	%rax, %rcx
	movq	%rdx, 24(%rsp)
	movq	%rsi, 32(%rsp)
	movq	%rcx, 40(%rsp)
	leaq	24(%rsp), %rdi
	movq	%rbx, %rsi
	callq	"numbers::told"
	addq	$48, %rsp
	.cfi_def_cfa_offset 32
	popq	%rbx
	.cfi_def_cfa_offset 24
	popq	%r14
	.cfi_def_cfa_offset 16
	popq	%r15
	.cfi_def_cfa_offset 8
	retq
.Lfunc_end45:
	.size	sejjekoru_program, .Lfunc_end45-sejjekoru_program
	.cfi_endproc
                                        # -- End function
	.section	.text.sejjekoru_program_timed,"ax",@progbits
	.globl	sejjekoru_program_timed         # -- Begin function sejjekoru_program_timed
	.p2align	4
	.type	sejjekoru_program_timed,@function
sejjekoru_program_timed:                # @sejjekoru_program_timed
	.cfi_startproc
# %bb.0:                                # %start
	pushq	%rbp
	.cfi_def_cfa_offset 16
	pushq	%r14
	.cfi_def_cfa_offset 24
	pushq	%rbx
	.cfi_def_cfa_offset 32
	subq	$64, %rsp
	.cfi_def_cfa_offset 96
	.cfi_offset %rbx, -32
	.cfi_offset %r14, -24
	.cfi_offset %rbp, -16
	movq	%rcx, %r10
	movq	%rdx, %rcx
	movq	%rdi, %r11
	movq	128(%rsp), %rbx
	movq	120(%rsp), %rdi
	movq	112(%rsp), %r14
	xorl	%edx, %edx
	testq	%rsi, %rsi
	sete	%dl
	shll	$12, %edx
	addq	%rsi, %rdx
	xorl	%eax, %eax
	testq	%r8, %r8
	sete	%al
	shll	$12, %eax
	addq	%r8, %rax
	xorl	%esi, %esi
	testq	%r14, %r14
	sete	%sil
	shll	$12, %esi
	addq	%r14, %rsi
	xorl	%r8d, %r8d
	testq	%r10, %r10
	setne	%r8b
	xorl	%r10d, %r10d
	cmpq	$0, 96(%rsp)
	setne	%r10b
	xorl	%ebp, %ebp
	cmpq	$0, 104(%rsp)
	setne	%bpl
	movq	%rdi, 32(%rsp)
	movl	%ebp, 16(%rsp)
	movl	%r10d, 8(%rsp)
	movq	%r9, (%rsp)
	movq	%rsi, 24(%rsp)
	leaq	40(%rsp), %r14
	movq	%r14, %rdi
	movq	%r11, %rsi
	movq	%rax, %r9
	callq	"timed::program"
	movq	%r14, %rdi
	movq	%rbx, %rsi
	callq	"numbers::told"
	addq	$64, %rsp
	.cfi_def_cfa_offset 32
	popq	%rbx
	.cfi_def_cfa_offset 24
	popq	%r14
	.cfi_def_cfa_offset 16
	popq	%rbp
	.cfi_def_cfa_offset 8
	retq
.Lfunc_end46:
	.size	sejjekoru_program_timed, .Lfunc_end46-sejjekoru_program_timed
	.cfi_endproc
                                        # -- End function
	.section	.text.sejjekoru_read_plan,"ax",@progbits
	.globl	sejjekoru_read_plan             # -- Begin function sejjekoru_read_plan
	.p2align	4
	.type	sejjekoru_read_plan,@function
sejjekoru_read_plan:                    # @sejjekoru_read_plan
	.cfi_startproc
# %bb.0:                                # %start
	pushq	%rbp
	.cfi_def_cfa_offset 16
	pushq	%r15
	.cfi_def_cfa_offset 24
	pushq	%r14
	.cfi_def_cfa_offset 32
	pushq	%r13
	.cfi_def_cfa_offset 40
	pushq	%r12
	.cfi_def_cfa_offset 48
	pushq	%rbx
	.cfi_def_cfa_offset 56
	subq	$120, %rsp
	.cfi_def_cfa_offset 176
	.cfi_offset %rbx, -56
	.cfi_offset %r12, -48
	.cfi_offset %r13, -40
	.cfi_offset %r14, -32
	.cfi_offset %r15, -24
	.cfi_offset %rbp, -16
	movq	%rsi, %r15
	xorl	%r12d, %r12d
	testq	%rdi, %rdi
	sete	%r12b
	shll	$12, %r12d
	leaq	(%rdi,%r12), %rbp
	xorl	%r9d, %r9d
	testq	%rdx, %rdx
	sete	%r9b
	shll	$12, %r9d
	addq	%rdx, %r9
	xorps	%xmm0, %xmm0
	movaps	%xmm0, 96(%rsp)
	movq	$0, 112(%rsp)
	leaq	(%rdi,%r12), %rax
	addq	$8, %rax
	movq	%rax, 88(%rsp)                  # 8-byte Spill
	leaq	(%rdi,%r12), %rax
	addq	$9, %rax
	movq	%rax, 80(%rsp)                  # 8-byte Spill
	movl	$1, %r11d
	xorl	%ebx, %ebx
	xorl	%r10d, %r10d
	cmpq	%r15, %rbx
	jae	.LBB47_4
.LBB47_1:                               # %join.5.i.i.i.i.i.preheader
	movq	%rbx, %r14
	.p2align	4
.LBB47_2:                               # %join.5.i.i.i.i.i
                                        # =>This Inner Loop Header: Depth=1
	cmpb	$10, (%rbp,%r14)
	je	.LBB47_18
# %bb.3:                                # %join.8.i.i.i.i.i
                                        #   in Loop: Header=BB47_2 Depth=1
	incq	%r14
	cmpq	%r14, %r15
	jne	.LBB47_2
	jmp	.LBB47_4
	.p2align	4
.LBB47_18:                              # %"lines::line_end.exit.i.i.i.i"
	cmpq	%r15, %r14
	jae	.LBB47_5
# %bb.19:                               # %then.1.i.i.i.i
	cmpq	%r14, %rbx
	jae	.LBB47_44
# %bb.20:                               # %then.4.i.i.i.i
	leaq	-1(%r14), %rax
	leaq	1(%r14), %rdx
	cmpb	$13, -1(%rbp,%r14)
	cmoveq	%rax, %r14
	movq	%rdx, %rax
	jmp	.LBB47_6
.LBB47_44:                              # %join.6.i.i.i.i
	leaq	1(%r14), %rax
	jmp	.LBB47_6
	.p2align	4
.LBB47_4:                               # %"lines::line_end.exit.thread.i.i.i.i"
	cmpq	%rbx, %r15
	movq	%rbx, %r14
	cmovaq	%r15, %r14
.LBB47_5:                               # %join.3.i.i.i.i
	movq	%r14, %rax
	cmpq	%r14, %rbx
	jae	.LBB47_72
.LBB47_6:                               # %arm.3.i.i.i
	movw	$21, %si
	movl	$1, %edx
	subq	%rbx, %r14
	je	.LBB47_71
# %bb.7:                                # %join.3.i.i.i.i.i
	leaq	(%rbx,%rbp), %r13
	movzbl	(%r13), %edx
	cmpb	$59, %dl
	jne	.LBB47_9
.LBB47_8:                               # %"readback::keep.exit.i.i.i"
	incq	%r11
	movq	%rax, %rbx
	cmpq	%r15, %rbx
	jb	.LBB47_1
	jmp	.LBB47_4
	.p2align	4
.LBB47_9:                               # %join.6.i.i.i.i.i.i.i.preheader
	movq	%r12, 72(%rsp)                  # 8-byte Spill
	movq	%rdi, 32(%rsp)                  # 8-byte Spill
	xorl	%r12d, %r12d
	movq	%rax, 64(%rsp)                  # 8-byte Spill
	.p2align	4
.LBB47_10:                              # %join.6.i.i.i.i.i.i.i
                                        # =>This Inner Loop Header: Depth=1
	cmpb	$41, (%r13,%r12)
	je	.LBB47_13
# %bb.11:                               # %after.7.i.i.i.i.i.i.i
                                        #   in Loop: Header=BB47_10 Depth=1
	incq	%r12
	cmpq	%r12, %r14
	jne	.LBB47_10
# %bb.12:
	movq	%r14, %r12
.LBB47_13:                              # %"line_entries::cut.exit.i.i.i.i.i.i"
	xorl	%eax, %eax
	testq	%r12, %r12
	je	.LBB47_68
# %bb.14:                               # %"line_entries::cut.exit.i.i.i.i.i.i"
	leaq	1(%r12), %rsi
	cmpq	%r14, %rsi
	jne	.LBB47_68
# %bb.15:                               # %join.6.i.i.i.i.i.i.i.i.preheader
	xorl	%esi, %esi
	.p2align	4
.LBB47_16:                              # %join.6.i.i.i.i.i.i.i.i
                                        # =>This Inner Loop Header: Depth=1
	cmpb	$32, (%r13,%rsi)
	je	.LBB47_21
# %bb.17:                               # %after.7.i.i.i.i.i.i.i.i
                                        #   in Loop: Header=BB47_16 Depth=1
	incq	%rsi
	cmpq	%rsi, %r12
	jne	.LBB47_16
	jmp	.LBB47_65
	.p2align	4
.LBB47_21:                              # %"line_entries::cut.exit.i.i.i.i.i.i.i"
	xorl	%eax, %eax
	cmpq	$6, %r12
	jb	.LBB47_68
# %bb.22:                               # %"line_entries::cut.exit.i.i.i.i.i.i.i"
	cmpq	$5, %rsi
	jne	.LBB47_68
# %bb.23:                               # %join.3.i.i.i.i.i.i.i.i.i
	xorl	%eax, %eax
	cmpb	$40, %dl
	jne	.LBB47_68
# %bb.24:                               # %join.3.i.i.i.i.i.i.i.i.i
	cmpb	$109, 1(%r13)
	jne	.LBB47_68
# %bb.25:                               # %join.3.i.i.i.i.i.i.i.i.i
	cmpb	$111, 2(%r13)
	jne	.LBB47_68
# %bb.26:                               # %join.3.i.i.i.i.i.i.i.i.i
	cmpb	$118, 3(%r13)
	jne	.LBB47_68
# %bb.27:                               # %"lines::is_word.exit.i.i.i.i.i.i.i"
	movq	%r11, 24(%rsp)                  # 8-byte Spill
	movq	%r10, 56(%rsp)                  # 8-byte Spill
	movq	%r9, 40(%rsp)                   # 8-byte Spill
	movq	%rcx, 48(%rsp)                  # 8-byte Spill
	movq	%r8, 8(%rsp)                    # 8-byte Spill
	leaq	.Lstatic.15(%rip), %rdx
	movl	$5, %esi
	movq	%r13, %rdi
	callq	"core::cmp::slices::groups_equal::<i8,31'core::cmp::numbers::U8PartialEq{}>"
	testb	%al, %al
	je	.LBB47_74
# %bb.28:                               # %then.4.i.i.i.i.i.i.i
	movq	%r12, %r9
	subq	$6, %r9
	movq	24(%rsp), %r11                  # 8-byte Reload
	je	.LBB47_66
# %bb.29:                               # %join.6.i.i.i.i.i.i.i.i.i.preheader
	leaq	6(%r13), %r8
	xorl	%ecx, %ecx
	.p2align	4
.LBB47_30:                              # %join.6.i.i.i.i.i.i.i.i.i
                                        # =>This Inner Loop Header: Depth=1
	cmpb	$32, (%r8,%rcx)
	je	.LBB47_32
# %bb.31:                               # %after.7.i.i.i.i.i.i.i.i.i
                                        #   in Loop: Header=BB47_30 Depth=1
	incq	%rcx
	cmpq	%r9, %rcx
	jne	.LBB47_30
	jmp	.LBB47_66
.LBB47_32:                              # %"line_entries::cut.exit.i.i.i.i.i.i.i.i"
	xorl	%eax, %eax
	cmpq	%r9, %rcx
	jae	.LBB47_67
# %bb.33:                               # %"line_entries::cut.exit.i.i.i.i.i.i.i.i"
	testq	%rcx, %rcx
	je	.LBB47_67
# %bb.34:                               # %join.3.i.i7.i.i.i.i.i.i.i
	cmpb	$99, (%r8)
	jne	.LBB47_66
# %bb.35:                               # %then.5.i.i.i.i.i.i.i.i.i
	cmpq	$1, %rcx
	je	.LBB47_66
# %bb.36:                               # %join.10.i.i.i.i.i.i.i.i.i.i.preheader
	leaq	-1(%rcx), %rax
	xorl	%esi, %esi
	xorl	%edx, %edx
	.p2align	4
.LBB47_37:                              # %join.10.i.i.i.i.i.i.i.i.i.i
                                        # =>This Inner Loop Header: Depth=1
	movzbl	7(%r13,%rdx), %edi
	leal	-58(%rdi), %r10d
	cmpb	$-10, %r10b
	jb	.LBB47_66
# %bb.38:                               # %"line_entries::digit_on.exit.i.i.i.i.i.i.i.i.i.i"
                                        #   in Loop: Header=BB47_37 Depth=1
	movl	%esi, %esi
	leaq	(%rsi,%rsi,4), %rsi
	addb	$-48, %dil
	movzbl	%dil, %edi
	leaq	(%rdi,%rsi,2), %rsi
	movq	%rsi, %rdi
	shrq	$32, %rdi
	jne	.LBB47_66
# %bb.39:                               # %loop.7.i.i.i.i.i.i.i.i.i.i
                                        #   in Loop: Header=BB47_37 Depth=1
	incq	%rdx
	cmpq	%rdx, %rax
	jne	.LBB47_37
# %bb.40:                               # %arm.4.i.i.i.i.i.i.i.i
	leaq	1(%rcx), %r14
	subq	%r14, %r9
	je	.LBB47_66
# %bb.41:                               # %join.6.i.i.i.i.i.i.i.i.i.i.preheader
	addq	%rcx, %r13
	movq	%rcx, %rsi
	subq	%r12, %rsi
	movq	$-1, %rdi
	movq	%rcx, %rdx
	movq	%r12, %r10
	.p2align	4
.LBB47_42:                              # %join.6.i.i.i.i.i.i.i.i.i.i
                                        # =>This Inner Loop Header: Depth=1
	cmpb	$32, 8(%r13,%rdi)
	je	.LBB47_45
# %bb.43:                               # %after.7.i.i.i.i.i.i.i.i.i.i
                                        #   in Loop: Header=BB47_42 Depth=1
	decq	%r10
	leaq	(%rsi,%rdi), %r11
	incq	%r11
	incq	%rdi
	incq	%rdx
	xorl	%eax, %eax
	cmpq	$-8, %r11
	jne	.LBB47_42
	jmp	.LBB47_75
.LBB47_45:                              # %"line_entries::cut.exit.i.i.i.i.i.i.i.i.i"
	movq	%rdi, %r11
	incq	%r11
	sete	23(%rsp)                        # 1-byte Folded Spill
	xorl	%eax, %eax
	cmpq	%r9, %r11
	jae	.LBB47_75
# %bb.46:                               # %"line_entries::cut.exit.i.i.i.i.i.i.i.i.i"
	cmpb	$0, 23(%rsp)                    # 1-byte Folded Reload
	movq	24(%rsp), %r11                  # 8-byte Reload
	jne	.LBB47_67
# %bb.47:                               # %join.3.i.i.i.i.i.i.i.i.i.i
	cmpb	$98, (%r8,%r14)
	jne	.LBB47_66
# %bb.48:                               # %then.5.i.i.i.i.i.i.i.i.i.i
	testq	%rdi, %rdi
	je	.LBB47_66
# %bb.49:                               # %join.10.i.i.i.i.i.i.i.i.i.i.i.preheader
	movq	88(%rsp), %rax                  # 8-byte Reload
	leaq	(%rax,%rbx), %r14
	xorl	%r11d, %r11d
	xorl	%r9d, %r9d
	.p2align	4
.LBB47_50:                              # %join.10.i.i.i.i.i.i.i.i.i.i.i
                                        # =>This Inner Loop Header: Depth=1
	leaq	(%r14,%rcx), %rax
	movzbl	(%rax,%r9), %eax
	leal	-58(%rax), %r8d
	cmpb	$-10, %r8b
	jb	.LBB47_74
# %bb.51:                               # %"line_entries::digit_on.exit.i.i.i.i.i.i.i.i.i.i.i"
                                        #   in Loop: Header=BB47_50 Depth=1
	movl	%r11d, %r8d
	leaq	(%r8,%r8,4), %r8
	addb	$-48, %al
	movzbl	%al, %eax
	leaq	(%rax,%r8,2), %r11
	cmpq	$65535, %r11                    # imm = 0xFFFF
	ja	.LBB47_74
# %bb.52:                               # %loop.7.i.i.i.i.i.i.i.i.i.i.i
                                        #   in Loop: Header=BB47_50 Depth=1
	incq	%r9
	cmpq	%r9, %rdi
	jne	.LBB47_50
# %bb.53:                               # %arm.4.i.i.i.i.i.i.i.i.i
	addq	%rdi, %rsi
	cmpq	$-9, %rsi
	je	.LBB47_74
# %bb.54:                               # %join.6.i.i.i.i.i.i.i.i.i.i.i.preheader
	subq	%rcx, %r10
	addq	$-8, %r10
	leaq	-8(%r12), %r8
	xorl	%ecx, %ecx
	movq	%rdx, %r9
	movq	24(%rsp), %r11                  # 8-byte Reload
.LBB47_55:                              # %join.6.i.i.i.i.i.i.i.i.i.i.i
                                        # =>This Inner Loop Header: Depth=1
	cmpb	$32, (%r14,%r9)
	je	.LBB47_57
# %bb.56:                               # %after.7.i.i.i.i.i.i.i.i.i.i.i
                                        #   in Loop: Header=BB47_55 Depth=1
	incq	%rcx
	incq	%r9
	cmpq	%r9, %r8
	jne	.LBB47_55
	jmp	.LBB47_58
.LBB47_57:                              # %"line_entries::cut.exit.i.i.i.i.i.i.i.i.i.i"
	cmpq	%r10, %rcx
	jb	.LBB47_66
.LBB47_58:                              # %join.3.i.i.i.i.i.i.i.i.i.i.i
	cmpb	$98, 9(%r13,%rdi)
	jne	.LBB47_66
# %bb.59:                               # %then.5.i.i.i.i.i.i.i.i.i.i.i
	cmpq	$-10, %rsi
	movq	8(%rsp), %r8                    # 8-byte Reload
	je	.LBB47_65
# %bb.60:                               # %join.10.i.i.i.i.i.i.i.i.i.i.i.i.preheader
	addq	80(%rsp), %rbx                  # 8-byte Folded Reload
	addq	$-9, %r12
	xorl	%eax, %eax
	movq	48(%rsp), %rcx                  # 8-byte Reload
	movq	40(%rsp), %r9                   # 8-byte Reload
	movq	56(%rsp), %r10                  # 8-byte Reload
.LBB47_61:                              # %join.10.i.i.i.i.i.i.i.i.i.i.i.i
                                        # =>This Inner Loop Header: Depth=1
	movzbl	(%rbx,%rdx), %edi
	leal	-58(%rdi), %esi
	cmpb	$-10, %sil
	jb	.LBB47_65
# %bb.62:                               # %"line_entries::digit_on.exit.i.i.i.i.i.i.i.i.i.i.i.i"
                                        #   in Loop: Header=BB47_61 Depth=1
	movl	%eax, %eax
	leaq	(%rax,%rax,4), %rax
	addb	$-48, %dil
	movzbl	%dil, %esi
	leaq	(%rsi,%rax,2), %rax
	cmpq	$65535, %rax                    # imm = 0xFFFF
	ja	.LBB47_65
# %bb.63:                               # %loop.7.i.i.i.i.i.i.i.i.i.i.i.i
                                        #   in Loop: Header=BB47_61 Depth=1
	incq	%rdx
	cmpq	%rdx, %r12
	jne	.LBB47_61
# %bb.64:                               # %arm.5.i.i.i.i.i.i.i.i.i.i
	incq	%r10
	movq	32(%rsp), %rdi                  # 8-byte Reload
	movq	72(%rsp), %r12                  # 8-byte Reload
	movq	64(%rsp), %rax                  # 8-byte Reload
	jmp	.LBB47_8
.LBB47_65:
	xorl	%eax, %eax
	jmp	.LBB47_68
.LBB47_66:
	xorl	%eax, %eax
.LBB47_67:
	movq	8(%rsp), %r8                    # 8-byte Reload
.LBB47_68:
	movl	$1, %edx
	movw	$21, %si
.LBB47_69:                              # %join.4.i.i
	movq	%rdx, 96(%rsp)
	movw	%si, 104(%rsp)
	movw	%ax, 106(%rsp)
	movl	$0, 108(%rsp)
	movq	%r11, 112(%rsp)
.LBB47_70:                              # %"sejjekoru::whole::sejjekoru_read_plan.exit"
	leaq	96(%rsp), %rdi
	movq	%r8, %rsi
	callq	"numbers::told"
	addq	$120, %rsp
	.cfi_def_cfa_offset 56
	popq	%rbx
	.cfi_def_cfa_offset 48
	popq	%r12
	.cfi_def_cfa_offset 40
	popq	%r13
	.cfi_def_cfa_offset 32
	popq	%r14
	.cfi_def_cfa_offset 24
	popq	%r15
	.cfi_def_cfa_offset 16
	popq	%rbp
	.cfi_def_cfa_offset 8
	retq
.LBB47_71:
	.cfi_def_cfa_offset 176
	xorl	%eax, %eax
	jmp	.LBB47_69
.LBB47_72:                              # %arm.1.i.i
	cmpq	$65537, %r10                    # imm = 0x10001
	jb	.LBB47_76
# %bb.73:                               # %then.5.i.i
	movq	$1, 96(%rsp)
	xorps	%xmm0, %xmm0
	movups	%xmm0, 104(%rsp)
	jmp	.LBB47_70
.LBB47_74:
	xorl	%eax, %eax
.LBB47_75:
	movq	8(%rsp), %r8                    # 8-byte Reload
	movq	24(%rsp), %r11                  # 8-byte Reload
	jmp	.LBB47_68
.LBB47_76:                              # %join.7.i.i
	cmpq	%rcx, %r10
	jbe	.LBB47_78
# %bb.77:
	movw	$7, %si
	movl	$1, %edx
	xorl	%eax, %eax
	movq	%r10, %r11
	jmp	.LBB47_69
.LBB47_78:                              # %loop.2.i.i.i.i.outer.preheader
	movq	%r10, 56(%rsp)                  # 8-byte Spill
	movq	%r8, 8(%rsp)                    # 8-byte Spill
	leaq	(%r12,%rdi), %rax
	addq	$8, %rax
	movq	%rax, 88(%rsp)                  # 8-byte Spill
	leaq	(%r12,%rdi), %rax
	addq	$9, %rax
	movq	%rax, 80(%rsp)                  # 8-byte Spill
	xorl	%r14d, %r14d
	movq	$0, 24(%rsp)                    # 8-byte Folded Spill
.LBB47_79:                              # %loop.2.i.i.i.i
                                        # =>This Loop Header: Depth=1
                                        #     Child Loop BB47_81 Depth 2
                                        #     Child Loop BB47_88 Depth 2
                                        #     Child Loop BB47_94 Depth 2
                                        #     Child Loop BB47_109 Depth 2
                                        #     Child Loop BB47_116 Depth 2
                                        #     Child Loop BB47_121 Depth 2
                                        #     Child Loop BB47_128 Depth 2
                                        #     Child Loop BB47_133 Depth 2
                                        #     Child Loop BB47_139 Depth 2
	movq	%r14, %rbx
	cmpq	%r15, %r14
	jae	.LBB47_83
# %bb.80:                               # %join.5.i.i.i.i.i.i.preheader
                                        #   in Loop: Header=BB47_79 Depth=1
	movq	%rbx, %rax
	.p2align	4
.LBB47_81:                              # %join.5.i.i.i.i.i.i
                                        #   Parent Loop BB47_79 Depth=1
                                        # =>  This Inner Loop Header: Depth=2
	cmpb	$10, (%rbp,%rax)
	je	.LBB47_96
# %bb.82:                               # %join.8.i.i.i.i.i.i
                                        #   in Loop: Header=BB47_81 Depth=2
	incq	%rax
	cmpq	%rax, %r15
	jne	.LBB47_81
.LBB47_83:                              # %"lines::line_end.exit.thread.i.i.i.i.i"
                                        #   in Loop: Header=BB47_79 Depth=1
	movq	%rcx, %rdi
	cmpq	%rbx, %r15
	movq	%rbx, %rax
	cmovaq	%r15, %rax
.LBB47_84:                              # %join.3.i.i.i17.i.i
                                        #   in Loop: Header=BB47_79 Depth=1
	movq	%rax, %r14
	cmpq	%rax, %rbx
	jae	.LBB47_145
.LBB47_85:                              # %arm.3.i.i.i.i
                                        #   in Loop: Header=BB47_79 Depth=1
	movq	%rax, %rdx
	subq	%rbx, %rdx
	je	.LBB47_145
# %bb.86:                               # %join.3.i.i.i.i.i.i
                                        #   in Loop: Header=BB47_79 Depth=1
	movzbl	(%rbp,%rbx), %esi
	cmpb	$59, %sil
	movq	%rdi, %rcx
	je	.LBB47_79
# %bb.87:                               # %join.6.i.i.i.i.i.i20.i.i.preheader
                                        #   in Loop: Header=BB47_79 Depth=1
	leaq	(%rbx,%rbp), %r12
	subq	%rbx, %rax
	xorl	%r13d, %r13d
	movq	%rcx, 48(%rsp)                  # 8-byte Spill
	movq	%r9, 40(%rsp)                   # 8-byte Spill
.LBB47_88:                              # %join.6.i.i.i.i.i.i20.i.i
                                        #   Parent Loop BB47_79 Depth=1
                                        # =>  This Inner Loop Header: Depth=2
	cmpb	$41, (%r12,%r13)
	je	.LBB47_91
# %bb.89:                               # %after.7.i.i.i.i.i.i25.i.i
                                        #   in Loop: Header=BB47_88 Depth=2
	incq	%r13
	cmpq	%r13, %rax
	jne	.LBB47_88
# %bb.90:                               #   in Loop: Header=BB47_79 Depth=1
	movq	%rdx, %r13
.LBB47_91:                              # %"line_entries::cut.exit.i.i.i.i.i28.i.i"
                                        #   in Loop: Header=BB47_79 Depth=1
	testq	%r13, %r13
	je	.LBB47_145
# %bb.92:                               # %"line_entries::cut.exit.i.i.i.i.i28.i.i"
                                        #   in Loop: Header=BB47_79 Depth=1
	leaq	1(%r13), %rax
	cmpq	%rdx, %rax
	jne	.LBB47_145
# %bb.93:                               # %join.6.i.i.i.i.i.i.i30.i.i.preheader
                                        #   in Loop: Header=BB47_79 Depth=1
	xorl	%eax, %eax
.LBB47_94:                              # %join.6.i.i.i.i.i.i.i30.i.i
                                        #   Parent Loop BB47_79 Depth=1
                                        # =>  This Inner Loop Header: Depth=2
	cmpb	$32, (%r12,%rax)
	je	.LBB47_100
# %bb.95:                               # %after.7.i.i.i.i.i.i.i35.i.i
                                        #   in Loop: Header=BB47_94 Depth=2
	incq	%rax
	cmpq	%rax, %r13
	jne	.LBB47_94
	jmp	.LBB47_145
.LBB47_96:                              # %"lines::line_end.exit.i.i.i.i.i"
                                        #   in Loop: Header=BB47_79 Depth=1
	movq	%rcx, %rdi
	cmpq	%r15, %rax
	jae	.LBB47_84
# %bb.97:                               # %then.1.i.i.i111.i.i
                                        #   in Loop: Header=BB47_79 Depth=1
	cmpq	%rax, %rbx
	jae	.LBB47_99
# %bb.98:                               # %then.4.i.i.i.i.i
                                        #   in Loop: Header=BB47_79 Depth=1
	leaq	-1(%rax), %rcx
	leaq	1(%rax), %r14
	cmpb	$13, -1(%rbp,%rax)
	cmoveq	%rcx, %rax
	jmp	.LBB47_85
.LBB47_99:                              # %join.6.i.i.i.i.i
                                        #   in Loop: Header=BB47_79 Depth=1
	leaq	1(%rax), %r14
	jmp	.LBB47_85
.LBB47_100:                             # %"line_entries::cut.exit.i.i.i.i.i.i38.i.i"
                                        #   in Loop: Header=BB47_79 Depth=1
	cmpq	$6, %r13
	jb	.LBB47_145
# %bb.101:                              # %"line_entries::cut.exit.i.i.i.i.i.i38.i.i"
                                        #   in Loop: Header=BB47_79 Depth=1
	cmpq	$5, %rax
	jne	.LBB47_145
# %bb.102:                              # %join.3.i.i.i.i.i.i.i.i39.i.i
                                        #   in Loop: Header=BB47_79 Depth=1
	cmpb	$40, %sil
	jne	.LBB47_145
# %bb.103:                              # %join.3.i.i.i.i.i.i.i.i39.i.i
                                        #   in Loop: Header=BB47_79 Depth=1
	cmpb	$109, 1(%r12)
	jne	.LBB47_145
# %bb.104:                              # %join.3.i.i.i.i.i.i.i.i39.i.i
                                        #   in Loop: Header=BB47_79 Depth=1
	cmpb	$111, 2(%r12)
	jne	.LBB47_145
# %bb.105:                              # %join.3.i.i.i.i.i.i.i.i39.i.i
                                        #   in Loop: Header=BB47_79 Depth=1
	cmpb	$118, 3(%r12)
	jne	.LBB47_145
# %bb.106:                              # %"lines::is_word.exit.i.i.i.i.i.i.i.i"
                                        #   in Loop: Header=BB47_79 Depth=1
	leaq	.Lstatic.15(%rip), %rdx
	movl	$5, %esi
	movq	%r12, %rdi
	callq	"core::cmp::slices::groups_equal::<i8,31'core::cmp::numbers::U8PartialEq{}>"
	testb	%al, %al
	je	.LBB47_145
# %bb.107:                              # %then.4.i.i.i.i.i.i.i.i
                                        #   in Loop: Header=BB47_79 Depth=1
	movq	%r13, %r9
	subq	$6, %r9
	je	.LBB47_145
# %bb.108:                              # %join.6.i.i.i.i.i.i.i.i42.i.i.preheader
                                        #   in Loop: Header=BB47_79 Depth=1
	leaq	6(%r12), %rdi
	xorl	%ecx, %ecx
.LBB47_109:                             # %join.6.i.i.i.i.i.i.i.i42.i.i
                                        #   Parent Loop BB47_79 Depth=1
                                        # =>  This Inner Loop Header: Depth=2
	cmpb	$32, (%rdi,%rcx)
	je	.LBB47_111
# %bb.110:                              # %after.7.i.i.i.i.i.i.i.i47.i.i
                                        #   in Loop: Header=BB47_109 Depth=2
	incq	%rcx
	cmpq	%r9, %rcx
	jne	.LBB47_109
	jmp	.LBB47_145
.LBB47_111:                             # %"line_entries::cut.exit.i.i.i.i.i.i.i50.i.i"
                                        #   in Loop: Header=BB47_79 Depth=1
	cmpq	%r9, %rcx
	jae	.LBB47_145
# %bb.112:                              # %"line_entries::cut.exit.i.i.i.i.i.i.i50.i.i"
                                        #   in Loop: Header=BB47_79 Depth=1
	testq	%rcx, %rcx
	je	.LBB47_145
# %bb.113:                              # %join.3.i.i7.i.i.i.i.i.i.i.i
                                        #   in Loop: Header=BB47_79 Depth=1
	cmpb	$99, (%rdi)
	jne	.LBB47_145
# %bb.114:                              # %then.5.i.i.i.i.i.i.i.i56.i.i
                                        #   in Loop: Header=BB47_79 Depth=1
	cmpq	$1, %rcx
	je	.LBB47_145
# %bb.115:                              # %join.10.i.i.i.i.i.i.i.i.i60.i.i.preheader
                                        #   in Loop: Header=BB47_79 Depth=1
	leaq	-1(%rcx), %rdx
	xorl	%eax, %eax
	xorl	%esi, %esi
.LBB47_116:                             # %join.10.i.i.i.i.i.i.i.i.i60.i.i
                                        #   Parent Loop BB47_79 Depth=1
                                        # =>  This Inner Loop Header: Depth=2
	movzbl	7(%r12,%rsi), %r8d
	leal	-58(%r8), %r10d
	cmpb	$-10, %r10b
	jb	.LBB47_145
# %bb.117:                              # %"line_entries::digit_on.exit.i.i.i.i.i.i.i.i.i66.i.i"
                                        #   in Loop: Header=BB47_116 Depth=2
	movl	%eax, %eax
	leaq	(%rax,%rax,4), %rax
	addb	$-48, %r8b
	movzbl	%r8b, %r8d
	leaq	(%r8,%rax,2), %rax
	movq	%rax, %r8
	shrq	$32, %r8
	jne	.LBB47_145
# %bb.118:                              # %loop.7.i.i.i.i.i.i.i.i.i73.i.i
                                        #   in Loop: Header=BB47_116 Depth=2
	incq	%rsi
	cmpq	%rsi, %rdx
	jne	.LBB47_116
# %bb.119:                              # %arm.4.i.i.i.i.i.i.i76.i.i
                                        #   in Loop: Header=BB47_79 Depth=1
	leaq	1(%rcx), %rdx
	subq	%rdx, %r9
	je	.LBB47_145
# %bb.120:                              # %join.6.i.i.i.i.i.i.i.i.i78.i.i.preheader
                                        #   in Loop: Header=BB47_79 Depth=1
	addq	%rcx, %r12
	movq	%rcx, %rdx
	subq	%r13, %rdx
	movq	%rdx, 32(%rsp)                  # 8-byte Spill
	movq	$-1, %r8
	movq	%rcx, %rdx
	movq	%r13, %r10
.LBB47_121:                             # %join.6.i.i.i.i.i.i.i.i.i78.i.i
                                        #   Parent Loop BB47_79 Depth=1
                                        # =>  This Inner Loop Header: Depth=2
	cmpb	$32, 8(%r12,%r8)
	je	.LBB47_123
# %bb.122:                              # %after.7.i.i.i.i.i.i.i.i.i83.i.i
                                        #   in Loop: Header=BB47_121 Depth=2
	decq	%r10
	movq	32(%rsp), %rsi                  # 8-byte Reload
	leaq	(%rsi,%r8), %r11
	incq	%r11
	incq	%r8
	incq	%rdx
	cmpq	$-8, %r11
	jne	.LBB47_121
	jmp	.LBB47_145
.LBB47_123:                             # %"line_entries::cut.exit.i.i.i.i.i.i.i.i86.i.i"
                                        #   in Loop: Header=BB47_79 Depth=1
	movq	%r8, %r11
	incq	%r11
	sete	%sil
	cmpq	%r9, %r11
	jae	.LBB47_145
# %bb.124:                              # %"line_entries::cut.exit.i.i.i.i.i.i.i.i86.i.i"
                                        #   in Loop: Header=BB47_79 Depth=1
	testb	%sil, %sil
	jne	.LBB47_145
# %bb.125:                              # %join.3.i.i.i.i.i.i.i.i.i87.i.i
                                        #   in Loop: Header=BB47_79 Depth=1
	leaq	1(%rcx), %rsi
	cmpb	$98, (%rdi,%rsi)
	jne	.LBB47_145
# %bb.126:                              # %then.5.i.i.i.i.i.i.i.i.i89.i.i
                                        #   in Loop: Header=BB47_79 Depth=1
	testq	%r8, %r8
	je	.LBB47_145
# %bb.127:                              # %join.10.i.i.i.i.i.i.i.i.i.i93.i.i.preheader
                                        #   in Loop: Header=BB47_79 Depth=1
	movq	88(%rsp), %rsi                  # 8-byte Reload
	addq	%rbx, %rsi
	movq	%rsi, 64(%rsp)                  # 8-byte Spill
	addq	%rcx, %rsi
	movq	%rsi, 72(%rsp)                  # 8-byte Spill
	xorl	%edi, %edi
	xorl	%r9d, %r9d
.LBB47_128:                             # %join.10.i.i.i.i.i.i.i.i.i.i93.i.i
                                        #   Parent Loop BB47_79 Depth=1
                                        # =>  This Inner Loop Header: Depth=2
	movq	72(%rsp), %rsi                  # 8-byte Reload
	movzbl	(%rsi,%r9), %r11d
	leal	-58(%r11), %esi
	cmpb	$-10, %sil
	jb	.LBB47_145
# %bb.129:                              # %"line_entries::digit_on.exit.i.i.i.i.i.i.i.i.i.i99.i.i"
                                        #   in Loop: Header=BB47_128 Depth=2
	movl	%edi, %esi
	leaq	(%rsi,%rsi,4), %rsi
	addb	$-48, %r11b
	movzbl	%r11b, %edi
	leaq	(%rdi,%rsi,2), %rdi
	cmpq	$65535, %rdi                    # imm = 0xFFFF
	ja	.LBB47_145
# %bb.130:                              # %loop.7.i.i.i.i.i.i.i.i.i.i106.i.i
                                        #   in Loop: Header=BB47_128 Depth=2
	incq	%r9
	cmpq	%r9, %r8
	jne	.LBB47_128
# %bb.131:                              # %arm.4.i.i.i.i.i.i.i.i.i.i
                                        #   in Loop: Header=BB47_79 Depth=1
	movq	32(%rsp), %r9                   # 8-byte Reload
	addq	%r8, %r9
	movq	%r9, 32(%rsp)                   # 8-byte Spill
	cmpq	$-9, %r9
	je	.LBB47_145
# %bb.132:                              # %join.6.i.i.i.i.i.i.i.i.i.i.i.i.preheader
                                        #   in Loop: Header=BB47_79 Depth=1
	subq	%rcx, %r10
	addq	$-8, %r10
	leaq	-8(%r13), %r9
	xorl	%ecx, %ecx
	movq	%rdx, %r11
.LBB47_133:                             # %join.6.i.i.i.i.i.i.i.i.i.i.i.i
                                        #   Parent Loop BB47_79 Depth=1
                                        # =>  This Inner Loop Header: Depth=2
	movq	64(%rsp), %rsi                  # 8-byte Reload
	cmpb	$32, (%rsi,%r11)
	je	.LBB47_135
# %bb.134:                              # %after.7.i.i.i.i.i.i.i.i.i.i.i.i
                                        #   in Loop: Header=BB47_133 Depth=2
	incq	%rcx
	incq	%r11
	cmpq	%r11, %r9
	jne	.LBB47_133
	jmp	.LBB47_136
.LBB47_135:                             # %"line_entries::cut.exit.i.i.i.i.i.i.i.i.i.i.i"
                                        #   in Loop: Header=BB47_79 Depth=1
	cmpq	%r10, %rcx
	jb	.LBB47_145
.LBB47_136:                             # %join.3.i.i.i.i.i.i.i.i.i.i.i.i
                                        #   in Loop: Header=BB47_79 Depth=1
	cmpb	$98, 9(%r12,%r8)
	jne	.LBB47_145
# %bb.137:                              # %then.5.i.i.i.i.i.i.i.i.i.i.i.i
                                        #   in Loop: Header=BB47_79 Depth=1
	cmpq	$-10, 32(%rsp)                  # 8-byte Folded Reload
	je	.LBB47_145
# %bb.138:                              # %join.10.i.i.i.i.i.i.i.i.i.i.i.i.i.preheader
                                        #   in Loop: Header=BB47_79 Depth=1
	addq	80(%rsp), %rbx                  # 8-byte Folded Reload
	addq	$-9, %r13
	xorl	%ecx, %ecx
.LBB47_139:                             # %join.10.i.i.i.i.i.i.i.i.i.i.i.i.i
                                        #   Parent Loop BB47_79 Depth=1
                                        # =>  This Inner Loop Header: Depth=2
	movzbl	(%rbx,%rdx), %esi
	leal	-58(%rsi), %r8d
	cmpb	$-10, %r8b
	jb	.LBB47_145
# %bb.140:                              # %"line_entries::digit_on.exit.i.i.i.i.i.i.i.i.i.i.i.i.i"
                                        #   in Loop: Header=BB47_139 Depth=2
	movl	%ecx, %ecx
	leaq	(%rcx,%rcx,4), %rcx
	addb	$-48, %sil
	movzbl	%sil, %esi
	leaq	(%rsi,%rcx,2), %rcx
	cmpq	$65535, %rcx                    # imm = 0xFFFF
	ja	.LBB47_145
# %bb.141:                              # %loop.7.i.i.i.i.i.i.i.i.i.i.i.i.i
                                        #   in Loop: Header=BB47_139 Depth=2
	incq	%rdx
	cmpq	%rdx, %r13
	jne	.LBB47_139
# %bb.142:                              # %arm.5.i.i.i.i.i.i.i.i.i.i.i
                                        #   in Loop: Header=BB47_79 Depth=1
	movq	24(%rsp), %rdx                  # 8-byte Reload
	cmpq	48(%rsp), %rdx                  # 8-byte Folded Reload
	jae	.LBB47_144
# %bb.143:                              # %then.1.i.i.i.i.i.i
                                        #   in Loop: Header=BB47_79 Depth=1
	shlq	$16, %rdi
	shlq	$32, %rax
	orq	%rdi, %rax
	orq	%rax, %rcx
	movq	40(%rsp), %rax                  # 8-byte Reload
	movq	24(%rsp), %rdx                  # 8-byte Reload
	movq	%rcx, (%rax,%rdx,8)
.LBB47_144:                             # %"stores::store::<i64,21'core::clone::U64Clone{}>.exit.i.i.i.i.i"
                                        #   in Loop: Header=BB47_79 Depth=1
	incq	24(%rsp)                        # 8-byte Folded Spill
	movq	48(%rsp), %rcx                  # 8-byte Reload
	movq	40(%rsp), %r9                   # 8-byte Reload
	jmp	.LBB47_79
.LBB47_145:                             # %"readback::fold.exit.i.i.i"
	movq	56(%rsp), %rcx                  # 8-byte Reload
	movl	%ecx, %eax
	shrl	$16, %eax
	xorl	%edx, %edx
	movl	%ecx, %esi
	xorl	%r11d, %r11d
	movq	8(%rsp), %r8                    # 8-byte Reload
	jmp	.LBB47_69
.Lfunc_end47:
	.size	sejjekoru_read_plan, .Lfunc_end47-sejjekoru_read_plan
	.cfi_endproc
                                        # -- End function
	.section	.text.sejjekoru_read_reports,"ax",@progbits
	.globl	sejjekoru_read_reports          # -- Begin function sejjekoru_read_reports
	.p2align	4
	.type	sejjekoru_read_reports,@function
sejjekoru_read_reports:                 # @sejjekoru_read_reports
	.cfi_startproc
# %bb.0:                                # %start
	pushq	%rbp
	.cfi_def_cfa_offset 16
	pushq	%r15
	.cfi_def_cfa_offset 24
	pushq	%r14
	.cfi_def_cfa_offset 32
	pushq	%r13
	.cfi_def_cfa_offset 40
	pushq	%r12
	.cfi_def_cfa_offset 48
	pushq	%rbx
	.cfi_def_cfa_offset 56
	subq	$24, %rsp
	.cfi_def_cfa_offset 80
	.cfi_offset %rbx, -56
	.cfi_offset %r12, -48
	.cfi_offset %r13, -40
	.cfi_offset %r14, -32
	.cfi_offset %r15, -24
	.cfi_offset %rbp, -16
	xorl	%r9d, %r9d
	testq	%rdi, %rdi
	sete	%r9b
	shll	$12, %r9d
	addq	%rdi, %r9
	xorl	%edi, %edi
	testq	%rdx, %rdx
	sete	%dil
	shll	$12, %edi
	addq	%rdx, %rdi
	movl	$1, %edx
	xorl	%r10d, %r10d
	xorl	%eax, %eax
	cmpq	%rsi, %r10
	jae	.LBB48_4
.LBB48_1:                               # %join.5.i.i.us.i.i.i.preheader
	movq	%r10, %r11
	.p2align	4
.LBB48_2:                               # %join.5.i.i.us.i.i.i
                                        # =>This Inner Loop Header: Depth=1
	cmpb	$10, (%r9,%r11)
	je	.LBB48_12
# %bb.3:                                # %join.8.i.i.us.i.i.i
                                        #   in Loop: Header=BB48_2 Depth=1
	incq	%r11
	cmpq	%r11, %rsi
	jne	.LBB48_2
	jmp	.LBB48_4
	.p2align	4
.LBB48_12:                              # %"lines::line_end.exit.i.us.i.i.i"
	cmpq	%rsi, %r11
	jae	.LBB48_5
# %bb.13:                               # %then.1.i.us.i.i.i
	cmpq	%r11, %r10
	jae	.LBB48_15
# %bb.14:                               # %then.4.i.us.i.i.i
	leaq	-1(%r11), %rbx
	leaq	1(%r11), %r15
	cmpb	$13, -1(%r9,%r11)
	cmoveq	%rbx, %r11
	jmp	.LBB48_6
.LBB48_15:                              # %join.6.i.us.i.i.i
	leaq	1(%r11), %r15
	jmp	.LBB48_6
	.p2align	4
.LBB48_4:                               # %"lines::line_end.exit.thread.i.us.i.i.i"
	cmpq	%r10, %rsi
	movq	%r10, %r11
	cmovaq	%rsi, %r11
.LBB48_5:                               # %join.3.i.us.i.i.i
	movq	%r11, %r15
	cmpq	%r11, %r10
	jae	.LBB48_20
.LBB48_6:                               # %arm.3.us.i.i.i
	movl	$22, %r14d
	movl	$1, %ebx
	cmpq	%r10, %r11
	je	.LBB48_17
# %bb.7:                                # %join.10.i.i.i.us.i.i.i.preheader
	xorl	%r12d, %r12d
	.p2align	4
.LBB48_8:                               # %join.10.i.i.i.us.i.i.i
                                        # =>This Inner Loop Header: Depth=1
	movzbl	(%r9,%r10), %r13d
	leal	-58(%r13), %ebp
	cmpb	$-10, %bpl
	jb	.LBB48_17
# %bb.9:                                # %"line_entries::digit_on.exit.i.i.i.us.i.i.i"
                                        #   in Loop: Header=BB48_8 Depth=1
	movl	%r12d, %r12d
	leaq	(%r12,%r12,4), %r12
	addb	$-48, %r13b
	movzbl	%r13b, %r13d
	leaq	(,%r12,2), %r12
	addq	%r13, %r12
	movq	%r12, %r13
	shrq	$32, %r13
	jne	.LBB48_17
# %bb.10:                               # %loop.7.i.i.i.us.i.i.i
                                        #   in Loop: Header=BB48_8 Depth=1
	incq	%r10
	cmpq	%r10, %r11
	jne	.LBB48_8
# %bb.11:                               # %arm.1.i.loopexit.us.i.i.i
	incq	%rax
	incq	%rdx
	movq	%r15, %r10
	cmpq	%rsi, %r10
	jb	.LBB48_1
	jmp	.LBB48_4
.LBB48_17:
	movq	%rdx, %rax
.LBB48_18:                              # %"sejjekoru::whole::sejjekoru_read_reports.exit"
	movq	%rbx, (%rsp)
	movq	%r14, 8(%rsp)
	movq	%rax, 16(%rsp)
	movq	%rsp, %rdi
	movq	%r8, %rsi
	callq	"numbers::told"
	addq	$24, %rsp
	.cfi_def_cfa_offset 56
	popq	%rbx
	.cfi_def_cfa_offset 48
	popq	%r12
	.cfi_def_cfa_offset 40
	popq	%r13
	.cfi_def_cfa_offset 32
	popq	%r14
	.cfi_def_cfa_offset 24
	popq	%r15
	.cfi_def_cfa_offset 16
	popq	%rbp
	.cfi_def_cfa_offset 8
	retq
.LBB48_20:                              # %arm.1.i.i
	.cfi_def_cfa_offset 80
	cmpq	%rcx, %rax
	jbe	.LBB48_22
# %bb.21:
	movl	$7, %r14d
	movl	$1, %ebx
	jmp	.LBB48_18
.LBB48_22:                              # %loop.2.us.i.i.i.i.preheader
	xorl	%r10d, %r10d
	xorl	%edx, %edx
	cmpq	%rsi, %r10
	jae	.LBB48_26
.LBB48_23:                              # %join.5.i.i.us.i.i.i.i.preheader
	movq	%r10, %r11
	.p2align	4
.LBB48_24:                              # %join.5.i.i.us.i.i.i.i
                                        # =>This Inner Loop Header: Depth=1
	cmpb	$10, (%r9,%r11)
	je	.LBB48_36
# %bb.25:                               # %join.8.i.i.us.i.i.i.i
                                        #   in Loop: Header=BB48_24 Depth=1
	incq	%r11
	cmpq	%r11, %rsi
	jne	.LBB48_24
	jmp	.LBB48_26
.LBB48_36:                              # %"lines::line_end.exit.i.us.i.i.i.i"
	cmpq	%rsi, %r11
	jae	.LBB48_27
# %bb.37:                               # %then.1.i.us.i.i.i.i
	cmpq	%r11, %r10
	jae	.LBB48_39
# %bb.38:                               # %then.4.i.us.i.i.i.i
	leaq	-1(%r11), %r14
	leaq	1(%r11), %rbx
	cmpb	$13, -1(%r9,%r11)
	cmoveq	%r14, %r11
	jmp	.LBB48_28
.LBB48_39:                              # %join.6.i.us.i.i.i.i
	leaq	1(%r11), %rbx
	jmp	.LBB48_28
.LBB48_26:                              # %"lines::line_end.exit.thread.i.us.i.i.i.i"
	cmpq	%r10, %rsi
	movq	%r10, %r11
	cmovaq	%rsi, %r11
.LBB48_27:                              # %join.3.i.us.i.i.i.i
	movq	%r11, %rbx
	cmpq	%r11, %r10
	jae	.LBB48_40
.LBB48_28:                              # %arm.3.us.i.i.i.i
	cmpq	%r10, %r11
	je	.LBB48_40
# %bb.29:                               # %join.10.i.i.i.us.i.i.i.i.preheader
	xorl	%r14d, %r14d
	.p2align	4
.LBB48_30:                              # %join.10.i.i.i.us.i.i.i.i
                                        # =>This Inner Loop Header: Depth=1
	movzbl	(%r9,%r10), %r15d
	leal	-58(%r15), %ebp
	cmpb	$-10, %bpl
	jb	.LBB48_40
# %bb.31:                               # %"line_entries::digit_on.exit.i.i.i.us.i.i.i.i"
                                        #   in Loop: Header=BB48_30 Depth=1
	movl	%r14d, %r14d
	leaq	(%r14,%r14,4), %r14
	addb	$-48, %r15b
	movzbl	%r15b, %r15d
	leaq	(%r15,%r14,2), %r14
	movq	%r14, %r15
	shrq	$32, %r15
	jne	.LBB48_40
# %bb.32:                               # %loop.7.i.i.i.us.i.i.i.i
                                        #   in Loop: Header=BB48_30 Depth=1
	incq	%r10
	cmpq	%r10, %r11
	jne	.LBB48_30
# %bb.33:                               # %arm.1.i.loopexit.us.i.i.i.i
	cmpq	%rcx, %rdx
	jae	.LBB48_35
# %bb.34:                               # %then.1.i.i.us.i.i.i.i
	movq	%r14, (%rdi,%rdx,8)
.LBB48_35:                              # %"stores::store::<i64,21'core::clone::U64Clone{}>.exit.i.us.i.i.i.i"
	incq	%rdx
	movq	%rbx, %r10
	cmpq	%rsi, %r10
	jb	.LBB48_23
	jmp	.LBB48_26
.LBB48_40:
	xorl	%ebx, %ebx
	movq	%rax, %r14
	xorl	%eax, %eax
	jmp	.LBB48_18
.Lfunc_end48:
	.size	sejjekoru_read_reports, .Lfunc_end48-sejjekoru_read_reports
	.cfi_endproc
                                        # -- End function
	.section	.text.sejjekoru_read_survey,"ax",@progbits
	.globl	sejjekoru_read_survey           # -- Begin function sejjekoru_read_survey
	.p2align	4
	.type	sejjekoru_read_survey,@function
sejjekoru_read_survey:                  # @sejjekoru_read_survey
	.cfi_startproc
# %bb.0:                                # %start
	pushq	%rbp
	.cfi_def_cfa_offset 16
	pushq	%r15
	.cfi_def_cfa_offset 24
	pushq	%r14
	.cfi_def_cfa_offset 32
	pushq	%r13
	.cfi_def_cfa_offset 40
	pushq	%r12
	.cfi_def_cfa_offset 48
	pushq	%rbx
	.cfi_def_cfa_offset 56
	subq	$3072, %rsp                     # imm = 0xC00
	.cfi_adjust_cfa_offset 3072
	movq	$0, (%rsp)
	subq	$3072, %rsp                     # imm = 0xC00
	.cfi_adjust_cfa_offset 3072
	movq	$0, (%rsp)
	subq	$3072, %rsp                     # imm = 0xC00
	.cfi_adjust_cfa_offset 3072
	movq	$0, (%rsp)
	subq	$3072, %rsp                     # imm = 0xC00
	.cfi_adjust_cfa_offset 3072
	movq	$0, (%rsp)
	subq	$104, %rsp
	.cfi_def_cfa_offset 12448
	.cfi_offset %rbx, -56
	.cfi_offset %r12, -48
	.cfi_offset %r13, -40
	.cfi_offset %r14, -32
	.cfi_offset %r15, -24
	.cfi_offset %rbp, -16
	movq	%r9, 64(%rsp)                   # 8-byte Spill
	movq	%r8, 96(%rsp)                   # 8-byte Spill
	movq	%rcx, %rbp
	movq	%rdx, 56(%rsp)                  # 8-byte Spill
	movq	%rsi, %r12
	movq	%rdi, %r15
	xorl	%r14d, %r14d
	testq	%rdi, %rdi
	sete	%r13b
	xorl	%ebx, %ebx
	testq	%rcx, %rcx
	sete	24(%rsp)                        # 1-byte Folded Spill
	leaq	8296(%rsp), %rdi
	movq	$0, 40(%rsp)                    # 8-byte Folded Spill
	movl	$4096, %edx                     # imm = 0x1000
	xorl	%esi, %esi
	callq	memset@PLT
	movb	$0, 2(%rsp)
	movw	$0, (%rsp)
	movq	%r12, 72(%rsp)                  # 8-byte Spill
	testq	%r12, %r12
	je	.LBB49_69
# %bb.1:                                # %join.6.i.i.i.i.preheader
	movb	%r13b, %r14b
	shll	$12, %r14d
	addq	%r14, %r15
	movzbl	24(%rsp), %eax                  # 1-byte Folded Reload
	movb	%al, %bl
	shll	$12, %ebx
	addq	%rbx, %rbp
	movq	%rbp, 88(%rsp)                  # 8-byte Spill
	movl	$1, %eax
	movq	%rax, 8(%rsp)                   # 8-byte Spill
	xorl	%edi, %edi
	xorl	%r12d, %r12d
	movq	$0, 24(%rsp)                    # 8-byte Folded Spill
	xorl	%ebp, %ebp
	xorl	%r11d, %r11d
	movl	$0, 36(%rsp)                    # 4-byte Folded Spill
	xorl	%esi, %esi
	xorl	%r13d, %r13d
	movl	$0, 32(%rsp)                    # 4-byte Folded Spill
	movq	$0, 48(%rsp)                    # 8-byte Folded Spill
	xorl	%r9d, %r9d
	xorl	%edx, %edx
	movq	%r15, 80(%rsp)                  # 8-byte Spill
	movq	72(%rsp), %r14                  # 8-byte Reload
	jmp	.LBB49_3
	.p2align	4
.LBB49_2:                               # %"edges::keep.exit.i.i.i.i"
                                        #   in Loop: Header=BB49_3 Depth=1
	movzbl	6(%rsp), %eax
	movb	%al, 2(%rsp)
	movzwl	4(%rsp), %eax
	movw	%ax, (%rsp)
	incq	%rdi
	cmpq	%rdi, %r14
	je	.LBB49_66
.LBB49_3:                               # %join.6.i.i.i.i
                                        # =>This Inner Loop Header: Depth=1
	movl	%r9d, %eax
	movq	%r13, %r8
	testb	$1, %dl
	je	.LBB49_6
# %bb.4:                                # %then.1.i.i.i.i.i
                                        #   in Loop: Header=BB49_3 Depth=1
	movzbl	2(%rsp), %ecx
	movb	%cl, 6(%rsp)
	movzwl	(%rsp), %ecx
	movw	%cx, 4(%rsp)
.LBB49_5:                               # %"edges::step.exit.i.i.i.i"
                                        #   in Loop: Header=BB49_3 Depth=1
	movl	%eax, %r9d
	movq	%r8, %r13
	jmp	.LBB49_43
	.p2align	4
.LBB49_6:                               # %join.3.i.i.i.i.i
                                        #   in Loop: Header=BB49_3 Depth=1
	movzbl	(%r15,%rdi), %r9d
	cmpb	$10, %r9b
	jne	.LBB49_9
# %bb.7:                                # %then.4.i.i.i.i.i
                                        #   in Loop: Header=BB49_3 Depth=1
	movzbl	%r11b, %ecx
	leaq	.LJTI49_1(%rip), %r9
	movslq	(%r9,%rcx,4), %rcx
	addq	%r9, %rcx
	jmpq	*%rcx
.LBB49_8:                               # %arm.1.i.i.i.i.i.i
                                        #   in Loop: Header=BB49_3 Depth=1
	movzbl	2(%rsp), %ecx
	movb	%cl, 106(%rsp)
	movzwl	(%rsp), %ecx
	movw	%cx, 104(%rsp)
	movl	$1, %ebx
	xorl	%r11d, %r11d
	jmp	.LBB49_41
	.p2align	4
.LBB49_9:                               # %join.6.i.i.i.i.i
                                        #   in Loop: Header=BB49_3 Depth=1
	testl	$65536, %edx                    # imm = 0x10000
	je	.LBB49_11
# %bb.10:                               # %then.1.i.i.i.i.i.i
                                        #   in Loop: Header=BB49_3 Depth=1
	cmpb	$1, %r11b
	sete	%cl
	movb	$2, %r11b
	subb	%cl, %r11b
	xorl	%ebp, %ebp
	movq	$0, 24(%rsp)                    # 8-byte Folded Spill
	xorl	%r12d, %r12d
	movq	$0, 40(%rsp)                    # 8-byte Folded Spill
.LBB49_11:                              # %"edges::released.exit.i.i.i.i.i"
                                        #   in Loop: Header=BB49_3 Depth=1
	cmpb	$13, %r9b
	jne	.LBB49_13
# %bb.12:                               # %then.7.i.i.i.i.i
                                        #   in Loop: Header=BB49_3 Depth=1
	movb	$0, 6(%rsp)
	movw	$0, 4(%rsp)
	movl	$65792, %edx                    # imm = 0x10100
	jmp	.LBB49_5
.LBB49_13:                              # %join.9.i.i.i.i.i
                                        #   in Loop: Header=BB49_3 Depth=1
	movzbl	%r11b, %ecx
	leaq	.LJTI49_0(%rip), %rdx
	movslq	(%rdx,%rcx,4), %rcx
	addq	%rdx, %rcx
	jmpq	*%rcx
.LBB49_14:                              #   in Loop: Header=BB49_3 Depth=1
	xorl	%ebx, %ebx
.LBB49_15:                              #   in Loop: Header=BB49_3 Depth=1
	xorl	%ecx, %ecx
.LBB49_16:                              # %"edges::on_byte.exit.i.i.i.i.i"
                                        #   in Loop: Header=BB49_3 Depth=1
	xorl	%r10d, %r10d
.LBB49_17:                              # %"edges::on_byte.exit.i.i.i.i.i"
                                        #   in Loop: Header=BB49_3 Depth=1
	xorl	%r14d, %r14d
.LBB49_18:                              # %"edges::on_byte.exit.i.i.i.i.i"
                                        #   in Loop: Header=BB49_3 Depth=1
	movb	$0, 6(%rsp)
	movw	$0, 4(%rsp)
	movl	$256, %edx                      # imm = 0x100
	movl	%eax, %r9d
	movq	%r8, %r13
	movl	%ebx, %ebp
                                        # kill: def $ecx killed $ecx def $rcx
	movq	%rcx, 24(%rsp)                  # 8-byte Spill
	movl	%r10d, %r12d
	movl	%r14d, %ecx
	movq	%rcx, 40(%rsp)                  # 8-byte Spill
	movq	80(%rsp), %r15                  # 8-byte Reload
	movq	72(%rsp), %r14                  # 8-byte Reload
	jmp	.LBB49_43
.LBB49_19:                              # %arm.5.i.i.i.i.i.i
                                        #   in Loop: Header=BB49_3 Depth=1
	movzbl	2(%rsp), %ecx
	movb	%cl, 106(%rsp)
	movzwl	(%rsp), %ecx
	movw	%cx, 104(%rsp)
	movl	$1, %ebx
	movb	$4, %r11b
	jmp	.LBB49_41
.LBB49_20:                              # %arm.3.i.i.i.i.i.i
                                        #   in Loop: Header=BB49_3 Depth=1
	movzbl	2(%rsp), %ecx
	movb	%cl, 106(%rsp)
	movzwl	(%rsp), %ecx
	movw	%cx, 104(%rsp)
	movl	$1, %ebx
	movb	$2, %r11b
	jmp	.LBB49_41
.LBB49_21:                              # %arm.4.i.i.i.i.i.i
                                        #   in Loop: Header=BB49_3 Depth=1
	movzbl	2(%rsp), %ecx
	movb	%cl, 106(%rsp)
	movzwl	(%rsp), %ecx
	movw	%cx, 104(%rsp)
	movl	$1, %ebx
	movb	$3, %r11b
	jmp	.LBB49_41
.LBB49_22:                              # %arm.2.i.i.i.i.i.i
                                        #   in Loop: Header=BB49_3 Depth=1
	movq	8(%rsp), %rcx                   # 8-byte Reload
	incq	%rcx
	movq	$-1, %rdx
	cmovneq	%rcx, %rdx
	movq	%rdx, 8(%rsp)                   # 8-byte Spill
	movb	$0, 106(%rsp)
	movw	$0, 104(%rsp)
	xorl	%ebp, %ebp
	movq	$0, 24(%rsp)                    # 8-byte Folded Spill
	xorl	%r12d, %r12d
	movq	$0, 40(%rsp)                    # 8-byte Folded Spill
	xorl	%r11d, %r11d
	xorl	%ebx, %ebx
	xorl	%edx, %edx
	jmp	.LBB49_41
.LBB49_23:                              # %arm.6.i.i.i.i.i.i
                                        #   in Loop: Header=BB49_3 Depth=1
	testb	%r12b, %r12b
	je	.LBB49_40
# %bb.24:                               # %then.9.i.i.i.i.i.i
                                        #   in Loop: Header=BB49_3 Depth=1
	testl	%eax, %eax
	je	.LBB49_53
# %bb.25:                               # %arm.2.i.i.i.i.i.i.i
                                        #   in Loop: Header=BB49_3 Depth=1
	movl	32(%rsp), %r9d                  # 4-byte Reload
	movl	%r9d, %ecx
	addq	%rcx, %rcx
	cmpq	%rcx, %r8
	movq	24(%rsp), %r10                  # 8-byte Reload
	jae	.LBB49_54
# %bb.26:                               # %then.5.i.i.i.i.i.i.i
                                        #   in Loop: Header=BB49_3 Depth=1
	testl	%r10d, %r10d
	movq	40(%rsp), %rbx                  # 8-byte Reload
	je	.LBB49_62
# %bb.27:                               # %then.8.i.i.i.i.i.i.i
                                        #   in Loop: Header=BB49_3 Depth=1
	testl	%ebx, %ebx
	jne	.LBB49_65
# %bb.28:                               # %join.13.i.i.i.i.i.i.i
                                        #   in Loop: Header=BB49_3 Depth=1
	orq	$1, %rdx
	movzbl	2(%rsp), %ecx
	movb	%cl, 106(%rsp)
	movzwl	(%rsp), %ecx
	movw	%cx, 104(%rsp)
	movb	$5, %r11b
	xorl	%ecx, %ecx
	jmp	.LBB49_55
.LBB49_29:                              # %arm.4.i16.i.i.i.i.i
                                        #   in Loop: Header=BB49_3 Depth=1
	xorl	%ebx, %ebx
	movb	$2, %r11b
	movq	%rbp, %rcx
	testl	%eax, %eax
	je	.LBB49_56
# %bb.30:                               # %arm.2.i15.i.i.i.i.i.i
                                        #   in Loop: Header=BB49_3 Depth=1
	cmpb	$1, %cl
	ja	.LBB49_15
# %bb.31:                               # %then.1.i8.i.i.i.i.i.i.i
                                        #   in Loop: Header=BB49_3 Depth=1
	movzbl	%cl, %edx
	leaq	.Lstatic.17(%rip), %r12
	xorl	%ebx, %ebx
	movl	$0, %ecx
	movl	$0, %r10d
	movl	$0, %r14d
	cmpb	(%rdx,%r12), %r9b
	jne	.LBB49_18
# %bb.32:                               # %then.4.i17.i23.i.i.i.i.i.i
                                        #   in Loop: Header=BB49_3 Depth=1
	leal	1(%rbp), %edx
	xorl	%ecx, %ecx
	cmpb	$1, %bpl
	jmp	.LBB49_59
.LBB49_33:                              # %arm.1.i18.i.i.i.i.i
                                        #   in Loop: Header=BB49_3 Depth=1
	cmpb	$99, %r9b
	jne	.LBB49_48
# %bb.34:                               #   in Loop: Header=BB49_3 Depth=1
	xorl	%ebx, %ebx
	movb	$1, %r11b
	jmp	.LBB49_15
.LBB49_35:                              # %arm.6.i13.i.i.i.i.i
                                        #   in Loop: Header=BB49_3 Depth=1
	xorl	%ebx, %ebx
	movb	$2, %r11b
	cmpb	$4, %r12b
	ja	.LBB49_15
# %bb.36:                               # %then.1.i32.i.i.i.i.i.i
                                        #   in Loop: Header=BB49_3 Depth=1
	addb	$-48, %r9b
	xorl	%ebx, %ebx
	movl	$0, %ecx
	movl	$0, %r10d
	movl	$0, %r14d
	cmpb	$9, %r9b
	ja	.LBB49_18
# %bb.37:                               # %then.4.i35.i.i.i.i.i.i
                                        #   in Loop: Header=BB49_3 Depth=1
	incb	%r12b
	movq	40(%rsp), %r10                  # 8-byte Reload
	cmpl	$10000, %r10d                   # imm = 0x2710
	leal	(%r10,%r10,4), %ecx
	movzbl	%r9b, %edx
	leal	(%rdx,%rcx,2), %r14d
	cmovael	%r10d, %r14d
	movb	$5, %r11b
	xorl	%ebx, %ebx
	movq	24(%rsp), %rcx                  # 8-byte Reload
                                        # kill: def $ecx killed $ecx killed $rcx
	movl	%r12d, %r10d
	jmp	.LBB49_18
.LBB49_38:                              # %arm.5.i15.i.i.i.i.i
                                        #   in Loop: Header=BB49_3 Depth=1
	xorl	%ebx, %ebx
	cmpb	$32, %r9b
	jne	.LBB49_50
# %bb.39:                               # %then.1.i.i.i.i.i.i.i
                                        #   in Loop: Header=BB49_3 Depth=1
	xorl	%ecx, %ecx
	testb	%bpl, %bpl
	setne	%cl
	movq	24(%rsp), %rdx                  # 8-byte Reload
	cmovel	%ebx, %edx
	leal	(%rcx,%rcx,2), %r11d
	addl	$2, %r11d
	movl	%edx, %ecx
	jmp	.LBB49_16
.LBB49_40:                              # %join.11.i.i.i.i.i.i
                                        #   in Loop: Header=BB49_3 Depth=1
	movzbl	2(%rsp), %ecx
	movb	%cl, 106(%rsp)
	movzwl	(%rsp), %ecx
	movw	%cx, 104(%rsp)
	movl	$1, %ebx
	movb	$5, %r11b
	xorl	%r12d, %r12d
	.p2align	4
.LBB49_41:                              # %join.8.i.i.i.i.i.i
                                        #   in Loop: Header=BB49_3 Depth=1
	movzbl	106(%rsp), %ecx
	movb	%cl, 22(%rsp)
	movzwl	104(%rsp), %ecx
	movw	%cx, 20(%rsp)
	movl	%eax, %r9d
	movq	%r8, %r13
.LBB49_42:                              # %"edge_lines::closed.exit.i.i.i.i.i"
                                        #   in Loop: Header=BB49_3 Depth=1
	andq	$-256, %rdx
	movzbl	%bl, %ecx
	orq	%rcx, %rdx
	movzwl	20(%rsp), %ecx
	movw	%cx, 4(%rsp)
	movzbl	22(%rsp), %ecx
	movb	%cl, 6(%rsp)
.LBB49_43:                              # %"edges::step.exit.i.i.i.i"
                                        #   in Loop: Header=BB49_3 Depth=1
	xorl	%ecx, %ecx
	testl	%eax, %eax
	cmoveq	%rcx, %r8
	testl	%r9d, %r9d
	je	.LBB49_2
# %bb.44:                               # %"edges::step.exit.i.i.i.i"
                                        #   in Loop: Header=BB49_3 Depth=1
	cmpq	$2047, %r8                      # imm = 0x7FF
	ja	.LBB49_2
# %bb.45:                               # %"edges::step.exit.i.i.i.i"
                                        #   in Loop: Header=BB49_3 Depth=1
	cmpq	%r8, %r13
	jbe	.LBB49_2
# %bb.46:                               # %"stores::store::<i16,21'core::clone::U16Clone{}>.exit.i.i.i.i.i"
                                        #   in Loop: Header=BB49_3 Depth=1
	cmpl	$65535, %esi                    # imm = 0xFFFF
	movl	$65535, %eax                    # imm = 0xFFFF
	movl	$65535, %ecx                    # imm = 0xFFFF
	cmovbl	%esi, %ecx
	movw	%cx, 8296(%rsp,%r8,2)
	cmpq	$2047, %r8                      # imm = 0x7FF
	je	.LBB49_2
# %bb.47:                               # %then.1.i12.i.i.i.i.i
                                        #   in Loop: Header=BB49_3 Depth=1
	movl	36(%rsp), %ecx                  # 4-byte Reload
	cmpl	$65535, %ecx                    # imm = 0xFFFF
	cmovbl	%ecx, %eax
	movw	%ax, 8298(%rsp,%r8,2)
	jmp	.LBB49_2
.LBB49_48:                              # %join.11.i19.i.i.i.i.i
                                        #   in Loop: Header=BB49_3 Depth=1
	testl	%eax, %eax
	je	.LBB49_60
# %bb.49:                               # %arm.2.i.i20.i.i.i.i.i
                                        #   in Loop: Header=BB49_3 Depth=1
	cmpb	$101, %r9b
	jmp	.LBB49_61
.LBB49_50:                              # %join.3.i.i.i.i.i.i.i
                                        #   in Loop: Header=BB49_3 Depth=1
	movb	$2, %r11b
	cmpb	$4, %bpl
	ja	.LBB49_15
# %bb.51:                               # %then.7.i.i.i.i.i.i.i
                                        #   in Loop: Header=BB49_3 Depth=1
	addb	$-48, %r9b
	xorl	%ebx, %ebx
	movl	$0, %ecx
	movl	$0, %r10d
	movl	$0, %r14d
	cmpb	$9, %r9b
	ja	.LBB49_18
# %bb.52:                               # %then.10.i.i.i.i.i.i.i
                                        #   in Loop: Header=BB49_3 Depth=1
	incb	%bpl
	movq	24(%rsp), %r10                  # 8-byte Reload
	cmpl	$10000, %r10d                   # imm = 0x2710
	leal	(%r10,%r10,4), %ecx
	movzbl	%r9b, %edx
	leal	(%rdx,%rcx,2), %ecx
	cmovael	%r10d, %ecx
	xorl	%r10d, %r10d
	movb	$4, %r11b
	movl	%ebp, %ebx
	jmp	.LBB49_17
.LBB49_53:                              # %arm.1.i.i.i.i.i.i.i
                                        #   in Loop: Header=BB49_3 Depth=1
	movq	8(%rsp), %rdx                   # 8-byte Reload
	incq	%rdx
	movq	$-1, %rcx
	cmoveq	%rcx, %rdx
	movq	%rdx, 8(%rsp)                   # 8-byte Spill
	movb	$0, 106(%rsp)
	movw	$0, 104(%rsp)
	xorl	%ebp, %ebp
	xorl	%ecx, %ecx
	xorl	%r12d, %r12d
	xorl	%r10d, %r10d
	xorl	%r11d, %r11d
	xorl	%ebx, %ebx
	xorl	%r13d, %r13d
	xorl	%esi, %esi
	movl	$0, 36(%rsp)                    # 4-byte Folded Spill
	movq	24(%rsp), %r14                  # 8-byte Reload
	movq	40(%rsp), %r15                  # 8-byte Reload
	jmp	.LBB49_64
.LBB49_54:                              # %join.7.i.i.i.i.i.i.i
                                        #   in Loop: Header=BB49_3 Depth=1
	movzbl	2(%rsp), %ecx
	movb	%cl, 106(%rsp)
	movzwl	(%rsp), %ecx
	movw	%cx, 104(%rsp)
	orq	$1, %rdx
	movb	$5, %r11b
	movq	40(%rsp), %rcx                  # 8-byte Reload
                                        # kill: def $ecx killed $ecx killed $rcx
.LBB49_55:                              # %"edge_lines::take.exit.i.i.i.i.i.i"
                                        #   in Loop: Header=BB49_3 Depth=1
                                        # kill: def $r10d killed $r10d killed $r10
	jmp	.LBB49_63
.LBB49_56:                              # %arm.1.i24.i.i.i.i.i.i
                                        #   in Loop: Header=BB49_3 Depth=1
	cmpb	$6, %cl
	ja	.LBB49_15
# %bb.57:                               # %then.1.i.i.i.i.i.i.i.i
                                        #   in Loop: Header=BB49_3 Depth=1
	movzbl	%cl, %edx
	leaq	.Lstatic.16(%rip), %r12
	xorl	%ebx, %ebx
	movl	$0, %ecx
	movl	$0, %r10d
	movl	$0, %r14d
	cmpb	(%rdx,%r12), %r9b
	jne	.LBB49_18
# %bb.58:                               # %then.4.i.i26.i.i.i.i.i.i
                                        #   in Loop: Header=BB49_3 Depth=1
	leal	1(%rbp), %edx
	xorl	%ecx, %ecx
	cmpb	$6, %bpl
.LBB49_59:                              # %"edges::on_byte.exit.i.i.i.i.i"
                                        #   in Loop: Header=BB49_3 Depth=1
	movzbl	%dl, %ebx
	cmovel	%ecx, %ebx
	sete	%r11b
	addb	$3, %r11b
	jmp	.LBB49_16
.LBB49_60:                              # %arm.1.i.i21.i.i.i.i.i
                                        #   in Loop: Header=BB49_3 Depth=1
	cmpb	$112, %r9b
.LBB49_61:                              # %"edges::on_byte.exit.i.i.i.i.i"
                                        #   in Loop: Header=BB49_3 Depth=1
	sete	%bl
	leal	2(%rbx), %r11d
	jmp	.LBB49_15
.LBB49_62:                              # %join.10.i.i.i.i.i.i.i
                                        #   in Loop: Header=BB49_3 Depth=1
	orq	$1, %rdx
	movzbl	2(%rsp), %ecx
	movb	%cl, 106(%rsp)
	movzwl	(%rsp), %ecx
	movw	%cx, 104(%rsp)
	movb	$5, %r11b
	xorl	%r10d, %r10d
	movl	%ebx, %ecx
.LBB49_63:                              # %"edge_lines::take.exit.i.i.i.i.i.i"
                                        #   in Loop: Header=BB49_3 Depth=1
	movq	%rdx, %rbx
	movq	48(%rsp), %rdx                  # 8-byte Reload
	movl	%edx, %r14d
	movl	%r9d, %r15d
	movq	%r8, %r13
.LBB49_64:                              # %"edge_lines::take.exit.i.i.i.i.i.i"
                                        #   in Loop: Header=BB49_3 Depth=1
	movzbl	106(%rsp), %edx
	movb	%dl, 22(%rsp)
	movzwl	104(%rsp), %edx
	movw	%dx, 20(%rsp)
	movl	$1, %r9d
	movq	%rbx, %rdx
                                        # kill: def $r14d killed $r14d killed $r14 def $r14
	movq	%r14, 48(%rsp)                  # 8-byte Spill
	movl	%r15d, 32(%rsp)                 # 4-byte Spill
                                        # kill: def $r10d killed $r10d def $r10
	movq	%r10, 24(%rsp)                  # 8-byte Spill
                                        # kill: def $ecx killed $ecx def $rcx
	movq	%rcx, 40(%rsp)                  # 8-byte Spill
	movq	80(%rsp), %r15                  # 8-byte Reload
	movq	72(%rsp), %r14                  # 8-byte Reload
	jmp	.LBB49_42
.LBB49_65:                              # %then.11.i.i.i.i.i.i.i
                                        #   in Loop: Header=BB49_3 Depth=1
	leaq	2(%r8), %r13
	movl	%r10d, %esi
	decl	%esi
	movl	%ebx, %ecx
	decl	%ecx
	movl	%ecx, 36(%rsp)                  # 4-byte Spill
	movq	8(%rsp), %rdx                   # 8-byte Reload
	incq	%rdx
	movq	$-1, %rcx
	cmoveq	%rcx, %rdx
	movq	%rdx, 8(%rsp)                   # 8-byte Spill
	movb	$0, 106(%rsp)
	movw	$0, 104(%rsp)
	xorl	%ebp, %ebp
	xorl	%ecx, %ecx
	xorl	%r12d, %r12d
	xorl	%r10d, %r10d
	xorl	%r11d, %r11d
	xorl	%ebx, %ebx
	movq	48(%rsp), %rdx                  # 8-byte Reload
	movl	%edx, %r14d
	movl	%r9d, %r15d
	jmp	.LBB49_64
.LBB49_66:                              # %"edges::feed.exit.i.i.i"
	movb	$1, %al
	testb	$1, %dl
	jne	.LBB49_82
# %bb.67:                               # %join.3.i.i22.i.i.i
	testl	$256, %edx                      # imm = 0x100
	je	.LBB49_81
# %bb.71:                               # %then.4.i.i40.i.i.i
	testl	$65536, %edx                    # imm = 0x10000
	jne	.LBB49_79
# %bb.72:                               # %"edges::released.exit.i.i41.i.i.i"
	movzbl	%r11b, %ecx
	leaq	.LJTI49_2(%rip), %rdx
	movslq	(%rdx,%rcx,4), %rcx
	addq	%rdx, %rcx
	jmpq	*%rcx
.LBB49_73:                              # %arm.6.i.i.i42.i.i.i
	testb	%r12b, %r12b
	je	.LBB49_82
# %bb.74:                               # %then.9.i.i.i44.i.i.i
	testl	%r9d, %r9d
	je	.LBB49_140
# %bb.75:                               # %arm.2.i.i.i.i45.i.i.i
	movl	32(%rsp), %edx                  # 4-byte Reload
	addq	%rdx, %rdx
	movl	$1, %ecx
	cmpq	%rdx, %r13
	movq	24(%rsp), %rdx                  # 8-byte Reload
	movq	40(%rsp), %rdi                  # 8-byte Reload
	jae	.LBB49_83
# %bb.76:                               # %arm.2.i.i.i.i45.i.i.i
	testl	%edx, %edx
	je	.LBB49_83
# %bb.77:                               # %arm.2.i.i.i.i45.i.i.i
	testl	%edi, %edi
	je	.LBB49_83
# %bb.78:                               # %then.11.i.i.i.i51.i.i.i
	decl	%edx
	decl	%edi
	movq	8(%rsp), %rax                   # 8-byte Reload
	incq	%rax
	movq	$-1, %rsi
	cmovneq	%rax, %rsi
	movq	%rsi, 8(%rsp)                   # 8-byte Spill
	leaq	2(%r13), %r15
	xorl	%eax, %eax
	movl	%edx, %esi
	movl	%edi, 36(%rsp)                  # 4-byte Spill
	jmp	.LBB49_84
.LBB49_69:                              # %join.3.i7.i.thread.i.i.i
	movl	$1, %ebp
	movl	$15, %edx
	xorl	%ebx, %ebx
	movl	$1, %eax
.LBB49_70:                              # %"sejjekoru::surveys::sejjekoru_read_survey.exit"
	movq	64(%rsp), %rsi                  # 8-byte Reload
	movq	56(%rsp), %rcx                  # 8-byte Reload
	jmp	.LBB49_92
.LBB49_79:                              # %then.1.i.i.i61.i.i.i
	cmpb	$1, %r11b
	jne	.LBB49_82
.LBB49_80:                              # %arm.2.i.i.i58.i.i.i
	movq	8(%rsp), %rcx                   # 8-byte Reload
	incq	%rcx
	movq	$-1, %rax
	cmoveq	%rax, %rcx
	movq	%rcx, 8(%rsp)                   # 8-byte Spill
.LBB49_81:
	xorl	%eax, %eax
.LBB49_82:
	movl	%r9d, %ecx
.LBB49_83:                              # %"edges::finished.exit.i.i.i.i"
	movq	%r13, %r15
.LBB49_84:                              # %"edges::finished.exit.i.i.i.i"
	xorl	%edx, %edx
	testl	%r9d, %r9d
	cmoveq	%rdx, %r13
	testl	%ecx, %ecx
	je	.LBB49_89
# %bb.85:                               # %"edges::finished.exit.i.i.i.i"
	cmpq	$2047, %r13                     # imm = 0x7FF
	ja	.LBB49_89
# %bb.86:                               # %"edges::finished.exit.i.i.i.i"
	cmpq	%r13, %r15
	jbe	.LBB49_89
# %bb.87:                               # %"stores::store::<i16,21'core::clone::U16Clone{}>.exit.i.i30.i.i.i"
	cmpl	$65535, %esi                    # imm = 0xFFFF
	movl	$65535, %edx                    # imm = 0xFFFF
	cmovael	%edx, %esi
	movw	%si, 8296(%rsp,%r13,2)
	cmpq	$2047, %r13                     # imm = 0x7FF
	je	.LBB49_89
# %bb.88:                               # %then.1.i12.i.i36.i.i.i
	movl	36(%rsp), %esi                  # 4-byte Reload
	cmpl	$65535, %esi                    # imm = 0xFFFF
	cmovbl	%esi, %edx
	movw	%dx, 8298(%rsp,%r13,2)
.LBB49_89:                              # %then.1.i12.i.i36.i.i.i
	testb	%al, %al
	movl	32(%rsp), %esi                  # 4-byte Reload
	je	.LBB49_93
# %bb.90:
	movl	$1, %eax
	movl	$15, %edx
	xorl	%ebx, %ebx
.LBB49_91:
	movq	64(%rsp), %rsi                  # 8-byte Reload
	movq	56(%rsp), %rcx                  # 8-byte Reload
	movq	8(%rsp), %rbp                   # 8-byte Reload
.LBB49_92:                              # %"sejjekoru::surveys::sejjekoru_read_survey.exit"
	movq	%rbx, (%rcx)
	movq	%rax, 104(%rsp)
	movq	%rdx, 112(%rsp)
	movq	%rbp, 120(%rsp)
	leaq	104(%rsp), %rdi
	callq	"numbers::told"
	addq	$12392, %rsp                    # imm = 0x3068
	.cfi_def_cfa_offset 56
	popq	%rbx
	.cfi_def_cfa_offset 48
	popq	%r12
	.cfi_def_cfa_offset 40
	popq	%r13
	.cfi_def_cfa_offset 32
	popq	%r14
	.cfi_def_cfa_offset 24
	popq	%r15
	.cfi_def_cfa_offset 16
	popq	%rbp
	.cfi_def_cfa_offset 8
	retq
.LBB49_93:                              # %join.3.i7.i.i.i.i
	.cfi_def_cfa_offset 12448
	xorl	%ebx, %ebx
	movl	$1, %eax
	movl	$15, %edx
	testl	%ecx, %ecx
	je	.LBB49_91
# %bb.94:                               # %join.3.i7.i.i.i.i
	movl	%esi, %ecx
	addq	%rcx, %rcx
	cmpq	%rcx, %r15
	jne	.LBB49_91
# %bb.95:                               # %arm.2.i.i.i
	cmpq	$2048, %r15                     # imm = 0x800
	jbe	.LBB49_97
# %bb.96:
	xorl	%edx, %edx
	xorl	%ebp, %ebp
	xorl	%ebx, %ebx
	jmp	.LBB49_70
.LBB49_97:                              # %join.3.i.i.i.i
	movq	48(%rsp), %r12                  # 8-byte Reload
	leal	-257(%r12), %ebx
	leaq	104(%rsp), %rdi
	xorl	%r14d, %r14d
	movl	$8192, %edx                     # imm = 0x2000
	xorl	%esi, %esi
	callq	memset@PLT
	cmpl	$-255, %ebx
	jb	.LBB49_137
# %bb.98:                               # %join.3.i.i.i.i
	movl	%r15d, %eax
	movl	$0, %edx
	andl	$1, %eax
	jne	.LBB49_138
# %bb.99:                               # %join.3.i.i.i.i.i.i.i.i
	movl	%r12d, %ebx
	testq	%r15, %r15
	je	.LBB49_106
# %bb.100:                              # %join.5.i.i.i.i.i.i.i.i.i.preheader
	movq	%r15, %rsi
	shrq	%rsi
	xorl	%edx, %edx
	.p2align	4
.LBB49_101:                             # %join.5.i.i.i.i.i.i.i.i.i
                                        # =>This Inner Loop Header: Depth=1
	movzwl	8296(%rsp,%rdx,4), %eax
	movzwl	8298(%rsp,%rdx,4), %ecx
	movl	$1, %r14d
	cmpw	%cx, %ax
	je	.LBB49_138
# %bb.102:                              # %join.5.i.i.i.i.i.i.i.i.i
                                        #   in Loop: Header=BB49_101 Depth=1
	cmpl	%eax, %ebx
	jbe	.LBB49_138
# %bb.103:                              # %join.5.i.i.i.i.i.i.i.i.i
                                        #   in Loop: Header=BB49_101 Depth=1
	cmpl	%ecx, %ebx
	jbe	.LBB49_138
# %bb.104:                              # %"first_bad::is_bad.exit.i.i.i.i.i.i.i.i.i"
                                        #   in Loop: Header=BB49_101 Depth=1
	movl	%eax, %edi
	shll	$8, %edi
	addl	%ecx, %edi
	shrl	$6, %edi
	movq	104(%rsp,%rdi,8), %r8
	movl	$1, %r9d
	shlq	%cl, %r9
	btq	%rcx, %r8
	jb	.LBB49_138
# %bb.105:                              # %join.8.i.i.i.i.i.i.i.i.i
                                        #   in Loop: Header=BB49_101 Depth=1
	shlq	$3, %rdi
	orq	%r9, %r8
	movq	%r8, 104(%rsp,%rdi)
	shll	$8, %ecx
	leal	(%rax,%rcx), %edi
	movl	$1, %r8d
	movl	%eax, %ecx
	shlq	%cl, %r8
	shrl	$6, %edi
	orq	%r8, 104(%rsp,%rdi,8)
	incq	%rdx
	cmpq	%rdx, %rsi
	jne	.LBB49_101
.LBB49_106:                             # %join.7.i.i.i.i.i.i.i.i
	movl	$1, %esi
	xorl	%eax, %eax
	cmpl	$64, %r12d
	ja	.LBB49_115
# %bb.107:                              # %join.5.i.preheader.i.i.i.i.i.i.i.i.i.i.i.preheader
	movl	$1, %ecx
	.p2align	4
.LBB49_108:                             # %join.5.i.preheader.i.i.i.i.i.i.i.i.i.i.i
                                        # =>This Loop Header: Depth=1
                                        #     Child Loop BB49_109 Depth 2
	xorl	%edx, %edx
	.p2align	4
.LBB49_109:                             # %join.5.i.i.i.i.i.i.i.i.i.i.i.i
                                        #   Parent Loop BB49_108 Depth=1
                                        # =>  This Inner Loop Header: Depth=2
	movq	%rsi, %rdi
	rep		bsfq	%rsi, %rsi
	shll	$5, %esi
	orq	104(%rsp,%rsi), %rdx
	leaq	-1(%rdi), %rsi
	andq	%rdi, %rsi
	jne	.LBB49_109
# %bb.110:                              # %"apart::beside_word.exit.i.i.i.i.i.i.i.i.i.i.i"
                                        #   in Loop: Header=BB49_108 Depth=1
	movq	%rdx, %rdi
	orq	%rcx, %rdi
	incq	%rax
	cmpq	%rbx, %rax
	jae	.LBB49_112
# %bb.111:                              # %"apart::beside_word.exit.i.i.i.i.i.i.i.i.i.i.i"
                                        #   in Loop: Header=BB49_108 Depth=1
	notq	%rcx
	andq	%rcx, %rdx
	movq	%rdx, %rsi
	movq	%rdi, %rcx
	jne	.LBB49_108
.LBB49_112:                             # %"apart::narrow_apart.exit.i.i.i.i.i.i.i.i.i"
	notq	%rdi
	movl	$64, %r14d
	rep		bsfq	%rdi, %r14
	cmpq	%rbx, %r14
	jae	.LBB49_113
.LBB49_136:                             # %arm.8.i.i.i.i.i.i.i.i
	shll	$16, %r14d
	orq	$2, %r14
.LBB49_137:                             # %arm.1.i.i.i.i.i
	xorl	%edx, %edx
.LBB49_138:                             # %arm.1.i.i.i.i.i
	movl	%r14d, %ecx
	andl	$33488896, %ecx                 # imm = 0x1FF0000
	movl	$1, %eax
	xorl	%ebx, %ebx
	movq	%rdx, %r15
.LBB49_139:                             # %"surveying::accept.exit.i.i.i.i"
	movzwl	%r14w, %edx
	orq	%rcx, %rdx
	movq	%r15, %rbp
	jmp	.LBB49_70
.LBB49_115:                             # %repeat.5.preheader.i.i.i.i.i.i.i.i.i
	xorl	%edx, %edx
	xorl	%ecx, %ecx
	xorl	%r10d, %r10d
	xorl	%r9d, %r9d
	xorl	%r8d, %r8d
	xorl	%edi, %edi
	movl	$1, %r11d
	jmp	.LBB49_117
	.p2align	4
.LBB49_116:                             # %"words::beside.exit.i.i.i.i.i.i.i.i.i.i"
                                        #   in Loop: Header=BB49_117 Depth=1
	movq	%rsi, %r11
	notq	%r11
	movq	%xmm0, %r8
	andq	%r8, %r11
	orq	%r8, %rsi
	movq	%rcx, %r10
	notq	%r10
	pshufd	$238, %xmm0, %xmm0              # xmm0 = xmm0[2,3,2,3]
	movq	%xmm0, %r8
	andq	%r8, %r10
	orq	%r8, %rcx
	movq	%rdx, %r9
	notq	%r9
	movq	%xmm1, %r8
	andq	%r8, %r9
	orq	%r8, %rdx
	movq	%rax, %r8
	notq	%r8
	pshufd	$238, %xmm1, %xmm0              # xmm0 = xmm1[2,3,2,3]
	movq	%xmm0, %r14
	andq	%r14, %r8
	orq	%r14, %rax
	incq	%rdi
	cmpq	%rbx, %rdi
	je	.LBB49_128
.LBB49_117:                             # %join.7.i.i.i.i.i.i.i.i.i.i
                                        # =>This Loop Header: Depth=1
                                        #     Child Loop BB49_118 Depth 2
                                        #     Child Loop BB49_121 Depth 2
                                        #     Child Loop BB49_123 Depth 2
                                        #     Child Loop BB49_125 Depth 2
	pxor	%xmm0, %xmm0
	pxor	%xmm1, %xmm1
	testq	%r11, %r11
	je	.LBB49_120
	.p2align	4
.LBB49_118:                             # %join.5.i.i.i5.i.i.i.i.i.i.i.i.i
                                        #   Parent Loop BB49_117 Depth=1
                                        # =>  This Inner Loop Header: Depth=2
	movq	%r11, %r14
	rep		bsfq	%r11, %r11
	shll	$5, %r11d
	movdqu	104(%rsp,%r11), %xmm2
	por	%xmm2, %xmm0
	movdqu	120(%rsp,%r11), %xmm2
	por	%xmm2, %xmm1
	leaq	-1(%r14), %r11
	andq	%r14, %r11
	jne	.LBB49_118
# %bb.119:                              # %"words::join_word.exit.i.i.i.i.i.i.i.i.i.i.i"
                                        #   in Loop: Header=BB49_117 Depth=1
	testq	%r10, %r10
	jne	.LBB49_121
	jmp	.LBB49_122
.LBB49_120:                             # %join.5.i.preheader.i.i.i.i.i.i.i.i.i.i
                                        #   in Loop: Header=BB49_117 Depth=1
	testq	%r10, %r10
	je	.LBB49_126
	.p2align	4
.LBB49_121:                             # %join.5.i.1.i.i.i.i.i.i.i.i.i.i.i
                                        #   Parent Loop BB49_117 Depth=1
                                        # =>  This Inner Loop Header: Depth=2
	movq	%r10, %r11
	rep		bsfq	%r10, %r10
	shll	$5, %r10d
	movdqu	2152(%rsp,%r10), %xmm2
	por	%xmm2, %xmm0
	movdqu	2168(%rsp,%r10), %xmm2
	por	%xmm2, %xmm1
	leaq	-1(%r11), %r10
	andq	%r11, %r10
	jne	.LBB49_121
.LBB49_122:                             # %"words::join_word.exit.1.i.i.i.i.i.i.i.i.i.i.i"
                                        #   in Loop: Header=BB49_117 Depth=1
	testq	%r9, %r9
	je	.LBB49_124
	.p2align	4
.LBB49_123:                             # %join.5.i.2.i.i.i.i.i.i.i.i.i.i.i
                                        #   Parent Loop BB49_117 Depth=1
                                        # =>  This Inner Loop Header: Depth=2
	movq	%r9, %r10
	rep		bsfq	%r9, %r9
	shll	$5, %r9d
	movdqu	4200(%rsp,%r9), %xmm2
	por	%xmm2, %xmm0
	movdqu	4216(%rsp,%r9), %xmm2
	por	%xmm2, %xmm1
	leaq	-1(%r10), %r9
	andq	%r10, %r9
	jne	.LBB49_123
.LBB49_124:                             # %"words::join_word.exit.2.i.i.i.i.i.i.i.i.i.i.i"
                                        #   in Loop: Header=BB49_117 Depth=1
	testq	%r8, %r8
	je	.LBB49_116
	.p2align	4
.LBB49_125:                             # %join.5.i.3.i.i.i.i.i.i.i.i.i.i.i
                                        #   Parent Loop BB49_117 Depth=1
                                        # =>  This Inner Loop Header: Depth=2
	movq	%r8, %r9
	rep		bsfq	%r8, %r8
	shll	$5, %r8d
	movdqu	6248(%rsp,%r8), %xmm2
	por	%xmm2, %xmm0
	movdqu	6264(%rsp,%r8), %xmm2
	por	%xmm2, %xmm1
	leaq	-1(%r9), %r8
	andq	%r9, %r8
	jne	.LBB49_125
	jmp	.LBB49_116
.LBB49_126:                             # %join.8.i.i.i.i.i.i.i.i.i.i.i
                                        #   in Loop: Header=BB49_117 Depth=1
	testq	%r9, %r9
	jne	.LBB49_123
# %bb.127:                              # %join.8.i.1.i.i.i.i.i.i.i.i.i.i
                                        #   in Loop: Header=BB49_117 Depth=1
	testq	%r8, %r8
	jne	.LBB49_125
.LBB49_128:                             # %"apart::reach.exit.i.i.i.i.i.i.i.i.i"
	cmpq	$-1, %rsi
	je	.LBB49_132
# %bb.129:
	xorl	%edi, %edi
	movq	%rsi, %rcx
	jmp	.LBB49_135
.LBB49_132:                             # %join.5.i.preheader.i.i.i.i.i.i.i.i.i
	movl	$64, %edi
	cmpq	$-1, %rcx
	jne	.LBB49_135
# %bb.133:                              # %join.8.i.i.i.i.i.i.i.i.i.i
	movl	$128, %edi
	movq	%rdx, %rcx
	cmpq	$-1, %rdx
	jne	.LBB49_135
# %bb.134:                              # %join.8.i.1.i.i.i.i.i.i.i.i.i
	movl	$192, %edi
	movq	%rax, %rcx
	cmpq	$-1, %rax
	je	.LBB49_146
.LBB49_135:                             # %then.6.i.i.i.i.i.i.i.i.i.i
	notq	%rcx
	rep		bsfq	%rcx, %r14
	orq	%rdi, %r14
	cmpl	%ebx, %r14d
	jb	.LBB49_136
.LBB49_113:                             # %join.4.i.i.i.i.i
	cmpq	%r15, 96(%rsp)                  # 8-byte Folded Reload
	movq	88(%rsp), %rdi                  # 8-byte Reload
	jae	.LBB49_130
# %bb.114:
	movl	$1, %eax
	movl	$7, %r14d
	xorl	%ecx, %ecx
	xorl	%ebx, %ebx
	jmp	.LBB49_139
.LBB49_130:                             # %join.7.i.i.i.i.i
	testq	%r15, %r15
	je	.LBB49_141
# %bb.131:                              # %join.5.i.i.i.i.preheader.i.i
	leaq	(%r15,%r15), %rdx
	leaq	8296(%rsp), %rsi
	callq	memcpy@PLT
	xorl	%ecx, %ecx
	movq	%r15, %r14
	jmp	.LBB49_142
.LBB49_140:                             # %arm.1.i.i.i.i56.i.i.i
	movq	8(%rsp), %rax                   # 8-byte Reload
	incq	%rax
	movq	$-1, %rcx
	cmovneq	%rax, %rcx
	movq	%rcx, 8(%rsp)                   # 8-byte Spill
	xorl	%eax, %eax
	movl	$1, %ecx
	movq	24(%rsp), %rdx                  # 8-byte Reload
                                        # kill: def $edx killed $edx killed $rdx def $rdx
	movq	%rdx, 48(%rsp)                  # 8-byte Spill
	movq	40(%rsp), %rdx                  # 8-byte Reload
                                        # kill: def $edx killed $edx killed $rdx
	movl	%edx, 32(%rsp)                  # 4-byte Spill
	xorl	%r15d, %r15d
	xorl	%esi, %esi
	movl	$0, 36(%rsp)                    # 4-byte Folded Spill
	jmp	.LBB49_84
.LBB49_141:
	xorl	%r14d, %r14d
	xorl	%ecx, %ecx
.LBB49_142:                             # %"surveying::accept.exit.i.i.i.i"
	xorl	%r15d, %r15d
	xorl	%eax, %eax
	jmp	.LBB49_139
.LBB49_146:
	movl	$256, %r14d                     # imm = 0x100
	cmpl	%ebx, %r14d
	jae	.LBB49_113
	jmp	.LBB49_136
.Lfunc_end49:
	.size	sejjekoru_read_survey, .Lfunc_end49-sejjekoru_read_survey
	.cfi_endproc
	.section	.rodata.sejjekoru_read_survey,"a",@progbits
	.p2align	2, 0x0
.LJTI49_0:
	.long	.LBB49_33-.LJTI49_0
	.long	.LBB49_14-.LJTI49_0
	.long	.LBB49_14-.LJTI49_0
	.long	.LBB49_29-.LJTI49_0
	.long	.LBB49_38-.LJTI49_0
	.long	.LBB49_35-.LJTI49_0
.LJTI49_1:
	.long	.LBB49_8-.LJTI49_1
	.long	.LBB49_22-.LJTI49_1
	.long	.LBB49_20-.LJTI49_1
	.long	.LBB49_21-.LJTI49_1
	.long	.LBB49_19-.LJTI49_1
	.long	.LBB49_23-.LJTI49_1
.LJTI49_2:
	.long	.LBB49_82-.LJTI49_2
	.long	.LBB49_80-.LJTI49_2
	.long	.LBB49_82-.LJTI49_2
	.long	.LBB49_82-.LJTI49_2
	.long	.LBB49_82-.LJTI49_2
	.long	.LBB49_73-.LJTI49_2
                                        # -- End function
	.section	.rodata.cst16,"aM",@progbits,16
	.p2align	4, 0x0                          # -- Begin function sejjekoru_report
.LCPI50_0:
	.zero	16,2
.LCPI50_1:
	.byte	1                               # 0x1
	.byte	1                               # 0x1
	.byte	1                               # 0x1
	.byte	1                               # 0x1
	.byte	1                               # 0x1
	.byte	1                               # 0x1
	.byte	1                               # 0x1
	.byte	1                               # 0x1
	.zero	1
	.zero	1
	.zero	1
	.zero	1
	.zero	1
	.zero	1
	.zero	1
	.zero	1
.LCPI50_2:
	.zero	16,1
	.section	.text.sejjekoru_report,"ax",@progbits
	.globl	sejjekoru_report
	.p2align	4
	.type	sejjekoru_report,@function
sejjekoru_report:                       # @sejjekoru_report
	.cfi_startproc
# %bb.0:                                # %start
	pushq	%rbp
	.cfi_def_cfa_offset 16
	pushq	%r15
	.cfi_def_cfa_offset 24
	pushq	%r14
	.cfi_def_cfa_offset 32
	pushq	%r13
	.cfi_def_cfa_offset 40
	pushq	%r12
	.cfi_def_cfa_offset 48
	pushq	%rbx
	.cfi_def_cfa_offset 56
	subq	$584, %rsp                      # imm = 0x248
	.cfi_def_cfa_offset 640
	.cfi_offset %rbx, -56
	.cfi_offset %r12, -48
	.cfi_offset %r13, -40
	.cfi_offset %r14, -32
	.cfi_offset %r15, -24
	.cfi_offset %rbp, -16
	movq	%r8, %rax
	movq	%rcx, %r10
	movq	%rdx, %rcx
	movq	%rdi, %r11
	movq	688(%rsp), %rbx
	movq	664(%rsp), %r15
	movq	656(%rsp), %r12
	movq	640(%rsp), %rdi
	movq	648(%rsp), %r13
	xorl	%edx, %edx
	testq	%rsi, %rsi
	sete	%dl
	shll	$12, %edx
	addq	%rsi, %rdx
	xorl	%r8d, %r8d
	testq	%r10, %r10
	sete	%r8b
	shll	$12, %r8d
	addq	%r10, %r8
	xorl	%esi, %esi
	testq	%r9, %r9
	sete	%sil
	shll	$12, %esi
	addq	%r9, %rsi
	xorl	%r14d, %r14d
	testq	%r13, %r13
	sete	%r14b
	shll	$12, %r14d
	addq	%r13, %r14
	xorl	%r13d, %r13d
	testq	%r15, %r15
	sete	%bpl
	pxor	%xmm0, %xmm0
	movdqa	%xmm0, 32(%rsp)
	movq	$0, 48(%rsp)
	movq	%r12, 24(%rsp)
	movq	%rdi, 8(%rsp)
	movq	%r14, 16(%rsp)
	movq	%rsi, (%rsp)
	leaq	32(%rsp), %rdi
	movq	%r11, %rsi
	movq	%rax, %r9
	callq	"checker::check"
	cmpb	$1, 32(%rsp)
	jne	.LBB50_2
# %bb.1:                                # %"reports::report.exit.thread.i"
	movzbl	40(%rsp), %edx
	movzwl	42(%rsp), %eax
	movl	44(%rsp), %edi
	movq	48(%rsp), %rsi
	xorl	%ecx, %ecx
	movzbl	%dl, %edx
	leaq	.LJTI50_0(%rip), %r8
	movslq	(%r8,%rdx,4), %r9
	addq	%r8, %r9
	jmpq	*%r9
.LBB50_2:                               # %join.4.i.i
	movq	672(%rsp), %rcx
	movb	$10, %dl
	cmpq	%r12, %rcx
	jne	.LBB50_3
# %bb.5:                                # %else.2.i.i.i.i
	movb	%bpl, %r13b
	shll	$12, %r13d
	leaq	(%r15,%r13), %rax
	testq	%rcx, %rcx
	je	.LBB50_24
# %bb.6:                                # %iter.check
	cmpq	$8, %rcx
	jae	.LBB50_9
# %bb.7:
	xorl	%edi, %edi
	xorl	%esi, %esi
	jmp	.LBB50_8
.LBB50_24:                              # %else.5.thread.i.i.i.i
	pxor	%xmm0, %xmm0
	movdqa	%xmm0, 320(%rsp)
	movdqa	%xmm0, 336(%rsp)
	movdqa	%xmm0, 352(%rsp)
	movdqa	%xmm0, 368(%rsp)
	movdqa	%xmm0, 384(%rsp)
	movdqa	%xmm0, 400(%rsp)
	movdqa	%xmm0, 416(%rsp)
	movdqa	%xmm0, 432(%rsp)
	movdqa	%xmm0, 448(%rsp)
	movdqa	%xmm0, 464(%rsp)
	movdqa	%xmm0, 480(%rsp)
	movdqa	%xmm0, 496(%rsp)
	movdqa	%xmm0, 512(%rsp)
	movdqa	%xmm0, 528(%rsp)
	movdqa	%xmm0, 544(%rsp)
	movdqa	%xmm0, 560(%rsp)
	movdqa	%xmm0, 64(%rsp)
	movdqa	%xmm0, 80(%rsp)
	movdqa	%xmm0, 96(%rsp)
	movdqa	%xmm0, 112(%rsp)
	movdqa	%xmm0, 128(%rsp)
	movdqa	%xmm0, 144(%rsp)
	movdqa	%xmm0, 160(%rsp)
	movdqa	%xmm0, 176(%rsp)
	movdqa	%xmm0, 192(%rsp)
	movdqa	%xmm0, 208(%rsp)
	movdqa	%xmm0, 224(%rsp)
	movdqa	%xmm0, 240(%rsp)
	movdqa	%xmm0, 256(%rsp)
	movdqa	%xmm0, 272(%rsp)
	movdqa	%xmm0, 288(%rsp)
	movdqa	%xmm0, 304(%rsp)
	jmp	.LBB50_25
.LBB50_9:                               # %vector.main.loop.iter.check
	cmpq	$32, %rcx
	jae	.LBB50_11
# %bb.10:
	xorl	%esi, %esi
	xorl	%edi, %edi
	jmp	.LBB50_15
.LBB50_11:                              # %vector.ph
	movq	%rcx, %rsi
	andq	$-32, %rsi
	leaq	(%r15,%r13), %rdi
	addq	$16, %rdi
	pxor	%xmm0, %xmm0
	xorl	%r8d, %r8d
	pxor	%xmm1, %xmm1
	.p2align	4
.LBB50_12:                              # %vector.body
                                        # =>This Inner Loop Header: Depth=1
	movdqu	-16(%rdi,%r8), %xmm2
	movdqu	(%rdi,%r8), %xmm3
	movdqa	.LCPI50_0(%rip), %xmm4          # xmm4 = [2,2,2,2,2,2,2,2,2,2,2,2,2,2,2,2]
	movdqa	%xmm2, %xmm5
	pmaxub	%xmm4, %xmm5
	pcmpeqb	%xmm2, %xmm5
	por	%xmm5, %xmm1
	pmaxub	%xmm3, %xmm4
	pcmpeqb	%xmm3, %xmm4
	por	%xmm4, %xmm0
	addq	$32, %r8
	cmpq	%r8, %rsi
	jne	.LBB50_12
# %bb.13:                               # %middle.block
	por	%xmm1, %xmm0
	psllw	$7, %xmm0
	pmovmskb	%xmm0, %edi
	testl	%edi, %edi
	setne	%dil
	cmpq	%rsi, %rcx
	je	.LBB50_19
# %bb.14:                               # %vec.epilog.iter.check
	testb	$24, %cl
	je	.LBB50_8
.LBB50_15:                              # %vec.epilog.ph
	movq	%rsi, %r8
	movq	%rcx, %rsi
	andq	$-8, %rsi
	movzbl	%dil, %edi
	movd	%edi, %xmm0
	.p2align	4
.LBB50_16:                              # %vec.epilog.vector.body
                                        # =>This Inner Loop Header: Depth=1
	movq	(%rax,%r8), %xmm1               # xmm1 = mem[0],zero
	movdqa	.LCPI50_1(%rip), %xmm2          # xmm2 = [1,1,1,1,1,1,1,1,u,u,u,u,u,u,u,u]
	pminub	%xmm1, %xmm2
	pcmpeqb	%xmm1, %xmm2
	punpcklbw	%xmm2, %xmm2            # xmm2 = xmm2[0,0,1,1,2,2,3,3,4,4,5,5,6,6,7,7]
	pcmpeqd	%xmm1, %xmm1
	pxor	%xmm2, %xmm1
	por	%xmm1, %xmm0
	addq	$8, %r8
	cmpq	%r8, %rsi
	jne	.LBB50_16
# %bb.17:                               # %vec.epilog.middle.block
	psllw	$7, %xmm0
	pmovmskb	%xmm0, %edi
	testl	$21845, %edi                    # imm = 0x5555
	setne	%dil
	jmp	.LBB50_18
.LBB50_3:
	xorl	%esi, %esi
.LBB50_4:                               # %"reports::report.exit.thread17.i"
	xorl	%eax, %eax
	xorl	%ecx, %ecx
	movzbl	%dl, %edx
	leaq	.LJTI50_0(%rip), %rdi
	movslq	(%rdi,%rdx,4), %r8
	addq	%rdi, %r8
	xorl	%edi, %edi
	jmpq	*%r8
.LBB50_58:                              # %arm.2.i.i.i.i.i
	movq	%rsi, %rcx
.LBB50_59:                              # %"docket::carried.exit.i.i.i"
	movq	%rcx, (%rbx)
	movzbl	%dl, %eax
	leaq	.Lswitch.table.sejjekoru_slots(%rip), %rcx
	movq	(%rcx,%rax,8), %rax
.LBB50_60:                              # %"sejjekoru::sejjekoru_report.exit"
	addq	$584, %rsp                      # imm = 0x248
	.cfi_def_cfa_offset 56
	popq	%rbx
	.cfi_def_cfa_offset 48
	popq	%r12
	.cfi_def_cfa_offset 40
	popq	%r13
	.cfi_def_cfa_offset 32
	popq	%r14
	.cfi_def_cfa_offset 24
	popq	%r15
	.cfi_def_cfa_offset 16
	popq	%rbp
	.cfi_def_cfa_offset 8
	retq
.LBB50_8:                               # %join.6.i.i.i.i.i
	.cfi_def_cfa_offset 640
	cmpb	$2, (%rax,%rsi)
	setae	%r8b
	orb	%r8b, %dil
	incq	%rsi
.LBB50_18:                              # %join.6.i.i.i.i.i
	cmpq	%rsi, %rcx
	jne	.LBB50_8
.LBB50_19:                              # %join.3.i.i.i.i
	testb	$1, %dil
	jne	.LBB50_3
# %bb.20:                               # %else.5.i.i.i.i
	pxor	%xmm0, %xmm0
	movdqa	%xmm0, 320(%rsp)
	movdqa	%xmm0, 336(%rsp)
	movdqa	%xmm0, 352(%rsp)
	movdqa	%xmm0, 368(%rsp)
	movdqa	%xmm0, 384(%rsp)
	movdqa	%xmm0, 400(%rsp)
	movdqa	%xmm0, 416(%rsp)
	movdqa	%xmm0, 432(%rsp)
	movdqa	%xmm0, 448(%rsp)
	movdqa	%xmm0, 464(%rsp)
	movdqa	%xmm0, 480(%rsp)
	movdqa	%xmm0, 496(%rsp)
	movdqa	%xmm0, 512(%rsp)
	movdqa	%xmm0, 528(%rsp)
	movdqa	%xmm0, 544(%rsp)
	movdqa	%xmm0, 560(%rsp)
	movdqa	%xmm0, 64(%rsp)
	movdqa	%xmm0, 80(%rsp)
	movdqa	%xmm0, 96(%rsp)
	movdqa	%xmm0, 112(%rsp)
	movdqa	%xmm0, 128(%rsp)
	movdqa	%xmm0, 144(%rsp)
	movdqa	%xmm0, 160(%rsp)
	movdqa	%xmm0, 176(%rsp)
	movdqa	%xmm0, 192(%rsp)
	movdqa	%xmm0, 208(%rsp)
	movdqa	%xmm0, 224(%rsp)
	movdqa	%xmm0, 240(%rsp)
	movdqa	%xmm0, 256(%rsp)
	movdqa	%xmm0, 272(%rsp)
	movdqa	%xmm0, 288(%rsp)
	movdqa	%xmm0, 304(%rsp)
	movq	%rcx, %rsi
	shrq	$6, %rsi
	je	.LBB50_25
# %bb.21:                               # %join.5.i.i.i.i.i.i.preheader
	xorl	%edx, %edx
	.p2align	4
.LBB50_23:                              # %join.5.i.i.i.i.i.i
                                        # =>This Inner Loop Header: Depth=1
	movdqu	(%rax,%rdx), %xmm0
	movdqu	16(%rax,%rdx), %xmm1
	movdqu	32(%rax,%rdx), %xmm2
	movdqu	48(%rax,%rdx), %xmm3
	movdqa	.LCPI50_2(%rip), %xmm4          # xmm4 = [1,1,1,1,1,1,1,1,1,1,1,1,1,1,1,1]
	pcmpeqb	%xmm4, %xmm3
	pcmpeqb	%xmm4, %xmm1
	pand	%xmm3, %xmm1
	pcmpeqb	%xmm4, %xmm2
	pcmpeqb	%xmm4, %xmm0
	pand	%xmm2, %xmm0
	pand	%xmm1, %xmm0
	pmovmskb	%xmm0, %edi
	xorl	$65535, %edi                    # imm = 0xFFFF
	jne	.LBB50_26
# %bb.22:                               # %loop.2.i.i.i.i.i.i
                                        #   in Loop: Header=BB50_23 Depth=1
	addq	$64, %rdx
	decq	%rsi
	jne	.LBB50_23
.LBB50_25:                              # %after.1.i.i.i.i.i.i
	movq	%rcx, %rdx
	andq	$-64, %rdx
.LBB50_26:                              # %"mark_order::done_to.exit.i.i.i.i.i"
	cmpq	%rcx, %rdx
	jb	.LBB50_27
.LBB50_34:                              # %join.3.i.i.i
	movq	680(%rsp), %rdi
	cmpq	%rcx, %rdi
	jae	.LBB50_35
# %bb.36:                               # %arm.1.i.i.i.i
	cmpb	$1, (%rax,%rdi)
	jne	.LBB50_37
# %bb.52:                               # %arm.2.i.i
	movq	$0, (%rbx)
	movl	$100, %eax
	jmp	.LBB50_60
	.p2align	4
.LBB50_32:                              # %else.7.i.i.i.i.i
                                        #   in Loop: Header=BB50_27 Depth=1
	movb	$1, 320(%rsp,%r8)
	movb	$1, 64(%rsp,%rdi)
	movb	$1, 64(%rsp,%rsi)
.LBB50_33:                              # %join.8.i.i.i.i.i
                                        #   in Loop: Header=BB50_27 Depth=1
	incq	%rdx
	cmpq	%rdx, %rcx
	je	.LBB50_34
.LBB50_27:                              # %join.5.i.i.i.i.i
                                        # =>This Inner Loop Header: Depth=1
	movq	(%r14,%rdx,8), %r8
	movl	%r8d, %edi
	movzwl	%r8w, %esi
	shrq	$32, %r8
	shrl	$16, %edi
	cmpb	$1, (%rax,%rdx)
	jne	.LBB50_32
# %bb.28:                               # %then.6.i.i.i.i.i
                                        #   in Loop: Header=BB50_27 Depth=1
	cmpb	$1, 320(%rsp,%r8)
	je	.LBB50_31
# %bb.29:                               # %join.3.i.i.i.i.i.i
                                        #   in Loop: Header=BB50_27 Depth=1
	cmpb	$1, 64(%rsp,%rdi)
	je	.LBB50_31
# %bb.30:                               # %"mark_order::touched.exit.i.i.i.i.i"
                                        #   in Loop: Header=BB50_27 Depth=1
	cmpb	$1, 64(%rsp,%rsi)
	jne	.LBB50_33
.LBB50_31:                              # %"mark_order::bad_marks.exit.thread291.i.i.i"
	movb	$10, %dl
	xorl	%esi, %esi
	xorl	%eax, %eax
	xorl	%ecx, %ecx
	movzbl	%dl, %edx
	leaq	.LJTI50_0(%rip), %rdi
	movslq	(%rdi,%rdx,4), %r8
	addq	%rdi, %r8
	xorl	%edi, %edi
	jmpq	*%r8
.LBB50_53:                              # %"docket::carried.exit.thread.i.i.i"
	movq	%rax, (%rbx)
	movl	$3, %eax
	jmp	.LBB50_60
.LBB50_35:
	movb	$11, %dl
	jmp	.LBB50_3
.LBB50_55:                              # %"docket::carried.exit.thread13.i.i.i"
	movq	%rdi, (%rbx)
	movl	$6, %eax
	jmp	.LBB50_60
.LBB50_56:                              # %"docket::carried.exit.thread15.i.i.i"
	movq	%rdi, (%rbx)
	movl	$7, %eax
	jmp	.LBB50_60
.LBB50_57:                              # %"docket::carried.exit.thread17.i.i.i"
	movq	%rdi, (%rbx)
	movl	$10, %eax
	jmp	.LBB50_60
.LBB50_54:                              # %"docket::carried.exit.thread11.i.i.i"
	movq	%rdi, (%rbx)
	movl	$5, %eax
	jmp	.LBB50_60
.LBB50_37:                              # %join.7.i.i.i.i
	movq	%rcx, %rdx
	shrq	$6, %rdx
	je	.LBB50_41
# %bb.38:                               # %join.5.i.i.i8.i.i.i.preheader
	xorl	%esi, %esi
	.p2align	4
.LBB50_40:                              # %join.5.i.i.i8.i.i.i
                                        # =>This Inner Loop Header: Depth=1
	movdqu	(%rax,%rsi), %xmm0
	movdqu	16(%rax,%rsi), %xmm1
	movdqu	32(%rax,%rsi), %xmm2
	movdqu	48(%rax,%rsi), %xmm3
	movdqa	.LCPI50_2(%rip), %xmm4          # xmm4 = [1,1,1,1,1,1,1,1,1,1,1,1,1,1,1,1]
	pcmpeqb	%xmm4, %xmm3
	pcmpeqb	%xmm4, %xmm1
	pand	%xmm3, %xmm1
	pcmpeqb	%xmm4, %xmm2
	pcmpeqb	%xmm4, %xmm0
	pand	%xmm2, %xmm0
	pand	%xmm1, %xmm0
	pmovmskb	%xmm0, %r8d
	xorl	$65535, %r8d                    # imm = 0xFFFF
	jne	.LBB50_42
# %bb.39:                               # %loop.2.i.i.i273.i.i.i
                                        #   in Loop: Header=BB50_40 Depth=1
	addq	$64, %rsi
	decq	%rdx
	jne	.LBB50_40
.LBB50_41:                              # %after.1.i.i.i276.i.i.i
	andq	$-64, %rcx
	movq	%rcx, %rsi
.LBB50_42:                              # %"mark_order::done_to.exit.i.i266.i.i.i"
	cmpq	%rdi, %rsi
	jae	.LBB50_51
# %bb.43:                               # %join.5.lr.ph.i.i.i.i.i
	movq	(%r14,%rdi,8), %rcx
	movl	%ecx, %r8d
	shrl	$16, %r8d
	jmp	.LBB50_44
	.p2align	4
.LBB50_50:                              # %join.8.i.i270.i.i.i
                                        #   in Loop: Header=BB50_44 Depth=1
	incq	%rsi
	cmpq	%rsi, %rdi
	je	.LBB50_51
.LBB50_44:                              # %join.5.i.i268.i.i.i
                                        # =>This Inner Loop Header: Depth=1
	cmpb	$1, (%rax,%rsi)
	je	.LBB50_50
# %bb.45:                               # %"marks::waits_for.exit.i.i.i.i.i"
                                        #   in Loop: Header=BB50_44 Depth=1
	movq	(%r14,%rsi,8), %r9
	movb	$12, %dl
	cmpw	%r9w, %cx
	je	.LBB50_4
# %bb.46:                               # %"marks::waits_for.exit.i.i.i.i.i"
                                        #   in Loop: Header=BB50_44 Depth=1
	movl	%r9d, %r10d
	shrl	$16, %r10d
	cmpw	%r10w, %cx
	je	.LBB50_4
# %bb.47:                               # %"marks::waits_for.exit.i.i.i.i.i"
                                        #   in Loop: Header=BB50_44 Depth=1
	movq	%r9, %r11
	xorq	%rcx, %r11
	shrq	$32, %r11
	je	.LBB50_4
# %bb.48:                               # %"marks::waits_for.exit.i.i.i.i.i"
                                        #   in Loop: Header=BB50_44 Depth=1
	cmpw	%r9w, %r8w
	je	.LBB50_4
# %bb.49:                               # %"marks::waits_for.exit.i.i.i.i.i"
                                        #   in Loop: Header=BB50_44 Depth=1
	cmpw	%r10w, %r8w
	jne	.LBB50_50
	jmp	.LBB50_4
.LBB50_51:                              # %arm.1.i4.i
	movb	$1, (%rax,%rdi)
	movq	$0, (%rbx)
	xorl	%eax, %eax
	jmp	.LBB50_60
.Lfunc_end50:
	.size	sejjekoru_report, .Lfunc_end50-sejjekoru_report
	.cfi_endproc
	.section	.rodata.sejjekoru_report,"a",@progbits
	.p2align	2, 0x0
.LJTI50_0:
	.long	.LBB50_59-.LJTI50_0
	.long	.LBB50_58-.LJTI50_0
	.long	.LBB50_53-.LJTI50_0
	.long	.LBB50_59-.LJTI50_0
	.long	.LBB50_54-.LJTI50_0
	.long	.LBB50_55-.LJTI50_0
	.long	.LBB50_56-.LJTI50_0
	.long	.LBB50_58-.LJTI50_0
	.long	.LBB50_58-.LJTI50_0
	.long	.LBB50_57-.LJTI50_0
	.long	.LBB50_59-.LJTI50_0
	.long	.LBB50_59-.LJTI50_0
	.long	.LBB50_58-.LJTI50_0
	.long	.LBB50_58-.LJTI50_0
	.long	.LBB50_58-.LJTI50_0
	.long	.LBB50_58-.LJTI50_0
	.long	.LBB50_59-.LJTI50_0
	.long	.LBB50_59-.LJTI50_0
	.long	.LBB50_59-.LJTI50_0
	.long	.LBB50_59-.LJTI50_0
	.long	.LBB50_59-.LJTI50_0
	.long	.LBB50_58-.LJTI50_0
	.long	.LBB50_58-.LJTI50_0
                                        # -- End function
	.section	.rodata.cst16,"aM",@progbits,16
	.p2align	4, 0x0                          # -- Begin function sejjekoru_report_billed
.LCPI51_0:
	.zero	16,2
.LCPI51_1:
	.byte	1                               # 0x1
	.byte	1                               # 0x1
	.byte	1                               # 0x1
	.byte	1                               # 0x1
	.byte	1                               # 0x1
	.byte	1                               # 0x1
	.byte	1                               # 0x1
	.byte	1                               # 0x1
	.zero	1
	.zero	1
	.zero	1
	.zero	1
	.zero	1
	.zero	1
	.zero	1
	.zero	1
.LCPI51_2:
	.zero	16,1
	.section	.text.sejjekoru_report_billed,"ax",@progbits
	.globl	sejjekoru_report_billed
	.p2align	4
	.type	sejjekoru_report_billed,@function
sejjekoru_report_billed:                # @sejjekoru_report_billed
	.cfi_startproc
# %bb.0:                                # %start
	pushq	%rbp
	.cfi_def_cfa_offset 16
	pushq	%r15
	.cfi_def_cfa_offset 24
	pushq	%r14
	.cfi_def_cfa_offset 32
	pushq	%r13
	.cfi_def_cfa_offset 40
	pushq	%r12
	.cfi_def_cfa_offset 48
	pushq	%rbx
	.cfi_def_cfa_offset 56
	subq	$3072, %rsp                     # imm = 0xC00
	.cfi_adjust_cfa_offset 3072
	movq	$0, (%rsp)
	subq	$3072, %rsp                     # imm = 0xC00
	.cfi_adjust_cfa_offset 3072
	movq	$0, (%rsp)
	subq	$3072, %rsp                     # imm = 0xC00
	.cfi_adjust_cfa_offset 3072
	movq	$0, (%rsp)
	subq	$3072, %rsp                     # imm = 0xC00
	.cfi_adjust_cfa_offset 3072
	movq	$0, (%rsp)
	subq	$3072, %rsp                     # imm = 0xC00
	.cfi_adjust_cfa_offset 3072
	movq	$0, (%rsp)
	subq	$136, %rsp
	.cfi_def_cfa_offset 15552
	.cfi_offset %rbx, -56
	.cfi_offset %r12, -48
	.cfi_offset %r13, -40
	.cfi_offset %r14, -32
	.cfi_offset %r15, -24
	.cfi_offset %rbp, -16
	movq	%r8, 56(%rsp)                   # 8-byte Spill
	movq	%rdx, 72(%rsp)                  # 8-byte Spill
	movq	%rdi, 88(%rsp)                  # 8-byte Spill
	movq	15616(%rsp), %rbp
	movq	15608(%rsp), %rax
	movq	15560(%rsp), %rdx
	xorl	%r13d, %r13d
	testq	%rsi, %rsi
	sete	%r13b
	shll	$12, %r13d
	addq	%rsi, %r13
	xorl	%ebx, %ebx
	testq	%rcx, %rcx
	sete	%bl
	shll	$12, %ebx
	addq	%rcx, %rbx
	xorl	%r12d, %r12d
	testq	%r9, %r9
	sete	%r12b
	shll	$12, %r12d
	addq	%r9, %r12
	xorl	%ecx, %ecx
	testq	%rdx, %rdx
	sete	%cl
	shll	$12, %ecx
	addq	%rdx, %rcx
	movq	%rcx, 40(%rsp)                  # 8-byte Spill
	cmpq	$0, 15576(%rsp)
	sete	39(%rsp)                        # 1-byte Folded Spill
	xorl	%r15d, %r15d
	testq	%rax, %rax
	sete	%r15b
	shll	$12, %r15d
	addq	%rax, %r15
	leaq	11912(%rsp), %rdi
	movl	$512, %edx                      # imm = 0x200
	xorl	%esi, %esi
	callq	memset@PLT
	leaq	3168(%rsp), %rdi
	movl	$3072, %edx                     # imm = 0xC00
	xorl	%esi, %esi
	callq	memset@PLT
	testq	%rbp, %rbp
	je	.LBB51_2
# %bb.1:                                # %join.5.i.i.preheader.i
	cmpq	$256, %rbp                      # imm = 0x100
	movl	$256, %eax                      # imm = 0x100
	cmovbq	%rbp, %rax
	shlq	$2, %rax
	leaq	(%rax,%rax,2), %rdx
	leaq	3168(%rsp), %rdi
	movq	%r15, %rsi
	callq	memcpy@PLT
.LBB51_2:                               # %"sheets::gather.exit.i"
	movq	%r15, 80(%rsp)                  # 8-byte Spill
	movq	15624(%rsp), %rbp
	leaq	12424(%rsp), %rdi
	leaq	3168(%rsp), %rsi
	movl	$3072, %edx                     # imm = 0xC00
	callq	memcpy@PLT
	movq	15600(%rsp), %rax
	movl	512(%rax), %ecx
	movl	%ecx, 68(%rsp)                  # 4-byte Spill
	movl	516(%rax), %r14d
	leaq	7288(%rsp), %rdi
	movl	$512, %edx                      # imm = 0x200
	xorl	%esi, %esi
	callq	memset@PLT
	leaq	6776(%rsp), %rdi
	movl	$512, %edx                      # imm = 0x200
	xorl	%esi, %esi
	callq	memset@PLT
	pxor	%xmm0, %xmm0
	movdqa	%xmm0, 8832(%rsp)
	movq	$0, 8848(%rsp)
	movq	15568(%rsp), %r15
	movq	%r15, 24(%rsp)
	movq	40(%rsp), %rax                  # 8-byte Reload
	movq	%rax, 16(%rsp)
	movq	15552(%rsp), %rax
	movq	%rax, 8(%rsp)
	movq	%r12, (%rsp)
	leaq	8832(%rsp), %rdi
	movq	88(%rsp), %rsi                  # 8-byte Reload
	movq	%r13, %rdx
	movq	72(%rsp), %rcx                  # 8-byte Reload
	movq	%rbx, %r8
	movq	56(%rsp), %r9                   # 8-byte Reload
	callq	"checker::check"
	cmpb	$0, 8832(%rsp)
	movl	%r14d, 52(%rsp)                 # 4-byte Spill
	je	.LBB51_3
# %bb.37:                               # %arm.2.i.i.i.i
	movq	8848(%rsp), %rbx
	movl	8844(%rsp), %r15d
	movzwl	8842(%rsp), %r14d
	movzbl	8840(%rsp), %r13d
	jmp	.LBB51_38
.LBB51_3:                               # %arm.1.i.i.i.i
	movq	15584(%rsp), %rbp
	movb	$10, %r13b
	cmpq	%r15, %rbp
	jne	.LBB51_4
# %bb.5:                                # %else.2.i.i.i.i.i
	xorl	%edx, %edx
	movzbl	39(%rsp), %eax                  # 1-byte Folded Reload
	movb	%al, %dl
	shll	$12, %edx
	movq	15576(%rsp), %rcx
	leaq	(%rcx,%rdx), %r12
	testq	%rbp, %rbp
	movl	%r14d, %r8d
	je	.LBB51_24
# %bb.6:                                # %iter.check
	cmpq	$8, %rbp
	jae	.LBB51_9
# %bb.7:
	xorl	%ecx, %ecx
	xorl	%eax, %eax
	movq	40(%rsp), %r14                  # 8-byte Reload
	jmp	.LBB51_8
.LBB51_24:                              # %else.5.thread.i.i.i.i.i
	pxor	%xmm0, %xmm0
	movdqa	%xmm0, 3168(%rsp)
	movdqa	%xmm0, 3184(%rsp)
	movdqa	%xmm0, 3200(%rsp)
	movdqa	%xmm0, 3216(%rsp)
	movdqa	%xmm0, 3232(%rsp)
	movdqa	%xmm0, 3248(%rsp)
	movdqa	%xmm0, 3264(%rsp)
	movdqa	%xmm0, 3280(%rsp)
	movdqa	%xmm0, 3296(%rsp)
	movdqa	%xmm0, 3312(%rsp)
	movdqa	%xmm0, 3328(%rsp)
	movdqa	%xmm0, 3344(%rsp)
	movdqa	%xmm0, 3360(%rsp)
	movdqa	%xmm0, 3376(%rsp)
	movdqa	%xmm0, 3392(%rsp)
	movdqa	%xmm0, 3408(%rsp)
	movdqa	%xmm0, 96(%rsp)
	movdqa	%xmm0, 112(%rsp)
	movdqa	%xmm0, 128(%rsp)
	movdqa	%xmm0, 144(%rsp)
	movdqa	%xmm0, 160(%rsp)
	movdqa	%xmm0, 176(%rsp)
	movdqa	%xmm0, 192(%rsp)
	movdqa	%xmm0, 208(%rsp)
	movdqa	%xmm0, 224(%rsp)
	movdqa	%xmm0, 240(%rsp)
	movdqa	%xmm0, 256(%rsp)
	movdqa	%xmm0, 272(%rsp)
	movdqa	%xmm0, 288(%rsp)
	movdqa	%xmm0, 304(%rsp)
	movdqa	%xmm0, 320(%rsp)
	movdqa	%xmm0, 336(%rsp)
	movq	40(%rsp), %r14                  # 8-byte Reload
	jmp	.LBB51_25
.LBB51_9:                               # %vector.main.loop.iter.check
	cmpq	$32, %rbp
	jae	.LBB51_11
# %bb.10:
	xorl	%eax, %eax
	xorl	%ecx, %ecx
	movq	40(%rsp), %r14                  # 8-byte Reload
	jmp	.LBB51_15
.LBB51_11:                              # %vector.ph
	movq	%rbp, %rax
	andq	$-32, %rax
	addq	%rdx, %rcx
	addq	$16, %rcx
	pxor	%xmm0, %xmm0
	xorl	%edx, %edx
	pxor	%xmm1, %xmm1
	.p2align	4
.LBB51_12:                              # %vector.body
                                        # =>This Inner Loop Header: Depth=1
	movdqu	-16(%rcx,%rdx), %xmm2
	movdqu	(%rcx,%rdx), %xmm3
	movdqa	.LCPI51_0(%rip), %xmm4          # xmm4 = [2,2,2,2,2,2,2,2,2,2,2,2,2,2,2,2]
	movdqa	%xmm2, %xmm5
	pmaxub	%xmm4, %xmm5
	pcmpeqb	%xmm2, %xmm5
	por	%xmm5, %xmm1
	pmaxub	%xmm3, %xmm4
	pcmpeqb	%xmm3, %xmm4
	por	%xmm4, %xmm0
	addq	$32, %rdx
	cmpq	%rdx, %rax
	jne	.LBB51_12
# %bb.13:                               # %middle.block
	por	%xmm1, %xmm0
	psllw	$7, %xmm0
	pmovmskb	%xmm0, %ecx
	testl	%ecx, %ecx
	setne	%cl
	cmpq	%rax, %rbp
	movq	40(%rsp), %r14                  # 8-byte Reload
	je	.LBB51_19
# %bb.14:                               # %vec.epilog.iter.check
	testb	$24, %bpl
	je	.LBB51_8
.LBB51_15:                              # %vec.epilog.ph
	movq	%rax, %rdx
	movq	%rbp, %rax
	andq	$-8, %rax
	movzbl	%cl, %ecx
	movd	%ecx, %xmm0
	.p2align	4
.LBB51_16:                              # %vec.epilog.vector.body
                                        # =>This Inner Loop Header: Depth=1
	movq	(%r12,%rdx), %xmm1              # xmm1 = mem[0],zero
	movdqa	.LCPI51_1(%rip), %xmm2          # xmm2 = [1,1,1,1,1,1,1,1,u,u,u,u,u,u,u,u]
	pminub	%xmm1, %xmm2
	pcmpeqb	%xmm1, %xmm2
	punpcklbw	%xmm2, %xmm2            # xmm2 = xmm2[0,0,1,1,2,2,3,3,4,4,5,5,6,6,7,7]
	pcmpeqd	%xmm1, %xmm1
	pxor	%xmm2, %xmm1
	por	%xmm1, %xmm0
	addq	$8, %rdx
	cmpq	%rdx, %rax
	jne	.LBB51_16
# %bb.17:                               # %vec.epilog.middle.block
	psllw	$7, %xmm0
	pmovmskb	%xmm0, %ecx
	testl	$21845, %ecx                    # imm = 0x5555
	setne	%cl
	jmp	.LBB51_18
.LBB51_4:
	xorl	%r14d, %r14d
	xorl	%r15d, %r15d
	xorl	%ebx, %ebx
	movq	15624(%rsp), %rbp
.LBB51_38:                              # %arm.1.i.i.i
	leaq	7288(%rsp), %rdi
	movl	$512, %edx                      # imm = 0x200
	movq	15600(%rsp), %rsi
	callq	memcpy@PLT
.LBB51_44:                              # %"ledger::report.exit.thread.i.i"
	leaq	6776(%rsp), %rdi
	leaq	7288(%rsp), %rsi
	movl	$512, %edx                      # imm = 0x200
	callq	memcpy@PLT
	xorl	%ecx, %ecx
	movzbl	%r13b, %eax
	leaq	.LJTI51_0(%rip), %rdx
	movslq	(%rdx,%rax,4), %rsi
	addq	%rdx, %rsi
	jmpq	*%rsi
.LBB51_69:                              # %"docket::carried.exit.i.i.i.i"
	movq	%rcx, (%rbp)
	movzbl	%al, %r13d
	movl	$1, %r12d
	leaq	.LJTI51_1(%rip), %rax
	movslq	(%rax,%r13,4), %rcx
	addq	%rax, %rcx
	movl	%r13d, %eax
	movl	%r13d, %r14d
	movq	15616(%rsp), %r15
	movq	%r15, %rbx
	jmpq	*%rcx
.LBB51_8:                               # %join.6.i.i.i.i.i.i
	cmpb	$2, (%r12,%rax)
	setae	%dl
	orb	%dl, %cl
	incq	%rax
.LBB51_18:                              # %join.6.i.i.i.i.i.i
	cmpq	%rax, %rbp
	jne	.LBB51_8
.LBB51_19:                              # %join.3.i.i.i.i.i
	testb	$1, %cl
	jne	.LBB51_4
# %bb.20:                               # %else.5.i.i.i.i.i
	pxor	%xmm0, %xmm0
	movdqa	%xmm0, 3168(%rsp)
	movdqa	%xmm0, 3184(%rsp)
	movdqa	%xmm0, 3200(%rsp)
	movdqa	%xmm0, 3216(%rsp)
	movdqa	%xmm0, 3232(%rsp)
	movdqa	%xmm0, 3248(%rsp)
	movdqa	%xmm0, 3264(%rsp)
	movdqa	%xmm0, 3280(%rsp)
	movdqa	%xmm0, 3296(%rsp)
	movdqa	%xmm0, 3312(%rsp)
	movdqa	%xmm0, 3328(%rsp)
	movdqa	%xmm0, 3344(%rsp)
	movdqa	%xmm0, 3360(%rsp)
	movdqa	%xmm0, 3376(%rsp)
	movdqa	%xmm0, 3392(%rsp)
	movdqa	%xmm0, 3408(%rsp)
	movdqa	%xmm0, 96(%rsp)
	movdqa	%xmm0, 112(%rsp)
	movdqa	%xmm0, 128(%rsp)
	movdqa	%xmm0, 144(%rsp)
	movdqa	%xmm0, 160(%rsp)
	movdqa	%xmm0, 176(%rsp)
	movdqa	%xmm0, 192(%rsp)
	movdqa	%xmm0, 208(%rsp)
	movdqa	%xmm0, 224(%rsp)
	movdqa	%xmm0, 240(%rsp)
	movdqa	%xmm0, 256(%rsp)
	movdqa	%xmm0, 272(%rsp)
	movdqa	%xmm0, 288(%rsp)
	movdqa	%xmm0, 304(%rsp)
	movdqa	%xmm0, 320(%rsp)
	movdqa	%xmm0, 336(%rsp)
	movq	%rbp, %rcx
	shrq	$6, %rcx
	je	.LBB51_25
# %bb.21:                               # %join.5.i.i.i.i.i.i.i.preheader
	xorl	%eax, %eax
	.p2align	4
.LBB51_23:                              # %join.5.i.i.i.i.i.i.i
                                        # =>This Inner Loop Header: Depth=1
	movdqu	(%r12,%rax), %xmm0
	movdqu	16(%r12,%rax), %xmm1
	movdqu	32(%r12,%rax), %xmm2
	movdqu	48(%r12,%rax), %xmm3
	movdqa	.LCPI51_2(%rip), %xmm4          # xmm4 = [1,1,1,1,1,1,1,1,1,1,1,1,1,1,1,1]
	pcmpeqb	%xmm4, %xmm3
	pcmpeqb	%xmm4, %xmm1
	pand	%xmm3, %xmm1
	pcmpeqb	%xmm4, %xmm2
	pcmpeqb	%xmm4, %xmm0
	pand	%xmm2, %xmm0
	pand	%xmm1, %xmm0
	pmovmskb	%xmm0, %edx
	xorl	$65535, %edx                    # imm = 0xFFFF
	jne	.LBB51_26
# %bb.22:                               # %loop.2.i.i.i.i.i.i.i
                                        #   in Loop: Header=BB51_23 Depth=1
	addq	$64, %rax
	decq	%rcx
	jne	.LBB51_23
.LBB51_25:                              # %after.1.i.i.i.i.i.i.i
	movq	%rbp, %rax
	andq	$-64, %rax
.LBB51_26:                              # %"mark_order::done_to.exit.i.i.i.i.i.i"
	cmpq	%rbp, %rax
	jb	.LBB51_27
.LBB51_33:                              # %join.4.i.i.i
	movq	15592(%rsp), %r13
	leaq	7800(%rsp), %rdi
	movl	$512, %edx                      # imm = 0x200
	movl	%r8d, %r15d
	movq	15600(%rsp), %rsi
	callq	memcpy@PLT
	movl	68(%rsp), %eax                  # 4-byte Reload
	movl	%eax, 8312(%rsp)
	movl	%r15d, 8316(%rsp)
	leaq	3168(%rsp), %r15
	movl	$3608, %edx                     # imm = 0xE18
	movq	%r15, %rdi
	xorl	%esi, %esi
	callq	memset@PLT
	movq	%r13, (%rsp)
	movq	%r15, %rdi
	movq	%rbx, %rsi
	movq	56(%rsp), %rdx                  # 8-byte Reload
	movq	%r14, %rcx
	movq	%rbp, %r8
	movq	%r12, %r9
	callq	"agreeing::work_out"
	movl	6768(%rsp), %ebx
	leaq	7800(%rsp), %rdi
	movq	%r15, %rsi
	callq	"entries::same_record"
	testb	%al, %al
	je	.LBB51_43
# %bb.34:                               # %join.3.i.i.i.i
	movl	%ebx, 56(%rsp)                  # 4-byte Spill
	leaq	3696(%rsp), %rbx
	movq	3688(%rsp), %r14
	leaq	96(%rsp), %rdi
	leaq	12424(%rsp), %rsi
	movl	$3072, %edx                     # imm = 0xC00
	callq	memcpy@PLT
	leaq	8832(%rsp), %rdi
	movl	$3072, %edx                     # imm = 0xC00
	movq	%rbx, %rsi
	callq	memcpy@PLT
	cmpq	%r14, 15616(%rsp)
	movl	52(%rsp), %r15d                 # 4-byte Reload
	jne	.LBB51_43
# %bb.35:                               # %loop.5.preheader.i.i.i.i.i
	cmpq	$0, 15616(%rsp)
	je	.LBB51_45
# %bb.36:                               # %join.8.i.i.i.i.i.preheader
	movl	$8, %eax
	movq	15616(%rsp), %rcx
.LBB51_40:                              # %join.8.i.i.i.i.i
                                        # =>This Inner Loop Header: Depth=1
	movl	88(%rsp,%rax), %edx
	cmpl	8824(%rsp,%rax), %edx
	jne	.LBB51_43
# %bb.41:                               # %"core::cmp::Ordering::and_eq::<i32,32'core::cmp::numbers::U32PartialEq{}>.exit.i.i.i.i.i.i.i"
                                        #   in Loop: Header=BB51_40 Depth=1
	movl	92(%rsp,%rax), %edx
	cmpl	8828(%rsp,%rax), %edx
	jne	.LBB51_43
# %bb.42:                               # %"core::cmp::PartialEq::ne::<11'bills::Line,20'bills::LinePartialEq{}>.exit.i.i.i.i.i"
                                        #   in Loop: Header=BB51_40 Depth=1
	movl	96(%rsp,%rax), %edx
	cmpl	8832(%rsp,%rax), %edx
	jne	.LBB51_43
# %bb.39:                               # %loop.5.i.i.i.i.i
                                        #   in Loop: Header=BB51_40 Depth=1
	addq	$12, %rax
	decq	%rcx
	jne	.LBB51_40
.LBB51_45:                              # %join.7.i.i.i
	leaq	96(%rsp), %rdi
	movl	$512, %edx                      # imm = 0x200
	movq	15600(%rsp), %rsi
	callq	memcpy@PLT
	cmpq	%rbp, %r13
	jae	.LBB51_46
# %bb.48:                               # %arm.1.i.i.i.i.i
	cmpb	$1, (%r12,%r13)
	jne	.LBB51_49
# %bb.67:                               # %arm.2.i.i.i
	leaq	6776(%rsp), %rdi
	movl	$512, %edx                      # imm = 0x200
	movq	15600(%rsp), %rsi
	callq	memcpy@PLT
	movq	15624(%rsp), %rax
	movq	$0, (%rax)
	movl	$100, %r12d
	xorl	%r13d, %r13d
	xorl	%eax, %eax
	xorl	%r14d, %r14d
	movq	15616(%rsp), %r15
	jmp	.LBB51_98
	.p2align	4
.LBB51_31:                              # %else.7.i.i.i.i.i.i
                                        #   in Loop: Header=BB51_27 Depth=1
	movb	$1, 3168(%rsp,%rsi)
	movb	$1, 96(%rsp,%rdx)
	movb	$1, 96(%rsp,%rcx)
.LBB51_32:                              # %join.8.i.i.i.i.i.i
                                        #   in Loop: Header=BB51_27 Depth=1
	incq	%rax
	cmpq	%rax, %rbp
	je	.LBB51_33
.LBB51_27:                              # %join.5.i.i.i.i.i.i
                                        # =>This Inner Loop Header: Depth=1
	movq	(%r14,%rax,8), %rsi
	movl	%esi, %edx
	movzwl	%si, %ecx
	shrq	$32, %rsi
	shrl	$16, %edx
	cmpb	$1, (%r12,%rax)
	jne	.LBB51_31
# %bb.28:                               # %then.6.i.i.i.i.i.i
                                        #   in Loop: Header=BB51_27 Depth=1
	cmpb	$1, 3168(%rsp,%rsi)
	je	.LBB51_4
# %bb.29:                               # %join.3.i.i.i.i.i.i.i
                                        #   in Loop: Header=BB51_27 Depth=1
	cmpb	$1, 96(%rsp,%rdx)
	je	.LBB51_4
# %bb.30:                               # %"mark_order::touched.exit.i.i.i.i.i.i"
                                        #   in Loop: Header=BB51_27 Depth=1
	cmpb	$1, 96(%rsp,%rcx)
	jne	.LBB51_32
	jmp	.LBB51_4
.LBB51_43:                              # %then.5.i.i.i
	leaq	7288(%rsp), %rdi
	movl	$512, %edx                      # imm = 0x200
	movq	15600(%rsp), %rsi
	callq	memcpy@PLT
	movb	$18, %r13b
	xorl	%r14d, %r14d
	xorl	%r15d, %r15d
	xorl	%ebx, %ebx
	movq	15624(%rsp), %rbp
	jmp	.LBB51_44
.LBB51_46:
	movb	$11, %bpl
	xorl	%ebx, %ebx
.LBB51_47:                              # %"ledger::report.exit.thread68.i.i"
	leaq	6776(%rsp), %rdi
	movl	$512, %edx                      # imm = 0x200
	movq	15600(%rsp), %rsi
	callq	memcpy@PLT
	xorl	%r14d, %r14d
	xorl	%ecx, %ecx
	movzbl	%bpl, %eax
	leaq	.LJTI51_0(%rip), %rdx
	movslq	(%rdx,%rax,4), %rsi
	addq	%rdx, %rsi
	xorl	%r15d, %r15d
	movq	15624(%rsp), %rbp
	jmpq	*%rsi
.LBB51_68:                              # %arm.2.i.i.i.i.i.i
	movq	%rbx, (%rbp)
	movzbl	%al, %r13d
	movl	$1, %r12d
	leaq	.LJTI51_1(%rip), %rax
	movslq	(%rax,%r13,4), %rcx
	addq	%rax, %rcx
	movl	%r13d, %eax
	movl	%r13d, %r14d
	movq	15616(%rsp), %r15
	movq	%r15, %rbx
	jmpq	*%rcx
.LBB51_70:                              # %arm.2.i.i7.i.i.i.i
	movl	$2, %r12d
	jmp	.LBB51_97
.LBB51_76:                              # %"docket::carried.exit.thread13.i.i.i.i"
	movq	%r15, (%rbp)
	movq	15616(%rsp), %r15
.LBB51_77:                              # %arm.6.i.i4.i.i.i.i
	movl	$6, %r12d
	jmp	.LBB51_97
.LBB51_78:                              # %"docket::carried.exit.thread15.i.i.i.i"
	movq	%r15, (%rbp)
	movq	15616(%rsp), %r15
.LBB51_79:                              # %arm.7.i.i3.i.i.i.i
	movl	$7, %r12d
	jmp	.LBB51_97
.LBB51_71:                              # %"docket::carried.exit.thread.i.i.i.i"
	movq	%r14, (%rbp)
	movq	15616(%rsp), %r15
.LBB51_72:                              # %arm.3.i.i6.i.i.i.i
	movl	$3, %r12d
	jmp	.LBB51_97
.LBB51_82:                              # %"docket::carried.exit.thread17.i.i.i.i"
	movq	%r15, (%rbp)
	movq	15616(%rsp), %r15
.LBB51_83:                              # %arm.10.i.i2.i.i.i.i
	movl	$10, %r12d
	jmp	.LBB51_97
.LBB51_74:                              # %"docket::carried.exit.thread11.i.i.i.i"
	movq	%r15, (%rbp)
	movq	15616(%rsp), %r15
.LBB51_75:                              # %arm.5.i.i5.i.i.i.i
	movl	$5, %r12d
	jmp	.LBB51_97
.LBB51_90:                              # %arm.17.i.i.i.i.i.i
	movl	$17, %r12d
	jmp	.LBB51_97
.LBB51_88:                              # %arm.15.i.i.i.i.i.i
	movl	$15, %r12d
	jmp	.LBB51_97
.LBB51_85:                              # %arm.12.i.i.i.i.i.i
	movl	$12, %r12d
	jmp	.LBB51_97
.LBB51_86:                              # %arm.13.i.i.i.i.i.i
	movl	$13, %r12d
	jmp	.LBB51_97
.LBB51_89:                              # %arm.16.i.i.i.i.i.i
	movl	$16, %r12d
	jmp	.LBB51_97
.LBB51_73:                              # %arm.4.i.i.i.i.i.i
	movl	$4, %r12d
	jmp	.LBB51_97
.LBB51_80:                              # %arm.8.i.i.i.i.i.i
	movl	$8, %r12d
	jmp	.LBB51_97
.LBB51_91:                              # %arm.18.i.i.i.i.i.i
	movl	$18, %r12d
	jmp	.LBB51_97
.LBB51_94:                              # %arm.21.i.i.i.i.i.i
	movl	$25, %r12d
	jmp	.LBB51_97
.LBB51_95:                              # %arm.22.i.i.i.i.i.i
	movl	$26, %r12d
	jmp	.LBB51_97
.LBB51_87:                              # %arm.14.i.i.i.i.i.i
	movl	$14, %r12d
	jmp	.LBB51_97
.LBB51_92:                              # %arm.19.i.i.i.i.i.i
	movl	$19, %r12d
	jmp	.LBB51_97
.LBB51_84:                              # %arm.11.i.i.i.i.i.i
	movl	$11, %r12d
	jmp	.LBB51_97
.LBB51_81:                              # %arm.9.i.i.i.i.i.i
	movl	$9, %r12d
	jmp	.LBB51_97
.LBB51_96:                              # %arm.23.i.i.i.i.i.i
	movl	$27, %r12d
	jmp	.LBB51_97
.LBB51_93:                              # %arm.20.i.i.i.i.i.i
	movl	$20, %r12d
.LBB51_97:                              # %"sejjekoru::report_on.exit.i"
	xorl	%r13d, %r13d
	xorl	%eax, %eax
	xorl	%r14d, %r14d
.LBB51_98:                              # %"sejjekoru::report_on.exit.i"
	movq	%r15, %rbx
.LBB51_99:                              # %"sejjekoru::report_on.exit.i"
	movl	%eax, 40(%rsp)                  # 4-byte Spill
	movq	%r13, 56(%rsp)                  # 8-byte Spill
	leaq	11912(%rsp), %rbp
	leaq	6776(%rsp), %rsi
	movl	$512, %edx                      # imm = 0x200
	movq	%rbp, %rdi
	callq	memcpy@PLT
	movl	$512, %edx                      # imm = 0x200
	movq	15600(%rsp), %r13
	movq	%r13, %rdi
	movq	%rbp, %rsi
	callq	memcpy@PLT
	movl	68(%rsp), %eax                  # 4-byte Reload
	movl	%eax, 512(%r13)
	movl	52(%rsp), %eax                  # 4-byte Reload
	movl	%eax, 516(%r13)
	cmpq	%r15, %rbx
	jae	.LBB51_101
# %bb.100:                              # %then.1.i.i
	leaq	(%rbx,%rbx,2), %rax
	movq	80(%rsp), %rcx                  # 8-byte Reload
	movl	%r14d, (%rcx,%rax,4)
	movl	40(%rsp), %edx                  # 4-byte Reload
	movl	%edx, 4(%rcx,%rax,4)
	movq	56(%rsp), %rdx                  # 8-byte Reload
	movl	%edx, 8(%rcx,%rax,4)
.LBB51_101:                             # %"sejjekoru::sejjekoru_report_billed.exit"
	movq	%r12, %rax
	addq	$15496, %rsp                    # imm = 0x3C88
	.cfi_def_cfa_offset 56
	popq	%rbx
	.cfi_def_cfa_offset 48
	popq	%r12
	.cfi_def_cfa_offset 40
	popq	%r13
	.cfi_def_cfa_offset 32
	popq	%r14
	.cfi_def_cfa_offset 24
	popq	%r15
	.cfi_def_cfa_offset 16
	popq	%rbp
	.cfi_def_cfa_offset 8
	retq
.LBB51_49:                              # %join.7.i.i.i.i.i
	.cfi_def_cfa_offset 15552
	movq	%rbp, %rax
	shrq	$6, %rax
	movq	40(%rsp), %r14                  # 8-byte Reload
	je	.LBB51_53
# %bb.50:                               # %join.5.i.i.i.i43.i.i.i.preheader
	xorl	%ebx, %ebx
.LBB51_52:                              # %join.5.i.i.i.i43.i.i.i
                                        # =>This Inner Loop Header: Depth=1
	movdqu	(%r12,%rbx), %xmm0
	movdqu	16(%r12,%rbx), %xmm1
	movdqu	32(%r12,%rbx), %xmm2
	movdqu	48(%r12,%rbx), %xmm3
	movdqa	.LCPI51_2(%rip), %xmm4          # xmm4 = [1,1,1,1,1,1,1,1,1,1,1,1,1,1,1,1]
	pcmpeqb	%xmm4, %xmm3
	pcmpeqb	%xmm4, %xmm1
	pand	%xmm3, %xmm1
	pcmpeqb	%xmm4, %xmm2
	pcmpeqb	%xmm4, %xmm0
	pand	%xmm2, %xmm0
	pand	%xmm1, %xmm0
	pmovmskb	%xmm0, %ecx
	xorl	$65535, %ecx                    # imm = 0xFFFF
	jne	.LBB51_54
# %bb.51:                               # %loop.2.i.i.i.i310.i.i.i
                                        #   in Loop: Header=BB51_52 Depth=1
	addq	$64, %rbx
	decq	%rax
	jne	.LBB51_52
.LBB51_53:                              # %after.1.i.i.i.i313.i.i.i
	andq	$-64, %rbp
	movq	%rbp, %rbx
.LBB51_54:                              # %"mark_order::done_to.exit.i.i.i301.i.i.i"
	cmpq	%r13, %rbx
	jae	.LBB51_63
# %bb.55:                               # %join.5.lr.ph.i.i.i.i.i.i
	movq	(%r14,%r13,8), %rax
	movl	%eax, %ecx
	shrl	$16, %ecx
	jmp	.LBB51_56
.LBB51_62:                              # %join.8.i.i.i307.i.i.i
                                        #   in Loop: Header=BB51_56 Depth=1
	incq	%rbx
	cmpq	%rbx, %r13
	je	.LBB51_63
.LBB51_56:                              # %join.5.i.i.i305.i.i.i
                                        # =>This Inner Loop Header: Depth=1
	cmpb	$1, (%r12,%rbx)
	je	.LBB51_62
# %bb.57:                               # %"marks::waits_for.exit.i.i.i.i.i.i"
                                        #   in Loop: Header=BB51_56 Depth=1
	movq	(%r14,%rbx,8), %rdx
	movb	$12, %bpl
	cmpw	%dx, %ax
	je	.LBB51_47
# %bb.58:                               # %"marks::waits_for.exit.i.i.i.i.i.i"
                                        #   in Loop: Header=BB51_56 Depth=1
	movl	%edx, %esi
	shrl	$16, %esi
	cmpw	%si, %ax
	je	.LBB51_47
# %bb.59:                               # %"marks::waits_for.exit.i.i.i.i.i.i"
                                        #   in Loop: Header=BB51_56 Depth=1
	movq	%rdx, %rdi
	xorq	%rax, %rdi
	shrq	$32, %rdi
	je	.LBB51_47
# %bb.60:                               # %"marks::waits_for.exit.i.i.i.i.i.i"
                                        #   in Loop: Header=BB51_56 Depth=1
	cmpw	%dx, %cx
	je	.LBB51_47
# %bb.61:                               # %"marks::waits_for.exit.i.i.i.i.i.i"
                                        #   in Loop: Header=BB51_56 Depth=1
	cmpw	%si, %cx
	movl	52(%rsp), %r15d                 # 4-byte Reload
	jne	.LBB51_62
	jmp	.LBB51_47
.LBB51_63:                              # %then.1.i.i.i.i
	movl	%r15d, %ebp
	movb	$1, (%r12,%r13)
	leaq	8320(%rsp), %rdi
	leaq	96(%rsp), %rsi
	movl	$512, %edx                      # imm = 0x200
	callq	memcpy@PLT
	movq	(%r14,%r13,8), %rbx
	movq	%rbx, %r14
	shrq	$32, %r14
	movw	%bx, 8320(%rsp,%r14,2)
	leaq	3168(%rsp), %rdi
	leaq	12424(%rsp), %rsi
	movl	$3072, %edx                     # imm = 0xC00
	callq	memcpy@PLT
	shrq	$40, %rbx
	movq	%r14, 72(%rsp)                  # 8-byte Spill
	jne	.LBB51_64
# %bb.66:                               # %then.1.i.i.i.i.i.i.i
	leaq	(%r14,%r14,2), %rax
	movl	3168(%rsp,%rax,4), %r14d
	movl	3172(%rsp,%rax,4), %eax
	incl	%eax
	movl	%eax, 40(%rsp)                  # 4-byte Spill
	jmp	.LBB51_65
.LBB51_64:
	movl	$1, 40(%rsp)                    # 4-byte Folded Spill
	xorl	%r14d, %r14d
.LBB51_65:                              # %arm.1.i3.i.i
	movq	15616(%rsp), %r15
	movl	56(%rsp), %eax                  # 4-byte Reload
	cmpl	%ebp, %eax
	cmoval	%eax, %ebp
	movl	%ebp, 52(%rsp)                  # 4-byte Spill
	incl	68(%rsp)                        # 4-byte Folded Spill
	leaq	7288(%rsp), %rbx
	leaq	8320(%rsp), %rsi
	movl	$512, %edx                      # imm = 0x200
	movq	%rbx, %rdi
	callq	memcpy@PLT
	leaq	6776(%rsp), %rdi
	movl	$512, %edx                      # imm = 0x200
	movq	%rbx, %rsi
	callq	memcpy@PLT
	movq	15624(%rsp), %rax
	movq	$0, (%rax)
	xorl	%r12d, %r12d
	movl	40(%rsp), %eax                  # 4-byte Reload
	movq	72(%rsp), %rbx                  # 8-byte Reload
	jmp	.LBB51_99
.Lfunc_end51:
	.size	sejjekoru_report_billed, .Lfunc_end51-sejjekoru_report_billed
	.cfi_endproc
	.section	.rodata.sejjekoru_report_billed,"a",@progbits
	.p2align	2, 0x0
.LJTI51_0:
	.long	.LBB51_69-.LJTI51_0
	.long	.LBB51_68-.LJTI51_0
	.long	.LBB51_71-.LJTI51_0
	.long	.LBB51_69-.LJTI51_0
	.long	.LBB51_74-.LJTI51_0
	.long	.LBB51_76-.LJTI51_0
	.long	.LBB51_78-.LJTI51_0
	.long	.LBB51_68-.LJTI51_0
	.long	.LBB51_68-.LJTI51_0
	.long	.LBB51_82-.LJTI51_0
	.long	.LBB51_69-.LJTI51_0
	.long	.LBB51_69-.LJTI51_0
	.long	.LBB51_68-.LJTI51_0
	.long	.LBB51_68-.LJTI51_0
	.long	.LBB51_68-.LJTI51_0
	.long	.LBB51_68-.LJTI51_0
	.long	.LBB51_69-.LJTI51_0
	.long	.LBB51_69-.LJTI51_0
	.long	.LBB51_69-.LJTI51_0
	.long	.LBB51_69-.LJTI51_0
	.long	.LBB51_69-.LJTI51_0
	.long	.LBB51_68-.LJTI51_0
	.long	.LBB51_68-.LJTI51_0
.LJTI51_1:
	.long	.LBB51_99-.LJTI51_1
	.long	.LBB51_70-.LJTI51_1
	.long	.LBB51_72-.LJTI51_1
	.long	.LBB51_73-.LJTI51_1
	.long	.LBB51_75-.LJTI51_1
	.long	.LBB51_77-.LJTI51_1
	.long	.LBB51_79-.LJTI51_1
	.long	.LBB51_80-.LJTI51_1
	.long	.LBB51_81-.LJTI51_1
	.long	.LBB51_83-.LJTI51_1
	.long	.LBB51_84-.LJTI51_1
	.long	.LBB51_85-.LJTI51_1
	.long	.LBB51_86-.LJTI51_1
	.long	.LBB51_87-.LJTI51_1
	.long	.LBB51_88-.LJTI51_1
	.long	.LBB51_89-.LJTI51_1
	.long	.LBB51_90-.LJTI51_1
	.long	.LBB51_91-.LJTI51_1
	.long	.LBB51_92-.LJTI51_1
	.long	.LBB51_93-.LJTI51_1
	.long	.LBB51_94-.LJTI51_1
	.long	.LBB51_95-.LJTI51_1
	.long	.LBB51_96-.LJTI51_1
                                        # -- End function
	.section	.rodata.cst16,"aM",@progbits,16
	.p2align	4, 0x0                          # -- Begin function sejjekoru_reverse
.LCPI52_0:
	.long	0                               # 0x0
	.long	4294967295                      # 0xffffffff
	.long	0                               # 0x0
	.long	4294967295                      # 0xffffffff
.LCPI52_1:
	.short	65535                           # 0xffff
	.short	0                               # 0x0
	.short	0                               # 0x0
	.short	0                               # 0x0
	.short	65535                           # 0xffff
	.short	0                               # 0x0
	.short	0                               # 0x0
	.short	0                               # 0x0
.LCPI52_2:
	.short	0                               # 0x0
	.short	65535                           # 0xffff
	.short	0                               # 0x0
	.short	0                               # 0x0
	.short	0                               # 0x0
	.short	65535                           # 0xffff
	.short	0                               # 0x0
	.short	0                               # 0x0
	.section	.text.sejjekoru_reverse,"ax",@progbits
	.globl	sejjekoru_reverse
	.p2align	4
	.type	sejjekoru_reverse,@function
sejjekoru_reverse:                      # @sejjekoru_reverse
	.cfi_startproc
# %bb.0:                                # %start
	pushq	%r14
	.cfi_def_cfa_offset 16
	pushq	%rbx
	.cfi_def_cfa_offset 24
	subq	$24, %rsp
	.cfi_def_cfa_offset 48
	.cfi_offset %rbx, -24
	.cfi_offset %r14, -16
	xorl	%eax, %eax
	testq	%rdi, %rdi
	sete	%r11b
	xorl	%r9d, %r9d
	testq	%rdx, %rdx
	sete	%r10b
	pxor	%xmm0, %xmm0
	movdqa	%xmm0, (%rsp)
	movq	$0, 16(%rsp)
	cmpq	$65537, %rsi                    # imm = 0x10001
	jb	.LBB52_2
# %bb.1:                                # %then.1.i.i
	movq	$1, (%rsp)
	movdqu	%xmm0, 8(%rsp)
	jmp	.LBB52_15
.LBB52_2:                               # %join.3.i.i
	cmpq	%rsi, %rcx
	jae	.LBB52_4
# %bb.3:                                # %then.4.i.i
	movq	$1, (%rsp)
	movq	$7, 8(%rsp)
	movq	%rsi, 16(%rsp)
	jmp	.LBB52_15
.LBB52_4:                               # %join.6.i.i
	testq	%rsi, %rsi
	je	.LBB52_14
# %bb.5:                                # %join.5.i.i.i.preheader
	movb	%r11b, %al
	shll	$12, %eax
	movb	%r10b, %r9b
	shll	$12, %r9d
	cmpq	$4, %rsi
	jb	.LBB52_6
# %bb.7:                                # %vector.memcheck
	leaq	(%rdi,%rax), %rcx
	leaq	(%rdx,%r9), %r10
	leaq	(%r10,%rsi,8), %r11
	leaq	(%rcx,%rsi,8), %rbx
	cmpq	%rbx, %r10
	setb	%r10b
	cmpq	%r11, %rcx
	setb	%cl
	testb	%cl, %r10b
	je	.LBB52_9
.LBB52_6:
	xorl	%ecx, %ecx
.LBB52_12:                              # %join.5.i.i.i.preheader4
	movq	%rsi, %r10
	subq	%rcx, %r10
	leaq	(%r9,%rcx,8), %rcx
	addq	%rcx, %rdx
	addq	%rdi, %rax
	addq	$-8, %rax
	.p2align	4
.LBB52_13:                              # %join.5.i.i.i
                                        # =>This Inner Loop Header: Depth=1
	movq	(%rax,%r10,8), %rcx
	movabsq	$-4294967296, %rdi              # imm = 0xFFFFFFFF00000000
	andq	%rcx, %rdi
	movl	%ecx, %r9d
	shrl	$16, %r9d
	shll	$16, %ecx
	orq	%rdi, %rcx
	orq	%r9, %rcx
	movq	%rcx, (%rdx)
	addq	$8, %rdx
	decq	%r10
	jne	.LBB52_13
.LBB52_14:                              # %"reverse_list::write.exit.i.i"
	movq	$0, (%rsp)
	movq	%rsi, 8(%rsp)
	movq	$0, 16(%rsp)
.LBB52_15:                              # %"sejjekoru::reverse::sejjekoru_reverse.exit"
	movq	%rsp, %rdi
	movq	%r8, %rsi
	callq	"numbers::told"
	addq	$24, %rsp
	.cfi_def_cfa_offset 24
	popq	%rbx
	.cfi_def_cfa_offset 16
	popq	%r14
	.cfi_def_cfa_offset 8
	retq
.LBB52_9:                               # %vector.ph
	.cfi_def_cfa_offset 48
	leaq	(,%rsi,8), %rbx
	movl	%esi, %ecx
	andl	$131068, %ecx                   # imm = 0x1FFFC
	movq	%rcx, %r10
	negq	%r10
	leaq	(%r9,%rdx), %r11
	addq	$16, %r11
	addq	%rax, %rbx
	addq	%rdi, %rbx
	addq	$-16, %rbx
	xorl	%r14d, %r14d
	.p2align	4
.LBB52_10:                              # %vector.body
                                        # =>This Inner Loop Header: Depth=1
	movdqu	-16(%rbx,%r14,8), %xmm1
	movdqu	(%rbx,%r14,8), %xmm0
	pshufd	$78, %xmm0, %xmm0               # xmm0 = xmm0[2,3,0,1]
	pshufd	$78, %xmm1, %xmm1               # xmm1 = xmm1[2,3,0,1]
	movdqa	.LCPI52_0(%rip), %xmm2          # xmm2 = [0,4294967295,0,4294967295]
	movdqa	%xmm0, %xmm3
	pand	%xmm2, %xmm3
	pand	%xmm1, %xmm2
	movdqa	%xmm0, %xmm4
	psrlq	$16, %xmm4
	movdqa	%xmm1, %xmm5
	psrlq	$16, %xmm5
	movdqa	.LCPI52_1(%rip), %xmm6          # xmm6 = [65535,0,0,0,65535,0,0,0]
	pand	%xmm6, %xmm4
	pand	%xmm6, %xmm5
	psllq	$16, %xmm0
	psllq	$16, %xmm1
	movdqa	.LCPI52_2(%rip), %xmm6          # xmm6 = [0,65535,0,0,0,65535,0,0]
	pand	%xmm6, %xmm0
	por	%xmm3, %xmm0
	por	%xmm4, %xmm0
	pand	%xmm6, %xmm1
	por	%xmm2, %xmm1
	por	%xmm5, %xmm1
	movdqu	%xmm0, -16(%r11)
	movdqu	%xmm1, (%r11)
	addq	$-4, %r14
	addq	$32, %r11
	cmpq	%r14, %r10
	jne	.LBB52_10
# %bb.11:                               # %middle.block
	cmpq	%rcx, %rsi
	je	.LBB52_14
	jmp	.LBB52_12
.Lfunc_end52:
	.size	sejjekoru_reverse, .Lfunc_end52-sejjekoru_reverse
	.cfi_endproc
                                        # -- End function
	.section	.text.sejjekoru_scenario,"ax",@progbits
	.globl	sejjekoru_scenario              # -- Begin function sejjekoru_scenario
	.p2align	4
	.type	sejjekoru_scenario,@function
sejjekoru_scenario:                     # @sejjekoru_scenario
	.cfi_startproc
# %bb.0:                                # %start
	pushq	%rbp
	.cfi_def_cfa_offset 16
	pushq	%r15
	.cfi_def_cfa_offset 24
	pushq	%r14
	.cfi_def_cfa_offset 32
	pushq	%r13
	.cfi_def_cfa_offset 40
	pushq	%r12
	.cfi_def_cfa_offset 48
	pushq	%rbx
	.cfi_def_cfa_offset 56
	subq	$3072, %rsp                     # imm = 0xC00
	.cfi_adjust_cfa_offset 3072
	movq	$0, (%rsp)
	subq	$3072, %rsp                     # imm = 0xC00
	.cfi_adjust_cfa_offset 3072
	movq	$0, (%rsp)
	subq	$2184, %rsp                     # imm = 0x888
	.cfi_def_cfa_offset 8384
	.cfi_offset %rbx, -56
	.cfi_offset %r12, -48
	.cfi_offset %r13, -40
	.cfi_offset %r14, -32
	.cfi_offset %r15, -24
	.cfi_offset %rbp, -16
	movq	%r9, 96(%rsp)                   # 8-byte Spill
	movq	%rcx, 128(%rsp)                 # 8-byte Spill
	movq	%rsi, %rbp
	movq	8384(%rsp), %rax
	xorl	%ebx, %ebx
	testq	%rdi, %rdi
	sete	%bl
	shll	$12, %ebx
	addq	%rdi, %rbx
	xorl	%ecx, %ecx
	testq	%rdx, %rdx
	sete	%cl
	shll	$12, %ecx
	addq	%rdx, %rcx
	movq	%rcx, 120(%rsp)                 # 8-byte Spill
	xorl	%ecx, %ecx
	testq	%r8, %r8
	sete	%cl
	shll	$12, %ecx
	addq	%r8, %rcx
	movq	%rcx, 112(%rsp)                 # 8-byte Spill
	xorl	%ecx, %ecx
	testq	%rax, %rax
	sete	%cl
	shll	$12, %ecx
	addq	%rax, %rcx
	movq	%rcx, 104(%rsp)                 # 8-byte Spill
	leaq	136(%rsp), %rdi
	xorl	%r12d, %r12d
	movl	$8192, %edx                     # imm = 0x2000
	xorl	%esi, %esi
	callq	memset@PLT
	movl	$1, %r11d
	xorl	%ecx, %ecx
	xorl	%eax, %eax
	xorl	%r8d, %r8d
	xorl	%esi, %esi
	jmp	.LBB53_1
.LBB53_50:                              # %then.4.i129.i.i.i.i.i
                                        #   in Loop: Header=BB53_1 Depth=1
	incb	%r12b
	movb	$4, %r8b
.LBB53_51:                              # %arm.7.i.i.i.i
                                        #   in Loop: Header=BB53_1 Depth=1
	incq	%r11
	movq	%r14, %rsi
.LBB53_1:                               # %loop.2.i.i.i.i
                                        # =>This Loop Header: Depth=1
                                        #     Child Loop BB53_3 Depth 2
                                        #     Child Loop BB53_47 Depth 2
	movabsq	$2482524913665, %rdx            # imm = 0x24202040001
	cmpq	%rbp, %rsi
	jae	.LBB53_5
# %bb.2:                                # %join.5.i.i.i.i.i.i.preheader
                                        #   in Loop: Header=BB53_1 Depth=1
	movq	%rsi, %r14
	.p2align	4
.LBB53_3:                               # %join.5.i.i.i.i.i.i
                                        #   Parent Loop BB53_1 Depth=1
                                        # =>  This Inner Loop Header: Depth=2
	cmpb	$10, (%rbx,%r14)
	je	.LBB53_8
# %bb.4:                                # %join.8.i.i.i.i.i.i
                                        #   in Loop: Header=BB53_3 Depth=2
	incq	%r14
	cmpq	%r14, %rbp
	jne	.LBB53_3
.LBB53_5:                               # %"lines::line_end.exit.thread.i.i.i.i.i"
                                        #   in Loop: Header=BB53_1 Depth=1
	cmpq	%rsi, %rbp
	movq	%rsi, %r14
	cmovaq	%rbp, %r14
.LBB53_6:                               # %join.3.i.i.i.i.i
                                        #   in Loop: Header=BB53_1 Depth=1
	cmpq	%r14, %rsi
	jae	.LBB53_52
# %bb.7:                                # %arm.3.i.i.i.i
                                        #   in Loop: Header=BB53_1 Depth=1
	leaq	(%rbx,%rsi), %rdi
	movq	%r14, %r9
	subq	%rsi, %r9
	movzbl	%r8b, %r8d
	leaq	.LJTI53_0(%rip), %r10
	movslq	(%r10,%r8,4), %r8
	addq	%r10, %r8
	movq	%r14, %r10
	jmpq	*%r8
.LBB53_12:                              # %arm.1.i.i.i.i.i
                                        #   in Loop: Header=BB53_1 Depth=1
	movl	$13, %r15d
	movl	$1, %r13d
	cmpq	$11, %r9
	jne	.LBB53_25
# %bb.13:                               # %join.3.i.i.i.i.i.i.i
                                        #   in Loop: Header=BB53_1 Depth=1
	cmpl	$1701869940, (%rdi)             # imm = 0x65707974
	jne	.LBB53_25
# %bb.14:                               # %"lines::is_word.exit.i.i.i.i.i"
                                        #   in Loop: Header=BB53_1 Depth=1
	movq	%r11, %r12
	leaq	.Lstatic.0(%rip), %rdx
	movl	$11, %esi
	callq	"core::cmp::slices::groups_equal::<i8,31'core::cmp::numbers::U8PartialEq{}>"
	testb	%al, %al
	je	.LBB53_15
# %bb.16:                               #   in Loop: Header=BB53_1 Depth=1
	movb	$1, %r8b
	xorl	%ecx, %ecx
	xorl	%eax, %eax
	movq	%r12, %r11
	xorl	%r12d, %r12d
	jmp	.LBB53_51
	.p2align	4
.LBB53_8:                               # %"lines::line_end.exit.i.i.i.i.i"
                                        #   in Loop: Header=BB53_1 Depth=1
	cmpq	%rbp, %r14
	jae	.LBB53_6
# %bb.9:                                # %then.1.i.i.i.i.i
                                        #   in Loop: Header=BB53_1 Depth=1
	movq	%r11, %r15
	cmpq	%r14, %rsi
	jae	.LBB53_11
# %bb.10:                               # %then.4.i.i.i.i.i
                                        #   in Loop: Header=BB53_1 Depth=1
	cmpb	$13, -1(%rbx,%r14)
	leaq	-1(%r14), %r10
	cmovneq	%r14, %r10
	incq	%r14
	leaq	(%rbx,%rsi), %rdi
	movq	%r10, %r9
	subq	%rsi, %r9
	movzbl	%r8b, %r8d
	leaq	.LJTI53_0(%rip), %r11
	movslq	(%r11,%r8,4), %r8
	addq	%r11, %r8
	movq	%r15, %r11
	jmpq	*%r8
.LBB53_11:                              # %join.6.i.i.i.i.i
                                        #   in Loop: Header=BB53_1 Depth=1
	movq	%r14, %r9
	movq	%r14, %r10
	incq	%r14
	leaq	(%rbx,%rsi), %rdi
	subq	%rsi, %r9
	movzbl	%r8b, %r8d
	leaq	.LJTI53_0(%rip), %r11
	movslq	(%r11,%r8,4), %r8
	addq	%r11, %r8
	movq	%r15, %r11
	jmpq	*%r8
.LBB53_17:                              # %arm.2.i.i.i.i.i
                                        #   in Loop: Header=BB53_1 Depth=1
	movl	$13, %r15d
	movl	$1, %r13d
	cmpq	$7, %r9
	jb	.LBB53_25
# %bb.18:                               # %"lines::begins_with.exit.i.i.i.i.i.i"
                                        #   in Loop: Header=BB53_1 Depth=1
	movzwl	1(%rdi), %eax
	movd	%eax, %xmm0
	pinsrw	$1, 4(%rdi), %xmm0
	movd	%xmm0, %eax
	cmpl	$1952999781, %eax               # imm = 0x74686965
	jne	.LBB53_25
# %bb.19:                               # %"lines::begins_with.exit.i.i.i.i.i.i"
                                        #   in Loop: Header=BB53_1 Depth=1
	cmpb	$104, (%rdi)
	jne	.LBB53_25
# %bb.20:                               # %"lines::begins_with.exit.i.i.i.i.i.i"
                                        #   in Loop: Header=BB53_1 Depth=1
	cmpb	$32, 6(%rdi)
	jne	.LBB53_25
# %bb.21:                               # %"lines::begins_with.exit.i.i.i.i.i.i"
                                        #   in Loop: Header=BB53_1 Depth=1
	cmpb	$103, 3(%rdi)
	jne	.LBB53_25
# %bb.22:                               # %then.4.i.i.i.i.i.i
                                        #   in Loop: Header=BB53_1 Depth=1
	cmpq	$9, %r9
	je	.LBB53_26
# %bb.23:                               # %then.4.i.i.i.i.i.i
                                        #   in Loop: Header=BB53_1 Depth=1
	cmpq	$8, %r9
	jne	.LBB53_25
# %bb.24:                               # %then.1.i.i.i.i.i.i.i
                                        #   in Loop: Header=BB53_1 Depth=1
	movzbl	7(%rdi), %eax
	addb	$-48, %al
	cmpb	$10, %al
	jb	.LBB53_27
	jmp	.LBB53_25
.LBB53_44:                              # %arm.5.i.i.i.i.i
                                        #   in Loop: Header=BB53_1 Depth=1
	movl	$13, %r15d
	movl	$1, %r13d
	cmpb	%al, %r12b
	jae	.LBB53_25
# %bb.45:                               # %arm.5.i.i.i.i.i
                                        #   in Loop: Header=BB53_1 Depth=1
	movzbl	%cl, %edi
	cmpq	%rdi, %r9
	jne	.LBB53_25
	.p2align	4
# %bb.46:                               # %then.1.i.i127.i.i.i.i.i
                                        #   in Loop: Header=BB53_1 Depth=1
	cmpq	%rsi, %r10
	je	.LBB53_50
.LBB53_47:                              # %join.6.i.i.i.i.i.i.i.i
                                        #   Parent Loop BB53_1 Depth=1
                                        # =>  This Inner Loop Header: Depth=2
	movzbl	(%rbx,%rsi), %edi
	addl	$-46, %edi
	cmpl	$41, %edi
	ja	.LBB53_25
# %bb.48:                               # %join.6.i.i.i.i.i.i.i.i
                                        #   in Loop: Header=BB53_47 Depth=2
	btq	%rdi, %rdx
	jae	.LBB53_25
# %bb.49:                               # %after.7.i.i.i.i.i.i.i.i
                                        #   in Loop: Header=BB53_47 Depth=2
	incq	%rsi
	cmpq	%rsi, %r10
	jne	.LBB53_47
	jmp	.LBB53_50
.LBB53_29:                              # %arm.3.i.i.i.i.i
                                        #   in Loop: Header=BB53_1 Depth=1
	movl	$13, %r15d
	movl	$1, %r13d
	cmpq	$6, %r9
	jb	.LBB53_25
# %bb.30:                               # %"lines::begins_with.exit.i52.i.i.i.i.i"
                                        #   in Loop: Header=BB53_1 Depth=1
	movzwl	(%rdi), %ecx
	movd	%ecx, %xmm0
	pinsrw	$1, 4(%rdi), %xmm0
	movd	%xmm0, %ecx
	cmpl	$543713655, %ecx                # imm = 0x20686977
	jne	.LBB53_25
# %bb.31:                               # %"lines::begins_with.exit.i52.i.i.i.i.i"
                                        #   in Loop: Header=BB53_1 Depth=1
	cmpb	$116, 3(%rdi)
	jne	.LBB53_25
# %bb.32:                               # %"lines::begins_with.exit.i52.i.i.i.i.i"
                                        #   in Loop: Header=BB53_1 Depth=1
	cmpb	$100, 2(%rdi)
	jne	.LBB53_25
# %bb.33:                               # %then.4.i83.i.i.i.i.i
                                        #   in Loop: Header=BB53_1 Depth=1
	cmpq	$8, %r9
	je	.LBB53_36
# %bb.34:                               # %then.4.i83.i.i.i.i.i
                                        #   in Loop: Header=BB53_1 Depth=1
	cmpq	$7, %r9
	jne	.LBB53_25
# %bb.35:                               # %then.1.i.i102.i.i.i.i.i
                                        #   in Loop: Header=BB53_1 Depth=1
	movzbl	6(%rdi), %ecx
	addb	$-48, %cl
	cmpb	$10, %cl
	jb	.LBB53_37
	jmp	.LBB53_25
.LBB53_39:                              # %arm.4.i.i.i.i.i
                                        #   in Loop: Header=BB53_1 Depth=1
	movl	$13, %r15d
	movl	$1, %r13d
	cmpq	$3, %r9
	jne	.LBB53_25
# %bb.40:                               # %join.5.i.i.i.preheader.i.i.i.i.i
                                        #   in Loop: Header=BB53_1 Depth=1
	cmpb	$109, (%rdi)
	jne	.LBB53_25
# %bb.41:                               # %join.8.i.i.i.i.i.i.i.i
                                        #   in Loop: Header=BB53_1 Depth=1
	cmpb	$97, 1(%rdi)
	jne	.LBB53_25
# %bb.42:                               # %join.8.i.i.i.1.i.i.i.i.i
                                        #   in Loop: Header=BB53_1 Depth=1
	cmpb	$112, 2(%rdi)
	jne	.LBB53_25
# %bb.43:                               #   in Loop: Header=BB53_1 Depth=1
	movb	$4, %r8b
	xorl	%r12d, %r12d
	jmp	.LBB53_51
.LBB53_36:                              # %then.4.i.i86.i.i.i.i.i
                                        #   in Loop: Header=BB53_1 Depth=1
	movzbl	6(%rdi), %ecx
	addb	$-48, %cl
	cmpb	$10, %cl
	movzbl	%cl, %ecx
	movl	$100, %edx
	cmovael	%edx, %ecx
	movzbl	7(%rdi), %esi
	movzbl	%cl, %ecx
	addb	$-48, %sil
	cmpb	$10, %sil
	movzbl	%sil, %esi
	cmovael	%edx, %esi
	movzbl	%sil, %edx
	addl	%ecx, %ecx
	leal	(%rcx,%rcx,4), %ecx
	addl	%edx, %ecx
	cmpw	$64, %cx
	ja	.LBB53_25
.LBB53_37:                              # %"sides::side_after.exit106.i.i.i.i.i"
                                        #   in Loop: Header=BB53_1 Depth=1
	testb	%cl, %cl
	je	.LBB53_25
# %bb.38:                               #   in Loop: Header=BB53_1 Depth=1
	movb	$3, %r8b
	xorl	%r12d, %r12d
	jmp	.LBB53_51
.LBB53_26:                              # %then.4.i.i.i.i.i.i.i
                                        #   in Loop: Header=BB53_1 Depth=1
	movzbl	7(%rdi), %eax
	addb	$-48, %al
	cmpb	$10, %al
	movzbl	%al, %eax
	movl	$100, %ecx
	cmovael	%ecx, %eax
	movzbl	8(%rdi), %edx
	movzbl	%al, %eax
	addb	$-48, %dl
	cmpb	$10, %dl
	movzbl	%dl, %edx
	cmovael	%ecx, %edx
	movzbl	%dl, %ecx
	addl	%eax, %eax
	leal	(%rax,%rax,4), %eax
	addl	%ecx, %eax
	cmpw	$64, %ax
	ja	.LBB53_25
.LBB53_27:                              # %"sides::side_after.exit.i.i.i.i.i"
                                        #   in Loop: Header=BB53_1 Depth=1
	testb	%al, %al
	je	.LBB53_25
# %bb.28:                               #   in Loop: Header=BB53_1 Depth=1
	movb	$2, %r8b
	xorl	%r12d, %r12d
	xorl	%ecx, %ecx
	jmp	.LBB53_51
.LBB53_52:                              # %"sides::read.exit.i.i.i"
	movl	$13, %r15d
	movl	$1, %r13d
	cmpb	$4, %r8b
	jne	.LBB53_25
# %bb.53:                               # %"sides::read.exit.i.i.i"
	cmpb	%al, %r12b
	movq	8400(%rsp), %rsi
	jne	.LBB53_76
# %bb.54:                               # %arm.1.i.i.i
	movq	%rsi, %r14
	movzbl	%cl, %ecx
	shll	$8, %ecx
	movzbl	%al, %r15d
	orl	%ecx, %r15d
	testq	%rbp, %rbp
	je	.LBB53_63
# %bb.55:                               # %join.6.i.i.i.i.preheader
	xorl	%eax, %eax
	xorl	%ecx, %ecx
	xorl	%esi, %esi
	jmp	.LBB53_56
	.p2align	4
.LBB53_60:                              # %"stores::store::<i16,21'core::clone::U16Clone{}>.exit.i.i.i.i"
                                        #   in Loop: Header=BB53_56 Depth=1
	movzbl	%dil, %edi
	addl	%edi, %eax
	incq	%rcx
.LBB53_61:                              # %after.7.i.i.i.i
                                        #   in Loop: Header=BB53_56 Depth=1
	incq	%rsi
	cmpq	%rsi, %rbp
	je	.LBB53_62
.LBB53_56:                              # %join.6.i.i.i.i
                                        # =>This Inner Loop Header: Depth=1
	movzbl	(%rbx,%rsi), %r9d
	cmpl	$71, %r9d
	sete	%r8b
	subl	$46, %r9d
	sete	%dil
	cmpl	$41, %r9d
	ja	.LBB53_61
# %bb.57:                               # %join.6.i.i.i.i
                                        #   in Loop: Header=BB53_56 Depth=1
	btq	%r9, %rdx
	jae	.LBB53_61
# %bb.58:                               # %then.8.i.i.i.i
                                        #   in Loop: Header=BB53_56 Depth=1
	orb	%r8b, %dil
	cmpq	$4095, %rcx                     # imm = 0xFFF
	ja	.LBB53_60
# %bb.59:                               # %then.1.i.i7.i.i.i
                                        #   in Loop: Header=BB53_56 Depth=1
	leal	1(%rax), %r8d
	xorl	%r9d, %r9d
	testb	%dil, %dil
	cmovnel	%r8d, %r9d
	movw	%r9w, 136(%rsp,%rcx,2)
	jmp	.LBB53_60
.LBB53_25:                              # %"sejjekoru::files::sejjekoru_scenario.exit.loopexit"
	movq	8400(%rsp), %rsi
.LBB53_76:                              # %"sejjekoru::files::sejjekoru_scenario.exit"
	movq	%r13, 32(%rsp)
	movq	%r15, 40(%rsp)
	movq	%r11, 48(%rsp)
	leaq	32(%rsp), %rdi
	callq	"numbers::told"
	addq	$8328, %rsp                     # imm = 0x2088
	.cfi_def_cfa_offset 56
	popq	%rbx
	.cfi_def_cfa_offset 48
	popq	%r12
	.cfi_def_cfa_offset 40
	popq	%r13
	.cfi_def_cfa_offset 32
	popq	%r14
	.cfi_def_cfa_offset 24
	popq	%r15
	.cfi_def_cfa_offset 16
	popq	%rbp
	.cfi_def_cfa_offset 8
	retq
.LBB53_62:                              # %arm.3.loopexit.i.i
	.cfi_def_cfa_offset 8384
	shll	$16, %eax
	orl	%r15d, %eax
	movl	%eax, %r15d
.LBB53_63:                              # %arm.3.i.i
	pxor	%xmm0, %xmm0
	movdqu	%xmm0, 60(%rsp)
	movdqa	%xmm0, 48(%rsp)
	movdqa	%xmm0, 32(%rsp)
	leaq	94(%rsp), %rbx
	movq	%rbx, 8(%rsp)
	movq	$1, 16(%rsp)
	movq	$1, (%rsp)
	leaq	32(%rsp), %rdi
	leaq	136(%rsp), %r8
	leaq	30(%rsp), %r9
	movq	120(%rsp), %rbp                 # 8-byte Reload
	movq	%rbp, %rsi
	movq	128(%rsp), %r12                 # 8-byte Reload
	movq	%r12, %rdx
	movl	%r15d, %ecx
	callq	"scenario::fold"
	movl	$1, %r13d
	testb	$1, 33(%rsp)
	movl	$1, %r11d
	movq	%r14, %rsi
	jne	.LBB53_69
# %bb.64:                               # %join.3.i.i.i4.i.i
	testb	$1, 32(%rsp)
	je	.LBB53_66
# %bb.65:                               # %then.4.i.i.i6.i.i
	movzwl	36(%rsp), %r11d
.LBB53_68:                              # %then.4.i16.i.i.i.i
	addq	$2, %r11
	jmp	.LBB53_69
.LBB53_15:
	movq	8400(%rsp), %rsi
	movq	%r12, %r11
	jmp	.LBB53_76
.LBB53_66:                              # %arm.1.i.i.i.i
	leaq	90(%rsp), %rax
	movq	%rax, 8(%rsp)
	movq	$1, 16(%rsp)
	movq	$1, (%rsp)
	leaq	32(%rsp), %rdi
	leaq	136(%rsp), %r8
	leaq	92(%rsp), %r9
	movq	%rbp, %rsi
	movq	%r12, %rdx
	movl	%r15d, %ecx
	callq	"scenario::fold"
	movq	%r14, %rsi
	movl	$1, %r13d
	testb	$1, 33(%rsp)
	movl	$1, %r11d
	je	.LBB53_67
.LBB53_69:                              # %"scenario::read.exit.thread11.i.i.i"
	movl	$14, %r15d
	jmp	.LBB53_76
.LBB53_67:                              # %join.3.i10.i.i.i.i
	movzwl	36(%rsp), %r11d
	testb	$1, 32(%rsp)
	jne	.LBB53_68
# %bb.70:                               # %arm.1.i5.i.i
	cmpq	%r11, 96(%rsp)                  # 8-byte Folded Reload
	setb	%al
	cmpq	%r11, 8392(%rsp)
	setb	%cl
	orb	%al, %cl
	je	.LBB53_72
# %bb.71:
	movl	$7, %r15d
	jmp	.LBB53_76
.LBB53_72:                              # %join.10.i.i.i
	movl	%r15d, %ecx
	movq	%r11, %r15
	pxor	%xmm0, %xmm0
	movdqu	%xmm0, 60(%rsp)
	movdqa	%xmm0, 48(%rsp)
	movdqa	%xmm0, 32(%rsp)
	movq	%rbx, 8(%rsp)
	movq	$1, 16(%rsp)
	movq	$1, (%rsp)
	leaq	32(%rsp), %rdi
	leaq	136(%rsp), %r8
	leaq	30(%rsp), %r9
	movq	%rbp, %rsi
	movq	%r12, %rdx
	movl	%ecx, %ebx
	callq	"scenario::fold"
	testb	$1, 33(%rsp)
	jne	.LBB53_75
# %bb.73:                               # %join.10.i.i.i
	testb	$1, 32(%rsp)
	jne	.LBB53_75
# %bb.74:                               # %arm.1.i57.i.i.i
	movq	8392(%rsp), %rax
	movq	%rax, 16(%rsp)
	movq	104(%rsp), %rax                 # 8-byte Reload
	movq	%rax, 8(%rsp)
	movq	96(%rsp), %rax                  # 8-byte Reload
	movq	%rax, (%rsp)
	leaq	32(%rsp), %rdi
	leaq	136(%rsp), %r8
	movq	%rbp, %rsi
	movq	%r12, %rdx
	movl	%ebx, %ecx
	movq	112(%rsp), %r9                  # 8-byte Reload
	callq	"scenario::fold"
.LBB53_75:                              # %"scenario::read.exit80.i.i.i"
	xorl	%r13d, %r13d
	xorl	%r11d, %r11d
	movq	%r14, %rsi
	jmp	.LBB53_76
.Lfunc_end53:
	.size	sejjekoru_scenario, .Lfunc_end53-sejjekoru_scenario
	.cfi_endproc
	.section	.rodata.sejjekoru_scenario,"a",@progbits
	.p2align	2, 0x0
.LJTI53_0:
	.long	.LBB53_12-.LJTI53_0
	.long	.LBB53_17-.LJTI53_0
	.long	.LBB53_29-.LJTI53_0
	.long	.LBB53_39-.LJTI53_0
	.long	.LBB53_44-.LJTI53_0
                                        # -- End function
	.section	.text.sejjekoru_shorten,"ax",@progbits
	.globl	sejjekoru_shorten               # -- Begin function sejjekoru_shorten
	.p2align	4
	.type	sejjekoru_shorten,@function
sejjekoru_shorten:                      # @sejjekoru_shorten
	.cfi_startproc
# %bb.0:                                # %start
	pushq	%rbp
	.cfi_def_cfa_offset 16
	pushq	%r15
	.cfi_def_cfa_offset 24
	pushq	%r14
	.cfi_def_cfa_offset 32
	pushq	%r13
	.cfi_def_cfa_offset 40
	pushq	%r12
	.cfi_def_cfa_offset 48
	pushq	%rbx
	.cfi_def_cfa_offset 56
	subq	$88, %rsp
	.cfi_def_cfa_offset 144
	.cfi_offset %rbx, -56
	.cfi_offset %r12, -48
	.cfi_offset %r13, -40
	.cfi_offset %r14, -32
	.cfi_offset %r15, -24
	.cfi_offset %rbp, -16
	movq	%r8, %rbx
	movq	%rcx, %r10
	movq	%rdx, %rcx
	movq	%rdi, %r11
	movq	144(%rsp), %rdi
	movq	160(%rsp), %r14
	movq	176(%rsp), %r15
	movq	192(%rsp), %r12
	movq	184(%rsp), %r13
	movq	168(%rsp), %rbp
	movq	152(%rsp), %rax
	xorl	%edx, %edx
	testq	%rsi, %rsi
	sete	%dl
	shll	$12, %edx
	addq	%rsi, %rdx
	xorl	%r8d, %r8d
	testq	%r10, %r10
	sete	%r8b
	shll	$12, %r8d
	addq	%r10, %r8
	xorl	%esi, %esi
	testq	%r9, %r9
	sete	%sil
	shll	$12, %esi
	addq	%r9, %rsi
	xorl	%r9d, %r9d
	testq	%rax, %rax
	sete	%r9b
	shll	$12, %r9d
	addq	%rax, %r9
	xorl	%eax, %eax
	testq	%rbp, %rbp
	sete	%al
	shll	$12, %eax
	addq	%rbp, %rax
	xorl	%r10d, %r10d
	testq	%r13, %r13
	sete	%r10b
	shll	$12, %r10d
	addq	%r13, %r10
	xorps	%xmm0, %xmm0
	movaps	%xmm0, 64(%rsp)
	movq	$0, 80(%rsp)
	movq	%r12, 56(%rsp)
	movq	%r15, 40(%rsp)
	movq	%r14, 24(%rsp)
	movq	%rdi, 8(%rsp)
	movq	%r10, 48(%rsp)
	movq	%rax, 32(%rsp)
	movq	%r9, 16(%rsp)
	movq	%rsi, (%rsp)
	leaq	64(%rsp), %r14
	movq	%r14, %rdi
	movq	%r11, %rsi
	movq	%rbx, %r9
	callq	"shorten::shorten"
	movq	%r14, %rdi
	movq	200(%rsp), %rsi
	callq	"numbers::told"
	addq	$88, %rsp
	.cfi_def_cfa_offset 56
	popq	%rbx
	.cfi_def_cfa_offset 48
	popq	%r12
	.cfi_def_cfa_offset 40
	popq	%r13
	.cfi_def_cfa_offset 32
	popq	%r14
	.cfi_def_cfa_offset 24
	popq	%r15
	.cfi_def_cfa_offset 16
	popq	%rbp
	.cfi_def_cfa_offset 8
	retq
.Lfunc_end54:
	.size	sejjekoru_shorten, .Lfunc_end54-sejjekoru_shorten
	.cfi_endproc
                                        # -- End function
	.section	.text.sejjekoru_slots,"ax",@progbits
	.globl	sejjekoru_slots                 # -- Begin function sejjekoru_slots
	.p2align	4
	.type	sejjekoru_slots,@function
sejjekoru_slots:                        # @sejjekoru_slots
	.cfi_startproc
# %bb.0:                                # %start
	pushq	%rbp
	.cfi_def_cfa_offset 16
	pushq	%r15
	.cfi_def_cfa_offset 24
	pushq	%r14
	.cfi_def_cfa_offset 32
	pushq	%r13
	.cfi_def_cfa_offset 40
	pushq	%r12
	.cfi_def_cfa_offset 48
	pushq	%rbx
	.cfi_def_cfa_offset 56
	subq	$2104, %rsp                     # imm = 0x838
	.cfi_def_cfa_offset 2160
	.cfi_offset %rbx, -56
	.cfi_offset %r12, -48
	.cfi_offset %r13, -40
	.cfi_offset %r14, -32
	.cfi_offset %r15, -24
	.cfi_offset %rbp, -16
	movq	%r8, %rax
	movq	%rcx, %r10
	movq	%rdx, %rcx
	movq	%rdi, %r11
	movq	2200(%rsp), %rbx
	movq	2176(%rsp), %r14
	movq	2160(%rsp), %rdi
	movq	2184(%rsp), %r15
	movq	2168(%rsp), %r13
	xorl	%edx, %edx
	testq	%rsi, %rsi
	sete	%dl
	shll	$12, %edx
	addq	%rsi, %rdx
	xorl	%r8d, %r8d
	testq	%r10, %r10
	sete	%r8b
	shll	$12, %r8d
	addq	%r10, %r8
	xorl	%esi, %esi
	testq	%r9, %r9
	sete	%sil
	shll	$12, %esi
	addq	%r9, %rsi
	xorl	%r12d, %r12d
	testq	%r13, %r13
	sete	%r12b
	shll	$12, %r12d
	addq	%r13, %r12
	xorl	%r13d, %r13d
	testq	%r15, %r15
	sete	%bpl
	xorps	%xmm0, %xmm0
	movaps	%xmm0, 32(%rsp)
	movq	$0, 48(%rsp)
	movq	%r14, 24(%rsp)
	movq	%rdi, 8(%rsp)
	movq	%r12, 16(%rsp)
	movq	%rsi, (%rsp)
	leaq	32(%rsp), %rdi
	movq	%r11, %rsi
	movq	%rax, %r9
	callq	"checker::check"
	cmpb	$0, 32(%rsp)
	je	.LBB55_1
# %bb.7:                                # %arm.2.i2.i.i
	movl	44(%rsp), %ecx
	movzbl	40(%rsp), %eax
	movzbl	%al, %edx
	leaq	.LJTI55_0(%rip), %rsi
	movslq	(%rsi,%rdx,4), %rdx
	addq	%rsi, %rdx
	jmpq	*%rdx
.LBB55_14:
	xorl	%r14d, %r14d
	jmp	.LBB55_15
.LBB55_1:                               # %arm.1.i.i.i
	cmpq	%r14, 2192(%rsp)
	jae	.LBB55_3
# %bb.2:                                # %arm.2.i2.thread.i.i
	movb	$7, %al
	jmp	.LBB55_15
.LBB55_8:
	movq	48(%rsp), %r14
.LBB55_15:                              # %"docket::carried.exit.i.i.i.i"
	movq	%r14, (%rbx)
	movzbl	%al, %eax
	leaq	.Lswitch.table.sejjekoru_slots(%rip), %rcx
	movq	(%rcx,%rax,8), %rax
	jmp	.LBB55_16
.LBB55_3:                               # %join.7.i.i.i
	leaq	1080(%rsp), %rdi
	movl	$1024, %edx                     # imm = 0x400
	xorl	%esi, %esi
	callq	memset@PLT
	leaq	56(%rsp), %rdi
	movl	$1024, %edx                     # imm = 0x400
	xorl	%esi, %esi
	callq	memset@PLT
	testq	%r14, %r14
	je	.LBB55_6
# %bb.4:                                # %join.9.i.i.i.i.preheader
	movb	%bpl, %r13b
	shll	$12, %r13d
	addq	%r13, %r15
	xorl	%eax, %eax
	.p2align	4
.LBB55_5:                               # %join.9.i.i.i.i
                                        # =>This Inner Loop Header: Depth=1
	movq	(%r12,%rax,8), %rcx
	movl	%ecx, %edx
	movzwl	%cx, %esi
	shrq	$32, %rcx
	movl	1080(%rsp,%rcx,4), %edi
	shrl	$16, %edx
	movl	56(%rsp,%rdx,4), %r8d
	movl	56(%rsp,%rsi,4), %r9d
	cmpl	%r8d, %r9d
	cmoval	%r9d, %r8d
	cmpl	%edi, %r8d
	cmovbel	%edi, %r8d
	incl	%r8d
	movl	%r8d, 1080(%rsp,%rcx,4)
	movl	%r8d, 56(%rsp,%rdx,4)
	movl	%r8d, 56(%rsp,%rsi,4)
	movl	%r8d, (%r15,%rax,4)
	incq	%rax
	cmpq	%rax, %r14
	jne	.LBB55_5
.LBB55_6:                               # %arm.1.i3.i.i
	movq	%r14, (%rbx)
	xorl	%eax, %eax
.LBB55_16:                              # %"sejjekoru::sejjekoru_slots.exit"
	addq	$2104, %rsp                     # imm = 0x838
	.cfi_def_cfa_offset 56
	popq	%rbx
	.cfi_def_cfa_offset 48
	popq	%r12
	.cfi_def_cfa_offset 40
	popq	%r13
	.cfi_def_cfa_offset 32
	popq	%r14
	.cfi_def_cfa_offset 24
	popq	%r15
	.cfi_def_cfa_offset 16
	popq	%rbp
	.cfi_def_cfa_offset 8
	retq
.LBB55_11:                              # %"docket::carried.exit.thread13.i.i.i.i"
	.cfi_def_cfa_offset 2160
	movq	%rcx, (%rbx)
	movl	$6, %eax
	jmp	.LBB55_16
.LBB55_12:                              # %"docket::carried.exit.thread15.i.i.i.i"
	movq	%rcx, (%rbx)
	movl	$7, %eax
	jmp	.LBB55_16
.LBB55_9:                               # %"docket::carried.exit.thread.i.i.i.i"
	movzwl	42(%rsp), %eax
	movq	%rax, (%rbx)
	movl	$3, %eax
	jmp	.LBB55_16
.LBB55_13:                              # %"docket::carried.exit.thread17.i.i.i.i"
	movq	%rcx, (%rbx)
	movl	$10, %eax
	jmp	.LBB55_16
.LBB55_10:                              # %"docket::carried.exit.thread11.i.i.i.i"
	movq	%rcx, (%rbx)
	movl	$5, %eax
	jmp	.LBB55_16
.Lfunc_end55:
	.size	sejjekoru_slots, .Lfunc_end55-sejjekoru_slots
	.cfi_endproc
	.section	.rodata.sejjekoru_slots,"a",@progbits
	.p2align	2, 0x0
.LJTI55_0:
	.long	.LBB55_14-.LJTI55_0
	.long	.LBB55_8-.LJTI55_0
	.long	.LBB55_9-.LJTI55_0
	.long	.LBB55_14-.LJTI55_0
	.long	.LBB55_10-.LJTI55_0
	.long	.LBB55_11-.LJTI55_0
	.long	.LBB55_12-.LJTI55_0
	.long	.LBB55_8-.LJTI55_0
	.long	.LBB55_8-.LJTI55_0
	.long	.LBB55_13-.LJTI55_0
	.long	.LBB55_14-.LJTI55_0
	.long	.LBB55_14-.LJTI55_0
	.long	.LBB55_8-.LJTI55_0
	.long	.LBB55_8-.LJTI55_0
	.long	.LBB55_8-.LJTI55_0
	.long	.LBB55_8-.LJTI55_0
	.long	.LBB55_14-.LJTI55_0
	.long	.LBB55_14-.LJTI55_0
	.long	.LBB55_14-.LJTI55_0
	.long	.LBB55_14-.LJTI55_0
	.long	.LBB55_14-.LJTI55_0
	.long	.LBB55_8-.LJTI55_0
	.long	.LBB55_8-.LJTI55_0
                                        # -- End function
	.section	.text.sejjekoru_slots_of,"ax",@progbits
	.globl	sejjekoru_slots_of              # -- Begin function sejjekoru_slots_of
	.p2align	4
	.type	sejjekoru_slots_of,@function
sejjekoru_slots_of:                     # @sejjekoru_slots_of
	.cfi_startproc
# %bb.0:                                # %start
	pushq	%rbp
	.cfi_def_cfa_offset 16
	pushq	%r15
	.cfi_def_cfa_offset 24
	pushq	%r14
	.cfi_def_cfa_offset 32
	pushq	%r13
	.cfi_def_cfa_offset 40
	pushq	%r12
	.cfi_def_cfa_offset 48
	pushq	%rbx
	.cfi_def_cfa_offset 56
	subq	$2136, %rsp                     # imm = 0x858
	.cfi_def_cfa_offset 2192
	.cfi_offset %rbx, -56
	.cfi_offset %r12, -48
	.cfi_offset %r13, -40
	.cfi_offset %r14, -32
	.cfi_offset %r15, -24
	.cfi_offset %rbp, -16
	movq	2240(%rsp), %rbx
	movq	2224(%rsp), %r14
	movq	2208(%rsp), %r15
	xorl	%eax, %eax
	testq	%r15, %r15
	sete	%r10b
	xorl	%r13d, %r13d
	testq	%r14, %r14
	sete	%bpl
	xorps	%xmm0, %xmm0
	movaps	%xmm0, 32(%rsp)
	movq	$0, 48(%rsp)
	movaps	%xmm0, 64(%rsp)
	movq	$0, 80(%rsp)
	leaq	-1(%rdi), %r11
	cmpq	$2, %r11
	jae	.LBB56_1
# %bb.2:                                # %join.3.i.i
	movq	%rdi, %rbx
	movq	2216(%rsp), %r12
	movq	2200(%rsp), %rdi
	movq	2192(%rsp), %r11
	movb	%r10b, %al
	shll	$12, %eax
	addq	%rax, %r15
	xorl	%r10d, %r10d
	testq	%r11, %r11
	sete	%r10b
	shll	$12, %r10d
	addq	%r11, %r10
	xorl	%eax, %eax
	testq	%r8, %r8
	sete	%al
	shll	$12, %eax
	addq	%r8, %rax
	xorl	%r8d, %r8d
	testq	%rdx, %rdx
	sete	%r8b
	shll	$12, %r8d
	addq	%rdx, %r8
	movq	%r12, 24(%rsp)
	movq	%r15, 16(%rsp)
	movq	%rdi, 8(%rsp)
	movq	%r10, (%rsp)
	leaq	64(%rsp), %rdi
	movq	%r8, %rdx
	movq	%rax, %r8
	callq	"checker::check"
	cmpb	$0, 64(%rsp)
	je	.LBB56_3
# %bb.15:                               # %arm.5.i.i
	movq	80(%rsp), %rax
	movzbl	72(%rsp), %ecx
	movq	$1, 32(%rsp)
	movl	76(%rsp), %edx
	shlq	$32, %rdx
	movzwl	74(%rsp), %esi
	shll	$16, %esi
	orq	%rdx, %rsi
	orq	%rcx, %rsi
	movq	%rsi, 40(%rsp)
	movq	%rax, 48(%rsp)
	movq	2240(%rsp), %rbx
	jmp	.LBB56_14
.LBB56_1:                               # %then.1.i.i
	movq	$1, 32(%rsp)
	movq	$19, 40(%rsp)
.LBB56_13:                              # %"sejjekoru::by_edition::sejjekoru_slots_of.exit"
	movq	$0, 48(%rsp)
.LBB56_14:                              # %"sejjekoru::by_edition::sejjekoru_slots_of.exit"
	leaq	32(%rsp), %rdi
	movq	%rbx, %rsi
	callq	"numbers::told"
	addq	$2136, %rsp                     # imm = 0x858
	.cfi_def_cfa_offset 56
	popq	%rbx
	.cfi_def_cfa_offset 48
	popq	%r12
	.cfi_def_cfa_offset 40
	popq	%r13
	.cfi_def_cfa_offset 32
	popq	%r14
	.cfi_def_cfa_offset 24
	popq	%r15
	.cfi_def_cfa_offset 16
	popq	%rbp
	.cfi_def_cfa_offset 8
	retq
.LBB56_3:                               # %arm.4.i.i
	.cfi_def_cfa_offset 2192
	cmpq	%r12, 2232(%rsp)
	jae	.LBB56_5
# %bb.4:                                # %then.8.i.i
	movq	$1, 32(%rsp)
	movq	$7, 40(%rsp)
	movq	%r12, 48(%rsp)
	movq	2240(%rsp), %rbx
	jmp	.LBB56_14
.LBB56_5:                               # %join.10.i.i
	movb	%bpl, %r13b
	shll	$12, %r13d
	addq	%r13, %r14
	leaq	1112(%rsp), %rdi
	movl	$1024, %edx                     # imm = 0x400
	xorl	%esi, %esi
	cmpq	$2, %rbx
	jne	.LBB56_9
# %bb.6:                                # %then.1.i.i.i
	callq	memset@PLT
	leaq	88(%rsp), %rdi
	movl	$1024, %edx                     # imm = 0x400
	xorl	%esi, %esi
	callq	memset@PLT
	testq	%r12, %r12
	je	.LBB56_12
# %bb.7:                                # %join.9.i.i.i.i.preheader
	movabsq	$17179869180, %rax              # imm = 0x3FFFFFFFC
	xorl	%ecx, %ecx
	.p2align	4
.LBB56_8:                               # %join.9.i.i.i.i
                                        # =>This Inner Loop Header: Depth=1
	movq	(%r15,%rcx,8), %rdx
	movq	%rdx, %rsi
	shrq	$30, %rsi
	andq	%rax, %rsi
	movl	1112(%rsp,%rsi), %edi
	incl	%edi
	movzwl	%dx, %r8d
	movl	88(%rsp,%r8,4), %r8d
	cmpl	%edi, %r8d
	cmoval	%r8d, %edi
	movl	%edi, 1112(%rsp,%rsi)
	shrl	$16, %edx
	movl	%edi, 88(%rsp,%rdx,4)
	movl	%edi, (%r14,%rcx,4)
	incq	%rcx
	cmpq	%rcx, %r12
	jne	.LBB56_8
	jmp	.LBB56_12
.LBB56_9:                               # %join.3.i.i.i
	callq	memset@PLT
	leaq	88(%rsp), %rdi
	movl	$1024, %edx                     # imm = 0x400
	xorl	%esi, %esi
	callq	memset@PLT
	testq	%r12, %r12
	je	.LBB56_12
# %bb.10:                               # %join.9.i6.i.i.i.preheader
	movabsq	$17179869180, %rax              # imm = 0x3FFFFFFFC
	xorl	%ecx, %ecx
	.p2align	4
.LBB56_11:                              # %join.9.i6.i.i.i
                                        # =>This Inner Loop Header: Depth=1
	movq	(%r15,%rcx,8), %rdx
	movl	%edx, %esi
	movzwl	%dx, %edi
	shrq	$30, %rdx
	andq	%rax, %rdx
	movl	1112(%rsp,%rdx), %r8d
	shrl	$16, %esi
	movl	88(%rsp,%rsi,4), %r9d
	movl	88(%rsp,%rdi,4), %r10d
	cmpl	%r9d, %r10d
	cmoval	%r10d, %r9d
	cmpl	%r8d, %r9d
	cmovbel	%r8d, %r9d
	incl	%r9d
	movl	%r9d, 1112(%rsp,%rdx)
	movl	%r9d, 88(%rsp,%rsi,4)
	movl	%r9d, 88(%rsp,%rdi,4)
	movl	%r9d, (%r14,%rcx,4)
	incq	%rcx
	cmpq	%rcx, %r12
	jne	.LBB56_11
.LBB56_12:                              # %"slots::slot_pass.exit.i.i.i"
	movq	2240(%rsp), %rbx
	movq	$0, 32(%rsp)
	movq	%r12, 40(%rsp)
	jmp	.LBB56_13
.Lfunc_end56:
	.size	sejjekoru_slots_of, .Lfunc_end56-sejjekoru_slots_of
	.cfi_endproc
                                        # -- End function
	.section	.text.sejjekoru_write_survey,"ax",@progbits
	.globl	sejjekoru_write_survey          # -- Begin function sejjekoru_write_survey
	.p2align	4
	.type	sejjekoru_write_survey,@function
sejjekoru_write_survey:                 # @sejjekoru_write_survey
	.cfi_startproc
# %bb.0:                                # %start
	pushq	%rbp
	.cfi_def_cfa_offset 16
	pushq	%r15
	.cfi_def_cfa_offset 24
	pushq	%r14
	.cfi_def_cfa_offset 32
	pushq	%r13
	.cfi_def_cfa_offset 40
	pushq	%r12
	.cfi_def_cfa_offset 48
	pushq	%rbx
	.cfi_def_cfa_offset 56
	subq	$3072, %rsp                     # imm = 0xC00
	.cfi_adjust_cfa_offset 3072
	movq	$0, (%rsp)
	subq	$3072, %rsp                     # imm = 0xC00
	.cfi_adjust_cfa_offset 3072
	movq	$0, (%rsp)
	subq	$2152, %rsp                     # imm = 0x868
	.cfi_def_cfa_offset 8352
	.cfi_offset %rbx, -56
	.cfi_offset %r12, -48
	.cfi_offset %r13, -40
	.cfi_offset %r14, -32
	.cfi_offset %r15, -24
	.cfi_offset %rbp, -16
	movq	%r9, %r12
	movq	%r8, 96(%rsp)                   # 8-byte Spill
	movq	%rdx, %rbp
	xorl	%r14d, %r14d
	movq	%rsi, 48(%rsp)                  # 8-byte Spill
	testq	%rsi, %rsi
	sete	%bl
	movq	%rcx, 88(%rsp)                  # 8-byte Spill
	testq	%rcx, %rcx
	sete	15(%rsp)                        # 1-byte Folded Spill
	pxor	%xmm0, %xmm0
	movdqa	%xmm0, 16(%rsp)
	movq	$0, 32(%rsp)
	movq	%rdi, 80(%rsp)                  # 8-byte Spill
	leaq	-257(%rdi), %rax
	cmpq	$-255, %rax
	setb	%al
	cmpq	$2050, %rdx                     # imm = 0x802
	setae	%cl
	movl	%ebp, %r15d
	orb	%cl, %r15b
	orb	%al, %r15b
	leaq	104(%rsp), %rdi
	xorl	%r13d, %r13d
	movl	$8192, %edx                     # imm = 0x2000
	xorl	%esi, %esi
	callq	memset@PLT
	testb	$1, %r15b
	jne	.LBB57_37
# %bb.1:                                # %join.3.i.i.i.i.i
	movb	%bl, %r14b
	shll	$12, %r14d
	movq	%rbp, %rbx
	shrq	%rbx
	testq	%rbp, %rbp
	movq	%r14, %r10
	movq	80(%rsp), %r14                  # 8-byte Reload
	je	.LBB57_8
# %bb.2:                                # %join.5.i.i.i.i.i.i.preheader
	movq	48(%rsp), %rax                  # 8-byte Reload
	leaq	(%r10,%rax), %rsi
	addq	$2, %rsi
	xorl	%edx, %edx
	.p2align	4
.LBB57_3:                               # %join.5.i.i.i.i.i.i
                                        # =>This Inner Loop Header: Depth=1
	movzwl	-2(%rsi,%rdx,4), %eax
	movzwl	(%rsi,%rdx,4), %ecx
	movl	$1, %r13d
	cmpw	%cx, %ax
	je	.LBB57_38
# %bb.4:                                # %join.5.i.i.i.i.i.i
                                        #   in Loop: Header=BB57_3 Depth=1
	cmpq	%rax, %r14
	jbe	.LBB57_38
# %bb.5:                                # %join.5.i.i.i.i.i.i
                                        #   in Loop: Header=BB57_3 Depth=1
	cmpq	%rcx, %r14
	jbe	.LBB57_38
# %bb.6:                                # %"first_bad::is_bad.exit.i.i.i.i.i.i"
                                        #   in Loop: Header=BB57_3 Depth=1
	movl	%eax, %edi
	shll	$8, %edi
	addl	%ecx, %edi
	shrl	$6, %edi
	movq	104(%rsp,%rdi,8), %r8
	movl	$1, %r9d
	shlq	%cl, %r9
	btq	%rcx, %r8
	jb	.LBB57_38
# %bb.7:                                # %join.8.i.i.i.i.i.i
                                        #   in Loop: Header=BB57_3 Depth=1
	shlq	$3, %rdi
	orq	%r9, %r8
	movq	%r8, 104(%rsp,%rdi)
	shll	$8, %ecx
	leal	(%rax,%rcx), %edi
	movl	$1, %r8d
	movl	%eax, %ecx
	shlq	%cl, %r8
	shrl	$6, %edi
	orq	%r8, 104(%rsp,%rdi,8)
	incq	%rdx
	cmpq	%rdx, %rbx
	jne	.LBB57_3
.LBB57_8:                               # %join.7.i.i.i.i.i
	cmpq	$64, %r14
	movq	%r10, 64(%rsp)                  # 8-byte Spill
	movq	%rbp, 72(%rsp)                  # 8-byte Spill
	movl	$1, %esi
	ja	.LBB57_15
# %bb.9:                                # %join.5.i.preheader.i.i.i.i.i.i.i.i.preheader
	xorl	%eax, %eax
	movl	$1, %ecx
	.p2align	4
.LBB57_10:                              # %join.5.i.preheader.i.i.i.i.i.i.i.i
                                        # =>This Loop Header: Depth=1
                                        #     Child Loop BB57_11 Depth 2
	xorl	%edx, %edx
	.p2align	4
.LBB57_11:                              # %join.5.i.i.i.i.i.i.i.i.i
                                        #   Parent Loop BB57_10 Depth=1
                                        # =>  This Inner Loop Header: Depth=2
	movq	%rsi, %rdi
	rep		bsfq	%rsi, %rsi
	shll	$5, %esi
	orq	104(%rsp,%rsi), %rdx
	leaq	-1(%rdi), %rsi
	andq	%rdi, %rsi
	jne	.LBB57_11
# %bb.12:                               # %"apart::beside_word.exit.i.i.i.i.i.i.i.i"
                                        #   in Loop: Header=BB57_10 Depth=1
	movq	%rdx, %rdi
	orq	%rcx, %rdi
	incq	%rax
	cmpq	%r14, %rax
	jae	.LBB57_14
# %bb.13:                               # %"apart::beside_word.exit.i.i.i.i.i.i.i.i"
                                        #   in Loop: Header=BB57_10 Depth=1
	notq	%rcx
	andq	%rcx, %rdx
	movq	%rdx, %rsi
	movq	%rdi, %rcx
	jne	.LBB57_10
.LBB57_14:                              # %"apart::narrow_apart.exit.i.i.i.i.i.i"
	notq	%rdi
	movl	$64, %r13d
	rep		bsfq	%rdi, %r13
	cmpq	%r14, %r13
	jb	.LBB57_36
	jmp	.LBB57_39
.LBB57_15:                              # %repeat.5.preheader.i.i.i.i.i.i
	xorl	%eax, %eax
	xorl	%edx, %edx
	xorl	%ecx, %ecx
	xorl	%r10d, %r10d
	xorl	%r9d, %r9d
	xorl	%r8d, %r8d
	xorl	%edi, %edi
	movl	$1, %r11d
	jmp	.LBB57_16
	.p2align	4
.LBB57_27:                              # %"words::beside.exit.i.i.i.i.i.i.i"
                                        #   in Loop: Header=BB57_16 Depth=1
	movq	%rsi, %r11
	notq	%r11
	movq	%xmm0, %r8
	andq	%r8, %r11
	orq	%r8, %rsi
	movq	%rcx, %r10
	notq	%r10
	pshufd	$238, %xmm0, %xmm0              # xmm0 = xmm0[2,3,2,3]
	movq	%xmm0, %r8
	andq	%r8, %r10
	orq	%r8, %rcx
	movq	%rdx, %r9
	notq	%r9
	movq	%xmm1, %r8
	andq	%r8, %r9
	orq	%r8, %rdx
	movq	%rax, %r8
	notq	%r8
	pshufd	$238, %xmm1, %xmm0              # xmm0 = xmm1[2,3,2,3]
	movq	%xmm0, %r15
	andq	%r15, %r8
	orq	%r15, %rax
	incq	%rdi
	cmpq	%r14, %rdi
	je	.LBB57_28
.LBB57_16:                              # %join.7.i.i.i.i.i.i.i
                                        # =>This Loop Header: Depth=1
                                        #     Child Loop BB57_17 Depth 2
                                        #     Child Loop BB57_19 Depth 2
                                        #     Child Loop BB57_21 Depth 2
                                        #     Child Loop BB57_26 Depth 2
	pxor	%xmm0, %xmm0
	pxor	%xmm1, %xmm1
	testq	%r11, %r11
	je	.LBB57_23
	.p2align	4
.LBB57_17:                              # %join.5.i.i.i5.i.i.i.i.i.i
                                        #   Parent Loop BB57_16 Depth=1
                                        # =>  This Inner Loop Header: Depth=2
	movq	%r11, %r15
	rep		bsfq	%r11, %r11
	shll	$5, %r11d
	movdqu	104(%rsp,%r11), %xmm2
	por	%xmm2, %xmm0
	movdqu	120(%rsp,%r11), %xmm2
	por	%xmm2, %xmm1
	leaq	-1(%r15), %r11
	andq	%r15, %r11
	jne	.LBB57_17
# %bb.18:                               # %"words::join_word.exit.i.i.i.i.i.i.i.i"
                                        #   in Loop: Header=BB57_16 Depth=1
	testq	%r10, %r10
	jne	.LBB57_19
	jmp	.LBB57_20
	.p2align	4
.LBB57_23:                              # %join.5.i.preheader.i.i.i.i.i.i.i
                                        #   in Loop: Header=BB57_16 Depth=1
	testq	%r10, %r10
	je	.LBB57_24
	.p2align	4
.LBB57_19:                              # %join.5.i.1.i.i.i.i.i.i.i.i
                                        #   Parent Loop BB57_16 Depth=1
                                        # =>  This Inner Loop Header: Depth=2
	movq	%r10, %r11
	rep		bsfq	%r10, %r10
	shll	$5, %r10d
	movdqu	2152(%rsp,%r10), %xmm2
	por	%xmm2, %xmm0
	movdqu	2168(%rsp,%r10), %xmm2
	por	%xmm2, %xmm1
	leaq	-1(%r11), %r10
	andq	%r11, %r10
	jne	.LBB57_19
.LBB57_20:                              # %"words::join_word.exit.1.i.i.i.i.i.i.i.i"
                                        #   in Loop: Header=BB57_16 Depth=1
	testq	%r9, %r9
	je	.LBB57_22
	.p2align	4
.LBB57_21:                              # %join.5.i.2.i.i.i.i.i.i.i.i
                                        #   Parent Loop BB57_16 Depth=1
                                        # =>  This Inner Loop Header: Depth=2
	movq	%r9, %r10
	rep		bsfq	%r9, %r9
	shll	$5, %r9d
	movdqu	4200(%rsp,%r9), %xmm2
	por	%xmm2, %xmm0
	movdqu	4216(%rsp,%r9), %xmm2
	por	%xmm2, %xmm1
	leaq	-1(%r10), %r9
	andq	%r10, %r9
	jne	.LBB57_21
.LBB57_22:                              # %"words::join_word.exit.2.i.i.i.i.i.i.i.i"
                                        #   in Loop: Header=BB57_16 Depth=1
	testq	%r8, %r8
	je	.LBB57_27
	.p2align	4
.LBB57_26:                              # %join.5.i.3.i.i.i.i.i.i.i.i
                                        #   Parent Loop BB57_16 Depth=1
                                        # =>  This Inner Loop Header: Depth=2
	movq	%r8, %r9
	rep		bsfq	%r8, %r8
	shll	$5, %r8d
	movdqu	6248(%rsp,%r8), %xmm2
	por	%xmm2, %xmm0
	movdqu	6264(%rsp,%r8), %xmm2
	por	%xmm2, %xmm1
	leaq	-1(%r9), %r8
	andq	%r9, %r8
	jne	.LBB57_26
	jmp	.LBB57_27
.LBB57_24:                              # %join.8.i.i.i.i.i.i.i.i
                                        #   in Loop: Header=BB57_16 Depth=1
	testq	%r9, %r9
	jne	.LBB57_21
# %bb.25:                               # %join.8.i.1.i.i.i.i.i.i.i
                                        #   in Loop: Header=BB57_16 Depth=1
	testq	%r8, %r8
	jne	.LBB57_26
.LBB57_28:                              # %"apart::reach.exit.i.i.i.i.i.i"
	cmpq	$-1, %rsi
	je	.LBB57_30
# %bb.29:
	xorl	%edi, %edi
	movq	%rsi, %rcx
	jmp	.LBB57_31
.LBB57_30:                              # %join.5.i.preheader.i.i.i.i.i.i
	movl	$64, %edi
	cmpq	$-1, %rcx
	jne	.LBB57_31
# %bb.32:                               # %join.8.i.i.i.i.i.i.i
	movl	$128, %edi
	movq	%rdx, %rcx
	cmpq	$-1, %rdx
	jne	.LBB57_31
# %bb.33:                               # %join.8.i.1.i.i.i.i.i.i
	movl	$192, %edi
	movq	%rax, %rcx
	cmpq	$-1, %rax
	je	.LBB57_34
.LBB57_31:                              # %then.6.i.i.i.i.i.i.i
	notq	%rcx
	rep		bsfq	%rcx, %r13
	orq	%rdi, %r13
	cmpq	%r14, %r13
	jae	.LBB57_39
.LBB57_36:                              # %arm.8.i.i.i.i.i
	shll	$16, %r13d
	orq	$2, %r13
.LBB57_37:                              # %arm.2.i.i
	xorl	%edx, %edx
.LBB57_38:                              # %arm.2.i.i
	movq	$1, 16(%rsp)
	movq	%r13, 24(%rsp)
	movq	%rdx, 32(%rsp)
.LBB57_69:                              # %"sejjekoru::surveys::sejjekoru_write_survey.exit"
	leaq	16(%rsp), %rdi
	movq	%r12, %rsi
	callq	"numbers::told"
	addq	$8296, %rsp                     # imm = 0x2068
	.cfi_def_cfa_offset 56
	popq	%rbx
	.cfi_def_cfa_offset 48
	popq	%r12
	.cfi_def_cfa_offset 40
	popq	%r13
	.cfi_def_cfa_offset 32
	popq	%r14
	.cfi_def_cfa_offset 24
	popq	%r15
	.cfi_def_cfa_offset 16
	popq	%rbp
	.cfi_def_cfa_offset 8
	retq
.LBB57_34:
	.cfi_def_cfa_offset 8352
	movl	$256, %r13d                     # imm = 0x100
	cmpq	%r14, %r13
	jb	.LBB57_36
.LBB57_39:                              # %arm.1.i.i
	movq	%r12, 56(%rsp)                  # 8-byte Spill
	leaq	104(%rsp), %r13
	movl	$1, %esi
	movl	$7, %edx
	movq	%r13, %rdi
	movq	%r14, %rcx
	callq	"put_bytes::put_number"
	leaq	1(%rax), %rdx
	movl	$1, %esi
	movq	%r13, %rdi
	movq	%rbx, %rcx
	callq	"put_bytes::put_number"
	incq	%rax
	cmpq	$0, 72(%rsp)                    # 8-byte Folded Reload
	je	.LBB57_42
# %bb.40:                               # %join.5.i.i.i.i.preheader
	movq	48(%rsp), %rcx                  # 8-byte Reload
	movq	64(%rsp), %rdx                  # 8-byte Reload
	leaq	(%rdx,%rcx), %r15
	addq	$2, %r15
	xorl	%r12d, %r12d
	.p2align	4
.LBB57_41:                              # %join.5.i.i.i.i
                                        # =>This Inner Loop Header: Depth=1
	movzwl	-2(%r15,%r12,4), %ecx
	movzwl	(%r15,%r12,4), %r13d
	incq	%rcx
	addq	$2, %rax
	leaq	104(%rsp), %r14
	movl	$1, %esi
	movq	%r14, %rdi
	movq	%rax, %rdx
	callq	"put_bytes::put_number"
	incq	%r13
	leaq	1(%rax), %rdx
	movl	$1, %esi
	movq	%r14, %rdi
	movq	%r13, %rcx
	callq	"put_bytes::put_number"
	incq	%rax
	incq	%r12
	cmpq	%r12, %rbx
	jne	.LBB57_41
.LBB57_42:                              # %"survey_lines::write.exit.i.i"
	movq	96(%rsp), %r14                  # 8-byte Reload
	cmpq	%rax, %r14
	jae	.LBB57_44
# %bb.43:                               # %then.5.i.i
	movq	$1, 16(%rsp)
	movq	$7, 24(%rsp)
	movq	%rax, 32(%rsp)
	jmp	.LBB57_68
.LBB57_44:                              # %join.7.i.i
	xorl	%eax, %eax
	movzbl	15(%rsp), %ecx                  # 1-byte Folded Reload
	movb	%cl, %al
	shll	$12, %eax
	movq	88(%rsp), %r15                  # 8-byte Reload
	addq	%rax, %r15
	testq	%r14, %r14
	je	.LBB57_52
# %bb.45:                               # %"stores::store::<i8,20'core::clone::U8Clone{}>.exit.i.i.i.i.i.i"
	movb	$112, (%r15)
	cmpq	$1, %r14
	je	.LBB57_52
# %bb.46:                               # %"stores::store::<i8,20'core::clone::U8Clone{}>.exit.i.i.1.i.i.i.i"
	movb	$32, 1(%r15)
	cmpq	$3, %r14
	jb	.LBB57_52
# %bb.47:                               # %"stores::store::<i8,20'core::clone::U8Clone{}>.exit.i.i.2.i.i.i.i"
	movb	$101, 2(%r15)
	je	.LBB57_52
# %bb.48:                               # %"stores::store::<i8,20'core::clone::U8Clone{}>.exit.i.i.3.i.i.i.i"
	movb	$100, 3(%r15)
	cmpq	$5, %r14
	jb	.LBB57_52
# %bb.49:                               # %"stores::store::<i8,20'core::clone::U8Clone{}>.exit.i.i.4.i.i.i.i"
	movb	$103, 4(%r15)
	je	.LBB57_52
# %bb.50:                               # %"stores::store::<i8,20'core::clone::U8Clone{}>.exit.i.i.5.i.i.i.i"
	movb	$101, 5(%r15)
	cmpq	$7, %r14
	jb	.LBB57_52
# %bb.51:                               # %then.1.i.i.i.6.i.i.i.i
	movb	$32, 6(%r15)
.LBB57_52:                              # %"stores::store::<i8,20'core::clone::U8Clone{}>.exit.i.i.6.i.i.i.i"
	movl	$7, %edx
	movq	%r15, %rdi
	movq	%r14, %rsi
	movq	80(%rsp), %rcx                  # 8-byte Reload
	callq	"put_bytes::put_number"
	cmpq	%r14, %rax
	jae	.LBB57_54
# %bb.53:                               # %then.1.i.i.i10.i.i60.i.i
	movb	$32, (%r15,%rax)
.LBB57_54:                              # %"stores::store::<i8,20'core::clone::U8Clone{}>.exit.i.i6.i.i14.i.i"
	incq	%rax
	movq	%r15, %rdi
	movq	%r14, %rsi
	movq	%rax, %rdx
	movq	%rbx, %rcx
	callq	"put_bytes::put_number"
	cmpq	%r14, %rax
	jae	.LBB57_56
# %bb.55:                               # %then.1.i.i.i.i58.i.i
	movb	$10, (%r15,%rax)
.LBB57_56:                              # %"survey_lines::head.exit.i18.i.i"
	incq	%rax
	cmpq	$0, 72(%rsp)                    # 8-byte Folded Reload
	movq	64(%rsp), %rdx                  # 8-byte Reload
	je	.LBB57_67
# %bb.57:                               # %join.5.i.i21.i.i.preheader
	movq	%rbx, %r12
	movq	48(%rsp), %rcx                  # 8-byte Reload
	leaq	(%rdx,%rcx), %r13
	addq	$2, %r13
	xorl	%ebp, %ebp
	jmp	.LBB57_58
	.p2align	4
.LBB57_66:                              # %"survey_lines::rail.exit.i.i45.i.i"
                                        #   in Loop: Header=BB57_58 Depth=1
	incq	%rax
	incq	%rbp
	cmpq	%rbp, %r12
	je	.LBB57_67
.LBB57_58:                              # %join.5.i.i21.i.i
                                        # =>This Inner Loop Header: Depth=1
	movzwl	-2(%r13,%rbp,4), %ecx
	movzwl	(%r13,%rbp,4), %ebx
	cmpq	%r14, %rax
	jae	.LBB57_60
# %bb.59:                               # %then.1.i.i.i.i.i.i56.i.i
                                        #   in Loop: Header=BB57_58 Depth=1
	movb	$101, (%r15,%rax)
.LBB57_60:                              # %"stores::store::<i8,20'core::clone::U8Clone{}>.exit.i.i.i.i.i30.i.i"
                                        #   in Loop: Header=BB57_58 Depth=1
	leaq	1(%rax), %rdx
	cmpq	%r14, %rdx
	jae	.LBB57_62
# %bb.61:                               # %then.1.i.i.i.1.i.i.i54.i.i
                                        #   in Loop: Header=BB57_58 Depth=1
	movb	$32, (%r15,%rdx)
.LBB57_62:                              # %"stores::store::<i8,20'core::clone::U8Clone{}>.exit.i.i.1.i.i.i33.i.i"
                                        #   in Loop: Header=BB57_58 Depth=1
	incq	%rcx
	addq	$2, %rax
	movq	%r15, %rdi
	movq	%r14, %rsi
	movq	%rax, %rdx
	callq	"put_bytes::put_number"
	cmpq	%r14, %rax
	jae	.LBB57_64
# %bb.63:                               # %then.1.i.i.i14.i.i.i52.i.i
                                        #   in Loop: Header=BB57_58 Depth=1
	movb	$32, (%r15,%rax)
.LBB57_64:                              # %"stores::store::<i8,20'core::clone::U8Clone{}>.exit.i.i9.i.i.i39.i.i"
                                        #   in Loop: Header=BB57_58 Depth=1
	incq	%rbx
	incq	%rax
	movq	%r15, %rdi
	movq	%r14, %rsi
	movq	%rax, %rdx
	movq	%rbx, %rcx
	callq	"put_bytes::put_number"
	cmpq	%r14, %rax
	jae	.LBB57_66
# %bb.65:                               # %then.1.i.i.i.i.i50.i.i
                                        #   in Loop: Header=BB57_58 Depth=1
	movb	$10, (%r15,%rax)
	jmp	.LBB57_66
.LBB57_67:                              # %"survey_lines::write.exit62.i.i"
	movq	$0, 16(%rsp)
	movq	%rax, 24(%rsp)
	movq	$0, 32(%rsp)
.LBB57_68:                              # %"sejjekoru::surveys::sejjekoru_write_survey.exit"
	movq	56(%rsp), %r12                  # 8-byte Reload
	jmp	.LBB57_69
.Lfunc_end57:
	.size	sejjekoru_write_survey, .Lfunc_end57-sejjekoru_write_survey
	.cfi_endproc
                                        # -- End function
	.section	.rodata.cst16,"aM",@progbits,16
	.p2align	4, 0x0                          # -- Begin function sejjekoru_link_begin
.LCPI58_0:
	.byte	0                               # 0x0
	.byte	1                               # 0x1
	.byte	0                               # 0x0
	.byte	0                               # 0x0
	.zero	1
	.zero	1
	.zero	1
	.zero	1
	.zero	1
	.zero	1
	.zero	1
	.zero	1
	.zero	1
	.zero	1
	.zero	1
	.zero	1
.LCPI58_1:
	.quad	1                               # 0x1
	.quad	13                              # 0xd
.LCPI58_2:
	.byte	0                               # 0x0
	.byte	1                               # 0x1
	.byte	0                               # 0x0
	.byte	0                               # 0x0
	.byte	0                               # 0x0
	.byte	0                               # 0x0
	.byte	0                               # 0x0
	.byte	0                               # 0x0
	.byte	0                               # 0x0
	.byte	0                               # 0x0
	.byte	0                               # 0x0
	.byte	0                               # 0x0
	.byte	0                               # 0x0
	.byte	0                               # 0x0
	.byte	0                               # 0x0
	.byte	0                               # 0x0
	.section	.text.sejjekoru_link_begin,"ax",@progbits
	.globl	sejjekoru_link_begin
	.p2align	4
	.type	sejjekoru_link_begin,@function
sejjekoru_link_begin:                   # @sejjekoru_link_begin
	.cfi_startproc
# %bb.0:                                # %start
	pushq	%rbp
	.cfi_def_cfa_offset 16
	pushq	%r15
	.cfi_def_cfa_offset 24
	pushq	%r14
	.cfi_def_cfa_offset 32
	pushq	%r13
	.cfi_def_cfa_offset 40
	pushq	%r12
	.cfi_def_cfa_offset 48
	pushq	%rbx
	.cfi_def_cfa_offset 56
	subq	$3072, %rsp                     # imm = 0xC00
	.cfi_adjust_cfa_offset 3072
	movq	$0, (%rsp)
	subq	$3072, %rsp                     # imm = 0xC00
	.cfi_adjust_cfa_offset 3072
	movq	$0, (%rsp)
	subq	$3072, %rsp                     # imm = 0xC00
	.cfi_adjust_cfa_offset 3072
	movq	$0, (%rsp)
	subq	$3072, %rsp                     # imm = 0xC00
	.cfi_adjust_cfa_offset 3072
	movq	$0, (%rsp)
	subq	$3072, %rsp                     # imm = 0xC00
	.cfi_adjust_cfa_offset 3072
	movq	$0, (%rsp)
	subq	$2120, %rsp                     # imm = 0x848
	.cfi_def_cfa_offset 17536
	.cfi_offset %rbx, -56
	.cfi_offset %r12, -48
	.cfi_offset %r13, -40
	.cfi_offset %r14, -32
	.cfi_offset %r15, -24
	.cfi_offset %rbp, -16
	movq	%rcx, 8(%rsp)                   # 8-byte Spill
	movq	%rdx, %rbx
	movq	%rsi, %r15
	xorl	%r13d, %r13d
	testq	%rdi, %rdi
	sete	%r13b
	shll	$12, %r13d
	addq	%rdi, %r13
	movups	9208(%rdx), %xmm0
	movaps	%xmm0, 64(%rsp)                 # 16-byte Spill
	movl	9224(%rdx), %eax
	movq	%rax, 40(%rsp)                  # 8-byte Spill
	movzwl	9228(%rdx), %eax
	movq	%rax, 32(%rsp)                  # 8-byte Spill
	movd	9230(%rdx), %xmm0               # xmm0 = mem[0],zero,zero,zero
	movdqa	%xmm0, 48(%rsp)                 # 16-byte Spill
	movzbl	9234(%rdx), %eax
	movq	%rax, 24(%rsp)                  # 8-byte Spill
	movzbl	9235(%rdx), %eax
	movb	%al, (%rsp)                     # 1-byte Spill
	movq	9236(%rdx), %rax
	movq	%rax, 16(%rsp)                  # 8-byte Spill
	movzwl	9244(%rdx), %eax
	movw	%ax, 2(%rsp)                    # 2-byte Spill
	movzbl	9246(%rdx), %eax
	movb	%al, 1(%rsp)                    # 1-byte Spill
	movzbl	9247(%rdx), %eax
	movl	%eax, 4(%rsp)                   # 4-byte Spill
	leaq	80(%rsp), %rdi
	xorl	%r12d, %r12d
	movl	$8192, %edx                     # imm = 0x2000
	xorl	%esi, %esi
	callq	memset@PLT
	movl	$1, %r14d
	xorl	%ecx, %ecx
	xorl	%eax, %eax
	xorl	%esi, %esi
	xorl	%r8d, %r8d
	jmp	.LBB58_1
.LBB58_49:                              # %then.4.i129.i.i.i.i.i.i
                                        #   in Loop: Header=BB58_1 Depth=1
	incb	%r12b
	movb	$4, %sil
.LBB58_50:                              # %arm.7.i.i.i.i.i
                                        #   in Loop: Header=BB58_1 Depth=1
	incq	%r14
	movq	%rbp, %r8
.LBB58_1:                               # %loop.2.i.i.i.i.i
                                        # =>This Loop Header: Depth=1
                                        #     Child Loop BB58_3 Depth 2
                                        #     Child Loop BB58_46 Depth 2
	movabsq	$2482524913665, %rdx            # imm = 0x24202040001
	cmpq	%r15, %r8
	jae	.LBB58_5
# %bb.2:                                # %join.5.i.i.i.i.i.i.i.preheader
                                        #   in Loop: Header=BB58_1 Depth=1
	movq	%r8, %rbp
	.p2align	4
.LBB58_3:                               # %join.5.i.i.i.i.i.i.i
                                        #   Parent Loop BB58_1 Depth=1
                                        # =>  This Inner Loop Header: Depth=2
	cmpb	$10, (%r13,%rbp)
	je	.LBB58_8
# %bb.4:                                # %join.8.i.i.i.i.i.i.i
                                        #   in Loop: Header=BB58_3 Depth=2
	incq	%rbp
	cmpq	%rbp, %r15
	jne	.LBB58_3
.LBB58_5:                               # %"lines::line_end.exit.thread.i.i.i.i.i.i"
                                        #   in Loop: Header=BB58_1 Depth=1
	cmpq	%r8, %r15
	movq	%r8, %rbp
	cmovaq	%r15, %rbp
.LBB58_6:                               # %join.3.i.i.i.i.i.i
                                        #   in Loop: Header=BB58_1 Depth=1
	cmpq	%rbp, %r8
	jae	.LBB58_51
# %bb.7:                                # %arm.3.i.i.i.i.i
                                        #   in Loop: Header=BB58_1 Depth=1
	leaq	(%r8,%r13), %rdi
	movq	%rbp, %r9
	subq	%r8, %r9
	movzbl	%sil, %esi
	leaq	.LJTI58_0(%rip), %r10
	movslq	(%r10,%rsi,4), %rsi
	addq	%r10, %rsi
	movq	%rbp, %r10
	jmpq	*%rsi
.LBB58_12:                              # %arm.1.i.i.i.i.i.i
                                        #   in Loop: Header=BB58_1 Depth=1
	cmpq	$11, %r9
	jne	.LBB58_34
# %bb.13:                               # %join.3.i.i.i.i.i.i.i.i
                                        #   in Loop: Header=BB58_1 Depth=1
	cmpl	$1701869940, (%rdi)             # imm = 0x65707974
	jne	.LBB58_34
# %bb.14:                               # %"lines::is_word.exit.i.i.i.i.i.i"
                                        #   in Loop: Header=BB58_1 Depth=1
	leaq	.Lstatic.0(%rip), %rdx
	movl	$11, %esi
	callq	"core::cmp::slices::groups_equal::<i8,31'core::cmp::numbers::U8PartialEq{}>"
	testb	%al, %al
	je	.LBB58_34
# %bb.15:                               #   in Loop: Header=BB58_1 Depth=1
	movb	$1, %sil
	xorl	%r12d, %r12d
	xorl	%ecx, %ecx
	xorl	%eax, %eax
	jmp	.LBB58_50
	.p2align	4
.LBB58_8:                               # %"lines::line_end.exit.i.i.i.i.i.i"
                                        #   in Loop: Header=BB58_1 Depth=1
	cmpq	%r15, %rbp
	jae	.LBB58_6
# %bb.9:                                # %then.1.i.i.i.i.i.i
                                        #   in Loop: Header=BB58_1 Depth=1
	cmpq	%rbp, %r8
	jae	.LBB58_11
# %bb.10:                               # %then.4.i.i.i.i.i.i
                                        #   in Loop: Header=BB58_1 Depth=1
	cmpb	$13, -1(%r13,%rbp)
	leaq	-1(%rbp), %r10
	cmovneq	%rbp, %r10
	incq	%rbp
	leaq	(%r8,%r13), %rdi
	movq	%r10, %r9
	subq	%r8, %r9
	movzbl	%sil, %esi
	leaq	.LJTI58_0(%rip), %r11
	movslq	(%r11,%rsi,4), %rsi
	addq	%r11, %rsi
	jmpq	*%rsi
.LBB58_11:                              # %join.6.i.i.i.i.i.i
                                        #   in Loop: Header=BB58_1 Depth=1
	movq	%rbp, %r9
	movq	%rbp, %r10
	incq	%rbp
	leaq	(%r8,%r13), %rdi
	subq	%r8, %r9
	movzbl	%sil, %esi
	leaq	.LJTI58_0(%rip), %r11
	movslq	(%r11,%rsi,4), %rsi
	addq	%r11, %rsi
	jmpq	*%rsi
.LBB58_16:                              # %arm.2.i.i.i.i.i.i
                                        #   in Loop: Header=BB58_1 Depth=1
	cmpq	$7, %r9
	jb	.LBB58_34
# %bb.17:                               # %"lines::begins_with.exit.i.i.i.i.i.i.i"
                                        #   in Loop: Header=BB58_1 Depth=1
	movzwl	1(%rdi), %eax
	movd	%eax, %xmm0
	pinsrw	$1, 4(%rdi), %xmm0
	movd	%xmm0, %eax
	cmpl	$1952999781, %eax               # imm = 0x74686965
	jne	.LBB58_34
# %bb.18:                               # %"lines::begins_with.exit.i.i.i.i.i.i.i"
                                        #   in Loop: Header=BB58_1 Depth=1
	cmpb	$104, (%rdi)
	jne	.LBB58_34
# %bb.19:                               # %"lines::begins_with.exit.i.i.i.i.i.i.i"
                                        #   in Loop: Header=BB58_1 Depth=1
	cmpb	$32, 6(%rdi)
	jne	.LBB58_34
# %bb.20:                               # %"lines::begins_with.exit.i.i.i.i.i.i.i"
                                        #   in Loop: Header=BB58_1 Depth=1
	cmpb	$103, 3(%rdi)
	jne	.LBB58_34
# %bb.21:                               # %then.4.i.i.i.i.i.i.i
                                        #   in Loop: Header=BB58_1 Depth=1
	cmpq	$9, %r9
	je	.LBB58_24
# %bb.22:                               # %then.4.i.i.i.i.i.i.i
                                        #   in Loop: Header=BB58_1 Depth=1
	cmpq	$8, %r9
	jne	.LBB58_34
# %bb.23:                               # %then.1.i.i.i.i.i.i.i.i
                                        #   in Loop: Header=BB58_1 Depth=1
	movzbl	7(%rdi), %eax
	addb	$-48, %al
	cmpb	$10, %al
	jb	.LBB58_25
	jmp	.LBB58_34
.LBB58_43:                              # %arm.5.i.i.i.i.i.i
                                        #   in Loop: Header=BB58_1 Depth=1
	cmpb	%al, %r12b
	jae	.LBB58_34
# %bb.44:                               # %arm.5.i.i.i.i.i.i
                                        #   in Loop: Header=BB58_1 Depth=1
	movzbl	%cl, %esi
	cmpq	%rsi, %r9
	jne	.LBB58_34
	.p2align	4
# %bb.45:                               # %then.1.i.i127.i.i.i.i.i.i
                                        #   in Loop: Header=BB58_1 Depth=1
	cmpq	%r8, %r10
	je	.LBB58_49
.LBB58_46:                              # %join.6.i.i.i.i.i.i.i.i.i
                                        #   Parent Loop BB58_1 Depth=1
                                        # =>  This Inner Loop Header: Depth=2
	movzbl	(%r13,%r8), %esi
	addl	$-46, %esi
	cmpl	$41, %esi
	ja	.LBB58_34
# %bb.47:                               # %join.6.i.i.i.i.i.i.i.i.i
                                        #   in Loop: Header=BB58_46 Depth=2
	btq	%rsi, %rdx
	jae	.LBB58_34
# %bb.48:                               # %after.7.i.i.i.i.i.i.i.i.i
                                        #   in Loop: Header=BB58_46 Depth=2
	incq	%r8
	cmpq	%r8, %r10
	jne	.LBB58_46
	jmp	.LBB58_49
.LBB58_27:                              # %arm.3.i.i.i.i.i.i
                                        #   in Loop: Header=BB58_1 Depth=1
	cmpq	$6, %r9
	jb	.LBB58_34
# %bb.28:                               # %"lines::begins_with.exit.i52.i.i.i.i.i.i"
                                        #   in Loop: Header=BB58_1 Depth=1
	movzwl	(%rdi), %ecx
	movd	%ecx, %xmm0
	pinsrw	$1, 4(%rdi), %xmm0
	movd	%xmm0, %ecx
	cmpl	$543713655, %ecx                # imm = 0x20686977
	jne	.LBB58_34
# %bb.29:                               # %"lines::begins_with.exit.i52.i.i.i.i.i.i"
                                        #   in Loop: Header=BB58_1 Depth=1
	cmpb	$116, 3(%rdi)
	jne	.LBB58_34
# %bb.30:                               # %"lines::begins_with.exit.i52.i.i.i.i.i.i"
                                        #   in Loop: Header=BB58_1 Depth=1
	cmpb	$100, 2(%rdi)
	jne	.LBB58_34
# %bb.31:                               # %then.4.i83.i.i.i.i.i.i
                                        #   in Loop: Header=BB58_1 Depth=1
	cmpq	$8, %r9
	je	.LBB58_35
# %bb.32:                               # %then.4.i83.i.i.i.i.i.i
                                        #   in Loop: Header=BB58_1 Depth=1
	cmpq	$7, %r9
	jne	.LBB58_34
# %bb.33:                               # %then.1.i.i102.i.i.i.i.i.i
                                        #   in Loop: Header=BB58_1 Depth=1
	movzbl	6(%rdi), %ecx
	addb	$-48, %cl
	cmpb	$10, %cl
	jb	.LBB58_36
	jmp	.LBB58_34
.LBB58_38:                              # %arm.4.i.i.i.i.i.i
                                        #   in Loop: Header=BB58_1 Depth=1
	cmpq	$3, %r9
	jne	.LBB58_34
# %bb.39:                               # %join.5.i.i.i.preheader.i.i.i.i.i.i
                                        #   in Loop: Header=BB58_1 Depth=1
	cmpb	$109, (%rdi)
	jne	.LBB58_34
# %bb.40:                               # %join.8.i.i.i.i.i.i.i.i.i
                                        #   in Loop: Header=BB58_1 Depth=1
	cmpb	$97, 1(%rdi)
	jne	.LBB58_34
# %bb.41:                               # %join.8.i.i.i.1.i.i.i.i.i.i
                                        #   in Loop: Header=BB58_1 Depth=1
	cmpb	$112, 2(%rdi)
	jne	.LBB58_34
# %bb.42:                               #   in Loop: Header=BB58_1 Depth=1
	movb	$4, %sil
	xorl	%r12d, %r12d
	jmp	.LBB58_50
.LBB58_35:                              # %then.4.i.i86.i.i.i.i.i.i
                                        #   in Loop: Header=BB58_1 Depth=1
	movzbl	6(%rdi), %ecx
	addb	$-48, %cl
	cmpb	$10, %cl
	movzbl	%cl, %ecx
	movl	$100, %edx
	cmovael	%edx, %ecx
	movzbl	7(%rdi), %esi
	movzbl	%cl, %ecx
	addb	$-48, %sil
	cmpb	$10, %sil
	movzbl	%sil, %esi
	cmovael	%edx, %esi
	movzbl	%sil, %edx
	addl	%ecx, %ecx
	leal	(%rcx,%rcx,4), %ecx
	addl	%edx, %ecx
	cmpw	$64, %cx
	ja	.LBB58_34
.LBB58_36:                              # %"sides::side_after.exit106.i.i.i.i.i.i"
                                        #   in Loop: Header=BB58_1 Depth=1
	testb	%cl, %cl
	je	.LBB58_34
# %bb.37:                               #   in Loop: Header=BB58_1 Depth=1
	movb	$3, %sil
	xorl	%r12d, %r12d
	jmp	.LBB58_50
.LBB58_24:                              # %then.4.i.i.i.i.i.i.i.i
                                        #   in Loop: Header=BB58_1 Depth=1
	movzbl	7(%rdi), %eax
	addb	$-48, %al
	cmpb	$10, %al
	movzbl	%al, %eax
	movl	$100, %ecx
	cmovael	%ecx, %eax
	movzbl	8(%rdi), %edx
	movzbl	%al, %eax
	addb	$-48, %dl
	cmpb	$10, %dl
	movzbl	%dl, %edx
	cmovael	%ecx, %edx
	movzbl	%dl, %ecx
	addl	%eax, %eax
	leal	(%rax,%rax,4), %eax
	addl	%ecx, %eax
	cmpw	$64, %ax
	ja	.LBB58_34
.LBB58_25:                              # %"sides::side_after.exit.i.i.i.i.i.i"
                                        #   in Loop: Header=BB58_1 Depth=1
	testb	%al, %al
	je	.LBB58_34
# %bb.26:                               #   in Loop: Header=BB58_1 Depth=1
	movb	$2, %sil
	xorl	%r12d, %r12d
	xorl	%ecx, %ecx
	jmp	.LBB58_50
.LBB58_51:                              # %"sides::read.exit.i.i.i.i"
	xorb	$4, %sil
	xorb	%al, %r12b
	movzbl	%cl, %ecx
	shll	$8, %ecx
	movzbl	%al, %eax
	orl	%ecx, %eax
	xorl	%ebp, %ebp
	movl	%esi, %ecx
	orb	%r12b, %cl
	cmovel	%eax, %ebp
	orb	%sil, %r12b
	jne	.LBB58_34
# %bb.52:                               # %arm.1.i.i.i.i
	movl	%ebp, %eax
	shrl	$8, %eax
	movl	%eax, 4(%rsp)                   # 4-byte Spill
	testq	%r15, %r15
	movq	8(%rsp), %r12                   # 8-byte Reload
	je	.LBB58_60
# %bb.53:                               # %join.6.i.i.i.i.i.preheader
	xorl	%eax, %eax
	xorl	%ecx, %ecx
	xorl	%esi, %esi
	jmp	.LBB58_54
	.p2align	4
.LBB58_58:                              # %"stores::store::<i16,21'core::clone::U16Clone{}>.exit.i.i.i.i.i"
                                        #   in Loop: Header=BB58_54 Depth=1
	movzbl	%dil, %edi
	addl	%edi, %eax
	incq	%rcx
.LBB58_59:                              # %after.7.i.i.i.i.i
                                        #   in Loop: Header=BB58_54 Depth=1
	incq	%rsi
	cmpq	%rsi, %r15
	je	.LBB58_60
.LBB58_54:                              # %join.6.i.i.i.i.i
                                        # =>This Inner Loop Header: Depth=1
	movzbl	(%r13,%rsi), %r9d
	cmpl	$71, %r9d
	sete	%r8b
	subl	$46, %r9d
	sete	%dil
	cmpl	$41, %r9d
	ja	.LBB58_59
# %bb.55:                               # %join.6.i.i.i.i.i
                                        #   in Loop: Header=BB58_54 Depth=1
	btq	%r9, %rdx
	jae	.LBB58_59
# %bb.56:                               # %then.8.i.i.i.i.i
                                        #   in Loop: Header=BB58_54 Depth=1
	orb	%r8b, %dil
	cmpq	$4095, %rcx                     # imm = 0xFFF
	ja	.LBB58_58
# %bb.57:                               # %then.1.i.i7.i.i.i.i
                                        #   in Loop: Header=BB58_54 Depth=1
	leal	1(%rax), %r8d
	xorl	%r9d, %r9d
	testb	%dil, %dil
	cmovnel	%r8d, %r9d
	movw	%r9w, 80(%rsp,%rcx,2)
	jmp	.LBB58_58
.LBB58_34:                              # %arm.4.i.i.i
	leaq	8272(%rsp), %rdi
	movl	$9208, %edx                     # imm = 0x23F8
	movq	%rbx, %rsi
	callq	memcpy@PLT
	movaps	.LCPI58_1(%rip), %xmm0          # xmm0 = [1,13]
	movq	8(%rsp), %rsi                   # 8-byte Reload
	movq	40(%rsp), %r13                  # 8-byte Reload
	movzwl	2(%rsp), %r15d                  # 2-byte Folded Reload
	movzbl	1(%rsp), %ebp                   # 1-byte Folded Reload
.LBB58_61:                              # %"sejjekoru::serial::sejjekoru_link_begin.exit"
	movaps	%xmm0, 80(%rsp)
	movq	%r14, 96(%rsp)
	leaq	80(%rsp), %rdi
	callq	"numbers::told"
	movq	%rax, %r14
	leaq	8272(%rsp), %rsi
	movl	$9208, %edx                     # imm = 0x23F8
	movq	%rbx, %rdi
	callq	memcpy@PLT
	movaps	64(%rsp), %xmm0                 # 16-byte Reload
	movups	%xmm0, 9208(%rbx)
	movl	%r13d, 9224(%rbx)
	movq	32(%rsp), %rax                  # 8-byte Reload
	movw	%ax, 9228(%rbx)
	movaps	48(%rsp), %xmm0                 # 16-byte Reload
	movss	%xmm0, 9230(%rbx)
	movq	24(%rsp), %rax                  # 8-byte Reload
	movb	%al, 9234(%rbx)
	movzbl	(%rsp), %eax                    # 1-byte Folded Reload
	movb	%al, 9235(%rbx)
	movq	16(%rsp), %rax                  # 8-byte Reload
	movq	%rax, 9236(%rbx)
	movw	%r15w, 9244(%rbx)
	movb	%bpl, 9246(%rbx)
	movl	4(%rsp), %eax                   # 4-byte Reload
	movb	%al, 9247(%rbx)
	movq	%r14, %rax
	addq	$17480, %rsp                    # imm = 0x4448
	.cfi_def_cfa_offset 56
	popq	%rbx
	.cfi_def_cfa_offset 48
	popq	%r12
	.cfi_def_cfa_offset 40
	popq	%r13
	.cfi_def_cfa_offset 32
	popq	%r14
	.cfi_def_cfa_offset 24
	popq	%r15
	.cfi_def_cfa_offset 16
	popq	%rbp
	.cfi_def_cfa_offset 8
	retq
.LBB58_60:                              # %arm.3.i.i.i
	.cfi_def_cfa_offset 17536
	leaq	9288(%rsp), %r15
	leaq	8272(%rsp), %rdi
	xorl	%r13d, %r13d
	movl	$1016, %edx                     # imm = 0x3F8
	xorl	%esi, %esi
	callq	memset@PLT
	leaq	80(%rsp), %rsi
	movl	$8192, %edx                     # imm = 0x2000
	movq	%r15, %rdi
	callq	memcpy@PLT
	pxor	%xmm0, %xmm0
	movdqa	%xmm0, 64(%rsp)                 # 16-byte Spill
	movss	.LCPI58_2(%rip), %xmm0          # xmm0 = [0,1,0,0,0,0,0,0,0,0,0,0,0,0,0,0]
	movaps	%xmm0, 48(%rsp)                 # 16-byte Spill
	xorps	%xmm0, %xmm0
	movw	$1, %r15w
	movb	$1, (%rsp)                      # 1-byte Folded Spill
	movq	$0, 32(%rsp)                    # 8-byte Folded Spill
	movq	$0, 24(%rsp)                    # 8-byte Folded Spill
	movq	$0, 16(%rsp)                    # 8-byte Folded Spill
	xorl	%r14d, %r14d
                                        # kill: def $bpl killed $bpl killed $ebp
	movq	%r12, %rsi
	jmp	.LBB58_61
.Lfunc_end58:
	.size	sejjekoru_link_begin, .Lfunc_end58-sejjekoru_link_begin
	.cfi_endproc
	.section	.rodata.sejjekoru_link_begin,"a",@progbits
	.p2align	2, 0x0
.LJTI58_0:
	.long	.LBB58_12-.LJTI58_0
	.long	.LBB58_16-.LJTI58_0
	.long	.LBB58_27-.LJTI58_0
	.long	.LBB58_38-.LJTI58_0
	.long	.LBB58_43-.LJTI58_0
                                        # -- End function
	.section	.rodata.cst16,"aM",@progbits,16
	.p2align	4, 0x0                          # -- Begin function sejjekoru_link_end
.LCPI59_0:
	.byte	1                               # 0x1
	.byte	1                               # 0x1
	.byte	1                               # 0x1
	.byte	1                               # 0x1
	.zero	1
	.zero	1
	.zero	1
	.zero	1
	.zero	1
	.zero	1
	.zero	1
	.zero	1
	.zero	1
	.zero	1
	.zero	1
	.zero	1
	.section	.text.sejjekoru_link_end,"ax",@progbits
	.globl	sejjekoru_link_end
	.p2align	4
	.type	sejjekoru_link_end,@function
sejjekoru_link_end:                     # @sejjekoru_link_end
	.cfi_startproc
# %bb.0:                                # %start
	pushq	%rbp
	.cfi_def_cfa_offset 16
	pushq	%r15
	.cfi_def_cfa_offset 24
	pushq	%r14
	.cfi_def_cfa_offset 32
	pushq	%r13
	.cfi_def_cfa_offset 40
	pushq	%r12
	.cfi_def_cfa_offset 48
	pushq	%rbx
	.cfi_def_cfa_offset 56
	movq	%rsp, %r11
	subq	$27648, %r11                    # imm = 0x6C00
	.cfi_def_cfa_register %r11
	.cfi_adjust_cfa_offset 27648
.LBB59_1:                               # %start
                                        # =>This Inner Loop Header: Depth=1
	subq	$3072, %rsp                     # imm = 0xC00
	movq	$0, (%rsp)
	cmpq	%r11, %rsp
	jne	.LBB59_1
# %bb.2:                                # %start
	subq	$200, %rsp
	.cfi_def_cfa_register %rsp
	.cfi_def_cfa_offset 27904
	.cfi_offset %rbx, -56
	.cfi_offset %r12, -48
	.cfi_offset %r13, -40
	.cfi_offset %r14, -32
	.cfi_offset %r15, -24
	.cfi_offset %rbp, -16
	movq	%rsi, 104(%rsp)                 # 8-byte Spill
	movq	%rdi, %rbx
	movl	9208(%rdi), %eax
	movl	%eax, 16(%rsp)                  # 4-byte Spill
	movl	9212(%rdi), %r15d
	movl	9216(%rdi), %eax
	movl	%eax, 28(%rsp)                  # 4-byte Spill
	movl	9220(%rdi), %eax
	movl	%eax, 24(%rsp)                  # 4-byte Spill
	movl	9224(%rdi), %eax
	movl	%eax, 20(%rsp)                  # 4-byte Spill
	movzwl	9228(%rdi), %eax
	movl	%eax, 12(%rsp)                  # 4-byte Spill
	movsd	9232(%rdi), %xmm0               # xmm0 = mem[0],zero
	movaps	%xmm0, 144(%rsp)                # 16-byte Spill
	movss	9230(%rdi), %xmm0               # xmm0 = mem[0],zero,zero,zero
	movaps	%xmm0, 112(%rsp)                # 16-byte Spill
	movaps	%xmm0, 160(%rsp)
	movzbl	161(%rsp), %r12d
	movd	9240(%rdi), %xmm0               # xmm0 = mem[0],zero,zero,zero
	movdqa	%xmm0, 128(%rsp)                # 16-byte Spill
	movzwl	9244(%rdi), %ebp
	movzwl	9246(%rdi), %eax
	cmpw	$1, %bp
	movw	%ax, 10(%rsp)                   # 2-byte Spill
	jne	.LBB59_9
# %bb.3:                                # %then.1.i.i.i
	movzwl	%ax, %eax
	movl	%eax, 32(%rsp)                  # 4-byte Spill
	movzbl	9234(%rbx), %ebp
	leaq	1240(%rsp), %rdi
	xorl	%r14d, %r14d
	movl	$9208, %edx                     # imm = 0x23F8
	xorl	%esi, %esi
	callq	memset@PLT
	leaq	10448(%rsp), %rdi
	movl	$9208, %edx                     # imm = 0x23F8
	xorl	%esi, %esi
	callq	memset@PLT
	leaq	732(%rsp), %rdi
	movl	$508, %edx                      # imm = 0x1FC
	movq	%rbx, %rsi
	callq	memcpy@PLT
	leaq	508(%rbx), %rsi
	leaq	224(%rsp), %rdi
	movl	$508, %edx                      # imm = 0x1FC
	callq	memcpy@PLT
	leaq	1016(%rbx), %rsi
	leaq	19656(%rsp), %rdi
	movl	$8192, %edx                     # imm = 0x2000
	callq	memcpy@PLT
	movl	%r12d, %r13d
	testb	%r12b, %r12b
	jne	.LBB59_5
# %bb.4:                                # %select.true.sink
	movl	12(%rsp), %ecx                  # 4-byte Reload
	movzwl	%cx, %eax
	cmpl	$254, %eax
	movl	$254, %r14d
	cmovbl	%ecx, %r14d
.LBB59_5:                               # %select.end
	movdqa	144(%rsp), %xmm0                # 16-byte Reload
	movdqa	%xmm0, 80(%rsp)
	cmpb	$0, 83(%rsp)
	pxor	%xmm0, %xmm0
	setne	47(%rsp)
	cmpb	$0, 85(%rsp)
	movdqa	112(%rsp), %xmm1                # 16-byte Reload
	pcmpeqb	%xmm0, %xmm1
	movdqa	.LCPI59_0(%rip), %xmm2          # xmm2 = [1,1,1,1,u,u,u,u,u,u,u,u,u,u,u,u]
	pandn	%xmm2, %xmm1
	movd	%xmm1, 36(%rsp)
	movw	%r14w, 40(%rsp)
	movl	$0, 42(%rsp)
	movb	%bpl, 46(%rsp)
	movzbl	84(%rsp), %eax
	movzbl	86(%rsp), %ecx
	movb	%al, 48(%rsp)
	setne	49(%rsp)
	movw	$0, 50(%rsp)
	movl	16(%rsp), %eax                  # 4-byte Reload
	movl	%eax, 52(%rsp)
	movl	%r15d, %r12d
	movl	%r15d, 56(%rsp)
	movl	28(%rsp), %eax                  # 4-byte Reload
	movl	%eax, 60(%rsp)
	movl	24(%rsp), %eax                  # 4-byte Reload
	movl	%eax, 64(%rsp)
	movb	%cl, 68(%rsp)
	movw	$0, 69(%rsp)
	movb	$0, 71(%rsp)
	movl	20(%rsp), %eax                  # 4-byte Reload
	movl	%eax, 72(%rsp)
	pcmpeqb	128(%rsp), %xmm0                # 16-byte Folded Reload
	pandn	%xmm2, %xmm0
	movd	%xmm0, 76(%rsp)
	leaq	180(%rsp), %rdi
	leaq	36(%rsp), %rsi
	leaq	19656(%rsp), %rcx
	leaq	732(%rsp), %r8
	leaq	224(%rsp), %r9
	movl	32(%rsp), %edx                  # 4-byte Reload
	callq	"scenario::finish"
	movl	$1, %r15d
	testb	$1, 181(%rsp)
	movl	$1, %r14d
	jne	.LBB59_8
# %bb.6:                                # %join.3.i.i.i.i.i
	movzwl	184(%rsp), %r14d
	testb	$1, 180(%rsp)
	je	.LBB59_12
# %bb.7:                                # %then.4.i.i.i.i.i
	addq	$2, %r14
.LBB59_8:                               # %arm.2.i.i.i.i
	leaq	10448(%rsp), %rdi
	movl	$9208, %edx                     # imm = 0x23F8
	movq	%rbx, %rsi
	callq	memcpy@PLT
	movl	$14, %eax
	movw	$2, %bp
	jmp	.LBB59_11
.LBB59_9:                               # %join.3.i.i.i
	movl	%r12d, %r13d
	movl	%r15d, %r12d
	leaq	10448(%rsp), %rdi
	movl	$9208, %edx                     # imm = 0x23F8
	movq	%rbx, %rsi
	callq	memcpy@PLT
	movl	$16, %eax
	movl	$1, %r15d
.LBB59_10:                              # %"sejjekoru::serial::sejjekoru_link_end.exit"
	xorl	%r14d, %r14d
.LBB59_11:                              # %"sejjekoru::serial::sejjekoru_link_end.exit"
	movq	%r15, 1240(%rsp)
	movq	%rax, 1248(%rsp)
	movq	%r14, 1256(%rsp)
	leaq	1240(%rsp), %rdi
	movq	104(%rsp), %rsi                 # 8-byte Reload
	callq	"numbers::told"
	movq	%rax, %r14
	leaq	10448(%rsp), %rsi
	movl	$9208, %edx                     # imm = 0x23F8
	movq	%rbx, %rdi
	callq	memcpy@PLT
	movl	16(%rsp), %eax                  # 4-byte Reload
	movl	%eax, 9208(%rbx)
	movl	%r12d, 9212(%rbx)
	movl	28(%rsp), %eax                  # 4-byte Reload
	movl	%eax, 9216(%rbx)
	movl	24(%rsp), %eax                  # 4-byte Reload
	movl	%eax, 9220(%rbx)
	movl	20(%rsp), %eax                  # 4-byte Reload
	movl	%eax, 9224(%rbx)
	movl	12(%rsp), %eax                  # 4-byte Reload
	movw	%ax, 9228(%rbx)
	movdqa	112(%rsp), %xmm0                # 16-byte Reload
	movd	%xmm0, %eax
	movb	%al, 9230(%rbx)
	movb	%r13b, 9231(%rbx)
	movaps	144(%rsp), %xmm0                # 16-byte Reload
	movlps	%xmm0, 9232(%rbx)
	movdqa	128(%rsp), %xmm0                # 16-byte Reload
	movd	%xmm0, %eax
	movb	%al, 9240(%rbx)
	movb	%ah, 9241(%rbx)
	movl	%eax, %ecx
	shrl	$16, %ecx
	movb	%cl, 9242(%rbx)
	shrl	$24, %eax
	movb	%al, 9243(%rbx)
	movw	%bp, 9244(%rbx)
	movzwl	10(%rsp), %eax                  # 2-byte Folded Reload
	movw	%ax, 9246(%rbx)
	movq	%r14, %rax
	addq	$27848, %rsp                    # imm = 0x6CC8
	.cfi_def_cfa_offset 56
	popq	%rbx
	.cfi_def_cfa_offset 48
	popq	%r12
	.cfi_def_cfa_offset 40
	popq	%r13
	.cfi_def_cfa_offset 32
	popq	%r14
	.cfi_def_cfa_offset 24
	popq	%r15
	.cfi_def_cfa_offset 16
	popq	%rbp
	.cfi_def_cfa_offset 8
	retq
.LBB59_12:                              # %arm.1.i.i.i.i
	.cfi_def_cfa_offset 27904
	leaq	1240(%rsp), %r15
	movl	$9208, %edx                     # imm = 0x23F8
	movq	%r15, %rdi
	movq	%rbx, %rsi
	callq	memcpy@PLT
	leaq	732(%rsp), %rsi
	movl	$508, %edx                      # imm = 0x1FC
	movq	%r15, %rdi
	callq	memcpy@PLT
	leaq	1748(%rsp), %rdi
	leaq	224(%rsp), %rsi
	movl	$508, %edx                      # imm = 0x1FC
	callq	memcpy@PLT
	leaq	10448(%rsp), %rdi
	movl	$9208, %edx                     # imm = 0x23F8
	movq	%r15, %rsi
	callq	memcpy@PLT
	xorl	%r15d, %r15d
	movw	$2, %bp
	movq	%r14, %rax
	jmp	.LBB59_10
.Lfunc_end59:
	.size	sejjekoru_link_end, .Lfunc_end59-sejjekoru_link_end
	.cfi_endproc
                                        # -- End function
	.section	.text.sejjekoru_link_piece,"ax",@progbits
	.globl	sejjekoru_link_piece            # -- Begin function sejjekoru_link_piece
	.p2align	4
	.type	sejjekoru_link_piece,@function
sejjekoru_link_piece:                   # @sejjekoru_link_piece
	.cfi_startproc
# %bb.0:                                # %start
	pushq	%rbp
	.cfi_def_cfa_offset 16
	pushq	%r15
	.cfi_def_cfa_offset 24
	pushq	%r14
	.cfi_def_cfa_offset 32
	pushq	%r13
	.cfi_def_cfa_offset 40
	pushq	%r12
	.cfi_def_cfa_offset 48
	pushq	%rbx
	.cfi_def_cfa_offset 56
	subq	$3072, %rsp                     # imm = 0xC00
	.cfi_adjust_cfa_offset 3072
	movq	$0, (%rsp)
	subq	$3072, %rsp                     # imm = 0xC00
	.cfi_adjust_cfa_offset 3072
	movq	$0, (%rsp)
	subq	$3072, %rsp                     # imm = 0xC00
	.cfi_adjust_cfa_offset 3072
	movq	$0, (%rsp)
	subq	$3072, %rsp                     # imm = 0xC00
	.cfi_adjust_cfa_offset 3072
	movq	$0, (%rsp)
	subq	$3072, %rsp                     # imm = 0xC00
	.cfi_adjust_cfa_offset 3072
	movq	$0, (%rsp)
	subq	$3072, %rsp                     # imm = 0xC00
	.cfi_adjust_cfa_offset 3072
	movq	$0, (%rsp)
	subq	$104, %rsp
	.cfi_def_cfa_offset 18592
	.cfi_offset %rbx, -56
	.cfi_offset %r12, -48
	.cfi_offset %r13, -40
	.cfi_offset %r14, -32
	.cfi_offset %r15, -24
	.cfi_offset %rbp, -16
	movq	%rcx, 112(%rsp)                 # 8-byte Spill
	movq	%rdi, %rbx
	testq	%rsi, %rsi
	sete	%dil
	movl	9208(%rbx), %eax
	movq	%rax, 64(%rsp)                  # 8-byte Spill
	movl	9212(%rbx), %eax
	movl	%eax, 20(%rsp)                  # 4-byte Spill
	movl	9216(%rbx), %eax
	movl	%eax, 24(%rsp)                  # 4-byte Spill
	movl	9220(%rbx), %eax
	movl	%eax, 28(%rsp)                  # 4-byte Spill
	movl	9224(%rbx), %eax
	movq	%rax, 32(%rsp)                  # 8-byte Spill
	movzwl	9228(%rbx), %r13d
	movzbl	9230(%rbx), %ecx
	movzbl	9231(%rbx), %eax
	movb	%al, 56(%rsp)                   # 1-byte Spill
	movzbl	9232(%rbx), %r15d
	movzbl	9233(%rbx), %eax
	movb	%al, 4(%rsp)                    # 1-byte Spill
	movzbl	9234(%rbx), %eax
	movl	%eax, 16(%rsp)                  # 4-byte Spill
	movzbl	9246(%rbx), %ebp
	movzbl	9247(%rbx), %eax
	movb	%al, 15(%rsp)                   # 1-byte Spill
	movzbl	9235(%rbx), %eax
	movl	%eax, 8(%rsp)                   # 4-byte Spill
	movq	9236(%rbx), %rax
	movq	%rax, 40(%rsp)                  # 8-byte Spill
	movzwl	9244(%rbx), %r12d
	cmpw	$1, %r12w
	movb	%cl, 72(%rsp)                   # 1-byte Spill
	jne	.LBB60_83
# %bb.1:                                # %then.1.i.i.i
	cmpq	$256, %rdx                      # imm = 0x100
	ja	.LBB60_84
# %bb.2:                                # %then.4.i.i.i
	movb	%dil, 104(%rsp)                 # 1-byte Spill
	movb	%bpl, 14(%rsp)                  # 1-byte Spill
	movq	%rsi, 96(%rsp)                  # 8-byte Spill
	movq	40(%rsp), %r14                  # 8-byte Reload
	movl	%r14d, %eax
	shrl	$16, %eax
	movl	%eax, 52(%rsp)                  # 4-byte Spill
	leaq	628(%rsp), %rdi
	movq	%rdx, %r12
	movl	$508, %edx                      # imm = 0x1FC
	movq	%rbx, %rsi
	callq	memcpy@PLT
	leaq	508(%rbx), %rsi
	leaq	120(%rsp), %rdi
	movl	$508, %edx                      # imm = 0x1FC
	callq	memcpy@PLT
	leaq	1016(%rbx), %rsi
	leaq	10344(%rsp), %rdi
	movl	$8192, %edx                     # imm = 0x2000
	callq	memcpy@PLT
	xorl	%ebp, %ebp
	cmpb	$0, 72(%rsp)                    # 1-byte Folded Reload
	setne	%al
	testb	%r15b, %r15b
	movl	$0, %r15d
	setne	%r15b
	xorl	%esi, %esi
	cmpb	$0, 4(%rsp)                     # 1-byte Folded Reload
	setne	%sil
	movzwl	%r13w, %ecx
	cmpl	$254, %ecx
	movl	%eax, %ecx
	movl	$254, %edi
	cmovbl	%r13d, %edi
	cmpb	$0, 8(%rsp)                     # 1-byte Folded Reload
	setne	%al
	movl	%eax, 8(%rsp)                   # 4-byte Spill
	testl	$65280, %r14d                   # imm = 0xFF00
	setne	%al
	movl	%eax, 4(%rsp)                   # 4-byte Spill
	movq	%r14, %rdx
	shrq	$32, %rdx
	xorl	%r8d, %r8d
	testb	%dl, %dl
	setne	%r8b
	movq	%r14, %rdx
	shrq	$40, %rdx
	xorl	%r9d, %r9d
	testb	%dl, %dl
	setne	%r9b
	movq	%r14, %rdx
	shrq	$48, %rdx
	xorl	%r10d, %r10d
	testb	%dl, %dl
	setne	%r10b
	xorl	%edx, %edx
	shrq	$56, %r14
	setne	%dl
	shll	$8, %r9d
	shll	$16, %r10d
	shll	$24, %edx
	orl	%r8d, %edx
	orl	%r9d, %edx
	orl	%r10d, %edx
	shll	$24, %esi
	shll	$16, %r15d
	xorl	%r13d, %r13d
	xorl	%r8d, %r8d
	cmpb	$0, 56(%rsp)                    # 1-byte Folded Reload
	setne	%r8b
	cmovel	%edi, %r13d
	shll	$8, %r8d
	movb	%cl, %bpl
	orl	%r8d, %ebp
	orl	%r15d, %ebp
	orl	%esi, %ebp
	movzbl	52(%rsp), %r11d                 # 1-byte Folded Reload
	movl	%ebp, 84(%rsp)
	movw	%r13w, 88(%rsp)
	movl	$0, 90(%rsp)
	movq	%r12, 72(%rsp)                  # 8-byte Spill
	testq	%r12, %r12
	je	.LBB60_88
# %bb.3:                                # %join.6.lr.ph.i.i.i.i.i.i
	xorl	%eax, %eax
	movzbl	104(%rsp), %ecx                 # 1-byte Folded Reload
	movb	%cl, %al
	shll	$12, %eax
	movq	96(%rsp), %rcx                  # 8-byte Reload
	addq	%rax, %rcx
	movzbl	14(%rsp), %eax                  # 1-byte Folded Reload
	movzbl	15(%rsp), %esi                  # 1-byte Folded Reload
	movq	%rsi, 56(%rsp)                  # 8-byte Spill
	movl	%esi, %edi
	movl	%eax, 52(%rsp)                  # 4-byte Spill
	imull	%eax, %edi
	cmpl	$4096, %edi                     # imm = 0x1000
	movl	$4096, %eax                     # imm = 0x1000
	cmovbl	%edi, %eax
	movq	%rax, 104(%rsp)                 # 8-byte Spill
	xorl	%r10d, %r10d
	movl	16(%rsp), %eax                  # 4-byte Reload
	movq	72(%rsp), %rsi                  # 8-byte Reload
	movq	%rcx, 96(%rsp)                  # 8-byte Spill
	jmp	.LBB60_8
.LBB60_35:                              # %then.7.i.i.i.i.i.i.i
                                        #   in Loop: Header=BB60_8 Depth=1
	shll	$8, %r14d
	movzbl	%bpl, %ecx
	andl	$65280, %edx                    # imm = 0xFF00
	orl	%ecx, %edx
	shll	$16, %r9d
	orl	%r9d, %edx
	movw	%r14w, 1136(%rsp)
	movw	$257, 1138(%rsp)                # imm = 0x101
.LBB60_81:                              # %"scenario::step.exit.i.thread.i.i.i.i.i"
                                        #   in Loop: Header=BB60_8 Depth=1
	movzbl	%r11b, %r11d
	movq	%r15, %rdi
	shrq	$48, %rdi
	shrq	$32, %r15
	movl	1136(%rsp), %ebp
	movq	96(%rsp), %rcx                  # 8-byte Reload
.LBB60_7:                               # %"carrier_lists::keep.exit.i.i.i.i.i.i"
                                        #   in Loop: Header=BB60_8 Depth=1
	movl	%ebp, 84(%rsp)
	movw	%r13w, 88(%rsp)
	movw	%r15w, 90(%rsp)
	movw	%di, 92(%rsp)
	incq	%r10
	cmpq	%r10, %rsi
	je	.LBB60_86
.LBB60_8:                               # %join.6.i.i.i.i.i.i
                                        # =>This Inner Loop Header: Depth=1
	movl	%ebp, %r14d
	shrl	$8, %r14d
	movzbl	(%rcx,%r10), %edi
	movq	86(%rsp), %r15
	movq	%r15, %r13
	shrq	$16, %r13
	movq	$0, 1136(%rsp)
	movw	$0, 1144(%rsp)
	testb	$1, %bpl
	je	.LBB60_9
# %bb.4:                                # %then.1.i.i.i.i.i.i.i
                                        #   in Loop: Header=BB60_8 Depth=1
	movb	$1, 1136(%rsp)
	movb	%r14b, 1137(%rsp)
.LBB60_5:                               # %"scenario::step.exit.thread.i.i.i.i.i.i"
                                        #   in Loop: Header=BB60_8 Depth=1
	movq	%r15, 1138(%rsp)
.LBB60_6:                               # %"scenario::step.exit.thread.i.i.i.i.i.i"
                                        #   in Loop: Header=BB60_8 Depth=1
	movq	%r15, %rdi
	shrq	$48, %rdi
	shrq	$32, %r15
	movl	1136(%rsp), %ebp
	jmp	.LBB60_7
	.p2align	4
.LBB60_9:                               # %join.3.i.i.i.i.i.i.i
                                        #   in Loop: Header=BB60_8 Depth=1
	cmpb	$10, %dil
	jne	.LBB60_18
# %bb.10:                               # %then.4.i.i.i.i.i.i.i
                                        #   in Loop: Header=BB60_8 Depth=1
	testb	$1, %r14b
	je	.LBB60_20
# %bb.11:                               # %then.1.i.i.i.i.i.i.i.i
                                        #   in Loop: Header=BB60_8 Depth=1
	movl	%eax, %edi
	andb	$-3, %dil
	cmpb	$9, %dil
	jne	.LBB60_28
# %bb.12:                               # %then.1.i.i.i.i.i.i.i.i
                                        #   in Loop: Header=BB60_8 Depth=1
	testb	$1, 8(%rsp)                     # 1-byte Folded Reload
	je	.LBB60_28
# %bb.13:                               # %"scenario::step.exit.i.i.i.i.i.i"
                                        #   in Loop: Header=BB60_8 Depth=1
	xorl	%ebp, %ebp
	testw	%r13w, %r13w
	je	.LBB60_49
# %bb.14:                               #   in Loop: Header=BB60_8 Depth=1
	xorl	%edi, %edi
	xorl	%r15d, %r15d
	xorl	%r8d, %r8d
.LBB60_15:                              # %join.3.i3.i.i.i.i.i.i
                                        #   in Loop: Header=BB60_8 Depth=1
	movzwl	%r13w, %r9d
	movb	$1, %al
	movl	%eax, 4(%rsp)                   # 4-byte Spill
	movl	$65537, %edx                    # imm = 0x10001
	xorl	%ebp, %ebp
	cmpq	$253, %r9
	ja	.LBB60_17
# %bb.16:                               # %then.1.i3.i.i.i.i.i.i.i
                                        #   in Loop: Header=BB60_8 Depth=1
	addl	%r9d, %r9d
	movw	%r15w, 628(%rsp,%r9)
	movw	%di, 120(%rsp,%r9)
	xorl	%ebp, %ebp
.LBB60_17:                              # %"carrier_lists::keep.exit.i.i.i.i.i.i"
                                        #   in Loop: Header=BB60_8 Depth=1
	movq	$0, 32(%rsp)                    # 8-byte Folded Spill
	xorl	%r11d, %r11d
	movl	$0, 28(%rsp)                    # 4-byte Folded Spill
	movl	$0, 24(%rsp)                    # 4-byte Folded Spill
	movl	$0, 20(%rsp)                    # 4-byte Folded Spill
	movq	$0, 64(%rsp)                    # 8-byte Folded Spill
	movq	$0, 40(%rsp)                    # 8-byte Folded Spill
	movb	$1, %al
	movl	%eax, 8(%rsp)                   # 4-byte Spill
	xorl	%eax, %eax
	movl	%r8d, %r13d
	jmp	.LBB60_7
	.p2align	4
.LBB60_18:                              # %join.6.i.i.i.i.i.i.i
                                        #   in Loop: Header=BB60_8 Depth=1
	movl	%edx, %r12d
	shrl	$16, %r12d
	testl	$256, %r15d                     # imm = 0x100
	je	.LBB60_33
# %bb.25:                               # %then.1.i18.i.i.i.i.i.i.i
                                        #   in Loop: Header=BB60_8 Depth=1
	testb	$1, %r14b
	je	.LBB60_30
# %bb.26:                               # %then.1.i.i20.i.i.i.i.i.i.i
                                        #   in Loop: Header=BB60_8 Depth=1
	cmpb	$10, %al
	ja	.LBB60_31
# %bb.27:                               # %then.1.i.i.i22.i.i.i.i.i.i.i
                                        #   in Loop: Header=BB60_8 Depth=1
	incb	%al
	jmp	.LBB60_32
.LBB60_20:                              # %join.3.i.i.i.i.i.i.i.i
                                        #   in Loop: Header=BB60_8 Depth=1
	movzwl	%r13w, %edi
	cmpl	$253, %edi
	ja	.LBB60_29
# %bb.21:                               # %then.7.i.i.i.i.i.i.i.i
                                        #   in Loop: Header=BB60_8 Depth=1
	cmpb	$1, 4(%rsp)                     # 1-byte Folded Reload
	jne	.LBB60_59
# %bb.22:                               # %then.1.i.i.i.i.i.i.i.i.i
                                        #   in Loop: Header=BB60_8 Depth=1
	movzbl	40(%rsp), %edi                  # 1-byte Folded Reload
	decl	%edi
	cmpl	$7, %edi
	ja	.LBB60_56
# %bb.23:                               # %then.1.i.i.i.i.i.i.i.i.i
                                        #   in Loop: Header=BB60_8 Depth=1
	leaq	.LJTI60_1(%rip), %r8
	movslq	(%r8,%rdi,4), %rdi
	addq	%r8, %rdi
	jmpq	*%rdi
.LBB60_24:                              # %then.1.i.i.i.i.i.i.i.i.i.i
                                        #   in Loop: Header=BB60_8 Depth=1
	movl	%eax, %ecx
	movl	%r11d, %edi
	decb	%dil
	setns	%dil
	jmp	.LBB60_60
.LBB60_28:                              # %join.6.i.i.i.i.i.i.i.i
                                        #   in Loop: Header=BB60_8 Depth=1
	movw	$257, 1136(%rsp)                # imm = 0x101
	jmp	.LBB60_5
.LBB60_30:                              # %join.3.i.i.i.i.i.i.i.i.i
                                        #   in Loop: Header=BB60_8 Depth=1
	cmpl	$129, %r11d
	adcb	$0, %r11b
	xorl	%ebp, %ebp
	xorl	%r12d, %r12d
	jmp	.LBB60_34
.LBB60_29:                              # %join.9.i.i.i.i.i.i.i.i
                                        #   in Loop: Header=BB60_8 Depth=1
	movb	$1, 1136(%rsp)
	jmp	.LBB60_5
.LBB60_31:                              # %join.3.i.i.i.i.i.i.i.i.i.i
                                        #   in Loop: Header=BB60_8 Depth=1
	cmpb	$11, %al
	movzbl	%al, %r8d
	movl	$12, %eax
	cmovnel	%r8d, %eax
.LBB60_32:                              # %"scenario::released.exit.i.i.i.i.i.i.i"
                                        #   in Loop: Header=BB60_8 Depth=1
	movl	$0, 8(%rsp)                     # 4-byte Folded Spill
.LBB60_33:                              # %"scenario::released.exit.i.i.i.i.i.i.i"
                                        #   in Loop: Header=BB60_8 Depth=1
	movl	%edx, %ebp
.LBB60_34:                              # %"scenario::released.exit.i.i.i.i.i.i.i"
                                        #   in Loop: Header=BB60_8 Depth=1
	movl	%edx, %r8d
	shrl	$24, %r8d
	movzbl	%r12b, %ecx
	movl	%r8d, %r9d
	shll	$8, %r9d
	orl	%ecx, %r9d
	cmpb	$13, %dil
	je	.LBB60_35
# %bb.36:                               # %join.9.i.i.i.i.i.i.i
                                        #   in Loop: Header=BB60_8 Depth=1
	shrl	$8, %edx
	testb	$1, %r14b
	je	.LBB60_40
# %bb.37:                               # %then.1.i85.i.i.i.i.i.i.i
                                        #   in Loop: Header=BB60_8 Depth=1
	movzbl	%al, %r9d
	cmpb	$10, %r9b
	ja	.LBB60_45
# %bb.38:                               # %then.1.i.i99.i.i.i.i.i.i.i
                                        #   in Loop: Header=BB60_8 Depth=1
	incb	%al
	movl	%eax, 16(%rsp)                  # 4-byte Spill
	cmpb	$1, 8(%rsp)                     # 1-byte Folded Reload
	jne	.LBB60_50
# %bb.39:                               # %then.4.i.i.i.i.i.i.i.i.i
                                        #   in Loop: Header=BB60_8 Depth=1
	leaq	.Lstatic.12(%rip), %rcx
	cmpb	(%r9,%rcx), %dil
	sete	%al
	movl	%eax, 8(%rsp)                   # 4-byte Spill
	jmp	.LBB60_51
.LBB60_40:                              # %join.3.i44.i.i.i.i.i.i.i
                                        #   in Loop: Header=BB60_8 Depth=1
	cmpb	$9, %dil
	movl	%eax, 16(%rsp)                  # 4-byte Spill
	jne	.LBB60_46
# %bb.41:                               # %then.4.i49.i.i.i.i.i.i.i
                                        #   in Loop: Header=BB60_8 Depth=1
	xorl	%edi, %edi
	cmpb	$1, 4(%rsp)                     # 1-byte Folded Reload
	movl	$0, 4(%rsp)                     # 4-byte Folded Spill
	jne	.LBB60_79
# %bb.42:                               # %then.1.i167.i.i.i.i.i.i.i.i
                                        #   in Loop: Header=BB60_8 Depth=1
	movzbl	40(%rsp), %ecx                  # 1-byte Folded Reload
	decl	%ecx
	cmpl	$7, %ecx
	ja	.LBB60_76
# %bb.43:                               # %then.1.i167.i.i.i.i.i.i.i.i
                                        #   in Loop: Header=BB60_8 Depth=1
	leaq	.LJTI60_0(%rip), %rdx
	movslq	(%rdx,%rcx,4), %rcx
	addq	%rdx, %rcx
	jmpq	*%rcx
.LBB60_44:                              # %then.1.i.i.i78.i.i.i.i.i.i.i
                                        #   in Loop: Header=BB60_8 Depth=1
	decb	%r11b
	setns	%al
	jmp	.LBB60_78
.LBB60_45:                              # %join.3.i.i87.i.i.i.i.i.i.i
                                        #   in Loop: Header=BB60_8 Depth=1
	cmpb	$11, %r9b
	movl	$12, %eax
	cmovnel	%r9d, %eax
	movl	%eax, 16(%rsp)                  # 4-byte Spill
	testb	%dil, %dil
	sete	%cl
	andb	8(%rsp), %cl                    # 1-byte Folded Reload
	movl	%ecx, %eax
	movl	%eax, 8(%rsp)                   # 4-byte Spill
	jmp	.LBB60_51
.LBB60_46:                              # %join.6.i45.i.i.i.i.i.i.i
                                        #   in Loop: Header=BB60_8 Depth=1
	leal	-48(%rdi), %r9d
	testb	$1, %r12b
	je	.LBB60_48
# %bb.47:                               # %then.7.i.i.i.i.i.i.i.i.i
                                        #   in Loop: Header=BB60_8 Depth=1
	cmpb	$46, %dil
	sete	%cl
	cmpb	$10, %r9b
	setb	%r12b
	orb	%cl, %r12b
	cmpb	$46, %dil
	movl	%edx, %ecx
	notb	%cl
	movzbl	%r12b, %eax
	movzbl	%cl, %r12d
	cmovnel	%eax, %r12d
	cmpb	$10, %r9b
	cmovbl	%eax, %r12d
	andb	$1, %r12b
.LBB60_48:                              # %"fields::seen.exit.i.i.i.i.i.i.i.i"
                                        #   in Loop: Header=BB60_8 Depth=1
	cmpb	$46, %dil
	sete	%al
	orb	%dl, %al
	movzbl	%al, %edx
	andl	$1, %edx
	xorl	%eax, %eax
	cmpb	$10, %r9b
	setb	%al
	movq	32(%rsp), %rsi                  # 8-byte Reload
	leal	(%rsi,%rsi,4), %ecx
	movzbl	%r9b, %edi
	leal	(%rdi,%rcx,2), %edi
	cmovael	%esi, %edi
	xorl	%ecx, %ecx
	testb	$1, %bpl
	cmovnel	%eax, %ecx
	cmpl	$10000, %esi                    # imm = 0x2710
	cmovael	%esi, %edi
	cmpb	$-127, %r11b
	adcb	$0, %r11b
	testb	$1, %r8b
	movl	$1, %r8d
	cmovel	%eax, %r8d
	movl	%ecx, %ebp
	movq	72(%rsp), %rsi                  # 8-byte Reload
	jmp	.LBB60_80
.LBB60_49:                              #   in Loop: Header=BB60_8 Depth=1
	movb	$1, %al
	movl	%eax, 4(%rsp)                   # 4-byte Spill
	movl	$65537, %edx                    # imm = 0x10001
	movq	$0, 32(%rsp)                    # 8-byte Folded Spill
	xorl	%r11d, %r11d
	movl	$0, 28(%rsp)                    # 4-byte Folded Spill
	movl	$0, 24(%rsp)                    # 4-byte Folded Spill
	movl	$0, 20(%rsp)                    # 4-byte Folded Spill
	movq	$0, 64(%rsp)                    # 8-byte Folded Spill
	movq	$0, 40(%rsp)                    # 8-byte Folded Spill
	movb	$1, %al
	movl	%eax, 8(%rsp)                   # 4-byte Spill
	xorl	%eax, %eax
	xorl	%edi, %edi
	xorl	%r15d, %r15d
	xorl	%r13d, %r13d
	jmp	.LBB60_7
.LBB60_50:                              #   in Loop: Header=BB60_8 Depth=1
	movl	$0, 8(%rsp)                     # 4-byte Folded Spill
.LBB60_51:                              # %"scenario::on_byte.exit.i.i.i.i.i.i.i"
                                        #   in Loop: Header=BB60_8 Depth=1
	movq	32(%rsp), %rax                  # 8-byte Reload
	movl	%eax, %edi
	jmp	.LBB60_80
.LBB60_52:                              # %then.13.i.i.i.i.i.i.i.i.i.i
                                        #   in Loop: Header=BB60_8 Depth=1
	movl	%eax, %ecx
	leal	-1(%r11), %edi
	cmpb	$5, %dil
	setb	%r8b
	movl	52(%rsp), %eax                  # 4-byte Reload
	cmpl	%eax, 32(%rsp)                  # 4-byte Folded Reload
	jmp	.LBB60_54
.LBB60_53:                              # %then.7.i.i.i.i.i.i.i.i.i.i
                                        #   in Loop: Header=BB60_8 Depth=1
	movl	%eax, %ecx
	leal	-1(%r11), %edi
	cmpb	$5, %dil
	setb	%r8b
	movq	56(%rsp), %rax                  # 8-byte Reload
	cmpl	%eax, 32(%rsp)                  # 4-byte Folded Reload
.LBB60_54:                              # %"fields::field_past.exit.i.i.i.i.i.i.i.i"
                                        #   in Loop: Header=BB60_8 Depth=1
	sete	%dil
	andb	%dl, %dil
	jmp	.LBB60_58
.LBB60_55:                              # %then.4.i.i.i.i.i.i.i.i.i.i
                                        #   in Loop: Header=BB60_8 Depth=1
	movl	%eax, %ecx
	leal	-1(%r11), %edi
	cmpb	$20, %dil
	setb	%r8b
	movl	%edx, %edi
	notl	%edi
	testl	$16842752, %edi                 # imm = 0x1010000
	sete	%dil
	jmp	.LBB60_58
.LBB60_56:                              # %join.15.i.i.i.i.i.i.i.i.i.i
                                        #   in Loop: Header=BB60_8 Depth=1
	cmpb	$7, 40(%rsp)                    # 1-byte Folded Reload
	ja	.LBB60_59
# %bb.57:                               # %then.19.i.i.i.i.i.i.i.i.i.i
                                        #   in Loop: Header=BB60_8 Depth=1
	movl	%eax, %ecx
	leal	-1(%r11), %edi
	cmpb	$5, %dil
	setb	%r8b
	movl	%edx, %edi
.LBB60_58:                              # %"fields::field_past.exit.i.i.i.i.i.i.i.i"
                                        #   in Loop: Header=BB60_8 Depth=1
	andb	%r8b, %dil
	jmp	.LBB60_60
.LBB60_59:                              #   in Loop: Header=BB60_8 Depth=1
	movl	%eax, %ecx
	xorl	%edi, %edi
.LBB60_60:                              # %"fields::field_past.exit.i.i.i.i.i.i.i.i"
                                        #   in Loop: Header=BB60_8 Depth=1
	movq	40(%rsp), %r9                   # 8-byte Reload
	cmpb	$9, %r9b
	movl	%r9d, %r12d
	adcb	$0, %r12b
	cmpb	$4, %r9b
	movq	64(%rsp), %rax                  # 8-byte Reload
	movl	%eax, %ebp
	movq	32(%rsp), %rax                  # 8-byte Reload
	cmovel	%eax, %ebp
	cmpb	$5, %r9b
	movl	20(%rsp), %r14d                 # 4-byte Reload
	cmovel	%eax, %r14d
	cmpb	$6, %r9b
	movl	24(%rsp), %r8d                  # 4-byte Reload
	cmovel	%eax, %r8d
	cmpb	$7, %r9b
	movl	28(%rsp), %r9d                  # 4-byte Reload
	cmovel	%eax, %r9d
	cmpb	$9, %r12b
	jne	.LBB60_71
# %bb.61:                               # %"fields::field_past.exit.i.i.i.i.i.i.i.i"
                                        #   in Loop: Header=BB60_8 Depth=1
	testb	%dil, %dil
	je	.LBB60_71
# %bb.62:                               # %then.5.i.i.i.i.i.i.i.i.i
                                        #   in Loop: Header=BB60_8 Depth=1
	cmpl	56(%rsp), %ebp                  # 4-byte Folded Reload
	jae	.LBB60_71
# %bb.63:                               # %then.5.i.i.i.i.i.i.i.i.i
                                        #   in Loop: Header=BB60_8 Depth=1
	cmpl	52(%rsp), %r14d                 # 4-byte Folded Reload
	jae	.LBB60_71
# %bb.64:                               # %then.5.i.i.i.i.i.i.i.i.i.i
                                        #   in Loop: Header=BB60_8 Depth=1
	movl	%r14d, %edi
	movl	%ebp, %r14d
	imulq	56(%rsp), %rdi                  # 8-byte Folded Reload
	addq	%r14, %rdi
	cmpq	104(%rsp), %rdi                 # 8-byte Folded Reload
	jae	.LBB60_71
# %bb.65:                               # %"gridmap::bay_in.exit.i.i.i.i.i.i.i.i.i"
                                        #   in Loop: Header=BB60_8 Depth=1
	movzwl	10344(%rsp,%rdi,2), %edi
	cmpw	$1, %di
	movl	%edi, %ebp
	adcl	$-1, %ebp
	testw	%di, %di
	je	.LBB60_71
# %bb.66:                               # %arm.8.i.i.i.i.i.i.i.i.i
                                        #   in Loop: Header=BB60_8 Depth=1
	cmpl	56(%rsp), %r8d                  # 4-byte Folded Reload
	jae	.LBB60_71
# %bb.67:                               # %arm.8.i.i.i.i.i.i.i.i.i
                                        #   in Loop: Header=BB60_8 Depth=1
	cmpl	52(%rsp), %r9d                  # 4-byte Folded Reload
	jae	.LBB60_71
# %bb.68:                               # %then.5.i25.i.i.i.i.i.i.i.i.i
                                        #   in Loop: Header=BB60_8 Depth=1
	movl	%r9d, %edi
	movl	%r8d, %r8d
	imulq	56(%rsp), %rdi                  # 8-byte Folded Reload
	addq	%r8, %rdi
	cmpq	104(%rsp), %rdi                 # 8-byte Folded Reload
	jae	.LBB60_71
# %bb.69:                               # %"gridmap::number_at.exit.i32.i.i.i.i.i.i.i.i.i"
                                        #   in Loop: Header=BB60_8 Depth=1
	movzwl	10344(%rsp,%rdi,2), %edi
	testw	%di, %di
	je	.LBB60_71
# %bb.70:                               # %"scenario::step.exit.thread162.i.i.i.i.i.i"
                                        #   in Loop: Header=BB60_8 Depth=1
	decl	%edi
	leal	1(%r13), %r8d
	movl	%ebp, %r15d
	movq	96(%rsp), %rcx                  # 8-byte Reload
	jmp	.LBB60_15
.LBB60_71:                              # %arm.11.i.i.i.i.i.i.i.i
                                        #   in Loop: Header=BB60_8 Depth=1
	movb	$1, 1136(%rsp)
	movq	%r15, 1138(%rsp)
	movl	%ecx, %eax
	movq	96(%rsp), %rcx                  # 8-byte Reload
	jmp	.LBB60_6
.LBB60_72:                              # %then.13.i.i.i62.i.i.i.i.i.i.i
                                        #   in Loop: Header=BB60_8 Depth=1
	decb	%r11b
	cmpb	$5, %r11b
	setb	%cl
	movl	52(%rsp), %eax                  # 4-byte Reload
	cmpl	%eax, 32(%rsp)                  # 4-byte Folded Reload
	jmp	.LBB60_74
.LBB60_73:                              # %then.7.i.i.i70.i.i.i.i.i.i.i
                                        #   in Loop: Header=BB60_8 Depth=1
	decb	%r11b
	cmpb	$5, %r11b
	setb	%cl
	movq	56(%rsp), %rax                  # 8-byte Reload
	cmpl	%eax, 32(%rsp)                  # 4-byte Folded Reload
.LBB60_74:                              # %"fields::well_field.exit.i.i67.i.i.i.i.i.i.i"
                                        #   in Loop: Header=BB60_8 Depth=1
	sete	%dl
	andb	%dl, %bpl
	andb	%cl, %bpl
                                        # kill: def $bpl killed $bpl killed $ebp def $ebp
	movl	%ebp, 4(%rsp)                   # 4-byte Spill
	jmp	.LBB60_79
.LBB60_75:                              # %then.4.i.i.i75.i.i.i.i.i.i.i
                                        #   in Loop: Header=BB60_8 Depth=1
	decb	%r11b
	cmpb	$20, %r11b
	setb	%cl
	notl	%r9d
	testl	$257, %r9d                      # imm = 0x101
	sete	%al
	andb	%cl, %al
	jmp	.LBB60_78
.LBB60_76:                              # %join.15.i.i.i80.i.i.i.i.i.i.i
                                        #   in Loop: Header=BB60_8 Depth=1
	cmpb	$7, 40(%rsp)                    # 1-byte Folded Reload
	ja	.LBB60_82
# %bb.77:                               # %then.19.i.i.i82.i.i.i.i.i.i.i
                                        #   in Loop: Header=BB60_8 Depth=1
	decb	%r11b
	cmpb	$5, %r11b
	setb	%al
	andb	%bpl, %al
.LBB60_78:                              # %"fields::well_field.exit.i.i67.i.i.i.i.i.i.i"
                                        #   in Loop: Header=BB60_8 Depth=1
	movl	%eax, 4(%rsp)                   # 4-byte Spill
.LBB60_79:                              # %"fields::field_past.exit.i51.i.i.i.i.i.i.i"
                                        #   in Loop: Header=BB60_8 Depth=1
	movq	40(%rsp), %rdx                  # 8-byte Reload
	cmpb	$9, %dl
	movl	%edx, %ecx
	adcb	$0, %cl
	cmpb	$4, %dl
	movq	64(%rsp), %rax                  # 8-byte Reload
	movq	32(%rsp), %r8                   # 8-byte Reload
	cmovel	%r8d, %eax
	movq	%rax, 64(%rsp)                  # 8-byte Spill
	cmpb	$5, %dl
	movl	20(%rsp), %eax                  # 4-byte Reload
	cmovel	%r8d, %eax
	movl	%eax, 20(%rsp)                  # 4-byte Spill
	cmpb	$6, %dl
	movl	24(%rsp), %eax                  # 4-byte Reload
	cmovel	%r8d, %eax
	movl	%eax, 24(%rsp)                  # 4-byte Spill
	cmpb	$7, %dl
	movl	28(%rsp), %eax                  # 4-byte Reload
	cmovel	%r8d, %eax
	movl	%eax, 28(%rsp)                  # 4-byte Spill
	movb	$1, %bpl
	movl	%ecx, %eax
	movq	%rax, 40(%rsp)                  # 8-byte Spill
	xorl	%r11d, %r11d
	xorl	%edx, %edx
	movb	$1, %r12b
	xorl	%r8d, %r8d
.LBB60_80:                              # %"scenario::on_byte.exit.i.i.i.i.i.i.i"
                                        #   in Loop: Header=BB60_8 Depth=1
	shll	$8, %r14d
	movzbl	%bpl, %eax
	shll	$8, %edx
	movzwl	%dx, %ecx
	orl	%eax, %ecx
	movzbl	%r12b, %eax
	shll	$16, %eax
	orl	%ecx, %eax
	movzbl	%r8b, %edx
	shll	$24, %edx
	orl	%eax, %edx
	movw	%r14w, 1136(%rsp)
	movb	$1, 1138(%rsp)
	movl	%edi, %eax
	movq	%rax, 32(%rsp)                  # 8-byte Spill
	movl	16(%rsp), %eax                  # 4-byte Reload
	jmp	.LBB60_81
.LBB60_82:                              #   in Loop: Header=BB60_8 Depth=1
	movl	$0, 4(%rsp)                     # 4-byte Folded Spill
	jmp	.LBB60_79
.LBB60_83:                              # %join.3.i.i.i
	leaq	1136(%rsp), %rdi
	movl	$9208, %edx                     # imm = 0x23F8
	movq	%rbx, %rsi
	callq	memcpy@PLT
	movl	$16, %eax
	jmp	.LBB60_85
.LBB60_84:                              # %join.6.i.i.i
	leaq	1136(%rsp), %rdi
	movl	$9208, %edx                     # imm = 0x23F8
	movq	%rbx, %rsi
	callq	memcpy@PLT
	movl	$17, %eax
.LBB60_85:                              # %arm.2.i.i.i
	movq	$1, 10344(%rsp)
	movq	%rax, 10352(%rsp)
	movq	$0, 10360(%rsp)
	leaq	10344(%rsp), %rdi
	movq	112(%rsp), %rsi                 # 8-byte Reload
	callq	"numbers::told"
	movq	%rax, %r14
	jmp	.LBB60_94
.LBB60_86:                              # %"scenario::feed.exit.loopexit.i.i.i.i"
	movl	%ebp, %r15d
	movl	%ebp, %r8d
	movl	%ebp, %ecx
	shrl	$8, %r8d
	andb	$1, %cl
	movb	%cl, 72(%rsp)                   # 1-byte Spill
	je	.LBB60_89
.LBB60_87:                              # %then.1.i.i.i.i
	movl	%r8d, %r12d
	leaq	1136(%rsp), %rdi
	movl	$9208, %edx                     # imm = 0x23F8
	movq	%rbx, %rsi
	callq	memcpy@PLT
	movq	$0, 64(%rsp)                    # 8-byte Folded Spill
	movl	$0, 20(%rsp)                    # 4-byte Folded Spill
	movl	$0, 24(%rsp)                    # 4-byte Folded Spill
	movl	$0, 28(%rsp)                    # 4-byte Folded Spill
	movq	$0, 32(%rsp)                    # 8-byte Folded Spill
	xorl	%r15d, %r15d
	xorl	%ebp, %ebp
	movq	$0, 40(%rsp)                    # 8-byte Folded Spill
	movl	$0, 8(%rsp)                     # 4-byte Folded Spill
	movl	$0, 16(%rsp)                    # 4-byte Folded Spill
	jmp	.LBB60_93
.LBB60_88:
	movl	%esi, %ebp
	movl	16(%rsp), %eax                  # 4-byte Reload
	shrl	$8, %r8d
	andb	$1, %cl
	movb	%cl, 72(%rsp)                   # 1-byte Spill
	jne	.LBB60_87
.LBB60_89:                              # %join.3.i.i.i.i.i
	shrl	$16, %r15d
	shrl	$24, %ebp
	movl	%r8d, %r12d
	testb	$1, %r8b
	je	.LBB60_91
# %bb.90:
	movl	%eax, 16(%rsp)                  # 4-byte Spill
	movq	$0, 64(%rsp)                    # 8-byte Folded Spill
	movl	$0, 20(%rsp)                    # 4-byte Folded Spill
	movl	$0, 24(%rsp)                    # 4-byte Folded Spill
	movl	$0, 28(%rsp)                    # 4-byte Folded Spill
	movq	$0, 32(%rsp)                    # 8-byte Folded Spill
	movq	$0, 40(%rsp)                    # 8-byte Folded Spill
	jmp	.LBB60_92
.LBB60_91:                              # %join.6.i.i.i.i.i
	movzbl	4(%rsp), %eax                   # 1-byte Folded Reload
	shll	$8, %eax
	movzbl	40(%rsp), %ecx                  # 1-byte Folded Reload
	orl	%eax, %ecx
	shll	$16, %r11d
	orl	%ecx, %r11d
	andl	$16712191, %r11d                # imm = 0xFF01FF
	andl	$16843009, %edx                 # imm = 0x1010101
	shlq	$32, %rdx
	orq	%r11, %rdx
	movl	$0, 16(%rsp)                    # 4-byte Folded Spill
	movl	$0, 8(%rsp)                     # 4-byte Folded Spill
	movq	%rdx, 40(%rsp)                  # 8-byte Spill
.LBB60_92:                              # %join.3.i.i.i.i
	andb	$1, %r15b
	andb	$1, %bpl
	leaq	1136(%rsp), %r14
	movl	$9208, %edx                     # imm = 0x23F8
	movq	%r14, %rdi
	movq	%rbx, %rsi
	callq	memcpy@PLT
	leaq	628(%rsp), %rsi
	movl	$508, %edx                      # imm = 0x1FC
	movq	%r14, %rdi
	callq	memcpy@PLT
	leaq	1644(%rsp), %rdi
	leaq	120(%rsp), %rsi
	movl	$508, %edx                      # imm = 0x1FC
	callq	memcpy@PLT
.LBB60_93:                              # %arm.1.i.i.i
	movl	%r12d, %ecx
	andb	$1, %cl
	movq	112(%rsp), %rax                 # 8-byte Reload
	movq	$0, (%rax)
	movl	$101, %r14d
	movw	$1, %r12w
	movb	%bpl, 4(%rsp)                   # 1-byte Spill
                                        # kill: def $r15b killed $r15b killed $r15d
	movb	%cl, 56(%rsp)                   # 1-byte Spill
	movzbl	14(%rsp), %ebp                  # 1-byte Folded Reload
.LBB60_94:                              # %"sejjekoru::serial::sejjekoru_link_piece.exit"
	leaq	1136(%rsp), %rsi
	movl	$9208, %edx                     # imm = 0x23F8
	movq	%rbx, %rdi
	callq	memcpy@PLT
	movq	64(%rsp), %rax                  # 8-byte Reload
	movl	%eax, 9208(%rbx)
	movl	20(%rsp), %eax                  # 4-byte Reload
	movl	%eax, 9212(%rbx)
	movl	24(%rsp), %eax                  # 4-byte Reload
	movl	%eax, 9216(%rbx)
	movl	28(%rsp), %eax                  # 4-byte Reload
	movl	%eax, 9220(%rbx)
	movq	32(%rsp), %rax                  # 8-byte Reload
	movl	%eax, 9224(%rbx)
	movw	%r13w, 9228(%rbx)
	movzbl	72(%rsp), %eax                  # 1-byte Folded Reload
	movb	%al, 9230(%rbx)
	movzbl	56(%rsp), %eax                  # 1-byte Folded Reload
	movb	%al, 9231(%rbx)
	movb	%r15b, 9232(%rbx)
	movzbl	4(%rsp), %eax                   # 1-byte Folded Reload
	movb	%al, 9233(%rbx)
	movl	16(%rsp), %eax                  # 4-byte Reload
	movb	%al, 9234(%rbx)
	movl	8(%rsp), %eax                   # 4-byte Reload
	movb	%al, 9235(%rbx)
	movq	40(%rsp), %rax                  # 8-byte Reload
	movq	%rax, 9236(%rbx)
	movw	%r12w, 9244(%rbx)
	movb	%bpl, 9246(%rbx)
	movzbl	15(%rsp), %eax                  # 1-byte Folded Reload
	movb	%al, 9247(%rbx)
	movq	%r14, %rax
	addq	$18536, %rsp                    # imm = 0x4868
	.cfi_def_cfa_offset 56
	popq	%rbx
	.cfi_def_cfa_offset 48
	popq	%r12
	.cfi_def_cfa_offset 40
	popq	%r13
	.cfi_def_cfa_offset 32
	popq	%r14
	.cfi_def_cfa_offset 24
	popq	%r15
	.cfi_def_cfa_offset 16
	popq	%rbp
	.cfi_def_cfa_offset 8
	retq
.Lfunc_end60:
	.size	sejjekoru_link_piece, .Lfunc_end60-sejjekoru_link_piece
	.cfi_endproc
	.section	.rodata.sejjekoru_link_piece,"a",@progbits
	.p2align	2, 0x0
.LJTI60_0:
	.long	.LBB60_44-.LJTI60_0
	.long	.LBB60_73-.LJTI60_0
	.long	.LBB60_72-.LJTI60_0
	.long	.LBB60_76-.LJTI60_0
	.long	.LBB60_76-.LJTI60_0
	.long	.LBB60_76-.LJTI60_0
	.long	.LBB60_76-.LJTI60_0
	.long	.LBB60_75-.LJTI60_0
.LJTI60_1:
	.long	.LBB60_24-.LJTI60_1
	.long	.LBB60_53-.LJTI60_1
	.long	.LBB60_52-.LJTI60_1
	.long	.LBB60_56-.LJTI60_1
	.long	.LBB60_56-.LJTI60_1
	.long	.LBB60_56-.LJTI60_1
	.long	.LBB60_56-.LJTI60_1
	.long	.LBB60_55-.LJTI60_1
                                        # -- End function
	.type	.Lstatic.0,@object              # @static.0
	.section	.rodata..Lstatic.0,"a",@progbits
.Lstatic.0:
	.ascii	"type octile"
	.size	.Lstatic.0, 11

	.type	.Lstatic.12,@object             # @static.12
	.section	.rodata..Lstatic.12,"a",@progbits
.Lstatic.12:
	.ascii	"version 1.0"
	.size	.Lstatic.12, 11

	.type	.Lstatic.15,@object             # @static.15
	.section	.rodata..Lstatic.15,"a",@progbits
.Lstatic.15:
	.ascii	"(move"
	.size	.Lstatic.15, 5

	.type	.Lstatic.16,@object             # @static.16
	.section	.rodata..Lstatic.16,"a",@progbits
.Lstatic.16:
	.ascii	"p edge "
	.size	.Lstatic.16, 7

	.type	.Lstatic.17,@object             # @static.17
	.section	.rodata..Lstatic.17,"a",@progbits
.Lstatic.17:
	.ascii	"e "
	.size	.Lstatic.17, 2

	.type	.Lswitch.table.sejjekoru_slots,@object # @switch.table.sejjekoru_slots
	.section	.rodata..Lswitch.table.sejjekoru_slots,"a",@progbits
	.p2align	3, 0x0
.Lswitch.table.sejjekoru_slots:
	.quad	1                               # 0x1
	.quad	2                               # 0x2
	.quad	3                               # 0x3
	.quad	4                               # 0x4
	.quad	5                               # 0x5
	.quad	6                               # 0x6
	.quad	7                               # 0x7
	.quad	8                               # 0x8
	.quad	9                               # 0x9
	.quad	10                              # 0xa
	.quad	11                              # 0xb
	.quad	12                              # 0xc
	.quad	13                              # 0xd
	.quad	14                              # 0xe
	.quad	15                              # 0xf
	.quad	16                              # 0x10
	.quad	17                              # 0x11
	.quad	18                              # 0x12
	.quad	19                              # 0x13
	.quad	20                              # 0x14
	.quad	25                              # 0x19
	.quad	26                              # 0x1a
	.quad	27                              # 0x1b
	.size	.Lswitch.table.sejjekoru_slots, 184

	.ident	"rattle logic=dac8208d650f15bf3e2dc313a14fa4c783a3acf887bdfab66e1714b038d9e11b"
	.section	".note.GNU-stack","",@progbits
