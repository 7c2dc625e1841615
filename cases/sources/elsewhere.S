    .text
#if defined(aarch64)
    .globl start
start:
    ldr x19, table_at
    ldr x0, [x19]
    ldr w20, [x0]
    add x2, x19, 8
    ldr x1, [x2]
    add x1, x1, x2
    ldr w3, [x1]
    add w20, w20, w3
    mov x0, 1
    ldr x1, text_at
    mov x2, 6
    mov x8, 64
    svc 0
    mov w0, w20
    mov x8, 93
    svc 0
#elif defined(riscv64)
    .option norelax
    .option norvc
    .globl start
start:
    auipc s1, 0
    ld s0, 256(s1)
    ld a0, 0(s0)
    lw s2, 0(a0)
    ld a1, 8(s0)
    lw a3, 0(a1)
    add s2, s2, a3
    li a0, 1
    ld a1, 264(s1)
    li a2, 6
    li a7, 64
    ecall
    mv a0, s2
    li a7, 93
    ecall
    .org 256
#elif defined(s390x)
    .globl start
start:
    basr %r13, 0
    lg %r12, 254(%r13)
    lg %r1, 0(%r12)
    lgf %r11, 0(%r1)
    lgr %r2, %r12
    aghi %r2, 8
    lg %r1, 0(%r2)
    agr %r1, %r2
    agf %r11, 0(%r1)
    lghi %r2, 1
    lg %r3, 262(%r13)
    lghi %r4, 6
    svc 4
    lgr %r2, %r11
    svc 1
    .org 256
#elif defined(ppc64)
    .section .opd, "aw"
    .globl start
start:
    .quad .start, 0, 0
    .text
.start:
    bcl 20, 31, 1f
1:  mflr 9
    ld 31, table_at - 1b(9)
    ld 3, 0(31)
    lwz 30, 0(3)
    addi 4, 31, 8
    ld 5, 0(4)
    add 5, 5, 4
    lwz 6, 0(5)
    add 30, 30, 6
    li 0, 4
    li 3, 1
    ld 4, text_at - 1b(9)
    li 5, 6
    sc
    mr 3, 30
    li 0, 1
    sc
#elif defined(alpha)
    .set noat
    .globl start
start:
    br $9, 1f
1:  ldq $10, 252($9)
    ldq $16, 0($10)
    ldl $11, 0($16)
    lda $17, 8($10)
    ldq $18, 0($17)
    addq $18, $17, $18
    ldl $19, 0($18)
    addl $11, $19, $11
    lda $16, 1($31)
    ldq $17, 260($9)
    lda $18, 6($31)
    lda $0, 4($31)
    callsys
    mov $11, $16
    lda $0, 1($31)
    callsys
    .org 256
#elif defined(mips64)
    .globl start
start:
    bal 1f
1:  ld $16, 248($31)
    ld $4, 0($16)
    lw $17, 0($4)
    daddiu $5, $16, 8
    lw $6, 0($5)
    daddu $6, $6, $5
    lw $7, 0($6)
    addu $17, $17, $7
    li $4, 1
    ld $5, 256($31)
    li $6, 6
    li $2, 5001
    syscall
    move $4, $17
    li $2, 5058
    syscall
    .org 256
#elif defined(sparc64)
    .globl start
start:
    rd %pc, %l0
    ldx [%l0 + 256], %l1
    ldx [%l1], %o0
    ldsw [%o0], %l2
    add %l1, 8, %o1
    ldx [%o1], %o2
    add %o2, %o1, %o2
    ldsw [%o2], %o3
    add %l2, %o3, %l2
    mov 1, %o0
    ldx [%l0 + 264], %o1
    mov 6, %o2
    mov 4, %g1
    ta 0x6d
    mov %l2, %o0
    mov 1, %g1
    ta 0x6d
    .org 256
#endif
    .balign 8
table_at: .quad table
text_at: .quad text
    .data
    .balign 8
table: .quad number
#if defined(riscv64)
    .quad other
#elif defined(mips64)
    .long other - .
#else
    .quad other - .
    .long other - .
#endif
    .long number
    .globl text
text: .ascii "hello\n"
