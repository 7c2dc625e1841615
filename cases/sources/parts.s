.section .text.once,"axG",@progbits,once,comdat
.weak once
once: call far
.text
.globl begin
begin: jmp once
.quad begin - ., local + 4
local: .quad far@GOTPCREL
.comm common, 24, 16
.bss
.zero 100
.section .note.own,"a",@note
.long 4, 5, 7
.asciz "own"
.ascii "12345"
.balign 4
.section .init_array,"aw",@init_array
.quad begin
