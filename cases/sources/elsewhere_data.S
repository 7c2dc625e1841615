    .data
    .balign 4
    .globl number, other
number: .long 40
other: .long 2
