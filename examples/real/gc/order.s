# Sections that live with those to which they are linked: with a symbol by which these refer to them, and without one.
    .section .text.kept,"ax",@progbits
    .globl kept
kept:
    ret
    .section .text.lost,"ax",@progbits
    .globl lost
lost:
    ret
    .section .rodata.reached,"a",@progbits
    .globl reached
reached:
    .byte 1
    .section .rodata.unreached,"a",@progbits
    .globl unreached
unreached:
    .byte 2
    .section .about_kept,"ao",@progbits,.text.kept
about_kept:
    .quad reached
    .section .about_lost,"ao",@progbits,.text.lost
about_lost:
    .quad unreached
    .section .marks_of_kept,"ao",@progbits,.text.kept
    .quad reached
    .section .marks_of_lost,"ao",@progbits,.text.lost
    .quad unreached
    .section .text.start,"ax",@progbits
    .globl start
start:
    call kept
    ret
    .section .note.GNU-stack,"",@progbits
