! The product of two words without a multiply instruction: 32 multiply steps, as the SPARC V7 manual gives them (appendix on
! software multiplication). The compiler calls it by this name where a product is asked for.
        .section ".text"
        .align  4
        .global .umul
        .type   .umul, #function
.umul:
        wr      %o0, 0, %y
        andcc   %g0, 0, %o2
        nop
        nop
        nop
        .rept   32
        mulscc  %o2, %o1, %o2
        .endr
        mulscc  %o2, 0, %o2
        retl
        rd      %y, %o0
        .size   .umul, . - .umul
        .section ".note.GNU-stack","",@progbits
