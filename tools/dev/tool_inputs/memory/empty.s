  .syntax unified
  .section .nothing,"aw",%nobits
  .balign 8
nothing_here:
  .section .nothing_text,"ax",%progbits
  .balign 64
nothing_there:
  .section .rotable,"a"
  .balign 4
  .word 1,2,3,4,5
