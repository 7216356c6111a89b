; Constants and macros of the sample console in three files.
.equ line = 0x100
.equ tone = 0x101
.equ pad = 0x102
.equ shown = 224
.equ width = 80

.macro port                 ; port NAME, VALUE
  ldi r16,@1
  out @0,r16
.endm

.macro store                ; store NAME, VALUE
  ldi r16,@1
  sts @0,r16
.endm

.macro wait                 ; wait TURNS, of three clocks each
  ldi r31,@0
wait@@: dec r31
  brne wait@@
.endm

.macro step_tone            ; step_tone REGISTER
  lds @0,tone
  subi @0,249
  sts tone,@0
  sts OCR2A,@0
.endm

.macro rung                 ; rung CLOCKS: one clock more where the count is below
  cpi r30,@0
  brlo .
.endm
