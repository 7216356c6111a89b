; Macros of the tile kernel.

.macro wait                   ; wait CLOCKS, 3 to 767; R31 and flags are lost
  ldi r31,(@0)/3
w@@: dec r31
  brne w@@
.rept (@0)%3
  nop
.endr
.endm

.macro line_of                ; line_of CLOCKS: OCR1A, the high byte first; 6 clocks, R31 is lost
  ldi r31,hi8(@0-1)
  sts OCR1AH,r31
  ldi r31,lo8(@0-1)
  sts OCR1AL,r31
.endm

.macro sound                  ; one sample of the wave table; 19 clocks, R30, R31 and flags are lost
  lds r30,wavelo
  lds r31,step
  add r30,r31
  sts wavelo,r30
  lds r30,wavehi
  ldi r31,0
  adc r30,r31
  sts wavehi,r30
  ldi r31,hi8(wave)
  lpm r30,Z
  sts OCR2A,r30
.endm

.macro port                   ; port NAME, VALUE; R16 is lost
  ldi r16,@1
  out @0,r16
.endm

.macro store                  ; store NAME, VALUE; R16 is lost
  ldi r16,@1
  sts @0,r16
.endm
