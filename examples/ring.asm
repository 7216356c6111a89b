; The smallest program that keeps a scanline, with interrupts off: 1820 clocks a turn. Build it; it has a block.
.lines 1, 1                   ; one line a frame; sync falls at its clock 1
.stack 4350, 4351, 0, 0       ; nothing is pushed
.start alone, loop
  ldi r16,0
  ldi r17,1
.fact r16, 0, 0               ; what the loop's beginning may take for granted
.fact r17, 1, 1
loop: out PORTB,r16           ; sync 0 at clock 1
.rept 135
  nop
.endr
  out PORTB,r17               ; sync 1 at clock 137
.rept 1681
  nop
.endr
  rjmp loop                   ; clock 1820 is clock 0 of the next line
