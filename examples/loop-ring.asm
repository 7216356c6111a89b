; The ring of ring.asm with loops in place of NOPs: the same line of 1820 clocks in 18 words.
; A loop of n turns of `dec` and `brne` takes 3n - 1 clocks: the last branch isn't taken.
.lines 1, 1
.stack 4350, 4351, 0, 0
.start alone, loop
  ldi r16,0
  ldi r17,1
.fact r16, 0, 0
.fact r17, 1, 1
loop: out PORTB,r16           ; sync 0 at clock 1
  ldi r18,45
a: dec r18                    ; from clock 2 on
  brne a
  out PORTB,r17               ; sync 1 at clock 137
  ldi r18,250
b: dec r18                    ; from clock 138 on
  brne b
  ldi r18,250
c: dec r18                    ; from clock 888 on
  brne c
  ldi r18,60
d: dec r18                    ; from clock 1638 on
  brne d
  nop
  rjmp loop                   ; ends at clock 1820
