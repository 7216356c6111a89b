; A frame of 262 lines of 1820 clocks: rows 0 to 17 have 14 lines each and row 18 has 10. The first three lines have
; the broad pulse of vertical sync; rows 2 to 17 show the screen, 16 rows of 16 bytes. A number behind an instruction
; is the clock of its line at which it ends.
#include <avr/io.h>

  .section .screen,"aw",@nobits
  .global screen
screen: .skip 256

  .section .cells,"aw",@nobits
  .global row, line, frames
row: .skip 1
line: .skip 1
frames: .skip 1

  .text
  .global TIMER1_COMPA_vect
TIMER1_COMPA_vect:
  push r30
  in r30,_SFR_IO_ADDR(SREG)
  push r30
  lds r30,TCNT1L
  subi r30,13                   ; 0 to 3: how late the interrupt was taken
  cpi r30,1
  brlo .
  cpi r30,2
  brlo .
  cpi r30,3
  brlo .
  cbi _SFR_IO_ADDR(PORTB),0     ; 26: sync falls
  push r31
  push r27
  push r26
  lds r30,row
  lds r31,line
  tst r30
  brne 1f
  cpi r31,3
  brlo broad
  rjmp narrow
1:
  nop
  rjmp .
narrow:
  ldi r26,39
2:
  dec r26
  brne 2b
  nop
  sbi _SFR_IO_ADDR(PORTB),0     ; 162: sync rises
  cpi r30,2
  brlo next
  cpi r30,18
  brsh next
  mov r26,r30
  subi r26,2
  swap r26
  ldi r27,hi8(screen)           ; X is the row's first byte: the screen begins at a multiple of 256
  ldi r31,65
3:
  dec r31
  brne 3b
  ldi r30,16
pixels:
  ld r31,X+
  out _SFR_IO_ADDR(PORTC),r31   ; 369, 449 .. 1569
  ldi r31,24
4:
  dec r31
  brne 4b
  rjmp .
  dec r30
  brne pixels
  rjmp .
  ldi r31,0
  out _SFR_IO_ADDR(PORTC),r31   ; 1649
  lds r30,row
  lds r31,line
next:
  inc r31
  cpi r30,18
  brlo 5f
  cpi r31,10
  brlo store
  lds r31,frames
  inc r31
  sts frames,r31
  ldi r30,255
  rjmp 6f
5:
  cpi r31,14
  brlo store
6:
  inc r30
  ldi r31,0
store:
  sts row,r30
  sts line,r31
  pop r26
  pop r27
  pop r31
  pop r30
  out _SFR_IO_ADDR(SREG),r30
  pop r30
  reti
broad:
  ldi r26,250
7:
  dec r26
  brne 7b
  ldi r26,244
8:
  dec r26
  brne 8b
  sbi _SFR_IO_ADDR(PORTB),0
  rjmp next
