; The sample console in three files, with macros: build it at the top of the repository.
.include examples/console-hardware.asm
.lines 262, 28
.stack 0x10C0, 0x10FF, 8, 16
.cell line, handler, 0, 38, 0
.start main, loop
.org 0
  jmp reset
.org 0x34
  jmp handler
reset: ldi r16,16
  out SPH,r16
  port SPL, 255
  out DDRC,r16
  port DDRB, 1
  out PORTB,r16
  port DDRA, 12
  store OCR1AH, 7
  store OCR1AL, 27
  store TIMSK1, 2
  store TCCR1B, 9
  sei
loop: sbi PORTA,2
  cbi PORTA,2
  ldi r18,16
bit: in r19,PINA
  lsr r19
  ror r21
  ror r20
  sbi PORTA,3
  cbi PORTA,3
  dec r18
  brne bit
  sts pad,r20
  sts pad+1,r21
  rjmp loop
.include examples/console-handler.asm
