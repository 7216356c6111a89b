; The kernel of button.asm, one clock wrong on one path: where B is held the bar comes a clock late, since
; `rjmp .` takes 2 clocks and `nop` takes 1. A run without that button shows nothing wrong.
.equ pressed = 0x100
.lines 1, 23                  ; one line a frame; sync falls at its clock 23
.stack 0x10C0, 0x10FF, 0, 2   ; main pushes nothing, the handler 2 bytes
.cell pressed, main, 0, 1     ; main keeps this byte 0 or 1, and the handler may rely on it
.start main, loop
.org 0
  jmp reset
.org 0x34                     ; TIMER1_COMPA
  push r30
  in r30,SREG
  push r30
  lds r30,TCNT1L
  subi r30,10                 ; 0 to 3: how late the interrupt came
  cpi r30,1
  brlo .
  cpi r30,2
  brlo .
  cpi r30,3
  brlo .                      ; ends at 21, however late
  cbi PORTB,0                 ; sync 0 at 23
  sbi PORTB,0                 ; sync 1 at 25
  lds r30,pressed
  cpi r30,0
  brne press                  ; ends at 29, or at 30 at press
  ldi r30,56
  rjmp show                   ; ends at 32
press: ldi r30,7
  rjmp .                      ; ends at 33: one clock late
show: out PORTC,r30           ; pixel at 33
  ldi r30,0
  out PORTC,r30               ; pixel at 35
  pop r30
  out SREG,r30
  pop r30
  reti                        ; leave at 44
reset: ldi r16,1
  out DDRB,r16
  out PORTB,r16
  ldi r16,4
  out DDRA,r16
  ldi r16,255
  out DDRC,r16
  ldi r16,7
  sts OCR1AH,r16
  ldi r16,27
  sts OCR1AL,r16              ; 1820 clocks a line
  ldi r16,2
  sts TIMSK1,r16
  ldi r16,9
  sts TCCR1B,r16
  sei
loop: sbi PORTA,2
  cbi PORTA,2                 ; latches the pads
  in r16,PINA                 ; bit 0 is 0 where B is pressed
  com r16
  andi r16,1
  sts pressed,r16
  rjmp loop
