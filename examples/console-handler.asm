; The handler of the sample console in three files: one scanline.
handler: push r31
  push r30
  in r30,SREG
  push r30
  lds r30,TCNT1L
  subi r30,15
  rung 1
  rung 2
  rung 3
  cbi PORTB,0               ; ends at 28
  step_tone r30             ; ends at 35
  lds r30,line
  cpi r30,3
  brlo broad
  wait 40
  nop
  sbi PORTB,0               ; ends at 162
  cpi r30,38
  brsh draw
done: inc r30
  sts line,r30
leave: pop r30
  out SREG,r30
  pop r30
  pop r31
  reti                      ; ends at 1558, 178, 1299
broad:
  .rept 2
  wait 250
  .endr
  sbi PORTB,0               ; ends at 1542
  rjmp done
draw: push r29
  ldi r30,shown
  rjmp .
row: mov r29,r30            ; begins at 170
  wait 75
  ldi r31,width
pix: out PORTC,r29          ; ends at 398, 409, .. 1267
  inc r29
  .rept 3
  rjmp .
  .endr
  dec r31
  brne pix
  ldi r29,0
  out PORTC,r29             ; ends at 1278
  dec r30
  breq drawn
  .if width - 80
  .else
  wait 188
  .endif
  rjmp .
  cbi PORTB,0
  step_tone r29
  wait 41
  rjmp .
  sbi PORTB,0
  ldi r31,2
  out TIFR1,r31
  .rept 2
  rjmp .
  .endr
  rjmp row
drawn: pop r29
  ldi r30,0
  sts line,r30
  rjmp leave
