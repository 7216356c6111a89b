; The handler of the tile kernel: one line each time, but the whole picture in one go. The numbers behind semicolons are
; clocks of the line at which an instruction ends.
.org 0x34                     ; the vector of timer 1's compare match A
  jmp handler

.org kernel
handler: push r31              ; the vector is entered at 4 + c, c being the latency of 0 to 3 clocks
  push r30
  in r30,SREG
  push r30
  lds r30,TCNT1L              ; samples 15 + c
  subi r30,15
  cpi r30,1                   ; 3 - c clocks more
  brlo .
  cpi r30,2
  brlo .
  cpi r30,3
  brlo .
  cbi PORTB,0                 ; 28
  push r29                    ; 30
  lds r29,phase               ; 32
  cpi r29,3                   ; 33
  brlo pulse                  ; 35 where taken
  rjmp whole                  ; 36

; A half line: sync is low for 66 clocks, or for 775 where it is serrated.
pulse:
  line_of 910                 ; 41
  lds r31,left                ; 43
  sbrc r31,0                  ; a sample each second half line: where 6, 4 or 2 are left
  rjmp mute                   ; 46
  sound                       ; 64
  rjmp sounded                ; 66
mute:
  wait 18                     ; 64
  rjmp .                      ; 66
sounded: cpi r29,1            ; 67
  breq serrated
  wait 24                     ; 92
  sbi PORTB,0                 ; 94
  rjmp count
serrated:                     ; 69
  wait 732                    ; 801
  sbi PORTB,0                 ; 803

; The next line: one less of this phase, or the first of the next.
count: lds r31,left
  dec r31
  brne counted
  inc r29
  ldi r31,PULSES
  cpi r29,3
  brlo next
  ldi r31,UPPER
  cpi r29,4
  brlo next
  ldi r31,1                   ; the picture is one time of the handler
  cpi r29,5
  brlo next
  ldi r31,LOWER
  cpi r29,6
  brlo next
  ldi r31,PULSES
  ldi r29,0
next: sts phase,r29
counted: sts left,r31
  pop r29
leave: pop r30
  out SREG,r30
  pop r30
  pop r31
  reti

; A whole line: sync is low for 135 clocks. OCR1A has to be set before clock 909, at which the old one would match.
whole:
  line_of 1820                ; 42
  rjmp .
  nop                         ; 45, as in a half line
  sound                       ; 64
  wait 97                     ; 161
  sbi PORTB,0                 ; 163
  cpi r29,4
  brne blank
  rjmp picture                ; 167
blank: cpi r29,5
  brne other
  lds r31,left
  cpi r31,5                   ; the fifth line from below reads the pads
  breq read_pads
other: rjmp count

; The first pad: latch, then 16 bits by the clock; a 0 on the line is a pressed button.
read_pads: push r28
  push r27
  sbi PORTA,2
  rjmp .
  cbi PORTA,2
  ldi r31,16
bit: in r30,PINA
  lsr r30
  ror r28
  ror r27
  sbi PORTA,3
  rjmp .
  cbi PORTA,3
  dec r31
  brne bit
  com r27
  com r28
  sts pads,r27
  sts pads+1,r28
  lds r30,frames
  inc r30
  sts frames,r30
  pop r27
  pop r28
  rjmp count

; The picture: 224 lines of 30 tiles. Sync falls and rises between two of them; the first line's did above.
picture: push r0
  push r1
  push r16
  push r17
  push r18
  push r19
  push r20
  push r21
  push r26
  push r27                    ; 187
  ldi r20,0                   ; 8 times the line of the tile
  ldi r21,hi8(tiles)
  ldi r19,64                  ; bytes of a tile
  ldi r29,ROWS*8              ; lines left
  ldi r26,lo8(map)
  ldi r27,hi8(map)            ; 193
  wait 122                    ; 315

; What differs from line to line but for the count of lines is forgotten here, so that one point of the certificate
; stands for all 224 lines: the place on the map (X), the line of the tile (R20), and what the last tile left behind.
; A fact says nothing of a pair: MOV of one byte to itself makes X what its two bytes are.
.fact r26, 0, 255
.fact r27, 0, 255
.fact r20, 0, 255
.fact r18, 0, 255
.fact r16, 0, 255
.fact r0, 0, 255
.fact r1, 0, 255
.fact r30, 0, 255
.fact r31, 0, 255
draw: mov r27,r27             ; 316
  ldi r17,COLUMNS             ; 317
  ld r18,X+                   ; the first tile
  mul r18,r19
  add r0,r20
  adc r1,r21
  movw r30,r0
  lpm r16,Z+                  ; 327
  rjmp first                  ; 329

; A tile takes 48 clocks, a pixel 6: OUT, two clocks of work for the next tile, and LPM.
tile: out PORTC,r16           ; pixel 7
  movw r30,r0                 ; the next tile
  nop
  lpm r16,Z+
first: out PORTC,r16          ; pixel 0; 330 in the first tile, 302 behind the fall
  ld r18,X+                   ; the number of the next tile
  lpm r16,Z+
  out PORTC,r16               ; pixel 1
  mul r18,r19
  lpm r16,Z+
  out PORTC,r16               ; pixel 2
  add r0,r20
  adc r1,r21
  lpm r16,Z+
  out PORTC,r16               ; pixel 3
  rjmp .
  lpm r16,Z+
  out PORTC,r16               ; pixel 4
  rjmp .
  lpm r16,Z+
  out PORTC,r16               ; pixel 5
  dec r17
  nop
  lpm r16,Z+
  out PORTC,r16               ; pixel 6
  lpm r16,Z+
  brne tile
  nop
  out PORTC,r16               ; the last pixel; 1764
  ldi r16,0
  rjmp .
  rjmp .
  out PORTC,r16               ; black; 1770
  dec r29
  brne more                   ; 1773 where taken
  rjmp drawn                  ; 1774
more: sbiw r26,COLUMNS+1      ; the row again: one tile too many was read
  subi r20,-8
  cpi r20,64
  brne same                   ; 1779 where taken
  ldi r20,0
  adiw r26,COLUMNS            ; the next row; 1781
  rjmp fall                   ; 1783
same: rjmp .
  rjmp .                      ; 1783
fall:
  wait 63                     ; 26 of the next line
  cbi PORTB,0                 ; 28
  wait 17                     ; 45
  sound                       ; 64
  wait 97                     ; 161
  sbi PORTB,0                 ; 163
  wait 150                    ; 313
  rjmp draw                   ; 315

; The last line of the picture. The timer has matched 223 times: its flag would interrupt main at once.
drawn: ldi r31,2              ; 1775
  out TIFR1,r31
  pop r27
  pop r26
  pop r21
  pop r20
  pop r19
  pop r18
  pop r17
  pop r16
  pop r1
  pop r0                      ; 1796
  ldi r31,LOWER               ; as `count` would, in fewer clocks
  sts left,r31
  ldi r31,5
  sts phase,r31               ; 1802
  pop r29
  rjmp leave                  ; 1806
