; Reset and main of the tile kernel.
.org 0
  jmp reset
.org 0x40
reset:
  port SPH, 0x10
  port SPL, 0xFF
  out DDRC,r16
  port DDRB, 1
  out PORTB,r16
  port DDRA, 12               ; latch and clock of the pads
  store step, 2
  store brush, 2
  store phase, 0
  store left, PULSES

; The first map: a frame of tile 1 round a board of tiles 0 and 3.
  ldi r26,lo8(map)
  ldi r27,hi8(map)
  ldi r17,0                   ; row
rows: ldi r18,0               ; column
columns: mov r16,r17
  eor r16,r18
  andi r16,1
  breq board
  ldi r16,3
board: cpi r17,0
  breq frame
  cpi r17,ROWS-1
  breq frame
  cpi r18,0
  breq frame
  cpi r18,COLUMNS-1
  brne fill
frame: ldi r16,1
fill: st X+,r16
  inc r18
  cpi r18,COLUMNS
  brne columns
  inc r17
  cpi r17,ROWS
  brne rows
  store column, 14
  store row, 14

; A line of 1820 clocks, then the interrupt.
  store OCR1AH, hi8(1819)
  store OCR1AL, lo8(1819)
  store TIMSK1, 2
  store TCCR1B, 9
  sei

; Main keeps what it keeps in RAM, where a byte is one state for the search whatever it holds. The one pointer that
; stores is bounded by ANDI: the search learns nothing of a value from a compare, and a product may be any number.
loop: lds r16,frames          ; wait for a new frame
  lds r17,seen
  cp r16,r17
  brne new
  rjmp loop
new: sts seen,r16
  andi r16,3                  ; the cursor moves each fourth frame
  breq move
  rjmp loop
move: lds r20,pads            ; B Y Select Start up down left right, from bit 0 on
  lds r18,column
  lds r19,row
  sbrc r20,4
  dec r19
  sbrc r20,5
  inc r19
  sbrc r20,6
  dec r18
  sbrc r20,7
  inc r18
  cpi r18,COLUMNS             ; the cursor stays on the map; below 0 is 255
  brsh glide
  cpi r19,ROWS
  brsh glide
  sts column,r18
  sts row,r19
  lds r16,brush
  sbrc r20,0                  ; B: the next tile
  inc r16
  andi r16,3
  sts brush,r16
  rcall put
glide: lds r16,step           ; the tone follows the cursor
  lds r17,column
  add r16,r17
  andi r16,31
  ori r16,1
  sts step,r16
  rjmp loop

put: push r16                 ; tile R16 at column R18 of row R19
  ldi r17,COLUMNS
  mul r19,r17
  movw r26,r0
  add r26,r18
  ldi r17,0
  adc r27,r17
  andi r27,3                  ; 0x000 to 0x3FF, whatever came
  subi r27,-hi8(map)          ; 0x200 to 0x5FF
  pop r16
  st X,r16
  ret
