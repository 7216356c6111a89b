; A whole frame of NTSC's timing with nothing in the picture: the vertical sync on half lines, then 253 whole lines.
; docs/HALF_LINES.md tells how it is made. Expand first, since certify reads no macros:
;   uzebox expand vertical-sync.asm flat.asm
;   uzebox certify flat.asm 4 vertical-sync.hex vertical-sync.cert
;
; A line is 1820 clocks of 28.63636 MHz (63.556 us), a half line 910. Sync is low for
;                       NTSC (us)     in clocks        here
;   equalizing pulse    2.3 +- 0.1    63.0 to 68.7     66
;   serrated pulse      27.1          776.0            775
;   horizontal sync     4.7 +- 0.1    131.7 to 137.5   135
; Half lines 0 to 5 are equalizing, 6 to 11 serrated, 12 to 17 equalizing. 18 half lines are 9 lines, and 9 + 253 = 262.

.equ phase = 0x100            ; 0 equalizing, 1 serrated, 2 equalizing, 3 whole lines
.equ left  = 0x101            ; lines of the phase that are left, this one too
.equ tone  = 0x102            ; the sound's phase
.equ step  = 0x103            ; what is added to it; main's, the handler only reads it

.lines 271, 28
.half 0, 17
.stack 0x10C0, 0x10FF, 0, 4
.cell phase, handler, 0, 3, 0
.cell left, handler, 1, 253, 6
.start main, loop

.macro wait                   ; wait CLOCKS, 3 to 767; R31 and flags are lost
  ldi r31,(@0)/3
w@@: dec r31
  brne w@@
.rept (@0)%3
  nop
.endr
.endm

.macro line_of                ; line_of CLOCKS: OCR1A, the high byte first; 6 clocks, R31 is lost
  ldi r31,hi8(@0-1)
  sts OCR1AH,r31
  ldi r31,lo8(@0-1)
  sts OCR1AL,r31
.endm

.macro sound                  ; one sample of a saw tooth; 9 clocks, R29, R31 and flags are lost
  lds r29,tone
  lds r31,step
  add r29,r31
  sts tone,r29
  sts OCR2A,r29
.endm

.org 0
  jmp reset
.org 0x34                     ; the vector of timer 1's compare match A
  jmp handler

reset: ldi r16,0x10
  out SPH,r16
  ldi r16,0xFF
  out SPL,r16
  ldi r16,1
  out DDRB,r16
  out PORTB,r16
  ldi r16,0
  sts phase,r16
  ldi r16,6
  sts left,r16
  ldi r16,hi8(1819)
  sts OCR1AH,r16
  ldi r16,lo8(1819)
  sts OCR1AL,r16
  ldi r16,2
  sts TIMSK1,r16
  ldi r16,9
  sts TCCR1B,r16
  sei
loop: lds r16,step            ; main glides the tone
  inc r16
  sts step,r16
  rjmp loop

; The numbers behind semicolons are clocks of the line at which an instruction ends. The vector is entered at 4 + c, c
; being the latency of 0 to 3 clocks.
handler: push r31
  push r30
  in r30,SREG
  push r30
  lds r30,TCNT1L              ; samples 15 + c
  subi r30,15
  cpi r30,1                   ; 3 - c clocks more
  brlo .
  cpi r30,2
  brlo .
  cpi r30,3
  brlo .
  cbi PORTB,0                 ; 28
  push r29                    ; 30
  lds r30,phase               ; 32
  cpi r30,3                   ; 33
  breq whole                  ; 34

; A half line. OCR1A has to be 909 before the timer passes it.
  line_of 910                 ; 40
  lds r31,left                ; 42
  sbrc r31,0                  ; a sample each second half line: where 6, 4 or 2 are left
  rjmp mute                   ; 45
  sound                       ; 53
  rjmp sounded                ; 55
mute: rjmp .
  rjmp .
  rjmp .
  rjmp .                      ; 53
  rjmp .                      ; 55
sounded: cpi r30,1            ; 56
  breq serrated
  wait 35                     ; 92
  sbi PORTB,0                 ; 94: 66 clocks low
  rjmp count
serrated:                     ; 58; a label stands alone before a call of a macro
  wait 743                    ; 801
  sbi PORTB,0                 ; 803: 775 clocks low

; The next line: one less of this phase, or the first of the next.
count: lds r31,left
  dec r31
  brne counted
  inc r30
  andi r30,3
  sts phase,r30
  ldi r31,6
  cpi r30,3
  brne counted
  ldi r31,253
counted: sts left,r31
  pop r29
  pop r30
  out SREG,r30
  pop r30
  pop r31
  reti

; A whole line. OCR1A has to be 1819 before clock 909, at which the old one would match.
whole:                        ; 35
  line_of 1820                ; 41
  rjmp .
  nop                         ; 44, as in a half line
  sound                       ; 53
  wait 108                    ; 161
  sbi PORTB,0                 ; 163: 135 clocks low
  rjmp count
