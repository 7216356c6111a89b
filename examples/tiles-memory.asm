; The tile kernel's RAM and flash, its frame, and what the certifier has to be told of them.

; RAM
.equ phase  = 0x100           ; the handler's: 0 equalizing, 1 serrated, 2 equalizing, 3 blank, 4 picture, 5 blank
.equ left   = 0x101           ; the handler's: lines of this phase that are left, this one too
.equ wavelo = 0x102           ; the handler's: the sound's place in the wave table, in 256ths
.equ wavehi = 0x103
.equ step   = 0x104           ; main's: what is added to that place each line
.equ pads   = 0x105           ; the handler's, two bytes: the first pad's buttons, 1 where pressed
.equ frames = 0x107           ; the handler's: counts frames
.equ column = 0x108           ; main's: the cursor
.equ row    = 0x109
.equ seen   = 0x10A           ; main's: the frame that it saw last
.equ brush  = 0x10B           ; main's: the tile that the cursor leaves
.equ map    = 0x200           ; main's: 840 bytes, row by row; main may store to all of 0x200 to 0x5FF

; Flash
.equ wave    = 0x1000         ; 256 bytes
.equ kernel  = 0x2000         ; the handler
.equ tiles   = 0x4000         ; 64 bytes for each tile

; The frame, 271 lines: 18 half lines, which take the time of 9 whole ones, and 253 whole lines
.equ PULSES  = 6              ; half lines of each of the phases 0, 1 and 2
.equ UPPER   = 20             ; blank lines above the picture
.equ ROWS    = 28             ; rows of tiles; a row is 8 lines
.equ COLUMNS = 30
.equ LOWER   = 9              ; blank lines below the picture
.lines 271, 28
.half 0, 17
.cell phase, handler, 0, 5, 0
.cell left, handler, 1, 28, 6
