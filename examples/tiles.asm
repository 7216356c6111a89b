; A tile kernel: 224 lines of 240 pixels, each 6 clocks wide, tiles of 8 by 8 bytes in flash, a map of 30 by 28 tile
; numbers in RAM, NTSC's vertical sync on half lines, a sound sample each line, and the pads. Main moves a cursor over
; the map and leaves tiles behind. docs/TILES.md tells how it is made.
;
; Expand first, since certify reads no macros:
;   uzebox expand tiles.asm flat.asm
;   uzebox certify flat.asm 4 tiles.hex tiles.cert
.include tiles-memory.asm
.include tiles-macros.asm
.stack 0x10C0, 0x10FF, 3, 14
.start main, loop
.include tiles-main.asm
.include tiles-handler.asm
.include tiles-data.asm
