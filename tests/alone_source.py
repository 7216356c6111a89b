"""Writes a program that runs alone in a ring of 1 or 2 lines, in which a register goes through 255 values.

    python3 alone_source.py LINES >alone.asm
"""
import sys

from outcomes import usage


def alone_source(lines):
    text = [f".lines {lines}, 1\n.stack 4350, 4351, 0, 0\n.start alone, first"]
    text.append("  ldi r16,0\n  ldi r17,1\n  ldi r25,0xB8")
    text.append(".fact r16, 0, 0\n.fact r17, 1, 1\n.fact r25, 0xB8, 0xB8")
    text.append("first: out PORTB,r16\n  ldi r24,1\n  rjmp over")
    text.append("loop: out PORTB,r16\n  lsr r24\n  brcc over\n  eor r24,r25\nover: nop")
    # so many more clocks until sync rises, and then until the line ends, by NOPs and by jumps of two clocks
    nops, jumps = (131, 0) if lines == 1 else (1, 65)
    text.append("  nop\n" * nops + "  rjmp .\n" * jumps + "  out PORTB,r17")
    nops, jumps = (681, 500) if lines == 1 else (1, 840)
    text.append("  rjmp .\n" * jumps + "  nop\n" * nops + "  rjmp loop\n")
    return "\n".join(text)


if __name__ == "__main__":
    if sys.argv[1:] not in (["1"], ["2"]):
        usage(__doc__)
    print(alone_source(int(sys.argv[1])), end="")
