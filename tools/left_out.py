"""Names what a listing (uzebox dis HEX) does that the checked machine leaves out and that costs a chip its timing.

usage: python3 left_out.py LISTING

A line for each instruction: its word address and text, the register that it stores to, what the chip does. A store
through a pointer isn't judged, nor the value that is stored. PROFILE.md says what the list is for.
"""
import re
import sys

WORD = re.compile(r"([0-7][0-9A-F]{3}): [0-9A-F]{4} (?:[0-9A-F]{4}|    ) (.+)")
STORE = re.compile(r"(out|sbi|cbi|sts) (\d+),")
# by data address; the I/O address is 0x20 less
REGISTERS = {
    0x3D: ("EIMSK", "enables external interrupts"),
    0x3F: ("EECR", "stops the processor for an EEPROM access, or enables an interrupt"),
    0x43: ("GTCCR", "can stop the timers"),
    0x4C: ("SPCR", "can enable an interrupt"),
    0x50: ("ACSR", "can enable an interrupt"),
    0x53: ("SMCR", "lets SLEEP sleep"),
    0x55: ("MCUCR", "IVSEL moves the vectors"),
    0x57: ("SPMCSR", "can enable an interrupt"),
    0x60: ("WDTCSR", "can enable an interrupt or a reset"),
    0x61: ("CLKPR", "divides the clock"),
    0x64: ("PRR", "bit 3 stops timer 1"),
    0x66: ("OSCCAL", "changes the internal oscillator"),
    0x68: ("PCICR", "enables pin change interrupts"),
    0x6E: ("TIMSK0", "enables interrupts"),
    0x70: ("TIMSK2", "enables interrupts"),
    0x7A: ("ADCSRA", "can enable an interrupt"),
    0x86: ("ICR1L", "in the handler: uses TEMP"),
    0x87: ("ICR1H", "in the handler: changes TEMP"),
    0x8A: ("OCR1BL", "in the handler: uses TEMP"),
    0x8B: ("OCR1BH", "in the handler: changes TEMP"),
    0xBC: ("TWCR", "can enable an interrupt"),
    0xC1: ("UCSR0B", "can enable interrupts"),
}


def left_out(text):
    if text == "sleep":
        return "SLEEP: sleeps where SMCR lets it"
    found = STORE.match(text)
    if not found:
        return None
    register = REGISTERS.get(int(found[2]) + 0x20 * (found[1] != "sts"))
    return register and ": ".join(register)


def main(words):
    if len(words) != 1:
        sys.exit("left_out.py: the word is LISTING")
    try:
        with open(words[0], encoding="latin-1") as file:
            lines = file.read().splitlines()
    except OSError as error:
        sys.exit(f"left_out.py: {words[0]}: {error.strerror}")
    for number, line in enumerate(lines, 1):
        found = WORD.fullmatch(line)
        if not found:
            sys.exit(f"left_out.py: {words[0]} line {number}: no line of a listing")
        if why := left_out(found[2]):
            print(f"{found[1]}: {found[2]:<16}{why}")


if __name__ == "__main__":
    main(sys.argv[1:])
