#!/usr/bin/env python3
"""A small two-pass assembler for the GMS87C1202.

    assemble.py prover.asm --grant 100000 > input   the image, 2,048 bytes, then the grant in 4 bytes, low byte first
    assemble.py prover.asm --listing > prover.lst   address, bytes and source of each line

A line is `label: operation ; comment`, each part optional. An operation is a mnemonic of the code sheet in
docs/CHIP.md or one of `.org address`, `.byte n, ..`, `.word n, ..` and `NAME = n`. Numbers are in base ten, or
hexadecimal after a `$`; `n+m` and `n-m` are sums. Operands are written as on the code sheet: #n, dp, dp+X, !abs,
!abs+Y, {X}, {X}+, [dp+X], [dp]+Y, A.bit, dp.bit. The registers at C0 to EF have their names.
Places of the image that no line fills hold FF.
"""

import argparse
import re
import sys

FIRST, SIZE = 0xF800, 2048

REGISTERS = dict(
    RA=0xC0, RAIO=0xC1, RB=0xC2, RBIO=0xC3, RC=0xC4, RCIO=0xC5, RAFUNC=0xCA, RBFUNC=0xCB, PUPSEL=0xCC,
    TM0=0xD0, T0=0xD1, TDR0=0xD1, TM1=0xD2, TDR1=0xD3, T1=0xD4, BUR=0xDE, IENH=0xE2, IENL=0xE3,
    IRQH=0xE4, IRQL=0xE5, IEDS=0xE6, BITR=0xEC, CKCTLR=0xEC, WDTR=0xED, PFDR=0xEF)

# The forms of an operand, tried in this order: a name, and a pattern in which n is an expression.
FORMS = [(name, re.compile(pattern.replace("n", r"([$\w+-]+)") + "$")) for name, pattern in (
    ("A.", r"A\.n"), ("A", "A"), ("X", "X"), ("Y", "Y"), ("PSW", "PSW"), ("#", "#n"),
    ("{X}+", r"{X}\+"), ("{X}", "{X}"), ("[+X]", r"\[n\+X\]"), ("[]+Y", r"\[n\]\+Y"),
    ("!+Y", r"!n\+Y"), ("!", "!n"), ("dp.", r"n\.n"), ("dp+X", r"n\+X"), ("dp", "n"))]

# The rows of the code sheet with eight codes, and the codes that stand alone.
ROWS = """
    04,05,06,07,14,15,16,17 ADC SBC CMP OR AND EOR LDA STA = # dp dp+X ! {X} !+Y [+X] []+Y
    08,09,18,19 ASL ROL LSR ROR INC DEC = A dp ! dp+X
    10 BPL BVC BCC BNE BMI BVS BCS BEQ = dp
"""
ALONE = """
    20 CLRC, 60 DI, 80 CLRV, A0 SETC, E0 EI, 0F BRK, 6F RET, 7F RETI, EF STOP, FF NOP
    C8 TXA, E8 TAX, BF TYA, 9F TAY, 8E TXSP, AE TSPX, 8F INC X, AF DEC X, 9E INC Y, BE DEC Y
    0D POP A, 2D POP X, 4D POP Y, 6D POP PSW, 0E PUSH A, 2E PUSH X, 4E PUSH Y, 6E PUSH PSW
    01 SET1 dp., 11 CLR1 dp., 02 BBS A. dp, 12 BBC A. dp, 03 BBS dp. dp, 13 BBC dp. dp
    E4 LDM dp #, 2F BRA dp, AC DBNE dp dp, 7B DBNE Y dp, 1B JMP !, 3B CALL !, 4F PCALL dp, 0A TCALL dp
    DB LDA {X}+, FB STA {X}+, EC STX dp, FC STX !, E9 STY dp, F8 STY !, F9 STY dp+X
    1E LDX #, CC LDX dp, DC LDX !, 3E LDY #, C9 LDY dp, D8 LDY !, D9 LDY dp+X
    5E CMPX #, 6C CMPX dp, 7C CMPX !, 7E CMPY #, 8C CMPY dp, 9C CMPY !
"""
BRANCHES = "BPL BVC BCC BNE BMI BVS BCS BEQ BRA BBS BBC DBNE".split()


class Wrong(Exception):
    """What is wrong with a line."""


def code_sheet():
    """The code of each mnemonic with the forms of its operands; a bit's or a table call's number is added to it."""
    sheet = {}
    for line in ROWS.strip().splitlines():
        left, forms = line.split(" = ")
        rows, *names = left.split()
        for h, name in enumerate(names):
            for row, form in zip(rows.split(","), forms.split()):
                sheet[name, form] = 0x20 * h + int(row, 16)
    del sheet["STA", "#"]
    for entry in re.split("[,\n]", ALONE.strip()):
        code, *key = entry.split()
        sheet[tuple(key)] = int(code, 16)
    return sheet


SHEET = code_sheet()


def form_of(operand):
    """The form of an operand, and its expressions."""
    for name, pattern in FORMS:
        match = pattern.match(operand)
        if match:
            return name, list(match.groups())
    raise Wrong(f"no operand: {operand}")


class Assembler:
    def __init__(self):
        self.names = dict(REGISTERS)
        self.image = bytearray(b"\xff" * SIZE)

    def value(self, text, low, high):
        """The value of an expression, within its bounds. In the first pass a name may still be unknown."""
        total = 0
        for sign, term in re.findall(r"([+-]?)([$\w]+)", text):
            if term[0] == "$" or term.isdigit():
                number = int(term[1:], 16) if term[0] == "$" else int(term)
            elif term in self.names:
                number = self.names[term]
            elif self.is_first:
                return low
            else:
                raise Wrong(f"no such name: {term}")
            total += -number if sign == "-" else number
        if not low <= total <= high:
            raise Wrong(f"{text} is {total:X}, which is not in {low:X} to {high:X}")
        return total

    def distance(self, text, after):
        """The byte that takes a branch from the address after it to its target."""
        distance = self.value(text, FIRST, 0xFFFF) - after
        if not -128 <= distance <= 127 and not self.is_first:
            raise Wrong(f"{text} is {distance} bytes away")
        return distance % 256

    def instruction(self, name, operands):
        """The bytes of an instruction."""
        forms = [form_of(operand) for operand in operands]
        key = (name, *(form for form, _ in forms))
        if key not in SHEET:
            raise Wrong("not on the code sheet")
        code, rest = SHEET[key], []
        if name == "LDM":
            forms.reverse()
        for place, (form, texts) in enumerate(forms, 1):
            if form in ("A.", "dp."):
                code += 0x20 * self.value(texts.pop(), 0, 7)
            if name == "TCALL":
                code += 0x10 * self.value(texts.pop(), 0, 15)
            elif name == "PCALL":
                rest.append(self.value(texts.pop(), 0xFF00, 0xFFFF) % 256)
            elif name in BRANCHES and place == len(forms):
                rest.append(self.distance(texts.pop(), self.here + len(rest) + 2))
            elif form in ("!", "!+Y"):
                rest += self.value(texts.pop(), 0, 0xFFFF).to_bytes(2, "little")
            elif texts:
                rest.append(self.value(texts.pop(), 0, 0xFF))
        return bytes([code, *rest])

    def line(self, text):
        """The bytes of a line, and what it names."""
        text = text.split(";")[0].strip()
        label = re.match(r"(\w+)\s*:\s*", text)
        if label:
            self.names[label[1]] = self.here
            text = text[label.end():]
        equate = re.match(r"(\w+)\s*=\s*(\S+)$", text)
        if equate:
            self.names[equate[1]] = self.value(equate[2], 0, 0xFFFF)
            return b""
        name, _, rest = text.partition(" ")
        operands = [part.strip() for part in rest.split(",")] if rest.strip() else []
        if name == ".org":
            self.here = self.value(operands[0], FIRST, 0xFFFF)
            return b""
        if name == ".byte":
            return bytes(self.value(operand, 0, 0xFF) for operand in operands)
        if name == ".word":
            return b"".join(self.value(operand, 0, 0xFFFF).to_bytes(2, "little") for operand in operands)
        return self.instruction(name, operands) if name else b""

    def take(self, lines, is_first):
        """One pass over the lines, which answers the listing."""
        self.here, self.is_first, listing = FIRST, is_first, []
        for number, text in enumerate(lines, 1):
            try:
                code = self.line(text)
                if self.here + len(code) > FIRST + SIZE:
                    raise Wrong("past the end of the image")
            except Wrong as wrong:
                sys.exit(f"line {number}: {text.strip()}: {wrong}")
            offset = self.here - FIRST
            self.image[offset:offset + len(code)] = code
            place = f"{self.here:04X}  {code.hex(' ').upper()}" if code else ""
            listing.append(f"{place:32}{text}".rstrip())
            self.here += len(code)
        return listing


def main():
    options = argparse.ArgumentParser(description="Assembles a program for the GMS87C1202.")
    options.add_argument("source")
    options.add_argument("--grant", type=int, default=0, help="ticks that are granted")
    options.add_argument("--listing", action="store_true", help="write a listing in place of the image")
    chosen = options.parse_args()
    with open(chosen.source, encoding="ascii") as source:
        lines = source.read().splitlines()
    assembler = Assembler()
    assembler.take(lines, True)
    listing = assembler.take(lines, False)
    if chosen.listing:
        print("\n".join(listing))
    else:
        sys.stdout.buffer.write(assembler.image + chosen.grant.to_bytes(4, "little"))


main()
