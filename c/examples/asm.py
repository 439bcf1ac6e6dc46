#!/usr/bin/env python3
"""A small System/360 assembler, for the utility of this folder.

    asm.py SOURCE --object FILE --listing FILE

The source has a statement a line: a label in column 1, an operation, operands without blanks (but within quotes), and remarks. A line
that begins with an asterisk is a remark. Beside the machine's instructions there are START, USING, DC, DS, EQU, CCW and END; DC knows the
types X, C (in EBCDIC), H, F and A. An address is written D(X,B), D(L,B), D(B) or as an expression, which the USING before it resolves.
The object is the bytes from START's address on."""
import argparse
import re
import sys

RR = dict(BALR=0x05, BCTR=0x06, BCR=0x07, SSK=0x08, ISK=0x09, LPR=0x10, LNR=0x11, LTR=0x12, LCR=0x13, NR=0x14, CLR=0x15, OR=0x16, XR=0x17,
          LR=0x18, CR=0x19, AR=0x1A, SR=0x1B, MR=0x1C, DR=0x1D, ALR=0x1E, SLR=0x1F)
RX = dict(STH=0x40, LA=0x41, STC=0x42, IC=0x43, EX=0x44, BAL=0x45, BCT=0x46, BC=0x47, LH=0x48, CH=0x49, AH=0x4A, SH=0x4B, MH=0x4C, CVD=0x4E,
          CVB=0x4F, ST=0x50, N=0x54, CL=0x55, O=0x56, X=0x57, L=0x58, C=0x59, A=0x5A, S=0x5B, M=0x5C, D=0x5D, AL=0x5E, SL=0x5F)
RS = dict(BXH=0x86, BXLE=0x87, STM=0x90, LM=0x98)
SHIFT = dict(SRL=0x88, SLL=0x89, SRA=0x8A, SLA=0x8B)
SI = dict(TM=0x91, MVI=0x92, NI=0x94, CLI=0x95, OI=0x96, XI=0x97)
S = dict(SSM=0x80, LPSW=0x82, SIO=0x9C, TIO=0x9D, HIO=0x9E, TCH=0x9F)
SS = dict(MVN=0xD1, MVC=0xD2, MVZ=0xD3, NC=0xD4, CLC=0xD5, OC=0xD6, XC=0xD7, TR=0xDC)
SS2 = dict(PACK=0xF2, UNPK=0xF3)
BRANCH = dict(B=15, BH=2, BL=4, BE=8, BNE=7, BZ=8, BNZ=7, BO=1, BM=4, NOP=0)
LENGTHS = dict(C=1, X=1, H=2, F=4, A=4)


# a length attribute, or what stands in quotes
TOKEN = r"L'(?=[A-Z])|'[^']*'"


class Fault(Exception):
    pass


def fields(line):
    """the label, the operation and the operands of a line"""
    label, _, rest = line.partition(" ")
    operation, _, rest = rest.strip().partition(" ")
    operands = re.match(rf"(?:{TOKEN}|[^ '])*", rest.strip()).group()
    return label, operation, operands


def split(operands):
    """the operands, which commas outside brackets and quotes part"""
    parts, depth = [""], 0
    for token in re.findall(rf"{TOKEN}|.", operands):
        depth += (token == "(") - (token == ")")
        if token == "," and not depth:
            parts.append("")
        else:
            parts[-1] += token
    return [it for it in parts if it or len(parts) > 1]


class Assembler:
    def __init__(self, lines):
        self.lines, self.symbols, self.lengths, self.absolute, self.using = lines, {}, {}, set(), None

    def value(self, text):
        """an expression of numbers and symbols"""
        total = 0
        for sign, term in re.findall(r"([+-]?)(L'\w+|X'[0-9A-F]+'|C'.'|\w+|\*)", text):
            if term == "*":
                n = self.at
            elif term.startswith("L'") and term[2:] in self.lengths:
                n = self.lengths[term[2:]]
            elif term.startswith("X'"):
                n = int(term[2:-1], 16)
            elif term.startswith("C'"):
                n = term[2].encode("cp037")[0]
            elif term.isdigit():
                n = int(term)
            elif term in self.symbols:
                n = self.symbols[term]
            else:
                raise Fault(f"{term} is not defined")
            total += -n if sign == "-" else n
        return total

    def address(self, text):
        """the base and displacement of an operand, and what stands in its brackets before the base"""
        found = re.fullmatch(r"([^()]+)(?:\(([^()]*)\))?", text)
        if not found:
            raise Fault(f"no address: {text}")
        inner = [self.value(it) if it else 0 for it in split(found[2])] if found[2] else []
        n = self.value(found[1])
        if not any(it == "*" or it in self.symbols and it not in self.absolute for it in re.findall(r"[A-Z*]\w*", found[1])):
            base = inner.pop() if inner else 0
            return base, n, inner[0] if inner else None
        base, origin = self.using or (0, 0)
        if not 0 <= n - origin < 4096:
            raise Fault(f"{text} is out of reach")
        return base, n - origin, inner[0] if inner else None

    def storage(self, text):
        base, displacement, _ = self.address(text)
        return base << 12 | displacement

    def indexed(self, text):
        """an address with an index: D(X,B), or D(B)"""
        base, displacement, index = self.address(text)
        return (index or 0) << 16 | base << 12 | displacement

    def with_length(self, text):
        """an address with a length: D(L,B) or D(L), or without brackets that of its first symbol"""
        first = re.match(r"\w+", text).group()
        found = re.fullmatch(r"([^()]+)\(([^(),]*)(,[^()]*)?\)", text)
        if not found:
            return self.storage(text), self.lengths.get(first, 1)
        return self.storage(found[1] + (f"({found[3][1:]})" if found[3] else "")), self.value(found[2])

    def instruction(self, op, words):
        reg = self.value
        if op in RR:
            return bytes([RR[op], reg(words[0]) << 4 | reg(words[1])])
        if op == "BR":
            return bytes([0x07, 0xF0 | reg(words[0])])
        if op == "SVC":
            return bytes([0x0A, reg(words[0])])
        if op in BRANCH:
            return (0x47000000 | BRANCH[op] << 20 | self.indexed(words[0])).to_bytes(4, "big")
        if op in RX:
            return (RX[op] << 24 | reg(words[0]) << 20 | self.indexed(words[1])).to_bytes(4, "big")
        if op in RS:
            return (RS[op] << 24 | reg(words[0]) << 20 | reg(words[1]) << 16 | self.storage(words[2])).to_bytes(4, "big")
        if op in SHIFT:
            return (SHIFT[op] << 24 | reg(words[0]) << 20 | self.storage(words[1])).to_bytes(4, "big")
        if op in SI:
            return (SI[op] << 24 | reg(words[1]) << 16 | self.storage(words[0])).to_bytes(4, "big")
        if op in S:
            return (S[op] << 24 | self.storage(words[0])).to_bytes(4, "big")
        if op in SS:
            first, length = self.with_length(words[0])
            return (SS[op] << 40 | length - 1 << 32 | first << 16 | self.storage(words[1])).to_bytes(6, "big")
        if op in SS2:
            (first, one), (second, two) = self.with_length(words[0]), self.with_length(words[1])
            return (SS2[op] << 40 | one - 1 << 36 | two - 1 << 32 | first << 16 | second).to_bytes(6, "big")
        if op == "CCW":
            command, at, flags, count = (self.value(it) for it in words)
            return (command << 56 | at << 32 | flags << 24 | count).to_bytes(8, "big")
        raise Fault(f"{op} is no operation")

    def constant(self, word):
        """the bytes of one operand of DC, and the length of one element"""
        found = re.fullmatch(r"(\d*)([XCHFA])(?:L(\d+))?(?:'([^']*)'|\((.*)\))", word)
        if not found:
            raise Fault(f"no constant: {word}")
        repeated, kind, length, text, expression = found.groups()
        if kind == "X":
            one = bytes.fromhex(text)
        elif kind == "C":
            one = text.encode("cp037")
        else:
            size = int(length or LENGTHS[kind])
            one = (self.value(expression or text) % (1 << 8 * size)).to_bytes(size, "big")
        if length:
            one = one.ljust(int(length), b"\x40" if kind == "C" else b"\0")
        return one * int(repeated or 1), len(one)

    def reserved(self, word):
        """how many bytes an operand of DS reserves, and the length of one element"""
        found = re.fullmatch(r"(\d*)([XCHFDA])(?:L(\d+))?", word)
        if not found:
            raise Fault(f"no storage: {word}")
        one = int(found[3]) if found[3] else dict(LENGTHS, D=8)[found[2]]
        return int(found[1] or 1) * one, one

    @staticmethod
    def boundary(op, words):
        if op == "CCW":
            return 8
        kind = re.match(r"\d*([A-Z])(L\d)?", words[0]) if op in ("DC", "DS") and words else None
        if kind:
            return 1 if kind[2] else dict(H=2, F=4, A=4, D=8).get(kind[1], 1)
        return 1 if op in ("DC", "DS") else 2

    def statement(self, label, op, words):
        """the bytes of a statement and the length that its label has"""
        if op == "DC":
            made = [self.constant(it) for it in words]
            return b"".join(it[0] for it in made), made[0][1]
        if op == "DS":
            made = [self.reserved(it) for it in words]
            return bytes(sum(it[0] for it in made)), made[0][1]
        made = self.instruction(op, words)
        return made, len(made)

    def passes(self, is_last):
        """one pass over the source: the object and the listing's lines"""
        made, listing, self.at, start = bytearray(), [], 0, 0
        for number, line in enumerate(self.lines, 1):
            label, op, operands = fields(line) if line.strip() and not line.startswith("*") else ("", "", "")
            words = split(operands)
            try:
                if op == "START":
                    self.at = start = self.value(operands)
                elif op == "EQU":
                    self.symbols[label], self.lengths[label] = self.value(operands), 1
                    self.absolute.add(label)
                elif op == "USING":
                    self.using = (self.value(words[1]), self.value(words[0]))
                if not op or op in ("START", "EQU", "USING", "END"):
                    listing.append(f"{'':24}{line}".rstrip())
                    continue
                gap = -self.at % self.boundary(op, words)
                made += bytes(gap)
                self.at += gap
                try:
                    code, length = self.statement(label, op, words)
                except Fault:
                    if is_last:
                        raise
                    code, length = self.unresolved(op, words), 1
            except Fault as fault:
                sys.exit(f"line {number}: {fault}")
            if label:
                length = length if op in ("DC", "DS", "CCW") else len(code)
                self.symbols[label], self.lengths[label] = self.at, length
            listing.append(f"{self.at:06X} {code[:8].hex().upper():16} {line}".rstrip())
            made += code
            self.at += len(code)
        return bytes(made), listing

    @staticmethod
    def unresolved(op, words):
        """as many bytes as the statement will have, while a symbol is not yet known"""
        known = Assembler([])
        known.value = lambda text: 0
        known.address = lambda text: (0, 0, None)
        known.with_length = lambda text: (0, 1)
        return known.statement("", op, words)[0]


def main():
    parser = argparse.ArgumentParser()
    parser.add_argument("source")
    parser.add_argument("--object", required=True)
    parser.add_argument("--listing", required=True)
    words = parser.parse_args()
    with open(words.source, encoding="ascii") as it:
        assembler = Assembler(it.read().split("\n")[:-1])
    assembler.passes(is_last=False)
    made, listing = assembler.passes(is_last=True)
    with open(words.object, "wb") as it:
        it.write(made)
    with open(words.listing, "w", encoding="ascii") as it:
        it.write("\n".join(listing) + "\n")


if __name__ == "__main__":
    main()
