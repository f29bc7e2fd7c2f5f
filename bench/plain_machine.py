#!/usr/bin/env python3
"""A plain interpreter of gemcore's machine in both modes, written from the rules and the manuals and not from the code; it shares nothing with it.

    bench/plain_machine.py run CONFIG IMAGE SCRIPT    console on standard output, report on standard error, as `gemcore run` writes them
    bench/plain_machine.py asm SOURCE                 the words of a source, a line each
    bench/plain_machine.py selftest                   runs whose results are known

Run by hand, and by bench/differ_machine.py beside the program. IMAGE is a raw image, an ELF file, or, other than the program's, a
source (a name that ends in .s). It is not proved, and it tells no faults apart: a configuration, a source or a script that is wrong raises.
It knows what the program doesn't have yet: one to three caches between the crossbars, and these lines of scripts: `drain`, which goes on
until nothing is on its way; `switch atomic` and `switch timing`, which drain, write all lines back, forget them and hand the hart to the
other CPU; `dump ADDRESS COUNT`, what a load would see, `raw ADDRESS COUNT`, what memory has, and `lines PATH`, the lines of a cache.

As a module: run(config, image, script) gives a Result. The image is bytes or a list of words.
"""
import argparse
import bisect
import itertools
import json
import re
import sys
import tomllib

ALL_ONES = (1 << 64) - 1
RAM = 0x80000000
UART = 0x10000000
TIMER = 0x02000000
EXIT = 0x00100000
LAST_TICK = 1 << 62
MOST_INPUT = 256
MOST_ACTS = 256
# What the hart and the DMA engine ask for is noted where it is served, and what caches ask for isn't.
MOST_NOTED = 2


def signed(value, bits):
    """The number that the low bits are in two's complement."""
    value &= (1 << bits) - 1
    return value - (1 << bits) if value >> (bits - 1) else value


def wrap(value):
    return value & ALL_ONES


# The assembler.

REGISTERS = {f"x{number}": number for number in range(32)}
NAMES = "zero ra sp gp tp t0 t1 t2 s0 s1 a0 a1 a2 a3 a4 a5 a6 a7 s2 s3 s4 s5 s6 s7 s8 s9 s10 s11 t3 t4 t5 t6"
REGISTERS.update({name: number for number, name in enumerate(NAMES.split())}, fp=8)
CSRS = {"mstatus": 0x300, "misa": 0x301, "mie": 0x304, "mtvec": 0x305, "mscratch": 0x340, "mepc": 0x341, "mcause": 0x342, "mtval": 0x343,
        "mip": 0x344, "mvendorid": 0xF11, "marchid": 0xF12, "mimpid": 0xF13, "mhartid": 0xF14}
CSR_NAMES = {number: name for name, number in CSRS.items()}
WHOLE = {"ecall": 0x00000073, "ebreak": 0x00100073, "mret": 0x30200073, "wfi": 0x10500073, "fence": 0x0FF0000F, "fence.i": 0x0000100F}
WORD = {".word"}
UPPER = {"lui": 0x37, "auipc": 0x17}
JUMP = {"jal"}
BRANCHES = {"beq": 0, "bne": 1, "blt": 4, "bge": 5, "bltu": 6, "bgeu": 7}
# By name the opcode and funct3.
FROM_BASE = {"jalr": (0x67, 0), "lb": (0x03, 0), "lh": (0x03, 1), "lw": (0x03, 2), "ld": (0x03, 3), "lbu": (0x03, 4), "lhu": (0x03, 5), "lwu": (0x03, 6)}
STORES = {"sb": 0, "sh": 1, "sw": 2, "sd": 3}
BY_IMMEDIATE = {"addi": (0x13, 0), "slti": (0x13, 2), "sltiu": (0x13, 3), "xori": (0x13, 4), "ori": (0x13, 6), "andi": (0x13, 7), "addiw": (0x1B, 0)}
# By name the opcode, funct3, what stands above the amount, and the greatest amount.
SHIFTS = {"slli": (0x13, 1, 0, 63), "srli": (0x13, 5, 0, 63), "srai": (0x13, 5, 0x400, 63),
          "slliw": (0x1B, 1, 0, 31), "srliw": (0x1B, 5, 0, 31), "sraiw": (0x1B, 5, 0x400, 31)}
# By name the opcode, funct7 and funct3.
BY_REGISTER = {"add": (0x33, 0, 0), "sll": (0x33, 0, 1), "slt": (0x33, 0, 2), "sltu": (0x33, 0, 3), "xor": (0x33, 0, 4), "srl": (0x33, 0, 5),
               "or": (0x33, 0, 6), "and": (0x33, 0, 7), "sub": (0x33, 0x20, 0), "sra": (0x33, 0x20, 5),
               "mul": (0x33, 1, 0), "mulh": (0x33, 1, 1), "mulhsu": (0x33, 1, 2), "mulhu": (0x33, 1, 3),
               "div": (0x33, 1, 4), "divu": (0x33, 1, 5), "rem": (0x33, 1, 6), "remu": (0x33, 1, 7),
               "addw": (0x3B, 0, 0), "sllw": (0x3B, 0, 1), "srlw": (0x3B, 0, 5), "subw": (0x3B, 0x20, 0), "sraw": (0x3B, 0x20, 5),
               "mulw": (0x3B, 1, 0), "divw": (0x3B, 1, 4), "divuw": (0x3B, 1, 5), "remw": (0x3B, 1, 6), "remuw": (0x3B, 1, 7)}
CSR_BY_REGISTER = {"csrrw": 1, "csrrs": 2, "csrrc": 3}
CSR_BY_NUMBER = {"csrrwi": 5, "csrrsi": 6, "csrrci": 7}


def i_bits(number):
    """Where an I-type word has its immediate; the same of the other types below."""
    return (number & 0xFFF) << 20


def s_bits(number):
    return (number >> 5 & 0x7F) << 25 | (number & 31) << 7


def b_bits(number):
    return (number >> 12 & 1) << 31 | (number >> 5 & 0x3F) << 25 | (number >> 1 & 15) << 8 | (number >> 11 & 1) << 7


def j_bits(number):
    return (number >> 20 & 1) << 31 | (number >> 1 & 0x3FF) << 21 | (number >> 11 & 1) << 20 | (number >> 12 & 0xFF) << 12


def number_of(text):
    if re.fullmatch(r"-?(0|[1-9][0-9]*)", text):
        return int(text)
    if re.fullmatch(r"0x[0-9a-fA-F]+", text):
        return int(text, 16)
    raise ValueError("no number: " + text)


def within(number, least, greatest):
    if not least <= number <= greatest:
        raise ValueError(f"out of range: {number}")
    return number


def offset_to(text, place, labels, least):
    """How far a target is from the word's place."""
    if text.startswith(".+"):
        offset = number_of(text[2:])
    elif text.startswith(".-"):
        offset = -number_of(text[2:])
    else:
        offset = labels[text] - place
    if offset % 2:
        raise ValueError(f"an odd target: {offset}")
    return within(offset, least, -least - 2)


def base_and_offset(text):
    parts = re.fullmatch(r"(\S+)\((\w+)\)", text)
    return REGISTERS[parts[2]] << 15, within(number_of(parts[1]), -2048, 2047)


def whole_word(name, operands, place, labels):
    if operands:
        raise ValueError("operands of " + name)
    return WHOLE[name]


def given_word(name, operands, place, labels):
    return within(number_of(operands[0]), 0, 0xFFFFFFFF)


def upper_word(name, operands, place, labels):
    return within(number_of(operands[1]), 0, 0xFFFFF) << 12 | REGISTERS[operands[0]] << 7 | UPPER[name]


def jump_word(name, operands, place, labels):
    return j_bits(offset_to(operands[1], place, labels, -1048576)) | REGISTERS[operands[0]] << 7 | 0x6F


def branch_word(name, operands, place, labels):
    first, second = REGISTERS[operands[0]], REGISTERS[operands[1]]
    return b_bits(offset_to(operands[2], place, labels, -4096)) | second << 20 | first << 15 | BRANCHES[name] << 12 | 0x63


def from_base_word(name, operands, place, labels):
    opcode, funct3 = FROM_BASE[name]
    base, offset = base_and_offset(operands[1])
    return i_bits(offset) | base | funct3 << 12 | REGISTERS[operands[0]] << 7 | opcode


def store_word(name, operands, place, labels):
    base, offset = base_and_offset(operands[1])
    return s_bits(offset) | REGISTERS[operands[0]] << 20 | base | STORES[name] << 12 | 0x23


def by_immediate_word(name, operands, place, labels):
    opcode, funct3 = BY_IMMEDIATE[name]
    number = within(number_of(operands[2]), -2048, 2047)
    return i_bits(number) | REGISTERS[operands[1]] << 15 | funct3 << 12 | REGISTERS[operands[0]] << 7 | opcode


def shift_word(name, operands, place, labels):
    opcode, funct3, above, greatest = SHIFTS[name]
    amount = within(number_of(operands[2]), 0, greatest)
    return i_bits(above | amount) | REGISTERS[operands[1]] << 15 | funct3 << 12 | REGISTERS[operands[0]] << 7 | opcode


def by_register_word(name, operands, place, labels):
    opcode, funct7, funct3 = BY_REGISTER[name]
    destination, first, second = (REGISTERS[operand] for operand in operands)
    return funct7 << 25 | second << 20 | first << 15 | funct3 << 12 | destination << 7 | opcode


def csr_word(name, operands, place, labels):
    csr = CSRS[operands[1]] if operands[1] in CSRS else within(number_of(operands[1]), 0, 4095)
    if name in CSR_BY_REGISTER:
        source, funct3 = REGISTERS[operands[2]], CSR_BY_REGISTER[name]
    else:
        source, funct3 = within(number_of(operands[2]), 0, 31), CSR_BY_NUMBER[name]
    return csr << 20 | source << 15 | funct3 << 12 | REGISTERS[operands[0]] << 7 | 0x73


FORMS = [(WHOLE, whole_word), (WORD, given_word), (UPPER, upper_word), (JUMP, jump_word), (BRANCHES, branch_word), (FROM_BASE, from_base_word),
         (STORES, store_word), (BY_IMMEDIATE, by_immediate_word), (SHIFTS, shift_word), (BY_REGISTER, by_register_word),
         (CSR_BY_REGISTER, csr_word), (CSR_BY_NUMBER, csr_word)]


def word_of(line, place, labels):
    name, _, rest = line.partition(" ")
    operands = [operand.strip(" \t") for operand in rest.split(",")] if rest.strip() else []
    for names, form in FORMS:
        if name in names:
            return form(name, operands, place, labels)
    raise ValueError("no instruction: " + name)


def assemble(text):
    """The words of a source."""
    lines, labels = [], {}
    for line in text.split("\n"):
        line = line.split("#")[0].strip(" \t")
        label = re.fullmatch(r"([A-Za-z_][A-Za-z0-9_]*):", line)
        if label and label[1] in labels:
            raise ValueError("a label twice: " + label[1])
        if label:
            labels[label[1]] = 4 * len(lines)
        elif line:
            lines.append(line)
    return [word_of(line, 4 * index, labels) for index, line in enumerate(lines)]


def image_bytes(words):
    return b"".join(word.to_bytes(4, "little") for word in words)


# The hart: what a word is, what it needs, and what it does.

class Fields:
    def __init__(self, word):
        self.word = word
        self.rd, self.funct3, self.rs1, self.rs2 = word >> 7 & 31, word >> 12 & 7, word >> 15 & 31, word >> 20 & 31
        self.funct7, self.csr = word >> 25, word >> 20
        self.imm_i = signed(word >> 20, 12)
        self.imm_s = signed(word >> 25 << 5 | word >> 7 & 31, 12)
        self.imm_b = signed((word >> 31) << 12 | (word >> 7 & 1) << 11 | (word >> 25 & 63) << 5 | (word >> 8 & 15) << 1, 13)
        self.imm_u = signed(word & 0xFFFFF000, 32)
        self.imm_j = signed((word >> 31) << 20 | (word >> 12 & 255) << 12 | (word >> 20 & 1) << 11 | (word >> 21 & 1023) << 1, 21)


SYSTEM = {0x00000073: "ecall", 0x00100073: "ebreak", 0x30200073: "mret", 0x10500073: "wfi"}


def immediate_kind(fields):
    if fields.funct3 not in (1, 5):
        return "immediate"
    return "shift" if fields.word >> 26 in ((0,) if fields.funct3 == 1 else (0, 0x10)) else None


def immediate_w_kind(fields):
    known = {0: range(128), 1: (0,), 5: (0, 0x20)}
    return "immediate_w" if fields.funct7 in known.get(fields.funct3, ()) else None


def register_kind(fields):
    known = {0: range(8), 1: range(8), 0x20: (0, 5)}
    return "register" if fields.funct3 in known.get(fields.funct7, ()) else None


def register_w_kind(fields):
    known = {0: (0, 1, 5), 0x20: (0, 5), 1: (0, 4, 5, 6, 7)}
    return "register_w" if fields.funct3 in known.get(fields.funct7, ()) else None


def system_kind(fields):
    if fields.word in SYSTEM:
        return SYSTEM[fields.word]
    return "csr" if fields.funct3 & 3 else None


KINDS = {
    0x37: lambda fields: "lui",
    0x17: lambda fields: "auipc",
    0x6F: lambda fields: "jal",
    0x67: lambda fields: "jalr" if fields.funct3 == 0 else None,
    0x63: lambda fields: "branch" if fields.funct3 not in (2, 3) else None,
    0x03: lambda fields: "load" if fields.funct3 < 7 else None,
    0x23: lambda fields: "store" if fields.funct3 < 4 else None,
    0x13: immediate_kind,
    0x1B: immediate_w_kind,
    0x33: register_kind,
    0x3B: register_w_kind,
    0x0F: lambda fields: "fence" if fields.funct3 < 2 else None,
    0x73: system_kind,
}


def decode(word):
    """What kind of instruction the word is, None if it is none, and its fields."""
    fields = Fields(word)
    kind_of = KINDS.get(word & 127)
    return kind_of(fields) if kind_of else None, fields


def arithmetic(funct3, other, first, second):
    """The operations of RV64I; other: sub for add, sra for srl."""
    second = wrap(second)
    amount = second & 63
    results = {
        0: first - second if other else first + second,
        1: first << amount,
        2: int(signed(first, 64) < signed(second, 64)),
        3: int(first < second),
        4: first ^ second,
        5: signed(first, 64) >> amount if other else first >> amount,
        6: first | second,
        7: first & second,
    }
    return results[funct3]


def arithmetic_w(funct3, other, first, second):
    """Those of 32 bits."""
    amount = second & 31
    results = {
        0: first - second if other else first + second,
        1: first << amount,
        5: signed(first, 32) >> amount if other else (first & 0xFFFFFFFF) >> amount,
    }
    return results[funct3]


def product(funct3, first, second, bits):
    if funct3 == 0:
        return first * second
    if funct3 == 1:
        return signed(first, bits) * signed(second, bits) >> bits
    if funct3 == 2:
        return signed(first, bits) * second >> bits
    return first * second >> bits


def quotient_or_remainder(funct3, first, second, bits):
    """div, divu, rem and remu: towards zero, and by zero -1 and the dividend."""
    is_quotient = funct3 < 6
    if not funct3 & 1:
        first, second = signed(first, bits), signed(second, bits)
    if second == 0:
        return -1 if is_quotient else first
    quotient = abs(first) // abs(second)
    if (first < 0) != (second < 0):
        quotient = -quotient
    return quotient if is_quotient else first - quotient * second


def multiply_or_divide(funct3, first, second, bits):
    return product(funct3, first, second, bits) if funct3 < 4 else quotient_or_remainder(funct3, first, second, bits)


class Hart:
    def __init__(self, entry):
        self.pc = entry
        self.x = [0] * 32
        self.mstatus = 0x1800
        self.mie = self.mip = self.mtvec = self.mscratch = self.mepc = self.mcause = self.mtval = 0
        self.misa = 0x8000000000001100
        self.mvendorid = self.marchid = self.mimpid = self.mhartid = 0
        self.asleep = False

    def lines(self):
        """The listing of its registers: pc, and of the others those that aren't zero."""
        values = [(f"x{number}", value) for number, value in enumerate(self.x)]
        values += [(name, getattr(self, name)) for name in "mstatus mie mip mtvec mscratch mepc mcause mtval".split()]
        return [f"pc {self.pc:016x}"] + [f"{name} {value:016x}" for name, value in values if value]

    def need(self, word):
        """("nothing",), ("load", address, size), ("store", address, size, value) or ("trap", cause, value)."""
        kind, fields = decode(word)
        if kind is None:
            return ("trap", 2, word)
        if kind in ("load", "store"):
            return self.access(kind, fields)
        if kind in ("jal", "jalr", "branch"):
            target = self.target(kind, fields)
            return ("nothing",) if target is None or target % 4 == 0 else ("trap", 0, target)
        if kind == "csr":
            refused = fields.csr not in CSR_NAMES or (self.writes_csr(fields) and fields.csr >> 10 == 3)
            return ("trap", 2, word) if refused else ("nothing",)
        if kind == "ecall":
            return ("trap", 11, 0)
        if kind == "ebreak":
            return ("trap", 3, 0)
        return ("nothing",)

    def access(self, kind, fields):
        size = 1 << (fields.funct3 & 3)
        if kind == "load":
            address = wrap(self.x[fields.rs1] + fields.imm_i)
            return ("load", address, size) if address % size == 0 else ("trap", 4, address)
        address = wrap(self.x[fields.rs1] + fields.imm_s)
        value = self.x[fields.rs2] & ((1 << 8 * size) - 1)
        return ("store", address, size, value) if address % size == 0 else ("trap", 6, address)

    def target(self, kind, fields):
        """Where a jump or a branch goes, None where a branch isn't taken."""
        if kind == "jal":
            return wrap(self.pc + fields.imm_j)
        if kind == "jalr":
            return wrap(self.x[fields.rs1] + fields.imm_i) & ~1
        return wrap(self.pc + fields.imm_b) if self.is_taken(fields) else None

    def is_taken(self, fields):
        first, second = self.x[fields.rs1], self.x[fields.rs2]
        compared = {0: first == second, 4: signed(first, 64) < signed(second, 64), 6: first < second}[fields.funct3 & 6]
        return compared != bool(fields.funct3 & 1)

    def finish(self, word, loaded):
        """Retires the word; loaded is what its load brought."""
        kind, fields = decode(word)
        following = self.following(kind, fields)
        value = self.result(kind, fields, loaded)
        if kind == "csr" and self.writes_csr(fields):
            self.write_csr(fields)
        elif kind == "mret":
            self.mstatus = 0x1880 | (8 if self.mstatus & 0x80 else 0)
        elif kind == "wfi":
            self.asleep = self.mie & self.mip == 0
        if value is not None and fields.rd:
            self.x[fields.rd] = wrap(value)
        self.pc = following

    def following(self, kind, fields):
        if kind == "mret":
            return self.mepc
        target = self.target(kind, fields) if kind in ("jal", "jalr", "branch") else None
        return wrap(self.pc + 4) if target is None else target

    def result(self, kind, fields, loaded):
        """What goes to rd, None where nothing does."""
        first, second = self.x[fields.rs1], self.x[fields.rs2]
        if kind == "lui":
            return fields.imm_u
        if kind == "auipc":
            return self.pc + fields.imm_u
        if kind in ("jal", "jalr"):
            return self.pc + 4
        if kind == "load":
            return loaded if fields.funct3 & 4 else signed(loaded, 8 << fields.funct3)
        if kind == "immediate":
            return arithmetic(fields.funct3, False, first, fields.imm_i)
        if kind == "shift":
            return arithmetic(fields.funct3, fields.word >> 30 & 1, first, fields.word >> 20 & 63)
        if kind == "immediate_w":
            return signed(arithmetic_w(fields.funct3, fields.funct3 and fields.funct7, first, fields.imm_i), 32)
        if kind == "register":
            return multiply_or_divide(fields.funct3, first, second, 64) if fields.funct7 == 1 else arithmetic(fields.funct3, fields.funct7, first, second)
        if kind == "register_w":
            return signed(self.result_w(fields, first, second), 32)
        if kind == "csr":
            return getattr(self, CSR_NAMES[fields.csr])
        return None

    def result_w(self, fields, first, second):
        if fields.funct7 == 1:
            return multiply_or_divide(fields.funct3, first & 0xFFFFFFFF, second & 0xFFFFFFFF, 32)
        return arithmetic_w(fields.funct3, fields.funct7, first, second)

    def writes_csr(self, fields):
        return fields.funct3 & 3 == 1 or fields.rs1 != 0

    def write_csr(self, fields):
        name = CSR_NAMES[fields.csr]
        old = getattr(self, name)
        given = fields.rs1 if fields.funct3 & 4 else self.x[fields.rs1]
        new = {1: given, 2: old | given, 3: old & ~given}[fields.funct3 & 3]
        if name == "mstatus":
            self.mstatus = 0x1800 | new & 0x88
        elif name == "mie":
            self.mie = new & 0x888
        elif name == "mtvec":
            self.mtvec = wrap(new & ~2)
        elif name == "mepc":
            self.mepc = wrap(new & ~3)
        elif name in ("mscratch", "mcause", "mtval"):
            setattr(self, name, new)

    def enter_trap(self, cause, value):
        self.mepc, self.mcause, self.mtval = self.pc & ~3, cause, value
        self.mstatus = 0x1800 | (0x80 if self.mstatus & 8 else 0)
        self.pc = wrap(self.mtvec & ~3)
        if cause >> 63 and self.mtvec & 1:
            self.pc = wrap(self.pc + 4 * (cause & 63))

    def interrupt(self):
        """The cause of the interrupt that is to be taken, None if there is none."""
        if self.mstatus & 8:
            for bit in (11, 3, 7):
                if self.mie & self.mip & 1 << bit:
                    return 1 << 63 | bit
        return None

    def set_line(self, bit, level):
        """Whether the hart is woken by it."""
        self.mip = self.mip | 1 << bit if level else self.mip & ~(1 << bit)
        woken = self.asleep and self.mie & self.mip != 0
        if woken:
            self.asleep = False
        return woken


# Packets, events and what every part has.

class Packet:
    def __init__(self, number, source, command, address, size, data=b""):
        self.number, self.source, self.command, self.address, self.size, self.data = number, source, command, address, size, data
        self.fault = False
        self.stack = []

    def is_response(self):
        return self.command in ("ReadResp", "WriteResp")

    def answer(self, data=None):
        """Makes it its response: a fault where there is no data, and zeros where that is a read's."""
        self.fault = data is None
        if self.command == "Read":
            self.command = "ReadResp"
            self.data = bytes(self.size) if self.fault else data
        elif self.command == "Write":
            self.command = "WriteResp"

    def loaded(self):
        return int.from_bytes(self.data, "little") if self.command == "ReadResp" else 0


class Queue:
    """Events by tick and class, and of two that are the same in both the earlier scheduled first."""

    def __init__(self):
        self.events = []
        self.stamps = itertools.count()

    def schedule(self, tick, rank, path, slot):
        self.remove(path, slot)
        bisect.insort(self.events, (tick, rank, next(self.stamps), path, slot))

    def remove(self, path, slot):
        self.events = [event for event in self.events if event[3:] != (path, slot)]

    def has(self, path, slot):
        return any(event[3:] == (path, slot) for event in self.events)


RESPONSES, REQUESTS, DEVICES, CPUS = 0, 10, 30, 50


class Part:
    def __init__(self, machine, path):
        self.machine, self.path = machine, path
        self.wakes = 0

    def schedule(self, slot, rank, tick):
        self.machine.queue.schedule(tick, rank, self.path, slot)

    def act(self, kind, *rest):
        self.machine.acts.append((self.path, kind, *rest))

    def note(self, *entry):
        self.machine.entries.append(entry)

    def note_served(self, packet, is_ram):
        if packet.source <= MOST_NOTED:
            self.note("served", packet, is_ram)

    def wake(self, kind, *rest):
        self.wakes += 1
        return getattr(self, "on_" + kind)(*rest)

    def drain(self):
        pass

    def resume(self):
        pass


# CPUs.

class Cpu(Part):
    def __init__(self, machine, path, period):
        super().__init__(machine, path)
        self.period = period
        self.hart = None
        self.draining = True
        self.stage = "between"
        self.word = None

    def next_multiple(self):
        return (self.machine.now // self.period + 1) * self.period

    def on_line(self, bit, level):
        self.note("line", bit, level)
        if self.hart.set_line(bit, level) and not self.draining:
            self.schedule(0, CPUS, self.next_multiple())

    def begins(self):
        """Takes an interrupt, or traps where no word can be; whether neither, so that the word is to be fetched."""
        cause = self.hart.interrupt()
        if cause is not None:
            self.trap(cause, 0)
        elif not RAM <= self.hart.pc <= RAM + self.machine.ram_size - 4:
            self.trap(1, self.hart.pc)
        else:
            return True
        return False

    def fetch(self):
        return Packet(self.machine.draw(), 0, "Read", self.hart.pc, 4)

    def data(self, need):
        number = self.machine.draw()
        if need[0] == "load":
            return Packet(number, 1, "Read", need[1], need[2])
        return Packet(number, 1, "Write", need[1], need[2], need[3].to_bytes(need[2], "little"))

    def ends_without_data(self, need):
        if need[0] == "trap":
            self.trap(need[1], need[2])
        else:
            self.retire(0)

    def ends_with_data(self, packet):
        if packet.fault:
            self.trap(5 if packet.command == "ReadResp" else 7, packet.address)
        else:
            self.retire(packet.loaded())

    def retire(self, loaded):
        address = self.hart.pc
        self.hart.finish(self.word, loaded)
        self.note("retired", address, self.word)
        if self.hart.asleep:
            self.note("slept")

    def trap(self, cause, value):
        self.hart.enter_trap(cause, value)
        self.note("trapped", cause, value)

    def drain(self):
        self.draining = True
        if self.stage == "between":
            self.machine.queue.remove(self.path, 0)

    def resume(self):
        self.draining = False
        if self.hart and not self.hart.asleep:
            self.schedule(0, CPUS, self.next_multiple())

    def is_drained(self):
        return self.stage == "between" and not self.machine.queue.has(self.path, 0)


class AtomicCpu(Cpu):
    """An instruction is one event, and its accesses are answered at once."""

    def __init__(self, machine, path, period):
        super().__init__(machine, path, period)
        self.took = 0

    def on_event(self, slot):
        self.took = 0
        if self.begins():
            self.stage = "fetch"
            self.act("atomic", 0, self.fetch())
        else:
            self.goes_on()

    def goes_on(self):
        self.stage = "between"
        if not self.hart.asleep:
            self.schedule(0, CPUS, self.machine.now + self.period + self.took)

    def on_done(self, packet, latency):
        self.took += latency
        if self.stage == "data":
            self.ends_with_data(packet)
            self.goes_on()
            return
        self.word = packet.loaded()
        need = self.hart.need(self.word)
        if need[0] in ("load", "store"):
            self.stage = "data"
            self.act("atomic", 1, self.data(need))
        else:
            self.ends_without_data(need)
            self.goes_on()


class TimingCpu(Cpu):
    """It offers its packets, and goes on when their responses are offered to it."""

    def __init__(self, machine, path, period):
        super().__init__(machine, path, period)
        self.held = None

    def on_event(self, slot):
        if self.stage == "ready":
            self.stage = "data"
            self.send(1, self.data(self.hart.need(self.word)))
        elif self.begins():
            self.stage = "fetch"
            self.send(0, self.fetch())
        else:
            self.goes_on()

    def send(self, port, packet):
        self.held = packet
        self.act("offer", port, packet)

    def goes_on(self):
        self.stage = "between"
        if not self.hart.asleep and not self.draining:
            self.schedule(0, CPUS, self.next_multiple())

    def on_taken(self, port):
        self.held = None

    def on_refused(self, port):
        assert self.held is not None

    def on_retry(self, port):
        assert self.held is not None
        self.act("offer", port, self.held)

    def on_offer(self, port, packet):
        assert packet.is_response() and self.held is None and not packet.stack
        assert (self.stage, packet.source, port) in (("fetch", 0, 0), ("data", 1, 1))
        if self.stage == "fetch":
            self.fetched(packet)
        else:
            self.ends_with_data(packet)
            self.goes_on()
        return True

    def fetched(self, packet):
        self.word = packet.loaded()
        need = self.hart.need(self.word)
        if need[0] in ("load", "store"):
            self.stage = "ready"
            self.schedule(0, CPUS, self.next_multiple())
        else:
            self.ends_without_data(need)
            self.goes_on()


# Crossbars.

class Layer:
    """A place for one packet; port: where it is offered, None of the layer for addresses of no port."""

    def __init__(self, slot, rank, port):
        self.slot, self.rank, self.port = slot, rank, port
        self.state = "idle"
        self.packet = None
        self.waiting = []


class Crossbar(Part):
    def __init__(self, machine, path, latency, sources, destinations, has_none):
        """destinations: by port the first and the last address; has_none: whether there are addresses of no port."""
        super().__init__(machine, path)
        self.latency = latency
        self.destinations = destinations
        slots = itertools.count()
        self.requests = {port: Layer(next(slots), REQUESTS, port) for port in destinations}
        self.none = Layer(next(slots), REQUESTS, None) if has_none else None
        self.responses = {port: Layer(next(slots), RESPONSES, port) for port in sources}
        self.layers = [*self.requests.values(), *([self.none] if has_none else []), *self.responses.values()]

    def layer_of(self, packet):
        if packet.is_response():
            return self.responses[packet.stack[-1]]
        for port, (first, last) in self.destinations.items():
            if first <= packet.address <= last:
                return self.requests[port]
        return self.none

    def layer_at(self, port):
        return self.requests[port] if port in self.requests else self.responses[port]

    def hold(self, layer, packet):
        layer.state, layer.packet = "held", packet
        self.schedule(layer.slot, layer.rank, self.machine.now + self.latency)

    def on_offer(self, port, packet):
        layer = self.layer_of(packet)
        if layer.state != "idle":
            if port not in layer.waiting:
                layer.waiting.append(port)
            self.note("refused", self.path)
            return False
        if packet.is_response():
            packet.stack.pop()
        else:
            packet.stack.append(port)
        self.hold(layer, packet)
        return True

    def on_event(self, slot):
        layer = self.layers[slot]
        if layer is self.none:
            self.answer_none()
        else:
            layer.state = "offered"
            self.act("offer", layer.port, layer.packet)

    def answer_none(self):
        """What no port has is answered with a fault, which waits for its layer of responses."""
        packet = self.none.packet
        packet.answer()
        response = self.responses[packet.stack[-1]]
        if response.state == "idle":
            self.none_moves_to(response)
        else:
            self.none.state = "blocked"
            response.waiting.append("none")

    def none_moves_to(self, response):
        packet = self.none.packet
        packet.stack.pop()
        self.hold(response, packet)
        self.empties(self.none)

    def empties(self, layer):
        layer.state, layer.packet = "idle", None
        if layer.waiting:
            first = layer.waiting.pop(0)
            if first == "none":
                self.none_moves_to(layer)
            else:
                self.act("retry", first)

    def on_taken(self, port):
        self.empties(self.layer_at(port))

    def on_refused(self, port):
        self.layer_at(port).state = "blocked"

    def on_retry(self, port):
        layer = self.layer_at(port)
        assert layer.state == "blocked"
        layer.state = "offered"
        self.act("offer", port, layer.packet)

    def atomic(self, packet):
        """The port that the packet goes on by, None where it is answered, and the latency."""
        layer = self.layer_of(packet)
        if layer is self.none:
            packet.answer()
        return layer.port, self.latency

    def is_drained(self):
        return all(layer.state == "idle" and not layer.waiting for layer in self.layers)


# Servers: the memory and the devices.

class Server(Part):
    is_ram = False

    def __init__(self, machine, path, latency, places):
        super().__init__(machine, path)
        self.latency, self.places = latency, places
        self.packets = []
        self.has_waiter = False

    def on_offer(self, port, packet):
        if len(self.packets) >= self.places:
            self.has_waiter = True
            self.note("refused", self.path)
            return False
        self.packets.append(packet)
        if len(self.packets) == 1:
            self.serve_later()
        return True

    def serve_later(self):
        self.schedule(0, DEVICES, self.machine.now + self.latency)

    def on_event(self, slot):
        if slot != 0:
            self.own_event()
            return
        self.serve(self.packets[0])
        if self.packets[0].is_response():
            self.act("offer", 0, self.packets[0])
        else:
            self.remove_first()

    def on_taken(self, port):
        self.remove_first()

    def remove_first(self):
        self.packets.pop(0)
        if self.packets:
            self.serve_later()
        if self.has_waiter:
            self.has_waiter = False
            self.act("retry", 0)

    def on_refused(self, port):
        pass

    def on_retry(self, port):
        self.act("offer", 0, self.packets[0])

    def atomic(self, packet):
        self.serve(packet)
        return None, self.latency

    def serve(self, packet):
        """access: what was read or written, None where the access is refused."""
        packet.answer(self.access(packet))
        self.note_served(packet, self.is_ram)

    def is_drained(self):
        return not self.packets and not self.has_waiter and not self.machine.queue.has(self.path, 0)


class Memory(Server):
    is_ram = True

    def __init__(self, machine, latency, places, size):
        super().__init__(machine, "mem", latency, places)
        self.ram = bytearray(size)

    def access(self, packet):
        first = packet.address - RAM
        assert 0 <= first and first + packet.size <= len(self.ram)
        if packet.command in ("Write", "WriteBack"):
            self.ram[first:first + packet.size] = packet.data
        return bytes(self.ram[first:first + packet.size])


class Uart(Server):
    def __init__(self, machine, latency, character_time):
        super().__init__(machine, "uart", latency, 1)
        self.character_time = character_time
        self.busy = False
        self.input = b""

    def access(self, packet):
        offset = packet.address - UART
        if packet.size != 1 or offset > 7:
            return None
        if packet.command == "Read":
            return self.read(offset)
        if offset == 0:
            self.machine.byte = packet.data
            self.busy = True
            self.schedule(1, DEVICES, self.machine.now + self.character_time)
        return packet.data

    def read(self, offset):
        if offset == 0:
            first, self.input = self.input[:1], self.input[1:]
            return first or b"\0"
        if offset == 5:
            return bytes([(1 if self.input else 0) | (0 if self.busy else 0x20)])
        return b"\0"

    def take(self, given):
        """How many of these bytes there was room for."""
        taken = min(MOST_INPUT - len(self.input), len(given))
        self.input += given[:taken]
        return taken

    def own_event(self):
        self.busy = False


class Timer(Server):
    def __init__(self, machine, latency, period):
        super().__init__(machine, "timer", latency, 1)
        self.period = period
        self.msip = 0
        self.compare = ALL_ONES
        self.level = False

    def clock(self):
        return self.machine.now // self.period

    def access(self, packet):
        place = (packet.address - TIMER, packet.size)
        if packet.command == "Read":
            registers = {(0, 4): self.msip, (0x4000, 8): self.compare, (0xBFF8, 8): self.clock()}
            return registers[place].to_bytes(packet.size, "little") if place in registers else None
        number = int.from_bytes(packet.data, "little")
        if place == (0, 4):
            self.msip = number & 1
            self.act("line", 3, self.msip == 1)
        elif place == (0x4000, 8):
            self.compare_with(number)
        else:
            return None
        return packet.data

    def compare_with(self, number):
        self.compare = number
        self.machine.queue.remove(self.path, 1)
        self.set_level(self.clock() >= number)
        if not self.level and number * self.period <= LAST_TICK:
            self.schedule(1, DEVICES, number * self.period)

    def set_level(self, level):
        if level != self.level:
            self.level = level
            self.act("line", 7, level)

    def own_event(self):
        self.set_level(True)


class ExitDevice(Server):
    code = None

    def access(self, packet):
        if packet.command == "Read" or packet.size != 4 or packet.address != EXIT:
            return None
        if self.code is None:
            self.code = int.from_bytes(packet.data, "little")
        return packet.data


# Caches.

class Line:
    def __init__(self, address, data, is_dirty):
        self.address, self.data, self.is_dirty = address, bytearray(data), is_dirty


class Outgoing:
    """The packets that leave by a port, each with the tick from which on it may."""

    def __init__(self, port, rank):
        self.port, self.rank = port, rank
        self.packets = []


class Cache(Part):
    """It stands between two others: its port 0 is above, and its port 1 below."""

    def __init__(self, machine, path, settings, line_size):
        super().__init__(machine, path)
        self.source = 3 + int(path[-1])
        self.line_size = line_size
        self.ways, self.register_count, self.target_count = settings["ways"], settings["mshrs"], settings["targets"]
        self.write_places, self.latency = settings["writeq"], settings["latency"]
        # By set, the most recently used first.
        self.sets = [[] for _ in range(settings["sets"])]
        # By the address of a line that is on its way: who waits for it.
        self.registers = {}
        self.answers, self.leaving = Outgoing(0, RESPONSES), Outgoing(1, REQUESTS)
        self.has_waiter = False

    def outgoing(self, port):
        return self.leaving if port else self.answers

    def set_of(self, address):
        return self.sets[address // self.line_size % len(self.sets)]

    def line_of(self, address):
        base = address - address % self.line_size
        return next((line for line in self.set_of(base) if line.address == base), None)

    def is_blocked(self):
        free = self.write_places - sum(packet.command == "WriteBack" for packet, _ in self.leaving.packets)
        return (len(self.registers) >= self.register_count or any(len(targets) >= self.target_count for targets in self.registers.values())
                or free < len(self.registers) + 1)

    def put(self, outgoing, packet):
        outgoing.packets.append((packet, self.machine.now + self.latency))
        if len(outgoing.packets) == 1:
            self.schedule(outgoing.port, outgoing.rank, outgoing.packets[0][1])

    def on_offer(self, port, packet):
        if port == 1:
            self.returns(packet)
        elif self.is_blocked():
            self.has_waiter = True
            self.note("refused", self.path)
            return False
        elif not self.machine.has_ram_at(packet.address):
            self.put(self.leaving, packet)
        else:
            self.take(packet)
        self.end()
        return True

    def take(self, packet):
        base = packet.address - packet.address % self.line_size
        line = self.line_of(base)
        if packet.command != "WriteBack":
            self.note("miss" if line is None else "hit", self.path)
        if line is not None:
            self.serve(line, packet)
        elif base in self.registers:
            self.registers[base].append(packet)
        elif packet.command == "WriteBack":
            self.install(Line(base, packet.data, True))
        else:
            self.registers[base] = [packet]
            self.put(self.leaving, Packet(self.machine.draw(), self.source, "Read", base, self.line_size))

    def serve(self, line, packet):
        lines = self.set_of(line.address)
        lines.remove(line)
        lines.insert(0, line)
        first = packet.address - line.address
        if packet.command == "Read":
            packet.answer(bytes(line.data[first:first + packet.size]))
        else:
            line.data[first:first + packet.size] = packet.data
            line.is_dirty = True
            packet.answer(packet.data)
        if packet.is_response():
            self.put(self.answers, packet)
            self.note_served(packet, True)

    def install(self, line):
        lines = self.set_of(line.address)
        victim = lines.pop() if len(lines) == self.ways else None
        lines.insert(0, line)
        if victim is not None and victim.is_dirty:
            self.put(self.leaving, Packet(self.machine.draw(), self.source, "WriteBack", victim.address, self.line_size, bytes(victim.data)))

    def returns(self, packet):
        if not self.machine.has_ram_at(packet.address):
            self.put(self.answers, packet)
            return
        targets = self.registers.pop(packet.address)
        line = Line(packet.address, packet.data, False)
        self.install(line)
        for target in targets:
            self.serve(line, target)

    def on_event(self, slot):
        self.offer_first(slot)

    def on_retry(self, port):
        self.offer_first(port)

    def offer_first(self, port):
        self.act("offer", port, self.outgoing(port).packets[0][0])
        self.end()

    def on_refused(self, port):
        self.end()

    def on_taken(self, port):
        outgoing = self.outgoing(port)
        outgoing.packets.pop(0)
        if outgoing.packets:
            self.schedule(port, outgoing.rank, max(self.machine.now, outgoing.packets[0][1]))
        self.end()

    def end(self):
        """Calls who was refused, as soon as its packet could be taken."""
        if self.has_waiter and not self.is_blocked():
            self.has_waiter = False
            self.act("retry", 0)

    def atomic(self, packet):
        return 1, 0

    def is_drained(self):
        return not self.answers.packets and not self.leaving.packets and not self.registers and not self.has_waiter

    def lines(self):
        """Its lines, each with the number of its set."""
        return [(number, line) for number, lines in enumerate(self.sets) for line in lines]

    def newest_back(self, base):
        """The bytes of the line in the newest of its write-backs, None where there is none."""
        packets = self.registers.get(base, []), [packet for packet, _ in self.leaving.packets]
        for packet in itertools.chain(reversed(packets[0]), reversed(packets[1])):
            if packet.command == "WriteBack" and packet.address == base:
                return packet.data
        return None


# The machine.

COUNTERS = ["corebus.refused", "cpu.retired", "cpu.sleeps", "cpu.traps", "device.reads", "device.writes", "mem.refused", "membus.refused",
            "ram.reads", "ram.writes", "sim.events"]
COUNTED = {"retired": "cpu.retired", "slept": "cpu.sleeps", "trapped": "cpu.traps"}
NAMED = {"refused": "refused", "hit": "hits", "miss": "misses"}
CPU_PATHS = {"atomic": "acpu", "timing": "tcpu"}
CACHES = ("cache1", "cache2", "cache3")
WIRES = [(("membus", 1), ("mem", 0)), (("membus", 2), ("uart", 0)), (("membus", 3), ("timer", 0)),
         (("membus", 4), ("exit", 0)), (("tcpu", 0), ("corebus", 0)), (("tcpu", 1), ("corebus", 1))]


def make_parts(machine, config):
    """By path, in the order in which they are begun."""
    devices = {2: (UART, UART + 0xFFF), 3: (TIMER, TIMER + 0xFFFF), 4: (EXIT, EXIT + 0xFFF)}
    ranges = {1: (RAM, RAM + machine.ram_size - 1), **devices}
    period = config["cpu"]["period"]
    line_size = config["system"]["line"]
    return {
        "acpu": AtomicCpu(machine, "acpu", period),
        **{path: Cache(machine, path, config[path], line_size) for path in CACHES if path in config},
        "corebus": Crossbar(machine, "corebus", config["corebus"]["latency"], [0, 1, 2], {3: (0, ALL_ONES)}, False),
        "exit": ExitDevice(machine, "exit", config["exit"]["latency"], 1),
        "mem": Memory(machine, config["mem"]["latency"], config["mem"]["queue"], machine.ram_size),
        "membus": Crossbar(machine, "membus", config["membus"]["latency"], [0], {**ranges, 5: (1, 0)}, True),
        "tcpu": TimingCpu(machine, "tcpu", period),
        "timer": Timer(machine, config["timer"]["latency"], config["timer"]["period"]),
        "uart": Uart(machine, config["uart"]["latency"], config["uart"]["chartime"]),
    }


def chain_wires(paths):
    """From one crossbar through the caches to the other."""
    ends = [("corebus", 3)] + [(path, 1) for path in paths]
    return list(zip(ends, [(path, 0) for path in paths] + [("membus", 0)]))


class Machine:
    def __init__(self, config, image, entry):
        self.ram_size = config["system"]["ram"]
        self.budget = config["system"]["budget"]
        self.now = 0
        self.drawn = 0
        self.queue = Queue()
        self.acts = []
        self.entries = []
        self.byte = None
        self.tracing = False
        self.parts = make_parts(self, config)
        self.caches = [part for path, part in self.parts.items() if path in CACHES]
        names = [f"{cache.path}.{name}" for cache in self.caches for name in ("hits", "misses", "refused")]
        self.counts = dict.fromkeys(names + COUNTERS, 0)
        wires = WIRES + chain_wires([cache.path for cache in self.caches])
        self.peers = {**dict(wires), **{second: first for first, second in wires}}
        self.atomic_ways = {**self.peers, ("acpu", 0): ("corebus", 0), ("acpu", 1): ("corebus", 1)}
        self.parts[CPU_PATHS[config["system"]["model"]]].hart = Hart(entry)
        self.parts["mem"].ram[:len(image)] = image
        self.resume()

    def draw(self):
        """The number of a packet: each has its own."""
        self.drawn += 1
        return self.drawn - 1

    def has_ram_at(self, address):
        return RAM <= address < RAM + self.ram_size

    def seen(self, address):
        """The byte that a load would see."""
        for cache in self.caches:
            base = address - address % cache.line_size
            line = cache.line_of(base)
            data = cache.newest_back(base) if line is None else line.data
            if data is not None:
                return data[address - base]
        for packet in self.write_backs_below():
            if packet.address <= address < packet.address + packet.size:
                return packet.data[address - packet.address]
        return self.parts["mem"].ram[address - RAM]

    def write_backs_below(self):
        """Those on their way from the lowest cache, the newest first."""
        held = [layer.packet for layer in self.parts["membus"].layers if layer.packet is not None]
        return [packet for packet in held + self.parts["mem"].packets[::-1] if packet.command == "WriteBack"]

    def write_back(self):
        """Writes all dirty lines to memory, those of the lowest cache first."""
        for cache in reversed(self.caches):
            for _, line in cache.lines():
                if line.is_dirty:
                    self.parts["mem"].ram[line.address - RAM:line.address - RAM + cache.line_size] = line.data

    def forget_lines(self):
        for cache in self.caches:
            cache.sets = [[] for _ in cache.sets]

    def active(self):
        """The CPU that has the hart."""
        return self.parts["tcpu"] if self.parts["tcpu"].hart else self.parts["acpu"]

    def hart(self):
        return self.active().hart

    def fire(self):
        """Fires the next event: the byte that it brought to the console, the lines that trace it, and how many instructions retired."""
        self.now, _, _, path, slot = self.queue.events.pop(0)
        self.entries, self.byte = [], None
        self.parts[path].wake("event", slot)
        self.deliver()
        self.count()
        lines = [f"@{self.now} {path} {slot}"] + [trace_line(entry) for entry in self.entries] if self.tracing else []
        return self.byte or b"", lines, sum(entry[0] == "retired" for entry in self.entries)

    def deliver(self):
        """Hands on what the parts ask for, in the order in which they ask."""
        delivered = 0
        while self.acts:
            sender, kind, *rest = self.acts.pop(0)
            getattr(self, "deliver_" + kind)(sender, *rest)
            delivered += 1
            assert delivered <= MOST_ACTS

    def deliver_offer(self, sender, port, packet):
        path, at = self.peers[sender, port]
        is_taken = self.parts[path].wake("offer", at, packet)
        self.parts[sender].wake("taken" if is_taken else "refused", port)

    def deliver_retry(self, sender, port):
        path, at = self.peers[sender, port]
        self.parts[path].wake("retry", at)

    def deliver_line(self, sender, bit, level):
        self.active().wake("line", bit, level)

    def deliver_atomic(self, sender, port, packet):
        path, _ = self.atomic_ways[sender, port]
        way, took = self.parts[path].atomic(packet)
        while way is not None:
            path, _ = self.atomic_ways[path, way]
            way, latency = self.parts[path].atomic(packet)
            took += latency
        self.acts.append((sender, "done", packet, took))

    def deliver_done(self, sender, packet, latency):
        self.parts[sender].wake("done", packet, latency)

    def count(self):
        self.counts["sim.events"] += 1
        for entry in self.entries:
            name = counter_of(entry)
            if name in self.counts:
                self.counts[name] += 1

    def statistics(self):
        return {**self.counts, "sim.ticks": self.now}

    def drain(self):
        for part in self.parts.values():
            part.drain()

    def is_drained(self):
        return all(part.is_drained() for part in self.parts.values())

    def resume(self):
        for part in self.parts.values():
            part.resume()

    def hand_hart_to(self, model):
        before, after = self.active(), self.parts[CPU_PATHS[model]]
        if before is not after:
            before.hart, after.hart = None, before.hart


def counter_of(entry):
    """The name of what the entry counts for; not every one is a counter."""
    if entry[0] == "served":
        _, packet, is_ram = entry
        return ("ram" if is_ram else "device") + (".writes" if packet.command == "WriteResp" else ".reads")
    return f"{entry[1]}.{NAMED[entry[0]]}" if entry[0] in NAMED else COUNTED.get(entry[0])


def trace_line(entry):
    kind, *rest = entry
    if kind == "served":
        return served_line(*rest)
    if kind == "retired":
        return f"retired {rest[0]:016x} {rest[1]:08x}"
    if kind == "trapped":
        return f"trapped {rest[0]:016x} {rest[1]:016x}"
    if kind == "line":
        return f"line {rest[0]} {int(rest[1])}"
    return " ".join(entry)


def served_line(packet, is_ram):
    words = ["served", "id"[packet.source], str(packet.number), "w" if packet.command == "WriteResp" else "r", f"{packet.address:016x}",
             str(packet.size), "ram" if is_ram else "dev", packet.data.hex()]
    return " ".join(words + (["fault"] if packet.fault else []))


# Scripts.

class Result:
    """What a run writes, and its machine as it stands then."""

    def __init__(self, machine):
        self.machine = machine
        self.console = b""
        self.report = ""

    def say(self, lines):
        self.report += "".join(line + "\n" for line in lines)

    def fire(self):
        """Fires an event; how many instructions retired."""
        byte, lines, retired = self.machine.fire()
        self.console += byte
        self.say(lines)
        return retired


def end_of_run(machine, until, number, retired, fired):
    """Why a run ends here, None if it goes on."""
    code = machine.parts["exit"].code
    events = machine.queue.events
    if code is not None:
        return f"exit {code}"
    if until == "insts" and retired >= number:
        return "insts"
    if not events:
        return "idle"
    if events[0][0] > LAST_TICK:
        return "ticklimit"
    if until == "tick" and events[0][0] > number:
        return "tick"
    return "limit" if fired >= machine.budget else None


def script_run(result, until, number="0"):
    retired = fired = 0
    reason = end_of_run(result.machine, until, int(number), retired, fired)
    while reason is None:
        retired += result.fire()
        fired += 1
        reason = end_of_run(result.machine, until, int(number), retired, fired)
    result.say([f"run {reason} at {result.machine.now} insts {retired} events {fired}"])


def script_regs(result):
    result.say(result.machine.hart().lines())


def script_stats(result, form=None):
    statistics = result.machine.statistics()
    if form == "json":
        result.say([json.dumps(statistics, separators=(",", ":"))])
    else:
        result.say(f"{name} {value}" for name, value in statistics.items())


def script_input(result, digits):
    result.say([f"input {result.machine.parts['uart'].take(bytes.fromhex(digits))}"])


def script_trace(result, how):
    result.machine.tracing = how == "on"


def drained(result):
    """Drains the machine; how many events that took."""
    result.machine.drain()
    fired = 0
    while not result.machine.is_drained():
        result.fire()
        fired += 1
    return fired


def script_drain(result):
    fired = drained(result)
    result.machine.resume()
    result.say([f"drain at {result.machine.now} events {fired}"])


def script_switch(result, model):
    fired = drained(result)
    result.machine.write_back()
    result.machine.forget_lines()
    result.machine.hand_hart_to(model)
    result.machine.resume()
    result.say([f"switch {model} at {result.machine.now} events {fired}"])


def bytes_line(word, address, given):
    return [f"{word} {address:016x} {bytes(given).hex()}"]


def script_dump(result, address, count):
    first = int(address, 16)
    result.say(bytes_line("dump", first, [result.machine.seen(first + place) for place in range(int(count))]))


def script_raw(result, address, count):
    first = int(address, 16)
    result.say(bytes_line("raw", first, result.machine.parts["mem"].ram[first - RAM:first - RAM + int(count)]))


def script_lines(result, path):
    lines = result.machine.parts[path].lines()
    result.say([f"lines {path} {len(lines)}"])
    result.say(f"set {number} {line.address:016x} {'dirty' if line.is_dirty else 'clean'} {line.data.hex()}" for number, line in lines)


LINES = {"dump": script_dump, "raw": script_raw, "lines": script_lines, "run": script_run, "regs": script_regs, "stats": script_stats, "input": script_input, "trace": script_trace, "drain": script_drain,
         "switch": script_switch}


def segments(data):
    """Of each segment of an ELF file that is to be loaded: its address, its bytes in the file, and its size in memory."""
    def number(at, size):
        return int.from_bytes(data[at:at + size], "little")

    for index in range(number(56, 2)):
        head = number(32, 8) + 56 * index
        if number(head, 4) == 1 and number(head + 40, 8):
            first = number(head + 8, 8)
            yield number(head + 24, 8), data[first:first + number(head + 32, 8)], number(head + 40, 8)


def entry_and_ram(image, size):
    """Where the hart begins, and what RAM has then."""
    if not image.startswith(b"\x7fELF"):
        return RAM, image
    ram = bytearray(size)
    for address, given, length in segments(image):
        ram[address - RAM:address - RAM + length] = given.ljust(length, b"\0")
    return int.from_bytes(image[24:32], "little"), bytes(ram)


def run(config, image, script):
    """What a run of the machine of this configuration writes: all three as their files have them."""
    settings = tomllib.loads(config)
    given = image_bytes(image) if isinstance(image, list) else image
    entry, ram = entry_and_ram(given, settings["system"]["ram"])
    result = Result(Machine(settings, ram, entry))
    for line in script.split("\n"):
        if line and not line.startswith("#"):
            name, *rest = line.split(" ")
            LINES[name](result, *rest)
    return result


# Known values.

ATOMIC = """[system]
line = 16
model = "atomic"
ram = 65536
budget = 1000000
[cpu]
period = 1000
[corebus]
latency = 100
[membus]
latency = 100
[mem]
latency = 500
queue = 1
[uart]
latency = 200
chartime = 1000
[timer]
latency = 200
period = 100
[exit]
latency = 50
"""
TIMING = ATOMIC.replace("atomic", "timing")
STORES_AND_EXIT = [0x10000537, 0x00100293, 0x00550023, 0x001005B7, 0x0005A023]
ITS_REGISTERS = "x5 0000000000000001\nx10 0000000010000000\nx11 0000000000100000\nmstatus 0000000000001800\n"
ITS_STATISTICS = """corebus.refused 0
cpu.retired 4
cpu.sleeps 0
cpu.traps 0
device.reads 0
device.writes 2
mem.refused 0
membus.refused 0
ram.reads 5
ram.writes 0
sim.events 41
sim.ticks 7250
"""
DRAINED_STATISTICS = ITS_STATISTICS.replace("retired 4", "retired 5").replace("events 41", "events 43").replace("ticks 7250", "ticks 7450")
DRAINED_WAKES = {"acpu": 0, "corebus": 42, "exit": 3, "mem": 15, "membus": 42, "tcpu": 21, "timer": 0, "uart": 4}
READS_UART = [0x10000537, 0x00550283, 0x00050303]
LOADS_FROM_NOWHERE = [0x00000283]
CLOCK_AND_UART = [0x10000537, 0x02004637, 0x05C00293, 0x00563023, 0x00550023, 0x0000006F]
SLEEPS_TWICE = assemble("""lui x12, 0x2004
addi x5, x0, 200
sd x5, 0(x12)
addi x6, x0, 128
csrrw x0, mie, x6
wfi
addi x7, x0, 1
csrrw x0, mie, x0
wfi
""")
SLEEPS_AND_EXITS = [0x02004537, 0x0C800293, 0x00000397, 0x0253B423, 0x0283B283, 0x00553023, 0x08000313, 0x30432073, 0x10500073, 0x001005B7, 0x0005A023]
def cache_section(path, sets, ways, mshrs, targets, writeq, latency):
    return f"[{path}]\nsets = {sets}\nways = {ways}\nmshrs = {mshrs}\ntargets = {targets}\nwriteq = {writeq}\nlatency = {latency}\n"


ONE_CACHE = TIMING + cache_section("cache1", 1, 1, 1, 1, 1, 10)
TWO_CACHES = ONE_CACHE + cache_section("cache2", 16, 1, 1, 1, 1, 20)
STORES_IN_A_LINE = [0x00001517, 0x05500293, 0x00550023, 0x00050303]
ITS_CACHE_STATISTICS = """cache1.hits 2
cache1.misses 4
cache1.refused 0
corebus.refused 0
cpu.retired 4
cpu.sleeps 0
cpu.traps 0
device.reads 0
device.writes 0
mem.refused 1
membus.refused 0
ram.reads 5
ram.writes 1
sim.events 43
sim.ticks 7130
"""
# What it is, the configuration, the image, the script, the report, and the console.
KNOWN = [
    ("a byte to the console and an exit, in atomic mode", ATOMIC, STORES_AND_EXIT, "run end\nregs\n",
     "run exit 0 at 8200 insts 5 events 6\npc 0000000080000014\n" + ITS_REGISTERS, b"\x01"),
    ("the same in timing mode: it ends before the last store retires", TIMING, STORES_AND_EXIT, "run end\nregs\n",
     "run exit 0 at 7250 insts 4 events 41\npc 0000000080000010\n" + ITS_REGISTERS, b"\x01"),
    ("its statistics", TIMING, STORES_AND_EXIT, "run end\nstats\n", "run exit 0 at 7250 insts 4 events 41\n" + ITS_STATISTICS, b"\x01"),
    ("drained, that store has retired", TIMING, STORES_AND_EXIT, "run end\ndrain\nstats\n",
     "run exit 0 at 7250 insts 4 events 41\ndrain at 7450 events 2\n" + DRAINED_STATISTICS, b"\x01"),
    ("both modes by turns", ATOMIC, STORES_AND_EXIT, "run insts 2\nswitch timing\nrun insts 1\nswitch atomic\nrun end\nregs\n",
     "run insts at 2700 insts 2 events 2\nswitch timing at 2700 events 0\nrun insts at 4600 insts 1 events 12\n"
     "switch atomic at 4600 events 0\nrun exit 0 at 6700 insts 2 events 3\npc 0000000080000014\n" + ITS_REGISTERS, b"\x01"),
    ("runs to a tick, of one instruction, and to the end", ATOMIC, STORES_AND_EXIT, "run tick 3000\nrun insts 1\nrun end\n",
     "run tick at 2700 insts 2 events 2\nrun insts at 4400 insts 1 events 1\nrun exit 0 at 8200 insts 2 events 3\n", b"\x01"),
    ("a run that ends before the first event", ATOMIC, STORES_AND_EXIT, "run tick 999\n", "run tick at 0 insts 0 events 0\n", b""),
    ("a load from where nothing is, in timing mode", TIMING, LOADS_FROM_NOWHERE, "run tick 2999\nregs\n",
     "run tick at 2400 insts 0 events 11\npc 0000000000000000\nmstatus 0000000000001800\nmepc 0000000080000000\nmcause 0000000000000005\n", b""),
    ("the trace of an instruction", ATOMIC, STORES_AND_EXIT, "trace on\nrun insts 1\n",
     "@1000 acpu 0\nserved i 0 r 0000000080000000 4 ram 37050010\nretired 0000000080000000 10000537\nrun insts at 1000 insts 1 events 1\n", b""),
    ("a byte of input: the UART says that it has one, and gives it", ATOMIC, READS_UART, "input 41\nrun insts 3\nregs\n",
     "input 1\nrun insts at 4800 insts 3 events 3\npc 000000008000000c\nx5 0000000000000021\nx6 0000000000000041\n"
     "x10 0000000010000000\nmstatus 0000000000001800\n", b""),
    ("the clock and the UART at one tick, in the order of their scheduling", ATOMIC, CLOCK_AND_UART, "run insts 5\ntrace on\nrun tick 9200\n",
     "run insts at 8200 insts 5 events 5\n@9200 timer 1\nline 7 1\n@9200 uart 1\nrun tick at 9200 insts 0 events 2\n", b"\x5c"),
    ("a sleep that the clock ends, and one that nothing does", ATOMIC, SLEEPS_TWICE, "run end\n", "run idle at 24400 insts 9 events 10\n", b""),
    ("a sleep that the clock ends, and an exit", ATOMIC, SLEEPS_AND_EXITS, "run end\n", "run exit 0 at 22700 insts 11 events 12\n", b""),
    ("a store that stays in a cache of one line until the next fetch", ONE_CACHE, STORES_IN_A_LINE,
     "run insts 3\nraw 0x80001000 1\ndump 0x80001000 1\nlines cache1\nrun insts 1\nraw 0x80001000 1\nstats\n",
     "run insts at 4920 insts 3 events 24\nraw 0000000080001000 00\ndump 0000000080001000 55\nlines cache1 1\n"
     "set 0 0000000080001000 dirty 55000000000000000000000000000000\nrun insts at 7130 insts 1 events 19\nraw 0000000080001000 55\n"
     + ITS_CACHE_STATISTICS, b""),
    ("a fetch through two caches", TWO_CACHES, STORES_AND_EXIT, "run insts 1\nlines cache2\n",
     "run insts at 1960 insts 1 events 10\nlines cache2 1\nset 0 0000000080000000 clean 370500109302100023005500b7051000\n", b""),
]


def agrees(name, got, known):
    if got == known:
        print("as known:", name)
    else:
        print("DIFFERS:", name, got, known, sep="\n")
    return got == known


def selftest():
    """Whether every known value comes out."""
    all_agree = True
    for name, config, image, script, report, console in KNOWN:
        result = run(config, image, script)
        all_agree &= agrees(name, (result.report, result.console), (report, console))
    machine = run(TIMING, STORES_AND_EXIT, "run end\ndrain\n").machine
    wakes = {path: part.wakes for path, part in machine.parts.items()}
    return all_agree & agrees("how often each part is woken until it is drained", wakes, DRAINED_WAKES)


def text_of(name):
    with open(name, encoding="utf-8") as file:
        return file.read()


def image_of(name):
    if name.endswith(".s"):
        return image_bytes(assemble(text_of(name)))
    with open(name, "rb") as file:
        return file.read()


def main():
    parser = argparse.ArgumentParser(description=__doc__.splitlines()[0])
    commands = parser.add_subparsers(dest="command", required=True)
    running = commands.add_parser("run")
    for name in ("config", "image", "script"):
        running.add_argument(name)
    commands.add_parser("asm").add_argument("source")
    commands.add_parser("selftest")
    asked = parser.parse_args()
    if asked.command == "selftest":
        return 0 if selftest() else 1
    if asked.command == "asm":
        for word in assemble(text_of(asked.source)):
            print(f"{word:08x}")
        return 0
    result = run(text_of(asked.config), image_of(asked.image), text_of(asked.script))
    sys.stdout.buffer.write(result.console)
    sys.stderr.write(result.report)
    return 0


if __name__ == "__main__":
    sys.exit(main())
