"""Filters of classic BPF (`tcpdump -ddd`), by the table of their instructions: which texts are programs, and a program's value on a frame.

A machine has registers A and X and sixteen words M, all 0 at first, and counts modulo 2^32. It shares no code with the proved program.
"""
import re
from typing import NamedTuple

MOST_INSTRUCTIONS = 4096
NUMBER = "[0-9]{1,10}"
TEXT = re.compile(f"{NUMBER}(?:,{NUMBER} {NUMBER} {NUMBER} {NUMBER})*")

LENGTH_OF_LOAD = {0x20: 4, 0x28: 2, 0x30: 1}  # A is the number at k
LENGTH_OF_LOAD_BY_X = {0x40: 4, 0x48: 2, 0x50: 1}  # A is the number at X + k
SET_A, A_OF_MEMORY, A_OF_LENGTH = 0x00, 0x60, 0x80
SET_X, X_OF_MEMORY, X_OF_LENGTH, X_OF_HEADER = 0x01, 0x61, 0x81, 0xB1
STORE_A, STORE_X = 0x02, 0x03
NEGATE, JUMP = 0x84, 0x05
RETURN_K, RETURN_A = 0x06, 0x16
X_OF_A, A_OF_X = 0x07, 0x87
DIVIDE, REMAINDER, SHIFT_LEFT, SHIFT_RIGHT = 0x34, 0x94, 0x64, 0x74
WITH_X = 8  # added to the code of one of these, X stands in the place of k

ARITHMETIC = {
    0x04: lambda a, b: a + b,
    0x14: lambda a, b: a - b,
    0x24: lambda a, b: a * b,
    DIVIDE: lambda a, b: a // b,
    0x44: lambda a, b: a | b,
    0x54: lambda a, b: a & b,
    SHIFT_LEFT: lambda a, b: a << b if b < 32 else 0,
    SHIFT_RIGHT: lambda a, b: a >> b if b < 32 else 0,
    REMAINDER: lambda a, b: a % b,
    0xA4: lambda a, b: a ^ b,
}
COMPARISONS = {
    0x15: lambda a, b: a == b,
    0x25: lambda a, b: a > b,
    0x35: lambda a, b: a >= b,
    0x45: lambda a, b: (a & b) != 0,
}
OF_MEMORY = {A_OF_MEMORY, X_OF_MEMORY, STORE_A, STORE_X}
BY_X = {code + WITH_X for code in (*ARITHMETIC, *COMPARISONS)}
CODES = {*LENGTH_OF_LOAD, *LENGTH_OF_LOAD_BY_X, *ARITHMETIC, *COMPARISONS, *BY_X, *OF_MEMORY}
CODES |= {SET_A, A_OF_LENGTH, SET_X, X_OF_LENGTH, X_OF_HEADER, NEGATE, JUMP, RETURN_K, RETURN_A, X_OF_A, A_OF_X}


class Instruction(NamedTuple):
    code: int
    jt: int
    jf: int
    k: int


class Refused(ValueError):
    """A text that is no filter; it says why, and at which instruction."""


def instructions_of(text):
    """The instructions that a text names: their count, then `,code jt jf k` of each."""
    if not TEXT.fullmatch(text):
        raise Refused("BadText")
    count, *lines = text.split(",")
    found = [Instruction(*map(int, line.split(" "))) for line in lines]
    are_in_field = all(one.code < 2**16 and one.jt < 2**8 and one.jf < 2**8 and one.k < 2**32 for one in found)
    if int(count) != len(found) or not are_in_field:
        raise Refused("BadText")
    return found


def judge(instructions):
    """Raises the first refusal of a list of instructions, where there is one."""
    size = len(instructions)
    if not 1 <= size <= MOST_INSTRUCTIONS:
        raise Refused(f"BadLength {size}")
    for at, (code, jt, jf, k) in enumerate(instructions):
        if code not in CODES:
            raise Refused(f"BadCode {at}")
        jumps = [k] if code == JUMP else [jt, jf] if code & ~WITH_X in COMPARISONS else []
        if any(at + 1 + jump >= size for jump in jumps):
            raise Refused(f"BadJump {at}")
        if code in OF_MEMORY and k > 15:
            raise Refused(f"BadMemory {at}")
        if (code in (DIVIDE, REMAINDER) and k == 0) or (code in (SHIFT_LEFT, SHIFT_RIGHT) and k >= 32):
            raise Refused(f"BadConstant {at}")
    if instructions[-1].code not in (RETURN_K, RETURN_A):
        raise Refused("NoReturn")


def filter_of(text):
    """The program of a text; Refused where there is none."""
    instructions = instructions_of(text)
    judge(instructions)
    return tuple(instructions)


def loads_length(program):
    """Whether a program asks for the length of the frame."""
    return any(one.code in (A_OF_LENGTH, X_OF_LENGTH) for one in program)


def number_at(frame, at, size):
    """The big-endian number of so many bytes at a place, or None where they don't lie within the frame."""
    return int.from_bytes(frame[at : at + size], "big") if at + size <= len(frame) else None


def value(program, frame):
    """What a program answers to a frame: how many of its bytes are seen, 0 for none."""
    a, x, memory, at = 0, 0, [0] * 16, 0
    while True:
        code, jt, jf, k = program[at]
        at += 1
        operand = x if code in BY_X else k
        plain = code - WITH_X if code in BY_X else code
        if code in LENGTH_OF_LOAD or code in LENGTH_OF_LOAD_BY_X:
            place, size = (k, LENGTH_OF_LOAD[code]) if code in LENGTH_OF_LOAD else (x + k, LENGTH_OF_LOAD_BY_X[code])
            a = number_at(frame, place, size)
            if a is None:
                return 0
        elif code == X_OF_HEADER:
            byte = number_at(frame, k, 1)
            if byte is None:
                return 0
            x = 4 * (byte % 16)
        elif plain in ARITHMETIC:
            if plain in (DIVIDE, REMAINDER) and operand == 0:
                return 0
            a = ARITHMETIC[plain](a, operand) % 2**32
        elif plain in COMPARISONS:
            at += jt if COMPARISONS[plain](a, operand) else jf
        elif code == JUMP:
            at += k
        elif code in (SET_A, A_OF_LENGTH, SET_X, X_OF_LENGTH):
            given = k if code in (SET_A, SET_X) else len(frame)
            a, x = (given, x) if code in (SET_A, A_OF_LENGTH) else (a, given)
        elif code in (A_OF_MEMORY, X_OF_MEMORY):
            a, x = (memory[k], x) if code == A_OF_MEMORY else (a, memory[k])
        elif code in (STORE_A, STORE_X):
            memory[k] = a if code == STORE_A else x
        elif code == NEGATE:
            a = (2**32 - a) % 2**32
        elif code == X_OF_A:
            x = a
        elif code == A_OF_X:
            a = x
        else:
            return k if code == RETURN_K else a
