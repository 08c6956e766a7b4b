"""The double nearest to the root of a sum of two squares, ties to the even significand, by whole numbers.

A double is a whole number of units of 2^-1074, so the sum of squares is a whole number of units of 2^-2148.
The root is rounded by comparing squares; no floating operation takes part.
"""
import struct
from math import isqrt

SIGN = 1 << 63
FRACTION = (1 << 52) - 1
INFINITY = 0x7FF << 52
LEAST = (1023 - 64) << 52          # the bits of 2^-64
GREATEST = (1023 + 15) << 52       # the bits of 2^15


def bits(x):
    return struct.unpack('<Q', struct.pack('<d', x))[0]


def double(b):
    return struct.unpack('<d', struct.pack('<Q', b))[0]


def units(b):
    """the magnitude of finite bits, in units of 2^-1074"""
    field, fraction = (b >> 52) & 0x7FF, b & FRACTION
    return fraction if field == 0 else (fraction + (1 << 52)) << (field - 1)


def in_range(b):
    """zero, or a magnitude from 2^-64 to 2^15"""
    b &= ~SIGN
    return b == 0 or LEAST <= b <= GREATEST


def root_bits(square):
    """the bits of the double nearest to the root of a whole number of units of 2^-2148"""
    if square == 0:
        return 0
    floor = isqrt(square)
    drop = max(floor.bit_length() - 53, 0)
    q = floor >> drop              # 53 bits, or fewer where drop is 0
    middle = ((2 * q + 1) << drop) ** 2
    if 4 * square > middle or (4 * square == middle and q % 2 == 1):
        q += 1
    return (drop << 52) + q        # q = 2^53 carries into the exponent by itself


def answer(x, y):
    """(code, bits) for two bit patterns: 0 and the root, or 13 and +0"""
    if not (in_range(x) and in_range(y)):
        return 13, 0
    return 0, root_bits(units(x) ** 2 + units(y) ** 2)


class OutOfRange(Exception):
    """refusal 13; no pass ever meets it"""


def hypot(x, y):
    code, b = answer(bits(x), bits(y))
    if code:
        raise OutOfRange(x, y)
    return double(b)
