"""What each simple instruction of WebAssembly is in C: the text for its operands, their types, and that of its result.

The functions that the texts call stand in runtime.h. A text is one operand of any operator of C: a name, a number, a call, a cast, or it
stands in parentheses."""
from __future__ import annotations

from dataclasses import dataclass

from wasm_module import F64, I32, I64, V128


@dataclass(frozen=True)
class Simple:
    text: str
    takes: list[int]
    gives: int


COMPARISONS = [("==", False), ("!=", False), ("<", True), ("<", False), (">", True), (">", False), ("<=", True), ("<=", False), (">=", True), (">=", False)]
FLOAT_COMPARISONS = ["==", "!=", "<", ">", "<=", ">="]


def number_comparisons() -> dict[int, Simple]:
    # a comparison in C is an int, and is() makes that the type of WebAssembly
    table = {0x45: Simple("is(!{0})", [I32], I32), 0x50: Simple("is(!{0})", [I64], I32)}
    for start, kind, bits in ((0x46, I32, 32), (0x51, I64, 64)):
        for number, (sign, signed) in enumerate(COMPARISONS, start):
            cast = f"(s{bits})" if signed else ""
            table[number] = Simple(f"is({cast}{{0}} {sign} {cast}{{1}})", [kind, kind], I32)
    for number, sign in enumerate(FLOAT_COMPARISONS, 0x61):
        table[number] = Simple(f"is({{0}} {sign} {{1}})", [F64, F64], I32)
    return table


def arithmetic() -> dict[int, Simple]:
    table = {0x9A: Simple("(-{0})", [F64], F64)}
    for start, kind, bits in ((0x67, I32, 32), (0x79, I64, 64)):
        u, s, last = f"u{bits}", f"s{bits}", bits - 1
        for number, name in enumerate(("clz", "ctz", "pop"), start):
            table[number] = Simple(f"{name}{bits}({{0}})", [kind], kind)
        texts = [
            "({0} + {1})", "({0} - {1})", "({0} * {1})", f"({u})(({s}){{0}} / ({s}){{1}})", "({0} / {1})", f"({u})(({s}){{0}} % ({s}){{1}})",
            "({0} % {1})", "({0} & {1})", "({0} | {1})", "({0} ^ {1})", f"({{0}} << ({{1}} & {last}))", f"({u})(({s}){{0}} >> ({{1}} & {last}))",
            f"({{0}} >> ({{1}} & {last}))", f"rotl{bits}({{0}}, {{1}})", f"rotr{bits}({{0}}, {{1}})",
        ]  # fmt: skip
        table.update({number: Simple(text, [kind, kind], kind) for number, text in enumerate(texts, start + 3)})
    for number, sign in enumerate("+-*/", 0xA0):
        table[number] = Simple(f"({{0}} {sign} {{1}})", [F64, F64], F64)
    return table


def conversions() -> dict[int, Simple]:
    return {
        0xA7: Simple("(u32){0}", [I64], I32),
        0xAC: Simple("(u64)(s32){0}", [I32], I64),
        0xAD: Simple("(u64){0}", [I32], I64),
        0xB7: Simple("(f64)(s32){0}", [I32], F64),
        0xB8: Simple("(f64){0}", [I32], F64),
        0xB9: Simple("(f64)(s64){0}", [I64], F64),
        0xBA: Simple("(f64){0}", [I64], F64),
        0xBD: Simple("bits_of({0})", [F64], I64),
        0xBF: Simple("of_bits({0})", [I64], F64),
        0xC0: Simple("(u32)(s8){0}", [I32], I32),
        0xC1: Simple("(u32)(s16){0}", [I32], I32),
        0xC2: Simple("(u64)(s8){0}", [I64], I64),
        0xC3: Simple("(u64)(s16){0}", [I64], I64),
        0xC4: Simple("(u64)(s32){0}", [I64], I64),
        0xFC02: Simple("sat_s32({0})", [F64], I32),
        0xFC03: Simple("sat_u32({0})", [F64], I32),
        0xFC06: Simple("sat_s64({0})", [F64], I64),
        0xFC07: Simple("sat_u64({0})", [F64], I64),
    }


def whole_vectors() -> dict[int, Simple]:
    two = [V128, V128]
    return {
        0xFD0E: Simple("swizzle({0}, {1})", two, V128),
        0xFD4D: Simple("(~{0})", [V128], V128),
        0xFD4E: Simple("({0} & {1})", two, V128),
        0xFD4F: Simple("({0} & ~{1})", two, V128),
        0xFD50: Simple("({0} | {1})", two, V128),
        0xFD51: Simple("({0} ^ {1})", two, V128),
        0xFD52: Simple("(({0} & {2}) | ({1} & ~{2}))", [V128, V128, V128], V128),
        0xFD53: Simple("any({0})", [V128], I32),
        0xFD64: Simple("bitmask({0})", [V128], I32),
        0xFD65: Simple("narrow_s8({0}, {1})", two, V128),
        0xFD66: Simple("narrow_u8({0}, {1})", two, V128),
        0xFD85: Simple("narrow_s16({0}, {1})", two, V128),
        0xFD86: Simple("narrow_u16({0}, {1})", two, V128),
    }


def vectors_of_lanes() -> dict[int, Simple]:
    table: dict[int, Simple] = {}
    two = [V128, V128]
    for turn, bits in enumerate((8, 16, 32, 64)):
        start = 0xFD63 + 32 * turn
        table[0xFD0F + turn] = Simple(f"splat_{bits}({{0}})", [I64 if bits == 64 else I32], V128)
        table[start] = Simple(f"all_{bits}({{0}})", [V128], I32)
        for number, (kind, sign) in enumerate((("u", "<<"), ("s", ">>"), ("u", ">>")), start + 8):
            shifted = f"((v128)((w_{kind}{bits}){{0}} {sign} ({kind}{bits})({{1}} & {bits - 1})))"
            table[number] = Simple(shifted, [V128, I32], V128)
        for step, sign in (11, "+"), (14, "-"), (18, "*"):
            if sign != "*" or bits > 8:
                table[start + step] = Simple(f"((v128)((w_u{bits}){{0}} {sign} (w_u{bits}){{1}}))", two, V128)
        if bits > 8:
            for number, name in enumerate(("low_s", "high_s", "low_u", "high_u"), start + 4):
                table[number] = Simple(f"{name}{bits}({{0}})", [V128], V128)
        if bits < 64:
            for number, name in enumerate(("min_s", "min_u", "max_s", "max_u"), start + 19):
                table[number] = Simple(f"{name}{bits}({{0}}, {{1}})", two, V128)
        signs = COMPARISONS if bits < 64 else [(sign, True) for sign in FLOAT_COMPARISONS]
        for number, (sign, signed) in enumerate(signs, 0xFD23 + 10 * turn if bits < 64 else 0xFDD6):
            lane = f"w_{'s' if signed else 'u'}{bits}"
            table[number] = Simple(f"((v128)(({lane}){{0}} {sign} ({lane}){{1}}))", two, V128)
    return table


SIMPLE = {**number_comparisons(), **arithmetic(), **conversions(), **whole_vectors(), **vectors_of_lanes()}

# What a load gives: its type, and the text for a place.
LOADS = {
    0x28: (I32, "r32({})"), 0x29: (I64, "r64({})"), 0x2B: (F64, "rf({})"), 0x2C: (I32, "(u32)(s8)r8({})"), 0x2D: (I32, "r8({})"),
    0x2E: (I32, "(u32)(s16)r16({})"), 0x2F: (I32, "r16({})"), 0x30: (I64, "(u64)(s8)r8({})"), 0x31: (I64, "(u64)r8({})"),
    0x32: (I64, "(u64)(s16)r16({})"), 0x33: (I64, "(u64)r16({})"), 0x34: (I64, "(u64)(s32)r32({})"), 0x35: (I64, "(u64)r32({})"),
    0xFD00: (V128, "rv({})"), 0xFD01: (V128, "low_s16(of_u64(r64({})))"), 0xFD02: (V128, "low_u16(of_u64(r64({})))"),
    0xFD03: (V128, "low_s32(of_u64(r64({})))"), 0xFD04: (V128, "low_u32(of_u64(r64({})))"), 0xFD05: (V128, "low_s64(of_u64(r64({})))"),
    0xFD06: (V128, "low_u64(of_u64(r64({})))"), 0xFD07: (V128, "splat_8(r8({}))"), 0xFD08: (V128, "splat_16(r16({}))"),
    0xFD09: (V128, "splat_32(r32({}))"), 0xFD0A: (V128, "splat_64(r64({}))"), 0xFD5C: (V128, "of_u64(r32({}))"),
    0xFD5D: (V128, "of_u64(r64({}))"),
}  # fmt: skip
# What stores a value at a place.
STORES = {0x36: "w32", 0x37: "w64", 0x39: "wf", 0x3A: "w8", 0x3B: "w16", 0x3C: "w8", 0x3D: "w16", 0x3E: "w32", 0xFD0B: "wv"}
# One lane: taken from a vector, put into one, loaded into one, stored from one.
EXTRACTS = {
    0xFD15: ("(u32)lane_s8({}, {})", I32), 0xFD16: ("(u32)lane_u8({}, {})", I32), 0xFD18: ("(u32)lane_s16({}, {})", I32),
    0xFD19: ("(u32)lane_u16({}, {})", I32), 0xFD1B: ("lane_u32({}, {})", I32), 0xFD1D: ("lane_u64({}, {})", I64),
}  # fmt: skip
REPLACES = {0xFD17: 8, 0xFD1A: 16, 0xFD1C: 32, 0xFD1E: 64}
LANE_LOADS = {0xFD54: 8, 0xFD55: 16, 0xFD56: 32, 0xFD57: 64}
LANE_STORES = {0xFD58: 8, 0xFD59: 16, 0xFD5A: 32, 0xFD5B: 64}
