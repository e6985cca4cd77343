"""The scope paper's twelve sums, with every number that it gives."""

from records import pack, pack_signed
from sets import SET_I
from streams import take_places, take_values
from sums import (centred, check_e, check_s, high, low, low_part_passes, plain_product,
                  product, size_passes, sparse, sum_of_largest, w_passes, z_passes)


def sum_1(expect):
    for v, wanted in [(8, 8), (9, -8), (17, 0), (-9, 8)]:
        expect(f"{v} centred by 17", centred(v, 17), wanted)


def sum_2(expect):
    for v, wanted in [(8, 8), (9, -7), (-8, 8)]:
        expect(f"{v} centred by 16", centred(v, 16), wanted)


def sum_3(expect):
    expect("low 2097152", low(SET_I, 2097152), 2097152)
    expect("high 2097152", high(SET_I, 2097152), 0)
    expect("low 2097153", low(SET_I, 2097153), -2097151)
    expect("high 2097153", high(SET_I, 2097153), 1)


def sum_4(expect):
    expect("low 171788288", low(SET_I, 171788288), -178176)
    expect("high 171788288", high(SET_I, 171788288), 41)
    expect("high 171788289", high(SET_I, 171788289), -41)


def sum_5(expect):
    x, cube = [0, 1, 0, 0], [0, 0, 0, 1]
    for name, times in [("plain", plain_product), ("quick", product)]:
        expect(f"times x, {name}", times([1, 2, 3, 4], x), [-4, 1, 2, 3])
        expect(f"cube times cube, {name}", times(cube, cube), [0, 0, -1, 0])


def sum_6(expect):
    expect("two largest", sum_of_largest(2, [3, -5, 2, 4]), 9)


def sum_7(expect):
    for last, total, passes in [(26, 554, True), (27, 555, False)]:
        p = [22] * 24 + [last] + [0] * (SET_I.n - 25)
        for name, order in [("first", p), ("last", p[::-1])]:
            expect(f"sum with {last} {name}", sum_of_largest(SET_I.h, order), total)
            expect(f"checkS with {last} {name}", check_s(SET_I, order), passes)
            expect(f"checkE with {last} {name}", check_e(SET_I, order), passes)


def sum_8(expect):
    expect("t = 1, 1", pack([1, 1], 29)[:4], bytes.fromhex("01 00 00 20"))
    expect("t = 1, 1 of set I", pack([1, 1], SET_I.t_width)[:4],
           bytes.fromhex("01 00 00 20"))


def sum_9(expect):
    expect("z = -1, 0", pack_signed([-1, 0], 20), bytes.fromhex("FF FF 0F 00 00"))
    expect("z = -1, 0 of set I", pack_signed([-1, 0], SET_I.z_width),
           bytes.fromhex("FF FF 0F 00 00"))


def sum_10(expect):
    expect("range 5", take_values([6, 7, 2, 5, 1], 5, 3), [2, 0, 1])


def sum_11(expect):
    positions, signs = take_places(8, [(3, 1), (3, -1), (5, 1)], 3)
    expect("positions", positions, [3, 4, 5])
    expect("signs", signs, [1, -1, 1])
    expect("polynomial", sparse(8, positions, signs), [0, 0, 0, 1, -1, 1, 0, 0])


def sum_12(expect):
    for v, passes in [(2096597, True), (2096598, False)]:
        for w in (v, -v):
            expect(f"low part of {w}", low(SET_I, w), w)
            expect(f"low part {w} tested", low_part_passes(SET_I, w), passes)
            expect(f"w with low part {w}", w_passes(SET_I, [0, w]), passes)
    for v, passes in [(171787733, True), (171787734, False)]:
        for w in (v, -v):
            expect(f"size {w} tested", size_passes(SET_I, w), passes)
            expect(f"low part of {w} tested", low_part_passes(SET_I, w), True)
            expect(f"w {w}", w_passes(SET_I, [0, w]), passes)
    for v, passes in [(523733, True), (523734, False)]:
        for z in (v, -v):
            expect(f"z {z}", z_passes(SET_I, [0, z]), passes)


GROUPS = [(f"sum {i}", check) for i, check in enumerate(
    [sum_1, sum_2, sum_3, sum_4, sum_5, sum_6, sum_7, sum_8, sum_9, sum_10, sum_11,
     sum_12], start=1)]
