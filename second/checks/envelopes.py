"""The envelope and the program at set I."""

import random

from checks.damage import (Fault, by, changed, expect_faults, other_marks, set_to,
                           with_bit_flipped, with_field, wrong_lengths, wrong_output_lengths)
from checks.keys_and_signatures import SEEDS, signing_faults
from checks.samples import enveloped, sample, sign_whole, sign_whole_roster, signed_envelope
from envelope import (envelope_length, open_envelope, read_envelope, sign_roster,
                      write_envelope)
from program import line
from records import write_signature
from scheme import check
from sets import SET_I

OLD_MARK = b"\x51\x14"   # of an envelope whose team number was not signed


def lengths(expect):
    for length in (0, 1, 100, 32766):
        expect(f"{length} bytes", envelope_length(SET_I, length), 2600 + length)


def round_trips(expect):
    rng = random.Random(14)
    for length in (0, 1, 255, 256, 32766):
        team, roster = rng.randrange(65536), rng.randbytes(length)
        z = [rng.randint(-523733, 523733) for _ in range(1024)]
        signature = write_signature(SET_I, z, rng.randbytes(32), 2594)[1]
        number, envelope = write_envelope(SET_I, team, roster, signature, 2600 + length)
        expect(f"{length} bytes written", (number, len(envelope)), (0, 2600 + length))
        expect(f"{length} bytes spelled", envelope,
               b"\x51\x15" + bytes([team % 256, team // 256, length % 256, length // 256])
               + roster + signature)
        expect(f"{length} bytes read", read_envelope(SET_I, envelope), (0, team, 6, length))


def opened(expect):
    for seed in SEEDS:
        made = sample(seed=seed)
        number, team, start, length = open_envelope(SET_I, made.public, made.envelope)
        expect("opened", (number, team), (0, made.team))
        expect("roster", made.envelope[start:start + length], made.message)
    made, other = sample(), sample(seed=1)
    expect("another key", open_envelope(SET_I, other.public, made.envelope), refused(11))


def rosters_signed(expect):
    """Signing a roster is signing the two bytes, low first, and then the roster."""
    made = sample()
    for team, length in ((0, 0), (1, 1), (255, 131), (256, 132), (1207, 133), (65535, 300)):
        roster = random.Random(team).randbytes(length)
        joined = bytes([team % 256, team // 256]) + roster
        number, counter, signature = sign_whole_roster(SET_I, made.secret, team, roster,
                                                       made.r)
        expect(f"team {team} signed", number, 0)
        expect(f"team {team}, the joined bytes signed",
               sign_whole(SET_I, made.secret, joined, made.r), (0, counter, signature))
        for budget in (counter - 1, counter):
            expect(f"team {team}, budget {budget}",
                   sign_whole_roster(SET_I, made.secret, team, roster, made.r, budget),
                   sign_whole(SET_I, made.secret, joined, made.r, budget))
        expect(f"team {team}, the joined bytes checked",
               check(SET_I, made.public, joined, signature), 0)
        expect(f"team {team}, the roster checked alone",
               check(SET_I, made.public, roster, signature), 11)
        expect(f"team {team} opened",
               open_envelope(SET_I, made.public, enveloped(SET_I, team, roster, signature)),
               (0, team, 6, length))


def team_is_signed(expect):
    made = sample()
    for at, bit in ((2, 0), (2, 7), (3, 0), (3, 7)):
        renumbered = with_bit_flipped(made.envelope, at, bit)
        expect(f"bit {bit} of byte {at} changed", open_envelope(SET_I, made.public, renumbered),
               refused(11))
        expect(f"bit {bit} of byte {at} changed, read", read_envelope(SET_I, renumbered),
               (0, made.team ^ (1 << 8 * (at - 2) + bit), 6, len(made.message)))
    team, roster = 1207, made.message

    def opened_with(signature):
        return open_envelope(SET_I, made.public, enveloped(SET_I, team, roster, signature))
    for name, message in [("the roster alone", roster),
                          ("high byte first", b"\x04\xb7" + roster),
                          ("the number last", roster + b"\xb7\x04"),
                          ("the number twice", b"\xb7\x04" * 2 + roster),
                          ("the head", b"\x51\x15\xb7\x04\x64\x00" + roster)]:
        expect(name, opened_with(sign_whole(SET_I, made.secret, message, made.r)[2]),
               refused(11))
    expect("low byte first",
           opened_with(sign_whole(SET_I, made.secret, b"\xb7\x04" + roster, made.r)[2]),
           (0, team, 6, len(roster)))


def old_mark(expect):
    """An envelope of the old mark is refused, whatever was signed."""
    made = sample()
    roster_alone = enveloped(SET_I, made.team, made.message, made.signature)
    for name, envelope in [("with the team", made.envelope), ("without the team", roster_alone)]:
        old = OLD_MARK + envelope[2:]
        expect(f"signed {name}, opened", open_envelope(SET_I, made.public, old), refused(2))
        expect(f"signed {name}, read", read_envelope(SET_I, old), refused(2))
        expect(f"signed {name}, the line", line(SET_I, made.public + old), "REFUSED 2\n")


def one_byte(expect):
    """One byte too few and one too many."""
    made = sample()
    for name, envelope in [("few", made.envelope[:-1]), ("many", made.envelope + b"\0")]:
        expect(f"too {name}, opened", open_envelope(SET_I, made.public, envelope), refused(1))
        expect(f"too {name}, read", read_envelope(SET_I, envelope), refused(1))
    for more in (-1, 1):
        expect(f"{more} in writing",
               write_envelope(SET_I, made.team, made.message, made.signature,
                              len(made.envelope) + more), (1, None))
        expect(f"{more} in signing",
               sign_roster(SET_I, made.secret, made.team, made.message, made.r, 1024,
                           2594 + more), (1, 0, None))


def longest(expect):
    made, data = sample(), random.Random(15).randbytes(32768)
    for length in (0, 1, 32765, 32766):
        envelope = signed_envelope(SET_I, made.secret, 7, data[:length], made.r)
        expect(f"{length} bytes read", read_envelope(SET_I, envelope), (0, 7, 6, length))
        expect(f"{length} bytes opened", open_envelope(SET_I, made.public, envelope),
               (0, 7, 6, length))
        expect(f"{length} bytes, the line", line(SET_I, made.public + envelope),
               f"ROSTER team=7 bytes={length} ok\n")
    for length in (32767, 32768):
        roster = data[:length]
        over = b"\x51\x15\x07\x00" + length.to_bytes(2, "little") + roster + made.signature
        expect(f"{length} bytes opened", open_envelope(SET_I, made.public, over), refused(3))
        expect(f"{length} bytes opened without a key", open_envelope(SET_I, b"", over),
               refused(3))
        expect(f"{length} bytes read", read_envelope(SET_I, over), refused(3))
        expect(f"{length} bytes, the line", line(SET_I, made.public + over), "REFUSED 3\n")
        expect(f"{length} bytes signed",
               sign_whole_roster(SET_I, made.secret, 7, roster, made.r), (3, 0, None))
        expect(f"{length} bytes written",
               write_envelope(SET_I, 7, roster, made.signature, 2600 + length), (3, None))
        expect(f"{length} bytes written, other output",
               write_envelope(SET_I, 7, roster, made.signature, 2600 + 32766), (1, None))


def refused(number):
    return number, 0, 0, 0


def sign_roster_faults():
    """Inputs of signing a roster, and faults of them in the order of its tests."""
    made = sample()
    inputs = dict(secret=made.secret, team=made.team, roster=b"", r=made.r, budget=1024,
                  signature_len=2594)
    return inputs, signing_faults("roster", 32767, 32768)


def sign_roster_refusals(expect):
    inputs, faults = sign_roster_faults()
    expect_faults(expect, "sign roster", inputs, faults,
                  lambda inputs: sign_roster(SET_I, **inputs),
                  lambda number: (number, 0, None))


def write_faults():
    """Inputs of writing, and faults of them in the order of its tests."""
    made = sample()
    inputs = dict(team=made.team, roster=made.message, signature=made.signature,
                  envelope_len=len(made.envelope))

    def lengthen(length):
        def change(inputs):
            inputs["roster"] = bytes(length)
            inputs["envelope_len"] = 2600 + length
        return change
    faults = (
        wrong_lengths("signature") + wrong_output_lengths("envelope_len")
        + [Fault("roster of another length", 1, by("roster", lambda roster: roster + b"abcd"))]
        + other_marks("signature", b"\x51\x13")
        + [Fault("roster of 32767", 3, lengthen(32767)),
           Fault("roster of 32768", 3, lengthen(32768)),
           Fault("first z", 9, by("signature", lambda s: with_field(s, 2, 20, 0, 523734))),
           Fault("last z", 9,
                 by("signature", lambda s: with_field(s, 2, 20, 1023, -523734)))])
    return inputs, faults


def write_refusals(expect):
    inputs, faults = write_faults()
    expect_faults(expect, "write envelope", inputs, faults,
                  lambda inputs: write_envelope(SET_I, **inputs),
                  lambda number: (number, None))


def in_signature(change):
    """The same change to the signature record at the envelope's end."""
    def within(envelope):
        return envelope[:-2594] + change(envelope[-2594:])
    return by("envelope", within)


def form_faults():
    """The four tests that opening and reading begin with, in their order."""
    def named(length):
        return by("envelope", lambda e: e[:4] + length.to_bytes(2, "little") + e[6:])
    return (
        [Fault("empty", 1, set_to("envelope", b"")),
         Fault("five bytes", 1, by("envelope", lambda e: e[:5]))]
        + other_marks("envelope", b"\x51\x15")
        + [Fault("the old mark", 2, by("envelope", lambda e: OLD_MARK + e[2:])),
           Fault("L = 32767", 3, named(32767)), Fault("L = 32768", 3, named(32768)),
           Fault("L = 65535", 3, named(65535)),
           Fault("L = 32766", 1, named(32766)), Fault("L = 0", 1, named(0)),
           Fault("a head alone", 1, by("envelope", lambda e: e[:6])),
           Fault("a byte short", 1, by("envelope", lambda e: e[:-1])),
           Fault("bytes after it", 1, by("envelope", lambda e: e + b"\0\0"))])


SIGNATURE_MARKS = [
    Fault(f"signature mark {mark}", 2,
          in_signature(lambda s, mark=mark: bytes.fromhex(mark) + s[2:]))
    for mark in ("5115", "5313", "5193")]

SIGNATURE_Z = [
    Fault(f"z = {value} at {at}", 9,
          in_signature(lambda s, at=at, value=value: with_field(s, 2, 20, at, value)))
    for at, value in ((0, 523734), (1023, -523734), (500, -524288))]


def read_faults():
    """The same of reading."""
    return dict(envelope=sample().envelope), form_faults() + SIGNATURE_MARKS + SIGNATURE_Z


def read_refusals(expect):
    inputs, faults = read_faults()
    expect_faults(expect, "read envelope", inputs, faults,
                  lambda inputs: read_envelope(SET_I, **inputs), refused)


def open_faults():
    """The same of opening."""
    made = sample()
    faults = (
        form_faults() + wrong_lengths("public") + other_marks("public", b"\x51\x11")
        + SIGNATURE_MARKS
        + [Fault("t = q", 5, by("public", lambda p: with_field(p, 2, 29, 0, SET_I.q))),
           Fault("last t", 5, by("public", lambda p: with_field(p, 2, 29, 4095, SET_I.q)))]
        + SIGNATURE_Z
        + [Fault("c'", 11, in_signature(lambda s: with_bit_flipped(s, 2593))),
           Fault("team, low byte", 11, by("envelope", lambda e: with_bit_flipped(e, 2))),
           Fault("team, high byte", 11, by("envelope", lambda e: with_bit_flipped(e, 3))),
           Fault("roster", 11, by("envelope", lambda e: with_bit_flipped(e, 6))),
           Fault("the roster signed alone", 11, in_signature(lambda s: made.signature)),
           Fault("seed_a", 11, by("public", lambda p: with_bit_flipped(p, 14850)))])
    return dict(public=made.public, envelope=made.envelope), faults


def open_refusals(expect):
    inputs, faults = open_faults()
    expect_faults(expect, "open envelope", inputs, faults,
                  lambda inputs: open_envelope(SET_I, **inputs), refused)
    expect("no public record", open_envelope(SET_I, b"", sample().envelope), refused(1))
    expect("nothing at all", open_envelope(SET_I, b"", b""), refused(1))


def program(expect):
    made = sample()
    expect("empty input", line(SET_I, b""), "REFUSED 1\n")
    for length in (1, 2, 14881, 14882, 14887, 14888, len(made.public + made.envelope) - 1):
        expect(f"{length} bytes", line(SET_I, (made.public + made.envelope)[:length]),
               "REFUSED 1\n")
    expect("one byte more", line(SET_I, made.public + made.envelope + b"\n"), "REFUSED 1\n")
    expect("accepted", line(SET_I, made.public + made.envelope),
           f"ROSTER team={made.team} bytes={len(made.message)} ok\n")
    expect("long input, wrong mark", line(SET_I, made.public + bytes(100000)), "REFUSED 2\n")
    expect("long input, wrong L",
           line(SET_I, made.public + b"\x51\x15\0\0\xff\xff" + bytes(100000)), "REFUSED 3\n")
    expect("long input", line(SET_I, made.public + made.envelope + bytes(100000)),
           "REFUSED 1\n")


def program_refusals(expect):
    """Every fault that does not move the envelope in the input."""
    (inputs, faults), seen = open_faults(), set()
    moving = {fault.name for fault in wrong_lengths("public")}
    for fault in faults:
        if fault.name in moving:
            continue
        damaged = changed(inputs, fault)
        expect(fault.name, line(SET_I, damaged["public"] + damaged["envelope"]),
               f"REFUSED {fault.number}\n")
        seen.add(fault.number)
    expect("numbers reached", seen, {1, 2, 3, 5, 9, 11})


GROUPS = [("lengths of envelopes", lengths), ("round trips of envelopes", round_trips),
          ("envelopes opened", opened), ("rosters signed", rosters_signed),
          ("the team is signed", team_is_signed), ("the old mark", old_mark),
          ("one byte too few or too many", one_byte),
          ("rosters of the longest length", longest),
          ("refusals of signing a roster", sign_roster_refusals),
          ("refusals of writing an envelope", write_refusals),
          ("refusals of reading an envelope", read_refusals),
          ("refusals of opening", open_refusals), ("the program", program),
          ("refusals of the program", program_refusals)]
