"""The numbers of a set, written once, and the lengths that follow from them.

Every other module takes a `Numbers` value as its first parameter and reads
from it; none of them names a number of set I itself.
"""

from dataclasses import dataclass

SEED_BYTES = 32       # seeds, r, rand and c'
DIGEST_BYTES = 40     # the digest of a message and g
MARK_BYTES = 2
MESSAGE_LIMIT = 32768
ROSTER_LIMIT = 32766  # of an envelope: two bytes of team number are signed with it
BUDGET_LIMIT = 1024


def bytes_for(bits):
    """The least number of whole bytes that hold so many bits."""
    return (bits + 7) // 8


@dataclass(frozen=True)
class Numbers:
    n: int
    k: int
    q: int
    h: int
    E: int
    S: int
    B: int
    d: int
    t_width: int          # bits of a coefficient of t, and of a candidate for a
    z_width: int          # bits of a coefficient of z, and of a candidate for y
    position_width: int   # bits of a position; n is 2 to this power
    mark_digit: int       # the first hexadecimal digit of a mark's second byte

    @property
    def z_bound(self):
        """The largest |z| that passes."""
        return self.B - self.S

    @property
    def y_range(self):
        """How many values y can take."""
        return 2 * self.B + 1

    @property
    def t_bytes(self):
        """The stretch of one packed t_i."""
        return bytes_for(self.n * self.t_width)

    @property
    def z_bytes(self):
        return bytes_for(self.n * self.z_width)

    @property
    def public_length(self):
        return MARK_BYTES + self.k * self.t_bytes + SEED_BYTES

    @property
    def secret_length(self):
        return MARK_BYTES + (1 + self.k) * self.n + 2 * SEED_BYTES + DIGEST_BYTES

    @property
    def signature_length(self):
        return MARK_BYTES + self.z_bytes + SEED_BYTES

    def record_mark(self, kind):
        return bytes([0x51, 16 * self.mark_digit + kind])

    def stream_mark(self, purpose):
        return bytes([0x53, 16 * self.mark_digit + purpose])


SET_I = Numbers(
    n=1024, k=4, q=343576577, h=25, E=554, S=554, B=524287, d=22,
    t_width=29, z_width=20, position_width=10, mark_digit=1,
)
