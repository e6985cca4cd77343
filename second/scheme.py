"""Key making, signing and checking.

Each entry first makes all its tests, lowest number first, and then works.
"""

from collections import namedtuple

from answers import (BUDGET, CHECK_E, CHECK_S, DONE, HASH, HIGH_PART, LENGTH, MARK,
                     MESSAGE, NO_COUNTER, VALUE, Z)
from records import (MINUS_128, PUBLIC, SECRET, SIGNATURE, has_mark, packed_t,
                     public_parts, public_t, secret_parts, signature_parts, signature_z,
                     signed_bytes, write_public, write_secret, write_signature)
from sets import BUDGET_LIMIT, MESSAGE_LIMIT, SEED_BYTES
from streams import (digest_of_key, digest_of_message, drawn_a, drawn_rand, drawn_y, enc,
                     hash_of_high_parts)
from sums import (added, centred_polynomial, check_e, check_s, fits_signed_byte, high,
                  product, sparse, subtracted, t_passes, w_passes, z_passes)

# What an attempt needs of the key: a and e are lists of k polynomials.
Key = namedtuple("Key", "a s e g")


def polynomials(numbers, row):
    """A row of k polynomials, as a list of them."""
    return [row[at:at + numbers.n] for at in range(0, numbers.k * numbers.n, numbers.n)]


def secrets_refusal(numbers, s, e):
    """The tests on secrets of the right lengths: 5, 6, 7."""
    if MINUS_128 in s or MINUS_128 in e:
        return VALUE
    if not check_s(numbers, signed_bytes(s)):
        return CHECK_S
    if not all(check_e(numbers, e_i) for e_i in polynomials(numbers, signed_bytes(e))):
        return CHECK_E
    return DONE


# Key making.

def make_key(numbers, s, e, seed_a, seed_y, public_len, secret_len):
    """Answers (number, (public record, secret record)), or (number, None)."""
    refusal = key_refusal(numbers, s, e, seed_a, seed_y, public_len, secret_len)
    if refusal != DONE:
        return refusal, None
    t = public_polynomials(numbers, drawn_a(numbers, seed_a), signed_bytes(s),
                           polynomials(numbers, signed_bytes(e)))
    g = digest_of_key(numbers, packed_t(numbers, t))
    public = write_public(numbers, t, seed_a, public_len)[1]
    secret = write_secret(numbers, s, e, seed_a, seed_y, g, secret_len)[1]
    return DONE, (public, secret)


def key_refusal(numbers, s, e, seed_a, seed_y, public_len, secret_len):
    if (len(s) != numbers.n or len(e) != numbers.k * numbers.n
            or len(seed_a) != SEED_BYTES or len(seed_y) != SEED_BYTES
            or public_len != numbers.public_length
            or secret_len != numbers.secret_length):
        return LENGTH
    return secrets_refusal(numbers, s, e)


def public_polynomials(numbers, a, s, e):
    """t_1..t_k in a row: a_i s + e_i from 0 to q - 1."""
    t = []
    for a_i, e_i in zip(a, e):
        t += [v % numbers.q for v in added(product(a_i, s), e_i)]
    return t


# Signing.

def sign(numbers, secret, message, r, budget, signature_len):
    """Answers (number, counter, signature record), or (number, 0, None)."""
    refusal = sign_refusal(numbers, secret, message, r, budget, signature_len)
    if refusal != DONE:
        return refusal, 0, None
    _, s, e, seed_a, seed_y, g = secret_parts(numbers, secret)
    key = Key(drawn_a(numbers, seed_a), signed_bytes(s),
              polynomials(numbers, signed_bytes(e)), g)
    digest = digest_of_message(numbers, message)
    rand = drawn_rand(numbers, seed_y, r, digest)
    number, counter, made = search(numbers, key, digest, rand, budget)
    if number != DONE:
        return number, 0, None
    z, c = made
    return DONE, counter, write_signature(numbers, z, c, signature_len)[1]


def sign_refusal(numbers, secret, message, r, budget, signature_len):
    if (len(secret) != numbers.secret_length or len(r) != SEED_BYTES
            or signature_len != numbers.signature_length):
        return LENGTH
    if not has_mark(numbers, secret, SECRET):
        return MARK
    if len(message) > MESSAGE_LIMIT:
        return MESSAGE
    if not 1 <= budget <= BUDGET_LIMIT:
        return BUDGET
    _, s, e, _, _, _ = secret_parts(numbers, secret)
    return secrets_refusal(numbers, s, e)


def search(numbers, key, digest, rand, budget):
    """The first counter whose attempt does more than fail.

    It passes, or it meets a high part that does not fit; both end the search.
    """
    for counter in range(1, budget + 1):
        number, made = attempt(numbers, key, digest, rand, counter)
        if number != NO_COUNTER:
            return number, counter, made
    return NO_COUNTER, 0, None


def attempt(numbers, key, digest, rand, counter):
    """One counter: it passes with (z, c'), or fails (8), or meets 10."""
    y = drawn_y(numbers, rand, counter)
    v = [centred_polynomial(product(a_i, y), numbers.q) for a_i in key.a]
    high_parts = all_high_parts(numbers, v)
    if not all(map(fits_signed_byte, high_parts)):
        return HIGH_PART, None
    c_hash = hash_of_high_parts(numbers, high_parts, digest, key.g)
    c = sparse(numbers.n, *enc(numbers, c_hash))
    z = added(y, product(key.s, c))
    if not z_passes(numbers, z):
        return NO_COUNTER, None
    for v_i, e_i in zip(v, key.e):
        w_i = centred_polynomial(subtracted(v_i, product(e_i, c)), numbers.q)
        if not w_passes(numbers, w_i):
            return NO_COUNTER, None
    return DONE, (z, c_hash)


def all_high_parts(numbers, v):
    """The high parts of v_1..v_k in a row."""
    return [high(numbers, coefficient) for v_i in v for coefficient in v_i]


# Checking.

def check(numbers, public, message, signature):
    """Answers the number."""
    if (len(public) != numbers.public_length
            or len(signature) != numbers.signature_length):
        return LENGTH
    if (not has_mark(numbers, public, PUBLIC)
            or not has_mark(numbers, signature, SIGNATURE)):
        return MARK
    if len(message) > MESSAGE_LIMIT:
        return MESSAGE
    t = public_t(numbers, public)
    if not t_passes(numbers, t):
        return VALUE
    z = signature_z(numbers, signature)
    if not z_passes(numbers, z):
        return Z
    return hash_refusal(numbers, public, t, message, signature, z)


def hash_refusal(numbers, public, t, message, signature, z):
    """The last two tests, on what passed the others: 10, 11."""
    _, t_packed, seed_a = public_parts(numbers, public)
    c_hash = signature_parts(numbers, signature)[2]
    c = sparse(numbers.n, *enc(numbers, c_hash))
    w = [centred_polynomial(subtracted(product(a_i, z), product(t_i, c)), numbers.q)
         for a_i, t_i in zip(drawn_a(numbers, seed_a), polynomials(numbers, t))]
    high_parts = all_high_parts(numbers, w)
    if not all(map(fits_signed_byte, high_parts)):
        return HIGH_PART
    expected = hash_of_high_parts(numbers, high_parts, digest_of_message(numbers, message),
                                  digest_of_key(numbers, t_packed))
    return DONE if c_hash == expected else HASH
