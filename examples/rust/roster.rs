//! A desk makes a key and signs a message, which is checked. Then it signs a roster under its team number, and puts the number, the roster and
//! the signature into an envelope; a receiver opens it. Prints each answer, and exits with 1 if one is not the expected one.

mod maesikkong;

use maesikkong::{ENVELOPE_BYTES, PUBLIC_BYTES, SECRET_BYTES, SIGNATURE_BYTES};
use std::fmt::Debug;

const MESSAGE: &[u8] = b"Radio check at noon\n";
const ROSTER: &[u8] = b"Saturday: Hana, Minjun\nSunday: Seoyeon, Jiho\n";
const TEAM: u16 = 119;

/// Prints what was answered. Whether it is what was expected.
fn expect<T: Debug + PartialEq>(what: &str, got: T, wanted: T) -> bool {
    println!("{what}: {got:?}");
    if got != wanted {
        println!("  FAILED, it should be {wanted:?}");
    }
    got == wanted
}

/// Bytes for the example from a name. A real desk draws seeds and secrets at random; how is not this library's matter.
fn from_name(name: &str, len: usize) -> Vec<u8> {
    let mut out = vec![0; len];
    maesikkong::shake256(name.as_bytes(), &mut out);
    out
}

/// Coefficients from -8 to 8: the 25 largest sum to at most 200.
fn small(name: &str, len: usize) -> Vec<u8> {
    from_name(name, len).iter().map(|byte| (byte % 17).wrapping_sub(8)).collect()
}

struct Desk {
    public: Vec<u8>,
    secret: Vec<u8>,
}

fn make_key() -> (bool, Desk) {
    let (mut public, mut secret) = (vec![0; PUBLIC_BYTES], vec![0; SECRET_BYTES]);
    let (mut s, e) = (small("s", 1024), small("e", 4096));
    let (seed_a, seed_y) = (from_name("seed_a", 32), from_name("seed_y", 32));
    let made = maesikkong::make_key(&s, &e, &seed_a, &seed_y, &mut public, &mut secret);
    let mut ok = expect("make key", made, 0);
    s[0] = 0x80;
    let made = maesikkong::make_key(&s, &e, &seed_a, &seed_y, &mut public, &mut secret);
    ok &= expect("make key of a secret byte that is -128", made, 5);
    (ok, Desk { public, secret })
}

fn sign_and_check(desk: &Desk) -> bool {
    let mut signature = vec![0; SIGNATURE_BYTES];
    let r = from_name("r", 32);
    let (number, counter) = maesikkong::sign(&desk.secret, MESSAGE, &r, 1024, &mut signature);
    let ok = expect("sign", number, 0);
    println!("  by counter {counter}");
    ok & expect("check", maesikkong::check(&desk.public, MESSAGE, &signature), 0)
        & expect("check with an empty message", maesikkong::check(&desk.public, &[], &signature), 11)
}

fn write_envelope(desk: &Desk) -> (bool, Vec<u8>) {
    let mut signature = vec![0; SIGNATURE_BYTES];
    let mut envelope = vec![0; ENVELOPE_BYTES + ROSTER.len()];
    let r = from_name("r of the roster", 32);
    let (number, counter) = maesikkong::sign_roster(&desk.secret, TEAM, ROSTER, &r, 1024, &mut signature);
    let mut ok = expect("sign roster", number, 0);
    println!("  by counter {counter}");
    let written = maesikkong::write_envelope(TEAM, ROSTER, &signature, &mut envelope);
    ok &= expect("write envelope", written, 0);
    (ok, envelope)
}

fn open_envelope(desk: &Desk, envelope: &mut [u8]) -> bool {
    let opened = maesikkong::open_envelope(&desk.public, envelope);
    let mut ok = expect("open envelope", opened, (0, TEAM, ROSTER));
    print!("{}", String::from_utf8_lossy(opened.2));
    for (what, at) in [("another roster", 6), ("another team number", 2)] {
        envelope[at] ^= 1;
        let opened = maesikkong::open_envelope(&desk.public, envelope);
        ok &= expect(&format!("open envelope with {what}"), opened, (11, 0, &[][..]));
        envelope[at] ^= 1;
    }
    ok
}

fn main() {
    let (mut ok, desk) = make_key();
    ok &= sign_and_check(&desk);
    let (written, mut envelope) = write_envelope(&desk);
    ok &= written;
    ok &= open_envelope(&desk, &mut envelope);
    std::process::exit(if ok { 0 } else { 1 });
}
