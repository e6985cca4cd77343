//! The entries that the example uses, over slices. Slices see to all that include/maesikkong.h asks of a caller; each function answers its
//! number.

mod c {
    #[link(name = "maesikkong", kind = "static")]
    extern "C" {
        pub fn maesikkong_make_key(
            s: *const u8,
            s_len: usize,
            e: *const u8,
            e_len: usize,
            seed_a: *const u8,
            seed_a_len: usize,
            seed_y: *const u8,
            seed_y_len: usize,
            public: *mut u8,
            public_len: usize,
            secret: *mut u8,
            secret_len: usize,
        ) -> u8;
        pub fn maesikkong_sign(
            secret: *const u8,
            secret_len: usize,
            message: *const u8,
            message_len: usize,
            r: *const u8,
            r_len: usize,
            budget: u32,
            signature: *mut u8,
            signature_len: usize,
            counter: *mut u16,
        ) -> u8;
        pub fn maesikkong_sign_roster(
            secret: *const u8,
            secret_len: usize,
            team: u16,
            roster: *const u8,
            roster_len: usize,
            r: *const u8,
            r_len: usize,
            budget: u32,
            signature: *mut u8,
            signature_len: usize,
            counter: *mut u16,
        ) -> u8;
        pub fn maesikkong_check(
            public: *const u8,
            public_len: usize,
            message: *const u8,
            message_len: usize,
            signature: *const u8,
            signature_len: usize,
        ) -> u8;
        pub fn maesikkong_write_envelope(
            team: u16,
            roster: *const u8,
            roster_len: usize,
            signature: *const u8,
            signature_len: usize,
            envelope: *mut u8,
            envelope_len: usize,
        ) -> u8;
        pub fn maesikkong_open_envelope(
            public: *const u8,
            public_len: usize,
            envelope: *const u8,
            envelope_len: usize,
            team: *mut u16,
            roster_start: *mut usize,
            roster_len: *mut usize,
        ) -> u8;
        pub fn maesikkong_shake256(
            message: *const u8,
            message_len: usize,
            out: *mut u8,
            out_len: usize,
        ) -> u8;
    }
}

pub const PUBLIC_BYTES: usize = 14882;
pub const SECRET_BYTES: usize = 5226;
pub const SIGNATURE_BYTES: usize = 2594;
pub const ENVELOPE_BYTES: usize = 2600;

/// Both records of a key.
pub fn make_key(
    s: &[u8],
    e: &[u8],
    seed_a: &[u8],
    seed_y: &[u8],
    public: &mut [u8],
    secret: &mut [u8],
) -> u8 {
    unsafe {
        c::maesikkong_make_key(
            s.as_ptr(),
            s.len(),
            e.as_ptr(),
            e.len(),
            seed_a.as_ptr(),
            seed_a.len(),
            seed_y.as_ptr(),
            seed_y.len(),
            public.as_mut_ptr(),
            public.len(),
            secret.as_mut_ptr(),
            secret.len(),
        )
    }
}

/// The signature record of the message, and with the number the counter.
pub fn sign(
    secret: &[u8],
    message: &[u8],
    r: &[u8],
    budget: u32,
    signature: &mut [u8],
) -> (u8, u16) {
    let mut counter = 0;
    let number = unsafe {
        c::maesikkong_sign(
            secret.as_ptr(),
            secret.len(),
            message.as_ptr(),
            message.len(),
            r.as_ptr(),
            r.len(),
            budget,
            signature.as_mut_ptr(),
            signature.len(),
            &mut counter,
        )
    };
    (number, counter)
}

/// The signature record of a roster under its team number, and with the number the counter.
pub fn sign_roster(
    secret: &[u8],
    team: u16,
    roster: &[u8],
    r: &[u8],
    budget: u32,
    signature: &mut [u8],
) -> (u8, u16) {
    let mut counter = 0;
    let number = unsafe {
        c::maesikkong_sign_roster(
            secret.as_ptr(),
            secret.len(),
            team,
            roster.as_ptr(),
            roster.len(),
            r.as_ptr(),
            r.len(),
            budget,
            signature.as_mut_ptr(),
            signature.len(),
            &mut counter,
        )
    };
    (number, counter)
}

/// Whether the signature record on the message passes under the public record.
pub fn check(public: &[u8], message: &[u8], signature: &[u8]) -> u8 {
    unsafe {
        c::maesikkong_check(
            public.as_ptr(),
            public.len(),
            message.as_ptr(),
            message.len(),
            signature.as_ptr(),
            signature.len(),
        )
    }
}

/// The envelope of a team number, a roster and the signature record of both.
pub fn write_envelope(team: u16, roster: &[u8], signature: &[u8], envelope: &mut [u8]) -> u8 {
    unsafe {
        c::maesikkong_write_envelope(
            team,
            roster.as_ptr(),
            roster.len(),
            signature.as_ptr(),
            signature.len(),
            envelope.as_mut_ptr(),
            envelope.len(),
        )
    }
}

/// With the number the team and the roster, the stretch of the envelope that is lent.
pub fn open_envelope<'a>(public: &[u8], envelope: &'a [u8]) -> (u8, u16, &'a [u8]) {
    let (mut team, mut start, mut len) = (0, 0, 0);
    let number = unsafe {
        c::maesikkong_open_envelope(
            public.as_ptr(),
            public.len(),
            envelope.as_ptr(),
            envelope.len(),
            &mut team,
            &mut start,
            &mut len,
        )
    };
    (number, team, &envelope[start..start + len])
}

/// SHAKE256 of the message.
pub fn shake256(message: &[u8], out: &mut [u8]) -> u8 {
    unsafe {
        c::maesikkong_shake256(message.as_ptr(), message.len(), out.as_mut_ptr(), out.len())
    }
}
