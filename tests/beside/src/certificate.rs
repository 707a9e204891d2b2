//! The certificate in a buffer, read and written as `include/jennydusk.h` tells
//! it.

use interpreter::Certificate;

/// JENNYDUSK_CERTIFICATE_SPAN: "a buffer of at least so many words".
pub const SPAN: usize = 3;

/// The places of the certificate's words.
pub mod at {
    pub const CAUSE: usize = 0;
    pub const TICK: usize = 1;
    pub const PLACE: usize = 2;
}

/// The certificate that a buffer holds, which is long enough. No place is wider
/// than 32 bits.
pub fn read(buffer: &[u64]) -> Option<Certificate> {
    let place = u32::try_from(buffer[at::PLACE]).ok()?;
    Some(Certificate { cause: buffer[at::CAUSE], tick: buffer[at::TICK], place })
}

/// The words of a certificate.
pub fn words_of(certificate: Certificate) -> [u64; SPAN] {
    let mut words = [0; SPAN];
    words[at::CAUSE] = certificate.cause;
    words[at::TICK] = certificate.tick;
    words[at::PLACE] = certificate.place.into();
    words
}
