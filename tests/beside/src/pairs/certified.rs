//! A pair of which one is certified: its certificate speaks for both.

use super::provisos::{earlier, first_broken, Bounds};
use crate::buffers::Lent;
use crate::calls::Calls;
use crate::certificate::{read, SPAN};
use crate::layout;
use interpreter::certificate::cause;
use interpreter::generator::random::Random;
use interpreter::{Certificate, Label};

/// The certificate of an accepted text at ℓ, in memory and a buffer of any
/// lengths. "What lies behind them is left", and "words and labels hold what the
/// run leaves": that of load and run in the same memory.
pub fn certificate_of(
    calls: &dyn Calls,
    random: &mut Random,
    level: Label,
    text: &[u8],
    size: usize,
) -> Result<Certificate, String> {
    let words: Vec<u32> = (0..size + random.index(9)).map(|_| random.bits()).collect();
    let labels: Vec<u8> = (0..size + random.index(9)).map(|_| random.bits() as u8).collect();
    let mut lent = Lent::of(random, &[0; layout::SPAN], &words, &labels);
    lent.certificate.lend(SPAN + random.index(3), u64::from(random.bits()));
    let before = lent.clone();
    let mut fired = lent.clone();
    let answers = (lent.certify(calls, level, text), fired.load(calls, text), fired.run(calls));
    if answers != (0, 0, 0) {
        return Err(format!("certify, load and run answer {answers:?}"));
    }
    if (&lent.words, &lent.labels) != (&fired.words, &fired.labels) {
        return Err("certify leaves another memory than load and run".to_string());
    }
    let start = lent.certificate.lent.start;
    let behind = start + SPAN..;
    if lent.certificate.all[behind.clone()] != before.certificate.all[behind]
        || lent.certificate.all[..start] != before.certificate.all[..start]
    {
        return Err("certify writes beside the certificate".to_string());
    }
    read(lent.certificate.get()).ok_or_else(|| "the place is too wide".to_string())
}

/// The first tick that a certificate doesn't cover; none where it covers all.
pub fn uncovered(certificate: Certificate) -> Option<u64> {
    (certificate.cause != cause::NO_BREAK).then_some(certificate.tick)
}

/// The first tick at which a proviso is broken though the certificate covers it.
pub fn broken_under(certificate: Certificate, bounds: Bounds) -> Option<u64> {
    let broken = first_broken(bounds, None)?;
    let first = earlier(Some(broken), uncovered(certificate));
    (first != uncovered(certificate)).then_some(broken)
}
