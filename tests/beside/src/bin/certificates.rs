//! `certificates [SEED [COUNT [library|interpreter]]]` certifies one machine of
//! each of COUNT pairs and compares the other with it up to the first break,
//! through the library's calls or the interpreter's; so it does with an eighth of
//! that many pairs that are loaded from HEX. It compares the library's
//! certificates of COUNT texts with the interpreter's. It prints what was met; the
//! last line is 'N passed, M failed'.

#![forbid(unsafe_code)]

use beside::calls::Calls;
use beside::loads::{try_certify, CERTIFY};
use beside::other::Other;
use beside::pairs::certified::{broken_under, certificate_of, uncovered};
use beside::pairs::check::{compare, unreached};
use beside::pairs::divisions;
use beside::pairs::from_hex::{self, HexPair};
use beside::pairs::hidden::{came, Came};
use beside::pairs::image::Image;
use beside::pairs::make::Pair;
use beside::pairs::multiplies;
use beside::pairs::provisos::{both, bounds, Bounds};
use beside::pairs::trace::{trace, Trace};
use beside::tally::Tally;
use beside::trial::{Trial, Words};
use interpreter::certificate::cause;
use interpreter::generator::random::Random;
use interpreter::{Certificate, Label};
use std::process::ExitCode;

/// So many pairs are tried for one whose loaded state is no break.
const TRIES: u32 = 3;

/// The causes, by number.
const CAUSES: [&str; 4] =
    ["no break", "an attempt to release", "a state at large", "a state timed from outside"];

/// How far a pair that is certified to the end came with a hidden upcall.
const CAME: [(Came, &str); 3] = [
    (Came::Back, "certified to the end: pairs through a hidden upcall and back"),
    (Came::BackByDifferentRuns, "certified to the end: pairs through it by different hidden runs"),
    (
        Came::BackToWrites,
        "certified to the end: pairs through it by different hidden runs, back to visible writes",
    ),
];

/// What must come up besides.
const EXPECTED: [&str; 9] = [
    "pairs",
    "pairs of which the limit bars an attempt",
    "ticks compared",
    "certified to the end: pairs hidden at the start",
    "certified to the end: pairs alike to the last tick though their ends differ",
    "broken: pairs at the loaded state",
    "broken: pairs after a hidden upcall by different hidden runs",
    "broken: pairs of which one releases what the other only tries to",
    "broken: pairs of which neither releases what both try to",
];

/// A pair that was tried: what its machines did, and the certificate.
struct Tried {
    level: Label,
    certificate: Certificate,
    one: Trace,
    other: Trace,
    bounds: [Bounds; 2],
}

fn main() -> ExitCode {
    let words = Words::read();
    let mut trial = Trial::expecting(&words, expected(words.is_library));
    let count = words.count(6_000);
    for turn in 0..count {
        try_any(&mut trial);
        if words.is_library {
            try_text(&mut trial, turn as usize);
        }
    }
    (0..count / from_hex::EVERY).for_each(|_| try_hex(&mut trial));
    trial.trials.finish()
}

/// All that must come up: of texts only where the library is tried.
fn expected(is_library: bool) -> Vec<String> {
    let mut names = EXPECTED.map(str::to_string).to_vec();
    names.extend(from_hex::EXPECTED.map(str::to_string));
    names.extend(CAME.map(|(_, name)| name.to_string()));
    names.extend(divisions::expected().iter().map(|name| certified(name)));
    names.extend(multiplies::expected().iter().map(|name| certified(name)));
    names.extend(CAUSES.map(|cause| format!("pairs with {cause}")));
    names.extend(CAUSES[1..].iter().map(|cause| differ(cause)));
    if is_library {
        names.extend(CERTIFY.expected());
        names.extend(CAUSES.map(|cause| format!("certify, {cause}")));
    }
    names
}

/// What is counted of pairs that are certified to the end.
fn certified(name: &str) -> String {
    format!("certified to the end: {name}")
}

/// A pair, mostly one that goes on for a while: of those whose loaded state is a
/// break there are many.
fn choose(random: &mut Random) -> Pair {
    let mut pair = Pair::make(random);
    for _ in 0..TRIES {
        let (machine, ..) = pair.one.loaded();
        if machine.state_break(pair.level).is_none() || random.chance(20) {
            return pair;
        }
        pair = Pair::make(random);
    }
    pair
}

/// Puts the limit before the end of the first attempt to release, so that it is
/// barred; says whether there is one.
fn bar_attempt(pair: &mut Pair) -> bool {
    let (mut machine, mut words, labels) = pair.one.loaded();
    match machine.certify(pair.level, &mut words, &labels) {
        Ok(Certificate { cause: cause::RELEASE, tick, .. }) => {
            pair.one.limit = tick - 1;
            pair.other.limit = tick - 1;
            true
        }
        _ => false,
    }
}

fn name_of(cause: u64) -> &'static str {
    CAUSES.get(cause as usize).unwrap_or(&"a cause that is none")
}

fn differ(cause: &str) -> String {
    format!("broken: pairs that differ from {cause} on")
}

/// The library and the interpreter on one text.
fn try_text(trial: &mut Trial, turn: usize) {
    if let Some(cause) = try_certify(&mut trial.trials, &mut trial.random, turn) {
        trial.trials.tally.count(&format!("certify, {}", name_of(cause)));
    }
}

fn try_any(trial: &mut Trial) {
    let mut pair = choose(&mut trial.random);
    let is_barred = trial.random.chance(25) && bar_attempt(&mut pair);
    trial.trials.tally.count_if(is_barred, "pairs of which the limit bars an attempt");
    let images = pair.texts();
    try_pair(trial, pair, images);
}

/// A pair loaded from HEX, certified as the texts of the same images.
fn try_hex(trial: &mut Trial) {
    let made = HexPair::make(&mut trial.random);
    made.kinds().iter().for_each(|kind| trial.trials.tally.count(kind));
    try_pair(trial, made.pair, made.images);
}

fn try_pair(trial: &mut Trial, pair: Pair, images: [Image; 2]) {
    let outcome = check(trial, &pair, images);
    trial.judge(outcome, |what| pair.show(what));
}

/// The certificate of a pair: that of the one, which the other must have too,
/// and which is the interpreter's.
fn certificate(trial: &mut Trial, pair: &Pair) -> Result<Certificate, String> {
    let Pair { level, one, other } = pair;
    let size = one.words.len();
    let mut of = |calls: &dyn Calls, text: &[u8]| {
        certificate_of(calls, &mut trial.random, *level, text, size)
    };
    let certificate = of(trial.calls, &one.text())?;
    let others = [of(trial.calls, &other.text())?, of(&Other, &one.text())?];
    if others != [certificate; 2] {
        return Err(format!("{certificate:?}; of the other, and by the interpreter: {others:?}"));
    }
    Ok(certificate)
}

/// What a certificate promises of one pair: below the tick of the break both
/// meet the provisos, and they are alike where both have come.
fn check(trial: &mut Trial, pair: &Pair, images: [Image; 2]) -> Result<(), String> {
    let certificate = certificate(trial, pair)?;
    let (level, size) = (&pair.level, pair.one.words.len());
    let (calls, random, tally) = (trial.calls, &mut trial.random, &mut trial.trials.tally);
    let one = trace(calls, random, tally, &images[0], size)?;
    let other = trace(calls, random, tally, &images[1], size)?;
    let bounds = [bounds(*level, &one), bounds(*level, &other)];
    if let Some(tick) = broken_under(certificate, both(bounds[0], bounds[1])) {
        return Err(format!("{certificate:?}, and a proviso broken at tick {tick}"));
    }
    let reached = unreached(&one, &other);
    let bound = uncovered(certificate).unwrap_or(reached).min(reached);
    let compared = compare(*level, &one, &other, bound);
    tally.add("ticks compared", compared.ticks);
    let tried = Tried { level: *level, certificate, one, other, bounds };
    tried.count(tally, bound, reached);
    match compared.differs {
        Some((tick, what)) => Err(format!("{certificate:?}, and not alike at {tick}, {what}")),
        None => Ok(()),
    }
}

impl Tried {
    /// Counts what kind of pair it is.
    fn count(&self, tally: &mut Tally, bound: u64, reached: u64) {
        tally.count("pairs");
        tally.count(&format!("pairs with {}", name_of(self.certificate.cause)));
        if self.certificate == Certificate::WHOLE {
            self.count_whole(tally, bound);
        } else {
            self.count_broken(tally, bound, reached);
        }
    }

    /// A pair that is certified to the end.
    fn count_whole(&self, tally: &mut Tally, bound: u64) {
        let Tried { level, one, other, .. } = self;
        let came = came(*level, one, other, bound);
        CAME.iter().for_each(|(far, name)| tally.count_if(came >= *far, name));
        let hidden = !one.states[0].shows_control(*level);
        tally.count_if(hidden, "certified to the end: pairs hidden at the start");
        let ended = one.unreached().is_none() && other.unreached().is_none();
        let apart = ended && one.last().machine.end != other.last().machine.end;
        let name = "certified to the end: pairs alike to the last tick though their ends differ";
        tally.count_if(apart, name);
        let divided = divisions::met(*level, one, other, bound);
        let multiplied = multiplies::met(*level, one, other, bound);
        let met = divided.iter().chain(&multiplied);
        met.for_each(|name| tally.count(&certified(name)));
    }

    /// A pair with a break: what went before, whether the two differ from there
    /// on, and which of them released what they tried to.
    fn count_broken(&self, tally: &mut Tally, bound: u64, reached: u64) {
        let Tried { level, certificate, one, other, bounds } = self;
        let tick = certificate.tick;
        tally.count_if(tick == 0, "broken: pairs at the loaded state");
        let parted = compare(*level, one, other, reached).differs.is_some();
        tally.count_if(parted, &differ(name_of(certificate.cause)));
        let far = came(*level, one, other, bound) >= Came::BackByDifferentRuns;
        tally.count_if(far, "broken: pairs after a hidden upcall by different hidden runs");
        if certificate.cause == cause::RELEASE && tick < reached {
            let released = bounds.map(|bounds| bounds[0] == Some(tick));
            let name = "broken: pairs of which one releases what the other only tries to";
            tally.count_if(released[0] != released[1], name);
            let name = "broken: pairs of which neither releases what both try to";
            tally.count_if(released == [false; 2], name);
        }
    }
}
