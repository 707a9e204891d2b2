//! `kiln certify`: up to which tick nothing of what is hidden can show at a
//! label, in words. They tell nothing that the label doesn't see.

use crate::command::Arguments;
use crate::files;
use crate::library::{self, Certificate, Machine, AT_LARGE, NO_BREAK, RELEASE, TIMED_FROM_OUTSIDE};
use crate::ops;
use crate::refusals;
use crate::status::{Failure, Status};

pub fn certify(arguments: &Arguments) -> Result<Status, Failure> {
    let label = arguments.label.expect("certify's command line has a label");
    let text = files::read_image(&arguments.file)?;
    let refused = |refusal| refusals::failure(&arguments.file, &text, &refusal);
    let certificate = library::certify(label, &text).map_err(refused)?;
    let machine = Machine::load(&text).map_err(refused)?;
    let (told, status) = match certificate.cause {
        NO_BREAK => (to_the_end(label), Status::Done),
        _ => (up_to_a_tick(label, certificate, machine), Status::EndedOtherwise),
    };
    files::write(None, told.as_bytes())?;
    Ok(status)
}

fn to_the_end(label: u8) -> String {
    format!("at {label} nothing of what is hidden can show, whatever it is, to the end\n")
}

/// What the run does first that breaks the certificate, and what that means.
fn up_to_a_tick(label: u8, certificate: Certificate, machine: Machine) -> String {
    let Certificate { cause, tick, place } = certificate;
    let broken = match cause {
        RELEASE => {
            let (op, target) = release(certificate, machine);
            format!(
                "at tick {tick} the word at place {place} tries to release \
                 a register to {target}: {op}"
            )
        }
        AT_LARGE => format!(
            "at tick {tick} the program is out of sight of {label}, in no upcall, \
             while a gate leads back within"
        ),
        TIMED_FROM_OUTSIDE => format!(
            "at tick {tick}, place {place}, the pc label is within {label} \
             and the timing label outside"
        ),
        _ => unreachable!("there are three causes of a break"),
    };
    format!("{broken}\n{}\n", meaning(label, tick))
}

/// The op that tries a release, and to which label. It can change a label alone,
/// so that the word and the value are as they were before it. Both are seen at
/// the certificate's label: the word was fetched, and the value's label flows to
/// the pc label.
fn release(certificate: Certificate, mut machine: Machine) -> (String, u32) {
    machine.run_to(certificate.tick);
    let word = machine.word(certificate.place).value;
    (ops::in_words(word), machine.register(ops::fields(word).b).value)
}

fn meaning(label: u8, tick: u64) -> String {
    match tick {
        0 => format!("that is the start: at any tick something hidden may show at {label}"),
        _ => format!(
            "before that tick nothing of what is hidden can show at {label}, whatever it is; \
             from then on something may"
        ),
    }
}
