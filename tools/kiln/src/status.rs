//! How a command ends: its exit status, and what it says when it fails.

/// The exit statuses, as kiln(1) lists them.
#[derive(Clone, Copy, Debug, PartialEq, Eq)]
pub enum Status {
    /// Done; of a run, halted; of a view, listed; of a certificate, to the end; of
    /// a HEX text, all that the image says besides its first line.
    Done = 0,
    /// Done, with another end: a spent clock or a stall, a certificate up to a
    /// tick, or a HEX text that leaves something out.
    EndedOtherwise = 1,
    /// The image, the source, the tick or the command line is refused.
    Refused = 2,
    /// Input or output failed.
    Failed = 3,
}

/// A command that came to no end of its own, or that has something to say of it.
/// The message goes to standard error as it stands; it may have several lines.
#[derive(Debug)]
pub struct Failure {
    pub status: Status,
    pub message: String,
}

impl Failure {
    pub fn refused(message: impl Into<String>) -> Failure {
        Failure { status: Status::Refused, message: message.into() }
    }

    /// The command is done, and the message says what that leaves out.
    pub fn partly(message: impl Into<String>) -> Failure {
        Failure { status: Status::EndedOtherwise, message: message.into() }
    }

    pub fn failed(message: impl Into<String>) -> Failure {
        Failure { status: Status::Failed, message: message.into() }
    }
}
