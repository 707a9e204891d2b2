//! Labels: their order, their operations, and the two rules for changing one.
//!
//! This module knows nothing of the machine: "Label rules are a layer below
//! the machine and are usable without it."

/// "A label is a byte, i × 16 + c."
#[derive(Clone, Copy, Debug, PartialEq, Eq)]
pub struct Label(pub u8);

/// "sets of four principals, one bit each": the one of all four.
pub const EVERYONE: u8 = 15;

/// Whether one set of principals, "one bit each", is "a subset" of another.
pub fn is_subset(a: u8, b: u8) -> bool {
    a & !b == 0
}

impl Label {
    /// "The lowest label, 240, and the highest, 15, have names of their own."
    pub const LOWEST: Label = Label(240);

    /// "The lowest label, 240, and the highest, 15, have names of their own."
    pub const HIGHEST: Label = Label(15);

    /// "A label is a byte, i × 16 + c."
    pub fn new(integrity: u8, confidentiality: u8) -> Label {
        Label((integrity & 15) << 4 | confidentiality & 15)
    }

    /// "Its trust i and its secrecy c are sets of four principals, one bit
    /// each." Integrity is the paper's trust.
    pub fn integrity(self) -> u8 {
        self.0 >> 4
    }

    /// "Its trust i and its secrecy c are sets of four principals, one bit
    /// each." Confidentiality is the paper's secrecy.
    pub fn confidentiality(self) -> u8 {
        self.0 & 15
    }

    /// The eight steps up from the lowest label: for each principal whether
    /// integrity lacks it and whether confidentiality has it. "i' is a subset
    /// of i" says that what i lacks, i' lacks too, so in these terms a label
    /// flows up along one subset, the join is a union and the meet what both
    /// have. One operation on the byte then serves both halves.
    fn height(self) -> u8 {
        self.0 ^ Label::LOWEST.0
    }

    /// The label of that height; the inverse of `height`.
    fn of_height(height: u8) -> Label {
        Label(height ^ Label::LOWEST.0)
    }

    /// "Label (i, c) *flows to* (i', c') when i' is a subset of i and c a
    /// subset of c'."
    pub fn flows_to(self, other: Label) -> bool {
        is_subset(self.height(), other.height())
    }

    /// "The join is (i and i', c or c')"
    pub fn join(self, other: Label) -> Label {
        Label::of_height(self.height() | other.height())
    }

    /// "the meet is (i or i', c and c')"
    pub fn meet(self, other: Label) -> Label {
        Label::of_height(self.height() & other.height())
    }

    /// "the reflection swaps i and c."
    pub fn reflection(self) -> Label {
        Label::new(self.confidentiality(), self.integrity())
    }

    /// "A label is *sound* when c is a subset of i."
    pub fn is_sound(self) -> bool {
        is_subset(self.confidentiality(), self.integrity())
    }

    /// "A label is trusted when its i isn't within j", the set that the person
    /// is trusted with.
    pub fn is_trusted(self, j: u8) -> bool {
        !is_subset(self.integrity(), j)
    }

    /// "and secret when its c includes s", the set whose secrets the person is
    /// shut out from.
    pub fn is_secret(self, s: u8) -> bool {
        is_subset(s, self.confidentiality())
    }

    /// "A label read from a register must be at most 255." A larger value is
    /// no label at all; it is never cut down to one.
    pub fn from_value(value: u32) -> Option<Label> {
        u8::try_from(value).ok().map(Label)
    }
}

/// "**Raise** of l to l' under p: p flows to l, l to l', and l' to the
/// reflection of p."
pub fn may_raise(from: Label, to: Label, pc_label: Label) -> bool {
    pc_label.flows_to(from) && from.flows_to(to) && to.flows_to(pc_label.reflection())
}

/// "**Relabel** of l to l' under p: p flows to the meet of l and l', l is
/// sound, l' flows to the reflection of p."
pub fn may_relabel(from: Label, to: Label, pc_label: Label) -> bool {
    pc_label.flows_to(from.meet(to)) && from.is_sound() && to.flows_to(pc_label.reflection())
}

/// "A pair (place label p, clock label t)": the pc label and the timing label.
#[derive(Clone, Copy, Debug, PartialEq, Eq)]
pub struct Pair {
    pub pc: Label,
    pub timing: Label,
}

impl Pair {
    /// A pair from its two bytes, pc label first.
    pub fn new(pc: u8, timing: u8) -> Pair {
        Pair { pc: Label(pc), timing: Label(timing) }
    }

    /// "A pair (place label p, clock label t) is *valid* when p flows to t and
    /// both are sound."
    pub fn is_valid(self) -> bool {
        self.pc.flows_to(self.timing) && self.pc.is_sound() && self.timing.is_sound()
    }

    /// Both labels flow to their counterparts, as "an upcall's kept labels flow
    /// to the current ones" and op 17's "p, t flow to the new ones" ask.
    pub fn flows_to(self, other: Pair) -> bool {
        self.pc.flows_to(other.pc) && self.timing.flows_to(other.timing)
    }
}
