//! An accepted image with the states of its run, one after each step: what a
//! view at any tick must show follows from them, without a run to that tick.

use crate::bases::LONGEST;
use crate::pairs::check::done_at;
use crate::pairs::seen::State;
use crate::pairs::trace::Trace;
use interpreter::draft::Draft;
use interpreter::generator::census::Census;
use interpreter::generator::compose::compose;
use interpreter::generator::random::Random;
use interpreter::instruction::Instruction;
use interpreter::machine::end;
use interpreter::{print, Event, Label, Machine, Register};

/// So many of the ticks around an image's steps are tried.
const TICKS: usize = 60;

/// A step of the run: the op of its word, and what it did.
#[derive(Clone, Copy, Debug, PartialEq, Eq)]
pub struct Done {
    pub op: u8,
    pub event: Event,
}

/// An image that was fired.
pub struct Fired {
    pub text: Vec<u8>,
    pub limit: u64,
    pub trace: Trace,
    /// The steps from each state to the next.
    pub steps: Vec<Done>,
}

impl Fired {
    /// Fires a generated image. One that would run on for long gets a lower limit.
    pub fn make(random: &mut Random) -> Fired {
        let mut draft = compose(random, &Census::new());
        thin(random, &mut draft);
        let mut fired = Fired::of(&draft, LONGEST);
        if fired.last().machine.end == end::RUNNING {
            draft.limit = LONGEST;
            fired = Fired::of(&draft, LONGEST);
        }
        fired
    }

    /// Steps until the image ends, or until its clock is past this tick.
    pub fn of(draft: &Draft, longest: u64) -> Fired {
        let (mut machine, mut words, labels) = draft.loaded();
        let mut states = vec![state_of(&machine, &words, &labels)];
        let mut steps = Vec::new();
        while machine.end == end::RUNNING && machine.clock <= longest {
            let word = words.get(machine.pc as usize).copied().unwrap_or(0);
            let event = machine.step_watched(&mut words, &labels);
            let event = event.expect("a loaded record stays fit");
            steps.push(Done { op: Instruction(word).op(), event });
            states.push(state_of(&machine, &words, &labels));
        }
        Fired { text: draft.text(), limit: draft.limit, trace: Trace { states }, steps }
    }

    pub fn loaded(&self) -> &State {
        &self.trace.states[0]
    }

    pub fn last(&self) -> &State {
        self.trace.last()
    }

    /// The state at a tick.
    pub fn at(&self, tick: u64) -> &State {
        &self.trace.states[done_at(&self.trace, tick)]
    }

    /// The step that comes after the state at a tick, if there is one.
    pub fn next_after(&self, tick: u64) -> Option<Done> {
        self.steps.get(done_at(&self.trace, tick)).copied()
    }

    /// Ticks at the clocks of the steps and one beside them, some of them where
    /// there are many; the first and the last, and some beyond the limit.
    pub fn ticks(&self, random: &mut Random) -> Vec<u64> {
        let clocks = self.trace.states.iter().map(|state| state.machine.clock);
        let around = clocks.flat_map(|clock| [clock.saturating_sub(1), clock, clock + 1]);
        let mut ticks: Vec<u64> = around.filter(|&tick| tick <= self.limit).collect();
        ticks.sort_unstable();
        ticks.dedup();
        while ticks.len() > TICKS {
            ticks.swap_remove(random.index(ticks.len()));
        }
        let Fired { limit, .. } = self;
        ticks.extend([0, limit - 1, *limit, limit + 1, 1 << 32, u64::MAX]);
        ticks
    }
}

fn state_of(machine: &Machine, words: &[u32], labels: &[u8]) -> State {
    State { machine: machine.clone(), words: words.to_vec(), labels: labels.to_vec() }
}

/// Now and then hides all that the image sets from those who don't see its pc, or
/// sets nothing at all: a viewer then sees one line.
fn thin(random: &mut Random, draft: &mut Draft) {
    let pc = draft.pair.pc;
    let choice = random.below(20);
    for location in draft.registers.iter_mut().chain(&mut draft.words) {
        match choice {
            0 if *location != Register::UNSET => location.label = pc,
            1 => *location = Register::UNSET,
            _ => {}
        }
    }
}

/// A label at which something of the state is of interest: that of the pc, of the
/// clock or of the newest call's caller, of a register or a word, or any.
pub fn choose_viewer(random: &mut Random, state: &State) -> Label {
    let machine = &state.machine;
    match random.below(9) {
        0 | 1 => machine.pair.pc,
        2 => machine.pair.timing,
        3 => machine.open_upcall().map_or(Label::LOWEST, |(back, _)| back.pair.timing),
        4 => machine.registers[random.index(machine.registers.len())].label,
        5 => Label(random.pick(&state.labels)),
        6 => Label::HIGHEST,
        _ => Label(random.bits() as u8),
    }
}

/// The listing of all of a state.
fn whole_listing(state: &State) -> String {
    let mut output = vec![0; 65_536];
    let printed = print(&state.machine, &state.words, &state.labels, &mut output);
    output.truncate(printed.expect("a state of a run is printed"));
    String::from_utf8(output).expect("a listing is plain text")
}

/// The label that an R or W line tells.
fn label_of(line: &str) -> Option<Label> {
    line.split(',').nth(2)?.parse().ok().map(Label)
}

/// What is left of the whole listing for a viewer. "If the place label doesn't
/// flow to it, a line `H` stands for the E and F lines. R and W lines are those
/// seen that differ from value 0 and the lowest label."
pub fn listing_for(state: &State, viewer: Label) -> String {
    let shows_control = state.shows_control(viewer);
    let whole = whole_listing(state);
    let is_seen = |line: &&str| {
        if line.starts_with(['E', 'F']) {
            return shows_control;
        }
        label_of(line).is_some_and(|label| label.flows_to(viewer))
    };
    let hidden = (!shows_control).then_some("H");
    let lines = hidden.into_iter().chain(whole.lines().filter(is_seen));
    lines.map(|line| line.to_string() + "\n").collect()
}

/// Whether something of the state is hidden from a viewer that a listing would
/// have a line for.
pub fn hides(locations: &[Register], viewer: Label) -> bool {
    locations
        .iter()
        .any(|location| *location != Register::UNSET && !location.label.flows_to(viewer))
}
