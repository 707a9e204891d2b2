//! Views of the loops that are timed, in runs of many thousand steps and more.

use crate::buffers::Lent;
use crate::calls::{count, number, Viewer};
use crate::chains::try_chain;
use crate::fired::Fired;
use crate::library::Library;
use crate::trials::Trials;
use crate::verdict::behind_difference;
use crate::views::try_image;
use interpreter::draft::Draft;
use interpreter::generator::random::Random;
use interpreter::loops::loops;
use interpreter::{fire, Label};

/// So many ticks of a loop are stepped through.
const STEPPED: u64 = 20_000;

/// What must come up.
pub const EXPECTED: [&str; 2] = ["loops stepped through", "loops viewed far on"];

/// Each loop with a low limit, as any image, and once with its own, far on.
pub fn try_loops(trials: &mut Trials, random: &mut Random) {
    for case in loops() {
        let mut short = case.image.clone();
        short.limit = STEPPED;
        let fired = Fired::of(&short, STEPPED);
        try_image(trials, random, &fired);
        try_chain(trials, random, &fired);
        trials.tally.count("loops stepped through");
        try_far_on(trials, random, case.name, &case.image);
    }
}

/// A view in the second half of a loop's ticks. The same steps are done where the
/// tick is the limit, so that firing the image with that limit lists the same,
/// but for the clock and the end.
fn try_far_on(trials: &mut Trials, random: &mut Random, name: &str, image: &Draft) {
    let half = image.limit / 2;
    let tick = half + u64::from(random.below(half as u32));
    let mut limited = image.clone();
    limited.limit = tick;
    let fired = String::from_utf8(fire(&limited.text())).expect("a listing is plain text");
    let viewed = view_all(image, tick);
    trials.tally.count("loops viewed far on");
    if viewed.as_deref().map(without_time) == Some(without_time(&fired)) {
        trials.passed += 1;
    } else {
        trials.failed += 1;
        println!("{name} at tick {tick} is viewed as {viewed:?}, and fired to it as {fired:?}");
        behind_difference();
    }
}

/// What the library lists of an image at a tick for the highest label.
fn view_all(image: &Draft, tick: u64) -> Option<String> {
    let mut lent = Lent::whole();
    let viewer = Viewer { label: Label::HIGHEST, tick };
    let answer = lent.view(&Library, &image.text(), viewer);
    let listing = lent.output.get().get(..count(answer) as usize)?;
    (number(answer) == 0).then(|| String::from_utf8_lossy(listing).into_owned())
}

/// A listing without what its E line says of the end and the clock: place and
/// pair, and the lines behind it.
fn without_time(listing: &str) -> Vec<&str> {
    let mut lines = listing.lines();
    let control = lines.next().into_iter().flat_map(|line| line.split(',').skip(4));
    control.chain(lines).collect()
}
