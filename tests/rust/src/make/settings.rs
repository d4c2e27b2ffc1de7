//! Settings, right and wrong ones.

use super::Random;
use crate::c::Settings;

pub fn right(random: &mut Random) -> Settings {
    Settings { order: random.below(2) as u8, base: random.pick(&[10, 16]) }
}

/// The same byte order and the other right base.
pub fn other_base(settings: Settings) -> Settings {
    Settings { base: if settings.base == 10 { 16 } else { 10 }, ..settings }
}

/// A byte order that is none, a base that is none, or both.
pub fn wrong(random: &mut Random) -> Settings {
    let mut settings = right(random);
    let which = random.below(4);
    if which < 2 {
        settings.order = random.pick(&[2, 3, 128, 255]);
    }
    if which > 0 {
        settings.base = wrong_base(random);
    }
    settings
}

fn wrong_base(random: &mut Random) -> u8 {
    match random.byte() {
        base if random.one_in(3) && ![10, 16].contains(&base) => base,
        _ => random.pick(&[0, 1, 8, 15, 17, 255]),
    }
}
