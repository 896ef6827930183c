//! MD5: of data in one call, of the same data in parts, and of any state.

use super::Compared;
use crate::compare::{Comparison, Output};
use crate::export::{Given, MD5, MD5_FINISH, MD5_START, MD5_UPDATE, State};
use forge::random::Random;

/// The most bytes that a state takes.
const LIMIT: u64 = 1 << 48;

pub fn compare(random: &mut Random, comparison: &mut Comparison) -> Compared {
    let length = length(random);
    let data = random.bytes(length);
    comparison.call(&MD5, &Given::new([&data], []), Output::Bytes(16))?;
    comparison.call(
        &MD5_START,
        &Given::new([], []),
        Output::Aligned(State::LENGTH),
    )?;
    let mut state = match random.within(0..=1) {
        0 => comparison.output().to_vec(),
        _ => any_state(random).bytes(),
    };
    let mut rest = &data[..];
    while !rest.is_empty() {
        let (part, after) = rest.split_at(random.within(0..=rest.len()));
        comparison.call(
            &MD5_UPDATE,
            &Given::new([part], []),
            Output::Holding(&state),
        )?;
        state.copy_from_slice(comparison.output());
        rest = after;
    }
    comparison.call(&MD5_FINISH, &Given::new([&state], []), Output::Bytes(16))?;
    Ok(())
}

/// Mostly about a block or a page.
fn length(random: &mut Random) -> usize {
    match random.within(0..=9) {
        0..=3 => random.within(0..=300),
        4..=6 => 64 * random.within(1..=4) - random.within(0..=10),
        7 => random.within(4090..=4100),
        _ => random.within(0..=2000),
    }
}

/// Any words and pending bytes, and a count that is often near the limit.
fn any_state(random: &mut Random) -> State {
    let count = match random.within(0..=3) {
        0 => LIMIT - random.within(0..=400) as u64,
        1 => LIMIT + random.within(0..=10) as u64,
        _ => random.number(64),
    };
    let mut pending = [0; 64];
    random.fill(&mut pending);
    State {
        words: std::array::from_fn(|_| random.word() as u32),
        pending,
        count,
    }
}
