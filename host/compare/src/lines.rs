//! Lines of positions in maps, held against the original's halving.

use crate::Stop;
use crate::args::Args;
use crate::rng::Rng;
use crate::subject::{Subject, subjects};
use original::rite::rite::line_at;

/// `compare line`
pub fn compare(args: &Args) -> Result<(), Stop> {
    args.only(&["--maps", "--seed"]).map_err(Stop::Usage)?;
    let maps = args.number("--maps", 100_000).map_err(Stop::Usage)?;
    let seed = args.number("--seed", 1).map_err(Stop::Usage)?;
    let subjects = subjects();
    let mut counts = [0u64; 4];
    // Every map of up to five positions below five, at every position.
    for length in 0..=5u32 {
        for number in 0..5u32.pow(length) {
            let position = |i: u32| number / 5u32.pow(i) % 5;
            let map: Vec<(u32, u32)> = (0..length).map(|i| (position(i), i + 10)).collect();
            for at in 0..=5 {
                hold(&subjects, &map, at, &mut counts)?;
            }
        }
    }
    let mut rng = Rng::new(seed, 0);
    for _ in 0..maps {
        let map = map(&mut rng);
        for at in positions(&map, &mut rng) {
            hold(&subjects, &map, at, &mut counts)?;
        }
    }
    let [held, none, falling, odd] = counts;
    println!("lines: {held}, none: {none}, in falling maps: {falling}, with an odd word: {odd}");
    println!("no difference");
    Ok(())
}

/// A map of any length and order.
pub fn map(rng: &mut Rng) -> Vec<(u32, u32)> {
    let length = match rng.below(4) {
        0 => rng.below(4),
        1 => rng.below(200),
        _ => rng.below(20),
    };
    let bound = rng.pick(&[2, 8, 100, 1 << 32]);
    let mut positions: Vec<u32> = (0..length).map(|_| rng.below(bound) as u32).collect();
    match rng.below(4) {
        0 => {}
        1 if length > 1 => {
            positions.sort();
            let (one, other) = (rng.below(length), rng.below(length));
            positions.swap(one, other);
        }
        _ => positions.sort(),
    }
    positions.into_iter().map(|p| (p, rng.word())).collect()
}

/// Positions at, beside and away from those of a map.
pub fn positions(map: &[(u32, u32)], rng: &mut Rng) -> Vec<u32> {
    let mut at = vec![0, u32::MAX, rng.word(), rng.below(100) as u32];
    for _ in 0..4 {
        if let Some((position, _)) = map.get(rng.below(map.len())) {
            at.extend([
                *position,
                position.wrapping_add(1),
                position.wrapping_sub(1),
            ]);
        }
    }
    at
}

fn hold(
    subjects: &[Box<dyn Subject>],
    map: &[(u32, u32)],
    at: u32,
    counts: &mut [u64; 4],
) -> Result<(), Stop> {
    let right = line_at(map, at);
    let mut words: Vec<u32> = map.iter().flat_map(|(p, l)| [*p, *l]).collect();
    // A last word without its line is no entry.
    let odd = at.wrapping_add(words.len() as u32).is_multiple_of(7);
    if odd {
        words.push(at);
    }
    for subject in subjects {
        let answer = subject.line_at(&words, at);
        if answer != right {
            return Err(Stop::Difference(format!(
                "line at {at} in {map:?}: {} answers {answer:?}, the original {right:?}",
                subject.name()
            )));
        }
    }
    counts[0] += 1;
    counts[1] += u64::from(right.is_none());
    counts[2] += u64::from(map.windows(2).any(|two| two[1].0 < two[0].0));
    counts[3] += u64::from(odd);
    Ok(())
}
