//! Known words that are near to an unknown one.

/// The letters of an unknown word that are looked at.
const MOST_LETTERS: usize = 32;

/// A question for the known words that are nearest to an unknown one, at most so many, where some are near; letters of any case are alike.
pub fn meant<'k>(word: &str, known: impl Iterator<Item = &'k str>, most: usize) -> String {
    let length = word.chars().count();
    let mut near: Vec<(usize, &str)> = known
        .map(|known| (distance(word, known), known))
        .filter(|(distance, _)| 3 * distance <= length)
        .collect();
    near.sort();
    let near: Vec<&str> = near
        .into_iter()
        .take(most)
        .map(|(_, known)| known)
        .collect();
    match near[..] {
        [] => String::new(),
        [only] => format!("; did you mean {only}?"),
        [ref first @ .., last] => format!("; did you mean {} or {last}?", first.join(", ")),
    }
}

/// How many letters have to be put in, taken out, changed or swapped with the next to make one word of the other.
fn distance(from: &str, to: &str) -> usize {
    let letters = |word: &str| word.to_lowercase().chars().collect::<Vec<char>>();
    let (mut from, to) = (letters(from), letters(to));
    from.truncate(MOST_LETTERS);
    let mut costs = vec![vec![0; to.len() + 1]; from.len() + 1];
    for row in 0..=from.len() {
        for column in 0..=to.len() {
            costs[row][column] = match (row, column) {
                (0, number) | (number, 0) => number,
                _ => {
                    let changed = usize::from(from[row - 1] != to[column - 1]);
                    let mut cost = (costs[row - 1][column - 1] + changed)
                        .min(costs[row - 1][column] + 1)
                        .min(costs[row][column - 1] + 1);
                    if row > 1
                        && column > 1
                        && from[row - 2] == to[column - 1]
                        && from[row - 1] == to[column - 2]
                    {
                        cost = cost.min(costs[row - 2][column - 2] + 1);
                    }
                    cost
                }
            };
        }
    }
    costs[from.len()][to.len()]
}

#[cfg(test)]
mod tests {
    use super::*;

    #[test]
    fn letters_put_in_taken_out_changed_and_swapped() {
        for (from, to, right) in [
            ("abc", "abc", 0),
            ("ABC", "abc", 0),
            ("abc", "acbd", 2),
            ("abc", "", 3),
            ("class", "classes", 2),
        ] {
            assert_eq!(distance(from, to), right, "{from} {to}");
        }
    }

    #[test]
    fn the_nearest_come_first() {
        let known = || ["OCLASS", "CLASS", "classes", "MODULE"].into_iter();
        for (word, most, right) in [
            ("clases", 3, "; did you mean CLASS, classes or OCLASS?"),
            ("clases", 2, "; did you mean CLASS or classes?"),
            ("clases", 1, "; did you mean CLASS?"),
            ("modul", 3, "; did you mean MODULE?"),
            ("block", 3, ""),
            ("", 3, ""),
        ] {
            assert_eq!(meant(word, known(), most), right, "{word}");
        }
    }
}
