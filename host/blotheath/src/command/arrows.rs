//! Jumps drawn as arrows in a margin.

use std::collections::BTreeMap;

/// The most arrows side by side; a jump that finds no lane is told by its target alone.
const MOST_LANES: usize = 6;

/// An arrow between two rows.
#[derive(Debug, Clone, Copy, PartialEq, Eq)]
pub struct Arrow {
    pub from: usize,
    pub to: usize,
}

impl Arrow {
    fn first(self) -> usize {
        self.from.min(self.to)
    }

    fn last(self) -> usize {
        self.from.max(self.to)
    }
}

/// Arrows laid out in lanes; lane 0 is next to the rows. No two arrows of a lane meet.
#[derive(Debug, Default)]
pub struct Margin {
    /// The arrows of each lane by their first row.
    lanes: Vec<BTreeMap<usize, Arrow>>,
}

impl Margin {
    /// Lays out arrows, short ones next to the rows.
    pub fn of(mut arrows: Vec<Arrow>) -> Margin {
        arrows.sort_by_key(|arrow| (arrow.last() - arrow.first(), arrow.first()));
        let mut margin = Margin::default();
        for arrow in arrows {
            margin.place(arrow);
        }
        margin
    }

    fn place(&mut self, arrow: Arrow) {
        for lane in &mut self.lanes {
            if is_free(lane, arrow) {
                lane.insert(arrow.first(), arrow);
                return;
            }
        }
        if self.lanes.len() < MOST_LANES {
            self.lanes.push(BTreeMap::from([(arrow.first(), arrow)]));
        }
    }

    pub fn lanes(&self) -> usize {
        self.lanes.len()
    }

    /// The arrow of a lane that touches a row.
    pub fn at(&self, lane: usize, row: usize) -> Option<Arrow> {
        let (_, arrow) = self.lanes[lane].range(..=row).next_back()?;
        (arrow.last() >= row).then_some(*arrow)
    }

    /// The margin of a row: two columns a lane, one for an arrow's head, and a blank.
    pub fn drawn(&self, row: usize) -> String {
        let head = 2 * self.lanes.len();
        let mut cells = vec![' '; head + 2];
        for lane in 0..self.lanes.len() {
            let Some(arrow) = self.at(lane, row) else {
                continue;
            };
            let column = head - 2 - 2 * lane;
            if row != arrow.from && row != arrow.to {
                cells[column] = '│';
                continue;
            }
            cells[column] = if row == arrow.first() { '╭' } else { '╰' };
            cells[column + 1..=head].iter_mut().for_each(cross);
            if row == arrow.to {
                cells[head] = '▶';
            }
        }
        cells.into_iter().collect()
    }
}

/// Draws a line from left to right through a cell.
fn cross(cell: &mut char) {
    *cell = match *cell {
        ' ' => '─',
        '│' => '┼',
        '╭' => '┬',
        '╰' => '┴',
        other => other,
    };
}

/// Whether no arrow of the lane meets this one.
fn is_free(lane: &BTreeMap<usize, Arrow>, arrow: Arrow) -> bool {
    let before = lane.range(..=arrow.last()).next_back();
    before.is_none_or(|(_, other)| other.last() < arrow.first())
}

#[cfg(test)]
mod tests {
    use super::*;

    fn drawn(arrows: &[(usize, usize)], rows: usize) -> Vec<String> {
        let arrows = arrows.iter().map(|(from, to)| Arrow {
            from: *from,
            to: *to,
        });
        let margin = Margin::of(arrows.collect());
        (0..rows).map(|row| margin.drawn(row)).collect()
    }

    #[test]
    fn nested_arrows() {
        let rows = drawn(&[(0, 3), (2, 1)], 4);
        assert_eq!(rows, ["╭──── ", "│ ╭─▶ ", "│ ╰── ", "╰───▶ "]);
        let meeting = drawn(&[(1, 2), (0, 2)], 3);
        assert_eq!(meeting, ["╭──── ", "│ ╭── ", "╰─┴─▶ "]);
    }

    #[test]
    fn many_arrows_stay_narrow() {
        let arrows: Vec<(usize, usize)> = (0..1000).map(|i| (i, 2000 - i)).collect();
        assert_eq!(drawn(&arrows, 1)[0].chars().count(), 2 * MOST_LANES + 2);
    }
}
