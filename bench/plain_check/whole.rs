//! The run of a whole layout under one assignment (`docs/FORMATS.md`, "`run`").
//!
//! Rows have a margin of one cell on each side. The even and the odd columns of a row are bits of words of
//! their own, so 64 blocks are turned at once. Two rows are turned together, and only where one of them
//! changed since the blocks of that parity were turned last.

use crate::layout::{Layout, places};
use crate::running::flips;

/// A row's cells: those in even columns, then those in odd ones.
struct Grid {
    width: usize,
    height: usize,
    half: usize,
    words: Vec<u64>,
    /// By parity, which pairs of rows may change.
    due: [Vec<u64>; 2],
}

impl Grid {
    fn new(layout: &Layout, is_on: &[bool]) -> Self {
        let (width, height) = (layout.width, layout.height);
        let half = (width / 2 + 1).div_ceil(64);
        let words = vec![0; 2 * half * (height + 2)];
        let due = || vec![!0; (height / 2 + 1).div_ceil(64)];
        let mut grid = Grid { width, height, half, words, due: [due(), due()] };
        for y in 0..height {
            for x in (0..width).step_by(64) {
                let count = (width - x).min(64);
                let ins = layout.ins.cells.window(x, y, count);
                let on = places(ins).filter(|place| is_on[layout.ins.name(x + place, y) as usize]);
                let live = on.fold(layout.live.window(x, y, count), |live, place| live | 1 << place);
                places(live).for_each(|place| grid.insert(x + place + 1, y + 1));
            }
        }
        grid
    }

    fn word(&self, x: usize, y: usize) -> usize {
        (2 * y + x % 2) * self.half + x / 128
    }

    fn insert(&mut self, x: usize, y: usize) {
        let word = self.word(x, y);
        self.words[word] |= 1 << (x / 2 % 64);
    }

    fn contains(&self, x: usize, y: usize) -> bool {
        self.words[self.word(x, y)] >> (x / 2 % 64) & 1 == 1
    }

    /// Turns the blocks in the rows `y` and `y + 1`, and returns whether any changed.
    fn turn_rows(&mut self, y: usize, parity: usize) -> bool {
        let half = self.half;
        let (upper, lower) = self.words[2 * half * y..2 * half * (y + 2)].split_at_mut(2 * half);
        let ((upper_even, upper_odd), (lower_even, lower_odd)) =
            (upper.split_at_mut(half), lower.split_at_mut(half));
        if parity == 1 {
            turn_aligned(upper_even, upper_odd, lower_even, lower_odd)
        } else {
            turn_shifted(upper_odd, upper_even, lower_odd, lower_even)
        }
    }

    /// Makes a step and returns whether a cell changed, or else None if a cell of the margin is live after
    /// it.
    fn step(&mut self, parity: usize) -> Option<bool> {
        let mut has_changed = false;
        let (back, pair_count) = (1 - parity, self.height / 2 + parity);
        for word in 0..self.due[parity].len() {
            for place in places(std::mem::take(&mut self.due[parity][word])) {
                let pair = word * 64 + place;
                if pair >= pair_count || !self.turn_rows(2 * pair + back, parity) {
                    continue;
                }
                if parity == 1 && self.is_left(2 * pair) {
                    return None;
                }
                has_changed = true;
                self.due[parity][word] |= 1 << place;
                // the rows of this pair are in two pairs of the other parity, one of which may not be there
                for other in [pair.wrapping_sub(parity), pair + back] {
                    if other <= self.height / 2 {
                        self.due[back][other / 64] |= 1 << (other % 64);
                    }
                }
            }
        }
        Some(has_changed)
    }

    /// Returns whether a cell of the margin is live in the rows `y` and `y + 1`.
    fn is_left(&self, y: usize) -> bool {
        let has_any =
            |y: usize| self.words[2 * self.half * y..2 * self.half * (y + 1)].iter().any(|&word| word != 0);
        let is_outside = |y: usize| (y == 0 || y == self.height + 1) && has_any(y);
        let rows = [y, y + 1];
        rows.into_iter().any(|y| is_outside(y) || self.contains(0, y) || self.contains(self.width + 1, y))
    }

    fn print(&self) -> String {
        let (mut lines, mut count) = (String::new(), 0);
        for y in 1..=self.height {
            for x in (1..=self.width).filter(|&x| self.contains(x, y)) {
                count += 1;
                lines += &format!("{} {}\n", x - 1, y - 1);
            }
        }
        format!("cells {count}\n{lines}")
    }
}

/// Turns blocks whose left cells are in even columns.
fn turn_aligned(ul: &mut [u64], ur: &mut [u64], dl: &mut [u64], dr: &mut [u64]) -> bool {
    let mut any = 0;
    for (((ul, ur), dl), dr) in ul.iter_mut().zip(ur).zip(dl).zip(dr) {
        let (main, other) = flips(*ul, *ur, *dl, *dr);
        *ul ^= main;
        *dr ^= main;
        *ur ^= other;
        *dl ^= other;
        any |= main | other;
    }
    any != 0
}

/// Turns blocks whose left cells are in odd columns. Each right cell is one bit further in its word.
fn turn_shifted(ul: &mut [u64], ur: &mut [u64], dl: &mut [u64], dr: &mut [u64]) -> bool {
    let (mut any, mut main_carry, mut other_carry) = (0, 0, 0);
    let count = ul.len();
    let (ul, ur, dl, dr) = (&mut ul[..count], &mut ur[..count], &mut dl[..count], &mut dr[..count]);
    for i in 0..count {
        let next = |row: &[u64]| row[i] >> 1 | row.get(i + 1).map_or(0, |word| word << 63);
        let (main, other) = flips(ul[i], next(ur), dl[i], next(dr));
        ul[i] ^= main;
        dl[i] ^= other;
        ur[i] ^= other << 1 | other_carry;
        dr[i] ^= main << 1 | main_carry;
        (main_carry, other_carry) = (main >> 63, other >> 63);
        any |= main | other;
    }
    any != 0
}

/// Returns what is printed, and whether all stays inside.
pub fn run(layout: &Layout, is_on: &[bool]) -> (String, bool) {
    let mut grid = Grid::new(layout, is_on);
    let mut quiet_count = 0;
    for time in 0..layout.steps {
        let Some(has_changed) = grid.step(time as usize % 2) else {
            return (format!("left {}\n", time + 1), false);
        };
        quiet_count = if has_changed { 0 } else { quiet_count + 1 };
        if quiet_count == 2 {
            break;
        }
    }
    (grid.print(), true)
}
