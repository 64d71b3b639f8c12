//! The least border fault of each module (`docs/FORMATS.md`, "`check`"): both lists are in order, so they are
//! walked side by side.

use crate::certificate::BorderLine;
use crate::text::FastMap;

pub struct BorderFault {
    pub time: u32,
    pub x: usize,
    pub y: usize,
}

/// A cell that only one side names with `*`.
struct Star {
    line: BorderLine,
    is_here: bool,
    /// The first time that no line of the other side matched.
    open: u32,
}

/// Returns the first odd time below the steps, and the first cell, at which the halo lines of a module and
/// the edge lines beside it differ. At an odd time a line with `*` says the same as a line of that time.
pub fn border_fault(halos: &[BorderLine], beside: &[BorderLine], steps: u32) -> Option<BorderFault> {
    if steps < 2 || halos == beside {
        return None;
    }
    let mut faults = Faults { least: None, steps };
    let mut stars: FastMap<u32, Star> = FastMap::default();
    walk(halos, beside, |line, is_here, is_matched| {
        if is_matched {
            return;
        }
        match (line.time(), stars.get_mut(&line.cell())) {
            (None, None) => {
                stars.insert(line.cell(), Star { line, is_here, open: 1 });
            }
            // both sides have a line with `*`, of two signals
            (None, Some(star)) => {
                star.open = steps;
                faults.add(1, line);
            }
            (Some(time), Some(star))
                if star.is_here != is_here && star.line.signal() == line.signal() && star.open == time =>
            {
                star.open += 2;
            }
            (Some(time), Some(star)) => faults.add(time.min(star.open), line),
            (Some(time), None) => faults.add(time, line),
        }
    });
    for star in stars.into_values() {
        faults.add(star.open, star.line);
    }
    faults.least.map(|(time, y, x)| BorderFault { time, x, y })
}

struct Faults {
    least: Option<(u32, usize, usize)>,
    steps: u32,
}

impl Faults {
    fn add(&mut self, time: u32, line: BorderLine) {
        let fault = (time, line.y(), line.x());
        if time < self.steps && self.least.is_none_or(|least| fault < least) {
            self.least = Some(fault);
        }
    }
}

/// Visits the lines of both lists in order, with which list has it and whether the other one has the same.
fn walk(here: &[BorderLine], there: &[BorderLine], mut visit: impl FnMut(BorderLine, bool, bool)) {
    let (mut i, mut j) = (0, 0);
    while i < here.len() || j < there.len() {
        match (here.get(i), there.get(j)) {
            (Some(one), Some(other)) if one == other => {
                visit(*one, true, true);
                i += 1;
                j += 1;
            }
            (Some(one), other) if other.is_none_or(|other| one < other) => {
                visit(*one, true, false);
                i += 1;
            }
            (_, Some(other)) => {
                visit(*other, false, false);
                j += 1;
            }
            _ => return,
        }
    }
}
