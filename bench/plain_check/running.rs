//! The run of one module under all assignments of its cuts at once, 64 in a word (`docs/FORMATS.md`,
//! "`check`").
//!
//! A value has a bit for each assignment. Most cells are dead, or carry a wire, so a cell holds a handle: the
//! number of a signal, or else that its value is its own. Most blocks are turned by their handles alone,
//! without a look at values. Only blocks of which a cell changed are turned, and where nothing is left to
//! turn the run leaps to the next border line or stop.

use crate::certificate::BorderLine;
use crate::circuit::Row;
use crate::jobs::Job;
use crate::layout::places;

#[derive(Clone, Copy, PartialEq, Eq)]
pub enum FaultKind {
    Edge,
    Stop,
    End,
}

/// The least fault of a run; the cell is relative to the box.
#[derive(Clone, Copy)]
pub struct Fault {
    pub time: u32,
    pub kind: FaultKind,
    pub x: usize,
    pub y: usize,
    pub assignment: u64,
}

#[derive(Clone, Copy, Default)]
pub struct Finding {
    pub fault: Option<Fault>,
    /// The place of a kept gate among the used ones, and the assignment under which it has no row.
    pub keep: Option<(usize, u64)>,
}

/// Runs a job. A value of 2^cuts bits has as many words as it needs, and at least one.
pub fn find(job: &Job) -> Finding {
    match job.cut_count {
        0..=6 => Run::<1>::find(job),
        7 => Run::<2>::find(job),
        8 => Run::<4>::find(job),
        9 => Run::<8>::find(job),
        10 => Run::<16>::find(job),
        11 => Run::<32>::find(job),
        _ => Run::<64>::find(job),
    }
}

type Value<const W: usize> = [u64; W];

/// What a cell carries: a value of the job's table, or its own.
type Handle = u16;
const DEAD: Handle = 0;
const LIVE: Handle = 1;
const OWN: Handle = u16::MAX;

/// The values of a job's signals.
struct Table<const W: usize> {
    values: Vec<Value<W>>,
    /// The bits that are assignments: all, but for fewer than six cuts.
    full: u64,
}

impl<const W: usize> Table<W> {
    fn new(cut_count: usize) -> Self {
        let full = if cut_count < 6 { (1 << (1 << cut_count)) - 1 } else { !0 };
        Table { values: vec![[0; W], [full; W]], full }
    }

    /// Returns DEAD or LIVE if the value is false or true under every assignment.
    fn constant(&self, value: &Value<W>) -> Option<Handle> {
        [DEAD, LIVE].into_iter().find(|&handle| self.values[usize::from(handle)] == *value)
    }

    fn add(&mut self, value: Value<W>) -> Handle {
        let handle = self.constant(&value);
        handle.unwrap_or_else(|| {
            self.values.push(value);
            (self.values.len() - 1) as Handle
        })
    }
}

/// What a block of whole cells turns into, by the bits upper left 1, upper right 2, lower left 4, lower right
/// 8 (Margolus 1984, block rule).
const TURNED: [u8; 16] = [0, 8, 4, 3, 2, 5, 9, 7, 1, 6, 10, 11, 12, 13, 14, 15];

fn bits(cells: [bool; 4]) -> u8 {
    let [ul, ur, dl, dr] = cells.map(u8::from);
    ul | ur << 1 | dl << 2 | dr << 3
}

/// The sets of cells, by their bits, with two side by side. Those stay, whatever else the block has.
const SIDE_BY_SIDE: u16 = 0b1111_1100_1010_1000;

/// What a block came to under all assignments: whether each diagonal changed under any, and whether each cell
/// is live under any.
struct Turn {
    has_main: bool,
    has_other: bool,
    is_live: [bool; 4],
}

/// Turns a block under all assignments.
#[inline(never)]
fn turn_values<const W: usize>(
    ul: &mut Value<W>,
    ur: &mut Value<W>,
    dl: &mut Value<W>,
    dr: &mut Value<W>,
) -> Turn {
    let (mut any_main, mut any_other, mut any) = (0, 0, [0; 4]);
    for i in 0..W {
        let (main, other) = flips(ul[i], ur[i], dl[i], dr[i]);
        any_main |= main;
        any_other |= other;
        let new = [ul[i] ^ main, ur[i] ^ other, dl[i] ^ other, dr[i] ^ main];
        [ul[i], ur[i], dl[i], dr[i]] = new;
        for k in 0..4 {
            any[k] |= new[k];
        }
    }
    Turn { has_main: any_main != 0, has_other: any_other != 0, is_live: any.map(|any| any != 0) }
}

/// Returns the bits under which both cells of the main diagonal change, and both of the other one. A lone
/// cell changes its own diagonal, and two cells on a diagonal change both.
#[inline]
pub fn flips(ul: u64, ur: u64, dl: u64, dr: u64) -> (u64, u64) {
    let (main_differ, other_differ) = (ul ^ dr, ur ^ dl);
    let (main_any, other_any) = (ul | dr, ur | dl);
    let crossed = !main_differ & !other_differ & (main_any ^ other_any);
    (crossed | (main_differ & !other_any), crossed | (other_differ & !main_any))
}

/// A set of blocks of one parity: a box of 64 by 64 cells with its halo has 33 rows of them, and those of
/// even steps count from 1.
struct Blocks {
    rows: [u64; 34],
    /// The rows that have a block.
    some: u64,
}

impl Blocks {
    fn new() -> Self {
        Blocks { rows: [0; 34], some: 0 }
    }

    fn insert(&mut self, row: usize, column: usize) {
        self.insert_pair(row, column, 1);
    }

    /// Inserts the block, the one to its right, or both, by two bits.
    fn insert_pair(&mut self, row: usize, column: usize, bits: u8) {
        if bits != 0 {
            self.rows[row] |= u64::from(bits) << column;
            self.some |= 1 << row;
        }
    }

    fn is_empty(&self) -> bool {
        self.some == 0
    }
}

#[derive(Clone, Copy, PartialEq, Eq)]
enum Place {
    Inside,
    Ring,
    Halo,
}

struct Run<'j, const W: usize> {
    job: &'j Job,
    table: Table<W>,
    /// The handle of each signal.
    signals: Vec<Handle>,
    /// The assignments under which every used gate has a row.
    defined: Value<W>,
    /// The box with its halo, in rows of `stride` cells, and the values that are a cell's own.
    cells: Vec<Handle>,
    own: Vec<Value<W>>,
    places: Vec<Place>,
    stride: usize,
    /// What the `*` lines say of each halo cell.
    held: Vec<Handle>,
    /// The blocks of even and odd steps that may change.
    due: [Blocks; 2],
    /// How many ring cells are not dead, and whether one changed since the ring was looked at.
    ring_count: usize,
    is_ring_due: bool,
}

impl<'j, const W: usize> Run<'j, W> {
    fn find(job: &'j Job) -> Finding {
        let mut run = Self::new(job);
        let keep = run.evaluate_gates();
        run.start();
        let fault = run.run();
        Finding { fault, keep }
    }

    fn new(job: &'j Job) -> Self {
        let (stride, count) = (job.width + 2, (job.width + 2) * (job.height + 2));
        let table = Table::new(job.cut_count);
        Run {
            job,
            defined: [table.full; W],
            table,
            signals: vec![DEAD, LIVE],
            cells: vec![DEAD; count],
            own: vec![[0; W]; count],
            places: places_of(job),
            stride,
            held: vec![DEAD; count],
            due: [Blocks::new(), Blocks::new()],
            ring_count: 0,
            is_ring_due: true,
        }
    }

    /// Gives each cut its bit of the assignment's number, and each used gate its row. Returns the least keep
    /// fault.
    fn evaluate_gates(&mut self) -> Option<(usize, u64)> {
        const PATTERNS: [u64; 6] = [
            0xAAAA_AAAA_AAAA_AAAA,
            0xCCCC_CCCC_CCCC_CCCC,
            0xF0F0_F0F0_F0F0_F0F0,
            0xFF00_FF00_FF00_FF00,
            0xFFFF_0000_FFFF_0000,
            0xFFFF_FFFF_0000_0000,
        ];
        let full = self.table.full;
        for cut in 0..self.job.cut_count {
            let word =
                |i: usize| if cut < 6 { PATTERNS[cut] } else { ((i >> (cut - 6) & 1) as u64).wrapping_neg() };
            let handle = self.table.add(std::array::from_fn(|i| word(i) & full));
            self.signals.push(handle);
        }
        let mut keep = None;
        for (number, gate) in self.job.gates.iter().enumerate() {
            let inputs =
                gate.inputs.map(|signal| self.table.values[usize::from(self.signals[usize::from(signal)])]);
            let rows: [Row; W] =
                std::array::from_fn(|i| Row::of(gate.kind, gate.number, inputs.map(|input| input[i])));
            let undefined =
                rows.iter().zip(self.defined.iter()).position(|(row, defined)| defined & !row.domain != 0);
            if let (true, None, Some(word)) = (gate.is_kept, keep, undefined) {
                let bit = (self.defined[word] & !rows[word].domain).trailing_zeros();
                keep = Some((number, word as u64 * 64 + u64::from(bit)));
            }
            for (defined, row) in self.defined.iter_mut().zip(&rows) {
                *defined &= row.domain;
            }
            for output in 0..gate.kind.output_count() {
                let value = std::array::from_fn(|i| rows[i].outputs[output] & full);
                // an output that copies the first input keeps its handle
                let first = self.signals[usize::from(gate.inputs[0])];
                let is_copy = gate.kind.input_count() > 0 && self.table.values[usize::from(first)] == value;
                let handle = if is_copy { first } else { self.table.add(value) };
                self.signals.push(handle);
            }
        }
        keep
    }

    fn cell(&self, x: usize, y: usize) -> usize {
        y * self.stride + x
    }

    fn handle(&self, line: BorderLine) -> Handle {
        self.signals[usize::from(line.signal())]
    }

    /// Sets the cells at time 0, and those of the halo that `*` lines name.
    fn start(&mut self) {
        let job = self.job;
        for (y, &row) in job.live.iter().enumerate() {
            places(row).for_each(|x| self.begin_cell(x + 1, y + 1, LIVE));
        }
        for &(x, y, signal) in &job.ins {
            self.begin_cell(usize::from(x) + 1, usize::from(y) + 1, self.signals[usize::from(signal)]);
        }
        for &star in &job.halos.stars {
            let (cell, handle) = (self.cell(star.x(), star.y()), self.handle(star));
            self.held[cell] = handle;
            self.cells[cell] = handle;
            self.due[1].insert(star.y() / 2, star.x() / 2);
        }
    }

    fn begin_cell(&mut self, x: usize, y: usize, handle: Handle) {
        let cell = self.cell(x, y);
        self.cells[cell] = handle;
        self.ring_count += usize::from(self.places[cell] == Place::Ring && handle != DEAD);
        self.due[0].insert(y.div_ceil(2), x.div_ceil(2));
        self.due[1].insert(y / 2, x / 2);
    }

    /// Makes all steps, up to the least fault.
    fn run(&mut self) -> Option<Fault> {
        let job = self.job;
        let (mut edges, mut halos, mut stops) =
            (&job.edges.timed[..], &job.halos.timed[..], &job.stops.timed[..]);
        let mut time = 0;
        loop {
            if self.due.iter().all(Blocks::is_empty) && !self.is_ring_due {
                let next = [edges, halos, stops].into_iter().filter_map(|lines| lines.first()?.time()).min();
                time = next.map_or(job.steps, |next| next.min(job.steps));
            }
            if time == job.steps {
                return self.stop_fault(take_time(&mut stops, time), time).or_else(|| self.end_fault(time));
            }
            if time % 2 == 1 {
                let lines = take_time(&mut edges, time);
                if (self.is_ring_due || !lines.is_empty()) && !self.is_ring_right(lines) {
                    let fault = self.edge_fault(lines, time);
                    if fault.is_some() {
                        return fault;
                    }
                }
                self.is_ring_due = !lines.is_empty();
            }
            if let Some(fault) = self.stop_fault(take_time(&mut stops, time), time) {
                return Some(fault);
            }
            if time % 2 == 1 {
                self.put_halo(take_time(&mut halos, time));
            }
            self.step(time as usize % 2);
            time += 1;
        }
    }

    fn put_halo(&mut self, lines: &[BorderLine]) {
        for &line in lines {
            let cell = self.cell(line.x(), line.y());
            self.cells[cell] = self.handle(line);
            self.due[1].insert(line.y() / 2, line.x() / 2);
        }
    }

    fn step(&mut self, parity: usize) {
        let rows = std::mem::take(&mut self.due[parity].some);
        for row in places(rows) {
            let columns = std::mem::take(&mut self.due[parity].rows[row]);
            for column in places(columns) {
                self.turn_block(parity, row, column);
            }
        }
    }

    /// Turns a block. Those of even steps begin one cell before twice their row and column.
    fn turn_block(&mut self, parity: usize, row: usize, column: usize) {
        let back = 1 - parity;
        let corner = self.cell(2 * column - back, 2 * row - back);
        let at = [corner, corner + 1, corner + self.stride, corner + self.stride + 1];
        let ([ul, ur], [dl, dr]) = (*self.pair(at[0]), *self.pair(at[2]));
        let old = [ul, ur, dl, dr];
        let some = bits(old.map(|handle| handle != DEAD));
        if some == 0 {
            return;
        }
        let Job { width, height, .. } = *self.job;
        let is_at_border = row == back || column == back || 2 * row == height || 2 * column == width;
        if some.is_power_of_two() && !is_at_border {
            let changed = self.move_lone(at, some.trailing_zeros() as usize);
            return self.mark(parity, row, column, changed);
        }
        let (mut new, mut changed) = self.turned(at, old, some);
        let mut inside = 0b1111;
        if is_at_border {
            (changed, inside) = self.cut_back(at, old, &mut new, changed);
        }
        if changed == 0 {
            return;
        }
        *self.pair(at[0]) = [new[0], new[1]];
        *self.pair(at[2]) = [new[2], new[3]];
        self.mark(parity, row, column, changed & inside);
    }

    /// Gives the halo cells of a block what `*` lines say, since an odd step is cut back to the box, and
    /// counts the ring cells. Returns which cells changed and which are inside the box.
    fn cut_back(
        &mut self,
        at: [usize; 4],
        old: [Handle; 4],
        new: &mut [Handle; 4],
        mut changed: u8,
    ) -> (u8, u8) {
        let mut inside = 0b1111;
        for k in 0..4 {
            match self.places[at[k]] {
                Place::Halo => {
                    new[k] = self.held[at[k]];
                    changed = changed & !(1 << k) | u8::from(new[k] != old[k]) << k;
                    inside &= !(1 << k);
                }
                Place::Ring if changed >> k & 1 == 1 => {
                    self.ring_count += usize::from(new[k] != DEAD);
                    self.ring_count -= usize::from(old[k] != DEAD);
                    self.is_ring_due = true;
                }
                _ => {}
            }
        }
        (changed, inside)
    }

    /// Marks a block that changed: its cells are in it again two steps on, and in others at the next step.
    fn mark(&mut self, parity: usize, row: usize, column: usize, changed: u8) {
        let back = 1 - parity;
        self.due[parity].insert(row, column);
        self.due[back].insert_pair(row - back, column - back, changed & 0b11);
        self.due[back].insert_pair(row + 1 - back, column - back, changed >> 2);
    }

    /// Returns a cell and the one to its right.
    fn pair(&mut self, cell: usize) -> &mut [Handle; 2] {
        self.cells[cell..].first_chunk_mut().expect("a block has two cells in a row")
    }

    /// Moves the only cell of a block that is not dead to the opposite corner. Returns the bits of the two
    /// cells.
    fn move_lone(&mut self, at: [usize; 4], place: usize) -> u8 {
        let (from, to) = (at[place], at[3 - place]);
        let handle = std::mem::replace(&mut self.cells[from], DEAD);
        self.cells[to] = handle;
        if handle == OWN {
            self.own[to] = self.own[from];
        }
        1 << place | 1 << (3 - place)
    }

    /// Returns the block after a step, and the bits of the cells that changed.
    fn turned(&mut self, at: [usize; 4], old: [Handle; 4], some: u8) -> ([Handle; 4], u8) {
        let place = some.trailing_zeros() as usize & 3;
        let first = old[place];
        let are_equal = || old.iter().all(|&handle| handle == DEAD || handle == first);
        if some.is_power_of_two() || (first != OWN && are_equal()) {
            // one value alone: where it is true the block is one of the table, and else all dead
            let after = TURNED[usize::from(some)];
            if first == OWN {
                self.own[at[3 - place]] = self.own[at[place]];
            }
            let new = std::array::from_fn(|k| if after >> k & 1 == 1 { first } else { DEAD });
            return (new, some ^ after);
        }
        let live = bits(old.map(|handle| handle == LIVE));
        if SIDE_BY_SIDE >> live & 1 == 1 {
            return (old, 0);
        }
        self.turned_by_values(at, old)
    }

    fn turned_by_values(&mut self, at: [usize; 4], old: [Handle; 4]) -> ([Handle; 4], u8) {
        for (&cell, &handle) in at.iter().zip(&old) {
            if handle != OWN {
                self.own[cell] = self.table.values[usize::from(handle)];
            }
        }
        let (upper, lower) = self.own.split_at_mut(at[2]);
        let ([ul, ur], [dl, dr, ..]) = (&mut upper[at[0]..at[0] + 2], lower) else { return (old, 0) };
        let turn = turn_values(ul, ur, dl, dr);
        let changed = u8::from(turn.has_main) * 0b1001 | u8::from(turn.has_other) * 0b0110;
        let mut new = old;
        for k in (0..4).filter(|k| changed >> k & 1 == 1) {
            let own = &self.own[at[k]];
            let is_full = || own[0] == self.table.full && *own == self.table.values[usize::from(LIVE)];
            new[k] = match turn.is_live[k] {
                false => DEAD,
                true if is_full() => LIVE,
                true => OWN,
            };
        }
        (new, changed)
    }

    /// Returns the least assignment among the defined ones under which the cell is not as the signal of the
    /// handle.
    fn first_difference(&self, cell: usize, wanted: Handle) -> Option<u64> {
        let handle = self.cells[cell];
        if handle == wanted {
            return None;
        }
        let value = if handle == OWN { &self.own[cell] } else { &self.table.values[usize::from(handle)] };
        let pairs = value.iter().zip(&self.table.values[usize::from(wanted)]).zip(&self.defined);
        let mut differences = pairs.map(|((is, wanted), defined)| (is ^ wanted) & defined).enumerate();
        let (word, bits) = differences.find(|&(_, bits)| bits != 0)?;
        Some(word as u64 * 64 + u64::from(bits.trailing_zeros()))
    }

    /// Returns whether each ring cell is as its line says and the others are dead, by a quick look. False may
    /// be wrong.
    fn is_ring_right(&self, timed: &[BorderLine]) -> bool {
        let mut count = 0;
        for &line in self.job.edges.stars.iter().chain(timed) {
            let cell = self.cell(line.x(), line.y());
            if self.first_difference(cell, self.handle(line)).is_some() {
                return false;
            }
            count += usize::from(self.cells[cell] != DEAD);
        }
        count == self.ring_count
    }

    fn edge_fault(&self, timed: &[BorderLine], time: u32) -> Option<Fault> {
        let mut wanted = vec![DEAD; self.cells.len()];
        for &line in self.job.edges.stars.iter().chain(timed) {
            wanted[self.cell(line.x(), line.y())] = self.handle(line);
        }
        self.first_fault(FaultKind::Edge, time, |cell, _, _| {
            (self.places[cell] == Place::Ring).then_some(wanted[cell])
        })
    }

    fn stop_fault(&self, lines: &[BorderLine], time: u32) -> Option<Fault> {
        lines.iter().find_map(|&line| {
            let assignment = self.first_difference(self.cell(line.x(), line.y()), self.handle(line))?;
            Some(Fault { time, kind: FaultKind::Stop, x: line.x() - 1, y: line.y() - 1, assignment })
        })
    }

    fn end_fault(&self, time: u32) -> Option<Fault> {
        let mut outs = vec![DEAD; self.cells.len()];
        for &(x, y, signal) in &self.job.outs {
            outs[self.cell(usize::from(x) + 1, usize::from(y) + 1)] = self.signals[usize::from(signal)];
        }
        self.first_fault(FaultKind::End, time, |cell, x, y| {
            let has = |rows: &[u64]| rows[y] >> x & 1 == 1;
            let wanted = if has(&self.job.mirrors) { LIVE } else { outs[cell] };
            (!has(&self.job.wastes)).then_some(wanted)
        })
    }

    /// Returns the first cell of the box, by y and then x, that is not as it is wanted, if anything is wanted
    /// of it.
    fn first_fault(
        &self,
        kind: FaultKind,
        time: u32,
        wanted: impl Fn(usize, usize, usize) -> Option<Handle>,
    ) -> Option<Fault> {
        for y in 0..self.job.height {
            for x in 0..self.job.width {
                let cell = self.cell(x + 1, y + 1);
                let Some(wanted) = wanted(cell, x, y) else { continue };
                if let Some(assignment) = self.first_difference(cell, wanted) {
                    return Some(Fault { time, kind, x, y, assignment });
                }
            }
        }
        None
    }
}

fn places_of(job: &Job) -> Vec<Place> {
    let stride = job.width + 2;
    let mut places = vec![Place::Halo; stride * (job.height + 2)];
    for y in 1..=job.height {
        places[y * stride + 1..=y * stride + job.width].fill(Place::Ring);
    }
    for y in 2..job.height {
        places[y * stride + 2..y * stride + job.width].fill(Place::Inside);
    }
    places
}

/// Takes the lines of this time from the front.
fn take_time<'l>(lines: &mut &'l [BorderLine], time: u32) -> &'l [BorderLine] {
    let count = lines.iter().take_while(|line| line.time() == Some(time)).count();
    let (taken, rest) = lines.split_at(count);
    *lines = rest;
    taken
}
