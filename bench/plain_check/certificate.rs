//! Certificates (`docs/FORMATS.md`, "The certificate section").

use std::ops::Range;

use crate::circuit::Circuit;
use crate::layout::{Layout, Ports, places};
use crate::limits::Limits;
use crate::text::{Code, Lines, Refusal, ensure};

const MAX_BOX_SIDE: u32 = 64;
const MAX_CUTS: usize = 12;
const MAX_USES: usize = 64;
const MAX_BORDER_LINES: usize = 65_536;

/// A time, a cell and a signal in one word, in the order of time, y, x. A line with `*` has no time and comes
/// first.
#[derive(Clone, Copy, PartialEq, Eq, PartialOrd, Ord, Hash)]
pub struct BorderLine(u64);

/// The signal `1`. Every other signal is the number of a wire.
pub const ONE: u16 = u16::MAX;

// From the lowest bits on, a line has 16 bits of its signal, 13 of x, 13 of y, and the rest for the time.
const X_AT: u32 = 16;
const Y_AT: u32 = X_AT + 13;
const TIME_AT: u32 = Y_AT + 13;
/// Larger than any number of a cell inside a layout.
const MAX_COORDINATE: u32 = (1 << 13) - 1;
/// Later than the last time of a layout.
const MAX_TIME: u32 = (1 << 21) - 2;

impl BorderLine {
    /// Numbers that are too large for a line count as the largest of their field, so the order stays right.
    pub fn new(time: Option<u32>, x: u32, y: u32, signal: u16) -> Self {
        let time = u64::from(time.map_or(0, |time| time.min(MAX_TIME) + 1));
        let [x, y] = [x, y].map(|number| u64::from(number.min(MAX_COORDINATE)));
        BorderLine(time << TIME_AT | y << Y_AT | x << X_AT | u64::from(signal))
    }

    pub fn time(self) -> Option<u32> {
        ((self.0 >> TIME_AT) as u32).checked_sub(1)
    }

    pub fn x(self) -> usize {
        (self.0 >> X_AT) as usize & MAX_COORDINATE as usize
    }

    pub fn y(self) -> usize {
        (self.0 >> Y_AT) as usize & MAX_COORDINATE as usize
    }

    pub fn signal(self) -> u16 {
        self.0 as u16
    }

    /// Returns the line without its signal.
    pub fn place(self) -> u64 {
        self.0 >> X_AT
    }

    /// Returns the cell as one number.
    pub fn cell(self) -> u32 {
        (self.0 >> X_AT) as u32 & ((1 << (TIME_AT - X_AT)) - 1)
    }

    /// Returns the same line with another cell and signal.
    pub fn with(self, x: usize, y: usize, signal: u16) -> Self {
        let time = self.0 >> TIME_AT << TIME_AT;
        BorderLine(time | (y as u64) << Y_AT | (x as u64) << X_AT | u64::from(signal))
    }
}

/// Border lines in strictly rising order, those with `*` first.
#[derive(Default)]
pub struct Schedule {
    pub lines: Vec<BorderLine>,
    pub star_count: usize,
}

impl Schedule {
    fn is_after_last(&self, line: BorderLine) -> bool {
        self.lines.last().is_none_or(|last| last.place() < line.place())
    }

    fn has_star(&self, line: BorderLine) -> bool {
        let stars = &self.lines[..self.star_count];
        stars.binary_search_by_key(&line.cell(), |star| star.cell()).is_ok()
    }

    fn push(&mut self, line: BorderLine) {
        self.star_count += usize::from(line.time().is_none());
        self.lines.push(line);
    }
}

#[derive(Default)]
pub struct Module {
    pub x: usize,
    pub y: usize,
    pub width: usize,
    pub height: usize,
    pub cuts: Vec<u16>,
    pub uses: Vec<u16>,
    pub keeps: Vec<u16>,
    pub edges: Schedule,
    pub halos: Schedule,
    pub stops: Schedule,
    /// The bytes of the halo lines in the text.
    halo_text: Range<usize>,
}

impl Module {
    fn contains(&self, x: usize, y: usize) -> bool {
        (self.x..self.x + self.width).contains(&x) && (self.y..self.y + self.height).contains(&y)
    }

    fn is_ring(&self, x: usize, y: usize) -> bool {
        let is_side =
            x == self.x || x + 1 == self.x + self.width || y == self.y || y + 1 == self.y + self.height;
        is_side && self.contains(x, y)
    }

    fn is_halo(&self, x: usize, y: usize) -> bool {
        let is_near =
            x + 1 >= self.x && x <= self.x + self.width && y + 1 >= self.y && y <= self.y + self.height;
        is_near && !self.contains(x, y)
    }

    fn border_line_count(&self) -> usize {
        self.edges.lines.len() + self.halos.lines.len() + self.stops.lines.len()
    }

    /// Returns the module's wires in the order of their local numbers: the cuts, then the outputs of the used
    /// gates.
    pub fn wires(&self, circuit: &Circuit) -> impl Iterator<Item = u16> {
        let outputs = self.uses.iter().flat_map(|&gate| circuit.gates[usize::from(gate)].outputs());
        self.cuts.iter().copied().chain(outputs)
    }
}

/// For each wire, its local number in the module that was numbered last.
pub struct Locals {
    stamp: u32,
    /// The stamp of the module in which the wire was local last, and its number there.
    numbers: Vec<(u32, u16)>,
}

impl Locals {
    pub fn new(circuit: &Circuit) -> Self {
        Locals { stamp: 1, numbers: vec![(0, 0); circuit.names.len()] }
    }

    pub fn clear(&mut self) {
        self.stamp += 1;
    }

    pub fn insert(&mut self, wire: u16, number: usize) {
        self.numbers[usize::from(wire)] = (self.stamp, number as u16);
    }

    pub fn number(&self, wire: u16) -> Option<u16> {
        let (stamp, number) = self.numbers[usize::from(wire)];
        (stamp == self.stamp).then_some(number)
    }

    pub fn contains(&self, wire: u16) -> bool {
        self.number(wire).is_some()
    }
}

/// Which module has each block of two by two cells: one more than its number.
pub struct Owners {
    blocks_per_row: usize,
    owners: Vec<u32>,
    covered: usize,
}

const NOBODY: u32 = 0;

impl Owners {
    fn new(layout: &Layout) -> Self {
        let blocks_per_row = layout.width / 2;
        Owners { blocks_per_row, owners: vec![NOBODY; blocks_per_row * layout.height / 2], covered: 0 }
    }

    /// Gives the module's box to it, unless a block is taken.
    fn take(&mut self, number: usize, module: &Module) -> bool {
        let (left, blocks) = (module.x / 2, module.width / 2);
        for row in module.y / 2..(module.y + module.height) / 2 {
            let first = row * self.blocks_per_row + left;
            let owners = &mut self.owners[first..first + blocks];
            if owners.iter().any(|&owner| owner != NOBODY) {
                return false;
            }
            owners.fill(number as u32 + 1);
            self.covered += blocks;
        }
        true
    }

    fn are_complete(&self) -> bool {
        self.covered == self.owners.len()
    }

    /// Returns the modules that have a ring cell of module `own` in their halo: a cell touches three other
    /// blocks.
    pub fn watchers(&self, own: usize, x: usize, y: usize) -> impl Iterator<Item = usize> {
        let (u, v) = ((x / 2) as isize, (y / 2) as isize);
        let aside = if x % 2 == 1 { u + 1 } else { u - 1 };
        let beyond = if y % 2 == 1 { v + 1 } else { v - 1 };
        let rows = (self.owners.len() / self.blocks_per_row) as isize;
        let owner = |u: isize, v: isize| {
            let is_inside = (0..self.blocks_per_row as isize).contains(&u) && (0..rows).contains(&v);
            let number =
                if is_inside { self.owners[v as usize * self.blocks_per_row + u as usize] } else { NOBODY };
            if number as usize == own + 1 { NOBODY } else { number }
        };
        let [first, second, third] = [owner(aside, v), owner(u, beyond), owner(aside, beyond)];
        let second = if second == first { NOBODY } else { second };
        let third = if third == first || third == second { NOBODY } else { third };
        let others = [first, second, third].into_iter().filter(|&number| number != NOBODY);
        others.map(|number| number as usize - 1)
    }
}

pub struct Certificate {
    pub version: u32,
    pub modules: Vec<Module>,
    /// For each module the edge lines of the others for its halo, if they are needed.
    pub beside: Vec<Vec<BorderLine>>,
    /// The bytes of the section.
    pub text: Range<usize>,
}

#[derive(Clone, Copy, PartialEq, Eq, PartialOrd, Ord)]
enum Part {
    Cut,
    Use,
    Keep,
    Edge,
    Halo,
    Stop,
}

enum Line<'a> {
    Header(u32),
    Module([u32; 4]),
    Cut(&'a [u8]),
    Use(u32),
    Keep(u32),
    Border(Part, Option<u32>, [u32; 2], Option<&'a [u8]>),
    End,
}

fn parse_line<'a>(lines: &mut Lines<'a>) -> Option<Line<'a>> {
    let line = match lines.word() {
        b"edge" => Line::Border(Part::Edge, lines.time()?, lines.numbers()?, lines.signal()?),
        b"halo" => Line::Border(Part::Halo, lines.time()?, lines.numbers()?, lines.signal()?),
        b"stop" => {
            let (time, name) = (lines.number()?, lines.name()?);
            Line::Border(Part::Stop, Some(time), lines.numbers()?, Some(name))
        }
        b"module" => Line::Module(lines.numbers()?),
        b"cut" => Line::Cut(lines.name()?),
        b"use" => Line::Use(lines.number()?),
        b"keep" => Line::Keep(lines.number()?),
        b"certificate" => Line::Header(lines.number()?),
        b"end" => Line::End,
        _ => return None,
    };
    lines.end_line()?;
    Some(line)
}

/// Reads a certificate line by line.
struct Reader<'r, 'a> {
    limits: &'static Limits,
    circuit: &'r Circuit<'a>,
    layout: &'r Layout<'a>,
    version: u32,
    modules: Vec<Module>,
    /// The last kind of line in the module.
    part: Part,
    locals: Locals,
    local_count: usize,
    owners: Owners,
}

impl Certificate {
    pub fn read<'a>(
        lines: &mut Lines<'a>,
        circuit: &Circuit<'a>,
        layout: &Layout<'a>,
    ) -> Result<Self, Refusal> {
        let mut reader = Reader {
            limits: lines.limits,
            circuit,
            layout,
            version: 0,
            modules: Vec::new(),
            part: Part::Cut,
            locals: Locals::new(circuit),
            local_count: 0,
            owners: Owners::new(layout),
        };
        let begin = lines.offset();
        loop {
            lines.begin()?;
            let start = lines.offset();
            let line = parse_line(lines).ok_or_else(|| lines.refusal(Code::Form))?;
            let is_end = matches!(line, Line::End);
            reader.take(line, start..lines.offset()).map_err(|code| lines.refusal(code))?;
            if is_end {
                break;
            }
        }
        let beside = reader.lines_beside().map_err(|code| lines.refusal(code))?;
        let text = begin..lines.offset();
        Ok(Certificate { version: reader.version, modules: reader.modules, beside, text })
    }
}

impl<'a> Reader<'_, 'a> {
    fn take(&mut self, line: Line<'a>, text: Range<usize>) -> Result<(), Code> {
        ensure(matches!(line, Line::Header(_)) == (self.version == 0), Code::Order)?;
        match line {
            Line::Header(version) => {
                self.version = version;
                ensure((1..=2).contains(&version), Code::Limit)
            }
            Line::Module(numbers) => self.begin_module(numbers),
            Line::Border(part, time, at, signal) => self.add_border_line(part, time, at, signal, text),
            Line::Cut(name) => self.add_cut(name),
            Line::Use(gate) => self.add_use(gate),
            Line::Keep(gate) => self.add_keep(gate),
            Line::End => {
                let is_complete = self.owners.are_complete() && !self.lacks_a_port();
                ensure(is_complete, Code::Missing)
            }
        }
    }

    fn begin_module(&mut self, [x, y, width, height]: [u32; 4]) -> Result<(), Code> {
        ensure(!self.lacks_a_port(), Code::Missing)?;
        let is_side = |side: u32| (2..=MAX_BOX_SIDE).contains(&side) && side.is_multiple_of(2);
        let has_room = self.modules.len() < self.limits.modules;
        ensure(is_side(width) && is_side(height) && has_room, Code::Limit)?;
        ensure(x % 2 == 0 && y % 2 == 0, Code::BadBox)?;
        let [x, y, width, height] = [x, y, width, height].map(|number| number as usize);
        ensure(x + width <= self.layout.width && y + height <= self.layout.height, Code::BadBox)?;
        let module = Module { x, y, width, height, ..Module::default() };
        ensure(self.owners.take(self.modules.len(), &module), Code::BadBox)?;
        self.modules.push(module);
        self.part = Part::Cut;
        self.locals.clear();
        self.local_count = 0;
        Ok(())
    }

    fn add_cut(&mut self, name: &[u8]) -> Result<(), Code> {
        let circuit = self.circuit;
        let module = open(&mut self.modules, &mut self.part, Part::Cut)?;
        ensure(module.cuts.len() < MAX_CUTS, Code::Limit)?;
        let wire = circuit.wire(name).ok_or(Code::Unknown)?;
        module.cuts.push(wire);
        self.add_local(wire)
    }

    fn add_local(&mut self, wire: u16) -> Result<(), Code> {
        ensure(!self.locals.contains(wire), Code::Defined)?;
        self.locals.insert(wire, self.local_count);
        self.local_count += 1;
        Ok(())
    }

    fn add_use(&mut self, number: u32) -> Result<(), Code> {
        let circuit = self.circuit;
        let module = open(&mut self.modules, &mut self.part, Part::Use)?;
        ensure(module.uses.last().is_none_or(|&last| u32::from(last) < number), Code::Order)?;
        ensure(module.uses.len() < MAX_USES, Code::Limit)?;
        let gate = circuit.gates.get(number as usize).ok_or(Code::Unknown)?;
        module.uses.push(number as u16);
        ensure(gate.inputs().iter().all(|&wire| self.locals.contains(wire)), Code::NotLocal)?;
        gate.outputs().try_for_each(|wire| self.add_local(wire))
    }

    fn add_keep(&mut self, number: u32) -> Result<(), Code> {
        let circuit = self.circuit;
        let module = open(&mut self.modules, &mut self.part, Part::Keep)?;
        ensure(module.keeps.last().is_none_or(|&last| u32::from(last) < number), Code::Order)?;
        let gate = circuit.gates.get(number as usize);
        ensure(gate.is_some_and(|gate| gate.kind.is_inverse()), Code::Unknown)?;
        ensure(module.uses.binary_search(&(number as u16)).is_ok(), Code::NotLocal)?;
        module.keeps.push(number as u16);
        Ok(())
    }

    fn add_border_line(
        &mut self,
        part: Part,
        time: Option<u32>,
        [x, y]: [u32; 2],
        name: Option<&[u8]>,
        text: Range<usize>,
    ) -> Result<(), Code> {
        ensure(part != Part::Halo || self.version == 1, Code::Form)?;
        let (circuit, layout) = (self.circuit, self.layout);
        let module = open(&mut self.modules, &mut self.part, part)?;
        let line = BorderLine::new(time, x, y, 0);
        let schedule = match part {
            Part::Edge => &module.edges,
            Part::Halo => &module.halos,
            _ => &module.stops,
        };
        ensure(schedule.is_after_last(line), Code::Order)?;
        ensure(module.border_line_count() < MAX_BORDER_LINES, Code::Limit)?;
        ensure(is_good_place(layout, module, part, time, x as usize, y as usize), Code::BadPlace)?;
        let has_star = time.is_some() && schedule.star_count > 0 && schedule.has_star(line);
        ensure(!has_star, Code::BadPlace)?;
        let signal = match name {
            None => ONE,
            Some(name) => circuit.wire(name).ok_or(Code::Unknown)?,
        };
        ensure(signal == ONE || self.locals.contains(signal), Code::NotLocal)?;
        let line = line.with(x as usize, y as usize, signal);
        match part {
            Part::Edge => module.edges.push(line),
            Part::Halo => {
                let begin = if module.halos.lines.is_empty() { text.start } else { module.halo_text.start };
                module.halo_text = begin..text.end;
                module.halos.push(line);
            }
            _ => module.stops.push(line),
        }
        Ok(())
    }

    /// Returns whether the open module has an `in` or `out` cell whose wire is not local.
    fn lacks_a_port(&self) -> bool {
        let is_local = |wire: u32| self.locals.contains(wire as u16);
        let lacks_one = |module: &Module, ports: &Ports, y: usize| {
            let row = ports.cells.window(module.x, y, module.width);
            places(row).any(|place| !is_local(ports.name(module.x + place, y)))
        };
        self.modules.last().is_some_and(|module| {
            let mut rows = module.y..module.y + module.height;
            rows.any(|y| lacks_one(module, &self.layout.ins, y) || lacks_one(module, &self.layout.outs, y))
        })
    }

    /// Returns for each module the edge lines of the others for cells of its halo, in order. In version 2
    /// their wires must be local.
    fn lines_beside(&mut self) -> Result<Vec<Vec<BorderLine>>, Code> {
        let mut beside = vec![Vec::new(); self.modules.len()];
        if self.layout.steps < 2 {
            return Ok(beside);
        }
        for (number, module) in self.modules.iter().enumerate() {
            for &line in &module.edges.lines {
                for watcher in self.owners.watchers(number, line.x(), line.y()) {
                    beside[watcher].push(line);
                }
            }
        }
        for (module, lines) in self.modules.iter().zip(&mut beside) {
            lines.sort();
            if self.version == 2 {
                self.locals.clear();
                module.wires(self.circuit).for_each(|wire| self.locals.insert(wire, 0));
                let is_known =
                    |line: &BorderLine| line.signal() == ONE || self.locals.contains(line.signal());
                ensure(lines.iter().all(is_known), Code::Missing)?;
            }
        }
        Ok(beside)
    }
}

/// Returns the open module, if a line of this kind may come after the last kind.
fn open<'m>(modules: &'m mut [Module], last: &mut Part, part: Part) -> Result<&'m mut Module, Code> {
    ensure(part >= *last, Code::Order)?;
    *last = part;
    modules.last_mut().ok_or(Code::Order)
}

/// Whether a line of this kind may name this time and cell (code 10), but for the cells with a `*`.
fn is_good_place(
    layout: &Layout,
    module: &Module,
    part: Part,
    time: Option<u32>,
    x: usize,
    y: usize,
) -> bool {
    let is_odd_time = time.is_none_or(|time| time % 2 == 1 && time < layout.steps);
    match part {
        Part::Edge => {
            let is_rim = x == 0 || x + 1 == layout.width || y == 0 || y + 1 == layout.height;
            is_odd_time && module.is_ring(x, y) && !is_rim
        }
        Part::Halo => is_odd_time && module.is_halo(x, y) && x < layout.width && y < layout.height,
        _ => time.is_some_and(|time| time <= layout.steps) && module.contains(x, y),
    }
}

/// Prints what `bbmcheck modules` prints.
pub fn print_modules(certificate: &Certificate) -> Vec<u8> {
    let mut out = String::new();
    for (number, m) in certificate.modules.iter().enumerate() {
        let (edges, halos, stops) = (m.edges.lines.len(), m.halos.lines.len(), m.stops.lines.len());
        out += &format!("module {number} {} {} {} {}", m.x, m.y, m.width, m.height);
        out += &format!(
            " cuts {} gates {} edges {edges} halos {halos} stops {stops}\n",
            m.cuts.len(),
            m.uses.len()
        );
    }
    out.into_bytes()
}

/// Prints the bundle in version 2: the halo lines of each module are one piece of the text, which is left
/// out.
pub fn migrate(text: &[u8], certificate: &Certificate) -> Vec<u8> {
    let header = b"certificate 2\n";
    let mut out = Vec::with_capacity(text.len());
    out.extend_from_slice(&text[..certificate.text.start]);
    out.extend_from_slice(header);
    let mut at = certificate.text.start + header.len();
    for module in &certificate.modules {
        if !module.halo_text.is_empty() {
            out.extend_from_slice(&text[at..module.halo_text.start]);
            at = module.halo_text.end;
        }
    }
    out.extend_from_slice(&text[at..certificate.text.end]);
    out
}
