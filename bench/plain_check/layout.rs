//! Layouts (`docs/FORMATS.md`, "The layout section").

use crate::circuit::Circuit;
use crate::limits::Limits;
use crate::text::{Code, FastMap, Lines, Refusal, ensure};

/// A set of cells, a bit each.
#[derive(Default)]
pub struct Cells {
    words_per_row: usize,
    words: Vec<u64>,
}

impl Cells {
    fn new(width: usize, height: usize) -> Self {
        let words_per_row = width.div_ceil(64);
        Cells { words_per_row, words: vec![0; words_per_row * height] }
    }

    /// Returns the words of a row with the bits of the cells from `x` to before `x + width`.
    fn masks(&self, x: usize, y: usize, width: usize) -> impl Iterator<Item = (usize, u64)> + use<> {
        let first_of_row = y * self.words_per_row;
        (x / 64..(x + width).div_ceil(64)).map(move |word| {
            let begin = x.max(word * 64) - word * 64;
            let end = (x + width).min(word * 64 + 64) - word * 64;
            (first_of_row + word, (!0 >> (64 - (end - begin))) << begin)
        })
    }

    fn has_any(&self, x: usize, y: usize, width: usize) -> bool {
        self.masks(x, y, width).any(|(word, mask)| self.words[word] & mask != 0)
    }

    fn insert(&mut self, x: usize, y: usize, width: usize) {
        for (word, mask) in self.masks(x, y, width) {
            self.words[word] |= mask;
        }
    }

    /// Returns `width` cells of a row, at most 64, as bits.
    pub fn window(&self, x: usize, y: usize, width: usize) -> u64 {
        let (first, shift) = (y * self.words_per_row + x / 64, x % 64);
        let mut bits = self.words[first] >> shift;
        if shift + width > 64 {
            bits |= self.words[first + 1] << (64 - shift);
        }
        bits & (!0 >> (64 - width))
    }
}

/// Returns the places of the bits that are set, from the lowest on.
pub fn places(mut bits: u64) -> impl Iterator<Item = usize> {
    std::iter::from_fn(move || {
        if bits == 0 {
            return None;
        }
        let place = bits.trailing_zeros() as usize;
        bits &= bits - 1;
        Some(place)
    })
}

/// Cells that carry a name: the wire in a bundle, else a number for each name.
#[derive(Default)]
pub struct Ports {
    pub cells: Cells,
    /// Each cell, as its word in `cells` and its place there, with its name.
    named: Vec<(u32, u8, u32)>,
    /// For each word of `cells`, how many cells come before it.
    counts: Vec<u32>,
    /// The names in the order of the cells, by y and then x.
    names: Vec<u32>,
}

impl Ports {
    fn new(width: usize, height: usize) -> Self {
        Ports { cells: Cells::new(width, height), ..Ports::default() }
    }

    fn insert(&mut self, x: usize, y: usize, name: u32) {
        self.cells.insert(x, y, 1);
        self.named.push(((y * self.cells.words_per_row + x / 64) as u32, (x % 64) as u8, name));
    }

    /// Puts the names in order, when all cells have come.
    fn finish(&mut self) {
        if self.named.is_empty() {
            return;
        }
        self.counts = Vec::with_capacity(self.cells.words.len());
        let mut count = 0;
        for word in &self.cells.words {
            self.counts.push(count);
            count += word.count_ones();
        }
        self.names = vec![0; self.named.len()];
        for (word, place, name) in std::mem::take(&mut self.named) {
            let at = self.index(word as usize, place.into());
            self.names[at] = name;
        }
    }

    /// Returns how many cells come before one.
    fn index(&self, word: usize, place: usize) -> usize {
        let before = self.cells.words[word] & ((1 << place) - 1);
        (self.counts[word] + before.count_ones()) as usize
    }

    // Most rows of most modules have no port, and the loops over rows are shorter without this.
    #[inline(never)]
    pub fn name(&self, x: usize, y: usize) -> u32 {
        self.names[self.index(y * self.cells.words_per_row + x / 64, x % 64)]
    }
}

/// Which names a layout may have.
#[derive(Clone, Copy)]
pub enum Names<'c, 't> {
    Any,
    Of(&'c Circuit<'t>),
}

#[derive(Default)]
pub struct Layout<'a> {
    pub width: usize,
    pub height: usize,
    pub steps: u32,
    pub mirrors: Cells,
    /// The cells of mirrors and balls.
    pub live: Cells,
    pub wastes: Cells,
    pub ins: Ports,
    pub outs: Ports,
    /// The cells that are no longer free for a mirror, a ball or an `in`.
    begun: Cells,
    /// The cells that are no longer free for an `out` or a `waste`.
    ended: Cells,
    /// The names of the `in` lines, if any name is good.
    pub in_names: FastMap<&'a [u8], u32>,
    has_port: Vec<bool>,
}

enum Line<'a> {
    Header([u32; 3]),
    Mirror([u32; 4]),
    Ball([u32; 2]),
    In(&'a [u8], [u32; 2]),
    Out(&'a [u8], [u32; 2]),
    Waste([u32; 2]),
    End,
}

impl Line<'_> {
    fn rank(&self) -> u8 {
        match self {
            Line::Header(_) | Line::Mirror(_) => 0,
            Line::Ball(_) => 1,
            Line::In(..) => 2,
            Line::Out(..) => 3,
            Line::Waste(_) | Line::End => 4,
        }
    }
}

fn parse_line<'a>(lines: &mut Lines<'a>) -> Option<Line<'a>> {
    let line = match lines.word() {
        b"layout" => Line::Header(lines.numbers()?),
        b"mirror" => Line::Mirror(lines.numbers()?),
        b"ball" => Line::Ball(lines.numbers()?),
        b"in" => Line::In(lines.name()?, lines.numbers()?),
        b"out" => Line::Out(lines.name()?, lines.numbers()?),
        b"waste" => Line::Waste(lines.numbers()?),
        b"end" => Line::End,
        _ => return None,
    };
    lines.end_line()?;
    Some(line)
}

impl<'a> Layout<'a> {
    pub fn read(lines: &mut Lines<'a>, names: Names) -> Result<Self, Refusal> {
        let mut layout = Layout::default();
        let (mut is_begun, mut rank) = (false, 0);
        loop {
            lines.begin()?;
            let line = parse_line(lines).ok_or_else(|| lines.refusal(Code::Form))?;
            if matches!(line, Line::Header(_)) == is_begun || line.rank() < rank {
                return Err(lines.refusal(Code::Order));
            }
            (is_begun, rank) = (true, line.rank());
            let is_end = matches!(line, Line::End);
            layout.take(line, names, lines.limits).map_err(|code| lines.refusal(code))?;
            if is_end {
                layout.ins.finish();
                layout.outs.finish();
                return Ok(layout);
            }
        }
    }

    fn take(&mut self, line: Line<'a>, names: Names, limits: &Limits) -> Result<(), Code> {
        match line {
            Line::Header(numbers) => {
                let [width, height, steps] = numbers;
                let is_side = |side: u32| (2..=limits.side).contains(&side) && side.is_multiple_of(2);
                ensure(is_side(width) && is_side(height) && steps <= limits.steps, Code::Limit)?;
                self.take_header(numbers, names);
                Ok(())
            }
            Line::Mirror(numbers) => {
                let is_side = |side| (1..=limits.side).contains(&side);
                ensure(is_side(numbers[2]) && is_side(numbers[3]), Code::Limit)?;
                self.add_mirror(numbers)
            }
            Line::Ball(at) => {
                let (x, y) = self.begin_cell(at)?;
                self.live.insert(x, y, 1);
                Ok(())
            }
            Line::In(name, at) => {
                let name = self.in_name(name, names)?;
                let (x, y) = self.begin_cell(at)?;
                self.ins.insert(x, y, name);
                Ok(())
            }
            Line::Out(name, at) => {
                let name = self.out_name(name, names)?;
                let (x, y) = self.end_cell(at)?;
                self.outs.insert(x, y, name);
                Ok(())
            }
            Line::Waste(at) => {
                let (x, y) = self.end_cell(at)?;
                self.wastes.insert(x, y, 1);
                Ok(())
            }
            Line::End => match names {
                Names::Any => Ok(()),
                Names::Of(_) => ensure(!self.has_port.contains(&false), Code::Missing),
            },
        }
    }

    fn take_header(&mut self, [width, height, steps]: [u32; 3], names: Names) {
        let (width, height) = (width as usize, height as usize);
        let cells = || Cells::new(width, height);
        let has_port = match names {
            Names::Any => Vec::new(),
            Names::Of(circuit) => {
                let inputs = std::iter::repeat_n(false, circuit.input_count);
                inputs.chain(circuit.is_output.iter().map(|is_output| !is_output)).collect()
            }
        };
        *self = Layout {
            width,
            height,
            steps,
            mirrors: cells(),
            live: cells(),
            wastes: cells(),
            ins: Ports::new(width, height),
            outs: Ports::new(width, height),
            begun: cells(),
            ended: cells(),
            in_names: FastMap::default(),
            has_port,
        };
    }

    fn add_mirror(&mut self, [x, y, width, height]: [u32; 4]) -> Result<(), Code> {
        let [x, y, width, height] = [x, y, width, height].map(|number| number as usize);
        ensure(x + width <= self.width && y + height <= self.height, Code::Taken)?;
        for row in y..y + height {
            ensure(!self.begun.has_any(x, row, width), Code::Taken)?;
            for cells in [&mut self.begun, &mut self.ended, &mut self.mirrors, &mut self.live] {
                cells.insert(x, row, width);
            }
        }
        Ok(())
    }

    fn begin_cell(&mut self, at: [u32; 2]) -> Result<(usize, usize), Code> {
        let [x, y] = at.map(|number| number as usize);
        ensure(x < self.width && y < self.height && !self.begun.has_any(x, y, 1), Code::Taken)?;
        self.begun.insert(x, y, 1);
        Ok((x, y))
    }

    fn end_cell(&mut self, at: [u32; 2]) -> Result<(usize, usize), Code> {
        let [x, y] = at.map(|number| number as usize);
        ensure(x < self.width && y < self.height && !self.ended.has_any(x, y, 1), Code::Taken)?;
        self.ended.insert(x, y, 1);
        Ok((x, y))
    }

    fn in_name(&mut self, name: &'a [u8], names: Names) -> Result<u32, Code> {
        let Names::Of(circuit) = names else {
            let next = self.in_names.len() as u32;
            return Ok(*self.in_names.entry(name).or_insert(next));
        };
        let wire = circuit.input(name).ok_or(Code::Unknown)?;
        self.has_port[usize::from(wire)] = true;
        Ok(wire.into())
    }

    fn out_name(&mut self, name: &[u8], names: Names) -> Result<u32, Code> {
        let Names::Of(circuit) = names else {
            return Ok(0);
        };
        let is_output = |wire: &u16| circuit.is_output[usize::from(*wire)];
        let wire = circuit.wire(name).filter(is_output).ok_or(Code::Unknown)?;
        self.has_port[circuit.input_count + usize::from(wire)] = true;
        Ok(wire.into())
    }
}
