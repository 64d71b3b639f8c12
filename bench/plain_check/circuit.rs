//! Circuits, assign sections, and the values of a circuit (`docs/FORMATS.md`, "The circuit section",
//! "`value`").

use crate::limits::Limits;
use crate::text::{Code, FastMap, Lines, Refusal, ensure};

const MAX_DELAY: u32 = 4096;

#[derive(Clone, Copy, PartialEq, Eq, Hash)]
pub enum Kind {
    Source,
    Fredkin,
    Cswap,
    Interact,
    Switch,
    Delay,
    Unswitch,
    Uninteract,
}

impl Kind {
    fn named(word: &[u8]) -> Option<Kind> {
        Some(match word {
            b"source" => Kind::Source,
            b"fredkin" => Kind::Fredkin,
            b"cswap" => Kind::Cswap,
            b"interact" => Kind::Interact,
            b"switch" => Kind::Switch,
            b"delay" => Kind::Delay,
            b"unswitch" => Kind::Unswitch,
            b"uninteract" => Kind::Uninteract,
            _ => return None,
        })
    }

    pub fn input_count(self) -> usize {
        match self {
            Kind::Source => 0,
            Kind::Delay => 1,
            Kind::Interact | Kind::Switch => 2,
            Kind::Fredkin | Kind::Cswap | Kind::Unswitch => 3,
            Kind::Uninteract => 4,
        }
    }

    pub fn output_count(self) -> usize {
        match self {
            Kind::Source | Kind::Delay => 1,
            Kind::Unswitch | Kind::Uninteract => 2,
            Kind::Fredkin | Kind::Cswap | Kind::Switch => 3,
            Kind::Interact => 4,
        }
    }

    pub fn is_inverse(self) -> bool {
        matches!(self, Kind::Unswitch | Kind::Uninteract)
    }
}

/// A gate whose outputs are `output_count` wires from `first_output` on.
#[derive(Clone)]
pub struct Gate {
    pub kind: Kind,
    /// The bit of a source, or the steps of a delay.
    pub number: u32,
    used: [u16; 4],
    pub first_output: u16,
}

impl Gate {
    pub fn inputs(&self) -> &[u16] {
        &self.used[..self.kind.input_count()]
    }

    pub fn outputs(&self) -> std::ops::Range<u16> {
        self.first_output..self.first_output + self.kind.output_count() as u16
    }
}

/// Wires count in order of definition, so the inputs come first.
#[derive(Default)]
pub struct Circuit<'a> {
    pub names: Vec<&'a [u8]>,
    wires: FastMap<&'a [u8], u16>,
    is_consumed: Vec<bool>,
    pub is_output: Vec<bool>,
    pub input_count: usize,
    pub gates: Vec<Gate>,
}

enum Line<'a> {
    Header,
    Input(&'a [u8]),
    Gate { kind: Kind, number: u32, inputs: [&'a [u8]; 4], outputs: [&'a [u8]; 4] },
    Output(&'a [u8]),
    Spill(&'a [u8]),
    End,
}

impl Line<'_> {
    /// Returns the place of the line's kind in its section.
    fn rank(&self) -> u8 {
        match self {
            Line::Header | Line::Input(_) => 0,
            Line::Gate { .. } => 1,
            Line::Output(_) => 2,
            Line::Spill(_) | Line::End => 3,
        }
    }
}

fn parse_line<'a>(lines: &mut Lines<'a>) -> Option<Line<'a>> {
    let word = lines.word();
    let line = match word {
        b"circuit" => Line::Header,
        b"end" => Line::End,
        b"input" => Line::Input(lines.name()?),
        b"output" => Line::Output(lines.name()?),
        b"spill" => Line::Spill(lines.name()?),
        _ => parse_gate(Kind::named(word)?, lines)?,
    };
    lines.end_line()?;
    Some(line)
}

fn parse_gate<'a>(kind: Kind, lines: &mut Lines<'a>) -> Option<Line<'a>> {
    let number = match kind {
        Kind::Source => Some(lines.number()?).filter(|&bit| bit <= 1)?,
        Kind::Delay => lines.number()?,
        _ => 0,
    };
    let (mut inputs, mut outputs): ([&[u8]; 4], [&[u8]; 4]) = Default::default();
    for name in &mut inputs[..kind.input_count()] {
        *name = lines.name()?;
    }
    lines.fixed(b"->")?;
    for name in &mut outputs[..kind.output_count()] {
        *name = lines.name()?;
    }
    Some(Line::Gate { kind, number, inputs, outputs })
}

impl<'a> Circuit<'a> {
    pub fn read(lines: &mut Lines<'a>) -> Result<Self, Refusal> {
        let mut circuit = Circuit::default();
        let (mut is_begun, mut rank) = (false, 0);
        loop {
            lines.begin()?;
            let line = parse_line(lines).ok_or_else(|| lines.refusal(Code::Form))?;
            if matches!(line, Line::Header) == is_begun || line.rank() < rank {
                return Err(lines.refusal(Code::Order));
            }
            (is_begun, rank) = (true, line.rank());
            let is_end = matches!(line, Line::End);
            circuit.take(line, lines.limits).map_err(|code| lines.refusal(code))?;
            if is_end {
                return Ok(circuit);
            }
        }
    }

    fn take(&mut self, line: Line<'a>, limits: &Limits) -> Result<(), Code> {
        match line {
            Line::Header => Ok(()),
            Line::Input(name) => {
                ensure(self.names.len() < limits.wires, Code::Limit)?;
                self.input_count += 1;
                self.define(name)
            }
            Line::Gate { kind, number, inputs, outputs } => {
                ensure(kind != Kind::Delay || (1..=MAX_DELAY).contains(&number), Code::Limit)?;
                let wire_count = self.names.len() + kind.output_count();
                ensure(wire_count <= limits.wires && self.gates.len() < limits.gates, Code::Limit)?;
                self.add_gate(kind, number, inputs, outputs)
            }
            Line::Output(name) => {
                let wire = self.consume(name)?;
                self.is_output[usize::from(wire)] = true;
                Ok(())
            }
            Line::Spill(name) => self.consume(name).map(|_| ()),
            Line::End => ensure(!self.is_consumed.contains(&false), Code::Missing),
        }
    }

    fn add_gate(
        &mut self,
        kind: Kind,
        number: u32,
        inputs: [&'a [u8]; 4],
        outputs: [&'a [u8]; 4],
    ) -> Result<(), Code> {
        let (input_count, output_count) = (kind.input_count(), kind.output_count());
        let mut used = [0; 4];
        for (wire, name) in used.iter_mut().zip(&inputs[..input_count]) {
            *wire = self.consume(name)?;
        }
        let first_output = self.names.len() as u16;
        for name in &outputs[..output_count] {
            self.define(name)?;
        }
        self.gates.push(Gate { kind, number, used, first_output });
        Ok(())
    }

    fn define(&mut self, name: &'a [u8]) -> Result<(), Code> {
        let wire = self.names.len() as u16;
        ensure(self.wires.insert(name, wire).is_none(), Code::Defined)?;
        self.names.push(name);
        self.is_consumed.push(false);
        self.is_output.push(false);
        Ok(())
    }

    fn consume(&mut self, name: &[u8]) -> Result<u16, Code> {
        let wire = self.wire(name).ok_or(Code::Unknown)?;
        let was_consumed = std::mem::replace(&mut self.is_consumed[usize::from(wire)], true);
        ensure(!was_consumed, Code::Consumed)?;
        Ok(wire)
    }

    pub fn wire(&self, name: &[u8]) -> Option<u16> {
        self.wires.get(name).copied()
    }

    pub fn input(&self, name: &[u8]) -> Option<u16> {
        self.wire(name).filter(|&wire| usize::from(wire) < self.input_count)
    }

    /// Returns the values of the wires up to the first gate without a row, and that gate.
    pub fn values(&self, is_on: &[bool]) -> (Vec<bool>, Option<usize>) {
        let mut values = is_on.to_vec();
        for (number, gate) in self.gates.iter().enumerate() {
            let mut inputs = [0; 4];
            for (input, &wire) in inputs.iter_mut().zip(gate.inputs()) {
                *input = u64::from(values[usize::from(wire)]);
            }
            let row = Row::of(gate.kind, gate.number, inputs);
            if row.domain & 1 == 0 {
                return (values, Some(number));
            }
            values.extend(row.outputs[..gate.kind.output_count()].iter().map(|output| output & 1 == 1));
        }
        (values, None)
    }
}

/// The outputs of a gate under 64 assignments, and under which of them it has a row.
pub struct Row {
    pub outputs: [u64; 4],
    pub domain: u64,
}

impl Row {
    /// The table of gates in `docs/FORMATS.md` (Fredkin and Toffoli 1982).
    #[inline]
    pub fn of(kind: Kind, number: u32, [a, b, c, d]: [u64; 4]) -> Row {
        let (then_b, then_c) = ((a & b) | (!a & c), (a & c) | (!a & b));
        let outputs = match kind {
            Kind::Source => [u64::from(number).wrapping_neg(), 0, 0, 0],
            Kind::Fredkin => [a, then_b, then_c, 0],
            Kind::Cswap => [a, then_c, then_b, 0],
            Kind::Interact => [a & b, b & !a, a & !b, a & b],
            Kind::Switch => [a, a & b, b & !a, 0],
            Kind::Delay => [a, 0, 0, 0],
            Kind::Unswitch => [a, b | c, 0, 0],
            Kind::Uninteract => [a | c, a | b, 0, 0],
        };
        let domain = match kind {
            Kind::Unswitch => !then_c,
            Kind::Uninteract => (!a & !d & !(b & c)) | (a & d & !b & !c),
            _ => !0,
        };
        Row { outputs, domain }
    }
}

/// Reads an assign section: for each of `count` numbers whether its name is on.
pub fn read_assign<'a>(
    lines: &mut Lines<'a>,
    count: usize,
    number_of: impl Fn(&[u8]) -> Option<usize>,
) -> Result<Vec<bool>, Refusal> {
    let mut is_on = vec![false; count];
    let mut is_begun = false;
    loop {
        lines.begin()?;
        let line = parse_assign(lines).ok_or_else(|| lines.refusal(Code::Form))?;
        if matches!(line, AssignLine::Header) == is_begun {
            return Err(lines.refusal(Code::Order));
        }
        is_begun = true;
        match line {
            AssignLine::Header => {}
            AssignLine::On(name) => {
                let number = number_of(name).ok_or_else(|| lines.refusal(Code::Unknown))?;
                ensure(!is_on[number], Code::Defined).map_err(|code| lines.refusal(code))?;
                is_on[number] = true;
            }
            AssignLine::End => return Ok(is_on),
        }
    }
}

enum AssignLine<'a> {
    Header,
    On(&'a [u8]),
    End,
}

fn parse_assign<'a>(lines: &mut Lines<'a>) -> Option<AssignLine<'a>> {
    let line = match lines.word() {
        b"assign" => AssignLine::Header,
        b"on" => AssignLine::On(lines.name()?),
        b"end" => AssignLine::End,
        _ => return None,
    };
    lines.end_line()?;
    Some(line)
}
