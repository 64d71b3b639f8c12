//! What the run of a module depends on, apart from where the module is and what its wires are called.

use crate::certificate::{BorderLine, Certificate, Locals, Module, ONE};
use crate::circuit::{Circuit, Kind};
use crate::layout::{Layout, Ports, places};

/// A signal of a job: 0 is always false, 1 is always true, and 2 + k is local wire k.
pub type Signal = u16;

/// A cell of the box, with its signal.
pub type Port = (u8, u8, Signal);

#[derive(PartialEq, Eq, Hash)]
pub struct LocalGate {
    pub kind: Kind,
    pub number: u32,
    pub inputs: [Signal; 4],
    pub is_kept: bool,
}

/// Lines have cells relative to the box, one to the right and below of it, so the halo begins at 0, and local
/// signals.
#[derive(Default, PartialEq, Eq, Hash)]
pub struct Events {
    pub stars: Vec<BorderLine>,
    pub timed: Vec<BorderLine>,
}

/// Rows of cells are words, a bit a cell.
#[derive(PartialEq, Eq, Hash)]
pub struct Job {
    pub width: usize,
    pub height: usize,
    pub steps: u32,
    pub cut_count: usize,
    pub gates: Vec<LocalGate>,
    pub live: Vec<u64>,
    pub mirrors: Vec<u64>,
    pub wastes: Vec<u64>,
    pub ins: Vec<Port>,
    pub outs: Vec<Port>,
    pub edges: Events,
    pub halos: Events,
    pub stops: Events,
}

struct Maker<'m> {
    module: &'m Module,
    locals: &'m mut Locals,
}

impl Maker<'_> {
    fn signal(&self, wire: u16) -> Signal {
        if wire == ONE { 1 } else { self.locals.number(wire).map_or(0, |number| 2 + number) }
    }

    fn ports(&self, ports: &Ports) -> Vec<Port> {
        let Module { x, y, width, height, .. } = *self.module;
        let mut found = Vec::new();
        for row in 0..height {
            for column in places(ports.cells.window(x, y + row, width)) {
                let wire = ports.name(x + column, y + row) as u16;
                found.push((column as u8, row as u8, self.signal(wire)));
            }
        }
        found
    }

    fn events(&self, lines: &[BorderLine]) -> Events {
        let Module { x, y, .. } = *self.module;
        let star_count = lines.partition_point(|line| line.time().is_none());
        let local =
            |line: &BorderLine| line.with(line.x() + 1 - x, line.y() + 1 - y, self.signal(line.signal()));
        let (stars, timed) = lines.split_at(star_count);
        Events { stars: stars.iter().map(local).collect(), timed: timed.iter().map(local).collect() }
    }

    fn gates(&self, circuit: &Circuit) -> Vec<LocalGate> {
        let gate = |&number: &u16| {
            let gate = &circuit.gates[usize::from(number)];
            let mut inputs = [0; 4];
            for (input, &wire) in inputs.iter_mut().zip(gate.inputs()) {
                *input = self.signal(wire);
            }
            let number_of_source = if gate.kind == Kind::Source { gate.number } else { 0 };
            let is_kept = self.module.keeps.binary_search(&number).is_ok();
            LocalGate { kind: gate.kind, number: number_of_source, inputs, is_kept }
        };
        self.module.uses.iter().map(gate).collect()
    }
}

/// Returns the job of each module. In version 2 the lines beside a module are its halo lines.
pub fn jobs(circuit: &Circuit, layout: &Layout, certificate: &Certificate) -> Vec<Job> {
    let mut locals = Locals::new(circuit);
    let mut job = |(module, beside): (&Module, &Vec<BorderLine>)| {
        locals.clear();
        module.wires(circuit).enumerate().for_each(|(number, wire)| locals.insert(wire, number));
        let maker = Maker { module, locals: &mut locals };
        let Module { x, y, width, height, .. } = *module;
        let rows =
            |cells: &crate::layout::Cells| (y..y + height).map(|y| cells.window(x, y, width)).collect();
        let halos = if certificate.version == 1 { &module.halos.lines } else { beside };
        Job {
            width,
            height,
            steps: layout.steps,
            cut_count: module.cuts.len(),
            gates: maker.gates(circuit),
            live: rows(&layout.live),
            mirrors: rows(&layout.mirrors),
            wastes: rows(&layout.wastes),
            ins: maker.ports(&layout.ins),
            outs: maker.ports(&layout.outs),
            edges: maker.events(&module.edges.lines),
            halos: maker.events(halos),
            stops: maker.events(&module.stops.lines),
        }
    };
    certificate.modules.iter().zip(&certificate.beside).map(|pair| job(pair)).collect()
}
