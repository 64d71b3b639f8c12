//! The report of `check` (`docs/FORMATS.md`, "`check`").

use std::sync::Mutex;
use std::sync::atomic::{AtomicUsize, Ordering};

use crate::borders::{BorderFault, border_fault};
use crate::certificate::{Certificate, Module};
use crate::circuit::{Circuit, Kind};
use crate::digest::hex_digest;
use crate::jobs::{Job, jobs};
use crate::layout::Layout;
use crate::running::{FaultKind, Finding, find};
use crate::text::FastMap;

/// Returns the finding of each module. Equal jobs are run once, and the workers draw the jobs that are left
/// in turn.
fn findings(jobs: &[Job], workers: usize) -> Vec<Finding> {
    let mut first_of: FastMap<&Job, usize> = FastMap::default();
    let mut different = Vec::new();
    let mut places = Vec::with_capacity(jobs.len());
    for job in jobs {
        places.push(*first_of.entry(job).or_insert_with(|| {
            different.push(job);
            different.len() - 1
        }));
    }
    let found = if workers == 1 {
        different.iter().map(|job| find(job)).collect()
    } else {
        find_by_threads(&different, workers)
    };
    places.iter().map(|&place| found[place]).collect()
}

fn find_by_threads(jobs: &[&Job], workers: usize) -> Vec<Finding> {
    let next = AtomicUsize::new(0);
    let found = Mutex::new(vec![Finding::default(); jobs.len()]);
    std::thread::scope(|scope| {
        for _ in 0..workers.min(jobs.len()) {
            scope.spawn(|| {
                while let number = next.fetch_add(1, Ordering::Relaxed)
                    && let Some(job) = jobs.get(number)
                {
                    let finding = find(job);
                    found.lock().unwrap()[number] = finding;
                }
            });
        }
    });
    found.into_inner().unwrap()
}

fn module_lines(number: usize, module: &Module, finding: &Finding, border: Option<BorderFault>) -> String {
    let mut lines = String::new();
    if let Some(fault) = &finding.fault {
        let kind = match fault.kind {
            FaultKind::Edge => "edge",
            FaultKind::Stop => "stop",
            FaultKind::End => "end",
        };
        let (x, y) = (module.x + fault.x, module.y + fault.y);
        lines += &format!("local {number} {kind} {} {x} {y} {}\n", fault.time, fault.assignment);
    }
    if let Some((place, assignment)) = finding.keep {
        lines += &format!("keep {number} {} {assignment}\n", module.uses[place]);
    }
    if let Some(BorderFault { time, x, y }) = border {
        lines += &format!("border {number} {time} {x} {y}\n");
    }
    lines
}

fn unkept_lines(circuit: &Circuit, modules: &[Module]) -> String {
    let mut is_kept = vec![false; circuit.gates.len()];
    modules.iter().flat_map(|module| &module.keeps).for_each(|&gate| is_kept[usize::from(gate)] = true);
    let unkept = |&(number, _): &(usize, _)| circuit.gates[number].kind.is_inverse() && !is_kept[number];
    circuit.gates.iter().enumerate().filter(unkept).map(|(number, _)| format!("unkept {number}\n")).collect()
}

/// The first and the last stop of each wire that has any.
fn stop_times(circuit: &Circuit, modules: &[Module]) -> Vec<Option<(u32, u32)>> {
    let mut times = vec![None; circuit.names.len()];
    for line in modules.iter().flat_map(|module| &module.stops.lines) {
        let wire = &mut times[usize::from(line.signal())];
        let time = line.time().unwrap_or(0);
        *wire =
            Some(wire.map_or((time, time), |(first, last): (u32, u32)| (first.min(time), last.max(time))));
    }
    times
}

/// Returns the lines on delays and meetings, and whether their rules are kept.
fn time_lines(circuit: &Circuit, modules: &[Module]) -> (String, bool) {
    let times = stop_times(circuit, modules);
    let (mut lines, mut are_kept) = (String::new(), true);
    for (number, gate) in circuit.gates.iter().enumerate().filter(|(_, gate)| gate.kind == Kind::Delay) {
        let (used, made) = (times[usize::from(gate.inputs()[0])], times[usize::from(gate.first_output)]);
        let gap = used.zip(made).map(|((_, last), (first, _))| first.checked_sub(last));
        are_kept &= gap == Some(Some(gate.number));
        let told = match gap {
            None => "missing".to_string(),
            Some(None) => "before".to_string(),
            Some(Some(gap)) => gap.to_string(),
        };
        lines += &format!("delay {number} {} {told}\n", gate.number);
    }
    for (number, gate) in circuit.gates.iter().enumerate() {
        let lasts: Vec<u32> =
            gate.inputs().iter().filter_map(|&wire| times[usize::from(wire)]).map(|it| it.1).collect();
        if lasts.len() >= 2 {
            let do_meet = lasts.iter().all(|last| *last == lasts[0]);
            are_kept &= do_meet;
            let told = if do_meet { lasts[0].to_string() } else { "differ".to_string() };
            lines += &format!("meet {number} {told}\n");
        }
    }
    (lines, are_kept)
}

/// Returns the report, and whether the verdict is yes.
pub fn report(
    text: &[u8],
    circuit: &Circuit,
    layout: &Layout,
    certificate: &Certificate,
    workers: usize,
) -> (String, bool) {
    let modules = &certificate.modules;
    let findings = findings(&jobs(circuit, layout, certificate), workers);
    let mut faults = String::new();
    for (number, (module, finding)) in modules.iter().zip(&findings).enumerate() {
        // in version 2 there are no halo lines, and borders match by themselves
        let border = match certificate.version {
            1 => border_fault(&module.halos.lines, &certificate.beside[number], layout.steps),
            _ => None,
        };
        faults += &module_lines(number, module, finding, border);
    }
    faults += &unkept_lines(circuit, modules);
    let (time_lines, are_times_kept) = time_lines(circuit, modules);
    let is_yes = faults.is_empty() && are_times_kept;
    let digest = hex_digest(&text[certificate.text.clone()]);
    let verdict = if is_yes { "yes" } else { "no" };
    let head = format!("bbmcheck 1\ncertificate {digest}\nmodules {}\nverdict {verdict}\n", modules.len());
    (head + &faults + &time_lines, is_yes)
}
