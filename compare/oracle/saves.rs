//! The lines of the program saves, as the source decides them: its `ReferenceMonitor` steps, its `MonState` is what is saved, and its layout
//! says where each node's bits lie. Only the bits of a state in bytes, and the tests of document 02's order 3, are of this file.

use std::io::Write;

use crate::book::{read, Book, Step};
use crate::codegen::monitor::{initial_state, MonNode, MonState, MonitorPlan, ReferenceMonitor};
use crate::lang::ir::Module;
use crate::listing::{compile, holds, refused_line};
use crate::mc::plan::{compare_layouts, MonitorNodeState, MonitorStateLayout};

fn states<'a>(state: &'a MonState, out: &mut Vec<&'a MonState>) {
    out.push(state);
    if let MonState::And { children, .. } | MonState::Or { children, .. } = state {
        children.iter().for_each(|child| states(child, out));
    }
}

fn states_mut<'a>(state: &'a mut MonState, id: &mut usize, change: &mut impl FnMut(usize, &mut MonState)) {
    change(*id, state);
    *id += 1;
    if let MonState::And { children, .. } | MonState::Or { children, .. } = state {
        children.iter_mut().for_each(|child| states_mut(child, id, change));
    }
}

fn bounds(node: &MonNode, out: &mut Vec<u64>) {
    out.push(match node {
        MonNode::Obligation { bound, .. } => *bound,
        _ => 0,
    });
    if let MonNode::And(parts) | MonNode::Or(parts) = node {
        parts.iter().for_each(|part| bounds(part, out));
    }
}

/// `width` bits from bit `at` on, lowest first.
fn put(bytes: &mut [u8], at: u32, width: u32, value: u64) {
    for k in 0..width {
        let place = (at + k) as usize;
        bytes[place / 8] |= ((value >> k & 1) as u8) << (place % 8);
    }
}

fn get(bytes: &[u8], at: u32, width: u32) -> u64 {
    (0..width).fold(0, |value, k| {
        let place = (at + k) as usize;
        value | u64::from(bytes[place / 8] >> (place % 8) & 1) << k
    })
}

/// A rule's plan and layout, its own first bit being bit 0.
struct Saver<'a> {
    plan: &'a MonitorPlan,
    layout: MonitorStateLayout,
    bounds: Vec<u64>,
}

impl Saver<'_> {
    fn new(plan: &MonitorPlan) -> Saver<'_> {
        let layout = compare_layouts(&Module::default(), &[plan]).monitors.remove(0);
        let mut of_nodes = Vec::new();
        bounds(&plan.root, &mut of_nodes);
        Saver { plan, layout, bounds: of_nodes }
    }

    fn need(&self) -> usize {
        self.layout.total_bits.div_ceil(8) as usize
    }

    /// The bytes, if so many are lent; or 1 or 26.
    fn save(&self, monitor: &ReferenceMonitor, lent: usize) -> Result<Vec<u8>, u32> {
        if lent < self.need() {
            return Err(1);
        }
        let root = monitor.compare_state();
        let mut all = Vec::new();
        states(root, &mut all);
        let checks = |s: &&&MonState| matches!(s, MonState::DelayedCheck { .. } | MonState::Obligation { .. });
        if root.failed() || all.iter().filter(checks).any(|s| s.failed()) {
            return Err(26);
        }
        let mut bytes = vec![0; self.need()];
        for MonitorNodeState { node_id, offset_bits, pending_bits, remaining_bits, antecedent_bits } in &self.layout.nodes {
            match all[*node_id] {
                MonState::Obligation { pending, remaining, .. } => {
                    assert_eq!(*antecedent_bits, 0);
                    put(&mut bytes, *offset_bits, *pending_bits, u64::from(*pending));
                    let left = if *pending { *remaining } else { 0 };
                    put(&mut bytes, offset_bits + pending_bits, *remaining_bits, left);
                }
                MonState::DelayedCheck { prev_antecedent, .. } => {
                    assert_eq!(pending_bits + remaining_bits, 0);
                    put(&mut bytes, *offset_bits, *antecedent_bits, u64::from(*prev_antecedent));
                }
                _ => unreachable!("a node without bits has a layout"),
            }
        }
        Ok(bytes)
    }

    /// The source's initial state with what the bytes say; or 1 or 27.
    fn restore(&self, bytes: &[u8]) -> Result<ReferenceMonitor, u32> {
        let need = self.need();
        if bytes.len() < need {
            return Err(1);
        }
        let mut wrong = get(bytes, self.layout.total_bits, 8 * need as u32 - self.layout.total_bits) != 0;
        let mut state = initial_state(&self.plan.root);
        states_mut(&mut state, &mut 0, &mut |id, state| {
            let Some(laid) = self.layout.nodes.iter().find(|n| n.node_id == id) else { return };
            match state {
                MonState::Obligation { pending, remaining, .. } => {
                    *pending = get(bytes, laid.offset_bits, laid.pending_bits) == 1;
                    *remaining = get(bytes, laid.offset_bits + laid.pending_bits, laid.remaining_bits);
                    let inside = 1 <= *remaining && *remaining <= self.bounds[id];
                    wrong |= if *pending { !inside } else { *remaining != 0 };
                }
                MonState::DelayedCheck { prev_antecedent, .. } => {
                    *prev_antecedent = get(bytes, laid.offset_bits, laid.antecedent_bits) == 1;
                }
                _ => unreachable!("a node without bits has a layout"),
            }
        });
        if wrong {
            return Err(27);
        }
        let mut monitor = ReferenceMonitor::new(self.plan);
        monitor.compare_set_state(state);
        Ok(monitor)
    }
}

fn hex(bytes: &[u8]) -> String {
    match bytes {
        [] => "-".to_string(),
        _ => bytes.iter().map(|byte| format!("{byte:02x}")).collect(),
    }
}

const ROOM: usize = 2_112;

fn refusal<T>(answer: &Result<T, u32>) -> u32 {
    answer.as_ref().err().copied().unwrap_or(0)
}

fn text(answer: &Result<Vec<u8>, u32>) -> String {
    hex(answer.as_ref().map_or(&[], |bytes| bytes))
}

/// Each bit of the bytes flipped in turn: restored, or refused by 27.
fn flips(saver: &Saver<'_>, bytes: &[u8]) -> String {
    (0..8 * bytes.len())
        .map(|k| {
            let mut flipped = bytes.to_vec();
            flipped[k / 8] ^= 1 << (k % 8);
            match refusal(&saver.restore(&flipped)) {
                0 => '.',
                27 => 'x',
                _ => '?',
            }
        })
        .collect()
}

fn step(monitor: &mut ReferenceMonitor, step: &Step) -> (u32, i64) {
    let report = monitor.step(step.number as usize, &|signal| holds(signal, step.truths));
    (if report { 100 } else { 0 }, monitor.compare_state().trigger_step())
}

/// Monitor `a` is never switched off; `b` is where place and number say so.
fn rule_lines(number: usize, plan: &MonitorPlan, record: &[Step], out: &mut Vec<u8>) {
    let saver = Saver::new(plan);
    let (mut a, mut b) = (ReferenceMonitor::new(plan), ReferenceMonitor::new(plan));
    for place in 0..=record.len() {
        let saved = saver.save(&a, ROOM);
        writeln!(out, "save\t{number}\t{place}\t{}\t{}\tkept", refusal(&saved), text(&saved)).unwrap();
        match &saved {
            Ok(bytes) if place < 4 && (1..=4).contains(&bytes.len()) => {
                writeln!(out, "flip\t{number}\t{place}\t{}", flips(&saver, bytes)).unwrap();
            }
            _ => {}
        }
        if (place + number) % 3 == 1 {
            let saved = saver.save(&b, ROOM);
            write!(out, "back\t{number}\t{place}\t{}\t", refusal(&saved)).unwrap();
            match saved.map(|bytes| saver.restore(&bytes)) {
                Err(_) => write!(out, "-\t-").unwrap(),
                Ok(Err(refusal)) => write!(out, "{refusal}\t-").unwrap(),
                Ok(Ok(restored)) => {
                    b = restored;
                    write!(out, "0\t{}", text(&saver.save(&b, ROOM))).unwrap();
                }
            }
            writeln!(out, "\tkept").unwrap();
        }
        if let Some(line) = record.get(place) {
            let ((answer, culprit), (answer_b, culprit_b)) = (step(&mut a, line), step(&mut b, line));
            writeln!(out, "told\t{number}\t{}\t{answer}\t{culprit}\t{answer_b}\t{culprit_b}", line.number).unwrap();
        }
    }
    let (mut of_a, mut of_b) = (Vec::new(), Vec::new());
    states(a.compare_state(), &mut of_a);
    states(b.compare_state(), &mut of_b);
    for (id, (a, b)) in of_a.iter().zip(&of_b).enumerate() {
        writeln!(out, "blame\t{number}\t{id}\t{}\t{}", a.trigger_step(), b.trigger_step()).unwrap();
    }
    let need = saver.need();
    if need == 1 {
        let read: Vec<u8> = (0..=255).filter(|byte| saver.restore(&[*byte]).is_ok()).collect();
        writeln!(out, "reads\t{number}\t{}", hex(&read)).unwrap();
    }
    let lent = need.saturating_sub(1);
    let (saved, restored) = (saver.save(&a, lent), saver.restore(&vec![0xff; lent]));
    writeln!(out, "short\t{number}\t{need}\t{}\t{}\tkept", refusal(&saved), refusal(&restored)).unwrap();
}

fn accepted(book: &Book<'_>, out: &mut Vec<u8>) {
    for (number, plan) in compile(book, true).plans.iter().enumerate() {
        if let Ok(plan) = plan {
            rule_lines(number, plan, &book.steps, out);
        }
    }
}

pub fn list(bytes: &[u8], out: &mut Vec<u8>) {
    match read(bytes) {
        Ok(book) => accepted(&book, out),
        Err(refused) => refused_line(refused, out),
    }
}
