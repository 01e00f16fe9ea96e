//! The lines of the program slots, as the source decides them: the plan, first bits and bits by its `McPlan`, a slot's by `VarSlot`,
//! a node's by `MonitorNodeState`, alike by its equality of nodes.
//!
//! The source has no `MonitorNodeState` for a node without bits; its offset is then where the next bit would come.

use std::io::Write;

use crate::book::{read, Book};
use crate::codegen::monitor::MonNode;
use crate::lang::ir::Module;
use crate::listing::{compile, one_letter, plan_line, refused_line};
use crate::mc::plan::{compare_layouts, MonitorStateLayout};

fn count(node: &MonNode) -> usize {
    match node {
        MonNode::And(parts) | MonNode::Or(parts) => 1 + parts.iter().map(count).sum::<usize>(),
        _ => 1,
    }
}

fn slot_lines(number: usize, nodes: usize, layout: &MonitorStateLayout, out: &mut Vec<u8>) {
    let mut states = layout.nodes.iter().peekable();
    let mut next = 0;
    for id in 0..nodes {
        let (offset, pending, remaining, antecedent) = match states.next_if(|state| state.node_id == id) {
            Some(s) => (s.offset_bits, s.pending_bits, s.remaining_bits, s.antecedent_bits),
            None => (next, 0, 0, 0),
        };
        next = offset + pending + remaining + antecedent;
        writeln!(out, "slot\t{number}\t{id}\t{offset}\t{pending}\t{remaining}\t{antecedent}").unwrap();
    }
    assert!(states.next().is_none(), "a state of no node");
}

fn accepted(book: &Book<'_>, out: &mut Vec<u8>) {
    let compiled = compile(book, true);
    plan_line(&compiled.encoding, out);
    for (number, slot) in compiled.encoding.var_slots.iter().enumerate() {
        writeln!(out, "var\t{number}\t{}\t{}", slot.offset_bits, slot.width_bits).unwrap();
    }
    let mut seen: Vec<(usize, MonNode)> = Vec::new();
    let mut pairs = Vec::new();
    for (number, plan) in compiled.plans.iter().enumerate() {
        let Ok(plan) = plan else { continue };
        let laid = |l: &&MonitorStateLayout| l.label == number.to_string();
        let layout = compiled.encoding.monitors.iter().find(laid).expect("a compiled rule has a layout");
        let alone = &compare_layouts(&Module::default(), &[plan]).monitors[0];
        writeln!(out, "rule\t{number}\t{}\t{}\t{}", layout.offset_bits, layout.total_bits, alone.total_bits).unwrap();
        slot_lines(number, count(&plan.root), layout, out);
        let root = one_letter(&plan.root);
        for (earlier, _) in seen.iter().filter(|(_, other)| *other == root) {
            writeln!(pairs, "alike\t{earlier}\t{number}").unwrap();
        }
        seen.push((number, root));
    }
    out.extend_from_slice(&pairs);
}

pub fn list(bytes: &[u8], out: &mut Vec<u8>) {
    match read(bytes) {
        Ok(book) => accepted(&book, out),
        Err(refused) => refused_line(refused, out),
    }
}
