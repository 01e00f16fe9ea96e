//! The listing (document 01, "The listing"; the `plan` line of document 02's order 1) of a book as the source decides it: its `compile_formula`,
//! `McPlan`, `LivenessDecomposition` and `ReferenceMonitor`. Only the text is made here.

use std::io::Write;

use crate::book::{read, Book, Node, Refused, Word};
use crate::codegen::monitor::{
    compile_formula, AnchorRange, MonNode, MonitorPlan, ReferenceMonitor, SignalAtom, SignalExpr,
};
use crate::codegen::AssumptionSelection;
use crate::lang::ir::{
    EnumDecl, EventPattern, Expr, Formula, Module, OutputPattern, PatternExpr, PatternField,
    PatternVariant, Property, Type, VarDecl,
};
use crate::mc::plan::{
    compare_layouts, ConfigEncoding, LivenessDecomposition, LivenessObligation, McPlan, Skeleton,
    SkeletonLeaf,
};

// ---- atoms: a signal's number is carried in a pattern or expression of the source's own

fn carry(number: u64) -> Option<PatternVariant> {
    let pattern = PatternExpr::Int { value: number };
    Some(PatternVariant::Struct {
        name: String::new(),
        fields: vec![PatternField { name: None, pattern }],
    })
}

fn carried(variant: &Option<PatternVariant>) -> u64 {
    match variant {
        Some(PatternVariant::Struct { fields, .. }) => match fields[0].pattern {
            PatternExpr::Int { value } => value,
            _ => unreachable!("an atom carries a number"),
        },
        _ => unreachable!("an atom carries a number"),
    }
}

fn expr_number(expr: &Expr) -> u64 {
    match expr {
        Expr::Int { value } => *value,
        _ => unreachable!("an atom carries a number"),
    }
}

/// The next formula of a list of nodes in prefix order.
fn formula(nodes: &mut std::slice::Iter<'_, Node>) -> Formula {
    let node = nodes.next().expect("the reader gives whole formulas");
    let number = node.number;
    let bound = node.number;
    match node.word {
        Word::Var => Formula::Expr {
            expr: Expr::Int { value: number },
        },
        Word::In => Formula::InputIs {
            pattern: EventPattern {
                group: String::new(),
                variant: carry(number),
            },
        },
        Word::Out => Formula::OutputHas {
            pattern: OutputPattern {
                group: String::new(),
                variant: carry(number),
            },
        },
        Word::Not | Word::Next | Word::Always | Word::Eventually | Word::AlwaysFor | Word::Within => {
            let inner = Box::new(formula(nodes));
            match node.word {
                Word::Not => Formula::Not { inner },
                Word::Next => Formula::Next { inner },
                Word::Always => Formula::Always { inner },
                Word::Eventually => Formula::Eventually { inner },
                Word::AlwaysFor => Formula::BoundedAlways { bound, inner },
                _ => Formula::BoundedEventually { bound, inner },
            }
        }
        Word::And | Word::Or | Word::Implies | Word::Until => {
            let left = Box::new(formula(nodes));
            let right = Box::new(formula(nodes));
            match node.word {
                Word::And => Formula::And { left, right },
                Word::Or => Formula::Or { left, right },
                Word::Implies => Formula::Implies { left, right },
                _ => Formula::Until { left, right },
            }
        }
    }
}

// ---- refusals 11 to 23, from the source's texts

fn compile_refusal(text: &str) -> u32 {
    match text {
        "always[N] is not allowed under a temporal operator" => 11,
        "always[N] requires N >= 1" => 12,
        "implication antecedent must be temporal-operator-free" => 13,
        "bounded_eventually body must be temporal-operator-free" => 14,
        "next body must be temporal-operator-free" => 15,
        "implication consequent must be temporal-operator-free or bounded_eventually" => 16,
        "next requires a temporal-operator-free body" => 17,
        "negation of a temporal formula is outside the monitor subset" => 18,
        "liveness operators (eventually/until) are outside the monitor subset" => 19,
        other => panic!("a compile text without a number: {other}"),
    }
}

fn split_refusal(text: &str) -> u32 {
    match text {
        "liveness subformula must be a boolean formula over atomic propositions (no temporal operators inside `eventually`)" => 20,
        "liveness subformula must be a boolean formula over atomic propositions (no temporal operators inside `until` operands)" => 21,
        "liveness operators nested under a temporal operator are not supported (deeper nesting)" => 22,
        "temporal operators are not supported in liveness properties; split the safety part into a separate property" => 23,
        other => panic!("a liveness text without a number: {other}"),
    }
}

// ---- texts

fn atom_text(atom: &SignalAtom, out: &mut Vec<u8>) {
    match atom {
        SignalAtom::VarExpr(expr) => write!(out, "v{}", expr_number(expr)),
        SignalAtom::InputIs(pattern) => write!(out, "i{}", carried(&pattern.variant)),
        SignalAtom::OutputHas(pattern) => write!(out, "o{}", carried(&pattern.variant)),
        SignalAtom::True => write!(out, "T"),
    }
    .unwrap();
}

fn signal_text(signal: &SignalExpr, out: &mut Vec<u8>) {
    match signal {
        SignalExpr::Atom(atom) => atom_text(atom, out),
        SignalExpr::Not(inner) => {
            out.push(b'!');
            signal_text(inner, out);
        }
        SignalExpr::And(left, right) => {
            out.push(b'&');
            signal_text(left, out);
            signal_text(right, out);
        }
        SignalExpr::Or(left, right) => {
            out.push(b'|');
            signal_text(left, out);
            signal_text(right, out);
        }
    }
}

/// An operand of an obligation, or an atom of a skeleton: a formula without temporal operators.
fn operand_text(f: &Formula, out: &mut Vec<u8>) {
    match f {
        Formula::Expr { expr } => write!(out, "v{}", expr_number(expr)).unwrap(),
        Formula::InputIs { pattern } => write!(out, "i{}", carried(&pattern.variant)).unwrap(),
        Formula::OutputHas { pattern } => write!(out, "o{}", carried(&pattern.variant)).unwrap(),
        Formula::Not { inner } => {
            out.push(b'!');
            operand_text(inner, out);
        }
        Formula::And { left, right } | Formula::Or { left, right } | Formula::Implies { left, right } => {
            out.push(match f {
                Formula::And { .. } => b'&',
                Formula::Or { .. } => b'|',
                _ => b'>',
            });
            operand_text(left, out);
            operand_text(right, out);
        }
        _ => panic!("a temporal operator in an operand"),
    }
}

fn skeleton_text(skeleton: &Skeleton, out: &mut Vec<u8>) {
    let (sign, left, right) = match skeleton {
        Skeleton::And(left, right) => (b'&', left, Some(right)),
        Skeleton::Or(left, right) => (b'|', left, Some(right)),
        Skeleton::Implies(left, right) => (b'>', left, Some(right)),
        Skeleton::Not(inner) => (b'!', inner, None),
        Skeleton::Leaf(SkeletonLeaf::Safety(f)) => {
            out.push(b's');
            operand_text(f, out);
            return;
        }
        Skeleton::Leaf(SkeletonLeaf::Obligation(index)) => {
            write!(out, "#{index}").unwrap();
            return;
        }
    };
    out.push(sign);
    skeleton_text(left, out);
    if let Some(right) = right {
        skeleton_text(right, out);
    }
}

fn node_lines(node: &MonNode, id: &mut usize, out: &mut Vec<u8>) {
    write!(out, "node\t{id}\t").unwrap();
    *id += 1;
    let simple = |out: &mut Vec<u8>,
                  form: &str,
                  bound: Option<u64>,
                  range: &AnchorRange,
                  first: &SignalExpr,
                  second: Option<&SignalExpr>| {
        write!(out, "{form}\t").unwrap();
        match bound {
            Some(b) => write!(out, "{b}").unwrap(),
            None => out.push(b'-'),
        }
        write!(out, "\t{}\t", range.from).unwrap();
        match range.to {
            Some(to) => write!(out, "{to}").unwrap(),
            None => out.push(b'*'),
        }
        out.push(b'\t');
        signal_text(first, out);
        out.push(b'\t');
        match second {
            Some(signal) => signal_text(signal, out),
            None => out.push(b'-'),
        }
        out.push(b'\n');
    };
    match node {
        MonNode::RangeCheck { expr, range } => simple(out, "C", None, range, expr, None),
        MonNode::DelayedCheck {
            antecedent,
            consequent,
            range,
        } => simple(out, "D", None, range, antecedent, Some(consequent)),
        MonNode::Obligation {
            bound,
            trigger,
            body,
            range,
        } => simple(out, "B", Some(*bound), range, trigger, Some(body)),
        MonNode::And(parts) | MonNode::Or(parts) => {
            let form = if matches!(node, MonNode::And(_)) { "A" } else { "O" };
            writeln!(out, "{form}\t-\t-\t-\t-\t-").unwrap();
            for part in parts {
                node_lines(part, id, out);
            }
        }
    }
}

// ---- alike: the source's own equality of nodes, with every atom made the same letter

fn one_letter_signal(signal: &SignalExpr) -> SignalExpr {
    let boxed = |s: &SignalExpr| Box::new(one_letter_signal(s));
    match signal {
        SignalExpr::Atom(SignalAtom::True) => SignalExpr::Atom(SignalAtom::True),
        SignalExpr::Atom(atom) => {
            let value = atom_number(atom);
            SignalExpr::Atom(SignalAtom::VarExpr(Expr::Int { value }))
        }
        SignalExpr::Not(inner) => SignalExpr::Not(boxed(inner)),
        SignalExpr::And(left, right) => SignalExpr::And(boxed(left), boxed(right)),
        SignalExpr::Or(left, right) => SignalExpr::Or(boxed(left), boxed(right)),
    }
}

pub fn one_letter(node: &MonNode) -> MonNode {
    match node {
        MonNode::RangeCheck { expr, range } => MonNode::RangeCheck {
            expr: one_letter_signal(expr),
            range: *range,
        },
        MonNode::DelayedCheck {
            antecedent,
            consequent,
            range,
        } => MonNode::DelayedCheck {
            antecedent: one_letter_signal(antecedent),
            consequent: one_letter_signal(consequent),
            range: *range,
        },
        MonNode::Obligation {
            bound,
            trigger,
            body,
            range,
        } => MonNode::Obligation {
            bound: *bound,
            trigger: one_letter_signal(trigger),
            body: one_letter_signal(body),
            range: *range,
        },
        MonNode::And(parts) => MonNode::And(parts.iter().map(one_letter).collect()),
        MonNode::Or(parts) => MonNode::Or(parts.iter().map(one_letter).collect()),
    }
}

// ---- a signal's value: every atom reads its bit of the word

fn atom_number(atom: &SignalAtom) -> u64 {
    match atom {
        SignalAtom::VarExpr(expr) => expr_number(expr),
        SignalAtom::InputIs(pattern) => carried(&pattern.variant),
        SignalAtom::OutputHas(pattern) => carried(&pattern.variant),
        SignalAtom::True => unreachable!("the constant has no number"),
    }
}

pub fn holds(signal: &SignalExpr, word: u64) -> bool {
    match signal {
        SignalExpr::Atom(SignalAtom::True) => true,
        SignalExpr::Atom(atom) => word >> atom_number(atom) & 1 == 1,
        SignalExpr::Not(inner) => !holds(inner, word),
        SignalExpr::And(left, right) => holds(left, word) && holds(right, word),
        SignalExpr::Or(left, right) => holds(left, word) || holds(right, word),
    }
}

// ---- the whole listing

/// The book as the source takes it. The states are the variants of its enum `State`, of which only the count matters; without a
/// `states` line there is no such enum. Slots are variables of their width. A rule's name is its number in the book.
fn module_of(book: &Book<'_>) -> Module {
    let mut module = Module::default();
    if let Some(count) = book.states {
        let variants = vec![String::new(); count as usize];
        module.enums.push(EnumDecl { name: "State".to_string(), variants });
    }
    for slot in &book.slots {
        module.vars.push(VarDecl {
            name: String::from_utf8(slot.name.to_vec()).expect("a name is a label"),
            ty: Type::Bit { width: slot.width as u32 },
            init: Expr::Int { value: 0 },
        });
    }
    for (number, rule) in book.rules.iter().enumerate() {
        let property = Property {
            name: number.to_string(),
            formula: formula(&mut rule.nodes.iter()),
        };
        if rule.assumption {
            module.assumptions.push(property);
        } else {
            module.properties.push(property);
        }
    }
    module
}

/// A book's rules as the source takes them: compiled, or one of 11 to 19, and laid out.
pub struct Compiled {
    pub plans: Vec<Result<MonitorPlan, u32>>,
    pub encoding: ConfigEncoding,
    module: Module,
    /// where a rule stands in its list of the module
    places: Vec<usize>,
}

/// `whole` asks for the layout of the source's `McPlan`, held to that of the plans compiled here;
/// without it only the second is made (for the bench).
pub fn compile(book: &Book<'_>, whole: bool) -> Compiled {
    let module = module_of(book);
    let (mut p, mut a) = (0, 0);
    let places: Vec<usize> = book
        .rules
        .iter()
        .map(|rule| {
            let next = if rule.assumption { &mut a } else { &mut p };
            *next += 1;
            *next - 1
        })
        .collect();
    let property = |number: usize| -> &Property {
        if book.rules[number].assumption {
            &module.assumptions[places[number]]
        } else {
            &module.properties[places[number]]
        }
    };

    let plans: Vec<Result<MonitorPlan, u32>> = (0..book.rules.len())
        .map(|number| {
            let Property { name, formula } = property(number);
            compile_formula(name, book.rules[number].assumption, formula)
                .map_err(|text| compile_refusal(&text))
        })
        .collect();

    let of_kind = |assumption: bool| {
        plans
            .iter()
            .flatten()
            .filter(move |plan| plan.is_assumption == assumption)
    };
    let ordered: Vec<&MonitorPlan> = of_kind(false).chain(of_kind(true)).collect();
    let mut encoding: ConfigEncoding = compare_layouts(&module, &ordered);
    if whole {
        let plan = McPlan::compute(&module, &AssumptionSelection::All);
        assert_eq!(encoding, plan.encoding, "the two layouts differ");
        encoding = plan.encoding;
    }
    Compiled {
        plans,
        encoding,
        module,
        places,
    }
}

pub fn plan_line(encoding: &ConfigEncoding, out: &mut Vec<u8>) {
    let ConfigEncoding { state_bits, vars_bits, monitors_bits, total_bits, total_bytes, .. } = encoding;
    writeln!(out, "plan\t{state_bits}\t{vars_bits}\t{monitors_bits}\t{total_bits}\t{total_bytes}").unwrap();
}

fn accepted(book: &Book<'_>, whole: bool, out: &mut Vec<u8>) {
    let Compiled {
        plans,
        encoding,
        module,
        places,
    } = compile(book, whole);
    let mut bits: Vec<Option<(u32, u32)>> = vec![None; book.rules.len()];
    for monitor in &encoding.monitors {
        let number: usize = monitor.label.parse().unwrap();
        bits[number] = Some((monitor.offset_bits, monitor.total_bits));
    }

    let liveness = LivenessDecomposition::compute(&module);
    let mut split_refusals: Vec<Option<u32>> = vec![None; book.rules.len()];
    for text in &liveness.diagnostics {
        let (name, text) = text
            .strip_prefix("property '")
            .and_then(|t| t.split_once("': "))
            .expect("a diagnostic names its property");
        split_refusals[name.parse::<usize>().unwrap()] = Some(split_refusal(text));
    }

    let mut seen: Vec<(usize, MonNode)> = Vec::new();
    for (number, rule) in book.rules.iter().enumerate() {
        let kind = if rule.assumption { 'A' } else { 'P' };
        write!(out, "rule\t{number}\t").unwrap();
        out.extend_from_slice(rule.label);
        match &plans[number] {
            Err(refusal) => writeln!(out, "\t{kind}\t{refusal}\t-\t-\t-").unwrap(),
            Ok(plan) => {
                let (first, count) = bits[number].expect("a compiled rule has a layout");
                write!(out, "\t{kind}\t0\t{first}\t{count}\t").unwrap();
                let root = one_letter(&plan.root);
                match seen.iter().find(|(_, other)| *other == root) {
                    Some((earlier, _)) => writeln!(out, "{earlier}").unwrap(),
                    None => {
                        writeln!(out, "-").unwrap();
                        seen.push((number, root));
                    }
                }
                node_lines(&plan.root, &mut 0, out);
            }
        }
        let spec = match rule.assumption {
            true => &None,
            false => &liveness.properties[places[number]],
        };
        match (spec, split_refusals[number]) {
            (Some(spec), None) => {
                out.extend_from_slice(b"live\t0\t");
                skeleton_text(&spec.skeleton, out);
                out.push(b'\n');
                for (index, obligation) in spec.obligations.iter().enumerate() {
                    write!(out, "owe\t{index}\t").unwrap();
                    match obligation {
                        LivenessObligation::Eventually { body } => {
                            out.extend_from_slice(b"E\t");
                            operand_text(body, out);
                        }
                        LivenessObligation::Until { left, right } => {
                            out.extend_from_slice(b"U\t");
                            operand_text(left, out);
                            out.push(b'\t');
                            operand_text(right, out);
                        }
                    }
                    out.push(b'\n');
                }
            }
            (None, Some(refusal)) => writeln!(out, "live\t{refusal}\t-").unwrap(),
            (None, None) => out.extend_from_slice(b"live\tnone\t-\n"),
            (Some(_), Some(_)) => unreachable!("split and refused"),
        }
    }
    plan_line(&encoding, out);

    let mut monitors: Vec<(usize, ReferenceMonitor)> = plans
        .iter()
        .enumerate()
        .filter_map(|(number, plan)| Some((number, ReferenceMonitor::new(plan.as_ref().ok()?))))
        .collect();
    let mut reports = 0;
    for step in &book.steps {
        for (number, monitor) in monitors.iter_mut() {
            if monitor.step(step.number as usize, &|signal| holds(signal, step.truths)) {
                let culprit = monitor.compare_state().trigger_step();
                writeln!(out, "report\t{}\t{number}\t{culprit}", step.number).unwrap();
                reports += 1;
            }
        }
    }
    writeln!(out, "end\t{reports}").unwrap();
}

pub fn refused_line(refused: Refused, out: &mut Vec<u8>) {
    writeln!(out, "refused\t{}\t{}", refused.number, refused.line).unwrap();
}

pub fn list(bytes: &[u8], whole: bool, out: &mut Vec<u8>) {
    match read(bytes) {
        Ok(book) => accepted(&book, whole, out),
        Err(refused) => refused_line(refused, out),
    }
}
