//! The listing of a book, and the lines of the programs slots and saves, by the words of document 01 and of document 02's orders alone, with
//! none of the source in it. Alarms are taken from their sentences ("some u", "some t"), with no monitor state: this shows where the
//! source and the documents part. The reader is the one of book.rs.
//!
//! Over a record with gaps, "step u-1" and "t to t+max(b,1)-1" count calls, and ranges and culprits go
//! by the step number of the call.

use std::fmt::Write;

use crate::book::{read, Book, Node, Rule, Step, Word};

/// Nodes of a rule in prefix order; a formula is the place of its first node.
struct Rulebook<'a> {
    nodes: &'a [Node],
}

impl Rulebook<'_> {
    fn word(&self, at: usize) -> Word {
        self.nodes[at].word
    }

    /// The place after the formula at `at`.
    fn after(&self, at: usize) -> usize {
        let mut due = 1;
        let mut place = at;
        while due > 0 {
            due = due - 1 + self.word(place).operands();
            place += 1;
        }
        place
    }

    fn left(&self, at: usize) -> usize {
        at + 1
    }

    fn right(&self, at: usize) -> usize {
        self.after(at + 1)
    }

    fn every(&self, at: usize, ok: impl Fn(Word) -> bool) -> bool {
        self.nodes[at..self.after(at)].iter().all(|n| ok(n.word))
    }

    fn pure(&self, at: usize) -> bool {
        use Word::*;
        self.every(at, |w| matches!(w, Var | In | Out | Not | And | Or | Implies))
    }

    fn has_liveness(&self, at: usize) -> bool {
        !self.every(at, |w| !matches!(w, Word::Eventually | Word::Until))
    }

    fn holds(&self, at: usize, truths: u64) -> bool {
        let part = |at| self.holds(at, truths);
        match self.word(at) {
            Word::Not => !part(at + 1),
            Word::And => part(self.left(at)) & part(self.right(at)),
            Word::Or => part(self.left(at)) | part(self.right(at)),
            Word::Implies => !part(self.left(at)) | part(self.right(at)),
            _ => truths & (1 << self.nodes[at].number) != 0,
        }
    }

    fn letters(node: Node) -> String {
        match node.word {
            Word::Var => format!("v{}", node.number),
            Word::In => format!("i{}", node.number),
            Word::Out => format!("o{}", node.number),
            Word::Not => "!".to_string(),
            Word::And => "&".to_string(),
            Word::Or => "|".to_string(),
            _ => unreachable!("not part of a text"),
        }
    }

    /// Prefix text; `implies` is `|!` in a signal and `>` elsewhere.
    fn text(&self, at: usize, implies: &str) -> String {
        self.nodes[at..self.after(at)]
            .iter()
            .map(|n| match n.word {
                Word::Implies => implies.to_string(),
                _ => Self::letters(*n),
            })
            .collect()
    }
}

#[derive(Clone, Copy)]
struct Range {
    from: u128,
    to: Option<u128>,
}

impl Range {
    fn has(&self, s: u64) -> bool {
        u128::from(s) >= self.from && self.to.map_or(true, |to| u128::from(s) <= to)
    }

    fn plus_one(&self) -> Range {
        Range {
            from: self.from + 1,
            to: self.to.map(|to| to + 1),
        }
    }
}

enum Check {
    Range { signal: usize, range: Range },
    Delayed { antecedent: usize, consequent: usize, range: Range },
    Obligation { bound: u64, trigger: Option<usize>, body: usize, range: Range },
    And(Box<Check>, Box<Check>),
    Or(Box<Check>, Box<Check>),
}

/// Nodes, or one of 11 to 19: a node's own conditions first, then the parts from the left.
fn compile(f: &Rulebook<'_>, at: usize, range: Range, under: bool) -> Result<Check, u32> {
    let once = Range { from: 0, to: Some(0) };
    let anchor = if under { range } else { once };
    let bound = f.nodes[at].number;
    let (one, left) = (at + 1, at + 1);
    let right = if f.word(at).operands() == 2 { f.right(at) } else { at };
    match f.word(at) {
        Word::Eventually | Word::Until => Err(19),
        Word::AlwaysFor if under => Err(11),
        Word::AlwaysFor if bound == 0 => Err(12),
        Word::AlwaysFor => {
            let to = Some(u128::from(bound) - 1);
            compile(f, one, Range { from: 0, to }, true)
        }
        Word::Always => compile(f, one, range, true),
        Word::Implies if !f.pure(left) => Err(13),
        Word::Implies if f.word(right) == Word::Within => {
            if !f.pure(right + 1) {
                return Err(14);
            }
            Ok(Check::Obligation {
                bound: f.nodes[right].number,
                trigger: Some(left),
                body: right + 1,
                range: anchor,
            })
        }
        Word::Implies if f.word(right) == Word::Next => {
            if !f.pure(right + 1) {
                return Err(15);
            }
            Ok(Check::Delayed {
                antecedent: left,
                consequent: right + 1,
                range: range.plus_one(),
            })
        }
        Word::Implies if !f.pure(right) => Err(16),
        Word::Within if !f.pure(one) => Err(14),
        Word::Within => Ok(Check::Obligation {
            bound,
            trigger: None,
            body: one,
            range: anchor,
        }),
        Word::Next if !f.pure(one) => Err(17),
        Word::Next => Ok(Check::Range {
            signal: one,
            range: range.plus_one(),
        }),
        Word::Not if !f.pure(one) => Err(18),
        Word::And | Word::Or => {
            let a = Box::new(compile(f, left, range, under)?);
            let b = Box::new(compile(f, right, range, under)?);
            Ok(match f.word(at) {
                Word::And => Check::And(a, b),
                _ => Check::Or(a, b),
            })
        }
        Word::Var | Word::In | Word::Out | Word::Not | Word::Implies => Ok(Check::Range { signal: at, range }),
    }
}

fn node_lines(f: &Rulebook<'_>, check: &Check, lines: &mut Vec<String>) {
    let id = lines.len();
    let end = |range: &Range| range.to.map_or("*".to_string(), |to| to.to_string());
    let signal = |at: usize| f.text(at, "|!");
    match check {
        Check::Range { signal: at, range } => {
            lines.push(format!("{id}\tC\t-\t{}\t{}\t{}\t-", range.from, end(range), signal(*at)));
        }
        Check::Delayed { antecedent, consequent, range } => lines.push(format!(
            "{id}\tD\t-\t{}\t{}\t{}\t{}",
            range.from,
            end(range),
            signal(*antecedent),
            signal(*consequent)
        )),
        Check::Obligation { bound, trigger, body, range } => lines.push(format!(
            "{id}\tB\t{bound}\t{}\t{}\t{}\t{}",
            range.from,
            end(range),
            trigger.map_or("T".to_string(), signal),
            signal(*body)
        )),
        Check::And(a, b) | Check::Or(a, b) => {
            let form = if matches!(check, Check::And(..)) { "A" } else { "O" };
            lines.push(format!("{id}\t{form}\t-\t-\t-\t-\t-"));
            node_lines(f, a, lines);
            node_lines(f, b, lines);
        }
    }
}

/// A node's own bits: pending, remaining, antecedent.
fn own_bits(check: &Check) -> [u64; 3] {
    match check {
        Check::Obligation { bound: 0, .. } | Check::Range { .. } => [0, 0, 0],
        Check::Delayed { .. } => [0, 0, 1],
        Check::Obligation { bound, .. } => {
            let values = u128::from(*bound) + 1;
            [1, (0..=64).find(|k| 1u128 << k >= values).unwrap(), 0]
        }
        Check::And(..) | Check::Or(..) => [0, 0, 0],
    }
}

/// The bits of each node, in prefix order.
fn pieces(check: &Check, out: &mut Vec<[u64; 3]>) {
    out.push(own_bits(check));
    if let Check::And(a, b) | Check::Or(a, b) = check {
        pieces(a, out);
        pieces(b, out);
    }
}

fn bits(check: &Check) -> u64 {
    let mut out = Vec::new();
    pieces(check, &mut out);
    out.iter().flatten().sum()
}

fn compile_all(rules: &[(&Rule<'_>, Rulebook<'_>)]) -> Vec<Result<Check, u32>> {
    let open = Range { from: 0, to: None };
    rules.iter().map(|(_, f)| compile(f, 0, open, false)).collect()
}

/// Order 1: the state takes ceil(log2(count)) bits, 0 for counts 0 and 1; a `states` line left out counts 0.
fn state_bits(book: &Book<'_>) -> u64 {
    let count = book.states.unwrap_or(0);
    (0..=16).find(|k| count <= 1 << k).unwrap()
}

/// The first bit of each slot, in order, behind the state; and of what follows the slots.
fn slot_starts(book: &Book<'_>) -> (Vec<u64>, u64) {
    let mut next = state_bits(book);
    let mut starts = Vec::new();
    for slot in &book.slots {
        starts.push(next);
        next += slot.width;
    }
    (starts, next)
}

/// State, slot, monitor and total bits, and bytes rounded up.
fn plan_line(book: &Book<'_>, checks: &[Result<Check, u32>]) -> String {
    let state = state_bits(book);
    let slots: u64 = book.slots.iter().map(|slot| slot.width).sum();
    let monitors: u64 = checks.iter().flatten().map(bits).sum();
    let total = state + slots + monitors;
    let bytes = (0..=total).find(|bytes| total <= 8 * bytes).unwrap();
    format!("plan\t{state}\t{slots}\t{monitors}\t{total}\t{bytes}\n")
}

/// Properties first, then assumptions, each in book order, behind the slots.
fn first_bits(book: &Book<'_>, rules: &[(&Rule<'_>, Rulebook<'_>)], checks: &[Result<Check, u32>]) -> Vec<u64> {
    let mut first_bit = vec![0; rules.len()];
    let (_, mut next_bit) = slot_starts(book);
    for assumption in [false, true] {
        for (k, check) in checks.iter().enumerate() {
            if let (Ok(check), true) = (check, rules[k].0.assumption == assumption) {
                first_bit[k] = next_bit;
                next_bit += bits(check);
            }
        }
    }
    first_bit
}

/// The node lines, and the same with v, i, o taken as one letter. Form letters are capitals, so i and o stand in signals only.
fn lines_of(f: &Rulebook<'_>, check: &Check) -> (Vec<String>, Vec<String>) {
    let mut lines = Vec::new();
    node_lines(f, check, &mut lines);
    let one_letter = lines.iter().map(|line| line.replace(['i', 'o'], "v")).collect();
    (lines, one_letter)
}

/// For each call of the record, whether the check alarms there; and its culprit once it has alarmed.
fn alarms(f: &Rulebook<'_>, check: &Check, record: &[Step]) -> (Vec<bool>, i64) {
    let calls = record.len();
    let at = |signal: usize, k: usize| f.holds(signal, record[k].truths);
    let none = (vec![false; calls], -1);
    match check {
        Check::Range { signal, range } => (
            (0..calls).map(|k| range.has(record[k].number) && !at(*signal, k)).collect(),
            -1,
        ),
        Check::Delayed { antecedent, consequent, range } => {
            let bad = |u: &usize| range.has(record[*u].number) && at(*antecedent, u - 1) && !at(*consequent, *u);
            match (1..calls).find(bad) {
                Some(first) => ((0..calls).map(|k| k >= first).collect(), -1),
                None => none,
            }
        }
        Check::Obligation { bound, trigger, body, range } => {
            let window = u128::from(*bound).max(1);
            // the length of the run without the body that starts at each call
            let mut run = vec![0u128; calls + 1];
            for k in (0..calls).rev() {
                run[k] = if at(*body, k) { 0 } else { run[k + 1] + 1 };
            }
            let bad = |t: &usize| {
                range.has(record[*t].number) && trigger.map_or(true, |g| at(g, *t)) && run[*t] >= window
            };
            match (0..calls).find(bad) {
                Some(t) => {
                    let end = t + window as usize - 1;
                    ((0..calls).map(|k| k >= end).collect(), record[t].number as i64)
                }
                None => none,
            }
        }
        Check::And(a, b) | Check::Or(a, b) => {
            let all = matches!(check, Check::Or(..));
            let parts = [alarms(f, a, record), alarms(f, b, record)];
            let now: Vec<bool> = (0..calls)
                .map(|k| if all { parts[0].0[k] && parts[1].0[k] } else { parts[0].0[k] || parts[1].0[k] })
                .collect();
            let culprit = match now.iter().position(|n| *n) {
                Some(first) => parts
                    .iter()
                    .filter(|(part, culprit)| part[first] && *culprit >= 0)
                    .map(|(_, culprit)| *culprit)
                    .min()
                    .unwrap_or(-1),
                None => -1,
            };
            (now, culprit)
        }
    }
}

/// Skeleton and obligations, or one of 20 to 23.
fn split(f: &Rulebook<'_>, at: usize, owed: &mut Vec<String>) -> Result<String, u32> {
    match f.word(at) {
        Word::Var | Word::In | Word::Out => Ok(format!("s{}", Rulebook::letters(f.nodes[at]))),
        Word::Not => Ok(format!("!{}", split(f, at + 1, owed)?)),
        Word::And | Word::Or | Word::Implies => {
            let sign = match f.word(at) {
                Word::And => '&',
                Word::Or => '|',
                _ => '>',
            };
            let left = split(f, f.left(at), owed)?;
            let right = split(f, f.right(at), owed)?;
            Ok(format!("{sign}{left}{right}"))
        }
        Word::Eventually => {
            if !f.pure(at + 1) {
                return Err(20);
            }
            owed.push(format!("E\t{}", f.text(at + 1, ">")));
            Ok(format!("#{}", owed.len() - 1))
        }
        Word::Until => {
            if !f.pure(f.left(at)) || !f.pure(f.right(at)) {
                return Err(21);
            }
            owed.push(format!("U\t{}\t{}", f.text(f.left(at), ">"), f.text(f.right(at), ">")));
            Ok(format!("#{}", owed.len() - 1))
        }
        _ if f.has_liveness(at + 1) => Err(22),
        _ => Err(23),
    }
}

fn rules_of<'a>(book: &'a Book<'_>) -> Vec<(&'a Rule<'a>, Rulebook<'a>)> {
    book.rules.iter().map(|r| (r, Rulebook { nodes: &r.nodes })).collect()
}

fn accepted(book: &Book<'_>) -> String {
    let rules = rules_of(book);
    let checks = compile_all(&rules);
    let first_bit = first_bits(book, &rules, &checks);

    let mut out = String::new();
    let mut earlier: Vec<(usize, Vec<String>)> = Vec::new();
    for (k, (rule, f)) in rules.iter().enumerate() {
        let label = std::str::from_utf8(rule.label).unwrap();
        let kind = if rule.assumption { "A" } else { "P" };
        write!(out, "rule\t{k}\t{label}\t{kind}\t").unwrap();
        match &checks[k] {
            Err(refusal) => writeln!(out, "{refusal}\t-\t-\t-").unwrap(),
            Ok(check) => {
                let (lines, one_letter) = lines_of(f, check);
                let alike = earlier.iter().find(|(_, other)| *other == one_letter);
                let alike = alike.map_or("-".to_string(), |(number, _)| number.to_string());
                writeln!(out, "0\t{}\t{}\t{alike}", first_bit[k], bits(check)).unwrap();
                for line in &lines {
                    writeln!(out, "node\t{line}").unwrap();
                }
                earlier.push((k, one_letter));
            }
        }
        let mut owed = Vec::new();
        if rule.assumption || !f.has_liveness(0) {
            out.push_str("live\tnone\t-\n");
        } else {
            match split(f, 0, &mut owed) {
                Ok(skeleton) => {
                    writeln!(out, "live\t0\t{skeleton}").unwrap();
                    for (index, line) in owed.iter().enumerate() {
                        writeln!(out, "owe\t{index}\t{line}").unwrap();
                    }
                }
                Err(refusal) => writeln!(out, "live\t{refusal}\t-").unwrap(),
            }
        }
    }
    out.push_str(&plan_line(book, &checks));

    let mut reports: Vec<(usize, usize, i64)> = Vec::new();
    for (k, check) in checks.iter().enumerate() {
        if let Ok(check) = check {
            let (alarm, culprit) = alarms(&rules[k].1, check, &book.steps);
            if let Some(call) = alarm.iter().position(|now| *now) {
                reports.push((call, k, culprit));
            }
        }
    }
    reports.sort();
    for (call, k, culprit) in &reports {
        writeln!(out, "report\t{}\t{k}\t{culprit}", book.steps[*call].number).unwrap();
    }
    writeln!(out, "end\t{}", reports.len()).unwrap();
    out
}

/// The lines of the program slots.
fn accepted_slots(book: &Book<'_>) -> String {
    let rules = rules_of(book);
    let checks = compile_all(&rules);
    let first_bit = first_bits(book, &rules, &checks);
    let (mut out, mut pairs) = (plan_line(book, &checks), String::new());
    let (starts, _) = slot_starts(book);
    for (j, (slot, start)) in book.slots.iter().zip(starts).enumerate() {
        writeln!(out, "var\t{j}\t{start}\t{}", slot.width).unwrap();
    }
    let mut earlier: Vec<(usize, Vec<String>)> = Vec::new();
    for (k, (_, f)) in rules.iter().enumerate() {
        let Ok(check) = &checks[k] else { continue };
        writeln!(out, "rule\t{k}\t{}\t{}\t{}", first_bit[k], bits(check), bits(check)).unwrap();
        let (mut own, mut offset) = (Vec::new(), 0);
        pieces(check, &mut own);
        for (j, [pending, remaining, antecedent]) in own.iter().enumerate() {
            writeln!(out, "slot\t{k}\t{j}\t{offset}\t{pending}\t{remaining}\t{antecedent}").unwrap();
            offset += pending + remaining + antecedent;
        }
        let (_, one_letter) = lines_of(f, check);
        for (q, _) in earlier.iter().filter(|(_, other)| *other == one_letter) {
            writeln!(pairs, "alike\t{q}\t{k}").unwrap();
        }
        earlier.push((k, one_letter));
    }
    out + &pairs
}

// ---- order 3: a monitor's state in the bits of its layout

/// A window of an obligation: the call that opens it, and the first call from there on at which its body holds.
struct Window {
    opened: usize,
    answered: Option<usize>,
}

/// A node of a rule over a record: at which calls it alarms, its windows, its parts by their numbers.
struct Traced<'a> {
    check: &'a Check,
    alarm: Vec<bool>,
    windows: Vec<Window>,
    parts: Vec<usize>,
}

/// A window opens at an in-range trigger when none is open and the obligation has not failed.
fn windows(f: &Rulebook<'_>, check: &Check, record: &[Step]) -> Vec<Window> {
    let mut out = Vec::new();
    let Check::Obligation { bound, trigger, body, range } = check else { return out };
    let holds = |signal: usize, k: usize| f.holds(signal, record[k].truths);
    let mut free = 0;
    for opened in 0..record.len() {
        let triggered = range.has(record[opened].number) && trigger.map_or(true, |g| holds(g, opened));
        if opened < free || !triggered {
            continue;
        }
        let answered = (opened..record.len()).find(|k| holds(*body, *k));
        out.push(Window { opened, answered });
        match answered {
            Some(k) if ((k - opened) as u64) < (*bound).max(1) => free = k + 1,
            _ => break, // it fails, or is open to the end
        }
    }
    out
}

/// The nodes in prefix order.
fn trace<'a>(f: &Rulebook<'_>, check: &'a Check, record: &[Step], out: &mut Vec<Traced<'a>>) {
    let place = out.len();
    let windows = windows(f, check, record);
    out.push(Traced { check, alarm: Vec::new(), windows, parts: Vec::new() });
    if let Check::And(a, b) | Check::Or(a, b) = check {
        let left = out.len();
        trace(f, a, record, out);
        let right = out.len();
        trace(f, b, record, out);
        let both = |k: usize| [out[left].alarm[k], out[right].alarm[k]];
        let alarm = (0..record.len())
            .map(|k| match check {
                Check::And(..) => both(k).contains(&true),
                _ => !both(k).contains(&false),
            })
            .collect();
        out[place].alarm = alarm;
        out[place].parts = vec![left, right];
    } else {
        out[place].alarm = alarms(f, check, record).0;
    }
}

/// The culprit of a node after so many calls, all culprits being minus 1 and all marks unset before call `since`.
fn culprit(nodes: &[Traced<'_>], id: usize, since: usize, calls: usize, record: &[Step]) -> i64 {
    let node = &nodes[id];
    let step = |k: usize| record[k].number as i64;
    let first_alarm = || (since..calls).find(|k| node.alarm[*k]);
    match node.check {
        Check::Range { .. } | Check::Delayed { .. } => -1,
        Check::Obligation { bound: 0, .. } => first_alarm().map_or(-1, step),
        Check::Obligation { .. } => {
            let latest = node.windows.iter().rev().map(|w| w.opened).find(|t| *t < calls);
            latest.filter(|t| since <= *t).map_or(-1, step)
        }
        Check::And(..) | Check::Or(..) => {
            let Some(k) = first_alarm() else { return -1 };
            let parts = node.parts.iter().filter(|part| nodes[**part].alarm[k]);
            let blamed = parts.map(|part| culprit(nodes, *part, since, k + 1, record));
            blamed.filter(|c| *c >= 0).min().unwrap_or(-1)
        }
    }
}

/// The call at which the root, an obligation or a delayed check first fails: after it nothing is saved.
fn first_failure(nodes: &[Traced<'_>]) -> Option<usize> {
    let counts = |id: usize| id == 0 || matches!(nodes[id].check, Check::Delayed { .. } | Check::Obligation { .. });
    let first = |node: &Traced<'_>| node.alarm.iter().position(|now| *now);
    (0..nodes.len()).filter(|id| counts(*id)).filter_map(|id| first(&nodes[id])).min()
}

fn bytes_needed(nodes: &[Traced<'_>]) -> usize {
    let bits: u64 = nodes.iter().flat_map(|node| own_bits(node.check)).sum();
    (0..).find(|bytes| bits <= 8 * *bytes as u64).unwrap()
}

/// The state after so many calls: pending, then remaining from its lowest bit, zero where nothing is pending; a delayed check's antecedent at
/// the last call. Bit k is bit k mod 8, lowest first, of byte k div 8.
fn state_bytes(f: &Rulebook<'_>, nodes: &[Traced<'_>], calls: usize, record: &[Step]) -> Vec<u8> {
    let mut bits = Vec::new();
    for node in nodes {
        match node.check {
            Check::Delayed { antecedent, .. } => {
                bits.push(calls > 0 && f.holds(*antecedent, record[calls - 1].truths));
            }
            Check::Obligation { bound, .. } if *bound > 0 => {
                let latest = node.windows.iter().rev().find(|w| w.opened < calls);
                let open = latest.filter(|w| w.answered.map_or(true, |k| calls <= k));
                // each call from the opening on was one without the body
                let remaining = open.map_or(0, |w| bound - (calls - w.opened) as u64);
                bits.push(open.is_some());
                bits.extend((0..own_bits(node.check)[1]).map(|k| remaining >> k & 1 == 1));
            }
            _ => {}
        }
    }
    let mut bytes = vec![0; bytes_needed(nodes)];
    for (k, _) in bits.iter().enumerate().filter(|(_, bit)| **bit) {
        bytes[k / 8] |= 1 << (k % 8);
    }
    bytes
}

/// No pending remaining outside 1 to the bound, no remaining without pending, no unused bit set: else 27.
fn readable(nodes: &[Traced<'_>], bytes: &[u8]) -> bool {
    let bit = |k: u64| bytes[(k / 8) as usize] & (1 << (k % 8)) != 0;
    let mut at = 0;
    for node in nodes {
        let [pending, remaining, antecedent] = own_bits(node.check);
        if let (Check::Obligation { bound, .. }, 1) = (node.check, pending) {
            let left: u64 = (0..remaining).filter(|k| bit(at + 1 + k)).map(|k| 1 << k).sum();
            let allowed = if bit(at) { 1..=*bound } else { 0..=0 };
            if !allowed.contains(&left) {
                return false;
            }
        }
        at += pending + remaining + antecedent;
    }
    (at..8 * bytes.len() as u64).all(|k| !bit(k))
}

fn hex(bytes: &[u8]) -> String {
    if bytes.is_empty() {
        return "-".to_string();
    }
    bytes.iter().map(|byte| format!("{byte:02x}")).collect()
}

/// The lines of one rule of the program saves. Monitor B reports at the same calls as A; its culprits follow the usual rule from minus 1.
fn rule_saves(f: &Rulebook<'_>, number: usize, check: &Check, record: &[Step], out: &mut String) {
    let mut nodes = Vec::new();
    trace(f, check, record, &mut nodes);
    let failure = first_failure(&nodes);
    let report = nodes[0].alarm.iter().position(|now| *now);
    let need = bytes_needed(&nodes);
    let mut since = 0;
    for calls in 0..=record.len() {
        let failed = failure.is_some_and(|k| k < calls);
        let refusal = if failed { 26 } else { 0 };
        let bytes = if failed { Vec::new() } else { state_bytes(f, &nodes, calls, record) };
        writeln!(out, "save\t{number}\t{calls}\t{refusal}\t{}\tkept", hex(&bytes)).unwrap();
        if calls < 4 && (1..=4).contains(&bytes.len()) {
            let mark = |k: usize| {
                let mut flipped = bytes.clone();
                flipped[k / 8] ^= 1 << (k % 8);
                if readable(&nodes, &flipped) { '.' } else { 'x' }
            };
            let marks: String = (0..8 * bytes.len()).map(mark).collect();
            writeln!(out, "flip\t{number}\t{calls}\t{marks}").unwrap();
        }
        if (calls + number) % 3 == 1 {
            let restored = if failed { "-" } else { "0" };
            writeln!(out, "back\t{number}\t{calls}\t{refusal}\t{restored}\t{}\tkept", hex(&bytes)).unwrap();
            if !failed {
                since = calls;
            }
        }
        if let Some(step) = record.get(calls) {
            let answer = if report == Some(calls) { 100 } else { 0 };
            let [a, b] = [0, since].map(|since| culprit(&nodes, 0, since, calls + 1, record));
            writeln!(out, "told\t{number}\t{}\t{answer}\t{a}\t{answer}\t{b}", step.number).unwrap();
        }
    }
    for id in 0..nodes.len() {
        let [a, b] = [0, since].map(|since| culprit(&nodes, id, since, record.len(), record));
        writeln!(out, "blame\t{number}\t{id}\t{a}\t{b}").unwrap();
    }
    if need == 1 {
        let read: Vec<u8> = (0..=255).filter(|byte| readable(&nodes, &[*byte])).collect();
        writeln!(out, "reads\t{number}\t{}", hex(&read)).unwrap();
    }
    // fewer lent bytes than needed come before 26 and 27
    let short = match (need, failure) {
        (0, None) => [0, 0],
        (0, Some(_)) => [26, 0],
        _ => [1, 1],
    };
    writeln!(out, "short\t{number}\t{need}\t{}\t{}\tkept", short[0], short[1]).unwrap();
}

/// The lines of the program saves.
fn accepted_saves(book: &Book<'_>) -> String {
    let rules = rules_of(book);
    let mut out = String::new();
    for (number, check) in compile_all(&rules).iter().enumerate() {
        if let Ok(check) = check {
            rule_saves(&rules[number].1, number, check, &book.steps, &mut out);
        }
    }
    out
}

fn answer(bytes: &[u8], accepted: fn(&Book<'_>) -> String, out: &mut Vec<u8>) {
    match read(bytes) {
        Ok(book) => out.extend_from_slice(accepted(&book).as_bytes()),
        Err(refused) => crate::listing::refused_line(refused, out),
    }
}

pub fn list(bytes: &[u8], out: &mut Vec<u8>) {
    answer(bytes, accepted, out)
}

pub fn slots(bytes: &[u8], out: &mut Vec<u8>) {
    answer(bytes, accepted_slots, out)
}

pub fn saves(bytes: &[u8], out: &mut Vec<u8>) {
    answer(bytes, accepted_saves, out)
}
