//! The book (document 01, "The book" and refusals 3 to 10; document 02, order 1: opening lines and 25): bytes to
//! opening lines, rules and step lines.
//! A formula is kept as its node lines in prefix order.

#[derive(Debug, Clone, Copy, PartialEq, Eq)]
pub enum Word {
    Var,
    In,
    Out,
    Not,
    Next,
    Always,
    Eventually,
    AlwaysFor,
    Within,
    And,
    Or,
    Implies,
    Until,
}

impl Word {
    pub fn operands(self) -> usize {
        use Word::*;
        match self {
            Var | In | Out => 0,
            Not | Next | Always | Eventually | AlwaysFor | Within => 1,
            And | Or | Implies | Until => 2,
        }
    }

    fn is_atom(self) -> bool {
        self.operands() == 0
    }

    fn has_number(self) -> bool {
        self.is_atom() || matches!(self, Word::AlwaysFor | Word::Within)
    }
}

/// One node line; `number` is a signal or a bound, 0 where the word has none.
#[derive(Debug, Clone, Copy, PartialEq, Eq)]
pub struct Node {
    pub word: Word,
    pub number: u64,
}

/// A `slot` line: room for one variable of the instrument's.
#[derive(Debug, Clone, Copy)]
pub struct Slot<'a> {
    pub name: &'a [u8],
    pub width: u64,
}

#[derive(Debug, Clone)]
pub struct Rule<'a> {
    pub label: &'a [u8],
    pub assumption: bool,
    pub nodes: Vec<Node>,
}

#[derive(Debug, Clone, Copy)]
pub struct Step {
    pub number: u64,
    pub truths: u64,
}

/// `states` is the count of the `states` line, where one stands.
#[derive(Debug, Clone, Default)]
pub struct Book<'a> {
    pub states: Option<u64>,
    pub slots: Vec<Slot<'a>>,
    pub rules: Vec<Rule<'a>>,
    pub steps: Vec<Step>,
}

#[derive(Debug, Clone, Copy, PartialEq, Eq)]
pub struct Refused {
    pub number: u32,
    pub line: usize,
}

const BYTES: usize = 65_535;
const RULES: usize = 64;
const RULE_NODES: usize = 256;
const BOOK_NODES: usize = 1_024;
const DEPTH: usize = 64;
const SIGNALS: u64 = 64;
const LABEL: usize = 32;
const STATES: u64 = 65_535;
const SLOTS: usize = 32;
const WIDTH: u64 = 64;

fn node_word(text: &[u8]) -> Option<Word> {
    Some(match text {
        b"var" => Word::Var,
        b"in" => Word::In,
        b"out" => Word::Out,
        b"not" => Word::Not,
        b"next" => Word::Next,
        b"always" => Word::Always,
        b"eventually" => Word::Eventually,
        b"always-for" => Word::AlwaysFor,
        b"within" => Word::Within,
        b"and" => Word::And,
        b"or" => Word::Or,
        b"implies" => Word::Implies,
        b"until" => Word::Until,
        _ => return None,
    })
}

/// Decimal, below 2^64, without leading zeros except `0`.
fn decimal(text: &[u8]) -> Option<u64> {
    if text.is_empty() || (text[0] == b'0' && text.len() > 1) {
        return None;
    }
    let mut value = 0u64;
    for &c in text {
        if !c.is_ascii_digit() {
            return None;
        }
        value = value.checked_mul(10)?.checked_add(u64::from(c - b'0'))?;
    }
    Some(value)
}

/// 16 lowercase hexadecimal digits.
fn truths(text: &[u8]) -> Option<u64> {
    if text.len() != 16 {
        return None;
    }
    let mut value = 0u64;
    for &c in text {
        let digit = match c {
            b'0'..=b'9' => c - b'0',
            b'a'..=b'f' => c - b'a' + 10,
            _ => return None,
        };
        value = value << 4 | u64::from(digit);
    }
    Some(value)
}

fn label_ok(text: &[u8]) -> bool {
    (1..=LABEL).contains(&text.len()) && text.iter().all(|c| (0x21..=0x7e).contains(c))
}

/// A book as it is being read. `lines` counts its lines, the one that is taken included. `due` holds the depths at which operands are
/// still to come, the next one last: the formula is unfinished while it is not empty.
#[derive(Default)]
struct Reading<'a> {
    book: Book<'a>,
    lines: usize,
    due: Vec<usize>,
    book_nodes: usize,
}

impl<'a> Reading<'a> {
    /// Takes one line; an `Err` is the first of 5, 6, 25, 7, 8, 9 that it meets.
    fn line(&mut self, line: &'a [u8]) -> Result<(), u32> {
        self.lines += 1;
        let mut fields: [&[u8]; 3] = [b""; 3];
        let mut count = 0;
        for field in line.split(|c| *c == b'\t') {
            if count < 3 {
                fields[count] = field;
            }
            count += 1;
        }
        match fields[0] {
            b"states" => {
                if count != 2 {
                    return Err(5);
                }
                self.states(fields[1])
            }
            b"slot" => {
                if count != 3 {
                    return Err(5);
                }
                self.slot(fields[1], fields[2])
            }
            b"rule" => {
                if count != 3 {
                    return Err(5);
                }
                self.rule(fields[1], fields[2])
            }
            b"step" => {
                if count != 3 {
                    return Err(5);
                }
                self.step(fields[1], fields[2])
            }
            other => {
                let word = node_word(other).ok_or(5u32)?;
                if count != 1 + usize::from(word.has_number()) {
                    return Err(5);
                }
                self.node(word, fields[1])
            }
        }
    }

    /// Whether no `rule` and no `step` line came before.
    fn opening(&self) -> bool {
        self.book.rules.is_empty() && self.book.steps.is_empty()
    }

    fn states(&mut self, count: &[u8]) -> Result<(), u32> {
        if !self.opening() {
            return Err(6);
        }
        if self.lines != 1 {
            return Err(25);
        }
        let count = decimal(count).filter(|n| *n <= STATES).ok_or(8u32)?;
        self.book.states = Some(count);
        Ok(())
    }

    fn slot(&mut self, name: &'a [u8], width: &[u8]) -> Result<(), u32> {
        if !self.opening() {
            return Err(6);
        }
        if self.book.slots.len() == SLOTS {
            return Err(25);
        }
        if !label_ok(name) {
            return Err(7);
        }
        let width = decimal(width).filter(|n| *n <= WIDTH).ok_or(8u32)?;
        self.book.slots.push(Slot { name, width });
        Ok(())
    }

    fn rule(&mut self, label: &'a [u8], kind: &[u8]) -> Result<(), u32> {
        if !self.due.is_empty() || !self.book.steps.is_empty() {
            return Err(6);
        }
        if !label_ok(label) || !(kind == b"P" || kind == b"A") {
            return Err(7);
        }
        if self.book.rules.len() == RULES {
            return Err(9);
        }
        self.book.rules.push(Rule {
            label,
            assumption: kind == b"A",
            nodes: Vec::new(),
        });
        self.due.push(1);
        Ok(())
    }

    fn node(&mut self, word: Word, number: &[u8]) -> Result<(), u32> {
        let Some(&depth) = self.due.last() else {
            return Err(6);
        };
        let number = if word.has_number() {
            let value = decimal(number).ok_or(8u32)?;
            if word.is_atom() && value >= SIGNALS {
                return Err(8);
            }
            value
        } else {
            0
        };
        let nodes = &mut self.book.rules.last_mut().unwrap().nodes;
        if nodes.len() == RULE_NODES || self.book_nodes == BOOK_NODES || depth > DEPTH {
            return Err(9);
        }
        nodes.push(Node { word, number });
        self.book_nodes += 1;
        self.due.pop();
        for _ in 0..word.operands() {
            self.due.push(depth + 1);
        }
        Ok(())
    }

    fn step(&mut self, number: &[u8], word: &[u8]) -> Result<(), u32> {
        if !self.due.is_empty() {
            return Err(6);
        }
        let number = decimal(number).filter(|s| *s < 1 << 63).ok_or(8u32)?;
        let truths = truths(word).ok_or(8u32)?;
        self.book.steps.push(Step { number, truths });
        Ok(())
    }
}

pub fn read(bytes: &[u8]) -> Result<Book<'_>, Refused> {
    if bytes.len() > BYTES {
        return Err(Refused { number: 3, line: 0 });
    }
    let Some((&last, text)) = bytes.split_last() else {
        return Ok(Book::default());
    };
    if last != b'\n' {
        return Err(Refused { number: 4, line: 0 });
    }
    let mut reading = Reading::default();
    for line in text.split(|c| *c == b'\n') {
        if let Err(number) = reading.line(line) {
            return Err(Refused { number, line: reading.lines });
        }
    }
    if !reading.due.is_empty() {
        return Err(Refused { number: 10, line: reading.lines });
    }
    Ok(reading.book)
}
