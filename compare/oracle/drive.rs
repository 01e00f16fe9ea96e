//! The driver: starts a program once for each book, gives it the book on standard input and holds
//! what it writes to the oracle's answer. Or it holds the documents' sentences (paper.rs) to them.

use std::fs::{self, File};
use std::io::{self, BufReader, Read, Write};
use std::path::Path;
use std::process::{Command, Stdio};
use std::sync::{Arc, Mutex};
use std::thread;
use std::time::{Duration, Instant};

use crate::frames;

const SHOWN: usize = 5;
const KEPT: usize = 50;
const LIMIT: Duration = Duration::from_secs(20);

pub enum Subject<'a> {
    Program(&'a str),
    Paper(fn(&[u8], &mut Vec<u8>)),
}

struct Work {
    books: BufReader<File>,
    answers: BufReader<File>,
    next: usize,
}

/// The child that a worker waits for, so that one that never ends can be ended. It is not yet reaped
/// while it stands here.
type Running = Arc<Mutex<Option<(Instant, u32)>>>;

fn run(program: &str, book: &[u8], running: &Running) -> io::Result<Vec<u8>> {
    let mut child = Command::new(program)
        .stdin(Stdio::piped())
        .stdout(Stdio::piped())
        .stderr(Stdio::inherit())
        .spawn()?;
    *running.lock().unwrap() = Some((Instant::now(), child.id()));
    let mut stdin = child.stdin.take().unwrap();
    let mut stdout = child.stdout.take().unwrap();
    let mut answer = Vec::new();
    if book.len() <= 60_000 {
        // fits into a pipe; a program that ends without reading it all is no error here
        let _ = stdin.write_all(book);
        drop(stdin);
        stdout.read_to_end(&mut answer)?;
    } else {
        thread::scope(|scope| {
            scope.spawn(move || {
                let _ = stdin.write_all(book);
            });
            stdout.read_to_end(&mut answer)
        })?;
    }
    *running.lock().unwrap() = None;
    let status = child.wait()?;
    if let Some(signal) = std::os::unix::process::ExitStatusExt::signal(&status) {
        answer.extend_from_slice(format!("(ended by signal {signal})\n").as_bytes());
    }
    Ok(answer)
}

fn show(text: &[u8]) -> String {
    let short = &text[..text.len().min(1_500)];
    let more = if short.len() < text.len() { "[..]\n" } else { "" };
    let shown: String = short
        .iter()
        .map(|c| match c {
            b'\n' => "\n".to_string(),
            b'\t' => "\t".to_string(),
            0x20..=0x7e => (*c as char).to_string(),
            _ => format!("\\x{c:02x}"),
        })
        .collect();
    format!("{shown}{more}")
}

fn first_difference(ours: &[u8], theirs: &[u8]) -> String {
    let mut a = ours.split(|c| *c == b'\n');
    let mut b = theirs.split(|c| *c == b'\n');
    let mut line = 1;
    loop {
        let (x, y) = (a.next(), b.next());
        if x != y {
            let text = |t: Option<&[u8]>| t.map_or("(nothing)\n".to_string(), |t| show(t) + "\n");
            return format!("line {line}\n  source: {}  other:  {}", text(y), text(x));
        }
        if x.is_none() {
            return "none".to_string();
        }
        line += 1;
    }
}

pub fn drive(subject: Subject<'_>, books: &Path, answers: &Path, folder: &Path, jobs: usize) -> io::Result<usize> {
    let _ = fs::remove_dir_all(folder);
    let work = Mutex::new(Work {
        books: BufReader::new(File::open(books)?),
        answers: BufReader::new(File::open(answers)?),
        next: 0,
    });
    let differences = Mutex::new(0usize);
    let slots: Vec<Running> = (0..jobs).map(|_| Running::default()).collect();
    let watched = slots.clone();
    thread::spawn(move || loop {
        thread::sleep(Duration::from_secs(1));
        for slot in &watched {
            let slot = slot.lock().unwrap();
            if let Some((started, id)) = *slot {
                if started.elapsed() > LIMIT {
                    let _ = Command::new("kill").args(["-9", &id.to_string()]).status();
                }
            }
        }
    });
    let worker = |running: &Running| -> io::Result<()> {
        loop {
            let (number, book, answer) = {
                let mut work = work.lock().unwrap();
                let Some(book) = frames::next(&mut work.books)? else {
                    return Ok(());
                };
                let answer = frames::next(&mut work.answers)?.ok_or(io::ErrorKind::UnexpectedEof)?;
                work.next += 1;
                (work.next, book, answer)
            };
            let got = match subject {
                Subject::Program(program) => run(program, &book, running)?,
                Subject::Paper(list) => {
                    let mut out = Vec::new();
                    list(&book, &mut out);
                    out
                }
            };
            if got == answer {
                continue;
            }
            let mut differences = differences.lock().unwrap();
            *differences += 1;
            if *differences <= SHOWN {
                let line = first_difference(&got, &answer);
                println!("book {number} ({} bytes) differs at {line}the book:\n{}", book.len(), show(&book));
            }
            if *differences <= KEPT {
                fs::create_dir_all(folder)?;
                fs::write(folder.join(format!("{number}.book")), &book)?;
                fs::write(folder.join(format!("{number}.source")), &answer)?;
                fs::write(folder.join(format!("{number}.other")), &got)?;
            }
        }
    };
    thread::scope(|scope| {
        let workers: Vec<_> = slots.iter().map(|slot| scope.spawn(|| worker(slot))).collect();
        workers.into_iter().try_for_each(|w| w.join().unwrap())
    })?;
    let count = work.lock().unwrap().next;
    let differences = *differences.lock().unwrap();
    if differences > 0 {
        println!("the first {} are in {}", differences.min(KEPT), folder.display());
    }
    println!("{count} books, {differences} differences");
    Ok(differences)
}
