//! The oracle: the source's compiling, stepping, layout and liveness behind our reader and printer.
//!     oracle                           one book on standard input, its listing on standard output
//!     oracle batch | slots | saves     books in, answers out, framed (frames.rs): listings, or the lines of the programs slots (slots.rs) and
//!                                      saves (saves.rs)
//!     oracle paper | paper-slots | paper-saves     the same by the documents' words alone (paper.rs)
//!     oracle bench N < BOOK            N listings of one book, ns for each
//!     oracle drive PROGRAM BOOKS ANSWERS FOLDER JOBS      (drive.rs)
//!     oracle hold paper | paper-slots | paper-saves BOOKS ANSWERS FOLDER JOBS     the same for paper.rs

mod codegen;
mod json {
    pub mod json_rw;
}
mod lang {
    pub mod ir;
}
mod mc {
    pub mod plan;
}
mod utils {
    pub mod hash;
}

mod book;
mod drive;
mod frames;
mod listing;
mod paper;
mod saves;
mod slots;

use std::hint::black_box;
use std::io::{self, BufReader, BufWriter, Read, Write};
use std::path::Path;
use std::process::exit;
use std::time::Instant;

use drive::Subject;

fn batch(list: impl Fn(&[u8], &mut Vec<u8>) + std::panic::RefUnwindSafe) -> io::Result<()> {
    let mut input = BufReader::new(io::stdin().lock());
    let mut output = BufWriter::new(io::stdout().lock());
    while let Some(book) = frames::next(&mut input)? {
        // a panic of the source is an answer that no program gives
        let answer = std::panic::catch_unwind(|| {
            let mut out = Vec::new();
            list(&book, &mut out);
            out
        })
        .unwrap_or_else(|_| b"panic\n".to_vec());
        frames::put(&mut output, &answer)?;
    }
    output.flush()
}

fn bench(rounds: u32) -> io::Result<()> {
    let mut book = Vec::new();
    io::stdin().lock().read_to_end(&mut book)?;
    let mut out = Vec::new();
    let mut best = u128::MAX;
    let started = Instant::now();
    for _ in 0..rounds {
        let one = Instant::now();
        out.clear();
        listing::list(black_box(&book), false, &mut out);
        black_box(&out);
        best = best.min(one.elapsed().as_nanos());
    }
    let mean = started.elapsed().as_nanos() / u128::from(rounds.max(1));
    println!("{mean} ns per listing (best {best}), {} bytes in, {} bytes out", book.len(), out.len());
    Ok(())
}

fn main() -> io::Result<()> {
    let words: Vec<String> = std::env::args().skip(1).collect();
    let words: Vec<&str> = words.iter().map(String::as_str).collect();
    match words[..] {
        [] => {
            let (mut book, mut out) = (Vec::new(), Vec::new());
            io::stdin().lock().read_to_end(&mut book)?;
            listing::list(&book, true, &mut out);
            io::stdout().lock().write_all(&out)
        }
        ["batch"] => batch(|book, out| listing::list(book, true, out)),
        ["slots"] => batch(slots::list),
        ["saves"] => batch(saves::list),
        ["paper"] => batch(paper::list),
        ["paper-slots"] => batch(paper::slots),
        ["paper-saves"] => batch(paper::saves),
        ["bench", rounds] => bench(rounds.parse().expect("a count")),
        ["drive", program, books, answers, folder, jobs] => {
            let jobs = jobs.parse().expect("a count");
            let differences =
                drive::drive(Subject::Program(program), Path::new(books), Path::new(answers), Path::new(folder), jobs)?;
            exit(i32::from(differences > 0))
        }
        ["hold", what @ ("paper" | "paper-slots" | "paper-saves"), books, answers, folder, jobs] => {
            let jobs = jobs.parse().expect("a count");
            let list = match what {
                "paper" => paper::list,
                "paper-slots" => paper::slots,
                _ => paper::saves,
            };
            let differences =
                drive::drive(Subject::Paper(list), Path::new(books), Path::new(answers), Path::new(folder), jobs)?;
            exit(i32::from(differences > 0))
        }
        _ => {
            eprintln!("see the top of compare/oracle/main.rs");
            exit(2)
        }
    }
}
