//! Makes random events for SECONDS, and compares each answer with that of the proved program on the same lines.
//!
//!     cargo run --release --example fuzz -- SECONDS [SEED]
#[path = "../tests/common/mod.rs"]
mod common;

use common::{answers, answers_of, fresh, program, Events};
use std::process::exit;
use std::time::{Duration, Instant};

const EACH: usize = 20_000;

fn main() {
    let mut given = std::env::args().skip(1).map(|it| it.parse::<u64>());
    let (Some(Ok(seconds)), seed) = (given.next(), given.next()) else {
        eprintln!("usage: fuzz SECONDS [SEED]");
        exit(2);
    };
    let program = program();
    if program.is_none() {
        println!("there is no proved program to compare with (./prove builds it): only that nothing ends early is seen");
    }
    let (began, mut seed, mut events) = (Instant::now(), seed.and_then(Result::ok).unwrap_or(1), 0);
    while began.elapsed() < Duration::from_secs(seconds) {
        let script = Events::new(seed).lines(EACH);
        let found = answers(&mut fresh(Some(seed), None), &script);
        if let Some(program) = &program {
            let wanted = answers_of(program, Some(seed), None, &script);
            if let Some(at) = (0..EACH).find(|it| found.get(*it) != wanted.get(*it)) {
                let (found, wanted) = (found.get(at), wanted.get(at));
                println!("seed {seed}, line {at}: {}", script[at]);
                println!("{found:?}, and the program says {wanted:?}");
                exit(1);
            }
        }
        events += found.len();
        seed += 1;
    }
    match program {
        Some(_) => println!("{events} events, all as the program answers"),
        None => println!("{events} events, compared with nothing"),
    }
}
