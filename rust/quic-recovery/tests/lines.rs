//! Lines through the crate, compared with the output of the program.
mod common;

use common::{answers, answers_of, fresh, program, root, Events};
use std::collections::BTreeSet;
use std::fs;

/// The number of random events, unless `QUIC_RECOVERY_EVENTS` sets it.
const EVENTS: usize = 1_000_000;

/// How many events one recovery takes.
const EACH: usize = 5_000;

fn lines_of(text: &str) -> Vec<String> {
    text.lines().map(str::to_owned).collect()
}

/// The examples of the repository, each with the output of the program.
#[test]
fn examples() {
    let mut seen = 0;
    for entry in fs::read_dir(root().join("examples")).unwrap() {
        let path = entry.unwrap().path();
        if path.extension().is_some_and(|it| it == "txt") {
            let script = lines_of(&fs::read_to_string(&path).unwrap());
            let wanted = lines_of(&fs::read_to_string(path.with_extension("out")).unwrap());
            let found = answers(&mut fresh(None, None), &script);
            assert_eq!(found, wanted, "{}", path.display());
            seen += 1;
        }
    }
    assert!(seen > 5);
}

/// Random events. Without the proved program there is nothing to compare with, and the test fails.
#[test]
fn random_events() {
    let program = program().expect("there is no proved program: ./prove builds it");
    let count = std::env::var("QUIC_RECOVERY_EVENTS").ok();
    let count = count.map_or(EVENTS, |it| it.parse().unwrap());
    for seed in 0..(count / EACH) as u64 {
        let script = Events::new(seed).lines(EACH);
        let window = (seed % 3 == 2).then_some(10_000 + 1000 * seed);
        let seed = (seed % 2 == 1).then_some(seed);
        let found = answers(&mut fresh(seed, window), &script);
        let wanted = answers_of(&program, seed, window, &script);
        for (at, (found, wanted)) in found.iter().zip(&wanted).enumerate() {
            assert_eq!(found, wanted, "seed {seed:?}, line {at}: {}", script[at]);
        }
        assert_eq!(found.len(), wanted.len());
    }
}

/// Kinds of replies: each answer, and each error but `NoMemory`, exhausted packet numbers and disabled connection IDs.
const KINDS: &str = "new duplicate sent acked lost retire yes no timeout in-flight transmitted blocked delayed ready probe \
    black-hole sendable queue done NumberTooLarge NotTracked SpaceDiscarded NoSuchPath Searching ZeroMtu Overflow Retired \
    ExceedsLimit BadRetirePriorTo UnissuedCid DelayTooSmall SkippedAcked Ecn NotInitialId BadRange Conflict";

/// The compared events are of all kinds.
#[test]
fn random_events_come_to_all() {
    let mut seen = BTreeSet::new();
    for seed in 0..20 {
        let script = Events::new(seed).lines(EACH);
        for answer in answers(&mut fresh(Some(seed), None), &script) {
            let mut words = answer.split(' ');
            let kind = match words.next() {
                Some("refused") => words.nth(1),
                other => other,
            };
            seen.insert(kind.unwrap().to_owned());
        }
    }
    let wanted: BTreeSet<String> = KINDS.split(' ').map(str::to_owned).collect();
    assert_eq!(seen, wanted);
}
