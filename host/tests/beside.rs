//! The archive beside the crate: every line of every tape, the depth of every page, the whole page by asking, and the boxes' numbers in its
//! bands. In one run the crate is as it is, on the pages on which no call clears; in the other it is asked without clear, on the others.
//! HOST_TAPES=N runs N random tapes, HOST_SEED=N others.
#![cfg(has_taffy)]

use host::archive;
use host::driver::{Driver, Found};
use host::raised::Asking;
use host::random::Random;
use host::tape::{self, bytes, Record};
use host::tapes;
use std::time::Instant;

/// Random tapes in the gate's run.
const TAPES: u64 = 24_000;

fn from_environment(name: &str) -> Option<u64> {
    std::env::var(name).ok().map(|value| value.parse().unwrap_or_else(|_| panic!("{name} is no number: {value}")))
}

/// The tapes that are the same in every run.
fn fixed(driver: &mut Driver) -> Result<(), Found> {
    let troubled = tapes::troubled_pages();
    let faults = [0, 1].into_iter().flat_map(|clear| troubled.iter().flat_map(move |page| tapes::faults(page, clear)));
    for tape in tapes::short_pages().chain(tapes::longest()).chain(faults) {
        driver.tape(&tape)?;
    }
    for tape in tapes::damaged(tapes::of_every_kind()) {
        driver.tape(&tape)?;
    }
    driver.every_room(&tapes::of_every_kind())
}

const KINDS: [fn(&mut Random) -> Vec<Record>; 6] =
    [tapes::on_a_grid, tapes::wild, tapes::deep, tapes::many_bands, tapes::calculators, tapes::mixed];

/// Random tapes of each kind in turn, one in eight with the whole page asked, some in every room, some damaged.
fn random(driver: &mut Driver, random: &mut Random, count: u64) -> Result<(), Found> {
    for number in 0..count {
        driver.tape(&tapes::any_bytes(random))?;
        let records = KINDS[(number % 6) as usize](random);
        let tape = bytes(&records);
        driver.tape(&tape)?;
        if number / 6 % 8 == 0 {
            driver.asked(&records)?;
        }
        if number / 6 % 100 == 0 {
            driver.every_room(&tape[..tape.len().min(300)])?;
        }
        if number / 6 % 500 == 0 {
            for damaged in tapes::damaged(bytes(&records[..records.len().min(6)])) {
                driver.tape(&damaged)?;
            }
        }
    }
    Ok(())
}

/// The run of the pages for which the crate is asked so.
fn run(name: &str, asking: Asking) -> Driver {
    let seed = from_environment("HOST_SEED").unwrap_or(1);
    let count = from_environment("HOST_TAPES").unwrap_or(TAPES);
    let started = Instant::now();
    let mut driver = Driver::new(archive::functions(), asking);
    let outcome = fixed(&mut driver).and_then(|()| random(&mut driver, &mut Random(seed), count));
    if let Err(found) = outcome {
        let text = tape::text(&found.tape);
        let cut: String = text.lines().take(40).map(|line| format!("{line}\n")).collect();
        panic!("{name}, seed {seed}: archive and crate differ on this tape\n\n{cut}\n{}", found.report);
    }
    host::say(&format!("{name}, seed {seed}: {}, {:.1} s", driver.summary(), started.elapsed().as_secs_f64()));
    if count >= TAPES {
        let counts = driver.counts;
        assert!(counts.placements >= 1_000_000 && counts.questions >= 1_000_000, "{}", driver.summary());
        assert!(driver.touched >= 200_000 && driver.depths >= driver.pages, "{}", driver.summary());
        assert!((1..=8).chain([13]).all(|number| counts.refusals[number] > 0), "{}", driver.summary());
    }
    driver
}

/// Every page on which any call clears is left out.
#[test]
fn the_crate_as_it_is() {
    let driver = run("the crate as it is", Asking::AsItIs);
    assert_eq!(driver.counts.clearing, 0, "the crate was asked to clear");
}

/// The pages left out there, by the crate asked without clear at the raised min_y.
#[test]
fn clearing() {
    let driver = run("clearing", Asking::Raised);
    assert!(driver.counts.clearing >= 500_000 && driver.otherwise >= 10_000, "{}", driver.summary());
}
