//! A second playback of the memory, written from docs/RULES.md, docs/FORMAT.md and docs/REFUSALS.md alone. See README.md.

mod bank;
mod generate;
mod join;
mod laws;
mod pairing;
mod playback;
mod pool;
mod refusal;
mod selftest;

use std::io::{Read, Write};
use std::process::exit;

use bank::{Bank, Flat, Lane, Quota};
use pairing::{Greedy, Pairing, SplitMesher};
use playback::{Answer, Command};
use pool::Pool;

const USAGE: &str = "reference play | generate SEED | generate-all FIRST LAST DIR | census FIRST LAST | \
                     laws FIRST LAST | selftest";

fn number(text: Option<&String>) -> u64 {
    match text.and_then(|t| t.parse().ok()) {
        Some(number) => number,
        None => {
            eprintln!("{}", USAGE);
            exit(2)
        }
    }
}

fn put(bytes: &[u8]) {
    let mut out = std::io::stdout().lock();
    out.write_all(bytes).and_then(|_| out.flush()).expect("standard output");
}

fn main() {
    let words: Vec<String> = std::env::args().skip(1).collect();
    match words.first().map(String::as_str) {
        Some("play") => {
            let mut list = Vec::new();
            std::io::stdin().lock().take(playback::LIMIT as u64).read_to_end(&mut list).expect("standard input");
            put(playback::listing(&list).as_bytes());
        }
        Some("generate") => put(&generate::list(number(words.get(1)))),
        Some("generate-all") => {
            let directory = words.get(3).expect(USAGE);
            let mut commands = 0;
            for seed in number(words.get(1))..=number(words.get(2)) {
                let list = generate::list(seed);
                let listing = playback::listing(&list);
                commands += listing.lines().count() - 1;
                std::fs::write(format!("{}/{}.in", directory, seed), &list).expect("a list is written");
                std::fs::write(format!("{}/{}.out", directory, seed), listing).expect("a listing is written");
            }
            println!("{}", commands);
        }
        Some("census") => census(number(words.get(1)), number(words.get(2))),
        Some("laws") => all_laws(number(words.get(1)), number(words.get(2))),
        Some("selftest") => {
            selftest::all();
            println!("selftest: all as docs/RULES.md and docs/FORMAT.md say");
        }
        _ => {
            eprintln!("{}", USAGE);
            exit(2)
        }
    }
}

// ---- census ----

fn census(first: u64, last: u64) {
    const LETTERS: &str = "NWRFPDMC";
    let mut accepted = [0u64; 8];
    let mut refused = [0u64; 8];
    let mut refusals = [0u64; 16];
    let mut lists_with = [0u64; 16];
    let (mut lists, mut bytes, mut commands) = (0u64, 0u64, 0u64);
    let (mut at_limit, mut over_limit, mut empty) = (0u64, 0u64, 0u64);
    let (mut opened, mut merges, mut copied, mut emptied) = (0u64, 0u64, 0u64, 0u64);
    let (mut several, mut most_merges, mut all_out, mut both_out) = (0u64, 0u32, 0u64, 0u64);
    for seed in first..=last {
        let list = generate::list(seed);
        lists += 1;
        bytes += list.len() as u64;
        at_limit += (list.len() == playback::LIMIT) as u64;
        over_limit += (list.len() > playback::LIMIT) as u64;
        empty += list.is_empty() as u64;
        let mut memory = vec![0; 8 * 1024];
        let mut pool = Pool::open(Flat::new(&mut memory), Greedy, 1);
        let mut here = [false; 16];
        playback::run(&mut pool, &list, |event, pool| {
            commands += 1;
            let letter = LETTERS.find(playback::letter(&event.command));
            match &event.answer {
                Ok(answer) => {
                    accepted[letter.expect("a letter")] += 1;
                    match answer {
                        Answer::New(_, o) => opened += *o as u64,
                        Answer::Delete(e) => emptied += *e as u64,
                        Answer::Mesh(m, b) => {
                            merges += *m as u64;
                            copied += *b as u64;
                            several += (*m > 1) as u64;
                            most_merges = most_merges.max(*m);
                        }
                        _ => {}
                    }
                }
                Err(refusal) => {
                    if let Some(letter) = letter {
                        refused[letter] += 1;
                    }
                    let number = refusal.number() as usize;
                    refusals[number] += 1;
                    here[number] = true;
                    if number == 12 && pool.count().0 == 8 {
                        both_out += 1;
                    }
                }
            }
            all_out += (event.frames == 8) as u64;
        });
        for number in 0..16 {
            lists_with[number] += here[number] as u64;
        }
    }
    println!("lists {} (seeds {} to {}), bytes {}, commands {}", lists, first, last, bytes, commands);
    println!("empty lists {}, of exactly 65536 bytes {}, longer {}", empty, at_limit, over_limit);
    println!("letter accepted refused");
    let mut missing = false;
    for (i, letter) in LETTERS.chars().enumerate() {
        println!("{} {} {}", letter, accepted[i], refused[i]);
        if accepted[i] == 0 {
            println!("MISSING: no accepted {}", letter);
            missing = true;
        }
    }
    println!("refusal times lists");
    for number in 1..16 {
        println!("{} {} {}", number, refusals[number], lists_with[number]);
        let met = ![6, 7, 8, 15].contains(&number);
        if met != (refusals[number] > 0) {
            println!("{}: refusal {}", if met { "MISSING" } else { "UNDUE" }, number);
            missing = true;
        }
    }
    println!("spans opened {}, merges {}, bytes copied {}, frames emptied {}", opened, merges, copied, emptied);
    println!("meshes of several merges {}, most merges in one {}", several, most_merges);
    println!("commands that left all 8 frames out {}, SPANS with nothing spare {}", all_out, both_out);
    if several == 0 || all_out == 0 || both_out == 0 || at_limit == 0 || over_limit == 0 {
        println!("MISSING: one of these kinds of list");
        missing = true;
    }
    if missing {
        exit(1);
    }
}

// ---- laws ----

/// Plays a list over a pool, testing the laws on the way, and answers the end: frames, readings, listing.
fn lawful<B: Bank, P: Pairing>(bank: B, pairing: P, seed: u32, list: &[u8]) -> (Vec<u8>, laws::Book, String) {
    let mut pool = Pool::open(bank, pairing, seed);
    let mut book = laws::Book::default();
    let mut text = String::new();
    let mut events = 0usize;
    playback::run(&mut pool, list, |event, pool| {
        book.hear(event);
        text.push_str(&playback::line(event));
        events += 1;
        let merged = matches!(event.answer, Ok(Answer::Mesh(m, _)) if m > 0);
        if events % 64 == 0 || (merged && events % 4 == 0) {
            laws::test(pool, &book);
        }
    });
    laws::test(&pool, &book);
    let reading = laws::reading(&pool, &book.first);
    assert!(reading.iter().map(|(l, (r, _))| (*l, r)).eq(book.strings.iter().map(|(l, s)| (*l, s))));
    assert!(reading.values().all(|(r, f)| r == f));
    (laws::all_frames(&pool), book, text)
}

/// The same calls with some written values changed.
fn altered(list: &[u8], dice: &mut generate::Dice) -> Vec<u8> {
    let rare = if dice.chance(50) { 1 } else { 30 };
    let mut result = Vec::new();
    let mut at = 0;
    while at < list.len() {
        match playback::decode(&list[at..]) {
            Ok((Command::Write { label, offset, count, value }, width)) => {
                let value = if dice.chance(rare) { value ^ 0x40 } else { value };
                playback::encode(&Command::Write { label, offset, count, value }, &mut result);
                at += width;
            }
            Ok((command, width)) => {
                playback::encode(&command, &mut result);
                at += width;
            }
            Err(_) => {
                result.extend(&list[at..]);
                break;
            }
        }
    }
    result
}

fn all_laws(first: u64, last: u64) {
    let (mut equal, mut unequal) = (0, 0);
    for seed in first..=last {
        let list = generate::list(seed);
        let mut dice = generate::Dice::new(seed ^ 0xABCD_0000_0000);
        let frames = if dice.chance(50) { 8 } else { dice.range(1, 64) };
        let limit = if dice.chance(50) { 255 } else { dice.range(0, frames) as u8 };
        let pool_seed = dice.range(0, 5) as u32;
        let t = dice.range(0, 20) as u8;
        let split_seed = dice.range(0, 1000) as u32;
        let other = altered(&list, &mut dice);
        let greedy = dice.chance(50);
        let play = |kind: usize, list: &[u8]| {
            let mut memory = vec![1; 1024 * frames];
            let (mut even, mut odd) = (vec![2; 512 * frames], vec![3; 512 * frames]);
            match (kind, greedy) {
                (0, true) => lawful(Quota::new(Flat::new(&mut memory), limit), Greedy, pool_seed, list),
                (1, true) => {
                    lawful(Quota::new(Quota::new(Lane::new(&mut even, &mut odd), 250), limit), Greedy, pool_seed, list)
                }
                (0, false) => {
                    let split = SplitMesher::new(split_seed, t);
                    lawful(Quota::new(Flat::new(&mut memory), limit), split, pool_seed, list)
                }
                (_, _) => {
                    let split = SplitMesher::new(split_seed, t);
                    lawful(Quota::new(Lane::new(&mut even, &mut odd), limit), split, pool_seed, list)
                }
            }
        };
        // the same over flat and lane memory
        let (flat_frames, flat_book, flat_text) = play(0, &list);
        let (lane_frames, _, lane_text) = play(1, &list);
        assert_eq!(flat_text, lane_text, "seed {}", seed);
        assert!(flat_frames == lane_frames, "seed {}", seed);
        // frames are equal exactly when readings are
        let (other_frames, other_book, _) = play(0, &other);
        let alike = flat_book.strings == other_book.strings;
        assert_eq!(alike, flat_frames == other_frames, "seed {}", seed);
        if alike {
            equal += 1;
        } else {
            unequal += 1;
        }
    }
    println!(
        "laws hold for seeds {} to {}; of the altered lists {} read alike and {} did not",
        first, last, equal, unequal
    );
}
