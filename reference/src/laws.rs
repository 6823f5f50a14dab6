//! The book, readings and the laws over runs (docs/RULES.md), tested on the way through a run.

use std::collections::{BTreeMap, BTreeSet};

use crate::bank::{Bank, FRAME};
use crate::pairing::Pairing;
use crate::playback::{Answer, Command, Event};
use crate::pool::{class_of, occupied, ones, slots_of, Pool, Span, LABELS, SLOT, SPANS};
use crate::refusal::Refusal;

/// What someone knows who sees arguments and answers, and nothing else.
#[derive(Default)]
pub struct Book {
    pub strings: BTreeMap<u8, Vec<u8>>,
    pub first: BTreeMap<u8, u32>,
    pub opened: u64,
    pub merges: u64,
    pub emptied: u64,
}

impl Book {
    pub fn hear(&mut self, event: &Event) {
        match (&event.command, &event.answer) {
            (Some(Command::New { label, length }), Ok(Answer::New(address, opened))) => {
                self.strings.insert(*label, vec![0; *length as usize]);
                self.first.insert(*label, *address);
                self.opened += *opened as u64;
            }
            (Some(Command::Write { label, offset, count, value }), Ok(Answer::Write(taken))) => {
                assert_eq!(taken, count, "write takes all its bytes");
                let string = self.strings.get_mut(label).expect("an accepted write has a string");
                for i in *offset..*offset + *count {
                    string[i as usize] = *value;
                }
            }
            (Some(Command::Delete { label }), Ok(Answer::Delete(emptied))) => {
                self.strings.remove(label);
                self.emptied += *emptied as u64;
            }
            (Some(Command::Mesh { .. }), Ok(Answer::Mesh(merges, bytes))) => {
                assert!(*bytes <= 512 * *merges, "at most 512 bytes for a merge");
                self.merges += *merges as u64;
            }
            _ => {}
        }
        if let Err(refusal) = &event.answer {
            assert!(
                !matches!(refusal, Refusal::Edge | Refusal::Row | Refusal::Clash | Refusal::NotOut),
                "a pool never answers {:?}",
                refusal
            );
        }
    }
}

/// For each label: its bytes by read and by fetch at the given first address, if it is accepted.
pub fn reading<B: Bank, P: Pairing>(
    pool: &Pool<B, P>,
    first: &BTreeMap<u8, u32>,
) -> BTreeMap<u8, (Vec<u8>, Vec<u8>)> {
    let mut all = BTreeMap::new();
    for label in 0..LABELS {
        let label = label as u8;
        if pool.read(label, 0, &mut []).is_err() {
            continue;
        }
        let mut longest = Vec::new();
        for length in 1..=600 {
            let mut buffer = vec![0; length];
            if pool.read(label, 0, &mut buffer).is_err() {
                break;
            }
            longest = buffer;
        }
        let mut fetched = vec![0; longest.len()];
        pool.fetch(first[&label], &mut fetched).expect("a fetch at the first address is accepted");
        all.insert(label, (longest, fetched));
    }
    all
}

/// A quicker reading: it knows from the book how long each string must be, and tests that one byte more is refused.
fn reads_as<B: Bank, P: Pairing>(pool: &Pool<B, P>, book: &Book) {
    for label in 0..LABELS {
        let label = label as u8;
        match book.strings.get(&label) {
            None => assert_eq!(pool.read(label, 0, &mut []), Err(Refusal::Absent)),
            Some(string) => {
                let mut by_read = vec![0; string.len()];
                assert_eq!(pool.read(label, 0, &mut by_read), Ok(()));
                assert_eq!(&by_read, string, "read of label {}", label);
                let mut by_fetch = vec![0; string.len()];
                assert_eq!(pool.fetch(book.first[&label], &mut by_fetch), Ok(()));
                assert_eq!(&by_fetch, string, "fetch of label {}", label);
                let mut more = vec![0; string.len() + 1];
                assert_eq!(pool.read(label, 0, &mut more), Err(Refusal::Past));
                assert_eq!(pool.fetch(book.first[&label], &mut more), Err(Refusal::Stray));
                assert_eq!(pool.place(label), Ok(book.first[&label]), "addresses stay");
            }
        }
    }
}

fn shape<B: Bank, P: Pairing>(pool: &Pool<B, P>) {
    let size = pool.bank.size();
    let spare = pool.bank.spare();
    let distinct: BTreeSet<u32> = spare.iter().copied().collect();
    assert_eq!(distinct.len(), spare.len(), "no spare frame twice");
    assert!(spare.iter().all(|f| *f < size && !pool.bank.is_out(*f)));
    let mut owned = vec![[false; FRAME]; 64];
    let mut slots = vec![0u64; 64];
    for patch in pool.labels.iter().flatten() {
        let frame = pool.frame_of_span(patch.span).expect("no live patch in an idle span") as usize;
        let row = pool.rows[frame].as_ref().expect("a live patch stands in a frame with a row");
        assert_eq!(row.class, class_of(patch.length));
        assert!(!occupied(slots[frame], patch.slot), "no slot twice");
        slots[frame] |= 1 << patch.slot;
        for i in 0..patch.length {
            owned[frame][SLOT[row.class] * patch.slot + i] = true;
        }
    }
    for frame in 0..64 {
        assert_eq!(pool.rows[frame].is_some(), pool.bank.is_out(frame as u32), "rows of frames out");
        if let Some(row) = &pool.rows[frame] {
            assert_eq!(row.mask, slots[frame], "every set bit belongs to a live label");
            assert!(row.mask != 0 && ones(row.mask) <= slots_of(row.class));
            assert_eq!(pool.spans[row.home], Span::Home(frame as u32));
        }
        if (frame as u32) < size {
            for place in 0..FRAME {
                if !owned[frame][place] {
                    assert_eq!(pool.bank.byte(frame as u32, place as u32), 0, "an unowned byte is zero");
                }
            }
        }
    }
    for span in 0..SPANS {
        match pool.spans[span] {
            Span::Idle => {}
            Span::Home(frame) => assert_eq!(pool.rows[frame as usize].as_ref().unwrap().home, span),
            Span::Alias(frame) => assert_ne!(pool.rows[frame as usize].as_ref().unwrap().home, span),
        }
    }
}

pub fn test<B: Bank, P: Pairing>(pool: &Pool<B, P>, book: &Book) {
    let out = pool.count().0 as u64;
    assert_eq!(out + book.merges + book.emptied, book.opened, "frames out + merges + emptied = opened");
    let spans: BTreeSet<u32> = book.strings.keys().map(|l| book.first[l] / FRAME as u32).collect();
    assert!(out <= spans.len() as u64, "frames out is at most the spans of the book");
    assert_eq!(pool.count().2 as usize, book.strings.len());
    reads_as(pool, book);
    shape(pool);
}

pub fn all_frames<B: Bank, P: Pairing>(pool: &Pool<B, P>) -> Vec<u8> {
    let mut bytes = Vec::new();
    for frame in 0..pool.bank.size() {
        for place in 0..FRAME {
            bytes.push(pool.bank.byte(frame, place as u32));
        }
    }
    bytes
}
