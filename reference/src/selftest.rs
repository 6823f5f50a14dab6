//! The examples of docs/RULES.md and docs/FORMAT.md, and corners of banks, joinings and pairings.

use crate::bank::{Bank, Flat, Lane, Quota};
use crate::join::{join_rows, Cell, Element, Word};
use crate::pairing::{Draws, Greedy, Pairing, SplitMesher};
use crate::playback::listing;
use crate::pool::{class_of, Pool};
use crate::refusal::Refusal;

pub const WORKED: &str = "4E 01 02 00 4E 02 02 00 4E 03 02 00 57 03 00 00 00 04 21 44 01 4D 05 46 00 06 00 4E 04 02 00 \
                          52 04 00 00 43 52 01 00 00";

pub const WORKED_LISTING: &str = "at cmd answer frames
0 N 512/1 1
4 N 0/0 1
8 N 1536/1 2
12 W 4 2
19 D 0 2
21 M 1/512 1
23 F 33 1
27 N 2560/1 2
31 R 0 2
35 C 2/3/3 2
36 R !1.10 2
";

pub fn from_hex(text: &str) -> Vec<u8> {
    text.split_whitespace().map(|b| u8::from_str_radix(b, 16).expect("hex")).collect()
}

pub fn all() {
    classes();
    draws();
    joinings();
    pairings();
    banks();
    pools();
    listings();
}

fn classes() {
    assert_eq!(class_of(1), 0);
    assert_eq!(class_of(16), 0);
    assert_eq!(class_of(17), 1);
    assert_eq!(class_of(512), 5);
}

fn draws() {
    let mut draws = Draws::new(1);
    for expected in [270369, 67634689, 2647435461, 307599695] {
        assert_eq!(draws.draw(), expected);
    }
    let mut zero = Draws::new(0);
    assert_eq!(zero.draw(), 270369);
    let mut row = [0, 1, 2, 3];
    Draws::new(1).shuffle(&mut row);
    assert_eq!(row, [0, 2, 3, 1]);
    let mut one = Draws::new(1);
    one.shuffle(&mut [9]);
    one.shuffle::<u8>(&mut []);
    assert_eq!(one, Draws::new(1));
}

fn laws_of<E: Element + std::fmt::Debug>(some: &[E], empty: E) {
    for a in some {
        assert_eq!(empty.join(*a), Some(*a));
        for b in some {
            assert_eq!(a.join(*b), b.join(*a));
            for c in some {
                if let Some(ab) = a.join(*b) {
                    if let Some(abc) = ab.join(*c) {
                        let bc = b.join(*c).expect("b joins c");
                        assert_eq!(a.join(bc), Some(abc));
                    }
                }
            }
        }
    }
}

fn joinings() {
    let mut row = [Word(5)];
    assert_eq!(join_rows(&mut row, &[Word(10)]), Ok(()));
    assert_eq!(row, [Word(15)]);
    let mut row = [Word(5)];
    assert_eq!(join_rows(&mut row, &[Word(4)]), Err(Refusal::Clash));
    assert_eq!(row, [Word(5)]);
    let mut row = [Cell::Full(0), Cell::Empty];
    assert_eq!(join_rows(&mut row, &[Cell::Empty, Cell::Full(7)]), Ok(()));
    assert_eq!(row, [Cell::Full(0), Cell::Full(7)]);
    let mut row = [Cell::Empty, Cell::Full(0)];
    assert_eq!(join_rows(&mut row, &[Cell::Full(3), Cell::Full(0)]), Err(Refusal::Clash));
    assert_eq!(row, [Cell::Empty, Cell::Full(0)]);
    assert_eq!(join_rows(&mut row, &[Cell::Full(3)]), Err(Refusal::Row));
    assert_eq!(row, [Cell::Empty, Cell::Full(0)]);
    laws_of(&[Word(0), Word(1), Word(2), Word(3), Word(1 << 63), Word(u64::MAX)], Word(0));
    laws_of(&[Cell::Empty, Cell::Full(0), Cell::Full(1), Cell::Full(255)], Cell::Empty);
}

fn pairings() {
    let mut pairs = [(9, 9); 3];
    assert_eq!(Greedy.propose(&[1, 2, 1, 2], &mut pairs), Ok(2));
    assert_eq!(pairs, [(0, 1), (2, 3), (9, 9)]);
    let mut pairs = [(9, 9); 3];
    let mut split = SplitMesher::new(1, 1);
    assert_eq!(split.propose(&[1, 2, 1, 2], &mut pairs), Ok(2));
    assert_eq!(pairs, [(0, 3), (2, 1), (9, 9)]);
    // it goes on with the state it has: the next call shuffles with the draws after the third
    let mut fourth = Draws::new(1);
    for _ in 0..3 {
        fourth.draw();
    }
    let mut places = [0, 1, 2, 3];
    fourth.shuffle(&mut places);
    let mut pairs = [(9, 9); 2];
    assert_eq!(split.propose(&[0, 0, 0, 0], &mut pairs), Ok(2));
    assert_eq!(pairs, [(places[0], places[2]), (places[1], places[3])]);
    let mut pairs = [(9, 9); 1];
    let mut fresh = SplitMesher::new(1, 1);
    assert_eq!(fresh.propose(&[1, 2, 1, 2], &mut pairs), Err(Refusal::Row));
    assert_eq!(fresh.propose(&[0; 65], &mut [(9, 9); 40]), Err(Refusal::Row));
    assert_eq!(Greedy.propose(&[0; 65], &mut [(9, 9); 40]), Err(Refusal::Row));
    assert_eq!(Greedy.propose(&[1, 2, 1, 2], &mut pairs), Err(Refusal::Row));
    assert_eq!(pairs, [(9, 9)]);
    let mut pairs = [(9, 9); 2];
    assert_eq!(fresh.propose(&[1, 2, 1, 2], &mut pairs), Ok(2));
    assert_eq!(pairs, [(0, 3), (2, 1)]);
    assert_eq!(SplitMesher::new(1, 0).propose(&[0; 64], &mut [(9, 9); 32]), Ok(0));
    assert_eq!(SplitMesher::new(1, 255).propose(&[0; 64], &mut [(9, 9); 32]), Ok(32));
    assert_eq!(SplitMesher::new(1, 255).propose(&[0], &mut []), Ok(0));
    assert_eq!(SplitMesher::new(1, 255).propose(&[], &mut []), Ok(0));
}

/// Two frames at the least.
fn any_bank<B: Bank>(bank: &mut B) {
    let size = bank.size();
    bank.reset();
    assert_eq!(bank.grant(), Ok(0));
    assert_eq!(bank.grant(), Ok(1));
    assert_eq!(bank.write(0, 0, &[7; 1024]), Ok(()));
    assert_eq!(bank.write(1, 1023, &[8]), Ok(()));
    assert_eq!(bank.write(1, 1024, &[]), Ok(()));
    assert_eq!(bank.write(1, 1024, &[1]), Err(Refusal::Edge));
    assert_eq!(bank.write(size, 1024, &[1]), Err(Refusal::Edge));
    assert_eq!(bank.write(size, 1023, &[1]), Err(Refusal::NotOut));
    assert_eq!(bank.write(0, u32::MAX, &[1]), Err(Refusal::Edge));
    let mut buffer = [5; 3];
    assert_eq!(bank.read(1, 1022, &mut buffer), Err(Refusal::Edge));
    assert_eq!(buffer, [5; 3]);
    assert_eq!(bank.read(1, 1021, &mut buffer), Ok(()));
    assert_eq!(buffer, [0, 0, 8]);
    assert_eq!(bank.give_back(0), Ok(()));
    assert_eq!(bank.give_back(0), Err(Refusal::NotOut));
    assert_eq!(bank.read(0, 0, &mut buffer), Err(Refusal::NotOut));
    assert_eq!(buffer, [0, 0, 8]);
    assert_eq!(bank.spare()[0], 0);
    assert_eq!(bank.grant(), Ok(0));
    assert_eq!(bank.read(0, 0, &mut buffer), Ok(()));
    assert_eq!(buffer, [0, 0, 0]);
    assert_eq!(bank.size(), size);
    bank.reset();
    assert_eq!(bank.spare(), bank.opening());
    assert!((0..size).all(|f| !bank.is_out(f) && (0..1024).all(|i| bank.byte(f, i) == 0)));
}

fn banks() {
    let mut memory = vec![3; 2048];
    let mut flat = Flat::new(&mut memory);
    any_bank(&mut flat);
    assert_eq!(flat.grant(), Ok(0));
    assert_eq!(flat.grant(), Ok(1));
    assert_eq!(flat.grant(), Err(Refusal::Frames));
    assert_eq!(flat.write(1, 5, &[1, 2]), Ok(()));
    assert_eq!(&memory[1029..1031], &[1, 2]);

    let (mut even, mut odd) = (vec![3; 1024], vec![3; 1024]);
    let mut lane = Lane::new(&mut even, &mut odd);
    any_bank(&mut lane);
    assert_eq!(lane.grant(), Ok(0));
    assert_eq!(lane.grant(), Ok(1));
    assert_eq!(lane.write(1, 5, &[1, 2, 3]), Ok(()));
    assert_eq!((odd[514], even[515], odd[515]), (1, 2, 3));

    for wrong in [0, 1, 1023, 1025, 1024 * 64 + 1, 1024 * 65] {
        let mut memory = vec![3; wrong];
        assert_eq!(Flat::check(&memory), Err(Refusal::Row));
        let mut flat = Flat::new(&mut memory);
        assert_eq!((flat.size(), flat.grant()), (0, Err(Refusal::Frames)));
        flat.reset();
        assert!(memory.iter().all(|b| *b == 3));
    }
    for (a, b) in [(0, 0), (512, 1024), (1024, 512), (511, 511), (512 * 65, 512 * 65)] {
        let (mut even, mut odd) = (vec![3; a], vec![3; b]);
        assert_eq!(Lane::check(&even, &odd), Err(Refusal::Row));
        let mut lane = Lane::new(&mut even, &mut odd);
        assert_eq!((lane.size(), lane.grant()), (0, Err(Refusal::Frames)));
        lane.reset();
        assert!(even.iter().chain(&odd).all(|b| *b == 3));
    }
    assert_eq!(Flat::check(&vec![0; 65536]), Ok(64));
    assert_eq!(Lane::check(&vec![0; 32768], &vec![0; 32768]), Ok(64));

    let mut memory = vec![3; 4096];
    let mut quota = Quota::new(Flat::new(&mut memory), 2);
    any_bank(&mut quota);
    assert_eq!((quota.size(), quota.opening()), (4, vec![0, 1]));
    assert_eq!(quota.grant(), Ok(0));
    assert_eq!(quota.spare(), vec![1]);
    assert_eq!(quota.grant(), Ok(1));
    assert_eq!(quota.grant(), Err(Refusal::Frames));
    assert_eq!(quota.give_back(1), Ok(()));
    assert_eq!(quota.grant(), Ok(1));
    let mut memory = vec![3; 2048];
    let mut quota = Quota::new(Quota::new(Flat::new(&mut memory), 255), 0);
    assert_eq!((quota.size(), quota.grant()), (2, Err(Refusal::Frames)));
}

fn pools() {
    // quota 1 over two frames: the second span to open is refused with FRAMES
    let mut memory = vec![0; 2048];
    let mut pool = Pool::open(Quota::new(Flat::new(&mut memory), 1), Greedy, 1);
    assert_eq!(pool.new(1, 512), Ok((512, 1)));
    assert_eq!(pool.new(2, 512), Ok((0, 0)));
    assert_eq!(pool.new(3, 512), Err(Refusal::Frames));
    assert_eq!(pool.new(3, 1), Err(Refusal::Frames));
    assert_eq!(pool.new(2, 513), Err(Refusal::Size));
    assert_eq!(pool.new(9, 0), Err(Refusal::Size));
    assert_eq!(pool.new(2, 1), Err(Refusal::Taken));
    assert_eq!(pool.count(), (1, 1, 2));
    let mut none = [];
    assert_eq!(pool.read(1, 512, &mut none), Ok(()));
    assert_eq!(pool.read(1, 513, &mut none), Err(Refusal::Past));
    assert_eq!(pool.fetch(1023, &mut none), Ok(()));
    assert_eq!(pool.fetch(1024, &mut none), Err(Refusal::Stray));
    assert_eq!(pool.fetch(131_072, &mut none), Err(Refusal::Address));
    let mut buffer = [4; 2];
    assert_eq!(pool.fetch(511, &mut buffer), Err(Refusal::Stray));
    assert_eq!(buffer, [4; 2]);
}

fn listings() {
    let worked = from_hex(WORKED);
    assert_eq!(listing(&worked), WORKED_LISTING);
    // after the command at byte 23 a fetch at 512 is STRAY
    let mut list = worked[..27].to_vec();
    list.extend([0x46, 0, 2, 0]);
    assert!(listing(&list).ends_with("23 F 33 1\n27 F !1.14 1\n"));
    assert_eq!(listing(&[]), "at cmd answer frames\n");
    assert_eq!(listing(&[0x51]), "at cmd answer frames\n0 ? !0.4 0\n");
    assert_eq!(listing(&[0x4E, 1]), "at cmd answer frames\n0 ? !0.5 0\n");
    let counts = vec![b'C'; 70_000];
    assert_eq!(listing(&counts).lines().count(), 1 + 65_536);
    let mut list = vec![b'C'; 65_535];
    list.extend([b'M', 0]);
    assert!(listing(&list).ends_with("65535 ? !0.5 0\n"));
    let mut list = vec![b'C'; 65_536];
    list.push(b'Q');
    assert!(listing(&list).ends_with("65535 C 0/0/0 0\n"));
}
