//! Command bytes, answers and lines (docs/FORMAT.md).

use crate::bank::{Bank, Flat};
use crate::pairing::{Greedy, Pairing};
use crate::pool::Pool;
use crate::refusal::Refusal;

pub const LIMIT: usize = 65_536;
pub const HEADER: &str = "at cmd answer frames\n";
pub const LETTERS: [u8; 8] = *b"NWRFPDMC";

#[derive(Clone, PartialEq, Eq, Debug)]
pub enum Command {
    New { label: u8, length: u32 },
    Write { label: u8, offset: u32, count: u32, value: u8 },
    Read { label: u8, offset: u32 },
    Fetch { address: u32 },
    Place { label: u8 },
    Delete { label: u8 },
    Mesh { class: u8 },
    Count,
}

#[derive(Clone, PartialEq, Eq, Debug)]
pub enum Answer {
    New(u32, u32),
    Write(u32),
    Read(u8),
    Fetch(u8),
    Place(u32),
    Delete(u32),
    Mesh(u32, u32),
    Count(u32, u32, u32),
}

/// How many operand bytes follow a letter, or nothing if it is none of the eight.
pub fn operands(letter: u8) -> Option<usize> {
    match letter {
        b'N' => Some(3),
        b'W' => Some(6),
        b'R' => Some(3),
        b'F' => Some(3),
        b'P' => Some(1),
        b'D' => Some(1),
        b'M' => Some(1),
        b'C' => Some(0),
        _ => None,
    }
}

fn number(bytes: &[u8]) -> u32 {
    let mut value = 0;
    for byte in bytes {
        value = value * 256 + *byte as u32;
    }
    value
}

/// The command at the front of a list that is not empty, and how many bytes it takes.
pub fn decode(list: &[u8]) -> Result<(Command, usize), Refusal> {
    let letter = list[0];
    let width = operands(letter).ok_or(Refusal::Command)?;
    if list.len() < 1 + width {
        return Err(Refusal::Cut);
    }
    let given = &list[1..1 + width];
    let command = match letter {
        b'N' => Command::New { label: given[0], length: number(&given[1..3]) },
        b'W' => Command::Write {
            label: given[0],
            offset: number(&given[1..3]),
            count: number(&given[3..5]),
            value: given[5],
        },
        b'R' => Command::Read { label: given[0], offset: number(&given[1..3]) },
        b'F' => Command::Fetch { address: number(&given[0..3]) },
        b'P' => Command::Place { label: given[0] },
        b'D' => Command::Delete { label: given[0] },
        b'M' => Command::Mesh { class: given[0] },
        _ => Command::Count,
    };
    Ok((command, 1 + width))
}

pub fn encode(command: &Command, list: &mut Vec<u8>) {
    match command {
        Command::New { label, length } => {
            list.extend([b'N', *label, (length >> 8) as u8, *length as u8])
        }
        Command::Write { label, offset, count, value } => list.extend([
            b'W',
            *label,
            (offset >> 8) as u8,
            *offset as u8,
            (count >> 8) as u8,
            *count as u8,
            *value,
        ]),
        Command::Read { label, offset } => {
            list.extend([b'R', *label, (offset >> 8) as u8, *offset as u8])
        }
        Command::Fetch { address } => {
            list.extend([b'F', (address >> 16) as u8, (address >> 8) as u8, *address as u8])
        }
        Command::Place { label } => list.extend([b'P', *label]),
        Command::Delete { label } => list.extend([b'D', *label]),
        Command::Mesh { class } => list.extend([b'M', *class]),
        Command::Count => list.push(b'C'),
    }
}

pub fn perform<B: Bank, P: Pairing>(pool: &mut Pool<B, P>, command: &Command) -> Result<Answer, Refusal> {
    match command {
        Command::New { label, length } => pool.new(*label, *length).map(|(a, o)| Answer::New(a, o)),
        Command::Write { label, offset, count, value } => {
            pool.write(*label, *offset, &vec![*value; *count as usize]).map(Answer::Write)
        }
        Command::Read { label, offset } => {
            let mut buffer = [0];
            pool.read(*label, *offset, &mut buffer).map(|_| Answer::Read(buffer[0]))
        }
        Command::Fetch { address } => {
            let mut buffer = [0];
            pool.fetch(*address, &mut buffer).map(|_| Answer::Fetch(buffer[0]))
        }
        Command::Place { label } => pool.place(*label).map(Answer::Place),
        Command::Delete { label } => pool.delete(*label).map(Answer::Delete),
        Command::Mesh { class } => pool.mesh(*class).map(|(m, b)| Answer::Mesh(m, b)),
        Command::Count => {
            let (f, s, l) = pool.count();
            Ok(Answer::Count(f, s, l))
        }
    }
}

/// One step of a run: its byte place, the command unless the list itself is at fault, the answer, frames out.
pub struct Event {
    pub place: usize,
    pub command: Option<Command>,
    pub answer: Result<Answer, Refusal>,
    pub frames: u32,
}

/// Plays a list and shows each event, with the pool after it, to `see`.
pub fn run<B: Bank, P: Pairing>(
    pool: &mut Pool<B, P>,
    list: &[u8],
    mut see: impl FnMut(&Event, &Pool<B, P>),
) {
    let list = &list[..list.len().min(LIMIT)];
    let mut place = 0;
    while place < list.len() {
        match decode(&list[place..]) {
            Ok((command, width)) => {
                let answer = perform(pool, &command);
                let frames = pool.count().0;
                see(&Event { place, command: Some(command), answer, frames }, pool);
                place += width;
            }
            Err(refusal) => {
                let frames = pool.count().0;
                see(&Event { place, command: None, answer: Err(refusal), frames }, pool);
                return;
            }
        }
    }
}

pub fn letter(command: &Option<Command>) -> char {
    match command {
        Some(Command::New { .. }) => 'N',
        Some(Command::Write { .. }) => 'W',
        Some(Command::Read { .. }) => 'R',
        Some(Command::Fetch { .. }) => 'F',
        Some(Command::Place { .. }) => 'P',
        Some(Command::Delete { .. }) => 'D',
        Some(Command::Mesh { .. }) => 'M',
        Some(Command::Count) => 'C',
        None => '?',
    }
}

pub fn line(event: &Event) -> String {
    let answer = match &event.answer {
        Ok(Answer::New(a, b)) | Ok(Answer::Mesh(a, b)) => format!("{}/{}", a, b),
        Ok(Answer::Write(n)) | Ok(Answer::Place(n)) | Ok(Answer::Delete(n)) => format!("{}", n),
        Ok(Answer::Read(byte)) | Ok(Answer::Fetch(byte)) => format!("{}", byte),
        Ok(Answer::Count(f, s, l)) => format!("{}/{}/{}", f, s, l),
        Err(refusal) => format!("!{}.{}", refusal.layer(), refusal.number()),
    };
    format!("{} {} {} {}\n", event.place, letter(&event.command), answer, event.frames)
}

/// The listing that `play` prints.
pub fn listing(list: &[u8]) -> String {
    let mut memory = vec![0; 1024 * 8];
    let mut pool = Pool::open(Flat::new(&mut memory), Greedy, 1);
    let mut text = String::from(HEADER);
    run(&mut pool, list, |event, _| text.push_str(&line(event)));
    text
}
