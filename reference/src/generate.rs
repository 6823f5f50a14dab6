//! Command lists, each fixed by its seed. A list is written against a pool of the unit of `play`, so that the generator
//! knows which labels are live, where their patches lie, and when a refusal has really been reached.

use crate::bank::Flat;
use crate::pairing::Greedy;
use crate::playback::{encode, perform, Answer, Command, LETTERS, LIMIT};
use crate::pool::{class_of, occupied, ones, slots_of, Pool, LABELS, SLOT};
use crate::refusal::Refusal;

/// Numbers for the generator (splitmix64): not the draws of the memory.
pub struct Dice {
    state: u64,
}

impl Dice {
    pub fn new(seed: u64) -> Dice {
        Dice { state: seed.wrapping_mul(0x9E37_79B9_7F4A_7C15) ^ 0x5851_F42D_4C95_7F2D }
    }

    fn next(&mut self) -> u64 {
        self.state = self.state.wrapping_add(0x9E37_79B9_7F4A_7C15);
        let mut z = self.state;
        z = (z ^ (z >> 30)).wrapping_mul(0xBF58_476D_1CE4_E5B9);
        z = (z ^ (z >> 27)).wrapping_mul(0x94D0_49BB_1331_11EB);
        z ^ (z >> 31)
    }

    /// A number from `low` to `high`, both included.
    pub fn range(&mut self, low: usize, high: usize) -> usize {
        low + (self.next() % (high - low + 1) as u64) as usize
    }

    pub fn chance(&mut self, percent: usize) -> bool {
        self.range(0, 99) < percent
    }

    fn pick<T: Clone>(&mut self, from: &[T]) -> T {
        from[self.range(0, from.len() - 1)].clone()
    }

    fn byte(&mut self) -> u8 {
        self.next() as u8
    }
}

struct Maker<'a> {
    dice: Dice,
    pool: Pool<Flat<'a>, Greedy>,
    list: Vec<u8>,
    commands: usize,
    /// the labels this list uses
    labels: Vec<u8>,
    /// addresses answered so far, of live and of dead patches
    addresses: Vec<u32>,
    /// stop when so many commands or so many bytes are there
    most_commands: usize,
    most_bytes: usize,
}

impl Maker<'_> {
    fn done(&self) -> bool {
        self.commands >= self.most_commands || self.list.len() >= self.most_bytes
    }

    fn give(&mut self, command: Command) -> Result<Answer, Refusal> {
        encode(&command, &mut self.list);
        self.commands += 1;
        let answer = perform(&mut self.pool, &command);
        if let Ok(Answer::New(address, _)) = answer {
            self.addresses.push(address);
        }
        answer
    }

    fn live(&self) -> Vec<u8> {
        (0..LABELS).filter(|l| self.pool.labels[*l].is_some()).map(|l| l as u8).collect()
    }

    fn live_of(&self, class: usize) -> Vec<u8> {
        self.live().into_iter().filter(|l| class_of(self.length(*l)) == class).collect()
    }

    fn idle_label(&mut self) -> Option<u8> {
        let idle: Vec<u8> =
            self.labels.iter().copied().filter(|l| self.pool.labels[*l as usize].is_none()).collect();
        if idle.is_empty() {
            None
        } else {
            Some(self.dice.pick(&idle))
        }
    }

    /// A label that is there, or now and then any label.
    fn some_label(&mut self) -> u8 {
        let live = self.live();
        if !live.is_empty() && self.dice.chance(90) {
            self.dice.pick(&live)
        } else if self.dice.chance(80) {
            let labels = self.labels.clone();
            self.dice.pick(&labels)
        } else {
            self.dice.byte()
        }
    }

    fn length(&self, label: u8) -> usize {
        self.pool.labels[label as usize].as_ref().map_or(0, |p| p.length)
    }

    fn address(&self, label: u8) -> usize {
        self.pool.place(label).unwrap_or(0) as usize
    }

    fn frame_of(&self, label: u8) -> usize {
        let patch = self.pool.labels[label as usize].as_ref().expect("live");
        self.pool.frame_of_span(patch.span).expect("not idle") as usize
    }

    /// A length of the class: its least, its greatest, or one between.
    fn length_in(&mut self, class: usize) -> u32 {
        let least = if class == 0 { 1 } else { SLOT[class - 1] + 1 };
        let greatest = SLOT[class];
        match self.dice.range(0, 3) {
            0 => least as u32,
            1 => greatest as u32,
            _ => self.dice.range(least, greatest) as u32,
        }
    }

    fn any_length(&mut self) -> u32 {
        let corners = [
            0, 1, 2, 15, 16, 17, 31, 32, 33, 63, 64, 65, 127, 128, 129, 255, 256, 257, 511, 512, 513, 768,
            1024, 32768, 65535,
        ];
        match self.dice.range(0, 9) {
            0 | 1 => self.dice.pick(&corners),
            2 => self.dice.range(1, 512) as u32,
            _ => {
                let class = self.dice.range(0, 5);
                self.length_in(class)
            }
        }
    }

    fn new_of(&mut self, class: usize) -> Option<Result<Answer, Refusal>> {
        let label = self.idle_label()?;
        let length = self.length_in(class);
        Some(self.give(Command::New { label, length }))
    }

    fn mesh(&mut self, class: usize) -> u32 {
        match self.give(Command::Mesh { class: class as u8 }) {
            Ok(Answer::Mesh(merges, _)) => merges,
            _ => 0,
        }
    }

    fn delete(&mut self, label: u8) -> Result<Answer, Refusal> {
        self.give(Command::Delete { label })
    }

    fn read(&mut self, label: u8, offset: usize) {
        let _ = self.give(Command::Read { label, offset: (offset % 65536) as u32 });
    }

    fn fetch(&mut self, address: usize) {
        let _ = self.give(Command::Fetch { address: (address % 16_777_216) as u32 });
    }

    // ---- pieces of lists ----

    /// One command of any kind.
    fn any(&mut self) {
        match self.dice.range(0, 99) {
            0..=24 => {
                let label = match self.idle_label() {
                    Some(label) if self.dice.chance(92) => label,
                    _ => self.some_label(),
                };
                let length = self.any_length();
                let _ = self.give(Command::New { label, length });
            }
            25..=42 => self.any_write(),
            43..=54 => {
                let label = self.some_label();
                self.look(label, false);
            }
            55..=66 => {
                let label = self.some_label();
                self.look(label, true);
            }
            67..=71 => {
                let label = self.some_label();
                let _ = self.give(Command::Place { label });
            }
            72..=85 => {
                let label = self.some_label();
                let _ = self.delete(label);
            }
            86..=95 => {
                let class = if self.dice.chance(93) { self.dice.range(0, 5) } else { self.dice.range(6, 255) };
                self.mesh(class);
            }
            _ => {
                let _ = self.give(Command::Count);
            }
        }
    }

    fn any_write(&mut self) {
        let label = self.some_label();
        let length = self.length(label);
        let value = if self.dice.chance(10) { 0 } else { self.dice.byte() };
        let (offset, count) = match self.dice.range(0, 11) {
            0 => (0, length),
            1 => (0, length + 1),
            2 => (length, 0),
            3 => (length, 1),
            4 => (length + 1, 0),
            5 => (length.saturating_sub(1), 1),
            6 => (self.dice.range(0, 65535), self.dice.range(0, 65535)),
            7 => (self.dice.pick(&[65535, 65000, 0]), self.dice.pick(&[65535, 536, 1, 0])),
            _ => {
                let offset = self.dice.range(0, length);
                (offset, self.dice.range(0, length - offset))
            }
        };
        let _ = self.give(Command::Write { label, offset: offset as u32, count: count as u32, value });
    }

    /// Looks at one byte of or near a patch, by label or by address.
    fn look(&mut self, label: u8, by_address: bool) {
        let length = self.length(label);
        let slot = if length == 0 { 16 } else { SLOT[class_of(length)] };
        let offset = match self.dice.range(0, 9) {
            0 => 0,
            1 => length.saturating_sub(1),
            2 => length,
            3 => slot - 1,
            4 => slot,
            5 => self.dice.range(0, 700),
            _ => self.dice.range(0, length.saturating_sub(1)),
        };
        if !by_address {
            if self.dice.chance(3) {
                let far = self.dice.range(0, 65535);
                self.read(label, far);
            } else {
                self.read(label, offset);
            }
            return;
        }
        let first = self.address(label);
        match self.dice.range(0, 19) {
            0 => {
                let far = self.dice.pick(&[131_071, 131_072, 131_073, 65_536, 16_777_215, 1 << 17, 1 << 23]);
                self.fetch(far);
            }
            1 => {
                let far = self.dice.range(0, 131_071);
                self.fetch(far);
            }
            2 => {
                if first > 0 {
                    self.fetch(first - 1);
                }
            }
            3 | 4 => {
                // an address answered once: perhaps of a patch that is gone
                if !self.addresses.is_empty() {
                    let known = self.addresses.clone();
                    let old = self.dice.pick(&known) as usize;
                    self.fetch(old);
                }
            }
            5 | 6 => {
                // the same bytes by another span of the same frame, which no label answers to
                if length > 0 {
                    let frame = self.frame_of(label) as u32;
                    let spans: Vec<usize> =
                        (0..128).filter(|s| self.pool.frame_of_span(*s) == Some(frame)).collect();
                    let span = self.dice.pick(&spans);
                    self.fetch(1024 * span + first % 1024);
                }
            }
            _ => self.fetch(first + offset),
        }
    }

    fn count(&mut self) {
        let _ = self.give(Command::Count);
    }

    /// New patches of one class until refused, no label is left, or `most` are made.
    fn fill(&mut self, class: usize, most: usize) {
        for _ in 0..most {
            if self.done() {
                return;
            }
            match self.new_of(class) {
                Some(Ok(_)) => {}
                _ => return,
            }
        }
    }

    /// A value into each live patch of a class, at its edges too.
    fn mark(&mut self, class: usize, percent: usize) {
        for label in self.live_of(class) {
            if self.done() {
                return;
            }
            if !self.dice.chance(percent) {
                continue;
            }
            let length = self.length(label);
            let (offset, count) = match self.dice.range(0, 3) {
                0 => (0, 1),
                1 => (length - 1, 1),
                2 => (0, length),
                _ => {
                    let offset = self.dice.range(0, length - 1);
                    (offset, self.dice.range(1, length - offset))
                }
            };
            let value = self.dice.byte();
            let _ =
                self.give(Command::Write { label, offset: offset as u32, count: count as u32, value });
        }
    }

    /// Deletes patches of a class at random. With `keep` no frame is emptied.
    fn thin(&mut self, class: usize, percent: usize, keep: bool) {
        for label in self.live_of(class) {
            if self.done() {
                return;
            }
            let frame = self.frame_of(label);
            let alone = ones(self.pool.rows[frame].as_ref().expect("out").mask) == 1;
            if self.dice.chance(percent) && !(keep && alone) {
                let _ = self.delete(label);
            }
        }
    }

    /// Looks at live patches by label and by address.
    fn inspect(&mut self, percent: usize) {
        for label in self.live() {
            if self.done() {
                return;
            }
            if !self.dice.chance(percent) {
                continue;
            }
            let by_address = self.dice.chance(50);
            self.look(label, by_address);
        }
    }

    fn empty_all(&mut self) {
        for label in self.live() {
            if self.done() {
                return;
            }
            let _ = self.delete(label);
        }
    }

    /// Fill, thin out and mesh, some rounds, of one class.
    fn rounds(&mut self, class: usize, rounds: usize) {
        for _ in 0..rounds {
            if self.done() {
                return;
            }
            let most = self.dice.range(1, slots_of(class) * 4);
            self.fill(class, most);
            let percent = self.dice.pick(&[20, 60, 100]);
            self.mark(class, percent);
            let percent = self.dice.pick(&[30, 50, 60, 75, 90]);
            let keep = self.dice.chance(70);
            self.thin(class, percent, keep);
            self.mesh(class);
            if self.dice.chance(30) {
                self.count();
            }
            let percent = self.dice.pick(&[10, 50, 100]);
            self.inspect(percent);
            if self.dice.chance(40) {
                self.mesh(class);
            }
        }
    }

    /// Frames that hold one patch each, in slots that may or may not join, so that one mesh has many pairs. Only deletes
    /// make such frames, since new fills the fullest frame first.
    fn many_pairs(&mut self, class: usize) {
        let frames = self.dice.range(2, 8);
        self.fill(class, slots_of(class) * frames);
        self.mark(class, 80);
        let left = self.dice.range(1, (slots_of(class) / 2).max(1));
        for frame in 0..self.pool.rows.len() {
            let mut here: Vec<u8> = self
                .live_of(class)
                .into_iter()
                .filter(|l| self.frame_of(*l) == frame)
                .collect();
            while here.len() > left && !self.done() {
                let at = self.dice.range(0, here.len() - 1);
                let label = here.remove(at);
                let _ = self.delete(label);
            }
        }
        self.mesh(class);
        self.count();
        self.inspect(70);
        self.mesh(class);
    }

    /// Long patches of several classes until the bank has nothing spare, and then some more.
    fn run_out_of_frames(&mut self) {
        let some = [5, 4, 3, 2];
        for _ in 0..200 {
            if self.done() || self.pool.count().0 == 8 {
                break;
            }
            let class = self.dice.pick(&some);
            if self.new_of(class).is_none() {
                break;
            }
        }
        for class in 0..6 {
            if self.dice.chance(70) {
                self.fill(class, slots_of(class).min(20));
            }
        }
        for _ in 0..self.dice.range(1, 6) {
            let class = self.dice.range(0, 5);
            self.new_of(class);
        }
        self.count();
    }

    /// Merges without ever emptying a frame, until no span is idle. One frame of the class is full. A new patch must open
    /// a span then; the patch in the same slot of a full frame is deleted, and a mesh lays the two frames together: full
    /// again, with one alias more. Answers whether SPANS was reached.
    fn run_out_of_spans(&mut self, class: usize, crowded: bool) -> bool {
        if crowded {
            // other classes hold six frames, so that the last span takes the last frame
            for other in [5, 4, 3] {
                while other != class
                    && !self.done()
                    && self.pool.rows.iter().flatten().filter(|r| r.class == other).count() < 2
                {
                    if !matches!(self.new_of(other), Some(Ok(_))) {
                        break;
                    }
                }
            }
        }
        self.fill(class, slots_of(class));
        for _ in 0..400 {
            if self.done() {
                return false;
            }
            match self.new_of(class) {
                Some(Err(Refusal::Spans)) => return true,
                Some(Ok(Answer::New(_, 1))) => {
                    if crowded && self.pool.count().1 == 128 {
                        // nothing idle and nothing spare: the lower number is the answer
                        let other = self.dice.range(0, 2);
                        self.new_of(other);
                        self.count();
                    }
                }
                Some(Ok(_)) => continue,
                Some(Err(_)) | None => {
                    let merged = self.mesh(class);
                    if merged == 0 {
                        return false;
                    }
                    continue;
                }
            }
            let last = *self.addresses.last().expect("just answered") as usize;
            let slot = last % 1024 / SLOT[class];
            let mine = self.pool.frame_of_span(last / 1024).expect("not idle") as usize;
            let rival = self.live_of(class).into_iter().find(|l| {
                let patch = self.pool.labels[*l as usize].as_ref().expect("live");
                let frame = self.frame_of(*l);
                let mask = self.pool.rows[frame].as_ref().expect("out").mask;
                frame != mine && patch.slot == slot && ones(mask) > 1 && occupied(mask, slot)
            });
            if let Some(label) = rival {
                if self.dice.chance(15) {
                    let value = self.dice.byte();
                    let _ = self.give(Command::Write { label, offset: 0, count: 1, value });
                }
                let _ = self.delete(label);
            }
            self.mesh(class);
            if self.dice.chance(5) {
                let label = self.some_label();
                let by_address = self.dice.chance(60);
                self.look(label, by_address);
            }
        }
        false
    }

    /// What is still accepted when no span is idle, and what emptying a frame brings back.
    fn after_spans(&mut self, class: usize) {
        self.count();
        for other in 0..6 {
            self.new_of(other);
        }
        let live = self.live_of(class);
        if !live.is_empty() {
            // a slot comes free, so new of the class is accepted without a span
            let label = self.dice.pick(&live);
            let _ = self.delete(label);
            self.new_of(class);
        }
        self.inspect(60);
        if self.dice.chance(80) {
            self.thin(class, 100, false);
            self.count();
            for other in 0..6 {
                self.new_of(other);
            }
            self.count();
            self.inspect(50);
        }
    }

    /// Calls at which several refusals apply.
    fn several_refusals(&mut self) {
        let live = self.live();
        let label = if live.is_empty() { 7 } else { self.dice.pick(&live) };
        let length = self.dice.pick(&[0, 513, 65535, 512, 1]);
        let _ = self.give(Command::New { label, length });
        let gone = self.idle_label().unwrap_or(255);
        let offset = self.dice.pick(&[0, 1, 512, 65535]);
        let count = self.dice.pick(&[0, 1, 513, 65535]);
        let _ = self.give(Command::Write { label: gone, offset, count, value: 9 });
        self.read(gone, 65535);
        let far = self.dice.pick(&[131_072, 131_071, 16_777_215]);
        self.fetch(far);
        let _ = self.give(Command::Place { label: gone });
        let _ = self.delete(gone);
        let class = self.dice.pick(&[5, 6, 7, 128, 255]);
        self.mesh(class);
    }

    /// A label deleted and made again: its new patch holds zeros, whatever stood there.
    fn again(&mut self) {
        let live = self.live();
        if live.is_empty() {
            return;
        }
        let label = self.dice.pick(&live);
        let length = self.length(label);
        let _ = self.give(Command::Write { label, offset: 0, count: length as u32, value: 0xA5 });
        let _ = self.delete(label);
        let length = if self.dice.chance(70) { length as u32 } else { self.any_length() };
        let _ = self.give(Command::New { label, length });
        self.read(label, 0);
        let first = self.address(label);
        self.fetch(first);
        self.read(label, (length as usize).saturating_sub(1));
    }

    fn piece(&mut self) {
        match self.dice.range(0, 11) {
            0..=3 => {
                for _ in 0..self.dice.range(5, 60) {
                    if self.done() {
                        return;
                    }
                    self.any();
                }
            }
            4 | 5 => {
                let class = self.dice.range(0, 5);
                let rounds = self.dice.range(1, 4);
                self.rounds(class, rounds);
            }
            6 | 7 => {
                let class = self.dice.range(0, 5);
                self.many_pairs(class);
            }
            8 => self.run_out_of_frames(),
            9 => self.several_refusals(),
            10 => self.again(),
            _ => {
                if self.dice.chance(30) {
                    self.empty_all();
                } else {
                    let class = self.dice.range(0, 5);
                    self.thin(class, 70, false);
                }
            }
        }
    }
}

/// Bytes changed, dropped or put in, or the list cut.
fn damage(dice: &mut Dice, list: &mut Vec<u8>) {
    for _ in 0..dice.range(1, 3) {
        if list.is_empty() {
            list.push(dice.byte());
            return;
        }
        // rather late than early, so that something is played before
        let at = list.len() - 1 - dice.range(0, list.len() - 1) * dice.range(0, 100) / 100;
        match dice.range(0, 5) {
            0 => list[at] = dice.byte(),
            1 => list[at] ^= 1 << dice.range(0, 7),
            2 => {
                list.remove(at);
            }
            3 => {
                let byte = if dice.chance(50) { dice.pick(&LETTERS) } else { dice.byte() };
                list.insert(at, byte);
            }
            4 => list.truncate(at),
            _ => {
                // a letter that is nearly one
                let letter = dice.pick(&LETTERS);
                let near = dice.pick(&[letter.wrapping_add(32), letter.wrapping_add(1), letter ^ 0x80, 0, 0x0A]);
                list.push(near);
            }
        }
    }
}

/// The command list of a seed.
pub fn list(seed: u64) -> Vec<u8> {
    let mut dice = Dice::new(seed);
    let mut memory = vec![0; 8 * 1024];
    let pool = Pool::open(Flat::new(&mut memory), Greedy, 1);

    let shape = dice.range(0, 99);
    let few = dice.pick(&[3, 8, 20, 60, 120, 256, 256, 256]);
    let start = dice.range(0, 255);
    let labels: Vec<u8> = (0..few).map(|i| ((start + i) % 256) as u8).collect();
    let size = match dice.range(0, 9) {
        0 => dice.range(0, 20),
        1..=3 => dice.range(20, 300),
        _ => dice.range(300, 900),
    };
    let mut maker = Maker {
        dice,
        pool,
        list: Vec::new(),
        commands: 0,
        labels,
        addresses: Vec::new(),
        most_commands: size,
        most_bytes: usize::MAX,
    };
    let all = || (0..=255).collect::<Vec<u8>>();
    let mut cut = None;
    match shape {
        0..=19 => {
            while !maker.done() {
                maker.any();
            }
        }
        20..=37 => {
            // one class after the other, filled, thinned out and meshed
            while !maker.done() {
                let class = maker.dice.range(0, 5);
                maker.rounds(class, 3);
                if maker.commands == 0 {
                    maker.any();
                }
            }
        }
        38..=47 => {
            maker.labels = all();
            while !maker.done() {
                let class = maker.dice.range(0, 5);
                maker.many_pairs(class);
                if maker.dice.chance(40) {
                    maker.empty_all();
                }
            }
        }
        48..=55 => {
            maker.labels = all();
            while !maker.done() {
                maker.run_out_of_frames();
                maker.inspect(20);
                let class = maker.dice.range(0, 5);
                maker.thin(class, 60, false);
                maker.mesh(class);
            }
        }
        56..=65 => {
            maker.labels = all();
            let class = maker.dice.pick(&[5, 5, 4, 4, 3, 2, 1, 0]);
            maker.most_commands = 2000;
            let crowded = class < 3 && maker.dice.chance(50);
            if !crowded && maker.dice.chance(30) {
                for _ in 0..maker.dice.range(1, 30) {
                    maker.any();
                }
                for other in 0..6 {
                    if other != class && maker.pool.count().0 > 5 {
                        maker.thin(other, 100, false);
                    }
                }
            }
            if maker.run_out_of_spans(class, crowded) {
                maker.after_spans(class);
                for _ in 0..maker.dice.range(0, 60) {
                    maker.any();
                }
            }
        }
        66..=69 => {
            while !maker.done() {
                maker.several_refusals();
                maker.again();
                maker.any();
            }
        }
        70..=79 => {
            while !maker.done() {
                maker.piece();
            }
            damage(&mut maker.dice, &mut maker.list);
        }
        80 => {
            // letters and bytes without sense
            for _ in 0..maker.dice.range(0, 400) {
                let byte = if maker.dice.chance(60) { maker.dice.pick(&LETTERS) } else { maker.dice.byte() };
                maker.list.push(byte);
            }
        }
        81 => {
            // at the limit of the bytes played, just before it and beyond it
            maker.labels = all();
            maker.most_commands = usize::MAX;
            let length = match maker.dice.range(0, 7) {
                0 => LIMIT,
                1 => LIMIT - 1,
                2 => LIMIT + 1,
                3 => LIMIT + maker.dice.range(2, 7),
                4 => LIMIT - maker.dice.range(2, 7),
                5 => 2 * LIMIT,
                6 => LIMIT + maker.dice.range(8, 4000),
                _ => LIMIT - maker.dice.range(8, 4000),
            };
            maker.most_bytes = length;
            cut = Some(length);
            while !maker.done() {
                maker.piece();
                maker.any_write();
            }
        }
        _ => {
            while !maker.done() {
                maker.piece();
            }
        }
    }
    let mut list = maker.list;
    if let Some(length) = cut {
        list.truncate(length);
        // some lists end with whole commands of one byte, so that the limit falls between two commands
        if maker.dice.chance(30) {
            list.truncate(length - 40);
            let whole = whole_commands(&list);
            list.truncate(whole);
            while list.len() < length {
                list.push(b'C');
            }
        }
    }
    list
}

/// How many bytes at the front are whole commands.
fn whole_commands(list: &[u8]) -> usize {
    let mut at = 0;
    while at < list.len() {
        match crate::playback::decode(&list[at..]) {
            Ok((_, width)) => at += width,
            Err(_) => break,
        }
    }
    at
}
