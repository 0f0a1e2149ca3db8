//! The same rules in plain Rust, beside the proved packer in the static library of crates/bench: same
//! pieces, same output. The first word says which one runs, `proved` or `plain`; the second which kind,
//! or `draw` for the drawing alone.

unsafe extern "C" {
    safe fn packed_bars(pieces: u32, sum: &mut u64) -> u64;
    safe fn packed_totes(pieces: u32, sum: &mut u64) -> u64;
    safe fn packed_strips(pieces: u32, sum: &mut u64) -> u64;
}

#[derive(Clone, Copy)]
struct Piece {
    number: u32,
    first: u32,
    second: u32,
    finish: u8,
}

#[derive(Clone, Copy, Default)]
struct PlaceLine {
    number: u32,
    first: u32,
    second: u32,
    finish: u8,
    container: u32,
    class: u8,
}

#[derive(Clone, Copy, Default)]
struct ClosingLine {
    container: u32,
    class: u8,
    pieces: u32,
    level: u32,
    weight: u64,
    used: u64,
    floor: u64,
}

trait Kind {
    fn refusal(&self, p: &Piece) -> Option<u8>;
    fn class(&self, p: &Piece) -> u8;
    fn cost(&self, class: u8) -> u64;
    fn ceiling(&self) -> u64;
    fn weight(&self, p: &Piece) -> u64;
    fn load(&self, p: &Piece) -> u32;
    fn fits(&self, class: u8, count: u32, level: u32, p: &Piece) -> bool;
    fn full(&self, class: u8, count: u32, level: u32) -> bool;
}

const MULTIPLES: [u64; 11] = [1, 2, 6, 12, 60, 60, 420, 840, 2520, 2520, 27720];
const FACTORS: [u64; 11] = [2, 7, 31, 82, 510, 610, 4980, 11380, 38400, 42660, 516120];

struct Bars {
    capacity: u32,
    k: u8,
}

impl Bars {
    fn multiple(&self) -> u64 {
        MULTIPLES[self.k as usize - 2]
    }
    fn unit(&self) -> u64 {
        (self.k as u64 - 1) * self.multiple() * self.capacity as u64
    }
}

impl Kind for Bars {
    fn refusal(&self, p: &Piece) -> Option<u8> {
        if p.finish != 0 {
            Some(2)
        } else if p.first < 1 || p.first > self.capacity {
            Some(3)
        } else if p.second != 0 {
            Some(4)
        } else {
            None
        }
    }
    fn class(&self, p: &Piece) -> u8 {
        (self.capacity / p.first).min(self.k as u32) as u8
    }
    fn cost(&self, _class: u8) -> u64 {
        1
    }
    fn ceiling(&self) -> u64 {
        FACTORS[self.k as usize - 2] * self.capacity as u64
    }
    fn weight(&self, p: &Piece) -> u64 {
        let class = self.class(p);
        if class < self.k {
            self.unit() / class as u64
        } else {
            self.k as u64 * self.multiple() * p.first as u64
        }
    }
    fn load(&self, p: &Piece) -> u32 {
        p.first
    }
    fn fits(&self, class: u8, count: u32, level: u32, p: &Piece) -> bool {
        if class < self.k {
            count < class as u32
        } else {
            level + p.first <= self.capacity
        }
    }
    fn full(&self, class: u8, count: u32, _level: u32) -> bool {
        class < self.k && class as u32 <= count
    }
}

struct Totes {
    bars: Bars,
    limit: u8,
}

impl Kind for Totes {
    fn refusal(&self, p: &Piece) -> Option<u8> {
        self.bars.refusal(p)
    }
    fn class(&self, p: &Piece) -> u8 {
        self.bars.class(p)
    }
    fn cost(&self, class: u8) -> u64 {
        self.bars.cost(class)
    }
    fn ceiling(&self) -> u64 {
        self.bars.ceiling() * self.limit as u64 + self.bars.unit() * self.limit as u64
    }
    fn weight(&self, p: &Piece) -> u64 {
        let class = self.bars.class(p);
        if class < self.bars.k {
            self.bars.unit() * self.limit as u64 / class as u64
        } else {
            self.bars.weight(p) * self.limit as u64 + self.bars.unit()
        }
    }
    fn load(&self, p: &Piece) -> u32 {
        p.first
    }
    fn fits(&self, class: u8, count: u32, level: u32, p: &Piece) -> bool {
        self.bars.fits(class, count, level, p) && (class < self.bars.k || count < self.limit as u32)
    }
    fn full(&self, class: u8, count: u32, level: u32) -> bool {
        self.bars.full(class, count, level) || (class == self.bars.k && self.limit as u32 <= count)
    }
}

struct Strips {
    width: u32,
}

impl Kind for Strips {
    fn refusal(&self, p: &Piece) -> Option<u8> {
        if p.finish != 0 {
            Some(2)
        } else if p.first < 1 || p.first > self.width {
            Some(3)
        } else if p.second < 1 || p.second > 4096 {
            Some(4)
        } else {
            None
        }
    }
    fn class(&self, p: &Piece) -> u8 {
        let rank = (32 - (p.second - 1).leading_zeros()) as u8;
        if 2 * p.first <= self.width { rank + 1 } else { rank + 14 }
    }
    fn cost(&self, class: u8) -> u64 {
        if class <= 13 { 1 << (class - 1) } else { 1 << (class - 14) }
    }
    fn ceiling(&self) -> u64 {
        4 * self.width as u64
    }
    fn weight(&self, p: &Piece) -> u64 {
        4 * p.first as u64 * p.second as u64
    }
    fn load(&self, p: &Piece) -> u32 {
        p.first
    }
    fn fits(&self, class: u8, count: u32, level: u32, p: &Piece) -> bool {
        if class <= 13 { level + p.first <= self.width } else { count == 0 }
    }
    fn full(&self, class: u8, count: u32, _level: u32) -> bool {
        class >= 14 && count >= 1
    }
}

#[derive(Clone, Copy, Default)]
struct Slot {
    container: u32,
    count: u32,
    level: u32,
    weight: u64,
}

struct Lines<'a, T> {
    memory: &'a mut [T],
    used: usize,
}

impl<'a, T: Copy> Lines<'a, T> {
    fn new(memory: &'a mut [T]) -> Self {
        Lines { memory, used: 0 }
    }
    fn room(&self) -> usize {
        self.memory.len() - self.used
    }
    fn add(&mut self, line: T) {
        self.memory[self.used] = line;
        self.used += 1;
    }
    fn view(&self) -> &[T] {
        &self.memory[..self.used]
    }
}

#[allow(dead_code)]
struct Placing {
    container: u32,
    class: u8,
    before: Option<ClosingLine>,
    after: Option<ClosingLine>,
}

struct Packer<K> {
    kind: K,
    slots: [Slot; 104],
    accepted: u32,
    opened: u32,
    used: u64,
    weight: u64,
}

impl<K: Kind> Packer<K> {
    fn new(kind: K) -> Self {
        Packer { kind, slots: [Slot::default(); 104], accepted: 0, opened: 0, used: 0, weight: 0 }
    }

    fn floor(&self, weight: u64) -> u64 {
        let ceiling = self.kind.ceiling();
        (weight + ceiling - 1) / ceiling
    }

    fn put(
        &mut self,
        p: &Piece,
        places: &mut Lines<PlaceLine>,
        closings: &mut Lines<ClosingLine>,
    ) -> Result<Placing, u8> {
        if p.number == 0 {
            return Err(1);
        }
        if let Some(refusal) = self.kind.refusal(p) {
            return Err(refusal);
        }
        if self.accepted >= 100_000 {
            return Err(5);
        }
        let class = self.kind.class(p);
        let found = self.slots[class as usize - 1];
        let fits = found.count != 0 && self.kind.fits(class, found.count, found.level, p);
        let mut slot = if fits {
            found
        } else {
            Slot { container: self.opened + 1, ..Slot::default() }
        };
        let weighs = self.kind.weight(p);
        slot.count += 1;
        slot.level += self.kind.load(p);
        slot.weight += weighs;
        let weight = self.weight + weighs;
        let used = if fits { self.used } else { self.used + self.kind.cost(class) };
        let floor = self.floor(weight);
        let closing = |s: &Slot| ClosingLine {
            container: s.container,
            class,
            pieces: s.count,
            level: s.level,
            weight: s.weight,
            used,
            floor,
        };
        let full = self.kind.full(class, slot.count, slot.level);
        let before = if found.count != 0 && !fits { Some(closing(&found)) } else { None };
        let after = if full { Some(closing(&slot)) } else { None };
        let lines = before.is_some() as usize + after.is_some() as usize;
        if places.room() == 0 || closings.room() < lines {
            return Err(6);
        }
        self.slots[class as usize - 1] = if full { Slot::default() } else { slot };
        self.accepted += 1;
        if !fits {
            self.opened += 1;
        }
        self.used = used;
        self.weight = weight;
        places.add(PlaceLine {
            number: p.number,
            first: p.first,
            second: p.second,
            finish: p.finish,
            container: slot.container,
            class,
        });
        for line in [before, after].into_iter().flatten() {
            closings.add(line);
        }
        Ok(Placing { container: slot.container, class, before, after })
    }
}

const PIECES: u32 = 100_000;

struct Draw {
    state: u64,
}

impl Draw {
    fn new() -> Self {
        Draw { state: 0x9e37_79b9_7f4a_7c15 }
    }
    fn next(&mut self) -> u32 {
        let mut x = self.state;
        x ^= x << 13;
        x ^= x >> 7;
        x ^= x << 17;
        self.state = x;
        (x >> 33) as u32
    }
    fn piece(&mut self, number: u32, heights: u32) -> Piece {
        let first = self.next() % 1000 + 1;
        let drawn = self.next();
        let second = if heights == 0 { 0 } else { drawn % heights + 1 };
        Piece { number, first, second, finish: 0 }
    }
}

fn pack<K: Kind>(kind: K, heights: u32, pieces: u32, sum: &mut u64) -> u64 {
    let mut draw = Draw::new();
    let mut packer = Packer::new(kind);
    for i in 0..pieces {
        let piece = draw.piece(i / 2 + 1, heights);
        let mut place_memory = [PlaceLine::default(); 1];
        let mut closing_memory = [ClosingLine::default(); 2];
        let mut places = Lines::new(&mut place_memory);
        let mut closings = Lines::new(&mut closing_memory);
        let _ = packer.put(&piece, &mut places, &mut closings);
        for place in places.view() {
            *sum = sum.wrapping_mul(31).wrapping_add(place.container as u64);
        }
        for closing in closings.view() {
            *sum = sum.wrapping_mul(31).wrapping_add(closing.floor);
        }
    }
    packer.used
}

fn draw_only(pieces: u32, sum: &mut u64) -> u64 {
    let mut draw = Draw::new();
    for i in 0..pieces {
        let piece = draw.piece(i / 2 + 1, 64);
        *sum = sum.wrapping_mul(31).wrapping_add(piece.first as u64).wrapping_add(piece.second as u64);
    }
    0
}

fn main() {
    let words: Vec<String> = std::env::args().skip(1).collect();
    let (who, what) = (words[0].as_str(), words[1].as_str());
    let mut sum = 0;
    let used = match (who, what) {
        ("proved", "bars") => packed_bars(PIECES, &mut sum),
        ("proved", "totes") => packed_totes(PIECES, &mut sum),
        ("proved", "strips") => packed_strips(PIECES, &mut sum),
        (_, "bars") => pack(Bars { capacity: 1000, k: 12 }, 0, PIECES, &mut sum),
        (_, "totes") => {
            let bars = Bars { capacity: 1000, k: 12 };
            pack(Totes { bars, limit: 50 }, 0, PIECES, &mut sum)
        }
        (_, "strips") => pack(Strips { width: 1000 }, 64, PIECES, &mut sum),
        _ => draw_only(PIECES, &mut sum),
    };
    println!("{what} {used} {sum}");
}
