// The bench's lean tick in plain Rust, built with rustc alone: the measure that the proved program
// is held to. Fan-out lists, tables for the nine values, a wheel with presence bits and a binary
// heap; the same boards, start levels and ticks as the program `speed`.
//
//   plain BOARD CALENDAR FAMILY FILE TICKS
use std::cmp::Reverse;
use std::collections::BinaryHeap;
use std::time::Instant;

const LAST: u32 = 16_777_216;

// ---- families ----

trait Family {
    type Value: Copy + PartialEq;
    fn unset() -> Self::Value;
    fn level(high: bool) -> Self::Value;
    fn operate(kind: u8, a: Self::Value, b: Self::Value) -> Self::Value;
    fn resolve(a: Self::Value, b: Self::Value) -> Self::Value;
    fn code(a: Self::Value) -> u16;
    fn of_code(code: u16) -> Option<Self::Value>;
}

struct Nine;

const RESOLVE: [&[u8; 9]; 9] = [
    b"UUUUUUUUU", b"UXXXXXXXX", b"UX0X0000X", b"UXX11111X", b"UX01ZWLHX", b"UX01WWWWX", b"UX01LWLWX", b"UX01HWWHX", b"UXXXXXXXX",
];

const fn of_letter(c: u8) -> u8 {
    match c { b'U' => 0, b'X' => 1, b'0' => 2, b'1' => 3, b'Z' => 4, b'W' => 5, b'L' => 6, b'H' => 7, _ => 8 }
}

const fn read9(a: u8) -> u8 {
    match a { 6 => 2, 7 => 3, 4 | 5 | 8 => 1, x => x }
}

const fn not9(a: u8) -> u8 {
    match read9(a) { 2 => 3, 3 => 2, x => x }
}

const fn and9(a: u8, b: u8) -> u8 {
    let (x, y) = (read9(a), read9(b));
    if x == 2 || y == 2 { 2 } else if x == 0 || y == 0 { 0 } else if x == 1 || y == 1 { 1 } else { 3 }
}

const fn or9(a: u8, b: u8) -> u8 {
    let (x, y) = (read9(a), read9(b));
    if x == 3 || y == 3 { 3 } else if x == 0 || y == 0 { 0 } else if x == 1 || y == 1 { 1 } else { 2 }
}

const fn xor9(a: u8, b: u8) -> u8 {
    let (x, y) = (read9(a), read9(b));
    if x == 0 || y == 0 { 0 } else if x == 1 || y == 1 { 1 } else if x == y { 2 } else { 3 }
}

const fn tri9(data: u8, enable: u8) -> u8 {
    let (d, e) = (read9(data), read9(enable));
    if e == 2 { 4 } else if d == 0 || e == 0 { 0 } else if e == 1 { 1 } else { d }
}

const fn gate9(kind: u8, a: u8, b: u8) -> u8 {
    match kind {
        1 => and9(a, a), 2 => not9(a), 3 => and9(a, b), 4 => or9(a, b), 5 => xor9(a, b),
        6 => not9(and9(a, b)), 7 => not9(or9(a, b)), 8 => not9(xor9(a, b)), 9 => tri9(a, b), 10 => 7, _ => 6,
    }
}

const fn gates9() -> [u8; 12 * 81] {
    let mut t = [0; 12 * 81];
    let mut i = 81;
    while i < 12 * 81 { t[i] = gate9((i / 81) as u8, (i / 9 % 9) as u8, (i % 9) as u8); i += 1; }
    t
}

const fn joins9() -> [u8; 81] {
    let mut t = [0; 81];
    let mut i = 0;
    while i < 81 { t[i] = of_letter(RESOLVE[i / 9][i % 9]); i += 1; }
    t
}

static GATES9: [u8; 12 * 81] = gates9();
static JOINS9: [u8; 81] = joins9();

impl Family for Nine {
    type Value = u8;
    fn unset() -> u8 { 0 }
    fn level(high: bool) -> u8 { 2 + high as u8 }
    fn operate(kind: u8, a: u8, b: u8) -> u8 { GATES9[kind as usize * 81 + a as usize * 9 + b as usize] }
    fn resolve(a: u8, b: u8) -> u8 { JOINS9[a as usize * 9 + b as usize] }
    fn code(a: u8) -> u16 { a as u16 }
    fn of_code(code: u16) -> Option<u8> { if code < 9 { Some(code as u8) } else { None } }
}

struct Pull;

#[derive(Clone, Copy, PartialEq)]
struct Range { low: u8, high: u8 }

#[derive(Clone, Copy, PartialEq)]
struct Pulls { up: Range, down: Range }

const fn pulls(up: u8, up_high: u8, down: u8, down_high: u8) -> Pulls {
    Pulls { up: Range { low: up, high: up_high }, down: Range { low: down, high: down_high } }
}

fn reading(a: Pulls) -> u8 {
    if a.up.low > a.down.high { 3 } else if a.down.low > a.up.high { 2 } else { 1 }
}

fn shape(x: u8) -> Pulls {
    match x { 2 => pulls(0, 0, 6, 6), 3 => pulls(6, 6, 0, 0), _ => pulls(0, 6, 0, 6) }
}

fn larger(a: Range, b: Range) -> Range { Range { low: a.low.max(b.low), high: a.high.max(b.high) } }

fn range_of(low: u16, high: u16) -> Option<Range> {
    if low <= high && high <= 7 { Some(Range { low: low as u8, high: high as u8 }) } else { None }
}

impl Family for Pull {
    type Value = Pulls;
    fn unset() -> Pulls { pulls(0, 7, 0, 7) }
    fn level(high: bool) -> Pulls { shape(2 + high as u8) }
    fn operate(kind: u8, a: Pulls, b: Pulls) -> Pulls {
        let (x, y) = (reading(a), reading(b));
        match kind {
            9 => match (x, y) {
                (d, 3) => shape(d), (_, 2) => pulls(0, 0, 0, 0), (3, _) => pulls(0, 6, 0, 0), (2, _) => pulls(0, 0, 0, 6), _ => pulls(0, 6, 0, 6),
            },
            10 => pulls(3, 3, 0, 0),
            11 => pulls(0, 0, 3, 3),
            k => shape(GATES9[k as usize * 81 + x as usize * 9 + y as usize]),
        }
    }
    fn resolve(a: Pulls, b: Pulls) -> Pulls { Pulls { up: larger(a.up, b.up), down: larger(a.down, b.down) } }
    fn code(a: Pulls) -> u16 { a.up.low as u16 * 512 + a.up.high as u16 * 64 + a.down.low as u16 * 8 + a.down.high as u16 }
    fn of_code(code: u16) -> Option<Pulls> {
        Some(Pulls { up: range_of(code / 512, code / 64 % 8)?, down: range_of(code / 8 % 8, code % 8)? })
    }
}

// ---- calendars ----

#[derive(Clone, Copy, PartialEq, Eq, PartialOrd, Ord)]
struct Entry { tick: u32, gate: u16, code: u16 }

trait Calendar {
    fn put(&mut self, tick: u32, gate: u16, code: u16) -> Result<(), u8>;
    fn next(&self) -> Option<u32>;
    fn take(&mut self) -> Option<Entry>;
    fn turn(&mut self, tick: u32) -> Result<(), u8>;
}

// Which gates wait in each of 65 rows, by bits; the least tick that waits; the codes in slots.
struct Wheel { codes: Vec<u16>, bits: [u64; 1040], many: [u16; 65], count: usize, soon: u32, today: u32 }

impl Wheel {
    fn new() -> Wheel { Wheel { codes: vec![0; 66_560], bits: [0; 1040], many: [0; 65], count: 0, soon: 0, today: 0 } }

    fn row_from(&self, tick: u32) -> u32 {
        for u in tick..tick + 65 { if self.many[(u % 65) as usize] > 0 { return u; } }
        tick
    }
}

impl Calendar for Wheel {
    fn put(&mut self, tick: u32, gate: u16, code: u16) -> Result<(), u8> {
        if gate >= 1024 { return Err(11); }
        if tick <= self.today || tick - self.today > 64 { return Err(12); }
        let row = (tick % 65) as usize;
        let (at, bit) = (row * 16 + (gate / 64) as usize, 1u64 << (gate % 64));
        if self.bits[at] & bit != 0 { return Err(13); }
        if self.count >= 65_536 { return Err(14); }
        self.bits[at] |= bit;
        self.codes[row * 1024 + gate as usize] = code;
        if self.count == 0 || tick < self.soon { self.soon = tick; }
        self.many[row] += 1;
        self.count += 1;
        Ok(())
    }
    fn next(&self) -> Option<u32> { if self.count == 0 { None } else { Some(self.soon) } }
    fn take(&mut self) -> Option<Entry> {
        if self.count == 0 { return None; }
        let tick = self.soon;
        let row = (tick % 65) as usize;
        for w in row * 16..row * 16 + 16 {
            let word = self.bits[w];
            if word != 0 {
                let gate = (w - row * 16) * 64 + word.trailing_zeros() as usize;
                self.bits[w] = word & (word - 1);
                self.count -= 1;
                self.many[row] -= 1;
                if self.many[row] == 0 && self.count > 0 { self.soon = self.row_from(tick + 1); }
                return Some(Entry { tick, gate: gate as u16, code: self.codes[row * 1024 + gate] });
            }
        }
        None
    }
    fn turn(&mut self, tick: u32) -> Result<(), u8> {
        if tick < self.today || tick > LAST || (self.count > 0 && self.soon < tick) { return Err(15); }
        self.today = tick;
        Ok(())
    }
}

// The standard library's heap, with a mark for each tick and gate that waits.
struct Heap { pile: BinaryHeap<Reverse<u64>>, marks: Vec<bool>, today: u32 }

impl Heap {
    fn new() -> Heap { Heap { pile: BinaryHeap::with_capacity(65_536), marks: vec![false; 66_560], today: 0 } }
}

fn key(e: Entry) -> u64 { (e.tick as u64) << 32 | (e.gate as u64) << 16 | e.code as u64 }

impl Calendar for Heap {
    fn put(&mut self, tick: u32, gate: u16, code: u16) -> Result<(), u8> {
        if gate >= 1024 { return Err(11); }
        if tick <= self.today || tick - self.today > 64 { return Err(12); }
        let at = (tick % 65) as usize * 1024 + gate as usize;
        if self.marks[at] { return Err(13); }
        if self.pile.len() >= 65_536 { return Err(14); }
        self.marks[at] = true;
        self.pile.push(Reverse(key(Entry { tick, gate, code })));
        Ok(())
    }
    fn next(&self) -> Option<u32> { self.pile.peek().map(|k| (k.0 >> 32) as u32) }
    fn take(&mut self) -> Option<Entry> {
        let k = self.pile.pop()?.0;
        let e = Entry { tick: (k >> 32) as u32, gate: (k >> 16) as u16, code: k as u16 };
        self.marks[(e.tick % 65) as usize * 1024 + e.gate as usize] = false;
        Some(e)
    }
    fn turn(&mut self, tick: u32) -> Result<(), u8> {
        if tick < self.today || tick > LAST || self.next().map_or(false, |t| t < tick) { return Err(15); }
        self.today = tick;
        Ok(())
    }
}

// ---- the board ----

#[derive(Clone, Copy, Default)]
struct Gate { kind: u8, a: u16, b: u16, out: u16, delay: u16 }

struct Netlist { nets: usize, ports: usize, gates: Vec<Gate>, watches: Vec<u16> }

fn two(f: &[u8], at: usize) -> u16 { u16::from_be_bytes([f[at], f[at + 1]]) }

fn look_over(f: &[u8]) -> Netlist {
    let (g, w) = (two(f, 9) as usize, two(f, 11) as usize);
    assert!(&f[0..3] == b"NLB" && two(f, 3) == 1 && f.len() == 13 + 9 * g + 2 * w);
    let gates = (0..g).map(|i| {
        let at = 13 + 9 * i;
        Gate { kind: f[at], a: two(f, at + 1), b: two(f, at + 3), out: two(f, at + 5), delay: two(f, at + 7) }
    }).collect();
    let watches = (0..w).map(|i| two(f, 13 + 9 * g + 2 * i)).collect();
    Netlist { nets: two(f, 5) as usize, ports: two(f, 7) as usize, gates, watches }
}

// Lists of gates by net: those of net n stand from at[n] to at[n + 1].
struct Lists { at: Vec<u32>, gates: Vec<u16> }

fn lists(nets: usize, pairs: &[(u16, u16)]) -> Lists {
    let mut at = vec![0u32; nets + 1];
    for (n, _) in pairs { at[*n as usize + 1] += 1; }
    for n in 0..nets { at[n + 1] += at[n]; }
    let mut next = at.clone();
    let mut gates = vec![0; pairs.len()];
    for (n, g) in pairs { gates[next[*n as usize] as usize] = *g; next[*n as usize] += 1; }
    Lists { at, gates }
}

// ---- the run ----

struct Run<F: Family, C: Calendar> {
    net: Netlist,
    calendar: C,
    drivers: Lists,
    readers: Lists,
    watched: Vec<bool>,
    ports: Vec<F::Value>,
    drives: Vec<F::Value>,
    planned: Vec<F::Value>,
    levels: Vec<F::Value>,
    shown: Vec<F::Value>,
    due: Vec<u16>,
    changed: Vec<u16>,
    calm: bool,
    ticks: u32,
    records: u64,
    changes: u64,
}

impl<F: Family, C: Calendar> Run<F, C> {
    fn open(net: Netlist, calendar: C) -> Run<F, C> {
        let outs: Vec<(u16, u16)> = net.gates.iter().enumerate().map(|(g, x)| (x.out, g as u16)).collect();
        let mut ins = Vec::new();
        for (g, x) in net.gates.iter().enumerate() {
            if x.kind <= 9 { ins.push((x.a, g as u16)); }
            if (3..=9).contains(&x.kind) && x.a != x.b { ins.push((x.b, g as u16)); }
        }
        let mut watched = vec![false; net.nets];
        for n in &net.watches { watched[*n as usize] = true; }
        let (n, g) = (net.nets, net.gates.len());
        Run {
            drivers: lists(n, &outs), readers: lists(n, &ins), watched, calendar,
            ports: vec![F::unset(); n], drives: vec![F::unset(); g], planned: vec![F::unset(); g], levels: vec![F::unset(); n], shown: vec![F::unset(); n],
            due: Vec::with_capacity(1024), changed: Vec::with_capacity(1024), calm: false, ticks: 0, records: 0, changes: 0, net,
        }
    }

    fn wake(&mut self, g: usize, v: F::Value) { self.drives[g] = v; self.planned[g] = v; }

    fn resolved(&self, n: usize) -> F::Value {
        let list = &self.drivers.gates[self.drivers.at[n] as usize..self.drivers.at[n + 1] as usize];
        let (mut v, rest) = if n < self.net.ports { (self.ports[n], list) } else { (self.drives[list[0] as usize], &list[1..]) };
        for g in rest { v = F::resolve(v, self.drives[*g as usize]); }
        v
    }

    fn plan(&mut self, t: u32, g: u16) {
        let x = self.net.gates[g as usize];
        let v = F::operate(x.kind, self.levels[x.a as usize], self.levels[x.b as usize]);
        if v != self.planned[g as usize] {
            self.planned[g as usize] = v;
            let _ = self.calendar.put(t + x.delay as u32, g, F::code(v));
        }
    }

    fn take_due(&mut self, t: u32) {
        self.due.clear();
        while self.calendar.next() == Some(t) {
            let Some(e) = self.calendar.take() else { break };
            if let Some(v) = F::of_code(e.code) { self.drives[e.gate as usize] = v; }
            self.due.push(e.gate);
        }
    }

    // Every net and every gate, for tick 0 and after a drive.
    fn settle_all(&mut self, t: u32) -> bool {
        for n in 0..self.net.nets {
            let v = self.resolved(n);
            if v != self.levels[n] { self.changes += 1; self.levels[n] = v; }
        }
        for g in 0..self.net.gates.len() { self.plan(t, g as u16); }
        true
    }

    // Only what the due gates reach.
    fn settle_changed(&mut self, t: u32) -> bool {
        let mut show = false;
        self.changed.clear();
        for i in 0..self.due.len() {
            let n = self.net.gates[self.due[i] as usize].out as usize;
            let v = self.resolved(n);
            if v != self.levels[n] {
                self.levels[n] = v;
                self.changed.push(n as u16);
                show |= self.watched[n];
            }
        }
        self.changes += self.changed.len() as u64;
        for i in 0..self.changed.len() {
            let n = self.changed[i] as usize;
            for j in self.readers.at[n] as usize..self.readers.at[n + 1] as usize { self.plan(t, self.readers.gates[j]); }
        }
        show
    }

    fn report(&mut self, t: u32, out: &mut [u8], mut at: usize) -> usize {
        for n in &self.net.watches {
            let v = self.levels[*n as usize];
            if v != self.shown[*n as usize] {
                self.shown[*n as usize] = v;
                out[at..at + 4].copy_from_slice(&t.to_be_bytes());
                out[at + 4..at + 6].copy_from_slice(&n.to_be_bytes());
                out[at + 6..at + 8].copy_from_slice(&F::code(v).to_be_bytes());
                at += 8;
                self.records += 1;
            }
        }
        at
    }

    fn tick(&mut self, out: &mut [u8], at: usize) -> usize {
        let t = self.ticks;
        let _ = self.calendar.turn(t);
        self.ticks += 1;
        if self.calm && self.calendar.next() != Some(t) { return at; }
        self.take_due(t);
        let show = if self.calm { self.settle_changed(t) } else { self.settle_all(t) };
        self.calm = true;
        if show { self.report(t, out, at) } else { at }
    }

    fn advance(&mut self, k: u32, out: &mut [u8]) -> (u32, usize) {
        let room = 8 * self.net.watches.len();
        let (mut done, mut end) = (0, 0);
        while done < k && out.len() - end >= room {
            end = self.tick(out, end);
            done += 1;
        }
        (done, end)
    }
}

fn measure<F: Family, C: Calendar>(net: Netlist, calendar: C, ticks: u32) -> (u32, u64, u128) {
    let mut run: Run<F, C> = Run::open(net, calendar);
    for g in 0..run.net.gates.len() {
        let high = run.net.gates[g].kind == 2 && g % 2 == 1;
        run.wake(g, F::level(high));
    }
    let mut trace = vec![0u8; 65_536];
    let start = Instant::now();
    let mut done = 0;
    while done < ticks { done += run.advance((ticks - done).min(2_097_152), &mut trace).0; }
    (run.ticks, run.changes, start.elapsed().as_micros())
}

fn main() {
    let words: Vec<String> = std::env::args().skip(1).collect();
    let [board, queue, values, file, ticks] = &words[..] else { panic!("plain BOARD CALENDAR FAMILY FILE TICKS") };
    let net = look_over(&std::fs::read(file).expect("the board's file"));
    let ticks = ticks.parse().expect("ticks");
    let (ticks, changes, micros) = match (queue.as_str(), values.as_str()) {
        ("heap", "nine") => measure::<Nine, Heap>(net, Heap::new(), ticks),
        ("heap", "pull") => measure::<Pull, Heap>(net, Heap::new(), ticks),
        ("wheel", "nine") => measure::<Nine, Wheel>(net, Wheel::new(), ticks),
        _ => measure::<Pull, Wheel>(net, Wheel::new(), ticks),
    };
    let rate = changes as u128 * 1_000_000 / micros.max(1);
    println!("{board} {queue} {values} {ticks} ticks {changes} changes {micros} us {rate} changes/s");
}
