// A plain cycle-by-cycle pipeline of RV32I, without proofs: the peer of `ixt run`. Build it with `rustc --edition 2021 -O`. It
// takes the words of both forms of `run`, of which the longer one must have an extension without sections, or that of the dot product
// of `examples`, which is here by hand and on a core where it does not wait (`five.toml`); of a datasheet it reads the core alone.
//
//     pipeline_peer run IMAGE CYCLES
//     pipeline_peer run EXT SHEET IMAGE WAITS CYCLES
use std::io::{self, BufWriter, Write};
use std::process::exit;
use std::sync::atomic::{AtomicBool, Ordering};

/// Whether the dot product is an instruction.
static HAS_DOT_PRODUCT: AtomicBool = AtomicBool::new(false);

const BASE: u32 = 0x8000_0000;
const SIZE: u32 = 0x10_0000;

/// The numbers of a core: its stages, and those in which operands are read, an instruction executes and memory is accessed.
#[derive(Clone, Copy)]
struct Shape {
    stages: usize,
    rd: usize,
    ex: usize,
    mem: usize,
}

#[derive(Clone, Copy, PartialEq)]
enum Hold {
    Operand(usize, u32),
    Drain(u32),
    Wait(u8),
    StoreAhead(u32),
    Behind,
}

/// What is asked of a word before its operands are known.
#[derive(Clone, Copy)]
struct Decoded {
    rd: usize,
    reads: [usize; 2],
    loads: bool,
    stores: bool,
}

/// What an instruction comes to, but for the value of a load.
#[derive(Clone, Copy)]
struct Outcome {
    stop: Option<&'static str>,
    value: u32,
    next: u32,
    address: u32,
    stored: u32,
}

#[derive(Clone, Copy)]
struct Cell {
    serial: u32,
    at: u32,
    word: u32,
    decoded: Decoded,
    operands: [u32; 2],
    outcome: Option<Outcome>,
    rows_in_mem: u32,
    hold: Option<Hold>,
}

struct Machine<'a> {
    shape: Shape,
    image: &'a [u32],
    waits: &'a [u8],
    cells: [Option<Cell>; 5],
    fetch: u32,
    serial: u32,
    accesses: usize,
    pc: u32,
    x: [u32; 32],
    memory: Vec<u8>,
}

fn opcode(word: u32) -> u32 {
    word & 127
}

fn function(word: u32) -> u32 {
    word >> 12 & 7
}

fn is_legal(word: u32) -> bool {
    let (f3, f7) = (function(word), word >> 25);
    match opcode(word) {
        0x37 | 0x17 | 0x6f => true,
        0x67 | 0x0f => f3 == 0,
        0x63 => f3 != 2 && f3 != 3,
        0x03 => matches!(f3, 0 | 1 | 2 | 4 | 5),
        0x23 => f3 < 3,
        0x13 => match f3 {
            1 => f7 == 0,
            5 => f7 == 0 || f7 == 32,
            _ => true,
        },
        0x33 => f7 == 0 || f7 == 32 && (f3 == 0 || f3 == 5),
        0x0b => f3 == 0 && f7 == 0 && HAS_DOT_PRODUCT.load(Ordering::Relaxed),
        _ => word == 0x73 || word == 0x10_0073,
    }
}

fn decode(word: u32) -> Decoded {
    let is_legal = is_legal(word);
    let (rd, rs1, rs2) = ((word >> 7 & 31) as usize, (word >> 15 & 31) as usize, (word >> 20 & 31) as usize);
    let (writes, first, second) = match opcode(word) {
        0x37 | 0x17 | 0x6f => (true, false, false),
        0x67 | 0x03 | 0x13 => (true, true, false),
        0x63 | 0x23 => (false, true, true),
        0x33 | 0x0b => (true, true, true),
        _ => (false, false, false),
    };
    let only = |is: bool, register: usize| if is && is_legal { register } else { 0 };
    Decoded {
        rd: only(writes, rd),
        reads: [only(first, rs1), only(second, rs2)],
        loads: is_legal && opcode(word) == 0x03,
        stores: is_legal && opcode(word) == 0x23,
    }
}

fn computed(f3: u32, is_other: bool, a: u32, b: u32) -> u32 {
    match f3 {
        0 if is_other => a.wrapping_sub(b),
        0 => a.wrapping_add(b),
        1 => a << (b & 31),
        2 => u32::from((a as i32) < b as i32),
        3 => u32::from(a < b),
        4 => a ^ b,
        5 if is_other => (a as i32 >> (b & 31)) as u32,
        5 => a >> (b & 31),
        6 => a | b,
        _ => a & b,
    }
}

fn dot_product(a: u32, b: u32) -> u32 {
    let products = (0..4).map(|k| i32::from((a >> (8 * k)) as i8) * i32::from((b >> (8 * k)) as i8));
    products.sum::<i32>() as u32
}

fn is_taken(f3: u32, a: u32, b: u32) -> bool {
    match f3 {
        0 => a == b,
        1 => a != b,
        4 => (a as i32) < b as i32,
        5 => a as i32 >= b as i32,
        6 => a < b,
        _ => a >= b,
    }
}

fn access_stop(address: u32, bytes: u32) -> Option<&'static str> {
    if address % bytes != 0 {
        Some("Misaligned")
    } else if address.wrapping_sub(BASE) > SIZE - bytes {
        Some("DataRange")
    } else {
        None
    }
}

fn outcome(at: u32, word: u32, a: u32, b: u32) -> Outcome {
    let f3 = function(word);
    let immediate = (word as i32 >> 20) as u32;
    let upper = word & 0xffff_f000;
    let store_offset = (word as i32 >> 25 << 5) as u32 | word >> 7 & 31;
    let branch_offset = (word as i32 >> 31 << 12) as u32 | word << 4 & 0x800 | word >> 20 & 0x7e0 | word >> 7 & 0x1e;
    let jump_offset = (word as i32 >> 31 << 20) as u32 | word & 0xf_f000 | word >> 9 & 0x800 | word >> 20 & 0x7fe;
    let link = at.wrapping_add(4);
    let mut o = Outcome { stop: None, value: 0, next: link, address: 0, stored: b };
    match opcode(word) {
        _ if !is_legal(word) => o.stop = Some("Illegal"),
        0x37 => o.value = upper,
        0x17 => o.value = at.wrapping_add(upper),
        0x6f => (o.value, o.next) = (link, at.wrapping_add(jump_offset)),
        0x67 => (o.value, o.next) = (link, a.wrapping_add(immediate) & !1),
        0x63 if is_taken(f3, a, b) => o.next = at.wrapping_add(branch_offset),
        0x03 => o.address = a.wrapping_add(immediate),
        0x23 => o.address = a.wrapping_add(store_offset),
        0x13 => o.value = computed(f3, f3 == 5 && word >> 30 & 1 == 1, a, immediate),
        0x33 => o.value = computed(f3, word >> 30 & 1 == 1, a, b),
        0x0b => o.value = dot_product(a, b),
        0x73 => o.stop = Some(if word == 0x73 { "Ecall" } else { "Ebreak" }),
        _ => {}
    }
    match opcode(word) {
        0x03 | 0x23 if o.stop.is_none() => o.stop = access_stop(o.address, 1 << (f3 & 3)),
        0x6f | 0x67 | 0x63 if o.stop.is_none() && o.next % 4 != 0 => o.stop = Some("Target"),
        _ => {}
    }
    o
}

fn loaded(memory: &[u8], word: u32, address: u32) -> u32 {
    let at = (address - BASE) as usize;
    let bytes = 1usize << (function(word) & 3);
    let raw = (0..bytes).fold(0, |all, k| all | u32::from(memory[at + k]) << (8 * k));
    match function(word) {
        0 => raw as i8 as i32 as u32,
        1 => raw as i16 as i32 as u32,
        _ => raw,
    }
}

/// What one row tells beside its cells.
#[derive(Default)]
struct Events {
    retired: Option<Cell>,
    flushed: Vec<u32>,
    redirect: Option<u32>,
    stop: Option<&'static str>,
}

impl Machine<'_> {
    fn word_at(&self, at: u32) -> Option<u32> {
        if at % 4 == 0 { self.image.get((at / 4) as usize).copied() } else { None }
    }

    fn operands_of(&self, stage: usize, cell: &Cell) -> [u32; 2] {
        if stage <= self.shape.rd { cell.decoded.reads.map(|r| self.x[r]) } else { cell.operands }
    }

    fn outcome_of(&self, stage: usize, cell: &Cell) -> Outcome {
        let [a, b] = self.operands_of(stage, cell);
        outcome(cell.at, cell.word, a, b)
    }

    fn operand_hold(&self, stage: usize, cell: &Cell) -> Option<Hold> {
        let mut reads = cell.decoded.reads;
        reads.sort();
        for r in reads.into_iter().filter(|r| *r != 0) {
            let writer = self.cells[stage + 1..].iter().rev().flatten().find(|older| older.decoded.rd == r);
            if let Some(older) = writer {
                return Some(Hold::Operand(r, older.serial));
            }
        }
        None
    }

    /// The oldest cell that is not retired by the end of this row.
    fn drain_hold(&self, stage: usize) -> Option<Hold> {
        let last = self.shape.stages - 1;
        for older in (stage + 1..=last).rev() {
            match &self.cells[older] {
                Some(cell) if older < last || cell.hold.is_some() => return Some(Hold::Drain(cell.serial)),
                _ => {}
            }
        }
        None
    }

    fn memory_hold(&self, stage: usize, cell: &Cell) -> Option<Hold> {
        if !cell.decoded.loads && !cell.decoded.stores {
            return None;
        }
        let wait = self.waits.get(self.accesses).copied().unwrap_or(0);
        if u32::from(wait) > cell.rows_in_mem {
            return Some(Hold::Wait((u32::from(wait) - cell.rows_in_mem) as u8));
        }
        let store = self.cells[stage + 1..].iter().rev().flatten().find(|older| older.decoded.stores);
        if cell.decoded.loads { store.map(|older| Hold::StoreAhead(older.serial)) } else { None }
    }

    /// The first true hold of a cell but Behind.
    fn own_hold(&self, stage: usize, cell: &Cell) -> Option<Hold> {
        let operand = if stage == self.shape.rd { self.operand_hold(stage, cell) } else { None };
        let drain = if stage == self.shape.ex && operand.is_none() && self.outcome_of(stage, cell).stop.is_some() {
            self.drain_hold(stage)
        } else {
            None
        };
        let memory = if stage == self.shape.mem { self.memory_hold(stage, cell) } else { None };
        operand.or(drain).or(memory)
    }

    fn stop_at(&self, stage: usize, cell: &Cell) -> Option<&'static str> {
        if stage == self.shape.ex && self.own_hold(stage, cell).is_none() { self.outcome_of(stage, cell).stop } else { None }
    }

    /// Decides the holds from the oldest cell down, and tells the stop of a cell.
    fn decide(&mut self) -> Option<&'static str> {
        let (mut is_blocked, mut stop) = (false, None);
        for stage in (0..self.shape.stages).rev() {
            let Some(cell) = self.cells[stage] else {
                is_blocked = false;
                continue;
            };
            let own = self.own_hold(stage, &cell);
            let stops = self.stop_at(stage, &cell);
            stop = stop.or(stops);
            let hold = own.or(if is_blocked && stops.is_none() { Some(Hold::Behind) } else { None });
            is_blocked = hold.is_some() || stops.is_some();
            self.cells[stage].as_mut().unwrap().hold = hold;
        }
        stop
    }

    /// Flushes what is younger than the cell that leaves EX, where it goes to another address.
    fn settle(&mut self, events: &mut Events, shown: &mut [Option<Cell>; 5]) {
        let ex = self.shape.ex;
        let Some(cell) = self.cells[ex] else { return };
        if cell.hold.is_some() || events.stop.is_some() {
            return;
        }
        let next = self.outcome_of(ex, &cell).next;
        let younger = self.cells[..ex].iter().rev().flatten().next().map(|younger| younger.at);
        if younger.unwrap_or(self.fetch) == next {
            return;
        }
        events.redirect = Some(next);
        for stage in (0..ex).rev() {
            if let Some(flushed) = self.cells[stage].take() {
                events.flushed.push(flushed.serial);
                shown[stage].as_mut().unwrap().hold = None;
            }
        }
    }

    fn fill(&mut self) {
        if self.cells[0].is_none() {
            if let Some(word) = self.word_at(self.fetch) {
                let decoded = decode(word);
                let (serial, at) = (self.serial, self.fetch);
                self.cells[0] = Some(Cell { serial, at, word, decoded, operands: [0; 2], outcome: None, rows_in_mem: 0, hold: None });
                self.serial += 1;
            }
        }
    }

    /// A cell that goes on from a stage; a load reads the memory as it leaves MEM.
    fn gone(&mut self, stage: usize, mut cell: Cell) -> Cell {
        if stage == self.shape.rd {
            cell.operands = self.operands_of(stage, &cell);
            cell.outcome = Some(outcome(cell.at, cell.word, cell.operands[0], cell.operands[1]));
        }
        if stage == self.shape.mem && (cell.decoded.loads || cell.decoded.stores) {
            self.accesses += 1;
            let o = cell.outcome.as_mut().unwrap();
            if cell.decoded.loads {
                o.value = loaded(&self.memory, cell.word, o.address);
            }
        }
        cell
    }

    /// Moves the cells that are not held; one that stops the run stays at EX.
    fn advance(&mut self, stops: bool) -> Option<Cell> {
        let mut retired = None;
        for stage in (0..self.shape.stages).rev() {
            let Some(cell) = self.cells[stage] else { continue };
            if cell.hold.is_some() || stops && stage == self.shape.ex {
                if stage == self.shape.mem {
                    self.cells[stage].as_mut().unwrap().rows_in_mem += 1;
                }
                continue;
            }
            if stage == 0 {
                self.fetch = cell.at.wrapping_add(4);
            }
            self.cells[stage] = None;
            let cell = self.gone(stage, cell);
            if stage + 1 == self.shape.stages {
                retired = Some(cell);
            } else {
                self.cells[stage + 1] = Some(cell);
            }
        }
        retired
    }

    fn retire(&mut self, cell: &Cell) {
        let o = cell.outcome.unwrap();
        if cell.decoded.rd != 0 {
            self.x[cell.decoded.rd] = o.value;
        }
        if cell.decoded.stores {
            for k in 0..1usize << function(cell.word) {
                self.memory[(o.address - BASE) as usize + k] = (o.stored >> (8 * k)) as u8;
            }
        }
        self.pc = o.next;
    }

    /// Makes a row: its cells as it shows them, and what happens in it.
    fn cycle(&mut self) -> ([Option<Cell>; 5], Events) {
        self.fill();
        let stop = self.decide();
        let mut events = Events { stop, ..Events::default() };
        let mut shown = self.cells;
        self.settle(&mut events, &mut shown);
        events.retired = self.advance(events.stop.is_some());
        if let Some(cell) = events.retired {
            self.retire(&cell);
        }
        if let Some(address) = events.redirect {
            self.fetch = address;
        }
        if events.stop.is_none() && self.cells.iter().all(|c| c.is_none()) && self.word_at(self.fetch).is_none() {
            events.stop = Some("Fetch");
        }
        (shown, events)
    }
}

fn put_hold(out: &mut impl Write, hold: Hold) -> io::Result<()> {
    match hold {
        Hold::Operand(r, serial) => write!(out, "/Operand(x{r},{serial})"),
        Hold::Drain(serial) => write!(out, "/Drain({serial})"),
        Hold::Wait(left) => write!(out, "/Wait({left})"),
        Hold::StoreAhead(serial) => write!(out, "/StoreAhead({serial})"),
        Hold::Behind => write!(out, "/Behind"),
    }
}

fn put_retired(out: &mut impl Write, cell: &Cell) -> io::Result<()> {
    let o = cell.outcome.unwrap();
    write!(out, "= {} {:08x} {:08x}", cell.serial, cell.at, cell.word)?;
    if cell.decoded.rd != 0 {
        write!(out, " x{}={:08x}", cell.decoded.rd, o.value)?;
    }
    if cell.decoded.stores {
        let digits = 2 << function(cell.word);
        let value = u64::from(o.stored) & ((1u64 << (4 * digits)) - 1);
        write!(out, " m{:08x}={:0digits$x}", o.address, value)?;
    }
    if o.next != cell.at.wrapping_add(4) {
        write!(out, " pc={:08x}", o.next)?;
    }
    writeln!(out)
}

fn put_row(out: &mut impl Write, number: u32, cells: &[Option<Cell>], events: &Events) -> io::Result<()> {
    write!(out, "{number}")?;
    for cell in cells {
        match cell {
            None => write!(out, " -")?,
            Some(cell) => {
                write!(out, " {}@{:08x}", cell.serial, cell.at)?;
                if let Some(hold) = cell.hold {
                    put_hold(out, hold)?;
                }
            }
        }
    }
    if let Some(cell) = &events.retired {
        write!(out, " r{}", cell.serial)?;
    }
    for serial in &events.flushed {
        write!(out, " f{serial}")?;
    }
    if let Some(address) = events.redirect {
        write!(out, " p{address:08x}")?;
    }
    if let Some(stop) = events.stop {
        write!(out, " stop {stop}")?;
    }
    writeln!(out)?;
    match &events.retired {
        Some(cell) => put_retired(out, cell),
        None => Ok(()),
    }
}

fn put_state(out: &mut impl Write, machine: &Machine) -> io::Result<()> {
    writeln!(out, "state\npc {:08x}", machine.pc)?;
    for (n, value) in machine.x.iter().enumerate().filter(|(_, value)| **value != 0) {
        writeln!(out, "x{n} {value:08x}")?;
    }
    for (k, bytes) in machine.memory.chunks_exact(4).enumerate() {
        let value = u32::from_le_bytes([bytes[0], bytes[1], bytes[2], bytes[3]]);
        if value != 0 {
            writeln!(out, "m {:08x} {:08x}", BASE + 4 * k as u32, value)?;
        }
    }
    out.flush()
}

fn refuse(line: String, status: i32) -> ! {
    let is_written = writeln!(io::stdout(), "refused {line}").is_ok();
    exit(if is_written { status } else { 5 })
}

fn file(name: &str) -> Vec<u8> {
    match std::fs::read(name) {
        Ok(bytes) if bytes.len() <= 1_048_576 => bytes,
        Ok(_) => refuse(format!("TooLong {name}"), 6),
        Err(_) => refuse(format!("ReadFault {name}"), 4),
    }
}

fn image_of(bytes: &[u8]) -> Vec<u32> {
    let mut words = Vec::new();
    for (number, line) in bytes.split(|b| *b == b'\n').enumerate() {
        let text = String::from_utf8_lossy(line);
        let text = text.trim_matches([' ', '\t', '\r']);
        if text.is_empty() || text.starts_with('#') || text.starts_with("//") {
            continue;
        }
        let is_word = text.len() == 8 && text.bytes().all(|b| b.is_ascii_hexdigit()) && words.len() < 65_536;
        if !is_word {
            refuse(format!("Image {}", number + 1), 9);
        }
        words.push(u32::from_str_radix(text, 16).unwrap());
    }
    words
}

fn waits_of(bytes: &[u8]) -> Vec<u8> {
    let mut waits = Vec::new();
    let words = bytes.split(|b| matches!(b, b' ' | b'\t' | b'\r' | b'\n')).filter(|word| !word.is_empty());
    for (number, word) in words.enumerate() {
        let text = String::from_utf8_lossy(word);
        let is_number = text.len() <= 3 && text.bytes().all(|b| b.is_ascii_digit());
        match text.parse::<u8>() {
            Ok(wait) if is_number && number < 65_536 => waits.push(wait),
            _ => refuse(format!("Waits {number}"), 14),
        }
    }
    waits
}

fn shape_of(sheet: &str) -> Shape {
    if sheet.contains("\"three\"") {
        Shape { stages: 3, rd: 1, ex: 1, mem: 2 }
    } else if sheet.contains("\"four\"") {
        Shape { stages: 4, rd: 1, ex: 2, mem: 3 }
    } else {
        Shape { stages: 5, rd: 1, ex: 2, mem: 3 }
    }
}

fn cycles_of(word: &str) -> u32 {
    match word.parse::<u32>() {
        Ok(cycles) if cycles <= 200_000 && word.len() <= 10 && word.bytes().all(|b| b.is_ascii_digit()) => cycles,
        _ => refuse("Usage".into(), 2),
    }
}

fn main() {
    let words: Vec<String> = std::env::args().skip(1).collect();
    let words: Vec<&str> = words.iter().map(|word| word.as_str()).collect();
    let (shape, image, waits, cycles) = match words[..] {
        ["run", image, cycles] => {
            let cycles = cycles_of(cycles);
            (shape_of("\"three\""), image_of(&file(image)), Vec::new(), cycles)
        }
        ["run", extension, sheet, image, waits, cycles] => {
            let cycles = cycles_of(cycles);
            let text = file(extension);
            HAS_DOT_PRODUCT.store(String::from_utf8_lossy(&text).contains("dotp"), Ordering::Relaxed);
            let shape = shape_of(&String::from_utf8_lossy(&file(sheet)));
            (shape, image_of(&file(image)), waits_of(&file(waits)), cycles)
        }
        _ => refuse("Usage".into(), 2),
    };
    let mut machine = Machine {
        shape,
        image: &image,
        waits: &waits,
        cells: [None; 5],
        fetch: 0,
        serial: 0,
        accesses: 0,
        pc: 0,
        x: [0; 32],
        memory: vec![0; SIZE as usize],
    };
    let mut out = BufWriter::with_capacity(65_536, io::stdout().lock());
    for number in 0..cycles {
        let (cells, events) = machine.cycle();
        if put_row(&mut out, number, &cells[..shape.stages], &events).is_err() {
            exit(5);
        }
        if events.stop.is_some() {
            break;
        }
    }
    if put_state(&mut out, &machine).is_err() {
        exit(5);
    }
}
