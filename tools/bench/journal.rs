// The same device, the same checksum algorithm and the same measurement as crates/journal_bench, in plain Rust, to compare speeds with.
use std::time::Instant;

const ADDRESSES: usize = 1024;
const APPENDS: u64 = 1_000_000;
const LONG: u64 = 1 << 40;
const SHORT: u64 = 16;
const OPENINGS: usize = 50;
const ROUNDS: usize = 7;
const RECORD: usize = 28;
const ROW: usize = 4096;
const PLACES: usize = 2 * ROW;
const DEVICE: usize = PLACES * RECORD;
const LIMIT: u64 = 1 << 63;

const fn table() -> [u32; 256] {
    let mut table = [0; 256];
    let mut i = 0;
    while i < 256 {
        let mut state = i as u32;
        let mut bit = 0;
        while bit < 8 {
            state = if state & 1 == 1 { (state >> 1) ^ 0x82F6_3B78 } else { state >> 1 };
            bit += 1;
        }
        table[i] = state;
        i += 1;
    }
    table
}

static TABLE: [u32; 256] = table();

fn crc32c(bytes: &[u8]) -> u32 {
    !bytes.iter().fold(!0, |state, byte| {
        TABLE[((state ^ u32::from(*byte)) & 0xff) as usize] ^ (state >> 8)
    })
}

#[derive(Clone, Copy)]
struct Lease {
    address: u16,
    client: u32,
    expires: u64,
}

struct Record {
    sequence: u64,
    base: u16,
    lease: Lease,
}

type Place = [u8; RECORD];

impl Record {
    fn encode(&self, place: &mut Place) {
        place[0..8].copy_from_slice(&self.sequence.to_be_bytes());
        place[8..10].copy_from_slice(&self.base.to_be_bytes());
        place[10..12].copy_from_slice(&self.lease.address.to_be_bytes());
        place[12..16].copy_from_slice(&self.lease.client.to_be_bytes());
        place[16..24].copy_from_slice(&self.lease.expires.to_be_bytes());
        let sum = crc32c(&place[..24]);
        place[24..].copy_from_slice(&sum.to_be_bytes());
    }

    fn decode(place: &Place) -> Option<Record> {
        if crc32c(&place[..24]) != u32::from_be_bytes(place[24..].try_into().unwrap()) {
            return None;
        }
        Some(Record {
            sequence: u64::from_be_bytes(place[0..8].try_into().unwrap()),
            base: u16::from_be_bytes(place[8..10].try_into().unwrap()),
            lease: Lease {
                address: u16::from_be_bytes(place[10..12].try_into().unwrap()),
                client: u32::from_be_bytes(place[12..16].try_into().unwrap()),
                expires: u64::from_be_bytes(place[16..24].try_into().unwrap()),
            },
        })
    }
}

#[derive(Clone, Copy, Default)]
struct Row {
    first: u64,
    base: u16,
    count: usize,
}

impl Row {
    fn is_whole(&self) -> bool {
        self.count >= 1 && self.count >= usize::from(self.base)
    }
}

#[derive(Clone, Copy, PartialEq)]
enum Found {
    New,
    Lost,
    Table,
}

struct Journal {
    device: Vec<Place>,
    rows: [Row; 2],
    active: usize,
    highest: u64,
    found: Found,
}

// The row as far as it is read, the highest number in it, and whether it is zeros alone.
fn scan(places: &[Place]) -> (Row, u64, bool) {
    let mut row = Row::default();
    let mut highest = 0;
    let mut blank = true;
    for (k, place) in places.iter().enumerate() {
        let Some(record) = Record::decode(place) else {
            blank = blank && place.iter().all(|byte| *byte == 0);
            continue;
        };
        blank = false;
        highest = highest.max(record.sequence);
        if k == 0 {
            row = Row { first: record.sequence, base: record.base, count: 1 };
        } else if row.count == k && record.sequence.checked_sub(row.first) == Some(k as u64) {
            row.count += 1;
        }
    }
    (row, highest, blank)
}

impl Journal {
    fn open(bytes: &[u8]) -> Option<Journal> {
        if bytes.len() != DEVICE {
            return None;
        }
        let device: Vec<Place> = bytes.chunks_exact(RECORD).map(|place| place.try_into().unwrap()).collect();
        let (a, a_highest, a_blank) = scan(&device[..ROW]);
        let (b, b_highest, b_blank) = scan(&device[ROW..]);
        let highest = a_highest.max(b_highest);
        let newer = usize::from(a.count == 0 || (b.count >= 1 && b.first > a.first));
        let rows = [a, b];
        for active in [newer, 1 - newer] {
            if rows[active].is_whole() {
                return Some(Journal { device, rows, active, highest, found: Found::Table });
            }
        }
        let found = if a_blank && b_blank { Found::New } else { Found::Lost };
        let full = Row { first: 0, base: 0, count: ROW };
        Some(Journal { device, rows: [a, full], active: 1, highest, found })
    }

    fn recover(&self, table: &mut [Option<Lease>]) {
        table.fill(None);
        if self.found != Found::Table {
            return;
        }
        let from = self.active * ROW;
        for place in &self.device[from..from + self.rows[self.active].count] {
            if let Some(record) = Record::decode(place) {
                if let Some(entry) = table.get_mut(usize::from(record.lease.address)) {
                    *entry = Some(record.lease);
                }
            }
        }
    }

    fn write(&mut self, lease: Lease) {
        let row = &mut self.rows[self.active];
        let sequence = row.first + row.count as u64;
        let record = Record { sequence, base: row.base, lease };
        record.encode(&mut self.device[self.active * ROW + row.count]);
        row.count += 1;
        self.highest = self.highest.max(sequence);
        self.found = Found::Table;
    }

    // The places written: the first, and how many.
    fn append(&mut self, clock: u64, table: &[Option<Lease>], lease: Lease) -> Option<(usize, usize)> {
        if table.len() >= ROW {
            return None;
        }
        let row = self.rows[self.active];
        if row.count < ROW {
            if row.first >= LIMIT - row.count as u64 {
                return None;
            }
            self.write(lease);
            return Some((self.active * ROW + row.count, 1));
        }
        let live = || table.iter().flatten().filter(|lease| clock <= lease.expires);
        let kept = live().count();
        if self.highest >= LIMIT - 1 - kept as u64 {
            return None;
        }
        self.active = 1 - self.active;
        self.rows[self.active] = Row { first: self.highest + 1, base: kept as u16, count: 0 };
        for lease in live() {
            self.write(*lease);
        }
        self.write(lease);
        Some((self.active * ROW, kept + 1))
    }
}

fn lend(term: u64) -> Journal {
    let mut journal = Journal::open(&vec![0; DEVICE]).expect("a device");
    let mut table = vec![None; ADDRESSES];
    for clock in 0..APPENDS {
        let at = clock as usize % ADDRESSES;
        let lease = Lease { address: at as u16, client: clock as u32, expires: clock + term };
        journal.append(clock, &table, lease).expect("a number");
        table[at] = Some(lease);
    }
    journal
}

fn recover(image: &[u8]) -> u32 {
    let mut table = vec![None; ADDRESSES];
    let mut sum: u32 = 0;
    for _ in 0..OPENINGS {
        Journal::open(image).expect("a device").recover(&mut table);
        for lease in table.iter().flatten() {
            sum = sum.wrapping_add(lease.client);
        }
    }
    sum
}

fn main() {
    let mut open_best = u128::MAX;
    let mut live_best = u128::MAX;
    let mut few_best = u128::MAX;
    let mut sums = 0;
    for _ in 0..ROUNDS {
        let start = Instant::now();
        let live = lend(LONG);
        live_best = live_best.min(start.elapsed().as_micros());
        let start = Instant::now();
        let few = lend(SHORT);
        few_best = few_best.min(start.elapsed().as_micros());
        let image = live.device.concat();
        let start = Instant::now();
        sums ^= recover(&image);
        open_best = open_best.min(start.elapsed().as_micros());
        sums ^= crc32c(&image) ^ crc32c(&few.device.concat());
    }
    println!("sums {sums:08x} open {open_best} live {live_best} few {few_best}");
}
