// The same server, the same checksum algorithm and the same measurement as crates/server_bench, in plain Rust, to compare speeds with.
use std::time::Instant;

const ADDRESSES: u16 = 1024;
const LONG_TERM: u32 = 86_400;
const SHORT_TERM: u32 = 60;
const RENEWALS: u32 = 200_000;
const FIRST_REQUESTS: u32 = 102_400;
const ROUNDS: usize = 5;
const RECORD: usize = 28;
const ROW: usize = 4096;
const PLACES: usize = 2 * ROW;
const DEVICE: usize = PLACES * RECORD;
const LIMIT: u64 = 1 << 63;

const fn table() -> [u32; 256] {
    let mut table = [0; 256];
    let mut i = 0;
    while i < 256 {
        let mut state = i as u32;
        let mut bit = 0;
        while bit < 8 {
            state = if state & 1 == 1 { (state >> 1) ^ 0x82F6_3B78 } else { state >> 1 };
            bit += 1;
        }
        table[i] = state;
        i += 1;
    }
    table
}

static TABLE: [u32; 256] = table();

fn crc32c(bytes: &[u8]) -> u32 {
    !bytes.iter().fold(!0, |state, byte| {
        TABLE[((state ^ u32::from(*byte)) & 0xff) as usize] ^ (state >> 8)
    })
}

#[derive(Clone, Copy)]
struct Lease {
    address: u16,
    client: u32,
    expires: u64,
}

struct Record {
    sequence: u64,
    base: u16,
    lease: Lease,
}

type Place = [u8; RECORD];

impl Record {
    fn encode(&self, place: &mut Place) {
        place[0..8].copy_from_slice(&self.sequence.to_be_bytes());
        place[8..10].copy_from_slice(&self.base.to_be_bytes());
        place[10..12].copy_from_slice(&self.lease.address.to_be_bytes());
        place[12..16].copy_from_slice(&self.lease.client.to_be_bytes());
        place[16..24].copy_from_slice(&self.lease.expires.to_be_bytes());
        let sum = crc32c(&place[..24]);
        place[24..].copy_from_slice(&sum.to_be_bytes());
    }

    fn decode(place: &Place) -> Option<Record> {
        if crc32c(&place[..24]) != u32::from_be_bytes(place[24..].try_into().unwrap()) {
            return None;
        }
        Some(Record {
            sequence: u64::from_be_bytes(place[0..8].try_into().unwrap()),
            base: u16::from_be_bytes(place[8..10].try_into().unwrap()),
            lease: Lease {
                address: u16::from_be_bytes(place[10..12].try_into().unwrap()),
                client: u32::from_be_bytes(place[12..16].try_into().unwrap()),
                expires: u64::from_be_bytes(place[16..24].try_into().unwrap()),
            },
        })
    }
}

#[derive(Clone, Copy, Default)]
struct Row {
    first: u64,
    base: u16,
    count: usize,
}

impl Row {
    fn is_whole(&self) -> bool {
        self.count >= 1 && self.count >= usize::from(self.base)
    }
}

#[derive(Clone, Copy, PartialEq)]
enum Found {
    New,
    Lost,
    Table,
}

struct Journal {
    device: Vec<Place>,
    rows: [Row; 2],
    active: usize,
    highest: u64,
    found: Found,
}

// The row as far as it is read, the highest number in it, and whether it is zeros alone.
fn scan(places: &[Place]) -> (Row, u64, bool) {
    let mut row = Row::default();
    let mut highest = 0;
    let mut blank = true;
    for (k, place) in places.iter().enumerate() {
        let Some(record) = Record::decode(place) else {
            blank = blank && place.iter().all(|byte| *byte == 0);
            continue;
        };
        blank = false;
        highest = highest.max(record.sequence);
        if k == 0 {
            row = Row { first: record.sequence, base: record.base, count: 1 };
        } else if row.count == k && record.sequence.checked_sub(row.first) == Some(k as u64) {
            row.count += 1;
        }
    }
    (row, highest, blank)
}

impl Journal {
    fn open(bytes: &[u8]) -> Option<Journal> {
        if bytes.len() != DEVICE {
            return None;
        }
        let device: Vec<Place> = bytes.chunks_exact(RECORD).map(|place| place.try_into().unwrap()).collect();
        let (a, a_highest, a_blank) = scan(&device[..ROW]);
        let (b, b_highest, b_blank) = scan(&device[ROW..]);
        let highest = a_highest.max(b_highest);
        let newer = usize::from(a.count == 0 || (b.count >= 1 && b.first > a.first));
        let rows = [a, b];
        for active in [newer, 1 - newer] {
            if rows[active].is_whole() {
                return Some(Journal { device, rows, active, highest, found: Found::Table });
            }
        }
        let found = if a_blank && b_blank { Found::New } else { Found::Lost };
        let full = Row { first: 0, base: 0, count: ROW };
        Some(Journal { device, rows: [a, full], active: 1, highest, found })
    }

    fn recover(&self, table: &mut [Option<Lease>]) {
        table.fill(None);
        if self.found != Found::Table {
            return;
        }
        let from = self.active * ROW;
        for place in &self.device[from..from + self.rows[self.active].count] {
            if let Some(record) = Record::decode(place) {
                if let Some(entry) = table.get_mut(usize::from(record.lease.address)) {
                    *entry = Some(record.lease);
                }
            }
        }
    }

    fn write(&mut self, lease: Lease) {
        let row = &mut self.rows[self.active];
        let sequence = row.first + row.count as u64;
        let record = Record { sequence, base: row.base, lease };
        record.encode(&mut self.device[self.active * ROW + row.count]);
        row.count += 1;
        self.highest = self.highest.max(sequence);
        self.found = Found::Table;
    }

    // The places written: the first, and how many.
    fn append(&mut self, clock: u64, table: &[Option<Lease>], lease: Lease) -> Option<(usize, usize)> {
        if table.len() >= ROW {
            return None;
        }
        let row = self.rows[self.active];
        if row.count < ROW {
            if row.first >= LIMIT - row.count as u64 {
                return None;
            }
            self.write(lease);
            return Some((self.active * ROW + row.count, 1));
        }
        let live = || table.iter().flatten().filter(|lease| clock <= lease.expires);
        let kept = live().count();
        if self.highest >= LIMIT - 1 - kept as u64 {
            return None;
        }
        self.active = 1 - self.active;
        self.rows[self.active] = Row { first: self.highest + 1, base: kept as u16, count: 0 };
        for lease in live() {
            self.write(*lease);
        }
        self.write(lease);
        Some((self.active * ROW, kept + 1))
    }
}

#[derive(Clone, Copy)]
struct Settings {
    addresses: u16,
    term: u32,
    skew: u16,
}

impl Settings {
    fn new(addresses: u16, term: u32, skew: u16) -> Option<Settings> {
        let good = (1..=1024).contains(&addresses) && (60..=86_400).contains(&term) && skew <= 600 && 2 * u32::from(skew) < term;
        good.then_some(Settings { addresses, term, skew })
    }
}

#[derive(Clone, Copy)]
enum Message {
    Request { client: u32, nonce: u64, preferred: u16 },
    Grant { client: u32, nonce: u64, address: u16 },
    Settings { addresses: u16, term: u32, skew: u16 },
    Tick,
    Crash,
    Restart { clock: u64 },
    Fault(u8),
}

impl Message {
    // The message's bytes, with their length before them.
    fn encode(self, out: &mut Vec<u8>) {
        match self {
            Message::Request { client, nonce, preferred } => {
                out.extend_from_slice(&[15, 1]);
                out.extend_from_slice(&client.to_be_bytes());
                out.extend_from_slice(&nonce.to_be_bytes());
                out.extend_from_slice(&preferred.to_be_bytes());
            }
            Message::Grant { client, nonce, address } => {
                out.extend_from_slice(&[15, 2]);
                out.extend_from_slice(&client.to_be_bytes());
                out.extend_from_slice(&nonce.to_be_bytes());
                out.extend_from_slice(&address.to_be_bytes());
            }
            Message::Settings { addresses, term, skew } => {
                out.extend_from_slice(&[9, 3]);
                out.extend_from_slice(&addresses.to_be_bytes());
                out.extend_from_slice(&term.to_be_bytes());
                out.extend_from_slice(&skew.to_be_bytes());
            }
            Message::Tick => out.extend_from_slice(&[1, 4]),
            Message::Crash => out.extend_from_slice(&[1, 5]),
            Message::Restart { clock } => {
                out.extend_from_slice(&[9, 6]);
                out.extend_from_slice(&clock.to_be_bytes());
            }
            Message::Fault(number) => out.extend_from_slice(&[2, 18, number]),
        }
    }

    // What these bytes say to a server that knows these settings, or the fault's number.
    fn decode(settings: Option<Settings>, bytes: &[u8]) -> Result<Message, u8> {
        let (&kind, body) = bytes.split_first().ok_or(1)?;
        match (kind, body.len()) {
            (1, 14) => {
                let preferred = u16::from_be_bytes(body[12..14].try_into().unwrap());
                let known = settings.ok_or(7)?;
                if preferred > known.addresses {
                    return Err(2);
                }
                Ok(Message::Request {
                    client: u32::from_be_bytes(body[0..4].try_into().unwrap()),
                    nonce: u64::from_be_bytes(body[4..12].try_into().unwrap()),
                    preferred,
                })
            }
            (3, 8) => {
                let addresses = u16::from_be_bytes(body[0..2].try_into().unwrap());
                let term = u32::from_be_bytes(body[2..6].try_into().unwrap());
                let skew = u16::from_be_bytes(body[6..8].try_into().unwrap());
                if settings.is_some() || Settings::new(addresses, term, skew).is_none() {
                    return Err(7);
                }
                Ok(Message::Settings { addresses, term, skew })
            }
            (4, 0) => Ok(Message::Tick),
            (5, 0) => Ok(Message::Crash),
            (6, 8) => Ok(Message::Restart { clock: u64::from_be_bytes(body.try_into().unwrap()) }),
            _ => Err(1),
        }
    }
}

#[derive(Clone, Copy)]
enum Effect {
    Persist { first: usize, count: usize },
    Send(Message),
}

struct Server {
    settings: Option<Settings>,
    clock: u64,
    up: bool,
    silent: Option<u64>,
    table: Vec<Option<Lease>>,
    journal: Journal,
}

impl Server {
    fn new(journal: Journal) -> Server {
        Server { settings: None, clock: 0, up: true, silent: None, table: Vec::new(), journal }
    }

    fn choose(&self, client: u32, preferred: u16) -> Option<u16> {
        let clock = self.clock;
        let own = |place: &Option<Lease>| matches!(place, Some(lease) if lease.client == client && clock <= lease.expires);
        let vacant = |place: &Option<Lease>| !matches!(place, Some(lease) if clock <= lease.expires);
        if let Some(address) = self.table.iter().position(own) {
            return Some(address as u16);
        }
        if self.table.get(usize::from(preferred)).is_some_and(vacant) {
            return Some(preferred);
        }
        self.table.iter().position(vacant).map(|address| address as u16)
    }

    fn request(&mut self, client: u32, nonce: u64, preferred: u16, out: &mut Vec<Effect>) -> Result<(), u8> {
        let settings = self.settings.ok_or(7)?;
        if !self.up {
            return Ok(());
        }
        if self.silent.is_some() {
            return Err(8);
        }
        let address = self.choose(client, preferred).ok_or(6)?;
        let expires = self.clock + u64::from(settings.term) + u64::from(settings.skew);
        let lease = Lease { address, client, expires };
        let (first, count) = self.journal.append(self.clock, &self.table, lease).ok_or(9)?;
        self.table[usize::from(address)] = Some(lease);
        out.push(Effect::Persist { first, count });
        out.push(Effect::Send(Message::Grant { client, nonce, address }));
        Ok(())
    }

    fn read(&mut self) -> Result<(), u8> {
        let Some(settings) = self.settings else { return Ok(()) };
        self.table = vec![None; usize::from(settings.addresses)];
        self.journal = Journal::open(&self.journal.device.concat()).unwrap();
        self.journal.recover(&mut self.table);
        self.silent = None;
        if self.journal.found == Found::Lost {
            self.silent = Some(self.clock + u64::from(settings.term) + 2 * u64::from(settings.skew));
            return Err(8);
        }
        Ok(())
    }

    fn tick(&mut self) -> Result<(), u8> {
        if self.clock + 1 >= LIMIT {
            return Err(9);
        }
        self.clock += 1;
        if self.up && self.silent.is_some_and(|until| self.clock > until) {
            self.silent = None;
            self.table.fill(None);
        }
        Ok(())
    }

    fn receive(&mut self, message: Message, out: &mut Vec<Effect>) -> Result<(), u8> {
        match message {
            Message::Request { client, nonce, preferred } => self.request(client, nonce, preferred, out),
            Message::Settings { addresses, term, skew } => {
                self.settings = Settings::new(addresses, term, skew);
                if self.up { self.read() } else { Ok(()) }
            }
            Message::Tick => self.tick(),
            Message::Crash => {
                self.up = false;
                self.silent = None;
                Ok(())
            }
            Message::Restart { clock } => {
                if clock >= LIMIT {
                    return Err(9);
                }
                self.clock = clock;
                self.up = true;
                self.read()
            }
            Message::Grant { .. } | Message::Fault(_) => Err(1),
        }
    }

    fn hear(&mut self, bytes: &[u8], out: &mut Vec<Effect>) {
        let heard = Message::decode(self.settings, bytes).and_then(|message| self.receive(message, out));
        if let Err(fault) = heard {
            out.push(Effect::Send(Message::Fault(fault)));
        }
    }
}

#[derive(Clone, Copy)]
enum Workload {
    Renewals,
    FirstRequests,
}

struct Bench {
    server: Server,
    effects: Vec<Effect>,
    message: Vec<u8>,
    out: Vec<u8>,
    workload: Workload,
    sum: u32,
}

impl Bench {
    fn new(workload: Workload) -> Bench {
        let server = Server::new(Journal::open(&vec![0; DEVICE]).expect("a device"));
        let mut bench = Bench { server, effects: Vec::new(), message: Vec::new(), out: Vec::new(), workload, sum: 0 };
        let term = match workload {
            Workload::Renewals => LONG_TERM,
            Workload::FirstRequests => SHORT_TERM,
        };
        bench.hear(Message::Settings { addresses: ADDRESSES, term, skew: 0 });
        bench
    }

    fn hear(&mut self, message: Message) {
        self.message.clear();
        message.encode(&mut self.message);
        self.server.hear(&self.message[1..], &mut self.effects);
        for effect in &self.effects {
            match *effect {
                Effect::Send(sent) => sent.encode(&mut self.out),
                Effect::Persist { first, count } => {
                    std::hint::black_box(count);
                    self.sum = self.sum.wrapping_add((first & 0xffff) as u32);
                }
            }
        }
        let last = self.out.last().copied().unwrap_or(0);
        self.sum = self.sum.wrapping_mul(31).wrapping_add(u32::from(last));
        self.effects.clear();
        self.out.clear();
    }

    fn request(&mut self, client: u32) {
        self.hear(Message::Request { client, nonce: u64::from(client), preferred: ADDRESSES });
    }

    fn play(&mut self) {
        match self.workload {
            Workload::Renewals => {
                for client in 0..u32::from(ADDRESSES) {
                    self.request(client);
                }
                let mut random: u32 = 1;
                for _ in 0..RENEWALS {
                    random = random.wrapping_mul(1_664_525).wrapping_add(1_013_904_223);
                    self.request(random >> 22);
                }
            }
            Workload::FirstRequests => {
                for client in 0..FIRST_REQUESTS {
                    if client % u32::from(ADDRESSES) == 0 {
                        for _ in 0..=SHORT_TERM {
                            self.hear(Message::Tick);
                        }
                    }
                    self.request(client);
                }
            }
        }
    }
}

fn sum(workload: Workload) -> u32 {
    let mut bench = Bench::new(workload);
    bench.play();
    bench.sum
}

fn best(workload: Workload) -> u128 {
    (0..ROUNDS)
        .map(|_| {
            let mut bench = Bench::new(workload);
            let start = Instant::now();
            bench.play();
            let time = start.elapsed().as_micros();
            std::hint::black_box(bench.sum);
            time
        })
        .min()
        .unwrap()
}

fn main() {
    if std::env::args().nth(1).as_deref() == Some("time") {
        println!("renewals {} first {}", best(Workload::Renewals), best(Workload::FirstRequests));
    } else {
        println!("renewals {:08x}, first requests {:08x}", sum(Workload::Renewals), sum(Workload::FirstRequests));
    }
}
