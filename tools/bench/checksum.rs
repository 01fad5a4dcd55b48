// The same table algorithm and the same measurement as crates/checksum_bench, in plain Rust, to compare speeds with.
use std::time::Instant;

const BUFFER: usize = 1 << 20;
const PASSES: usize = 64;
const RECORD: usize = 24;
const ROUNDS: usize = 7;
const ALL_ONES: u32 = 0xFFFF_FFFF;

const fn table() -> [u32; 256] {
    let mut table = [0; 256];
    let mut i = 0;
    while i < 256 {
        let mut state = i as u32;
        let mut bit = 0;
        while bit < 8 {
            state = if state & 1 == 1 { (state >> 1) ^ 0x82F6_3B78 } else { state >> 1 };
            bit += 1;
        }
        table[i] = state;
        i += 1;
    }
    table
}

static TABLE: [u32; 256] = table();

fn crc32c_append(sum: u32, bytes: &[u8]) -> u32 {
    let mut state = sum ^ ALL_ONES;
    for byte in bytes {
        state = TABLE[((state ^ u32::from(*byte)) & 0xff) as usize] ^ (state >> 8);
    }
    state ^ ALL_ONES
}

fn crc32c(bytes: &[u8]) -> u32 {
    crc32c_append(0, bytes)
}

fn noise() -> Vec<u8> {
    let mut state: u32 = 1;
    (0..BUFFER)
        .map(|_| {
            state = state.wrapping_mul(1_664_525).wrapping_add(1_013_904_223);
            (state >> 24) as u8
        })
        .collect()
}

fn whole(bytes: &[u8]) -> u32 {
    let mut sum = 0;
    for _ in 0..PASSES {
        sum = crc32c_append(sum, bytes);
    }
    sum
}

fn records(bytes: &[u8]) -> u32 {
    let mut all = 0;
    for pass in 0..PASSES {
        for record in bytes[pass..].chunks_exact(RECORD) {
            all ^= crc32c(record);
        }
    }
    all
}

fn main() {
    let bytes = noise();
    let mut whole_best = u128::MAX;
    let mut records_best = u128::MAX;
    let mut sums = 0;
    for _ in 0..ROUNDS {
        let start = Instant::now();
        sums ^= whole(&bytes);
        whole_best = whole_best.min(start.elapsed().as_micros());
        let start = Instant::now();
        sums ^= records(&bytes);
        records_best = records_best.min(start.elapsed().as_micros());
    }
    println!("sums {sums:08x} whole {whole_best} records {records_best}");
}
