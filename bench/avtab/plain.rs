// Reads a table of 1,000,000 access vectors into a set of keys and a vector of offsets in plain Rust. Prints the nanoseconds.
use std::collections::HashSet;
use std::hint::black_box;
use std::time::Instant;

#[derive(PartialEq, Eq, Hash)]
struct Key {
    source: u16,
    target: u16,
    class: u16,
    specified: u16,
}

// One rule in sixteen is an extended one.
fn bytes_of_table(count: u32) -> Vec<u8> {
    let mut out = Vec::new();
    out.extend(count.to_le_bytes());
    for i in 0..count {
        let specified = if i % 16 == 15 { 0x100u16 } else { 1 };
        for number in [(i % 4000 + 1) as u16, (i / 4000 + 1) as u16, (i % 7 + 1) as u16, specified] {
            out.extend(number.to_le_bytes());
        }
        if specified == 1 {
            out.extend(i.to_le_bytes());
        } else {
            out.extend([1, 0x89]);
            out.extend([0x55; 32]);
        }
    }
    out
}

fn u16_at(bytes: &[u8], place: usize) -> Option<u16> {
    Some(u16::from_le_bytes(bytes.get(place..place + 2)?.try_into().ok()?))
}

fn u32_at(bytes: &[u8], place: usize) -> Option<u32> {
    Some(u32::from_le_bytes(bytes.get(place..place + 4)?.try_into().ok()?))
}

fn read_table(bytes: &[u8]) -> Option<Vec<u32>> {
    let mut keys = HashSet::new();
    let mut offsets = Vec::new();
    let count = u32_at(bytes, 0)?;
    let mut place = 4;
    for _ in 0..count {
        let first = place;
        let key = Key {
            source: u16_at(bytes, place)?,
            target: u16_at(bytes, place + 2)?,
            class: u16_at(bytes, place + 4)?,
            specified: u16_at(bytes, place + 6)? & 0x7fff,
        };
        place += 8;
        match key.specified {
            0x1 | 0x2 | 0x4 | 0x10 | 0x20 | 0x40 => {
                u32_at(bytes, place)?;
                place += 4;
                if !keys.insert(key) {
                    return None;
                }
            }
            0x100 | 0x200 | 0x400 => {
                let kind = *bytes.get(place)?;
                if kind != 1 && kind != 2 {
                    return None;
                }
                bytes.get(place + 2..place + 34)?;
                place += 34;
                keys.insert(key);
            }
            _ => return None,
        }
        offsets.push(first as u32);
    }
    Some(offsets)
}

fn main() {
    let bytes = bytes_of_table(1000000);
    let start = Instant::now();
    let table = read_table(black_box(&bytes)).unwrap();
    println!("table {}", start.elapsed().as_nanos());
    println!("rules {}", black_box(&table).len());
}
