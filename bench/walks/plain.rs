// A breadth-first search of 4,000 nodes and 1,000,000 edges in plain Rust, over sets of the same form. Prints the nanoseconds.
use std::hint::black_box;
use std::time::Instant;

#[derive(Clone, Copy)]
struct Node {
    start: u32,
    map: u64,
}

fn add(set: &mut Vec<Node>, bit: u32) {
    let start = bit - bit % 64;
    let map = 1 << (bit % 64);
    match set.binary_search_by_key(&start, |node| node.start) {
        Ok(place) => set[place].map |= map,
        Err(place) => set.insert(place, Node { start, map }),
    }
}

// 4,000 nodes in a ring, each with edges to the 250 nodes that lie 7, 14, 21 and so on behind it.
fn ring() -> Vec<Vec<Node>> {
    let mut sets = vec![Vec::new(); 4001];
    for node in 0..4000u32 {
        for place in 1..251u32 {
            add(&mut sets[node as usize + 1], (node + 7 * place) % 4000 + 1);
        }
    }
    sets
}

// One more than the number of steps to the target, or 0. Nodes that lie as deep as the target are not asked.
fn depth_of(sets: &[Vec<Node>], from: u32, to: u32) -> usize {
    let mut depths = vec![0usize; sets.len()];
    let mut queue = vec![from];
    depths[from as usize] = 1;
    let mut head = 0;
    while head < queue.len() {
        let depth = depths[queue[head] as usize];
        if depths[to as usize] != 0 && depths[to as usize] <= depth {
            break;
        }
        for node in &sets[queue[head] as usize] {
            let mut map = node.map;
            while map != 0 {
                let next = node.start + map.trailing_zeros();
                map &= map - 1;
                if depths[next as usize] == 0 {
                    depths[next as usize] = depth + 1;
                    queue.push(next);
                }
            }
        }
        head += 1;
    }
    depths[to as usize]
}

fn main() {
    let sets = ring();
    let start = Instant::now();
    let depth = depth_of(black_box(&sets), black_box(1), black_box(3994));
    println!("search {}", start.elapsed().as_nanos());
    println!("steps {}", depth - 1);
}
