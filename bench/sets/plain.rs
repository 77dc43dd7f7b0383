// The loops over the nodes of two sets in plain Rust. Prints the nanoseconds of each.
use std::hint::black_box;
use std::time::Instant;

#[derive(Clone, Copy)]
struct Node {
    start: u32,
    map: u64,
}

// The bits 0, 8, 32 and 63 of every step-th node.
fn nodes_of(step: u32) -> Vec<Node> {
    (0..60000).filter(|i| i % step == 0).map(|i| Node { start: i * 64, map: 0x8000_0001_0000_0101 }).collect()
}

fn union(left: &[Node], right: &[Node]) -> Vec<Node> {
    let mut out = Vec::new();
    let (mut a, mut b) = (left, right);
    while let (Some((x, xs)), Some((y, ys))) = (a.split_first(), b.split_first()) {
        if x.start < y.start {
            out.push(*x);
            a = xs;
        } else if y.start < x.start {
            out.push(*y);
            b = ys;
        } else {
            out.push(Node { start: x.start, map: x.map | y.map });
            a = xs;
            b = ys;
        }
    }
    out.extend_from_slice(a);
    out.extend_from_slice(b);
    out
}

fn common(left: &[Node], right: &[Node]) -> Vec<Node> {
    let mut out = Vec::new();
    let (mut a, mut b) = (left, right);
    while let (Some((x, xs)), Some((y, ys))) = (a.split_first(), b.split_first()) {
        if x.start < y.start {
            a = xs;
        } else if y.start < x.start {
            b = ys;
        } else {
            let map = x.map & y.map;
            if map != 0 {
                out.push(Node { start: x.start, map });
            }
            a = xs;
            b = ys;
        }
    }
    out
}

fn count(nodes: &[Node]) -> u64 {
    nodes.iter().map(|node| node.map.count_ones() as u64).sum()
}

fn main() {
    let sets = [nodes_of(2), nodes_of(3)];
    let start = Instant::now();
    for _ in 0..2000 {
        black_box(union(&sets[0], &sets[1]));
    }
    println!("union {}", start.elapsed().as_nanos());
    let start = Instant::now();
    for _ in 0..2000 {
        black_box(common(&sets[0], &sets[1]));
    }
    println!("common {}", start.elapsed().as_nanos());
    let start = Instant::now();
    for i in 0..2000 {
        black_box(count(black_box(&sets[i % 2])));
    }
    println!("count {}", start.elapsed().as_nanos());
}
