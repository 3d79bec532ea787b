//! The yardstick of feed.py: pieces of 1,000 bytes gathered, and the payload copied once it is whole, in plain Rust.

use std::time::Instant;

fn gather(stream: &[u8]) -> usize {
    let mut held = Vec::new();
    for piece in stream.chunks(1_000) {
        held.extend_from_slice(piece);
    }
    let payload = std::hint::black_box(held[16..].to_vec());
    usize::from(!payload.is_empty())
}

fn main() {
    for size in [16_777_216usize, 33_554_432, 67_108_848] {
        let stream = vec![7u8; size];
        let start = Instant::now();
        let frames = gather(std::hint::black_box(&stream));
        println!("{size} bytes {} {frames}", start.elapsed().as_nanos());
    }
}
