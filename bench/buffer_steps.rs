// The turns of `steps buffers` with Rust's Arc and, under `--cfg has_bytes`, with bytes::Bytes, on one thread:
// `buffer_steps 1000000`.
use std::hint::black_box;
use std::sync::Arc;
use std::time::Instant;

fn time_clones<T: Clone>(name: &str, held: T, turns: u64) {
    let start = Instant::now();
    for _ in 0..turns {
        drop(black_box(black_box(&held).clone()));
    }
    println!("{name}: {} ns", start.elapsed().as_nanos());
}

fn time_kind<T: Clone>(kind: &str, new: impl Fn() -> T, turns: u64) {
    let list = |count| (0..count).map(|_| new()).collect::<Vec<T>>();
    time_clones(&format!("{kind}: clone + drop"), new(), turns);
    time_clones(&format!("{kind}: clone + drop, Vec of 2"), list(2), turns);
    time_clones(&format!("{kind}: clone + drop, Vec of 16"), list(16), turns);
}

// A Bytes that came from a Vec is counted from its first clone on.
#[cfg(has_bytes)]
fn new_bytes() -> bytes::Bytes {
    let bytes = bytes::Bytes::from(vec![1u8; 1500]);
    drop(bytes.clone());
    bytes
}

fn main() {
    let turns: u64 = std::env::args().nth(1).expect("usage: buffer_steps TURNS").parse().expect("a number of turns");
    #[cfg(has_bytes)]
    time_kind("Bytes", new_bytes, turns);
    time_kind("Arc<[u8]>", || -> Arc<[u8]> { Arc::from(vec![1u8; 1500]) }, turns);
}
