// The turns of `steps blocks` with Rust's Arc, on one thread: `arc_steps 10000000`.
use std::hint::black_box;
use std::sync::Arc;
use std::time::Instant;

struct Block {
    bytes: [u8; 2048],
}

fn new_block() -> Arc<Block> {
    Arc::new(Block { bytes: [0; 2048] })
}

fn main() {
    let turns: u64 = std::env::args().nth(1).expect("usage: arc_steps TURNS").parse().expect("a number of turns");

    let held = new_block();
    let start = Instant::now();
    for _ in 0..turns {
        drop(black_box(Arc::clone(black_box(&held))));
    }
    println!("clone + drop: {} ns", start.elapsed().as_nanos());

    // A miss leaves the Arc as it was, and costs no allocation.
    let mut tried = new_block();
    let other = Arc::clone(&tried);
    let start = Instant::now();
    for _ in 0..turns {
        tried = match Arc::try_unwrap(black_box(tried)) {
            Err(same) => same,
            Ok(block) => Arc::new(block),
        };
    }
    println!("try_unwrap, missed: {} ns", start.elapsed().as_nanos());
    drop(other);

    // A hit moves the bytes out and frees the allocation, so a turn has to make the next Arc.
    let start = Instant::now();
    for _ in 0..turns {
        tried = match Arc::try_unwrap(black_box(tried)) {
            Err(same) => same,
            Ok(block) => Arc::new(block),
        };
    }
    println!("try_unwrap + new: {} ns", start.elapsed().as_nanos());

    // Asks as try_unwrap does, and leaves the bytes where they are.
    let start = Instant::now();
    for _ in 0..turns {
        black_box(Arc::get_mut(black_box(&mut tried)));
    }
    println!("get_mut: {} ns", start.elapsed().as_nanos());

    black_box(tried.bytes[0]);
}
