// The turns of `steps pools` with crossbeam_queue::ArrayQueue, over blocks of 2048 bytes: `pool_steps 1000000`.
use crossbeam_queue::ArrayQueue;
use std::thread;
use std::time::Instant;

struct Block {
    bytes: Box<[u8; 2048]>,
    #[allow(dead_code)]
    mark: u32,
}

fn pool_of(blocks: usize) -> ArrayQueue<Block> {
    let queue = ArrayQueue::new(blocks);
    for mark in 0..blocks {
        let block = Block { bytes: Box::new([0; 2048]), mark: mark as u32 };
        assert!(queue.push(block).is_ok());
    }
    queue
}

fn take_and_put(queue: &ArrayQueue<Block>, turns: u64) {
    for _ in 0..turns {
        if let Some(block) = queue.pop() {
            let _ = queue.push(block);
        }
    }
}

fn fill_and_put(queue: &ArrayQueue<Block>, turns: u64) {
    for turn in 0..turns {
        if let Some(mut block) = queue.pop() {
            block.bytes.fill((turn % 256) as u8);
            let _ = queue.push(block);
        }
    }
}

fn main() {
    let turns: u64 = std::env::args().nth(1).expect("usage: pool_steps TURNS").parse().expect("a number of turns");
    for blocks in [192, 600, 8384] {
        let queue = pool_of(blocks);
        let start = Instant::now();
        take_and_put(&queue, turns);
        println!("{blocks} blocks: take + put: {} ns", start.elapsed().as_nanos());

        let start = Instant::now();
        fill_and_put(&queue, turns);
        println!("{blocks} blocks: take + fill + put: {} ns", start.elapsed().as_nanos());

        // Each of four threads does a quarter of the turns.
        let start = Instant::now();
        thread::scope(|scope| {
            for _ in 0..4 {
                scope.spawn(|| take_and_put(&queue, turns / 4));
            }
        });
        println!("{blocks} blocks: take + put, four threads: {} ns", start.elapsed().as_nanos());
    }
}
