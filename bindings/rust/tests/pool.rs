//! The pool, from Rust.

use loskebri::{Block, FreeFault, OpenError, Pass, Pool, Refusal, Shape, WordFault};
use std::sync::atomic::{AtomicU32, Ordering};
use std::thread;

/// The passes of a pool of this shape.
fn passes<const COUNT: usize>(shape: &Shape) -> [Pass; COUNT] {
    Pool::open(shape)
        .expect("the shape has no fault")
        .into_passes()
        .try_into()
        .expect("one for each process")
}

#[test]
fn a_lone_pass_gets_its_own_blocks_and_is_refused_then() {
    let [mut first, mut second] = passes(&Shape::new(2, 4));
    let got: Vec<Block> = (0..12)
        .map(|_| first.allocate().expect("it is its own"))
        .collect();
    assert!(got.iter().map(Block::number).eq(0..12));
    assert_eq!(first.allocate().unwrap_err(), Refusal::Dry);
    assert_eq!((first.holding(), second.holding()), (12, 0));
    for block in got {
        first.free(block).expect("it is held");
    }
    assert_eq!(first.holding(), 0);
}

#[test]
fn a_batch_that_was_taken_is_used_before_the_opening_spare() {
    let [mut pass] = passes(&Shape::new(1, 10));
    let numbers = [0, 1, 2, 3, 36].map(|_| pass.allocate().expect("there are blocks").number());
    assert_eq!(numbers, [0, 1, 2, 3, 36]);
}

#[test]
fn shapes_are_refused_by_their_first_fault() {
    let cases = [
        (Shape::new(0, 0), OpenError::NoProcess),
        (Shape::new(33, 66), OpenError::ManyProcesses),
        (Shape::new(u32::MAX, 0), OpenError::ManyProcesses),
        (Shape::new(2, 3), OpenError::FewBatches),
        (Shape::new(2, 4).with_quantum(3), OpenError::BadQuantum),
        (Shape::new(1, 1 << 21), OpenError::ManyBlocks),
        (Shape::new(1, 2).with_words(9), OpenError::WideBlock),
    ];
    for (shape, fault) in cases {
        assert_eq!(Pool::open(&shape).unwrap_err(), fault, "{shape:?}");
    }
}

#[test]
fn a_search_is_refused_only_where_a_pass_alone_holds_all() {
    let [mut pass] = passes(&Shape::new(1, 4).with_quantum(1));
    let blocks = pass.numbers().blocks;
    let got: Vec<Block> = (0..blocks)
        .map(|_| pass.search().expect("there are blocks"))
        .collect();
    assert_eq!(pass.search().unwrap_err(), Refusal::Dry);
    assert_eq!(pass.holding(), u64::from(blocks));
    for block in got {
        pass.free(block).expect("it is held");
    }
    let block = pass.search().expect("there are blocks");
    pass.free(block).expect("it is held");
}

#[test]
fn shapes_for_live_blocks_have_batches_enough() {
    // Blocks more than the slack, five times the processes times a batch, and those that are live.
    let shape = Shape::for_live(4, 1000);
    let cases = [
        (Shape::for_live(1, 0), Ok(6)),
        (shape, Ok(121)),
        (shape.with_quantum(1), Ok(33)),
        (shape.with_words(8).with_quantum(16), Ok(221)),
        (shape.with_quantum(16).with_words(8), Ok(221)),
        (Shape::for_live(32, 0).with_quantum(1), Ok(161)),
        (Shape::for_live(1, 4_194_283), Ok(1_048_576)),
        (Shape::for_live(1, 4_194_284), Err(OpenError::ManyBlocks)),
        (Shape::for_live(4, u32::MAX), Err(OpenError::ManyBlocks)),
        (Shape::for_live(0, 0), Err(OpenError::NoProcess)),
        (Shape::for_live(33, 0), Err(OpenError::ManyProcesses)),
        (shape.with_quantum(3), Err(OpenError::BadQuantum)),
    ];
    for (shape, batches) in cases {
        assert_eq!(shape.count_batches(), batches, "{shape:?}");
    }
    assert_eq!(passes::<4>(&shape)[0].numbers().batches, 121);
    assert_eq!(
        Pool::open(&shape.with_words(9)).unwrap_err(),
        OpenError::WideBlock
    );
}

#[test]
fn shapes_say_what_they_take() {
    // 64 and 133 words of the table, and one and twice one of marks; the peak is twice the table.
    let cases = [
        (Shape::new(1, 10), Ok((520, 1024))),
        (Shape::new(2, 4).with_words(3), Ok((1080, 2128))),
        (
            Shape::for_live(1, 4_194_283).with_words(8),
            Ok((310_902_896, 620_757_216)),
        ),
        (Shape::new(2, 3), Err(OpenError::FewBatches)),
        (Shape::new(2, 4).with_words(9), Err(OpenError::WideBlock)),
    ];
    for (shape, taken) in cases {
        let told = shape.memory().map(|memory| (memory.bytes, memory.peak));
        assert_eq!(told, taken, "{shape:?}");
    }
}

#[test]
fn the_numbers_say_when_a_pass_is_refused_and_how_long_it_lives() {
    // The slack is five times the processes times the blocks of a batch, the window twice these; the tags end at 2^40.
    let cases = [
        (Shape::new(1, 2), (4, 20, 8, 1_099_511_627_773)),
        (Shape::new(4, 8), (10, 200, 20, 274_877_906_943)),
        (
            Shape::new(32, 64).with_quantum(16),
            (33, 5280, 66, 34_359_738_367),
        ),
    ];
    for (shape, expected) in cases {
        let mut passes = Pool::open(&shape)
            .expect("the shape has no fault")
            .into_passes();
        let numbers = passes[0].numbers();
        let told = (
            numbers.batch_length,
            numbers.slack,
            numbers.window,
            numbers.most_age,
        );
        assert_eq!(told, expected, "{shape:?}");
        assert!(passes[0].has_age());
        assert_eq!(passes[0].age(), 0);
    }
}

#[test]
fn a_block_of_another_pass_stays_as_it_is() {
    let [mut first, mut second] = passes(&Shape::new(2, 4).with_words(1));
    let [mut foreign] = passes(&Shape::new(1, 2).with_words(1));
    let block = first.allocate().expect("it is its own");
    let error = second.free(block).unwrap_err();
    assert_eq!(error.fault, FreeFault::NotHeld);
    assert_eq!(error.to_string(), "block 0 is held by another pass");
    let _its_own = foreign.allocate().expect("it is its own");
    let error = foreign.free(error.block).unwrap_err();
    assert_eq!(error.fault, FreeFault::NotHeld);
    assert_eq!(second.read(&error.block, 0), Err(WordFault::NotHeld));
    first.free(error.block).expect("it is held");
}

#[test]
fn words_are_read_as_they_were_written() {
    let [mut pass] = passes(&Shape::new(1, 2).with_words(8));
    let block = pass.allocate().expect("it is its own");
    for index in 0..8 {
        pass.write(&block, index, u64::MAX - u64::from(index))
            .expect("there is such a word");
    }
    for index in 0..8 {
        assert_eq!(pass.read(&block, index), Ok(u64::MAX - u64::from(index)));
    }
    assert_eq!(pass.read(&block, 8), Err(WordFault::NoWord));
    assert_eq!(pass.write(&block, 8, 0), Err(WordFault::NoWord));
    pass.free(block).expect("it is held");
}

/// Gets and gives back blocks, and says of each in the table whose it is meanwhile; answers the refusals.
fn play(pass: &mut Pass, owners: &[AtomicU32], calls: u32) -> u32 {
    let owner = pass.process() + 1;
    let mut held: Vec<Block> = Vec::new();
    let mut refusals = 0;
    let mut seed = u64::from(owner);
    for _ in 0..calls {
        seed = seed.wrapping_mul(6_364_136_223_846_793_005).wrapping_add(1);
        if seed >> 63 == 0 || held.is_empty() {
            match pass.allocate() {
                Ok(block) => {
                    let before = owners[block.number() as usize].swap(owner, Ordering::SeqCst);
                    assert_eq!(before, 0, "block {} is held twice", block.number());
                    held.push(block);
                }
                Err(_) => refusals += 1,
            }
        } else {
            let block = held.swap_remove((seed >> 32) as usize % held.len());
            let before = owners[block.number() as usize].swap(0, Ordering::SeqCst);
            assert_eq!(before, owner, "block {} is another's", block.number());
            pass.free(block).expect("it is held");
        }
    }
    assert_eq!(pass.holding(), held.len() as u64);
    refusals
}

#[test]
fn no_block_is_held_twice_by_four_threads() {
    for quantum in [1, 2, 4, 8, 16] {
        let mut passes: [Pass; 4] = passes(&Shape::new(4, 24).with_quantum(quantum));
        let owners: Vec<AtomicU32> = (0..passes[0].numbers().blocks)
            .map(|_| AtomicU32::new(0))
            .collect();
        thread::scope(|scope| {
            for pass in &mut passes {
                scope.spawn(|| play(pass, &owners, 20_000));
            }
        });
    }
}
