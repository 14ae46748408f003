//! Values in the slots of a pool.

use loskebri::{Arena, OpenError, Refusal, Shape};
use std::sync::Arc;
use std::thread;

#[test]
fn values_are_dropped_once_and_slots_come_back() {
    let arenas = Arena::<Arc<()>>::open(&Shape::new(1, 2)).expect("the shape has no fault");
    let arena = &arenas[0];
    let value = Arc::new(());
    let mut boxes = Vec::new();
    let refused = loop {
        match arena.place(Arc::clone(&value)) {
            Ok(placed) => boxes.push(placed),
            Err(error) => break error,
        }
    };
    assert_eq!(refused.refusal, Refusal::Dry);
    drop(refused);
    assert_eq!(arena.len(), boxes.len() as u64);
    assert_eq!(Arc::strong_count(&value), boxes.len() + 1);
    let out = boxes.pop().expect("some were placed").into_inner();
    assert_eq!(Arc::strong_count(&value), boxes.len() + 2);
    drop(out);
    boxes.clear();
    assert_eq!(Arc::strong_count(&value), 1);
    assert!(arena.is_empty());
    let again = arena.place(value).expect("the slots came back");
    assert_eq!(arena.len(), 1);
    drop(again);
}

#[test]
fn a_slot_comes_back_where_dropping_its_value_panics() {
    struct Panics;
    impl Drop for Panics {
        fn drop(&mut self) {
            panic!("as it is meant to");
        }
    }
    let arenas = Arena::<Panics>::open(&Shape::new(1, 2)).expect("the shape has no fault");
    let placed = arenas[0].place(Panics).expect("there is a slot");
    let dropped = std::panic::catch_unwind(std::panic::AssertUnwindSafe(|| drop(placed)));
    assert!(dropped.is_err());
    assert!(arenas[0].is_empty());
}

#[test]
fn lists_of_boxes_are_kept_on_threads() {
    struct Node<'a> {
        value: u64,
        next: Option<loskebri::Placed<'a, Node<'a>>>,
    }
    let arenas = Arena::<[u64; 4]>::open(&Shape::new(3, 30)).expect("the shape has no fault");
    thread::scope(|scope| {
        for (process, arena) in (0..).zip(arenas) {
            scope.spawn(move || {
                for round in 0..200_u64 {
                    let boxes: Vec<_> = (0..20_u64)
                        .filter_map(|i| arena.place([process, round, i, process + round + i]).ok())
                        .collect();
                    for placed in &boxes {
                        assert_eq!(placed[0] + placed[1] + placed[2], placed[3]);
                        assert_eq!(placed[0], process);
                    }
                }
            });
        }
    });
    let lists = Arena::<Node<'_>>::open(&Shape::new(1, 2)).expect("the shape has no fault");
    let last = lists[0].place(Node {
        value: 2,
        next: None,
    });
    let first = lists[0].place(Node {
        value: 1,
        next: last.ok(),
    });
    let first = first.expect("there is a slot");
    let next = first.next.as_ref().expect("it has a next");
    assert_eq!((first.value, next.value), (1, 2));
}

#[test]
fn a_value_of_16_megabytes_is_made_in_its_slot() {
    const SIZE: usize = 1 << 24;
    let arenas = Arena::<[u8; SIZE]>::open(&Shape::new(1, 2)).expect("the shape has no fault");
    let mut slot = arenas[0].place_uninit().expect("there is a slot");
    // SAFETY: the bytes are those of the slot, and a value of bytes is whole once each is set.
    let mut placed = unsafe {
        slot.as_mut_ptr().cast::<u8>().write_bytes(7, SIZE);
        slot.assume_init()
    };
    placed[SIZE - 1] = 8;
    assert_eq!((placed[0], placed[SIZE - 1]), (7, 8));
    drop(placed);
    assert!(arenas[0].is_empty());
}

#[test]
fn slots_larger_than_any_memory_are_refused() {
    let error = Arena::<[u8; 1 << 44]>::open(&Shape::new(1, 2)).map(|_| ());
    assert_eq!(error, Err(OpenError::NoMemory));
    // Four terabytes, which a system that promises more than it has may give, since nothing of them is touched.
    let opened = Arena::<[u64; 1 << 17]>::open(&Shape::new(1, 1 << 20)).map(|_| ());
    assert!(matches!(opened, Ok(()) | Err(OpenError::NoMemory)));
}

#[test]
fn a_value_is_made_once_there_is_a_slot() {
    let arenas = Arena::<String>::open(&Shape::new(1, 2)).expect("the shape has no fault");
    let arena = &arenas[0];
    let made = arena.place_with(|| "made".to_owned());
    assert_eq!(*made.expect("there is a slot"), "made");
    let panicked = std::panic::catch_unwind(std::panic::AssertUnwindSafe(|| {
        let _ = arena.place_with(|| panic!("as it is meant to"));
    }));
    assert!(panicked.is_err());
    assert!(arena.is_empty());
    let all: Vec<_> = (0..8).filter_map(|_| arena.place_uninit().ok()).collect();
    let refused = arena.place_with(|| unreachable!("there is no slot"));
    assert_eq!(refused.map(|_| ()), Err(Refusal::Dry));
    drop(all);
}

#[test]
fn a_box_comes_back_by_its_address() {
    let arenas = Arena::<Arc<()>>::open(&Shape::new(1, 2)).expect("the shape has no fault");
    let value = Arc::new(());
    let placed = arenas[0].place(Arc::clone(&value));
    let at = placed.expect("there is a slot").into_raw();
    assert_eq!((arenas[0].len(), Arc::strong_count(&value)), (1, 2));
    // SAFETY: the address came from this arena's box.
    drop(unsafe { arenas[0].from_raw(at) });
    assert_eq!((arenas[0].len(), Arc::strong_count(&value)), (0, 1));
}
