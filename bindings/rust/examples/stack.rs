//! A lock-free stack whose nodes live in an arena: any thread pushes, any thread takes all that is there.
//!
//! Each thread pushes nodes of its own arena. Whoever takes a node out moves its value away and puts the node on the list of the
//! process that it came from, which frees it before its next push: a slot goes back by the process that placed it. No node is
//! looked at before it was taken off whole by one exchange, so none is looked at after it was freed.

use loskebri::{Arena, PlaceError, Shape};
use std::mem::MaybeUninit;
use std::ptr::{self, NonNull};
use std::sync::atomic::{AtomicPtr, AtomicU64, Ordering};
use std::thread;

/// A node of a stack: a value until it is taken, and then none.
struct Node<T> {
    value: MaybeUninit<T>,
    next: *mut Node<T>,
    process: usize,
}

// SAFETY: whoever has a node alone follows its pointer.
unsafe impl<T: Send> Send for Node<T> {}

/// Nodes that are pushed one by one and taken all at once.
struct List<T>(AtomicPtr<Node<T>>);

impl<T> List<T> {
    const fn new() -> List<T> {
        List(AtomicPtr::new(ptr::null_mut()))
    }

    /// Pushes a node that the caller has alone. Only the head is compared, so it doesn't matter which nodes lay there meanwhile.
    fn push(&self, node: NonNull<Node<T>>) {
        let mut head = self.0.load(Ordering::SeqCst);
        loop {
            // SAFETY: the caller has the node alone until the exchange is made.
            unsafe { (*node.as_ptr()).next = head };
            match self.0.compare_exchange_weak(
                head,
                node.as_ptr(),
                Ordering::SeqCst,
                Ordering::SeqCst,
            ) {
                Ok(_) => return,
                Err(now) => head = now,
            }
        }
    }

    /// Takes all nodes, the newest first. The caller has them alone.
    fn take(&self) -> impl Iterator<Item = NonNull<Node<T>>> + use<T> {
        let mut next = self.0.swap(ptr::null_mut(), Ordering::SeqCst);
        std::iter::from_fn(move || {
            let node = NonNull::new(next)?;
            // SAFETY: the node was taken with the list, and its next one is read before it goes anywhere.
            next = unsafe { (*node.as_ptr()).next };
            Some(node)
        })
    }
}

/// A stack for the processes of one pool, and for each the nodes that were taken from it. It is dropped before the arenas; what
/// is left on it then is lost.
struct Stack<T> {
    pushed: List<T>,
    taken: Vec<List<T>>,
}

impl<T> Stack<T> {
    fn new(processes: usize) -> Stack<T> {
        Stack {
            pushed: List::new(),
            taken: (0..processes).map(|_| List::new()).collect(),
        }
    }

    /// Frees the nodes of this process that others have taken.
    fn reclaim(&self, arena: &Arena<Node<T>>, process: usize) {
        for node in self.taken[process].take() {
            // SAFETY: the node is of this arena, and was taken off both lists by whole exchanges.
            drop(unsafe { arena.from_raw(node) });
        }
    }

    /// Pushes a value, or gives it back where the arena is refused a slot.
    fn push(&self, arena: &Arena<Node<T>>, process: usize, value: T) -> Result<(), T> {
        self.reclaim(arena, process);
        let node = Node {
            value: MaybeUninit::new(value),
            next: ptr::null_mut(),
            process,
        };
        match arena.place(node) {
            Ok(placed) => {
                self.pushed.push(placed.into_raw());
                Ok(())
            }
            // SAFETY: the node came back as it was made.
            Err(PlaceError { value: node, .. }) => Err(unsafe { node.value.assume_init() }),
        }
    }

    /// Takes all values, the newest first.
    fn take(&self) -> Vec<T> {
        self.pushed
            .take()
            .map(|node| {
                // SAFETY: the node is this caller's alone until it goes to its process's list; its value is moved out once.
                let (value, process) = unsafe {
                    let node = &*node.as_ptr();
                    (node.value.assume_init_read(), node.process)
                };
                self.taken[process].push(node);
                value
            })
            .collect()
    }
}

fn main() {
    const THREADS: usize = 4;
    const ROUNDS: u64 = 20_000;
    let arenas = Arena::<Node<u64>>::open(&Shape::new(4, 80)).expect("the shape has no fault");
    let stack = Stack::new(THREADS);
    let (pushed, taken) = (AtomicU64::new(0), AtomicU64::new(0));
    // The arenas come back from their threads: the nodes on the stack lie in their slots.
    let arenas: Vec<_> = thread::scope(|scope| {
        let run = |(process, arena)| {
            let (stack, pushed, taken) = (&stack, &pushed, &taken);
            scope.spawn(move || {
                for round in 0..ROUNDS {
                    let value = round * 4 + process as u64;
                    if stack.push(&arena, process, value).is_ok() {
                        pushed.fetch_add(value, Ordering::SeqCst);
                    }
                    if round % 16 == 0 {
                        taken.fetch_add(stack.take().into_iter().sum(), Ordering::SeqCst);
                    }
                }
                arena
            })
        };
        let threads: Vec<_> = arenas.into_iter().enumerate().map(run).collect();
        threads
            .into_iter()
            .map(|thread| thread.join().expect("no thread panics"))
            .collect()
    });
    taken.fetch_add(stack.take().into_iter().sum(), Ordering::SeqCst);
    for (process, arena) in arenas.iter().enumerate() {
        stack.reclaim(arena, process);
        assert!(arena.is_empty());
    }
    assert_eq!(pushed.into_inner(), taken.into_inner());
    println!("stack: each value that was pushed was taken once");
}
