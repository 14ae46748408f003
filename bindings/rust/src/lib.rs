//! A block allocator in constant time for a fixed number of processes.
//!
//! A process here is a thread's place in one program. A [`Pool`] has numbered blocks and a [`Pass`] for each process. A pass
//! goes to a thread; its [`allocate`](Pass::allocate) and [`free`](Pass::free) take at most `quantum + 1` counted steps
//! whatever other threads do and wherever they stop: no call waits, takes a lock or uses the heap. What stands behind these
//! calls is proved, down to the words that the threads share; this crate is a wrapper over that library and is itself only
//! tested.
//!
//! ```
//! use loskebri::{Pool, Shape};
//!
//! let mut passes = Pool::open(&Shape::new(2, 20))?.into_passes();
//! std::thread::scope(|scope| {
//!     for pass in &mut passes {
//!         scope.spawn(move || {
//!             let block = pass.allocate().expect("forty batches are enough");
//!             pass.free(block).expect("it is held");
//!         });
//!     }
//! });
//! # Ok::<(), loskebri::OpenError>(())
//! ```
//!
//! An [`Arena`] puts values of a type into the blocks' slots, and hands them out as boxes:
//!
//! ```
//! use loskebri::{Arena, Shape};
//!
//! let arenas = Arena::<String>::open(&Shape::new(2, 20))?;
//! let mut greeting = arenas[0].place("hello".to_owned()).expect("there is a slot");
//! greeting.push_str(", slot");
//! assert_eq!(*greeting, "hello, slot");
//! drop(greeting); // The slot goes back.
//! # Ok::<(), loskebri::OpenError>(())
//! ```
#![warn(missing_docs)]

mod arena;
mod error;
mod foreign;
mod pool;

pub use arena::{Arena, PlaceError, Placed};
pub use error::{FreeError, FreeFault, OpenError, Refusal, WordFault};
pub use pool::{Batches, Block, Memory, Numbers, Pass, Pool, Shape};
