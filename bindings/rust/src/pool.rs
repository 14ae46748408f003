//! Pools, their passes and their blocks.

use crate::error::{FreeError, FreeFault, OpenError, Refusal, WordFault};
use crate::foreign::{self, BlockAnswer, Handle};
use std::fmt;
use std::sync::atomic::{AtomicU64, Ordering};

/// How many batches a pool is asked to have.
#[derive(Debug, Clone, Copy, PartialEq, Eq)]
#[non_exhaustive]
pub enum Batches {
    /// So many.
    Count(u32),
    /// The fewest with which no pass is refused as long as at most so many blocks are held together, by whichever passes.
    ForLive(u32),
}

/// What a pool is asked to be.
#[derive(Debug, Clone, Copy, PartialEq, Eq)]
#[non_exhaustive]
pub struct Shape {
    /// How many processes it has, each with a pass: 1 to 32. A process is a thread's place in this program.
    pub processes: u32,
    /// How many batches of blocks it has: at least two for each process. A batch has the least number `l` of blocks
    /// with `quantum * l >= 16 * processes + 15`, and the pool at most 2^22 blocks.
    pub batches: Batches,
    /// How many data words a block has: 0 to 8.
    pub words: u32,
    /// How many steps of a transfer a call makes at most: 1, 2, 4, 8 or 16.
    pub quantum: u32,
}

impl Shape {
    /// The shape with these processes and batches, no data words and a quantum of 8.
    #[must_use]
    pub const fn new(processes: u32, batches: u32) -> Shape {
        Shape::of(processes, Batches::Count(batches))
    }

    /// The smallest shape with these processes whose pool refuses no pass as long as at most `live` blocks are held together, in any
    /// schedule; without data words and with a quantum of 8, or with those that it is given then.
    ///
    /// ```
    /// use loskebri::Shape;
    ///
    /// assert_eq!(Shape::for_live(4, 1000).count_batches()?, 121);
    /// assert_eq!(Shape::for_live(4, 1000).with_quantum(1).count_batches()?, 33);
    /// # Ok::<(), loskebri::OpenError>(())
    /// ```
    #[must_use]
    pub const fn for_live(processes: u32, live: u32) -> Shape {
        Shape::of(processes, Batches::ForLive(live))
    }

    const fn of(processes: u32, batches: Batches) -> Shape {
        Shape {
            processes,
            batches,
            words: 0,
            quantum: 8,
        }
    }

    /// How many batches the pool of this shape has.
    ///
    /// # Errors
    ///
    /// Where the shape is one [for live blocks](Shape::for_live): its first fault, or [`OpenError::ManyBlocks`] where no pool has
    /// enough.
    pub fn count_batches(&self) -> Result<u32, OpenError> {
        match self.batches {
            Batches::Count(batches) => Ok(batches),
            Batches::ForLive(live) => {
                let enough = foreign::loskebri_enough_batches(self.processes, self.quantum, live);
                opened(enough.status)?;
                Ok(u32::try_from(enough.number).expect("batches are fewer than blocks"))
            }
        }
    }

    /// What a pool of this shape takes.
    ///
    /// # Errors
    ///
    /// The first fault of the shape.
    pub fn memory(&self) -> Result<Memory, OpenError> {
        let batches = self.count_batches()?;
        let answer = foreign::loskebri_memory(batches, self.words, self.quantum, self.processes);
        opened(answer.status)?;
        Ok(Memory {
            bytes: answer.bytes,
            peak: answer.peak,
        })
    }

    /// This shape with so many data words a block.
    #[must_use]
    pub const fn with_words(self, words: u32) -> Shape {
        Shape { words, ..self }
    }

    /// This shape with another quantum.
    #[must_use]
    pub const fn with_quantum(self, quantum: u32) -> Shape {
        Shape { quantum, ..self }
    }
}

/// What a pool takes, in bytes, but for a few cache lines for each process. An [`Arena`](crate::Arena) takes its slots besides.
#[derive(Debug, Clone, Copy, PartialEq, Eq)]
#[non_exhaustive]
pub struct Memory {
    /// While it is open: 8 for each word of its table, data words among it, and 8 for each 64 blocks and each process.
    pub bytes: u64,
    /// At the peak of its opening: twice the table.
    pub peak: u64,
}

/// The numbers of a pool that is open.
#[derive(Debug, Clone, Copy, PartialEq, Eq)]
#[non_exhaustive]
pub struct Numbers {
    /// How many processes it has.
    pub processes: u32,
    /// How many batches it has.
    pub batches: u32,
    /// How many blocks a batch has.
    pub batch_length: u32,
    /// How many blocks it has. Their numbers are those below.
    pub blocks: u32,
    /// How many data words a block has.
    pub words: u32,
    /// How many steps of a transfer a call makes at most.
    pub quantum: u32,
    /// How many blocks may be unheld at most at the moment that a refused allocate looks back on.
    pub slack: u32,
    /// An allocate that is refused had a moment with at most [`slack`](Numbers::slack) unheld blocks, fewer than so many calls of
    /// its pass before: where more stay unheld that long, none is refused.
    pub window: u32,
    /// How many transfers a pass may begin in all ([`Pass::has_age`]):
    ///
    /// | processes | 1 | 2 | 4 | 8 | 16 | 32 |
    /// |---|---|---|---|---|---|---|
    /// | `most_age` | 1099511627773 | 549755813886 | 274877906943 | 137438953471 | 68719476735 | 34359738367 |
    pub most_age: u64,
}

/// A pool that was opened, with the passes of all its processes.
///
/// The pool's memory goes back with the last of its passes.
#[derive(Debug)]
pub struct Pool {
    numbers: Numbers,
    passes: Vec<Pass>,
}

/// Tells pools apart: no two get one number.
static OPENED: AtomicU64 = AtomicU64::new(0);

impl Pool {
    /// Opens a pool of this shape. All memory of the pool is taken here.
    ///
    /// # Errors
    ///
    /// The first fault of the shape, or [`OpenError::NoMemory`]. Nothing is left then.
    pub fn open(shape: &Shape) -> Result<Pool, OpenError> {
        let batches = shape.count_batches()?;
        let count = usize::try_from(shape.processes).map_err(|_| OpenError::ManyProcesses)?;
        // No more handles than a pool may have are made before the shape is looked at.
        let mut handles: Vec<Handle> = (0..count.min(33)).map(|_| Handle::CLOSED).collect();
        // SAFETY: the pointer and the count are those of one vector of closed handles.
        let status = unsafe {
            foreign::loskebri_open(
                batches,
                shape.words,
                shape.quantum,
                handles.as_mut_ptr(),
                handles.len(),
            )
        };
        opened(status)?;
        let pool = OPENED.fetch_add(1, Ordering::Relaxed);
        let passes: Vec<Pass> = handles
            .into_iter()
            .map(|handle| Pass::of(handle, pool))
            .collect();
        Ok(Pool {
            numbers: passes[0].numbers,
            passes,
        })
    }

    /// The numbers of this pool.
    #[must_use]
    pub fn numbers(&self) -> Numbers {
        self.numbers
    }

    /// The passes, in the order of their processes, one for each thread that is to use the pool.
    #[must_use]
    pub fn into_passes(self) -> Vec<Pass> {
        self.passes
    }
}

/// What the status of an opening means.
fn opened(status: u32) -> Result<(), OpenError> {
    match status {
        foreign::DONE => Ok(()),
        foreign::NO_PROCESS => Err(OpenError::NoProcess),
        foreign::MANY_PROCESSES => Err(OpenError::ManyProcesses),
        foreign::FEW_BATCHES => Err(OpenError::FewBatches),
        foreign::BAD_QUANTUM => Err(OpenError::BadQuantum),
        foreign::MANY_BLOCKS => Err(OpenError::ManyBlocks),
        foreign::WIDE_BLOCK => Err(OpenError::WideBlock),
        foreign::NO_MEMORY => Err(OpenError::NoMemory),
        _ => unreachable!("opening has no status {status}"),
    }
}

/// A block that a pass holds. It is given back by [`Pass::free`]; one that is dropped stays held as long as the pool is.
#[derive(Debug, PartialEq, Eq)]
#[must_use = "a block that is dropped stays held"]
pub struct Block {
    number: u32,
    process: u32,
    pool: u64,
}

impl Block {
    /// Its number, below [`Numbers::blocks`]. No two blocks that are held at one time have one number.
    #[must_use]
    pub fn number(&self) -> u32 {
        self.number
    }
}

/// The pass of one process. It may go to any thread, and is used by one at a time.
///
/// Dropping it leaves what it holds held, and what it keeps lost to the other passes.
pub struct Pass {
    handle: Handle,
    pool: u64,
    process: u32,
    numbers: Numbers,
}

// SAFETY: a handle may be used from any thread, by one call at a time, and every call takes it by `&mut`.
unsafe impl Send for Pass {}

impl Pass {
    /// The pass behind an open handle.
    fn of(mut handle: Handle, pool: u64) -> Pass {
        let shape = foreign::loskebri_shape(&mut handle);
        debug_assert_eq!(shape.status, foreign::DONE);
        Pass {
            handle,
            pool,
            process: shape.process,
            numbers: Numbers {
                processes: shape.processes,
                batches: shape.batches,
                batch_length: shape.batch_length,
                blocks: shape.blocks,
                words: shape.words,
                quantum: shape.quantum,
                slack: shape.slack,
                window: shape.window,
                most_age: shape.most_age,
            },
        }
    }

    /// The number of its process, below [`Numbers::processes`].
    #[must_use]
    pub fn process(&self) -> u32 {
        self.process
    }

    /// The numbers of its pool.
    #[must_use]
    pub fn numbers(&self) -> Numbers {
        self.numbers
    }

    /// How many blocks it holds.
    #[must_use]
    pub fn holding(&mut self) -> u64 {
        foreign::loskebri_holding(&mut self.handle).number
    }

    /// How many transfers it has begun, of [`Numbers::most_age`].
    #[must_use]
    pub fn age(&mut self) -> u64 {
        foreign::loskebri_age(&mut self.handle).number
    }

    /// Whether an allocate, or a free of a block that it holds, would be made now. It would not exactly where a transfer is
    /// due and the pass has begun [`Numbers::most_age`] of them: a transfer that is pending runs to its end, and calls that
    /// begin none go on.
    #[must_use]
    pub fn has_age(&mut self) -> bool {
        foreign::loskebri_has_age(&mut self.handle).number == 1
    }

    /// Gets a block that nobody holds, in at most `quantum + 1` counted steps.
    ///
    /// # Errors
    ///
    /// [`Refusal::Dry`] where the pass's own pool has no block after this call's steps: at a moment within its last
    /// [`Numbers::window`] calls at most [`Numbers::slack`] blocks were unheld. [`Refusal::Spent`] where the pass isn't
    /// [of an age](Pass::has_age) to make this call; nothing changes then. The pass stays usable after both.
    pub fn allocate(&mut self) -> Result<Block, Refusal> {
        let answer = foreign::loskebri_allocate(&mut self.handle);
        self.got(&answer)
    }

    /// Gets a block as [`allocate`](Pass::allocate) does, with more steps and a sharper refusal: the pending transfer runs to its
    /// end, then the one that is due. At most `32 * processes + 31` counted steps.
    ///
    /// # Errors
    ///
    /// [`Refusal::Dry`] where the pass has no block even so: at a moment within this call at most [`Numbers::slack`] blocks were
    /// unheld. [`Refusal::Spent`] where the pass has begun [`Numbers::most_age`] transfers, whatever is due; nothing changes then.
    pub fn search(&mut self) -> Result<Block, Refusal> {
        let answer = foreign::loskebri_search(&mut self.handle);
        self.got(&answer)
    }

    /// What the answer of a call that gets blocks means.
    fn got(&self, answer: &BlockAnswer) -> Result<Block, Refusal> {
        match answer.status {
            foreign::DONE => Ok(self.block(answer.block)),
            foreign::DRY => Err(Refusal::Dry),
            status => {
                debug_assert_eq!(status, foreign::SPENT);
                Err(Refusal::Spent)
            }
        }
    }

    /// Gives a block back that this pass holds, in at most `quantum + 1` counted steps.
    ///
    /// # Errors
    ///
    /// The block comes back where another pass holds it, and where this pass isn't [of an age](Pass::has_age) to make this
    /// call; nothing changes then.
    pub fn free(&mut self, block: Block) -> Result<(), FreeError> {
        if !self.holds(&block) {
            let fault = FreeFault::NotHeld;
            return Err(FreeError { block, fault });
        }
        match foreign::loskebri_free(&mut self.handle, block.number) {
            foreign::DONE => Ok(()),
            status => {
                debug_assert_eq!(status, foreign::SPENT);
                let fault = FreeFault::Spent;
                Err(FreeError { block, fault })
            }
        }
    }

    /// Loads a data word of a block: what was written there last since the block was got, and some number where nothing
    /// was. One counted step.
    ///
    /// # Errors
    ///
    /// Where another pass holds the block, or it has no such word.
    pub fn read(&mut self, block: &Block, index: u32) -> Result<u64, WordFault> {
        if !self.holds(block) {
            return Err(WordFault::NotHeld);
        }
        let answer = foreign::loskebri_read(&mut self.handle, block.number, index);
        accessed(answer.status).map(|()| answer.number)
    }

    /// Stores a data word of a block. One counted step.
    ///
    /// # Errors
    ///
    /// Where another pass holds the block, or it has no such word.
    pub fn write(&mut self, block: &Block, index: u32, value: u64) -> Result<(), WordFault> {
        if !self.holds(block) {
            return Err(WordFault::NotHeld);
        }
        accessed(foreign::loskebri_write(
            &mut self.handle,
            block.number,
            index,
            value,
        ))
    }

    /// The block of this number, for whoever knows that this pass holds it.
    pub(crate) fn block(&self, number: u32) -> Block {
        Block {
            number,
            process: self.process,
            pool: self.pool,
        }
    }

    /// Whether the block was got by this pass.
    fn holds(&self, block: &Block) -> bool {
        (block.pool, block.process) == (self.pool, self.process)
    }
}

/// What the status of a read or a write means.
fn accessed(status: u32) -> Result<(), WordFault> {
    match status {
        foreign::DONE => Ok(()),
        foreign::NO_WORD => Err(WordFault::NoWord),
        status => {
            debug_assert_eq!(status, foreign::NOT_HELD);
            Err(WordFault::NotHeld)
        }
    }
}

impl Drop for Pass {
    fn drop(&mut self) {
        foreign::loskebri_close(&mut self.handle);
    }
}

impl fmt::Debug for Pass {
    fn fmt(&self, f: &mut fmt::Formatter<'_>) -> fmt::Result {
        f.debug_struct("Pass")
            .field("process", &self.process)
            .field("numbers", &self.numbers)
            .finish_non_exhaustive()
    }
}
