//! Why a call wasn't done.

use crate::Block;
use std::error::Error;
use std::fmt;

/// Why a pool wasn't opened.
#[derive(Debug, Clone, Copy, PartialEq, Eq)]
#[non_exhaustive]
pub enum OpenError {
    /// The heap had no memory.
    NoMemory,
    /// A pool has a process or more.
    NoProcess,
    /// A pool has at most 32 processes.
    ManyProcesses,
    /// A pool has at least two batches for each process.
    FewBatches,
    /// A quantum is 1, 2, 4, 8 or 16.
    BadQuantum,
    /// A pool has at most 2^22 blocks.
    ManyBlocks,
    /// A block has at most 8 data words.
    WideBlock,
}

impl fmt::Display for OpenError {
    fn fmt(&self, f: &mut fmt::Formatter<'_>) -> fmt::Result {
        f.write_str(match self {
            OpenError::NoMemory => "out of memory",
            OpenError::NoProcess => "no process",
            OpenError::ManyProcesses => "more than 32 processes",
            OpenError::FewBatches => "fewer than two batches for each process",
            OpenError::BadQuantum => "the quantum is none of 1, 2, 4, 8 and 16",
            OpenError::ManyBlocks => "more than 2^22 blocks",
            OpenError::WideBlock => "more than 8 data words in a block",
        })
    }
}

impl Error for OpenError {}

/// Why no block was got.
#[derive(Debug, Clone, Copy, PartialEq, Eq)]
#[non_exhaustive]
pub enum Refusal {
    /// The pass's own pool is empty. Within its last [`window`](crate::Numbers::window) calls there was a moment with at most
    /// [`slack`](crate::Numbers::slack) unheld blocks.
    Dry,
    /// A transfer is due, and the pass has begun as many as it may ([`Numbers::most_age`](crate::Numbers::most_age)).
    Spent,
}

impl fmt::Display for Refusal {
    fn fmt(&self, f: &mut fmt::Formatter<'_>) -> fmt::Result {
        f.write_str(match self {
            Refusal::Dry => "the pass has no block",
            Refusal::Spent => "the pass is spent",
        })
    }
}

impl Error for Refusal {}

/// Why a block wasn't given back.
#[derive(Debug, Clone, Copy, PartialEq, Eq)]
#[non_exhaustive]
pub enum FreeFault {
    /// It is held by another pass.
    NotHeld,
    /// A transfer is due, and the pass has begun as many as it may ([`Numbers::most_age`](crate::Numbers::most_age)).
    Spent,
}

/// A block that wasn't given back, and why.
#[derive(Debug)]
pub struct FreeError {
    /// The block, which stays held.
    pub block: Block,
    /// Why it stays held.
    pub fault: FreeFault,
}

impl fmt::Display for FreeError {
    fn fmt(&self, f: &mut fmt::Formatter<'_>) -> fmt::Result {
        let number = self.block.number();
        match self.fault {
            FreeFault::NotHeld => write!(f, "block {number} is held by another pass"),
            FreeFault::Spent => write!(f, "the pass is spent, and keeps block {number}"),
        }
    }
}

impl Error for FreeError {}

/// Why a data word wasn't read or written.
#[derive(Debug, Clone, Copy, PartialEq, Eq)]
#[non_exhaustive]
pub enum WordFault {
    /// The block is held by another pass.
    NotHeld,
    /// A block has no data word of this index.
    NoWord,
}

impl fmt::Display for WordFault {
    fn fmt(&self, f: &mut fmt::Formatter<'_>) -> fmt::Result {
        f.write_str(match self {
            WordFault::NotHeld => "the block is held by another pass",
            WordFault::NoWord => "a block has no such data word",
        })
    }
}

impl Error for WordFault {}
