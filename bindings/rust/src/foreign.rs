//! The exports of the static library, as `bindings/c/loskebri.h` declares them.

/// The pass of one process; null is a closed handle.
#[repr(C)]
pub struct Handle {
    at: *mut u8,
}

impl Handle {
    pub const CLOSED: Handle = Handle {
        at: std::ptr::null_mut(),
    };
}

/// A status with a block's number.
#[repr(C)]
pub struct BlockAnswer {
    pub status: u32,
    pub block: u32,
}

/// A status with a number.
#[repr(C)]
pub struct NumberAnswer {
    pub status: u32,
    pub number: u64,
}

/// What a pool takes, in bytes.
#[repr(C)]
pub struct MemoryAnswer {
    pub status: u32,
    pub bytes: u64,
    pub peak: u64,
}

/// The numbers of a pass and its pool.
#[repr(C)]
pub struct ShapeNumbers {
    pub status: u32,
    pub process: u32,
    pub processes: u32,
    pub batches: u32,
    pub batch_length: u32,
    pub blocks: u32,
    pub words: u32,
    pub quantum: u32,
    pub slack: u32,
    pub window: u32,
    pub most_age: u64,
}

pub const DONE: u32 = 0;
pub const DRY: u32 = 1;
pub const NOT_HELD: u32 = 2;
pub const NO_WORD: u32 = 3;
pub const SPENT: u32 = 4;
pub const NO_MEMORY: u32 = 6;
pub const NO_PROCESS: u32 = 7;
pub const MANY_PROCESSES: u32 = 8;
pub const FEW_BATCHES: u32 = 9;
pub const BAD_QUANTUM: u32 = 10;
pub const MANY_BLOCKS: u32 = 11;
pub const WIDE_BLOCK: u32 = 12;

// Each export is total: any numbers may be given, and any handle that these calls made. Opening takes a pointer to as
// many handles as it is told.
unsafe extern "C" {
    pub fn loskebri_open(
        batches: u32,
        words: u32,
        quantum: u32,
        passes: *mut Handle,
        processes: usize,
    ) -> u32;
    pub safe fn loskebri_enough_batches(processes: u32, quantum: u32, live: u32) -> NumberAnswer;
    pub safe fn loskebri_memory(
        batches: u32,
        words: u32,
        quantum: u32,
        processes: u32,
    ) -> MemoryAnswer;
    pub safe fn loskebri_allocate(pass: &mut Handle) -> BlockAnswer;
    pub safe fn loskebri_search(pass: &mut Handle) -> BlockAnswer;
    pub safe fn loskebri_free(pass: &mut Handle, block: u32) -> u32;
    pub safe fn loskebri_read(pass: &mut Handle, block: u32, index: u32) -> NumberAnswer;
    pub safe fn loskebri_write(pass: &mut Handle, block: u32, index: u32, value: u64) -> u32;
    pub safe fn loskebri_age(pass: &mut Handle) -> NumberAnswer;
    pub safe fn loskebri_has_age(pass: &mut Handle) -> NumberAnswer;
    pub safe fn loskebri_holding(pass: &mut Handle) -> NumberAnswer;
    pub safe fn loskebri_shape(pass: &mut Handle) -> ShapeNumbers;
    pub safe fn loskebri_close(pass: &mut Handle);
}
