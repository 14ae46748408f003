//! Values in the slots of a pool's blocks.

use crate::error::{OpenError, Refusal};
use crate::pool::{Block, Pass, Pool, Shape};
use std::cell::{RefCell, UnsafeCell};
use std::error::Error;
use std::fmt;
use std::marker::PhantomData;
use std::mem::{ManuallyDrop, MaybeUninit};
use std::ops::{Deref, DerefMut};
use std::ptr::NonNull;
use std::sync::Arc;

/// A slot for each block of a pool.
struct Slots<T>(Box<[UnsafeCell<MaybeUninit<T>>]>);

// SAFETY: a slot is used by the one pass that holds its block. A block that goes from one thread to another is freed and got
// by sequentially consistent steps on words that both share, so the slot's last use in the one comes before its first in the other.
unsafe impl<T: Send> Send for Slots<T> {}
unsafe impl<T: Send> Sync for Slots<T> {}

impl<T> Slots<T> {
    /// So many slots with nothing in them. Nothing of them is touched.
    fn new(count: u32) -> Result<Slots<T>, OpenError> {
        let count = usize::try_from(count).map_err(|_| OpenError::NoMemory)?;
        let mut slots = Vec::new();
        slots
            .try_reserve_exact(count)
            .map_err(|_| OpenError::NoMemory)?;
        // SAFETY: there is room for them, and a slot with nothing in it has no bytes that need be set.
        unsafe { slots.set_len(count) };
        Ok(Slots(slots.into_boxed_slice()))
    }

    /// The slot of a block.
    fn of(&self, block: &Block) -> NonNull<MaybeUninit<T>> {
        let slot = &self.0[block.number() as usize];
        // SAFETY: it is the address of a slot.
        unsafe { NonNull::new_unchecked(slot.get()) }
    }

    /// The number of the slot that begins at this address.
    fn number(&self, at: NonNull<T>) -> Option<u32> {
        let offset = at.as_ptr().addr().checked_sub(self.0.as_ptr().addr())?;
        let number = offset.checked_div(size_of::<T>())?;
        let begins = number < self.0.len() && number * size_of::<T>() == offset;
        u32::try_from(number).ok().filter(|_| begins)
    }
}

/// The arena of one process: a place for values of one type, which it shares with the arenas of the pool's other processes.
///
/// Placing a value and dropping its box take constant time, whatever other threads do; no value is moved by it. The arena
/// may go to another thread while none of its boxes is left.
pub struct Arena<T> {
    pass: RefCell<Pass>,
    slots: Arc<Slots<T>>,
}

impl<T> Arena<T> {
    /// Opens a pool of this shape with a slot for each block, and answers an arena for each process. All memory is
    /// taken here.
    ///
    /// # Errors
    ///
    /// The first fault of the shape, or [`OpenError::NoMemory`], also where the slots are larger than any memory.
    pub fn open(shape: &Shape) -> Result<Vec<Arena<T>>, OpenError> {
        let pool = Pool::open(shape)?;
        let slots = Arc::new(Slots::new(pool.numbers().blocks)?);
        let arena = |pass| Arena {
            pass: RefCell::new(pass),
            slots: Arc::clone(&slots),
        };
        Ok(pool.into_passes().into_iter().map(arena).collect())
    }

    /// Gets a slot that is free, with nothing in it: for a value too large for the stack, which is made where it stays and then
    /// [taken as made](Placed::assume_init).
    ///
    /// # Errors
    ///
    /// Where the pass is refused a block.
    pub fn place_uninit(&self) -> Result<Placed<'_, MaybeUninit<T>>, Refusal> {
        let block = self.pass.borrow_mut().allocate()?;
        Ok(Placed {
            at: self.slots.of(&block),
            block: ManuallyDrop::new(block),
            pass: &self.pass,
            value: PhantomData,
        })
    }

    /// Puts a value into a slot that is free, and answers its box.
    ///
    /// # Errors
    ///
    /// The value comes back where the pass is refused a block.
    pub fn place(&self, value: T) -> Result<Placed<'_, T>, PlaceError<T>> {
        match self.place_uninit() {
            Ok(slot) => Ok(slot.write(value)),
            Err(refusal) => Err(PlaceError { value, refusal }),
        }
    }

    /// Makes a value once there is a slot for it, and answers its box. Where the compiler optimises it is made in the slot and
    /// needs no place on the stack; [`place_uninit`](Arena::place_uninit) promises that.
    ///
    /// # Errors
    ///
    /// Where the pass is refused a block. Nothing is made then.
    pub fn place_with(&self, make: impl FnOnce() -> T) -> Result<Placed<'_, T>, Refusal> {
        Ok(self.place_uninit()?.write(make()))
    }

    /// The box of a value that [`Placed::into_raw`] let go of.
    ///
    /// # Panics
    ///
    /// Where no slot of this arena begins at the address, as for a type whose values have no bytes.
    ///
    /// # Safety
    ///
    /// The address came from a box of this arena, and its box wasn't made again before. Whatever was done with the value
    /// by other threads has happened before this call.
    #[must_use]
    pub unsafe fn from_raw(&self, at: NonNull<T>) -> Placed<'_, T> {
        let number = self.slots.number(at).expect("a slot begins here");
        let block = self.pass.borrow().block(number);
        Placed {
            at,
            block: ManuallyDrop::new(block),
            pass: &self.pass,
            value: PhantomData,
        }
    }

    /// How many of this arena's slots are in use.
    #[must_use]
    pub fn len(&self) -> u64 {
        self.pass.borrow_mut().holding()
    }

    /// Whether no slot of this arena is in use.
    #[must_use]
    pub fn is_empty(&self) -> bool {
        self.len() == 0
    }
}

impl<T> fmt::Debug for Arena<T> {
    fn fmt(&self, f: &mut fmt::Formatter<'_>) -> fmt::Result {
        f.debug_struct("Arena")
            .field("pass", &self.pass)
            .finish_non_exhaustive()
    }
}

/// A value in a slot. When it is dropped the value is, and the slot goes back; it is dropped by the process that placed it,
/// since it can't leave the thread that its arena is in.
pub struct Placed<'a, T> {
    at: NonNull<T>,
    block: ManuallyDrop<Block>,
    pass: &'a RefCell<Pass>,
    value: PhantomData<T>,
}

impl<'a, T> Placed<'a, T> {
    /// Takes the value out, and gives the slot back.
    #[must_use]
    pub fn into_inner(self) -> T {
        let mut placed = ManuallyDrop::new(self);
        // SAFETY: the slot holds a value as long as its box is there, and this box isn't used again.
        let value = unsafe { placed.at.read() };
        placed.give_back();
        value
    }

    /// Lets go of the box. The value stays in its slot, which stays this arena's, until [`Arena::from_raw`] makes the box again.
    /// The arena and those of the pool's other processes keep the slots: one of them has to outlive the address.
    #[must_use]
    pub fn into_raw(self) -> NonNull<T> {
        ManuallyDrop::new(self).at
    }

    /// The same slot, as one of another type.
    fn cast<U>(self) -> Placed<'a, U> {
        let mut placed = ManuallyDrop::new(self);
        Placed {
            at: placed.at.cast(),
            // SAFETY: the block is taken once, as this box isn't used after this.
            block: ManuallyDrop::new(unsafe { ManuallyDrop::take(&mut placed.block) }),
            pass: placed.pass,
            value: PhantomData,
        }
    }

    /// Frees the block; called once, with nothing in the slot. A pass whose age is spent may have to keep it.
    fn give_back(&mut self) {
        // SAFETY: the block is taken once, as the box isn't used after this.
        let block = unsafe { ManuallyDrop::take(&mut self.block) };
        let _ = self.pass.borrow_mut().free(block);
    }
}

impl<'a, T> Placed<'a, MaybeUninit<T>> {
    /// Puts a value into the slot.
    #[must_use]
    pub fn write(self, value: T) -> Placed<'a, T> {
        // SAFETY: the slot is this box's alone, and no value is in it.
        unsafe { self.at.write(MaybeUninit::new(value)) };
        self.cast()
    }

    /// The box of the value that was made in the slot.
    ///
    /// # Safety
    ///
    /// A whole value of the type is there.
    #[must_use]
    pub unsafe fn assume_init(self) -> Placed<'a, T> {
        self.cast()
    }
}

impl<T> Deref for Placed<'_, T> {
    type Target = T;

    fn deref(&self) -> &T {
        // SAFETY: the slot holds a value as long as its box is there, and is this box's alone.
        unsafe { self.at.as_ref() }
    }
}

impl<T> DerefMut for Placed<'_, T> {
    fn deref_mut(&mut self) -> &mut T {
        // SAFETY: as for `deref`, and the box is borrowed alone.
        unsafe { self.at.as_mut() }
    }
}

impl<T> Drop for Placed<'_, T> {
    fn drop(&mut self) {
        /// Gives the slot back also where dropping the value panics.
        struct Last<'b, 'a, T>(&'b mut Placed<'a, T>);
        impl<T> Drop for Last<'_, '_, T> {
            fn drop(&mut self) {
                self.0.give_back();
            }
        }
        let last = Last(self);
        // SAFETY: the slot holds a value, which isn't used after this.
        unsafe { last.0.at.drop_in_place() };
    }
}

impl<T: fmt::Debug> fmt::Debug for Placed<'_, T> {
    fn fmt(&self, f: &mut fmt::Formatter<'_>) -> fmt::Result {
        (**self).fmt(f)
    }
}

impl<T: fmt::Display> fmt::Display for Placed<'_, T> {
    fn fmt(&self, f: &mut fmt::Formatter<'_>) -> fmt::Result {
        (**self).fmt(f)
    }
}

/// A value that wasn't placed, and why.
pub struct PlaceError<T> {
    /// The value.
    pub value: T,
    /// Why no block was got.
    pub refusal: Refusal,
}

impl<T> fmt::Debug for PlaceError<T> {
    fn fmt(&self, f: &mut fmt::Formatter<'_>) -> fmt::Result {
        f.debug_struct("PlaceError")
            .field("refusal", &self.refusal)
            .finish_non_exhaustive()
    }
}

impl<T> fmt::Display for PlaceError<T> {
    fn fmt(&self, f: &mut fmt::Formatter<'_>) -> fmt::Result {
        write!(f, "no slot: {}", self.refusal)
    }
}

impl<T> Error for PlaceError<T> {
    fn source(&self) -> Option<&(dyn Error + 'static)> {
        Some(&self.refusal)
    }
}
