//! Slices lent to a call. Each ends, or begins, at a page that may not be touched, now so, now so; on its other side lie
//! items that are looked at afterwards. What is lent to be read only lies in pages that cannot be written.

use crate::pages::{Item, Pages};
use std::cell::Cell;
use std::ops::Range;

/// Items on the other side of a lent slice that no call may touch.
const GUARD: usize = 64;

thread_local! {
    static LENT: Cell<u64> = Cell::new(0);
}

/// Where the next slice lies in its pages: at their end, or at their beginning. Not simply turn about: a call that is lent
/// two, four or six slices would then have each of them on the same side every time.
fn is_at_end() -> bool {
    LENT.with(|lent| {
        lent.set(lent.get() + 1);
        lent.get().count_ones() % 2 == 1
    })
}

/// A place for so many items, and the guards beside it.
fn places<T: Item>(length: usize) -> (Pages, Range<usize>, Range<usize>) {
    let pages = Pages::at_least((length + GUARD) * std::mem::size_of::<T>());
    let end = pages.bytes() / std::mem::size_of::<T>();
    if is_at_end() {
        (pages, end - length..end, end - length - GUARD..end - length)
    } else {
        (pages, 0..length, length..length + GUARD)
    }
}

pub struct Lent<T: Item> {
    pages: Option<Pages>,
    place: Range<usize>,
    guards: Range<usize>,
    guard: T,
}

impl<T: Item> Lent<T> {
    /// So many items, what each holds before the call, and what the guards hold.
    pub fn new(length: usize, item: impl Fn(usize) -> T, guard: T) -> Self {
        let (mut pages, place, guards) = places::<T>(length);
        let items = pages.items();
        for (index, held) in items[place.clone()].iter_mut().enumerate() {
            *held = item(index);
        }
        items[guards.clone()].fill(guard);
        Lent { pages: Some(pages), place, guards, guard }
    }

    fn items(&self) -> &[T] {
        self.pages.as_ref().expect("held until dropped").read_items()
    }

    pub fn slice(&mut self) -> &mut [T] {
        &mut self.pages.as_mut().expect("held until dropped").items()[self.place.clone()]
    }

    /// Holds the items to `first`, then to `rest`, and the guards to themselves. Gives the first difference: the
    /// item's number (from below 0 on before the slice), what it is and what was expected.
    pub fn difference(&self, first: &[T], rest: impl Fn(usize) -> T) -> Option<(isize, T, T)> {
        let items = &self.items()[self.place.clone()];
        let of_first = if items[..first.len()] == *first {
            None
        } else {
            (0..first.len()).find(|&index| items[index] != first[index])
        };
        if let Some(index) = of_first {
            return Some((index as isize, items[index], first[index]));
        }
        if let Some(index) = (first.len()..items.len()).find(|&index| items[index] != rest(index)) {
            return Some((index as isize, items[index], rest(index)));
        }
        self.touched_guard()
    }

    fn touched_guard(&self) -> Option<(isize, T, T)> {
        let touched = self.guards.clone().find(|&index| self.items()[index] != self.guard)?;
        Some((touched as isize - self.place.start as isize, self.items()[touched], self.guard))
    }

    /// The same in words, the slice being called `name`.
    pub fn check(&self, name: &str, first: &[T], rest: impl Fn(usize) -> T) -> Result<(), String> {
        match self.difference(first, rest) {
            None => Ok(()),
            Some((index, found, expected)) => {
                Err(format!("{} {} is {:x?}, expected {:x?}", name, index, found, expected))
            }
        }
    }
}

impl<T: Item> Drop for Lent<T> {
    fn drop(&mut self) {
        if let Some(pages) = self.pages.take() {
            pages.release();
        }
    }
}

/// A slice lent to be read: a copy in pages that cannot be written.
pub struct LentRead<T: Item> {
    pages: Option<Pages>,
    place: Range<usize>,
    kind: std::marker::PhantomData<T>,
}

impl<T: Item> LentRead<T> {
    pub fn new(items: &[T]) -> Self {
        let (mut pages, place, _) = places::<T>(items.len());
        pages.items()[place.clone()].copy_from_slice(items);
        pages.read_only();
        LentRead { pages: Some(pages), place, kind: std::marker::PhantomData }
    }

    pub fn slice(&self) -> &[T] {
        &self.pages.as_ref().expect("held until dropped").read_items()[self.place.clone()]
    }
}

impl<T: Item> Drop for LentRead<T> {
    fn drop(&mut self) {
        if let Some(pages) = self.pages.take() {
            pages.writable();
            pages.release();
        }
    }
}

/// What a room that is not zero holds.
const ROOM_WORD: u32 = 0x5A5A_A5A5;

/// A working room of zeros, or of words that are not.
pub struct Room {
    words: Lent<u32>,
    before: u32,
}

impl Room {
    pub fn new(length: usize, is_zero: bool) -> Self {
        let before = if is_zero { 0 } else { ROOM_WORD };
        Room { words: Lent::new(length, |_| before, 0xC0DE_D00D), before }
    }

    pub fn slice(&mut self) -> &mut [u32] {
        self.words.slice()
    }

    /// It holds zeros, or after refusal 32 what it held before.
    pub fn check(&self, code: u32) -> Result<(), String> {
        let held = if code == 32 { self.before } else { 0 };
        // Rooms are long: a loop with no way out of it is quicker.
        let words = &self.words.items()[self.words.place.clone()];
        let all_held = words.iter().fold(0, |seen, word| seen | (word ^ held)) == 0;
        if all_held && self.words.touched_guard().is_none() {
            return Ok(());
        }
        self.words.check("room word", &[], |_| held)
    }
}
