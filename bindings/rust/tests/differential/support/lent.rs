use std::fmt::Debug;

/// Elements that can guard a list: a value that is neither 0 nor likely.
pub trait Guard: Copy + PartialEq + Debug {
    const GUARD: Self;
}

impl Guard for u8 {
    const GUARD: u8 = 0xA5;
}

impl Guard for u16 {
    const GUARD: u16 = 0xA55A;
}

impl Guard for usize {
    const GUARD: usize = usize::MAX / 255 * 0xA5;
}

/// So many guards stand after a list, and at least as many before it.
const GUARDS: usize = 16;

/// A list that is lent to the library, with guards around it. Its place moves from one lending
/// to the next, so that a list of bytes is lent at every alignment.
pub struct Lent<T> {
    memory: Vec<T>,
    start: usize,
    length: usize,
}

impl<T: Guard> Lent<T> {
    pub fn new() -> Self {
        Lent {
            memory: Vec::new(),
            start: GUARDS,
            length: 0,
        }
    }

    /// A list that holds this.
    pub fn of(content: &[T]) -> Self {
        let mut lent = Lent::new();
        lent.lend(content);
        lent
    }

    /// Makes the list hold this, at a new place.
    pub fn lend(&mut self, content: &[T]) {
        self.start = GUARDS + (self.start + 3) % 8;
        self.length = content.len();
        self.memory.clear();
        self.memory.resize(self.start, T::GUARD);
        self.memory.extend_from_slice(content);
        self.memory
            .resize(self.start + self.length + GUARDS, T::GUARD);
    }

    pub fn len(&self) -> usize {
        self.length
    }

    pub fn as_ptr(&self) -> *const T {
        self.memory[self.start..].as_ptr()
    }

    pub fn as_mut_ptr(&mut self) -> *mut T {
        self.memory[self.start..].as_mut_ptr()
    }

    pub fn content(&self) -> &[T] {
        &self.memory[self.start..][..self.length]
    }

    /// Whether the list holds exactly this and its guards are whole.
    pub fn holds(&self, wanted: &[T]) -> bool {
        let (before, rest) = self.memory.split_at(self.start);
        let (content, after) = rest.split_at(self.length);
        let guard = |element: &T| *element == T::GUARD;
        content == wanted && before.iter().all(guard) && after.iter().all(guard)
    }

    /// Fails if the list does not hold exactly this, or a guard was changed.
    #[track_caller]
    pub fn assert_holds(&self, wanted: &[T], what: impl FnOnce() -> String) {
        if !self.holds(wanted) {
            panic!(
                "{}\n lent memory: {:x?}\n wanted: {:x?} between guards",
                what(),
                self.memory,
                wanted
            );
        }
    }
}
