//! Buffers with guard cells on both sides, so that a write outside a buffer is noticed.

/// Guard cells on each side.
const GUARDS: usize = 32;

/// What a buffer may hold.
pub trait Cell: Copy + PartialEq {
    const GUARD: Self;
}

impl Cell for u8 {
    const GUARD: u8 = 0xA7;
}

impl Cell for u16 {
    const GUARD: u16 = 0xA7B6;
}

impl Cell for u32 {
    const GUARD: u32 = 0xA7B6_C5D4;
}

impl Cell for i32 {
    const GUARD: i32 = -0x5849_3A2C;
}

impl Cell for usize {
    const GUARD: usize = 0xA7B6_C5D4_E3F2_0198;
}

/// Cells between guards.
#[derive(Clone, PartialEq)]
pub struct Guarded<T> {
    cells: Vec<T>,
}

impl<T: Cell> Guarded<T> {
    pub fn new(content: &[T]) -> Self {
        let mut cells = vec![T::GUARD; GUARDS];
        cells.extend_from_slice(content);
        cells.extend_from_slice(&[T::GUARD; GUARDS]);
        Guarded { cells }
    }

    pub fn cells(&self) -> &[T] {
        &self.cells[GUARDS..self.cells.len() - GUARDS]
    }

    pub fn cells_mut(&mut self) -> &mut [T] {
        let end = self.cells.len() - GUARDS;
        &mut self.cells[GUARDS..end]
    }

    /// Whether every guard cell is as it was made.
    pub fn intact(&self) -> bool {
        let end = self.cells.len() - GUARDS;
        let mut guards = self.cells[..GUARDS].iter().chain(&self.cells[end..]);
        guards.all(|&guard| guard == T::GUARD)
    }
}

/// A single cell between guards.
impl<T: Cell> Guarded<T> {
    pub fn get(&self) -> T {
        self.cells()[0]
    }

    pub fn get_mut(&mut self) -> &mut T {
        &mut self.cells_mut()[0]
    }
}
