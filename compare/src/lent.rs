//! Memory lent to the library: what is lent in the middle, canaries on both sides.

/// Canaries on each side that nobody may write; none where a tool watches instead.
const CANARIES: usize = 64;

/// What memory is made of.
pub trait Unit: Copy + PartialEq {
    const NAME: &'static str;

    /// Different at each place, so that moved memory is seen as well.
    fn canary(at: usize) -> Self;
}

impl Unit for u64 {
    const NAME: &'static str = "words";

    fn canary(at: usize) -> u64 {
        0xC0DE_CAFE_0000_0000 ^ at as u64
    }
}

impl Unit for u32 {
    const NAME: &'static str = "ticks";

    fn canary(at: usize) -> u32 {
        0xC0DE_0000 ^ at as u32
    }
}

impl Unit for i64 {
    const NAME: &'static str = "numbers";

    fn canary(at: usize) -> i64 {
        u64::canary(at) as i64
    }
}

impl Unit for u8 {
    const NAME: &'static str = "bytes";

    fn canary(at: usize) -> u8 {
        0xC5 ^ at as u8
    }
}

/// Memory that is lent again and again, at any length.
pub struct Lent<T = u64> {
    memory: Vec<T>,
    length: usize,
    canaries: usize,
}

impl<T: Unit> Lent<T> {
    /// `exact`: without canaries, in memory of its own at every load and of just that
    /// length, so that a tool sees each access beside it, reading ones as well.
    pub fn new(exact: bool) -> Lent<T> {
        let mut lent = Lent {
            memory: Vec::new(),
            length: 0,
            canaries: if exact { 0 } else { CANARIES },
        };
        lent.load(&[]);
        lent
    }

    /// Makes these the contents to lend.
    pub fn load(&mut self, contents: &[T]) {
        self.length = contents.len();
        if self.canaries == 0 {
            self.memory = contents.to_vec();
            return;
        }
        let whole = contents.len() + 2 * self.canaries;
        if self.memory.len() < whole {
            self.memory.resize(whole, T::canary(0));
        }
        let behind = self.canaries + contents.len();
        self.memory[self.canaries..behind].copy_from_slice(contents);
        for at in (0..self.canaries).chain(behind..whole) {
            self.memory[at] = T::canary(at);
        }
    }

    /// What is lent.
    pub fn contents(&self) -> &[T] {
        &self.memory[self.canaries..self.canaries + self.length]
    }

    /// Where it begins; a pointer into the whole memory, so that a write beside it is
    /// a fault of the library's and none of ours.
    pub fn pointer(&mut self) -> *mut T {
        self.memory[..].as_mut_ptr().wrapping_add(self.canaries)
    }

    pub fn length(&self) -> usize {
        self.length
    }

    /// The first canary that was written: how far before or behind.
    pub fn written_beside(&self) -> Option<String> {
        let behind = self.canaries + self.length;
        let mut places = (0..self.canaries).chain(behind..behind + self.canaries);
        let at = places.find(|&at| self.memory[at] != T::canary(at))?;
        let name = T::NAME;
        Some(if at < self.canaries {
            format!("{} {name} before", self.canaries - at)
        } else {
            format!("{} {name} behind", at - behind + 1)
        })
    }
}
