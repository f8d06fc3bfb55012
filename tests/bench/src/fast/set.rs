//! Sets of variables, one bit for each number.

#[derive(Clone, Copy)]
pub struct Set([u64; 4]);

impl Set {
    pub const EMPTY: Set = Set([0; 4]);

    pub fn first(n: usize) -> Set {
        let mut set = Set::EMPTY;
        for (w, word) in set.0.iter_mut().enumerate() {
            *word = match n.saturating_sub(64 * w) {
                0 => 0,
                k if k < 64 => (1 << k) - 1,
                _ => !0,
            };
        }
        set
    }

    pub fn one(v: u8) -> Set {
        let mut set = Set::EMPTY;
        set.put(v);
        set
    }

    pub fn has(&self, v: u8) -> bool {
        self.0[v as usize / 64] >> (v % 64) & 1 == 1
    }

    pub fn put(&mut self, v: u8) {
        self.0[v as usize / 64] |= 1 << (v % 64);
    }

    pub fn put_where(&mut self, v: u8, put: bool) {
        self.0[v as usize / 64] |= u64::from(put) << (v % 64);
    }

    pub fn drop(&mut self, v: u8) {
        self.0[v as usize / 64] &= !(1 << (v % 64));
    }

    pub fn or(&self, other: &Set) -> Set {
        Set(std::array::from_fn(|w| self.0[w] | other.0[w]))
    }

    pub fn without(&self, other: &Set) -> Set {
        Set(std::array::from_fn(|w| self.0[w] & !other.0[w]))
    }

    /// The first variable that is in both.
    pub fn common(&self, other: &Set) -> Option<u8> {
        for w in 0..4 {
            let both = self.0[w] & other.0[w];
            if both != 0 {
                return Some((64 * w) as u8 + both.trailing_zeros() as u8);
            }
        }
        None
    }

    pub fn members(self) -> impl Iterator<Item = u8> {
        let mut left = self;
        std::iter::from_fn(move || {
            let v = left.common(&left)?;
            left.drop(v);
            Some(v)
        })
    }
}
