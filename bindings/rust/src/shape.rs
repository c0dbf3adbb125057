//! K, C and M.
use crate::Refusal;

const PAGE_LENGTH: u64 = 4096;
const MOST_SLOTS: u64 = 64;
const MOST_CAPACITY: u64 = 1 << 31;

/// K slots of C bytes; a segment of M bytes or more takes no further record.
#[derive(Clone, Copy, Debug, PartialEq, Eq)]
pub struct Shape {
    /// K, from 1 to 64.
    pub slots: u64,
    /// C, a multiple of 4096 from 4096 to 2^31.
    pub capacity: u64,
    /// M, at most C.
    pub soft_size: u64,
}

impl Shape {
    /// The bytes of an area of this shape, K x C; refuses with 1 where a number is outside the rules.
    ///
    /// ```
    /// use iflughan::{Refusal, Shape};
    ///
    /// let shape = Shape { slots: 64, capacity: 1 << 31, soft_size: 0 };
    /// assert_eq!(shape.area_length(), Ok(1 << 37));
    /// assert_eq!(Shape { slots: 65, ..shape }.area_length(), Err(Refusal::OutsideRules));
    /// ```
    pub fn area_length(self) -> Result<usize, Refusal> {
        let Shape {
            slots: k,
            capacity: c,
            soft_size: m,
        } = self;
        let within = (1..=MOST_SLOTS).contains(&k)
            && (PAGE_LENGTH..=MOST_CAPACITY).contains(&c)
            && c % PAGE_LENGTH == 0
            && m <= c;
        let length = if within {
            usize::try_from(k * c).ok()
        } else {
            None
        };
        length.ok_or(Refusal::OutsideRules)
    }
}
