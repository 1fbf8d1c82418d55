//! The three operations, on blocks of words as they stand.

/// A monoid whose elements are blocks of `W` words.
pub trait Monoid<const W: usize> {
    /// The block that changes nothing.
    fn unit(&self) -> [u32; W];

    /// The join of two proper blocks, `left` first.
    fn join(&self, left: &[u32; W], right: &[u32; W]) -> [u32; W];

    /// The place of the word that makes a block improper.
    fn wrong_word(&self, block: &[u32; W]) -> Option<usize>;
}

/// Maps y → a×y + b modulo a number, as `[a, b]`.
pub struct Maps {
    modulus: u32,
}

impl Maps {
    pub fn new(modulus: u32) -> Option<Maps> {
        (2..=i32::MAX as u32)
            .contains(&modulus)
            .then_some(Maps { modulus })
    }
}

impl Monoid<2> for Maps {
    fn unit(&self) -> [u32; 2] {
        [1, 0]
    }

    fn join(&self, &[a, b]: &[u32; 2], &[c, d]: &[u32; 2]) -> [u32; 2] {
        let scaled = |x: u32, plus: u32| {
            ((u64::from(c) * u64::from(x) + u64::from(plus)) % u64::from(self.modulus)) as u32
        };
        [scaled(a, 0), scaled(b, d)]
    }

    fn wrong_word(&self, block: &[u32; 2]) -> Option<usize> {
        block.iter().position(|&word| word >= self.modulus)
    }
}

/// Bytes, lines, words and edge of a text, as `wc` counts.
pub struct Texts;

const FILLED: u32 = 4;
const LEFT: u32 = 2;
const RIGHT: u32 = 1;

impl Monoid<4> for Texts {
    fn unit(&self) -> [u32; 4] {
        [0; 4]
    }

    fn join(&self, left: &[u32; 4], right: &[u32; 4]) -> [u32; 4] {
        let (l, r) = (left[3], right[3]);
        if l == 0 {
            return *right;
        }
        if r == 0 {
            return *left;
        }
        // A word that goes on counts once.
        let shared = l & RIGHT & (r & LEFT) >> 1;
        [
            left[0].wrapping_add(right[0]),
            left[1].wrapping_add(right[1]),
            left[2].wrapping_add(right[2]).wrapping_sub(shared),
            FILLED | l & LEFT | r & RIGHT,
        ]
    }

    fn wrong_word(&self, block: &[u32; 4]) -> Option<usize> {
        match block[3] {
            0 => block[..3].iter().position(|&count| count != 0),
            FILLED..=7 => None,
            _ => Some(3),
        }
    }
}

/// The least value with its place, as `[mark, value, place]`.
pub struct Leasts;

impl Monoid<3> for Leasts {
    fn unit(&self) -> [u32; 3] {
        [0; 3]
    }

    fn join(&self, left: &[u32; 3], right: &[u32; 3]) -> [u32; 3] {
        match (left[0], right[0]) {
            (0, _) => *right,
            (_, 0) => *left,
            // Words of values are in the order of the values.
            _ => *left.min(right),
        }
    }

    fn wrong_word(&self, block: &[u32; 3]) -> Option<usize> {
        match block[0] {
            0 => block[1..].iter().position(|&word| word != 0).map(|i| i + 1),
            1 => None,
            _ => Some(0),
        }
    }
}
