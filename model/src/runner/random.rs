//! Numbers from a seed (splitmix64): the same seed gives the same cases on every machine.

/// A stream of numbers.
#[derive(Clone, Debug)]
pub struct Random(u64);

/// Words at the edges of the board's ranges.
const EDGES: [u16; 16] = [0, 1, 2, 31, 32, 33, 64, 65, 127, 128, 129, 255, 256, 257, 32768, 65535];
/// Bytes at the edges of STAT and PRIO.
const EDGE_BYTES: [u8; 10] = [0x00, 0x01, 0x02, 0x03, 0x21, 0x81, 0xFC, 0xFD, 0xFE, 0xFF];

impl Random {
    /// The stream of a seed.
    pub fn new(seed: u64) -> Random {
        Random(seed)
    }

    fn next(&mut self) -> u64 {
        self.0 = self.0.wrapping_add(0x9E37_79B9_7F4A_7C15);
        let mixed = (self.0 ^ self.0 >> 30).wrapping_mul(0xBF58_476D_1CE4_E5B9);
        let mixed = (mixed ^ mixed >> 27).wrapping_mul(0x94D0_49BB_1331_11EB);
        mixed ^ mixed >> 31
    }

    /// A number from 0 to one below the bound, which is not 0.
    pub fn below(&mut self, bound: usize) -> usize {
        (self.next() % bound as u64) as usize
    }

    /// A number from 1 to the last.
    pub fn upto(&mut self, last: u16) -> u16 {
        1 + self.below(last.into()) as u16
    }

    /// True in so many of a hundred.
    pub fn chance(&mut self, percent: usize) -> bool {
        self.below(100) < percent
    }

    /// One of these.
    pub fn pick<T: Copy>(&mut self, from: &[T]) -> T {
        from[self.below(from.len())]
    }

    /// A number from 1 to the last for which the condition holds, if there is one.
    pub fn pick_where(&mut self, last: u16, holds: impl Fn(u16) -> bool) -> Option<u16> {
        let start = self.upto(last);
        (start..=last).chain(1..start).find(|number| holds(*number))
    }

    /// An index into weights, each as often as its weight says.
    pub fn weighted(&mut self, weights: &[u8]) -> usize {
        let mut left = self.below(weights.iter().map(|weight| usize::from(*weight)).sum());
        for (index, weight) in weights.iter().enumerate() {
            let weight = usize::from(*weight);
            if left < weight {
                return index;
            }
            left -= weight;
        }
        unreachable!("the rest is below the sum of the weights")
    }

    /// Any byte, at times one at the edge of a range.
    pub fn byte(&mut self) -> u8 {
        match self.below(3) {
            0 => self.pick(&EDGE_BYTES),
            _ => self.next() as u8,
        }
    }

    /// Any word, more often one at the edge of a range.
    pub fn word(&mut self) -> u16 {
        match self.below(4) {
            0 => self.next() as u16,
            1 => self.next() as u16 % 136,
            _ => self.pick(&EDGES),
        }
    }
}
