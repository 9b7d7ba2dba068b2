//! What is transferred, and the numbers by which it is checked.

/// The content of every stream repeats after this many bytes.
const PERIOD: usize = 1 << 20;
/// The longest piece of content that can be asked for.
const LONGEST: usize = 65_536;
const PIECES: u32 = 1024;

/// A linear congruential generator. Its numbers are the same on every machine.
pub struct Random(u64);

impl Random {
    pub fn new(seed: u64) -> Self {
        Random(seed ^ 0x9e37_79b9_7f4a_7c15)
    }

    pub fn draw(&mut self) -> u32 {
        self.0 = self
            .0
            .wrapping_mul(6_364_136_223_846_793_005)
            .wrapping_add(1_442_695_040_888_963_407);
        (self.0 >> 33) as u32
    }

    /// Puts a list into an arbitrary order (Fisher and Yates).
    pub fn shuffle<T>(&mut self, list: &mut [T]) {
        for last in (1..list.len()).rev() {
            list.swap(last, self.draw() as usize % (last + 1));
        }
    }
}

/// The content of all streams, and an order of 1024 pieces.
pub struct Content {
    pub bytes: Vec<u8>,
    pub order: Vec<u32>,
}

impl Default for Content {
    fn default() -> Self {
        let mut random = Random::new(0);
        let mut bytes: Vec<u8> = (0..PERIOD).map(|_| random.draw() as u8).collect();
        bytes.extend_from_within(..LONGEST);
        let mut order: Vec<u32> = (0..PIECES).collect();
        random.shuffle(&mut order);
        Content { bytes, order }
    }
}

impl Content {
    /// The `length` bytes, at most 65,536, that stand at `offset` of a stream.
    #[inline]
    pub fn at(&self, offset: u64, length: usize) -> &[u8] {
        let start = offset as usize % PERIOD;
        &self.bytes[start..start + length]
    }
}

/// A sum over bytes and their offsets. It depends neither on the order in which it sees them nor on how they are cut.
#[derive(Clone, Copy, Default)]
pub struct Sum {
    pub value: u64,
    pub bytes: u64,
}

impl Sum {
    /// Adds, for each offset m among them that is a multiple of 256, the byte there plus 1, times m / 256 + 1.
    #[inline]
    pub fn see(&mut self, offset: u64, bytes: &[u8]) {
        let first = offset.next_multiple_of(256);
        let (mut at, mut factor) = ((first - offset) as usize, first / 256 + 1);
        let mut value = self.value;
        while at < bytes.len() {
            value = value.wrapping_add((u64::from(bytes[at]) + 1).wrapping_mul(factor));
            at += 256;
            factor += 1;
        }
        self.value = value;
        self.bytes += bytes.len() as u64;
    }
}

#[cfg(test)]
mod tests {
    use super::*;

    #[test]
    fn a_sum_does_not_depend_on_cuts_or_order() {
        let content = Content::default();
        let mut whole = Sum::default();
        whole.see(1000, content.at(1000, 5000));
        let mut parts = Sum::default();
        for (start, end) in [(3000, 6000), (1000, 1001), (1001, 3000)] {
            parts.see(start, content.at(start, (end - start) as usize));
        }
        assert_eq!((whole.value, whole.bytes), (parts.value, parts.bytes));
        let mut other = Sum::default();
        other.see(1256, content.at(1000, 5000));
        assert_ne!(whole.value, other.value);
    }

    #[test]
    fn content_repeats() {
        let content = Content::default();
        assert_eq!(content.at(5, 65_000), content.at((1 << 20) + 5, 65_000));
        let mut order = content.order.clone();
        order.sort_unstable();
        assert!(order.into_iter().eq(0..1024));
    }
}
