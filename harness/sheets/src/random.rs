//! A small generator of random numbers.

pub struct Random(u64);

impl Random {
    pub fn new(seed: u64) -> Random {
        Random(seed)
    }

    pub fn number(&mut self) -> u64 {
        self.0 = self.0.wrapping_add(0x9e3779b97f4a7c15);
        let mut z = self.0;
        z = (z ^ (z >> 30)).wrapping_mul(0xbf58476d1ce4e5b9);
        z = (z ^ (z >> 27)).wrapping_mul(0x94d049bb133111eb);
        z ^ (z >> 31)
    }

    /// A number below `n`.
    pub fn below(&mut self, n: u64) -> u64 {
        self.number() % n
    }

    pub fn place(&mut self, n: usize) -> usize {
        self.below(n as u64) as usize
    }

    pub fn of<T: Copy>(&mut self, list: &[T]) -> T {
        list[self.place(list.len())]
    }

    /// Brings a list into another order, or by chance the same.
    pub fn shuffle<T>(&mut self, list: &mut [T]) {
        for i in (1..list.len()).rev() {
            list.swap(i, self.place(i + 1));
        }
    }

    /// A mark that is 1 so many times in 8.
    pub fn mark(&mut self, eighths: u64) -> u64 {
        (self.below(8) < eighths) as u64
    }

    /// A number of exactly so many digits, 1 to 20.
    pub fn of_digits(&mut self, digits: u32) -> u64 {
        if digits == 1 {
            return self.below(10);
        }
        let least = 10u64.pow(digits - 1);
        let most = least.checked_mul(10).map_or(u64::MAX, |n| n - 1);
        least + self.below(most - least + 1)
    }
}
