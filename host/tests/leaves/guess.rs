//! The count of how near guesses are to the roots.
use cathar_host::tally::line;

/// How many guesses are right, one too low, one too high, or farther off.
#[derive(Default)]
pub struct Tally {
    right: u64,
    low: u64,
    high: u64,
    far: u64,
}

impl Tally {
    /// Counts a guess at a root.
    pub fn take(&mut self, guess: u64, root: u64) {
        let kind = match guess.wrapping_sub(root) as i64 {
            -1 => &mut self.low,
            0 => &mut self.right,
            1 => &mut self.high,
            _ => &mut self.far,
        };
        *kind += 1;
    }

    pub fn values(&self) -> u64 {
        self.right + self.low + self.high + self.far
    }

    pub fn far(&self) -> u64 {
        self.far
    }

    /// Prints the whole count, and how many roots were worked out by hand.
    pub fn print(&self, title: &str, by_digits: u64) {
        let mut text = format!("{title}\n");
        line(&mut text, "values", self.values());
        line(&mut text, "right", self.right);
        line(&mut text, "one too low", self.low);
        line(&mut text, "one too high", self.high);
        line(&mut text, "farther off", self.far);
        line(&mut text, "roots by hand", by_digits);
        print!("{text}");
    }
}
