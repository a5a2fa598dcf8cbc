//! Numbers that look random and are the same for the same seed, and what the environment may set.
use std::env;

/// The seed where `CATHAR_SEED` sets none.
pub const SEED: u64 = 0x00ca_7ba2;

/// How many values a comparison takes at least, where `CATHAR_VALUES` sets nothing.
pub const VALUES: u64 = 10_000_000;

/// The seed of this run: `CATHAR_SEED`, in decimal or as 0x and hex digits, or `SEED`.
pub fn seed() -> u64 {
    setting("CATHAR_SEED", SEED)
}

/// How many values each comparison takes at least: `CATHAR_VALUES`, or `VALUES`.
pub fn values() -> u64 {
    setting("CATHAR_VALUES", VALUES)
}

fn setting(name: &str, otherwise: u64) -> u64 {
    match env::var(name) {
        Ok(text) => number(&text).unwrap_or_else(|| panic!("{name} is not a number: {text}")),
        Err(_) => otherwise,
    }
}

fn number(text: &str) -> Option<u64> {
    match text.strip_prefix("0x") {
        Some(digits) => u64::from_str_radix(digits, 16).ok(),
        None => text.parse().ok(),
    }
}

/// The generator: a counter that goes up by an odd number, and so meets every word before any comes
/// again, each scrambled by shifts and products that lose nothing (SplitMix64).
pub struct Draw(u64);

impl Draw {
    pub fn new(seed: u64) -> Draw {
        Draw(seed)
    }

    /// A generator of its own. This one goes on as if nothing had been drawn, so that what is drawn aside leaves all
    /// else as it was.
    pub fn aside(&self) -> Draw {
        Draw(self.0 ^ 0x6a09_e667_f3bc_c908)
    }

    /// Any word.
    pub fn word(&mut self) -> u64 {
        self.0 = self.0.wrapping_add(0x9e37_79b9_7f4a_7c15);
        let a = (self.0 ^ (self.0 >> 30)).wrapping_mul(0xbf58_476d_1ce4_e5b9);
        let b = (a ^ (a >> 27)).wrapping_mul(0x94d0_49bb_1331_11eb);
        b ^ (b >> 31)
    }

    /// A number of at most so many binary digits, 1 to 64, each as likely.
    pub fn digits(&mut self, count: u32) -> u64 {
        self.word() >> (64 - count)
    }

    /// A number below n, which is above 0. (That the low ones are a little likelier does not matter.)
    pub fn below(&mut self, n: u64) -> u64 {
        self.word() % n
    }
}
