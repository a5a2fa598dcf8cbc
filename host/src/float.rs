//! Floats by their patterns: a sign, the exponent's field, and the tail, the digits below it.

/// One of the two formats.
#[derive(Clone, Copy)]
pub struct Format {
    field_digits: u32,
    tail_digits: u32,
}

pub const F32: Format = Format { field_digits: 8, tail_digits: 23 };
pub const F64: Format = Format { field_digits: 11, tail_digits: 52 };

impl Format {
    /// How many signs with a field there are: a pattern's sign and field are a number below this.
    pub fn tops(self) -> u64 {
        2 << self.field_digits
    }

    /// The sign with the field.
    pub fn top(self, bits: u64) -> u64 {
        bits >> self.tail_digits
    }

    /// The exponent's field.
    pub fn field(self, bits: u64) -> u64 {
        self.field_of_top(self.top(bits))
    }

    /// The field without the sign.
    pub fn field_of_top(self, top: u64) -> u64 {
        top % (self.tops() / 2)
    }

    /// All digits of a normal number: the tail, and the one before it.
    pub fn digits(self, bits: u64) -> u64 {
        self.last_tail() + 1 + self.tail(bits)
    }

    /// The digits below the field.
    pub fn tail(self, bits: u64) -> u64 {
        bits & self.last_tail()
    }

    /// The tail whose digits are all ones.
    pub fn last_tail(self) -> u64 {
        (1 << self.tail_digits) - 1
    }

    /// The pattern with this sign and field, and this tail.
    pub fn pattern(self, top: u64, tail: u64) -> u64 {
        (top << self.tail_digits) | tail
    }

    /// The pattern without its sign.
    pub fn magnitude(self, bits: u64) -> u64 {
        bits & (self.pattern(self.tops() / 2, 0) - 1)
    }

    pub fn is_negative(self, bits: u64) -> bool {
        self.magnitude(bits) != bits
    }

    pub fn is_zero(self, bits: u64) -> bool {
        self.magnitude(bits) == 0
    }

    pub fn is_subnormal(self, bits: u64) -> bool {
        self.field(bits) == 0 && self.tail(bits) != 0
    }

    /// A finite number that is neither a zero nor subnormal.
    pub fn is_normal(self, bits: u64) -> bool {
        self.field(bits) != 0 && self.field(bits) != self.last_field()
    }

    pub fn is_infinite(self, bits: u64) -> bool {
        self.field(bits) == self.last_field() && self.tail(bits) == 0
    }

    /// A NaN whose first tail digit is 1.
    pub fn is_quiet_nan(self, bits: u64) -> bool {
        self.is_nan(bits) && self.tail(bits) > self.last_tail() / 2
    }

    /// A NaN whose first tail digit is 0.
    pub fn is_signalling_nan(self, bits: u64) -> bool {
        self.is_nan(bits) && self.tail(bits) <= self.last_tail() / 2
    }

    pub fn is_nan(self, bits: u64) -> bool {
        self.field(bits) == self.last_field() && self.tail(bits) != 0
    }

    fn last_field(self) -> u64 {
        self.tops() / 2 - 1
    }
}

/// The pattern of x, one and the same for every NaN.
pub fn word32(x: f32) -> u64 {
    u64::from(if x.is_nan() { 0x7fc0_0000 } else { x.to_bits() })
}

/// The pattern of x, one and the same for every NaN.
pub fn word64(x: f64) -> u64 {
    if x.is_nan() {
        0x7ff8_0000_0000_0000
    } else {
        x.to_bits()
    }
}
