//! Sampling priorities and mechanisms, as this repository defines them.

use std::{borrow::Cow, fmt, str::FromStr};

/// A small number that keeps exactly when it is above 0.
#[derive(Clone, Copy, Debug, PartialEq, Eq)]
pub struct SamplingPriority(pub i8);

impl SamplingPriority {
    pub fn is_keep(&self) -> bool {
        self.0 > 0
    }
}

impl fmt::Display for SamplingPriority {
    fn fmt(&self, out: &mut fmt::Formatter<'_>) -> fmt::Result {
        write!(out, "{}", self.0)
    }
}

/// What makes a text unreadable is not told.
#[derive(Debug)]
pub struct Unreadable;

impl FromStr for SamplingPriority {
    type Err = Unreadable;

    fn from_str(text: &str) -> Result<Self, Unreadable> {
        text.parse::<i8>().map(Self).map_err(|_| Unreadable)
    }
}

/// A number from 0 to 255, written as `-` and decimal digits.
#[derive(Clone, Copy, Debug, PartialEq, Eq)]
pub struct SamplingMechanism(pub u8);

impl SamplingMechanism {
    pub fn to_cow(&self) -> Cow<'static, str> {
        Cow::Owned(format!("-{}", self.0))
    }
}

impl FromStr for SamplingMechanism {
    type Err = Unreadable;

    fn from_str(text: &str) -> Result<Self, Unreadable> {
        let digits = text.strip_prefix('-').ok_or(Unreadable)?;
        if digits.is_empty() || !digits.bytes().all(|b| b.is_ascii_digit()) {
            return Err(Unreadable);
        }
        digits.parse::<u8>().map(Self).map_err(|_| Unreadable)
    }
}

pub mod priority {
    use super::SamplingPriority;

    pub const AUTO_REJECT: SamplingPriority = SamplingPriority(0);
    pub const AUTO_KEEP: SamplingPriority = SamplingPriority(1);
    pub const USER_KEEP: SamplingPriority = SamplingPriority(2);
}

pub mod mechanism {
    use super::SamplingMechanism;

    pub const DEFAULT: SamplingMechanism = SamplingMechanism(0);
}
