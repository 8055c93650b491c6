//! Runs the original's functions: one command a line in, one answer a line out.
//! README.md has the syntax.

#![allow(dead_code, private_interfaces, unused_imports)]

/// The original's log macros: what they are given is checked and not printed.
#[macro_export]
macro_rules! dd_debug {
    ($($words:tt)+) => {{ let _ = format_args!($($words)+); }};
}

#[macro_export]
macro_rules! dd_warn {
    ($($words:tt)+) => {{ let _ = format_args!($($words)+); }};
}

#[macro_export]
macro_rules! dd_error {
    ($($words:tt)+) => {{ let _ = format_args!($($words)+); }};
}

mod core;
mod propagation;

mod configuration {
    pub use crate::core::configuration::TracePropagationBehaviorExtract;
}

mod commands;
mod tags; // written by the build: the kind of map for tags
mod text;

use std::io::{self, BufRead, Write};

fn main() -> io::Result<()> {
    let plain = std::env::args().any(|word| word == "--plain");
    let mut out = io::BufWriter::new(io::stdout().lock());
    for line in io::stdin().lock().lines() {
        let line = line?;
        if line.is_empty() || line.starts_with('#') {
            continue;
        }
        match commands::answer(&line, plain) {
            Ok(answer) => writeln!(out, "{answer}")?,
            Err(complaint) => writeln!(out, "? {complaint}")?,
        }
    }
    out.flush()
}
