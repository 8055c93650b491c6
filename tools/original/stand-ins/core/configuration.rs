//! Names that signatures of the original mention; no run depends on them.

use std::fmt;

#[derive(Clone, Copy, Debug, PartialEq, Eq)]
pub enum TracePropagationStyle {
    Datadog,
    TraceContext,
    None,
}

impl fmt::Display for TracePropagationStyle {
    fn fmt(&self, out: &mut fmt::Formatter<'_>) -> fmt::Result {
        out.write_str(match self {
            Self::Datadog => "datadog",
            Self::TraceContext => "tracecontext",
            Self::None => "none",
        })
    }
}

#[derive(Clone, Copy, Debug, PartialEq, Eq)]
pub enum TracePropagationBehaviorExtract {
    Continue,
}
