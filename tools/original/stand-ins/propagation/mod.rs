//! The head of the module: the parts that the build cuts out of the original's
//! mod.rs come after it.

use crate::configuration::TracePropagationBehaviorExtract;
use crate::core::configuration::TracePropagationStyle;

pub mod carrier;
pub mod context;
pub mod datadog;
pub mod error;
pub mod tracecontext;

