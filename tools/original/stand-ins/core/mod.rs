pub mod configuration;
pub mod constants;
pub mod sampling;
