//! Stand-in for the crate `opentelemetry`: the two carrier interfaces alone.

pub mod propagation {
    pub trait Injector {
        fn set(&mut self, key: &str, value: String);
    }

    pub trait Extractor {
        fn get(&self, key: &str) -> Option<&str>;
        fn keys(&self) -> Vec<&str>;
    }
}
