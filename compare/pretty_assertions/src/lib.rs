pub use std::assert_eq;
