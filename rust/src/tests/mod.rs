//! Tests over the exported functions themselves, which the crate does not show.

mod any_input;
mod layout;
mod numbers;
#[path = "../../tests/support/random.rs"]
mod random;
mod state;
