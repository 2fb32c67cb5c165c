//! Calls with their whole replies, for the prover to compute from the definitions and compare.
//! `cargo run --release --example told > crates/examples/proofs/Told.antt`

fn main() {
    print!("{}", compare::told::text());
}
