//! The library against the rules of docs/SPECIFICATION.md written down directly, on many random calls, good and damaged.
//!
//! Each call is made through the C function and through the safe one, on memory full of garbage. Its answer and all
//! memory, past the ends of what was lent too, must be what the direct implementation answers and leaves.

mod abi;
mod cycle;
mod direct;
mod examples;
mod filter;
mod filter_call;
mod images;
mod lent;
mod live;
mod parallel;
mod random;
mod record;
mod tally;
