//! Inputs for comparing two implementations, made from a seed.
//!
//! Everything comes from one [`Rng`], so a seed names a case for good. Lists of
//! calls are made from the plant alone, so that most calls are sensible; no
//! answer of the monitor steers them.
//!
//! | module     | what it makes                                             |
//! |------------|-----------------------------------------------------------|
//! | `rng`      | the numbers                                               |
//! | `lattices` | lattices, orders that are none, relations that are none   |
//! | `plants`   | accepted plant files of all shapes                        |
//! | `broken`   | plant files that break one opening check, at its boundary |
//! | `calls`    | lists of requests                                         |
//! | `records`  | reached records, and records that break test 20           |
//! | `bytes`    | flips, cuts and additions; buffers; program inputs        |

pub mod broken;
pub mod bytes;
pub mod calls;
pub mod lattices;
pub mod plants;
pub mod records;
pub mod rng;

pub use broken::{broken, broken_twice};
pub use bytes::{any_plant_file, batch_case, buffer_length, fullest_case, mutated, program_input};
pub use calls::{calls, wild_calls};
pub use plants::{accepted_file, draft, Draft, Layout, Size, SIZES};
pub use records::{damaged, free_change, random_record, reached, record_bytes, record_of_bytes};
pub use rng::Rng;
