//! Times of the proved monitor beside those of a baseline written for speed.
//!
//! | module     | what it has                                              |
//! |------------|----------------------------------------------------------|
//! | `baseline` | the monitor in Rust, for speed                           |
//! | `rattle`   | the proved functions, from their archives                |
//! | `inputs`   | the plants and lists that both are given                 |
//! | `cases`    | the measured calls                                       |
//! | `rows`     | what is measured of them, with the aims                  |
//! | `clock`    | the times of two functions, side by side                 |
//! | `count`    | instructions                                             |
//! | `stack`    | how much stack a call needs                              |
//! | `programs` | the program permits, as a whole process                  |
//! | `measured` | what was measured, and how the table shows it            |
//! | `plot`     | the plot of the ratios                                   |

pub mod baseline;
pub mod cases;
pub mod clock;
pub mod count;
pub mod inputs;
pub mod measured;
pub mod plot;
pub mod programs;
pub mod rattle;
pub mod rows;
pub mod stack;
