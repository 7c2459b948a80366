//! D-TBAC tank permits for blending skids: reading a plant file, the monitor
//! over it, a queue, a batch call and the program `permits`.
//!
//! The code follows the scope paper (document 01) sentence by sentence and is
//! meant to be read beside it. Nothing is optimised: where the paper says
//! "no tank of its group lies strictly above it", the code looks at every
//! tank of the group. Numbers such as 21 are the paper's answer numbers.
//!
//! | module    | place in 01                                  |
//! |-----------|----------------------------------------------|
//! | `plant`   | Words of the plant; checks 3, 7 and 10 to 12 |
//! | `lattice` | the lattice laws; checks 7, 8 and 9          |
//! | `opening` | Plant file, edition 1; checks 1 to 12        |
//! | `choice`  | nearest tank and the choice                  |
//! | `monitor` | the record, test 20, the four calls          |
//! | `history` | A list's history                             |
//! | `queue`   | Queue                                        |
//! | `batch`   | Batch                                        |
//! | `section` | Section                                      |
//! | `permits` | The program permits                          |
//! | `gen`     | inputs for comparing two implementations     |

pub mod batch;
pub mod choice;
pub mod gen;
pub mod history;
pub mod lattice;
pub mod monitor;
pub mod opening;
pub mod permits;
pub mod plant;
pub mod queue;
pub mod section;

pub use batch::batch;
pub use history::{history_answers, history_rights};
pub use monitor::{call, test20, Record};
pub use opening::open;
pub use permits::permits;
pub use plant::Plant;
pub use queue::queue;
pub use section::section;
