//! The programs that read net.bin and rows, each held against the reference's program
//! of the same name. What their tests have in common stands here.

mod closed;
mod compare;
mod counter;
mod failing;
mod folder;
mod long;
pub mod planned;
mod program;
mod random;
mod waiting;

pub use closed::{a_closed_pipe_ends_it, a_full_device_ends_it};
pub use counter::{counter, register_after, Rows};
pub use failing::{a_folder_for_net_bin, failing, from_rows, rows_from_a_folder, two_inputs};
pub use folder::Folder;
pub use long::{many_cycles_in_little_memory, Expected, CYCLES};
pub use program::{said, wait, Ended, Pieces, Program, SHORT};
pub use random::{one_case, random_netlists_and_rows};
pub use waiting::Waiting;
