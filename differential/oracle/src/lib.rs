//! The unchanged Rust, built over stand-ins for rand, serde and what the repository did not give.

// In the three files a path `std::..` means this crate: the real std, with a heap that counts its
// pops and texts that are lent.
extern crate std_lent as std;

include!(concat!(env!("OUT_DIR"), "/modules.rs"));

pub mod agreement;
pub mod banks;
pub mod clock;
pub mod costs;
pub mod drafter;
pub mod drafter_values;
pub mod lent_model;
pub mod model;
pub mod planners;
pub mod plans;
pub mod range;
pub mod refusals;
pub mod storage;
pub mod unchanged;

pub mod request {
    /// The planner only counts requests: it reads nothing of one.
    pub struct Request;
}
