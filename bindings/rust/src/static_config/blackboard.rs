//! What is fixed of a blackboard service.
//!
#![doc = example!(fixed blackboard)]
//! assert_eq!(fixed.max_readers(), 8);
#![doc = example!(end)]

use super::fixed::fixed;
use super::message_type_details::TypeDetail;

fixed! {
    "a blackboard" blackboard Blackboard:
    /// Each number must be at least the required one. The type of the keys is no part of it.
    StaticConfig of iox2sd_blackboard_config {
        /// How many readers there may be at once.
        max_readers: usize,
        /// How many writers there may be at once.
        max_writers: usize as _,
        /// How many nodes may have the service open at once.
        max_nodes: usize,
    } and {
        /// The type of the keys.
        type_details: TypeDetail,
    }
}
