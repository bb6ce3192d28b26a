//! The six files of docs/src, compiled as they stand. Only `shims` is ours, and `private` under the feature of that name.
//!
//! The paths stand on the inline modules and not on `mod tsar;`: a file reached by a path of its
//! own would look for `mod segmentation;` beside itself, and it lies one folder further down.

// The feature `private` sets `cfg(test)` by hand.
#![allow(explicit_builtin_cfgs_in_flags)]

mod shims;

#[cfg(feature = "private")]
#[path = "private/fields.rs"]
pub mod fields;
#[cfg(feature = "private")]
include!(concat!(env!("OUT_DIR"), "/modules.rs"));

#[cfg(not(feature = "private"))]
#[path = "../../../docs/src/crates/bts136/src/l3"]
pub mod l3 {
    pub use crate::shims::{broadcast, control_fields, relay};
    pub mod tsar;
}

#[cfg(not(feature = "private"))]
#[path = "../../../docs/src/crates/bts136/src/link"]
pub mod link {
    pub use crate::shims::rach;
    pub mod tsar {
        mod outgoing;
        mod receiver;
        mod sender;
        pub use outgoing::{OutgoingError, OutgoingTransactions, SenderEvent, Start, Transaction};
        pub use receiver::{ReceiveError, Receiver, ReceiverState, Reception};
        pub use sender::{
            Completion, Error, LowerLayerFailure, Sender, SenderFailure, SenderState, Submission,
        };
    }
}
