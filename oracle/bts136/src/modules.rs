// The modules of src/lib.rs, beside copies of the files of docs/src: build.rs puts this file there.

pub mod l3 {
    pub use crate::shims::{broadcast, control_fields, relay};
    pub mod tsar;
}

pub mod link {
    pub use crate::shims::rach;
    pub mod tsar {
        mod outgoing;
        mod receiver;
        mod sender;
        pub use outgoing::{OutgoingError, OutgoingTransactions, SenderEvent, Start, Transaction};
        pub use receiver::{ReceiveError, Receiver, ReceiverState, Reception};
        pub use sender::{
            Completion, Error, LowerLayerFailure, Sender, SenderFailure, SenderState, Submission,
        };
    }
}
