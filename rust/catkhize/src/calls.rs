//! The entries of the static library as they are: numbers and octets in, a number out. See include/catkhize.h for what each does and
//! [`layout`](crate::layout) for the sizes. The borrows keep a call's buffers apart, so that these functions are safe for any arguments.
//!
//! ```
//! use catkhize::{calls, layout};
//! let mut answer = [0; layout::DECODED];
//! assert_eq!(calls::decode(&[0x0b, 0x01, 0x02, 0x41, 0x42], 1, &mut answer), 0);
//! assert_eq!(answer[..3], [3, 1, 1]);
//! ```

use crate::link::{HigherLayerProtocol, MobileIdentity};

mod c {
    // Each slice of Rattle is a pointer and a number of octets here: a slice type in an extern declaration is passed otherwise.
    unsafe extern "C" {
        pub fn catkhize_encode(
            segment: *const u8,
            segment_octets: usize,
            data: *const u8,
            data_octets: usize,
            version: u8,
            output: *mut u8,
            output_octets: usize,
            answer: *mut u8,
            answer_octets: usize,
        ) -> u32;
        pub fn catkhize_decode(
            octets: *const u8,
            octets_octets: usize,
            version: u8,
            answer: *mut u8,
            answer_octets: usize,
        ) -> u32;
        pub fn catkhize_plan_message(
            message: *const u8,
            message_octets: usize,
            budget: u64,
            transaction: u8,
            window: u8,
            version: u8,
            ceiling: u64,
            plan: *mut u8,
            plan_octets: usize,
        ) -> u32;
        pub fn catkhize_plan_even(
            message: *const u8,
            message_octets: usize,
            budget: u64,
            transaction: u8,
            window: u8,
            version: u8,
            ceiling: u64,
            plan: *mut u8,
            plan_octets: usize,
        ) -> u32;
        pub fn catkhize_plan_segment(
            plan: *const u8,
            plan_octets: usize,
            index: u8,
            answer: *mut u8,
            answer_octets: usize,
        ) -> u32;
        pub fn catkhize_try_from_frozen(
            heads: *const u8,
            heads_octets: usize,
            count: u64,
            joined: *const u8,
            joined_octets: usize,
            message: *const u8,
            message_octets: usize,
            budget: u64,
            version: u8,
            ceiling: u64,
            plan: *mut u8,
            plan_octets: usize,
        ) -> u32;
        pub fn catkhize_convert(
            heads: *const u8,
            heads_octets: usize,
            count: u64,
            joined: *const u8,
            joined_octets: usize,
            message: *const u8,
            message_octets: usize,
            budget: u64,
            version: u8,
            ceiling: u64,
            dialect: u8,
            plan: *mut u8,
            plan_octets: usize,
        ) -> u32;
        pub fn catkhize_delivery_order(
            segments: u8,
            number: u64,
            output: *mut u8,
            output_octets: usize,
        ) -> u32;
        pub fn catkhize_receiver_new(
            record: *mut u8,
            record_octets: usize,
            peer_kind: u8,
            peer_width: u8,
            peer_value: u64,
            protocol: u8,
            protocol_octet: u8,
            transaction: u8,
            version: u8,
            profile: u8,
            maximum: u64,
            reading: u64,
        ) -> u32;
        pub fn catkhize_receiver_receive(
            record: *mut u8,
            record_octets: usize,
            store: *mut u8,
            store_octets: usize,
            output: *mut u8,
            output_octets: usize,
            peer_kind: u8,
            peer_width: u8,
            peer_value: u64,
            protocol: u8,
            protocol_octet: u8,
            segment: *const u8,
            segment_octets: usize,
            data: *const u8,
            data_octets: usize,
            unparsed: u64,
            reading: u64,
            answer: *mut u8,
            answer_octets: usize,
        ) -> u32;
        pub fn catkhize_receiver_advance(
            record: *mut u8,
            record_octets: usize,
            store: *mut u8,
            store_octets: usize,
            reading: u64,
            answer: *mut u8,
            answer_octets: usize,
        ) -> u32;
        pub fn catkhize_receiver_cancel(
            record: *mut u8,
            record_octets: usize,
            store: *mut u8,
            store_octets: usize,
            reading: u64,
        ) -> u32;
        pub fn catkhize_receiver_release(
            record: *mut u8,
            record_octets: usize,
            store: *mut u8,
            store_octets: usize,
            reading: u64,
        ) -> u32;
        pub fn catkhize_receiver_train(
            record: *mut u8,
            record_octets: usize,
            store: *mut u8,
            store_octets: usize,
            output: *mut u8,
            output_octets: usize,
            peer_kind: u8,
            peer_width: u8,
            peer_value: u64,
            protocol: u8,
            protocol_octet: u8,
            octets: *const u8,
            octets_octets: usize,
            lengths: *const u8,
            lengths_octets: usize,
            reading: u64,
            answer: *mut u8,
            answer_octets: usize,
        ) -> u32;
        pub fn catkhize_sender_new(
            record: *mut u8,
            record_octets: usize,
            peer_kind: u8,
            peer_width: u8,
            peer_value: u64,
            protocol: u8,
            protocol_octet: u8,
            plan: *const u8,
            plan_octets: usize,
            message: *const u8,
            message_octets: usize,
            version: u8,
            profile: u8,
            number: u64,
            reading: u64,
        ) -> u32;
        pub fn catkhize_sender_advance(
            record: *mut u8,
            record_octets: usize,
            reading: u64,
            answer: *mut u8,
            answer_octets: usize,
        ) -> u32;
        pub fn catkhize_sender_cancel(
            record: *mut u8,
            record_octets: usize,
            reading: u64,
            answer: *mut u8,
            answer_octets: usize,
        ) -> u32;
        pub fn catkhize_sender_submitted(
            record: *mut u8,
            record_octets: usize,
            number: u64,
            ticket: u64,
            queued: u64,
            observed: u64,
            answer: *mut u8,
            answer_octets: usize,
        ) -> u32;
        pub fn catkhize_sender_accepted(
            record: *mut u8,
            record_octets: usize,
            number: u64,
            ticket: u64,
            reading: u64,
            answer: *mut u8,
            answer_octets: usize,
        ) -> u32;
        pub fn catkhize_sender_lower_failed(
            record: *mut u8,
            record_octets: usize,
            number: u64,
            ticket: u64,
            failure: u8,
            cause: u8,
            reading: u64,
            answer: *mut u8,
            answer_octets: usize,
        ) -> u32;
        pub fn catkhize_sender_receive_response(
            record: *mut u8,
            record_octets: usize,
            peer_kind: u8,
            peer_width: u8,
            peer_value: u64,
            protocol: u8,
            protocol_octet: u8,
            response: *const u8,
            response_octets: usize,
            unparsed: u64,
            reading: u64,
            answer: *mut u8,
            answer_octets: usize,
        ) -> u32;
        pub fn catkhize_sender_submission(
            record: *const u8,
            record_octets: usize,
            answer: *mut u8,
            answer_octets: usize,
        ) -> u32;
    }
}

/// Who a segment or a response is from: a peer, and a protocol as its number (0 Segmented, 1 CarrierSpecific, 2 another) and octet. Any
/// numbers may be given; those that name no case are refused with 258.
#[derive(Debug, Clone, Copy, PartialEq, Eq)]
pub struct Origin {
    /// The peer's kind.
    pub kind: u8,
    /// The number of bits of its value.
    pub width: u8,
    /// The peer's value.
    pub value: u64,
    /// The protocol's number.
    pub protocol: u8,
    /// The protocol's octet.
    pub octet: u8,
}

impl Origin {
    /// A peer and a protocol as numbers.
    pub fn new(peer: MobileIdentity, protocol: HigherLayerProtocol) -> Self {
        let (number, octet) = protocol.numbers();
        Self {
            kind: peer.kind,
            width: peer.width,
            value: peer.value,
            protocol: number,
            octet,
        }
    }
}

/// A pointer and a number of octets for each slice; the pointers of empty slices are not null. SAFETY of every call below: the slices
/// are valid for their lengths, those that are written are borrowed for the caller alone and so overlap no other, and the library reads
/// and writes within the lengths.
macro_rules! call {
    ($name:ident($($argument:expr),* $(,)?)) => {
        unsafe { c::$name($($argument),*) }
    };
}

/// Writes a segment (SEGMENT, then its data) to `output`; the answer is WRITTEN.
pub fn encode(
    segment: &[u8],
    data: &[u8],
    version: u8,
    output: &mut [u8],
    answer: &mut [u8],
) -> u32 {
    call!(catkhize_encode(
        segment.as_ptr(),
        segment.len(),
        data.as_ptr(),
        data.len(),
        version,
        output.as_mut_ptr(),
        output.len(),
        answer.as_mut_ptr(),
        answer.len(),
    ))
}

/// Reads a segment; the answer is DECODED.
pub fn decode(octets: &[u8], version: u8, answer: &mut [u8]) -> u32 {
    call!(catkhize_decode(
        octets.as_ptr(),
        octets.len(),
        version,
        answer.as_mut_ptr(),
        answer.len(),
    ))
}

/// Plans a message's segments; gives 1 where the message needs none.
pub fn plan_message(
    message: &[u8],
    budget: u64,
    transaction: u8,
    window: u8,
    version: u8,
    ceiling: u64,
    plan: &mut [u8],
) -> u32 {
    call!(catkhize_plan_message(
        message.as_ptr(),
        message.len(),
        budget,
        transaction,
        window,
        version,
        ceiling,
        plan.as_mut_ptr(),
        plan.len(),
    ))
}

/// Plans them as [`plan_message`] does, but the later ones of even length.
pub fn plan_even(
    message: &[u8],
    budget: u64,
    transaction: u8,
    window: u8,
    version: u8,
    ceiling: u64,
    plan: &mut [u8],
) -> u32 {
    call!(catkhize_plan_even(
        message.as_ptr(),
        message.len(),
        budget,
        transaction,
        window,
        version,
        ceiling,
        plan.as_mut_ptr(),
        plan.len(),
    ))
}

/// Segment `index` of a plan; the answer is PART; gives 1 where there is no such segment.
pub fn plan_segment(plan: &[u8], index: u8, answer: &mut [u8]) -> u32 {
    call!(catkhize_plan_segment(
        plan.as_ptr(),
        plan.len(),
        index,
        answer.as_mut_ptr(),
        answer.len(),
    ))
}

/// Checks a frozen cutting: 256 HEADs, of which the first `count` are meant, and their data joined.
#[allow(clippy::too_many_arguments)]
pub fn try_from_frozen(
    heads: &[u8],
    count: u64,
    joined: &[u8],
    message: &[u8],
    budget: u64,
    version: u8,
    ceiling: u64,
    plan: &mut [u8],
) -> u32 {
    call!(catkhize_try_from_frozen(
        heads.as_ptr(),
        heads.len(),
        count,
        joined.as_ptr(),
        joined.len(),
        message.as_ptr(),
        message.len(),
        budget,
        version,
        ceiling,
        plan.as_mut_ptr(),
        plan.len(),
    ))
}

/// Converts a train, given as [`try_from_frozen`] takes it, out of the dialect being read (0: the Begin alone states the message's length, 1:
/// every segment does) into the other.
#[allow(clippy::too_many_arguments)]
pub fn convert(
    heads: &[u8],
    count: u64,
    joined: &[u8],
    message: &[u8],
    budget: u64,
    version: u8,
    ceiling: u64,
    dialect: u8,
    plan: &mut [u8],
) -> u32 {
    call!(catkhize_convert(
        heads.as_ptr(),
        heads.len(),
        count,
        joined.as_ptr(),
        joined.len(),
        message.as_ptr(),
        message.len(),
        budget,
        version,
        ceiling,
        dialect,
        plan.as_mut_ptr(),
        plan.len(),
    ))
}

/// Writes the sequence numbers of a train of 2 to 6 segments to `output`, in the delivery order with a number.
pub fn delivery_order(segments: u8, number: u64, output: &mut [u8]) -> u32 {
    call!(catkhize_delivery_order(
        segments,
        number,
        output.as_mut_ptr(),
        output.len(),
    ))
}

/// Writes a new receiver of a profile, 1 or 2, to `record`.
pub fn receiver_new(
    record: &mut [u8],
    from: Origin,
    transaction: u8,
    version: u8,
    profile: u8,
    maximum: u64,
    reading: u64,
) -> u32 {
    call!(catkhize_receiver_new(
        record.as_mut_ptr(),
        record.len(),
        from.kind,
        from.width,
        from.value,
        from.protocol,
        from.octet,
        transaction,
        version,
        profile,
        maximum,
        reading,
    ))
}

/// Takes one decoded segment; the answer is RECEPTION, which has the figures of its response's map.
#[allow(clippy::too_many_arguments)]
pub fn receiver_receive(
    record: &mut [u8],
    store: &mut [u8],
    output: &mut [u8],
    from: Origin,
    segment: &[u8],
    data: &[u8],
    unparsed: u64,
    reading: u64,
    answer: &mut [u8],
) -> u32 {
    call!(catkhize_receiver_receive(
        record.as_mut_ptr(),
        record.len(),
        store.as_mut_ptr(),
        store.len(),
        output.as_mut_ptr(),
        output.len(),
        from.kind,
        from.width,
        from.value,
        from.protocol,
        from.octet,
        segment.as_ptr(),
        segment.len(),
        data.as_ptr(),
        data.len(),
        unparsed,
        reading,
        answer.as_mut_ptr(),
        answer.len(),
    ))
}

/// Lets a receiver's time pass; the answer is REPLY, which has the figures of its response's map.
pub fn receiver_advance(
    record: &mut [u8],
    store: &mut [u8],
    reading: u64,
    answer: &mut [u8],
) -> u32 {
    call!(catkhize_receiver_advance(
        record.as_mut_ptr(),
        record.len(),
        store.as_mut_ptr(),
        store.len(),
        reading,
        answer.as_mut_ptr(),
        answer.len(),
    ))
}

/// Ends an open reception and sets its store to 0.
pub fn receiver_cancel(record: &mut [u8], store: &mut [u8], reading: u64) -> u32 {
    call!(catkhize_receiver_cancel(
        record.as_mut_ptr(),
        record.len(),
        store.as_mut_ptr(),
        store.len(),
        reading,
    ))
}

/// Releases a Complete receiver and sets its store to 0.
pub fn receiver_release(record: &mut [u8], store: &mut [u8], reading: u64) -> u32 {
    call!(catkhize_receiver_release(
        record.as_mut_ptr(),
        record.len(),
        store.as_mut_ptr(),
        store.len(),
        reading,
    ))
}

/// Takes segments that stand one after another in `octets`; `lengths` has 16 bits for each. It stops behind a segment whose reception carries
/// a response or a message or closes the receiver, with 0, and at the first that is refused. The answer is TRAIN, which has that reception as
/// RECEPTION; go on with the octets and lengths behind the segments that it counts.
#[allow(clippy::too_many_arguments)]
pub fn receiver_train(
    record: &mut [u8],
    store: &mut [u8],
    output: &mut [u8],
    from: Origin,
    octets: &[u8],
    lengths: &[u8],
    reading: u64,
    answer: &mut [u8],
) -> u32 {
    call!(catkhize_receiver_train(
        record.as_mut_ptr(),
        record.len(),
        store.as_mut_ptr(),
        store.len(),
        output.as_mut_ptr(),
        output.len(),
        from.kind,
        from.width,
        from.value,
        from.protocol,
        from.octet,
        octets.as_ptr(),
        octets.len(),
        lengths.as_ptr(),
        lengths.len(),
        reading,
        answer.as_mut_ptr(),
        answer.len(),
    ))
}

/// Writes a new sender of a profile, 1 or 2, to `record`.
#[allow(clippy::too_many_arguments)]
pub fn sender_new(
    record: &mut [u8],
    from: Origin,
    plan: &[u8],
    message: &[u8],
    version: u8,
    profile: u8,
    number: u64,
    reading: u64,
) -> u32 {
    call!(catkhize_sender_new(
        record.as_mut_ptr(),
        record.len(),
        from.kind,
        from.width,
        from.value,
        from.protocol,
        from.octet,
        plan.as_ptr(),
        plan.len(),
        message.as_ptr(),
        message.len(),
        version,
        profile,
        number,
        reading,
    ))
}

/// Lets a sender's time pass; the answer is STATE.
pub fn sender_advance(record: &mut [u8], reading: u64, answer: &mut [u8]) -> u32 {
    call!(catkhize_sender_advance(
        record.as_mut_ptr(),
        record.len(),
        reading,
        answer.as_mut_ptr(),
        answer.len(),
    ))
}

/// Ends an open sender; the answer is STATE.
pub fn sender_cancel(record: &mut [u8], reading: u64, answer: &mut [u8]) -> u32 {
    call!(catkhize_sender_cancel(
        record.as_mut_ptr(),
        record.len(),
        reading,
        answer.as_mut_ptr(),
        answer.len(),
    ))
}

/// Layer 3 took the submission; the answer is STATE.
pub fn sender_submitted(
    record: &mut [u8],
    number: u64,
    ticket: u64,
    queued: u64,
    observed: u64,
    answer: &mut [u8],
) -> u32 {
    call!(catkhize_sender_submitted(
        record.as_mut_ptr(),
        record.len(),
        number,
        ticket,
        queued,
        observed,
        answer.as_mut_ptr(),
        answer.len(),
    ))
}

/// The peer's Layer 3 accepted the submission; the answer is STATE.
pub fn sender_accepted(
    record: &mut [u8],
    number: u64,
    ticket: u64,
    reading: u64,
    answer: &mut [u8],
) -> u32 {
    call!(catkhize_sender_accepted(
        record.as_mut_ptr(),
        record.len(),
        number,
        ticket,
        reading,
        answer.as_mut_ptr(),
        answer.len(),
    ))
}

/// Layer 3 gave the submission up: `failure` is 0 Rejected, 1 TimedOut, 2 Cancelled. The answer is STATE.
pub fn sender_lower_failed(
    record: &mut [u8],
    number: u64,
    ticket: u64,
    failure: u8,
    cause: u8,
    reading: u64,
    answer: &mut [u8],
) -> u32 {
    call!(catkhize_sender_lower_failed(
        record.as_mut_ptr(),
        record.len(),
        number,
        ticket,
        failure,
        cause,
        reading,
        answer.as_mut_ptr(),
        answer.len(),
    ))
}

/// Takes a RESPONSE of the peer; the answer is STATE.
pub fn sender_receive_response(
    record: &mut [u8],
    from: Origin,
    response: &[u8],
    unparsed: u64,
    reading: u64,
    answer: &mut [u8],
) -> u32 {
    call!(catkhize_sender_receive_response(
        record.as_mut_ptr(),
        record.len(),
        from.kind,
        from.width,
        from.value,
        from.protocol,
        from.octet,
        response.as_ptr(),
        response.len(),
        unparsed,
        reading,
        answer.as_mut_ptr(),
        answer.len(),
    ))
}

/// What a sender offers; the answer is SUBMISSION; gives 1 where nothing is offered.
pub fn sender_submission(record: &[u8], answer: &mut [u8]) -> u32 {
    call!(catkhize_sender_submission(
        record.as_ptr(),
        record.len(),
        answer.as_mut_ptr(),
        answer.len(),
    ))
}
