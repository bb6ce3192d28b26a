//! A whole train: segments one after another in a slice, each decoded and received by a new receiver.

use crate::codec::decode_segment;
use crate::receiver::{HigherLayerProtocol, MobileIdentity, Receiver, Reported};

/// How many octets of the output are the message, 0 where none is handed over. `lengths` has two octets for each segment's length, the
/// highest first. The responses are put one after another into `responses`, with the figures of their maps; those past its end are not.
#[inline(never)]
pub fn train(
    octets: &[u8],
    lengths: &[u8],
    store: &mut [u8],
    output: &mut [u8],
    responses: &mut [Option<Reported>],
) -> usize {
    let peer = MobileIdentity {
        kind: 1,
        width: 34,
        value: 7,
    };
    let protocol = HigherLayerProtocol::Segmented(1);
    let Ok(mut receiver) = Receiver::try_new(peer, protocol, 0, 1, 65_280, 0) else {
        return 0;
    };
    let mut rest = octets;
    let mut handed_over = 0;
    let mut places = responses.iter_mut();
    for pair in lengths.chunks_exact(2) {
        let length = usize::from(u16::from_be_bytes([pair[0], pair[1]]));
        let Some((segment, next)) = rest.split_at_checked(length) else {
            return handed_over;
        };
        rest = next;
        let Ok(decoded) = decode_segment(segment, 1) else {
            return handed_over;
        };
        let data = &segment[3..3 + decoded.data_octets];
        let received = receiver.receive(
            peer,
            protocol,
            decoded.segment,
            data,
            decoded.unparsed_octets,
            0,
            store,
            output,
        );
        receiver = received.receiver;
        match received.answer {
            Err(_) => return handed_over,
            Ok(reception) => {
                if let Some(reported) = reception.response
                    && let Some(place) = places.next()
                {
                    *place = Some(reported);
                }
                if let Some(count) = reception.message {
                    handed_over = count;
                }
            }
        }
    }
    handed_over
}
