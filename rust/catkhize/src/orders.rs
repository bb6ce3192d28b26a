use std::iter;

use crate::{Given, Refusal, calls};

/// A delivery order of a train of 2 to 6 segments, the Begin counted: its sequence numbers in the order of delivery, for type tests.
///
/// The Begin's 0 comes first, then those of the others; each is the index that [`SegmentedMessage::segment`](crate::SegmentedMessage::segment)
/// takes. The orders of a train are in lexicographic order and numbered from 0; 2, 3, 4, 5 and 6 segments have 1, 2, 6, 24 and 120. For
/// another number of segments, or a number at or past the count of orders, there is none: [`Refusal::ORDER_NUMBER`].
///
/// ```
/// use catkhize::{Refusal, delivery_order};
/// assert_eq!(delivery_order(4, 0)?, [0, 1, 2, 3]);
/// assert_eq!(delivery_order(4, 1)?, [0, 1, 3, 2]);
/// assert_eq!(delivery_order(4, 5)?, [0, 3, 2, 1]);
/// assert_eq!(delivery_order(4, 6), Err(Refusal::ORDER_NUMBER));
/// assert_eq!(delivery_order(7, 0), Err(Refusal::ORDER_NUMBER));
/// # Ok::<(), Refusal>(())
/// ```
pub fn delivery_order(segments: u8, number: u64) -> Result<Vec<u8>, Refusal> {
    let mut order = vec![0; segments.into()];
    let given = calls::delivery_order(segments, number, &mut order);
    Given::new(given).done()?;
    Ok(order)
}

/// Every [delivery order](delivery_order) of a train, from number 0 on. It is refused, with [`Refusal::ORDER_NUMBER`], for a number of
/// segments that has none.
///
/// A train in each of its orders through a receiver, which hands the message over with the last segment and no other:
///
/// ```
/// use catkhize::*;
/// let peer = MobileIdentity { kind: 0, width: 34, value: 1 };
/// let protocol = HigherLayerProtocol::Segmented(0);
/// // Of 1, 3, 3 and 3 octets.
/// let message = b"0123456789";
/// let plan = plan_message(message, 6, 2, AcknowledgmentWindow::Prohibited, 1, 6)?;
/// let MessagePlan::Segmented(plan) = plan else { panic!("10 octets are more than 6") };
/// assert_eq!(plan.count(), 4);
/// let orders = delivery_orders(4)?;
/// assert_eq!(orders.len(), 6);
/// for order in orders {
///     let mut receiver = Receiver::try_new(peer, protocol, 2, 1, PROFILE_1, 10, 0)?;
///     for (place, sequence_number) in (1..).zip(&order) {
///         let segment = plan.segment(*sequence_number).unwrap();
///         let mut output = [0; layout::ENCODING];
///         let octets = segment.encode(1, &mut output)?;
///         let reception = receiver.receive(peer, protocol, &decode_segment(&output[..octets], 1)?, 0)?;
///         let whole = place == order.len();
///         assert_eq!(reception.message, whole.then_some(message.as_slice()));
///     }
/// }
/// # Ok::<(), Refusal>(())
/// ```
pub fn delivery_orders(segments: u8) -> Result<Vec<Vec<u8>>, Refusal> {
    let first = delivery_order(segments, 0)?;
    let later = (1..).map_while(|number| delivery_order(segments, number).ok());
    Ok(iter::once(first).chain(later).collect())
}
