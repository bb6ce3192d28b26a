//! A call in words, for who reads a disagreement.

use crate::dialects;
use crate::even;
use crate::exceptions;
use crate::orders::deliveries::{DELIVER, Deliveries};
use crate::orders::{MOST, ORDER};
use crate::receiver::{RELEASE, TRAIN};
use crate::watch::{Case, FIRST_PROBE};
use record::fields::{take_head, take_peer, take_protocol};
use record::octets::Take;
use record::play::plan::{Frozen, Wanted};
use record::play::receiver::{Delivery, Opening as Receiving};
use record::play::sender::{Opening as Sending, Reply, take_failure};
use record::profiles::PROFILE;

fn plan(wanted: &Wanted) -> String {
    format!(
        "message of {} octets, budget {}, ceiling {}, transaction {}, window {}, version {}",
        wanted.message_octets,
        wanted.budget,
        wanted.ceiling,
        wanted.transaction,
        wanted.window,
        wanted.version
    )
}

fn frozen(frozen: &Frozen) -> String {
    let heads = frozen.heads.iter();
    let heads = heads.map(|head| format!("{:?} with {} octets", head.segment, head.data_octets));
    format!(
        "count {}, message of {} octets (seed {}), budget {}, version {}, ceiling {}, joined data of {} octets (seed {}), heads: {}",
        frozen.count,
        frozen.message_octets,
        frozen.message_seed,
        frozen.budget,
        frozen.version,
        frozen.ceiling,
        frozen.joined_octets,
        frozen.joined_seed,
        heads.collect::<Vec<_>>().join("; ")
    )
}

fn receiver(opening: &Receiving) -> String {
    format!(
        "receiver try_new: {:?}, {:?}, transaction {}, version {}, profile {PROFILE}, maximum {}, reading {}",
        opening.peer,
        opening.protocol,
        opening.transaction,
        opening.version,
        opening.maximum,
        opening.reading
    )
}

fn sender(opening: &Sending) -> String {
    format!(
        "{:?}, {:?}, version {}, profile {PROFILE}, reading {}",
        opening.peer, opening.protocol, opening.version, opening.reading
    )
}

fn token(take: &mut Take) -> String {
    let ticket = take.take64();
    let of = if take.flag() {
        " of another sender"
    } else {
        ""
    };
    format!("ticket {ticket}{of}")
}

/// The call's name, and its arguments.
pub fn describe(case: &Case) -> String {
    let mut take = Take(&case.input);
    match case.op {
        0x01 => format!(
            "decode: version {}, octets {:02x?}",
            take.take8(),
            take.rest()
        ),
        0x02 => {
            let version = take.take8();
            let segment = take_head(&mut take);
            let room = take.take16();
            take.take16();
            let data = take.rest();
            format!(
                "encode: version {version}, {segment:?}, data {data:02x?}, output of {room} octets"
            )
        }
        0x10 => format!("plan: {}", plan(&Wanted::take(&mut take))),
        0x11 => {
            let mut check = Frozen::take_fixed(&mut take);
            check.take_heads(&mut take);
            format!("try_from_frozen and convert: {}", frozen(&check))
        }
        ORDER => format!(
            "delivery_order: {} segments, number {}, output {:02x?}",
            take.take8(),
            take.take64(),
            take.rest()
        ),
        0x20 => receiver(&Receiving::take(&mut take)),
        DELIVER => {
            let deliveries = Deliveries::take(&case.input);
            let places = 0..deliveries.train.count.min(MOST.into());
            let repeat = |place| Some(format!("{} behind {place}", deliveries.repeat(place)?));
            let repeats: Vec<String> = places.filter_map(repeat).collect();
            format!(
                "delivered in order {}: {}; {}; deliveries repeated: {repeats:?}",
                deliveries.number,
                frozen(&deliveries.train),
                receiver(&deliveries.opening),
            )
        }
        0x21 => {
            let delivery = Delivery::take(&mut take);
            format!(
                "receive: {:?}, {:?}, {:?}, unparsed {}, reading {}",
                delivery.peer,
                delivery.protocol,
                delivery.decoded().segment,
                delivery.unparsed,
                delivery.reading
            )
        }
        0x22 => format!("receiver advance: reading {}", take.take64()),
        0x23 => format!("receiver cancel: reading {}", take.take64()),
        TRAIN => {
            let (peer, protocol) = (take_peer(&mut take), take_protocol(&mut take));
            let reading = take.take64();
            let count = take.take16();
            let lengths: Vec<usize> = (0..count).map(|_| take.take16()).collect();
            let octets = take.rest();
            format!(
                "train: {peer:?}, {protocol:?}, reading {reading}, lengths {lengths:?}, octets {octets:02x?}"
            )
        }
        0x30 => {
            let wanted = Wanted::take(&mut take);
            let opening = Sending::take(&mut take);
            let planner = if even::sends(&wanted) {
                "plan_even"
            } else {
                "plan_message"
            };
            format!(
                "sender try_new: {planner}, {}; {}",
                plan(&wanted),
                sender(&opening)
            )
        }
        0x36 => {
            let mut check = Frozen::take_fixed(&mut take);
            let opening = Sending::take(&mut take);
            check.take_heads(&mut take);
            let kept = match exceptions::kept(&check) {
                Some(_) => "; then the planned plan of the same segments in its record",
                None => "",
            };
            let made = match dialects::source(&check) {
                Some((_, read)) => format!("converted from dialect {read}"),
                None => "frozen".to_owned(),
            };
            format!(
                "sender try_new: {made}, {}; {}{kept}",
                frozen(&check),
                sender(&opening)
            )
        }
        0x31 => format!("sender advance: reading {}", take.take64()),
        0x37 => format!("sender cancel: reading {}", take.take64()),
        0x32 => {
            let token = token(&mut take);
            let (queued, observed) = (take.take64(), take.take64());
            format!("submitted: {token}, queued {queued}, observed {observed}")
        }
        0x33 => {
            let token = token(&mut take);
            format!("accepted: {token}, reading {}", take.take64())
        }
        0x34 => {
            let token = token(&mut take);
            let failure = take_failure(&mut take);
            format!(
                "lower_failed: {token}, {failure:?}, reading {}",
                take.take64()
            )
        }
        0x35 => {
            let reply = Reply::take(&mut take);
            format!(
                "receive_response: {:?}, {:?}, transaction {}, status {}, {} entries {:02x?}, support {:?}, unparsed {}, reading {}",
                reply.peer,
                reply.protocol,
                reply.transaction,
                reply.status,
                reply.entries,
                reply.map,
                reply.support,
                reply.unparsed,
                reply.reading
            )
        }
        RELEASE => {
            let [reading, change, lengths] = [take.take64(), take.take64(), take.take64()];
            let behind = Case {
                op: take.take8(),
                input: take.rest().to_vec(),
            };
            format!(
                "release: reading {reading}, change {change:x}, lengths {lengths}; once more {}",
                describe(&behind)
            )
        }
        FIRST_PROBE.. => {
            let numbers = [take.take64(), take.take64(), take.take64()];
            if take.0.is_empty() {
                return format!("probe {:02x} {numbers:?}", case.op);
            }
            let inner = Case {
                op: take.take8(),
                input: take.rest().to_vec(),
            };
            format!(
                "probe {:02x} {numbers:?} with {}",
                case.op,
                describe(&inner)
            )
        }
        op => format!("op {op:02x}"),
    }
}
