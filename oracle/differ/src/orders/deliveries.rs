//! Trains of 2 to 6 segments delivered in the order that the port wrote, to the original's receiver and to the port's.

use super::{FEWEST, MOST, NoOriginal, order, orders_of};
use crate::dialects::{self, DIALECTS};
use crate::even;
use crate::exceptions;
use crate::plans;
use crate::receiver::{Receivers, hands_over};
use crate::spell::filled;
use crate::table::{
    Area, DELIVERED_EVEN, DELIVERED_FROZEN, DELIVERED_PLANNED, DELIVERED_WINDOWS, IN_ORDER,
    REPEATS_BEFORE, REPEATS_BEHIND, Table,
};
use crate::watch::{Case, Checked, same_given};
use bts136::l3::tsar::{MessagePlan, SegmentedMessage};
use catkhize::calls;
use record::list::{Player, Recorder};
use record::make::frozen::{cutting, train_of};
use record::make::heads::WINDOWS;
use record::make::receiver_run::any_opening;
use record::octets::{Put, Take};
use record::play::plan::{Frozen, Wanted};
use record::play::receiver::{Data, Delivery, NO_PATCH, OPEN, Opening, RECEIVE, Receiving};
use record::random::Random;

/// A train delivered to a new receiver, which RECORDED.md has not: the input of the frozen check without its heads, number of the order u64,
/// repeats u32, the input of the receiver's try_new, then the heads.
pub const DELIVER: u8 = 0x2f;

pub struct Deliveries {
    pub train: Frozen,
    pub number: u64,
    repeats: usize,
    pub opening: Opening,
}

impl Deliveries {
    fn put(&self) -> Vec<u8> {
        let mut out = Vec::new();
        self.train.put_fixed(&mut out);
        out.put64(self.number);
        out.put32(self.repeats);
        self.opening.put(&mut out);
        self.train.put_heads(&mut out);
        out
    }

    pub fn take(input: &[u8]) -> Self {
        let mut take = Take(input);
        let mut train = Frozen::take_fixed(&mut take);
        let (number, repeats) = (take.take64(), take.take32());
        let opening = Opening::take(&mut take);
        train.take_heads(&mut take);
        Self {
            train,
            number,
            repeats,
            opening,
        }
    }

    /// The place of the delivery that is repeated behind the one at a place: four bits say it, 0 that none is.
    pub fn repeat(&self, place: usize) -> Option<usize> {
        let bits = self.repeats >> (4 * place) & 0xf;
        Some(bits.checked_sub(1)? % (place + 1))
    }

    /// Segment `index` for the receiver, in the call with a number.
    fn delivery(&self, index: u8, call: u64) -> Option<Delivery> {
        let head = self.train.heads.get(usize::from(index))?;
        Some(Delivery {
            peer: self.opening.peer,
            protocol: self.opening.protocol,
            segment: head.segment.clone(),
            data: Data {
                octets: head.data_octets,
                seed: self.train.joined_seed.wrapping_add(index),
                patch_position: NO_PATCH,
                patch_change: 0,
            },
            unparsed: 0,
            reading: self.opening.reading.saturating_add(call),
        })
    }
}

/// Both receivers.
struct Both<'a> {
    original: Receiving,
    port: Receivers,
    area: &'a mut Area,
    calls: u64,
}

impl Both<'_> {
    /// Makes a call on both and compares; the original's answer.
    fn call(&mut self, op: u8, input: Vec<u8>) -> Result<Vec<u8>, String> {
        let answer = self.original.play(op, &input);
        let original = self.original.receiver.as_ref();
        let case = Case { op, input };
        self.port
            .check_in(original, None, &case, &answer, self.area)?;
        self.calls += 1;
        Ok(answer)
    }

    /// Delivers a segment, with which the message is to be handed over or not.
    fn deliver(&mut self, deliveries: &Deliveries, index: u8, whole: bool) -> Checked {
        let call = self.calls;
        let named = |what: &str| format!("call {call}, segment {index}: {what}");
        let delivery = deliveries.delivery(index, call);
        let delivery = delivery.ok_or_else(|| named("the train has none"))?;
        let mut input = Vec::new();
        delivery.put(&mut input);
        let answer = self.call(RECEIVE, input).map_err(|what| named(&what))?;
        match (hands_over(&answer), whole) {
            (true, false) => Err(named("it hands the message over")),
            (false, true) => Err(named("it does not hand the message over")),
            _ => Ok(()),
        }
    }
}

/// Delivers a train in the order that the port writes. Every call is compared, and the last segment that was not delivered before hands the
/// message over. No case: a train that the original's frozen check refuses, a number that is no order's, another receiver's transaction, a
/// message that passes its maximum.
pub fn check(table: &mut Table, input: &[u8]) -> Checked {
    let deliveries = Deliveries::take(input);
    let (train, opening) = (&deliveries.train, &deliveries.opening);
    let segments = u8::try_from(train.count).unwrap_or(0);
    let Ok(plan) = train.check() else {
        return Ok(());
    };
    if order(segments, deliveries.number).is_none()
        || opening.transaction != plan.segments()[0].transaction_id
        || opening.maximum < train.message_octets as u64
    {
        return Ok(());
    }
    let mut order = filled(train.count);
    let found = calls::delivery_order(segments, deliveries.number, &mut order);
    same_given(found, 0)?;
    let mut both = Both {
        original: Receiving::default(),
        port: Receivers::default(),
        area: table.area(IN_ORDER),
        calls: 0,
    };
    let mut input = Vec::new();
    opening.put(&mut input);
    both.call(OPEN, input)?;
    if both.original.receiver.is_none() {
        return Ok(());
    }
    let named = |what: String| format!("in the order {order:?}: {what}");
    for (place, index) in order.iter().enumerate() {
        let last = place + 1 == order.len();
        both.deliver(&deliveries, *index, last).map_err(named)?;
        if let Some(earlier) = deliveries.repeat(place) {
            both.deliver(&deliveries, order[earlier], false)
                .map_err(|what| named(format!("a repeat, {what}")))?;
            both.area
                .input(if last { REPEATS_BEHIND } else { REPEATS_BEFORE });
        }
    }
    inputs(both.area, train, &plan);
    both.area.orders.insert(order);
    Ok(())
}

/// What a run has to see of trains that were delivered: by the planners that give them, and by window.
fn inputs(area: &mut Area, train: &Frozen, plan: &SegmentedMessage) {
    let wanted = plans::wanted(train, plan);
    let planned = exceptions::planned(&wanted);
    let even = even::spread(&wanted, &planned);
    let plan = MessagePlan::Segmented(plan.clone());
    let by_even = even.is_ok_and(|even| even.as_ref() == Ok(&plan));
    let by_message = planned.as_ref() == Ok(&plan);
    for (seen, name) in [
        (true, DELIVERED_WINDOWS[usize::from(wanted.window)]),
        (by_message, DELIVERED_PLANNED),
        (by_even, DELIVERED_EVEN),
        (!by_message && !by_even, DELIVERED_FROZEN),
    ] {
        if seen {
            area.input(name);
        }
    }
}

/// Every order under every window.
pub fn make(record: &mut Recorder<NoOriginal>) {
    for segments in FEWEST..=MOST {
        for number in 0..orders_of(segments).len() as u64 {
            for window in 0..WINDOWS {
                let deliveries = any(&mut record.random, segments, number, window);
                record.call(DELIVER, &deliveries.put());
            }
        }
    }
}

fn any(random: &mut Random, segments: u8, number: u64, window: u8) -> Deliveries {
    let train = any_train(random, segments.into(), window);
    let mut opening = any_opening(random);
    opening.transaction = train.heads[0].segment.transaction_id;
    if random.once_in(2) {
        opening.maximum = train.message_octets as u64 + random.below(2) as u64;
    }
    let mut repeats = 0;
    for place in 0..segments {
        if random.once_in(3) {
            repeats |= random.within(1, segments.into()) << (4 * place);
        }
    }
    Deliveries {
        train,
        number,
        repeats,
        opening,
    }
}

/// A train of either planner, or a frozen one, with stated lengths as it comes or in a dialect. Under Exceptions, where the planners refuse,
/// each is a frozen one.
fn any_train(random: &mut Random, segments: usize, window: u8) -> Frozen {
    match random.below(3) {
        0 => train_of(&any_wanted(random, segments, window)),
        1 => {
            let wanted = any_wanted(random, segments, window);
            let plan = wanted.segmented().expect("it is cut into segments");
            even::train(&wanted, &plan)
        }
        _ => {
            let longest = random.pick(&[0, 1, 3, 40, 255]);
            let lengths = (0..segments).map(|_| random.within(0, longest));
            let lengths: Vec<usize> = lengths.collect();
            let train = cutting(random, &lengths, window);
            if random.once_in(3) {
                return train;
            }
            let mut train = dialects::restated(&train, random.pick(&DIALECTS));
            // There is room for a length on every segment.
            train.budget += 2;
            train.ceiling = train.budget;
            train
        }
    }
}

/// A message that the original's planner cuts into so many segments.
fn any_wanted(random: &mut Random, segments: usize, window: u8) -> Wanted {
    loop {
        let budget = random.pick(&[8, 9, 12, 20, 60, 258]);
        let wanted = Wanted {
            message_octets: budget + 1 + random.below(segments * budget),
            seed: random.octet(),
            budget,
            ceiling: budget,
            transaction: random.below(8) as u8,
            window,
            version: 1,
        };
        let plan = wanted.segmented();
        if plan.is_some_and(|plan| plan.segments().len() == segments) {
            return wanted;
        }
    }
}
