//! The order of receive_response's tests: each alone, with the next one, and with all that come after it. A fault stands for each test.

use super::bench::*;
use Fault::*;
use catkhize::calls::Origin;

#[derive(Clone, Copy, PartialEq)]
enum Fault {
    Impossible,
    Clock,
    Closed,
    Peer,
    Service,
    Unparsed,
    MapLength,
    Version,
    WideTransaction,
    SupportVersion,
    SupportStatus,
    Transaction,
    ResponsesProhibited,
    NotSubmitted,
    Unsubmitted,
    Contradictory,
    Late,
}

/// The tests in their order, and the refusal of each: number and field. A late response is no refusal.
const TESTS: [(Fault, (u32, u32)); 16] = [
    (Impossible, (62, 0)),
    (Clock, (33, 0)),
    (Closed, (38, 0)),
    (Peer, (45, 0)),
    (Service, (31, 0)),
    (Unparsed, (47, 0)),
    (MapLength, (6, 6)),
    (Version, (1, 0)),
    (WideTransaction, (6, 1)),
    (SupportVersion, (1, 0)),
    (SupportStatus, (6, 7)),
    (Transaction, (32, 0)),
    (ResponsesProhibited, (46, 0)),
    (NotSubmitted, (43, 0)),
    (Unsubmitted, (48, 0)),
    (Contradictory, (49, 0)),
];

/// The faults that are present, in the sender's record and in what arrives.
struct Faults<'a>(&'a [Fault]);

impl Faults<'_> {
    fn has(&self, fault: Fault) -> bool {
        self.0.contains(&fault)
    }

    /// What goes with the first of these faults that is present, or with none of them.
    fn pick<T, const N: usize>(&self, values: [(Fault, T); N], with_none: T) -> T {
        let mut present = values.into_iter().filter(|(fault, _)| self.has(*fault));
        present.next().map_or(with_none, |(_, value)| value)
    }

    /// Segment 0 submitted and segment 1 offered, or nothing submitted.
    fn sender(&self) -> Sender {
        let window = self.pick([(ResponsesProhibited, Prohibited)], Every4);
        let offered = if self.has(NotSubmitted) {
            first_offered(window)
        } else {
            second_offered(window)
        };
        let open = offered.with_version(self.pick([(Version, 0), (SupportVersion, 4)], 5));
        let possible = self.pick([(Closed, open.closed(CANCELLED))], open);
        self.pick(
            [(Impossible, possible.with_received(marks([255])))],
            possible,
        )
    }

    /// Entry 0 of the map is clear; with an entry too many for what was submitted, entry 1 is set.
    fn response(&self) -> Response {
        let statuses = [
            (Contradictory, Received),
            (SupportStatus, Continuing),
            (SupportVersion, MultipleServicesUnsupported),
        ];
        let one = marks([1]);
        let maps = [(MapLength, (one, 257)), (Unsubmitted, (one, 2))];
        let (map, entries) = self.pick(maps, (marks([]), 1));
        let listed = Some([0, 0, 1, 0]);
        Response {
            transaction: self.pick([(WideTransaction, 8), (Transaction, 2)], 1),
            status: self.pick(statuses, Continuing),
            map,
            entries,
            support: self.pick([(SupportVersion, listed), (SupportStatus, listed)], None),
        }
    }

    fn arrives(&self) -> Sent {
        let from = Origin {
            value: self.pick([(Peer, 137)], ORIGIN.value),
            protocol: self.pick([(Service, 1)], ORIGIN.protocol),
            octet: self.pick([(Service, 0xC3)], ORIGIN.octet),
            ..ORIGIN
        };
        let unparsed = self.pick([(Unparsed, 1)], 0);
        let reading = self.pick([(Clock, MADE - 1), (Late, D1 + 1)], D1 - 1);
        self.sender()
            .receive_response(from, self.response(), unparsed, reading)
    }
}

/// The refusal of the first fault.
fn tests(g: &mut Group) {
    let mut faults = TESTS.map(|(fault, _)| fault).to_vec();
    faults.push(Late);
    for (i, (_, (n, m))) in TESTS.into_iter().enumerate() {
        for present in [&faults[i..=i], &faults[i..], &faults[i..=i + 1]] {
            case(g, Faults(present).arrives(), refuses_at(n, m));
        }
    }
}

/// No fault: the response is taken. Late alone: advance acts first.
fn taken(g: &mut Group) {
    case(g, Faults(&[]).arrives(), prepared(2, 0, Some(D1), 1));
    case(g, Faults(&[Late]).arrives(), prepared(2, 0, None, 1));
}

/// 45 and 31: a peer that differs in one field, a service in its case or its octet.
fn others(g: &mut Group) {
    let own = ORIGIN;
    let rows = [
        (Origin { kind: 2, ..own }, 45),
        (Origin { width: 35, ..own }, 45),
        (Origin { value: 135, ..own }, 45),
        (Origin { octet: 4, ..own }, 31),
        (Origin { protocol: 1, ..own }, 31),
        (Origin { protocol: 2, ..own }, 31),
    ];
    let s = second_offered(Every4);
    let response = Faults(&[]).response();
    for (from, n) in rows {
        let sent = s.receive_response(from, response, 0, D1 - 1);
        case(g, sent, refuses(n));
    }
}

pub fn corners(tally: &mut Tally) {
    tally.group("sender: each test of a response against the next", tests);
    tally.group("sender: the same response without a fault", taken);
    tally.group("sender: another peer, another service", others);
}
