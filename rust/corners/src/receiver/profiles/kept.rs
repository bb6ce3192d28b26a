//! The profile of a receiver is the one that it was made with, after every call.

use super::*;

/// Lists of calls on a new receiver, refused ones among them.
fn lists(p: Profile) -> [Vec<Row>; 10] {
    let d = deadline(p, AT);
    let latest = p.latest_received();
    let first = begin(PLAIN, 2, AT).holds();
    let asking = begin(LAST, 2, AT).holds();
    [
        vec![
            advance(500).waits(),
            advance(499).refused(33),
            later(1, 2, 500).refused(36),
            release(500).refused(38),
            first,
            begin(PLAIN, 2, AT + 1).repeats(),
            later(1, 2, AT + 2).holds(),
            end(2, 2, AT + 3).hands_over(),
            later(1, 2, AT + 4).repeats(),
            later(3, 2, AT + 5).closes(),
            cancel(AT + 5).refused(38),
            release(AT + 6).releases(),
            end(2, 2, AT + 6).refused(38),
            advance(AT + 7).waits(),
        ],
        vec![
            asking,
            advance(d - 1).waits(),
            later(1, 2, d + 1).refused(37),
            advance(d).asks().map(2, 0b1),
            later(1, 2, d + 1).holds(),
            end(2, 2, d + 2).hands_over().map(3, 0b111),
            begin(LAST, 2, latest + 1).refused(34),
            begin(LAST, 2, d + 3).repeats().map(3, 0b111),
        ],
        vec![first, advance(d).lapses(), advance(d + 1).waits()],
        vec![first, later(1, 2, d + 1).expires(), cancel(d).refused(33)],
        vec![first, cancel(AT).cancels(), first_refused()],
        vec![first, later(255, 2, AT).fails(2), first_refused()],
        vec![
            first,
            begin(PLAIN, 3, AT).fails(11),
            release(AT).refused(38),
        ],
        vec![asking, end(1, 99, AT).fails(9).map(1, 0b1)],
        vec![begin(LAST_V42, 2, AT).fails(4).map(1, 0)],
        vec![
            begin(PLAIN, 2, AT).from(OTHER_KIND).refused(30),
            begin(PLAIN, 2, AT).from(OTHER_OCTET).refused(31),
            begin(PLAIN, 2, AT).within(6).refused(32),
            begin(PLAIN, 256, AT).refused_6(2),
            begin(PLAIN, 2, AT).unparsed(1).refused(35),
            begin(PLAIN, 2, AT).lent(65_279, 100).refused(60),
            begin(PLAIN, 2, AT).lent(STORE, 99).refused(61),
            begin(PLAIN, 2, latest).holds(),
            later(1, 2, latest + 1).refused(34),
        ],
    ]
}

/// A Begin to a closed receiver.
fn first_refused() -> Row {
    begin(PLAIN, 2, AT).refused(38)
}

fn kept(g: &mut Group) {
    for profile in BOTH {
        let keeps = Row::KeepsProfile(profile.number);
        for list in lists(profile) {
            let calls = list.into_iter().flat_map(|row| [row, keeps]);
            let rows: Vec<Row> = [under(profile), keeps].into_iter().chain(calls).collect();
            run(g, &[&rows]);
        }
    }
}

pub fn corners(tally: &mut Tally) {
    tally.group("profiles: receivers, the profile after each call", kept);
}
