//! The corners of document 01 and the boundary of each refusal, run on the exports and compared with what document 01 says (document 02 of
//! release, the even planner, the planners under Exceptions, the converter, the delivery orders and the profiles, docs/EXPORTS.md of the exports' own
//! refusals), a line for each group. A case that comes out otherwise is printed, and the status is then 1.

mod codec;
mod dialects;
mod even;
mod exceptions;
mod exchange;
mod octets;
mod orders;
mod own;
mod plan;
mod profiles;
mod receiver;
mod sender;
mod tally;

use std::process::ExitCode;
use tally::Tally;

fn main() -> ExitCode {
    let mut tally = Tally::default();
    codec::corners(&mut tally);
    plan::corners(&mut tally);
    orders::corners(&mut tally);
    receiver::corners(&mut tally);
    sender::corners(&mut tally);
    exchange::corners(&mut tally);
    own::corners(&mut tally);
    if tally.differ == 0 {
        ExitCode::SUCCESS
    } else {
        ExitCode::FAILURE
    }
}
