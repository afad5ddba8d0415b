//! Rattle, not Rust: checks/unproved compiles it without a proof, checks/try-tests runs it, and rt doesn't read it.
//! Arrivals as a run and as a batch. The program makes neither: it hands each arrival to the queue by itself.
use crate::example::{Exchange, ONE_FAX, arrival_of, is_reply};
use crate::expect::expect_same;
use crate::files::new_store;
use crate::queues::queue_over;
use fax_ask::Reply;
use fax_once::Arrival;
use fax_store::Store;
use sqlite::Alter;
use std::alloc::Global;
use std::test::Fail;

/// Whether these are the replies that are wanted, and as many.
fn are_wanted(replies: &[Reply], exchanges: &[Exchange]) -> bool {
    replies.len() == exchanges.len()
        && replies
            .iter()
            .zip(exchanges)
            .all(|(reply, exchange)| is_reply(reply, exchange))
}

/// Whether a run of these messages over this store has the replies that are wanted.
fn are_answered<S: Alter + Drop>(
    alloc: Global,
    store: Store<S>,
    exchanges: &[Exchange],
) -> Result<bool, Fail> {
    let mut queue = queue_over(alloc, store)?;
    let arrivals: Vec<Arrival<'_>> = exchanges.iter().map(arrival_of).collect(alloc)?;
    let replies = queue.run(alloc, &arrivals)?;
    Ok(are_wanted(&replies, exchanges))
}

/// Whether these messages have them as a batch, and again as one: each accepted request is a repeat then, and what is shown
/// comes from what the first batch committed.
fn are_answered_together<S: Alter + Drop>(
    alloc: Global,
    store: Store<S>,
    exchanges: &[Exchange],
) -> Result<bool, Fail> {
    let mut queue = queue_over(alloc, store)?;
    let arrivals: Vec<Arrival<'_>> = exchanges.iter().map(arrival_of).collect(alloc)?;
    let Ok(first) = queue.batch(alloc, &arrivals) else {
        return Ok(false);
    };
    let Ok(second) = queue.batch(alloc, &arrivals) else {
        return Ok(false);
    };
    let last = exchanges.len() - 1;
    Ok(are_wanted(&first, exchanges) && is_reply(&second[0], &exchanges[0]) && is_reply(&second[last], &exchanges[last]))
}

pub(crate) fn a_run_answers_one_fax(rt: &HostRuntime) -> Result<(), Fail> {
    let store = new_store(rt)?;
    expect_same(&are_answered(rt.alloc(), store, &ONE_FAX)?, &true)
}

pub(crate) fn a_batch_answers_one_fax(rt: &HostRuntime) -> Result<(), Fail> {
    let store = new_store(rt)?;
    expect_same(&are_answered_together(rt.alloc(), store, &ONE_FAX)?, &true)
}
