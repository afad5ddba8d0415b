//! Rattle, not Rust: checks/unproved compiles it without a proof, checks/try-tests runs it, and rt doesn't read it.
//! A queue of an office with two modems, and its answers to messages.
use crate::example::{Exchange, arrival_of, is_reply};
use fax_dest::{Controls, Setup};
use fax_once::Queue;
use fax_store::Store;
use sqlite::Alter;
use std::alloc::Global;
use std::test::Fail;

/// The queue over this store.
pub(crate) fn queue_over<S: Alter + Drop>(
    alloc: Global,
    store: Store<S>,
) -> Result<Queue<S>, Fail> {
    let setup = Setup::read(alloc, b"Modem: ttyS0\nModem: ttyS1\n")?;
    let controls = Controls::read(alloc, b"")?;
    Ok(Queue::new(alloc, store, setup, controls)?)
}

/// Whether this message gets its reply, and not 503.
pub(crate) fn is_answered<S: Alter>(
    alloc: Global,
    queue: &mut Queue<S>,
    exchange: &Exchange,
) -> Result<bool, Fail> {
    let reply = queue.handle(alloc, &arrival_of(exchange));
    if is_reply(&reply, exchange) {
        return Ok(true);
    }
    if reply.status() == 503 {
        return Ok(false);
    }
    Err("another reply".into())
}
