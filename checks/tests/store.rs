//! Rattle, not Rust: checks/unproved compiles it without a proof, checks/try-tests runs it, and rt doesn't read it.
//! Works that come to nothing, and one that adds a job.
use crate::expect::expect_same;
use crate::files::new_store;
use fax_job::{Dial, Job, JobFields, JobTag, Moment, Name, Phase, RequestNumber, Status, Wish};
use fax_lines::read_lines;
use fax_store::{Meta, Store, StoreFault};
use sqlite::Alter;
use std::alloc::Global;
use std::test::Fail;

/// The clock of the store, and whether it keeps a reply to that number of that client.
fn holds<S: Alter>(store: &mut Store<S>, number: RequestNumber) -> Result<(Moment, bool), Fail> {
    let meta = store.meta()?;
    let kept = store.kept("ann", number)?;
    Ok((meta.clock, kept.is_some()))
}

/// A clock of 9, with the next numbers of a queue that never had a job.
fn at_nine() -> Meta {
    Meta {
        clock: Moment::new(9),
        next_job: 1,
        next_grant: 1,
    }
}

/// Sets the clock and keeps a reply, and lets the work go.
fn drop_work<S: Alter>(store: &mut Store<S>, number: RequestNumber) -> Result<(), StoreFault> {
    let mut work = store.begin()?;
    work.put_meta(at_nine())?;
    work.keep("ann", number, b"/", 200, b"")
}

/// What is there behind a work that was let go.
fn behind_dropped<S: Alter + Drop>(mut store: Store<S>) -> Result<(Moment, bool), Fail> {
    let number = RequestNumber::read(b"1").ok_or("a number")?;
    drop_work(&mut store, number)?;
    holds(&mut store, number)
}

pub(crate) fn dropped_work_leaves_the_rows_before_it(rt: &HostRuntime) -> Result<(), Fail> {
    let found = behind_dropped(new_store(rt)?)?;
    expect_same(&found, &(Moment::new(0), false))
}

/// Keeps two replies to one number, and commits.
fn keep_twice<S: Alter>(store: &mut Store<S>, number: RequestNumber) -> Result<(), StoreFault> {
    let mut work = store.begin()?;
    work.put_meta(at_nine())?;
    work.keep("ann", number, b"/", 200, b"")?;
    let _ = work.keep("ann", number, b"/", 200, b"");
    work.commit()
}

/// What comes of that, and what is there then.
fn behind_refused<S: Alter + Drop>(
    mut store: Store<S>,
) -> Result<(Result<(), StoreFault>, Moment, bool), Fail> {
    let number = RequestNumber::read(b"1").ok_or("a number")?;
    let refused = keep_twice(&mut store, number);
    let (clock, is_kept) = holds(&mut store, number)?;
    Ok((refused, clock, is_kept))
}

pub(crate) fn refused_call_refuses_the_commit(rt: &HostRuntime) -> Result<(), Fail> {
    let found = behind_refused(new_store(rt)?)?;
    expect_same(
        &found,
        &(Err(StoreFault::Unavailable), Moment::new(0), false),
    )
}

/// A first job, that waits.
fn first_job(alloc: Global) -> Result<Option<Job>, Fail> {
    Ok(Job::new(JobFields {
        job: 1,
        dial: Dial::read(alloc, "5550111")?,
        modem: Name::read(alloc, "any")?,
        jobtag: JobTag::read(alloc, "")?,
        tts: Moment::new(1000),
        killtime: None,
        priority: 127,
        npages: 0,
        totpages: 1,
        ntries: 0,
        tottries: 0,
        maxtries: 3,
        ndials: 0,
        totdials: 0,
        maxdials: 12,
        phase: Phase::Waiting,
        wish: Wish::Go,
        next: 0,
        status: Status::empty(),
        extra: read_lines(alloc, b"")?,
    }))
}

/// Adds a job that came in at moment 9, and commits.
fn add<S: Alter>(store: &mut Store<S>, job: &Job) -> Result<(), StoreFault> {
    let meta = store.meta()?;
    let mut work = store.begin()?;
    work.put_job(job, Moment::new(9))?;
    work.put_meta(Meta {
        next_job: meta.next_job + 1,
        ..at_nine()
    })?;
    work.commit()
}

/// Whether a job that was added is there, and the number of the next.
fn behind_added<S: Alter + Drop>(alloc: Global, mut store: Store<S>) -> Result<(bool, u32), Fail> {
    let job = first_job(alloc)?.ok_or("a job")?;
    add(&mut store, &job)?;
    let found = store.job(1)?;
    let meta = store.meta()?;
    Ok((found.is_some(), meta.next_job))
}

pub(crate) fn added_job_is_there(rt: &HostRuntime) -> Result<(), Fail> {
    let found = behind_added(rt.alloc(), new_store(rt)?)?;
    expect_same(&found, &(true, 2))
}
