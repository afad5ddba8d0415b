//! Rattle, not Rust: checks/unproved compiles it without a proof, checks/try-tests runs it, and rt doesn't read it.
//! The jobs that wait come one at a time as they come all at once, each with the calls to its number.
use crate::expect::expect_same;
use crate::files::new_store;
use fax_core::{better, due};
use fax_job::{Job, Moment};
use fax_store::Store;
use sqlite::{Alter, Connection, params};
use std::alloc::Global;
use std::test::Fail;

const HELD: u32 = 0;

const WAITING: u32 = 1;

const GRANTED: u32 = 2;

const DONE: u32 = 3;

const FAILED: u32 = 4;

/// Of a job of one page: the number to dial, the time to send, the priority, the phase and the next time.
type Stored = (&'static str, u32, u32, u32, u32);

/// Jobs, numbered from 1 on, of which those that are granted are held; a moment; and by number the jobs that wait then,
/// each with the calls to its number.
struct Queue {
    jobs: &'static [Stored],
    t: u64,
    waiting: &'static [(u32, u64)],
}

const QUEUES: [Queue; 10] = [
    // Nothing was submitted.
    Queue {
        jobs: &[],
        t: 1000,
        waiting: &[],
    },
    Queue {
        jobs: &[("5550111", 0, 127, WAITING, 0)],
        t: 28_800,
        waiting: &[(1, 0)],
    },
    // Two jobs to one number, of which one is granted.
    Queue {
        jobs: &[
            ("+14155550100", 1000, 127, GRANTED, 0),
            ("+14155550100", 1000, 127, WAITING, 0),
        ],
        t: 1000,
        waiting: &[(2, 1)],
    },
    // Two jobs to two numbers, of which one is granted.
    Queue {
        jobs: &[
            ("+14155550100", 1000, 127, GRANTED, 0),
            ("5550111", 1000, 127, WAITING, 0),
        ],
        t: 1000,
        waiting: &[(2, 0)],
    },
    Queue {
        jobs: &[("+14155550100", 1000, 127, GRANTED, 0)],
        t: 1013,
        waiting: &[],
    },
    // A job that is tried again, before its next time and then.
    Queue {
        jobs: &[("+14155550100", 1000, 127, WAITING, 1082)],
        t: 1081,
        waiting: &[],
    },
    Queue {
        jobs: &[("+14155550100", 1000, 127, WAITING, 1082)],
        t: 1082,
        waiting: &[(1, 0)],
    },
    // Jobs that are suspended, done or failed.
    Queue {
        jobs: &[
            ("5550111", 1000, 127, HELD, 1180),
            ("5550111", 1000, 127, DONE, 0),
            ("5550111", 1000, 127, FAILED, 2800),
        ],
        t: 3000,
        waiting: &[],
    },
    // The first that waits is blocked.
    Queue {
        jobs: &[
            ("5550113", 1000, 100, GRANTED, 0),
            ("5550113", 1000, 126, WAITING, 0),
            ("5550111", 1000, 127, WAITING, 0),
            ("5550112", 500, 127, GRANTED, 0),
        ],
        t: 1000,
        waiting: &[(2, 1), (3, 0)],
    },
    // By priority, then by time to send, then by number.
    Queue {
        jobs: &[
            ("5550111", 1000, 127, WAITING, 0),
            ("5550111", 1000, 127, WAITING, 0),
            ("5550111", 999, 127, WAITING, 0),
            ("5550111", 1000, 126, WAITING, 0),
            ("5550111", 1001, 0, WAITING, 0),
            ("5550111", 1000, 0, GRANTED, 0),
        ],
        t: 1000,
        waiting: &[(4, 1), (3, 1), (1, 1), (2, 1)],
    },
];

const INSERT_JOB: &str =
    "INSERT INTO jobs (job, dial, modem, jobtag, status, extra, tts, killtime, \
    priority, npages, totpages, ntries, tottries, maxtries, ndials, totdials, maxdials, phase, wish, \
    next) VALUES (?1, ?2, 'any', '', '', '', ?3, 0, ?4, 0, 1, 0, 0, 3, 0, 0, 12, ?5, 0, ?6)";

const HOLD_GRANTED: &str =
    "INSERT INTO times (job, submitted, ended) SELECT job, 0, 0 FROM jobs; \
    INSERT INTO grants (id, job, modem, first_page, last_page, call, pages, shut) \
        SELECT job, job, 'ttyS' || job, 1, 1, 0, 0, 0 FROM jobs WHERE phase = 2; \
    INSERT INTO holds (modem, job, id) SELECT modem, job, id FROM grants";

/// Adds a job of that number.
fn insert<S: Alter>(conn: &mut Connection<S>, number: u32, job: Stored) -> Result<(), Fail> {
    let (dial, tts, priority, phase, next) = job;
    conn.execute(
        INSERT_JOB,
        params![number, dial, tts, priority, phase, next],
    )?;
    Ok(())
}

/// Adds these jobs, numbered from 1 on, their times, and grants and holds of those that are granted.
fn fill<S: Alter>(conn: &mut Connection<S>, jobs: &[Stored]) -> Result<(), Fail> {
    let mut number = 0_u32;
    for job in jobs {
        number = number.saturating_add(1);
        insert(conn, number, *job)?;
    }
    Ok(conn.execute_batch(HOLD_GRANTED)?)
}

/// The store over a database that was there before.
fn adopted<S: Alter + Drop>(alloc: Global, conn: Connection<S>) -> Result<Store<S>, Fail> {
    if !conn.is_autocommit() {
        return Err("a transaction is open".into());
    }
    match Store::adopt(alloc, conn) {
        Ok(store) => Ok(store),
        Err((fault, _)) => Err(fault.into()),
    }
}

/// An empty store with these jobs.
fn with_jobs<S: Alter + Drop>(
    alloc: Global,
    store: Store<S>,
    jobs: &[Stored],
) -> Result<Store<S>, Fail> {
    let mut conn = store.close();
    fill(&mut conn, jobs)?;
    adopted(alloc, conn)
}

/// Of all jobs those that are due, the better ones first, each with the calls to its number.
fn all_at_once<S: Alter>(
    alloc: Global,
    store: &mut Store<S>,
    t: Moment,
) -> Result<Vec<(u32, u64)>, Fail> {
    let mut waiting: Vec<Job> = Vec::new(alloc);
    for job in store.briefs()? {
        if due(&job, t) {
            let place = waiting.iter().take_while(|other| better(other, &job)).count();
            waiting.insert(place, job)?;
        }
    }
    let mut all = Vec::new(alloc);
    for job in &waiting {
        let calls = store.active_to(&job.fields().dial)?;
        all.push((job.fields().job, calls))?;
    }
    Ok(all)
}

/// The candidates, to the last.
fn one_at_a_time<S: Alter>(
    alloc: Global,
    store: &mut Store<S>,
    t: Moment,
) -> Result<Vec<(u32, u64)>, Fail> {
    let mut all = Vec::new(alloc);
    let mut candidates = store.candidates(t);
    for _ in 0..100 {
        let Some(prospect) = candidates.prospect()? else {
            return Ok(all);
        };
        let calls = candidates.active_to(&prospect.dial)?;
        all.push((prospect.job, calls))?;
    }
    Err("no last candidate".into())
}

/// Both, over an empty store that gets these jobs.
fn waiting<S: Alter + Drop>(
    alloc: Global,
    store: Store<S>,
    jobs: &[Stored],
    t: u64,
) -> Result<(Vec<(u32, u64)>, Vec<(u32, u64)>), Fail> {
    let mut store = with_jobs(alloc, store, jobs)?;
    let t = Moment::new(t);
    let all = all_at_once(alloc, &mut store, t)?;
    Ok((all, one_at_a_time(alloc, &mut store, t)?))
}

pub(crate) fn candidates_are_the_jobs_that_wait(rt: &HostRuntime) -> Result<(), Fail> {
    for queue in &QUEUES {
        let store = new_store(rt)?;
        let (all, candidates) = waiting(rt.alloc(), store, queue.jobs, queue.t)?;
        expect_same(&all.as_slice(), &queue.waiting)?;
        expect_same(&candidates.as_slice(), &queue.waiting)?;
    }
    Ok(())
}

/// How many jobs are more than one page of candidates, and more than two.
const MANY: usize = 60;

pub(crate) fn candidates_go_on_behind_a_page(rt: &HostRuntime) -> Result<(), Fail> {
    let jobs = [("5550111", 1000, 127, WAITING, 0); MANY];
    let store = new_store(rt)?;
    let (all, candidates) = waiting(rt.alloc(), store, &jobs, 1000)?;
    expect_same(&all.len(), &MANY)?;
    expect_same(&candidates, &all)
}
