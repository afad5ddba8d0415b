//! Rattle, not Rust: checks/unproved compiles it without a proof, checks/try-tests runs it, and rt doesn't read it.
//! Rows that no call of ours writes: what reads them refuses each as strange.
use crate::expect::expect_same;
use crate::files::new_database;
use fax_tables::{
    Hold, Kept, Meta, StoreFault, calls_in, create_tables, dial_in, grant_in, held_job_in, job_in,
    prospect_in,
};
use sqlite::{Alter, Connection, Row};
use std::alloc::Global;
use std::test::Fail;

const RECORDS: [&str; 5] = [
    "INSERT INTO jobs (job, dial, modem, jobtag, status, extra, tts, killtime, priority, npages, \
        totpages, ntries, tottries, maxtries, ndials, totdials, maxdials, phase, wish, next) \
        VALUES (1, '5550111', 'any', 'memo', 'Busy', 'x-note:a b\n', 1000, 5000, 127, 1, \
        3, 0, 1, 12, 2, 4, 12, 2, 2, 77)",
    "INSERT INTO grants (id, job, modem, first_page, last_page, call, pages, shut) \
        VALUES (1, 1, 'ttyS0', 2, 3, 0, 0, 0)",
    "INSERT INTO holds (modem, job, id) VALUES ('ttyS0', 1, 1)",
    "INSERT INTO replies (client, number, said, status, body) VALUES ('ann', 1, x'2f', 200, x'')",
    "INSERT INTO calls (dial, open) VALUES ('5550111', 1)",
];

/// A record of one of the tables.
#[derive(Clone, Copy)]
enum Record {
    Job,
    Prospect,
    Grant,
    Hold,
    Numbers,
    Reply,
    Calls,
    HeldJob,
    Dial,
}

/// The query for a record's row.
fn query_of(record: Record) -> &'static str {
    match record {
        Record::Job => {
            "SELECT job, dial, modem, jobtag, status, tts, killtime, priority, npages, totpages, \
            ntries, tottries, maxtries, ndials, totdials, maxdials, phase, wish, next, extra \
            FROM jobs"
        }
        Record::Prospect => "SELECT job, dial, modem, priority, tts FROM jobs",
        Record::Grant => {
            "SELECT id, job, modem, first_page, last_page, call, pages, shut FROM grants"
        }
        Record::Hold => "SELECT id, job FROM holds",
        Record::Numbers => "SELECT clock, next_job, next_grant FROM meta",
        Record::Reply => "SELECT said, status, body FROM replies",
        Record::Calls => "SELECT open FROM calls",
        Record::HeldJob => "SELECT job FROM holds",
        Record::Dial => "SELECT dial FROM jobs",
    }
}

/// Runs a statement.
fn run<S: Alter>(conn: &mut Connection<S>, statement: &str) -> Result<(), Fail> {
    conn.execute(statement, &[])?;
    Ok(())
}

/// Runs statements one after the other.
fn run_all<S: Alter>(conn: &mut Connection<S>, statements: &[&str]) -> Result<(), Fail> {
    for statement in statements {
        run(conn, statement)?;
    }
    Ok(())
}

/// Makes the tables, with one record of each.
fn fill<S: Alter>(conn: &mut Connection<S>) -> Result<(), Fail> {
    create_tables(conn)?;
    run_all(conn, &RECORDS)
}

/// The row that a query finds.
fn row_of<S: Alter>(conn: &mut Connection<S>, query: &str) -> Result<Row, Fail> {
    Ok(conn.query_row(query, &[])?)
}

/// The row of a record, once the change has run on tables with one of each.
fn row_after<S: Alter + Drop>(
    mut conn: Connection<S>,
    change: &str,
    record: Record,
) -> Result<Row, Fail> {
    fill(&mut conn)?;
    run(&mut conn, change)?;
    row_of(&mut conn, query_of(record))
}

/// Why the record isn't read from that row, or none where it is.
fn fault_in(alloc: Global, row: &Row, record: Record) -> Option<StoreFault> {
    match record {
        Record::Job => job_in(alloc, row).err(),
        Record::Prospect => prospect_in(alloc, row).err(),
        Record::Grant => grant_in(alloc, row).err(),
        Record::Hold => Hold::in_row(row).err(),
        Record::Numbers => Meta::in_row(row).err(),
        Record::Reply => Kept::in_row(row).err(),
        Record::Calls => calls_in(row).err(),
        Record::HeldJob => held_job_in(row).err(),
        Record::Dial => dial_in(alloc, row).err(),
    }
}

/// The same once the change has run.
fn fault_after(
    rt: &HostRuntime,
    change: &str,
    record: Record,
) -> Result<Option<StoreFault>, Fail> {
    let row = row_after(new_database(rt)?, change, record)?;
    Ok(fault_in(rt.alloc(), &row, record))
}

pub(crate) fn rows_within_their_limits_are_read(rt: &HostRuntime) -> Result<(), Fail> {
    for (change, record) in [
        ("UPDATE jobs SET tts = 4102444800", Record::Job),
        ("UPDATE jobs SET priority = 255", Record::Job),
        ("UPDATE jobs SET next = 4102531200", Record::Job),
        ("UPDATE jobs SET priority = 255", Record::Prospect),
        ("UPDATE grants SET job = 999999", Record::Grant),
        ("UPDATE grants SET last_page = 9999", Record::Grant),
        ("UPDATE grants SET call = 5", Record::Grant),
        ("UPDATE holds SET job = 999999", Record::Hold),
        ("UPDATE meta SET next_job = 1000000", Record::Numbers),
        ("UPDATE replies SET status = 201", Record::Reply),
        ("UPDATE calls SET open = 4294967295", Record::Calls),
        ("UPDATE holds SET job = 999999", Record::HeldJob),
        ("UPDATE jobs SET dial = '+14155550100'", Record::Dial),
    ] {
        let fault = fault_after(rt, change, record)?;
        expect_same(&(change, fault), &(change, None))?;
    }
    Ok(())
}

pub(crate) fn rows_past_their_limits_are_strange(rt: &HostRuntime) -> Result<(), Fail> {
    for (change, record) in [
        ("UPDATE jobs SET dial = '555 0111'", Record::Job),
        ("UPDATE jobs SET dial = 'five'", Record::Job),
        ("UPDATE jobs SET modem = 'a b'", Record::Job),
        ("UPDATE jobs SET jobtag = ' x'", Record::Job),
        ("UPDATE jobs SET status = ' x'", Record::Job),
        ("UPDATE jobs SET extra = 'x'", Record::Job),
        ("UPDATE jobs SET tts = 4102444801", Record::Job),
        ("UPDATE jobs SET priority = 256", Record::Job),
        ("UPDATE jobs SET npages = 65537", Record::Job),
        ("UPDATE jobs SET phase = 5", Record::Job),
        ("UPDATE jobs SET wish = 3", Record::Job),
        ("UPDATE jobs SET next = 4102531201", Record::Job),
        ("UPDATE jobs SET modem = 'a b'", Record::Prospect),
        ("UPDATE jobs SET priority = 256", Record::Prospect),
        ("UPDATE grants SET job = 1000000", Record::Grant),
        ("UPDATE grants SET modem = ''", Record::Grant),
        ("UPDATE grants SET last_page = 10000", Record::Grant),
        ("UPDATE grants SET call = 6", Record::Grant),
        ("UPDATE grants SET shut = 2", Record::Grant),
        ("UPDATE holds SET job = 0", Record::Hold),
        ("UPDATE meta SET next_job = 1000001", Record::Numbers),
        ("UPDATE meta SET clock = -1", Record::Numbers),
        ("UPDATE replies SET status = 202", Record::Reply),
        ("UPDATE calls SET open = 4294967296", Record::Calls),
        ("UPDATE calls SET open = -1", Record::Calls),
        ("UPDATE holds SET job = 4294967296", Record::HeldJob),
        ("UPDATE jobs SET dial = '555 0111'", Record::Dial),
    ] {
        let fault = fault_after(rt, change, record)?;
        expect_same(&(change, fault), &(change, Some(StoreFault::Strange)))?;
    }
    Ok(())
}
