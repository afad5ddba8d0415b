//! Rattle, not Rust: checks/unproved compiles it without a proof, checks/try-tests runs it, and rt doesn't read it.
//! The database of a test: a new file of the program's own kind, so that the engine isn't compiled for another one.
use fax_files::{connect, make_file, open_store};
use fax_store::Store;
use sqlite::{Connection, FileFrom, FileStore, Unknown};
use std::fs;
use std::test::Fail;

/// What a test's database is kept in.
type File = FileStore<FileFrom<Unknown>>;

const NAME: &str = "tests.db";

/// Makes a new file in the place of the last test's.
fn renew(rt: &HostRuntime) -> Result<(), Fail> {
    for name in [NAME, "tests.db-wal"] {
        let _ = fs::remove_file(rt, name);
    }
    if make_file(rt, NAME).is_err() {
        return Err("no new file".into());
    }
    Ok(())
}

/// A database without tables.
pub(crate) fn new_database(rt: &HostRuntime) -> Result<Connection<File>, Fail> {
    renew(rt)?;
    match connect(rt, NAME, Unknown) {
        Ok(conn) => Ok(conn),
        Err(_) => Err("no database".into()),
    }
}

/// The tables of an empty queue.
pub(crate) fn new_store(rt: &HostRuntime) -> Result<Store<File>, Fail> {
    renew(rt)?;
    match open_store(rt, NAME, Unknown) {
        Ok(store) => Ok(store),
        Err(_) => Err("no tables".into()),
    }
}
