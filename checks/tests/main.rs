// Rattle, not Rust: checks/unproved compiles it without a proof, checks/try-tests runs it, and rt doesn't read it.
//
// Tests of what no message to the program shows: calls of the store and of the queue that it doesn't make, and rows that
// it never has. `rt ci` would prove them, which takes a quarter of an hour of a processor. So they are compiled with the
// program that nothing is proved of: this is added to its root, where what was `main` is `program`.

mod example;
mod expect;
mod files;
mod queues;
mod rows;
mod runs;
mod store;
mod view;
mod waiting;

use std::process::Termination;
use std::test::Fail;

/// Runs the tests where the only word asks for that, and else the program.
fn main(rt: HostRuntime) -> ExitCode {
    match called_with(&rt) {
        Ok(words) if words.len() == 2 && words[1].as_str() == "run-tests" => run_tests(&rt).report(&rt),
        Ok(_) | Err(_) => program(rt),
    }
}

/// Runs each test; the first one that fails ends it.
fn run_tests(rt: &HostRuntime) -> Result<(), Fail> {
    rows::rows_within_their_limits_are_read(rt)?;
    rows::rows_past_their_limits_are_strange(rt)?;
    runs::a_run_answers_one_fax(rt)?;
    runs::a_batch_answers_one_fax(rt)?;
    store::dropped_work_leaves_the_rows_before_it(rt)?;
    store::refused_call_refuses_the_commit(rt)?;
    store::added_job_is_there(rt)?;
    view::a_view_shows_a_later_moment_and_changes_nothing(rt)?;
    waiting::candidates_are_the_jobs_that_wait(rt)?;
    waiting::candidates_go_on_behind_a_page(rt)?;
    Ok(())
}
