//! Rattle, not Rust: checks/unproved compiles it without a proof, checks/try-tests runs it, and rt doesn't read it.
//! The call that shows a job to the process that has the queue.
use crate::example::Exchange;
use crate::expect::expect_same;
use crate::files::new_store;
use crate::queues::{is_answered, queue_over};
use fax_job::Moment;
use fax_once::Queue;
use fax_store::Store;
use sqlite::Alter;
use std::alloc::Global;
use std::test::Fail;

const EXPIRING: Exchange = Exchange {
    client: b"desk",
    number: b"1",
    moment: 1000,
    path: "/jobs",
    body: "number:5550111\ntotpages:1\nkilltime:1500\n",
    status: 201,
    reply: r#"{"job":1}"#,
};

/// What is shown of a path at a moment: a status, and a body with this end.
#[derive(Clone, Copy)]
struct View {
    path: &'static str,
    moment: u64,
    status: u16,
    end: &'static str,
}

/// The second moment is before the first, so the first changes nothing.
const VIEWS: [View; 4] = [
    View {
        path: "/jobs/1",
        moment: 1500,
        status: 200,
        end: "state:8\nstatus:Kill time expired\n",
    },
    View {
        path: "/jobs/1",
        moment: 0,
        status: 200,
        end: "state:5\nstatus:\n",
    },
    View {
        path: "/jobs/2",
        moment: 1500,
        status: 404,
        end: r#"{"no":8,"word":"no-job"}"#,
    },
    View {
        path: "/job",
        moment: 1500,
        status: 404,
        end: r#"{"no":3,"word":"no-route"}"#,
    },
];

fn shows<S: Alter>(alloc: Global, queue: &mut Queue<S>, view: &View) -> bool {
    let reply = queue.view(alloc, view.path, Moment::new(view.moment));
    reply.status() == view.status && reply.body().ends_with(view.end.as_bytes())
}

/// How many of these views are shown over this store, until one isn't.
fn shows_over<S: Alter + Drop>(
    alloc: Global,
    store: Store<S>,
    views: &[View],
) -> Result<usize, Fail> {
    let mut queue = queue_over(alloc, store)?;
    if !is_answered(alloc, &mut queue, &EXPIRING)? {
        return Err("the submission isn't taken".into());
    }
    for (count, view) in views.iter().enumerate() {
        if !shows(alloc, &mut queue, view) {
            return Ok(count);
        }
    }
    Ok(views.len())
}

pub(crate) fn a_view_shows_a_later_moment_and_changes_nothing(rt: &HostRuntime) -> Result<(), Fail> {
    let store = new_store(rt)?;
    expect_same(&shows_over(rt.alloc(), store, &VIEWS)?, &VIEWS.len())
}
