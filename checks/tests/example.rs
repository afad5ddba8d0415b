//! Rattle, not Rust: checks/unproved compiles it without a proof, checks/try-tests runs it, and rt doesn't read it.
//! One fax of three pages over a bad line, as messages and the replies that are wanted.
use fax_ask::{Method, Reply};
use fax_job::Moment;
use fax_once::Arrival;

/// A request, and the reply that is wanted.
#[derive(Clone, Copy)]
pub(crate) struct Exchange {
    pub(crate) client: &'static [u8],
    pub(crate) number: &'static [u8],
    pub(crate) moment: u64,
    pub(crate) path: &'static str,
    pub(crate) body: &'static str,
    pub(crate) status: u16,
    pub(crate) reply: &'static str,
}

/// One fax over a bad line: a page comes before its call, an outcome before a page, and the second try goes on behind
/// the pages that were sent.
pub(crate) const ONE_FAX: [Exchange; 15] = [
    Exchange {
        client: b"desk",
        number: b"1",
        moment: 1000,
        path: "/jobs",
        body: "number:+1 415 555-0100\ntotpages:3\n",
        status: 201,
        reply: r#"{"job":1}"#,
    },
    Exchange {
        client: b"w0",
        number: b"1",
        moment: 1000,
        path: "/modems/ttyS0/next",
        body: "",
        status: 200,
        reply: r#"{"from":1,"grant":1,"job":1,"number":"+14155550100","to":3}"#,
    },
    Exchange {
        client: b"w0",
        number: b"2",
        moment: 1010,
        path: "/grants/1/page",
        body: r#"{"page":1}"#,
        status: 409,
        reply: r#"{"no":21,"word":"not-connected"}"#,
    },
    Exchange {
        client: b"w0",
        number: b"3",
        moment: 1011,
        path: "/grants/1/call",
        body: r#"{"result":"connected"}"#,
        status: 200,
        reply: r#"{"stop":false}"#,
    },
    Exchange {
        client: b"w0",
        number: b"2",
        moment: 1012,
        path: "/grants/1/page",
        body: r#"{"page":1}"#,
        status: 200,
        reply: r#"{"npages":1,"stop":false}"#,
    },
    Exchange {
        client: b"w0",
        number: b"2",
        moment: 1013,
        path: "/grants/1/page",
        body: r#"{"page":1}"#,
        status: 200,
        reply: r#"{"npages":1,"stop":false}"#,
    },
    Exchange {
        client: b"w0",
        number: b"5",
        moment: 1020,
        path: "/grants/1/outcome",
        body: r#"{"dialed":true,"outcome":"retry","pages":2,"reason":"line dropped"}"#,
        status: 409,
        reply: r#"{"no":24,"word":"pages-mismatch"}"#,
    },
    Exchange {
        client: b"w0",
        number: b"4",
        moment: 1021,
        path: "/grants/1/page",
        body: r#"{"page":2}"#,
        status: 200,
        reply: r#"{"npages":2,"stop":false}"#,
    },
    Exchange {
        client: b"w0",
        number: b"5",
        moment: 1022,
        path: "/grants/1/outcome",
        body: r#"{"dialed":true,"outcome":"retry","pages":2,"reason":"line dropped"}"#,
        status: 200,
        reply: r#"{"job":1,"state":3}"#,
    },
    Exchange {
        client: b"w0",
        number: b"6",
        moment: 1081,
        path: "/modems/ttyS0/next",
        body: "",
        status: 200,
        reply: r#"{"grant":0}"#,
    },
    Exchange {
        client: b"w0",
        number: b"7",
        moment: 1082,
        path: "/modems/ttyS0/next",
        body: "",
        status: 200,
        reply: r#"{"from":3,"grant":2,"job":1,"number":"+14155550100","to":3}"#,
    },
    Exchange {
        client: b"w0",
        number: b"1",
        moment: 1083,
        path: "/modems/ttyS0/next",
        body: "",
        status: 200,
        reply: r#"{"from":1,"grant":1,"job":1,"number":"+14155550100","to":3}"#,
    },
    Exchange {
        client: b"w0",
        number: b"8",
        moment: 1084,
        path: "/grants/2/call",
        body: r#"{"result":"connected"}"#,
        status: 200,
        reply: r#"{"stop":false}"#,
    },
    Exchange {
        client: b"w0",
        number: b"9",
        moment: 1085,
        path: "/grants/2/page",
        body: r#"{"page":3}"#,
        status: 200,
        reply: r#"{"npages":3,"stop":false}"#,
    },
    Exchange {
        client: b"w0",
        number: b"10",
        moment: 1086,
        path: "/grants/2/outcome",
        body: r#"{"dialed":true,"outcome":"done","pages":1}"#,
        status: 200,
        reply: r#"{"job":1,"state":7}"#,
    },
];

/// The request of an exchange, as the queue gets it.
pub(crate) fn arrival_of(exchange: &Exchange) -> Arrival<'static> {
    Arrival {
        client: exchange.client,
        number: exchange.number,
        moment: Moment::new(exchange.moment),
        method: Method::Post,
        path: exchange.path,
        body: exchange.body.as_bytes(),
    }
}

/// Whether this is the reply that is wanted.
pub(crate) fn is_reply(reply: &Reply, exchange: &Exchange) -> bool {
    reply.status() == exchange.status && reply.body() == exchange.reply.as_bytes()
}
