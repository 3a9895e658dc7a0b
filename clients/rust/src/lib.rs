//! A client of registryd: it asks a registry by lines, and answers with values. [`Registry::open`] starts the program as a
//! child; with the feature `embedded`, `Registry::embedded` begins a session in this process, over the library libregistryd,
//! and `seats` or `kept_seats` several that share one journal, each for a thread of its own; [`Registry::connect`] begins a session with
//! a service, which many clients share.
//!
//! A call waits for its reply. [`Registry::many`] sends any number of lines without waiting between them, and resolve lines
//! that come to a program together are shared out among its workers. Names, versions and requirements are judged by the
//! registry alone. Where the session has ended, each call answers [`Error::Ended`], which says how; none waits for ever.

mod child;
mod connection;
mod culprit;
#[cfg(feature = "embedded")]
mod embedded;
mod explained;
pub mod json;
mod meant;
mod refusal;
mod reply;
mod request;
#[cfg(feature = "embedded")]
mod seat;
mod service;
mod session;

pub use culprit::Culprit;
pub use explained::{Derived, External, Node, Term, Tree};
pub use refusal::Refusal;
pub use reply::{Packages, Reply, Selected, Why};
pub use request::{Pairs, Request, Resolve};
#[cfg(feature = "embedded")]
pub use seat::{kept_seats, seats, Seat};
pub use session::{Ended, Error, Options, Registry};
