//! The linkage engine for Rust: whether a user may read a flow of a session at a database, so that nobody
//! who holds a denied role puts two flows of one session side by side.
//!
//! The repository's `README.md` says what the calls mean and what they protect from, and `docs/FRAMES.md`
//! has each call and each refusal with an example.
//!
//! What is proved are the functions of the archive `liblinkage_c.a`: each answer, and the engine after it,
//! is what an equation says, for every engine and any numbers. This crate lends them the parts of an
//! engine, turns numbers into a [`Refusal`], and is not proved: it is short, and `library/check.sh` tries
//! it. An [`Engine`] is made fresh and changed by its methods alone, so that the promises about whole
//! lists of calls hold of it.
//!
//! Calls that take an engine as `&self` may run side by side, in several threads, while nothing changes
//! it. A call that may change it takes `&mut self` and is alone in it.
//!
//! Numbers of users, roles, databases, sessions and flows are plain; one that is too high is refused with
//! [`Refusal::AboveLimit`]. In a set of roles, role r is the bit of that number.
//!
//! ```
//! use linkage::{Engine, Product, Refusal};
//!
//! let mut engine = Engine::new();
//! assert_eq!(engine.assign(1, 0), Ok(1));
//! assert_eq!(engine.assign(1, 64), Err(Refusal::AboveLimit));
//! assert_eq!(engine.read(Product::Server, 1, 0, 0, 0), Err(Refusal::NotOpen));
//! ```
mod lent;
mod refusal;

pub use refusal::Refusal;

/// How many users there are; they are numbered from 0, and so are all others.
pub const USERS: usize = 256;
pub const ROLES: usize = 64;
pub const DATABASES: usize = 64;
/// Sessions of each product.
pub const SESSIONS: usize = 16;
/// Flows of each session, at most.
pub const FLOWS: usize = 8;
/// The longest answer line, with its line feed.
pub const LONGEST: usize = 155;
/// How many bytes [`keep`] keeps of an unfinished line, at most.
pub const KEPT: usize = 23;

const ALL_SESSIONS: usize = 2 * SESSIONS;
const PLACES: usize = ALL_SESSIONS * FLOWS;
const ROLE_SETS: usize = PLACES * FLOWS;

/// The products on one directory. Each has sessions of its own.
#[derive(Clone, Copy, Debug, PartialEq, Eq, Hash)]
pub enum Product {
    Server = 0,
    TermBank = 1,
}

/// A flow that was added.
#[derive(Clone, Copy, Debug, PartialEq, Eq)]
pub struct Added {
    /// Its number in the session.
    pub flow: usize,
    /// How many databases it reaches.
    pub reach: u32,
    pub version: u32,
}

/// The constraint of a flow.
#[derive(Clone, Copy, Debug, PartialEq, Eq)]
pub struct Constraint {
    pub version: u32,
    /// The deny set.
    pub deny: u64,
    /// A role set for each flow up to this one; empty past it.
    pub roles: [u64; FLOWS],
}

/// How many bytes of a piece of input were taken, and how many of answers written.
#[derive(Clone, Copy, Debug, PartialEq, Eq)]
pub struct Fed {
    pub consumed: usize,
    pub written: usize,
}

/// An engine: some 28 kilobytes, wherever the caller keeps it. Nothing else is allocated.
#[derive(Clone, Debug, PartialEq, Eq)]
#[repr(C)]
pub struct Engine {
    roles: [u64; USERS],
    readers: [u64; DATABASES],
    forwards: [u64; DATABASES],
    mandates: [u64; DATABASES],
    users: [u32; USERS],
    version: u32,
    opened: u64,
    counts: [usize; ALL_SESSIONS],
    roots: [usize; PLACES],
    reaches: [u64; PLACES],
    versions: [u32; PLACES],
    denies: [u64; PLACES],
    rolesets: [u64; ROLE_SETS],
}

impl Default for Engine {
    fn default() -> Engine {
        Engine::new()
    }
}

impl Engine {
    /// A fresh engine: empty tables, no open session, every version 0.
    pub fn new() -> Engine {
        let mut e = Engine {
            roles: [0; USERS],
            readers: [0; DATABASES],
            forwards: [0; DATABASES],
            mandates: [0; DATABASES],
            users: [0; USERS],
            version: 0,
            opened: 0,
            counts: [0; ALL_SESSIONS],
            roots: [0; PLACES],
            reaches: [0; PLACES],
            versions: [0; PLACES],
            denies: [0; PLACES],
            rolesets: [0; ROLE_SETS],
        };
        lent::fresh(&mut e);
        e
    }

    /// 01: the user gets the role, and a new version. The answer is the system version after it.
    /// Refused with 2, 3, 9.
    pub fn assign(&mut self, user: usize, role: usize) -> Result<u32, Refusal> {
        let (n, version) = lent::assign(self, user, role);
        Refusal::or(n, version)
    }

    /// 02: the user loses the role. The answer is the system version. Refused with 2, 4.
    pub fn withdraw(&mut self, user: usize, role: usize) -> Result<u32, Refusal> {
        let (n, version) = lent::withdraw(self, user, role);
        Refusal::or(n, version)
    }

    /// 03: the role may read the database; who holds it gets a new version. The answer is the system
    /// version after it. Refused with 2, 3, 9.
    pub fn permit(&mut self, role: usize, database: usize) -> Result<u32, Refusal> {
        let (n, version) = lent::permit(self, role, database);
        Refusal::or(n, version)
    }

    /// 04: the role may not read the database any more; versions as for 03. Refused with 2, 4, 15, 9.
    pub fn revoke(&mut self, role: usize, database: usize) -> Result<u32, Refusal> {
        let (n, version) = lent::revoke(self, role, database);
        Refusal::or(n, version)
    }

    /// 05: the first database forwards to the second. The answer is the system version. Refused with 2,
    /// 5, 3.
    pub fn forward(&mut self, from: usize, to: usize) -> Result<u32, Refusal> {
        let (n, version) = lent::forward(self, from, to);
        Refusal::or(n, version)
    }

    /// 10: a mandate is put on the permission. Nothing lifts it. The answer is the system version.
    /// Refused with 2, 3, 4.
    pub fn mandate(&mut self, role: usize, database: usize) -> Result<u32, Refusal> {
        let (n, version) = lent::mandate(self, role, database);
        Refusal::or(n, version)
    }

    /// 06 and 0b: the session is opened. The answer is the system version. Refused with 2, 3.
    pub fn open(&mut self, product: Product, session: usize) -> Result<u32, Refusal> {
        let (n, version) = lent::open(self, product as usize, session);
        Refusal::or(n, version)
    }

    /// 07 and 0c: the conflicting roles, with a flow of this root counted in but not added. Refused with
    /// 2, 6, 7.
    pub fn conflicting(
        &self,
        product: Product,
        session: usize,
        root: usize,
    ) -> Result<u64, Refusal> {
        let (n, roles) = lent::conflicting(self, product as usize, session, root);
        Refusal::or(n, roles)
    }

    /// 08 and 0d: a flow of this root is added, with the chosen roles denied, each of which has to be
    /// conflicting. Refused with 2, 6, 7, 8.
    pub fn add(
        &mut self,
        product: Product,
        session: usize,
        root: usize,
        chosen: u64,
    ) -> Result<Added, Refusal> {
        let (n, (flow, reach, version)) = lent::add(self, product as usize, session, root, chosen);
        Refusal::or(
            n,
            Added {
                flow,
                reach,
                version,
            },
        )
    }

    /// 09 and 0e: `Ok` where the user may read the flow at the database now. Anything else means: don't
    /// show it. Ask for each read, since the tables may have changed. Refused with 2, 6, 10, 11, 12, 13,
    /// 14.
    pub fn read(
        &self,
        product: Product,
        user: usize,
        session: usize,
        flow: usize,
        database: usize,
    ) -> Result<(), Refusal> {
        Refusal::or(
            lent::read(self, product as usize, user, session, flow, database),
            (),
        )
    }

    /// 0a and 0f: the constraint of the flow. Refused with 2, 6, 10.
    pub fn show(
        &self,
        product: Product,
        session: usize,
        flow: usize,
    ) -> Result<Constraint, Refusal> {
        let (n, constraint) = lent::show(self, product as usize, session, flow);
        Refusal::or(n, constraint)
    }

    /// One frame, a line without its line feed: it is carried out, and its answer line given back, line
    /// feed included. What is no frame is answered 01, whatever bytes it has.
    pub fn frame<'a>(&mut self, line: &[u8], out: &'a mut [u8; LONGEST]) -> &'a [u8] {
        let n = lent::frame(self, line, out);
        &out[..n]
    }

    /// A piece of a stream: its whole lines are carried out, as far as there is room for their answer
    /// lines, which stand one after the other in `out`. With room for [`LONGEST`] it takes a line if there
    /// is a whole one: so feed until nothing is taken, then [`keep`], and read on; after the last piece
    /// [`finish`]. With less room nothing is done.
    pub fn feed(&mut self, input: &[u8], out: &mut [u8]) -> Fed {
        let (consumed, written) = lent::feed(self, input, out);
        Fed { consumed, written }
    }
}

/// What has to be kept of `buffer[from..to]` after [`Engine::feed`] is moved to the buffer's start: all of
/// it, or the first [`KEPT`] bytes at most of a line that has no line feed yet. The answer is how many
/// bytes that is: read on behind them. Places past the end count as the end.
pub fn keep(buffer: &mut [u8], from: usize, to: usize) -> usize {
    lent::keep(buffer, from, to)
}

/// At the end of the input, with so many bytes left of a line without its line feed: its answer line at
/// the start of `out`, 01 where any are left, and how long that is. 0 where nothing is left, or `out` has
/// not the room of 3.
pub fn finish(left: usize, out: &mut [u8]) -> usize {
    lent::finish(left, out)
}

#[cfg(test)]
mod tests {
    use super::*;

    /// The worked run of document 01: its frames, and its answers, which are the first of the stored ones.
    const FRAMES: &str = include_str!("../../../crates/lists_try/data/worked.in");
    const ANSWERS: &str = include_str!("../../../crates/lists_try/stdout");

    #[test]
    fn worked_run_by_frames() {
        let (mut engine, mut out) = (Engine::new(), [0; LONGEST]);
        assert_eq!(FRAMES.lines().count(), 21);
        for (frame, answer) in FRAMES.lines().zip(ANSWERS.lines()) {
            let got = engine.frame(frame.as_bytes(), &mut out);
            assert_eq!(got, format!("{answer}\n").as_bytes(), "{frame}");
        }
    }

    #[test]
    fn worked_run_by_calls() {
        let (mut e, p) = (Engine::new(), Product::Server);
        assert_eq!(
            [
                e.assign(1, 0),
                e.assign(1, 1),
                e.assign(1, 2),
                e.assign(2, 0)
            ],
            [Ok(1), Ok(2), Ok(3), Ok(4)]
        );
        assert_eq!(
            [
                e.permit(0, 0),
                e.permit(1, 1),
                e.forward(1, 2),
                e.open(p, 0)
            ],
            [Ok(5), Ok(6), Ok(6), Ok(6)]
        );
        assert_eq!(
            e.add(p, 0, 0, 0),
            Ok(Added {
                flow: 0,
                reach: 1,
                version: 6
            })
        );
        assert_eq!(e.conflicting(p, 0, 1), Ok(7));
        assert_eq!(
            e.add(p, 0, 1, 4),
            Ok(Added {
                flow: 1,
                reach: 2,
                version: 6
            })
        );
        assert_eq!(e.read(p, 1, 0, 0, 0), Ok(()));
        assert_eq!(e.read(p, 1, 0, 1, 1), Err(Refusal::Linkable));
        assert_eq!(e.read(p, 2, 0, 0, 0), Ok(()));
        let roles = [1, 2, 0, 0, 0, 0, 0, 0];
        assert_eq!(
            e.show(p, 0, 1),
            Ok(Constraint {
                version: 6,
                deny: 4,
                roles
            })
        );
        assert_eq!(e.withdraw(1, 2), Ok(6));
        assert_eq!(e.read(p, 1, 0, 1, 1), Ok(()));
        assert_eq!(e.read(p, 2, 0, 1, 1), Err(Refusal::NoPermission));
        assert_eq!(e.assign(2, 3), Ok(7));
        assert_eq!(e.read(p, 2, 0, 0, 0), Err(Refusal::Changed));
    }

    #[test]
    fn refused_calls_change_nothing() {
        let mut e = Engine::new();
        assert_eq!(e.assign(256, 0), Err(Refusal::AboveLimit));
        assert_eq!(e.permit(0, usize::MAX), Err(Refusal::AboveLimit));
        assert_eq!(e.mandate(0, 0), Err(Refusal::NotThere));
        assert_eq!(e.revoke(0, 0), Err(Refusal::NotThere));
        assert_eq!(e.open(Product::TermBank, 16), Err(Refusal::AboveLimit));
        assert_eq!(e.add(Product::TermBank, 0, 0, 1), Err(Refusal::NotOpen));
        assert!(e == Engine::new());
    }

    #[test]
    fn products_have_sessions_of_their_own() {
        let mut e = Engine::new();
        assert_eq!(e.open(Product::TermBank, 0), Ok(0));
        assert_eq!(e.conflicting(Product::TermBank, 0, 0), Ok(0));
        assert_eq!(e.conflicting(Product::Server, 0, 0), Err(Refusal::NotOpen));
    }
}
