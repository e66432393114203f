//! The archive's functions, and a safe function over each that lends it the parts of an engine. All
//! unsafe code of the crate is here.
//!
//! No function of the archive has a premise about contents or numbers: it is proved to stay within what
//! it is lent, whatever that holds. What is left to see is that the types below are those of the archive,
//! and that what is lent is valid and does not overlap. References see to the second: each is to a whole
//! array of the length that stands in its type, and none that may be written through is given twice.
use super::{Constraint, Engine};
use super::{ALL_SESSIONS, DATABASES, FLOWS, PLACES, ROLE_SETS, USERS};

extern "C" {
    fn linkage_lent_fresh(
        roles: &mut [u64; USERS],
        readers: &mut [u64; DATABASES],
        forwards: &mut [u64; DATABASES],
        mandates: &mut [u64; DATABASES],
        users: &mut [u32; USERS],
        version: &mut u32,
        opened: &mut u64,
        counts: &mut [usize; ALL_SESSIONS],
        roots: &mut [usize; PLACES],
        reaches: &mut [u64; PLACES],
        versions: &mut [u32; PLACES],
        denies: &mut [u64; PLACES],
        rolesets: &mut [u64; ROLE_SETS],
    );
    fn linkage_lent_assign(
        roles: &mut [u64; USERS],
        users: &mut [u32; USERS],
        version: &mut u32,
        user: usize,
        role: usize,
        told: &mut u32,
    ) -> u64;
    fn linkage_lent_withdraw(
        roles: &mut [u64; USERS],
        version: u32,
        user: usize,
        role: usize,
        told: &mut u32,
    ) -> u64;
    fn linkage_lent_permit(
        roles: &[u64; USERS],
        readers: &mut [u64; DATABASES],
        users: &mut [u32; USERS],
        version: &mut u32,
        role: usize,
        database: usize,
        told: &mut u32,
    ) -> u64;
    fn linkage_lent_revoke(
        roles: &[u64; USERS],
        readers: &mut [u64; DATABASES],
        mandates: &[u64; DATABASES],
        users: &mut [u32; USERS],
        version: &mut u32,
        role: usize,
        database: usize,
        told: &mut u32,
    ) -> u64;
    fn linkage_lent_forward(
        forwards: &mut [u64; DATABASES],
        version: u32,
        counts: &[usize; ALL_SESSIONS],
        from: usize,
        to: usize,
        told: &mut u32,
    ) -> u64;
    fn linkage_lent_mandate(
        readers: &[u64; DATABASES],
        mandates: &mut [u64; DATABASES],
        version: u32,
        role: usize,
        database: usize,
        told: &mut u32,
    ) -> u64;
    fn linkage_lent_open(
        version: u32,
        opened: &mut u64,
        product: usize,
        session: usize,
        told: &mut u32,
    ) -> u64;
    fn linkage_lent_conflicting(
        roles: &[u64; USERS],
        readers: &[u64; DATABASES],
        forwards: &[u64; DATABASES],
        opened: u64,
        counts: &[usize; ALL_SESSIONS],
        reaches: &[u64; PLACES],
        product: usize,
        session: usize,
        root: usize,
        found: &mut u64,
    ) -> u64;
    fn linkage_lent_add(
        roles: &[u64; USERS],
        readers: &[u64; DATABASES],
        forwards: &[u64; DATABASES],
        version: u32,
        opened: u64,
        counts: &mut [usize; ALL_SESSIONS],
        roots: &mut [usize; PLACES],
        reaches: &mut [u64; PLACES],
        versions: &mut [u32; PLACES],
        denies: &mut [u64; PLACES],
        rolesets: &mut [u64; ROLE_SETS],
        product: usize,
        session: usize,
        root: usize,
        chosen: u64,
        flow: &mut usize,
        size: &mut u32,
        told: &mut u32,
    ) -> u64;
    fn linkage_lent_show(
        opened: u64,
        counts: &[usize; ALL_SESSIONS],
        versions: &[u32; PLACES],
        denies: &[u64; PLACES],
        rolesets: &[u64; ROLE_SETS],
        product: usize,
        session: usize,
        flow: usize,
        told: &mut u32,
        deny: &mut u64,
        sets: &mut [u64; FLOWS],
    ) -> u64;
    fn linkage_session(product: usize, session: usize) -> usize;
    fn linkage_lent_read(
        roles: &[u64; USERS],
        readers: &[u64; DATABASES],
        mandates: &[u64; DATABASES],
        users: &[u32; USERS],
        opened: u64,
        counts: &[usize; ALL_SESSIONS],
        reaches: &[u64; PLACES],
        versions: &[u32; PLACES],
        denies: &[u64; PLACES],
        rolesets: &[u64; ROLE_SETS],
        user: usize,
        number: usize,
        flow: usize,
        database: usize,
    ) -> u64;
    fn linkage_lent_frame(
        roles: &mut [u64; USERS],
        readers: &mut [u64; DATABASES],
        forwards: &mut [u64; DATABASES],
        mandates: &mut [u64; DATABASES],
        users: &mut [u32; USERS],
        version: &mut u32,
        opened: &mut u64,
        counts: &mut [usize; ALL_SESSIONS],
        roots: &mut [usize; PLACES],
        reaches: &mut [u64; PLACES],
        versions: &mut [u32; PLACES],
        denies: &mut [u64; PLACES],
        rolesets: &mut [u64; ROLE_SETS],
        line: *const u8,
        length: usize,
        out: *mut u8,
        room: usize,
    ) -> usize;
    fn linkage_lent_feed(
        roles: &mut [u64; USERS],
        readers: &mut [u64; DATABASES],
        forwards: &mut [u64; DATABASES],
        mandates: &mut [u64; DATABASES],
        users: &mut [u32; USERS],
        version: &mut u32,
        opened: &mut u64,
        counts: &mut [usize; ALL_SESSIONS],
        roots: &mut [usize; PLACES],
        reaches: &mut [u64; PLACES],
        versions: &mut [u32; PLACES],
        denies: &mut [u64; PLACES],
        rolesets: &mut [u64; ROLE_SETS],
        input: *const u8,
        length: usize,
        out: *mut u8,
        room: usize,
        consumed: &mut usize,
    ) -> usize;
    fn linkage_keep(buffer: *mut u8, length: usize, from: usize, to: usize) -> usize;
    fn linkage_finish(left: usize, out: *mut u8, room: usize) -> usize;
}

pub fn fresh(e: &mut Engine) {
    // Sound: thirteen fields of one engine, which do not overlap.
    unsafe {
        linkage_lent_fresh(
            &mut e.roles,
            &mut e.readers,
            &mut e.forwards,
            &mut e.mandates,
            &mut e.users,
            &mut e.version,
            &mut e.opened,
            &mut e.counts,
            &mut e.roots,
            &mut e.reaches,
            &mut e.versions,
            &mut e.denies,
            &mut e.rolesets,
        )
    }
}

pub fn assign(e: &mut Engine, user: usize, role: usize) -> (u64, u32) {
    let mut told = 0;
    // Sound: three fields and a local, which do not overlap.
    let n = unsafe {
        linkage_lent_assign(
            &mut e.roles,
            &mut e.users,
            &mut e.version,
            user,
            role,
            &mut told,
        )
    };
    (n, told)
}

pub fn withdraw(e: &mut Engine, user: usize, role: usize) -> (u64, u32) {
    let mut told = 0;
    // Sound: a field and a local.
    let n = unsafe { linkage_lent_withdraw(&mut e.roles, e.version, user, role, &mut told) };
    (n, told)
}

pub fn permit(e: &mut Engine, role: usize, database: usize) -> (u64, u32) {
    let mut told = 0;
    // Sound: four fields, one of them only read, and a local.
    let n = unsafe {
        linkage_lent_permit(
            &e.roles,
            &mut e.readers,
            &mut e.users,
            &mut e.version,
            role,
            database,
            &mut told,
        )
    };
    (n, told)
}

pub fn revoke(e: &mut Engine, role: usize, database: usize) -> (u64, u32) {
    let mut told = 0;
    // Sound: five fields, two of them only read, and a local.
    let n = unsafe {
        linkage_lent_revoke(
            &e.roles,
            &mut e.readers,
            &e.mandates,
            &mut e.users,
            &mut e.version,
            role,
            database,
            &mut told,
        )
    };
    (n, told)
}

pub fn forward(e: &mut Engine, from: usize, to: usize) -> (u64, u32) {
    let mut told = 0;
    // Sound: two fields, one of them only read, and a local.
    let n =
        unsafe { linkage_lent_forward(&mut e.forwards, e.version, &e.counts, from, to, &mut told) };
    (n, told)
}

pub fn mandate(e: &mut Engine, role: usize, database: usize) -> (u64, u32) {
    let mut told = 0;
    // Sound: two fields, one of them only read, and a local.
    let n = unsafe {
        linkage_lent_mandate(
            &e.readers,
            &mut e.mandates,
            e.version,
            role,
            database,
            &mut told,
        )
    };
    (n, told)
}

pub fn open(e: &mut Engine, product: usize, session: usize) -> (u64, u32) {
    let mut told = 0;
    // Sound: a field and a local.
    let n = unsafe { linkage_lent_open(e.version, &mut e.opened, product, session, &mut told) };
    (n, told)
}

pub fn conflicting(e: &Engine, product: usize, session: usize, root: usize) -> (u64, u64) {
    let mut found = 0;
    // Sound: fields that are only read, and a local.
    let n = unsafe {
        linkage_lent_conflicting(
            &e.roles,
            &e.readers,
            &e.forwards,
            e.opened,
            &e.counts,
            &e.reaches,
            product,
            session,
            root,
            &mut found,
        )
    };
    (n, found)
}

/// The number, and of the flow its number, how many databases it reaches, its version.
pub fn add(
    e: &mut Engine,
    product: usize,
    session: usize,
    root: usize,
    chosen: u64,
) -> (u64, (usize, u32, u32)) {
    let (mut flow, mut size, mut told) = (0, 0, 0);
    // Sound: nine fields, three of them only read, and three locals.
    let n = unsafe {
        linkage_lent_add(
            &e.roles,
            &e.readers,
            &e.forwards,
            e.version,
            e.opened,
            &mut e.counts,
            &mut e.roots,
            &mut e.reaches,
            &mut e.versions,
            &mut e.denies,
            &mut e.rolesets,
            product,
            session,
            root,
            chosen,
            &mut flow,
            &mut size,
            &mut told,
        )
    };
    (n, (flow, size, told))
}

pub fn show(e: &Engine, product: usize, session: usize, flow: usize) -> (u64, Constraint) {
    let mut c = Constraint {
        version: 0,
        deny: 0,
        roles: [0; FLOWS],
    };
    // Sound: fields that are only read, and the three fields of a local.
    let n = unsafe {
        linkage_lent_show(
            e.opened,
            &e.counts,
            &e.versions,
            &e.denies,
            &e.rolesets,
            product,
            session,
            flow,
            &mut c.version,
            &mut c.deny,
            &mut c.roles,
        )
    };
    (n, c)
}

pub fn read(
    e: &Engine,
    product: usize,
    user: usize,
    session: usize,
    flow: usize,
    database: usize,
) -> u64 {
    // Sound: fields that are only read.
    unsafe {
        linkage_lent_read(
            &e.roles,
            &e.readers,
            &e.mandates,
            &e.users,
            e.opened,
            &e.counts,
            &e.reaches,
            &e.versions,
            &e.denies,
            &e.rolesets,
            user,
            linkage_session(product, session),
            flow,
            database,
        )
    }
}

pub fn frame(e: &mut Engine, line: &[u8], out: &mut [u8]) -> usize {
    // Sound: thirteen fields of one engine, and two slices with their lengths; `out` is borrowed alone.
    unsafe {
        linkage_lent_frame(
            &mut e.roles,
            &mut e.readers,
            &mut e.forwards,
            &mut e.mandates,
            &mut e.users,
            &mut e.version,
            &mut e.opened,
            &mut e.counts,
            &mut e.roots,
            &mut e.reaches,
            &mut e.versions,
            &mut e.denies,
            &mut e.rolesets,
            line.as_ptr(),
            line.len(),
            out.as_mut_ptr(),
            out.len(),
        )
    }
}

/// How many bytes were taken, and how many written.
pub fn feed(e: &mut Engine, input: &[u8], out: &mut [u8]) -> (usize, usize) {
    let mut consumed = 0;
    // Sound: as for a frame, and a local.
    let written = unsafe {
        linkage_lent_feed(
            &mut e.roles,
            &mut e.readers,
            &mut e.forwards,
            &mut e.mandates,
            &mut e.users,
            &mut e.version,
            &mut e.opened,
            &mut e.counts,
            &mut e.roots,
            &mut e.reaches,
            &mut e.versions,
            &mut e.denies,
            &mut e.rolesets,
            input.as_ptr(),
            input.len(),
            out.as_mut_ptr(),
            out.len(),
            &mut consumed,
        )
    };
    (consumed, written)
}

pub fn keep(buffer: &mut [u8], from: usize, to: usize) -> usize {
    // Sound: one slice with its length; `from` and `to` may be any numbers.
    unsafe { linkage_keep(buffer.as_mut_ptr(), buffer.len(), from, to) }
}

pub fn finish(left: usize, out: &mut [u8]) -> usize {
    // Sound: one slice with its length.
    unsafe { linkage_finish(left, out.as_mut_ptr(), out.len()) }
}
