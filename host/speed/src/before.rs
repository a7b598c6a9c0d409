//! The calls of the archive that ROSSINHIU_BEFORE names, as `checker` has those of the library, on the structs of layout 4, which don't
//! say which banks are open.

use rossinhiu::ffi::{self, Command, Numbers, Terms};

/// The newest edition that it knows.
pub const KNOWN: u8 = 1;

#[repr(C)]
#[derive(Clone, Copy)]
struct Entry {
    slot: u64,
    earlier: u64,
    pushed_out: u64,
    latest: u64,
}

#[repr(C)]
#[derive(Clone, Copy)]
struct Progress {
    activates: [u64; 8],
    latest: u64,
    position: u64,
    survivors: u64,
    depth: u64,
    records: u64,
}

#[repr(C)]
#[derive(Clone, Copy)]
pub struct Session {
    last: [u64; 224],
    entries: [Entry; 64],
    progress: Progress,
    terms: Terms,
}

impl Session {
    /// The state of that layout that stands where this one does.
    pub fn of(session: &ffi::Session) -> Session {
        let progress = &session.progress;
        let mut terms = session.terms;
        terms.opening.edition = terms.opening.edition.min(KNOWN);
        Session {
            last: session.last,
            entries: session.entries.map(|entry| Entry {
                slot: entry.slot.into(),
                earlier: entry.earlier,
                pushed_out: entry.pushed_out,
                latest: entry.latest,
            }),
            progress: Progress {
                activates: progress.activates,
                latest: progress.latest,
                position: progress.position,
                survivors: progress.survivors,
                depth: progress.depth,
                records: progress.records,
            },
            terms,
        }
    }
}

#[repr(C)]
struct Offered {
    session: Session,
    answer: Numbers,
}

#[repr(C)]
struct Burst {
    session: Session,
    count: u64,
    answer: Numbers,
}

#[repr(C)]
struct Restored {
    session: Session,
    number: u64,
    record: u64,
}

extern "C" {
    fn rossinhiu_offer_before(
        session: Session,
        journal: *mut u8,
        size: usize,
        kind: u64,
        rank: u64,
        bank: u64,
        cycle: u64,
    ) -> Offered;
    fn rossinhiu_offer_all_before(
        session: Session,
        journal: *mut u8,
        size: usize,
        commands: *const Command,
        listed: usize,
    ) -> Burst;
    fn rossinhiu_earliest_before(session: Session, kind: u64, rank: u64, bank: u64) -> Numbers;
    fn rossinhiu_restore_before(journal: *const u8, size: usize) -> Restored;
}

pub fn offer(
    session: &mut Session,
    journal: &mut [u8],
    kind: u64,
    rank: u64,
    bank: u64,
    cycle: u64,
) -> Numbers {
    let (at, size) = (journal.as_mut_ptr(), journal.len());
    let done = unsafe { rossinhiu_offer_before(*session, at, size, kind, rank, bank, cycle) };
    *session = done.session;
    done.answer
}

pub fn offer_all(
    session: &mut Session,
    journal: &mut [u8],
    commands: &[Command],
) -> (u64, Numbers) {
    let (at, size) = (journal.as_mut_ptr(), journal.len());
    let (from, listed) = (commands.as_ptr(), commands.len());
    let done = unsafe { rossinhiu_offer_all_before(*session, at, size, from, listed) };
    *session = done.session;
    (done.count, done.answer)
}

pub fn earliest(session: &Session, kind: u64, rank: u64, bank: u64) -> Numbers {
    unsafe { rossinhiu_earliest_before(*session, kind, rank, bank) }
}

pub fn restore(journal: &[u8]) -> (Session, u64, u64) {
    let done = unsafe { rossinhiu_restore_before(journal.as_ptr(), journal.len()) };
    (done.session, done.number, done.record)
}
