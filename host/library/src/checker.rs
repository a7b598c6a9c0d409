//! The library's calls for safe Rust. A slice is lent as its address and size, which is all that a call asks of its caller, so each
//! call here is safe for every argument.

use crate::ffi;
use crate::ffi::{Burst, Command, Gaps, Given, Numbers, Part, Session, Sheet, Status, Times};

/// The state with which a bench begins.
pub fn fresh() -> Session {
    unsafe { ffi::rossinhiu_fresh() }
}

/// The gaps of a data sheet's tCK and times, in picoseconds: the number, the gap number beside a 14, the gaps.
pub fn gaps(tck: u64, times: &[u64; 20]) -> Sheet {
    unsafe { ffi::rossinhiu_gaps(tck, Times { time: *times }) }
}

/// Opens a session: document 01's number.
pub fn open(
    session: &mut Session,
    journal: &mut [u8],
    (ratio, ranks, mode): (u64, u64, u64),
    client: u32,
    gaps: &[u16; 20],
) -> u64 {
    let (at, size) = (journal.as_mut_ptr(), journal.len());
    let gaps = Gaps { gap: *gaps };
    let done = unsafe { ffi::rossinhiu_open(*session, at, size, ratio, ranks, mode, client, gaps) };
    *session = done.session;
    done.number
}

/// Offers a command: the number, with the cycle, the gap and what that loses beside it.
pub fn offer(
    session: &mut Session,
    journal: &mut [u8],
    kind: u64,
    rank: u64,
    bank: u64,
    cycle: u64,
) -> Numbers {
    let (at, size) = (journal.as_mut_ptr(), journal.len());
    let done = unsafe { ffi::rossinhiu_offer(*session, at, size, kind, rank, bank, cycle) };
    *session = done.session;
    Numbers {
        number: done.number,
        cycle: done.cycle,
        gap: done.gap,
        loss: done.loss,
    }
}

/// How many of a burst's commands were accepted, and the first refusal, or zeros.
fn ended(session: &mut Session, done: &Burst) -> (u64, Numbers) {
    *session = done.session;
    let refusal = Numbers {
        number: done.number,
        cycle: done.cycle,
        gap: done.gap,
        loss: done.loss,
    };
    (done.count, refusal)
}

/// Offers commands one after the other, up to the first refusal: how many were accepted, and that refusal, or zeros.
pub fn offer_all(
    session: &mut Session,
    journal: &mut [u8],
    commands: &[Command],
) -> (u64, Numbers) {
    let (at, size) = (journal.as_mut_ptr(), journal.len());
    let (from, listed) = (commands.as_ptr(), commands.len());
    let done = unsafe { ffi::rossinhiu_offer_all(*session, at, size, from, listed) };
    ended(session, &done)
}

/// The same of commands in pieces of 64 bytes, in the places of a command record.
pub fn offer_pieces(session: &mut Session, journal: &mut [u8], pieces: &[u8]) -> (u64, Numbers) {
    let (at, size) = (journal.as_mut_ptr(), journal.len());
    let (from, length) = (pieces.as_ptr(), pieces.len());
    let done = unsafe { ffi::rossinhiu_offer_pieces(*session, at, size, from, length) };
    ended(session, &done)
}

/// The earliest cycle of a command: the number, the cycle, the gap and what that loses.
pub fn earliest(session: &Session, kind: u64, rank: u64, bank: u64) -> Numbers {
    unsafe { ffi::rossinhiu_earliest(*session, kind, rank, bank) }
}

/// Takes back the latest surviving command: the number.
pub fn take_back(session: &mut Session, journal: &mut [u8]) -> u64 {
    let (at, size) = (journal.as_mut_ptr(), journal.len());
    let done = unsafe { ffi::rossinhiu_take_back(*session, at, size) };
    *session = done.session;
    done.number
}

/// How the session stands.
pub fn status(session: &Session) -> Status {
    unsafe { ffi::rossinhiu_status(*session) }
}

/// The state that a stored journal gives, with the number and the record beside an 11.
pub fn restore(journal: &[u8]) -> (Session, u64, u64) {
    let done = unsafe { ffi::rossinhiu_restore(journal.as_ptr(), journal.len()) };
    (done.session, done.number, done.record)
}

/// Where the current client's records stand in a journal of so many bytes.
pub fn stretch(session: &Session, size: usize) -> Part {
    unsafe { ffi::rossinhiu_stretch(*session, size) }
}

/// The records in the journal: the next one goes to 64 times as many bytes.
pub fn records(session: &Session) -> u64 {
    session.progress.records
}

/// Lists a part of a stored journal: the bytes written to `out`, and whether the listing has ended.
pub fn list_part(session: &mut Session, part: &[u8], last: bool, out: &mut [u8]) -> (usize, bool) {
    let (from, size) = (part.as_ptr(), part.len());
    let (to, room) = (out.as_mut_ptr(), out.len());
    let done = unsafe { ffi::rossinhiu_list_part(*session, from, size, u64::from(last), to, room) };
    *session = done.session;
    (done.written, done.ended == 1)
}

/// The console's language over a state and a journal: what is lent, and the memory that a line needs.
pub struct Console {
    /// How many bytes of the journal are lent to each call.
    pub lent: usize,
    /// The journal is kept in a file, so `poke` and `restore` are no forms.
    pub in_file: bool,
    numbers: Box<[u64; 4096]>,
    answer: [u8; 512],
}

/// The answer to a line: its text (empty: the line asks nothing), and the part of the journal that belongs behind it as hexadecimal.
#[derive(Clone, Copy, Debug)]
pub struct Said<'a> {
    pub text: &'a [u8],
    pub shown: Part,
}

impl Console {
    /// So much is lent, in memory alone.
    pub fn new(lent: usize) -> Console {
        Console {
            lent,
            in_file: false,
            numbers: Box::new([0; 4096]),
            answer: [0; 512],
        }
    }

    /// Plays one line, which stands before its newline: the request that it asks is performed on the state and the journal. A line
    /// that no newline `ended` was cut short, and is not played.
    ///
    /// ```
    /// use rossinhiu::checker::{fresh, Console};
    ///
    /// let (mut session, mut journal) = (fresh(), vec![0; 640]);
    /// let mut console = Console::new(journal.len());
    /// let said = console.line(&mut session, &mut journal, b"lend 128", true);
    /// assert_eq!((said.text, said.shown.size), (b"lend 128".as_slice(), 0));
    /// assert_eq!(console.lent, 128);
    /// ```
    pub fn line(
        &mut self,
        session: &mut Session,
        journal: &mut [u8],
        line: &[u8],
        ended: bool,
    ) -> Said<'_> {
        let given = Given {
            lent: self.lent,
            ended: u64::from(ended),
            in_file: u64::from(self.in_file),
        };
        let (at, size) = (journal.as_mut_ptr(), journal.len());
        let (text, length) = (line.as_ptr(), line.len());
        let (numbers, out) = (&mut *self.numbers, &mut self.answer);
        let (to, room) = (out.as_mut_ptr(), out.len());
        let done = unsafe {
            ffi::rossinhiu_console(*session, at, size, text, length, given, numbers, to, room)
        };
        *session = done.session;
        self.lent = done.lent;
        Said {
            text: &self.answer[..done.written],
            shown: Part {
                start: done.hex_from,
                size: done.hex_count,
            },
        }
    }
}
