//! The library's C functions as they are: include/rossinhiu.h in Rust. The number in the linked names is that of the layout. Every struct
//! is made of numbers alone, so any bytes are a value of it.

/// What a take-back must put back.
#[repr(C)]
#[derive(Clone, Copy, Debug, Default, PartialEq, Eq)]
pub struct Entry {
    pub slot: u32,
    /// Before the command that is taken back.
    pub open_banks: u32,
    pub earlier: u64,
    pub pushed_out: u64,
    pub latest: u64,
}

#[repr(C)]
#[derive(Clone, Copy, Debug, Default, PartialEq, Eq)]
pub struct Opening {
    pub ratio: u8,
    pub ranks: u8,
    pub mode: u8,
    pub edition: u8,
    pub client: u32,
}

/// How far the session has come.
#[repr(C)]
#[derive(Clone, Copy, Debug, Default, PartialEq, Eq)]
pub struct Progress {
    pub activates: [u64; 8],
    pub latest: u64,
    pub position: u64,
    pub survivors: u64,
    pub depth: u64,
    pub records: u64,
    /// A bit for each: bank b of rank r is bit 16 * r + b.
    pub open_banks: u32,
}

/// What the client gave.
#[repr(C)]
#[derive(Clone, Copy, Debug, Default, PartialEq, Eq)]
pub struct Terms {
    pub rounded: [u64; 20],
    pub gaps: [u16; 20],
    pub opening: Opening,
    pub number: u32,
    pub is_open: u8,
}

/// The state.
#[repr(C)]
#[derive(Clone, Copy, Debug, PartialEq, Eq)]
pub struct Session {
    pub last: [u64; 224],
    pub entries: [Entry; 64],
    pub progress: Progress,
    pub terms: Terms,
}

#[repr(C)]
#[derive(Clone, Copy, Debug, PartialEq, Eq)]
pub struct Gaps {
    pub gap: [u16; 20],
}

/// A data sheet's times in picoseconds, gap 1's first.
#[repr(C)]
#[derive(Clone, Copy, Debug, PartialEq, Eq)]
pub struct Times {
    pub time: [u64; 20],
}

/// What a data sheet's times come to.
#[repr(C)]
#[derive(Clone, Copy, Debug, PartialEq, Eq)]
pub struct Sheet {
    pub number: u64,
    pub gap_number: u64,
    pub gaps: Gaps,
}

#[repr(C)]
#[derive(Clone, Copy, Debug)]
pub struct Opened {
    pub session: Session,
    pub number: u64,
}

#[repr(C)]
#[derive(Clone, Copy, Debug)]
pub struct Offered {
    pub session: Session,
    pub number: u64,
    pub cycle: u64,
    pub gap: u64,
    pub loss: u16,
}

/// A command as it is offered.
#[repr(C)]
#[derive(Clone, Copy, Debug, PartialEq, Eq)]
pub struct Command {
    pub kind: u64,
    pub rank: u64,
    pub bank: u64,
    pub cycle: u64,
}

#[repr(C)]
#[derive(Clone, Copy, Debug)]
pub struct Burst {
    pub session: Session,
    pub count: u64,
    pub number: u64,
    pub cycle: u64,
    pub gap: u64,
    pub loss: u16,
}

#[repr(C)]
#[derive(Clone, Copy, Debug, PartialEq, Eq)]
pub struct Numbers {
    pub number: u64,
    pub cycle: u64,
    pub gap: u64,
    pub loss: u16,
}

#[repr(C)]
#[derive(Clone, Copy, Debug)]
pub struct TakenBack {
    pub session: Session,
    pub number: u64,
}

#[repr(C)]
#[derive(Clone, Copy, Debug, PartialEq, Eq)]
pub struct Status {
    pub number: u64,
    pub client: u32,
    pub opening: u32,
    pub survivors: u64,
    pub depth: u64,
    pub last: u64,
    pub records: u64,
}

#[repr(C)]
#[derive(Clone, Copy, Debug)]
pub struct Restored {
    pub session: Session,
    pub number: u64,
    pub record: u64,
}

#[repr(C)]
#[derive(Clone, Copy, Debug, PartialEq, Eq)]
pub struct Part {
    pub start: usize,
    pub size: usize,
}

#[repr(C)]
#[derive(Clone, Copy, Debug)]
pub struct Listed {
    pub session: Session,
    pub written: usize,
    pub ended: u64,
}

#[repr(C)]
#[derive(Clone, Copy, Debug)]
pub struct Given {
    pub lent: usize,
    pub ended: u64,
    pub in_file: u64,
}

#[repr(C)]
#[derive(Clone, Copy, Debug)]
pub struct Played {
    pub session: Session,
    pub lent: usize,
    pub written: usize,
    pub hex_from: usize,
    pub hex_count: usize,
}

extern "C" {
    #[link_name = "rossinhiu_fresh_5"]
    pub fn rossinhiu_fresh() -> Session;
    #[link_name = "rossinhiu_gaps_5"]
    pub fn rossinhiu_gaps(tck: u64, times: Times) -> Sheet;
    #[link_name = "rossinhiu_open_5"]
    pub fn rossinhiu_open(
        session: Session,
        journal: *mut u8,
        size: usize,
        ratio: u64,
        ranks: u64,
        mode: u64,
        client: u32,
        gaps: Gaps,
    ) -> Opened;
    #[link_name = "rossinhiu_offer_5"]
    pub fn rossinhiu_offer(
        session: Session,
        journal: *mut u8,
        size: usize,
        kind: u64,
        rank: u64,
        bank: u64,
        cycle: u64,
    ) -> Offered;
    #[link_name = "rossinhiu_offer_all_5"]
    pub fn rossinhiu_offer_all(
        session: Session,
        journal: *mut u8,
        size: usize,
        commands: *const Command,
        listed: usize,
    ) -> Burst;
    #[link_name = "rossinhiu_offer_pieces_5"]
    pub fn rossinhiu_offer_pieces(
        session: Session,
        journal: *mut u8,
        size: usize,
        pieces: *const u8,
        pieces_size: usize,
    ) -> Burst;
    #[link_name = "rossinhiu_earliest_5"]
    pub fn rossinhiu_earliest(session: Session, kind: u64, rank: u64, bank: u64) -> Numbers;
    #[link_name = "rossinhiu_take_back_5"]
    pub fn rossinhiu_take_back(session: Session, journal: *mut u8, size: usize) -> TakenBack;
    #[link_name = "rossinhiu_status_5"]
    pub fn rossinhiu_status(session: Session) -> Status;
    #[link_name = "rossinhiu_restore_5"]
    pub fn rossinhiu_restore(journal: *const u8, size: usize) -> Restored;
    #[link_name = "rossinhiu_stretch_5"]
    pub fn rossinhiu_stretch(session: Session, size: usize) -> Part;
    #[link_name = "rossinhiu_list_part_5"]
    pub fn rossinhiu_list_part(
        session: Session,
        part: *const u8,
        part_size: usize,
        last: u64,
        out: *mut u8,
        out_size: usize,
    ) -> Listed;
    #[link_name = "rossinhiu_console_5"]
    pub fn rossinhiu_console(
        session: Session,
        journal: *mut u8,
        size: usize,
        line: *const u8,
        line_size: usize,
        given: Given,
        numbers: *mut [u64; 4096],
        out: *mut u8,
        out_size: usize,
    ) -> Played;
}
