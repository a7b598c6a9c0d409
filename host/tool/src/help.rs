//! What a person reads who asks.

use crate::arguments::Page;
use crate::trouble::Trouble;
use std::io::{self, Write};

const ALL: &str = "\
rossinhiu plays a client's command trace into the proved checker, keeps its journal in a file, and reads journals.

  rossinhiu bench [FILE]     plays a trace from standard input; the journal is memory, or kept in FILE
  rossinhiu list [FILE]      writes a journal's records, one to a line
  rossinhiu stretch FILE     writes a client's records as they stand in the journal
  rossinhiu WORD --help      the word's own page
  rossinhiu --help           this page

Exit numbers:
  0  everything asked was accepted or told
  1  something was refused or malformed
  2  wrong arguments
  3  a file or a disk: standard error says what to do
";

const BENCH: &str = "\
rossinhiu bench [FILE] [--records N] [--refusals]

Plays a trace, one request to a line, from standard input, and prints one answer to each.

  FILE           the journal is kept in FILE, one bench to a file; the first line printed is what FILE restores.
                 Every record of an open, an offer, a burst and a back is on the disk before its answer is printed.
                 Without FILE the journal is memory, gone at the end
  --records N    the journal has room for N records, 1 to 16777216; 16777216 if not said
  --refusals     prints only what was refused or malformed, each with the number of its line in the trace
  --             what stands behind it is FILE, whatever it looks like

At the end a summary goes to standard error: lines, accepted, refused by number, and those that were too early by gap.

Requests, and what is printed:
  open RATIO RANKS MODE CLIENT G1 .. G20   open N
  offer KIND RANK BANK CYCLE               offer N CYCLE GAP LOSS
  burst KIND RANK BANK CYCLE ..            burst COUNT N CYCLE GAP LOSS
  ask KIND RANK BANK                       ask N CYCLE GAP LOSS
  back                                     back N
  status                                   status N CLIENT OPENING SURVIVORS DEPTH LAST RECORDS
  stretch                                  stretch LENGTH HEX
  lend BYTES                               lend BYTES
  bytes FROM COUNT                         bytes HEX
  gaps TCK T1 .. T20                       gaps N GAP G1 .. G20
  restore BYTES                            restore N AT     (in memory only)
  poke AT BYTE                             poke AT BYTE     (in memory only)
RATIO is 1, 2 or 4; RANKS 1 or 2; MODE 0 (16-bank) or 2 (four groups of four); G1 to G20 are the gaps in DRAM cycles.
KIND is ACT RD WR PREPB PREAB REFAB REFPB, or 1 to 7 in this order. CYCLE is in controller cycles.
LOSS is in DRAM cycles: what GAP loses to rounding, 0 to RATIO - 1, and 0 where GAP is 0.
A burst is any number of offers in one line: COUNT were accepted, then comes the first refusal, or zeros. What comes behind it is not
looked at.
TCK and T1 to T20 are a data sheet's times in picoseconds, T1 that of gap 1; what is told are the gaps of an opening.
A line that is empty or begins with # asks nothing. Any other line prints ? and changes nothing.

N, the answer's number:
   0 accepted
   1 no session open
   2 command kind not 1 to 7
   3 rank not below the session's ranks
   4 bank above 15, or not 0 with PREAB or REFAB
   5 cycle above 1099511627775
   6 cycle not later than the last survivor's
   7 too early: CYCLE is the earliest, GAP the gap that asks for it
   8 depth is 0: nothing left to take back
   9 no room for a record
  10 ratio not 1, 2, 4; ranks not 1, 2; mode not 0, 2
  11 bad record in a restore: AT is its number
  12 wrong bank state: ACT REFPB need the bank closed, RD WR open, REFAB all of the rank closed
  13 TCK not 1 to 1000000
  14 a time above 4294967295, or a gap above 65535: GAP is the lowest such

GAP: 1 tRC  2 tRRD  3 tRCD  4 tRAS  5 tCCD  6 tCCD_L  7 tCCD_S  8 tRDWR  9 tRTP  10 tWRRD  11 tWRRD_L
     12 tWRRD_S  13 tWRPRE  14 tRPpb  15 tRPab  16 tPPD  17 tRFCab  18 tRFCpb  19 tPBR2PBR  20 tFAW  0 none
";

const LIST: &str = "\
rossinhiu list [FILE] [--client N] [--last N]

Writes a journal's records, one to a line, from FILE or from standard input.

  --client N     only the records of client N, from each of his openings to the next opening; no line 'end'
  --last N       only the last N records, of that client if one is named
  --             what stands behind it is FILE, whatever it looks like

The exit number is 3 if a record is bad.

Lines, NUMBER being the record's:
  NUMBER open CLIENT             an opening
  NUMBER KIND RANK BANK CYCLE    a command: ACT RD WR PREPB PREAB REFAB REFPB
  NUMBER back                    a take-back
  end RECORDS BYTES              the whole records, and the bytes left over: a restore answers 0
  bad NUMBER                     the listing ends at this record: a restore answers 11
A journal holds at most 16777216 records; a restore answers a longer one with 9, and its listing ends at its first bad record, or with bad 16777216.
";

const STRETCH: &str = "\
rossinhiu stretch FILE --client N > STRETCH

Writes the records of client N as they stand in the journal in FILE, 64 bytes each, to standard output: from each of his openings to the
record before the next opening. 'rossinhiu list FILE --client N' writes a line for each of them.

  --             what stands behind it is FILE, whatever it looks like

The exit number is 1 if the client has no record.
";

/// Prints a page.
pub fn print(page: Page) -> Result<u8, Trouble> {
    let text = match page {
        Page::All => ALL,
        Page::Bench => BENCH,
        Page::List => LIST,
        Page::Stretch => STRETCH,
    };
    let written = io::stdout().write_all(text.as_bytes());
    written.map_err(|reason| Trouble::because("the page can't be written", &reason))?;
    Ok(0)
}
