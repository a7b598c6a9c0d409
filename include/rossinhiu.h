/*
 * Rossinhiu: a proved checker for a bench that plays a command trace into a memory module.
 *
 * Link crates/capi/out/libcapi.a (made by `rt lib --cpu x86-64` in crates/capi; x86-64 Linux). It wants memcpy, memmove and memset of the C library
 * and nothing else: no heap, no file, no thread, no global value. So calls with different states and journals may run at once.
 * Header and archive belong together: an archive whose structs are laid out otherwise does not link.
 *
 * A player keeps two things: a state (struct rossinhiu_session, by value) and a journal (memory that it lends to each call).
 * A call takes the state and hands back the next one; the old value stays what it was.
 *
 *     struct rossinhiu_offered r = rossinhiu_offer(state, journal, size, ROSSINHIU_ACT, 0, 3, 100);
 *     if (r.number == ROSSINHIU_ACCEPTED) { put r.session's last record on the disk; state = r.session; act; }
 *
 * Whenever an opening, an offer or a take-back is accepted, it has written one record of 64 bytes at journal + 64 * (records before
 * the call), and changed no other byte. Whenever it is refused, it hands back the same state and has changed no byte. A state and its
 * journal belong together: lend the same bytes each time, at any address, and as many as you like.
 *
 * No call can fail otherwise: any state value, any bytes and any numbers have an answer, nothing is read or written outside of what
 * is lent, and every call ends. The meaning of the answers is promised for states that the calls reach from rossinhiu_fresh or
 * rossinhiu_restore. The caller owes only what C asks of any function: a pointer with a size points to that many bytes that may be
 * read (and, if the pointer is not const, written), and they are nobody else's during the call. Where the size is 0 the pointer
 * may be anything, NULL too.
 *
 * The state is 4,168 bytes, so give a thread that calls at least 64 KiB of stack.
 */
#ifndef ROSSINHIU_H
#define ROSSINHIU_H

#include <stddef.h>
#include <stdint.h>

#ifdef __cplusplus
extern "C" {
#endif

/* The number of the layout of the structs below. Each function is exported under its name and this number. */
#define ROSSINHIU_AS(name) __asm__(name "_5")

/* Bytes of a record, and the most records that a journal can have. */
#define ROSSINHIU_RECORD_SIZE 64
#define ROSSINHIU_MAX_RECORDS 16777216

/* The last cycle that a command may be offered at. */
#define ROSSINHIU_LAST_CYCLE UINT64_C(1099511627775)

/* Command kinds. */
#define ROSSINHIU_ACT 1
#define ROSSINHIU_RD 2
#define ROSSINHIU_WR 3
#define ROSSINHIU_PREPB 4
#define ROSSINHIU_PREAB 5
#define ROSSINHIU_REFAB 6
#define ROSSINHIU_REFPB 7

/* What `number` says. */
#define ROSSINHIU_ACCEPTED 0        /* accepted; a question answered; a journal restored */
#define ROSSINHIU_NO_SESSION 1      /* no session open */
#define ROSSINHIU_BAD_KIND 2        /* command kind not 1 to 7 */
#define ROSSINHIU_BAD_RANK 3        /* rank not below the session's ranks */
#define ROSSINHIU_BAD_BANK 4        /* bank above 15, or not 0 with PREAB or REFAB */
#define ROSSINHIU_PAST_LAST_CYCLE 5 /* cycle above 1,099,511,627,775 */
#define ROSSINHIU_NOT_LATER 6       /* cycle not later than the last surviving command's */
#define ROSSINHIU_TOO_EARLY 7       /* too early: a gap asks for a later cycle */
#define ROSSINHIU_NO_DEPTH 8        /* nothing can be taken back: depth is 0 */
#define ROSSINHIU_NO_ROOM 9         /* no room for a record, or a stored journal too long */
#define ROSSINHIU_BAD_SETTINGS 10   /* ratio not 1, 2, 4; ranks not 1, 2; mode not 0, 2 */
#define ROSSINHIU_BAD_RECORD 11     /* bad record in a restore */
#define ROSSINHIU_WRONG_STATE 12    /* wrong bank state: open or closed, as the bank is now */
#define ROSSINHIU_BAD_TCK 13        /* tCK not 1 to 1,000,000 ps */
#define ROSSINHIU_BAD_TIME 14       /* a time above 4,294,967,295 ps, or a gap above 65,535 */

/*
 * The state. Copy it, compare nothing in it and change nothing in it: its fields are named here so that its size and layout are
 * known, and for a debugger. A stamp is a controller cycle plus 1, and 0 where there is none.
 */
struct rossinhiu_entry {
    uint32_t slot;
    uint32_t open_banks; /* before the command that is taken back */
    uint64_t earlier;
    uint64_t pushed_out;
    uint64_t latest;
};

struct rossinhiu_opening {
    uint8_t ratio;
    uint8_t ranks;
    uint8_t mode;
    uint8_t edition; /* of the rules: the newest in a live opening, in a restored one what its record names */
    uint32_t client;
};

/* How far the session has come. */
struct rossinhiu_progress {
    uint64_t activates[8];
    uint64_t latest;
    uint64_t position;
    uint64_t survivors;
    uint64_t depth;
    uint64_t records; /* the records in the journal: the next one goes to byte 64 * records */
    uint32_t open_banks; /* a bit for each: bank b of rank r is bit 16 * r + b */
};

/* What the client gave. */
struct rossinhiu_terms {
    uint64_t rounded[20];
    uint16_t gaps[20]; /* as they were given, in DRAM cycles */
    struct rossinhiu_opening opening;
    uint32_t number;
    uint8_t is_open;
};

struct rossinhiu_session {
    uint64_t last[224];
    struct rossinhiu_entry entries[64];
    struct rossinhiu_progress progress;
    struct rossinhiu_terms terms;
};

/* The twenty gaps of an opening in DRAM cycles: gap[0] is gap 1, tRC; gap[19] is gap 20, tFAW. */
struct rossinhiu_gaps {
    uint16_t gap[20];
};

/* The state with which a bench begins: no session is open and the journal has no record. Not all bytes 0 by promise: call this. */
struct rossinhiu_session rossinhiu_fresh(void) ROSSINHIU_AS("rossinhiu_fresh");

/*
 * The gaps of an opening, from a data sheet's tCK and times. All are whole numbers of picoseconds: nanoseconds times 1,000. Each gap
 * is the fewest DRAM cycles that last at least its time; a time of 0 gives 0. No state is asked for, and nothing is written.
 * number: 13 if `tck` is not 1 to 1,000,000; else 14 if a time is above 4,294,967,295 or its gap above 65,535; else 0. With 14,
 * `gap_number` is the lowest number of a gap at fault; with 0 and 13 it is 0. With 0, `gaps` go into rossinhiu_open as they are. With
 * 13 and 14 all of them are 0 and MUST not be opened with: no gap would hold a command back.
 * In C++ say `struct rossinhiu_gaps` for the type: the call has the same name.
 */
struct rossinhiu_times {
    uint64_t time[20]; /* in picoseconds: time[0] is gap 1's, tRC; time[19] is gap 20's, tFAW */
};
struct rossinhiu_sheet {
    uint64_t number;
    uint64_t gap_number;
    struct rossinhiu_gaps gaps;
};
/* One name for both is allowed, but g++ can warn of it. */
#pragma GCC diagnostic push
#pragma GCC diagnostic ignored "-Wshadow"
struct rossinhiu_sheet rossinhiu_gaps(uint64_t tck, struct rossinhiu_times times) ROSSINHIU_AS("rossinhiu_gaps");
#pragma GCC diagnostic pop

/*
 * Opens a session for a client and writes its record. `ratio` is 1, 2 or 4 DRAM cycles to a controller cycle, `ranks` 1 or 2, `mode`
 * 0 (16 banks) or 2 (four groups of four). A session that was open ends; a refused opening leaves it in force. Mode 1, eight groups of
 * two, stands in old journals alone: a session restored with it goes on, and none is opened. The session is of the newest edition of
 * the rules, 2, which byte 48 of its record says; one that is restored goes on under the edition that its own record names. All banks
 * are closed behind an opening.
 * number: 10, 9, or 0.
 */
struct rossinhiu_opened {
    struct rossinhiu_session session; /* go on from it: with 0 once its record is on the disk; with any other number it is the old one */
    uint64_t number;
};
struct rossinhiu_opened rossinhiu_open(struct rossinhiu_session session, uint8_t *journal, size_t size, uint64_t ratio,
                                       uint64_t ranks, uint64_t mode, uint32_t client, struct rossinhiu_gaps gaps)
    ROSSINHIU_AS("rossinhiu_open");

/*
 * Offers a command at a controller cycle, and writes its record if it is accepted. `bank` is 0 with PREAB and REFAB.
 * From edition 2 on ACT and REFPB need a closed bank, RD and WR an open one, REFAB all of its rank closed: 12 else. ACT opens its bank,
 * PREPB closes its own, PREAB all of the rank; precharging a closed bank is allowed.
 * number: the first that holds of 1, 2, 3, 4, 5, 6, 12, 7, 9, in this order; else 0. With 0, `cycle` is the cycle offered, `gap` and
 * `loss` are 0. With 7, `cycle` is the earliest legal cycle, `gap` the number of the gap that asks for it, and `loss` the DRAM cycles
 * that this gap loses to rounding: rounded gap times ratio, less the gap; 0 to ratio - 1. With any other number all three are 0.
 */
struct rossinhiu_offered {
    struct rossinhiu_session session; /* go on from it: with 0 once its record is on the disk; with any other number it is the old one */
    uint64_t number;
    uint64_t cycle;
    uint64_t gap;
    uint16_t loss;
};
struct rossinhiu_offered rossinhiu_offer(struct rossinhiu_session session, uint8_t *journal, size_t size, uint64_t kind,
                                         uint64_t rank, uint64_t bank, uint64_t cycle)
    ROSSINHIU_AS("rossinhiu_offer");

/*
 * Offers `listed` commands one after the other, up to the first refusal, as single calls of rossinhiu_offer would: the same state, the
 * same bytes. The state is copied for the call, and not for each command.
 * `count` says how many were accepted; their records stand one behind the other from 64 * (records before the call) on. number,
 * cycle, gap and loss are the first refusal whole, as rossinhiu_offer gives it; all four are 0 if none was refused. Commands behind the
 * refused one are not looked at. With `listed` 0 nothing is asked: 0, even with no session open.
 *
 * After a refusal in the middle: what was accepted stays accepted. Put its records on the disk, go on from the session handed back, and
 * call again with commands[count] corrected, or without it: the commands behind it were not offered yet. With 9 there is no room for
 * more. To undo what was accepted take it back, command by command; at most 64 in a row can be.
 *
 * On the disk: a power cut can lose one sector that was written and keep a later one. So write and sync the records of one aligned
 * sector of 512 bytes, eight at most, before those of the next; else a hole may stand before records that a restore then never reaches.
 */
struct rossinhiu_command {
    uint64_t kind;
    uint64_t rank;
    uint64_t bank;
    uint64_t cycle;
};
struct rossinhiu_burst {
    struct rossinhiu_session session; /* go on from it, once the records of the accepted commands are on the disk */
    uint64_t count;
    uint64_t number;
    uint64_t cycle;
    uint64_t gap;
    uint16_t loss;
};
struct rossinhiu_burst rossinhiu_offer_all(struct rossinhiu_session session, uint8_t *journal, size_t size,
                                           const struct rossinhiu_command *commands, size_t listed)
    ROSSINHIU_AS("rossinhiu_offer_all");

/*
 * The same, of commands that lie in pieces of 64 bytes, in the places of a command record: kind in byte 1, rank in 2, bank in 3, cycle
 * in 8 to 15, the lowest first. No other byte is read, and up to 63 bytes left over are ignored. So records of another journal can be
 * offered as they stand.
 */
struct rossinhiu_burst rossinhiu_offer_pieces(struct rossinhiu_session session, uint8_t *journal, size_t size, const uint8_t *pieces,
                                              size_t pieces_size) ROSSINHIU_AS("rossinhiu_offer_pieces");

/*
 * Asks for the earliest cycle at which a command may stand, by the gaps alone: whether its bank is open is not looked at. Nothing is
 * written.
 * number: the first that holds of 1, 2, 3, 4; else 0. With 0, `cycle` is that cycle, and `gap` the gap that asks for it, or 0 where no
 * gap asks for more than the cycle after the last surviving command; `loss` is what that gap loses to rounding, as with a refused
 * offer, and 0 with gap 0. The cycle may be above ROSSINHIU_LAST_CYCLE; it can't be offered then.
 */
struct rossinhiu_answer {
    uint64_t number;
    uint64_t cycle;
    uint64_t gap;
    uint16_t loss;
};
struct rossinhiu_answer rossinhiu_earliest(struct rossinhiu_session session, uint64_t kind, uint64_t rank, uint64_t bank)
    ROSSINHIU_AS("rossinhiu_earliest");

/*
 * Takes back the latest surviving command, and writes a record of that. At most 64 can be taken back in a row.
 * number: the first that holds of 1, 8, 9; else 0.
 */
struct rossinhiu_taken_back {
    struct rossinhiu_session session; /* go on from it: with 0 once its record is on the disk; with any other number it is the old one */
    uint64_t number;
};
struct rossinhiu_taken_back rossinhiu_take_back(struct rossinhiu_session session, uint8_t *journal, size_t size)
    ROSSINHIU_AS("rossinhiu_take_back");

/*
 * Says how the session stands: client number, record number of its opening, surviving commands, how many can be taken back, the last
 * surviving command's cycle (0 where there is none), records in the journal.
 * number: 1 with zeros, or 0. (With no session open read session.progress.records for the records in the journal.)
 */
struct rossinhiu_standing {
    uint64_t number;
    uint32_t client;
    uint32_t opening;
    uint64_t survivors;
    uint64_t depth;
    uint64_t last;
    uint64_t records;
};
struct rossinhiu_standing rossinhiu_status(struct rossinhiu_session session) ROSSINHIU_AS("rossinhiu_status");

/*
 * The state that a stored journal's bytes give: all its whole records; up to 63 bytes left over are ignored.
 * Hand in exactly the bytes that were stored, and no byte behind them: records left behind an earlier cut can be good records, and
 * they would be somebody else's timings.
 * number: 9 if there are more than 16,777,216 whole records; else 11 if a record is bad, with the lowest bad record's number in
 * `record`; else 0. With 9 and 11 the state is the fresh one: nothing of the journal is in force. An opening of an edition that this
 * archive does not know is a bad record: a later one wrote it.
 */
struct rossinhiu_restored {
    struct rossinhiu_session session; /* with 0 go on from it, once the bytes are on the disk; with 9 and 11 it is the fresh state, and
                                         what it writes would go over the journal: keep the journal, and don't go on from it */
    uint64_t number;
    uint64_t record;
};
struct rossinhiu_restored rossinhiu_restore(const uint8_t *journal, size_t size)
    ROSSINHIU_AS("rossinhiu_restore");

/*
 * Where the current client's records stand in a journal of `lent` bytes: from its opening to the last record, `size` bytes from
 * journal + start on. Both are 0 if no session is open or the journal lent is too short to hold the records. start + size never
 * goes past the journal.
 */
struct rossinhiu_part {
    size_t start;
    size_t size;
};
struct rossinhiu_part rossinhiu_stretch(struct rossinhiu_session session, size_t lent)
    ROSSINHIU_AS("rossinhiu_stretch");

/*
 * Lists a part of a stored journal: one record (64 bytes), or as many as you like. Begin with rossinhiu_fresh, and hand in the
 * session that the part before gave. `last` is 0 if another part follows. Every part but the last has whole records; the last may
 * have bytes left over, and may be empty. `out` has at least 64 bytes more than the part: with fewer nothing is listed and
 * `written` is 0.
 * `written` bytes of text stand at the front of `out`, a line for each record; behind the last part the line `end`. `ended` is 1 once
 * the line `bad` or the line `end` is written: hand in no part after that.
 */
struct rossinhiu_listed {
    struct rossinhiu_session session; /* for the next part. Don't offer from it: a listing stops before a bad record, and a restore of
                                         all the bytes would have refused them */
    size_t written;
    uint64_t ended;
};
struct rossinhiu_listed rossinhiu_list_part(struct rossinhiu_session session, const uint8_t *part, size_t part_size, uint64_t last,
                                            uint8_t *out, size_t out_size)
    ROSSINHIU_AS("rossinhiu_list_part");

/*
 * Plays one line of the text language of the program `bench` (`bench --help` prints its forms): the request that it asks is performed,
 * and the answer comes back as text. `line` is what stands before the newline; calls see the first `given.lent` bytes of the journal,
 * `restore`, `poke` and `bytes` all of it: begin with `lent` at its size. `numbers` is memory for the call's own use, whatever it holds.
 * `written` bytes of text stand at the front of `out`, without a newline: 0 if the line asks nothing (blank, or a comment), else at
 * most 512, so lend 512; with fewer nothing may be written. Behind the text belong `hex_count` bytes of the journal from `hex_from` on,
 * as lower-case hexadecimal; they never go past the journal.
 * If session.progress.records has grown, the line was accepted, or some of a burst was, and the records were written one behind the
 * other from 64 times the count before on.
 */
#define ROSSINHIU_ANSWER_SIZE 512
#define ROSSINHIU_NUMBERS 4096
struct rossinhiu_given {
    size_t lent;
    uint64_t ended;   /* 0 if no newline came: the line was cut short, and is not played */
    uint64_t in_file; /* 0 if the journal is memory alone; else `poke` and `restore` are no forms */
};
struct rossinhiu_played {
    struct rossinhiu_session session; /* go on from it: where its records have grown, once the record is on the disk */
    size_t lent;                      /* what is lent from now on: the line may be `lend` */
    size_t written;
    size_t hex_from;
    size_t hex_count;
};
struct rossinhiu_played rossinhiu_console(struct rossinhiu_session session, uint8_t *journal, size_t size, const uint8_t *line,
                                          size_t line_size, struct rossinhiu_given given, uint64_t numbers[ROSSINHIU_NUMBERS],
                                          uint8_t *out, size_t out_size) ROSSINHIU_AS("rossinhiu_console");

#ifdef __cplusplus
}
#endif

/*
 * An empty vector's pointer may be NULL, which the calls themselves don't take. So in front of each call that takes a pointer stands a
 * macro that hands on another one in its place.
 */
static inline uint8_t *rossinhiu_lent(uint8_t *bytes) {
    static uint8_t nothing;
    return bytes == NULL ? &nothing : bytes;
}

static inline const uint8_t *rossinhiu_shown(const uint8_t *bytes) {
    static const uint8_t nothing = 0;
    return bytes == NULL ? &nothing : bytes;
}

static inline const struct rossinhiu_command *rossinhiu_commands(const struct rossinhiu_command *commands) {
    static const struct rossinhiu_command none = {0, 0, 0, 0};
    return commands == NULL ? &none : commands;
}

#define rossinhiu_open(session, journal, ...) rossinhiu_open(session, rossinhiu_lent(journal), __VA_ARGS__)
#define rossinhiu_offer(session, journal, ...) rossinhiu_offer(session, rossinhiu_lent(journal), __VA_ARGS__)
#define rossinhiu_offer_all(session, journal, size, commands, listed) \
    rossinhiu_offer_all(session, rossinhiu_lent(journal), size, rossinhiu_commands(commands), listed)
#define rossinhiu_offer_pieces(session, journal, size, pieces, pieces_size) \
    rossinhiu_offer_pieces(session, rossinhiu_lent(journal), size, rossinhiu_shown(pieces), pieces_size)
#define rossinhiu_take_back(session, journal, size) rossinhiu_take_back(session, rossinhiu_lent(journal), size)
#define rossinhiu_restore(journal, size) rossinhiu_restore(rossinhiu_shown(journal), size)
#define rossinhiu_list_part(session, part, part_size, last, out, out_size) \
    rossinhiu_list_part(session, rossinhiu_shown(part), part_size, last, rossinhiu_lent(out), out_size)
#define rossinhiu_console(session, journal, size, line, line_size, given, numbers, out, out_size)                     \
    rossinhiu_console(session, rossinhiu_lent(journal), size, rossinhiu_shown(line), line_size, given, numbers, rossinhiu_lent(out), \
                      out_size)

#endif
