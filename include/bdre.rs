//! BD-RE clusters (ISO/IEC 30193:2021, clause 13) written, strictly read and marked, parity of columns, sheets of PSNs, a queue of four
//! benches, how far ahead the modulator reads: safe calls of the functions of libbdre.a. Nothing is asked of the caller. bdre.h lists the numbers that are
//! answered.

/// The version of this interface, for a libbdre.a of the same version; README.md, 'Versions'.
pub const VERSION: &str = "2.3.0";
/// User data: 32 sectors of 2,048 bytes.
pub const USER: usize = 65_536;
/// Side data: 16 flag bytes, then 32 x 18 bytes of user control data.
pub const SIDE: usize = 592;
/// dc words, one for each frame; bit 27 is the frame's first dc-control bit, bit 0 its last.
pub const DC: usize = 496;
/// Image: 496 frames of 1,932 bits, the sync that follows, two zero bits; msb first.
pub const IMAGE: usize = 119_788;
/// Work: the ECC cluster.
pub const WORK: usize = 76_880;
/// The most data bytes of a column.
pub const COLUMN_DATA: usize = 223;
/// The parity bytes of a column.
pub const PARITY: usize = 32;
/// The most PSNs of a sheet.
pub const SHEET: usize = 64;
/// The benches that share a queue.
pub const BENCHES: usize = 4;
/// Row: the bytes of a frame.
pub const ROW: usize = 155;

#[repr(C)]
#[derive(Clone, Copy, Debug, PartialEq, Eq)]
pub struct Answer {
    pub number: u32,
    pub place: usize,
}

#[repr(C)]
#[derive(Clone, Copy, Debug, PartialEq, Eq)]
pub struct ReadAnswer {
    pub number: u32,
    /// 0 unless `number` is 0.
    pub psn: u32,
    pub place: usize,
    /// # of the sync of frame 0, true for ONE; false unless `number` is 0.
    pub first: bool,
}

#[repr(C)]
#[derive(Clone, Copy, Debug, PartialEq, Eq)]
pub struct Marking {
    /// 0: pass. 1: refused. 2: another PSN. 3: other user data. 4: other side data.
    pub verdict: u32,
    /// At 1, the number of the refusal; else 0.
    pub number: u32,
    /// At 2, the image's own PSN; else 0.
    pub psn: u32,
    /// At 1, the place of the refusal; at 3 and 4, the first byte that differs; else 0.
    pub place: usize,
}

#[repr(C)]
#[derive(Clone, Copy, Debug, PartialEq, Eq)]
pub struct Conversion {
    pub number: u32,
    /// 0 unless `number` is 0.
    pub value: u32,
}

#[repr(C)]
#[derive(Clone, Copy, Debug, Default, PartialEq, Eq)]
pub struct Order {
    pub waiting: bool,
    /// Counts where it is waiting; 0 behind a serve of it.
    pub psn: u32,
}

/// Any queue gets an answer. The default is the empty one, bench 0's turn.
#[repr(C)]
#[derive(Clone, Copy, Debug, Default, PartialEq, Eq)]
pub struct Queue {
    /// Of benches 0 to 3.
    pub orders: [Order; BENCHES],
    /// The bench at which the next serve begins; above 3 it stands for 0.
    pub turn: u8,
}

#[repr(C)]
#[derive(Clone, Copy, Debug, PartialEq, Eq)]
pub struct Handled {
    /// As it is behind the record.
    pub queue: Queue,
    pub number: u32,
    /// 0.
    pub place: usize,
    /// The bench served, 255 where none is waiting; 0 for a submit and on refusal.
    pub bench: u8,
    /// Of the order served; else 0.
    pub psn: u32,
}

#[repr(C)]
#[derive(Clone, Copy, Debug, PartialEq, Eq)]
pub struct Ahead {
    pub number: u32,
    /// 0.
    pub place: usize,
    /// 0 unless `number` is 0.
    pub bits: u32,
}

mod c {
    use super::{Ahead, Answer, Conversion, Handled, Marking, Queue, ReadAnswer};

    #[link(name = "bdre", kind = "static")]
    extern "C" {
        pub fn bdre_write_image(
            user: *const u8,
            user_length: usize,
            psn: u32,
            side: *const u8,
            side_length: usize,
            dc: *const u32,
            dc_length: usize,
            first: bool,
            image: *mut u8,
            image_length: usize,
            work: *mut u8,
            work_length: usize,
        ) -> Answer;
        pub fn bdre_read_image(
            image: *const u8,
            image_length: usize,
            user: *mut u8,
            user_length: usize,
            side: *mut u8,
            side_length: usize,
            dc: *mut u32,
            dc_length: usize,
            work: *mut u8,
            work_length: usize,
        ) -> ReadAnswer;
        pub fn bdre_mark_image(
            psn: u32,
            user: *const u8,
            user_length: usize,
            side: *const u8,
            side_length: usize,
            image: *const u8,
            image_length: usize,
            user_read: *mut u8,
            user_read_length: usize,
            side_read: *mut u8,
            side_read_length: usize,
            dc_read: *mut u32,
            dc_read_length: usize,
            work: *mut u8,
            work_length: usize,
        ) -> Marking;
        pub fn bdre_psn_to_paa(psn: u32) -> Conversion;
        pub fn bdre_paa_to_psn(paa: u32) -> Conversion;
        pub fn bdre_psn_to_aun(psn: u32, unit: u32) -> Conversion;
        pub fn bdre_aun_to_psn(aun: u32) -> Conversion;
        pub fn bdre_parity(data: *const u8, data_length: usize, parity: *mut u8, parity_length: usize) -> Answer;
        pub fn bdre_sheet(psns: *const u32, count: usize) -> Answer;
        pub fn bdre_handle_record(queue: Queue, record: *const u8, record_length: usize) -> Handled;
        pub fn bdre_most_needed(row: *const u8, row_length: usize, dc: u32) -> Ahead;
    }
}

// In each call below the pointers and lengths are those of Rust's slices, which are valid, not null, and apart from each other where one is
// `&mut`. That is all that the functions ask.

/// Writes the image of a cluster; `first` is # of the sync of frame 0, true for ONE. 0: `image` holds the image, `work` the ECC cluster.
/// 1 to 8: both are as they were.
pub fn write_image(
    user: &[u8],
    psn: u32,
    side: &[u8],
    dc: &[u32],
    first: bool,
    image: &mut [u8],
    work: &mut [u8],
) -> Answer {
    unsafe {
        c::bdre_write_image(
            user.as_ptr(),
            user.len(),
            psn,
            side.as_ptr(),
            side.len(),
            dc.as_ptr(),
            dc.len(),
            first,
            image.as_mut_ptr(),
            image.len(),
            work.as_mut_ptr(),
            work.len(),
        )
    }
}

/// Reads an image strictly. 0: `user`, `side` and `dc` hold what the image was made of, `work` its ECC cluster. 1 to 5: all are as they
/// were. 9 to 16: `work` is all zeros, the others are as they were.
pub fn read_image(image: &[u8], user: &mut [u8], side: &mut [u8], dc: &mut [u32], work: &mut [u8]) -> ReadAnswer {
    unsafe {
        c::bdre_read_image(
            image.as_ptr(),
            image.len(),
            user.as_mut_ptr(),
            user.len(),
            side.as_mut_ptr(),
            side.len(),
            dc.as_mut_ptr(),
            dc.len(),
            work.as_mut_ptr(),
            work.len(),
        )
    }
}

/// Marks an image: whether it is the image of this PSN, this user data and this side data, under any dc words and either first #. It is read
/// into the four slices lent for that, which are left as `read_image` leaves them; where `user` or `side` has a wrong length (verdict 1,
/// number 1 or 2) they are as they were.
#[allow(clippy::too_many_arguments)]
pub fn mark_image(
    psn: u32,
    user: &[u8],
    side: &[u8],
    image: &[u8],
    user_read: &mut [u8],
    side_read: &mut [u8],
    dc_read: &mut [u32],
    work: &mut [u8],
) -> Marking {
    unsafe {
        c::bdre_mark_image(
            psn,
            user.as_ptr(),
            user.len(),
            side.as_ptr(),
            side.len(),
            image.as_ptr(),
            image.len(),
            user_read.as_mut_ptr(),
            user_read.len(),
            side_read.as_mut_ptr(),
            side_read.len(),
            dc_read.as_mut_ptr(),
            dc_read.len(),
            work.as_mut_ptr(),
            work.len(),
        )
    }
}

/// The groove address (PAA) of the first word of the cluster at a PSN. 0, 6 or 7.
pub fn psn_to_paa(psn: u32) -> Conversion {
    unsafe { c::bdre_psn_to_paa(psn) }
}

/// The PSN of the cluster whose first word has a groove address (PAA). 6: no multiple of 4. 7: its PSN lies in no data zone.
pub fn paa_to_psn(paa: u32) -> Conversion {
    unsafe { c::bdre_paa_to_psn(paa) }
}

/// The address unit number (AUN) of unit 0 to 15 of the cluster at a PSN; the value is 0 for a unit above 15. 0, 6 or 7.
pub fn psn_to_aun(psn: u32, unit: u32) -> Conversion {
    unsafe { c::bdre_psn_to_aun(psn, unit) }
}

/// The PSN of the cluster that holds the address unit with an AUN. 6: the AUN is odd. 7: the PSN lies in no data zone.
pub fn aun_to_psn(aun: u32) -> Conversion {
    unsafe { c::bdre_aun_to_psn(aun) }
}

/// The parity of a column with 1 to 223 data bytes. 0: `parity` holds the only 32 bytes that, behind the data, give the column its roots alpha^0
/// to alpha^31. 22: no data, more than 223 bytes of it, or a parity slice that is not 32 long; the slice is as it was.
pub fn parity(data: &[u8], parity: &mut [u8]) -> Answer {
    unsafe { c::bdre_parity(data.as_ptr(), data.len(), parity.as_mut_ptr(), parity.len()) }
}

/// Judges a sheet of PSNs as a whole. 0: each would pass alone and none occurs twice; no two of its clusters have equal images. Else the first that
/// fits: 23, not 1 to 64 PSNs; 6, no multiple of 32; 7, in no data zone; 24, the PSN of an earlier entry. Place of 6, 7, 24: the lowest entry, from 0.
pub fn sheet(psns: &[u32]) -> Answer {
    unsafe { c::bdre_sheet(psns.as_ptr(), psns.len()) }
}

/// Handles a record of the queue in which four benches wait for one marking machine, an order each. 01h, a bench and four PSN bytes, high byte first,
/// submit an order; 02h serves the first waiting bench from the turn on, going round: its place is free again, and the turn is that of the bench after
/// it. Where none is waiting nothing changes. Else the first that fits, and the queue is as it was: 26, a short, long or unknown record; 27, the bench
/// is above 3; 28, it has a waiting order; 6 or 7 for the PSN.
pub fn handle_record(queue: Queue, record: &[u8]) -> Handled {
    unsafe { c::bdre_handle_record(queue, record.as_ptr(), record.len()) }
}

/// How far ahead the modulator reads in a frame, given by its 155 bytes and its dc word. 0: `bits` is the most that any word of it needs, 2 to 12. A word
/// needs the least number of frame bits, counted from its start in whole pairs, after which no further bits, up to the frame's end, could change its
/// modulation bits; what is before the frame makes no difference. Else the first that fits: 21, the row is not 155 bytes long; 8, the dc word is above
/// 0FFFFFFFh.
pub fn most_needed(row: &[u8], dc: u32) -> Ahead {
    unsafe { c::bdre_most_needed(row.as_ptr(), row.len(), dc) }
}
