//! The static library's calls, one to one and made safe: slices and references go in, a record can come only from
//! set-up and calls. All that is unsafe in this crate stands here.
//!
//! A call that can be refused answers 0 or document 01's refusal number. What it says beyond that it writes through
//! its references, and only where it answers 0; a list or bytes lent to it keep what lies past the answer. The other
//! modules of this crate put these calls in Rust's own terms.

#![allow(unsafe_code)]

/// As the library exports them: a slice is a pointer and a length, a reference a pointer.
mod library {
    macro_rules! number_calls {
        ($number:ty, $read_number:ident, $write_number:ident, $read:ident, $write:ident, $make:ident, $walk:ident,
         $measure:ident) => {
            extern "C" {
                pub fn $read_number(big: bool, bytes: *const u8, length: usize, number: *mut $number) -> u32;
                pub fn $write_number(big: bool, number: $number, out: *mut u8, room: usize) -> u32;
                pub fn $read(
                    big: bool,
                    bytes: *const u8,
                    length: usize,
                    base: *mut $number,
                    count: *mut u32,
                    words: *mut [u32; 8],
                    taken: *mut usize,
                ) -> u32;
                pub fn $write(
                    big: bool,
                    base: $number,
                    count: u32,
                    words: *const [u32; 8],
                    out: *mut u8,
                    room: usize,
                    wrote: *mut usize,
                ) -> u32;
                pub fn $make(
                    base: $number,
                    list: *const $number,
                    length: usize,
                    low: *mut $number,
                    count: *mut u32,
                    words: *mut [u32; 8],
                ) -> u32;
                pub fn $walk(
                    rising: bool,
                    base: $number,
                    count: u32,
                    words: *const [u32; 8],
                    out: *mut $number,
                    room: usize,
                    listed: *mut usize,
                ) -> u32;
                pub fn $measure(count: u32, length: *mut usize) -> u32;
            }
        };
    }

    number_calls!(
        i64,
        drucenal_read_sequence_number,
        drucenal_write_sequence_number,
        drucenal_read_sequence_number_set,
        drucenal_write_sequence_number_set,
        drucenal_make_sequence_number_set,
        drucenal_walk_sequence_number_set,
        drucenal_measure_sequence_number_set
    );
    number_calls!(
        u32,
        drucenal_read_fragment_number,
        drucenal_write_fragment_number,
        drucenal_read_fragment_number_set,
        drucenal_write_fragment_number_set,
        drucenal_make_fragment_number_set,
        drucenal_walk_fragment_number_set,
        drucenal_measure_fragment_number_set
    );

    extern "C" {
        pub fn drucenal_proxy_set_up(words: *mut u64, length: usize) -> u32;
        pub fn drucenal_proxy_received_changes_add(
            words: *mut u64,
            length: usize,
            number: i64,
            time: u64,
            old: *mut u64,
            new: *mut u64,
        ) -> u32;
        pub fn drucenal_proxy_set_irrelevant_change(
            words: *mut u64,
            length: usize,
            number: i64,
            old: *mut u64,
            new: *mut u64,
        ) -> u32;
        pub fn drucenal_proxy_irrelevant_changes_range(
            words: *mut u64,
            length: usize,
            from: i64,
            until_before: i64,
            old: *mut u64,
            new: *mut u64,
        ) -> u32;
        pub fn drucenal_proxy_irrelevant_changes_up_to(
            words: *mut u64,
            length: usize,
            smallest: i64,
            old: *mut u64,
            new: *mut u64,
        ) -> u32;
        pub fn drucenal_proxy_all_ackable_before(words: *const u64, length: usize) -> u64;
        pub fn drucenal_proxy_should_ignore_change(words: *const u64, length: usize, number: i64) -> bool;
        pub fn drucenal_proxy_change_status(words: *const u64, length: usize, number: i64, time: *mut u64) -> u32;
        pub fn drucenal_proxy_last_received(words: *const u64, length: usize, time: *mut u64) -> u64;
        pub fn drucenal_proxy_missing_seqnums(
            words: *const u64,
            length: usize,
            start: i64,
            end: i64,
            out: *mut i64,
            room: usize,
            listed: *mut usize,
        ) -> u32;
        pub fn drucenal_next_ack_nack_sequence_number(count: *mut i32) -> i32;

        pub fn drucenal_assembler_set_up(
            words: *mut u64,
            length: usize,
            fragment_size: u16,
            reliable: bool,
            place_size: u32,
        ) -> u32;
        pub fn drucenal_assembler_new_datafrag(
            words: *mut u64,
            words_length: usize,
            area: *mut u8,
            area_length: usize,
            time: u64,
            number: i64,
            fragment_size: u16,
            data_size: u32,
            start: u32,
            count: u16,
            payload: *const u8,
            payload_length: usize,
            what: *mut u32,
            of: *mut u64,
            place: *mut usize,
            length: *mut u32,
        ) -> u32;
        pub fn drucenal_assembler_view(
            words: *const u64,
            words_length: usize,
            area: *const u8,
            area_length: usize,
            place: usize,
            length: usize,
            start: *mut usize,
        ) -> usize;
        pub fn drucenal_assembler_garbage_collect_before(
            words: *mut u64,
            length: usize,
            expire_before: u64,
            out: *mut i64,
            room: usize,
            listed: *mut usize,
        ) -> u32;
        pub fn drucenal_assembler_missing_frags_for(
            words: *const u64,
            length: usize,
            number: i64,
            out: *mut u32,
            room: usize,
            listed: *mut usize,
        ) -> u32;
        pub fn drucenal_assembler_is_partially_received(words: *const u64, length: usize, number: i64) -> bool;
        pub fn drucenal_assembler_in_assembly(words: *const u64, length: usize) -> usize;
    }
}

// SAFETY, of every call below: pointer and length are those of one slice or array, and whatever a pointer leads to is
// borrowed for the call. A record is private to its type, which has it from set-up alone and gives it to calls alone:
// the one thing that the library asks of it.

/// A number of one of the two widths, with the calls for it: `i64`, sequence numbers, and `u32`, fragment numbers.
pub trait Number: Copy {
    /// How many bytes it has on the wire.
    const LENGTH: usize;
    /// Zero.
    const ZERO: Self;

    /// One number from the first bytes. Refusal 1.
    fn read_number(big: bool, bytes: &[u8], number: &mut Self) -> u32;

    /// One number to the first bytes. Refusal 3.
    fn write_number(big: bool, number: Self, out: &mut [u8]) -> u32;

    /// A set from the first bytes; `taken`: how many. Refusals 1, 2.
    fn read_set(
        big: bool,
        bytes: &[u8],
        base: &mut Self,
        count: &mut u32,
        words: &mut [u32; 8],
        taken: &mut usize,
    ) -> u32;

    /// A set to the first bytes; `wrote`: how many. Refusals 2, 3.
    fn write_set(big: bool, base: Self, count: u32, words: &[u32; 8], out: &mut [u8], wrote: &mut usize) -> u32;

    /// A set from a base and a strictly rising list. Refusal 15.
    fn make_set(base: Self, list: &[Self], low: &mut Self, count: &mut u32, words: &mut [u32; 8]) -> u32;

    /// A set's members, rising or falling; `listed`: how many. Refusals 2, 4, 3.
    fn walk_set(rising: bool, base: Self, count: u32, words: &[u32; 8], out: &mut [Self], listed: &mut usize) -> u32;

    /// How many bytes a set of so many bits has on the wire. Refusal 2.
    fn measure_set(count: u32, length: &mut usize) -> u32;
}

macro_rules! number {
    ($number:ty, $read_number:ident, $write_number:ident, $read:ident, $write:ident, $make:ident, $walk:ident,
     $measure:ident) => {
        impl Number for $number {
            const LENGTH: usize = size_of::<$number>();
            const ZERO: Self = 0;

            #[inline]
            fn read_number(big: bool, bytes: &[u8], number: &mut Self) -> u32 {
                unsafe { library::$read_number(big, bytes.as_ptr(), bytes.len(), number) }
            }

            #[inline]
            fn write_number(big: bool, number: Self, out: &mut [u8]) -> u32 {
                unsafe { library::$write_number(big, number, out.as_mut_ptr(), out.len()) }
            }

            #[inline]
            fn read_set(
                big: bool,
                bytes: &[u8],
                base: &mut Self,
                count: &mut u32,
                words: &mut [u32; 8],
                taken: &mut usize,
            ) -> u32 {
                unsafe { library::$read(big, bytes.as_ptr(), bytes.len(), base, count, words, taken) }
            }

            #[inline]
            fn write_set(
                big: bool,
                base: Self,
                count: u32,
                words: &[u32; 8],
                out: &mut [u8],
                wrote: &mut usize,
            ) -> u32 {
                unsafe { library::$write(big, base, count, words, out.as_mut_ptr(), out.len(), wrote) }
            }

            #[inline]
            fn make_set(base: Self, list: &[Self], low: &mut Self, count: &mut u32, words: &mut [u32; 8]) -> u32 {
                unsafe { library::$make(base, list.as_ptr(), list.len(), low, count, words) }
            }

            #[inline]
            fn walk_set(
                rising: bool,
                base: Self,
                count: u32,
                words: &[u32; 8],
                out: &mut [Self],
                listed: &mut usize,
            ) -> u32 {
                unsafe { library::$walk(rising, base, count, words, out.as_mut_ptr(), out.len(), listed) }
            }

            #[inline]
            fn measure_set(count: u32, length: &mut usize) -> u32 {
                unsafe { library::$measure(count, length) }
            }
        }
    };
}

number!(
    i64,
    drucenal_read_sequence_number,
    drucenal_write_sequence_number,
    drucenal_read_sequence_number_set,
    drucenal_write_sequence_number_set,
    drucenal_make_sequence_number_set,
    drucenal_walk_sequence_number_set,
    drucenal_measure_sequence_number_set
);
number!(
    u32,
    drucenal_read_fragment_number,
    drucenal_write_fragment_number,
    drucenal_read_fragment_number_set,
    drucenal_write_fragment_number_set,
    drucenal_make_fragment_number_set,
    drucenal_walk_fragment_number_set,
    drucenal_measure_fragment_number_set
);

/// The acknack count that is handed out; the caller's own is moved on where it lies.
#[inline]
pub fn next_ack_nack_sequence_number(count: &mut i32) -> i32 {
    unsafe { library::drucenal_next_ack_nack_sequence_number(count) }
}

/// How many words a proxy's record has.
const PROXY_WORDS: usize = 775;

/// A writer proxy's record. A call that changes it reports a forced step, which gives up what did not come, by its old
/// and new base, both 0 where there was none.
#[derive(Clone)]
pub struct ProxyRecord(Box<[u64; PROXY_WORDS]>);

impl Default for ProxyRecord {
    fn default() -> Self {
        Self::set_up()
    }
}

impl ProxyRecord {
    /// A fresh record.
    pub fn set_up() -> Self {
        let mut words = Box::new([0; PROXY_WORDS]);
        let refused = unsafe { library::drucenal_proxy_set_up(words.as_mut_ptr(), PROXY_WORDS) };
        assert_eq!(refused, 0, "a record of the right length is set up");
        Self(words)
    }

    /// Its words, as the library lays them out.
    #[inline]
    pub(crate) fn words(&self) -> &[u64] {
        &self.0[..]
    }

    /// DATA with this number came at this time. Refusal 4.
    #[inline]
    pub fn received_changes_add(&mut self, number: i64, time: u64, old: &mut u64, new: &mut u64) -> u32 {
        let words = self.0.as_mut_ptr();
        unsafe { library::drucenal_proxy_received_changes_add(words, PROXY_WORDS, number, time, old, new) }
    }

    /// One number is not available. Refusal 4.
    #[inline]
    pub fn set_irrelevant_change(&mut self, number: i64, old: &mut u64, new: &mut u64) -> u32 {
        let words = self.0.as_mut_ptr();
        unsafe { library::drucenal_proxy_set_irrelevant_change(words, PROXY_WORDS, number, old, new) }
    }

    /// No number of the range is available. Refusal 5.
    #[inline]
    pub fn irrelevant_changes_range(&mut self, from: i64, until_before: i64, old: &mut u64, new: &mut u64) -> u32 {
        let words = self.0.as_mut_ptr();
        unsafe { library::drucenal_proxy_irrelevant_changes_range(words, PROXY_WORDS, from, until_before, old, new) }
    }

    /// No number below this one is available. Refusal 5.
    #[inline]
    pub fn irrelevant_changes_up_to(&mut self, smallest: i64, old: &mut u64, new: &mut u64) -> u32 {
        let words = self.0.as_mut_ptr();
        unsafe { library::drucenal_proxy_irrelevant_changes_up_to(words, PROXY_WORDS, smallest, old, new) }
    }

    /// The ack base: what is below it came, is not available, or was given up by a forced step.
    #[inline]
    pub fn all_ackable_before(&self) -> u64 {
        unsafe { library::drucenal_proxy_all_ackable_before(self.0.as_ptr(), PROXY_WORDS) }
    }

    /// Whether the number is below the ack base or tracked.
    #[inline]
    pub fn should_ignore_change(&self, number: i64) -> bool {
        unsafe { library::drucenal_proxy_should_ignore_change(self.0.as_ptr(), PROXY_WORDS, number) }
    }

    /// 0 untracked, 1 not available, 2 received; the time is written for 2 alone.
    #[inline]
    pub fn change_status(&self, number: i64, time: &mut u64) -> u32 {
        unsafe { library::drucenal_proxy_change_status(self.0.as_ptr(), PROXY_WORDS, number, time) }
    }

    /// The last received number, 0 for none; the time is written where there is one.
    #[inline]
    pub fn last_received(&self, time: &mut u64) -> u64 {
        unsafe { library::drucenal_proxy_last_received(self.0.as_ptr(), PROXY_WORDS, time) }
    }

    /// What is missing from `start` through `end`; `listed`: how many. Refusals 4, 3.
    #[inline]
    pub fn missing_seqnums(&self, start: i64, end: i64, out: &mut [i64], listed: &mut usize) -> u32 {
        let (list, room) = (out.as_mut_ptr(), out.len());
        unsafe { library::drucenal_proxy_missing_seqnums(self.0.as_ptr(), PROXY_WORDS, start, end, list, room, listed) }
    }
}

/// How many words an assembler's record has.
const ASSEMBLER_WORDS: usize = 906;

/// A fragment assembler's record; the area is lent with each fragment.
#[derive(Clone)]
pub struct AssemblerRecord(Box<[u64; ASSEMBLER_WORDS]>);

/// A fragment as the library takes it.
#[derive(Debug, Clone, Copy)]
pub struct FragmentCall<'a> {
    /// When it came.
    pub time: u64,
    /// The sample's number.
    pub number: i64,
    /// The fragment size that the message says.
    pub fragment_size: u16,
    /// The sample's length.
    pub data_size: u32,
    /// The first fragment, from 1.
    pub start: u32,
    /// How many fragments.
    pub count: u16,
    /// The fragments' bytes.
    pub payload: &'a [u8],
}

/// What an accepted fragment brought about, as the library says it.
#[derive(Debug, Clone, Copy, PartialEq, Eq)]
pub struct FragmentAnswer {
    /// 0 kept, 1 returned, 2 dropped.
    pub what: u32,
    /// The number returned or dropped.
    pub of: u64,
    /// The place of the sample returned.
    pub place: usize,
    /// Its length.
    pub length: u32,
}

impl AssemblerRecord {
    /// A fresh record. Refusal 14.
    pub fn set_up(fragment_size: u16, reliable: bool, place_size: u32) -> Result<Self, u32> {
        let mut words = Box::new([0; ASSEMBLER_WORDS]);
        let (start, length) = (words.as_mut_ptr(), ASSEMBLER_WORDS);
        match unsafe { library::drucenal_assembler_set_up(start, length, fragment_size, reliable, place_size) } {
            0 => Ok(Self(words)),
            number => Err(number),
        }
    }

    /// Its words, as the library lays them out.
    #[inline]
    pub(crate) fn words(&self) -> &[u64] {
        &self.0[..]
    }

    /// A fragment came. Refusals 13, 4, 6, 7, 8, 9, 10, 11, 12.
    #[inline]
    pub fn new_datafrag(&mut self, area: &mut [u8], call: &FragmentCall, answer: &mut FragmentAnswer) -> u32 {
        unsafe {
            library::drucenal_assembler_new_datafrag(
                self.0.as_mut_ptr(),
                ASSEMBLER_WORDS,
                area.as_mut_ptr(),
                area.len(),
                call.time,
                call.number,
                call.fragment_size,
                call.data_size,
                call.start,
                call.count,
                call.payload.as_ptr(),
                call.payload.len(),
                &mut answer.what,
                &mut answer.of,
                &mut answer.place,
                &mut answer.length,
            )
        }
    }

    /// How much of the area is shown for a place and a length: 0 where it would pass the area's end. `start`: where it
    /// begins.
    #[inline]
    pub fn view(&self, area: &[u8], place: usize, length: usize, start: &mut usize) -> usize {
        let (words, many) = (self.0.as_ptr(), ASSEMBLER_WORDS);
        unsafe { library::drucenal_assembler_view(words, many, area.as_ptr(), area.len(), place, length, start) }
    }

    /// Drops what was last changed before this time; `listed`: how many. Refusal 3.
    #[inline]
    pub fn garbage_collect_before(&mut self, expire_before: u64, out: &mut [i64], listed: &mut usize) -> u32 {
        let (words, list, room) = (self.0.as_mut_ptr(), out.as_mut_ptr(), out.len());
        unsafe {
            library::drucenal_assembler_garbage_collect_before(
                words,
                ASSEMBLER_WORDS,
                expire_before,
                list,
                room,
                listed,
            )
        }
    }

    /// The missing fragments of a sample; `listed`: how many. Refusal 3.
    #[inline]
    pub fn missing_frags_for(&self, number: i64, out: &mut [u32], listed: &mut usize) -> u32 {
        let (words, list, room) = (self.0.as_ptr(), out.as_mut_ptr(), out.len());
        unsafe { library::drucenal_assembler_missing_frags_for(words, ASSEMBLER_WORDS, number, list, room, listed) }
    }

    /// Whether the number is in assembly.
    #[inline]
    pub fn is_partially_received(&self, number: i64) -> bool {
        unsafe { library::drucenal_assembler_is_partially_received(self.0.as_ptr(), ASSEMBLER_WORDS, number) }
    }

    /// How many numbers are in assembly.
    #[inline]
    pub fn in_assembly(&self) -> usize {
        unsafe { library::drucenal_assembler_in_assembly(self.0.as_ptr(), ASSEMBLER_WORDS) }
    }
}
