//! How the library lays out its records: needed only to show what they hold.

/// The writer proxy's.
pub mod proxy {
    use crate::ffi::ProxyRecord;

    /// Ack base, how many are tracked, last number, last time; then the three columns.
    const HEAD: usize = 4;
    const TRACKED: usize = 1;
    const COLUMN: usize = 257;

    /// The tracked numbers, rising, with their time where received.
    pub fn tracked(record: &ProxyRecord) -> impl Iterator<Item = (i64, Option<u64>)> + '_ {
        let words = record.words();
        let many = (words[TRACKED] as usize).min(COLUMN);
        (HEAD..HEAD + many).map(|at| {
            let received = words[at + COLUMN] != 0;
            (words[at] as i64, received.then_some(words[at + 2 * COLUMN]))
        })
    }
}

/// The fragment assembler's.
pub mod assembler {
    use crate::ffi::AssemblerRecord;

    /// Fragment size, place size, mode; then the rows, one a place.
    const HEAD: usize = 3;
    const FRAGMENT_SIZE: usize = 0;
    const PLACE_SIZE: usize = 1;
    /// Number (0: free), size, time, four words of marks.
    const ROW: usize = 7;

    #[inline]
    pub fn fragment_size(record: &AssemblerRecord) -> u64 {
        record.words()[FRAGMENT_SIZE]
    }

    #[inline]
    pub fn place_size(record: &AssemblerRecord) -> usize {
        record.words()[PLACE_SIZE] as usize
    }

    /// The taken places: place, number, size, time.
    pub fn taken(record: &AssemblerRecord) -> impl Iterator<Item = (usize, i64, u64, u64)> + '_ {
        let rows = record.words()[HEAD..].chunks_exact(ROW).enumerate();
        rows.filter(|(_, row)| row[0] != 0)
            .map(|(place, row)| (place, row[0] as i64, row[1], row[2]))
    }
}
