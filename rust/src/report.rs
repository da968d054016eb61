//! Texts for people: the report of a record, and the words on a refusal.

use crate::sys;

/// The bytes of the longest report, beside two for each byte of its record, and of the longest words on a refusal.
const REPORT: usize = 2842;
const WORDS: usize = 236;

/// The first bytes of a page, which are ASCII.
fn text(mut page: Vec<u8>, length: usize) -> String {
    page.truncate(length);
    String::from_utf8(page).expect("ASCII")
}

/// The report of a record, as `park` prints one: the figures, the trim class, the mark and the notes, or why there are
/// none and what to do; then the record in hex. It is made of every record, refused or not.
///
/// ```
/// let report = station_air::report(&[]);
/// assert!(report.starts_with("refused 10\ncause: neither altitude nor density altitude\n"));
/// ```
pub fn report(record: &[u8]) -> String {
    let mut page = vec![0; REPORT + 2 * record.len()];
    let mut length = 0;
    // SAFETY: each array goes with its length, and nothing overlaps.
    let status = unsafe {
        sys::station_air_report(
            record.as_ptr(),
            record.len(),
            page.as_mut_ptr(),
            page.len(),
            &mut length,
        )
    };
    assert_eq!(status, 0, "the page has room for every report");
    text(page, length)
}

/// The cause of a refusal and what to do, by its number; none where it has no words.
pub(crate) fn words(number: u32) -> Option<String> {
    let mut page = vec![0; WORDS];
    let mut length = 0;
    // SAFETY: the array goes with its length, and nothing overlaps.
    let status = unsafe {
        sys::station_air_refusal_words(number, page.as_mut_ptr(), page.len(), &mut length)
    };
    (status == 0).then(|| text(page, length))
}
