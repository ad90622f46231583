//! Checksums of entries, which stand in a table behind their texts.

/// The bytes of a checksum.
pub(crate) const SEAL: usize = 8;

// What a table has of an entry: its text, and a checksum of it and of the last bytes before it in the log, so that one that was
// changed or moved shows.
pub(crate) fn sealed(text: &[u8], before: &[u8]) -> Vec<u8> {
    [text, seal(text, before).as_bytes()].concat()
}

// The text of an entry; none if it was changed or moved. What ends a line is one that another program wrote, and is left to the
// member; older tables have a checksum of the text alone.
pub(crate) fn unsealed(stored: &[u8], before: &[u8]) -> Option<Vec<u8>> {
    if stored.last() == Some(&b'\n') {
        return Some(stored.to_vec());
    }
    let (text, found) = stored.split_at(stored.len().checked_sub(SEAL)?);
    [before, b""]
        .iter()
        .any(|before| found == seal(text, before).as_bytes())
        .then(|| text.to_vec())
}

fn seal(text: &[u8], before: &[u8]) -> String {
    let last = &before[before.len().saturating_sub(SEAL)..];
    format!("{:08x}", checksum(last.iter().chain(text)))
}

// CRC-32, as zlib has it.
fn checksum<'a>(bytes: impl Iterator<Item = &'a u8>) -> u32 {
    !bytes.fold(!0, |sum, byte| {
        TABLE[usize::from(sum as u8 ^ byte)] ^ (sum >> 8)
    })
}

// What each last byte of a sum adds to its next value.
const TABLE: [u32; 256] = {
    let (mut table, mut byte) = ([0; 256], 0);
    while byte < 256 {
        let (mut sum, mut bit) = (byte as u32, 0);
        while bit < 8 {
            sum = (sum >> 1) ^ (0xedb8_8320 & (sum & 1).wrapping_neg());
            bit += 1;
        }
        table[byte] = sum;
        byte += 1;
    }
    table
};

#[test]
fn a_changed_or_moved_text_shows() {
    let first = sealed(b"123456789", b"");
    assert_eq!(first, b"123456789cbf43926");
    assert_eq!(unsealed(&first, b""), Some(b"123456789".to_vec()));
    let second = sealed(b"a\n", &first);
    assert_eq!(unsealed(&second, &first), Some(b"a\n".to_vec()));
    assert_eq!(unsealed(&second, &second), None);
    assert_eq!(unsealed(b"123456780cbf43926", b""), None);
    assert_eq!(unsealed(b"123456", b""), None);
    assert_eq!(unsealed(b"another\n", b""), Some(b"another\n".to_vec()));
    // As in an older table.
    assert_eq!(
        unsealed(b"123456789cbf43926", &second),
        Some(b"123456789".to_vec())
    );
}
