//! Buffers lent to an operation that refuses: every byte has to stay as it was.

use bixorgun::Refusal;

/// Bytes that no operation writes by chance.
pub fn pattern(length: usize) -> Vec<u8> {
    (0..length).map(|at| (at * 167 + at / 251 + 13) as u8).collect()
}

/// Lends a copy of some bytes, and sees that a refusal leaves every one as it was.
pub fn kept(before: &[u8], operation: impl FnOnce(&mut [u8]) -> Option<Refusal>) -> Refusal {
    let mut buffer = before.to_vec();
    let refusal = operation(&mut buffer).expect("a refusal");
    for (at, (before, after)) in before.iter().zip(&buffer).enumerate() {
        assert_eq!(before, after, "byte {at}, {refusal}");
    }
    refusal
}
