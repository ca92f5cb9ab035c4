//! Answers and bytes as text, and images kept for a closer look.

use crate::valid::Refusal;

/// An answer in words; 0 is check's and start's success.
pub fn decoded(answer: u64) -> String {
    match (answer, answer & 0xFF) {
        (0, _) => "accepted".to_string(),
        (_, 1..=27) if answer >> 32 == 0 && answer >> 8 & 0xFF == 0 => {
            let refusal = Refusal::new((answer & 0xFF) as u8, (answer >> 16) as usize);
            format!("{} at {}", refusal.number, refusal.place)
        }
        (_, 0) => {
            let (state, units, words) = split(answer);
            format!("to state {state}, {units} units, {words} words")
        }
        _ => format!("no answer of 01: {answer:#x}"),
    }
}

/// A move's next state, units used and words read (READINGS, "Calls and exports").
pub fn split(answer: u64) -> (u32, u32, u32) {
    ((answer >> 8 & 0xFF) as u32, (answer >> 16 & 0xFF_FFFF) as u32, (answer >> 40) as u32)
}

/// Bytes as lines of hex, 32 to a line.
pub fn hex(bytes: &[u8]) -> String {
    let line = |chunk: &[u8]| chunk.iter().map(|b| format!("{b:02x}")).collect::<String>();
    bytes.chunks(32).map(|chunk| line(chunk) + "\n").collect()
}

/// Writes the image to the temp folder and says where.
pub fn save(image: &[u8], seed: u64, case: u64) -> String {
    let path = std::env::temp_dir().join(format!("harness-{seed}-{case}.hex"));
    match std::fs::write(&path, hex(image)) {
        Ok(()) => path.display().to_string(),
        Err(error) => format!("not saved: {error}"),
    }
}
