//! A case as a trace file, the form that the trace program reads.

use crate::ours::HOUSE;
use crate::shrink::Case;

pub const GREATEST_IMAGE: usize = 40_976;
pub const GREATEST_COUNT: usize = 1_024;

/// The bytes of the trace, if the case fits into one.
pub fn encode(case: &Case) -> Option<Vec<u8>> {
    if case.image.length > GREATEST_IMAGE || case.events.len() > GREATEST_COUNT {
        return None;
    }
    let mut trace = vec![1];
    trace.extend((case.image.length as u32).to_be_bytes());
    trace.push(HOUSE);
    trace.extend_from_slice(case.image.bytes.get());
    trace.extend((case.events.len() as u16).to_be_bytes());
    case.events.iter().for_each(|event| trace.extend(event.bytes()));
    Some(trace)
}

/// Hex lines of 32 bytes, each with its offset. A line with the bytes of the one before is left out; one star stands
/// for all of them.
pub fn hex(bytes: &[u8]) -> String {
    let mut text = String::new();
    let mut before: &[u8] = &[];
    let mut starred = false;
    for (number, line) in bytes.chunks(32).enumerate() {
        if line == before {
            text += if starred { "" } else { "*\n" };
            starred = true;
            continue;
        }
        let digits: String = line.iter().map(|byte| format!("{byte:02x}")).collect();
        text += &format!("{:06x} {digits}\n", number * 32);
        (before, starred) = (line, false);
    }
    text
}

#[cfg(test)]
mod tests {
    use super::*;

    #[test]
    fn repeated_lines_are_starred() {
        let mut bytes = vec![0; 160];
        bytes[159] = 0x1f;
        let zeros = "00".repeat(32);
        assert_eq!(hex(&bytes), format!("000000 {zeros}\n*\n000080 {}1f\n", "00".repeat(31)));
    }
}
