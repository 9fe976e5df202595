//! Texts as hexadecimal digits, two a byte.

const NO_DIGIT: u8 = 255;

static DIGITS: [u8; 256] = digits();

const fn digits() -> [u8; 256] {
    let mut table = [NO_DIGIT; 256];
    let mut value = 0;
    while value < 16 {
        table[b"0123456789abcdef"[value] as usize] = value as u8;
        table[b"0123456789ABCDEF"[value] as usize] = value as u8;
        value += 1;
    }
    table
}

/// Puts the bytes that `line` spells into `text`, or says why it spells none.
pub fn decode(line: &[u8], text: &mut Vec<u8>) -> Result<(), &'static str> {
    text.clear();
    if line.len() % 2 == 1 {
        return Err("an odd number of hex digits");
    }
    for pair in line.chunks_exact(2) {
        let (high, low) = (DIGITS[pair[0] as usize], DIGITS[pair[1] as usize]);
        if high == NO_DIGIT || low == NO_DIGIT {
            return Err("a character that is no hex digit");
        }
        text.push(high << 4 | low);
    }
    Ok(())
}
