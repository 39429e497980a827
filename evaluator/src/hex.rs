//! Bytes as hexadecimal text.

/// Lower-case digits without spaces.
pub fn write(bytes: &[u8]) -> String {
    bytes.iter().map(|byte| format!("{byte:02x}")).collect()
}

/// The same as a field of a line: `-` stands for no bytes.
pub fn field(bytes: &[u8]) -> String {
    if bytes.is_empty() {
        return "-".to_string();
    }
    write(bytes)
}

/// Reads groups of digits divided by blanks. Each group holds whole bytes.
pub fn read(text: &str) -> Result<Vec<u8>, String> {
    let mut bytes = Vec::new();
    for group in text.split_whitespace() {
        let digits: Option<Vec<u32>> = group.chars().map(|c| c.to_digit(16)).collect();
        let digits = digits.ok_or(format!("`{group}` has a character that is no hex digit"))?;
        if digits.len() % 2 != 0 {
            return Err(format!("`{group}` has an odd number of hex digits"));
        }
        let pairs = digits.chunks(2);
        bytes.extend(pairs.map(|pair| (pair[0] * 16 + pair[1]) as u8));
    }
    Ok(bytes)
}

#[cfg(test)]
mod tests {
    use super::*;

    #[test]
    fn reads_with_and_without_blanks() {
        assert_eq!(read("22 05FF"), Ok(vec![0x22, 0x05, 0xff]));
        assert_eq!(read(""), Ok(vec![]));
        assert!(read("2 2").is_err());
        assert!(read("0x22").is_err());
    }

    #[test]
    fn writes_two_lower_case_digits_for_a_byte() {
        assert_eq!(write(&[0x00, 0x0a, 0xff]), "000aff");
        assert_eq!((write(&[]), field(&[])), (String::new(), "-".to_string()));
        assert_eq!(field(&[0x00]), "00");
    }
}
