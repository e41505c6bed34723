//! Bytes as hexadecimal digits; `-` stands for none.

/// The bytes of a word, or what is wrong with it.
pub fn read(word: &str) -> Result<Vec<u8>, &'static str> {
    if word == "-" {
        return Ok(Vec::new());
    }
    let digits: Option<Vec<u8>> = word.chars().map(digit).collect();
    let digits = digits.ok_or("is not hexadecimal")?;
    if digits.len() % 2 == 1 {
        return Err("has an odd number of digits");
    }
    Ok(digits.chunks(2).map(|two| two[0] << 4 | two[1]).collect())
}

fn digit(c: char) -> Option<u8> {
    c.to_digit(16).map(|d| d as u8)
}

pub fn show(bytes: &[u8]) -> String {
    if bytes.is_empty() {
        return "-".to_string();
    }
    bytes.iter().map(|byte| format!("{byte:02x}")).collect()
}

#[cfg(test)]
mod tests {
    use super::*;

    #[test]
    fn either_case_is_read_and_lower_case_shown() {
        assert_eq!(read("00fFA9"), Ok(vec![0, 255, 0xa9]));
        assert_eq!(show(&[0, 255, 0xa9]), "00ffa9");
    }

    #[test]
    fn a_dash_is_no_bytes() {
        assert_eq!(read("-"), Ok(vec![]));
        assert_eq!(show(&[]), "-");
    }

    #[test]
    fn bad_words_are_told() {
        assert_eq!(read("abc"), Err("has an odd number of digits"));
        assert_eq!(read("0x"), Err("is not hexadecimal"));
        assert_eq!(read("--"), Err("is not hexadecimal"));
    }
}
