//! Numbers as people write them: `4096`, `0x1000` or `1000h`, and sizes as `16M`.

/// Why a text is no number.
///
/// ```
/// use mitrophel::trace::numbers::NotANumber;
///
/// assert_eq!(NotANumber::Form.expected(), "a number such as 4096, 0x1000 or 1000h");
/// ```
#[derive(Clone, Copy, Debug, PartialEq, Eq)]
pub enum NotANumber {
    /// It has not the form of one.
    Form,
    /// It needs more than 32 bits.
    Large,
}

impl NotANumber {
    /// What to say about it, after the text itself.
    pub fn expected(self) -> &'static str {
        match self {
            NotANumber::Form => "a number such as 4096, 0x1000 or 1000h",
            NotANumber::Large => "a number of at most 32 bits (FFFFFFFFh)",
        }
    }
}

/// A number of at most 32 bits: decimal, `0x..` or `..h`.
///
/// # Errors
///
/// Why it is none.
///
/// ```
/// use mitrophel::trace::numbers::{number, NotANumber};
///
/// assert_eq!([number("4096"), number("0x1000"), number("1000h")], [Ok(4096); 3]);
/// assert_eq!(number("BEEF"), Err(NotANumber::Form));
/// assert_eq!(number("100000000h"), Err(NotANumber::Large));
/// ```
pub fn number(text: &str) -> Result<u32, NotANumber> {
    let (digits, radix) = split(text);
    if digits.is_empty() || !digits.chars().all(|digit| digit.is_digit(radix)) {
        return Err(NotANumber::Form);
    }
    u32::from_str_radix(digits, radix).map_err(|_| NotANumber::Large)
}

fn split(text: &str) -> (&str, u32) {
    let last = text.char_indices().next_back();
    if let Some(digits) = text.strip_prefix("0x").or_else(|| text.strip_prefix("0X")) {
        (digits, 16)
    } else if let Some((at, 'h' | 'H')) = last {
        (&text[..at], 16)
    } else {
        (text, 10)
    }
}

/// Two hexadecimal digits.
pub(super) fn hexadecimal_byte(text: &str) -> Option<u8> {
    let good = text.len() == 2 && text.bytes().all(|digit| digit.is_ascii_hexdigit());
    u8::from_str_radix(text, 16).ok().filter(|_| good)
}

/// A number of bytes: a number, or a decimal number and K, M or G (powers of 1024).
///
/// ```
/// use mitrophel::trace::numbers;
///
/// assert_eq!(numbers::size("16M"), Some(16 << 20));
/// assert_eq!(numbers::size("16MB"), None);
/// ```
pub fn size(text: &str) -> Option<u64> {
    let (at, unit) = text.char_indices().next_back()?;
    let shift = match unit.to_ascii_uppercase() {
        'K' => 10,
        'M' => 20,
        'G' => 30,
        _ => return number(text).ok().map(u64::from),
    };
    let digits = &text[..at];
    let plain = !digits.is_empty() && digits.chars().all(|digit| digit.is_ascii_digit());
    let count: u32 = digits.parse().ok().filter(|_| plain)?;
    Some(u64::from(count) << shift)
}

/// A size in the largest unit that leaves no remainder: `512 KiB`, `8 MiB`.
///
/// ```
/// use mitrophel::trace::numbers;
///
/// assert_eq!(numbers::bytes(1 << 19), "512 KiB");
/// ```
pub fn bytes(count: u64) -> String {
    match count {
        0 => "0".to_string(),
        _ if count.is_multiple_of(1 << 30) => format!("{} GiB", count >> 30),
        _ if count.is_multiple_of(1 << 20) => format!("{} MiB", count >> 20),
        _ if count.is_multiple_of(1 << 10) => format!("{} KiB", count >> 10),
        _ => format!("{} bytes", grouped(count)),
    }
}

/// A decimal number in groups of three: `65,535`.
///
/// ```
/// use mitrophel::trace::numbers;
///
/// assert_eq!(numbers::grouped(65_535), "65,535");
/// ```
pub fn grouped(count: u64) -> String {
    let digits = count.to_string();
    let mut text = String::with_capacity(digits.len() + digits.len() / 3);
    for (at, digit) in digits.chars().enumerate() {
        if at != 0 && (digits.len() - at).is_multiple_of(3) {
            text.push(',');
        }
        text.push(digit);
    }
    text
}

/// `1 record`, `2 records`: a count with its noun.
///
/// ```
/// use mitrophel::trace::numbers;
///
/// assert_eq!(numbers::counted(1024, "step"), "1,024 steps");
/// ```
pub fn counted(count: u64, noun: &str) -> String {
    let ending = if count == 1 { "" } else { "s" };
    format!("{} {noun}{ending}", grouped(count))
}

/// What a record of this width stores or gave: as many digits as the width has, more if it needs them.
///
/// ```
/// use mitrophel::trace::numbers;
///
/// assert_eq!(numbers::data(0x21, 4), "00000021h");
/// ```
pub fn data(value: u32, width: u8) -> String {
    let digits = match width {
        1 | 2 | 4 => 2 * usize::from(width),
        _ => 1,
    };
    format!("{value:0digits$X}h")
}

#[cfg(test)]
mod tests {
    use super::*;

    #[test]
    fn numbers_are_decimal_0x_or_h() {
        for (text, value) in
            [("0", 0), ("4096", 4096), ("0x1000", 4096), ("1000h", 4096), ("A0000h", 0xA0000), ("0XffH", 0)]
        {
            let expected = if text == "0XffH" { Err(NotANumber::Form) } else { Ok(value) };
            assert_eq!(number(text), expected, "{text}");
        }
        assert_eq!(number("FFFFFFFFh"), Ok(u32::MAX));
        assert_eq!(number("4294967295"), Ok(u32::MAX));
        for text in ["100000000h", "0x100000000", "4294967296", "99999999999999999999"] {
            assert_eq!(number(text), Err(NotANumber::Large), "{text}");
        }
        for text in ["", "h", "0x", "12A", "1 2", "+1", "-1", "0x+1", "١", "éh", "h1"] {
            assert_eq!(number(text), Err(NotANumber::Form), "{text}");
        }
    }

    #[test]
    fn sizes_take_k_m_and_g() {
        assert_eq!(size("16M"), Some(16 << 20));
        assert_eq!(size("512k"), Some(512 << 10));
        assert_eq!(size("1G"), Some(1 << 30));
        assert_eq!(size("800000h"), Some(8 << 20));
        for text in ["", "M", "1.5M", "-8M", "+8M", "8MB", "99999999999M", "é"] {
            assert_eq!(size(text), None, "{text}");
        }
    }

    #[test]
    fn counts_are_grouped() {
        assert_eq!(grouped(0), "0");
        assert_eq!(grouped(999), "999");
        assert_eq!(grouped(65_535), "65,535");
        assert_eq!(grouped(1_234_567), "1,234,567");
        assert_eq!(bytes(512 << 10), "512 KiB");
        assert_eq!(bytes(8 << 20), "8 MiB");
        assert_eq!(bytes(1000), "1,000 bytes");
        assert_eq!(counted(1, "record"), "1 record");
        assert_eq!(counted(0, "record"), "0 records");
    }

    #[test]
    fn data_has_the_widths_digits() {
        assert_eq!(data(7, 4), "00000007h");
        assert_eq!(data(7, 1), "07h");
        assert_eq!(data(0x1FF, 1), "1FFh");
        assert_eq!(data(7, 3), "7h");
    }
}
