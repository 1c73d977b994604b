//! Dates of EDK: YYMMDDHHMMSS, the year 19YY.

/// Whether the bytes are twelve digits that name a moment.
pub fn is_date(digits: &[u8]) -> bool {
    if digits.len() != 12 || !digits.iter().all(u8::is_ascii_digit) {
        return false;
    }
    let two = |place: usize| u32::from(digits[place] - b'0') * 10 + u32::from(digits[place + 1] - b'0');
    let (year, month, day) = (two(0), two(2), two(4));
    (1..=12).contains(&month) && (1..=days(year, month)).contains(&day) && two(6) <= 23 && two(8) <= 59 && two(10) <= 59
}

/// The days of a month; 1900 was no leap year.
fn days(year: u32, month: u32) -> u32 {
    match month {
        2 if (4..100).step_by(4).any(|leap| leap == year) => 29,
        2 => 28,
        4 | 6 | 9 | 11 => 30,
        _ => 31,
    }
}
