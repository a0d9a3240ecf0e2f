//! Numbers, prices, times and bytes as they stand in a line.

pub fn is_digits(word: &str) -> bool {
    !word.is_empty() && word.bytes().all(|byte| byte.is_ascii_digit())
}

pub fn number(word: &str, largest: u32) -> Option<u32> {
    // `parse` alone would take a sign.
    let number = is_digits(word).then(|| word.parse().ok())?;
    number.filter(|&number: &u32| number <= largest)
}

/// Two hexadecimal digits.
pub fn byte(word: &str) -> Option<u8> {
    let in_form = word.len() == 2 && word.bytes().all(|byte| byte.is_ascii_hexdigit());
    in_form.then(|| u8::from_str_radix(word, 16).ok())?
}

/// Two decimals exactly: `50` could mean baht or satang.
pub fn satang(word: &str) -> Option<u32> {
    let (baht, rest) = word.split_once('.')?;
    if !is_digits(baht) || !is_digits(rest) || rest.len() != 2 {
        return None;
    }
    let baht: u32 = baht.parse().ok()?;
    baht.checked_mul(100)?.checked_add(rest.parse().ok()?)
}

/// Milliseconds since midnight.
pub fn time(word: &str) -> Option<u32> {
    let (clock, milliseconds) = word.split_once('.').unwrap_or((word, "000"));
    let parts: Vec<&str> = clock.split(':').collect();
    let [hours, minutes, seconds] = parts[..] else {
        return None;
    };
    let digits = [(minutes, 2), (seconds, 2), (milliseconds, 3)];
    let in_form = digits
        .iter()
        .all(|(part, length)| is_digits(part) && part.len() == *length);
    if !in_form || !is_digits(hours) || hours.len() < 2 {
        return None;
    }
    let (minutes, seconds): (u32, u32) = (minutes.parse().ok()?, seconds.parse().ok()?);
    if minutes > 59 || seconds > 59 {
        return None;
    }
    let hours: u32 = hours.parse().ok()?;
    let hours = hours.checked_mul(3_600_000)?;
    let rest = minutes * 60_000 + seconds * 1_000 + milliseconds.parse::<u32>().ok()?;
    hours.checked_add(rest)
}
