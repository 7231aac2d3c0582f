//! Bytes as text: hexadecimal, a byte repeated more than four times as `ff*56`, parts joined by dots, `-` for none.

pub fn show(bytes: &[u8]) -> String {
    if bytes.is_empty() {
        return "-".to_string();
    }
    let mut parts: Vec<String> = Vec::new();
    let mut plain = String::new();
    let mut rest = bytes;
    while let Some(&first) = rest.first() {
        let run = rest.iter().take_while(|&&b| b == first).count();
        if run > 4 {
            if !plain.is_empty() {
                parts.push(std::mem::take(&mut plain));
            }
            parts.push(format!("{first:02x}*{run}"));
        } else {
            plain.push_str(&format!("{first:02x}").repeat(run));
        }
        rest = &rest[run..];
    }
    if !plain.is_empty() {
        parts.push(plain);
    }
    parts.join(".")
}

pub fn parse(text: &str) -> Result<Vec<u8>, String> {
    let mut bytes = Vec::new();
    if text == "-" {
        return Ok(bytes);
    }
    for part in text.split('.') {
        let (digits, times) = match part.split_once('*') {
            Some((digits, times)) => (digits, times.parse::<usize>().map_err(|e| format!("{part}: {e}"))?),
            None => (part, 1),
        };
        let once = digits_of(digits)?;
        if times != 1 && once.len() != 1 {
            return Err(format!("{part}: only a single byte is repeated"));
        }
        if bytes.len() + once.len() * times > 1 << 25 {
            return Err(format!("{part}: too long"));
        }
        for _ in 0..times {
            bytes.extend_from_slice(&once);
        }
    }
    Ok(bytes)
}

fn digits_of(text: &str) -> Result<Vec<u8>, String> {
    if text.is_empty() || text.len() % 2 != 0 || !text.is_ascii() {
        return Err(format!("{text:?} is not pairs of hexadecimal digits"));
    }
    (0..text.len() / 2)
        .map(|i| u8::from_str_radix(&text[2 * i..2 * i + 2], 16).map_err(|e| format!("{text}: {e}")))
        .collect()
}
