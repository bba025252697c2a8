//! The text of the global CMVN statistics, and the numbers in it.
use super::Re;

fn is_blank(c: u8) -> bool {
    c == 32 || (9..=13).contains(&c)
}

/// A text number, or nothing if it breaks its form.
pub fn text_number(t: &[u8]) -> Option<f64> {
    let mut i = 0;
    let mut neg = false;
    if i < t.len() && (t[i] == b'+' || t[i] == b'-') {
        neg = t[i] == b'-';
        i += 1;
    }
    let (mut whole, mut digits, mut after, mut point) = (0u64, 0u32, 0i64, false);
    while i < t.len() {
        match t[i] {
            b'0'..=b'9' => {
                whole = whole * 10 + u64::from(t[i] - b'0');
                if whole >= 1 << 53 {
                    return None;
                }
                digits += 1;
                if point {
                    after += 1;
                }
            }
            b'.' if !point => point = true,
            _ => break,
        }
        i += 1;
    }
    if digits == 0 {
        return None;
    }
    let mut e = 0i64;
    if i < t.len() {
        if t[i] != b'e' && t[i] != b'E' {
            return None;
        }
        i += 1;
        let mut eneg = false;
        if i < t.len() && (t[i] == b'+' || t[i] == b'-') {
            eneg = t[i] == b'-';
            i += 1;
        }
        if i == t.len() {
            return None;
        }
        while i < t.len() {
            if !t[i].is_ascii_digit() {
                return None;
            }
            e = (e * 10 + i64::from(t[i] - b'0')).min(1_000_000_000);
            i += 1;
        }
        if eneg {
            e = -e;
        }
    }
    let p = e - after;
    if !(-22..=22).contains(&p) {
        return None;
    }
    let mut ten = 1.0f64;
    for _ in 0..p.unsigned_abs() {
        ten *= 10.0; // exact up to 10^22
    }
    let v = if p >= 0 { whole as f64 * ten } else { whole as f64 / ten };
    Some(if neg { -v } else { v })
}

pub(super) fn parse_cmvn(t: &[u8]) -> Re<Vec<f64>> {
    if t.len() > 65_536 || t.iter().any(|&c| c > 127) {
        return Err(7);
    }
    let a = t.iter().position(|&c| !is_blank(c)).ok_or(7u32)?;
    let z = t.iter().rposition(|&c| !is_blank(c)).ok_or(7u32)?;
    if t[a] != b'[' || t[z] != b']' || z == a {
        return Err(7);
    }
    let mut rows: Vec<Vec<f64>> = vec![];
    for line in t[a + 1..z].split(|&c| c == 10) {
        let mut row = vec![];
        for w in line.split(|&c| is_blank(c)).filter(|w| !w.is_empty()) {
            row.push(text_number(w).ok_or(7u32)?);
        }
        if !row.is_empty() {
            rows.push(row);
        }
    }
    if rows.len() != 2 || rows[0].len() != rows[1].len() || !(2..=65).contains(&rows[0].len()) {
        return Err(7);
    }
    let row = rows.swap_remove(0);
    if !(row[row.len() - 1] > 0.0) {
        return Err(7);
    }
    Ok(row)
}

/// The global row of a CMVN text, where it is taken.
pub fn cmvn_row(t: &[u8]) -> Option<Vec<f64>> {
    parse_cmvn(t).ok()
}
