//! The quick reference's entry and deletion. The reference has them with its plain checks only: here
//! its quick checks stand in front, and what follows is as in the reference. What they answer and
//! write is compared with the reference's own.
use super::*;

/// The quick checks of a table and a store, which stand before an update.
pub fn checks(t: &Table, s: &[u16], count: usize) -> R<Clue> {
    let clue = table_check_fast(t)?;
    extent_check(s.len(), count)?;
    store_check_fast(t, &clue, s, count, 255)?;
    Ok(clue)
}

/// The record that has a label.
fn found_at(s: &[u16], count: usize, label: &[u16]) -> R<usize> {
    let a = lookup(s, count, lab(label, 0));
    if a == count || s[a * REC..a * REC + LAB] != *label {
        Err(Refusal(9, 0))
    } else {
        Ok(a)
    }
}

/// Entry, with the quick checks in front.
pub fn enter(
    t: &Table,
    s: &mut [u16],
    count: usize,
    parent: &[u16],
    name: u8,
    pay: [u16; 2],
    label: &mut Lab,
) -> R<usize> {
    let clue = checks(t, s, count)?;
    if parent.len() != LAB || !shape_ok(lab(parent, 0)) {
        return Err(Refusal(15, 0));
    }
    let a = found_at(s, count, parent)?;
    let d = parent[0] as usize;
    let (row, n) = (
        &t[s[a * REC + 16] as usize],
        clue[s[a * REC + 16] as usize] as u32,
    );
    let Some(k) = row[..n as usize].iter().position(|&x| x == name) else {
        return Err(Refusal(10, 0));
    };
    if d == 15 {
        return Err(Refusal(11, 0));
    }
    let f = s[a * REC + 17] as u32;
    let x = f + (k as u32 + n - f % n) % n;
    if x > 65534 {
        return Err(Refusal(12, 0));
    }
    if (count + 1) * REC > s.len() || count >= MAXN {
        return Err(Refusal(13, 0));
    }
    let e = subtree_end(s, count, a);
    s.copy_within(e * REC..count * REC, (e + 1) * REC);
    label.copy_from_slice(parent);
    label[0] += 1;
    label[d + 1] = x as u16;
    let r = &mut s[e * REC..e * REC + REC];
    r[..LAB].copy_from_slice(label);
    r[16..].copy_from_slice(&[name as u16, 0, pay[0], pay[1]]);
    s[a * REC + 17] = x as u16 + 1;
    Ok(count + 1)
}

/// Deletion, with the quick checks in front.
pub fn delete(t: &Table, s: &mut [u16], count: usize, label: &[u16]) -> R<usize> {
    checks(t, s, count)?;
    if label.len() != LAB || !shape_ok(lab(label, 0)) {
        return Err(Refusal(15, 0));
    }
    if label[0] == 0 {
        return Err(Refusal(14, 0));
    }
    let a = found_at(s, count, label)?;
    let e = subtree_end(s, count, a);
    s.copy_within(e * REC..count * REC, a * REC);
    s[(count - (e - a)) * REC..count * REC].fill(0);
    Ok(count - (e - a))
}
