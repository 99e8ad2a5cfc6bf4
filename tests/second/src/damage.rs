//! Damage done to a file of fields: to a byte, to a header, or to whole fields.

use peer::files::push_value;
use peer::random::Random;

/// Where the fields of a sound file begin.
fn beginnings(file: &[u8]) -> Vec<usize> {
    let mut all = Vec::new();
    let mut at = 0;
    while at + 3 <= file.len() {
        all.push(at);
        at += 3 + usize::from(file[at + 1]) * 256 + usize::from(file[at + 2]);
    }
    all
}

/// A damaged copy; the file has at least one byte.
pub fn damaged(random: &mut Random, file: &[u8]) -> Vec<u8> {
    let mut copy = file.to_vec();
    for _ in 0..random.pick(&[1, 1, 1, 2, 3]) {
        let all = beginnings(&copy);
        if all.is_empty() {
            return copy;
        }
        match random.below(4) {
            0 => damage_a_byte(random, &mut copy),
            1 => damage_a_header(random, &mut copy, &all),
            2 => damage_a_field(random, &mut copy, &all),
            _ => damage_the_end(random, &mut copy),
        }
    }
    copy
}

fn damage_a_byte(random: &mut Random, file: &mut Vec<u8>) {
    let at = random.below(file.len());
    match random.below(5) {
        0 => file[at] = random.value() as u8,
        1 => file[at] ^= 1 << random.below(8),
        2 => file[at] = file[at].wrapping_add(1),
        3 => file.insert(at, random.value() as u8),
        _ => {
            file.remove(at);
        }
    }
}

fn damage_a_header(random: &mut Random, file: &mut [u8], beginnings: &[usize]) {
    let at = random.pick(beginnings);
    match random.below(4) {
        0 => file[at] = random.below(13) as u8,
        1 => file[at + 1] = random.pick(&[1, 4, 255]),
        2 => file[at + 2] = random.pick(&[0, 1, 2, 3, 4, 5, 255]),
        // The last byte of the body, or of the header if there is none.
        _ => {
            let end = beginnings.iter().copied().find(|&next| next > at).unwrap_or(file.len());
            file[end.min(file.len()) - 1] = random.pick(&[0, 1, 2, 3, 128, 255]);
        }
    }
}

fn damage_a_field(random: &mut Random, file: &mut Vec<u8>, beginnings: &[usize]) {
    let which = random.below(beginnings.len());
    let at = beginnings[which];
    let end = beginnings.get(which + 1).copied().unwrap_or(file.len()).min(file.len());
    let field = file[at..end].to_vec();
    let mut other = Vec::new();
    match random.below(6) {
        0 => drop(file.drain(at..end)),
        1 => insert(file, at, &field),
        2 => {
            // Moved to about where a field further on stands.
            let to = random.pick(&beginnings[which..]).min(file.len() - field.len());
            drop(file.drain(at..end));
            insert(file, to, &field);
        }
        3 => {
            push_value(&mut other, 1, random.below(3) as u32);
            insert(file, at, &other);
        }
        4 => insert(file, at, &[random.between(2, 10) as u8, 0, 0]),
        _ => insert(file, at, &[random.pick(&[4, 6]), 0, 1, random.below(4) as u8]),
    }
}

fn damage_the_end(random: &mut Random, file: &mut Vec<u8>) {
    match random.below(4) {
        0 => file.truncate(random.below(file.len() + 1)),
        1 => {
            let tail = random.between(1, 9);
            file.extend_from_slice(&random.bytes(tail));
        }
        // A tag alone or with a part of its length, and a header without its body.
        2 => file.extend_from_slice(&[random.below(12) as u8, 0][..random.between(1, 2)]),
        _ => file.extend_from_slice(&[random.below(12) as u8, 0, random.pick(&[0, 1, 4, 9])]),
    }
}

fn insert(file: &mut Vec<u8>, at: usize, bytes: &[u8]) {
    file.splice(at..at, bytes.iter().copied());
}
