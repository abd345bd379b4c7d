//! Single-bit changes of one PDU of each kind.

use super::draft::{address, each_kind, EXTRA_ADDRESS};
use super::Table;

pub fn groups(t: &mut Table) {
    let mut kinds = each_kind();
    // The destinations of an Address are the same; one kind with them will do.
    kinds[3].1 = address(EXTRA_ADDRESS, 0, &[]);
    for (end, right, name) in kinds {
        t.group(&format!("{name}: as it is, then every single bit changed"));
        t.put(end, &right);
        for bit in 0..8 * right.len() {
            t.put(end, &right.flipped(bit));
        }
    }
    repaired(t);
}

/// Some octets of fields that a changed bit can break.
fn ruled_octets(name: &str) -> Vec<usize> {
    match name {
        "ACK" => vec![3, 13, 15, 25, 27],
        "Address" => vec![3, 21, 23, 35],
        _ => vec![3, 5],
    }
}

fn repaired(t: &mut Table) {
    for (end, right, name) in each_kind() {
        t.group(&format!(
            "{name}: single bits changed in octets with rules, Checksum repaired"
        ));
        for octet in ruled_octets(name) {
            for bit in 8 * octet..8 * octet + 8 {
                t.put(end, &right.flipped(bit).summed());
            }
        }
    }
}
