// SPDX-License-Identifier: BSD-2-Clause OR GPL-2.0-or-later
//! Names that may have been meant as another one.

/// How many letters have to be put in, taken out or changed.
fn distance(from: &[u8], to: &[u8]) -> usize {
    let mut row: Vec<usize> = (0..=to.len()).collect();
    for (at, letter) in from.iter().enumerate() {
        let mut corner = row[0];
        row[0] = at + 1;
        for (column, other) in to.iter().enumerate() {
            let changed = corner + usize::from(letter != other);
            corner = row[column + 1];
            row[column + 1] = changed.min(corner + 1).min(row[column] + 1);
        }
    }
    row[to.len()]
}

/// Whether there is no letter next to a part of a name.
fn ends_word(letter: Option<char>) -> bool {
    letter.map_or(false, |letter| !letter.is_alphabetic())
}

/// Whether a name begins or ends with the wanted one, or differs in few letters.
pub fn near(wanted: &str, name: &str) -> bool {
    let name = name.to_lowercase();
    let behind = name
        .strip_prefix(wanted)
        .and_then(|rest| rest.chars().next());
    let before = name
        .strip_suffix(wanted)
        .and_then(|rest| rest.chars().last());
    let few = (wanted.len() / 4).max(1);
    ends_word(behind) || ends_word(before) || distance(wanted.as_bytes(), name.as_bytes()) <= few
}

#[cfg(test)]
mod tests {
    use super::*;

    #[test]
    fn distances() {
        let between = |from: &str, to: &str| distance(from.as_bytes(), to.as_bytes());
        assert_eq!(between("reg", "reg"), 0);
        assert_eq!(between("", "reg"), 3);
        assert_eq!(between("device_type", "device-types"), 2);
        assert_eq!(between("phandle", "handel"), 3);
    }

    #[test]
    fn near_names() {
        assert!(near("cpu", "cpu0") && near("cpu", "CPU") && near("cpu", "cpus"));
        assert!(near("phandle", "linux,phandle") && near("phandle", "phandl"));
        assert!(near("device_type", "device-type") && near("device_type", "devicetype"));
        assert!(near("#address-cells", "address-cell") && near("#size-cells", "#size-cell"));
        assert!(near("reg", "Reg") && near("reg", "reg-names"));
    }

    #[test]
    fn other_names() {
        assert!(!near("reg", "regulator-name") && !near("reg", "compatible"));
        assert!(!near("#size-cells", "#address-cells"));
        assert!(!near("device_type", "compatible") && !near("phandle", "reg"));
    }
}
