// SPDX-License-Identifier: BSD-2-Clause OR GPL-2.0-or-later
//! Numbers among siblings: 21.

use crate::tables::Tables;

/// The digits at the end of a topology name.
fn digits(name: &str) -> &str {
    name.trim_start_matches(|c: char| !c.is_ascii_digit())
}

/// The number is that of an earlier sibling, or else too high for the count of siblings.
pub fn number(tables: &Tables, record: u32) -> String {
    let name = tables.name(record);
    let siblings = tables.siblings(record);
    let same_number = |&other: &u32| digits(&tables.name(other)) == digits(&name);
    let earlier = siblings.iter().position(same_number);
    match (earlier, siblings.len()) {
        (Some(at), count) if siblings[at] < record => {
            let child = at + 1;
            format!("{name}, the number of an earlier sibling, child {child} of {count}")
        }
        (_, 1) => format!("{name}, an only child"),
        (_, count) => format!("{name}, of {count} siblings"),
    }
}

#[cfg(test)]
mod tests {
    use super::*;

    /// The last of some children of a cluster; others follow.
    fn told(names: &[&str], others: &[&str]) -> String {
        let mut nodes = vec![(0, "cpus"), (0, "cpu-map"), (1, "cluster0")];
        nodes.extend(names.iter().chain(others).map(|&name| (2, name)));
        nodes.push((0, "cpu@0"));
        number(&Tables::of_nodes(&nodes), 2 + names.len() as u32)
    }

    #[test]
    fn number_too_high() {
        let four = told(&["core0", "core1", "core4"], &["core2"]);
        assert_eq!(four, "core4, of 4 siblings");
        assert_eq!(told(&["core2"], &["core2"]), "core2, of 2 siblings");
        assert_eq!(told(&["core9999"], &["x"]), "core9999, of 2 siblings");
        assert_eq!(told(&["core1"], &[]), "core1, an only child");
    }

    #[test]
    fn number_repeated() {
        let second = told(&["core0", "core1", "core1"], &["core2"]);
        let expected = "core1, the number of an earlier sibling, child 2 of 4";
        assert_eq!(second, expected);
        let first = told(&["core10", "core1", "core0", "core10"], &[]);
        let expected = "core10, the number of an earlier sibling, child 1 of 4";
        assert_eq!(first, expected);
    }
}
