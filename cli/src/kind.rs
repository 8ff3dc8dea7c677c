// SPDX-License-Identifier: BSD-2-Clause OR GPL-2.0-or-later
//! The kinds of boards in words.

use sunderwath::Kind;

pub trait Wording {
    /// The name that `--board` takes.
    fn name(self) -> &'static str;
    /// What the number in `reg` is called in output.
    fn id_name(self) -> &'static str;
    /// The number in `reg` as the field writes it: MPIDRs in hexadecimal, hart ids in decimal.
    fn id_text(self, reg: u64) -> String;
}

impl Wording for Kind {
    fn name(self) -> &'static str {
        match self {
            Kind::Arm32 => "arm32",
            Kind::Arm64 => "arm64",
            Kind::Riscv => "riscv",
        }
    }

    fn id_name(self) -> &'static str {
        if self.has_mpidrs() {
            "mpidr"
        } else {
            "hart"
        }
    }

    fn id_text(self, reg: u64) -> String {
        if self.has_mpidrs() {
            format!("{reg:#x}")
        } else {
            reg.to_string()
        }
    }
}

#[cfg(test)]
mod tests {
    use super::*;

    #[test]
    fn ids() {
        let highest = u64::from(u32::MAX);
        assert_eq!(Kind::Riscv.id_text(highest), "4294967295");
        assert_eq!(Kind::Arm64.id_text(highest), "0xffffffff");
        assert_eq!(Kind::ALL.map(Kind::id_name), ["mpidr", "mpidr", "hart"]);
    }
}
