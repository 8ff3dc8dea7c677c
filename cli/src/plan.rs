// SPDX-License-Identifier: BSD-2-Clause OR GPL-2.0-or-later
//! What `--plan` asks for: the library's plan for the MPIDRs of a board, and the slot of each under it.

use sunderwath::{plan_make, plan_slot, Plan, Refusal, Row};

/// What is told of a board without MPIDRs.
pub const NOTHING: &str = "a RISC-V board has no MPIDRs: nothing to plan";

#[derive(Clone, Debug, PartialEq, Eq)]
pub struct Planned {
    /// None where there are no MPIDRs.
    pub plan: Option<Plan>,
    /// The slot of each row under the plan.
    pub slots: Vec<Option<u32>>,
}

impl Planned {
    /// For rows with MPIDRs, in their order.
    pub fn of_mpidrs(rows: &[Row]) -> Result<Self, Refusal> {
        let list: Vec<u64> = rows.iter().map(|row| row.reg).collect();
        let plan = plan_make(&list)?;
        let slot = |&mpidr: &u64| plan_slot(mpidr, &list, plan.positions()).map(Some);
        Ok(Planned {
            plan: Some(plan),
            slots: list.iter().map(slot).collect::<Result<_, _>>()?,
        })
    }

    /// For rows without any.
    pub fn of_harts(rows: &[Row]) -> Self {
        Planned {
            plan: None,
            slots: vec![None; rows.len()],
        }
    }
}
