// SPDX-License-Identifier: BSD-2-Clause OR GPL-2.0-or-later
//! What holds of plans, asked of the library's calls alone.

use crate::ffi;
use std::collections::BTreeMap;

const ACCEPTED: [u32; 2] = [0, 0];
const NO_PLAN: [u32; 2] = [40, 0];

/// Checks our plan for a sound list, and gives it back: it is accepted, has no
/// more positions than the hash has bits, and no position too many.
pub fn of_our_plan(list: &[u64]) -> Vec<u32> {
    let ordinary = ordinary_slots(list);
    let plan = ffi::plan_make(list).expect("a sound list");
    assert_eq!(ffi::plan_check(list, &plan), ACCEPTED, "{list:#x?}");
    let bits = ffi::list_hash(list).bits;
    assert!(plan.len() as u32 <= bits, "{plan:?} of {list:#x?}");
    for at in 0..plan.len() {
        let mut fewer = plan.clone();
        fewer.remove(at);
        let told = ffi::plan_check(list, &fewer);
        assert_eq!(told, NO_PLAN, "{fewer:?} of {plan:?}, {list:#x?}");
    }
    of_plan(list, &plan);
    assert_eq!(ordinary_slots(list), ordinary);
    plan
}

/// Different MPIDRs get different slots, each below two to the positions.
pub fn of_plan(list: &[u64], plan: &[u32]) {
    let mut owners = BTreeMap::new();
    for &mpidr in list {
        let [number, place, slot] = ffi::plan_slot(mpidr, list, plan);
        assert_eq!([number, place], ACCEPTED, "{mpidr:#x} of {list:#x?}");
        let slots: u64 = 1 << plan.len();
        assert!(u64::from(slot) < slots, "slot {slot} of {slots}");
        let owner = *owners.entry(slot).or_insert(mpidr);
        assert_eq!(owner, mpidr, "slot {slot} under {plan:?}");
    }
}

/// The slots of the hash.
fn ordinary_slots(list: &[u64]) -> Vec<u32> {
    let slot = |&mpidr: &u64| ffi::list_slot(mpidr, list).count;
    list.iter().map(slot).collect()
}
