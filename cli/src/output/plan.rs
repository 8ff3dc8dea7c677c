// SPDX-License-Identifier: BSD-2-Clause OR GPL-2.0-or-later
//! The plan of a board as each format has it: nothing where none was asked for.

use super::joined;
use crate::board::Board;
use sunderwath::Plan;

/// The slots of the hash, those under the plan, and how many fewer they are.
fn slots(board: &Board, plan: &Plan) -> [u64; 3] {
    let (before, after) = (board.hash.slots(), plan.slots());
    [before, after, before - after]
}

fn made(board: &Board) -> Option<&Plan> {
    board.planned.as_ref()?.plan.as_ref()
}

/// The last line of a table.
pub fn line(board: &Board) -> String {
    made(board).map_or(String::new(), |plan| {
        let positions = match plan.positions() {
            [] => "none".to_string(),
            positions => joined(positions, " "),
        };
        let [before, after, saved] = slots(board, plan);
        format!(
            "plan: positions {positions}, slots {before} before, {after} after, {saved} saved\n"
        )
    })
}

/// The comment behind that of the hash.
pub fn comment(board: &Board) -> String {
    made(board).map_or(String::new(), |plan| {
        let positions = joined(plan.positions(), ",");
        let [before, after, saved] = slots(board, plan);
        format!("# positions={positions} slots_before={before} slots_after={after} saved={saved}\n")
    })
}

/// The member behind those of the hash, null where there are no MPIDRs.
pub fn member(board: &Board) -> String {
    if board.planned.is_none() {
        return String::new();
    }
    let object = made(board).map_or("null".to_string(), |plan| {
        let positions = joined(plan.positions(), ", ");
        let [before, after, saved] = slots(board, plan);
        format!(
            "{{\"positions\": [{positions}], \"slots_before\": {before}, \
             \"slots_after\": {after}, \"saved\": {saved}}}"
        )
    });
    format!("  \"plan\": {object},\n")
}
