// SPDX-License-Identifier: BSD-2-Clause OR GPL-2.0-or-later
//! The functions of the crate on a small board, each beside the others.

use sunderwath::{
    read_blob, read_flat, read_tables, read_tables_slots, rows_of_bytes, Board, Hash, Kind,
    Records, Refusal, Row, Rule, Tables, GAP, MAX_CPUS, MAX_TABLE, NODE_WORDS, PROPERTY_WORDS,
    ROW_BYTES, ROW_WORDS,
};

#[path = "support/blob.rs"]
mod blob;
use blob::two_cores;

/// The tables of a blob.
fn flat(blob: &[u8]) -> Result<(Vec<u32>, Vec<u32>), Refusal> {
    let mut nodes = vec![0; NODE_WORDS * 16];
    let mut props = vec![0; PROPERTY_WORDS * 16];
    let records = read_flat(blob, &mut nodes, &mut props)?;
    nodes.truncate(NODE_WORDS * records.nodes);
    props.truncate(PROPERTY_WORDS * records.properties);
    Ok((nodes, props))
}

/// The board and its rows, by tables.
fn by_tables(kind: Kind, blob: &[u8]) -> Result<(Board, Vec<Row>), Refusal> {
    let (nodes, props) = flat(blob)?;
    let tables = Tables {
        nodes: &nodes,
        props: &props,
        pool: blob,
    };
    let mut rows = vec![0; ROW_WORDS * MAX_CPUS];
    let board = read_tables(kind, tables, &mut rows)?;
    Ok((board, board.rows(&rows).collect()))
}

/// The rows, by bytes.
fn by_bytes(kind: Kind, blob: &[u8]) -> Result<Vec<Row>, Refusal> {
    let mut rows = vec![0; ROW_BYTES * MAX_CPUS];
    let count = read_blob(kind, blob, &mut rows)?;
    Ok(rows_of_bytes(kind, &rows).take(count).collect())
}

/// A core of cluster 0 without threads.
fn core(leaf: u32, cpu: u32, reg: u64, core: u32, slot: Option<u32>) -> Row {
    Row {
        leaf,
        cpu,
        reg,
        socket: None,
        clusters: [Some(0), None, None, None],
        core,
        thread: None,
        slot,
    }
}

#[test]
fn rows_of_an_arm_board() {
    let blob = two_cores([0x0, 0x100], [2, 1]);
    let rows = [core(5, 2, 0x100, 0, Some(1)), core(6, 1, 0x0, 1, Some(0))];
    let hash = Hash {
        mask: 0x100,
        shifts: [0, 8, 15, 31],
        bits: 1,
    };
    for kind in [Kind::Arm32, Kind::Arm64] {
        let (board, found) = by_tables(kind, &blob).unwrap();
        assert_eq!(found, rows);
        assert_eq!(by_bytes(kind, &blob).unwrap(), rows);
        let count = 2;
        assert_eq!(board, Board { kind, count, hash });
    }
}

#[test]
fn rows_of_a_riscv_board() {
    let blob = two_cores([u32::MAX, 7], [2, 1]);
    let rows = [core(5, 2, 7, 0, None), core(6, 1, 0xFFFF_FFFF, 1, None)];
    let (board, found) = by_tables(Kind::Riscv, &blob).unwrap();
    assert_eq!(found, rows);
    assert_eq!(by_bytes(Kind::Riscv, &blob).unwrap(), rows);
    assert_eq!((board.count, board.hash.mask, board.hash.bits), (2, 0, 0));
    // As an ARM board it has bits outside the affinity bits.
    let refusal = by_bytes(Kind::Arm64, &blob).unwrap_err();
    assert_eq!(refusal.rule, Rule::CpuReg);
    assert_eq!((refusal.place, refusal.property), (1, Some(3)));
    assert_eq!(by_tables(Kind::Arm64, &blob), Err(refusal));
}

#[test]
fn records_of_a_blob() {
    let blob = two_cores([0, 1], [1, 2]);
    let (mut nodes, mut props) = ([0; 7 * NODE_WORDS], [0; 10 * PROPERTY_WORDS]);
    let records = Records {
        nodes: 7,
        properties: 10,
    };
    assert_eq!(read_flat(&blob, &mut nodes, &mut props), Ok(records));
    let short = read_flat(&blob, &mut nodes, &mut props[1..]).unwrap_err();
    assert_eq!(short.rule, Rule::TableSpace);
    let broken = read_flat(&blob[..blob.len() - 1], &mut nodes, &mut props).unwrap_err();
    assert_eq!((broken.rule, broken.place), (Rule::BlobHeader, 0));
    assert_eq!(broken.property, None);
}

#[test]
fn table_of_slots() {
    let blob = two_cores([0x0, 0x11], [2, 1]);
    let (nodes, props) = flat(&blob).unwrap();
    let tables = Tables {
        nodes: &nodes,
        props: &props,
        pool: &blob,
    };
    let mut rows = [0; 2 * ROW_WORDS];
    let mut table = [7; MAX_TABLE];
    let board = read_tables_slots(Kind::Arm64, tables, &mut rows, &mut table).unwrap();
    let entries = 1 << board.hash.bits;
    let mut expected = vec![GAP; entries];
    for (number, row) in (0..).zip(board.rows(&rows)) {
        expected[row.slot.unwrap() as usize] = number;
    }
    assert_eq!(table[..entries], expected);
    assert!(table[entries..].iter().all(|&entry| entry == 7));
    let short = read_tables_slots(Kind::Arm64, tables, &mut rows, &mut []).unwrap_err();
    assert_eq!(short.rule, Rule::SlotTableSpace);
}

/// A refusal leaves the rows as they were.
#[test]
fn rows_stay() {
    let blob = two_cores([0, 1], [1, 2]);
    let mut rows = [0xA5; 2 * ROW_BYTES - 1];
    let refusal = read_blob(Kind::Arm64, &blob, &mut rows).unwrap_err();
    assert_eq!(refusal.rule, Rule::RowSpace);
    assert!(rows.iter().all(|&byte| byte == 0xA5));
}

/// A repeated MPIDR of a list shares its slot, and both forms of a list have the same slots.
#[test]
fn slots_of_lists() {
    let list = [0x8000, 0x1, 0x1, 0xFF_00FF_FFFF];
    let bytes: Vec<u8> = list
        .iter()
        .flat_map(|mpidr: &u64| mpidr.to_le_bytes())
        .collect();
    for mpidr in list {
        let slot = sunderwath::list_slot(mpidr, &list);
        assert!(slot.is_ok());
        assert_eq!(sunderwath::slot(mpidr, &bytes), slot);
    }
    let unknown = sunderwath::slot(2, &bytes).unwrap_err();
    assert_eq!(unknown.rule, Rule::ListUnknown);
    let length = sunderwath::slot(1, &bytes[1..]).unwrap_err();
    assert_eq!(length.rule, Rule::ListLength);
    let hash = sunderwath::list_hash(&list).unwrap();
    assert_eq!(hash.mask, 0xFF_00FF_FFFF);
    let wrong = sunderwath::list_hash(&[0, 1 << 24]).unwrap_err();
    assert_eq!((wrong.rule, wrong.place), (Rule::ListMpidr, 1));
}

/// A refusal is an error as programs with the standard library pass them on.
#[cfg(feature = "std")]
#[test]
fn refusal_is_an_error() {
    let boxed: Box<dyn std::error::Error> = Box::new(sunderwath::list_hash(&[]).unwrap_err());
    assert!(boxed.to_string().starts_with("28 (list_length): "));
}
