// SPDX-License-Identifier: BSD-2-Clause OR GPL-2.0-or-later
//! The calls of include/sunderwath.h, declared once.

extern "C" {
    pub fn sunderwath_list_hash(list: *const u64, n: usize, answer: *mut u32, a: usize) -> u32;

    pub fn sunderwath_list_slot(
        mpidr: u64,
        list: *const u64,
        n: usize,
        answer: *mut u32,
        a: usize,
    ) -> u32;

    pub fn sunderwath_plan_check(
        list: *const u64,
        list_n: usize,
        positions: *const u32,
        positions_n: usize,
        answer: *mut u32,
        answer_n: usize,
    ) -> u32;

    pub fn sunderwath_plan_slot(
        mpidr: u64,
        list: *const u64,
        list_n: usize,
        positions: *const u32,
        positions_n: usize,
        answer: *mut u32,
        answer_n: usize,
    ) -> u32;

    pub fn sunderwath_plan_make(
        list: *const u64,
        list_n: usize,
        answer: *mut u32,
        answer_n: usize,
    ) -> u32;

    pub fn sunderwath_check_tables(
        width: u32,
        nodes: *const u32,
        n: usize,
        props: *const u32,
        p: usize,
        pool: *const u8,
        bytes: usize,
        answer: *mut u32,
        a: usize,
    ) -> u32;

    pub fn sunderwath_find_property(
        props: *const u32,
        p: usize,
        pool: *const u8,
        bytes: usize,
        node: u32,
        name: *const u8,
        name_len: usize,
    ) -> u32;

    pub fn sunderwath_read_tables(
        width: u32,
        nodes: *const u32,
        n: usize,
        props: *const u32,
        p: usize,
        pool: *const u8,
        bytes: usize,
        rows: *mut u32,
        words: usize,
        answer: *mut u32,
        a: usize,
    ) -> u32;

    pub fn sunderwath_read_tables_slots(
        width: u32,
        nodes: *const u32,
        nodes_n: usize,
        props: *const u32,
        props_n: usize,
        pool: *const u8,
        pool_n: usize,
        rows: *mut u32,
        rows_n: usize,
        table: *mut u32,
        table_n: usize,
        answer: *mut u32,
        answer_n: usize,
    ) -> u32;

    pub fn sunderwath_read_flat(
        blob: *const u8,
        blob_n: usize,
        nodes: *mut u32,
        nodes_n: usize,
        props: *mut u32,
        props_n: usize,
        answer: *mut u32,
        answer_n: usize,
    ) -> u32;

    pub fn sunderwath_read_blob(
        width: u32,
        blob: *const u8,
        blob_n: usize,
        rows: *mut u8,
        rows_n: usize,
        answer: *mut u8,
        answer_n: usize,
    ) -> u32;

    pub fn sunderwath_slot(
        mpidr: u64,
        list: *const u8,
        list_n: usize,
        answer: *mut u8,
        answer_n: usize,
    ) -> u32;
}

// C's `char` is signed on some processors and not on others; as bytes the texts are the same.
extern "C" {
    pub fn sunderwath_check_name(number: u32) -> *const u8;
    pub fn sunderwath_strerror(number: u32) -> *const u8;
}
