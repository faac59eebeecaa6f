//! The joiner's static library, called as C would call it: each run as a pointer and a number of
//! elements, in the order of document 01's sections.
use crate::ours::{Addresses, Element, Joiner, Lists, Marked, NewLists, Run};
use crate::wire::{Pair, Record, Sections};
use crate::withdraw::{Mark, Rows};

unsafe extern "C" {
    fn jadmirus_join(
        mode: u32,
        required: u32,
        records: *const Record,
        records_len: usize,
        ids: *const u32,
        ids_len: usize,
        offsets: *const u32,
        offsets_len: usize,
        values: *const u64,
        values_len: usize,
        term_lengths: *const u32,
        term_lengths_len: usize,
        term_bytes: *const u8,
        term_bytes_len: usize,
        alive: *const u64,
        alive_len: usize,
        addresses: *const [u32; 2],
        addresses_len: usize,
        out_working: *mut u8,
        out_working_len: usize,
        out_ids: *mut u32,
        out_ids_len: usize,
        out_offsets: *mut u32,
        out_offsets_len: usize,
        out_values: *mut u64,
        out_values_len: usize,
        out_term_lengths: *mut u32,
        out_term_lengths_len: usize,
        out_term_bytes: *mut u8,
        out_term_bytes_len: usize,
        out_map: *mut u32,
        out_map_len: usize,
        // twelve
        out_numbers: *mut u64,
    ) -> u32;

    fn jadmirus_time_order(
        records: *const Record,
        records_len: usize,
        ids: *const u32,
        ids_len: usize,
        offsets: *const u32,
        offsets_len: usize,
        values: *const u64,
        values_len: usize,
        term_lengths: *const u32,
        term_lengths_len: usize,
        term_bytes: *const u8,
        term_bytes_len: usize,
        alive: *const u64,
        alive_len: usize,
        out_addresses: *mut [u32; 2],
        out_addresses_len: usize,
        // one
        out_count: *mut u64,
    ) -> u32;

    fn jadmirus_convert(
        record: *const Record,
        ids: *const u32,
        ids_len: usize,
        offsets: *const u32,
        offsets_len: usize,
        values: *const u64,
        values_len: usize,
        term_lengths: *const u32,
        term_lengths_len: usize,
        term_bytes: *const u8,
        term_bytes_len: usize,
        alive: *const u64,
        alive_len: usize,
        out_ids: *mut u32,
        out_ids_len: usize,
        out_offsets: *mut u32,
        out_offsets_len: usize,
        out_record: *mut Record,
    ) -> u32;

    fn jadmirus_withdraw(
        record: *mut Record,
        alive: *mut u64,
        alive_len: usize,
        row: u32,
        out_changed: *mut [u64; 1],
    ) -> u32;

    fn jadmirus_reinstate(
        record: *mut Record,
        alive: *mut u64,
        alive_len: usize,
        row: u32,
        out_changed: *mut [u64; 1],
    ) -> u32;

    fn jadmirus_withdraw_rows(
        record: *mut Record,
        alive: *mut u64,
        alive_len: usize,
        rows: *const u32,
        rows_len: usize,
        out_changed: *mut [u64; 1],
    ) -> u32;

    fn jadmirus_reinstate_rows(
        record: *mut Record,
        alive: *mut u64,
        alive_len: usize,
        rows: *const u32,
        rows_len: usize,
        out_changed: *mut [u64; 1],
    ) -> u32;

    fn jadmirus_pair(ty: u32, values: *const u64, values_len: usize, out_pair: *mut Pair);
}

pub struct Library;

fn run<T: Element>(run: &mut Run<T>) -> (*mut T, usize) {
    let lent = run.lent();
    (lent.as_mut_ptr(), lent.len())
}

impl Joiner for Library {
    fn join(&mut self, s: &Sections, lists: &mut Lists) -> u32 {
        let working = run(&mut lists.working);
        let ids = run(&mut lists.ids);
        let offsets = run(&mut lists.offsets);
        let values = run(&mut lists.values);
        let term_lengths = run(&mut lists.term_lengths);
        let term_bytes = run(&mut lists.term_bytes);
        let map = run(&mut lists.map);
        let numbers = run(&mut lists.numbers);
        // The pointers are of live runs of those lengths, and no two writable ones overlap.
        unsafe {
            jadmirus_join(
                s.mode,
                s.required,
                s.records.as_ptr(),
                s.records.len(),
                s.ids.as_ptr(),
                s.ids.len(),
                s.offsets.as_ptr(),
                s.offsets.len(),
                s.values.as_ptr(),
                s.values.len(),
                s.term_lengths.as_ptr(),
                s.term_lengths.len(),
                s.term_bytes.as_ptr(),
                s.term_bytes.len(),
                s.alive.as_ptr(),
                s.alive.len(),
                s.addresses.as_ptr(),
                s.addresses.len(),
                working.0,
                working.1,
                ids.0,
                ids.1,
                offsets.0,
                offsets.1,
                values.0,
                values.1,
                term_lengths.0,
                term_lengths.1,
                term_bytes.0,
                term_bytes.1,
                map.0,
                map.1,
                numbers.0,
            )
        }
    }

    fn convert(&mut self, s: &Sections, lists: &mut NewLists) -> u32 {
        let ids = run(&mut lists.ids);
        let offsets = run(&mut lists.offsets);
        let record: *mut Record = lists.record.lent().as_mut_ptr().cast();
        // The same holds here; the record is lent as its elements.
        unsafe {
            jadmirus_convert(
                &s.records[0],
                s.ids.as_ptr(),
                s.ids.len(),
                s.offsets.as_ptr(),
                s.offsets.len(),
                s.values.as_ptr(),
                s.values.len(),
                s.term_lengths.as_ptr(),
                s.term_lengths.len(),
                s.term_bytes.as_ptr(),
                s.term_bytes.len(),
                s.alive.as_ptr(),
                s.alive.len(),
                ids.0,
                ids.1,
                offsets.0,
                offsets.1,
                record,
            )
        }
    }

    fn order(&mut self, s: &Sections, lists: &mut Addresses) -> u32 {
        let addresses = run(&mut lists.addresses);
        let count = run(&mut lists.count);
        // And here.
        unsafe {
            jadmirus_time_order(
                s.records.as_ptr(),
                s.records.len(),
                s.ids.as_ptr(),
                s.ids.len(),
                s.offsets.as_ptr(),
                s.offsets.len(),
                s.values.as_ptr(),
                s.values.len(),
                s.term_lengths.as_ptr(),
                s.term_lengths.len(),
                s.term_bytes.as_ptr(),
                s.term_bytes.len(),
                s.alive.as_ptr(),
                s.alive.len(),
                addresses.0,
                addresses.1,
                count.0,
            )
        }
    }

    fn mark(&mut self, mark: &Mark, lent: &mut Marked) -> u32 {
        let record: *mut Record = lent.record.lent().as_mut_ptr().cast();
        let (words, n) = run(&mut lent.words);
        let changed: *mut [u64; 1] = lent.changed.lent().as_mut_ptr().cast();
        // And here: one number tells how many rows changed.
        unsafe {
            match (mark.alive, &mark.rows) {
                (false, Rows::One(row)) => jadmirus_withdraw(record, words, n, *row, changed),
                (true, Rows::One(row)) => jadmirus_reinstate(record, words, n, *row, changed),
                (false, Rows::Run(rows)) => {
                    jadmirus_withdraw_rows(record, words, n, rows.as_ptr(), rows.len(), changed)
                }
                (true, Rows::Run(rows)) => {
                    jadmirus_reinstate_rows(record, words, n, rows.as_ptr(), rows.len(), changed)
                }
            }
        }
    }

    fn pair(&mut self, ty: u32, words: &[u64], lent: &mut Run<u64>) {
        let pair: *mut Pair = lent.lent().as_mut_ptr().cast();
        // And here.
        unsafe { jadmirus_pair(ty, words.as_ptr(), words.len(), pair) }
    }
}
