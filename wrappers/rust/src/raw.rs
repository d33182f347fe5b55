//! The states of the library for C and its calls, as in abt.h. What each call asks of its pointers (they aren't NULL, lead to memory of
//! their type, and don't overlap) holds for Rust's references; so each use of a call here is safe.
use std::ffi::c_char;

/// States of so many words, whose content is no part of the interface. They begin as zeros, which is the state of no kind.
macro_rules! states {
    ($($name:ident: $words:literal,)*) => {$(
        #[repr(C)]
        #[derive(Clone, Debug)]
        pub struct $name([u64; $words]);

        impl $name {
            pub const fn zeroed() -> Self {
                $name([0; $words])
            }
        }
    )*};
}

states! {
    Gcra: 4,
    Bucket: 6,
    Policer: 4,
    Shaper: 4,
    Source: 9,
    Port: 3,
    Connection: 3,
    Table: 7685,
}

#[repr(C)]
#[derive(Clone, Copy, Debug, Default, PartialEq, Eq)]
pub struct Rm {
    pub kind: u32,
    pub seq: u32,
    pub vpi: u16,
    pub vci: u16,
    pub floor: u16,
    pub ask: u16,
}

#[repr(C)]
#[derive(Clone, Copy, Debug, Default, PartialEq, Eq)]
pub struct Reservation {
    pub newest: u32,
    pub is_open: u32,
    pub floor: u16,
    pub ask: u16,
}

#[repr(C)]
#[derive(Clone, Copy, Debug, Default, PartialEq, Eq)]
pub struct Arrival {
    pub at: u64,
    pub vpi: u16,
    pub vci: u16,
}

extern "C" {
    pub fn abt_version() -> *const c_char;
    pub fn abt_rate_units(code: u16) -> u64;
    pub fn abt_rate_canonical(code: u16) -> u16;
    pub fn abt_rate_spacing(code: u16) -> u64;
    pub fn abt_rate_at_most(units: u64) -> u16;
    pub fn abt_raw_rate_at_least(units: u64, code: *mut u16) -> u32;
    pub fn abt_raw_crc10(payload: *const u8, length: usize, check: *mut u16) -> u32;
    pub fn abt_raw_rm_read(cell: *const u8, length: usize, rm: *mut Rm) -> u32;
    pub fn abt_raw_rm_write(rm: *const Rm, cell: *mut u8, length: usize) -> u32;
    pub fn abt_raw_rm_turn(rm: *const Rm, yes: *mut Rm) -> u32;
    pub fn abt_raw_gcra_init(gcra: *mut Gcra, tau: u64) -> u32;
    pub fn abt_raw_gcra_check(gcra: *mut Gcra, at: u64, spacing: u64) -> u32;
    pub fn abt_raw_bucket_init(bucket: *mut Bucket, tau: u64) -> u32;
    pub fn abt_raw_bucket_check(bucket: *mut Bucket, at: u64, spacing: u64) -> u32;
    pub fn abt_raw_policer_init(policer: *mut Policer, tau: u64) -> u32;
    pub fn abt_raw_policer_arrive(policer: *mut Policer, at: u64, held: u16) -> u32;
    pub fn abt_raw_policer_arrive_burst(policer: *mut Policer, held: u16, at: *const u64, count: usize, verdicts: *mut u8, room: usize, judged: *mut usize) -> u32;
    pub fn abt_raw_shaper_init(shaper: *mut Shaper, not_before: u64) -> u32;
    pub fn abt_raw_shaper_emit(shaper: *mut Shaper, now: u64, rate: u16, next: *mut u64) -> u32;
    pub fn abt_raw_shaper_next(shaper: *const Shaper, next: *mut u64) -> u32;
    pub fn abt_raw_source_init(source: *mut Source, vpi: u16, vci: u16) -> u32;
    pub fn abt_raw_source_start(source: *mut Source, record: *const u8, length: usize, now: u64) -> u32;
    pub fn abt_raw_source_ask(source: *mut Source, rate: u16, record: *mut u8, length: usize, rm: *mut Rm) -> u32;
    pub fn abt_raw_source_wrote(source: *mut Source, became: u32, rm: *mut Rm) -> u32;
    pub fn abt_raw_source_again(source: *const Source, rm: *mut Rm) -> u32;
    pub fn abt_raw_source_answer(source: *mut Source, rm: *const Rm) -> u32;
    pub fn abt_raw_source_emit(source: *mut Source, now: u64, next: *mut u64) -> u32;
    pub fn abt_raw_source_crash(source: *mut Source) -> u32;
    pub fn abt_raw_source_rate(source: *const Source, rate: *mut u16) -> u32;
    pub fn abt_raw_source_phase(source: *const Source, phase: *mut u32) -> u32;
    pub fn abt_raw_source_last(source: *const Source, number: *mut u32) -> u32;
    pub fn abt_raw_source_next(source: *const Source, next: *mut u64) -> u32;
    pub fn abt_raw_port_init(port: *mut Port, capacity: u64) -> u32;
    pub fn abt_raw_connection_init(connection: *mut Connection, vpi: u16, vci: u16) -> u32;
    pub fn abt_raw_port_request(port: *mut Port, connection: *mut Connection, rm: *const Rm, answer: *mut Rm) -> u32;
    pub fn abt_raw_port_answer(port: *mut Port, connection: *mut Connection, rm: *const Rm) -> u32;
    pub fn abt_raw_port_set_capacity(port: *mut Port, capacity: u64) -> u32;
    pub fn abt_raw_port_total(port: *const Port, total: *mut u64) -> u32;
    pub fn abt_raw_connection_held(connection: *const Connection, held: *mut u16) -> u32;
    pub fn abt_raw_port_capacity(port: *const Port, capacity: *mut u64) -> u32;
    pub fn abt_raw_connection_reservation(connection: *const Connection, reservation: *mut Reservation) -> u32;
    pub fn abt_raw_table_init(table: *mut Table, capacity: u64) -> u32;
    pub fn abt_raw_table_add(table: *mut Table, vpi: u16, vci: u16) -> u32;
    pub fn abt_raw_table_add_ingress(table: *mut Table, vpi: u16, vci: u16, tau: u64) -> u32;
    pub fn abt_raw_table_remove(table: *mut Table, vpi: u16, vci: u16) -> u32;
    pub fn abt_raw_table_request(table: *mut Table, rm: *const Rm, answer: *mut Rm) -> u32;
    pub fn abt_raw_table_answer(table: *mut Table, rm: *const Rm) -> u32;
    pub fn abt_raw_table_cell(table: *mut Table, cell: *const u8, length: usize, sent: *mut u8, room: usize) -> u32;
    pub fn abt_raw_table_set_capacity(table: *mut Table, capacity: u64) -> u32;
    pub fn abt_raw_table_total(table: *const Table, total: *mut u64) -> u32;
    pub fn abt_raw_table_held(table: *const Table, vpi: u16, vci: u16, held: *mut u16) -> u32;
    pub fn abt_raw_table_reservation(table: *const Table, vpi: u16, vci: u16, reservation: *mut Reservation) -> u32;
    pub fn abt_raw_table_capacity(table: *const Table, capacity: *mut u64) -> u32;
    pub fn abt_raw_table_count(table: *const Table, count: *mut u64) -> u32;
    pub fn abt_raw_table_arrive(table: *mut Table, vpi: u16, vci: u16, at: u64) -> u32;
    pub fn abt_raw_table_arrive_burst(table: *mut Table, cells: *const Arrival, count: usize, outcomes: *mut u8, room: usize, judged: *mut usize) -> u32;
}
