//! ACPI PPTT, SRAT, HMAT and CEDT tables through a proved library: [`build`] the table of a recipe, [`read`] its records
//! back, [`read_out`] its recipe. The calls answer what the contracts of crate `acpi` say, for every input.
//!
//! A call allocates nothing. What it keeps stands on the stack: of a PPTT longer than 1,048,576 bytes 512 KB of marks, while a
//! PPTT's recipe of 682,240 bytes or more is checked 420 KB; of shorter ones 32 KB and 6.6 KB.
//! Give a thread that calls at least 2 MiB of stack, as std does.
//!
//! The modules [`pptt`], [`srat`], [`hmat`] and [`cedt`] have the names of crate acpi_tables 0.2.1: they write down the calls
//! as a recipe, and the table is built from it. What acpi_tables would build otherwise stands in docs/DIFFERENCES.md.
#![no_std]

extern crate alloc;

mod answers;
mod calls;
pub mod cedt;
pub mod hmat;
pub mod pptt;
mod recipe;
pub mod srat;

pub use answers::{Node, Record, Refusal};
pub use calls::{accept, build, check, read, read_out, records, sum, Records, EVERY, LIMIT};

/// The creator fields that the tables of [`pptt`], [`srat`], [`hmat`] and [`cedt`] have, as acpi_tables has them.
pub const CREATOR_ID: [u8; 4] = *b"RVAT";
pub const CREATOR_REVISION: [u8; 4] = [0, 0, 0, 1];

/// Takes the bytes of a table.
pub trait AmlSink {
    fn byte(&mut self, byte: u8);

    fn word(&mut self, word: u16) {
        self.vec(&word.to_le_bytes());
    }

    fn dword(&mut self, dword: u32) {
        self.vec(&dword.to_le_bytes());
    }

    fn qword(&mut self, qword: u64) {
        self.vec(&qword.to_le_bytes());
    }

    fn vec(&mut self, v: &[u8]) {
        for byte in v {
            self.byte(*byte);
        }
    }
}

impl AmlSink for alloc::vec::Vec<u8> {
    fn byte(&mut self, byte: u8) {
        self.push(byte);
    }

    fn vec(&mut self, v: &[u8]) {
        self.extend_from_slice(v);
    }
}

/// What has a table: [`pptt::PPTT`], [`srat::SRAT`], [`hmat::HMAT`] and [`cedt::CEDT`]. Nodes alone have no bytes here.
pub trait Aml {
    /// Gives the table to the sink. Panics with the refusal's text where the recipe is refused; `try_table` answers it instead.
    fn to_aml_bytes(&self, sink: &mut dyn AmlSink);
}
