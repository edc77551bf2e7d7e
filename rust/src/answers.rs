//! What the calls answer.
use crate::srat::Handle;
use core::fmt;

/// A refusal, as documents 01 and 02 number it.
#[derive(Clone, Copy, Debug, PartialEq, Eq)]
pub struct Refusal {
    pub number: u32,
    /// A byte of the recipe or of the table, the length needed, or the number of records. Of a bad field it is the first byte.
    pub place: usize,
}

impl Refusal {
    pub fn name(&self) -> &'static str {
        match self.number {
            1 => "NO HEAD",
            2 => "BAD KIND",
            3 => "CUT",
            4 => "MISPLACED",
            5 => "BAD FIELD",
            6 => "FORWARD",
            7 => "FULL NODE",
            8 => "TOO LONG",
            9 | 31 => "NO ROOM",
            10 => "WRONG KIND",
            11 => "INCOMPLETE",
            12 | 32 => "RETIRED",
            20 => "SHORT",
            21 => "BAD SIGN",
            22 => "BAD LENGTH",
            23 => "BAD SUM",
            24 => "BAD FRONT",
            25 => "BAD FRAME",
            26 => "BAD RECORD",
            27 => "BAD REF",
            28 => "NO RECORD",
            29 => "UNKNOWN",
            30 => "REVISION",
            _ => "unnamed",
        }
    }
}

impl fmt::Display for Refusal {
    fn fmt(&self, f: &mut fmt::Formatter<'_>) -> fmt::Result {
        let (number, name, place) = (self.number, self.name(), self.place);
        match number {
            1..=8 | 10..=12 => write!(f, "{number} {name} at byte {place} of the recipe"),
            9 | 31 => write!(f, "{number} {name}, {place} bytes needed"),
            28 => write!(f, "{number} {name}, the table has {place}"),
            _ => write!(f, "{number} {name} at byte {place} of the table"),
        }
    }
}

impl core::error::Error for Refusal {}

/// A record of a table.
#[derive(Clone, Copy, Debug, PartialEq)]
pub struct Record<'a> {
    /// How many records the table has.
    pub count: usize,
    /// The type in its frame.
    pub ty: u16,
    pub place: usize,
    pub length: usize,
    pub node: Node,
    /// The list inside the record (a processor's resources, a matrix's values and cells, a side cache's handles, a window's
    /// targets, the maps of XOR maths), an unknown record whole, else empty.
    pub part: &'a [u8],
}

/// The fields of a record, by its row. References are places in the table.
#[derive(Clone, Copy, Debug, PartialEq)]
pub enum Node {
    Processor {
        flags: u32,
        parent: u32,
        acpi_processor_id: u32,
        resources: u32,
    },
    Cache {
        flags: u32,
        next_level: u32,
        size: u32,
        set_count: u32,
        associativity: u8,
        attributes: u8,
        line_size: u16,
        id: u32,
    },
    Memory {
        proximity_domain: u32,
        base_address: u64,
        length: u64,
        flags: u32,
    },
    Initiator {
        proximity_domain: u32,
        handle: Handle,
        flags: u32,
    },
    /// Of 16 bytes: recipes do not build it any more, and a table that has it is not read out.
    OldRintc {
        acpi_processor_uid: [u8; 4],
        flags: u32,
        clock_domain: u32,
    },
    Domain {
        initiator: u32,
        memory: u32,
    },
    /// Of row 6, or of row 12 where a count is above 255.
    Matrix {
        flags: u8,
        data_type: u8,
        min_transfer_size: u8,
        initiators: u32,
        targets: u32,
        entry_base_unit: u64,
    },
    Side {
        proximity_domain: u32,
        cache_size: u64,
        attributes: u32,
        smbios_handles: u16,
    },
    Bridge {
        host_bridge_uid: u32,
        cxl_version: u32,
        port_base: u64,
    },
    Window {
        base_addr: u64,
        size: u64,
        /// The code; [`crate::cedt::InterleaveWays`] has how many ways each is.
        interleave_ways: u8,
        interleave_arithmetic: u8,
        interleave_granularity: u32,
        window_restrictions: u16,
        qtg_id: u16,
    },
    Maths {
        granularity: u8,
        xormaps: u8,
    },
    /// Of 20 bytes.
    Rintc {
        proximity_domain: u32,
        acpi_processor_uid: [u8; 4],
        flags: u32,
        clock_domain: u32,
    },
    /// No known row fits.
    Unknown,
}

/// So many numbers are enough for every record, and the fields begin at the sixth.
pub(crate) const ANSWER: usize = 14;

const FIELDS: usize = 6;

/// A record's handle, by its type.
fn initiator(v: &[u64]) -> Node {
    let proximity_domain = v[1] as u32;
    if v[0] == 0 {
        let handle = Handle::Acpi { hid: v[2].to_le_bytes(), uid: (v[3] as u32).to_le_bytes() };
        return Node::Initiator { proximity_domain, handle, flags: v[4] as u32 };
    }
    let handle = Handle::Pci { segment: v[2] as u16, bus: v[3] as u8, device: v[4] as u8, function: v[5] as u8 };
    Node::Initiator { proximity_domain, handle, flags: v[6] as u32 }
}

/// The node of a row's number and fields: each has the width of its field, so no cast loses anything.
fn node(row: u64, v: &[u64]) -> Node {
    match row {
        0 => Node::Processor { flags: v[0] as u32, parent: v[1] as u32, acpi_processor_id: v[2] as u32, resources: v[3] as u32 },
        1 => Node::Cache {
            flags: v[0] as u32,
            next_level: v[1] as u32,
            size: v[2] as u32,
            set_count: v[3] as u32,
            associativity: v[4] as u8,
            attributes: v[5] as u8,
            line_size: v[6] as u16,
            id: v[7] as u32,
        },
        2 => Node::Memory { proximity_domain: v[0] as u32, base_address: v[1], length: v[2], flags: v[3] as u32 },
        3 => initiator(v),
        4 => Node::OldRintc { acpi_processor_uid: (v[0] as u32).to_le_bytes(), flags: v[1] as u32, clock_domain: v[2] as u32 },
        5 => Node::Domain { initiator: v[0] as u32, memory: v[1] as u32 },
        6 | 12 => Node::Matrix {
            flags: v[0] as u8,
            data_type: v[1] as u8,
            min_transfer_size: v[2] as u8,
            initiators: v[3] as u32,
            targets: v[4] as u32,
            entry_base_unit: v[5],
        },
        7 => Node::Side { proximity_domain: v[0] as u32, cache_size: v[1], attributes: v[2] as u32, smbios_handles: v[3] as u16 },
        8 => Node::Bridge { host_bridge_uid: v[0] as u32, cxl_version: v[1] as u32, port_base: v[2] },
        9 => Node::Window {
            base_addr: v[0],
            size: v[1],
            interleave_ways: v[2] as u8,
            interleave_arithmetic: v[3] as u8,
            interleave_granularity: v[4] as u32,
            window_restrictions: v[5] as u16,
            qtg_id: v[6] as u16,
        },
        10 => Node::Maths { granularity: v[0] as u8, xormaps: v[1] as u8 },
        11 => Node::Rintc {
            proximity_domain: v[0] as u32,
            acpi_processor_uid: (v[1] as u32).to_le_bytes(),
            flags: v[2] as u32,
            clock_domain: v[3] as u32,
        },
        _ => Node::Unknown,
    }
}

impl<'a> Record<'a> {
    /// The record that the numbers of an answer stand for.
    pub(crate) fn of(table: &'a [u8], count: usize, answer: &[u64; ANSWER]) -> Self {
        let (at, length) = (answer[4] as usize, answer[5] as usize);
        Record {
            count,
            ty: answer[0] as u16,
            place: answer[1] as usize,
            length: answer[2] as usize,
            node: node(answer[3], &answer[FIELDS..]),
            part: &table[at..at + length],
        }
    }
}
