//! A VMM's tables as code for acpi_tables writes them. tests/rust compiles this text twice, over acpi_tables and over
//! rust/ under that name, and compares what is printed; rust/tests/known.rs builds it too.
use acpi_tables::cedt::{CxlFixedMemory, InterleaveArithmetic, InterleaveGranularity, InterleaveWays, XorInterleaveMath, CEDT};
use acpi_tables::hmat::{self, MemoryProximityDomain, MemorySideCache, SystemLocality, HMAT};
use acpi_tables::pptt::{self, CacheHandle, CacheNodeBuilder, ProcessorHandle, ProcessorNode, PPTT};
use acpi_tables::srat::{GenericInitiator, Handle, MemoryAffinity, SRAT};
use acpi_tables::Aml;

const OEM: [u8; 6] = *b"VMMOEM";
const TABLE: [u8; 8] = *b"VMMTABLE";

fn bytes(table: &dyn Aml) -> Vec<u8> {
    let mut sink = Vec::new();
    table.to_aml_bytes(&mut sink);
    sink
}

/// A core of two threads with caches of its own, below a package and its shared cache.
fn core(pptt: &mut PPTT, package: &ProcessorHandle, shared: &CacheHandle, id: u32) {
    let l2 = pptt.add_cache(CacheNodeBuilder::default().next_level(shared).size(1 << 20).sets(1024).id(2 * id + 1).to_node());
    let data = CacheNodeBuilder::default()
        .next_level(&l2)
        .size(32768)
        .sets(64)
        .associativity(8)
        .allocation_type(pptt::AllocationType::Both)
        .cache_type(pptt::CacheType::Data)
        .write_policy(pptt::WritePolicy::Writethrough)
        .line_size(64)
        .id(2 * id + 2)
        .to_node();
    let l1 = pptt.add_cache(data);
    let core = pptt.add_processor(ProcessorNode::new(Some(package), id).valid().identical().add_cache(&l1).add_cache(&l2));
    for thread in 0..2 {
        pptt.add_processor(ProcessorNode::new(Some(&core), 2 * id + thread).valid().thread().leaf());
    }
}

/// Two sockets of four cores.
pub fn sockets() -> Vec<u8> {
    let mut pptt = PPTT::new(OEM, TABLE, 7);
    for socket in 0..2 {
        let unified = CacheNodeBuilder::default().size(32 << 20).cache_type(pptt::CacheType::Unified).id(100 + socket).to_node();
        let shared = pptt.add_cache(unified);
        let package = pptt.add_processor(ProcessorNode::new(None, socket).physical().valid().add_cache(&shared));
        for id in 0..4 {
            core(&mut pptt, &package, &shared, 4 * socket + id);
        }
    }
    bytes(&pptt)
}

pub fn affinities() -> Vec<u8> {
    let mut srat = SRAT::new(OEM, TABLE, 7);
    srat.add_memory_affinity(MemoryAffinity::new(0, 0, 0xa0000).enabled());
    srat.add_memory_affinity(MemoryAffinity::new(1, 1 << 32, 3 << 30).enabled().hotpluggable());
    srat.add_memory_affinity(MemoryAffinity::new(2, 1 << 40, 1 << 36).enabled().nonvolatile());
    srat.add_generic_initiator(GenericInitiator::new(1, Handle::new_pci(1, 0xc0, 31, 7)).enabled());
    srat.add_generic_initiator(GenericInitiator::new(2, Handle::new_acpi(*b"ACPI0017", [1, 2, 3, 4])).architectural());
    bytes(&srat)
}

/// As many initiators as targets: other matrices differ (docs/DIFFERENCES.md).
pub fn attributes() -> Vec<u8> {
    let mut table = HMAT::new(OEM, TABLE, 7);
    table.add_memory_proximity(MemoryProximityDomain::new(0, 1));
    let mut matrix = SystemLocality::new(
        hmat::LocalityType::Memory,
        hmat::DataType::AccessLatency,
        hmat::MinTransferSize::Size64b,
        1000,
        2,
        2,
    );
    matrix.minimum_transfer_size_required();
    matrix.non_sequential_transfers();
    for domain in 0..2 {
        matrix.set_initiator_value(domain, domain as u32);
        matrix.set_target_value(domain, 10 + domain as u32);
    }
    matrix.set_entry_value(0, 0, 10);
    matrix.set_entry_value(0, 1, 20);
    matrix.set_entry_value(1, 0, 21);
    matrix.set_entry_value(0, 0, 11);
    table.add_system_locality(matrix);
    let (two, one) = (hmat::CacheLevel::Two, hmat::CacheLevel::One);
    let (complex, back) = (hmat::Associativity::Complex, hmat::WritePolicy::Writeback);
    let mut side = MemorySideCache::new(1, 1 << 33, two, one, complex, back, 64);
    side.add_smbios_handle(0x1100);
    side.add_smbios_handle(0x1101);
    table.add_memory_side_cache(side);
    bytes(&table)
}

/// A window over so many targets.
fn window(ways: InterleaveWays, targets: u32, arithmetic: InterleaveArithmetic) -> CxlFixedMemory {
    let size = targets as u64 * (256 << 20);
    let granularity = InterleaveGranularity::Granularity4kb;
    let mut window = CxlFixedMemory::new(1 << 40, size, arithmetic, granularity, ways, 0x201).volatile();
    for uid in 1..=targets {
        window.add_target((0x10203 * uid).to_le_bytes());
    }
    window
}

/// Windows and maths: host bridges and windows of type 3 memory differ (docs/DIFFERENCES.md).
pub fn windows() -> Vec<u8> {
    let mut cedt = CEDT::new(OEM, TABLE, 7);
    let modulo = InterleaveArithmetic::Modulo;
    cedt.add_fixed_memory(window(InterleaveWays::Ways1, 1, modulo).cxl_type_2_memory());
    cedt.add_fixed_memory(window(InterleaveWays::Ways2, 2, modulo).persistent());
    cedt.add_fixed_memory(window(InterleaveWays::Ways4, 4, modulo).fixed_configuration());
    for (ways, targets) in [(InterleaveWays::Ways8, 8), (InterleaveWays::Ways16, 16)] {
        cedt.add_fixed_memory(window(ways, targets, InterleaveArithmetic::ModuloXor));
    }
    for (ways, targets) in [(InterleaveWays::Ways3, 3), (InterleaveWays::Ways6, 6), (InterleaveWays::Ways12, 12)] {
        cedt.add_fixed_memory(window(ways, targets, modulo));
    }
    let mut maths = XorInterleaveMath::new(InterleaveGranularity::Granularity4kb);
    for bit in 12..16 {
        maths.add_xormap(0x41 << bit);
    }
    cedt.add_xor_interleave_math(maths);
    cedt.add_xor_interleave_math(XorInterleaveMath::new(InterleaveGranularity::Granularity16kb));
    bytes(&cedt)
}

#[allow(dead_code)]
fn main() {
    for (name, table) in [("PPTT", sockets()), ("SRAT", affinities()), ("HMAT", attributes()), ("CEDT", windows())] {
        let hex: String = table.iter().map(|byte| format!("{byte:02x}")).collect();
        println!("{name} {hex}");
    }
}
