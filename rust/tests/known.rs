//! The crate's tables held against bytes that are written down here field by field, and the calls on document 01's cases.
extern crate ispalmutzu as acpi_tables;

use acpi_tables::cedt::{self, CxlFixedMemory, CxlHostBridge, CxlVersion, InterleaveWays, XorInterleaveMath, CEDT};
use acpi_tables::hmat::{self, MemoryProximityDomain, MemorySideCache, SystemLocality, HMAT};
use acpi_tables::pptt::{self, CacheNodeBuilder, ProcessorNode, PPTT};
use acpi_tables::srat::{GenericInitiator, Handle, MemoryAffinity, RintcAffinity, SRAT};
use acpi_tables::{accept, build, check, read, read_out, records, sum, Aml, Node, Refusal, EVERY};

#[path = "../../tests/same.rs"]
mod same;

fn from_hex(text: &str) -> Vec<u8> {
    let digits: Vec<u8> = text.bytes().filter(|b| !b.is_ascii_whitespace()).collect();
    digits.chunks(2).map(|pair| u8::from_str_radix(core::str::from_utf8(pair).unwrap(), 16).unwrap()).collect()
}

/// A table of these parts, in hex, with its length and checksum; identity VMMOEM, VMMTABLE, 7.
fn table(sign: &str, revision: u8, rest: &str) -> Vec<u8> {
    let rest = from_hex(rest);
    let mut bytes = sign.as_bytes().to_vec();
    bytes.extend((36 + rest.len() as u32).to_le_bytes());
    bytes.extend([revision, 0]);
    bytes.extend(b"VMMOEMVMMTABLE\x07\0\0\0RVAT\0\0\0\x01");
    bytes.extend(rest);
    bytes[9] = bytes.iter().fold(0u8, |sum, b| sum.wrapping_sub(*b));
    bytes
}

fn bytes(table: &dyn Aml) -> Vec<u8> {
    let mut sink = Vec::new();
    table.to_aml_bytes(&mut sink);
    sink
}

fn new_pptt() -> PPTT {
    PPTT::new(*b"VMMOEM", *b"VMMTABLE", 7)
}

/// Case C3: a head of zeros, a cache without fields, a processor, the cache as its resource.
fn c3() -> Vec<u8> {
    let mut recipe = vec![0; 68];
    (recipe[0], recipe[28], recipe[50], recipe[63], recipe[64]) = (1, 18, 16, 17, 1);
    recipe
}

#[test]
fn processors_and_caches() {
    let mut pptt = new_pptt();
    let shared = pptt.add_cache(CacheNodeBuilder::default().size(0x2000000).id(9).to_node());
    let own = CacheNodeBuilder::default()
        .next_level(&shared)
        .sets(64)
        .associativity(8)
        .allocation_type(pptt::AllocationType::Both)
        .cache_type(pptt::CacheType::Unified)
        .write_policy(pptt::WritePolicy::Writethrough)
        .line_size(64)
        .to_node();
    let own = pptt.add_cache(own);
    let package = pptt.add_processor(ProcessorNode::new(None, 0).physical().valid().add_cache(&shared));
    pptt.add_processor(
        ProcessorNode::new(Some(&package), 5).valid().thread().leaf().identical().add_cache(&own).add_cache(&shared),
    );
    let expected = table(
        "PPTT",
        3,
        "011c0000 81000000 00000000 00000002 00000000 00 00 0000 09000000
         011c0000 7e000000 24000000 00000000 40000000 08 1a 4000 00000000
         00180000 03000000 00000000 00000000 01000000 24000000
         001c0000 1e000000 5c000000 05000000 02000000 40000000 24000000",
    );
    assert_eq!(bytes(&pptt), expected);
    assert_eq!(pptt.try_table(), Ok(expected));
}

#[test]
fn affinities() {
    let mut srat = SRAT::new(*b"VMMOEM", *b"VMMTABLE", 7);
    srat.add_memory_affinity(MemoryAffinity::new(1, 0x1_0000_0000, 0xc000_0000).enabled().hotpluggable().nonvolatile());
    srat.add_generic_initiator(GenericInitiator::new(2, Handle::new_pci(0x102, 0xc0, 31, 7)).enabled());
    srat.add_generic_initiator(GenericInitiator::new(3, Handle::new_acpi(*b"ACPI0017", [1, 2, 3, 4])).architectural());
    srat.add_rintc_affinity(RintcAffinity::new(4, [5, 0, 0, 1], 6).enabled());
    let expected = table(
        "SRAT",
        3,
        "01000000 0000000000000000
         0128 01000000 0000 0000000001000000 000000c000000000 00000000 07000000 0000000000000000
         0520 00 01 02000000 0201 c0 ff 000000000000000000000000 01000000 00000000
         0520 00 00 03000000 4143504930303137 01020304 00000000 02000000 00000000
         0714 0000 04000000 05000001 01000000 06000000",
    );
    assert_eq!(bytes(&srat), expected);
}

/// Without its domain a RINTC's kind is refused, whole or cut; its record is read, and does not come out as a recipe.
#[test]
fn a_rintc_without_domain() {
    let mut srat = SRAT::new(*b"VMMOEM", *b"VMMTABLE", 7);
    srat.add_memory_affinity(MemoryAffinity::new(1, 2, 3));
    let mut recipe = srat.recipe().to_vec();
    recipe.extend(from_hex("23 05000001 01 06000000"));
    for length in [recipe.len(), 51] {
        assert_eq!(check(&recipe[..length]).unwrap_err().to_string(), "12 RETIRED at byte 50 of the recipe");
    }
    let table = table(
        "SRAT",
        3,
        "01000000 0000000000000000
         0714 0000 04000000 05000001 01000000 06000000
         0710 0000 05000001 01000000 06000000",
    );
    let nodes: Vec<_> = records(&table, EVERY).unwrap().map(|record| record.node).collect();
    let (acpi_processor_uid, flags, clock_domain) = ([5, 0, 0, 1], 1, 6);
    let expected = [
        Node::Rintc { proximity_domain: 4, acpi_processor_uid, flags, clock_domain },
        Node::OldRintc { acpi_processor_uid, flags, clock_domain },
    ];
    assert_eq!(nodes, expected);
    assert_eq!((read(&table, 1 << 4, 0).unwrap().node, read(&table, 1 << 11, 1).unwrap().node), (Node::Unknown, Node::Unknown));
    assert_eq!(read_out(&table, &mut []).unwrap_err().to_string(), "32 RETIRED at byte 68 of the table");
}

#[test]
fn attributes() {
    let mut table_of = HMAT::new(*b"VMMOEM", *b"VMMTABLE", 7);
    table_of.add_memory_proximity(MemoryProximityDomain::new(1, 2));
    let (local, data, size) =
        (hmat::LocalityType::FirstLevelCache, hmat::DataType::ReadBandwidth, hmat::MinTransferSize::Size64k);
    let mut matrix = SystemLocality::new(local, data, size, 100, 2, 3);
    matrix.non_sequential_transfers();
    matrix.set_initiator_value(1, 7);
    matrix.set_target_value(2, 8);
    matrix.set_entry_value(1, 0, 9);
    table_of.add_system_locality(matrix);
    let (two, one) = (hmat::CacheLevel::Two, hmat::CacheLevel::One);
    let mut side = MemorySideCache::new(2, 0x2000, two, one, hmat::Associativity::Complex, hmat::WritePolicy::Writeback, 64);
    side.add_smbios_handle(0x1100);
    table_of.add_memory_side_cache(side);
    let expected = table(
        "HMAT",
        1,
        "00000000
         0000 0000 28000000 0100 0000 01000000 02000000 0000000000000000000000000000000000000000
         0100 0000 40000000 21 04 0b 00 02000000 03000000 00000000 6400000000000000
           00000000 07000000  00000000 00000000 08000000  ffff ffff ffff 0900 ffff ffff
         0200 0000 22000000 02000000 00000000 0020000000000000 12124000 0000 0100 0011",
    );
    assert_eq!(bytes(&table_of), expected);
}

fn new_cedt() -> CEDT {
    CEDT::new(*b"VMMOEM", *b"VMMTABLE", 7)
}

/// A window with so many targets, whatever its ways ask for.
fn window(ways: InterleaveWays, targets: u32) -> CxlFixedMemory {
    let (xor, granularity) = (cedt::InterleaveArithmetic::ModuloXor, cedt::InterleaveGranularity::Granularity16kb);
    let mut window = CxlFixedMemory::new(0x10_2000_0000, 0x3000_0000, xor, granularity, ways, 0x102);
    for uid in 6..6 + targets {
        window.add_target(uid.to_le_bytes());
    }
    window
}

fn maths(maps: u64) -> XorInterleaveMath {
    let mut maths = XorInterleaveMath::new(cedt::InterleaveGranularity::Granularity512b);
    for map in 0..maps {
        maths.add_xormap(0x8182 * (map + 1));
    }
    maths
}

/// Two bridges, a window over three targets, maths with two maps.
fn bridges_and_window() -> CEDT {
    let mut table = new_cedt();
    table.add_host_bridge(CxlHostBridge::new(6, CxlVersion::Cxl1_1, 0xd000_0000));
    table.add_host_bridge(CxlHostBridge::new(7, CxlVersion::Cxl2, 0xd001_0000));
    table.add_fixed_memory(window(InterleaveWays::Ways3, 3).cxl_type_3_memory().volatile());
    table.add_xor_interleave_math(maths(2));
    table
}

#[test]
fn bridges_windows_and_maths() {
    let expected = table(
        "CEDT",
        1,
        "00 00 2000 06000000 00000000 00000000 000000d000000000 0020000000000000
         00 00 2000 07000000 01000000 00000000 000001d000000000 0000010000000000
         01 00 3000 00000000 0000002010000000 0000003000000000 08 01 0000 06000000 0600 0201 06000000 07000000 08000000
         02 00 1800 0000 01 02 8281000000000000 0403010000000000",
    );
    assert_eq!(bytes(&bridges_and_window()), expected);
}

#[test]
fn a_window_has_as_many_targets_as_ways() {
    use InterleaveWays::*;
    let tried = [(Ways1, 1), (Ways2, 2), (Ways4, 4), (Ways8, 8), (Ways16, 16), (Ways3, 3), (Ways6, 6), (Ways12, 12)];
    for (ways, targets) in tried {
        let judged = |targets| {
            let mut table = new_cedt();
            table.add_fixed_memory(window(ways, targets));
            table.try_table().map(|bytes| bytes.len())
        };
        assert_eq!(judged(targets), Ok(36 + 36 + 4 * targets as usize));
        assert_eq!(judged(targets - 1), Err(Refusal { number: 11, place: 28 }));
        assert_eq!(judged(targets + 1), Err(Refusal { number: 7, place: 28 + 23 + 5 * targets as usize }));
    }
}

#[test]
fn maths_have_up_to_255_maps() {
    let judged = |maps| {
        let mut table = new_cedt();
        table.add_xor_interleave_math(maths(maps));
        table.try_table().map(|bytes| bytes.len())
    };
    assert_eq!(judged(255), Ok(36 + 8 + 8 * 255));
    assert_eq!(judged(256), Err(Refusal { number: 7, place: 28 + 2 + 9 * 255 }));
}

#[test]
fn restrictions_of_a_window() {
    let restrict = [
        CxlFixedMemory::cxl_type_2_memory,
        CxlFixedMemory::cxl_type_3_memory,
        CxlFixedMemory::volatile,
        CxlFixedMemory::persistent,
        CxlFixedMemory::fixed_configuration,
    ];
    for (bit, set) in restrict.into_iter().enumerate() {
        let mut table = new_cedt();
        table.add_fixed_memory(set(window(InterleaveWays::Ways1, 1)));
        assert_eq!(table.try_table().unwrap()[36 + 32..][..2], [1 << bit, 0]);
    }
}

#[test]
fn what_is_read_out_builds_the_same_table() {
    for table in [same::sockets(), same::affinities(), same::attributes(), same::windows()] {
        let mut recipe = vec![0; 4096];
        let length = read_out(&table, &mut recipe).unwrap();
        let mut again = vec![0; table.len()];
        assert_eq!(build(&recipe[..length], &mut again), Ok(table.len()));
        assert_eq!(again, table);
    }
    assert_eq!(same::sockets().len(), 36 + 2 * (28 + 24 + 4 * (28 + 28 + 28 + 20 + 20)));
}

#[test]
fn cases_of_document_01() {
    let recipe = c3();
    let mut table = [0xaa; 100];
    assert_eq!(check(&recipe), Ok(88));
    assert_eq!(build(&recipe, &mut table[..87]), Err(Refusal { number: 9, place: 88 }));
    assert_eq!(table, [0xaa; 100]);
    assert_eq!(build(&recipe, &mut table), Ok(88));
    assert_eq!((table[9], table[84], table[88]), (3, 36, 0xaa));
    let mut out = [0; 68];
    assert_eq!(read_out(&table, &mut out), Ok(68));
    assert_eq!(out[..], recipe);
    assert_eq!(build(&[], &mut []), Err(Refusal { number: 1, place: 0 }));
    assert_eq!(read_out(&table, &mut out[..67]), Err(Refusal { number: 31, place: 68 }));
}

/// Of no bytes; past 2^32; of case C1, a PPTT without nodes, as it is, with bytes behind it and with a byte changed.
#[test]
fn whole_sums() {
    assert_eq!(sum(&[]), 0);
    assert_eq!(sum(&vec![0xff; 16_843_010]), 4_294_967_550);
    let mut recipe = [0; 28];
    recipe[0] = 1;
    let mut table = [1; 39];
    assert_eq!(build(&recipe, &mut table), Ok(36));
    assert_eq!((sum(&table[..36]), accept(&table[..36], EVERY)), (512, Ok(0)));
    assert_eq!((sum(&table), accept(&table, EVERY)), (515, Ok(0)));
    table[35] += 1;
    assert_eq!((sum(&table[..36]), accept(&table[..36], EVERY)), (513, Err(Refusal { number: 23, place: 0 })));
}

#[test]
fn records_one_by_one() {
    let mut table = [0; 88];
    build(&c3(), &mut table).unwrap();
    assert_eq!(accept(&table, EVERY), Ok(2));
    let processor = read(&table, EVERY, 1).unwrap();
    assert_eq!((processor.count, processor.ty, processor.place, processor.length), (2, 0, 64, 24));
    assert_eq!(processor.node, Node::Processor { flags: 0, parent: 0, acpi_processor_id: 0, resources: 1 });
    assert_eq!(processor.part, [36, 0, 0, 0]);
    let unknown = read(&table, 1, 0).unwrap();
    assert_eq!((unknown.node, unknown.part), (Node::Unknown, &table[36..64]));
    assert_eq!(read(&table, EVERY, 2), Err(Refusal { number: 28, place: 2 }));
    let all: Vec<_> = records(&table, EVERY).unwrap().collect();
    assert_eq!(all, [read(&table, EVERY, 0).unwrap(), processor]);
}

/// Every row comes back with the fields that were written.
#[test]
fn fields_of_every_row() {
    let table = same::attributes();
    let nodes: Vec<_> = records(&table, EVERY).unwrap().map(|record| record.node).collect();
    let matrix =
        Node::Matrix { flags: 0x30, data_type: 0, min_transfer_size: 1, initiators: 2, targets: 2, entry_base_unit: 1000 };
    let side = Node::Side { proximity_domain: 1, cache_size: 1 << 33, attributes: 0x401212, smbios_handles: 2 };
    assert_eq!(nodes, [Node::Domain { initiator: 0, memory: 1 }, matrix, side]);

    let mut srat = SRAT::new([0; 6], [0; 8], 0);
    srat.add_memory_affinity(MemoryAffinity::new(1, 2, 3).enabled());
    srat.add_generic_initiator(GenericInitiator::new(2, Handle::new_pci(0x102, 3, 4, 5)).architectural());
    srat.add_generic_initiator(GenericInitiator::new(3, Handle::new_acpi(*b"ACPI0017", [1, 2, 3, 4])).enabled());
    srat.add_rintc_affinity(RintcAffinity::new(4, [5, 0, 0, 1], 6).enabled());
    let table = srat.try_table().unwrap();
    let nodes: Vec<_> = records(&table, EVERY).unwrap().map(|record| record.node).collect();
    let expected = [
        Node::Memory { proximity_domain: 1, base_address: 2, length: 3, flags: 1 },
        Node::Initiator { proximity_domain: 2, handle: Handle::new_pci(0x102, 3, 4, 5), flags: 2 },
        Node::Initiator { proximity_domain: 3, handle: Handle::new_acpi(*b"ACPI0017", [1, 2, 3, 4]), flags: 1 },
        Node::Rintc { proximity_domain: 4, acpi_processor_uid: [5, 0, 0, 1], flags: 1, clock_domain: 6 },
    ];
    assert_eq!(nodes, expected);

    let mut pptt = new_pptt();
    let shared = pptt.add_cache(CacheNodeBuilder::default().to_node());
    let node = CacheNodeBuilder::default().next_level(&shared).size(1).sets(2).associativity(3).line_size(4).id(5);
    pptt.add_cache(node.cache_type(pptt::CacheType::Instruction).to_node());
    let table = pptt.try_table().unwrap();
    let cache =
        Node::Cache { flags: 0xd7, next_level: 36, size: 1, set_count: 2, associativity: 3, attributes: 4, line_size: 4, id: 5 };
    assert_eq!(read(&table, EVERY, 1).unwrap().node, cache);

    let table = bridges_and_window().try_table().unwrap();
    let all: Vec<_> = records(&table, EVERY).unwrap().collect();
    let bridge = |host_bridge_uid, cxl_version, port_base| Node::Bridge { host_bridge_uid, cxl_version, port_base };
    let window = Node::Window {
        base_addr: 0x10_2000_0000,
        size: 0x3000_0000,
        interleave_ways: 8,
        interleave_arithmetic: 1,
        interleave_granularity: 6,
        window_restrictions: 6,
        qtg_id: 0x102,
    };
    let maths = Node::Maths { granularity: 1, xormaps: 2 };
    let nodes: Vec<_> = all.iter().map(|record| record.node).collect();
    assert_eq!(nodes, [bridge(6, 0, 0xd000_0000), bridge(7, 1, 0xd001_0000), window, maths]);
    let parts: Vec<_> = all.iter().map(|record| record.part).collect();
    assert_eq!(parts, [&table[..0], &[], &table[100 + 36..148], &table[148 + 8..]]);
}

#[test]
fn what_is_refused() {
    let mut pptt = new_pptt();
    let cache = pptt.add_cache(CacheNodeBuilder::default().to_node());
    let mut node = ProcessorNode::new(None, 0);
    for _ in 0..59 {
        node = node.add_cache(&cache);
    }
    pptt.add_processor(node);
    let refusal = pptt.try_table().unwrap_err();
    assert_eq!((refusal.number, refusal.name(), refusal.place), (7, "FULL NODE", 28 + 22 + 13 + 58 * 5));
    assert_eq!(refusal.to_string(), "7 FULL NODE at byte 353 of the recipe");
    let mut cedt = new_cedt();
    cedt.add_xor_interleave_math(maths(0));
    cedt.add_fixed_memory(window(InterleaveWays::Ways2, 1));
    cedt.add_host_bridge(CxlHostBridge::new(6, CxlVersion::Cxl2, 0));
    assert_eq!(cedt.try_table().unwrap_err().to_string(), "11 INCOMPLETE at byte 30 of the recipe");
    assert_eq!(Refusal { number: 10, place: 50 }.to_string(), "10 WRONG KIND at byte 50 of the recipe");
    assert_eq!(Refusal { number: 27, place: 36 }.to_string(), "27 BAD REF at byte 36 of the table");
    assert_eq!(Refusal { number: 9, place: 88 }.to_string(), "9 NO ROOM, 88 bytes needed");
    assert_eq!(Refusal { number: 28, place: 2 }.to_string(), "28 NO RECORD, the table has 2");
    assert_eq!(Refusal { number: 23, place: 0 }.to_string(), "23 BAD SUM at byte 0 of the table");
}

/// Case C3 with one byte changed: what it is refused for.
#[test]
fn which_byte() {
    for (at, byte, text) in [
        (1, 4, "5 BAD FIELD at byte 1 of the recipe"),
        (35, 1, "5 BAD FIELD at byte 34 of the recipe"),
        (64, 0, "6 FORWARD at byte 63 of the recipe"),
        (64, 2, "6 FORWARD at byte 63 of the recipe"),
        (55, 1, "10 WRONG KIND at byte 50 of the recipe"),
    ] {
        let mut recipe = c3();
        recipe[at] = byte;
        assert_eq!(check(&recipe).unwrap_err().to_string(), text);
    }
}

#[test]
#[should_panic(expected = "10 WRONG KIND at byte 50 of the recipe")]
fn a_handle_of_another_table_for_a_node_of_the_other_kind_panics() {
    let mut other = new_pptt();
    let handle = other.add_processor(ProcessorNode::new(None, 0));
    let mut pptt = new_pptt();
    pptt.add_cache(CacheNodeBuilder::default().to_node());
    pptt.add_processor(ProcessorNode::new(Some(&handle), 1));
    bytes(&pptt);
}

#[test]
#[should_panic(expected = "6 FORWARD at byte 28 of the recipe")]
fn a_handle_of_another_table_panics() {
    let mut other = new_pptt();
    let handle = other.add_processor(ProcessorNode::new(None, 0));
    let mut pptt = new_pptt();
    pptt.add_processor(ProcessorNode::new(Some(&handle), 1));
    bytes(&pptt);
}
