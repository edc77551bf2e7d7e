//! Wide matrices, and tables as long as tables may be: built, accepted, read out and built again; with one record more, refused. The
//! programs take no input so long, so what passes the limit is tried here alone. Each test has a thread with 2 MiB of stack.
use ispalmutzu::hmat::{CacheLevel, DataType, LocalityType, MemorySideCache, MinTransferSize, SystemLocality, HMAT};
use ispalmutzu::{accept, build, check, hmat, read, read_out, Node, Refusal, EVERY, LIMIT};

/// A head of zeros: of a PPTT 0, of an SRAT 1, of an HMAT 2, of a CEDT 3.
fn head(code: u8) -> Vec<u8> {
    let mut recipe = vec![0; 28];
    (recipe[0], recipe[1]) = (1, code);
    recipe
}

fn built(recipe: &[u8]) -> Vec<u8> {
    let mut table = vec![0xaa; check(recipe).unwrap()];
    assert_eq!(build(recipe, &mut table), Ok(table.len()));
    table
}

/// The table of a recipe that is its own normal form: it has so many records, comes out as the recipe, and that builds it again.
fn there_and_back(recipe: &[u8], records: usize) -> Vec<u8> {
    let table = built(recipe);
    assert_eq!(accept(&table, EVERY), Ok(records));
    let mut out = vec![0xaa; recipe.len()];
    assert_eq!(read_out(&table, &mut out), Ok(recipe.len()));
    assert!(out == recipe, "read out as another recipe");
    assert!(built(&out) == table, "built as another table");
    table
}

/// As many records of this recipe as fit: the table has so many bytes; with the record once more it is refused where that begins.
fn at_the_limit(mut recipe: Vec<u8>, records: usize, length: usize, record: &[u8]) {
    assert_eq!(there_and_back(&recipe, records).len(), length);
    let place = recipe.len();
    recipe.extend(record);
    assert_eq!(check(&recipe), Err(Refusal { number: 8, place }));
    assert_eq!(build(&recipe, &mut []), Err(Refusal { number: 8, place }));
}

fn new_hmat() -> HMAT {
    HMAT::new(*b"VMMOEM", *b"VMMTABLE", 7)
}

fn new_matrix(initiators: usize, targets: usize) -> SystemLocality {
    let (local, data, size) = (LocalityType::ThirdLevelCache, DataType::WriteLatency, MinTransferSize::Size64b);
    SystemLocality::new(local, data, size, 1000, initiators, targets)
}

fn hmat_of(matrices: impl IntoIterator<Item = SystemLocality>) -> HMAT {
    let mut hmat = new_hmat();
    for matrix in matrices {
        hmat.add_system_locality(matrix);
    }
    hmat
}

/// The cell of an initiator and a target, other than the unset one.
fn cell(i: usize, t: usize) -> u16 {
    ((600 * i + t) % 65535) as u16
}

/// Every value and every cell set, in the order of the normal form.
fn set_in_order() -> SystemLocality {
    let mut matrix = new_matrix(600, 600);
    for k in 0..600 {
        matrix.set_initiator_value(k, 1 + k as u32);
    }
    for k in 0..600 {
        matrix.set_target_value(k, 70_000 + k as u32);
    }
    for (i, t) in (0..600).flat_map(|i| (0..600).map(move |t| (i, t))) {
        matrix.set_entry_value(i, t, cell(i, t));
    }
    matrix
}

/// The same from the last to the first, each cell to another value before.
fn set_in_reverse() -> SystemLocality {
    let mut matrix = new_matrix(600, 600);
    for (i, t) in (0..600).rev().flat_map(|i| (0..600).rev().map(move |t| (i, t))) {
        matrix.set_entry_value(i, t, 7);
        matrix.set_entry_value(i, t, cell(i, t));
    }
    for k in (0..600).rev() {
        matrix.set_target_value(k, 70_000 + k as u32);
        matrix.set_initiator_value(k, 1 + k as u32);
    }
    matrix
}

/// Its record, byte by byte.
fn record_of_600_by_600() -> Vec<u8> {
    let mut record = vec![1, 0, 0, 0];
    record.extend(724_832u32.to_le_bytes());
    record.extend([3, 2, 1, 0]);
    record.extend([600u32, 600, 0].into_iter().flat_map(u32::to_le_bytes));
    record.extend(1000u64.to_le_bytes());
    record.extend((0..600).flat_map(|k| (1 + k as u32).to_le_bytes()));
    record.extend((0..600).flat_map(|k| (70_000 + k as u32).to_le_bytes()));
    record.extend((0..600).flat_map(|i| (0..600).flat_map(move |t| cell(i, t).to_le_bytes())));
    record
}

#[test]
fn a_matrix_of_600_by_600() {
    let hmat = hmat_of([set_in_order()]);
    let table = there_and_back(hmat.recipe(), 1);
    assert_eq!(table.len(), 40 + 724_832);
    assert!(table[40..] == record_of_600_by_600());
    assert!(hmat_of([set_in_reverse()]).try_table().unwrap() == table);
    let (initiators, targets) = (600, 600);
    let node = Node::Matrix { flags: 3, data_type: 2, min_transfer_size: 1, initiators, targets, entry_base_unit: 1000 };
    let record = read(&table, 1 << 12, 0).unwrap();
    assert_eq!((record.ty, record.place, record.length, record.node), (1, 40, 724_832, node));
    assert!(record.part == &table[72..]);
    assert_eq!(read(&table, !(1 << 12), 0).unwrap().node, Node::Unknown);
}

/// Counts and indices have one byte where both counts are up to 255, else two; so does the normal form, whatever was written.
#[test]
fn how_wide_counts_are_written() {
    for (initiators, targets, kind, row) in [(255, 255, 49, 6), (256, 0, 55, 12), (0, 256, 55, 12), (0, 0, 49, 6)] {
        let hmat = hmat_of([new_matrix(initiators, targets)]);
        assert_eq!(hmat.recipe()[28], kind);
        let table = there_and_back(hmat.recipe(), 1);
        assert!(matches!(read(&table, 1 << row, 0).unwrap().node, Node::Matrix { .. }));
        assert_eq!(read(&table, !(1 << row), 0).unwrap().node, Node::Unknown);
    }
    let mut wide = head(2);
    wide.extend([55, 0, 0, 0, 0, 0, 0, 0, 0, 0, 0, 0, 2, 0, 3, 0]);
    wide.extend([58, 1, 0, 2, 0, 9, 0, 56, 1, 0, 5, 0, 0, 0]);
    let mut narrow = head(2);
    narrow.extend([49, 0, 0, 0, 0, 0, 0, 0, 0, 0, 0, 0, 2, 3]);
    narrow.extend([50, 1, 5, 0, 0, 0, 52, 1, 2, 9, 0]);
    assert_eq!(built(&wide), there_and_back(&narrow, 1));
}

#[test]
fn what_is_refused_of_a_wide_matrix() {
    let refused = |counts: [u8; 4], more: &[u8]| {
        let mut recipe = head(2);
        recipe.extend([55, 0, 0, 0, 0, 0, 0, 0, 0, 0, 0, 0]);
        recipe.extend(counts);
        recipe.extend(more);
        check(&recipe).map_err(|refusal| (refusal.number, refusal.place))
    };
    assert_eq!(refused([0, 16, 0, 16], &[]), Ok(33_587_272));
    assert_eq!(refused([1, 16, 0, 16], &[]), Err((5, 40)));
    assert_eq!(refused([0, 16, 1, 16], &[]), Err((5, 42)));
    assert_eq!(refused([0, 16, 0, 0], &[56, 255, 15, 0, 0, 0, 0]), Ok(40 + 32 + 4 * 4096));
    assert_eq!(refused([0, 16, 0, 0], &[56, 0, 16, 0, 0, 0, 0]), Err((5, 45)));
    assert_eq!(refused([0, 1, 1, 0], &[58, 0, 0, 1, 0, 0, 0]), Err((5, 47)));
    assert_eq!(refused([0, 1, 1, 0], &[52, 0, 0, 0, 0]), Err((4, 44)));
    assert_eq!(refused([0, 1, 1, 0], &[59]), Err((2, 44)));
}

#[test]
#[should_panic(expected = "at most 4096 targets")]
fn more_than_4096_targets_panic() {
    new_matrix(4096, 4097);
}

#[test]
#[should_panic(expected = "index 4096 of 4096")]
fn an_index_past_4096_panics() {
    new_matrix(4096, 1).set_initiator_value(4096, 0);
}

/// A matrix of 4,096 by 4,096, unset; another beside it is too long; and with a smaller one and a side cache just as long as may be.
#[test]
fn an_hmat_at_the_limit() {
    let alone = hmat_of([new_matrix(4096, 4096)]);
    assert_eq!(there_and_back(alone.recipe(), 1).len(), 33_587_272);
    let two = hmat_of([new_matrix(4096, 4096), new_matrix(4096, 4096)]);
    assert_eq!(two.try_table(), Err(Refusal { number: 8, place: 44 }));
    let mut full = hmat_of([new_matrix(4096, 4096), new_matrix(4096, 4087)]);
    let (none, way, policy) = (CacheLevel::None, hmat::Associativity::None, hmat::WritePolicy::None);
    let mut side = MemorySideCache::new(0, 0, none, none, way, policy, 0);
    for _ in 0..4046 {
        side.add_smbios_handle(0x1100);
    }
    full.add_memory_side_cache(side);
    at_the_limit(full.recipe().to_vec(), 3, LIMIT, &[54, 0, 0]);
}

/// Processors without resources, the shortest nodes, each with a parent about half as far from the first.
#[test]
fn a_pptt_at_the_limit() {
    let mut recipe = head(0);
    for k in 1..=3_355_441u32 {
        let mut record = [16, 2, 0, 0, 0, 0, 0, 0, 0, 0, 0, 0, 0];
        record[5..9].copy_from_slice(&(k / 2).to_le_bytes());
        record[9..].copy_from_slice(&k.to_le_bytes());
        recipe.extend_from_slice(&record);
    }
    at_the_limit(recipe, 3_355_441, 67_108_856, &[16, 0, 0, 0, 0, 0, 0, 0, 0, 0, 0, 0, 0]);
}

/// RINTCs, the shortest records of an SRAT that recipes have.
#[test]
fn an_srat_at_the_limit() {
    let record = [36, 1, 0, 0, 0, 2, 0, 0, 0, 1, 3, 0, 0, 0];
    let recipe = [head(1), record.repeat(3_355_440)].concat();
    at_the_limit(recipe, 3_355_440, 67_108_848, &record);
}

/// XOR maths without maps, the shortest records of a CEDT.
#[test]
fn a_cedt_at_the_limit() {
    let record = [67, 6];
    let recipe = [head(3), record.repeat(8_388_603)].concat();
    at_the_limit(recipe, 8_388_603, 67_108_860, &record);
}

/// A table that is one unknown record: as long as may be it is accepted; a byte more, in the table or in its length alone, and its
/// length is refused.
#[test]
fn the_length_of_a_table() {
    let table_of = |length: usize| {
        let mut table = built(&head(2));
        table.resize(length, 0);
        table[4..8].copy_from_slice(&(length as u32).to_le_bytes());
        table[40] = 9;
        table[44..48].copy_from_slice(&(length as u32 - 40).to_le_bytes());
        table[9] = 0;
        table[9] = (ispalmutzu::sum(&table) as u8).wrapping_neg();
        table
    };
    let mut table = table_of(LIMIT);
    assert_eq!(accept(&table, EVERY), Ok(1));
    table.push(0);
    assert_eq!(accept(&table, EVERY), Ok(1));
    assert_eq!(accept(&table_of(LIMIT + 1), EVERY), Err(Refusal { number: 22, place: 0 }));
    assert_eq!(read_out(&table_of(LIMIT + 1), &mut []), Err(Refusal { number: 22, place: 0 }));
    table[4..8].copy_from_slice(&(LIMIT as u32 + 1).to_le_bytes());
    assert_eq!(accept(&table, EVERY), Err(Refusal { number: 22, place: 0 }));
}
