//! bench CALL INPUT TURNS [MASK]: makes a call TURNS times and prints the shortest time in nanoseconds.
//! INPUT is a shape: CALL is of its recipe (crate, build, check) or of its table (accept, out, sum), and has to be good.
//! Or it is file:PATH, the bytes themselves, where any answer will do: its number and place are printed before the time. Then CALL may
//! be read (the last record) and list (each record by its place) too, and MASK has the rows that a reader knows.
//! Each call stands in a function of its own, so that instructions can be counted in it.
mod shapes;

use std::hint::black_box;
use std::time::Instant;

extern "C" {
    fn acpi_build(recipe: *const u8, len: usize, out: *mut u8, room: usize, place: *mut usize) -> u32;
    fn acpi_check(recipe: *const u8, len: usize, place: *mut usize) -> u32;
    fn acpi_read_out(table: *const u8, len: usize, out: *mut u8, room: usize, place: *mut usize) -> u32;
    fn acpi_accept(table: *const u8, len: usize, mask: u32, place: *mut usize) -> u32;
    fn acpi_read(table: *const u8, len: usize, mask: u32, n: usize, answer: *mut u64, answer_len: usize, place: *mut usize) -> u32;
    fn acpi_first_place(table: *const u8, len: usize) -> usize;
    fn acpi_record_at(table: *const u8, len: usize, mask: u32, place: usize, answer: *mut u64, answer_len: usize);
    fn acpi_sum(bytes: *const u8, len: usize, high: *mut u64) -> u64;
}

/// What a record's answer has: so many numbers, and its length among them.
const NUMBERS: usize = 14;
const LENGTH: usize = 2;

/// What a call is given besides its input.
struct Lent {
    out: Vec<u8>,
    mask: u32,
    /// The number of the record that is read.
    n: usize,
}

/// A refusal's number, 0 for none, and the place.
type Answer = (u32, usize);

type Call = fn(&[u8], &mut Lent) -> Answer;

/// The crate's table, from the recipe's calls to its bytes.
#[no_mangle]
#[inline(never)]
fn measured_crate(recipe: &[u8], _lent: &mut Lent) -> Answer {
    (0, black_box(driver::table(recipe)).len())
}

#[no_mangle]
#[inline(never)]
fn measured_build(recipe: &[u8], lent: &mut Lent) -> Answer {
    let mut place = 0;
    let number = unsafe { acpi_build(recipe.as_ptr(), recipe.len(), lent.out.as_mut_ptr(), lent.out.len(), &mut place) };
    (number, place)
}

#[no_mangle]
#[inline(never)]
fn measured_check(recipe: &[u8], _lent: &mut Lent) -> Answer {
    let mut place = 0;
    let number = unsafe { acpi_check(recipe.as_ptr(), recipe.len(), &mut place) };
    (number, place)
}

#[no_mangle]
#[inline(never)]
fn measured_accept(table: &[u8], lent: &mut Lent) -> Answer {
    let mut place = 0;
    let number = unsafe { acpi_accept(table.as_ptr(), table.len(), lent.mask, &mut place) };
    (number, place)
}

#[no_mangle]
#[inline(never)]
fn measured_out(table: &[u8], lent: &mut Lent) -> Answer {
    let mut place = 0;
    let number = unsafe { acpi_read_out(table.as_ptr(), table.len(), lent.out.as_mut_ptr(), lent.out.len(), &mut place) };
    (number, place)
}

#[no_mangle]
#[inline(never)]
fn measured_read(table: &[u8], lent: &mut Lent) -> Answer {
    let (mut place, mut answer) = (0, [0; NUMBERS]);
    let number = unsafe { acpi_read(table.as_ptr(), table.len(), lent.mask, lent.n, answer.as_mut_ptr(), NUMBERS, &mut place) };
    black_box(answer);
    (number, place)
}

/// Every record by its place; of bytes that are no table, as far as records have a length.
#[no_mangle]
#[inline(never)]
fn measured_list(table: &[u8], lent: &mut Lent) -> Answer {
    let (mut count, mut answer) = (0, [0; NUMBERS]);
    let mut place = unsafe { acpi_first_place(table.as_ptr(), table.len()) };
    while place < table.len() {
        unsafe { acpi_record_at(table.as_ptr(), table.len(), lent.mask, place, answer.as_mut_ptr(), NUMBERS) };
        if answer[LENGTH] == 0 {
            break;
        }
        place += answer[LENGTH] as usize;
        count += 1;
    }
    (0, count)
}

#[no_mangle]
#[inline(never)]
fn measured_sum(table: &[u8], _lent: &mut Lent) -> Answer {
    let mut high = 0;
    let sum = unsafe { acpi_sum(table.as_ptr(), table.len(), &mut high) };
    (high as u32, sum as usize)
}

/// The table of a recipe; it has to be the crate's, so that both do the same work. An SRAT's revision and checksum are set aside.
fn table(recipe: &[u8], lent: &mut Lent) -> Vec<u8> {
    let (number, n) = measured_build(recipe, lent);
    assert_eq!(number, 0, "refused at {n}");
    let (mut ours, mut theirs) = (lent.out[..n].to_vec(), driver::table(recipe));
    if recipe[1] == 1 {
        ours[8..10].fill(0);
        theirs[8..10].fill(0);
    }
    assert!(ours == theirs || shapes::is_oblong(recipe), "the crate's table is another");
    lent.out[..n].to_vec()
}

/// The call of a name, and whether it is of a recipe.
fn call_of(name: &str) -> (Call, bool) {
    match name {
        "crate" => (measured_crate, true),
        "build" => (measured_build, true),
        "check" => (measured_check, true),
        "accept" => (measured_accept, false),
        "out" => (measured_out, false),
        "read" => (measured_read, false),
        "list" => (measured_list, false),
        "sum" => (measured_sum, false),
        other => panic!("no call named {other}"),
    }
}

/// The bytes that a call gets: a file's, a shape's recipe or that recipe's table.
fn input_of(name: &str, of_recipe: bool, lent: &mut Lent) -> Vec<u8> {
    if let Some(path) = name.strip_prefix("file:") {
        return std::fs::read(path).expect("a file that can be read");
    }
    let recipe = shapes::recipe(name);
    let table = table(&recipe, lent);
    if of_recipe {
        recipe
    } else {
        table
    }
}

fn main() {
    let words: Vec<String> = std::env::args().collect();
    // a recipe may make a table that is far longer than itself
    let mut lent = Lent { out: vec![0; 1 << 28], mask: u32::MAX, n: 0 };
    if let Some(mask) = words.get(4) {
        lent.mask = mask.parse().expect("a mask");
    }
    let (call, of_recipe) = call_of(&words[1]);
    let input = input_of(&words[2], of_recipe, &mut lent);
    let is_file = words[2].starts_with("file:");
    if words[1] == "read" {
        let (_, count) = measured_accept(&input, &mut lent);
        lent.n = count.saturating_sub(1);
    }
    let (mut best, mut answer) = (u128::MAX, (0, 0));
    for _ in 0..words[3].parse().expect("a number of turns") {
        let start = Instant::now();
        answer = black_box(call(black_box(&input), &mut lent));
        best = best.min(start.elapsed().as_nanos());
        assert!(is_file || answer.0 == 0, "refused at {}", answer.1);
    }
    if is_file {
        print!("{} {} ", answer.0, answer.1);
    }
    println!("{best}");
}
