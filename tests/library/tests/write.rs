// Write of the static library, compared with the independent implementation; and what is written, read again.
use independent::faults::{Fault, lend_faults};
use independent::filter::Filter;
use independent::filter_file::{Triple, read, write};
use independent::lent::{MARGIN, lend, margins_stay, middle};
use independent::random::Random;
use independent::samples::{NO_POINT, PRINTED_FILE, SETS, TABLES, kinds, mask_of, masks, pairs};
use independent::stored::stored;

const TAPS: [usize; 9] = [1, 2, 3, 4, 5, 6, 7, 8, 9];

type Write = fn(Filter, &mut [u8]) -> Result<usize, u8>;

// Both Writes into an output of this length full of random bytes: the same answer and the same whole output, the set and
// the table as they were. What is written, the rest of the output as it was, or the refusal, all of it as it was.
fn lend_write(random: &mut Random, filter: Filter, room: usize) -> Result<Vec<u8>, u8> {
    let entry = random.bytes(room);
    let [(proved, exit), (plain, plain_exit)] = [library::write as Write, write].map(|write| {
        let mut output = entry.clone();
        let answer = lend(filter, |lent| write(lent, &mut output));
        (answer, output)
    });
    assert_eq!(proved, plain, "Write of {filter:?}, room {room}");
    assert_eq!(exit, plain_exit, "the output after Write of {filter:?}, room {room}");
    let length = proved.unwrap_or(0);
    assert_eq!(exit[length..], entry[length..], "the rest of the output after Write of {filter:?}, room {room}");
    proved.map(|length| exit[..length].to_vec())
}

// How many bytes the file of the filter has.
fn file_length(filter: Filter) -> usize {
    Triple::of(filter).file().len()
}

// Write into an output that is one byte short, which is refused, and into one that just has room. The file, which Read
// takes back to the same n, set and table.
fn compare(random: &mut Random, n: usize, set: &[u8], table: &[u8]) -> Vec<u8> {
    let filter = Filter { n, set, table };
    let length = file_length(filter);
    assert_eq!(lend_write(random, filter, length - 1), Err(13), "Write of {filter:?}, one byte short");
    let file = lend_write(random, filter, length).expect("accepted");
    let [mut set_read, mut table_read] = [512, 512].map(|length| random.bytes(length));
    assert_eq!(library::read(&file, &mut set_read, &mut table_read), Ok(n), "Read of {file:02x?}");
    assert_eq!((&set_read[..], &table_read[..]), (set, table), "the set and the table read of {file:02x?}");
    file
}

#[test]
fn the_file_of_the_printed_sheet() {
    let file = compare(&mut Random(1), 2, &mask_of(2, |_| true), &mask_of(2, |a| a == 3));
    assert_eq!(file, PRINTED_FILE);
}

#[test]
fn every_set_and_table_of_up_to_three_taps() {
    let mut random = Random(2);
    for n in 1..=3 {
        let masks = masks(n);
        for set in &masks {
            masks.iter().for_each(|table| _ = compare(&mut random, n, set, table));
        }
    }
}

#[test]
fn every_kind_of_filter_of_every_n() {
    let mut random = Random(3);
    for (n, (for_set, for_table)) in pairs(&TAPS, &kinds().repeat(50)) {
        let (set, table) = (random.set(n, for_set), random.table(n, for_table));
        compare(&mut random, n, &set, &table);
    }
}

#[test]
fn no_point_of_every_n_is_a_single_byte_0_as_the_set_and_as_the_table() {
    let mut random = Random(10);
    for (n, kind) in pairs(&TAPS, &TABLES.repeat(10)) {
        let (set, table) = (random.set(n, NO_POINT), random.table(n, kind));
        let [file, exchanged] =
            [[&set, &table], [&table, &set]].map(|[set, table]| compare(&mut random, n, set, table));
        let list = &exchanged[1..exchanged.len() - 1];
        assert_eq!(file, [&[n as u8, 0], list].concat(), "table {table:?}");
        assert_eq!(exchanged, [&[n as u8], list, &[0]].concat(), "set {table:?}");
    }
}

#[test]
fn every_count_first_point_and_difference_of_nine_taps() {
    let mut random = Random(4);
    for k in 0..512 {
        let count = [mask_of(9, |a| a <= k), mask_of(9, |a| a < k)];
        let exchanged = [count[1].clone(), count[0].clone()];
        let first = [mask_of(9, |a| a == k), mask_of(9, |a| a >= k)];
        let difference = [mask_of(9, |a| a == 0 || a == k), mask_of(9, |a| a == 511 - k || a == 511)];
        for [set, table] in [count, exchanged, first, difference] {
            compare(&mut random, 9, &set, &table);
        }
    }
}

#[test]
fn the_filters_of_the_stored_files() {
    let (mut random, mut written) = (Random(5), 0);
    for file in stored().iter().filter(|stored| stored.is_filter_file()).map(|stored| &stored.content) {
        let (mut set, mut table) = (vec![0; 512], vec![0; 512]);
        if let Ok(n) = read(file, &mut set, &mut table) {
            assert_eq!(compare(&mut random, n, &set, &table), *file);
            written += 1;
        }
    }
    assert!(written >= 49);
}

// Outputs of every length up to three bytes past the file, which is refused for want of room or written.
fn compare_rooms(random: &mut Random, n: usize, set: &[u8], table: &[u8]) {
    let file = compare(random, n, set, table);
    for room in 0..=file.len() + 3 {
        let answer = lend_write(random, Filter { n, set, table }, room);
        assert_eq!(answer, if room < file.len() { Err(13) } else { Ok(file.clone()) }, "n = {n}, room {room}");
    }
}

#[test]
fn outputs_of_every_length_up_to_three_bytes_past_the_file() {
    let mut random = Random(6);
    for (n, kind) in pairs(&TAPS, &SETS) {
        let (set, table) = (random.set(n, kind), random.table(n, kind));
        compare_rooms(&mut random, n, &set, &table);
    }
}

#[test]
fn the_longest_file_of_every_n_into_outputs_of_every_length() {
    let mut random = Random(7);
    for n in TAPS {
        let all = mask_of(n, |_| true);
        compare_rooms(&mut random, n, &all, &all);
        for room in [2052, 2053, 2054, 4096, 65_536] {
            assert!(lend_write(&mut random, Filter { n, set: &all, table: &all }, room).is_ok());
        }
    }
    let all = mask_of(9, |_| true);
    assert_eq!(compare(&mut random, 9, &all, &all).len(), 1029);
}

// What Write alone checks, by how many bytes the output is shorter than the file: by one, and by all of them.
const WRITE_FAULTS: [Fault<usize>; 2] = [|call| call.own = 1, |call| call.own = usize::MAX];

#[test]
fn every_refusal_and_every_pair_of_them_in_order() {
    let numbers = lend_faults(
        8,
        |_, _| 0,
        &WRITE_FAULTS,
        |random, call| {
            let room = file_length(call.filter()).saturating_sub(call.own);
            lend_write(random, call.filter(), room).map(|_| ())
        },
    );
    assert_eq!(numbers, [0, 1, 4, 8, 13]);
}

#[test]
fn nothing_outside_the_lent_output_is_written() {
    let mut random = Random(9);
    for (n, kind) in pairs(&TAPS, &SETS) {
        let (set, table) = (random.set(n, kind), random.table(n, kind));
        let filter = Filter { n, set: &set, table: &table };
        let length = file_length(filter);
        for room in [0, length - 1, length, length + 1, length + 3] {
            let entry = random.bytes(MARGIN + room + MARGIN);
            let mut output = entry.clone();
            let answer = lend(filter, |lent| library::write(lent, middle(&mut output)));
            assert_eq!(answer, if room < length { Err(13) } else { Ok(length) });
            assert!(margins_stay(&entry, &output), "Write of {filter:?}, room {room}");
        }
    }
}
