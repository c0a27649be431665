// Buffers that are lent, for tests: that what an operation reads stays as it was, and that it writes nothing beside what
// it is lent.
use crate::filter::Filter;
use crate::random::Random;
use std::hint::black_box;

// What the operation answers when it is lent a copy of the set and of the table, which stay as they were.
pub fn lend<A>(filter: Filter, operation: impl FnOnce(Filter) -> A) -> A {
    let (set, table) = (filter.set.to_vec(), filter.table.to_vec());
    let answer = operation(Filter { n: filter.n, set: black_box(&set), table: black_box(&table) });
    assert_eq!(black_box((&set[..], &table[..])), (filter.set, filter.table), "the set and the table at exit");
    answer
}

// So many elements stand on each side of a buffer that is lent.
pub const MARGIN: usize = 64;

// The bytes with random ones on each side.
pub fn around(random: &mut Random, bytes: &[u8]) -> Vec<u8> {
    let [before, behind] = [(); 2].map(|_| random.bytes(MARGIN));
    [&before, bytes, &behind].concat()
}

// The part of a buffer that is lent.
pub fn middle<T>(buffer: &mut [T]) -> &mut [T] {
    let end = buffer.len() - MARGIN;
    &mut buffer[MARGIN..end]
}

// Whether the buffer is as it was on both sides of its middle.
pub fn margins_stay<T: PartialEq>(entry: &[T], exit: &[T]) -> bool {
    let end = entry.len() - MARGIN;
    entry[..MARGIN] == exit[..MARGIN] && entry[end..] == exit[end..]
}
