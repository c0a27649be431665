// Hand over of the static library, compared with the independent implementation.
use independent::judgement;
use independent::random::Random;
use independent::samples::pairs;
use std::hint::black_box;

const TAPS: [usize; 14] = [0, 1, 2, 3, 4, 5, 6, 7, 8, 9, 10, 11, 64, usize::MAX];
const LENGTHS: [usize; 6] = [0, 1, 511, 512, 513, 1024];

// Both Hand overs of random buffers of these lengths, into a copy full of random bytes: the length of the same part, its
// bytes at the front of the copy as far as there is room, the rest of the copy and both buffers as they were.
fn compare(random: &mut Random, n: usize, side: u8, lengths: [usize; 2], room: usize) -> usize {
    let [one, zero] = lengths.map(|length| random.bytes(length));
    let (lent, entry) = ([one.clone(), zero.clone()], random.bytes(room));
    let mut copy = entry.clone();
    let proved = library::hand_over(n, side, black_box(&lent[0]), black_box(&lent[1]), &mut copy);
    let part = judgement::hand_over(n, side, &one, &zero);
    assert_eq!(proved, part.len(), "Hand over, n = {n}, side {side}, lengths {lengths:?}, room {room}");
    let copied = proved.min(room);
    assert_eq!(copy, [&part[..copied], &entry[copied..]].concat(), "the copy, n = {n}, side {side}, room {room}");
    assert_eq!(black_box(&lent), &[one, zero], "the buffers after Hand over");
    proved
}

#[test]
fn every_n_side_and_length() {
    let (mut random, mut handed) = (Random(1), 0);
    for ((n, side), (one, zero)) in pairs(&pairs(&TAPS, &[0, 1, 2, 3, 128, 255]), &pairs(&LENGTHS, &LENGTHS)) {
        handed += usize::from(compare(&mut random, n, side, [one, zero], 600) > 0);
    }
    assert_eq!(handed, 18);
}

#[test]
fn every_n_and_side_with_a_copy_of_every_length() {
    let mut random = Random(2);
    for (n, side) in pairs(&TAPS[1..10], &[0, 1]) {
        (0..600).for_each(|room| assert_eq!(compare(&mut random, n, side, [512, 512], room), 1 << n));
    }
}
