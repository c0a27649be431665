// The printed sheet: docs/SPECIFICATION.md, 'Sheet'.
use crate::certificate::named;
use crate::filter::Filter;
use crate::filter_file::read;
use crate::judgement::{Judgement, certify, judge};
use crate::rank::{columns, points_of};
use crate::refusal::{CERTIFICATE, POINTS, WORKSPACE};
use std::fmt::Write;

const INPUT: usize = 4096;

// The numbers one space apart, each after a space.
fn spaced(numbers: impl Iterator<Item = usize>) -> String {
    numbers.map(|number| format!(" {number}")).collect()
}

// The sums of the certificate of a side at degree d, a line for each point.
fn sum_lines(filter: Filter, side: u8, d: usize) -> Result<String, u8> {
    let mut certificate = vec![0; CERTIFICATE];
    certify(filter, side, d, &mut vec![0; WORKSPACE], &mut certificate)?;
    let mut lines = String::new();
    for a in 0..POINTS {
        let sum = spaced(named(&certificate, a));
        if !sum.is_empty() {
            let _ = writeln!(lines, "side {side} point {a} sum{sum}");
        }
    }
    Ok(lines)
}

// The number, or `none`.
fn or_none(number: Option<usize>) -> String {
    number.map_or("none".to_string(), |d| d.to_string())
}

// The line with the degree, and behind it the side and that side's witness, where there is a side.
fn degree_line(n: usize, judgement: &Judgement, one: &[u8], zero: &[u8]) -> String {
    let with_witness = |side: u8| {
        let witness = if side == 1 { one } else { zero };
        let chosen = columns(n, n).into_iter().filter(|u| witness[*u] == 1);
        format!(" side {side} witness{}", spaced(chosen))
    };
    format!("degree {}{}\n", or_none(judgement.degree), judgement.side.map_or(String::new(), with_witness))
}

// The line with side 1's own degree and side 0's.
fn sides_line(judgement: &Judgement) -> String {
    let [one, zero] = judgement.own_degrees.map(or_none);
    format!("sides {one} {zero}\n")
}

// The sheet of a file that is read.
fn accepted(file: &[u8]) -> Result<String, u8> {
    let (mut set, mut table) = (vec![0; POINTS], vec![0; POINTS]);
    let n = read(file, &mut set, &mut table)?;
    let [mut one, mut zero, mut kept] = [(); 3].map(|_| vec![0; POINTS]);
    let filter = Filter { n, set: &set, table: &table };
    let judgement = judge(filter, &mut vec![0; WORKSPACE], &mut one, &mut zero, &mut kept)?;
    let mut sheet = format!("n {n} points {} mark {}\n", points_of(&set).len(), or_none(judgement.mark));
    for (d, [all, part_one, part_zero]) in judgement.ranks[..=n].iter().enumerate() {
        let _ = writeln!(sheet, "{d} {all} {part_one} {part_zero}");
    }
    sheet += &degree_line(n, &judgement, &one, &zero);
    sheet += &sides_line(&judgement);
    if let Some(d) = judgement.degree.and_then(|k| k.checked_sub(1)) {
        sheet += &sum_lines(filter, 1, d)?;
        sheet += &sum_lines(filter, 0, d)?;
    }
    let _ = writeln!(sheet, "additions {}", judgement.additions);
    Ok(sheet)
}

// What the sheet program prints for this standard input.
pub fn sheet(input: &[u8]) -> String {
    let file = &input[..input.len().min(INPUT)];
    accepted(file).unwrap_or_else(|number| format!("refused {number}\n"))
}
