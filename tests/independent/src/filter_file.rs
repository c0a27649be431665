// Read and Write: docs/SPECIFICATION.md, 'Filter file' to 'Write'.
use crate::filter::Filter;
use crate::rank::{choose, points_of};
use crate::refusal::{POINTS, Refusal, lengths, require, taps};

// What a file says: n, the points of S, and the points where f is 1.
#[derive(Clone, Debug, PartialEq, Eq)]
pub struct Triple {
    pub n: usize,
    pub set: Vec<usize>,
    pub table: Vec<usize>,
}

// Draws the next varint.
fn draw_number(file: &mut impl Iterator<Item = u8>) -> Result<usize, Refusal> {
    let low = file.next().ok_or(Refusal::FileEnds)?;
    if low < 0x80 {
        return Ok(low.into());
    }
    let high = file.next().ok_or(Refusal::FileEnds)?;
    match high {
        0x01..=0x7f => Ok(usize::from(low & 0x7f) + 128 * usize::from(high)),
        _ => Err(Refusal::NumberForm),
    }
}

// Draws a list of points below the size.
fn draw_list(file: &mut impl Iterator<Item = u8>, size: usize) -> Result<Vec<usize>, Refusal> {
    let count = draw_number(file)?;
    require(count <= size, Refusal::Range)?;
    let mut points: Vec<usize> = Vec::new();
    while points.len() < count {
        let number = draw_number(file)?;
        let point = match points.last() {
            Some(_) if number == 0 => return Err(Refusal::Range),
            Some(before) => before + number,
            None => number,
        };
        require(point < size, Refusal::Range)?;
        points.push(point);
    }
    Ok(points)
}

// What the file says, or the first reason why it says nothing.
pub fn parse(file: &[u8]) -> Result<Triple, Refusal> {
    let mut file = file.iter().copied();
    let n = draw_number(&mut file)?;
    taps(n)?;
    let set = draw_list(&mut file, 1 << n)?;
    let table = draw_list(&mut file, 1 << n)?;
    require(file.next().is_none(), Refusal::Surplus)?;
    Ok(Triple { n, set, table })
}

// Read.
pub fn read(file: &[u8], set: &mut [u8], table: &mut [u8]) -> Result<usize, u8> {
    lengths(&[(set.len(), POINTS), (table.len(), POINTS)])?;
    let triple = parse(file)?;
    choose(set, triple.set);
    choose(table, triple.table);
    Ok(triple.n)
}

// The groups of a number below 16,384 as a varint, in the shortest form.
pub fn house_number(number: usize) -> Vec<u8> {
    let (low, high) = ((number % 128) as u8, (number / 128) as u8);
    if high == 0 { vec![low] } else { vec![low + 128, high] }
}

// The numbers of a list: its count, the first point, then the differences.
fn list_numbers(points: &[usize]) -> Vec<usize> {
    let differences = points.windows(2).map(|pair| pair[1] - pair[0]);
    let mut numbers = vec![points.len()];
    numbers.extend(points.first());
    numbers.extend(differences);
    numbers
}

impl Triple {
    // What the file of the filter says.
    pub fn of(filter: Filter) -> Triple {
        Triple { n: filter.n, set: points_of(filter.set), table: points_of(filter.table) }
    }

    // The numbers of the file, one after the other.
    pub fn numbers(&self) -> Vec<usize> {
        [vec![self.n], list_numbers(&self.set), list_numbers(&self.table)].concat()
    }

    // The file that says this.
    pub fn file(&self) -> Vec<u8> {
        self.numbers().into_iter().flat_map(house_number).collect()
    }
}

// Write.
pub fn write(filter: Filter, output: &mut [u8]) -> Result<usize, u8> {
    filter.check_lengths()?;
    filter.check()?;
    let file = Triple::of(filter).file();
    require(file.len() <= output.len(), Refusal::ShortOutput)?;
    output[..file.len()].copy_from_slice(&file);
    Ok(file.len())
}
