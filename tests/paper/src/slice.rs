// Slices, the points of one weight, and the functions that are balanced on one.
use independent::filter::Filter;
use independent::normal_form::weight;
use independent::random::Random;
use independent::rank::points_of;
use independent::samples::mask_of;

// The points of n taps of weight k.
pub struct Slice {
    pub n: usize,
    pub k: usize,
    pub points: Vec<usize>,
    set: Vec<u8>,
}

impl Slice {
    // The slice k of n taps.
    pub fn new(n: usize, k: usize) -> Slice {
        let set = mask_of(n, |a| weight(a) == k);
        Slice { n, k, points: points_of(&set), set }
    }

    // The slices of n taps.
    pub fn all(n: usize) -> impl Iterator<Item = Slice> {
        (0..=n).map(move |k| Slice::new(n, k))
    }

    // The slice with a table, as it is lent.
    pub fn filter<'a>(&'a self, table: &'a [u8]) -> Filter<'a> {
        Filter { n: self.n, set: &self.set, table }
    }

    // At how many of the points a balanced function is 1: at half of them; not at the one of weight 0, and at the one of
    // weight n.
    pub fn ones(&self) -> usize {
        (self.points.len() + usize::from(self.k == self.n)) / 2
    }

    // Every balanced function.
    pub fn balanced(&self) -> impl Iterator<Item = Vec<u8>> {
        let choices = 0..1usize << self.points.len();
        choices.filter(|choice| choice.count_ones() as usize == self.ones()).map(|choice| {
            let chosen = self.points.iter().enumerate().filter(|(i, _)| choice >> i & 1 == 1);
            table_of(chosen.map(|(_, a)| *a))
        })
    }

    // A balanced function, each as likely as any other.
    pub fn drawn(&self, random: &mut Random) -> Vec<u8> {
        let mut points = self.points.clone();
        for i in 0..self.ones() {
            let j = i + random.below(points.len() - i);
            points.swap(i, j);
        }
        table_of(points.into_iter().take(self.ones()))
    }

    // The mark, the bound for sets, which Judge of the proved library answers with every table.
    pub fn mark(&self) -> usize {
        let [mut one, mut zero, mut kept] = [[0; 512]; 3];
        let (filter, report) = (self.filter(&[0; 512]), &mut [0; 36]);
        let judged = library::judge(filter, &mut [0; 8192], &mut one, &mut zero, &mut kept, report);
        judged.expect("accepted").mark.expect("a slice has a point")
    }
}

// The table that is 1 at these points.
fn table_of(points: impl Iterator<Item = usize>) -> Vec<u8> {
    let mut table = vec![0; 512];
    points.for_each(|a| table[a] = 1);
    table
}
