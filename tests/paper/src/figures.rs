// The figures as they are printed, also where a table contradicts another.

// Two tables of n taps, each with its name: of the shares of the degrees, a line for each degree with a share for each
// slice; and of the mean degrees and mean seconds on each slice.
pub struct Tables {
    pub n: usize,
    pub names: [&'static str; 2],
    pub shares: &'static [&'static [f64]],
    pub means: &'static [f64],
    pub seconds: &'static [f64],
}

// Tables 2a and 3a: every balanced function on each slice of four taps.
pub const FOUR_TAPS: Tables = Tables {
    n: 4,
    names: ["2a", "3a"],
    shares: &[&[1.00, 0.00, 0.00, 0.00, 1.00], &[0.00, 1.00, 0.00, 1.00, 0.00], &[0.00, 0.00, 1.00, 0.00, 0.00]],
    means: &[0.00, 1.00, 1.00, 1.00, 0.00],
    seconds: &[0.000053, 0.052649, 0.048703, 0.058630, 0.000006],
};

// Tables 2b and 3b: so many balanced functions drawn on each slice of eight taps.
pub const EIGHT_TAPS: Tables = Tables {
    n: 8,
    names: ["2b", "3b"],
    shares: &[
        &[1.00, 0.00, 0.00, 0.00, 0.00, 0.00, 0.00, 0.00, 1.00],
        &[0.00, 1.00, 0.00, 0.00, 0.00, 0.00, 0.05, 1.00, 0.00],
        &[0.00, 0.00, 1.00, 0.98, 0.00, 0.98, 0.95, 0.00, 0.00],
        &[0.00, 0.00, 0.00, 0.02, 0.13, 0.02, 0.00, 0.00, 0.00],
        &[0.00, 0.00, 0.00, 0.00, 0.87, 0.00, 0.00, 0.00, 0.00],
    ],
    means: &[0.00, 1.00, 1.95, 2.02, 2.89, 2.02, 1.95, 1.00, 0.00],
    seconds: &[0.000004768, 0.0756, 0.086, 0.094, 0.090, 0.102, 0.0924, 0.093818, 0.00001621],
};

// The functions drawn for tables 2b and 3b on each slice.
pub const DRAWN: usize = 1 << 15;

// Table 4: the degree of the function of Carlet, Méaux and Rotella on each slice of eight taps.
pub const CONSTRUCTION: [usize; 9] = [0, 1, 1, 2, 2, 2, 2, 1, 0];

// Table 5: the estimated average and the upper bound of the degree on the slices 2 to 6 of eight taps.
pub const AVERAGES: [(usize, f64); 5] = [(2, 1.95), (3, 2.02), (4, 2.87), (5, 2.02), (6, 1.95)];
pub const BOUNDS: [(usize, usize); 5] = [(2, 2), (3, 3), (4, 3), (5, 3), (6, 2)];

impl Tables {
    // The shares of the degrees on the slice k.
    pub fn shares(&self, k: usize) -> Vec<f64> {
        self.shares.iter().map(|line| line[k]).collect()
    }
}
