// Tables 2b, 3b and 5, balanced functions drawn on slices of eight taps, by the proved library and within a tolerance.
// A printed figure is rounded to hundredths, and is the mean of DRAWN draws as ours is of SAMPLE. So two figures that
// estimate the same differ by at most 0.005 and four standard errors of the difference; more is left to one fair draw
// in 15,000. The draws here are the same in every run.
use independent::random::Random;
use paper::degrees::{Degrees, mean};
use paper::figures::{AVERAGES, DRAWN, EIGHT_TAPS};
use paper::slice::Slice;

const SAMPLE: usize = 1 << 13;
const ROUNDING: f64 = 0.005;

// The shares of the degrees 0 to 4 among functions drawn on the slice k, none of which is over the mark.
fn shares(k: usize) -> [f64; 5] {
    let (slice, mut random) = (Slice::new(8, k), Random(k as u64));
    let found = Degrees::new(&slice, (0..SAMPLE).map(|_| slice.drawn(&mut random)));
    assert!((slice.mark() + 1..=8).all(|degree| found.share(degree) == 0.0), "weight {k}: over the mark");
    [0, 1, 2, 3, 4].map(|degree| found.share(degree))
}

// Whether a figure found can estimate what the printed one does, if a draw has this variance.
fn agree(found: f64, printed: f64, variance: f64) -> bool {
    let error = (variance * (1.0 / SAMPLE as f64 + 1.0 / DRAWN as f64)).sqrt();
    (found - printed).abs() <= ROUNDING + 4.0 * error
}

// Whether each share found agrees with the printed one beside it.
fn shares_agree(found: &[f64], printed: &[f64]) -> bool {
    found.iter().zip(printed).all(|(found, printed)| agree(*found, *printed, found * (1.0 - found)))
}

#[test]
fn on_eight_taps_every_mean_is_that_of_tables_3b_and_5() {
    let found: Vec<[f64; 5]> = (0..=8).map(shares).collect();
    for (k, printed) in EIGHT_TAPS.means.iter().copied().enumerate().chain(AVERAGES) {
        let mean = mean(&found[k]);
        let squares = (0..5).map(|degree| (degree as f64 - mean).powi(2));
        let variance = squares.zip(found[k]).map(|(square, share)| square * share).sum();
        assert!(agree(mean, printed, variance), "weight {k}: {mean}, and {printed} is printed");
    }
}

#[test]
fn on_eight_taps_every_share_is_that_of_table_2b_but_at_weights_2_and_4() {
    for k in [0, 1, 3, 5, 6, 7, 8] {
        let (found, printed) = (shares(k), EIGHT_TAPS.shares(k));
        assert!(shares_agree(&found, &printed), "weight {k}: {found:?}, and {printed:?} is printed");
    }
}

#[test]
fn at_weight_2_the_shares_are_those_printed_at_weight_6() {
    let found = shares(2);
    assert!(shares_agree(&found, &EIGHT_TAPS.shares(6)) && !shares_agree(&found, &EIGHT_TAPS.shares(2)), "{found:?}");
}

#[test]
fn at_weight_4_the_shares_are_those_printed_a_degree_higher() {
    let (found, printed) = (shares(4), EIGHT_TAPS.shares(4));
    assert!(shares_agree(&found, &printed[1..]) && !shares_agree(&found, &printed), "{found:?}");
}
