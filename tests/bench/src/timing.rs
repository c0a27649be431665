// Several contenders timed in one run.
use std::fmt::Debug;
use std::hint::black_box;
use std::time::Instant;

// What is timed: a function that is lent a workspace.
pub type Contender<'a, A> = Box<dyn Fn(&mut [u64]) -> A + 'a>;

// Calls each contender once, with its own workspace, which is not cleared between calls. All answer what is wanted; the
// microseconds that each takes are kept where they are the least so far.
fn turn<A: PartialEq + Debug>(contenders: &[Contender<A>], workspaces: &mut [Vec<u64>], wanted: &A, least: &mut [f64]) {
    for (i, contender) in contenders.iter().enumerate() {
        let start = Instant::now();
        let answer = black_box(contender(&mut workspaces[i]));
        least[i] = least[i].min(start.elapsed().as_secs_f64() * 1e6);
        assert_eq!(answer, *wanted, "contender {i} answers otherwise");
    }
}

// For each input the answer that all its contenders give, and the least microseconds of each over so many rounds. In a
// round the inputs take turns, since a processor that meets the same input call after call foresees its branches.
pub fn race<A: PartialEq + Debug>(rounds: usize, inputs: &[Vec<Contender<A>>]) -> Vec<(A, Vec<f64>)> {
    let mut workspaces = vec![vec![0; 8192]; inputs[0].len()];
    let untimed = |input: &Vec<Contender<A>>| (input[0](&mut [0; 8192]), vec![f64::INFINITY; input.len()]);
    let mut found: Vec<(A, Vec<f64>)> = inputs.iter().map(untimed).collect();
    for _ in 0..rounds {
        let turns = inputs.iter().zip(&mut found);
        turns.for_each(|(input, (wanted, least))| turn(input, &mut workspaces, wanted, least));
    }
    found
}

// The mean times of each contender over the inputs.
pub fn means<A>(found: &[(A, Vec<f64>)]) -> Vec<f64> {
    let mean = |i: usize| found.iter().map(|(_, times)| times[i]).sum::<f64>() / found.len() as f64;
    (0..found[0].1.len()).map(mean).collect()
}

// The times with so many digits behind the point, and the first one's ratio to each of the others.
pub fn line_of(times: &[f64], digits: usize) -> String {
    let others = times[1..].iter().map(|other| format!("{other:10.digits$} {:6.2}", times[0] / other));
    format!("{:10.digits$}{}", times[0], others.collect::<String>())
}

// The same of times in microseconds.
pub fn line(times: &[f64]) -> String {
    line_of(times, 1)
}
