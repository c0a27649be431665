// The operations of docs/SPECIFICATION.md in plain Rust, written from words and by another road than the proved code.
// Each answers what is specified, or the number of its refusal.
pub mod annihilator; // annihilator.rs: the lowest degree of an annihilator
pub mod certificate; // certificate.rs: the bits of a certificate
pub mod check; // check.rs: Check
pub mod faults; // faults.rs: calls that are wrong, for tests
pub mod filter; // filter.rs: a filter as it is lent, and its checks
pub mod filter_file; // filter_file.rs: Read, Write, and the file of a triple
pub mod judgement; // judgement.rs: Judge, Certify, Hand over
pub mod kept; // kept.rs: the kept points of an elimination
pub mod known; // known.rs: filters whose sides' own degrees are known, for tests
pub mod known_mark; // known_mark.rs: sets whose marks are known, for tests
pub mod lent; // lent.rs: buffers that are lent, for tests
pub mod mark; // mark.rs: the mark of a set
pub mod named; // named.rs: filter files with names
pub mod normal_form; // normal_form.rs: Convert, Degree
pub mod other_sums; // other_sums.rs: certificates with other sums than those of Certify, for tests
pub mod random; // random.rs: a random generator for tests
pub mod rank; // rank.rs: Rank
pub mod rearrange; // rearrange.rs: Rearrange
pub mod refusal; // refusal.rs: the refusals, and the checks that several operations make
pub mod report; // report.rs: Judge with a report
pub mod samples; // samples.rs: masks, filters and files for tests
pub mod sheet; // sheet.rs: the printed sheet
pub mod span; // span.rs: vectors over two elements, and which of them are sums of earlier ones
pub mod stored; // stored.rs: the files of the repository that come from here
pub mod wirings; // wirings.rs: wirings, and lists that are none, for tests
