// The tables of Bonamino and Méaux (docs/SPECIFICATION.md, 'Sources') for four and eight taps, and the proved library's
// answers to the same questions.
pub mod construction; // construction.rs: the function of Carlet, Méaux and Rotella
pub mod degrees; // degrees.rs: the degrees that Judge finds on a slice
pub mod figures; // figures.rs: the figures as they are printed
pub mod slice; // slice.rs: slices, and the balanced functions on them
