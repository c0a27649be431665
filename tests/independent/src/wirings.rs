// Wirings, and lists that are none, for tests.
use crate::random::Random;
use crate::samples::damaged;
use std::iter::successors;

// The wiring of n taps that changes nothing.
pub fn identity(n: usize) -> Vec<u8> {
    (1..=n as u8).collect()
}

// Every wiring of n taps, of which there are few: tap n stands at each place of each wiring of one tap less.
pub fn wirings(n: usize) -> Vec<Vec<u8>> {
    (1..=n as u8).fold(vec![vec![]], |fewer: Vec<Vec<u8>>, tap| {
        let put = |wiring: &Vec<u8>, place: usize| [&wiring[..place], &[tap], &wiring[place..]].concat();
        fewer.iter().flat_map(|wiring| (0..=wiring.len()).map(move |place| put(wiring, place))).collect()
    })
}

// Every list of up to so many entries, each at most the highest.
pub fn lists(most: usize, highest: u8) -> Vec<Vec<u8>> {
    let longer = |shorter: &Vec<Vec<u8>>| {
        let put = |list: &Vec<u8>| (0..=highest).map(|entry| [&list[..], &[entry]].concat()).collect::<Vec<Vec<u8>>>();
        Some(shorter.iter().flat_map(put).collect())
    };
    successors(Some(vec![vec![]]), longer).take(most + 1).flatten().collect()
}

// The wiring with one fault: cut, with an entry dropped, with any other byte in its stead, or with any byte more, at every
// place. None of these lists is a wiring of as many taps.
pub fn broken(wiring: &[u8]) -> Vec<Vec<u8>> {
    let values: Vec<u8> = (0..=255).collect();
    let lists = (0..=wiring.len()).flat_map(|place| damaged(wiring, place, &values));
    lists.filter(|list| list != wiring).collect()
}

impl Random {
    // A wiring of n taps.
    pub fn wiring(&mut self, n: usize) -> Vec<u8> {
        self.shuffled(n).into_iter().map(|place| place as u8 + 1).collect()
    }
}
