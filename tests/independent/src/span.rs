// Vectors over the field of two elements, and which of them are sums of earlier ones.

// A vector of 512 bits.
#[derive(Clone, Copy, Debug, Default, PartialEq, Eq)]
pub struct Bits([u64; 8]);

impl FromIterator<usize> for Bits {
    // The vector with ones at the given places, each given once.
    fn from_iter<I: IntoIterator<Item = usize>>(places: I) -> Bits {
        let mut bits = Bits::default();
        places.into_iter().for_each(|i| bits.0[i / 64] |= 1 << (i % 64));
        bits
    }
}

impl Bits {
    // The sum of two vectors.
    pub fn plus(self, other: Bits) -> Bits {
        Bits(std::array::from_fn(|k| self.0[k] ^ other.0[k]))
    }

    // How many places have a one.
    pub fn count(self) -> usize {
        self.0.iter().map(|word| word.count_ones() as usize).sum()
    }

    // The highest place with a one.
    pub fn highest(self) -> Option<usize> {
        let k = self.0.iter().rposition(|word| *word != 0)?;
        Some(k * 64 + 63 - self.0[k].leading_zeros() as usize)
    }

    // The places with a one, rising.
    pub fn places(self) -> impl Iterator<Item = usize> {
        (0..512).filter(move |i| self.0[i / 64] >> (i % 64) & 1 == 1)
    }
}

// A vector of the span, and the names of the kept vectors that sum to it.
type Member = (Bits, Bits);

// The span of named vectors. A vector is kept if it is not a sum of earlier ones.
#[derive(Default)]
pub struct Span {
    // At each place the member whose highest one is there, if any.
    members: Vec<Option<Member>>,
}

impl FromIterator<(usize, Bits)> for Span {
    // The span of vectors taken in this order, each after its name.
    fn from_iter<I: IntoIterator<Item = (usize, Bits)>>(vectors: I) -> Span {
        let mut span = Span::default();
        vectors.into_iter().for_each(|(name, vector)| span.take(name, vector));
        span
    }
}

impl Span {
    // Adds members to the vector from its highest one down: what remains, and the names of the kept vectors added.
    fn reduce(&self, vector: Bits) -> Member {
        let (mut rest, mut names) = (vector, Bits::default());
        while let Some((member, its_names)) = rest.highest().and_then(|i| *self.members.get(i)?) {
            rest = rest.plus(member);
            names = names.plus(its_names);
        }
        (rest, names)
    }

    // Keeps the vector if it is not a sum of earlier ones.
    fn take(&mut self, name: usize, vector: Bits) {
        let (rest, names) = self.reduce(vector);
        if let Some(i) = rest.highest() {
            self.members.resize(self.members.len().max(i + 1), None);
            self.members[i] = Some((rest, names.plus(Bits::from_iter([name]))));
        }
    }

    // The number of vectors kept.
    pub fn rank(&self) -> usize {
        self.members.iter().flatten().count()
    }

    // The highest places with a one of the vectors in the span that are not zero, rising.
    pub fn highest_places(&self) -> impl DoubleEndedIterator<Item = usize> {
        (0..self.members.len()).filter(|i| self.members[*i].is_some())
    }

    // The names of the kept vectors that sum to this one, if it is in the span.
    pub fn express(&self, vector: Bits) -> Option<Bits> {
        let (rest, names) = self.reduce(vector);
        (rest == Bits::default()).then_some(names)
    }
}

// A basis of the choices of named vectors that sum to zero: each vector that is not kept, with the kept ones that sum
// to it.
pub fn relations(vectors: impl Iterator<Item = (usize, Bits)>) -> Vec<Bits> {
    let (mut span, mut found) = (Span::default(), Vec::new());
    for (name, vector) in vectors {
        match span.express(vector) {
            Some(names) => found.push(names.plus(Bits::from_iter([name]))),
            None => span.take(name, vector),
        }
    }
    found
}
