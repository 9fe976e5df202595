//! Every string up to a length over an alphabet, the short ones first.

pub struct Sweep<'a> {
    alphabet: &'a [u8],
    most: usize,
    /// The alphabet's places that spell the next string; none when all are given.
    places: Option<Vec<usize>>,
}

impl<'a> Sweep<'a> {
    pub fn new(most: usize, alphabet: &'a [u8]) -> Sweep<'a> {
        Sweep {
            alphabet,
            most,
            places: Some(Vec::new()),
        }
    }

    /// Counts one up, the last place fastest, and goes to the next length after the last string.
    fn advance(&mut self, mut places: Vec<usize>) -> Option<Vec<usize>> {
        for place in places.iter_mut().rev() {
            *place += 1;
            if *place < self.alphabet.len() {
                return Some(places);
            }
            *place = 0;
        }
        places.push(0);
        (places.len() <= self.most).then_some(places)
    }
}

impl Iterator for Sweep<'_> {
    type Item = Vec<u8>;

    fn next(&mut self) -> Option<Vec<u8>> {
        let places = self.places.take()?;
        let text = places.iter().map(|&place| self.alphabet[place]).collect();
        self.places = self.advance(places);
        Some(text)
    }
}
