//! Stands in for the crate rand: the choices are made by a list of draws instead of a generator.

pub mod rngs {
    /// The draws of a job, read in order and from the front again after the last.
    #[derive(Clone, Debug)]
    pub struct Draws {
        draws: Vec<u32>,
        place: usize,
    }

    impl Draws {
        pub fn new(draws: Vec<u32>) -> Self {
            Self { draws, place: 0 }
        }

        pub fn draw(&mut self) -> usize {
            let draw = self.draws[self.place];

            self.place = (self.place + 1) % self.draws.len();

            draw as usize
        }
    }
}

pub mod seq {
    use crate::rngs::Draws;

    pub trait IteratorRandom: Iterator + Sized {
        /// The item at one draw modulo the number of items.
        fn choose(self, draws: &mut Draws) -> Option<Self::Item> {
            self.choose_multiple(draws, 1).pop()
        }

        /// Items in the order of their draws: each at a draw modulo the number of items left, which keep their order.
        fn choose_multiple(self, draws: &mut Draws, amount: usize) -> Vec<Self::Item> {
            let mut left = self.collect::<Vec<_>>();

            (0..amount.min(left.len()))
                .map(|_| left.remove(draws.draw() % left.len()))
                .collect()
        }
    }

    impl<I: Iterator> IteratorRandom for I {}
}
