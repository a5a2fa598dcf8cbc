//! A stand-in for the crate rustfft: the transform that the original's declip.rs names. Cubic declip, which is
//! taken, makes none. So the planner says that it is not there, and a call of it ends the test.
use std::marker::PhantomData;

pub struct FftPlanner<T>(PhantomData<T>);

impl<T> FftPlanner<T> {
    #[allow(clippy::new_without_default)]
    pub fn new() -> FftPlanner<T> {
        unimplemented!("a planner of transforms")
    }

    pub fn plan_fft_forward(&mut self, _len: usize) -> Fft {
        unimplemented!("a transform")
    }

    pub fn plan_fft_inverse(&mut self, _len: usize) -> Fft {
        unimplemented!("an inverse transform")
    }
}

pub struct Fft(());

impl Fft {
    pub fn process<C>(&self, _buffer: &mut [C]) {
        unimplemented!("a transform")
    }
}
