//! A stand-in for the crate realfft: the complex number that the original's declip.rs names. The methods that
//! compute with it are left out of the port, and cubic declip, which is taken, makes none. So every operation
//! says that it is not there, and a call of one ends the test.

pub mod num_complex {
    use std::ops::{AddAssign, Div, Mul, MulAssign, Sub};

    #[derive(Clone, Copy, Debug)]
    pub struct Complex<T> {
        pub re: T,
        pub im: T,
    }

    impl<T> Complex<T> {
        pub fn new(_re: T, _im: T) -> Complex<T> {
            unimplemented!("a complex number")
        }

        pub fn norm(&self) -> T {
            unimplemented!("the norm of a complex number")
        }

        pub fn norm_sqr(&self) -> T {
            unimplemented!("the square of a complex number's norm")
        }

        pub fn conj(&self) -> Complex<T> {
            unimplemented!("the conjugate of a complex number")
        }
    }

    impl<T> AddAssign for Complex<T> {
        fn add_assign(&mut self, _other: Complex<T>) {
            unimplemented!("a complex sum")
        }
    }

    impl<T> Sub for &Complex<T> {
        type Output = Complex<T>;

        fn sub(self, _other: &Complex<T>) -> Complex<T> {
            unimplemented!("a complex difference")
        }
    }

    impl<T> Mul<T> for Complex<T> {
        type Output = Complex<T>;

        fn mul(self, _factor: T) -> Complex<T> {
            unimplemented!("a complex product")
        }
    }

    impl<T> MulAssign<T> for Complex<T> {
        fn mul_assign(&mut self, _factor: T) {
            unimplemented!("a complex product")
        }
    }

    impl<T> Div<T> for Complex<T> {
        type Output = Complex<T>;

        fn div(self, _divisor: T) -> Complex<T> {
            unimplemented!("a complex quotient")
        }
    }
}
