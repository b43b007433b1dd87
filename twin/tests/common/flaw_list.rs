//! How the flaws are named that a separate, slow program can have.

macro_rules! flaws {
    ($($flaw:ident)*) => {
        /// One thing that is wrong in the plain program, or nothing.
        #[derive(Clone, Copy, Debug, PartialEq, Eq)]
        pub enum Flaw { Nothing, $($flaw),* }

        /// Every flaw.
        pub const FLAWS: &[Flaw] = &[$(Flaw::$flaw),*];
    };
}
