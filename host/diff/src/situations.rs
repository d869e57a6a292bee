//! Situations that rules differ on, and how many came of each: a run that misses one can't tell those rules apart.

/// situations!(TALLY, TITLE, CASE: NAME, ..): the cases as an enum `Came`, and a tally of them.
macro_rules! situations {
    ($tally:ident, $title:literal, $($case:ident: $name:literal,)*) => {
        #[derive(Clone, Copy)]
        enum Came {
            $($case,)*
        }

        const NAMES: [&str; [$(Came::$case),*].len()] = [$($name),*];

        /// How many came of each.
        #[derive(Default)]
        pub struct $tally([usize; NAMES.len()]);

        impl $tally {
            fn came(&mut self, what: Came, so: bool) {
                self.0[what as usize] += usize::from(so);
            }

            /// Those that never came.
            pub fn missing(&self) -> Vec<String> {
                let names = NAMES.iter().zip(self.0).filter(|(_, came)| *came == 0);
                names.map(|(name, _)| format!("{} {}", $title, name)).collect()
            }
        }

        impl std::ops::AddAssign for $tally {
            fn add_assign(&mut self, more: $tally) {
                for (sum, more) in self.0.iter_mut().zip(more.0) {
                    *sum += more;
                }
            }
        }

        impl std::fmt::Display for $tally {
            fn fmt(&self, f: &mut std::fmt::Formatter) -> std::fmt::Result {
                f.write_str($title)?;
                for (place, (name, came)) in NAMES.iter().zip(self.0).enumerate() {
                    write!(f, "{} {} {}", if place == 0 { ":" } else { "," }, came, name)?;
                }
                Ok(())
            }
        }
    };
}
pub(crate) use situations;
