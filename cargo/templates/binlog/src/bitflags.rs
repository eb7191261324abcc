//! Sets of flags, with the names of the crate `bitflags` 2.

/// A flag of a set: its name and its value.
#[derive(Debug)]
pub struct Flag<F: 'static> {
    name: &'static str,
    value: F,
}

impl<F> Flag<F> {
    /// A flag.
    pub const fn new(name: &'static str, value: F) -> Self {
        Flag { name, value }
    }

    /// Its name.
    pub fn name(&self) -> &'static str {
        self.name
    }

    /// Its value.
    pub fn value(&self) -> &F {
        &self.value
    }
}

/// A set of flags in a number.
pub trait Flags: Sized + Copy + 'static {
    /// The number that holds the set.
    type Bits: Copy + Default + std::ops::BitAnd<Output = Self::Bits> + std::ops::BitOr<Output = Self::Bits>;

    /// The known flags.
    fn flags<'a>() -> &'a [Flag<Self>];

    /// The number of the set.
    fn bits(&self) -> Self::Bits;

    /// The set of a number, unknown flags among it.
    fn from_bits_retain(bits: Self::Bits) -> Self;

    /// The known flags of a number.
    fn from_bits_truncate(bits: Self::Bits) -> Self {
        let flags = Self::flags().iter();
        let known = flags.fold(Self::Bits::default(), |known, flag| known | flag.value.bits());
        Self::from_bits_retain(bits & known)
    }
}

/// The constants, calls and operators of a set of flags.
macro_rules! bitflag_items {
    (impl $Flags:ident: $Bits:ty { $($(#[$doc:meta])* const $NAME:ident = $value:expr;)* }) => {
        impl $Flags {
            $($(#[$doc])* pub const $NAME: $Flags = $Flags($value);)*

            const FLAGS: &'static [$crate::bitflags::Flag<$Flags>] =
                &[$($crate::bitflags::Flag::new(stringify!($NAME), $Flags($value))),*];

            /// No flag.
            pub const fn empty() -> Self {
                $Flags(0)
            }

            /// All known flags.
            pub const fn all() -> Self {
                $Flags($($value |)* 0)
            }

            /// The number of the set.
            pub const fn bits(&self) -> $Bits {
                self.0
            }

            /// The set of a number, if all its flags are known.
            pub const fn from_bits(bits: $Bits) -> Option<Self> {
                if bits & !Self::all().0 == 0 { Some($Flags(bits)) } else { None }
            }

            /// The known flags of a number.
            pub const fn from_bits_truncate(bits: $Bits) -> Self {
                $Flags(bits & Self::all().0)
            }

            /// The set of a number, unknown flags among it.
            pub const fn from_bits_retain(bits: $Bits) -> Self {
                $Flags(bits)
            }

            /// Whether no flag is set.
            pub const fn is_empty(&self) -> bool {
                self.0 == 0
            }

            /// Whether all flags of another set are set.
            pub const fn contains(&self, other: Self) -> bool {
                self.0 & other.0 == other.0
            }
        }

        impl std::ops::BitOr for $Flags {
            type Output = Self;

            fn bitor(self, other: Self) -> Self {
                $Flags(self.0 | other.0)
            }
        }

        impl std::ops::BitAnd for $Flags {
            type Output = Self;

            fn bitand(self, other: Self) -> Self {
                $Flags(self.0 & other.0)
            }
        }
    };
}

pub(crate) use bitflag_items;
