//! Stand-in for the macro `bitflags!`: as much of it as one set of flags in a byte needs.

/// Declares a set of flags.
#[macro_export]
macro_rules! bitflags {
    ($(#[$outer:meta])* pub struct $name:ident: $bits:ty { $($(#[$inner:meta])* const $flag:ident = $value:expr;)* }) => {
        $(#[$outer])*
        pub struct $name($bits);

        impl $name {
            $($(#[$inner])* pub const $flag: $name = $name($value);)*

            /// The bits.
            pub const fn bits(&self) -> $bits {
                self.0
            }

            /// Whether all bits of `other` stand here.
            pub const fn contains(&self, other: $name) -> bool {
                self.0 & other.0 == other.0
            }

            /// Whether some bit of `other` stands here.
            pub const fn intersects(&self, other: $name) -> bool {
                self.0 & other.0 != 0
            }
        }

        impl std::ops::BitOr for $name {
            type Output = $name;
            fn bitor(self, other: $name) -> $name {
                $name(self.0 | other.0)
            }
        }

        impl std::ops::BitOrAssign for $name {
            fn bitor_assign(&mut self, other: $name) {
                self.0 |= other.0;
            }
        }
    };
}
