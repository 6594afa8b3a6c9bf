//! How operations are built up.

/// Methods that give a field of a builder its value.
macro_rules! setters {
    ($($(#[$about:meta])* $field:ident: $kind:ty => $value:expr;)*) => {
        $($(#[$about])*
        #[must_use]
        pub fn $field(mut self, $field: $kind) -> Self {
            self.$field = $value;
            self
        })*
    };
}
pub(crate) use setters;
