//! What refusals say.

/// Makes an error of a type, by what each of its values says.
macro_rules! says {
    ($type:ty { $($value:pat => $words:literal),+ $(,)? }) => {
        impl std::fmt::Display for $type {
            fn fmt(&self, f: &mut std::fmt::Formatter<'_>) -> std::fmt::Result {
                match self {
                    $($value => write!(f, $words)),+
                }
            }
        }

        impl std::error::Error for $type {}
    };
}

pub(crate) use says;
