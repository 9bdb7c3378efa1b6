//! Errors, with the texts that the tools print.
use std::fmt;

/// Why a call fails.
#[derive(Clone, Copy, Debug, PartialEq, Eq)]
#[non_exhaustive]
pub enum Error {
    /// Memory was refused.
    Memory,
    /// A name or a path is not UTF-8.
    NotUtf8,
    /// A text is no pattern; the offset in bytes says where.
    Pattern(PatternFault, usize),
    /// Bytes are no index, or a posting list is damaged.
    Index(IndexFault),
    /// An index cannot be built.
    Build(BuildFault),
    /// Two indexes cannot be merged.
    Merge(MergeFault),
    /// A code that this version of the crate does not know.
    Unknown(i32),
}

// Enums whose codes are consecutive: the first, and those above it (1) or below it (-1).
macro_rules! faults {
    ($($(#[$doc:meta])* $name:ident from $first:literal by $step:literal { $($variant:ident: $text:literal,)* })*) => {$(
        $(#[$doc])*
        #[derive(Clone, Copy, Debug, PartialEq, Eq)]
        pub enum $name { $(#[doc = $text] $variant,)* }

        impl $name {
            const TEXTS: &'static [($name, &'static str)] = &[$(($name::$variant, $text),)*];

            pub(crate) fn of(code: i32) -> Option<$name> {
                let at = usize::try_from((i64::from(code) - $first) * $step).ok()?;
                $name::TEXTS.get(at).map(|(fault, _)| *fault)
            }
        }

        impl fmt::Display for $name {
            fn fmt(&self, out: &mut fmt::Formatter<'_>) -> fmt::Result {
                out.write_str($name::TEXTS[*self as usize].1)
            }
        }

        impl std::error::Error for $name {}
    )*};
}

faults! {
    /// Why a text is no pattern.
    PatternFault from -20 by -1 {
        NoOperand: "nothing to repeat",
        StackedRepeat: "a repeat of a repeat",
        BadRepeat: "a bad count of a repeat",
        OpenGroup: "a group is not closed",
        StrayClose: "a parenthesis closes no group",
        BadGroup: "a bad head of a group",
        OpenClass: "a class is not closed",
        BadRange: "a bad range or name in a class",
        BadEscape: "a bad escape",
        LoneBackslash: "a backslash at the end",
        NotInProfile: "not in this profile",
        TooDeep: "nested too deep",
        TooLarge: "the pattern is too large",
    }

    /// What an index does not have.
    IndexFault from -40 by -1 {
        BadMagic: "magic",
        BadTrailer: "trailer",
        BadOffsets: "offsets",
        BadPaths: "paths",
        BadNames: "names",
        BadNameIndex: "name index",
        BadListIndex: "list index",
        BadList: "list",
    }

    /// Why an index cannot be built.
    BuildFault from -60 by -1 {
        BadName: "bad name",
        OutOfOrder: "name out of order",
        BadPaths: "bad paths",
        TooLarge: "too large",
    }

    /// Why two indexes cannot be merged, if neither has another error.
    MergeFault from -80 by -1 {
        Unsorted: "index holds a name twice",
        Uncovered: "name outside the paths",
    }

    /// Why an index leaves a text out.
    Skip from 1 by 1 {
        Nul: "a byte 0",
        Utf8: "not UTF-8",
        TooLong: "too long",
        LongLine: "a line is too long",
        ManyTrigrams: "too many trigrams",
    }
}

impl Error {
    pub(crate) fn of(code: i32, offset: usize) -> Error {
        match code {
            -1 => Error::Memory,
            -2 => Error::NotUtf8,
            _ => PatternFault::of(code)
                .map(|fault| Error::Pattern(fault, offset))
                .or_else(|| IndexFault::of(code).map(Error::Index))
                .or_else(|| BuildFault::of(code).map(Error::Build))
                .or_else(|| MergeFault::of(code).map(Error::Merge))
                .unwrap_or(Error::Unknown(code)),
        }
    }
}

impl fmt::Display for Error {
    fn fmt(&self, out: &mut fmt::Formatter<'_>) -> fmt::Result {
        match self {
            Error::Memory => out.write_str("out of memory"),
            Error::NotUtf8 => out.write_str("not UTF-8"),
            Error::Pattern(fault, offset) => write!(out, "bad pattern at byte {offset}: {fault}"),
            Error::Index(fault) => write!(out, "bad index: {fault}"),
            Error::Build(fault) => fault.fmt(out),
            Error::Merge(fault) => fault.fmt(out),
            Error::Unknown(code) => write!(out, "error {code}"),
        }
    }
}

impl std::error::Error for Error {}
