//! The kinds of logs, and what keys may do in them.
use std::fmt;
use std::str::FromStr;

mod sealed {
    pub trait Sealed {}
    impl Sealed for super::Package {}
    impl Sealed for super::Operator {}
}

/// A kind of log: [`Package`] or [`Operator`].
pub trait LogKind: sealed::Sealed {
    /// What a key may do in a log of this kind.
    type Permission: Permission;

    /// The kind's number in `include/warg.h`.
    const NUMBER: u32;

    /// What stands before the bytes of a record where it is signed.
    const SIGNATURE_PREFIX: &'static [u8];
}

/// The log of a package: its releases.
#[derive(Clone, Copy, Debug)]
pub enum Package {}

/// The log of a registry's operators: its namespaces.
#[derive(Clone, Copy, Debug)]
pub enum Operator {}

impl LogKind for Package {
    type Permission = PackagePermission;
    const NUMBER: u32 = 0;
    const SIGNATURE_PREFIX: &'static [u8] = b"WARG-PACKAGE-RECORD-SIGNATURE-V0:";
}

impl LogKind for Operator {
    type Permission = OperatorPermission;
    const NUMBER: u32 = 1;
    const SIGNATURE_PREFIX: &'static [u8] = b"WARG-OPERATOR-RECORD-SIGNATURE-V0:";
}

/// What a key may do.
pub trait Permission: Copy + Eq + fmt::Debug + fmt::Display + FromStr<Err = UnknownPermission> {
    /// The permission's name.
    fn as_str(self) -> &'static str;

    /// The permission's number in a record.
    fn number(self) -> u8;
}

/// A text names no permission.
#[derive(Clone, Copy, Debug, PartialEq, Eq)]
pub struct UnknownPermission;

impl fmt::Display for UnknownPermission {
    fn fmt(&self, f: &mut fmt::Formatter<'_>) -> fmt::Result {
        f.write_str("no such permission")
    }
}

impl std::error::Error for UnknownPermission {}

// A permission from its cases, each with its name and its number.
macro_rules! permission {
    ($(#[$about:meta])* $name:ident { $($(#[$case_about:meta])* $case:ident $text:literal $number:literal)* }) => {
        $(#[$about])*
        #[derive(Clone, Copy, Debug, PartialEq, Eq, Hash)]
        #[non_exhaustive]
        pub enum $name { $($(#[$case_about])* $case),* }

        impl Permission for $name {
            fn as_str(self) -> &'static str {
                match self { $($name::$case => $text),* }
            }

            fn number(self) -> u8 {
                match self { $($name::$case => $number),* }
            }
        }

        impl fmt::Display for $name {
            fn fmt(&self, f: &mut fmt::Formatter<'_>) -> fmt::Result {
                f.write_str(self.as_str())
            }
        }

        impl FromStr for $name {
            type Err = UnknownPermission;

            fn from_str(text: &str) -> Result<Self, UnknownPermission> {
                match text { $($text => Ok($name::$case),)* _ => Err(UnknownPermission) }
            }
        }
    };
}

// The cases are those of crates/warg_permissions: `tools/release --copies` writes them.
permission! {
    /// What a key may do in the log of a package.
    PackagePermission {
        /// Release versions.
        Release "release" 1
        /// Yank versions.
        Yank "yank" 2
    }
}

permission! {
    /// What a key may do in the log of a registry's operators.
    OperatorPermission {
        /// Sign checkpoints, and grant and revoke permissions.
        Commit "commit" 1
        /// Define namespaces.
        DefineNamespace "defineNamespace" 2
        /// Import namespaces from other registries.
        ImportNamespace "importNamespace" 3
    }
}
