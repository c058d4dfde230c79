//! The names of KMIP's tables, as options of calls take them.
use std::fmt::{self, Debug, Display, Formatter};
use std::ops::BitOr;
use std::str::FromStr;

/// That a name or a number is in no table of this crate.
#[derive(Clone, Debug, PartialEq, Eq)]
pub struct NotInTable {
    table: &'static str,
    value: String,
}

impl Display for NotInTable {
    fn fmt(&self, f: &mut Formatter<'_>) -> fmt::Result {
        write!(f, "{} has no {}", self.table, self.value)
    }
}

impl std::error::Error for NotInTable {}

/// An enumeration, whose variants are spelled as KMIP's table spells them.
macro_rules! enumeration {
    ($(#[$about:meta])* $name:ident: $($variant:ident)+) => {
        $(#[$about])*
        #[allow(non_camel_case_types)]
        #[derive(Clone, Copy, Debug, PartialEq, Eq, Hash)]
        #[non_exhaustive]
        pub enum $name {
            $(#[doc = concat!("KMIP's `", stringify!($variant), "`")] $variant,)+
        }

        impl $name {
            /// All of them, in the order of the table.
            pub const ALL: &'static [$name] = &[$($name::$variant),+];

            /// Its name, as the table has it.
            pub fn name(self) -> &'static str {
                match self {
                    $($name::$variant => stringify!($variant),)+
                }
            }

            /// Its number, as the table has it.
            pub fn number(self) -> u32 {
                self as u32 + 1
            }
        }

        /// By the name, as the table has it.
        impl FromStr for $name {
            type Err = NotInTable;

            fn from_str(name: &str) -> Result<$name, NotInTable> {
                let found = $name::ALL.iter().find(|one| one.name() == name).copied();
                found.ok_or_else(|| NotInTable { table: stringify!($name), value: name.into() })
            }
        }

        /// By the number, as the table has it.
        impl TryFrom<u32> for $name {
            type Error = NotInTable;

            fn try_from(number: u32) -> Result<$name, NotInTable> {
                let found = $name::ALL.iter().find(|one| one.number() == number).copied();
                let value = format!("0x{number:08X}");
                found.ok_or(NotInTable { table: stringify!($name), value })
            }
        }

        impl Display for $name {
            fn fmt(&self, f: &mut Formatter<'_>) -> fmt::Result {
                f.write_str(self.name())
            }
        }
    };
}

enumeration! {
    /// A digest (KMIP 1.0, 9.1.3.2.15).
    HashingAlgorithm:
    MD2 MD4 MD5 SHA1 SHA224 SHA256 SHA384 SHA512 RIPEMD160 Tiger Whirlpool
}

enumeration! {
    /// A padding (KMIP 1.0, 9.1.3.2.14; `PSS` is of KMIP 1.2).
    PaddingMethod:
    None OAEP PKCS5 SSL3 Zeros ANSI_X9_23 ISO_10126 PKCS1_v1_5 X9_31 PSS
}

enumeration! {
    /// An algorithm (KMIP 1.0, 9.1.3.2.12). Those of its table that are not here are out of the
    /// reach of calls of the grammar; [`Client::do_operation`](crate::Client::do_operation) takes
    /// each by its number.
    CryptographicAlgorithm:
    DES TRIPLE_DES AES RSA
}

enumeration! {
    /// What the bytes of a key are (KMIP 1.0, 9.1.3.2.3).
    KeyFormatType:
    Raw Opaque PKCS1 PKCS8 X509 ECPrivateKey TransparentSymmetricKey TransparentDSAPrivateKey
    TransparentDSAPublicKey TransparentRSAPrivateKey TransparentRSAPublicKey
    TransparentDHPrivateKey TransparentDHPublicKey TransparentECDSAPrivateKey
    TransparentECDSAPublicKey TransparentECHDPrivateKey TransparentECDHPublicKey
    TransparentECMQVPrivateKey TransparentECMQVPublicKey
}

enumeration! {
    /// What an object is (KMIP 1.0, 9.1.3.2.11).
    ObjectType:
    Certificate SymmetricKey PublicKey PrivateKey SplitKey Template SecretData OpaqueObject PGPKey
}

enumeration! {
    /// The state of an object (KMIP 1.0, 9.1.3.2.17).
    State:
    PreActive Active Deactivated Compromised Destroyed DestroyedCompromised
}

enumeration! {
    /// Why an object is revoked (KMIP 1.0, 9.1.3.2.18).
    RevocationReasonCode:
    Unspecified KeyCompromise CACompromise AffiliationChanged Superseded CessationOfOperation
    PrivilegeWithdrawn
}

/// What a key may be used for: one use, or several, joined by `|` (KMIP 1.0, 3.14).
#[derive(Clone, Copy, PartialEq, Eq, Hash)]
pub struct CryptographicUsageMask(i32);

/// The uses, whose constants are spelled as KMIP's table spells them.
macro_rules! uses {
    ($($name:ident = $bit:literal)+) => {
        #[allow(non_upper_case_globals)]
        impl CryptographicUsageMask {
            $(
                #[doc = concat!("KMIP's `", stringify!($name), "`")]
                pub const $name: CryptographicUsageMask = CryptographicUsageMask($bit);
            )+

            /// Each use by itself, in the order of the table.
            pub const ALL: &'static [CryptographicUsageMask] =
                &[$(CryptographicUsageMask::$name),+];

            /// Their names, as the table has them.
            pub fn names(self) -> Vec<&'static str> {
                let names = [$((stringify!($name), $bit)),+];
                names.into_iter().filter(|(_, bit)| self.0 & bit != 0).map(|(name, _)| name).collect()
            }
        }
    };
}

uses! {
    Sign = 0x1
    Verify = 0x2
    Encrypt = 0x4
    Decrypt = 0x8
    WrapKey = 0x10
    UnwrapKey = 0x20
    Export = 0x40
    MacGenerate = 0x80
    MacVerify = 0x100
    DeriveKey = 0x200
    ContentCommitmentNonRepudiation = 0x400
    KeyAgreement = 0x800
    CertificateSign = 0x1000
    CrlSign = 0x2000
    GenerateCryptogram = 0x4000
    ValidateCryptogram = 0x8000
    TranslateEncrypt = 0x1_0000
    TranslateDecrypt = 0x2_0000
    TranslateWrap = 0x4_0000
    TranslateUnwrap = 0x8_0000
}

impl CryptographicUsageMask {
    /// The bits of the uses, as an item of a message has them.
    pub fn bits(self) -> i32 {
        self.0
    }

    /// Whether all these uses are among them.
    pub fn contains(self, uses: CryptographicUsageMask) -> bool {
        self.0 & uses.0 == uses.0
    }
}

/// By the bits, of which each has to be in the table, and one set.
impl TryFrom<u32> for CryptographicUsageMask {
    type Error = NotInTable;

    fn try_from(bits: u32) -> Result<CryptographicUsageMask, NotInTable> {
        let all = CryptographicUsageMask::ALL.iter().fold(0, |bits, bit| bits | bit.0);
        let value = format!("0x{bits:08X}");
        let known = i32::try_from(bits).ok().filter(|number| *number != 0 && number & !all == 0);
        let none = NotInTable { table: "CryptographicUsageMask", value };
        known.map(CryptographicUsageMask).ok_or(none)
    }
}

/// By names with `,` between two, as [`Display`] writes them.
impl FromStr for CryptographicUsageMask {
    type Err = NotInTable;

    fn from_str(names: &str) -> Result<CryptographicUsageMask, NotInTable> {
        let of_name = |name: &str| {
            let all = CryptographicUsageMask::ALL.iter();
            let found = all.copied().find(|one| one.names() == [name]);
            let table = "CryptographicUsageMask";
            found.ok_or_else(|| NotInTable { table, value: name.into() })
        };
        let bits = names.split(',').try_fold(0, |bits, name| Ok(bits | of_name(name)?.0));
        bits.map(CryptographicUsageMask)
    }
}

impl BitOr for CryptographicUsageMask {
    type Output = CryptographicUsageMask;

    /// The uses of both.
    fn bitor(self, other: CryptographicUsageMask) -> CryptographicUsageMask {
        CryptographicUsageMask(self.0 | other.0)
    }
}

impl Display for CryptographicUsageMask {
    /// Their names with `,` between two, as the grammar has them.
    fn fmt(&self, f: &mut Formatter<'_>) -> fmt::Result {
        f.write_str(&self.names().join(","))
    }
}

impl Debug for CryptographicUsageMask {
    fn fmt(&self, f: &mut Formatter<'_>) -> fmt::Result {
        write!(f, "CryptographicUsageMask({self})")
    }
}

#[cfg(test)]
mod tests {
    use super::*;

    #[test]
    fn values_have_the_names_and_numbers_of_kmip() {
        // Rows of the tables of KMIP 1.2, 9.1.3.2.
        assert_eq!((HashingAlgorithm::Whirlpool.number(), HashingAlgorithm::ALL.len()), (11, 11));
        assert_eq!(HashingAlgorithm::SHA256.number(), 6);
        assert_eq!((PaddingMethod::PKCS1_v1_5.number(), PaddingMethod::PSS.number()), (8, 10));
        assert_eq!(CryptographicAlgorithm::RSA.number(), 4);
        assert_eq!((KeyFormatType::PKCS1.number(), KeyFormatType::ALL.len()), (3, 19));
        assert_eq!(KeyFormatType::TransparentECMQVPublicKey.number(), 0x13);
        assert_eq!((ObjectType::SymmetricKey.number(), ObjectType::PGPKey.number()), (2, 9));
        assert_eq!(State::DestroyedCompromised.number(), 6);
        assert_eq!(RevocationReasonCode::PrivilegeWithdrawn.number(), 7);
    }

    #[test]
    fn values_are_found_by_name_and_number() {
        for one in HashingAlgorithm::ALL {
            assert_eq!(one.name().parse(), Ok(*one));
            assert_eq!(HashingAlgorithm::try_from(one.number()), Ok(*one));
        }
        for (wrong, text) in [("SHA3", "SHA3"), ("", ""), ("sha256", "sha256")] {
            let error = wrong.parse::<HashingAlgorithm>().unwrap_err();
            assert_eq!(error.to_string(), format!("HashingAlgorithm has no {text}"));
        }
        for wrong in [0, 12, u32::MAX] {
            let error = HashingAlgorithm::try_from(wrong).unwrap_err().to_string();
            assert_eq!(error, format!("HashingAlgorithm has no 0x{wrong:08X}"));
        }
    }

    #[test]
    fn uses_are_a_mask() {
        use CryptographicUsageMask as Usage;
        let both = Usage::Sign | Usage::TranslateUnwrap;
        assert!(both.contains(Usage::Sign) && both.contains(both));
        assert!(!both.contains(Usage::Verify) && !Usage::Sign.contains(both));
        assert_eq!(both.to_string().parse(), Ok(both));
        assert_eq!(Usage::try_from(0x8_0001), Ok(both));
        for wrong in ["", "Sign,", "sign", "Sign, Verify", "Sign|Verify"] {
            assert!(wrong.parse::<Usage>().is_err(), "{wrong}");
        }
        for wrong in [0, 0x10_0000, 0x8000_0000] {
            assert!(Usage::try_from(wrong).is_err(), "{wrong}");
        }
    }
}
