//! What a row of the table of calls is.

/// A name that a word takes, and its other spellings.
#[derive(PartialEq, Eq)]
pub struct Value {
    pub name: &'static str,
    pub others: &'static [&'static str],
}

pub const fn value(name: &'static str, others: &'static [&'static str]) -> Value {
    Value { name, others }
}

/// What a word is.
#[derive(Clone, Copy)]
pub enum Kind {
    Id,
    Text,
    Data,
    Number,
    Truth,
    Date,
    Name(&'static [Value]),
    Names(&'static [Value]),
    Attribute,
    Flag,
}

/// A word of a call, or an attribute.
pub struct Word {
    pub name: &'static str,
    pub kind: Kind,
}

/// An option.
pub struct Given {
    pub name: &'static str,
    pub kind: Kind,
    pub is_needed: bool,
}

/// An option that may be left out.
pub const fn given(name: &'static str, kind: Kind) -> Given {
    Given { name, kind, is_needed: false }
}

/// One that may not.
pub const fn needed(name: &'static str, kind: Kind) -> Given {
    Given { name, kind, is_needed: true }
}

/// A call.
pub struct Call {
    pub name: &'static str,
    /// KMIP's name of its operation; empty where it may be any.
    pub operation: &'static str,
    /// Under which heading of the help it stands.
    pub group: &'static str,
    pub help: &'static str,
    pub words: &'static [Word],
    /// What may stand behind the words, as often as one likes.
    pub more: Option<&'static Word>,
    pub options: &'static [Given],
    /// The member of the answer that is the call's own value: what `-o` and `--raw` write.
    pub gives: &'static str,
    /// Whether that value may be secret.
    pub is_secret: bool,
    /// Whether the answer says that something is valid, or not.
    pub says_valid: bool,
    pub example: &'static str,
}

impl Kind {
    /// The values that the word takes, where there are so many.
    pub fn values(self) -> &'static [Value] {
        match self {
            Kind::Name(values) | Kind::Names(values) => values,
            _ => &[],
        }
    }

    /// The name that is sent for a name as it was typed.
    pub fn name_of(self, typed: &str) -> Option<&'static str> {
        let is_it = |value: &&Value| {
            let mut names = std::iter::once(&value.name).chain(value.others);
            names.any(|name| name.eq_ignore_ascii_case(typed))
        };
        self.values().iter().find(is_it).map(|value| value.name)
    }
}

#[cfg(test)]
mod tests {
    use crate::table::{ATTRIBUTES, CALLS};

    #[test]
    fn names_are_taken_in_both_spellings_and_in_any_case() {
        let sign = CALLS.iter().find(|call| call.name == "sign").unwrap();
        let hash = sign.options.iter().find(|option| option.name == "hash").unwrap().kind;
        for typed in ["SHA384", "SHA_384", "sha384", "Sha_384"] {
            assert_eq!(hash.name_of(typed), Some("SHA384"), "{typed}");
        }
        assert_eq!(hash.name_of("SHA38"), None);
        let state = ATTRIBUTES.iter().find(|attribute| attribute.name == "state").unwrap().kind;
        assert_eq!(state.name_of("preactive"), Some("PreActive"));
    }

    #[test]
    fn no_name_of_a_list_is_another_one_too() {
        let options = CALLS.iter().flat_map(|call| call.options).map(|option| option.kind);
        let words = CALLS.iter().flat_map(|call| call.words).chain(&ATTRIBUTES);
        for kind in words.map(|word| word.kind).chain(options) {
            for value in kind.values() {
                for name in std::iter::once(&value.name).chain(value.others) {
                    assert_eq!(kind.name_of(name), Some(value.name), "{name}");
                }
            }
        }
    }

    #[test]
    fn each_call_has_an_example_of_its_own() {
        for call in &CALLS {
            let words = shlex::split(call.example).unwrap();
            assert_eq!(words[..2], ["kmip", call.name], "{}", call.example);
        }
    }
}
