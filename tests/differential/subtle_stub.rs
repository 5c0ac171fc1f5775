// Stands in for the crate `subtle` where Debian's librust-subtle-dev is not installed: the one trait that core/types uses, for octets.
// The monitor's answers do not depend on it.
#![no_std]

pub struct Choice(bool);

impl From<Choice> for bool {
    fn from(choice: Choice) -> bool {
        choice.0
    }
}

pub trait ConstantTimeEq {
    fn ct_eq(&self, other: &Self) -> Choice;
}

impl ConstantTimeEq for [u8] {
    fn ct_eq(&self, other: &Self) -> Choice {
        Choice(self == other)
    }
}
