//! The conversions that lang_ast's operators derive, on enums of the same shape.

use derive_more::From;

#[derive(Debug, Clone, Copy, PartialEq)]
struct Small(u8);
#[derive(Debug, Clone, Copy, PartialEq)]
struct Yes(bool);
#[derive(Debug, Clone, Copy, PartialEq)]
struct Other;

#[derive(Debug, From, Clone, Copy, PartialEq)]
#[from(forward)]
enum Inner {
    /// A comment is an attribute too.
    Small(Small),
    Yes(Yes),
    Unit,
    OtherUnit,
}

#[derive(Debug, From, Clone, Copy, PartialEq)]
pub(crate) enum Outer {
    Other(Other),
    #[from(Inner, Small, Yes)]
    Inner(Inner),
}

// No conversion is derived for a variant beside one with an attribute of its own: a second impl would not compile.
impl From<Other> for Outer {
    fn from(value: Other) -> Self {
        Outer::Other(value)
    }
}

#[test]
fn each_variant_with_a_field_converts() {
    assert_eq!(Inner::from(Small(3)), Inner::Small(Small(3)));
    assert_eq!(Inner::from(Yes(true)), Inner::Yes(Yes(true)));
    assert_ne!(Inner::Unit, Inner::OtherUnit);
}

#[test]
fn listed_types_go_through_the_field() {
    assert_eq!(Outer::from(Inner::Unit), Outer::Inner(Inner::Unit));
    assert_eq!(Outer::from(Small(3)), Outer::Inner(Inner::Small(Small(3))));
    assert_eq!(Outer::from(Yes(false)), Outer::Inner(Inner::Yes(Yes(false))));
    assert_eq!(Outer::from(Other), Outer::Other(Other));
}
