//! Stand-in for `oxc_str`: borrowed strings.

use std::fmt;

use oxc_allocator::{Allocator, CloneIn, CloneInSemanticIds};

macro_rules! string {
    ($name:ident) => {
        #[derive(Debug, Clone, Copy, PartialEq, Eq, Hash)]
        pub struct $name<'a>(&'a str);

        impl<'a> $name<'a> {
            pub const fn new(text: &'a str) -> Self {
                $name(text)
            }
            pub fn as_str(&self) -> &'a str {
                self.0
            }
        }

        impl fmt::Display for $name<'_> {
            fn fmt(&self, f: &mut fmt::Formatter<'_>) -> fmt::Result {
                f.write_str(self.0)
            }
        }

        impl PartialEq<str> for $name<'_> {
            fn eq(&self, other: &str) -> bool {
                self.0 == other
            }
        }

        impl PartialEq<&str> for $name<'_> {
            fn eq(&self, other: &&str) -> bool {
                self.0 == *other
            }
        }

        impl<'a> CloneIn<'a> for $name<'a> {
            type Cloned = $name<'a>;
            fn clone_in_impl(&self, _: CloneInSemanticIds, _: &'a Allocator) -> Self {
                *self
            }
        }
    };
}

string!(Ident);
string!(Str);

pub type IdentBuildHasher = std::hash::RandomState;
