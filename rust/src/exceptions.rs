//! The two exception lists, and the line that decides a word.

#![forbid(unsafe_code)]

use crate::{answer, raw};

/// The two exception lists, as texts. A line of the customer's goes before one
/// of the house's, and both before the patterns.
///
/// The texts may hold any bytes: they are judged in every call that is lent
/// them, and a bad one is refused.
///
/// ```
/// use tteolmigu::Exceptions;
///
/// let both = Exceptions { customer: b"idler\n", house: b"id-ler\nmet-al\n" };
/// let house = Exceptions { house: b"met-al\n", ..Exceptions::NONE };
/// assert_eq!(house.customer, b"");
/// assert_ne!(both, house);
/// ```
#[derive(Clone, Copy, Debug, Default, PartialEq, Eq, Hash)]
pub struct Exceptions<'a> {
    /// The customer's list.
    pub customer: &'a [u8],
    /// The house's list.
    pub house: &'a [u8],
}

impl Exceptions<'static> {
    /// Two lists without a line.
    ///
    /// ```
    /// use tteolmigu::Exceptions;
    ///
    /// assert_eq!(Exceptions::NONE.lookup(b"metal"), None);
    /// assert_eq!(Exceptions::NONE, Exceptions::default());
    /// ```
    pub const NONE: Exceptions<'static> = Exceptions {
        customer: &[],
        house: &[],
    };
}

impl<'a> Exceptions<'a> {
    /// The line that decides a word's breaks: the customer's, else the house's.
    ///
    /// There is none if neither list has the word, and also if
    /// [`Table::hyphenate`](crate::Table::hyphenate) would refuse the word or a
    /// list; that call names the ground.
    ///
    /// ```
    /// use tteolmigu::{Exceptions, List};
    ///
    /// let lists = Exceptions { customer: b"idler\n", house: b"id-ler\nmet-al\n" };
    /// let line = lists.lookup(b"Metal").unwrap();
    /// assert_eq!((line.list, line.offset, line.bytes), (List::House, 7, &b"met-al"[..]));
    /// assert_eq!(lists.lookup(b"idler").unwrap().list, List::Customer);
    /// assert_eq!(lists.lookup(b"on"), None);
    ///
    /// let bad = Exceptions { house: b"met--al\n", ..lists };
    /// assert_eq!(bad.lookup(b"idler"), None);
    /// ```
    pub fn lookup(self, word: &[u8]) -> Option<Line<'a>> {
        answer::line(raw::lookup(word, self.customer, self.house), self)
    }
}

/// A line of an exception list, as a part of the list that holds it. See
/// [`Exceptions::lookup`].
///
/// ```
/// let lists = tteolmigu::Exceptions { house: b"met-al\n", ..Default::default() };
/// let line = lists.lookup(b"metal").unwrap();
/// assert_eq!(&lists.house[line.offset..][..line.bytes.len()], b"met-al");
/// ```
#[derive(Clone, Copy, Debug, PartialEq, Eq, Hash)]
pub struct Line<'a> {
    /// The list that holds it.
    pub list: List,
    /// Its offset in this list.
    pub offset: usize,
    /// The line without its line feed.
    pub bytes: &'a [u8],
}

/// One of the two exception lists.
///
/// ```
/// use tteolmigu::List;
///
/// assert_eq!(List::House.to_string(), "the house's list");
/// ```
#[derive(Clone, Copy, Debug, PartialEq, Eq, Hash)]
pub enum List {
    /// The customer's.
    Customer,
    /// The house's.
    House,
}

impl List {
    /// The list's number in an answer.
    ///
    /// ```
    /// use tteolmigu::{List, CUSTOMER_LIST, HOUSE_LIST};
    ///
    /// assert_eq!(List::Customer.number(), CUSTOMER_LIST);
    /// assert_eq!(List::House.number(), HOUSE_LIST);
    /// ```
    pub const fn number(self) -> u8 {
        match self {
            List::Customer => crate::CUSTOMER_LIST,
            List::House => crate::HOUSE_LIST,
        }
    }
}

impl core::fmt::Display for List {
    fn fmt(&self, out: &mut core::fmt::Formatter<'_>) -> core::fmt::Result {
        out.write_str(match self {
            List::Customer => "the customer's list",
            List::House => "the house's list",
        })
    }
}
