//! Why a call is refused.

use std::fmt;

/// Makes the enum, its numbers and its sentences from one table.
macro_rules! refusals {
    ($($(#[$doc:meta])* $name:ident = $number:literal, $sentence:literal;)*) => {
        /// Why a call was refused. Each refusal has a number, the same in every language, and a
        /// sentence for a person ([`Display`](fmt::Display)).
        ///
        /// ```
        /// use bsp29::{Map, Refusal};
        ///
        /// let refusal = Map::load(&[]).unwrap_err();
        /// assert_eq!(refusal, Refusal::EndOfFile);
        /// assert_eq!(refusal.number(), 1);
        /// assert_eq!(refusal.to_string(), "the file ends before a field that it must have");
        /// ```
        #[derive(Copy, Clone, Debug, PartialEq, Eq, Hash)]
        #[non_exhaustive]
        pub enum Refusal {
            $($(#[$doc])* $name,)*
            /// A number that this crate does not know. The library of this repository gives none.
            Unknown(u32),
        }

        impl Refusal {
            /// The refusal of a number; [`Unknown`](Refusal::Unknown) where there is none.
            ///
            /// ```
            /// use bsp29::Refusal;
            ///
            /// assert_eq!(Refusal::from_number(34), Refusal::ReachedTwice);
            /// assert_eq!(Refusal::from_number(16), Refusal::Unknown(16));
            /// ```
            pub fn from_number(number: u32) -> Refusal {
                match number {
                    $($number => Refusal::$name,)*
                    _ => Refusal::Unknown(number),
                }
            }

            /// The number of the refusal.
            ///
            /// ```
            /// use bsp29::Refusal;
            ///
            /// assert_eq!(Refusal::TooDeep.number(), 32);
            /// ```
            pub fn number(self) -> u32 {
                match self {
                    $(Refusal::$name => $number,)*
                    Refusal::Unknown(number) => number,
                }
            }
        }

        impl fmt::Display for Refusal {
            fn fmt(&self, f: &mut fmt::Formatter<'_>) -> fmt::Result {
                f.write_str(match self {
                    $(Refusal::$name => $sentence,)*
                    Refusal::Unknown(_) => {
                        "the library answered a number that this crate does not know"
                    }
                })
            }
        }
    };
}

refusals! {
    /// 1, on loading: the bytes end early.
    EndOfFile = 1, "the file ends before a field that it must have";
    /// 2, on loading: the version is not 29.
    UnsupportedVersion = 2, "the file's version is not 29";
    /// 3, on loading: a section has a negative offset.
    NegativeSectionOffset = 3, "a section of the file has a negative offset";
    /// 4, on loading: a section has a negative size.
    NegativeSectionSize = 4, "a section of the file has a negative size";
    /// 5, on loading: a section's size is no multiple of its record's.
    InvalidSectionSize = 5, "a section's size is no multiple of the size of its records";
    /// 6, on loading: a limit is broken.
    LimitExceeded = 6, "a section has more records than a map may have, or there is no model";
    /// 7, on loading: a section ends elsewhere than its offset and size say.
    Misaligned = 7, "a section does not end where its offset and size say";
    /// 8, on loading: the entity text is above 65,536 bytes, its zero counted.
    EntityTextTooLong = 8, "the entity text is longer than 65,536 bytes";
    /// 9, on loading: the entity text is not UTF-8.
    EntityTextNotUtf8 = 9, "the entity text is not UTF-8";
    /// 10, on loading: a field has a value that it may not have.
    InvalidField = 10, "a field of the file has a value that it may not have";
    /// 11, on loading: a record names another that is not there.
    InvalidIndex = 11, "a record of the file names another that is not there";
    /// 12, on loading: a face extends over more than 2,000 units of its texture.
    BadExtents = 12, "a face of the file extends over more than 2,000 units of its texture";
    /// 13, on loading: a texture's name is not ASCII.
    TextureNameNotAscii = 13, "the name of a texture of the file is not ASCII";
    /// 14, on loading: the frame letter of an animated texture is missing or wrong.
    InvalidFrame = 14, "the frame letter of an animated texture is missing or wrong";
    /// 15, on loading: an animated texture has alternate frames and no primary ones.
    NoPrimaryFrames = 15, "an animated texture has alternate frames and no primary ones";
    /// 19: two traces do not follow one another. No call of this crate gives it.
    CannotJoin = 19, "the two traces do not follow one another";
    /// 20: a model, hull, leaf or record number outside its table.
    NoSuchRecord = 20, "the number asked for is outside its table";
    /// 21: a minimum at or above its maximum.
    MinNotBelowMax = 21, "a minimum of the box is at or above its maximum";
    /// 22: a lent list is too short.
    ListTooShort = 22, "a list lent to the call is too short";
    /// 23: a map record made by hand leads outside the bytes, or to a record that loading refuses.
    Unreadable = 23, "the map record leads outside the file or to a record that loading refuses";
    /// 24: more than 1,024 points, or coordinates not in threes.
    NotPoints = 24, "there are more than 1,024 points, or their coordinates are not in threes";
    /// 25: more than 16 players.
    TooManyPlayers = 25, "more than 16 players are asked about at once";
    /// 26: a file of body sizes has a field cut short, a wrong length, or an unknown, missing or repeated tag.
    InvalidSizesFile = 26, "the file of body sizes is not two fields of 24 bytes, one of tag 1 and one of tag 2";
    /// 27: a bound in a file of body sizes is not finite, or a minimum is at or above its maximum.
    NotABody = 27, "a bound of a body is not finite, or a minimum is at or above its maximum";
    /// 28: a bound of a box is not finite, or a minimum is above its maximum.
    NotABox = 28, "a bound of the box is not finite, or a minimum is above its maximum";
    /// 29: a made-up map with a number of nodes outside 1 to 500.
    NodeCountOutside = 29, "a made-up map has 1 to 500 nodes";
    /// 30: a root, child, plane or leaf index outside its table.
    IndexOutsideTable = 30, "a node of the map names a node, plane or leaf that is not there, or the root is not there";
    /// 31: a walk has entered as many nodes as the table holds, and a further one is there.
    WalkTooLong = 31, "the walk entered as many nodes as the map has and did not end";
    /// 32: a trace or tree deeper than 512.
    TooDeep = 32, "the map's tree is deeper than 512 nodes";
    /// 33: a visibility offset past the data, or a row that runs off it.
    RowOutsideData = 33, "a leaf's visibility row lies outside the visibility data";
    /// 34: a node reached twice.
    ReachedTwice = 34, "a node of the map is reached by two ways, so that its nodes are no tree";
    /// 35, on acceptance: a reference outside its table, or a visibility row that is not whole.
    NotAcceptable = 35, "a record of the map names another that is not there, or a visibility row is not whole";
}

impl std::error::Error for Refusal {}
