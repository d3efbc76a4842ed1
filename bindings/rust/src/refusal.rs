use std::fmt;

/// The rows of the table: a refusal's number, its name and its reason.
macro_rules! rows {
    ($($number:literal $name:ident $reason:literal)*) => {
        /// Why a call was refused: a row of the table in docs/FORMAT.md. Nothing is changed by a refused call.
        #[derive(Clone, Copy, Debug, PartialEq, Eq, Hash)]
        #[non_exhaustive]
        pub enum Refusal {
            $(#[doc = $reason] $name,)*
            /// an answer that this crate does not know: a refusal all the same
            Unknown(u8),
        }

        impl Refusal {
            /// Its number, as the linked call gave it.
            pub fn number(self) -> u8 {
                match self {
                    $(Refusal::$name => $number,)*
                    Refusal::Unknown(number) => number,
                }
            }

            /// What a linked call's answer means. Of 0, which says that the call was carried out, none; of any other number a refusal.
            pub fn of(number: u8) -> Option<Refusal> {
                match number {
                    0 => None,
                    $($number => Some(Refusal::$name),)*
                    _ => Some(Refusal::Unknown(number)),
                }
            }

            fn reason(self) -> &'static str {
                match self {
                    $(Refusal::$name => $reason,)*
                    Refusal::Unknown(_) => "an answer that this crate does not know",
                }
            }
        }
    };
}

rows! {
    1 Damaged "the state words or the storage are not those of a builder, or a batch file has fewer bytes than are said to be used"
    2 Finished "an earlier finish was accepted"
    3 NothingToClose "no container is open, or, for the uniqueness mark, the innermost is no object"
    4 ContainerOpen "a container is open"
    5 WrongPlace "a name where no object is innermost, or none in an object"
    6 SecondValue "a second value at the top level"
    7 OutOfRange "a decimal or a time outside its range"
    8 NotText "a text that is not UTF-8, or a short text of more than 63 bytes"
    9 NameNotText "a name that is not UTF-8"
    10 NameLive "uniqueness is on and the object has a field of this name"
    11 TooDeep "64 containers are open"
    12 NamesFull "no room for a new name: the name table or the name bytes are full"
    13 EntriesFull "no room for a new field of an object: the entries are full"
    14 ValueFull "no room for the value or the header in the value bytes, for packed decimal in its output, or for a batch's record in its file or count"
    15 NoValue "no value was written"
    16 OutputFull "the dictionary does not fit its output"
    17 OutOfCalendar "a date that is not in the calendar, years 1 to 9999, or with it a time outside the day"
    18 NotPacked "packed decimal of no bytes or of more than 20, with a digit above 9 or with another sign"
    19 Malformed "no whole dictionary, or a record of a batch file with a count below four or with a dictionary length that does not fit it"
    20 NotInGrammar "not one value of the grammar over the names of its dictionary"
    21 NotBatch "no batch file: no bytes, or another version"
    22 NoMark "a seventeenth mark in a container, a mark outside any, or a return to one that is not set"
    23 UndoFull "no room for the offset of a field that is replaced under a mark: the undo records are full"
    24 FloorOutOfRange "a floor for widths that is not 1 to 4 bytes: no builder is made"
    26 BadLength "small values of another length than 1, 2 or 3 bytes"
}

impl fmt::Display for Refusal {
    fn fmt(&self, f: &mut fmt::Formatter) -> fmt::Result {
        write!(f, "refused {}: {}", self.number(), self.reason())
    }
}

impl std::error::Error for Refusal {}
