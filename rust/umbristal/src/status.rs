//! The status table.

use face::status;
use std::fmt;

/// The statuses, each said once: name, letters, and what it says.
macro_rules! statuses {
    ($($name:ident = $number:ident, $letters:literal, $sentence:literal;)*) => {
        /// How a call ended (R48). Below 10 it was done; 10 to 12 found nothing: GE and GP drop the hold only, GB makes the
        /// position fresh; 20 and above refuse, and then nothing has changed.
        ///
        /// ```
        /// use umbristal::Status;
        ///
        /// assert_eq!(Status::GE.number(), 11);
        /// assert_eq!(Status::GE.letters(), "GE");
        /// assert_eq!(Status::GE.to_string(), "GE: no segment matches, or there is no parent to insert under");
        /// assert_eq!(Status::of_number(11), Some(Status::GE));
        /// assert!(!Status::GE.is_refusal());
        /// ```
        #[non_exhaustive]
        #[derive(Clone, Copy, PartialEq, Eq, Hash, Debug)]
        #[repr(u8)]
        pub enum Status {
            $(#[doc = concat!($letters, ": ", $sentence, ".")] $name = status::$number,)*
        }

        impl Status {
            /// The status with that number, if there is one.
            #[must_use]
            pub const fn of_number(number: u8) -> Option<Status> {
                match number {
                    $(status::$number => Some(Status::$name),)*
                    _ => None,
                }
            }

            /// The two letters; `--` stands for blank.
            #[must_use]
            pub const fn letters(self) -> &'static str {
                match self {
                    $(Status::$name => $letters,)*
                }
            }

            /// What it says, in words.
            #[must_use]
            pub const fn sentence(self) -> &'static str {
                match self {
                    $(Status::$name => $sentence,)*
                }
            }
        }
    };
}

statuses! {
    Blank = BLANK, "--", "done";
    GA = GA, "GA", "done, on a smaller level than before";
    GK = GK, "GK", "done, on the same level and another type";
    GB = GB, "GB", "no segment is left; get-next starts over";
    GE = GE, "GE", "no segment matches, or there is no parent to insert under";
    GP = GP, "GP", "there is no parentage";
    CX = CX, "CX", "the catalogue is bad";
    TX = TX, "TX", "the table is bad";
    PX = PX, "PX", "the position is bad";
    AD = AD, "AD", "there is no such call";
    AC = AC, "AC", "a type in the list is none or does not lie beneath the one before it, or a list of a report is empty";
    AJ = AJ, "AJ", "an operator, field number or value in the list is missing or wrong, the last argument of an insert has a test, or no list may stand here";
    AK = AK, "AK", "a field in the list is none, or belongs to another type";
    AH = AH, "AH", "an insert needs a list";
    AB = AB, "AB", "the area is too short";
    DJ = DJ, "DJ", "no segment is held";
    DA = DA, "DA", "a key must not be changed";
    II = II, "II", "a twin has this unique key";
    FX = FX, "FX", "no cell is free";
    PD = PD, "PD", "the packed key is no number";
}

impl Status {
    /// The number of the status table.
    #[must_use]
    pub const fn number(self) -> u8 {
        self as u8
    }

    /// Whether the call was refused: then nothing has changed.
    #[must_use]
    pub const fn is_refusal(self) -> bool {
        self.number() >= Status::CX.number()
    }

    /// Whether the call was done.
    #[must_use]
    pub const fn is_done(self) -> bool {
        self.number() < Status::GB.number()
    }
}

impl fmt::Display for Status {
    fn fmt(&self, out: &mut fmt::Formatter) -> fmt::Result {
        write!(out, "{}: {}", self.letters(), self.sentence())
    }
}
