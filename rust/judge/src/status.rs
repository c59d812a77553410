//! The status table (R48 to R60).

/// Every status, in the order of its number.
#[derive(Clone, Copy, PartialEq, Eq, Debug)]
pub enum Status {
    Blank,
    GA,
    GK,
    GB,
    GE,
    GP,
    CX,
    TX,
    PX,
    AD,
    AC,
    AJ,
    AK,
    AH,
    AB,
    DJ,
    DA,
    II,
    FX,
    PD,
}

impl Status {
    /// All of them, so that a number can be looked up and a tally can name its columns.
    pub const ALL: [Status; 20] = [
        Status::Blank,
        Status::GA,
        Status::GK,
        Status::GB,
        Status::GE,
        Status::GP,
        Status::CX,
        Status::TX,
        Status::PX,
        Status::AD,
        Status::AC,
        Status::AJ,
        Status::AK,
        Status::AH,
        Status::AB,
        Status::DJ,
        Status::DA,
        Status::II,
        Status::FX,
        Status::PD,
    ];

    /// The number of the status table.
    pub fn number(self) -> u8 {
        match self {
            Status::Blank => 0,
            Status::GA => 1,
            Status::GK => 2,
            Status::GB => 10,
            Status::GE => 11,
            Status::GP => 12,
            Status::CX => 20,
            Status::TX => 21,
            Status::PX => 22,
            Status::AD => 23,
            Status::AC => 24,
            Status::AJ => 25,
            Status::AK => 26,
            Status::AH => 27,
            Status::AB => 28,
            Status::DJ => 29,
            Status::DA => 30,
            Status::II => 31,
            Status::FX => 32,
            Status::PD => 33,
        }
    }

    /// The letters as the listing prints them: `--` stands for blank.
    pub fn letters(self) -> &'static str {
        match self {
            Status::Blank => "--",
            Status::GA => "GA",
            Status::GK => "GK",
            Status::GB => "GB",
            Status::GE => "GE",
            Status::GP => "GP",
            Status::CX => "CX",
            Status::TX => "TX",
            Status::PX => "PX",
            Status::AD => "AD",
            Status::AC => "AC",
            Status::AJ => "AJ",
            Status::AK => "AK",
            Status::AH => "AH",
            Status::AB => "AB",
            Status::DJ => "DJ",
            Status::DA => "DA",
            Status::II => "II",
            Status::FX => "FX",
            Status::PD => "PD",
        }
    }

    /// The status with that number, if the table has one.
    pub fn of_number(number: u8) -> Option<Status> {
        Status::ALL
            .into_iter()
            .find(|status| status.number() == number)
    }
}
