//! Host code, not proved. Written by tools/refusals.py from hosts/refusals.txt.
//! The numbers of refusals as an enum, with what they mean in words.

/// Why a call, a list of calls or a job was refused, or no reason given.
#[derive(Clone, Copy, Debug, PartialEq, Eq, Hash, PartialOrd, Ord)]
#[repr(u64)]
pub enum Refusal {
    /// the parallelism is not from 1 to 64,999, or the count of places is not from 1 to 16,777,216
    OutOfRange = 1,
    /// the lent storage is too short for this parallelism, this count of places or this list
    TooShort = 2,
    /// a registration has more than 65,535 inputs or more than 65,535 outputs
    TooManyNumbers = 3,
    /// a place has bit 62 (witness) or bit 63 (placeholder)
    FlaggedPlace = 4,
    /// a place is not below the count of places
    UnknownPlace = 5,
    /// a place stands twice among the outputs of a registration
    RepeatedOutput = 6,
    /// the session is closed by an accepted final
    Closed = 7,
    /// a place to be set or written is already set, written or promised by a waiting registration
    TakenPlace = 8,
    /// as many registrations are accepted as there are places
    TooManyRegistrations = 9,
    /// the list numbers of all accepted registrations and of this one would together pass the pool
    FullPool = 10,
    /// 65,535 plain flushes are done
    TooManyFlushes = 11,
    /// final was called while a registration waits for its inputs
    StillWaiting = 12,
    /// the guide alone was asked to place after a location, not before its window, at which it holds no entry
    NotHeld = 13,
    /// the guide alone has accepted as many pushes as it was opened for, or its span numbers are used up
    GuideExhausted = 14,
    /// a line is malformed, missing or surplus; in a list of calls or requests, a number starts none or one is cut short
    Malformed = 15,
    /// the job has more than 65,536 bytes
    LongJob = 16,
    /// the listing is longer than the bytes that are lent for it
    LongListing = 17,
    /// a registration's lane is over 255
    UnknownLane = 18,
    /// no registration of this number was accepted
    NeverAccepted = 19,
    /// the registration was accepted and does not wait
    NotWaiting = 20,
    /// in an ascending session, a place to be set or written is not the lowest one neither set nor written, or an input is not below the first output (with none, below that lowest one)
    ProfileBreach = 21,
}

impl Refusal {
    /// Every refusal, by ascending number.
    pub const ALL: [Refusal; 21] = [
        Refusal::OutOfRange,
        Refusal::TooShort,
        Refusal::TooManyNumbers,
        Refusal::FlaggedPlace,
        Refusal::UnknownPlace,
        Refusal::RepeatedOutput,
        Refusal::Closed,
        Refusal::TakenPlace,
        Refusal::TooManyRegistrations,
        Refusal::FullPool,
        Refusal::TooManyFlushes,
        Refusal::StillWaiting,
        Refusal::NotHeld,
        Refusal::GuideExhausted,
        Refusal::Malformed,
        Refusal::LongJob,
        Refusal::LongListing,
        Refusal::UnknownLane,
        Refusal::NeverAccepted,
        Refusal::NotWaiting,
        Refusal::ProfileBreach,
    ];

    /// The refusal's number.
    pub fn number(self) -> u64 {
        self as u64
    }

    /// The refusal with a number; none for 0, which is "accepted", and for a number that is no refusal's.
    pub fn from_number(number: u64) -> Option<Refusal> {
        Refusal::ALL
            .iter()
            .copied()
            .find(|refusal| refusal.number() == number)
    }

    /// The refusal's name, as docs/JOB.md has it.
    pub fn name(self) -> &'static str {
        match self {
            Refusal::OutOfRange => "out_of_range",
            Refusal::TooShort => "too_short",
            Refusal::TooManyNumbers => "too_many_numbers",
            Refusal::FlaggedPlace => "flagged_place",
            Refusal::UnknownPlace => "unknown_place",
            Refusal::RepeatedOutput => "repeated_output",
            Refusal::Closed => "closed",
            Refusal::TakenPlace => "taken_place",
            Refusal::TooManyRegistrations => "too_many_registrations",
            Refusal::FullPool => "full_pool",
            Refusal::TooManyFlushes => "too_many_flushes",
            Refusal::StillWaiting => "still_waiting",
            Refusal::NotHeld => "not_held",
            Refusal::GuideExhausted => "guide_exhausted",
            Refusal::Malformed => "malformed",
            Refusal::LongJob => "long_job",
            Refusal::LongListing => "long_listing",
            Refusal::UnknownLane => "unknown_lane",
            Refusal::NeverAccepted => "never_accepted",
            Refusal::NotWaiting => "not_waiting",
            Refusal::ProfileBreach => "profile_breach",
        }
    }

    /// When it is given.
    pub fn when(self) -> &'static str {
        match self {
            Refusal::OutOfRange => {
                "the parallelism is not from 1 to 64,999, or the count of places is not from 1 to 16,777,216"
            }
            Refusal::TooShort => {
                "the lent storage is too short for this parallelism, this count of places or this list"
            }
            Refusal::TooManyNumbers => {
                "a registration has more than 65,535 inputs or more than 65,535 outputs"
            }
            Refusal::FlaggedPlace => "a place has bit 62 (witness) or bit 63 (placeholder)",
            Refusal::UnknownPlace => "a place is not below the count of places",
            Refusal::RepeatedOutput => "a place stands twice among the outputs of a registration",
            Refusal::Closed => "the session is closed by an accepted final",
            Refusal::TakenPlace => {
                "a place to be set or written is already set, written or promised by a waiting registration"
            }
            Refusal::TooManyRegistrations => {
                "as many registrations are accepted as there are places"
            }
            Refusal::FullPool => {
                "the list numbers of all accepted registrations and of this one would together pass the pool"
            }
            Refusal::TooManyFlushes => "65,535 plain flushes are done",
            Refusal::StillWaiting => "final was called while a registration waits for its inputs",
            Refusal::NotHeld => {
                "the guide alone was asked to place after a location, not before its window, at which it holds no entry"
            }
            Refusal::GuideExhausted => {
                "the guide alone has accepted as many pushes as it was opened for, or its span numbers are used up"
            }
            Refusal::Malformed => {
                "a line is malformed, missing or surplus; in a list of calls or requests, a number starts none or one is cut short"
            }
            Refusal::LongJob => "the job has more than 65,536 bytes",
            Refusal::LongListing => "the listing is longer than the bytes that are lent for it",
            Refusal::UnknownLane => "a registration's lane is over 255",
            Refusal::NeverAccepted => "no registration of this number was accepted",
            Refusal::NotWaiting => "the registration was accepted and does not wait",
            Refusal::ProfileBreach => {
                "in an ascending session, a place to be set or written is not the lowest one neither set nor written, or an input is not below the first output (with none, below that lowest one)"
            }
        }
    }

    /// What to do about it.
    pub fn advice(self) -> &'static str {
        match self {
            Refusal::OutOfRange => "choose both within their ranges",
            Refusal::TooShort => {
                "lend more storage; `order` has it for a parallelism of at most 64 and at most 512 places, `order-large` for every one in range"
            }
            Refusal::TooManyNumbers => "divide the registration into several",
            Refusal::FlaggedPlace => "name places by their index alone",
            Refusal::UnknownPlace => "count the places from 0, or open with more of them",
            Refusal::RepeatedOutput => "name each output once",
            Refusal::Closed => "make final the last call",
            Refusal::TakenPlace => "let each place be set once or written by one registration",
            Refusal::TooManyRegistrations => "open with more places",
            Refusal::FullPool => {
                "lend a longer pool; `order` has 4,096 numbers, `order-large` as many as the job needs"
            }
            Refusal::TooManyFlushes => "flush less often; final still runs",
            Refusal::StillWaiting => {
                "set or write every place up to the greatest input of each registration before final"
            }
            Refusal::NotHeld => "give a location that a push has returned",
            Refusal::GuideExhausted => "open a guide for more pushes",
            Refusal::Malformed => "compare the line with the grammar",
            Refusal::LongJob => "run it by `order-large`, which takes jobs of any size",
            Refusal::LongListing => {
                "lend more bytes, or run the job by `order-large`, which prints listings of any size"
            }
            Refusal::UnknownLane => "number the lanes from 0 to 255",
            Refusal::NeverAccepted => {
                "ask for a registration below the count of accepted ones; they are numbered from 0"
            }
            Refusal::NotWaiting => "nothing: it is placed",
            Refusal::ProfileBreach => {
                "number the places in the order in which they are set and written, or use an ordinary session"
            }
        }
    }
}

impl std::fmt::Display for Refusal {
    fn fmt(&self, f: &mut std::fmt::Formatter<'_>) -> std::fmt::Result {
        f.write_str(self.when())
    }
}

impl std::error::Error for Refusal {}
