// The named ways in which this program's own rules can be made wrong, so that the comparison can be seen to fail.

#[derive(Clone, Copy, PartialEq, Eq)]
pub enum Fault {
    FirstGranule,
    UnsignedShadow,
    WrappingSum,
    FreedAtRelease,
    EvictedStaysReleased,
    RedzoneShort,
    TurnNotLessened,
    EvictAtLimit,
    ReachingRowUnpainted,
    RoomFourteen,
    RefusedLineKept,
    NineteenGrows,
    UpperCaseRefused,
    HighestEmptyRow,
    EqualTurnsHighest,
    MiddleAddressable,
    GapOffByOne,
    ZeroLengthJudged,
    ReleaseOfZeroRefused,
    ZeroSizeKept,
    QuarantinedBeforeLive,
    StartWraps,
    SizesWrap,
    LengthsUnchecked,
    UnusedPlacesUnchecked,
    HighStateEmpty,
    RedzoneBeforeShadow,
    PlaceBeforeRow,
    AllLiveTurnsKept,
    RemainderForgotten,
    UnfinishedNotStored,
    LineNotStored,
    InPlaceCountsSwapped,
    ClosedInPlace,
}

const NAMED: [(&str, Fault); 34] = [
    ("first-granule", Fault::FirstGranule),
    ("unsigned-shadow", Fault::UnsignedShadow),
    ("wrapping-sum", Fault::WrappingSum),
    ("freed-at-release", Fault::FreedAtRelease),
    ("evicted-stays-released", Fault::EvictedStaysReleased),
    ("redzone-short", Fault::RedzoneShort),
    ("turn-not-lessened", Fault::TurnNotLessened),
    ("evict-at-limit", Fault::EvictAtLimit),
    ("reaching-row-unpainted", Fault::ReachingRowUnpainted),
    ("room-fourteen", Fault::RoomFourteen),
    ("refused-line-kept", Fault::RefusedLineKept),
    ("nineteen-grows", Fault::NineteenGrows),
    ("upper-case-refused", Fault::UpperCaseRefused),
    ("highest-empty-row", Fault::HighestEmptyRow),
    ("equal-turns-highest", Fault::EqualTurnsHighest),
    ("middle-addressable", Fault::MiddleAddressable),
    ("gap-off-by-one", Fault::GapOffByOne),
    ("zero-length-judged", Fault::ZeroLengthJudged),
    ("release-of-zero-refused", Fault::ReleaseOfZeroRefused),
    ("zero-size-kept", Fault::ZeroSizeKept),
    ("quarantined-before-live", Fault::QuarantinedBeforeLive),
    ("start-wraps", Fault::StartWraps),
    ("sizes-wrap", Fault::SizesWrap),
    ("lengths-unchecked", Fault::LengthsUnchecked),
    ("unused-places-unchecked", Fault::UnusedPlacesUnchecked),
    ("high-state-empty", Fault::HighStateEmpty),
    ("redzone-before-shadow", Fault::RedzoneBeforeShadow),
    ("place-before-row", Fault::PlaceBeforeRow),
    ("all-live-turns-kept", Fault::AllLiveTurnsKept),
    ("remainder-forgotten", Fault::RemainderForgotten),
    ("unfinished-not-stored", Fault::UnfinishedNotStored),
    ("line-not-stored", Fault::LineNotStored),
    ("in-place-counts-swapped", Fault::InPlaceCountsSwapped),
    ("closed-in-place", Fault::ClosedInPlace),
];

/// At most one fault, passed along to every rule; none in an honest run.
#[derive(Clone, Copy)]
pub struct Faults(Option<Fault>);

impl Faults {
    pub const NONE: Faults = Faults(None);

    pub fn named(name: &str) -> Option<Faults> {
        let found = NAMED.iter().find(|(known, _)| *known == name);
        found.map(|&(_, fault)| Faults(Some(fault)))
    }

    pub fn names() -> impl Iterator<Item = &'static str> {
        NAMED.iter().map(|&(name, _)| name)
    }

    pub fn has(self, fault: Fault) -> bool {
        self.0 == Some(fault)
    }
}
