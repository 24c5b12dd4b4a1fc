//! What happens in a desk beside the rules that it is about, for the count of what was reached.

#[derive(Clone, Copy, Debug, PartialEq, Eq, PartialOrd, Ord)]
pub enum Event {
    NoFencePage,
    FencePageAtTheEnd,
    FencePageOutside,
    FencePageOverRing,
    FenceMoved,
    RingAtTheEnd,
    RingTooLong,
    RingMoved,
    LongestRing,
    HeadWraps,
    NoWork,
    FullTable,
    /// Table or stream lie over something else.
    Overlap,
    /// A packet may have several faults at once.
    SeveralFaults,
    /// A known packet of the stream is longer than its table size, and another packet follows.
    GrownPacket,
    /// A submission is to change tokens, and the host says failed, or a later packet is refused.
    TokensOfAFailed,
    TokensOfARefused,
    KeptOverwritten,
    KeptChanged,
    AheadOverwritten,
    NoiseAnywhere,
    OtherMemoryOfThisLength,
    Reset,
    ResetInTheMiddle,
    Disabled,
    AnsweredWhileDisabled,
    /// A desk is loaded with what it was saved as just now, or earlier; or with what nobody saved.
    SavedAndLoaded,
    LoadedEarlier,
    LoadedMadeUp,
    /// A file is moved to the other form, and what it became back.
    MovedThereAndBack,
    /// A good file is loaded while a submission is in work, as believed; or a bad one.
    LoadedInTheMiddle,
    RefusedInTheMiddle,
    /// A file has two faults at once, or is noise, in parts or all over.
    TwoFaultsInAFile,
    NoiseAsAFile,
    /// Anything at all, one thing after the other.
    Raving,
}

pub const EVENTS: [Event; 35] = [
    Event::NoFencePage,
    Event::FencePageAtTheEnd,
    Event::FencePageOutside,
    Event::FencePageOverRing,
    Event::FenceMoved,
    Event::RingAtTheEnd,
    Event::RingTooLong,
    Event::RingMoved,
    Event::LongestRing,
    Event::HeadWraps,
    Event::NoWork,
    Event::FullTable,
    Event::Overlap,
    Event::SeveralFaults,
    Event::GrownPacket,
    Event::TokensOfAFailed,
    Event::TokensOfARefused,
    Event::KeptOverwritten,
    Event::KeptChanged,
    Event::AheadOverwritten,
    Event::NoiseAnywhere,
    Event::OtherMemoryOfThisLength,
    Event::Reset,
    Event::ResetInTheMiddle,
    Event::Disabled,
    Event::AnsweredWhileDisabled,
    Event::SavedAndLoaded,
    Event::LoadedEarlier,
    Event::LoadedMadeUp,
    Event::MovedThereAndBack,
    Event::LoadedInTheMiddle,
    Event::RefusedInTheMiddle,
    Event::TwoFaultsInAFile,
    Event::NoiseAsAFile,
    Event::Raving,
];
