//! Kinds of lines, and how often each comes.

/// Kinds of lines.
#[derive(Clone, Copy)]
pub enum Kind {
    Send,
    Put,
    Hop,
    Run,
    Deliver,
    Again,
    DeliverAll,
    Over,
    OverAll,
    Words,
    State,
    Comment,
    CloseAgain,
    CloseAny,
    /// As `CloseAny`, or nothing: mostly such a line is bad.
    CloseRarely,
}

impl Kind {
    /// The kinds that don't change a router.
    pub const PACKETS: [Kind; 6] =
        [Kind::Send, Kind::Send, Kind::Put, Kind::Hop, Kind::Run, Kind::Comment];

    /// The common ones among all kinds stand here more than once.
    pub const ALL: [Kind; 34] = [
        Kind::Send,
        Kind::Send,
        Kind::Send,
        Kind::Send,
        Kind::Send,
        Kind::Put,
        Kind::Put,
        Kind::Hop,
        Kind::Hop,
        Kind::Hop,
        Kind::Run,
        Kind::Deliver,
        Kind::Deliver,
        Kind::Deliver,
        Kind::Deliver,
        Kind::Deliver,
        Kind::Deliver,
        Kind::Again,
        Kind::Again,
        Kind::Again,
        Kind::DeliverAll,
        Kind::Over,
        Kind::Over,
        Kind::Over,
        Kind::Over,
        Kind::Over,
        Kind::OverAll,
        Kind::OverAll,
        Kind::Words,
        Kind::State,
        Kind::State,
        Kind::Comment,
        Kind::CloseAgain,
        Kind::CloseRarely,
    ];
}
