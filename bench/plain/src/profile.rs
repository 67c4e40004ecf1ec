//! What is read: profiles, each with all of those before it.

#[derive(Clone, Copy, Debug, PartialEq, Eq, PartialOrd, Ord)]
pub enum Profile {
    /// Sends, receives, probes, Wait, Waitall, Waitany, Test, and eight collective calls.
    First,
    /// All completions, cancelled and freed requests; a call that isn't read ends what is read of its rank.
    Completions,
    /// Persistent requests and matched probes; messages behind a barrier.
    Persistent,
    /// All collective calls that move data on a communicator; texts of any number of calls.
    Collectives,
    /// Communicators by the numbers that each rank gives them.
    Numbers,
    /// All collective calls, on communicators, windows and files.
    Objects,
    /// Intercommunicators.
    Intercomms,
    /// A million ranks.
    Large,
}

impl Profile {
    pub const WORDS: [(&str, Profile); 8] = [
        ("first", Profile::First),
        ("completions", Profile::Completions),
        ("persistent", Profile::Persistent),
        ("collectives", Profile::Collectives),
        ("numbers", Profile::Numbers),
        ("objects", Profile::Objects),
        ("intercomms", Profile::Intercomms),
        ("large", Profile::Large),
    ];

    /// The profile of a word.
    pub fn named(word: &str) -> Option<Profile> {
        Self::WORDS.iter().find(|it| it.0 == word).map(|it| it.1)
    }
}
