//! The calls of the protocol that lines can be made of, by name.  This list is
//! the one place that says which.

/// A call that lines can be made of.
#[derive(Clone, Copy, Debug, PartialEq, Eq)]
pub enum Call {
    Fresh,
    Clock,
    Domain,
    Magic,
    Own,
    Read,
    Lookup,
    Suffix,
    LinkMessage,
    Walk,
    Write,
    SuffixTlv,
    Signal,
    Origin,
    Compare,
    Rank,
    Merge,
    Decide,
    Parent,
    Delay,
    LinkSettings,
    Link,
    Interval,
    Take,
    Burst,
    Candidates,
    Best,
    All,
    Records,
    Record,
    Trace,
    Recording,
    Replay,
    Import,
    Export,
}

/// Every call with its name.
pub const CALLS: [(&str, Call); 35] = [
    ("fresh", Call::Fresh),
    ("clock", Call::Clock),
    ("domain", Call::Domain),
    ("magic", Call::Magic),
    ("own", Call::Own),
    ("read", Call::Read),
    ("lookup", Call::Lookup),
    ("suffix", Call::Suffix),
    ("linkmessage", Call::LinkMessage),
    ("walk", Call::Walk),
    ("write", Call::Write),
    ("suffixtlv", Call::SuffixTlv),
    ("signal", Call::Signal),
    ("origin", Call::Origin),
    ("compare", Call::Compare),
    ("rank", Call::Rank),
    ("merge", Call::Merge),
    ("decide", Call::Decide),
    ("parent", Call::Parent),
    ("delay", Call::Delay),
    ("linksettings", Call::LinkSettings),
    ("link", Call::Link),
    ("interval", Call::Interval),
    ("take", Call::Take),
    ("burst", Call::Burst),
    ("candidates", Call::Candidates),
    ("best", Call::Best),
    ("all", Call::All),
    ("records", Call::Records),
    ("record", Call::Record),
    ("trace", Call::Trace),
    ("recording", Call::Recording),
    ("replay", Call::Replay),
    ("import", Call::Import),
    ("export", Call::Export),
];

/// How many calls at the front of the list are settings without a port, which
/// are put between the others in any case.
const PLAIN_SETTINGS: usize = 5;

/// What asks for every call that is no plain setting, where it stands alone; in
/// a list it is the call of that name.
const EVERY_CALL: &str = "all";

/// The calls that a list of names asks for.  None if a name is unknown.
pub fn calls_named(names: &str) -> Option<Vec<Call>> {
    if names == EVERY_CALL {
        let calls = CALLS[PLAIN_SETTINGS..].iter().map(|(_, call)| *call);
        return Some(calls.collect());
    }
    names.split(',').map(call_named).collect()
}

/// The call of a name.
fn call_named(name: &str) -> Option<Call> {
    CALLS
        .iter()
        .find(|(known, _)| *known == name)
        .map(|(_, call)| *call)
}
