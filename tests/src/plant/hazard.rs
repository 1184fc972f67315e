//! Hazards beside the network, and the duty of a host against each.

/// What can go wrong in a plant.
#[derive(Clone, Copy, Debug, PartialEq, Eq)]
pub enum Hazard {
    /// A station goes down between compose and send. The duty: save, and only then send.
    Crash,
    /// A packet in a hundred arrives with one bit flipped. The duty: the transport drops it.
    Damage,
    /// The lines are given out wrongly. The duty: a line belongs to one station.
    SharedLine,
    /// Operators compose until stations are full. The duty: stop when the plant has 64.
    Overflow,
    /// A station goes down in the middle of a save. The duty: leave the old image whole
    /// until the new one is.
    TornSave,
    /// A station is restored from an old backup. The duty: it comes back with new lines.
    OldBackup,
    /// A station's disk is copied to another station. The duty: the clone gets lines of its
    /// own.
    Cloning,
    /// Stations purge what all have executed. The duty: only while the station has all that
    /// there is, and only up to the first log delta that no other log delta needs. Neglected,
    /// neither is asked.
    Purge,
    /// The same, and only the first of the two is neglected.
    PurgeEarly,
    /// The same, and only the second of the two is neglected.
    PurgeEnds,
}

impl Hazard {
    /// Whether stations purge.
    pub fn purges(self) -> bool {
        matches!(self, Hazard::Purge | Hazard::PurgeEarly | Hazard::PurgeEnds)
    }
}

/// Every hazard, by the name that the command line takes.
pub const HAZARDS: [(&str, Hazard); 10] = [
    ("crash", Hazard::Crash),
    ("damage", Hazard::Damage),
    ("shared-line", Hazard::SharedLine),
    ("overflow", Hazard::Overflow),
    ("torn-save", Hazard::TornSave),
    ("old-backup", Hazard::OldBackup),
    ("cloning", Hazard::Cloning),
    ("purge", Hazard::Purge),
    ("purge-early", Hazard::PurgeEarly),
    ("purge-ends", Hazard::PurgeEnds),
];

/// A hazard, and whether the hosts do what it asks of them.
#[derive(Clone, Copy, Debug, PartialEq, Eq)]
pub enum Duty {
    Kept(Hazard),
    Neglected(Hazard),
}

impl Duty {
    pub fn hazard(self) -> Hazard {
        match self {
            Duty::Kept(hazard) | Duty::Neglected(hazard) => hazard,
        }
    }

    pub fn is_kept(self) -> bool {
        self == Duty::Kept(self.hazard())
    }

    /// Whether a station purges only while it has all that there is.
    pub fn waits_for_all(self) -> bool {
        let neglected = [Hazard::Purge, Hazard::PurgeEarly];
        !neglected.map(Duty::Neglected).contains(&self)
    }

    /// Whether a station purges no delta at or past the first that no other one needs.
    pub fn keeps_ends(self) -> bool {
        let neglected = [Hazard::Purge, Hazard::PurgeEnds];
        !neglected.map(Duty::Neglected).contains(&self)
    }
}
