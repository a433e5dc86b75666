//! The names of the calls, and what each of them takes.

/// The ten calls.
#[derive(Clone, Copy, Debug, PartialEq, Eq)]
pub enum Name {
    Check,
    PowerUp,
    Step,
    Run,
    DoubledSize,
    DoubledKind,
    Double,
    StaticPowerUp,
    StaticRun,
    Page,
}

/// How many calls there are.
pub const NAMES: usize = 10;

impl Name {
    /// The name of the function in the library.
    pub fn function(self) -> &'static str {
        match self {
            Name::Check => "tracker_check",
            Name::PowerUp => "tracker_power_up",
            Name::Step => "tracker_step",
            Name::Run => "tracker_run",
            Name::DoubledSize => "tracker_doubled_size",
            Name::DoubledKind => "tracker_doubled_kind",
            Name::Double => "tracker_double",
            Name::StaticPowerUp => "tracker_static_power_up",
            Name::StaticRun => "tracker_static_run",
            Name::Page => "tracker_page",
        }
    }

    /// What the library's interface calls the rows, or the bytes in their place.
    pub fn rows(self) -> &'static str {
        match self {
            Name::Step => "row",
            Name::Page => "record",
            _ => "rows",
        }
    }

    /// What the library's interface calls the buffer that the call fills.
    pub fn filled(self) -> &'static str {
        match self {
            Name::Step => "nets",
            Name::Run | Name::StaticRun => "outputs",
            Name::Page => "page",
            _ => "buffer",
        }
    }

    /// The call takes cycles: a step, a run or a static run.
    fn has_cycles(self) -> bool {
        matches!(self, Name::Step | Name::Run | Name::StaticRun)
    }

    /// The call takes k, the number of cycles.
    pub fn has_k(self) -> bool {
        matches!(self, Name::Run | Name::StaticRun | Name::Page)
    }

    pub fn has_state(self) -> bool {
        self.has_cycles() || matches!(self, Name::PowerUp | Name::StaticPowerUp)
    }

    /// The call takes a state with a count of its marked registers.
    pub fn has_count(self) -> bool {
        matches!(self, Name::PowerUp | Name::Step | Name::Run)
    }

    /// The call takes rows, or a record in their place.
    pub fn has_rows(self) -> bool {
        self.has_cycles() || self == Name::Page
    }

    pub fn has_filled(self) -> bool {
        self.has_rows() || self == Name::Double
    }

    /// The call may turn back with this number.
    pub fn may_refuse(self, number: u64) -> bool {
        match number {
            1..=8 => true,
            9 => self.has_k(),
            10 => self.has_state(),
            11 | 20 => matches!(self, Name::Step | Name::Run),
            12 => self.has_cycles(),
            13 => matches!(self, Name::Step | Name::Run | Name::Page),
            14 => self.has_rows(),
            15 => matches!(self, Name::DoubledSize | Name::DoubledKind | Name::Double),
            16 => self == Name::Double,
            18 => self == Name::StaticRun,
            19 => self == Name::Page,
            _ => false,
        }
    }
}
