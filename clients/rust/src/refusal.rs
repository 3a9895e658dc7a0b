/// Why a line is refused: the numbers and names of docs/REGISTRY.md.
#[derive(Clone, Copy, Debug, PartialEq, Eq, Hash, PartialOrd, Ord)]
pub enum Refusal {
    /// A text is no package name.
    BadName = 1,
    /// A text is no version, or is too long.
    BadVersion,
    /// A text is no requirement, or is too long.
    BadRequirement,
    /// A dependency, a need or a lock line names a package twice.
    RepeatedDependency,
    /// A version depends on its own package.
    SelfDependency,
    /// More than 64 dependencies or needs, or 65,535 lock lines.
    TooManyDependencies,
    /// The package has a version of equal precedence.
    AlreadyPublished,
    /// The package has 4,096 versions.
    TooManyVersions,
    /// More than 65,535 names would be numbered.
    TooManyPackages,
    /// As many commands are accepted as a session may have.
    JournalFull,
    /// A yank, or its undoing, finds no published version.
    NoSuchVersion,
    /// The version is yanked already.
    AlreadyYanked,
    /// The version is not yanked.
    NotYanked,
    /// A premise of what is to be learnt does not stand.
    Stale,
    /// What is to be learnt is stored.
    Known,
    /// As much is stored as may be.
    StoreFull,
    /// In a race, an entry has the number of a seat that did not make it.
    Stray,
    /// There was no memory for it.
    NoMemory,
    /// The line is no request.
    BadLine,
    /// A derivation to be learnt has more than 256 lines.
    TooLong,
    /// A derivation to be learnt does not follow, or may not be learnt.
    NotADerivation,
    /// The search for a request met one conflict more than its budget.
    BudgetSpent,
    /// A service can't write its journal, as on a full disk.
    DiskFault = 503,
}

use Refusal::*;

impl Refusal {
    /// All of the program's, in the order of their numbers.
    pub const ALL: [Refusal; 22] = [
        BadName,
        BadVersion,
        BadRequirement,
        RepeatedDependency,
        SelfDependency,
        TooManyDependencies,
        AlreadyPublished,
        TooManyVersions,
        TooManyPackages,
        JournalFull,
        NoSuchVersion,
        AlreadyYanked,
        NotYanked,
        Stale,
        Known,
        StoreFull,
        Stray,
        NoMemory,
        BadLine,
        TooLong,
        NotADerivation,
        BudgetSpent,
    ];

    /// The refusal of a number: of the program from 1 to 22, and of a service.
    pub fn of(number: u64) -> Option<Refusal> {
        Refusal::ALL.into_iter().chain([DiskFault]).find(|it| u64::from(it.number()) == number)
    }

    pub fn number(self) -> u16 {
        self as u16
    }

    /// The name that a reply has.
    pub fn name(self) -> String {
        format!("{self:?}")
    }
}
