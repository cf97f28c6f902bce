//! What a call is given, and the block that carries it.

/// Bytes of a block, of its part under the check, and points at most.
pub const BLOCK: usize = 512;
pub const CHECKED: usize = 508;
pub const POINTS: usize = 60;

/// A ring and its chain, in units, with the sheet size in mm.
#[derive(Clone, Default, PartialEq)]
pub struct Job {
    pub ring: Vec<[i32; 2]>,
    pub chain: Vec<[i32; 2]>,
    pub size: u32,
}

/// The marks of a ring's edges, given in place of a chain, as they are lent.
#[derive(Clone, Default, PartialEq, Debug)]
pub struct Marking {
    pub kinds: Vec<u8>,
    pub snaps: Vec<f64>,
    pub outline: Vec<i32>,
    pub loops: Vec<u32>,
}

/// A set of limits (Card 7): five values that the original has as constants.
#[derive(Clone, Copy, PartialEq, Debug)]
pub struct Set {
    /// a corner with a measure above this is bad
    pub corner: f64,
    /// no new corner of a cut has a cosine below or above these
    pub least: f64,
    pub greatest: f64,
    /// the most cuts
    pub cuts: u32,
    /// a snap point farther than this share of the chord is not taken
    pub share: f64,
}

/// The tangent of 20 degrees.
const TANGENT: f64 = 0.36397023426620236;

impl Set {
    /// Corners of 160 degrees, diagonals of 160 and 12 degrees.
    pub const DELIVERED: Set = Set {
        corner: 2.0 - TANGENT / (1.0 + TANGENT),
        least: -0.9396926207859084,
        greatest: 0.9781476007338057,
        cuts: 32,
        share: 0.4,
    };
}

/// The entry that a call is of: the examination, one that takes a set, or the
/// practice paper.
#[derive(Clone, Copy, PartialEq, Debug, Default)]
pub enum Entry {
    #[default]
    Examination,
    Limited(Set),
    Practice,
}

impl Entry {
    /// The set that it divides with.
    pub fn set(&self) -> Set {
        match self {
            Entry::Examination => Set::DELIVERED,
            Entry::Limited(set) => *set,
            Entry::Practice => Set {
                cuts: 12,
                ..Set::DELIVERED
            },
        }
    }
}

/// A job with its entry, with given marks or its chain, the places of its cell
/// list and the used count.
pub struct Call {
    pub entry: Entry,
    pub job: Job,
    pub marking: Option<Marking>,
    pub cell_places: usize,
    pub cell_count: usize,
}

/// A node list with what it holds, the places of its list of rim marks and the
/// marks of its nodes, and the calls over it.
#[derive(Default)]
pub struct Given {
    pub places: usize,
    pub used: usize,
    pub nodes: Vec<[f64; 2]>,
    pub rims: usize,
    pub marks: Vec<u8>,
    pub calls: Vec<Call>,
}

/// The sum over bytes 0 to 507 of byte × (position + 1).
pub fn check(block: &[u8]) -> u32 {
    let terms = block[..CHECKED].iter().zip(1u32..);
    terms.map(|(&byte, place)| u32::from(byte) * place).sum()
}
