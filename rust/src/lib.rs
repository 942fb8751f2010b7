//! The engine's calls for Rust: safe functions over slices, each for a call of include/walzhik.h or, for the indices,
//! include/walzhik_indices.h, which say what they take and give. A program takes this file as its module `walzhik` and links with both
//! libraries of target/staticlib, libwalzhik.a and libwalzhik_indices.a. Each function lends buffers of its own that are long enough,
//! so number 1 can't come, and gives back what an answer leaves in them.
#![deny(missing_docs)]

/// The cells of a weight buffer: 72 rows of 72 columns.
pub const CELLS: usize = SIDE * SIDE;
const SIDE: usize = 72;

/// The calls as C has them.
pub mod raw {
    /// What most calls give: a count, or the number and the place of a refusal.
    #[repr(C)]
    #[derive(Clone, Copy, Debug, PartialEq)]
    pub struct Reply {
        /// Of rows, positions, rings, series or bytes; 0 after a refusal.
        pub count: u64,
        /// 0 for an answer, else the reason.
        pub number: u32,
        /// What is at fault; 0 for an answer.
        pub place: u32,
    }

    /// What a reach call gives.
    #[repr(C)]
    #[derive(Clone, Copy, Debug, PartialEq)]
    pub struct Reach {
        /// In 256ths of a ring; 0 after a refusal.
        pub position: i32,
        /// 0 for an answer, else the reason.
        pub number: u32,
        /// What is at fault; 0 for an answer.
        pub place: u32,
    }

    /// What the call for laboratories' files gives; after a refusal all but number and place is 0.
    #[repr(C)]
    #[derive(Clone, Copy, Debug, PartialEq)]
    pub struct Cleaned {
        /// Of the strict text.
        pub bytes: u64,
        /// Of the strict text.
        pub lines: u64,
        /// Two cells each.
        pub notes: u64,
        /// 0 for an answer, else the reason.
        pub number: u32,
        /// What is at fault; 0 for an answer.
        pub place: u32,
    }

    /// What a piece call gives; after a refusal all but number and place is 0.
    #[repr(C)]
    #[derive(Clone, Copy, Debug, PartialEq)]
    pub struct Piece {
        /// 0 for an answer, else the reason.
        pub number: u32,
        /// What is at fault; 0 for an answer.
        pub place: u32,
        /// 1, 2 or 3.
        pub degree: u32,
        /// Always 0.
        pub unused: u32,
        /// In thousandths of a millimetre; those past the degree are 0.
        pub ordinates: [f64; 4],
        /// The breakpoint before the segment, in rings.
        pub start: f64,
        /// The breakpoint behind it.
        pub end: f64,
    }

    #[link(name = "walzhik", kind = "static")]
    extern "C" {
        /// The exact weights.
        pub fn walzhik_build(
            breaks: *const i32, breaks_len: usize, degrees: *const i32, degrees_len: usize,
            orders: *const i32, orders_len: usize, num: *mut i64, num_len: usize,
            den: *mut i64, den_len: usize,
        ) -> Reply;
        /// Both values at each position.
        pub fn walzhik_curve(
            breaks: *const i32, breaks_len: usize, degrees: *const i32, degrees_len: usize,
            orders: *const i32, orders_len: usize, coefs: *const i32, coefs_len: usize,
            positions: *const i32, positions_len: usize, num: *mut i64, num_len: usize,
            den: *mut i64, den_len: usize, values: *mut i32, values_len: usize,
        ) -> Reply;
        /// The series of a Tucson text.
        pub fn walzhik_tucson_read(
            text: *const u8, text_len: usize, names: *mut u8, names_len: usize, years: *mut i32, years_len: usize,
            counts: *mut u32, counts_len: usize, widths: *mut i32, widths_len: usize,
        ) -> Reply;
        /// The Tucson text of series.
        pub fn walzhik_tucson_write(
            names: *const u8, names_len: usize, years: *const i32, years_len: usize, counts: *const u32, counts_len: usize,
            widths: *const i32, widths_len: usize, text: *mut u8, text_len: usize,
        ) -> Reply;
        /// A laboratory's file in the strict form.
        pub fn walzhik_tucson_clean(
            text: *const u8, text_len: usize, header: u32, unit: u32, out: *mut u8, out_len: usize, lines: *mut usize,
            lines_len: usize, notes: *mut usize, notes_len: usize,
        ) -> Cleaned;
        /// The first position where the earlywood's curve reaches a width.
        pub fn walzhik_earlywood_reach(
            breaks: *const i32, breaks_len: usize, degrees: *const i32, degrees_len: usize,
            orders: *const i32, orders_len: usize, coefs: *const i32, coefs_len: usize,
            width: i32, num: *mut i64, num_len: usize, den: *mut i64, den_len: usize,
        ) -> Reach;
        /// The first position where the latewood's curve reaches a width.
        pub fn walzhik_latewood_reach(
            breaks: *const i32, breaks_len: usize, degrees: *const i32, degrees_len: usize,
            orders: *const i32, orders_len: usize, coefs: *const i32, coefs_len: usize,
            width: i32, num: *mut i64, num_len: usize, den: *mut i64, den_len: usize,
        ) -> Reach;
        /// A segment of the earlywood's curve.
        pub fn walzhik_earlywood_piece(
            breaks: *const i32, breaks_len: usize, degrees: *const i32, degrees_len: usize,
            orders: *const i32, orders_len: usize, coefs: *const i32, coefs_len: usize,
            segment: u32, num: *mut i64, num_len: usize, den: *mut i64, den_len: usize,
        ) -> Piece;
        /// A segment of the latewood's curve.
        pub fn walzhik_latewood_piece(
            breaks: *const i32, breaks_len: usize, degrees: *const i32, degrees_len: usize,
            orders: *const i32, orders_len: usize, coefs: *const i32, coefs_len: usize,
            segment: u32, num: *mut i64, num_len: usize, den: *mut i64, den_len: usize,
        ) -> Piece;
        /// The coefficients of local ordinates.
        pub fn walzhik_coefficients(
            breaks: *const i32, breaks_len: usize, degrees: *const i32, degrees_len: usize,
            orders: *const i32, orders_len: usize, ordinates: *const i32, ordinates_len: usize,
            num: *mut i64, num_len: usize, den: *mut i64, den_len: usize,
            coef_num: *mut i64, coef_num_len: usize, coef_den: *mut i64, coef_den_len: usize,
        ) -> Reply;
    }

    #[link(name = "walzhik_indices", kind = "static")]
    extern "C" {
        /// Each ring divided by the earlywood's curve.
        pub fn walzhik_earlywood_indices(
            breaks: *const i32, breaks_len: usize, degrees: *const i32, degrees_len: usize,
            orders: *const i32, orders_len: usize, coefs: *const i32, coefs_len: usize,
            first: i32, widths: *const i32, widths_len: usize, num: *mut i64, num_len: usize,
            den: *mut i64, den_len: usize, values: *mut i32, values_len: usize,
            indices: *mut i64, indices_len: usize,
        ) -> Reply;
        /// Each ring divided by the latewood's curve.
        pub fn walzhik_latewood_indices(
            breaks: *const i32, breaks_len: usize, degrees: *const i32, degrees_len: usize,
            orders: *const i32, orders_len: usize, coefs: *const i32, coefs_len: usize,
            first: i32, widths: *const i32, widths_len: usize, num: *mut i64, num_len: usize,
            den: *mut i64, den_len: usize, values: *mut i32, values_len: usize,
            indices: *mut i64, indices_len: usize,
        ) -> Reply;
        /// The lines of the table of indices, with the earlywood's curve.
        pub fn walzhik_earlywood_ring_lines(
            name: *const u8, name_len: usize, first: i32, widths: *const i32, widths_len: usize,
            values: *const i32, values_len: usize, indices: *const i64, indices_len: usize,
            out: *mut u8, out_len: usize,
        ) -> Reply;
        /// The lines of the table of indices, with the latewood's curve.
        pub fn walzhik_latewood_ring_lines(
            name: *const u8, name_len: usize, first: i32, widths: *const i32, widths_len: usize,
            values: *const i32, values_len: usize, indices: *const i64, indices_len: usize,
            out: *mut u8, out_len: usize,
        ) -> Reply;
    }
}

/// Why a call is refused, as an enum.
#[derive(Clone, Copy, Debug, PartialEq)]
pub enum Reason {
    /// The lists do not fit one number of segments, or series.
    ListLengths,
    /// More positions or rings than one call takes.
    TooManyPositions,
    /// A breakpoint out of range or not above the one before, or a part whose span is too long.
    Breakpoint,
    /// A degree out of range.
    Degree,
    /// An order out of range.
    Order,
    /// A part with too many segments.
    PartTooLong,
    /// Not one pair of coefficients for each row.
    CoefficientCount,
    /// A coefficient out of range.
    Coefficient,
    /// A position or a ring outside the span.
    Position,
    /// A fraction of the build that is too large.
    TooLarge,
    /// Jumps that lack the needed shape, which is proved never to come.
    Jumps,
    /// A line or a series that the Tucson form does not allow.
    TucsonLine,
    /// A line whose year does not go on.
    TucsonYear,
    /// A series that is not closed as it must be.
    TucsonClosing,
    /// A width out of range, or a value of zero or less under a ring.
    Ring,
    /// A width that no position reaches.
    NeverReached,
    /// No such segment, or one of degree 4 or 5.
    NotDrawn,
    /// Not one ordinate for each column.
    OrdinateCount,
    /// An ordinate out of range.
    Ordinate,
    /// Ordinates that miss the condition of a join.
    NoCoefficients,
    /// A fraction of the undoing that is too large.
    TooLargeToUndo,
    /// A file that is no text, or one of too many bytes.
    FileText,
    /// A line whose bytes over 127 leave open what it says.
    FileBytes,
    /// A line whose year runs into its name.
    FileName,
    /// A series that closes in no unit or in another one than is said.
    FileUnit,
    /// 999 before the closing 999.
    FileClosing,
    /// A header that the file does not have.
    FileHeader,
    /// A number that this file does not know.
    Unknown,
}

/// A refusal: its number, and the place of what is at fault.
#[derive(Clone, Copy, Debug, PartialEq)]
pub struct Refusal {
    /// The reason as include/walzhik.h lists it.
    pub number: u32,
    /// The breakpoint, segment, join, entry or line at fault; what it counts depends on the number.
    pub place: u32,
}

impl std::error::Error for Refusal {}

impl Refusal {
    /// The reason by name.
    pub fn reason(&self) -> Reason {
        match (self.number, self.place) {
            (2, 1) => Reason::TooManyPositions,
            (2, _) => Reason::ListLengths,
            (3, _) => Reason::Breakpoint,
            (4, _) => Reason::Degree,
            (5, _) => Reason::Order,
            (6, u32::MAX) => Reason::CoefficientCount,
            (6, _) => Reason::Coefficient,
            (7, _) => Reason::Position,
            (8, _) => Reason::TooLarge,
            (9, _) => Reason::Jumps,
            (11, _) => Reason::TucsonLine,
            (12, _) => Reason::TucsonYear,
            (13, _) => Reason::TucsonClosing,
            (14, _) => Reason::Ring,
            (15, _) => Reason::PartTooLong,
            (16, _) => Reason::NeverReached,
            (17, _) => Reason::NotDrawn,
            (18, u32::MAX) => Reason::OrdinateCount,
            (18, _) => Reason::Ordinate,
            (19, _) => Reason::NoCoefficients,
            (20, _) => Reason::TooLargeToUndo,
            (21, _) => Reason::FileText,
            (22, _) => Reason::FileBytes,
            (23, _) => Reason::FileName,
            (24, _) => Reason::FileUnit,
            (25, _) => Reason::FileClosing,
            (26, _) => Reason::FileHeader,
            _ => Reason::Unknown,
        }
    }
}

impl std::fmt::Display for Refusal {
    fn fmt(&self, f: &mut std::fmt::Formatter) -> std::fmt::Result {
        write!(f, "refused {} at {}", self.number, self.place)
    }
}

/// What is given for number 0.
fn unless_refused<T>(answer: T, number: u32, place: u32) -> Result<T, Refusal> {
    if number == 0 { Ok(answer) } else { Err(Refusal { number, place }) }
}

fn counted(reply: raw::Reply) -> Result<usize, Refusal> {
    unless_refused(reply.count as usize, reply.number, reply.place)
}

/// A fraction in lowest terms, with a positive denominator.
#[derive(Clone, Copy, Debug, PartialEq)]
pub struct Fraction {
    /// The numerator.
    pub num: i64,
    /// The denominator, above zero.
    pub den: i64,
}

impl std::fmt::Display for Fraction {
    fn fmt(&self, f: &mut std::fmt::Formatter) -> std::fmt::Result {
        if self.den == 1 { write!(f, "{}", self.num) } else { write!(f, "{}/{}", self.num, self.den) }
    }
}

/// The two lent weight buffers.
#[derive(Clone, Debug, PartialEq)]
struct Cells {
    num: Vec<i64>,
    den: Vec<i64>,
}

impl Cells {
    fn new() -> Cells {
        Cells { num: vec![0; CELLS], den: vec![0; CELLS] }
    }
}

/// The weights of the last part, with the count of all rows.
#[derive(Clone, Debug, PartialEq)]
pub struct Weights {
    /// The rows of all parts.
    pub rows: usize,
    part_rows: usize,
    part_columns: usize,
    cells: Cells,
}

impl Weights {
    /// The weight of a row and a column, both counted from the part's first; None past its last ones.
    pub fn at(&self, row: usize, column: usize) -> Option<Fraction> {
        if row >= self.part_rows || column >= self.part_columns {
            return None;
        }
        let cell = SIDE * row + column;
        Some(Fraction { num: self.cells.num[cell], den: self.cells.den[cell] })
    }
}

/// The rows and the columns of the last part of legal lists.
fn last_part(degrees: &[i32], orders: &[i32]) -> (usize, usize) {
    let first = orders.iter().rposition(|&order| order < 0).map_or(0, |join| join + 1);
    let columns: i32 = degrees[first..].iter().map(|degree| degree + 1).sum();
    let conditions: i32 = orders[first..].iter().map(|order| order + 1).sum();
    ((columns - conditions) as usize, columns as usize)
}

/// Which curve is meant, where only one is.
#[derive(Clone, Copy, Debug, PartialEq)]
pub enum WoodPart {
    /// The wood of spring.
    Earlywood,
    /// The wood of summer.
    Latewood,
}

/// A number for each part of a ring: a coefficient, or a value.
#[derive(Clone, Copy, Debug, PartialEq)]
pub struct Pair {
    /// Of the earlywood.
    pub earlywood: i32,
    /// Of the latewood.
    pub latewood: i32,
}

/// The numbers of the pairs, side by side, as the calls take them.
fn side_by_side(pairs: &[Pair]) -> Vec<i32> {
    pairs.iter().flat_map(|pair| [pair.earlywood, pair.latewood]).collect()
}

// SAFETY, of every call below: each pointer comes from a live slice or vector with the length given beside it, the buffers are
// vectors of their own, so that none overlaps another or a list, and no call keeps a pointer.

/// The exact weights of the last part, and the count of all rows.
///
/// # Errors
///
/// What the lists are refused for; so with all functions here.
pub fn build(breaks: &[i32], degrees: &[i32], orders: &[i32]) -> Result<Weights, Refusal> {
    let Cells { mut num, mut den } = Cells::new();
    let reply = unsafe {
        raw::walzhik_build(
            breaks.as_ptr(), breaks.len(), degrees.as_ptr(), degrees.len(), orders.as_ptr(), orders.len(),
            num.as_mut_ptr(), num.len(), den.as_mut_ptr(), den.len(),
        )
    };
    let rows = counted(reply)?;
    let (part_rows, part_columns) = last_part(degrees, orders);
    Ok(Weights { rows, part_rows, part_columns, cells: Cells { num, den } })
}

/// The values of both curves at the positions, in list order.
pub fn curve(
    breaks: &[i32], degrees: &[i32], orders: &[i32], coefs: &[Pair], positions: &[i32],
) -> Result<Vec<Pair>, Refusal> {
    let coefs = side_by_side(coefs);
    let Cells { mut num, mut den } = Cells::new();
    let mut values = vec![0; 2 * positions.len()];
    let reply = unsafe {
        raw::walzhik_curve(
            breaks.as_ptr(), breaks.len(), degrees.as_ptr(), degrees.len(), orders.as_ptr(), orders.len(),
            coefs.as_ptr(), coefs.len(), positions.as_ptr(), positions.len(), num.as_mut_ptr(), num.len(),
            den.as_mut_ptr(), den.len(), values.as_mut_ptr(), values.len(),
        )
    };
    let written = values.chunks_exact(2).take(counted(reply)?);
    Ok(written.map(|pair| Pair { earlywood: pair[0], latewood: pair[1] }).collect())
}

/// One index for each ring, from the first one's number on; -1 for an absent ring.
pub fn indices(
    part: WoodPart, breaks: &[i32], degrees: &[i32], orders: &[i32], coefs: &[Pair], first: i32, widths: &[i32],
) -> Result<Vec<i64>, Refusal> {
    let call = match part {
        WoodPart::Earlywood => raw::walzhik_earlywood_indices,
        WoodPart::Latewood => raw::walzhik_latewood_indices,
    };
    let coefs = side_by_side(coefs);
    let Cells { mut num, mut den } = Cells::new();
    let mut values = vec![0; 2 * widths.len()];
    let mut indices = vec![0; widths.len()];
    let reply = unsafe {
        call(
            breaks.as_ptr(), breaks.len(), degrees.as_ptr(), degrees.len(), orders.as_ptr(), orders.len(),
            coefs.as_ptr(), coefs.len(), first, widths.as_ptr(), widths.len(), num.as_mut_ptr(), num.len(),
            den.as_mut_ptr(), den.len(), values.as_mut_ptr(), values.len(), indices.as_mut_ptr(), indices.len(),
        )
    };
    indices.truncate(counted(reply)?);
    Ok(indices)
}

/// The most bytes that a line of the table of indices has.
const LINE_BYTES: usize = 87;

/// The lines of the table of indices, NAME,YEAR,WIDTH,CURVE,INDEX each: of rings from the first one's year on, with the curve of a wood.
pub fn ring_lines(
    part: WoodPart, name: &[u8], first: i32, widths: &[i32], values: &[Pair], indices: &[i64],
) -> Result<Vec<u8>, Refusal> {
    let call = match part {
        WoodPart::Earlywood => raw::walzhik_earlywood_ring_lines,
        WoodPart::Latewood => raw::walzhik_latewood_ring_lines,
    };
    let values = side_by_side(values);
    let mut out = vec![0; LINE_BYTES * widths.len()];
    let reply = unsafe {
        call(
            name.as_ptr(), name.len(), first, widths.as_ptr(), widths.len(), values.as_ptr(), values.len(),
            indices.as_ptr(), indices.len(), out.as_mut_ptr(), out.len(),
        )
    };
    out.truncate(counted(reply)?);
    Ok(out)
}

/// The least position, in 256ths of a ring, whose value is 256 times the width or more.
pub fn reach(
    part: WoodPart, breaks: &[i32], degrees: &[i32], orders: &[i32], coefs: &[Pair], width: i32,
) -> Result<i32, Refusal> {
    let call = match part {
        WoodPart::Earlywood => raw::walzhik_earlywood_reach,
        WoodPart::Latewood => raw::walzhik_latewood_reach,
    };
    let coefs = side_by_side(coefs);
    let Cells { mut num, mut den } = Cells::new();
    let reach = unsafe {
        call(
            breaks.as_ptr(), breaks.len(), degrees.as_ptr(), degrees.len(), orders.as_ptr(), orders.len(),
            coefs.as_ptr(), coefs.len(), width, num.as_mut_ptr(), num.len(), den.as_mut_ptr(), den.len(),
        )
    };
    unless_refused(reach.position, reach.number, reach.place)
}

/// A line, a quadratic or a cubic, with its ordinates from the left in thousandths of a millimetre.
#[derive(Clone, Copy, Debug, PartialEq)]
pub enum Piece {
    /// Of degree 1.
    Line([f64; 2]),
    /// Of degree 2.
    Quadratic([f64; 3]),
    /// Of degree 3.
    Cubic([f64; 4]),
}

/// The ends of a piece, in rings.
#[derive(Clone, Copy, Debug, PartialEq)]
pub struct Ends {
    /// The breakpoint before it.
    pub start: f64,
    /// The breakpoint behind it.
    pub end: f64,
}

/// The curve over a segment.
pub fn piece(
    part: WoodPart, breaks: &[i32], degrees: &[i32], orders: &[i32], coefs: &[Pair], segment: u32,
) -> Result<(Piece, Ends), Refusal> {
    let call = match part {
        WoodPart::Earlywood => raw::walzhik_earlywood_piece,
        WoodPart::Latewood => raw::walzhik_latewood_piece,
    };
    let coefs = side_by_side(coefs);
    let Cells { mut num, mut den } = Cells::new();
    let piece = unsafe {
        call(
            breaks.as_ptr(), breaks.len(), degrees.as_ptr(), degrees.len(), orders.as_ptr(), orders.len(),
            coefs.as_ptr(), coefs.len(), segment, num.as_mut_ptr(), num.len(), den.as_mut_ptr(), den.len(),
        )
    };
    let [a, b, c, d] = piece.ordinates;
    let drawn = match piece.degree {
        1 => Piece::Line([a, b]),
        2 => Piece::Quadratic([a, b, c]),
        _ => Piece::Cubic([a, b, c, d]),
    };
    unless_refused((drawn, Ends { start: piece.start, end: piece.end }), piece.number, piece.place)
}

/// The coefficient of each row, in 256ths of a thousandth of a millimetre, from the local ordinates of all columns in the same unit.
pub fn coefficients(breaks: &[i32], degrees: &[i32], orders: &[i32], ordinates: &[i32]) -> Result<Vec<Fraction>, Refusal> {
    let Cells { mut num, mut den } = Cells::new();
    let mut coef_num = vec![0; ordinates.len()];
    let mut coef_den = vec![0; ordinates.len()];
    let reply = unsafe {
        raw::walzhik_coefficients(
            breaks.as_ptr(), breaks.len(), degrees.as_ptr(), degrees.len(), orders.as_ptr(), orders.len(),
            ordinates.as_ptr(), ordinates.len(), num.as_mut_ptr(), num.len(), den.as_mut_ptr(), den.len(),
            coef_num.as_mut_ptr(), coef_num.len(), coef_den.as_mut_ptr(), coef_den.len(),
        )
    };
    let written = coef_num.into_iter().zip(coef_den).take(counted(reply)?);
    Ok(written.map(|(num, den)| Fraction { num, den }).collect())
}

const NAME: usize = 8;
const LEAST_SERIES: usize = 19;
const LEAST_WIDTH: usize = 6;

/// A series: its name, its first year, and its widths in thousandths of a millimetre, one for each year.
#[derive(Clone, Debug, PartialEq)]
pub struct Series {
    /// Printable ASCII, with blanks up to eight bytes.
    pub name: [u8; NAME],
    /// The year of the first width.
    pub first_year: i32,
    /// 0 is an absent ring.
    pub widths: Vec<i32>,
}

/// The series of a Tucson text. The buffers take those of any text of its length.
pub fn tucson_read(text: &[u8]) -> Result<Vec<Series>, Refusal> {
    let most = text.len() / LEAST_SERIES;
    let mut names = vec![0; most * NAME];
    let mut years = vec![0; most];
    let mut counts = vec![0; most];
    let mut widths = vec![0; text.len() / LEAST_WIDTH];
    let reply = unsafe {
        raw::walzhik_tucson_read(
            text.as_ptr(), text.len(), names.as_mut_ptr(), names.len(), years.as_mut_ptr(), years.len(),
            counts.as_mut_ptr(), counts.len(), widths.as_mut_ptr(), widths.len(),
        )
    };
    let mut rest = widths.into_iter();
    let series = names.chunks_exact(NAME).zip(years).zip(counts).take(counted(reply)?);
    Ok(series
        .map(|((name, first_year), count)| Series {
            name: name.try_into().unwrap(),
            first_year,
            widths: rest.by_ref().take(count as usize).collect(),
        })
        .collect())
}

/// The Tucson text of the series, of which `most` bytes are enough.
pub fn tucson_write(series: &[Series], most: usize) -> Result<Vec<u8>, Refusal> {
    let names: Vec<u8> = series.iter().flat_map(|one| one.name).collect();
    let years: Vec<i32> = series.iter().map(|one| one.first_year).collect();
    let counts: Vec<u32> = series.iter().map(|one| one.widths.len() as u32).collect();
    let widths: Vec<i32> = series.iter().flat_map(|one| one.widths.iter().copied()).collect();
    let mut text = vec![0; most];
    let reply = unsafe {
        raw::walzhik_tucson_write(
            names.as_ptr(), names.len(), years.as_ptr(), years.len(), counts.as_ptr(), counts.len(), widths.as_ptr(),
            widths.len(), text.as_mut_ptr(), text.len(),
        )
    };
    text.truncate(counted(reply)?);
    Ok(text)
}

const NO_HEADER: u32 = 100;
const NO_UNIT: u32 = 0;
const LEAST_LINE: usize = 10;
const NOTE: usize = 2;

/// The unit in which a laboratory measures, where its file does not say it.
#[derive(Clone, Copy, Debug, PartialEq)]
pub enum Unit {
    /// 0.01 mm; the closing is 999.
    Hundredths = 100,
    /// 0.001 mm; the closing is -9999.
    Thousandths = 1000,
}

/// What was changed, left out or remarked at a line of a file.
#[derive(Clone, Copy, Debug, PartialEq)]
pub struct Note {
    /// 1 to 14, as include/walzhik.h lists them.
    pub number: usize,
    /// The line of the file, from 1.
    pub line: usize,
}

/// A laboratory's file in the strict form.
#[derive(Clone, Debug, PartialEq)]
pub struct Cleaned {
    /// The strict text, which `tucson_read` reads.
    pub text: Vec<u8>,
    /// For each line of the text its number in the file, from 1.
    pub lines: Vec<usize>,
    /// By rising line, then number, none twice.
    pub notes: Vec<Note>,
}

/// A laboratory's file in the strict form. Its header has so many lines, 0 to 99, or is found where none is named; the unit is that of
/// series which close with -999. The buffers take what becomes of any file of its length.
pub fn tucson_clean(file: &[u8], header: Option<u32>, unit: Option<Unit>) -> Result<Cleaned, Refusal> {
    let header = header.map_or(NO_HEADER, |lines| if lines == NO_HEADER { lines + 1 } else { lines });
    let mut text = vec![0; 2 * file.len()];
    let mut lines = vec![0; file.len() / LEAST_LINE];
    let mut notes = vec![0; NOTE * (file.len() + 2)];
    let cleaned = unsafe {
        raw::walzhik_tucson_clean(
            file.as_ptr(), file.len(), header, unit.map_or(NO_UNIT, |said| said as u32), text.as_mut_ptr(), text.len(),
            lines.as_mut_ptr(), lines.len(), notes.as_mut_ptr(), notes.len(),
        )
    };
    text.truncate(cleaned.bytes as usize);
    lines.truncate(cleaned.lines as usize);
    let told = notes.chunks_exact(NOTE).take(cleaned.notes as usize);
    let notes = told.map(|note| Note { number: note[0], line: note[1] }).collect();
    unless_refused(Cleaned { text, lines, notes }, cleaned.number, cleaned.place)
}
