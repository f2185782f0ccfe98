//! The calls of libmars that this example uses; see `mars.h` for all calls, with the units and ranges of each field.

use std::{error::Error, fmt};

/// The result of a call if a buffer is too short.
const ROOM: u32 = 10;

/// The settings of matches. A limit of 0 is the core size, and a position of 0 is drawn.
#[repr(C)]
#[derive(Clone, Copy, Debug)]
pub struct Settings {
    pub core: u32,
    pub processes: u32,
    pub cycles: u32,
    pub read_limit: u32,
    pub write_limit: u32,
    pub longest: u32,
    pub distance: u32,
    pub rounds: u32,
    pub seed: u32,
    pub position: u32,
}

impl Default for Settings {
    /// The defaults of the program.
    fn default() -> Self {
        Self {
            core: 8000,
            processes: 8000,
            cycles: 80_000,
            read_limit: 0,
            write_limit: 0,
            longest: 100,
            distance: 100,
            rounds: 1,
            seed: 1,
            position: 0,
        }
    }
}

/// The result of a warrior.
#[repr(C)]
#[derive(Clone, Copy, Debug, Default, PartialEq, Eq)]
pub struct Row {
    pub points: i64,
    pub wins: u64,
    pub ties: u64,
    pub losses: u64,
}

/// A cell of a warrior; see the enumerations of the header.
#[repr(C)]
#[derive(Clone, Copy, Debug, Default, PartialEq, Eq)]
pub struct Cell {
    pub op: u8,
    pub modifier: u8,
    pub a_mode: u8,
    pub b_mode: u8,
    pub a: u32,
    pub b: u32,
}

/// The number of cells of a warrior, and the index of the cell at which it starts.
#[repr(C)]
#[derive(Clone, Copy, Debug, Default, PartialEq, Eq)]
pub struct Extent {
    pub length: u32,
    pub start: u32,
}

/// A program, besides its cells.
#[repr(C)]
#[derive(Clone, Copy, Debug)]
struct Program {
    extent: Extent,
    name: [u8; 64],
    author: [u8; 64],
}

/// The line of a cell in its source, and where its labels are.
#[repr(C)]
struct Line {
    line: u64,
    begin: u64,
    end: u64,
}

/// A warrior.
#[derive(Clone, Debug, PartialEq, Eq)]
pub struct Warrior {
    pub cells: Vec<Cell>,
    pub start: u32,
}

/// The error of a call; fields that do not apply are 0.
#[repr(C)]
#[derive(Clone, Copy, Debug, Default, PartialEq, Eq)]
pub struct Fault {
    pub code: u32,
    pub number: u32,
    pub problem: u32,
    pub expression: u32,
    /// The line of a source or a load file, from 1; or the index of a wrong cell.
    pub line: u64,
    /// The index of a wrong warrior, from 0.
    pub warrior: u64,
    /// The word or sign of a source at which its error arises has the bytes from `begin` to before `end`; without one both are 0.
    pub begin: u64,
    pub end: u64,
}

impl fmt::Display for Fault {
    fn fmt(&self, f: &mut fmt::Formatter<'_>) -> fmt::Result {
        let Self {
            code,
            number,
            problem,
            expression,
            line,
            warrior,
            begin,
            end,
        } = self;
        write!(f, "answer {code}, number {number}, problem {problem}, expression {expression}, line {line}, warrior {warrior}, ")?;
        write!(f, "bytes {begin} to {end}")
    }
}

impl Error for Fault {}

extern "C" {
    fn mars_assemble(
        settings: *const Settings,
        warriors: u32,
        source: *const u8,
        source_length: usize,
        cells: *mut Cell,
        cell_count: usize,
        program: *mut Program,
        lines: *mut Line,
        line_count: usize,
        labels: *mut u8,
        labels_length: usize,
        length: *mut usize,
        fault: *mut Fault,
    ) -> u32;

    fn mars_read_load(
        settings: *const Settings,
        load: *const u8,
        load_length: usize,
        cells: *mut Cell,
        cell_count: usize,
        program: *mut Program,
        fault: *mut Fault,
    ) -> u32;

    fn mars_match(
        settings: *const Settings,
        formula: *const u8,
        formula_length: usize,
        cells: *const Cell,
        cell_count: usize,
        warriors: *const Extent,
        warrior_count: usize,
        rows: *mut Row,
        row_count: usize,
        fault: *mut Fault,
    ) -> u32;
}

/// Returns the warrior of a source; `warriors` is the value of WARRIORS.
pub fn assemble(source: &[u8], settings: &Settings, warriors: u32) -> Result<Warrior, Fault> {
    // The pointers are valid for the given lengths, and the output overlaps nothing. Lines and labels aren't requested.
    warrior_of(|cells, program, fault| unsafe {
        let mut length = 0;
        mars_assemble(
            settings,
            warriors,
            source.as_ptr(),
            source.len(),
            cells.as_mut_ptr(),
            cells.len(),
            program,
            std::ptr::null_mut(),
            0,
            std::ptr::null_mut(),
            0,
            &mut length,
            fault,
        )
    })
}

/// Returns the warrior of a load file.
pub fn read_load(load: &[u8], settings: &Settings) -> Result<Warrior, Fault> {
    // The pointers are valid for the given lengths, and the output overlaps nothing.
    warrior_of(|cells, program, fault| unsafe {
        mars_read_load(
            settings,
            load.as_ptr(),
            load.len(),
            cells.as_mut_ptr(),
            cells.len(),
            program,
            fault,
        )
    })
}

/// Returns the warrior that a call writes, which is called again if it has more cells than the buffer.
fn warrior_of(
    call: impl Fn(&mut [Cell], &mut Program, &mut Fault) -> u32,
) -> Result<Warrior, Fault> {
    let (mut cells, mut fault) = (vec![Cell::default(); 128], Fault::default());
    let mut program = Program {
        extent: Extent::default(),
        name: [0; 64],
        author: [0; 64],
    };
    loop {
        let answer = call(&mut cells, &mut program, &mut fault);
        if answer != 0 && answer != ROOM {
            return Err(fault);
        }
        cells.resize(program.extent.length as usize, Cell::default());
        if answer == 0 {
            return Ok(Warrior {
                cells,
                start: program.extent.start,
            });
        }
    }
}

/// Runs a match of 1 to 16 warriors and returns the row of each. The formula is the score of a survivor.
pub fn fight(warriors: &[Warrior], settings: &Settings, formula: &str) -> Result<Vec<Row>, Fault> {
    let cells: Vec<Cell> = warriors.iter().flat_map(|one| one.cells.clone()).collect();
    let extents: Vec<Extent> = warriors
        .iter()
        .map(|one| Extent {
            length: one.cells.len() as u32,
            start: one.start,
        })
        .collect();
    let (mut rows, mut fault) = (vec![Row::default(); warriors.len()], Fault::default());
    // The pointers are valid for the given lengths, and the output overlaps nothing.
    let answer = unsafe {
        mars_match(
            settings,
            formula.as_ptr(),
            formula.len(),
            cells.as_ptr(),
            cells.len(),
            extents.as_ptr(),
            extents.len(),
            rows.as_mut_ptr(),
            rows.len(),
            &mut fault,
        )
    };
    if answer == 0 {
        Ok(rows)
    } else {
        Err(fault)
    }
}
