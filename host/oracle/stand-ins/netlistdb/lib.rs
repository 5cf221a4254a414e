//! Stand-in for the crate `netlistdb`: a flat netlist of cells, pins and nets.
//!
//! Cell 0 is the design itself: its pins are the ports, an input port being a pin of
//! direction O (it drives a net) and an output port one of direction I. The first pin of a
//! net is the one that drives it. The host fills the fields; nothing is parsed.

use compact_str::CompactString;
use sverilogparse::SVerilogRange;

#[derive(Debug, Clone, Copy, PartialEq, Eq)]
pub enum Direction {
    I,
    O,
    Unknown,
}

/// The directions and widths of the pins of a library's cells.
pub trait LeafPinProvider {
    fn direction_of(
        &self,
        macro_name: &CompactString,
        pin_name: &CompactString,
        pin_idx: Option<isize>,
    ) -> Direction;

    fn width_of(&self, macro_name: &CompactString, pin_name: &CompactString) -> Option<SVerilogRange>;
}

/// The name of a cell: the names of the cells around it, outermost first, and its own.
#[derive(Debug, Clone, Default)]
pub struct HierName(pub Vec<CompactString>);

impl HierName {
    pub fn single(name: CompactString) -> Self {
        HierName(vec![name])
    }
}

pub trait GeneralHierName {
    fn dbg_fmt_hier(&self) -> String;
}

impl GeneralHierName for HierName {
    fn dbg_fmt_hier(&self) -> String {
        self.0.join("/")
    }
}

pub trait GeneralPinName {
    fn dbg_fmt_pin(&self) -> String;
}

impl<S: AsRef<str>> GeneralPinName for (HierName, S, Option<isize>) {
    fn dbg_fmt_pin(&self) -> String {
        let name = format!("{}:{}", self.0.dbg_fmt_hier(), self.1.as_ref());
        match self.2 {
            Some(bit) => format!("{}[{}]", name, bit),
            None => name,
        }
    }
}

/// Lists end to end: list i is `items[start[i]..start[i + 1]]`.
#[derive(Debug, Clone, Default)]
pub struct VecCSR {
    pub start: Vec<usize>,
    pub items: Vec<usize>,
}

impl VecCSR {
    pub fn iter_set(&self, i: usize) -> impl Iterator<Item = usize> + '_ {
        self.items[self.start[i]..self.start[i + 1]].iter().copied()
    }
}

#[derive(Debug, Clone, Default)]
pub struct NetlistDB {
    pub num_cells: usize,
    pub num_pins: usize,
    pub num_nets: usize,
    pub cellnames: Vec<HierName>,
    pub celltypes: Vec<CompactString>,
    /// Cell, pin of the cell, bit of the pin.
    pub pinnames: Vec<(HierName, CompactString, Option<isize>)>,
    pub pindirect: Vec<Direction>,
    pub pin2cell: Vec<usize>,
    pub pin2net: Vec<usize>,
    pub cell2pin: VecCSR,
    pub net2pin: VecCSR,
    /// The nets that are tied to 0 and to 1.
    pub net_zero: Option<usize>,
    pub net_one: Option<usize>,
}
