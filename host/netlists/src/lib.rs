//! Netlists of GEM's cell library (AIGPDK), made in memory.

pub mod circuits;
pub mod designs;
pub mod enabled;
pub mod filter;

use netlistdb::{Direction, HierName, NetlistDB, VecCSR};

/// A net. The builder gives each one driver.
#[derive(Debug, Clone, Copy, PartialEq, Eq)]
pub struct Net(usize);

struct Pin {
    cell: usize,
    name: &'static str,
    bit: Option<isize>,
    direction: Direction,
    net: Net,
}

/// Cell 0 is the design; its pins are the ports.
pub struct Builder {
    cell_types: Vec<&'static str>,
    pins: Vec<Pin>,
    nets: usize,
    zero: Option<Net>,
    one: Option<Net>,
}

impl Builder {
    pub fn new() -> Self {
        Builder { cell_types: vec![""], pins: Vec::new(), nets: 0, zero: None, one: None }
    }

    fn net(&mut self) -> Net {
        self.nets += 1;
        Net(self.nets - 1)
    }

    fn pin(&mut self, cell: usize, name: &'static str, bit: Option<usize>, direction: Direction, net: Net) {
        self.pins.push(Pin { cell, name, bit: bit.map(|bit| bit as isize), direction, net });
    }

    fn cell(&mut self, cell_type: &'static str, inputs: &[(&'static str, Net)]) -> usize {
        self.cell_types.push(cell_type);
        let cell = self.cell_types.len() - 1;
        for &(name, net) in inputs {
            self.pin(cell, name, None, Direction::I, net);
        }
        cell
    }

    fn output_of(&mut self, cell: usize, name: &'static str, bit: Option<usize>) -> Net {
        let net = self.net();
        self.pin(cell, name, bit, Direction::O, net);
        net
    }

    pub fn zero(&mut self) -> Net {
        if self.zero.is_none() {
            self.zero = Some(self.net());
        }
        self.zero.expect("just made")
    }

    pub fn one(&mut self) -> Net {
        if self.one.is_none() {
            self.one = Some(self.net());
        }
        self.one.expect("just made")
    }

    pub fn input(&mut self) -> Net {
        self.output_of(0, "in", None)
    }

    pub fn output(&mut self, net: Net) {
        self.pin(0, "out", None, Direction::I, net);
    }

    pub fn not(&mut self, a: Net) -> Net {
        let cell = self.cell("INV", &[("A", a)]);
        self.output_of(cell, "Y", None)
    }

    pub fn and(&mut self, a: Net, b: Net) -> Net {
        self.gate("AND2_00_0", a, b)
    }

    pub fn or(&mut self, a: Net, b: Net) -> Net {
        self.gate("AND2_11_1", a, b)
    }

    pub fn xor(&mut self, a: Net, b: Net) -> Net {
        let left = self.gate("AND2_01_0", a, b);
        let right = self.gate("AND2_10_0", a, b);
        self.or(left, right)
    }

    fn gate(&mut self, cell_type: &'static str, a: Net, b: Net) -> Net {
        let cell = self.cell(cell_type, &[("A", a), ("B", b)]);
        self.output_of(cell, "Y", None)
    }

    /// A register's output, to be given its input later.
    pub fn register(&mut self, clock: Net) -> (usize, Net) {
        let cell = self.cell("DFF", &[("CLK", clock)]);
        let q = self.output_of(cell, "Q", None);
        (cell, q)
    }

    /// The same, set and reset where the nets are 0.
    pub fn register_with(&mut self, clock: Net, set: Net, reset: Net) -> (usize, Net) {
        let cell = self.cell("DFFSR", &[("CLK", clock), ("S", set), ("R", reset)]);
        let q = self.output_of(cell, "Q", None);
        (cell, q)
    }

    pub fn set_register(&mut self, register: usize, d: Net) {
        self.pin(register, "D", None, Direction::I, d);
    }

    /// A clock that runs where it is enabled.
    pub fn gated_clock(&mut self, clock: Net, enable: Net) -> Net {
        let cell = self.cell("CKLNQD", &[("CP", clock), ("E", enable)]);
        self.output_of(cell, "Q", None)
    }

    /// A synchronous RAM of 8192 words of 32 bits: so many bits of its read data. The others are not connected.
    pub fn ram(
        &mut self,
        clock: Net,
        read: &[Net; 13],
        write: &[Net; 13],
        enable: Net,
        data: &[Net; 32],
        bits: usize,
    ) -> Vec<Net> {
        let cell = self.cell("$__RAMGEM_SYNC_", &[("PORT_R_CLK", clock), ("PORT_W_CLK", clock)]);
        for bit in 0..13 {
            self.pin(cell, "PORT_R_ADDR", Some(bit), Direction::I, read[bit]);
            self.pin(cell, "PORT_W_ADDR", Some(bit), Direction::I, write[bit]);
        }
        for bit in 0..32 {
            self.pin(cell, "PORT_W_WR_EN", Some(bit), Direction::I, enable);
            self.pin(cell, "PORT_W_WR_DATA", Some(bit), Direction::I, data[bit]);
        }
        (0..bits).map(|bit| self.output_of(cell, "PORT_R_RD_DATA", Some(bit))).collect()
    }

    pub fn finish(self) -> NetlistDB {
        let mut of_cell = vec![Vec::new(); self.cell_types.len()];
        let mut drivers = vec![Vec::new(); self.nets];
        let mut readers = vec![Vec::new(); self.nets];
        for (index, pin) in self.pins.iter().enumerate() {
            of_cell[pin.cell].push(index);
            let side = if pin.direction == Direction::O { &mut drivers } else { &mut readers };
            side[pin.net.0].push(index);
        }
        let of_net: Vec<Vec<usize>> =
            drivers.into_iter().zip(readers).map(|(driver, reader)| [driver, reader].concat()).collect();
        let cell_name = |cell: usize| HierName(if cell == 0 { vec![] } else { vec![format!("c{}", cell)] });
        NetlistDB {
            num_cells: self.cell_types.len(),
            num_pins: self.pins.len(),
            num_nets: self.nets,
            cellnames: (0..self.cell_types.len()).map(cell_name).collect(),
            celltypes: self.cell_types.iter().map(|name| name.to_string()).collect(),
            pinnames: self
                .pins
                .iter()
                .map(|pin| (cell_name(pin.cell), pin.name.to_string(), pin.bit))
                .collect(),
            pindirect: self.pins.iter().map(|pin| pin.direction).collect(),
            pin2cell: self.pins.iter().map(|pin| pin.cell).collect(),
            pin2net: self.pins.iter().map(|pin| pin.net.0).collect(),
            cell2pin: end_to_end(&of_cell),
            net2pin: end_to_end(&of_net),
            net_zero: self.zero.map(|net| net.0),
            net_one: self.one.map(|net| net.0),
        }
    }
}

fn end_to_end(lists: &[Vec<usize>]) -> VecCSR {
    let mut start = vec![0];
    for list in lists {
        start.push(start[start.len() - 1] + list.len());
    }
    VecCSR { start, items: lists.concat() }
}
