// The job of the program `border` (read, check and list the border), written by hand as one loop without layers. It is the bar for
// the library's speed. Nothing is proved of it. Built with `rustc -O --edition 2021`.

include!("mesh_text.rs");
include!("open_table.rs");

use std::fmt::Write as _;
use std::io::Write;

const MOST_TRIANGLES: u32 = 100_000_000;
const MOST_LIVE: usize = 1_024;
const MOST_OPEN: usize = 4_096;

// Which row a live vertex has. The vertices are numbered from 1; an empty slot has number 0.
#[derive(Clone, Copy, Default)]
struct Numbered {
    number: u32,
    row: u16,
}

impl Record for Numbered {
    fn key(&self) -> u32 {
        self.number
    }
}

// An open edge, between two rows: its first use, and whether there was no other. An empty slot has no ends.
#[derive(Clone, Copy, Default)]
struct Edge {
    ends: u32,
    from: u16,
    to: u16,
    place: u32,
    single: bool,
}

impl Record for Edge {
    fn key(&self) -> u32 {
        self.ends
    }
}

// A number for two rows that are not the same, whichever comes first; it is not 0, since the larger row is not.
fn ends(a: u16, b: u16) -> u32 {
    u32::from(a.max(b)) * MOST_LIVE as u32 + u32::from(a.min(b))
}

// A live vertex, with the rows of the other ends of its open edges, in no order.
#[derive(Default)]
struct Vertex {
    number: u32,
    place: u32,
    neighbours: Vec<u16>,
}

impl Vertex {
    fn forget(&mut self, row: u16) {
        let at = self.neighbours.iter().position(|&neighbour| neighbour == row);
        self.neighbours.swap_remove(at.expect("an open edge has two ends"));
    }
}

// The live vertices in their rows, the open edges, what was read, and the lines that are still to be written.
struct Border {
    live: Table<Numbered, { 2 * MOST_LIVE }>,
    rows: Vec<Vertex>,
    free: Vec<u16>,
    open: Table<Edge, { 2 * MOST_OPEN }>,
    found: Vec<Edge>,
    vertices_read: u32,
    triangles_read: u32,
    lines: String,
}

impl Border {
    fn new() -> Border {
        Border {
            live: Table::new(),
            rows: (0..MOST_LIVE).map(|_| Vertex::default()).collect(),
            free: (0..MOST_LIVE as u16).rev().collect(),
            open: Table::new(),
            found: Vec::new(),
            vertices_read: 0,
            triangles_read: 0,
            lines: String::new(),
        }
    }

    fn vertex(&mut self, place: u32) -> Result<(), u32> {
        if self.vertices_read >= HIGHEST_VERTEX {
            return Err(6);
        }
        let row = self.free.pop().ok_or(9u32)?;
        self.vertices_read += 1;
        let vertex = &mut self.rows[usize::from(row)];
        vertex.number = self.vertices_read;
        vertex.place = place;
        self.live.insert(Numbered { number: self.vertices_read, row });
        Ok(())
    }

    fn row_of(&self, number: u32) -> Option<u16> {
        self.live.find(number).map(|i| self.live.slots[i].row)
    }

    fn corners(&mut self, [a, b, c]: [u32; 3]) -> Result<[u16; 3], u32> {
        let a = self.row_of(a).ok_or(10u32)?;
        let b = self.row_of(b).ok_or(10u32)?;
        let c = self.row_of(c).ok_or(10u32)?;
        if self.triangles_read >= MOST_TRIANGLES {
            return Err(13);
        }
        self.triangles_read += 1;
        Ok([a, b, c])
    }

    // Whether these edges can all be open.
    fn fits(&self, uses: [(u16, u16); 3]) -> bool {
        let new = |(a, b): &(u16, u16)| self.open.find(ends(*a, *b)).is_none();
        self.open.count + 3 <= MOST_OPEN || self.open.count + uses.iter().filter(|ends| new(ends)).count() <= MOST_OPEN
    }

    fn use_edge(&mut self, place: u32, (from, to): (u16, u16)) {
        let ends = ends(from, to);
        match self.open.slot(ends) {
            Ok(i) => self.open.slots[i].single = false,
            Err(i) => {
                self.open.put(i, Edge { ends, from, to, place, single: true });
                self.rows[usize::from(from)].neighbours.push(to);
                self.rows[usize::from(to)].neighbours.push(from);
            }
        }
    }

    // A triangle that names a corner twice has no edges.
    fn triangle(&mut self, place: u32, [a, b, c]: [u16; 3]) -> Result<(), u32> {
        if a == b || b == c || c == a {
            return Ok(());
        }
        let uses = [(a, b), (b, c), (c, a)];
        if !self.fits(uses) {
            return Err(14);
        }
        for ends in uses {
            self.use_edge(place, ends);
        }
        Ok(())
    }

    // Closes the edges at a row, and finds the single ones.
    fn close_edges(&mut self, row: u16) {
        let mut neighbours = std::mem::take(&mut self.rows[usize::from(row)].neighbours);
        for &neighbour in &neighbours {
            let i = self.open.find(ends(row, neighbour)).expect("neighbours have an open edge");
            if self.open.slots[i].single {
                self.found.push(self.open.slots[i]);
            }
            self.open.remove(i);
            self.rows[usize::from(neighbour)].forget(row);
        }
        neighbours.clear();
        self.rows[usize::from(row)].neighbours = neighbours;
    }

    // Lists the edges that were found at a row, by rising number of the other end.
    fn list_found(&mut self, row: u16) {
        let rows = &self.rows;
        let number = |row: u16| rows[usize::from(row)].number;
        self.found.sort_unstable_by_key(|edge| number(if edge.from == row { edge.to } else { edge.from }));
        for edge in self.found.drain(..) {
            writeln!(self.lines, "e {} {} @{}", number(edge.from), number(edge.to), edge.place).expect("a string takes all");
        }
    }

    fn finalization(&mut self, number: u32) -> Result<(), u32> {
        let i = self.live.find(number).ok_or(11u32)?;
        let row = self.live.slots[i].row;
        self.live.remove(i);
        self.close_edges(row);
        self.list_found(row);
        self.free.push(row);
        Ok(())
    }
}

impl Mesh for Border {
    fn judge(&mut self, place: u32, line: Line) -> Result<(), Fault> {
        let fault = |layer| move |cause| Fault { layer, cause, place };
        match line {
            Line::Vertex(_) => self.vertex(place).map_err(fault("check")),
            Line::Triangle(numbers) => {
                let corners = self.corners(numbers).map_err(fault("check"))?;
                self.triangle(place, corners).map_err(fault("border"))
            }
            Line::Finalization(number) => self.finalization(number).map_err(fault("check")),
            Line::Nothing => Ok(()),
        }
    }

    fn lowest_live(&self) -> Option<u32> {
        let live = self.live.slots.iter().filter(|live| live.number != 0);
        live.min_by_key(|live| live.number).map(|live| self.rows[usize::from(live.row)].place)
    }

    fn write_out(&mut self) -> io::Result<()> {
        io::stdout().write_all(self.lines.as_bytes())?;
        self.lines.clear();
        Ok(())
    }
}

fn main() -> io::Result<()> {
    let mut mesh = Border::new();
    let stand = take_all(&mut mesh, &mut io::stdin().lock())?;
    mesh.write_out()?;
    match stand {
        Ok(()) => println!("ended"),
        Err(fault) => println!("{fault}"),
    }
    Ok(())
}
