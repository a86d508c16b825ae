// The job of the program `report` (read, check, clean, compact and report), written by hand as one loop without layers. It is the bar
// for the library's speed. Nothing is proved of it. Built with `rustc -O --edition 2021`.

include!("mesh_text.rs");
include!("open_table.rs");


const MOST_TRIANGLES: u32 = 100_000_000;
const MOST_LIVE: usize = 1_024;
const SLOTS: usize = 2 * MOST_LIVE;

// A live vertex, numbered from 1; an empty slot has number 0. The new number is 0 until a triangle names the vertex.
#[derive(Clone, Copy, Default)]
struct Vertex {
    number: u32,
    new_number: u32,
    place: u32,
    at: [i32; 3],
}

impl Record for Vertex {
    fn key(&self) -> u32 {
        self.number
    }
}

// The live vertices, what was read, and what is handed over: vertices that are named and triangles that are not degenerate.
struct Cleaned {
    live: Table<Vertex, SLOTS>,
    vertices_read: u32,
    triangles_read: u32,
    vertices: u32,
    triangles: u32,
    finalized: u32,
    width: u32,
    area: i64,
}

// The cross product of b - a and c - a.
fn cross(a: [i32; 3], b: [i32; 3], c: [i32; 3]) -> [i64; 3] {
    let [ux, uy, uz] = difference(a, b);
    let [vx, vy, vz] = difference(a, c);
    [uy * vz - uz * vy, uz * vx - ux * vz, ux * vy - uy * vx]
}

fn difference(a: [i32; 3], b: [i32; 3]) -> [i64; 3] {
    [i64::from(b[0] - a[0]), i64::from(b[1] - a[1]), i64::from(b[2] - a[2])]
}

impl Cleaned {
    fn vertex(&mut self, place: u32, at: [i32; 3]) -> Result<(), u32> {
        if self.vertices_read >= HIGHEST_VERTEX {
            return Err(6);
        }
        if self.live.count >= MOST_LIVE {
            return Err(9);
        }
        self.vertices_read += 1;
        self.live.insert(Vertex { number: self.vertices_read, new_number: 0, place, at });
        Ok(())
    }

    fn triangle(&mut self, [a, b, c]: [u32; 3]) -> Result<(), u32> {
        let a = self.live.find(a).ok_or(10u32)?;
        let b = self.live.find(b).ok_or(10u32)?;
        let c = self.live.find(c).ok_or(10u32)?;
        if self.triangles_read >= MOST_TRIANGLES {
            return Err(13);
        }
        self.triangles_read += 1;
        let slots = &mut self.live.slots;
        let product = cross(slots[a].at, slots[b].at, slots[c].at);
        if product == [0, 0, 0] {
            return Ok(());
        }
        for corner in [a, b, c] {
            if slots[corner].new_number == 0 {
                self.vertices += 1;
                slots[corner].new_number = self.vertices;
            }
        }
        self.width = self.width.max(self.vertices - self.finalized);
        self.triangles += 1;
        self.area += product[2];
        Ok(())
    }

    fn finalization(&mut self, number: u32) -> Result<(), u32> {
        let vertex = self.live.find(number).ok_or(11u32)?;
        self.finalized += u32::from(self.live.slots[vertex].new_number != 0);
        self.live.remove(vertex);
        Ok(())
    }
}

impl Mesh for Cleaned {
    fn judge(&mut self, place: u32, line: Line) -> Result<(), Fault> {
        match line {
            Line::Vertex(at) => self.vertex(place, at),
            Line::Triangle(corners) => self.triangle(corners),
            Line::Finalization(number) => self.finalization(number),
            Line::Nothing => Ok(()),
        }
        .map_err(|cause| Fault { layer: "check", cause, place })
    }

    fn lowest_live(&self) -> Option<u32> {
        let live = self.live.slots.iter().filter(|vertex| vertex.number != 0);
        live.min_by_key(|vertex| vertex.number).map(|vertex| vertex.place)
    }
}

fn main() -> io::Result<()> {
    let mut mesh = Cleaned {
        live: Table::new(),
        vertices_read: 0,
        triangles_read: 0,
        vertices: 0,
        triangles: 0,
        finalized: 0,
        width: 0,
        area: 0,
    };
    let stand = take_all(&mut mesh, &mut io::stdin().lock())?;
    println!("vertices {}", mesh.vertices);
    println!("triangles {}", mesh.triangles);
    println!("finalized {}", mesh.finalized);
    println!("width {}", mesh.width);
    println!("area {}", mesh.area);
    match stand {
        Ok(()) => println!("end ok"),
        Err(fault) => println!("{fault}"),
    }
    Ok(())
}
