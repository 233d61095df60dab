//! Generated books in the form of their file: picks in a few layouts, packed into a tree by sort-tile-recursive.

use crate::rows::Point;

/// Numbers drawn from a fixed seed.
pub struct Chance(u64);

impl Chance {
    pub fn new(seed: u64) -> Chance {
        Chance(seed)
    }

    fn draw(&mut self) -> u64 {
        self.0 = self.0.wrapping_add(0x9e37_79b9_7f4a_7c15);
        let mut x = self.0;
        x = (x ^ (x >> 30)).wrapping_mul(0xbf58_476d_1ce4_e5b9);
        x = (x ^ (x >> 27)).wrapping_mul(0x94d0_49bb_1331_11eb);
        x ^ (x >> 31)
    }

    pub fn between(&mut self, low: i32, high: i32) -> i32 {
        low + (self.draw() % (high - low + 1) as u64) as i32
    }
}

#[derive(Clone, Copy, PartialEq)]
pub enum Layout {
    /// Columns of collars at wellheads, ten or so in each, with a perforated interval here and there.
    Wells,
    /// Points anywhere in the field.
    Uniform,
    /// Points on whole feet within four feet, so that most distances are shared.
    Close,
}

#[derive(Clone, Copy)]
struct Extent {
    low: [i32; 3],
    high: [i32; 3],
}

impl Extent {
    fn middle(&self, axis: usize) -> i64 {
        self.low[axis] as i64 + self.high[axis] as i64
    }

    fn around(&self, other: &Extent) -> Extent {
        let mut around = *self;
        for axis in 0..3 {
            around.low[axis] = self.low[axis].min(other.low[axis]);
            around.high[axis] = self.high[axis].max(other.high[axis]);
        }
        around
    }
}

const FIELD: i32 = 2_640_000; // five miles

fn well(chance: &mut Chance) -> [i32; 3] {
    [chance.between(0, FIELD), chance.between(0, FIELD), chance.between(-2_000, 2_000)]
}

fn drawn(chance: &mut Chance, layout: Layout, count: usize) -> Vec<Extent> {
    let mut head = well(chance);
    let mut extents = Vec::new();
    for number in 0..count {
        let mut low = match layout {
            Layout::Wells => {
                if number % 10 == 0 {
                    head = well(chance);
                }
                [head[0], head[1], head[2] - 3_000 * (number % 10) as i32 - chance.between(0, 200)]
            }
            Layout::Uniform => {
                [chance.between(0, FIELD), chance.between(0, FIELD), chance.between(-400_000, 2_000)]
            }
            Layout::Close => [0, 1, 2].map(|_| 100 * chance.between(0, 4)),
        };
        let high = low;
        if layout == Layout::Wells && number % 8 == 7 {
            low[2] -= chance.between(100, 2_000);
        }
        extents.push(Extent { low, high });
    }
    extents
}

/// Near a pick, or anywhere in the field.
pub fn queries(chance: &mut Chance, layout: Layout, count: usize) -> Vec<Point> {
    let mut heads = drawn(&mut Chance::new(7), layout, 2_048);
    heads.truncate(60);
    (0..count)
        .map(|number| {
            let at = heads[number % heads.len()].high;
            let spread = if layout == Layout::Close { 300 } else { 20_000 };
            let anywhere = layout != Layout::Close && number % 4 == 0;
            let mut point = [0, 1, 2].map(|axis| at[axis] + chance.between(-spread, spread));
            if anywhere {
                point = [chance.between(0, FIELD), chance.between(0, FIELD), chance.between(-400_000, 2_000)];
            }
            if layout == Layout::Close {
                point = point.map(|x| x / 50 * 50);
            }
            Point { easting: point[0], northing: point[1], level: point[2] }
        })
        .collect()
}

struct Node {
    level: u8,
    places: Vec<(Extent, u16)>,
}

/// Cuts the items into so many groups of even size: sorts them along the longest side of the box around them, cuts
/// them in two, and so on.
fn tiles(mut items: Vec<(Extent, u16)>, groups: usize) -> Vec<Vec<(Extent, u16)>> {
    if groups == 1 {
        return vec![items];
    }
    let around = around_all(&items);
    let axis = (0..3).max_by_key(|axis| around.high[*axis] - around.low[*axis]).unwrap_or(0);
    items.sort_by_key(|item| item.0.middle(axis));
    let later = items.split_off(items.len() * (groups / 2) / groups);
    let mut out = tiles(items, groups / 2);
    out.extend(tiles(later, groups - groups / 2));
    out
}

fn around_all(items: &[(Extent, u16)]) -> Extent {
    items.iter().fold(items[0].0, |around, item| around.around(&item.0))
}

fn packed(extents: &[Extent], levels: &[usize]) -> Vec<Node> {
    let mut items: Vec<(Extent, u16)> = extents.iter().enumerate().map(|(i, e)| (*e, i as u16)).collect();
    let mut nodes: Vec<Node> = Vec::new();
    for (level, &groups) in levels.iter().enumerate() {
        let mut above = Vec::new();
        for places in tiles(items, groups) {
            above.push((around_all(&places), nodes.len() as u16));
            nodes.push(Node { level: level as u8, places });
        }
        items = above;
    }
    nodes
}

/// The file of a book of so many picks, with so many nodes at each level from the leaves up, and so many kinds.
pub fn file(layout: Layout, picks: usize, levels: &[usize], kinds: usize) -> Vec<u8> {
    let nodes = packed(&drawn(&mut Chance::new(7), layout, picks), levels);
    let mut bytes = Vec::new();
    bytes.extend((nodes.len() as u16).to_le_bytes());
    let mut first = 0u16;
    for node in &nodes {
        bytes.extend([node.level, node.places.len() as u8]);
        bytes.extend(first.to_le_bytes());
        first += node.places.len() as u16;
    }
    bytes.extend(first.to_le_bytes());
    for (extent, target) in nodes.iter().flat_map(|node| &node.places) {
        for end in extent.low.iter().chain(&extent.high) {
            bytes.extend(end.to_le_bytes());
        }
        bytes.extend(target.to_le_bytes());
    }
    bytes.extend((kinds as u16).to_le_bytes());
    bytes.extend((0..kinds).map(|kind| 1 + (kind % 5) as u8));
    bytes
}
