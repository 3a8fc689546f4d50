//! Sheets to compare on: random ones from a seed, figures that are hard on walks and pieces, and every small sheet.

use crate::naive::Size;

/// Numbers that look random and follow from a seed (the generator splitmix64).
pub struct Random(pub u64);

impl Random {
    pub fn number(&mut self) -> u64 {
        self.0 = self.0.wrapping_add(0x9E37_79B9_7F4A_7C15);
        let mut z = self.0;
        z = (z ^ (z >> 30)).wrapping_mul(0xBF58_476D_1CE4_E5B9);
        z = (z ^ (z >> 27)).wrapping_mul(0x94D0_49BB_1331_11EB);
        z ^ (z >> 31)
    }

    /// A number below a bound.
    pub fn below(&mut self, bound: usize) -> usize {
        (self.number() % bound as u64) as usize
    }

    /// True once in so many times.
    pub fn once_in(&mut self, times: usize) -> bool {
        self.below(times) == 0
    }

    pub fn one_of<T: Copy>(&mut self, of: &[T]) -> T {
        of[self.below(of.len())]
    }

    pub fn word(&mut self) -> u16 {
        self.number() as u16
    }
}

#[derive(Clone, Debug)]
pub struct Sheet {
    pub size: Size,
    pub labels: Vec<u16>,
}

impl Sheet {
    /// The sheet with this label in column x and row y.
    fn from(size: Size, mut label: impl FnMut(usize, usize) -> u16) -> Sheet {
        let labels = (0..size.cells()).map(|cell| label(cell % size.width, cell / size.width)).collect();
        Sheet { size, labels }
    }

    pub fn width(&self) -> u16 {
        self.size.width as u16
    }

    /// The sheet with only these columns and rows.
    pub fn part(&self, columns: &[usize], rows: &[usize]) -> Sheet {
        let size = Size { width: columns.len(), height: rows.len() };
        Sheet::from(size, |x, y| self.labels[rows[y] * self.size.width + columns[x]])
    }

    /// Its different labels.
    pub fn palette(&self) -> Vec<u16> {
        let mut palette = self.labels.clone();
        palette.sort_unstable();
        palette.dedup();
        palette
    }

    /// The sheet with each label replaced.
    pub fn relabelled(&self, label: impl Fn(u16) -> u16) -> Sheet {
        Sheet { size: self.size, labels: self.labels.iter().map(|&old| label(old)).collect() }
    }
}

/// A size up to a greatest width and a greatest height, small and extreme ones often.
pub fn size(random: &mut Random, widest: usize, tallest: usize) -> Size {
    let mut length = |limit: usize| match random.below(8) {
        0 => 1,
        1 => limit,
        2 | 3 => 1 + random.below(limit.min(6)),
        4 => 1 + random.below(limit.min(20)),
        _ => 1 + random.below(limit),
    };
    Size { width: length(widest), height: length(tallest) }
}

/// So many different labels of the whole range; the least, the greatest and the cells of a card are often among them.
fn palette(random: &mut Random, count: usize) -> Vec<u16> {
    let mut palette = Vec::new();
    while palette.len() < count {
        let label = match random.below(6) {
            0 => 65535 - random.below(3) as u16,
            1 => random.below(3) as u16,
            2 => 33 + random.below(94) as u16,
            _ => random.word(),
        };
        if !palette.contains(&label) {
            palette.push(label);
        }
    }
    palette
}

/// The distance of a cell to the nearest rim of its sheet.
fn rim(size: Size, x: usize, y: usize) -> usize {
    x.min(y).min(size.width - 1 - x).min(size.height - 1 - y)
}

/// A path of one label that winds inwards, one cell from its last turn.
fn spiral(size: Size, wall: u16, ground: u16) -> Sheet {
    let mut sheet = Sheet::from(size, |_, _| ground);
    let (mut x, mut y, mut heading) = (0isize, 0isize, 0);
    let steps = [(1, 0), (0, 1), (-1, 0), (0, -1)];
    let at = |x: isize, y: isize| {
        let inside = x >= 0 && y >= 0 && x < size.width as isize && y < size.height as isize;
        inside.then(|| y as usize * size.width + x as usize)
    };
    sheet.labels[0] = wall;
    let mut turned = 0;
    while turned < 2 {
        let (dx, dy) = steps[heading];
        let ahead = at(x + dx, y + dy).map(|cell| sheet.labels[cell]);
        let beyond = at(x + 2 * dx, y + 2 * dy).map(|cell| sheet.labels[cell]);
        if ahead.is_none() || ahead == Some(wall) || beyond == Some(wall) {
            heading = (heading + 1) % 4;
            turned += 1;
            continue;
        }
        turned = 0;
        x += dx;
        y += dy;
        sheet.labels[at(x, y).expect("a cell")] = wall;
    }
    sheet
}

/// Passages one cell wide in a wall, none along the rim, each with one way on to the east or to the south. Their border is one
/// closed curve of very many turns.
fn passages(random: &mut Random, size: Size, wall: u16, ground: u16) -> Sheet {
    let mut sheet = Sheet::from(size, |_, _| wall);
    for y in (1..size.height.saturating_sub(1)).step_by(2) {
        for x in (1..size.width.saturating_sub(1)).step_by(2) {
            let cell = y * size.width + x;
            let mut ways = Vec::new();
            if x + 3 < size.width {
                ways.push(cell + 1);
            }
            if y + 3 < size.height {
                ways.push(cell + size.width);
            }
            sheet.labels[cell] = ground;
            if !ways.is_empty() {
                sheet.labels[random.one_of(&ways)] = ground;
            }
        }
    }
    sheet
}

/// Rectangles painted one over another.
fn painted(random: &mut Random, size: Size, colours: &[u16]) -> Sheet {
    let mut sheet = Sheet::from(size, |_, _| colours[0]);
    for _ in 0..1 + random.below(24) {
        let (left, top) = (random.below(size.width), random.below(size.height));
        let (right, bottom) = (left + random.below(size.width - left), top + random.below(size.height - top));
        let colour = random.one_of(colours);
        for y in top..=bottom {
            for x in left..=right {
                sheet.labels[y * size.width + x] = colour;
            }
        }
    }
    sheet
}

/// A sheet of this size: random labels, few or many, or one of the figures.
pub fn sheet(random: &mut Random, size: Size) -> Sheet {
    let few = 2 + random.below(4);
    let colours = palette(random, few);
    let (a, b) = (colours[0], colours[1]);
    match random.below(17) {
        0 => Sheet::from(size, |_, _| a),
        1 => all_different(random, size),
        2 => spiral(size, a, b),
        3 => Sheet::from(size, |x, y| if y == 0 || x % 2 == 0 { a } else { b }),
        4 => Sheet::from(size, |x, y| if x == 0 || y % 2 == 0 { a } else { b }),
        5 => Sheet::from(size, |x, y| [a, b][rim(size, x, y) % 2]),
        6 => {
            let start = random.word();
            Sheet::from(size, |x, y| start.wrapping_add(rim(size, x, y) as u16))
        }
        7 => Sheet::from(size, |x, y| [a, b][(x + y) % 2]),
        8 => Sheet::from(size, |x, y| if x % 2 == 1 && y % 2 == 1 { b } else { a }),
        9 => {
            let odd = 2 + random.below(12);
            Sheet::from(size, |_, _| if random.once_in(odd) { b } else { a })
        }
        10 | 11 => painted(random, size, &colours),
        12 => {
            let many = palette(random, 40);
            Sheet::from(size, |_, _| random.one_of(&many))
        }
        13 => Sheet::from(size, |_, _| random.word()),
        14 => passages(random, size, a, b),
        _ => speckled(random, size, few),
    }
}

/// A sheet of rectangles and odd cells, so of large regions with small ones in them.
pub fn painted_over(random: &mut Random, size: Size) -> Sheet {
    let colours = palette(random, 6);
    let mut sheet = painted(random, size, &colours);
    for label in sheet.labels.iter_mut() {
        if random.once_in(40) {
            *label = random.one_of(&colours);
        }
    }
    sheet
}

/// A sheet of which no two cells have one label.
pub fn all_different(random: &mut Random, size: Size) -> Sheet {
    let start = random.word();
    Sheet::from(size, |x, y| start.wrapping_add((y * size.width + x) as u16))
}

/// A sheet of random labels, so many different ones.
pub fn speckled(random: &mut Random, size: Size, count: usize) -> Sheet {
    let colours = palette(random, count);
    Sheet::from(size, |_, _| random.one_of(&colours))
}

/// Every sheet up to 3 by 3 with up to three labels, up to the choice of labels.
pub fn all_small() -> Vec<Sheet> {
    let mut sheets = Vec::new();
    for cells in 1..=9 {
        let sizes = [(1, 1), (2, 1), (1, 2), (3, 1), (1, 3), (2, 2), (3, 2), (2, 3), (3, 3)];
        for (width, height) in sizes.into_iter().filter(|(width, height)| width * height == cells) {
            for code in 0..3usize.pow(cells as u32) {
                let labels: Vec<u16> = (0..cells).map(|k| (code / 3usize.pow(k as u32) % 3) as u16).collect();
                let in_order = (0..cells).all(|k| labels[k] <= labels[..k].iter().max().map_or(0, |most| most + 1));
                if in_order {
                    sheets.push(Sheet { size: Size { width, height }, labels });
                }
            }
        }
    }
    sheets
}
