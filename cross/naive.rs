//! The paper's rules, done naively: an independent implementation to compare the library with.
//!
//! Written from the paper alone, by the most direct reading of each sentence: regions by flood fill, curves by walking
//! them, pieces by searching them, refusals in the order of the paper's table. Nothing here is meant to be fast, and
//! nothing is shared with the library.
//!
//!   Size      width and height of a sheet, with its points and darts
//!   Level     the three tables of one level: next, other, side
//!   Seven     the seven tables of a drawing
//!   .._call   what a public call answers, and what it leaves in each lent table

use std::collections::HashSet;

/// "None" in every table of links, sides, parents or totals.
pub const MARK: u16 = 65535;
/// The greatest width.
pub const WIDEST: u16 = 110;
/// The greatest height.
pub const TALLEST: u16 = 72;
/// The length of the reader's cell table.
pub const CELLS: usize = 7920;
/// The columns of a card that hold its content, and so the most cells of a row that takes one card.
pub const COLUMNS: usize = 72;
/// The length of a card: 80 columns and a line feed.
pub const CARD: usize = 81;

const EAST: usize = 0;
const SOUTH: usize = 1;
const WEST: usize = 2;
const NORTH: usize = 3;

/// Four lent work tables.
pub type Works = [Vec<u16>; 4];

// ---------------------------------------------------------------------------------------------------------------------
// Sheet, names, points and darts

#[derive(Clone, Copy, PartialEq, Eq, Debug)]
pub struct Size {
    pub width: usize,
    pub height: usize,
}

impl Size {
    /// The size, unless the width is not 1 to 110 or the height not 1 to 72.
    pub fn new(width: u16, height: u16) -> Option<Size> {
        if (1..=WIDEST).contains(&width) && (1..=TALLEST).contains(&height) {
            Some(Size { width: width as usize, height: height as usize })
        } else {
            None
        }
    }

    pub fn cells(self) -> usize {
        self.width * self.height
    }

    pub fn points(self) -> usize {
        (self.width + 1) * (self.height + 1)
    }

    pub fn slots(self) -> usize {
        4 * self.points()
    }

    /// The length of a table by name: the outside and a name for each cell.
    pub fn names(self) -> usize {
        self.cells() + 1
    }

    /// The most pairs that a list of joins may have; a sheet wider than a card has another limit.
    pub fn most_pairs(self) -> usize {
        if self.width <= COLUMNS {
            5183
        } else {
            7919
        }
    }

    /// The length of the deck: a header, and for each row a card, or two where it is wider than a card.
    pub fn deck(self) -> usize {
        CARD * (1 + self.height * if self.width <= COLUMNS { 1 } else { 2 })
    }

    fn point(self, x: usize, y: usize) -> usize {
        y * (self.width + 1) + x
    }

    fn place(self, point: usize) -> (usize, usize) {
        (point % (self.width + 1), point / (self.width + 1))
    }

    /// The point at the far end of a dart's line, or none where the line leaves the sheet.
    fn far(self, dart: usize) -> Option<usize> {
        let (x, y) = self.place(dart / 4);
        match dart % 4 {
            EAST if x < self.width => Some(self.point(x + 1, y)),
            SOUTH if y < self.height => Some(self.point(x, y + 1)),
            WEST if x > 0 => Some(self.point(x - 1, y)),
            NORTH if y > 0 => Some(self.point(x, y - 1)),
            _ => None,
        }
    }

    /// The dart of the same line that leaves the far point. Asked only of a line on the sheet.
    pub fn reversal(self, dart: usize) -> usize {
        4 * self.far(dart).expect("a line on the sheet") + (dart % 4 + 2) % 4
    }

    /// The cell whose top left corner lies `right` and `down` of a point, or none outside the sheet.
    fn cell(self, point: usize, right: isize, down: isize) -> Option<usize> {
        let (x, y) = self.place(point);
        let (x, y) = (x as isize + right, y as isize + down);
        let inside = x >= 0 && y >= 0 && x < self.width as isize && y < self.height as isize;
        inside.then(|| y as usize * self.width + x as usize)
    }

    /// The cell on the right hand of a dart as it travels.
    fn right_hand(self, dart: usize) -> Option<usize> {
        let point = dart / 4;
        match dart % 4 {
            EAST => self.cell(point, 0, 0),
            SOUTH => self.cell(point, -1, 0),
            WEST => self.cell(point, -1, -1),
            _ => self.cell(point, 0, -1),
        }
    }
}

/// Gives every cell the number of its part: cells are joined through the sides that `open` says are open, a part is
/// numbered 1 plus the index of its first cell.
fn flood(size: Size, open: impl Fn(usize, usize) -> bool) -> Vec<u16> {
    let mut name = vec![0; size.cells()];
    for first in 0..size.cells() {
        if name[first] != 0 {
            continue;
        }
        name[first] = first as u16 + 1;
        let mut reached = vec![first];
        while let Some(cell) = reached.pop() {
            let (x, y) = (cell % size.width, cell / size.width);
            let mut beside = Vec::new();
            if x > 0 {
                beside.push(cell - 1);
            }
            if x + 1 < size.width {
                beside.push(cell + 1);
            }
            if y > 0 {
                beside.push(cell - size.width);
            }
            if y + 1 < size.height {
                beside.push(cell + size.width);
            }
            for other in beside {
                if name[other] == 0 && open(cell, other) {
                    name[other] = name[first];
                    reached.push(other);
                }
            }
        }
    }
    name
}

/// The name of each cell's region.
pub fn names(size: Size, labels: &[u16]) -> Vec<u16> {
    flood(size, |cell, other| labels[cell] == labels[other])
}

/// The region on the right hand of a dart; the outside is 0.
fn side(size: Size, names: &[u16], dart: usize) -> u16 {
    size.right_hand(dart).map_or(0, |cell| names[cell])
}

// ---------------------------------------------------------------------------------------------------------------------
// The four levels

#[derive(Clone, PartialEq, Eq, Debug)]
pub struct Level {
    pub next: Vec<u16>,
    pub other: Vec<u16>,
    pub side: Vec<u16>,
}

impl Level {
    fn empty(size: Size) -> Level {
        let none = vec![MARK; size.slots()];
        Level { next: none.clone(), other: none.clone(), side: none }
    }
}

/// How a line is followed by the next one at a point; none where no line is present there.
#[derive(Clone, Copy, PartialEq, Eq, Debug)]
pub enum Turn {
    Right,
    Straight,
    Left,
    Back,
    None,
}

/// The direction of the line that follows at a point where these lines are present, and the turn into it: the first of
/// right turn, straight on, left turn and back. Direction 4 and no turn where no line is present.
pub fn next_line(present: u16, heading: u16) -> (u16, Turn) {
    let turns = [(1, Turn::Right), (0, Turn::Straight), (3, Turn::Left), (2, Turn::Back)];
    turns
        .into_iter()
        .map(|(quarters, turn)| ((heading + quarters) % 4, turn))
        .find(|(direction, _)| present >> direction & 1 == 1)
        .unwrap_or((4, Turn::None))
}

/// The level whose darts are those that `present` says: next is the line that follows at the far point, other is the
/// reversal.
fn lines(size: Size, names: &[u16], present: impl Fn(usize) -> bool) -> Level {
    let mut level = Level::empty(size);
    for dart in (0..size.slots()).filter(|&d| present(d)) {
        let far = size.far(dart).expect("a line on the sheet");
        let there = (0..4).filter(|k| present(4 * far + k)).map(|k| 1 << k).sum();
        let (direction, _) = next_line(there, dart as u16 % 4);
        level.next[dart] = 4 * far as u16 + direction;
        level.other[dart] = size.reversal(dart) as u16;
        level.side[dart] = side(size, names, dart);
    }
    level
}

fn level_0(size: Size, names: &[u16]) -> Level {
    lines(size, names, |dart| size.far(dart).is_some())
}

fn level_1(size: Size, names: &[u16]) -> Level {
    lines(size, names, |dart| {
        size.far(dart).is_some() && side(size, names, dart) != side(size, names, size.reversal(dart))
    })
}

/// The darts of a table that leave a point.
fn leaving(table: &[u16], point: usize) -> Vec<usize> {
    (4 * point..4 * point + 4).filter(|&dart| table[dart] != MARK).collect()
}

/// The lines of a table present at a point: east 1, south 2, west 4, north 8.
fn lines_at(table: &[u16], point: usize) -> u16 {
    leaving(table, point).iter().map(|dart| 1 << (dart % 4)).sum()
}

/// Points of degree 3 or 4.
fn junctions(size: Size, level_1: &Level) -> Vec<bool> {
    (0..size.points()).map(|point| leaving(&level_1.next, point).len() >= 3).collect()
}

/// Junctions, and points of degree 2 whose lines are not in line with each other.
fn kept_2(size: Size, level_1: &Level) -> Vec<bool> {
    let bends = |point: usize| {
        let darts = leaving(&level_1.next, point);
        darts.len() == 2 && darts[1] - darts[0] != 2
    };
    let junctions = junctions(size, level_1);
    (0..size.points()).map(|point| junctions[point] || bends(point)).collect()
}

/// The darts met from a dart by following next until it is met again.
fn round(next: &[u16], start: usize) -> Vec<usize> {
    let mut met = vec![start];
    let mut dart = next[start] as usize;
    while dart != start {
        met.push(dart);
        dart = next[dart] as usize;
    }
    met
}

/// The topmost, then leftmost, of the points that some darts leave.
fn top(darts: &[usize]) -> usize {
    darts.iter().map(|dart| dart / 4).min().expect("a dart")
}

/// Junctions, and of each closed curve without one its anchor.
fn kept_3(size: Size, level_1: &Level) -> Vec<bool> {
    let junctions = junctions(size, level_1);
    let mut kept = junctions.clone();
    let mut walked = vec![false; size.slots()];
    for start in 0..size.slots() {
        if level_1.next[start] == MARK || walked[start] {
            continue;
        }
        let curve = round(&level_1.next, start);
        for &dart in &curve {
            walked[dart] = true;
        }
        if curve.iter().all(|dart| !junctions[dart / 4]) {
            kept[top(&curve)] = true;
        }
    }
    kept
}

/// The level 1 darts met by following next from a dart to the next kept point, the first of them the dart itself.
fn run(size: Size, next: &[u16], kept: &[bool], dart: usize) -> Vec<usize> {
    let mut met = vec![dart];
    let mut last = dart;
    while !kept[size.far(last).expect("a line on the sheet")] {
        last = next[last] as usize;
        met.push(last);
    }
    met
}

/// The level whose points are the kept ones: run from each dart that leaves one along level 1 to the next.
fn runs(size: Size, level_1: &Level, kept: &[bool]) -> Level {
    let mut level = Level::empty(size);
    for dart in (0..size.slots()).filter(|&d| level_1.next[d] != MARK && kept[d / 4]) {
        let last = *run(size, &level_1.next, kept, dart).last().expect("a dart");
        level.other[dart] = size.reversal(last) as u16;
        level.next[dart] = level_1.next[last];
        level.side[dart] = level_1.side[dart];
    }
    level
}

/// The tables of a level, 0 to 3.
pub fn level(size: Size, labels: &[u16], number: u16) -> Level {
    let names = names(size, labels);
    if number == 0 {
        return level_0(size, &names);
    }
    let level_1 = level_1(size, &names);
    match number {
        1 => level_1,
        2 => runs(size, &level_1, &kept_2(size, &level_1)),
        _ => runs(size, &level_1, &kept_3(size, &level_1)),
    }
}

// ---------------------------------------------------------------------------------------------------------------------
// Enclosure and the two counts

/// The topmost, then leftmost, point of the piece that each point lies on, for points that have a line.
fn tops(size: Size, side: &[u16]) -> Vec<Option<usize>> {
    let mut tops = vec![None; size.points()];
    for top in 0..size.points() {
        if tops[top].is_some() || leaving(side, top).is_empty() {
            continue;
        }
        tops[top] = Some(top);
        let mut reached = vec![top];
        while let Some(point) = reached.pop() {
            for dart in leaving(side, point) {
                let far = size.far(dart).expect("a line on the sheet");
                if tops[far].is_none() {
                    tops[far] = Some(top);
                    reached.push(far);
                }
            }
        }
    }
    tops
}

/// The outer piece of a region, by its top: the piece that holds the top side of its first cell.
fn outer_piece(size: Size, tops: &[Option<usize>], name: usize) -> usize {
    let first = name - 1;
    let corner = size.point(first % size.width, first / size.width);
    tops[corner].expect("the top side of a first cell is a line")
}

/// The parents of the regions in use, from the level 1 lines and their sides. The region north-west of the top of the
/// outer piece is also the one north-east of it, which is on the left hand of the line that leaves the top eastwards.
fn parents(size: Size, side: &[u16], in_use: impl Fn(usize) -> bool) -> Vec<u16> {
    let tops = tops(size, side);
    let mut parents = vec![MARK; size.names()];
    for name in (1..size.names()).filter(|&n| in_use(n)) {
        parents[name] = side[size.reversal(4 * outer_piece(size, &tops, name) + EAST)];
    }
    parents
}

/// A region's depth: the number of steps up the parents to the outside.
pub fn depth(parents: &[u16], name: u16) -> u16 {
    let mut depth = 0;
    let mut region = name;
    while region != 0 {
        region = parents[region as usize];
        depth += 1;
    }
    depth
}

/// The number of different pieces among the outer pieces of the regions whose parent it is.
fn holes(size: Size, tops: &[Option<usize>], parents: &[u16], name: u16) -> u16 {
    let inside = (1..size.names()).filter(|&region| parents[region] == name);
    inside.map(|region| outer_piece(size, tops, region)).collect::<HashSet<_>>().len() as u16
}

// ---------------------------------------------------------------------------------------------------------------------
// The totals of the regions

/// The number of cells of each region and the number of its border lines, by full count; the mark for a name not in use. A
/// border line of a region is a dart with this side. What the request says of all sheets is looked at here: the cells are
/// W*H together, and the outside has none of them and 2(W+H) border lines.
fn totals(size: Size, names: &[u16], side: &[u16]) -> (Vec<u16>, Vec<u16>) {
    let mut cells = vec![MARK; size.names()];
    cells[0] = 0;
    for &name in names {
        cells[name as usize] = 0;
    }
    let mut borders = cells.clone();
    for &name in names {
        cells[name as usize] += 1;
    }
    for &name in side.iter().filter(|&&side| side != MARK) {
        borders[name as usize] += 1;
    }
    let rim = 2 * (size.width + size.height);
    assert!((cells[0], borders[0] as usize) == (0, rim), "the outside has {} cells, {} lines", cells[0], borders[0]);
    let together: usize = cells.iter().filter(|&&count| count != MARK).map(|&count| count as usize).sum();
    assert!(together == size.cells(), "the regions have {together} cells together");
    (cells, borders)
}

// ---------------------------------------------------------------------------------------------------------------------
// A drawing, and joining in it

/// Seven tables of a drawing's kind. They are a drawing if they are the drawing of some sheet.
#[derive(Clone, PartialEq, Eq, Debug)]
pub struct Seven {
    pub next1: Vec<u16>,
    pub side1: Vec<u16>,
    pub next3: Vec<u16>,
    pub other3: Vec<u16>,
    pub parent: Vec<u16>,
    pub cells: Vec<u16>,
    pub borders: Vec<u16>,
}

impl Seven {
    pub fn fits(&self, size: Size) -> bool {
        [&self.next1, &self.side1, &self.next3, &self.other3].iter().all(|t| t.len() == size.slots())
            && [&self.parent, &self.cells, &self.borders].iter().all(|t| t.len() == size.names())
    }
}

pub fn draw(size: Size, labels: &[u16]) -> Seven {
    let names = names(size, labels);
    let level_1 = level_1(size, &names);
    let level_3 = runs(size, &level_1, &kept_3(size, &level_1));
    let parent = parents(size, &level_1.side, |name| names[name - 1] as usize == name);
    let (cells, borders) = totals(size, &names, &level_1.side);
    let Level { next: next1, side: side1, .. } = level_1;
    Seven { next1, side1, next3: level_3.next, other3: level_3.other, parent, cells, borders }
}

/// The name of each cell's region by the level 1 lines: two cells with no line between them bear one name.
pub fn names_by_lines(size: Size, side: &[u16]) -> Vec<u16> {
    flood(size, |cell, other| {
        let last = cell.max(other);
        let corner = size.point(last % size.width, last / size.width);
        let along = if cell.abs_diff(other) == 1 && cell / size.width == other / size.width { SOUTH } else { EAST };
        side[4 * corner + along] == MARK
    })
}

/// The name of each cell's region in a drawing, or none where the seven tables are the drawing of no sheet. Whatever sheet
/// the tables may be the drawing of, it has the names that the lines give.
pub fn recovered(size: Size, seven: &Seven) -> Option<Vec<u16>> {
    let names = names_by_lines(size, &seven.side1);
    (draw(size, &names) == *seven).then_some(names)
}

/// Whether a dart of level 1 with these sides lies between two regions.
fn between(sides: (u16, u16), a: u16, b: u16) -> bool {
    sides == (a, b) || sides == (b, a)
}

/// Whether a cell of one region lies beside a cell of the other.
fn share_a_line(size: Size, names: &[u16], a: u16, b: u16) -> bool {
    let sides = |cell: usize, beside: usize| between((names[cell], names[beside]), a, b);
    (0..size.cells()).any(|cell| {
        (cell % size.width != 0 && sides(cell, cell - 1)) || (cell >= size.width && sides(cell, cell - size.width))
    })
}

/// Two regions become one: the cells of both bear the smaller name.
pub fn regroup(names: &mut [u16], a: u16, b: u16) {
    let (smaller, larger) = (a.min(b), a.max(b));
    for name in names {
        *name = if *name == larger { smaller } else { *name };
    }
}

/// Takes darts away. A remaining dart's next is the first remaining among its old next, then the old next of the
/// reversal of each taken dart met.
fn take(next: &mut [u16], reversal: impl Fn(usize) -> usize, taken: &[bool]) {
    let old = next.to_vec();
    for dart in (0..old.len()).filter(|&d| old[d] != MARK) {
        let mut met = old[dart] as usize;
        while !taken[dart] && taken[met] {
            met = old[reversal(met)] as usize;
        }
        next[dart] = if taken[dart] { MARK } else { met as u16 };
    }
}

/// Takes darts of level 1 and of level 3 away, the darts of an edge together.
fn take_from_both(size: Size, seven: &mut Seven, taken_1: &[bool], taken_3: &[bool]) {
    take(&mut seven.next1, |dart| size.reversal(dart), taken_1);
    let other = seven.other3.clone();
    take(&mut seven.next3, |dart| other[dart] as usize, taken_3);
    for dart in 0..size.slots() {
        if taken_1[dart] {
            seven.side1[dart] = MARK;
        }
        if taken_3[dart] {
            seven.other3[dart] = MARK;
        }
    }
}

/// Joined by the removal rule, step by step. There is no step 2: step 1 leaves no hanging end, which is looked for here.
pub fn joined_by_removal(size: Size, seven: &Seven, a: u16, b: u16) -> Seven {
    let before = seven;
    let mut seven = seven.clone();
    add_totals(size, &mut seven, a, b);
    remove_shared_lines(size, &mut seven, a, b);
    for point in 0..size.points() {
        let [_, _, entry] = becoming(before, &seven, point);
        assert!(entry != 4, "joining {a} and {b} reads entry 4 at point {point}");
        for next in [&seven.next1, &seven.next3] {
            assert!(leaving(next, point).len() != 1, "joining {a} and {b} leaves a hanging end at point {point}");
        }
    }
    remove_points_of_two_edges(size, &mut seven);
    move_loops_to_anchors(size, &mut seven);
    rename(size, &mut seven, a, b);
    seven
}

/// The cells of the two regions are added, and their border lines less twice the lines that they share. The larger name is
/// not in use any more. Each other region keeps its totals. A shared line has one dart with side a.
fn add_totals(size: Size, seven: &mut Seven, a: u16, b: u16) {
    let side = &seven.side1;
    let shared = (0..size.slots()).filter(|&d| side[d] == a && side[size.reversal(d)] == b).count() as u16;
    let (smaller, larger) = (a.min(b) as usize, a.max(b) as usize);
    seven.cells[smaller] += seven.cells[larger];
    seven.borders[smaller] = seven.borders[smaller] + seven.borders[larger] - 2 * shared;
    seven.cells[larger] = MARK;
    seven.borders[larger] = MARK;
}

/// The totals of a drawing by full count of its lines and of the cells between them.
pub fn recounted(size: Size, seven: &Seven) -> (Vec<u16>, Vec<u16>) {
    totals(size, &names_by_lines(size, &seven.side1), &seven.side1)
}

/// What a point becomes: the lines present, those of them taken, and the entry of the point table.
pub fn what_becomes(size: Size, seven: &Seven, a: u16, b: u16, point: usize) -> [u16; 3] {
    let mut after = seven.clone();
    remove_shared_lines(size, &mut after, a, b);
    becoming(seven, &after, point)
}

fn becoming(before: &Seven, after: &Seven, point: usize) -> [u16; 3] {
    let present = lines_at(&before.next1, point);
    let taken = present & !lines_at(&after.next1, point);
    [present, taken, point_table(present, taken)]
}

/// An entry of the point table: 0 gone, 1 two lines in line, 2 a corner, 3 three or four lines, 4 cannot be.
pub fn point_table(present: u16, taken: u16) -> u16 {
    let remain = present & !taken;
    if taken & !present != 0 || present.count_ones() == 1 {
        return 4;
    }
    match remain.count_ones() {
        0 => 0,
        1 => 4,
        2 if remain == 5 || remain == 10 => 1,
        2 => 2,
        _ => 3,
    }
}

/// Step 1. The sides of a level 3 dart are its side and the side of its other.
fn remove_shared_lines(size: Size, seven: &mut Seven, a: u16, b: u16) {
    let side = &seven.side1;
    let slots = 0..size.slots();
    let taken_1: Vec<bool> =
        slots.clone().map(|d| seven.next1[d] != MARK && between((side[d], side[size.reversal(d)]), a, b)).collect();
    let taken_3: Vec<bool> =
        slots.map(|d| seven.next3[d] != MARK && between((side[d], side[seven.other3[d] as usize]), a, b)).collect();
    take_from_both(size, seven, &taken_1, &taken_3);
}

/// Step 3.
fn remove_points_of_two_edges(size: Size, seven: &mut Seven) {
    for point in 0..size.points() {
        let [u, v] = leaving(&seven.next3, point)[..] else { continue };
        let (x, y) = (seven.other3[u] as usize, seven.other3[v] as usize);
        if x == v {
            continue;
        }
        let (after_u, after_v) = (seven.next3[u], seven.next3[v]);
        for gone in [u, v] {
            seven.next3[gone] = MARK;
            seven.other3[gone] = MARK;
        }
        seven.other3[x] = y as u16;
        seven.other3[y] = x as u16;
        seven.next3[x] = after_v;
        seven.next3[y] = after_u;
    }
}

/// Step 4.
fn move_loops_to_anchors(size: Size, seven: &mut Seven) {
    for point in 0..size.points() {
        let [u, v] = leaving(&seven.next3, point)[..] else { continue };
        if seven.other3[u] as usize != v || leaving(&seven.next1, point).len() != 2 {
            continue;
        }
        for gone in [u, v] {
            seven.next3[gone] = MARK;
            seven.other3[gone] = MARK;
        }
        let anchor = top(&round(&seven.next1, u));
        let [e, f] = leaving(&seven.next1, anchor)[..] else { panic!("an anchor has two lines") };
        for (dart, other) in [(e, f), (f, e)] {
            seven.next3[dart] = dart as u16;
            seven.other3[dart] = other as u16;
        }
    }
}

/// Step 5.
fn rename(size: Size, seven: &mut Seven, a: u16, b: u16) {
    let (smaller, larger) = (a.min(b), a.max(b));
    for side in seven.side1.iter_mut().filter(|side| **side == larger) {
        *side = smaller;
    }
    let old = seven.parent.clone();
    seven.parent = parents(size, &seven.side1, |name| name != larger as usize && old[name] != MARK);
}

// ---------------------------------------------------------------------------------------------------------------------
// The turns of the curves

/// The right turns and the left turns strictly inside the run of a level 3 dart: those taken at the points that the run
/// passes and level 3 does not keep.
fn turns(size: Size, seven: &Seven, kept: &[bool], dart: usize) -> (u16, u16) {
    let run = run(size, &seven.next1, kept, dart);
    let passes = &run[..run.len() - 1];
    let turn = |&line: &usize| {
        let point = size.far(line).expect("a line on the sheet");
        let (direction, turn) = next_line(lines_at(&seven.next1, point), line as u16 % 4);
        assert!(seven.next1[line] == 4 * point as u16 + direction, "next of dart {line} is not the next line");
        turn
    };
    let taken = |which: Turn| passes.iter().map(turn).filter(|&turn| turn == which).count() as u16;
    (taken(Turn::Right), taken(Turn::Left))
}

// ---------------------------------------------------------------------------------------------------------------------
// The calls: the refusal number, 0 for done, and what is left in each lent table

fn works_fit(size: Size, works: &Works) -> bool {
    works.iter().all(|work| work.len() == size.slots())
}

fn clear(works: &mut Works) {
    for work in works {
        work.fill(0);
    }
}

pub fn level_call(width: u16, height: u16, number: u16, sheet: &[u16], tables: &mut Level, works: &mut Works) -> u16 {
    let Some(size) = Size::new(width, height) else { return 1 };
    if number > 3 {
        return 2;
    }
    if sheet.len() != size.cells() {
        return 3;
    }
    let fit = [&tables.next, &tables.other, &tables.side].iter().all(|t| t.len() == size.slots());
    if !fit || !works_fit(size, works) {
        return 4;
    }
    clear(works);
    *tables = level(size, sheet, number);
    0
}

pub fn draw_call(width: u16, height: u16, sheet: &[u16], seven: &mut Seven, works: &mut Works) -> u16 {
    let Some(size) = Size::new(width, height) else { return 1 };
    if sheet.len() != size.cells() {
        return 3;
    }
    if !seven.fits(size) || !works_fit(size, works) {
        return 4;
    }
    clear(works);
    *seven = draw(size, sheet);
    0
}

/// Refusals 1, 4 and 5, for the calls that are given a drawing; the size and the names otherwise.
fn checked(
    width: u16,
    height: u16,
    seven: &Seven,
    slots_fit: impl Fn(Size) -> bool,
    works: &mut Works,
) -> Result<(Size, Vec<u16>), u16> {
    let size = Size::new(width, height).ok_or(1u16)?;
    if !seven.fits(size) || !works_fit(size, works) || !slots_fit(size) {
        return Err(4);
    }
    clear(works);
    let names = recovered(size, seven).ok_or(5u16)?;
    Ok((size, names))
}

fn is_named(names: &[u16], name: u16) -> bool {
    names.contains(&name)
}

pub fn check_call(width: u16, height: u16, seven: &Seven, works: &mut Works) -> u16 {
    checked(width, height, seven, |_| true, works).err().unwrap_or(0)
}

/// What joining refuses of two names where the cells bear these names, 0 for nothing.
fn join_refusal(size: Size, names: &[u16], a: u16, b: u16) -> u16 {
    if a == 0 || b == 0 {
        return 6;
    }
    if a == b {
        return 7;
    }
    if !is_named(names, a) || !is_named(names, b) {
        return 8;
    }
    if !share_a_line(size, names, a, b) {
        return 9;
    }
    0
}

/// Joined by drawing afresh: from the sheet whose cells bear their region names, both bearing the smaller.
pub fn join_call(width: u16, height: u16, seven: &mut Seven, a: u16, b: u16, works: &mut Works) -> u16 {
    let (size, mut names) = match checked(width, height, seven, |_| true, works) {
        Ok(checked) => checked,
        Err(number) => return number,
    };
    let number = join_refusal(size, &names, a, b);
    if number == 0 {
        regroup(&mut names, a, b);
        *seven = draw(size, &names);
    }
    number
}

/// Joins names two by two, pair after pair, up to the first that is refused; the joins before it stay. What they leave is the
/// fresh drawing of the names that the cells have then. A refusal writes its place, from 0: that of the pair, or 0 where the list
/// as a whole is refused.
pub fn join_list_call(
    width: u16,
    height: u16,
    seven: &mut Seven,
    list: &[u16],
    place: &mut u16,
    works: &mut Works,
) -> u16 {
    let (number, at) = join_list(width, height, seven, list, works);
    if number != 0 {
        *place = at as u16;
    }
    number
}

fn join_list(width: u16, height: u16, seven: &mut Seven, list: &[u16], works: &mut Works) -> (u16, usize) {
    let Some(size) = Size::new(width, height) else { return (1, 0) };
    if !seven.fits(size) || !works_fit(size, works) {
        return (4, 0);
    }
    clear(works);
    if list.len() % 2 != 0 || list.len() / 2 > size.most_pairs() {
        return (12, 0);
    }
    let Some(mut names) = recovered(size, seven) else { return (5, 0) };
    let mut refusal = (0, 0);
    for (place, pair) in list.chunks(2).enumerate() {
        let number = join_refusal(size, &names, pair[0], pair[1]);
        if number != 0 {
            refusal = (number, place);
            break;
        }
        regroup(&mut names, pair[0], pair[1]);
    }
    *seven = draw(size, &names);
    refusal
}

/// Whether a number is that of one of the two editors.
fn is_editor(number: u16) -> bool {
    number == 1 || number == 2
}

/// Whether an editor owns each name from 1 on, used or not. Entry 0 is not read.
fn all_owned(owners: &[u16]) -> bool {
    owners[1..].iter().all(|&owner| is_editor(owner))
}

/// Drawn, once every name is known to have an owner.
pub fn start_call(width: u16, height: u16, sheet: &[u16], owners: &[u16], seven: &mut Seven, works: &mut Works) -> u16 {
    let Some(size) = Size::new(width, height) else { return 1 };
    if sheet.len() != size.cells() {
        return 3;
    }
    if owners.len() != size.names() || !seven.fits(size) || !works_fit(size, works) {
        return 4;
    }
    clear(works);
    if !all_owned(owners) {
        return 11;
    }
    *seven = draw(size, sheet);
    0
}

/// Joined as by a caller without owners, but only where both regions are the editor's own.
pub fn join_as_call(
    (width, height): (u16, u16),
    seven: &mut Seven,
    owners: &[u16],
    editor: u16,
    (a, b): (u16, u16),
    works: &mut Works,
) -> u16 {
    let Some(size) = Size::new(width, height) else { return 1 };
    if owners.len() != size.names() || !seven.fits(size) || !works_fit(size, works) {
        return 4;
    }
    clear(works);
    if !is_editor(editor) || !all_owned(owners) {
        return 11;
    }
    let Some(mut names) = recovered(size, seven) else { return 5 };
    let own = |name: u16| is_named(&names, name) && owners[name as usize] == editor;
    let number = match join_refusal(size, &names, a, b) {
        number @ (6 | 7) => number,
        _ if !own(a) || !own(b) => 10,
        number => number,
    };
    if number == 0 {
        regroup(&mut names, a, b);
        *seven = draw(size, &names);
    }
    number
}

/// One of the two counts of a region or of the outside, into a slot.
fn count_call(
    (width, height): (u16, u16),
    seven: &Seven,
    name: u16,
    slot: &mut u16,
    works: &mut Works,
    count: impl Fn(Size) -> u16,
) -> u16 {
    let (size, names) = match checked(width, height, seven, |_| true, works) {
        Ok(checked) => checked,
        Err(number) => return number,
    };
    if name != 0 && !is_named(&names, name) {
        return 8;
    }
    *slot = count(size);
    0
}

pub fn depth_call(width: u16, height: u16, seven: &Seven, name: u16, slot: &mut u16, works: &mut Works) -> u16 {
    count_call((width, height), seven, name, slot, works, |_| depth(&seven.parent, name))
}

pub fn holes_call(width: u16, height: u16, seven: &Seven, name: u16, slot: &mut u16, works: &mut Works) -> u16 {
    let count = |size| holes(size, &tops(size, &seven.side1), &seven.parent, name);
    count_call((width, height), seven, name, slot, works, count)
}

/// Both counts of every name, the mark for names not in use.
pub fn counts_call(
    width: u16,
    height: u16,
    seven: &Seven,
    depths: &mut [u16],
    all_holes: &mut [u16],
    works: &mut Works,
) -> u16 {
    let fit = |size: Size| depths.len() == size.names() && all_holes.len() == size.names();
    let (size, names) = match checked(width, height, seven, fit, works) {
        Ok(checked) => checked,
        Err(number) => return number,
    };
    let tops = tops(size, &seven.side1);
    for name in 0..depths.len() {
        let used = name == 0 || is_named(&names, name as u16);
        depths[name] = if used { depth(&seven.parent, name as u16) } else { MARK };
        all_holes[name] = if used { holes(size, &tops, &seven.parent, name as u16) } else { MARK };
    }
    0
}

/// The turns of every level 3 dart, the mark at every other slot. Travelled the other way, a curve's right turns are left
/// turns, which is looked at here.
pub fn turns_call(
    width: u16,
    height: u16,
    seven: &Seven,
    right: &mut [u16],
    left: &mut [u16],
    works: &mut Works,
) -> u16 {
    let fit = |size: Size| right.len() == size.slots() && left.len() == size.slots();
    let (size, _) = match checked(width, height, seven, fit, works) {
        Ok(checked) => checked,
        Err(number) => return number,
    };
    let kept: Vec<bool> = (0..size.points()).map(|point| !leaving(&seven.next3, point).is_empty()).collect();
    for dart in 0..size.slots() {
        let is_dart = seven.next3[dart] != MARK;
        (right[dart], left[dart]) = if is_dart { turns(size, seven, &kept, dart) } else { (MARK, MARK) };
    }
    for dart in (0..size.slots()).filter(|&d| seven.next3[d] != MARK) {
        let other = seven.other3[dart] as usize;
        assert!((right[dart], left[dart]) == (left[other], right[other]), "the turns of {dart} and {other}, its other");
    }
    0
}

// ---------------------------------------------------------------------------------------------------------------------
// The deck

const BLANK: u8 = b' ';

fn is_cell(byte: u8) -> bool {
    (33..=126).contains(&byte)
}

/// Columns 1 to 72 filled with blanks, then the card's number, then a line feed.
fn card(columns: &[u8], number: usize) -> Vec<u8> {
    let mut card = columns.to_vec();
    card.resize(COLUMNS, BLANK);
    card.extend(format!("{number:08}\n").bytes());
    card
}

/// What a deck reads as: width, height and labels, or the refusal number and the card's.
pub fn read(deck: &[u8]) -> Result<(u16, u16, Vec<u16>), (u16, u16)> {
    let next_card = |number: usize| -> Result<&[u8], (u16, u16)> {
        let refuse = |refusal: u16| Err((refusal, number as u16));
        let begun = deck.chunks(CARD).nth(number - 1).ok_or((25, number as u16))?;
        if begun.len() != CARD || begun[80] != b'\n' {
            return refuse(20);
        }
        if begun[72..80] != *format!("{number:08}").as_bytes() {
            return refuse(22);
        }
        Ok(&begun[..COLUMNS])
    };
    let header = next_card(1)?;
    let digits = |from: usize, to: usize| -> Option<u16> {
        let digits = &header[from..to];
        digits.iter().all(u8::is_ascii_digit).then(|| digits.iter().fold(0, |n, byte| 10 * n + (byte - b'0') as u16))
    };
    let (widths, width, height, rest) = match &header[..6] {
        b"SHEET " => (1..=72, digits(6, 8), digits(8, 10), &header[10..]),
        b"SHEET2" => (73..=110, digits(6, 9), digits(9, 11), &header[11..]),
        _ => return Err((21, 1)),
    };
    let (Some(width), Some(height)) = (width, height) else { return Err((21, 1)) };
    if !widths.contains(&width) || !(1..=72).contains(&height) || rest.iter().any(|&byte| byte != BLANK) {
        return Err((21, 1));
    }
    let mut labels = Vec::new();
    let mut number = 1;
    for _ in 0..height {
        let on_cards = if width <= 72 { vec![width] } else { vec![72, width - 72] };
        for cells in on_cards {
            number += 1;
            for (column, &byte) in next_card(number)?.iter().enumerate() {
                if column < cells as usize {
                    if !is_cell(byte) {
                        return Err((23, number as u16));
                    }
                    labels.push(byte as u16);
                } else if byte != BLANK {
                    return Err((24, number as u16));
                }
            }
        }
    }
    if deck.len() > CARD * number {
        return Err((25, number as u16 + 1));
    }
    Ok((width, height, labels))
}

/// The deck of a sheet whose labels are all cells of a card.
pub fn write(size: Size, labels: &[u16]) -> Vec<u8> {
    let Size { width, height } = size;
    let header =
        if width <= 72 { format!("SHEET {width:02}{height:02}") } else { format!("SHEET2{width:03}{height:02}") };
    let mut deck = card(header.as_bytes(), 1);
    for row in labels.chunks(width) {
        for cells in row.chunks(COLUMNS) {
            let number = deck.len() / CARD + 1;
            deck.extend(card(&cells.iter().map(|&label| label as u8).collect::<Vec<_>>(), number));
        }
    }
    deck
}

/// Done: the size slots and every cell are written. Refused: the card slot is.
pub fn read_call(deck: &[u8], cells: &mut [u16], size: &mut [u16; 2], card: &mut u16) -> u16 {
    if cells.len() != CELLS {
        *card = 0;
        return 26;
    }
    match read(deck) {
        Ok((width, height, labels)) => {
            *size = [width, height];
            cells.fill(0);
            cells[..labels.len()].copy_from_slice(&labels);
            0
        }
        Err((refusal, number)) => {
            *card = number;
            refusal
        }
    }
}

pub fn write_call(width: u16, height: u16, sheet: &[u16], deck: &mut [u8]) -> u16 {
    let Some(size) = Size::new(width, height) else { return 1 };
    if sheet.len() != size.cells() {
        return 3;
    }
    if deck.len() != size.deck() {
        return 4;
    }
    if !sheet.iter().all(|&label| (33..=126).contains(&label)) {
        return 27;
    }
    deck.copy_from_slice(&write(size, sheet));
    0
}

/// The companion of the call that answers the part of a card which holds its cells.
pub fn part_refusal_call(width: u16, card: &[u8]) -> u16 {
    if width < 1 || width as usize > COLUMNS {
        return 1;
    }
    if card.len() != CARD || card[80] != b'\n' {
        return 20;
    }
    0
}
