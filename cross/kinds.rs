//! The kinds of cases. A kind makes a sheet from a seed, and then calls from the sheet and the seed; every call is
//! answered by the naive implementation and by the library, and every number and table is compared.
//!
//! A kind depends on nothing but the sheet and the seed, so a case that differs can be made smaller.

use crate::naive::{self, Seven, Size, CARD, CELLS, COLUMNS, MARK, TALLEST, WIDEST};
use crate::request::{difference, drawn, list, Answer, Call, Request, Server};
use crate::sheets::{self, Random, Sheet};
use std::sync::OnceLock;
use std::time::{Duration, Instant};

/// The longest time without a word on standard error.
const SILENCE: Duration = Duration::from_secs(4);

/// A call on which the two sides differ, and how.
pub struct Difference {
    pub request: Request,
    pub what: String,
}

/// Both sides, and the case at hand: its kind, how many are done, and of how many.
pub struct Both {
    server: Server,
    pub calls: u64,
    case: (&'static str, usize, usize),
    began: Instant,
    said: Instant,
}

type Same = Result<(), Difference>;

fn differs(request: Request, what: &str) -> Same {
    Err(Difference { request, what: what.into() })
}

impl Both {
    pub fn new(server: Server) -> Both {
        let now = Instant::now();
        Both { server, calls: 0, case: ("", 0, 0), began: now, said: now }
    }

    /// Notes the case at hand, and says so where it is the first of its kind.
    pub fn at(&mut self, kind: &'static str, done: usize, cases: usize) {
        self.case = (kind, done, cases);
        if done == 0 {
            self.say();
        }
    }

    /// Says where the run is.
    fn say(&mut self) {
        let (kind, done, cases) = self.case;
        eprintln!("cross: {kind} {done} of {cases}, {} calls, {} s", self.calls, self.began.elapsed().as_secs());
        self.said = Instant::now();
    }

    /// The answer, where both sides give the same.
    fn same(&mut self, request: Request) -> Result<Answer, Difference> {
        self.calls += 1;
        if self.said.elapsed() > SILENCE {
            self.say();
        }
        let naive = request.by_naive();
        let what = match self.server.answer(&request) {
            Ok(library) => difference(request.call, &naive, &library),
            Err(what) => Some(what),
        };
        match what {
            None => Ok(naive),
            Some(what) => Err(Difference { request, what }),
        }
    }
}

pub struct Kind {
    pub name: &'static str,
    /// About how long the cases of the default run take.
    pub seconds: u64,
    /// The number of cases in the default run.
    pub cases: usize,
    pub sheet: fn(usize, &mut Random) -> Sheet,
    pub compare: fn(&mut Both, &Sheet, &mut Random) -> Same,
}

/// The kinds; `cross/run --help` prints the name and the seconds of each, with the line above it.
pub fn kinds() -> Vec<Kind> {
    let any = |_: usize, random: &mut Random| sized(random, WIDEST as usize, TALLEST as usize);
    let middling = |_: usize, random: &mut Random| sized(random, 20, 20);
    let little = |_: usize, random: &mut Random| sized(random, 9, 9);
    vec![
        // every level, count and join of every sheet up to 3 by 3 with up to 3 labels, lists of joins and two editors
        Kind { name: "small", seconds: 7, cases: sheets::all_small().len(), sheet: small, compare: everything },
        // the levels of a sheet of any size
        Kind { name: "levels", seconds: 6, cases: 4000, sheet: any, compare: levels },
        // drawing a sheet of any size, checking the drawing, and counting in it, turns too
        Kind { name: "drawings", seconds: 11, cases: 3600, sheet: any, compare: drawings },
        // joins in a sheet up to 20 by 20, until no two regions share a line
        Kind { name: "joins", seconds: 22, cases: 2200, sheet: middling, compare: joins },
        // such joins in a sheet of 72 by 72 or of 110 by 72
        Kind { name: "large joins", seconds: 5, cases: 9, sheet: large, compare: joins },
        // such joins in a sheet of many regions, so hundreds of joins one after another
        Kind { name: "long joins", seconds: 9, cases: 3, sheet: crowded, compare: joins },
        // lists of joins in a sheet up to 20 by 20 or of few rows: in two orders, refused at any entry, of any length
        Kind { name: "lists", seconds: 4, cases: 1500, sheet: compact, compare: lists },
        // such lists in a sheet of 72 by 72 or of 110 by 72, also of as many joins as there can be
        Kind { name: "large lists", seconds: 2, cases: 4, sheet: extensive, compare: lists },
        // both editors' joins in a sheet up to 20 by 20, mixed and then each editor's alone
        Kind { name: "editors", seconds: 4, cases: 1000, sheet: shared, compare: editors },
        // such joins in a sheet of 72 by 72 or of 110 by 72
        Kind { name: "large editors", seconds: 2, cases: 9, sheet: large, compare: editors },
        // joins and counts of names that are 0, equal, unused, too large or far apart
        Kind { name: "names", seconds: 6, cases: 4000, sheet: middling, compare: names },
        // tables that are most often no drawing, of a sheet up to 20 by 20
        Kind { name: "damage", seconds: 8, cases: 14000, sheet: middling, compare: damage },
        // such tables of a sheet of any size
        Kind { name: "large damage", seconds: 11, cases: 2600, sheet: any, compare: damage },
        // lengths and sizes that are not the stated ones, for a sheet up to 9 by 9
        Kind { name: "lengths", seconds: 5, cases: 800, sheet: little, compare: lengths },
        // such lengths and sizes for a sheet of any size
        Kind { name: "large lengths", seconds: 1, cases: 15, sheet: any, compare: lengths },
        // writing a deck, reading it, and reading decks changed in one or two ways
        Kind { name: "decks", seconds: 5, cases: 6000, sheet: any, compare: decks },
        // a deck of few cards with each byte changed, and cut at each place
        Kind { name: "deck bytes", seconds: 2, cases: 24, sheet: few_cards, compare: deck_bytes },
    ]
}

fn sized(random: &mut Random, widest: usize, tallest: usize) -> Sheet {
    let size = sheets::size(random, widest, tallest);
    sheets::sheet(random, size)
}

/// A sheet whose deck has few cards, in turn of one card a row and of two.
fn few_cards(index: usize, random: &mut Random) -> Sheet {
    if index % 2 == 0 {
        return sized(random, 9, 9);
    }
    let size = Size { width: COLUMNS + 1 + random.below(WIDEST as usize - COLUMNS), height: 1 + random.below(4) };
    sheets::sheet(random, size)
}

fn small(index: usize, _: &mut Random) -> Sheet {
    static ALL: OnceLock<Vec<Sheet>> = OnceLock::new();
    let all = ALL.get_or_init(sheets::all_small);
    all[index % all.len()].clone()
}

/// A sheet of many regions; the third of three has a region in each cell.
fn crowded(index: usize, random: &mut Random) -> Sheet {
    let width = 30 + random.below(43);
    match index % 3 {
        2 => sheets::all_different(random, Size { width, height: 15 }),
        _ => sheets::speckled(random, Size { width, height: 30 }, 4),
    }
}

fn large(index: usize, random: &mut Random) -> Sheet {
    sheets::painted_over(random, Size { width: [72, WIDEST as usize][index % 2], height: TALLEST as usize })
}

/// Two of four are such sheets, and two of their sizes with a region in each cell.
fn extensive(index: usize, random: &mut Random) -> Sheet {
    let sheet = large(index + index / 2, random);
    match index / 2 % 2 {
        0 => sheets::all_different(random, sheet.size),
        _ => sheet,
    }
}

/// A sheet up to 20 by 20; one of four is of few rows, and about as wide as those whose lists may be longer.
fn compact(index: usize, random: &mut Random) -> Sheet {
    if index % 4 != 2 {
        return sized(random, 20, 20);
    }
    let size = Size { width: random.one_of(&[71, 72, 73, 74, 110]), height: 1 + random.below(3) };
    sheets::sheet(random, size)
}

/// A sheet up to 20 by 20; one of two has small regions of several labels, so many joins for each of two editors.
fn shared(index: usize, random: &mut Random) -> Sheet {
    let size = sheets::size(random, 20, 20);
    match index % 2 {
        0 => sheets::sheet(random, size),
        _ => sheets::speckled(random, size, 6),
    }
}

// ---------------------------------------------------------------------------------------------------------------------
// Calls with tables of the stated lengths

/// What a lent table holds before the call: anything.
fn junk(random: &mut Random, length: usize) -> Vec<u16> {
    match random.below(8) {
        0 => vec![0; length],
        1 => vec![MARK; length],
        _ => (0..length).map(|_| random.word()).collect(),
    }
}

fn with_works(random: &mut Random, size: Size, mut tables: Vec<Vec<u16>>) -> Vec<Vec<u16>> {
    for _ in 0..4 {
        tables.push(junk(random, size.slots()));
    }
    tables
}

fn sized_numbers(size: Size, more: &[u16]) -> Vec<u16> {
    [&[size.width as u16, size.height as u16], more].concat()
}

fn words(call: Call, numbers: Vec<u16>, tables: Vec<Vec<u16>>) -> Request {
    Request { call, numbers, tables, bytes: vec![] }
}

fn level(random: &mut Random, sheet: &Sheet, number: u16) -> Request {
    let mut tables = vec![sheet.labels.clone()];
    for _ in 0..3 {
        tables.push(junk(random, sheet.size.slots()));
    }
    words(Call::Level, sized_numbers(sheet.size, &[number]), with_works(random, sheet.size, tables))
}

fn draw(random: &mut Random, sheet: &Sheet) -> Request {
    let mut tables = vec![sheet.labels.clone()];
    for _ in 0..4 {
        tables.push(junk(random, sheet.size.slots()));
    }
    for _ in 0..3 {
        tables.push(junk(random, sheet.size.names()));
    }
    words(Call::Draw, sized_numbers(sheet.size, &[]), with_works(random, sheet.size, tables))
}

fn start(random: &mut Random, sheet: &Sheet, owners: &[u16]) -> Request {
    let mut request = draw(random, sheet);
    request.call = Call::Start;
    request.tables.insert(1, owners.to_vec());
    request
}

fn check(random: &mut Random, size: Size, seven: &Seven) -> Request {
    words(Call::Check, sized_numbers(size, &[]), with_works(random, size, list(seven.clone())))
}

fn join(random: &mut Random, size: Size, seven: &Seven, a: u16, b: u16) -> Request {
    words(Call::Join, sized_numbers(size, &[a, b]), with_works(random, size, list(seven.clone())))
}

/// A call of an editor with two names. What stands in the owners' entry 0 is anything.
fn join_as(random: &mut Random, size: Size, seven: &Seven, owners: &[u16], call: [u16; 3]) -> Request {
    let mut owners = owners.to_vec();
    owners[0] = random.word();
    let tables = [list(seven.clone()), vec![owners]].concat();
    words(Call::JoinAs, sized_numbers(size, &call), with_works(random, size, tables))
}

fn join_list(random: &mut Random, size: Size, seven: &Seven, names: &[u16]) -> Request {
    let tables = [list(seven.clone()), vec![names.to_vec(), vec![random.word()]]].concat();
    words(Call::JoinList, sized_numbers(size, &[]), with_works(random, size, tables))
}

/// A call for the depth or the holes of one name.
fn count(random: &mut Random, call: Call, size: Size, seven: &Seven, name: u16) -> Request {
    let tables = [list(seven.clone()), vec![vec![random.word()]]].concat();
    words(call, sized_numbers(size, &[name]), with_works(random, size, tables))
}

fn counts(random: &mut Random, size: Size, seven: &Seven) -> Request {
    let tables = [list(seven.clone()), vec![junk(random, size.names()), junk(random, size.names())]].concat();
    words(Call::Counts, sized_numbers(size, &[]), with_works(random, size, tables))
}

fn turns(random: &mut Random, size: Size, seven: &Seven) -> Request {
    let tables = [list(seven.clone()), vec![junk(random, size.slots()), junk(random, size.slots())]].concat();
    words(Call::Turns, sized_numbers(size, &[]), with_works(random, size, tables))
}

fn read(random: &mut Random, deck: Vec<u8>) -> Request {
    let tables = vec![junk(random, CELLS), junk(random, 2), junk(random, 1)];
    Request { call: Call::Read, numbers: vec![], tables, bytes: deck }
}

fn write(random: &mut Random, sheet: &Sheet) -> Request {
    let bytes = (0..sheet.size.deck()).map(|_| random.word() as u8).collect();
    let numbers = sized_numbers(sheet.size, &[]);
    Request { call: Call::Write, numbers, tables: vec![sheet.labels.clone()], bytes }
}

fn part_refusal(width: u16, card: Vec<u8>) -> Request {
    Request { call: Call::PartRefusal, numbers: vec![width], tables: vec![], bytes: card }
}

// ---------------------------------------------------------------------------------------------------------------------
// Sheets, drawings and joins

fn levels(both: &mut Both, sheet: &Sheet, random: &mut Random) -> Same {
    for number in 0..4 {
        both.same(level(random, sheet, number))?;
    }
    let above = random.one_of(&[4, 5, 255, 256, 257, 259, 32768, 65535]);
    both.same(level(random, sheet, above))?;
    Ok(())
}

fn drawings(both: &mut Both, sheet: &Sheet, random: &mut Random) -> Same {
    let seven = drawn(&both.same(draw(random, sheet))?.tables[1..]);
    both.same(check(random, sheet.size, &seven))?;
    both.same(counts(random, sheet.size, &seven))?;
    both.same(turns(random, sheet.size, &seven))?;
    let name = random.one_of(&used(&seven));
    both.same(count(random, Call::Depth, sheet.size, &seven, name))?;
    both.same(count(random, Call::Holes, sheet.size, &seven, name))?;
    Ok(())
}

/// The names in use in a drawing, the outside too.
fn used(seven: &Seven) -> Vec<u16> {
    (0..seven.parent.len()).filter(|&name| name == 0 || seven.parent[name] != MARK).map(|name| name as u16).collect()
}

/// The pairs of regions that share a line, without the outside.
fn neighbours(size: Size, seven: &Seven) -> Vec<(u16, u16)> {
    let lines = (0..size.slots()).filter(|&dart| seven.side1[dart] != MARK);
    let sides = lines.map(|dart| (seven.side1[dart], seven.side1[size.reversal(dart)]));
    let mut pairs: Vec<(u16, u16)> = sides.filter(|&(a, b)| a != 0 && b != 0).collect();
    pairs.sort_unstable();
    pairs.dedup();
    pairs
}

/// One join that is to be done, with the naive removal rule compared as well, and its totals with a full recount.
fn one_join(
    both: &mut Both,
    size: Size,
    seven: &Seven,
    (a, b): (u16, u16),
    random: &mut Random,
) -> Result<Seven, Difference> {
    let request = join(random, size, seven, a, b);
    let answer = both.same(request.clone())?;
    let joined = drawn(&answer.tables);
    let removed = naive::joined_by_removal(size, seven, a, b);
    let what = if naive::recounted(size, &removed) != (removed.cells.clone(), removed.borders.clone()) {
        "the totals kept by the naive removal rule and a recount differ"
    } else if answer.number != 0 || joined != removed {
        "the naive removal rule and the naive fresh drawing differ"
    } else {
        return Ok(joined);
    };
    Err(Difference { request, what: what.into() })
}

/// Joins until no two regions share a line, with a refused join now and then.
fn joins(both: &mut Both, sheet: &Sheet, random: &mut Random) -> Same {
    let size = sheet.size;
    let mut seven = naive::draw(size, &sheet.labels);
    loop {
        let pairs = neighbours(size, &seven);
        if pairs.is_empty() {
            break;
        }
        let (a, b) = random.one_of(&pairs);
        seven = one_join(both, size, &seven, (a, b), random)?;
        if random.once_in(8) {
            both.same(join(random, size, &seven, a, b))?;
            both.same(counts(random, size, &seven))?;
            both.same(turns(random, size, &seven))?;
        }
    }
    both.same(check(random, size, &seven))?;
    both.same(turns(random, size, &seven))?;
    Ok(())
}

/// Every call on a small sheet: every level, every count, every join, one chain of joins, lists and two editors.
fn everything(both: &mut Both, sheet: &Sheet, random: &mut Random) -> Same {
    let size = sheet.size;
    levels(both, sheet, random)?;
    drawings(both, sheet, random)?;
    let seven = naive::draw(size, &sheet.labels);
    for name in 0..=size.names() as u16 {
        both.same(count(random, Call::Depth, size, &seven, name))?;
        both.same(count(random, Call::Holes, size, &seven, name))?;
    }
    for (a, b) in neighbours(size, &seven) {
        one_join(both, size, &seven, (a, b), random)?;
    }
    let used = used(&seven);
    for a in &used {
        let b = random.one_of(&used);
        both.same(join(random, size, &seven, *a, b))?;
    }
    joins(both, sheet, random)?;
    lists(both, sheet, random)?;
    editors(both, sheet, random)
}

/// A name, often none of a region.
fn some_name(random: &mut Random, seven: &Seven) -> u16 {
    let above = seven.parent.len() as u16;
    match random.below(8) {
        0 => 0,
        1 => above + random.below(3) as u16,
        2 => random.one_of(&[MARK, MARK - 1, 32768, 256, 5184, 5185, 7920, 7921]),
        3 | 4 => random.below(seven.parent.len()) as u16,
        _ => random.one_of(&used(seven)),
    }
}

/// Joins and counts of names that are 0, equal, unused, too large or far apart.
fn names(both: &mut Both, sheet: &Sheet, random: &mut Random) -> Same {
    let size = sheet.size;
    let seven = naive::draw(size, &sheet.labels);
    for _ in 0..8 {
        let a = some_name(random, &seven);
        let b = if random.once_in(4) { a } else { some_name(random, &seven) };
        both.same(join(random, size, &seven, a, b))?;
        both.same(count(random, Call::Depth, size, &seven, a))?;
        both.same(count(random, Call::Holes, size, &seven, b))?;
    }
    Ok(())
}

// ---------------------------------------------------------------------------------------------------------------------
// Lists of joins. The names of the cells say where a list has come to; they are a grouping.

/// The lines between cells, each by the two cells beside it, row by row or shuffled.
fn lines_between(random: &mut Random, size: Size) -> Vec<(usize, usize)> {
    let mut lines = Vec::new();
    for cell in 0..size.cells() {
        if cell % size.width != 0 {
            lines.push((cell - 1, cell));
        }
        if cell >= size.width {
            lines.push((cell - size.width, cell));
        }
    }
    if !random.once_in(6) {
        for k in 1..lines.len() {
            lines.swap(k, random.below(k + 1));
        }
    }
    lines
}

/// A list that is accepted throughout: of each line in turn the two regions beside it, where they are still two. The names are
/// brought to where it ends.
fn accepted(random: &mut Random, names: &mut [u16], lines: &[(usize, usize)]) -> Vec<u16> {
    let mut list = Vec::new();
    for &(one, two) in lines {
        let (a, b) = (names[one], names[two]);
        if a != b {
            list.extend(if random.once_in(2) { [a, b] } else { [b, a] });
            naive::regroup(names, a, b);
        }
    }
    list
}

/// A pair that is most often refused where the cells bear these names and a join has taken the name `gone`.
fn some_pair(random: &mut Random, names: &[u16], gone: u16) -> [u16; 2] {
    let (a, b) = (random.one_of(names), random.one_of(names));
    let past = names.len() as u16 + 1 + random.below(3) as u16;
    let [one, two] = match random.below(12) {
        0 => [0, a],
        1 => [0, random.one_of(&[0, past, gone, MARK])],
        2 => [a, a],
        3 => [random.one_of(&[past, gone, MARK]); 2],
        4 => [a, 1 + random.below(names.len()) as u16],
        5 => [a, past],
        6 => [a, random.one_of(&[MARK, MARK - 1, 32768, a.wrapping_add(256)])],
        7 => [a, gone],
        8 => [random.word(), random.word()],
        _ => [a, b],
    };
    if random.once_in(2) {
        [one, two]
    } else {
        [two, one]
    }
}

/// The list with a pair put in before some entry, or after the last, that is most often refused there.
fn with_a_refusal(random: &mut Random, names: &[u16], list: &[u16]) -> Vec<u16> {
    let mut names = names.to_vec();
    let mut gone = 0;
    let (before, after) = list.split_at(2 * random.below(list.len() / 2 + 1));
    for pair in before.chunks(2) {
        naive::regroup(&mut names, pair[0], pair[1]);
        gone = pair[0].max(pair[1]);
    }
    [before, &some_pair(random, &names, gone), after].concat()
}

/// The list cut, or filled up from its start: to an odd length, to the greatest or near it, or to any.
fn of_some_length(random: &mut Random, size: Size, list: &[u16]) -> Vec<u16> {
    let most = 2 * size.most_pairs();
    let length = match random.below(4) {
        0 => random.one_of(&[list.len() + 1, list.len().max(2) - 1]),
        1 => most,
        2 => random.one_of(&[most + 1, most + 2, most - 1]),
        _ => random.one_of(&[1, 2, 10366, 10368, 15838, 15840, 65535, 65536, 65538, 65536 + list.len(), 131072]),
    };
    let of = if list.is_empty() { &[1, 2] } else { list };
    of.iter().copied().cycle().take(length).collect()
}

/// Lists that are to be done, one call after another, leave the fresh drawing of the grouping that they end in.
fn end_in(both: &mut Both, size: Size, seven: &Seven, lists: &[&[u16]], grouping: &[u16], random: &mut Random) -> Same {
    let mut after = seven.clone();
    for list in lists {
        let request = join_list(random, size, &after, list);
        let answer = both.same(request.clone())?;
        if answer.number != 0 {
            return differs(request, "joins of regions that share a line are refused");
        }
        after = drawn(&answer.tables);
    }
    if after != naive::draw(size, grouping) {
        let request = join_list(random, size, seven, &lists.concat());
        return differs(request, "the joins end in other tables than the fresh drawing");
    }
    Ok(())
}

/// Two lists that end in one grouping, the second of them in two calls, and the first gone on with until one region is left. The
/// second is done by the naive removal rule too, join by join, on a small sheet. Then lists that are refused, or of some other
/// length.
fn lists(both: &mut Both, sheet: &Sheet, random: &mut Random) -> Same {
    let size = sheet.size;
    let names = naive::names(size, &sheet.labels);
    let seven = naive::draw(size, &sheet.labels);
    let mut grouping = names.clone();
    let mut lines = lines_between(random, size);
    lines.truncate(random.below(lines.len() + 1));
    let first = accepted(random, &mut grouping, &lines);
    let mut lines = lines_between(random, size);
    lines.retain(|&(one, two)| grouping[one] == grouping[two]);
    let second = accepted(random, &mut names.clone(), &lines);
    let lines = lines_between(random, size);
    let whole = [&first[..], &accepted(random, &mut grouping.clone(), &lines)].concat();

    let (start, end) = second.split_at(2 * random.below(second.len() / 2 + 1));
    end_in(both, size, &seven, &[&first], &grouping, random)?;
    end_in(both, size, &seven, &[start, end], &grouping, random)?;
    end_in(both, size, &seven, &[&whole], &vec![1; size.cells()], random)?;
    if size.cells() <= 100 {
        let join = |seven: Seven, pair: &[u16]| naive::joined_by_removal(size, &seven, pair[0], pair[1]);
        if second.chunks(2).fold(seven.clone(), join) != naive::draw(size, &grouping) {
            let request = join_list(random, size, &seven, &second);
            return differs(request, "the naive removal rule and the fresh drawing differ");
        }
    }

    both.same(join_list(random, size, &seven, &[]))?;
    for list in [&second, &whole] {
        let once = with_a_refusal(random, &names, list);
        let twice = with_a_refusal(random, &names, &once);
        let long = of_some_length(random, size, list);
        for list in [once, twice, long] {
            both.same(join_list(random, size, &seven, &list))?;
        }
    }
    Ok(())
}

// ---------------------------------------------------------------------------------------------------------------------
// Two editors. A call of one is the editor's number and two names.

/// An owner for each name: of all names the same, of each another, by the label of the cell or by where the cell lies.
fn some_owners(random: &mut Random, sheet: &Sheet) -> Vec<u16> {
    let size = sheet.size;
    let (one, mask) = (random.below(2), random.word());
    let (across, down) = (1 + random.below(size.width), 1 + random.below(size.height));
    let pattern = random.below(8);
    let mut owner = |cell: usize| match pattern {
        0 => one,
        1 | 2 => (sheet.labels[cell] & mask).count_ones() as usize % 2,
        3 | 4 => (cell % size.width / across + cell / size.width / down) % 2,
        5 => random.below(6) / 5 ^ one,
        _ => random.below(2),
    };
    let owners = (0..size.cells()).map(|cell| 1 + owner(cell) as u16).collect::<Vec<_>>();
    [&[random.word()], &owners[..]].concat()
}

/// The owners with that of one name none of the two editors: of the first name, of the last or of any.
fn with_a_wrong_owner(random: &mut Random, owners: &[u16]) -> Vec<u16> {
    let mut owners = owners.to_vec();
    let name = match random.below(3) {
        0 => 1,
        1 => owners.len() - 1,
        _ => 1 + random.below(owners.len() - 1),
    };
    owners[name] = no_editor(random);
    owners
}

/// A number that is none of the two editors.
fn no_editor(random: &mut Random) -> u16 {
    match random.below(2) {
        0 => random.one_of(&[0, 3, MARK]),
        _ => random.one_of(&[4, 5, 255, 256, 257, 258, 32769, MARK - 1]),
    }
}

/// Owners and an editor; now and then one of the owners or the editor is wrong.
fn owners_and_editor(random: &mut Random, sheet: &Sheet) -> (Vec<u16>, u16) {
    let owners = some_owners(random, sheet);
    let editor = 1 + random.below(2) as u16;
    match random.below(6) {
        0 => (with_a_wrong_owner(random, &owners), editor),
        1 => (owners, no_editor(random)),
        2 => (with_a_wrong_owner(random, &owners), no_editor(random)),
        _ => (owners, editor),
    }
}

/// The calls that are to be done: of the owner of two regions that share a line.
fn calls_to_be_done(size: Size, seven: &Seven, owners: &[u16]) -> Vec<[u16; 3]> {
    let owner = |name: u16| owners[name as usize];
    let of_one = |&(a, b): &(u16, u16)| owner(a) == owner(b);
    neighbours(size, seven).into_iter().filter(of_one).map(|(a, b)| [owner(a), a, b]).collect()
}

/// A call that is most often refused: with the other's regions, with regions that lie apart, with names that are gone, unused,
/// too large, 0 or equal, or of an editor that is none.
fn some_call(random: &mut Random, size: Size, seven: &Seven, owners: &[u16], gone: &[u16]) -> [u16; 3] {
    let editor = 1 + random.below(2) as u16;
    let present = &used(seven)[1..];
    let mut own: Vec<u16> = present.iter().copied().filter(|&name| owners[name as usize] == editor).collect();
    if own.is_empty() {
        own = present.to_vec();
    }
    let (a, b) = (random.one_of(&own), random.one_of(present));
    let any = 1 + random.below(size.cells()) as u16;
    let absent = if gone.is_empty() { any } else { random.one_of(gone) };
    let past = random.one_of(&[size.names() as u16, size.names() as u16 + 1, 7921, 32768, MARK - 1, MARK]);
    let odd = random.one_of(&[0, any, absent, past, b]);
    let beside = neighbours(size, seven);
    let beside = if beside.is_empty() { (a, b) } else { random.one_of(&beside) };
    let (one, two) = match random.below(13) {
        0..=2 => beside,
        3 => (a, random.one_of(&own)),
        4 => (a, b),
        5 => (a, any),
        6 => (a, absent),
        7 => (a, past),
        8 => (odd, odd),
        9 => (0, odd),
        10 => (odd, random.one_of(&[any, absent, past, b])),
        11 => (random.word(), random.word()),
        _ => return [no_editor(random), beside.0, beside.1],
    };
    if random.once_in(2) {
        [editor, one, two]
    } else {
        [editor, two, one]
    }
}

/// What an editor has in a drawing: the name of each cell's region, 0 for one of the other's, and for each name that is the
/// editor's whether it is present, and its totals.
type Own = (Vec<u16>, Vec<(bool, u16, u16)>);

fn own_part(size: Size, seven: &Seven, owners: &[u16], editor: u16) -> Own {
    let is_own = |name: usize| owners[name] == editor;
    let cells = naive::names_by_lines(size, &seven.side1);
    let cells = cells.into_iter().map(|name| if is_own(name as usize) { name } else { 0 }).collect();
    let totals = |name: usize| (seven.parent[name] != MARK, seven.cells[name], seven.borders[name]);
    (cells, (1..size.names()).filter(|&name| is_own(name)).map(totals).collect())
}

/// A drawing that starts with owners; a mixture of both editors' calls; then the calls of each editor alone, from the same
/// start. Each call is answered alone as in the mixture, and the editor has the same after it, and at the end.
fn editors(both: &mut Both, sheet: &Sheet, random: &mut Random) -> Same {
    let size = sheet.size;
    let owners = some_owners(random, sheet);
    let wrong = with_a_wrong_owner(random, &owners);
    both.same(start(random, sheet, &wrong))?;
    let started = drawn(&both.same(start(random, sheet, &owners))?.tables[2..]);

    let mut mixed = started.clone();
    let mut gone = Vec::new();
    let mut calls = Vec::new();
    for _ in 0..if size.cells() <= 400 { 1 + random.below(60) } else { 30 } {
        let done = calls_to_be_done(size, &mixed, &owners);
        if done.is_empty() && random.once_in(4) {
            break;
        }
        let refused = done.is_empty() || random.once_in(3);
        let call = if refused { some_call(random, size, &mixed, &owners, &gone) } else { random.one_of(&done) };
        if random.once_in(8) {
            let wrong = with_a_wrong_owner(random, &owners);
            both.same(join_as(random, size, &mixed, &wrong, call))?;
        }
        let answer = both.same(join_as(random, size, &mixed, &owners, call))?;
        mixed = drawn(&answer.tables);
        if answer.number == 0 {
            gone.push(call[1].max(call[2]));
        }
        calls.push((call, answer.number, own_part(size, &mixed, &owners, call[0])));
    }

    for editor in [1, 2] {
        let mut alone = started.clone();
        for (call, number, own) in calls.iter().filter(|(call, ..)| call[0] == editor) {
            let request = join_as(random, size, &alone, &owners, *call);
            let answer = both.same(request.clone())?;
            alone = drawn(&answer.tables);
            if answer.number != *number {
                return differs(request, "the answer is another one in the mixture");
            }
            if own_part(size, &alone, &owners, editor) != *own {
                return differs(request, "the editor's regions are others in the mixture");
            }
        }
        if own_part(size, &alone, &owners, editor) != own_part(size, &mixed, &owners, editor) {
            let request = check(random, size, &mixed);
            return differs(request, "the editor's regions are others at the end of the mixture");
        }
    }
    Ok(())
}

// ---------------------------------------------------------------------------------------------------------------------
// Tables that are no drawing

/// A value to put in a table: near the old one, one of the same table, or anything.
fn other_value(random: &mut Random, table: &[u16], old: u16) -> u16 {
    match random.below(6) {
        0 => old.wrapping_add(1),
        1 => old.wrapping_sub(1),
        2 => MARK,
        3 => random.one_of(&[0, 1, old ^ 2, 65534]),
        4 => random.one_of(table),
        _ => random.word(),
    }
}

/// Moves the anchor of a closed curve one point on, if there is a closed curve.
fn move_an_anchor(random: &mut Random, size: Size, seven: &mut Seven) {
    let alone: Vec<usize> = (0..size.slots()).filter(|&dart| seven.next3[dart] as usize == dart).collect();
    if alone.is_empty() {
        return;
    }
    let old = random.one_of(&alone);
    let new = seven.next1[old] as usize;
    let back = size.reversal(old);
    for gone in [old, seven.other3[old] as usize] {
        seven.next3[gone] = MARK;
        seven.other3[gone] = MARK;
    }
    for (dart, other) in [(new, back), (back, new)] {
        seven.next3[dart] = dart as u16;
        seven.other3[dart] = other as u16;
    }
}

/// Exchanges two names wherever they stand.
fn exchange_names(random: &mut Random, seven: &mut Seven) {
    let names = used(seven);
    let (a, b) = (random.one_of(&names), random.one_of(&names));
    for table in [&mut seven.parent, &mut seven.cells, &mut seven.borders] {
        table.swap(a as usize, b as usize);
    }
    for entry in seven.side1.iter_mut().chain(&mut seven.parent) {
        *entry = if *entry == a {
            b
        } else if *entry == b {
            a
        } else {
            *entry
        };
    }
}

/// A join, if two regions share a line, with its totals kept wrongly: the shared lines not taken off, or once instead of
/// twice; the larger name's totals left, or 0; its totals kept in place of the sum; some region's lines changed; all totals
/// left as they were.
fn join_with_wrong_totals(random: &mut Random, size: Size, seven: &mut Seven) {
    let pairs = neighbours(size, seven);
    if pairs.is_empty() {
        return;
    }
    let (a, b) = random.one_of(&pairs);
    let (smaller, larger) = (a.min(b) as usize, a.max(b) as usize);
    let before = std::mem::replace(seven, naive::joined_by_removal(size, seven, a, b));
    let added = before.borders[a as usize] + before.borders[b as usize];
    let some = random.one_of(&used(seven)) as usize;
    match random.below(7) {
        0 => seven.borders[smaller] = added,
        1 => seven.borders[smaller] = (added + seven.borders[smaller]) / 2,
        2 => (seven.cells[larger], seven.borders[larger]) = (before.cells[larger], before.borders[larger]),
        3 => (seven.cells[larger], seven.borders[larger]) = (0, 0),
        4 => (seven.cells[smaller], seven.borders[smaller]) = (before.cells[larger], before.borders[larger]),
        5 => seven.borders[some] = random.one_of(&[seven.borders[some] + 2, seven.borders[some] - 2]),
        _ => (seven.cells, seven.borders) = (before.cells, before.borders),
    }
}

/// Totals that are most often wrong, in tables that are a drawing but for them.
fn wrong_totals(random: &mut Random, size: Size, seven: &mut Seven) {
    let names = used(seven);
    let (a, b) = (random.one_of(&names) as usize, random.one_of(&names) as usize);
    let any = random.below(size.names());
    let unused = (any..size.names()).find(|&name| name != 0 && seven.parent[name] == MARK);
    let of_cells = random.once_in(2);
    let table = if of_cells { &mut seven.cells } else { &mut seven.borders };
    match random.below(12) {
        0 => table[a] = random.one_of(&[table[a].wrapping_add(1), table[a].wrapping_sub(1)]),
        1 => (table[a], table[b]) = (table[a].wrapping_add(1), table[b].wrapping_sub(1)),
        2 => table.swap(a, b),
        3 => {
            seven.cells.swap(a, b);
            seven.borders.swap(a, b);
        }
        4 => std::mem::swap(&mut seven.cells, &mut seven.borders),
        5 => std::mem::swap(&mut seven.cells[a], &mut seven.borders[a]),
        6 => table[unused.unwrap_or(a)] = random.one_of(&[0, 1, MARK - 1]),
        7 => table.iter_mut().filter(|total| **total == MARK).for_each(|total| *total = 0),
        8 => table[a] = random.one_of(&[0, MARK]),
        9 if of_cells => table[0] = random.one_of(&[size.cells() as u16, 1, MARK]),
        9 => table[0] = random.one_of(&[0, MARK, (size.width + size.height) as u16, table[0] + 4]),
        _ => join_with_wrong_totals(random, size, seven),
    }
}

/// Seven tables of the sheet's size that are most often no drawing.
fn damaged(random: &mut Random, sheet: &Sheet) -> Seven {
    let size = sheet.size;
    let mut seven = naive::draw(size, &sheet.labels);
    let mut tables = list(seven.clone());
    match random.below(19) {
        0..=4 => {
            let table = &mut tables[random.below(7)];
            let k = random.below(table.len());
            table[k] = other_value(random, table, table[k]);
        }
        5 => {
            let table = &mut tables[random.below(7)];
            let (j, k) = (random.below(table.len()), random.below(table.len()));
            table.swap(j, k);
        }
        6 => match random.below(2) {
            0 => tables.swap(random.below(4), random.below(4)),
            _ => tables.swap(4 + random.below(3), 4 + random.below(3)),
        },
        7 => {
            let k = random.below(7);
            tables[k] = list(naive::draw(size, &sheets::sheet(random, size).labels)).swap_remove(k);
        }
        8 => {
            let level_2 = naive::level(size, &sheet.labels, 2);
            (tables[2], tables[3]) = (level_2.next, level_2.other);
        }
        9 => {
            let fill = random.one_of(&[0, MARK]);
            match random.below(2) {
                0 => tables.iter_mut().for_each(|table| table.fill(fill)),
                _ => tables[random.below(7)].fill(fill),
            }
        }
        10 => {
            for k in 0..tables.len() {
                tables[k] = junk(random, tables[k].len());
            }
        }
        11 => {
            move_an_anchor(random, size, &mut seven);
            return seven;
        }
        12 => {
            exchange_names(random, &mut seven);
            return seven;
        }
        13..=17 => {
            wrong_totals(random, size, &mut seven);
            return seven;
        }
        _ => tables = list(naive::draw(size, &sheets::sheet(random, size).labels)),
    }
    drawn(&tables)
}

/// Every call that is given a drawing, on tables that are most often none.
fn damage(both: &mut Both, sheet: &Sheet, random: &mut Random) -> Same {
    let size = sheet.size;
    let seven = damaged(random, sheet);
    both.same(check(random, size, &seven))?;
    let pairs = neighbours(size, &naive::draw(size, &sheet.labels));
    let (a, b) = if pairs.is_empty() || random.once_in(3) { (random.word(), 0) } else { random.one_of(&pairs) };
    both.same(join(random, size, &seven, a, b))?;
    let (owners, editor) = owners_and_editor(random, sheet);
    both.same(join_as(random, size, &seven, &owners, [editor, a, b]))?;
    let list = if random.once_in(2) { vec![a, b] } else { of_some_length(random, size, &[a, b, 0, a]) };
    both.same(join_list(random, size, &seven, &list))?;
    both.same(count(random, Call::Depth, size, &seven, a))?;
    both.same(count(random, Call::Holes, size, &seven, b))?;
    both.same(counts(random, size, &seven))?;
    both.same(turns(random, size, &seven))?;
    Ok(())
}

// ---------------------------------------------------------------------------------------------------------------------
// Wrong lengths and sizes

/// A length that is not the stated one.
fn wrong_length(random: &mut Random, length: usize) -> usize {
    let lengths = [length - 1, length + 1, 0, length / 2, length + 4, 2 * length];
    loop {
        let wrong = random.one_of(&lengths);
        if wrong != length {
            return wrong;
        }
    }
}

/// Whether a table is a slot of a fixed length, which a caller cannot get wrong.
fn is_slot(call: Call, name: &str) -> bool {
    match call {
        Call::JoinList => name == "place",
        Call::Depth => name == "depth",
        Call::Holes => name == "holes",
        Call::Read => name != "cells",
        _ => false,
    }
}

/// The requests of a call with one length wrong, each table and the bytes in turn.
fn one_length_wrong(random: &mut Random, request: &Request) -> Vec<Request> {
    let mut wrong = Vec::new();
    for (k, name) in request.call.tables().iter().enumerate().filter(|(_, name)| !is_slot(request.call, name)) {
        let length = request.tables[k].len();
        for new in [length - 1, length + 1, 0, wrong_length(random, length)] {
            let mut request = request.clone();
            request.tables[k].resize(new, name.len() as u16);
            wrong.push(request);
        }
    }
    if !request.bytes.is_empty() {
        for new in [request.bytes.len() - 1, request.bytes.len() + 1, 0, CARD - 1, CARD, CARD + 1] {
            let mut request = request.clone();
            request.bytes.resize(new, 10);
            wrong.push(request);
        }
    }
    wrong
}

/// A width or height, most often out of its limits.
fn some_length(random: &mut Random, right: u16) -> u16 {
    let near = [right + 1, right - 1, right, right + 256];
    random.one_of(&[&[0, 1, 72, 73, 74, 110, 111, 127, 128, 255, 256, 32768, 65535], &near[..]].concat())
}

/// The request with a few things wrong at once, to compare the order of refusals.
fn several_wrong(random: &mut Random, request: &Request) -> Request {
    let mut wrong = request.clone();
    for number in wrong.numbers.iter_mut() {
        if random.once_in(3) {
            *number = some_length(random, (*number).max(1).min(WIDEST));
        }
    }
    if wrong.numbers.len() >= 2 && random.once_in(4) {
        wrong.numbers.swap(0, 1);
    }
    for (k, name) in request.call.tables().iter().enumerate() {
        if !is_slot(request.call, name) && random.once_in(8) {
            let length = wrong_length(random, request.tables[k].len().max(1));
            wrong.tables[k].resize(length, 1);
        }
    }
    if random.once_in(4) {
        let length = wrong_length(random, wrong.bytes.len().max(1));
        wrong.bytes.resize(length, 10);
    }
    wrong
}

/// Every call with lengths and sizes that are not the stated ones.
fn lengths(both: &mut Both, sheet: &Sheet, random: &mut Random) -> Same {
    let size = sheet.size;
    let seven = if random.once_in(3) { damaged(random, sheet) } else { naive::draw(size, &sheet.labels) };
    let name = some_name(random, &seven);
    let (a, b) = (some_name(random, &seven), some_name(random, &seven));
    let (owners, editor) = owners_and_editor(random, sheet);
    let text = as_cells(sheet);
    let deck = naive::write(size, &text.labels);
    let number = random.below(5) as u16;
    let written = if random.once_in(2) { sheet } else { &text };
    let requests = [
        level(random, sheet, number),
        draw(random, sheet),
        start(random, sheet, &owners),
        check(random, size, &seven),
        join(random, size, &seven, a, b),
        join_as(random, size, &seven, &owners, [editor, a, b]),
        join_list(random, size, &seven, &[a, b, name, a]),
        count(random, Call::Depth, size, &seven, name),
        count(random, Call::Holes, size, &seven, name),
        counts(random, size, &seven),
        turns(random, size, &seven),
        read(random, deck.clone()),
        write(random, written),
        part_refusal(text.width().min(COLUMNS as u16), deck[CARD..2 * CARD].to_vec()),
    ];
    for request in &requests {
        for wrong in one_length_wrong(random, request) {
            both.same(wrong)?;
        }
        for _ in 0..6 {
            let wrong = several_wrong(random, request);
            both.same(wrong)?;
        }
    }
    Ok(())
}

// ---------------------------------------------------------------------------------------------------------------------
// Decks

/// The sheet with its labels brought among the cells of a card.
fn as_cells(sheet: &Sheet) -> Sheet {
    sheet.relabelled(|label| 33 + label % 94)
}

/// A byte that is worth trying in a card.
fn some_byte(random: &mut Random) -> u8 {
    match random.below(3) {
        0 => random.word() as u8,
        1 => 33 + random.below(94) as u8,
        _ => random.one_of(&[0, 9, 10, 13, 31, 32, 33, 47, 48, 49, 57, 58, 126, 127, 128, 160, 255]),
    }
}

/// A number to put in a header: near a limit, or near how many cards or rows there are.
fn some_size(random: &mut Random, cards: usize) -> usize {
    let near = [cards, cards - cards.min(1), cards + 1, cards / 2];
    random.one_of(&[&[0, 1, 2, 10, 71, 72, 73, 74, 99, 100, 109, 110, 111, 112, 172, 999], &near[..]].concat())
}

/// Puts bytes at a place of a deck, where it is so long.
fn replace(deck: &mut [u8], at: usize, bytes: &str) {
    if let Some(old) = deck.get_mut(at..at + bytes.len()) {
        old.copy_from_slice(bytes.as_bytes());
    }
}

/// A deck changed in one way.
fn changed(random: &mut Random, deck: &[u8]) -> Vec<u8> {
    let mut deck = deck.to_vec();
    if deck.is_empty() {
        return vec![some_byte(random)];
    }
    let cards = deck.len() / CARD;
    let one = CARD * random.below(cards.max(1));
    let two = CARD * random.below(cards.max(1));
    match random.below(15) {
        0..=2 => {
            let k = random.below(deck.len());
            deck[k] = some_byte(random);
        }
        3 => {
            let k = random.below(deck.len().min(12));
            deck[k] = some_byte(random);
        }
        4 => {
            let number = some_size(random, cards);
            let (at, digits) = random.one_of(&[(6, 2), (8, 2), (6, 3), (9, 2)]);
            replace(&mut deck, at, &format!("{:0digits$}", number % 10usize.pow(digits as u32)));
        }
        5 => deck.truncate(random.below(deck.len())),
        6 => deck.truncate(one),
        7 => {
            let more = 1 + random.below(2 * CARD);
            deck.extend((0..more).map(|_| some_byte(random)));
        }
        8 => deck.push(random.one_of(&[10, 32, 0, 48])),
        9 => {
            for k in 0..CARD {
                if one + k < deck.len() && two + k < deck.len() {
                    deck.swap(one + k, two + k);
                }
            }
        }
        10 => {
            let end = (one + CARD).min(deck.len());
            deck.drain(one..end);
        }
        11 => {
            let copy = deck[two..(two + CARD).min(deck.len())].to_vec();
            deck.splice(one..one, copy);
        }
        12 => {
            let k = random.below(deck.len());
            deck.remove(k);
        }
        13 => {
            let (width, height) = (some_size(random, cards), some_size(random, cards) % 100);
            let forms = [format!("SHEET {:02}{height:02} ", width % 100), format!("SHEET2{width:03}{height:02}")];
            replace(&mut deck, 0, &forms[random.below(2)]);
        }
        _ => {
            let k = random.below(deck.len());
            deck.insert(k, some_byte(random));
        }
    }
    deck
}

/// Writing, reading what was written, and reading decks changed in one or two ways.
fn decks(both: &mut Both, sheet: &Sheet, random: &mut Random) -> Same {
    both.same(write(random, sheet))?;
    let mut text = as_cells(sheet);
    let deck = both.same(write(random, &text))?.bytes;
    both.same(read(random, deck.clone()))?;
    let k = random.below(text.labels.len());
    text.labels[k] = random.one_of(&[0, 10, 32, 33, 126, 127, 255, 256 + 65, 65535, 65535 - 190]);
    both.same(write(random, &text))?;
    for _ in 0..12 {
        let mut damaged = changed(random, &deck);
        if random.once_in(2) {
            damaged = changed(random, &damaged);
        }
        both.same(read(random, damaged.clone()))?;
        let width = random.one_of(&[0, 1, 2, 38, 71, 72, 73, 110, 111, 255, 257, 65535, sheet.width()]);
        let start = CARD * random.below(damaged.len() / CARD + 1);
        let end = (start + random.one_of(&[CARD, CARD, CARD - 1, CARD + 1])).min(damaged.len());
        both.same(part_refusal(width, damaged[start..end].to_vec()))?;
    }
    both.same(read(random, vec![]))?;
    Ok(())
}

/// Every byte of a deck changed, and the deck cut at every place.
fn deck_bytes(both: &mut Both, sheet: &Sheet, random: &mut Random) -> Same {
    let deck = naive::write(sheet.size, &as_cells(sheet).labels);
    for k in 0..deck.len() {
        for byte in [some_byte(random), deck[k] ^ 1, b' ', b'\n', b'A'] {
            let mut changed = deck.clone();
            changed[k] = byte;
            both.same(read(random, changed))?;
        }
        both.same(read(random, deck[..k].to_vec()))?;
    }
    Ok(())
}
