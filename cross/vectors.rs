//! Compares the naive implementation with files of worked vectors: `cross vectors DIR`.
//!
//! One case a line, fields parted by `;`, numbers by blanks. The files, and the fields of each:
//!   levels.txt         W H; labels; level; next; other; side
//!   drawings.txt       W H; labels; five tables; name, depth, regions with this parent, of each region, the outside first
//!   joins.txt          W H; labels; a b a b ..; five tables after the last join
//!   join_refusals.txt  W H; labels; a b; number, 0 for accepted
//!   not_drawings.txt   W H; five tables; 5, or 0 where they are a drawing
//!   decks.txt          bytes in hexadecimal, - for none; 0 W H, or number card; labels of an accepted deck
//! where a drawing is the five tables that it was before request T-01, so the seven without the totals; and those of the
//! requests, in the folder `requests`:
//!   t01_joins.txt        W H; labels; a b a b .., - for none; seven tables after the last join
//!   t01_not_drawings.txt W H; seven tables; 5, or 0 where they are a drawing
//!   t01_lengths.txt      W H; number of labels; lengths of the seven tables; number that drawing answers, with W up to 72
//!   t02_counts.txt       W H; labels; joins as in t01_joins.txt; name depth holes of each region, the outside first
//!   t02_order.txt        W H; seven tables; name; depth: number, value if 0; holes: likewise
//!   t03_decks.txt        as decks.txt
//!   t03_write.txt        W H; labels; length of the lent deck; number; deck, - also where it is long
//!   t03_part.txt         width; card; number; part
//!   t03_joins.txt        as t01_joins.txt
//!   t04_next.txt         present heading; direction, 4 for none
//!   t05_next.txt         present heading; direction and turn, 4 none for none
//!   t05_turns.txt        W H; labels; joins as in t01_joins.txt; dart other right left of each level 3 edge, by its smaller dart
//!   t06_start.txt        W H; number of labels; owners from entry 0 on; number
//!   t06_joins.txt        W H; labels; owners; editor a b of each call; number of each; seven tables after the last
//!   t06_order.txt        W H; seven tables; owners; editor a b; number
//!   t07_point_table.txt  present taken; entry
//!   t07_joins.txt        W H; labels; a b; present taken entry of each point; seven tables after the join
//!   t10_lists.txt        W H; labels; names two by two, - for none; 0, or number place; seven tables after
//!   t10_order.txt        W H; seven tables; names two by two; 0, or number place

use crate::naive::{self, Level, Seven, Size, Turn, Works, MARK};
use crate::request::{drawn, list};
use std::path::Path;

fn numbers(field: &str) -> Vec<u16> {
    field.split_whitespace().filter(|&word| word != "-").map(|word| word.parse().expect("a number")).collect()
}

fn bytes(field: &str) -> Vec<u8> {
    let digits = field.trim().trim_start_matches('-');
    (0..digits.len() / 2).map(|k| u8::from_str_radix(&digits[2 * k..2 * k + 2], 16).expect("a byte")).collect()
}

fn size(field: &[u16]) -> Size {
    Size::new(field[0], field[1]).expect("a size")
}

/// Four work tables of slot length, not yet clear.
fn works(size: Size) -> Works {
    std::array::from_fn(|k| vec![k as u16 + 1; size.slots()])
}

fn clear(works: &Works) -> bool {
    works.iter().flatten().all(|&entry| entry == 0)
}

fn level(fields: &[Vec<u16>]) -> bool {
    let size = size(&fields[0]);
    let expected = Level { next: fields[3].clone(), other: fields[4].clone(), side: fields[5].clone() };
    naive::level(size, &fields[1], fields[2][0]) == expected
}

/// Two numbers of each name, from a list of names with theirs; the mark for a name that is not in the list.
fn by_name(size: Size, list: &[u16]) -> Vec<(u16, u16)> {
    let mut both = vec![(MARK, MARK); size.names()];
    for region in list.chunks(3) {
        both[region[0] as usize] = (region[1], region[2]);
    }
    both
}

/// Depth and holes of each name of a drawing.
fn counted(size: Size, drawing: &Seven) -> Option<Vec<(u16, u16)>> {
    let (mut depths, mut holes) = (vec![7; size.names()], vec![7; size.names()]);
    let mut works = works(size);
    let (width, height) = (size.width as u16, size.height as u16);
    let number = naive::counts_call(width, height, drawing, &mut depths, &mut holes, &mut works);
    (number == 0 && clear(&works)).then(|| depths.into_iter().zip(holes).collect())
}

/// The file counts the regions with one parent, as the paper did before request T-02.
fn drawing(fields: &[Vec<u16>]) -> bool {
    let size = size(&fields[0]);
    let drawn = naive::draw(size, &fields[1]);
    let Some(counts) = counted(size, &drawn) else { return false };
    let inside = |name: usize| drawn.parent.iter().filter(|&&parent| parent as usize == name).count() as u16;
    let regions = counts.iter().enumerate().map(|(name, &(depth, _))| match depth {
        MARK => (MARK, MARK),
        depth => (depth, inside(name)),
    });
    list(drawn.clone())[..5] == fields[2..7] && regions.eq(by_name(size, &fields[7]))
}

/// The drawing of a sheet after some joins, or none where a join is refused.
fn after_joins(fields: &[Vec<u16>]) -> Option<Seven> {
    let size = size(&fields[0]);
    let mut drawing = naive::draw(size, &fields[1]);
    let mut join = |a, b| naive::join_call(fields[0][0], fields[0][1], &mut drawing, a, b, &mut works(size));
    let accepted = fields[2].chunks(2).all(|pair| join(pair[0], pair[1]) == 0);
    accepted.then_some(drawing)
}

/// Depth and holes after some joins, of all names at once and of each.
fn counts(fields: &[Vec<u16>]) -> bool {
    let size = size(&fields[0]);
    let (width, height) = (fields[0][0], fields[0][1]);
    let Some(drawing) = after_joins(fields) else { return false };
    let one = |call: CountCall, name| {
        let mut value = 7;
        (call(width, height, &drawing, name, &mut value, &mut works(size)) == 0).then_some(value)
    };
    let expected = by_name(size, &fields[3]);
    let each = fields[3].chunks(3).all(|region| {
        one(naive::depth_call, region[0]) == Some(region[1]) && one(naive::holes_call, region[0]) == Some(region[2])
    });
    counted(size, &drawing) == Some(expected) && each
}

type CountCall = fn(u16, u16, &Seven, u16, &mut u16, &mut Works) -> u16;

/// The number that each of the two counts answers, and its value; a refusal gives none and writes none.
fn counts_in_order(fields: &[Vec<u16>]) -> bool {
    let drawing = drawn(&fields[1..8]);
    let calls: [(CountCall, &[u16]); 2] = [(naive::depth_call, &fields[9]), (naive::holes_call, &fields[10])];
    calls.into_iter().all(|(call, expected)| {
        let mut value = 7;
        let mut works = works(size(&fields[0]));
        let number = call(fields[0][0], fields[0][1], &drawing, fields[8][0], &mut value, &mut works);
        let answer = if number == 0 { vec![0, value] } else { vec![number] };
        answer == expected && clear(&works) && (number == 0 || value == 7)
    })
}

/// Joins one after another, by the removal rule and afresh. The totals that the rule keeps are those of a recount after each
/// join. The file has so many tables.
fn joins(fields: &[Vec<u16>], tables: usize) -> bool {
    let size = size(&fields[0]);
    let mut drawing = naive::draw(size, &fields[1]);
    let mut works = works(size);
    for pair in fields[2].chunks(2) {
        let removed = naive::joined_by_removal(size, &drawing, pair[0], pair[1]);
        let number = naive::join_call(fields[0][0], fields[0][1], &mut drawing, pair[0], pair[1], &mut works);
        let kept = (removed.cells.clone(), removed.borders.clone());
        if number != 0 || removed != drawing || kept != naive::recounted(size, &removed) {
            return false;
        }
    }
    fields.len() == 3 + tables && list(drawing)[..tables] == fields[3..]
}

fn next_line(fields: &[Vec<u16>]) -> bool {
    naive::next_line(fields[0][0], fields[0][1]).0 == fields[1][0]
}

/// The direction of the next line and the turn into it, the turn as a word.
fn next_turn(line: &str) -> bool {
    let fields: Vec<&str> = line.split(';').collect();
    let lines = numbers(fields[0]);
    let (direction, turn) = naive::next_line(lines[0], lines[1]);
    let word = match turn {
        Turn::Right => "right",
        Turn::Straight => "straight",
        Turn::Left => "left",
        Turn::Back => "back",
        Turn::None => "none",
    };
    fields[1].split_whitespace().eq([direction.to_string().as_str(), word])
}

/// The turns after some joins, at every slot. Those of an edge's larger dart are those of its smaller one exchanged.
fn turns(fields: &[Vec<u16>]) -> bool {
    let size = size(&fields[0]);
    let Some(drawing) = after_joins(fields) else { return false };
    let mut expected = (vec![MARK; size.slots()], vec![MARK; size.slots()]);
    for edge in fields[3].chunks(4) {
        let (dart, other) = (edge[0] as usize, edge[1] as usize);
        if dart > other || drawing.other3[dart] as usize != other {
            return false;
        }
        (expected.0[dart], expected.1[dart]) = (edge[2], edge[3]);
        (expected.0[other], expected.1[other]) = (edge[3], edge[2]);
    }
    let mut turned = (vec![7; size.slots()], vec![7; size.slots()]);
    let mut works = works(size);
    let (right, left) = (&mut turned.0, &mut turned.1);
    naive::turns_call(fields[0][0], fields[0][1], &drawing, right, left, &mut works) == 0
        && turned == expected
        && clear(&works)
}

fn point_table(fields: &[Vec<u16>]) -> bool {
    naive::point_table(fields[0][0], fields[0][1]) == fields[1][0]
}

/// The entry read at each point, and the tables after the join.
fn join_by_points(fields: &[Vec<u16>]) -> bool {
    let size = size(&fields[0]);
    let drawing = naive::draw(size, &fields[1]);
    let [a, b] = fields[2][..] else { return false };
    let becoming = (0..size.points()).flat_map(|point| naive::what_becomes(size, &drawing, a, b, point));
    becoming.eq(fields[3].iter().copied()) && naive::joined_by_removal(size, &drawing, a, b) == drawn(&fields[4..11])
}

fn join_refusal(fields: &[Vec<u16>]) -> bool {
    let size = size(&fields[0]);
    let mut drawing = naive::draw(size, &fields[1]);
    let [a, b] = fields[2][..] else { return false };
    naive::join_call(fields[0][0], fields[0][1], &mut drawing, a, b, &mut works(size)) == fields[3][0]
}

/// The number that a start answers. It leaves the drawing of the sheet, or where it is refused the tables.
fn start(fields: &[Vec<u16>]) -> bool {
    let [width, height] = fields[0][..] else { return false };
    let labels: Vec<u16> = (0..fields[1][0]).map(|cell| cell / 2).collect();
    let size = Size::new(width, height);
    let (slots, names) = size.map_or((0, 0), |size| (size.slots(), size.names()));
    let lent = [slots, slots, slots, slots, names, names, names].map(|length| vec![7; length]);
    let mut drawing = drawn(&lent);
    let mut works = std::array::from_fn(|_| vec![7; slots]);
    let number = naive::start_call(width, height, &labels, &fields[2], &mut drawing, &mut works);
    let kept = if number == 0 { drawing == naive::draw(size.expect("a size"), &labels) } else { list(drawing) == lent };
    let works_kept = works.iter().flatten().all(|&entry| entry == 7);
    number == fields[3][0] && kept && if (1..=4).contains(&number) { works_kept } else { clear(&works) }
}

/// The number that an editor's join answers, and the tables after it. None where it does not clear the work tables.
fn after_join_as(size: Size, drawing: &Seven, owners: &[u16], call: &[u16]) -> Option<(u16, Seven)> {
    let [editor, a, b] = call[..] else { return None };
    let mut after = drawing.clone();
    let mut works = works(size);
    let (width, height) = (size.width as u16, size.height as u16);
    let number = naive::join_as_call((width, height), &mut after, owners, editor, (a, b), &mut works);
    clear(&works).then_some((number, after))
}

/// The joins of both editors one after another. One that is done is done by the removal rule too; one that is refused leaves the
/// tables.
fn joins_as(fields: &[Vec<u16>]) -> bool {
    let size = size(&fields[0]);
    let (owners, numbers) = (&fields[2], &fields[4]);
    let mut drawing = naive::draw(size, &fields[1]);
    for (call, &expected) in fields[3].chunks(3).zip(numbers) {
        let Some((number, after)) = after_join_as(size, &drawing, owners, call) else { return false };
        let removed = || naive::joined_by_removal(size, &drawing, call[1], call[2]);
        let right = if number == 0 { after == removed() } else { after == drawing };
        if number != expected || !right {
            return false;
        }
        drawing = after;
    }
    fields[3].len() == 3 * numbers.len() && list(drawing) == fields[5..]
}

/// The number that an editor's join answers; a refusal leaves the tables.
fn join_as_in_order(fields: &[Vec<u16>]) -> bool {
    let drawing = drawn(&fields[1..8]);
    let Some((number, after)) = after_join_as(size(&fields[0]), &drawing, &fields[8], &fields[9]) else { return false };
    number == fields[10][0] && (number == 0 || after == drawing)
}

/// What a list of joins answers, with its place where it is refused, and the tables after it. None where it does not clear the
/// work tables, or writes a place when it is done.
fn after_list(fields: &[Vec<u16>], drawing: &Seven, list: &[u16]) -> Option<(Vec<u16>, Seven)> {
    let mut after = drawing.clone();
    let mut place = 7;
    let mut works = works(size(&fields[0]));
    let number = naive::join_list_call(fields[0][0], fields[0][1], &mut after, list, &mut place, &mut works);
    let answer = if number == 0 { vec![0] } else { vec![number, place] };
    (clear(&works) && (number != 0 || place == 7)).then_some((answer, after))
}

/// A list of joins, and the same joins one after another by the removal rule.
fn join_list(fields: &[Vec<u16>]) -> bool {
    let size = size(&fields[0]);
    let drawing = naive::draw(size, &fields[1]);
    let done = match fields[3][..] {
        [0] => fields[2].len() / 2,
        [_, place] => place as usize,
        _ => return false,
    };
    let pairs = fields[2].chunks(2).take(done);
    let removed = pairs.fold(drawing.clone(), |seven, pair| naive::joined_by_removal(size, &seven, pair[0], pair[1]));
    let expected = drawn(&fields[4..11]);
    removed == expected && after_list(fields, &drawing, &fields[2]) == Some((fields[3].clone(), expected))
}

/// What a list of joins answers. One that is refused at its first entry or as a whole leaves the tables.
fn list_in_order(fields: &[Vec<u16>]) -> bool {
    let drawing = drawn(&fields[1..8]);
    let Some((answer, after)) = after_list(fields, &drawing, &fields[8]) else { return false };
    answer == fields[9] && (answer.get(1) != Some(&0) || after == drawing)
}

fn not_drawing(fields: &[Vec<u16>]) -> bool {
    let mut works = works(size(&fields[0]));
    naive::check_call(fields[0][0], fields[0][1], &drawn(&fields[1..8]), &mut works) == fields[8][0] && clear(&works)
}

/// The file's five tables get the totals that belong to their lines, so that a 5 is about the five.
fn not_drawing_of_five(fields: &[Vec<u16>]) -> bool {
    let size = size(&fields[0]);
    let Seven { cells, borders, .. } = naive::draw(size, &naive::names_by_lines(size, &fields[2]));
    not_drawing(&[&fields[..6], &[cells, borders], &fields[6..]].concat())
}

/// The number that drawing answers for a size within the limits, by the lengths of what is lent.
fn number_by_lengths(size: Size, labels: &[u16], lent: &[Vec<u16>]) -> u16 {
    let stated = [[size.slots(); 4].as_slice(), &[size.names(); 3]].concat();
    if labels.len() != size.cells() {
        3
    } else if !lent.iter().map(Vec::len).eq(stated) {
        4
    } else {
        0
    }
}

/// The number that drawing answers; a refusal writes nothing. The file refuses each width above 72, as the paper did before
/// request T-03. A width that the request brought is not refused for its size any more, so its 1 is not compared.
fn lengths(fields: &[Vec<u16>]) -> bool {
    let [width, height] = fields[0][..] else { return false };
    let labels = vec![7; fields[1][0] as usize];
    let lent: Vec<Vec<u16>> = fields[2].iter().map(|&length| vec![7; length as usize]).collect();
    let size = Size::new(width, height);
    let expected = match (size, fields[3][0]) {
        (Some(size), 1) if width > 72 => number_by_lengths(size, &labels, &lent),
        (_, number) => number,
    };
    let mut drawing = drawn(&lent);
    let slots = size.map_or(0, Size::slots);
    let mut works = std::array::from_fn(|_| vec![7; slots]);
    let number = naive::draw_call(width, height, &labels, &mut drawing, &mut works);
    number == expected
        && if number == 0 { clear(&works) } else { list(drawing) == lent && works.iter().flatten().all(|&n| n == 7) }
}

fn deck(line: &str) -> bool {
    let fields: Vec<&str> = line.split(';').collect();
    let answer = numbers(fields[1]);
    let deck = bytes(fields[0]);
    match naive::read(&deck) {
        Ok((width, height, labels)) => {
            answer == [0, width, height]
                && labels == numbers(fields[2])
                && naive::write(size(&answer[1..]), &labels) == deck
        }
        Err((number, card)) => answer == [number, card],
    }
}

/// The number that writing answers, and the deck; a refusal writes nothing.
fn written(line: &str) -> bool {
    let fields: Vec<&str> = line.split(';').collect();
    let [size, labels, length, number] = [0, 1, 2, 3].map(|k| numbers(fields[k]));
    let before = vec![7; length[0] as usize];
    let mut deck = before.clone();
    let answer = naive::write_call(size[0], size[1], &labels, &mut deck);
    let expected = bytes(fields[4]);
    answer == number[0] && if answer == 0 { expected.is_empty() || deck == expected } else { deck == before }
}

/// The number that the companion of the part call answers, and the part.
fn part(line: &str) -> bool {
    let fields: Vec<&str> = line.split(';').collect();
    let (width, card) = (numbers(fields[0])[0], bytes(fields[1]));
    let number = naive::part_refusal_call(width, &card);
    let part = if number == 0 { &card[..width as usize] } else { &[] };
    number == numbers(fields[2])[0] && part == bytes(fields[3])
}

/// Runs one file and says how many of its lines agree.
fn file(folder: &Path, name: &str, agrees: impl Fn(&str) -> bool) -> bool {
    let text = std::fs::read_to_string(folder.join(name)).unwrap_or_else(|e| panic!("{name}: {e}"));
    let wrong: Vec<usize> = text.lines().enumerate().filter(|(_, line)| !agrees(line)).map(|(k, _)| k + 1).collect();
    println!("{name}: {} cases, {} differ {:?}", text.lines().count(), wrong.len(), &wrong[..wrong.len().min(5)]);
    wrong.is_empty()
}

pub fn run(folder: &Path) -> bool {
    let fields =
        |agrees: fn(&[Vec<u16>]) -> bool| move |line: &str| agrees(&line.split(';').map(numbers).collect::<Vec<_>>());
    let results = [
        file(folder, "levels.txt", fields(level)),
        file(folder, "drawings.txt", fields(drawing)),
        file(folder, "joins.txt", fields(|line| joins(line, 5))),
        file(folder, "join_refusals.txt", fields(join_refusal)),
        file(folder, "not_drawings.txt", fields(not_drawing_of_five)),
        file(folder, "decks.txt", deck),
        file(folder, "requests/t01_joins.txt", fields(|line| joins(line, 7))),
        file(folder, "requests/t01_not_drawings.txt", fields(not_drawing)),
        file(folder, "requests/t01_lengths.txt", fields(lengths)),
        file(folder, "requests/t02_counts.txt", fields(counts)),
        file(folder, "requests/t02_order.txt", fields(counts_in_order)),
        file(folder, "requests/t03_decks.txt", deck),
        file(folder, "requests/t03_write.txt", written),
        file(folder, "requests/t03_part.txt", part),
        file(folder, "requests/t03_joins.txt", fields(|line| joins(line, 7))),
        file(folder, "requests/t04_next.txt", fields(next_line)),
        file(folder, "requests/t05_next.txt", next_turn),
        file(folder, "requests/t05_turns.txt", fields(turns)),
        file(folder, "requests/t06_start.txt", fields(start)),
        file(folder, "requests/t06_joins.txt", fields(joins_as)),
        file(folder, "requests/t06_order.txt", fields(join_as_in_order)),
        file(folder, "requests/t07_point_table.txt", fields(point_table)),
        file(folder, "requests/t07_joins.txt", fields(join_by_points)),
        file(folder, "requests/t10_lists.txt", fields(join_list)),
        file(folder, "requests/t10_order.txt", fields(list_in_order)),
    ];
    results.iter().all(|&agreed| agreed)
}

/// Prints the drawing of each sheet on standard input, in the fields of t01_joins.txt without the joins.
pub fn expect() -> bool {
    for line in std::io::stdin().lines().map(|line| line.expect("a line")) {
        let fields: Vec<Vec<u16>> = line.split(';').map(numbers).collect();
        let tables = list(naive::draw(size(&fields[0]), &fields[1]));
        let words = |table: &[u16]| table.iter().map(u16::to_string).collect::<Vec<_>>().join(" ");
        let fields: Vec<String> = fields.iter().chain(&tables).map(|field| words(field)).collect();
        println!("{}", fields.join(" ; "));
    }
    true
}
