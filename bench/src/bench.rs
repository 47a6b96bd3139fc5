// Times the library's operations against its twin in one process, listing 16 trees against listing one, and building with a veto against building
// without, as one table in Markdown. One row has a limit in milliseconds too. Exit 1 where a limit is not met or an answer differs.

mod boundary;
mod clock;
mod shapes;
mod twin;

use shapes::{body, candidates, collection, fans, looked_at, loosenings, quarrels, shuffle, shuffled, text, triples};
use shapes::{Candidate, Dice, Loosening, Shape, Source, SEED, SHAPES};
use std::hint::black_box;
use std::time::Duration;

const N: usize = 64;
const TABLE: usize = 41_664;
const BODY: usize = 254;
const TEXT: usize = 308;
const LIST: usize = 62;
const ALL: u64 = u64::MAX;
const TWIN_LIMIT: f64 = 1.3;
const ORDER_LIMIT: f64 = 1.5;
const TREES_LIMIT: f64 = 17.0;
const VETO_LIMIT: f64 = 1.05;
const CHECK_GUIDES: [f64; 4] = [10.0, 20.0, 10.0, 50.0];
const LOOSEN_BOUNDS: [Bound; 3] = [Bound::Limit(50.0), Bound::No, Bound::No];
const ROUNDS: usize = 61;
const SAMPLE: Duration = Duration::from_micros(1_000);

// Both builds: from n, a set and a table to a body.
type Builder = fn(usize, u64, &[u8], &mut [u8], &mut [usize]) -> usize;

// One of the two builds of a side.
type Kind = fn(&Side) -> Builder;
const PLAIN: Kind = |side| side.build;
const VETO: Kind = |side| side.veto;

// A candidate loosened by a table: from n, a table and a body to a body and a list of sets.
type Loosener = fn(usize, &[u8], &[u8], &mut [u8], &mut [u64], &mut [usize]) -> usize;

// The operations of one side, the library or the twin. Putting in house order, building over a set, reading a text and writing one go from n and a
// body, a table or a text to a body or a text.
struct Side {
    read: fn(&[u8], &mut [usize]) -> usize,
    list: fn(&[u8], &mut [u8], &mut [usize]) -> usize,
    enter: fn(usize, &[[u8; 3]], &mut [u8], &mut [usize]) -> usize,
    order: fn(usize, &[u8], &mut [u8], &mut [usize]) -> usize,
    build: Builder,
    veto: Builder,
    check: fn(usize, &[u8], &[u8], &mut [usize]) -> usize,
    loosen: Loosener,
    parse: fn(usize, &[u8], &mut [u8], &mut [usize]) -> usize,
    render: fn(usize, &[u8], &mut [u8], &mut [usize]) -> usize,
}

const LIBRARY: Side = Side {
    read: boundary::read,
    list: boundary::list,
    enter: boundary::enter,
    order: boundary::order,
    build: boundary::build,
    veto: boundary::veto,
    check: boundary::check,
    loosen: boundary::loosen,
    parse: boundary::parse,
    render: boundary::render,
};

const TWIN: Side = Side {
    read: twin::read,
    list: twin::list,
    enter: twin::enter,
    order: twin::order,
    build: twin::build,
    veto: twin::veto,
    check: twin::check,
    loosen: twin::loosen,
    parse: twin::parse,
    render: twin::render,
};

// A tree of 64 species, its text, the table of its triplets and fans, these triplets as records, and the collections of the tree once and 16 times.
struct Run {
    name: &'static str,
    tree: Vec<u8>,
    text: Vec<u8>,
    table: Vec<u8>,
    records: Vec<[u8; 3]>,
    one: Vec<u8>,
    sixteen: Vec<u8>,
}

// A record for each triplet of the table. Those of a random tree stand in a random order, the close pair too.
fn records(shape: Shape, table: &[u8], dice: &mut Dice) -> Vec<[u8; 3]> {
    let mut records = Vec::new();
    for ([a, b, c], byte) in triples().zip(table) {
        for (bit, record) in [(1, [a, b, c]), (2, [a, c, b]), (4, [b, c, a])] {
            if byte & bit != 0 {
                records.push(record.map(|s| s as u8));
            }
        }
    }
    if shape == Shape::Random {
        shuffle(&mut records, dice);
        for record in &mut records {
            shuffle(&mut record[..2], dice);
        }
    }
    records
}

fn run(shape: Shape) -> Run {
    let mut dice = Dice(SEED);
    let (name, species) = match shape {
        Shape::Nested => ("nested", (0..N as u8).collect()),
        Shape::Balanced => ("balanced", (0..N as u8).collect()),
        Shape::Random => ("random", shuffled(N as u8, &mut dice)),
    };
    let tree = body(shape, &species, &mut dice);
    let one = collection(N as u8, &[tree.clone()]);
    let sixteen = collection(N as u8, &vec![tree.clone(); 16]);
    let mut table = vec![0; TABLE];
    twin::list(&one, &mut table, &mut []);
    let records = records(shape, &table, &mut dice);
    Run { name, text: text(&tree), tree, table, records, one, sixteen }
}

// ---- answers

// The number, the values and what was lent, after a call on values and lent memory that held something else.
type Told = (usize, [usize; 4], Vec<u8>);

fn told(lent: usize, call: impl FnOnce(&mut [u8], &mut [usize]) -> usize) -> Told {
    let (mut values, mut lent) = ([77; 4], vec![0xa5; lent]);
    (call(&mut lent, &mut values), values, lent)
}

// The tree in house order, with the triples that a build of it looks at as the second value.
fn counted(ordered: &Told, tree: &[u8]) -> Told {
    let mut built = ordered.clone();
    built.1[1] = looked_at(tree);
    built
}

// What one side tells of a run. Every table that is filled has to be the run's own, without the fans where it is entered; every species occurs; and the
// tree built from the table, with a veto too, is the tree in house order, and the triples looked at are as many as its groups ask for; so is the body read from the text, once it is put in house order, and the body read from the text that is written.
fn answers(side: &Side, run: &Run) -> Option<Vec<Told>> {
    let reads = [&run.one, &run.sixteen].map(|bytes| told(0, |_, values| (side.read)(bytes, values)));
    let lists = [&run.one, &run.sixteen].map(|bytes| told(TABLE, |table, values| (side.list)(bytes, table, values)));
    let entered = told(TABLE, |table, values| (side.enter)(N, &run.records, table, values));
    let ordered = told(BODY, |room, values| (side.order)(N, &run.tree, room, values));
    let built = told(BODY, |room, values| (side.build)(N, ALL, &run.table, room, values));
    let vetoed = told(BODY, |room, values| (side.veto)(N, ALL, &run.table, room, values));
    let parsed = told(BODY, |room, values| (side.parse)(N, &run.text, room, values));
    let body = parsed.2.get(..2 * parsed.1[0]).unwrap_or_default();
    let housed = told(BODY, |room, values| (side.order)(N, body, room, values));
    let rendered = told(TEXT, |room, values| (side.render)(N, &run.tree, room, values));
    let written = rendered.2.get(..rendered.1[0]).unwrap_or_default();
    let again = told(BODY, |room, values| (side.parse)(N, written, room, values));
    let triplets: Vec<u8> = run.table.iter().map(|byte| byte & 7).collect();
    let filled = lists.iter().all(|(_, _, table)| *table == run.table) && entered.2 == triplets;
    let occur = reads.iter().chain(&lists).map(|(_, values, _)| values[2]).chain([entered.1[1]]).all(|set| set as u64 == ALL);
    let same = [&housed, &again].into_iter().all(|body| *body == ordered);
    let same = same && [&built, &vetoed].into_iter().all(|body| *body == counted(&ordered, &run.tree));
    let all: Vec<Told> = reads.into_iter().chain(lists).chain([entered, ordered, built, parsed, rendered]).collect();
    (filled && occur && same && all.iter().all(|(number, ..)| *number == 0)).then_some(all)
}

fn checked(side: &Side, candidate: &Candidate) -> Told {
    told(0, |_, values| (side.check)(N, &candidate.table, &candidate.body, values))
}

// The build of this kind has to be the source's own body, once this is put in house order.
fn built(side: &Side, kind: Kind, source: &Source) -> Option<Told> {
    let built = told(BODY, |room, values| kind(side)(N, ALL, &source.table, room, values));
    let ordered = told(BODY, |room, values| (side.order)(N, &source.body, room, values));
    (built == counted(&ordered, &source.body) && built.0 == 0).then_some(built)
}

// The final tree has to be the case's own, once this is put in house order, and the front of the list its dropped sets.
fn loosened(side: &Side, case: &Loosening) -> Option<(Told, Vec<u64>)> {
    let mut list = vec![77; LIST + 2];
    let mut sets = list.clone();
    sets[..case.dropped.len()].copy_from_slice(&case.dropped);
    let loosened = told(BODY, |room, values| (side.loosen)(N, &case.table, &case.body, room, &mut list, values));
    let mut ordered = told(BODY, |room, values| (side.order)(N, &case.tree, room, values));
    ordered.1[1] = case.dropped.len();
    (loosened == ordered && list == sets && loosened.0 == 0).then_some((loosened, list))
}

fn differ(what: &str) -> ! {
    println!("{what}: the library and the twin do not both give the right answer with the same values and bytes");
    std::process::exit(1);
}

// Both sides have to tell the same, and the right thing.
fn agree<T: PartialEq>(what: &str, tell: impl Fn(&Side) -> Option<T>) {
    let wanted = tell(&TWIN);
    if wanted.is_none() || wanted != tell(&LIBRARY) {
        differ(what);
    }
}

fn compare(runs: &[Run], fans: &Source, quarrels: &[Source], candidates: &[Candidate], loosenings: &[Loosening]) {
    for run in runs {
        agree(run.name, |side| answers(side, run));
    }
    for kind in [PLAIN, VETO] {
        agree(fans.name, |side| built(side, kind, fans));
    }
    for quarrel in quarrels {
        agree(quarrel.name, |side| built(side, VETO, quarrel));
    }
    for case in loosenings {
        agree(case.name, |side| loosened(side, case));
    }
    for candidate in candidates {
        let mut values = [77; 4];
        values[..candidate.values.len()].copy_from_slice(candidate.values);
        if [LIBRARY, TWIN].iter().any(|side| checked(side, candidate) != (candidate.number, values, vec![])) {
            differ(candidate.name);
        }
    }
}

// ---- times

fn median(mut xs: Vec<f64>) -> f64 {
    xs.sort_by(f64::total_cmp);
    xs[xs.len() / 2]
}

// The time of some calls.
fn timed(work: &mut impl FnMut(), calls: u32) -> Duration {
    let start = clock::now();
    for _ in 0..calls {
        work();
    }
    clock::now() - start
}

// How many calls take a sample's time, so that the clock does not count.
fn calls_in_a_sample(work: &mut impl FnMut()) -> u32 {
    let mut calls = 1;
    while timed(work, calls) < SAMPLE {
        calls *= 2;
    }
    calls
}

// Times the two alternately, the first to go changing each round: the medians of their times in microseconds, and of the rounds' ratios.
fn compared(mut one: impl FnMut(), mut other: impl FnMut()) -> [f64; 3] {
    let (one_calls, other_calls) = (calls_in_a_sample(&mut one), calls_in_a_sample(&mut other));
    let mut one_time = || timed(&mut one, one_calls).as_secs_f64() * 1e6 / one_calls as f64;
    let mut other_time = || timed(&mut other, other_calls).as_secs_f64() * 1e6 / other_calls as f64;
    let (mut times, mut others, mut ratios) = (Vec::new(), Vec::new(), Vec::new());
    for round in 0..ROUNDS {
        let (x, y);
        if round % 2 == 0 {
            x = one_time();
            y = other_time();
        } else {
            y = other_time();
            x = one_time();
        }
        times.push(x);
        others.push(y);
        ratios.push(x / y);
    }
    [median(times), median(others), median(ratios)]
}

// A time in milliseconds that the library's is held against. A guide is no limit: nothing fails where the time is longer.
enum Bound {
    No,
    Guide(f64),
    Limit(f64),
}

impl Bound {
    // Is a time in microseconds allowed, and what does the table say of it?
    fn allows(self, time: f64) -> (bool, String) {
        let says = |kind: &str, most: f64, within: bool| format!("{kind} {most} ms: {}", if within { "within" } else { "over" });
        match self {
            Bound::No => (true, String::new()),
            Bound::Guide(most) => (true, says("guide", most, time <= most * 1e3)),
            Bound::Limit(most) => (time <= most * 1e3, says("limit", most, time <= most * 1e3)),
        }
    }
}

// The table, whose rows are printed as they come.
struct Table {
    met: bool,
}

impl Table {
    fn head() -> Table {
        println!(
            "| operation | input                                      |  library, us |     twin, us |  ratio | limit | met | guide or limit      | triples looked at | a million, us |"
        );
        println!("|---|---|--:|--:|--:|--:|---|---|--:|--:|");
        Table { met: true }
    }

    // A build has the triples that it looked at, and the library's time for a million of them.
    fn row(&mut self, operation: &str, input: &str, library: f64, twin: &str, ratio: f64, limit: f64, bound: Bound, looked: Option<usize>) {
        let (allowed, bound) = bound.allows(library);
        let triples = looked.map_or(String::new(), |looked| looked.to_string());
        let million = looked.map_or(String::new(), |looked| format!("{:.0}", library * 1e6 / looked as f64));
        let met = ratio <= limit && allowed;
        self.met &= met;
        let verdict = if met { "yes" } else { "NO" };
        println!(
            "| {operation:<9} | {input:<42} | {library:>12.2} | {twin:>12} | {ratio:>6.3} | {limit:>5} | {verdict:<3} | {bound:<19} | {triples:>17} | {million:>13} |"
        );
    }

    // The library against the twin.
    fn twins<W: FnMut()>(&mut self, operation: &str, input: &str, limit: f64, work: impl Fn(&Side) -> W) {
        self.bounded(operation, input, limit, work, Bound::No);
    }

    // The same, with the library's own time held against a bound.
    fn bounded<W: FnMut()>(&mut self, operation: &str, input: &str, limit: f64, work: impl Fn(&Side) -> W, bound: Bound) {
        let [library, twin, ratio] = compared(work(&LIBRARY), work(&TWIN));
        self.row(operation, input, library, &format!("{twin:.2}"), ratio, limit, bound, None);
    }

    // A build of the library against the same of the twin.
    fn builds(&mut self, operation: &str, input: &str, kind: Kind, table: &[u8]) {
        let [library, twin, ratio] = compared(building(kind(&LIBRARY), table), building(kind(&TWIN), table));
        self.row(operation, input, library, &format!("{twin:.2}"), ratio, TWIN_LIMIT, Bound::No, Some(looked(kind, table)));
    }
}

// The triples that the library says it looked at.
fn looked(kind: Kind, table: &[u8]) -> usize {
    let (_, values, _) = told(BODY, |room, values| kind(&LIBRARY)(N, ALL, table, room, values));
    values[1]
}

fn reading<'a>(side: &Side, bytes: &'a [u8]) -> impl FnMut() + 'a {
    let read = side.read;
    let mut values = [0; 4];
    move || {
        black_box(read(black_box(bytes), &mut values));
    }
}

// Filling a table or a room of some bytes.
fn filling<'a>(lent: usize, mut call: impl FnMut(&mut [u8], &mut [usize]) -> usize + 'a) -> impl FnMut() + 'a {
    let mut lent = vec![0; lent];
    let mut values = [0; 4];
    move || {
        black_box(call(&mut lent, &mut values));
        black_box(&lent);
    }
}

fn listing<'a>(side: &Side, bytes: &'a [u8]) -> impl FnMut() + 'a {
    let list = side.list;
    filling(TABLE, move |table, values| list(black_box(bytes), table, values))
}

fn entering<'a>(side: &Side, records: &'a [[u8; 3]]) -> impl FnMut() + 'a {
    let enter = side.enter;
    filling(TABLE, move |table, values| enter(N, black_box(records), table, values))
}

fn ordering<'a>(side: &Side, tree: &'a [u8]) -> impl FnMut() + 'a {
    let order = side.order;
    filling(BODY, move |room, values| order(N, black_box(tree), room, values))
}

fn building<'a>(build: Builder, table: &'a [u8]) -> impl FnMut() + 'a {
    filling(BODY, move |room, values| build(N, black_box(ALL), black_box(table), room, values))
}

fn parsing<'a>(side: &Side, text: &'a [u8]) -> impl FnMut() + 'a {
    let parse = side.parse;
    filling(BODY, move |room, values| parse(N, black_box(text), room, values))
}

fn rendering<'a>(side: &Side, tree: &'a [u8]) -> impl FnMut() + 'a {
    let render = side.render;
    filling(TEXT, move |room, values| render(N, black_box(tree), room, values))
}

fn checking<'a>(side: &Side, candidate: &'a Candidate) -> impl FnMut() + 'a {
    let check = side.check;
    let mut values = [0; 4];
    move || {
        black_box(check(N, black_box(&candidate.table), black_box(&candidate.body), &mut values));
    }
}

fn loosening<'a>(side: &Side, case: &'a Loosening) -> impl FnMut() + 'a {
    let loosen = side.loosen;
    let mut list = [0; LIST];
    filling(BODY, move |room, values| {
        let number = loosen(N, black_box(&case.table), black_box(&case.body), room, &mut list, values);
        black_box(&list);
        number
    })
}

fn main() {
    let runs = SHAPES.map(run);
    let (fans, quarrels, candidates, loosenings) = (fans(), quarrels(), candidates(), loosenings());
    compare(&runs, &fans, &quarrels, &candidates, &loosenings);
    println!("The answers of library and twin are the same. All have 64 species; 16 trees are the same tree 16 times.");
    println!("Medians of {ROUNDS} rounds, the two in turn, in processor time; the ratio is the median of the rounds' ratios.");
    println!();

    let mut table = Table::head();
    for run in &runs {
        table.twins("read", &format!("{}, 1 tree", run.name), TWIN_LIMIT, |side| reading(side, &run.one));
        table.twins("read", &format!("{}, 16 trees", run.name), TWIN_LIMIT, |side| reading(side, &run.sixteen));
    }
    for run in &runs {
        table.twins("list", &format!("{}, 1 tree", run.name), TWIN_LIMIT, |side| listing(side, &run.one));
    }
    for run in &runs {
        let [sixteen, _, ratio] = compared(listing(&LIBRARY, &run.sixteen), listing(&LIBRARY, &run.one));
        table.row("list", &format!("{}, 16 trees; the ratio is to 1 tree", run.name), sixteen, "", ratio, TREES_LIMIT, Bound::No, None);
    }
    for run in &runs {
        table.twins("enter", &format!("{}, {} records", run.name, run.records.len()), TWIN_LIMIT, |side| entering(side, &run.records));
    }
    for run in &runs {
        table.twins("order", run.name, ORDER_LIMIT, |side| ordering(side, &run.tree));
    }
    for (operation, kind) in [("build", PLAIN), ("veto", VETO)] {
        for run in &runs {
            table.builds(operation, &format!("{}, from its own table", run.name), kind, &run.table);
        }
        table.builds(operation, fans.name, kind, &fans.table);
    }
    for quarrel in &quarrels {
        table.builds("veto", quarrel.name, VETO, &quarrel.table);
    }
    // The nested tree takes the most splitting.
    let nested = &runs[0];
    let [vetoed, _, ratio] = compared(building(LIBRARY.veto, &nested.table), building(LIBRARY.build, &nested.table));
    table.row("veto", &format!("{}; the ratio is to the plain build", nested.name), vetoed, "", ratio, VETO_LIMIT, Bound::No, Some(looked(VETO, &nested.table)));
    for (candidate, guide) in candidates.iter().zip(CHECK_GUIDES) {
        table.bounded("check", candidate.name, TWIN_LIMIT, |side| checking(side, candidate), Bound::Guide(guide));
    }
    for (case, bound) in loosenings.iter().zip(LOOSEN_BOUNDS) {
        table.bounded("loosen", case.name, TWIN_LIMIT, |side| loosening(side, case), bound);
    }
    for run in &runs {
        table.twins("parse", &format!("{}, a text of {} bytes", run.name, run.text.len()), TWIN_LIMIT, |side| parsing(side, &run.text));
    }
    for run in &runs {
        table.twins("render", run.name, TWIN_LIMIT, |side| rendering(side, &run.tree));
    }
    println!();
    println!("bench: {}", if table.met { "every limit is met" } else { "a limit is NOT MET" });
    if !table.met {
        std::process::exit(1);
    }
}
