//! Times the proved browse beside plain Rust and Boost, and compares every row.

mod books;
mod foreign;
mod plain;
mod rows;

use books::Layout;
use foreign::Boost;
use plain::{Chessboard, Euclidean, Manhattan};
use rows::{Point, Row};

const QUERIES: usize = 240;
const REPETITIONS: usize = 9;

type Ask<'a> = Box<dyn FnMut(&mut [Row]) -> usize + 'a>;

fn median(mut times: Vec<f64>) -> f64 {
    times.sort_by(f64::total_cmp);
    times[times.len() / 2]
}

/// The median time of each, in nanoseconds; one after another in each repetition, after one that is not counted.
fn times(asks: &mut [Ask], rows: &mut [Row]) -> Vec<f64> {
    let mut all = vec![Vec::new(); asks.len()];
    for repetition in 0..=REPETITIONS {
        for (ask, times) in asks.iter_mut().zip(&mut all) {
            let start = foreign::nanoseconds();
            std::hint::black_box(ask(rows));
            let took = foreign::nanoseconds() - start;
            if repetition > 0 {
                times.push(took);
            }
        }
    }
    all.into_iter().map(median).collect()
}

/// Boost's rows in the order of all others: its own order among equal distances is turned into that by number.
fn boost_ordered(boost: &Boost, queries: &[Point], each: usize, rows: &mut [Row]) -> Vec<Row> {
    let ends = boost.rows_with_ties(queries, each, rows);
    let mut ordered = Vec::new();
    let mut start = 0;
    for end in ends {
        let of_query = &mut rows[start..end];
        of_query.sort_by_key(|row| (row.distance, row.pick));
        ordered.extend_from_slice(&of_query[..each.min(of_query.len())]);
        start = end;
    }
    ordered
}

fn is_ranked(rows: &[Row]) -> bool {
    rows.windows(2).all(|pair| (pair[0].distance, pair[0].pick) < (pair[1].distance, pair[1].pick))
}

struct Book {
    name: String,
    layout: Layout,
    file: Vec<u8>,
    picks: usize,
}

fn told(rows: &[Row], count: usize) -> Vec<Row> {
    rows[..count].to_vec()
}

/// One line of the table; whether all agree.
fn cell(book: &Book, measure: usize, each: usize) -> bool {
    let file = &book.file[..];
    let queries = &books::queries(&mut books::Chance::new(11), book.layout, QUERIES)[..];
    let boost = Boost::new(file);
    let mut rows = vec![Row::default(); QUERIES * book.picks];
    let (search, scan): (fn(&[u8], &[Point], usize, &mut [Row]) -> usize, fn(&[u8], &[Point], usize, &mut [Row]) -> usize) =
        match measure {
            0 => (plain::search::<Euclidean>, plain::scan::<Euclidean>),
            1 => (plain::search::<Manhattan>, plain::scan::<Manhattan>),
            _ => (plain::search::<Chessboard>, plain::scan::<Chessboard>),
        };
    let mut asks: Vec<Ask> = vec![
        Box::new(|rows| foreign::proved_rows(file, measure, queries, each, rows)),
        Box::new(|rows| search(file, queries, each, rows)),
        Box::new(|rows| scan(file, queries, each, rows)),
    ];
    let mut answers: Vec<Vec<Row>> = Vec::new();
    for ask in &mut asks {
        rows.fill(Row::default());
        let count = ask(&mut rows);
        answers.push(told(&rows, count));
    }
    if measure == 0 {
        answers.push(boost_ordered(&boost, queries, each, &mut rows));
        asks.push(Box::new(|rows| boost.rows(queries, each, rows)));
    }
    let wanted = QUERIES * each.min(book.picks);
    let agree = answers.iter().all(|rows| rows.len() == wanted && *rows == answers[0])
        && answers[0].chunks(each.min(book.picks)).all(is_ranked);
    let times: Vec<f64> = times(&mut asks, &mut rows).iter().map(|time| time / 1e3 / QUERIES as f64).collect();
    let name = ["Euclidean", "Manhattan", "Chessboard"][measure];
    let rows_told = if each < book.picks { "ten" } else { "all" };
    let (boost_time, boost_ratio) = match times.get(3) {
        Some(time) => (format!("{time:.2}"), format!("{:.2}", time / times[0])),
        None => (String::from("-"), String::from("-")),
    };
    println!(
        "| {} | {} | {} | {:.2} | {:.2} | {} | {:.2} | {:.2} | {} | {:.2} |{}",
        book.name, name, rows_told, times[0], times[1], boost_time, times[2], times[1] / times[0], boost_ratio,
        times[2] / times[0], if agree { "" } else { " DISAGREE" }
    );
    agree
}

/// Whether both load the file with the same number of picks, or refuse it by the same number.
fn judged_alike(file: &[u8]) -> bool {
    plain::Book::load(file).map(|(_, picks)| picks) == foreign::proved_picks(file)
}

/// Whether both judge every copy of the file alike in which one byte is another, or some are missing.
fn damaged_alike(file: &[u8]) -> bool {
    let mut chance = books::Chance::new(13);
    (0..2_000).all(|number| {
        let mut copy = file.to_vec();
        let at = chance.between(0, file.len() as i32 - 1) as usize;
        match number % 4 {
            0 => copy.truncate(at),
            1 => copy[at % 600] ^= chance.between(1, 255) as u8,
            _ => copy[at] ^= chance.between(1, 255) as u8,
        }
        judged_alike(&copy)
    })
}

fn load_cell(name: &str, file: &[u8]) -> bool {
    let times_each = 50;
    let agree = judged_alike(file);
    let mut asks: Vec<Ask> = vec![
        Box::new(|_| (0..times_each).map(|_| foreign::proved_picks(std::hint::black_box(file)).unwrap_or(0)).sum()),
        Box::new(|_| {
            (0..times_each).map(|_| plain::Book::load(std::hint::black_box(file)).map_or(0, |(_, picks)| picks)).sum()
        }),
    ];
    let times: Vec<f64> = times(&mut asks, &mut []).iter().map(|time| time / 1e3 / times_each as f64).collect();
    println!(
        "| {name}, {} bytes | {:.1} | {:.1} | {:.2} |{}",
        file.len(), times[0], times[1], times[1] / times[0], if agree { "" } else { " DISAGREE" }
    );
    agree
}

fn main() {
    let layouts = [(Layout::Wells, "wells"), (Layout::Uniform, "uniform"), (Layout::Close, "close")];
    let sizes: [(usize, &[usize]); 3] = [(1920, &[120, 8, 1]), (480, &[30, 2, 1]), (60, &[4, 1])];
    let mut books = Vec::new();
    for (picks, levels) in sizes {
        for (layout, name) in layouts {
            let kinds = if picks == 1920 { 2048 } else { picks };
            let file = books::file(layout, picks, levels, kinds);
            books.push(Book { name: format!("{picks} {name}"), layout, file, picks });
        }
    }
    let mut agree = true;
    println!("| book | measure | rows | proved µs | (a) heap µs | (b) Boost µs | (c) scan µs | a / proved | b / proved | c / proved |");
    println!("| --- | --- | --- | ---: | ---: | ---: | ---: | ---: | ---: | ---: |");
    for book in &books {
        for measure in 0..3 {
            agree &= cell(book, measure, usize::MAX);
            agree &= cell(book, measure, 10);
        }
    }
    println!();
    println!("| load and check | proved µs | plain µs | plain / proved |");
    println!("| --- | ---: | ---: | ---: |");
    let largest = books::file(Layout::Uniform, 1537, &[384, 97, 24, 6, 1], 2048);
    agree &= largest.len() == 57_350;
    agree &= load_cell("the largest lawful file", &largest);
    agree &= damaged_alike(&largest);
    for book in &books[..3] {
        agree &= load_cell(&book.name, &book.file);
    }
    println!();
    println!("{}", if agree { "All agree on every row." } else { "SOMETHING DISAGREES." });
    std::process::exit(if agree { 0 } else { 1 });
}
