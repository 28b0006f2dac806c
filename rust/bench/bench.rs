// Measures the library, through the drop-in crate, beside three builds of the original crate in one run, as a Markdown table of
// minima, and then things of the library alone beside each other.
//
//     target/bench/bench [WORD..]                     only the things whose name begins with one of the words
//     target/bench/bench --plot FILE                  all of them, and the ratios as a picture (SVG) too
//     target/bench/bench --times N FORM NAME          does one thing so often and measures nothing: for rust/bench/counts.sh
use std::time::Instant;

mod alone;
mod plot;

type Thing = (String, Box<dyn FnMut(u64)>);

const REPETITIONS: u32 = 3000;
const NANOSECONDS_A_REPETITION: f64 = 20_000.0;
const FORMS: [&str; 4] = ["sse", "portable", "native", "port"];
const PORT: usize = 3;

fn things(form: &str) -> Vec<Thing> {
    match form {
        "sse" => crate_sse::things(),
        "portable" => crate_portable::things(),
        "native" => crate_native::things(),
        "port" => crate_port::things().into_iter().chain(alone::things()).collect(),
        _ => panic!("no form {form}"),
    }
}

struct Measured {
    form: usize,
    name: String,
    run: Box<dyn FnMut(u64)>,
    times: u64,
    least: f64,
}

impl Measured {
    fn measure(&mut self) {
        let start = Instant::now();
        (self.run)(self.times);
        self.least = self.least.min(start.elapsed().as_nanos() as f64 / self.times as f64);
    }

    // How often a thing is done in one repetition: long enough for the clock, short enough to miss interruptions.
    fn settle(&mut self) {
        for _ in 0..20 {
            self.measure();
        }
        self.times = ((NANOSECONDS_A_REPETITION / self.least) as u64).max(1);
        self.least = f64::INFINITY;
    }
}

// One thing's least time in each form that has it.
struct Row {
    name: String,
    least: [Option<f64>; 4],
}

impl Row {
    // The library's time as a share of another form's.
    fn beside(&self, form: usize) -> Option<f64> {
        Some(self.least[PORT]? / self.least[form]?)
    }
}

fn measure(words: &[String]) -> Vec<Row> {
    let mut rows: Vec<Row> = Vec::new();
    let mut all: Vec<Measured> = Vec::new();
    for (form, form_name) in FORMS.iter().enumerate() {
        for (name, run) in things(form_name) {
            if !words.is_empty() && !words.iter().any(|word| name.starts_with(word.as_str())) {
                continue;
            }
            if !rows.iter().any(|row| row.name == name) {
                rows.push(Row { name: name.clone(), least: [None; 4] });
            }
            all.push(Measured { form, name, run, times: 1, least: f64::INFINITY });
        }
    }
    // All forms of one thing stand together, so that they are measured close to each other.
    all.sort_by_key(|one| rows.iter().position(|row| row.name == one.name));
    all.iter_mut().for_each(Measured::settle);
    for _ in 0..REPETITIONS {
        all.iter_mut().for_each(Measured::measure);
    }
    for one in &all {
        let row = rows.iter_mut().find(|row| row.name == one.name).expect("each thing has a row");
        row.least[one.form] = Some(one.least);
    }
    rows
}

fn print(rows: &[Row]) {
    let shown = |value: Option<f64>, digits: usize| value.map_or("-".to_string(), |value| format!("{value:.digits$}"));
    println!("| what | SSE file, ns | portable file, ns | SSE file, native, ns | library, ns | beside SSE | beside portable | beside native |");
    println!("|---|---|---|---|---|---|---|---|");
    for row in rows {
        let times = row.least.map(|least| shown(least, 1)).join(" | ");
        let ratios = [0, 1, 2].map(|form| shown(row.beside(form), 2)).join(" | ");
        println!("| {} | {times} | {ratios} |", row.name);
    }
    let least = |name: &str| rows.iter().find(|row| row.name == name).and_then(|row| row.least[PORT]);
    println!("\n| what, of the library | ns | beside | ns | ratio |");
    println!("|---|---|---|---|---|");
    for (name, base) in alone::BESIDE {
        if let (Some(one), Some(other)) = (least(name), least(base)) {
            println!("| {name} | {one:.1} | {base} | {other:.1} | {:.2} |", one / other);
        }
    }
}

// That all forms do the same.
fn assert_equal() {
    let zeros = crate_sse::permuted_zeros();
    for other in [crate_portable::permuted_zeros(), crate_native::permuted_zeros(), crate_port::permuted_zeros()] {
        assert_eq!(zeros, other, "a form permutes otherwise");
    }
    assert_eq!(crate_sse::results(), crate_port::results(), "the library's digests, ciphertexts or tags differ");
    alone::assert_fed_and_back();
}

fn main() {
    let words: Vec<String> = std::env::args().skip(1).collect();
    if words.first().is_some_and(|word| word == "--times") {
        let times = words[1].parse().expect("a number of times");
        // What a form does not have is done by doing nothing.
        things(&words[2]).into_iter().filter(|(name, _)| *name == words[3]).for_each(|(_, mut run)| run(times));
        return;
    }
    assert_equal();
    if words.first().is_some_and(|word| word == "--plot") {
        let rows = measure(&[]);
        print(&rows);
        std::fs::write(&words[1], plot::picture(&rows)).expect("the picture can be written");
        return;
    }
    print(&measure(&words));
}
