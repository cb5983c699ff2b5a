// Times porthwynna_list beside the same algorithm in plain C and in safe Rust, and prints the tables of docs/BENCHMARK.md.
// `once WHO KIND`, by numbers, makes one call at the greatest length and nothing more: valgrind counts its instructions.
#[path = "../rust/tests/reference/fast.rs"]
mod fast;
#[allow(dead_code)]
#[path = "../rust/src/sys.rs"]
mod sys;
mod texts;

use std::hint::black_box;
use std::process::Command;
use std::time::Instant;
use texts::KINDS;

const LENGTHS: [usize; 5] = [1 << 10, 1 << 11, 1 << 12, 1 << 13, LONGEST];
const LONGEST: usize = 1 << 14;
const ROUNDS: usize = 150;
/// Numbers of a report that has room for the blocks of any text of so many bytes: three for each of n times D.
const REPORT: usize = 3 * LONGEST * 14;

/// A list as it is exported: text, work space, report and answer, each a pointer and a length.
type Exported = unsafe extern "C" fn(
    *const u8,
    usize,
    *mut u16,
    usize,
    *mut u16,
    usize,
    *mut u32,
    usize,
) -> u32;

extern "C" {
    fn plain_list(
        text: *const u8,
        text_len: usize,
        work: *mut u16,
        work_len: usize,
        report: *mut u16,
        report_len: usize,
        answer: *mut u32,
        answer_len: usize,
    ) -> u32;
}

type List = fn(&[u8], &mut [u16], &mut [u16], &mut [u32]) -> u32;

fn call(
    exported: Exported,
    text: &[u8],
    work: &mut [u16],
    report: &mut [u16],
    answer: &mut [u32],
) -> u32 {
    // SAFETY: each pointer is a slice's, with its length, and no two slices overlap.
    unsafe {
        exported(
            text.as_ptr(),
            text.len(),
            work.as_mut_ptr(),
            work.len(),
            report.as_mut_ptr(),
            report.len(),
            answer.as_mut_ptr(),
            answer.len(),
        )
    }
}

fn ours(text: &[u8], work: &mut [u16], report: &mut [u16], answer: &mut [u32]) -> u32 {
    call(sys::porthwynna_list, text, work, report, answer)
}

fn plain(text: &[u8], work: &mut [u16], report: &mut [u16], answer: &mut [u32]) -> u32 {
    call(plain_list, text, work, report, answer)
}

/// By its own name in the program, for valgrind.
#[no_mangle]
#[inline(never)]
fn fast_list(text: &[u8], work: &mut [u16], report: &mut [u16], answer: &mut [u32]) -> u32 {
    fast::list(text, work, report, answer)
}

/// Ours, plain C and safe Rust, and the function that valgrind counts.
const LISTS: [(List, &str); 3] = [
    (ours, "porthwynna_list"),
    (plain, "plain_list"),
    (fast_list, "fast_list"),
];

/// A figure for each of the three lists.
type Three = [f64; 3];

fn over_c(figures: &Three) -> f64 {
    figures[0] / figures[1]
}

fn over_rust(figures: &Three) -> f64 {
    figures[0] / figures[2]
}

fn geometric_mean(ratio: fn(&Three) -> f64, all: &[Three]) -> f64 {
    (all.iter().map(|figures| ratio(figures).ln()).sum::<f64>() / all.len() as f64).exp()
}

/// Ends the program unless the three give the same reply, totals, report and work space.
fn check(kind: &str, text: &[u8]) {
    let outcomes = LISTS.map(|(list, _)| {
        let (mut work, mut report, mut answer) =
            (vec![1; 2 * text.len() + 1], vec![1; REPORT], [1; 3]);
        let reply = list(text, &mut work, &mut report, &mut answer);
        (reply, answer, report, work)
    });
    if outcomes[0].0 != 0 || outcomes[0] != outcomes[1] || outcomes[0] != outcomes[2] {
        eprintln!(
            "bench: the lists of {kind} with {} bytes are not the same",
            text.len()
        );
        std::process::exit(1);
    }
}

/// The least time of each list in microseconds, by length and kind. A round goes through all texts, so that a while in which the
/// machine is busy elsewhere spoils no text's figures. It calls the three in turn, more often where the text is shorter.
fn time(texts: &[[Vec<u8>; KINDS.len()]]) -> Vec<[Three; KINDS.len()]> {
    let (mut work, mut report, mut answer) = (vec![1; 2 * LONGEST], vec![1; REPORT], [0; 2]);
    let mut times = vec![[[f64::MAX; 3]; KINDS.len()]; texts.len()];
    for _ in 0..ROUNDS {
        for (text, times) in texts.iter().flatten().zip(times.iter_mut().flatten()) {
            for _ in 0..LONGEST / text.len() {
                for ((list, _), least) in LISTS.iter().zip(times.iter_mut()) {
                    let start = Instant::now();
                    black_box(list(
                        black_box(text),
                        &mut work[..2 * text.len()],
                        &mut report,
                        &mut answer,
                    ));
                    *least = least.min(start.elapsed().as_secs_f64() * 1e6);
                }
            }
        }
    }
    times
}

/// The instructions of one call of each list, or nothing where valgrind can't be run.
fn instructions(kind: usize) -> Option<Three> {
    let mut counts = [0.0; 3];
    for (who, (_, function)) in LISTS.iter().enumerate() {
        let output = Command::new("valgrind")
            .args([
                "--tool=callgrind",
                "--callgrind-out-file=/dev/null",
                &format!("--toggle-collect={function}"),
            ])
            .arg(std::env::current_exe().ok()?)
            .args(["once", &who.to_string(), &kind.to_string()])
            .output()
            .ok()?;
        let said = String::from_utf8_lossy(&output.stderr);
        counts[who] = said
            .lines()
            .find_map(|line| line.split_once("Collected : ")?.1.parse().ok())
            .filter(|&count| count > 0.0)?;
    }
    Some(counts)
}

fn once(who: usize, kind: usize) {
    let text = KINDS[kind].1(LONGEST);
    LISTS[who].0(
        &text,
        &mut vec![1; 2 * LONGEST],
        &mut vec![1; REPORT],
        &mut [0; 2],
    );
}

/// A table of the three lists' figures for each kind, with the geometric means of the ratios.
fn print_table(unit: &str, all: &[Three]) {
    println!("| text | ours, {unit} | C, {unit} | Rust, {unit} | ours/C | ours/Rust |\n|---|--:|--:|--:|--:|--:|");
    for ((kind, _), figures) in KINDS.iter().zip(all) {
        let [ours, c, rust] = figures;
        println!(
            "| {kind} | {ours:.0} | {c:.0} | {rust:.0} | {:.2} | {:.2} |",
            over_c(figures),
            over_rust(figures)
        );
    }
    println!(
        "| geometric mean | | | | {:.2} | {:.2} |\n",
        geometric_mean(over_c, all),
        geometric_mean(over_rust, all)
    );
}

fn print_growth(shortest: &[Three], longest: &[Three]) {
    println!("## Growth\n");
    println!("The time at 16 KiB over the time at 1 KiB. For n log n it is 16 · 14 / 10 = 22.4.\n");
    println!("| text | ours | C | Rust |\n|---|--:|--:|--:|");
    for ((kind, _), (short, long)) in KINDS.iter().zip(shortest.iter().zip(longest)) {
        println!(
            "| {kind} | {:.1} | {:.1} | {:.1} |",
            long[0] / short[0],
            long[1] / short[1],
            long[2] / short[2]
        );
    }
    println!();
}

fn print_instructions() {
    println!("## Instructions\n");
    match (0..KINDS.len())
        .map(instructions)
        .collect::<Option<Vec<Three>>>()
    {
        Some(all) => {
            println!("Of one call at 16 KiB, counted by valgrind's callgrind within the call.\n");
            print_table(
                "thousands",
                &all.iter()
                    .map(|counts| counts.map(|count| count / 1e3))
                    .collect::<Vec<_>>(),
            );
        }
        None => println!("Not counted: there is no valgrind here, or it can't run the program.\n"),
    }
}

/// Ratios are held to the goals as they are printed, with two decimals.
fn print_goals(longest: &[Three]) {
    let rounded = |ratio: f64| (ratio * 100.0).round() / 100.0;
    let yes_or_no = |yes| if yes { "yes" } else { "no" };
    let slower: Vec<String> = KINDS
        .iter()
        .zip(longest)
        .filter(|(_, figures)| rounded(over_rust(figures)) > 1.0)
        .map(|((kind, _), figures)| format!("{kind} {:.2}", over_rust(figures)))
        .collect();
    let mean = geometric_mean(over_c, longest);
    println!("## Goals, at 16 KiB\n");
    print!(
        "- As fast as safe Rust or faster on every kind: {}",
        yes_or_no(slower.is_empty())
    );
    println!(
        "{}.",
        if slower.is_empty() {
            String::new()
        } else {
            format!("; slower on {}", slower.join(", "))
        }
    );
    println!(
        "- Within a quarter of plain C on the mean: {}; ours/C is {mean:.2}.",
        yes_or_no(rounded(mean) <= 1.25)
    );
}

fn main() {
    let arguments: Vec<String> = std::env::args().collect();
    if let [_, _, who, kind] = arguments.as_slice() {
        return once(who.parse().unwrap(), kind.parse().unwrap());
    }
    let texts = LENGTHS.map(|n| KINDS.map(|(_, make)| make(n)));
    for same_length in &texts {
        for ((kind, _), text) in KINDS.iter().zip(same_length) {
            check(kind, text);
        }
    }
    let times = time(&texts);
    println!("## Time\n");
    println!("Microseconds of one call: the least of {ROUNDS} calls at 16 KiB, and of twice as many at each length half as long.\n");
    for (n, times) in LENGTHS.iter().zip(&times) {
        println!("### {} KiB\n", n >> 10);
        print_table("µs", times);
    }
    let all = times.concat();
    println!("### All lengths\n");
    println!(
        "Geometric mean: ours/C {:.2}, ours/Rust {:.2}.\n",
        geometric_mean(over_c, &all),
        geometric_mean(over_rust, &all)
    );
    print_growth(&times[0], &times[LENGTHS.len() - 1]);
    print_instructions();
    print_goals(&times[LENGTHS.len() - 1]);
}
