//! Times the library and the reference implementation on the same workloads, in turn, and prints medians and ratios.
//!
//!     benchmarks [SAMPLES [WORD]]
//!
//! With a word: only the workloads whose names have it.

use std::hint::black_box;
use std::time::Duration;

use bench::calls::Engine;
use bench::clock::thread_time;
use bench::ffi::LIBRARY;
use bench::reference::ENGINE;
use bench::stack;
use bench::workloads::{self, Size, Workload};

/// A sample repeats its workload until it takes about this long.
const SAMPLE: Duration = Duration::from_millis(1);

/// Medians over all samples.
struct Medians {
    /// Microseconds of the library and of the reference implementation.
    library: f64,
    reference: f64,
    /// Of two samples taken side by side.
    ratio: f64,
}

fn time(workload: &mut workloads::Prepared, engine: &Engine, times: usize) -> Duration {
    let before = thread_time();
    for _ in 0..times {
        black_box(workload.perform(black_box(engine)));
    }
    thread_time() - before
}

fn median(mut samples: Vec<f64>) -> f64 {
    samples.sort_by(f64::total_cmp);
    samples[samples.len() / 2]
}

fn measure(workload: &Workload, samples: usize) -> Medians {
    let mut prepared = workload.prepare();
    let results = [&LIBRARY, &ENGINE].map(|engine| prepared.perform(engine));
    assert_eq!(results[0], results[1], "{}: results differ", workload.name);
    let once = time(&mut prepared, &LIBRARY, 3).max(time(&mut prepared, &ENGINE, 3)) / 3;
    let times = (SAMPLE.as_nanos() / once.as_nanos().max(1)).clamp(1, 100_000) as usize;
    let mut sample = |engine| time(&mut prepared, engine, times).as_secs_f64() * 1e6 / times as f64;
    let (mut library, mut reference, mut ratios) = (Vec::new(), Vec::new(), Vec::new());
    for turn in 0..samples {
        // Side by side, and each goes first every other time.
        let (one, two) = if turn % 2 == 0 {
            let one = sample(&LIBRARY);
            (one, sample(&ENGINE))
        } else {
            let two = sample(&ENGINE);
            (sample(&LIBRARY), two)
        };
        library.push(one);
        reference.push(two);
        ratios.push(one / two);
    }
    Medians {
        library: median(library),
        reference: median(reference),
        ratio: median(ratios),
    }
}

fn stack_bytes(workload: &Workload, engine: &Engine) -> usize {
    let mut prepared = workload.prepare();
    stack::bytes_taken(&mut || {
        black_box(prepared.perform(engine));
    })
}

fn main() {
    let mut arguments = std::env::args().skip(1);
    let samples = arguments
        .next()
        .map_or(61, |word| word.parse().expect("a number of samples"));
    let word = arguments.next().unwrap_or_default();
    let chosen = |workloads: Vec<Workload>| -> Vec<Workload> {
        let workloads = workloads.into_iter();
        workloads
            .filter(|workload| workload.name.contains(&word))
            .collect()
    };

    print_ratios(&chosen(workloads::all()), samples);
    for size in Size::ALL {
        let print = |what: &str, workloads| {
            let what = format!("{what}, {} models", size.name());
            print_stacks(&what, &chosen(workloads));
        };
        print("runs that nest", workloads::deep_runs(size));
        print("calls that change no run", workloads::sized_readings(size));
        print("texts that nest", workloads::nested_texts(size));
        print("joins that nest", workloads::deep_joins(size));
        print(
            "windows whose expressions nest",
            workloads::deep_windows(size),
        );
    }
    let growing = workloads::growing().into_iter();
    let growing: Vec<(&str, Vec<Workload>)> = growing
        .map(|(grows, workloads)| (grows, chosen(workloads)))
        .collect();
    print_growth(&growing, samples);
    print_lengths(&chosen(workloads::windows()), samples);
}

/// Times, their ratio and the stack of each workload.
fn print_ratios(workloads: &[Workload], samples: usize) {
    let (library, reference) = (LIBRARY.name, ENGINE.name);
    println!("Medians of {samples} samples, microseconds of processor time; bytes of stack of the deepest call.\n");
    println!(
        "| workload | {library} µs | {reference} µs | {library}/{reference} | {library} stack | {reference} stack |"
    );
    println!("|---|---:|---:|---:|---:|---:|");
    let mut highest: f64 = 0.0;
    for workload in workloads {
        let medians = measure(workload, samples);
        highest = highest.max(medians.ratio);
        println!(
            "| {} | {:.1} | {:.1} | {:.2} | {} | {} |",
            workload.name,
            medians.library,
            medians.reference,
            medians.ratio,
            stack_bytes(workload, &LIBRARY),
            stack_bytes(workload, &ENGINE),
        );
    }
    println!("\nHighest ratio: {highest:.2}\n");
}

/// The stack of each workload, and the most that the library takes.
fn print_stacks(what: &str, workloads: &[Workload]) {
    let (library, reference) = (LIBRARY.name, ENGINE.name);
    println!("Bytes of stack of {what}.\n");
    println!("| workload | {library} stack | {reference} stack |");
    println!("|---|---:|---:|");
    let mut most = 0;
    for workload in workloads {
        let mut prepared = workload.prepare();
        let results = [&LIBRARY, &ENGINE].map(|engine| prepared.perform(engine));
        assert_eq!(results[0], results[1], "{}: results differ", workload.name);
        let [one, two] = [&LIBRARY, &ENGINE].map(|engine| stack_bytes(workload, engine));
        most = most.max(one);
        println!("| {} | {one} | {two} |", workload.name);
    }
    println!("\nMost: {most}\n");
}

/// How the times of workloads of growing size grow.
fn print_growth(growing: &[(&str, Vec<Workload>)], samples: usize) {
    let (library, reference) = (LIBRARY.name, ENGINE.name);
    println!("How the costs grow; the factor is to the line before.\n");
    println!("| grows | workload | {library} µs | factor | {reference} µs | factor | {library}/{reference} |");
    println!("|---|---|---:|---:|---:|---:|---:|");
    for (grows, workloads) in growing {
        let mut before: Option<Medians> = None;
        for workload in workloads {
            let medians = measure(workload, samples);
            let factor = |now: f64, before: Option<f64>| {
                before.map_or(String::new(), |before| format!("{:.2}", now / before))
            };
            println!(
                "| {grows} | {} | {:.1} | {} | {:.1} | {} | {:.2} |",
                workload.name,
                medians.library,
                factor(medians.library, before.as_ref().map(|b| b.library)),
                medians.reference,
                factor(medians.reference, before.as_ref().map(|b| b.reference)),
                medians.ratio,
            );
            before = Some(medians);
        }
    }
}

/// The times of windows by those of the shortest: the median over samples taken side by side.
fn print_lengths(workloads: &[Workload], samples: usize) {
    let names = [LIBRARY.name, ENGINE.name];
    println!("\nWindows by the shortest: near 1 where the time does not depend on the window.\n");
    println!("| workload | {} | {} |", names[0], names[1]);
    println!("|---|---:|---:|");
    let ratios = [&LIBRARY, &ENGINE].map(|engine| {
        let mut prepared: Vec<_> = workloads.iter().map(Workload::prepare).collect();
        let mut ratios = vec![Vec::new(); workloads.len()];
        for _ in 0..samples {
            let times = prepared.iter_mut().map(|each| time(each, engine, 1));
            let times: Vec<f64> = times.map(|each| each.as_secs_f64()).collect();
            for (ratios, time) in ratios.iter_mut().zip(&times) {
                ratios.push(time / times[0]);
            }
        }
        ratios.into_iter().map(median).collect::<Vec<f64>>()
    });
    for (place, workload) in workloads.iter().enumerate() {
        let [library, reference] = [ratios[0][place], ratios[1][place]];
        println!("| {} | {library:.2} | {reference:.2} |", workload.name);
    }
}
