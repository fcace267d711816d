//! The published Rust and the proved library in one program, on the same inputs. See README.md.
mod bench;
mod bench_checks;
mod case;
mod check;
mod compare;
mod compare_merge;
mod loops;
mod merge;
mod order;
mod parting;
#[allow(dead_code)] // builds and merges alone are compared
#[path = "../../ffi/rust/placer.rs"]
mod placer;
mod published;
mod random;
mod record;
mod record_needed;
mod rules;
mod run;
mod shrink;

const USAGE: &str = "usage: oracle run SECONDS BUILDS MERGES SEED LOW HIGH | oracle loops COUNT SEED MOST |
       oracle rules COUNT SEED LOW HIGH | oracle bench TURNS [checks] | oracle record VECTORS RECORDED";

/// The published traversal calls itself as deep as the graph is.
const STACK: usize = 512 << 20;

fn number(word: &str) -> u64 {
    word.parse().unwrap_or_else(|_| {
        eprintln!("oracle: '{word}' is no number");
        std::process::exit(2)
    })
}

fn height(word: &str) -> u32 {
    number(word).clamp(6, 13) as u32
}

fn work(words: &[String]) -> bool {
    let words: Vec<&str> = words.iter().map(String::as_str).collect();
    match words[..] {
        ["run", seconds, builds, merges, seed, low, high] => {
            run::run(number(seconds), [number(builds), number(merges)], number(seed), height(low), height(high))
        }
        ["loops", count, seed, most] => loops::loops(number(count), number(seed), number(most) as usize),
        ["rules", count, seed, low, high] => rules::rules(number(count), number(seed), height(low), height(high)),
        ["bench", turns] => {
            let turns = number(turns).max(1) as usize;
            bench::bench(turns) && bench_checks::bench(turns)
        }
        ["bench", turns, "checks"] => bench_checks::bench(number(turns).max(1) as usize),
        ["record", vectors, recorded] => record::record(vectors, recorded),
        _ => {
            eprintln!("{USAGE}");
            std::process::exit(2)
        }
    }
}

fn main() {
    std::panic::set_hook(Box::new(|what| {
        if std::thread::current().name() != Some("quiet") || std::env::var_os("ORACLE_LOUD").is_some() {
            eprintln!("{what}");
        }
    }));
    rayon::ThreadPoolBuilder::new().stack_size(STACK).build_global().unwrap();
    let words: Vec<String> = std::env::args().skip(1).collect();
    let worker = std::thread::Builder::new().stack_size(STACK).spawn(move || work(&words)).unwrap();
    let agreed = worker.join().unwrap_or(false);
    std::process::exit(if agreed { 0 } else { 1 });
}
