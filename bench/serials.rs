//! What bench/serials.sh does in Rust.
use gonxebhula::RevocationList;

const ENTRIES: u128 = 100_000;
const QUESTIONS: u128 = 1_000_000;

fn serial(number: u128) -> [u8; 20] {
    let mut octets = [0; 20];
    octets[3] = 4; // 2^130, as serials.py has it
    octets[4..].copy_from_slice(&number.to_be_bytes());
    octets
}

/// The processor time of this process, in seconds.
fn now() -> f64 {
    let stat = std::fs::read_to_string("/proc/self/schedstat").unwrap_or_default();
    let nanoseconds = stat.split(' ').next().and_then(|it| it.parse::<f64>().ok());
    nanoseconds.unwrap_or_default() / 1e9
}

fn timed(what: &str, ask: impl Fn() -> usize) {
    let begin = now();
    let found = ask();
    println!("Rust, {what}: {:.3} s", now() - begin);
    assert_eq!(found as u128, QUESTIONS / 2);
}

fn main() {
    let file = std::env::args().nth(1).expect("serials FILE");
    let list = RevocationList::read(&std::fs::read(file).unwrap()).unwrap();
    let numbers: Vec<_> = (0..QUESTIONS).map(|it| serial(3 * (it % ENTRIES) + it % 2)).collect();
    let count = |answers: Vec<bool>| answers.into_iter().filter(|it| *it).count();
    timed("table and contains", || {
        let table = list.table().unwrap();
        numbers.iter().filter(|it| table.contains(it)).count()
    });
    timed("contains_each", || count(list.contains_each(&numbers).unwrap()));
}
