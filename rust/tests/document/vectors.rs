//! The shared vectors, each through the library and through the model.
use crate::cases::{new_run, proof_file};
use crate::model::chain::{draw, leaves_opened, plan, Drawn};
use crate::model::file::{check, code};
use crate::model::tree::{held, size, Labels, ROOT};
use crate::model::{opening, record, run, sha256, unit, writing};
use mastdock::{check_file, digest, digest_blocks, file_size, labels, labels_anew, opening_size, store_size};
use mastdock::{Drawing, Hash, Made, Opening, Rejected, Run, Unit, Writing, MAX_CHAIN, MAX_RECORD};
use std::array;

/// The lines of a file of vectors, as words.
fn lines(text: &str) -> impl Iterator<Item = Vec<&str>> {
    text.lines().filter(|line| !line.starts_with('#') && !line.is_empty()).map(|line| line.split(' ').collect())
}

/// Bytes in hex, `-` if there are none.
fn hex(word: &str) -> Vec<u8> {
    match word {
        "-" => vec![],
        word => (0..word.len()).step_by(2).map(|i| u8::from_str_radix(&word[i..i + 2], 16).unwrap()).collect(),
    }
}

fn label(word: &str) -> [u8; 32] {
    hex(word).try_into().unwrap()
}

fn number(word: &str) -> u64 {
    word.parse().unwrap()
}

/// Runs all of them. Gives their number.
pub fn run() -> usize {
    let labelled = digests() + blocks() + roots() + records() + deep_records();
    labelled + units() + units_refused() + files() + old_files() + checks() + chains() + plans()
}

/// Files of vectors of both editions: of edition 1 those that stood before W-206.
const ROOTS: [(u64, &str); 2] =
    [(1, include_str!("../vectors/roots.txt")), (2, include_str!("../vectors/roots-2.txt"))];
const RECORDS: [(u64, &str); 2] =
    [(1, include_str!("../vectors/records.txt")), (2, include_str!("../vectors/records-2.txt"))];
const FILES: [(u64, &str); 2] =
    [(1, include_str!("../vectors/files.txt")), (2, include_str!("../vectors/files-2.txt"))];
/// Those of checks-number.txt are the three of checks.txt whose answer W-206 changed, and others with another edition's number: the answers
/// are those of tests/model.
const CHECKS: [&str; 3] = [
    include_str!("../vectors/checks.txt"),
    include_str!("../vectors/checks-2.txt"),
    include_str!("../vectors/checks-number.txt"),
];

/// The lines of both editions, each with its edition.
fn of_editions(files: [(u64, &'static str); 2]) -> impl Iterator<Item = (u64, Vec<&'static str>)> {
    files.into_iter().flat_map(|(edition, text)| lines(text).map(move |words| (edition, words)))
}

/// `length L, SHA-256 of the L bytes whose i-th, from 0, is (7 i + L) mod 256`
fn digests() -> usize {
    let mut count = 0;
    for words in lines(include_str!("../vectors/sha256.txt")) {
        let (len, expected) = (number(words[0]), label(words[1]));
        let message: Vec<u8> = (0..len).map(|i| (7 * i + len) as u8).collect();
        assert_eq!(digest(&message), Ok(expected));
        assert_eq!(sha256::digest(&message), expected);
        count += 1;
    }
    count
}

/// W-207: a message of so many bytes in one call, where there is room for it, and the end of a state that has taken them.
fn message_blocks(len: u64, blocks: u64) {
    let state = Hash { taken: len, ..Hash::new() };
    assert_eq!((state.finish_blocks().unwrap().blocks, sha256::finish(&state).unwrap().blocks), (blocks, blocks));
    if len <= 65536 {
        let message = vec![7; len as usize];
        assert_eq!(digest_blocks(&message), Ok(sha256::hashed(&message)));
        assert_eq!(sha256::hashed(&message).blocks, blocks);
    }
}

/// A call on a run that has made so many labels, at the smallest and the greatest memory level, in both editions: the order changes no
/// length.
fn run_blocks(n: u64, made: u64, budget: u64, expected: Made) {
    for (edition, m) in [(1, 0), (1, n), (2, 0), (2, n)] {
        let mut store = vec![0; store_size(m).unwrap()];
        let mut run = new_run(edition, &[9; 32], n, m, &store);
        assert_eq!(run.advance(made, &mut store).map(|made| made.labels), Ok(made));
        let (mut model, mut model_store) = (run.clone(), store.clone());
        assert_eq!(run.advance(budget, &mut store), Ok(expected));
        assert_eq!(run::advance(&mut model, budget, &mut model_store), Ok(expected));
    }
}

/// A call on an opening that has made so many labels. What a label costs does not depend on the store.
fn opening_blocks(n: u64, m: u64, leaf: u64, made: u64, budget: u64, expected: Made) {
    for edition in [1, 2] {
        let (store, mut out) = (vec![0; store_size(m).unwrap()], vec![0; opening_size(n).unwrap()]);
        let mut opening = Opening::start(edition, &[9; 32], n, m, leaf, &store, &mut out).unwrap();
        assert_eq!(opening.advance(made, &store, &mut out).map(|made| made.labels), Ok(made));
        let mut model = opening.clone();
        assert_eq!(opening.advance(budget, &store, &mut out), Ok(expected));
        assert_eq!(opening::advance(&mut model, budget, &store, &mut out), Ok(expected));
    }
}

/// W-207: `m, length of a message, blocks`; `r, a run's depth, labels made before the call, budget, labels made in it, blocks of these`;
/// `o, an opening's depth, memory level, leaf, labels made before the call, budget, labels made in it, blocks`
fn blocks() -> usize {
    let mut count = 0;
    for words in lines(include_str!("../vectors/blocks.txt")) {
        let numbers: Vec<u64> = words[1..].iter().map(|word| number(word)).collect();
        match (words[0], &numbers[..]) {
            ("m", &[len, blocks]) => message_blocks(len, blocks),
            ("r", &[n, made, budget, labels, blocks]) => run_blocks(n, made, budget, Made { labels, blocks }),
            ("o", &[n, m, leaf, made, budget, labels, blocks]) => {
                opening_blocks(n, m, leaf, made, budget, Made { labels, blocks })
            }
            _ => panic!("not a line of blocks.txt: {words:?}"),
        }
        count += 1;
    }
    count
}

/// Calls until no label is left to make, and one more: each answers the smaller of the budget and what remains. It ends whatever is
/// answered.
fn by_budgets(mut left: u64, mut call: impl FnMut(u64) -> u64) {
    while left > 0 {
        assert_eq!(call(100), left.min(100));
        left -= left.min(100);
    }
    assert_eq!(call(100), 0);
}

/// A finished run and its store.
fn stamp(edition: u64, statement: &[u8; 32], n: u64, m: u64) -> (Run, Vec<u8>) {
    let mut store = vec![0; store_size(m).unwrap()];
    let mut run = new_run(edition, statement, n, m, &store);
    by_budgets(labels(n).unwrap(), |budget| run.advance(budget, &mut store).unwrap().labels);
    (run, store)
}

/// `report in hex (- if empty), depth, root, memory level, SHA-256 of the whole store at that level`
fn roots() -> usize {
    let mut count = 0;
    for (edition, words) in of_editions(ROOTS) {
        let (n, m, root) = (number(words[1]), number(words[3]), label(words[2]));
        let statement = digest(&hex(words[0])).unwrap();
        let (run, store) = stamp(edition, &statement, n, m);
        assert_eq!((run.root(), digest(&store)), (Some(root), Ok(label(words[4]))));
        let mut model_store = vec![0; run::store_size(m)];
        let mut model = Run { edition, ..run::start(&statement, n, m, &model_store).unwrap() };
        assert_eq!(run::advance(&mut model, u64::MAX, &mut model_store).map(|made| made.labels), Ok(run.made));
        assert!(model == run && model_store == store);
        count += 1;
    }
    count
}

/// The record of a run, by the library, over bytes that held something else.
fn recorded(run: &Run) -> Vec<u8> {
    let mut out = vec![90; MAX_RECORD];
    let size = run.record(&mut out).unwrap();
    out.truncate(size);
    out
}

/// W-201: `statement, depth, memory level, labels made, 0, the record of that run`, whose labels are of its own making; or, for bytes
/// that are no record, `-, 0, 0, 0, the refusal, the bytes (- if none)`
fn records() -> usize {
    let mut count = 0;
    for (edition, words) in of_editions(RECORDS) {
        let (n, m, made, refusal, bytes) =
            (number(words[1]), number(words[2]), number(words[3]), number(words[4]), hex(words[5]));
        count += 1;
        if refusal != 0 {
            assert_eq!(Run::resume(&bytes).map_err(|refused| refused.number()), Err(refusal));
            assert_eq!(record::read(&bytes), Err(refusal));
            continue;
        }
        let mut store = vec![0; store_size(m).unwrap()];
        let mut run = new_run(edition, &label(words[0]), n, m, &store);
        assert_eq!(run.advance(made, &mut store).map(|made| made.labels), Ok(made));
        assert_eq!((recorded(&run), Run::resume(&bytes)), (bytes.clone(), Ok(run.clone())));
        assert_eq!((record::record_of(&run), record::read(&bytes)), (bytes, Ok(run)));
    }
    count
}

/// W-201: `statement, depth, memory level, labels made, number of held labels, SHA-256 of all 1,312 held bytes, the record`
fn deep_records() -> usize {
    let mut count = 0;
    for words in lines(include_str!("../vectors/records-deep.txt")) {
        let (n, m, made, bytes) = (number(words[1]), number(words[2]), number(words[3]), hex(words[6]));
        let run = Run::resume(&bytes).unwrap();
        assert_eq!((run.statement, run.depth, run.memory, run.made), (label(words[0]), n, m, made));
        assert_eq!(run.edition, 1);
        assert_eq!(digest(&run.held), Ok(label(words[5])));
        assert_eq!(held(n, ROOT, made).len() as u64, number(words[4]));
        assert_eq!((recorded(&run), record::record_of(&run)), (bytes.clone(), bytes.clone()));
        assert_eq!(record::read(&bytes), Ok(run));
        count += 1;
    }
    count
}

/// Numbers of several things: `:` parts those of one, `,` the things; `-` if there are none.
fn numbers(word: &str) -> Vec<Vec<u64>> {
    let things = word.split(',').filter(|thing| *thing != "-");
    things.map(|thing| thing.split(':').map(number).collect()).collect()
}

/// A unit of runs with these depths, memory levels and labels made, one of each edition in turn. Of nine runs it has the first eight.
fn unit_of(runs: &[Vec<u64>], last: u64) -> Unit {
    let run = |at: usize| match runs.get(at).map(|numbers| &numbers[..]) {
        Some(&[depth, memory, made]) => {
            let edition = 1 + at as u64 % 2;
            Run { statement: [at as u8; 32], edition, depth, memory, made, held: [0; 1312] }
        }
        _ => Run { statement: [0; 32], edition: 0, depth: 0, memory: 0, made: 0, held: [0; 1312] },
    };
    Unit { count: runs.len() as u64, last, runs: array::from_fn(run) }
}

/// One call through the library and through the model: the refusal or the labels made.
fn unit_call(unit: &mut Unit, budget: u64, store: &mut [u8]) -> Result<u64, u64> {
    let (mut model, mut model_store) = (unit.clone(), store.to_vec());
    let expected = unit::advance(&mut model, budget, &mut model_store).map_err(|refused| refused.number);
    assert_eq!(unit.advance(budget, store).map_err(|refused| refused.number()), expected);
    assert!(*unit == model && store == model_store);
    expected.map(|made| made.labels)
}

/// W-208: `depth:memory level of each run, run served last at first, for each call budget:labels made:served last after it, labels made of
/// each run`
fn units() -> usize {
    let mut count = 0;
    for words in lines(include_str!("../vectors/units.txt")) {
        let runs: Vec<Vec<u64>> = numbers(words[0]).into_iter().map(|run| vec![run[0], run[1], 0]).collect();
        let mut store = vec![0; runs.iter().map(|run| store_size(run[1]).unwrap()).sum()];
        let mut unit = unit_of(&runs, number(words[1]));
        for call in numbers(words[2]) {
            assert_eq!((unit_call(&mut unit, call[0], &mut store), unit.last), (Ok(call[1]), call[2]));
        }
        let made: Vec<Vec<u64>> = unit.runs[..runs.len()].iter().map(|run| vec![run.made]).collect();
        assert_eq!(made, numbers(words[3]));
        count += 1;
    }
    count
}

/// W-208: `depth:memory level:labels made of each run (- if none), run served last, bytes of store lent, the refusal (0 if none) of a call
/// with budget 5`
fn units_refused() -> usize {
    let mut count = 0;
    for words in lines(include_str!("../vectors/units-refused.txt")) {
        let mut unit = unit_of(&numbers(words[0]), number(words[1]));
        let mut store = vec![0; number(words[2]) as usize];
        let answer = unit_call(&mut unit, 5, &mut store);
        assert_eq!(answer, if number(words[3]) == 0 { Ok(5) } else { Err(number(words[3])) });
        count += 1;
    }
    count
}

/// The proof file of a report, by the library.
fn seal(edition: u64, report: &[u8], n: u64, m: u64, t: u64) -> Vec<u8> {
    let (run, store) = stamp(edition, &digest(report).unwrap(), n, m);
    file_over(&run, m, t, &store)
}

/// The file that the library writes over a finished run's store, at this memory level or a lower one.
fn file_over(run: &Run, m: u64, t: u64, store: &[u8]) -> Vec<u8> {
    let (edition, n, root) = (run.edition, run.depth, run.root().unwrap());
    let mut file = vec![0; file_size(n, t).unwrap()];
    let mut writing = Writing::start(edition, &run.statement, &root, n, m, t, store, &mut file).unwrap();
    let anew = t * labels_anew(n, m).unwrap();
    by_budgets(anew, |budget| writing.advance(budget, store, &mut file).unwrap().labels);
    file
}

/// The proof file of a report, by the model's writing over its own store.
fn seal_by_model(labels: &Labels, m: u64, t: u64) -> Vec<u8> {
    let store = labels.store(m);
    let mut file = vec![0; file_size(labels.n, t).unwrap()];
    let (edition, statement, root) = (labels.edition, labels.statement, labels.root());
    let mut writing = writing::start(edition, &statement, &root, labels.n, m, t, &store, &mut file).unwrap();
    while writing::advance(&mut writing, 37, &store, &mut file).unwrap().labels != 0 {}
    file
}

/// `report in hex, depth, challenges, the whole proof file`
fn files() -> usize {
    let mut count = 0;
    for (edition, words) in of_editions(FILES) {
        let (report, n, t, expected) = (hex(words[0]), number(words[1]), number(words[2]), hex(words[3]));
        let labels = Labels::of(edition, sha256::digest(&report), n);
        assert_eq!(proof_file(&labels, t), expected);
        for m in 0..=n {
            assert_eq!(seal(edition, &report, n, m, t), expected);
            assert_eq!(seal_by_model(&labels, m, t), expected);
        }
        count += 1;
    }
    count
}

/// W-209: a file that a unit of level 16 wrote when 20 was the limit (the library of commit 245d2d3, from the empty report) is the
/// model's, over roots.txt's root of that depth, and is accepted; over such a unit's store level 14 writes the same file.
fn old_files() -> usize {
    let (n, t, old) = (16, 2, include_bytes!("../../../crates/program_scenarios/data/level16.proof"));
    let labels = Labels::of(1, sha256::digest(&[]), n);
    let root = lines(include_str!("../vectors/roots.txt"))
        .find(|words| words[..2] == ["-", "16"])
        .map(|words| label(words[2]));
    assert_eq!(root, Some(labels.root()));
    assert_eq!(proof_file(&labels, t), old);
    assert_eq!(check_file(old, &labels.statement, n, t), Ok(()));
    assert_eq!(check(old, &labels.statement, n, t), Ok(()));
    let store = labels.store(16);
    let mut held = [0; 1312];
    held[..32].copy_from_slice(&labels.root());
    let run = Run { statement: labels.statement, edition: 1, depth: n, memory: 16, made: size(n), held };
    for lower in [14, 9, 0] {
        assert!(file_over(&run, lower, t, &store) == old);
    }
    1
}

/// `proof file (- if empty), statement, depth and count wanted, answer as one number`
fn checks() -> usize {
    let mut count = 0;
    for words in CHECKS.into_iter().flat_map(lines) {
        let (file, statement, n, t) = (hex(words[0]), label(words[1]), number(words[2]), number(words[3]));
        assert_eq!(check_file(&file, &statement, n, t).map_or_else(Rejected::code, |()| 0), number(words[4]));
        assert_eq!(code(check(&file, &statement, n, t)), number(words[4]));
        count += 1;
    }
    count
}

/// `report in hex, depth, challenges, length of the file, SHA-256 of the file, length of its chain, SHA-256 of the chain's nodes,
/// each in 8 bytes, big-endian`, all of edition 1
fn chains() -> usize {
    let mut count = 0;
    for words in lines(include_str!("../vectors/chains.txt")) {
        let (report, n, t) = (hex(words[0]), number(words[1]), number(words[2]));
        let file = seal(1, &report, n, 8, t);
        assert_eq!((file.len() as u64, digest(&file)), (number(words[3]), Ok(label(words[4]))));
        let mut planned = [0; MAX_CHAIN];
        let length = mastdock::plan(n, &leaves_opened(&file), &mut planned).unwrap();
        let nodes: Vec<u8> = planned[..length].iter().flat_map(|code| code.to_be_bytes()).collect();
        assert_eq!((length as u64, digest(&nodes)), (number(words[5]), Ok(label(words[6]))));
        let mut drawn = [0; MAX_CHAIN];
        assert_eq!(draw(&file, &digest(&report).unwrap(), n, t, &mut drawn), Drawn::Chain(length as u64));
        assert_eq!(drawn, planned);
        let mut list = [0; MAX_CHAIN];
        assert_eq!(mastdock::draw(&file, &digest(&report).unwrap(), n, t, &mut list), Ok(Drawing::Chain(length)));
        assert_eq!(list, planned);
        count += 1;
    }
    count
}

/// What the planning program prints, over a way to plan.
fn planning(text: &[u8], plan: impl Fn(u64, &[u64], &mut [u64]) -> Result<u64, u64>) -> String {
    let known = text.len() <= 65536 && text.iter().all(|byte| byte.is_ascii_digit() || b" \n".contains(byte));
    let text = String::from_utf8_lossy(text);
    let numbers: Option<Vec<u64>> = text.split_ascii_whitespace().map(|word| word.parse().ok()).collect();
    let (depth, leaves) = match numbers.as_deref() {
        Some([depth, leaves @ ..]) if known => (*depth, leaves),
        _ => return "refused 17\n".to_string(),
    };
    let mut list = [0; MAX_CHAIN];
    match plan(depth, leaves, &mut list) {
        Err(refusal) => format!("refused {refusal}\n"),
        Ok(count) => {
            let mut different = leaves.to_vec();
            different.sort();
            different.dedup();
            let mut lines = format!("depth {depth} leaves {} chain {count}\n", different.len());
            for code in &list[..count as usize] {
                let level = code.ilog2();
                lines += &format!("{level} {}\n", code - (1 << level));
            }
            lines
        }
    }
}

/// `standard input in hex (- if empty), what the planning program prints in hex`: through the library's plan and the model's. Those of
/// plans-none.txt are with W-203.
fn plans() -> usize {
    let library = |n: u64, leaves: &[u64], list: &mut [u64]| {
        mastdock::plan(n, leaves, list).map(|count| count as u64).map_err(|refusal| refusal.number())
    };
    let mut count = 0;
    for words in lines(include_str!("../vectors/plans.txt")).chain(lines(include_str!("../vectors/plans-none.txt"))) {
        let (text, expected) = (hex(words[0]), String::from_utf8(hex(words[1])).unwrap());
        assert_eq!(planning(&text, library), expected);
        assert_eq!(planning(&text, plan), expected);
        count += 1;
    }
    count
}
