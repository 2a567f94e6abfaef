//! Old files, A7: what is rewritten and what is refused, by hand and by random models.

use std::collections::BTreeMap;

use bench::calls::{Arguments, Rewriting};
use bench::example;
use bench::model_gen::{self, OldFile};
use bench::program::{gtsrun, gtswide};
use bench::random::Random;
use bench::reference::{self, Refusal, ENGINE};
use bench::stored::old::widened;
use bench::tree::{Layout, Model, Node};

/// An old file of these sizes S F E T and these nodes.
fn file(sizes: [u16; 4], nodes: &[Node]) -> Vec<u8> {
    Layout::Byte.encode(sizes, nodes)
}

/// The answer to a rewriting, and the bytes written; a refusal leaves everything, and the cells after the new file stay.
fn performed(old: &[u8], before: &Rewriting) -> Result<Vec<u8>, u8> {
    let mut rewriting = before.clone();
    let answer = rewriting.perform(&ENGINE, old);
    assert!(rewriting.intact());
    if answer != 0 {
        assert_eq!(rewriting.differences(before), [""; 0], "answers {answer}");
        return Err(answer);
    }
    let length = rewriting.length.get();
    let rest = |rewriting: &Rewriting| rewriting.out.cells()[length..].to_vec();
    assert_eq!(rest(&rewriting), rest(before));
    Ok(rewriting.written().to_vec())
}

/// The number by which an old file is refused, or 0, with so many cells.
fn answer(old: &[u8], cells: usize) -> u8 {
    performed(old, &Rewriting::new(&vec![77; cells], 9_999)).map_or_else(|number| number, |_| 0)
}

/// What gtswide prints, as text.
fn text(old: &[u8]) -> String {
    String::from_utf8_lossy(&gtswide(&ENGINE, old)).into_owned()
}

/// The scope document's example, as an old file.
fn example() -> Vec<u8> {
    file(example::SIZES, &example::NODES)
}

#[test]
fn example_runs_as_before() {
    let old = example();
    assert_eq!(old[..6], [1, 2, 2, 2, 20, 0]);
    let new = gtswide(&ENGINE, &old);
    assert_eq!(new[..10], [1, 0, 2, 0, 2, 0, 2, 0, 20, 0]);
    assert_eq!(new[10..], old[6..]);
    let output = gtsrun(&ENGINE, &new, b"m\nf 1\nf 0\nf 2\nu\nu");
    let wanted = "ok 3 1 1 1\nm 1 0\nno 23\nok 2 0 1 0\nno 11\nback 1 1 1\nno 22\n";
    assert_eq!(output, wanted);
}

/// An old file is none for any other call, and a new file none for this one.
#[test]
fn layouts_are_told_apart() {
    let old = example();
    let new = widened(&old);
    assert_eq!(gtsrun(&ENGINE, &old, b"m"), "no 3\n");
    assert_eq!(text(&new), "no 3\n");
    assert_eq!(reference::check(&old), Err(Refusal::LengthDiffers));
}

/// The old check's numbers: 1 under 6 bytes, 2 for N above 4,000, 3 for a length that is not 6 + 5 N.
#[test]
fn refusals_of_headers() {
    for length in 0..6 {
        assert_eq!(text(&vec![255; length]), "no 1\n");
    }
    let header = |nodes: u16, length: usize| {
        let [low, high] = nodes.to_le_bytes();
        let mut file = vec![255, 255, 255, 255, low, high];
        file.resize(length, 0);
        text(&file)
    };
    for nodes in [4_001, 12_000, 12_001, 65_535] {
        let fitting = 6 + 5 * usize::from(nodes);
        for length in [6, fitting - 1, fitting, fitting + 1] {
            assert_eq!(header(nodes, length), "no 2\n");
        }
    }
    for length in [6, 7, 10, 20_005, 20_007, 60_006] {
        assert_eq!(header(4_000, length), "no 3\n");
    }
    // S + F is 510, which is no refusal: the first variable is none.
    assert_eq!(header(4_000, 20_006), "no 6\n");
    assert_eq!(header(0, 6), "no 4\n");
}

#[test]
fn refusals_of_nodes() {
    for (sizes, nodes, number) in [
        ([0, 0, 0, 0], &[][..], 4),
        ([0, 0, 0, 0], &[(16, 0), (16, 0)], 8),
        ([0, 0, 0, 0], &[(16, 1)], 7),
        ([0, 0, 0, 0], &[(99, 0)], 6),
        ([0, 0, 0, 0], &[(19, 1); 33], 5),
        ([0, 0, 0, 1], &[(5, 0), (33, 1), (16, 0), (16, 0)], 7),
        ([1, 0, 0, 0], &[(1, 0), (17, 0), (33, 0)], 7),
        ([255, 255, 0, 0], &[(1, 0)], 4),
    ] {
        let old = file(sizes, nodes);
        assert_eq!(text(&old), format!("no {number}\n"));
        // The slice is tried last.
        assert_eq!(answer(&old, 0), number);
    }
}

/// Sizes of 255, and 4,000 nodes.
#[test]
fn largest_old_files() {
    let mut nodes = vec![(1, 0); 510];
    for event in 0..255 {
        nodes.extend([(5, event), (33, 1), (16, 0)]);
    }
    nodes.push((19, 2_724));
    nodes.resize(4_000, (16, 0));
    let old = file([255; 4], &nodes);
    let new = gtswide(&ENGINE, &old);
    assert_eq!(new, widened(&old));
    let sizes = reference::check(&new).expect("accepted").to_array();
    assert_eq!(sizes, [255, 255, 255, 255, 4_000]);
    // One node more, and one byte more: the first 20,007 bytes tell.
    nodes[510 + 765].1 += 1;
    nodes.push((16, 0));
    let more = file([255; 4], &nodes);
    assert_eq!(
        (text(&more), text(&more[..20_007])),
        ("no 2\n".into(), "no 2\n".into())
    );
    let longer = [&old[..], &[0; 40_000]].concat();
    assert_eq!(
        (text(&longer), text(&longer[..20_007])),
        ("no 3\n".into(), "no 3\n".into())
    );
}

/// A slice of exactly the new length is enough, one cell less is 10.
#[test]
fn slices() {
    for old in [example(), file([0, 0, 9, 0], &[(16, 0)])] {
        let length = old.len() + 4;
        for cells in [0, 5, 6, 9, 10, length - 5, length - 4, length - 1] {
            assert_eq!(answer(&old, cells), 10, "{cells} cells");
        }
        for cells in [length, length + 1, 20_010, 100_000] {
            assert_eq!(answer(&old, cells), 0, "{cells} cells");
        }
    }
}

/// The new file is that of the tree; a shuffled model's is that of the shuffled tree, and runs of both are the same.
#[test]
fn random_old_files() {
    let mut random = Random::new(31);
    let mut answers: BTreeMap<u8, usize> = BTreeMap::new();
    let mut largest = 0;
    for _ in 0..12_000 {
        let OldFile { model, file, twin } = model_gen::old_file(&mut random);
        let lent = model_gen::rewriting(&mut random, model.nodes().len());
        let found = performed(&file, &lent);
        *answers
            .entry(found.as_ref().err().copied().unwrap_or(0))
            .or_default() += 1;
        let Some(twin) = twin else {
            // A damaged file that is accepted is one by the new check too.
            assert!(found.is_err() || found.is_ok_and(|new| reference::check(&new).is_ok()));
            continue;
        };
        let is_long_enough = lent.out.cells().len() >= file.len() + 4;
        assert_eq!(found, is_long_enough.then(|| model.encode()).ok_or(10));
        largest = largest.max(model.nodes().len());
        if found.is_ok() {
            let two = performed(&twin, &lent).expect("accepted");
            same_runs(&mut random, &model, [&model.encode(), &two]);
        }
    }
    println!("{answers:?}");
    let met: Vec<u8> = answers.keys().copied().collect();
    assert_eq!(met, [0, 1, 2, 3, 4, 5, 6, 7, 8, 10]);
    assert!(answers.values().all(|&times| times > 10), "{answers:?}");
    assert_eq!(largest, 4_000);
}

/// The same list of calls on a model and on its twin.
fn same_runs(random: &mut Random, model: &Model, files: [&[u8]; 2]) {
    let mut one = model_gen::store(random, model);
    let mut two = one.clone();
    for call in model_gen::calls(random, model) {
        let answer = call.perform(&ENGINE, files[0], &mut one);
        assert_eq!(
            answer,
            call.perform(&ENGINE, files[1], &mut two),
            "{call:?}"
        );
        assert_eq!(one.differences(&two), [""; 0], "{call:?}");
    }
}
