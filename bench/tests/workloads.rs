//! The timed models are what their names say, and the stored example gives its transcript.

use std::collections::BTreeSet;
use std::path::Path;

use bench::calls::{Arguments, Log};
use bench::guarded::Guarded;
use bench::program::{gtsrun, gtswide, rewritten};
use bench::reference::{self, ENGINE};
use bench::tree::{self, Instr};
use bench::workloads::{self, Size, Work, Workload};

fn rounds(model: &[u8]) -> usize {
    let (mut values, mut marks, mut n) = ([0; 4_000], [0; 3_999], 0);
    reference::start(model, &mut values, &mut marks, &mut n).expect("accepted")
}

/// How deep the deepest node below a transition or the assertion stands.
fn depth(model: &[u8]) -> usize {
    let (_, nodes) = tree::decode(model).expect("a file");
    tree::depths(&nodes).into_iter().max().unwrap_or(0)
}

#[test]
fn sizes_and_rounds() {
    for nodes in [500, 1_000, 2_000, 4_000, 12_000] {
        let model = workloads::large(nodes).encode();
        assert_eq!(reference::check(&model).expect("accepted").nodes, nodes);
        assert_eq!(rounds(&model), 4);
    }
    let sizes = reference::check(&workloads::guards().encode()).expect("accepted");
    assert_eq!(sizes.transitions, 255);
    let sizes = reference::check(&workloads::booleans().encode()).expect("accepted");
    assert_eq!(sizes.to_array(), [255, 255, 0, 0, 511]);
    let inactive = workloads::inactive(4_000);
    assert_eq!((inactive.nodes().len(), inactive.depth()), (4_000, 32));
    assert_eq!(rounds(&inactive.encode()), 3);
}

#[test]
fn chains() {
    for chain in [workloads::chain, workloads::chain_in_order] {
        assert_eq!(rounds(&chain(255, 0).encode()), 256);
        let filled = chain(31, 2_000);
        assert_eq!(
            (filled.nodes().len(), rounds(&filled.encode())),
            (2_000, 32)
        );
    }
    for flows in [31, 255] {
        let model = workloads::one_condition(flows, 4_000);
        assert_eq!(model.nodes().len(), 4_000);
        assert_eq!(rounds(&model.encode()), flows + 1);
        let model = workloads::known_at_once(flows, 4_000);
        assert_eq!((model.nodes().len(), rounds(&model.encode())), (4_000, 2));
    }
    for (flows, nodes) in [(3_999, 0), (499, 11_998)] {
        let model = workloads::flows_alone(flows, nodes);
        assert_eq!(model.nodes().len(), 11_998);
        assert_eq!(rounds(&model.encode()), flows + 1);
    }
    let undecided = workloads::undecided(44, 4_000);
    assert_eq!((undecided.nodes().len(), undecided.depth()), (4_000, 32));
    assert_eq!(rounds(&undecided.encode()), 46);
}

/// The condition beside a chain mentions each flow, and is all that 4,000 nodes leave room for.
#[test]
fn the_condition_mentions_each_flow() {
    let model = workloads::one_condition(255, 0);
    assert_eq!(model.nodes().len(), 4_000);
    let Instr::Block(branches) = &model.assertion else {
        panic!("no block");
    };
    let Some(Instr::When(condition, _)) = branches.last() else {
        panic!("no condition after the chain");
    };
    let nodes = condition.nodes();
    let variables = nodes.iter().filter(|&&(kind, _)| kind == 34);
    let mentioned: BTreeSet<i32> = variables.map(|&(_, variable)| variable).collect();
    assert!(mentioned.into_iter().eq(1..=255));
}

/// All workloads of this size for the stack.
fn for_the_stack(size: Size) -> Vec<Workload> {
    let mut workloads = workloads::deep_runs(size);
    workloads.extend(workloads::sized_readings(size));
    workloads.extend(workloads::nested_texts(size));
    workloads.extend(workloads::deep_joins(size));
    workloads.extend(workloads::deep_windows(size));
    workloads
}

/// Each of them is as large as it may be; a join becomes so, and a rewriting is as large as an old file may be.
#[test]
fn sizes_for_the_stack() {
    for size in Size::ALL {
        for workload in for_the_stack(size) {
            let sizes = match &workload.work {
                Work::Synchronise(..) => sizes_after(&workload),
                _ => reference::check(&workload.model)
                    .expect("accepted")
                    .to_array(),
            };
            let [states, flows, .., nodes] = sizes.map(|size| size as usize);
            let wanted = match (&workload.work, size) {
                (Work::Rewrite(_), Size::Large) => (510, 4_000),
                _ => (size.variables(), size.nodes()),
            };
            assert_eq!((states + flows, nodes), wanted, "{}", workload.name);
        }
        let deep = workloads::deep_runs(size);
        let is_deep = |each: &Workload| depth(&each.model) == 32;
        assert!(deep.iter().all(is_deep));
    }
}

#[test]
fn workloads_repeat() {
    let growing = workloads::growing();
    let growing = growing.iter().flat_map(|(_, workloads)| workloads);
    let nested = Size::ALL.map(for_the_stack);
    let workloads = workloads::all();
    let workloads = workloads
        .iter()
        .chain(growing)
        .chain(nested.iter().flatten());
    for workload in workloads {
        let mut prepared = workload.prepare();
        let first = prepared.perform(&ENGINE);
        assert_eq!(prepared.perform(&ENGINE), first, "{}", workload.name);
    }
}

/// The check of the values ends at the first that is outside.
#[test]
fn values_looked_at() {
    let workloads = workloads::all();
    for (name, looked) in [
        ("first_outside, 510 variables, the second outside", 2),
        ("first_outside, 510 variables, all within", 510),
    ] {
        let mut named = workloads.iter().filter(|workload| workload.name == name);
        let workload = named.next().expect(name);
        assert_eq!(workload.prepare().perform(&ENGINE), looked, "{name}");
    }
}

/// The timed texts are accepted, of 20 to 120 bytes; those for the stack are not too long.
#[test]
fn texts() {
    let (mut kinds, mut parameters) = ([0; 400], [0; 400]);
    for text in workloads::GUARDS {
        let bytes = text.as_bytes();
        let nodes = reference::write_nodes(workloads::COUNTER, bytes, &mut kinds, &mut parameters);
        assert!(nodes.is_ok(), "{text}: {nodes:?}");
        assert!((20..=120).contains(&text.len()), "{text}");
    }
    for workload in Size::ALL.into_iter().flat_map(workloads::nested_texts) {
        let Work::Text(texts) = &workload.work else {
            panic!("{} is no text", workload.name);
        };
        assert!(
            texts.iter().all(|text| text.len() <= 200),
            "{}",
            workload.name
        );
    }
}

/// The file that a join workload writes, as a model's sizes.
fn sizes_after(workload: &Workload) -> [u32; 5] {
    let Work::Synchronise(mandatory, optional) = &workload.work else {
        panic!("{} is no join", workload.name);
    };
    let mut out = [0; 60_010];
    let length = reference::synchronise(&workload.model, mandatory, optional, &mut out);
    let length = length.unwrap_or_else(|refusal| panic!("{}: {refusal:?}", workload.name));
    let sizes = reference::check(&out[..length]).expect("accepted");
    sizes.to_array()
}

/// The timed joins have the sizes of their names.
#[test]
fn joins() {
    let all = workloads::all();
    let joins = all.iter().filter(|each| each.name.contains("synchronise"));
    let sizes: Vec<[u32; 5]> = joins.map(sizes_after).collect();
    assert_eq!(sizes.len(), 3);
    let counter = reference::check(workloads::COUNTER).expect("accepted");
    let transitions = counter.transitions as u32 + 1;
    assert_eq!(sizes[0][3], transitions);
    assert_eq!(sizes[1][4], 4_000);
    assert_eq!(sizes[2], [1, 1, 2, 2, 3_911]);
}

/// A rewritten file is the model's own.
#[test]
fn rewritings() {
    let growing = workloads::growing();
    let growing = growing.iter().flat_map(|(_, workloads)| workloads);
    let all = workloads::all();
    let sized = Size::ALL.map(workloads::sized_readings);
    let mut count = 0;
    for workload in all.iter().chain(growing).chain(sized.iter().flatten()) {
        if let Work::Rewrite(old) = &workload.work {
            assert_eq!(rewritten(&ENGINE, old).as_ref(), Ok(&workload.model));
            count += 1;
        }
    }
    assert_eq!(count, 7);
}

/// The timed logs have 100,000 rows of 14 values; conditions are true or not, numbers fail or not, and the largest
/// values neither rise nor fall throughout.
#[test]
fn windows() {
    let all = workloads::all();
    let logs = all.iter().filter_map(|workload| match &workload.work {
        Work::Windows(log) => Some((workload, log)),
        _ => None,
    });
    let mut windows = Vec::new();
    for (workload, log) in logs {
        let sizes = reference::check(&workload.model).expect("accepted");
        assert_eq!((sizes.variables(), log.rows.cells().len()), (14, 1_400_000));
        for nodes in [log.condition.nodes(), log.number.nodes()] {
            assert!((7..=15).contains(&nodes.kinds.len()));
        }
        windows.push(log.window);
        let mut alone = Log {
            window: 1,
            figures: Guarded::new(&[0; 300_000]),
            ..log.clone()
        };
        assert_eq!(alone.perform(&ENGINE, &workload.model), 0);
        let rows: Vec<&[i32]> = alone.figures.cells().chunks_exact(3).collect();
        let sum = |cell: usize| rows.iter().map(|row| row[cell]).sum::<i32>();
        let rising = rows.windows(2).filter(|pair| pair[0][1] < pair[1][1]);
        assert!((10_000..50_000).contains(&sum(0)), "{} are true", sum(0));
        assert!((90_000..95_000).contains(&sum(2)), "{} are numbers", sum(2));
        assert!((40_000..60_000).contains(&rising.count()));
    }
    assert_eq!(windows, [1, 60, 1_000]);
}

#[test]
fn counter_gives_its_transcript() {
    let folder = Path::new(env!("CARGO_MANIFEST_DIR")).join("../examples/counter");
    let read = |name: &str| std::fs::read(folder.join(name)).expect(name);
    let log = read("log.txt");
    let transcript = String::from_utf8(read("transcript.txt")).expect("text");
    assert_ne!(read("model.gts"), read("reordered/model.gts"));
    for model in ["model.gts", "reordered/model.gts"] {
        assert_eq!(gtsrun(&ENGINE, &read(model), &log), transcript, "{model}");
    }
    assert_eq!(gtswide(&ENGINE, &read("old.gts")), read("model.gts"));
}

/// The second writing of the counter is a shuffle of the first: sorted, both are the same.
#[test]
fn counter_is_reordered_by_exchanges_alone() {
    let folder = Path::new(env!("CARGO_MANIFEST_DIR")).join("../examples/counter");
    let sorted = |name: &str| {
        let file = std::fs::read(folder.join(name)).expect(name);
        tree::sorted(&file).expect("a model file")
    };
    assert_eq!(sorted("model.gts"), sorted("reordered/model.gts"));
}
