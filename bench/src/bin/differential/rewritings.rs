//! Old files rewritten, and runs of the rewritten models.

use bench::calls::Rewriting;
use bench::ffi::LIBRARY;
use bench::model_gen::{self, OldFile};
use bench::program::gtswide;
use bench::random::Random;
use bench::reference::ENGINE;

use crate::tally::{Tally, REWRITE};
use crate::Pair;

/// A random old file, whole with its twin or damaged; a list of calls on each file that the library writes.
pub fn compare(tally: &mut Tally, random: &mut Random, name: &str) {
    let OldFile { model, file, twin } = model_gen::old_file(random);
    let lent = model_gen::rewriting(random, model.nodes().len());
    let name = format!("{name} rewriting");
    let written = perform(tally, &name, &file, &lent);
    let calls = model_gen::calls(random, &model);
    let store = model_gen::store(random, &model);
    let follow = |tally: &mut Tally, new: &[u8], given: &[u8]| {
        Pair::new(new, given, &store).follow(tally, &name, &calls);
    };
    let Some(twin) = twin else {
        // A damaged file that is accepted.
        if let Some(written) = written {
            follow(tally, &written, &written);
        }
        return;
    };
    // The new file must be that of the tree, and run as it does; so must the twin's.
    let new = model.encode();
    let other = perform(tally, &format!("{name} twin"), &twin, &lent);
    if written.as_ref().is_some_and(|written| *written != new) {
        tally.report(&name, &["the new file is not that of the tree".into()]);
    }
    for given in [written, other].iter().flatten() {
        follow(tally, &new, given);
    }
}

/// What the library wrote, if it accepted the old file; all is compared with the Rust implementation.
pub fn perform(tally: &mut Tally, name: &str, old: &[u8], lent: &Rewriting) -> Option<Vec<u8>> {
    let (answer, found) = crate::compare(tally, REWRITE, name, [old; 2], lent);
    if gtswide(&LIBRARY, old) != gtswide(&ENGINE, old) {
        tally.report(name, &["gtswide prints another text".into()]);
    }
    (answer == 0).then(|| found.written().to_vec())
}
