//! The verdicts, with the rule and without it, held to a search of another kind: the library's fill, which ignores the rule, is tried on every run in
//! order of length, and the rule is applied to what it fills. So neither the library's search nor its spot mode judges itself here.

use sparse_repairs::damage::Damage;
use sparse_repairs::draws::Draws;
use sparse_repairs::simulation::{damaged, profiles};
use sparse_repairs::verdict::{verdict, Verdict};
use tishwabe::{Profile, Run};

/// The different codewords that runs of this length reach.
fn reached(profile: &Profile, read: &[u8], length: usize) -> Vec<Vec<u8>> {
    let mut out = vec![0; read.len()];
    let mut codewords = Vec::new();
    for start in 0..=read.len() - length {
        if profile.fill_block(read, Run { start, length }, &mut out).is_ok() && !codewords.contains(&out) {
            codewords.push(out.clone());
        }
    }
    codewords
}

fn by_fills(profile: &Profile, written: &[u8], read: &[u8]) -> Verdict {
    let lengths = (0..=profile.limit()).map(|f| (f, reached(profile, read, f)));
    let Some((f, codewords)) = lengths.into_iter().find(|(_, codewords)| !codewords.is_empty()) else {
        return Verdict::Uncorrectable;
    };
    let [codeword] = &codewords[..] else {
        return Verdict::Ambiguous;
    };
    let weight = (0..read.len()).filter(|&i| read[i] != codeword[i]).count();
    let right = codeword == written;
    if f > profile.r() / 2 && weight <= f / 2 {
        Verdict::Sparse { right }
    } else {
        Verdict::Repaired { right }
    }
}

/// So many blocks of each kind; the number of thin ones.
fn compared(profile: &Profile, blocks: u64) -> usize {
    let mut sparse = 0;
    for (row, damage) in (100..).zip(Damage::ALL) {
        for block in 0..blocks {
            let (written, read) = damaged(profile, damage, Draws::new(row, block));
            let found = verdict(profile, &written, &read);
            assert_eq!(found, by_fills(profile, &written, &read), "{damage:?}, block {block}");
            sparse += usize::from(matches!(found, Verdict::Sparse { .. }));
        }
    }
    sparse
}

#[test]
fn verdicts_are_those_of_the_fills() {
    for (profile, blocks) in profiles().iter().zip([40, 60, 4]) {
        assert!(compared(profile, blocks) > 0, "{profile:?}: no thin block");
    }
}

/// An odd r, for which four cells are just more than half.
#[test]
fn verdicts_at_r_7() {
    let profile = Profile::new(60, 7, 1, 6, 1).expect("a profile in range");
    assert!(compared(&profile, 60) > 0);
}

/// The smallest thin run of all: four cells, of which the first and the last are changed; and one changed cell more, which makes it dense.
#[test]
fn four_cells_two_of_them_changed() {
    let profile = &profiles()[0];
    let mut count = 0;
    for block in 0..40 {
        let mut draws = Draws::new(200, block);
        let mut written = vec![0; profile.n()];
        let message = draws.bytes(profile.k());
        profile
            .write_block(&message, &mut written)
            .expect("k bytes and n cells");
        let mut read = written.clone();
        let start = draws.between(0, profile.n() - 4);
        read[start] ^= draws.change();
        read[start + 3] ^= draws.change();
        let sparse = verdict(profile, &written, &read);
        read[start + 1] ^= draws.change();
        let dense = verdict(profile, &written, &read);
        assert!(matches!(sparse, Verdict::Sparse { right: true } | Verdict::Ambiguous));
        assert!(!matches!(dense, Verdict::Sparse { .. }));
        count += usize::from(sparse != Verdict::Ambiguous);
    }
    assert!(count > 0);
}
