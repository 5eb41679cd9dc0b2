//! The figures as text: a table for each profile with every verdict, below it what counting says, and at the end the repairs of all profiles in one table.
//! "Without" and "with" mean the rule on thin repairs; the difference of the two is what it refuses.

use tishwabe::Profile;

use crate::counting::{reached, sparse_reached, sparse_share};
use crate::simulation::{Row, Tally};

const HEAD: &str = "\
| damage | torn | tied | thin | right, without | right, with | wrong, without | wrong, with |
|---|--:|--:|--:|--:|--:|--:|--:|
";

/// The whole text. The rows of a profile stand together, and each profile has the same kinds of damage in the same order.
pub fn text(rows: &[Row]) -> String {
    let groups: Vec<&[Row]> = rows.chunk_by(|a, b| a.profile == b.profile).collect();
    let sections: String = groups.iter().map(|group| section(group)).collect();
    sections + &summary(&groups)
}

/// One profile: its table and its count.
fn section(rows: &[Row]) -> String {
    let profile = &rows[0].profile;
    let lines: String = rows.iter().map(line).collect();
    let blocks = grouped(rows[0].tally.blocks());
    format!(
        "{}, {blocks} blocks of each kind:\n\n{HEAD}{lines}\n{}\n",
        title(profile),
        count(profile)
    )
}

/// The profile's numbers.
pub fn title(profile: &Profile) -> String {
    let [n, r, h, limit] = [profile.n(), profile.r(), profile.h(), profile.limit()];
    format!("n = {n}, r = {r}, h = {h}, L = {limit}")
}

fn line(row: &Row) -> String {
    let t = &row.tally;
    let figures = [
        t.uncorrectable,
        t.ambiguous,
        t.sparse(),
        t.right_without(),
        t.right,
        t.wrong_without(),
        t.wrong,
    ];
    written(row.damage.label(), &figures.map(grouped))
}

/// A line of a table.
fn written(first: &str, cells: &[String]) -> String {
    format!("| {first} | {} |\n", cells.join(" | "))
}

/// By counting: how many runs reach a codeword in a random word, and how many of these are thin.
fn count(profile: &Profile) -> String {
    let limit = profile.limit();
    let all: f64 = (2..=limit).map(|f| reached(profile, f)).sum();
    let shares = (2..=limit).map(|f| (sparse_share(profile, f), f));
    let (most, f) = shares.fold((0.0, 0), |best, next| if next.0 > best.0 { next } else { best });
    format!(
        "By counting, a random word has on average {all:.2e} runs of 2 to L cells that reach a codeword with both ends changed, {:.2e} of them thin. Thin are {:.1e} of the bursts of L cells, and {most:.1e} of those of {f} cells, where it is most.\n",
        sparse_reached(profile),
        sparse_share(profile, limit)
    )
}

/// The repairs of all profiles: wrong and right ones, without and with the rule.
fn summary(groups: &[&[Row]]) -> String {
    let blocks = grouped(groups[0][0].tally.blocks());
    let heads: Vec<String> = groups
        .iter()
        .flat_map(|group| [format!("{}: wrong", title(&group[0].profile)), "right".to_string()])
        .collect();
    let rule = "--:|".repeat(heads.len());
    let lines: String = (0..groups[0].len())
        .map(|i| {
            let cells: Vec<String> = groups.iter().flat_map(|group| repairs(&group[i].tally)).collect();
            written(groups[0][i].damage.label(), &cells)
        })
        .collect();
    format!(
        "Repairs accepted without the rule / with it, of {blocks} blocks:\n\n{}|---|{rule}\n{lines}",
        written("damage", &heads)
    )
}

fn repairs(t: &Tally) -> [String; 2] {
    [(t.wrong_without(), t.wrong), (t.right_without(), t.right)]
        .map(|(without, with)| format!("{} / {}", grouped(without), grouped(with)))
}

/// The number with a comma after every three digits from the right.
pub fn grouped(number: u64) -> String {
    let digits = number.to_string();
    let mut text = String::new();
    for (i, digit) in digits.chars().enumerate() {
        if i > 0 && (digits.len() - i).is_multiple_of(3) {
            text.push(',');
        }
        text.push(digit);
    }
    text
}
