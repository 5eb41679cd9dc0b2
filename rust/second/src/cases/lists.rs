//! Inputs of the lister with their texts.

use super::repairs::{repair_sheets, RepairSheet};

/// Document 01's two, refusals, and the sheets of long and thin repairs.
pub fn lists() -> Vec<(Vec<u8>, String)> {
    let plain = plain().into_iter().map(|(input, text)| (input, text.into()));
    plain.chain(repair_sheets().iter().map(repaired)).collect()
}

/// The profile's five bytes and the sheet. There is no plot on what is accepted.
fn repaired(sheet: &RepairSheet) -> (Vec<u8>, String) {
    let p = &sheet.profile;
    let numbers = [p.n, p.r, p.b, p.limit, p.depth].map(|number| number as u8);
    let text = match sheet.expected {
        Ok(changed) => format!("plot,species,class,count\nmended,{changed}\n"),
        Err((number, block)) => format!("refused,{number},{block}\n"),
    };
    ([&numbers[..], &sheet.cells].concat(), text)
}

/// Document 01's two, then refusals.
fn plain() -> Vec<(Vec<u8>, &'static str)> {
    let sheet = [
        [0xA0, 0x98, 0x0E, 0x00, 0x02, 0x06, 0x40, 0x04],
        [0xF0, 0xD4, 0x09, 0x00, 0x03, 0x05, 0x60, 0x06],
        [0x50, 0x4C, 0x07, 0x00, 0x01, 0x03, 0x20, 0x02],
    ];
    let profile = [3, 2, 0, 1, 8];
    let whole = [&profile[..], &sheet.concat()].concat();
    let erased = [&profile[..], &[0; 8], &sheet[1], &sheet[2]].concat();
    let strict = [&[3, 2, 0, 0, 8], &erased[5..]].concat();
    vec![
        (whole.clone(), "plot,species,class,count\n7,3,32,2\nmended,0\n"),
        (erased, "plot,species,class,count\n7,3,32,2\nmended,7\n"),
        (strict, "refused,3,0\n"),
        (whole[..28].into(), "refused,2,0\n"),
        ([&whole[..], &[0]].concat(), "refused,2,0\n"),
        (profile.into(), "refused,2,0\n"),
        (profile[..4].into(), "refused,1,0\n"),
        (vec![], "refused,1,0\n"),
        ([&[3, 3, 0, 1, 8], &whole[5..]].concat(), "refused,1,0\n"),
        (vec![3, 2, 255, 0, 1], "refused,1,0\n"),
        (vec![4, 3, 0, 2, 1, 8, 14, 0, 0], "refused,4,0\n"),
        (vec![4, 3, 0, 2, 2, 8, 9, 14, 14, 7, 7, 1, 0], "refused,3,1\n"),
        (vec![4, 3, 0, 0, 1, 8, 14, 7, 1], "refused,5,0\n"),
        (vec![4, 3, 0, 0, 2, 0, 8, 0, 14, 0, 7, 0, 1], "refused,5,0\n"),
        (vec![4, 3, 0, 2, 2, 8, 0, 15, 0, 6, 0, 1, 0], "refused,5,0\n"),
        (vec![4, 3, 0, 2, 1, 0, 0, 0, 9], "plot,species,class,count\nmended,1\n"),
        (vec![3, 2, 0, 0, 1, 0, 0, 0], "plot,species,class,count\nmended,0\n"),
    ]
}
