//! The proved setter: compared with the reference's, and tried on the reference's reader.

use trials::set_lines::{
    compare_setters, lines_come_back, set_by_reference, set_families, set_lines_are_read, SetAfter, SetCall, SetTally,
    BLANK, NEGATIVE, NUMBER,
};
use trials::{all, Count};

pub fn compare_set_lines(count: &mut Count) {
    let mut whole = SetTally::default();
    println!("{}", SetTally::heading());
    for family in set_families() {
        let outcome = compare_setters(&family, &set_by_reference, &set_by_archive).map(|tally| {
            println!("{} {}", tally.row(), family.name);
            whole.add(&tally);
        });
        count.test(outcome.map_err(|difference| format!("first is the reference, second the archive: {difference}")));
    }
    println!("{} all {} calls that set a line", whole.row(), whole.total());
    let rare = whole.rare();
    count.test(if rare.is_empty() { Ok(()) } else { Err(format!("set lines rarer than 1 in 1,000: {rare:?}")) });
}

/// What the archive sets is read by the reference, and what the reference reads is set by the archive.
pub fn try_laws(count: &mut Count) {
    let read: Result<u64, String> =
        set_families().iter().map(|family| set_lines_are_read(family, &set_by_archive)).sum();
    count.test(read.map(|lines| println!("{lines} lines set by the archive are read as their words and fields")));
    let again: Result<u64, _> = all().iter().map(|family| lines_come_back(family, &set_by_archive)).sum();
    let again = again.map(|lines| println!("{lines} lines that are read are set by the archive as they stood"));
    count.test(again.map_err(|difference| format!("first is what is due, second the archive: {difference}")));
}

/// The archive's answer; where every kind is one of the three, the call with fields as a choice leaves the same.
fn set_by_archive(call: &SetCall) -> SetAfter {
    let (line, mut listing) = (call.line as usize, call.listing.clone());
    let [number, place] = archive::set_line_of_kinds(&mut listing, line, &call.word, &call.kinds, &call.numbers);
    if let Some(fields) = fields(call) {
        let mut again = call.listing.clone();
        let set = archive::set_line(&mut again, line, &call.word, fields);
        let refused = set.map_or_else(|refusal| (refusal.number, refusal.place), |()| (0, 0));
        assert_eq!((refused, &again), ((number, place), &listing), "{call}");
    }
    SetAfter { number, place, listing }
}

fn fields(call: &SetCall) -> Option<[archive::Field; 6]> {
    let mut fields = [archive::Field::Blank; 6];
    for (at, field) in fields.iter_mut().enumerate() {
        *field = match (call.kinds[at], call.numbers[at]) {
            (BLANK, _) => archive::Field::Blank,
            (NUMBER, number) => archive::Field::Number(number),
            (NEGATIVE, number) => archive::Field::Negative(number),
            _ => return None,
        };
    }
    Some(fields)
}
