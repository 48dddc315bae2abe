//! What a list of commits must leave.
use crate::answer::Answer;
use crate::call::{hexadecimal, mark};
use crate::commits::ask;
use crate::comparison::Comparison;
use oracle::answers::commits::Case;
use oracle::checks::{is_later, read_image, read_job, runs_of, shows_wrongly};
use oracle::inputs::commits::Model;
use oracle::inputs::Chance;

/// The first image with the last accepted record, if each accepted record is a later one of the
/// one before.
pub fn held_to_demand_3(list: &[(Case, bool)]) -> Option<Case> {
    let accepted = || list.iter().filter(|(_, accepted)| *accepted);
    let records: Vec<_> = accepted()
        .map(|(case, _)| read_job(&case.job).unwrap())
        .collect();
    if !records.windows(2).all(|pair| is_later(&pair[0], &pair[1])) {
        return None;
    }
    let last = accepted().last()?;
    Some(Case {
        image: list[0].0.image.clone(),
        ..last.0.clone()
    })
}

/// Both halves of demand 3 of the image that a list left.
pub fn list_fault(to: &mut Comparison, alone: &Case, left: &[u8]) -> Option<String> {
    let runs = |image: &[u8]| runs_of(read_image(image).unwrap());
    let record = read_job(&alone.job).unwrap();
    let wrong = shows_wrongly(&runs(&alone.image), &runs(left), &record);
    if wrong.is_some() {
        return wrong;
    }
    let Some((one, drawn)) = committed_alone(to, alone) else {
        return Some("the last accepted record alone is refused on the first image".into());
    };
    let pairs = one.iter().zip(left).zip(&drawn);
    let mut kept = pairs.filter(|(_, drawn)| !**drawn);
    if one.len() != left.len() || kept.any(|((one, left), _)| one != left) {
        return Some(format!(
            "the last accepted record alone makes {} of the first image, and the list left {}",
            hexadecimal(&one),
            hexadecimal(left)
        ));
    }
    None
}

/// What the record alone makes of the image, and which of its bytes were drawn: those that
/// differ after another supply, which differs from the first in every byte.
pub fn committed_alone(to: &mut Comparison, alone: &Case) -> Option<(Vec<u8>, Vec<bool>)> {
    let model = Model {
        runs: runs_of(read_image(&alone.image).unwrap()),
        job: read_job(&alone.job).unwrap(),
    };
    let mut case = model.case(&mut Chance(mark(0, &alone.image)), 0);
    let one = ask(to, &case).ok()?;
    case.ids.iter_mut().for_each(|byte| *byte = !*byte);
    let other = ask(to, &case).ok()?;
    let (Answer::Wrote(one), Answer::Wrote(other)) = (one, other) else {
        unreachable!("a commit writes an image");
    };
    let drawn = one.bytes.iter().zip(&other.bytes);
    let drawn = drawn.map(|(one, other)| one != other).collect();
    Some((one.bytes, drawn))
}
