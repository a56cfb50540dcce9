//! What is true of every table, whatever its formula, checked on the arrays that the engine wrote.

/// What is wrong with a table, read back as clauses. That none of them is empty needs no check: each has its closing
/// literal. The arrays may be longer than the table.
pub fn wrong(sizes: &[u32], variables: &[u32], marks: &[u8]) -> Option<String> {
    let &[c, k, v, m, l] = sizes.first_chunk()?;
    let literals = || variables.iter().zip(marks).take(l as usize);
    if let Some((variable, mark)) = literals().find(|(variable, mark)| !(1..=v).contains(*variable) || **mark > 3) {
        return Some(format!("a literal has variable {variable} of {v}, mark {mark}"));
    }

    // The clause, from 1, in which each variable stood last.
    let mut stood = vec![0; v as usize + 1];
    let (mut clause, mut closed) = (0, true);
    for (variable, mark) in literals() {
        clause += u32::from(closed);
        closed = mark & 2 != 0;
        let before = std::mem::replace(&mut stood[*variable as usize], clause);
        if before == clause {
            return Some(format!("clause {clause}, counted from 1, has variable {variable} twice"));
        }
    }
    if clause != m || !closed {
        return Some(format!("{clause} clauses of {m}, the last {}", if closed { "closed" } else { "open" }));
    }
    let undefined = (c * k + 1..=v).find(|variable| stood[*variable as usize] == 0);
    undefined.map(|variable| format!("variable {variable} stands in no clause"))
}

/// The values that variables are forced to have, from variable 1, and whether the formula then holds.
#[derive(Debug)]
pub struct Forced {
    pub values: Vec<u8>,
    pub holds: bool,
}

/// What a recording forces the variables and the formula to be, by the table alone: a clause whose fellows are all false makes
/// its last literal true, until nothing changes. Everything but the last clause is a definition, so every variable is decided;
/// the last clause is the formula on the whole recording.
pub fn forced(sizes: &[u32], variables: &[u32], marks: &[u8], recording: &[u8]) -> Result<Forced, String> {
    wrong(sizes, variables, marks).map_or(Ok(()), Err)?;
    let &[c, _, v, _, l] = sizes.first_chunk().ok_or("no sizes")?;
    let mut values = vec![None; v as usize + 1];
    for (t, byte) in recording.iter().enumerate() {
        for channel in 0..c {
            values[1 + t * c as usize + channel as usize] = Some(byte >> channel & 1 == 1);
        }
    }
    let literals: Vec<(u32, u8)> = std::iter::zip(variables, marks).map(|(v, m)| (*v, *m)).take(l as usize).collect();
    let mut clauses: Vec<_> = literals.split_inclusive(|(_, mark)| mark & 2 != 0).collect();
    let last = clauses.pop().ok_or("no clauses")?;
    // The parts of a node come after it.
    clauses.reverse();
    while step(&clauses, &mut values)? {}
    if let Some(variable) = (1..=v).find(|variable| values[*variable as usize].is_none()) {
        return Err(format!("variable {variable} is left open"));
    }
    let holds = last.iter().any(|literal| is_true(literal, &values) == Some(true));
    Ok(Forced { values: values[1..].iter().map(|value| u8::from(*value == Some(true))).collect(), holds })
}

fn is_true((variable, mark): &(u32, u8), values: &[Option<bool>]) -> Option<bool> {
    values[*variable as usize].map(|value| value == (mark & 1 == 1))
}

/// Goes through the clauses once. Did anything change?
fn step(clauses: &[&[(u32, u8)]], values: &mut [Option<bool>]) -> Result<bool, String> {
    let mut changed = false;
    for clause in clauses {
        let mut rest = clause.iter().filter(|literal| is_true(literal, values) != Some(false));
        match (rest.next(), rest.next()) {
            (None, _) => return Err(format!("no literal of {clause:?} can be true")),
            (Some((variable, mark)), None) if values[*variable as usize].is_none() => {
                values[*variable as usize] = Some(mark & 1 == 1);
                changed = true;
            }
            _ => {}
        }
    }
    Ok(changed)
}
