//! The words of a line: numbers, values, and jobs with their numbers.

use crate::names::Directory;
use crate::reader::Bad;
use crate::script::{Call, Number, Value};

/// The number that digits are.
pub fn digits(word: &str) -> Result<u64, Bad> {
    if word.is_empty() || !word.bytes().all(|byte| byte.is_ascii_digit()) {
        return Err("no number");
    }
    word.parse().map_err(|_| "number too large")
}

/// How many times: once where nothing is said.
fn factor(word: &str) -> Result<u64, Bad> {
    match word {
        "" => Ok(1),
        _ => digits(word),
    }
}

/// Adds to a number.
fn add(to: &mut u64, more: u64) -> Result<(), Bad> {
    *to = to.checked_add(more).ok_or("number too large")?;
    Ok(())
}

/// The number that a word is in each run and turn, as `10n+k-1`.
pub fn number(word: &str) -> Result<Number, Bad> {
    let (sum, minus) = match word.split_once('-') {
        Some((sum, minus)) => (sum, digits(minus)?),
        None => (word, 0),
    };
    let mut number = Number {
        minus,
        ..Number::default()
    };
    for term in sum.split('+') {
        if let Some(times) = term.strip_suffix('n') {
            add(&mut number.own, factor(times)?)?;
        } else if let Some(times) = term.strip_suffix('k') {
            add(&mut number.turn, factor(times)?)?;
        } else {
            add(&mut number.plus, digits(term)?)?;
        }
    }
    Ok(number)
}

/// The value that a word is.
pub fn value(word: &str) -> Result<Value, Bad> {
    match word {
        "migrated" => Ok(Value::Migrated),
        "index" => Ok(Value::Index),
        "bit" => Ok(Value::Bit),
        _ => Ok(Value::Number(number(word)?)),
    }
}

/// The job that a word names, with its number in brackets or with 0.
pub fn call(names: &Directory, word: &str) -> Result<Call, Bad> {
    let (name, inside) = match (word.split_once('('), word.strip_suffix(')')) {
        (Some((name, inside)), Some(_)) => (name, inside.strip_suffix(')').unwrap_or("")),
        (None, None) => (word, "0"),
        _ => return Err("one bracket alone"),
    };
    let job = names.job(name)?;
    let number = number(inside)?;
    Ok(Call { job, number })
}

/// The same in a line of the job at this place: the named one stands further down, or is the same with a smaller
/// number.
pub fn call_below(names: &Directory, job: usize, word: &str) -> Result<Call, Bad> {
    let call = call(names, word)?;
    match call.job > job || call.job == job && call.number.is_less() {
        true => Ok(call),
        false => Err("a job names jobs below, or itself with n less something"),
    }
}
