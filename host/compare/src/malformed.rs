//! Scripts that are refused as a whole: cut anywhere, with operations that are none, too long, or with too little
//! room for the replies. docs/SCRIPT.md says which number and what beside it, and no byte of the answers may change.
use crate::{
    dialogue::sentinels,
    hostile::{dialogue, Crowd},
    slips::Slip,
};
use oracle::rng::Rng;
use saltbobbin::{
    c,
    script::{Operation, MOST_SCRIPT},
};

/// What docs/SCRIPT.md says of a script: the bytes that its replies take, or the refusal and what is beside it.
fn measured(script: &[u8]) -> Result<usize, (u8, usize)> {
    if script.len() > MOST_SCRIPT {
        return Err((1, script.len()));
    }
    let (mut rest, mut needed) = (script, 0);
    while !rest.is_empty() {
        let Some((head, behind)) = rest.split_at_checked(10) else { return Err((2, 0)) };
        if Operation::from_byte(head[0]).is_none() {
            return Err((4, head[0].into()));
        }
        let number = |at: usize| usize::from(head[at]) + 256 * usize::from(head[at + 1]);
        rest = behind.get(number(1) + number(3) + number(5)..).ok_or((2, 0))?;
        needed += 9 + number(7) + usize::from(head[9]);
    }
    Ok(needed)
}

/// How often each number was the answer.
#[derive(Clone, Copy, Debug, Default)]
pub struct Refused {
    pub scripts: usize,
    pub numbers: [usize; 10],
}

/// The kernel's answer to a script with so much room, held against docs/SCRIPT.md.
fn check(script: &[u8], room: usize, counted: &mut Refused) -> Result<(), String> {
    let expected = match measured(script) {
        Err((number, beside)) => c::Ran { number, used: 0, beside },
        Ok(needed) if needed > room => c::Ran { number: 9, used: 0, beside: needed },
        Ok(used) => c::Ran { number: 0, used, beside: 0 },
    };
    let before = sentinels(room);
    let mut answers = before.clone();
    let ran = c::run(script, &mut answers);
    counted.scripts += 1;
    counted.numbers[usize::from(expected.number)] += 1;
    if ran != expected {
        let length = script.len();
        return Err(format!(
            "a script of {length} bytes, room {room}: the kernel {ran:?}, plainly {expected:?}"
        ));
    }
    if answers[ran.used..] != before[ran.used..] {
        return Err(format!("a script of {} bytes, room {room}: {ran:?}, and answers changed", script.len()));
    }
    Ok(())
}

/// A script of any requests, damaged in every way. One of `every` scripts is cut at each of its bytes.
pub fn damaged(seed: u64, every: u64, counted: &mut Refused) -> Result<(), String> {
    let mut r = Rng::new(seed ^ 0xba5e);
    let (dialogue, _) = dialogue(Crowd::Few, seed, Slip::NoSlip);
    let (script, starts) = (dialogue.script.bytes(), dialogue.starts());
    let needed = measured(script).expect("a whole script");
    for room in [needed, needed - 1, needed - 9, needed / 2, 0] {
        check(script, room, counted)?;
    }
    let cuts: Vec<usize> = if seed % every == 0 {
        (0..script.len()).collect()
    } else {
        let start = r.pick(&starts);
        let near = (start.saturating_sub(3)..start + 12).filter(|cut| *cut <= script.len());
        near.chain((0..10).map(|_| r.below(script.len()))).collect()
    };
    for cut in cuts {
        check(&script[..cut], needed, counted)?;
    }
    for _ in 0..10 {
        // an operation that is none, also with too little room, and in a script that is cut as well
        let mut other = script.to_vec();
        other[r.pick(&starts)] = r.word() as u8;
        check(&other, needed, counted)?;
        check(&other, r.below(needed), counted)?;
        check(&other[..r.below(script.len())], needed, counted)?;
        // a length that says more or less than there is
        let mut other = script.to_vec();
        other[r.pick(&starts) + r.range(1, 6)] = r.word() as u8;
        if measured(&other).is_err() {
            check(&other, needed, counted)?;
        }
    }
    Ok(())
}

/// Every byte as the operation of a request.
pub fn every_operation(counted: &mut Refused) -> Result<(), String> {
    for byte in 0..=u8::MAX {
        check(&[byte, 0, 0, 0, 0, 0, 0, 0, 0, 0], 9, counted)?;
        check(&[byte, 1, 0, 0, 0, 0, 0, 0, 0, 0], 9, counted)?; // whose argument is missing
        check(&[16, 0, 0, 0, 0, 0, 0, 0, 0, 0, byte], 30, counted)?; // whose head is cut
    }
    Ok(())
}

/// The longest script, one byte more, and one whose replies are as long as can be.
pub fn longest(counted: &mut Refused) -> Result<(), String> {
    // arguments that `version` does not have are read over
    let filler = |length: usize| {
        let third = length - 10;
        let lengths = [third.min(65_535), third.saturating_sub(65_535).min(65_535)];
        let lengths = [lengths[0], lengths[1], third - lengths[0] - lengths[1]];
        let mut out = vec![Operation::Version.byte()];
        lengths.iter().for_each(|n| out.extend((*n as u16).to_le_bytes()));
        out.extend([0; 3]);
        out.resize(length, 0xee);
        out
    };
    let mut script = vec![];
    while script.len() < MOST_SCRIPT {
        let left = MOST_SCRIPT - script.len();
        script.extend(filler(if left > 190_000 { 150_000 } else { left }));
    }
    check(&script, 2000, counted)?;
    check(&script[..MOST_SCRIPT - 1], 2000, counted)?;
    script.push(Operation::Version.byte());
    check(&script, 2000, counted)?;
    script.extend([0; 9]);
    check(&script, 2000, counted)?;
    let wide = [Operation::Version.byte(), 0, 0, 0, 0, 0, 0, 255, 255, 255].repeat(300);
    let needed = 300 * (9 + 65_535 + 255);
    check(&wide, needed - 1, counted)?;
    check(&wide, needed, counted)
}
