//! A plain model of the join of two venues' tapes, from the papers' text alone, with bugs that can be planted in it.

/// A bug that is planted in the model.
#[derive(Clone, Copy, PartialEq)]
pub enum Plant {
    None,
    /// The second tape goes first on equal stamps.
    SecondOnEqual,
    /// A stamp out of order is told before a frame behind it that has no place there.
    FifteenBeforeSeven,
    /// A stamp with no quote behind it is told before its order.
    SixteenBeforeFifteen,
    /// 86,400,000 is a time of the day.
    Midnight,
    /// A stamp equal to the last one is refused.
    EqualRefused,
    /// The second tape's refusal is told before the first's.
    SecondRefusesFirst,
    /// A tape that can go on goes on though the other is refused.
    GoodTapeGoesOn,
    /// What stands behind a frame that is no stamp is judged.
    LookBehind,
    /// A quote with no stamp before it is out of place.
    QuoteMisplaced,
    /// The join ends with the shorter tape.
    EndsWithOne,
    /// The other tape's last stamp is moved too.
    OtherMoved,
}

/// What a frame is on a venue's tape.
#[derive(Clone, Copy, PartialEq)]
enum Frame {
    Stamp(u32),
    Quote,
    Other,
}

/// What a tape has next.
#[derive(Clone, Copy, PartialEq)]
enum Next {
    /// A stamp, and the place behind the quote behind it.
    Pair(u32, usize),
    Done,
    Refused(u32),
}

/// How many bytes the body of a kind has; none for an unknown kind.
fn body_length(kind: u8) -> Option<usize> {
    match kind {
        1..=6 => Some(4 * kind as usize),
        16..=20 => Some(2),
        21 | 23 => Some(4),
        22 => Some(0),
        32..=35 => Some(6),
        36 | 37 | 40 | 48 => Some(4),
        _ => None,
    }
}

/// The frame at a place and the place behind it; none at the end; 1 for an unknown kind, 2 for a cut frame.
fn read(tape: &[u8], place: usize) -> Result<Option<(Frame, usize)>, u32> {
    let Some(&kind) = tape.get(place) else {
        return Ok(None);
    };
    let length = body_length(kind).ok_or(1u32)?;
    let body = tape.get(place + 1..place + 1 + length).ok_or(2u32)?;
    let frame = match kind {
        1..=6 => Frame::Quote,
        40 => Frame::Stamp(u32::from_le_bytes([body[0], body[1], body[2], body[3]])),
        _ => Frame::Other,
    };
    Ok(Some((frame, place + 1 + length)))
}

/// What a tape has next: of the frame there and the one behind it 2, 1 and 7, then 15, then 16.
fn next(tape: &[u8], place: usize, last: u32, plant: Plant) -> Next {
    let (frame, middle) = match read(tape, place) {
        Err(number) => return Next::Refused(number),
        Ok(None) => return Next::Done,
        Ok(Some(read)) => read,
    };
    let behind = read(tape, middle);
    if let (Plant::LookBehind, Err(number)) = (plant, &behind) {
        return Next::Refused(*number);
    }
    let stamp = match frame {
        Frame::Other => return Next::Refused(7),
        Frame::Quote => return Next::Refused(if plant == Plant::QuoteMisplaced { 7 } else { 16 }),
        Frame::Stamp(stamp) => stamp,
    };
    let top = if plant == Plant::Midnight { 86_400_000 } else { 86_399_999 };
    let fifteen = stamp < last || stamp > top || (plant == Plant::EqualRefused && stamp == last && last > 0);
    let behind = match behind {
        Err(number) => return Next::Refused(number),
        Ok(behind) => behind,
    };
    if plant == Plant::FifteenBeforeSeven && fifteen {
        return Next::Refused(15);
    }
    match behind {
        Some((Frame::Other, _)) => Next::Refused(7),
        Some((Frame::Quote, end)) if !fifteen => Next::Pair(stamp, end),
        Some((Frame::Quote, _)) => Next::Refused(15),
        _ if plant == Plant::SixteenBeforeFifteen => Next::Refused(16),
        _ => Next::Refused(if fifteen { 15 } else { 16 }),
    }
}

/// What two tapes are joined to: the pairs, or their quotes alone, and the refusal that stopped the join.
pub fn joined(tapes: [&[u8]; 2], quotes: bool, plant: Plant) -> (Vec<u8>, Option<u32>) {
    let mut places = [0; 2];
    let mut lasts = [0; 2];
    let mut out = Vec::new();
    loop {
        let ahead = [0, 1].map(|side| next(tapes[side], places[side], lasts[side], plant));
        let order = if plant == Plant::SecondRefusesFirst { [1, 0] } else { [0, 1] };
        let pair = ahead.iter().any(|next| matches!(next, Next::Pair(..)));
        for side in order {
            if let Next::Refused(number) = ahead[side] {
                if plant != Plant::GoodTapeGoesOn || !pair {
                    return (out, Some(number));
                }
            }
        }
        let side = match ahead {
            [Next::Pair(a, _), Next::Pair(b, _)] if a == b => (plant == Plant::SecondOnEqual) as usize,
            [Next::Pair(a, _), Next::Pair(b, _)] => (b < a) as usize,
            _ if plant == Plant::EndsWithOne => return (out, None),
            [Next::Pair(..), _] => 0,
            [_, Next::Pair(..)] => 1,
            _ => return (out, None),
        };
        let Next::Pair(stamp, end) = ahead[side] else { unreachable!() };
        out.extend(&tapes[side][places[side] + if quotes { 5 } else { 0 }..end]);
        places[side] = end;
        lasts[side] = stamp;
        if plant == Plant::OtherMoved {
            lasts[1 - side] = stamp.max(lasts[1 - side]) + 1;
        }
    }
}
