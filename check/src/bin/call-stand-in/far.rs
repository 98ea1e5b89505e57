//! Counts and applied numbers that no log comes to, with one mistake.

use crate::mistakes::Mistake::{self, *};
use rivandoze_check::reference::encoder::{SOERR, SOVR, UOERR, UOVR};
use rivandoze_check::reference::record::{Fields, PINS};
use rivandoze_check::reference::refusal::Refusal;
use rivandoze_check::reference::Device;

const LEAST: i32 = i32::MIN;
const MOST: i32 = i32::MAX;

pub fn one_more(mistake: Mistake, applied: u64) -> u64 {
    match mistake {
        FarAppliedStops => applied.saturating_add(1),
        FarAppliedOf56Bits => applied.wrapping_add(1) & (u64::MAX >> 8),
        FarAppliedOf63Bits => applied.wrapping_add(1) & (u64::MAX >> 1),
        FarAppliedTo1 if applied == u64::MAX => 1,
        _ => applied.wrapping_add(1),
    }
}

pub fn apply(
    mistake: Mistake,
    device: &mut Device,
    record: &Fields,
) -> Result<Option<u64>, Refusal> {
    let place = (usize::from(record.bank), usize::from(record.channel));
    let before = match record.kind {
        PINS => device
            .banks
            .get(place.0)
            .and_then(|bank| bank.encoders.get(place.1))
            .cloned(),
        _ => None,
    };
    let reading = device.apply(record)?;
    if let Some(old) = before {
        let new = &mut device.banks[place.0].encoders[place.1];
        let (up, down) = (
            (old.count, new.count) == (MOST, LEAST),
            (old.count, new.count) == (LEAST, MOST),
        );
        let over = up || down;
        match mistake {
            FarNoSovr if over => new.stat = old.stat,
            FarNoSovrUp if up => new.stat = old.stat,
            FarNoSovrDown if down => new.stat = old.stat,
            FarUovrToo if over => new.stat |= UOVR,
            FarUovrInstead if over && old.stat & SOVR == 0 => new.stat = new.stat & !SOVR | UOVR,
            FarNoSoerr if over && old.stat & SOERR == 0 => new.stat &= !SOERR,
            FarSoerrAtOnce if over => new.stat |= SOERR,
            FarUoerrInstead if over && old.stat & SOVR != 0 => new.stat = new.stat & !SOERR | UOERR,
            FarSovrAgainClears if over && old.stat & SOVR != 0 => new.stat &= !SOVR,
            FarStopsAtTheBorder if over => new.count = old.count,
            FarSovrOneLate if old.count == LEAST && new.count == LEAST + 1 => new.stat |= SOVR,
            FarSovrOneEarly if old.count == MOST - 1 && new.count == MOST => new.stat |= SOVR,
            _ => {}
        }
    }
    Ok(reading)
}
