//! The tables of hall.md.

use super::*;
use crate::store::Owned;

fn hall() -> Hall<Owned> {
    Hall::new(Owned::zero(), &Book::new())
}

fn write(first: u16, last: u16) -> Grant {
    Grant::new(Kind::Write, first, last)
}

fn read(first: u16, last: u16) -> Grant {
    Grant::new(Kind::Read, first, last)
}

#[test]
fn open() {
    let mut hall = hall();
    assert_eq!(hall.open(0).unwrap_err(), Refusal::NoSuchBay);
    assert_eq!(hall.open(9).unwrap_err(), Refusal::NoSuchBay);
    let handle = hall.open(1).unwrap();
    assert_eq!(hall.open(1).unwrap_err(), Refusal::BayTaken);
    let handle = hall.seal(handle).unwrap();
    assert_eq!(hall.open(1).unwrap_err(), Refusal::BayTaken);
    hall.close(handle).unwrap();
    hall.open(1).unwrap();
}

#[test]
fn clashes() {
    for (there, new, outcome) in [
        (write(100, 199), write(199, 250), Err(Refusal::Clash)),
        (write(100, 199), read(150, 150), Err(Refusal::Clash)),
        (read(100, 199), write(150, 150), Err(Refusal::Clash)),
        (write(100, 199), write(200, 299), Ok(())),
        (read(100, 199), read(150, 250), Ok(())),
        (read(100, 199), read(100, 199), Ok(())),
    ] {
        let mut hall = hall();
        let first = hall.open(1).unwrap();
        let second = hall.open(2).unwrap();
        hall.grant(&first, there).unwrap();
        assert_eq!(hall.grant(&second, new), outcome);
        hall.close(second).unwrap();
        assert_eq!(hall.grant(&first, new), outcome);
    }
}

#[test]
fn grants_at_the_edges() {
    let mut hall = hall();
    let handle = hall.open(1).unwrap();
    assert_eq!(
        hall.grant(&handle, read(100, 99)),
        Err(Refusal::LastBelowFirst)
    );
    hall.grant(&handle, read(0, 65_535)).unwrap();
    hall.grant(&handle, read(65_535, 65_535)).unwrap();
    for _ in 2..6 {
        hall.grant(&handle, read(100, 100)).unwrap();
    }
    assert_eq!(hall.grant(&handle, read(0, 0)), Err(Refusal::SixGrants));
    assert_eq!(hall.grant(&handle, write(0, 0)), Err(Refusal::SixGrants));
    assert_eq!(
        hall.grant(&handle, read(1, 0)),
        Err(Refusal::LastBelowFirst)
    );
}

#[test]
fn loads() {
    let outside = Err(Refusal::OutsideGrants);
    for (grants, address, length, outcome) in [
        (vec![write(100, 103), write(104, 107)], 102, 4, Ok(())),
        (vec![write(100, 103), write(105, 107)], 102, 4, outside),
        (vec![write(104, 107), read(108, 109)], 106, 3, outside),
        (vec![write(0, 65_535)], 65_535, 1, Ok(())),
        (vec![write(0, 65_535)], 65_535, 2, outside),
        (vec![], 5000, 0, Ok(())),
        (vec![], 5000, 1, outside),
    ] {
        let mut hall = hall();
        let handle = hall.open(1).unwrap();
        for grant in grants {
            hall.grant(&handle, grant).unwrap();
        }
        let bytes = vec![1; length];
        assert_eq!(hall.load(&handle, address, &bytes), outcome);
        let written = hall.store().bytes().iter().filter(|&&b| b == 1).count();
        assert_eq!(written, if outcome.is_ok() { length } else { 0 });
    }
}

#[test]
fn copies() {
    let mixed = vec![write(100, 107), read(108, 109)];
    for (grants, address, length, is_done) in [
        (mixed.clone(), 102, 8, true),
        (mixed, 109, 2, false),
        (vec![write(0, 65_535)], 0, 65_536, true),
        (vec![write(0, 65_535)], 65_535, 2, false),
        (vec![], 5000, 0, true),
    ] {
        let mut hall = hall();
        let handle = hall.open(1).unwrap();
        for grant in grants {
            hall.grant(&handle, grant).unwrap();
        }
        let copied = hall.copy(&handle, address, length);
        assert_eq!(
            copied.map(|bytes| bytes.len()).ok(),
            is_done.then_some(length)
        );
    }
}

#[test]
fn a_stop_stands_until_set() {
    let mut hall = hall();
    let handle = hall.open(1).unwrap();
    hall.grant(&handle, write(1000, 1003)).unwrap();
    hall.load(&handle, 1000, &[0x12, 0, 0x12, 0x03]).unwrap();
    let at = |s| Registers {
        s,
        ..Registers::default()
    };
    hall.set(&handle, at(1000)).unwrap();
    let handle = hall.seal(handle).unwrap();
    let answer = |hall: &mut Hall<Owned>, budget| {
        let turn = hall.turn(&handle, budget).unwrap();
        let stop = turn.stop.map_or("spent".into(), |stop| stop.to_string());
        format!("{} {stop}", turn.steps)
    };
    assert_eq!(answer(&mut hall, 0), "0 spent");
    assert_eq!(answer(&mut hall, 1), "1 spent");
    assert_eq!(answer(&mut hall, 0), "0 spent");
    assert_eq!(answer(&mut hall, 10), "0 1 1002");
    hall.load(&handle, 1002, &[0x12, 0x01]).unwrap();
    assert_eq!(answer(&mut hall, 10), "0 1 1002");
    assert_eq!(answer(&mut hall, 0), "0 1 1002");
    hall.set(&handle, at(1002)).unwrap();
    assert_eq!(answer(&mut hall, 10), "0 3 1002");
}

#[test]
fn a_handle_of_another_hall() {
    let mut here = hall();
    let mut there = hall();
    let foreign = there.open(1).unwrap();
    assert_eq!(here.look(&foreign).unwrap_err(), Refusal::WrongStage);
    let (refusal, foreign) = here.seal(foreign).unwrap_err();
    assert_eq!(refusal, Refusal::WrongStage);
    let own = here.open(1).unwrap();
    here.grant(&foreign, write(5, 6)).unwrap();
    let sealed = here.seal(foreign).unwrap();
    assert_eq!(
        here.grant(&own, read(7, 6)).unwrap_err(),
        Refusal::WrongStage
    );
    let (refusal, _own) = here.close(own).unwrap_err();
    assert_eq!(refusal, Refusal::WrongStage);
    here.close(sealed).unwrap();
    assert_eq!(here.stage(1), Stage::Free);
}

#[test]
fn close_makes_write_grants_zero() {
    let mut hall = Hall::new(Owned::from_image(&[7; 65_536]).unwrap(), &Book::new());
    let handle = hall.open(1).unwrap();
    hall.grant(&handle, write(65_530, 65_535)).unwrap();
    hall.grant(&handle, read(100, 109)).unwrap();
    hall.close(handle).unwrap();
    let zeros = hall.store().bytes().iter().filter(|&&b| b == 0).count();
    assert_eq!(zeros, 6);
    assert_eq!(hall.store().read(65_530), 0);
}
