use mapf_board::{Gate, NoGate, Pair, Tickets, Work};
use rows::{Rows, place_of};
use std::test::Fail;
use std::thread::join;
use workers::{all_pairs, sent};

mod crew;
mod live;
mod refused;
mod rows;
mod squares;
mod thousand;
mod workers;

#[test]
fn two_seats_draw_in_turn(rt: HostRuntime) -> Result<(), Fail> {
    let (tickets, mut seats) = Tickets::new(rt.alloc(), 2, 2)?;
    let mut b = seats.pop().unwrap();
    let mut a = seats.pop().unwrap();
    assert!(rt; tickets.draw(&mut a) == Some(0));
    assert!(rt; tickets.draw(&mut b) == Some(1));
    assert!(rt; tickets.draw(&mut a).is_none());
    assert!(rt; tickets.draw(&mut a).is_none());
    assert!(rt; tickets.draw(&mut b).is_none());
    seats.push(a)?;
    seats.push(b)?;
    assert!(rt; tickets.close(seats) == 2);
    Ok(())
}

#[test]
fn no_number_is_below_zero(rt: HostRuntime) -> Result<(), Fail> {
    let (tickets, mut seats) = Tickets::new(rt.alloc(), 0, 1)?;
    let mut only = seats.pop().unwrap();
    assert!(rt; tickets.draw(&mut only).is_none());
    seats.push(only)?;
    assert!(rt; tickets.close(seats) == 0);
    Ok(())
}

#[test]
fn what_is_left_was_not_drawn(rt: HostRuntime) -> Result<(), Fail> {
    let (tickets, mut seats) = Tickets::new(rt.alloc(), 1000, 64)?;
    let mut last = seats.pop().unwrap();
    assert!(rt; tickets.draw(&mut last) == Some(0));
    seats.push(last)?;
    assert!(rt; tickets.close(seats) == 1);
    Ok(())
}

#[test]
fn two_threads_draw(rt: HostRuntime) -> Result<(), Fail> {
    let (tickets, mut seats) = Tickets::new(rt.alloc(), 3, 2)?;
    let mut a = seats.pop().unwrap();
    let mut b = seats.pop().unwrap();
    let ((a, one, two), (b, three, four)) = join(
        &rt,
        || {
            let one = tickets.draw(&mut a);
            let two = tickets.draw(&mut a);
            (a, one, two)
        },
        || {
            let three = tickets.draw(&mut b);
            let four = tickets.draw(&mut b);
            (b, three, four)
        },
    );
    let mut drawn = [one, two, three, four];
    drawn.sort_unstable();
    assert!(rt; drawn == [None, Some(0), Some(1), Some(2)]);
    seats.push(a)?;
    seats.push(b)?;
    assert!(rt; tickets.close(seats) == 3);
    Ok(())
}

#[test]
fn workers_send_their_pairs_back(rt: HostRuntime) -> Result<(), Fail> {
    let row = [2, 3, 5, 7, 11];
    let (count, pairs) = all_pairs(&rt, rt.alloc(), &row, 3)?;
    assert!(rt; count == 5);
    assert!(rt; pairs.len() == 5);
    let mut sum = 0u64;
    for pair in pairs {
        let (place, answer) = pair.parts();
        assert!(rt; answer == row.get(place.at()).copied());
        sum = sum.saturating_add(u64::from(answer.unwrap_or(0)));
    }
    assert!(rt; sum == 28);
    Ok(())
}

#[test]
fn a_pair_keeps_job_and_answer(rt: HostRuntime) -> Result<(), Fail> {
    let row = [4, 6];
    let work = Rows::new();
    let Ok(pair) = work.perform(place_of(&row, 1)) else {
        panic!(rt; "no pair")
    };
    assert!(rt; pair.job().at() == 1);
    let (place, answer) = pair.parts();
    assert!(rt; place.at() == 1);
    assert!(rt; answer == Some(6));
    let same = sent(&rt, Pair::<Rows>::of(place, answer));
    assert!(rt; same.job().at() == 1);
    Ok(())
}

#[test]
fn no_gate_does_nothing(_rt: HostRuntime) -> Result<(), Fail> {
    NoGate.enter(0);
    NoGate.leave(0);
    Ok(())
}
