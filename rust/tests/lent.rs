//! Boards in lent bytes: of any length, in the middle of others, and of any content.
mod common;
use common::{tasks, EVERY_CALL};
use station::{Board, Prio, Refusal, Rule, Status, TaskNo, BYTES};

const GUARD: usize = 64;
const MARK: u8 = 0xA5;

/// The bytes between guards, and what is done with them; the guards stay.
fn guarded<T>(bytes: &[u8], work: impl FnOnce(&mut [u8]) -> T) -> T {
    let guard = [MARK; GUARD];
    let mut area = [&guard, bytes, &guard].concat();
    let done = work(&mut area[GUARD..GUARD + bytes.len()]);
    assert_eq!(area[..GUARD], guard);
    assert_eq!(area[GUARD + bytes.len()..], guard);
    done
}

#[test]
fn another_length_is_refused_by_every_call() {
    for len in [0, 1, 3, BYTES - 1, BYTES + 1, 2 * BYTES, 65_536] {
        for call in EVERY_CALL {
            guarded(&vec![MARK; len], |bytes| {
                assert_eq!(call(&mut Board::lent(&mut *bytes)), Err(Refusal::WrongLength));
                assert!(bytes.iter().all(|&byte| byte == MARK));
            });
        }
    }
}

#[test]
fn what_is_no_board_is_refused_and_can_be_made_fresh() {
    guarded(&[MARK; BYTES], |bytes| {
        for call in &EVERY_CALL[1..] {
            assert_eq!(call(&mut Board::lent(&mut *bytes)), Err(Refusal::RuleBroken(Rule::R1)));
        }
        assert_eq!(bytes, [MARK; BYTES]);
        Board::lent(&mut *bytes).make_fresh().unwrap();
        assert_eq!(bytes, Board::fresh().as_bytes());
    });
}

#[test]
fn a_lent_board_is_as_an_owned_one() {
    fn story<B: AsMut<[u8]>>(board: &mut Board<B>) -> Result<Option<TaskNo>, Refusal> {
        board.install(TaskNo(2), Status::TCBB, Prio::fifo(30), 0, 0)?;
        let m = board.claim()?.value;
        board.prepare(m, 7, Prio::lifo(3), None)?;
        Ok(board.send_and_wait(m, TaskNo(2))?.running)
    }
    let mut owned = tasks(&[25]);
    let before = owned.clone();
    let told = story(&mut owned);
    assert_eq!(told, Ok(Some(TaskNo(2))));
    guarded(before.as_bytes(), |bytes| {
        assert_eq!(story(&mut Board::lent(&mut *bytes)), told);
        assert_eq!(bytes, owned.as_bytes());
    });
    let mut in_a_vector = Board::lent(before.as_bytes().to_vec());
    assert_eq!(story(&mut in_a_vector), told);
    assert_eq!(in_a_vector.into_bytes(), owned.as_bytes());
}

#[test]
fn bytes_become_a_board_if_they_are_one() {
    let board = tasks(&[25, 20]);
    assert_eq!(Board::from_bytes(board.as_bytes()), Ok(board.clone()));
    assert_eq!(Board::from_bytes(&board.as_bytes()[1..]), Err(Refusal::WrongLength));
    let mut broken = board.into_bytes();
    broken[0] = 0; // the task queue is empty, and tasks are present
    assert_eq!(Board::from_bytes(&broken), Err(Refusal::RuleBroken(Rule::R3)));
    assert_eq!(Board::lent(&broken[..]).check(), Err(Refusal::RuleBroken(Rule::R3)));
    // a look needs no writing
}

#[test]
fn a_board_is_shown_by_who_runs() {
    assert_eq!(Board::default(), Board::fresh());
    assert_eq!(format!("{:?}", tasks(&[25])), "Board { bytes: 1476, running: Ok(Some(TaskNo(1))) }");
    assert_eq!(format!("{:?}", Board::lent([1; 2])), "Board { bytes: 2, running: Err(WrongLength) }");
    assert_eq!(format!("{:?}", Board::lent([1; BYTES])), "Board { bytes: 1476, running: Err(RuleBroken(R1)) }");
}
