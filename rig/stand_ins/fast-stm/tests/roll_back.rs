//! What the oracle leans on: reads see writes, and an abort leaves nothing.

use fast_stm::{TVar, abort, atomically, atomically_with_err};

#[test]
fn an_abort_takes_every_write_back() {
    let (a, b) = (TVar::new(1), TVar::new(2));
    let ended: Result<(), &str> = atomically_with_err(|t| {
        assert_eq!(a.exchange(t, 10)?, 1);
        assert_eq!(a.exchange(t, 11)?, 10);
        b.write(t, 20)?;
        assert_eq!((a.read(t)?, b.read(t)?), (11, 20));
        abort("given up")
    });
    assert_eq!(ended, Err("given up"));
    assert_eq!((a.read_atomic(), b.read_atomic()), (1, 2));
}

#[test]
fn a_success_keeps_its_writes() {
    let a = TVar::new(1);
    assert_eq!(atomically(|t| a.exchange(t, 5)), 1);
    let ended: Result<i32, ()> = atomically_with_err(|t| Ok(a.exchange(t, 6)?));
    assert_eq!((ended, a.read_atomic()), (Ok(5), 6));
}
