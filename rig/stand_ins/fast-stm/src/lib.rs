//! Stand-in for the transactions that the honeycomb text is written over.
//!
//! One thread, one transaction at a time. A write goes to its place at once and leaves behind how
//! to take it back; a transaction that ends in an error takes all its writes back, newest first.
//! Reads inside a transaction therefore see what was written so far, as with the real one, and an
//! aborted transaction leaves nothing, as with the real one. Conflicts between threads and retries
//! have no counterpart here: nothing else ever runs, so no transaction can fail by itself.

use std::cell::Cell;
use std::fmt;
use std::rc::Rc;

/// Why a transaction can fail by itself. Never made here; the text names the type.
#[derive(Debug, Clone, Copy, PartialEq, Eq)]
pub enum StmError {
    /// A read was out of date.
    Failure,
    /// The transaction asked to wait.
    Retry,
}

/// What a step of a transaction gives.
pub type StmClosureResult<T> = Result<T, StmError>;

/// How a transaction that may abort ends when it does not succeed.
#[derive(Debug, Clone, Copy, PartialEq, Eq)]
pub enum TransactionError<E> {
    /// It failed by itself.
    Stm(StmError),
    /// It was aborted with this.
    Abort(E),
}

impl<E> From<StmError> for TransactionError<E> {
    fn from(e: StmError) -> Self {
        Self::Stm(e)
    }
}

/// What a step of a transaction that may abort gives.
pub type TransactionClosureResult<T, E> = Result<T, TransactionError<E>>;

/// Gives the transaction up with `e`; every write of it is taken back.
pub fn abort<T, E>(e: E) -> TransactionClosureResult<T, E> {
    Err(TransactionError::Abort(e))
}

/// A running transaction: how to take back what it wrote.
#[derive(Default)]
pub struct Transaction {
    undo: Vec<Box<dyn FnOnce()>>,
}

impl Transaction {
    fn roll_back(self) {
        for step in self.undo.into_iter().rev() {
            step();
        }
    }
}

/// A place that transactions read and write.
pub struct TVar<T>(Rc<Cell<T>>);

impl<T: Copy + 'static> TVar<T> {
    /// A place that holds `value`.
    pub fn new(value: T) -> Self {
        Self(Rc::new(Cell::new(value)))
    }

    /// Reads inside a transaction.
    pub fn read(&self, _: &mut Transaction) -> StmClosureResult<T> {
        Ok(self.0.get())
    }

    /// Writes inside a transaction.
    pub fn write(&self, t: &mut Transaction, value: T) -> StmClosureResult<()> {
        self.exchange(t, value).map(|_| ())
    }

    /// Writes inside a transaction and gives what stood there.
    pub fn exchange(&self, t: &mut Transaction, value: T) -> StmClosureResult<T> {
        let old = self.0.replace(value);
        let place = Rc::clone(&self.0);
        t.undo.push(Box::new(move || place.set(old)));
        Ok(old)
    }

    /// Reads outside transactions.
    pub fn read_atomic(&self) -> T {
        self.0.get()
    }

    /// Writes outside transactions.
    pub fn write_atomic(&self, value: T) {
        self.0.set(value);
    }
}

impl<T: Copy + fmt::Debug> fmt::Debug for TVar<T> {
    fn fmt(&self, f: &mut fmt::Formatter<'_>) -> fmt::Result {
        f.debug_tuple("TVar").field(&self.0.get()).finish()
    }
}

/// Runs a transaction that cannot abort.
pub fn atomically<T>(f: impl Fn(&mut Transaction) -> StmClosureResult<T>) -> T {
    let mut t = Transaction::default();
    match f(&mut t) {
        Ok(value) => value,
        Err(e) => unreachable!("one thread alone and yet {e:?}"),
    }
}

/// Runs a transaction that may abort; if it does, every write of it is taken back.
pub fn atomically_with_err<T, E>(f: impl Fn(&mut Transaction) -> TransactionClosureResult<T, E>) -> Result<T, E> {
    let mut t = Transaction::default();
    match f(&mut t) {
        Ok(value) => Ok(value),
        Err(TransactionError::Abort(e)) => {
            t.roll_back();
            Err(e)
        }
        Err(TransactionError::Stm(e)) => unreachable!("one thread alone and yet {e:?}"),
    }
}
