//! Recorders in place of merge and split of both stores: they succeed and write down the call.
//!
//! The vertex store keeps the text's own `AttrSparseVec` for everything else. Attributes other
//! than vertices go through the text's own manager, which finds one recorder for each class.

use std::cell::RefCell;

use super::collections::AttrSparseVec as Store;
use super::{
    AttrStorageManager, AttributeBind, AttributeError, AttributeStorage, AttributeUpdate,
    UnknownAttributeStorage,
};
use crate::cmap::{DartIdType, OrbitPolicy};
use crate::stm::{StmClosureResult, Transaction, TransactionClosureResult};

/// Which store was asked.
#[derive(Debug, Clone, Copy, PartialEq, Eq)]
pub enum Asked {
    /// The vertices.
    Vertices,
    /// The attributes of the cells of this dimension.
    Attributes(u8),
}

/// One call of merge or split, with its three identifiers in the order of its parameters.
#[derive(Debug, Clone, Copy, PartialEq, Eq)]
pub struct Record {
    pub asked: Asked,
    pub split: bool,
    pub ids: [DartIdType; 3],
}

thread_local! {
    static LOG: RefCell<Vec<Record>> = const { RefCell::new(Vec::new()) };
}

fn record(asked: Asked, split: bool, ids: [DartIdType; 3]) {
    LOG.with(|log| log.borrow_mut().push(Record { asked, split, ids }));
}

/// Takes what was written down since the last time.
pub fn take() -> Vec<Record> {
    LOG.with(|log| std::mem::take(&mut *log.borrow_mut()))
}

/// The text's store, its merge and split replaced.
#[derive(Debug)]
pub struct AttrSparseVec<A: AttributeBind + AttributeUpdate>(Store<A>);

impl<A: AttributeBind + AttributeUpdate> UnknownAttributeStorage for AttrSparseVec<A> {
    fn new(length: usize) -> Self {
        Self(Store::new(length))
    }
    fn extend(&mut self, length: usize) {
        self.0.extend(length);
    }
    fn clear_slot(&self, t: &mut Transaction, id: DartIdType) -> StmClosureResult<()> {
        self.0.clear_slot(t, id)
    }
    fn n_attributes(&self) -> usize {
        self.0.n_attributes()
    }
    fn merge(
        &self,
        _: &mut Transaction,
        out: DartIdType,
        lhs_inp: DartIdType,
        rhs_inp: DartIdType,
    ) -> TransactionClosureResult<(), AttributeError> {
        record(Asked::Vertices, false, [out, lhs_inp, rhs_inp]);
        Ok(())
    }
    fn split(
        &self,
        _: &mut Transaction,
        lhs_out: DartIdType,
        rhs_out: DartIdType,
        inp: DartIdType,
    ) -> TransactionClosureResult<(), AttributeError> {
        record(Asked::Vertices, true, [lhs_out, rhs_out, inp]);
        Ok(())
    }
}

impl<A: AttributeBind + AttributeUpdate> AttributeStorage<A> for AttrSparseVec<A> {
    fn read(&self, t: &mut Transaction, id: A::IdentifierType) -> StmClosureResult<Option<A>> {
        self.0.read(t, id)
    }
    fn write(
        &self,
        t: &mut Transaction,
        id: A::IdentifierType,
        val: A,
    ) -> StmClosureResult<Option<A>> {
        self.0.write(t, id, val)
    }
    fn remove(&self, t: &mut Transaction, id: A::IdentifierType) -> StmClosureResult<Option<A>> {
        self.0.remove(t, id)
    }
}

/// An attribute without content, bound to the cells of dimension `C`, so that the manager has a
/// store to ask for them.
#[derive(Debug, Clone, Copy)]
pub struct Probe<const C: u8>;

impl<const C: u8> AttributeBind for Probe<C> {
    type StorageType = Recorder<C>;
    type IdentifierType = DartIdType;
    const BIND_POLICY: OrbitPolicy = match C {
        0 => OrbitPolicy::Vertex,
        1 => OrbitPolicy::Edge,
        2 => OrbitPolicy::Face,
        _ => OrbitPolicy::Volume,
    };
}

/// The store of [`Probe`]: it holds nothing and writes calls down.
#[derive(Debug)]
pub struct Recorder<const C: u8>;

impl<const C: u8> UnknownAttributeStorage for Recorder<C> {
    fn new(_: usize) -> Self {
        Self
    }
    fn extend(&mut self, _: usize) {}
    fn clear_slot(&self, _: &mut Transaction, _: DartIdType) -> StmClosureResult<()> {
        Ok(())
    }
    fn n_attributes(&self) -> usize {
        0
    }
    fn merge(
        &self,
        _: &mut Transaction,
        out: DartIdType,
        lhs_inp: DartIdType,
        rhs_inp: DartIdType,
    ) -> TransactionClosureResult<(), AttributeError> {
        record(Asked::Attributes(C), false, [out, lhs_inp, rhs_inp]);
        Ok(())
    }
    fn split(
        &self,
        _: &mut Transaction,
        lhs_out: DartIdType,
        rhs_out: DartIdType,
        inp: DartIdType,
    ) -> TransactionClosureResult<(), AttributeError> {
        record(Asked::Attributes(C), true, [lhs_out, rhs_out, inp]);
        Ok(())
    }
}

impl<const C: u8> AttributeStorage<Probe<C>> for Recorder<C> {
    fn read(&self, _: &mut Transaction, _: DartIdType) -> StmClosureResult<Option<Probe<C>>> {
        Ok(None)
    }
    fn write(
        &self,
        _: &mut Transaction,
        _: DartIdType,
        _: Probe<C>,
    ) -> StmClosureResult<Option<Probe<C>>> {
        Ok(None)
    }
    fn remove(&self, _: &mut Transaction, _: DartIdType) -> StmClosureResult<Option<Probe<C>>> {
        Ok(None)
    }
}

/// A manager with one recorder for each class of cells.
pub fn manager() -> AttrStorageManager {
    let mut manager = AttrStorageManager::default();
    manager.add_storage::<Probe<0>>(0);
    manager.add_storage::<Probe<1>>(0);
    manager.add_storage::<Probe<2>>(0);
    manager.add_storage::<Probe<3>>(0);
    manager
}
