// The module tree of honeycomb-core around the published text. `HONEYCOMB` stands for the folder
// of the text and `HERE` for this crate's own sources; build.rs puts the paths in. Everything that
// is not a `#[path = "HONEYCOMB/..."]` stands in for a file that was not at hand.

/// honeycomb-core's `attributes`: the text's traits, store and manager, with recorders for merge
/// and split.
pub(crate) mod attributes {
    #[path = "HONEYCOMB/attributes/collections.rs"]
    mod collections;
    #[path = "HONEYCOMB/attributes/manager.rs"]
    mod manager;
    #[path = "HERE/recorder.rs"]
    pub(crate) mod recorder;
    #[path = "HONEYCOMB/attributes/traits.rs"]
    mod traits;

    pub(crate) use manager::AttrStorageManager;
    pub(crate) use recorder::AttrSparseVec;
    pub use traits::{AttributeBind, AttributeStorage, AttributeUpdate, UnknownAttributeStorage};

    /// Why a merge or split of attributes fails. With recorders none does.
    #[derive(Debug, PartialEq, Eq)]
    pub enum AttributeError {
        /// Too few values to go by.
        InsufficientData(&'static str, &'static str),
    }

    impl std::fmt::Display for AttributeError {
        fn fmt(&self, f: &mut std::fmt::Formatter<'_>) -> std::fmt::Result {
            match self {
                Self::InsufficientData(operation, name) => {
                    write!(f, "not enough data to {operation} {name}")
                }
            }
        }
    }

    impl std::error::Error for AttributeError {}
}

/// honeycomb-core's `cmap`, without the 2-map.
pub(crate) mod cmap {
    pub(crate) mod components {
        #[path = "HONEYCOMB/cmap/components/betas.rs"]
        pub(crate) mod betas;
        #[path = "HONEYCOMB/cmap/components/identifiers.rs"]
        pub(crate) mod identifiers;
        #[path = "HONEYCOMB/cmap/components/orbits.rs"]
        pub(crate) mod orbits;
        #[path = "HERE/unused.rs"]
        pub(crate) mod unused;
    }

    pub(crate) mod dim3 {
        #[path = "HERE/access.rs"]
        pub(crate) mod access;
        #[path = "HONEYCOMB/cmap/dim3/basic_ops.rs"]
        mod basic_ops;
        mod links {
            #[path = "HONEYCOMB/cmap/dim3/links/three.rs"]
            mod three;
            #[path = "HONEYCOMB/cmap/dim3/links/two.rs"]
            mod two;
        }
        #[path = "HONEYCOMB/cmap/dim3/orbits.rs"]
        mod orbits;
        mod sews {
            #[path = "HONEYCOMB/cmap/dim3/sews/one.rs"]
            mod one;
            #[path = "HONEYCOMB/cmap/dim3/sews/three.rs"]
            mod three;
            #[path = "HONEYCOMB/cmap/dim3/sews/two.rs"]
            mod two;
        }
        #[path = "HONEYCOMB/cmap/dim3/structure.rs"]
        pub(crate) mod structure;

        /// Beta functions of a 3-map: 0 to 3.
        pub(crate) const CMAP3_BETA: usize = 4;
    }

    #[path = "HONEYCOMB/cmap/error.rs"]
    pub(crate) mod error;

    pub use components::identifiers::*;
    pub use components::orbits::OrbitPolicy;
    pub(crate) use components::orbits::try_from_fn;
    pub use dim3::structure::CMap3;
    pub use error::{DartReleaseError, DartReservationError, LinkError, SewError};
}

/// honeycomb-core's `geometry`: the text's vertex, with the float and the vector that it leans on.
pub(crate) mod geometry {
    #[path = "HONEYCOMB/geometry/dim3/vertex.rs"]
    mod vertex;
    #[path = "HERE/vector.rs"]
    mod vector;

    pub use vector::{CoordsFloat, Vector3, Vertex2};
    pub use vertex::Vertex3;
}

/// honeycomb-core's `stm`: the transactions under the name that the text uses.
pub(crate) mod stm {
    pub use fast_stm::*;

    /// The value of a step, or its end carried over into the outer error type.
    macro_rules! try_or_coerce {
        ($step:expr, $error:ident) => {
            match $step {
                Ok(value) => value,
                Err($crate::stm::TransactionError::Stm(e)) => {
                    return Err($crate::stm::TransactionError::Stm(e));
                }
                Err($crate::stm::TransactionError::Abort(e)) => {
                    return Err($crate::stm::TransactionError::Abort($error::from(e)));
                }
            }
        };
    }
    pub(crate) use try_or_coerce;
}
