//! The verdict by a library from outside, LEMON, where it was there when this was
//! built: `peer/verdict.cpp` says how.

/// Where it is to be had.
pub const PACKAGE: &str = "liblemon-dev";

/// Whether it was there.
pub const THERE: bool = cfg!(peer);

#[cfg(peer)]
pub use there::{keep_memory, verdict, version, Graph};

#[cfg(not(peer))]
pub use missing::{keep_memory, verdict, version, Graph};

/// The two of its algorithms that are quickest here.
#[derive(Clone, Copy)]
pub enum Algorithm {
    NetworkSimplex = 0,
    CapacityScaling = 1,
}

pub const ALGORITHMS: [Algorithm; 2] = [Algorithm::NetworkSimplex, Algorithm::CapacityScaling];

/// The verdict's word, by its number.
#[cfg(peer)]
fn word(verdict: i32) -> &'static str {
    match verdict {
        1 => "strong",
        2 => "popular",
        _ => "beaten",
    }
}

#[cfg(peer)]
mod there {
    use std::ffi::{c_char, c_int, c_void, CStr};

    use super::Algorithm;

    extern "C" {
        fn peer_version() -> *const c_char;
        fn peer_keep_memory();
        fn peer_verdict(algorithm: c_int, roster: *const u8, plan: *const u8) -> c_int;
        fn peer_graph(algorithm: c_int, roster: *const u8, plan: *const u8) -> *mut c_void;
        fn peer_solve(graph: *mut c_void) -> c_int;
        fn peer_drop(graph: *mut c_void);
    }

    /// The library's version.
    pub fn version() -> String {
        // SAFETY: the peer hands out a constant, which ends with a zero.
        let version = unsafe { CStr::from_ptr(peer_version()) };
        version.to_string_lossy().into_owned()
    }

    /// What is freed stays with the process from now on, so that the peer is measured
    /// at its best.
    pub fn keep_memory() {
        // SAFETY: no pointer goes in; two limits of the allocator are set.
        unsafe { peer_keep_memory() }
    }

    /// The verdict, from the bytes of a roster and a plan that were accepted, where the
    /// plan leaves no room.
    pub fn verdict(by: Algorithm, roster: &[u8], plan: &[u8]) -> &'static str {
        let (roster, plan) = (roster.as_ptr(), plan.as_ptr());
        // SAFETY: the peer reads two accepted files to their ends and no further.
        super::word(unsafe { peer_verdict(by as c_int, roster, plan) })
    }

    /// The graph of such a plan.
    pub struct Graph(*mut c_void);

    impl Graph {
        pub fn new(by: Algorithm, roster: &[u8], plan: &[u8]) -> Graph {
            // SAFETY: as above.
            Graph(unsafe { peer_graph(by as c_int, roster.as_ptr(), plan.as_ptr()) })
        }

        /// The verdict, solved anew.
        pub fn solve(&mut self) -> &'static str {
            // SAFETY: the graph was made by `peer_graph` and is there until it is dropped.
            super::word(unsafe { peer_solve(self.0) })
        }
    }

    impl Drop for Graph {
        fn drop(&mut self) {
            // SAFETY: the graph was made by `peer_graph`, and is not used after this.
            unsafe { peer_drop(self.0) }
        }
    }
}

#[cfg(not(peer))]
mod missing {
    use super::Algorithm;

    pub fn version() -> String {
        "none, which was not there".into()
    }

    pub fn keep_memory() {}

    pub fn verdict(_by: Algorithm, _roster: &[u8], _plan: &[u8]) -> &'static str {
        unreachable!("the peer was not there")
    }

    pub struct Graph;

    impl Graph {
        pub fn new(_by: Algorithm, _roster: &[u8], _plan: &[u8]) -> Graph {
            Graph
        }

        pub fn solve(&mut self) -> &'static str {
            unreachable!("the peer was not there")
        }
    }
}
