//! Kinds of collective calls, as in frames: those on communicators that move data, those on all objects, and MPI_Intercomm_merge.

use crate::input::{COMMUNICATOR, FILE, WINDOW};
use crate::profile::Profile;
use crate::text::{COMM, COMM_OLD, FH, FILE_ID, INTERCOMM, LOCAL_COMM, OLDCOMM, WIN};

pub struct Kind {
    /// The name of the function in small letters, without `mpi_`.
    pub word: &'static str,
    /// That of the nonblocking one, or empty.
    pub begun: &'static str,
    pub sort: u8,
    /// The parameters that may name the object; empty for the older kinds, which have `comm`.
    pub names: &'static [usize],
}

/// The first that is read leniently; what is neither of it nor behind it counts where a message comes after another.
pub const FIRST_LENIENT: u8 = 17;
pub const COMM_SPLIT: u8 = 17;
pub const DIST_GRAPH_CREATE: u8 = 19;
pub const MERGE: u8 = 74;

const fn old(word: &'static str, begun: &'static str) -> Kind {
    Kind { word, begun, sort: COMMUNICATOR, names: &[] }
}
const fn of(names: &'static [usize], word: &'static str) -> Kind {
    let sort = match names[0] {
        WIN => WINDOW,
        FH => FILE,
        _ => COMMUNICATOR,
    };
    Kind { word, begun: "", sort, names }
}
const fn both(names: &'static [usize], word: &'static str, begun: &'static str) -> Kind {
    Kind { begun, ..of(names, word) }
}

const ON_COMM: &[usize] = &[COMM];
const ON_OLD: &[usize] = &[OLDCOMM, COMM];
const ON_OLDER: &[usize] = &[OLDCOMM, COMM_OLD, COMM];
const ON_LOCAL: &[usize] = &[LOCAL_COMM];
const ON_WIN: &[usize] = &[WIN];
const ON_FILE: &[usize] = &[FH, FILE_ID];
const ON_INTER: &[usize] = &[INTERCOMM];
/// The rows that lenient calls can have, by the parameters that may name the object.
pub const NAMINGS: [&[usize]; 7] = [ON_COMM, ON_OLD, ON_OLDER, ON_LOCAL, ON_WIN, ON_FILE, ON_INTER];

pub static KINDS: [Kind; 75] = [
    old("barrier", "ibarrier"),
    old("bcast", "ibcast"),
    old("scatter", "iscatter"),
    old("gather", "igather"),
    old("reduce", "ireduce"),
    old("allreduce", "iallreduce"),
    old("allgather", "iallgather"),
    old("alltoall", "ialltoall"),
    old("scan", "iscan"),
    old("exscan", "iexscan"),
    old("reduce_scatter_block", "ireduce_scatter_block"),
    old("reduce_scatter", "ireduce_scatter"),
    old("allgatherv", "iallgatherv"),
    old("alltoallv", "ialltoallv"),
    old("alltoallw", "ialltoallw"),
    old("gatherv", "igatherv"),
    old("scatterv", "iscatterv"),
    of(ON_OLD, "comm_split"),
    of(ON_OLD, "comm_split_type"),
    of(ON_OLDER, "dist_graph_create"),
    both(ON_OLD, "comm_dup", "comm_idup"),
    both(ON_OLD, "comm_dup_with_info", "comm_idup_with_info"),
    of(ON_OLD, "comm_create"),
    of(ON_COMM, "comm_free"),
    of(ON_COMM, "comm_disconnect"),
    of(ON_OLDER, "cart_create"),
    of(ON_OLDER, "graph_create"),
    of(ON_OLDER, "dist_graph_create_adjacent"),
    of(ON_OLD, "cart_sub"),
    of(ON_LOCAL, "intercomm_create"),
    of(ON_COMM, "comm_spawn"),
    of(ON_COMM, "comm_spawn_multiple"),
    of(ON_COMM, "comm_accept"),
    of(ON_COMM, "comm_connect"),
    of(ON_COMM, "win_create"),
    of(ON_COMM, "win_allocate"),
    of(ON_COMM, "win_allocate_shared"),
    of(ON_COMM, "win_create_dynamic"),
    of(ON_COMM, "file_open"),
    both(ON_COMM, "neighbor_allgather", "ineighbor_allgather"),
    both(ON_COMM, "neighbor_allgatherv", "ineighbor_allgatherv"),
    both(ON_COMM, "neighbor_alltoall", "ineighbor_alltoall"),
    both(ON_COMM, "neighbor_alltoallv", "ineighbor_alltoallv"),
    both(ON_COMM, "neighbor_alltoallw", "ineighbor_alltoallw"),
    of(ON_WIN, "win_fence"),
    of(ON_WIN, "win_free"),
    of(ON_FILE, "file_close"),
    of(ON_FILE, "file_set_view"),
    of(ON_FILE, "file_set_size"),
    of(ON_FILE, "file_preallocate"),
    of(ON_FILE, "file_sync"),
    of(ON_FILE, "file_set_atomicity"),
    of(ON_FILE, "file_seek_shared"),
    both(ON_FILE, "file_read_all", "file_iread_all"),
    both(ON_FILE, "file_read_at_all", "file_iread_at_all"),
    of(ON_FILE, "file_read_ordered"),
    both(ON_FILE, "file_write_all", "file_iwrite_all"),
    both(ON_FILE, "file_write_at_all", "file_iwrite_at_all"),
    of(ON_FILE, "file_write_ordered"),
    of(ON_FILE, "file_read_all_begin"),
    of(ON_FILE, "file_read_at_all_begin"),
    of(ON_FILE, "file_read_ordered_begin"),
    of(ON_FILE, "file_write_all_begin"),
    of(ON_FILE, "file_write_at_all_begin"),
    of(ON_FILE, "file_write_ordered_begin"),
    of(ON_FILE, "file_read_all_end"),
    of(ON_FILE, "file_read_at_all_end"),
    of(ON_FILE, "file_read_ordered_end"),
    of(ON_FILE, "file_write_all_end"),
    of(ON_FILE, "file_write_at_all_end"),
    of(ON_FILE, "file_write_ordered_end"),
    of(ON_COMM, "comm_set_info"),
    of(ON_WIN, "win_set_info"),
    of(ON_FILE, "file_set_info"),
    of(ON_INTER, "intercomm_merge"),
];

/// The profile from which on a kind's blocking or nonblocking calls are read.
pub fn since(kind: u8, nonblocking: bool) -> Profile {
    match kind {
        MERGE => Profile::Intercomms,
        FIRST_LENIENT.. => Profile::Objects,
        0 => Profile::First,
        1..8 if !nonblocking => Profile::First,
        _ => Profile::Collectives,
    }
}

/// The profile from which on `_c` may stand behind its name, if there is one.
pub fn large_since(kind: u8, nonblocking: bool) -> Option<Profile> {
    match kind {
        0 if nonblocking => None,
        ..FIRST_LENIENT => Some(since(kind, nonblocking).max(Profile::Completions)),
        _ if ["neighbor_", "file_", "win_"].iter().any(|p| KINDS[kind as usize].word.starts_with(p)) => Some(Profile::Objects),
        _ => None,
    }
}

/// Whether calls of this kind have a root.
#[inline(always)]
pub fn is_rooted(kind: u8) -> bool {
    matches!(kind, 1..=4 | 15 | 16)
}

#[inline(always)]
pub fn sort_of(kind: u8) -> u8 {
    if kind < FIRST_LENIENT { COMMUNICATOR } else { KINDS[kind as usize].sort }
}
