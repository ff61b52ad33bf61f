//! The library's calls, as `include/warg.h` declares them, and what is owed to each:
//!
//! - Each pointer leads to as many initialised bytes, or links, as the length behind it says. Here both are those of one slice, or the
//!   pointer is that of a reference to a structure.
//! - What a call writes to overlaps nothing else that it has. Here that is borrowed alone, as `&mut`; a log is behind an `UnsafeCell`
//!   of its own, and two of one call are two.
//! - A log is all zeros, or as the last call left it, and serves one call at a time. A [`Log`](crate::Log) owns its handle and is not
//!   `Sync`, and no call is made within another.
//! - The same holds of a registry, and it stays on one thread: [`RegistryTrees`](crate::RegistryTrees) is not `Send` either.
use std::ffi::c_void;

pub(crate) const OK: u32 = 0;
pub(crate) const OUT_OF_MEMORY: u32 = 2;
pub(crate) const TOO_SMALL: u32 = 3;
pub(crate) const NO_ENVELOPE: u32 = 4;
pub(crate) const REFUSED: u32 = 5;
pub(crate) const NONE: u32 = 6;
pub(crate) const BAD_ARGUMENT: u32 = 7;
pub(crate) const UNKNOWN_ALGORITHM: u32 = 8;

pub(crate) const LOG_TREE: u32 = 0;
pub(crate) const MAP_TREE: u32 = 1;

/// A `struct warg_log`. All 0 is none.
#[repr(C)]
pub(crate) struct Log {
    pub at: *mut c_void,
    pub is_open: bool,
}

/// A `struct warg_asked`.
#[repr(C)]
#[derive(Clone, Copy, Default, Debug, PartialEq, Eq)]
pub(crate) struct Asked {
    pub key_len: usize,
    pub message_len: usize,
    pub signature_len: usize,
}

/// A `struct warg_kept`.
#[repr(C)]
#[derive(Default)]
pub(crate) struct Kept {
    pub envelope_len: usize,
    pub id_len: usize,
}

/// A `struct warg_head`.
#[repr(C)]
#[derive(Default)]
pub(crate) struct Head {
    pub seconds: i64,
    pub count: usize,
    pub nanos: u32,
    pub version: u32,
    pub is_counted: u32,
}

/// A `struct warg_release`.
#[repr(C)]
#[derive(Default)]
pub(crate) struct Release {
    pub version_len: usize,
    pub record_id_len: usize,
    pub key_id_len: usize,
    pub state_len: usize,
    pub seconds: i64,
    pub yanked_seconds: i64,
    pub nanos: u32,
    pub yanked_nanos: u32,
    pub is_yanked: u32,
}

/// A `struct warg_link`.
#[repr(C)]
#[derive(Clone, Copy, Default)]
pub(crate) struct Link {
    pub record_index: usize,
    pub entry_index: usize,
}

/// A `struct warg_comparison`, whose first field is named `is` there.
#[repr(C)]
#[derive(Default)]
pub(crate) struct Comparison {
    pub case: u32,
    pub left: usize,
    pub right: usize,
}

/// A `struct warg_registry`. All 0 is none.
#[repr(C)]
pub(crate) struct Registry {
    pub at: *mut c_void,
    pub is_open: bool,
}

/// A `struct warg_roots`.
#[repr(C)]
#[derive(Default)]
pub(crate) struct Roots {
    pub log_root_len: usize,
    pub map_root_len: usize,
}

/// A `struct warg_log_head`.
#[repr(C)]
#[derive(Default)]
pub(crate) struct LogHead {
    pub record_id_len: usize,
    pub proof_len: usize,
}

/// A `struct warg_signed_checkpoint`.
#[repr(C)]
#[derive(Default)]
pub(crate) struct SignedCheckpoint {
    pub log_length: u64,
    pub timestamp: u64,
    pub log_root_len: usize,
    pub map_root_len: usize,
    pub key_id_len: usize,
    pub signature_len: usize,
}

extern "C" {
    pub(crate) fn warg_open(log: *mut Log, kind: u32) -> u32;
    pub(crate) fn warg_close(log: *mut Log);
    pub(crate) fn warg_ask(
        log: *mut Log,
        envelope: *const u8,
        envelope_len: usize,
        bytes: *mut u8,
        bytes_len: usize,
        used: *mut usize,
        asked: *mut Asked,
    ) -> u32;
    pub(crate) fn warg_append(
        log: *mut Log,
        envelope: *const u8,
        envelope_len: usize,
        question: *const u8,
        question_len: usize,
        asked: *const Asked,
        belongs: bool,
        text: *mut u8,
        text_len: usize,
        used: *mut usize,
    ) -> u32;
    pub(crate) fn warg_append_signed(
        log: *mut Log,
        envelope: *const u8,
        envelope_len: usize,
        text: *mut u8,
        text_len: usize,
        used: *mut usize,
    ) -> u32;
    pub(crate) fn warg_verify(
        key: *const u8,
        key_len: usize,
        message: *const u8,
        message_len: usize,
        signature: *const u8,
        signature_len: usize,
    ) -> u32;
    pub(crate) fn warg_head(log: *mut Log, text: *mut u8, text_len: usize, used: *mut usize) -> u32;
    pub(crate) fn warg_head_of(log: *mut Log, head: *mut Head) -> u32;
    pub(crate) fn warg_length(log: *mut Log, length: *mut usize) -> u32;
    pub(crate) fn warg_record(
        log: *mut Log,
        place: usize,
        bytes: *mut u8,
        bytes_len: usize,
        used: *mut usize,
        kept: *mut Kept,
    ) -> u32;
    pub(crate) fn warg_id(
        kind: u32,
        envelope: *const u8,
        envelope_len: usize,
        text: *mut u8,
        text_len: usize,
        used: *mut usize,
    ) -> u32;
    pub(crate) fn warg_latest(
        log: *mut Log,
        requirement: *const u8,
        requirement_len: usize,
        text: *mut u8,
        text_len: usize,
        used: *mut usize,
        release: *mut Release,
    ) -> u32;
    pub(crate) fn warg_release(
        log: *mut Log,
        version: *const u8,
        version_len: usize,
        text: *mut u8,
        text_len: usize,
        used: *mut usize,
        release: *mut Release,
    ) -> u32;
    pub(crate) fn warg_releases(
        log: *mut Log,
        place: usize,
        text: *mut u8,
        text_len: usize,
        used: *mut usize,
        release: *mut Release,
    ) -> u32;
    pub(crate) fn warg_namespace(
        log: *mut Log,
        name: *const u8,
        name_len: usize,
        text: *mut u8,
        text_len: usize,
        used: *mut usize,
        is_imported: *mut u32,
    ) -> u32;
    pub(crate) fn warg_holds(
        log: *mut Log,
        key_id: *const u8,
        key_id_len: usize,
        permission: *const u8,
        permission_len: usize,
    ) -> u32;
    pub(crate) fn warg_permissions(
        log: *mut Log,
        key_id: *const u8,
        key_id_len: usize,
        text: *mut u8,
        text_len: usize,
        used: *mut usize,
    ) -> u32;
    pub(crate) fn warg_key(
        log: *mut Log,
        key_id: *const u8,
        key_id_len: usize,
        text: *mut u8,
        text_len: usize,
        used: *mut usize,
    ) -> u32;
    pub(crate) fn warg_chain(
        log: *mut Log,
        key_id: *const u8,
        key_id_len: usize,
        permission: *const u8,
        permission_len: usize,
        links: *mut Link,
        links_len: usize,
        used: *mut usize,
    ) -> u32;
    pub(crate) fn warg_compare(left: *mut Log, right: *mut Log, comparison: *mut Comparison) -> u32;
    pub(crate) fn warg_save(log: *mut Log, text: *mut u8, text_len: usize, used: *mut usize) -> u32;
    pub(crate) fn warg_resume(
        log: *mut Log,
        kind: u32,
        saved: *const u8,
        saved_len: usize,
        text: *mut u8,
        text_len: usize,
        used: *mut usize,
    ) -> u32;
    pub(crate) fn warg_resume_counted(
        log: *mut Log,
        kind: u32,
        saved: *const u8,
        saved_len: usize,
        count: usize,
        text: *mut u8,
        text_len: usize,
        used: *mut usize,
    ) -> u32;
    pub(crate) fn warg_log_id(
        kind: u32,
        name: *const u8,
        name_len: usize,
        text: *mut u8,
        text_len: usize,
        used: *mut usize,
    ) -> u32;
    pub(crate) fn warg_leaf(
        log_id: *const u8,
        log_id_len: usize,
        record_id: *const u8,
        record_id_len: usize,
        bytes: *mut u8,
        bytes_len: usize,
        used: *mut usize,
    ) -> u32;
    pub(crate) fn warg_verify_inclusion(
        log_id: *const u8,
        log_id_len: usize,
        record_id: *const u8,
        record_id_len: usize,
        place: u64,
        length: u64,
        root: *const u8,
        root_len: usize,
        proof: *const u8,
        proof_len: usize,
    ) -> u32;
    pub(crate) fn warg_verify_consistency(
        old_length: u64,
        old_root: *const u8,
        old_root_len: usize,
        new_length: u64,
        new_root: *const u8,
        new_root_len: usize,
        proof: *const u8,
        proof_len: usize,
    ) -> u32;
    pub(crate) fn warg_verify_presence(
        log_id: *const u8,
        log_id_len: usize,
        record_id: *const u8,
        record_id_len: usize,
        root: *const u8,
        root_len: usize,
        proof: *const u8,
        proof_len: usize,
    ) -> u32;
    pub(crate) fn warg_verify_absence(
        log_id: *const u8,
        log_id_len: usize,
        root: *const u8,
        root_len: usize,
        proof: *const u8,
        proof_len: usize,
    ) -> u32;
    pub(crate) fn warg_proof_fault(
        tree: u32,
        proof: *const u8,
        proof_len: usize,
        text: *mut u8,
        text_len: usize,
        used: *mut usize,
    ) -> u32;
    pub(crate) fn warg_compare_checkpoints(
        old_length: u64,
        old_log_root: *const u8,
        old_log_root_len: usize,
        old_map_root: *const u8,
        old_map_root_len: usize,
        new_length: u64,
        new_log_root: *const u8,
        new_log_root_len: usize,
        new_map_root: *const u8,
        new_map_root_len: usize,
        proof: *const u8,
        proof_len: usize,
        comparison: *mut u32,
    ) -> u32;
    pub(crate) fn warg_compare_leaves(
        place: u64,
        old_length: u64,
        old_root: *const u8,
        old_root_len: usize,
        old_log_id: *const u8,
        old_log_id_len: usize,
        old_record_id: *const u8,
        old_record_id_len: usize,
        old_proof: *const u8,
        old_proof_len: usize,
        new_length: u64,
        new_root: *const u8,
        new_root_len: usize,
        new_log_id: *const u8,
        new_log_id_len: usize,
        new_record_id: *const u8,
        new_record_id_len: usize,
        new_proof: *const u8,
        new_proof_len: usize,
        comparison: *mut u32,
    ) -> u32;
    pub(crate) fn warg_compare_heads(
        map_root: *const u8,
        map_root_len: usize,
        log_id: *const u8,
        log_id_len: usize,
        one_record_id: *const u8,
        one_record_id_len: usize,
        one_proof: *const u8,
        one_proof_len: usize,
        other_record_id: *const u8,
        other_record_id_len: usize,
        other_proof: *const u8,
        other_proof_len: usize,
        comparison: *mut u32,
    ) -> u32;
    pub(crate) fn warg_compare_beginnings(
        new_length: u64,
        new_root: *const u8,
        new_root_len: usize,
        one_length: u64,
        one_log_root: *const u8,
        one_log_root_len: usize,
        one_map_root: *const u8,
        one_map_root_len: usize,
        one_proof: *const u8,
        one_proof_len: usize,
        other_length: u64,
        other_log_root: *const u8,
        other_log_root_len: usize,
        other_map_root: *const u8,
        other_map_root_len: usize,
        other_proof: *const u8,
        other_proof_len: usize,
        comparison: *mut u32,
    ) -> u32;
    pub(crate) fn warg_registry_open(registry: *mut Registry) -> u32;
    pub(crate) fn warg_registry_close(registry: *mut Registry);
    pub(crate) fn warg_registry_push(
        registry: *mut Registry,
        log_id: *const u8,
        log_id_len: usize,
        record_id: *const u8,
        record_id_len: usize,
        place: *mut u64,
    ) -> u32;
    pub(crate) fn warg_registry_length(registry: *mut Registry, length: *mut u64) -> u32;
    pub(crate) fn warg_registry_roots(
        registry: *mut Registry,
        text: *mut u8,
        text_len: usize,
        used: *mut usize,
        roots: *mut Roots,
    ) -> u32;
    pub(crate) fn warg_registry_inclusion(
        registry: *mut Registry,
        place: u64,
        text: *mut u8,
        text_len: usize,
        used: *mut usize,
    ) -> u32;
    pub(crate) fn warg_registry_consistency(
        registry: *mut Registry,
        first_length: u64,
        text: *mut u8,
        text_len: usize,
        used: *mut usize,
    ) -> u32;
    pub(crate) fn warg_registry_head(
        registry: *mut Registry,
        log_id: *const u8,
        log_id_len: usize,
        text: *mut u8,
        text_len: usize,
        used: *mut usize,
        head: *mut LogHead,
    ) -> u32;
    pub(crate) fn warg_registry_save(registry: *mut Registry, bytes: *mut u8, bytes_len: usize, used: *mut usize) -> u32;
    pub(crate) fn warg_registry_resume(registry: *mut Registry, saved: *const u8, saved_len: usize) -> u32;
    pub(crate) fn warg_checkpoint_message(
        log_length: u64,
        log_root: *const u8,
        log_root_len: usize,
        map_root: *const u8,
        map_root_len: usize,
        timestamp: u64,
        bytes: *mut u8,
        bytes_len: usize,
        used: *mut usize,
    ) -> u32;
    pub(crate) fn warg_verify_checkpoint(
        log: *mut Log,
        log_length: u64,
        log_root: *const u8,
        log_root_len: usize,
        map_root: *const u8,
        map_root_len: usize,
        timestamp: u64,
        key_id: *const u8,
        key_id_len: usize,
        signature: *const u8,
        signature_len: usize,
    ) -> u32;
    pub(crate) fn warg_checkpoint_text(
        log_length: u64,
        log_root: *const u8,
        log_root_len: usize,
        map_root: *const u8,
        map_root_len: usize,
        timestamp: u64,
        key_id: *const u8,
        key_id_len: usize,
        signature: *const u8,
        signature_len: usize,
        text: *mut u8,
        text_len: usize,
        used: *mut usize,
    ) -> u32;
    pub(crate) fn warg_read_checkpoint(
        json: *const u8,
        json_len: usize,
        text: *mut u8,
        text_len: usize,
        used: *mut usize,
        checkpoint: *mut SignedCheckpoint,
    ) -> u32;
    pub(crate) fn warg_version(text: *mut u8, text_len: usize, used: *mut usize) -> u32;
}
