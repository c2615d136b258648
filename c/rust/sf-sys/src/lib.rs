//! The functions and structs of `sf_functions.h`, a header of the library for C, which documents
//! them. The sizes of the structs are asserted below and the offsets of their members tested, by the
//! numbers that the tests of the library for C have for the header. The crate `sf` has safe functions
//! over these.
#![cfg_attr(not(test), no_std)]

use core::ffi::c_void;
use core::mem::size_of;

#[repr(C)]
pub struct Refusal {
    pub offset: u64,
    pub expected_low: u64,
    pub expected_high: u64,
    pub found: i32,
    pub may_end: u32,
}

#[repr(C)]
#[derive(Clone, Copy, Debug, PartialEq, Eq)]
pub struct Node {
    pub number: i64,
    pub key_at: u32,
    pub key_length: u32,
    pub text_at: u32,
    pub text_length: u32,
    pub size: u32,
    /// The header's `type`: an `sf_type`.
    pub kind: u8,
    pub role: u8,
    pub coded: u8,
}

#[repr(C)]
pub struct Sizes {
    pub nodes: usize,
    pub bytes: usize,
}

#[repr(C)]
#[derive(Clone, Copy, Debug, PartialEq, Eq)]
pub struct PriorityFlags {
    pub urgency: u8,
    pub incremental: u8,
    pub has_urgency: u8,
    pub has_incremental: u8,
}

#[repr(C)]
#[derive(Clone, Copy, Debug, PartialEq, Eq)]
pub struct ResponsePriorityFlags {
    pub urgency: u8,
    pub incremental: u8,
    pub has_urgency: u8,
    pub has_incremental: u8,
}

#[repr(C)]
#[derive(Clone, Copy, Debug, PartialEq, Eq)]
pub struct Policy {
    pub max_age: u64,
    pub s_maxage: u64,
    pub has_max_age: u8,
    pub has_s_maxage: u8,
    pub must_revalidate: u8,
    pub no_store: u8,
    pub no_cache: u8,
    pub is_private: u8,
}

#[repr(C)]
#[derive(Clone, Copy, Debug, PartialEq, Eq)]
pub struct Rules {
    pub policy: Policy,
    pub invalid_max_age: u8,
    pub invalid_s_maxage: u8,
    pub proxy_revalidate: u8,
    pub must_understand: u8,
    pub is_public: u8,
}

#[repr(C)]
#[derive(Clone, Copy, Debug, PartialEq, Eq)]
pub struct Time {
    pub seconds: u64,
    pub lines: u32,
}

#[repr(C)]
#[derive(Clone, Copy, Debug, PartialEq, Eq)]
pub struct Fallback {
    pub rules: Rules,
    pub expires: Time,
    pub date: Time,
    pub is_refused: u32,
}

#[repr(C)]
pub struct Response {
    pub age: u64,
    pub lifetime: u64,
    pub has_lifetime: u8,
    pub is_understood: u8,
}

#[repr(C)]
pub struct Decision {
    pub seconds: u64,
    pub reuse: u8,
    pub cause: u8,
    pub allows_storing: u8,
    pub allows_authorized: u8,
}

#[repr(C)]
#[derive(Clone, Copy, Debug, PartialEq, Eq)]
pub struct Span {
    pub at: usize,
    pub length: usize,
}

#[repr(C)]
#[derive(Clone, Copy, Debug, PartialEq, Eq)]
pub struct Hop {
    pub name: Span,
    pub why_token: Span,
    pub key: Span,
    pub detail: Span,
    pub ttl: i64,
    pub outcome: u16,
    pub why: u16,
    pub status: u16,
    pub has_status: u8,
    pub stored: u8,
    pub has_stored: u8,
    pub collapsed: u8,
    pub has_collapsed: u8,
    pub has_ttl: u8,
    pub has_key: u8,
    pub has_detail: u8,
    pub name_is_token: u8,
    pub detail_is_token: u8,
}

#[repr(C)]
pub struct Path {
    pub hops: usize,
    pub bytes: usize,
    pub served: usize,
    pub nameless: usize,
    pub is_served: u32,
}

#[repr(C)]
pub struct Joined {
    pub length: usize,
    pub required: usize,
    pub begun: u32,
}

// The sizes; where the members stand is tested below.
const _: () = {
    assert!(size_of::<Refusal>() == 32);
    assert!(size_of::<Node>() == 32);
    assert!(size_of::<Sizes>() == 16);
    assert!(size_of::<PriorityFlags>() == 4);
    assert!(size_of::<ResponsePriorityFlags>() == 4);
    assert!(size_of::<Policy>() == 24);
    assert!(size_of::<Rules>() == 32);
    assert!(size_of::<Time>() == 16);
    assert!(size_of::<Fallback>() == 72);
    assert!(size_of::<Response>() == 24);
    assert!(size_of::<Decision>() == 16);
    assert!(size_of::<Span>() == 16);
    assert!(size_of::<Hop>() == 88);
    assert!(size_of::<Path>() == 40);
    assert!(size_of::<Joined>() == 24);
};

// An `sf_status`.
pub const OK: u32 = 0;
pub const REFUSED: u32 = 1;
pub const SECOND_REFUSED: u32 = 2;
pub const SHORT: u32 = 3;
pub const NO_MEMORY: u32 = 4;
pub const EMPTY: u32 = 5;
pub const BAD_CALL: u32 = 6;
pub const NOT_A_CACHE: u32 = 7;
pub const INVALID: u32 = 8;
pub const ABSENT: u32 = 9;
pub const TOO_LONG: u32 = 10;
pub const TOO_MANY: u32 = 11;

// An `sf_kind`.
pub const ITEM: u32 = 1;
pub const LIST: u32 = 2;
pub const DICT: u32 = 3;

// An `sf_dialect`.
pub const RFC9651: u32 = 9651;
pub const RFC8941: u32 = 8941;

// An `sf_role`, as a node has it.
pub const MEMBER: u8 = 11;
pub const INNER_ITEM: u8 = 12;
pub const PARAMETER: u8 = 13;
pub const INNER_PARAMETER: u8 = 14;

// An `sf_type`, as a node has it.
pub const INNER_LIST: u8 = 21;
pub const INTEGER: u8 = 22;
pub const DECIMAL: u8 = 23;
pub const STRING: u8 = 24;
pub const TOKEN: u8 = 25;
pub const BYTE_SEQUENCE: u8 = 26;
pub const BOOLEAN: u8 = 27;
pub const DATE: u8 = 28;
pub const DISPLAY_STRING: u8 = 29;

// An `sf_outcome`.
pub const UNSAID: u16 = 0;
pub const HIT: u16 = 1;
pub const FORWARDED: u16 = 2;
pub const CONFLICT: u16 = 3;

// An `sf_forward`.
pub const NO_FORWARD: u16 = 0;
pub const BYPASS: u16 = 1;
pub const METHOD: u16 = 2;
pub const URI_MISS: u16 = 3;
pub const VARY_MISS: u16 = 4;
pub const MISS: u16 = 5;
pub const REQUEST: u16 = 6;
pub const STALE: u16 = 7;
pub const PARTIAL: u16 = 8;
pub const OTHER: u16 = 9;

// An `sf_cache`.
pub const SHARED_CACHE: u32 = 31;
pub const PRIVATE_CACHE: u32 = 32;

// An `sf_reuse`, as a decision has it.
pub const REUSE_NOT_STORED: u8 = 41;
pub const REUSE_FRESH: u8 = 42;
pub const REUSE_STALE: u8 = 43;
pub const REUSE_REVALIDATE: u8 = 44;
pub const REUSE_UNSPECIFIED: u8 = 45;

// An `sf_cause`, as a decision has it.
pub const BY_NOTHING: u8 = 51;
pub const BY_NO_STORE: u8 = 52;
pub const BY_PRIVATE: u8 = 53;
pub const BY_MUST_UNDERSTAND: u8 = 54;
pub const BY_NO_CACHE: u8 = 55;
pub const BY_MAX_AGE: u8 = 56;
pub const BY_S_MAXAGE: u8 = 57;
pub const BY_INVALID_MAX_AGE: u8 = 58;
pub const BY_INVALID_S_MAXAGE: u8 = 59;
pub const BY_EXPIRES: u8 = 60;
pub const BY_MUST_REVALIDATE: u8 = 61;
pub const BY_PROXY_REVALIDATE: u8 = 62;

// An `sf_fallback_field`.
pub const FALLBACK_CACHE_CONTROL: u32 = 71;
pub const FALLBACK_EXPIRES: u32 = 72;
pub const FALLBACK_DATE: u32 = 73;

extern "C" {
    pub fn sf_version() -> u32;
    pub fn sf_check(
        seed: *const [u8; 16],
        dialect: u32,
        kind: u32,
        text: *const c_void,
        length: usize,
        refusal: *mut Refusal,
    ) -> u32;
    pub fn sf_refusal_text(
        refusal: *const Refusal,
        buffer: *mut c_void,
        buffer_length: usize,
        required: *mut usize,
    ) -> u32;
    pub fn sf_refusal_in_text(
        refusal: *const Refusal,
        text: *const c_void,
        length: usize,
        buffer: *mut c_void,
        buffer_length: usize,
        required: *mut usize,
    ) -> u32;
    pub fn sf_normalise(
        seed: *const [u8; 16],
        dialect: u32,
        kind: u32,
        text: *const c_void,
        length: usize,
        buffer: *mut c_void,
        buffer_length: usize,
        required: *mut usize,
        refusal: *mut Refusal,
    ) -> u32;
    pub fn sf_equal(
        seed: *const [u8; 16],
        dialect: u32,
        kind: u32,
        first: *const c_void,
        first_length: usize,
        second: *const c_void,
        second_length: usize,
        equal: *mut u32,
        refusal: *mut Refusal,
    ) -> u32;
    pub fn sf_parse(
        seed: *const [u8; 16],
        dialect: u32,
        kind: u32,
        text: *const c_void,
        length: usize,
        nodes: *mut Node,
        nodes_capacity: usize,
        bytes: *mut c_void,
        bytes_capacity: usize,
        sizes: *mut Sizes,
        refusal: *mut Refusal,
    ) -> u32;
    pub fn sf_find(
        nodes: *const Node,
        nodes_length: usize,
        text: *const c_void,
        text_length: usize,
        bytes: *const c_void,
        bytes_length: usize,
        role: u32,
        key: *const c_void,
        key_length: usize,
        index: *mut usize,
    ) -> u32;
    pub fn sf_write(
        seed: *const [u8; 16],
        dialect: u32,
        kind: u32,
        nodes: *const Node,
        nodes_length: usize,
        text: *const c_void,
        text_length: usize,
        bytes: *const c_void,
        bytes_length: usize,
        buffer: *mut c_void,
        buffer_length: usize,
        required: *mut usize,
        invalid: *mut usize,
    ) -> u32;
    pub fn sf_priority(
        seed: *const [u8; 16],
        text: *const c_void,
        length: usize,
        priority: *mut PriorityFlags,
        refusal: *mut Refusal,
    ) -> u32;
    pub fn sf_priority_in(
        seed: *const [u8; 16],
        dialect: u32,
        text: *const c_void,
        length: usize,
        priority: *mut PriorityFlags,
        refusal: *mut Refusal,
    ) -> u32;
    pub fn sf_response_priority(
        seed: *const [u8; 16],
        dialect: u32,
        text: *const c_void,
        length: usize,
        priority: *mut ResponsePriorityFlags,
        refusal: *mut Refusal,
    ) -> u32;
    pub fn sf_priority_merge(
        request: *const PriorityFlags,
        response: *const ResponsePriorityFlags,
    ) -> PriorityFlags;
    pub fn sf_response_priority_text(
        priority: *const ResponsePriorityFlags,
        buffer: *mut c_void,
        buffer_length: usize,
        required: *mut usize,
    ) -> u32;
    pub fn sf_priority_text(
        priority: *const PriorityFlags,
        buffer: *mut c_void,
        buffer_length: usize,
        required: *mut usize,
    ) -> u32;
    pub fn sf_priority_change(
        seed: *const [u8; 16],
        text: *const c_void,
        length: usize,
        priority: *const PriorityFlags,
        buffer: *mut c_void,
        buffer_length: usize,
        required: *mut usize,
        refusal: *mut Refusal,
    ) -> u32;
    pub fn sf_cache_control(
        seed: *const [u8; 16],
        text: *const c_void,
        length: usize,
        policy: *mut Policy,
        refusal: *mut Refusal,
    ) -> u32;
    pub fn sf_select(
        seed: *const [u8; 16],
        texts: *const c_void,
        texts_length: usize,
        fields: *const Span,
        fields_length: usize,
        index: *mut usize,
        policy: *mut Policy,
    ) -> u32;
    pub fn sf_cache_rules(
        seed: *const [u8; 16],
        dialect: u32,
        text: *const c_void,
        length: usize,
        rules: *mut Rules,
        refusal: *mut Refusal,
    ) -> u32;
    pub fn sf_select_rules(
        seed: *const [u8; 16],
        dialect: u32,
        texts: *const c_void,
        texts_length: usize,
        fields: *const Span,
        fields_length: usize,
        index: *mut usize,
        rules: *mut Rules,
    ) -> u32;
    pub fn sf_decide(
        rules: *const Rules,
        cache: u32,
        response: *const Response,
        decision: *mut Decision,
    ) -> u32;
    pub fn sf_fallback_line(
        field: u32,
        line: *const c_void,
        length: usize,
        fallback: *mut Fallback,
    ) -> u32;
    pub fn sf_fallback_lifetime(
        fallback: *const Fallback,
        received: u64,
        response: *mut Response,
    ) -> u32;
    pub fn sf_cache_status(
        seed: *const [u8; 16],
        text: *const c_void,
        length: usize,
        hops: *mut Hop,
        hops_capacity: usize,
        bytes: *mut c_void,
        bytes_capacity: usize,
        path: *mut Path,
        refusal: *mut Refusal,
    ) -> u32;
    pub fn sf_hop_text(
        seed: *const [u8; 16],
        hop: *const Hop,
        bytes: *const c_void,
        bytes_length: usize,
        buffer: *mut c_void,
        buffer_length: usize,
        required: *mut usize,
    ) -> u32;
    pub fn sf_cache_status_in(
        seed: *const [u8; 16],
        dialect: u32,
        text: *const c_void,
        length: usize,
        hops: *mut Hop,
        hops_capacity: usize,
        bytes: *mut c_void,
        bytes_capacity: usize,
        path: *mut Path,
        refusal: *mut Refusal,
    ) -> u32;
    pub fn sf_cache_status_append(
        seed: *const [u8; 16],
        dialect: u32,
        text: *const c_void,
        length: usize,
        hop: *const Hop,
        bytes: *const c_void,
        bytes_length: usize,
        buffer: *mut c_void,
        buffer_length: usize,
        required: *mut usize,
        refusal: *mut Refusal,
    ) -> u32;
    pub fn sf_join(
        line: *const c_void,
        line_length: usize,
        buffer: *mut c_void,
        buffer_length: usize,
        joined: *mut Joined,
    ) -> u32;
    pub fn sf_lifetime(policy: *const Policy, shared: u32, seconds: *mut u64) -> u32;
}

#[cfg(test)]
mod tests {
    use super::*;
    use std::mem::MaybeUninit;
    use std::ptr::addr_of;

    macro_rules! at {
        ($struct:ident, $member:ident) => {{
            let it = MaybeUninit::<$struct>::uninit();
            // SAFETY: the address is of memory that is there, and nothing is read.
            let member = unsafe { addr_of!((*it.as_ptr()).$member) };
            member as usize - it.as_ptr() as usize
        }};
    }

    #[test]
    fn members_stand_where_the_header_has_them() {
        assert_eq!(at!(Refusal, offset), 0);
        assert_eq!(at!(Refusal, expected_low), 8);
        assert_eq!(at!(Refusal, expected_high), 16);
        assert_eq!(at!(Refusal, found), 24);
        assert_eq!(at!(Refusal, may_end), 28);
        assert_eq!(at!(Node, number), 0);
        assert_eq!(at!(Node, key_at), 8);
        assert_eq!(at!(Node, key_length), 12);
        assert_eq!(at!(Node, text_at), 16);
        assert_eq!(at!(Node, text_length), 20);
        assert_eq!(at!(Node, size), 24);
        assert_eq!(at!(Node, kind), 28);
        assert_eq!(at!(Node, role), 29);
        assert_eq!(at!(Node, coded), 30);
        assert_eq!(at!(Sizes, nodes), 0);
        assert_eq!(at!(Sizes, bytes), 8);
        assert_eq!(at!(PriorityFlags, urgency), 0);
        assert_eq!(at!(PriorityFlags, incremental), 1);
        assert_eq!(at!(PriorityFlags, has_urgency), 2);
        assert_eq!(at!(PriorityFlags, has_incremental), 3);
        assert_eq!(at!(ResponsePriorityFlags, urgency), 0);
        assert_eq!(at!(ResponsePriorityFlags, incremental), 1);
        assert_eq!(at!(ResponsePriorityFlags, has_urgency), 2);
        assert_eq!(at!(ResponsePriorityFlags, has_incremental), 3);
        assert_eq!(at!(Policy, max_age), 0);
        assert_eq!(at!(Policy, s_maxage), 8);
        assert_eq!(at!(Policy, has_max_age), 16);
        assert_eq!(at!(Policy, has_s_maxage), 17);
        assert_eq!(at!(Policy, must_revalidate), 18);
        assert_eq!(at!(Policy, no_store), 19);
        assert_eq!(at!(Policy, no_cache), 20);
        assert_eq!(at!(Policy, is_private), 21);
        assert_eq!(at!(Rules, policy), 0);
        assert_eq!(at!(Rules, invalid_max_age), 24);
        assert_eq!(at!(Rules, invalid_s_maxage), 25);
        assert_eq!(at!(Rules, proxy_revalidate), 26);
        assert_eq!(at!(Rules, must_understand), 27);
        assert_eq!(at!(Rules, is_public), 28);
        assert_eq!(at!(Time, seconds), 0);
        assert_eq!(at!(Time, lines), 8);
        assert_eq!(at!(Fallback, rules), 0);
        assert_eq!(at!(Fallback, expires), 32);
        assert_eq!(at!(Fallback, date), 48);
        assert_eq!(at!(Fallback, is_refused), 64);
        assert_eq!(at!(Response, age), 0);
        assert_eq!(at!(Response, lifetime), 8);
        assert_eq!(at!(Response, has_lifetime), 16);
        assert_eq!(at!(Response, is_understood), 17);
        assert_eq!(at!(Decision, seconds), 0);
        assert_eq!(at!(Decision, reuse), 8);
        assert_eq!(at!(Decision, cause), 9);
        assert_eq!(at!(Decision, allows_storing), 10);
        assert_eq!(at!(Decision, allows_authorized), 11);
        assert_eq!(at!(Span, at), 0);
        assert_eq!(at!(Span, length), 8);
        assert_eq!(at!(Hop, name), 0);
        assert_eq!(at!(Hop, why_token), 16);
        assert_eq!(at!(Hop, key), 32);
        assert_eq!(at!(Hop, detail), 48);
        assert_eq!(at!(Hop, ttl), 64);
        assert_eq!(at!(Hop, outcome), 72);
        assert_eq!(at!(Hop, why), 74);
        assert_eq!(at!(Hop, status), 76);
        assert_eq!(at!(Hop, has_status), 78);
        assert_eq!(at!(Hop, stored), 79);
        assert_eq!(at!(Hop, has_stored), 80);
        assert_eq!(at!(Hop, collapsed), 81);
        assert_eq!(at!(Hop, has_collapsed), 82);
        assert_eq!(at!(Hop, has_ttl), 83);
        assert_eq!(at!(Hop, has_key), 84);
        assert_eq!(at!(Hop, has_detail), 85);
        assert_eq!(at!(Hop, name_is_token), 86);
        assert_eq!(at!(Hop, detail_is_token), 87);
        assert_eq!(at!(Path, hops), 0);
        assert_eq!(at!(Path, bytes), 8);
        assert_eq!(at!(Path, served), 16);
        assert_eq!(at!(Path, nameless), 24);
        assert_eq!(at!(Path, is_served), 32);
        assert_eq!(at!(Joined, length), 0);
        assert_eq!(at!(Joined, required), 8);
        assert_eq!(at!(Joined, begun), 16);
    }
}
