//! The calls of the library for C, each by slices and with a `Result`. No other module is unsafe
//! but [`text`](crate::text), which names checked bytes.
#![allow(unsafe_code)]
// SAFETY, of each call below: a pointer with a length is that of a slice, which is borrowed for the
// call, alone if the call writes it; the structs live for the call; and the library accepts any
// numbers and bytes.

use crate::{Dialect, Error, Kind, Refusal, Seed};
use core::ffi::c_void;
use sf_sys as raw;

/// What a call made of a buffer.
pub(crate) enum Fit<T> {
    /// It wrote this, which fits.
    Written(T),
    /// It wrote nothing, since this is larger than the buffer.
    Short(T),
}

/// Of which RFC and kind a text is, and the seed for its keys.
#[derive(Clone, Copy)]
pub(crate) struct Rules {
    pub(crate) seed: Seed,
    pub(crate) dialect: Dialect,
    pub(crate) kind: Kind,
}

const NO_REFUSAL: raw::Refusal = raw::Refusal {
    offset: 0,
    expected_low: 0,
    expected_high: 0,
    found: -1,
    may_end: 0,
};

fn start(text: &[u8]) -> *const c_void {
    text.as_ptr().cast()
}

fn start_mut(buffer: &mut [u8]) -> *mut c_void {
    buffer.as_mut_ptr().cast()
}

/// The result of a call that has no buffer to be filled.
fn done(status: u32, refusal: &raw::Refusal) -> Result<(), Error> {
    match status {
        raw::OK => Ok(()),
        raw::REFUSED => Err(Error::Refused(refusal.into())),
        raw::SECOND_REFUSED => Err(Error::SecondRefused(refusal.into())),
        raw::INVALID => Err(Error::Invalid),
        raw::TOO_LONG => Err(Error::TooLong),
        raw::NO_MEMORY => Err(Error::OutOfMemory),
        _ => Err(Error::OtherLibrary),
    }
}

/// The result of a call that fills a buffer, or wants a larger one.
fn fit<T>(status: u32, sizes: T, is_larger: bool, refusal: &raw::Refusal) -> Result<Fit<T>, Error> {
    match status {
        raw::OK if !is_larger => Ok(Fit::Written(sizes)),
        raw::SHORT | raw::TOO_MANY if is_larger => Ok(Fit::Short(sizes)),
        raw::OK => Err(Error::OtherLibrary),
        status => done(status, refusal).and(Err(Error::OtherLibrary)),
    }
}

pub(crate) fn check(rules: &Rules, text: &[u8]) -> Result<(), Error> {
    let mut refusal = NO_REFUSAL;
    let status = unsafe {
        raw::sf_check(
            &rules.seed.bytes,
            rules.dialect as u32,
            rules.kind as u32,
            start(text),
            text.len(),
            &mut refusal,
        )
    };
    done(status, &refusal)
}

pub(crate) fn refusal_text(refusal: &Refusal, buffer: &mut [u8]) -> Result<Fit<usize>, Error> {
    let refusal = raw::Refusal::from(refusal);
    let mut required = 0;
    let length = buffer.len();
    let status =
        unsafe { raw::sf_refusal_text(&refusal, start_mut(buffer), length, &mut required) };
    fit(status, required, required > length, &NO_REFUSAL)
}

#[cfg(feature = "alloc")]
pub(crate) fn refusal_in_text(
    refusal: &Refusal,
    text: &[u8],
    buffer: &mut [u8],
) -> Result<Fit<usize>, Error> {
    let refusal = raw::Refusal::from(refusal);
    let mut required = 0;
    let length = buffer.len();
    let status = unsafe {
        raw::sf_refusal_in_text(
            &refusal,
            start(text),
            text.len(),
            start_mut(buffer),
            length,
            &mut required,
        )
    };
    fit(status, required, required > length, &NO_REFUSAL)
}

pub(crate) fn normalise(
    rules: &Rules,
    text: &[u8],
    buffer: &mut [u8],
) -> Result<Fit<usize>, Error> {
    let mut refusal = NO_REFUSAL;
    let mut required = 0;
    let length = buffer.len();
    let status = unsafe {
        raw::sf_normalise(
            &rules.seed.bytes,
            rules.dialect as u32,
            rules.kind as u32,
            start(text),
            text.len(),
            start_mut(buffer),
            length,
            &mut required,
            &mut refusal,
        )
    };
    fit(status, required, required > length, &refusal)
}

pub(crate) fn equal(rules: &Rules, first: &[u8], second: &[u8]) -> Result<bool, Error> {
    let mut refusal = NO_REFUSAL;
    let mut equal = 0;
    let status = unsafe {
        raw::sf_equal(
            &rules.seed.bytes,
            rules.dialect as u32,
            rules.kind as u32,
            start(first),
            first.len(),
            start(second),
            second.len(),
            &mut equal,
            &mut refusal,
        )
    };
    done(status, &refusal).map(|()| equal != 0)
}

pub(crate) fn parse(
    rules: &Rules,
    text: &[u8],
    nodes: &mut [raw::Node],
    bytes: &mut [u8],
) -> Result<Fit<raw::Sizes>, Error> {
    let mut refusal = NO_REFUSAL;
    let mut sizes = raw::Sizes { nodes: 0, bytes: 0 };
    let capacities = (nodes.len(), bytes.len());
    let status = unsafe {
        raw::sf_parse(
            &rules.seed.bytes,
            rules.dialect as u32,
            rules.kind as u32,
            start(text),
            text.len(),
            nodes.as_mut_ptr(),
            capacities.0,
            start_mut(bytes),
            capacities.1,
            &mut sizes,
            &mut refusal,
        )
    };
    let is_larger = sizes.nodes > capacities.0 || sizes.bytes > capacities.1;
    fit(status, sizes, is_larger, &refusal)
}

pub(crate) fn write(
    rules: &Rules,
    nodes: &[raw::Node],
    text: &[u8],
    bytes: &[u8],
    buffer: &mut [u8],
) -> Result<Fit<usize>, Error> {
    let (mut required, mut invalid) = (0, 0);
    let length = buffer.len();
    let status = unsafe {
        raw::sf_write(
            &rules.seed.bytes,
            rules.dialect as u32,
            rules.kind as u32,
            nodes.as_ptr(),
            nodes.len(),
            start(text),
            text.len(),
            start(bytes),
            bytes.len(),
            start_mut(buffer),
            length,
            &mut required,
            &mut invalid,
        )
    };
    fit(status, required, required > length, &NO_REFUSAL)
}

pub(crate) fn priority(
    seed: &Seed,
    dialect: Dialect,
    text: &[u8],
) -> Result<raw::PriorityFlags, Error> {
    let mut refusal = NO_REFUSAL;
    let mut flags = raw::PriorityFlags {
        urgency: 3,
        incremental: 0,
        has_urgency: 0,
        has_incremental: 0,
    };
    let status = unsafe {
        raw::sf_priority_in(
            &seed.bytes,
            dialect as u32,
            start(text),
            text.len(),
            &mut flags,
            &mut refusal,
        )
    };
    done(status, &refusal).map(|()| flags)
}

/// What the Priority field of a response sets.
pub(crate) fn response_priority(
    seed: &Seed,
    dialect: Dialect,
    text: &[u8],
) -> Result<raw::ResponsePriorityFlags, Error> {
    let mut refusal = NO_REFUSAL;
    let mut flags = raw::ResponsePriorityFlags {
        urgency: 0,
        incremental: 0,
        has_urgency: 0,
        has_incremental: 0,
    };
    let status = unsafe {
        raw::sf_response_priority(
            &seed.bytes,
            dialect as u32,
            start(text),
            text.len(),
            &mut flags,
            &mut refusal,
        )
    };
    done(status, &refusal).map(|()| flags)
}

pub(crate) fn response_priority_text(
    flags: &raw::ResponsePriorityFlags,
    buffer: &mut [u8],
) -> Result<Fit<usize>, Error> {
    let mut required = 0;
    let length = buffer.len();
    let status =
        unsafe { raw::sf_response_priority_text(flags, start_mut(buffer), length, &mut required) };
    fit(status, required, required > length, &NO_REFUSAL)
}

pub(crate) fn priority_merge(
    request: raw::PriorityFlags,
    response: raw::ResponsePriorityFlags,
) -> raw::PriorityFlags {
    unsafe { raw::sf_priority_merge(&request, &response) }
}

pub(crate) fn priority_text(
    flags: &raw::PriorityFlags,
    buffer: &mut [u8],
) -> Result<Fit<usize>, Error> {
    let mut required = 0;
    let length = buffer.len();
    let status = unsafe { raw::sf_priority_text(flags, start_mut(buffer), length, &mut required) };
    fit(status, required, required > length, &NO_REFUSAL)
}

#[cfg(feature = "alloc")]
pub(crate) fn priority_change(
    seed: &Seed,
    text: &[u8],
    flags: &raw::PriorityFlags,
    buffer: &mut [u8],
) -> Result<Fit<usize>, Error> {
    let mut refusal = NO_REFUSAL;
    let mut required = 0;
    let length = buffer.len();
    let status = unsafe {
        raw::sf_priority_change(
            &seed.bytes,
            start(text),
            text.len(),
            flags,
            start_mut(buffer),
            length,
            &mut required,
            &mut refusal,
        )
    };
    fit(status, required, required > length, &refusal)
}

const NO_POLICY: raw::Policy = raw::Policy {
    max_age: 0,
    s_maxage: 0,
    has_max_age: 0,
    has_s_maxage: 0,
    must_revalidate: 0,
    no_store: 0,
    no_cache: 0,
    is_private: 0,
};

const NO_RULES: raw::Rules = raw::Rules {
    policy: NO_POLICY,
    invalid_max_age: 0,
    invalid_s_maxage: 0,
    proxy_revalidate: 0,
    must_understand: 0,
    is_public: 0,
};

/// The directives of a targeted field, for a decision; `None` if it has no members.
pub(crate) fn cache_rules(
    seed: &Seed,
    dialect: Dialect,
    text: &[u8],
) -> Result<Option<raw::Rules>, Error> {
    let mut refusal = NO_REFUSAL;
    let mut rules = NO_RULES;
    let status = unsafe {
        raw::sf_cache_rules(
            &seed.bytes,
            dialect as u32,
            start(text),
            text.len(),
            &mut rules,
            &mut refusal,
        )
    };
    match status {
        raw::EMPTY => Ok(None),
        status => done(status, &refusal).map(|()| Some(rules)),
    }
}

pub(crate) const NO_FALLBACK: raw::Fallback = raw::Fallback {
    rules: NO_RULES,
    expires: NO_TIME,
    date: NO_TIME,
    is_refused: 0,
};

const NO_TIME: raw::Time = raw::Time {
    seconds: 0,
    lines: 0,
};

/// Adds a line of a field that decides if each field of a target list is ignored.
pub(crate) fn add_fallback_line(field: u32, line: &[u8], fallback: &mut raw::Fallback) {
    // After a refusal the directives are those of no-store.
    let _ = unsafe { raw::sf_fallback_line(field, start(line), line.len(), fallback) };
}

/// The lifetime by `Expires`.
pub(crate) fn fallback_lifetime(fallback: &raw::Fallback, received: u64) -> Option<u64> {
    let mut response = raw::Response {
        age: 0,
        lifetime: 0,
        has_lifetime: 0,
        is_understood: 0,
    };
    let status = unsafe { raw::sf_fallback_lifetime(fallback, received, &mut response) };
    (status == raw::OK).then_some(response.lifetime)
}

/// What a cache decides.
pub(crate) fn decide(
    rules: &raw::Rules,
    cache: u32,
    response: &raw::Response,
) -> Result<raw::Decision, Error> {
    let mut decision = raw::Decision {
        seconds: 0,
        reuse: raw::REUSE_NOT_STORED,
        cause: raw::BY_NOTHING,
        allows_storing: 0,
        allows_authorized: 0,
    };
    let status = unsafe { raw::sf_decide(rules, cache, response, &mut decision) };
    done(status, &NO_REFUSAL).map(|()| decision)
}

pub(crate) fn lifetime(policy: &raw::Policy, shared: bool) -> Option<u64> {
    let mut seconds = 0;
    let has_one = unsafe { raw::sf_lifetime(policy, u32::from(shared), &mut seconds) };
    (has_one != 0).then_some(seconds)
}

#[cfg(feature = "alloc")]
pub(crate) fn cache_status(
    seed: &Seed,
    dialect: Dialect,
    text: &[u8],
    hops: &mut [raw::Hop],
    bytes: &mut [u8],
) -> Result<Fit<raw::Path>, Error> {
    let mut refusal = NO_REFUSAL;
    let mut path = raw::Path {
        hops: 0,
        bytes: 0,
        served: 0,
        nameless: 0,
        is_served: 0,
    };
    let capacities = (hops.len(), bytes.len());
    let status = unsafe {
        raw::sf_cache_status_in(
            &seed.bytes,
            dialect as u32,
            start(text),
            text.len(),
            hops.as_mut_ptr(),
            capacities.0,
            start_mut(bytes),
            capacities.1,
            &mut path,
            &mut refusal,
        )
    };
    let is_larger = path.hops > capacities.0 || path.bytes > capacities.1;
    match status {
        raw::NOT_A_CACHE => Err(crate::path::not_a_cache(text, path.nameless)),
        status => fit(status, path, is_larger, &refusal),
    }
}

#[cfg(feature = "alloc")]
pub(crate) fn hop_text(
    seed: &Seed,
    hop: &raw::Hop,
    bytes: &[u8],
    buffer: &mut [u8],
) -> Result<Fit<usize>, Error> {
    let mut required = 0;
    let length = buffer.len();
    let status = unsafe {
        raw::sf_hop_text(
            &seed.bytes,
            hop,
            start(bytes),
            bytes.len(),
            start_mut(buffer),
            length,
            &mut required,
        )
    };
    fit(status, required, required > length, &NO_REFUSAL)
}

/// The text of a Cache-Status field with a hop at its end.
#[cfg(feature = "alloc")]
pub(crate) fn cache_status_append(
    seed: &Seed,
    dialect: Dialect,
    text: &[u8],
    hop: &raw::Hop,
    bytes: &[u8],
    buffer: &mut [u8],
) -> Result<Fit<usize>, Error> {
    let mut refusal = NO_REFUSAL;
    let mut required = 0;
    let length = buffer.len();
    let status = unsafe {
        raw::sf_cache_status_append(
            &seed.bytes,
            dialect as u32,
            start(text),
            text.len(),
            hop,
            start(bytes),
            bytes.len(),
            start_mut(buffer),
            length,
            &mut required,
            &mut refusal,
        )
    };
    fit(status, required, required > length, &refusal)
}

/// Appends a line to joined lines; the length that is short is the buffer's.
#[cfg(feature = "alloc")]
pub(crate) fn join(
    line: &[u8],
    buffer: &mut [u8],
    joined: &mut raw::Joined,
) -> Result<Fit<usize>, Error> {
    let length = buffer.len();
    let status =
        unsafe { raw::sf_join(start(line), line.len(), start_mut(buffer), length, joined) };
    match status {
        raw::OK => Ok(Fit::Written(joined.length)),
        _ => fit(
            status,
            joined.required,
            joined.required > length,
            &NO_REFUSAL,
        ),
    }
}
