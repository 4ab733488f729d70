//! A second, independent reading of the exterior gateway rules.
//!
//! The rules are those of paper 01 ("Build requirements and exact rules"), which stand on RFC 904
//! and override it. This library states them once more, plainly and with no regard for proofs, so
//! that another implementation can be run against it call by call.
//!
//! * [`checksum`], [`net`], [`message`], [`update`]: the octets (01, "Octets").
//! * [`neighbour`]: the state machine of one neighbour (01, "One neighbour"; 02, L3, L5 to L7).
//! * [`gateway`]: the state, its well-formedness and the calls (01, "Answer numbers").
//! * [`listing`]: the table as text (01, "The listing"; 02, L7).
//! * [`call`]: one call with all its raw arguments, and a bench that runs it.
//! * [`generate`]: seeded lists of calls that steer into deep states.
//! * [`coverage`], [`places`]: what a list of calls touched, the places among it that a comparison
//!   must reach, and the laws every call must keep.
//! * [`record`], [`compare`], [`sample`], [`speed`]: calls as octets, and another implementation
//!   run on them call by call, or timed.
//! * [`recording`], [`playback`]: a site's recording, and what playing it gives (02, L1).
//! * [`trace`]: what tracing it gives, a line for each call.
//! * [`host`], [`host_places`]: the layer for a host in C (02, L4), and what a comparison through it
//!   must reach.
//! * [`ffi`], [`fuzz`]: the reference for programs in C, and a fuzzer's input as a call.
//! * [`compare_recordings`], [`compare_traces`], [`site`]: another implementation's player and tracer
//!   beside these, and the technicians' example.

#![deny(unsafe_code)]

pub mod answer;
pub mod call;
pub mod checksum;
pub mod checksums;
pub mod compare;
pub mod compare_recordings;
pub mod compare_traces;
pub mod coverage;
pub mod ffi;
pub mod fuzz;
pub mod gateway;
pub mod generate;
pub mod host;
pub mod host_places;
pub mod listing;
pub mod message;
pub mod neighbour;
pub mod net;
pub mod places;
pub mod playback;
pub mod random;
pub mod record;
pub mod recording;
pub mod sample;
pub mod site;
pub mod speed;
pub mod trace;
pub mod update;
