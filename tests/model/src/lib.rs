//! The model: what the specification says of frames, readings, records, pages, writing, timeslots
//! and sessions, by brute force.
//! It is written from the specification alone and shares nothing with the library.

pub mod answer;
pub mod capture;
pub mod causes;
pub mod crc;
pub mod families;
pub mod fields;
pub mod frame;
pub mod growth;
pub mod inverse;
pub mod judge;
pub mod kinds;
pub mod layouts;
pub mod listing;
pub mod make;
pub mod page;
pub mod reading;
pub mod record;
pub mod requests;
pub mod rng;
pub mod rules;
pub mod scripts;
pub mod sessions;
pub mod silence;
pub mod spoil;
pub mod stretches;
pub mod sweeps;
pub mod timeslot;
pub mod timeslots;
pub mod write;
