//! Tests of the reference, by subject.

mod answer;
mod compare;
mod examples;
mod generate;
mod hostile;
mod lay;
mod packet;
mod repairs;
mod routes;
mod station;
mod summary;
mod support;
mod tear;
mod wire;
mod write_links;
