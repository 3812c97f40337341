//! An independent second implementation of what `lay`, `box` and `tear` write:
//! distances, next hops and repairs of a network, read from a list of links in
//! bytes, one router that takes frames, and a whole network played by a script. It
//! serves to compare answers and speed with the proved programs, and shares no code
//! with them.

#![forbid(unsafe_code)]

pub mod adjacency;
pub mod answer;
pub mod damage;
pub mod distances;
pub mod fault;
pub mod generate;
pub mod inputs;
pub mod lay;
pub mod messages;
pub mod network;
pub mod node;
pub mod packet;
pub mod plan;
pub mod quick;
pub mod random;
pub mod repairs;
pub mod report;
pub mod router;
pub mod routes;
pub mod script;
pub mod scripts;
pub mod station;
pub mod streams;
pub mod summary;
pub mod tear;
pub mod topology;
pub mod wire;
