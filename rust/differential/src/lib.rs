//! A differential test: any callee with the gateway's face against the
//! reference, on random, damaged and boundary calls from a seed; what it
//! answers of the map of the ephemerals and of the contexts; how it counts packets;
//! tables carried as rows;
//! and demand 3 on the callee alone.

pub mod calls;
pub mod contexts;
pub mod damage;
pub mod limits;
pub mod maps;
pub mod messages;
pub mod numbers;
pub mod packets;
pub mod pairs;
pub mod rooms;
pub mod rows;
pub mod speech;
pub mod tables;
