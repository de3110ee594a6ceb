//! What the tests of `commonware_broadcast::buffered` say of its engine, said of the adapter of `broadcast-commonware`,
//! over stand-ins of commonware's traits, network and oracle. Above each test that has a model stands the model's name.

#[path = "../../../broadcast-commonware/src/adapter.rs"]
#[allow(dead_code, unused_imports, reason = "the adapter has more than these programs use")]
mod adapter;
mod cw;
mod dissemination;
mod ends;
mod eviction;
mod peer_sets;
mod world;
