//! The given files, compiled as they are with one pair of maps, behind an interface of plain numbers.

#![allow(dead_code, unused_imports, unexpected_cfgs)]

include!(concat!(env!("OUT_DIR"), "/src/root.rs"));
