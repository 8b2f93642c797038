//! The public calls that no command reaches, or not at this edge, with values from outside: each allocating call with
//! ample memory, worked numbers and operators, flat and guarded functions, written modules driven as a host does, files and
//! outputs that fail in the middle, many values in one mailbox, and under every command each call of files, output and devices
//! failing in turn.
//! `tests/run` runs it; nothing here is proved.
#![tactic(auto)]

#[cfg(test)]
mod asserts;
#[cfg(test)]
mod building;
#[cfg(test)]
mod commands;
#[cfg(test)]
mod driving;
#[cfg(test)]
mod dropping;
#[cfg(test)]
mod faults;
#[cfg(test)]
mod fetching;
#[cfg(test)]
mod flattening;
#[cfg(test)]
mod frames;
#[cfg(test)]
mod guarding;
#[cfg(test)]
mod limits;
#[cfg(test)]
mod mailing;
#[cfg(test)]
mod modules;
#[cfg(test)]
mod numbers;
#[cfg(test)]
mod operators;
#[cfg(test)]
mod pages;
#[cfg(test)]
mod pausing;
#[cfg(test)]
mod pieces;
#[cfg(test)]
mod resuming;
#[cfg(test)]
mod running;
#[cfg(test)]
mod runtime;
#[cfg(test)]
mod saving;
#[cfg(test)]
mod showing;
#[cfg(test)]
mod snapshots;
#[cfg(test)]
mod strands;
#[cfg(test)]
mod texts;
#[cfg(test)]
mod trees;
#[cfg(test)]
mod validating;
#[cfg(test)]
mod vaults;
#[cfg(test)]
mod worked;
#[cfg(test)]
mod writing;
