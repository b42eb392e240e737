//! Tests of the libraries' public calls.
#![tactic(auto)]

#[cfg(test)]
mod board;
#[cfg(test)]
mod check;
#[cfg(test)]
mod cli;
#[cfg(test)]
mod grid;
#[cfg(test)]
mod low;
#[cfg(test)]
mod numbers;
#[cfg(test)]
mod plan;
#[cfg(test)]
mod solve;
#[cfg(test)]
mod tree;
#[cfg(test)]
mod worked;
