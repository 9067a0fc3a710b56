//! The program run as a process: what it prints and says, its status, and what it leaves in the
//! file of books. What books have to be comes from the plain implementation.

mod folder;
mod killed;
mod ran;
mod refusals;
mod replaced;
mod streams;
mod using;
