//! The paper's sentences, and those of the changes after it, tried on the independent program.

mod as_it_stands;
mod build;
mod climb;
mod dynamics;
mod exact;
mod examples;
mod fraction;
mod item;
mod mass;
mod natural;
mod numbers;
mod printed;
mod random;
mod reader;
mod reasons;
mod stream;
mod sweep;
mod trip;
mod windows;
mod writer;
