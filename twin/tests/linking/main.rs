//! Links the proved library from C and from C++, through the header, and compares with the twin.

#![forbid(unsafe_code)]

mod c_types;
mod commands;
mod compilers;
mod declarations;
mod excerpts;
mod files;
mod layouts;
mod library;
mod pages;
mod structs;
mod symbols;
mod text;
mod transcript;

use compilers::{output_of, C, CPP};

#[test]
fn a_c_host_prints_what_the_twin_gives() {
    assert_eq!(output_of(&C, "host/example.c"), transcript::whole());
}

#[test]
fn a_cpp_host_prints_what_the_twin_gives() {
    assert_eq!(output_of(&CPP, "host/example.c"), transcript::whole());
}

#[test]
fn c_lays_out_every_struct_as_the_twin() {
    assert_eq!(output_of(&C, "host/layout.c"), layouts::all());
}

#[test]
fn cpp_lays_out_every_struct_as_the_twin() {
    assert_eq!(output_of(&CPP, "host/layout.c"), layouts::all());
}

#[test]
fn pages_lent_from_c_are_left_as_by_the_twin() {
    assert_eq!(output_of(&C, pages::SOURCE), pages::whole());
}

#[test]
fn pages_lent_from_cpp_are_left_as_by_the_twin() {
    assert_eq!(output_of(&CPP, pages::SOURCE), pages::whole());
}
