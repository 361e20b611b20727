//! The calls on the plain program.

fn main() -> std::io::Result<()> {
    calls_from_rust::main::<calls_from_rust::plain::Service>()
}
