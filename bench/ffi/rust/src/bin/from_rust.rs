//! The calls on the crate `iox2sd`.

fn main() -> std::io::Result<()> {
    calls_from_rust::main::<iox2sd::dynamic_config::DynamicConfig>()
}
