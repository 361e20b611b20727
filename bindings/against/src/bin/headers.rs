//! Prints the sizes and alignments of the middleware's own headers, as the lines of a description
//! have them.

use iceoryx2::service::header::{publish_subscribe, request_response};

fn show<T>(part: &str) {
    let (size, alignment) = (std::mem::size_of::<T>(), std::mem::align_of::<T>());
    println!(
        "{part}header {size} {alignment} {}",
        std::any::type_name::<T>()
    );
}

fn main() {
    show::<publish_subscribe::Header>("");
    show::<request_response::RequestHeader>("request-");
    show::<request_response::ResponseHeader>("response-");
}
