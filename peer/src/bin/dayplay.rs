//! Reads a script from standard input, plays it on a day and prints what each
//! call answered and the trace.

fn main() -> std::io::Result<()> {
    peer::program::run(peer::dayplay::report)
}
