//! Reads a cue sheet from standard input and tells what is wrong with it, or
//! how loaded it is and whether it is admitted.

fn main() -> std::io::Result<()> {
    peer::program::run(peer::sheetcheck::report)
}
