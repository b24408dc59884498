//! `--help` of the programs: the words at the top of their source.

/// Whether the first word on the command line asks for help; if it does, prints the comment that a program's source opens with.
pub fn asked(source: &str) -> bool {
    let asks = matches!(std::env::args().nth(1).as_deref(), Some("--help" | "-h"));
    if asks {
        for line in source.lines().map_while(|line| line.strip_prefix("//!")) {
            println!("{}", line.strip_prefix(' ').unwrap_or(line));
        }
    }
    asks
}
