//! The command `sangueko`.

use std::process::ExitCode;

fn main() -> ExitCode {
    tool::main(std::env::args_os().skip(1).collect())
}
