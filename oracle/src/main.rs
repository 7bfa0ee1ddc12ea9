//! Answers the protocol's lines from standard input; `--diff` prints what the build changed in the sources.
use oracle::session::Session;
use std::io::{stdin, stdout, BufRead, BufReader, BufWriter, Write};

fn main() -> std::io::Result<()> {
    if std::env::args().any(|a| a == "--diff") {
        return stdout().write_all(oracle::DIFFERENCE.as_bytes());
    }
    let mut input = BufReader::with_capacity(1 << 16, stdin().lock());
    let mut output = BufWriter::with_capacity(1 << 16, stdout().lock());
    let mut session = Session::new();
    let (mut line, mut out) = (Vec::new(), Vec::new());
    while input.read_until(b'\n', &mut line)? > 0 {
        if line.last() == Some(&b'\n') {
            line.pop();
        }
        session.line(&String::from_utf8_lossy(&line), &mut out);
        output.write_all(&out)?;
        if input.buffer().is_empty() {
            output.flush()?;
        }
        line.clear();
        out.clear();
    }
    output.flush()
}
