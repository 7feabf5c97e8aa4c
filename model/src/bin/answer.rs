//! The model behind the protocol of `run_cases`: cases from standard input, a line of answer for each. With the name of a slip
//! as its argument it answers with that slip, to test the differential run.

use std::io::{self, BufReader, BufWriter, Write};
use std::process::exit;

use model::runner::case::Case;
use model::runner::slips::{Slip, SLIPS};

fn main() -> io::Result<()> {
    let slip = std::env::args().nth(1).map(|name| {
        Slip::from_name(&name).unwrap_or_else(|| {
            let names = SLIPS.map(|(name, _)| name);
            eprintln!("usage: answer [SLIP]; the slips are {}", names.join(", "));
            exit(2)
        })
    });
    let mut input = BufReader::new(io::stdin().lock());
    let mut output = BufWriter::new(io::stdout().lock());
    while let Some(case) = Case::read(&mut input)? {
        let line = slip.map_or_else(|| case.reply().line(&case), |slip| slip.line(&case));
        writeln!(output, "{line}")?;
    }
    output.flush()
}
