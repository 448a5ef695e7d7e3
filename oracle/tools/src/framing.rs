//! Many runs in one stream: each as a 32-bit length in bytes, most significant first, and its bytes. Outputs
//! have the same form.

use std::io::{BufReader, BufWriter, ErrorKind, Read, Write};

/// The next part of a stream, or none at its end.
pub fn read(input: &mut impl Read) -> std::io::Result<Option<Vec<u8>>> {
    let mut length = [0; 4];
    match input.read_exact(&mut length) {
        Err(error) if error.kind() == ErrorKind::UnexpectedEof => return Ok(None),
        other => other?,
    }
    let mut bytes = vec![0; u32::from_be_bytes(length) as usize];
    input.read_exact(&mut bytes)?;
    Ok(Some(bytes))
}

pub fn write(output: &mut impl Write, bytes: &[u8]) -> std::io::Result<()> {
    output.write_all(&(bytes.len() as u32).to_be_bytes())?;
    output.write_all(bytes)
}

/// Answer every run of standard input.
pub fn serve(answer: impl Fn(&[u8]) -> String) -> std::io::Result<()> {
    let mut input = BufReader::new(std::io::stdin().lock());
    let mut output = BufWriter::new(std::io::stdout().lock());
    loop {
        if input.buffer().is_empty() {
            output.flush()?;
        }
        let Some(run) = read(&mut input)? else { return output.flush() };
        write(&mut output, answer(&run).as_bytes())?;
    }
}
