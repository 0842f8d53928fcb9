//! Run files: the seven lines that document 01's text program reads.

use std::io::Read;

use judge::Request;

use crate::bits;

pub const MAX_BYTES: usize = 32 * 1024;
pub const MAX_ROWS: usize = 64;
pub const MAX_ENTRIES: usize = 1024;

const KEYS: [&str; 7] = ["d", "rounds", "degree", "seed_std", "starts", "columns", "values"];

/// Reads a run file from `source`, and no more of it than shows that it is too long.
pub fn read(source: impl Read) -> Result<Request, String> {
    let mut bytes = Vec::new();
    source
        .take(MAX_BYTES as u64 + 1)
        .read_to_end(&mut bytes)
        .map_err(|fault| format!("the run file cannot be read: {fault}"))?;
    parse(&bytes)
}

/// The request of a run file; a text fault is told before a fault of the graph, as in document 01.
pub fn parse(bytes: &[u8]) -> Result<Request, String> {
    if bytes.len() > MAX_BYTES {
        return Err(format!("the run file is over {MAX_BYTES} bytes"));
    }
    let lines = fields(bytes)?;
    let at = |line: usize, fault: String| format!("line {}: {fault}", line + 1);
    let request = Request {
        d: whole(lines[0]).map_err(|f| at(0, f))?,
        rounds: whole(lines[1]).map_err(|f| at(1, f))?,
        degree: whole(lines[2]).map_err(|f| at(2, f))?,
        seed_std: bits::parse(lines[3]).ok_or_else(|| at(3, "not 16 lower-case hex digits".to_owned()))?,
        starts: list(lines[4], MAX_ROWS + 1, whole).map_err(|f| at(4, f))?,
        columns: list(lines[5], MAX_ENTRIES, column).map_err(|f| at(5, f))?,
        values: list(lines[6], MAX_ENTRIES, |text| {
            bits::parse(text).ok_or_else(|| format!("{text:?} is not 16 lower-case hex digits"))
        })
        .map_err(|f| at(6, f))?,
    };
    match request.fault() {
        Some(fault) => Err(fault),
        None => Ok(request),
    }
}

/// What follows `key=` on each of the seven lines.
fn fields(bytes: &[u8]) -> Result<[&str; 7], String> {
    let mut rest = bytes;
    let mut out = [""; 7];
    for (i, key) in KEYS.iter().enumerate() {
        let fault = |what: String| format!("line {}: {what}", i + 1);
        let end = rest
            .iter()
            .position(|&b| b == b'\n')
            .ok_or_else(|| fault("missing, or no newline ends it".to_owned()))?;
        let line = std::str::from_utf8(&rest[..end]).map_err(|_| fault("not text".to_owned()))?;
        out[i] = line
            .strip_prefix(key)
            .and_then(|l| l.strip_prefix('='))
            .ok_or_else(|| fault(format!("does not begin with {key}=")))?;
        rest = &rest[end + 1..];
    }
    if rest.is_empty() { Ok(out) } else { Err("line 8: extra".to_owned()) }
}

fn list<T>(text: &str, most: usize, one: impl Fn(&str) -> Result<T, String>) -> Result<Vec<T>, String> {
    if text.is_empty() {
        return Ok(Vec::new());
    }
    // Counted before it is read, so that a long list cannot cost more than its text.
    if text.split(',').count() > most {
        return Err(format!("more than {most} numbers"));
    }
    text.split(',').map(one).collect()
}

/// A decimal below 2^64 without leading zeros.
fn whole(text: &str) -> Result<usize, String> {
    let digits = !text.is_empty() && text.bytes().all(|b| b.is_ascii_digit());
    if !digits || (text.len() > 1 && text.starts_with('0')) {
        return Err(format!("{text:?} is not a decimal without leading zeros"));
    }
    let number: u64 = text.parse().map_err(|_| format!("{text} is not below 2^64"))?;
    usize::try_from(number).map_err(|_| format!("{text} is too large for this machine"))
}

fn column(text: &str) -> Result<u32, String> {
    u32::try_from(whole(text)?).map_err(|_| format!("{text} is not below 2^32"))
}

/// The seven lines of a request.
pub fn print(request: &Request) -> String {
    let decimals = |list: &mut dyn Iterator<Item = String>| list.collect::<Vec<_>>().join(",");
    format!(
        "d={}\nrounds={}\ndegree={}\nseed_std={}\nstarts={}\ncolumns={}\nvalues={}\n",
        request.d,
        request.rounds,
        request.degree,
        bits::join(&[request.seed_std]),
        decimals(&mut request.starts.iter().map(usize::to_string)),
        decimals(&mut request.columns.iter().map(u32::to_string)),
        bits::join(&request.values),
    )
}

#[cfg(test)]
mod tests {
    use super::*;

    const SAMPLE: &str = "d=1\nrounds=1\ndegree=1\nseed_std=3f1a36e2eb1c432d\nstarts=0,1\ncolumns=0\nvalues=3ff0000000000000\n";

    #[test]
    fn reading_and_printing_give_the_same_bytes() {
        assert_eq!(print(&parse(SAMPLE.as_bytes()).unwrap()), SAMPLE);
    }

    #[test]
    fn an_empty_list_is_read() {
        let text = "d=1\nrounds=1\ndegree=1\nseed_std=3f1a36e2eb1c432d\nstarts=0,0\ncolumns=\nvalues=\n";
        assert_eq!(print(&parse(text.as_bytes()).unwrap()), text);
    }

    #[test]
    fn each_fault_names_its_line() {
        let cases = [
            ("d=1", "d=01", "line 1"),
            ("d=1", "d=", "line 1"),
            ("d=1", "d=18446744073709551616", "line 1"),
            ("rounds=1", "round=1", "line 2"),
            ("degree=1", "degree=1\r", "line 3"),
            ("3f1a36e2eb1c432d", "3F1a36e2eb1c432d", "line 4"),
            ("starts=0,1", "starts=0,,1", "line 5"),
            ("columns=0", "columns=4294967296", "line 6"),
            ("3ff0000000000000\n", "3ff0000000000000", "line 7"),
            ("3ff0000000000000\n", "3ff0000000000000\n\n", "line 8"),
        ];
        for (from, to, line) in cases {
            let fault = parse(SAMPLE.replacen(from, to, 1).as_bytes()).unwrap_err();
            assert!(fault.starts_with(line), "{to:?}: {fault}");
        }
    }

    #[test]
    fn sizes_are_limits() {
        let over = "0,".repeat(MAX_ROWS + 1) + "0";
        let fault = parse(SAMPLE.replace("0,1", &over).as_bytes()).unwrap_err();
        assert!(fault.starts_with("line 5"), "{fault}");
        assert!(parse(&vec![b'd'; MAX_BYTES + 1]).unwrap_err().contains("over"));
    }

    /// Cutting a good file at every byte, and damaging each byte, must give an answer and no panic.
    #[test]
    fn damaged_files_are_answered() {
        for at in 0..SAMPLE.len() {
            assert!(parse(&SAMPLE.as_bytes()[..at]).is_err());
            for byte in [0u8, b'0', b',', b'\n', 0xff] {
                let mut damaged = SAMPLE.as_bytes().to_vec();
                damaged[at] = byte;
                if let Ok(request) = parse(&damaged) {
                    assert!(judge::seed(&request).is_ok());
                }
            }
        }
    }
}
