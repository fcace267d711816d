//! Files read whole, and what is written.

use crate::end::{stopped, words, Done, End};
use crate::memory;
use std::fs::{self, File};
use std::io::{self, BufWriter, Read, Write};
use std::path::Path;

/// What a user calls a file; - is standard input.
pub fn name(path: &Path) -> String {
    if path.as_os_str() == "-" {
        "standard input".to_string()
    } else {
        path.display().to_string()
    }
}

/// A file, or standard input, to be read, and its length where that is known.
pub fn open(path: &Path) -> Done<(Box<dyn Read>, Option<u64>)> {
    if path.as_os_str() == "-" {
        return Ok((Box::new(io::stdin()), None));
    }
    let file = match File::open(path) {
        Ok(file) => file,
        Err(error) => return stopped(name(path), words(&error)),
    };
    match file.metadata() {
        Ok(found) if found.is_dir() => stopped(name(path), "is a directory: name a file in it"),
        Ok(found) if found.is_file() => Ok((Box::new(file), Some(found.len()))),
        _ => Ok((Box::new(file), None)),
    }
}

/// All bytes of a file, of at most `limit`.
pub fn read(path: &Path, limit: usize) -> Done<Vec<u8>> {
    let (mut file, length) = open(path)?;
    let mut bytes = Vec::new();
    let mut chunk = memory::area(0u8, 1 << 16)?;
    if let Some(length) = length {
        memory::more(&mut bytes, usize::try_from(length).unwrap_or(usize::MAX).min(limit))?;
    }
    loop {
        match file.read(&mut chunk) {
            Ok(0) => return Ok(bytes),
            Ok(count) => {
                if bytes.len().saturating_add(count) > limit {
                    return stopped(name(path), format!("longer than {limit} bytes, which --memory sets"));
                }
                memory::more(&mut bytes, count)?;
                bytes.extend_from_slice(&chunk[..count]);
            }
            Err(error) if error.kind() == io::ErrorKind::Interrupted => {}
            Err(error) => return stopped(name(path), words(&error)),
        }
    }
}

/// A file written whole: under another name first, so that a failure leaves what stood there. A device or pipe is written as it is.
pub fn write(path: &Path, bytes: &[u8]) -> Done<()> {
    let written = match fs::metadata(path) {
        Ok(found) if !found.is_file() => File::create(path).and_then(|mut file| file.write_all(bytes)),
        found => {
            let whole = if found.is_ok() { fs::canonicalize(path) } else { Ok(path.to_path_buf()) };
            whole.and_then(|whole| {
                let mut part = whole.clone().into_os_string();
                part.push(format!(".{}.part", std::process::id()));
                let part = Path::new(&part);
                let written = File::create(part).and_then(|mut file| file.write_all(bytes).and_then(|()| file.sync_all())).and_then(|()| fs::rename(part, &whole));
                if written.is_err() {
                    let _ = fs::remove_file(part);
                }
                written
            })
        }
    };
    match written {
        Ok(()) => Ok(()),
        Err(error) => stopped(path.display(), words(&error)),
    }
}

/// Where a command writes: standard output, whose reader may go away, or a file.
pub struct Out {
    to: BufWriter<Box<dyn Write>>,
    name: String,
    standard: bool,
}

impl Out {
    pub fn standard() -> Out {
        Out { to: BufWriter::with_capacity(1 << 16, Box::new(io::stdout())), name: "standard output".to_string(), standard: true }
    }

    pub fn file(path: &Path) -> Done<Out> {
        match File::create(path) {
            Ok(file) => Ok(Out { to: BufWriter::with_capacity(1 << 16, Box::new(file)), name: path.display().to_string(), standard: false }),
            Err(error) => stopped(path.display(), words(&error)),
        }
    }

    fn judged(&self, written: io::Result<()>) -> Done<()> {
        match written {
            Ok(()) => Ok(()),
            Err(error) if self.standard && error.kind() == io::ErrorKind::BrokenPipe => Err(End::Pipe),
            Err(error) => stopped(&self.name, words(&error)),
        }
    }

    pub fn put(&mut self, bytes: impl AsRef<[u8]>) -> Done<()> {
        let written = self.to.write_all(bytes.as_ref());
        self.judged(written)
    }

    pub fn flush(&mut self) -> Done<()> {
        let written = self.to.flush();
        self.judged(written)
    }
}
