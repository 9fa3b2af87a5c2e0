//! A medium's file. Zeros stay holes in it, and pages that are never touched in memory: the largest medium (document 02, A5)
//! has 512 MiB, of which a run fills little.

use std::fs::File;
use std::io;
use std::os::fd::AsRawFd;
use std::os::unix::fs::FileExt;

/// So much is compared with zeros, and written, at once.
const CHUNK: usize = 65_536;
static ZEROS: [u8; CHUNK] = [0; CHUNK];

// Linux's, as of lseek(2).
const SEEK_DATA: i32 = 3;
const SEEK_HOLE: i32 = 4;
const ENXIO: i32 = 6;

extern "C" {
    fn lseek(file: i32, offset: i64, whence: i32) -> i64;
}

fn seek(file: &File, from: u64, whence: i32) -> io::Result<u64> {
    // SAFETY: the file is open, and nothing else of it is handed over.
    let found = unsafe { lseek(file.as_raw_fd(), from as i64, whence) };
    u64::try_from(found).map_err(|_| io::Error::last_os_error())
}

/// The file's next data at `from` or behind it, its first byte and the one behind its last; None: a hole to the end, or the end.
fn data(file: &File, from: u64) -> io::Result<Option<(u64, u64)>> {
    match seek(file, from, SEEK_DATA) {
        Ok(start) => Ok(Some((start, seek(file, start, SEEK_HOLE)?))),
        Err(fault) if fault.raw_os_error() == Some(ENXIO) => Ok(None),
        Err(fault) => Err(fault),
    }
}

pub fn load(path: &str) -> io::Result<Vec<u8>> {
    let file = File::open(path)?;
    let mut medium = vec![0; file.metadata()?.len() as usize];
    let mut read = 0;
    while let Some((start, end)) = data(&file, read)? {
        file.read_exact_at(&mut medium[start as usize..end as usize], start)?;
        read = end;
    }
    Ok(medium)
}

pub fn save(path: &str, medium: &[u8]) -> io::Result<()> {
    let file = File::create(path)?;
    file.set_len(medium.len() as u64)?;
    for (at, chunk) in (0..).step_by(CHUNK).zip(medium.chunks(CHUNK)) {
        if chunk != &ZEROS[..chunk.len()] {
            file.write_all_at(chunk, at)?;
        }
    }
    Ok(())
}
