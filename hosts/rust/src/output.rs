//! Where the program's output goes: the standard output; a device or a pipe, as it stands; or a file, which is written beside its place and takes it when
//! it is whole.
use crate::standard;
use std::fs::{self, File, Metadata, OpenOptions};
use std::io::{self, BufWriter, ErrorKind, IntoInnerError, Write};
use std::os::unix::fs::{fchown, FileTypeExt, MetadataExt, OpenOptionsExt};
use std::path::{Path, PathBuf};

pub struct Output {
    to: BufWriter<File>,
    part: Option<Part>,
}

/// A file that is written beside its place, and removed if it does not take it.
struct Part {
    path: PathBuf,
    place: PathBuf,
    placed: bool,
}

impl Output {
    /// A file, or the standard output. It may be none of the files that are read.
    pub fn open(file: Option<&Path>, read: &[Metadata]) -> io::Result<Output> {
        let path = match file {
            Some(path) if path != Path::new("/dev/stdout") => path,
            _ => {
                let to = standard::output()?;
                not_read(&to.metadata()?, read)?;
                return Ok(Output { to: BufWriter::new(to), part: None });
            }
        };
        let there = match fs::metadata(path) {
            Err(e) if e.kind() == ErrorKind::NotFound => None,
            there => Some(there?),
        };
        if let Some(there) = &there {
            not_read(there, read)?;
        }
        let place = followed(path);
        let (to, part) = match there {
            Some(there) if !there.is_file() || is_descriptor(&place) => (OpenOptions::new().write(true).append(there.is_file()).open(path)?, None),
            there => Part::create(place, there).map(|(to, part)| (to, Some(part)))?,
        };
        Ok(Output { to: BufWriter::new(to), part })
    }

    /// Ends it. A file that is not whole is given up, and what was in its place stays: false.
    pub fn end(self, whole: bool) -> io::Result<bool> {
        if self.part.is_some() && !whole {
            return Ok(false);
        }
        standard::close(self.to.into_inner().map_err(IntoInnerError::into_error)?)?;
        if let Some(part) = self.part {
            part.take_place()?;
        }
        Ok(true)
    }
}

impl Write for Output {
    fn write(&mut self, bytes: &[u8]) -> io::Result<usize> {
        self.to.write(bytes)
    }

    fn flush(&mut self) -> io::Result<()> {
        self.to.flush()
    }
}

/// An error for an output that is read as well, by device and inode. A terminal, a socket or a pipe may be both.
fn not_read(output: &Metadata, read: &[Metadata]) -> io::Result<()> {
    let kept = output.is_file() || output.file_type().is_block_device();
    if kept && read.iter().any(|m| (m.dev(), m.ino()) == (output.dev(), output.ino())) {
        return Err(io::Error::new(ErrorKind::InvalidInput, "this is an input: the output has to be another file"));
    }
    Ok(())
}

/// The place that links lead to. They were followed before, so they end.
fn followed(path: &Path) -> PathBuf {
    let mut place = path.to_path_buf();
    while !is_descriptor(&place) {
        let Ok(to) = fs::read_link(&place) else { break };
        place = place.parent().unwrap_or(Path::new("")).join(to);
    }
    place
}

/// Whether a file is named by what is open already: that is written on as it stands, whatever it is.
fn is_descriptor(path: &Path) -> bool {
    path.starts_with("/dev/fd") || path.starts_with("/proc")
}

impl Part {
    /// A new file beside a place, with mode and owner of the one that is there.
    fn create(place: PathBuf, there: Option<Metadata>) -> io::Result<(File, Part)> {
        if there.is_some() {
            // one that may not be written is not replaced either
            OpenOptions::new().write(true).open(&place)?;
        }
        let mode = there.as_ref().map_or(0o666, |m| m.mode() & 0o777);
        let mut n = 0u64;
        let (file, path) = loop {
            let path = place.with_file_name(format!(".shofrakin-{}-{n}", std::process::id()));
            match OpenOptions::new().write(true).create_new(true).mode(mode).open(&path) {
                Ok(file) => break (file, path),
                // left by a run that was killed
                Err(e) if e.kind() == ErrorKind::AlreadyExists => n += 1,
                Err(e) => return Err(io::Error::new(e.kind(), format!("no file can be made beside it: {e}"))),
            }
        };
        let part = Part { path, place, placed: false };
        if let Some(m) = there {
            // an owner that may not be given stays this run's
            let _ = fchown(&file, Some(m.uid()), Some(m.gid()));
            file.set_permissions(m.permissions())?;
        }
        Ok((file, part))
    }

    fn take_place(mut self) -> io::Result<()> {
        fs::rename(&self.path, &self.place)?;
        self.placed = true;
        Ok(())
    }
}

impl Drop for Part {
    fn drop(&mut self) {
        if !self.placed {
            let _ = fs::remove_file(&self.path);
        }
    }
}
