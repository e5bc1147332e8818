//! A folder to run `keep` in: the program, a contract's image, and its checkpoint.

use std::collections::BTreeMap;
use std::fs;
use std::os::unix::fs::PermissionsExt;
use std::path::{Path, PathBuf};
use std::process::{Child, Command, Stdio};

use image::samples::{sample, Sample};

/// What `keep` is run on, and what it has to print at the end.
pub struct Place {
    pub folder: PathBuf,
    pub name: String,
    pub image: Vec<u8>,
    pub lines: Vec<u8>,
    /// How many assignments the whole examination tries, by the lines.
    pub total: u64,
}

/// What a run printed and told.
pub struct Ran {
    pub printed: Vec<u8>,
    pub told: String,
}

/// The name of a new checkpoint: that of the checkpoint, a dot, and six letters or digits.
pub fn temporary(name: &str) -> bool {
    let letters = name.strip_prefix("checkpoint.").unwrap_or("");
    letters.len() == 6 && letters.bytes().all(|byte| byte.is_ascii_alphanumeric())
}

/// The total that the last of a sample's lines ends in.
fn total(lines: &str) -> Option<u64> {
    let (_, total) = lines.trim_end().rsplit_once(" tried ")?;
    total.parse().ok()
}

/// The count in a checkpoint of that image, if the bytes are a whole one.
fn count_of(bytes: &[u8], image: &[u8]) -> Option<u64> {
    let head = bytes.strip_suffix(image).filter(|head| head.len() == 16 && head.starts_with(b"BVC\x00\x01"))?;
    Some(head[12..].iter().fold(0, |sum, byte| sum << 8 | u64::from(*byte)))
}

impl Place {
    /// A folder of its own for a sample, below a scratch folder that others may enter.
    pub fn new(scratch: &Path, name: &str) -> Result<Place, String> {
        let Sample { image, answer, .. } = sample(name)?;
        let total = total(&answer).ok_or_else(|| format!("the answer of {name} has no total"))?;
        let place = Place { folder: scratch.join(name), name: name.to_string(), image, lines: answer.into_bytes(), total };
        place.prepare().map_err(|error| format!("{}: {error}", place.folder.display()))?;
        Ok(place)
    }

    /// The folder, with the program, what writes its calls down, and the image in it.
    fn prepare(&self) -> std::io::Result<()> {
        fs::create_dir(&self.folder)?;
        fs::set_permissions(&self.folder, fs::Permissions::from_mode(0o755))?;
        fs::copy("crates/keep/out/keep", self.folder.join("keep"))?;
        fs::copy("build/order.so", self.folder.join("order.so"))?;
        fs::write(self.folder.join("image"), &self.image)
    }

    /// The checkpoint's file.
    pub fn checkpoint(&self) -> PathBuf {
        self.folder.join("checkpoint")
    }

    /// The count in the checkpoint's file, which is a whole checkpoint of the image, if it is there.
    pub fn kept(&self) -> Result<Option<u64>, String> {
        let Ok(bytes) = fs::read(self.checkpoint()) else { return Ok(None) };
        let count = count_of(&bytes, &self.image);
        count.map(Some).ok_or_else(|| format!("what is kept is no checkpoint of the image: {bytes:02x?}"))
    }

    /// No checkpoint is there.
    pub fn fresh(&self) {
        let _ = fs::remove_file(self.checkpoint());
    }

    /// The files in the folder, but the checkpoint: each name, and its bytes.
    pub fn contents(&self) -> Result<BTreeMap<String, Vec<u8>>, String> {
        let entries = fs::read_dir(&self.folder).map_err(|error| error.to_string())?;
        let file = |entry: fs::DirEntry| (entry.file_name().to_string_lossy().into_owned(), fs::read(entry.path()).unwrap_or_default());
        Ok(entries.flatten().map(file).filter(|(name, _)| name != "checkpoint").collect())
    }

    /// `keep` on the image, with words behind `image`.
    pub fn command(&self, words: &[&str]) -> Command {
        self.on("image", words)
    }

    /// `keep` on an image of that name in the folder, with words behind it.
    pub fn on(&self, image: &str, words: &[&str]) -> Command {
        let mut command = Command::new(self.folder.join("keep"));
        command.current_dir(&self.folder).arg(image).args(words);
        command.stdin(Stdio::null()).stdout(Stdio::piped()).stderr(Stdio::piped());
        command
    }

    /// A run that is begun.
    pub fn begin(&self, budget: u64) -> Result<Child, String> {
        self.command(&["checkpoint", &budget.to_string()]).spawn().map_err(|error| format!("keep cannot be run: {error}"))
    }
}

/// A run to its end.
pub fn run(command: &mut Command) -> Result<Ran, String> {
    let output = command.output().map_err(|error| format!("keep cannot be run: {error}"))?;
    if !output.status.success() {
        return Err(format!("keep ends with {}", output.status));
    }
    Ok(Ran { printed: output.stdout, told: String::from_utf8_lossy(&output.stderr).into_owned() })
}

#[cfg(test)]
mod tests {
    use super::*;

    #[test]
    fn the_total_stands_at_the_end() {
        assert_eq!(total("path 0 sigs 1 free 0\nverdict 0 reason 0 path 0 mask 0 tried 3\n"), Some(3));
        assert_eq!(total("refused 10 at 43\n"), None);
    }

    #[test]
    fn a_checkpoint_is_whole_or_none() {
        let whole = b"BVC\0\x01\x01\0\0\0\0\0\x03\0\0\x01\x07image";
        assert_eq!(count_of(whole, b"image"), Some(263));
        assert_eq!(count_of(whole, b"mage"), None);
        assert_eq!(count_of(&whole[..20], b"image"), None);
        assert_eq!(count_of(&whole[1..], b"image"), None);
        assert_eq!(count_of(b"BVC\0\x02\x01\0\0\0\0\0\x03\0\0\x01\x07image", b"image"), None);
    }
}
