//! Lists of pictures and sounds as people write them, and which go together.

use std::fmt;

use shelf::{RowRefusal, MAX_CAPACITY};

use crate::rows::{self, Row};
use crate::text::{bad, headed, BadText};

/// Pictures and sounds, to be put together on cartridges of one capacity.
#[derive(Debug)]
pub struct List {
    pub capacity: u32,
    line: usize,
    pictures: Row,
    sounds: Row,
}

/// Reads a text with `pair CAPACITY` first, then `picture SIZE` for each picture and
/// `sound SIZE` for each sound, each in order.
pub fn read_list(text: &[u8]) -> Result<List, BadText> {
    let (head, lines) = headed(text, "pair", "capacity")?;
    let [capacity] = head.operands(["capacity"])?;
    let mut list = List {
        capacity: head.value("capacity", capacity, Some((1, MAX_CAPACITY.into())))?,
        line: head.number,
        pictures: Row::of("picture"),
        sounds: Row::of("sound"),
    };
    for line in lines {
        let line = line?;
        match line.command {
            "picture" => list.pictures.read(&line)?,
            "sound" => list.sounds.read(&line)?,
            "pair" => return bad(line.number, "there is a capacity already"),
            other => {
                let message = format!("`{other}` is no line of a list: picture or sound");
                return bad(line.number, message);
            }
        }
    }
    Ok(list)
}

impl List {
    /// Why this list was not paired, for people.
    pub fn sentences(&self, refusal: RowRefusal) -> Vec<String> {
        let rows = [&self.pictures, &self.sounds];
        rows::sentences(&rows, self.capacity, self.line, refusal)
    }
}

/// A master, and its number among those of its kind.
#[derive(Debug, Clone, Copy, PartialEq, Eq)]
pub struct Master {
    pub number: usize,
    pub size: u32,
}

/// The sound beside a picture, and the units then free on their cartridge.
#[derive(Debug, Clone, Copy, PartialEq, Eq)]
pub struct Beside {
    pub sound: Master,
    pub free: u32,
}

/// Which pictures and sounds of a list go together.
pub struct Pairing<'a> {
    list: &'a List,
    /// Of each picture the number of its sound, or 0.
    sound_of: Vec<u16>,
    pub pairs: u16,
}

impl<'a> Pairing<'a> {
    pub fn of(list: &'a List) -> Result<Self, RowRefusal> {
        let (pictures, sounds) = (&list.pictures.sizes, &list.sounds.sizes);
        let mut sound_of = vec![0; pictures.len()];
        let pairs = shelf::pair(pictures, sounds, &mut sound_of, list.capacity)?;
        Ok(Self {
            list,
            sound_of,
            pairs,
        })
    }

    pub fn capacity(&self) -> u32 {
        self.list.capacity
    }

    /// The pictures, in the order of the list, each with what goes beside it.
    pub fn pictures(&self) -> impl Iterator<Item = (Master, Option<Beside>)> + '_ {
        let numbers = self.sound_of.iter().map(|&number| usize::from(number));
        masters(&self.list.pictures)
            .zip(numbers)
            .map(|(picture, number)| {
                let sound = (number > 0).then(|| Master {
                    number,
                    size: self.list.sounds.sizes[number - 1],
                });
                let beside = sound.map(|sound| Beside {
                    sound,
                    free: self.list.capacity - picture.size - sound.size,
                });
                (picture, beside)
            })
    }

    /// The sounds that go beside no picture.
    pub fn left_over(&self) -> impl Iterator<Item = Master> + '_ {
        let mut used = vec![false; self.list.sounds.sizes.len() + 1];
        for &number in &self.sound_of {
            used[usize::from(number)] = true;
        }
        masters(&self.list.sounds).filter(move |sound| !used[sound.number])
    }
}

/// The masters of a row, numbered from 1.
fn masters(row: &Row) -> impl Iterator<Item = Master> + '_ {
    let numbered = (1..).zip(&row.sizes);
    numbered.map(|(number, &size)| Master { number, size })
}

/// A line a picture, a line a sound left over, and how many pairs there are.
impl fmt::Display for Pairing<'_> {
    fn fmt(&self, f: &mut fmt::Formatter<'_>) -> fmt::Result {
        writeln!(f, "capacity {}\n", self.list.capacity)?;
        writeln!(f, "picture     size  sound     size     free")?;
        for (Master { number, size }, beside) in self.pictures() {
            write!(f, "{number:>7}{size:>9}")?;
            match beside {
                Some(Beside { sound, free }) => {
                    writeln!(f, "{:>7}{:>9}{free:>9}", sound.number, sound.size)?;
                }
                None => writeln!(f, "{:>7}", "none")?,
            }
        }
        let mut left_over = self.left_over().peekable();
        match left_over.peek() {
            Some(_) => writeln!(f, "\nsound left over     size")?,
            None => writeln!(f, "\nno sound is left over")?,
        }
        for Master { number, size } in left_over {
            writeln!(f, "{number:>15}{size:>9}")?;
        }
        let [pictures, sounds] =
            [&self.list.pictures, &self.list.sounds].map(|row| row.sizes.len());
        let of = format!(
            "{} pairs of {pictures} pictures and {sounds} sounds",
            self.pairs
        );
        writeln!(f, "\n{of}; no way of pairing them has more")
    }
}

#[cfg(test)]
mod tests {
    use super::*;
    use shelf::RowFault;

    fn list(text: &str) -> List {
        read_list(text.as_bytes()).unwrap()
    }

    /// The number of each picture's sound, the units free beside it, and the sounds
    /// left over.
    fn paired(text: &str) -> (Vec<Option<(usize, u32)>>, Vec<usize>) {
        let list = list(text);
        let pairing = Pairing::of(&list).unwrap_or_else(|_| panic!("a good list"));
        let pictures = pairing.pictures();
        let besides = pictures.map(|(_, beside)| beside.map(|one| (one.sound.number, one.free)));
        let besides: Vec<_> = besides.collect();
        assert_eq!(besides.iter().flatten().count(), pairing.pairs.into());
        let left_over = pairing.left_over().map(|sound| sound.number);
        (besides, left_over.collect())
    }

    #[test]
    fn each_picture_has_its_sound_and_the_units_left_free() {
        let besides = vec![Some((2, 5)), Some((3, 0)), None, Some((1, 10))];
        let mixed = "\npair 60\nsound 30\npicture 40\nsound 15 # short\nsound 40\r\n\
                     picture 20\npicture 50\npicture 20";
        assert_eq!(paired(mixed), (besides.clone(), vec![]));
        let longer = format!("{mixed}\nsound 60\nsound 41");
        assert_eq!(paired(&longer), (besides, vec![4, 5]));
        assert_eq!(paired("pair 60"), (vec![], vec![]));
        assert_eq!(paired("pair 60\nsound 1"), (vec![], vec![1]));
        assert_eq!(paired("pair 60\npicture 1"), (vec![None], vec![]));
    }

    #[test]
    fn a_pairing_is_lines() {
        let list = list("pair 60\npicture 50\npicture 40\nsound 20\nsound 60");
        let pairing = Pairing::of(&list).unwrap_or_else(|_| panic!("a good list"));
        let expected = "capacity 60\n\n\
                        picture     size  sound     size     free\n\
                        \u{20}     1       50   none\n\
                        \u{20}     2       40      1       20        0\n\n\
                        sound left over     size\n\
                        \u{20}             2       60\n\n\
                        1 pairs of 2 pictures and 2 sounds; no way of pairing them has more\n";
        assert_eq!(pairing.to_string(), expected);
    }

    #[test]
    fn a_refused_list_is_explained() {
        let pictures = "\npicture 1".repeat(4097);
        let sounds = "\nsound 1".repeat(4097);
        let too_many = "this is picture 4097; there may be at most 4096";
        let too_many_sounds = "this is sound 4097; there may be at most 4096";
        for (text, fault, place, sentences) in [
            (
                "\npair 0\npicture 20",
                RowFault::CapacityOutsideLimits,
                0,
                vec!["line 2: the capacity is 0; it must be from 1 to 16777216".to_string()],
            ),
            (
                &format!("pair 60{pictures}{sounds}"),
                RowFault::AboveLimit,
                0,
                vec![
                    format!("line 4098: {too_many}"),
                    format!("line 8195: {too_many_sounds}"),
                ],
            ),
            (
                &format!("pair 60\npicture 0{sounds}"),
                RowFault::AboveLimit,
                0,
                vec![format!("line 4099: {too_many_sounds}")],
            ),
            (
                "pair 60\nsound 0\npicture 60\n\npicture 61\npicture 0",
                RowFault::SizeOutsideLimits,
                2,
                vec![
                    "line 5: picture 2 is of 61 units; it must be from 1 to the capacity, 60"
                        .to_string(),
                ],
            ),
            (
                "pair 60\nsound 60\nsound 0\npicture 60\npicture 1\nsound 61",
                RowFault::SizeOutsideLimits,
                4,
                vec![
                    "line 3: sound 2 is of 0 units; it must be from 1 to the capacity, 60"
                        .to_string(),
                ],
            ),
        ] {
            let list = list(text);
            let refusal = Pairing::of(&list).err().expect("a bad list");
            assert_eq!((refusal.fault, refusal.place), (fault, place));
            assert_eq!(list.sentences(refusal), sentences);
        }
    }

    #[test]
    fn bad_text_is_refused_with_its_line() {
        let line = |text: &str| read_list(text.as_bytes()).unwrap_err().line;
        assert_eq!(line(""), 1);
        assert_eq!(line("\npicture 1"), 2);
        assert_eq!(line("pair"), 1);
        assert_eq!(line("pair 60 4"), 1);
        assert_eq!(line("pair 4294967296"), 1);
        assert_eq!(line("pair 60\npair 60"), 2);
        assert_eq!(line("pair 60\npicture"), 2);
        assert_eq!(line("pair 60\n\nsound x"), 3);
        assert_eq!(line("pair 60\nsound 1 2"), 2);
        assert_eq!(line("pair 60\nsound 4294967296"), 2);
        assert_eq!(line("pair 60\nmaster 1"), 2);
    }
}
