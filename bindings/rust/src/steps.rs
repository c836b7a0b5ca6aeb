use crate::{ffi, Refusal, Value};
use std::fmt;

/// A column of a tuple.
#[derive(Clone, Copy, Debug, PartialEq, Eq)]
pub enum Column<'a> {
    Null,
    /// A stored value that the server did not send since it is unchanged.
    Unchanged,
    Text(&'a [u8]),
    Binary(&'a [u8]),
}

/// A column of a Relation.
#[derive(Clone, Copy, Debug, PartialEq, Eq)]
pub struct RelationColumn<'a> {
    pub is_key: bool,
    pub name: &'a [u8],
    pub type_oid: u32,
    pub modifier: i32,
}

/// What of a message can be stepped through. A Delete's tuple is its old one.
#[derive(Clone, Copy, Debug, PartialEq, Eq)]
pub enum Section {
    NewTuple = 0,
    OldTuple = 1,
    Columns = 2,
    Oids = 3,
}

/// Where stepping stands: an offset in the message's bytes, and how many are left. It may be made up: a step answers what stands
/// there, and a refusal leaves the position as it was.
///
/// [`Tuple`], [`Columns`] and [`Oids`] are the same for a message that was read, as iterators.
///
/// ```
/// use kitsoriqu::{Column, Position, Refusal, Section};
///
/// let bytes = b"I\0\0\0\x05N\0\x02nt\0\0\0\x01a";
/// let mut at = Position::start(1, false, bytes, Section::NewTuple)?;
/// assert_eq!(at, Position { offset: 8, left: 2 });
/// assert_eq!(at.column(bytes), Ok(Some(Column::Null)));
/// assert_eq!(at.column(bytes), Ok(Some(Column::Text(b"a"))));
/// assert_eq!(at.column(bytes), Ok(None));
///
/// let mut made_up = Position { offset: 99, left: 1 };
/// assert_eq!(made_up.column(bytes), Err(Refusal { number: Refusal::SHORT, offset: 99 }));
/// # Ok::<(), Refusal>(())
/// ```
#[derive(Clone, Copy, Debug, PartialEq, Eq)]
pub struct Position {
    pub offset: u64,
    pub left: u64,
}

impl Position {
    /// Reads the whole message and starts at one of its sections.
    pub fn start(version: u32, in_block: bool, bytes: &[u8], section: Section) -> Result<Position, Refusal> {
        let mut position = [0; 2];
        match ffi::column_start(version, in_block, bytes, section as u32, &mut position) {
            0 => Ok(Position { offset: position[0], left: position[1] }),
            number => Err(Refusal { number, offset: position[0] }),
        }
    }

    #[inline]
    fn step(&mut self, section: Section, bytes: &[u8]) -> Result<Option<[u64; ffi::STEP]>, Refusal> {
        let mut position = [self.offset, self.left];
        let mut out = [0; ffi::STEP];
        let number = ffi::column_step(section as u32, bytes, &mut position, &mut out);
        [self.offset, self.left] = position;
        match number {
            0 => Ok(Some(out)),
            ffi::OVER => Ok(None),
            number => Err(Refusal { number, offset: out[0] }),
        }
    }

    /// The tuple's column here, and past it; `None` where none are left.
    pub fn column<'a>(&mut self, bytes: &'a [u8]) -> Result<Option<Column<'a>>, Refusal> {
        let Some([letter, start, length, ..]) = self.step(Section::NewTuple, bytes)? else { return Ok(None) };
        let value = &bytes[start as usize..][..length as usize];
        Ok(Some(match letter as u8 {
            b'n' => Column::Null,
            b'u' => Column::Unchanged,
            b't' => Column::Text(value),
            _ => Column::Binary(value),
        }))
    }

    /// The value of the tuple's binary column here, read by its type's OID, and past it; `None` where none are left.
    ///
    /// A column that is not binary is refused with [`Refusal::FIELD`] at its letter, and a value that its type forbids with
    /// [`Refusal::VALUE`] at its first byte. [`Position::column`] steps past both.
    pub fn value<'a>(&mut self, bytes: &'a [u8], type_oid: u32) -> Result<Option<Value<'a>>, Refusal> {
        let mut position = [self.offset, self.left];
        let mut value = [0; ffi::VALUE_FLAT];
        let number = ffi::value_step(bytes, &mut position, type_oid, &mut value);
        [self.offset, self.left] = position;
        match number {
            0 => Ok(Some(Value::of(value, bytes))),
            ffi::OVER => Ok(None),
            number => Err(Refusal { number, offset: value[0] }),
        }
    }

    /// The Relation's column here, and past it; `None` where none are left.
    pub fn relation_column<'a>(&mut self, bytes: &'a [u8]) -> Result<Option<RelationColumn<'a>>, Refusal> {
        let Some([key, start, length, type_oid, modifier]) = self.step(Section::Columns, bytes)? else { return Ok(None) };
        Ok(Some(RelationColumn {
            is_key: key == 1,
            name: &bytes[start as usize..][..length as usize],
            type_oid: type_oid as u32,
            modifier: modifier as u32 as i32,
        }))
    }

    /// The Truncate's relation OID here, and past it; `None` where none are left.
    pub fn oid(&mut self, bytes: &[u8]) -> Result<Option<u32>, Refusal> {
        Ok(self.step(Section::Oids, bytes)?.map(|[oid, ..]| oid as u32))
    }
}

/// The iterator over a section of a message that was read, where no step is refused.
macro_rules! section {
    ($(#[$doc:meta])* $name:ident, $item:ty, $step:ident) => {
        $(#[$doc])*
        #[derive(Clone)]
        pub struct $name<'a> {
            bytes: &'a [u8],
            position: Position,
        }

        impl<'a> Iterator for $name<'a> {
            type Item = $item;

            #[inline]
            fn next(&mut self) -> Option<Self::Item> {
                self.position.$step(self.bytes).expect("the message was read whole")
            }

            fn size_hint(&self) -> (usize, Option<usize>) {
                let left = self.position.left as usize;
                (left, Some(left))
            }
        }

        impl ExactSizeIterator for $name<'_> {}

        impl std::iter::FusedIterator for $name<'_> {}

        impl fmt::Debug for $name<'_> {
            fn fmt(&self, f: &mut fmt::Formatter<'_>) -> fmt::Result {
                f.debug_list().entries(self.clone()).finish()
            }
        }
    };
}

section!(
    /// A tuple's columns, from left to right.
    Tuple, Column<'a>, column
);

section!(
    /// A Relation's columns, from left to right.
    Columns, RelationColumn<'a>, relation_column
);

section!(
    /// The OIDs of a Truncate's relations.
    Oids, u32, oid
);

impl<'a> Tuple<'a> {
    /// The tuple at an offset of a message that was read: it starts with its count.
    pub(crate) fn at(bytes: &'a [u8], start: u64) -> Tuple<'a> {
        let at = start as usize;
        let left = u16::from_be_bytes([bytes[at], bytes[at + 1]]).into();
        Tuple { bytes, position: Position { offset: start + 2, left } }
    }

    /// The value of the next column, which is binary, read by its type's OID; `None` where no column is left. After a refusal, as of
    /// [`Position::value`], the column is still the next one.
    ///
    /// ```
    /// use kitsoriqu::{read, type_oid, Column, Message, Refusal, Value};
    ///
    /// let Message::Insert { mut new, .. } = read(1, false, b"I\0\0\0\x05N\0\x02b\0\0\0\x02\0\x07n")? else { unreachable!() };
    /// assert_eq!(new.value(type_oid::BOOL), Err(Refusal { number: Refusal::VALUE, offset: 13 }));
    /// assert_eq!(new.value(type_oid::INT2), Ok(Some(Value::Int2(7))));
    /// assert_eq!(new.value(type_oid::INT2), Err(Refusal { number: Refusal::FIELD, offset: 15 }));
    /// assert_eq!(new.next(), Some(Column::Null));
    /// assert_eq!(new.value(type_oid::INT2), Ok(None));
    /// # Ok::<(), Refusal>(())
    /// ```
    pub fn value(&mut self, type_oid: u32) -> Result<Option<Value<'a>>, Refusal> {
        self.position.value(self.bytes, type_oid)
    }
}

impl<'a> Columns<'a> {
    pub(crate) fn at(bytes: &'a [u8], offset: u64, left: u64) -> Columns<'a> {
        Columns { bytes, position: Position { offset, left } }
    }
}

impl<'a> Oids<'a> {
    pub(crate) fn at(bytes: &'a [u8], offset: u64, left: u64) -> Oids<'a> {
        Oids { bytes, position: Position { offset, left } }
    }
}
