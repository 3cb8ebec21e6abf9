//! The values of records and of lines. A struct that `fields!` defines is the one table of its
//! fields: their order in a record's bytes and in a line, and their names in a text.

use crate::records::{Reader, Writer};
use crate::thresholds::{placed, PLACES};
use std::slice::Iter;

/// A value of a record or of a line; in a line and in a text it is one number or several.
pub trait Value: Sized {
    /// Reads it from a record; None where that is cut short.
    fn read(reader: &mut Reader) -> Option<Self>;

    /// Writes it into a record.
    fn write(&self, out: &mut Writer);

    /// Takes it from the numbers of a line; None where one is missing or out of its range.
    fn take(numbers: &mut Iter<i128>) -> Option<Self>;

    /// Its numbers in a line.
    fn numbers(&self) -> Vec<i128>;

    /// The value of these numbers of a line or of a text, all of them.
    fn of(numbers: &[i128]) -> Option<Self> {
        let mut rest = numbers.iter();
        Self::take(&mut rest).filter(|_| rest.len() == 0)
    }

    /// The numbers of its field of a name.
    fn named(&self, _name: &str) -> Option<Vec<i128>> {
        None
    }

    /// Sets its field of a name; None where it has none, or the numbers are not a value of it.
    fn set(&mut self, _name: &str, _numbers: &[i128]) -> Option<()> {
        None
    }
}

/// Defines a struct with its fields as values, in this order. A text has other numbers for it than
/// a line where it says so.
macro_rules! fields {
    (
        $(#[$about:meta])*
        pub struct $name:ident $(<$part:ident = $usual:ty>)? {
            $($(#[$of:meta])* $field:ident: $type:ty,)+
        }
        $(of $text:path)?
    ) => {
        $(#[$about])*
        pub struct $name $(<$part = $usual>)? {
            $($(#[$of])* pub $field: $type,)+
        }

        impl $(<$part: $crate::fields::Value>)? $crate::fields::Value for $name $(<$part>)? {
            fn read(reader: &mut $crate::records::Reader) -> Option<Self> {
                Some($name { $($field: $crate::fields::Value::read(reader)?,)+ })
            }

            fn write(&self, out: &mut $crate::records::Writer) {
                $(self.$field.write(out);)+
            }

            fn take(numbers: &mut std::slice::Iter<i128>) -> Option<Self> {
                Some($name { $($field: $crate::fields::Value::take(numbers)?,)+ })
            }

            fn numbers(&self) -> Vec<i128> {
                [$(self.$field.numbers(),)+].concat()
            }

            $(fn of(numbers: &[i128]) -> Option<Self> {
                $text(numbers)
            })?

            fn named(&self, name: &str) -> Option<Vec<i128>> {
                match name {
                    $(stringify!($field) => Some(self.$field.numbers()),)+
                    _ => None$(.or_else(|| self.$field.named(name)))+,
                }
            }

            fn set(&mut self, name: &str, numbers: &[i128]) -> Option<()> {
                match name {
                    $(stringify!($field) => self.$field = $crate::fields::Value::of(numbers)?,)+
                    _ => return None$(.or_else(|| self.$field.set(name, numbers)))+,
                }
                Some(())
            }
        }
    };
}

/// Numbers, little-endian in a record.
macro_rules! number {
    ($($type:ident)+) => {
        $(impl Value for $type {
            fn read(reader: &mut Reader) -> Option<Self> {
                let bytes = reader.take(size_of::<$type>())?;
                Some($type::from_le_bytes(bytes.try_into().ok()?))
            }

            fn write(&self, out: &mut Writer) {
                out.bytes.extend(self.to_le_bytes());
            }

            fn take(numbers: &mut Iter<i128>) -> Option<Self> {
                $type::try_from(*numbers.next()?).ok()
            }

            fn numbers(&self) -> Vec<i128> {
                vec![*self as i128]
            }
        })+
    };
}

number!(u8 i16 u16 i64 u64 usize);

/// So many values from a record.
fn several<V: Value>(count: usize, reader: &mut Reader) -> Option<Vec<V>> {
    (0..count).map(|_| V::read(reader)).collect()
}

/// Several values, in a record after how many they are.
impl<V: Value> Value for Vec<V> {
    fn read(reader: &mut Reader) -> Option<Self> {
        let count = u16::read(reader)?;
        several(usize::from(count), reader)
    }

    fn write(&self, out: &mut Writer) {
        (self.len() as u16).write(out);
        self.iter().for_each(|value| value.write(out));
    }

    fn take(numbers: &mut Iter<i128>) -> Option<Self> {
        std::iter::from_fn(|| (numbers.len() > 0).then(|| V::take(numbers))).collect()
    }

    fn numbers(&self) -> Vec<i128> {
        self.iter().flat_map(V::numbers).collect()
    }
}

/// The length of a list that stands for the built-in one, after which no threshold comes.
const BUILT_IN: u16 = 65535;

/// A list of any length; None for the built-in one.
impl Value for Option<Vec<u64>> {
    fn read(reader: &mut Reader) -> Option<Self> {
        match u16::read(reader)? {
            BUILT_IN => Some(None),
            length => several(usize::from(length), reader).map(Some),
        }
    }

    fn write(&self, out: &mut Writer) {
        match self {
            Some(list) => list.write(out),
            None => BUILT_IN.write(out),
        }
    }

    fn take(numbers: &mut Iter<i128>) -> Option<Self> {
        Vec::take(numbers).map(Some)
    }

    fn numbers(&self) -> Vec<i128> {
        self.iter().flat_map(Value::numbers).collect()
    }
}

/// The code of a check or of a write, which has more bytes for the host written in C.
impl Value for u32 {
    fn read(reader: &mut Reader) -> Option<Self> {
        let mut bytes = [0; 4];
        let length = reader.code_length;
        bytes[..length].copy_from_slice(reader.take(length)?);
        Some(u32::from_le_bytes(bytes))
    }

    fn write(&self, out: &mut Writer) {
        let (bytes, length) = (self.to_le_bytes(), out.code_length);
        let held = bytes[length..].iter().all(|&byte| byte == 0);
        assert!(held, "code {self} in {length} bytes");
        out.bytes.extend(&bytes[..length]);
    }

    fn take(numbers: &mut Iter<i128>) -> Option<Self> {
        u32::try_from(*numbers.next()?).ok()
    }

    fn numbers(&self) -> Vec<i128> {
        vec![i128::from(*self)]
    }
}

/// 1 for true and 0 for false; in a record any other byte is true as well.
impl Value for bool {
    fn read(reader: &mut Reader) -> Option<Self> {
        u8::read(reader).map(|byte| byte != 0)
    }

    fn write(&self, out: &mut Writer) {
        u8::from(*self).write(out);
    }

    fn take(numbers: &mut Iter<i128>) -> Option<Self> {
        let number = *numbers.next()?;
        (number == 0 || number == 1).then_some(number == 1)
    }

    fn numbers(&self) -> Vec<i128> {
        vec![i128::from(*self)]
    }
}

/// A number of two words, the high one first; in a text it may be one number.
impl Value for u128 {
    fn read(reader: &mut Reader) -> Option<Self> {
        let (high, low) = (u64::read(reader)?, u64::read(reader)?);
        Some((u128::from(high) << 64) + u128::from(low))
    }

    fn write(&self, out: &mut Writer) {
        ((self >> 64) as u64).write(out);
        (*self as u64).write(out);
    }

    fn take(numbers: &mut Iter<i128>) -> Option<Self> {
        let (high, low) = (u64::take(numbers)?, u64::take(numbers)?);
        Some((u128::from(high) << 64) + u128::from(low))
    }

    fn numbers(&self) -> Vec<i128> {
        vec![(self >> 64) as i128, i128::from(*self as u64)]
    }

    fn of(numbers: &[i128]) -> Option<Self> {
        match numbers {
            [number] => u128::try_from(*number).ok(),
            _ => u128::take(&mut numbers.iter()).filter(|_| numbers.len() == 2),
        }
    }
}

/// A number for each place; a text may leave out zeros at the end.
impl Value for [u64; PLACES] {
    fn read(reader: &mut Reader) -> Option<Self> {
        several(PLACES, reader)?.try_into().ok()
    }

    fn write(&self, out: &mut Writer) {
        self.iter().for_each(|number| number.write(out));
    }

    fn take(numbers: &mut Iter<i128>) -> Option<Self> {
        let taken: Option<Vec<u64>> = (0..PLACES).map(|_| u64::take(numbers)).collect();
        taken?.try_into().ok()
    }

    fn numbers(&self) -> Vec<i128> {
        self.iter().flat_map(Value::numbers).collect()
    }

    fn of(numbers: &[i128]) -> Option<Self> {
        let numbers = Vec::of(numbers)?;
        (numbers.len() <= PLACES).then(|| placed(&numbers))
    }
}
