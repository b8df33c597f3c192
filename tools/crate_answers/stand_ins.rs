// Stand-ins for what the crate's byte methods name of its interpreter: errors, numbers, objects and lists of arguments.
#![allow(dead_code)]
use bstr::ByteSlice;

mod anystr {
    pub use super::{adjust_indices, SplitArgs, SplitLinesArgs};
}

#[derive(Debug, PartialEq)]
pub enum PyError {
    Value,
    Overflow,
}

pub type PyResult<T> = Result<T, PyError>;

pub struct VirtualMachine;

impl VirtualMachine {
    pub fn new_value_error(&self, _: String) -> PyError {
        PyError::Value
    }

    pub fn new_overflow_error(&self, _: String) -> PyError {
        PyError::Overflow
    }
}

pub trait ToPrimitive {
    fn to_u8(&self) -> Option<u8>;
    fn to_isize(&self) -> Option<isize>;
}

// A number of a case; it has 64 bits.
pub struct BigInt(i64);

impl ToPrimitive for BigInt {
    fn to_u8(&self) -> Option<u8> {
        u8::try_from(self.0).ok()
    }

    fn to_isize(&self) -> Option<isize> {
        isize::try_from(self.0).ok()
    }
}

impl BigInt {
    fn is_negative(&self) -> bool {
        self.0 < 0
    }
}

pub struct PyIntRef(BigInt);

impl PyIntRef {
    fn as_bigint(&self) -> &BigInt {
        &self.0
    }
}

// An argument's bytes, or a piece: its bytes, or its offset in the text and its length.
pub enum PyObjectRef {
    Bytes(Vec<u8>),
    Place(usize, usize),
}

pub trait TryFromObject: Sized {
    fn try_from_object(object: PyObjectRef) -> Self;
}

impl PyObjectRef {
    fn into_bytes(self) -> Vec<u8> {
        match self {
            PyObjectRef::Bytes(bytes) => bytes,
            PyObjectRef::Place(..) => panic!("no method asks a place for its bytes"),
        }
    }
}

impl TryFromObject for PyBytesInner {
    fn try_from_object(object: PyObjectRef) -> Self {
        object.into_bytes().into()
    }
}

impl PyObjectRef {
    fn try_into_value<T: TryFromObject>(self, _: &VirtualMachine) -> PyResult<T> {
        Ok(T::try_from_object(self))
    }
}

pub struct ArgIterable<T>(Vec<T>);

impl<T> ArgIterable<T> {
    fn iter(self, _: &VirtualMachine) -> PyResult<impl Iterator<Item = PyResult<T>>> {
        Ok(self.0.into_iter().map(Ok))
    }
}
