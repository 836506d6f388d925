//! Small stand-ins for the parts of arrow and datafusion that the extracted
//! functions name, so that they compile unchanged with std and memchr alone.
//! An "array" here is one row going in and the parts appended coming out.

use std::marker::PhantomData;
use std::sync::Arc;

pub type Result<T> = std::result::Result<T, String>;

macro_rules! exec_datafusion_err {
    ($($arg:tt)*) => { format!($($arg)*) };
}

macro_rules! exec_err {
    ($($arg:tt)*) => { Err(format!($($arg)*)) };
}

pub(crate) use {exec_datafusion_err, exec_err};

/// A part as the kernel handed it over: the address tells where in the row
/// it lies, which its bytes alone cannot.
#[derive(Clone)]
pub struct Part {
    pub text: String,
    pub address: usize,
}

impl From<&str> for Part {
    fn from(text: &str) -> Self {
        Part { text: text.to_owned(), address: text.as_ptr() as usize }
    }
}

#[derive(Default)]
pub struct Parts(Vec<Part>);

impl Parts {
    pub fn only(&self) -> Part {
        assert_eq!(self.0.len(), 1, "one row in, one part out");
        self.0[0].clone()
    }
}

pub type ArrayRef = Arc<Parts>;

#[derive(Clone)]
pub struct NullBuffer;

impl NullBuffer {
    pub fn is_null(&self, _row: usize) -> bool {
        false
    }
}

/// The input array: a single row, not null.
#[derive(Clone, Copy)]
pub struct OneRow<'a>(pub &'a str);

pub trait StringArrayType<'a> {
    fn len(&self) -> usize;
    fn nulls(&self) -> Option<&NullBuffer>;
    unsafe fn value_unchecked(&self, row: usize) -> &'a str;
}

impl<'a> StringArrayType<'a> for OneRow<'a> {
    fn len(&self) -> usize {
        1
    }
    fn nulls(&self) -> Option<&NullBuffer> {
        None
    }
    unsafe fn value_unchecked(&self, _row: usize) -> &'a str {
        self.0
    }
}

pub trait BulkNullStringArrayBuilder {
    fn append_value(&mut self, value: &str);
    fn append_placeholder(&mut self);
    fn finish(self, nulls: Option<NullBuffer>) -> Result<ArrayRef>;
}

impl BulkNullStringArrayBuilder for Parts {
    fn append_value(&mut self, value: &str) {
        self.0.push(Part::from(value));
    }
    fn append_placeholder(&mut self) {
        unreachable!("no row of the list is null");
    }
    fn finish(self, _nulls: Option<NullBuffer>) -> Result<ArrayRef> {
        Ok(Arc::new(self))
    }
}

pub trait OffsetSizeTrait {}

impl OffsetSizeTrait for i32 {}

/// substrindex.rs names this builder itself, not the trait above.
#[derive(Default)]
pub struct GenericStringArrayBuilder<O> {
    parts: Parts,
    offsets: PhantomData<O>,
}

impl<O> GenericStringArrayBuilder<O> {
    pub fn try_append_value(&mut self, value: &str) -> Result<()> {
        self.parts.append_value(value);
        Ok(())
    }
    pub fn try_append_placeholder(&mut self) -> Result<()> {
        self.parts.append_placeholder();
        Ok(())
    }
    pub fn finish(self, _nulls: Option<NullBuffer>) -> Result<Parts> {
        Ok(self.parts)
    }
}
