//! Stands for `ContainerError`, the error of reading and writing sections. The checks never make one.

#[derive(Debug)]
pub enum ContainerError {
    Io(std::io::Error),
    InvalidFieldType(u8),
    InvalidArrayStride { element_type: u8, element_stride: u32 },
}

impl From<std::io::Error> for ContainerError {
    fn from(why: std::io::Error) -> Self {
        ContainerError::Io(why)
    }
}
