//! What crosses between the programs.

#[repr(C)]
#[derive(Clone, Copy)]
pub struct Point {
    pub easting: i32,
    pub northing: i32,
    pub level: i32,
}

#[repr(C)]
#[derive(Clone, Copy, PartialEq, Eq, Debug, Default)]
pub struct Row {
    pub distance: u64,
    pub top: i32,
    pub pick: u16,
}
