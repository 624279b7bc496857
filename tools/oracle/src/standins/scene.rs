//! Stand-ins for crate::scene of the original. Only `Rgb` is used by rules; the rest is painting, which document 01 leaves out.

#[derive(Debug, Clone, Copy, PartialEq, Eq)]
pub struct Rgb {
    pub red: u8,
    pub green: u8,
    pub blue: u8,
}

impl Rgb {
    pub fn new(red: u8, green: u8, blue: u8) -> Self {
        Rgb { red, green, blue }
    }
}

#[derive(Debug, Clone, Copy, PartialEq, Eq, PartialOrd, Ord)]
pub struct Fixed(());

impl Fixed {
    pub const ZERO: Fixed = Fixed(());

    pub fn from_raw(_raw: i64) -> Self {
        unreachable!("left out by document 01")
    }

    pub fn from_pixels(_pixels: i64) -> Self {
        unreachable!("left out by document 01")
    }

    pub fn raw(self) -> i64 {
        unreachable!("left out by document 01")
    }

    pub fn checked_add(self, _other: Fixed) -> Option<Fixed> {
        unreachable!("left out by document 01")
    }

    pub fn checked_sub(self, _other: Fixed) -> Option<Fixed> {
        unreachable!("left out by document 01")
    }
}

#[derive(Debug, Clone, Copy)]
pub struct Rect {
    pub x: Fixed,
    pub y: Fixed,
    pub width: Fixed,
    pub height: Fixed,
}

pub struct RectNode {
    pub rect: Rect,
    pub fill: Option<Rgb>,
    pub stroke: Option<Rgb>,
    pub stroke_width: Fixed,
}

pub enum SceneNode {
    Rect(RectNode),
}
