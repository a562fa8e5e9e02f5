pub mod paint;

pub struct Rectangle {
    pub width: u32,
    pub height: u32,
}

impl Rectangle {
    pub fn area(&self) -> u32 {
        self.width * self.height
    }

    pub fn is_square(&self) -> bool {
        self.width == self.height
    }

    pub fn scaled(&self, by: u32) -> Rectangle {
        Rectangle { width: self.width * by, height: self.height * by }
    }
}

pub fn total(shapes: &[Rectangle]) -> u32 {
    let mut sum = 0;
    for shape in shapes {
        sum += shape.area();
    }
    sum
}
