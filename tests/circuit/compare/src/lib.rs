// Random images: groups of them, their programs, and the random generator.
// Paper: "Images and the listing program". Source: Part 1, for the switches of a group.
// The program of this package and the one in ../beside both take their images from here.
#![forbid(unsafe_code)]

pub mod groups;
pub mod programs;
pub mod random;
