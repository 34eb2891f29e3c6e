pub mod scattered;
