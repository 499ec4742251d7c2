//! Stands in for `num-derive`: the operators of a number type, and two derives that are never called.

pub use derives::{FromPrimitive, NumOps, ToPrimitive};

#[cfg(test)]
mod tests {
    use super::{FromPrimitive, NumOps, ToPrimitive};

    #[derive(Debug, PartialEq, Clone, Copy, NumOps, FromPrimitive, ToPrimitive)]
    pub struct Number(i64);

    #[test]
    fn operators_are_those_of_the_field() {
        assert_eq!(Number(7) + Number(2), Number(9));
        assert_eq!(Number(7) - Number(9), Number(-2));
        assert_eq!(Number(7) * Number(2), Number(14));
        assert_eq!(Number(7) / Number(2), Number(3));
        assert_eq!(Number(7) % Number(2), Number(1));
    }

    #[test]
    #[should_panic(expected = "overflow")]
    fn overflow_panics() {
        let _ = Number(i64::MAX) + Number(std::hint::black_box(1));
    }
}
