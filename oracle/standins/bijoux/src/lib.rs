//! Stand-in for `bijoux`: names and types. Its rule is not in the text, so a call stops the program
//! instead of inventing an encoding; only revocation payloads and plain integers ask for it.
macro_rules! width {
    ($name:ident) => {
        pub mod $name {
            #[derive(Debug, Clone, Copy, PartialEq, Eq)]
            pub enum DecodeError {
                BufferTooShort,
                Overflow,
            }

            pub fn encode(_: core::primitive::$name, _: &mut Vec<u8>) {
                unimplemented!("the rule of bijoux is not in the text")
            }

            pub fn decode(_: &[u8]) -> Result<(core::primitive::$name, usize), DecodeError> {
                unimplemented!("the rule of bijoux is not in the text")
            }
        }
    };
}

width!(u32);
width!(u64);
