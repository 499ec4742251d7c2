//! The derives that the original's number types name, for a tuple struct of one field and nothing else.
//! Re-exported by the stand-ins of `num-derive`, `serde` and `speedy`.

use proc_macro::{TokenStream, TokenTree};

/// The name after the word `struct`.
fn name_of(item: TokenStream) -> String {
    let mut after_struct = false;
    for token in item {
        if let TokenTree::Ident(word) = token {
            if after_struct {
                return word.to_string();
            }
            after_struct = word.to_string() == "struct";
        }
    }
    panic!("these derives are for structs alone")
}

fn code(text: String) -> TokenStream {
    text.parse().expect("the derived text is Rust")
}

/// The five operators, by those of the field: an overflow panics as it does there.
#[proc_macro_derive(NumOps)]
pub fn num_ops(item: TokenStream) -> TokenStream {
    let name = name_of(item);
    let operators = [
        ("Add", "add", "+"),
        ("Sub", "sub", "-"),
        ("Mul", "mul", "*"),
        ("Div", "div", "/"),
        ("Rem", "rem", "%"),
    ];
    let one = |(class, call, sign): (&str, &str, &str)| {
        format!(
            "impl ::core::ops::{class} for {name} {{
                type Output = Self;
                fn {call}(self, other: Self) -> Self {{ Self(self.0 {sign} other.0) }}
            }}"
        )
    };
    code(operators.map(one).concat())
}

/// Reads the one field.
#[proc_macro_derive(Readable)]
pub fn readable(item: TokenStream) -> TokenStream {
    let name = name_of(item);
    code(format!(
        "impl<'a, C: ::speedy::Context> ::speedy::Readable<'a, C> for {name} {{
            fn read_from<R: ::speedy::Reader<'a, C>>(reader: &mut R) -> Result<Self, C::Error> {{
                Ok(Self(reader.read_value()?))
            }}
        }}"
    ))
}

/// Writes the one field.
#[proc_macro_derive(Writable)]
pub fn writable(item: TokenStream) -> TokenStream {
    let name = name_of(item);
    code(format!(
        "impl<C: ::speedy::Context> ::speedy::Writable<C> for {name} {{
            fn write_to<T: ?Sized + ::speedy::Writer<C>>(&self, writer: &mut T) -> Result<(), C::Error> {{
                writer.write_value(&self.0)
            }}
        }}"
    ))
}

/// Nothing: the three files never call it.
#[proc_macro_derive(FromPrimitive)]
pub fn from_primitive(_: TokenStream) -> TokenStream {
    TokenStream::new()
}

/// Nothing: the three files never call it.
#[proc_macro_derive(ToPrimitive)]
pub fn to_primitive(_: TokenStream) -> TokenStream {
    TokenStream::new()
}

/// Nothing: the three files never call it.
#[proc_macro_derive(Serialize)]
pub fn serialize(_: TokenStream) -> TokenStream {
    TokenStream::new()
}

/// Nothing: the three files never call it.
#[proc_macro_derive(Deserialize)]
pub fn deserialize(_: TokenStream) -> TokenStream {
    TokenStream::new()
}
