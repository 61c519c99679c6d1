//! Kinds of tokens, codes of refusals and rules of rows, by name.

/// An enum whose variants have the reader's numbers.
macro_rules! numbered {
    ($(#[$meta:meta])* $name:ident, $what:literal: $($(#[$doc:meta])* $variant:ident = $number:literal,)*) => {
        $(#[$meta])*
        #[derive(Clone, Copy, PartialEq, Eq, PartialOrd, Ord, Hash, Debug)]
        #[repr(u32)]
        pub enum $name {
            $($(#[$doc])* $variant = $number,)*
        }

        impl $name {
            #[doc = concat!("Every ", $what, ", in the order of their numbers.")]
            pub const ALL: &[$name] = &[$($name::$variant,)*];

            #[doc = concat!("The ", $what, " of a number. None: there is no such ", $what, ".")]
            pub const fn from_u32(number: u32) -> Option<$name> {
                match number {
                    $($number => Some($name::$variant),)*
                    _ => None,
                }
            }
        }

        impl From<$name> for u32 {
            fn from(one: $name) -> u32 {
                one as u32
            }
        }
    };
}

numbered! {
    /// A kind of token, as token.rs's `Token` names it and with its number: a `Token` is handed over as `token as u32`.
    ///
    /// ```
    /// use kaori_syntax::Kind;
    ///
    /// assert_eq!((Kind::Assign as u32, Kind::Eof as u32), (0, 44));
    /// assert_eq!((Kind::from_u32(41), Kind::from_u32(45)), (Some(Kind::Semicolon), None));
    /// assert_eq!(Kind::ALL.len(), 45);
    /// ```
    Kind, "kind":
    /// `=`
    Assign = 0,
    /// `+`
    Plus = 1,
    /// `-`
    Minus = 2,
    /// `*`
    Multiply = 3,
    /// `^`
    Caret = 4,
    /// `/`
    Divide = 5,
    /// `%`
    Modulo = 6,
    /// `!=`
    NotEqual = 7,
    /// `==`
    Equal = 8,
    /// `>=`
    GreaterEqual = 9,
    /// `<=`
    LessEqual = 10,
    /// `>`
    Greater = 11,
    /// `<`
    Less = 12,
    /// `,`
    Comma = 13,
    /// `:`
    Colon = 14,
    /// `.`
    Dot = 15,
    /// `|`
    Pipe = 16,
    /// `(`
    LeftParen = 17,
    /// `)`
    RightParen = 18,
    /// `#`
    Hash = 19,
    /// `{`
    LeftBrace = 20,
    /// `}`
    RightBrace = 21,
    /// `and`
    And = 22,
    /// `or`
    Or = 23,
    /// `not`
    Not = 24,
    /// `let`
    Let = 25,
    /// `const`
    Const = 26,
    /// `ref`
    Ref = 27,
    /// `fun`
    Function = 28,
    /// `for`
    For = 29,
    /// `while`
    While = 30,
    /// `break`
    Break = 31,
    /// `continue`
    Continue = 32,
    /// `if`
    If = 33,
    /// `else`
    Else = 34,
    /// `return`
    Return = 35,
    /// `import`
    Import = 36,
    /// `true`
    True = 37,
    /// `false`
    False = 38,
    /// `nil`
    Nil = 39,
    /// A number.
    NumberLiteral = 40,
    /// `;`
    Semicolon = 41,
    /// A string, with its quotes.
    StringLiteral = 42,
    /// A name.
    Identifier = 43,
    /// The end of the file.
    Eof = 44,
}

numbered! {
    /// Why something was refused. The first that applies is given; in reading, from left to right, the first that is met. 12 is
    /// none.
    ///
    /// ```
    /// use kaori_syntax::{Code, Rooms};
    ///
    /// let why = Rooms::for_tokens(8).read(b"return;", 64).unwrap_err();
    /// assert_eq!((why.code, why.code as u32), (Code::Operand, 9));
    /// assert_eq!((Code::from_u32(9), Code::from_u32(12)), (Some(Code::Operand), None));
    /// ```
    Code, "code":
    /// The token list's length is not three times a count from 1 to 4,096; by [`read`](crate::read): too many tokens, or too
    /// little room for their list.
    BadCount = 1,
    /// Text over 65,536 bytes.
    LongText = 2,
    /// Depth limit 0 or over 64.
    BadLimit = 3,
    /// `scratch` has fewer rows than there are tokens; after 18: the symbol room has fewer rows than there are built-in names;
    /// met in reading: a row does not fit its room.
    SmallRoom = 4,
    /// A byte of the text over 127.
    HighByte = 5,
    /// A token's kind, span or lexeme is wrong.
    BadToken = 6,
    /// Eof before the last token, or none there.
    BadEof = 7,
    /// A certain kind of token was required.
    Required = 8,
    /// An operand was required.
    Operand = 9,
    /// A statement starts with `for`.
    For = 10,
    /// An opening would pass the depth limit.
    TooDeep = 11,
    /// Too little room for the answer; this crate always has enough.
    SmallAnswer = 13,
    /// An offset past the text, where [`place`](crate::place) gives none.
    PastText = 14,
    /// A symbol without a name, where [`name`](crate::name) gives none. Of rows that another build wrote it is
    /// [`Code::NOT_LENT`].
    NoName = 15,
    /// By [`read`](crate::read): no token starts at a byte.
    NoToken = 16,
    /// Of a guard: a token that no guard has, `{`, `if`, `|` or `#`; after 7, before reading.
    Outside = 17,
    /// The built-in names' text is over 65,536 bytes, they are over 64, a span is wrong, one is no identifier, or two are the
    /// same; after a 4 for `scratch`.
    BadNames = 18,
    /// Of a station's scripts: there are none or over 32, their cuts are wrong, or the rooms are smaller than their parts;
    /// before all else. It is no script's own: [`TurnedAway`](crate::TurnedAway) stands for it.
    TurnedAway = 19,
    /// Of [`keep`](crate::keep()): the choice's length is not the number of the root's statements; after 22.
    BadChoice = 20,
    /// The edition is neither 1 nor 2; after 3, before any 4. Of rows that another build wrote, or that statements are dropped
    /// of: after 15.
    BadEdition = 21,
    /// Rows that another build wrote, or that statements are dropped of, break a [`Rule`].
    BadRows = 22,
}

impl Code {
    /// 15 of [`Tree::from_rows`](crate::Tree::from_rows) and [`keep`](crate::keep()): a count of rows passes what was lent, or there
    /// is too little scratch for them; of the second also: there are more built-in names than symbols.
    pub const NOT_LENT: Code = Code::NoName;
}

numbered! {
    /// What has to hold of rows that another build wrote, in the order in which they are held to it.
    /// [`Tree::from_rows`](crate::Tree::from_rows) takes them for a tree if all nine do.
    ///
    /// ```
    /// use kaori_syntax::Rule;
    ///
    /// assert_eq!((Rule::Once as u32, Rule::from_u32(4)), (4, Some(Rule::Once)));
    /// assert_eq!(Rule::Once.to_string(), "every row but the last is named once");
    /// ```
    Rule, "rule":
    /// Each kind is one of 1 to 26.
    Kinds = 1,
    /// Operators, Booleans and symbols are below their number, and lists within the link rows.
    Ranges = 2,
    /// A row that is named, as a child or in a list, is an earlier one, or absent.
    Earlier = 3,
    /// Every row but the last is named once.
    Once = 4,
    /// The last row is a block with no tail.
    Root = 5,
    /// In the order of the rows each list starts where the last one ends, and they have all links.
    Lists = 6,
    /// Absent is at most a block's tail, an `else`, a map entry's value, in edition 2 a `return`'s child.
    Absent = 7,
    /// Unused numbers are 0, of link rows too.
    Unused = 8,
    /// The parent is the row that names this one, and the last row's is absent.
    Parents = 9,
}
