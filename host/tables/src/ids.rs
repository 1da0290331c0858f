//! Record numbers, one type for each table that others point into.

macro_rules! id {
    ($(#[$doc:meta])* $name:ident) => {
        $(#[$doc])*
        #[derive(Clone, Copy, Debug, PartialEq, Eq, Hash, PartialOrd, Ord)]
        pub struct $name(pub(crate) u32);

        impl $name {
            /// The record's number in its table.
            pub fn get(self) -> u32 {
                self.0
            }
        }
    };
}

id! {
    /// A record of table 1.
    Text
}
id! {
    /// A record of table 2.
    Node
}
id! {
    /// A record of table 3.
    Note
}
id! {
    /// A record of table 4.
    Schema
}
