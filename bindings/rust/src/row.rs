//! Rows.

/// A row as the tables have it: six numbers of 64 bits.
pub type Columns = [u64; 6];

/// A type of rows: how a value is written as columns, and which columns are read as which value.
///
/// What it writes it has to read again, and it has to refuse what it would write otherwise: test the columns without a field for 0, and
/// narrow fields for their range.
///
/// ```
/// use cicada::{Columns, Row};
///
/// #[derive(Debug, PartialEq)]
/// struct Order { trader: u32, price: u64 }
///
/// impl Row for Order {
///     fn to_columns(&self) -> Columns {
///         [self.trader.into(), self.price, 0, 0, 0, 0]
///     }
///
///     fn from_columns(columns: &Columns) -> Option<Self> {
///         match *columns {
///             [trader, price, 0, 0, 0, 0] => Some(Order { trader: trader.try_into().ok()?, price }),
///             _ => None,
///         }
///     }
/// }
///
/// let order = Order { trader: 7, price: 100 };
/// assert_eq!(Order::from_columns(&order.to_columns()), Some(order));
/// assert_eq!(Order::from_columns(&[1 << 32, 0, 0, 0, 0, 0]), None);
/// ```
pub trait Row: Sized {
    /// The columns of this value.
    fn to_columns(&self) -> Columns;

    /// The value that has these columns, if there is one.
    fn from_columns(columns: &Columns) -> Option<Self>;
}

impl Row for Columns {
    fn to_columns(&self) -> Columns {
        *self
    }

    fn from_columns(columns: &Columns) -> Option<Self> {
        Some(*columns)
    }
}
