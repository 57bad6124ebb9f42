use std::fmt::Display;

/// A row of values. The row is an array, a vector or a slice of values with `Display`, or a tuple of one to twelve such values,
/// which may have different types.
///
/// ```
/// use comfy_table_proved::csvtable::Rows;
///
/// let mut rows = Rows::new(["name", "price"]);
/// rows.push(["oats", "3"]);
/// rows.push(("rye", -12.5));
/// rows.push(vec![String::from("barley")]);
/// assert_eq!(rows.len(), 3);
/// ```
pub trait IntoCells {
    /// Calls `each` for each value of the row, in order.
    fn for_each_cell(self, each: impl FnMut(&dyn Display));
}

fn for_each<T: Display>(values: &[T], mut each: impl FnMut(&dyn Display)) {
    for value in values {
        each(value);
    }
}

impl<T: Display, const N: usize> IntoCells for [T; N] {
    fn for_each_cell(self, each: impl FnMut(&dyn Display)) {
        for_each(&self, each);
    }
}

impl<T: Display> IntoCells for Vec<T> {
    fn for_each_cell(self, each: impl FnMut(&dyn Display)) {
        for_each(&self, each);
    }
}

impl<T: Display> IntoCells for &[T] {
    fn for_each_cell(self, each: impl FnMut(&dyn Display)) {
        for_each(self, each);
    }
}

impl<T: Display> IntoCells for &Vec<T> {
    fn for_each_cell(self, each: impl FnMut(&dyn Display)) {
        for_each(self, each);
    }
}

macro_rules! tuples {
    ($(($($name:ident)+))+) => {
        $(impl<$($name: Display),+> IntoCells for ($($name,)+) {
            #[allow(non_snake_case)]
            fn for_each_cell(self, mut each: impl FnMut(&dyn Display)) {
                let ($($name,)+) = self;
                $(each(&$name);)+
            }
        })+
    };
}

tuples! {
    (A)
    (A B)
    (A B C)
    (A B C D)
    (A B C D E)
    (A B C D E F)
    (A B C D E F G)
    (A B C D E F G H)
    (A B C D E F G H I)
    (A B C D E F G H I J)
    (A B C D E F G H I J K)
    (A B C D E F G H I J K L)
}
