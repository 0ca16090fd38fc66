//! The differences of a part, and the smallest of them.

/// How many cases differ, and the first of those with the smallest size.
#[derive(Default)]
pub struct Differences {
    found: usize,
    smallest: Option<(usize, String)>,
}

impl Differences {
    /// A case that differs; its size is the number of its bytes, or of what else it can have fewer of.
    pub fn add(&mut self, size: usize, case: impl FnOnce() -> String) {
        self.found += 1;
        if self
            .smallest
            .as_ref()
            .is_none_or(|(least, _)| size < *least)
        {
            self.smallest = Some((size, case()));
        }
    }

    /// What was compared, where nothing differs.
    pub fn result(self, compared: String) -> Result<String, String> {
        match self.smallest {
            None => Ok(compared),
            Some((_, case)) => Err(format!(
                "{} cases differ; the smallest of them:\n  {case}",
                self.found
            )),
        }
    }
}

/// A part of a failing list that still fails, of which no element can be left out, and its failure.
pub fn smallest_case<T: Clone, A>(
    list: &[T],
    compare: impl Fn(&[T]) -> Result<A, String>,
) -> (Vec<T>, String) {
    let list = smallest(list, |list| compare(list).is_err());
    let error = compare(&list).err().unwrap_or_default();
    (list, error)
}

/// Leaves out elements while the rest still fails: halves of the list, then fewer, at last one by one.
pub fn smallest<T: Clone>(list: &[T], fails: impl Fn(&[T]) -> bool) -> Vec<T> {
    let mut list = list.to_vec();
    let mut size = list.len();
    while size > 0 {
        let before = list.len();
        let mut place = 0;
        while place < list.len() {
            let end = list.len().min(place + size);
            let without = [&list[..place], &list[end..]].concat();
            if fails(&without) {
                list = without;
            } else {
                place = end;
            }
        }
        if size > 1 || list.len() == before {
            size /= 2;
        }
    }
    list
}
