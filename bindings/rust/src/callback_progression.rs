//! What a callback of a listing answers.

use crate::display::shown_by_name;

/// Whether a listing goes on after the entry that its callback was called on.
///
/// ```
/// use iox2sd::attribute::AttributeSpecifier;
/// use iox2sd::CallbackProgression;
///
/// let site = "site".try_into()?;
/// let specifier = AttributeSpecifier::new()
///     .define(&site, &"north".try_into()?)?
///     .define(&site, &"east".try_into()?)?;
/// let mut calls = 0;
/// specifier.attributes().iter_key_values(&site, |_| {
///     calls += 1;
///     CallbackProgression::Stop
/// });
/// assert_eq!(calls, 1);
/// # Ok::<(), Box<dyn std::error::Error>>(())
/// ```
#[derive(Clone, Copy, Debug, PartialEq, Eq, Hash)]
pub enum CallbackProgression {
    /// It goes on with the next entry.
    Continue,
    /// It ends; the callback is not called again.
    Stop,
}

shown_by_name!(CallbackProgression);

/// Calls the callback on the items, up to and with the first answer `Stop`.
pub(crate) fn visit<T>(
    items: impl IntoIterator<Item = T>,
    mut callback: impl FnMut(T) -> CallbackProgression,
) {
    for item in items {
        if callback(item) == CallbackProgression::Stop {
            return;
        }
    }
}
