//! What a sheet is read for: the device that `@media` asks about, and the properties that `@supports` knows.
use crate::done;
use crate::erased::css_conditions::{media_says, supports_holds, Supported, Truth};
use crate::erased::css_sheet::read_supported;
use crate::erased::css_syntax::tokens::{past_gap, spells};
use crate::erased::css_values::RefusedValues;
use crate::erased::sheet_calls::functions::is_known_word;
use crate::rattle_std::alloc::{AllocError, Global};
use crate::within;

pub use crate::erased::css_conditions::{Contrast, Device, Display, Gamut, Medium, Pointer, Scripting, Update};

/// A desktop: a screen of 1,280 x 800 pixels with a mouse. Later versions may add fields, so name what differs:
///
/// ```
/// use simplecss::modern::{Device, Medium};
///
/// let page = Device { medium: Medium::Print, width: 794, ..Device::default() };
/// assert_eq!(page.height, 800);
/// ```
impl Default for Device {
    fn default() -> Self {
        Device {
            medium: Medium::Screen,
            width: 1_280,
            height: 800,
            // That of a page.
            device_width: 0,
            device_height: 0,
            resolution: 1_000,
            color: 8,
            color_index: 0,
            monochrome: 0,
            gamut: Gamut::Srgb,
            high_range: false,
            grid: false,
            update: Update::Fast,
            scripting: Scripting::Enabled,
            display: Display::Browser,
            dark: false,
            reduced_motion: false,
            reduced_transparency: false,
            contrast: Contrast::Usual,
            forced_colors: false,
            hover: true,
            pointer: Pointer::Fine,
            any_hover: false,
            any_coarse: false,
            any_fine: false,
        }
    }
}

/// How a sheet is read.
///
/// ```
/// use simplecss::modern::{Device, Options, Sheet, Text};
///
/// let text = Text::sheet("@media (max-width: 40em) { a { b: c } } @supports (fill: red) { d { e: f } }");
/// let count = |options| Sheet::parse(&text, &options).unwrap().rules().len();
/// let phone = Device { width: 360, ..Device::default() };
/// assert_eq!(count(Options::default()), 0);
/// assert_eq!(count(Options { device: phone, ..Options::default() }), 1);
/// assert_eq!(count(Options { device: phone, properties: &["fill"], ..Options::default() }), 2);
/// ```
#[derive(Clone, Copy, Debug)]
pub struct Options<'o> {
    /// The device that `@media` asks about. By default it is a desktop.
    pub device: Device,
    /// The properties that `@supports` knows, in lower case. Custom properties are known, too. By default there are no
    /// others.
    pub properties: &'o [&'o str],
    /// The urls of the namespaces that are known. The first has number 1, and elements are asked for these numbers
    /// ([`Element::is_in_namespace`]). By default there are none. If there are none, or more than 1,024, a rule with a
    /// prefix has no selectors that are supported, and a default namespace changes nothing.
    ///
    /// [`Element::is_in_namespace`]: super::Element::is_in_namespace
    pub namespaces: &'o [&'o str],
    /// How many declarations the rules may hold: by default 1,000,000.
    pub limit: usize,
}

impl Default for Options<'_> {
    fn default() -> Self {
        Options { device: Device::default(), properties: &[], namespaces: &[], limit: 1_000_000 }
    }
}

impl Options<'_> {
    /// Whether a group rule's condition holds. The keyword is its name. A condition of `@media` holds if it does on the
    /// device, and one of `@supports` if the properties are known, not with values that no browser takes, and the
    /// selectors are supported. What is not known does not hold, and the condition of no other group rule does.
    ///
    /// ```
    /// use simplecss::modern::Options;
    ///
    /// let options = Options { properties: &["display"], ..Options::default() };
    /// assert!(options.holds("media", "screen and (min-width: 600px)"));
    /// assert!(options.holds("supports", "(display: grid) and selector(a:has(b))"));
    /// assert!(!options.holds("container", "(min-width: 1px)"));
    /// ```
    pub fn holds(&self, keyword: &str, prelude: &str) -> bool {
        if keyword.eq_ignore_ascii_case("media") {
            return media_says(within(prelude), &self.device) == Truth::True;
        }
        keyword.eq_ignore_ascii_case("supports") && {
            let known = Known { properties: self.properties, values: done(RefusedValues::new(Global)) };
            done(supports_holds(within(prelude), &known))
        }
    }
}

/// What is supported: properties of these names, but for values that no browser takes, custom properties, and selectors
/// that can be read.
struct Known<'o> {
    properties: &'o [&'o str],
    values: RefusedValues,
}

impl Supported for Known<'_> {
    fn knows(&self, name: &[u8], value: &[u8]) -> bool {
        let is_listed = || self.properties.iter().any(|it| spells(it.as_bytes(), name));
        let is_refused = || core::str::from_utf8(name).map_or(false, |name| self.values.refuses(name, value, false));
        matches!(name, [b'-', b'-', _, ..]) || !past_gap(value).is_empty() && is_listed() && !is_refused()
    }

    fn function(&self, name: &[u8], arguments: &[u8]) -> Result<bool, AllocError> {
        match core::str::from_utf8(arguments) {
            Ok(text) if spells(b"selector", name) => Ok(read_supported(Global, text)?.is_some()),
            _ => Ok(is_known_word(name, arguments)),
        }
    }
}
