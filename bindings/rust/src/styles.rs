//! Questions about how text looks.
use crate::names::{Choice, Style, TextAlign, TextDirection, TextStyle, VerticalOffset};
use crate::raw::{self, Color};
use crate::{Error, Id, Spot, Tree};

/// A property of how text looks, with its value. A size is in hundredths of a pixel.
#[derive(Clone, Debug, PartialEq, Eq, Hash)]
pub enum StyleValue {
    TextDirection(TextDirection),
    FontFamily(String),
    Language(String),
    FontSize(u32),
    FontWeight(u32),
    BackgroundColor(Color),
    ForegroundColor(Color),
    Overline(Style, Color),
    Strikethrough(Style, Color),
    Underline(Style, Color),
    TextAlign(TextAlign),
    VerticalOffset(VerticalOffset),
    Italic(bool),
}

impl StyleValue {
    /// What the library has written of a property.
    fn of(style: TextStyle, found: raw::StyleValue) -> Option<StyleValue> {
        let raw::StyleValue { number, red, green, blue, alpha } = found;
        let color = Color { red, green, blue, alpha };
        Some(match style {
            TextStyle::TextDirection => StyleValue::TextDirection(Choice::numbered(number)?),
            TextStyle::FontSize => StyleValue::FontSize(number),
            TextStyle::FontWeight => StyleValue::FontWeight(number),
            TextStyle::BackgroundColor => StyleValue::BackgroundColor(color),
            TextStyle::ForegroundColor => StyleValue::ForegroundColor(color),
            TextStyle::Overline => StyleValue::Overline(Style::numbered(number)?, color),
            TextStyle::Strikethrough => StyleValue::Strikethrough(Style::numbered(number)?, color),
            TextStyle::Underline => StyleValue::Underline(Style::numbered(number)?, color),
            TextStyle::TextAlign => StyleValue::TextAlign(Choice::numbered(number)?),
            TextStyle::VerticalOffset => StyleValue::VerticalOffset(Choice::numbered(number)?),
            TextStyle::Italic => StyleValue::Italic(number == 1),
            // (these are texts)
            TextStyle::FontFamily | TextStyle::Language => return None,
        })
    }

    /// A property that is a text.
    fn text(style: TextStyle) -> Option<fn(String) -> StyleValue> {
        match style {
            TextStyle::FontFamily => Some(StyleValue::FontFamily),
            TextStyle::Language => Some(StyleValue::Language),
            _ => None,
        }
    }
}

impl Tree {
    /// How the node's text looks: a property of the nearest node, from this one upwards, that has it.
    pub fn style(&mut self, of: Id, style: TextStyle) -> Result<Option<StyleValue>, Error> {
        if let Some(made) = StyleValue::text(style) {
            let text = self.text_in(|tree, buffer, length| unsafe {
                raw::ak_node_style_text(tree, of.node, of.tree, style as u32, buffer.as_mut_ptr(), buffer.len(), length)
            })?;
            return Ok(text.map(made));
        }
        let found = self.one(|tree, value| unsafe { raw::ak_node_style(tree, of.node, of.tree, style as u32, value) })?;
        Ok(found.and_then(|found| StyleValue::of(style, found)))
    }

    /// How the text looks at a position: a property of the nearest node, from the run upwards, that has it.
    pub fn text_style(&mut self, of: Id, spot: impl Into<Spot>, style: TextStyle) -> Result<Option<StyleValue>, Error> {
        let spot = spot.into().raw();
        if let Some(made) = StyleValue::text(style) {
            let text = self.text_in(|tree, buffer, length| unsafe {
                raw::ak_text_style_text(tree, of.node, of.tree, &spot, style as u32, buffer.as_mut_ptr(), buffer.len(), length)
            })?;
            return Ok(text.map(made));
        }
        let found = self.one(|tree, value| unsafe { raw::ak_text_style(tree, of.node, of.tree, &spot, style as u32, value) })?;
        Ok(found.and_then(|found| StyleValue::of(style, found)))
    }

    /// Whether the runs from one spot up to another differ in a property.
    pub fn text_differs(&mut self, of: Id, from: impl Into<Spot>, to: impl Into<Spot>, style: TextStyle) -> Result<Option<bool>, Error> {
        let (from, to) = (from.into().raw(), to.into().raw());
        self.one(|tree, differs| unsafe { raw::ak_text_differs(tree, of.node, of.tree, &from, &to, style as u32, differs) })
    }
}
