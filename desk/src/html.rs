//! A small writer of HTML and of the SVG inside it: every text and every attribute is escaped, and
//! every element that is opened here is closed here.

use std::fmt::Write;

/// A page, or a part of one.
#[derive(Default)]
pub struct Html {
    text: String,
}

/// Attributes of an element: names are ours, values may be anything.
pub type Attributes<'a> = [(&'a str, &'a str)];

impl Html {
    pub fn new() -> Html {
        Html::default()
    }

    /// An element with what `inside` writes.
    pub fn element(&mut self, name: &str, attributes: &Attributes, inside: impl FnOnce(&mut Html)) {
        self.start(name, attributes);
        self.text.push('>');
        inside(self);
        let _ = write!(self.text, "</{name}>");
    }

    /// An element on lines of its own, for those that hold others.
    pub fn block(&mut self, name: &str, attributes: &Attributes, inside: impl FnOnce(&mut Html)) {
        self.element(name, attributes, |html| {
            html.text.push('\n');
            inside(html);
        });
        self.text.push('\n');
    }

    /// An element that holds a text alone.
    pub fn line(&mut self, name: &str, attributes: &Attributes, text: &str) {
        self.element(name, attributes, |html| html.words(text));
        self.text.push('\n');
    }

    /// An element of SVG that holds nothing.
    pub fn empty(&mut self, name: &str, attributes: &Attributes) {
        self.start(name, attributes);
        self.text.push_str("/>");
    }

    pub fn words(&mut self, text: &str) {
        escape_into(&mut self.text, text);
    }

    fn start(&mut self, name: &str, attributes: &Attributes) {
        let _ = write!(self.text, "<{name}");
        for (attribute, value) in attributes {
            let _ = write!(self.text, " {attribute}=\"");
            escape_into(&mut self.text, value);
            self.text.push('"');
        }
    }

    /// A row of a table; the first cell is the row's heading where `headed`.
    pub fn row(&mut self, headed: bool, cells: &[&str]) {
        self.element("tr", &[], |html| {
            for (place, cell) in cells.iter().enumerate() {
                match headed && place == 0 {
                    true => html.element("th", &[("scope", "row")], |html| html.words(cell)),
                    false => html.element("td", &[], |html| html.words(cell)),
                }
            }
        });
        self.text.push('\n');
    }

    /// A table with a caption, a heading for each column, and the rows that `rows` writes.
    pub fn table(&mut self, caption: &str, columns: &[&str], rows: impl FnOnce(&mut Html)) {
        self.block("table", &[], |html| {
            html.line("caption", &[], caption);
            html.block("thead", &[], |html| {
                html.element("tr", &[], |html| {
                    for column in columns {
                        html.element("th", &[("scope", "col")], |html| html.words(column));
                    }
                });
            });
            html.block("tbody", &[], rows);
        });
    }
}

/// A whole page: needs nothing from the network and no script.
pub fn page(title: &str, style: &str, body: impl FnOnce(&mut Html)) -> String {
    let mut html = Html {
        text: "<!DOCTYPE html>\n".to_string(),
    };
    html.block("html", &[("lang", "en")], |html| {
        html.block("head", &[], |html| {
            html.text.push_str("<meta charset=\"utf-8\">\n");
            html.text
                .push_str("<meta name=\"viewport\" content=\"width=device-width\">\n");
            html.text
                .push_str("<meta name=\"color-scheme\" content=\"light dark\">\n");
            html.line("title", &[], title);
            // Ours alone: nothing of the input stands in a style.
            html.element("style", &[], |html| html.text.push_str(style));
        });
        html.block("body", &[], body);
    });
    html.text
}

/// What may stand in a text or between quotes. Characters that no page may have are shown as U+FFFD.
pub fn escape(text: &str) -> String {
    let mut escaped = String::with_capacity(text.len());
    escape_into(&mut escaped, text);
    escaped
}

fn escape_into(room: &mut String, text: &str) {
    for character in text.chars() {
        match character {
            '&' => room.push_str("&amp;"),
            '<' => room.push_str("&lt;"),
            '>' => room.push_str("&gt;"),
            '"' => room.push_str("&quot;"),
            '\'' => room.push_str("&#39;"),
            '\n' | '\t' => room.push(character),
            _ if character.is_control() => room.push('\u{fffd}'),
            _ => room.push(character),
        }
    }
}

#[cfg(test)]
mod tests {
    use super::*;

    #[test]
    fn names_cannot_become_tags() {
        assert_eq!(
            escape("<b a='\"'>&\u{0}"),
            "&lt;b a=&#39;&quot;&#39;&gt;&amp;\u{fffd}"
        );
        let mut html = Html::new();
        html.line("p", &[("title", "\"><script>")], "</p>");
        assert_eq!(
            html.text,
            "<p title=\"&quot;&gt;&lt;script&gt;\">&lt;/p&gt;</p>\n"
        );
    }
}
