//! A small reader of pages: whether tags, attributes and entities are as they have to be, and what stands in
//! the cells of tables. It knows as much of HTML as our pages use.
#![allow(dead_code)]

use std::collections::HashSet;

/// Elements of HTML that have no end.
const VOID: [&str; 1] = ["meta"];
const ENTITIES: [&str; 5] = ["amp;", "lt;", "gt;", "quot;", "#39;"];

/// Refuses a page that is not well formed, that needs a script or that would load something.
pub fn check(page: &str) -> Result<(), String> {
    let page = page.strip_prefix("<!DOCTYPE html>\n").ok_or("no doctype")?;
    let mut open: Vec<&str> = Vec::new();
    let mut ids = HashSet::new();
    let mut rest = page;
    while let Some((text, behind)) = rest.split_once('<') {
        entities(text)?;
        let (tag, after) = behind.split_once('>').ok_or("a tag has no end")?;
        rest = after;
        if let Some(name) = tag.strip_prefix('/') {
            let last = open.pop();
            if last != Some(name) {
                return Err(format!("</{name}> ends {last:?}"));
            }
            continue;
        }
        let (tag, closed) = tag
            .strip_suffix('/')
            .map_or((tag, false), |tag| (tag, true));
        let (name, attributes) = tag.split_once(' ').unwrap_or((tag, ""));
        check_name(name)?;
        check_attributes(attributes, &mut ids)?;
        if !closed && !VOID.contains(&name) {
            open.push(name);
        }
    }
    entities(rest)?;
    match open.is_empty() {
        true => Ok(()),
        false => Err(format!("not ended: {open:?}")),
    }
}

fn check_name(name: &str) -> Result<(), String> {
    let plain = name.chars().all(|c| c.is_ascii_alphanumeric());
    let loads = ["script", "link", "img", "iframe", "object", "image", "use"].contains(&name);
    match plain && !name.is_empty() && !loads {
        true => Ok(()),
        false => Err(format!("element `{name}`")),
    }
}

fn check_attributes<'a>(mut text: &'a str, ids: &mut HashSet<&'a str>) -> Result<(), String> {
    while !text.is_empty() {
        let (name, rest) = text
            .split_once("=\"")
            .ok_or(format!("attribute `{text}`"))?;
        let (value, rest) = rest.split_once('"').ok_or(format!("value of `{name}`"))?;
        entities(value)?;
        let plain = name.chars().all(|c| c.is_ascii_alphabetic() || c == '-');
        if !plain || name.starts_with("on") || ["src", "href"].contains(&name) {
            return Err(format!("attribute `{name}`"));
        }
        if name == "id" && !ids.insert(value) {
            return Err(format!("two elements have the id `{value}`"));
        }
        text = match rest.strip_prefix(' ') {
            Some(more) => more,
            None if rest.is_empty() => rest,
            None => return Err(format!("no space before `{rest}`")),
        };
    }
    Ok(())
}

fn entities(text: &str) -> Result<(), String> {
    if text.contains("://") || text.contains('>') {
        return Err(format!("in a text: `{text}`"));
    }
    for behind in text.split('&').skip(1) {
        if !ENTITIES.iter().any(|entity| behind.starts_with(entity)) {
            return Err(format!("no entity: `&{behind}`"));
        }
    }
    Ok(())
}

/// The cells of each row of all tables, without their tags.
pub fn rows(page: &str) -> Vec<Vec<String>> {
    let rows = page
        .split("<tr>")
        .skip(1)
        .filter_map(|row| row.split_once("</tr>"));
    rows.map(|(row, _)| cells(row)).collect()
}

fn cells(row: &str) -> Vec<String> {
    let ends = row.replace("</th>", "</td>");
    let cells = ends
        .split("</td>")
        .filter_map(|cell| cell.rsplit_once('>').or_else(|| cell.split_once('>')));
    cells.map(|(_, text)| unescape(text)).collect()
}

pub fn unescape(text: &str) -> String {
    let plain = text
        .replace("&lt;", "<")
        .replace("&gt;", ">")
        .replace("&quot;", "\"");
    plain.replace("&#39;", "'").replace("&amp;", "&")
}

/// What stands behind a heading, up to the next one.
pub fn behind<'a>(page: &'a str, heading: &str) -> Vec<&'a str> {
    let parts = page
        .split("<h")
        .skip(1)
        .filter_map(|part| part.split_once('>'));
    let wanted = parts.filter_map(|(_, part)| part.split_once("</h"));
    wanted
        .filter(|(words, _)| *words == heading)
        .map(|(_, part)| part)
        .collect()
}
