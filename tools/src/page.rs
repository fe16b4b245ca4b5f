//! One page for a browser that shows a play, and needs nothing else: no network, no other file.
use crate::data::json;
use crate::explain::{not_compared, Pass};

const STYLE: &str = include_str!("page.css");
const ACTS: &str = include_str!("page.js");

/// Text that is no tag.
fn escaped(text: &str) -> String {
    text.replace('&', "&amp;")
        .replace('<', "&lt;")
        .replace('>', "&gt;")
        .replace('"', "&quot;")
}

/// The page, with the reason why a script or a sheet can't be read to its end. Nothing that comes from these is a part of the page's tags: all of it is
/// JSON, which the page's own script writes as text.
pub fn page(pass: &Pass, name: &str, reason: &str) -> String {
    let name = match (name, &pass.marks) {
        ("-", None) => "a script",
        ("-", Some(_)) => "an answer sheet",
        _ => name,
    };
    let first = match pass.maxsel {
        None => String::new(),
        Some(most) => format!("<!-- {} -->\n", escaped(&not_compared(most))),
    };
    let note = pass.maxsel.map_or(reason.to_string(), not_compared);
    let data = json(pass, name, &note);
    format!(
        "{first}<!DOCTYPE html>\n<html lang=\"en\">\n<head>\n<meta charset=\"utf-8\">\n\
         <meta http-equiv=\"Content-Security-Policy\" content=\"default-src 'none'; style-src 'unsafe-inline'; script-src 'unsafe-inline'\">\n\
         <meta name=\"viewport\" content=\"width=device-width, initial-scale=1\">\n<title>{} - Figmorella</title>\n<style>\n{STYLE}</style>\n</head>\n\
         <body>\n<noscript>This page is drawn by a script of its own: allow scripts for it.</noscript>\n\
         <script type=\"application/json\" id=\"data\">{data}</script>\n<script>\n{ACTS}</script>\n</body>\n</html>\n",
        escaped(name)
    )
}
