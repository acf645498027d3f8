//! The parts of a page. Every text that a record or a file name may have goes through `escaped`.

/// A text in which nothing is markup.
pub fn escaped(text: &str) -> String {
    let mut safe = String::with_capacity(text.len());
    for letter in text.chars() {
        match letter {
            '&' => safe.push_str("&amp;"),
            '<' => safe.push_str("&lt;"),
            '>' => safe.push_str("&gt;"),
            '"' => safe.push_str("&quot;"),
            '\'' => safe.push_str("&#39;"),
            other => safe.push(other),
        }
    }
    safe
}

/// A text of a record or a file; letters that are written from the right stay inside it.
pub fn plain(text: &str) -> String {
    format!("<bdi>{}</bdi>", escaped(text))
}

/// A name of a record.
pub fn name(bytes: &[u8]) -> String {
    plain(&String::from_utf8_lossy(bytes))
}

/// Words of this program, in which back quotes mark what is typed.
pub fn in_code(text: &'static str) -> String {
    let mut marked = String::new();
    for (index, part) in escaped(text).split('`').enumerate() {
        marked.push_str(&if index % 2 == 1 { format!("<code>{part}</code>") } else { part.to_string() });
    }
    marked
}

pub fn section(title: &str, inside: &str) -> String {
    format!("<section>\n<h2>{title}</h2>\n{inside}</section>\n")
}

/// Items that are markup already.
pub fn list(items: &[String]) -> String {
    let items: String = items.iter().map(|item| format!("<li>{item}</li>\n")).collect();
    format!("<ul>\n{items}</ul>\n")
}

/// A whole page, which may load nothing and run nothing.
pub fn page(title: &str, style: &str, inside: &str, foot: &str) -> String {
    let title = escaped(title);
    format!(
        "<!DOCTYPE html>\n<html lang=\"en\">\n<head>\n<meta charset=\"utf-8\">\n\
         <meta http-equiv=\"Content-Security-Policy\" content=\"default-src 'none'; style-src 'unsafe-inline'\">\n\
         <meta name=\"viewport\" content=\"width=device-width, initial-scale=1\">\n\
         <title>{title}</title>\n<style>\n{style}</style>\n</head>\n<body>\n<main>\n{inside}</main>\n\
         <footer><small>{foot}</small></footer>\n</body>\n</html>\n"
    )
}
