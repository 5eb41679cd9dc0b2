//! A small reader of XML, for what the drawings have of it: elements, attributes and text, no comments, declarations or entities. It panics at anything
//! else, and with it the test fails.

use std::collections::BTreeMap;

/// An element: its name, its attributes, the `id` of the element around it, and the text right after its tag.
#[derive(Debug)]
pub struct Element {
    pub name: String,
    pub attributes: BTreeMap<String, String>,
    pub inside: String,
    pub text: String,
}

impl Element {
    pub fn get(&self, attribute: &str) -> &str {
        self.attributes.get(attribute).map_or("", String::as_str)
    }

    pub fn number(&self, attribute: &str) -> usize {
        let text = self.get(attribute);
        text.parse().unwrap_or_else(|_| panic!("{attribute}=\"{text}\""))
    }
}

/// The elements in their order. Panics if the text is not one element with all others inside, each closed in its turn.
pub fn elements(text: &str) -> Vec<Element> {
    let mut found: Vec<Element> = vec![];
    let mut open: Vec<(String, String)> = vec![];
    let mut pieces = text.split('<');
    assert_eq!(pieces.next(), Some(""), "it begins with a tag");
    for piece in pieces {
        let (tag, after) = piece.split_once('>').expect("each tag ends");
        assert!(!after.contains(['>', '&']), "{after}");
        assert!(!open.is_empty() || found.is_empty(), "one element holds all others");
        if let Some(name) = tag.strip_prefix('/') {
            assert_eq!(open.pop().map(|(open, _)| open).as_deref(), Some(name));
        } else {
            let inner = tag.strip_suffix('/').unwrap_or(tag);
            let inside = open.last().map_or(String::new(), |(_, id)| id.clone());
            let (name, attributes) = start(inner);
            if inner == tag {
                open.push((name.clone(), attributes.get("id").cloned().unwrap_or_default()));
            }
            let text = after.trim().to_string();
            found.push(Element {
                name,
                attributes,
                inside,
                text,
            });
        }
        assert!(
            !open.is_empty() || after == "\n",
            "nothing but a line's end stands outside: {after:?}"
        );
    }
    assert!(open.is_empty(), "{open:?} are open");
    found
}

/// The name and the attributes of a tag.
fn start(tag: &str) -> (String, BTreeMap<String, String>) {
    let is_name = |text: &str| !text.is_empty() && text.chars().all(|c| c.is_ascii_alphanumeric() || c == '-');
    let (name, mut rest) = tag.split_once(' ').unwrap_or((tag, ""));
    assert!(is_name(name), "{tag}");
    let mut attributes = BTreeMap::new();
    while !rest.is_empty() {
        let (attribute, after) = rest.split_once("=\"").expect("an attribute has a value");
        let (value, after) = after.split_once('"').expect("a value ends");
        assert!(is_name(attribute) && !value.contains('&'), "{tag}");
        assert!(
            attributes.insert(attribute.into(), value.into()).is_none(),
            "{attribute} twice"
        );
        assert!(after.is_empty() || after.starts_with(' '), "{tag}");
        rest = after.strip_prefix(' ').unwrap_or("");
    }
    (name.into(), attributes)
}
