//! The elements of a picture or a page as a reader takes them from the text: a little of XML, enough for what `rack` writes. Whether it is XML
//! is asked of xmllint.

#[derive(Clone, Debug)]
pub struct Element {
    pub name: String,
    attributes: Vec<(String, String)>,
    /// The text directly after its tag.
    pub text: String,
    /// The names, and the ids or classes, of the elements around it, from the outside.
    pub around: Vec<String>,
}

impl Element {
    pub fn attribute(&self, name: &str) -> &str {
        self.attributes.iter().find(|(named, _)| named == name).map_or("", |(_, value)| value)
    }

    pub fn number(&self, name: &str) -> f64 {
        self.attribute(name).parse().unwrap_or_else(|_| panic!("{name} of {self:?} is no number"))
    }

    /// Whether it has this word among its classes.
    pub fn is(&self, class: &str) -> bool {
        self.attribute("class").split(' ').any(|word| word == class)
    }

    pub fn inside(&self, named: &str) -> bool {
        self.around.iter().any(|around| around == named)
    }
}

/// All elements in their order.
pub fn elements(text: &str) -> Vec<Element> {
    let (mut found, mut around): (Vec<Element>, Vec<String>) = (Vec::new(), Vec::new());
    for part in text.split('<').skip(1) {
        let (tag, after) = part.split_once('>').expect("a tag is closed");
        if tag.starts_with('/') {
            around.pop().expect("a tag closes one that is open");
            continue;
        }
        if tag.starts_with('!') || tag.starts_with('?') {
            continue;
        }
        let element = element(tag.trim_end_matches('/'), after, &around);
        if !tag.ends_with('/') {
            let named = [element.attribute("id"), element.attribute("class"), &element.name];
            around.push(named.into_iter().find(|name| !name.is_empty()).unwrap_or_default().to_string());
        }
        found.push(element);
    }
    assert!(around.is_empty(), "{around:?} are not closed");
    found
}

fn element(tag: &str, after: &str, around: &[String]) -> Element {
    let (name, mut rest) = tag.split_once(' ').unwrap_or((tag, ""));
    let mut attributes = Vec::new();
    while let Some((name, after)) = rest.split_once("=\"") {
        let (value, after) = after.split_once('"').expect("a value is closed");
        attributes.push((name.trim().to_string(), value.to_string()));
        rest = after;
    }
    let text = after.trim().replace("&lt;", "<").replace("&gt;", ">").replace("&quot;", "\"").replace("&amp;", "&");
    Element { name: name.trim().to_string(), attributes, text, around: around.to_vec() }
}
