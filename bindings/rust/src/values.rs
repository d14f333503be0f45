//! Values, and what has them.

use serde_json::Value as Json;

/// A value where it lies: its pieces in the store's bytes, in order.
#[derive(Clone, Debug, Default, PartialEq, Eq)]
pub struct Pieces<'a> {
    pieces: Vec<&'a [u8]>,
}

impl<'a> Pieces<'a> {
    /// The pieces, none of which is empty.
    pub fn iter(&self) -> impl Iterator<Item = &'a [u8]> + '_ {
        self.pieces.iter().copied()
    }

    /// The value in one piece; None where it lies in several.
    pub fn as_slice(&self) -> Option<&'a [u8]> {
        match self.pieces.as_slice() {
            [] => Some(&[]),
            [piece] => Some(piece),
            _ => None,
        }
    }

    /// How many bytes the value has.
    pub fn len(&self) -> usize {
        self.iter().map(<[u8]>::len).sum()
    }

    /// Whether it has none.
    pub fn is_empty(&self) -> bool {
        self.pieces.is_empty()
    }

    /// The value, copied.
    pub fn to_vec(&self) -> Vec<u8> {
        self.pieces.concat()
    }

    fn of(told: &Json, bytes: &'a [u8]) -> Pieces<'a> {
        let piece = |place: &Json| {
            let at = place[0].as_u64()? as usize;
            let length = place[1].as_u64()? as usize;
            bytes.get(at..at.checked_add(length)?)
        };
        let places = told["places"].as_array();
        Pieces {
            pieces: places.into_iter().flatten().filter_map(piece).collect(),
        }
    }
}

/// A property.
#[derive(Clone, Debug, PartialEq)]
pub struct Property<'a> {
    /// Its identifier: four upper-case hexadecimal digits.
    pub id: String,
    /// Its type: four such digits.
    pub kind: String,
    /// Its value, as docs/JSON.md says.
    pub value: Json,
    /// Its value where it lies.
    pub pieces: Pieces<'a>,
    /// Its name in the store's name map, a number or a text; null where that does not name it.
    pub name: Json,
    /// The set of its name.
    pub set: Option<String>,
}

/// The cell of a recipient's row.
#[derive(Clone, Debug, PartialEq)]
pub struct Cell<'a> {
    /// The tag of its column: the identifier of the property, and its type.
    pub tag: String,
    /// Its value, as docs/JSON.md says.
    pub value: Json,
    /// Its value where it lies.
    pub pieces: Pieces<'a>,
}

/// A row of a message's recipients.
#[derive(Clone, Debug, PartialEq)]
pub struct Recipient<'a> {
    /// The identifier of the row.
    pub row: String,
    /// Its cells, in the order of the columns.
    pub cells: Vec<Cell<'a>>,
}

/// An attachment of a message.
#[derive(Clone, Debug, PartialEq)]
pub struct Attachment<'a> {
    /// The path that leads to it.
    pub path: String,
    /// Its identifier.
    pub nid: String,
    /// Its properties, identifiers rising.
    pub props: Vec<Property<'a>>,
    /// The path to the message that it embeds, if it does.
    pub embedded: Option<String>,
}

/// What a path leads to.
#[derive(Clone, Debug, PartialEq)]
pub struct Node<'a> {
    /// The path.
    pub path: String,
    /// Its last identifier.
    pub nid: String,
    /// Its properties, identifiers rising.
    pub props: Vec<Property<'a>>,
    /// Of a message its recipients.
    pub recipients: Vec<Recipient<'a>>,
    /// Of a message its attachments.
    pub attachments: Vec<Attachment<'a>>,
    /// Of an attachment the path to the message that it embeds, if it does.
    pub embedded: Option<String>,
}

fn find<'p, 'a>(props: &'p [Property<'a>], id: &str) -> Option<&'p Property<'a>> {
    props.iter().find(|prop| prop.id == id)
}

fn text<'p>(props: &'p [Property<'_>], id: &str) -> Option<&'p str> {
    find(props, id)
        .filter(|prop| prop.kind == "001F")
        .and_then(|prop| prop.value.as_str())
}

impl<'a> Attachment<'a> {
    /// The property with an identifier.
    pub fn get(&self, id: &str) -> Option<&Property<'a>> {
        find(&self.props, id)
    }

    /// Its long name, else its short one.
    pub fn name(&self) -> Option<&str> {
        let long = text(&self.props, "3707").filter(|name| !name.is_empty());
        long.or_else(|| text(&self.props, "3704").filter(|name| !name.is_empty()))
    }

    /// Its bytes, if it has some; one that embeds a message has none.
    pub fn data(&self) -> Option<&Pieces<'a>> {
        self.get("3701")
            .filter(|prop| prop.kind == "0102")
            .map(|prop| &prop.pieces)
    }
}

impl<'a> Node<'a> {
    /// The property with an identifier.
    pub fn get(&self, id: &str) -> Option<&Property<'a>> {
        find(&self.props, id)
    }

    /// The text of a property of type 001F.
    pub fn text(&self, id: &str) -> Option<&str> {
        text(&self.props, id)
    }

    /// What a line of `props --places` tells of a path.
    pub(crate) fn of(path: &str, told: &Json, bytes: &'a [u8]) -> Node<'a> {
        Node {
            path: path.to_string(),
            nid: string(&told["nid"]),
            props: properties(&told["props"], bytes),
            recipients: all(&told["recipients"], |it| recipient(it, bytes)),
            attachments: all(&told["attachments"], |it| attachment(path, it, bytes)),
            embedded: within(path, &told["embedded"]),
        }
    }
}

/// A text; an empty one where there is none.
pub(crate) fn string(told: &Json) -> String {
    told.as_str().unwrap_or_default().to_string()
}

/// A text that may be null.
pub(crate) fn maybe(told: &Json) -> Option<String> {
    told.as_str().map(str::to_string)
}

/// The items of a list.
pub(crate) fn all<T>(told: &Json, make: impl FnMut(&Json) -> T) -> Vec<T> {
    told.as_array().into_iter().flatten().map(make).collect()
}

fn within(path: &str, nid: &Json) -> Option<String> {
    nid.as_str().map(|nid| format!("{path}/{nid}"))
}

fn properties<'a>(told: &Json, bytes: &'a [u8]) -> Vec<Property<'a>> {
    all(told, |it| Property {
        id: string(&it["id"]),
        kind: string(&it["type"]),
        value: it["value"].clone(),
        pieces: Pieces::of(it, bytes),
        name: it["name"].clone(),
        set: maybe(&it["set"]),
    })
}

fn recipient<'a>(told: &Json, bytes: &'a [u8]) -> Recipient<'a> {
    Recipient {
        row: string(&told["row"]),
        cells: all(&told["cells"], |it| Cell {
            tag: string(&it["tag"]),
            value: it["value"].clone(),
            pieces: Pieces::of(it, bytes),
        }),
    }
}

fn attachment<'a>(path: &str, told: &Json, bytes: &'a [u8]) -> Attachment<'a> {
    let nid = string(&told["nid"]);
    let own = format!("{path}/{nid}");
    Attachment {
        embedded: within(&own, &told["embedded"]),
        path: own,
        nid,
        props: properties(&told["props"], bytes),
    }
}
