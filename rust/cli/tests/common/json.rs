//! A strict reader of JSON.

#[derive(Clone, Debug, PartialEq)]
pub enum Json {
    Null,
    Bool(bool),
    Number(f64),
    Text(String),
    Array(Vec<Json>),
    Object(Vec<(String, Json)>),
}

/// The one value that a text is.
pub fn parse(text: &str) -> Option<Json> {
    let mut rest = text;
    let value = value(&mut rest)?;
    skip(&mut rest);
    rest.is_empty().then_some(value)
}

impl Json {
    pub fn get(&self, name: &str) -> &Json {
        match self {
            Json::Object(fields) => fields
                .iter()
                .find(|(field, _)| field == name)
                .map_or(&Json::Null, |(_, value)| value),
            _ => &Json::Null,
        }
    }

    pub fn items(&self) -> &[Json] {
        match self {
            Json::Array(items) => items,
            _ => &[],
        }
    }
}

fn skip(rest: &mut &str) {
    *rest = rest.trim_start_matches([' ', '\t', '\n', '\r']);
}

fn take(rest: &mut &str, what: &str) -> Option<()> {
    *rest = rest.strip_prefix(what)?;
    Some(())
}

fn value(rest: &mut &str) -> Option<Json> {
    skip(rest);
    match rest.as_bytes().first()? {
        b'{' => object(rest),
        b'[' => array(rest),
        b'"' => string(rest).map(Json::Text),
        b'n' => take(rest, "null").map(|()| Json::Null),
        b't' => take(rest, "true").map(|()| Json::Bool(true)),
        b'f' => take(rest, "false").map(|()| Json::Bool(false)),
        _ => number(rest),
    }
}

/// What stands between two brackets, with commas in between.
fn listed<T>(
    rest: &mut &str,
    open: &str,
    close: &str,
    one: impl Fn(&mut &str) -> Option<T>,
) -> Option<Vec<T>> {
    take(rest, open)?;
    skip(rest);
    if take(rest, close).is_some() {
        return Some(Vec::new());
    }
    let mut all = vec![one(rest)?];
    loop {
        skip(rest);
        if take(rest, close).is_some() {
            return Some(all);
        }
        take(rest, ",")?;
        skip(rest);
        all.push(one(rest)?);
    }
}

fn array(rest: &mut &str) -> Option<Json> {
    listed(rest, "[", "]", value).map(Json::Array)
}

fn object(rest: &mut &str) -> Option<Json> {
    let field = |rest: &mut &str| {
        let name = string(rest)?;
        skip(rest);
        take(rest, ":")?;
        Some((name, value(rest)?))
    };
    listed(rest, "{", "}", field).map(Json::Object)
}

fn string(rest: &mut &str) -> Option<String> {
    take(rest, "\"")?;
    let mut out = String::new();
    loop {
        let letter = rest.chars().next()?;
        *rest = &rest[letter.len_utf8()..];
        match letter {
            '"' => return Some(out),
            '\\' => out.push(escaped(rest)?),
            letter if letter < ' ' => return None,
            letter => out.push(letter),
        }
    }
}

fn escaped(rest: &mut &str) -> Option<char> {
    let letter = rest.chars().next()?;
    *rest = &rest[letter.len_utf8()..];
    match letter {
        '"' | '\\' | '/' => Some(letter),
        'n' => Some('\n'),
        't' => Some('\t'),
        'r' => Some('\r'),
        'u' => {
            let code = u32::from_str_radix(rest.get(..4)?, 16).ok()?;
            *rest = &rest[4..];
            char::from_u32(code)
        }
        _ => None,
    }
}

/// A number as JSON has it: no plus sign, no leading zeros, digits on both sides of a point.
fn number(rest: &mut &str) -> Option<Json> {
    let end = rest.find(|c: char| !"+-.eE0123456789".contains(c));
    let (digits, after) = rest.split_at(end.unwrap_or(rest.len()));
    let whole = digits.strip_prefix('-').unwrap_or(digits);
    let first = whole.split(['.', 'e', 'E']).next()?;
    let leading = first.len() > 1 && first.starts_with('0');
    if first.is_empty()
        || leading
        || whole.ends_with('.')
        || !whole.starts_with(|c: char| c.is_ascii_digit())
    {
        return None;
    }
    *rest = after;
    digits.parse().ok().map(Json::Number)
}
