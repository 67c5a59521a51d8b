//! JSON, and whether it has the keys that `vdbls --help` tells.

use std::collections::BTreeMap;

#[derive(Clone, Debug, PartialEq)]
pub enum Value {
    /// A number, `true`, `false` or `null`.
    Word(String),
    Text(String),
    List(Vec<Value>),
    /// Keys and values in their order.
    Object(Vec<(String, Value)>),
}

impl Value {
    /// The value of a key.
    pub fn get(&self, key: &str) -> &Value {
        let Value::Object(keys) = self else { panic!("{self:?}") };
        &keys.iter().find(|(name, _)| name == key).unwrap_or_else(|| panic!("{key} in {self:?}")).1
    }

    pub fn items(&self) -> &[Value] {
        let Value::List(items) = self else { panic!("{self:?}") };
        items
    }

    /// A number, a truth value or null, as it is written.
    pub fn word(&self) -> &str {
        let Value::Word(word) = self else { panic!("{self:?}") };
        word
    }
}

/// The values of a text, one after the other, each with a line's end behind it.
pub fn values(mut text: &str) -> Option<Vec<Value>> {
    let mut found = Vec::new();
    while !text.is_empty() {
        let (value, rest) = value(text)?;
        found.push(value);
        text = rest.strip_prefix('\n')?;
    }
    Some(found)
}

/// The one value of a text.
pub fn one(text: &str) -> Value {
    let found = values(text).unwrap_or_else(|| panic!("no JSON: {text}"));
    let [value] = &found[..] else { panic!("{} values: {text}", found.len()) };
    value.clone()
}

/// Reads a value from the front, and gives the rest.
fn value(text: &str) -> Option<(Value, &str)> {
    let text = text.trim_start();
    match text.chars().next()? {
        '{' => items(&text[1..], '}', key).map(|(keys, rest)| (Value::Object(keys), rest)),
        '[' => items(&text[1..], ']', value).map(|(items, rest)| (Value::List(items), rest)),
        '"' => string(text).map(|(text, rest)| (Value::Text(text), rest)),
        _ => {
            let (word, rest) = text.split_at(text.find([',', ']', '}', '\n']).unwrap_or(text.len()));
            let number = word.starts_with(|c: char| c == '-' || c.is_ascii_digit()) && word.parse::<f64>().is_ok();
            (number || ["true", "false", "null"].contains(&word)).then(|| (Value::Word(word.into()), rest))
        }
    }
}

fn key(text: &str) -> Option<((String, Value), &str)> {
    let (key, rest) = string(text.trim_start())?;
    let (value, rest) = value(rest.trim_start().strip_prefix(':')?)?;
    Some(((key, value), rest))
}

fn items<T>(text: &str, close: char, item: impl Fn(&str) -> Option<(T, &str)>) -> Option<(Vec<T>, &str)> {
    let mut found = Vec::new();
    let mut rest = text.trim_start();
    if let Some(rest) = rest.strip_prefix(close) {
        return Some((found, rest));
    }
    loop {
        let (one, behind) = item(rest)?;
        found.push(one);
        rest = behind.trim_start();
        if let Some(rest) = rest.strip_prefix(close) {
            return Some((found, rest));
        }
        rest = rest.strip_prefix(',')?;
    }
}

fn string(text: &str) -> Option<(String, &str)> {
    let inner = text.strip_prefix('"')?;
    let (mut units, mut rest) = (Vec::new(), inner.char_indices());
    while let Some((i, c)) = rest.next() {
        match c {
            '"' => return Some((String::from_utf16(&units).ok()?, &inner[i + 1..])),
            '\\' => match rest.next()?.1 {
                c @ ('"' | '\\') => units.push(c as u16),
                'u' => units.push(u16::from_str_radix(&(0..4).map_while(|_| Some(rest.next()?.1)).collect::<String>(), 16).ok()?),
                _ => return None,
            },
            c if c < ' ' => return None,
            c => units.extend(c.encode_utf16(&mut [0; 2]).iter()),
        }
    }
    None
}

/// A key of an object: its name, whether it may be missing, and its type.
type Key = (String, bool, String);

/// What the help says of the JSON: the keys of each object, in their order.
pub struct Schema(BTreeMap<String, Vec<Key>>);

impl Schema {
    /// From the help: an object's name stands alone on a line, each of its keys on a line behind two spaces, with the type.
    pub fn new(help: &str) -> Self {
        let (mut objects, mut name) = (BTreeMap::<_, Vec<Key>>::new(), "");
        for line in help.split_once("Their keys:\n").unwrap().1.lines() {
            match line.strip_prefix("  ") {
                Some(line) => {
                    let mut columns = line.split("  ").map(str::trim).filter(|column| !column.is_empty());
                    let (key, kind) = (columns.next().unwrap(), columns.next().unwrap());
                    objects.entry(name.to_string()).or_default().push((key.trim_end_matches('?').into(), key.ends_with('?'), kind.into()));
                }
                None => name = line,
            }
        }
        Self(objects)
    }

    /// Whether the value is of a type: a name, `[T..]`, `[T, T]`, or several with `or` between them. With `hex` floats are digits.
    pub fn fits(&self, value: &Value, kind: &str, hex: bool) -> bool {
        let choices = parts(kind, " or ");
        if choices.len() > 1 {
            return choices.iter().any(|kind| self.fits(value, kind, hex));
        }
        match (value, kind.strip_prefix('[').and_then(|kind| kind.strip_suffix(']'))) {
            (Value::List(items), Some(inner)) => match inner.strip_suffix("..") {
                Some(kind) => items.iter().all(|item| self.fits(item, kind, hex)),
                None => {
                    let kinds = parts(inner, ", ");
                    kinds.len() == items.len() && items.iter().zip(kinds).all(|(item, kind)| self.fits(item, kind, hex))
                }
            },
            (_, Some(_)) => false,
            (value, None) => self.fits_name(value, kind, hex),
        }
    }

    fn fits_name(&self, value: &Value, kind: &str, hex: bool) -> bool {
        let digits = |text: &str| text.chars().all(|c| matches!(c, '0'..='9' | 'a'..='f'));
        match (kind, value) {
            ("corner", _) => self.fits(value, "[whole, whole, whole]", hex),
            ("record", _) => self.fits(value, "[whole, whole, whole, whole, float]", hex),
            ("whole", Value::Word(word)) => word.parse::<i128>().is_ok(),
            ("bool", Value::Word(word)) => word == "true" || word == "false",
            ("null", Value::Word(word)) => word == "null",
            ("float", Value::Text(text)) if hex => text.len() == 8 && digits(text),
            ("float", Value::Word(word)) if !hex => word.parse::<f32>().is_ok(),
            ("double", Value::Word(word)) => word.parse::<f64>().is_ok(),
            ("float" | "double", Value::Text(text)) => ["NaN", "inf", "-inf"].contains(&text.as_str()),
            ("digits", Value::Text(text)) => text.len() % 2 == 0 && digits(text),
            ("text", Value::Text(_)) => true,
            ("text", Value::Object(_)) => self.fits(value, "hex", hex),
            (name, Value::Object(keys)) => self.0.get(name).is_some_and(|declared| self.has_keys(keys, declared, hex)),
            _ => false,
        }
    }

    /// Whether the keys are those that are declared, in this order.
    fn has_keys(&self, keys: &[(String, Value)], declared: &[Key], hex: bool) -> bool {
        let mut keys = keys.iter().peekable();
        for (name, may_miss, kind) in declared {
            match keys.next_if(|(key, _)| key == name) {
                Some((_, value)) if self.fits(value, kind, hex) => (),
                None if *may_miss => (),
                _ => return false,
            }
        }
        keys.next().is_none()
    }
}

/// The parts of a type between separators that stand in no brackets.
fn parts<'a>(kind: &'a str, separator: &str) -> Vec<&'a str> {
    let (mut found, mut start, mut depth) = (Vec::new(), 0, 0);
    for (i, c) in kind.char_indices() {
        match c {
            '[' => depth += 1,
            ']' => depth -= 1,
            _ if depth == 0 && kind[i..].starts_with(separator) => {
                found.push(&kind[start..i]);
                start = i + separator.len();
            }
            _ => (),
        }
    }
    found.push(&kind[start..]);
    found
}
