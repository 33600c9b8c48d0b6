//! JSON, as much of it as published cases need: every number is whole.

pub enum Value {
    Object(Vec<(String, Value)>),
    List(Vec<Value>),
    Text(String),
    Number(i64),
    /// true, false or null: nobody here asks which.
    Word,
}

/// Brackets within brackets.
const DEEPEST: usize = 32;

/// Fails with a sentence that says where.
pub fn read(text: &str) -> Result<Value, String> {
    let mut reader = Reader {
        text,
        at: 0,
        depth: 0,
    };
    let value = reader.value()?;
    match reader.peek() {
        None => Ok(value),
        Some(_) => reader.fail("something follows the value"),
    }
}

struct Reader<'a> {
    text: &'a str,
    at: usize,
    depth: usize,
}

impl<'a> Reader<'a> {
    fn fail<T>(&self, why: &str) -> Result<T, String> {
        let before = &self.text.as_bytes()[..self.at];
        let line = before.iter().filter(|&&byte| byte == b'\n').count() + 1;
        let column = before.iter().rev().take_while(|&&byte| byte != b'\n');
        Err(format!(
            "line {}, column {}: {}",
            line,
            column.count() + 1,
            why
        ))
    }

    fn rest(&self) -> &'a str {
        &self.text[self.at..]
    }

    /// The next byte that is no blank.
    fn peek(&mut self) -> Option<u8> {
        let blanks = |&byte: &u8| matches!(byte, b' ' | b'\t' | b'\n' | b'\r');
        self.at += self.rest().bytes().take_while(blanks).count();
        self.rest().bytes().next()
    }

    fn takes(&mut self, byte: u8) -> bool {
        let is_next = self.peek() == Some(byte);
        self.at += usize::from(is_next);
        is_next
    }

    fn expect(&mut self, byte: u8) -> Result<(), String> {
        match self.takes(byte) {
            true => Ok(()),
            false => self.fail(&format!("'{}' is missing", char::from(byte))),
        }
    }

    fn value(&mut self) -> Result<Value, String> {
        match self.peek() {
            Some(b'{') => self.items(b'{', b'}', Reader::member).map(Value::Object),
            Some(b'[') => self.items(b'[', b']', Reader::value).map(Value::List),
            Some(b'"') => self.text().map(Value::Text),
            Some(b'-' | b'0'..=b'9') => self.number().map(Value::Number),
            _ => self.word(),
        }
    }

    fn items<T>(
        &mut self,
        open: u8,
        close: u8,
        item: fn(&mut Reader<'a>) -> Result<T, String>,
    ) -> Result<Vec<T>, String> {
        self.expect(open)?;
        if self.depth == DEEPEST {
            return self.fail("too many brackets within brackets");
        }
        self.depth += 1;
        let mut items = Vec::new();
        if !self.takes(close) {
            items.push(item(self)?);
            while !self.takes(close) {
                self.expect(b',')?;
                items.push(item(self)?);
            }
        }
        self.depth -= 1;
        Ok(items)
    }

    fn member(&mut self) -> Result<(String, Value), String> {
        let key = self.text()?;
        self.expect(b':')?;
        Ok((key, self.value()?))
    }

    fn text(&mut self) -> Result<String, String> {
        self.expect(b'"')?;
        let mut text = String::new();
        loop {
            let here = self.at;
            let c = match self.next_char() {
                Some('"') => return Ok(text),
                Some('\\') => self.escaped(),
                c => c.filter(|&c| c >= ' '),
            };
            match c {
                Some(c) => text.push(c),
                None => {
                    self.at = here;
                    return self.fail("no such escape, or the string does not end");
                }
            }
        }
    }

    fn next_char(&mut self) -> Option<char> {
        let c = self.rest().chars().next()?;
        self.at += c.len_utf8();
        Some(c)
    }

    /// What stands after a backslash. Of \u, one that makes a character by itself.
    fn escaped(&mut self) -> Option<char> {
        Some(match self.next_char()? {
            c @ ('"' | '\\' | '/') => c,
            'b' => '\u{8}',
            'f' => '\u{C}',
            'n' => '\n',
            'r' => '\r',
            't' => '\t',
            'u' => return self.coded(),
            _ => return None,
        })
    }

    fn coded(&mut self) -> Option<char> {
        let digits = self.rest().get(..4)?;
        self.at += 4;
        let is_hex = digits.bytes().all(|digit| digit.is_ascii_hexdigit());
        let code = u32::from_str_radix(digits, 16).ok()?;
        char::from_u32(code).filter(|_| is_hex)
    }

    fn number(&mut self) -> Result<i64, String> {
        let is_part =
            |&byte: &u8| byte.is_ascii_digit() || matches!(byte, b'-' | b'+' | b'.' | b'e' | b'E');
        let length = self.rest().bytes().take_while(is_part).count();
        let digits = &self.rest()[..length];
        let unsigned = digits.strip_prefix('-').unwrap_or(digits);
        let is_plain = unsigned.bytes().all(|byte| byte.is_ascii_digit());
        let is_led_by_zero = unsigned.len() > 1 && unsigned.starts_with('0');
        match digits.parse() {
            Ok(number) if is_plain && !is_led_by_zero => {
                self.at += length;
                Ok(number)
            }
            _ => self.fail("no whole number that can be read"),
        }
    }

    fn word(&mut self) -> Result<Value, String> {
        let words = ["true", "false", "null"];
        match words.iter().find(|word| self.rest().starts_with(**word)) {
            Some(word) => {
                self.at += word.len();
                Ok(Value::Word)
            }
            None => self.fail("a value is missing"),
        }
    }
}
