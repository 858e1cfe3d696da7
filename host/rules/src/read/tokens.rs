use super::Fault;

/// A word of the definition's language, or one of its brackets, commas and semicolons; or a text in quotes.
#[derive(Clone, Debug, PartialEq, Eq)]
pub enum Kind {
    Word(String),
    Text(String),
}

/// A token, and the line where it stands.
#[derive(Clone, Debug)]
pub struct Token {
    pub kind: Kind,
    pub line: usize,
}

impl Token {
    pub fn is(&self, word: &str) -> bool {
        matches!(&self.kind, Kind::Word(own) if own == word)
    }

    fn written(&self) -> String {
        match &self.kind {
            Kind::Word(word) => word.clone(),
            Kind::Text(text) => format!("\"{text}\""),
        }
    }
}

/// Tokens as they are written, but for the spaces between them.
pub fn written(tokens: &[Token]) -> String {
    tokens.iter().map(Token::written).collect::<Vec<_>>().join(" ")
}

/// The items of a file: what begins at the margin, with the indented lines below it. Comments are left out.
pub fn items(file: &str, text: &str) -> Result<Vec<Vec<Token>>, Fault> {
    let mut items: Vec<Vec<Token>> = Vec::new();
    for (index, line) in text.lines().enumerate() {
        let tokens = tokens(line).map_err(|what| Fault::at(file, index + 1, what))?.into_iter();
        let mut tokens = tokens.map(|kind| Token { kind, line: index + 1 }).peekable();
        if tokens.peek().is_none() {
            continue;
        }
        match (line.starts_with(' '), items.last_mut()) {
            (false, _) => items.push(tokens.collect()),
            (true, Some(item)) => item.extend(tokens),
            (true, None) => return Err(Fault::at(file, index + 1, "an indented line that belongs to nothing")),
        }
    }
    Ok(items)
}

fn tokens(line: &str) -> Result<Vec<Kind>, &'static str> {
    let mut tokens = Vec::new();
    let mut rest = line.trim_start();
    while !rest.is_empty() && !rest.starts_with("--") {
        let length;
        if let Some(inner) = rest.strip_prefix('"') {
            let end = inner.find('"').ok_or("a text without its closing quote")?;
            if inner[..end].contains('\\') {
                return Err("a backslash in a text is not known here");
            }
            tokens.push(Kind::Text(inner[..end].to_string()));
            length = end + 2;
        } else {
            let end = rest.find(|letter: char| letter.is_whitespace() || "(){},;\"".contains(letter));
            length = end.unwrap_or(rest.len()).max(1);
            tokens.push(Kind::Word(rest[..length].to_string()));
        }
        rest = rest[length..].trim_start();
    }
    Ok(tokens)
}

/// Goes over tokens of a file.
pub struct Cursor<'a> {
    file: &'a str,
    tokens: &'a [Token],
    at: usize,
}

impl<'a> Cursor<'a> {
    /// At the first of some tokens, of which there is at least one.
    pub fn new(file: &'a str, tokens: &'a [Token]) -> Self {
        Cursor { file, tokens, at: 0 }
    }

    /// The tokens still to come.
    pub fn rest(&self) -> &'a [Token] {
        &self.tokens[self.at..]
    }

    /// The file and line of the next token, or of the last where there is none.
    pub fn place(&self) -> String {
        format!("{}:{}", self.file, self.line(self.at))
    }

    fn line(&self, at: usize) -> usize {
        self.tokens[at.min(self.tokens.len() - 1)].line
    }

    /// A fault at the token that was taken last.
    pub fn fault_before(&self, what: &str) -> Fault {
        Fault::at(self.file, self.line(self.at.saturating_sub(1)), what)
    }

    /// A fault at the next token, where something else was looked for.
    fn fault(&self, wanted: &str) -> Fault {
        let met = self.tokens.get(self.at).map_or("the end".to_string(), |token| format!("`{}`", token.written()));
        Fault::at(self.file, self.line(self.at), &format!("{met} where {wanted} should stand"))
    }

    pub fn ended(&self) -> Result<(), Fault> {
        if self.at < self.tokens.len() {
            return Err(self.fault("the end"));
        }
        Ok(())
    }

    /// Takes the next token if it is this word.
    pub fn takes(&mut self, word: &str) -> bool {
        let takes = self.tokens.get(self.at).is_some_and(|token| token.is(word));
        self.at += usize::from(takes);
        takes
    }

    pub fn expect(&mut self, word: &str) -> Result<(), Fault> {
        if self.takes(word) {
            return Ok(());
        }
        Err(self.fault(&format!("`{word}`")))
    }

    /// Any word.
    pub fn word(&mut self) -> Result<String, Fault> {
        let Some(Token { kind: Kind::Word(word), .. }) = self.tokens.get(self.at) else {
            return Err(self.fault("a word"));
        };
        self.at += 1;
        Ok(word.clone())
    }

    pub fn text(&mut self) -> Result<String, Fault> {
        let Some(Token { kind: Kind::Text(text), .. }) = self.tokens.get(self.at) else {
            return Err(self.fault("a text"));
        };
        self.at += 1;
        Ok(text.clone())
    }

    /// A number of at most two digits.
    pub fn number(&mut self) -> Result<usize, Fault> {
        let number = match self.tokens.get(self.at) {
            Some(Token { kind: Kind::Word(word), .. }) if word.len() <= 2 => word.parse().ok(),
            _ => None,
        };
        let number = number.ok_or_else(|| self.fault("a number below 100"))?;
        self.at += 1;
        Ok(number)
    }
}
