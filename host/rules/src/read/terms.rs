use super::files::{Files, Found, Sort};
use super::tokens::Cursor;
use super::Fault;
use crate::table::{Case, Cond, Spot, Window};
use std::collections::HashMap;

/// The body of a definition, with what its parameters stand for.
pub struct Scope<'a> {
    files: &'a Files,
    found: Found<'a>,
    arguments: HashMap<&'a str, String>,
}

impl<'a> Scope<'a> {
    /// A definition without parameters.
    pub fn of(files: &'a Files, found: Found<'a>) -> Self {
        Scope { files, found, arguments: HashMap::new() }
    }

    fn cursor(&self) -> Cursor<'a> {
        let (file, index) = self.found;
        Cursor::new(&file.path, &file.definitions[index].body)
    }

    /// The cases of a row.
    pub fn row(&self) -> Result<Vec<Case>, Fault> {
        let (file, index) = self.found;
        let definition = &file.definitions[index];
        if definition.sort != Sort::Cases || definition.parameters.len() != self.arguments.len() {
            return Err(self.cursor().fault_before(&format!("`{}` is no list of cases by itself", definition.name)));
        }
        let mut cursor = self.cursor();
        let cases = self.cases(&mut cursor)?;
        cursor.ended()?;
        Ok(cases)
    }

    /// A list of cases that is written out, or one that is named.
    fn cases(&self, cursor: &mut Cursor) -> Result<Vec<Case>, Fault> {
        let mut cases = Vec::new();
        while !cursor.takes("[]") {
            let at = cursor.place();
            if !cursor.takes("case") {
                let name = cursor.word()?;
                if !cases.is_empty() {
                    return Err(cursor.fault_before(&format!("`{name}` where a case should stand")));
                }
                return self.named(cursor, &name, Sort::Cases)?.row();
            }
            let when = self.operand(cursor)?;
            let (primary, alternate) = (self.text(cursor)?, self.text(cursor)?);
            cases.push(Case { when, primary, alternate, over: cursor.number()?, at });
            cursor.expect("∷")?;
        }
        Ok(cases)
    }

    /// The definition of a name, with the arguments that stand behind it.
    fn named(&self, cursor: &mut Cursor, name: &str, sort: Sort) -> Result<Scope<'a>, Fault> {
        let found = self.files.seen(self.found, name);
        let known = found.map(|(file, index)| (&file.definitions[index], (file, index)));
        let Some((definition, found)) = known.filter(|(definition, _)| definition.sort == sort) else {
            return Err(cursor.fault_before(&format!("`{name}` is not known here")));
        };
        let mut scope = Scope::of(self.files, found);
        for parameter in &definition.parameters {
            scope.arguments.insert(parameter, self.text(cursor)?);
        }
        Ok(scope)
    }

    /// A text, or a parameter that stands for one.
    fn text(&self, cursor: &mut Cursor) -> Result<String, Fault> {
        for (parameter, text) in &self.arguments {
            if cursor.takes(parameter) {
                return Ok(text.clone());
            }
        }
        cursor.text()
    }

    /// The condition that the whole body is.
    fn whole(&self) -> Result<Cond, Fault> {
        let mut cursor = self.cursor();
        let cond = self.either(&mut cursor)?;
        cursor.ended()?;
        Ok(cond)
    }

    /// `or` binds least, and to the left.
    fn either(&self, cursor: &mut Cursor) -> Result<Cond, Fault> {
        let mut cond = self.both(cursor)?;
        while cursor.takes("or") {
            cond = Cond::Or(Box::new(cond), Box::new(self.both(cursor)?));
        }
        Ok(cond)
    }

    /// `&` binds more, and to the left.
    fn both(&self, cursor: &mut Cursor) -> Result<Cond, Fault> {
        let mut cond = self.applied(cursor)?;
        while cursor.takes("&") {
            cond = Cond::And(Box::new(cond), Box::new(self.applied(cursor)?));
        }
        Ok(cond)
    }

    /// A condition by its name, with what stands behind the name.
    fn applied(&self, cursor: &mut Cursor) -> Result<Cond, Fault> {
        if cursor.takes("(") {
            let cond = self.either(cursor)?;
            cursor.expect(")")?;
            return Ok(cond);
        }
        let name = cursor.word()?;
        Ok(match name.as_str() {
            "always" => Cond::Always,
            "slavo" => Cond::Slavo,
            "edition2" => Cond::Edition2,
            "place" => Cond::Place(cursor.number()?),
            "past" => Cond::Past(cursor.number()?),
            "below" => Cond::Below(cursor.number()?),
            "left" => Cond::Left(cursor.number()?),
            "long" => Cond::Long(cursor.number()?),
            "vowel" => Cond::Vowel(spot(cursor)?),
            "byte" => Cond::Byte(spot(cursor)?, self.letter(cursor)?),
            "window" => Cond::Window(Window { spot: spot(cursor)?, width: cursor.number()?, texts: texts(cursor)? }),
            "non" => Cond::Non(Box::new(self.operand(cursor)?)),
            name => self.named(cursor, name, Sort::Cond)?.whole()?,
        })
    }

    /// What `non` or `case` is applied to: one name, or what stands in parentheses.
    fn operand(&self, cursor: &mut Cursor) -> Result<Cond, Fault> {
        let before = cursor.rest().len();
        let bracketed = cursor.rest().first().is_some_and(|token| token.is("("));
        let cond = self.applied(cursor)?;
        if !bracketed && before - cursor.rest().len() > 1 {
            return Err(cursor.fault_before("a condition of more than one word stands without its parentheses"));
        }
        Ok(cond)
    }

    fn letter(&self, cursor: &mut Cursor) -> Result<char, Fault> {
        let text = self.text(cursor)?;
        let mut letters = text.chars();
        match (letters.next(), letters.next()) {
            (Some(letter), None) => Ok(letter),
            _ => Err(cursor.fault_before(&format!("\"{text}\" is not one letter"))),
        }
    }
}

fn spot(cursor: &mut Cursor) -> Result<Spot, Fault> {
    cursor.expect("(")?;
    let name = cursor.word()?;
    let spot = match name.as_str() {
        "ahead" => Spot::Ahead(cursor.number()?),
        "back" => Spot::Back(cursor.number()?),
        "front" => Spot::Front(cursor.number()?),
        "rear" => Spot::Rear(cursor.number()?),
        _ => return Err(cursor.fault_before(&format!("`{name}` is no spot that is known here"))),
    };
    cursor.expect(")")?;
    Ok(spot)
}

fn texts(cursor: &mut Cursor) -> Result<Vec<String>, Fault> {
    cursor.expect("(")?;
    let mut texts = Vec::new();
    while !cursor.takes("[]") {
        texts.push(cursor.text()?);
        cursor.expect("∷")?;
    }
    cursor.expect(")")?;
    Ok(texts)
}
