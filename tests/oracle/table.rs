//! A table of examples of the definitions, read word by word out of its file, so that no answer is stated twice.

/// The words of a table, the last one first; a string begins with `"`, and comments are left out.
pub struct Words(Vec<String>);

impl Words {
    /// The words between `table =` and the claim.
    pub fn of(source: &str) -> Self {
        let (_, table) = source.split_once("\ntable =\n").expect("the table");
        let (table, _) = table.split_once("\n\n").expect("its end");
        let lines = table.lines();
        let lines = lines.filter(|line| !line.trim_start().starts_with("--"));
        let mut words = Vec::new();
        for (number, part) in lines.collect::<Vec<_>>().join("\n").split('"').enumerate() {
            if number % 2 == 1 {
                words.push(format!("\"{part}"));
                continue;
            }
            let mut part = part.to_string();
            for mark in ["(", ")", "{", "}", ";"] {
                part = part.replace(mark, &format!(" {mark} "));
            }
            words.extend(part.split_whitespace().map(String::from));
        }
        words.reverse();
        Self(words)
    }

    /// Every example of the table; it stops where the table is not as `example` reads it.
    pub fn list<T>(mut self, mut example: impl FnMut(&mut Self) -> T) -> Vec<T> {
        let mut examples = Vec::new();
        loop {
            examples.push(example(&mut self));
            self.expect("∷");
            if self.is("[]") {
                break;
            }
        }
        assert!(self.0.is_empty(), "nothing stands after the table");
        examples
    }

    pub fn next(&mut self) -> String {
        self.0.pop().expect("a word more")
    }

    /// Whether this word comes next, which is taken then.
    pub fn is(&mut self, word: &str) -> bool {
        let is = self.0.last().is_some_and(|next| next == word);
        if is {
            self.0.pop();
        }
        is
    }

    pub fn expect(&mut self, word: &str) {
        assert!(self.is(word), "{word} is due, not {:?}", self.0.last());
    }
}
