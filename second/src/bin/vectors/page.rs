//! The page of lines that is printed, and the lines on it that differ from a stated value.

#[derive(Default)]
pub struct Page {
    lines: Vec<String>,
    differences: Vec<String>,
}

impl Page {
    pub fn heading(&mut self, words: &str) {
        self.lines.push(format!("# {words}"));
    }

    /// Adds one line, whose answer must begin with the words the data sheets or document 01 state.
    pub fn line(&mut self, asked: &str, answer: &str, stated: &str) {
        let line = format!("{asked} {answer}");
        if !begins_with(answer, stated) {
            let number = self.lines.len() + 1;
            self.differences.push(format!(
                "line {number} \"{line}\" differs from \"{stated}\""
            ));
        }
        self.lines.push(line);
    }

    pub fn differences(&self) -> &[String] {
        &self.differences
    }

    pub fn text(&self) -> String {
        self.lines.iter().map(|line| format!("{line}\n")).collect()
    }
}

fn begins_with(answer: &str, stated: &str) -> bool {
    let mut words = answer.split_whitespace();
    stated
        .split_whitespace()
        .all(|word| words.next() == Some(word))
}
