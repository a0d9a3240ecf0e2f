//! Cases written as lines of text. A line's comment says its answer, and what
//! follows a colon there says why; a line that begins with `##` opens a case.

use guvontsira::Answer;

use crate::layout::fresh;
use crate::program::Program;

/// Customers and securities, as in the day program.
const SIZES: (u32, u32) = (8, 16);

struct Script {
    name: String,
    events: Vec<Vec<u8>>,
    answers: Vec<Option<u32>>,
}

/// Runs every case of a text, each from a fresh state.
pub fn run(program: &mut Program, file: &str, text: &str) {
    let start = fresh(SIZES.0, SIZES.1);
    for script in scripts(file, text) {
        let name = format_args!("{}", script.name);
        program.case_expecting(name, &start, &script.events, &script.answers);
    }
}

fn scripts(file: &str, text: &str) -> Vec<Script> {
    let mut scripts: Vec<Script> = Vec::new();
    for (line, place) in text.lines().zip(1..) {
        let heading = line.strip_prefix("##");
        if heading.is_some() || scripts.is_empty() {
            scripts.push(Script {
                name: format!("{file} line {place}{}", heading.unwrap_or_default()),
                events: Vec::new(),
                answers: Vec::new(),
            });
        }
        let event =
            events::parse(line).unwrap_or_else(|reason| panic!("{file} line {place}: {reason}"));
        if let (Some(event), Some(script)) = (event, scripts.last_mut()) {
            script.events.push(event);
            script.answers.push(answer(line));
        }
    }
    scripts.retain(|script| !script.events.is_empty());
    scripts
}

/// The answer that a line's comment begins with.
fn answer(line: &str) -> Option<u32> {
    let comment = line.split_once('#')?.1;
    let words = comment.split(':').next().unwrap_or_default().trim();
    (0..256).find(|&number| {
        Answer::from_number(number).is_some_and(|answer| answer.to_string() == words)
    })
}

#[cfg(test)]
mod tests {
    use super::*;

    #[test]
    fn headings_and_answers() {
        let text = "session open # ok\n\n## second\n# more\ncancel 0 no 1 # refused 10: none\nbytes 09 # ?\n";
        let scripts = scripts("file", text);
        let names: Vec<&str> = scripts.iter().map(|script| script.name.as_str()).collect();
        assert_eq!(names, ["file line 1", "file line 3 second"]);
        assert_eq!(scripts[0].answers, [Some(0)]);
        assert_eq!(scripts[1].answers, [Some(10), None]);
        assert_eq!(answer("session open # reject W: own sell"), Some(223));
    }
}
