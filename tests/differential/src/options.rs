//! Command line options: each a name and a number.

use std::time::Duration;

pub struct Options {
    pub seed: u64,
    pub cases: u64,
    /// Go on for so long, whatever the number of cases.
    pub time: Option<Duration>,
    /// Only this case.
    pub case: Option<u64>,
    /// Only this sequence.
    pub sequence: Option<u64>,
    /// Only this post.
    pub post: Option<u64>,
}

impl Options {
    pub fn parse(arguments: &[String]) -> Result<Options, String> {
        let (case, sequence, post) = (None, None, None);
        let mut options = Options { seed: 1, cases: 280_000, time: None, case, sequence, post };
        for pair in arguments.chunks(2) {
            let [name, value] = pair else { return Err(format!("{} wants a number", pair[0])) };
            let number = value.parse().map_err(|_| format!("{name}: {value} is not a number"))?;
            match name.as_str() {
                "--seed" => options.seed = number,
                "--cases" => options.cases = number,
                "--seconds" => options.time = Some(Duration::from_secs(number)),
                "--case" => options.case = Some(number),
                "--sequence" => options.sequence = Some(number),
                "--post" => options.post = Some(number),
                _ => return Err(format!("{name}: no such option")),
            }
        }
        Ok(options)
    }
}
