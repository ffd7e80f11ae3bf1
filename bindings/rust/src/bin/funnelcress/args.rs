//! The words after a command's name.
use crate::failure::Failure;

#[derive(Default)]
pub struct Args {
    pub files: Vec<String>,
    pub out: Option<String>,
    pub limit: Option<u32>,
    pub order: Option<u32>,
    pub panes: Option<usize>,
    pub threads: Option<usize>,
    pub spans: Option<String>,
    pub side: Option<String>,
    pub quarters: Option<String>,
    pub json: bool,
    pub help: bool,
}

impl Args {
    pub fn parse(words: &[String]) -> Result<Args, String> {
        let mut args = Args::default();
        let mut words = words.iter();
        while let Some(word) = words.next() {
            match word.as_str() {
                "--help" | "-h" => args.help = true,
                "--json" => args.json = true,
                "-o" => args.out = Some(value(word, words.next())?),
                "--limit" => args.limit = Some(number(word, words.next())?),
                "--order" => args.order = Some(number(word, words.next())?),
                "--panes" => args.panes = Some(number(word, words.next())?),
                "--threads" => args.threads = Some(number(word, words.next())?),
                "--spans" => args.spans = Some(value(word, words.next())?),
                "--side" => args.side = Some(value(word, words.next())?),
                "--quarters" => args.quarters = Some(value(word, words.next())?),
                option if option.starts_with('-') && option.len() > 1 => return Err(format!("no option {option}")),
                file => args.files.push(file.into()),
            }
        }
        Ok(args)
    }

    /// The files, exactly so many.
    pub fn files<const N: usize>(&self) -> Result<[&str; N], Failure> {
        let named: Vec<&str> = self.files.iter().map(String::as_str).collect();
        named.try_into().map_err(|_| Failure::Words(format!("{N} files are needed, {} were named", self.files.len())))
    }

    pub fn out(&self) -> Result<&str, Failure> {
        self.out.as_deref().ok_or(Failure::Words("-o is needed, with a name to write to".into()))
    }

    pub fn panes(&self) -> Result<usize, Failure> {
        self.panes.ok_or(Failure::Words("--panes is needed, with how many panes the first tree is over".into()))
    }

    /// The files of side table, spans and quarter hours, where a report is asked for at quarter hours.
    pub fn hours(&self) -> Result<Option<[&str; 3]>, Failure> {
        match [&self.side, &self.spans, &self.quarters] {
            [None, None, None] => Ok(None),
            [Some(side), Some(spans), Some(quarters)] => Ok(Some([side, spans, quarters])),
            _ => Err(Failure::Words("--side, --spans and --quarters are needed together".into())),
        }
    }

    pub fn threads(&self) -> usize {
        self.threads.unwrap_or_else(funnelcress::cores)
    }
}

fn value(option: &str, word: Option<&String>) -> Result<String, String> {
    word.cloned().ok_or(format!("{option} needs a value"))
}

fn number<T: std::str::FromStr>(option: &str, word: Option<&String>) -> Result<T, String> {
    let text = value(option, word)?;
    text.parse().map_err(|_| format!("{option} needs a number, not {text}"))
}
