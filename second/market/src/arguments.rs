//! The command line.

use market::node::{usual, Node};
use market::story::{Wishes, MOST_KIOSKS, NAMES};
use std::path::PathBuf;

pub const USAGE: &str = "\
usage: market [OPTION]..
Plays heights of a market: a node process and a real file for each rule-keeping kiosk, over a simulated radio.

  --story NAME       tells one of these: plain, silent-proposer, power-cut, two-faced-proposer, left-behind,
                     full-partition, market-of-28, demo
  --seed S           the height of this seed (1); the same seed is the same story
  --heights H        plays the heights of seeds S, S + 1, .. and prints what was counted (1: tells the height)
  --kiosks N         1 to 32 kiosks (drawn from the seed)
  --dishonest D      so many of them break the rules, each of power 1 (drawn, always below a third of the power)
  --over-a-third     lets them hold a third and more, to try: two sheets are possible then, and said
  --workers W        heights played at a time (1)
  --page FILE        draws the told height on a page
  --folder DIR       keeps the journals there (else in a folder of TMPDIR that is removed)
  --node \"COMMAND\"   the node program, words with blanks between (SLIP_NODE, else crates/node/out/node)
  --write-stories DIR  writes the transcript of each story there
  --help

Ends with 0, with 1 where a check does not hold or a node does not run, with 2 for wrong arguments.
";

/// What the command line asks for.
pub struct Asked {
    pub story: Option<String>,
    pub seed: u64,
    pub heights: u64,
    pub wishes: Wishes,
    pub workers: u64,
    pub page: Option<PathBuf>,
    pub folder: Option<PathBuf>,
    pub node: Node,
    pub write_stories: Option<PathBuf>,
}

pub fn read(arguments: &[String]) -> Result<Asked, String> {
    let node = |command: &str| Node::new(command).ok_or("the node's command is empty".to_string());
    let mut asked = Asked {
        story: None,
        seed: 1,
        heights: 1,
        wishes: Wishes::default(),
        workers: 1,
        page: None,
        folder: None,
        node: node(&usual())?,
        write_stories: None,
    };
    let mut words = arguments.iter();
    while let Some(word) = words.next() {
        if word == "--over-a-third" {
            asked.wishes.over_a_third = true;
            continue;
        }
        let known = [
            "--story",
            "--seed",
            "--heights",
            "--kiosks",
            "--dishonest",
            "--workers",
            "--page",
            "--folder",
            "--node",
            "--write-stories",
        ];
        if !known.contains(&word.as_str()) {
            return Err(format!("there is no option {word}"));
        }
        let value = words.next().ok_or(format!("{word} wants a value"))?;
        let number = || {
            value
                .parse::<u64>()
                .map_err(|_| format!("{word} wants a number, not {value}"))
        };
        match word.as_str() {
            "--story" if NAMES.contains(&value.as_str()) => asked.story = Some(value.clone()),
            "--story" => {
                return Err(format!(
                    "there is no story {value}; there are {}",
                    NAMES.join(", ")
                ))
            }
            "--seed" => asked.seed = number()?,
            "--heights" => asked.heights = within(word, number()?, 1, 1 << 40)?,
            "--kiosks" => {
                asked.wishes.kiosks = Some(within(word, number()?, 1, MOST_KIOSKS as u64)? as usize)
            }
            "--dishonest" => {
                asked.wishes.dishonest =
                    Some(within(word, number()?, 0, MOST_KIOSKS as u64)? as usize)
            }
            "--workers" => asked.workers = within(word, number()?, 1, 64)?,
            "--page" => asked.page = Some(value.into()),
            "--folder" => asked.folder = Some(value.into()),
            "--node" => asked.node = node(value)?,
            _ => asked.write_stories = Some(value.into()),
        }
    }
    fitting(&asked).map(|()| asked)
}

fn within(word: &str, number: u64, least: u64, most: u64) -> Result<u64, String> {
    match (least..=most).contains(&number) {
        true => Ok(number),
        false => Err(format!(
            "{word} wants a number from {least} to {most}, not {number}"
        )),
    }
}

/// Options that do not go together.
fn fitting(asked: &Asked) -> Result<(), String> {
    let Wishes {
        kiosks,
        dishonest,
        over_a_third,
    } = asked.wishes;
    if asked.story.is_some() && (asked.heights > 1 || asked.wishes != Wishes::default()) {
        return Err("a story has its own kiosks: --story goes without --heights, --kiosks, --dishonest and --over-a-third".into());
    }
    if asked.page.is_some() && asked.heights > 1 {
        return Err("--page draws one height, not several".into());
    }
    if asked.seed.checked_add(asked.heights).is_none() {
        return Err("there are not so many seeds".into());
    }
    let Some(dishonest) = dishonest else {
        return Ok(());
    };
    let kiosks = kiosks.ok_or("--dishonest wants --kiosks too")?;
    if dishonest > kiosks {
        return Err(format!(
            "{dishonest} of {kiosks} kiosks cannot be dishonest"
        ));
    }
    if 3 * dishonest >= kiosks && !over_a_third {
        return Err(format!(
            "{dishonest} of {kiosks} kiosks are a third or more: say --over-a-third to try it"
        ));
    }
    Ok(())
}
