//! Random commands and bytes through the program, against the package's own `read` and `write`.

use crate::{random, run, told, why};
use independent::Init;
use rand::Rng;
use yarrowbell::{read, reply, write, Answer, Command};

fn hex(bytes: &[u8]) -> String {
    bytes.iter().map(|byte| format!("{byte:02X} ")).collect::<String>().trim_end().to_owned()
}

fn list(bits: u8) -> String {
    let listed: Vec<String> =
        (0..8).filter(|bit| bits & 1 << bit != 0).map(|bit| (bit + 1).to_string()).collect();
    listed.join(",")
}

/// The line that has the program write this command.
pub fn spelt(command: &Command, count: usize) -> String {
    match command {
        Command::Init(init) => {
            let low_frequency = match init.lf {
                0 => String::new(),
                bits => format!("--low-frequency {}", list(bits)),
            };
            format!(
                "write init --channels {} {low_frequency} --skips {} --group-time {} --main-time {}",
                list(init.stim),
                init.factor,
                init.group,
                init.main
            )
        }
        Command::Update(settings) => {
            let words = settings[..count]
                .iter()
                .map(|setting| format!(" {}:{}:{}", setting.mode, setting.width, setting.current));
            format!("write update{}", words.collect::<String>())
        }
        Command::Stop => "write stop".to_owned(),
        Command::Single(single) => format!(
            "write single --channel {} --width {} --current {}",
            single.channel + 1,
            single.width,
            single.current
        ),
    }
}

fn framed(command: &Command, count: usize) -> Vec<u8> {
    let mut out = [0; 25];
    let used = write(command, count, &mut out).expect("the values are good");
    out[..used].to_vec()
}

fn written_and_read(command: &Command, count: usize) {
    let frame = framed(command, count);
    writes(command, count, &frame);
    says_as_the_package(&frame, count);
}

/// The program prints this frame, and says if every unit refuses it.
fn writes(command: &Command, count: usize, frame: &[u8]) {
    let line = spelt(command, count);
    let ran = run::line(&line);
    assert_eq!((ran.status, ran.out), (0, hex(frame) + "\n"), "{line}");
    assert_eq!(ran.err.lines().collect::<Vec<&str>>(), refused(command), "{line}");
}

/// What is said of a command that every unit refuses.
fn refused(command: &Command) -> Vec<String> {
    let Command::Init(init) = command else { return Vec::new() };
    let broken = why::timing(&Init {
        n_factor: init.factor,
        channel_stim: init.stim,
        channel_lf: init.lf,
        group_time: init.group,
        main_time: init.main,
    });
    let said = |rule| format!("every unit refuses this Init with answer 5: {rule}");
    broken.into_iter().map(said).collect()
}

/// The program reads what `read` does, and says all of it.
fn says_as_the_package(bytes: &[u8], count: usize) {
    let line = format!("read {} --channels {count}", hex(bytes));
    let text = run::printed(&line);
    let shown = told::bytes(&text);
    assert_eq!(shown, bytes[..shown.len()], "{line}");
    let ident = bytes[0] >> 5 & 3;
    match read(bytes, count) {
        Ok(frame) => {
            assert_eq!(told::frame(&text), (frame, reply(ident, Answer::Done)), "{line}");
            assert_eq!(shown.len(), frame.used, "{line}");
            assert_eq!(told::behind(&text), refused(&frame.command), "{line}");
        }
        Err(why) => {
            let answer = why.answer();
            let last = format!("{why}, reply {:02X}", reply(ident, answer));
            assert_eq!(text.lines().last(), Some(last.as_str()), "{line}");
            assert!(text.contains("\nbytes used 0\n"), "{line}");
            assert!(shows(&text, answer), "{line}");
        }
    }
}

/// Whether the lines before the answer show why it is given.
fn shows(text: &str, answer: Answer) -> bool {
    let check = told::parts(text).last().and_then(|end| end.lines().next()).unwrap_or_default();
    match answer {
        Answer::LowByte => text.starts_with("No frame\n"),
        Answer::Unfinished => check.starts_with("not whole: "),
        Answer::Cut => check.starts_with("not whole: ") && text.contains("which cuts this one\n"),
        Answer::WrongCheck => check.ends_with(": wrong"),
        Answer::NotGood => check.ends_with(": right") && text.contains(", not good: "),
        _ => false,
    }
}

#[test]
fn init() {
    random::seeded(0..300, |rng| written_and_read(&random::init(rng), 1));
}

#[test]
fn update() {
    random::seeded(1_000..1_300, |rng| {
        let count = rng.gen_range(1..=8);
        written_and_read(&random::update(rng, count), count);
    });
}

#[test]
fn single() {
    random::seeded(2_000..2_300, |rng| written_and_read(&random::single(rng), 1));
}

#[test]
fn stop() {
    for count in 1..=8 {
        written_and_read(&Command::Stop, count);
    }
}

#[test]
fn frames_with_one_bit_changed_and_other_bytes_behind() {
    random::seeded(3_000..3_300, |rng| {
        let count = rng.gen_range(1..=8);
        for command in [random::init(rng), random::update(rng, count), random::single(rng)] {
            let mut bytes = framed(&command, count);
            let place = rng.gen_range(0..bytes.len());
            bytes[place] ^= 1 << rng.gen_range(0..8);
            bytes.extend(random::bytes(rng));
            says_as_the_package(&bytes, count);
        }
    });
}

#[test]
fn any_bytes() {
    random::seeded(4_000..4_500, |rng| {
        let count = rng.gen_range(1..=8);
        says_as_the_package(&random::bytes(rng), count);
    });
}

/// There is something to say of any bytes, and nothing to decide.
#[test]
fn any_number_of_channels() {
    random::seeded(5_000..5_300, |rng| {
        let count = [0, rng.gen_range(9..=255)][rng.gen_range(0..2)];
        let line = format!("read {} --channels {count}", hex(&random::bytes(rng)));
        run::ends(&line, &["answer 4: value not good, reply 00"]);
    });
}

/// Values at the edges of their ranges are written or refused as `write` does.
#[test]
fn any_values() {
    random::seeded(6_000..6_300, |rng| {
        let count = rng.gen_range(1..=8);
        for command in random::at_the_edges(rng, count) {
            let line = spelt(&command, count);
            let mut out = [0; 25];
            match write(&command, count, &mut out) {
                Ok(used) => writes(&command, count, &out[..used]),
                Err(_) => {
                    let ran = run::line(&line);
                    assert_eq!((ran.status, ran.out.as_str()), (2, ""), "{line}");
                    assert!(
                        ran.err.contains(" is not good (answer 4: value not good): "),
                        "{line}"
                    );
                }
            }
        }
    });
}
