//! The text of a case and of its answer.

/// A line of the recorded list. What tls-parser answers, where it answers otherwise, is left aside.
pub struct Line<'a> {
    pub function: &'a str,
    pub len: Option<usize>,
    pub input: Vec<u8>,
    pub answer: Vec<u64>,
}

/// Reads `FUNCTION LENGTH INPUT = ANSWER`, or `.. = ANSWER / ANSWER`.
pub fn line(text: &str) -> Option<Line<'_>> {
    let (case, answers) = text.split_once(" = ")?;
    let answer = answers.split(" / ").next()?;
    let mut words = case.split(' ');
    let function = words.next()?;
    let len = match words.next()? {
        "-" => None,
        len => Some(len.parse().ok()?),
    };
    Some(Line { function, len, input: input(words)?, answer: numbers(answer)? })
}

/// Words of hex, `hh*N` for the byte hh N times, `.` for no bytes.
fn input<'a>(words: impl Iterator<Item = &'a str>) -> Option<Vec<u8>> {
    let mut bytes = Vec::new();
    for word in words.filter(|word| *word != ".") {
        let (text, times) = run(word)?;
        let run = hex(text)?;
        (0..times).for_each(|_| bytes.extend_from_slice(&run));
    }
    Some(bytes)
}

/// Decimal numbers, `n*k` for n k times.
fn numbers(text: &str) -> Option<Vec<u64>> {
    let mut numbers = Vec::new();
    for word in text.split(' ') {
        let (text, times) = run(word)?;
        numbers.extend(std::iter::repeat_n(text.parse::<u64>().ok()?, times));
    }
    Some(numbers)
}

fn run(word: &str) -> Option<(&str, usize)> {
    match word.split_once('*') {
        None => Some((word, 1)),
        Some((text, times)) => Some((text, times.parse().ok()?)),
    }
}

/// Reads hex; blanks may stand between bytes.
pub fn hex(text: &str) -> Option<Vec<u8>> {
    let digits: Vec<u8> = text
        .bytes()
        .filter(|b| *b != b' ')
        .map(|b| char::from(b).to_digit(16).map(|d| d as u8))
        .collect::<Option<_>>()?;
    let bytes = digits.chunks_exact(2);
    bytes.remainder().is_empty().then(|| bytes.map(|pair| pair[0] << 4 | pair[1]).collect())
}
