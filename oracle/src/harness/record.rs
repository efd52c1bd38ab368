//! Packed records: the operation's number, the length of the rest in 3 bytes, the fields (table.rs).
use super::table::{FRAMES, KINDS, by_code, by_name};
use super::words::{Args, Bad, hex_into};

/// Every record has so many numbers: zeros stand where an operation has fewer. Its parts follow, as many as there are.
const NUMBERS: usize = 6;

/// The record of a line.
pub fn pack(line: &str) -> Result<Vec<u8>, Bad> {
    let mut args = Args::new(line);
    let op = by_name(args.word()?).ok_or(Bad)?;
    let (mut numbers, mut parts) = (Vec::new(), Vec::new());
    fields_of(op.fields, &mut args, &mut numbers, &mut parts)?;
    if args.more() {
        return Err(Bad);
    }
    assert!(numbers.len() <= NUMBERS);
    numbers.resize(NUMBERS, 0);
    let mut rest: Vec<u8> = numbers.iter().flat_map(|x| x.to_be_bytes()).collect();
    for part in &parts {
        put_bytes(&mut rest, part)?;
    }
    let mut record = vec![op.code];
    put_bytes(&mut record, &rest)?;
    Ok(record)
}

fn fields_of(fields: &str, args: &mut Args, numbers: &mut Vec<u64>, parts: &mut Vec<Vec<u8>>) -> Result<(), Bad> {
    for field in fields.chars() {
        match field {
            'n' => numbers.push(args.num()?),
            'b' => parts.push(args.bytes()?),
            'v' => parts.push(args.versions()?.iter().flat_map(|x| x.to_be_bytes()).collect()),
            'r' => parts.push(args.list()?.iter().flat_map(|x| x.to_be_bytes()).collect()),
            _ => {
                let (word, kinds) = (args.word()?, kinds(field));
                let at = kinds.iter().position(|kind| kind.0 == word).ok_or(Bad)?;
                numbers.push(at as u64);
                if field != 'k' {
                    fields_of(kinds[at].1, args, numbers, parts)?;
                }
            }
        }
    }
    Ok(())
}

fn put_bytes(out: &mut Vec<u8>, bytes: &[u8]) -> Result<(), Bad> {
    let [0, len @ ..] = u32::try_from(bytes.len()).map_err(|_| Bad)?.to_be_bytes() else {
        return Err(Bad);
    };
    out.extend(len);
    out.extend(bytes);
    Ok(())
}

fn kinds(field: char) -> &'static [(&'static str, &'static str)] {
    match field {
        'K' | 'k' => &KINDS,
        'F' => &FRAMES,
        _ => panic!("no field {field:?}"),
    }
}

/// The line of a record, and what stands after it.
pub fn unpack(records: &[u8]) -> Result<(String, &[u8]), Bad> {
    let (&code, mut after) = records.split_first().ok_or(Bad)?;
    let op = by_code(code).ok_or(Bad)?;
    let mut fields = Fields { rest: take_bytes(&mut after)?, numbers: 0 };
    let mut line = String::from(op.name);
    fields.put(op.fields, &mut line)?;
    fields.no_more()?;
    Ok((line, after))
}

/// What is left of a record's fields, and how many were read.
struct Fields<'a> {
    rest: &'a [u8],
    numbers: usize,
}

impl Fields<'_> {
    fn put(&mut self, fields: &str, line: &mut String) -> Result<(), Bad> {
        for field in fields.chars() {
            line.push(' ');
            match field {
                'n' => *line += &self.number()?.to_string(),
                'b' => hex_into(line, self.part()?),
                'v' => put_list(line, self.part()?, 4),
                'r' => put_list(line, self.part()?, 8),
                _ => {
                    let at = usize::try_from(self.number()?).map_err(|_| Bad)?;
                    let (name, fields) = kinds(field).get(at).ok_or(Bad)?;
                    line.push_str(name);
                    if field != 'k' {
                        self.put(fields, line)?;
                    }
                }
            }
        }
        Ok(())
    }

    fn number(&mut self) -> Result<u64, Bad> {
        self.numbers += 1;
        take(&mut self.rest, 8).map(number)
    }

    fn part(&mut self) -> Result<&[u8], Bad> {
        self.no_more_numbers()?;
        take_bytes(&mut self.rest)
    }

    fn no_more_numbers(&mut self) -> Result<(), Bad> {
        while self.numbers < NUMBERS {
            if self.number()? != 0 {
                return Err(Bad);
            }
        }
        Ok(())
    }

    fn no_more(&mut self) -> Result<(), Bad> {
        self.no_more_numbers()?;
        if self.rest.is_empty() { Ok(()) } else { Err(Bad) }
    }
}

fn take<'a>(from: &mut &'a [u8], n: usize) -> Result<&'a [u8], Bad> {
    let (head, tail) = from.split_at_checked(n).ok_or(Bad)?;
    *from = tail;
    Ok(head)
}

fn take_bytes<'a>(from: &mut &'a [u8]) -> Result<&'a [u8], Bad> {
    let len = number(take(from, 3)?);
    take(from, len as usize)
}

fn number(bytes: &[u8]) -> u64 {
    bytes.iter().fold(0, |x, &b| x << 8 | u64::from(b))
}

fn put_list(line: &mut String, bytes: &[u8], width: usize) {
    if bytes.is_empty() {
        line.push('-');
    }
    let words: Vec<String> = bytes.chunks(width).map(|b| number(b).to_string()).collect();
    *line += &words.join(",");
}
