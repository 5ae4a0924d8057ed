//! The second program: a literal, slow reading of document 01 and of W1, W2, W4, W7 and W8
//! in document 02, to compare the proved programs with. See README.md for the commands and their
//! byte streams.

use second::setting::Setting;
use second::table_stream::Source;
use second::{
    engine, engine_stream, extent, gerber, gerber_cases, gerber_compare, overlay, overlay_pairs,
    paper, paper_rows, pbm, pens, row, segments, stream,
};
use second::{row_times, table_calls, tries, uncut, uncut_stream};
use std::io::{Read, Write};
use std::process::ExitCode;

const USAGE: &str = "usage: second COMMAND
  settings
  pens
  compare-pens SETTINGS ANSWERS
  tries
  paper-differs
  random-segments N SEED
  raster-segments N SEED
  extents
  compare-extents RECORDS ANSWERS
  table-calls N SEED
  compare-table-calls COMMANDS ANSWERS
  engine-steps N SEED
  engine-answers
  compare-engine REQUESTS ANSWERS
  uncut-calls N SEED
  uncut-answers
  compare-uncut REQUESTS ANSWERS
  row COLUMNS ROWS ROW ROOM W P Q X Y [X Y ...]
  row-times literal|fast COLUMNS ROWS ROW COUNT TIMES W P Q X Y [X Y ...]
  pbm COLUMNS ROWS W P Q X Y [X Y ...] [/ W P Q X Y ...]
  overlay FIRST SECOND
  overlay-pairs DIR COUNT SEED
  compare-overlay DIR
  gerber N ROOM APERTURES
  gerber-cases COUNT SEED
  gerber-case NUMBER SEED DIR
  compare-gerber PROGRAM COUNT SEED [KIND]
  gerber-long BYTES";

fn main() -> ExitCode {
    let arguments: Vec<String> = std::env::args().skip(1).collect();
    let words: Vec<&str> = arguments.iter().map(String::as_str).collect();
    match run(&words) {
        Ok(()) => ExitCode::SUCCESS,
        Err(complaint) => {
            eprintln!("{complaint}");
            ExitCode::FAILURE
        }
    }
}

fn run(words: &[&str]) -> Result<(), String> {
    match words {
        ["settings"] => put(&stream::to_bytes(&stream::all_settings())),
        ["pens"] => put(&pens::answers(&input()?)?),
        ["compare-pens", settings, answers] => {
            say(pens::compare(&file(settings)?, &file(answers)?))
        }
        ["tries"] => put(tries::report(&stream::good_settings()).as_bytes()),
        ["paper-differs"] => put((paper::report() + &paper_rows::report()).as_bytes()),
        ["random-segments", count, seed] => {
            let records = segments::random_segments(number(count)?, number(seed)?);
            put(&extent::to_bytes(&records))
        }
        ["raster-segments", count, seed] => {
            let records = segments::raster_segments(number(count)?, number(seed)?);
            put(&extent::to_bytes(&records))
        }
        ["extents"] => put(&extent::answers(&input()?)?),
        ["compare-extents", records, answers] => {
            say(extent::compare(&file(records)?, &file(answers)?))
        }
        ["table-calls", count, seed] => {
            let commands = Source::new(number(seed)?).take(number(count)?);
            put(&commands
                .flat_map(|command| command.to_bytes())
                .collect::<Vec<u8>>())
        }
        ["compare-table-calls", commands, answers] => {
            say(table_calls::compare(&file(commands)?, &file(answers)?))
        }
        ["engine-steps", count, seed] => put(&engine_stream::stream(number(count)?, number(seed)?)),
        ["engine-answers"] => put(&engine::answers(&input()?)?),
        ["compare-engine", requests, answers] => {
            say(engine::compare(&file(requests)?, &file(answers)?))
        }
        ["uncut-calls", count, seed] => {
            let requests = uncut_stream::Source::new(number(seed)?).take(number(count)?);
            put(&requests
                .flat_map(|request| request.to_bytes())
                .collect::<Vec<u8>>())
        }
        ["uncut-answers"] => put(&uncut::answers(&input()?)?),
        ["compare-uncut", requests, answers] => {
            say(uncut::compare(&file(requests)?, &file(answers)?))
        }
        ["row", columns, rows, row, room, stroke_words @ ..] => {
            let stroke = stroke(stroke_words)?;
            let request = row::Request {
                setting: stroke.setting,
                path: &stroke.path,
                columns: number(columns)?,
                rows: number(rows)?,
                row: number(row)?,
            };
            let mut list = vec![0; 4 * number::<usize>(room)?];
            let answer = row::row_answer(&request, &mut list);
            let runs: Vec<String> = row::records(&list, answer.count)
                .iter()
                .map(|(left, right)| format!(" {left}..{right}"))
                .collect();
            let line = format!(
                "{} {} {}{}",
                answer.refusal,
                answer.place,
                answer.count,
                runs.concat()
            );
            put(format!("{line}\n").as_bytes())
        }
        ["row-times", way, columns, rows, row, count, times, stroke_words @ ..] => {
            let stroke = stroke(stroke_words)?;
            let rows = row_times::Rows {
                request: row::Request {
                    setting: stroke.setting,
                    path: &stroke.path,
                    columns: number(columns)?,
                    rows: number(rows)?,
                    row: number(row)?,
                },
                count: number(count)?,
                times: number(times)?,
            };
            put(row_times::line(way, &rows).ok_or(USAGE)?.as_bytes())
        }
        ["pbm", columns, rows, strokes @ ..] => {
            let strokes: Vec<pbm::Stroke> = strokes
                .split(|&word| word == "/")
                .map(stroke)
                .collect::<Result<_, _>>()?;
            let file = pbm::file(&strokes, number(columns)?, number(rows)?);
            put(&file.map_err(|(refusal, place)| format!("refusal {refusal}, place {place}"))?)
        }
        ["overlay", first, second] => {
            let answer = overlay::answer(&file(first)?, &file(second)?);
            put(overlay::text(&answer).as_bytes())
        }
        ["overlay-pairs", folder, count, seed] => {
            let pairs = overlay_pairs::pairs(number(count)?, number(seed)?);
            put(overlay_pairs::write(folder, &pairs)?.as_bytes())
        }
        ["compare-overlay", folder] => say(overlay::compare(folder)),
        ["gerber", n, room, apertures] => {
            let request = gerber::Request {
                n: number(n)?,
                room: number(room)?,
                apertures: &numbers(apertures)?,
                file: &input()?,
            };
            put(gerber::answer(request).to_string().as_bytes())
        }
        ["gerber-cases", count, seed] => {
            put(gerber_cases::kinds(number(count)?, number(seed)?).as_bytes())
        }
        ["gerber-case", case, seed, folder] => {
            gerber_compare::write(number(case)?, number(seed)?, folder)
        }
        ["compare-gerber", program, count, seed, kind @ ..] if kind.len() < 2 => {
            let kind = kind.first().copied();
            let (count, seed) = (number(count)?, number(seed)?);
            say(gerber_compare::compare(program, count, seed, kind))
        }
        ["gerber-long", bytes] => put(&gerber_cases::long(number(bytes)?)),
        _ => Err(USAGE.to_string()),
    }
}

/// Numbers with commas between, or `-` for none.
fn numbers(word: &str) -> Result<Vec<u64>, String> {
    if word == "-" {
        return Ok(Vec::new());
    }
    word.split(',').map(number).collect()
}

/// A setting and a path in words: W P Q X Y ...
fn stroke(words: &[&str]) -> Result<pbm::Stroke, String> {
    let [w, p, q, path @ ..] = words else {
        return Err(USAGE.to_string());
    };
    let path: Vec<i32> = path
        .iter()
        .map(|word| number(word))
        .collect::<Result<_, _>>()?;
    Ok(pbm::Stroke {
        setting: Setting::new(number(w)?, number(p)?, number(q)?),
        path: row::path_bytes(&path),
    })
}

fn number<N: std::str::FromStr>(word: &str) -> Result<N, String> {
    word.parse()
        .map_err(|_| format!("{word} is no number that fits here"))
}

/// A comparison speaks on stdout, whether it agrees or not.
fn say(outcome: Result<String, String>) -> Result<(), String> {
    match outcome {
        Ok(line) => put(format!("{line}\n").as_bytes()),
        Err(line) => {
            put(format!("{line}\n").as_bytes())?;
            Err("different".to_string())
        }
    }
}

fn input() -> Result<Vec<u8>, String> {
    let mut bytes = Vec::new();
    std::io::stdin()
        .read_to_end(&mut bytes)
        .map_err(|e| format!("stdin: {e}"))?;
    Ok(bytes)
}

fn file(name: &str) -> Result<Vec<u8>, String> {
    std::fs::read(name).map_err(|e| format!("{name}: {e}"))
}

fn put(bytes: &[u8]) -> Result<(), String> {
    std::io::stdout()
        .write_all(bytes)
        .map_err(|e| format!("stdout: {e}"))
}
