//! Refines the corners of a label on a picture, and writes what the answer rests on: examples/c/label.c in Rust.
//!
//!     label [--scale SX SY] [--inverted]
//!           [--source FX FY CX CY --rectified FX FY CX CY [--lens K1 K2 P1 P2 K3 | --fisheye K1 K2 K3 K4]]
//!           PICTURE GRID X0 Y0 X1 Y1 X2 Y2 X3 Y3 SHEET COPY
//!
//! PICTURE is a grey PGM of one byte a pixel, GRID a text file with a row of 0 and 1 for each row of
//! modules, 1 dark; then the rough corners, in working pixels, of which there are SX and SY for each
//! pixel of the picture. Through a camera, source and rectified, the corners are of the rectified
//! picture. It writes the mark sheet and the blanked copy as PGM, and then prints the answer's lines.
//! Only words that are no numbers, and files, are checked here: what is wrong with a value is a refusal.
//! The status is 0 for an answer, 1 where it is refused, and 2 where the program could not be run or
//! what it has could not be written.

use std::ffi::{OsStr, OsString};
use std::io::{self, Write};
use std::process::ExitCode;
use std::{env, fs};

use trufolmesca::{
    Answer, Camera, Grid, Intrinsics, Lens, Photograph, Quad, Refusal, Request, refine_corners_marking,
};

const USAGE: &str = "label: usage: label [--scale SX SY] [--inverted] \
    [--source FX FY CX CY --rectified FX FY CX CY [--lens K1 K2 P1 P2 K3 | --fisheye K1 K2 K3 K4]] \
    PICTURE GRID X0 Y0 X1 Y1 X2 Y2 X3 Y3 SHEET COPY";

/// Why the program could not be run, as it is said; a path need not be UTF-8.
type Failed = OsString;

/// What the options ask for, as it was given.
#[derive(Default)]
struct Options {
    scale: Option<[f64; 2]>,
    inverted: bool,
    source: Option<[f64; 4]>,
    rectified: Option<[f64; 4]>,
    lens: Option<[f64; 5]>,
    fisheye: Option<[f64; 4]>,
}

/// What the words ask for.
struct Job<'a> {
    scale: [f64; 2],
    inverted: bool,
    camera: Option<Camera>,
    corners: Quad,
    picture: &'a OsStr,
    grid: &'a OsStr,
    sheet: &'a OsStr,
    copy: &'a OsStr,
}

// ---- words

/// A sentence with a word or a path in it.
fn said(before: &str, word: &OsStr, behind: &str) -> Failed {
    let mut sentence = OsString::from(before);
    sentence.push(word);
    sentence.push(behind);
    sentence
}

/// The next words as numbers.
fn take_numbers<const N: usize>(words: &mut &[OsString]) -> Result<[f64; N], Failed> {
    let (taken, rest) = words.split_first_chunk::<N>().ok_or(USAGE)?;
    *words = rest;
    let mut numbers = [0.0; N];
    for (number, word) in numbers.iter_mut().zip(taken) {
        let read = word.to_str().and_then(|word| word.parse().ok());
        *number = read.ok_or_else(|| said("label: '", word, "' is not a number"))?;
    }
    Ok(numbers)
}

/// The options in front of PICTURE.
fn take_options(words: &mut &[OsString]) -> Result<Options, Failed> {
    let mut options = Options::default();
    while let Some((option, rest)) = words.split_first() {
        if !option.as_encoded_bytes().starts_with(b"--") {
            break;
        }
        *words = rest;
        match option.to_str() {
            Some("--scale") => options.scale = Some(take_numbers(words)?),
            Some("--inverted") => options.inverted = true,
            Some("--source") => options.source = Some(take_numbers(words)?),
            Some("--rectified") => options.rectified = Some(take_numbers(words)?),
            Some("--lens") => options.lens = Some(take_numbers(words)?),
            Some("--fisheye") => options.fisheye = Some(take_numbers(words)?),
            _ => return Err(said("label: '", option, "' is not an option")),
        }
    }
    Ok(options)
}

fn intrinsics([fx, fy, cx, cy]: [f64; 4]) -> Intrinsics {
    Intrinsics { fx, fy, cx, cy }
}

/// The camera of the options, which is whole or not there.
fn camera_of(options: &Options) -> Result<Option<Camera>, Failed> {
    let lens = options.lens.map(|[k1, k2, p1, p2, k3]| Lens::BrownConrady { k1, k2, p1, p2, k3 });
    let fisheye = options.fisheye.map(|[k1, k2, k3, k4]| Lens::Fisheye { k1, k2, k3, k4 });
    let both = lens.is_some() && fisheye.is_some();
    match (options.source.map(intrinsics), options.rectified.map(intrinsics), lens.or(fisheye)) {
        (Some(source), Some(rectified), lens) if !both => Ok(Some(Camera { source, rectified, lens })),
        (None, None, None) => Ok(None),
        _ => {
            Err("label: a camera has --source and --rectified, and then may have a --lens or a --fisheye"
                .into())
        }
    }
}

fn job_of(mut words: &[OsString]) -> Result<Job<'_>, Failed> {
    let options = take_options(&mut words)?;
    let [picture, grid, corners @ .., sheet, copy] = words else { return Err(USAGE.into()) };
    if corners.len() != 8 {
        return Err(USAGE.into());
    }
    let [x0, y0, x1, y1, x2, y2, x3, y3] = take_numbers(&mut &*corners)?;
    Ok(Job {
        scale: options.scale.unwrap_or([1.0, 1.0]),
        inverted: options.inverted,
        camera: camera_of(&options)?,
        corners: [[x0, y0], [x1, y1], [x2, y2], [x3, y3]],
        picture,
        grid,
        sheet,
        copy,
    })
}

// ---- files

fn read_file(path: &OsStr) -> Result<Vec<u8>, Failed> {
    fs::read(path).map_err(|_| said("", path, ": cannot be read"))
}

/// A number of a PGM's head, behind white space and comments, and what follows it.
fn head_number(mut rest: &[u8]) -> Option<(u32, &[u8])> {
    while let Some(first) = rest.first().filter(|b| b.is_ascii_whitespace() || **b == b'#') {
        let comment = rest.iter().position(|b| *b == b'\n').unwrap_or(rest.len());
        rest = &rest[if *first == b'#' { comment } else { 1 }..];
    }
    let end = rest.iter().position(|b| !b.is_ascii_digit()).unwrap_or(rest.len());
    let (digits, rest) = rest.split_at(end);
    let number = std::str::from_utf8(digits).ok().filter(|digits| digits.len() <= 9)?;
    Some((number.parse().ok()?, rest))
}

/// A grey PGM of one byte a pixel as a photograph.
fn photograph_of<'a>(path: &OsStr, data: &'a [u8]) -> Result<Photograph<'a>, Failed> {
    let no_pgm = || said("", path, ": not a grey PGM (P5)");
    let (width, rest) = data.strip_prefix(b"P5").and_then(head_number).ok_or_else(no_pgm)?;
    let (height, rest) = head_number(rest).ok_or_else(no_pgm)?;
    let (white, rest) = head_number(rest).ok_or_else(no_pgm)?;
    match white {
        1..=255 => Ok(Photograph::new(rest.get(1..).unwrap_or_default(), width, height)),
        _ => Err(said("", path, ": not one byte a pixel")),
    }
}

/// The modules of a grid, and how many the first row has: where the rows are too few it is refused.
fn modules_of(data: &[u8]) -> (Vec<u8>, u32) {
    let modules = data.iter().filter(|b| !b.is_ascii_whitespace()).map(|b| b.wrapping_sub(b'0')).collect();
    let row = data.iter().take_while(|b| !b.is_ascii_whitespace()).count();
    (modules, row.try_into().unwrap_or(u32::MAX))
}

/// Writes a file whole, or leaves what was there: closing it would not say that the disk was full.
fn write_whole(path: &OsStr, data: &[u8]) -> io::Result<()> {
    let unfinished = said("", path, ".new");
    let written = fs::File::create(&unfinished).and_then(|mut file| {
        file.write_all(data)?;
        file.sync_all()
    });
    let renamed = written.and_then(|()| fs::rename(&unfinished, path));
    if renamed.is_err() {
        let _ = fs::remove_file(&unfinished);
    }
    renamed
}

/// A PGM of the photograph's size; a device or a pipe is written straight to, and never replaced.
fn write_pgm(path: &OsStr, pixels: &[u8], photograph: &Photograph, white: u8) -> Result<(), Failed> {
    let Photograph { width, height, .. } = *photograph;
    let mut data = format!("P5\n{width} {height}\n{white}\n").into_bytes();
    data.extend_from_slice(&pixels[..width as usize * height as usize]);
    let special = fs::metadata(path).is_ok_and(|there| !there.is_file());
    let written = if special { fs::write(path, data) } else { write_whole(path, &data) };
    written.map_err(|_| said("", path, ": cannot be written"))
}

// ---- the answer

/// The lines of an answer or of a refusal.
fn lines_of(result: &Result<Answer, Refusal>) -> String {
    let answer = match result {
        Ok(answer) => answer,
        Err(refusal) => return format!("result {}\n", refusal.number()),
    };
    let mut lines = "result 0\n".to_owned();
    for (i, ([x, y], refined)) in answer.corners.iter().zip(answer.refined).enumerate() {
        lines += &format!("corner {i} {:016x} {:016x} {}\n", x.to_bits(), y.to_bits(), refined as u8);
    }
    for (i, e) in answer.edges.iter().enumerate() {
        lines += &format!("edge {i} {} {} {} {}\n", e.probed, e.fit, e.dropped, e.valid as u8);
    }
    lines
}

/// Prints text and demands that it arrives.
fn print(text: &str) -> Result<(), Failed> {
    let mut out = io::stdout().lock();
    let printed = out.write_all(text.as_bytes()).and_then(|()| out.flush());
    printed.map_err(|_| "label: the answer could not be written".into())
}

fn run(words: &[OsString]) -> Result<Result<Answer, Refusal>, Failed> {
    let job = job_of(words)?;
    let data = read_file(job.picture)?;
    let photograph = photograph_of(job.picture, &data)?;
    let (modules, dim) = modules_of(&read_file(job.grid)?);
    let mut request = Request::new(photograph, Grid::new(&modules, dim), job.corners);
    request.scale = job.scale;
    request.inverted = job.inverted;
    request.camera = job.camera;

    // As long as the picture: where that is too short for its width and height the call is refused,
    // and writes on neither.
    let (mut sheet, mut copy) = (vec![0; photograph.bytes.len()], vec![0; photograph.bytes.len()]);
    let result = refine_corners_marking(&request, &mut sheet, &mut copy);
    // A run that got as far as reading has marked what it read, also where it was refused then.
    if result.is_ok() || result.is_err_and(Refusal::marked) {
        write_pgm(job.sheet, &sheet, &photograph, 1)?;
        write_pgm(job.copy, &copy, &photograph, 255)?;
    }
    print(&lines_of(&result))?;
    Ok(result)
}

fn main() -> ExitCode {
    let words: Vec<OsString> = env::args_os().skip(1).collect();
    let (why, status) = match run(&words) {
        Ok(Ok(_)) => return ExitCode::SUCCESS,
        Ok(Err(refusal)) => (format!("label: refused by {}: {refusal}", refusal.number()).into(), 1),
        Err(why) => (why, 2),
    };
    // Where this fails too there is nobody left to tell.
    let _ = io::stderr().write_all(&[why.as_encoded_bytes(), b"\n"].concat());
    ExitCode::from(status)
}
