//! Reads a certificate file, judges its claim, writes the file anew and answers it whole: read CERTIFICATE
#[rustfmt::skip]
extern "C" {
    fn vartrymoy_read(file: *const u8, l: usize, header: *mut u32, hl: usize, marks: *mut u8, ml: usize,
        action_starts: *mut u32, al: usize, branch_starts: *mut u32, bl: usize, destinations: *mut u32, dl: usize,
        weights: *mut u32, wl: usize, costs: *mut u32, col: usize, claims: *mut u64, cll: usize, ranks: *mut u32, rl: usize) -> u32;
    fn vartrymoy_check(kind: u32, d: u32, c: u32, marks: *const u8, ml: usize, action_starts: *const u32, al: usize,
        branch_starts: *const u32, bl: usize, destinations: *const u32, dl: usize, weights: *const u32, wl: usize,
        costs: *const u32, col: usize, claims: *const u64, cll: usize, ranks: *const u32, rl: usize,
        choices: *mut u32, chl: usize, answer: *mut u32, anl: usize) -> u32;
    fn vartrymoy_write(kind: u32, d: u32, c: u32, marks: *const u8, ml: usize, action_starts: *const u32, al: usize,
        branch_starts: *const u32, bl: usize, destinations: *const u32, dl: usize, weights: *const u32, wl: usize,
        costs: *const u32, col: usize, claims: *const u64, cll: usize, ranks: *const u32, rl: usize,
        buffer: *mut u8, bul: usize, result: *mut u64, rel: usize) -> u32;
    fn vartrymoy_answer(file: *const u8, l: usize, marks: *mut u8, ml: usize, action_starts: *mut u32, al: usize,
        branch_starts: *mut u32, bl: usize, destinations: *mut u32, dl: usize, weights: *mut u32, wl: usize,
        costs: *mut u32, col: usize, claims: *mut u64, cll: usize, ranks: *mut u32, rl: usize,
        choices: *mut u32, chl: usize, text: *mut u8, tl: usize, result: *mut u64, rel: usize) -> u32;
}

/// The lengths of the tables of 32 bits at document 01's limits.
const ROOM: [usize; 6] = [20_001, 100_001, 1_000_000, 1_000_000, 20_000, 20_000];

/// Kind, D, C, n, m and b; the marks; the six tables of 32 bits in order; the claims.
struct Certificate {
    header: [u32; 6],
    marks: Vec<u8>,
    tables: [Vec<u32>; 6],
    claims: Vec<u64>,
}

/// Reads a file, or gives the number of its refusal.
#[rustfmt::skip]
fn read(file: &[u8]) -> Result<Certificate, u32> {
    let (mut header, mut marks, mut claims) = ([0; 6], vec![0; 20_000], vec![0; 20_000]);
    let mut tables = ROOM.map(|room| vec![0; room]);
    let [a, b, d, w, co, r] = &mut tables;
    let number = unsafe { vartrymoy_read(file.as_ptr(), file.len(), header.as_mut_ptr(), 6, marks.as_mut_ptr(), marks.len(),
        a.as_mut_ptr(), a.len(), b.as_mut_ptr(), b.len(), d.as_mut_ptr(), d.len(), w.as_mut_ptr(), w.len(),
        co.as_mut_ptr(), co.len(), claims.as_mut_ptr(), claims.len(), r.as_mut_ptr(), r.len()) };
    let [kind, _, _, n, m, branches] = header.map(|x| x as usize);
    let counts = [n + 1, m + 1, branches, branches, if kind >= 5 { n } else { 0 }, if [2, 4, 7, 8].contains(&kind) { n } else { 0 }];
    tables.iter_mut().zip(counts).for_each(|(table, count)| table.truncate(count));
    marks.truncate(n);
    claims.truncate(n);
    if number == 0 { Ok(Certificate { header, marks, tables, claims }) } else { Err(number) }
}

/// The answer in four numbers, and the choices, empty if there are none.
#[rustfmt::skip]
fn check(Certificate { header: [kind, d, c, n, ..], marks, tables: [a, b, de, w, co, r], claims }: &Certificate) -> ([u32; 4], Vec<u32>) {
    let (mut choices, mut answer) = (vec![0; if [3, 4, 6, 8].contains(kind) { *n as usize } else { 0 }], [0; 4]);
    let number = unsafe { vartrymoy_check(*kind, *d, *c, marks.as_ptr(), marks.len(), a.as_ptr(), a.len(), b.as_ptr(), b.len(),
        de.as_ptr(), de.len(), w.as_ptr(), w.len(), co.as_ptr(), co.len(), claims.as_ptr(), claims.len(), r.as_ptr(), r.len(),
        choices.as_mut_ptr(), choices.len(), answer.as_mut_ptr(), 4) };
    (answer, if number == 0 { choices } else { Vec::new() })
}

/// Writes the file into the buffer: 0 and the length of the file, or the number and the place of the refusal.
#[rustfmt::skip]
fn write(Certificate { header: [kind, d, c, ..], marks, tables: [a, b, de, w, co, r], claims }: &Certificate, buffer: &mut [u8]) -> [u64; 2] {
    let mut result = [0; 2];
    unsafe { vartrymoy_write(*kind, *d, *c, marks.as_ptr(), marks.len(), a.as_ptr(), a.len(), b.as_ptr(), b.len(),
        de.as_ptr(), de.len(), w.as_ptr(), w.len(), co.as_ptr(), co.len(), claims.as_ptr(), claims.len(), r.as_ptr(), r.len(),
        buffer.as_mut_ptr(), buffer.len(), result.as_mut_ptr(), 2) };
    result
}

/// What is printed for a file.
#[rustfmt::skip]
fn answer(file: &[u8]) -> Vec<u8> {
    let (mut marks, mut claims, mut choices) = (vec![0; 20_000], vec![0; 20_000], vec![0; 20_000]);
    let (mut text, mut result) = (vec![0; 64 + 32 * marks.len()], [0; 2]);
    let [a, b, d, w, co, r] = &mut ROOM.map(|room| vec![0; room]);
    unsafe { vartrymoy_answer(file.as_ptr(), file.len(), marks.as_mut_ptr(), marks.len(), a.as_mut_ptr(), a.len(),
        b.as_mut_ptr(), b.len(), d.as_mut_ptr(), d.len(), w.as_mut_ptr(), w.len(), co.as_mut_ptr(), co.len(),
        claims.as_mut_ptr(), claims.len(), r.as_mut_ptr(), r.len(), choices.as_mut_ptr(), choices.len(),
        text.as_mut_ptr(), text.len(), result.as_mut_ptr(), 2) };
    text.truncate(result[1] as usize);
    text
}

fn main() {
    let path = std::env::args().nth(1).expect("usage: read CERTIFICATE");
    let file = std::fs::read(path).expect("the file can be read");
    let read = read(&file);
    println!("read {}", read.as_ref().err().unwrap_or(&0));
    if let Ok(certificate) = &read {
        judge(&file, certificate);
    }
    print!("{}", String::from_utf8(answer(&file)).expect("letters and digits"));
}

/// Prints the answer in numbers, and what came of writing the file anew.
fn judge(file: &[u8], certificate: &Certificate) {
    let spaced = |xs: &[u32]| xs.iter().map(|x| format!(" {x}")).collect::<String>();
    let (answer, choices) = check(certificate);
    println!("answer{}", spaced(&answer));
    if answer[0] == 0 {
        println!("choices{}", spaced(&choices));
    }
    let mut written = vec![0; file.len()];
    let [number, length] = write(certificate, &mut written);
    println!("written {number} {length}");
    if number == 0 {
        let same = length == file.len() as u64 && written == file;
        println!("{} bytes", if same { "same" } else { "other" });
    }
}
