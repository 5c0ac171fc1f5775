// Makes the calls of a script on the Rust `Iec61850Monitor` and writes the lines that the program crates/replay writes. The script's form
// is that of docs/SCRIPT.md. It links to the unchanged crates of craton-shield; `oracle` builds it.
//     replay <SCRIPT >LINES
use iec61850_monitor::{GooseFrame, Iec61850Monitor, MmsFrame, MmsServiceType, RetxSchedule};
use std::io::{BufRead, BufReader, Read, StdinLock, Write};
use vs_types::{AlertSeverity, SecurityAlert, VsError};
use vs_types_ind::{AlertCode, InspectResult, RateBucket, SvFrame, SOURCE_IEC61850_SV};

// The most octets of a line before its line feed.
const LONGEST_LINE: usize = 262_143;
// So many octets of lines are written at once.
const WRITTEN_AT_ONCE: usize = 1 << 20;

// Why a line is no call. Arguments are counted from 1.
enum Malformed {
    TooLong,
    UnknownCall,
    Missing(usize),
    Argument(usize),
    Unexpected(usize),
}

// ---- Words and arguments

fn is_separator(octet: u8) -> bool {
    matches!(octet, b' ' | b'\t' | b'\r')
}

// The next word of a line, with what stands behind it.
fn next_word(line: &[u8]) -> Option<(&[u8], &[u8])> {
    let start = line.iter().position(|octet| !is_separator(*octet))?;
    let rest = &line[start..];
    let end = rest.iter().position(|octet| is_separator(*octet)).unwrap_or(rest.len());
    Some(rest.split_at(end))
}

// A number of one to twenty decimal digits.
fn number(word: &[u8]) -> Option<u64> {
    if word.is_empty() || word.len() > 20 {
        return None;
    }
    let mut value = 0u64;
    for octet in word {
        if !octet.is_ascii_digit() {
            return None;
        }
        value = value.checked_mul(10)?.checked_add(u64::from(octet - b'0'))?;
    }
    Some(value)
}

fn hex_digit(octet: u8) -> Option<u8> {
    match octet {
        b'0'..=b'9' => Some(octet - b'0'),
        b'a'..=b'f' => Some(octet - b'a' + 10),
        b'A'..=b'F' => Some(octet - b'A' + 10),
        _ => None,
    }
}

// Puts the octets that are written as pairs of hexadecimal digits.
fn put_pairs(word: &[u8], octets: &mut Vec<u8>) -> Option<()> {
    if word.is_empty() || word.len() % 2 != 0 {
        return None;
    }
    for pair in word.chunks_exact(2) {
        octets.push(hex_digit(pair[0])? << 4 | hex_digit(pair[1])?);
    }
    Some(())
}

// Puts the octets that are written as text, without the first quotation mark.
fn put_text(word: &[u8], octets: &mut Vec<u8>) -> Option<()> {
    let (last, text) = word.split_last()?;
    let printable = text.iter().all(|octet| matches!(octet, b'!'..=b'~') && *octet != b'"');
    octets.extend_from_slice(text);
    (*last == b'"' && printable).then_some(())
}

// Puts the octets of a word in place of those that are there.
fn read_octets(word: &[u8], octets: &mut Vec<u8>) -> Option<()> {
    octets.clear();
    match word {
        b"-" => Some(()),
        [b'"', text @ ..] => put_text(text, octets),
        pairs => put_pairs(pairs, octets),
    }
}

// The octets with zeros behind them to 64, if they are no more.
fn padded(octets: &[u8]) -> Option<[u8; 64]> {
    let mut name = [0u8; 64];
    name.get_mut(..octets.len())?.copy_from_slice(octets);
    Some(name)
}

// A name and its stated length.
fn read_name(word: &[u8], octets: &mut Vec<u8>) -> Option<(u8, [u8; 64])> {
    let colon = if word[0] == b'"' { None } else { word.iter().position(|octet| *octet == b':') };
    let Some(at) = colon else {
        read_octets(word, octets)?;
        let name = padded(octets)?;
        return Some((octets.len() as u8, name));
    };
    let stated = u8::try_from(number(&word[..at])?).ok()?;
    read_octets(&word[at + 1..], octets)?;
    Some((stated, padded(octets)?))
}

// The arguments of a call that are not yet read, how many were, and room for the octets of one.
struct Arguments<'a> {
    unread: &'a [u8],
    count: usize,
    octets: &'a mut Vec<u8>,
}

impl<'a> Arguments<'a> {
    fn word(&mut self) -> Result<&'a [u8], Malformed> {
        self.count += 1;
        let (word, rest) = next_word(self.unread).ok_or(Malformed::Missing(self.count))?;
        self.unread = rest;
        Ok(word)
    }

    // What was read of an argument, or that it is malformed.
    fn read<T>(&self, value: Option<T>) -> Result<T, Malformed> {
        value.ok_or(Malformed::Argument(self.count))
    }

    fn number<T: TryFrom<u64>>(&mut self) -> Result<T, Malformed> {
        let value = number(self.word()?);
        self.read(value.and_then(|value| T::try_from(value).ok()))
    }

    fn flag(&mut self) -> Result<bool, Malformed> {
        match self.word()? {
            b"0" => Ok(false),
            b"1" => Ok(true),
            _ => Err(Malformed::Argument(self.count)),
        }
    }

    // Octets, which are then in the room for them.
    fn octets(&mut self) -> Result<(), Malformed> {
        let word = self.word()?;
        let read = read_octets(word, self.octets);
        self.read(read)
    }

    fn address(&mut self) -> Result<[u8; 6], Malformed> {
        self.octets()?;
        self.read(self.octets.as_slice().try_into().ok())
    }

    fn name(&mut self) -> Result<(u8, [u8; 64]), Malformed> {
        let word = self.word()?;
        let name = read_name(word, self.octets);
        self.read(name)
    }

    // Whether all arguments are read.
    fn end(&self) -> Result<(), Malformed> {
        match next_word(self.unread) {
            Some(_) => Err(Malformed::Unexpected(self.count + 1)),
            None => Ok(()),
        }
    }

    fn schedule(&mut self) -> Result<RetxSchedule, Malformed> {
        Ok(RetxSchedule {
            initial_us: self.number()?,
            t_max_us: self.number()?,
            tolerance_pct: self.number()?,
        })
    }

    fn mms_frame(&mut self) -> Result<MmsFrame, Malformed> {
        let service_type = MmsServiceType::from_u8(self.number()?);
        let raw_service_type = self.number()?;
        let (domain_len, domain) = self.name()?;
        Ok(MmsFrame {
            service_type,
            raw_service_type,
            domain,
            domain_len,
            invoke_id: self.number()?,
            timestamp_us: self.number()?,
            client_id: self.number()?,
            control_block_is_goose: self.flag()?,
        })
    }

    fn goose_frame(&mut self) -> Result<GooseFrame, Malformed> {
        let src_mac = self.address()?;
        let (go_cb_ref_len, go_cb_ref) = self.name()?;
        Ok(GooseFrame {
            src_mac,
            go_cb_ref,
            go_cb_ref_len,
            st_num: self.number()?,
            sq_num: self.number()?,
            test: self.flag()?,
            timestamp_us: self.number()?,
            t_seconds_since_epoch: self.number()?,
            t_fraction_of_second: self.number()?,
        })
    }

    fn sv_frame(&mut self) -> Result<SvFrame, Malformed> {
        let src_mac = self.address()?;
        let (svid_len, svid) = self.name()?;
        let (smp_cnt, smp_rate) = (self.number()?, self.number()?);
        let (dataset_ref_len, dataset_ref) = self.name()?;
        Ok(SvFrame {
            src_mac,
            svid_len,
            svid,
            smp_cnt,
            smp_rate,
            dataset_ref_len,
            dataset_ref,
            timestamp_us: self.number()?,
            t_seconds_since_epoch: self.number()?,
            t_fraction_of_second: self.number()?,
        })
    }

    // A bucket's tokens, capacity and last refill.
    fn bucket(&mut self) -> Result<RateBucket, Malformed> {
        Ok(RateBucket {
            tokens: self.number()?,
            capacity: self.number()?,
            last_refill_us: self.number()?,
            ..RateBucket::empty()
        })
    }
}

// ---- Answers

// A number's decimal digits.
fn put_digits(line: &mut Vec<u8>, mut number: u64) {
    let mut digits = [0u8; 20];
    let mut at = digits.len();
    loop {
        at -= 1;
        digits[at] = b'0' + (number % 10) as u8;
        number /= 10;
        if number == 0 {
            break;
        }
    }
    line.extend_from_slice(&digits[at..]);
}

// A text and the digits of the number that it announces.
fn put(line: &mut Vec<u8>, text: &str, number: impl Into<u64>) {
    line.extend_from_slice(text.as_bytes());
    put_digits(line, number.into());
}

// A space and each octet as two digits.
fn put_hex(line: &mut Vec<u8>, octets: &[u8]) {
    line.push(b' ');
    for octet in octets {
        line.push(b"0123456789abcdef"[usize::from(octet >> 4)]);
        line.push(b"0123456789abcdef"[usize::from(octet & 15)]);
    }
}

fn put_error(line: &mut Vec<u8>, error: VsError) {
    put(line, "error ", error as u32);
}

fn put_alert(line: &mut Vec<u8>, alert: &SecurityAlert, code: AlertCode) {
    put(line, " [", code as u8);
    write!(line, " {code:?} {:?}", alert.severity).expect("octets in memory are always written");
    put(line, " number ", alert.id);
    put(line, " time ", alert.timestamp_us);
    put(line, " from ", alert.source_type);
    put(line, " ", alert.source_id);
    put(line, " hash ", alert.payload_hash.as_bytes() != &[0u8; 32]);
    line.push(b']');
}

// Whether a slot is as a clean result of this source has it.
fn is_unused(alert: &SecurityAlert, code: AlertCode, source_type: u8) -> bool {
    alert.id == 0
        && alert.severity == AlertSeverity::Info
        && alert.source_type == source_type
        && alert.source_id == 0
        && alert.timestamp_us == 0
        && alert.payload_hash.as_bytes() == &[0u8; 32]
        && code == AlertCode::Unspecified
}

fn put_result(line: &mut Vec<u8>, result: &InspectResult) {
    let many = usize::from(result.alert_count).min(result.alerts.len());
    line.extend_from_slice(if result.allowed { b"allowed" } else { b"refused" });
    put(line, " source ", result.source_type);
    put(line, " alerts ", result.alert_count);
    for at in 0..many {
        put_alert(line, &result.alerts[at], result.alert_codes[at]);
    }
    let unused = (many..result.alerts.len()).all(|at| is_unused(&result.alerts[at], result.alert_codes[at], result.source_type));
    put(line, " unused ", unused);
    put(line, " truncated ", result.alerts_truncated);
}

// Every field of a frame, in the order in which they are declared.
fn put_frame(line: &mut Vec<u8>, frame: &SvFrame) {
    line.extend_from_slice(b"frame");
    put_hex(line, &frame.src_mac);
    put(line, " ", frame.svid_len);
    put_hex(line, &frame.svid);
    put(line, " ", frame.smp_cnt);
    put(line, " ", frame.smp_rate);
    put(line, " ", frame.dataset_ref_len);
    put_hex(line, &frame.dataset_ref);
    put(line, " ", frame.timestamp_us);
    put(line, " ", frame.t_seconds_since_epoch);
    put(line, " ", frame.t_fraction_of_second);
}

// The totals and strict mode, which end every answer.
fn put_totals(line: &mut Vec<u8>, m: &Iec61850Monitor) {
    put(line, " totals ", m.mms_total_inspected());
    put(line, " ", m.goose_total_inspected());
    put(line, " ", m.sv_total_inspected());
    put(line, " ", m.total_alerts());
    put(line, " strict ", m.strict_mode());
    line.push(b'\n');
}

// The line that ends the run.
fn put_malformed(line: &mut Vec<u8>, number: u64, why: Malformed) {
    put(line, "malformed line ", number);
    let (which, what) = match why {
        Malformed::TooLong => return line.extend_from_slice(b": too long\n"),
        Malformed::UnknownCall => return line.extend_from_slice(b": unknown call\n"),
        Malformed::Missing(which) => (which, " missing\n"),
        Malformed::Argument(which) => (which, " malformed\n"),
        Malformed::Unexpected(which) => (which, " unexpected\n"),
    };
    put(line, ": argument ", which as u64);
    line.extend_from_slice(what.as_bytes());
}

// ---- Calls. Each reads all its arguments before it is made.

// What the Rust reads of a raw frame, or its error.
fn read_frame(args: &mut Arguments) -> Result<Result<SvFrame, VsError>, Malformed> {
    let time = args.number()?;
    args.octets()?;
    args.end()?;
    Ok(Iec61850Monitor::parse_sv(args.octets, time))
}

fn make_raw_inspection(m: &mut Iec61850Monitor, args: &mut Arguments, line: &mut Vec<u8>) -> Result<(), Malformed> {
    let result = match read_frame(args)? {
        Ok(frame) => {
            put_frame(line, &frame);
            m.inspect_sv(&frame)
        }
        // The Rust has no entry for raw frames, so none of its results stands beside this error: the frame is not allowed.
        Err(error) => {
            put_error(line, error);
            InspectResult { allowed: false, ..InspectResult::clean(SOURCE_IEC61850_SV) }
        }
    };
    line.extend_from_slice(b" result ");
    put_result(line, &result);
    Ok(())
}

fn make_parse(args: &mut Arguments, line: &mut Vec<u8>) -> Result<(), Malformed> {
    match read_frame(args)? {
        Ok(frame) => put_frame(line, &frame),
        Err(error) => put_error(line, error),
    }
    Ok(())
}

fn make_service(args: &mut Arguments, line: &mut Vec<u8>) -> Result<(), Malformed> {
    let service = MmsServiceType::from_u8(args.number()?);
    args.end()?;
    put(line, "service ", service as u8);
    put(line, " write ", service.is_write());
    Ok(())
}

fn make_interval(args: &mut Arguments, line: &mut Vec<u8>) -> Result<(), Malformed> {
    let given = args.schedule()?;
    let (sq_num, observed, expected) = (args.number()?, args.number()?, args.number()?);
    args.end()?;
    for (text, schedule) in [("interval ", given), (" default ", RetxSchedule::default_8_1())] {
        put(line, text, schedule.expected_interval_us(sq_num));
        put(line, " ", schedule.within_tolerance(observed, expected));
    }
    Ok(())
}

fn make_consumption(args: &mut Arguments, line: &mut Vec<u8>) -> Result<(), Malformed> {
    let mut bucket = args.bucket()?;
    let time = args.number()?;
    args.end()?;
    put(line, "bucket ", bucket.try_consume(time));
    put(line, " ", bucket.tokens);
    put(line, " ", bucket.capacity);
    put(line, " ", bucket.last_refill_us);
    Ok(())
}

// One of the add calls; nothing, if the name is of none of them.
fn make_addition(m: &mut Iec61850Monitor, name: &[u8], args: &mut Arguments) -> Result<Option<Result<(), VsError>>, Malformed> {
    Ok(Some(match name {
        b"add_mms_rule" => {
            let (mask, read_only, rate) = (args.number()?, args.flag()?, args.number()?);
            args.end()?;
            m.add_mms_rule(mask, read_only, rate)
        }
        b"add_goose_publisher" => {
            let address = args.address()?;
            args.octets()?;
            args.end()?;
            m.add_goose_publisher(address, args.octets)
        }
        b"add_sv_publisher" => {
            let (address, rate) = (args.address()?, args.number()?);
            args.octets()?;
            args.end()?;
            m.add_sv_publisher(address, args.octets, rate)
        }
        _ => return Ok(None),
    }))
}

// A value, if no further argument stands behind it.
fn last<T>(args: &mut Arguments, value: T) -> Result<T, Malformed> {
    args.end()?;
    Ok(value)
}

// One of the calls that are answered by `done`.
fn make_setting(m: &mut Iec61850Monitor, name: &[u8], args: &mut Arguments) -> Result<(), Malformed> {
    match name {
        b"new" => *m = last(args, Iec61850Monitor::new())?,
        b"new_strict" => *m = last(args, Iec61850Monitor::new_strict())?,
        b"reset" => {
            args.end()?;
            m.reset();
        }
        b"totals" => args.end()?,
        b"set_mms_service_mask" => {
            let mask = args.number()?;
            m.set_mms_service_mask(last(args, mask)?);
        }
        b"set_mms_read_only" => {
            let read_only = args.flag()?;
            m.set_mms_read_only(last(args, read_only)?);
        }
        b"set_block_test_frames" => {
            let block = args.flag()?;
            m.set_block_test_frames(last(args, block)?);
        }
        b"set_sv_max_smp_cnt_gap" => {
            let gap = args.number()?;
            m.set_sv_max_smp_cnt_gap(last(args, gap)?);
        }
        b"set_retx_schedule" => {
            let (schedule, enforce) = (args.schedule()?, args.flag()?);
            m.set_retx_schedule(last(args, schedule)?, enforce);
        }
        b"set_time_max_forward_jump_s" => {
            let seconds = args.number()?;
            m.set_time_max_forward_jump_s(last(args, seconds)?);
        }
        _ => return Err(Malformed::UnknownCall),
    }
    Ok(())
}

// Makes the call of this name and puts its answer, without the totals.
fn make_call(m: &mut Iec61850Monitor, name: &[u8], args: &mut Arguments, line: &mut Vec<u8>) -> Result<(), Malformed> {
    match name {
        b"inspect_sv" => {
            let frame = args.sv_frame()?;
            put_result(line, &m.inspect_sv(last(args, &frame)?));
        }
        b"inspect_goose" => {
            let frame = args.goose_frame()?;
            put_result(line, &m.inspect_goose(last(args, &frame)?));
        }
        b"inspect_mms" => {
            let frame = args.mms_frame()?;
            put_result(line, &m.inspect_mms(last(args, &frame)?));
        }
        b"inspect_raw_sv" => make_raw_inspection(m, args, line)?,
        b"parse_sv" => make_parse(args, line)?,
        b"service" => make_service(args, line)?,
        b"interval" => make_interval(args, line)?,
        b"bucket" => make_consumption(args, line)?,
        _ => match make_addition(m, name, args)? {
            Some(Ok(())) => line.extend_from_slice(b"added"),
            Some(Err(error)) => put_error(line, error),
            None => {
                make_setting(m, name, args)?;
                line.extend_from_slice(b"done");
            }
        },
    }
    Ok(())
}

// Puts the answer to a line of the script, or nothing if the line is skipped.
fn answer(m: &mut Iec61850Monitor, given: &[u8], octets: &mut Vec<u8>, line: &mut Vec<u8>) -> Result<(), Malformed> {
    if given.len() > LONGEST_LINE {
        return Err(Malformed::TooLong);
    }
    let Some((name, unread)) = next_word(given) else {
        return Ok(());
    };
    if name[0] == b'#' {
        return Ok(());
    }
    make_call(m, name, &mut Arguments { unread, count: 0, octets }, line)?;
    put_totals(line, m);
    Ok(())
}

// Reads a line without its line feed, or of one that is too long a part that is too long too; nothing, at the end of the input.
fn read_line<'a>(input: &mut BufReader<StdinLock>, line: &'a mut Vec<u8>) -> std::io::Result<Option<&'a [u8]>> {
    line.clear();
    input.by_ref().take(LONGEST_LINE as u64 + 1).read_until(b'\n', line)?;
    if line.is_empty() {
        return Ok(None);
    }
    Ok(Some(line.strip_suffix(b"\n").unwrap_or(line)))
}

// Answers every call of the script, up to the first line that is none.
fn main() -> std::io::Result<()> {
    let mut input = BufReader::with_capacity(1 << 20, std::io::stdin().lock());
    let mut output = std::io::stdout().lock();
    let mut monitor = Iec61850Monitor::new();
    let (mut given, mut octets) = (Vec::new(), Vec::new());
    let mut lines = Vec::with_capacity(2 * WRITTEN_AT_ONCE);
    let mut number = 0;
    while let Some(line) = read_line(&mut input, &mut given)? {
        number += 1;
        if let Err(why) = answer(&mut monitor, line, &mut octets, &mut lines) {
            put_malformed(&mut lines, number, why);
            break;
        }
        if lines.len() >= WRITTEN_AT_ONCE {
            output.write_all(&lines)?;
            lines.clear();
        }
    }
    output.write_all(&lines)?;
    output.flush()
}
