//! Inputs for the bench at the ends of what it can read: sizes, numbers, spaces, line ends, bytes
//! of any kind, long lines.

/// A panel with two points, before the line that is tried, and commands behind it.
const BEFORE: &[u8] = b"8 4\nP 1 5\nP 9 6\n";
const BEHIND: &[u8] = b"\nL 1\nR 9\nL 9";

const LINE_ENDS: [&[u8]; 4] = [b"", b"\n", b"\r\n", b"\n\n"];

const FIRST_LINES: [&[u8]; 44] = [
    b"",
    b" ",
    b"8 4",
    b"08 004",
    b"0000000008 0000000004",
    b"00000000008 4",
    b"8 00000000004",
    b"8  4",
    b" 8 4",
    b"8 4 ",
    b"8\t4",
    b"8\t 4",
    b"8",
    b"8 ",
    b" 4",
    b"8 4 2",
    b"84",
    b"0 4",
    b"8 0",
    b"0 0",
    b"1 1",
    b"1 64",
    b"4096 64",
    b"4096 1",
    b"4097 64",
    b"4096 65",
    b"8 65",
    b"4097 4",
    b"4294967295 4",
    b"4294967296 4",
    b"4294967304 4",
    b"8 4294967300",
    b"8 4294967295",
    b"9999999999 1",
    b"-8 4",
    b"+8 4",
    b"8,4",
    b"0x8 4",
    b"8.0 4",
    b"panel 8 4",
    b"P 1 5",
    b"8 4\0",
    b"\xEF\xBB\xBF8 4",
    b"\xFF\xFE",
];

const LINES: [&[u8]; 113] = [
    b"",
    b" ",
    b"\t",
    b"\r",
    b"\0",
    b"P",
    b"P ",
    b"P 1",
    b"P 1 ",
    b"P 1 7",
    b"P 1 7 ",
    b" P 1 7",
    b"P  1 7",
    b"P 1  7",
    b"P\t1 7",
    b"P 1\t7",
    b"P 1 7 8",
    b"P1 7",
    b"PP 1 7",
    b"p 1 7",
    b"P 1,7",
    b"P 1 7\r",
    b"P -1 7",
    b"P +1 7",
    b"P 1 -7",
    b"P 1 +7",
    b"P 1 0x7",
    b"P 1 7.0",
    b"P 007 8",
    b"P 0 5",
    b"P 0 0",
    b"P 2147483646 5",
    b"P 2147483647 5",
    b"P 2147483648 5",
    b"P 4294967295 5",
    b"P 4294967296 5",
    b"P 4294967297 5",
    b"P 9999999999 5",
    b"P 17 0",
    b"P 17 4294967295",
    b"P 17 4294967296",
    b"P 17 9999999999",
    b"P 0000000017 0000000005",
    b"P 00000000017 5",
    b"P 17 00000000005",
    b"P 0000000000 5",
    b"P 99999999999999999999 5",
    b"P 18446744073709551617 5",
    b"P 17 18446744073709551621",
    b"P 1234567890 1234567890",
    b"P 1234567890 12345678901",
    b"P 1234567890 1234567890 ",
    b"P 1234567890 1234567890\0",
    b"L",
    b"L ",
    b"L 1",
    b"L 1 ",
    b"L  1",
    b" L 1",
    b"L\t1",
    b"L 1 2",
    b"L1",
    b"l 1",
    b"LL 1",
    b"L 1\r",
    b"L -1",
    b"L +1",
    b"L 17",
    b"L 0",
    b"L 2147483646",
    b"L 2147483647",
    b"L 4294967295",
    b"L 4294967296",
    b"L 4294967297",
    b"L 0000000009",
    b"L 00000000009",
    b"L 000000000000000000009",
    b"L 18446744073709551617",
    b"L /",
    b"L :",
    b"L 1/",
    b"L 1:",
    b"L 1\0",
    b"L \0",
    b"L\x001",
    b"L 1\x0B",
    b"L 1\xA0",
    b"L \xD9\xA1",
    b"L \xEF\xBC\x91",
    b"R",
    b"R ",
    b"R 1",
    b"R 1 ",
    b"R  1",
    b"R 1 1",
    b" R 1",
    b"R\t1",
    b"R1",
    b"R +1",
    b"R -1",
    b"r 1",
    b"R 1\r",
    b"R 0",
    b"R 17",
    b"R 2147483646",
    b"R 2147483647",
    b"R 4294967305",
    b"R 0000000009",
    b"R 00000000009",
    b"Q 1",
    b"?",
    b"? 4",
    b"\xFF\xFE\x80",
];

/// Whole inputs about line ends.
const LINE_END_INPUTS: [&[u8]; 14] = [
    b"",
    b"\n",
    b"\n\n",
    b"\r\n",
    b"\n8 4\nP 1 5\n",
    b"8\n4\n",
    b"8 4\n\n\nL 1\n\n",
    b"8 4\r\nP 1 5\r\n",
    b"8 4\nP 1 5\r\nL 1\n",
    b"8 4\n\r\nL 1",
    b"8 4\rP 1 5\rL 1\r",
    b"8 4\nP 1 5\n\n",
    b"8 4\nP 1 5\nL 1",
    b"8 4\nP 1\n5\nL 1\n",
];

/// The sizes around which a program's buffers may end.
const BUFFERS: [usize; 9] = [64, 128, 256, 512, 1024, 4096, 8192, 16_384, 65_536];

pub fn inputs() -> Vec<Vec<u8>> {
    let mut inputs: Vec<Vec<u8>> = LINE_END_INPUTS.iter().map(|text| text.to_vec()).collect();
    first_lines(&mut inputs);
    lines(&mut inputs);
    every_byte(&mut inputs);
    long_lines(&mut inputs);
    buffer_ends(&mut inputs);
    inputs.push(many_lines());
    inputs
}

fn first_lines(inputs: &mut Vec<Vec<u8>>) {
    for line in FIRST_LINES {
        inputs.extend(LINE_ENDS.map(|end| [line, end].concat()));
        inputs.push([line, b"\nP 1 5\nL 1\n"].concat());
    }
}

/// Each line as the last one, with and without an end, and with others behind it.
fn lines(inputs: &mut Vec<Vec<u8>>) {
    for line in LINES {
        inputs.extend(LINE_ENDS.map(|end| [BEFORE, line, end].concat()));
        inputs.push([BEFORE, line, BEHIND].concat());
    }
    inputs.push([BEFORE, &LINES.join(&b'\n')].concat());
}

/// Every byte in every place of a line, and between the numbers of the first line.
fn every_byte(inputs: &mut Vec<Vec<u8>>) {
    let mut tried = BEFORE.to_vec();
    for byte in 0..=255 {
        for line in [b"P 9 7".as_slice(), b"L 9"] {
            for place in 0..=line.len() {
                let (left, right) = line.split_at(place);
                tried.extend([left, &[byte], right, b"\n"].concat());
            }
            for place in 0..line.len() {
                let mut line = line.to_vec();
                line[place] = byte;
                tried.extend([&line, b"\n".as_slice()].concat());
            }
        }
        inputs.push([b"8".as_slice(), &[byte], b"4\nL 1\n"].concat());
    }
    inputs.push(tried);
}

fn long_lines(inputs: &mut Vec<Vec<u8>>) {
    for byte in [b'0', b'1', b' ', b'P', b'\r', b'\0', 0xFF] {
        let long = vec![byte; 100_000];
        inputs.push(long.clone());
        inputs.push([b"8 4".as_slice(), &long, BEHIND].concat());
        for start in [b"".as_slice(), b"P ", b"P 1 ", b"P 1 5", b"L ", b"L 1"] {
            inputs.push([BEFORE, start, &long].concat());
            inputs.push([BEFORE, start, &long, BEHIND].concat());
            inputs.push([BEFORE, &long, start, BEHIND].concat());
        }
    }
}

/// Commands across the end of a buffer or at the start of the next one: behind a line of this
/// length, behind as many empty lines, and as the end or the start of a line too long to be read.
fn buffer_ends(inputs: &mut Vec<Vec<u8>>) {
    let commands = b"P 1234567890 4294967295\nL 1234567890\n";
    for buffer in BUFFERS {
        for length in buffer - 30..=buffer + 2 {
            let filler = vec![b'x'; length];
            inputs.push([b"8 4\n", filler.as_slice(), b"\n", commands].concat());
        }
        for length in buffer - 6..=buffer + 2 {
            let empty = vec![b'\n'; length];
            inputs.push([b"8 4\n", empty.as_slice(), b"L 1"].concat());
            let filler = vec![b'x'; length];
            inputs.push([b"8 4\n", filler.as_slice(), b"L 1\nL 1"].concat());
            inputs.push([b"8 4\nL 1", filler.as_slice(), b"\nL 1"].concat());
        }
    }
}

/// Line numbers of up to six digits.
fn many_lines() -> Vec<u8> {
    let lines = (1..=120_000).map(|n| if n % 3 == 0 { "L 1\n" } else { "\n" });
    format!("8 4\nP 1 5\n{}", lines.collect::<String>()).into_bytes()
}
