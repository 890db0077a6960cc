//! Inputs for the orders program at the ends of what it can read: words, numbers, blanks, frames,
//! line ends, bytes of any kind, long lines.

/// A panel with two points, before the line that is tried.
const BEFORE: &str = "panel 8 4\nput 1 5\nstep writer\nstep writer\nstep writer\nstep writer\n\
    put 9 6\nstep writer\nstep writer\nstep writer\n";

/// What is called behind it.
const BEHIND: &[u8] = b"\nshow\nturn\nstep writer\nstep reader 3\nturn\nshow";

const LINE_ENDS: [&[u8]; 5] = [b"", b"\n", b"\r\n", b"\n\n", b"\r"];

const LINES: [&[u8]; 141] = [
    b"",
    b" ",
    b"\t",
    b"\r",
    b"\r\r",
    b"\0",
    b"#",
    b"  # put 1 1",
    b"#put 1 1",
    b"put # 1 1",
    b"put 1 1 # one",
    b"panel",
    b"panel 8",
    b"panel 8 4",
    b"panel 8 4 2",
    b"panel 0 4",
    b"panel 8 0",
    b"panel 8 64",
    b"panel 8 65",
    b"panel 1 1",
    b"panel 4096 64",
    b"panel 4097 4",
    b"panel 4294967295 4",
    b"panel 4294967296 4",
    b"panel 8 4294967295",
    b"panel 8 4294967296",
    b"panel 0x8 0x4",
    b"panel x y",
    b"panels 8 4",
    b"pane 8 4",
    b"Panel 8 4",
    b"panel\t8\t4",
    b"panel 8,4",
    b"start",
    b"start ",
    b"start x",
    b"start lookup",
    b"start lookup 3",
    b"start lookup 3 1",
    b"start lookup 3 1 1",
    b"start lookup 15 9",
    b"start lookup 16 9",
    b"start lookup 4294967295 0",
    b"start lookup 3 0",
    b"start lookup 3 2147483646",
    b"start lookup 3 2147483647",
    b"start lookup 3 4294967295",
    b"start lookup 3 4294967296",
    b"start lookup 4294967296 3",
    b"start lookup 4294967296 x",
    b"start lookup x 4294967296",
    b"start lookup x",
    b"startlookup 3 1",
    b"start walk",
    b"start walk 3",
    b"start walk 16",
    b"start walk 3 1",
    b"start writer",
    b"step",
    b"step x",
    b"step reader",
    b"step reader 3",
    b"step reader 16",
    b"step reader 3 3",
    b"step reader -3",
    b"step reader +3",
    b"step reader 3.0",
    b"step writer",
    b"step writer 3",
    b"step walk",
    b"put",
    b"put 17",
    b"put 17 7",
    b"put 17 7 7",
    b"put 17 0",
    b"put 17 4294967295",
    b"put 17 4294967296",
    b"put 17 99999999999999999999999999999999999999999",
    b"put 00000000000000000000000000000000000000017 7",
    b"put 0x11 0x7",
    b"put 0X11 0XfF",
    b"put 0xFFFFFFFF 0xFFFFFFFF",
    b"put 0x100000000 1",
    b"put 0x 1",
    b"put x11 1",
    b"put 0xG 1",
    b"put 1F 1",
    b"put 00x1 1",
    b"put 0 0",
    b"put 2147483647 1",
    b"put one 1",
    b"put 1 one",
    b"change",
    b"change 1",
    b"change 1 2",
    b"change 1 2 3",
    b"change 1 2 3 4",
    b"change 1 4294967294 1",
    b"change 1 4294967296 1",
    b"change 1 1 4294967296",
    b"change 0 1 1",
    b"remove",
    b"remove 1",
    b"remove 1 1",
    b"remove 0",
    b"remove 9",
    b"command",
    b"command ",
    b"command 0",
    b"command 0F",
    b"command 0f",
    b"command 0F03000001000000090 2",
    b"command 0F 03 000001 00000009 02",
    b"command 0F0300000100000009 02",
    b"command 0f 03 00 00 01 00 00 00 09 02",
    b"command 0 F 0 3 0 0 0 0 0 1 0 0 0 0 0 0 0 9 0 2",
    b"command 0F 03 000001 00000009 03",
    b"command 0F 00 000001 00000009 02",
    b"command 0F 21 000001 00000009 02",
    b"command 0F 03 000000 00000009 02",
    b"command 0F 03 000002 00000009 02",
    b"command 0F 03 000001 00000000 02",
    b"command 0F 03 000001 00000009 02 00",
    b"command 17 03 000001 00000009 00000001",
    b"command FF",
    b"command 0x0F",
    b"command 0F, 03",
    b"command0F",
    b"turn",
    b" turn\t",
    b"turn 3",
    b"turn writer",
    b"turn reader 3",
    b"turn #",
    b"turns",
    b"Turn",
    b"show",
    b"show 1",
    b"shown",
    b"quit",
    b"\xEF\xBB\xBFshow",
];

pub fn inputs() -> Vec<Vec<u8>> {
    let mut inputs = vec![Vec::new(), b"\n".to_vec(), b"\r".to_vec()];
    lines(&mut inputs);
    frames(&mut inputs);
    every_byte(&mut inputs);
    long_lines(&mut inputs);
    buffer_ends(&mut inputs);
    inputs.push(many_lines());
    inputs
}

/// Each line as the only one, as the last one with every line end, and with others behind it.
fn lines(inputs: &mut Vec<Vec<u8>>) {
    let before = BEFORE.as_bytes();
    for line in LINES {
        inputs.push(line.to_vec());
        inputs.extend(LINE_ENDS.map(|end| [before, line, end].concat()));
        inputs.push([before, line, BEHIND].concat());
    }
    inputs.push([before, &LINES.join(&b'\n')].concat());
    inputs.push(LINES.join(b"\r\n".as_slice()));
}

/// Frames of every length that a line has room for, with an odd digit more, and with one digit that
/// is none.
fn frames(inputs: &mut Vec<Vec<u8>>) {
    let mut tried = BEFORE.as_bytes().to_vec();
    for bytes in 0..=40 {
        let digits = "0F".repeat(bytes);
        let spaced = "0F ".repeat(bytes);
        let lines =
            format!("command {digits}\ncommand {spaced}\ncommand {digits}a\ncommand {digits}/");
        tried.extend(lines.into_bytes());
        tried.push(b'\n');
    }
    inputs.push(tried);
}

/// Every byte in every place of some lines.
fn every_byte(inputs: &mut Vec<Vec<u8>>) {
    for byte in 0..=255 {
        let mut tried = BEFORE.as_bytes().to_vec();
        let lines: [&[u8]; 4] = [b"put 9 7", b"command 0F 03", b"step reader 3", b"turn"];
        for line in lines {
            for place in 0..=line.len() {
                let (left, right) = line.split_at(place);
                tried.extend([left, &[byte], right, b"\n"].concat());
            }
            for place in 0..line.len() {
                let mut line = line.to_vec();
                line[place] = byte;
                tried.extend([&line, b"\n".as_slice()].concat());
            }
        }
        inputs.push([&tried, BEHIND].concat());
    }
}

/// Lines around the longest that is read, and far longer ones.
fn long_lines(inputs: &mut Vec<Vec<u8>>) {
    let before = BEFORE.as_bytes();
    for length in (240..=260).chain([511, 512, 513, 65_530, 65_536, 100_000]) {
        for start in [
            "", "#", " #", "put 17 ", "put 17 7", "command ", "show", "x",
        ] {
            for byte in [b'0', b' ', b'x', b'\t', b'\r'] {
                let mut line = start.as_bytes().to_vec();
                line.resize(length, byte);
                inputs.push([before, &line].concat());
                inputs.push([before, &line, b"\r", BEHIND].concat());
                inputs.push([before, &line, BEHIND].concat());
            }
        }
    }
}

/// Lines across the end of the buffer of 65,536 bytes.
fn buffer_ends(inputs: &mut Vec<Vec<u8>>) {
    let calls = b"put 17 7\r\nstep writer\nshow";
    for length in 65_500..=65_540 {
        let filler = vec![b'\n'; length];
        inputs.push([b"panel 8 4\n", filler.as_slice(), calls].concat());
        let comment = vec![b'#'; length];
        inputs.push([b"panel 8 4\n", comment.as_slice(), b"\n", calls].concat());
    }
}

/// Line numbers of up to six digits, and more output than a buffer holds.
fn many_lines() -> Vec<u8> {
    let lines = (1..=120_000).map(|n| if n % 3 == 0 { "step writer\n" } else { "\n" });
    format!("panel 8 4\nput 1 5\n{}", lines.collect::<String>()).into_bytes()
}
