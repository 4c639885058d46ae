//! The commands and their help.

use crate::args::Spec;

pub const TOP: &str = "\
sangueko: stores of files in folders, over the proved library

  sangueko new FOLDER                    make a store
  sangueko enter FOLDER OBJECT           add a file, which has a number and no name
  sangueko write FOLDER OBJECT [FILE]    write a file or standard input into it
  sangueko batch FOLDER [LIST]           make many small writes, to one file or several
  sangueko read FOLDER OBJECT            give its bytes, or those of many ranges
  sangueko grow FOLDER OBJECT SIZE       make it longer
  sangueko settle FOLDER                 let retired blocks go
  sangueko fill FOLDER                   tell how full the store is
  sangueko show FOLDER                   tell what it holds, with a picture of the blocks
  sangueko check FOLDER                  test all of it, and say in words what is wrong
  sangueko data FOLDER OBJECT            tell which parts of a file hold data, with a picture
  sangueko flags FOLDER OBJECT           count the bins of a file of flags
  sangueko explain N                     tell what refusal N means

`sangueko COMMAND --help` tells a command's options. A folder holds the files image, head,
cards, extents, groups, used and retired, the bytes of document 01's buffers; docs/TOOL.md
says more.

Exit codes: 0 done; 1 to 19 the refusal of that number, and nothing was changed by the
refused call, or by the refused write of a batch; 64 the command line is wrong; 66 the folder
is not a store, or already one; 74 reading or writing failed; 75 another process has the
folder (--no-wait).
Results go to standard output, errors to standard error.
";

pub const ARCHIVE: &str = "--archive";
const NO_WAIT: &str = "--no-wait";
const JSON: &str = "--json";

pub const COMMANDS: [Spec; 13] = [
    Spec {
        name: "new",
        words: &["FOLDER"],
        options: &["--blocks", "--reserved", "--cards", "--extents", "--groups", "--uuid"],
        switches: &[],
        help: "\
Makes a store in FOLDER, which must not be there yet, or be empty. The sizes cannot be changed later.

  --blocks N     blocks of 4,096 bytes, 1 to 65,536 (4,096, which are 16 MiB)
  --reserved N   blocks at the start that files never get (0)
  --cards N      places for files (64)
  --extents N    places for runs of blocks (as many as blocks, which is always enough)
  --groups N     places for checksums, one for each 16 MiB of a file that hold data
                 (one for each card and one more for each 4,096 blocks begun)
  --uuid HEX     32 hexadecimal digits (random)
",
    },
    Spec {
        name: "enter",
        words: &["FOLDER", "OBJECT"],
        options: &["--time"],
        switches: &[NO_WAIT],
        help: "\
Adds the file of number OBJECT, with no bytes. It is created, and has last changed, at the time given.

  --time S       seconds since 1970, with up to nine digits after a point (now)
  --no-wait      do not wait for another process, end with 75
",
    },
    Spec {
        name: "write",
        words: &["FOLDER", "OBJECT", "[FILE]"],
        options: &["--at", "--time"],
        switches: &[ARCHIVE, NO_WAIT],
        help: "\
Writes FILE, or standard input where it is not named or `-`, into the file OBJECT, over what is there and past its
end. The time is that of its last change; when it was created stays as it is. A call of the library takes at most
1,048,576 bytes: more bytes are several calls, each stored by itself. Where one of them is refused, those before it stay,
and the message says how many bytes they were.

  --at OFFSET    the first byte to write (0)
  --archive      for a file that is read end to end: a unit keeps old blocks only at two runs or fewer, and not at four, so
                 that it lies in fewer pieces; a small write then takes up to 16 blocks, and 13 can come sooner
  --time S       seconds since 1970, with up to nine digits after a point (now)
  --no-wait      do not wait for another process, end with 75

The same bytes are stored with --archive and without, and one file may be written by both in any order. The new blocks of
a unit of 65,536 bytes lie side by side where so many free ones do, and else one by one; `sangueko settle` before a write
makes longer gaps. docs/TOOL.md says more.
",
    },
    Spec {
        name: "batch",
        words: &["FOLDER", "[LIST]"],
        options: &["--time"],
        switches: &[NO_WAIT],
        help: "\
Makes the writes of LIST, or of standard input where it is not named or `-`, in the order in which they are listed and
all with one time, that of the files' last change. A line OBJECT OFFSET BYTES is a write; BYTES are two hexadecimal
digits for each byte, or @FILE for all that a file holds, 1,048,576 bytes at most. Empty lines and lines that begin with
# are passed over. A line that is wrong ends it before anything is written.

  --time S       seconds since 1970, with up to nine digits after a point (now)
  --no-wait      do not wait for another process, end with 75

A call of the library makes up to 64 writes, and is stored by itself. It stops at the first write that is refused: those
before it stay, those behind it are not made, and the message names the line and says how many are stored. Each is as
`sangueko write` without --archive.
",
    },
    Spec {
        name: "read",
        words: &["FOLDER", "OBJECT"],
        options: &["--at", "--length", "--ranges", "--ranges-from", "--out"],
        switches: &[NO_WAIT],
        help: "\
Gives the bytes of the file OBJECT: all, a part, or those of many ranges, one after another as they are listed. Every
unit is tested before its bytes are given out.

  --at OFFSET         the first byte (0)
  --length N          how many at most (all to the end)
  --ranges LIST       the ranges OFFSET:LENGTH,OFFSET:LENGTH,.. instead; numbers have no commas here
  --ranges-from FILE  the same from a file, or from standard input for `-`: a line OFFSET LENGTH for each range; empty
                      lines and lines that begin with # are passed over
  --out FILE          into FILE, which changes only if all could be read (standard output)
  --no-wait           do not wait for another process, end with 75

A call of the library makes up to 64 reads, in which a unit is tested once. A range that ends past the file's end gives
the bytes that there are, and a line on standard error says so.
",
    },
    Spec {
        name: "grow",
        words: &["FOLDER", "OBJECT", "SIZE"],
        options: &["--time"],
        switches: &[NO_WAIT],
        help: "\
Makes the file OBJECT SIZE bytes long; the new bytes are zero and take hardly any room. Files do not get shorter. The
time is that of its last change; when it was created stays as it is.

  --time S       seconds since 1970, with up to nine digits after a point (now)
  --no-wait      do not wait for another process, end with 75
",
    },
    Spec {
        name: "settle",
        words: &["FOLDER"],
        options: &[],
        switches: &[NO_WAIT],
        help: "\
Lets the retired blocks go, which writes have taken the place of, and tells how many they were. They are free then, so
that more blocks lie side by side for the writes that follow.

  --no-wait      do not wait for another process, end with 75
",
    },
    Spec {
        name: "fill",
        words: &["FOLDER"],
        options: &[],
        switches: &[JSON, NO_WAIT],
        help: "\
Tells how full the store is: of the blocks that are not reserved the used ones, retired ones among them, times
1,000, divided by how many are not reserved, rounded down. Where every block is reserved it is 0.

  --json         for scripts
  --no-wait      do not wait for another process, end with 75
",
    },
    Spec {
        name: "show",
        words: &["FOLDER"],
        options: &["--svg", "--columns"],
        switches: &[JSON, NO_WAIT, "--all"],
        help: "\
Tells what the store holds: head, fullness, files and when they were created and last changed, a picture of the blocks,
extents and groups. In colour on a terminal (unless NO_COLOR is set), else in letters.

  --svg FILE     the picture as an SVG file too, with every block
  --columns N    width of bar and picture, 8 to 512 (64)
  --all          all records, however many
  --json         for scripts, with all records and the map as letters
  --no-wait      do not wait for another process, end with 75
",
    },
    Spec {
        name: "check",
        words: &["FOLDER"],
        options: &[],
        switches: &[JSON, NO_WAIT],
        help: "\
Tests the store as every call does (refusals 1 and 2) and reads every unit of every file (9 to 12). Says which
rule is broken, in which record and bytes, and which units are damaged. The exit code is that of the first.

  --json         for scripts
  --no-wait      do not wait for another process, end with 75
",
    },
    Spec {
        name: "data",
        words: &["FOLDER", "OBJECT", "[FIRST]", "[UNITS]"],
        options: &["--svg", "--columns"],
        switches: &[JSON, NO_WAIT, "--all"],
        help: "\
Tells which units of the file OBJECT, of 65,536 bytes each, hold data, as stretches of units that follow one another, and
how many were never written: those read as zeros. FIRST is the first unit to look at (0), UNITS how many (all to the end). The
bytes are not read, and not tested.

  --svg FILE     the picture as an SVG file too, with every unit of up to 65,536
  --columns N    width of the picture, 8 to 512 (64)
  --all          all stretches, however many
  --json         for scripts, with all stretches
  --no-wait      do not wait for another process, end with 75
",
    },
    Spec {
        name: "flags",
        words: &["FOLDER", "OBJECT"],
        options: &["--bins"],
        switches: &[JSON, NO_WAIT],
        help: "\
For a file that holds a bit for each coverage bin: how many bins count (ones), how many are excluded (zeros), and how
many of those lie in units that were never written, which are not read. Bin n is bit n mod 8 of byte n div 8, from the low
bit.

  --bins N       the first N bins (all bits of the file)
  --json         for scripts
  --no-wait      do not wait for another process, end with 75
",
    },
    Spec {
        name: "explain",
        words: &["N"],
        options: &[],
        switches: &[],
        help: "\
Tells what refusal N, 1 to 19, means and what can be done.
",
    },
];
