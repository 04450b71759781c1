//! What `--help` says.

pub const PROGRAM: &str = "\
taripomune: circle columns over the Mersenne prime P = 2^31 - 1

  taripomune run IN_DIR OUT_DIR            interpolates every column file of a folder
  taripomune interpolate IN OUT            a column file's values become coefficients
  taripomune evaluate IN OUT               its coefficients become values
  taripomune verify VALUES COEFFICIENTS    whether these coefficients give these values
  taripomune total VALUES                  the total of a column, exact and modulo P
  taripomune demo                          sample balances there and back
  taripomune bench [DIR]                   the library's speed beside the Rust's
  taripomune help COMMAND                  more about a command
  taripomune --version                     the versions of the program and of the library's interface

Who proves needs run for a day of columns, and interpolate and evaluate for one of them. Who checks, as a bank does, needs
verify for what it was given and total for what it books.

  --json     for each column and at the end a line of JSON on standard output, and nothing else there
  --quiet    nothing on standard output, and on standard error only why the command couldn't be done
  --         what follows is no option

A column file is 2^n words below P, n from 1 to 30, each as four bytes, the lowest first. Position p of a value column
belongs to element bit_reverse_index(p, n) of the canonic circle domain of log size n.

Exit status:
  0  done; of a run: every column was accepted
  1  could not go on: something can't be written, a folder can't be used, another run is writing to it
  2  wrong arguments
  3  finished, but a column was refused
  4  finished, but a column couldn't be read or was passed over
  5  nothing to do: IN_DIR has no column files
  6  a check failed: verify says no, or a total isn't 2^n times coefficient 0
  7  stopped by a signal before all columns were done";

pub const TRANSFORM: &str = "\
taripomune interpolate IN OUT
taripomune evaluate IN OUT

Reads the column file IN and writes the coefficients of its values, or the values of its coefficients, to OUT. OUT
appears whole or not at all: it is written under another name beside OUT, synced and renamed. It has the permissions of IN
to read and to write, and no others. IN and OUT may be the same file. If IN is refused, a line on standard error has the
refusal's number, its position and a sentence, the exit status is 3, and OUT stays as it was.";

pub const RUN: &str = "\
taripomune run [OPTION..] IN_DIR OUT_DIR

Interpolates every column file of IN_DIR to a file of the same name in OUT_DIR, which is made if it isn't there. A refused
file has no file in OUT_DIR, and the run goes on; so it does past what can't be read or isn't a file to take.

  --evaluate             evaluates them
  --max-log-size N       passes over files of more than 2^N words: 20 unless told otherwise, 30 at most
  --jobs N               uses N threads, each with a column and scratch of its own in memory: 1 unless told otherwise
  --watch                stays, and takes what is put into IN_DIR later
  --heartbeat SECONDS    how often a run that watches tells that it is there: 60 unless told otherwise

Folders, names that begin with a dot and the report of another run aren't taken. Links aren't followed. OUT_DIR must be
empty or have been OUT_DIR before; no other program should write there.

At the end taripomune-report.tsv in OUT_DIR has a line for each column file, tabs between: name; length in bytes as found;
'accepted', 'number N, position I' of the refusal, 'unreadable', 'passed over', or 'left' if a signal came before;
milliseconds; why. Characters of a name that don't show are written as \\xHH. On a terminal a line shows how far it is.

It may be stopped at any moment and started again: it goes on with the columns that aren't done, and does those again
whose files aren't what they were, by their length, times and inode. OUT_DIR never holds a half-written column. After
SIGTERM or SIGINT the columns at hand are finished and the report is written; a second signal ends it at once. The results
of files that were taken out of IN_DIR or can't be read now stay. Put columns into IN_DIR whole, by a rename: a file
written to while it is read is told as unreadable only if that shows in its length or times. With --watch a file is taken
when it was the same for half a second.

While it watches, a line on standard error and a message to the socket that NOTIFY_SOCKET names, as of systemd, tell at
each heartbeat that it is there.";

pub const VERIFY: &str = "\
taripomune verify VALUES COEFFICIENTS

Says whether the column file COEFFICIENTS has the coefficients that give the values of the column file VALUES: for each
list of values there is exactly one. If not, the exit status is 6, and a line has the first position that differs, what
the coefficients give there and what VALUES has.";

pub const TOTAL: &str = "\
taripomune total VALUES

Gives the exact total of the words of a column file, and the total modulo P. It interpolates the column and checks that 2^n
times coefficient 0 is the same modulo P; if not, the exit status is 6.";

pub const DEMO: &str = "\
taripomune demo

Makes a day of sample balances in a folder for temporary files, 24 columns of 2^20 cards, interpolates and evaluates
them as 'taripomune run' does, and checks that they return and that 2^20 times coefficient 0 is their total.";

pub const BENCH: &str = "\
taripomune bench [DIR]

Measures evaluation, interpolation, batch inversion, bit reversal, to_point and some more against the Rust, both in one
run, and prints a table. With DIR it also writes benchmark.md and benchmark.svg there. It takes some minutes, and a
program that was built with the feature 'baselines', which needs the sources of stwo.";
