#!/usr/bin/env python3
"""Runs the built am_tool as a user meets it, and compares its status and all that it prints.

    tests/command_line.py [PROGRAM]

PROGRAM is crates/am_tool/out/am_tool if it isn't given; ./am_tool and rt ci build it. Prints each case that
fails, and at the end how many passed. The texts are written by hand: those of am_tool from docs/FORMATS.md,
those of the command line as clap words them.
"""

import os
import re
import resource
import signal
import sys
import tempfile

from lib.error_lines import EARLY
from lib.members import choose, free_ports, run, run_at_terminal
from lib.row_faults import fault_of
from lib.samples import ENTRY, FIRST, ORDERS, ORDERS_OUTPUT, RESTARTED, RESTARTED_OUTPUT, SECOND
from lib.tally import check, compare, finish, try_each
from lib.versions import entry, number, of_later, row, silence
from lib.wire import delimited, field, fields_of

# FIRST with an old comment, and ENTRY with its hashes one by one.
COMMENTED = bytes.fromhex("2b0a240a0161120812036a6f621a01781a02080a220208642a02080a3a090a016f120268691a00120308c801")
UNPACKED = ENTRY.replace(bytes.fromhex("32020102"), bytes.fromhex("30013002"))

# Versions of two keys.
TWO_KEYS = SECOND + SECOND.replace(b"\x01a", b"\x01b")

FOLD = ["fold", "--state", "sil", "--now", "0"]
SHOW = ["show", "--state", "sil", "--now"]
SHOW_LOG = ["show", "--state", "nfl", "--now"]

HELP = """The state that instances of Alertmanager share

Usage: am_tool <COMMAND>

Commands:
  replay    Plays a schedule on a cluster, and prints what its members answer; so does am_tool without words
  fold      Reads a row of versions, and writes the one that counts of each key, in key order
  show      Reads a snapshot, and prints a line for each version that is live, in key order
  diff      Reads what several replicas hold, and prints in key order at which keys they differ, and which of them counts
  pull      Reads a state of a running Alertmanager by its gossip, and writes it as a snapshot, in key order
  push      Sends a running Alertmanager by its gossip those of the versions on standard input that it lacks, and tells which it doesn't hold then
  mend      Asks running Alertmanagers by their gossip what they hold, tells how they differ, and with --apply sends each what it lacks
  instance  Runs one member: serves the silences of API v2 to people and tools, and frames to its peers
  help      Print this message or the help of the given subcommand(s)

Options:
  -h, --help     Print help
  -V, --version  Print version
"""

REPLAY_HELP = """Plays a schedule on a cluster, and prints what its members answer; so does am_tool without words

Usage: am_tool replay [OPTIONS]

Options:
      --picture <FILE>  Also draws what was played, in this file as SVG; a schedule of over 2,000 steps is refused then
  -h, --help            Print help
"""

FOLD_HELP = """Reads a row of versions, and writes the one that counts of each key, in key order

Usage: am_tool fold [OPTIONS] --state <STATE> [FILE]...

Arguments:
  [FILE]...  Files with rows, which are folded together; '-' is standard input, which is read where no file is named

Options:
      --state <STATE>       The state that the row is of: silences or the notification log [possible values: sil, nfl]
      --now <MOMENT>        The moment of taking, in nanoseconds since 1970 or as 2026-11-26T12:00:00Z; with --log it may be left out
      --log                 Joins each file with the logs beside it, FILE.log and FILE.log.old, which a member with --log keeps
      --most-bytes <BYTES>  How many bytes each input and the result may have, 1 to 4294967295 [default: 67108864]
      --keep-unknown        Keeps the fields of versions that aren't known here, as those of a later Alertmanager; without it, they are dropped
  -h, --help                Print help

Examples:
  cat am1/silences am2/silences | am_tool fold --state sil --now 0 > silences
  am_tool fold --log --state sil a.sil > silences
"""

SHOW_HELP = """Reads a snapshot, and prints a line for each version that is live, in key order

Usage: am_tool show [OPTIONS] --state <STATE> [FILE]

Arguments:
  [FILE]  The file of the snapshot; '-' is standard input, which is read where no file is named

Options:
      --state <STATE>  The state that the snapshot is of: silences or the notification log [possible values: sil, nfl]
      --now <MOMENT>   The moment of the view, in nanoseconds since 1970 or as 2026-11-26T12:00:00Z; without it, the clock's
      --json           Prints a list in JSON, on one line: silences as API v2 shows them, or entries of the log
      --log            Joins each file with the logs beside it, FILE.log and FILE.log.old, which a member with --log keeps
      --keep-unknown   Keeps the fields of versions that aren't known here, as those of a later Alertmanager; without it, they are dropped
  -h, --help           Print help

Examples:
  am_tool show --state sil < silences
  am_tool show --state sil --log a.sil
  am_tool show --state sil --now 2026-11-26T12:00:00Z --json < silences | jq -r '.[].comment'
"""

DIFF_HELP = """Reads what several replicas hold, and prints in key order at which keys they differ, and which of them counts

Usage: am_tool diff [OPTIONS] --state <STATE> <SOURCE>...

Arguments:
  <SOURCE>...  NAME=FILE, cut at its first '=', or FILE, which is then its own name; '-' is standard input, gossip://HOST:PORT an Alertmanager asked by its gossip, and http://HOST:PORT a server, perhaps with a path; 2 to 16 of them

Options:
      --state <STATE>   The state that the sources are of: silences or the notification log [possible values: sil, nfl]
      --now <MOMENT>    The moment of the views, in nanoseconds since 1970 or as 2026-11-26T12:00:00Z; without it, the clock's
      --held            Compares all that the sources hold, what has expired too, and not only what they show
      --long            Also prints below each line the matchers, author and comment of a silence and what changed, or receiver and group of an entry
      --json            Prints the differences as a list in JSON, on one line, in place of the lines
      --prometheus      Prints figures in Prometheus' text format in place of the lines: of each source at how many keys it holds none (missing) or a lesser version (behind), and the moment
      --time-limit <S>  For how many seconds a connection to a server may last, 1 to 3600 [default: 5]
      --log             Joins each file with the logs beside it, FILE.log and FILE.log.old, which a member with --log keeps
  -h, --help            Print help

Of each key that differs there is a line for each group of sources that hold the same there: first those that have the
greatest version, which counts, then those that are behind, and by what (update, expiry, bytes or unknown fields), and
then those that hold nothing.

By gossip://HOST:PORT, where it listens for other replicas, an Alertmanager tells all it holds, so it is compared as its files
are, and takes no notice.

A server is a member or an Alertmanager, at an address of IPv4, of IPv6 in brackets, or localhost: what it lists at
/api/v2/silences, below the path, is compared. Beside a server all sources are compared by what API v2 shows of them: moments are cut to
milliseconds, and a silence counts until its end.

The status is 0 where nothing is different, and 5 where something is.

Examples:
  am_tool diff --state nfl a=gossip://10.0.0.1:9094 b=gossip://10.0.0.2:9094
  am_tool diff --state sil a=http://127.0.0.1:9093 b=http://10.0.0.2:9093 c=c.sil
  am_tool diff --state sil --long a=a.sil b=b.sil c=c.sil
  am_tool diff --state sil --log a=a.sil b=b.sil
  ssh b cat b.nfl | am_tool diff --state nfl --held a=a.nfl b=-
  am_tool diff --state sil --json a=a.sil b=b.sil | jq -r '.[].key.id'
  am_tool diff --state sil --prometheus a=gossip://10.0.0.1:9094 b=gossip://10.0.0.2:9094
"""
REPLICA_HELP = """  <REPLICA>  gossip://HOST:PORT, where the replica listens for others (--cluster.listen-address), with an address of IPv4, of IPv6 in brackets, or localhost
"""

PULL_HELP = f"""Reads a state of a running Alertmanager by its gossip, and writes it as a snapshot, in key order

Usage: am_tool pull [OPTIONS] --state <STATE> <REPLICA>

Arguments:
{REPLICA_HELP}
Options:
      --state <STATE>   The state that is read: silences or the notification log [possible values: sil, nfl]
      --time-limit <S>  For how many seconds a connection to the replica may last, 1 to 3600 [default: 10]
  -h, --help            Print help

The replica is asked as other replicas ask it, and takes no notice: no member is added to its cluster. A cluster with TLS between
its replicas is not asked.

Examples:
  am_tool pull --state sil gossip://10.0.0.1:9094 > a.sil
  am_tool pull --state nfl gossip://localhost:9094 | am_tool show --state nfl
"""

PUSH_HELP = f"""Sends a running Alertmanager by its gossip those of the versions on standard input that it lacks, and tells which it doesn't hold then

Usage: am_tool push [OPTIONS] --state <STATE> <REPLICA>

Arguments:
{REPLICA_HELP}
Options:
      --state <STATE>   The state that the versions are of: silences or the notification log [possible values: sil, nfl]
      --now <MOMENT>    The moment, in nanoseconds since 1970 or as 2026-11-26T12:00:00Z; without it, the clock's
      --dry-run         Sends nothing, and tells what it would send
      --time-limit <S>  For how many seconds a connection to the replica may last, 1 to 3600 [default: 10]
  -h, --help            Print help

The replica is asked first what it holds. What is greater in the input is sent, and what the replica lacks, each key once, with
the bytes that were read; a version that was updated after the moment is not, since it would block others until then. Then the
replica is asked again. Lines tell which versions were sent, which are later than the moment, and which the replica refused: by
expiry, which is past, by tie, where what it holds was updated at the same moment, or by replica, which has another cause.

The status is 0 where the replica holds all of them or greater ones, and 5 where it doesn't. With --dry-run it is 5 where
something would be sent.

Examples:
  cat a.sil b.sil c.sil | am_tool fold --keep-unknown --state sil --now 0 | am_tool push --state sil gossip://10.0.0.1:9094
  am_tool push --state nfl --dry-run gossip://10.0.0.1:9094 < all.nfl
"""

INSTANCE_HELP = r"""Runs one member: serves the silences of API v2 to people and tools, and frames to its peers

Usage: am_tool instance [OPTIONS] --name <NAME> --listen <ADDRESS:PORT> --sil <FILE> --nfl <FILE>

Options:
      --name <NAME>                  Its name among the members, 1 to 255 bytes
      --listen <ADDRESS:PORT>        The address at which it listens, for HTTP and for the frames of peers alike, as 10.0.0.1:9093 or [::1]:9093; a port alone is one of 127.0.0.1
      --peer <NAME=ADDRESS:PORT>     Another member and the address at which it listens, or its port alone on 127.0.0.1, cut at the last '='; any number of times
      --peers-listen <ADDRESS:PORT>  The address at which it listens for the frames of peers, and for nothing else; --listen then hears no frames
      --secret <FILE>                The file of a secret that all members have, 16 to 4096 bytes: frames go out sealed by it, and others are refused
      --open-peers                   Hears frames without --secret also at an address that other machines reach: whoever reaches it can change silences
      --gossip <NAME=ADDRESS:PORT>   An Alertmanager beside which it runs, and the address of its gossip (--cluster.listen-address), or its port alone on 127.0.0.1: each holds what the other does; any number of times, each by a name of its own
      --patterns <DIALECT>           Which regular expressions patterns are: regex, or re2, as an Alertmanager means them, which refuses more posts; without it re2 with --gossip, and else regex
      --keep-unknown                 Keeps the fields of versions that aren't known here, as those of a later Alertmanager, and sends them on; with --gossip it always does, and without either they are dropped
      --host <NAME>                  A name by which it is asked beside 127.0.0.1, localhost and the address of --listen, as that of a proxy; any number of times. Under any other it answers 403, and so it does the page of another site
      --sil <FILE>                   The file of the silences; where there is none, it holds none
      --nfl <FILE>                   The file of the notification log; where there is none, it is empty
      --retention <S>                For how many seconds a silence is kept after its end, 1 to 999999999 [default: 432000]
      --peer-timeout <S>             For how many seconds members wait for one another before they notify, 1 to 999999999 [default: 15]
      --connections <N>              After how many connections it saves both files and ends, 1 to 18446744073709551615; without it, it goes on
      --time-limit <S>               For how many seconds a connection may last, of a client or to a peer, 1 to 3600 [default: 5]
      --decide-limit <S>             How many seconds a decision may take once its turn has come, 1 to 3600; then alerts that aren't held against all silences count as not muted [default: 10]
      --at-once <N>                  How many connections it serves at once, 1 to 65535; one that comes beyond gets the place of the one on which nothing has moved for longest [default: 256]
      --waiting <N>                  How many requests for a decision wait for its turn, 1 to 65535, and no more than half of --at-once; one that comes beyond is answered 503 [default: 128]
      --most-unfinished <BYTES>      How many bytes of unfinished requests and frames it keeps in all, 1 to 18446744073709551615; beyond, the connection that has most of them is closed [default: 134217728]
      --most-bytes <BYTES>           How many bytes a file may have, of the silences or of the log, 1 to 4294967295; a post for which there is no room is answered 500 [default: 1073741824]
      --lines-a-second <N>           How many lines of one kind of fault it prints in a second, 1 to 65535; further ones are counted in a line [default: 10]
      --tick-every <S>               Ticks by itself every so many seconds, 1 to 999999999: drops what has expired, and saves both files
      --trust-clock                  Ticks even where the clock went ahead by more than --retention in a moment; without it, it then drops nothing, and says so each minute
      --pull-every <S>               Asks each peer for all it has every so many seconds, 1 to 999999999, and says at the start which spread and flight time that keeps
      --save-every <S>               Saves both files every so many seconds, 1 to 999999999, where something may have changed
      --gossip-every <S>             Asks each --gossip for all it has every so many seconds, 1 to 999999999, and gives back what it lacks; new versions go to it at once [default: 60]
      --log                          Keeps a log beside each file, and has all it takes there, on the disk, before it is answered or sent on
      --pull-first                   Answers no request, and no peer that asks for all, before a peer or a --gossip has sent all it has
      --pull-first-limit <S>         For how many seconds --pull-first waits at the most, 1 to 999999999 [default: 30]
      --stop-at-input-end            Saves both files and ends where standard input ends
      --least-repeat <S>             The smallest repeat interval in seconds, 1 to 999999999: warns where --pull-every asks for more
  -h, --help                         Print help

Without --tick-every, what has expired is dropped, and both files are saved, when a peer sends a Tick frame, and when the
member ends: after --connections, at --stop-at-input-end, or by SIGTERM or SIGINT where it was started with them blocked:
  env --block-signal=TERM --block-signal=INT am_tool instance --name a --listen 9101 --peer b=9102 \
    --sil a.sil --nfl a.nfl --tick-every 60 --pull-every 60 --save-every 5 --pull-first
Three machines, a on 10.0.0.1, b on 10.0.0.2 and c on 10.0.0.3, each with the same file of a secret; this is a:
  head -c 32 /dev/urandom | base64 > members.secret && chmod 600 members.secret
  am_tool instance --name a --listen 127.0.0.1:9093 --peers-listen 10.0.0.1:9094 --secret members.secret \
    --peer b=10.0.0.2:9094 --peer c=10.0.0.3:9094 --sil a.sil --nfl a.nfl --tick-every 60 --pull-every 60 --pull-first
Beside an Alertmanager that gossips on port 9094 of this machine:
  am_tool instance --name a --listen 9101 --gossip am=9094 --sil a.sil --nfl a.nfl --tick-every 60 --save-every 5
The same, with patterns that an Alertmanager may not read, which it is then not given:
  am_tool instance --name a --listen 9101 --gossip am=9094 --patterns regex --sil a.sil --nfl a.nfl --tick-every 60
A Tick is a greeting with a peer's name and the bytes 4 and 0, sent to the port; for a peer b:
  printf '\0\1b\4\0' >/dev/tcp/127.0.0.1/PORT
"""

# The line behind the last of ORDERS, and how many bytes a schedule has at most.
NEXT = ORDERS.count(b"\n") + 1
MOST = 1 << 24

INSTANCE_USAGE = (
    "\nUsage: am_tool instance --name <NAME> --listen <ADDRESS:PORT> --sil <FILE> --nfl <FILE>\n"
    "\nFor more information, try '--help'.\n"
)

USAGE = "\nUsage: am_tool <COMMAND>\n\nFor more information, try '--help'.\n"
FOLD_USAGE = "\nUsage: am_tool fold [OPTIONS] --state <STATE> [FILE]...\n\nFor more information, try '--help'.\n"
REPLAY_USAGE = "\nUsage: am_tool replay [OPTIONS]\n\nFor more information, try '--help'.\n"
SHOW_USAGE = "\nUsage: am_tool show [OPTIONS] --state <STATE> [FILE]\n\nFor more information, try '--help'.\n"
DIFF_USAGE = "\nUsage: am_tool diff [OPTIONS] --state <STATE> <SOURCE>...\n\nFor more information, try '--help'.\n"

TWICE = "error: the argument '{}' cannot be used multiple times\n" + FOLD_USAGE
FOLD_WANTS = FOLD_USAGE.replace("[OPTIONS] --state <STATE>", "--state <STATE> --now <MOMENT>")
MISSING = "error: the following required arguments were not provided:\n{}" + FOLD_WANTS
UNEXPECTED = "error: unexpected argument '{}' found\n"
AS_VALUE = "\n  tip: to pass '{0}' as a value, use '-- {0}'\n"
BAD_NOW = (
    "error: invalid value for '--now <MOMENT>': nanoseconds since 1970 are wanted, below 2^64 and in digits alone, or a moment as"
    " 2026-11-26T12:00:00Z\n" + FOLD_USAGE
)
BAD_MOST_BYTES = (
    "error: invalid value '{0}' for '--most-bytes <BYTES>': {0} is not in 1..=4294967295\n\nFor more information, try '--help'.\n"
)
SIGNED = "error: invalid value for '--most-bytes <BYTES>': a whole number is wanted, in digits alone\n" + FOLD_USAGE
BAD_SOURCES = "error: invalid values for '<SOURCE>...': {}\n" + DIFF_USAGE
BAD_STATE = (
    "error: invalid value '{}' for '--state <STATE>'\n"
    "  [possible values: sil, nfl]\n\nFor more information, try '--help'.\n"
)
NO_STATE = (
    "error: a value is required for '--state <STATE>' but none was supplied\n"
    "  [possible values: sil, nfl]\n\nFor more information, try '--help'.\n"
)
UNKNOWN = "error: unrecognized subcommand '{}'\n"
NOT_UTF8 = "am_tool: a word of the command line is not UTF-8\n"

# Words and standard input; status, standard output and standard error.
CASES = [
    # without words a schedule is played
    ([], ORDERS, 0, ORDERS_OUTPUT, ""),
    ([], b"", 1, b"", "am_tool: Schedule Cluster 1\n"),
    (["replay"], ORDERS, 0, ORDERS_OUTPUT, ""),
    (["replay"], b"cluster 1 1 a", 0, b"calm a\n", ""),
    # faults of a schedule, of which nothing is written
    (["replay"], ORDERS + b"# \xff\n", 1, b"", f"am_tool: Schedule NotUtf8 {NEXT}\n"),
    (["replay"], ORDERS + b"cluster 1 1 a\n", 1, b"", f"am_tool: Schedule Cluster {NEXT}\n"),
    (["replay"], ORDERS + b"at 46 a\n", 1, b"", f"am_tool: Schedule Words {NEXT}\n"),
    (["replay"], ORDERS + b"at 46s a show\n", 1, b"", f"am_tool: Schedule Number {NEXT}\n"),
    (["replay"], ORDERS + b"\nat 46 d show", 1, b"", f"am_tool: Schedule Name {NEXT + 1}\n"),
    # one of the most bytes is played, and one of a byte more is not, whatever the bytes say
    (["replay"], ORDERS + b"#" * (MOST - len(ORDERS)), 0, ORDERS_OUTPUT, ""),
    (["replay"], b"#" * MOST, 1, b"", "am_tool: Schedule Cluster 2\n"),
    (["replay"], b"#" * (MOST + 1), 1, b"", "am_tool: TooLarge\n"),
    # both flags in both orders, parted by a blank or by `=`
    (FOLD, FIRST + SECOND, 0, SECOND, ""),
    (FOLD, SECOND + FIRST, 0, SECOND, ""),
    (FOLD, FIRST + SECOND + FIRST, 0, SECOND, ""),
    (FOLD, b"", 0, b"", ""),
    (["fold", "--now", "0", "--state", "sil"], FIRST + SECOND, 0, SECOND, ""),
    (["fold", "--now=0", "--state=nfl"], ENTRY + ENTRY, 0, ENTRY, ""),
    (["fold", "--state", "nfl", "--now", "0"], FIRST, 1, b"", "am_tool: Wire WrongType 13\n"),
    # several snapshots one after the other; late versions are folded too
    (["fold", "--state", "sil", "--now", "300000000000"], SECOND + FIRST + FIRST, 0, SECOND, ""),
    # help
    (["--help"], b"", 0, HELP.encode(), ""),
    (["-h"], b"", 0, HELP.encode(), ""),
    (["help"], b"", 0, HELP.encode(), ""),
    (["replay", "--help"], b"", 0, REPLAY_HELP.encode(), ""),
    (["help", "replay"], b"", 0, REPLAY_HELP.encode(), ""),
    (["fold", "--help"], b"", 0, FOLD_HELP.encode(), ""),
    (["fold", "-h"], b"", 0, FOLD_HELP.encode(), ""),
    (["help", "fold"], b"", 0, FOLD_HELP.encode(), ""),
    (FOLD + ["--help"], FIRST, 0, FOLD_HELP.encode(), ""),
    # a flag twice, or none
    (["replay", "--picture", "a", "--picture", "b"], b"", 2, b"", TWICE.format("--picture <FILE>").replace(FOLD_USAGE, REPLAY_USAGE)),
    (FOLD + ["--state", "sil"], b"", 2, b"", TWICE.format("--state <STATE>")),
    (FOLD + ["--now", "1"], b"", 2, b"", TWICE.format("--now <MOMENT>")),
    (["fold"], b"", 2, b"", MISSING.format("  --state <STATE>\n  --now <MOMENT>\n")),
    (["fold", "--now", "0"], b"", 2, b"", MISSING.format("  --state <STATE>\n")),
    (["fold", "--state", "sil"], b"", 2, b"", MISSING.format("  --now <MOMENT>\n")),
    # moments
    (["fold", "--state", "sil", "--now", "18446744073709551615"], FIRST, 0, FIRST, ""),
    (["fold", "--state", "sil", "--now", "0000000000000000000000001"], FIRST, 0, FIRST, ""),
    (["fold", "--state", "sil", "--now", "18446744073709551616"], FIRST, 2, b"", BAD_NOW),
    (["fold", "--state", "sil", "--now", "+5"], FIRST, 2, b"", BAD_NOW),
    (["fold", "--state", "sil", "--now=-5"], FIRST, 2, b"", BAD_NOW),
    (["fold", "--state", "sil", "--now", ""], FIRST, 2, b"", BAD_NOW),
    (["fold", "--state", "sil", "--now", " 5"], FIRST, 2, b"", BAD_NOW),
    (["fold", "--state", "sil", "--now", "1e3"], FIRST, 2, b"", BAD_NOW),
    (["fold", "--state", "sil", "--now", "0x10"], FIRST, 2, b"", BAD_NOW),
    (["fold", "--state", "sil", "--now", "\u0665"], FIRST, 2, b"", BAD_NOW),
    (["fold", "--state", "sil", "--now", "2026-11-26T12:00:00+01:00"], FIRST, 0, FIRST, ""),
    (["fold", "--state", "sil", "--now", "2026-11-26T12:00:00.123456789Z"], FIRST, 0, FIRST, ""),
    (["fold", "--state", "sil", "--now", "2026-11-26"], FIRST, 2, b"", BAD_NOW),
    (["fold", "--state", "sil", "--now", "2026-11-31T12:00:00Z"], FIRST, 2, b"", BAD_NOW),
    # states
    (["fold", "--state", "mem", "--now", "0"], FIRST, 2, b"", BAD_STATE.format("mem")),
    (["fold", "--state", "SIL", "--now", "0"], FIRST, 2, b"", BAD_STATE.format("SIL")),
    (["fold", "--now", "0", "--state"], FIRST, 2, b"", NO_STATE),
    # unknown words
    (FOLD + ["extra"], b"", 3, b"", "am_tool: extra File NotFound\n"),
    # directories, of which a member says the same
    (FOLD + ["/"], b"", 3, b"", "am_tool: / NotAFile\n"),
    (SHOW + ["0", "/"], b"", 3, b"", "am_tool: / NotAFile\n"),
    (["diff", "--state", "sil", "a=/", "b=-"], b"", 3, b"", "am_tool: a NotAFile\n"),
    # limits
    (FOLD + ["--most-bytes", "33"], FIRST, 0, FIRST, ""),
    (FOLD + ["--most-bytes", "32"], FIRST, 1, b"", "am_tool: TooLarge\n"),
    (FOLD + ["--most-bytes", "66"], FIRST + SECOND, 0, SECOND, ""),
    (FOLD + ["--most-bytes", "0"], FIRST, 2, b"", BAD_MOST_BYTES.format(0)),
    (FOLD + ["--most-bytes", "4294967296"], FIRST, 2, b"", BAD_MOST_BYTES.format(4294967296)),
    (FOLD + ["--most-bytes", "+33"], FIRST, 2, b"", SIGNED),
    (
        ["fold", "--stat", "sil", "--now", "0"],
        b"",
        2,
        b"",
        UNEXPECTED.format("--stat") + "\n  tip: a similar argument exists: '--state'\n" + FOLD_USAGE.replace("[OPTIONS] ", ""),
    ),
    (["--now", "0"], b"", 2, b"", UNEXPECTED.format("--now") + USAGE),
    (["--version"], b"", 0, b"am_tool 0.2.0\n", ""),
    (["-V"], b"", 0, b"am_tool 0.2.0\n", ""),
    (["fold", "--version"], b"", 2, b"", UNEXPECTED.format("--version") + AS_VALUE.format("--version") + FOLD_USAGE),
    (["unfold"], b"", 2, b"", UNKNOWN.format("unfold") + "\n  tip: a similar subcommand exists: 'fold'\n" + USAGE),
    (["replay", "extra"], b"", 2, b"", UNEXPECTED.format("extra") + REPLAY_USAGE),
    (["replay", "--now", "0"], b"", 2, b"", UNEXPECTED.format("--now") + REPLAY_USAGE),
    (["replays"], b"", 2, b"", UNKNOWN.format("replays") + "\n  tip: a similar subcommand exists: 'replay'\n" + USAGE),
    ([""], b"", 2, b"", UNKNOWN.format("") + USAGE),
    # views
    (SHOW + ["50000000000"], SECOND, 0, b"sil a active\n", ""),
    (SHOW + ["200000000000"], SECOND, 0, b"", ""),
    (SHOW_LOG + ["50000000000"], ENTRY, 0, b"nfl g r w 0 1,2 -\n", ""),
    (SHOW + ["9999999999"], SECOND, 0, b"sil a pending\n", ""),
    (SHOW + ["1970-01-01T00:00:50Z"], SECOND, 0, b"sil a active\n", ""),
    (SHOW + ["1970-01-01T01:01:39.999999999+01:00"], SECOND, 0, b"sil a active\n", ""),
    (SHOW + ["1970-01-01T00:01:40Z"], SECOND, 0, b"sil a expired\n", ""),
    (["show", "--state", "sil"], SECOND, 0, b"", ""),
    (["show", "--state", "nfl", "--json"], ENTRY, 0, b"[]\n", ""),
    (SHOW + ["10000000000"], SECOND, 0, b"sil a active\n", ""),
    (SHOW + ["20000000000"], SECOND, 0, b"sil a active\n", ""),
    (SHOW + ["99999999999"], SECOND, 0, b"sil a active\n", ""),
    (SHOW + ["100000000000"], SECOND, 0, b"sil a expired\n", ""),
    (SHOW + ["199999999999"], SECOND, 0, b"sil a expired\n", ""),
    (["show", "--now=50000000000", "--state=sil"], TWO_KEYS, 0, b"sil a active\nsil b active\n", ""),
    (SHOW + ["50000000000"], b"", 0, b"", ""),
    (SHOW + ["50000000000"], SECOND.replace(b"\x01a", b"\x01 "), 0, b"sil %20 active\n", ""),
    (SHOW + ["50000000000"], SECOND.replace(b"\x01a", b"\x01-"), 0, b"sil %2D active\n", ""),
    (SHOW + ["0"], FIRST + SECOND, 1, b"", "am_tool: DuplicateKey\n"),
    (SHOW + ["0"], SECOND + FIRST[:-1], 1, b"", "am_tool: Wire Truncated 33\n"),
    (SHOW_LOG + ["0"], SECOND, 1, b"", "am_tool: Wire WrongType 13\n"),
    (["show", "--help"], b"", 0, SHOW_HELP.encode(), ""),
    (["help", "show"], b"", 0, SHOW_HELP.encode(), ""),
    (["diff", "--help"], b"", 0, DIFF_HELP.encode(), ""),
    (["help", "diff"], b"", 0, DIFF_HELP.encode(), ""),
    (["pull", "--help"], b"", 0, PULL_HELP.encode(), ""),
    (["push", "--help"], b"", 0, PUSH_HELP.encode(), ""),
    (["show"], b"", 2, b"", MISSING.replace(FOLD_WANTS, SHOW_USAGE.replace("[OPTIONS] ", "")).format("  --state <STATE>\n")),
    (SHOW + ["0", "extra"], b"", 3, b"", "am_tool: extra File NotFound\n"),
    (SHOW + ["0", "-", "extra"], b"", 2, b"", UNEXPECTED.format("extra") + SHOW_USAGE),
    (SHOW + ["+5"], SECOND, 2, b"", BAD_NOW.replace(FOLD_USAGE, SHOW_USAGE)),
    # sources that were meant for servers, and mistakes that show the usage of their command
    (
        ["diff", "--stat", "sil", "a", "b"],
        b"",
        2,
        b"",
        UNEXPECTED.format("--stat") + "\n  tip: a similar argument exists: '--state'\n" + DIFF_USAGE.replace("[OPTIONS] ", ""),
    ),
    (["diff", "--state", "sil", "--now", "x", "a", "b"], b"", 2, b"", BAD_NOW.replace(FOLD_USAGE, DIFF_USAGE)),
    (["diff", "--state", "sil", "a"], b"", 2, b"", BAD_SOURCES.format("2 to 16 sources are wanted")),
    (
        ["diff", "--state", "sil", "a=https://am.example/", "b"],
        b"",
        2,
        b"",
        BAD_SOURCES.format("no server is asked by HTTPS: a proxy before it is named, as http://HOST:PORT"),
    ),
    (
        ["diff", "--state", "sil", "localhost:9093", "b"],
        b"",
        2,
        b"",
        BAD_SOURCES.format("HOST:PORT is no source: a server is http://HOST:PORT, a replica asked by its gossip gossip://HOST:PORT, and a file of that name ./HOST:PORT"),
    ),
    (
        ["diff", "--state", "sil", "a", "b=http://am.example:9093"],
        b"",
        2,
        b"",
        BAD_SOURCES.format("http://HOST:PORT is wanted, with an address or localhost as HOST, perhaps with a path"),
    ),
    # members, whose other words tests/three_members.py tries
    (["instance", "--help"], b"", 0, INSTANCE_HELP.encode(), ""),
    (["help", "instance"], b"", 0, INSTANCE_HELP.encode(), ""),
    (
        ["instance"],
        b"",
        2,
        b"",
        MISSING.replace(FOLD_WANTS, INSTANCE_USAGE).format(
            "  --name <NAME>\n  --listen <ADDRESS:PORT>\n  --sil <FILE>\n  --nfl <FILE>\n"
        ),
    ),
    # words that are not UTF-8
    ([b"\xff"], b"", 2, b"", NOT_UTF8),
    (["fold", "--state", b"sil\xc3", "--now", "0"], FIRST, 2, b"", NOT_UTF8),
    # faults of the input, of which nothing is written
    (FOLD, SECOND + FIRST[:-1], 1, b"", "am_tool: Wire Truncated 33\n"),
    (FOLD, FIRST[:2], 1, b"", "am_tool: Wire Truncated 0\n"),
    (FOLD, FIRST[:2] + b"\x1a" + FIRST[3:], 1, b"", "am_tool: Wire Truncated 28\n"),
    (FOLD, bytes.fromhex("020000"), 1, b"", "am_tool: Wire FieldNumber 1\n"),
    (FOLD, bytes.fromhex("020b00"), 1, b"", "am_tool: Wire WireType 1\n"),
    (FOLD, bytes.fromhex("020800"), 1, b"", "am_tool: Wire WrongType 1\n"),
    (FOLD, bytes.fromhex("00"), 1, b"", "am_tool: Wire MissingMessage 1\n"),
    (FOLD, bytes.fromhex("0b0a001207088083d1ffaf07"), 1, b"", "am_tool: Wire Timestamp 3\n"),
    (FOLD, bytes.fromhex("8080802000000000"), 1, b"", "am_tool: Wire Truncated 0\n"),
    (FOLD, bytes.fromhex("81808020"), 1, b"", "am_tool: Wire TooLarge\n"),
]

# How many bytes a file takes.
CUT = 40


def test_words(_folder):
    for words, given, status, output, error in CASES:
        compare(f"am_tool {words}", run(words, input=given), (status, output, error))


def closing(number):
    return {"preexec_fn": lambda: os.close(number)}


# A server and a replica that aren't there.
UNSERVED = f"http://127.0.0.1:{free_ports(1)[0]}"
ABSENT = f"gossip://127.0.0.1:{free_ports(1)[0]}"

# A member that doesn't begin, since its first file is none.
MEMBER = ["instance", "--name", "m", "--listen", "1", "--sil", "/dev/null", "--nfl", "nowhere/n"]

# Words and standard input; the status, the line of a fault, and what a person is told behind it.
FAULTS = [
    ([], b"", 1, "Schedule Cluster 1", "the cluster's line is missing, wrong, or a second one"),
    (["replay"], b"cluster 1 1 a\nat 5 a tock\n", 1, "Schedule Words 2", "the line's verb is unknown, or has another number of words"),
    (["replay", "--picture", "nowhere/p"], ORDERS, 3, "Picture File NotFound", "there is no such file or directory"),
    (FOLD, bytes.fromhex("200a"), 1, "Wire Truncated 0", "the input ends in what begins at this byte"),
    (FOLD, SECOND + FIRST[:-1], 1, "Wire Truncated 33", "the input ends in what begins at this byte"),
    (FOLD + ["nowhere"], b"", 3, "nowhere File NotFound", "there is no such file or directory"),
    (SHOW + ["0"], FIRST + SECOND, 1, "DuplicateKey", "a key comes twice; fold keeps of each key the version that counts"),
    (
        SHOW_LOG + ["0"],
        SECOND,
        1,
        "Wire WrongType 13",
        "the field at this byte has another type than its number; is this the other state? (--state, --sil, --nfl)",
    ),
    (["diff", "--state", "sil", "a=nowhere", "b=-"], b"", 3, "a File NotFound", "there is no such file or directory"),
    (["diff", "--state", "sil", "a=-", "b=/dev/null"], FIRST[:9], 1, "a Wire Truncated 0", "the input ends in what begins at this byte"),
    (
        ["diff", "--state", "sil", f"a={UNSERVED}", "b=/dev/null"],
        b"",
        3,
        "a Connect ConnectionRefused",
        "nothing listens there",
    ),
    (["pull", "--state", "sil", ABSENT], b"", 3, f"{ABSENT} Connect ConnectionRefused", "nothing listens there"),
    (["push", "--state", "sil", ABSENT], b"", 3, f"{ABSENT} Connect ConnectionRefused", "nothing listens there"),
    (["push", "--state", "sil", ABSENT], FIRST[:9], 1, "Wire Truncated 0", "the input ends in what begins at this byte"),
    (
        [*MEMBER, "--peer", "b"],
        b"",
        2,
        "Peer",
        "a peer is NAME=ADDRESS:PORT, or NAME=PORT on 127.0.0.1, with a port from 1 to 65535",
    ),
    ([*MEMBER, "--peer", "m=2"], b"", 2, "SameName", "two members have one name"),
    ([*MEMBER, "--secret", "nowhere/k"], b"", 3, "Secret File NotFound", "there is no such file or directory"),
    (
        MEMBER,
        b"",
        3,
        "Silences NotAFile",
        "a directory, a pipe, a socket or a device stands in the file's place",
    ),
]

# Versions that are updated in 2001.
LATER = row("sil", "x job=db 1000000000..1000000100 updated 1000000000 expires 1000000200")
LATER_ENTRY = row("nfl", "g r/w/0 updated 1000000000 expires 1000000200 firing 1")
PENDING = b"pending 2001-09-09T01:46:40.000Z 2001-09-09T01:48:20.000Z\n"

DIFF = ["diff", "--state", "sil", "a=-", "b=/dev/null", "--now"]

# The first sample with the fields 10 and 11 in its silence, and 8 beside it; and what a person is told who folds it.
OF_LATER = bytes.fromhex("29 0a1f 0a0161 1208 12036a6f62 1a0178 1a02080a 22020864 2a02080a 520170 588100 120308c801 420171")
LOSES = "am_tool: warning: {} fields that are not known here: {} (--keep-unknown keeps them)\n"

# The same sample with the field 9 in its matcher, 12 in its start and its expiry, and an old comment with the field 4 whose moment
# has 3: these are dropped by all. An entry with the field 9 in its receiver.
OF_PARTS = (
    field(1, b"a")
    + field(2, field(2, b"job") + field(3, b"x") + number(9, 1))
    + field(3, number(1, 10) + number(12, 1))
    + field(4, number(1, 100))
    + field(5, number(1, 10))
    + field(7, field(1, b"o") + field(2, b"hi") + field(3, number(1, 5) + number(3, 1)) + number(4, 1))
)
UP_TO = field(2, number(1, 200) + field(12, b"x"))
PARTS = delimited(field(1, OF_PARTS) + UP_TO)
PARTS_TOO = delimited(field(1, OF_PARTS + number(10, 1)) + UP_TO)
RECEIVER = field(2, field(1, b"r") + field(2, b"w"))
OF_RECEIVER = [it for _, it in fields_of(entry("g r/w/0 updated 10 expires 200 firing 1"))]
assert OF_RECEIVER[0].count(RECEIVER) == 1
OF_RECEIVER[0] = OF_RECEIVER[0].replace(RECEIVER, field(2, field(1, b"r") + field(2, b"w") + number(9, 1)))
OF_RECEIVER = delimited(field(1, OF_RECEIVER[0]) + field(2, OF_RECEIVER[1]))
LOSE = "am_tool: warning: {} smaller {} fields that are not known here: {}\n"
FIVE = LOSE.format(5, "messages lose", "3, 4, 9, 12")

# Words and standard input of commands that are done; the status, standard output, and what a person is told.
WARNINGS = [
    (SHOW + ["10000000000"], SECOND, 0, b"sil a active\n", EARLY.format("1970-01-01T00:00:10.000Z")),
    (SHOW + ["20000000000"], SECOND, 0, b"sil a active\n", ""),
    (SHOW + ["1999-12-31T23:59:59.999999999Z"], LATER, 0, b"sil x pending\n", EARLY.format("1999-12-31T23:59:59.999Z")),
    (SHOW + ["2000-01-01T00:00:00Z"], LATER, 0, b"sil x pending\n", ""),
    (SHOW_LOG + ["0"], LATER_ENTRY, 0, b"nfl g r w 0 1 -\n", EARLY.format("1970-01-01T00:00:00.000Z")),
    (["show", "--state", "sil"], LATER, 0, b"", ""),
    (DIFF + ["1"], LATER, 5, b"sil x greatest a " + PENDING + b"sil x missing b\n", EARLY.format("1970-01-01T00:00:00.000Z")),
    (DIFF + ["2000-01-01T00:00:00Z"], LATER, 5, b"sil x greatest a " + PENDING + b"sil x missing b\n", ""),
    (["diff", "--state", "sil", "--json", "--now", "1", "-", "b=/dev/null"], b"", 0, b"[]\n", ""),
    (FOLD, FIRST + SECOND, 0, SECOND, ""),
    (FOLD, OF_LATER + SECOND, 0, SECOND, LOSES.format("1 message loses", "8, 10, 11")),
    (FOLD, OF_LATER + OF_LATER + SECOND, 0, SECOND, LOSES.format("2 messages lose", "8, 10, 11")),
    (FOLD + ["--keep-unknown"], OF_LATER, 0, OF_LATER, ""),
    (FOLD, PARTS + SECOND, 0, SECOND, FIVE),
    (FOLD, PARTS + PARTS_TOO + SECOND, 0, SECOND, LOSES.format("1 message loses", "10") + LOSE.format(10, "messages lose", "3, 4, 9, 12")),
    (FOLD + ["--keep-unknown"], PARTS_TOO + SECOND, 0, SECOND, FIVE),
    (["fold", "--state", "nfl", "--now", "0"], OF_RECEIVER, 0, row("nfl", "g r/w/0 updated 10 expires 200 firing 1"), LOSE.format(1, "message loses", "9")),
    (SHOW + ["20000000000"], OF_LATER, 0, b"sil a active\n", LOSES.format("1 message loses", "8, 10, 11")),
    (SHOW + ["20000000000", "--keep-unknown"], OF_LATER, 0, b"sil a active\n", ""),
    (SHOW + ["20000000000", "--keep-unknown"], PARTS_TOO, 0, b"sil a active\n", FIVE),
    (DIFF + ["1"], PARTS + SECOND, 5, b"sil a greatest a pending 1970-01-01T00:00:20.000Z 1970-01-01T00:01:40.000Z\nsil a missing b\n", FIVE + EARLY.format("1970-01-01T00:00:00.000Z")),
    ([], ORDERS, 0, ORDERS_OUTPUT, ""),
]


def test_terminal(_folder):
    """A fault is told by its line alone, and to a person at a terminal with what it means. A warning is for people."""
    for words, given, status, line, meaning in FAULTS:
        told = f"am_tool {words}"
        compare(f"{told}: the whole line", run(words, input=given), (status, b"", f"am_tool: {line}\n"))
        compare(f"{told}: at a terminal", run_at_terminal(words, input=given), (status, b"", f"am_tool: {line}: {meaning}\n"))
    for words, given, status, output, warning in WARNINGS:
        told = f"am_tool {words}"
        compare(f"{told}: all is well", run(words, input=given), (status, output, ""))
        compare(f"{told}: well at a terminal", run_at_terminal(words, input=given), (status, output, warning))


# Versions that are the same but for fields of a later release, and by what the second is behind the first.
PLAIN = silence("x job=x 10..100 updated 10 expires 200 by me saying c")
LOGGED = entry("g r/w/0 updated 10 expires 200 firing 1")
MANY = b"".join(number(it, 1) for it in range(10, 27))
UNKNOWN = [
    (PLAIN, (number(10, 1) + field(11, b"v"), b""), (b"", b""), "fields 10,11"),
    (PLAIN, (number(10, 2) + field(11, b"v"), b""), (number(10, 1) + field(11, b"v"), b""), "fields 10"),
    # in the order of the numbers, and not of the fields; inside the silence and beside it
    (PLAIN, (field(11, b"v") + number(6, 1), field(8, b"z")), (b"", b""), "fields 6,8,11"),
    (PLAIN, (field(11, b"v"), field(11, b"z")), (field(11, b"v"), field(11, b"y")), "fields 11"),
    # the fields of a number stand for their bytes, one behind the other
    (PLAIN, (number(10, 2) + number(10, 1), b""), (number(10, 1) + number(10, 2), b""), "fields 10"),
    (PLAIN, (number(12, 1) + number(10, 1), b""), (number(10, 1) + number(12, 1), b""), "bytes"),
    # at most 16 are named
    (PLAIN, (MANY[:-3], b""), (b"", b""), "fields 10,11,12,13,14,15,16,17,18,19,20,21,22,23,24,25"),
    (PLAIN, (MANY, b""), (b"", b""), "fields 10,11,12,13,14,15,16,17,18,19,20,21,22,23,24,25,.."),
    (LOGGED, (field(10, b"v"), b""), (b"", b""), "fields 10"),
    (LOGGED, (field(10, b"v"), field(9, b"v")), (field(10, b"v"), b""), "fields 9"),
]


def test_unknown_fields(folder):
    """diff names the fields that aren't known here, where two versions differ by them alone."""
    for version, first, second, wanted in UNKNOWN:
        for name, (inner, outer) in (("a", first), ("b", second)):
            with open(f"{folder}/{name}", "wb") as file:
                file.write(delimited(of_later(version, inner, outer)))
        state = "sil" if version == PLAIN else "nfl"
        words = ["diff", "--state", state, "--now", "50000000000", f"a={folder}/a", f"b={folder}/b"]
        status, output, error = run(words)
        told = output.decode().partition(" behind b ")[2]
        compare(f"{wanted}: the second is behind", (status, told, error), (5, f"{told_of(version, wanted)}\n", ""))
        _, output, _ = run([*words, "--json"])
        compare(f"{wanted}: in JSON", re.findall(r'"by":"(.*?)"', output.decode()), [wanted])
        _, output, _ = run([*words, "--long"])
        changed = [it for it in output.decode().splitlines() if it.startswith("  changed")]
        compare(f"{wanted}: in long lines", changed, [] if wanted == "bytes" else [f"  changed {wanted}"])


def told_of(version, wanted):
    """What stands behind the names of the sources on a line."""
    if version == PLAIN:
        return f"active 1970-01-01T00:00:10.000Z 1970-01-01T00:01:40.000Z by {wanted}"
    return f"1970-01-01T00:00:10.000Z 1970-01-01T00:03:20.000Z 1 - by {wanted}"


def test_flipped_bits(_folder):
    """Whatever bit of a row is flipped, and wherever it is cut, all that stands on standard error is the line of its fault."""
    for state, whole in [("sil", FIRST), ("sil", COMMENTED), ("nfl", ENTRY), ("nfl", UNPACKED)]:
        flipped = [bytes([*whole[:at], whole[at] ^ 1 << bit, *whole[at + 1 :]]) for at in range(len(whole)) for bit in range(8)]
        for given in [*flipped, *(whole[:length] for length in range(len(whole) + 1))]:
            line = fault_of(state, given)
            wanted = (1, f"am_tool: Wire {line}\n") if line else (0, "")
            status, _, error = run(["fold", "--state", state, "--now", "0"], input=given)
            compare(f"fold of {given.hex(' ')} of {state}", (status, error), wanted)


def test_streams(_folder):
    """Standard streams that can't be read or written."""
    row = {"input": FIRST + SECOND}
    stopped = "am_tool: Write 0\n"
    with open("/dev/full", "wb") as full:
        on_full = {"stdout": full}
        compare("a full disk", run(FOLD, **row, **on_full), (3, None, stopped))
        compare("nothing to write on a full disk", run(FOLD, **on_full), (0, None, ""))
        compare("a view on a full disk", run(SHOW + ["50000000000"], input=SECOND, **on_full), (3, None, stopped))
        compare("a schedule on a full disk", run(["replay"], input=ORDERS, **on_full), (3, None, stopped))
        compare("help on a full disk", run(["--help"], **on_full), (3, None, stopped))
        compare("a mistake told on a full disk", run(["fold"], stderr=full), (2, b"", None))
        compare("a fault told on a full disk", run(FOLD, input=FIRST[:9], stderr=full), (1, b"", None))
    compare("a closed output", run(FOLD, **row, **closing(1)), (3, b"", stopped))
    compare("help on a closed output", run(["--help"], **closing(1)), (3, b"", stopped))
    compare("a closed input", run(FOLD, **closing(0)), (3, b"", "am_tool: Read 0\n"))
    compare("a schedule of a closed input", run([], **closing(0)), (3, b"", "am_tool: Read 0\n"))
    compare("a view of a closed input", run(SHOW + ["0"], **closing(0)), (3, b"", "am_tool: Read 0\n"))
    directory = os.open("/", os.O_RDONLY)
    compare("a directory as input", run(FOLD, stdin=directory), (3, b"", "am_tool: Read 0\n"))
    os.close(directory)
    reader, writer = os.pipe()
    os.close(reader)
    compare("an output that nobody reads", run(FOLD, **row, stdout=writer), (3, None, stopped))
    os.close(writer)


def test_most_bytes(_folder):
    """Inputs and results of over 64 MiB."""
    large = row("sil", ", ".join(f"k{it:02} job=x 10..100 updated 10 expires 200 by me saying {(1 << 20) * 'c'}" for it in range(65)))
    compare("an input of 65 MiB", run(FOLD, input=large), (1, b"", "am_tool: TooLarge\n"))
    found = run(FOLD + ["--most-bytes", "70000000"], input=large)
    check("which is let in", found == (0, large, ""), found[0])


def test_cut_output(_folder):
    """A file that takes no more than so many bytes: exactly these went out."""

    def limit():
        signal.signal(signal.SIGXFSZ, signal.SIG_IGN)
        resource.setrlimit(resource.RLIMIT_FSIZE, (CUT, CUT))

    with tempfile.TemporaryFile() as file:
        how = {"input": TWO_KEYS, "stdout": file, "preexec_fn": limit, "restore_signals": False}
        compare("an output that is cut", run(FOLD, **how), (3, None, f"am_tool: Write {CUT}\n"))
        file.seek(0)
        compare("the bytes before the cut", file.read(), TWO_KEYS[:CUT])
    with tempfile.TemporaryFile() as file:
        how = {"input": ORDERS, "stdout": file, "preexec_fn": limit, "restore_signals": False}
        compare("a replay that is cut", run(["replay"], **how), (3, None, f"am_tool: Write {CUT}\n"))
        file.seek(0)
        compare("its bytes before the cut", file.read(), ORDERS_OUTPUT[:CUT])


def test_long_replay(_folder):
    """A schedule whose output has over a hundred lines, each of which is another one."""
    keys = [f"k{number:02}" for number in range(40)]
    # (of each second silence the end comes later)
    lines = ["cluster 100 15 a b"]
    lines += [f"sil {key} {key} 10 10 {50 + 40 * (place % 2)} 200 job m" for place, key in enumerate(keys)]
    lines += [f"at 11 a from b {' '.join(keys[:20])}", f"at 12 a from b {' '.join(keys[20:])}", f"at 13 b from a {' '.join(keys)}"]
    lines += ["at 20 a show", "at 60 a show", "at 120 b show"]
    active, expired, states = "active", "expired", ("expired", "active")
    wanted = ["a shows 40 0", *(f"a sil {key} {active}" for key in keys)]
    wanted += ["a shows 40 0", *(f"a sil {key} {states[place % 2]}" for place, key in enumerate(keys))]
    wanted += ["b shows 40 0", *(f"b sil {key} {expired}" for key in keys), "calm a", "calm b"]
    ended = lambda of: "".join(f"{it}\n" for it in of).encode()
    compare("a long replay", run(["replay"], input=ended(lines)), (0, ended(wanted), ""))


# So many settles of 16 members take over a second.
LONG = 100_000


def test_progress(_folder):
    """How far a long schedule is played is shown on a terminal, and taken away in the end; elsewhere nothing is."""
    names = "abcdefghijklmnop"
    schedule = {"input": f"cluster 1 1 {' '.join(names)}\n".encode() + b"at 1 settle\n" * LONG}
    output = b"settled\n" * LONG + "".join(f"calm {name}\n" for name in names).encode()
    compare("a long schedule", run([], **schedule), (0, output, ""))
    *ran, shown = run_at_terminal([], **schedule)
    compare("a long schedule at a terminal", ran, [0, output])
    lines = re.fullmatch(rf"(\ram_tool: \d+ of {LONG} lines played)+\r\x1b\[K", shown)
    compare(f"what is shown of it, {shown!r}", lines is not None, True)


# How many bytes the program may take: page by page at first, and then by more.
LIMITS = [*range(0, 1 << 20, 1 << 12), *range(1 << 20, 1 << 26, 1 << 16)]

# The statuses at the lowest limits, where the program doesn't start: its loader ends it, or the system kills it.
NOT_STARTED = [127, *range(-signal.NSIG, 0)]


def outcomes_under_limits(words, **how):
    """What comes of the words as the memory that the program may take rises, until it is enough.

    The limit is on data. One on the whole address space would be met by the stack too, which the kernel has to
    refuse by killing the program. Once the program has started it has to at each higher limit.
    """
    found = []
    for limit in LIMITS:
        ran = run(words, preexec_fn=lambda: resource.setrlimit(resource.RLIMIT_DATA, (limit, limit)), **how)
        if not found and ran[0] in NOT_STARTED:
            continue
        if ran not in found:
            found.append(ran)
        if ran[0] != 4:
            break
    return found


def test_memory(_folder):
    """Wherever memory is refused, the program says so and nothing else."""
    refused = (4, b"", "am_tool: Memory\n")
    compare("refused memory", outcomes_under_limits(FOLD, input=FIRST), [refused, (0, FIRST, "")])
    view = outcomes_under_limits(SHOW + ["50000000000"], input=SECOND)
    compare("refused memory for a view", view, [refused, (0, b"sil a active\n", "")])
    replayed = outcomes_under_limits(["replay"], input=RESTARTED)
    compare("enough memory for a schedule", replayed[-1:], [(0, RESTARTED_OUTPUT, "")])
    lines = range(RESTARTED.count(b"\n") + 1)
    wants = {(4, b"", "am_tool: Memory\n"), *((4, b"", f"am_tool: Memory {line}\n") for line in lines)}
    compare("refused memory for a schedule", [told for told in replayed[:-1] if told not in wants], [])
    many = ["replay"] + ["x"] * 20_000
    mistake = (2, b"", UNEXPECTED.format("x") + REPLAY_USAGE)
    compare("refused memory among many words", outcomes_under_limits(many), [refused, mistake])


def main():
    choose("command line", sys.argv[1:])
    with tempfile.TemporaryDirectory() as folder:
        try_each(TESTS, folder)
    finish("command line")


TESTS = [
    test_words, test_terminal, test_unknown_fields, test_flipped_bits, test_streams, test_most_bytes, test_cut_output, test_long_replay,
    test_progress, test_memory,
]  # fmt: skip


if __name__ == "__main__":
    main()
